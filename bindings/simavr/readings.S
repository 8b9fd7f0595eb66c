; The readings T1 to T10 as AVR programs, one for each T that -D gives. zero is the cycle from which a reading counts: there the clock is selected,
; or, where it is prescaled, the prescaler let go, which TSM held in reset till then. Every instruction behind it takes a cycle a word, and
; .org fills with nops, so an instruction at `zero + 2 * N` is worked on cycle N.
#define __SFR_OFFSET 0
#include <avr/io.h>

.macro set register, value
	ldi	r16, \value
	sts	\register - 0x20 * (\register < 0x40), r16
.endm

.macro at cycle
	.org	zero + 2 * \cycle
.endm

; The byte of a register, to the driver.
.macro say register
	lds	r16, \register - 0x20 * (\register < 0x40)
	out	GPIOR0, r16
.endm

; The prescaler of Timer0 and 1 is held, and r17 lets it go.
.macro hold
	set	GTCCR, 0x81
	ldi	r17, 0
.endm

	rjmp	main
	.org	20			; PCINT2 wakes the CPU, no more
	reti
main:
#if T == 1
	ldi	r16, 0x01
zero:	out	TCCR0B, r16
#elif T == 2 || T == 3
	set	TCCR0A, 0x02
	set	OCR0A, 124
	set	OCR0B, 200
#if T == 3
	set	TCNT0, 124
#endif
	hold
	set	TCCR0B, 0x03
zero:	out	GTCCR, r17
#if T == 3
	at	70
	say	TCNT0
#else
	at	8100
	set	TIFR0, 0x02
#endif
#elif T == 4
	set	TCCR0A, 0x02
	set	OCR0A, 10
	set	OCR0B, 200
	set	TCNT0, 11
	ldi	r16, 0x01
zero:	out	TCCR0B, r16
#elif T == 5 || T == 7
	set	OCR0A, 100
	set	OCR0B, 255
	set	TCCR0A, 0x01
	ldi	r17, 0x00
	ldi	r16, 0x01
zero:	out	TCCR0B, r16
#if T == 7
	at	298
	in	r16, TCNT0
	out	GPIOR0, r16
	out	TCCR0A, r17
	set	TIFR0, 0x07
	at	320
	say	TCNT0
#else
	at	300
	set	TIFR0, 0x02
#endif
#elif T == 6
	set	OCR0A, 0
	set	OCR0B, 200
	set	TCCR0A, 0x01
	ldi	r16, 0x09
zero:	out	TCCR0B, r16
#elif T == 8
	set	OCR1AH, 0x3d
	set	OCR1AL, 0x08
	set	OCR1BH, 0xff
	set	OCR1BL, 0xff
	hold
	set	TCCR1B, 0x0d
zero:	out	GTCCR, r17
#elif T == 9
	set	OCR1AH, 0xff
	set	OCR1AL, 0xff
	set	OCR1BH, 0xff
	set	OCR1BL, 0xff
	hold
	set	TCCR1B, 0x42
zero:	out	GTCCR, r17
	at	1100
	say	ICR1L
	set	TIFR1, 0x20
	at	1600
	say	ICR1L
#elif T == 10
	set	OCR0A, 200
	set	OCR0B, 200
	set	PCICR, 0x04
	set	PCMSK2, 0x80
	set	SMCR, 0x05
	sei
	hold
	set	TCCR0B, 0x03
zero:	out	GTCCR, r17
	at	100
	sleep
	say	TCNT0
#endif
nops:	.fill	13000 + 5000 * (T == 2), 2, 0
	jmp	nops
