/* What the sheet of the ATmega328P answers, asked from inside the AVR. Each answer goes out by its number; asks.txt has what the sheet says. */
#include <avr/interrupt.h>
#include <avr/io.h>
#include <avr/sleep.h>

static volatile uint8_t overflowed, woken;
ISR(TIMER0_OVF_vect) { overflowed++; }
ISR(PCINT2_vect) { woken++; }

static void say(uint8_t which, uint16_t number)
{
	uint8_t s = SREG;
	cli();
	GPIOR1 = number;
	GPIOR2 = number >> 8;
	GPIOR0 = which;
	SREG = s;
}

#define wait(cycles) __builtin_avr_delay_cycles(cycles)

/* All three timers stopped, in normal mode, with no flag up. */
static void fresh(void)
{
	TIMSK0 = TIMSK1 = TIMSK2 = 0;
	TCCR0B = TCCR1B = TCCR2B = 0;
	TCCR0A = TCCR1A = TCCR2A = 0;
	TCNT0 = TCNT2 = 0;
	TCNT1 = 0;
	OCR0A = OCR0B = OCR2A = OCR2B = 0xff;
	OCR1A = OCR1B = 0xffff;
	TIFR0 = TIFR1 = TIFR2 = 0xff;
}

static void registers(void)
{
	OCR1AH = 0xab;
	TCNT1L = 0x01;
	say(1, TCNT1);

	fresh();
	TCCR1B = 0xff;
	say(2, TCCR1B & ~7);
	TCCR1C = 0xc0;
	say(3, TCCR1C);
}

static void outputs(void)
{
	fresh();
	DDRD |= _BV(PD6);
	TCCR0A = _BV(COM0A0);
	TCCR0B = _BV(FOC0A);
	wait(4);
	uint8_t once = PIND >> PD6 & 1;
	TCCR0B = _BV(FOC0A);
	wait(4);
	say(4, once << 1 | (PIND >> PD6 & 1));
	say(5, TIFR0);
	TCCR0A = _BV(COM0A1) | _BV(COM0A0) | _BV(WGM01) | _BV(WGM00);
	TCCR0B = _BV(FOC0A);
	wait(4);
	say(6, PIND >> PD6 & 1);

	fresh();
	TCCR0A = _BV(COM0A0) | _BV(WGM01);
	OCR0A = 99;
	uint8_t before = PIND >> PD6 & 1;
	TCCR0B = _BV(CS00);
	wait(150);
	say(7, before ^ (PIND >> PD6 & 1));
	say(8, TIFR0 & 1);
	while (!(PIND & _BV(PD6))) ;
	PORTD |= _BV(PD0);
	say(9, PORTD);

	fresh();
	TCCR0A = _BV(WGM01) | _BV(WGM00);
	OCR0A = 200;
	TCCR0B = _BV(CS00);
	wait(300);                      /* past a TOP, so 200 is at work */
	OCR0A = 120;
	TIFR0 = 0xff;
	wait(100);                      /* past 120, not yet 200 */
	say(10, TIFR0 >> OCF0A & 1);
}

static void tops(void)
{
	fresh();
	ICR1 = 99;
	TCCR1A = _BV(WGM11);
	TCCR1B = _BV(WGM13) | _BV(WGM12) | _BV(CS10);
	wait(150);
	say(11, TIFR1 & 0x27);
}

static void prescaler(void)
{
	fresh();
	TCCR0B = _BV(CS02) | _BV(CS00);
	for (uint8_t i = 0; i < 20; i++) {
		GTCCR = _BV(PSRSYNC);
		wait(500);
	}
	say(12, TCNT0);

	fresh();
	GTCCR = _BV(TSM) | _BV(PSRSYNC);
	say(13, GTCCR);
	TCCR0B = _BV(CS00);
	wait(100);
	say(14, TCNT0);
	GTCCR = 0;
	wait(100);
	say(15, TCNT0 >= 100);
	GTCCR = _BV(PSRSYNC);
	say(16, GTCCR);

	fresh();
	GTCCR = _BV(TSM) | _BV(PSRASY);
	TCCR2B = _BV(CS21) | _BV(CS20);
	GTCCR = 0;
	wait(330);
	say(17, TCNT2);
}

static void halts(void)
{
	fresh();
	TCCR0B = _BV(CS00);
	PRR = _BV(PRTIM0);
	uint8_t held = TCNT0;
	wait(100);
	held = TCNT0 - held;
	PRR = 0;
	wait(100);
	say(18, held << 8 | (TCNT0 >= 100));

	fresh();
	TCCR0B = _BV(CS01);
	TIMSK0 = _BV(TOIE0);
	overflowed = 0;
	set_sleep_mode(SLEEP_MODE_IDLE);
	sei();
	while (!overflowed) sleep_mode();
	cli();
	say(19, TIFR0 & 1);

	/* The driver presses the button at PD7 now and then. */
	fresh();
	PCICR = _BV(PCIE2);
	PCMSK2 = _BV(PCINT23);
	woken = 0;
	set_sleep_mode(SLEEP_MODE_PWR_DOWN);
	TCCR1B = _BV(CS10);
	sei();
	while (!woken) sleep_mode();
	cli();
	say(20, TCNT1 > 1000);
}

static void edges(void)
{
	fresh();
	DDRD |= _BV(PD4);
	TCCR0B = _BV(CS02) | _BV(CS01) | _BV(CS00);
	for (uint8_t i = 0; i < 3; i++) {
		PORTD |= _BV(PD4);
		wait(8);
		PORTD &= ~_BV(PD4);
		wait(8);
	}
	say(21, TCNT0);

	fresh();
	DDRB |= _BV(PB0);
	TCCR1B = _BV(ICES1) | _BV(CS10);
	wait(1000);
	PORTB |= _BV(PB0);
	wait(8);
	say(22, TIFR1 & 0x20);
	say(23, ICR1 > 1000 && ICR1 < 1100);
}

static void flags(void)
{
	fresh();
	TCCR0B = _BV(CS00);
	wait(300);
	TIFR0 |= _BV(TOV0);             /* an sbi */
	say(24, TIFR0);

	fresh();
	TCCR0B = _BV(CS00);
	wait(300);
	overflowed = 0;
	TCCR0B = 0;
	sei();
	TIMSK0 = _BV(TOIE0);
	wait(20);
	cli();
	say(25, overflowed);
}

int main(void)
{
	registers();
	outputs();
	tops();
	prescaler();
	halts();
	edges();
	flags();
	say(0, 0);
	for (;;) ;
}
