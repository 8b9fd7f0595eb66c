/* The proved timers in place of simavr's Timer0, 1 and 2 of an ATmega328P. */
#ifndef PADDLEMAUVE_SIMAVR_H
#define PADDLEMAUVE_SIMAVR_H

#include <simavr/sim_avr.h>

#include "../c/paddlemauve_m328p.h"

/* After avr_init and after avr->sleep is set; once, for one AVR. */
void paddlemauve_install(avr_t *avr);

/* If set: each record of a timer, as its PM_RECORD bytes. Its cycle is that of the event, not that of the CPU's next instruction. */
extern void (*paddlemauve_record)(const uint8_t *record);

#endif
