/* The pins of the proved timers on simavr's ports B and D. */
#ifndef PADDLEMAUVE_WIRES_H
#define PADDLEMAUVE_WIRES_H

#include "glue.h"

/* The ports' registers are hooked; edge hears of T0, T1 and ICP1, by the timer's id and the pin. */
void wires_install(avr_t *avr, void (*edge)(uint8_t id, uint8_t pin, bool level));

/* A timer's pin record. */
void wires_drive(int id, struct pm_record record);

void wires_hook(avr_t *avr, uint16_t addr, avr_io_read_t read, avr_io_write_t write, void *param);

/* What a write of a byte touches: simavr works sbi and cbi as a read and a write of the byte; the chip touches one bit. */
uint8_t wires_ones(avr_t *avr, uint8_t v);

#endif
