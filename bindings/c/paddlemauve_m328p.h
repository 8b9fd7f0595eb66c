/* The three timers of the ATmega328P, as the presets of crates/script have them, on the 28-pin DIP, and what their configurations lack. */
#ifndef PADDLEMAUVE_M328P_H
#define PADDLEMAUVE_M328P_H

#include "paddlemauve.h"

/* Data addresses that belong to no single timer. GTCCR: TSM 0x80, the prescaler resets of groups 1 and 2. SMCR: the sleep mode in bits 3:1. */
enum { PM_M328P_GTCCR = 0x43, PM_M328P_SMCR = 0x53, PM_M328P_PRR = 0x64, PM_M328P_PINB = 0x23, PM_M328P_PINC = 0x26, PM_M328P_PIND = 0x29 };

/* The data addresses of TIFR and TIMSK, and the vector of each TIFR bit, 0 for none; PRR's bit is the configuration's. */
struct pm_m328p_timer { struct pm_config config; uint16_t tifr, timsk; uint8_t vector[8]; };

static const struct pm_m328p_timer pm_m328p[3] = {
    {{0, false, 0, 0x44, 0x45, 0x45, 0x46,
      {true, 0x47, 2, 0x80, {true, 12}}, {true, 0x48, 4, 0x40, {true, 11}}, {false, 0, 0, 0, {false, 0}}, {false, 0, 0, {false, 0}},
      1, {true, 6}, 0, 1, 0x20, 0},
     0x35, 0x6e, {16, 14, 15, 0, 0, 0, 0, 0}},
    {{1, true, 0, 0x80, 0x81, 0x82, 0x84,
      {true, 0x88, 2, 0x80, {true, 15}}, {true, 0x8a, 4, 0x40, {true, 16}}, {false, 0, 0, 0, {false, 0}}, {true, 0x86, 0x20, {true, 14}},
      1, {true, 11}, 0, 1, 0x08, 0},
     0x36, 0x6f, {13, 11, 12, 0, 0, 10, 0, 0}},
    {{2, false, 0, 0xb0, 0xb1, 0xb1, 0xb2,
      {true, 0xb3, 2, 0x80, {true, 17}}, {true, 0xb4, 4, 0x40, {true, 5}}, {false, 0, 0, 0, {false, 0}}, {false, 0, 0, {false, 0}},
      1, {false, 0}, 1, 2, 0x40, 0x88},
     0x37, 0x70, {9, 7, 8, 0, 0, 0, 0, 0}},
};

/* Where a pin of the package stands: the data address of its port's PIN register (DDR and PORT follow it) and its bit; 0 for a pin of no port. */
struct pm_port { uint16_t address; uint8_t bit; };

static inline struct pm_port pm_m328p_port(uint8_t pin)
{
    struct pm_port port = {0, 0};
    if (2 <= pin && pin <= 6) port.address = PM_M328P_PIND, port.bit = (uint8_t)(pin - 2);
    else if (11 <= pin && pin <= 13) port.address = PM_M328P_PIND, port.bit = (uint8_t)(pin - 6);
    else if (14 <= pin && pin <= 19) port.address = PM_M328P_PINB, port.bit = (uint8_t)(pin - 14);
    else if (9 <= pin && pin <= 10) port.address = PM_M328P_PINB, port.bit = (uint8_t)(pin - 3);
    else if (23 <= pin && pin <= 28) port.address = PM_M328P_PINC, port.bit = (uint8_t)(pin - 23);
    else if (pin == 1) port.address = PM_M328P_PINC, port.bit = 6;
    return port;
}

#endif
