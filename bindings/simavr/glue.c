/* simavr asks the proved board: registers by its io[] callbacks, events by one of its cycle timers for each of our timers, flags by its
 * interrupt vectors, sleep by avr->sleep; wires.c has the pins. For libsimavr 1.6, ATmega328P. */
#include <stdio.h>
#include <stdlib.h>
#include <string.h>

#include <simavr/avr_timer.h>
#include <simavr/sim_cycle_timers.h>

#include "wires.h"

enum { ASSR = 0xb6 };

static avr_t *cpu;
static struct pm_board board;
static uint64_t nexts[3] = {PM_NEVER, PM_NEVER, PM_NEVER};        /* the next events' cycles; simavr's cycle timers stand there */
static avr_int_vector_t *vectors[64];                                   /* by number */
static void (*sleep_before)(avr_t *, avr_cycle_count_t);
static bool asleep;
void (*paddlemauve_record)(const uint8_t *record);

#define EACH(i) for (int i = 0; i < 3; i++)

/* A timer's flags rise or fall in simavr. */
static void flags(int i, uint8_t bits, bool rise)
{
	for (int bit = 0; bit < 8; bit++) {
		avr_int_vector_t *v = bits >> bit & 1 ? vectors[pm_m328p[i].vector[bit]] : NULL;
		if (v && rise) avr_raise_interrupt(cpu, v);
		if (v && !rise) avr_clear_interrupt(cpu, v);
	}
}

static void take(int i, const uint8_t *bytes)
{
	struct pm_record r = pm_read_record(bytes);
	if (paddlemauve_record) paddlemauve_record(bytes);
	if (r.kind == PM_PIN) wires_drive(i, r);
	if (r.kind == PM_FLAGS) flags(i, r.flags, true);
}

static avr_cycle_count_t event(avr_t *avr, avr_cycle_count_t when, void *param);

/* simavr's cycle timer goes to a timer's next event. */
static void plan(int i, uint64_t next)
{
	if (next == nexts[i]) return;
	nexts[i] = next;
	if (next == PM_NEVER) avr_cycle_timer_cancel(cpu, event, nexts + i);
	else if (next > cpu->cycle) avr_cycle_timer_register(cpu, next - cpu->cycle, event, nexts + i);
}

/* An order on the CPU's cycle. None may be refused: those that could be come behind `due`. A record may lead to another order, so the events are planned first. */
static uint8_t order(struct pm_ordered o)
{
	uint8_t bytes[3][10 * PM_AREA];
	struct pm_area area[3];
	EACH(i) area[i] = (struct pm_area){bytes[i], sizeof bytes[i]};
	o.cycle = cpu->cycle;
	struct pm_replied r = paddlemauve_board_call(&board, o, area[0], area[1], area[2]);
	if (r.number) {
		fprintf(stderr, "paddlemauve: order %d refused at cycle %llu with %d\n", o.kind, (unsigned long long)o.cycle, r.number);
		abort();
	}
	EACH(i) plan(i, r.timers[i].next);
	EACH(i) for (uint64_t at = 0; at < r.timers[i].written; at += PM_RECORD) take(i, bytes[i] + at);
	return r.value;
}
#define ORDER(...) order((struct pm_ordered){__VA_ARGS__})

/* What is due by the CPU's cycle; before an order, which is refused with 6 otherwise. */
static void due(void)
{
	EACH(i) while (nexts[i] <= cpu->cycle) ORDER(.kind = PM_BOARD_ADVANCE, .id = i);
}
#define ASK(...) (due(), ORDER(__VA_ARGS__))

static avr_cycle_count_t event(avr_t *avr, avr_cycle_count_t when, void *param)
{
	due();
	return 0;
}

static uint8_t read_register(avr_t *avr, avr_io_addr_t addr, void *param)
{
	return ASK(.kind = PM_BOARD_READ, .address = addr);
}

/* A TIFR's flags fall in simavr too; a flag that stands when its mask is set in TIMSK asks at once. */
static void write_register(avr_t *avr, avr_io_addr_t addr, uint8_t v, void *param)
{
	if (addr < 0x40) v = wires_ones(avr, v);
	else avr->data[addr] = v;
	ASK(.kind = PM_BOARD_WRITE, .address = addr, .value = v);
	EACH(i) if (addr == pm_m328p[i].tifr) flags(i, v, false);
	EACH(i) if (addr == pm_m328p[i].timsk) flags(i, v & ORDER(.kind = PM_BOARD_READ, .address = pm_m328p[i].tifr), true);
}

static void write_prr(avr_t *avr, avr_io_addr_t addr, uint8_t v, void *param)
{
	avr->data[addr] = v;
	ASK(.kind = PM_BOARD_REDUCE, .value = v);
}

/* No clock samples an edge in sleep, but in idle. */
static void edge(uint8_t id, uint8_t pin, bool level)
{
	if (!asleep || !(cpu->data[PM_M328P_SMCR] & 0xe)) ASK(.kind = PM_BOARD_EDGE, .id = id, .pin = pin, .value = level);
}

/* Called for each stretch of sleep: the first tells the board. */
static void slept(avr_t *avr, avr_cycle_count_t n)
{
	if (!asleep) ASK(.kind = PM_BOARD_SLEEP, .value = avr->data[PM_M328P_SMCR] >> 1 & 7);
	asleep = true;
	sleep_before(avr, n);
}

/* A vector begins: the CPU is awake, and the flag of a timer's vector falls. */
static void begins(avr_irq_t *irq, uint32_t value, void *param)
{
	if (!value) return;
	if (asleep) ASK(.kind = PM_BOARD_WAKE);
	asleep = false;
	EACH(i) for (int bit = 0; bit < 8; bit++)
		if (pm_m328p[i].vector[bit] == (intptr_t)param) ASK(.kind = PM_BOARD_WRITE, .address = pm_m328p[i].tifr, .value = 1 << bit);
}

/* avr_reset has emptied the data, the vectors and the queue. */
static void reset(avr_io_t *io)
{
	asleep = false;
	EACH(i) {
		ORDER(.kind = PM_BOARD_RESET, .id = i);
		ORDER(.kind = PM_BOARD_WRITE, .address = pm_m328p[i].tifr, .value = 0xff);
		ORDER(.kind = PM_BOARD_WRITE, .address = pm_m328p[i].timsk);
	}
	ORDER(.kind = PM_BOARD_WRITE, .address = PM_M328P_GTCCR);
}

void paddlemauve_install(avr_t *avr)
{
	static avr_io_t module = {.kind = "paddlemauve", .reset = reset};
	struct pm_area none = {NULL, 0};
	if (paddlemauve_board_shape().size != sizeof board || strncmp(avr->mmcu, "atmega328", 9)) abort();
	board = paddlemauve_board();
	cpu = avr;
	sleep_before = avr->sleep;
	avr->sleep = slept;

	/* simavr's own timers: no reset that would connect them again, no ioctl, no capture. */
	for (avr_io_t *io = avr->io_port; io; io = io->next)
		if (!strcmp(io->kind, "timer")) { io->reset = NULL; io->ioctl = NULL; io->irq[TIMER_IRQ_IN_ICP].hook = NULL; }
	wires_hook(avr, ASSR, NULL, NULL, NULL);
	wires_hook(avr, PM_M328P_PRR, NULL, write_prr, NULL);
	for (uint16_t a = 0x20; a < 0x100; a++) {
		struct pm_ordered peek = {.kind = PM_BOARD_PEEK, .address = a};
		if (paddlemauve_board_call(&board, peek, none, none, none).number != PM_NOWHERE) wires_hook(avr, a, read_register, write_register, NULL);
	}
	for (int k = 0; k < avr->interrupts.vector_count; k++) {
		avr_int_vector_t *v = avr->interrupts.vector[k];
		vectors[v->vector] = v;
		avr_irq_register_notify(v->irq + AVR_INT_IRQ_RUNNING, begins, (void *)(intptr_t)v->vector);
	}
	wires_install(avr, edge);
	avr_register_io(avr, &module);
}
