/* Runs an AVR program on simavr's timers or on the proved ones, and says what it sees.
 * usage: run plain|ours FW.elf watch TIMER CYCLES none|beam|button
 *                                                     a reading: the flags of a timer as they rise, CYCLE:FLAGS from its zero on, and the bytes said
 *        run plain|ours FW.elf said                   the numbers that a program says, until it ends
 *        run plain|ours FW.elf door LOG               a door program for one second: whether the beam wakes it from power-down, the
 *                                                     widths of the motor's pulses, and the pin records as a log */
#include <stdio.h>
#include <stdlib.h>
#include <string.h>

#include <simavr/avr_ioport.h>
#include <simavr/sim_cycle_timers.h>
#include <simavr/sim_elf.h>
#include <simavr/sim_io.h>

#include "glue.h"

enum { GPIOR0 = 0x3e, GPIOR1 = 0x4a, GPIOR2 = 0x4b };

static avr_t *avr;
static bool ours;
static void no_wait(avr_t *a, avr_cycle_count_t n) {}
static void no_log(avr_t *a, const int level, const char *f, va_list ap) {}

/* A register as the CPU would read it. */
static uint8_t seen(uint16_t address)
{
	int io = AVR_DATA_TO_IO(address);
	return avr->io[io].r.c ? avr->io[io].r.c(avr, address, avr->io[io].r.param) : avr->data[address];
}

static void level(char port, int bit, int value) { avr_raise_irq(avr_io_getirq(avr, AVR_IOCTL_IOPORT_GETIRQ(port), bit), value); }

struct edge { char port; int bit, value; uint64_t at; };

static avr_cycle_count_t edge(avr_t *a, avr_cycle_count_t when, void *param)
{
	const struct edge *e = param;
	level(e->port, e->bit, e->value);
	return 0;
}

/* Edges of an input, from a cycle on that is no later than the CPU's. */
static void edges(const struct edge *list, int n, uint64_t from)
{
	for (int i = 0; i < n; i++) avr_cycle_timer_register(avr, from + list[i].at - avr->cycle, edge, (void *)(list + i));
}

/* Readings. Their zero is the cycle on which the prescaler is let go. simavr's timers know no GTCCR: theirs is that of the clock select. */
static uint64_t zero;
static const struct edge beam[] = {{'B', 0, 1, 1003}, {'B', 0, 0, 1500}}, button[] = {{'D', 7, 1, 1000}};

static void said_byte(avr_t *a, avr_io_addr_t addr, uint8_t v, void *param) { printf("=%d ", v); }

static void watch(int timer, uint64_t cycles, const char *input)
{
	const struct pm_m328p_timer *t = pm_m328p + timer;
	uint8_t flags = 0, select = 0, held = 0;
	avr_register_io_write(avr, GPIOR0, said_byte, NULL);
	while (!zero || avr->cycle < zero + cycles) {
		uint64_t began = avr->cycle;
		if (avr_run(avr) == cpu_Crashed) { printf("crashed"); break; }
		uint8_t now = avr->data[t->config.tccrb] & 7, tsm = avr->data[PM_M328P_GTCCR] & 0x80;
		if ((now && !select && !(ours && tsm)) || (ours && held && !tsm)) {
			zero = began;
			if (!strcmp(input, "beam")) edges(beam, 2, zero);
			if (!strcmp(input, "button")) edges(button, 1, zero);
		}
		select = now, held = tsm;
		uint8_t tifr = seen(t->tifr), risen = tifr & ~flags;
		flags = tifr;
		if (!zero || !risen) continue;
		printf("%llu:", (unsigned long long)(avr->cycle - zero));
		for (int bit = 0; bit < 6; bit++)
			if (risen >> bit & 1) putchar("TAB??C"[bit]);
		putchar(' ');
	}
	puts("");
}

/* A program that says numbers: which, in GPIOR0, and the number, in GPIOR1 and 2 before it. 0 ends it. */
static bool ended;
static void said_number(avr_t *a, avr_io_addr_t addr, uint8_t v, void *param)
{
	if (v) printf("%d %u\n", v, a->data[GPIOR1] | a->data[GPIOR2] << 8);
	else ended = true;
}

static avr_cycle_count_t press(avr_t *a, avr_cycle_count_t when, void *param)
{
	static int pressed;
	level('D', 7, pressed ^= 1);
	return when + 20000;
}

static void said(void)
{
	avr_cycle_timer_register(avr, 20000, press, NULL);
	avr_register_io_write(avr, GPIOR0, said_number, NULL);
	while (!ended && avr->cycle < 16000000) {
		int state = avr_run(avr);
		if (state == cpu_Done || state == cpu_Crashed) { printf("state %d\n", state); break; }
	}
}

/* The door: the button and the beam, the motor's pulses in ticks of 8 cycles, and every pin record in the order of the cycles. */
static const struct edge day[] = {
	{'D', 7, 1, 1000000}, {'D', 7, 0, 1100000},     /* the button wakes it */
	{'B', 0, 1, 1300000}, {'B', 0, 0, 1320000},     /* the beam while it is open */
	{'B', 0, 1, 6000000}, {'B', 0, 0, 6020000},     /* the beam while it is in power-down */
	{'D', 7, 1, 10000000},
};
static uint64_t up, widths[257];
static uint8_t records[6000][PM_RECORD];
static int held;

static void motor(avr_irq_t *irq, uint32_t value, void *param)
{
	if ((value & 0xff) == irq->value) return;
	if (value & 0xff) up = avr->cycle;
	else if (up) {
		uint64_t w = (avr->cycle - up + 4) / 8;
		widths[w < 256 ? w : 256]++;
	}
}

static void keep(const uint8_t *record)
{
	struct pm_record r = pm_read_record(record);
	if (r.kind != PM_PIN || held == 6000) return;
	int i = held++;
	for (; i && memcmp(records[i - 1], record, 8) > 0; i--) memcpy(records[i], records[i - 1], PM_RECORD);
	memcpy(records[i], record, PM_RECORD);
}

static void door(const char *log)
{
	avr_irq_register_notify(avr_io_getirq(avr, AVR_IOCTL_IOPORT_GETIRQ('D'), 6), motor, NULL);
	paddlemauve_record = keep;
	edges(day, sizeof day / sizeof *day, 0);
	int lamp = 0;
	while (avr->cycle < 16000000) {
		int state = avr_run(avr);
		if (state == cpu_Done || state == cpu_Crashed) { printf("state %d\n", state); break; }
		if (6000000 < avr->cycle && avr->cycle < 6100000) lamp |= avr->data[PM_M328P_PINB + 2] >> 5 & 1;
	}
	printf("%s, widths", lamp ? "wakes" : "sleeps");
	for (int w = 0; w < 257; w++)
		if (widths[w]) printf(" %d", w);
	puts("");
	FILE *f = fopen(log, "wb");
	if (!f || fwrite(records, PM_RECORD, held, f) != (size_t)held || fclose(f)) perror(log), exit(2);
}

int main(int argc, char **argv)
{
	elf_firmware_t f;
	memset(&f, 0, sizeof f);
	avr_global_logger_set(no_log);
	if (argc < 4 || elf_read_firmware(argv[2], &f)) return 2;
	avr = avr_make_mcu_by_name("atmega328p");
	avr_init(avr);
	f.frequency = 16000000;
	avr_load_firmware(avr, &f);
	avr->sleep = no_wait;
	avr->run_cycle_limit = 1;
	ours = !strcmp(argv[1], "ours");
	if (ours) paddlemauve_install(avr);
	if (!strcmp(argv[3], "watch") && argc == 7) watch(atoi(argv[4]), strtoull(argv[5], NULL, 0), argv[6]);
	else if (!strcmp(argv[3], "said")) said();
	else if (!strcmp(argv[3], "door") && argc == 5) door(argv[4]);
	else return 2;
	return 0;
}
