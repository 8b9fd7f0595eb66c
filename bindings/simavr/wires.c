/* simavr's ports show what the timers drive, and its irqs tell the timers of edges. For libsimavr 1.6, ATmega328P. */
#include <simavr/avr_ioport.h>
#include <simavr/avr_timer.h>
#include <simavr/sim_io.h>

#include "wires.h"

enum { PINB = PM_M328P_PINB, PORTB = PINB + 2, PIND = PM_M328P_PIND, PORTD = PIND + 2 };

static avr_t *cpu;
static struct channel { struct pm_port port; avr_irq_t *irq; bool enable, value; } channels[3][2];  /* simavr chains irq to the port's pin */
static const struct input { uint8_t id, pin; uint32_t ioctl; int irq; } inputs[3] = {   /* T0, T1, ICP1 */
	{0, 6, AVR_IOCTL_IOPORT_GETIRQ('D'), 4}, {1, 11, AVR_IOCTL_IOPORT_GETIRQ('D'), 5}, {1, 14, AVR_IOCTL_TIMER_GETIRQ('1'), TIMER_IRQ_IN_ICP},
};
static struct { avr_io_write_t write; avr_io_read_t read; } ports[PORTD + 1];   /* simavr's own */
static void (*tell)(uint8_t id, uint8_t pin, bool level);

/* A port's byte as it is on the wires: the channels that drive have their pins, where those are outputs. */
static uint8_t wired(uint16_t pin, uint8_t v)
{
	for (struct channel *c = channels[0]; c < channels[3]; c++) {
		uint8_t mask = 1 << c->port.bit;
		if (c->port.address == pin && c->enable && cpu->data[pin + 1] & mask) v = c->value ? v | mask : v & ~mask;
	}
	return v;
}

void wires_drive(int id, struct pm_record r)
{
	struct channel *c = channels[id] + (r.pin == pm_m328p[id].config.b.wire.pin);
	uint16_t pin = c->port.address;
	uint8_t mask = 1 << c->port.bit;
	c->enable = r.enable, c->value = r.value;
	if (cpu->data[pin + 1] & mask) avr_raise_irq(c->irq, !!(wired(pin, cpu->data[pin + 2]) & mask));
}

uint8_t wires_ones(avr_t *avr, uint8_t v)
{
	unsigned op = avr->flash[avr->pc + 1];
	return op == 0x9a ? 1 << (avr->flash[avr->pc] & 7) : op == 0x98 ? 0 : v;
}

/* A write of PIN, DDR or PORT. simavr puts every output to its PORT bit then: it is shown PORT as wired, and PORT comes back. */
static void write_port(avr_t *avr, avr_io_addr_t addr, uint8_t v, void *param)
{
	uint16_t pin = addr <= PORTB ? PINB : PIND, ddr = pin + 1, port = pin + 2;
	uint8_t kept = addr == pin ? avr->data[port] ^ wires_ones(avr, v) : addr == port ? v : avr->data[port];
	if (addr == ddr) avr->data[ddr] = v;
	avr->data[port] = wired(pin, kept);
	if (addr == ddr) ports[ddr].write(avr, ddr, v, param);
	else ports[port].write(avr, port, avr->data[port], param);
	avr->data[port] = kept;
}

/* simavr reads PORT for an output; the chip reads the wire. */
static uint8_t read_pin(avr_t *avr, avr_io_addr_t addr, void *param)
{
	return wired(addr, ports[addr].read(avr, addr, param));
}

/* An edge of T0, T1 or ICP1, the last from its pin or from simavr's comparator. */
static void edge(avr_irq_t *irq, uint32_t value, void *param)
{
	const struct input *in = param;
	bool level = value & 0xff;
	if (level != !!(irq->value & 0xff)) tell(in->id, in->pin, level);
}

void wires_hook(avr_t *avr, uint16_t addr, avr_io_read_t read, avr_io_write_t write, void *param)
{
	int io = AVR_DATA_TO_IO(addr);
	avr->io[io].r.c = read, avr->io[io].r.param = param;
	avr->io[io].w.c = write, avr->io[io].w.param = param;
}

void wires_install(avr_t *avr, void (*heard)(uint8_t id, uint8_t pin, bool level))
{
	cpu = avr;
	tell = heard;
	for (int a = PINB; a <= PORTD; a++) {
		int io = AVR_DATA_TO_IO(a);
		if (PORTB < a && a < PIND) continue;
		ports[a].write = avr->io[io].w.c, ports[a].read = avr->io[io].r.c;
		wires_hook(avr, a, ports[a].read ? read_pin : NULL, write_port, avr->io[io].w.param);
	}
	for (int i = 0; i < 3; i++) {
		const struct pm_config *c = &pm_m328p[i].config;
		for (int ch = 0; ch < 2; ch++) {
			channels[i][ch].port = pm_m328p_port(ch ? c->b.wire.pin : c->a.wire.pin);
			channels[i][ch].irq = avr_io_getirq(avr, AVR_IOCTL_TIMER_GETIRQ('0' + i), TIMER_IRQ_OUT_COMP + ch);
		}
		avr_irq_register_notify(avr_io_getirq(avr, inputs[i].ioctl, inputs[i].irq), edge, (void *)(inputs + i));
	}
}
