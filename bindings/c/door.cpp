// A door from C++: Timer1 holds it open for three seconds, a contact on ICP1 is captured, and Timer0 drives the motor by PWM.
#include <cassert>
#include <cstdio>
#include <vector>

#include "paddlemauve_m328p.h"

class Timer {
public:
    explicit Timer(const pm_m328p_timer &chip) : begun(paddlemauve_start(chip.config)) { assert(begun.number == 0); }

    // Calls at a cycle; the records are appended to those that were.
    pm_reply call(pm_kind kind, uint64_t cycle, uint16_t address = 0, uint8_t value = 0, uint8_t pin = 0)
    {
        uint8_t bytes[PM_AREA];
        const pm_asked asked = {static_cast<uint8_t>(kind), pin, value, address, cycle};
        const pm_reply reply = paddlemauve_call(&begun.timer, asked, {bytes, sizeof bytes});
        for (uint64_t i = 0; reply.number == 0 && i < reply.written; i += PM_RECORD) records.push_back(pm_read_record(bytes + i));
        return reply;
    }

    pm_shifted shift(uint64_t first, uint64_t second) const { return paddlemauve_shift(begun.timer.state, first, second); }

    std::vector<pm_record> records;

private:
    pm_begun begun;
};

static void hold()
{
    Timer timer(pm_m328p[1]);
    assert(timer.call(PM_WRITE_TIMSK, 0, 0, 0x02).number == 0);
    const uint8_t writes[][2] = {{0x89, 0xb7}, {0x88, 0x1a}, {0x8b, 0xff}, {0x8a, 0xff}, {0x81, 0x4d}};
    for (const auto &w : writes) assert(timer.call(PM_WRITE, 0, w[0], w[1]).number == 0);
    assert(timer.call(PM_EDGE, 16000000, 0, 1, 14).number == 0);
    assert(timer.records.size() == 2);
    const pm_record &captured = timer.records[0];
    assert(captured.kind == PM_FLAGS && captured.cycle == 16000000 && captured.flags == 0x20 && captured.lines == 0);
    assert(timer.records[1].trigger == PM_CAPTURE && timer.records[1].id == 1);

    // A worn contact, a tenth of a second late, would have been captured 1,562 counts on.
    assert(timer.shift(16000000, 17600000).ticks == 1562);
    assert(timer.shift(17600000, 16000000).ticks == -1562);
    assert(timer.shift(16000000, 49553408).number == PM_TOO_FAR_APART);

    // The close, after a read that came too early.
    assert(timer.call(PM_READ, 48000000, 0x84).number == PM_EVENT_DUE);
    assert(timer.call(PM_ADVANCE, 48000000).what == PM_REACHED);
    const pm_record &close = timer.records[2];
    assert(close.kind == PM_FLAGS && close.cycle == 48000000 && close.flags == 0x02 && close.lines == PM_LINE_A);
    assert(timer.call(PM_READ, 48000000, 0x84).value == 0);
    assert(timer.call(PM_READ, 1, 0x84).number == PM_CYCLE_PASSED);
    assert(timer.call(PM_READ, 48000000, 0x44).number == PM_NO_REGISTER);
}

static void motor()
{
    Timer timer(pm_m328p[0]);
    assert(timer.call(PM_WRITE, 0, 0x47, 191).number == 0);
    assert(timer.call(PM_WRITE, 0, 0x44, 0x83).number == 0);
    assert(timer.call(PM_WRITE, 0, 0x45, 0x02).number == 0);
    assert(timer.call(PM_ADVANCE, 2048).what == PM_REACHED);
    std::vector<pm_record> pins;
    for (const auto &r : timer.records)
        if (r.kind == PM_PIN) pins.push_back(r);
    assert(pins.size() == 2 && pins[0].pin == 12 && pins[0].enable && !pins[0].value && pins[0].cycle == 0);
    assert(pins[1].enable && pins[1].value && pins[1].cycle == 2048);
    const pm_port port = pm_m328p_port(pins[0].pin);
    assert(port.address == PM_M328P_PIND && port.bit == 6);
}

int main()
{
    hold();
    motor();
    std::puts("a door from C++");
}
