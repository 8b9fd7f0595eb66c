/* T1 and T2 from C: Timer0 at /1, its next event, and the three records of an advance to it; a list of writes. Then a watchdog's reset. */
#include <assert.h>
#include <stdalign.h>
#include <string.h>
#include <stdio.h>

#include "paddlemauve_m328p.h"

static const uint8_t reset[10] = {0xc0, 0, 0, 0, 0, 3, 0xe8, 0, 0, 2};

int main(void) {
    struct pm_shape shape = paddlemauve_shape();
    assert(shape.size == sizeof(struct pm_timer) && shape.align == alignof(struct pm_timer));

    struct pm_begun begun = paddlemauve_start(pm_m328p[0].config);
    assert(begun.number == 0);

    uint8_t bytes[PM_AREA] = {0};
    struct pm_area area = {bytes, sizeof bytes};
    struct pm_asked start = {.kind = PM_WRITE, .address = 0x45, .value = 1, .cycle = 0};
    assert(paddlemauve_call(&begun.timer, start, area).number == 0);

    struct pm_reply next = paddlemauve_call(&begun.timer, (struct pm_asked){.kind = PM_NEXT, .cycle = 0}, area);
    assert(next.number == 0 && next.what == PM_EVENT_AT && next.value == 1 && next.flags == 6);

    struct pm_distance distance = paddlemauve_distance(begun.timer.state);
    assert(distance.ticks == 1 && distance.flags == 6 && distance.looked == 1);

    struct pm_reply done = paddlemauve_call(&begun.timer, (struct pm_asked){.kind = PM_ADVANCE, .cycle = 1}, area);
    assert(done.number == 0 && done.what == PM_REACHED && done.flags == 1 && done.written == 3 * PM_RECORD && bytes[done.written] == 0);
    struct pm_record flags = pm_read_record(bytes), a = pm_read_record(bytes + PM_RECORD), b = pm_read_record(bytes + 2 * PM_RECORD);
    assert(flags.kind == PM_FLAGS && flags.cycle == 1 && flags.flags == 6 && flags.lines == 0);
    assert(a.kind == PM_TRIGGER && a.cycle == 1 && a.trigger == PM_COMPARE_A && a.id == 0);
    assert(b.kind == PM_TRIGGER && b.cycle == 1 && b.trigger == PM_COMPARE_B && b.id == 0);

    struct pm_timer was = begun.timer;
    assert(paddlemauve_call(&begun.timer, (struct pm_asked){.kind = 18, .cycle = 1}, area).number == PM_NO_CALL);
    assert(begun.timer.state.counter.count == 1 && begun.timer.state.counter.odometer == 1 && begun.timer.state.flags.tifr == 6 && was.state.clock.latest == begun.timer.state.clock.latest);

    /* The calls of a busy bench, on the same timer: every reply tells the next event. */
    next = paddlemauve_next(&begun.timer, 1);
    assert(next.what == PM_EVENT_AT && next.value == 256 && next.next == 256 && next.flags == 1);
    done = paddlemauve_count_low(&begun.timer, 3);
    assert(done.what == PM_BYTE && done.value == 3 && done.next == 256 && done.flags == 1);
    assert(paddlemauve_count_high(&begun.timer, 3).number == PM_NO_REGISTER);
    assert(paddlemauve_tifr(&begun.timer, 3).value == 6);
    assert(paddlemauve_clear(&begun.timer, 2, 3).number == 0 && begun.timer.state.flags.tifr == 4);
    done = paddlemauve_advance(&begun.timer, 256, area);
    assert(done.what == PM_REACHED && done.written == 2 * PM_RECORD && done.next == 257 && done.flags == 6);
    assert(paddlemauve_next(&begun.timer, 257).number == PM_EVENT_DUE);
    struct pm_timer again = paddlemauve_hold(begun.timer.state);
    assert(paddlemauve_tifr(&again, 256).next == 257);

    /* OCR1B, high and low byte, in fast PWM: the compare waits in its buffer, and the next event stands. */
    struct pm_begun wide = paddlemauve_start(pm_m328p[1].config);
    assert(paddlemauve_write(&wide.timer, 0, area, 0x80, 0x03).number == 0 && paddlemauve_write(&wide.timer, 0, area, 0x81, 0x1a).next == 8);
    assert(paddlemauve_write(&wide.timer, 7, area, 0x8b, 0x12).next == 8 && wide.timer.state.registers.temp == 0x12);
    done = paddlemauve_write(&wide.timer, 7, area, 0x8a, 0x34);
    assert(done.number == 0 && done.what == PM_NOTHING && done.next == 8 && wide.timer.state.buffer[1] == 0x1234 && wide.timer.state.ocr[1] == 0);
    assert(paddlemauve_write(&wide.timer, 8, area, 0x8a, 0x34).number == PM_EVENT_DUE && paddlemauve_write(&wide.timer, 8, area, 0x90, 0).number == PM_NO_REGISTER);

    struct pm_watched w = paddlemauve_watchdog_write(paddlemauve_watchdog(), 0x08, 0);
    assert(w.report.number == 0 && w.watchdog.moving.control.wde);
    w = paddlemauve_watchdog_advance(w.watchdog, 256000, area);
    assert(w.report.number == 0 && w.report.written == sizeof reset && memcmp(bytes, reset, sizeof reset) == 0);
    struct pm_record timeout = pm_read_record(bytes);
    assert(timeout.kind == PM_WATCHDOG && timeout.cycle == 256000 && timeout.timeout == PM_RESTART);
    w = paddlemauve_watchdog_next(w.watchdog, 256000);
    assert(w.report.what == PM_EVENT_AT && w.report.value == 512000);

    /* T2 by one list of writes, on a fresh timer. */
    uint8_t list[4 * PM_WRITE_BYTES];
    assert(pm_pack_write(list, 0x44, 0x02, 0) && pm_pack_write(list + PM_WRITE_BYTES, 0x47, 124, 0));
    assert(pm_pack_write(list + 2 * PM_WRITE_BYTES, 0x48, 200, 0) && pm_pack_write(list + 3 * PM_WRITE_BYTES, 0x45, 0x03, 0));
    struct pm_ended ended = paddlemauve_writes(paddlemauve_start(pm_m328p[0].config).timer.state, (struct pm_list){list, sizeof list}, area);
    assert(ended.done == 4 && ended.reply.number == 0 && ended.reply.what == PM_NOTHING && ended.reply.written == 0);
    next = paddlemauve_call(&ended.timer, (struct pm_asked){.kind = PM_NEXT, .cycle = 0}, area);
    assert(next.what == PM_EVENT_AT && next.value == 8000);
    ended = paddlemauve_writes(ended.timer.state, (struct pm_list){list, sizeof list - 1}, area);
    assert(ended.done == 0 && ended.reply.number == PM_LIST_LENGTH);

    /* The largest item, and writes that are none: the bytes stay. */
    uint8_t item[PM_WRITE_BYTES], largest[PM_WRITE_BYTES];
    memset(largest, 0xff, sizeof largest);
    assert(pm_pack_write(item, 0x3ff, 0xff, ((uint64_t)1 << 62) - 1) && memcmp(item, largest, sizeof item) == 0);
    assert(!pm_pack_write(item, 0x400, 0, 0) && !pm_pack_write(item, 0x447, 0, 0) && !pm_pack_write(item, 0x47, 0, (uint64_t)1 << 62));
    assert(memcmp(item, largest, sizeof item) == 0);

    puts("T1 and T2 from C");
    return 0;
}
