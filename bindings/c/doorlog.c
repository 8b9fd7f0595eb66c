/* A door held by rule two, the log of its motor's records, and the dump of that log, from C. */
#include <assert.h>
#include <stdio.h>
#include <stdlib.h>
#include <string.h>

#include "paddlemauve_m328p.h"

static void rules(void)
{
    struct pm_doored d = paddlemauve_door_one(48000000);
    assert(d.number == 0 && !d.pending);
    d = paddlemauve_door_edge(d.door, 16000000);
    assert(d.number == 0 && d.pending && d.due == 64000000);
    d = paddlemauve_door_edge(d.door, 17000000);
    assert(d.number == 0 && d.due == 65000000);
    d = paddlemauve_door_edge(d.door, 16999999);
    assert(d.number == PM_CYCLE_PASSED && d.pending && d.due == 65000000 && d.door.latest == 17000000);
    assert(paddlemauve_door_edge(d.door, (uint64_t)1 << 62).number == PM_CYCLE_TOO_LARGE);

    d = paddlemauve_door_two(48000000, 4000000, 80000000);
    assert(d.number == 0 && !d.pending && d.door.terms.two);
    d = paddlemauve_door_edge(d.door, 16000000);
    d = paddlemauve_door_edge(d.door, 17000000);
    assert(d.due == 64000000);
    d = paddlemauve_door_edge(d.door, 60000000);
    assert(d.due == 96000000);
    d = paddlemauve_door_edge(d.door, 96000000);
    assert(d.due == 144000000 && d.door.first == 96000000);

    assert(paddlemauve_door_one(0).number == PM_RULE);
    assert(paddlemauve_door_two(48000000, 4000000, 47999999).number == PM_RULE);
    d = paddlemauve_door_two(((uint64_t)1 << 40) + 1, 1, (uint64_t)1 << 40);
    assert(d.number == PM_RULE && !d.pending && d.door.terms.hold == 1);
}

/* Two periods of the door motor's PWM on Timer0; yields the bytes of their records. */
static uint64_t motor(struct pm_area area)
{
    struct pm_timer timer = paddlemauve_start(pm_m328p[0].config).timer;
    const struct pm_asked calls[] = {
        {.kind = PM_WRITE, .address = 0x47, .value = 191},
        {.kind = PM_WRITE, .address = 0x44, .value = 0x83},
        {.kind = PM_WRITE, .address = 0x45, .value = 0x02},
        {.kind = PM_ADVANCE, .cycle = 4096},
    };
    uint64_t written = 0;
    for (size_t i = 0; i < sizeof calls / sizeof calls[0]; i++) {
        struct pm_reply reply = paddlemauve_call(&timer, calls[i], (struct pm_area){area.start + written, area.length - written});
        assert(reply.number == 0 && reply.what != PM_PAUSED_AT);
        written += reply.written;
    }
    return written;
}

/* Keeps the records in a log, gives a place back, and fills it. */
static void keep(const uint8_t *records, uint64_t length)
{
    uint8_t *bytes = malloc(PM_LOG_BYTES);
    assert(bytes);
    struct pm_area area = {bytes, PM_LOG_BYTES};
    struct pm_logged l = {0, paddlemauve_log()};
    for (uint64_t at = 0; at < length; at += PM_RECORD) {
        l = paddlemauve_log_add(l.log, area, pm_entry_of(records + at));
        assert(l.number == 0);
    }
    size_t held = paddlemauve_log_count(l.log);
    assert(held == length / PM_RECORD && paddlemauve_log_oldest(l.log) == 0);
    assert(memcmp(bytes, records, length) == 0);

    l = paddlemauve_log_release(l.log, (struct pm_list){bytes, PM_LOG_BYTES}, 1);
    assert(l.number == 0 && paddlemauve_log_count(l.log) == held - 1 && paddlemauve_log_oldest(l.log) == 1);
    struct pm_logged refused = paddlemauve_log_release(l.log, (struct pm_list){bytes, PM_LOG_BYTES}, held);
    assert(refused.number == PM_NOT_HELD && refused.log.held == held - 1);
    while (l.number == 0) l = paddlemauve_log_add(l.log, area, pm_entry_of(records));
    assert(l.number == PM_LOG_FULL && paddlemauve_log_count(l.log) == PM_LOG_PLACES && l.log.next == 1);
    free(bytes);
}

/* An area that has not PM_LOG_BYTES bytes is told before all others, and nothing has changed. */
static void other_areas(struct pm_entry entry)
{
    static const size_t sizes[] = {0, PM_LOG_BYTES - 1, PM_LOG_BYTES + 1};
    uint8_t *bytes = calloc(1, PM_LOG_BYTES + 1);
    assert(bytes);
    for (int i = 0; i < 3; i++) {
        struct pm_logged l = paddlemauve_log_add(paddlemauve_log(), (struct pm_area){bytes, sizes[i]}, entry);
        assert(l.number == PM_LOG_AREA && paddlemauve_log_count(l.log) == 0 && l.log.next == 0);
        assert(paddlemauve_log_release(l.log, (struct pm_list){bytes, sizes[i]}, 1).number == PM_LOG_AREA);
    }
    for (size_t i = 0; i <= PM_LOG_BYTES; i++) assert(bytes[i] == 0);
    assert(paddlemauve_log_release(paddlemauve_log(), (struct pm_list){bytes, PM_LOG_BYTES}, 1).number == PM_NOT_HELD);
    free(bytes);
}

/* Bytes that no call writes are no record: filler bits, a watchdog's body of 0 or 3, or more than its low byte. */
static void no_records(void)
{
    static const uint8_t bytes[][PM_RECORD] = {
        {0, 0, 0, 0, 0, 0, 0, 2, 5, 0xc1}, {0x40, 0, 0, 0, 0, 0, 0, 2, 6, 4}, {0x80, 0, 0, 0, 0, 0, 0, 2, 0x10, 1},
        {0xc0, 0, 0, 0, 0, 0, 0, 2, 0, 0}, {0xc0, 0, 0, 0, 0, 0, 0, 2, 0, 3}, {0xc0, 0, 0, 0, 0, 0, 0, 2, 1, 1},
    };
    for (size_t i = 0; i < sizeof bytes / sizeof bytes[0]; i++) {
        struct pm_record r = pm_read_record(bytes[i]);
        assert(r.kind == PM_MALFORMED && r.cycle == 0 && r.pin == 0 && r.flags == 0 && r.trigger == 0 && r.timeout == 0);
    }
}

static void show(struct pm_list log)
{
    static const char wanted[] = "$timescale 1 ps $end\n$var wire 1 p12 p12 $end\n$enddefinitions $end\n#0\n0p12\n#128000000\n1p12\n#224000000\n0p12\n#256000000\n1p12\n";
    size_t room = pm_dump_room(log.length);
    uint8_t *text = malloc(room);
    assert(text);
    struct pm_dumped d = paddlemauve_dump(log, (struct pm_area){text, room});
    assert(d.number == 0 && !d.too_short && d.written == sizeof wanted - 1 && memcmp(text, wanted, d.written) == 0);
    d = paddlemauve_dump(log, (struct pm_area){text, room - 1});
    assert(d.number == 0 && d.too_short && d.written == 0);
    assert(paddlemauve_dump((struct pm_list){log.start, log.length - 1}, (struct pm_area){text, room}).number == PM_NO_RECORD);

    /* The last record again, a cycle earlier. */
    uint8_t back[2 * PM_RECORD];
    struct pm_record last = pm_read_record(log.start + log.length - PM_RECORD);
    pm_write_record(back, last);
    assert(memcmp(back, log.start + log.length - PM_RECORD, PM_RECORD) == 0);
    last.cycle -= 1;
    pm_write_record(back + PM_RECORD, last);
    assert(paddlemauve_dump((struct pm_list){back, sizeof back}, (struct pm_area){text, room}).number == PM_RECORD_ORDER);
    last.cycle = (uint64_t)1 << 48;
    pm_write_record(back + PM_RECORD, last);
    assert(paddlemauve_dump((struct pm_list){back, sizeof back}, (struct pm_area){text, room}).number == PM_RECORD_TOO_LATE);
    free(text);
}

int main(void)
{
    uint8_t records[1000];
    uint64_t length = motor((struct pm_area){records, sizeof records});
    rules();
    keep(records, length);
    other_areas(pm_entry_of(records));
    no_records();
    show((struct pm_list){records, length});
    puts("a door's rules, log and dump from C");
    return 0;
}
