/* What crates/shell and crates/doorlog export, with the timer of crates/counter, its configuration of crates/config, the watchdog of crates/oscillator,
 * the board of crates/board and the log of crates/record_ring, for C and C++ on x86-64. Doors, logs and dumps are in libdoorlog.a, the rest is in libshell.a. */
#ifndef PADDLEMAUVE_H
#define PADDLEMAUVE_H

#include <stdbool.h>
#include <stddef.h>
#include <stdint.h>

#ifdef __cplusplus
extern "C" {
#endif

struct pm_wire { bool present; uint8_t pin; };
struct pm_compare { bool present; uint16_t address; uint8_t flag, force; struct pm_wire wire; };
struct pm_capture { bool present; uint16_t address; uint8_t flag; struct pm_wire wire; };

/* layout: 0 split, 1 single, 2 single without WGM; clocks: 0 the first table, 1 that of Timer2. */
struct pm_config {
    uint8_t id; bool wide; uint8_t layout;
    uint16_t tccra, tccrb, foc, tcnt;
    struct pm_compare a, b, c;
    struct pm_capture icr;
    uint8_t tov; struct pm_wire t; uint8_t clocks, group; uint16_t prr; uint8_t sleeprun;
};

/* A timer's state. */
struct pm_state {
    struct pm_config config;
    struct { uint32_t count; int32_t direction; bool blocked; uint64_t odometer; } counter; /* odometer: counts made since the reset */
    uint32_t ocr[3], buffer[3];
    uint8_t oc[3];
    struct { uint8_t enables[3], values[3]; } drives;
    struct { uint8_t tccra, tccrb; uint32_t icr; uint8_t temp; } registers;
    struct { uint8_t tifr, timsk; } flags;
    struct { uint64_t sync, origin, latest; } clock;
    struct { bool asleep; uint64_t since; bool reduced, tsm, routed; } halts;
};

/* A timer as its owner holds it: its state, and what the library keeps of it and alone reads. It comes from paddlemauve_start and is changed by the
 * calls alone; paddlemauve_hold makes one of a state that a function by value has left. */
struct pm_timer { struct pm_state state; uint64_t kept[8]; };

/* Why a call was turned away. Neither the timer nor a byte of the area has changed then. */
enum pm_refusal {
    PM_CONFIGURATION = 1,    /* the configuration breaks a rule: mend it */
    PM_CYCLE_TOO_LARGE,      /* over 2^62 - 1: start the cycles lower */
    PM_CYCLE_PASSED,         /* below the latest accepted: call in the order of the cycles, after a pause from its cycle on */
    PM_NO_REGISTER,          /* no register of this timer: look at its configuration */
    PM_LEVEL,                /* a level is 0 or 1, a sleep mode 0 to 7 */
    PM_EVENT_DUE,            /* the next event lies at or before the cycle: advance to the cycle first */
    PM_ASLEEP,               /* halted asleep: wake the timer first */
    PM_AREA_TOO_SMALL,       /* lend PM_AREA bytes */
    PM_LIST_LENGTH = 12,     /* a list of writes has PM_WRITE_BYTES an item */
    PM_NO_RECORD,            /* a log is of whole records as the calls wrote them, at most 2^30 bytes */
    PM_RECORD_ORDER,         /* a dump's records are in the order of their cycles: give those of one timer */
    PM_RECORD_TOO_LATE,      /* a dump's cycles end at 2^48 - 1: start them lower */
    PM_NOWHERE,              /* on the board: neither GTCCR's address nor a timer's */
    PM_PERIOD,               /* a watchdog's prescaler is 0 to 9 */
    PM_TOO_FAR_APART,        /* two edges 32,767 ticks or more apart: ask for nearer ones, or divide the way */
    PM_LOG_FULL,             /* 6,000 records are held: read and release some of the oldest first */
    PM_NOT_HELD,             /* release at most as many as are held */
    PM_LOG_AREA,             /* lend the log PM_LOG_BYTES */
    PM_RULE,                 /* hold, quiet and cap are 1 to 2^40 cycles, and a cap is no shorter than the hold */
    PM_NO_CALL = 255         /* the kind is no enum pm_kind */
};

/* number: 0, or PM_CONFIGURATION; timer is then one of the least configuration. */
struct pm_begun { uint8_t number; struct pm_timer timer; };

enum pm_kind {
    PM_ADVANCE, PM_NEXT, PM_READ, PM_PEEK, PM_WRITE, PM_TIFR, PM_TIMSK, PM_WRITE_TIFR, PM_WRITE_TIMSK, PM_EDGE, PM_OUTPUT,
    PM_ROUTE, PM_SLEEP, PM_WAKE, PM_REDUCE, PM_TSM, PM_PRESCALE, PM_RESET
};

/* kind: an enum pm_kind; the other fields are read where the call has such an argument. */
struct pm_asked { uint8_t kind, pin, value; uint16_t address; uint64_t cycle; };

enum pm_what { PM_NOTHING, PM_BYTE, PM_EVENT_AT, PM_NO_EVENT, PM_PAUSED_AT, PM_REFUSED, PM_REACHED };

/* number: 0, or an enum pm_refusal; what: an enum pm_what, with its value. An accepted call tells the next event of the timer as it left it: next, its
 * cycle, PM_NEVER where the counter does not run, and flags, the TIFR bits that its tick will raise, 0 for none. Beside a refusal both are 0. */
struct pm_reply { uint8_t number, what, flags; uint64_t value, written, next; };

#define PM_NEVER UINT64_MAX

/* ticks: to the next event's, from the timer's last; flags: the TIFR bits that its tick will raise; looked: the compares looked at to know it. */
struct pm_distance { uint32_t ticks; uint8_t flags, looked; };

/* number: 0, or an enum pm_refusal beside no ticks; ticks: how many later an edge at the second cycle is captured than one at the first, negative
 * where the second comes first, 0 where the counter does not run. */
struct pm_shifted { uint8_t number; int32_t ticks; };

struct pm_area { uint8_t *start; size_t length; };
struct pm_list { const uint8_t *start; size_t length; };
struct pm_shape { uint64_t size, align; };

/* After a list of writes: the timer, the items done, and why it ended. reply: number 0 with PM_NOTHING where all are done, with PM_PAUSED_AT where an item's
 * advance stopped; else the refusal of the item behind those done. */
struct pm_ended { struct pm_timer timer; uint64_t done; struct pm_reply reply; };

struct pm_shape paddlemauve_shape(void);
struct pm_begun paddlemauve_start(struct pm_config config);
struct pm_timer paddlemauve_hold(struct pm_state state);
struct pm_distance paddlemauve_distance(struct pm_state state);
struct pm_shifted paddlemauve_shift(struct pm_state state, uint64_t first, uint64_t second);
struct pm_reply paddlemauve_call(struct pm_timer *timer, struct pm_asked asked, struct pm_area area);
struct pm_ended paddlemauve_writes(struct pm_state state, struct pm_list list, struct pm_area area);

/* The calls of a busy bench, each as paddlemauve_call does it: PM_ADVANCE, PM_NEXT, PM_TIFR, PM_WRITE_TIFR, PM_WRITE, and PM_READ of TCNTn, low and high byte; of a
 * narrow timer the high byte is PM_NO_REGISTER. */
struct pm_reply paddlemauve_advance(struct pm_timer *timer, uint64_t cycle, struct pm_area area);
struct pm_reply paddlemauve_next(struct pm_timer *timer, uint64_t cycle);
struct pm_reply paddlemauve_tifr(struct pm_timer *timer, uint64_t cycle);
struct pm_reply paddlemauve_clear(struct pm_timer *timer, uint8_t ones, uint64_t cycle);
struct pm_reply paddlemauve_write(struct pm_timer *timer, uint64_t cycle, struct pm_area area, uint16_t address, uint8_t value);
struct pm_reply paddlemauve_count_low(struct pm_timer *timer, uint64_t cycle);
struct pm_reply paddlemauve_count_high(struct pm_timer *timer, uint64_t cycle);

/* The bytes of a write in a list. */
enum { PM_WRITE_BYTES = 10 };

/* Makes a write an item of a list, and says true. False, and the bytes as they were, where an item has no room for it: an address over 0x3ff, a cycle over
 * 2^62 - 1. */
static inline bool pm_pack_write(uint8_t *bytes, uint16_t address, uint8_t value, uint64_t cycle)
{
    int i;
    if (address > 0x3ff || cycle >> 62) return false;
    bytes[0] = (uint8_t)(address >> 2);
    bytes[1] = (uint8_t)(address << 6 | value >> 2);
    bytes[2] = (uint8_t)(value << 6 | cycle >> 56);
    for (i = 3; i < PM_WRITE_BYTES; i++) bytes[i] = (uint8_t)(cycle >> 8 * (9 - i));
    return true;
}

/* A watchdog. It comes from paddlemauve_watchdog and is replaced by what each call leaves. */
struct pm_watchdog {
    struct {
        uint32_t count;
        struct { bool wdif, wdie, wde; uint8_t wdp; } control;
        struct { bool wdce; uint64_t since; } window;
    } moving;
    uint64_t sync, latest;
};

/* number: 0, or an enum pm_refusal; what: an enum pm_what, with its value. */
struct pm_report { uint8_t number, what; uint64_t value, written; };

struct pm_watched { struct pm_watchdog watchdog; struct pm_report report; };

struct pm_watchdog paddlemauve_watchdog(void);
struct pm_watched paddlemauve_watchdog_advance(struct pm_watchdog w, uint64_t cycle, struct pm_area area);
struct pm_watched paddlemauve_watchdog_next(struct pm_watchdog w, uint64_t cycle);
struct pm_watched paddlemauve_watchdog_wdr(struct pm_watchdog w, uint64_t cycle);
struct pm_watched paddlemauve_watchdog_serve(struct pm_watchdog w, uint64_t cycle);
struct pm_watched paddlemauve_watchdog_read(struct pm_watchdog w, uint64_t cycle);
struct pm_watched paddlemauve_watchdog_write(struct pm_watchdog w, uint8_t value, uint64_t cycle);

/* The ATmega328P board: Timer0, Timer1 and Timer2, the scheduler of their next events, and GTCCR. It comes from paddlemauve_board and is changed by
 * paddlemauve_board_call alone. */
struct pm_board {
    struct pm_state timers[3];
    struct {
        struct { struct { uint8_t owner, tag; } key; uint64_t cycle; } places[64];
        size_t count;
        uint64_t next;      /* the earliest cycle held, 2^64 - 1 where none is */
    } scheduler;
    uint8_t gtccr;
};

enum pm_order {
    PM_BOARD_ADVANCE, PM_BOARD_NEXT, PM_BOARD_RESET, PM_BOARD_EDGE, PM_BOARD_ROUTE, PM_BOARD_OUTPUT, PM_BOARD_READ, PM_BOARD_PEEK, PM_BOARD_WRITE,
    PM_BOARD_SLEEP, PM_BOARD_WAKE, PM_BOARD_REDUCE, PM_BOARD_TIFR, PM_BOARD_TIMSK, PM_BOARD_WRITE_TIFR, PM_BOARD_WRITE_TIMSK
};

/* kind: an enum pm_order; id: the timer's, 0 to 2, and 0 where the order takes an address or reaches all three; the other fields are read where the
 * order has such an argument. TIFR and TIMSK go by the timer's id, and by their data addresses too. */
struct pm_ordered { uint8_t kind, id, pin, value; uint16_t address; uint64_t cycle; };

/* Of a timer of the board, as in struct pm_reply: the bytes written in its area, and its next event. */
struct pm_standing { uint8_t flags; uint64_t written, next; };

/* number, what and value: as in struct pm_reply; flags: of an answer that has some. */
struct pm_replied { uint8_t number, what, flags; uint64_t value; struct pm_standing timers[3]; };

struct pm_board paddlemauve_board(void);
struct pm_shape paddlemauve_board_shape(void);
struct pm_replied paddlemauve_board_call(struct pm_board *board, struct pm_ordered ordered, struct pm_area zero, struct pm_area one, struct pm_area two);

/* The bytes of a record, and those of an area that holds the records of any call's one event. */
enum { PM_RECORD = 10, PM_AREA = 110 };

enum pm_record_kind { PM_PIN, PM_FLAGS, PM_TRIGGER, PM_WATCHDOG, PM_MALFORMED };

/* The request lines of a flag record, the triggers, and the time-outs of a watchdog. */
enum pm_line { PM_LINE_C = 1, PM_LINE_CAPTURE = 2, PM_LINE_B = 4, PM_LINE_A = 8, PM_LINE_OVERFLOW = 16 };
enum pm_trigger { PM_COMPARE_A = 1, PM_COMPARE_B, PM_OVERFLOW, PM_CAPTURE };
enum pm_timeout { PM_INTERRUPT = 1, PM_RESTART };

/* A record. kind: an enum pm_record_kind, which says which of the fields behind cycle count: pin, enable and value; flags (TIFR bits raised) and
 * lines (those that are up, of enum pm_line); trigger (an enum pm_trigger) and id, the timer's; or timeout (an enum pm_timeout). The others are 0. */
struct pm_record {
    uint8_t kind; uint64_t cycle;
    uint8_t pin; bool enable, value;
    uint8_t flags, lines;
    uint8_t trigger, id;
    uint8_t timeout;
};

/* A record's PM_RECORD bytes, as a call would write them, unless it is PM_MALFORMED; of a flag record's lines the low five bits, of a trigger the low four. */
static inline void pm_write_record(uint8_t *bytes, struct pm_record r)
{
    int i;
    uint64_t word = (uint64_t)r.kind << 62 | (r.cycle & (((uint64_t)1 << 62) - 1));
    for (i = 0; i < 8; i++) bytes[i] = (uint8_t)(word >> 8 * (7 - i));
    bytes[8] = bytes[9] = 0;
    if (r.kind == PM_PIN) {
        bytes[8] = r.pin;
        bytes[9] = (uint8_t)(r.enable << 7 | r.value << 6);
    } else if (r.kind == PM_FLAGS) {
        bytes[8] = r.flags;
        bytes[9] = (uint8_t)(r.lines << 3);
    } else if (r.kind == PM_TRIGGER) {
        bytes[8] = (uint8_t)(r.trigger << 4 | r.id >> 4);
        bytes[9] = (uint8_t)(r.id << 4);
    } else {
        bytes[9] = r.timeout;
    }
}

/* The record of PM_RECORD bytes, as a call wrote them. Where no call writes such bytes, since a filler bit is set or a watchdog's body is neither 1 nor 2,
 * kind is PM_MALFORMED and every other field 0. */
static inline struct pm_record pm_read_record(const uint8_t *bytes)
{
    struct pm_record r = {0, 0, 0, false, false, 0, 0, 0, 0, 0};
    const struct pm_record malformed = {PM_MALFORMED, 0, 0, false, false, 0, 0, 0, 0, 0};
    uint8_t again[PM_RECORD];
    bool formed;
    int i;
    for (i = 0; i < 8; i++) r.cycle = r.cycle << 8 | bytes[i];
    r.kind = (uint8_t)(r.cycle >> 62);
    r.cycle &= ((uint64_t)1 << 62) - 1;
    if (r.kind == PM_PIN) {
        r.pin = bytes[8];
        r.enable = bytes[9] >> 7 & 1;
        r.value = bytes[9] >> 6 & 1;
    } else if (r.kind == PM_FLAGS) {
        r.flags = bytes[8];
        r.lines = bytes[9] >> 3;
    } else if (r.kind == PM_TRIGGER) {
        r.trigger = bytes[8] >> 4;
        r.id = (uint8_t)(bytes[8] << 4 | bytes[9] >> 4);
    } else {
        r.timeout = bytes[9];
    }
    pm_write_record(again, r);
    formed = r.kind != PM_WATCHDOG || r.timeout == PM_INTERRUPT || r.timeout == PM_RESTART;
    for (i = 0; i < PM_RECORD; i++) formed = formed && again[i] == bytes[i];
    return formed ? r : malformed;
}

/* A door under a service rule: rule one, or with terms.two rule two. It comes from paddlemauve_door_one or paddlemauve_door_two and is replaced by what each
 * edge leaves. */
struct pm_door {
    struct { bool two; uint64_t hold, quiet, cap; } terms;
    bool holding;
    uint64_t first, rearmed, due, latest;
};

/* number: 0, or an enum pm_refusal; due: the cycle at which the close is due, where pending; door: to be kept, of a refused rule one of the shortest hold. */
struct pm_doored { uint8_t number; bool pending; uint64_t due; struct pm_door door; };

struct pm_doored paddlemauve_door_one(uint64_t hold);
struct pm_doored paddlemauve_door_two(uint64_t hold, uint64_t quiet, uint64_t cap);
struct pm_doored paddlemauve_door_edge(struct pm_door door, uint64_t cycle);

/* How many records a log holds at most, and the bytes of its area. */
enum { PM_LOG_PLACES = 6000, PM_LOG_BYTES = 60000 };

/* A log: the place of the next record, and how many are held. It comes from paddlemauve_log and is replaced by what each call leaves. */
struct pm_log { size_t next, held; };

/* number: 0, or an enum pm_refusal; log: to be kept. */
struct pm_logged { uint8_t number; struct pm_log log; };

/* A record's bytes. */
struct pm_entry { uint8_t bytes[PM_RECORD]; };

struct pm_log paddlemauve_log(void);
struct pm_logged paddlemauve_log_add(struct pm_log log, struct pm_area area, struct pm_entry entry);
struct pm_logged paddlemauve_log_release(struct pm_log log, struct pm_list area, size_t count);
size_t paddlemauve_log_count(struct pm_log log);
size_t paddlemauve_log_oldest(struct pm_log log); /* its place; where none is held, that of the next */

/* The entry of PM_RECORD bytes, as a call wrote them. */
static inline struct pm_entry pm_entry_of(const uint8_t *bytes)
{
    struct pm_entry entry;
    int i;
    for (i = 0; i < PM_RECORD; i++) entry.bytes[i] = bytes[i];
    return entry;
}

/* number: 0, or an enum pm_refusal; too_short: whether out has fewer bytes than pm_dump_room says. Of either nothing is written. */
struct pm_dumped { uint8_t number; bool too_short; uint64_t written; };

/* The dump of a log of records for a waveform viewer. */
struct pm_dumped paddlemauve_dump(struct pm_list log, struct pm_area out);

/* The bytes that hold the dump of any log of so many bytes. */
static inline size_t pm_dump_room(size_t log) { return 6954 + 32 * (log / PM_RECORD + 1); }

#ifdef __cplusplus
}
#endif

#endif
