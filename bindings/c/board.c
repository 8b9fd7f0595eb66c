/* The ATmega328P board from C and C++: three timers held by TSM start in step, Timer0's match is recorded in its own area, its flags go by its id, and what is refused changes nothing. */
#include <assert.h>
#include <stdio.h>

#include "paddlemauve_m328p.h"

static struct pm_board board;
static uint8_t bytes[3][PM_AREA];

static struct pm_replied order(enum pm_order kind, uint8_t id, uint16_t address, uint8_t value, uint64_t cycle)
{
    struct pm_ordered ordered = {(uint8_t)kind, id, 0, value, address, cycle};
    struct pm_area area[3];
    int i;
    for (i = 0; i < 3; i++) area[i].start = bytes[i], area[i].length = sizeof bytes[i];
    return paddlemauve_board_call(&board, ordered, area[0], area[1], area[2]);
}

static struct pm_replied writes(uint16_t address, uint8_t value, uint64_t cycle) { return order(PM_BOARD_WRITE, 0, address, value, cycle); }

/* OCRnA and OCRnB far off, and each timer started at another cycle: they count from TSM's release on, and only then have events. */
static void in_step(void)
{
    static const uint16_t compares[8] = {0x47, 0x48, 0x89, 0x88, 0x8b, 0x8a, 0xb3, 0xb4};
    static const uint8_t flags[3] = {7, 7, 7};
    static const uint64_t next[3] = {356, 65636, 356};
    struct pm_replied r;
    int i;
    for (i = 0; i < 8; i++) assert(writes(compares[i], 0xff, 0).number == 0);
    assert(writes(PM_M328P_GTCCR, 0x83, 0).number == 0);
    assert(writes(0x45, 1, 3).number == 0 && writes(0x81, 1, 20).number == 0);
    r = writes(0xb1, 1, 50);
    for (i = 0; i < 3; i++) assert(r.timers[i].next == PM_NEVER);
    assert(order(PM_BOARD_READ, 0, PM_M328P_GTCCR, 0, 0).value == 0x83);
    r = writes(PM_M328P_GTCCR, 0, 100);
    for (i = 0; i < 3; i++) assert(r.timers[i].next == next[i] && r.timers[i].flags == flags[i]);
    assert(board.scheduler.count == 3 && board.scheduler.next == 356);
    assert(order(PM_BOARD_PEEK, 0, 0x46, 0, 150).value == 50 && order(PM_BOARD_PEEK, 0, 0x84, 0, 150).value == 50 && order(PM_BOARD_PEEK, 0, 0xb2, 0, 150).value == 50);
}

/* Timer0's event is worked in its own area. */
static void one_timer(void)
{
    struct pm_replied r = order(PM_BOARD_ADVANCE, 0, 0, 0, 356);
    struct pm_record record = pm_read_record(bytes[0]);
    assert(r.number == 0 && r.what == PM_REACHED && r.timers[0].written == 4 * PM_RECORD && r.timers[1].written == 0 && r.timers[2].written == 0);
    assert(record.kind == PM_FLAGS && record.cycle == 356 && record.flags == 7);
    assert(r.timers[0].next == 612 && r.timers[2].next == 356);
    assert(board.timers[0].counter.count == 0 && board.timers[2].counter.count != 0);
}

/* Timer0's flags by its id, and by TIFR0's and TIMSK0's addresses. */
static void flags(void)
{
    assert(order(PM_BOARD_TIFR, 0, 0, 0, 356).value == 7 && order(PM_BOARD_READ, 0, pm_m328p[0].tifr, 0, 356).value == 7);
    assert(order(PM_BOARD_WRITE_TIFR, 0, 0, 2, 356).number == 0 && order(PM_BOARD_TIFR, 0, 0, 0, 356).value == 5);
    assert(order(PM_BOARD_WRITE_TIMSK, 0, 0, 3, 356).number == 0 && order(PM_BOARD_TIMSK, 0, 0, 0, 356).value == 3);
    assert(order(PM_BOARD_READ, 0, pm_m328p[0].timsk, 0, 356).value == 3 && order(PM_BOARD_TIMSK, 1, 0, 0, 356).value == 0);
    assert(order(PM_BOARD_TIFR, 2, 0, 0, 356).number == PM_EVENT_DUE);
}

/* Timer2's event is due, so no timer sleeps; an address that is nobody's, and numbers that name no order. */
static void refused(void)
{
    struct pm_board was = board;
    int i;
    assert(order(PM_BOARD_SLEEP, 0, 0, 2, 356).number == PM_EVENT_DUE);
    assert(writes(0x83, 0, 356).number == PM_NOWHERE);
    assert(order((enum pm_order)16, 0, 0, 0, 356).number == PM_NO_CALL && order(PM_BOARD_ADVANCE, 3, 0, 0, 356).number == PM_NO_CALL);
    for (i = 0; i < 3; i++) assert(!board.timers[i].halts.asleep && board.timers[i].clock.latest == was.timers[i].clock.latest);
    assert(board.gtccr == was.gtccr && board.scheduler.count == 3 && board.scheduler.next == 356);
}

int main(void)
{
    struct pm_shape shape = paddlemauve_board_shape();
    assert(shape.size == sizeof board);
    board = paddlemauve_board();
    in_step();
    one_timer();
    flags();
    refused();
    puts("the board from C");
    return 0;
}
