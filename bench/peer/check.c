/*
 * The checks of every call: the table by all its rules, and the range of every stored number. A record and its row are
 * looked at in the same turn. Bytes are tested eight at a time: a word of a record, less the bytes that may differ, is
 * compared with what it has to be. Beside C99 it needs what gcc and clang have: two attributes and __builtin_expect.
 */
#include "inner.h"

/* What the walk over the table finds, beside the place of a wrong record. */
enum { PLACE_HEADER = 65535, PLACE_OBJECT = 256, RIGHT = 65536, OUT_OF_RANGE = 65537 };

/* Of an object's record: its depth, with INSIDE where it has a sending object; or WRONG. */
enum { MOST_DEPTH = 16, INSIDE = 32, WRONG = 64 };

/* The depths of all lower objects are added where a row has them: in the highest two bytes of its second word. */
enum { QUEUE_SHIFT = 48 };

/* Tells the compiler which registers matter: the branch is seldom taken. */
static inline int rare(int condition)
{
    return (int)__builtin_expect(condition, 0);
}

/* ---- The header */

static inline int header_wrong(const uint8_t *table, size_t length)
{
    uint32_t ipdus, objects;
    uint64_t total;
    if (length < HEADER_SIZE)
        return 1;
    ipdus = load16(table);
    objects = load16(table + 2);
    total = HEADER_SIZE + (uint64_t)IPDU_SIZE * ipdus + (uint64_t)OBJECT_SIZE * objects;
    /* Both offsets at once; then the length of the table and the zeros behind it. */
    return ipdus > MOST_IPDUS || objects > MOST_OBJECTS || load32(table + 4) != 0x00100010 + (ipdus << 20) ||
           load64(table + 8) != total || length != total;
}

/* ---- I-PDUs */

static inline int receive_ipdu_wrong(uint64_t times)
{
    /* No minimum delay, nothing behind F; and no F without R. */
    return (times & 0xFFFF00000000FFFF) != 0 || ((uint32_t)times == 0 && times != 0);
}

static inline int send_ipdu_wrong(const uint8_t *record, uint64_t form, uint64_t times)
{
    uint32_t mode = (uint32_t)form;
    /* With no F and nothing behind it, D is all that is left above the minimum delay. */
    if ((times >> 16) - 1 >= 0xFFFF)
        return 1;
    if (form == SEND)
        return 0;
    if (load16(record + PERIOD) == 0 || load16(record + OFFSET) == 0)
        return 1;
    return mode != (SEND | MIXED << 16) && (mode != (SEND | PERIODIC << 16) || (uint16_t)times != 0);
}

static inline int ipdu_wrong(const uint8_t *record)
{
    /* Direction, mode, period and offset, with the length blanked; then the other times. */
    uint64_t form = load64(record) & 0xFFFFFFFFFFFF00FF, times = load64(record + MINIMUM_DELAY);
    if (record[LENGTH] - 1u >= 8)
        return 1;
    return form == RECEIVE ? receive_ipdu_wrong(times) : send_ipdu_wrong(record, form, times);
}

static inline uint32_t larger(uint32_t a, uint32_t b)
{
    return a > b ? a : b;
}

static inline int send_row_out(const uint8_t *record, const uint8_t *row)
{
    uint32_t most = larger(load16(record + PERIOD), load16(record + OFFSET));
    return (load32(row) & 0x00FEFEFE) != 0 || row[RUNNING] > most ||
           load16(row + DELAY) > load16(record + MINIMUM_DELAY) ||
           load16(row + TO_DEADLINE) > load16(record + DEADLINE) || load16(row + COUNTDOWN) > most ||
           load16(row + TIMER) != 0;
}

static inline int ipdu_out(const uint8_t *record, const uint8_t *row)
{
    uint64_t request = load64(row) & 0xFFFFFFFF00FFFFFF;
    uint32_t counts = load32(row + COUNTDOWN), timer;
    /* Zeros are in range in every row: so is an I-PDU that waits for nothing. */
    if (record[DIRECTION] == SEND)
        return (request | counts) != 0 && send_row_out(record, row);
    timer = counts >> 16;
    return request != 0 || (uint16_t)counts != 0 ||
           (timer > load16(record + DEADLINE) && timer > load16(record + FIRST_DEADLINE));
}

/* ---- Objects */

/* By filter, the bits of the two constants that have to be 0. */
static const uint64_t unused[ONE_EVERY_N] = {
    UINT64_MAX, UINT64_MAX, 0, 0, UINT64_MAX, UINT64_MAX, 0xFFFFFFFF00000000,
    0xFFFFFFFF00000000, 0, 0, UINT64_MAX, UINT64_MAX, UINT64_MAX, UINT64_MAX,
};

static inline int filter_wrong(const uint8_t *record)
{
    uint32_t filter = load32(record + FILTER), period; /* with the three zeros behind it */
    if (!rare(filter >= ONE_EVERY_N))
        return ((load64(record + FIRST_CONSTANT) & unused[filter]) | load64(record + REST)) != 0;
    period = load32(record + FIRST_CONSTANT);
    return filter != ONE_EVERY_N || period > 255 || load32(record + SECOND_CONSTANT) >= period ||
           load64(record + REST) != 0;
}

/* The depth, by the rules for transfer and depth that the kind has. */
static inline uint32_t depth_of(uint64_t form)
{
    uint32_t kind = (uint8_t)form, transfer_and_depth = (uint32_t)(form >> 48);
    if (kind == SEND)
        return transfer_and_depth <= 1 ? 0 : WRONG;
    if (kind != RECEIVE || (uint8_t)transfer_and_depth != 0 || transfer_and_depth > MOST_DEPTH << 8)
        return WRONG;
    return transfer_and_depth >> 8;
}

/* An object with no I-PDU. */
static inline uint32_t depth_outside(const uint8_t *objects, const uint8_t *end, uint64_t form)
{
    uint32_t sender = (uint8_t)(form >> 16), depth = depth_of(form);
    /* No I-PDU, start 0, 32 bits, little, signed or not. */
    if ((form & 0x0000FDFFFF00FF00) != 0x000000200000FF00)
        return WRONG;
    if (depth == WRONG || sender == NONE)
        return depth;
    if ((uint8_t)form == SEND || (ptrdiff_t)OBJECT_SIZE * sender >= end - objects)
        return WRONG;
    return objects[OBJECT_SIZE * sender] == SEND ? depth | INSIDE : WRONG;
}

static inline int big_outside(uint32_t start, uint32_t last, uint32_t room)
{
    /* Behind the start bit come the higher bits of its byte, then the bytes before it: start ^ 7 bits in all. */
    return start >= room || last > (start ^ 7);
}

/* An object in an I-PDU that has a queue or is pending, or is wrong. */
static inline uint32_t depth_inside(uint64_t form, uint32_t start, uint32_t last, uint32_t room)
{
    /* No sending object; the order, less its sign, is big or little. */
    uint64_t rest = form & 0x0000FD0000FF0000;
    if (rest == 0x0000010000FF0000 ? big_outside(start, last, room)
                                   : rest != 0x0000000000FF0000 || start + last >= room)
        return WRONG;
    return depth_of(form);
}

/* A row in which more than marks, overflow and the right queue stands. */
static inline int used_row_out(const uint8_t *record, const uint8_t *row, uint64_t queue)
{
    uint32_t depth = record[DEPTH], last = depth == 0 ? 0 : depth - 1;
    uint32_t most = record[FILTER] == ONE_EVERY_N ? load32(record + FIRST_CONSTANT) - 1 : 0;
    return row[OCCURRENCE] > most || row[MARKS] > 15 || row[OVERFLOW_NOTED] > 1 || row[HEAD] > last ||
           row[COUNT] > depth || load16(row + QUEUE) != queue >> QUEUE_SHIFT;
}

static inline int object_out(const uint8_t *record, const uint8_t *row, uint64_t queue)
{
    /* Zeros, but for any marks and overflow, are in range whatever the record says. */
    return rare((load64(row + OCCURRENCE) & 0xFFFF00FFFFFEF0FF) != queue) && used_row_out(record, row, queue);
}

/* ---- The walk */

static inline void note_inside(peer_view *view, const uint8_t *record)
{
    if (view->inside_end == view->inside)
        view->inside = record;
    view->inside_end = record + OBJECT_SIZE;
}

/* The I-PDUs: RIGHT, the place of the first wrong record, or OUT_OF_RANGE. */
static inline uint32_t walk_ipdus(const uint8_t *table, const uint8_t *end, const uint8_t *memory, int with_memory)
{
    const uint8_t *record;
    for (record = table + HEADER_SIZE; record != end; record += IPDU_SIZE) {
        if (rare(ipdu_wrong(record)))
            return (uint32_t)(record - table) / IPDU_SIZE - 1;
        /* The row stands as far from the start of memory as the record from that of the table. */
        if (with_memory && rare(ipdu_out(record, memory + (record - table))))
            return OUT_OF_RANGE;
    }
    return RIGHT;
}

/* The objects, in the same way. Most are triggered and have no queue: then their first word, less kind, I-PDU, bits and
 * sign, is one of two, by the order. */
static inline __attribute__((always_inline)) uint32_t walk_objects(peer_view *view, const uint8_t *memory,
                                                                   int with_memory)
{
    const uint8_t *objects = view->objects, *end = view->end, *record, *in;
    const uint8_t *row = with_memory ? memory + OBJECT_ROWS : NULL;
    ptrdiff_t ipdu_count = view->ipdu_count, ipdu;
    uint64_t queue = 0, form, rest;
    uint32_t depth, start, last, room;
    for (record = objects; record != end; record += OBJECT_SIZE) {
        if (with_memory) {
            if (rare(object_out(record, row, queue)))
                return OUT_OF_RANGE;
            row += ROW_SIZE;
        }
        if (rare(filter_wrong(record)))
            break;
        form = load64(record);
        /* I-PDUs are counted back from the objects, which stand behind them: below 0 it is one of the table's. */
        ipdu = record[IPDU] - ipdu_count;
        if (rare(ipdu >= 0)) {
            depth = depth_outside(objects, end, form);
            if (depth & INSIDE)
                note_inside(view, record);
        } else {
            in = objects + IPDU_SIZE * ipdu;
            start = record[START_BIT];
            last = record[BIT_LENGTH] - 1u;
            room = 8u * in[LENGTH];
            rest = form & 0xFFFFFD0000FF0000;
            /* The direction is 1 or 2, and so is the kind with it. */
            if (rare(in[DIRECTION] != (uint8_t)form || last >= 32))
                break;
            if (rest == 0x0000000000FF0000 && start + last < room)
                continue;
            if (rest == 0x0000010000FF0000 && !big_outside(start, last, room))
                continue;
            depth = depth_inside(form, start, last, room);
        }
        queue += (uint64_t)(depth & (INSIDE - 1)) << QUEUE_SHIFT;
        if (depth == WRONG || queue > (uint64_t)MOST_QUEUED << QUEUE_SHIFT)
            break;
    }
    return record == end ? RIGHT : PLACE_OBJECT + (uint32_t)(record - objects) / OBJECT_SIZE;
}

/* Compiled with memory and without; no call stands in the loop, and each of the two has the registers for itself. */
static __attribute__((noinline)) uint32_t check_objects(peer_view *view)
{
    return walk_objects(view, NULL, 0);
}

static __attribute__((noinline)) uint32_t admit_objects(peer_view *view, const uint8_t *memory)
{
    return walk_objects(view, memory, 1);
}

/* RIGHT and the view; the place of the first wrong record; or OUT_OF_RANGE, with the records behind it not looked at.
 * Compiled twice, with memory and without. */
static inline __attribute__((always_inline)) uint32_t walk(const uint8_t *table, size_t length, peer_view *view,
                                                           const uint8_t *memory, int with_memory)
{
    uint32_t found;
    if (header_wrong(table, length))
        return PLACE_HEADER;
    view->ipdu_count = load16(table);
    view->object_count = load16(table + 2);
    view->objects = view->inside = view->inside_end = table + HEADER_SIZE + IPDU_SIZE * view->ipdu_count;
    view->end = table + length;
    found = walk_ipdus(table, view->objects, memory, with_memory);
    if (found != RIGHT)
        return found;
    return with_memory ? admit_objects(view, memory) : check_objects(view);
}

static uint32_t check_table(peer_view *view, const uint8_t *table, size_t length)
{
    return walk(table, length, view, NULL, 0);
}

/* ---- Before a call */

uint32_t peer_admit_start(peer_view *view, const uint8_t *table, size_t table_length, int fits)
{
    if (check_table(view, table, table_length) != RIGHT)
        return WRONG_TABLE;
    return fits ? DONE : WRONG_MEMORY;
}

uint32_t peer_admit(peer_view *view, const uint8_t *table, size_t table_length, const uint8_t *memory, int fits)
{
    uint32_t found;
    if (!fits)
        return peer_admit_start(view, table, table_length, 0);
    found = walk(table, table_length, view, memory, 1);
    if (found == RIGHT && memory[0] <= 1)
        return memory[0] == 0 ? STOPPED : DONE;
    /* A wrong record goes before a number out of range, also where it stands behind it. */
    return found == RIGHT || found == OUT_OF_RANGE ? peer_admit_start(view, table, table_length, 0) : WRONG_TABLE;
}

peer_answer peer_check(const uint8_t *table, size_t table_length)
{
    peer_view view;
    peer_answer answer = {DONE, 0};
    uint32_t found = check_table(&view, table, table_length);
    if (found != RIGHT) {
        answer.number = WRONG_TABLE;
        answer.value = found;
    }
    return answer;
}

uint32_t peer_ipdu_length(const uint8_t *table, size_t table_length, uint32_t ipdu)
{
    peer_view view;
    if (check_table(&view, table, table_length) != RIGHT || ipdu >= view.ipdu_count)
        return 0;
    return table[HEADER_SIZE + IPDU_SIZE * ipdu + LENGTH];
}
