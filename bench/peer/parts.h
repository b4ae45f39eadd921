/* What several calls do: find a record and its row, pack, unpack, filter, deliver, request. Bytes of an I-PDU are moved
 * and shifted as one word of eight. */
#ifndef PARTS_H
#define PARTS_H

#include "inner.h"

enum { ARRIVED = 1, SENT = 2, RECEIVE_ERROR = 4, SEND_ERROR = 8 };

static inline peer_answer answer(uint32_t number, uint32_t value)
{
    peer_answer answer;
    answer.number = number;
    answer.value = value;
    return answer;
}

static inline const uint8_t *ipdu_record(const uint8_t *table, uint32_t ipdu)
{
    return table + HEADER_SIZE + IPDU_SIZE * ipdu;
}

static inline uint8_t *ipdu_row(uint8_t *memory, uint32_t ipdu)
{
    return memory + IPDU_ROWS + ROW_SIZE * ipdu;
}

static inline const uint8_t *object_record(const peer_view *view, uint32_t object)
{
    return view->objects + OBJECT_SIZE * object;
}

/* By the object's record: a row has half its bytes. */
static inline uint8_t *object_row(const peer_view *view, uint8_t *memory, const uint8_t *record)
{
    return memory + OBJECT_ROWS + (size_t)(record - view->objects) / 2;
}

static inline int is_object(const peer_view *view, uint32_t object, uint32_t kind)
{
    return object < view->object_count && object_record(view, object)[KIND] == kind;
}

static inline int is_ipdu(const peer_view *view, const uint8_t *table, uint32_t ipdu, uint32_t direction)
{
    return ipdu < view->ipdu_count && ipdu_record(table, ipdu)[DIRECTION] == direction;
}

/* ---- Bits */

/* A compiler makes one instruction of it. */
static inline uint64_t bytes_turned(uint64_t w)
{
    w = (w & 0x00FF00FF00FF00FF) << 8 | (w >> 8 & 0x00FF00FF00FF00FF);
    w = (w & 0x0000FFFF0000FFFF) << 16 | (w >> 16 & 0x0000FFFF0000FFFF);
    return w << 32 | w >> 32;
}

static inline uint64_t with_field(uint64_t word, uint32_t at, uint64_t mask, uint32_t value)
{
    return (word & ~(mask << at)) | (value & mask) << at;
}

/* Big bits are a run too, once the bytes are turned round; the start bit is then in byte 7 less its own. */
static inline void pack(const uint8_t *record, uint8_t *memory, uint32_t value)
{
    uint8_t *slot = memory + SLOTS + SLOT_SIZE * record[IPDU];
    uint64_t word = load64(slot), mask = ((uint64_t)1 << record[BIT_LENGTH]) - 1;
    if ((record[ORDER] & BIG) == 0)
        word = with_field(word, record[START_BIT], mask, value);
    else
        word = bytes_turned(with_field(bytes_turned(word), record[START_BIT] ^ 56u, mask, value));
    store64(slot, word);
}

/* The value, with its top bit copied upwards where the object is signed: the bit is turned over and taken off again, and
 * where it was set a borrow runs up from it. */
static inline uint32_t extended(const uint8_t *record, uint32_t value)
{
    uint32_t top = (uint32_t)(record[ORDER] / SIGNED) << (record[BIT_LENGTH] - 1);
    return (value ^ top) - top;
}

static inline uint32_t unpack(const uint8_t *record, uint64_t word, uint64_t turned)
{
    uint64_t mask = ((uint64_t)1 << record[BIT_LENGTH]) - 1;
    if ((record[ORDER] & BIG) == 0)
        return extended(record, (uint32_t)(word >> record[START_BIT] & mask));
    return extended(record, (uint32_t)(turned >> (record[START_BIT] ^ 56u) & mask));
}

/* The bit that is turned over in values of an object to compare them: the highest one, where they are signed. */
static inline uint32_t sign_of(const uint8_t *record)
{
    return (uint32_t)(record[ORDER] & SIGNED) << 30;
}

static inline int below(uint32_t sign, uint32_t a, uint32_t b)
{
    return (a ^ sign) < (b ^ sign);
}

/* ---- Filters and delivery */

static inline int passes(const uint8_t *record, const uint8_t *row, uint32_t new)
{
    uint32_t first = load32(record + FIRST_CONSTANT), second = load32(record + SECOND_CONSTANT);
    uint32_t old = load32(row + OLD), sign = sign_of(record);
    switch (record[FILTER]) {
    case 0:
        return 1;
    case 2:
        return (new & first) == second;
    case 3:
        return (new & first) != second;
    case 4:
        return new == old;
    case 5:
        return new != old;
    case 6:
        return ((new ^ old) & first) == 0;
    case 7:
        return ((new ^ old) & first) != 0;
    case 8:
        return !below(sign, new, first) && !below(sign, second, new);
    case 9:
        return below(sign, new, first) || below(sign, second, new);
    case 10:
        return below(sign, old, new);
    case 11:
        return !below(sign, old, new);
    case 12:
        return below(sign, new, old);
    case 13:
        return !below(sign, new, old);
    case ONE_EVERY_N:
        return row[OCCURRENCE] == second;
    default:
        return 0;
    }
}

/* One filtering: whether the value passes. */
static inline int filter(const uint8_t *record, uint8_t *row, uint32_t value)
{
    int passed = passes(record, row, value);
    if (record[FILTER] == ONE_EVERY_N) {
        uint32_t next = row[OCCURRENCE] + 1u;
        row[OCCURRENCE] = next == record[FIRST_CONSTANT] ? 0 : (uint8_t)next;
    }
    if (passed)
        store32(row + OLD, value);
    return passed;
}

static inline uint32_t around(uint32_t place, uint32_t depth)
{
    return place < depth ? place : place - depth;
}

static inline uint8_t *queued(uint8_t *memory, const uint8_t *row, uint32_t place)
{
    return memory + QUEUES + 4 * (load16(row + QUEUE) + place);
}

static inline void deliver(const uint8_t *record, uint8_t *row, uint8_t *memory, uint32_t value)
{
    uint32_t depth = record[DEPTH], count = row[COUNT];
    if (!filter(record, row, value))
        return;
    if (depth == 0) {
        store32(row + VALUE, value);
    } else if (count < depth) {
        store32(queued(memory, row, around(row[HEAD] + count, depth)), value);
        row[COUNT] = (uint8_t)(count + 1);
    } else {
        row[OVERFLOW_NOTED] = 1;
        return;
    }
    row[MARKS] |= ARRIVED;
}

/* ---- Requests */

/* Makes a request that is wanted, if it may go: its bit of the word, or 0. */
static inline uint32_t try_request(const uint8_t *record, uint32_t ipdu, uint8_t *memory, uint8_t *area)
{
    uint8_t *row = ipdu_row(memory, ipdu);
    uint64_t bytes = UINT64_MAX >> (64 - 8 * record[LENGTH]);
    if (record[MODE] != PERIODIC && (row[OPEN] != 0 || load16(row + DELAY) != 0))
        return 0;
    if (row[OPEN] == 0)
        store16(row + TO_DEADLINE, load16(record + DEADLINE));
    row[OPEN] = 1;
    row[WANTED] = 0;
    store64(area + SLOT_SIZE * ipdu, load64(memory + SLOTS + SLOT_SIZE * ipdu) & bytes);
    return (uint32_t)1 << ipdu;
}

#endif
