/* The calls for I-PDUs: periods, indication, confirm and tick. */
#include "parts.h"

/* ---- The objects of an I-PDU */

/* The first record from `record` on that is in the I-PDU, or `end`; four in a turn. */
static const uint8_t *next_of_ipdu(const uint8_t *record, const uint8_t *end, uint8_t ipdu)
{
    const uint8_t *fours = record + ((size_t)(end - record) & ~(size_t)(4 * OBJECT_SIZE - 1));
    for (; record != fours; record += 4 * OBJECT_SIZE) {
        if (record[IPDU] == ipdu)
            return record;
        if (record[OBJECT_SIZE + IPDU] == ipdu)
            return record + OBJECT_SIZE;
        if (record[2 * OBJECT_SIZE + IPDU] == ipdu)
            return record + 2 * OBJECT_SIZE;
        if (record[3 * OBJECT_SIZE + IPDU] == ipdu)
            return record + 3 * OBJECT_SIZE;
    }
    while (record != end && record[IPDU] != ipdu)
        record += OBJECT_SIZE;
    return record;
}

static void mark(const peer_view *view, uint8_t *memory, uint32_t ipdu, uint32_t mark)
{
    const uint8_t *end = view->end, *record = next_of_ipdu(view->objects, end, (uint8_t)ipdu);
    while (record != end) {
        uint8_t *row = object_row(view, memory, record);
        row[MARKS] = (uint8_t)(row[MARKS] | mark);
        record = next_of_ipdu(record + OBJECT_SIZE, end, (uint8_t)ipdu);
    }
}

/* An error mark on the objects of every I-PDU in the set, in one walk. Of the number of no I-PDU, 255, bit 63 is asked
 * for, which no set has. */
static void mark_errors(const peer_view *view, uint8_t *memory, uint64_t ipdus)
{
    const uint8_t *record = view->objects;
    uint8_t *row = memory + OBJECT_ROWS;
    for (; record != view->end; record += OBJECT_SIZE, row += ROW_SIZE)
        if (ipdus >> (record[IPDU] & 63) & 1)
            row[MARKS] |= record[KIND] == SEND ? SEND_ERROR : RECEIVE_ERROR;
}

/* ---- Periods */

peer_answer peer_start_periodic(const uint8_t *table, size_t table_length, uint8_t *memory, size_t memory_length)
{
    peer_view view;
    uint32_t refusal = peer_admit(&view, table, table_length, memory, memory_length >= MEMORY_SIZE);
    const uint8_t *record = table + HEADER_SIZE;
    if (refusal != DONE)
        return answer(refusal, 0);
    for (; record != view.objects; record += IPDU_SIZE)
        if (record[MODE] != DIRECT) {
            uint8_t *row = memory + (record - table);
            row[RUNNING] = 1;
            store16(row + COUNTDOWN, load16(record + OFFSET));
        }
    return answer(DONE, 0);
}

peer_answer peer_stop_periodic(const uint8_t *table, size_t table_length, uint8_t *memory, size_t memory_length)
{
    peer_view view;
    uint32_t refusal = peer_admit(&view, table, table_length, memory, memory_length >= MEMORY_SIZE), ipdu;
    if (refusal != DONE)
        return answer(refusal, 0);
    /* A row of mode 0, or of a receive I-PDU, has 0 already. */
    for (ipdu = 0; ipdu < view.ipdu_count; ipdu++)
        ipdu_row(memory, ipdu)[RUNNING] = 0;
    return answer(DONE, 0);
}

/* ---- Indication and confirm */

static void deliver_frame(const peer_view *view, uint8_t *memory, uint32_t ipdu)
{
    uint64_t word = load64(memory + SLOTS + SLOT_SIZE * ipdu), turned = bytes_turned(word);
    const uint8_t *end = view->end, *record = next_of_ipdu(view->objects, end, (uint8_t)ipdu);
    while (record != end) {
        deliver(record, object_row(view, memory, record), memory, unpack(record, word, turned));
        record = next_of_ipdu(record + OBJECT_SIZE, end, (uint8_t)ipdu);
    }
}

static inline void copy_frame(uint8_t *slot, const uint8_t *bytes, size_t length)
{
    size_t i;
    if (length == SLOT_SIZE)
        memcpy(slot, bytes, SLOT_SIZE);
    else
        for (i = 0; i < length; i++)
            slot[i] = bytes[i];
}

peer_answer peer_indication(const uint8_t *table, size_t table_length, uint8_t *memory, size_t memory_length,
                            uint32_t ipdu, uint32_t good, const uint8_t *bytes, size_t length)
{
    peer_view view;
    uint32_t refusal = peer_admit(&view, table, table_length, memory, memory_length >= MEMORY_SIZE);
    const uint8_t *record;
    if (refusal != DONE)
        return answer(refusal, 0);
    if (!is_ipdu(&view, table, ipdu, RECEIVE))
        return answer(WRONG_ID, 0);
    if (good == 0) {
        mark(&view, memory, ipdu, RECEIVE_ERROR);
        return answer(DONE, 0);
    }
    record = ipdu_record(table, ipdu);
    if (length != record[LENGTH])
        return answer(WRONG_LENGTH, 0);
    copy_frame(memory + SLOTS + SLOT_SIZE * ipdu, bytes, length);
    deliver_frame(&view, memory, ipdu);
    store16(ipdu_row(memory, ipdu) + TIMER, load16(record + DEADLINE));
    return answer(DONE, 0);
}

peer_answer peer_confirm(const uint8_t *table, size_t table_length, uint8_t *memory, size_t memory_length,
                         uint32_t ipdu, uint32_t good)
{
    peer_view view;
    uint32_t refusal = peer_admit(&view, table, table_length, memory, memory_length >= MEMORY_SIZE);
    uint8_t *row;
    if (refusal != DONE)
        return answer(refusal, 0);
    if (!is_ipdu(&view, table, ipdu, SEND))
        return answer(WRONG_ID, 0);
    row = ipdu_row(memory, ipdu);
    if (row[OPEN] == 0)
        return answer(NOT_REQUESTED, 0);
    row[OPEN] = 0;
    store16(row + TO_DEADLINE, 0);
    store16(row + DELAY, good != 0 ? load16(ipdu_record(table, ipdu) + MINIMUM_DELAY) : 0);
    mark(&view, memory, ipdu, good != 0 ? SENT : SEND_ERROR);
    return answer(DONE, 0);
}

/* ---- Tick */

/* Whether the deadline of an open request runs out with this tick; the request is closed then. */
static inline int tick_deadline(uint8_t *row)
{
    uint32_t left = load16(row + TO_DEADLINE);
    if (left > 1) {
        store16(row + TO_DEADLINE, left - 1);
        return 0;
    }
    row[OPEN] = 0;
    store32(row + DELAY, 0); /* and the deadline behind it */
    return 1;
}

static inline void tick_period(const uint8_t *record, uint8_t *row)
{
    uint32_t left = load16(row + COUNTDOWN);
    if (left > 1) {
        store16(row + COUNTDOWN, left - 1);
        return;
    }
    store16(row + COUNTDOWN, load16(record + PERIOD));
    row[WANTED] = 1;
}

/* Whether the receive timer runs out with this tick; it starts again then. */
static inline int tick_timer(const uint8_t *record, uint8_t *row)
{
    uint32_t left = load16(row + TIMER);
    if (left != 0)
        store16(row + TIMER, left == 1 ? load16(record + DEADLINE) : left - 1);
    return left == 1;
}

peer_answer peer_tick(const uint8_t *table, size_t table_length, uint8_t *memory, size_t memory_length,
                      uint8_t *area, size_t area_length)
{
    peer_view view;
    int fits = memory_length >= MEMORY_SIZE && area_length >= AREA_SIZE;
    uint32_t refusal = peer_admit(&view, table, table_length, memory, fits), word = 0, ipdu, last = 0;
    uint64_t expired = 0;
    if (refusal != DONE)
        return answer(refusal, 0);
    for (ipdu = 0; ipdu < view.ipdu_count; ipdu++) {
        const uint8_t *record = ipdu_record(table, ipdu);
        uint8_t *row = ipdu_row(memory, ipdu);
        int expires = 0;
        if (record[DIRECTION] == RECEIVE) {
            expires = tick_timer(record, row);
        } else if ((load64(row) & 0x0000FFFF00FFFFFF) != 0) { /* else nothing is open, wanted, running or delayed */
            uint32_t delay = load16(row + DELAY);
            if (delay != 0)
                store16(row + DELAY, delay - 1);
            if (row[OPEN] != 0)
                expires = tick_deadline(row);
            if (row[RUNNING] != 0)
                tick_period(record, row);
            if (row[WANTED] != 0)
                word |= try_request(record, ipdu, memory, area);
        }
        if (expires) {
            expired |= (uint64_t)1 << ipdu;
            last = ipdu;
        }
    }
    /* The objects of one I-PDU are searched for; those of several are met in one walk. */
    if (expired == (uint64_t)1 << last)
        mark(&view, memory, last, ipdu_record(table, last)[DIRECTION] == SEND ? SEND_ERROR : RECEIVE_ERROR);
    else if (expired != 0)
        mark_errors(&view, memory, expired);
    return answer(DONE, word);
}
