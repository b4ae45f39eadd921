/*
 * Birnenschloss: an interaction layer after OSEK COM 3.0.3, for callers in C99 and C++.
 *
 * What is lent. Every call works on bytes of the caller, given by their start and their number:
 *   table    says which I-PDUs and message objects there are (docs/TABLE.md); only read
 *   memory   working memory, at least 8192 bytes; the first 8192 are used (docs/MEMORY.md)
 *   area     request area of sends and ticks, at least 256 bytes; slot k, 8 bytes from byte 8 * k
 *            on, gets the bytes of I-PDU k, with zeros up to 8, when the I-PDU is requested
 *   bytes    the bytes of an indication; only read
 *   pairs    what a group sends, as bytes or as structs; only read
 *   statuses a byte for each pair of a group
 *   sheet    of a journey, at least 520 bytes; the first 520 are used (docs/SHEET.md)
 *   objects  the numbers of the objects that a sheet follows; only read
 *   text     gets the lines of a sheet, at least 1536 bytes
 * Arrays of birnenschloss_pair and of objects have the alignment of their types; nothing else needs
 * one. Nothing is kept between calls but in the lent memory and sheet, and no pointer is kept at
 * all: table, memory and sheet may move, if their bytes move with them.
 *
 * Values. A value is a word of 32 bits. A message object is unsigned or, where its byte order in
 * the table is 2 or 3, signed: then its values are numbers in two's complement, which
 * birnenschloss_signed gives. An indication fills the bits above an unsigned reading with 0, above
 * a signed one with its top bit; filters 8 to 13 of a signed object compare as signed, constants
 * and old value too; a sheet orders and prints its values as signed. Only packing cuts a value to
 * the object's bits: what was sent inside, initialised or is the initial value is received whole.
 *
 * Threads. There is no global state: calls over different memories may run at once. Two calls over
 * one memory must not, nor over one area: let a lock or an interrupt mask see to it.
 *
 * Answers. A call answers a number and a value. A number other than 0 refuses the call: all lent
 * bytes stay as they were, and the value is 0 (birnenschloss_check gives a place with its 5). One
 * exception: a receive that answers E_COM_LIMIT is not refused. It gives the oldest value of the
 * queue, removes it there and clears the overflow. Of several reasons to refuse, the first in the
 * order 5, 6, 7, 1, 2, 8, 4, 3, 10 is answered; a group has 1 as a status alone.
 *
 * At the boundary. Any numbers and any contents of the lent bytes are answered, and so are bytes
 * that are too few: a table of 0 or 1 bytes by 5, a memory or an area of 0 or 1 bytes by 6. Left to
 * the caller, and undefined otherwise:
 *   - no pointer is null, also where the length is 0: for no bytes, any other pointer will do
 *   - so many bytes, or structs, as the length says are there, and have been written (static
 *     storage has)
 *   - memory, area, statuses, sheet and text share no byte with each other, nor with what is only
 *     read
 */
#ifndef BIRNENSCHLOSS_H
#define BIRNENSCHLOSS_H

#include <stddef.h>
#include <stdint.h>

/* The numbers. An operating system's header may have E_OK: include it before this one. */
#ifndef E_OK
#define E_OK 0 /* done */
#endif
#ifndef E_COM_ID
#define E_COM_ID 1 /* no such object or I-PDU, or not of the kind that the call needs */
#endif
#ifndef E_COM_LENGTH
#define E_COM_LENGTH 2 /* a good indication not as long as its I-PDU; a group of wrong length */
#endif
#ifndef E_COM_LIMIT
#define E_COM_LIMIT 3 /* the queue has lost a value since the last receive */
#endif
#ifndef E_COM_NOMSG
#define E_COM_NOMSG 4 /* the queue is empty */
#endif
#define BIRNENSCHLOSS_E_TABLE 5         /* the table is wrong */
#define BIRNENSCHLOSS_E_MEMORY 6        /* memory or area short, or a stored number out of range */
#define BIRNENSCHLOSS_E_STOPPED 7       /* the layer is stopped */
#define BIRNENSCHLOSS_E_NOT_REQUESTED 8 /* a confirm, and no request is open */
#define BIRNENSCHLOSS_E_FOLLOWED 10     /* a sheet for more than 16 objects, or for one twice */

/* Does not compile where another header gives OSEK's names other numbers than the library. */
typedef char birnenschloss_numbers_agree[(E_OK) == 0 && (E_COM_ID) == 1 && (E_COM_LENGTH) == 2 &&
                                                 (E_COM_LIMIT) == 3 && (E_COM_NOMSG) == 4
                                             ? 1
                                             : -1];

/* Bytes of working memory, of a request area, and of one slot in it. */
#define BIRNENSCHLOSS_MEMORY_SIZE 8192
#define BIRNENSCHLOSS_AREA_SIZE 256
#define BIRNENSCHLOSS_SLOT_SIZE 8

/* The most pairs of a group, and the bytes of a pair in the form of bytes. */
#define BIRNENSCHLOSS_MOST_PAIRS 16
#define BIRNENSCHLOSS_PAIR_SIZE 5

/* Bytes of a sheet and of a text for its lines, and the most objects that a sheet follows. */
#define BIRNENSCHLOSS_SHEET_SIZE 520
#define BIRNENSCHLOSS_SHEET_TEXT_SIZE 1536
#define BIRNENSCHLOSS_MOST_FOLLOWED 16

/* The marks of a message object, added. */
#define BIRNENSCHLOSS_MARK_ARRIVED 1
#define BIRNENSCHLOSS_MARK_SENT 2
#define BIRNENSCHLOSS_MARK_RECEIVE_ERROR 4
#define BIRNENSCHLOSS_MARK_SEND_ERROR 8

/* The places that birnenschloss_check names: the header, below 256 the number of an I-PDU, from
 * 256 on the number of a message object and 256. */
#define BIRNENSCHLOSS_PLACE_HEADER 65535
#define BIRNENSCHLOSS_PLACE_OBJECT 256

/* A number, and the value that comes with it. */
typedef struct birnenschloss_answer {
    uint32_t number;
    uint32_t value;
} birnenschloss_answer;

/* A pair of a group: the number of a send object, and the value to send. In the braces of C++ a
 * negative number needs (uint32_t) before it. */
typedef struct birnenschloss_pair {
    uint32_t object;
    uint32_t value;
} birnenschloss_pair;

/* The signed reading of a value, for an object whose byte order in the table is 2 or 3. No function
 * is needed the other way: an int32_t passed as a value converts by itself to its 32 bits. */
static inline int32_t birnenschloss_signed(uint32_t value)
{
    return value <= INT32_MAX ? (int32_t)value : -1 - (int32_t)(UINT32_MAX - value);
}

/* Whether the word of a send, group or tick names the I-PDU: its frame then stands in its slot. */
static inline int birnenschloss_is_requested(uint32_t word, uint32_t ipdu)
{
    return ipdu < 32 && (word >> ipdu & 1) != 0;
}

/* What the number of an answer means, in words. */
static inline const char *birnenschloss_number_text(uint32_t number)
{
    static const char *const texts[] = {
        "done",
        "no such message object or I-PDU, or not of the kind that the call needs",
        "not as many bytes as the I-PDU has; or a group of more than 16 pairs, with a pair cut off, or not with a status for each",
        "the queue has lost a value since the last receive",
        "the queue is empty",
        "the table is wrong",
        "memory, request area, sheet or text refused: ask if they have 8192, 256, 520 and 1536 bytes, if the layer was started over this table, and if the sheet was begun",
        "the layer is stopped, or was never started",
        "no request of this I-PDU is open",
        "none of the layer's numbers",
        "a sheet for more than 16 objects, or for one twice",
    };
    return number < sizeof texts / sizeof texts[0] ? texts[number] : "none of the layer's numbers";
}

#ifdef __cplusplus
extern "C" {
#endif

/* Checks a table. Answers 0, or 5 with the place of the first wrong record. */
birnenschloss_answer birnenschloss_check(const uint8_t *table, size_t table_length);

/* The length of an I-PDU in bytes, 1 to 8; 0 where the table is wrong or has no such I-PDU. Checks
 * the whole table each time: ask once, not at each frame. */
uint32_t birnenschloss_ipdu_length(const uint8_t *table, size_t table_length, uint32_t ipdu);

/* Starts the layer, or starts it again: writes all 8192 bytes, from the table alone. I-PDUs and
 * receive objects get the initial values; queues are empty, marks clear, no period runs. It comes
 * first: memory of zeros, as static storage is, is never that of a layer that runs, and every other
 * call over it is refused, with 6 or 7 where the table is right. Answers 0, 5, 6 (for the length
 * alone). */
birnenschloss_answer birnenschloss_start(const uint8_t *table, size_t table_length,
                                         uint8_t *memory, size_t memory_length);

/* Stops the layer: up to the next start every other call over this memory is refused, with 7 where
 * there is no reason for 5 or 6. Answers 0, 5, 6, 7. */
birnenschloss_answer birnenschloss_stop(const uint8_t *table, size_t table_length,
                                        uint8_t *memory, size_t memory_length);

/* Sends a value: gives it to the internal receivers, then filters, and packs what passes. With that
 * a triggered object asks for its I-PDU, if that is not periodic: now or, while another request is
 * open or the minimum delay runs, at a later tick. Answers 0 with the word of the I-PDUs requested
 * now, also for a dropped value; 1 (no send object), 5, 6, 7. */
birnenschloss_answer birnenschloss_send(const uint8_t *table, size_t table_length,
                                        uint8_t *memory, size_t memory_length,
                                        uint8_t *area, size_t area_length,
                                        uint32_t object, uint32_t value);

/* Sends a group of up to 16 values, one after the other as birnenschloss_send would, with one check
 * of table, memory and area for all. A pair is 5 bytes: the number of a send object, then the
 * value, its low byte first. statuses has one byte for each pair and gets the number that its own
 * send answers, 0 or 1; the pairs after one with 1 are sent as well. A frame has what was packed
 * when it was requested: for a pending object to be in it, its pair stands before the triggered
 * one's.
 * Answers 0 with the words of all sends joined; 2 (more than 16 pairs, a last pair that is cut off,
 * or not as many statuses as pairs), 5, 6, 7. A refused group leaves the statuses too. */
birnenschloss_answer birnenschloss_send_group(const uint8_t *table, size_t table_length,
                                              uint8_t *memory, size_t memory_length,
                                              uint8_t *area, size_t area_length,
                                              const uint8_t *pairs, size_t pairs_length,
                                              uint8_t *statuses, size_t statuses_length);

/* The same with the pairs as structs, pair_count of them. A number above 255 is no object's. */
birnenschloss_answer birnenschloss_send_records(const uint8_t *table, size_t table_length,
                                                uint8_t *memory, size_t memory_length,
                                                uint8_t *area, size_t area_length,
                                                const birnenschloss_pair *pairs,
                                                size_t pair_count,
                                                uint8_t *statuses, size_t statuses_length);

/* Sets the bits of a send object in its I-PDU, or the value of an unqueued receive object; empties
 * a queue and clears its overflow. The filter's old value becomes the value. Not filtered, and no
 * request. Answers 0, 1 (no object), 5, 6, 7. */
birnenschloss_answer birnenschloss_initialise(const uint8_t *table, size_t table_length,
                                              uint8_t *memory, size_t memory_length,
                                              uint32_t object, uint32_t value);

/* Gives the value of an unqueued receive object, or the oldest of a queue and removes it there.
 * Answers 0 or 3 with the value; a 3 removes it too, and clears the overflow; 1 (no receive
 * object), 4, 5, 6, 7. */
birnenschloss_answer birnenschloss_receive(const uint8_t *table, size_t table_length,
                                           uint8_t *memory, size_t memory_length,
                                           uint32_t object);

/* The state of a queue; changes nothing. Answers 0 (a value waits), 1 (no queued object), 3, 4, 5,
 * 6, 7, each with 0. */
birnenschloss_answer birnenschloss_status(const uint8_t *table, size_t table_length,
                                          const uint8_t *memory, size_t memory_length,
                                          uint32_t object);

/* The marks of an object; changes nothing. Answers 0 with their sum, 1 (no object), 5, 6, 7. */
birnenschloss_answer birnenschloss_marks(const uint8_t *table, size_t table_length,
                                         const uint8_t *memory, size_t memory_length,
                                         uint32_t object);

/* Clears the marks of an object, all four. Answers 0, 1 (no object), 5, 6, 7. */
birnenschloss_answer birnenschloss_clear_marks(const uint8_t *table, size_t table_length,
                                               uint8_t *memory, size_t memory_length,
                                               uint32_t object);

/* Sets the period of each periodic and mixed I-PDU to its offset, running or not, and lets it
 * run. Answers 0, 5, 6, 7. */
birnenschloss_answer birnenschloss_start_periodic(const uint8_t *table, size_t table_length,
                                                  uint8_t *memory, size_t memory_length);

/* Halts all periods; a request that waits stays. Answers 0, 5, 6, 7. */
birnenschloss_answer birnenschloss_stop_periodic(const uint8_t *table, size_t table_length,
                                                 uint8_t *memory, size_t memory_length);

/* The bus has received an I-PDU. Good (not 0): its bytes are kept and delivered to its objects, and
 * its deadline starts again. Not good: receive error is marked on its objects, and the bytes are
 * not looked at. Answers 0, 1 (no receive I-PDU), 2, 5, 6, 7. */
birnenschloss_answer birnenschloss_indication(const uint8_t *table, size_t table_length,
                                              uint8_t *memory, size_t memory_length,
                                              uint32_t ipdu, uint32_t good,
                                              const uint8_t *bytes, size_t length);

/* The bus has transmitted a requested I-PDU, good (not 0) or not: closes the request and marks sent
 * or send error on its objects. Good starts the minimum delay. Answers 0, 1 (no send I-PDU), 5, 6,
 * 7, 8. */
birnenschloss_answer birnenschloss_confirm(const uint8_t *table, size_t table_length,
                                           uint8_t *memory, size_t memory_length,
                                           uint32_t ipdu, uint32_t good);

/* A tick of time has passed: delays, deadlines and periods go on, and requests that waited are
 * made. Answers 0 with the word of the I-PDUs requested; 5, 6, 7. */
birnenschloss_answer birnenschloss_tick(const uint8_t *table, size_t table_length,
                                        uint8_t *memory, size_t memory_length,
                                        uint8_t *area, size_t area_length);

/* Begins a sheet that follows these objects, objects_count of them, each a queued receive object;
 * nothing is drained yet. Writes all 520 bytes of the sheet; memory is only looked at. Answers 0; 1
 * (an object that is not a queued one), 5, 6 (the sheet too), 7, 10 (more than 16, or one twice). */
birnenschloss_answer birnenschloss_sheet_begin(const uint8_t *table, size_t table_length,
                                               const uint8_t *memory, size_t memory_length,
                                               uint8_t *sheet, size_t sheet_length,
                                               const uint32_t *objects, size_t objects_count);

/* Drains the objects of a sheet in the order given: receives each until a receive answers 4, then
 * reads its marks and clears them where they hold receive error. Then writes a line for each at the
 * front of the text: number, drained, first, last, least, greatest, overflows, errors; the four
 * values are - where nothing was drained, and signed where the object is. The text ends with no 0.
 * Answers 0 with how many bytes were written; 1, 5, 6 (the sheet or the text too), 7, 10, and then
 * nothing is drained. */
birnenschloss_answer birnenschloss_sheet_drain(const uint8_t *table, size_t table_length,
                                               uint8_t *memory, size_t memory_length,
                                               uint8_t *sheet, size_t sheet_length,
                                               uint8_t *text, size_t text_length);

#ifdef __cplusplus
}
#endif

#endif
