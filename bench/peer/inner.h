/* What the files of the peer share: places in table and memory, loads and stores, and the checks before a call. */
#ifndef INNER_H
#define INNER_H

#include "peer.h"

#include <string.h>

/* Answers. */
enum {
    DONE = 0,
    WRONG_ID = 1,
    WRONG_LENGTH = 2,
    LIMIT = 3,
    NO_MESSAGE = 4,
    WRONG_TABLE = 5,
    WRONG_MEMORY = 6,
    STOPPED = 7,
    NOT_REQUESTED = 8,
    NOT_FOLLOWED = 10
};

/* Limits and sizes. */
enum {
    MOST_IPDUS = 32,
    MOST_OBJECTS = 128,
    MOST_QUEUED = 512,
    MOST_PAIRS = 16,
    PAIR_SIZE = 5,
    MEMORY_SIZE = 8192,
    AREA_SIZE = 256
};

/* The table: records, and the bytes of their fields. */
enum {
    HEADER_SIZE = 16,
    IPDU_SIZE = 16,
    DIRECTION = 0,
    LENGTH = 1,
    MODE = 2,
    PERIOD = 4,
    OFFSET = 6,
    MINIMUM_DELAY = 8,
    DEADLINE = 10,
    FIRST_DEADLINE = 12,

    OBJECT_SIZE = 32,
    KIND = 0,
    IPDU = 1,
    SENDER = 2,
    START_BIT = 3,
    BIT_LENGTH = 4,
    ORDER = 5,
    TRANSFER = 6,
    DEPTH = 7,
    FILTER = 8,
    INITIAL = 12,
    FIRST_CONSTANT = 16,
    SECOND_CONSTANT = 20,
    REST = 24
};

/* Values of those fields. An order has a bit for big and one for signed. */
enum { SEND = 1, RECEIVE = 2, DIRECT = 0, PERIODIC = 1, MIXED = 2, BIG = 1, SIGNED = 2, ONE_EVERY_N = 14, NONE = 255 };

/* Working memory: where its parts begin, and the bytes of a row. */
enum {
    IPDU_ROWS = 16,
    ROW_SIZE = 16,
    SLOTS = 528,
    SLOT_SIZE = 8,
    OBJECT_ROWS = 784,
    QUEUES = 2832,

    OPEN = 0,
    WANTED = 1,
    RUNNING = 2,
    DELAY = 4,
    TO_DEADLINE = 6,
    COUNTDOWN = 8,
    TIMER = 10,

    VALUE = 0,
    OLD = 4,
    OCCURRENCE = 8,
    MARKS = 9,
    OVERFLOW_NOTED = 10,
    HEAD = 11,
    COUNT = 12,
    QUEUE = 14
};

/* What a call knows of a table that it has checked. */
typedef struct {
    const uint8_t *objects; /* the object records */
    const uint8_t *end;
    const uint8_t *inside; /* from the first to the last of them that has a sending object */
    const uint8_t *inside_end;
    uint32_t ipdu_count;
    uint32_t object_count;
} peer_view;

/* 0 and the view, or 5, 6 or 7. `fits` is whether what else was lent is long enough. */
uint32_t peer_admit(peer_view *view, const uint8_t *table, size_t table_length, const uint8_t *memory, int fits);
/* The same before a start, which does not look into memory. */
uint32_t peer_admit_start(peer_view *view, const uint8_t *table, size_t table_length, int fits);

/* A memcpy of fixed size is one load or store. */
static inline uint32_t load16(const uint8_t *from)
{
    uint16_t number;
    memcpy(&number, from, sizeof number);
    return number;
}

static inline uint32_t load32(const uint8_t *from)
{
    uint32_t number;
    memcpy(&number, from, sizeof number);
    return number;
}

static inline uint64_t load64(const uint8_t *from)
{
    uint64_t number;
    memcpy(&number, from, sizeof number);
    return number;
}

static inline void store16(uint8_t *to, uint32_t number)
{
    uint16_t low = (uint16_t)number;
    memcpy(to, &low, sizeof low);
}

static inline void store32(uint8_t *to, uint32_t number)
{
    memcpy(to, &number, sizeof number);
}

static inline void store64(uint8_t *to, uint64_t number)
{
    memcpy(to, &number, sizeof number);
}

#endif
