/* What boundary.c, counts.c, places.c and signed.h lend; each defines TABLE_SIZE, the length of its
 * table, first. */
#ifndef LENT_H
#define LENT_H

#include "checks.h"

/* What is lent, with five and three bytes that no call may touch at the ends. */
#define MEMORY_LENT (BIRNENSCHLOSS_MEMORY_SIZE + 5)
#define AREA_LENT (BIRNENSCHLOSS_AREA_SIZE + 3)

static struct lent {
    uint8_t table[TABLE_SIZE];
    uint8_t memory[MEMORY_LENT];
    uint8_t area[AREA_LENT];
} lent, before;

#define LENT lent.table, TABLE_SIZE, lent.memory, MEMORY_LENT
#define AREA lent.area, AREA_LENT

#endif
