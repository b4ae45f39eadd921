/*
 * A second layer, written by hand in C99 to be fast: what bench/beside.sh measures the proved calls against. Every call
 * takes and answers what the call of include/birnenschloss.h of the same name does, checks as much, and leaves the same
 * bytes. Numbers are loaded as they lie in memory: the host has to be little-endian.
 */
#ifndef PEER_H
#define PEER_H

#include <stddef.h>
#include <stdint.h>

typedef struct {
    uint32_t number;
    uint32_t value;
} peer_answer;

typedef struct {
    uint32_t object;
    uint32_t value;
} peer_pair;

peer_answer peer_check(const uint8_t *table, size_t table_length);
uint32_t peer_ipdu_length(const uint8_t *table, size_t table_length, uint32_t ipdu);

peer_answer peer_start(const uint8_t *table, size_t table_length, uint8_t *memory, size_t memory_length);
peer_answer peer_stop(const uint8_t *table, size_t table_length, uint8_t *memory, size_t memory_length);

peer_answer peer_send(const uint8_t *table, size_t table_length, uint8_t *memory, size_t memory_length,
                      uint8_t *area, size_t area_length, uint32_t object, uint32_t value);
peer_answer peer_send_group(const uint8_t *table, size_t table_length, uint8_t *memory, size_t memory_length,
                            uint8_t *area, size_t area_length, const uint8_t *pairs, size_t pairs_length,
                            uint8_t *statuses, size_t statuses_length);
peer_answer peer_send_records(const uint8_t *table, size_t table_length, uint8_t *memory, size_t memory_length,
                              uint8_t *area, size_t area_length, const peer_pair *pairs, size_t pair_count,
                              uint8_t *statuses, size_t statuses_length);
peer_answer peer_initialise(const uint8_t *table, size_t table_length, uint8_t *memory, size_t memory_length,
                            uint32_t object, uint32_t value);

peer_answer peer_receive(const uint8_t *table, size_t table_length, uint8_t *memory, size_t memory_length,
                         uint32_t object);
peer_answer peer_status(const uint8_t *table, size_t table_length, const uint8_t *memory, size_t memory_length,
                        uint32_t object);
peer_answer peer_marks(const uint8_t *table, size_t table_length, const uint8_t *memory, size_t memory_length,
                       uint32_t object);
peer_answer peer_clear_marks(const uint8_t *table, size_t table_length, uint8_t *memory, size_t memory_length,
                             uint32_t object);

peer_answer peer_start_periodic(const uint8_t *table, size_t table_length, uint8_t *memory, size_t memory_length);
peer_answer peer_stop_periodic(const uint8_t *table, size_t table_length, uint8_t *memory, size_t memory_length);
peer_answer peer_indication(const uint8_t *table, size_t table_length, uint8_t *memory, size_t memory_length,
                            uint32_t ipdu, uint32_t good, const uint8_t *bytes, size_t length);
peer_answer peer_confirm(const uint8_t *table, size_t table_length, uint8_t *memory, size_t memory_length,
                         uint32_t ipdu, uint32_t good);
peer_answer peer_tick(const uint8_t *table, size_t table_length, uint8_t *memory, size_t memory_length,
                      uint8_t *area, size_t area_length);

peer_answer peer_sheet_begin(const uint8_t *table, size_t table_length, const uint8_t *memory, size_t memory_length,
                             uint8_t *sheet, size_t sheet_length, const uint32_t *objects, size_t objects_count);
peer_answer peer_sheet_drain(const uint8_t *table, size_t table_length, uint8_t *memory, size_t memory_length,
                             uint8_t *sheet, size_t sheet_length, uint8_t *text, size_t text_length);

#endif
