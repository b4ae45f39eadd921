/*
 * A firmware loop over the layer, with a simulated bus and timer. A climate box sends the humidity
 * and temperature of a case, and receives set points. Prints a line for each event.
 *
 *   cc -std=c99 -Iinclude examples/firmware.c target/staticlib/libexports.a -o firmware
 */
#include <stdio.h>
#include <string.h>

#include "birnenschloss.h"

enum { CLIMATE, CONTROL };                 /* I-PDUs */
enum { HUMIDITY, TEMPERATURE, SET_POINT }; /* message objects */

static const uint8_t table[] = {
    /* 2 I-PDUs, 3 message objects, records at 16 and 48, 144 bytes in all */
    2, 0, 3, 0, 16, 0, 48, 0, 144, 0, 0, 0, 0, 0, 0, 0,
    /* climate: sent, 4 bytes, mixed; period 5, offset 2, minimum delay 1, deadline 4 */
    1, 4, 2, 0, 5, 0, 2, 0, 1, 0, 4, 0, 0, 0, 0, 0,
    /* control: received, 2 bytes; deadline 4, the first one 6 */
    2, 2, 0, 0, 0, 0, 0, 0, 0, 0, 4, 0, 6, 0, 0, 0,
    /* humidity in permille: sent in climate, bit 0, 10 bits, little, triggered; filter 5, a new
     * value differs from the old one; initial value 450 */
    1, 0, 255, 0, 10, 0, 0, 0, 5, 0, 0, 0, 0xC2, 0x01, 0, 0,
    0, 0, 0, 0, 0, 0, 0, 0, 0, 0, 0, 0, 0, 0, 0, 0,
    /* temperature in tenths: sent in climate, bit 24, 12 bits, big, pending; filter 8, from 100 to
     * 300; initial value 200 */
    1, 0, 255, 24, 12, 1, 1, 0, 8, 0, 0, 0, 200, 0, 0, 0,
    100, 0, 0, 0, 0x2C, 0x01, 0, 0, 0, 0, 0, 0, 0, 0, 0, 0,
    /* set point: received in control, bit 0, 16 bits, little; a queue of 2, every value passes */
    2, 1, 255, 0, 16, 0, 0, 2, 0, 0, 0, 0, 0, 0, 0, 0,
    0, 0, 0, 0, 0, 0, 0, 0, 0, 0, 0, 0, 0, 0, 0, 0,
};

static uint8_t memory[BIRNENSCHLOSS_MEMORY_SIZE];
static uint8_t area[BIRNENSCHLOSS_AREA_SIZE];

#define LENT table, sizeof table, memory, sizeof memory

/* What happens outside the layer at a tick: a reading is taken, or the bus has a set point. */
enum happening { READ_HUMIDITY, READ_TEMPERATURE, BUS_SET_POINT, BUS_ERROR };

struct event {
    unsigned tick;
    enum happening what;
    uint32_t value;
};

static const struct event events[] = {
    {1, READ_HUMIDITY, 450}, /* dropped: as the initial value */
    {3, READ_HUMIDITY, 463}, /* postponed by the minimum delay */
    {3, READ_TEMPERATURE, 215},
    {4, BUS_SET_POINT, 500},
    {5, READ_HUMIDITY, 471}, /* this frame will fail */
    {9, BUS_SET_POINT, 510},
    {10, BUS_SET_POINT, 520},
    {11, BUS_SET_POINT, 530},    /* lost: the queue is full */
    {11, READ_TEMPERATURE, 999}, /* dropped: above 300 */
    {13, BUS_ERROR, 0},
    {13, READ_TEMPERATURE, 221},
    {15, READ_HUMIDITY, 480},
    {16, BUS_SET_POINT, 540},
};

/* The simulated bus: the frame on it is confirmed at the next tick. The third one fails. */
static struct {
    int busy;
    unsigned frames;
} bus;

static unsigned now;

static void print_bytes(const uint8_t *bytes, size_t length)
{
    size_t i;
    for (i = 0; i < length; i++)
        printf(" %02X", (unsigned)bytes[i]);
    printf("\n");
}

/* Puts the frames that a send or a tick has requested on the bus. */
static void transmit(birnenschloss_answer answer)
{
    if (answer.number == E_OK && birnenschloss_is_requested(answer.value, CLIMATE)) {
        bus.busy = 1;
        bus.frames++;
        printf("%2u: climate goes out:", now);
        print_bytes(area + CLIMATE * BIRNENSCHLOSS_SLOT_SIZE, 4);
    }
}

static void bus_confirms(void)
{
    uint32_t good = bus.frames != 3;
    if (!bus.busy)
        return;
    bus.busy = 0;
    printf("%2u: climate confirmed%s: %u\n", now, good ? "" : " as failed",
           (unsigned)birnenschloss_confirm(LENT, CLIMATE, good).number);
}

static void bus_indicates(uint32_t good, uint32_t value)
{
    uint8_t bytes[2];
    bytes[0] = (uint8_t)(value & 255);
    bytes[1] = (uint8_t)(value >> 8);
    printf("%2u: control arrives%s: %u\n", now, good ? "" : " damaged",
           (unsigned)birnenschloss_indication(LENT, CONTROL, good, bytes, sizeof bytes).number);
}

static void send_reading(const char *name, uint32_t object, uint32_t value)
{
    birnenschloss_answer answer =
        birnenschloss_send(LENT, area, sizeof area, object, value);
    printf("%2u: send %s %u: %u\n", now, name, (unsigned)value, (unsigned)answer.number);
    transmit(answer);
}

static void happen(const struct event *event)
{
    switch (event->what) {
    case READ_HUMIDITY: send_reading("humidity", HUMIDITY, event->value); break;
    case READ_TEMPERATURE: send_reading("temperature", TEMPERATURE, event->value); break;
    case BUS_SET_POINT: bus_indicates(1, event->value); break;
    case BUS_ERROR: bus_indicates(0, 0); break;
    }
}

/* Prints and clears the marks of an object that has some. */
static void look_at_marks(const char *name, uint32_t object)
{
    uint32_t marks = birnenschloss_marks(LENT, object).value;
    if (marks == 0)
        return;
    printf("%2u: %s:%s%s%s%s\n", now, name,
           marks & BIRNENSCHLOSS_MARK_ARRIVED ? " arrived" : "",
           marks & BIRNENSCHLOSS_MARK_SENT ? " sent" : "",
           marks & BIRNENSCHLOSS_MARK_RECEIVE_ERROR ? " receive error" : "",
           marks & BIRNENSCHLOSS_MARK_SEND_ERROR ? " send error" : "");
    birnenschloss_clear_marks(LENT, object);
}

/* The slow task: takes all set points out of the queue. */
static void take_set_points(void)
{
    birnenschloss_answer answer = birnenschloss_receive(LENT, SET_POINT);
    while (answer.number == E_OK || answer.number == E_COM_LIMIT) {
        printf("%2u: set point %u%s\n", now, (unsigned)answer.value,
               answer.number == E_COM_LIMIT ? ", and a later one was lost" : "");
        answer = birnenschloss_receive(LENT, SET_POINT);
    }
}

static void timer(void)
{
    size_t i;
    bus_confirms();
    for (i = 0; i < sizeof events / sizeof events[0]; i++)
        if (events[i].tick == now)
            happen(&events[i]);
    transmit(birnenschloss_tick(LENT, area, sizeof area));
    look_at_marks("humidity", HUMIDITY);
    look_at_marks("set point", SET_POINT);
    if (now % 6 == 0)
        take_set_points();
}

int main(void)
{
    birnenschloss_answer checked = birnenschloss_check(table, sizeof table);
    if (checked.number != E_OK) {
        printf("table wrong at %u\n", (unsigned)checked.value);
        return 1;
    }
    memset(memory, 0xA5, sizeof memory); /* a start needs no zeroed memory */
    printf("tick before the start: %u\n",
           (unsigned)birnenschloss_tick(LENT, area, sizeof area).number);
    printf("start: %u\n", (unsigned)birnenschloss_start(LENT).number);
    printf("start periodic: %u\n", (unsigned)birnenschloss_start_periodic(LENT).number);
    for (now = 1; now <= 22; now++)
        timer();
    printf("stop: %u\n", (unsigned)birnenschloss_stop(LENT).number);
    printf("tick after the stop: %u\n",
           (unsigned)birnenschloss_tick(LENT, area, sizeof area).number);
    return 0;
}
