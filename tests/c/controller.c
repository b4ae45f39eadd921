/* The one file that defines the controller of the OSEK test. */
#include <string.h>

#include "controller.h"

static const uint8_t table[] = {
    /* 3 I-PDUs, 7 message objects, records at 16 and 64, 288 bytes */
    3, 0, 7, 0, 16, 0, 64, 0, 32, 1, 0, 0, 0, 0, 0, 0,
    /* out: sent, 3 bytes, direct, no minimum delay, deadline 5 */
    1, 3, 0, 0, 0, 0, 0, 0, 0, 0, 5, 0, 0, 0, 0, 0,
    /* in: received, 2 bytes, no deadline */
    2, 2, 0, 0, 0, 0, 0, 0, 0, 0, 0, 0, 0, 0, 0, 0,
    /* cyclic: sent, 8 bytes, period 4, offset 1, deadline 9 */
    1, 8, 1, 0, 4, 0, 1, 0, 0, 0, 9, 0, 0, 0, 0, 0,
    /* speed: sent in out, bit 0, 16 bits, little, triggered, filter 5 */
    1, 0, 255, 0, 16, 0, 0, 0, 5, 0, 0, 0, 0, 0, 0, 0,
    0, 0, 0, 0, 0, 0, 0, 0, 0, 0, 0, 0, 0, 0, 0, 0,
    /* echo: receives what speed sends, unqueued */
    2, 255, 0, 0, 32, 0, 0, 0, 0, 0, 0, 0, 0, 0, 0, 0,
    0, 0, 0, 0, 0, 0, 0, 0, 0, 0, 0, 0, 0, 0, 0, 0,
    /* commands: received in in, bit 0, 16 bits, depth 2 */
    2, 1, 255, 0, 16, 0, 0, 2, 0, 0, 0, 0, 0, 0, 0, 0,
    0, 0, 0, 0, 0, 0, 0, 0, 0, 0, 0, 0, 0, 0, 0, 0,
    /* last: received in in, bit 8, 8 bits, unqueued, initial value 33 */
    2, 1, 255, 8, 8, 0, 0, 0, 0, 0, 0, 0, 33, 0, 0, 0,
    0, 0, 0, 0, 0, 0, 0, 0, 0, 0, 0, 0, 0, 0, 0, 0,
    /* state: sent in cyclic, bit 56, 8 bits, little, pending, initial value 17 */
    1, 2, 255, 56, 8, 0, 1, 0, 0, 0, 0, 0, 17, 0, 0, 0,
    0, 0, 0, 0, 0, 0, 0, 0, 0, 0, 0, 0, 0, 0, 0, 0,
    /* degrees: received in in, bit 0, 8 bits, signed big, unqueued */
    2, 1, 255, 0, 8, 3, 0, 0, 0, 0, 0, 0, 0, 0, 0, 0,
    0, 0, 0, 0, 0, 0, 0, 0, 0, 0, 0, 0, 0, 0, 0, 0,
    /* wanted: sent in out, bit 16, 8 bits, signed little, pending */
    1, 0, 255, 16, 8, 2, 1, 0, 0, 0, 0, 0, 0, 0, 0, 0,
    0, 0, 0, 0, 0, 0, 0, 0, 0, 0, 0, 0, 0, 0, 0, 0,
};

#define BIRNENSCHLOSS_OSEK_CONTROLLER
#define BIRNENSCHLOSS_OSEK_TABLE table
#define BIRNENSCHLOSS_OSEK_TABLE_LENGTH sizeof table
#define BIRNENSCHLOSS_OSEK_EXTENSION
#include "birnenschloss_osek.h"

struct transmitted transmitted;

void fill_controller(uint8_t byte)
{
    memset(birnenschloss_osek.memory, byte, sizeof birnenschloss_osek.memory);
    memset(birnenschloss_osek.area, byte, sizeof birnenschloss_osek.area);
    memset(birnenschloss_osek.flags, byte, sizeof birnenschloss_osek.flags);
}

void birnenschloss_osek_transmit(uint32_t ipdu, const uint8_t *bytes, size_t length)
{
    transmitted.count++;
    transmitted.ipdu = ipdu;
    transmitted.length = length;
    memcpy(transmitted.bytes, bytes, length);
    if (transmitted.confirm_at_once)
        birnenschloss_osek_confirm(ipdu, 1);
}
