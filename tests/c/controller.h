/* What the controller of the OSEK test has noted of the frames that went out; its storage, filled. */
#ifndef CONTROLLER_H
#define CONTROLLER_H

#include <stddef.h>
#include <stdint.h>

enum { OUT, IN, CYCLIC, NO_IPDU };                                        /* I-PDUs */
enum { SPEED, ECHO, COMMANDS, LAST, STATE, DEGREES, WANTED, NO_MESSAGE }; /* messages */

struct transmitted {
    unsigned count;
    uint32_t ipdu;
    size_t length;
    uint8_t bytes[8];
    int confirm_at_once;
};

extern struct transmitted transmitted;

/* Fills the working memory, request area and flags of the controller, as if something else had used
 * them before. */
void fill_controller(uint8_t byte);

#endif
