/* The loop of a controller at D = 3: all ports enter, and each that is in a passage makes a step in its turn. A port that waits
 * answers DONE again and again, so the others are stepped in between. One that is inside does its work, here one line and for
 * the first a crash, and leaves; it is stepped on until it is idle, since nobody else gets in before it has let go.
 *
 * Left out here: a controller makes the fresh table once and keeps the image where it outlives a restart (restart.c does);
 * its recorders take their time between INSIDE and LEAVE, and it does not end at a refusal. docs/CONTROLLER.md says
 * what else it does.
 *
 *     tools/native staticlib cabi libyarvelow.a
 *     cc -Iinclude examples/c/rack.c libyarvelow.a -o rack && ./rack
 */

#include <stdio.h>
#include <stdlib.h>
#include <yarvelow.h>

enum { PORTS = 3 };

static uint8_t image[YARVELOW_IMAGE(PORTS)];

/* The number that an event answers: DONE, or the one refusal that is expected. */
static unsigned carry_out(uint64_t port, uint64_t event, unsigned expected) {
    unsigned number = yarvelow_number_of(yarvelow_event(image, sizeof image, port, event));
    if (number != YARVELOW_DONE && number != expected) {
        fprintf(stderr, "event %u at port %u refused: %u\n", (unsigned)event, (unsigned)port, number);
        exit(1);
    }
    return number;
}

int main(void) {
    if (yarvelow_number_of(yarvelow_fresh(PORTS, image, sizeof image)) != YARVELOW_DONE) {
        return 1;
    }
    for (uint64_t port = 0; port < PORTS; port++) {
        carry_out(port, YARVELOW_ENTER, YARVELOW_DONE);
    }
    int crashed = 0;
    for (unsigned home = 0; home < PORTS;) {
        if (yarvelow_left_behind(image)) {
            return 1;
        }
        home = 0;
        for (uint64_t port = 0; port < PORTS; port++) {
            if (image[YARVELOW_POINT(port)] == 0) {
                home++;
            } else if (carry_out(port, YARVELOW_STEP, YARVELOW_INSIDE) == YARVELOW_INSIDE) {
                printf("port %u is inside\n", (unsigned)port);
                if (!crashed) {
                    crashed = 1;
                    carry_out(port, YARVELOW_CRASH, YARVELOW_DONE);
                    printf("port %u crashed, STATUS %u\n", (unsigned)port, image[YARVELOW_STATUS(port)]);
                } else {
                    carry_out(port, YARVELOW_LEAVE, YARVELOW_DONE);
                }
            }
        }
    }
    printf("all are home; port 0 has made %u of 65535 spins\n", image[YARVELOW_MADE(0)] + 256u * image[YARVELOW_MADE(0) + 1]);
    return yarvelow_check(image, sizeof image) == YARVELOW_DONE ? 0 : 1;
}
