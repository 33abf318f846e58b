/* A lone passage at D = 2 from C: port 0 enters, comes inside, leaves, and is idle again.
 *
 *     tools/native staticlib cabi libyarvelow.a
 *     cc -Iinclude examples/c/main.c libyarvelow.a -o lone && ./lone
 */

#include <stdio.h>
#include <stdlib.h>
#include <yarvelow.h>

/* Steps a port until it is at the end that is named, INSIDE on the way in and IDLE on the way out; counts its steps and sums up
 * their costs. (A port that was called off may come to either end; one that waits answers DONE without end, so a controller steps
 * the others in between: see rack.c.) */
static void walk(uint8_t *image, size_t length, uint64_t port, unsigned end, const char *what) {
    unsigned steps = 0, cached = 0, distributed = 0;
    for (;;) {
        uint64_t answer = yarvelow_event(image, length, port, YARVELOW_STEP);
        unsigned number = yarvelow_number_of(answer);
        if (number == end) {
            break;
        }
        if (number != YARVELOW_DONE) {
            fprintf(stderr, "step refused: %u\n", number);
            exit(1);
        }
        steps++;
        cached += yarvelow_cached_of(answer);
        distributed += yarvelow_distributed_of(answer);
    }
    printf("%s: %u steps, %u cached, %u distributed\n", what, steps, cached, distributed);
}

/* An event that must be carried out. */
static void must(uint8_t *image, size_t length, uint64_t port, uint64_t event) {
    unsigned number = yarvelow_number_of(yarvelow_event(image, length, port, event));
    if (number != YARVELOW_DONE) {
        fprintf(stderr, "event %u refused: %u\n", (unsigned)event, number);
        exit(1);
    }
}

int main(void) {
    /* A controller keeps these bytes in memory that outlives a restart, and looks at them with yarvelow_check when it is back. */
    uint8_t image[YARVELOW_IMAGE(2)];
    uint64_t answer = yarvelow_fresh(2, image, sizeof image);
    if (yarvelow_number_of(answer) != YARVELOW_DONE) {
        return 1;
    }
    size_t length = yarvelow_length_of(answer);
    must(image, length, 0, YARVELOW_ENTER);
    walk(image, length, 0, YARVELOW_INSIDE, "in");
    must(image, length, 0, YARVELOW_LEAVE);
    walk(image, length, 0, YARVELOW_IDLE, "out");
    return yarvelow_check(image, length) == YARVELOW_DONE ? 0 : 1;
}
