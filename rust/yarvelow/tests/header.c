/* The header's functions called from C, with its names for events and answers: each number brought about, lengths at
 * every D, two images in turn, a run. compare/tests/header holds the numbers, macros and inline functions. */

#include <stdio.h>
#include <stdlib.h>
#include <string.h>
#include <yarvelow.h>

static void must(int holds, const char *what, uint64_t d) {
    if (!holds) {
        fprintf(stderr, "header: %s, D = %u\n", what, (unsigned)d);
        exit(1);
    }
}

static void lengths(void) {
    static uint8_t room[YARVELOW_IMAGE_MOST];
    for (uint64_t d = 1; d <= YARVELOW_PORTS; d++) {
        uint64_t answer = yarvelow_fresh(d, room, sizeof room);
        must(yarvelow_number_of(answer) == YARVELOW_DONE, "a fresh table", d);
        must(yarvelow_length_of(answer) == YARVELOW_IMAGE(d), "the length of its image", d);
        must(yarvelow_check(room, YARVELOW_IMAGE(d)) == YARVELOW_DONE, "exactly that length", d);
        must(yarvelow_check(room, YARVELOW_IMAGE(d) - 1) == YARVELOW_BAD_IMAGE, "a byte less", d);
        must(yarvelow_check(room, YARVELOW_IMAGE(d) + 1) == YARVELOW_BAD_IMAGE, "a byte more", d);
    }
    must(yarvelow_fresh(YARVELOW_PORTS + 1, room, sizeof room) == YARVELOW_BAD_SIZE, "too many ports", YARVELOW_PORTS + 1);
}

/* The last port of d comes inside, by two images in turn and beside them by one where it stands. */
static void two_images(uint64_t d) {
    static uint8_t images[2][YARVELOW_IMAGE_MOST], one[YARVELOW_IMAGE_MOST], before[YARVELOW_IMAGE_MOST];
    size_t length = YARVELOW_IMAGE(d);
    uint64_t port = d - 1, event = YARVELOW_ENTER;
    unsigned number, holds = 0, cached = 0, distributed = 0;
    yarvelow_fresh(d, images[holds], length);
    memcpy(one, images[holds], length);
    do {
        memcpy(before, images[holds], length);
        uint64_t answer = yarvelow_event_into(images[holds], length, images[!holds], length, port, event);
        must(answer == yarvelow_event(one, length, port, event), "the same answer into another image", d);
        must(memcmp(before, images[holds], length) == 0, "the image that holds is only read", d);
        number = yarvelow_number_of(answer);
        cached += yarvelow_cached_of(answer);
        distributed += yarvelow_distributed_of(answer);
        holds = number == YARVELOW_DONE ? !holds : holds;
        must(memcmp(one, images[holds], length) == 0, "the same image", d);
        event = YARVELOW_STEP;
    } while (number == YARVELOW_DONE);
    must(number == YARVELOW_INSIDE && cached == 9 && distributed == 6, "a lone passage in", d);
    const uint8_t *image = images[holds];
    must(image[YARVELOW_POINT(port)] == 11 && image[YARVELOW_STATUS(port)] == 1, "point and STATUS", d);
    must(image[YARVELOW_MADE(port)] == 1 && image[YARVELOW_GO(port)] == 1, "spins made and GO", d);
    must(image[YARVELOW_TAKEN] == 1 && image[YARVELOW_OWNER] == port && image[YARVELOW_SPIN] == 1, "the word", d);
}

/* What an event answers, by its number alone. */
static void answers(uint8_t *image, uint64_t port, uint64_t event, enum yarvelow_number number, const char *what) {
    must(yarvelow_number_of(yarvelow_event(image, YARVELOW_IMAGE(2), port, event)) == number, what, 2);
}

/* What is bad in an image of two ports, by the parts of an answer. */
static void bad(uint64_t answer, unsigned kind, unsigned port, size_t place, const char *what) {
    must(yarvelow_number_of(answer) == YARVELOW_BAD_TABLE && yarvelow_cached_of(answer) == 0, what, 2);
    must(yarvelow_kind_of(answer) == kind && yarvelow_port_of(answer) == port, what, 2);
    must(yarvelow_place_of(answer) == place, what, 2);
}

/* Every event as it should be carried out, and every refusal. */
static void numbers(void) {
    uint8_t image[YARVELOW_IMAGE(2)];
    must(yarvelow_fresh(0, image, sizeof image) == YARVELOW_BAD_SIZE, "no ports", 0);
    must(yarvelow_fresh(2, image, sizeof image - 1) == YARVELOW_SHORT_ROOM, "a short room", 2);
    yarvelow_fresh(2, image, sizeof image);
    answers(image, 2, YARVELOW_ENTER, YARVELOW_NO_SUCH_PORT, "port 2 of 2");
    answers(image, 0, 0, YARVELOW_NO_SUCH_EVENT, "event 0");
    answers(image, 0, YARVELOW_LEAVE + 1, YARVELOW_NO_SUCH_EVENT, "an event after the last");
    answers(image, 0, YARVELOW_STEP, YARVELOW_IDLE, "a step of an idle port");
    answers(image, 0, YARVELOW_CRASH, YARVELOW_IDLE, "a crash of an idle port");
    answers(image, 0, YARVELOW_CALL_OFF, YARVELOW_IDLE, "a call-off of an idle port");
    answers(image, 0, YARVELOW_LEAVE, YARVELOW_NOT_INSIDE, "an idle port leaves");
    answers(image, 0, YARVELOW_ENTER, YARVELOW_DONE, "an idle port enters");
    answers(image, 0, YARVELOW_ENTER, YARVELOW_BUSY, "a busy port enters");
    must(image[YARVELOW_POINT(0)] == 1, "the point after an enter", 2);
    answers(image, 0, YARVELOW_STEP, YARVELOW_DONE, "a step");
    must(image[YARVELOW_POINT(0)] == 2, "the point after a step", 2);
    answers(image, 0, YARVELOW_CRASH, YARVELOW_DONE, "a crash");
    must(image[YARVELOW_POINT(0)] == 1, "the point after a crash", 2);
    while (image[YARVELOW_POINT(0)] != 11) {
        answers(image, 0, YARVELOW_STEP, YARVELOW_DONE, "a step on the way in");
    }
    answers(image, 0, YARVELOW_STEP, YARVELOW_INSIDE, "a step inside");
    answers(image, 1, YARVELOW_ENTER, YARVELOW_DONE, "another enters");
    answers(image, 1, YARVELOW_CALL_OFF, YARVELOW_DONE, "a call-off");
    while (image[YARVELOW_POINT(1)] != 0) {
        answers(image, 1, YARVELOW_STEP, YARVELOW_DONE, "a step home");
    }
    answers(image, 0, YARVELOW_LEAVE, YARVELOW_DONE, "a port leaves");
    must(image[YARVELOW_POINT(0)] == 13, "the point after a leave", 2);
    image[YARVELOW_MADE(1)] = image[YARVELOW_MADE(1) + 1] = 255;
    answers(image, 1, YARVELOW_ENTER, YARVELOW_WORN, "all spins made");
    must(yarvelow_check(image, 0) == YARVELOW_BAD_IMAGE, "no bytes", 2);
    image[YARVELOW_STATUS(1)] = 4;
    bad(yarvelow_check(image, sizeof image), 2, 1, YARVELOW_STATUS(1), "no such STATUS");
    bad(yarvelow_event(image, sizeof image, 9, 9), 2, 1, YARVELOW_STATUS(1), "an event without STATUS");
    image[YARVELOW_OWNER] = 2;
    bad(yarvelow_check(image, sizeof image), 1, 2, YARVELOW_OWNER, "no such owner");
}

/* A run answers what its events do. */
static void a_run(void) {
    uint8_t image[YARVELOW_IMAGE(17)], one[YARVELOW_IMAGE(17)];
    uint64_t orders[] = {16, YARVELOW_ENTER, 16, YARVELOW_STEP, 0, YARVELOW_LEAVE, 17, YARVELOW_STEP}, told[4];
    yarvelow_fresh(17, image, sizeof image);
    memcpy(one, image, sizeof image);
    must(yarvelow_run(image, sizeof image, orders, 8, told, 4) == YARVELOW_DONE, "a run", 17);
    for (int i = 0; i < 4; i++) {
        must(told[i] == yarvelow_event(one, sizeof one, orders[2 * i], orders[2 * i + 1]), "an answer of a run", 17);
    }
    must(memcmp(one, image, sizeof image) == 0, "the image after a run", 17);
}

int main(void) {
    numbers();
    a_run();
    lengths();
    for (uint64_t d = 1; d <= YARVELOW_PORTS; d++) {
        two_images(d);
    }
    return 0;
}
