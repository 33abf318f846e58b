/* The lock engine of document 01 from C: the table of one lock with D ports, 1 to 64, kept as an image in memory of
 * yours.
 *
 * Link with the archive libyarvelow.a. Every function answers on every input: bytes of any kind, any length, any
 * number. None keeps a pointer, allocates, or touches memory outside the buffers that it is lent. The buffers of one
 * call must not overlap, and calls on one image come one at a time. A call that is cut off, by a controller that
 * stops, may leave the image that it writes half written; yarvelow_event_into never writes the one that holds
 * (examples/c/restart.c).
 *
 * An answer carries a number in its lowest eight bits: 0 when done, else why it was refused. Other parts stand above
 * it, so ask for the number by yarvelow_number_of. */

#ifndef YARVELOW_H
#define YARVELOW_H

#include <stddef.h>
#include <stdint.h>

#ifdef __cplusplus
extern "C" {
#endif

/* The most ports that a table has, and the length of an image of d ports: up to 16 ports it is of version 1, with
 * copy sets of two bytes; above, of version 2, with copy sets of eight. */
#define YARVELOW_PORTS 64
#define YARVELOW_IMAGE(d) ((d) <= 16 ? 30 + 22 * (size_t)(d) : 42 + 40 * (size_t)(d))
#define YARVELOW_IMAGE_MOST YARVELOW_IMAGE(YARVELOW_PORTS)

/* Where in an image a controller may want to look. The lock word: taken (1) or free (0), its owner, and the owner's
 * spin that it is taken for. Of port k: its point, 0 while it is idle and 11 while it is inside; its STATUS, 1 while
 * it holds the lock, crashes included; how many spins it has made; and GO, the spin that it has on its way, 0 for
 * none. Spins are two bytes, the low one first. */
#define YARVELOW_TAKEN 22
#define YARVELOW_OWNER 23
#define YARVELOW_SPIN 24
#define YARVELOW_POINT(k) (26 + 16 * (size_t)(k))
#define YARVELOW_STATUS(k) (27 + 16 * (size_t)(k))
#define YARVELOW_MADE(k) (30 + 16 * (size_t)(k))
#define YARVELOW_GO(k) (32 + 16 * (size_t)(k))

/* Events. Only a step costs anything. */
enum yarvelow_order {
    YARVELOW_ENTER = 1,    /* an idle port begins: step it until it is inside */
    YARVELOW_STEP = 2,     /* at most one memory operation */
    YARVELOW_CRASH = 3,    /* the port forgets where it was; if it was inside, its next step brings it back there, and
                              else step it until it is inside or idle: others may wait for it */
    YARVELOW_CALL_OFF = 4, /* the port is to give up waiting, crashes notwithstanding: step it until it is idle, or
                              inside if its turn came first */
    YARVELOW_LEAVE = 5     /* a port that is inside begins to leave. It is out with its next step (a crash before that
                              step leads back inside); step it on until it is idle, since nobody else gets in before
                              it has let go */
};

/* Numbers of an answer. */
enum yarvelow_number {
    YARVELOW_DONE = 0,
    YARVELOW_BAD_TABLE = 1,     /* an image by its form, of a table that breaks a rule of document 01; the answer also
                                   says what is bad: yarvelow_kind_of, yarvelow_port_of and yarvelow_place_of */
    YARVELOW_NO_SUCH_PORT = 2,  /* port at or above D */
    YARVELOW_NO_SUCH_EVENT = 3, /* event not 1 to 5 */
    YARVELOW_BUSY = 4,          /* enter, and the port isn't idle */
    YARVELOW_WORN = 5,          /* enter, and the port has made all its 65,535 spins, at most one from an enter to the
                                   next idle; or a step at point 4 then, which no fresh table comes to */
    YARVELOW_NOT_INSIDE = 6,    /* leave, and the port isn't inside */
    YARVELOW_IDLE = 7,          /* step, crash or call off of an idle port */
    YARVELOW_INSIDE = 8,        /* step of a port that is inside */
    YARVELOW_BAD_SIZE = 9,      /* a fresh table with D not 1 to 64 */
    YARVELOW_SHORT_ROOM = 10,   /* the buffer is too short for the image */
    YARVELOW_BAD_IMAGE = 11     /* no image: its length is not just that of its D, or its first 14 bytes are wrong */
};

/* The parts of an answer; those that it doesn't have are 0. The number; where yarvelow_fresh is done, the image's
 * length; where an event is done, both costs. What a later version puts above the costs is no part of them. */
static inline unsigned yarvelow_number_of(uint64_t answer) { return (unsigned)(answer & 255); }
static inline size_t yarvelow_length_of(uint64_t answer) {
    return yarvelow_number_of(answer) == YARVELOW_DONE ? (size_t)(answer >> 8) : 0;
}
static inline unsigned yarvelow_cached_of(uint64_t answer) {
    return yarvelow_number_of(answer) == YARVELOW_DONE ? (unsigned)(answer >> 8 & 255) : 0;
}
static inline unsigned yarvelow_distributed_of(uint64_t answer) {
    return yarvelow_number_of(answer) == YARVELOW_DONE ? (unsigned)(answer >> 16 & 255) : 0;
}

/* Of BAD_TABLE, what is bad: where several fields are, the one with the lowest place. A rule over several fields is
 * charged to the last of them in the image. ./inspect says it with the field's name.
 * The kind: 1 what all share, ACTIVE and the word; 2 a port, what it keeps over a crash; 3 a working value of a port;
 * 4 a copy set. 0, the table as a whole, is said of no image: one with such a D is a BAD_IMAGE.
 * The port that the field belongs to: D for kind 1, and of kind 4 for the copy sets of ACTIVE and the word.
 * The place: the byte of the image that was lent where the field begins. */
static inline unsigned yarvelow_kind_of(uint64_t answer) {
    return yarvelow_number_of(answer) == YARVELOW_BAD_TABLE ? (unsigned)(answer >> 8 & 255) : 0;
}
static inline unsigned yarvelow_port_of(uint64_t answer) {
    return yarvelow_number_of(answer) == YARVELOW_BAD_TABLE ? (unsigned)(answer >> 16 & 255) : 0;
}
static inline size_t yarvelow_place_of(uint64_t answer) {
    return yarvelow_number_of(answer) == YARVELOW_BAD_TABLE ? (size_t)(answer >> 24 & 65535) : 0;
}

/* Whether the lock word of a good image was left naming a port that will not come (docs/STUCK.md): it is taken, and
 * its owner is at point 0 or its spin is not the owner's GO. Nobody is inside then, and nobody gets in. */
static inline int yarvelow_left_behind(const uint8_t *image) {
    const uint8_t *spin = image + YARVELOW_SPIN, *go = image + YARVELOW_GO(image[YARVELOW_OWNER]);
    return image[YARVELOW_TAKEN] == 1 &&
           (image[YARVELOW_POINT(image[YARVELOW_OWNER])] == 0 || spin[0] != go[0] || spin[1] != go[1]);
}

/* Writes the image of a fresh table of d ports at the start of room. length is YARVELOW_IMAGE(d) or more, else
 * SHORT_ROOM. Answers number + 256 * the image's length. Refused (BAD_SIZE, then SHORT_ROOM) it leaves every byte,
 * and the image's length is 0; done, it leaves the bytes after the image. */
uint64_t yarvelow_fresh(uint64_t d, uint8_t *room, size_t length);

/* Looks whether bytes are an image of a good table, and so can be used; not whether they were changed since they
 * were written. length is exactly YARVELOW_IMAGE(d), else BAD_IMAGE. Answers DONE, BAD_IMAGE, or BAD_TABLE with what
 * is bad. */
uint64_t yarvelow_check(const uint8_t *image, size_t length);

/* Carries out one event on an image where it stands. length is exactly YARVELOW_IMAGE(d), else BAD_IMAGE. Answers
 * number + 256 * cached cost + 65536 * distributed cost. Refused, for the image first (BAD_IMAGE, BAD_TABLE with what
 * is bad), then for the event (the lowest number that applies), it costs nothing and writes nothing.
 *
 * Done, it writes only the port's record, 16 bytes at YARVELOW_POINT(port), and where the event is a step:
 *   from 6 and 15            ACTIVE, 8 bytes at 14;
 *   from 17, 23, 33 and 43   the word, 4 bytes at 22;
 *   from 25, 35 and 45       the latest value of the seen owner, the byte at YARVELOW_POINT(owner) + 3;
 *   from 4                   the copy set of the port's latest spin;
 *   from all but 2 and 9     the copy set of the word that the step touches.
 * The copy sets stand after the last port's record: that of ACTIVE, that of the word, and for each port those of its
 * STATUS, its GO and its latest spin. */
uint64_t yarvelow_event(uint8_t *image, size_t length, uint64_t port, uint64_t event);

/* Carries out one event and puts the image after it at the start of next. length is exactly YARVELOW_IMAGE(d), else
 * BAD_IMAGE; next_length is that or more, else SHORT_ROOM. Answers as yarvelow_event does. Refused, for the image
 * first (BAD_IMAGE, BAD_TABLE), then for the event, then for the room (SHORT_ROOM), it leaves every byte of next;
 * done, it leaves those after the image. image is only read, so a controller that is cut off never harms the image
 * that holds. It keeps two images and a byte that says which one holds: an event goes from that one into the other;
 * done, it changes the byte, and only then acts on the answer. */
uint64_t yarvelow_event_into(const uint8_t *image, size_t length, uint8_t *next, size_t next_length, uint64_t port,
                             uint64_t event);

/* Carries out events one after the other on an image, with one check of it at the start. length is exactly
 * YARVELOW_IMAGE(d), else BAD_IMAGE. orders holds pairs: port, event, port, event, ..; orders_length counts numbers,
 * two for each pair. answers[i] becomes what yarvelow_event would answer to pair i. As many pairs are carried out as
 * are whole in orders and have a place in answers. Answers DONE, whatever became of single events; or BAD_IMAGE, or
 * BAD_TABLE with what is bad, and then every byte and every answer stays. */
uint64_t yarvelow_run(uint8_t *image, size_t length, const uint64_t *orders, size_t orders_length, uint64_t *answers,
                      size_t answers_length);

#ifdef __cplusplus
}
#endif

#endif
