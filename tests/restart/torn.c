/* Stands between a controller and the archive (the linker's --wrap) and looks at two images and a byte at work.
 * Every event begins from the image that the one before made; over a kill it may be the image before that event.
 * Within a run both of them stand in the file of the lock by then: the image that held is never written to.
 *
 * LOCK names that file; WITNESS one that keeps the last event's images. With DIE="c b" the program kills itself in
 * its event number c, when b bytes of the image after it are written; then only the image before it may hold. */

#define _XOPEN_SOURCE 700
#include <fcntl.h>
#include <signal.h>
#include <stdio.h>
#include <stdlib.h>
#include <string.h>
#include <unistd.h>
#include <yarvelow.h>

uint64_t __real_yarvelow_event_into(const uint8_t *, size_t, uint8_t *, size_t, uint64_t, uint64_t);

enum { ROOM = 1024 };

/* The last event. It fits in a page, so that a kill leaves the witness as it was before a write or after it. */
static struct {
    uint8_t known, done, before[ROOM], after[ROOM];
} last;

static int lock, witness = -1;
static unsigned long calls, die_call, die_bytes;

static void must(int holds, const char *what) {
    if (!holds) {
        fprintf(stderr, "torn: %s\n", what);
        _exit(3);
    }
}

static int named(const char *variable, int how) {
    const char *name = getenv(variable);
    int file = name ? open(name, how, 0644) : -1;
    must(file >= 0, variable);
    return file;
}

static void begin(void) {
    const char *die = getenv("DIE");
    must(!die || sscanf(die, "%lu %lu", &die_call, &die_bytes) == 2, "DIE is two numbers");
    lock = named("LOCK", O_RDONLY);
    witness = named("WITNESS", O_RDWR | O_CREAT);
    must(pread(witness, &last, sizeof last, 0) >= 0, "no witness");
}

static int same(const void *a, const void *b, size_t length) { return memcmp(a, b, length) == 0; }

/* Whether the file holds the image after the last event, and beside it has that before it. */
static int both_stand(size_t length) {
    uint8_t file[1 + 2 * ROOM];
    ssize_t got = pread(lock, file, sizeof file, 0);
    uint8_t *images[] = {file + 1, file + 1 + length};
    return got == (ssize_t)(1 + 2 * length) && file[0] <= 1 && same(images[file[0]], last.after, length) &&
           same(images[!file[0]], last.before, length);
}

/* An event on an image, put where it is to go, which may be the image itself. */
static uint64_t watched(const uint8_t *image, size_t length, uint8_t *next, uint64_t port, uint64_t event) {
    uint8_t after[ROOM];
    if (witness < 0) {
        begin();
    }
    must(length <= ROOM, "the image is too long");
    must(!last.known || (last.done && same(image, last.after, length)) ||
             (calls == 0 && same(image, last.before, length)),
         "an event begins from another image than the one before made");
    must(calls == 0 || both_stand(length), "the images before and after an event do not both stand in the file");
    uint64_t answer = __real_yarvelow_event_into(image, length, after, sizeof after, port, event);
    if (yarvelow_number_of(answer) != YARVELOW_DONE) {
        return answer;
    }
    calls++;
    last.known = 1;
    last.done = calls != die_call;
    memcpy(last.before, image, length);
    memcpy(last.after, after, length);
    must(pwrite(witness, &last, sizeof last, 0) == sizeof last, "no room for the witness");
    if (!last.done) {
        memcpy(next, after, die_bytes < length ? die_bytes : length);
        raise(SIGKILL);
    }
    memcpy(next, after, length);
    return answer;
}

uint64_t __wrap_yarvelow_event_into(const uint8_t *image, size_t length, uint8_t *next, size_t next_length,
                                    uint64_t port, uint64_t event) {
    return next_length < length ? YARVELOW_SHORT_ROOM : watched(image, length, next, port, event);
}

uint64_t __wrap_yarvelow_event(uint8_t *image, size_t length, uint64_t port, uint64_t event) {
    return watched(image, length, image, port, event);
}
