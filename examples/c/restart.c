/* A controller that can be killed at any moment and started again: the lock stands in a file that outlives the program.
 * It plays the recorders too: each enters, comes inside, puts its entry into a journal and leaves, until the journal
 * has as many entries as are asked for.
 *
 *     tools/native staticlib cabi libyarvelow.a
 *     cc -Iinclude examples/c/restart.c libyarvelow.a -o restart
 *     ./restart rack.lock takes 100000        # kill it and start it again, as often as you like
 *
 * Two images and a byte: the byte says which image holds. An event goes from that one into the other; done, the byte
 * changes, and only then the answer is acted on. So a kill leaves, whole, the image before the event or that after it.
 *
 * After a kill the points say all that there is to know. Where it is not known whether an event was carried out, it can
 * be told again: an ENTER that was is BUSY, a LEAVE that was is NOT INSIDE, and a second CRASH or CALL OFF changes
 * nothing. Only what the last event cost is lost.
 *
 * Power loss takes more, since the system may have written any part of the file by then, in any order. The byte and
 * each image stand in disk blocks of their own. Before the byte changes, msync the image; before the answer is acted
 * on, the byte. fsync the journal before the LEAVE; the new file before it gets its name, and its directory after. */

#define _XOPEN_SOURCE 700
#include <errno.h>
#include <fcntl.h>
#include <stdatomic.h>
#include <stdio.h>
#include <stdlib.h>
#include <string.h>
#include <sys/mman.h>
#include <sys/stat.h>
#include <unistd.h>
#include <yarvelow.h>

enum { PORTS = 4, LENGTH = YARVELOW_IMAGE(PORTS), INSIDE = 11, ENTRY = 18 };

static struct kept {
    _Atomic uint8_t holds;
    uint8_t image[2][LENGTH];
} *kept;

static int journal;

static void must(int holds, const char *what) {
    if (!holds) {
        fprintf(stderr, "restart: %s\n", what);
        exit(1);
    }
}

static const uint8_t *image(void) { return kept->image[kept->holds]; }

/* Two bytes of the image, the low one first. */
static unsigned spin_at(size_t place) { return image()[place] + 256u * image()[place + 1]; }

/* Whole entries of the journal; a recorder that was cut off may have left a part of one after them. */
static unsigned entries(void) {
    struct stat is;
    must(fstat(journal, &is) == 0, "no journal");
    return (unsigned)(is.st_size / ENTRY);
}

/* The first start. The file gets its name when it is whole, so that one of that name is never half made. */
static void make(const char *name) {
    struct kept fresh = {0};
    must(yarvelow_number_of(yarvelow_fresh(PORTS, fresh.image[0], LENGTH)) == YARVELOW_DONE, "no fresh table");
    char other[4096];
    must(snprintf(other, sizeof other, "%s.new", name) < (int)sizeof other, "the name is too long");
    int file = open(other, O_WRONLY | O_CREAT | O_TRUNC, 0644);
    must(file >= 0 && write(file, &fresh, sizeof fresh) == sizeof fresh && close(file) == 0, "no room for the lock");
    must(rename(other, name) == 0, "no name for the lock");
}

/* Takes up the lock where it was left. It is a first start if there is no file and nothing was done under the lock yet.
 * Anything else but a whole file is damage, and then nobody knows who was inside: stop all recorders, and begin with a
 * fresh table. (The image that does not hold is no help: it is older, or a part of the next.) */
static void take_up(const char *name) {
    int file = open(name, O_RDWR);
    if (file < 0 && errno == ENOENT && entries() == 0) {
        make(name);
        file = open(name, O_RDWR);
    }
    must(file >= 0, "the lock cannot be opened");
    struct stat is;
    must(fstat(file, &is) == 0 && is.st_size == sizeof *kept, "the lock is damaged");
    kept = mmap(NULL, sizeof *kept, PROT_READ | PROT_WRITE, MAP_SHARED, file, 0);
    must(kept != MAP_FAILED, "the lock cannot be mapped");
    must(kept->holds <= 1 && yarvelow_check(image(), LENGTH) == YARVELOW_DONE, "the lock is damaged");
}

static void carry_out(uint64_t port, uint64_t event) {
    unsigned now = kept->holds, next = 1 - now;
    uint64_t answer = yarvelow_event_into(kept->image[now], LENGTH, kept->image[next], LENGTH, port, event);
    must(yarvelow_number_of(answer) == YARVELOW_DONE, "an event is refused");
    kept->holds = (uint8_t)next;
}

/* What the recorder of each port has in mind while it is inside, and forgets with a kill: the number of its entry. */
static unsigned mine[PORTS];

/* An entry of the journal: its number, the port, and the port's spin, which is another one for each passage. */
static void write_out(char *text, size_t room, unsigned number, uint64_t port) {
    snprintf(text, room, "%8u %2u %5u\n", number, (unsigned)port, spin_at(YARVELOW_GO(port)));
}

/* A recorder has come inside. If it is back after a crash, the last entry may be its own: nobody else was inside. */
static void begin(uint64_t port) {
    char text[64], there[ENTRY];
    unsigned last = entries();
    write_out(text, sizeof text, last, port);
    int written = last > 0 && pread(journal, there, ENTRY, (off_t)(last - 1) * ENTRY) == ENTRY &&
                  memcmp(text, there, ENTRY) == 0;
    mine[port] = written ? last : last + 1;
}

/* A recorder is inside: it writes its entry, and when its turn comes again, it leaves. */
static void work(uint64_t port) {
    char text[64];
    if (entries() >= mine[port]) {
        carry_out(port, YARVELOW_LEAVE);
        return;
    }
    write_out(text, sizeof text, mine[port], port);
    must(pwrite(journal, text, ENTRY, (off_t)(mine[port] - 1) * ENTRY) == ENTRY, "no room in the journal");
}

int main(int count, char **words) {
    must(count == 4, "LOCK JOURNAL ENTRIES");
    unsigned wanted = (unsigned)strtoul(words[3], NULL, 10);
    journal = open(words[2], O_RDWR | O_CREAT, 0644);
    /* One controller at a time; the system lets go of it when the program ends. */
    must(lockf(journal, F_TLOCK, 0) == 0, "another controller has the journal");
    take_up(words[1]);
    /* CRASH for every port whose recorder is gone: here all are, with this program. One that lives on needs none. */
    for (uint64_t port = 0; port < PORTS; port++) {
        if (image()[YARVELOW_POINT(port)] != 0) {
            carry_out(port, YARVELOW_CRASH);
        }
    }
    for (unsigned home = 0; home < PORTS;) {
        must(!yarvelow_left_behind(image()), "the word is left behind");
        home = 0;
        for (uint64_t port = 0; port < PORTS; port++) {
            unsigned point = image()[YARVELOW_POINT(port)];
            if (point == INSIDE) {
                work(port);
            } else if (point != 0) {
                carry_out(port, YARVELOW_STEP);
                if (image()[YARVELOW_POINT(port)] == INSIDE) {
                    begin(port);
                }
            } else if (entries() < wanted) {
                carry_out(port, YARVELOW_ENTER);
            } else {
                home++;
            }
        }
    }
    for (uint64_t port = 0; port < PORTS; port++) {
        printf("port %u made %u spins\n", (unsigned)port, spin_at(YARVELOW_MADE(port)));
    }
    return 0;
}
