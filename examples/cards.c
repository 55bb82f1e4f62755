/* Card files are recovered: all are read into one buffer, and then a step is made in the buffer, its store is written to its card, the card
 * is synced, and the next step is made.
 * Build it with: gcc -Iinclude examples/cards.c target/staticlib/libropelog.a -o cards
 * Call it with:  cards M LEADER FILE1 FILE2 .. FILEn
 * M is the number of slots, n the number of files, 3 to 7; file c is the card of replica c. A - in its place says that the replica is off.
 * To keep it simple all cards are of edition 1, and there are no witnesses.
 * It ends with 0 if the cards are recovered, 1 if a file failed, 2 if it was called wrongly, 3 if it is refused, 4 if the plan waits; in
 * the last three cases it has written nothing. Wherever it is stopped or the power fails, call it again: it goes on from there.
 *
 * Records 15, 30, 45 and 60 lie in two blocks of 512 bytes, and a power failure may leave the new bytes in one of them alone. So such a
 * record is announced first, in the file FILE.intent: the card's header, where the record stands, its old and its new bytes, a checksum.
 * The intent is on the disk before the record is touched, and is removed when the record is on the disk. So beside a torn record there is a
 * whole intent, which is carried out at the next start; any other intent is dropped, since its record is the old one or the new one. The
 * program `rope` of the folder rope/ takes the same lock and writes the same intents, so each of the two finishes what the other has left.
 * Whoever else writes to a card has to take the lock, and to carry out an intent before anything else. */
#define _DEFAULT_SOURCE /* for flock and realpath */
#include <errno.h>
#include <fcntl.h>
#include <limits.h>
#include <stdio.h>
#include <stdlib.h>
#include <string.h>
#include <sys/file.h>
#include <sys/stat.h>
#include <unistd.h>

#include "ropelog.h"

enum { FAILED = 1, WRONG_CALL = 2, REFUSED = 3, WAITS = 4 };
enum { BLOCK = 512, WORD_SIZE = 4, NUMBER_SIZE = 11, RECORDS_SIZE = 2 * ROPE_RECORD_SIZE };

#define INTENT_SIZE(header_size) (WORD_SIZE + (header_size) + NUMBER_SIZE + RECORDS_SIZE + NUMBER_SIZE + 1)

/* What an interrupted store left beside a card: nothing, an intent to drop, one of another card, one whose record is torn. */
enum leftover { NOTHING, DROP, FOREIGN, TORN };

struct card {
    const char *name;
    int fd;
    char intent[PATH_MAX + sizeof ".intent"]; /* beside the card itself, whatever link the name may be */
    enum leftover leftover;
    uint64_t at; /* where a torn record stands */
};

static rope_shape shape = {0, 0, 1, 0};
static uint32_t present;
static struct card cards[ROPE_MAX_REPLICAS];
static uint8_t cluster[ROPE_CLUSTER_SIZE(ROPE_MAX_REPLICAS, ROPE_MAX_SLOTS)];

static uint8_t *image_of(size_t replica) {
    return cluster + ROPE_IMAGE_AT(shape.m, replica);
}

/* ---- Files: each result is looked at, and a call that a signal interrupted is made again --------------------------------------- */

static void end(int code, const char *name, const char *why) {
    fprintf(stderr, "cards: %s: %s\n", name, why);
    exit(code);
}

static void fail(const char *name, const char *what) {
    fprintf(stderr, "cards: %s: %s: %s. Nothing more was written\n", name, what, strerror(errno));
    exit(FAILED);
}

static int open_file(const char *path, int flags) {
    int fd;
    do {
        fd = open(path, flags, 0666);
    } while (fd < 0 && errno == EINTR);
    if (fd < 0) {
        fail(path, "cannot be opened");
    }
    return fd;
}

/* After a sync that failed, bytes may be read back that are not on the disk, and the next sync need not say so: take the card out and put
 * it in again before the next call. */
static void sync_file(int fd, const char *path) {
    while (fsync(fd) != 0) {
        if (errno != EINTR) {
            fail(path, "cannot be synced");
        }
    }
}

static void close_file(int fd, const char *path) {
    if (close(fd) != 0 && errno != EINTR) {
        fail(path, "cannot be closed");
    }
}

/* Reads until the bytes or the file end, and returns how many were read. */
static size_t read_file(int fd, const char *path, uint8_t *bytes, size_t size, size_t at) {
    size_t done = 0;
    ssize_t part = 1;
    while (done < size && part != 0) {
        part = pread(fd, bytes + done, size - done, (off_t)(at + done));
        if (part < 0 && errno != EINTR) {
            fail(path, "cannot be read");
        }
        done += part > 0 ? (size_t)part : 0;
    }
    return done;
}

/* One write, and it is on the disk. What is left of a short one is written behind it. */
static void write_file(int fd, const char *path, const uint8_t *bytes, size_t size, size_t at) {
    size_t done = 0;
    while (done < size) {
        ssize_t part = pwrite(fd, bytes + done, size - done, (off_t)(at + done));
        if (part == 0 || (part < 0 && errno != EINTR)) {
            fail(path, "cannot be written");
        }
        done += part > 0 ? (size_t)part : 0;
    }
    sync_file(fd, path);
}

/* After this an intent has its name for good, or has lost it. */
static void sync_folder(const struct card *card) {
    char folder[PATH_MAX];
    size_t length = (size_t)(strrchr(card->intent, '/') - card->intent) + 1; /* realpath begins with a slash */
    int fd;
    memcpy(folder, card->intent, length);
    folder[length] = 0;
    fd = open_file(folder, O_RDONLY);
    sync_file(fd, folder);
    close_file(fd, folder);
}

/* ---- Intents -------------------------------------------------------------------------------------------------------------------- */

/* The bytes of an intent; records are the old and the new bytes of its record. */
static void make_intent(uint8_t *bytes, const uint8_t *header, size_t header_size, size_t at, const uint8_t *records) {
    uint8_t *number = bytes + WORD_SIZE + header_size;
    uint8_t *sum = number + NUMBER_SIZE + RECORDS_SIZE;
    memcpy(bytes, "todo", WORD_SIZE);
    memcpy(bytes + WORD_SIZE, header, header_size);
    rope_write_number(number, NUMBER_SIZE, at);
    memcpy(number + NUMBER_SIZE, records, RECORDS_SIZE);
    rope_write_number(sum, NUMBER_SIZE, rope_checksum(bytes, (size_t)(sum - bytes)));
    sum[NUMBER_SIZE] = '\n';
}

/* What the bytes of an intent's file are to a card. A whole intent has the same bytes when it is made again from its parts; one for a card
 * of edition 2 is whole too. It was left for this card if it has its header, and each byte of the record is the old or the new one. It is
 * carried out only if the record is torn: if it is the old one or the new one, the intent is dropped, and a step finds what is left to do. */
static enum leftover judge(const uint8_t *bytes, size_t size, const uint8_t *image, uint64_t *at) {
    uint8_t again[INTENT_SIZE(ROPE_HEADER_SIZE_2)];
    const uint8_t *header = bytes + WORD_SIZE, *number, *records;
    size_t k, header_size = size == INTENT_SIZE(ROPE_HEADER_SIZE) ? ROPE_HEADER_SIZE : ROPE_HEADER_SIZE_2;
    number = header + header_size;
    records = number + NUMBER_SIZE;
    if (size != (size_t)INTENT_SIZE(header_size) || rope_read_column(number, NUMBER_SIZE, at) != ROPE_COLUMN_NUMBER) {
        return DROP;
    }
    make_intent(again, header, header_size, *at, records);
    if (memcmp(again, bytes, size) != 0) {
        return DROP;
    }
    if (header_size != ROPE_HEADER_SIZE || memcmp(header, image, header_size) != 0 ||
        *at > ROPE_IMAGE_SIZE(shape.m) - ROPE_RECORD_SIZE) {
        return FOREIGN;
    }
    for (k = 0; k < ROPE_RECORD_SIZE; k++) {
        if (image[*at + k] != records[k] && image[*at + k] != records[ROPE_RECORD_SIZE + k]) {
            return FOREIGN;
        }
    }
    if (memcmp(image + *at, records, ROPE_RECORD_SIZE) == 0 || memcmp(image + *at, records + ROPE_RECORD_SIZE, ROPE_RECORD_SIZE) == 0) {
        return DROP;
    }
    return TORN;
}

/* Looks for an intent and carries it out in the buffer alone: nothing is written before the plan is ready. A card without a good header is
 * written by nobody, and its intent waits for whoever mends it. */
static void find_leftover(struct card *card, uint8_t *image, size_t replica) {
    uint8_t bytes[INTENT_SIZE(ROPE_HEADER_SIZE_2) + 1]; /* one more, to see that a file is too long */
    uint32_t first = 0;
    size_t size;
    int fd;
    if ((access(card->intent, F_OK) != 0 && errno == ENOENT) ||
        rope_judge_header(image, ROPE_HEADER_SIZE, shape, replica, &first) != ROPE_HEADER_GOOD) {
        return;
    }
    fd = open_file(card->intent, O_RDONLY);
    size = read_file(fd, card->intent, bytes, sizeof bytes, 0);
    close_file(fd, card->intent);
    card->leftover = size == sizeof bytes ? FOREIGN : judge(bytes, size, image, &card->at); /* an intent is shorter, torn or whole */
    if (card->leftover == FOREIGN) {
        end(FAILED, card->intent, "was left for another card, or the card was changed since. Nothing was written");
    }
    if (card->leftover == TORN) {
        memcpy(image + card->at, bytes + size - 1 - NUMBER_SIZE - ROPE_RECORD_SIZE, ROPE_RECORD_SIZE);
    }
}

static void remove_intent(const struct card *card) {
    if (unlink(card->intent) != 0) {
        fail(card->intent, "cannot be removed");
    }
    sync_folder(card);
}

/* What an intent announces is done. The intent has its name on the disk first: if the power fails in the middle it must be found. */
static void carry_out(const struct card *card, const uint8_t *image, size_t at) {
    sync_folder(card);
    write_file(card->fd, card->name, image + at, ROPE_RECORD_SIZE, at);
    remove_intent(card);
}

static void settle(const struct card *card, const uint8_t *image) {
    if (card->leftover == TORN) {
        carry_out(card, image, card->at);
        printf("  %s: a torn record was finished\n", card->name);
    } else if (card->leftover == DROP) {
        remove_intent(card);
    }
}

/* Stores a record that lies in two blocks, whole or not at all. A step has changed the buffer, so the old bytes are the card's. */
static void store_by_intent(const struct card *card, const uint8_t *image, size_t at) {
    uint8_t records[RECORDS_SIZE], bytes[INTENT_SIZE(ROPE_HEADER_SIZE)];
    int fd;
    if (read_file(card->fd, card->name, records, ROPE_RECORD_SIZE, at) != ROPE_RECORD_SIZE) {
        end(FAILED, card->name, "has become shorter. Nothing more was written");
    }
    memcpy(records + ROPE_RECORD_SIZE, image + at, ROPE_RECORD_SIZE);
    make_intent(bytes, image, ROPE_HEADER_SIZE, at, records);
    fd = open_file(card->intent, O_WRONLY | O_CREAT | O_EXCL);
    write_file(fd, card->intent, bytes, sizeof bytes, 0);
    close_file(fd, card->intent);
    carry_out(card, image, at);
}

/* ---- The recovery --------------------------------------------------------------------------------------------------------------- */

/* Opens and locks the card of a replica, and reads it into its place in the buffer. */
static void open_card(struct card *card, const char *name, uint8_t *image) {
    struct stat about;
    card->name = name;
    if (realpath(name, card->intent) == NULL) {
        fail(name, "cannot be opened");
    }
    strcat(card->intent, ".intent");
    card->fd = open_file(name, O_RDWR);
    if (flock(card->fd, LOCK_EX | LOCK_NB) != 0) { /* a file that is given twice ends here too */
        fail(name, "cannot be locked, another program may be at work on it");
    }
    if (fstat(card->fd, &about) != 0) {
        fail(name, "cannot be read");
    }
    if (!S_ISREG(about.st_mode) || (uint64_t)about.st_size != ROPE_IMAGE_SIZE(shape.m)) {
        end(REFUSED, name, "is no image of a card with so many slots. Nothing was written");
    }
    sync_file(card->fd, name); /* the last store of a program that was killed is read back, but need not be on the disk */
    if (read_file(card->fd, name, image, ROPE_IMAGE_SIZE(shape.m), 0) != ROPE_IMAGE_SIZE(shape.m)) {
        end(FAILED, name, "has become shorter. Nothing was written");
    }
}

static void expect_done(uint8_t refusal) {
    if (refusal != ROPE_DONE) {
        fprintf(stderr, "cards: refused by %d\n", refusal);
        exit(REFUSED);
    }
}

static void print_plan(const rope_row *rows, const uint8_t *plan) {
    static const char *const in_words[] = {"unused", "whole", "rewrite the record", "wait", "truncate", "truncated after"};
    size_t replica, slot;
    for (replica = 1; replica <= shape.n; replica++) {
        if (rows[replica - 1].readable) {
            printf("  replica %d answers: length %d\n", (int)replica, (int)rows[replica - 1].length);
        } else {
            printf("  replica %d is %s\n", (int)replica, ROPE_HAS(present, replica) ? "unreadable" : "off");
        }
    }
    for (slot = 1; slot <= shape.m; slot++) {
        uint8_t byte = plan[slot - 1];
        if (byte > ROPE_PLAN_FETCH) {
            printf("  slot %d: fetch from replica %d\n", (int)slot, byte - ROPE_PLAN_FETCH);
        } else if (byte > ROPE_PLAN_WHOLE) {
            printf("  slot %d: %s\n", (int)slot, in_words[byte]);
        }
    }
}

/* Plans, and settles what was interrupted on the cards that answer. An unreadable one keeps every byte, and its intent. */
static void plan_and_settle(size_t leader) {
    uint8_t plan[ROPE_MAX_SLOTS] = {0}, status = 0;
    rope_row rows[ROPE_MAX_REPLICAS] = {{0, 0, 0}};
    size_t replica, number = 0;
    expect_done(rope_plan(cluster, ROPE_CLUSTER_SIZE(shape.n, shape.m), shape, leader, present, plan, shape.m, rows, shape.n, &status,
                          &number));
    print_plan(rows, plan);
    if (status == ROPE_PLAN_WAITING) {
        printf("  waiting for an answer about slot %d\n", (int)number);
        exit(WAITS);
    }
    printf("  ready: the log will have %d slots\n", (int)number);
    for (replica = 1; replica <= shape.n; replica++) {
        if (rows[replica - 1].readable) {
            settle(&cards[replica - 1], image_of(replica));
        }
    }
}

/* Writes what a step stored in the buffer to its card, and nothing else. An entry may be torn, a record may not. */
static void store(const struct card *card, const uint8_t *image, size_t slot, uint8_t kind) {
    size_t entry_at = ROPE_ENTRY_AT(shape.m, slot), record_at = ROPE_RECORD_AT(slot);
    if (kind == ROPE_STORE_ENTRY) {
        write_file(card->fd, card->name, image + entry_at, ROPE_ENTRY_SIZE, entry_at);
    } else if (record_at / BLOCK == (record_at + ROPE_RECORD_SIZE - 1) / BLOCK) {
        write_file(card->fd, card->name, image + record_at, ROPE_RECORD_SIZE, record_at);
    } else {
        store_by_intent(card, image, record_at);
    }
}

/* Once a plan is ready no step waits. */
static void recover(size_t leader) {
    static const char *const in_words[] = {"", "entry", "record", "record blanked"};
    uint8_t status = 0, kind = 0;
    size_t replica = 0, slot = 0, stores;
    for (stores = 0;; stores++) {
        expect_done(rope_step(cluster, ROPE_CLUSTER_SIZE(shape.n, shape.m), shape, leader, present, &status, &replica, &slot, &kind));
        if (status != ROPE_OUTSTANDING) {
            break;
        }
        store(&cards[replica - 1], image_of(replica), slot, kind);
        printf("  replica %d, slot %d: %s\n", (int)replica, (int)slot, in_words[kind]);
    }
    printf("recovered after %d stores\n", (int)stores);
}

/* The number of an argument, 0 if it is none from 1 to most. */
static size_t number_of(const char *text, long most) {
    char *rest;
    long number = strtol(text, &rest, 10);
    return *rest == 0 && number >= 1 && number <= most ? (size_t)number : 0;
}

int main(int argc, char **argv) {
    size_t replica, leader = argc < 3 ? 0 : number_of(argv[2], ROPE_MAX_REPLICAS);
    /* If standard output is closed, a card that is opened would take its place and be printed to. */
    while (open_file("/dev/null", O_RDWR) <= STDERR_FILENO) {
    }
    setvbuf(stdout, NULL, _IOLBF, 0); /* what was done is told, whatever comes next */
    shape.n = (size_t)argc - 3;
    shape.m = argc < 3 ? 0 : number_of(argv[1], ROPE_MAX_SLOTS);
    if (shape.n < ROPE_MIN_REPLICAS || shape.n > ROPE_MAX_REPLICAS || shape.m == 0 || leader == 0) {
        end(WRONG_CALL, "expected", "cards M LEADER FILE1 FILE2 .. FILEn, M 1 to 64, n 3 to 7, - for a file that is off");
    }
    for (replica = 1; replica <= shape.n; replica++) {
        if (strcmp(argv[replica + 2], "-") != 0) {
            open_card(&cards[replica - 1], argv[replica + 2], image_of(replica));
            find_leftover(&cards[replica - 1], image_of(replica), replica);
            present |= ROPE_BIT(replica);
        }
    }
    plan_and_settle(leader);
    recover(leader);
    if (fflush(stdout) != 0 || ferror(stdout)) {
        fail("the output", "cannot be written");
    }
    return 0;
}
