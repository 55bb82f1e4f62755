/* A recovery from beginning to end: five replicas are written, damaged, planned, recovered and read back.
 * Build it with: gcc -Iinclude examples/recovery.c target/staticlib/libropelog.a -o recovery
 * It prints examples/recovery.out. bindings/examples/recovery.rs is the same in Rust. */
#include <stdio.h>
#include <stdlib.h>
#include <string.h>

#include "ropelog.h"

enum { N = 5, M = 6, EDITION = 1, LEADER = 1 };

static const rope_shape shape = {N, M, EDITION, 0};

static uint8_t cluster[ROPE_CLUSTER_SIZE(N, M)];

static const char *const verdicts_in_words[] = {"unused", "intact", "record lost", "corrupt", "ambiguous", "partial", "stale"};
static const char *const plan_in_words[] = {"unused", "whole", "rewrite the record", "wait", "truncate", "truncated after"};
static const char *const stores_in_words[] = {"", "entry", "record", "record blanked"};

static uint8_t *image_of(size_t replica) {
    return cluster + ROPE_IMAGE_AT(M, replica);
}

static uint8_t *entry_of(size_t replica, size_t slot) {
    return image_of(replica) + ROPE_ENTRY_AT(M, slot);
}

/* A call that cannot be refused here. */
static void must(uint8_t refusal) {
    if (refusal != ROPE_DONE) {
        fprintf(stderr, "refused by %d\n", refusal);
        exit(1);
    }
}

/* Prints "replica 1" or "replicas 1 2". */
static void print_set(uint32_t present) {
    size_t replica;
    printf("replica%s", (present & (present - 1)) == 0 ? "" : "s");
    for (replica = 1; replica <= N; replica++) {
        if (present & ROPE_BIT(replica)) {
            printf(" %d", (int)replica);
        }
    }
}

/* Appends one reading on each replica of a set. */
static void append_on(uint32_t present, uint32_t epoch, const char *reading) {
    size_t replica, slot = 0;
    for (replica = 1; replica <= N; replica++) {
        if (present & ROPE_BIT(replica)) {
            must(rope_append(image_of(replica), ROPE_IMAGE_SIZE(M), shape, replica, epoch, (const uint8_t *)reading, strlen(reading),
                             &slot));
        }
    }
    printf("  slot %d, epoch %d, on ", (int)slot, (int)epoch);
    print_set(present);
    printf(": %s\n", reading);
}

static void write_logs(void) {
    size_t replica;
    printf("Five replicas with %d slots each, %d bytes on each card. Replica %d leads.\n", M, (int)ROPE_IMAGE_SIZE(M), LEADER);
    for (replica = 1; replica <= N; replica++) {
        must(rope_format(image_of(replica), ROPE_IMAGE_SIZE(M), shape, replica, 1));
    }
    append_on(ROPE_ALL(N), 1, "metre 1204, wire broken");
    append_on(ROPE_ALL(N), 1, "metre 1207, no signal");
    append_on(ROPE_ALL(N), 1, "metre 1212, wire broken");
    append_on(ROPE_ALL(N) & ~ROPE_BIT(4), 1, "metre 1219, strand loose");
    append_on(ROPE_BIT(LEADER), 1, "metre 1223, wire broken");
}

static void damage(void) {
    printf("\nThe power fails, and the cards have suffered.\n");
    memset(entry_of(1, 5) + 40, 0, 100);
    printf("  replica 1, slot 5: the entry was being written and is torn\n");
    entry_of(1, 2)[26] ^= 1;
    entry_of(2, 2)[30] ^= 1;
    printf("  replicas 1 and 2, slot 2: a bit of the entry has flipped\n");
    memset(image_of(1) + ROPE_RECORD_AT(3), '#', ROPE_RECORD_SIZE);
    printf("  replica 1, slot 3: the record is overwritten\n");
    memset(entry_of(3, 1), 0, ROPE_ENTRY_SIZE);
    printf("  replica 3, slot 1: the entry is erased\n");
}

/* Prints what a reader says of the used slots of each replica. */
static void print_verdicts(void) {
    uint32_t epochs[M] = {0};
    uint8_t verdicts[M] = {0};
    size_t replica, slot, length = 0;
    uint32_t first = 0;
    for (replica = 1; replica <= N; replica++) {
        must(rope_read(image_of(replica), ROPE_IMAGE_SIZE(M), shape, replica, epochs, M, verdicts, M, &length, &first));
        printf("  replica %d, length %d:", (int)replica, (int)length);
        for (slot = 1; slot <= length; slot++) {
            printf("%s %s", slot == 1 ? "" : ",", verdicts_in_words[verdicts[slot - 1]]);
        }
        printf("\n");
    }
}

static void print_rows(const rope_row *rows) {
    size_t replica;
    for (replica = 1; replica <= N; replica++) {
        const rope_row *row = &rows[replica - 1];
        if (row->readable) {
            printf("  replica %d answers: length %d, last epoch %d\n", (int)replica, (int)row->length, (int)row->last_epoch);
        } else {
            printf("  replica %d is away\n", (int)replica);
        }
    }
}

static void print_plan(uint32_t present) {
    uint8_t plan[M] = {0}, status = 0;
    rope_row rows[N] = {{0, 0, 0}};
    size_t slot, number = 0;
    must(rope_plan(cluster, sizeof cluster, shape, LEADER, present, plan, M, rows, N, &status, &number));
    printf("\nThe plan with ");
    print_set(present);
    printf(" present:\n");
    print_rows(rows);
    for (slot = 1; slot <= M; slot++) {
        uint8_t byte = plan[slot - 1];
        if (byte > ROPE_PLAN_FETCH) {
            printf("  slot %d: fetch from replica %d\n", (int)slot, byte - ROPE_PLAN_FETCH);
        } else {
            printf("  slot %d: %s\n", (int)slot, plan_in_words[byte]);
        }
    }
    if (status == ROPE_PLAN_READY) {
        printf("  ready: the log will have %d slots\n", (int)number);
    } else {
        printf("  waiting for an answer about slot %d\n", (int)number);
    }
}

/* Makes one step and prints it. */
static void step(uint32_t present) {
    uint8_t status = 0, kind = 0;
    size_t replica = 0, slot = 0;
    must(rope_step(cluster, sizeof cluster, shape, LEADER, present, &status, &replica, &slot, &kind));
    if (status == ROPE_RECOVERED) {
        printf("  a step: recovered, nothing is outstanding\n");
    } else if (status == ROPE_WAITING) {
        printf("  a step: waiting for slot %d, nothing is written\n", (int)slot);
    } else {
        printf("  a step: replica %d, slot %d: %s\n", (int)replica, (int)slot, stores_in_words[kind]);
    }
}

/* Makes a run and prints it. */
static void run(uint32_t present, uint64_t budget) {
    uint8_t status = 0;
    uint64_t stores = 0;
    size_t slot = 0;
    must(rope_run(cluster, sizeof cluster, shape, LEADER, present, budget, &status, &stores, &slot));
    if (status == ROPE_RECOVERED) {
        printf("  a run of at most %d stores: made %d, recovered\n", (int)budget, (int)stores);
    } else if (status == ROPE_WAITING) {
        printf("  a run of at most %d stores: waiting for slot %d\n", (int)budget, (int)slot);
    } else {
        printf("  a run of at most %d stores: made %d, more are outstanding\n", (int)budget, (int)stores);
    }
}

/* Recovers with replica 5 away, whose card must stay as it is. */
static void recover(void) {
    uint32_t two = ROPE_BIT(1) | ROPE_BIT(2), four = ROPE_ALL(4);
    static uint8_t away[ROPE_IMAGE_SIZE(M)];
    memcpy(away, image_of(5), sizeof away);
    print_plan(two);
    step(two);
    print_plan(four);
    printf("\nThe recovery:\n");
    step(four);
    step(four);
    step(four);
    run(four, 2);
    run(four, ROPE_ENOUGH_STORES(N, M));
    step(four);
    printf("  replica 5 was away: %s\n", memcmp(away, image_of(5), sizeof away) == 0 ? "no byte of it changed" : "it changed");
}

/* Appends in a new epoch, as after every cut, and shows that an old one is refused. */
static void append_again(void) {
    static uint8_t before[sizeof cluster];
    size_t slot = 0;
    uint8_t refusal;
    printf("\nThe log was cut, so it goes on in a new epoch.\n");
    append_on(ROPE_ALL(4), 2, "metre 1223, wire broken (measured again)");
    memcpy(before, cluster, sizeof cluster);
    refusal = rope_append(image_of(LEADER), ROPE_IMAGE_SIZE(M), shape, LEADER, 1, (const uint8_t *)"late", 4, &slot);
    printf("  an append in epoch 1 is refused by %d, and %s\n", refusal,
           memcmp(before, cluster, sizeof cluster) == 0 ? "no byte changed" : "bytes changed");
}

/* Whether a replica has a payload at a slot; a refused image has none. */
static int has_payload(size_t replica, size_t slot) {
    uint8_t has = 0;
    return rope_has_payload(image_of(replica), ROPE_IMAGE_SIZE(M), shape, replica, slot, &has) == ROPE_DONE && has == 1;
}

/* Prints each payload of the leader, and how many replicas have it too. */
static void print_log(void) {
    size_t replica, slot;
    printf("\nThe log at the end:\n");
    for (slot = 1; slot <= M; slot++) {
        size_t at = 0, size = 0, their_at = 0, their_size = 0, holders = 0;
        if (!has_payload(LEADER, slot)) {
            continue;
        }
        rope_payload(image_of(LEADER), ROPE_IMAGE_SIZE(M), shape, LEADER, slot, &at, &size);
        for (replica = 1; replica <= N; replica++) {
            rope_payload(image_of(replica), ROPE_IMAGE_SIZE(M), shape, replica, slot, &their_at, &their_size);
            if (has_payload(replica, slot) && their_size == size &&
                memcmp(image_of(replica) + their_at, image_of(LEADER) + at, size) == 0) {
                holders++;
            }
        }
        printf("  slot %d, on %d replicas: %.*s\n", (int)slot, (int)holders, (int)size, (const char *)image_of(LEADER) + at);
    }
}

int main(void) {
    write_logs();
    damage();
    printf("\nWhat a reader finds:\n");
    print_verdicts();
    recover();
    append_again();
    print_log();
    printf("\nWhat a reader finds now:\n");
    print_verdicts();
    return 0;
}
