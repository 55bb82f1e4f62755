/* Two cards and a witness, which stores records only: a reading whose entry is damaged is kept, since the witness has its record, and is
 * fetched once the other card answers.
 * Build it with: gcc -Iinclude examples/witness.c target/staticlib/libropelog.a -o witness
 * It prints examples/witness.out. bindings/examples/witness.rs is the same in Rust. */
#include <stdio.h>
#include <stdlib.h>
#include <string.h>

#include "ropelog.h"

enum { N = 3, M = 4, EDITION = 1, LEADER = 1, OTHER = 2, WITNESS = 3, WITNESSES = 1 << (WITNESS - 1) };

static const rope_shape shape = {N, M, EDITION, WITNESSES};

/* The cluster, and as it was when only slot 1 was written. */
static uint8_t cluster[ROPE_CLUSTER_SIZE_WITH(N, M, WITNESSES)], earlier[ROPE_CLUSTER_SIZE_WITH(N, M, WITNESSES)];

static const char *const plan_in_words[] = {"unused", "whole", "rewrite the record", "wait", "truncate", "truncated after"};
static const char *const stores_in_words[] = {"", "entry", "record", "record blanked"};

static uint8_t *image_of(uint8_t *bytes, size_t replica) {
    return bytes + rope_image_at(shape, replica).value;
}

static size_t size_of(size_t replica) {
    return rope_image_size(shape, replica).value;
}

/* A call that cannot be refused here. */
static void must(uint8_t refusal) {
    if (refusal != ROPE_DONE) {
        fprintf(stderr, "refused by %d\n", refusal);
        exit(1);
    }
}

/* Appends a reading on both cards and, if it is switched on, its epoch on the witness. */
static void append(uint32_t epoch, const char *reading, int witness_on) {
    size_t replica, slot = 0;
    for (replica = 1; replica < WITNESS; replica++) {
        must(rope_append(image_of(cluster, replica), size_of(replica), shape, replica, epoch, (const uint8_t *)reading, strlen(reading),
                         &slot));
    }
    if (witness_on) {
        must(rope_witness_append(image_of(cluster, WITNESS), size_of(WITNESS), shape, WITNESS, epoch, &slot));
    }
    printf("  slot %d, epoch %d, on replicas 1 2%s: %s\n", (int)slot, (int)epoch, witness_on ? " 3" : "", reading);
}

static void write_logs(void) {
    size_t replica;
    printf("Three replicas with %d slots each: 1 and 2 have cards of %d bytes, 3 is a witness of %d. Replica %d leads.\n", M,
           (int)ROPE_IMAGE_SIZE(M), (int)ROPE_WITNESS_SIZE(M), LEADER);
    for (replica = 1; replica <= N; replica++) {
        must(rope_format(image_of(cluster, replica), size_of(replica), shape, replica, 1));
    }
    append(1, "metre 1204, wire broken", 1);
    memcpy(earlier, cluster, sizeof cluster);
    append(1, "metre 1207, no signal", 1);
    append(1, "metre 1212, wire broken", 0);
}

/* Prints what is planned for slot 2. */
static void print_plan(const uint8_t *bytes, uint32_t present) {
    uint8_t plan[M] = {0}, status = 0;
    rope_row rows[N] = {{0, 0, 0}};
    size_t number = 0;
    must(rope_plan(bytes, sizeof cluster, shape, LEADER, present, plan, M, rows, N, &status, &number));
    if (plan[1] > ROPE_PLAN_FETCH) {
        printf("  the plan for slot 2: fetch from replica %d\n", plan[1] - ROPE_PLAN_FETCH);
    } else {
        printf("  the plan for slot 2: %s\n", plan_in_words[plan[1]]);
    }
}

/* Makes steps until there is nothing to write, and prints them. */
static void recover(uint32_t present) {
    uint8_t status = ROPE_OUTSTANDING, kind = 0;
    size_t replica = 0, slot = 0;
    while (status == ROPE_OUTSTANDING) {
        must(rope_step(cluster, sizeof cluster, shape, LEADER, present, &status, &replica, &slot, &kind));
        if (status == ROPE_RECOVERED) {
            printf("  a step: recovered, nothing is outstanding\n");
        } else if (status == ROPE_WAITING) {
            printf("  a step: waiting for slot %d, nothing is written\n", (int)slot);
        } else {
            printf("  a step: replica %d, slot %d: %s\n", (int)replica, (int)slot, stores_in_words[kind]);
        }
    }
}

/* What would be planned if card 2 were on and had never got slot 2. The leader and the witness are two of three, so what both have
 * stored may be confirmed: it waits for as long as the witness has the record. */
static void suppose(void) {
    static uint8_t other[sizeof cluster];
    memcpy(other, cluster, sizeof cluster);
    memcpy(image_of(other, OTHER), image_of(earlier, OTHER), size_of(OTHER));
    printf("\nSuppose card 2 is on and never got slot 2.\n");
    print_plan(other, ROPE_ALL(N));
    memcpy(image_of(other, WITNESS), image_of(earlier, WITNESS), size_of(WITNESS));
    printf("\nSuppose the witness never got its record either.\n");
    print_plan(other, ROPE_ALL(N));
}

static void plan_and_recover(void) {
    const uint32_t without = ROPE_BIT(LEADER) | ROPE_BIT(WITNESS);
    image_of(cluster, LEADER)[ROPE_ENTRY_AT(M, 2) + 26] ^= 1;
    printf("\nOn card 1 a bit of the entry of slot 2 has flipped, and card 2 is off.\n");
    print_plan(cluster, without);
    recover(without);
    suppose();
    printf("\nCard 2 is as it was, and is switched on.\n");
    print_plan(cluster, ROPE_ALL(N));
    recover(ROPE_ALL(N));
}

static void print_card(size_t replica) {
    uint32_t epochs[M] = {0}, first = 0;
    uint8_t verdicts[M] = {0};
    size_t slot, length = 0, at = 0, size = 0;
    must(rope_read(image_of(cluster, replica), size_of(replica), shape, replica, epochs, M, verdicts, M, &length, &first));
    for (slot = 1; slot <= length; slot++) {
        rope_payload(image_of(cluster, replica), size_of(replica), shape, replica, slot, &at, &size);
        printf("  replica %d, slot %d, epoch %d: %.*s\n", (int)replica, (int)slot, (int)epochs[slot - 1], (int)size,
               (const char *)image_of(cluster, replica) + at);
    }
}

static void print_witness(size_t replica) {
    uint32_t epochs[M] = {0}, first = 0;
    size_t slot, length = 0;
    must(rope_witness_read(image_of(cluster, replica), size_of(replica), shape, replica, epochs, M, &length, &first));
    for (slot = 1; slot <= length; slot++) {
        printf("  replica %d, slot %d, epoch %d: a record alone\n", (int)replica, (int)slot, (int)epochs[slot - 1]);
    }
}

int main(void) {
    write_logs();
    plan_and_recover();
    printf("\nWhat a reader finds now:\n");
    print_card(LEADER);
    print_card(OTHER);
    print_witness(WITNESS);
    return 0;
}
