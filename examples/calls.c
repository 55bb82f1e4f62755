/* Every function of include/ropelog.h, called once or more and its answer checked; also the version, the sizes, and that a refused call
 * changes nothing. It prints how many checks held, or the line of the first that did not. */
#include <stdio.h>
#include <stdlib.h>
#include <string.h>

#include "ropelog.h"

static int checks = 0;

static void check(int holds, int line) {
    if (!holds) {
        printf("line %d does not hold\n", line);
        exit(1);
    }
    checks++;
}

#define CHECK(fact) check((fact), __LINE__)

/* WITNESS is a replica, WITNESSES the set of it. */
enum { N = 3, M = 2, REPLICA = 2, WITNESS = 3, WITNESSES = 4 };

/* The same cluster in either edition, of cards alone; and with a witness. */
static const rope_shape shape = {N, M, 1, 0}, shape_2 = {N, M, 2, 0};
static const rope_shape shape_w = {N, M, 1, WITNESSES}, shape_w2 = {N, M, 2, WITNESSES};

static rope_shape shape_with(size_t n, size_t m, size_t edition, uint32_t witnesses) {
    rope_shape made;
    memset(&made, '#', sizeof made); /* the bytes behind the set have no meaning */
    made.n = n;
    made.m = m;
    made.edition = edition;
    made.witnesses = witnesses;
    return made;
}

static rope_shape shape_of(size_t n, size_t m, size_t edition) {
    return shape_with(n, m, edition, 0);
}

static const uint8_t *bytes_of(const char *text) {
    return (const uint8_t *)text;
}

static int all_are(const uint8_t *bytes, size_t size, uint8_t byte) {
    size_t at;
    for (at = 0; at < size; at++) {
        if (bytes[at] != byte) {
            return 0;
        }
    }
    return 1;
}

static void check_version_and_sizes(void) {
    char version[16];
    sprintf(version, "%d.%d.%d", ROPE_VERSION_MAJOR, ROPE_VERSION_MINOR, ROPE_VERSION_PATCH);
    CHECK(strcmp(version, ROPE_VERSION) == 0);
    CHECK(ROPE_IMAGE_SIZE(1) == 302 && ROPE_IMAGE_SIZE(ROPE_MAX_SLOTS) == 17564);
    CHECK(ROPE_CLUSTER_SIZE(3, 1) == 906 && ROPE_IMAGE_AT(1, 3) == 604);
    CHECK(ROPE_RECORD_AT(2) == 62 && ROPE_ENTRY_AT(2, 1) == 96 && ROPE_ENTRY_AT(2, 2) + ROPE_ENTRY_SIZE == ROPE_IMAGE_SIZE(2));
    CHECK(ROPE_IMAGE_SIZE_2(1) == 313 && ROPE_IMAGE_SIZE_2(ROPE_MAX_SLOTS) == 17575);
    CHECK(ROPE_CLUSTER_SIZE_2(3, 1) == 939 && ROPE_IMAGE_AT_2(1, 3) == 626);
    CHECK(ROPE_RECORD_AT_2(2) == 73 && ROPE_ENTRY_AT_2(2, 1) == 107);
    CHECK(ROPE_ENTRY_AT_2(2, 2) + ROPE_ENTRY_SIZE == ROPE_IMAGE_SIZE_2(2));
    CHECK(sizeof(rope_shape) == 32 && offsetof(rope_shape, witnesses) == 24);
    CHECK(sizeof(rope_measure) == 16 && offsetof(rope_measure, refusal) == 8);
}

/* An image that the shape gives a replica has the size that rope_format takes, and ends where the next begins. */
static void check_witness_sizes(void) {
    static uint8_t cluster[ROPE_CLUSTER_SIZE_2(ROPE_MAX_REPLICAS, M)];
    size_t n, replica;
    uint32_t witnesses;
    CHECK(ROPE_WITNESS_SIZE(1) == 62 && ROPE_WITNESS_SIZE(ROPE_MAX_SLOTS) == 2204);
    CHECK(ROPE_WITNESS_SIZE_2(1) == 73 && ROPE_WITNESS_SIZE_2(ROPE_MAX_SLOTS) == 2215);
    CHECK(ROPE_RECORD_AT(2) + ROPE_RECORD_SIZE == ROPE_WITNESS_SIZE(2) && ROPE_RECORD_AT_2(2) + ROPE_RECORD_SIZE == ROPE_WITNESS_SIZE_2(2));
    CHECK(ROPE_CLUSTER_SIZE_WITH(3, 1, 4) == 302 + 302 + 62 && ROPE_CLUSTER_SIZE_WITH_2(3, 1, 4) == 313 + 313 + 73);
    CHECK(ROPE_CLUSTER_SIZE_WITH(3, 1, 0) == ROPE_CLUSTER_SIZE(3, 1) && ROPE_CLUSTER_SIZE_WITH(3, 1, 8 + 4) == ROPE_CLUSTER_SIZE_WITH(3, 1, 4));
    CHECK(ROPE_COUNT(7, 0x55) == 4 && ROPE_COUNT(3, 0x55) == 2 && ROPE_COUNT(0, 0x55) == 0 && ROPE_HAS(4, 3) == 1 && ROPE_HAS(4, 2) == 0);
    for (n = ROPE_MIN_REPLICAS; n <= ROPE_MAX_REPLICAS; n++) {
        for (witnesses = 0; witnesses <= ROPE_ALL(n); witnesses++) {
            int holds = 1;
            for (replica = 1; replica <= n; replica++) {
                size_t at = ROPE_IMAGE_AT_WITH(M, witnesses, replica), size = ROPE_IMAGE_SIZE_WITH(M, witnesses, replica);
                size_t at_2 = ROPE_IMAGE_AT_WITH_2(M, witnesses, replica), size_2 = ROPE_IMAGE_SIZE_WITH_2(M, witnesses, replica);
                holds &= rope_format(cluster + at, size, shape_with(n, M, 1, witnesses), replica, 1) == ROPE_DONE;
                holds &= rope_format(cluster + at_2, size_2, shape_with(n, M, 2, witnesses), replica, 1) == ROPE_DONE;
                holds &= replica < n ? at + size == ROPE_IMAGE_AT_WITH(M, witnesses, replica + 1)
                                     : at + size == ROPE_CLUSTER_SIZE_WITH(n, M, witnesses);
                holds &= replica < n ? at_2 + size_2 == ROPE_IMAGE_AT_WITH_2(M, witnesses, replica + 1)
                                     : at_2 + size_2 == ROPE_CLUSTER_SIZE_WITH_2(n, M, witnesses);
            }
            CHECK(holds);
        }
    }
}

static int is_value(rope_measure measure, size_t value) {
    return measure.value == value && measure.refusal == ROPE_DONE;
}

static int is_refused(rope_measure measure, uint8_t refusal) {
    return measure.value == 0 && measure.refusal == refusal;
}

/* The sizes of both images and where they begin, as the macros have them. */
static int measures_replica(size_t n, size_t m, uint32_t witnesses, size_t replica) {
    const rope_shape one = shape_with(n, m, 1, witnesses), two = shape_with(n, m, 2, witnesses);
    return is_value(rope_image_size(one, replica), ROPE_IMAGE_SIZE_WITH(m, witnesses, replica)) &&
           is_value(rope_image_size(two, replica), ROPE_IMAGE_SIZE_WITH_2(m, witnesses, replica)) &&
           is_value(rope_image_at(one, replica), ROPE_IMAGE_AT_WITH(m, witnesses, replica)) &&
           is_value(rope_image_at(two, replica), ROPE_IMAGE_AT_WITH_2(m, witnesses, replica));
}

/* Where the record and the entry of a slot begin, as the macros have them; a witness has no entry. */
static int measures_slot(size_t n, size_t m, uint32_t witnesses, size_t replica, size_t slot) {
    const rope_shape one = shape_with(n, m, 1, witnesses), two = shape_with(n, m, 2, witnesses);
    const rope_measure entry = rope_entry_at(one, replica, slot), entry_2 = rope_entry_at(two, replica, slot);
    int holds = is_value(rope_record_at(one, replica, slot), ROPE_RECORD_AT(slot));
    holds &= is_value(rope_record_at(two, replica, slot), ROPE_RECORD_AT_2(slot));
    if (ROPE_HAS(witnesses, replica)) {
        return holds && is_refused(entry, ROPE_REFUSED_BUFFER_LENGTH) && is_refused(entry_2, ROPE_REFUSED_BUFFER_LENGTH);
    }
    return holds && is_value(entry, ROPE_ENTRY_AT(m, slot)) && is_value(entry_2, ROPE_ENTRY_AT_2(m, slot));
}

/* Every call about sizes and offsets answers what its macros do. */
static void check_measures(void) {
    static const size_t slot_counts[] = {1, M, ROPE_MAX_SLOTS};
    size_t at, n, replica, slot;
    uint32_t witnesses;
    for (at = 0; at < sizeof slot_counts / sizeof slot_counts[0]; at++) {
        const size_t m = slot_counts[at];
        for (n = ROPE_MIN_REPLICAS; n <= ROPE_MAX_REPLICAS; n++) {
            for (witnesses = 0; witnesses <= ROPE_ALL(n); witnesses++) {
                int holds = is_value(rope_cluster_size(shape_with(n, m, 1, witnesses)), ROPE_CLUSTER_SIZE_WITH(n, m, witnesses));
                holds &= is_value(rope_cluster_size(shape_with(n, m, 2, witnesses)), ROPE_CLUSTER_SIZE_WITH_2(n, m, witnesses));
                for (replica = 1; replica <= n; replica++) {
                    holds &= measures_replica(n, m, witnesses, replica);
                    for (slot = 1; slot <= m; slot++) {
                        holds &= measures_slot(n, m, witnesses, replica, slot);
                    }
                }
                CHECK(holds);
            }
        }
    }
    CHECK(is_value(rope_image_at(shape, 1), 0) && is_value(rope_image_at(shape_w2, 1), 0));
}

/* All five calls are refused by the same number. */
static int all_refused(rope_shape refused, size_t replica, size_t slot, uint8_t refusal) {
    return is_refused(rope_image_size(refused, replica), refusal) && is_refused(rope_cluster_size(refused), refusal) &&
           is_refused(rope_image_at(refused, replica), refusal) && is_refused(rope_record_at(refused, replica, slot), refusal) &&
           is_refused(rope_entry_at(refused, replica, slot), refusal);
}

/* 1 before 2 before 3; a bit of the witnesses for no replica adds nothing and is not refused. */
static void check_measure_refusals(void) {
    static const size_t slot_counts[] = {0, ROPE_MAX_SLOTS + 1, SIZE_MAX}, replica_counts[] = {0, 2, 8, SIZE_MAX}, editions[] = {0, 3, SIZE_MAX};
    static const size_t replicas[] = {0, N + 1, 33, SIZE_MAX}, slots[] = {0, M + 1, SIZE_MAX};
    const rope_shape beyond = shape_with(N, M, 1, 0x80000008u | WITNESSES);
    size_t at;
    for (at = 0; at < sizeof slot_counts / sizeof slot_counts[0]; at++) {
        CHECK(all_refused(shape_of(N, slot_counts[at], 1), 1, 1, ROPE_REFUSED_SLOT_COUNT));
        CHECK(all_refused(shape_with(0, slot_counts[at], 0, 7), 0, 1, ROPE_REFUSED_SLOT_COUNT));
    }
    for (at = 0; at < sizeof replica_counts / sizeof replica_counts[0]; at++) {
        CHECK(all_refused(shape_of(replica_counts[at], M, 1), 1, 1, ROPE_REFUSED_REPLICA_COUNT));
    }
    for (at = 0; at < sizeof editions / sizeof editions[0]; at++) {
        CHECK(all_refused(shape_with(N, M, editions[at], 7), 1, 1, ROPE_REFUSED_REPLICA_COUNT));
    }
    for (at = 0; at < sizeof replicas / sizeof replicas[0]; at++) {
        CHECK(is_refused(rope_image_size(shape_w, replicas[at]), ROPE_REFUSED_REPLICA_COUNT));
        CHECK(is_refused(rope_image_at(shape_w, replicas[at]), ROPE_REFUSED_REPLICA_COUNT));
        CHECK(is_refused(rope_record_at(shape_w, replicas[at], 1), ROPE_REFUSED_REPLICA_COUNT));
        CHECK(is_refused(rope_entry_at(shape_w, replicas[at], 1), ROPE_REFUSED_REPLICA_COUNT));
    }
    for (at = 0; at < sizeof slots / sizeof slots[0]; at++) {
        CHECK(is_refused(rope_record_at(shape_w, WITNESS, slots[at]), ROPE_REFUSED_SLOT_COUNT));
        CHECK(is_refused(rope_entry_at(shape_w, WITNESS, slots[at]), ROPE_REFUSED_SLOT_COUNT));
        CHECK(is_refused(rope_record_at(shape_of(2, M, 3), 0, slots[at]), ROPE_REFUSED_SLOT_COUNT));
        CHECK(is_refused(rope_entry_at(shape_of(2, M, 3), 0, slots[at]), ROPE_REFUSED_SLOT_COUNT));
    }
    CHECK(is_refused(rope_entry_at(shape_w, WITNESS, 1), ROPE_REFUSED_BUFFER_LENGTH));
    CHECK(is_value(rope_cluster_size(beyond), ROPE_CLUSTER_SIZE_WITH(N, M, WITNESSES)));
    CHECK(is_value(rope_image_size(beyond, WITNESS), ROPE_WITNESS_SIZE(M)) && is_value(rope_image_at(beyond, WITNESS), ROPE_IMAGE_AT(M, WITNESS)));
    CHECK(is_value(rope_record_at(beyond, 1, 2), ROPE_RECORD_AT(2)) && is_value(rope_entry_at(beyond, 1, 2), ROPE_ENTRY_AT(M, 2)));
}

static void check_columns(void) {
    uint8_t column[5];
    uint64_t value = 77;
    CHECK(rope_checksum(bytes_of(""), 0) == 1);
    CHECK(rope_checksum(bytes_of("A"), 1) == 4325442);
    rope_write_number(column, sizeof column, 42);
    CHECK(memcmp(column, "   42", 5) == 0);
    CHECK(rope_read_column(bytes_of("     "), 5, &value) == ROPE_COLUMN_BLANK && value == 77);
    CHECK(rope_read_column(bytes_of("  042"), 5, &value) == ROPE_COLUMN_MALFORMED && value == 77);
    CHECK(rope_read_column(bytes_of("                   1"), 20, &value) == ROPE_COLUMN_TOO_WIDE && value == 77);
    CHECK(rope_read_column(column, sizeof column, &value) == ROPE_COLUMN_NUMBER && value == 42);
}

static void check_headers(void) {
    const rope_shape one = shape_of(5, 64, 1), two = shape_of(5, 64, 2);
    const rope_shape wide = shape_of(3, (size_t)1 << 32, 1), wide_2 = shape_of(3, (size_t)1 << 32, 2);
    uint8_t header[ROPE_HEADER_SIZE], header_2[ROPE_HEADER_SIZE_2];
    uint32_t first = 77;
    CHECK(rope_write_header(header, sizeof header, one, 2, 1) == ROPE_DONE);
    CHECK(memcmp(header, "rope  1  2  5 64", 16) == 0);
    CHECK(rope_judge_header(header, sizeof header, shape_of(2, 64, 1), 5, &first) == ROPE_HEADER_OTHER);
    CHECK(rope_judge_header(header, 27, one, 2, &first) == ROPE_HEADER_OTHER);
    CHECK(rope_judge_header(header, sizeof header, two, 2, &first) == ROPE_HEADER_OTHER && first == 77);
    CHECK(rope_judge_header(header, sizeof header, one, 2, &first) == ROPE_HEADER_GOOD && first == 1);
    CHECK(rope_write_header(header_2, sizeof header_2, one, 2, 7) == ROPE_REFUSED_BUFFER_LENGTH);
    CHECK(rope_write_header(header_2, sizeof header_2, two, 2, 7) == ROPE_DONE);
    CHECK(memcmp(header_2, "rope  2  2  5 64          7", 27) == 0);
    CHECK(rope_judge_header(header_2, sizeof header_2, one, 2, &first) == ROPE_HEADER_OTHER && first == 1);
    CHECK(rope_judge_header(header_2, sizeof header_2, two, 2, &first) == ROPE_HEADER_GOOD && first == 7);
    CHECK(rope_write_header(header_2, sizeof header_2, two, 2, 4294967232u) == ROPE_DONE);
    CHECK(rope_judge_header(header_2, sizeof header_2, two, 2, &first) == ROPE_HEADER_GOOD && first == 4294967232u);
    CHECK(rope_write_header(header_2, sizeof header_2, two, 2, 4294967233u) == ROPE_DONE);
    CHECK(rope_judge_header(header_2, sizeof header_2, two, 2, &first) == ROPE_HEADER_OTHER && first == 4294967232u);
    CHECK(rope_write_header(header_2, sizeof header_2, two, 2, 0) == ROPE_DONE);
    CHECK(rope_judge_header(header_2, sizeof header_2, two, 2, &first) == ROPE_HEADER_OTHER && first == 4294967232u);
    /* More slots than there are indexes: only a header of edition 2 gives a first index that can be refused. */
    CHECK(rope_write_header(header_2, sizeof header_2, wide_2, 1, 1) == ROPE_DONE);
    CHECK(rope_judge_header(header_2, sizeof header_2, wide_2, 1, &first) == ROPE_HEADER_OTHER && first == 4294967232u);
    CHECK(rope_write_header(header, sizeof header, wide, 1, 1) == ROPE_DONE);
    CHECK(rope_judge_header(header, sizeof header, wide, 1, &first) == ROPE_HEADER_GOOD && first == 1);
}

static void check_records(void) {
    uint8_t record[ROPE_RECORD_SIZE];
    uint32_t epoch = 77;
    memset(record, '#', sizeof record);
    CHECK(rope_write_record(record, 33, 7, 3) == ROPE_REFUSED_BUFFER_LENGTH);
    CHECK(all_are(record, sizeof record, '#'));
    CHECK(rope_judge_record(record, sizeof record, 3, &epoch) == ROPE_RECORD_BAD && epoch == 77);
    CHECK(rope_judge_record(record, 33, 3, &epoch) == ROPE_RECORD_WRONG_LENGTH && epoch == 77);
    CHECK(rope_write_record(record, sizeof record, 7, 3) == ROPE_DONE);
    CHECK(rope_judge_record(record, sizeof record, 3, &epoch) == ROPE_RECORD_GOOD && epoch == 7);
    CHECK(rope_write_blank_record(record, sizeof record) == ROPE_DONE);
    CHECK(rope_judge_record(record, sizeof record, 3, &epoch) == ROPE_RECORD_BLANK && epoch == 7);
}

static void check_entries(void) {
    uint8_t entry[ROPE_ENTRY_SIZE], payload[ROPE_MAX_PAYLOAD + 1] = {0};
    uint32_t epoch = 77;
    size_t size = 77;
    CHECK(rope_write_fresh_entry(entry, sizeof entry) == ROPE_DONE);
    CHECK(all_are(entry, sizeof entry, ' '));
    CHECK(rope_write_entry(entry, sizeof entry, 7, 3, payload, sizeof payload) == ROPE_REFUSED_APPEND_PAYLOAD);
    CHECK(all_are(entry, sizeof entry, ' '));
    CHECK(rope_judge_entry(entry, sizeof entry, 3, &epoch, &size) == ROPE_ENTRY_BROKEN && epoch == 77 && size == 77);
    CHECK(rope_judge_entry(entry, 239, 3, &epoch, &size) == ROPE_ENTRY_WRONG_LENGTH && epoch == 77 && size == 77);
    CHECK(rope_write_entry(entry, sizeof entry, 7, 3, bytes_of("wire"), 4) == ROPE_DONE);
    CHECK(rope_judge_entry(entry, sizeof entry, 3, &epoch, &size) == ROPE_ENTRY_INTACT && epoch == 7 && size == 4);
    CHECK(memcmp(entry + 26, "wire", 4) == 0);
}

/* Slot 2, the last used one, has a record of epoch 9. Beside it stands an entry of epoch 7 of that slot, then of another slot, then spaces. */
static void check_stale(const uint8_t *image) {
    uint8_t other[ROPE_IMAGE_SIZE(M)], verdicts[M] = {77, 77}, has = 77;
    uint8_t *entry = other + ROPE_ENTRY_AT(M, 2);
    uint32_t epochs[M] = {77, 77};
    uint32_t first = 77;
    size_t length = 77, at = 77, size = 77;
    memcpy(other, image, sizeof other);
    CHECK(rope_write_entry(entry, ROPE_ENTRY_SIZE, 7, 2, bytes_of("old"), 3) == ROPE_DONE);
    CHECK(rope_read(other, sizeof other, shape, REPLICA, epochs, M, verdicts, M, &length, &first) == ROPE_DONE && length == 2);
    CHECK(epochs[1] == 9 && verdicts[0] == ROPE_INTACT && verdicts[1] == ROPE_STALE);
    CHECK(rope_has_payload(other, sizeof other, shape, REPLICA, 2, &has) == ROPE_DONE && has == 0);
    rope_payload(other, sizeof other, shape, REPLICA, 2, &at, &size);
    CHECK(at == 0 && size == 0);
    CHECK(rope_write_entry(entry, ROPE_ENTRY_SIZE, 9, 1, bytes_of("old"), 3) == ROPE_DONE);
    CHECK(rope_read(other, sizeof other, shape, REPLICA, epochs, M, verdicts, M, &length, &first) == ROPE_DONE && verdicts[1] == ROPE_AMBIGUOUS);
    CHECK(rope_write_fresh_entry(entry, ROPE_ENTRY_SIZE) == ROPE_DONE);
    CHECK(rope_read(other, sizeof other, shape, REPLICA, epochs, M, verdicts, M, &length, &first) == ROPE_DONE && verdicts[1] == ROPE_AMBIGUOUS);
}

static void check_image(void) {
    uint8_t image[ROPE_IMAGE_SIZE(M)], verdicts[M] = {77, 77}, has = 77;
    uint32_t epochs[M] = {77, 77}, first = 77;
    size_t slot = 77, length = 77, at = 77, size = 77;
    memset(image, '#', sizeof image);
    CHECK(rope_format(image, sizeof image - 1, shape, REPLICA, 1) == ROPE_REFUSED_BUFFER_LENGTH);
    CHECK(all_are(image, sizeof image, '#'));
    CHECK(rope_format(image, sizeof image, shape, REPLICA, 1) == ROPE_DONE);
    CHECK(rope_append(image, sizeof image, shape, REPLICA, 0, bytes_of("wire"), 4, &slot) == ROPE_REFUSED_APPEND_EPOCH && slot == 77);
    CHECK(rope_append(image, sizeof image, shape, REPLICA, 7, bytes_of("wire"), 4, &slot) == ROPE_DONE && slot == 1);
    CHECK(rope_append(image, sizeof image, shape, REPLICA, 9, bytes_of(""), 0, &slot) == ROPE_DONE && slot == 2);
    CHECK(rope_read(image, sizeof image, shape, REPLICA, epochs, M, verdicts, M - 1, &length, &first) == ROPE_REFUSED_LENT_LENGTH);
    CHECK(length == 77 && first == 77 && epochs[0] == 77 && epochs[1] == 77 && verdicts[0] == 77);
    image[ROPE_ENTRY_AT(M, 2) + 26] ^= 1;
    CHECK(rope_read(image, sizeof image, shape, REPLICA, epochs, M, verdicts, M, &length, &first) == ROPE_DONE && length == 2);
    CHECK(first == 1 && epochs[0] == 7 && epochs[1] == 9);
    CHECK(verdicts[0] == ROPE_INTACT && verdicts[1] == ROPE_AMBIGUOUS);
    check_stale(image);
    rope_payload(image, sizeof image, shape, REPLICA, 2, &at, &size);
    CHECK(at == 0 && size == 0);
    rope_payload(image, sizeof image, shape, REPLICA, 1, &at, &size);
    CHECK(at == ROPE_ENTRY_AT(M, 1) + 26 && size == 4 && memcmp(image + at, "wire", 4) == 0);
    rope_payload(image, sizeof image, shape, REPLICA + 1, 1, &at, &size);
    CHECK(at == 0 && size == 0);
    CHECK(rope_has_payload(image, sizeof image, shape, REPLICA, 1, &has) == ROPE_DONE && has == 1);
    CHECK(rope_has_payload(image, sizeof image, shape, REPLICA, 2, &has) == ROPE_DONE && has == 0);
    CHECK(rope_has_payload(image, sizeof image, shape, REPLICA + 1, 1, &has) == ROPE_REFUSED_HEADER && has == 0);
}

/* Replica 1 uses both slots, its first entry spoilt; replica 2 holds slot 1 whole; replica 3 is fresh. */
static void make_cluster(uint8_t *cluster) {
    size_t replica, slot = 0;
    for (replica = 1; replica <= N; replica++) {
        CHECK(rope_format(cluster + ROPE_IMAGE_AT(M, replica), ROPE_IMAGE_SIZE(M), shape, replica, 1) == ROPE_DONE);
    }
    for (replica = 1; replica <= 2; replica++) {
        uint8_t *image = cluster + ROPE_IMAGE_AT(M, replica);
        CHECK(rope_append(image, ROPE_IMAGE_SIZE(M), shape, replica, 1, bytes_of("one"), 3, &slot) == ROPE_DONE && slot == 1);
    }
    CHECK(rope_append(cluster, ROPE_IMAGE_SIZE(M), shape, 1, 4, bytes_of("two"), 3, &slot) == ROPE_DONE && slot == 2);
    cluster[ROPE_ENTRY_AT(M, 1) + 26] ^= 1;
}

static int is_row(rope_row row, uint8_t readable, uint32_t length, uint32_t last_epoch) {
    return row.readable == readable && row.length == length && row.last_epoch == last_epoch;
}

static void check_plan(const uint8_t *cluster, size_t cluster_len) {
    uint8_t plan[M] = {77, 77}, status = 77;
    rope_row rows[N] = {{77, 77, 77}, {77, 77, 77}, {77, 77, 77}};
    size_t number = 77;
    CHECK(rope_plan(cluster, cluster_len, shape, 1, 8, plan, M, rows, N, &status, &number) == ROPE_REFUSED_PRESENT);
    CHECK(rope_plan(cluster, cluster_len, shape, 1, 6, plan, M, rows, N, &status, &number) == ROPE_REFUSED_LEADER);
    CHECK(rope_plan(cluster, cluster_len, shape, 1, 7, plan, M - 1, rows, N, &status, &number) == ROPE_REFUSED_LENT_LENGTH);
    CHECK(rope_plan(cluster, cluster_len, shape, 1, 7, plan, M, rows, N - 1, &status, &number) == ROPE_REFUSED_LENT_LENGTH);
    CHECK(plan[0] == 77 && plan[1] == 77 && status == 77 && number == 77);
    CHECK(is_row(rows[0], 77, 77, 77) && is_row(rows[1], 77, 77, 77) && is_row(rows[2], 77, 77, 77));
    CHECK(rope_plan(cluster, cluster_len, shape, 1, 7, plan, M, rows, N, &status, &number) == ROPE_DONE);
    CHECK(plan[0] == ROPE_PLAN_FETCH + 2 && plan[1] == ROPE_PLAN_WHOLE);
    CHECK(is_row(rows[0], 1, 2, 4) && is_row(rows[1], 1, 1, 1) && is_row(rows[2], 1, 0, 0));
    CHECK(status == ROPE_PLAN_READY && number == 2);
    CHECK(rope_plan(cluster, cluster_len, shape, 1, 5, plan, M, rows, N, &status, &number) == ROPE_DONE);
    CHECK(plan[0] == ROPE_PLAN_WAIT && is_row(rows[1], 0, 0, 0));
    CHECK(status == ROPE_PLAN_WAITING && number == 1);
}

static void check_recovery(void) {
    uint8_t cluster[ROPE_CLUSTER_SIZE(N, M)], status = 77, kind = 77;
    size_t replica = 77, slot = 77;
    uint64_t stores = 77;
    make_cluster(cluster);
    check_plan(cluster, sizeof cluster);
    CHECK(rope_step(cluster, sizeof cluster, shape_of(2, M, 1), 1, 7, &status, &replica, &slot, &kind) == ROPE_REFUSED_REPLICA_COUNT);
    CHECK(rope_step(cluster, sizeof cluster, shape_of(8, M, 1), 1, 7, &status, &replica, &slot, &kind) == ROPE_REFUSED_REPLICA_COUNT);
    CHECK(status == 77 && replica == 77 && slot == 77 && kind == 77);
    CHECK(rope_step(cluster, sizeof cluster, shape, 1, 5, &status, &replica, &slot, &kind) == ROPE_DONE);
    CHECK(status == ROPE_WAITING && replica == 77 && slot == 1 && kind == 77);
    CHECK(rope_run(cluster, sizeof cluster, shape, 1, 5, 9, &status, &stores, &slot) == ROPE_DONE);
    CHECK(status == ROPE_WAITING && stores == 0 && slot == 1);
    stores = 77;
    CHECK(rope_step(cluster, sizeof cluster, shape, 1, 7, &status, &replica, &slot, &kind) == ROPE_DONE);
    CHECK(status == ROPE_OUTSTANDING && replica == 1 && slot == 1 && kind == ROPE_STORE_ENTRY);
    slot = 77;
    CHECK(rope_run(cluster, sizeof cluster, shape_of(N, 0, 1), 1, 7, 9, &status, &stores, &slot) == ROPE_REFUSED_SLOT_COUNT && stores == 77);
    CHECK(rope_run(cluster, sizeof cluster, shape, 1, 7, 2, &status, &stores, &slot) == ROPE_DONE);
    CHECK(status == ROPE_OUTSTANDING && stores == 2 && slot == 77);
    CHECK(rope_run(cluster, sizeof cluster, shape, 1, 7, ROPE_ENOUGH_STORES(N, M), &status, &stores, &slot) == ROPE_DONE);
    CHECK(status == ROPE_RECOVERED && stores == 4 && slot == 77);
    CHECK(rope_step(cluster, sizeof cluster, shape, 1, 7, &status, &replica, &slot, &kind) == ROPE_DONE && status == ROPE_RECOVERED);
}

/* Replica 1 alone has slot 1, and its entry is spoilt; the first d others are present and do not have it. */
static void check_dont_haves(size_t n, size_t needed) {
    const rope_shape of_n = shape_of(n, 1, 1);
    uint8_t cluster[ROPE_CLUSTER_SIZE(ROPE_MAX_REPLICAS, 1)], plan = 77, status = 77;
    rope_row rows[ROPE_MAX_REPLICAS];
    size_t replica, d, slot = 0, number = 77;
    for (replica = 1; replica <= n; replica++) {
        CHECK(rope_format(cluster + ROPE_IMAGE_AT(1, replica), ROPE_IMAGE_SIZE(1), of_n, replica, 1) == ROPE_DONE);
    }
    CHECK(rope_append(cluster, ROPE_IMAGE_SIZE(1), of_n, 1, 1, bytes_of("one"), 3, &slot) == ROPE_DONE);
    cluster[ROPE_ENTRY_AT(1, 1) + 26] ^= 1;
    for (d = 0; d < n; d++) {
        CHECK(rope_plan(cluster, ROPE_CLUSTER_SIZE(n, 1), of_n, 1, ROPE_ALL(d + 1), &plan, 1, rows, n, &status, &number) == ROPE_DONE);
        CHECK(plan == (d < needed ? ROPE_PLAN_WAIT : ROPE_PLAN_TRUNCATE));
        CHECK(status == (d < needed ? ROPE_PLAN_WAITING : ROPE_PLAN_READY) && number == (d < needed ? 1u : 0u));
    }
}

static void check_every_n(void) {
    static const size_t needed[] = {2, 2, 3, 3, 4};
    size_t n;
    CHECK(sizeof needed / sizeof needed[0] == ROPE_MAX_REPLICAS - ROPE_MIN_REPLICAS + 1);
    for (n = ROPE_MIN_REPLICAS; n <= ROPE_MAX_REPLICAS; n++) {
        check_dont_haves(n, needed[n - ROPE_MIN_REPLICAS]);
    }
}

/* 20 in each of its three ways, behind 1 and 2 and before 3. The highest first index leaves 4,294,967,295 for the last slot. */
static void check_first_index(void) {
    uint8_t image[ROPE_IMAGE_SIZE_2(M)];
    const size_t size = ROPE_IMAGE_SIZE(M), size_2 = ROPE_IMAGE_SIZE_2(M);
    memset(image, '#', sizeof image);
    CHECK(rope_format(image, size_2, shape_2, REPLICA, 0) == ROPE_REFUSED_FIRST_INDEX);
    CHECK(rope_format(image, size, shape, REPLICA, 0) == ROPE_REFUSED_FIRST_INDEX);
    CHECK(rope_format(image, size, shape, REPLICA, 2) == ROPE_REFUSED_FIRST_INDEX);
    CHECK(rope_format(image, size_2, shape_2, REPLICA, 4294967295u) == ROPE_REFUSED_FIRST_INDEX);
    CHECK(rope_format(image, size_2 - 1, shape_2, REPLICA, 0) == ROPE_REFUSED_FIRST_INDEX);
    CHECK(rope_format(image, size_2, shape_2, N + 1, 0) == ROPE_REFUSED_REPLICA_COUNT);
    CHECK(rope_format(image, size_2, shape_of(N, 0, 3), REPLICA, 0) == ROPE_REFUSED_SLOT_COUNT);
    CHECK(rope_format(image, size_2, shape_of(N, M, 0), REPLICA, 1) == ROPE_REFUSED_REPLICA_COUNT);
    CHECK(rope_format(image, size_2, shape_of(N, M, 3), REPLICA, 1) == ROPE_REFUSED_REPLICA_COUNT);
    CHECK(rope_format(image, size, shape_2, REPLICA, 7) == ROPE_REFUSED_BUFFER_LENGTH);
    CHECK(rope_format(image, size_2, shape, REPLICA, 1) == ROPE_REFUSED_BUFFER_LENGTH);
    CHECK(all_are(image, sizeof image, '#'));
    CHECK(rope_format(image, size_2, shape_2, REPLICA, 4294967294u) == ROPE_DONE);
    CHECK(memcmp(image, "rope  2  2  3  2 4294967294", 27) == 0);
    CHECK(rope_format(image, size, shape, REPLICA, 1) == ROPE_DONE);
}

/* A log that begins at index 7: its slots are 1 and 2, its indexes 7 and 8. */
static void check_image_2(void) {
    uint8_t image[ROPE_IMAGE_SIZE_2(M)], verdicts[M] = {77, 77}, has = 77;
    uint32_t epochs[M] = {77, 77}, first = 77, epoch = 77;
    size_t slot = 77, length = 77, at = 77, size = 77;
    CHECK(rope_format(image, sizeof image, shape_2, REPLICA, 7) == ROPE_DONE);
    CHECK(rope_append(image, sizeof image, shape_2, REPLICA, 5, bytes_of("wire"), 4, &slot) == ROPE_DONE && slot == 1);
    CHECK(rope_append(image, sizeof image, shape_2, REPLICA, 5, bytes_of(""), 0, &slot) == ROPE_DONE && slot == 2);
    CHECK(rope_append(image, sizeof image, shape_2, REPLICA, 5, bytes_of(""), 0, &slot) == ROPE_REFUSED_APPEND_FULL && slot == 2);
    CHECK(rope_judge_record(image + ROPE_RECORD_AT_2(2), ROPE_RECORD_SIZE, 8, &epoch) == ROPE_RECORD_GOOD && epoch == 5);
    CHECK(rope_judge_record(image + ROPE_RECORD_AT_2(2), ROPE_RECORD_SIZE, 2, &epoch) == ROPE_RECORD_BAD);
    CHECK(rope_judge_entry(image + ROPE_ENTRY_AT_2(M, 1), ROPE_ENTRY_SIZE, 7, &epoch, &size) == ROPE_ENTRY_INTACT && size == 4);
    CHECK(rope_judge_entry(image + ROPE_ENTRY_AT_2(M, 1), ROPE_ENTRY_SIZE, 1, &epoch, &size) == ROPE_ENTRY_BROKEN);
    CHECK(rope_read(image, sizeof image, shape, REPLICA, epochs, M, verdicts, M, &length, &first) == ROPE_REFUSED_BUFFER_LENGTH);
    CHECK(rope_read(image, ROPE_IMAGE_SIZE(M), shape_2, REPLICA, epochs, M, verdicts, M, &length, &first) == ROPE_REFUSED_BUFFER_LENGTH);
    CHECK(rope_read(image, sizeof image, shape_of(N, M, 3), REPLICA, epochs, M, verdicts, M, &length, &first) == ROPE_REFUSED_REPLICA_COUNT);
    CHECK(rope_read(image, sizeof image, shape_2, REPLICA, epochs, M - 1, verdicts, M, &length, &first) == ROPE_REFUSED_LENT_LENGTH);
    CHECK(length == 77 && first == 77 && epochs[0] == 77 && verdicts[0] == 77);
    CHECK(rope_read(image, sizeof image, shape_2, REPLICA, epochs, M, verdicts, M, &length, &first) == ROPE_DONE && length == 2);
    CHECK(first == 7 && epochs[0] == 5 && epochs[1] == 5 && verdicts[0] == ROPE_INTACT && verdicts[1] == ROPE_INTACT);
    rope_payload(image, sizeof image, shape_2, REPLICA, 1, &at, &size);
    CHECK(at == ROPE_ENTRY_AT_2(M, 1) + 26 && size == 4 && memcmp(image + at, "wire", 4) == 0);
    CHECK(rope_has_payload(image, sizeof image, shape_2, REPLICA, 2, &has) == ROPE_DONE && has == 1);
    CHECK(rope_has_payload(image, sizeof image, shape_2, REPLICA, 7, &has) == ROPE_DONE && has == 0);
    /* Under a first index that 20 refuses, and under another one, under which neither record nor entry is of its slot. */
    CHECK(rope_write_header(image, ROPE_HEADER_SIZE_2, shape_2, REPLICA, 0) == ROPE_DONE);
    CHECK(rope_has_payload(image, sizeof image, shape_2, REPLICA, 1, &has) == ROPE_REFUSED_HEADER && has == 0);
    CHECK(rope_write_header(image, ROPE_HEADER_SIZE_2, shape_2, REPLICA, 1) == ROPE_DONE);
    CHECK(rope_has_payload(image, sizeof image, shape_2, REPLICA, 1, &has) == ROPE_REFUSED_BOTH_LOST && has == 0);
}

static uint8_t *image_2(uint8_t *cluster, size_t replica) {
    return cluster + ROPE_IMAGE_AT_2(M, replica);
}

/* The cluster of make_cluster, in edition 2 and from index 7 on. */
static void make_cluster_2(uint8_t *cluster) {
    size_t replica, slot = 0;
    for (replica = 1; replica <= N; replica++) {
        CHECK(rope_format(image_2(cluster, replica), ROPE_IMAGE_SIZE_2(M), shape_2, replica, 7) == ROPE_DONE);
    }
    for (replica = 1; replica <= 2; replica++) {
        CHECK(rope_append(image_2(cluster, replica), ROPE_IMAGE_SIZE_2(M), shape_2, replica, 1, bytes_of("one"), 3, &slot) == ROPE_DONE);
    }
    CHECK(rope_append(cluster, ROPE_IMAGE_SIZE_2(M), shape_2, 1, 4, bytes_of("two"), 3, &slot) == ROPE_DONE && slot == 2);
    cluster[ROPE_ENTRY_AT_2(M, 1) + 26] ^= 1;
}

/* Replica 3 has a fresh image that begins at 8: with it in the set all three calls are refused, before a wrong table is. */
static void check_first_differs(const uint8_t *cluster, size_t cluster_len) {
    uint8_t other[ROPE_CLUSTER_SIZE_2(N, M)], plan[M] = {77, 77}, status = 77, kind = 77;
    rope_row rows[N] = {{77, 77, 77}, {77, 77, 77}, {77, 77, 77}};
    size_t number = 77, replica = 77, slot = 77;
    uint64_t stores = 77;
    memcpy(other, cluster, cluster_len);
    CHECK(rope_format(image_2(other, 3), ROPE_IMAGE_SIZE_2(M), shape_2, 3, 8) == ROPE_DONE);
    CHECK(rope_plan(other, cluster_len, shape_2, 1, 7, plan, M, rows, N - 1, &status, &number) == ROPE_REFUSED_FIRST_DIFFERS);
    CHECK(rope_plan(other, cluster_len, shape_2, 1, 6, plan, M, rows, N, &status, &number) == ROPE_REFUSED_LEADER);
    CHECK(rope_step(other, cluster_len, shape_2, 1, 7, &status, &replica, &slot, &kind) == ROPE_REFUSED_FIRST_DIFFERS);
    CHECK(rope_run(other, cluster_len, shape_2, 3, 7, 9, &status, &stores, &slot) == ROPE_REFUSED_FIRST_DIFFERS);
    CHECK(plan[0] == 77 && plan[1] == 77 && is_row(rows[0], 77, 77, 77) && number == 77);
    CHECK(status == 77 && replica == 77 && slot == 77 && kind == 77 && stores == 77);
    CHECK(rope_plan(other, cluster_len, shape_2, 1, 3, plan, M, rows, N, &status, &number) == ROPE_DONE && status == ROPE_PLAN_READY);
}

static void check_recovery_2(void) {
    uint8_t cluster[ROPE_CLUSTER_SIZE_2(N, M)], plan[M] = {77, 77}, status = 77, kind = 77;
    rope_row rows[N];
    size_t number = 77, replica = 77, slot = 77, at = 77, size = 77;
    uint64_t stores = 77;
    make_cluster_2(cluster);
    check_first_differs(cluster, sizeof cluster);
    CHECK(rope_plan(cluster, sizeof cluster, shape_of(N, M, 0), 1, 7, plan, M, rows, N, &status, &number) == ROPE_REFUSED_REPLICA_COUNT);
    CHECK(rope_plan(cluster, sizeof cluster, shape, 1, 7, plan, M, rows, N, &status, &number) == ROPE_REFUSED_BUFFER_LENGTH);
    CHECK(rope_plan(cluster, sizeof cluster, shape_2, 1, 7, plan, M, rows, N, &status, &number) == ROPE_DONE);
    CHECK(plan[0] == ROPE_PLAN_FETCH + 2 && plan[1] == ROPE_PLAN_WHOLE && status == ROPE_PLAN_READY && number == 2);
    CHECK(is_row(rows[0], 1, 2, 4) && is_row(rows[1], 1, 1, 1) && is_row(rows[2], 1, 0, 0));
    CHECK(rope_step(cluster, sizeof cluster, shape_2, 1, 7, &status, &replica, &slot, &kind) == ROPE_DONE);
    CHECK(status == ROPE_OUTSTANDING && replica == 1 && slot == 1 && kind == ROPE_STORE_ENTRY);
    CHECK(rope_run(cluster, sizeof cluster, shape_2, 1, 7, ROPE_ENOUGH_STORES(N, M), &status, &stores, &slot) == ROPE_DONE);
    CHECK(status == ROPE_RECOVERED && stores == 6);
    for (replica = 1; replica <= N; replica++) {
        rope_payload(image_2(cluster, replica), ROPE_IMAGE_SIZE_2(M), shape_2, replica, 2, &at, &size);
        CHECK(size == 3 && memcmp(image_2(cluster, replica) + at, "two", 3) == 0);
    }
}

/* The header of a witness begins with another word, in either edition. */
static void check_witness_headers(void) {
    uint8_t header[ROPE_HEADER_SIZE], header_2[ROPE_HEADER_SIZE_2];
    uint32_t first = 77;
    CHECK(rope_write_header(header, sizeof header, shape_w, WITNESS, 1) == ROPE_DONE);
    CHECK(memcmp(header, "wits  1  3  3  2", 16) == 0);
    CHECK(rope_judge_header(header, sizeof header, shape, WITNESS, &first) == ROPE_HEADER_OTHER && first == 77);
    CHECK(rope_judge_header(header, sizeof header, shape_w, REPLICA, &first) == ROPE_HEADER_OTHER && first == 77);
    CHECK(rope_judge_header(header, sizeof header, shape_w, WITNESS, &first) == ROPE_HEADER_GOOD && first == 1);
    CHECK(rope_write_header(header, sizeof header, shape, WITNESS, 1) == ROPE_DONE && memcmp(header, "rope", 4) == 0);
    CHECK(rope_judge_header(header, sizeof header, shape_w, WITNESS, &first) == ROPE_HEADER_OTHER);
    CHECK(rope_write_header(header_2, sizeof header_2, shape_w2, WITNESS, 7) == ROPE_DONE);
    CHECK(memcmp(header_2, "wits  2  3  3  2          7", 27) == 0);
    CHECK(rope_judge_header(header_2, sizeof header_2, shape_w2, WITNESS, &first) == ROPE_HEADER_GOOD && first == 7);
}

/* A call for cards refuses a witness, and a call for witnesses a card, by 3: whatever the length, behind 1 and 2, before 4. */
static void check_other_kind(uint8_t *image, size_t image_len) {
    uint8_t before[ROPE_IMAGE_SIZE(M)], verdicts[M] = {77, 77}, has = 77;
    uint32_t epochs[M] = {77, 77}, first = 77;
    size_t slot = 77, length = 77, at = 77, size = 77;
    memcpy(before, image, image_len);
    CHECK(rope_append(image, image_len, shape_w, WITNESS, 9, bytes_of("wire"), 4, &slot) == ROPE_REFUSED_BUFFER_LENGTH);
    CHECK(rope_read(image, image_len, shape_w, WITNESS, epochs, M, verdicts, M, &length, &first) == ROPE_REFUSED_BUFFER_LENGTH);
    CHECK(rope_has_payload(image, image_len, shape_w, WITNESS, 1, &has) == ROPE_REFUSED_BUFFER_LENGTH);
    rope_payload(image, image_len, shape_w, WITNESS, 1, &at, &size);
    CHECK(at == 0 && size == 0);
    CHECK(rope_witness_append(image, image_len, shape_w, REPLICA, 9, &slot) == ROPE_REFUSED_BUFFER_LENGTH);
    CHECK(rope_witness_append(image, image_len, shape, WITNESS, 9, &slot) == ROPE_REFUSED_BUFFER_LENGTH);
    CHECK(rope_witness_read(image, image_len, shape_w, REPLICA, epochs, M, &length, &first) == ROPE_REFUSED_BUFFER_LENGTH);
    CHECK(rope_witness_read(image, image_len, shape, WITNESS, epochs, M, &length, &first) == ROPE_REFUSED_BUFFER_LENGTH);
    CHECK(rope_read(image, image_len, shape_with(N, 0, 1, 7), WITNESS, epochs, M, verdicts, M, &length, &first) == ROPE_REFUSED_SLOT_COUNT);
    CHECK(rope_read(image, image_len, shape_with(N, M, 3, 7), WITNESS, epochs, M, verdicts, M, &length, &first) == ROPE_REFUSED_REPLICA_COUNT);
    CHECK(rope_witness_read(image, image_len, shape_of(N, 65, 1), WITNESS, epochs, M, &length, &first) == ROPE_REFUSED_SLOT_COUNT);
    CHECK(rope_witness_read(image, image_len, shape_of(N, M, 1), N + 1, epochs, M, &length, &first) == ROPE_REFUSED_REPLICA_COUNT);
    CHECK(memcmp(before, image, image_len) == 0 && slot == 77 && length == 77 && first == 77 && has == 77);
    CHECK(epochs[0] == 77 && epochs[1] == 77 && verdicts[0] == 77 && verdicts[1] == 77);
}

/* A witness's image is damaged in the ways of 4 to 7; on a witness 6 is any bad record. Neither call changes anything. */
static void check_witness_damage(const uint8_t *image, size_t image_len) {
    static const uint8_t refusals[] = {ROPE_REFUSED_HEADER, ROPE_REFUSED_USED_AFTER_BLANK, ROPE_REFUSED_BOTH_LOST, ROPE_REFUSED_EPOCH_FALLS};
    uint8_t other[ROPE_WITNESS_SIZE(M)], before[ROPE_WITNESS_SIZE(M)];
    uint32_t epochs[M] = {77, 77}, first = 77;
    size_t at, slot = 77, length = 77;
    for (at = 0; at < sizeof refusals; at++) {
        memcpy(other, image, image_len);
        switch (refusals[at]) {
        case ROPE_REFUSED_HEADER:
            CHECK(rope_write_header(other, ROPE_HEADER_SIZE, shape, WITNESS, 1) == ROPE_DONE);
            break;
        case ROPE_REFUSED_USED_AFTER_BLANK:
            CHECK(rope_write_blank_record(other + ROPE_RECORD_AT(1), ROPE_RECORD_SIZE) == ROPE_DONE);
            break;
        case ROPE_REFUSED_BOTH_LOST:
            other[ROPE_RECORD_AT(2)] = '#';
            break;
        default:
            CHECK(rope_write_record(other + ROPE_RECORD_AT(2), ROPE_RECORD_SIZE, 6, 2) == ROPE_DONE);
        }
        memcpy(before, other, image_len);
        CHECK(rope_witness_append(other, image_len, shape_w, WITNESS, 9, &slot) == refusals[at]);
        CHECK(rope_witness_read(other, image_len, shape_w, WITNESS, epochs, M, &length, &first) == refusals[at]);
        CHECK(memcmp(before, other, image_len) == 0 && slot == 77 && length == 77 && first == 77 && epochs[0] == 77 && epochs[1] == 77);
    }
}

static void check_witness(void) {
    uint8_t image[ROPE_WITNESS_SIZE(M)], card[ROPE_IMAGE_SIZE(M)];
    uint32_t epochs[M] = {77, 77}, first = 77, epoch = 77;
    size_t slot = 77, length = 77;
    memset(image, '#', sizeof image);
    CHECK(rope_format(image, sizeof image, shape, WITNESS, 1) == ROPE_REFUSED_BUFFER_LENGTH);
    CHECK(rope_format(image, sizeof image - 1, shape_w, WITNESS, 1) == ROPE_REFUSED_BUFFER_LENGTH);
    CHECK(rope_format(image, sizeof image - 1, shape_w, WITNESS, 2) == ROPE_REFUSED_FIRST_INDEX);
    CHECK(all_are(image, sizeof image, '#'));
    CHECK(rope_format(image, sizeof image, shape_w, WITNESS, 1) == ROPE_DONE);
    CHECK(rope_witness_read(image, sizeof image, shape_w, WITNESS, epochs, M, &length, &first) == ROPE_DONE);
    CHECK(length == 0 && first == 1 && epochs[0] == 0 && epochs[1] == 0);
    CHECK(rope_witness_append(image, sizeof image, shape_w, WITNESS, 0, &slot) == ROPE_REFUSED_APPEND_EPOCH && slot == 77);
    CHECK(rope_witness_append(image, sizeof image - 1, shape_w, WITNESS, 7, &slot) == ROPE_REFUSED_BUFFER_LENGTH && slot == 77);
    CHECK(rope_witness_append(image, sizeof image, shape_w, WITNESS, 7, &slot) == ROPE_DONE && slot == 1);
    CHECK(rope_witness_append(image, sizeof image, shape_w, WITNESS, 6, &slot) == ROPE_REFUSED_APPEND_EPOCH && slot == 1);
    /* A bit for no replica matters to no call about one image. */
    CHECK(rope_witness_append(image, sizeof image, shape_with(N, M, 1, 0x80000008u | WITNESSES), WITNESS, 9, &slot) == ROPE_DONE && slot == 2);
    CHECK(rope_witness_append(image, sizeof image, shape_w, WITNESS, 9, &slot) == ROPE_REFUSED_APPEND_FULL && slot == 2);
    CHECK(rope_judge_record(image + ROPE_RECORD_AT(2), ROPE_RECORD_SIZE, 2, &epoch) == ROPE_RECORD_GOOD && epoch == 9);
    length = 77;
    CHECK(rope_witness_read(image, sizeof image, shape_w, WITNESS, epochs, M + 1, &length, &first) == ROPE_REFUSED_LENT_LENGTH);
    CHECK(length == 77 && epochs[0] == 0 && epochs[1] == 0);
    CHECK(rope_witness_read(image, sizeof image, shape_w, WITNESS, epochs, M, &length, &first) == ROPE_DONE);
    CHECK(length == 2 && first == 1 && epochs[0] == 7 && epochs[1] == 9);
    check_witness_damage(image, sizeof image);
    check_other_kind(image, sizeof image);
    CHECK(rope_format(card, sizeof card, shape_w, REPLICA, 1) == ROPE_DONE);
    check_other_kind(card, sizeof card);
    check_other_kind(card, 0);
}

/* A witness's log that begins at index 7, of edition 2. */
static void check_witness_2(void) {
    uint8_t image[ROPE_WITNESS_SIZE_2(M)];
    uint32_t epochs[M] = {77, 77}, first = 77, epoch = 77;
    size_t slot = 77, length = 77;
    CHECK(rope_format(image, sizeof image, shape_w2, WITNESS, 0) == ROPE_REFUSED_FIRST_INDEX);
    CHECK(rope_format(image, sizeof image, shape_w, WITNESS, 1) == ROPE_REFUSED_BUFFER_LENGTH);
    CHECK(rope_format(image, sizeof image, shape_w2, WITNESS, 7) == ROPE_DONE);
    CHECK(rope_witness_append(image, sizeof image, shape_w2, WITNESS, 5, &slot) == ROPE_DONE && slot == 1);
    CHECK(rope_judge_record(image + ROPE_RECORD_AT_2(1), ROPE_RECORD_SIZE, 7, &epoch) == ROPE_RECORD_GOOD && epoch == 5);
    CHECK(rope_witness_read(image, sizeof image, shape_w2, WITNESS, epochs, M, &length, &first) == ROPE_DONE);
    CHECK(length == 1 && first == 7 && epochs[0] == 5 && epochs[1] == 0);
    CHECK(rope_witness_read(image, sizeof image, shape_w, WITNESS, epochs, M, &length, &first) == ROPE_REFUSED_BUFFER_LENGTH);
}

/* Cards 1 and 2 and witness 3. Both slots are on card 1 and the witness, slot 1 on card 2; the entry of slot 1 of card 1 is spoilt. */
static void make_witnessed(uint8_t *cluster) {
    uint8_t *second = cluster + ROPE_IMAGE_AT_WITH(M, WITNESSES, 2), *third = cluster + ROPE_IMAGE_AT_WITH(M, WITNESSES, 3);
    size_t slot = 0;
    CHECK(rope_format(cluster, ROPE_IMAGE_SIZE(M), shape_w, 1, 1) == ROPE_DONE);
    CHECK(rope_format(second, ROPE_IMAGE_SIZE(M), shape_w, 2, 1) == ROPE_DONE);
    CHECK(rope_format(third, ROPE_WITNESS_SIZE(M), shape_w, 3, 1) == ROPE_DONE);
    CHECK(rope_append(cluster, ROPE_IMAGE_SIZE(M), shape_w, 1, 1, bytes_of("one"), 3, &slot) == ROPE_DONE && slot == 1);
    CHECK(rope_append(cluster, ROPE_IMAGE_SIZE(M), shape_w, 1, 4, bytes_of("two"), 3, &slot) == ROPE_DONE && slot == 2);
    CHECK(rope_append(second, ROPE_IMAGE_SIZE(M), shape_w, 2, 1, bytes_of("one"), 3, &slot) == ROPE_DONE && slot == 1);
    CHECK(rope_witness_append(third, ROPE_WITNESS_SIZE(M), shape_w, 3, 1, &slot) == ROPE_DONE && slot == 1);
    CHECK(rope_witness_append(third, ROPE_WITNESS_SIZE(M), shape_w, 3, 4, &slot) == ROPE_DONE && slot == 2);
    cluster[ROPE_ENTRY_AT(M, 1) + 26] ^= 1;
}

/* 22 behind 11 and before 12; a witness never leads. The bit for no replica adds nothing to the length. */
static void check_witness_refusals(uint8_t *cluster, size_t cluster_len) {
    const rope_shape beyond = shape_with(N, M, 1, 8 | WITNESSES), high = shape_with(N, M, 1, 0x80000000u | WITNESSES);
    uint8_t before[ROPE_CLUSTER_SIZE_WITH(N, M, WITNESSES)], plan[M] = {77, 77}, status = 77, kind = 77;
    rope_row rows[N] = {{77, 77, 77}, {77, 77, 77}, {77, 77, 77}};
    size_t number = 77, replica = 77, slot = 77;
    uint64_t stores = 77;
    memcpy(before, cluster, cluster_len);
    CHECK(rope_plan(cluster, cluster_len, beyond, 1, 8, plan, M, rows, N, &status, &number) == ROPE_REFUSED_PRESENT);
    CHECK(rope_plan(cluster, cluster_len, beyond, 9, 7, plan, M, rows, N - 1, &status, &number) == ROPE_REFUSED_WITNESSES);
    CHECK(rope_plan(cluster, cluster_len, high, 1, 7, plan, M, rows, N, &status, &number) == ROPE_REFUSED_WITNESSES);
    CHECK(rope_step(cluster, cluster_len, beyond, 1, 7, &status, &replica, &slot, &kind) == ROPE_REFUSED_WITNESSES);
    CHECK(rope_run(cluster, cluster_len, beyond, 1, 7, 9, &status, &stores, &slot) == ROPE_REFUSED_WITNESSES);
    CHECK(rope_plan(cluster, cluster_len, shape_w, 3, 7, plan, M, rows, N - 1, &status, &number) == ROPE_REFUSED_LEADER);
    CHECK(rope_step(cluster, cluster_len, shape_w, 3, 7, &status, &replica, &slot, &kind) == ROPE_REFUSED_LEADER);
    CHECK(rope_run(cluster, cluster_len, shape_w, 3, 7, 9, &status, &stores, &slot) == ROPE_REFUSED_LEADER);
    CHECK(rope_plan(cluster, cluster_len, shape, 1, 7, plan, M, rows, N, &status, &number) == ROPE_REFUSED_BUFFER_LENGTH);
    CHECK(memcmp(before, cluster, cluster_len) == 0 && plan[0] == 77 && plan[1] == 77 && is_row(rows[0], 77, 77, 77) && number == 77);
    CHECK(status == 77 && replica == 77 && slot == 77 && kind == 77 && stores == 77);
    /* Of another set of one witness the length is right, and two images are not readable. */
    CHECK(rope_plan(cluster, cluster_len, shape_with(N, M, 1, ROPE_BIT(2)), 1, 7, plan, M, rows, N, &status, &number) == ROPE_DONE);
    CHECK(is_row(rows[0], 1, 2, 4) && is_row(rows[1], 0, 0, 0) && is_row(rows[2], 0, 0, 0) && status == ROPE_PLAN_WAITING);
}

/* The plan byte of slot 1 of leader 1, with these replicas present. */
static uint8_t planned(const uint8_t *cluster, size_t cluster_len, uint32_t present) {
    uint8_t plan[M] = {77, 77}, status = 77;
    rope_row rows[N] = {{77, 77, 77}, {77, 77, 77}, {77, 77, 77}};
    size_t number = 77;
    CHECK(rope_plan(cluster, cluster_len, shape_w, 1, present, plan, M, rows, N, &status, &number) == ROPE_DONE);
    return plan[0];
}

/* A witness answers have-faulty while it has the record, don't-have once it has not, and is away while a record is bad. */
static void check_witness_answers(void) {
    uint8_t cluster[ROPE_CLUSTER_SIZE_WITH(N, M, WITNESSES)], before[ROPE_CLUSTER_SIZE_WITH(N, M, WITNESSES)], status = 77;
    uint8_t *second = cluster + ROPE_IMAGE_AT_WITH(M, WITNESSES, 2), *third = cluster + ROPE_IMAGE_AT_WITH(M, WITNESSES, 3);
    uint64_t stores = 77;
    size_t slot = 77;
    make_witnessed(cluster);
    check_witness_refusals(cluster, sizeof cluster);
    CHECK(planned(cluster, sizeof cluster, 7) == ROPE_PLAN_FETCH + 2 && planned(cluster, sizeof cluster, 5) == ROPE_PLAN_WAIT);
    CHECK(rope_format(second, ROPE_IMAGE_SIZE(M), shape_w, 2, 1) == ROPE_DONE);
    CHECK(planned(cluster, sizeof cluster, 7) == ROPE_PLAN_WAIT);
    third[ROPE_RECORD_AT(2)] = '#';
    CHECK(planned(cluster, sizeof cluster, 7) == ROPE_PLAN_WAIT);
    memcpy(before, cluster, sizeof cluster);
    CHECK(rope_run(cluster, sizeof cluster, shape_w, 3, 7, 99, &status, &stores, &slot) == ROPE_REFUSED_LEADER && status == 77);
    CHECK(rope_run(cluster, sizeof cluster, shape_w, 1, 7, 99, &status, &stores, &slot) == ROPE_DONE && status == ROPE_WAITING && slot == 1);
    CHECK(memcmp(before, cluster, sizeof cluster) == 0);
    CHECK(rope_format(third, ROPE_WITNESS_SIZE(M), shape_w, 3, 1) == ROPE_DONE);
    CHECK(planned(cluster, sizeof cluster, 7) == ROPE_PLAN_TRUNCATE);
}

/* A witness gets records in its turn, also after it was formatted anew, and no entry. */
static void check_witness_recovery(void) {
    static const uint8_t expected[][3] = {{1, 1, ROPE_STORE_ENTRY}, {2, 2, ROPE_STORE_ENTRY},  {2, 2, ROPE_STORE_RECORD},
                                          {3, 2, ROPE_STORE_BLANK}, {3, 2, ROPE_STORE_RECORD}};
    uint8_t cluster[ROPE_CLUSTER_SIZE_WITH(N, M, WITNESSES)], status = 77, kind = 77;
    uint8_t *third = cluster + ROPE_IMAGE_AT_WITH(M, WITNESSES, 3);
    uint32_t epochs[M] = {77, 77}, first = 77;
    size_t at, replica = 77, slot = 77, length = 77;
    uint64_t stores = 77;
    make_witnessed(cluster);
    CHECK(rope_write_record(third + ROPE_RECORD_AT(2), ROPE_RECORD_SIZE, 3, 2) == ROPE_DONE);
    for (at = 0; at < sizeof expected / sizeof expected[0]; at++) {
        CHECK(rope_step(cluster, sizeof cluster, shape_w, 1, 7, &status, &replica, &slot, &kind) == ROPE_DONE && status == ROPE_OUTSTANDING);
        CHECK(replica == expected[at][0] && slot == expected[at][1] && kind == expected[at][2]);
    }
    CHECK(rope_step(cluster, sizeof cluster, shape_w, 1, 7, &status, &replica, &slot, &kind) == ROPE_DONE && status == ROPE_RECOVERED);
    CHECK(rope_format(third, ROPE_WITNESS_SIZE(M), shape_w, 3, 1) == ROPE_DONE);
    CHECK(rope_run(cluster, sizeof cluster, shape_w, 1, 7, ROPE_ENOUGH_STORES(N, M), &status, &stores, &slot) == ROPE_DONE);
    CHECK(status == ROPE_RECOVERED && stores == 2);
    CHECK(rope_witness_read(third, ROPE_WITNESS_SIZE(M), shape_w, 3, epochs, M, &length, &first) == ROPE_DONE);
    CHECK(length == 2 && epochs[0] == 1 && epochs[1] == 4);
}

int main(void) {
    check_version_and_sizes();
    check_witness_sizes();
    check_measures();
    check_measure_refusals();
    check_columns();
    check_headers();
    check_records();
    check_entries();
    check_image();
    check_recovery();
    check_every_n();
    check_first_index();
    check_image_2();
    check_recovery_2();
    check_witness_headers();
    check_witness();
    check_witness_2();
    check_witness_answers();
    check_witness_recovery();
    printf("%d checks hold\n", checks);
    return 0;
}
