/* The rope log for C: every function of target/staticlib/libropelog.a, which `.ci/build` writes.
 *
 * Words. A replica is a cabinet with its memory card, or a witness, which is described below; a cluster is all n of them, n being 3 to 7.
 * Replicas are numbered 1 to n. An image is the content of one card: a header, then m records, then m entries, m being 1 to 64. Slot k of
 * the log, counted from 1, has record k (its epoch and index) and entry k (its epoch, index and payload). A slot is used if its record is
 * not blank. The log's length is the number of used slots. A cluster's buffer is n images end to end, all with the same m, replica 1 first.
 *
 * Editions. An image is of edition 1 or 2, and all images of a cluster are of the same. In edition 1 slot k has index k. In edition 2 the
 * header names the first index, and slot k has index first + k - 1 in its record and its entry: once a checkpoint stands, old slots are
 * dropped, and a log on a fresh image goes on under its old indexes. Whatever the first index, every call and every answer counts slots
 * from 1. What a call names of its cluster is one rope_shape: n, m, the edition and the set of witnesses.
 *
 * Witnesses. A witness is a box that stores records only. Its image is a header that begins with "wits" in place of "rope", and m records.
 * It tells under which epoch a slot was stored, and has no payload. Asked about a faulty slot of the leader it answers have-faulty if it
 * has a good record of that epoch, else don't-have. Nothing is fetched from it, it never leads, and a recovery only blanks and adds its
 * records. A bad record makes it unreadable: it counts as away and keeps every byte, and no recovery mends it. Recover the others without
 * it; then format it anew, with the first index of their logs, and the next recovery fills it. Until it is filled it answers don't-have, as
 * a fresh card does (README.md, rule 2). Two things to know before a cluster gets witnesses:
 *   - Two sets of as many witnesses give a cluster the same length. A wrong one is not refused by 3: it shows only as images that are
 *     unreadable, in the rows of a plan, or as 12. Nothing is written to such an image.
 *   - A witness counts towards a majority as a card does. So a reading that a majority stored may stand on one card alone, and where the
 *     witnesses are the majority no copy of its payload may be left. Such a slot is not cut, and the recovery waits.
 *
 * Refusals. A function that can be refused returns 0 (ROPE_DONE) or the number of a refusal (enum rope_refusal). If several refusals
 * apply, the one that is tried first is returned; each function names them in the order in which they are tried, which is by number but
 * for 20, tried before 3, 21, tried before 13, and 22, tried before 12. A refused call changes nothing: no byte of a lent buffer, no row,
 * no number behind a pointer. Any number and any buffer content may be passed; nothing has to be checked before a call. Five functions
 * return a rope_measure, a size or an offset with the refusal beside it: rope_image_size, rope_cluster_size, rope_image_at, rope_record_at
 * and rope_entry_at. Four return a code of their own, which is no refusal and of which 0 is the good one: rope_read_column (enum
 * rope_column), rope_judge_header (enum rope_header), rope_judge_record (enum rope_record) and rope_judge_entry (enum rope_entry).
 * rope_checksum returns the checksum. rope_payload and rope_write_number return nothing.
 *
 * Buffers. A buffer crosses as two arguments, its address and then its length, which counts elements (bytes, uint32_t or rows). A
 * number that is handed out crosses as an address. The caller owes five things:
 *   - an address leads to as many elements as the length says, and is aligned for them;
 *   - no address is NULL; behind an address with length 0 nothing is read or written;
 *   - every byte lent to be read has a value, and so has every number and row that a function may hand out to;
 *   - what a function may write overlaps nothing else that the same call is given;
 *   - nothing else, such as another thread or a mapped file that changes, touches any of it until the call returns.
 * No function keeps an address, takes memory from the heap, or holds anything between calls.
 */
#ifndef ROPELOG_H
#define ROPELOG_H

#if !defined(__linux__) || !(defined(__x86_64__) || defined(_M_X64))
#error "libropelog.a is for x86-64 Linux"
#endif

#include <stddef.h>
#include <stdint.h>

#ifdef __cplusplus
extern "C" {
#endif

/* A size crosses as 64 bits. Some x86-64 programs have narrower ones (gcc -mx32); there this line does not compile. */
typedef char rope_needs_64_bit_sizes[sizeof(size_t) == 8 ? 1 : -1];

/* Before a function whose result says whether it did anything: a compiler that can warns of a call that drops the result. */
#if defined(__GNUC__) || defined(__clang__)
#define ROPE_MUST_USE __attribute__((__warn_unused_result__))
#else
#define ROPE_MUST_USE
#endif

/* ---- Version ------------------------------------------------------------------------------------------------------------------ */

/* CHANGELOG.md says what a version promises. */
#define ROPE_VERSION_MAJOR 7
#define ROPE_VERSION_MINOR 2
#define ROPE_VERSION_PATCH 0
#define ROPE_VERSION "7.2.0"

/* ---- Sets of replicas --------------------------------------------------------------------------------------------------------- */

/* In a set, of those present or of witnesses, the bit of replica c is worth 2 to the power c - 1. The second macro is the set of all n
 * replicas, n at most 7. The third is 1 if a replica is in a set, else 0. The fourth says how many of the replicas 1 to n are in it. Here
 * and below a macro may work out an argument more than once. */
#define ROPE_BIT(replica) ((uint32_t)1 << ((replica) - 1))
#define ROPE_ALL(n) (((uint32_t)1 << (n)) - 1)
#define ROPE_HAS(set, replica) (((uint32_t)(set) >> ((replica) - 1)) & 1)
#define ROPE_COUNT(n, set) \
    (ROPE_HAS((set) & ROPE_ALL(n), 1) + ROPE_HAS((set) & ROPE_ALL(n), 2) + ROPE_HAS((set) & ROPE_ALL(n), 3) + \
     ROPE_HAS((set) & ROPE_ALL(n), 4) + ROPE_HAS((set) & ROPE_ALL(n), 5) + ROPE_HAS((set) & ROPE_ALL(n), 6) + \
     ROPE_HAS((set) & ROPE_ALL(n), 7))

/* ---- The shape of a cluster --------------------------------------------------------------------------------------------------- */

/* What a call names of its cluster, passed by value: three sizes and a set, in this order, 32 bytes in all; the last four bytes have no
 * meaning. Any numbers may be passed; they are judged by 1, 2 and 22. */
typedef struct rope_shape {
    size_t n;           /* how many replicas there are: 3 to 7 */
    size_t m;           /* how many slots each of their images has: 1 to 64 */
    size_t edition;     /* 1 or 2 */
    uint32_t witnesses; /* which of the replicas are witnesses; 0 if all have cards. A bit for no replica matters to no call about one
                           image or about sizes and offsets, and is 22 in a call about a cluster */
} rope_shape;

typedef char rope_shape_has_32_bytes[sizeof(rope_shape) == 32 ? 1 : -1];
typedef char rope_shape_m_at_8[offsetof(rope_shape, m) == 8 ? 1 : -1];
typedef char rope_shape_edition_at_16[offsetof(rope_shape, edition) == 16 ? 1 : -1];
typedef char rope_shape_witnesses_at_24[offsetof(rope_shape, witnesses) == 24 ? 1 : -1];

/* ---- Sizes and offsets -------------------------------------------------------------------------------------------------------- */

/* Sizes and offsets are in bytes. */
#define ROPE_HEADER_SIZE 28 /* edition 1: "rope" or a witness's "wits", edition, replica, n, m, checksum, newline */
#define ROPE_HEADER_SIZE_2 39 /* edition 2: the same with the first index behind m */
#define ROPE_RECORD_SIZE 34 /* epoch, index, checksum, newline */
#define ROPE_ENTRY_SIZE 240 /* epoch, index, length, payload, checksum, newline, spaces to the end */
#define ROPE_MAX_PAYLOAD 200 /* bytes of payload in one entry, of any values */
#define ROPE_MAX_SLOTS 64
#define ROPE_MIN_REPLICAS 3
#define ROPE_MAX_REPLICAS 7

/* Of each size and offset there is a call, which takes any shape, and there are macros for fixed buffers, each for one case:
 *
 *                           call               edition 1          edition 2            1, with witnesses       2, with witnesses
 *   bytes of an image       rope_image_size    ROPE_IMAGE_SIZE    ROPE_IMAGE_SIZE_2    ROPE_IMAGE_SIZE_WITH    ROPE_IMAGE_SIZE_WITH_2
 *      of a witness         rope_image_size    ROPE_WITNESS_SIZE  ROPE_WITNESS_SIZE_2  ROPE_WITNESS_SIZE       ROPE_WITNESS_SIZE_2
 *   bytes of a cluster      rope_cluster_size  ROPE_CLUSTER_SIZE  ROPE_CLUSTER_SIZE_2  ROPE_CLUSTER_SIZE_WITH  ROPE_CLUSTER_SIZE_WITH_2
 *   where an image begins   rope_image_at      ROPE_IMAGE_AT      ROPE_IMAGE_AT_2      ROPE_IMAGE_AT_WITH      ROPE_IMAGE_AT_WITH_2
 *   where a record begins   rope_record_at     ROPE_RECORD_AT     ROPE_RECORD_AT_2     ROPE_RECORD_AT          ROPE_RECORD_AT_2
 *   where an entry begins   rope_entry_at      ROPE_ENTRY_AT      ROPE_ENTRY_AT_2      ROPE_ENTRY_AT           ROPE_ENTRY_AT_2
 *
 * An image begins in its cluster, a record and an entry in their own image. Without witnesses every replica has a card. A set of witnesses
 * may be empty, and a bit for no replica adds nothing. The numbers that a macro is given are in range. The image of a card has 28 + 274 * m
 * bytes in edition 1 and 39 + 274 * m in edition 2; that of a witness, which has no entries, 28 + 34 * m and 39 + 34 * m. */
#define ROPE_IMAGE_SIZE(m) ((size_t)ROPE_HEADER_SIZE + (size_t)(ROPE_RECORD_SIZE + ROPE_ENTRY_SIZE) * (size_t)(m))
#define ROPE_IMAGE_SIZE_2(m) ((size_t)ROPE_HEADER_SIZE_2 + (size_t)(ROPE_RECORD_SIZE + ROPE_ENTRY_SIZE) * (size_t)(m))
#define ROPE_WITNESS_SIZE(m) ((size_t)ROPE_HEADER_SIZE + (size_t)ROPE_RECORD_SIZE * (size_t)(m))
#define ROPE_WITNESS_SIZE_2(m) ((size_t)ROPE_HEADER_SIZE_2 + (size_t)ROPE_RECORD_SIZE * (size_t)(m))

#define ROPE_CLUSTER_SIZE(n, m) ((size_t)(n) * ROPE_IMAGE_SIZE(m))
#define ROPE_CLUSTER_SIZE_2(n, m) ((size_t)(n) * ROPE_IMAGE_SIZE_2(m))
#define ROPE_IMAGE_AT(m, replica) (((size_t)(replica) - 1) * ROPE_IMAGE_SIZE(m))
#define ROPE_IMAGE_AT_2(m, replica) (((size_t)(replica) - 1) * ROPE_IMAGE_SIZE_2(m))

#define ROPE_CLUSTER_SIZE_WITH(n, m, witnesses) \
    (ROPE_CLUSTER_SIZE(n, m) - (size_t)ROPE_ENTRY_SIZE * (size_t)(m) * (size_t)ROPE_COUNT(n, witnesses))
#define ROPE_CLUSTER_SIZE_WITH_2(n, m, witnesses) \
    (ROPE_CLUSTER_SIZE_2(n, m) - (size_t)ROPE_ENTRY_SIZE * (size_t)(m) * (size_t)ROPE_COUNT(n, witnesses))
#define ROPE_IMAGE_AT_WITH(m, witnesses, replica) ROPE_CLUSTER_SIZE_WITH((replica) - 1, m, witnesses)
#define ROPE_IMAGE_AT_WITH_2(m, witnesses, replica) ROPE_CLUSTER_SIZE_WITH_2((replica) - 1, m, witnesses)
#define ROPE_IMAGE_SIZE_WITH(m, witnesses, replica) (ROPE_HAS(witnesses, replica) ? ROPE_WITNESS_SIZE(m) : ROPE_IMAGE_SIZE(m))
#define ROPE_IMAGE_SIZE_WITH_2(m, witnesses, replica) (ROPE_HAS(witnesses, replica) ? ROPE_WITNESS_SIZE_2(m) : ROPE_IMAGE_SIZE_2(m))

#define ROPE_RECORD_AT(slot) ((size_t)ROPE_HEADER_SIZE + (size_t)ROPE_RECORD_SIZE * ((size_t)(slot) - 1))
#define ROPE_RECORD_AT_2(slot) ((size_t)ROPE_HEADER_SIZE_2 + (size_t)ROPE_RECORD_SIZE * ((size_t)(slot) - 1))
#define ROPE_ENTRY_AT(m, slot) \
    ((size_t)ROPE_HEADER_SIZE + (size_t)ROPE_RECORD_SIZE * (size_t)(m) + (size_t)ROPE_ENTRY_SIZE * ((size_t)(slot) - 1))
#define ROPE_ENTRY_AT_2(m, slot) \
    ((size_t)ROPE_HEADER_SIZE_2 + (size_t)ROPE_RECORD_SIZE * (size_t)(m) + (size_t)ROPE_ENTRY_SIZE * ((size_t)(slot) - 1))

/* No run makes more stores than this, so a run with this budget is never spent. */
#define ROPE_ENOUGH_STORES(n, m) ((uint64_t)3 * (uint64_t)(n) * (uint64_t)(m))

/* What the calls of the table return, by value. The layout is that of C: value at byte 0, refusal at byte 8, 16 bytes in all; the last
 * seven bytes have no meaning. The image of replica 1 begins at 0, so only the refusal tells whether there is a value. */
typedef struct rope_measure {
    size_t value;    /* bytes: a size or an offset; 0 if refused */
    uint8_t refusal; /* 0 (ROPE_DONE), or why there is no such size or offset (enum rope_refusal) */
} rope_measure;

typedef char rope_measure_has_16_bytes[sizeof(rope_measure) == 16 ? 1 : -1];
typedef char rope_measure_refusal_at_8[offsetof(rope_measure, refusal) == 8 ? 1 : -1];

/* The bytes of the image that the shape says the replica has, a card's or a witness's. Refusals 1 and 2. */
ROPE_MUST_USE
rope_measure rope_image_size(rope_shape shape, size_t replica);

/* The bytes of a cluster: the length by which 3 is judged. A witness that is no replica adds none. Refusals 1 and 2; for 2 only n and the
 * edition count. */
ROPE_MUST_USE
rope_measure rope_cluster_size(rope_shape shape);

/* Where the image of a replica begins in its cluster. Refusals 1 and 2. */
ROPE_MUST_USE
rope_measure rope_image_at(rope_shape shape, size_t replica);

/* Where the record of a slot begins in its own image, a card's or a witness's. Refusals 1, also if the slot is not 1 to m, and 2. */
ROPE_MUST_USE
rope_measure rope_record_at(rope_shape shape, size_t replica, size_t slot);

/* Where the entry of a slot begins in its own image, a card's. Refusals 1, also if the slot is not 1 to m, 2, and 3 if the replica is a
 * witness, which has no entries. */
ROPE_MUST_USE
rope_measure rope_entry_at(rope_shape shape, size_t replica, size_t slot);

/* ---- The numbers -------------------------------------------------------------------------------------------------------------- */

/* Why a call is refused. 4 to 7 are found in one image: the calls about a cluster treat a present replica whose image has such a
 * refusal as away, and are refused only if it is the leader (12). */
enum rope_refusal {
    ROPE_DONE = 0,                      /* not refused */
    ROPE_REFUSED_SLOT_COUNT = 1,        /* m is not 1 to 64; where an offset is asked for, also if the slot is not 1 to m */
    ROPE_REFUSED_REPLICA_COUNT = 2,     /* n is not 3 to 7, the replica of an image is not 1 to n, or the edition is not 1 or 2 */
    ROPE_REFUSED_BUFFER_LENGTH = 3,     /* the buffer of an image, a cluster or a piece has the wrong length, as has an image of the other
                                           edition; whatever the length, a call for cards names a witness, or one for witnesses a card */
    ROPE_REFUSED_HEADER = 4,            /* the header is not one that is written for this replica and shape; in edition 2 also if its
                                           first index is one that 20 refuses */
    ROPE_REFUSED_USED_AFTER_BLANK = 5,  /* a used slot stands after a blank record */
    ROPE_REFUSED_BOTH_LOST = 6,         /* a bad record stands beside an entry that is not intact; on a witness, any bad record */
    ROPE_REFUSED_EPOCH_FALLS = 7,       /* a used slot's epoch is below an earlier slot's */
    ROPE_REFUSED_APPEND_EPOCH = 8,      /* append: the epoch is 0, or below the last used slot's */
    ROPE_REFUSED_APPEND_PAYLOAD = 9,    /* append, or writing an entry: the payload has over 200 bytes */
    ROPE_REFUSED_APPEND_FULL = 10,      /* append: all m slots are used */
    ROPE_REFUSED_PRESENT = 11,          /* the present set has a bit for no replica */
    ROPE_REFUSED_LEADER = 12,           /* the leader is not 1 to n, is not in the present set, is a witness, or has an image that is
                                           refused */
    ROPE_REFUSED_LENT_LENGTH = 13,      /* a lent result buffer or table has the wrong length */
    ROPE_REFUSED_COMMAND_LINE = 14,     /* the printing program alone: its first line is not well formed */
    ROPE_REFUSED_FIRST_INDEX = 20,      /* format: the first index is 0, is another than 1 in edition 1, or is so high that the last slot's
                                           index would pass 4,294,967,295; tried before 3 */
    ROPE_REFUSED_FIRST_DIFFERS = 21,    /* another readable present image has another first index than the leader's; tried before 13 */
    ROPE_REFUSED_WITNESSES = 22         /* the set of witnesses has a bit for no replica; tried after 11 and before 12 */
};

/* What rope_read says of a slot of a card. 3, 4 and 6 together are called faulty: the slot is used and has no payload. */
enum rope_verdict {
    ROPE_UNUSED = 0,      /* the record is blank */
    ROPE_INTACT = 1,      /* a good record beside an intact entry of its epoch */
    ROPE_RECORD_LOST = 2, /* a bad record beside an intact entry: the slot is whole, its record is to be rewritten */
    ROPE_CORRUPT = 3,     /* a good record whose entry is not intact: damaged */
    ROPE_AMBIGUOUS = 4,   /* as 3, at the last used slot, where a power failure and damage look alike */
    ROPE_PARTIAL = 5,     /* the first unused slot, if its entry is not all spaces: an append that was not finished, or was cut */
    ROPE_STALE = 6        /* a good record beside an intact entry of another epoch, as a write that never arrived leaves it; at the last
                             used slot, where this comes before 4, a power failure can leave it too */
};

/* What the plan says of a slot of the leader. From ROPE_PLAN_FETCH + 1 on: fetch the entry from replica byte - ROPE_PLAN_FETCH. */
enum rope_plan_byte {
    ROPE_PLAN_UNUSED = 0,          /* nothing stands there */
    ROPE_PLAN_WHOLE = 1,           /* nothing is to be done */
    ROPE_PLAN_REWRITE_RECORD = 2,  /* the record is lost, and is written again from the entry */
    ROPE_PLAN_WAIT = 3,            /* faulty, and the replicas that answer cannot decide */
    ROPE_PLAN_TRUNCATE = 4,        /* the lowest slot that is cut: no majority of n can have held it */
    ROPE_PLAN_TRUNCATED_AFTER = 5, /* a used slot behind that one: it goes with it */
    ROPE_PLAN_FETCH = 10           /* plus the number of the replica, which is no witness: 11 to 17 */
};

/* The status that a plan hands out. */
enum rope_plan_status {
    ROPE_PLAN_READY = 0,  /* with the length that the leader's log will have */
    ROPE_PLAN_WAITING = 1 /* with the lowest waiting slot */
};

/* The status that a step or a run hands out. */
enum rope_status {
    ROPE_RECOVERED = 0,  /* no store is outstanding */
    ROPE_WAITING = 1,    /* the plan waits, and nothing was written */
    ROPE_OUTSTANDING = 2 /* a step: it made a store. A run: its whole budget is used, and a store is still outstanding. */
};

/* What a step stored. */
enum rope_store {
    ROPE_STORE_ENTRY = 1,  /* one whole entry of 240 bytes, never on a witness */
    ROPE_STORE_RECORD = 2, /* one record */
    ROPE_STORE_BLANK = 3   /* one record blanked */
};

/* What the planner says of one replica. The layout is that of C: readable at byte 0, length at byte 4, last_epoch at byte 8, 12 bytes
 * in all; the three bytes behind readable have no meaning. */
typedef struct rope_row {
    uint8_t readable;    /* 1 if the replica is present and its image is not refused, else 0 */
    uint32_t length;     /* its log's length; 0 if it is not readable */
    uint32_t last_epoch; /* the epoch of its last used slot; 0 if its log is empty or it is not readable */
} rope_row;

typedef char rope_row_has_12_bytes[sizeof(rope_row) == 12 ? 1 : -1];
typedef char rope_row_length_at_4[offsetof(rope_row, length) == 4 ? 1 : -1];
typedef char rope_row_last_epoch_at_8[offsetof(rope_row, last_epoch) == 8 ? 1 : -1];

/* ---- One image ---------------------------------------------------------------------------------------------------------------- */

/* rope_format makes the image of a card or of a witness. rope_append, rope_read, rope_has_payload and rope_payload are calls for cards,
 * rope_witness_append and rope_witness_read for witnesses: a replica of which the shape says otherwise is refused by 3, whatever the
 * length of its image. */

/* Writes the fresh image that the shape says the replica has over the whole buffer: a header, blank records and, if it is no witness,
 * entries of spaces. Slot 1 will have the index first, which is 1 in edition 1. Refusals 1, 2, 20 and 3. */
ROPE_MUST_USE
uint8_t rope_format(uint8_t *image, size_t image_len, rope_shape shape, size_t replica, uint32_t first);

/* Writes the entry and then the record of the first unused slot, and hands out that slot. Epochs are 1 to 4,294,967,295 and never
 * fall. After a cut, and for every new leader, take an epoch that was never used before. Refusals 1 to 10. */
ROPE_MUST_USE
uint8_t rope_append(uint8_t *image, size_t image_len, rope_shape shape, size_t replica, uint32_t epoch, const uint8_t *payload,
                    size_t payload_len, size_t *slot);

/* Fills the epoch (0 if the slot is unused) and the verdict (enum rope_verdict) of each slot, and hands out the log's length and its
 * first index, which is 1 in edition 1. Both buffers have m elements, else 13, which is tried after all else. A slot's epoch is its
 * record's if that is good, else its entry's. Refusals 1 to 7 and 13. */
ROPE_MUST_USE
uint8_t rope_read(const uint8_t *image, size_t image_len, rope_shape shape, size_t replica, uint32_t *epochs, size_t epochs_len,
                  uint8_t *verdicts, size_t verdicts_len, size_t *length, uint32_t *first);

/* Hands out 1 if the slot has a payload (verdict 1 or 2), else 0; a slot that is not 1 to m has none, and an empty payload is one.
 * Refusals 1 to 7. */
ROPE_MUST_USE
uint8_t rope_has_payload(const uint8_t *image, size_t image_len, rope_shape shape, size_t replica, size_t slot, uint8_t *has);

/* Hands out the slot's payload as a part of the image: the offset where it begins, and how many bytes it has. If the slot has none, or
 * the image is refused, it is the empty part: offset 0, size 0. Returns nothing; whether there is a payload, and the refusals, are
 * rope_has_payload's to say. */
void rope_payload(const uint8_t *image, size_t image_len, rope_shape shape, size_t replica, size_t slot, size_t *at, size_t *size);

/* Writes the record of the first unused slot of a witness, and hands out that slot. It is the append of a reading whose entry stands on the
 * cards: take the same epoch. Refusals 1 to 8 and 10. */
ROPE_MUST_USE
uint8_t rope_witness_append(uint8_t *image, size_t image_len, rope_shape shape, size_t replica, uint32_t epoch, size_t *slot);

/* Fills the epoch of each slot of a witness (0 if the slot is unused), and hands out the log's length and its first index, which is 1 in
 * edition 1. The buffer has m elements, else 13, which is tried after all else. Refusals 1 to 7 and 13. */
ROPE_MUST_USE
uint8_t rope_witness_read(const uint8_t *image, size_t image_len, rope_shape shape, size_t replica, uint32_t *epochs, size_t epochs_len,
                          size_t *length, uint32_t *first);

/* ---- A cluster ---------------------------------------------------------------------------------------------------------------- */

/* Plans what is to be done about the leader's log, and writes nothing to the cluster. Fills m plan bytes (enum rope_plan_byte), one for
 * each slot, and n rows, one for each replica; hands out a status (enum rope_plan_status), and as number the final length if ready, or
 * the lowest waiting slot. A plan of other than m bytes or a table of other than n rows is 13, tried after all else.
 * Refusals 1 to 3, 11, 22, 12, 21 and 13; for 2 only n and the edition count. No store writes a header, so 21 neither comes nor goes in
 * a recovery. */
ROPE_MUST_USE
uint8_t rope_plan(const uint8_t *cluster, size_t cluster_len, rope_shape shape, size_t leader, uint32_t present, uint8_t *plan,
                  size_t plan_len, rope_row *rows, size_t rows_len, uint8_t *status, size_t *number);

/* Works out the plan afresh and makes the first store still outstanding. Hands out a status (enum rope_status): ROPE_RECOVERED; or
 * ROPE_WAITING with the lowest waiting slot; or ROPE_OUTSTANDING with the replica, the slot and the kind (enum rope_store) of the
 * store it made. A number that goes with another status stays as it was. The store must be on the card or the witness of that replica
 * before the next step: 240 bytes at rope_entry_at or 34 at rope_record_at of its own image, the 34 as one write, whole or not at all.
 * Records 15, 30, 45 and 60 straddle a boundary of 512 bytes if the image begins at one, in edition 2 records 14, 29, 45 and 60: storage
 * that writes single sectors whole may tear them, and README.md, rule 5, says what to do; a torn record makes a witness unreadable.
 * Refusals 1 to 3, 11, 22, 12 and 21; for 2 only n and the edition count. */
ROPE_MUST_USE
uint8_t rope_step(uint8_t *cluster, size_t cluster_len, rope_shape shape, size_t leader, uint32_t present, uint8_t *status,
                  size_t *replica, size_t *slot, uint8_t *kind);

/* Makes steps while the budget of stores lasts. Hands out a status (enum rope_status) and the number of stores made, 0 if it waits;
 * with ROPE_WAITING also the lowest waiting slot, which otherwise stays as it was. A run is for a copy in memory: what the buffer
 * holds before the call returns is not promised, so it must not be the storage itself. Cards are written store by store, by
 * rope_step. Refusals as for rope_step. */
ROPE_MUST_USE
uint8_t rope_run(uint8_t *cluster, size_t cluster_len, rope_shape shape, size_t leader, uint32_t present, uint64_t budget,
                 uint8_t *status, uint64_t *stores, size_t *slot);

/* ---- The pieces of an image --------------------------------------------------------------------------------------------------- */

/* The checksum of some bytes. Returns the checksum itself. */
uint32_t rope_checksum(const uint8_t *bytes, size_t bytes_len);

/* Writes a number over the whole column: decimal, right-justified with spaces. Of a number that is too wide its last digits stand
 * there. Returns nothing. */
void rope_write_number(uint8_t *column, size_t column_len, uint64_t number);

/* What rope_read_column returns. */
enum rope_column {
    ROPE_COLUMN_NUMBER = 0,    /* a number, which is handed out */
    ROPE_COLUMN_BLANK = 1,     /* spaces alone */
    ROPE_COLUMN_MALFORMED = 2, /* anything that rope_write_number does not write */
    ROPE_COLUMN_TOO_WIDE = 3   /* a column of over 19 bytes, which is not read */
};

/* Reads a column strictly; one of no bytes holds the number 0. Returns enum rope_column. */
ROPE_MUST_USE
uint8_t rope_read_column(const uint8_t *column, size_t column_len, uint64_t *value);

/* Write a header, a record, a blank record, an entry, an entry of spaces: each over a buffer of exactly that size, else 3. A header has the
 * first index in edition 2 alone, and begins with "wits" for a witness. The entry's payload has at most 200 bytes, else 9. The numbers are
 * written as they are, whatever they are. */
ROPE_MUST_USE
uint8_t rope_write_header(uint8_t *header, size_t header_len, rope_shape shape, size_t replica, uint32_t first);
ROPE_MUST_USE
uint8_t rope_write_record(uint8_t *record, size_t record_len, uint32_t epoch, uint32_t index);
ROPE_MUST_USE
uint8_t rope_write_blank_record(uint8_t *record, size_t record_len);
ROPE_MUST_USE
uint8_t rope_write_entry(uint8_t *entry, size_t entry_len, uint32_t epoch, uint32_t index, const uint8_t *payload,
                         size_t payload_len);
ROPE_MUST_USE
uint8_t rope_write_fresh_entry(uint8_t *entry, size_t entry_len);

/* What rope_judge_header returns. */
enum rope_header {
    ROPE_HEADER_GOOD = 0, /* what is written for this replica and shape, and in edition 2 for the first index that is handed out */
    ROPE_HEADER_OTHER = 1 /* other bytes, another length, or in edition 2 a first index that 20 refuses */
};

/* Judges the header of a replica and a shape, whose numbers are not judged. In an edition that is not 2 a header gives no first index:
 * the bytes alone decide, and 1 is handed out. Returns enum rope_header. */
ROPE_MUST_USE
uint8_t rope_judge_header(const uint8_t *header, size_t header_len, rope_shape shape, size_t replica, uint32_t *first);

/* What rope_judge_record returns. */
enum rope_record {
    ROPE_RECORD_GOOD = 0,        /* what is written for this index and the epoch that is handed out */
    ROPE_RECORD_BLANK = 1,       /* 33 spaces and a newline */
    ROPE_RECORD_BAD = 2,         /* neither */
    ROPE_RECORD_WRONG_LENGTH = 3 /* not 34 bytes */
};

/* Judges the record of an index. Returns enum rope_record. */
ROPE_MUST_USE
uint8_t rope_judge_record(const uint8_t *record, size_t record_len, uint32_t index, uint32_t *epoch);

/* What rope_judge_entry returns. */
enum rope_entry {
    ROPE_ENTRY_INTACT = 0,      /* what is written for this index, the epoch and a payload of the length that are handed out */
    ROPE_ENTRY_BROKEN = 1,      /* not so */
    ROPE_ENTRY_WRONG_LENGTH = 3 /* not 240 bytes */
};

/* Judges the entry of an index. The payload begins at byte 26 of an intact entry. Returns enum rope_entry. */
ROPE_MUST_USE
uint8_t rope_judge_entry(const uint8_t *entry, size_t entry_len, uint32_t index, uint32_t *epoch, size_t *size);

#ifdef __cplusplus
}
#endif

#endif
