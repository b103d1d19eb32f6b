/* A smoke test of the C interface, from C: the proved examples, each refusal of a write, an edit and
 * a read, lines taken in and put out and their refusals, the house refusals, NULL for every empty slice of every call, the texts, the functions that
 * read answers, and the stored images of examples/. After every refused call the
 * replica and the lent buffer must be what they were; after an accepted one, the bytes behind the
 * answer. To compile and run it at the top of the repository:
 *
 *     cc -std=c11 -Wall -Wextra -O2 -Iinclude -o target/smoke rust/refile/c/smoke.c target/staticlib/librefile.a
 *     target/smoke examples/lot.image examples/lot.report [IMAGE REPORT]...
 *
 * Exit status: 0 all as expected, 1 something differs, 2 a file can't be read.
 */
#include <stdbool.h>
#include <stdio.h>
#include <stdlib.h>
#include <string.h>

#include "refile.h"

#if REFILE_PATH_HASHES != REFILE_REVISIONS
#error "one path does not fill the room, as writes_are_refused takes it"
#endif

#define ID (const uint8_t *)"lot", 3

static uint8_t replica[REFILE_REPLICA_BYTES], other[REFILE_REPLICA_BYTES];
static uint8_t before[REFILE_REPLICA_BYTES];
static uint8_t out[REFILE_IMAGE_MOST + 64];
static unsigned tried, bad;

static void expect(bool holds, const char *what) {
    tried++;
    if (!holds) {
        bad++;
        printf("smoke: %s\n", what);
    }
}

/* The place of a byte stands in its pattern, so that bytes that were moved show too. */
static uint8_t pattern(size_t at) { return (uint8_t)(0xa5 ^ (uint8_t)(29 * at)); }

static void prepare(void) {
    memcpy(before, replica, sizeof replica);
    for (size_t i = 0; i < sizeof out; i++) {
        out[i] = pattern(i);
    }
}

static bool untouched_from(size_t at) {
    for (size_t i = at; i < sizeof out; i++) {
        if (out[i] != pattern(i)) {
            return false;
        }
    }
    return true;
}

static bool is(uint64_t result, uint32_t refusal, uint64_t value) {
    return refile_refusal(result) == refusal && refile_value(result) == value;
}

/* A refusal that is no image's: its value is 0, and nothing was altered. */
static void refused(uint64_t result, uint32_t refusal, const char *what) {
    expect(is(result, refusal, 0), what);
    expect(memcmp(replica, before, sizeof replica) == 0, what);
    expect(untouched_from(0), what);
}

/* An accepted call that wrote so many bytes to the buffer. */
static void answered(uint64_t result, uint64_t value, size_t bytes, const char *what) {
    expect(is(result, 0, value), what);
    expect(untouched_from(bytes), what);
}

/* A path in which each hash is its first byte, the rest zeros. */
static const uint8_t *hashes(const char *first_bytes, size_t count) {
    static uint8_t path[4 * REFILE_HASH_BYTES];

    memset(path, 0, sizeof path);
    for (size_t i = 0; i < count; i++) {
        path[REFILE_HASH_BYTES * i] = (uint8_t)first_bytes[i];
    }
    return path;
}

static uint64_t write_lot(uint32_t number, const char *first_bytes, size_t count, uint32_t kind,
                          uint64_t label) {
    prepare();
    return refile_write(replica, sizeof replica, ID, number, hashes(first_bytes, count),
                        REFILE_HASH_BYTES * count, kind, label);
}

static uint64_t edit_lot(char hash, uint32_t kind, uint64_t label, uint32_t parent_number,
                         char parent) {
    uint8_t pair[2 * REFILE_HASH_BYTES];

    prepare();
    memcpy(pair, hashes(&hash, 1), REFILE_HASH_BYTES);
    memcpy(pair + REFILE_HASH_BYTES, hashes(&parent, 1), REFILE_HASH_BYTES);
    return refile_edit(replica, sizeof replica, ID, pair, REFILE_HASH_BYTES, kind, label, 1,
                       parent_number, pair + REFILE_HASH_BYTES, REFILE_HASH_BYTES);
}

static uint64_t edit_alone(char hash, uint32_t kind, uint64_t label) {
    prepare();
    return refile_edit(replica, sizeof replica, ID, hashes(&hash, 1), REFILE_HASH_BYTES, kind,
                       label, 0, 0, NULL, 0);
}

static void fresh(void) { expect(is(refile_fresh(replica, sizeof replica), 0, 0), "fresh"); }

static uint64_t sequence(void) {
    return refile_value(refile_update_sequence(replica, sizeof replica));
}

/* The leaves are so many, and the winner has that number and first byte. */
static void leaves_are(uint32_t count, uint32_t number, uint8_t first_byte, const char *what) {
    prepare();
    answered(refile_leaves(replica, sizeof replica, ID, out, sizeof out), count,
             count * REFILE_LEAF_BYTES, what);
    prepare();
    answered(refile_winner(replica, sizeof replica, ID, out, sizeof out), REFILE_LEAF_BYTES,
             REFILE_LEAF_BYTES, what);
    expect(refile_leaf_number(out) == number && refile_leaf_hash(out)[0] == first_byte, what);
}

static void cases_1_to_8(void) {
    fresh();
    expect(is(write_lot(1, "\x20", 1, REFILE_LIVE, 7), 0, 1) && sequence() == 1, "case 1");
    expect(is(write_lot(2, "\x91\x20", 2, REFILE_LIVE, 8), 0, 1), "case 2");
    leaves_are(1, 2, 0x91, "case 2");
    expect(is(write_lot(2, "\x4c\x20", 2, REFILE_LIVE, 9), 0, 1) && sequence() == 3, "case 3");
    leaves_are(2, 2, 0x91, "case 3");
    expect(is(write_lot(2, "\x4c\x20", 2, REFILE_LIVE, 9), 0, 0) && sequence() == 3, "case 4");
    expect(is(write_lot(3, "\x05\x91\x20", 3, REFILE_DELETED, 0), 0, 1), "case 5");
    leaves_are(2, 2, 0x4c, "case 5");
    expect(sequence() == 4, "case 5");
    refused(write_lot(2, "\x4c\x33", 2, REFILE_LIVE, 9), REFILE_PARENT, "case 6");
    refused(write_lot(2, "\x4c\x20", 2, REFILE_LIVE, 10), REFILE_CONTENT, "case 7");
    expect(is(write_lot(1, "\x20", 1, REFILE_DELETED, 0), 0, 0) && sequence() == 4, "case 8");
}

static void cases_9_to_14(void) {
    static const uint8_t fresh_image[16] = {0, 1, [15] = 0x10};

    fresh();
    expect(is(write_lot(3, "\x70", 1, REFILE_LIVE, 1), 0, 1), "case 9");
    expect(is(write_lot(2, "\x61", 1, REFILE_LIVE, 2), 0, 1), "case 9");
    leaves_are(2, 3, 0x70, "case 9");
    expect(is(write_lot(3, "\x70\x61", 2, REFILE_LIVE, 1), 0, 1) && sequence() == 3, "case 10");
    leaves_are(1, 3, 0x70, "case 10");
    fresh();
    expect(is(write_lot(9, "\xaa", 1, REFILE_LIVE, 1), 0, 1), "case 11");
    expect(is(write_lot(10, "\x01", 1, REFILE_LIVE, 1), 0, 1), "case 11");
    leaves_are(2, 10, 0x01, "case 11");
    fresh();
    expect(is(write_lot(2, "\x10", 1, REFILE_DELETED, 0), 0, 1), "case 12");
    expect(is(write_lot(2, "\x20", 1, REFILE_DELETED, 0), 0, 1), "case 12");
    leaves_are(2, 2, 0x20, "case 12");
    fresh();
    refused(write_lot(2, "\x0a\x0b\x0c", 3, REFILE_LIVE, 1), REFILE_NUMBER, "case 13");
    refused(write_lot(0, "\x0a", 1, REFILE_LIVE, 1), REFILE_NUMBER, "case 13");
    prepare();
    answered(refile_save(replica, sizeof replica, out, sizeof out), 16, 16, "case 14");
    expect(memcmp(out, fresh_image, sizeof fresh_image) == 0, "case 14");
}

/* Of a replica that holds "lot" with one live revision: whether the byte is one of the id's, or of the
 * revision's number, hash or label, so that turning one of its bits leaves another replica. */
static bool may_be_anything(size_t at) {
    size_t entry = 16, row = 16 + 44 * REFILE_DOCUMENTS;

    return (at > entry && at <= entry + 3) || (at >= row && at < row + 20) ||
           (at >= row + 40 && at < row + 48);
}

/* A buffer of zeros, bytes that are a replica, and bytes that are none. */
static void replicas(void) {
    memset(other, 0, sizeof other);
    expect(refile_is_replica(other, sizeof other) == 1, "zeros are a replica");
    fresh();
    expect(memcmp(replica, other, sizeof replica) == 0, "zeros are a fresh replica");
    expect(is(write_lot(1, "\x20", 1, REFILE_LIVE, 7), 0, 1), "a write");
    memcpy(other, replica, sizeof other);
    expect(refile_is_replica(other, sizeof other) == 1, "a copy of a replica is one");
    expect(refile_is_replica(other, sizeof other - 1) == 0, "a byte short");
    /* Every byte where something stands, and some of those that must be zero. */
    for (size_t i = 0; i < sizeof other; i += i < 100 || (i >= 1400 && i < 1500) ? 1 : 50) {
        other[i] ^= 0x40;
        expect(refile_is_replica(other, sizeof other) == may_be_anything(i), "a bit turned");
        other[i] ^= 0x40;
    }
}

/* What the header says of lending: a replica at an odd address is as good as any, and what is only
 * read may overlap, here an id inside the replica. And of traps: a path that comes oldest first, and an
 * id with its closing NUL, are taken without a word. */
static void lending(void) {
    static uint8_t room[REFILE_REPLICA_BYTES + 1];
    uint8_t *odd = room + ((uintptr_t)room % 2 == 0), counts[REFILE_COUNTS_BYTES];

    fresh();
    expect(is(write_lot(2, "\x91\x20", 2, REFILE_LIVE, 8), 0, 1), "newest first");
    memcpy(odd, replica, sizeof replica);
    expect(is(refile_winner(odd, sizeof replica, odd + 17, 3, out, sizeof out), 0, REFILE_LEAF_BYTES),
           "an id inside a replica at an odd address");
    expect(refile_leaf_hash(out)[0] == 0x91, "the winner of an id inside the replica");
    expect(is(refile_write(odd, sizeof replica, (const uint8_t *)"lot", sizeof "lot", 1,
                           hashes("\x20", 1), 16, REFILE_LIVE, 1),
              0, 1),
           "an id with its closing NUL");
    expect(is(refile_counts(odd, sizeof replica, counts, sizeof counts), 0, 0), "counts");
    expect(refile_number_at(counts, 0) == 2 && refile_number_at(counts, 1) == 3,
           "an id with its closing NUL is another document");
    expect(is(write_lot(2, "\x20\x91", 2, REFILE_LIVE, 8), 0, 1), "oldest first");
    leaves_are(2, 2, 0x91, "oldest first is another history");
}

/* Every call but fresh and load refuses a buffer that an image was read into, whatever else is wrong. */
static void images_are_not_lent(void) {
    uint8_t numbers[REFILE_CHANGES_BYTES];

    fresh();
    memcpy(other, replica, sizeof other);
    memset(replica, 0, sizeof replica);
    for (size_t first = 0; first < 2; first++) {
        replica[1 - first] = 0;
        replica[first] = 1;
        prepare();
        expect(refile_is_replica(replica, sizeof replica) == 0, "an image is no replica");
        refused(refile_save(replica, sizeof replica, out, 0), REFILE_IMAGE_LENT, "save");
        refused(refile_write(replica, sizeof replica, NULL, 0, 0, NULL, 0, 3, 1),
                REFILE_IMAGE_LENT, "write");
        refused(refile_take_in(replica, sizeof replica, NULL, 0), REFILE_IMAGE_LENT, "take_in");
        refused(refile_edit(replica, sizeof replica, NULL, 0, NULL, 0, 3, 1, 2, 1, NULL, 0),
                REFILE_IMAGE_LENT, "edit");
        refused(refile_winner(replica, sizeof replica, NULL, 0, out, 0), REFILE_IMAGE_LENT, "winner");
        refused(refile_leaves(replica, sizeof replica, NULL, 0, out, 0), REFILE_IMAGE_LENT, "leaves");
        refused(refile_path(replica, sizeof replica, NULL, 0, 0, NULL, 0, out, 0),
                REFILE_IMAGE_LENT, "path");
        refused(refile_put_out(replica, sizeof replica, NULL, 0, out, 0), REFILE_IMAGE_LENT, "put_out");
        refused(refile_put_out_size(replica, sizeof replica, NULL, 0), REFILE_IMAGE_LENT, "put_out_size");
        refused(refile_missing(replica, sizeof replica, NULL, 0, out, 1, out, 0), REFILE_IMAGE_LENT,
                "missing");
        refused(refile_changes(replica, sizeof replica, 0, out, 0, numbers, 0), REFILE_IMAGE_LENT,
                "changes");
        refused(refile_pull(replica, sizeof replica, other, sizeof other, 0, out, 0),
                REFILE_IMAGE_LENT, "pull, target");
        refused(refile_pull(other, sizeof other, replica, sizeof replica, 0, out, 0),
                REFILE_IMAGE_LENT, "pull, source");
        refused(refile_pull(replica, sizeof replica, other, sizeof other - 1, 0, out, 0),
                REFILE_IMAGE_LENT, "pull, the target before a source of another size");
        refused(refile_pull(other, sizeof other - 1, replica, sizeof replica, 0, out, 0),
                REFILE_BAD_REPLICA, "pull, a target of another size before the source");
        refused(refile_update_sequence(replica, sizeof replica), REFILE_IMAGE_LENT, "sequence");
        refused(refile_counts(replica, sizeof replica, out, 0), REFILE_IMAGE_LENT, "counts");
        expect(is(refile_load(replica, sizeof replica, NULL, 0), REFILE_IMAGE_SHORT, 0), "load");
    }
    fresh();
}

/* NULL with length 0 is an empty slice, for every slice of every call; here of those that write to a
 * replica or take none. */
static void null_is_written(void) {
    static const char report[] = "refused 20 at 0\n";
    uint8_t hash[REFILE_HASH_BYTES] = {0x20};

    prepare();
    refused(refile_fresh(NULL, 0), REFILE_BAD_REPLICA, "fresh");
    expect(refile_is_replica(NULL, 0) == 0, "is_replica");
    refused(refile_load(NULL, 0, NULL, 0), REFILE_BAD_REPLICA, "load");
    expect(is(refile_load(replica, sizeof replica, NULL, 0), REFILE_IMAGE_SHORT, 0), "load, image");
    refused(refile_save(NULL, 0, NULL, 0), REFILE_BAD_REPLICA, "save");
    refused(refile_save(replica, sizeof replica, NULL, 0), REFILE_SHORT_BUFFER, "save, out");
    refused(refile_write(NULL, 0, NULL, 0, 1, NULL, 0, 1, 1), REFILE_BAD_REPLICA, "write");
    refused(refile_write(replica, sizeof replica, NULL, 0, 1, hash, 16, 1, 1), REFILE_ID, "write, id");
    refused(refile_write(replica, sizeof replica, ID, 1, NULL, 0, 1, 1), REFILE_PATH, "write, path");
    refused(refile_take_in(NULL, 0, NULL, 0), REFILE_BAD_REPLICA, "take_in");
    refused(refile_take_in(replica, sizeof replica, NULL, 0), REFILE_NOT_JSON, "take_in, line");
    refused(refile_edit(NULL, 0, NULL, 0, NULL, 0, 1, 1, 0, 0, NULL, 0), REFILE_BAD_REPLICA, "edit");
    refused(refile_edit(replica, sizeof replica, NULL, 0, hash, 16, 1, 1, 0, 0, NULL, 0), REFILE_ID,
            "edit, id and parent");
    refused(refile_edit(replica, sizeof replica, ID, NULL, 0, 1, 1, 1, 1, hash, 16), REFILE_BAD_HASH,
            "edit, hash");
    refused(refile_edit(replica, sizeof replica, ID, hash, 16, 1, 1, 1, 1, NULL, 0), REFILE_BAD_HASH,
            "edit, a named parent's hash");
    refused(refile_pull(NULL, 0, replica, sizeof replica, 0, NULL, 0), REFILE_BAD_REPLICA, "pull");
    refused(refile_pull(replica, sizeof replica, NULL, 0, 0, NULL, 0), REFILE_BAD_REPLICA,
            "pull, source");
    memcpy(other, replica, sizeof other);
    refused(refile_pull(replica, sizeof replica, other, sizeof other, 0, NULL, 0),
            REFILE_SHORT_BUFFER, "pull, answer");
    refused(refile_report(NULL, 0, NULL, 0), REFILE_SHORT_BUFFER, "report");
    answered(refile_report(NULL, 0, out, sizeof out), sizeof report - 1, sizeof report - 1, "report");
    expect(memcmp(out, report, sizeof report - 1) == 0, "report");
}

/* And of those that read one. */
static void null_is_read(void) {
    uint8_t hash[REFILE_HASH_BYTES] = {0x20}, asked[REFILE_ASKED_BYTES] = {0};
    uint8_t numbers[REFILE_CHANGES_BYTES];

    prepare();
    refused(refile_winner(NULL, 0, NULL, 0, NULL, 0), REFILE_BAD_REPLICA, "winner");
    refused(refile_winner(replica, sizeof replica, NULL, 0, NULL, 0), REFILE_ID, "winner, id");
    refused(refile_winner(replica, sizeof replica, ID, NULL, 0), REFILE_SHORT_BUFFER, "winner, out");
    refused(refile_leaves(NULL, 0, NULL, 0, NULL, 0), REFILE_BAD_REPLICA, "leaves");
    refused(refile_leaves(replica, sizeof replica, NULL, 0, NULL, 0), REFILE_ID, "leaves, id");
    refused(refile_leaves(replica, sizeof replica, ID, NULL, 0), REFILE_SHORT_BUFFER, "leaves, out");
    refused(refile_path(NULL, 0, NULL, 0, 1, NULL, 0, NULL, 0), REFILE_BAD_REPLICA, "path");
    refused(refile_path(replica, sizeof replica, NULL, 0, 1, hash, 16, NULL, 0), REFILE_ID, "path, id");
    refused(refile_path(replica, sizeof replica, ID, 1, NULL, 0, NULL, 0), REFILE_BAD_HASH,
            "path, hash");
    refused(refile_path(replica, sizeof replica, ID, 1, hash, 16, NULL, 0), REFILE_SHORT_BUFFER,
            "path, out");
    refused(refile_put_out(NULL, 0, NULL, 0, NULL, 0), REFILE_BAD_REPLICA, "put_out");
    refused(refile_put_out(replica, sizeof replica, NULL, 0, NULL, 0), REFILE_ID, "put_out, id");
    refused(refile_put_out(replica, sizeof replica, ID, NULL, 0), REFILE_SHORT_BUFFER, "put_out, out");
    refused(refile_put_out_size(NULL, 0, NULL, 0), REFILE_BAD_REPLICA, "put_out_size");
    refused(refile_put_out_size(replica, sizeof replica, NULL, 0), REFILE_ID, "put_out_size, id");
    refused(refile_missing(NULL, 0, NULL, 0, NULL, 0, NULL, 0), REFILE_BAD_REPLICA, "missing");
    refused(refile_missing(replica, sizeof replica, NULL, 0, NULL, 0, NULL, 0), REFILE_ID,
            "missing, id");
    answered(refile_missing(replica, sizeof replica, ID, NULL, 0, NULL, 0), 0, 0, "missing, nothing");
    refused(refile_missing(replica, sizeof replica, ID, asked, 20, NULL, 0), REFILE_SHORT_BUFFER,
            "missing, out");
    refused(refile_changes(NULL, 0, 0, NULL, 0, NULL, 0), REFILE_BAD_REPLICA, "changes");
    refused(refile_changes(replica, sizeof replica, 0, NULL, 0, numbers, 16), REFILE_SHORT_BUFFER,
            "changes, out");
    refused(refile_changes(replica, sizeof replica, 0, out, 3, NULL, 0), REFILE_SHORT_BUFFER,
            "changes, answer");
    answered(refile_changes(replica, sizeof replica, 1, NULL, 0, NULL, 0), 0, 0, "no more changes");
    refused(refile_update_sequence(NULL, 0), REFILE_BAD_REPLICA, "sequence");
    refused(refile_counts(NULL, 0, NULL, 0), REFILE_BAD_REPLICA, "counts");
    refused(refile_counts(replica, sizeof replica, NULL, 0), REFILE_SHORT_BUFFER, "counts, answer");
}

static void null_is_empty(void) {
    fresh();
    expect(is(write_lot(1, "\x20", 1, REFILE_LIVE, 7), 0, 1), "a write");
    null_is_written();
    null_is_read();
}

/* Every number has a line of its own; 0 and a number that is none have theirs. */
static void texts(void) {
    static const uint32_t numbers[] = {
#define NUMBER(name, text) name,
        REFILE_TEXTS(NUMBER)
#undef NUMBER
    };
    size_t count = sizeof numbers / sizeof *numbers;

    expect(count == 33, "a text for each of 1 to 15, 20 to 26, 40 to 43 and 100 to 106");
    for (size_t i = 0; i < count; i++) {
        expect(strchr(refile_text(numbers[i]), ';') != NULL, "what happened; what to do next");
        for (size_t j = 0; j < i; j++) {
            expect(numbers[j] < numbers[i], "the texts in the order of their numbers");
            expect(strcmp(refile_text(numbers[i]), refile_text(numbers[j])) != 0, "texts differ");
        }
    }
    expect(strcmp(refile_text(0), "accepted") == 0, "the text of 0");
    expect(strcmp(refile_text(16), refile_text(999)) == 0, "the text of no refusal");
    expect(refile_belongs(), "header and archive are of one version");
}

/* What the functions that read an answer make of it. */
static void answers_are_read(void) {
    static const uint8_t bytes[2 * REFILE_LEAF_BYTES] = {
        [29] = 0x81, 0x02, 0x03, 0x04, 0x99, [48] = 0x77, 0x01, 0xf1, 2, 3, 4, 5, 6, 7, 0xf8};
    const uint8_t *leaf = refile_leaf_at(bytes, 1);

    expect(refile_number_at(bytes + 25, 1) == 0x81020304u, "a number of an answer");
    expect(refile_leaf_number(leaf) == 0x81020304u, "a leaf's number");
    expect(refile_leaf_hash(leaf)[0] == 0x99 && refile_leaf_hash(leaf)[15] == 0x77, "a leaf's hash");
    expect(refile_leaf_kind(leaf) == REFILE_LIVE, "a leaf's kind");
    expect(refile_leaf_label(leaf) == 0xf1020304050607f8u, "a leaf's label");
}

static void writes_are_refused(void) {
    static const uint8_t long_id[REFILE_ID_BYTES + 1];
    static uint8_t long_path[REFILE_HASH_BYTES * (REFILE_PATH_HASHES + 1)];
    const uint8_t *one = hashes("\x20", 1);

    fresh();
    prepare();
    refused(refile_write(replica, sizeof replica, ID, 1, one, 16, 3, 0), REFILE_BAD_KIND, "101");
    refused(refile_write(replica, sizeof replica, ID, 1, one, 16, REFILE_DELETED, 1),
            REFILE_BAD_LABEL, "102");
    refused(refile_write(replica, sizeof replica - 1, ID, 1, one, 16, REFILE_LIVE, 1),
            REFILE_BAD_REPLICA, "100");
    refused(refile_write(replica, sizeof replica, long_id, 0, 1, one, 16, REFILE_LIVE, 1),
            REFILE_ID, "an empty id");
    refused(refile_write(replica, sizeof replica, long_id, sizeof long_id, 1, one, 16, REFILE_LIVE,
                         1),
            REFILE_ID, "an id that is too long");
    refused(refile_write(replica, sizeof replica, ID, 1, one, 15, REFILE_LIVE, 1), REFILE_PATH,
            "a path of 15 bytes");
    refused(refile_write(replica, sizeof replica, ID, 1, one, 0, REFILE_LIVE, 1), REFILE_PATH,
            "an empty path");
    refused(refile_write(replica, sizeof replica, ID, UINT32_MAX, long_path, sizeof long_path,
                         REFILE_LIVE, 1),
            REFILE_PATH, "a path of one hash too many");
    expect(is(refile_write(replica, sizeof replica, ID, UINT32_MAX, long_path,
                           sizeof long_path - REFILE_HASH_BYTES, REFILE_LIVE, 1),
              0, 1),
           "a path of the most hashes");
    refused(write_lot(1, "\x20", 1, REFILE_LIVE, 1), REFILE_NO_REVISION_ROOM,
            "one revision too many");
    fresh();
    for (uint8_t id = 0; id < REFILE_DOCUMENTS; id++) {
        one = hashes("\x20", 1);
        expect(is(refile_write(replica, sizeof replica, &id, 1, 1, one, 16, REFILE_LIVE, 0), 0, 1),
               "as many documents as there is room for");
    }
    refused(write_lot(1, "\x20", 1, REFILE_LIVE, 1), REFILE_NO_DOCUMENT_ROOM,
            "one document too many");
}

static void edits_are_refused(void) {
    fresh();
    refused(edit_alone(0x20, REFILE_DELETED, 0), REFILE_EDIT_PARENT, "a deletion of nothing");
    refused(edit_lot(0x20, REFILE_LIVE, 1, 0, 0x20), REFILE_EDIT_PARENT, "a parent of number 0");
    expect(is(edit_alone(0x20, REFILE_LIVE, 1), 0, 1), "an edit of an absent document");
    refused(edit_alone(0x21, REFILE_LIVE, 1), REFILE_EDIT_PARENT, "no parent, and a live winner");
    expect(is(edit_lot(0x21, REFILE_DELETED, 0, 1, 0x20), 0, 2), "an edit of a leaf");
    refused(edit_lot(0x22, REFILE_LIVE, 1, 1, 0x20), REFILE_EDIT_PARENT, "a parent with a child");
    expect(is(edit_alone(0x22, REFILE_LIVE, 1), 0, 3), "an edit of a deleted document");
    expect(is(write_lot(2, "\x30", 1, REFILE_LIVE, 1), 0, 1), "a second leaf");
    refused(edit_lot(0x22, REFILE_LIVE, 1, 2, 0x30), REFILE_EDIT_KNOWN, "a known revision");
    expect(is(write_lot(UINT32_MAX, "\x40", 1, REFILE_LIVE, 1), 0, 1), "the last number");
    refused(edit_lot(0x41, REFILE_LIVE, 1, UINT32_MAX, 0x40), REFILE_EDIT_LAST, "past the last");
}

/* Runs on what cases 1 to 5 leave. */
static void reads(void) {
    static const uint8_t asked[3 * REFILE_ASKED_BYTES] = {
        [3] = 1, [4] = 0x20, [23] = 2, [24] = 0x20, [43] = 0, [44] = 0x20};
    static const uint8_t answer[3] = {0, 1, 1};
    uint8_t numbers[REFILE_CHANGES_BYTES];
    const uint8_t *absent = (const uint8_t *)"lots";
    const uint8_t *hash = hashes("\x05", 1);

    prepare();
    refused(refile_winner(replica, sizeof replica, absent, 4, out, sizeof out), REFILE_NO_DOCUMENT,
            "winner of an absent document");
    refused(refile_winner(replica, sizeof replica, ID, out, REFILE_LEAF_BYTES - 1),
            REFILE_SHORT_BUFFER, "winner, a short buffer");
    refused(refile_leaves(replica, sizeof replica, ID, out, 2 * REFILE_LEAF_BYTES - 1),
            REFILE_SHORT_BUFFER, "leaves, a short buffer");
    refused(refile_path(replica, sizeof replica, ID, 2, hash, 16, out, sizeof out),
            REFILE_NO_REVISION, "path of an absent revision");
    refused(refile_path(replica, sizeof replica, ID, 3, hash, 15, out, sizeof out), REFILE_BAD_HASH,
            "a hash of 15 bytes");
    refused(refile_path(replica, sizeof replica, ID, 3, hash, 16, out, 47), REFILE_SHORT_BUFFER,
            "path, a short buffer");
    answered(refile_path(replica, sizeof replica, ID, 3, hash, 16, out, 48), 3, 48, "path");
    expect(out[0] == 0x05 && out[16] == 0x91 && out[32] == 0x20, "path, newest first");
    prepare();
    refused(refile_missing(replica, sizeof replica, ID, asked, 21, out, sizeof out), REFILE_ASKED,
            "an asked list of 21 bytes");
    refused(refile_missing(replica, sizeof replica, ID, asked, sizeof asked, out, 2),
            REFILE_SHORT_BUFFER, "missing, a short buffer");
    answered(refile_missing(replica, sizeof replica, ID, asked, sizeof asked, out, 3), 3, 3,
             "missing");
    expect(memcmp(out, answer, 3) == 0, "missing: known, not known, number 0");
    prepare();
    refused(refile_changes(replica, sizeof replica, 0, out, 2, numbers, sizeof numbers),
            REFILE_SHORT_BUFFER, "changes, a short buffer");
    refused(refile_changes(replica, sizeof replica, 0, out, 3, numbers, sizeof numbers - 1),
            REFILE_SHORT_BUFFER, "changes, a short answer");
    answered(refile_changes(replica, sizeof replica, 4, out, 0, numbers, 0), 0, 0,
             "no more changes");
    answered(refile_changes(replica, sizeof replica, 3, out, 3, numbers, sizeof numbers), 1, 3,
             "changes");
    expect(numbers[3] == 3 && numbers[7] == 4 && numbers[11] == 2 && numbers[15] == 0, "changes");
    prepare();
    refused(refile_counts(replica, sizeof replica, out, REFILE_COUNTS_BYTES - 1),
            REFILE_SHORT_BUFFER, "counts, a short answer");
    answered(refile_counts(replica, sizeof replica, out, sizeof out), 0, REFILE_COUNTS_BYTES,
             "counts");
    expect(out[3] == 1 && out[7] == 4, "counts");
}

/* Runs on what cases 1 to 5 leave, in either direction. */
static void pulls(void) {
    uint8_t counts[REFILE_PULL_BYTES];

    expect(is(refile_fresh(other, sizeof other), 0, 0), "fresh");
    prepare();
    refused(refile_pull(replica, sizeof replica, other, sizeof other, 0, out, sizeof counts - 1),
            REFILE_SHORT_BUFFER, "pull, a short answer");
    expect(is(refile_pull(other, sizeof other, replica, sizeof replica, 0, counts, sizeof counts),
              0, 0),
           "pull");
    expect(counts[3] == 2 && counts[7] == 0 && counts[11] == 0, "pull, all changed");
    expect(memcmp(replica, before, sizeof replica) == 0, "a pull leaves its source");
    expect(is(refile_pull(other, sizeof other, replica, sizeof replica, 0, counts, sizeof counts),
              0, 0),
           "pull");
    expect(counts[3] == 0 && counts[7] == 2 && counts[11] == 0, "pull again, all unchanged");
}

/* Lines. They are written here with ' for the quote of JSON, and H("20") is a hash by its first byte. */

#define H(first_byte) first_byte "000000000000000000000000000000"

static uint64_t take(const char *text) {
    static char line[1024];
    size_t length = strlen(text);

    for (size_t i = 0; i < length; i++) {
        line[i] = text[i] == '\'' ? '"' : text[i];
    }
    prepare();
    return refile_take_in(replica, sizeof replica, (const uint8_t *)line, length);
}

/* Cases 1 to 5 and 8 as lines leave what the writes left; the second has spaces and members that are
 * passed over. */
static void lines_are_taken_in(void) {
    cases_1_to_8();
    memcpy(other, replica, sizeof other);
    fresh();
    expect(is(take("{'_id':'lot','_rev':'1-" H("20") "','label':7}"), 0, 1) && sequence() == 1,
           "case 1 as a line");
    expect(is(take(" {\t'by': {'_id': ['Ann', {}], 'at': -1.5e3}, '\\u005fid': 1, '_rev' : '2-" H("91")
                   "',\r'_revisions': {'ids': ['" H("91") "', '" H("20")
                   "'], 'x': null, 'start': 2}, 'label': 8, '_id': 'lot' }\r\n"),
              0, 1),
           "case 2 as a line, with spaces and unknown members");
    expect(is(take("{'_id':'lot','_rev':'2-" H("4c") "','_revisions':{'start':2,'ids':['" H("4c") "','" H("20")
                   "']},'label':9}\n"),
              0, 1),
           "case 3 as a line");
    expect(is(take("{'_id':'lot','_rev':'2-" H("4c") "','label':9}"), 0, 0) && sequence() == 3,
           "case 4 as a line, the newest alone");
    expect(is(take("{'_id':'lot','_rev':'3-" H("05") "','_revisions':{'start':3,'ids':['" H("05") "','" H("91")
                   "','" H("20") "']},'_deleted':true}"),
              0, 1),
           "case 5 as a line");
    expect(is(take("{'_id':'lot','_rev':'1-" H("20") "','_deleted':true}"), 0, 0), "case 8 as a line");
    expect(memcmp(replica, other, sizeof other) == 0, "lines leave what the writes left");
}

/* Lines with the number that each is refused by, on what cases 1 to 5 leave. */
static const struct {
    uint32_t number;
    const char *text, *what;
} refused_lines[] = {
    {40, "", "an empty line"},
    {40, "[]", "no object"},
    {40, "{'_id':'lot','_rev':'1-" H("20") "','label':7", "a line that is cut off"},
    {40, "{'_id':'lot','_rev':'1-" H("20") "','label':07}", "a spare zero in a number"},
    {40, "\xef\xbb\xbf{'_id':'lot','_rev':'1-" H("20") "','label':7}", "a byte order mark"},
    {40, "{'x':[[[[[[[[[[[[[[[[]]]]]]]]]]]]]]]]}", "depth 17, and nothing of ours"},
    {41, "{'x':[[[[[[[[[[[[[[[]]]]]]]]]]]]]]]}", "depth 16, and nothing of ours"},
    {41, "{'_id':'lot','_rev':'1-" H("20") "'}", "neither label nor _deleted"},
    {41, "{'_id':'lot','_rev':'1-" H("20") "','label':7,'_deleted':true}", "both"},
    {41, "{'_id':'lot','_rev':'1-" H("20") "','label':18446744073709551616}", "past 64 bits"},
    {41, "{'_id':'lot','_rev':'01-" H("20") "','label':7}", "a spare zero in _rev"},
    {41, "{'_id':'lot','_id':'lot','_rev':'1-" H("20") "','label':7}", "_id twice"},
    {42, "{'_id':'\\n','_rev':'1-" H("20") "','_revisions':{'start':1,'ids':[]},'label':7}",
     "no ids, before the id"},
    {42, "{'_id':'lot','_rev':'1-" H("20") "','_revisions':{'start':2,'ids':['" H("20") "']},'label':7}",
     "another number in _revisions"},
    {43, "{'_id':'l\\u006ft','_rev':'1-" H("20") "','label':7}", "an escape in the id"},
    {43, "{'_id':'l\xc3\xb6t','_rev':'0-" H("20") "','label':7}", "the id, before the number"},
    {1, "{'_id':'','_rev':'0-" H("20") "','label':7}", "an empty id"},
    {1, "{'_id':'0123456789abcdef0123456789abcdef0','_rev':'1-" H("20") "','label':7}", "a long id"},
    {3, "{'_id':'lot','_rev':'0-" H("20") "','label':7}", "number 0"},
    {4, "{'_id':'lot','_rev':'2-" H("4c") "','_revisions':{'start':2,'ids':['" H("4c") "','" H("33")
        "']},'label':9}", "case 6 as a line"},
    {5, "{'_id':'lot','_rev':'2-" H("4c") "','label':10}", "case 7 as a line"},
};

static void lines_are_refused(void) {
    for (size_t i = 0; i < sizeof refused_lines / sizeof *refused_lines; i++) {
        refused(take(refused_lines[i].text), refused_lines[i].number, refused_lines[i].what);
    }
    prepare();
    refused(refile_take_in(replica, sizeof replica - 1, NULL, 0), REFILE_BAD_REPLICA, "take_in, 100");
    refused(refile_take_in(replica, sizeof replica, (const uint8_t *)"{}", 2), REFILE_BAD_MEMBER, "no members");
    refused(refile_take_in(replica, sizeof replica, (const uint8_t *)"{}", sizeof "{}"), REFILE_NOT_JSON,
            "a line with its closing NUL");
}

/* Takes in a line with so many ids. */
static uint64_t take_ids(unsigned ids) {
    static char line[256 + (2 * REFILE_HASH_BYTES + 3) * (REFILE_PATH_HASHES + 1)];
    int at = sprintf(line, "{\"label\":0,\"_id\":\"lot\",\"_rev\":\"%u-%032x\",\"_revisions\":{\"start\":%u,\"ids\":[",
                     UINT32_MAX, 0u, UINT32_MAX);

    for (unsigned i = 0; i < ids; i++) {
        at += sprintf(line + at, "%s\"%032x\"", i > 0 ? "," : "", i);
    }
    at += sprintf(line + at, "]}}");
    prepare();
    return refile_take_in(replica, sizeof replica, (const uint8_t *)line, (size_t)at);
}

static void long_lines(void) {
    fresh();
    refused(take_ids(REFILE_PATH_HASHES + 1), REFILE_PATH, "a line of one id too many");
    expect(is(take_ids(REFILE_PATH_HASHES), 0, 1), "a line of as many ids as a path may have");
}

/* Runs on what cases 1 to 5 leave. */
static void lines_are_put_out(void) {
    static const char lines[] =
        "{\"_id\":\"lot\",\"_rev\":\"3-" H("05") "\",\"_revisions\":{\"start\":3,\"ids\":[\"" H("05") "\",\"" H("91")
        "\",\"" H("20") "\"]},\"_deleted\":true}\n"
        "{\"_id\":\"lot\",\"_rev\":\"2-" H("4c") "\",\"_revisions\":{\"start\":2,\"ids\":[\"" H("4c") "\",\"" H("20")
        "\"]},\"label\":9}\n";
    static const char first[] = "{\"_id\":\"lots\",\"_rev\":\"1-" H("20") "\",\"_revisions\":{\"start\":1,\"ids\":[\""
        H("20") "\"]},\"label\":18446744073709551615}\n";
    const uint8_t *quote = (const uint8_t *)"\"", *lots = (const uint8_t *)"lots";
    size_t length = sizeof lines - 1;

    expect(is(refile_put_out_size(replica, sizeof replica, ID), 0, length), "the size of lot's lines");
    prepare();
    refused(refile_put_out(replica, sizeof replica, ID, out, length - 1), REFILE_SHORT_BUFFER,
            "put out, a byte short");
    answered(refile_put_out(replica, sizeof replica, ID, out, length), length, length, "put out");
    expect(memcmp(out, lines, length) == 0, "lot's lines");
    prepare();
    answered(refile_put_out(replica, sizeof replica, ID, out, sizeof out), length, length, "put out, more room");
    prepare();
    refused(refile_put_out(replica, sizeof replica, lots, 4, out, 0), REFILE_NO_DOCUMENT, "put out, 12");
    refused(refile_put_out_size(replica, sizeof replica, lots, 4), REFILE_NO_DOCUMENT, "size, 12");
    refused(refile_put_out(replica, sizeof replica, lots, 0, out, 0), REFILE_ID, "put out, 1");
    refused(refile_put_out(replica, sizeof replica, quote, 1, out, 0), REFILE_NO_DOCUMENT, "12 before 43");
    refused(refile_put_out(replica, sizeof replica - 1, ID, out, 0), REFILE_BAD_REPLICA, "put out, 100");
    refused(refile_put_out_size(replica, sizeof replica - 1, ID), REFILE_BAD_REPLICA, "size, 100");
    expect(is(refile_write(replica, sizeof replica, quote, 1, 1, hashes("\x20", 1), 16, REFILE_LIVE, 1), 0, 1) &&
               is(refile_write(replica, sizeof replica, lots, 4, 1, hashes("\x20", 1), 16, REFILE_LIVE, UINT64_MAX), 0, 1),
           "two more documents");
    prepare();
    refused(refile_put_out(replica, sizeof replica, quote, 1, out, 0), REFILE_UNWRITABLE_ID, "43 before 14");
    refused(refile_put_out_size(replica, sizeof replica, quote, 1), REFILE_UNWRITABLE_ID, "size, 43");
    answered(refile_put_out(replica, sizeof replica, lots, 4, out, sizeof first - 1), sizeof first - 1,
             sizeof first - 1, "put out, a path of one");
    expect(memcmp(out, first, sizeof first - 1) == 0, "_revisions also for a path of one");
}

static size_t read_file(const char *path, uint8_t *bytes, size_t room) {
    FILE *file = fopen(path, "rb");
    size_t length;

    if (file == NULL) {
        perror(path);
        exit(2);
    }
    length = fread(bytes, 1, room, file);
    fclose(file);
    return length;
}

/* The report is the stored one; a sound image loads and is saved as the same bytes; a damaged one is
 * refused as its report says and leaves the former replica. */
static void image_is(const char *image_path, const char *report_path) {
    static uint8_t image[REFILE_IMAGE_MOST + 1], report[REFILE_REPORT_MOST + 1];
    size_t length = read_file(image_path, image, sizeof image);
    size_t text = read_file(report_path, report, sizeof report - 1);
    unsigned refusal = 0, place = 0;
    uint64_t result;

    report[text] = 0;
    prepare();
    answered(refile_report(image, length, out, text), text, text, image_path);
    expect(memcmp(out, report, text) == 0, image_path);
    prepare();
    refused(refile_report(image, length, out, text - 1), REFILE_SHORT_BUFFER, image_path);
    result = refile_load(replica, sizeof replica, image, length);
    if (sscanf((const char *)report, "refused %u at %u", &refusal, &place) == 2) {
        expect(is(result, refusal, place), image_path);
        expect(memcmp(replica, before, sizeof replica) == 0, image_path);
        return;
    }
    expect(is(result, 0, 0), image_path);
    prepare();
    refused(refile_save(replica, sizeof replica, out, length - 1), REFILE_SHORT_BUFFER, image_path);
    answered(refile_save(replica, sizeof replica, out, length), length, length, image_path);
    expect(memcmp(out, image, length) == 0, image_path);
}

int main(int argc, char **argv) {
    if (argc < 3 || argc % 2 == 0) {
        fprintf(stderr, "smoke: name images, each with its report\n");
        return 2;
    }
    cases_1_to_8();
    reads();
    pulls();
    cases_9_to_14();
    writes_are_refused();
    edits_are_refused();
    lines_are_taken_in();
    lines_are_refused();
    lines_are_put_out();
    long_lines();
    replicas();
    lending();
    images_are_not_lent();
    null_is_empty();
    texts();
    answers_are_read();
    for (int i = 1; i < argc; i += 2) {
        image_is(argv[i], argv[i + 1]);
    }
    printf("smoke: %u tried, %u differ\n", tried, bad);
    return bad == 0 ? 0 : 1;
}
