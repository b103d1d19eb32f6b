/* Lends every buffer of the C interface exactly as long as it must be, in pages of its own: the byte
 * after it (then, in a second round, the byte before it) can't be touched, and what a call only reads
 * can't be written. One byte outside a buffer ends the program with a word about the call. A third
 * round lends from the heap and leaves output unset, for valgrind to watch. Every round must get the
 * same answers. To compile and run it at the top of the repository:
 *
 *     cc -std=c11 -Wall -Wextra -O2 -Iinclude -o target/guarded rust/refile/c/guarded.c target/staticlib/librefile.a
 *     target/guarded examples/lot.image [IMAGE]...
 *
 * Exit status: 0 all as expected, 1 something differs or was touched, 2 a file can't be read or there
 * is no memory.
 */
#define _DEFAULT_SOURCE
#include <signal.h>
#include <stdbool.h>
#include <stdio.h>
#include <stdlib.h>
#include <string.h>
#include <sys/mman.h>
#include <unistd.h>

#include "refile.h"

/* The bytes of the longest path that a write takes. */
#define WRITTEN_MOST (REFILE_HASH_BYTES * REFILE_PATH_HASHES)

enum round { BEFORE_A_GUARD, AFTER_A_GUARD, ON_THE_HEAP, ROUNDS };

static enum round round_now;
static const char *volatile calling = "no call";
static uint64_t digest;
static unsigned calls, bad;

/* Lending */

struct lent {
    uint8_t *at;
    size_t length;
    uint8_t *pages; /* with the guards on both sides */
    size_t inside;  /* bytes between the guards */
};

static size_t page(void) { return (size_t)sysconf(_SC_PAGESIZE); }

static void *sure(void *memory) {
    if (memory == NULL || memory == MAP_FAILED) {
        perror("guarded: no memory");
        exit(2);
    }
    return memory;
}

static void protect(const struct lent *lent, int protection) {
    if (lent->inside > 0 &&
        mprotect(lent->pages + page(), lent->inside, protection) != 0) {
        perror("guarded: no protection");
        exit(2);
    }
}

static uint8_t pattern(size_t at) { return (uint8_t)(0xa5 ^ (uint8_t)(29 * at)); }

/* So many bytes, filled with a pattern, or unset on the heap. */
static struct lent lend(size_t length) {
    struct lent lent = {.length = length};

    if (round_now == ON_THE_HEAP) {
        lent.at = sure(malloc(length));
        return lent;
    }
    lent.inside = (length + page() - 1) / page() * page();
    lent.pages = sure(mmap(NULL, lent.inside + 2 * page(), PROT_NONE, MAP_PRIVATE | MAP_ANONYMOUS,
                           -1, 0));
    lent.at = lent.pages + page();
    if (round_now == BEFORE_A_GUARD) {
        lent.at += lent.inside - length;
    }
    protect(&lent, PROT_READ | PROT_WRITE);
    for (size_t i = 0; i < length; i++) {
        lent.at[i] = pattern(i);
    }
    return lent;
}

/* Bytes that the call may only read. */
static struct lent lend_input(const uint8_t *bytes, size_t length) {
    struct lent lent = lend(length);

    if (length > 0) {
        memcpy(lent.at, bytes, length);
    }
    protect(&lent, PROT_READ);
    return lent;
}

static void give_back(struct lent *lent) {
    if (lent->pages == NULL) {
        free(lent->at);
    } else {
        munmap(lent->pages, lent->inside + 2 * page());
    }
}

static void touched(int signal_number) {
    static const char text[] = " touched a byte outside its buffers, or wrote to one it only reads\n";
    const char *call = calling;
    ssize_t written;

    (void)signal_number;
    written = write(STDERR_FILENO, "guarded: ", 9);
    written += write(STDERR_FILENO, call, strlen(call));
    written += write(STDERR_FILENO, text, sizeof text - 1);
    _exit(written > 0 ? 1 : 2);
}

/* Answers */

static void mix(const uint8_t *bytes, size_t length) {
    for (size_t i = 0; i < length; i++) {
        digest = (digest ^ bytes[i]) * 0x100000001b3u;
    }
}

static void expect(bool holds, const char *what) {
    if (!holds) {
        bad++;
        printf("guarded: %s: %s\n", calling, what);
    }
}

static void call(const char *name) { calling = name; }

/* Counts a call, and takes its result and so many bytes of what it wrote into the digest. Behind
 * those the buffer must be as it was lent. */
static uint64_t answered(uint64_t result, const struct lent *out, size_t length) {
    uint8_t number[8];

    calls++;
    if (refile_refusal(result) != 0) {
        length = 0;
    }
    for (int i = 0; i < 8; i++) {
        number[i] = (uint8_t)(result >> (8 * i));
    }
    mix(number, sizeof number);
    mix(out->at, length);
    for (size_t i = length; round_now != ON_THE_HEAP && i < out->length; i++) {
        if (out->at[i] != pattern(i)) {
            expect(false, "a byte behind the answer has changed");
            break;
        }
    }
    return result;
}

/* Replicas */

static void begin_writing(const struct lent *replica) { protect(replica, PROT_READ | PROT_WRITE); }

/* The replica as it is after a call goes into the digest, and may only be read from here on. What was
 * refused or changed nothing must have left every byte. */
static uint64_t end_writing(const struct lent *replica, const uint8_t *before, uint64_t result) {
    static const struct lent nothing;

    protect(replica, PROT_READ);
    if (refile_refusal(result) != 0) {
        expect(memcmp(replica->at, before, replica->length) == 0, "a refusal altered the replica");
    }
    mix(replica->at, replica->length);
    return answered(result, &nothing, 0);
}

static uint8_t *copy_of(const struct lent *replica) {
    uint8_t *copy = sure(malloc(replica->length));

    memcpy(copy, replica->at, replica->length);
    return copy;
}

static struct lent fresh(void) {
    static const struct lent nothing;
    struct lent replica = lend(REFILE_REPLICA_BYTES);

    call("refile_fresh");
    answered(refile_fresh(replica.at, replica.length), &nothing, 0);
    mix(replica.at, replica.length);
    protect(&replica, PROT_READ);
    return replica;
}

static uint64_t write_path(const struct lent *replica, const uint8_t *id, size_t id_length,
                           uint32_t number, const uint8_t *path, size_t path_length, uint32_t kind,
                           uint64_t label) {
    struct lent lent_id = lend_input(id, id_length), lent_path = lend_input(path, path_length);
    uint8_t *before = copy_of(replica);
    uint64_t result;

    begin_writing(replica);
    call("refile_write");
    result = end_writing(replica, before,
                         refile_write(replica->at, replica->length, lent_id.at, id_length, number,
                                      lent_path.at, path_length, kind, label));
    free(before);
    give_back(&lent_id);
    give_back(&lent_path);
    return result;
}

static uint64_t take_in(const struct lent *replica, const uint8_t *line, size_t length) {
    struct lent lent_line = lend_input(line, length);
    uint8_t *before = copy_of(replica);
    uint64_t result;

    begin_writing(replica);
    call("refile_take_in");
    result = end_writing(replica, before,
                         refile_take_in(replica->at, replica->length, lent_line.at, length));
    free(before);
    give_back(&lent_line);
    return result;
}

/* An edit; a parent of length 0 is none. */
static uint64_t edit(const struct lent *replica, const uint8_t *id, size_t id_length,
                     const uint8_t *hash, uint32_t kind, uint64_t label, uint32_t parent_number,
                     const uint8_t *parent, size_t parent_length) {
    struct lent lent_id = lend_input(id, id_length);
    struct lent lent_hash = lend_input(hash, REFILE_HASH_BYTES);
    struct lent lent_parent = lend_input(parent, parent_length);
    uint8_t *before = copy_of(replica);
    uint64_t result;

    begin_writing(replica);
    call("refile_edit");
    result = end_writing(replica, before,
                         refile_edit(replica->at, replica->length, lent_id.at, id_length,
                                     lent_hash.at, REFILE_HASH_BYTES, kind, label,
                                     parent_length > 0, parent_number, lent_parent.at,
                                     parent_length));
    free(before);
    give_back(&lent_id);
    give_back(&lent_hash);
    give_back(&lent_parent);
    return result;
}

static void pull(const struct lent *target, const struct lent *source, uint32_t after,
                 size_t room) {
    struct lent counts = lend(room);
    uint8_t *before = copy_of(target);
    uint64_t result;

    begin_writing(target);
    call("refile_pull");
    result = refile_pull(target->at, target->length, source->at, source->length, after, counts.at,
                         counts.length);
    answered(result, &counts, REFILE_PULL_BYTES);
    end_writing(target, before, result);
    free(before);
    give_back(&counts);
}

/* Reads. Each writes into a buffer of the size given and answers what the call answered; the bytes
 * that it wrote are copied to `copy` if that is not null. */

static void keep(uint8_t *copy, const struct lent *out, uint64_t result) {
    if (copy != NULL && refile_refusal(result) == 0) {
        memcpy(copy, out->at, out->length);
    }
}

static uint64_t save(const struct lent *replica, size_t room) {
    struct lent out = lend(room);
    uint64_t result;

    call("refile_save");
    result = refile_save(replica->at, replica->length, out.at, out.length);
    answered(result, &out, refile_value(result));
    give_back(&out);
    return result;
}

static uint64_t report(const struct lent *image, size_t room) {
    struct lent out = lend(room);
    uint64_t result;

    call("refile_report");
    result = refile_report(image->at, image->length, out.at, out.length);
    answered(result, &out, refile_value(result));
    give_back(&out);
    return result;
}

static uint64_t winner(const struct lent *replica, const struct lent *id, size_t room,
                       uint8_t *copy) {
    struct lent out = lend(room);
    uint64_t result;

    call("refile_winner");
    result = refile_winner(replica->at, replica->length, id->at, id->length, out.at, out.length);
    answered(result, &out, REFILE_LEAF_BYTES);
    keep(copy, &out, result);
    give_back(&out);
    return result;
}

static uint64_t leaves(const struct lent *replica, const struct lent *id, size_t room,
                       uint8_t *copy) {
    struct lent out = lend(room);
    uint64_t result;

    call("refile_leaves");
    result = refile_leaves(replica->at, replica->length, id->at, id->length, out.at, out.length);
    answered(result, &out, REFILE_LEAF_BYTES * refile_value(result));
    keep(copy, &out, result);
    give_back(&out);
    return result;
}

static uint64_t path_of(const struct lent *replica, const struct lent *id, const uint8_t *revision,
                        size_t room, uint8_t *copy) {
    struct lent hash = lend_input(refile_leaf_hash(revision), REFILE_HASH_BYTES), out = lend(room);
    uint64_t result;

    call("refile_path");
    result = refile_path(replica->at, replica->length, id->at, id->length,
                         refile_leaf_number(revision), hash.at, hash.length, out.at, out.length);
    answered(result, &out, REFILE_HASH_BYTES * refile_value(result));
    keep(copy, &out, result);
    give_back(&hash);
    give_back(&out);
    return result;
}

static uint64_t put_out(const struct lent *replica, const struct lent *id, size_t room,
                        uint8_t *copy) {
    struct lent out = lend(room);
    uint64_t result;

    call("refile_put_out");
    result = refile_put_out(replica->at, replica->length, id->at, id->length, out.at, out.length);
    answered(result, &out, refile_value(result));
    keep(copy, &out, result);
    give_back(&out);
    return result;
}

static uint64_t put_out_size(const struct lent *replica, const struct lent *id) {
    static const struct lent nothing;

    call("refile_put_out_size");
    return answered(refile_put_out_size(replica->at, replica->length, id->at, id->length), &nothing,
                    0);
}

static uint64_t missing(const struct lent *replica, const struct lent *id, const uint8_t *asked,
                        size_t asked_length, size_t room) {
    struct lent list = lend_input(asked, asked_length), out = lend(room);
    uint64_t result;

    call("refile_missing");
    result = refile_missing(replica->at, replica->length, id->at, id->length, list.at, list.length,
                            out.at, out.length);
    answered(result, &out, refile_value(result));
    give_back(&list);
    give_back(&out);
    return result;
}

/* The id is written to a buffer of one size and the numbers to one of another. */
static uint64_t changes(const struct lent *replica, uint32_t after, size_t id_room,
                        size_t numbers_room, uint8_t *id, uint8_t *numbers) {
    struct lent out = lend(id_room), found = lend(numbers_room);
    uint64_t result;
    bool more;

    call("refile_changes");
    result = refile_changes(replica->at, replica->length, after, out.at, out.length, found.at,
                            found.length);
    more = refile_refusal(result) == 0 && refile_value(result) == 1;
    answered(result, &found, more ? REFILE_CHANGES_BYTES : 0);
    answered(result, &out, more ? refile_number_at(found.at, 0) : 0);
    if (more) {
        keep(numbers, &found, result);
        memcpy(id, out.at, refile_number_at(found.at, 0));
    }
    give_back(&out);
    give_back(&found);
    return result;
}

static void totals(const struct lent *replica, size_t room) {
    static const struct lent nothing;
    struct lent out = lend(room);

    call("refile_counts");
    answered(refile_counts(replica->at, replica->length, out.at, out.length), &out,
             REFILE_COUNTS_BYTES);
    give_back(&out);
    call("refile_update_sequence");
    answered(refile_update_sequence(replica->at, replica->length), &nothing, 0);
}

/* Trials */

static void is_short(uint64_t result) {
    expect(refile_refusal(result) == REFILE_SHORT_BUFFER, "a byte short, and not refused by 14");
}

/* A leaf's path, whole and a byte short; then written again, on top of itself, and edited. */
static void try_leaf(const struct lent *replica, struct lent *scratch, const struct lent *id,
                     const uint8_t *leaf) {
    static uint8_t path[REFILE_PATH_MOST + REFILE_HASH_BYTES];
    uint8_t *hashes = path + REFILE_HASH_BYTES;
    uint32_t number = refile_leaf_number(leaf), kind = refile_leaf_kind(leaf);
    uint64_t label = refile_leaf_label(leaf);
    uint64_t count = refile_value(path_of(replica, id, leaf, REFILE_PATH_MOST, NULL));
    size_t length = REFILE_HASH_BYTES * count;

    path_of(replica, id, leaf, length, hashes);
    is_short(path_of(replica, id, leaf, length - 1, NULL));
    write_path(scratch, id->at, id->length, number, hashes, length, kind, label);
    write_path(scratch, id->at, id->length, number, hashes, length, kind, label + (kind == 1));
    write_path(scratch, id->at, id->length, number, hashes, length - 1, kind, label);
    memset(path, 0x5a, REFILE_HASH_BYTES);
    write_path(scratch, id->at, id->length, number + 1, path, length + REFILE_HASH_BYTES,
               REFILE_LIVE, 1);
    path[0] = 0x5b;
    edit(scratch, id->at, id->length, path, REFILE_DELETED, 0, number, hashes, REFILE_HASH_BYTES);
    path[0] = 0x5c;
    edit(scratch, id->at, id->length, path, REFILE_LIVE, 2, 0, path, 0);
}

/* A document's lines, whole and a byte short, each then taken into a fresh replica; or, where its id
 * can't be written, into no room at all. */
static void try_lines(const struct lent *replica, const struct lent *id) {
    uint64_t size = put_out_size(replica, id);
    size_t length = refile_value(size);
    struct lent copy;
    uint8_t *lines, *line, *end;

    if (refile_refusal(size) != 0) {
        expect(put_out(replica, id, 0, NULL) == size, "put out and its size are refused differently");
        return;
    }
    lines = sure(malloc(length));
    copy = fresh();
    put_out(replica, id, length, lines);
    put_out(replica, id, length + 1, NULL);
    is_short(put_out(replica, id, length - 1, NULL));
    for (line = lines; line < lines + length; line = end) {
        end = (uint8_t *)memchr(line, '\n', (size_t)(lines + length - line)) + 1;
        expect(take_in(&copy, line, (size_t)(end - line)) == 1, "a line that was put out is not taken in");
    }
    give_back(&copy);
    free(lines);
}

static void try_document(const struct lent *replica, struct lent *scratch, const struct lent *id) {
    static uint8_t all[REFILE_LEAVES_MOST], asked[REFILE_ASKED_BYTES * (REFILE_REVISIONS + 1)];
    uint64_t count = refile_value(leaves(replica, id, REFILE_LEAVES_MOST, NULL));
    size_t asked_length = REFILE_ASKED_BYTES * (count + 1);

    leaves(replica, id, REFILE_LEAF_BYTES * count, all);
    is_short(leaves(replica, id, REFILE_LEAF_BYTES * count - 1, NULL));
    winner(replica, id, REFILE_LEAF_BYTES, NULL);
    is_short(winner(replica, id, REFILE_LEAF_BYTES - 1, NULL));
    memset(asked, 0, sizeof asked);
    for (size_t i = 0; i < count; i++) {
        memcpy(asked + REFILE_ASKED_BYTES * (i + 1), all + REFILE_LEAF_BYTES * i,
               REFILE_ASKED_BYTES);
    }
    missing(replica, id, asked, asked_length, count + 1);
    missing(replica, id, asked, asked_length - 1, count + 1);
    is_short(missing(replica, id, asked, asked_length, count));
    try_lines(replica, id);
    for (size_t i = 0; i < count; i++) {
        try_leaf(replica, scratch, id, all + REFILE_LEAF_BYTES * i);
    }
}

static void try_documents(const struct lent *replica, struct lent *scratch) {
    uint8_t id[REFILE_ID_BYTES], numbers[REFILE_CHANGES_BYTES];
    uint32_t after = 0;

    while (refile_value(changes(replica, after, sizeof id, sizeof numbers, id, numbers)) == 1) {
        size_t length = refile_number_at(numbers, 0);
        struct lent lent_id = lend_input(id, length);

        changes(replica, after, length, sizeof numbers, id, numbers);
        is_short(changes(replica, after, length - 1, sizeof numbers, id, numbers));
        is_short(changes(replica, after, length, sizeof numbers - 1, id, numbers));
        try_document(replica, scratch, &lent_id);
        give_back(&lent_id);
        after = refile_number_at(numbers, 1);
    }
    changes(replica, after, 0, 0, id, numbers);
}

/* Reports an image and loads it into a buffer that holds no replica yet; true if it was accepted. */
static bool try_load(const struct lent *image, struct lent *replica) {
    static const struct lent nothing;
    uint64_t result, length = refile_value(report(image, REFILE_REPORT_MOST));

    report(image, length);
    is_short(report(image, length - 1));
    *replica = lend(REFILE_REPLICA_BYTES);
    call("refile_load");
    result = answered(refile_load(replica->at, replica->length, image->at, image->length), &nothing,
                      0);
    protect(replica, PROT_READ);
    if (refile_refusal(result) != 0) {
        return false;
    }
    mix(replica->at, replica->length);
    return true;
}

/* A damaged image over a replica, which must stay. */
static void try_refused_load(const struct lent *image) {
    struct lent replica = fresh();
    uint8_t *before = copy_of(&replica);

    begin_writing(&replica);
    call("refile_load");
    end_writing(&replica, before,
                refile_load(replica.at, replica.length, image->at, image->length));
    free(before);
    give_back(&replica);
}

/* Asks of so many bytes whether they are a replica. */
static uint64_t is_replica(const uint8_t *bytes, size_t length) {
    static const struct lent nothing;
    struct lent asked = lend_input(bytes, length);
    uint64_t result;

    call("refile_is_replica");
    result = answered(refile_is_replica(asked.at, asked.length), &nothing, 0);
    give_back(&asked);
    return result;
}

/* A replica is one; cut, or with a byte of the head, the contents or the first rows damaged, it may
 * be read no further than it goes. The bytes of an image are asked about as they are, and at a
 * replica's length. */
static void try_is_replica(const struct lent *replica, const struct lent *image) {
    uint8_t *bytes = copy_of(replica);
    size_t rows = 16 + 44 * REFILE_DOCUMENTS;

    expect(is_replica(bytes, replica->length) == 1, "a replica is none");
    is_replica(bytes, replica->length - 1);
    is_replica(bytes, rows);
    is_replica(bytes, 0);
    for (size_t at = 0; at < rows + 96; at += at < 60 || at >= rows ? 1 : 44 / 4) {
        for (unsigned turned = 1; turned < 256; turned = 4 * turned + 3) {
            bytes[at] ^= (uint8_t)turned;
            is_replica(bytes, replica->length);
            bytes[at] ^= (uint8_t)turned;
        }
    }
    memset(bytes, 0xff, replica->length);
    memcpy(bytes, image->at, image->length);
    expect(is_replica(image->at, image->length) == 0, "an image is a replica");
    expect(is_replica(bytes, replica->length) == 0, "an image is a replica");
    memset(bytes, 0xff, replica->length);
    memset(bytes, 0, 2);
    expect(is_replica(bytes, replica->length) == 0, "noise is a replica");
    free(bytes);
}

static void try_image(const uint8_t *bytes, size_t length) {
    struct lent image = lend_input(bytes, length), replica, scratch, empty;

    if (!try_load(&image, &replica)) {
        try_refused_load(&image);
    } else {
        try_is_replica(&replica, &image);
        save(&replica, length);
        is_short(save(&replica, length - 1));
        totals(&replica, REFILE_COUNTS_BYTES);
        totals(&replica, REFILE_COUNTS_BYTES - 1);
        scratch = fresh();
        pull(&scratch, &replica, 0, REFILE_PULL_BYTES - 1);
        pull(&scratch, &replica, 0, REFILE_PULL_BYTES);
        try_documents(&replica, &scratch);
        pull(&scratch, &replica, 1, REFILE_PULL_BYTES);
        empty = fresh();
        pull(&scratch, &empty, 0, REFILE_PULL_BYTES);
        give_back(&empty);
        give_back(&scratch);
    }
    give_back(&replica);
    give_back(&image);
}

/* The longest path and id, one more of each, and nothing. */
static void try_borders(void) {
    static uint8_t path[WRITTEN_MOST + REFILE_HASH_BYTES], id[REFILE_ID_BYTES + 1];
    struct lent replica = fresh(), nothing = lend_input(id, 0);

    for (size_t i = 0; i < sizeof path; i++) {
        path[i] = (uint8_t)(i / REFILE_HASH_BYTES);
    }
    write_path(&replica, id, sizeof id, UINT32_MAX, path, WRITTEN_MOST, REFILE_LIVE, 1);
    write_path(&replica, id, 0, UINT32_MAX, path, WRITTEN_MOST, REFILE_LIVE, 1);
    write_path(&replica, id, sizeof id - 1, UINT32_MAX, path, sizeof path, REFILE_LIVE, 1);
    write_path(&replica, id, sizeof id - 1, UINT32_MAX, path, 0, REFILE_LIVE, 1);
    write_path(&replica, id, sizeof id - 1, UINT32_MAX, path, WRITTEN_MOST, REFILE_LIVE, 1);
    write_path(&replica, id, 1, 1, path, REFILE_HASH_BYTES, REFILE_LIVE, 1);
    winner(&replica, &nothing, REFILE_LEAF_BYTES, NULL);
    winner(&replica, &nothing, 0, NULL);
    missing(&replica, &nothing, path, 0, 0);
    report(&nothing, REFILE_REPORT_MOST);
    is_short(save(&replica, 0));
    give_back(&nothing);
    give_back(&replica);
}

/* Every prefix of a sound line with values of every kind; each must be refused by 40. */
static void try_prefixes(void) {
    static const char line[] =
        " {\"_id\":\"lot\",\"_rev\":\"2-4c000000000000000000000000000000\",\"x\":[-1.5e+3,true,false,"
        "null,\"\\u00e9\\n\xc3\xa9\xe2\x82\xac\xf0\x9d\x84\x9e\",{\"\":{}}],\"_revisions\" :\t{\"start\":2,"
        "\"ids\":[\"4c000000000000000000000000000000\", \"20000000000000000000000000000000\"]},"
        "\"label\":18446744073709551615}";
    struct lent replica = fresh();

    for (size_t length = 0; length < sizeof line - 1; length++) {
        expect(refile_refusal(take_in(&replica, (const uint8_t *)line, length)) == REFILE_NOT_JSON,
               "a line that is cut off is not refused by 40");
    }
    expect(take_in(&replica, (const uint8_t *)line, sizeof line - 1) == 1, "a sound line is refused");
    give_back(&replica);
}

/* The longest id that a line can have. */
static const char line_id[REFILE_ID_BYTES + 1] = "abcdefghijklmnopqrstuvwxyz ~!#[]";

/* Takes in a line with that id and so many ids, and answers its length, or 0 if it is refused by 2. */
static size_t take_ids(const struct lent *replica, unsigned ids) {
    static char line[256 + (2 * REFILE_HASH_BYTES + 3) * (REFILE_PATH_HASHES + 1)];
    int at = sprintf(line, "{\"_id\":\"%s\",\"_rev\":\"%u-%032x\",\"_revisions\":{\"start\":%u,\"ids\":[",
                     line_id, UINT32_MAX, 0u, UINT32_MAX);
    uint64_t result;

    for (unsigned i = 0; i < ids; i++) {
        at += sprintf(line + at, "%s\"%032x\"", i > 0 ? "," : "", i);
    }
    at += sprintf(line + at, "]},\"label\":18446744073709551615}\n");
    result = take_in(replica, (const uint8_t *)line, (size_t)at);
    if (refile_refusal(result) == REFILE_PATH) {
        return 0;
    }
    expect(result == 1, "the longest line is not taken in");
    return (size_t)at;
}

/* One id too many, and then the longest line that there is, which is put out as it was. */
static void try_longest_line(void) {
    struct lent replica = fresh(), id = lend_input((const uint8_t *)line_id, REFILE_ID_BYTES);

    expect(take_ids(&replica, REFILE_PATH_HASHES + 1) == 0, "one id too many is not refused by 2");
    expect(take_ids(&replica, REFILE_PATH_HASHES) == put_out_size(&replica, &id),
           "the size of the longest line");
    try_lines(&replica, &id);
    give_back(&id);
    give_back(&replica);
}

/* All trials in one round. Answers the digest. */
static uint64_t try_all(enum round round, int images, char **names) {
    static uint8_t bytes[REFILE_IMAGE_MOST + 4096];

    round_now = round;
    digest = 0xcbf29ce484222325u;
    calls = 0;
    try_borders();
    try_prefixes();
    try_longest_line();
    for (int i = 0; i < images; i++) {
        FILE *file = fopen(names[i], "rb");
        size_t length;

        if (file == NULL) {
            perror(names[i]);
            exit(2);
        }
        length = fread(bytes, 1, sizeof bytes, file);
        fclose(file);
        try_image(bytes, length);
    }
    calling = "no call";
    return digest;
}

int main(int argc, char **argv) {
    uint64_t first = 0;
    unsigned first_calls = 0;

    if (argc < 2) {
        fprintf(stderr, "guarded: name images\n");
        return 2;
    }
    signal(SIGSEGV, touched);
    signal(SIGBUS, touched);
    for (int round = 0; round < ROUNDS; round++) {
        uint64_t answers = try_all((enum round)round, argc - 1, argv + 1);

        if (round == 0) {
            first = answers;
            first_calls = calls;
        }
        expect(answers == first && calls == first_calls, "the rounds got different answers");
    }
    printf("guarded: %u calls in each of %u rounds, %u differ\n", calls, (unsigned)ROUNDS, bad);
    return bad == 0 ? 0 : 1;
}
