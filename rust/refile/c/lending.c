/* What the header lends to the archive. This program is linked without the archive and has functions of
 * the archive's names itself, which look at what they are given: everything that is not empty comes as
 * the caller gave it and in that order, and NULL with length 0 comes as an address. An archive of another
 * version is seen. To compile and run it at the top of the repository:
 *
 *     cc -std=c99 -Wall -Wextra -O2 -Iinclude -o target/lending rust/refile/c/lending.c
 *     target/lending
 *
 * Exit status: 0 all as expected, 1 something differs.
 */
#include <stdbool.h>
#include <stdio.h>

#include "refile.h"

static uint8_t at[16];
static uint64_t given;       /* how much the call was given so far */
static unsigned slices;      /* how many slices were among it */
static bool in_order, nulls; /* the n-th was n, or the n-th byte's address; an address was null */
static uint64_t version = REFILE_VERSION; /* the archive's */
static unsigned tried, bad;

static void begin(void) {
    given = 0;
    slices = 0;
    in_order = true;
    nulls = false;
}

static void expect(bool holds, const char *what) {
    tried++;
    if (!holds) {
        bad++;
        printf("lending: %s\n", what);
    }
    begin();
}

/* A call that was given 1, 2, 3 and so on, with the address of a byte for a slice's pointer. */
static void straight(uint64_t result, uint64_t count) {
    expect(result == 0 && in_order && given == count, "something comes otherwise than it was given");
}

/* A call whose slices were all NULL with length 0. */
static void empty(uint64_t result, unsigned count) {
    expect(result == 0 && !nulls && slices == count, "an empty slice comes with a null pointer");
}

static void take(uint64_t value) { in_order = value == ++given && in_order; }

static void take_slice(const uint8_t *bytes) {
    slices++;
    nulls = bytes == NULL || nulls;
    in_order = bytes == at + ++given && in_order;
}

static void try_straight(void) {
    straight(refile_fresh(at + 1, 2), 2);
    straight(refile_is_replica(at + 1, 2), 2);
    straight(refile_load(at + 1, 2, at + 3, 4), 4);
    straight(refile_save(at + 1, 2, at + 3, 4), 4);
    straight(refile_write(at + 1, 2, at + 3, 4, 5, at + 6, 7, 8, 9), 9);
    straight(refile_take_in(at + 1, 2, at + 3, 4), 4);
    straight(refile_edit(at + 1, 2, at + 3, 4, at + 5, 6, 7, 8, 9, 10, at + 11, 12), 12);
    straight(refile_winner(at + 1, 2, at + 3, 4, at + 5, 6), 6);
    straight(refile_leaves(at + 1, 2, at + 3, 4, at + 5, 6), 6);
    straight(refile_path(at + 1, 2, at + 3, 4, 5, at + 6, 7, at + 8, 9), 9);
    straight(refile_put_out(at + 1, 2, at + 3, 4, at + 5, 6), 6);
    straight(refile_put_out_size(at + 1, 2, at + 3, 4), 4);
    straight(refile_missing(at + 1, 2, at + 3, 4, at + 5, 6, at + 7, 8), 8);
    straight(refile_changes(at + 1, 2, 3, at + 4, 5, at + 6, 7), 7);
    straight(refile_pull(at + 1, 2, at + 3, 4, 5, at + 6, 7), 7);
    straight(refile_update_sequence(at + 1, 2), 2);
    straight(refile_counts(at + 1, 2, at + 3, 4), 4);
    straight(refile_report(at + 1, 2, at + 3, 4), 4);
}

static void try_empty(void) {
    empty(refile_fresh(NULL, 0), 1);
    empty(refile_is_replica(NULL, 0), 1);
    empty(refile_load(NULL, 0, NULL, 0), 2);
    empty(refile_save(NULL, 0, NULL, 0), 2);
    empty(refile_write(NULL, 0, NULL, 0, 0, NULL, 0, 0, 0), 3);
    empty(refile_take_in(NULL, 0, NULL, 0), 2);
    empty(refile_edit(NULL, 0, NULL, 0, NULL, 0, 0, 0, 0, 0, NULL, 0), 4);
    empty(refile_winner(NULL, 0, NULL, 0, NULL, 0), 3);
    empty(refile_leaves(NULL, 0, NULL, 0, NULL, 0), 3);
    empty(refile_path(NULL, 0, NULL, 0, 0, NULL, 0, NULL, 0), 4);
    empty(refile_put_out(NULL, 0, NULL, 0, NULL, 0), 3);
    empty(refile_put_out_size(NULL, 0, NULL, 0), 2);
    empty(refile_missing(NULL, 0, NULL, 0, NULL, 0, NULL, 0), 4);
    empty(refile_changes(NULL, 0, 0, NULL, 0, NULL, 0), 3);
    empty(refile_pull(NULL, 0, NULL, 0, 0, NULL, 0), 3);
    empty(refile_update_sequence(NULL, 0), 1);
    empty(refile_counts(NULL, 0, NULL, 0), 2);
    empty(refile_report(NULL, 0, NULL, 0), 2);
}

static void try_versions(void) {
    expect(refile_belongs() == 1, "the archive of this version does not belong");
    version = REFILE_VERSION + 1;
    expect(refile_belongs() == 0, "an archive of a later version belongs");
    version = REFILE_VERSION + (REFILE_AS(uint64_t, 1) << 32);
    expect(refile_belongs() == 0, "an archive of a version that is no version belongs");
}

int main(void) {
    begin();
    try_straight();
    try_empty();
    try_versions();
    printf("lending: %u tried, %u differ\n", tried, bad);
    return bad == 0 ? 0 : 1;
}

/* In place of the archive */

#undef refile_fresh
#undef refile_is_replica
#undef refile_load
#undef refile_save
#undef refile_write
#undef refile_take_in
#undef refile_edit
#undef refile_winner
#undef refile_leaves
#undef refile_path
#undef refile_put_out
#undef refile_put_out_size
#undef refile_missing
#undef refile_changes
#undef refile_pull
#undef refile_update_sequence
#undef refile_counts
#undef refile_report

uint64_t refile_version(void) { return version; }

uint64_t refile_fresh(uint8_t *replica, size_t replica_len) {
    take_slice(replica); take(replica_len); return 0;
}

uint64_t refile_is_replica(const uint8_t *bytes, size_t bytes_len) {
    take_slice(bytes); take(bytes_len); return 0;
}

uint64_t refile_load(uint8_t *replica, size_t replica_len, const uint8_t *image, size_t image_len) {
    take_slice(replica); take(replica_len); take_slice(image); take(image_len); return 0;
}

uint64_t refile_save(const uint8_t *replica, size_t replica_len, uint8_t *out, size_t out_len) {
    take_slice(replica); take(replica_len); take_slice(out); take(out_len); return 0;
}

uint64_t refile_write(uint8_t *replica, size_t replica_len, const uint8_t *id, size_t id_len,
                      uint32_t number, const uint8_t *path, size_t path_len, uint32_t kind,
                      uint64_t label) {
    take_slice(replica); take(replica_len); take_slice(id); take(id_len); take(number);
    take_slice(path); take(path_len); take(kind); take(label); return 0;
}

uint64_t refile_take_in(uint8_t *replica, size_t replica_len, const uint8_t *line, size_t line_len) {
    take_slice(replica); take(replica_len); take_slice(line); take(line_len); return 0;
}

uint64_t refile_edit(uint8_t *replica, size_t replica_len, const uint8_t *id, size_t id_len,
                     const uint8_t *hash, size_t hash_len, uint32_t kind, uint64_t label,
                     uint32_t named, uint32_t parent_number, const uint8_t *parent_hash,
                     size_t parent_hash_len) {
    take_slice(replica); take(replica_len); take_slice(id); take(id_len); take_slice(hash);
    take(hash_len); take(kind); take(label); take(named); take(parent_number);
    take_slice(parent_hash); take(parent_hash_len); return 0;
}

uint64_t refile_winner(const uint8_t *replica, size_t replica_len, const uint8_t *id, size_t id_len,
                       uint8_t *out, size_t out_len) {
    take_slice(replica); take(replica_len); take_slice(id); take(id_len); take_slice(out);
    take(out_len); return 0;
}

uint64_t refile_leaves(const uint8_t *replica, size_t replica_len, const uint8_t *id, size_t id_len,
                       uint8_t *out, size_t out_len) {
    take_slice(replica); take(replica_len); take_slice(id); take(id_len); take_slice(out);
    take(out_len); return 0;
}

uint64_t refile_path(const uint8_t *replica, size_t replica_len, const uint8_t *id, size_t id_len,
                     uint32_t number, const uint8_t *hash, size_t hash_len, uint8_t *out,
                     size_t out_len) {
    take_slice(replica); take(replica_len); take_slice(id); take(id_len); take(number);
    take_slice(hash); take(hash_len); take_slice(out); take(out_len); return 0;
}

uint64_t refile_put_out(const uint8_t *replica, size_t replica_len, const uint8_t *id, size_t id_len,
                        uint8_t *out, size_t out_len) {
    take_slice(replica); take(replica_len); take_slice(id); take(id_len); take_slice(out);
    take(out_len); return 0;
}

uint64_t refile_put_out_size(const uint8_t *replica, size_t replica_len, const uint8_t *id,
                             size_t id_len) {
    take_slice(replica); take(replica_len); take_slice(id); take(id_len); return 0;
}

uint64_t refile_missing(const uint8_t *replica, size_t replica_len, const uint8_t *id,
                        size_t id_len, const uint8_t *asked, size_t asked_len, uint8_t *out,
                        size_t out_len) {
    take_slice(replica); take(replica_len); take_slice(id); take(id_len); take_slice(asked);
    take(asked_len); take_slice(out); take(out_len); return 0;
}

uint64_t refile_changes(const uint8_t *replica, size_t replica_len, uint32_t after, uint8_t *out,
                        size_t out_len, uint8_t *answer, size_t answer_len) {
    take_slice(replica); take(replica_len); take(after); take_slice(out); take(out_len);
    take_slice(answer); take(answer_len); return 0;
}

uint64_t refile_pull(uint8_t *target, size_t target_len, const uint8_t *source, size_t source_len,
                     uint32_t after, uint8_t *answer, size_t answer_len) {
    take_slice(target); take(target_len); take_slice(source); take(source_len); take(after);
    take_slice(answer); take(answer_len); return 0;
}

uint64_t refile_update_sequence(const uint8_t *replica, size_t replica_len) {
    take_slice(replica); take(replica_len); return 0;
}

uint64_t refile_counts(const uint8_t *replica, size_t replica_len, uint8_t *answer,
                       size_t answer_len) {
    take_slice(replica); take(replica_len); take_slice(answer); take(answer_len); return 0;
}

uint64_t refile_report(const uint8_t *image, size_t image_len, uint8_t *out, size_t out_len) {
    take_slice(image); take(image_len); take_slice(out); take(out_len); return 0;
}
