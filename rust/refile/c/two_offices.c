/* Two offices that replicate both ways: loads two images, pulls each into the other, saves both, and
 * says what a person should read. The Rust example examples/two_offices.rs does the same.
 *
 * To compile and run it in the folder that holds include and rust, with the archive made:
 *
 *     cc -std=c11 -Wall -Wextra -O2 -Iinclude -o target/two_offices \
 *         rust/refile/c/two_offices.c target/staticlib/librefile.a
 *     target/two_offices                                  (two small offices of its own)
 *     target/two_offices NORTH SOUTH                      (two images)
 *     target/two_offices NORTH SOUTH NEW-NORTH NEW-SOUTH
 *
 * The merged images go to the two new files, if these are named. No file that is already there is
 * ever written to, be it an image that was read or not: both new files are made before either is
 * written, and where one of them can't be, nothing is saved. Exit status: 0 the offices agree, 1 they
 * don't or an image is refused, 2 a file can't be read or written, and standard error says which.
 */
#include <errno.h>
#include <stdbool.h>
#include <stdio.h>
#include <stdlib.h>
#include <string.h>

#include "refile.h"

struct bytes {
    uint8_t at[REFILE_IMAGE_MOST + 1]; /* one more, so that a file that is too long shows */
    size_t length;
};

struct office {
    const char *name;
    uint8_t replica[REFILE_REPLICA_BYTES];
    struct bytes image;
};

static struct office north = {.name = "North"};
static struct office south = {.name = "South"};

/* The value of a call that this program gives no cause to refuse. */
static uint32_t sure(uint64_t result) {
    if (refile_refusal(result) != 0) {
        fprintf(stderr, "two_offices: refused %u: %s\n", (unsigned)refile_refusal(result),
                refile_text(refile_refusal(result)));
        exit(2);
    }
    return (uint32_t)refile_value(result);
}

static void read_image(const char *path, struct bytes *image) {
    FILE *file = fopen(path, "rb");
    if (file == NULL) {
        perror(path);
        exit(2);
    }
    image->length = fread(image->at, 1, sizeof image->at, file);
    if (ferror(file)) {
        perror(path);
        exit(2);
    }
    fclose(file);
}

/* Sees that what was printed has arrived, which it must before anything is saved. */
static void flush_output(const char *then) {
    if (fflush(stdout) != 0 || ferror(stdout)) {
        fprintf(stderr, "two_offices: standard output can't be written: %s.%s\n", strerror(errno), then);
        exit(2);
    }
}

/* Makes a file that was not there before: the x of the mode refuses every other. */
static FILE *make_file(const char *path) {
    FILE *file = fopen(path, "wbx");

    if (file == NULL) {
        fprintf(stderr, "two_offices: %s is there already or can't be made: %s.\n", path,
                strerror(errno));
    }
    return file;
}

/* Takes away a file that this program made and that is not whole. */
static void unmake_file(const char *path) {
    if (remove(path) != 0) {
        fprintf(stderr, "two_offices: %s is not whole, and can't be removed: %s. Don't use it.\n", path,
                strerror(errno));
    }
}

/* Writes the image and closes the file, and answers whether all of it arrived; else no file of that
 * name is left. */
static bool write_image(FILE *file, const char *path, const struct bytes *image) {
    bool written = fwrite(image->at, 1, image->length, file) == image->length;
    int error;

    written = fflush(file) == 0 && written;
    error = errno;
    if (fclose(file) != 0 && written) {
        written = false;
        error = errno;
    }
    if (!written) {
        fprintf(stderr, "two_offices: %s can't be written: %s.\n", path, strerror(error));
        unmake_file(path);
    }
    return written;
}

/* Saves both offices, or ends the program with a word about each file. */
static void save_both(const char *north_path, const char *south_path) {
    FILE *north_file = make_file(north_path);
    FILE *south_file = north_file == NULL ? NULL : make_file(south_path);

    if (south_file == NULL) {
        if (north_file != NULL) {
            fclose(north_file);
            unmake_file(north_path);
        }
        fprintf(stderr, "two_offices: nothing was saved.\n");
        exit(2);
    }
    if (!write_image(north_file, north_path, &north.image)) {
        fclose(south_file);
        unmake_file(south_path);
        fprintf(stderr, "two_offices: nothing was saved.\n");
        exit(2);
    }
    if (!write_image(south_file, south_path, &south.image)) {
        fprintf(stderr, "two_offices: North is saved as %s, and South is not saved.\n", north_path);
        exit(2);
    }
    printf("Saved as %s and %s.\n", north_path, south_path);
}

static void save(struct office *office) {
    office->image.length =
        sure(refile_save(office->replica, sizeof office->replica, office->image.at,
                         sizeof office->image.at));
}

/* Loads an office's image, and answers whether it was accepted. */
static bool load(struct office *office) {
    uint64_t result = refile_load(office->replica, sizeof office->replica, office->image.at,
                                  office->image.length);
    uint8_t counts[REFILE_COUNTS_BYTES];

    if (refile_refusal(result) != 0) {
        printf("%s's image is refused %u at %u. Nothing was pulled.\n", office->name,
               (unsigned)refile_refusal(result), (unsigned)refile_value(result));
        return false;
    }
    sure(refile_counts(office->replica, sizeof office->replica, counts, sizeof counts));
    printf("%s holds %u documents and %u revisions.\n", office->name,
           (unsigned)refile_number_at(counts, 0), (unsigned)refile_number_at(counts, 1));
    return true;
}

static void pull(struct office *target, const struct office *source) {
    uint8_t counts[REFILE_PULL_BYTES];
    uint32_t refused;

    sure(refile_pull(target->replica, sizeof target->replica, source->replica,
                     sizeof source->replica, 0, counts, sizeof counts));
    refused = refile_number_at(counts, 2);
    printf("%s pulled from %s: %u offers changed it, %u changed nothing, %u were refused.\n",
           target->name, source->name, (unsigned)refile_number_at(counts, 0),
           (unsigned)refile_number_at(counts, 1), (unsigned)refused);
    if (refused > 0) {
        printf("  SOMETHING OF %s IS NOT IN %s: a refused offer is counted and not stored.\n",
               source->name, target->name);
    }
}

/* Sets the update sequence and every document's own sequence to 0. */
static void drop_sequences(struct bytes *image) {
    uint32_t documents = (uint32_t)image->at[2] << 8 | image->at[3];

    memset(image->at + 8, 0, 4);
    for (uint32_t i = 0; i < documents; i++) {
        memset(image->at + 16 + 44 * i + 36, 0, 4);
    }
}

static bool agree(void) {
    static struct bytes a, b;

    a = north.image;
    b = south.image;
    drop_sequences(&a);
    drop_sequences(&b);
    return a.length == b.length && memcmp(a.at, b.at, a.length) == 0;
}

static void tell_document(const struct office *office, const uint8_t *id, uint32_t id_len,
                          uint32_t leaves) {
    uint8_t winner[REFILE_LEAF_BYTES];

    sure(refile_winner(office->replica, sizeof office->replica, id, id_len, winner,
                       sizeof winner));
    printf("  ");
    for (uint32_t i = 0; i < id_len; i++) {
        if (' ' <= id[i] && id[i] <= '~') {
            putchar(id[i]);
        } else {
            printf("\\x%02x", id[i]);
        }
    }
    printf(": winner %u-", (unsigned)refile_leaf_number(winner));
    for (uint32_t i = 0; i < REFILE_HASH_BYTES; i++) {
        printf("%02x", refile_leaf_hash(winner)[i]);
    }
    if (refile_leaf_kind(winner) == REFILE_LIVE) {
        printf(", label %llu", (unsigned long long)refile_leaf_label(winner));
    } else {
        printf(", deleted");
    }
    printf(", conflicts %u\n", (unsigned)(leaves - 1));
}

static void tell_documents(const struct office *office) {
    uint8_t id[REFILE_ID_BYTES], change[REFILE_CHANGES_BYTES];
    uint32_t after = 0;

    printf("%s's documents now:\n", office->name);
    while (sure(refile_changes(office->replica, sizeof office->replica, after, id, sizeof id,
                               change, sizeof change)) == 1) {
        tell_document(office, id, refile_number_at(change, 0), refile_number_at(change, 2));
        after = refile_number_at(change, 1);
    }
}

/* A path write of one or two hashes, each given by its first byte; a parent of 0 means none. */
static void give(struct office *office, const char *id, uint32_t number, uint8_t newest,
                 uint8_t parent, uint32_t kind, uint64_t label) {
    uint8_t path[2 * REFILE_HASH_BYTES] = {0};

    path[0] = newest;
    path[REFILE_HASH_BYTES] = parent;
    sure(refile_write(office->replica, sizeof office->replica, (const uint8_t *)id, strlen(id),
                      number, path, parent == 0 ? REFILE_HASH_BYTES : sizeof path, kind, label));
}

/* Two offices that hold the same things in part: a revision whose parent only one of them knows, a
 * bill that both have changed, and a note that one has deleted. */
static void make_small_offices(void) {
    sure(refile_fresh(north.replica, sizeof north.replica));
    sure(refile_fresh(south.replica, sizeof south.replica));

    give(&north, "lot", 3, 0x70, 0x61, REFILE_LIVE, 1);
    give(&south, "lot", 3, 0x70, 0, REFILE_LIVE, 1);
    give(&south, "lot", 2, 0x61, 0, REFILE_LIVE, 2);

    give(&north, "bill", 2, 0x91, 0x20, REFILE_LIVE, 8);
    give(&south, "bill", 2, 0x4c, 0x20, REFILE_LIVE, 9);

    give(&north, "note", 1, 0x33, 0, REFILE_LIVE, 5);
    give(&south, "note", 2, 0x05, 0x33, REFILE_DELETED, 0);

    save(&north);
    save(&south);
}

/* Reads the two images that are named, or makes two. */
static void take_in(int argc, char **argv) {
    if (!refile_belongs()) {
        fprintf(stderr, "two_offices: the header and the archive are of different versions.\n");
        exit(2);
    }
    if (argc != 1 && argc != 3 && argc != 5) {
        fprintf(stderr, "two_offices: name two images, or two images and two new files.\n");
        exit(2);
    }
    if (argc == 5 && strcmp(argv[3], argv[4]) == 0) {
        fprintf(stderr, "two_offices: both new files are named %s: name two. Nothing was done.\n",
                argv[3]);
        exit(2);
    }
    if (argc == 1) {
        make_small_offices();
    } else {
        read_image(argv[1], &north.image);
        read_image(argv[2], &south.image);
    }
}

/* Pulls both ways, tells what came of it, and answers whether the offices agree. */
static bool merge(void) {
    bool same;

    pull(&south, &north);
    pull(&north, &south);
    save(&north);
    save(&south);
    same = agree();
    if (same) {
        printf("The offices agree: same documents, revisions, parents and contents.\n");
    } else {
        printf("THE OFFICES DO NOT AGREE. Keep both former images and look at the refused "
               "offers.\n");
    }
    tell_documents(&north);
    return same;
}

int main(int argc, char **argv) {
    bool same = false;
    bool loaded;

    take_in(argc, argv);
    loaded = load(&north) && load(&south);
    if (loaded) {
        same = merge();
    }
    flush_output(argc == 5 ? " Nothing was saved." : "");
    if (loaded && argc == 5) {
        save_both(argv[3], argv[4]);
        flush_output(" Both offices are saved.");
    }
    return same ? 0 : 1;
}
