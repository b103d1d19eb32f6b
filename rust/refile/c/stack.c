/* How much stack each call takes at the full room: one history of as many revisions as there is room
 * for, and an image of as many documents. Each call runs on a thread whose stack was painted first; the
 * deepest byte that is no longer paint gives the figure, and that of a call that does nothing is taken
 * off. Fails if a call is refused, if any takes so much that half as much again is more than
 * REFILE_STACK_BYTES, or if a long line takes more than a short one.
 *
 *     stack FULL.image
 */
#include <pthread.h>
#include <stdio.h>
#include <stdlib.h>
#include <string.h>
#include <sys/mman.h>
#include "refile.h"

#if REFILE_PATH_HASHES != REFILE_REVISIONS
#error "one path is not the longest history that there is room for"
#endif

#define STACK (1024u * 1024u)
#define PAINT 0x5c

static uint8_t chain[REFILE_REPLICA_BYTES], full[REFILE_REPLICA_BYTES], target[REFILE_REPLICA_BYTES];
static uint8_t image[REFILE_IMAGE_MOST], out[REFILE_IMAGE_MOST], hashes[REFILE_PATH_HASHES * REFILE_HASH_BYTES];
static uint8_t shorter[REFILE_REPLICA_BYTES];
static uint8_t answer[16], newest[REFILE_HASH_BYTES];
static const uint8_t id[1] = {'a'};
static size_t image_len;

/* An id between quotes with a comma before it, and a line with as many of them as a path may have. */
#define ID_TOKEN (2u * REFILE_HASH_BYTES + 3u)
static char short_line[256], deep_line[256], long_line[256u + ID_TOKEN * REFILE_PATH_HASHES];
static uint64_t result;

static void nothing(void) {}
static void version(void) { result = refile_version(); }
static void fresh(void) { result = refile_fresh(target, sizeof target); }
static void load(void) { result = refile_load(target, sizeof target, image, image_len); }
static void is_replica(void) { result = refile_is_replica(full, sizeof full); }
static void is_chain(void) { result = refile_is_replica(chain, sizeof chain); }
static void save(void) { result = refile_save(full, sizeof full, out, sizeof out); }
static void report(void) { result = refile_report(image, image_len, out, sizeof out); }
static void write_path(void) {
    result = refile_write(target, sizeof target, id, 1, REFILE_PATH_HASHES, hashes, sizeof hashes, REFILE_LIVE, 1);
}
static void take_line(const char *line) {
    result = refile_take_in(target, sizeof target, (const uint8_t *)line, strlen(line));
}
static void take_short(void) { take_line(short_line); }
static void take_deep(void) { take_line(deep_line); }
static void take_long(void) { take_line(long_line); }
static void edit(void) {
    uint8_t hash[REFILE_HASH_BYTES] = {1};
    result = refile_edit(shorter, sizeof shorter, id, 1, hash, sizeof hash, REFILE_LIVE, 1, 1,
                         REFILE_PATH_HASHES - 1, hashes + REFILE_HASH_BYTES, REFILE_HASH_BYTES);
}
static void winner(void) { result = refile_winner(chain, sizeof chain, id, 1, out, sizeof out); }
static void leaves(void) { result = refile_leaves(chain, sizeof chain, id, 1, out, sizeof out); }
static void path(void) {
    result = refile_path(chain, sizeof chain, id, 1, REFILE_PATH_HASHES, newest, sizeof newest, out, sizeof out);
}
static void put_out(void) { result = refile_put_out(chain, sizeof chain, id, 1, out, sizeof out); }
static void put_out_size(void) { result = refile_put_out_size(chain, sizeof chain, id, 1); }
static void missing(void) {
    result = refile_missing(chain, sizeof chain, id, 1, image, REFILE_ASKED_BYTES, out, sizeof out);
}
static void changes(void) {
    result = refile_changes(full, sizeof full, 0, out, sizeof out, answer, sizeof answer);
}
static void pull(void) {
    result = refile_pull(target, sizeof target, chain, sizeof chain, 0, answer, sizeof answer);
}
static void pull_full(void) {
    result = refile_pull(target, sizeof target, full, sizeof full, 0, answer, sizeof answer);
}
static void sequence(void) { result = refile_update_sequence(full, sizeof full); }
static void counts(void) { result = refile_counts(full, sizeof full, answer, sizeof answer); }

static void *run(void *call) {
    (*(void (**)(void))call)();
    return NULL;
}

/* The bytes of stack that a call takes. */
static size_t depth(void (*call)(void)) {
    uint8_t *stack = mmap(NULL, STACK, PROT_READ | PROT_WRITE, MAP_PRIVATE | MAP_ANONYMOUS, -1, 0);
    pthread_attr_t attributes;
    pthread_t thread;
    size_t left = 0;
    if (stack == MAP_FAILED) exit(2);
    memset(stack, PAINT, STACK);
    if (pthread_attr_init(&attributes) != 0 || pthread_attr_setstack(&attributes, stack, STACK) != 0 ||
        pthread_create(&thread, &attributes, run, &call) != 0 || pthread_join(thread, NULL) != 0)
        exit(2);
    while (left < STACK && stack[left] == PAINT) left++;
    munmap(stack, STACK);
    return STACK - left;
}

static const struct {
    const char *name;
    void (*call)(void);
} calls[] = {{"version", version},   {"fresh", fresh},         {"load", load},     {"is_replica full", is_replica},
             {"is_replica path", is_chain}, {"save", save},    {"report", report}, {"write", write_path},
             {"take_in short", take_short}, {"take_in deep", take_deep}, {"take_in long", take_long},
             {"edit", edit},         {"winner", winner},       {"leaves", leaves}, {"path", path},
             {"put_out", put_out},   {"put_out_size", put_out_size},
             {"missing", missing},   {"changes", changes},     {"pull path", pull}, {"pull full", pull_full},
             {"sequence", sequence}, {"counts", counts}};

/* A line with so many ids, and with what comes before and after the value of an unknown member. */
static void make_line(char *line, unsigned ids, const char *opening, const char *closing) {
    int at = sprintf(line, "{\"_id\":\"a\",\"_rev\":\"%u-%032x\",\"x\":%s%s,\"_revisions\":{\"start\":%u,\"ids\":[", ids,
                     0u, opening, closing, ids);
    unsigned i;

    for (i = 0; i < ids; i++) at += sprintf(line + at, "%s\"%032x\"", i > 0 ? "," : "", i);
    sprintf(line + at, "]},\"_deleted\":true}\n");
}

/* The longest path, and two short ones, of which one has an unknown member as deep as a line may be. */
static void make_lines(void) {
    make_line(short_line, 2, "[", "]");
    make_line(deep_line, 2, "[[[[[[[[[[[[[[[", "]]]]]]]]]]]]]]]");
    make_line(long_line, REFILE_PATH_HASHES, "[", "]");
}

/* Whether a long line takes as much as a short one, and no more. */
static int lines_are_alike(void) {
    size_t taken_short, taken_long;

    memset(target, 0, sizeof target);
    taken_short = depth(take_short);
    memset(target, 0, sizeof target);
    taken_long = depth(take_long);
    if (taken_long > taken_short)
        fprintf(stderr, "stack: a long line takes %zu bytes more than a short one\n", taken_long - taken_short);
    return taken_long <= taken_short;
}

static size_t measure(void) {
    size_t bare = depth(nothing), most = 0, i;

    for (i = 0; i < sizeof calls / sizeof *calls; i++) {
        size_t taken;

        memset(target, 0, sizeof target); /* a fresh replica */
        taken = depth(calls[i].call) - bare;
        printf("%-15s %7zu bytes\n", calls[i].name, taken);
        if (refile_refusal(result) != 0) {
            fprintf(stderr, "stack: %s is refused %u\n", calls[i].name, (unsigned)refile_refusal(result));
            exit(2);
        }
        if (taken > most) most = taken;
    }
    return most;
}

int main(int argc, char **argv) {
    FILE *file = argc == 2 ? fopen(argv[1], "rb") : NULL;
    size_t most, i;

    if (file == NULL) {
        fputs("usage: stack FULL.image\n", stderr);
        return 2;
    }
    image_len = fread(image, 1, sizeof image, file);
    fclose(file);
    for (i = 0; i < REFILE_PATH_HASHES; i++) {
        hashes[REFILE_HASH_BYTES * i] = (uint8_t)(i / 256);
        hashes[REFILE_HASH_BYTES * i + 1] = (uint8_t)i;
    }
    memcpy(newest, hashes, sizeof newest);
    if (refile_write(chain, sizeof chain, id, 1, REFILE_PATH_HASHES, hashes, sizeof hashes, REFILE_LIVE, 1) != 1 ||
        refile_write(shorter, sizeof shorter, id, 1, REFILE_PATH_HASHES - 1, hashes + REFILE_HASH_BYTES,
                     sizeof hashes - REFILE_HASH_BYTES, REFILE_LIVE, 1) != 1 ||
        refile_load(full, sizeof full, image, image_len) != 0) {
        fputs("stack: the replicas could not be made\n", stderr);
        return 2;
    }
    make_lines();
    most = measure();
    printf("stack: %zu bytes at most, and half as much again is %zu of REFILE_STACK_BYTES, %u\n", most,
           most + most / 2, REFILE_STACK_BYTES);
    return most + most / 2 > REFILE_STACK_BYTES || !lines_are_alike();
}
