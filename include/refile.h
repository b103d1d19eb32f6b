/* Refile: the C interface of the replica library. C99 or C++98 is enough.
 *
 * The calls below take numbers and byte slices only, and each slice is a pointer and a length. They
 * share nothing, keep nothing and allocate nothing. All numbers inside buffers are big-endian; the
 * functions refile_number_at and refile_leaf_... below read them.
 *
 * RESULTS. One convention for every call that can be refused. The result is one 64-bit number: of an
 * accepted call the answer, which is below 2^63; of a refused one 2^63, the refusal's number times
 * 2^32, and the place of an image's fault, 0 for every other refusal. Take it apart with
 *
 *     refile_refusal(result)   0 if the call was accepted, else the refusal's number
 *     refile_value(result)     the answer of an accepted call; of a refused image the place of the
 *                              fault; of any other refusal 0
 *     refile_text(number)      a line for a person: what the refusal means and what to do next
 *
 * `if (!result)` and `if (result)` are both wrong: 0 is a common answer (a load that went well, a
 * write that changed nothing), and so is a number above 0. Ask `if (refile_refusal(result) != 0)`.
 * What the value counts differs: refile_winner, refile_save, refile_put_out and refile_report answer
 * bytes, refile_leaves and refile_path answer leaves and hashes.
 *
 * A refused call leaves the replica and every lent buffer with the contents they came with. An
 * accepted call writes its answer at the front of the buffer and leaves the bytes after it.
 * Refusal 14 does not tell the size that is wanted: lend a buffer that always suffices, the macros
 * named ..._MOST and ..._BYTES, and for refile_put_out what refile_put_out_size answers.
 *
 * REPLICAS. A replica is a buffer of REFILE_REPLICA_BYTES bytes that the caller owns and lends to
 * each call. It may be copied byte for byte, and moved, and needs no alignment. Two replicas hold
 * the same, sequences included, exactly if their bytes are equal.
 *
 * A buffer becomes a replica by an accepted refile_fresh or refile_load; a buffer of zeros is exactly
 * a fresh replica. After a refused first load it is still none. A CALL THAT IS LENT OTHER BYTES MAY
 * READ AND WRITE OUTSIDE ITS BUFFERS: then it crashes, or damages whatever lies there, and nothing that
 * it answers means anything. One case is seen and refused, by 106: a buffer whose first two bytes are
 * not both zero. So begins every image, which may be as long as a replica; it comes in by refile_load,
 * never by being read into a replica's buffer. Whoever keeps replicas where others can write, in shared
 * memory or on a disk, copies one out and asks refile_is_replica of the copy before any other call.
 *
 * LENDING. What a call writes, its pointers without const, overlaps no other buffer of that call;
 * what it only reads, its pointers with const, may overlap. So one buffer is never both source and
 * target of a pull. Several threads may read one replica at once, as long as no call writes to it
 * meanwhile. NULL with length 0 is an empty slice, for every slice of every call; NULL with any other
 * length is a mistake that ends as reading through NULL does.
 *
 * A length counts the bytes of the slice and no closing NUL, as strlen does and sizeof of a string
 * does not: an id that is lent with its NUL names another document.
 *
 * STACK. No call takes more than REFILE_STACK_BYTES bytes of stack. A thread's stack must have that
 * and what its own code takes.
 *
 * Equal labels must mean equal bodies on all replicas. Only the caller can see to that: the library
 * sees labels and never a body.
 */
#ifndef REFILE_H
#define REFILE_H

#include <stddef.h>
#include <stdint.h>

#ifdef __cplusplus
extern "C" {
#endif

/* The version of this header. refile_version answers the archive's, in the same form, and
 * refile_belongs whether the two are one. */
#define REFILE_VERSION_MAJOR 0u
#define REFILE_VERSION_MINOR 3u
#define REFILE_VERSION_PATCH 0u
#define REFILE_VERSION \
    (1000000u * REFILE_VERSION_MAJOR + 1000u * REFILE_VERSION_MINOR + REFILE_VERSION_PATCH)

/* The room, from which the sizes below follow. */
#define REFILE_DOCUMENTS 32u    /* documents in a replica */
#define REFILE_REVISIONS 512u   /* revisions in all documents of a replica together */
#define REFILE_PATH_HASHES 512u /* hashes in one path write */

/* Sizes in bytes that no room changes. */
#define REFILE_ID_BYTES 32u      /* the longest document id */
#define REFILE_HASH_BYTES 16u    /* a revision's hash */
#define REFILE_LEAF_BYTES 29u    /* a leaf: number (4), hash (16), kind (1), label (8) */
#define REFILE_ASKED_BYTES 20u   /* an asked revision: number (4), hash (16) */
#define REFILE_CHANGES_BYTES 16u /* what refile_changes writes to answer */
#define REFILE_PULL_BYTES 12u    /* what refile_pull writes to answer */
#define REFILE_COUNTS_BYTES 8u   /* what refile_counts writes to answer */

/* The longest lines of a report: the words, and at most ten digits for each number. */
#define REFILE_HEAD_LINE_MOST (sizeof "seq  documents  revisions \n" - 1u + 3u * 10u)
#define REFILE_DOCUMENT_LINE_MOST \
    (sizeof " seq  winner - leaves  conflicts \n" - 1u + 2u * REFILE_ID_BYTES + 2u * REFILE_HASH_BYTES + 4u * 10u)

/* Sizes in bytes that follow from the room. A buffer of ..._MOST bytes is never refused by 14. */
#define REFILE_IMAGE_MOST (16u + 44u * REFILE_DOCUMENTS + 48u * REFILE_REVISIONS) /* an image */
#define REFILE_REPLICA_BYTES REFILE_IMAGE_MOST                      /* a replica's buffer, exactly */
#define REFILE_LEAVES_MOST (REFILE_LEAF_BYTES * REFILE_REVISIONS)   /* for refile_leaves */
#define REFILE_PATH_MOST (REFILE_HASH_BYTES * REFILE_REVISIONS)     /* for refile_path */
#define REFILE_REPORT_MOST (REFILE_HEAD_LINE_MOST + REFILE_DOCUMENT_LINE_MOST * REFILE_DOCUMENTS) /* for refile_report */

/* The stack that suffices for every call: what a run of each call at the full room was seen to take,
 * and at least half as much again. */
#define REFILE_STACK_BYTES (256u * REFILE_REVISIONS)

/* The kinds of content, as in an image row. */
#define REFILE_LIVE 1u
#define REFILE_DELETED 2u

/* Refusals, each with the condition under which it is given. */
#define REFILE_ID 1u               /* id empty or over 32 bytes */
#define REFILE_PATH 2u             /* path bytes not a multiple of 16, or not 1 to
                                      REFILE_PATH_HASHES hashes */
#define REFILE_NUMBER 3u           /* number smaller than the count of hashes */
#define REFILE_PARENT 4u           /* a revision of the path has a known parent other than the one
                                      the path gives it */
#define REFILE_CONTENT 5u          /* the newest is a known leaf with another content */
#define REFILE_NO_DOCUMENT_ROOM 6u /* document absent and REFILE_DOCUMENTS documents held */
#define REFILE_NO_REVISION_ROOM 7u /* revisions held plus new ones exceed REFILE_REVISIONS */
#define REFILE_NO_SEQUENCE 8u      /* something would be added and the update sequence is
                                      4,294,967,295 */
#define REFILE_EDIT_PARENT 9u      /* edit: a named parent is no leaf of the document; or none is
                                      named, and the content is a deletion or the winner is live */
#define REFILE_EDIT_KNOWN 10u      /* edit: the new number and hash are known in the document */
#define REFILE_EDIT_LAST 11u       /* edit: the parent's number is 4,294,967,295 */
#define REFILE_NO_DOCUMENT 12u     /* read: no such document */
#define REFILE_NO_REVISION 13u     /* read: no such revision in the document */
#define REFILE_SHORT_BUFFER 14u    /* a lent output buffer is shorter than the answer */
#define REFILE_ASKED 15u           /* asked list not a multiple of 20 bytes */

/* Refusals of an image, tried in this order, each over the whole image. Their value is the place of
 * the fault; entries and rows are counted from 0, rows through the whole image. */
#define REFILE_IMAGE_SHORT 20u     /* fewer than 16 bytes; place 0 */
#define REFILE_IMAGE_EDITION 21u   /* edition not 1; place 0 */
#define REFILE_IMAGE_HEAD 22u      /* head: zero field not zero, documents over REFILE_DOCUMENTS,
                                      revisions over REFILE_REVISIONS, total not 16 + 44 * documents +
                                      48 * revisions or not the given length; place 0 */
#define REFILE_IMAGE_CONTENTS 23u  /* a contents entry is at fault, its sequence aside; or the rows
                                      of all entries don't sum to the head's revisions; place: the
                                      first bad entry, else the count of documents */
#define REFILE_IMAGE_SEQUENCE 24u  /* an own sequence is 0 or repeated; or the update sequence isn't
                                      the largest of them, 0 if there are none; place: the first entry
                                      with 0 or repeating an earlier one, else the count of
                                      documents */
#define REFILE_IMAGE_ROW 25u       /* a row is at fault by itself or not above the row before it in
                                      its document: kind, flag, zeros, number 0, parent at number 1,
                                      hash of an unknown parent or label of a row that is not live not
                                      zero; place: the first bad row */
#define REFILE_IMAGE_PARENT 26u    /* a known parent isn't in the document, or the kind doesn't fit
                                      the children; place: the first bad row */

/* Refusals of a line, which is a document as the protocol writes it: tried in this order, before 1 to
 * 8. Putting lines out tries 43 too. */
#define REFILE_NOT_JSON 40u        /* not one UTF-8 JSON object (RFC 8259), or objects and arrays stand
                                      inside each other deeper than 16, the line being 1 */
#define REFILE_BAD_MEMBER 41u      /* a member is absent, repeated or of the wrong form */
#define REFILE_OTHER_REVISIONS 42u /* _rev and _revisions differ, or there are no ids */
#define REFILE_UNWRITABLE_ID 43u   /* the id can't be written: as written it has a byte outside 20 to 7e
                                      hex, a quote or a backslash */

/* House refusals: what this boundary can get and the rules have no number for. They are checked
 * before all others: 100 and then 106 of a replica, of a pull the target's and then the source's; then
 * 101 to 105 in that order. */
#define REFILE_BAD_REPLICA 100u   /* a replica's buffer is not REFILE_REPLICA_BYTES long */
#define REFILE_BAD_KIND 101u      /* a kind of content other than REFILE_LIVE and REFILE_DELETED */
#define REFILE_BAD_LABEL 102u     /* a deletion with a label other than 0 */
#define REFILE_BAD_FLAG 103u      /* a flag other than 0 and 1 */
#define REFILE_BAD_HASH 104u      /* a hash that is not 16 bytes */
#define REFILE_BAD_NO_PARENT 105u /* no parent is named, and a parent number or hash is given */
#define REFILE_IMAGE_LENT 106u    /* a replica's buffer whose first two bytes are not both zero: an
                                     image was read into it, or no call made it */

/* One line for each refusal, for a person: what happened; what to do next. This list is the only
 * place of these texts. */
#define REFILE_TEXTS(X) \
    X(REFILE_ID, "the id is empty or over 32 bytes; give an id of 1 to 32 bytes") \
    X(REFILE_PATH, \
      "the path is not whole hashes of 16 bytes, is empty or is too long; give it anew, newest first") \
    X(REFILE_NUMBER, \
      "the path has more hashes than the number allows; see that number and path belong together") \
    X(REFILE_PARENT, \
      "a revision of the path is known with another parent; compare both histories before you go on") \
    X(REFILE_CONTENT, \
      "the newest revision is known with another content; compare both bodies before you go on") \
    X(REFILE_NO_DOCUMENT_ROOM, \
      "there is no room for another document; keep it where it is and use another replica for it") \
    X(REFILE_NO_REVISION_ROOM, \
      "there is no room for the new revisions; keep them where they are and use another replica") \
    X(REFILE_NO_SEQUENCE, \
      "the update sequence is used up; pull everything into a fresh replica and go on with that one") \
    X(REFILE_EDIT_PARENT, \
      "the edit names no leaf, or no parent where it must; read the leaves again and name the right one") \
    X(REFILE_EDIT_KNOWN, \
      "the edit's number and hash are known already; find out where they came from before you go on") \
    X(REFILE_EDIT_LAST, \
      "the parent has the last number there is; go on with the document under another id") \
    X(REFILE_NO_DOCUMENT, "there is no such document here; see that the id is right to the last byte") \
    X(REFILE_NO_REVISION, \
      "the document has no such revision; see that number and hash are right, or read its leaves") \
    X(REFILE_SHORT_BUFFER, \
      "a lent buffer is shorter than the answer; lend one of the size that always suffices") \
    X(REFILE_ASKED, \
      "the asked list is not whole entries of 20 bytes; give each revision as its number and hash") \
    X(REFILE_IMAGE_SHORT, \
      "the image has fewer than 16 bytes; it is cut off or no image: keep it and take another copy") \
    X(REFILE_IMAGE_EDITION, \
      "the image's edition is not 1; it is damaged or no image: keep it and take another copy") \
    X(REFILE_IMAGE_HEAD, \
      "the image's head is at fault or does not fit the image's length; keep it and take another copy") \
    X(REFILE_IMAGE_CONTENTS, \
      "an entry of the image's contents is at fault or rows don't add up; keep it and take another copy") \
    X(REFILE_IMAGE_SEQUENCE, "the image's sequences are at fault; keep it and take another copy") \
    X(REFILE_IMAGE_ROW, \
      "a row of the image is at fault by itself or out of order; keep it and take another copy") \
    X(REFILE_IMAGE_PARENT, \
      "a row of the image does not fit its parent or its children; keep it and take another copy") \
    X(REFILE_NOT_JSON, \
      "the line is not one JSON object in UTF-8, or is nested deeper than 16; see that it came over whole") \
    X(REFILE_BAD_MEMBER, \
      "a member of the line is absent, repeated or of the wrong form; see in the manual what a line has") \
    X(REFILE_OTHER_REVISIONS, \
      "the line's _rev and _revisions differ, or there are no ids; take the line anew from its source") \
    X(REFILE_UNWRITABLE_ID, \
      "the id can't be written in a line; bring the document over by a pull, or in an image") \
    X(REFILE_BAD_REPLICA, \
      "a replica's buffer does not have a replica's size; lend the whole buffer with its length") \
    X(REFILE_BAD_KIND, "the kind of content is neither 1, live, nor 2, deleted; give one of these") \
    X(REFILE_BAD_LABEL, "a deletion has no label; give 0 as its label") \
    X(REFILE_BAD_FLAG, "a flag is neither 0 nor 1; give 1 where a parent is named and 0 where none is") \
    X(REFILE_BAD_HASH, "a hash does not have 16 bytes; give the whole hash with its length") \
    X(REFILE_BAD_NO_PARENT, \
      "no parent is named, and its number or hash is given; name it, or give 0 and no hash") \
    X(REFILE_IMAGE_LENT, \
      "the buffer does not begin as a replica does; load an image by refile_load, never into the buffer")

/* A result that must be looked at: a call that was refused has done nothing. */
#if defined(__GNUC__)
#define REFILE_MUST_CHECK __attribute__((warn_unused_result))
#elif defined(__cplusplus) && __cplusplus >= 201703L
#define REFILE_MUST_CHECK [[nodiscard]]
#else
#define REFILE_MUST_CHECK
#endif

/* A conversion, without a warning in C and in C++. */
#ifdef __cplusplus
#define REFILE_AS(type, value) static_cast<type>(value)
#else
#define REFILE_AS(type, value) ((type)(value))
#endif

/* Taking a result apart */

static inline uint32_t refile_refusal(uint64_t result) {
    return (result >> 63) != 0 ? REFILE_AS(uint32_t, (result >> 32) & 0x7fffffffu) : 0u;
}

static inline uint64_t refile_value(uint64_t result) {
    return (result >> 63) != 0 ? (result & 0xffffffffu) : result;
}

/* The line for a refusal's number; of 0, and of a number that the list above does not have, a line
 * that says so. */
static inline const char *refile_text(uint32_t number) {
#define REFILE_TEXT_CASE(name, text) \
    case name:                       \
        return text;
    switch (number) {
        REFILE_TEXTS(REFILE_TEXT_CASE)
    case 0u:
        return "accepted";
    default:
        return "a number that this header does not know; see that header and archive belong together";
    }
#undef REFILE_TEXT_CASE
}

/* Reading what the calls write */

/* The n-th number, from 0, of an answer of refile_changes, refile_pull or refile_counts. */
static inline uint32_t refile_number_at(const uint8_t *answer, size_t n) {
    const uint8_t *at = answer + 4u * n;
    return REFILE_AS(uint32_t, at[0]) << 24 | REFILE_AS(uint32_t, at[1]) << 16 |
           REFILE_AS(uint32_t, at[2]) << 8 | REFILE_AS(uint32_t, at[3]);
}

/* The n-th leaf, from 0, of what refile_leaves wrote. What refile_winner wrote is one leaf. */
static inline const uint8_t *refile_leaf_at(const uint8_t *leaves, size_t n) {
    return leaves + REFILE_LEAF_BYTES * n;
}

static inline uint32_t refile_leaf_number(const uint8_t *leaf) { return refile_number_at(leaf, 0u); }

/* REFILE_HASH_BYTES bytes, inside the leaf's own. */
static inline const uint8_t *refile_leaf_hash(const uint8_t *leaf) { return leaf + 4u; }

/* REFILE_LIVE or REFILE_DELETED. */
static inline uint32_t refile_leaf_kind(const uint8_t *leaf) { return leaf[20]; }

/* The label of a live leaf; 0 of any other. */
static inline uint64_t refile_leaf_label(const uint8_t *leaf) {
    return REFILE_AS(uint64_t, refile_number_at(leaf + 21, 0u)) << 32 | refile_number_at(leaf + 21, 1u);
}

/* The calls */

/* Value: the archive's version, as REFILE_VERSION is made. Never refused. */
uint64_t refile_version(void);

/* Makes the buffer a fresh replica: no documents, update sequence 0. Any bytes may be lent, and
 * whatever the buffer held is gone. Value 0. Refusals: 100. */
REFILE_MUST_CHECK
uint64_t refile_fresh(uint8_t *replica, size_t replica_len);

/* Whether the bytes, of any length, are a replica: exactly what some calls left in a buffer.
 * Value: 1 they are, 0 they are not; never refused, so that here a plain 0 is a no. If others can
 * write to the bytes, copy them first and ask of the copy. */
REFILE_MUST_CHECK
uint64_t refile_is_replica(const uint8_t *bytes, size_t bytes_len);

/* Loads an image of any length. Value 0, and the replica is then exactly what the image says. Any
 * bytes may be lent as the replica. Refusals: 100; 20 to 26, with the place as the value. A refused
 * load leaves the former bytes; if they were no replica, they still are none. */
REFILE_MUST_CHECK
uint64_t refile_load(uint8_t *replica, size_t replica_len, const uint8_t *image, size_t image_len);

/* Writes the replica's image. Value: the image's length in bytes. Refusals: 100, 106; 14. Lend
 * REFILE_IMAGE_MOST bytes. */
REFILE_MUST_CHECK
uint64_t refile_save(const uint8_t *replica, size_t replica_len, uint8_t *out, size_t out_len);

/* Path write: an id, the newest revision's number, the hashes newest first (16 bytes each), and the
 * newest one's content: kind REFILE_LIVE with its label, or REFILE_DELETED with label 0. Hashes that
 * come oldest first are taken without a word, as another history of the document; so is an id_len that
 * counts a closing NUL, as another document.
 * Value: 1 changed, 0 unchanged. Refusals: 100, 106, 101, 102; then 1 to 8 in that order. */
REFILE_MUST_CHECK
uint64_t refile_write(uint8_t *replica, size_t replica_len, const uint8_t *id, size_t id_len,
                      uint32_t number, const uint8_t *path, size_t path_len, uint32_t kind,
                      uint64_t label);

/* Takes in one line of a dump, a JSON object, as the path write that it says: members _id, _rev, perhaps
 * _revisions with start and ids, and either label or _deleted; unknown members are passed over. A newline
 * or other space at either end is no fault; an empty line is 40, and so is one with a closing NUL.
 * Value: 1 changed, 0 unchanged. Refusals: 100, 106; 40 to 43 in that order; then 1 to 8 in that order. */
REFILE_MUST_CHECK
uint64_t refile_take_in(uint8_t *replica, size_t replica_len, const uint8_t *line, size_t line_len);

/* Ordinary edit: an id, the new revision's hash (16 bytes), its content as in refile_write, and the
 * parent: named is 1 and parent_number and parent_hash (16 bytes) name it, or named is 0,
 * parent_number is 0 and parent_hash is empty (NULL and 0 will do).
 * Value: the new revision's number. Refusals: 100, 106, 101, 102, 103, 104 (the hash, or a named
 * parent's hash), 105; then 1, 9, 11, 10, 6, 7, 8 in that order. */
REFILE_MUST_CHECK
uint64_t refile_edit(uint8_t *replica, size_t replica_len, const uint8_t *id, size_t id_len,
                     const uint8_t *hash, size_t hash_len, uint32_t kind, uint64_t label,
                     uint32_t named, uint32_t parent_number, const uint8_t *parent_hash,
                     size_t parent_hash_len);

/* Writes the winner as one leaf. Value: the bytes written, REFILE_LEAF_BYTES.
 * Refusals: 100, 106; 1, 12, 14. Lend REFILE_LEAF_BYTES bytes. */
REFILE_MUST_CHECK
uint64_t refile_winner(const uint8_t *replica, size_t replica_len, const uint8_t *id, size_t id_len,
                       uint8_t *out, size_t out_len);

/* Writes the leaves, highest first, REFILE_LEAF_BYTES each. Value: the count of leaves, not of bytes.
 * Refusals: 100, 106; 1, 12, 14. Lend REFILE_LEAVES_MOST bytes. */
REFILE_MUST_CHECK
uint64_t refile_leaves(const uint8_t *replica, size_t replica_len, const uint8_t *id, size_t id_len,
                       uint8_t *out, size_t out_len);

/* Writes the hashes of a known revision's path, itself first, REFILE_HASH_BYTES each.
 * Value: the count of hashes, not of bytes. Refusals: 100, 106, 104; 1, 12, 13, 14. Lend
 * REFILE_PATH_MOST bytes. */
REFILE_MUST_CHECK
uint64_t refile_path(const uint8_t *replica, size_t replica_len, const uint8_t *id, size_t id_len,
                     uint32_t number, const uint8_t *hash, size_t hash_len, uint8_t *out,
                     size_t out_len);

/* Puts the document's leaves out, highest first, a line each as refile_take_in takes it, without spaces
 * and with a newline at its end; no NUL is written. Value: how many bytes were written, not lines.
 * Refusals: 100, 106; 1, 12, 43, 14. Lend as many bytes as refile_put_out_size answers. */
REFILE_MUST_CHECK
uint64_t refile_put_out(const uint8_t *replica, size_t replica_len, const uint8_t *id, size_t id_len,
                        uint8_t *out, size_t out_len);

/* Value: how many bytes refile_put_out would write, which may be some millions: each leaf's line has its
 * whole known path. Refusals: 100, 106; 1, 12, 43. */
REFILE_MUST_CHECK
uint64_t refile_put_out_size(const uint8_t *replica, size_t replica_len, const uint8_t *id,
                             size_t id_len);

/* For each asked revision (20 bytes: number, hash) writes one byte, 0 known, 1 missing.
 * Value: how many bytes were written. Refusals: 100, 106; 1, 15, 14. Lend as many bytes as there are
 * revisions in the list. */
REFILE_MUST_CHECK
uint64_t refile_missing(const uint8_t *replica, size_t replica_len, const uint8_t *id,
                        size_t id_len, const uint8_t *asked, size_t asked_len, uint8_t *out,
                        size_t out_len);

/* The document with the lowest own sequence above `after`: writes its id to out, without a closing
 * NUL, and four numbers to answer: the id's length, that sequence, its leaf count, and 1 if its winner
 * is a deletion, else 0. Value: 1; or 0 for "no more", nothing written. Refusals: 100, 106; 14 (either
 * buffer; never with "no more"). Lend REFILE_ID_BYTES and REFILE_CHANGES_BYTES bytes. */
REFILE_MUST_CHECK
uint64_t refile_changes(const uint8_t *replica, size_t replica_len, uint32_t after, uint8_t *out,
                        size_t out_len, uint8_t *answer, size_t answer_len);

/* Pulls every leaf of the source's documents after a sequence into the target, and writes three
 * numbers to answer: offers that changed the target, offers that changed nothing, offers that were
 * refused. Value 0, also where offers were refused: look at the third number. Above 0 it means that
 * something of the source is not in the target; a pull after a later sequence does not offer it again.
 * The source stays as it was. Refusals: 100, 106 of the target, then of the source; 14, before any
 * offer is made. Lend REFILE_PULL_BYTES bytes. */
REFILE_MUST_CHECK
uint64_t refile_pull(uint8_t *target, size_t target_len, const uint8_t *source, size_t source_len,
                     uint32_t after, uint8_t *answer, size_t answer_len);

/* Value: the update sequence. Refusals: 100, 106. */
REFILE_MUST_CHECK
uint64_t refile_update_sequence(const uint8_t *replica, size_t replica_len);

/* Writes two numbers to answer: documents and revisions held. Value 0. Refusals: 100, 106; 14. Lend
 * REFILE_COUNTS_BYTES bytes. */
REFILE_MUST_CHECK
uint64_t refile_counts(const uint8_t *replica, size_t replica_len, uint8_t *answer,
                       size_t answer_len);

/* Writes what the check program prints for an image of any length: the report of a sound image, or
 * `refused N at P`, which is an accepted call too. Value: the text's length in bytes; no NUL is
 * written. Refusals: 14. Lend REFILE_REPORT_MOST bytes. */
REFILE_MUST_CHECK
uint64_t refile_report(const uint8_t *image, size_t image_len, uint8_t *out, size_t out_len);

/* Whether this header and the linked archive are of one version. If not, make no other call. */
REFILE_MUST_CHECK
static inline int refile_belongs(void) { return refile_version() == REFILE_VERSION; }

/* Empty slices
 *
 * The archive's functions take slices, whose pointer is never null. Each name below stands for a
 * function that gives an empty slice an address, and so takes NULL with length 0, and then calls the
 * archive's function of that name. Only the name is replaced, so that arguments may come in any form
 * and a function's address may be taken. */

static inline const uint8_t *refile_lent(const uint8_t *bytes, size_t length) {
    static const uint8_t nothing = 0;
    return length != 0 ? bytes : &nothing;
}

static inline uint8_t *refile_lent_out(uint8_t *bytes, size_t length) {
    static uint8_t nothing = 0;
    return length != 0 ? bytes : &nothing;
}

REFILE_MUST_CHECK
static inline uint64_t refile_fresh_lent(uint8_t *replica, size_t replica_len) {
    return refile_fresh(refile_lent_out(replica, replica_len), replica_len);
}
#define refile_fresh refile_fresh_lent

REFILE_MUST_CHECK
static inline uint64_t refile_is_replica_lent(const uint8_t *bytes, size_t bytes_len) {
    return refile_is_replica(refile_lent(bytes, bytes_len), bytes_len);
}
#define refile_is_replica refile_is_replica_lent

REFILE_MUST_CHECK
static inline uint64_t refile_load_lent(uint8_t *replica, size_t replica_len, const uint8_t *image,
                                        size_t image_len) {
    return refile_load(refile_lent_out(replica, replica_len), replica_len,
                       refile_lent(image, image_len), image_len);
}
#define refile_load refile_load_lent

REFILE_MUST_CHECK
static inline uint64_t refile_save_lent(const uint8_t *replica, size_t replica_len, uint8_t *out,
                                        size_t out_len) {
    return refile_save(refile_lent(replica, replica_len), replica_len,
                       refile_lent_out(out, out_len), out_len);
}
#define refile_save refile_save_lent

REFILE_MUST_CHECK
static inline uint64_t refile_write_lent(uint8_t *replica, size_t replica_len, const uint8_t *id,
                                         size_t id_len, uint32_t number, const uint8_t *path,
                                         size_t path_len, uint32_t kind, uint64_t label) {
    return refile_write(refile_lent_out(replica, replica_len), replica_len, refile_lent(id, id_len),
                        id_len, number, refile_lent(path, path_len), path_len, kind, label);
}
#define refile_write refile_write_lent

REFILE_MUST_CHECK
static inline uint64_t refile_take_in_lent(uint8_t *replica, size_t replica_len, const uint8_t *line,
                                           size_t line_len) {
    return refile_take_in(refile_lent_out(replica, replica_len), replica_len,
                          refile_lent(line, line_len), line_len);
}
#define refile_take_in refile_take_in_lent

REFILE_MUST_CHECK
static inline uint64_t refile_edit_lent(uint8_t *replica, size_t replica_len, const uint8_t *id,
                                        size_t id_len, const uint8_t *hash, size_t hash_len,
                                        uint32_t kind, uint64_t label, uint32_t named,
                                        uint32_t parent_number, const uint8_t *parent_hash,
                                        size_t parent_hash_len) {
    return refile_edit(refile_lent_out(replica, replica_len), replica_len, refile_lent(id, id_len),
                       id_len, refile_lent(hash, hash_len), hash_len, kind, label, named,
                       parent_number, refile_lent(parent_hash, parent_hash_len), parent_hash_len);
}
#define refile_edit refile_edit_lent

REFILE_MUST_CHECK
static inline uint64_t refile_winner_lent(const uint8_t *replica, size_t replica_len,
                                          const uint8_t *id, size_t id_len, uint8_t *out,
                                          size_t out_len) {
    return refile_winner(refile_lent(replica, replica_len), replica_len, refile_lent(id, id_len),
                         id_len, refile_lent_out(out, out_len), out_len);
}
#define refile_winner refile_winner_lent

REFILE_MUST_CHECK
static inline uint64_t refile_leaves_lent(const uint8_t *replica, size_t replica_len,
                                          const uint8_t *id, size_t id_len, uint8_t *out,
                                          size_t out_len) {
    return refile_leaves(refile_lent(replica, replica_len), replica_len, refile_lent(id, id_len),
                         id_len, refile_lent_out(out, out_len), out_len);
}
#define refile_leaves refile_leaves_lent

REFILE_MUST_CHECK
static inline uint64_t refile_path_lent(const uint8_t *replica, size_t replica_len,
                                        const uint8_t *id, size_t id_len, uint32_t number,
                                        const uint8_t *hash, size_t hash_len, uint8_t *out,
                                        size_t out_len) {
    return refile_path(refile_lent(replica, replica_len), replica_len, refile_lent(id, id_len),
                       id_len, number, refile_lent(hash, hash_len), hash_len,
                       refile_lent_out(out, out_len), out_len);
}
#define refile_path refile_path_lent

REFILE_MUST_CHECK
static inline uint64_t refile_put_out_lent(const uint8_t *replica, size_t replica_len,
                                           const uint8_t *id, size_t id_len, uint8_t *out,
                                           size_t out_len) {
    return refile_put_out(refile_lent(replica, replica_len), replica_len, refile_lent(id, id_len),
                          id_len, refile_lent_out(out, out_len), out_len);
}
#define refile_put_out refile_put_out_lent

REFILE_MUST_CHECK
static inline uint64_t refile_put_out_size_lent(const uint8_t *replica, size_t replica_len,
                                                const uint8_t *id, size_t id_len) {
    return refile_put_out_size(refile_lent(replica, replica_len), replica_len,
                               refile_lent(id, id_len), id_len);
}
#define refile_put_out_size refile_put_out_size_lent

REFILE_MUST_CHECK
static inline uint64_t refile_missing_lent(const uint8_t *replica, size_t replica_len,
                                           const uint8_t *id, size_t id_len, const uint8_t *asked,
                                           size_t asked_len, uint8_t *out, size_t out_len) {
    return refile_missing(refile_lent(replica, replica_len), replica_len, refile_lent(id, id_len),
                          id_len, refile_lent(asked, asked_len), asked_len,
                          refile_lent_out(out, out_len), out_len);
}
#define refile_missing refile_missing_lent

REFILE_MUST_CHECK
static inline uint64_t refile_changes_lent(const uint8_t *replica, size_t replica_len,
                                           uint32_t after, uint8_t *out, size_t out_len,
                                           uint8_t *answer, size_t answer_len) {
    return refile_changes(refile_lent(replica, replica_len), replica_len, after,
                          refile_lent_out(out, out_len), out_len,
                          refile_lent_out(answer, answer_len), answer_len);
}
#define refile_changes refile_changes_lent

REFILE_MUST_CHECK
static inline uint64_t refile_pull_lent(uint8_t *target, size_t target_len, const uint8_t *source,
                                        size_t source_len, uint32_t after, uint8_t *answer,
                                        size_t answer_len) {
    return refile_pull(refile_lent_out(target, target_len), target_len,
                       refile_lent(source, source_len), source_len, after,
                       refile_lent_out(answer, answer_len), answer_len);
}
#define refile_pull refile_pull_lent

REFILE_MUST_CHECK
static inline uint64_t refile_update_sequence_lent(const uint8_t *replica, size_t replica_len) {
    return refile_update_sequence(refile_lent(replica, replica_len), replica_len);
}
#define refile_update_sequence refile_update_sequence_lent

REFILE_MUST_CHECK
static inline uint64_t refile_counts_lent(const uint8_t *replica, size_t replica_len,
                                          uint8_t *answer, size_t answer_len) {
    return refile_counts(refile_lent(replica, replica_len), replica_len,
                         refile_lent_out(answer, answer_len), answer_len);
}
#define refile_counts refile_counts_lent

REFILE_MUST_CHECK
static inline uint64_t refile_report_lent(const uint8_t *image, size_t image_len, uint8_t *out,
                                          size_t out_len) {
    return refile_report(refile_lent(image, image_len), image_len, refile_lent_out(out, out_len),
                         out_len);
}
#define refile_report refile_report_lent

#ifdef __cplusplus
}
#endif

#endif
