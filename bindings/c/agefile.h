/* agefile.h: a proved library for the age v1 encrypted file format (C2SP age.md). It works on whole
 * buffers and, in steps, on streams, ranges and damaged files, with any recipients and identities.
 *
 * Apart from the following duties of the caller, the calls check everything on which memory safety
 * depends. The library cannot check these duties, and a violation has undefined behavior:
 *
 *  1. A pointer without a length must not be null. A pointer with a length may be null: if the
 *     length is 0 it stands for no bytes, otherwise the call returns AGEFILE_NULL_POINTER.
 *  2. A pointer must be valid for its length, which must be below 2^63 bytes. A key has 32 bytes; a
 *     file key, a nonce and a salt have 16; a seed has 48.
 *  3. Structs must be aligned as the compiler aligns them, and a bool must be 0 or 1.
 *  4. Whatever a call writes (`out`, `stanzas`, `text`, `file_key`, `chunk`, the structs) must not
 *     overlap another argument. So a whole buffer cannot be encrypted or decrypted in place, but a
 *     chunk of the steps is processed in place.
 *  5. During a call no other thread may read or write what the call writes, or write what it reads.
 *     Nothing else is shared: any number of calls may run at once.
 *  6. At least 32 KiB of stack must be free.
 *  7. A signal handler must not make calls. A forked child may make calls if it may use malloc.
 *  8. malloc, realloc and free must belong to one allocator, and align blocks as C demands.
 *
 * Every call with a report sets all of it, and returns an agefile_code. A call that fails writes
 * nothing else except what its comment says. Lines are counted from 1; chunks, stanzas and bytes
 * from 0.
 *
 * A passphrase is any bytes; an empty one can open files but not make them. A work factor is 1 to
 * 30, usually 18 for a new file. `max_work` is the largest one that is accepted, usually 22.
 *
 * A seed is 48 fresh random bytes (getrandom) for each file: files made with the same seed have the
 * same keys. A caller must not change a payload or a part, nor copy one while it is in use, because
 * a copy would seal another chunk under a nonce that was used.
 *
 * Keys and passphrases remain in freed memory. docs/C.md says what is proved and what is trusted.
 */
#ifndef AGEFILE_H
#define AGEFILE_H
#include <stdbool.h>
#include <stddef.h>
#include <stdint.h>
#ifdef __cplusplus
extern "C" {
#endif

/* Checks by the compiler: the result of a call is used, these parameters are not null, and an array
 * has at least this many elements. */
#ifdef __GNUC__
#define AGEFILE_USED __attribute__((__warn_unused_result__))
#define AGEFILE_CALL(parameters) AGEFILE_USED __attribute__((__nonnull__ parameters))
#else
#define AGEFILE_USED
#define AGEFILE_CALL(parameters)
#endif
#ifdef __cplusplus
#define AGEFILE_LEAST
#else
#define AGEFILE_LEAST static
#endif

#define AGEFILE_TEXT_CHUNK 65536   /* bytes of a full chunk of the plaintext */
#define AGEFILE_SEALED_CHUNK 65552 /* the same with its tag */
#define AGEFILE_FRONT 65552        /* bytes at a file's start that contain its header and nonce */
/* generated: version of the header, one line */
#define AGEFILE_VERSION 0x000700   /* 0.7.0: major, minor and patch, a byte each */
#define AGEFILE_STANZA_ROOM 128    /* bytes for a stanza of agefile_wrap_passphrase or _key */
#define AGEFILE_HEADER_ROOM 256    /* bytes for a header with one such stanza, and its nonce */

/* A code is never reused. 15 and 16 are failed reads and writes, 19 and 20 faults of recipients;
 * no call here returns them. AGEFILE_NULL_POINTER comes before every other code: the
 * call closes a payload or ranges that it was to open, and otherwise writes only the report. */
/* generated: codes */
enum agefile_code {
    AGEFILE_OK = 0,
    AGEFILE_NOT_AGE = 1,
    AGEFILE_BAD_LINE = 2,
    AGEFILE_HEADER_TRUNCATED = 3,
    AGEFILE_HEADER_TOO_LARGE = 4,
    AGEFILE_MIXED_PASSPHRASE = 5,
    AGEFILE_NO_MATCH = 6,
    AGEFILE_WRONG_KEY = 7,
    AGEFILE_MALFORMED = 8,
    AGEFILE_BAD_MAC = 9,
    AGEFILE_NONCE_TRUNCATED = 10,
    AGEFILE_CHUNK_SHORT = 11,
    AGEFILE_EMPTY_FINAL = 12,
    AGEFILE_BAD_CHUNK = 13,
    AGEFILE_TOO_MANY_CHUNKS = 14,
    AGEFILE_READ = 15,
    AGEFILE_WRITE = 16,
    AGEFILE_OUT_OF_MEMORY = 17,
    AGEFILE_NO_RECIPIENTS = 18,
    AGEFILE_REFUSED = 19,
    AGEFILE_INCOMPATIBLE_RECIPIENTS = 20,
    AGEFILE_TOO_SMALL = 21,
    AGEFILE_WORK_FACTOR = 22,
    AGEFILE_OUT_OF_ORDER = 23,
    AGEFILE_NULL_POINTER = 24,
    AGEFILE_BAD_ARGUMENTS = 25,
    AGEFILE_EMPTY_PASSPHRASE = 26
};
/* end of codes */

/* The message of a code; for a fault of a file, what `agep` prints without its numbers and the part
 * of a stanza: report.place has the line or the chunk, agefile_detail the text of the part. */
static inline const char *agefile_message(uint32_t code)
{
    switch (code) {
    /* generated: messages */
    case AGEFILE_OK: return "no fault";
    case AGEFILE_NOT_AGE: return "not an age file";
    case AGEFILE_BAD_LINE: return "bad header line";
    case AGEFILE_HEADER_TRUNCATED: return "header is cut short";
    case AGEFILE_HEADER_TOO_LARGE: return "header is too large";
    case AGEFILE_MIXED_PASSPHRASE: return "a passphrase stanza must stand alone";
    case AGEFILE_NO_MATCH: return "no key fits this file";
    case AGEFILE_WRONG_KEY: return "wrong passphrase or key";
    case AGEFILE_MALFORMED: return "malformed stanza";
    case AGEFILE_BAD_MAC: return "header check failed";
    case AGEFILE_NONCE_TRUNCATED: return "payload nonce is cut short";
    case AGEFILE_CHUNK_SHORT: return "chunk is cut short";
    case AGEFILE_EMPTY_FINAL: return "chunk is empty";
    case AGEFILE_BAD_CHUNK: return "chunk is damaged";
    case AGEFILE_TOO_MANY_CHUNKS: return "too many chunks";
    case AGEFILE_READ: return "read failed";
    case AGEFILE_WRITE: return "write failed";
    case AGEFILE_OUT_OF_MEMORY: return "out of memory";
    case AGEFILE_NO_RECIPIENTS: return "no recipients";
    case AGEFILE_REFUSED: return "recipient refused";
    case AGEFILE_INCOMPATIBLE_RECIPIENTS: return "recipient does not go with recipient 0";
    case AGEFILE_TOO_SMALL: return "buffer is too small";
    case AGEFILE_WORK_FACTOR: return "work factor must be 1 to 30";
    case AGEFILE_OUT_OF_ORDER: return "no such offset, a chunk of another length, or a call out of order";
    case AGEFILE_NULL_POINTER: return "null pointer with a length";
    case AGEFILE_BAD_ARGUMENTS: return "stanza arguments must be visible ASCII, one space apart";
    case AGEFILE_EMPTY_PASSPHRASE: return "passphrase is empty";
    /* end of messages */
    default: return "unknown code";
    }
}

/* The part of a malformed stanza, by report.detail on AGEFILE_MALFORMED: the text of the program
 * `agep`. */
static inline const char *agefile_detail(uint64_t detail)
{
    switch (detail) {
    /* generated: details */
    case 1: return "argument count";
    case 2: return "salt";
    case 3: return "work factor";
    case 4: return "work factor is too high";
    case 5: return "body length";
    /* end of details */
    default: return "other";
    }
}

/* What a call reports in addition to its code. */
typedef struct agefile_report {
    uint64_t len;
    uint64_t place;  /* the line or chunk of a fault, or what the call's comment says, else 0 */
    uint64_t detail; /* on AGEFILE_MALFORMED the part of the stanza, see agefile_detail; or what the
                      * call's comment says, else 0 */
} agefile_report;

/* ---- Sufficient sizes of buffers, UINT64_MAX if they exceed 64 bits: for a file with one stanza
 * of agefile_wrap_key or agefile_wrap_passphrase, and for the plaintext of any file. */
uint64_t agefile_sealed_len(uint64_t plain_len) AGEFILE_USED;
uint64_t agefile_plain_len_at_most(uint64_t file_len) AGEFILE_USED;
/* The length of a file with a header of header_len bytes. */
uint64_t agefile_file_len(uint64_t header_len, uint64_t plain_len) AGEFILE_USED;
/* The version of the library, in the form of AGEFILE_VERSION. */
uint32_t agefile_version(void) AGEFILE_USED;

/* ---- Headers. Reading a header needs no passphrase or key, so its MAC is not verified.
 *
 * Here and below, `front` is any beginning of the file that contains its header and, for the calls
 * that open, its nonce; every such beginning has the same result. AGEFILE_FRONT bytes, or all of a
 * shorter file, always suffice. If the header is not complete, the calls return
 * AGEFILE_HEADER_TRUNCATED: read on, if the file has more. */
typedef struct agefile_summary {
    uint64_t header_len;
    uint64_t stanzas;
    uint8_t mac[32];
} agefile_summary;

typedef struct agefile_stanza_summary {
    uint64_t args;     /* the number of arguments; the first is the type */
    uint64_t args_len; /* their length in bytes, joined by single spaces */
    uint64_t body_len;
} agefile_stanza_summary;

uint32_t agefile_inspect(
    const uint8_t *front, size_t front_len, agefile_summary *summary, agefile_report *report)
    AGEFILE_CALL((3, 4));
/* Lists all stanzas. Writes their sizes, in order, to the start of `stanzas`, and to the start of
 * `text`, for each stanza, its arguments joined by single spaces, then its body. report.len is the
 * length of this text, and report.place the number of stanzas. If either array is too small
 * (AGEFILE_TOO_SMALL), both are unchanged, and the report has the sizes needed. */
uint32_t agefile_stanzas(
    const uint8_t *front, size_t front_len, agefile_stanza_summary *stanzas, size_t stanzas_len,
    uint8_t *text, size_t text_len, agefile_report *report) AGEFILE_CALL((7));

/* ---- From a secret to the file key. On 0 the header's MAC was verified under that file key, and
 * report.len is the length of the header, after which comes the payload's nonce. Otherwise
 * `file_key` is unchanged. */
uint32_t agefile_unlock_passphrase(
    const uint8_t *front, size_t front_len, const uint8_t *pass, size_t pass_len, uint8_t max_work,
    uint8_t file_key[AGEFILE_LEAST 16], agefile_report *report)
    AGEFILE_CALL((6, 7));
uint32_t agefile_unlock_key(
    const uint8_t *front, size_t front_len, const uint8_t key[AGEFILE_LEAST 32],
    uint8_t file_key[AGEFILE_LEAST 16], agefile_report *report)
    AGEFILE_CALL((3, 4, 5));

/* ---- From a file key to the text of a stanza, at the start of `out`. report.len is its length. On
 * AGEFILE_TOO_SMALL it is the length needed, and `out` is unchanged. For several stanzas,
 * concatenate their texts. A salt is 16 fresh random bytes for each stanza. For an empty passphrase
 * the call returns AGEFILE_EMPTY_PASSPHRASE, whatever `work` and `out_len` are. */
uint32_t agefile_wrap_passphrase(
    const uint8_t file_key[AGEFILE_LEAST 16], const uint8_t *pass, size_t pass_len, uint8_t work,
    const uint8_t salt[AGEFILE_LEAST 16], uint8_t *out, size_t out_len, agefile_report *report)
    AGEFILE_CALL((1, 5, 8));
uint32_t agefile_wrap_key(
    const uint8_t file_key[AGEFILE_LEAST 16], const uint8_t key[AGEFILE_LEAST 32],
    const uint8_t salt[AGEFILE_LEAST 16], uint8_t *out, size_t out_len, agefile_report *report)
    AGEFILE_CALL((1, 2, 3, 6));
/* The caller's own stanza. `args` are its type and arguments, joined by single spaces;
 * AGEFILE_BAD_ARGUMENTS if they are not words of the characters `!` to `~`. `body` is its body. */
uint32_t agefile_wrap(
    const uint8_t *args, size_t args_len, const uint8_t *body, size_t body_len, uint8_t *out,
    size_t out_len, agefile_report *report) AGEFILE_CALL((7));

/* ---- The header for a text of stanzas, with its MAC under a file key. report.len is its length,
 * on AGEFILE_TOO_SMALL, too. On another code than 0 `out` is unchanged. Faults of the text:
 * - AGEFILE_NO_RECIPIENTS if the text is empty;
 * - AGEFILE_BAD_LINE if the text does not consist of stanzas; report.place is its first bad line,
 *   which may be the one after its end if a body is missing;
 * - AGEFILE_HEADER_TRUNCATED if its last line is a line of arguments without an LF;
 * - AGEFILE_HEADER_TOO_LARGE if the header would exceed 65,536 bytes;
 * - AGEFILE_MIXED_PASSPHRASE if a scrypt stanza is not alone. */
uint32_t agefile_header(
    const uint8_t *stanzas, size_t stanzas_len, const uint8_t file_key[AGEFILE_LEAST 16],
    uint8_t *out, size_t out_len, agefile_report *report) AGEFILE_CALL((3, 6));

/* ---- A payload, chunk by chunk; the caller holds its state between two calls. A call out of order
 * or with a chunk of another length than stated below returns AGEFILE_OUT_OF_ORDER and changes only
 * the report. On a fault of a chunk report.place is its number. */
enum agefile_state {
    AGEFILE_CLOSED = 0,
    AGEFILE_READING = 1,
    AGEFILE_WRITING = 2,
    AGEFILE_ENDED = 3,
    AGEFILE_FAILED = 4
};

typedef struct agefile_payload {
    uint8_t key[32];
    uint64_t number;  /* of the next chunk */
    uint64_t state;   /* an agefile_state */
    uint32_t damaged; /* for agefile_salvage_next: 1 if a chunk is lost or early, else 0 */
    uint32_t before;  /* for the same: the agefile_saved of the chunk before, or 0 */
    uint64_t held;    /* 0, reserved */
} agefile_payload;

/* Begins a file. Writes its header, as agefile_header does, and its nonce to the start of `out`,
 * and starts the payload for writing. report.len is the length of both. File key and nonce are 16
 * fresh random bytes each, for each file. On another code than 0 `out` is unchanged, and the
 * payload is closed. */
uint32_t agefile_begin(
    const uint8_t *stanzas, size_t stanzas_len, const uint8_t file_key[AGEFILE_LEAST 16],
    const uint8_t nonce[AGEFILE_LEAST 16], uint8_t *out, size_t out_len, agefile_payload *payload,
    agefile_report *report) AGEFILE_CALL((3, 4, 7, 8));
/* Verifies the MAC of the header at the start of `front` under a file key, and starts the payload
 * for reading. report.len is the offset of the first sealed chunk. On another code than 0 the
 * payload is closed. AGEFILE_HEADER_TRUNCATED and AGEFILE_NONCE_TRUNCATED mean that more bytes of
 * the file are needed, if it has more. */
uint32_t agefile_open(
    const uint8_t *front, size_t front_len, const uint8_t file_key[AGEFILE_LEAST 16],
    agefile_payload *payload, agefile_report *report) AGEFILE_CALL((3, 4, 5));
/* Opens the next sealed chunk in place: AGEFILE_SEALED_CHUNK bytes, or what is left if it is the
 * last. On 0 its text is at the start of the chunk, report.len bytes; otherwise the chunk is
 * unchanged. After a fault the payload accepts no further chunk.
 *
 * The plaintext is complete only after a 0 for the last chunk, so make one call with `last` even if
 * no byte is left. A full chunk is the last if no byte follows it: to know that, a caller that
 * reads a stream needs one byte more than the chunk. */
uint32_t agefile_open_next(
    agefile_payload *payload, uint8_t *chunk, size_t chunk_len, bool last, agefile_report *report)
    AGEFILE_CALL((1, 5));
/* Seals the next chunk in place: its text, AGEFILE_TEXT_CHUNK bytes or what is left if it is the
 * last, then 16 bytes of room for the tag. On 0 all chunk_len bytes are the sealed chunk; otherwise
 * they are unchanged. An empty plaintext has one chunk, which is empty; no other chunk may be
 * empty. */
uint32_t agefile_seal_next(
    agefile_payload *payload, uint8_t *chunk, size_t chunk_len, bool last, agefile_report *report)
    AGEFILE_CALL((1, 5));

/* ---- A part of a payload: its next chunks, one or more and none of them the last. One thread can
 * open or seal a part while another has the payload, which continues after the part. */
typedef struct agefile_part {
    uint8_t key[32];
    uint64_t number; /* of the next chunk in the file */
    uint64_t left;   /* the number of chunks left */
    uint64_t state;  /* an agefile_state: AGEFILE_ENDED if none is left */
    uint64_t spare;  /* 0 */
} agefile_part;

/* Takes the next `count` chunks from a payload. On another code than 0, AGEFILE_OUT_OF_ORDER
 * included, the payload is unchanged, and the part is closed. */
uint32_t agefile_take_part(
    agefile_payload *payload, uint64_t count, agefile_part *part, agefile_report *report)
    AGEFILE_CALL((1, 3, 4));
/* Opens or seals the part's next chunk in place, AGEFILE_SEALED_CHUNK bytes, as the calls on a
 * payload do. On a fault report.place is the number of the chunk in the file. A file is complete
 * only if the payload and every part are AGEFILE_ENDED. */
uint32_t agefile_part_open_next(
    agefile_part *part, uint8_t *chunk, size_t chunk_len, agefile_report *report)
    AGEFILE_CALL((1, 4));
uint32_t agefile_part_seal_next(
    agefile_part *part, uint8_t *chunk, size_t chunk_len, agefile_report *report)
    AGEFILE_CALL((1, 4));

/* ---- What is left of a damaged payload: agefile_open, then agefile_salvage_next for each chunk in
 * order, with the lengths and `last` of agefile_open_next. What was saved of a chunk: */
enum agefile_saved {
    AGEFILE_SAVED_CHUNK = 1, /* the text of a chunk that is not marked as the last */
    AGEFILE_SAVED_LAST = 2,  /* the text of the last chunk */
    AGEFILE_SAVED_EARLY = 3, /* the text of a chunk marked as the last that cannot be it */
    AGEFILE_SAVED_ZEROS = 4, /* zeros: the chunk is lost */
    AGEFILE_SAVED_NONE = 5,  /* nothing: at most 16 bytes are left, and they do not open */
    AGEFILE_SAVED_PADDED = 6 /* the text of the last chunk, and up to 4,095 bytes follow it */
};

/* What is known of the plaintext after its last chunk; report.detail is 0 if neither is known: */
enum agefile_verdict {
    AGEFILE_WHOLE = 1, /* complete and genuine: agefile_open_next opens all chunks */
    AGEFILE_CUT = 2    /* cut short: chunks are missing at the end */
};

/* Opens the next sealed chunk in place, whether it is marked as the last or not. On 0 report.len
 * bytes at the start of the chunk are its text, or zeros if it does not open, report.place is an
 * agefile_saved, and the payload continues after the chunk; report.detail is an agefile_verdict if
 * the chunk is the last, else 0. On another code the chunk is unchanged. Each text is genuine. */
uint32_t agefile_salvage_next(
    agefile_payload *payload, uint8_t *chunk, size_t chunk_len, bool last, agefile_report *report)
    AGEFILE_CALL((1, 5));

/* ---- Ranges in steps: open, verify the last sealed chunk, then locate and open the chunks needed.
 * Damage in other chunks is not noticed.
 *
 * If agefile_ranges_open returns 0, report.place and report.len are the offset of the last sealed
 * chunk in the file and its length; otherwise nothing is open. `file_len` must be the true length
 * of the file; AGEFILE_OUT_OF_ORDER if the file ends before its first sealed chunk.
 *
 * As for a payload, a call out of order, or with a chunk of another length, returns
 * AGEFILE_OUT_OF_ORDER. Once the last chunk was verified, threads may share the struct, because
 * agefile_ranges_locate and agefile_ranges_chunk only read it. */
typedef struct agefile_ranges {
    uint8_t key[32];
    uint64_t first;      /* the offset of the first sealed chunk */
    uint64_t sealed_len; /* the length of all sealed chunks */
    uint64_t state;      /* 0 not open, 1 open, 2 the last chunk was verified */
} agefile_ranges;

uint32_t agefile_ranges_open(
    const uint8_t *front, size_t front_len, uint64_t file_len,
    const uint8_t file_key[AGEFILE_LEAST 16], agefile_ranges *ranges, agefile_report *report)
    AGEFILE_CALL((4, 5, 6));
/* Verifies the last sealed chunk, which proves where the file ends. Must come before the calls
 * below. On 0 its text is at the start of the chunk, and report.len is the length of the plaintext.
 * On a fault the chunk is unchanged, and the payload counts as not verified. */
uint32_t agefile_ranges_last(
    agefile_ranges *ranges, uint8_t *chunk, size_t chunk_len, agefile_report *report)
    AGEFILE_CALL((1, 4));
/* Finds the sealed chunk that holds byte `at` of the plaintext. report.place is its offset in the
 * file, report.len its length. AGEFILE_OUT_OF_ORDER if the plaintext has no such byte. */
uint32_t agefile_ranges_locate(
    const agefile_ranges *ranges, uint64_t at, agefile_report *report) AGEFILE_CALL((1, 3));
/* Opens in place the sealed chunk that holds byte `at`. On 0 report.len bytes of the plaintext,
 * from `at` on, are at chunk + report.place; otherwise the chunk is unchanged. */
uint32_t agefile_ranges_chunk(
    const agefile_ranges *ranges, uint64_t at, uint8_t *chunk, size_t chunk_len,
    agefile_report *report) AGEFILE_CALL((1, 5));

/* ---- Whole buffers under a file key. report.len is the number of bytes written to the start of
 * `out`. On AGEFILE_TOO_SMALL it is the number needed, and `out` is unchanged. See above for the
 * stanzas, the file key and the nonce. After a fault of the payload `out` begins with the plaintext
 * of the verified chunks before it: use the output only after AGEFILE_OK. */
uint32_t agefile_decrypt(
    const uint8_t *file, size_t file_len, const uint8_t file_key[AGEFILE_LEAST 16], uint8_t *out,
    size_t out_len, agefile_report *report) AGEFILE_CALL((3, 6));
uint32_t agefile_encrypt(
    const uint8_t *plain, size_t plain_len, const uint8_t *stanzas, size_t stanzas_len,
    const uint8_t file_key[AGEFILE_LEAST 16], const uint8_t nonce[AGEFILE_LEAST 16], uint8_t *out,
    size_t out_len, agefile_report *report) AGEFILE_CALL((5, 6, 9));

/* The result of a call with a null pointer that has a length. */
static inline uint32_t agefile_null_pointer(agefile_report *report)
{
    static const agefile_report none = {0, 0, 0};
    *report = none;
    return AGEFILE_NULL_POINTER;
}

/* ---- Whole buffers with a secret. Each function makes two of the calls above; if the first fails,
 * its code and report are the result. These functions exist only in this header: the library has no
 * such names. The seed is the file key, the nonce and the salt. */
AGEFILE_CALL((8))
static inline uint32_t agefile_decrypt_passphrase(
    const uint8_t *file, size_t file_len, const uint8_t *pass, size_t pass_len, uint8_t max_work,
    uint8_t *out, size_t out_len, agefile_report *report)
{
    uint8_t file_key[16];
    uint32_t code;
    if (out == NULL && out_len > 0)
        return agefile_null_pointer(report);
    code = agefile_unlock_passphrase(file, file_len, pass, pass_len, max_work, file_key, report);
    return code == AGEFILE_OK ? agefile_decrypt(file, file_len, file_key, out, out_len, report)
                              : code;
}

AGEFILE_CALL((3, 6))
static inline uint32_t agefile_decrypt_key(
    const uint8_t *file, size_t file_len, const uint8_t key[AGEFILE_LEAST 32], uint8_t *out,
    size_t out_len, agefile_report *report)
{
    uint8_t file_key[16];
    uint32_t code;
    if (out == NULL && out_len > 0)
        return agefile_null_pointer(report);
    code = agefile_unlock_key(file, file_len, key, file_key, report);
    return code == AGEFILE_OK ? agefile_decrypt(file, file_len, file_key, out, out_len, report)
                              : code;
}

AGEFILE_CALL((6, 9))
static inline uint32_t agefile_encrypt_passphrase(
    const uint8_t *plain, size_t plain_len, const uint8_t *pass, size_t pass_len, uint8_t work,
    const uint8_t seed[AGEFILE_LEAST 48], uint8_t *out, size_t out_len, agefile_report *report)
{
    uint8_t stanza[AGEFILE_STANZA_ROOM];
    uint32_t code;
    if ((plain == NULL && plain_len > 0) || (out == NULL && out_len > 0))
        return agefile_null_pointer(report);
    code = agefile_wrap_passphrase(
        seed, pass, pass_len, work, seed + 32, stanza, sizeof stanza, report);
    return code == AGEFILE_OK
        ? agefile_encrypt(
              plain, plain_len, stanza, report->len, seed, seed + 16, out, out_len, report)
        : code;
}

AGEFILE_CALL((3, 4, 7))
static inline uint32_t agefile_encrypt_key(
    const uint8_t *plain, size_t plain_len, const uint8_t key[AGEFILE_LEAST 32],
    const uint8_t seed[AGEFILE_LEAST 48], uint8_t *out, size_t out_len, agefile_report *report)
{
    uint8_t stanza[AGEFILE_STANZA_ROOM];
    uint32_t code;
    if ((plain == NULL && plain_len > 0) || (out == NULL && out_len > 0))
        return agefile_null_pointer(report);
    code = agefile_wrap_key(seed, key, seed + 32, stanza, sizeof stanza, report);
    return code == AGEFILE_OK
        ? agefile_encrypt(
              plain, plain_len, stanza, report->len, seed, seed + 16, out, out_len, report)
        : code;
}

#undef AGEFILE_CALL
#undef AGEFILE_LEAST
#undef AGEFILE_USED

#ifdef __cplusplus
}
#endif
#endif
