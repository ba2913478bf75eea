/* Decrypts standard input to standard output, or encrypts it with -e, in constant memory:
 * stream [-e] KEY_FILE, whose 32 bytes are the key. Use the output only after status 0.
 * cc -O2 -o stream stream.c $(pkg-config --cflags --libs agefile) */
#define _POSIX_C_SOURCE 200809L
#include <agefile.h>
#include <stdio.h>
#include <string.h>
#include <sys/random.h>

static uint8_t buf[AGEFILE_SEALED_CHUNK + 1]; /* a sealed chunk, and the byte after it, unless it is the last */

/* Whether a call succeeded. If not, prints the reason on standard error. */
static bool is_ok(uint32_t code, const agefile_report *report)
{
    if (code != AGEFILE_OK)
        fprintf(stderr, "stream: %s (%llu)\n", agefile_message(code), (unsigned long long)report->place);
    return code == AGEFILE_OK;
}

/* Fills `buf` after its first `have` bytes, up to `most` or the end of the input, and increases
 * `have`. False if a read failed: the chunk must then not be sealed as the last one, because that
 * would make a complete file of a part of the input. */
static bool fill(size_t *have, size_t most)
{
    *have += fread(buf + *have, 1, most - *have, stdin);
    if (*have < most && ferror(stdin))
        return fputs("stream: read failed\n", stderr), false;
    return true;
}

static bool put(const uint8_t *bytes, size_t len)
{
    return fwrite(bytes, 1, len, stdout) == len;
}

/* Whether more of the file is needed. */
static bool wants_more(uint32_t code)
{
    return code == AGEFILE_HEADER_TRUNCATED || code == AGEFILE_NONCE_TRUNCATED;
}

/* Opens the payload with the first 256 bytes of the file, or more if needed, so that a wrong key is
 * reported before a pipe ends. Afterwards `buf` has the bytes read after the nonce. */
static bool open_payload(const uint8_t key[32], agefile_payload *payload, size_t *have)
{
    agefile_report report;
    uint8_t file_key[16];
    uint32_t code = AGEFILE_HEADER_TRUNCATED;
    for (size_t most = 256; wants_more(code); most = most < AGEFILE_FRONT / 2 ? 2 * most : AGEFILE_FRONT) {
        size_t before = *have;
        if (!fill(have, most))
            return false;
        code = agefile_unlock_key(buf, *have, key, file_key, &report);
        if (code == AGEFILE_OK)
            code = agefile_open(buf, *have, file_key, payload, &report);
        if (*have == before)
            break;
    }
    if (!is_ok(code, &report))
        return false;
    *have -= report.len;
    memmove(buf, buf + report.len, *have);
    return true;
}

static bool decrypt(const uint8_t key[32])
{
    agefile_payload payload;
    agefile_report report;
    size_t have = 0;
    if (!open_payload(key, &payload, &have))
        return false;
    for (bool last = false; !last; have = 1) {
        if (!fill(&have, sizeof buf))
            return false;
        last = have < sizeof buf;
        if (!is_ok(agefile_open_next(&payload, buf, last ? have : AGEFILE_SEALED_CHUNK, last, &report), &report) || !put(buf, report.len))
            return false;
        buf[0] = buf[AGEFILE_SEALED_CHUNK];
    }
    return true;
}

static bool encrypt(const uint8_t key[32])
{
    agefile_payload payload;
    agefile_report report;
    uint8_t fresh[48], stanza[AGEFILE_STANZA_ROOM]; /* a file key, a nonce and a salt */
    if (getrandom(fresh, sizeof fresh, 0) != sizeof fresh ||
        !is_ok(agefile_wrap_key(fresh, key, fresh + 32, stanza, sizeof stanza, &report), &report) ||
        !is_ok(agefile_begin(stanza, report.len, fresh, fresh + 16, buf, sizeof buf, &payload, &report), &report) || !put(buf, report.len))
        return false;
    size_t have = 0;
    for (bool last = false; !last; have = 1) {
        if (!fill(&have, AGEFILE_TEXT_CHUNK + 1))
            return false;
        last = have <= AGEFILE_TEXT_CHUNK;
        size_t len = last ? have : AGEFILE_TEXT_CHUNK;
        uint8_t ahead = buf[AGEFILE_TEXT_CHUNK]; /* the tag goes there */
        if (!is_ok(agefile_seal_next(&payload, buf, len + 16, last, &report), &report) || !put(buf, len + 16))
            return false;
        buf[0] = ahead;
    }
    return true;
}

int main(int argc, char **argv)
{
    uint8_t key[33];
    bool is_encrypting = argc == 3 && strcmp(argv[1], "-e") == 0;
    FILE *file = argc == 2 + is_encrypting ? fopen(argv[1 + is_encrypting], "rb") : NULL;
    if (file == NULL || fileno(file) == 0 || fread(key, 1, sizeof key, file) != 32) /* 0: standard input was closed */
        return fputs("usage: stream [-e] KEY_FILE\n", stderr), 2;
    bool is_done = is_encrypting ? encrypt(key) : decrypt(key);
    return is_done && fflush(stdout) == 0 ? 0 : 1;
}
