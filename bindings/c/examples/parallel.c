/* Decrypts a file on up to N threads, or encrypts it with -e: parallel [-e] KEY_FILE N IN OUT. The
 * 32 bytes of KEY_FILE are the key. Use OUT only after status 0. cc -O2 -pthread -o parallel
 * parallel.c $(pkg-config --cflags --libs agefile) */
#define _FILE_OFFSET_BITS 64
#define _POSIX_C_SOURCE 200809L
#include <agefile.h>
#include <fcntl.h>
#include <pthread.h>
#include <stdio.h>
#include <stdlib.h>
#include <string.h>
#include <sys/random.h>
#include <sys/stat.h>
#include <unistd.h>
#define MAX_THREADS 64

/* The chunks of one thread: a part of the payload, or the payload itself with the rest. `from` and
 * `to` are the offsets of the next chunk in IN and in OUT; `left` is the number of bytes of IN from
 * `from` on. */
struct work {
    pthread_t thread;
    bool is_sealing, is_part, is_done;
    agefile_part part;
    agefile_payload payload;
    uint64_t from, to, left;
};

static int in, out;
static uint8_t front[AGEFILE_FRONT];

static bool fail(const char *text)
{
    return fprintf(stderr, "parallel: %s\n", text), false;
}

/* Whether a call succeeded. If not, prints the reason on standard error. */
static bool is_ok(uint32_t code, const agefile_report *report)
{
    if (code != AGEFILE_OK)
        fprintf(stderr, "parallel: %s (%llu)\n", agefile_message(code), (unsigned long long)report->place);
    return code == AGEFILE_OK;
}

static bool read_at(uint8_t *bytes, size_t len, uint64_t at)
{
    for (ssize_t n; len > 0; bytes += n, at += n, len -= n)
        if ((n = pread(in, bytes, len, (off_t)at)) <= 0)
            return fail("read failed");
    return true;
}

static bool write_at(const uint8_t *bytes, size_t len, uint64_t at)
{
    for (ssize_t n; len > 0; bytes += n, at += n, len -= n)
        if ((n = pwrite(out, bytes, len, (off_t)at)) <= 0)
            return fail("write failed");
    return true;
}

/* Seals or opens a chunk of `len` bytes of IN, and writes it to OUT. */
static bool convert(struct work *work, uint8_t *chunk, size_t len, bool is_last)
{
    agefile_report report;
    uint32_t code;
    if (work->is_sealing)
        code = work->is_part ? agefile_part_seal_next(&work->part, chunk, len + 16, &report)
                             : agefile_seal_next(&work->payload, chunk, len + 16, is_last, &report);
    else
        code = work->is_part ? agefile_part_open_next(&work->part, chunk, len, &report)
                             : agefile_open_next(&work->payload, chunk, len, is_last, &report);
    if (!is_ok(code, &report) || !write_at(chunk, report.len, work->to))
        return false;
    work->to += report.len;
    return true;
}

static void *run(void *argument)
{
    struct work *work = argument;
    size_t full = work->is_sealing ? AGEFILE_TEXT_CHUNK : AGEFILE_SEALED_CHUNK;
    uint8_t *chunk = malloc(AGEFILE_SEALED_CHUNK);
    bool is_well = chunk != NULL;
    for (bool is_last = false; is_well && !is_last;) {
        size_t len = work->left < full ? work->left : full;
        is_last = work->is_part ? work->part.left == 1 : work->left <= full;
        is_well = read_at(chunk, len, work->from) && convert(work, chunk, len, is_last);
        work->from += len;
        work->left -= len;
    }
    free(chunk);
    work->is_done = is_well && (work->is_part ? work->part.state : work->payload.state) == AGEFILE_ENDED;
    return NULL;
}

/* Makes header and nonce of OUT, all->to bytes in `front`, or opens the payload of IN. */
static bool start(struct work *all, const uint8_t key[32])
{
    uint8_t fresh[48], stanza[AGEFILE_STANZA_ROOM]; /* a file key, a nonce and a salt */
    agefile_report report;
    if (all->is_sealing) {
        if (getrandom(fresh, sizeof fresh, 0) != sizeof fresh ||
            !is_ok(agefile_wrap_key(fresh, key, fresh + 32, stanza, sizeof stanza, &report), &report) ||
            !is_ok(agefile_begin(stanza, report.len, fresh, fresh + 16, front, sizeof front, &all->payload, &report), &report))
            return false;
        all->to = report.len;
        return true;
    }
    size_t len = all->left < sizeof front ? all->left : sizeof front;
    if (!read_at(front, len, 0) || !is_ok(agefile_unlock_key(front, len, key, fresh, &report), &report) ||
        !is_ok(agefile_open(front, len, fresh, &all->payload, &report), &report))
        return false;
    all->from = report.len;
    all->left -= report.len;
    return true;
}

/* Opens OUT, which must be neither IN nor KEY_FILE, and truncates it if it is a regular file. */
static bool open_out(const char *name, const struct stat *source, int key)
{
    struct stat sink, other;
    if ((out = open(name, O_WRONLY | O_CREAT, 0666)) < 0 || fstat(out, &sink) != 0 || fstat(key, &other) != 0)
        return fail("OUT cannot be opened");
    if (sink.st_dev == source->st_dev && sink.st_ino == source->st_ino)
        return fail("OUT is IN");
    if (sink.st_dev == other.st_dev && sink.st_ino == other.st_ino)
        return fail("OUT is KEY_FILE");
    return !S_ISREG(sink.st_mode) || ftruncate(out, 0) == 0 || fail("OUT cannot be emptied");
}

int main(int argc, char **argv)
{
    static struct work works[MAX_THREADS];
    uint8_t key[33];
    struct stat source;
    struct work rest = {.is_sealing = argc == 6 && strcmp(argv[1], "-e") == 0};
    char **words = argv + 1 + rest.is_sealing;
    FILE *file = argc == 5 + rest.is_sealing ? fopen(words[0], "rb") : NULL;
    int count = file == NULL ? 0 : atoi(words[1]);
    if (count < 1 || count > MAX_THREADS || fread(key, 1, sizeof key, file) != 32)
        return fputs("usage: parallel [-e] KEY_FILE N IN OUT\n", stderr), 2;
    if ((in = open(words[2], O_RDONLY)) < 0 || fstat(in, &source) != 0 || !S_ISREG(source.st_mode))
        return fail("IN cannot be read at offsets"), 1;
    rest.left = (uint64_t)source.st_size;
    bool is_well = start(&rest, key) && open_out(words[3], &source, fileno(file)) && write_at(front, rest.to, 0);
    uint64_t full = rest.is_sealing ? AGEFILE_TEXT_CHUNK : AGEFILE_SEALED_CHUNK;
    uint64_t gives = rest.is_sealing ? AGEFILE_SEALED_CHUNK : AGEFILE_TEXT_CHUNK;
    uint64_t share = rest.left / full / (uint64_t)count; /* the last thread also gets the remainder */
    for (int i = 0; i < count; i++) {
        agefile_report report;
        works[i] = rest;
        if ((works[i].is_part = i < count - 1 && share > 0)) {
            is_well = is_well && is_ok(agefile_take_part(&rest.payload, share, &works[i].part, &report), &report);
            rest.from += share * full, rest.to += share * gives, rest.left -= share * full;
        } else
            count = i + 1;
        is_well = is_well && pthread_create(&works[i].thread, NULL, run, &works[i]) == 0;
    }
    for (int i = 0; is_well && i < count; i++)
        is_well = pthread_join(works[i].thread, NULL) == 0 && works[i].is_done;
    if (is_well && pread(in, key, 1, source.st_size) != 0) /* such as a file in /proc, or one that grows */
        is_well = fail("IN is longer than its size");
    return is_well && close(out) == 0 ? 0 : 1;
}
