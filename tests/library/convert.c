// Encrypts or decrypts standard input to standard output with one kind of call, for comparisons
// with other programs:
//   convert (whole | steps | ranges) (encrypt | decrypt) (-k | -p) SECRET_FILE [WORK [SEED_FILE]]
//   convert messages
// The status is the call's code or, after another failure, 95 to 99. If the code is not 0, standard
// error gets its message. messages prints each code and its message, each detail and its text.
#include <agefile.h>
#include <stdio.h>
#include <stdlib.h>
#include <string.h>
#include <sys/random.h>

enum { most = 1 << 24, tag = 16 };

static agefile_report report;
static uint8_t input[most], output[most];
static size_t input_len, output_len;
static uint8_t secret[1024], fresh[48];
static size_t secret_len;
static uint8_t factor = 18;
static bool is_keyed;

static size_t front_of(size_t file_len)
{
    return file_len < AGEFILE_FRONT ? file_len : AGEFILE_FRONT;
}

static bool are_zeros(const uint8_t *bytes, size_t len)
{
    while (len > 0 && bytes[len - 1] == 0)
        len--;
    return len == 0;
}

static size_t read_file(const char *name, uint8_t *bytes, size_t room)
{
    FILE *source = fopen(name, "rb");
    if (source == NULL)
        exit(99);
    size_t len = fread(bytes, 1, room, source);
    fclose(source);
    return len;
}

static uint32_t encrypt_whole(void)
{
    uint32_t code = is_keyed ? agefile_encrypt_key(input, input_len, secret, fresh, output, most, &report)
                             : agefile_encrypt_passphrase(input, input_len, secret, secret_len, factor, fresh, output, most, &report);
    output_len = code == AGEFILE_OK ? report.len : 0;
    return code;
}

static uint32_t decrypt_whole(void)
{
    uint32_t code = is_keyed ? agefile_decrypt_key(input, input_len, secret, output, most, &report)
                             : agefile_decrypt_passphrase(input, input_len, secret, secret_len, 22, output, most, &report);
    output_len = report.len;
    return code;
}

static uint32_t unlock(uint8_t file_key[16])
{
    size_t front = front_of(input_len);
    return is_keyed ? agefile_unlock_key(input, front, secret, file_key, &report)
                    : agefile_unlock_passphrase(input, front, secret, secret_len, 22, file_key, &report);
}

static uint32_t encrypt_steps(void)
{
    agefile_payload payload;
    uint8_t stanza[AGEFILE_STANZA_ROOM];
    uint32_t code = is_keyed ? agefile_wrap_key(fresh, secret, fresh + 32, stanza, sizeof stanza, &report)
                             : agefile_wrap_passphrase(fresh, secret, secret_len, factor, fresh + 32, stanza, sizeof stanza, &report);
    if (code == AGEFILE_OK)
        code = agefile_begin(stanza, report.len, fresh, fresh + 16, output, most, &payload, &report);
    output_len = report.len;
    size_t at = 0;
    for (bool last = false; code == AGEFILE_OK && !last;) {
        last = input_len - at <= AGEFILE_TEXT_CHUNK;
        size_t len = last ? input_len - at : AGEFILE_TEXT_CHUNK;
        memcpy(output + output_len, input + at, len);
        code = agefile_seal_next(&payload, output + output_len, len + tag, last, &report);
        output_len += len + tag;
        at += len;
    }
    return code;
}

static uint32_t decrypt_steps(void)
{
    agefile_payload payload;
    uint8_t file_key[16];
    uint32_t code = unlock(file_key);
    if (code == AGEFILE_OK)
        code = agefile_open(input, front_of(input_len), file_key, &payload, &report);
    size_t at = report.len;
    for (bool last = false; code == AGEFILE_OK && !last;) {
        last = input_len - at <= AGEFILE_SEALED_CHUNK;
        size_t len = last ? input_len - at : AGEFILE_SEALED_CHUNK;
        code = agefile_open_next(&payload, input + at, len, last, &report);
        if (code == AGEFILE_OK)
            memcpy(output + output_len, input + at, report.len);
        output_len += report.len;
        at += len;
    }
    return code;
}

static uint32_t decrypt_ranges(void)
{
    static uint8_t chunk[AGEFILE_SEALED_CHUNK];
    agefile_ranges ranges;
    uint8_t file_key[16];
    uint32_t code = unlock(file_key);
    if (code == AGEFILE_OK)
        code = agefile_ranges_open(input, front_of(input_len), input_len, file_key, &ranges, &report);
    if (code != AGEFILE_OK)
        return code;
    memcpy(chunk, input + report.place, report.len);
    code = agefile_ranges_last(&ranges, chunk, report.len, &report);
    uint64_t len = report.len;
    while (code == AGEFILE_OK && output_len < len) {
        code = agefile_ranges_locate(&ranges, output_len, &report);
        memcpy(chunk, input + report.place, report.len);
        if (code == AGEFILE_OK)
            code = agefile_ranges_chunk(&ranges, output_len, chunk, report.len, &report);
        memcpy(output + output_len, chunk + report.place, report.len);
        output_len += report.len;
    }
    return code;
}

int main(int argc, char **argv)
{
    if (argc == 2 && strcmp(argv[1], "messages") == 0) {
        for (uint32_t code = 0; strcmp(agefile_message(code), "unknown code") != 0; code++)
            printf("%u %s\n", (unsigned)code, agefile_message(code));
        for (uint64_t detail = 1; strcmp(agefile_detail(detail), "other") != 0; detail++)
            printf("detail %u %s\n", (unsigned)detail, agefile_detail(detail));
        return strcmp(agefile_message(UINT32_MAX), "unknown code") != 0 || strcmp(agefile_detail(0), "other") != 0 ||
               strcmp(agefile_detail(UINT64_MAX), "other") != 0;
    }
    if (argc < 5)
        return 98;
    is_keyed = strcmp(argv[3], "-k") == 0;
    secret_len = read_file(argv[4], secret, sizeof secret);
    if (argc > 5)
        factor = (uint8_t)atoi(argv[5]);
    if (argc > 6 ? read_file(argv[6], fresh, sizeof fresh) != sizeof fresh : getrandom(fresh, sizeof fresh, 0) != sizeof fresh)
        return 97;
    input_len = fread(input, 1, most, stdin);
    bool is_encrypting = strcmp(argv[2], "encrypt") == 0;
    uint32_t code = strcmp(argv[1], "whole") == 0   ? is_encrypting ? encrypt_whole() : decrypt_whole()
                    : strcmp(argv[1], "steps") == 0 ? is_encrypting ? encrypt_steps() : decrypt_steps()
                                                    : decrypt_ranges();
    // no unverified byte may be left in the caller's buffer
    if (!is_encrypting && output_len < input_len && !are_zeros(output + output_len, input_len - output_len))
        return 95;
    if (fwrite(output, 1, output_len, stdout) != output_len || fflush(stdout) != 0)
        return 96;
    if (code != AGEFILE_OK)
        fprintf(stderr, "%s %llu\n", agefile_message(code), (unsigned long long)report.place);
    return (int)code;
}
