/* agefile.c: the functions of agefile.h, as the library exports them. The library contains the
 * proved code once for each level of processor: any x86-64, x86-64-v3 and x86-64-v4. Each function
 * checks for null pointers, as agefile.h says, and calls the build that fits the processor. This
 * file is not proved. */
#include "agefile.h"
#include <cpuid.h>
#include <immintrin.h>

/* The number of the level: 4 or 3 if the processor has all of x86-64-v4 or of x86-64-v3, and the
 * system saves the registers of AVX-512 or AVX; otherwise 1. The attribute is for _xgetbv, which
 * runs only if the processor has it (OSXSAVE). */
__attribute__((target("xsave"))) static int find_level(void)
{
    const unsigned first = bit_SSE3 | bit_SSSE3 | bit_FMA | bit_CMPXCHG16B | bit_SSE4_1 |
                           bit_SSE4_2 | bit_MOVBE | bit_POPCNT | bit_OSXSAVE | bit_AVX | bit_F16C;
    const unsigned seventh = bit_BMI | bit_AVX2 | bit_BMI2, extended = bit_LAHF_LM | bit_LZCNT;
    const unsigned wide = bit_AVX512F | bit_AVX512BW | bit_AVX512CD | bit_AVX512DQ | bit_AVX512VL;
    unsigned a, b, c, d, parts;
    if (!__get_cpuid(1, &a, &b, &c, &d) || (c & first) != first ||
        !__get_cpuid_count(7, 0, &a, &parts, &c, &d) || (parts & seventh) != seventh ||
        !__get_cpuid(0x80000001, &a, &b, &c, &d) || (c & extended) != extended ||
        (_xgetbv(0) & 6) != 6)
        return 1;
    return (parts & wide) == wide && (_xgetbv(0) & 0xe6) == 0xe6 ? 4 : 3;
}

/* The level of the build to call for this many bytes of data: 4 only for 16 KiB or more, because the
 * compiler of that build makes all but the loops for long data slower. The processor is asked once;
 * threads that do so at the same time store the same answer. */
static int level(size_t size)
{
    enum { UNKNOWN, LONG = 16384 };
    static int stored = UNKNOWN;
    int answer = __atomic_load_n(&stored, __ATOMIC_RELAXED);
    if (answer == UNKNOWN) {
        answer = find_level();
        __atomic_store_n(&stored, answer, __ATOMIC_RELAXED);
    }
    return answer == 4 && size < LONG ? 3 : answer;
}

/* Replaces a null pointer with the length 0. It is neither read nor written. */
static const agefile_stanza_summary nothing;

/* Checks a pointer that a length follows, in the body of a function. */
#define CHECK(pointer)                        \
    if (pointer == NULL && pointer##_len > 0) \
        return agefile_null_pointer(report);  \
    if (pointer == NULL)                      \
        pointer = (void *)&nothing;

/* A function, with the size of its data or 0: its checks, and then the call. share/build.sh gives
 * the builds these names. */
#define FUNCTION(result, name, size, parameters, checks, arguments)             \
    __typeof__(agefile_##name) x86_64_agefile_##name, x86_64_v3_agefile_##name, \
        x86_64_v4_agefile_##name;                                               \
    result agefile_##name parameters                                            \
    {                                                                           \
        checks                                                                  \
        const int fits = level(size);                                           \
        return (fits == 4   ? x86_64_v4_agefile_##name                          \
                : fits == 3 ? x86_64_v3_agefile_##name                          \
                            : x86_64_agefile_##name)arguments;                  \
    }

/* Closes a struct that a function will open; it stays closed if a pointer is refused. */
#define CLOSE(opened) *opened = (__typeof__(*opened)){.state = AGEFILE_CLOSED};

#define IN(bytes) const uint8_t *bytes, size_t bytes##_len
#define OUT(bytes) uint8_t *bytes, size_t bytes##_len
#define REPORT agefile_report *report

/* generated: functions */
FUNCTION(uint64_t, sealed_len, 0, (uint64_t plain_len),
         {}, (plain_len))
FUNCTION(uint64_t, plain_len_at_most, 0, (uint64_t file_len),
         {}, (file_len))
FUNCTION(uint64_t, file_len, 0, (uint64_t header_len, uint64_t plain_len),
         {}, (header_len, plain_len))
FUNCTION(uint32_t, version, 0, (void),
         {}, ())
FUNCTION(uint32_t, inspect, 0, (IN(front), agefile_summary *summary, REPORT),
         { CHECK(front) }, (front, front_len, summary, report))
FUNCTION(uint32_t, stanzas, 0, (IN(front), agefile_stanza_summary *stanzas, size_t stanzas_len,
          OUT(text), REPORT),
         { CHECK(front) CHECK(stanzas) CHECK(text) }, (front, front_len, stanzas, stanzas_len, text,
          text_len, report))
FUNCTION(uint32_t, unlock_passphrase, 0, (IN(front), IN(pass), uint8_t max_work,
          uint8_t file_key[16], REPORT),
         { CHECK(front) CHECK(pass) }, (front, front_len, pass, pass_len, max_work, file_key,
          report))
FUNCTION(uint32_t, unlock_key, 0, (IN(front), const uint8_t key[32], uint8_t file_key[16], REPORT),
         { CHECK(front) }, (front, front_len, key, file_key, report))
FUNCTION(uint32_t, wrap_passphrase, 0, (const uint8_t file_key[16], IN(pass), uint8_t work,
          const uint8_t salt[16], OUT(out), REPORT),
         { CHECK(pass) CHECK(out) }, (file_key, pass, pass_len, work, salt, out, out_len, report))
FUNCTION(uint32_t, wrap_key, 0, (const uint8_t file_key[16], const uint8_t key[32],
          const uint8_t salt[16], OUT(out), REPORT),
         { CHECK(out) }, (file_key, key, salt, out, out_len, report))
FUNCTION(uint32_t, wrap, 0, (IN(args), IN(body), OUT(out), REPORT),
         { CHECK(args) CHECK(body) CHECK(out) }, (args, args_len, body, body_len, out, out_len,
          report))
FUNCTION(uint32_t, header, 0, (IN(stanzas), const uint8_t file_key[16], OUT(out), REPORT),
         { CHECK(stanzas) CHECK(out) }, (stanzas, stanzas_len, file_key, out, out_len, report))
FUNCTION(uint32_t, begin, 0, (IN(stanzas), const uint8_t file_key[16], const uint8_t nonce[16],
          OUT(out), agefile_payload *payload, REPORT),
         { CLOSE(payload) CHECK(stanzas) CHECK(out) }, (stanzas, stanzas_len, file_key, nonce, out,
          out_len, payload, report))
FUNCTION(uint32_t, open, 0, (IN(front), const uint8_t file_key[16], agefile_payload *payload,
          REPORT),
         { CLOSE(payload) CHECK(front) }, (front, front_len, file_key, payload, report))
FUNCTION(uint32_t, open_next, chunk_len, (agefile_payload *payload, OUT(chunk), bool last, REPORT),
         { CHECK(chunk) }, (payload, chunk, chunk_len, last, report))
FUNCTION(uint32_t, seal_next, chunk_len, (agefile_payload *payload, OUT(chunk), bool last, REPORT),
         { CHECK(chunk) }, (payload, chunk, chunk_len, last, report))
FUNCTION(uint32_t, take_part, 0, (agefile_payload *payload, uint64_t count, agefile_part *part,
          REPORT),
         {}, (payload, count, part, report))
FUNCTION(uint32_t, part_open_next, chunk_len, (agefile_part *part, OUT(chunk), REPORT),
         { CHECK(chunk) }, (part, chunk, chunk_len, report))
FUNCTION(uint32_t, part_seal_next, chunk_len, (agefile_part *part, OUT(chunk), REPORT),
         { CHECK(chunk) }, (part, chunk, chunk_len, report))
FUNCTION(uint32_t, salvage_next, chunk_len, (agefile_payload *payload, OUT(chunk), bool last,
          REPORT),
         { CHECK(chunk) }, (payload, chunk, chunk_len, last, report))
FUNCTION(uint32_t, ranges_open, 0, (IN(front), uint64_t file_len, const uint8_t file_key[16],
          agefile_ranges *ranges, REPORT),
         { CLOSE(ranges) CHECK(front) }, (front, front_len, file_len, file_key, ranges, report))
FUNCTION(uint32_t, ranges_last, chunk_len, (agefile_ranges *ranges, OUT(chunk), REPORT),
         { CHECK(chunk) }, (ranges, chunk, chunk_len, report))
FUNCTION(uint32_t, ranges_locate, 0, (const agefile_ranges *ranges, uint64_t at, REPORT),
         {}, (ranges, at, report))
FUNCTION(uint32_t, ranges_chunk, chunk_len, (const agefile_ranges *ranges, uint64_t at, OUT(chunk),
          REPORT),
         { CHECK(chunk) }, (ranges, at, chunk, chunk_len, report))
FUNCTION(uint32_t, decrypt, file_len, (IN(file), const uint8_t file_key[16], OUT(out), REPORT),
         { CHECK(file) CHECK(out) }, (file, file_len, file_key, out, out_len, report))
FUNCTION(uint32_t, encrypt, plain_len, (IN(plain), IN(stanzas), const uint8_t file_key[16],
          const uint8_t nonce[16], OUT(out), REPORT),
         { CHECK(plain) CHECK(stanzas) CHECK(out) }, (plain, plain_len, stanzas, stanzas_len,
          file_key, nonce, out, out_len, report))
/* end of functions */
