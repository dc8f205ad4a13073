/* The floor: what any program of this job does at the least, and nothing of the job itself. It counts the lines, as it must before it may
 * write, reads every byte of the text once, and writes as many bytes as the report has, block by block. How many that are, nobody can say
 * without the job: REPORT_BYTES in the environment has it, from a run of the rival; without it, 26 for each line. */
#include <emmintrin.h>
#include <stddef.h>
#include <stdint.h>
#include <stdlib.h>
#include <string.h>

#define BLOCK 4096

static size_t line_count(const uint8_t *text, size_t len) {
    const __m128i lf = _mm_set1_epi8('\n'), zero = _mm_setzero_si128();
    __m128i sums = zero;
    size_t i = 0;
    for (; len - i >= 16; i += 16) {
        __m128i found = _mm_sub_epi8(zero, _mm_cmpeq_epi8(_mm_loadu_si128((const __m128i *)(text + i)), lf));
        sums = _mm_add_epi64(sums, _mm_sad_epu8(found, zero));
    }
    size_t n = (size_t)_mm_cvtsi128_si64(_mm_add_epi64(sums, _mm_unpackhi_epi64(sums, sums)));
    for (; i < len; i++) n += text[i] == '\n';
    return n + (len && text[len - 1] != '\n');
}

/* What is written depends on all that was read, so that nothing is left out. */
static uint64_t sum(const uint8_t *p, size_t len, uint64_t n) {
    size_t i = 0;
    for (; len - i >= 8; i += 8) {
        uint64_t v;
        memcpy(&v, p + i, 8);
        n += v;
    }
    for (; i < len; i++) n += p[i];
    return n;
}

uint64_t order_report(const uint8_t *text, size_t text_len, uint8_t *report, size_t report_len) {
    size_t lines = line_count(text, text_len);
    if (report_len / 64 < lines) return UINT64_MAX;
    const char *said = getenv("REPORT_BYTES");
    uint64_t bytes = said ? strtoull(said, 0, 10) : 26 * lines, written = 0, read = 0;
    if (bytes > report_len) bytes = report_len;
    for (size_t at = 0; at < text_len; at += BLOCK) {
        size_t upto = text_len - at < BLOCK ? text_len : at + BLOCK;
        read = sum(text + at, upto - at, read);
        uint64_t share = (uint64_t)((double)bytes * (double)upto / (double)text_len);
        if (upto == text_len) share = bytes;
        for (; share - written >= 16; written += 16) _mm_storeu_si128((__m128i *)(report + written), _mm_set1_epi8((char)read));
        for (; written < share; written++) report[written] = (uint8_t)read;
    }
    return written;
}
