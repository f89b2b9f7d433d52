/* The least honest work on a request or a line: members are found without a parser, the payload is decoded, the
 * partition key is hashed by MD5, and the record is stored. What the programs of this folder share. */
#ifndef LEAST_H
#define LEAST_H
#pragma GCC diagnostic ignored "-Wunused-function"
#define _GNU_SOURCE
#include <stdint.h>
#include <stdio.h>
#include <stdlib.h>
#include <string.h>
#include <tmmintrin.h>

typedef unsigned __int128 u128;

struct text {
    const char *at;
    size_t len;
};

/* The functions that bench/ceiling counts are functions of their own there. */
#ifdef APART
#define PART __attribute__((noinline))
#else
#define PART
#endif

/* ---- MD5 (RFC 1321) */

static const uint32_t md5_sines[64] = {
    0xd76aa478, 0xe8c7b756, 0x242070db, 0xc1bdceee, 0xf57c0faf, 0x4787c62a, 0xa8304613, 0xfd469501, 0x698098d8,
    0x8b44f7af, 0xffff5bb1, 0x895cd7be, 0x6b901122, 0xfd987193, 0xa679438e, 0x49b40821, 0xf61e2562, 0xc040b340,
    0x265e5a51, 0xe9b6c7aa, 0xd62f105d, 0x02441453, 0xd8a1e681, 0xe7d3fbc8, 0x21e1cde6, 0xc33707d6, 0xf4d50d87,
    0x455a14ed, 0xa9e3e905, 0xfcefa3f8, 0x676f02d9, 0x8d2a4c8a, 0xfffa3942, 0x8771f681, 0x6d9d6122, 0xfde5380c,
    0xa4beea44, 0x4bdecfa9, 0xf6bb4b60, 0xbebfbc70, 0x289b7ec6, 0xeaa127fa, 0xd4ef3085, 0x04881d05, 0xd9d4d039,
    0xe6db99e5, 0x1fa27cf8, 0xc4ac5665, 0xf4292244, 0x432aff97, 0xab9423a7, 0xfc93a039, 0x655b59c3, 0x8f0ccc92,
    0xffeff47d, 0x85845dd1, 0x6fa87e4f, 0xfe2ce6e0, 0xa3014314, 0x4e0811a1, 0xf7537e82, 0xbd3af235, 0x2ad7d2bb,
    0xeb86d391};

/* A round of 16 steps, written out: the places of the sines, of the words and the turns are constants then. */
#define MD5_STEP(a, b, c, d, mix, i, from, turn) \
    a += (mix) + md5_sines[i] + word[(from) & 15]; \
    a = b + ((a << (turn)) | (a >> (32 - (turn))));
#define MD5_FOUR(MIX, i, from, by, t0, t1, t2, t3) \
    MD5_STEP(a, b, c, d, MIX(b, c, d), i, from, t0) \
    MD5_STEP(d, a, b, c, MIX(a, b, c), i + 1, from + by, t1) \
    MD5_STEP(c, d, a, b, MIX(d, a, b), i + 2, from + 2 * by, t2) \
    MD5_STEP(b, c, d, a, MIX(c, d, a), i + 3, from + 3 * by, t3)
#define MD5_ROUND(MIX, i, from, by, t0, t1, t2, t3) \
    MD5_FOUR(MIX, i, from, by, t0, t1, t2, t3) \
    MD5_FOUR(MIX, i + 4, from + 4 * by, by, t0, t1, t2, t3) \
    MD5_FOUR(MIX, i + 8, from + 8 * by, by, t0, t1, t2, t3) \
    MD5_FOUR(MIX, i + 12, from + 12 * by, by, t0, t1, t2, t3)
#define MD5_F(b, c, d) (d ^ (b & (c ^ d)))
#define MD5_G(b, c, d) (c ^ (d & (b ^ c)))
#define MD5_H(b, c, d) (b ^ c ^ d)
#define MD5_I(b, c, d) (c ^ (b | ~d))

static void md5_block(uint32_t state[4], const unsigned char *block) {
    uint32_t word[16], a = state[0], b = state[1], c = state[2], d = state[3];
    memcpy(word, block, 64);
    MD5_ROUND(MD5_F, 0, 0, 1, 7, 12, 17, 22)
    MD5_ROUND(MD5_G, 16, 1, 5, 5, 9, 14, 20)
    MD5_ROUND(MD5_H, 32, 5, 3, 4, 11, 16, 23)
    MD5_ROUND(MD5_I, 48, 0, 7, 6, 10, 15, 21)
    state[0] += a;
    state[1] += b;
    state[2] += c;
    state[3] += d;
}

/* The digest of a key, its first byte the highest. */
static PART u128 hash_of(struct text key) {
    uint32_t state[4] = {0x67452301, 0xefcdab89, 0x98badcfe, 0x10325476};
    size_t whole = key.len & ~(size_t)63, rest = key.len - whole;
    for (size_t i = 0; i < whole; i += 64) md5_block(state, (const unsigned char *)key.at + i);
    unsigned char last[64] = {0};
    memcpy(last, key.at + whole, rest);
    last[rest] = 0x80;
    if (rest >= 56) {
        md5_block(state, last);
        memset(last, 0, 64);
    }
    uint64_t bits = (uint64_t)key.len * 8, half[2];
    memcpy(last + 56, &bits, 8);
    md5_block(state, last);
    memcpy(half, state, 16);
    return (u128)__builtin_bswap64(half[0]) << 64 | __builtin_bswap64(half[1]);
}

/* ---- base64 (RFC 4648) */

static const char base64_digits[] = "ABCDEFGHIJKLMNOPQRSTUVWXYZabcdefghijklmnopqrstuvwxyz0123456789+/";
static signed char base64_values[256];
/* what a digit gives at each of four places; its highest bit is set if the byte is no digit */
static uint32_t base64_bits[4][256];
static char base64_pairs[4096][2];  /* the two digits of 12 bits */

static void base64_begin(void) {
    memset(base64_values, -1, sizeof base64_values);
    for (int i = 0; i < 64; i++) base64_values[(unsigned char)base64_digits[i]] = (signed char)i;
    for (int place = 0; place < 4; place++)
        for (int c = 0; c < 256; c++)
            base64_bits[place][c] = base64_values[c] < 0 ? 1u << 31 : (uint32_t)base64_values[c] << (18 - 6 * place);
    for (int i = 0; i < 4096; i++) {
        base64_pairs[i][0] = base64_digits[i >> 6];
        base64_pairs[i][1] = base64_digits[i & 63];
    }
}

/* Decodes, and gives the number of bytes, or -1 if the text isn't base64. It may write 16 bytes after them. It takes
 * sixteen digits at once (W. Mula's way, SSSE3): the processors that the program is compiled for have that too. */
__attribute__((target("ssse3"))) static PART long decode(struct text from, unsigned char *to) {
    if (from.len % 4) return -1;
    if (!from.len) return 0;
    const unsigned char *at = (const unsigned char *)from.at, *last = at + from.len - 4;
    unsigned char *end = to;
    /* A byte is no digit if the entries of its two halves share a bit. A digit's value is the digit and an entry of
     * `rolls`, by its upper half; '/' has one of its own. */
    const __m128i lows = _mm_setr_epi8(0x15, 0x11, 0x11, 0x11, 0x11, 0x11, 0x11, 0x11,
                                       0x11, 0x11, 0x13, 0x1A, 0x1B, 0x1B, 0x1B, 0x1A);
    const __m128i highs = _mm_setr_epi8(0x10, 0x10, 0x01, 0x02, 0x04, 0x08, 0x04, 0x08,
                                        0x10, 0x10, 0x10, 0x10, 0x10, 0x10, 0x10, 0x10);
    const __m128i rolls = _mm_setr_epi8(0, 16, 19, 4, -65, -65, -71, -71, 0, 0, 0, 0, 0, 0, 0, 0);
    const __m128i order = _mm_setr_epi8(2, 1, 0, 6, 5, 4, 10, 9, 8, 14, 13, 12, -1, -1, -1, -1);
    const __m128i slash = _mm_set1_epi8('/');
    __m128i wrong = _mm_setzero_si128();
    for (; last - at >= 16; at += 16, end += 12) {
        __m128i v = _mm_loadu_si128((const __m128i *)at), high = _mm_and_si128(_mm_srli_epi32(v, 4), slash);
        __m128i low = _mm_shuffle_epi8(lows, _mm_and_si128(v, slash));
        wrong = _mm_or_si128(wrong, _mm_and_si128(low, _mm_shuffle_epi8(highs, high)));
        v = _mm_add_epi8(v, _mm_shuffle_epi8(rolls, _mm_add_epi8(_mm_cmpeq_epi8(v, slash), high)));
        v = _mm_madd_epi16(_mm_maddubs_epi16(v, _mm_set1_epi32(0x01400140)), _mm_set1_epi32(0x00011000));
        _mm_storeu_si128((__m128i *)end, _mm_shuffle_epi8(v, order));
    }
    uint32_t seen = _mm_movemask_epi8(_mm_cmpgt_epi8(wrong, _mm_setzero_si128())) ? 1u << 31 : 0;
    for (; at < last; at += 4, end += 3) { /* all groups but the last, the only one that may be padded */
        uint32_t bits = base64_bits[0][at[0]] | base64_bits[1][at[1]] | base64_bits[2][at[2]] | base64_bits[3][at[3]];
        uint32_t bytes = __builtin_bswap32(bits << 8);
        seen |= bits;
        memcpy(end, &bytes, 4);
    }
    int pad = at[3] != '=' ? 0 : at[2] != '=' ? 1 : 2;
    uint32_t bits = base64_bits[0][at[0]] | base64_bits[1][at[1]] | (pad < 2 ? base64_bits[2][at[2]] : 0)
        | (pad < 1 ? base64_bits[3][at[3]] : 0);
    if ((seen | bits) >> 31) return -1;
    *end++ = (unsigned char)(bits >> 16);
    if (pad < 2) *end++ = (unsigned char)(bits >> 8);
    if (pad < 1) *end++ = (unsigned char)bits;
    return end - to;
}

__attribute__((target("ssse3"))) static PART char *encode(const unsigned char *from, size_t len, char *to) {
    const unsigned char *end = from + len;
    const __m128i order = _mm_setr_epi8(1, 0, 2, 1, 4, 3, 5, 4, 7, 6, 8, 7, 10, 9, 11, 10);
    const __m128i rolls = _mm_setr_epi8(65, 71, -4, -4, -4, -4, -4, -4, -4, -4, -4, -4, -19, -16, 0, 0);
    for (; end - from >= 16; from += 12, to += 16) { /* twelve bytes of the sixteen that are read */
        __m128i v = _mm_shuffle_epi8(_mm_loadu_si128((const __m128i *)from), order);
        __m128i odd = _mm_mulhi_epu16(_mm_and_si128(v, _mm_set1_epi32(0x0fc0fc00)), _mm_set1_epi32(0x04000040));
        __m128i even = _mm_mullo_epi16(_mm_and_si128(v, _mm_set1_epi32(0x003f03f0)), _mm_set1_epi32(0x01000010));
        v = _mm_or_si128(odd, even);
        __m128i kind = _mm_sub_epi8(_mm_subs_epu8(v, _mm_set1_epi8(51)), _mm_cmpgt_epi8(v, _mm_set1_epi8(25)));
        _mm_storeu_si128((__m128i *)to, _mm_add_epi8(v, _mm_shuffle_epi8(rolls, kind)));
    }
    for (; end - from >= 8; from += 6, to += 8) { /* six bytes of the eight that are read */
        uint64_t bits;
        memcpy(&bits, from, 8);
        bits = __builtin_bswap64(bits);
        memcpy(to, base64_pairs[bits >> 52], 2);
        memcpy(to + 2, base64_pairs[bits >> 40 & 4095], 2);
        memcpy(to + 4, base64_pairs[bits >> 28 & 4095], 2);
        memcpy(to + 6, base64_pairs[bits >> 16 & 4095], 2);
    }
    for (; end - from >= 3; from += 3, to += 4) {
        uint32_t bits = (uint32_t)from[0] << 16 | (uint32_t)from[1] << 8 | from[2];
        memcpy(to, base64_pairs[bits >> 12], 2);
        memcpy(to + 2, base64_pairs[bits & 4095], 2);
    }
    long rest = end - from;
    if (rest) {
        uint32_t bits = (uint32_t)from[0] << 16 | (rest > 1 ? (uint32_t)from[1] << 8 : 0);
        memcpy(to, base64_pairs[bits >> 12], 2);
        to[2] = rest > 1 ? base64_digits[bits >> 6 & 63] : '=';
        to[3] = '=';
        to += 4;
    }
    return to;
}

/* ---- members */

/* The text of a member, found by its name and its quotes, from a place on. The place moves after it. */
static int member(const char **from, const char *end, const char *name, size_t name_len, struct text *found) {
    const char *at = memmem(*from, (size_t)(end - *from), name, name_len);
    if (!at) return 0;
    at += name_len;
    const char *close = memchr(at, '"', (size_t)(end - at));
    if (!close) return 0;
    found->at = at;
    found->len = (size_t)(close - at);
    *from = close + 1;
    return 1;
}
#define MEMBER(from, end, name, found) member(from, end, name, sizeof(name) - 1, found)

/* ---- numbers */

#define TEN(tens) tens "0" tens "1" tens "2" tens "3" tens "4" tens "5" tens "6" tens "7" tens "8" tens "9"
static const char hundred[] = TEN("0") TEN("1") TEN("2") TEN("3") TEN("4") TEN("5") TEN("6") TEN("7") TEN("8") TEN("9");
static const uint64_t powers[20] = {
    1u, 10u, 100u, 1000u, 10000u, 100000u, 1000000u, 10000000u, 100000000u, 1000000000u, 10000000000u, 100000000000u,
    1000000000000u, 10000000000000u, 100000000000000u, 1000000000000000u, 10000000000000000u, 100000000000000000u,
    1000000000000000000u, 10000000000000000000u};

/* A number of at most this length, with zeros in front. */
static char *print_padded(char *to, uint64_t n, int len) {
    char *end = to + len, *at = end;
    memset(to, '0', (size_t)len);
    for (; n >= 10; n /= 100) memcpy(at -= 2, hundred + n % 100 * 2, 2);
    if (n) at[-1] = (char)('0' + n);
    return end;
}

static char *print_number(char *to, uint64_t n) {
    int bits = 64 - __builtin_clzll(n | 1), len = bits * 1233 >> 12;
    len += len == 0 || n >= powers[len];
    char *end = to + len, *at = end;
    for (; n >= 100; n /= 100) memcpy(at -= 2, hundred + n % 100 * 2, 2);
    if (n >= 10) memcpy(at - 2, hundred + n * 2, 2);
    else at[-1] = (char)('0' + n);
    return end;
}

static PART char *print_wide(char *to, u128 n) {
    const uint64_t block = powers[19];
    if (n < block) return print_number(to, (uint64_t)n);
    u128 high = n / block;
    if (high < block) {
        to = print_number(to, (uint64_t)high);
    } else {
        to = print_number(to, (uint64_t)(high / block));
        to = print_padded(to, (uint64_t)(high % block), 19);
    }
    return print_padded(to, (uint64_t)(n - high * block), 19);
}

static char *print_text(char *to, const char *text, size_t len) {
    memcpy(to, text, len);
    return to + len;
}
#define PRINT(to, text) print_text(to, text, sizeof(text) - 1)

/* The place of a name in a table of 1,024: where the search for it begins. */
static size_t place_of(struct text name) {
    uint32_t hash = 2166136261u;
    for (size_t i = 0; i < name.len; i++) hash = (hash ^ (unsigned char)name.at[i]) * 16777619u;
    return hash % 1024;
}

/* ---- a shard's records */

struct record {
    uint64_t seq, arrival;
    size_t key_len, payload_len;
    unsigned char *bytes; /* the key, then the payload */
};

struct log {
    struct record *records;
    size_t count, room;
};

static void *take(size_t bytes) {
    void *room = malloc(bytes ? bytes : 1);
    if (!room) {
        fputs("out of memory\n", stderr);
        exit(6);
    }
    return room;
}

static PART void add_record(struct log *log, struct record record) {
    if (log->count == log->room) {
        log->room = log->room ? log->room * 2 : 1024;
        log->records = realloc(log->records, log->room * sizeof *log->records);
        if (!log->records) exit(6);
    }
    log->records[log->count++] = record;
}

/* A record as GetRecords shows it. */
static PART char *print_record(char *to, const struct record *r) {
    to = PRINT(to, "{\"ApproximateArrivalTimestamp\":");
    to = print_number(to, r->arrival / 1000);
    to = PRINT(to, ",\"Data\":\"");
    to = encode(r->bytes + r->key_len, r->payload_len, to);
    to = PRINT(to, "\",\"PartitionKey\":\"");
    to = print_text(to, (const char *)r->bytes, r->key_len);
    to = PRINT(to, "\",\"SequenceNumber\":\"");
    to = print_number(to, r->seq);
    return PRINT(to, "\"}");
}

/* Which of n uniform shards a hash lies in. */
static unsigned home_of(u128 hash, unsigned n) {
    if (n == 1) return 0;
    u128 width = (~(u128)0 - (n - 1)) / n + 1;
    unsigned shard = (unsigned)(hash / width);
    return shard < n ? shard : n - 1;
}
#endif
