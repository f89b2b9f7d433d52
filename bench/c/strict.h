/* Strict readings, as the program's own are: UTF-8, a JSON object in one pass, numbers in their one spelling, base64
 * without bits past its end, names and keys within their lengths. What the ceilings of this folder share. */
#ifndef STRICT_H
#define STRICT_H
#include "least.h"
#include <emmintrin.h>

/* ---- numbers in decimal, without a needless zero in front */

/* Reads a number below 2^64, and gives the place after it, or NULL. */
static const char *digits(const char *at, const char *end, uint64_t *n) {
    unsigned digit;
    if (at == end || (digit = (unsigned char)*at - '0') > 9) return NULL;
    uint64_t sum = digit;
    at++;
    if (!sum) {
        *n = 0;
        return at == end || (unsigned)((unsigned char)*at - '0') > 9 ? at : NULL;
    }
    const char *sure = end - at > 18 ? at + 18 : end; /* 19 digits never overflow */
    for (; at < sure && (digit = (unsigned char)*at - '0') < 10; at++) sum = sum * 10 + digit;
    if (at == sure)
        for (; at < end && (digit = (unsigned char)*at - '0') < 10; at++)
            if (__builtin_mul_overflow(sum, 10, &sum) || __builtin_add_overflow(sum, digit, &sum)) return NULL;
    *n = sum;
    return at;
}

/* Whether a text is such a number, and the number. */
static int whole(struct text t, uint64_t *n) {
    return digits(t.at, t.at + t.len, n) == t.at + t.len;
}

/* Eight digits at once. */
static int eight(const char *at, uint64_t *n) {
    uint64_t v;
    memcpy(&v, at, 8);
    if (((v & 0xf0f0f0f0f0f0f0f0) | ((v + 0x0606060606060606) & 0xf0f0f0f0f0f0f0f0) >> 4) != 0x3333333333333333)
        return 0;
    v = (v & 0x0f0f0f0f0f0f0f0f) * 2561 >> 8;
    v = (v & 0x00ff00ff00ff00ff) * 6553601 >> 16;
    *n = (v & 0x0000ffff0000ffff) * 42949672960001 >> 32;
    return 1;
}

/* At most 19 digits. */
static int block(const char *at, size_t len, uint64_t *n) {
    uint64_t sum = 0, part;
    for (; len >= 8; len -= 8, at += 8) {
        if (!eight(at, &part)) return 0;
        sum = sum * 100000000 + part;
    }
    for (; len; len--, at++) {
        unsigned digit = (unsigned char)*at - '0';
        if (digit > 9) return 0;
        sum = sum * 10 + digit;
    }
    *n = sum;
    return 1;
}

/* A number below 2^128: of 39 digits the first 20 decide, and then the sum, whether it is. */
static PART int wide(struct text t, u128 *n) {
    uint64_t part;
    if (!t.len || t.len > 39 || (t.len > 1 && *t.at == '0')) return 0;
    size_t first = (t.len - 1) % 19 + 1;
    if (!block(t.at, first, &part)) return 0;
    *n = part;
    for (size_t at = first; at < t.len; at += 19) {
        if (!block(t.at + at, 19, &part) || *n > ~(u128)0 / powers[19]) return 0;
        *n *= powers[19];
        if (__builtin_add_overflow(*n, part, n)) return 0;
    }
    return 1;
}

/* ---- base64: no bits past the last byte */

static int bad_bits(struct text t) {
    if (!t.len || t.at[t.len - 1] != '=') return 0;
    int two = t.at[t.len - 2] == '=';
    int v = base64_values[(unsigned char)t.at[t.len - (two ? 3 : 2)]];
    return two ? v & 15 : v & 3;
}

/* ---- a body: UTF-8, and a JSON object that is read in one pass, whole and strictly (RFC 8259) */

static int utf8(const unsigned char *at, const unsigned char *end) {
    while (at < end) {
        if (end - at >= 16) {
            if (!_mm_movemask_epi8(_mm_loadu_si128((const __m128i *)at))) { at += 16; continue; }
        }
        unsigned c = *at;
        if (c < 0x80) { at++; continue; }
        int n = c >= 0xc2 && c < 0xe0 ? 1 : c >= 0xe0 && c < 0xf0 ? 2 : c >= 0xf0 && c < 0xf5 ? 3 : 0;
        if (!n || end - at <= n) return 0;
        unsigned d = at[1];
        if ((d & 0xc0) != 0x80 || (c == 0xe0 && d < 0xa0) || (c == 0xed && d > 0x9f)
            || (c == 0xf0 && d < 0x90) || (c == 0xf4 && d > 0x8f)) return 0;
        for (int i = 2; i <= n; i++) if ((at[i] & 0xc0) != 0x80) return 0;
        at += n + 1;
    }
    return 1;
}

enum kind { NONE, STRING, NUMBER, OTHER, ARRAY, OBJECT };
struct value { enum kind kind; struct text text; };

static const char *blank(const char *at, const char *end) {
    while (at < end && (*at == ' ' || *at == '\t' || *at == '\n' || *at == '\r')) at++;
    return at;
}

/* Texts with escapes, without them: no longer together than the body. */
static __thread char *unescaped;
static __thread size_t unescaped_len, unescaped_room;

static int hex4(const char *at, const char *end, unsigned *out) {
    if (end - at < 4) return 0;
    *out = 0;
    for (int i = 0; i < 4; i++) {
        char c = at[i];
        int v = c >= '0' && c <= '9' ? c - '0'
            : c >= 'a' && c <= 'f' ? c - 'a' + 10
            : c >= 'A' && c <= 'F' ? c - 'A' + 10 : -1;
        if (v < 0) return 0;
        *out = *out * 16 + (unsigned)v;
    }
    return 1;
}

static char *put_code(char *t, unsigned c) {
    if (c < 0x80) {
        *t++ = (char)c;
    } else if (c < 0x800) {
        *t++ = (char)(0xc0 | c >> 6);
        *t++ = (char)(0x80 | (c & 63));
    } else if (c < 0x10000) {
        *t++ = (char)(0xe0 | c >> 12);
        *t++ = (char)(0x80 | (c >> 6 & 63));
        *t++ = (char)(0x80 | (c & 63));
    } else {
        *t++ = (char)(0xf0 | c >> 18);
        *t++ = (char)(0x80 | (c >> 12 & 63));
        *t++ = (char)(0x80 | (c >> 6 & 63));
        *t++ = (char)(0x80 | (c & 63));
    }
    return t;
}

/* A string after its first quote. */
static const char *string(const char *at, const char *end, struct text *text) {
    const char *from = at;
    for (;;) {
        if (end - at >= 16) {
            __m128i v = _mm_loadu_si128((const __m128i *)at);
            __m128i signs = _mm_or_si128(_mm_cmpeq_epi8(v, _mm_set1_epi8('"')), _mm_cmpeq_epi8(v, _mm_set1_epi8('\\')));
            __m128i stop = _mm_or_si128(signs, _mm_cmpeq_epi8(_mm_min_epu8(v, _mm_set1_epi8(31)), v));
            int mask = _mm_movemask_epi8(stop);
            if (!mask) { at += 16; continue; }
            at += __builtin_ctz((unsigned)mask);
        } else {
            while (at < end && *at != '"' && *at != '\\' && (unsigned char)*at >= 32) at++;
        }
        if (at >= end || (unsigned char)*at < 32) return NULL;
        if (*at == '"') { *text = (struct text){from, (size_t)(at - from)}; return at + 1; }
        break;
    }
    char *t = unescaped + unescaped_len, *begin = t;
    memcpy(t, from, (size_t)(at - from));
    t += at - from;
    while (at < end && *at != '"') {
        if ((unsigned char)*at < 32) return NULL;
        if (*at != '\\') { *t++ = *at++; continue; }
        if (++at >= end) return NULL;
        char c = *at++;
        unsigned u, w;
        switch (c) {
        case '"': case '\\': case '/': *t++ = c; break;
        case 'b': *t++ = 8; break;
        case 'f': *t++ = 12; break;
        case 'n': *t++ = 10; break;
        case 'r': *t++ = 13; break;
        case 't': *t++ = 9; break;
        case 'u':
            if (!hex4(at, end, &u)) return NULL;
            at += 4;
            if (u >= 0xdc00 && u < 0xe000) return NULL;
            if (u >= 0xd800 && u < 0xdc00) {
                if (end - at < 6 || at[0] != '\\' || at[1] != 'u' || !hex4(at + 2, end, &w)
                    || w < 0xdc00 || w > 0xdfff) return NULL;
                u = 0x10000 + ((u - 0xd800) << 10) + (w - 0xdc00);
                at += 6;
            }
            t = put_code(t, u);
            break;
        default: return NULL;
        }
    }
    if (at >= end) return NULL;
    *text = (struct text){begin, (size_t)(t - begin)};
    unescaped_len += (size_t)(t - begin);
    return at + 1;
}

/* Whether a double holds it: no number that is too large is one. */
static int is_finite(const char *from, const char *at) {
    char text[512];
    size_t len = (size_t)(at - from);
    if (len >= sizeof text) return 0;
    memcpy(text, from, len);
    text[len] = 0;
    double n = strtod(text, NULL);
    return n <= 1.7976931348623157e308 && n >= -1.7976931348623157e308;
}

static const char *number_(const char *at, const char *end) {
    const char *from = at;
    if (at < end && *at == '-') at++;
    if (at >= end || *at < '0' || *at > '9') return NULL;
    if (*at == '0') at++;
    else while (at < end && *at >= '0' && *at <= '9') at++;
    int is_whole = at - from < 19;
    if (at < end && *at == '.') {
        is_whole = 0;
        if (++at >= end || *at < '0' || *at > '9') return NULL;
        while (at < end && *at >= '0' && *at <= '9') at++;
    }
    if (at < end && (*at == 'e' || *at == 'E')) {
        is_whole = 0;
        at++;
        if (at < end && (*at == '+' || *at == '-')) at++;
        if (at >= end || *at < '0' || *at > '9') return NULL;
        while (at < end && *at >= '0' && *at <= '9') at++;
    }
    return is_whole || is_finite(from, at) ? at : NULL;
}

typedef void taker(void *to, struct text name, struct value value);
static taker take_member;
static const char *records(const char *at, const char *end, int depth);
static const char *members(const char *at, const char *end, int depth, taker *take_, void *to);

static const char *value(const char *at, const char *end, int depth, struct value *v) {
    at = blank(at, end);
    if (at >= end) return NULL;
    if (*at == '"') { v->kind = STRING; return string(at + 1, end, &v->text); }
    const char *from = at;
    if (*at == '{' || *at == '[') {
        if (!depth) return NULL;
        if (*at == '{') { v->kind = OBJECT; at = members(at + 1, end, depth - 1, NULL, NULL); }
        else {
            v->kind = ARRAY;
            at = blank(at + 1, end);
            if (at < end && *at == ']') at++;
            else for (;;) {
                struct value inner;
                at = value(at, end, depth - 1, &inner);
                if (!at) return NULL;
                at = blank(at, end);
                if (at >= end || (*at != ',' && *at != ']')) return NULL;
                if (*at++ == ']') break;
            }
        }
        if (at) v->text = (struct text){from, (size_t)(at - from)};
        return at;
    }
    v->kind = OTHER;
    if (end - at >= 4 && (!memcmp(at, "true", 4) || !memcmp(at, "null", 4))) return at + 4;
    if (end - at >= 5 && !memcmp(at, "false", 5)) return at + 5;
    v->kind = NUMBER;
    at = number_(at, end);
    if (at) v->text = (struct text){from, (size_t)(at - from)};
    return at;
}

static const char *members(const char *at, const char *end, int depth, taker *take_, void *to) {
    at = blank(at, end);
    if (at < end && *at == '}') return at + 1;
    for (;;) {
        struct text name;
        struct value v;
        at = blank(at, end);
        if (at >= end || *at != '"' || !(at = string(at + 1, end, &name))) return NULL;
        at = blank(at, end);
        if (at >= end || *at != ':') return NULL;
        at = blank(at + 1, end);
        if (take_ == take_member && name.len == 7 && !memcmp(name.at, "Records", 7) && at < end && *at == '[') {
            v = (struct value){ARRAY, {at, 0}};
            if (!(at = records(at + 1, end, depth - 1))) return NULL;
        } else if (!(at = value(at, end, depth, &v))) {
            return NULL;
        }
        if (take_) take_(to, name, v);
        at = blank(at, end);
        if (at >= end || (*at != ',' && *at != '}')) return NULL;
        if (*at++ == '}') return at;
    }
}

#define IS(text_, word) ((text_).len == sizeof(word) - 1 && !memcmp((text_).at, word, sizeof(word) - 1))

/* The members of a record, and those of the records of a body. */
struct item { struct value key, data, hash; };
#define MOST_ITEMS 500
static __thread struct item items[MOST_ITEMS];
static __thread size_t item_count;

/* The members that requests have. */
struct found { struct value stream, key, data, hash, records, iterator, limit, count, split, start, merge, adjacent,
                    after, most; };

static void take_member(void *to_, struct text name, struct value v) {
    struct found *f = to_;
    if (IS(name, "StreamName")) f->stream = v;
    else if (IS(name, "PartitionKey")) f->key = v;
    else if (IS(name, "Data")) f->data = v;
    else if (IS(name, "ExplicitHashKey")) f->hash = v;
    else if (IS(name, "Records")) f->records = v;
    else if (IS(name, "ShardIterator")) f->iterator = v;
    else if (IS(name, "Limit")) f->limit = v;
    else if (IS(name, "ShardCount")) f->count = v;
    else if (IS(name, "ShardToSplit")) f->split = v;
    else if (IS(name, "NewStartingHashKey")) f->start = v;
    else if (IS(name, "ShardToMerge")) f->merge = v;
    else if (IS(name, "AdjacentShardToMerge")) f->adjacent = v;
    else if (IS(name, "ExclusiveStartShardId")) f->after = v;
    else if (IS(name, "MaxResults")) f->most = v;
}

static void take_part(void *to_, struct text name, struct value v) {
    struct item *f = to_;
    if (IS(name, "Data")) f->data = v;
    else if (IS(name, "PartitionKey")) f->key = v;
    else if (IS(name, "ExplicitHashKey")) f->hash = v;
}

/* The items of an array of records, read where they stand. Others than objects, or too many, are refused: these
 * programs end with most refusals. */
static const char *records(const char *at, const char *end, int depth) {
    item_count = 0;
    at = blank(at, end);
    if (at < end && *at == ']') return at + 1;
    for (;;) {
        at = blank(at, end);
        if (at >= end) return NULL;
        if (*at != '{' || item_count == MOST_ITEMS) exit(1);
        items[item_count] = (struct item){0};
        at = members(at + 1, end, depth - 1, take_part, &items[item_count++]);
        if (!at) return NULL;
        at = blank(at, end);
        if (at >= end || (*at != ',' && *at != ']')) return NULL;
        if (*at++ == ']') return at;
    }
}

/* The members of a body, if it is a JSON object in UTF-8. Of members with one name the last counts. */
static PART int read_body(const char *body, const char *end, struct found *f) {
    *f = (struct found){0};
    unescaped_len = 0;
    if (unescaped_room < (size_t)(end - body)) {
        free(unescaped);
        unescaped = take(unescaped_room = (size_t)(end - body));
    }
    if (!utf8((const unsigned char *)body, (const unsigned char *)end)) return 0;
    body = blank(body, end);
    if (body >= end || *body != '{') return 0;
    const char *at = members(body + 1, end, 126, take_member, f);
    return at && blank(at, end) == end;
}

/* The name of a stream: 1 to 128 letters, digits, '_', '.' and '-'. */
static int is_name(struct text t) {
    if (!t.len || t.len > 128) return 0;
    for (size_t i = 0; i < t.len; i++) {
        char c = t.at[i];
        if (!((c >= 'a' && c <= 'z') || (c >= 'A' && c <= 'Z') || (c >= '0' && c <= '9') || c == '_' || c == '.'
              || c == '-')) return 0;
    }
    return 1;
}

/* A partition key: 1 to 256 characters. */
static int is_key(struct text t) {
    size_t count = 0;
    for (size_t i = 0; i < t.len; i++) count += ((unsigned char)t.at[i] & 0xc0) != 0x80;
    return count >= 1 && count <= 256;
}

/* A shard's id: `shardId-` and at least twelve digits, without a needless zero. */
static int shard_id(struct value v, uint64_t *shard) {
    struct text t = v.text;
    if (v.kind != STRING || t.len < 20 || memcmp(t.at, "shardId-", 8)) return 0;
    const char *at = t.at + 8, *end = t.at + t.len;
    if (t.len > 20 && *at == '0') return 0;
    while (at < end - 1 && *at == '0') at++;
    return whole((struct text){at, (size_t)(end - at)}, shard);
}

/* An integer member within a range. */
static int number_in(struct value v, uint64_t low, uint64_t high, uint64_t *n) {
    return v.kind == NUMBER && whole(v.text, n) && *n >= low && *n <= high;
}

/* An iterator's token: base64 of `KI1:STREAM:SHARD:POSITION:ISSUED`, in its one spelling. */
static int iterator_of(struct value v, uint64_t part[4]) {
    char text[128];
    if (v.kind != STRING || v.text.len > 120 || bad_bits(v.text)) return 0;
    long len = decode(v.text, (unsigned char *)text);
    if (len < 4 || memcmp(text, "KI1:", 4)) return 0;
    const char *at = text + 4, *end = text + len;
    for (int i = 0; i < 4; i++) {
        if (i && (at == end || *at++ != ':')) return 0;
        if (!(at = digits(at, end, &part[i]))) return 0;
    }
    return at == end && part[3] < (uint64_t)1 << 62;
}
#endif
