/* A ceiling for `kds replay`: the least honest work on each line of a schedule, as strict as the program is. Lines are
 * split within their lengths, bodies are read in one pass (strict.h), keys hashed, payloads decoded, what a shard takes
 * within a second counted, records stored in the open shard of their key, batches found by halves; the replies are
 * written as the program writes them, 64 KiB at a time. Splits and merges keep plain lists of the open shards. Of
 * refusals and of commands it knows those that bench/replay makes, and no others.
 *
 *     lines < SCHEDULE > OUTPUT */
#include "strict.h"
#include <unistd.h>

/* What a shard took within the second, counted whether or not it is enforced. */
struct window {
    uint64_t second, records, bytes;
};

struct shard {
    struct log log;
    struct window taken;
    u128 start, end;
    uint64_t first, last; /* the sequence numbers that opened and ended it */
    uint64_t closed;      /* when it was closed */
    int open;
    long parent, adjacent, child; /* of its children the first */
    size_t trimmed; /* how many of the first records are */
};

struct stream {
    struct text name;
    struct shard *shards;
    size_t count, room;
    size_t *open; /* the open shards, in the order of their starts */
    size_t open_count, open_room;
    size_t gone; /* how many of the first shards have expired, for good: the retention stays as it is here */
    uint64_t next;
};

struct lease {
    uint64_t counter, tenure, floor;
    int there;
    long checkpoint;
    unsigned owner;
};

struct tenure {
    size_t lease;
    unsigned by;
    int opened;
    uint64_t reach, delivered, pending;
};

static struct stream streams[128];
static size_t stream_count;
static struct lease *leases[128];
static struct tenure *tenures;
static size_t tenure_count, tenure_room;
static uint64_t clock_;

static char out[1 << 24];
static char *to = out;

static void flush_out(void) {
    for (char *at = out; at < to;) {
        ssize_t n = write(1, at, (size_t)(to - at));
        if (n <= 0) exit(5);
        at += n;
    }
    to = out;
}

/* The streams by a hash of their names. */
static struct stream *by_name[1024];

static size_t slot_of(struct text name) {
    size_t slot = place_of(name);
    while (by_name[slot] && (by_name[slot]->name.len != name.len || memcmp(by_name[slot]->name.at, name.at, name.len)))
        slot = (slot + 1) % 1024;
    return slot;
}

static struct stream *stream_of(struct text name) {
    return by_name[slot_of(name)];
}

static PART void add_open(struct stream *s, size_t shard) {
    if (s->open_count == s->open_room) {
        s->open_room = s->open_room ? s->open_room * 2 : 16;
        s->open = realloc(s->open, s->open_room * sizeof *s->open);
        if (!s->open) exit(6);
    }
    size_t at = s->open_count++;
    while (at && s->shards[s->open[at - 1]].start > s->shards[shard].start) {
        s->open[at] = s->open[at - 1];
        at--;
    }
    s->open[at] = shard;
}

static void close_shard(struct stream *s, size_t shard, uint64_t seq) {
    size_t at = 0;
    while (s->open[at] != shard) at++;
    memmove(s->open + at, s->open + at + 1, (--s->open_count - at) * sizeof *s->open);
    s->shards[shard].open = 0;
    s->shards[shard].last = seq;
    s->shards[shard].closed = clock_;
    s->shards[shard].child = (long)s->count;
}

static size_t add_shard(struct stream *s, u128 start, u128 end, uint64_t first, long parent, long adjacent) {
    if (s->count == s->room) {
        s->room = s->room ? s->room * 2 : 16;
        s->shards = realloc(s->shards, s->room * sizeof *s->shards);
        if (!s->shards) exit(6);
    }
    s->shards[s->count] = (struct shard){.start = start, .end = end, .first = first, .open = 1,
                                         .parent = parent, .adjacent = adjacent, .child = -1};
    add_open(s, s->count);
    return s->count++;
}

static size_t home(struct stream *s, u128 hash) {
    size_t low = 0, high = s->open_count;
    while (low + 1 < high) {
        size_t middle = (low + high) / 2;
        if (s->shards[s->open[middle]].start <= hash) low = middle;
        else high = middle;
    }
    return s->open[low];
}

#define DAY 86400000u

static void trim(struct shard *x) {
    while (x->trimmed < x->log.count && clock_ >= DAY && x->log.records[x->trimmed].arrival <= clock_ - DAY) {
        free(x->log.records[x->trimmed].bytes);
        x->log.records[x->trimmed].bytes = NULL;
        x->trimmed++;
    }
}

/* The place of the first record at or above a position that isn't trimmed. */
static PART size_t first_of(struct shard *x, uint64_t position) {
    trim(x);
    size_t low = x->trimmed, high = x->log.count;
    while (low < high) {
        size_t middle = (low + high) / 2;
        if (x->log.records[middle].seq < position) low = middle + 1;
        else high = middle;
    }
    return low;
}

static void print_id(size_t shard) {
    to = PRINT(to, "shardId-");
    to = shard < powers[12] ? print_padded(to, shard, 12) : print_number(to, shard);
}

static PART void print_place(size_t shard, uint64_t seq) {
    to = PRINT(to, "{\"SequenceNumber\":\"");
    to = print_number(to, seq);
    to = PRINT(to, "\",\"ShardId\":\"");
    print_id(shard);
    to = PRINT(to, "\"}");
}

static void count_put(struct window *w, size_t bytes) {
    if (w->second != clock_ / 1000) *w = (struct window){.second = clock_ / 1000};
    w->records++;
    w->bytes += bytes;
}

static PART void store(struct stream *s, struct text key, struct text data, u128 *explicit_, size_t *shard,
                       uint64_t *seq) {
    struct record r = {.arrival = clock_, .key_len = key.len};
    r.bytes = take(key.len + data.len / 4 * 3 + 16);
    memcpy(r.bytes, key.at, key.len);
    long len = decode(data, r.bytes + key.len);
    if (len < 0) exit(1);
    r.payload_len = (size_t)len;
    *shard = home(s, explicit_ ? *explicit_ : hash_of(key));
    *seq = r.seq = s->next++;
    struct shard *x = &s->shards[*shard];
    trim(x);
    add_record(&x->log, r);
    count_put(&x->taken, key.len + r.payload_len);
}

/* ---- requests */

static PART void fault_(const char *name, const char *message) {
    to = PRINT(to, "400 {\"__type\":\"");
    to = print_text(to, name, strlen(name));
    to = PRINT(to, "\",\"message\":\"");
    to = print_text(to, message, strlen(message));
    to = PRINT(to, "\"}\n");
}

#define RECORD_BYTES 10485760u

/* A record's members, and the first that is missing or not valid. */
static PART int checked(struct item *f, u128 *hash, const char **what) {
    if (f->key.kind == NONE) { *what = "PartitionKey is missing"; return 0; }
    if (f->key.kind != STRING || !is_key(f->key.text)) { *what = "PartitionKey is not valid"; return 0; }
    if (f->data.kind == NONE) { *what = "Data is missing"; return 0; }
    if (f->data.kind != STRING || bad_bits(f->data.text)
        || f->key.text.len + f->data.text.len / 4 * 3 > RECORD_BYTES) {
        *what = "Data is not valid";
        return 0;
    }
    if (f->hash.kind != NONE && (f->hash.kind != STRING || !wide(f->hash.text, hash))) {
        *what = "ExplicitHashKey is not valid";
        return 0;
    }
    return 1;
}

/* The live stream that a body names. */
static struct stream *named(struct found *f, const char *body, const char *end) {
    if (!read_body(body, end, f)) { fault_("SerializationException", "body is not a JSON object"); return NULL; }
    if (f->stream.kind == NONE) { fault_("ValidationException", "StreamName is missing"); return NULL; }
    if (f->stream.kind != STRING || !is_name(f->stream.text)) {
        fault_("ValidationException", "StreamName is not valid");
        return NULL;
    }
    struct stream *s = stream_of(f->stream.text);
    if (!s) exit(1);
    return s;
}

static void put(const char *body, const char *end) {
    struct found f;
    const char *what;
    u128 hash;
    struct stream *s = named(&f, body, end);
    if (!s) return;
    struct item it = {f.key, f.data, f.hash};
    if (!checked(&it, &hash, &what)) { fault_("ValidationException", what); return; }
    size_t shard;
    uint64_t seq;
    store(s, f.key.text, f.data.text, f.hash.kind == STRING ? &hash : NULL, &shard, &seq);
    to = PRINT(to, "200 ");
    print_place(shard, seq);
    *to++ = '\n';
}

static void put_many(const char *body, const char *end) {
    struct found f;
    struct stream *s = named(&f, body, end);
    if (!s || f.records.kind != ARRAY) exit(1);
    static u128 hashes[MOST_ITEMS];
    size_t count = item_count, bytes = 0;
    if (!count) exit(1);
    for (size_t i = 0; i < count; i++) {
        const char *what;
        if (!checked(&items[i], &hashes[i], &what)) exit(1);
        bytes += items[i].key.text.len + items[i].data.text.len / 4 * 3;
    }
    if (bytes > RECORD_BYTES) exit(1);
    to = PRINT(to, "200 {\"FailedRecordCount\":0,\"Records\":[");
    for (size_t i = 0; i < count; i++) {
        size_t shard;
        uint64_t seq;
        store(s, items[i].key.text, items[i].data.text, items[i].hash.kind == STRING ? &hashes[i] : NULL, &shard, &seq);
        if (i) *to++ = ',';
        print_place(shard, seq);
    }
    to = PRINT(to, "]}\n");
}

static PART void print_range(struct shard *x) {
    to = PRINT(to, "\"HashKeyRange\":{\"EndingHashKey\":\"");
    to = print_wide(to, x->end);
    to = PRINT(to, "\",\"StartingHashKey\":\"");
    to = print_wide(to, x->start);
    to = PRINT(to, "\"}");
}

static void get(const char *body, const char *end) {
    struct found f;
    uint64_t part[4], limit = 10000;
    if (!read_body(body, end, &f) || !iterator_of(f.iterator, part)) exit(1);
    if (f.limit.kind != NONE && !number_in(f.limit, 1, 10000, &limit)) exit(1);
    uint64_t no = part[0], sh = part[1], position = part[2];
    if (!no || no > stream_count || sh >= streams[no - 1].count
        || (clock_ > part[3] && clock_ - part[3] > 300000)) exit(1);
    struct shard *x = &streams[no - 1].shards[sh];
    size_t from = first_of(x, position), last = x->log.count - from < limit ? x->log.count : from + limit;
    int ended = !x->open && last == x->log.count;
    uint64_t reach = last > from ? x->log.records[last - 1].seq + 1 : position;
    to = PRINT(to, "200 {");
    if (ended) {
        to = PRINT(to, "\"ChildShards\":[");
        int first = 1;
        struct stream *s = &streams[no - 1];
        for (size_t i = (size_t)x->child; i < s->count; i++) {
            if (s->shards[i].parent != (long)sh && s->shards[i].adjacent != (long)sh) break;
            to = first ? PRINT(to, "{") : PRINT(to, ",{");
            first = 0;
            print_range(&s->shards[i]);
            to = PRINT(to, ",\"ParentShards\":[\"");
            print_id((size_t)s->shards[i].parent);
            if (s->shards[i].adjacent >= 0) {
                to = PRINT(to, "\",\"");
                print_id((size_t)s->shards[i].adjacent);
            }
            to = PRINT(to, "\"],\"ShardId\":\"");
            print_id(i);
            to = PRINT(to, "\"}");
        }
        to = PRINT(to, "],");
    }
    to = PRINT(to, "\"MillisBehindLatest\":");
    to = print_number(to, last < x->log.count ? clock_ - x->log.records[last].arrival : 0);
    if (ended) {
        to = PRINT(to, ",\"NextShardIterator\":null,\"Records\":[");
    } else {
        char next[128], *e = PRINT(next, "KI1:");
        e = print_number(e, no);
        *e++ = ':';
        e = print_number(e, sh);
        *e++ = ':';
        e = print_number(e, reach);
        *e++ = ':';
        e = print_number(e, clock_);
        to = PRINT(to, ",\"NextShardIterator\":\"");
        to = encode((unsigned char *)next, (size_t)(e - next), to);
        to = PRINT(to, "\",\"Records\":[");
    }
    for (size_t i = from; i < last; i++) {
        if (i > from) *to++ = ',';
        to = print_record(to, &x->log.records[i]);
        if (to - out > (1 << 23)) flush_out();
    }
    to = PRINT(to, "]}\n");
}

/* A shard as a listing shows it. */
static PART void print_shard(struct stream *s, size_t i) {
    struct shard *x = &s->shards[i];
    *to++ = '{';
    if (x->adjacent >= 0) {
        to = PRINT(to, "\"AdjacentParentShardId\":\"");
        print_id((size_t)x->adjacent);
        to = PRINT(to, "\",");
    }
    print_range(x);
    if (x->parent >= 0) {
        to = PRINT(to, ",\"ParentShardId\":\"");
        print_id((size_t)x->parent);
        *to++ = '"';
    }
    to = PRINT(to, ",\"SequenceNumberRange\":{");
    if (!x->open) {
        to = PRINT(to, "\"EndingSequenceNumber\":\"");
        to = print_number(to, x->last);
        to = PRINT(to, "\",");
    }
    to = PRINT(to, "\"StartingSequenceNumber\":\"");
    to = print_number(to, x->first);
    to = PRINT(to, "\"},\"ShardId\":\"");
    print_id(i);
    to = PRINT(to, "\"}");
}

/* Whether a shard was closed at or before the moment up to which all is trimmed. */
static int is_expired(struct shard *x) {
    return !x->open && clock_ >= DAY && x->closed <= clock_ - DAY;
}

static size_t next_listed(struct stream *s, size_t i) {
    while (i < s->count && is_expired(&s->shards[i])) i++;
    return i;
}

static void list(const char *body, const char *end) {
    struct found f;
    uint64_t after, most = 1000;
    struct stream *s = named(&f, body, end);
    if (!s || (f.after.kind != NONE && !shard_id(f.after, &after))
        || (f.most.kind != NONE && !number_in(f.most, 1, 10000, &most))) exit(1);
    static size_t page[10000];
    s->gone = next_listed(s, s->gone);
    size_t count = 0, i = f.after.kind == NONE || after < s->gone ? s->gone : next_listed(s, after + 1);
    for (; i < s->count && count < most; i = next_listed(s, i + 1)) page[count++] = i;
    to = PRINT(to, "200 {");
    if (i < s->count) {
        char next[128], *e = PRINT(next, "KT1:");
        e = print_number(e, (uint64_t)(s - streams) + 1);
        *e++ = ':';
        e = print_number(e, page[count - 1]);
        *e++ = ':';
        e = print_number(e, clock_);
        to = PRINT(to, "\"NextToken\":\"");
        to = encode((unsigned char *)next, (size_t)(e - next), to);
        to = PRINT(to, "\",");
    }
    to = PRINT(to, "\"Shards\":[");
    for (size_t j = 0; j < count; j++) {
        if (j) *to++ = ',';
        print_shard(s, page[j]);
    }
    to = PRINT(to, "]}\n");
}

static void create(const char *body, const char *end) {
    struct found f;
    uint64_t n;
    if (!read_body(body, end, &f) || f.stream.kind != STRING || !is_name(f.stream.text)
        || !number_in(f.count, 1, 500, &n)) exit(1);
    if (stream_count == 64 || stream_of(f.stream.text)) exit(1);
    struct stream *s = &streams[stream_count++];
    char *kept = take(f.stream.text.len);
    memcpy(kept, f.stream.text.at, f.stream.text.len);
    *s = (struct stream){.name = {kept, f.stream.text.len}, .next = 1};
    by_name[slot_of(s->name)] = s;
    u128 width = (~(u128)0 - (n - 1)) / n + 1;
    for (size_t i = 0; i < n; i++)
        add_shard(s, n == 1 ? 0 : i * width, i + 1 == n ? ~(u128)0 : (i + 1) * width - 1, 1, -1, -1);
    leases[stream_count - 1] = calloc(4096, sizeof(struct lease));
    to = PRINT(to, "200\n");
}

static void split(const char *body, const char *end) {
    struct found f;
    struct stream *s = named(&f, body, end);
    uint64_t sh;
    u128 cut;
    if (!s || !shard_id(f.split, &sh) || f.start.kind != STRING || !wide(f.start.text, &cut)
        || sh >= s->count || !s->shards[sh].open) exit(1);
    u128 start = s->shards[sh].start, last = s->shards[sh].end;
    if (cut <= start || cut > last) exit(1);
    uint64_t seq = s->next++;
    close_shard(s, sh, seq);
    add_shard(s, start, cut - 1, seq + 1, (long)sh, -1);
    add_shard(s, cut, last, seq + 1, (long)sh, -1);
    to = PRINT(to, "200\n");
}

static void merge(const char *body, const char *end) {
    struct found f;
    struct stream *s = named(&f, body, end);
    uint64_t a, b;
    if (!s || !shard_id(f.merge, &a) || !shard_id(f.adjacent, &b)
        || a >= s->count || b >= s->count || !s->shards[a].open || !s->shards[b].open) exit(1);
    struct shard *one = &s->shards[a], *other = &s->shards[b];
    if (one->end + 1 != other->start && other->end + 1 != one->start) exit(1);
    u128 start = one->start < other->start ? one->start : other->start;
    u128 last = one->end > other->end ? one->end : other->end;
    uint64_t seq = s->next++;
    close_shard(s, a, seq);
    close_shard(s, b, seq);
    add_shard(s, start, last, seq + 1, (long)a, (long)b);
    to = PRINT(to, "200\n");
}

/* ---- leases */

/* Numbers after a word, each with one space before it, to the end of the line. */
static void numbers(const char *at, const char *end, int count, uint64_t *n) {
    for (int i = 0; i < count; i++)
        if (at == end || *at++ != ' ' || !(at = digits(at, end, &n[i]))) exit(1);
    if (at != end) exit(1);
}

/* A row's key after a word, STREAM/SHARD, and the place after it. */
static const char *row_key(const char *at, const char *end, size_t *stream, size_t *shard) {
    uint64_t s, sh;
    if (at == end || *at++ != ' ' || !(at = digits(at, end, &s)) || at == end || *at++ != '/'
        || !(at = digits(at, end, &sh))) exit(1);
    if (!s || s > stream_count || sh >= streams[s - 1].count || sh >= 4096) exit(1);
    *stream = s - 1;
    *shard = sh;
    return at;
}

static void make(const char *at, const char *end) {
    size_t s, sh;
    if (row_key(at, end, &s, &sh) != end || leases[s][sh].there) exit(1);
    leases[s][sh] = (struct lease){.there = 1, .checkpoint = -1, .floor = streams[s].shards[sh].first};
    to = PRINT(to, "ok\n");
}

static void take_row(const char *at, const char *end, unsigned by) {
    size_t s, sh;
    uint64_t counter, worker;
    at = row_key(at, end, &s, &sh);
    if (at == end || *at++ != ' ' || !(at = digits(at, end, &counter)) || end - at < 3
        || memcmp(at, " w", 2) || digits(at + 2, end, &worker) != end || !worker
        || worker >> 32) exit(1);
    struct lease *l = &leases[s][sh];
    if (!l->there || l->counter != counter) exit(1);
    if (tenure_count == tenure_room) {
        tenure_room = tenure_room ? tenure_room * 2 : 1024;
        tenures = realloc(tenures, tenure_room * sizeof *tenures);
        if (!tenures) exit(6);
    }
    uint64_t start = l->checkpoint < 0 ? 0 : (uint64_t)l->checkpoint + 1;
    tenures[tenure_count++] = (struct tenure){.lease = s * 4096 + sh, .by = by, .reach = start, .delivered = start};
    l->counter++;
    l->tenure = tenure_count;
    l->owner = (unsigned)worker;
    to = PRINT(to, "ok tenure ");
    to = print_number(to, tenure_count);
    to = PRINT(to, " counter ");
    to = print_number(to, l->counter);
    to = PRINT(to, " start ");
    to = l->checkpoint < 0 ? PRINT(to, "TRIM_HORIZON") : print_number(to, (uint64_t)l->checkpoint);
    *to++ = '\n';
}

static struct tenure *tenure_of(uint64_t no, unsigned by) {
    if (!no || no > tenure_count || tenures[no - 1].by != by) exit(1);
    return &tenures[no - 1];
}

static void read_shard(struct tenure *t, uint64_t position, uint64_t limit) {
    if (!t->opened || position != t->reach || !limit || limit > 10000 || t->pending == 8) exit(1);
    struct shard *x = &streams[t->lease / 4096].shards[t->lease % 4096];
    size_t from = first_of(x, position), last = x->log.count - from < limit ? x->log.count : from + limit;
    if (last > from) t->reach = x->log.records[last - 1].seq + 1;
    t->pending++;
    to = PRINT(to, "ok reach ");
    to = print_number(to, t->reach);
    to = !x->open && last == x->log.count ? PRINT(to, " end") : PRINT(to, " more");
    for (size_t i = from; i < last; i++) {
        *to++ = ' ';
        to = print_number(to, x->log.records[i].seq);
    }
    *to++ = '\n';
}

/* A line by an actor: make, take, open, read, give or mark. */
static void raw(const char *at, const char *end) {
    uint64_t by, n[3];
    if (!(at = digits(at, end, &by)) || !by || by > 999 || at == end || *at++ != ' ') exit(1);
    const char *behind = memchr(at, ' ', (size_t)(end - at));
    if (!behind) exit(1);
    struct text word = {at, (size_t)(behind - at)};
    if (IS(word, "make")) {
        make(behind, end);
    } else if (IS(word, "take")) {
        take_row(behind, end, (unsigned)by);
    } else if (IS(word, "open")) {
        numbers(behind, end, 1, n);
        struct tenure *t = tenure_of(n[0], (unsigned)by);
        if (leases[t->lease / 4096][t->lease % 4096].tenure != n[0]) exit(1);
        t->opened = 1;
        to = PRINT(to, "ok\n");
    } else if (IS(word, "read")) {
        numbers(behind, end, 3, n);
        read_shard(tenure_of(n[0], (unsigned)by), n[1], n[2]);
    } else if (IS(word, "give")) {
        numbers(behind, end, 1, n);
        struct tenure *t = tenure_of(n[0], (unsigned)by);
        if (!t->pending) exit(1);
        t->delivered = t->reach;
        t->pending--;
        to = PRINT(to, "ok delivered ");
        to = print_number(to, t->delivered);
        *to++ = '\n';
    } else if (IS(word, "mark")) {
        numbers(behind, end, 3, n);
        struct tenure *t = tenure_of(n[0], (unsigned)by);
        struct lease *l = &leases[t->lease / 4096][t->lease % 4096];
        if (l->tenure != n[0] || l->counter != n[1] || n[2] >= t->delivered || (long)n[2] < l->checkpoint) exit(1);
        l->checkpoint = (long)n[2];
        l->counter++;
        to = PRINT(to, "ok counter ");
        to = print_number(to, l->counter);
        *to++ = '\n';
    } else {
        exit(1);
    }
}

/* ---- lines */

static void request(struct text name, const char *body, const char *end) {
    if (IS(name, "PutRecord")) put(body, end);
    else if (IS(name, "PutRecords")) put_many(body, end);
    else if (IS(name, "GetRecords")) get(body, end);
    else if (IS(name, "CreateStream")) create(body, end);
    else if (IS(name, "SplitShard")) split(body, end);
    else if (IS(name, "MergeShards")) merge(body, end);
    else if (IS(name, "ListShards")) list(body, end);
    else to = PRINT(to, "400 {\"__type\":\"UnknownOperationException\",\"message\":\"unknown operation\"}\n");
}

#define MOST_LINE 16777216
#define MOST_INPUT 1073741824

static void line(const char *at, const char *end) {
    uint64_t moment;
    if (end - at > MOST_LINE || !(at = digits(at, end, &moment)) || moment >> 62
        || end - at < 5 || *at++ != ' ') exit(3);
    if (!memcmp(at, "raw ", 4)) {
        if (moment > clock_) clock_ = moment;
        raw(at + 4, end);
        return;
    }
    if (memcmp(at, "api ", 4)) exit(3);
    at += 4;
    const char *behind = memchr(at, ' ', (size_t)(end - at));
    if (!behind || behind == at || behind - at > 64) exit(3);
    for (const char *c = at; c < behind; c++)
        if (!((*c >= 'a' && *c <= 'z') || (*c >= 'A' && *c <= 'Z') || (*c >= '0' && *c <= '9'))) exit(3);
    if (moment > clock_) clock_ = moment;
    request((struct text){at, (size_t)(behind - at)}, behind + 1, end);
}

int main(void) {
    base64_begin();
    size_t room = 1 << 20, len = 0, fed = 0;
    char *in = take(room);
    for (;;) {
        if (room - len < 65536) in = realloc(in, room *= 2);
        ssize_t n = read(0, in + len, 65536);
        if (n < 0) return 4;
        if (n == 0) break;
        len += (size_t)n;
        if ((fed += (size_t)n) > MOST_INPUT) return 9;
        char *at = in;
        for (;;) {
            char *end = memchr(at, '\n', len - (size_t)(at - in));
            if (!end) break;
            line(at, end);
            if (to - out > 65536) flush_out();
            at = end + 1;
        }
        flush_out();
        len -= (size_t)(at - in);
        memmove(in, at, len);
    }
    return len ? 3 : 0;
}
