/* A ceiling for `kds serve`: a thread a connection, one store under one lock.
 *
 *     server PORT full     the least honest work on each request, as strict as the program is: the head by its
 *                          headers, the body in one pass (strict.h), names, several streams with their shards, MD5,
 *                          base64, what a shard takes within a second
 *     server PORT bare     finds the end of the head and the Data member, copies it, and writes the response
 *
 * Of operations and of refusals it knows those that bench/serve asks for, and no others. */
#include "strict.h"
#include <arpa/inet.h>
#include <netinet/tcp.h>
#include <pthread.h>
#include <strings.h>
#include <sys/socket.h>
#include <time.h>
#include <unistd.h>

struct shard {
    struct log log;
    uint64_t second, records, bytes; /* what it took within the second, counted whether or not it is enforced */
};

struct stream {
    struct text name;
    unsigned count;
    uint64_t next;
    struct shard *shards;
};

static pthread_mutex_t lock = PTHREAD_MUTEX_INITIALIZER;
static struct stream streams[64];
static unsigned stream_count;
static int bare;

static uint64_t now_ms(void) {
    struct timespec t;
    clock_gettime(CLOCK_REALTIME, &t);
    return (uint64_t)t.tv_sec * 1000 + (uint64_t)t.tv_nsec / 1000000;
}

/* Bytes up to `len`, of which those before `from` don't count. */
struct buffer {
    char *at;
    size_t from, len, room;
};

static char *more(struct buffer *b, size_t bytes) {
    if (b->room - b->len < bytes) {
        b->room = (b->len + bytes) * 2;
        b->at = realloc(b->at, b->room);
        if (!b->at) exit(6);
    }
    return b->at + b->len;
}

#define HEAD 128

/* A body is written where it is sent from, after room for its head. */
static char *begin_body(struct buffer *out, size_t most) {
    return more(out, HEAD + most) + HEAD;
}

/* Writes the head right before the body; if a response stands before it, both move up to that. */
static void end_body(struct buffer *out, const char *end) {
    char head[HEAD], *front = out->at + out->len, *body = front + HEAD, *behind;
    behind = PRINT(head, "HTTP/1.1 200 OK\r\nContent-Type: application/x-amz-json-1.1\r\nContent-Length: ");
    behind = print_number(behind, (uint64_t)(end - body));
    behind = PRINT(behind, "\r\n\r\n");
    size_t head_len = (size_t)(behind - head), body_len = (size_t)(end - body);
    if (out->from == out->len) {
        memcpy(body - head_len, head, head_len);
        out->from += HEAD - head_len;
        out->len += HEAD + body_len;
    } else {
        memcpy(front, head, head_len);
        memmove(front + head_len, body, body_len);
        out->len += head_len + body_len;
    }
}

static char *place(char *to, uint64_t seq, unsigned shard) {
    to = PRINT(to, "{\"SequenceNumber\":\"");
    to = print_number(to, seq);
    to = PRINT(to, "\",\"ShardId\":\"shardId-");
    to = print_padded(to, shard, 12);
    return PRINT(to, "\"}");
}

/* ---- the store; all of it under the lock */

/* The streams by their names. */
static struct stream *by_name[1024];

/* The place of a name's stream, or of a new one if there is none of this name. */
static struct stream **slot_of(struct text name) {
    size_t slot = place_of(name);
    while (by_name[slot] && (by_name[slot]->name.len != name.len || memcmp(by_name[slot]->name.at, name.at, name.len)))
        slot = (slot + 1) % 1024;
    return &by_name[slot];
}

static void store(struct stream *s, unsigned shard, struct record *r) {
    struct shard *x = &s->shards[shard];
    if (x->second != r->arrival / 1000) x->second = r->arrival / 1000, x->records = x->bytes = 0;
    x->records++;
    x->bytes += r->key_len + r->payload_len;
    r->seq = s->next++;
    add_record(&x->log, *r);
}

/* ---- requests */

#define RECORD_BYTES 10485760u

/* A record of these members, and its hash. */
static struct record made(struct item *f, u128 *hash) {
    struct record r = {0};
    if (f->key.kind != STRING || !is_key(f->key.text) || f->data.kind != STRING || bad_bits(f->data.text)) exit(1);
    if (f->key.text.len + f->data.text.len / 4 * 3 > RECORD_BYTES) exit(1);
    if (f->hash.kind == NONE) *hash = hash_of(f->key.text);
    else if (f->hash.kind != STRING || !wide(f->hash.text, hash)) exit(1);
    r.bytes = take(f->key.text.len + f->data.text.len / 4 * 3 + 16);
    memcpy(r.bytes, f->key.text.at, f->key.text.len);
    r.key_len = f->key.text.len;
    long len = decode(f->data.text, r.bytes + r.key_len);
    if (len < 0) exit(1);
    r.payload_len = (size_t)len;
    return r;
}

static void named(const char *at, const char *end, struct found *f) {
    if (!read_body(at, end, f) || f->stream.kind != STRING || !is_name(f->stream.text)) exit(1);
}

static void create(const char *at, const char *end, struct buffer *out) {
    struct found f;
    uint64_t count;
    named(at, end, &f);
    if (!number_in(f.count, 1, 500, &count)) exit(1);
    char *name = take(f.stream.text.len);
    memcpy(name, f.stream.text.at, f.stream.text.len);
    pthread_mutex_lock(&lock);
    struct stream **slot = slot_of(f.stream.text);
    if (stream_count == 64 || *slot) exit(1);
    *slot = &streams[stream_count++];
    **slot = (struct stream){{name, f.stream.text.len}, (unsigned)count, 1, calloc(count, sizeof(struct shard))};
    pthread_mutex_unlock(&lock);
    end_body(out, begin_body(out, 0));
}

static void put(const char *at, const char *end, struct buffer *out) {
    struct found f;
    u128 hash;
    named(at, end, &f);
    struct item it = {f.key, f.data, f.hash};
    struct record r = made(&it, &hash);
    r.arrival = now_ms();
    pthread_mutex_lock(&lock);
    struct stream *s = *slot_of(f.stream.text);
    if (!s) exit(1);
    unsigned shard = home_of(hash, s->count);
    store(s, shard, &r);
    pthread_mutex_unlock(&lock);
    end_body(out, place(begin_body(out, 100), r.seq, shard));
}

static void put_many(const char *at, const char *end, struct buffer *out) {
    static __thread struct record many[500];
    static __thread u128 hashes[500];
    static __thread unsigned shards[500];
    struct found f;
    named(at, end, &f);
    if (f.records.kind != ARRAY) exit(1);
    size_t count = 0, bytes = 0;
    uint64_t arrival = now_ms();
    if (!item_count) exit(1);
    for (; count < item_count; count++) {
        many[count] = made(&items[count], &hashes[count]);
        many[count].arrival = arrival;
        bytes += many[count].key_len + many[count].payload_len;
    }
    if (bytes > RECORD_BYTES) exit(1);
    pthread_mutex_lock(&lock);
    struct stream *s = *slot_of(f.stream.text);
    if (!s) exit(1);
    for (size_t i = 0; i < count; i++) {
        shards[i] = home_of(hashes[i], s->count);
        store(s, shards[i], &many[i]);
    }
    pthread_mutex_unlock(&lock);
    char *to = begin_body(out, count * 100 + 100);
    to = PRINT(to, "{\"FailedRecordCount\":0,\"Records\":[");
    for (size_t i = 0; i < count; i++) {
        if (i) *to++ = ',';
        to = place(to, many[i].seq, shards[i]);
    }
    end_body(out, PRINT(to, "]}"));
}

/* A batch from the position that the token names. */
static void get(const char *at, const char *end, struct buffer *out) {
    struct found f;
    uint64_t part[4], limit = 10000, now = now_ms();
    if (!read_body(at, end, &f) || !iterator_of(f.iterator, part)) exit(1);
    if (f.limit.kind != NONE && !number_in(f.limit, 1, 10000, &limit)) exit(1);
    if (now > part[3] && now - part[3] > 300000) exit(1);
    pthread_mutex_lock(&lock);
    if (!part[0] || part[0] > stream_count || part[1] >= streams[part[0] - 1].count) exit(1);
    struct log *kept = &streams[part[0] - 1].shards[part[1]].log;
    size_t low = 0, high = kept->count;
    while (low < high) {
        size_t middle = (low + high) / 2;
        if (kept->records[middle].seq < part[2]) low = middle + 1;
        else high = middle;
    }
    size_t count = kept->count - low < limit ? kept->count - low : limit;
    uint64_t behind = low + count < kept->count ? now - kept->records[low + count].arrival : 0;
    struct record *batch = take(count * sizeof *batch);
    memcpy(batch, kept->records + low, count * sizeof *batch);
    pthread_mutex_unlock(&lock);
    size_t room = 300;
    for (size_t i = 0; i < count; i++) room += batch[i].key_len + batch[i].payload_len / 3 * 4 + 150;
    char *to = begin_body(out, room);
    to = PRINT(to, "{\"MillisBehindLatest\":");
    to = print_number(to, behind);
    to = PRINT(to, ",\"NextShardIterator\":\"");
    char next[128], *e = PRINT(next, "KI1:");
    uint64_t numbers[4] = {part[0], part[1], count ? batch[count - 1].seq + 1 : part[2], now};
    for (int i = 0; i < 4; i++) {
        if (i) *e++ = ':';
        e = print_number(e, numbers[i]);
    }
    to = encode((unsigned char *)next, (size_t)(e - next), to);
    to = PRINT(to, "\",\"Records\":[");
    for (size_t i = 0; i < count; i++) {
        if (i) *to++ = ',';
        to = print_record(to, &batch[i]);
    }
    end_body(out, PRINT(to, "]}"));
    free(batch);
}

/* ---- heads */

struct head {
    struct text target;
    size_t length;
    int is_json, closes, targets, types, lengths;
};

static int is(struct text t, const char *name) {
    return t.len == strlen(name) && !strncasecmp(t.at, name, t.len);
}

/* A head up to its empty line: the method, the target, and at most 64 headers with the names that count. */
static int read_head(const char *at, const char *end, struct head *h) {
    static const char first[] = "POST / HTTP/1.1\r\n";
    *h = (struct head){0};
    if (end - at > 16384 || (size_t)(end - at) < sizeof first - 1 || memcmp(at, first, sizeof first - 1)) return 0;
    at += sizeof first - 1;
    for (int count = 0; at < end; count++) {
        const char *line = memchr(at, '\r', (size_t)(end - at));
        if (!line) line = end;
        const char *colon = memchr(at, ':', (size_t)(line - at));
        if (!colon || colon == at || count == 64) return 0;
        struct text name = {at, (size_t)(colon - at)}, value = {colon + 1, (size_t)(line - colon - 1)};
        for (size_t i = 0; i < name.len; i++)
            if ((unsigned char)name.at[i] <= ' ' || (unsigned char)name.at[i] >= 127) return 0;
        while (value.len && (*value.at == ' ' || *value.at == '\t')) value.at++, value.len--;
        while (value.len && (value.at[value.len - 1] == ' ' || value.at[value.len - 1] == '\t')) value.len--;
        if (is(name, "Content-Length")) {
            if (!value.len || value.len > 19) return 0;
            for (size_t i = 0; i < value.len; i++) {
                if (value.at[i] < '0' || value.at[i] > '9') return 0;
                h->length = h->length * 10 + (size_t)(value.at[i] - '0');
            }
            h->lengths++;
        } else if (is(name, "X-Amz-Target")) {
            h->target = value;
            h->targets++;
        } else if (is(name, "Content-Type")) {
            h->is_json = value.len >= 26 && !memcmp(value.at, "application/x-amz-json-1.1", 26)
                                     && (value.len == 26 || value.at[26] == ';');
            h->types++;
        } else if (is(name, "Connection")) {
            h->closes |= is(value, "close");
        } else if (is(name, "Transfer-Encoding")) {
            return 0;
        }
        at = line + 2;
    }
    return h->lengths == 1 && h->length <= 1 << 24;
}

static void answer(struct head *h, const char *body, struct buffer *out) {
    static const char front[] = "Kinesis_20131202.";
    const char *end = body + h->length;
    size_t skipped = sizeof front - 1;
    if (h->targets != 1 || h->types != 1 || !h->is_json || h->target.len <= skipped
        || memcmp(h->target.at, front, skipped)) exit(1);
    struct text name = {h->target.at + skipped, h->target.len - skipped};
    if (IS(name, "PutRecord")) put(body, end, out);
    else if (IS(name, "PutRecords")) put_many(body, end, out);
    else if (IS(name, "GetRecords")) get(body, end, out);
    else if (IS(name, "CreateStream")) create(body, end, out);
    else exit(1);
}

/* The one next to nothing: finds a member, and copies it. */
static void answer_barely(const char *head, const char *body, size_t len, struct buffer *out) {
    const char *end = body + len, *target = memmem(head, (size_t)(body - head), "Kinesis_20131202.", 17);
    static struct log kept;
    static uint64_t next = 1;
    struct text data;
    if (!target) exit(1);
    int many = !memcmp(target + 17, "PutRecords", 10);
    if (!many && memcmp(target + 17, "PutRecord", 9)) {
        end_body(out, begin_body(out, 0));
        return;
    }
    char *to = begin_body(out, many ? 60000 : 200);
    if (many) to = PRINT(to, "{\"FailedRecordCount\":0,\"Records\":[");
    for (int i = 0; MEMBER(&body, end, "\"Data\":\"", &data); i++) {
        struct record r = {.bytes = take(data.len), .payload_len = data.len * 3 / 4};
        memcpy(r.bytes, data.at, r.payload_len);
        pthread_mutex_lock(&lock);
        r.seq = next++;
        add_record(&kept, r);
        pthread_mutex_unlock(&lock);
        if (i) *to++ = ',';
        to = place(to, r.seq, 0);
    }
    end_body(out, many ? PRINT(to, "]}") : to);
}

/* ---- connections */

static int send_all(int socket, struct buffer *out) {
    while (out->from < out->len) {
        ssize_t n = send(socket, out->at + out->from, out->len - out->from, MSG_NOSIGNAL);
        if (n <= 0) return 0;
        out->from += (size_t)n;
    }
    out->from = out->len = 0;
    return 1;
}

/* Answers the request at the front, if it is whole, and gives how many bytes it has. One that isn't needs so
 * many, as soon as its head is whole. */
static size_t answer_front(const char *head, size_t unread, size_t *needs, struct buffer *out) {
    if (unread < *needs) return 0;
    const char *end = unread ? memmem(head, unread, "\r\n\r\n", 4) : NULL;
    struct head h = {0};
    if (!end) return 0;
    if (bare) {
        const char *says = memmem(head, (size_t)(end - head), "Content-Length: ", 16);
        h.length = says ? strtoul(says + 16, NULL, 10) : 0;
    } else if (!read_head(head, end, &h)) {
        exit(1);
    }
    size_t whole = (size_t)(end + 4 - head) + h.length;
    *needs = whole > unread ? whole : 0;
    if (*needs) return 0;
    if (bare) answer_barely(head, end + 4, h.length, out);
    else answer(&h, end + 4, out);
    return whole;
}

static void *serve(void *given) {
    int socket = (int)(intptr_t)given;
    struct buffer in = {0}, out = {0};
    size_t used = 0, needs = 0;
    for (;;) {
        size_t done = answer_front(in.at + used, in.len - used, &needs, &out);
        used += done;
        if (done && out.len - out.from < 65536) continue;
        if (out.from < out.len && !send_all(socket, &out)) break;
        if (done) continue;
        memmove(in.at, in.at + used, in.len - used);
        in.len -= used;
        used = 0;
        ssize_t n = recv(socket, more(&in, 65536), 65536, 0);
        if (n <= 0) break;
        in.len += (size_t)n;
    }
    close(socket);
    free(in.at);
    free(out.at);
    return NULL;
}

int main(int count, char **words) {
    if (count != 3) return 2;
    bare = !strcmp(words[2], "bare");
    base64_begin();
    int door = socket(AF_INET, SOCK_STREAM, 0), on = 1;
    setsockopt(door, SOL_SOCKET, SO_REUSEADDR, &on, sizeof on);
    struct sockaddr_in at = {.sin_family = AF_INET, .sin_port = htons((uint16_t)atoi(words[1])),
                                 .sin_addr = {htonl(INADDR_LOOPBACK)}};
    if (bind(door, (struct sockaddr *)&at, sizeof at) || listen(door, 128)) return 8;
    puts("listening");
    fflush(stdout);
    for (;;) {
        int socket = accept(door, NULL, NULL);
        if (socket < 0) continue;
        setsockopt(socket, IPPROTO_TCP, TCP_NODELAY, &on, sizeof on);
        pthread_t thread;
        if (pthread_create(&thread, NULL, serve, (void *)(intptr_t)socket)) close(socket);
        else pthread_detach(thread);
    }
}
