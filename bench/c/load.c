/* A load of keep-alive connections on a server: each has a thread, which sends some requests at once and waits for
 * their responses, until the time is over. Prints the requests a second.
 *
 *     load PORT CELL CONNECTIONS AT_ONCE SECONDS
 *
 * CELL is put100, put10k, many500 (PutRecords of 500 records of 100 bytes), get1000 (GetRecords of 1,000 records of 100
 * bytes), streams (as put100, over 64 streams in turn), fill (makes a stream of one shard, and puts 1,000 records), or
 * fill64 (makes 64 streams of 7 shards). The puts of one record have KEYS keys in turn. The connections and the time
 * are bounded. */
#include "least.h"
#include <arpa/inet.h>
#include <netinet/tcp.h>
#include <pthread.h>
#include <sys/socket.h>
#include <time.h>
#include <unistd.h>

#define KEYS 1024
#define STREAMS 64

static int port, at_once;
static double until;
/* requests of this length, one after another, and how many */
static char *asked;
static size_t asked_len, asked_count;

static double seconds(void) {
    struct timespec t;
    clock_gettime(CLOCK_MONOTONIC, &t);
    return (double)t.tv_sec + (double)t.tv_nsec / 1e9;
}

static int reach(void) {
    int socket_ = socket(AF_INET, SOCK_STREAM, 0), on = 1;
    struct sockaddr_in at = {.sin_family = AF_INET, .sin_port = htons((uint16_t)port),
                                 .sin_addr = {htonl(INADDR_LOOPBACK)}};
    if (connect(socket_, (struct sockaddr *)&at, sizeof at)) {
        perror("connect");
        exit(1);
    }
    setsockopt(socket_, IPPROTO_TCP, TCP_NODELAY, &on, sizeof on);
    return socket_;
}

/* Takes whole responses off the front, which are in the buffer or still to come, until `count` are done. */
static void take_responses(int socket, char *room, size_t size, size_t *len, int count) {
    for (;;) {
        size_t used = 0;
        while (count) {
            char *end = memmem(room + used, *len - used, "\r\n\r\n", 4);
            if (!end) break;
            if (memcmp(room + used, "HTTP/1.1 200", 12)) {
                fwrite(room + used, 1, *len - used, stderr);
                exit(1);
            }
            char *says = memmem(room + used, (size_t)(end - room) - used, "Content-Length: ", 16);
            size_t whole = (size_t)(end + 4 - room) - used + strtoul(says + 16, NULL, 10);
            if (whole > *len - used) break;
            used += whole;
            count--;
        }
        memmove(room, room + used, *len - used);
        *len -= used;
        if (!count) return;
        ssize_t n = recv(socket, room + *len, size - *len, 0);
        if (n <= 0) {
            fputs("the server closed\n", stderr);
            exit(1);
        }
        *len += (size_t)n;
    }
}

static void send_all(int socket, const char *bytes, size_t len) {
    while (len) {
        ssize_t n = send(socket, bytes, len, MSG_NOSIGNAL);
        if (n <= 0) exit(1);
        bytes += n;
        len -= (size_t)n;
    }
}

static void *work(void *given) {
    uint64_t *done = given;
    int socket = reach();
    size_t size = 8 << 20, len = 0;
    char *room = take(size);
    size_t next = 0;
    while (seconds() < until) {
        send_all(socket, asked + asked_len * next, asked_len * (size_t)at_once);
        take_responses(socket, room, size, &len, at_once);
        *done += (uint64_t)at_once;
        next = (next + (size_t)at_once) % asked_count;
    }
    close(socket);
    free(room);
    return NULL;
}

static char *item(char *to, size_t bytes, size_t i) {
    static unsigned char payload[10000];
    memset(payload, (int)(i % 251), bytes);
    to = PRINT(to, "\"Data\":\"");
    to = encode(payload, bytes, to);
    to = PRINT(to, "\",\"PartitionKey\":\"key-");
    to = print_padded(to, i, 4);
    return PRINT(to, "\"");
}

/* A request whose body is that of the cell. */
static size_t write_request(char *to, const char *operation, const char *body, size_t len) {
    return (size_t)sprintf(to,
                           "POST / HTTP/1.1\r\nHost: 127.0.0.1:4567\r\nX-Amz-Target: Kinesis_20131202.%s\r\n"
                           "Content-Type: application/x-amz-json-1.1\r\nAuthorization: AWS4-HMAC-SHA256 x\r\n"
                           "Content-Length: %zu\r\n\r\n%.*s",
                           operation, len, (int)len, body);
}

/* The name of a stream: "s", or of several "s00" and so on. */
static char *print_stream(char *to, int several, size_t i) {
    *to++ = 's';
    return several ? print_padded(to, i % STREAMS, 2) : to;
}

static int is_several(const char *name) { return !strcmp(name, "streams") || !strcmp(name, "fill64"); }

/* The request of a cell whose number is i. */
static size_t cell(const char *name, size_t i, char *to) {
    char *body = take(1 << 20), *end = body;
    const char *operation = "PutRecord";
    if (!strcmp(name, "get1000")) {
        struct timespec t;
        clock_gettime(CLOCK_REALTIME, &t);
        char token[100];
        int len = snprintf(token, sizeof token, "KI1:1:0:0:%llu", (unsigned long long)t.tv_sec * 1000);
        operation = "GetRecords";
        end = PRINT(end, "{\"ShardIterator\":\"");
        end = encode((unsigned char *)token, (size_t)len, end);
        end = PRINT(end, "\",\"Limit\":1000}");
    } else if (!strcmp(name, "many500")) {
        operation = "PutRecords";
        end = PRINT(end, "{\"StreamName\":\"s\",\"Records\":[");
        for (size_t j = 0; j < 500; j++) {
            end = j ? PRINT(end, ",{") : PRINT(end, "{");
            end = item(end, 100, j);
            *end++ = '}';
        }
        end = PRINT(end, "]}");
    } else {
        end = PRINT(end, "{\"StreamName\":\"");
        end = print_stream(end, is_several(name), i);
        end = PRINT(end, "\",");
        end = item(end, !strcmp(name, "put10k") ? 10000 : 100, i);
        *end++ = '}';
    }
    size_t len = write_request(to, operation, body, (size_t)(end - body));
    free(body);
    return len;
}

static void fill(const char *name) {
    static char room[1 << 16];
    size_t len = 0;
    int several = is_several(name);
    char *request = take(1 << 21);
    int socket = reach();
    for (size_t i = 0; i < (several ? STREAMS : 1); i++) {
        char create[100], *end = PRINT(create, "{\"StreamName\":\"");
        end = print_stream(end, several, i);
        end = several ? PRINT(end, "\",\"ShardCount\":7}") : PRINT(end, "\",\"ShardCount\":1}");
        send_all(socket, request, write_request(request, "CreateStream", create, (size_t)(end - create)));
        take_responses(socket, room, sizeof room, &len, 1);
    }
    for (size_t i = 0; i < 1000; i++) {
        send_all(socket, request, cell(several ? "streams" : "put100", i, request));
        take_responses(socket, room, sizeof room, &len, 1);
    }
    close(socket);
    free(request);
}

int main(int count, char **words) {
    if (count != 6) return 2;
    base64_begin();
    port = atoi(words[1]);
    int connections = atoi(words[3]);
    at_once = atoi(words[4]);
    if (connections < 1 || connections > 64 || at_once < 1 || at_once > 64 || atof(words[5]) > 60) return 2;
    if (!strncmp(words[2], "fill", 4)) {
        fill(words[2]);
        return 0;
    }
    char *one = take(2 << 20);
    int is_put = strcmp(words[2], "many500") && strcmp(words[2], "get1000");
    asked_count = (size_t)(is_put ? KEYS / at_once * at_once : at_once);
    asked_len = cell(words[2], 0, one);
    asked = take(asked_len * asked_count);
    for (size_t i = 0; i < asked_count; i++) memcpy(asked + asked_len * i, one, cell(words[2], i, one));
    static uint64_t done[64][8];
    pthread_t threads[64];
    double begin = seconds();
    until = begin + atof(words[5]);
    for (int i = 0; i < connections; i++) pthread_create(&threads[i], NULL, work, done[i]);
    uint64_t all = 0;
    for (int i = 0; i < connections; i++) {
        pthread_join(threads[i], NULL);
        all += done[i][0];
    }
    printf("%.0f\n", (double)all / (seconds() - begin));
    return 0;
}
