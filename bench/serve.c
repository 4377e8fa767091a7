/* A plain echo server over UDP, and a client that asks a server one question after the other.
 *
 *     serve echo PORT             answers each packet with its own bytes, until one begins with the byte 0
 *     serve keep PORT FILE        the same, but puts each packet behind the file first, as a log does: its bytes, a sync, a byte, a sync
 *     serve load PORT KIND COUNT  asks COUNT times, and prints calls a second and the 99th percentile in microseconds
 *
 * KIND is `status`, or `write`: 64 bytes at the front of the file /f. A question is a packet of a client, by docs/FORMATS.md;
 * its answer is any packet that comes back. */
#include <arpa/inet.h>
#include <fcntl.h>
#include <stdint.h>
#include <stdio.h>
#include <stdlib.h>
#include <string.h>
#include <sys/socket.h>
#include <sys/time.h>
#include <time.h>
#include <unistd.h>

static struct sockaddr_in at(int port) {
    struct sockaddr_in a;
    memset(&a, 0, sizeof a);
    a.sin_family = AF_INET;
    a.sin_port = htons((uint16_t)port);
    a.sin_addr.s_addr = htonl(INADDR_LOOPBACK);
    return a;
}

static void fail(const char *what) {
    perror(what);
    exit(1);
}

static int bound(int port) {
    int s = socket(AF_INET, SOCK_DGRAM, 0);
    struct sockaddr_in a = at(port);
    if (s < 0 || bind(s, (struct sockaddr *)&a, sizeof a) != 0) fail("bind");
    struct timeval patience = {1, 0};
    setsockopt(s, SOL_SOCKET, SO_RCVTIMEO, &patience, sizeof patience);
    return s;
}

/* Puts a length and bytes, with a closed gate behind them, at the place of the last gate, and then opens that: each of both is synced. */
static off_t keep(int file, off_t gate, const unsigned char *bytes, size_t n) {
    static unsigned char block[40006];
    for (int i = 0; i < 4; i++) block[i] = (unsigned char)(n >> (24 - 8 * i));
    memcpy(block + 4, bytes, n);
    block[4 + n] = 0;
    if (pwrite(file, block, n + 5, gate + 1) != (ssize_t)(n + 5) || fsync(file) != 0) fail("write");
    if (pwrite(file, "\x01", 1, gate) != 1 || fsync(file) != 0) fail("write");
    return gate + 5 + (off_t)n;
}

static int echo(int port, const char *name) {
    static unsigned char bytes[40001];
    int s = bound(port), file = -1;
    off_t gate = 16;
    if (name && (file = open(name, O_CREAT | O_TRUNC | O_RDWR, 0644)) < 0) fail("open");
    for (;;) {
        struct sockaddr_in from;
        socklen_t size = sizeof from;
        ssize_t n = recvfrom(s, bytes, sizeof bytes, 0, (struct sockaddr *)&from, &size);
        if (n < 0) continue;
        if (n > 0 && bytes[0] == 0) return 0;
        if (name) gate = keep(file, gate, bytes, (size_t)n);
        sendto(s, bytes, (size_t)n, 0, (struct sockaddr *)&from, size);
    }
}

/* A packet of a client: the mark, the kind of a call, sender 0, view 0, and the number of the call. */
static size_t front(unsigned char *out, uint64_t number) {
    memset(out, 0, 24);
    memcpy(out, "PG\x01\x1b", 4);
    for (int i = 0; i < 8; i++) out[16 + i] = (unsigned char)(number >> (56 - 8 * i));
    return 24;
}

static size_t question(unsigned char *out, const char *kind, uint64_t number) {
    size_t n = front(out, number);
    if (strcmp(kind, "status") == 0) {
        out[n++] = 17;
        return n;
    }
    static const unsigned char words[] = {3, 0, 2, '/', 'f', 0, 0, 0, 0, 0, 0, 0, 64};
    memcpy(out + n, words, sizeof words);
    n += sizeof words;
    memset(out + n, (int)(number & 255), 64);
    return n + 64;
}

static int order(const void *a, const void *b) {
    double x = *(const double *)a, y = *(const double *)b;
    return (x > y) - (x < y);
}

static double now(void) {
    struct timespec t;
    clock_gettime(CLOCK_MONOTONIC, &t);
    return (double)t.tv_sec + 1e-9 * (double)t.tv_nsec;
}

static int load(int port, const char *kind, long count) {
    static unsigned char asked[256], got[40001];
    int s = bound(0);
    struct sockaddr_in to = at(port);
    if (connect(s, (struct sockaddr *)&to, sizeof to) != 0) fail("connect");
    double *times = malloc((size_t)count * sizeof *times);
    if (!times) fail("malloc");
    double start = now();
    for (long i = 0; i < count; i++) {
        size_t n = question(asked, kind, (uint64_t)i + 1);
        double before = now();
        if (send(s, asked, n, 0) < 0) fail("send");
        if (recv(s, got, sizeof got, 0) < 0) fail("recv");
        times[i] = now() - before;
    }
    double all = now() - start;
    qsort(times, (size_t)count, sizeof *times, order);
    printf("%.0f %.1f\n", (double)count / all, 1e6 * times[count * 99 / 100]);
    return 0;
}

int main(int n, char **words) {
    if (n == 3 && strcmp(words[1], "echo") == 0) return echo(atoi(words[2]), NULL);
    if (n == 4 && strcmp(words[1], "keep") == 0) return echo(atoi(words[2]), words[3]);
    if (n == 5 && strcmp(words[1], "load") == 0) return load(atoi(words[2]), words[3], atol(words[4]));
    fprintf(stderr, "serve: echo PORT, keep PORT FILE, or load PORT KIND COUNT\n");
    return 2;
}
