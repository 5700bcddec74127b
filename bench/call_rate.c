/* call_rate PORT ROOT CLIENTS CALLS: how many calls of NFS version 3 a second a server on 127.0.0.1 answers. ROOT is the root's handle in hex.
 * Each client is a thread with one connection. It creates a file of its own, and then makes CALLS calls one behind the other, in turn an UNSTABLE
 * WRITE of 64 bytes, a READ of them and a GETATTR (RFC 1813, sections 3.3.8, 3.3.7, 3.3.6 and 3.3.1). An answer with another status than
 * NFS3_OK ends it with status 1.     gcc -O2 -Wall -pthread -o call_rate call_rate.c */
#include <arpa/inet.h>
#include <netinet/tcp.h>
#include <pthread.h>
#include <stdint.h>
#include <stdio.h>
#include <stdlib.h>
#include <string.h>
#include <time.h>
#include <unistd.h>

struct message { unsigned char bytes[4096]; size_t size; };
struct handle { unsigned char bytes[64]; uint32_t size; };
static int port; static long calls; static struct handle root;

static void word(struct message *m, uint32_t value) { value = htonl(value); memcpy(m->bytes + m->size, &value, 4); m->size += 4; }
static void opaque(struct message *m, const void *bytes, uint32_t size) {
    word(m, size); memset(m->bytes + m->size, 0, (size + 3) & ~3u); memcpy(m->bytes + m->size, bytes, size); m->size += (size + 3) & ~3u;
}
static uint32_t word_at(const struct message *m, size_t at) { uint32_t value; memcpy(&value, m->bytes + at, 4); return ntohl(value); }

/* The head of a call, behind room for the record mark (RFC 5531): AUTH_SYS of user 0. */
static void begin(struct message *m, uint32_t xid, uint32_t procedure) {
    static const uint32_t sys[] = {1, 20, 0, 0, 0, 0, 0, 0, 0};
    m->size = 4; word(m, xid); word(m, 0); word(m, 2); word(m, 100003); word(m, 3); word(m, procedure);
    for (int i = 0; i < 9; i++) word(m, sys[i]);
}
static int fill(int socket, void *bytes, size_t size) {
    for (size_t got = 0; got < size;) { ssize_t n = read(socket, (char *)bytes + got, size - got); if (n <= 0) return -1; got += n; }
    return 0;
}
/* Sends the call; the reply has one fragment. Its results begin at byte 24, behind an empty verifier. */
static int answered(int socket, struct message *m) {
    uint32_t mark = htonl(0x80000000u | (m->size - 4)); memcpy(m->bytes, &mark, 4);
    if (write(socket, m->bytes, m->size) != (ssize_t)m->size || fill(socket, &mark, 4)) return -1;
    m->size = ntohl(mark) & 0x7fffffff;
    if (m->size > sizeof m->bytes || fill(socket, m->bytes, m->size)) return -1;
    if (word_at(m, 8) || word_at(m, 20) || word_at(m, 24)) { fprintf(stderr, "status %u\n", word_at(m, 24)); return -1; }
    return 0;
}
static void *client(void *number) {
    struct sockaddr_in to = {.sin_family = AF_INET, .sin_port = htons(port), .sin_addr.s_addr = htonl(INADDR_LOOPBACK)};
    int s = socket(AF_INET, SOCK_STREAM, 0), one = 1; struct message m; struct handle file; char name[32], data[64];
    if (connect(s, (struct sockaddr *)&to, sizeof to)) exit(1);
    setsockopt(s, IPPROTO_TCP, TCP_NODELAY, &one, sizeof one); memset(data, 'a' + (long)number % 26, sizeof data);
    snprintf(name, sizeof name, "client%ld", (long)number);
    begin(&m, 1, 8); opaque(&m, root.bytes, root.size); opaque(&m, name, strlen(name));
    word(&m, 0); word(&m, 1); word(&m, 0644); for (int i = 0; i < 5; i++) word(&m, 0);
    if (answered(s, &m) || word_at(&m, 28) != 1) exit(1);
    file.size = word_at(&m, 32); if (file.size > sizeof file.bytes) exit(1); memcpy(file.bytes, m.bytes + 36, file.size);
    for (long n = 0; n < calls; n++) {
        static const uint32_t procedures[] = {7, 6, 1};
        begin(&m, n + 2, procedures[n % 3]); opaque(&m, file.bytes, file.size);
        if (n % 3 < 2) { word(&m, 0); word(&m, n / 3 % 64 * 64); word(&m, sizeof data); }
        if (n % 3 == 0) { word(&m, 0); opaque(&m, data, sizeof data); }
        if (answered(s, &m)) exit(1);
    }
    close(s); return NULL;
}
int main(int argc, char **argv) {
    if (argc != 5) { fprintf(stderr, "call_rate PORT ROOT CLIENTS CALLS\n"); return 2; }
    int clients = atoi(argv[3]); if (clients < 1 || clients > 64 || strlen(argv[2]) > 128) return 2; port = atoi(argv[1]); calls = atol(argv[4]);
    root.size = strlen(argv[2]) / 2; for (uint32_t i = 0; i < root.size; i++) { unsigned b; sscanf(argv[2] + 2 * i, "%2x", &b); root.bytes[i] = b; }
    pthread_t threads[64]; struct timespec a, b; clock_gettime(CLOCK_MONOTONIC, &a);
    for (long i = 0; i < clients; i++) pthread_create(&threads[i], NULL, client, (void *)i);
    for (int i = 0; i < clients; i++) pthread_join(threads[i], NULL);
    clock_gettime(CLOCK_MONOTONIC, &b); double took = b.tv_sec - a.tv_sec + (b.tv_nsec - a.tv_nsec) / 1e9;
    printf("clients %d calls %ld seconds %.2f calls a second %.0f\n", clients, clients * (calls + 1), took, clients * (calls + 1) / took);
    return 0;
}
