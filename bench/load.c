/* The load of bench/side_by_side, as one loop over all sockets: peers of a relay, or clients of a redis list.

   load relay SECONDS PAYLOAD WINDOW SINK PORT:STATION ..   each peer has WINDOW Data on their way; SINK is a socket's port and the port
                                                           of the relay's hop with a colon between them, or 0
   load redis SECONDS PAYLOAD WINDOW PORT CLIENTS           each client has WINDOW commands on their way
   load flood SECONDS RATE PORT                             so many packets of nonsense a second to one port

   The first two print the answers, the seconds, the Data that reached the sink, the Data that were sent again and the processor
   seconds of this program. A peer's last number is asked for until it is heard, and then the time begins. */
#define _GNU_SOURCE
#include <arpa/inet.h>
#include <errno.h>
#include <fcntl.h>
#include <netinet/in.h>
#include <netinet/tcp.h>
#include <stdint.h>
#include <stdio.h>
#include <stdlib.h>
#include <string.h>
#include <sys/epoll.h>
#include <sys/socket.h>
#include <time.h>
#include <unistd.h>

enum { RELAY = 7, HOP = 9, LONGEST = 9000, MOST = 256 };

/* How long nothing is acknowledged until a peer sends its window again, in seconds. */
static const double RESEND = 0.05;

struct end {
    int socket;
    uint16_t station;
    /* The last number acknowledged and the last one sent, and when one was last acknowledged. */
    uint64_t last, sent;
    double moved;
};

static struct end ends[MOST];
static int count, window, payload, sink = -1;
static uint64_t answers, handed, again;
static char bytes[LONGEST + 64];

static void stop(const char *what) {
    perror(what);
    exit(1);
}

static double now(void) {
    struct timespec t;
    clock_gettime(CLOCK_MONOTONIC, &t);
    return t.tv_sec + t.tv_nsec / 1e9;
}

static double used(void) {
    struct timespec t;
    clock_gettime(CLOCK_PROCESS_CPUTIME_ID, &t);
    return t.tv_sec + t.tv_nsec / 1e9;
}

static int open_socket(int kind, int own, int other) {
    struct sockaddr_in at = {.sin_family = AF_INET, .sin_addr.s_addr = htonl(INADDR_LOOPBACK)};
    int end = socket(AF_INET, kind, 0), one = 1, room = 4 << 20;
    if (end < 0) stop("socket");
    setsockopt(end, SOL_SOCKET, SO_RCVBUF, &room, sizeof room);
    if (own) {
        at.sin_port = htons(own);
        setsockopt(end, SOL_SOCKET, SO_REUSEADDR, &one, sizeof one);
        if (bind(end, (void *)&at, sizeof at)) stop("bind");
    }
    at.sin_port = htons(other);
    if (connect(end, (void *)&at, sizeof at)) stop("connect");
    if (kind == SOCK_STREAM) setsockopt(end, IPPROTO_TCP, TCP_NODELAY, &one, sizeof one);
    fcntl(end, F_SETFL, O_NONBLOCK);
    return end;
}

static void put(char *at, uint64_t value, int size) {
    while (size--) at[size] = value, value >>= 8;
}

static uint64_t get(const char *at) {
    uint64_t value = 0;
    for (int i = 0; i < 8; i++) value = value << 8 | (uint8_t)at[i];
    return value;
}

static void send_data(struct end *peer, uint64_t number) {
    put(bytes + 4, peer->station, 2);
    put(bytes + 8, number, 8);
    /* The relay may not listen yet. */
    if (send(peer->socket, bytes, 18 + payload, 0) < 0 && errno != ECONNREFUSED && errno != EAGAIN) stop("send");
}

static void fill(struct end *peer, double at) {
    if (peer->sent == peer->last) peer->moved = at;
    while (peer->sent < peer->last + window) send_data(peer, ++peer->sent);
}

/* Receives what waits at a peer, and returns whether custody rose. */
static int hear(struct end *peer) {
    char packet[64];
    uint64_t before = peer->last;
    ssize_t size;
    while ((size = recv(peer->socket, packet, sizeof packet, 0)) >= 0)
        if (size == 16 && packet[3] == 2 && get(packet + 8) > peer->last && get(packet + 8) <= peer->sent)
            peer->last = get(packet + 8);
    return peer->last > before;
}

static void hear_sink(void) {
    static uint64_t last;
    char packet[LONGEST], answer[16] = {'R', 'L', 1, 2};
    put(answer + 4, HOP, 2), put(answer + 6, RELAY, 2);
    while (recv(sink, packet, sizeof packet, 0) >= 0) {
        if (get(packet + 8) == last + 1) last++, handed++;
        put(answer + 8, last, 8);
        send(sink, answer, sizeof answer, 0);
    }
}

static void relay(double seconds) {
    struct epoll_event found[64];
    int poll = epoll_create1(0), waiting = count, timed = 0;
    double began = now(), end = began + 10, looked = began, processor = 0;
    for (int i = 0; i < count; i++) {
        struct epoll_event event = {.events = EPOLLIN, .data.u32 = i};
        epoll_ctl(poll, EPOLL_CTL_ADD, ends[i].socket, &event);
        ends[i].sent = 1, ends[i].moved = began;
        send_data(&ends[i], 1);
    }
    struct epoll_event event = {.events = EPOLLIN, .data.u32 = MOST};
    if (sink >= 0) epoll_ctl(poll, EPOLL_CTL_ADD, sink, &event);
    for (double at = began; at < end; at = now()) {
        int many = epoll_wait(poll, found, 64, 10);
        at = now();
        for (int i = 0; i < many; i++) {
            if (found[i].data.u32 == MOST) {
                hear_sink();
                continue;
            }
            struct end *peer = &ends[found[i].data.u32];
            uint64_t before = peer->last;
            if (!hear(peer)) continue;
            peer->moved = at;
            if (timed) answers += peer->last - before, fill(peer, at);
            else waiting -= before == 0;
        }
        if (!timed && waiting == 0) {
            timed = 1, began = at, end = at + seconds, handed = 0, processor = used();
            for (int i = 0; i < count; i++) fill(&ends[i], at);
        }
        if (at > looked + 0.01) {
            looked = at;
            for (int i = 0; i < count; i++)
                if (ends[i].sent > ends[i].last && at > ends[i].moved + RESEND) {
                    ends[i].moved = at;
                    for (uint64_t n = ends[i].last + 1; n <= ends[i].sent; n++) again += timed, send_data(&ends[i], n);
                }
        }
    }
    if (!timed) {
        fprintf(stderr, "load: %d peers heard nothing within 10 s\n", waiting);
        exit(1);
    }
    printf("%lu %.6f %lu %lu %.6f\n", answers, now() - began, handed, again, used() - processor);
}

static void redis(double seconds) {
    static char command[64 * (LONGEST + 64)];
    struct epoll_event found[64];
    int size = snprintf(command, 64, "*3\r\n$5\r\nRPUSH\r\n$1\r\nq\r\n$%d\r\n", payload);
    memset(command + size, 'x', payload);
    memcpy(command + size + payload, "\r\n", 2);
    size += payload + 2;
    for (int i = 1; i < 64; i++) memcpy(command + i * size, command, size);
    int poll = epoll_create1(0);
    double processor = used(), began = now(), end = began + seconds;
    for (int i = 0; i < count; i++) {
        struct epoll_event event = {.events = EPOLLIN, .data.u32 = i};
        epoll_ctl(poll, EPOLL_CTL_ADD, ends[i].socket, &event);
        if (write(ends[i].socket, command, (size_t)size * window) != (ssize_t)size * window) stop("write");
    }
    while (now() < end) {
        int many = epoll_wait(poll, found, 64, 10);
        for (int i = 0; i < many; i++) {
            char text[4096];
            ssize_t got = read(ends[found[i].data.u32].socket, text, sizeof text);
            int lines = 0;
            for (ssize_t j = 0; j < got; j++) lines += text[j] == '\n';
            if (got <= 0 || text[0] == '-') stop("redis");
            answers += lines;
            if (lines && write(ends[found[i].data.u32].socket, command, (size_t)size * lines) != (ssize_t)size * lines) stop("write");
        }
    }
    printf("%lu %.6f 0 0 %.6f\n", answers, now() - began, used() - processor);
}

static void flood(double seconds, double rate, int port) {
    int end = open_socket(SOCK_DGRAM, 0, port);
    uint64_t went = 0;
    for (double began = now(), at = began; at < began + seconds; at = now()) {
        for (; went < (at - began) * rate; went++) send(end, "nonsense", 8, 0);
        usleep(200);
    }
    printf("%lu\n", went);
}

int main(int argc, char **argv) {
    if (argc == 5 && !strcmp(argv[1], "flood")) return flood(atof(argv[2]), atof(argv[3]), atoi(argv[4])), 0;
    if (argc < 7) return fprintf(stderr, "load: bench/load.c says how\n"), 2;
    payload = atoi(argv[3]), window = atoi(argv[4]);
    if (payload > LONGEST || window > 64) return 2;
    if (!strcmp(argv[1], "redis")) {
        count = atoi(argv[6]);
        for (int i = 0; i < count && i < MOST; i++) ends[i].socket = open_socket(SOCK_STREAM, 0, atoi(argv[5]));
        return redis(atof(argv[2])), 0;
    }
    memcpy(bytes, "RL\1\1", 4);
    put(bytes + 6, RELAY, 2), put(bytes + 16, payload, 2), put(bytes + 18, HOP, 2);
    int own, other, station;
    if (sscanf(argv[5], "%d:%d", &own, &other) == 2) sink = open_socket(SOCK_DGRAM, own, other);
    for (int i = 6; i < argc && count < MOST; i++, count++) {
        if (sscanf(argv[i], "%d:%d:%d", &own, &other, &station) != 3) return 2;
        ends[count].socket = open_socket(SOCK_DGRAM, own, other);
        ends[count].station = station;
    }
    relay(atof(argv[2]));
    return 0;
}
