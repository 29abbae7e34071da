/* Streams through a relay between TCP sockets of the loopback, many at once, as bench/flood.py uses it.

   flood far give|take BYTES
       prints its port, and on each connection gives BYTES bytes and an end, or takes all up to an end. It goes on until its
       standard input ends.
   flood near give|take PORT STREAMS BYTES
       does the other part on STREAMS connections at once. It prints how many bytes passed, and in how many microseconds
       until the last connection had ended. */
#define _GNU_SOURCE
#include "parts.h"
#include <errno.h>
#include <fcntl.h>
#include <string.h>
#include <sys/epoll.h>
#include <sys/socket.h>
#include <unistd.h>

enum { PIECE = 65536, EVENTS = 64 };

static char piece[PIECE];

/* One connection: whether it gives, how much is still to be given, and how much passed. */
struct stream {
    int sock, gives, ended;
    long long left, passed;
};

/* Gives and takes what it can. Whether the connection is over, also where it broke: who gives awaits the end, who takes
   answers it. */
static int is_over(struct stream *it) {
    while (it->left > 0) {
        ssize_t count = send(it->sock, piece, it->left < PIECE ? it->left : PIECE, MSG_NOSIGNAL);
        if (count < 0 && errno == EAGAIN)
            return 0;
        if (count < 0)
            return 1;
        it->left -= count;
        it->passed += count;
    }
    if (it->gives && !it->ended) {
        shutdown(it->sock, SHUT_WR);
        it->ended = 1;
    }
    for (;;) {
        ssize_t count = recv(it->sock, piece, PIECE, 0);
        if (count < 0 && errno == EAGAIN)
            return 0;
        if (count <= 0)
            return 1;
        it->passed += count;
    }
}

static void begin(int epoll, int sock, int gives, long long bytes) {
    struct stream *it = calloc(1, sizeof *it);
    struct epoll_event event = {.events = EPOLLIN | EPOLLOUT | EPOLLET, .data.ptr = it};
    if (!it)
        fail("calloc");
    *it = (struct stream){.sock = sock, .gives = gives, .left = gives ? bytes : 0};
    if (epoll_ctl(epoll, EPOLL_CTL_ADD, sock, &event) < 0)
        fail("epoll_ctl");
}

/* Closes it where it is over. How many bytes passed then, else -1. */
static long long finished(struct stream *it) {
    if (!is_over(it))
        return -1;
    long long passed = it->passed;
    close(it->sock);
    free(it);
    return passed;
}

static int far(int gives, long long bytes) {
    struct sockaddr_in place = here(0);
    int epoll = epoll_create1(EPOLL_CLOEXEC), door = socket(AF_INET, SOCK_STREAM | SOCK_NONBLOCK, 0);
    struct epoll_event input = {.events = EPOLLIN, .data.ptr = NULL}, knock = {.events = EPOLLIN, .data.ptr = &door};
    if (bind(door, (void *)&place, sizeof place) < 0 || listen(door, 1024) < 0)
        fail("listen");
    print_port(door);
    epoll_ctl(epoll, EPOLL_CTL_ADD, STDIN_FILENO, &input);
    epoll_ctl(epoll, EPOLL_CTL_ADD, door, &knock);
    for (;;) {
        struct epoll_event ready[EVENTS];
        int count = epoll_wait(epoll, ready, EVENTS, -1);
        for (int which = 0; which < count; which++) {
            if (!ready[which].data.ptr)
                return 0;
            if (ready[which].data.ptr != (void *)&door) {
                finished(ready[which].data.ptr);
                continue;
            }
            int sock = accept4(door, NULL, NULL, SOCK_NONBLOCK);
            if (sock >= 0)
                begin(epoll, sock, gives, bytes);
        }
    }
}

static int near(int gives, int port, int streams, long long bytes) {
    struct sockaddr_in place = here(port);
    int epoll = epoll_create1(EPOLL_CLOEXEC);
    long long start = micros(), passed = 0;
    for (int which = 0; which < streams; which++) {
        int sock = socket(AF_INET, SOCK_STREAM, 0);
        if (connect(sock, (void *)&place, sizeof place) < 0)
            fail("connect");
        if (fcntl(sock, F_SETFL, O_NONBLOCK) < 0)
            fail("fcntl");
        begin(epoll, sock, gives, bytes);
    }
    for (int left = streams; left > 0;) {
        struct epoll_event ready[EVENTS];
        int count = epoll_wait(epoll, ready, EVENTS, -1);
        for (int which = 0; which < count; which++) {
            long long one = finished(ready[which].data.ptr);
            if (one < 0)
                continue;
            left--;
            passed += one;
        }
    }
    printf("%lld %lld\n", passed, micros() - start);
    return 0;
}

int main(int count, char **words) {
    int gives = count > 2 && !strcmp(words[2], "give");
    if (count == 4 && !strcmp(words[1], "far"))
        return far(gives, atoll(words[3]));
    if (count == 6 && !strcmp(words[1], "near"))
        return near(gives, atoi(words[3]), atoi(words[4]), atoll(words[5]));
    fprintf(stderr, "flood far give|take BYTES | flood near give|take PORT STREAMS BYTES\n");
    return 2;
}
