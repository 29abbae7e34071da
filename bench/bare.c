/* The floor of a relay of streams, as bench/sockets.py and bench/flood.py compare with: blocks of 8192 bytes between two
   sockets, with a read and a write each and as few waits as edge-triggered readiness takes, and nothing else.

   bare tcp PORT BACK      takes one peer at the port of the loopback, and connects to its port BACK
   bare unix NEAR FAR      the same of Unix sockets
   bare many PORT BACK     takes every peer of the port, each with a connection of its own, until it is ended */
#define _GNU_SOURCE
#include "parts.h"
#include <errno.h>
#include <fcntl.h>
#include <string.h>
#include <sys/epoll.h>
#include <sys/socket.h>
#include <sys/un.h>
#include <unistd.h>

enum { BLOCK = 8192, ASKS = 64, PEERS = 256 };

/* One direction: what was read and isn't written yet, and which of its halves may have more. */
struct way {
    int from, to;
    int may_read, may_write, over;
    ssize_t at, end;
    char block[BLOCK];
};

static int is_stuck(struct way *it) {
    return it->over || !(it->at < it->end ? it->may_write : it->may_read);
}

/* Nothing more passes this way; what has broken drops what waits. */
static void finish(struct way *it) {
    it->over = 1;
    it->at = it->end = 0;
    shutdown(it->to, SHUT_WR);
}

static void take(struct way *it) {
    ssize_t count = recv(it->from, it->block, BLOCK, 0);
    it->may_read = count >= 0;
    it->at = 0;
    it->end = count > 0 ? count : 0;
    if (count == 0 || (count < 0 && errno != EAGAIN))
        finish(it);
}

static void give(struct way *it) {
    ssize_t count = send(it->to, it->block + it->at, it->end - it->at, MSG_NOSIGNAL);
    it->may_write = count >= 0;
    if (count >= 0)
        it->at += count;
    else if (errno != EAGAIN)
        finish(it);
}

static void pass(struct way *it) {
    for (int asks = 0; asks < ASKS && !is_stuck(it); asks++)
        if (it->at < it->end)
            give(it);
        else
            take(it);
}

/* A peer and what is behind it, and both ways between them. */
struct pair {
    struct way right, left;
};

/* One of the two sockets of a pair. */
struct end {
    struct pair *pair;
    int is_far;
};

static void watch(int epoll, int sock, struct end *end) {
    struct epoll_event event = {.events = EPOLLIN | EPOLLOUT | EPOLLRDHUP | EPOLLET, .data.ptr = end};
    if (fcntl(sock, F_SETFL, O_NONBLOCK) < 0 || epoll_ctl(epoll, EPOLL_CTL_ADD, sock, &event) < 0)
        fail("epoll_ctl");
}

static struct pair *joined(int epoll, int near, int far) {
    struct pair *pair = calloc(1, sizeof *pair);
    struct end *ends = calloc(2, sizeof *ends);
    if (!pair || !ends)
        fail("calloc");
    pair->right = (struct way){.from = near, .to = far, .may_read = 1, .may_write = 1};
    pair->left = (struct way){.from = far, .to = near, .may_read = 1, .may_write = 1};
    ends[0] = (struct end){.pair = pair};
    ends[1] = (struct end){.pair = pair, .is_far = 1};
    watch(epoll, near, &ends[0]);
    watch(epoll, far, &ends[1]);
    return pair;
}

static void hear(struct epoll_event *event) {
    struct end *end = event->data.ptr;
    struct way *reads = end->is_far ? &end->pair->left : &end->pair->right;
    struct way *writes = end->is_far ? &end->pair->right : &end->pair->left;
    reads->may_read |= (event->events & ~EPOLLOUT) != 0;
    writes->may_write |= (event->events & ~EPOLLIN) != 0;
}

static int is_over(struct pair *pair) {
    return pair->right.over && pair->left.over;
}

/* Passes on what there is. Whether more can be passed at once. */
static int goes_on(struct pair *pair) {
    pass(&pair->right);
    pass(&pair->left);
    return !(is_stuck(&pair->right) && is_stuck(&pair->left));
}

static void relay(int near, int far) {
    int epoll = epoll_create1(EPOLL_CLOEXEC), more = 1;
    struct pair *pair = joined(epoll, near, far);
    while (!is_over(pair)) {
        struct epoll_event ready[2];
        int count = epoll_wait(epoll, ready, 2, more ? 0 : -1);
        for (int which = 0; which < count; which++)
            hear(&ready[which]);
        more = goes_on(pair);
    }
}

static int connected(int family, void *place, socklen_t length) {
    int sock = socket(family, SOCK_STREAM, 0);
    if (sock < 0 || connect(sock, place, length) < 0)
        fail("connect");
    return sock;
}

static int listening(int family, void *place, socklen_t length) {
    int one = 1, door = socket(family, SOCK_STREAM, 0);
    setsockopt(door, SOL_SOCKET, SO_REUSEADDR, &one, sizeof one);
    if (bind(door, place, length) < 0 || listen(door, 1024) < 0)
        fail("listen");
    return door;
}

/* Takes one peer of the first place, and connects to the second. */
static void join(int family, void *near, void *far, socklen_t length) {
    int door = listening(family, near, length), peer = accept(door, NULL, NULL);
    if (peer < 0)
        fail("accept");
    close(door);
    relay(peer, connected(family, far, length));
}

/* Takes every peer, each in turn. A pair that is over keeps its sockets, since few come. */
__attribute__((noreturn)) static void join_all(int port, int back) {
    static struct pair *pairs[PEERS];
    struct sockaddr_in near = here(port), far = here(back);
    int epoll = epoll_create1(EPOLL_CLOEXEC), door = listening(AF_INET, &near, sizeof near), peers = 0, more = 0;
    struct epoll_event knock = {.events = EPOLLIN};
    epoll_ctl(epoll, EPOLL_CTL_ADD, door, &knock);
    for (;;) {
        struct epoll_event ready[PEERS];
        int count = epoll_wait(epoll, ready, PEERS, more ? 0 : -1);
        for (int which = 0; which < count; which++)
            if (ready[which].data.ptr)
                hear(&ready[which]);
            else if (peers < PEERS)
                pairs[peers++] = joined(epoll, accept(door, NULL, NULL), connected(AF_INET, &far, sizeof far));
        more = 0;
        for (int which = 0; which < peers; which++)
            more |= goes_on(pairs[which]);
    }
}

static struct sockaddr_un named(const char *path) {
    struct sockaddr_un place = {.sun_family = AF_UNIX};
    if (strlen(path) >= sizeof place.sun_path)
        exit(2);
    strcpy(place.sun_path, path);
    return place;
}

int main(int count, char **words) {
    if (count == 4 && !strcmp(words[1], "tcp")) {
        struct sockaddr_in near = here(number(words[2], 65535)), far = here(number(words[3], 65535));
        join(AF_INET, &near, &far, sizeof near);
        return 0;
    }
    if (count == 4 && !strcmp(words[1], "unix")) {
        struct sockaddr_un near = named(words[2]), far = named(words[3]);
        join(AF_UNIX, &near, &far, sizeof near);
        return 0;
    }
    if (count == 4 && !strcmp(words[1], "many"))
        join_all(number(words[2], 65535), number(words[3], 65535));
    fprintf(stderr, "bare tcp PORT BACK | bare unix NEAR FAR | bare many PORT BACK\n");
    return 2;
}
