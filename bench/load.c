/* Loads a relay between TCP sockets of the loopback, one request a connection, as bench/connections.py uses it.

   load serve BYTES
       prints its port, and answers each connection's BYTES bytes with as many; then it closes. It goes on until its
       standard input ends.
   load relay PORT BACK
       listens at PORT, and passes on between its clients and the port BACK with as few calls as that takes: no more than a
       floor to compare with, for requests that fit into a socket's buffer. It goes on until it is ended.
   load ask PORT CLIENTS BYTES REQUESTS SECONDS
       keeps CLIENTS connections busy at once: each connects, asks, takes the answer and its end, and is followed by a new
       one, until REQUESTS were begun or the time is over. It prints how many were answered, how many connections were
       refused, how many were lost otherwise, the microseconds until the last was answered and until 95 of 100 of
       REQUESTS were (0 where fewer were), and those of the slowest. */
#define _GNU_SOURCE
#include "parts.h"
#include <errno.h>
#include <netinet/tcp.h>
#include <string.h>
#include <sys/epoll.h>
#include <sys/resource.h>
#include <sys/socket.h>
#include <unistd.h>

enum { MOST_BYTES = 65536, EVENTS = 256, MOST_CLIENTS = 20000 };

static char piece[MOST_BYTES];

static void watch(int epoll, int sock, unsigned events, void *of) {
    struct epoll_event event = {.events = events, .data.ptr = of};
    if (epoll_ctl(epoll, EPOLL_CTL_ADD, sock, &event) < 0)
        fail("epoll_ctl");
}

/* A socket that listens at the port, or at a free one. */
static int listening(int port) {
    struct sockaddr_in place = here(port);
    int door = socket(AF_INET, SOCK_STREAM | SOCK_NONBLOCK | SOCK_CLOEXEC, 0);
    if (door < 0 || bind(door, (void *)&place, sizeof place) < 0 || listen(door, 4096) < 0)
        fail("listen");
    return door;
}

/* One connection: how many bytes came and went, and when it began. */
struct talk {
    int sock;
    int came;
    int went;
    long long begun;
};

/* Takes and sends what it can; whether all of it went. */
static int all_sent(struct talk *it, int bytes) {
    while (it->went < bytes) {
        ssize_t count = send(it->sock, piece, bytes - it->went, MSG_NOSIGNAL);
        if (count < 0)
            return 0;
        it->went += count;
    }
    return 1;
}

/* --- the far end */

/* Whether the connection is done with. */
static int answered(struct talk *it, int bytes) {
    while (it->came < bytes) {
        ssize_t count = recv(it->sock, piece, bytes - it->came, 0);
        if (count < 0 && errno == EAGAIN)
            return 0;
        if (count <= 0)
            return 1;
        it->came += count;
    }
    return all_sent(it, bytes) || errno != EAGAIN;
}

static void accept_all(int epoll, int door, int bytes) {
    int sock;
    while ((sock = accept4(door, NULL, NULL, SOCK_NONBLOCK | SOCK_CLOEXEC)) >= 0) {
        struct talk *it = calloc(1, sizeof *it);
        if (!it)
            fail("calloc");
        it->sock = sock;
        if (answered(it, bytes)) {
            close(sock);
            free(it);
            continue;
        }
        watch(epoll, sock, EPOLLIN | EPOLLOUT | EPOLLET, it);
    }
}

static int serve(int bytes) {
    int epoll = epoll_create1(EPOLL_CLOEXEC);
    int door = listening(0);
    print_port(door);
    watch(epoll, door, EPOLLIN, &door);
    watch(epoll, STDIN_FILENO, EPOLLIN, NULL);
    for (;;) {
        struct epoll_event ready[EVENTS];
        int count = epoll_wait(epoll, ready, EVENTS, -1);
        for (int which = 0; which < count; which++) {
            struct talk *it = ready[which].data.ptr;
            if (!it)
                return 0;
            if ((void *)it == &door) {
                accept_all(epoll, door, bytes);
            } else if (answered(it, bytes)) {
                close(it->sock);
                free(it);
            }
        }
    }
}

/* --- the floor of a relay */

/* Both sides of a session, each with its peer; a side is over once its end was passed on. */
struct side {
    int sock, over;
    struct side *other;
};

/* Passes on what there is; an end is passed on as one. A session of which both sides are over is closed. */
static void pass(struct side *from) {
    ssize_t count;
    while (!from->over && (count = recv(from->sock, piece, sizeof piece, 0)) >= 0) {
        if (count > 0) {
            if (send(from->other->sock, piece, count, MSG_NOSIGNAL) != count)
                from->over = from->other->over = 1;
        } else {
            from->over = 1;
            shutdown(from->other->sock, SHUT_WR);
        }
    }
    if (!from->over && errno != EAGAIN)
        from->over = from->other->over = 1;
}

__attribute__((noreturn)) static void relay(int port, int back) {
    struct sockaddr_in place = here(back);
    int epoll = epoll_create1(EPOLL_CLOEXEC);
    int door = listening(port);
    watch(epoll, door, EPOLLIN, &door);
    for (;;) {
        struct epoll_event ready[EVENTS];
        struct side *over[EVENTS];
        int done = 0, count = epoll_wait(epoll, ready, EVENTS, -1);
        for (int which = 0; which < count; which++) {
            struct side *it = ready[which].data.ptr;
            if ((void *)it == &door) {
                int sock = accept4(door, NULL, NULL, SOCK_NONBLOCK | SOCK_CLOEXEC);
                struct side *pair = sock < 0 ? NULL : calloc(2, sizeof *pair);
                if (!pair)
                    continue;
                pair[0] = (struct side){.sock = sock, .other = pair + 1};
                pair[1] = (struct side){.sock = socket(AF_INET, SOCK_STREAM | SOCK_NONBLOCK | SOCK_CLOEXEC, 0), .other = pair};
                connect(pair[1].sock, (void *)&place, sizeof place);
                watch(epoll, pair[0].sock, EPOLLIN | EPOLLRDHUP | EPOLLET, pair);
                watch(epoll, pair[1].sock, EPOLLIN | EPOLLRDHUP | EPOLLET, pair + 1);
                continue;
            }
            if (it->over && it->other->over)
                continue;
            pass(it);
            if (it->over && it->other->over) {
                close(it->sock);
                close(it->other->sock);
                over[done++] = it < it->other ? it : it->other;
            }
        }
        while (done > 0)
            free(over[--done]);
    }
}

/* --- the clients */

struct asking {
    int epoll, port, bytes;
    long requests, begun, answered, refused, lost, busy;
    long long start, until, most, slowest;
};

enum state { GOING_ON, ANSWERED, REFUSED, LOST };

static enum state failure(void) {
    if (errno == EAGAIN || errno == EINPROGRESS)
        return GOING_ON;
    return errno == ECONNREFUSED ? REFUSED : LOST;
}

static enum state step(struct asking *all, struct talk *it) {
    if (it->went < all->bytes && !all_sent(it, all->bytes))
        return failure();
    for (;;) {
        ssize_t count = recv(it->sock, piece, sizeof piece, 0);
        if (count < 0)
            return failure();
        if (count == 0)
            return it->came == all->bytes ? ANSWERED : LOST;
        it->came += count;
    }
}

/* Counts a connection that is done with, and closes it. Whether it was done with. */
static int noted(struct asking *all, struct talk *it, enum state state) {
    if (state == GOING_ON)
        return 0;
    long long took = micros() - it->begun;
    all->answered += state == ANSWERED;
    all->refused += state == REFUSED;
    all->lost += state == LOST;
    all->busy--;
    if (all->answered == all->requests * 95 / 100 && !all->most)
        all->most = micros() - all->start;
    if (took > all->slowest)
        all->slowest = took;
    close(it->sock);
    it->sock = -1;
    return 1;
}

/* Begins the next request, or the next but those that are refused at once. */
static void begin(struct asking *all, struct talk *it) {
    struct sockaddr_in place = here(all->port);
    while (all->begun < all->requests && micros() < all->until) {
        all->begun++;
        all->busy++;
        *it = (struct talk){.begun = micros()};
        it->sock = socket(AF_INET, SOCK_STREAM | SOCK_NONBLOCK | SOCK_CLOEXEC, 0);
        if (it->sock < 0)
            fail("socket");
        int done = connect(it->sock, (void *)&place, sizeof place);
        if (noted(all, it, done < 0 ? failure() : GOING_ON))
            continue;
        watch(all->epoll, it->sock, EPOLLIN | EPOLLOUT | EPOLLRDHUP | EPOLLET, it);
        return;
    }
}

static int ask(int port, int clients, int bytes, long requests, long seconds) {
    static struct talk talks[MOST_CLIENTS];
    struct asking all = {.epoll = epoll_create1(EPOLL_CLOEXEC), .port = port, .bytes = bytes, .requests = requests};
    all.start = micros();
    all.until = all.start + seconds * 1000000LL;
    for (int which = 0; which < clients; which++)
        begin(&all, &talks[which]);
    /* What is under way at the end of the time has ten seconds more. */
    while (all.busy > 0 && micros() < all.until + 10000000) {
        struct epoll_event ready[EVENTS];
        int count = epoll_wait(all.epoll, ready, EVENTS, 1000);
        for (int which = 0; which < count; which++) {
            struct talk *it = ready[which].data.ptr;
            if (noted(&all, it, step(&all, it)))
                begin(&all, it);
        }
    }
    printf("%ld %ld %ld %lld %lld %lld\n", all.answered, all.refused, all.lost + all.busy, micros() - all.start, all.most,
           all.slowest);
    return 0;
}

int main(int count, char **words) {
    struct rlimit most;
    getrlimit(RLIMIT_NOFILE, &most);
    most.rlim_cur = most.rlim_max;
    setrlimit(RLIMIT_NOFILE, &most);
    if (count == 3 && !strcmp(words[1], "serve"))
        return serve(number(words[2], MOST_BYTES));
    if (count == 4 && !strcmp(words[1], "relay"))
        relay(number(words[2], 65535), number(words[3], 65535));
    if (count == 7 && !strcmp(words[1], "ask"))
        return ask(number(words[2], 65535), number(words[3], MOST_CLIENTS), number(words[4], MOST_BYTES),
                   number(words[5], 100000000), number(words[6], 600));
    fprintf(stderr, "load serve BYTES | load relay PORT BACK | load ask PORT CLIENTS BYTES REQUESTS SECONDS\n");
    return 2;
}
