/* What the programs of this folder share. */
#ifndef PARTS_H
#define PARTS_H

#include <arpa/inet.h>
#include <stdio.h>
#include <stdlib.h>
#include <time.h>

static inline void fail(const char *what) {
    perror(what);
    exit(2);
}

static inline long long micros(void) {
    struct timespec now;
    clock_gettime(CLOCK_MONOTONIC, &now);
    return now.tv_sec * 1000000LL + now.tv_nsec / 1000;
}

/* A port of the loopback. */
static inline struct sockaddr_in here(int port) {
    struct sockaddr_in place = {.sin_family = AF_INET, .sin_port = htons(port)};
    place.sin_addr.s_addr = htonl(INADDR_LOOPBACK);
    return place;
}

/* A number from 1 up to the most, or the end of the program. */
static inline long number(const char *text, long most) {
    char *end;
    long value = strtol(text, &end, 10);
    if (*end || value < 1 || value > most) {
        fprintf(stderr, "%s is no number up to %ld\n", text, most);
        exit(2);
    }
    return value;
}

/* The port of a socket, in a line. */
static inline void print_port(int sock) {
    struct sockaddr_in place;
    socklen_t length = sizeof place;
    getsockname(sock, (void *)&place, &length);
    printf("%d\n", ntohs(place.sin_port));
    fflush(stdout);
}

#endif
