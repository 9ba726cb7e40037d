/* Requests on connections with one in flight each, by one thread; every reply is tested, and a wrong one ends the run. */
#define _GNU_SOURCE
#include "load.h"
#include <errno.h>
#include <signal.h>
#include <stdio.h>
#include <stdlib.h>
#include <string.h>
#include <sys/epoll.h>
#include <sys/socket.h>

typedef struct {
    int fd;
    bool waits;
    uint64_t sent;
    size_t got;
    uint8_t reply[REPLY_ROOM];
} connection;

static uint32_t *taken; /* nanoseconds of each request */
static size_t done, places;
static uint64_t next;
static volatile sig_atomic_t is_over;

static void end_early(int signal) {
    (void)signal;
    is_over = 1;
}

static void note(uint64_t ns) {
    if (done == places) {
        places = places ? 2 * places : 1 << 16;
        taken = realloc(taken, places * sizeof *taken);
        if (!taken) die("no memory");
    }
    taken[done++] = ns < UINT32_MAX ? (uint32_t)ns : UINT32_MAX;
}

static int by_size(const void *a, const void *b) {
    uint32_t x = *(const uint32_t *)a, y = *(const uint32_t *)b;
    return (x > y) - (x < y);
}

static void report(double seconds, uint64_t failures) {
    if (!done) die("no request was answered");
    qsort(taken, done, sizeof *taken, by_size);
    printf("%.1f %.1f %.1f %.1f %llu\n", (double)done / seconds, taken[done / 2] / 1e3, taken[done * 99 / 100] / 1e3, taken[done - 1] / 1e3,
           (unsigned long long)failures);
}

static void ask(connection *c, work *w) {
    text frame = w->frames[next++ % w->count];
    if (w->counter) put_number(frame.bytes + w->counter, (uint32_t)next);
    c->got = 0;
    c->waits = true;
    c->sent = nanoseconds();
    send_whole(c->fd, frame.bytes, frame.len);
}

/* Reads what is there; whether the reply is whole. */
static bool hear(connection *c, work *w, int flags) {
    ssize_t n = recv(c->fd, c->reply + c->got, sizeof c->reply - c->got, flags);
    if (n <= 0) die("no reply: %s", n ? strerror(errno) : "closed");
    c->got += (size_t)n;
    if (c->got < 4 || c->got < 4 + (size_t)number_at(c->reply)) return false;
    c->waits = false;
    if (c->got > 4 + (size_t)number_at(c->reply) || !w->is_right(w, c->reply + 4, c->got - 4))
        die("a wrong reply: message %d, %zu bytes", c->got > 4 ? c->reply[4] : -1, c->got);
    return true;
}

static connection *connections_to(const char *path, size_t count, int poll) {
    connection *all = room(count * sizeof *all);
    for (size_t i = 0; i < count; i++) {
        struct epoll_event e = {.events = EPOLLIN, .data.ptr = all + i};
        all[i].fd = dial(path);
        if (epoll_ctl(poll, EPOLL_CTL_ADD, all[i].fd, &e)) die("epoll: %s", strerror(errno));
    }
    return all;
}

static size_t waiting(const connection *all, size_t count) {
    size_t n = 0;
    for (size_t i = 0; i < count; i++) n += all[i].waits;
    return n;
}

static void serve(connection *c, work *w, uint64_t end) {
    if (!hear(c, w, MSG_DONTWAIT)) return;
    uint64_t t = nanoseconds();
    if (t >= end || is_over) return;
    note(t - c->sent);
    ask(c, w);
}

/* What is in flight at the end is waited for and not counted. */
void run_rate(const char *path, work *w, size_t count, double seconds) {
    struct epoll_event events[64];
    int poll = epoll_create1(EPOLL_CLOEXEC);
    connection *all = connections_to(path, count, poll);
    signal(SIGTERM, end_early);
    uint64_t start = nanoseconds(), end = start + (uint64_t)(seconds * 1e9), last = 0;
    for (size_t i = 0; i < count; i++) ask(all + i, w);
    while (!last || waiting(all, count)) {
        int n = epoll_wait(poll, events, 64, 20000);
        if (!n) die("no reply in 20 seconds");
        for (int i = 0; i < n; i++) serve(events[i].data.ptr, w, end);
        uint64_t t = nanoseconds();
        if (!last && (t >= end || is_over)) last = t < end ? t : end;
    }
    report((double)(last - start) / 1e9, w->failures);
}

/* One request at a time with a pause behind each, so that the client itself is no load. */
void run_pace(const char *path, work *w, double seconds, double pause) {
    connection *c = room(sizeof *c);
    c->fd = dial(path);
    uint64_t start = nanoseconds(), end = start + (uint64_t)(seconds * 1e9);
    while (nanoseconds() < end) {
        ask(c, w);
        while (!hear(c, w, 0)) continue;
        note(nanoseconds() - c->sent);
        rest(pause);
    }
    report((double)(nanoseconds() - start) / 1e9, 0);
}
