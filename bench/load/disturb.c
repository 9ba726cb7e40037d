/* Clients that disturb: each runs until it is killed. What they send alters neither keys nor lock. */
#define _GNU_SOURCE
#include "load.h"
#include <errno.h>
#include <pthread.h>
#include <sched.h>
#include <stdio.h>
#include <stdlib.h>
#include <string.h>
#include <sys/socket.h>
#include <unistd.h>

enum { PIECE = 8192 };

static const char *agent;

/* Behind all others on the processors, so that what disturbs is what the agent does about it. */
static void give_way(void) {
    struct sched_param none = {0};
    if (sched_setscheduler(0, SCHED_IDLE, &none)) die("SCHED_IDLE: %s", strerror(errno));
}

static void stay(void) {
    puts("ready");
    fflush(stdout);
    for (;;) pause();
}

void run_idle(const char *path, size_t connections) {
    while (connections--) dial(path);
    stay();
}

/* Half a length, half of 1,000 bytes, half of the longest payload, in turn. */
void run_stuck(const char *path, size_t connections) {
    static uint8_t half[4 + LONGEST / 2];
    static const uint32_t LENGTHS[3] = {0, 1000, LONGEST};
    half[4] = LIST;
    for (; connections; connections--) {
        uint32_t n = LENGTHS[connections % 3];
        put_number(half, n);
        send_whole(dial(path), half, n ? 4 + n / 2 : 2);
    }
    stay();
}

/* ---- Without end: a thread for each connection, which waits for a reply or a close and goes on. */

/* Whether the connection is still there. A send to a closed one is no fault here. In pieces, as a kernel may not be left within one call. */
static bool is_answered(int fd, const uint8_t *bytes, size_t len) {
    uint8_t reply[REPLY_ROOM];
    while (len) {
        ssize_t n = send(fd, bytes, len < PIECE ? len : PIECE, MSG_NOSIGNAL);
        if (n <= 0) return false;
        bytes += n;
        len -= (size_t)n;
    }
    return recv(fd, reply, sizeof reply, 0) > 0;
}

static bool is_harmless(uint8_t message) {
    return message != 9 && message != 19 && message != LOCK && message != UNLOCK;
}

/* In turn bytes of chance, of which the first four are a length, and a frame of chance. */
static void *garbage(void *seed) {
    uint8_t bytes[1028];
    unsigned chance = (unsigned)(size_t)seed;
    int fd = dial(agent);
    for (unsigned turn = 0;; turn++) {
        size_t len = 1 + (size_t)rand_r(&chance) % 1024;
        for (size_t i = 0; i < sizeof bytes; i++) bytes[i] = (uint8_t)(rand_r(&chance) >> 7);
        if (turn % 2) put_number(bytes, (uint32_t)len);
        else bytes[0] |= 1;
        if (!is_harmless(bytes[4])) bytes[4] = 0;
        if (!is_answered(fd, bytes, turn % 2 ? 4 + len : sizeof bytes)) {
            close(fd);
            fd = dial(agent);
        }
    }
    return NULL;
}

static void *too_long(void *seed) {
    uint8_t bytes[8] = {0};
    unsigned chance = (unsigned)(size_t)seed;
    for (;;) {
        int fd = dial(agent);
        put_number(bytes, LONGEST + 1 + (uint32_t)rand_r(&chance));
        if (is_answered(fd, bytes, sizeof bytes)) die("an over-long frame was answered");
        close(fd);
    }
}

static void *big(void *seed) {
    text frame = frame_of(200, room(LONGEST), LONGEST - 1);
    int fd = dial(agent);
    (void)seed;
    while (is_answered(fd, frame.bytes, frame.len)) continue;
    die("a frame of %d bytes was not answered", LONGEST);
}

static void start(const char *path, size_t connections, void *(*client)(void *)) {
    agent = path;
    give_way();
    for (size_t i = 1; i <= connections; i++) {
        pthread_t t;
        if (pthread_create(&t, NULL, client, (void *)i)) die("no thread");
    }
    stay();
}

void run_garbage(const char *path, size_t connections) {
    start(path, connections, garbage);
}

void run_long(const char *path, size_t connections) {
    start(path, connections, too_long);
}

void run_big(const char *path, size_t connections) {
    start(path, connections, big);
}
