/* load WORK SOCKET ..: a load client for SSH agents on a Unix socket. bench/agents runs it; `load` alone says its words. */
#define _GNU_SOURCE
#include "load.h"
#include <errno.h>
#include <stdarg.h>
#include <stdio.h>
#include <stdlib.h>
#include <string.h>
#include <sys/resource.h>
#include <sys/socket.h>
#include <sys/un.h>
#include <time.h>
#include <unistd.h>

static const char USAGE[] =
    "load list SOCKET KEYS CONNECTIONS SECONDS          lists of KEYS keys; each connection has one request in flight\n"
    "load sign SOCKET PUBLIC_FILE CONNECTIONS SECONDS   signatures by that key; RSA with SHA-512\n"
    "load add SOCKET CONNECTIONS SECONDS PRIVATE_FILE.. adds of these keys in turn; FAILURE is an answer too\n"
    "     each prints: requests a second, then p50, p99 and the longest in microseconds, then the number of FAILUREs; SIGTERM ends it early\n"
    "load pace SOCKET KEYS SECONDS PAUSE                lists on one connection, PAUSE seconds behind each: the same line\n"
    "load lock SOCKET TIMES PAUSE                       LOCK, UNLOCK, PAUSE seconds; each LOCK's microseconds, one on a line\n"
    "load idle|stuck|garbage|long|big SOCKET CONNECTIONS  disturbs until it is killed; prints `ready`\n";

void die(const char *format, ...) {
    va_list words;
    va_start(words, format);
    fputs("load: ", stderr);
    vfprintf(stderr, format, words);
    fputc('\n', stderr);
    va_end(words);
    exit(1);
}

void *room(size_t size) {
    void *p = calloc(1, size ? size : 1);
    if (!p) die("no memory");
    return p;
}

uint64_t nanoseconds(void) {
    struct timespec t;
    clock_gettime(CLOCK_MONOTONIC, &t);
    return (uint64_t)t.tv_sec * 1000000000 + (uint64_t)t.tv_nsec;
}

void rest(double seconds) {
    struct timespec t = {(time_t)seconds, (long)((seconds - (double)(time_t)seconds) * 1e9)};
    nanosleep(&t, NULL);
}

int dial(const char *path) {
    struct sockaddr_un a = {.sun_family = AF_UNIX};
    if (strlen(path) >= sizeof a.sun_path) die("too long a path: %s", path);
    strcpy(a.sun_path, path);
    int fd = socket(AF_UNIX, SOCK_STREAM | SOCK_CLOEXEC, 0);
    if (fd < 0 || connect(fd, (struct sockaddr *)&a, sizeof a)) die("%s: %s", path, strerror(errno));
    return fd;
}

void send_whole(int fd, const void *bytes, size_t len) {
    ssize_t n = send(fd, bytes, len, MSG_NOSIGNAL);
    if (n < 0 || (size_t)n != len) die("sending: %s", n < 0 ? strerror(errno) : "cut");
}

/* Sends a frame and gives the first byte of its reply. */
uint8_t exchange(int fd, text frame) {
    static uint8_t reply[REPLY_ROOM];
    send_whole(fd, frame.bytes, frame.len);
    for (size_t got = 0; got < 5 || got < 4 + number_at(reply);) {
        ssize_t n = recv(fd, reply + got, sizeof reply - got, 0);
        if (n <= 0) die("no reply: %s", n ? strerror(errno) : "closed");
        got += (size_t)n;
    }
    return reply[4];
}

static void raise_limit(void) {
    struct rlimit l;
    if (getrlimit(RLIMIT_NOFILE, &l)) return;
    l.rlim_cur = l.rlim_max;
    setrlimit(RLIMIT_NOFILE, &l);
}

static size_t count_of(const char *word) {
    char *end;
    unsigned long n = strtoul(word, &end, 10);
    if (*end || !*word || n > 1000000) die("not a number: %s", word);
    return n;
}

static double seconds_of(const char *word) {
    char *end;
    double s = strtod(word, &end);
    if (*end || !*word || !(s >= 0 && s < 1e6)) die("not seconds: %s", word);
    return s;
}

static const struct {
    const char *name;
    void (*run)(const char *path, size_t connections);
} DISTURBERS[] = {{"idle", run_idle}, {"stuck", run_stuck}, {"garbage", run_garbage}, {"long", run_long}, {"big", run_big}};

int main(int words, char **word) {
    const char *what = words > 2 ? word[1] : "", *path = words > 2 ? word[2] : "";
    work w;
    raise_limit();
    if (!strcmp(what, "list") && words == 6) {
        w = list_work((uint32_t)count_of(word[3]));
        run_rate(path, &w, count_of(word[4]), seconds_of(word[5]));
    } else if (!strcmp(what, "sign") && words == 6) {
        w = sign_work(word[3]);
        run_rate(path, &w, count_of(word[4]), seconds_of(word[5]));
    } else if (!strcmp(what, "add") && words > 5) {
        w = add_work(word + 5, (size_t)words - 5);
        run_rate(path, &w, count_of(word[3]), seconds_of(word[4]));
    } else if (!strcmp(what, "pace") && words == 6) {
        w = list_work((uint32_t)count_of(word[3]));
        run_pace(path, &w, seconds_of(word[4]), seconds_of(word[5]));
    } else if (!strcmp(what, "lock") && words == 5) {
        run_lock(path, count_of(word[3]), seconds_of(word[4]));
    } else {
        for (size_t i = 0; words == 4 && i < sizeof DISTURBERS / sizeof *DISTURBERS; i++)
            if (!strcmp(what, DISTURBERS[i].name)) DISTURBERS[i].run(path, count_of(word[3]));
        fputs(USAGE, stderr);
        return 2;
    }
    return 0;
}
