/* A load client for SSH agents: what its parts share. */
#ifndef LOAD_H
#define LOAD_H

#include <stdbool.h>
#include <stddef.h>
#include <stdint.h>

enum {
    FAILURE = 5,
    SUCCESS = 6,
    LIST = 11,
    IDENTITIES = 12,
    SIGN = 13,
    SIGNED = 14,
    ADD = 17,
    LOCK = 22,
    UNLOCK = 23
};

enum {
    LONGEST = 262144,   /* bytes of a payload that both agents take */
    REPLY_ROOM = 32768, /* bytes of a reply that we take */
    DATA = 200          /* bytes that are signed */
};

typedef struct {
    uint8_t *bytes;
    size_t len;
} text;

/* What one run asks, and what it takes for an answer. Connections take the frames in turn. */
typedef struct work {
    text *frames;
    size_t count;
    size_t counter; /* where in a frame a number stands that rises with each request; 0: nowhere */
    bool (*is_right)(struct work *work, const uint8_t *payload, size_t len);
    uint32_t keys;      /* list: as many must be held */
    text first;         /* list: the first reply; all others must be the same */
    const char *format; /* sign: the signature's name */
    size_t signature;   /* sign: its length; 0: two numbers of at most `half` bytes */
    size_t half;
    uint64_t failures; /* add: answers that were FAILURE */
} work;

/* wire.c */
uint32_t number_at(const uint8_t *bytes);
void put_number(uint8_t *bytes, uint32_t number);
text frame_of(uint8_t message, const void *rest, size_t len);
work list_work(uint32_t keys);
work sign_work(const char *public_file);
work add_work(char **private_files, size_t count);

/* rate.c */
void run_rate(const char *path, work *work, size_t connections, double seconds);
void run_pace(const char *path, work *work, double seconds, double pause);

/* lock.c */
void run_lock(const char *path, size_t times, double pause);

/* disturb.c */
void run_idle(const char *path, size_t connections);
void run_stuck(const char *path, size_t connections);
void run_garbage(const char *path, size_t connections);
void run_long(const char *path, size_t connections);
void run_big(const char *path, size_t connections);

/* load.c */
void die(const char *format, ...) __attribute__((noreturn, format(printf, 1, 2)));
void *room(size_t size);
uint64_t nanoseconds(void);
void rest(double seconds);
int dial(const char *path);
void send_whole(int fd, const void *bytes, size_t len);
uint8_t exchange(int fd, text frame);

#endif
