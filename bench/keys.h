/* Sets of keys to hold, from a fixed seed: fields and blobs of true lengths, in which the numbers are chance (the core does not look whether they
 * fit). How many of which; of those that need more room than 24 take, as many as are held at once with comments of ten bytes. */
#include "key_agent.h"
#include <stdlib.h>
#include <string.h>

enum { MOST_KEYS = 24, COMMENT = 10 };
typedef struct {
    uint8_t fields[3072], blob[1024];
    size_t fields_len, blob_len;
} key;

static const char *const SETS[] = {"8-ed25519", "8-p256", "8-rsa-2048", "8-mixed", "24-ed25519", "24-p256",
                                   "24-rsa-2048", "18-rsa-3072", "13-rsa-4096", "24-mixed", 0};
static const char *const MIX[12] = {"ed25519", "p256", "rsa-2048", "ed25519", "p256", "rsa-3072",
                                    "ed25519", "p256", "rsa-2048", "p384", "p521", "rsa-4096"};

static uint8_t chance(void) { /* SplitMix64 */
    static uint64_t seed = 112;
    uint64_t z = seed += 0x9e3779b97f4a7c15;
    z = (z ^ (z >> 30)) * 0xbf58476d1ce4e5b9;
    z = (z ^ (z >> 27)) * 0x94d049bb133111eb;
    return (uint8_t)(z ^ (z >> 31));
}

/* Behind `at` bytes, the next string; gives the new length. */
static size_t put(uint8_t *to, size_t at, const void *bytes, size_t n) {
    const uint8_t length[4] = {0, 0, (uint8_t)(n >> 8), (uint8_t)n};
    memcpy(to + at, length, 4);
    memcpy(to + at + 4, bytes, n);
    return at + 4 + n;
}

/* A positive mpint of n bytes in all, odd as an RSA key's are; with a sign byte where n is odd. */
static const uint8_t *number(size_t n) {
    static uint8_t bytes[520];
    for (size_t i = 0; i < n; i++) bytes[i] = chance();
    bytes[n - 1] |= 1;
    if (n % 2) bytes[0] = 0, bytes[1] |= 128;
    else bytes[0] = (bytes[0] & 127) | 64;
    return bytes;
}

static void add_field(key *k, const void *bytes, size_t n) { k->fields_len = put(k->fields, k->fields_len, bytes, n); }
static void add_number(key *k, size_t n) { add_field(k, number(n), n); }
static void public_so_far(key *k) { memcpy(k->blob, k->fields, k->blob_len = k->fields_len); }

static void ed25519(key *k) {
    uint8_t pair[64];
    for (size_t i = 0; i < sizeof pair; i++) pair[i] = chance();
    add_field(k, "ssh-ed25519", 11);
    add_field(k, pair + 32, 32);
    public_so_far(k);
    add_field(k, pair, 64);
}

static void ecdsa(key *k, const char *type, size_t size) {
    uint8_t point[133] = {4};
    for (size_t i = 1; i <= 2 * size; i++) point[i] = chance();
    add_field(k, type, 19);
    add_field(k, type + 11, 8);
    add_field(k, point, 2 * size + 1);
    public_so_far(k);
    add_number(k, size);
}

/* Lengths as OpenSSH's keys have them: n and the primes with a sign byte, d without. */
static void rsa(key *k, size_t size, size_t inverse) {
    static const uint8_t e[3] = {1, 0, 1};
    add_field(k, "ssh-rsa", 7);
    add_number(k, size + 1);
    k->blob_len = put(k->blob, put(k->blob, put(k->blob, 0, "ssh-rsa", 7), e, 3), k->fields + 15, size + 1);
    add_field(k, e, 3);
    add_number(k, size);
    add_number(k, inverse);
    add_number(k, size / 2 + 1);
    add_number(k, size / 2 + 1);
}

static int make_key(key *k, const char *kind) {
    *k = (key){.fields_len = 0};
    if (!strcmp(kind, "ed25519")) ed25519(k);
    else if (!strcmp(kind, "p256")) ecdsa(k, "ecdsa-sha2-nistp256", 32);
    else if (!strcmp(kind, "p384")) ecdsa(k, "ecdsa-sha2-nistp384", 48);
    else if (!strcmp(kind, "p521")) ecdsa(k, "ecdsa-sha2-nistp521", 66);
    else if (!strcmp(kind, "rsa-2048")) rsa(k, 256, 128);
    else if (!strcmp(kind, "rsa-3072")) rsa(k, 384, 193);
    else if (!strcmp(kind, "rsa-4096")) rsa(k, 512, 256);
    else return 0;
    return 1;
}

/* How many keys of the set are held; 0 for a name that is none. */
static size_t make_set(key keys[MOST_KEYS], const char *set) {
    char *kind;
    size_t count = strtoul(set, &kind, 10), used = 0;
    if (*kind++ != '-' || count > MOST_KEYS) return 0;
    for (size_t n = 0; n < count; n++) {
        if (!make_key(&keys[n], strcmp(kind, "mixed") ? kind : MIX[n % 12])) return 0;
        used += keys[n].blob_len + keys[n].fields_len + COMMENT;
    }
    return used > KEY_AGENT_STORE_BYTES ? 0 : count;
}
