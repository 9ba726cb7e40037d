/* sound STATE CALLS: key_agent_is_sound on STATE, CALLS times; it must be sound. Prints the bytes held. Without words: the states.
 * Beside the sets of keys.h: fresh; full, to the store's last byte; and 24 blobs of 1,024 bytes that differ in one byte alone, the last one (late)
 * or the first behind their type (early), with fields of one byte. */
#include "keys.h"
#include <stdio.h>
#include <stdlib.h>

static key_agent_state state;
static uint8_t store[KEY_AGENT_STORE_BYTES];
static size_t used;

__attribute__((noinline)) void began(void) { __asm__ volatile(""); }
/* The exported function, and the copy of the state that it is handed. */
__attribute__((noinline)) bool is_sound(void) { return key_agent_is_sound(state, store, sizeof store); }

static void keep(const void *bytes, size_t n) {
    memcpy(store + used, bytes, n);
    used += n;
}

static void hold(size_t i, const key *k, size_t comment) {
    uint8_t text[255];
    memset(text, 'c', sizeof text);
    keep(k->blob, k->blob_len);
    keep(k->fields, k->fields_len);
    keep(text, comment);
    state.columns.numbers[i] = i + 1;
    state.columns.blob_lens[i] = k->blob_len;
    state.columns.fields_lens[i] = k->fields_len;
    state.columns.comment_lens[i] = comment;
    state.next = i + 2;
}

static void hold_set(const char *set) {
    static key keys[MOST_KEYS];
    size_t n = make_set(keys, set);
    for (size_t i = 0; i < n; i++) hold(i, &keys[i], COMMENT);
}

/* 24 RSA keys of 2,048 bits, and comments that take what is left. */
static void fill(void) {
    static key k;
    size_t n = MOST_KEYS;
    for (size_t i = 0; i < n; i++) {
        make_key(&k, "rsa-2048");
        size_t keys_left = (n - i) * (k.blob_len + k.fields_len), left = KEY_AGENT_STORE_BYTES - used - keys_left;
        hold(i, &k, left / (n - i));
    }
}

static void alike(size_t differs) {
    static key k = {.fields_len = 1, .blob_len = 1024};
    memset(k.blob, 1, sizeof k.blob);
    put(k.blob, 0, "ssh-rsa", 7);
    for (uint8_t i = 0; i < MOST_KEYS; i++) {
        k.blob[differs] = (uint8_t)(i + 1);
        hold(i, &k, 0);
    }
}

static void make(const char *name) {
    state = key_agent_fresh();
    if (!strcmp(name, "full")) fill();
    else if (!strcmp(name, "late")) alike(1023);
    else if (!strcmp(name, "early")) alike(11);
    else if (strcmp(name, "fresh")) hold_set(name);
}

int main(int words, char **word) {
    if (words != 3) {
        for (const char *const *set = SETS; *set; set++) puts(*set);
        puts("fresh full late early");
        return words != 1;
    }
    make(word[1]);
    began();
    for (long n = atol(word[2]); n > 0; n--)
        if (!is_sound()) return 3;
    printf("%zu\n", used);
    return 0;
}
