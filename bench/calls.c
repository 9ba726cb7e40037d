/* calls SET REQUEST CALLS: a gateway holds the keys of SET, with comments of ten bytes, and REQUEST is made CALLS times in each of four ways: by one
 * call with all answers lent, and by a first call on its frame, each from outside and inner; always on the same state. Each way stands between
 * `began` and `ended`, and is named before it; behind it is printed how many bytes of other entries one call moves.
 * A request with + behind it has bytes behind it, up to the longest payload; `confirms` is an add with 1,000 constraints, `confirms+` with 2,000.
 * Without words: the sets; with one: the requests. Status 0 where every reply was the one that the request asks for, and an inner call comes to the
 * same outcome, state, store and reply as the one from outside. */
#include "keys.h"
#include <stdio.h>

/* which the header does not have: this program's states come from the core alone */
__typeof__(key_agent_call) key_agent_inner_call;
__typeof__(key_agent_first) key_agent_inner_first;

enum { FAILURE = 5, SUCCESS = 6, LIST = 11, LISTED = 12, SIGN = 13, SIGNED = 14, ADD = 17, REMOVE = 18, LOCK = 22, UNLOCK = 23, CONSTRAINED = 25 };

static key_agent_state state, kept;
uint8_t store[KEY_AGENT_STORE_BYTES];
static uint8_t kept_store[KEY_AGENT_STORE_BYTES], reply[KEY_AGENT_REPLY_BYTES], signature[100], frame[4 + KEY_AGENT_PAYLOAD_BYTES], *const payload = frame + 4;
static size_t size; /* of the payload */
static uint64_t reading;
static key keys[MOST_KEYS];
static size_t held;

static void string(const void *bytes, size_t n) { size = put(payload, size, bytes, n); }

static void begin(uint8_t message) {
    size = 0;
    payload[size++] = message;
}

/* with a comment of n bytes */
static void add(uint8_t message, const key *k, size_t n) {
    begin(message);
    memcpy(payload + size, k->fields, k->fields_len);
    size += k->fields_len;
    string("01234567890123456789", n);
}

static void sign(const key *k) {
    uint8_t data[200];
    memset(data, 7, sizeof data);
    begin(SIGN);
    string(k->blob, k->blob_len);
    string(data, sizeof data);
    memset(payload + size, 0, 4);
    size += 4;
}

static void remove_key(const key *k) {
    begin(REMOVE);
    string(k->blob, k->blob_len);
}

/* not the same code, which could be one function */
__attribute__((noinline)) void began(void) { __asm__ volatile("" ::"r"(1)); }
__attribute__((noinline)) void ended(void) { __asm__ volatile("" ::"r"(2)); }

static int answer(__typeof__(key_agent_call) *call) {
    key_agent_answers answers = {KEY_AGENT_YES, KEY_AGENT_YES, KEY_AGENT_YES, KEY_AGENT_YES, state.next - 1, state.next - 1};
    key_agent_outcome o =
        call(&state, store, sizeof store, payload, size, (key_agent_millis){reading}, answers, signature, sizeof signature, reply, sizeof reply);
    return o.kind == KEY_AGENT_REPLY ? reply[4] : 0;
}

/* 0 where a question is open */
static int answer_first(__typeof__(key_agent_first) *first) {
    const uint8_t length[4] = {0, (uint8_t)(size >> 16), (uint8_t)(size >> 8), (uint8_t)size};
    memcpy(frame, length, 4);
    key_agent_first_result f = first(&state, store, sizeof store, frame, size + 4, (key_agent_millis){reading}, reply, sizeof reply);
    if (f.kind != KEY_AGENT_FIRST_BEGAN || f.used != size + 4) return -1;
    return f.outcome.kind == KEY_AGENT_REPLY ? reply[4] : f.outcome.kind == KEY_AGENT_ASK_GATE ? 0 : -1;
}

/* Every second key, from the first on, has a lifetime of a second where `limited` says so: they wait for it, or expire. */
static int hold(int limited) {
    state = key_agent_fresh();
    for (size_t i = 0; i < held; i++) {
        int with = limited && i % 2 == 0;
        add(with ? CONSTRAINED : ADD, &keys[i], COMMENT);
        if (with) {
            const uint8_t lifetime[5] = {1, 0, 0, 0, 1};
            memcpy(payload + size, lifetime, 5);
            size += 5;
        }
        if (answer(key_agent_call) != SUCCESS) return 0;
    }
    return 1;
}

static size_t length(const key_agent_state *s, size_t i) { return s->columns.blob_lens[i] + s->columns.fields_lens[i] + s->columns.comment_lens[i]; }

/* Where the entry with this number begins, or nowhere. */
static size_t place(const key_agent_state *s, uint64_t number) {
    size_t at = 0;
    for (size_t i = 0; i < MOST_KEYS; i++) {
        if (s->columns.numbers[i] == number) return at;
        at += length(s, i);
    }
    return SIZE_MAX;
}

/* Of the entries that are held before and now, the bytes that lie elsewhere. */
static size_t moved(void) {
    size_t n = 0;
    for (size_t i = 0; i < held; i++) {
        uint64_t number = kept.columns.numbers[i];
        size_t now = place(&state, number);
        if (now != SIZE_MAX && now != place(&kept, number)) n += length(&kept, i);
    }
    return n;
}

/* so many constraints behind an add, each of them Confirm */
static void confirm(size_t n) {
    memset(payload + size, 2, n);
    size += n;
}

/* Makes the payload; gives the message of the reply that must come, 0 for an unknown request. */
static int ask_plain(const char *request) {
    const key *first = &keys[0], *last = &keys[held - 1];
    if (!strcmp(request, "list")) return begin(LIST), LISTED;
    if (!strcmp(request, "sign")) return sign(last), SIGNED;
    if (!strcmp(request, "add")) return add(ADD, last, COMMENT), SUCCESS;
    if (!strcmp(request, "lock")) return begin(LOCK), string("ab", 2), SUCCESS;
    if (!strcmp(request, "unlock")) return begin(UNLOCK), string("ab", 2), SUCCESS;
    if (!strcmp(request, "empty")) return size = 0, FAILURE;
    if (!strcmp(request, "remove-last")) return remove_key(last), SUCCESS;
    if (!strcmp(request, "remove-first")) return remove_key(first), SUCCESS;
    if (!strcmp(request, "longer-first")) return add(ADD, first, 2 * COMMENT), SUCCESS;
    if (!strcmp(request, "shorter-first")) return add(ADD, first, COMMENT / 2), SUCCESS;
    if (!strcmp(request, "waiting")) return size = 0, FAILURE;
    if (!strcmp(request, "expire")) return size = 0, reading = 1000, FAILURE;
    if (!strcmp(request, "confirms")) return add(CONSTRAINED, last, COMMENT), confirm(1000), SUCCESS;
    return 0;
}

static int ask(const char *request) {
    char plain[20] = {0};
    size_t n = strlen(request);
    if (n >= sizeof plain) return 0;
    if (!n || request[n - 1] != '+') return ask_plain(request);
    memcpy(plain, request, n - 1);
    int wanted = ask_plain(plain);
    if (payload[0] == CONSTRAINED) return confirm(1000), wanted;
    if (!size) return 0;
    memset(payload + size, 255, KEY_AGENT_PAYLOAD_BYTES - size);
    size = KEY_AGENT_PAYLOAD_BYTES;
    return wanted;
}

static void restore(void) {
    state = kept;
    memcpy(store, kept_store, sizeof store);
}

/* What a call left behind, kept for the inner one to come to the same. */
static int is_same(int is_inner) {
    static key_agent_state before;
    static uint8_t before_store[KEY_AGENT_STORE_BYTES], before_reply[KEY_AGENT_REPLY_BYTES];
    if (is_inner)
        return !memcmp(&before, &state, sizeof state) && !memcmp(before_store, store, sizeof store) && !memcmp(before_reply, reply, sizeof reply);
    before = state;
    memcpy(before_store, store, sizeof store);
    memcpy(before_reply, reply, sizeof reply);
    return 1;
}

static const char *const WAYS[4] = {"call", "inner_call", "first", "inner_first"};

static int make(int way) {
    switch (way) {
    case 0: return answer(key_agent_call);
    case 1: return answer(key_agent_inner_call);
    case 2: return answer_first(key_agent_first);
    default: return answer_first(key_agent_inner_first);
    }
}

int main(int n, char **word) {
    if (n < 4) {
        if (n == 1)
            for (const char *const *set = SETS; *set; set++) puts(*set);
        if (n == 2) puts("list sign add lock unlock empty remove-last remove-first longer-first shorter-first waiting expire list+ sign+ add+ lock+ unlock+ remove-last+ confirms confirms+");
        return n > 2;
    }
    setvbuf(stdout, 0, _IONBF, 0);
    held = make_set(keys, word[1]);
    if (!held || !hold(!strcmp(word[2], "expire") || !strcmp(word[2], "waiting"))) return 3;
    if (!strncmp(word[2], "unlock", 6) && (ask("lock") != SUCCESS || answer(key_agent_call) != SUCCESS)) return 3;
    int wanted = ask(word[2]);
    if (!wanted) return 3;
    kept = state;
    memcpy(kept_store, store, sizeof store);
    for (int way = 0; way < 4; way++) {
        printf("way %s\n", WAYS[way]);
        began();
        for (long i = 0, calls = atol(word[3]); i < calls; i++) {
            restore();
            if (make(way) != (way > 1 && size ? 0 : wanted)) return 4;
        }
        ended();
        if (!is_same(way % 2)) return 5;
        printf("moved %zu\n", moved());
    }
    return 0;
}
