/* passphrase LENGTH: a gateway is locked by LENGTH bytes, and an UNLOCK lands for each place of the first unequal byte, twice: with that byte alone
 * changed, in one bit, and with all bytes from there on, in every bit. The last one has the passphrase itself. Status 0 where all but the last failed
 * and left the lock as it was, and the last opened. steps.c looks at what is executed between `began` and `ended`: one call each time, and how it is
 * handed its arguments. CALL: key_agent_call, or key_agent_inner_call, which the header does not have: the state here comes from the core alone. */
#include "key_agent.h"
#include <stdlib.h>
#include <string.h>

__typeof__(key_agent_call) CALL;

enum { FAILURE = 5, SUCCESS = 6, LOCK = 22, UNLOCK = 23, LONGEST = 1024 };

key_agent_state state;
uint8_t store[KEY_AGENT_STORE_BYTES], reply[KEY_AGENT_REPLY_BYTES], payload[5 + LONGEST];

__attribute__((noinline)) void began(void) { __asm__ volatile(""); }
__attribute__((noinline)) void ended(void) { __asm__ volatile(""); }

/* The message of the reply to this request, its gate answered yes. Never inlined: all calls have the same addresses. */
__attribute__((noinline)) static int answer(uint8_t request, size_t length) {
    payload[0] = request;
    payload[3] = (uint8_t)(length >> 8);
    payload[4] = (uint8_t)length;
    began();
    key_agent_outcome o = CALL(&state, store, sizeof store, payload, 5 + length, (key_agent_millis){0},
                               (key_agent_answers){.gate = KEY_AGENT_YES}, payload, 0, reply, sizeof reply);
    ended();
    return o.kind == KEY_AGENT_REPLY && o.to == 5 ? reply[4] : 0;
}

static int is_lock(const key_agent_lock *lock) { return state.lock.len == lock->len && !memcmp(state.lock.bytes, lock->bytes, LONGEST); }

int main(int words, char **word) {
    size_t length = words == 2 ? (size_t)atol(word[1]) : 0;
    if (length < 1 || length > LONGEST) return 2;
    uint8_t *given = payload + 5, kept[LONGEST];
    for (size_t i = 0; i < length; i++) given[i] = kept[i] = (uint8_t)(37 * i + 11);
    state = key_agent_fresh();
    if (answer(LOCK, length) != SUCCESS) return 1;
    const key_agent_lock lock = state.lock;
    for (size_t place = 0; place < length; place++) {
        given[place] ^= (uint8_t)(1 << place % 8);
        if (answer(UNLOCK, length) != FAILURE || !is_lock(&lock)) return 1;
        for (size_t i = place; i < length; i++) given[i] = (uint8_t)~kept[i];
        if (answer(UNLOCK, length) != FAILURE || !is_lock(&lock)) return 1;
        memcpy(given, kept, length);
    }
    return answer(UNLOCK, length) != SUCCESS || state.lock.len != 0;
}
