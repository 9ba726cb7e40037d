/* The key agent for C: seven functions of the archive of the crate gateway_c. rust/archive makes it, for x86-64 Linux and
 * aarch64 Linux. It exports two more, which ask for a sound state and test nothing: they are for the Rust crate, which
 * owns its state. A call from here keeps the test.
 *
 * The agent decides and keeps; sockets, clock, panel, key check and signer stay on this side. The first call of a request is handed the bytes of
 * its connection, each later one the request's payload and the answers so far; a call hands back a question, a reply, or a close. What it promises
 * is proved of the code in the archive; it holds while this side keeps what is said below, which nothing tests:
 *
 *   - no pointer is null, also where the length beside it is 0;
 *   - a pointer to bytes has as many bytes behind it as the length says, and no length is above PTRDIFF_MAX;
 *   - store, reply and state are written: they overlap neither each other nor payload, bytes, signature or the result, and nobody else reads
 *     or writes them while a call runs. So: one call at a time on one state. Payload, bytes and signature are only read, and may overlap;
 *   - state and store belong together: keep, copy and restore them as a pair;
 *   - the stack has room: a call and a first call take up to 7 KB of it, a function that takes a state by value up to 14 KB with that state (measured on
 *     x86-64).
 *
 * Of what state and store hold nothing is asked: every bit pattern of both is covered by the proof, and one that is not sound is refused (3).
 * A state has no padding: two are equal where their bytes are.
 */
#ifndef KEY_AGENT_H
#define KEY_AGENT_H

#include <stdbool.h>
#include <stddef.h>
#include <stdint.h>

#ifdef __cplusplus
extern "C" {
#endif

enum {
    KEY_AGENT_KEYS = 24,               /* the most keys that are held */
    KEY_AGENT_STORE_BYTES = 32768,     /* the key store's exact length */
    KEY_AGENT_REPLY_BYTES = 30897,     /* the reply buffer's least length: the longest list */
    KEY_AGENT_PAYLOAD_BYTES = 262144,  /* the longest payload */
    KEY_AGENT_SIGNATURE_BYTES = 2048,  /* the longest signature */
    KEY_AGENT_COMMENT_BYTES = 255      /* the longest comment */
};

/* ---- State: kept by this side, read and written by the agent ---- */

/* A clock reading in milliseconds. */
typedef struct {
    uint64_t count;
} key_agent_millis;

/* Of each held key, in the order of the list: insertion number; reading at insertion, in milliseconds; lengths of blob, key fields and comment;
 * lifetime in seconds; limited (has it a lifetime?) and confirm, 0 or 1, any other value is unsound. The first number that is 0 ends the list, and
 * all entries from there on are zero. */
typedef struct {
    uint64_t numbers[KEY_AGENT_KEYS];
    uint64_t readings[KEY_AGENT_KEYS];
    size_t blob_lens[KEY_AGENT_KEYS];
    size_t fields_lens[KEY_AGENT_KEYS];
    size_t comment_lens[KEY_AGENT_KEYS];
    uint32_t seconds[KEY_AGENT_KEYS];
    uint8_t limited[KEY_AGENT_KEYS];
    uint8_t confirm[KEY_AGENT_KEYS];
} key_agent_columns;

typedef struct {
    uint8_t bytes[1024];
    size_t len;
} key_agent_lock;

/* The store has of each held key blob, key fields and comment behind each other, the keys in the order of the list and without gaps, from store[0]
 * on; the rest of its KEY_AGENT_STORE_BYTES bytes is zero. A call that adds, replaces or removes a key, or lets one go on time, moves what stands
 * behind it: a place in the store holds until the next call. */
typedef struct {
    key_agent_columns columns;
    key_agent_lock lock;
    key_agent_millis clock;
    uint64_t next;
} key_agent_state;

/* ---- Answers: what was found out so far for this request ---- */

/* Any number but KEY_AGENT_NO and KEY_AGENT_YES is no answer. */
enum {
    KEY_AGENT_UNANSWERED = 0,
    KEY_AGENT_NO = 1,  /* of the signature: the signer gave nothing */
    KEY_AGENT_YES = 2  /* of the signature: given, its bytes are the call's signature */
};

/* Confirmation and signature count only for the key of their insertion number, the one that the question named. */
typedef struct {
    uint8_t gate;
    uint8_t check;
    uint8_t confirmation;
    uint8_t signature;
    uint64_t confirmation_number;
    uint64_t signature_number;
} key_agent_answers;

/* ---- Outcome ---- */

/* Each kind, and the fields that it uses; the others are 0. A part is never out of range: from <= to, and to <= payload_len, or reply_len
 * where it is a reply. */
enum {
    KEY_AGENT_REFUSED = 0,       /* number: 1 reply buffer too short; 2 store of another length; 3 state not sound; 4 payload too long;
                                    5 signature too long. Nothing was altered, the clock neither */
    KEY_AGENT_ASK_GATE = 1,      /* number: the class. 1 list; 2 add; 3 remove; 4 remove all; 5 sign; 6 lock; 7 unlock */
    KEY_AGENT_ASK_CHECK = 2,     /* from, to: the part of the payload with the key's fields */
    KEY_AGENT_ASK_CONFIRM = 3,   /* number: the key's insertion number */
    KEY_AGENT_ASK_SIGN = 4,      /* number: the key's insertion number; from, to: the part of the payload to sign; hash: 0 none, 256, 512 */
    KEY_AGENT_REPLY = 5,         /* from is 0, to is the length: the frame to send is the first `to` bytes of the reply buffer */
    KEY_AGENT_CLOSE = 6          /* the connection is to be closed */
};

typedef struct {
    uint8_t kind;
    uint16_t hash;
    uint64_t number;
    size_t from;
    size_t to;
} key_agent_outcome;

/* ---- First call ---- */

/* Each kind, and the fields that it uses; the others are 0, those of the outcome too. */
enum {
    KEY_AGENT_FIRST_MORE_NEEDED = 0,  /* no whole frame yet. Nothing was altered, the clock neither */
    KEY_AGENT_FIRST_TOO_LONG = 1,     /* a frame that is never to be read: close the connection. Nothing was altered, the clock neither */
    KEY_AGENT_FIRST_REFUSED = 2,      /* outcome.number: 1 reply buffer too short; 2 store of another length; 3 state not sound; no other. A frame
                                         is whole, no byte of it is used, and nothing was altered, the clock neither */
    KEY_AGENT_FIRST_BEGAN = 3         /* used, outcome: a request has begun */
};

/* Look at kind first: of all but a request that has begun the outcome says nothing beyond what stands above. A request's frame is
 * bytes[0 .. used), its payload bytes[4 .. used), and the next frame begins at bytes[used]; used <= bytes_len. What a question of a later call
 * names as a part of the payload, payload[from .. to), is bytes[4 + from .. 4 + to), and 4 + to <= used. */
typedef struct {
    uint8_t kind;
    size_t used;
    key_agent_outcome outcome;
} key_agent_first_result;

/* ---- Split ---- */

enum {
    KEY_AGENT_MORE_NEEDED = 0,
    KEY_AGENT_TOO_LONG = 1,
    KEY_AGENT_FRAME = 2
};

typedef struct {
    uint8_t kind;
    size_t from;
    size_t to;
} key_agent_split_result;

/* ---- A held key ---- */

/* The comment that the key was added with: its first len bytes; the rest is zero. Not ended by a zero byte, and may hold some. */
typedef struct {
    uint8_t bytes[KEY_AGENT_COMMENT_BYTES];
    size_t len;
} key_agent_comment;

/* number is its insertion number; where it is 0 nothing is told, and every field is 0. confirm and limited (has it a lifetime?) are 0 or 1; left
 * is what is left of the lifetime at the kept clock, in milliseconds, 0 without one and where none is left. The public blob is
 * store[blob_from .. blob_to), the key fields, private ones too, as the add request had them, are store[fields_from .. fields_to): never out of
 * range, from <= to <= store_len. The next call may move them. */
typedef struct {
    uint64_t number;
    uint8_t confirm;
    uint8_t limited;
    key_agent_millis left;
    size_t blob_from;
    size_t blob_to;
    size_t fields_from;
    size_t fields_to;
    key_agent_comment comment;
} key_agent_held_key;

/* ---- Functions ---- */

/* The state of a fresh gateway: no key, open, clock 0. Its store is KEY_AGENT_STORE_BYTES bytes, all zero. */
key_agent_state key_agent_fresh(void);

/* Are state and store sound together, as refusal 3 tests at each call? For a host that restores them; makes no call and alters nothing. */
bool key_agent_is_sound(key_agent_state state, const uint8_t *store, size_t store_len);

/* The first call for a request, from its connection's bytes: what key_agent_split says of them, and where they hold a whole frame what
 * key_agent_call gives on its payload, with nothing answered; in one, so that the length in front of the payload is not handed along with it.
 *
 *   bytes          what the connection has sent and no request has used. Only the first frame counts; more may stand behind it.
 *   state, store, reading, reply   as in key_agent_call; tested and altered only where a frame is whole.
 *
 * The outcome is KEY_AGENT_ASK_GATE, or KEY_AGENT_REPLY with a failure of five bytes. Later calls of the request are key_agent_call's, with the
 * payload bytes[4 .. used): keep the bytes until it ends, and let go of `used` of them then.
 */
key_agent_first_result key_agent_first(
    key_agent_state *state,
    uint8_t *store, size_t store_len,
    const uint8_t *bytes, size_t bytes_len,
    key_agent_millis reading,
    uint8_t *reply, size_t reply_len);

/* One call for a request.
 *
 *   state, store   as the call before left them, or fresh; altered in place. store_len must be KEY_AGENT_STORE_BYTES, else refusal 2.
 *   payload        of the request's frame, without the length in front; at most KEY_AGENT_PAYLOAD_BYTES, else refusal 4.
 *   reading        of a clock in milliseconds. A reading lower than an earlier one counts as that one.
 *   answers        so far for this request; nothing carries over from call to call.
 *   signature      read only where answers.signature is KEY_AGENT_YES; then at most KEY_AGENT_SIGNATURE_BYTES, else refusal 5.
 *   reply          at least KEY_AGENT_REPLY_BYTES, else refusal 1. Written in front by a reply, untouched by every other outcome.
 *
 * A question is asked again until its answer is lent: find it out, set it in answers, and call again with the same payload. A reply or a
 * close ends the request.
 */
key_agent_outcome key_agent_call(
    key_agent_state *state,
    uint8_t *store, size_t store_len,
    const uint8_t *payload, size_t payload_len,
    key_agent_millis reading,
    key_agent_answers answers,
    const uint8_t *signature, size_t signature_len,
    uint8_t *reply, size_t reply_len);

/* What the first bytes of a connection hold: KEY_AGENT_MORE_NEEDED; KEY_AGENT_TOO_LONG, a frame that is never to be read; or
 * KEY_AGENT_FRAME, a whole frame, whose payload is bytes[from .. to), so that the next frame begins at bytes[to]. Else from and to are 0.
 * Always from <= to <= bytes_len.
 */
key_agent_split_result key_agent_split(const uint8_t *bytes, size_t bytes_len);

/* The held key with this insertion number, as the last call left it; nothing where none has it, for 0, and where state and store are not sound.
 * The number that KEY_AGENT_ASK_CONFIRM or KEY_AGENT_ASK_SIGN named is held until the next call. Tells of keys while locked too.
 */
key_agent_held_key key_agent_key(key_agent_state state, const uint8_t *store, size_t store_len, uint64_t number);

/* The least held insertion number above `after`; 0 where there is none, and where state and store are not sound. From 0 on it walks all held
 * keys in order of insertion. A number that was told of and is not any more is gone for good: no later key gets it.
 */
uint64_t key_agent_next(key_agent_state state, const uint8_t *store, size_t store_len, uint64_t after);

#ifdef __cplusplus
}
#endif

#ifdef __STDC_VERSION__
#if __STDC_VERSION__ >= 201112L
_Static_assert(sizeof(key_agent_comment) == 264 && offsetof(key_agent_comment, len) == 256, "layout of a comment");
_Static_assert(sizeof(key_agent_columns) == 1104 && offsetof(key_agent_columns, blob_lens) == 384 && offsetof(key_agent_columns, seconds) == 960 && offsetof(key_agent_columns, confirm) == 1080, "layout of the columns");
_Static_assert(sizeof(key_agent_state) == 2152 && offsetof(key_agent_state, lock) == 1104 && offsetof(key_agent_state, clock) == 2136 && offsetof(key_agent_state, next) == 2144, "layout of a state");
_Static_assert(sizeof(key_agent_answers) == 24 && offsetof(key_agent_answers, confirmation_number) == 8, "layout of answers");
_Static_assert(sizeof(key_agent_outcome) == 32 && offsetof(key_agent_outcome, hash) == 2 && offsetof(key_agent_outcome, number) == 8, "layout of an outcome");
_Static_assert(sizeof(key_agent_split_result) == 24 && offsetof(key_agent_split_result, from) == 8, "layout of a split");
_Static_assert(sizeof(key_agent_first_result) == 48 && offsetof(key_agent_first_result, used) == 8 && offsetof(key_agent_first_result, outcome) == 16, "layout of a first result");
_Static_assert(sizeof(key_agent_held_key) == 320 && offsetof(key_agent_held_key, confirm) == 8 && offsetof(key_agent_held_key, limited) == 9 && offsetof(key_agent_held_key, left) == 16, "layout of a held key");
_Static_assert(offsetof(key_agent_held_key, blob_from) == 24 && offsetof(key_agent_held_key, fields_from) == 40 && offsetof(key_agent_held_key, comment) == 56, "layout of a held key's parts");
#endif
#endif

#endif
