//! What the archive exports, as it stands in `crates/gateway_c` and `crates/table`. Nothing outside this crate sees it.

/// A comment: its first `len` bytes; the rest is zero.
#[repr(C)]
#[derive(Clone, Copy, Debug, PartialEq, Eq)]
pub struct Comment {
    pub bytes: [u8; 255],
    pub len: usize,
}

/// The most keys that are held.
pub const KEYS: usize = 24;

/// What is kept of the held keys, in the order of the list, beside their bytes in the store; what stands behind them is all zero. `limited` and
/// `confirm` are 0 or 1; any other value is unsound.
#[repr(C)]
#[derive(Clone, Copy, Debug, PartialEq, Eq)]
pub struct Columns {
    pub numbers: [u64; KEYS],
    pub readings: [u64; KEYS],
    pub blob_lens: [usize; KEYS],
    pub fields_lens: [usize; KEYS],
    pub comment_lens: [usize; KEYS],
    pub seconds: [u32; KEYS],
    pub limited: [u8; KEYS],
    pub confirm: [u8; KEYS],
}

#[repr(C)]
#[derive(Clone, Copy, Debug, PartialEq, Eq)]
pub struct LockRecord {
    pub bytes: [u8; 1024],
    pub len: usize,
}

#[repr(C)]
#[derive(Clone, Copy, Debug, PartialEq, Eq)]
pub struct State {
    pub columns: Columns,
    pub lock: LockRecord,
    pub clock: u64,
    pub next: u64,
}

/// 1 no or nothing given, 2 yes or given; any other number is no answer.
#[repr(C)]
#[derive(Clone, Copy, Debug, PartialEq, Eq, Default)]
pub struct FlatAnswers {
    pub gate: u8,
    pub check: u8,
    pub confirmation: u8,
    pub signature: u8,
    pub confirmation_number: u64,
    pub signature_number: u64,
}

#[repr(C)]
#[derive(Clone, Copy, Debug, PartialEq, Eq)]
pub struct FlatOutcome {
    pub kind: u8,
    pub hash: u16,
    pub number: u64,
    pub from: usize,
    pub to: usize,
}

#[repr(C)]
#[derive(Clone, Copy, Debug, PartialEq, Eq)]
pub struct FlatSplit {
    pub kind: u8,
    pub from: usize,
    pub to: usize,
}

/// What a first call came to: the bytes used and the outcome, 0 in what its kind does not use.
#[repr(C)]
#[derive(Clone, Copy, Debug, PartialEq, Eq)]
pub struct FlatFirst {
    pub kind: u8,
    pub used: usize,
    pub outcome: FlatOutcome,
}

/// A held key: parts of the store, `left` in milliseconds. Number 0: nothing is told, and all is zero.
#[repr(C)]
#[derive(Clone, Copy, Debug, PartialEq, Eq)]
pub struct HeldKey {
    pub number: u64,
    pub confirm: u8,
    pub limited: u8,
    pub left: u64,
    pub blob_from: usize,
    pub blob_to: usize,
    pub fields_from: usize,
    pub fields_to: usize,
    pub comment: Comment,
}

// A slice crosses as two words, where it begins and its length.

/// One call on state, store, payload, reading, answers, signature and reply.
pub type Call = unsafe extern "C" fn(
    state: *mut State,
    store: *mut u8,
    store_len: usize,
    payload: *const u8,
    payload_len: usize,
    reading: u64,
    answers: FlatAnswers,
    signature: *const u8,
    signature_len: usize,
    reply: *mut u8,
    reply_len: usize,
) -> FlatOutcome;

/// A first call on state, store, a connection's bytes, reading and reply.
pub type FirstCall = unsafe extern "C" fn(
    state: *mut State,
    store: *mut u8,
    store_len: usize,
    bytes: *const u8,
    bytes_len: usize,
    reading: u64,
    reply: *mut u8,
    reply_len: usize,
) -> FlatFirst;

extern "C" {
    pub fn key_agent_fresh() -> State;
    pub fn key_agent_is_sound(state: State, store: *const u8, store_len: usize) -> bool;
    pub fn key_agent_call(
        state: *mut State,
        store: *mut u8,
        store_len: usize,
        payload: *const u8,
        payload_len: usize,
        reading: u64,
        answers: FlatAnswers,
        signature: *const u8,
        signature_len: usize,
        reply: *mut u8,
        reply_len: usize,
    ) -> FlatOutcome;
    pub fn key_agent_first(
        state: *mut State,
        store: *mut u8,
        store_len: usize,
        bytes: *const u8,
        bytes_len: usize,
        reading: u64,
        reply: *mut u8,
        reply_len: usize,
    ) -> FlatFirst;
    // The inner calls: as the two above, with no soundness test. They ask for a state and a store that are sound, the store of its length, and leave
    // them so; on any other nothing is promised, not even that they stay within the store. So they are not in the header: of what is published they are declared here alone.
    pub fn key_agent_inner_call(
        state: *mut State,
        store: *mut u8,
        store_len: usize,
        payload: *const u8,
        payload_len: usize,
        reading: u64,
        answers: FlatAnswers,
        signature: *const u8,
        signature_len: usize,
        reply: *mut u8,
        reply_len: usize,
    ) -> FlatOutcome;
    pub fn key_agent_inner_first(
        state: *mut State,
        store: *mut u8,
        store_len: usize,
        bytes: *const u8,
        bytes_len: usize,
        reading: u64,
        reply: *mut u8,
        reply_len: usize,
    ) -> FlatFirst;
    pub fn key_agent_split(bytes: *const u8, bytes_len: usize) -> FlatSplit;
    pub fn key_agent_key(state: State, store: *const u8, store_len: usize, number: u64) -> HeldKey;
    pub fn key_agent_next(state: State, store: *const u8, store_len: usize, after: u64) -> u64;
}

/// Where an integer of a struct begins (std's is younger than Rust 1.63): it is 1, low byte first, and every other byte is 0.
macro_rules! offset_of {
    ($t:ty, $($field:tt)+) => {{
        union Seen {
            value: $t,
            bytes: [u8; size_of::<$t>()],
        }
        let mut seen = Seen { bytes: [0; size_of::<$t>()] };
        // SAFETY: both sides are plain integers and the bytes were all written.
        unsafe {
            seen.value.$($field)+ = 1;
            let mut at = 0;
            while seen.bytes[at] != 1 {
                at += 1;
            }
            at
        }
    }};
}

// The layout that the archive was built for (64 bits; the numbers are the C rules' for these fields).
const _: () = {
    use std::mem::{align_of, size_of};
    assert!(size_of::<usize>() == 8);
    assert!(size_of::<Comment>() == 264 && offset_of!(Comment, len) == 256);
    assert!(size_of::<Columns>() == 1104 && align_of::<Columns>() == 8);
    assert!(offset_of!(Columns, numbers[0]) == 0 && offset_of!(Columns, readings[0]) == 192 && offset_of!(Columns, blob_lens[0]) == 384);
    assert!(offset_of!(Columns, fields_lens[0]) == 576 && offset_of!(Columns, comment_lens[0]) == 768 && offset_of!(Columns, seconds[0]) == 960);
    assert!(offset_of!(Columns, limited[0]) == 1056 && offset_of!(Columns, confirm[0]) == 1080);
    assert!(size_of::<LockRecord>() == 1032 && offset_of!(LockRecord, len) == 1024);
    assert!(size_of::<State>() == 2152 && align_of::<State>() == 8 && offset_of!(State, lock.bytes[0]) == 1104);
    assert!(offset_of!(State, clock) == 2136 && offset_of!(State, next) == 2144);
    assert!(size_of::<FlatAnswers>() == 24 && offset_of!(FlatAnswers, confirmation_number) == 8);
    assert!(size_of::<FlatOutcome>() == 32 && offset_of!(FlatOutcome, hash) == 2 && offset_of!(FlatOutcome, number) == 8);
    assert!(offset_of!(FlatOutcome, from) == 16 && offset_of!(FlatOutcome, to) == 24);
    assert!(size_of::<FlatSplit>() == 24 && offset_of!(FlatSplit, from) == 8);
    assert!(size_of::<FlatFirst>() == 48 && offset_of!(FlatFirst, used) == 8 && offset_of!(FlatFirst, outcome.kind) == 16);
    assert!(size_of::<HeldKey>() == 320 && offset_of!(HeldKey, confirm) == 8 && offset_of!(HeldKey, limited) == 9);
    assert!(offset_of!(HeldKey, left) == 16 && offset_of!(HeldKey, blob_from) == 24 && offset_of!(HeldKey, blob_to) == 32);
    assert!(offset_of!(HeldKey, fields_from) == 40 && offset_of!(HeldKey, fields_to) == 48 && offset_of!(HeldKey, comment.bytes[0]) == 56);
};
