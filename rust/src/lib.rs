//! The proved key agent core for Rust programs: the rules of an SSH agent with room for 24 keys, a lock, lifetimes and confirmations, and none
//! of the rest. Sockets, signing, key mathematics and the clock stay with the caller.
//!
//! A request is one frame of a connection's bytes. [`Gateway::first`] finds it at their front; that call, and [`Gateway::call`] on its
//! [`Payload`], work on the present state and either land ([`Outcome::Reply`], [`Outcome::Close`]) or ask a [`Question`]. The caller finds the
//! answer, puts it into [`Answers`] and calls again with the same payload; other requests may land between the two calls, and each call looks at
//! lock and table afresh. That is what the core is for: the request that lands first holds.
//!
//! ```
//! use key_agent::{Answers, Class, First, Gateway, Outcome, Question, Reply};
//!
//! let mut gateway = Gateway::new();
//! let mut reply = Reply::new();
//! // 11: which keys are held? The gate is asked first. A second request stands behind it.
//! let bytes = [0, 0, 0, 1, 11, 0, 0, 0, 1, 19];
//! let payload = match gateway.first(&bytes, 0, &mut reply) {
//!     First::Began { payload, used: 5, outcome: Outcome::Asks(Question::Gate(Class::RequestKeys)) } => payload,
//!     other => panic!("{other:?}"),
//! };
//! let answers = Answers { gate: Some(true), ..Answers::default() };
//! assert_eq!(gateway.call(payload, 0, &answers, &mut reply), Outcome::Reply);
//! assert_eq!(reply.bytes(), [0, 0, 0, 5, 12, 0, 0, 0, 0]);
//! ```
//!
//! A [`Payload`] is only ever cut out of a whole frame, so the length in front of it cannot be handed along with it:
//!
//! ```compile_fail,E0308
//! let (mut gateway, mut reply) = (key_agent::Gateway::new(), key_agent::Reply::new());
//! gateway.call(&[0, 0, 0, 1, 11], 0, &key_agent::Answers::default(), &mut reply);
//! ```
//!
//! Nor is a [`Part`] of it, which a question names, looked for among the connection's bytes:
//!
//! ```compile_fail,E0277
//! fn fields(bytes: &[u8], part: key_agent::Part) -> &[u8] {
//!     &bytes[part]
//! }
//! ```
//!
//! What each call does with state, store and reply is proved in the repository's `crates/`; this crate adds the types and keeps the two promises
//! that the archive asks of whoever links it: every part that crosses is there for its whole length, and no two of them overlap.
#![deny(missing_docs, unsafe_op_in_unsafe_fn)]

mod raw;

use std::fmt;
use std::ops::{Deref, Range};
use std::sync::Once;

/// The most keys that are held.
pub const MAX_KEYS: usize = raw::KEYS;
/// The length of the key store, in which blobs, key fields and comments stand without gaps: what they take in all is at most this.
pub const STORE_LEN: usize = 32_768;
/// The length of a reply buffer: the longest list of 24 keys is 30,897 bytes.
pub const REPLY_LEN: usize = 30_897;
/// The longest comment that is taken.
pub const MAX_COMMENT: usize = 255;
/// The longest payload that is taken.
pub const MAX_PAYLOAD: usize = 262_144;
/// The longest signature that is taken.
pub const MAX_SIGNATURE: usize = 2_048;

/// The kind of request that waits at the gate (`MessageType` in russh).
#[derive(Clone, Copy, Debug, PartialEq, Eq, Hash)]
pub enum Class {
    /// 11
    RequestKeys,
    /// 17, 25
    AddKeys,
    /// 18
    RemoveKeys,
    /// 19
    RemoveAllKeys,
    /// 13
    Sign,
    /// 22
    Lock,
    /// 23
    Unlock,
}

impl Class {
    /// The class's number, 1 to 7.
    pub fn number(self) -> u8 {
        match self {
            Class::RequestKeys => 1,
            Class::AddKeys => 2,
            Class::RemoveKeys => 3,
            Class::RemoveAllKeys => 4,
            Class::Sign => 5,
            Class::Lock => 6,
            Class::Unlock => 7,
        }
    }

    #[inline]
    fn of(number: u64) -> Class {
        match number {
            1 => Class::RequestKeys,
            2 => Class::AddKeys,
            3 => Class::RemoveKeys,
            4 => Class::RemoveAllKeys,
            5 => Class::Sign,
            6 => Class::Lock,
            7 => Class::Unlock,
            _ => never("class", 0, number),
        }
    }
}

/// The hash that the request's flags choose. It follows the flags for every type of key; a signer whose key leaves no choice does not look at it.
#[derive(Clone, Copy, Debug, PartialEq, Eq, Hash)]
pub enum Hash {
    /// Neither flag is set.
    None,
    /// Flag 2 is set.
    Sha256,
    /// Flag 4 is set and flag 2 is not.
    Sha512,
}

impl Hash {
    #[inline]
    fn of(bits: u16) -> Hash {
        match bits {
            0 => Hash::None,
            256 => Hash::Sha256,
            512 => Hash::Sha512,
            _ => never("hash", 0, bits.into()),
        }
    }
}

/// The payload of a request: a whole frame without its length in front. [`Gateway::first`] and [`split`] cut it out of a connection's bytes, and
/// nothing else makes one but the empty one. Never longer than [`MAX_PAYLOAD`].
#[derive(Clone, Copy, Default, PartialEq, Eq)]
pub struct Payload<'a>(&'a [u8]);

impl<'a> Payload<'a> {
    /// Its bytes, for as long as those that it was cut out of.
    #[inline]
    pub fn bytes(self) -> &'a [u8] {
        self.0
    }

    /// The bytes that a question of this request is about.
    ///
    /// # Panics
    ///
    /// Where the part is another payload's and this one is too short for it. Of one that is long enough it gives what stands there.
    #[inline]
    pub fn part(self, part: &Part) -> &'a [u8] {
        &self.0[part.0.clone()]
    }
}

/// A part of the payload of the call that asked. [`Payload::part`] has its bytes; nothing else can be indexed by it.
#[derive(Clone, Debug, PartialEq, Eq, Hash)]
pub struct Part(Range<usize>);

impl Part {
    /// How many bytes it has.
    #[allow(clippy::len_without_is_empty)]
    pub fn len(&self) -> usize {
        self.0.len()
    }
}

impl fmt::Debug for Payload<'_> {
    // keys and passphrases stay out of every log
    fn fmt(&self, f: &mut fmt::Formatter<'_>) -> fmt::Result {
        f.debug_struct("Payload").finish_non_exhaustive()
    }
}

/// What the core asks. Parts are places in the payload of the call that asked.
#[derive(Clone, Debug, PartialEq, Eq, Hash)]
pub enum Question {
    /// May a request of this class go on? Answered in [`Answers::gate`].
    Gate(Class),
    /// Are the key fields that stand in this part of the payload a key? Answered in [`Answers::check`].
    Check(Part),
    /// May the key with this insertion number sign? Answered in [`Answers::confirmation`].
    Confirmation {
        /// The key's insertion number.
        number: u64,
    },
    /// The signature of this part of the payload. Answered in [`Answers::signature`].
    Signature {
        /// The key's insertion number; [`Gateway::key`] has its fields.
        number: u64,
        /// What is signed, as a part of the payload.
        data: Part,
        /// The hash that the flags choose.
        hash: Hash,
    },
}

/// Why a call was turned away. Nothing has changed then, the clock neither.
#[derive(Clone, Copy, Debug, PartialEq, Eq, Hash)]
pub enum Refusal {
    /// 5: the signature lent is longer than [`MAX_SIGNATURE`].
    SignatureTooLong,
}

impl Refusal {
    /// The refusal's number.
    pub fn number(self) -> u8 {
        match self {
            Refusal::SignatureTooLong => 5,
        }
    }
}

impl fmt::Display for Refusal {
    fn fmt(&self, f: &mut fmt::Formatter<'_>) -> fmt::Result {
        match self {
            Refusal::SignatureTooLong => write!(f, "refusal 5: the signature is longer than {MAX_SIGNATURE} bytes"),
        }
    }
}

impl std::error::Error for Refusal {}

/// What a call comes to.
#[derive(Clone, Debug, PartialEq, Eq, Hash)]
pub enum Outcome {
    /// The call was turned away.
    Refused(Refusal),
    /// An answer is missing: call again with it. Nothing has changed but clock and expiry.
    Asks(Question),
    /// The request has landed; [`Reply::bytes`] is the frame to send.
    Reply,
    /// The request has landed: close the connection.
    Close,
}

impl Outcome {
    #[inline]
    fn of(o: raw::FlatOutcome, reply: &mut Reply) -> Outcome {
        reply.len = if o.kind == 5 { o.to } else { 0 };
        match o.kind {
            5 => Outcome::Reply,
            1 => Outcome::Asks(Question::Gate(Class::of(o.number))),
            2 => Outcome::Asks(Question::Check(Part(o.from..o.to))),
            3 => Outcome::Asks(Question::Confirmation { number: o.number }),
            4 => Outcome::Asks(Question::Signature { number: o.number, data: Part(o.from..o.to), hash: Hash::of(o.hash) }),
            6 => Outcome::Close,
            0 if o.number == 5 => Outcome::Refused(Refusal::SignatureTooLong),
            _ => never("outcome", o.kind, o.number),
        }
    }
}

/// Store, reply and payload have their lengths, and the state is the core's: so a call comes to nothing else.
#[cold]
#[inline(never)]
fn never(what: &str, kind: u8, number: u64) -> ! {
    unreachable!("{what} {kind}, number {number}")
}

/// What a connection's bytes come to.
#[derive(Clone, PartialEq, Eq)]
pub enum First<'a> {
    /// No whole frame yet, so no call was made: nothing has changed, the clock neither.
    MoreNeeded,
    /// The announced length is above [`MAX_PAYLOAD`]: close the connection. No call was made, and nothing has changed.
    TooLong,
    /// A request has begun.
    Began {
        /// What its later calls are made with, a part of the bytes.
        payload: Payload<'a>,
        /// How many of the bytes its frame takes: the next one begins there.
        used: usize,
        /// What its first call comes to.
        outcome: Outcome,
    },
}

impl<'a> First<'a> {
    #[inline]
    fn of(f: raw::FlatFirst, bytes: &'a [u8], reply: &mut Reply) -> First<'a> {
        match f.kind {
            3 => First::Began { payload: Payload(&bytes[4..f.used]), used: f.used, outcome: Outcome::of(f.outcome, reply) },
            0 => First::MoreNeeded,
            1 => First::TooLong,
            _ => never("first", f.kind, f.outcome.number),
        }
    }
}

impl fmt::Debug for First<'_> {
    // of a passphrase not even the length is told
    fn fmt(&self, f: &mut fmt::Formatter<'_>) -> fmt::Result {
        match self {
            First::MoreNeeded => f.write_str("MoreNeeded"),
            First::TooLong => f.write_str("TooLong"),
            First::Began { outcome, .. } => f.debug_struct("Began").field("outcome", outcome).finish_non_exhaustive(),
        }
    }
}

/// An answer that counts for one insertion number alone. If the key is replaced meanwhile, the core asks again for the new number.
#[derive(Clone, Copy, Debug, PartialEq, Eq, Hash)]
pub struct Numbered<T> {
    /// The number that was asked about.
    pub number: u64,
    /// The answer.
    pub answer: T,
}

/// The outside answers that a request has so far, at most one of each kind. An answer that is not needed has no effect.
#[derive(Clone, Copy, Debug, Default, PartialEq, Eq)]
pub struct Answers<'a> {
    /// The gate's yes or no.
    pub gate: Option<bool>,
    /// The key check's yes or no.
    pub check: Option<bool>,
    /// The confirmation's yes or no.
    pub confirmation: Option<Numbered<bool>>,
    /// The signer's signature blob, or nothing: then the connection is closed.
    pub signature: Option<Numbered<Option<&'a [u8]>>>,
}

#[inline]
fn said(answer: Option<bool>) -> u8 {
    answer.map_or(0, |yes| 1 + u8::from(yes))
}

/// The answers of gate and check alone, each as `said` has it. A call copies its answers in words: were their bytes written one by one just before,
/// the processor would wait for them, for a fifth of the time that a short call takes.
static SAID: [[raw::FlatAnswers; 3]; 3] = {
    let none = raw::FlatAnswers { gate: 0, check: 0, confirmation: 0, signature: 0, confirmation_number: 0, signature_number: 0 };
    let mut all = [[none; 3]; 3];
    let mut i = 0;
    while i < 9 {
        all[i / 3][i % 3] = raw::FlatAnswers { gate: (i / 3) as u8, check: (i % 3) as u8, ..none };
        i += 1;
    }
    all
};

impl<'a> Answers<'a> {
    #[inline]
    fn flat(&self) -> (raw::FlatAnswers, &'a [u8]) {
        let mut flat = raw::FlatAnswers { gate: said(self.gate), check: said(self.check), ..Default::default() };
        if let Some(c) = self.confirmation {
            flat.confirmation = said(Some(c.answer));
            flat.confirmation_number = c.number;
        }
        let mut bytes: &[u8] = &[];
        if let Some(s) = self.signature {
            flat.signature = said(Some(s.answer.is_some()));
            flat.signature_number = s.number;
            bytes = s.answer.unwrap_or(&[]);
        }
        (flat, bytes)
    }
}

/// A reply buffer. A call that replies fills its first bytes; no other call touches it.
pub struct Reply {
    buffer: Box<[u8; REPLY_LEN]>,
    len: usize,
}

impl Reply {
    /// A buffer of zeros with no reply in it.
    pub fn new() -> Reply {
        Reply { buffer: Box::new([0; REPLY_LEN]), len: 0 }
    }

    /// The frame of the last call that replied, its length prefix included; empty before one, and after a call that did not reply.
    #[inline]
    pub fn bytes(&self) -> &[u8] {
        &self.buffer[..self.len]
    }

    /// The whole buffer: behind the frame stands what stood there before.
    pub fn buffer(&self) -> &[u8; REPLY_LEN] {
        &self.buffer
    }
}

impl Default for Reply {
    fn default() -> Reply {
        Reply::new()
    }
}

impl fmt::Debug for Reply {
    fn fmt(&self, f: &mut fmt::Formatter<'_>) -> fmt::Result {
        f.debug_tuple("Reply").field(&self.bytes()).finish()
    }
}

/// The comment of a key, read as a text.
#[derive(Clone, Copy, PartialEq, Eq)]
pub struct Comment(raw::Comment);

impl Deref for Comment {
    type Target = str;

    fn deref(&self) -> &str {
        std::str::from_utf8(&self.0.bytes[..self.0.len]).expect("the core takes no other")
    }
}

impl PartialEq<str> for Comment {
    fn eq(&self, other: &str) -> bool {
        **self == *other
    }
}

impl PartialEq<&str> for Comment {
    fn eq(&self, other: &&str) -> bool {
        **self == **other
    }
}

impl fmt::Debug for Comment {
    fn fmt(&self, f: &mut fmt::Formatter<'_>) -> fmt::Result {
        fmt::Debug::fmt(&**self, f)
    }
}

impl fmt::Display for Comment {
    fn fmt(&self, f: &mut fmt::Formatter<'_>) -> fmt::Result {
        fmt::Display::fmt(&**self, f)
    }
}

/// A held key.
#[derive(Clone, Copy, PartialEq, Eq)]
pub struct Key<'a> {
    /// The insertion number: each add takes a new one.
    pub number: u64,
    /// What is left of the lifetime at [`Gateway::clock`], in milliseconds, if there is one.
    pub left: Option<u64>,
    /// Is a confirmation asked for before each signature?
    pub confirm: bool,
    /// The comment that the key was added with; a list has it behind the blob.
    pub comment: Comment,
    /// The public blob.
    pub blob: &'a [u8],
    /// The key fields, the private ones too, as the add request had them, from the type string on.
    pub fields: &'a [u8],
}

impl fmt::Debug for Key<'_> {
    // the fields stay out of every log
    fn fmt(&self, f: &mut fmt::Formatter<'_>) -> fmt::Result {
        f.debug_struct("Key")
            .field("number", &self.number)
            .field("left", &self.left)
            .field("confirm", &self.confirm)
            .field("comment", &self.comment)
            .field("blob", &self.blob)
            .finish_non_exhaustive()
    }
}

/// The gateway: its state and its key store, owned. Both come from the core alone, fresh or as its last call left them, and nothing else writes or
/// restores them: so they are sound, which is proved of each call, and a call from here tests it no more and is never refused for them.
/// Two are equal if they have the same keys in the same order, the same passphrase, clock and next number.
#[derive(Clone, PartialEq, Eq)]
pub struct Gateway {
    state: Box<raw::State>,
    store: Box<[u8; STORE_LEN]>,
}

impl Gateway {
    /// No keys, open, clock at 0. The first gateway of a program also tests that the archive and this crate agree on layout and numbers, and
    /// panics if they do not.
    pub fn new() -> Gateway {
        static TESTED: Once = Once::new();
        TESTED.call_once(self_test);
        Gateway::untested()
    }

    fn untested() -> Gateway {
        // SAFETY: takes nothing, and fills a State, all of whose values are allowed.
        let state = Box::new(unsafe { raw::key_agent_fresh() });
        Gateway { state, store: vec![0; STORE_LEN].into_boxed_slice().try_into().expect("its length") }
    }

    /// The first call of a request, from its connection's bytes: looks for one frame at their front, and calls with no answers once it is whole.
    /// What stands behind that frame is not looked at.
    ///
    /// Keep the bytes until the request ends, and let go of `used` of them then; meanwhile [`Split::payload`] cuts the same payload out of them again.
    #[inline]
    pub fn first<'a>(&mut self, bytes: &'a [u8], reading: u64, reply: &mut Reply) -> First<'a> {
        // SAFETY: as in `call`.
        let f = unsafe { self.first_by(raw::key_agent_inner_first, bytes, reading, reply) };
        First::of(f, bytes, reply)
    }

    /// # Safety
    ///
    /// As of `call_by`.
    #[inline(always)]
    unsafe fn first_by(&mut self, first: raw::FirstCall, bytes: &[u8], reading: u64, reply: &mut Reply) -> raw::FlatFirst {
        let (store, reply) = (&mut self.store[..], &mut reply.buffer[..]);
        // SAFETY: as in `call_by`.
        unsafe { first(&mut *self.state, store.as_mut_ptr(), store.len(), bytes.as_ptr(), bytes.len(), reading, reply.as_mut_ptr(), reply.len()) }
    }

    /// A later call of a request on the present state, at the clock reading `reading` in milliseconds (a lower one than the kept clock counts as
    /// the kept one). `answers` are those that this request has so far.
    #[inline]
    pub fn call(&mut self, payload: Payload<'_>, reading: u64, answers: &Answers<'_>, reply: &mut Reply) -> Outcome {
        // SAFETY: the inner call asks for a sound state and store. Both fields are private, made by `fresh` with a store of zeros (or as a copy of
        // such a pair), and afterwards written by these calls alone (and at its end by `drop`), each of which leaves them sound. The self test alters a state to which it makes
        // no inner call.
        let o = unsafe { self.call_by(raw::key_agent_inner_call, payload, reading, answers, reply) };
        Outcome::of(o, reply)
    }

    /// # Safety
    ///
    /// The function is one of the two that the archive exports for it; the inner one asks for a sound state and store.
    #[inline(always)]
    unsafe fn call_by(&mut self, call: raw::Call, payload: Payload<'_>, reading: u64, answers: &Answers<'_>, reply: &mut Reply) -> raw::FlatOutcome {
        let (store, payload, reply) = (&mut self.store[..], payload.0, &mut reply.buffer[..]);
        // SAFETY: every pointer comes from a reference or a slice, so it is not null, and its length goes with it; the three that are written
        // (state, store, reply) are borrowed mutably here, so they overlap with nothing. The core reads no byte behind a length and keeps no
        // pointer.
        let mut call = |flat, signature: &[u8]| unsafe {
            call(
                &mut *self.state,
                store.as_mut_ptr(),
                store.len(),
                payload.as_ptr(),
                payload.len(),
                reading,
                flat,
                signature.as_ptr(),
                signature.len(),
                reply.as_mut_ptr(),
                reply.len(),
            )
        };
        match answers {
            Answers { gate, check, confirmation: None, signature: None } => call(SAID[usize::from(said(*gate))][usize::from(said(*check))], &[]),
            _ => {
                let (flat, signature) = answers.flat();
                call(flat, signature)
            }
        }
    }

    /// What the core tells of a number; all zero where no held key has it.
    fn told(&self, number: u64) -> raw::HeldKey {
        // SAFETY: the store is lent with its own length and only read; the state goes by value.
        unsafe { raw::key_agent_key(*self.state, self.store.as_ptr(), self.store.len(), number) }
    }

    /// The held key with this insertion number: what the signer, or whoever asks for a confirmation, looks up. The number that a call asked
    /// about is held until the next call.
    pub fn key(&self, number: u64) -> Option<Key<'_>> {
        let k = self.told(number);
        (k.number != 0).then(|| Key {
            number: k.number,
            left: (k.limited == 1).then_some(k.left),
            confirm: k.confirm == 1,
            comment: Comment(k.comment),
            blob: &self.store[k.blob_from..k.blob_to],
            fields: &self.store[k.fields_from..k.fields_to],
        })
    }

    /// The least held insertion number above `after`. A number that is no longer held comes never again.
    pub fn next_held(&self, after: u64) -> Option<u64> {
        // SAFETY: as above.
        let n = unsafe { raw::key_agent_next(*self.state, self.store.as_ptr(), self.store.len(), after) };
        (n != 0).then_some(n)
    }

    /// The held keys in order of insertion; the list of a reply has a key that was added again where it was. Keys whose time is over stay until the
    /// next call.
    pub fn keys(&self) -> impl Iterator<Item = Key<'_>> {
        std::iter::successors(self.next_held(0), |n| self.next_held(*n)).filter_map(|n| self.key(n))
    }

    /// The soundness test that a call from outside begins with. True of every `Gateway`; here for who measures or asserts it.
    pub fn is_sound(&self) -> bool {
        // SAFETY: the store is lent with its own length and only read; the state goes by value.
        unsafe { raw::key_agent_is_sound(*self.state, self.store.as_ptr(), self.store.len()) }
    }

    /// Where state and store lie, and how long each is: for a host that keeps them out of swap.
    pub fn memory(&self) -> [(*const u8, usize); 2] {
        let state: *const raw::State = &*self.state;
        [(state.cast(), std::mem::size_of::<raw::State>()), (self.store.as_ptr(), self.store.len())]
    }

    /// Is the gateway locked?
    #[inline]
    pub fn is_locked(&self) -> bool {
        self.state.lock.len != 0
    }

    /// The greatest reading that a call was accepted with.
    #[inline]
    pub fn clock(&self) -> u64 {
        self.state.clock
    }

    /// The insertion number that the next added key takes.
    pub fn next_number(&self) -> u64 {
        self.state.next
    }
}

impl Default for Gateway {
    fn default() -> Gateway {
        Gateway::new()
    }
}

impl fmt::Debug for Gateway {
    fn fmt(&self, f: &mut fmt::Formatter<'_>) -> fmt::Result {
        f.debug_struct("Gateway")
            .field("keys", &self.keys().collect::<Vec<_>>())
            .field("locked", &self.is_locked())
            .field("clock", &self.clock())
            .finish_non_exhaustive()
    }
}

impl Drop for Gateway {
    // Keys, comments and passphrase do not stay in memory that is handed back.
    fn drop(&mut self) {
        for b in self.store.iter_mut().chain(&mut self.state.lock.bytes) {
            // SAFETY: a reference to one byte. Volatile, so that the write is not left out.
            unsafe { std::ptr::write_volatile(b, 0) };
        }
    }
}

/// What stands at the front of a connection's bytes.
#[derive(Clone, PartialEq, Eq)]
pub enum Split<'a> {
    /// No whole frame yet.
    MoreNeeded,
    /// The announced length is above [`MAX_PAYLOAD`]: close the connection.
    TooLong,
    /// A whole frame.
    Frame {
        /// Its payload, a part of the bytes.
        payload: Payload<'a>,
        /// How many of the bytes it takes: the next one begins there.
        used: usize,
    },
}

impl<'a> Split<'a> {
    /// The payload of a whole frame: that of a request which has begun and waits.
    pub fn payload(self) -> Option<Payload<'a>> {
        match self {
            Split::Frame { payload, .. } => Some(payload),
            Split::MoreNeeded | Split::TooLong => None,
        }
    }
}

impl fmt::Debug for Split<'_> {
    // of a passphrase not even the length is told
    fn fmt(&self, f: &mut fmt::Formatter<'_>) -> fmt::Result {
        f.write_str(match self {
            Split::MoreNeeded => "MoreNeeded",
            Split::TooLong => "TooLong",
            Split::Frame { .. } => "Frame { .. }",
        })
    }
}

/// Looks for one frame at the front of a connection's bytes; nothing is copied, and no call is made.
#[inline]
pub fn split(bytes: &[u8]) -> Split<'_> {
    // SAFETY: a slice's pointer and length; nothing is written.
    let s = unsafe { raw::key_agent_split(bytes.as_ptr(), bytes.len()) };
    match s.kind {
        0 => Split::MoreNeeded,
        1 => Split::TooLong,
        2 => Split::Frame { payload: Payload(&bytes[s.from..s.to]), used: s.to },
        n => never("split", n, 0),
    }
}

/// A gateway, and one to which the same calls come from outside: by the exports of the header, which test state and store.
struct Twins {
    g: Gateway,
    reply: Reply,
    outside: Gateway,
    outside_reply: Reply,
}

impl Twins {
    fn new() -> Twins {
        Twins { g: Gateway::untested(), reply: Reply::new(), outside: Gateway::untested(), outside_reply: Reply::new() }
    }

    fn first<'a>(&mut self, bytes: &'a [u8], reading: u64) -> First<'a> {
        let inner = self.g.first(bytes, reading, &mut self.reply);
        // SAFETY: as in `call_by`; nothing is asked of state and store.
        let outer = unsafe { self.outside.first_by(raw::key_agent_first, bytes, reading, &mut self.outside_reply) };
        assert!(inner == First::of(outer, bytes, &mut self.outside_reply), "the inner first call and the one from outside");
        self.are_equal();
        inner
    }

    fn call(&mut self, payload: Payload<'_>, reading: u64, answers: &Answers<'_>) -> Outcome {
        let inner = self.g.call(payload, reading, answers, &mut self.reply);
        // SAFETY: as in `call_by`; nothing is asked of state and store.
        let outer = unsafe { self.outside.call_by(raw::key_agent_call, payload, reading, answers, &mut self.outside_reply) };
        assert_eq!(inner, Outcome::of(outer, &mut self.outside_reply), "the inner call and the one from outside");
        self.are_equal();
        inner
    }

    fn are_equal(&self) {
        let replies = self.reply.buffer == self.outside_reply.buffer && self.reply.len == self.outside_reply.len;
        assert!(self.g == self.outside && replies, "state, store and reply behind an inner call and one from outside");
    }
}

/// Layout and numbers, tested against the archive that is linked: each field of each struct is written or read by the core once, and found
/// where this crate has it, by inner calls and by those from outside. Sizes and offsets of this side are tested when the crate is compiled.
fn self_test() {
    let string = |b: &[u8]| [&(b.len() as u32).to_be_bytes()[..], b].concat();
    let mut t = Twins::new();
    let first = |f: First<'_>| match f {
        First::Began { used, outcome, .. } => (used, outcome),
        other => panic!("first: {other:?}"),
    };
    let fresh = *t.g.state;
    let columns = raw::Columns {
        numbers: [0; MAX_KEYS],
        readings: [0; MAX_KEYS],
        blob_lens: [0; MAX_KEYS],
        fields_lens: [0; MAX_KEYS],
        comment_lens: [0; MAX_KEYS],
        seconds: [0; MAX_KEYS],
        limited: [0; MAX_KEYS],
        confirm: [0; MAX_KEYS],
    };
    let lock = raw::LockRecord { bytes: [0; 1024], len: 0 };
    assert_eq!(fresh, raw::State { columns, lock, clock: 0, next: 1 }, "layout of State: fresh");
    // a P-256 key with every field of its entry set: 25, lifetime 0x01020304, Confirm
    let blob = [string(b"ecdsa-sha2-nistp256"), string(b"nistp256"), string(&[4; 65])].concat();
    let fields = [blob.clone(), string(&[5; 32])].concat();
    let add = [&[25][..], &fields, &string(b"shed"), &[1, 1, 2, 3, 4, 2]].concat();
    let mut a = Answers { gate: Some(true), ..Answers::default() };
    // a frame, and the next one behind it
    let mut bytes = string(&add);
    let used = bytes.len();
    bytes.push(0);
    assert_eq!((t.first(&bytes[..used - 1], 99), *t.g.state), (First::MoreNeeded, fresh), "first: more needed");
    assert_eq!((t.first(&[0, 4, 0, 1], 99), *t.g.state), (First::TooLong, fresh), "first: too long");
    assert_eq!(first(t.first(&bytes, 77)), (used, Outcome::Asks(Question::Gate(Class::AddKeys))), "first: gate");
    assert_eq!(*t.g.state, raw::State { clock: 77, ..fresh }, "first: the reading");
    assert_eq!((first(t.first(&[0; 5], 0)), t.reply.bytes()), ((4, Outcome::Reply), &[0, 0, 0, 1, 5][..]), "first: reply");
    let add = Payload(&add);
    assert_eq!(t.call(add, 77, &Answers::default()), Outcome::Asks(Question::Gate(Class::AddKeys)), "gate");
    assert_eq!(t.call(add, 77, &a), Outcome::Asks(Question::Check(Part(1..1 + fields.len()))), "check");
    a.check = Some(true);
    assert_eq!(t.call(add, 78, &a), Outcome::Reply, "add");
    assert_eq!(t.reply.bytes(), [0, 0, 0, 1, 6], "reply");
    let mut want = fresh;
    want.columns.numbers[0] = 1;
    want.columns.readings[0] = 78;
    want.columns.blob_lens[0] = blob.len();
    want.columns.fields_lens[0] = fields.len();
    want.columns.comment_lens[0] = 4;
    want.columns.seconds[0] = 0x0102_0304;
    want.columns.limited[0] = 1;
    want.columns.confirm[0] = 1;
    want.clock = 78;
    want.next = 2;
    assert_eq!(*t.g.state, want, "layout of State: an entry");
    let held = t.g.told(1);
    let left = 0x0102_0304 * 1_000;
    let mut comment = raw::Comment { bytes: [0; 255], len: 4 };
    comment.bytes[..4].copy_from_slice(b"shed");
    let told = raw::HeldKey { number: 1, confirm: 1, limited: 1, left, comment, ..held };
    assert_eq!(held, told, "layout of HeldKey");
    assert!(t.g.store[held.blob_from..held.blob_to] == blob[..] && t.g.store[held.fields_from..held.fields_to] == fields[..], "the store's parts");
    assert!(t.g.next_held(0) == Some(1) && t.g.next_held(1).is_none() && t.g.key(2).is_none(), "next");
    t.outside.state.columns.limited[0] = 0;
    t.outside.state.columns.seconds[0] = 0;
    assert_eq!(t.outside.told(1), raw::HeldKey { limited: 0, left: 0, ..held }, "layout of HeldKey: no lifetime");
    *t.outside.state = want;
    let sign = [&[13][..], &string(&blob), &string(b"data"), &[0, 0, 0, 4]].concat();
    let sign = Payload(&sign);
    let data = 1 + 4 + blob.len() + 4;
    a = Answers { gate: Some(true), ..Answers::default() };
    assert_eq!(t.call(sign, 0, &a), Outcome::Asks(Question::Confirmation { number: 1 }), "confirmation");
    a.confirmation = Some(Numbered { number: 1, answer: true });
    let asks = Outcome::Asks(Question::Signature { number: 1, data: Part(data..data + 4), hash: Hash::Sha512 });
    assert_eq!(t.call(sign, 0, &a), asks, "signature");
    a.signature = Some(Numbered { number: 2, answer: Some(b"other") });
    assert_eq!(t.call(sign, 0, &a), asks, "an answer for another number");
    a.signature = Some(Numbered { number: 1, answer: Some(b"sig") });
    assert_eq!(t.call(sign, 0, &a), Outcome::Reply, "signature lent");
    assert_eq!(t.reply.bytes(), [0, 0, 0, 8, 14, 0, 0, 0, 3, b's', b'i', b'g'], "signature lent");
    a.signature = Some(Numbered { number: 1, answer: None });
    assert_eq!(t.call(sign, 0, &a), Outcome::Close, "no signature");
    a.confirmation = Some(Numbered { number: 1, answer: false });
    assert_eq!(t.call(sign, 0, &a), Outcome::Reply, "not confirmed");
    assert_eq!(t.reply.bytes(), [0, 0, 0, 1, 5], "not confirmed");
    a = Answers { gate: Some(true), ..Answers::default() };
    assert_eq!(t.call(Payload(&[22, 0, 0, 0, 2, 97, 98]), 0, &a), Outcome::Reply, "lock");
    want.lock.bytes[..2].copy_from_slice(b"ab");
    want.lock.len = 2;
    assert_eq!(*t.g.state, want, "layout of State: the lock");
    assert!(t.g.is_sound(), "is_sound");
    let long = [0; MAX_SIGNATURE + 1];
    a.signature = Some(Numbered { number: 1, answer: Some(&long) });
    assert_eq!(t.call(Payload(&[]), 0, &a), Outcome::Refused(Refusal::SignatureTooLong), "refusal 5");
    assert_eq!(split(&[0, 0, 0, 1, 11, 0]), Split::Frame { payload: Payload(&[11]), used: 5 }, "split");
    assert_eq!(split(&[0, 4, 0, 1]), Split::TooLong, "split");
    assert_eq!(split(&[0, 4, 0, 0]), Split::MoreNeeded, "split");
    // the last field of a state by value: the next number is not above a held one
    let Twins { outside: mut g, mut reply, .. } = t;
    g.state.next = 1;
    assert!(!g.is_sound(), "is_sound");
    assert!(g.key(1).is_none() && g.next_held(0).is_none(), "nothing is told");
    // SAFETY: as in `Twins`.
    let (first, call) = unsafe {
        let first = g.first_by(raw::key_agent_first, &[0; 4], 0, &mut reply);
        (first, g.call_by(raw::key_agent_call, Payload(&[]), 0, &Answers::default(), &mut reply))
    };
    assert_eq!((first.kind, first.outcome.number, call.kind, call.number), (2, 3, 0, 3), "refusal 3, from outside");
}
