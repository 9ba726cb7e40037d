//! A gateway, each of whose calls is made twice: by the crate, which makes the inner call, and from outside, with the soundness test, on a copy of
//! state, store and reply buffer. Both must come to the same, to the last byte.
#[allow(dead_code)]
#[path = "../../rust/src/raw.rs"]
mod raw;
use key_agent::{Answers, First, Gateway, Hash, Outcome, Payload, Question, Reply, REPLY_LEN, STORE_LEN};
use std::ops::Deref;
use std::sync::atomic::{AtomicU64, Ordering};

/// Calls that were compared, and first calls.
pub static CALLS: AtomicU64 = AtomicU64::new(0);
pub static FIRSTS: AtomicU64 = AtomicU64::new(0);

#[derive(Clone)]
pub struct Both {
    gateway: Gateway,
    copy: Box<Copied>,
    /// Calls that came to something else from outside.
    pub wrong: Vec<String>,
}

#[derive(Clone)]
struct Copied {
    state: raw::State,
    store: Vec<u8>,
    reply: Vec<u8>,
}

impl Deref for Both {
    type Target = Gateway;
    fn deref(&self) -> &Gateway {
        &self.gateway
    }
}

impl Default for Both {
    fn default() -> Both {
        Both::new()
    }
}

impl Both {
    pub fn new() -> Both {
        // SAFETY: takes nothing.
        let copy = Copied { state: unsafe { raw::key_agent_fresh() }, store: vec![0; STORE_LEN], reply: vec![0; REPLY_LEN] };
        Both { gateway: Gateway::new(), copy: Box::new(copy), wrong: Vec::new() }
    }

    /// The bytes of state and store.
    fn memory(&self) -> [&[u8]; 2] {
        // SAFETY: the gateway's own, borrowed with it; a state has no padding.
        self.gateway.memory().map(|(at, len)| unsafe { std::slice::from_raw_parts(at, len) })
    }

    fn copy(&mut self, reply: &Reply) {
        let [(state, _), _] = self.gateway.memory();
        // SAFETY: the gateway's own state.
        self.copy.state = unsafe { state.cast::<raw::State>().read() };
        let mut store = std::mem::take(&mut self.copy.store);
        store.copy_from_slice(self.memory()[1]);
        self.copy.store = store;
        self.copy.reply.copy_from_slice(reply.buffer());
    }

    fn compare(&mut self, reply: &Reply, what: &str, is_same: bool) {
        let at: *const raw::State = &self.copy.state;
        // SAFETY: a state has no padding.
        let state = unsafe { std::slice::from_raw_parts(at.cast::<u8>(), std::mem::size_of::<raw::State>()) };
        if !is_same || self.memory() != [state, &self.copy.store] || self.copy.reply != reply.buffer() {
            self.wrong.push(format!("{what}: the inner one and the one from outside differ"));
        }
    }

    pub fn first<'a>(&mut self, bytes: &'a [u8], reading: u64, reply: &mut Reply) -> First<'a> {
        self.copy(reply);
        let Copied { state, store, reply: r } = &mut *self.copy;
        // SAFETY: vectors and their lengths; those that are written are borrowed mutably.
        let outer = unsafe {
            raw::key_agent_first(state, store.as_mut_ptr(), store.len(), bytes.as_ptr(), bytes.len(), reading, r.as_mut_ptr(), r.len())
        };
        let inner = self.gateway.first(bytes, reading, reply);
        let nothing = raw::FlatOutcome { kind: 0, hash: 0, number: 0, from: 0, to: 0 };
        let flat = match &inner {
            First::MoreNeeded => raw::FlatFirst { kind: 0, used: 0, outcome: nothing },
            First::TooLong => raw::FlatFirst { kind: 1, used: 0, outcome: nothing },
            First::Began { payload, used, outcome } => raw::FlatFirst { kind: 3, used: *used, outcome: flat(outcome, *payload, reply) },
        };
        self.compare(reply, "a first call", flat == outer);
        FIRSTS.fetch_add(1, Ordering::Relaxed);
        inner
    }

    pub fn call(&mut self, payload: Payload<'_>, reading: u64, answers: &Answers<'_>, reply: &mut Reply) -> Outcome {
        self.copy(reply);
        let said = |yes: Option<bool>| yes.map_or(0, |yes| 1 + u8::from(yes));
        let signature = answers.signature.and_then(|s| s.answer).unwrap_or(&[]);
        let given = raw::FlatAnswers {
            gate: said(answers.gate),
            check: said(answers.check),
            confirmation: said(answers.confirmation.map(|c| c.answer)),
            signature: said(answers.signature.map(|s| s.answer.is_some())),
            confirmation_number: answers.confirmation.map_or(0, |c| c.number),
            signature_number: answers.signature.map_or(0, |s| s.number),
        };
        let Copied { state, store, reply: r } = &mut *self.copy;
        let (p, s) = (payload.bytes(), signature.as_ptr());
        // SAFETY: as above.
        let outer = unsafe {
            let (store, store_len, r, r_len) = (store.as_mut_ptr(), store.len(), r.as_mut_ptr(), r.len());
            raw::key_agent_call(state, store, store_len, p.as_ptr(), p.len(), reading, given, s, signature.len(), r, r_len)
        };
        let inner = self.gateway.call(payload, reading, answers, reply);
        self.compare(reply, "a call", flat(&inner, payload, reply) == outer);
        CALLS.fetch_add(1, Ordering::Relaxed);
        inner
    }
}

/// An outcome of the crate's as the library has it.
fn flat(outcome: &Outcome, payload: Payload<'_>, reply: &Reply) -> raw::FlatOutcome {
    let part = |p: &key_agent::Part| {
        let from = payload.part(p).as_ptr() as usize - payload.bytes().as_ptr() as usize;
        (from, from + p.len())
    };
    let (kind, number, (from, to), hash) = match outcome {
        Outcome::Refused(why) => (0, why.number().into(), (0, 0), 0),
        Outcome::Asks(Question::Gate(class)) => (1, class.number().into(), (0, 0), 0),
        Outcome::Asks(Question::Check(p)) => (2, 0, part(p), 0),
        Outcome::Asks(Question::Confirmation { number }) => (3, *number, (0, 0), 0),
        Outcome::Asks(Question::Signature { number, data, hash }) => {
            let bits = match hash {
                Hash::None => 0,
                Hash::Sha256 => 256,
                Hash::Sha512 => 512,
            };
            (4, *number, part(data), bits)
        }
        Outcome::Reply => (5, 0, (0, reply.bytes().len()), 0),
        Outcome::Close => (6, 0, (0, 0), 0),
    };
    raw::FlatOutcome { kind, hash, number, from, to }
}
