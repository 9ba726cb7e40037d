//! A gateway of which every byte can be seen and set, and what state and store must be for some keys, packed here a second time.
#![allow(dead_code)]
use key_agent::{MAX_KEYS, REPLY_LEN, STORE_LEN};

#[path = "../../src/raw.rs"]
pub mod raw;

pub const FAILURE: [u8; 5] = [0, 0, 0, 1, 5];
pub const SUCCESS: [u8; 5] = [0, 0, 0, 1, 6];
/// The gate's yes, and with the second the key check's.
pub const GATE: raw::FlatAnswers = raw::FlatAnswers { gate: 2, check: 0, confirmation: 0, signature: 0, confirmation_number: 0, signature_number: 0 };
pub const YES: raw::FlatAnswers = raw::FlatAnswers { check: 2, ..GATE };

pub fn string(b: &[u8]) -> Vec<u8> {
    [&(b.len() as u32).to_be_bytes()[..], b].concat()
}

/// Key fields and public blob.
pub type Key = (Vec<u8>, Vec<u8>);
pub fn ed25519(i: u8) -> Key {
    let blob = [string(b"ssh-ed25519"), string(&[i; 32])].concat();
    ([blob.clone(), string(&[i; 64])].concat(), blob)
}
/// An RSA key whose blob and fields have these lengths, its numbers made up; n tells it from others.
pub fn rsa(i: u8, blob: usize, fields: usize) -> Key {
    let (n, number) = (string(&vec![i; blob - 20]), string(&[i]));
    let d = string(&vec![i; fields - blob - 19]);
    let key = [string(b"ssh-rsa"), n.clone(), number.clone(), d, number.repeat(3)].concat();
    (key, [string(b"ssh-rsa"), number, n].concat())
}
/// 25 with these constraints.
pub fn add(key: &Key, comment: &[u8], constraints: &[u8]) -> Vec<u8> {
    [&[25][..], &key.0, &string(comment), constraints].concat()
}
pub fn remove(key: &Key) -> Vec<u8> {
    [&[18][..], &string(&key.1)].concat()
}

#[derive(Clone, PartialEq)]
pub struct Open {
    pub state: raw::State,
    pub store: Vec<u8>,
}
impl Open {
    pub fn fresh() -> Open {
        // SAFETY: takes nothing.
        Open { state: unsafe { raw::key_agent_fresh() }, store: vec![0; STORE_LEN] }
    }
    /// Kind and number of the outcome, and the reply; a buffer that is touched by another outcome fails.
    pub fn asked(&mut self, payload: &[u8], reading: u64, answers: raw::FlatAnswers) -> (u8, u64, Vec<u8>) {
        let mut reply = vec![7; REPLY_LEN];
        let (p, s, r) = (payload.as_ptr(), self.store.as_mut_ptr(), reply.as_mut_ptr());
        // SAFETY: pointers and lengths of vectors that do not overlap.
        let o =
            unsafe { raw::key_agent_call(&mut self.state, s, self.store.len(), p, payload.len(), reading, answers, [0].as_ptr(), 0, r, reply.len()) };
        let written = if o.kind == 5 { o.to } else { 0 };
        assert!(reply[written..].iter().all(|b| *b == 7));
        (o.kind, o.number, reply[..written].to_vec())
    }
    /// The same with the gate's and the check's yes.
    pub fn call(&mut self, payload: &[u8], reading: u64) -> (u8, u64, Vec<u8>) {
        self.asked(payload, reading, YES)
    }
    /// A request that succeeds.
    pub fn does(&mut self, payload: &[u8], reading: u64) {
        assert_eq!(self.call(payload, reading), (5, 0, SUCCESS.to_vec()));
    }
    /// FAILURE with the gate's yes alone, so that no key check is asked, and with its yes; nothing changes.
    pub fn fails(&mut self, payload: &[u8]) {
        let before = self.clone();
        for answers in [GATE, YES] {
            assert_eq!(self.asked(payload, 0, answers), (5, 0, FAILURE.to_vec()));
            assert!(*self == before, "a FAILURE alters nothing");
        }
    }
    pub fn told(&self, number: u64) -> raw::HeldKey {
        // SAFETY: a vector's pointer and length; nothing is written.
        unsafe { raw::key_agent_key(self.state, self.store.as_ptr(), self.store.len(), number) }
    }
    pub fn is_sound(&self) -> bool {
        // SAFETY: as above.
        unsafe { raw::key_agent_is_sound(self.state, self.store.as_ptr(), self.store.len()) }
    }
    /// Refused with 3, and nothing is altered.
    pub fn unsound(mut self, what: &str) {
        let before = self.clone();
        assert!(!self.is_sound(), "{what}");
        for payload in [&[11][..], &[19], &[]] {
            assert_eq!(self.call(payload, 9), (0, 3, vec![]), "{what}");
            assert!(self == before, "{what}");
        }
    }
    pub fn sound(mut self, what: &str) {
        assert!(self.is_sound(), "{what}");
        assert_eq!(self.call(&[11], 0).0, 5, "{what}");
    }
}

/// What is known of a held key.
#[derive(Clone)]
pub struct Held {
    pub number: u64,
    pub reading: u64,
    pub key: Key,
    pub comment: Vec<u8>,
    pub lifetime: Option<u32>,
    pub confirm: bool,
}
impl Held {
    fn bytes(&self) -> Vec<u8> {
        [&self.key.1[..], &self.key.0, &self.comment].concat()
    }
    pub fn len(&self) -> usize {
        self.bytes().len()
    }
}

/// The columns of these keys, in this order.
pub fn columns(keys: &[Held]) -> raw::Columns {
    let mut c = Open::fresh().state.columns;
    for (i, k) in keys.iter().enumerate() {
        (c.numbers[i], c.readings[i], c.comment_lens[i]) = (k.number, k.reading, k.comment.len());
        (c.fields_lens[i], c.blob_lens[i]) = (k.key.0.len(), k.key.1.len());
        (c.seconds[i], c.limited[i], c.confirm[i]) = (k.lifetime.unwrap_or(0), k.lifetime.is_some().into(), k.confirm.into());
    }
    c
}
/// Their store: one behind the other, the rest zero.
pub fn store(keys: &[Held]) -> Vec<u8> {
    let mut bytes: Vec<u8> = keys.iter().flat_map(Held::bytes).collect();
    assert!(keys.len() <= MAX_KEYS && bytes.len() <= STORE_LEN);
    bytes.resize(STORE_LEN, 0);
    bytes
}
/// Their list.
pub fn list(keys: &[Held]) -> Vec<u8> {
    let body: Vec<u8> = keys.iter().flat_map(|k| [string(&k.key.1), string(&k.comment)].concat()).collect();
    string(&[&[12][..], &(keys.len() as u32).to_be_bytes(), &body].concat())
}
