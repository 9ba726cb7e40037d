//! The proved core with what stands around each call: the clock, the stack that is overwritten, and what was derived from keys that went.
use crate::clock::Clock;
use crate::keys::Key;
use crate::names::fingerprint;
use crate::secret;
use key_agent::{Answers, First, Gateway, Numbered, Outcome, Payload, Reply};
use std::collections::{BTreeMap, HashMap};
use std::sync::Arc;

/// The answers that a request has got so far.
#[derive(Default)]
pub struct Lent {
    pub gate: Option<bool>,
    pub check: Option<bool>,
    pub confirmation: Option<Numbered<bool>>,
    pub signature: Option<Numbered<Option<Vec<u8>>>>,
}

impl Lent {
    fn answers(&self) -> Answers<'_> {
        let signature = self.signature.as_ref().map(|s| Numbered { number: s.number, answer: s.answer.as_deref() });
        Answers { gate: self.gate, check: self.check, confirmation: self.confirmation, signature }
    }
}

/// A held key, as log and panel show it.
pub struct Shown {
    pub number: u64,
    pub fingerprint: String,
    pub comment: String,
    /// In seconds, the one that has begun counted.
    pub left: Option<u64>,
    pub confirm: bool,
}

pub struct Core {
    gateway: Gateway,
    reply: Reply,
    clock: Clock,
    /// What the signer derived, by insertion number.
    derived: HashMap<u64, Arc<Key>>,
    /// The fingerprints that the log was told of, so that it can say which key is gone. Nothing is decided by it.
    told: BTreeMap<u64, String>,
    /// The reading at which the next key goes.
    due: Option<u64>,
    /// What has changed since `changes` was asked last.
    gone: Vec<(u64, String)>,
    is_changed: bool,
}

const SUCCESS: [u8; 5] = [0, 0, 0, 1, 6];

/// May a call on it leave key fields or a passphrase on the stack? An add, LOCK or UNLOCK, which have them in the payload. The state is lent and
/// not copied; while locked the stack is zeroed after every call all the same. So it is by `settle` after a call that moved keys within the store, as
/// one went or was replaced.
fn has_secrets(payload: Payload<'_>) -> bool {
    matches!(payload.bytes().first(), Some(17 | 22 | 23 | 25))
}

fn is_of_lock(payload: Payload<'_>) -> bool {
    matches!(payload.bytes().first(), Some(22 | 23))
}

impl Core {
    pub fn new(clock: Clock) -> Core {
        let gateway = Gateway::new();
        for (at, len) in gateway.memory() {
            secret::lock(at, len);
        }
        secret::wipe_stack();
        Core { gateway, reply: Reply::new(), clock, derived: HashMap::new(), told: BTreeMap::new(), due: None, gone: Vec::new(), is_changed: false }
    }

    /// The first call of the request at the front of a connection's bytes, once it is whole.
    pub fn first<'a>(&mut self, bytes: &'a [u8]) -> First<'a> {
        let (reading, was_locked) = (self.clock.reading(), self.is_locked());
        let first = self.gateway.first(bytes, reading, &mut self.reply);
        let began = match &first {
            First::Began { payload, .. } => Some(*payload),
            First::MoreNeeded | First::TooLong => None,
        };
        if was_locked || self.is_locked() || began.map_or(false, has_secrets) {
            secret::wipe_stack();
        }
        if let Some(payload) = began {
            self.called(payload, reading);
        }
        first
    }

    pub fn call(&mut self, payload: Payload<'_>, lent: &Lent) -> Outcome {
        let (reading, was_locked) = (self.clock.reading(), self.is_locked());
        let outcome = self.gateway.call(payload, reading, &lent.answers(), &mut self.reply);
        if was_locked || self.is_locked() || has_secrets(payload) {
            secret::wipe_stack();
        }
        self.called(payload, reading);
        outcome
    }

    /// Settles where keys may have come or gone: that is by a success, but for LOCK's and UNLOCK's, or on time, and in no other way.
    fn called(&mut self, payload: Payload<'_>, reading: u64) {
        let has_landed = self.reply.bytes() == SUCCESS;
        if (has_landed && !is_of_lock(payload)) || self.due.map_or(false, |due| due <= reading) {
            self.settle();
        }
        self.is_changed |= has_landed;
    }

    /// The reading of the last call.
    pub fn reading(&self) -> u64 {
        self.gateway.clock()
    }

    /// The frame of the last call, where it replied.
    pub fn reply(&self) -> &[u8] {
        self.reply.bytes()
    }

    /// Lets what is due go, though nobody asks.
    pub fn let_go(&mut self) {
        self.call(Payload::default(), &Lent::default());
    }

    /// The reading at which a key goes.
    pub fn due(&self) -> Option<u64> {
        self.due
    }

    /// Asks the core which keys it holds: what was derived from another goes, and the time of the next to go is noted.
    fn settle(&mut self) {
        let (mut held, mut left) = (BTreeMap::new(), None);
        for k in self.gateway.keys() {
            // a number is one key's for good, and so is its fingerprint
            held.insert(k.number, self.told.remove(&k.number).unwrap_or_else(|| fingerprint(k.blob)));
            left = left.into_iter().chain(k.left).min();
        }
        self.due = left.map(|left: u64| self.gateway.clock().saturating_add(left));
        self.derived.retain(|number, _| held.contains_key(number));
        self.gone.extend(std::mem::replace(&mut self.told, held));
        self.is_changed = true;
        secret::wipe_stack();
    }

    /// The keys that went since this was asked last, and whether keys or lock may have changed.
    pub fn changes(&mut self) -> (Vec<(u64, String)>, bool) {
        (std::mem::take(&mut self.gone), std::mem::replace(&mut self.is_changed, false))
    }

    pub fn is_changed(&self) -> bool {
        self.is_changed
    }

    pub fn is_locked(&self) -> bool {
        self.gateway.is_locked()
    }

    pub fn derived(&self, number: u64) -> Option<Arc<Key>> {
        self.derived.get(&number).cloned()
    }

    /// Keeps what a signer derived, while the core holds the key. What is kept already is the same, and is let go by `settle`.
    pub fn keep(&mut self, number: u64, key: Arc<Key>) {
        if self.derived.contains_key(&number) {
            return;
        }
        if self.gateway.key(number).is_some() {
            self.derived.insert(number, key);
        }
        secret::wipe_stack();
    }

    /// Hands the key fields to `f`; none where the core holds no such key.
    pub fn with_fields<T>(&self, number: u64, f: impl FnOnce(&[u8]) -> T) -> Option<T> {
        let got = self.gateway.key(number).map(|k| f(k.fields));
        secret::wipe_stack();
        got
    }

    /// All held keys, for eyes; nothing while locked.
    pub fn shown(&self) -> Vec<Shown> {
        if self.is_locked() {
            return Vec::new();
        }
        let shown = |k: key_agent::Key<'_>| Shown {
            number: k.number,
            fingerprint: fingerprint(k.blob),
            comment: k.comment.to_string(),
            left: k.left.map(|ms| (ms + 999) / 1000),
            confirm: k.confirm,
        };
        self.gateway.keys().map(shown).collect()
    }
}

#[cfg(test)]
mod tests {
    use super::*;
    use key_agent::Question;

    fn string(b: &[u8]) -> Vec<u8> {
        [&(b.len() as u32).to_be_bytes()[..], b].concat()
    }

    /// A request's first call, and one with the gate's and the check's yes.
    fn land(core: &mut Core, payload: &[u8]) -> Outcome {
        let frame = string(payload);
        match core.first(&frame) {
            First::Began { payload, used, outcome: Outcome::Asks(Question::Gate(_)) } if used == frame.len() => {
                core.call(payload, &Lent { gate: Some(true), check: Some(true), ..Lent::default() })
            }
            other => panic!("{other:?}"),
        }
    }

    #[test]
    fn what_was_derived_goes_with_its_key() {
        let mut core = Core::new(Clock::new());
        let public = [9; 32];
        let fields = [string(b"ssh-ed25519"), string(&public), string(&[&[7; 32][..], &public].concat())].concat();
        let add = [&[25][..], &fields, &string(b"vents"), &[1, 0, 0, 0, 0]].concat();
        assert_eq!(land(&mut core, &add), Outcome::Reply);
        assert_eq!(core.with_fields(1, |f| f == fields), Some(true));
        assert_eq!(core.shown()[0].comment, "vents");
        core.keep(1, Arc::new(Key::load(&fields).unwrap()));
        core.keep(2, Arc::new(Key::load(&fields).unwrap()));
        assert!(core.derived(1).is_some() && core.derived(2).is_none());
        assert!(core.due().is_some());
        assert_eq!(land(&mut core, &[22, 0, 0, 0, 1, 97]), Outcome::Reply);
        assert!(core.is_changed() && core.is_locked() && core.shown().is_empty() && core.derived(1).is_none());
        assert_eq!(core.changes().0[0].0, 1);
        assert_eq!(core.due(), None);
    }
}
