//! The first call from a connection's bytes beside the two steps, `key_agent_split` and then `key_agent_call` on the payload with nothing answered:
//! on whole and cut frames, several in a row, fresh, held, locked and damaged states, short buffers; and through the safe interface.
mod framed;

use framed::{call, string};
use key_agent::*;

#[allow(dead_code)]
#[path = "../src/raw.rs"]
mod raw;

/// State, store and reply buffer at exit.
#[derive(Clone, PartialEq)]
struct World {
    state: raw::State,
    store: Vec<u8>,
    reply: Vec<u8>,
}

const NOTHING: raw::FlatOutcome = raw::FlatOutcome { kind: 0, hash: 0, number: 0, from: 0, to: 0 };

impl World {
    fn fresh() -> World {
        // SAFETY: takes nothing.
        World { state: unsafe { raw::key_agent_fresh() }, store: vec![0; STORE_LEN], reply: vec![7; REPLY_LEN] }
    }

    fn first(&mut self, bytes: &[u8], reading: u64) -> raw::FlatFirst {
        let (s, r) = (self.store.as_mut_ptr(), self.reply.as_mut_ptr());
        // SAFETY: pointers and lengths of slices that do not overlap.
        unsafe { raw::key_agent_first(&mut self.state, s, self.store.len(), bytes.as_ptr(), bytes.len(), reading, r, self.reply.len()) }
    }

    fn call(&mut self, payload: &[u8], reading: u64, answers: raw::FlatAnswers) -> raw::FlatOutcome {
        let (s, r) = (self.store.as_mut_ptr(), self.reply.as_mut_ptr());
        let (p, none) = (payload.as_ptr(), [0].as_ptr());
        // SAFETY: as above.
        unsafe { raw::key_agent_call(&mut self.state, s, self.store.len(), p, payload.len(), reading, answers, none, 0, r, self.reply.len()) }
    }

    /// One step after the other.
    fn two_steps(&mut self, bytes: &[u8], reading: u64) -> raw::FlatFirst {
        // SAFETY: a slice's pointer and length; nothing is written.
        let s = unsafe { raw::key_agent_split(bytes.as_ptr(), bytes.len()) };
        if s.kind != 2 {
            return raw::FlatFirst { kind: s.kind, used: 0, outcome: NOTHING };
        }
        match self.call(&bytes[s.from..s.to], reading, raw::FlatAnswers::default()) {
            outcome @ raw::FlatOutcome { kind: 0, .. } => raw::FlatFirst { kind: 2, used: 0, outcome },
            outcome => raw::FlatFirst { kind: 3, used: s.to, outcome },
        }
    }

    /// Both ways give the same, to the last byte; and what was given.
    fn alike(&mut self, bytes: &[u8], reading: u64) -> raw::FlatFirst {
        let mut other = self.clone();
        let (f, g) = (self.first(bytes, reading), other.two_steps(bytes, reading));
        assert_eq!(f, g);
        assert!(*self == other, "state, store and reply buffer");
        f
    }
}

/// A request of each kind, and some that are none.
fn payloads() -> Vec<Vec<u8>> {
    let blob = [string(b"ssh-ed25519"), string(&[1; 32])].concat();
    let fields = [blob.clone(), string(&[1; 64])].concat();
    vec![
        vec![],
        vec![11],
        [&[17][..], &fields, &string(b"c")].concat(),
        [&[25][..], &fields, &string(b"c"), &[1, 0, 0, 0, 9, 2]].concat(),
        [&[18][..], &string(&blob)].concat(),
        vec![19],
        [&[13][..], &string(&blob), &string(b"data"), &[0; 4]].concat(),
        [&[22][..], &string(b"ab")].concat(),
        [&[23][..], &string(b"ab")].concat(),
        vec![99, 1, 2],
        vec![11; MAX_PAYLOAD],
    ]
}
const YES: raw::FlatAnswers = raw::FlatAnswers { gate: 2, check: 2, confirmation: 0, signature: 0, confirmation_number: 0, signature_number: 0 };

/// One with so many keys, every second of which is due at 9,000.
fn holding(count: u8) -> World {
    let mut w = World::fresh();
    for i in 5..5 + count {
        let fields = [string(b"ssh-ed25519"), string(&[i; 32]), string(&[i; 64])].concat();
        let payload = [&[25][..], &fields, &string(&vec![b'c'; i as usize]), &[1, 0, 0, 0, 10 * ((i - 5) % 2) + 9]].concat();
        assert_eq!((w.call(&payload, 0, YES).kind, w.reply[4]), (5, 6));
    }
    w
}
/// A fresh one, one with two keys, one with 24, and one that is locked.
fn worlds() -> [World; 4] {
    let mut locked = holding(2);
    assert_eq!(locked.call(&[&[22][..], &string(b"ab")].concat(), 0, YES).kind, 5);
    [World::fresh(), holding(2), holding(24), locked]
}

#[test]
fn every_request_cut_anywhere_and_followed_by_more() {
    for world in worlds() {
        for payload in payloads() {
            let frame = string(&payload);
            let cuts = (0..frame.len()).filter(|n| *n < 200 || *n > frame.len() - 3);
            for cut in cuts {
                let mut w = world.clone();
                assert_eq!(w.alike(&frame[..cut], 9_000), raw::FlatFirst { kind: 0, used: 0, outcome: NOTHING });
                assert!(w == world, "more needed changes nothing, the clock neither");
            }
            for behind in [vec![], vec![0], frame.clone(), vec![255; 9]] {
                let mut w = world.clone();
                let f = w.alike(&[&frame[..], &behind].concat(), 9_000);
                assert_eq!((f.kind, f.used, w.state.clock), (3, frame.len(), 9_000));
                // nothing is lent: the gate is asked, or it is FAILURE
                assert!(f.outcome.kind == 1 || (f.outcome.kind == 5 && w.reply[..5] == [0, 0, 0, 1, 5]));
            }
        }
        for long in [&[0, 4, 0, 1][..], &[255; 4], &[&[0, 4, 0, 1][..], &[11; 99]].concat()] {
            let mut w = world.clone();
            assert_eq!(w.alike(long, 9_000), raw::FlatFirst { kind: 1, used: 0, outcome: NOTHING });
            assert!(w == world, "too long changes nothing, the clock neither");
        }
    }
}

#[test]
fn refusals_once_a_frame_is_whole() {
    let refused = |number| raw::FlatFirst { kind: 2, used: 0, outcome: raw::FlatOutcome { number, ..NOTHING } };
    for world in worlds() {
        let (mut short, mut store, mut unsound) = (world.clone(), world.clone(), world.clone());
        short.reply.truncate(REPLY_LEN - 1);
        store.store.pop();
        unsound.state.next = 0;
        let mut all = short.clone();
        all.store.pop();
        all.state.next = 0;
        let mut two = store.clone();
        two.state.next = 0;
        let (mut behind, mut gap) = (world.clone(), world.clone());
        behind.store[STORE_LEN - 1] = 1;
        (gap.state.columns.numbers[0], gap.state.columns.numbers[1], gap.state.next) = (0, 1, 99);
        for (number, damaged) in [(1, short), (2, store), (3, unsound), (1, all), (2, two), (3, behind), (3, gap)] {
            for (bytes, want) in [(&[0, 0, 0, 1, 11, 0][..], 2), (&[0, 0, 0, 1], 0), (&[], 0), (&[0, 4, 0, 1], 1)] {
                let mut w = damaged.clone();
                let f = w.alike(bytes, 9_000);
                assert_eq!(f, if want == 2 { refused(number) } else { raw::FlatFirst { kind: want, used: 0, outcome: NOTHING } });
                assert!(w == damaged, "a refusal changes nothing, the clock neither");
            }
        }
    }
}

#[test]
fn two_frames_in_one_read_and_one_in_single_bytes() {
    let (mut g, mut r) = (Gateway::new(), Reply::new());
    let yes = Answers { gate: Some(true), ..Answers::default() };
    let mut bytes = [string(&[22, 0, 0, 0, 1, 97]), string(&[23, 0, 0, 0, 1, 97])].concat();
    for class in [Class::Lock, Class::Unlock] {
        let used = match g.first(&bytes, 0, &mut r) {
            First::Began { payload, used, outcome } => {
                assert_eq!((outcome, payload.bytes()), (Outcome::Asks(Question::Gate(class)), &bytes[4..10]));
                assert_eq!(g.call(payload, 0, &yes, &mut r), Outcome::Reply);
                used
            }
            other => panic!("{other:?}"),
        };
        assert_eq!((used, r.bytes()), (10, &[0, 0, 0, 1, 6][..]));
        bytes.drain(..used);
    }
    assert!(bytes.is_empty() && !g.is_locked());
    let frame = string(&[11]);
    for n in 0..frame.len() {
        assert_eq!(g.first(&frame[..n], 99, &mut r), First::MoreNeeded);
        assert_eq!((g.clock(), r.bytes()), (0, &[0, 0, 0, 1, 6][..]), "as it was");
    }
    assert!(matches!(g.first(&frame, 99, &mut r), First::Began { used: 5, outcome: Outcome::Asks(Question::Gate(Class::RequestKeys)), .. }));
    assert_eq!(g.clock(), 99);
    assert_eq!(call(&mut g, &[11], 99, &yes, &mut r), Outcome::Reply);
}
