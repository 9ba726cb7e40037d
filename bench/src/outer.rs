//! The library's calls from outside, each of which begins with the soundness test, as a C program makes them.
#[allow(dead_code)]
#[path = "../../rust/src/raw.rs"]
mod raw;
use key_agent::{REPLY_LEN, STORE_LEN};
use raw::{FlatAnswers, FlatOutcome};

pub struct Outer {
    state: Box<raw::State>,
    store: Vec<u8>,
    reply: Vec<u8>,
    len: usize,
}
impl Outer {
    pub fn new() -> Outer {
        // SAFETY: takes nothing.
        Outer { state: Box::new(unsafe { raw::key_agent_fresh() }), store: vec![0; STORE_LEN], reply: vec![0; REPLY_LEN], len: 0 }
    }
    pub fn reply(&self) -> &[u8] {
        &self.reply[..self.len]
    }
    pub fn is_sound(&self) -> bool {
        // SAFETY: a vector and its length.
        unsafe { raw::key_agent_is_sound(*self.state, self.store.as_ptr(), self.store.len()) }
    }
    fn called(&mut self, payload: &[u8], answers: FlatAnswers, signature: &[u8]) -> FlatOutcome {
        let (s, r, p) = (&mut self.store[..], &mut self.reply[..], payload);
        // SAFETY: slices and their lengths; those that are written are borrowed mutably.
        unsafe {
            raw::key_agent_call(
                &mut *self.state,
                s.as_mut_ptr(),
                s.len(),
                p.as_ptr(),
                p.len(),
                5,
                answers,
                signature.as_ptr(),
                signature.len(),
                r.as_mut_ptr(),
                r.len(),
            )
        }
    }
    /// With all answers lent.
    pub fn call(&mut self, payload: &[u8], number: u64, signature: &[u8]) {
        let a = FlatAnswers { gate: 2, check: 2, confirmation: 0, signature: 2, confirmation_number: 0, signature_number: number };
        let o = self.called(payload, a, signature);
        assert!(o.kind == 5);
        self.len = o.to;
    }
    /// A whole request, each question answered as it comes.
    pub fn asked(&mut self, frame: &[u8], sign: impl Fn(&[u8]) -> Vec<u8>) {
        let (s, r) = (&mut self.store[..], &mut self.reply[..]);
        // SAFETY: as above.
        let first =
            unsafe { raw::key_agent_first(&mut *self.state, s.as_mut_ptr(), s.len(), frame.as_ptr(), frame.len(), 5, r.as_mut_ptr(), r.len()) };
        assert!(first.kind == 3);
        let (payload, mut o, mut a, mut made) = (&frame[4..first.used], first.outcome, FlatAnswers::default(), vec![]);
        loop {
            match o.kind {
                5 => break,
                1 => a.gate = 2,
                2 => a.check = 2,
                4 => {
                    made = sign(&payload[o.from..o.to]);
                    (a.signature, a.signature_number) = (2, o.number);
                }
                n => panic!("{n}"),
            }
            o = self.called(payload, a, &made);
        }
        self.len = o.to;
    }
}
