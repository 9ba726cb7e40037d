//! A payload for the tests: it comes out of a frame alone.
use key_agent::{split, Answers, Gateway, Outcome, Payload, Reply};

pub fn string(b: &[u8]) -> Vec<u8> {
    [&(b.len() as u32).to_be_bytes()[..], b].concat()
}

pub fn payload(frame: &[u8]) -> Payload<'_> {
    split(frame).payload().expect("a whole frame")
}

/// One call on a payload of these bytes.
pub fn call(g: &mut Gateway, bytes: &[u8], reading: u64, answers: &Answers<'_>, reply: &mut Reply) -> Outcome {
    g.call(payload(&string(bytes)), reading, answers, reply)
}
