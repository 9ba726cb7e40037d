//! 01's examples and the edges of the interface, through the linked archive.
mod framed;

use framed::{call, payload, string};
use key_agent::*;

/// A P-256 key whose point and number are made up: fields, blob.
fn key(i: u8) -> (Vec<u8>, Vec<u8>) {
    let mut q = vec![4];
    q.extend([i; 64]);
    let blob = [string(b"ecdsa-sha2-nistp256"), string(b"nistp256"), string(&q)].concat();
    ([blob.clone(), string(&[i; 32])].concat(), blob)
}
fn added(i: u8, constraints: &[u8]) -> Vec<u8> {
    [&[25][..], &key(i).0, &string(b"c"), constraints].concat()
}
fn signing(i: u8, flags: u32) -> Vec<u8> {
    [&[13][..], &string(&key(i).1), &string(b"data"), &flags.to_be_bytes()].concat()
}
fn yes() -> Answers<'static> {
    Answers { gate: Some(true), check: Some(true), ..Answers::default() }
}
/// One call with the gate's and the check's yes: the reply, or the outcome in words.
fn reply(g: &mut Gateway, payload: &[u8], at: u64) -> Vec<u8> {
    let mut r = Reply::new();
    match call(g, payload, at, &yes(), &mut r) {
        Outcome::Reply => r.bytes().to_vec(),
        other => format!("{other:?}").into_bytes(),
    }
}
const FAILURE: [u8; 5] = [0, 0, 0, 1, 5];
const SUCCESS: [u8; 5] = [0, 0, 0, 1, 6];

#[test]
fn examples() {
    let mut g = Gateway::new();
    assert_eq!(reply(&mut g, &[], 0), FAILURE);
    assert_eq!(reply(&mut g, &[11], 0), [0, 0, 0, 5, 12, 0, 0, 0, 0]);
    assert_eq!(reply(&mut g, &[0x16, 0, 0, 0, 0], 0), SUCCESS);
    assert!(!g.is_locked());
    assert_eq!(reply(&mut g, &[0x16, 0, 0, 0, 2, 0x61, 0x62], 0), SUCCESS);
    assert!(g.is_locked());
    // wrong lock state: no question
    assert_eq!(call(&mut g, &[11], 0, &Answers::default(), &mut Reply::new()), Outcome::Reply);
    assert_eq!(reply(&mut g, &[11], 0), FAILURE);
    assert_eq!(reply(&mut g, &[0x17, 0, 0, 0, 2, 0x61, 0x63], 0), FAILURE);
    assert_eq!(reply(&mut g, &[0x17, 0, 0, 0, 2, 0x61, 0x62, 0xff], 0), SUCCESS);
    assert_eq!(reply(&mut g, &[0x16, 0, 0, 0, 3, 0x61, 0x62], 0), FAILURE);
    assert!(!g.is_locked());
    assert_eq!(call(&mut g, &[0x0d, 0, 0, 0, 4, 0x61], 0, &yes(), &mut Reply::new()), Outcome::Close);
    assert_eq!(reply(&mut g, &[0x0d, 0, 0, 0, 1, 0x61], 0), FAILURE);
}

#[test]
fn flags() {
    let mut g = Gateway::new();
    assert_eq!(reply(&mut g, &added(1, &[]), 0), SUCCESS);
    for (flags, want) in [(6, Hash::Sha256), (2, Hash::Sha256), (4, Hash::Sha512), (1, Hash::None), (0, Hash::None)] {
        match call(&mut g, &signing(1, flags), 0, &yes(), &mut Reply::new()) {
            Outcome::Asks(Question::Signature { number: 1, data, hash }) => {
                assert_eq!(hash, want);
                assert_eq!(payload(&string(&signing(1, flags))).part(&data), b"data");
            }
            other => panic!("{other:?}"),
        }
    }
}

#[test]
fn two_locks_past_the_gate() {
    let mut g = Gateway::new();
    let mut r = Reply::new();
    let (ab, cd) = ([0x16, 0, 0, 0, 2, 0x61, 0x62], [0x16, 0, 0, 0, 2, 0x63, 0x64]);
    assert_eq!(call(&mut g, &ab, 0, &Answers::default(), &mut r), Outcome::Asks(Question::Gate(Class::Lock)));
    assert_eq!(call(&mut g, &cd, 0, &Answers::default(), &mut r), Outcome::Asks(Question::Gate(Class::Lock)));
    assert_eq!(reply(&mut g, &ab, 0), SUCCESS);
    assert_eq!(reply(&mut g, &cd, 0), FAILURE);
    assert_eq!(reply(&mut g, &[0x17, 0, 0, 0, 2, 0x61, 0x62], 0), SUCCESS);
}

#[test]
fn a_yes_for_the_old_key_does_not_count() {
    let mut g = Gateway::new();
    let mut r = Reply::new();
    assert_eq!(reply(&mut g, &added(1, &[2]), 0), SUCCESS);
    let mut a = yes();
    assert_eq!(call(&mut g, &signing(1, 0), 0, &a, &mut r), Outcome::Asks(Question::Confirmation { number: 1 }));
    assert_eq!(reply(&mut g, &added(1, &[2]), 0), SUCCESS);
    a.confirmation = Some(Numbered { number: 1, answer: true });
    assert_eq!(call(&mut g, &signing(1, 0), 0, &a, &mut r), Outcome::Asks(Question::Confirmation { number: 2 }));
    assert_eq!(g.key(1), None);
    assert_eq!(g.key(2).unwrap().blob, key(1).1);
}

#[test]
fn lifetimes() {
    let mut g = Gateway::new();
    let held = |g: &Gateway| g.keys().count();
    assert_eq!(reply(&mut g, &added(1, &[1, 0, 0, 0, 2]), 5_000), SUCCESS);
    reply(&mut g, &[11], 6_999);
    assert_eq!(held(&g), 1);
    reply(&mut g, &[11], 7_000);
    assert_eq!((held(&g), g.clock()), (0, 7_000));
    // a lower reading counts as the kept one
    assert_eq!(reply(&mut g, &added(1, &[1, 0, 0, 0, 2, 2]), 10), SUCCESS);
    let k = g.keys().next().unwrap();
    assert_eq!((k.number, k.left, k.confirm, &*k.comment, k.fields), (2, Some(2_000), true, "c", &key(1).0[..]));
    // lifetime 0 goes at the next call, a question too
    assert_eq!(reply(&mut g, &added(2, &[1, 0, 0, 0, 0]), 7_000), SUCCESS);
    assert_eq!(held(&g), 2);
    call(&mut g, &[11], 7_000, &Answers::default(), &mut Reply::new());
    assert_eq!(held(&g), 1);
}

#[test]
fn constraints() {
    for (bytes, want) in
        [(&[2, 2][..], SUCCESS), (&[1, 0, 0, 0, 5, 1, 0, 0, 0, 5], FAILURE), (&[3], FAILURE), (&[255], FAILURE), (&[1, 0, 0], FAILURE)]
    {
        assert_eq!(reply(&mut Gateway::new(), &added(1, bytes), 0), want, "{bytes:?}");
    }
}

#[test]
fn twenty_five_keys() {
    let mut g = Gateway::new();
    for i in 1..=24 {
        assert_eq!(reply(&mut g, &added(i, &[]), 0), SUCCESS);
    }
    assert_eq!(call(&mut g, &added(25, &[]), 0, &Answers { check: None, ..yes() }, &mut Reply::new()), Outcome::Reply, "no key check");
    assert_eq!(reply(&mut g, &added(25, &[]), 0), FAILURE);
    // a held one keeps its position
    assert_eq!(reply(&mut g, &added(3, &[2]), 0), SUCCESS);
    assert_eq!(g.keys().map(|k| k.number).collect::<Vec<_>>(), (1..=25).filter(|n| *n != 3).collect::<Vec<_>>());
    let listed = |keys: &[u8]| keys.iter().flat_map(|i| [string(&key(*i).1), string(b"c")].concat()).collect::<Vec<_>>();
    let mut keys: Vec<u8> = (1..=24).collect();
    let list = reply(&mut g, &[11], 0);
    assert_eq!((&list[4..9], &list[9..]), (&[12, 0, 0, 0, 24][..], &listed(&keys)[..]));
    // the others move up, and a new one goes last
    assert_eq!(reply(&mut g, &[&[18][..], &string(&key(2).1)].concat(), 0), SUCCESS);
    assert_eq!(reply(&mut g, &added(25, &[]), 0), SUCCESS);
    assert_eq!(g.keys().last().unwrap().blob, key(25).1);
    keys.remove(1);
    keys.push(25);
    assert_eq!(reply(&mut g, &[11], 0)[9..], listed(&keys));
    assert_eq!(reply(&mut g, &[19], 0), SUCCESS);
    assert_eq!(g.keys().count(), 0);
}

#[test]
fn refusals_change_nothing() {
    let mut g = Gateway::new();
    reply(&mut g, &added(1, &[1, 0, 0, 0, 1]), 0);
    let mut r = Reply::new();
    assert_eq!(g.first(&string(&vec![11; MAX_PAYLOAD + 1]), 9_000, &mut r), First::TooLong);
    let sig = [0; MAX_SIGNATURE + 1];
    let a = Answers { signature: Some(Numbered { number: 99, answer: Some(&sig) }), ..yes() };
    assert_eq!(call(&mut g, &[11], 9_000, &a, &mut r), Outcome::Refused(Refusal::SignatureTooLong));
    assert_eq!((g.clock(), g.keys().count(), r.bytes().len(), r.buffer().iter().all(|b| *b == 0)), (0, 1, 0, true));
    // the longest payload is taken
    let mut whole = vec![0; MAX_PAYLOAD];
    whole[0] = 11;
    assert_eq!(call(&mut g, &whole, 0, &yes(), &mut r), Outcome::Reply);
    assert_eq!(r.bytes()[4], 12);
}

#[test]
fn a_long_reply_and_what_stands_behind_a_shorter_one() {
    let mut g = Gateway::new();
    // RSA: type, e, n with n so long that the blob has 1,024 bytes; the store holds 14 such keys
    for i in 1..=14u8 {
        let n = vec![i; 1024 - 4 - 7 - 4 - 3 - 4];
        let number = string(&[1, 0, 1]);
        let fields = [string(b"ssh-rsa"), string(&n), number.clone(), number.clone(), number.clone(), number.clone(), number.clone()].concat();
        assert_eq!(reply(&mut g, &[&[17][..], &fields, &string(&[b'c'; MAX_COMMENT])].concat(), 0), SUCCESS);
    }
    let mut r = Reply::new();
    assert_eq!(call(&mut g, &[11], 0, &yes(), &mut r), Outcome::Reply);
    assert_eq!(r.bytes().len(), 9 + 14 * (4 + 1_024 + 4 + MAX_COMMENT));
    let before = *r.buffer();
    assert_eq!(call(&mut g, &[99], 0, &yes(), &mut r), Outcome::Reply);
    assert_eq!(r.bytes(), FAILURE);
    assert_eq!(r.buffer()[5..], before[5..]);
    assert_eq!(call(&mut g, &[11], 0, &Answers::default(), &mut r), Outcome::Asks(Question::Gate(Class::RequestKeys)));
    assert_eq!((r.bytes().len(), &r.buffer()[5..]), (0, &before[5..]));
}

#[test]
fn frames() {
    // the payload and the bytes used; 0 for more needed, 1 for too long
    let found = |bytes: &[u8]| match split(bytes) {
        Split::MoreNeeded => Err(0),
        Split::TooLong => Err(1),
        Split::Frame { payload, used } => Ok((payload.bytes().to_vec(), used)),
    };
    assert_eq!(found(&[]), Err(0));
    assert_eq!(found(&[0, 0, 0]), Err(0));
    assert_eq!(found(&[0, 0, 0, 0]), Ok((vec![], 4)));
    assert_eq!(found(&[0, 0, 0, 2, 11]), Err(0));
    assert_eq!(found(&[0, 0, 0, 2, 11, 1, 9]), Ok((vec![11, 1], 6)));
    assert_eq!(found(&[0, 4, 0, 0]), Err(0));
    assert_eq!(found(&[0, 4, 0, 1]), Err(1));
    assert_eq!(found(&[255, 255, 255, 255]), Err(1));
    let mut whole = vec![0; 4 + MAX_PAYLOAD];
    whole[1] = 4;
    assert_eq!(found(&whole), Ok((whole[4..].to_vec(), 4 + MAX_PAYLOAD)));
    assert_eq!(found(&whole[..whole.len() - 1]), Err(0));
}
