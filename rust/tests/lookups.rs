//! What is told of held keys: one by its insertion number, all in order of insertion, and nothing of a number that none has.
mod framed;

use framed::{call, string};
use key_agent::*;

/// A P-256 key whose point and number are made up: fields, blob.
fn key(i: u8) -> (Vec<u8>, Vec<u8>) {
    let blob = [string(b"ecdsa-sha2-nistp256"), string(b"nistp256"), string(&[&[4][..], &[i; 64]].concat())].concat();
    ([blob.clone(), string(&[i; 32])].concat(), blob)
}
fn yes(g: &mut Gateway, payload: &[u8], at: u64) -> Outcome {
    call(g, payload, at, &Answers { gate: Some(true), check: Some(true), ..Answers::default() }, &mut Reply::new())
}
fn add(g: &mut Gateway, i: u8, comment: &str, constraints: &[u8], at: u64) {
    let mut r = Reply::new();
    let payload = [&[25][..], &key(i).0, &string(comment.as_bytes()), constraints].concat();
    call(g, &payload, at, &Answers { gate: Some(true), check: Some(true), ..Answers::default() }, &mut r);
    assert_eq!(r.bytes(), [0, 0, 0, 1, 6]);
}
fn remove(g: &mut Gateway, i: u8) {
    assert_eq!(yes(g, &[&[18][..], &string(&key(i).1)].concat(), 0), Outcome::Reply);
}
fn numbers(g: &Gateway) -> Vec<u64> {
    g.keys().map(|k| k.number).collect()
}

#[test]
fn each_of_its_own() {
    let mut g = Gateway::new();
    for i in 1..=24 {
        let constraints: &[u8] = [&[][..], &[2], &[1, 0, 0, 0, 25], &[1, 0, 0, 1, 0, 2]][i as usize % 4];
        add(&mut g, i, &format!("key {i}"), constraints, 1_000 * u64::from(i));
    }
    for i in 1..=24 {
        let k = g.key(u64::from(i)).unwrap();
        let lifetime = [None, None, Some(25_000), Some(256_000)][i as usize % 4];
        let left = lifetime.map(|l| l - (24_000 - 1_000 * u64::from(i)));
        assert_eq!((k.number, k.left, k.confirm), (i.into(), left, i % 2 == 1));
        assert_eq!((&*k.comment, k.blob, k.fields), (&format!("key {i}")[..], &key(i).1[..], &key(i).0[..]));
    }
    let shown = format!("{:?}", g.key(1).unwrap());
    assert!(shown.contains("key 1") && !shown.contains(&format!("{:?}", &[1; 32])), "the fields are not shown: {shown}");
}

#[test]
fn what_is_left() {
    let mut g = Gateway::new();
    add(&mut g, 1, "", &[1, 0, 0, 0, 2], 5_000);
    assert_eq!(g.key(1).unwrap().left, Some(2_000));
    assert_eq!(yes(&mut g, &[11], 5_700), Outcome::Reply);
    assert_eq!(g.key(1).unwrap().left, Some(1_300));
    // a lower reading moves nothing, a refused call neither, nor bytes of which none is made
    assert_eq!(yes(&mut g, &[11], 10), Outcome::Reply);
    let long = Answers { signature: Some(Numbered { number: 1, answer: Some(&[0; MAX_SIGNATURE + 1]) }), ..Answers::default() };
    assert_eq!(call(&mut g, &[11], 9_000, &long, &mut Reply::new()), Outcome::Refused(Refusal::SignatureTooLong));
    assert_eq!(g.first(&string(&[11; MAX_PAYLOAD + 1]), 9_000, &mut Reply::new()), First::TooLong);
    assert_eq!(g.first(&string(&[11])[..4], 9_000, &mut Reply::new()), First::MoreNeeded);
    assert_eq!(g.key(1).unwrap().left, Some(1_300));
    // there a millisecond before, gone when none is left, also while locked
    assert_eq!(yes(&mut g, &[22, 0, 0, 0, 1, 97], 6_999), Outcome::Reply);
    assert_eq!(g.key(1).unwrap().left, Some(1));
    assert_eq!(yes(&mut g, &[11], 7_000), Outcome::Reply);
    assert_eq!((g.key(1), g.next_held(0), g.is_locked()), (None, None, true));
}

#[test]
fn none_is_left_of_lifetime_0() {
    let mut g = Gateway::new();
    add(&mut g, 1, "", &[1, 0, 0, 0, 0], 5);
    assert_eq!(g.key(1).unwrap().left, Some(0));
    add(&mut g, 2, "", &[1, 255, 255, 255, 255], 6);
    assert_eq!((g.key(1), g.key(2).unwrap().left), (None, Some(u64::from(u32::MAX) * 1_000)));
}

#[test]
fn in_order_of_insertion() {
    let mut g = Gateway::new();
    assert_eq!((numbers(&g), g.next_held(0)), (vec![], None));
    for i in 1..=24 {
        add(&mut g, i, "", &[], 0);
    }
    // replaced where it is: a new number; removed and added again, behind the others: a new number too
    add(&mut g, 3, "another", &[], 0);
    remove(&mut g, 1);
    remove(&mut g, 6);
    add(&mut g, 6, "", &[], 0);
    let want: Vec<u64> = (2..=26).filter(|n| ![3, 6].contains(n)).collect();
    assert_eq!((numbers(&g), want.len()), (want.clone(), 23));
    assert_eq!((g.key(25).unwrap().blob, g.key(26).unwrap().blob), (&key(3).1[..], &key(6).1[..]));
    for after in 0..40 {
        assert_eq!(g.next_held(after), want.iter().copied().find(|n| *n > after), "after {after}");
    }
    for n in (0..40).chain([u64::MAX - 1, u64::MAX]) {
        assert_eq!(g.key(n).map(|k| k.number), want.iter().copied().find(|m| *m == n), "number {n}");
    }
    assert_eq!(g.next_held(u64::MAX), None);
    assert_eq!(yes(&mut g, &[19], 0), Outcome::Reply);
    assert_eq!((numbers(&g), g.key(26)), (vec![], None));
}

#[test]
fn what_a_question_names_is_told() {
    let mut g = Gateway::new();
    add(&mut g, 1, "", &[2], 0);
    add(&mut g, 2, "", &[], 0);
    for (i, number) in [(1, 1), (2, 2)] {
        let sign = [&[13][..], &string(&key(i).1), &string(b"data"), &[0; 4]].concat();
        let asked = match yes(&mut g, &sign, 0) {
            Outcome::Asks(Question::Confirmation { number }) | Outcome::Asks(Question::Signature { number, .. }) => number,
            other => panic!("{other:?}"),
        };
        assert_eq!((asked, g.key(asked).unwrap().blob), (number, &key(i).1[..]));
    }
}
