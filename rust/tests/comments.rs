//! The comment of each key: kept, listed, replaced, and gone with the key; and comments in a state handed in, which the safe interface cannot make.
mod framed;
mod open;

use framed::{call, string};
use key_agent::{Answers, Gateway, Outcome, Question, Reply, MAX_COMMENT, MAX_KEYS};
use open::{ed25519, Held, Key, Open, FAILURE, SUCCESS};

fn ecdsa(curve: &str, size: usize) -> Key {
    let kind = format!("ecdsa-sha2-{curve}");
    let blob = [string(kind.as_bytes()), string(curve.as_bytes()), string(&[&[4][..], &vec![7; 2 * size]].concat())].concat();
    ([blob.clone(), string(&vec![7; size])].concat(), blob)
}
/// A key of each kind, the numbers made up.
fn kinds() -> [Key; 5] {
    let (n, e) = (string(&[5; 256]), string(&[1, 0, 1]));
    let rsa = [string(b"ssh-rsa"), n.clone(), e.clone(), e.repeat(4)].concat();
    let rsa = (rsa, [string(b"ssh-rsa"), e, n].concat());
    [ed25519(1), ecdsa("nistp256", 32), ecdsa("nistp384", 48), ecdsa("nistp521", 66), rsa]
}
/// 17, or 25 with these constraints.
fn add(key: &Key, comment: &[u8], constraints: Option<&[u8]>) -> Vec<u8> {
    [&[if constraints.is_some() { 25 } else { 17 }][..], &key.0, &string(comment), constraints.unwrap_or(&[])].concat()
}
const CONSTRAINTS: [Option<&[u8]>; 5] = [None, Some(&[]), Some(&[2]), Some(&[1, 0, 0, 1, 0]), Some(&[2, 1, 0, 0, 1, 0])];

fn gate() -> Answers<'static> {
    Answers { gate: Some(true), ..Answers::default() }
}
/// One call with the gate's and the check's yes, which replies.
fn reply(g: &mut Gateway, payload: &[u8]) -> Vec<u8> {
    let mut r = Reply::new();
    assert_eq!(call(g, payload, 0, &Answers { check: Some(true), ..gate() }, &mut r), Outcome::Reply);
    r.bytes().to_vec()
}
/// The list, each item once as its reply has it and once as `keys` does.
fn list<'a>(g: &mut Gateway, items: impl IntoIterator<Item = (&'a Key, &'a str)>) {
    let items: Vec<_> = items.into_iter().collect();
    let body: Vec<u8> = items.iter().flat_map(|(k, c)| [string(&k.1), string(c.as_bytes())].concat()).collect();
    assert_eq!(reply(g, &[11]), string(&[&[12][..], &(items.len() as u32).to_be_bytes(), &body].concat()));
    // `keys` goes by insertion; in the list a key that was added again is where it was
    let mut held: Vec<_> = g.keys().map(|k| (k.blob.to_vec(), k.comment.to_string())).collect();
    let mut want: Vec<_> = items.iter().map(|(k, c)| (k.1.clone(), c.to_string())).collect();
    held.sort();
    want.sort();
    assert_eq!(held, want);
}

#[test]
fn kept_for_every_kind_and_replaced() {
    let (keys, names) = (kinds(), ["vents 1", "", "Gewächshaus 3", "温室", "🌱 a\0b"]);
    for constraints in CONSTRAINTS {
        let mut g = Gateway::new();
        for (k, c) in keys.iter().zip(names) {
            assert_eq!(reply(&mut g, &add(k, c.as_bytes(), constraints)), SUCCESS);
        }
        list(&mut g, keys.iter().zip(names));
        // one after the other once more: its comment alone is another
        for again in CONSTRAINTS {
            let mut now = names;
            for (i, k) in keys.iter().enumerate() {
                now[i] = names[(i + 1) % 5];
                assert_eq!(reply(&mut g, &add(k, now[i].as_bytes(), again)), SUCCESS);
                list(&mut g, keys.iter().zip(now));
            }
            for (k, c) in keys.iter().zip(names) {
                assert_eq!(reply(&mut g, &add(k, c.as_bytes(), constraints)), SUCCESS);
            }
            list(&mut g, keys.iter().zip(names));
        }
    }
}

/// The add is FAILURE with the gate's yes alone, so no key check is asked; and nothing changes.
fn refused(g: &mut Gateway, payload: &[u8]) {
    let (before, mut r) = (g.clone(), Reply::new());
    assert_eq!(call(g, payload, 0, &gate(), &mut r), Outcome::Reply);
    assert_eq!(r.bytes(), FAILURE);
    assert!(*g == before);
}
/// The key check is asked; with its yes the key is added.
fn taken(g: &mut Gateway, key: &Key, payload: &[u8]) {
    match call(g, payload, 0, &gate(), &mut Reply::new()) {
        Outcome::Asks(Question::Check(fields)) => assert_eq!(framed::payload(&string(payload)).part(&fields), key.0),
        other => panic!("{other:?}"),
    }
    assert_eq!(reply(g, payload), SUCCESS);
}

#[test]
fn at_most_255_bytes() {
    for key in kinds() {
        for constraints in CONSTRAINTS {
            // a new key, and one that is held
            for held in [false, true] {
                let mut g = Gateway::new();
                if held {
                    taken(&mut g, &key, &add(&key, b"old", None));
                }
                for long in [&[b'x'; 256][..], &[b'x'; 257], &[b'x'; 511], &[b'x'; 4_096], "é".repeat(128).as_bytes(), &[0; 256]] {
                    refused(&mut g, &add(&key, long, constraints));
                }
                list(&mut g, held.then_some((&key, "old")));
                let texts = ["x".repeat(255), "é".repeat(127) + "x", "温".repeat(85), "x".repeat(251) + "🌱", "\0".repeat(255), "x".repeat(254)];
                for text in texts {
                    taken(&mut g, &key, &add(&key, text.as_bytes(), constraints));
                    list(&mut g, [(&key, &text[..])]);
                }
            }
        }
    }
}

#[test]
fn nothing_but_utf_8() {
    let cut = ["x".repeat(254).as_bytes(), &[0xc3]].concat();
    for key in kinds() {
        for constraints in CONSTRAINTS {
            let mut g = Gateway::new();
            taken(&mut g, &key, &add(&key, b"old", None));
            let over: &[u8] = &[0xf4, 0x90, 0x80, 0x80];
            for c in [&[0xff][..], &[0xc0, 0x80], &[0xed, 0xa0, 0x80], over, &[0xe2, 0x82], b"vents \x80", &cut, &[0xff; 256]] {
                refused(&mut g, &add(&key, c, constraints));
            }
            // nor without a comment, or with one that is cut
            for n in 0..7 {
                refused(&mut g, &[&[25][..], &key.0, &string(b"cut")[..n]].concat());
            }
            list(&mut g, [(&key, "old")]);
        }
    }
}

/// Some keys, held, and what is known of them; their comments have this many bytes.
fn held(comment: usize, lifetime: Option<u32>) -> (Open, Vec<Held>) {
    let (mut o, mut keys) = (Open::fresh(), vec![]);
    for i in 0..MAX_KEYS as u8 {
        let constraints = lifetime.map_or(vec![], |l| [&[1][..], &l.to_be_bytes()].concat());
        o.does(&add(&ed25519(i + 1), &vec![b'x'; comment], Some(&constraints)), 0);
        let (number, key, comment) = (u64::from(i) + 1, ed25519(i + 1), vec![b'x'; comment]);
        keys.push(Held { number, reading: 0, key, comment, lifetime, confirm: false });
    }
    (o, keys)
}
fn agree(o: &Open, keys: &[Held], what: &str) {
    assert_eq!(o.state.columns, open::columns(keys), "{what}");
    assert!(o.store == open::store(keys), "{what}");
}

#[test]
fn gone_with_the_key() {
    let (full, keys) = held(MAX_COMMENT, Some(2));
    agree(&full, &keys, "held");
    for i in 0..MAX_KEYS {
        let (mut o, mut want) = (full.clone(), keys.clone());
        o.does(&open::remove(&keys[i].key), 0);
        want.remove(i);
        agree(&o, &want, "removed");
        // a re-add with a shorter one leaves nothing of the longer
        let (mut o, mut want) = (full.clone(), keys.clone());
        o.does(&add(&keys[i].key, b"ab", None), 0);
        want[i] = Held { number: o.state.next - 1, comment: b"ab".to_vec(), lifetime: None, ..keys[i].clone() };
        agree(&o, &want, "replaced");
        // it has no lifetime, and stays where the others go, at a question too
        o.call(&[], 1_999);
        agree(&o, &want, "not yet");
        o.call(&[], 2_000);
        agree(&o, &want[i..=i], "expired");
    }
    let mut o = full.clone();
    o.does(&[19], 0);
    agree(&o, &[], "all removed");
    // a FAILURE alters nothing
    full.clone().fails(&add(&keys[0].key, &[b'y'; 256], None));
    full.clone().fails(&add(&ed25519(99), b"a 25th", None));
}

#[test]
fn a_state_handed_in() {
    let (held, keys) = held(3, None);
    let end: usize = keys.iter().map(Held::len).sum();
    held.clone().sound("as it is");
    for i in 0..MAX_KEYS {
        let with = |len: usize| {
            let mut o = held.clone();
            o.state.columns.comment_lens[i] = len;
            (o, format!("entry {i}, comment of {len} bytes"))
        };
        // a longer one: what stands behind it is read further on, and the last comment ends with zeros
        for len in [3, 4, 254, 255] {
            let (o, what) = with(len);
            o.sound(&what);
        }
        for len in [0, 1, 2, 256, 257, 264, 512, 1 << 32, 3 + (1 << 32), 1 << 63, usize::MAX] {
            let (o, what) = with(len);
            o.unsound(&what);
        }
        // UTF-8 is not asked of a state
        let at: usize = keys[..=i].iter().map(Held::len).sum();
        for (n, value) in [(1, 1), (1, 128), (2, 255), (3, 0), (3, 255)] {
            let mut o = held.clone();
            o.store[at - n] = value;
            o.sound(&format!("entry {i}, byte {n} from its end is {value}"));
        }
    }
    // a longer one by as many bytes as stand behind the end
    for n in [1, 2, 251, 252] {
        let mut o = held.clone();
        o.store[end + n - 1] = 255;
        o.clone().unsound("a byte behind the last comment");
        o.state.columns.comment_lens[MAX_KEYS - 1] += n;
        o.clone().sound("the last comment has it");
        o.state.columns.comment_lens[MAX_KEYS - 1] -= 1;
        o.unsound("one too short");
    }
}
