//! Up to 24 keys in one store: packed in the order of the list after every change, and no state that is packed otherwise is taken.
mod open;

use key_agent::{MAX_COMMENT, MAX_KEYS, REPLY_LEN, STORE_LEN};
use open::*;

/// A gateway beside what is known of it.
#[derive(Clone)]
struct Both {
    open: Open,
    keys: Vec<Held>,
}
impl Both {
    fn fresh() -> Both {
        Both { open: Open::fresh(), keys: vec![] }
    }
    /// 24 keys of several sizes, with comments from 0 to 23 bytes.
    fn full(constraints: impl Fn(usize) -> Vec<u8>) -> Both {
        let mut b = Both::fresh();
        for i in 0..MAX_KEYS {
            b.add(some(i), &vec![b'a' + i as u8; i], &constraints(i));
        }
        b
    }
    /// Adds a key: behind the others, or where it is held.
    fn add(&mut self, key: Key, comment: &[u8], constraints: &[u8]) {
        let (number, reading) = (self.open.state.next, self.open.state.clock);
        self.open.does(&add(&key, comment, constraints), 0);
        let lifetime = constraints.get(1..5).map(|s| u32::from_be_bytes(s.try_into().expect("four bytes")));
        let held = Held { number, reading, key, comment: comment.to_vec(), lifetime, confirm: constraints.contains(&2) };
        match self.keys.iter_mut().find(|k| k.key.1 == held.key.1) {
            Some(k) => *k = held,
            None => self.keys.push(held),
        }
        self.agree();
    }
    fn remove(&mut self, i: usize) {
        let gone = self.keys.remove(i);
        self.open.does(&remove(&gone.key), 0);
        self.agree();
    }
    /// Columns, store, list and what is told of each key are those of the keys.
    fn agree(&self) {
        assert_eq!(self.open.state.columns, columns(&self.keys));
        assert!(self.open.store == store(&self.keys), "the store");
        assert!(self.open.is_sound());
        assert_eq!(self.open.clone().call(&[11], 0).2, list(&self.keys));
        let mut at = 0;
        for k in &self.keys {
            let told = self.open.told(k.number);
            let parts = [told.blob_from, told.blob_to, told.fields_from, told.fields_to];
            let (fields, blob) = (k.key.0.len(), k.key.1.len());
            assert_eq!(parts, [at, at + blob, at + blob, at + blob + fields]);
            assert_eq!((told.number, &told.comment.bytes[..told.comment.len]), (k.number, &k.comment[..]));
            assert!(told.comment.bytes[told.comment.len..].iter().all(|b| *b == 0));
            at += k.len();
        }
    }
    fn room(&self) -> usize {
        STORE_LEN - self.keys.iter().map(Held::len).sum::<usize>()
    }
}

/// Keys of several sizes, 24 of which fit; each has a blob of its own.
fn some(i: usize) -> Key {
    let n = i as u8 + 1;
    match i % 3 {
        0 => ed25519(n),
        1 => rsa(n, 100 + i, 400 + 7 * i),
        _ => rsa(n, 300, 1_000 + i),
    }
}
/// With the longest blob and the longest fields.
fn largest(i: u8) -> Key {
    rsa(i, 1_024, 3_072)
}

#[test]
fn twenty_four_and_no_more() {
    let mut b = Both::full(|_| vec![]);
    assert!(b.room() > 4_096);
    b.open.fails(&add(&some(24), b"", &[]));
    b.open.fails(&add(&some(24), b"", &[1, 0, 0, 0, 9]));
    // one of them again, and there is still no place for another
    b.add(some(7), b"another comment", &[2]);
    b.open.fails(&add(&some(24), b"", &[]));
    // once one has gone the new one goes last
    b.remove(7);
    b.add(some(24), b"the 25th", &[]);
    b.open.fails(&add(&some(7), b"", &[]));
    b.open.does(&[19], 0);
    b.keys.clear();
    b.agree();
}

#[test]
fn added_again_it_keeps_its_position() {
    let full = Both::full(|_| vec![]);
    for i in 0..MAX_KEYS {
        let mut b = full.clone();
        for len in [i, MAX_COMMENT, 0, i + 1, 1] {
            b.add(some(i), &vec![b'x'; len], &[]);
            assert_eq!(b.keys[i].number, b.open.state.next - 1);
        }
    }
    // the same blob with longer and with shorter fields
    for i in (1..MAX_KEYS).step_by(3) {
        let mut b = full.clone();
        for fields in [2_000, 139 + i, 400 + 7 * i] {
            b.add(rsa(i as u8 + 1, 100 + i, fields), b"again", &[]);
        }
    }
}

#[test]
fn a_removal_closes_the_gap() {
    let full = Both::full(|_| vec![]);
    for i in 0..MAX_KEYS {
        let mut b = full.clone();
        b.remove(i);
        b.add(some(i), b"at the end", &[]);
    }
    for step in [1, 5, 7, 11, 23] {
        let mut b = full.clone();
        while !b.keys.is_empty() {
            b.remove(step % b.keys.len());
        }
        assert!(b.open.store.iter().all(|byte| *byte == 0));
    }
}

#[test]
fn several_go_in_one_call() {
    let masks = [0, 1, 1 << 23, 0x00ff_ffff, 0x0055_5555, 0x00aa_aaaa, 0x0000_ffff, 0x00ff_ff00, 0x0081_0003, 0x0033_3333, 0x007f_fffe];
    for mask in masks {
        // those of the mask go at 1,000, every fourth of the others at 3,000, the rest stays
        let is_first = |i: usize| mask >> i & 1 == 1;
        let mut b = Both::full(|i| match (is_first(i), i % 4) {
            (true, _) => vec![1, 0, 0, 0, 1],
            (false, 0) => vec![1, 0, 0, 0, 3],
            (false, _) => vec![],
        });
        // no request, and one that is refused
        assert_eq!(b.open.call(&[], 999).0, 5);
        b.agree();
        b.open.store.pop();
        assert_eq!(b.open.call(&[], 1_000), (0, 2, vec![]));
        b.open.store.push(0);
        b.agree();
        // the first call that is accepted, a question too
        for (reading, lifetime) in [(1_000, 1), (3_000, 3)] {
            assert_eq!(b.open.asked(&[11], reading, raw::FlatAnswers::default()).0, 1);
            b.keys.retain(|k| k.lifetime != Some(lifetime));
            b.agree();
        }
        // what has gone left its room
        b.add(largest(99), &[b'x'; MAX_COMMENT], &[]);
    }
}

/// Keys whose room in all leaves this many bytes.
fn leaving(room: usize) -> Both {
    let mut b = Both::fresh();
    for i in 1..=7 {
        b.add(largest(i), &[b'x'; MAX_COMMENT], &[]);
    }
    let rest = b.room() - room;
    b.add(rsa(8, 200, rest - 200 - 5), b"short", &[]);
    assert_eq!((b.room(), b.keys.len()), (room, 8));
    b
}

#[test]
fn room_and_not_the_count() {
    // to the last byte, and one more
    let key = ed25519(9);
    let len = key.0.len() + key.1.len();
    let mut b = leaving(len + 3);
    b.open.fails(&add(&key, b"four", &[]));
    b.add(key.clone(), b"3 b", &[]);
    assert_eq!(b.room(), 0);
    // no other fits, and none of those held with a longer comment
    b.open.fails(&add(&ed25519(10), b"", &[]));
    b.open.fails(&add(&key, b"four", &[]));
    b.open.fails(&add(&b.keys[7].key.clone(), b"longer", &[1, 0, 0, 0, 9]));
    // a longer key in its stead neither
    b.open.fails(&add(&rsa(8, 200, b.keys[7].key.0.len() + 1), b"short", &[]));
    // with one of the same length, and with a shorter one, whose room the others have then
    b.add(largest(3), &[b'y'; MAX_COMMENT], &[2]);
    b.add(largest(3), &[b'y'; MAX_COMMENT - 1], &[]);
    assert_eq!(b.room(), 1);
    b.add(key.clone(), b"four", &[]);
    b.open.fails(&add(&key, b"five5", &[]));
    // what goes leaves room for all that fits
    b.remove(0);
    assert_eq!(b.room(), 1_024 + 3_072 + MAX_COMMENT);
    b.open.fails(&add(&rsa(11, 1_024, 3_073), b"", &[]));
    b.add(largest(11), &[b'z'; MAX_COMMENT], &[]);
    assert_eq!(b.room(), 0);
}

#[test]
fn count_and_room_at_once() {
    let mut b = Both::fresh();
    for i in 0..MAX_KEYS as u8 {
        let size = STORE_LEN / MAX_KEYS + usize::from(i as usize >= MAX_KEYS - STORE_LEN % MAX_KEYS);
        b.add(rsa(i + 1, 300, size - 300 - 10), &[b'c'; 10], &[]);
    }
    assert_eq!((b.room(), b.keys.len()), (0, MAX_KEYS));
    b.open.fails(&add(&ed25519(99), b"", &[]));
    for i in [0, 11, 23] {
        let key = b.keys[i].key.clone();
        b.open.fails(&add(&key, &[b'd'; 11], &[]));
        b.add(key.clone(), &[b'd'; 10], &[2]);
        b.add(key.clone(), &[b'd'; 3], &[]);
        b.add(key, &[b'e'; 10], &[]);
    }
}

/// A state handed in: keys whose bytes are made up, in numbers from 1 on.
fn handed_in(lens: &[(usize, usize, usize)]) -> Both {
    let mut keys = vec![];
    for (i, (blob, fields, comment)) in lens.iter().copied().enumerate() {
        let byte = i as u8 + 1;
        let key = (vec![byte; fields], vec![byte; blob]);
        keys.push(Held { number: byte.into(), reading: 0, key, comment: vec![byte; comment], lifetime: None, confirm: false });
    }
    let mut open = Open::fresh();
    (open.state.columns, open.state.next, open.store) = (columns(&keys), 99, store(&keys));
    Both { open, keys }
}

#[test]
fn the_longest_list() {
    // fields of one byte: soundness does not ask that they are a key's
    let b = handed_in(&[(1_024, 1, 255); MAX_KEYS]);
    b.agree();
    assert_eq!(b.open.clone().call(&[11], 0).2.len(), REPLY_LEN);
}

#[test]
fn lengths_up_to_the_store_and_one_more() {
    let mut lens = vec![(1_024, 3_072, 255); 7];
    lens.push((1, STORE_LEN - 7 * 4_351 - 1 - 255, 255));
    let b = handed_in(&lens);
    assert_eq!(b.room(), 0);
    b.agree();
    let damaged = |change: fn(&mut raw::Columns)| {
        let mut o = b.open.clone();
        change(&mut o.state.columns);
        o
    };
    damaged(|_| ()).sound("full");
    damaged(|c| c.fields_lens[7] += 1).unsound("32,769 bytes");
    damaged(|c| c.blob_lens[7] += 1).unsound("32,769 bytes");
    damaged(|c| (c.fields_lens[7], c.comment_lens[7]) = (3_072, 255)).unsound("all within their limits, above 32,768 in all");
    damaged(|c| (c.fields_lens[7], c.blob_lens[7]) = (c.fields_lens[7] - 1, 2)).sound("a byte of one is the other's");
    damaged(|c| c.fields_lens[7] -= 1).unsound("its last byte stands behind the end");
    // an entry more
    damaged(|c| (c.numbers[8], c.blob_lens[8], c.fields_lens[8]) = (9, 1, 1)).unsound("the ninth has no room");
}

#[test]
fn lengths_that_overflow() {
    let b = handed_in(&[(40, 90, 20); MAX_KEYS]);
    let columns: [fn(&mut raw::Columns) -> &mut [usize; MAX_KEYS]; 3] = [|c| &mut c.blob_lens, |c| &mut c.fields_lens, |c| &mut c.comment_lens];
    let with = |changes: &[(usize, usize, usize)]| {
        let mut o = b.open.clone();
        for (column, i, len) in changes {
            columns[*column](&mut o.state.columns)[*i] = *len;
        }
        o
    };
    for i in 0..MAX_KEYS {
        for column in 0..3 {
            for len in [usize::MAX, usize::MAX - 149, usize::MAX / 2 + 1, 1 << 32, (1 << 32) + 40, STORE_LEN, STORE_LEN + 1] {
                with(&[(column, i, len)]).unsound(&format!("column {column} of entry {i} is {len}"));
            }
        }
        // two that come to what stands there when they wrap
        with(&[(0, i, usize::MAX), (1, i, 131)]).unsound("blob and fields");
        with(&[(1, i, usize::MAX - 1), (2, i, 112)]).unsound("fields and comment");
        with(&[(2, i, usize::MAX), (2, (i + 1) % MAX_KEYS, 41)]).unsound("comments of two entries");
        with(&[(0, i, 1 << 63), (0, (i + 1) % MAX_KEYS, (1 << 63) + 80)]).unsound("blobs of two entries");
    }
    let all: Vec<_> = (0..MAX_KEYS).flat_map(|i| (0..3).map(move |column| (column, i, usize::MAX))).collect();
    with(&all).unsound("every length");
}

#[test]
fn an_entry_behind_an_unused_one() {
    let b = handed_in(&[(40, 90, 20); MAX_KEYS]);
    for i in 0..MAX_KEYS {
        let mut o = b.open.clone();
        o.state.columns.numbers[i] = 0;
        o.unsound(&format!("entry {i} has lost its number"));
        // unused in every column, its bytes gone, those behind it moved: only where it was the last is it none
        let mut without = b.keys.clone();
        without.remove(i);
        let mut o = b.open.clone();
        o.store = store(&without);
        o.state.columns = columns(&b.keys);
        let c = &mut o.state.columns;
        (c.numbers[i], c.blob_lens[i], c.fields_lens[i], c.comment_lens[i]) = (0, 0, 0, 0);
        if i + 1 == MAX_KEYS {
            o.sound("23 keys");
        } else {
            o.unsound(&format!("entry {i} is unused, those behind it are not"));
        }
    }
}

#[test]
fn what_stands_behind_the_held_ones_is_zero() {
    for count in [0, 1, 5, 23] {
        let b = handed_in(&vec![(40, 90, 20); count]);
        b.agree();
        let end = STORE_LEN - b.room();
        for at in (end..end + 40).chain([end + 255, end + 1_024, end + 4_096, STORE_LEN / 2 + 9_000, STORE_LEN - 9, STORE_LEN - 8, STORE_LEN - 1]) {
            let mut o = b.open.clone();
            o.store[at] = 1;
            o.unsound(&format!("byte {at} behind {count} keys"));
        }
        for i in count..MAX_KEYS {
            let columns: [fn(&mut raw::Columns, usize); 8] = [
                |c, i| c.numbers[i] = 50,
                |c, i| c.readings[i] = 1,
                |c, i| c.blob_lens[i] = 1,
                |c, i| c.fields_lens[i] = 1,
                |c, i| c.comment_lens[i] = 1,
                |c, i| c.seconds[i] = 1,
                |c, i| c.limited[i] = 1,
                |c, i| c.confirm[i] = 1,
            ];
            for (n, column) in columns.iter().enumerate() {
                let mut o = b.open.clone();
                o.state.clock = 1;
                column(&mut o.state.columns, i);
                o.unsound(&format!("column {n} of entry {i}, which is unused"));
            }
        }
    }
}
