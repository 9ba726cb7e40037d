//! The same table as the core's in plain safe Rust, for comparing speed: up to 24 entries as columns, a store of 32,768 bytes in which blob, key
//! fields and comment of each stand packed in list order, the soundness test at each call or at none. Written straightforwardly from 01 and #112,
//! with slices' own comparisons and moves; nothing is proved of it, and it is no part of the agent.
use std::ops::Range;

pub const STORE: usize = 32_768;
pub const ENTRIES: usize = 24;
const REPLY: usize = 30_897;

/// An entry is used where its number is not 0; the used ones stand in front.
pub struct Table {
    numbers: [u64; ENTRIES],
    readings: [u64; ENTRIES],
    blob_lens: [usize; ENTRIES],
    fields_lens: [usize; ENTRIES],
    comment_lens: [usize; ENTRIES],
    seconds: [u32; ENTRIES],
    limited: [bool; ENTRIES],
    confirm: [bool; ENTRIES],
    lock: [u8; 1024],
    lock_len: usize,
    clock: u64,
    next: u64,
    store: Box<[u8; STORE]>,
    is_tested: bool,
}
#[derive(Clone, Copy, Default)]
pub struct Answers<'a> {
    pub gate: Option<bool>,
    pub check: Option<bool>,
    pub confirmation: Option<(u64, bool)>,
    pub signature: Option<(u64, Option<&'a [u8]>)>,
}
#[derive(Debug, PartialEq)]
pub enum Outcome {
    Refused(u8),
    Gate(u8),
    Check(usize, usize),
    Confirm(u64),
    Sign(u64, usize, usize, u16),
    Reply(usize),
    Close,
}
use Outcome::*;

struct Cursor<'a> {
    all: &'a [u8],
    at: usize,
}
impl<'a> Cursor<'a> {
    fn number(&mut self) -> Option<u32> {
        let b = self.all.get(self.at..self.at + 4)?;
        self.at += 4;
        Some(u32::from_be_bytes(b.try_into().ok()?))
    }
    fn string(&mut self) -> Option<&'a [u8]> {
        let n = self.number()? as usize;
        let s = self.all.get(self.at..self.at.checked_add(n)?)?;
        self.at += n;
        Some(s)
    }
    fn mpint(&mut self) -> Option<&'a [u8]> {
        let s = self.string()?;
        match s {
            [0, b, ..] if *b >= 128 => Some(s),
            [b, ..] if *b != 0 && *b < 128 => Some(s),
            _ => None,
        }
    }
}
fn put(out: &mut [u8], at: usize, b: &[u8]) -> usize {
    out[at..at + b.len()].copy_from_slice(b);
    at + b.len()
}
fn put_string(out: &mut [u8], at: usize, b: &[u8]) -> usize {
    let at = put(out, at, &(b.len() as u32).to_be_bytes());
    put(out, at, b)
}
fn said(out: &mut [u8], ok: bool) -> Outcome {
    put(out, 0, &[0, 0, 0, 1, if ok { 6 } else { 5 }]);
    Reply(5)
}
/// The end of the key fields, and the up to three parts of the blob.
fn key(c: &mut Cursor<'_>) -> Option<[(usize, usize); 3]> {
    let from = c.at;
    let kind = c.string()?;
    let typed = c.at;
    Some(match kind {
        b"ssh-ed25519" => {
            let a = c.string()?;
            let end = c.at;
            let pair = c.string()?;
            if a.len() != 32 || pair.len() != 64 || pair[32..] != *a {
                return None;
            }
            [(from, end), (end, end), (end, end)]
        }
        b"ecdsa-sha2-nistp256" | b"ecdsa-sha2-nistp384" | b"ecdsa-sha2-nistp521" => {
            let size = match kind[16] {
                b'2' => 32,
                b'3' => 48,
                _ => 66,
            };
            let curve = c.string()?;
            let q = c.string()?;
            let end = c.at;
            let d = c.mpint()?;
            if *curve != kind[11..] || q.len() != 2 * size + 1 || q[0] != 4 || d.len() - (d[0] == 0) as usize > size {
                return None;
            }
            [(from, end), (end, end), (end, end)]
        }
        b"ssh-rsa" => {
            c.mpint()?;
            let n = c.at;
            c.mpint()?;
            let e = c.at;
            for _ in 0..4 {
                c.mpint()?;
            }
            [(from, typed), (n, e), (typed, n)]
        }
        _ => return None,
    })
}

impl Table {
    /// With the soundness test at each call, or without.
    pub fn new(is_tested: bool) -> Table {
        Table {
            numbers: [0; ENTRIES],
            readings: [0; ENTRIES],
            blob_lens: [0; ENTRIES],
            fields_lens: [0; ENTRIES],
            comment_lens: [0; ENTRIES],
            seconds: [0; ENTRIES],
            limited: [false; ENTRIES],
            confirm: [false; ENTRIES],
            lock: [0; 1024],
            lock_len: 0,
            clock: 0,
            next: 1,
            store: Box::new([0; STORE]),
            is_tested,
        }
    }
    fn held(&self) -> usize {
        self.numbers.iter().position(|n| *n == 0).unwrap_or(ENTRIES)
    }
    fn len(&self, i: usize) -> usize {
        self.blob_lens[i] + self.fields_lens[i] + self.comment_lens[i]
    }
    fn end(&self) -> usize {
        (0..self.held()).map(|i| self.len(i)).sum()
    }
    /// The held entries, each with the place of its bytes.
    fn entries(&self) -> impl Iterator<Item = (usize, Range<usize>)> + '_ {
        (0..self.held()).scan(0, |at, i| {
            let from = *at;
            *at += self.len(i);
            Some((i, from..*at))
        })
    }
    fn blob(&self, i: usize, place: &Range<usize>) -> &[u8] {
        &self.store[place.start..][..self.blob_lens[i]]
    }
    fn comment(&self, i: usize, place: &Range<usize>) -> &[u8] {
        &self.store[place.end - self.comment_lens[i]..place.end]
    }
    // a function of its own, so that it can be counted
    #[inline(never)]
    pub fn is_sound(&self) -> bool {
        // over all bytes with no early exit, as the core does it: this is compiled to vector code, `all` is not (eleven times as long)
        let zero = |b: &[u8]| b.iter().fold(0, |a, x| a | x) == 0;
        if self.next < 1 || self.lock_len > 1024 || !zero(&self.lock[self.lock_len..]) {
            return false;
        }
        let held = self.held();
        let mut blobs = [&[][..]; ENTRIES];
        let mut end = 0;
        for i in 0..held {
            let (blob, fields, comment) = (self.blob_lens[i], self.fields_lens[i], self.comment_lens[i]);
            let ok = self.numbers[i] < self.next && self.readings[i] <= self.clock && (self.limited[i] || self.seconds[i] == 0);
            let ok = ok && (1..=1024).contains(&blob) && (1..=3072).contains(&fields) && comment <= 255;
            if !ok || end + blob + fields + comment > STORE {
                return false;
            }
            blobs[i] = &self.store[end..end + blob];
            end += blob + fields + comment;
        }
        let unused = (held..ENTRIES).all(|i| {
            let sizes = self.seconds[i] as usize | self.len(i);
            self.numbers[i] == 0 && self.readings[i] == 0 && sizes == 0 && !self.limited[i] && !self.confirm[i]
        });
        let distinct = || (0..held).all(|i| (i + 1..held).all(|j| self.numbers[i] != self.numbers[j] && blobs[i] != blobs[j]));
        unused && zero(&self.store[end..]) && distinct()
    }
    /// Entry `from` becomes entry `to`, in the columns.
    fn shift(&mut self, from: usize, to: usize) {
        self.numbers[to] = self.numbers[from];
        self.readings[to] = self.readings[from];
        self.blob_lens[to] = self.blob_lens[from];
        self.fields_lens[to] = self.fields_lens[from];
        self.comment_lens[to] = self.comment_lens[from];
        self.seconds[to] = self.seconds[from];
        self.limited[to] = self.limited[from];
        self.confirm[to] = self.confirm[from];
    }
    fn clear(&mut self, unused: Range<usize>) {
        self.numbers[unused.clone()].fill(0);
        self.readings[unused.clone()].fill(0);
        self.blob_lens[unused.clone()].fill(0);
        self.fields_lens[unused.clone()].fill(0);
        self.comment_lens[unused.clone()].fill(0);
        self.seconds[unused.clone()].fill(0);
        self.limited[unused.clone()].fill(false);
        self.confirm[unused].fill(false);
    }
    /// Keeps these entries: each that stays moves once, and the freed end is zeroed.
    fn retain(&mut self, keep: impl Fn(&Table, usize) -> bool) {
        let held = self.held();
        let (mut kept, mut from, mut to) = (0, 0, 0);
        for i in 0..held {
            let len = self.len(i);
            if keep(self, i) {
                if from != to {
                    self.store.copy_within(from..from + len, to);
                    self.shift(i, kept);
                }
                kept += 1;
                to += len;
            }
            from += len;
        }
        self.clear(kept..held);
        self.store[to..from].fill(0);
    }
    fn expired(&self, i: usize) -> bool {
        self.limited[i] && self.clock - self.readings[i] >= 1000 * self.seconds[i] as u64
    }
    fn advance(&mut self, reading: u64) {
        self.clock = self.clock.max(reading);
        if (0..self.held()).any(|i| self.expired(i)) {
            self.retain(|t, i| !t.expired(i));
        }
    }
    fn find(&self, blob: &[u8]) -> Option<(usize, Range<usize>)> {
        self.entries().find(|(i, place)| self.blob(*i, place) == blob)
    }

    pub fn call(&mut self, payload: &[u8], reading: u64, a: Answers<'_>, out: &mut [u8]) -> Outcome {
        if out.len() < REPLY {
            return Refused(1);
        }
        if self.is_tested && !self.is_sound() {
            return Refused(3);
        }
        if payload.len() > 262_144 {
            return Refused(4);
        }
        if matches!(a.signature, Some((_, Some(s))) if s.len() > 2048) {
            return Refused(5);
        }
        self.advance(reading);
        let locked = self.lock_len > 0;
        let Some(&first) = payload.first() else { return said(out, false) };
        let (class, needs_lock) = match first {
            11 => (1, false),
            17 | 25 => (2, false),
            18 => (3, false),
            19 => (4, false),
            13 => (5, false),
            22 => (6, false),
            23 => (7, true),
            _ => return said(out, false),
        };
        if locked != needs_lock {
            return said(out, false);
        }
        match a.gate {
            None => return Gate(class),
            Some(false) => return said(out, false),
            Some(true) => {}
        }
        let mut c = Cursor { all: payload, at: 1 };
        match first {
            11 => {
                let mut at = put(out, 4, &[12, 0, 0, 0, self.held() as u8]);
                for (i, place) in self.entries() {
                    at = put_string(out, at, self.blob(i, &place));
                    at = put_string(out, at, self.comment(i, &place));
                }
                put(out, 0, &(at as u32 - 4).to_be_bytes());
                Reply(at)
            }
            18 => match c.string().and_then(|b| self.find(b)) {
                Some((gone, _)) => {
                    self.retain(|_, i| i != gone);
                    said(out, true)
                }
                None => said(out, false),
            },
            19 => {
                self.retain(|_, _| false);
                said(out, true)
            }
            22 => match c.string() {
                Some(p) if p.len() <= 1024 => {
                    self.lock[..p.len()].copy_from_slice(p);
                    self.lock_len = p.len();
                    said(out, true)
                }
                _ => said(out, false),
            },
            23 => match c.string() {
                Some(p) if *p == self.lock[..self.lock_len] => {
                    self.lock.fill(0);
                    self.lock_len = 0;
                    said(out, true)
                }
                _ => said(out, false),
            },
            13 => self.sign(c, a, out),
            _ => self.add(c, first == 25, a, out).unwrap_or_else(|| said(out, false)),
        }
    }
    fn sign(&mut self, mut c: Cursor<'_>, a: Answers<'_>, out: &mut [u8]) -> Outcome {
        let Some(blob) = c.string() else { return Close };
        let Some((i, _)) = self.find(blob) else { return said(out, false) };
        let number = self.numbers[i];
        if self.confirm[i] {
            match a.confirmation {
                Some((n, yes)) if n == number => {
                    if !yes {
                        return said(out, false);
                    }
                }
                _ => return Confirm(number),
            }
        }
        let (Some(data), Some(flags)) = (c.string(), c.number()) else { return Close };
        let hash = if flags & 2 != 0 {
            256
        } else if flags & 4 != 0 {
            512
        } else {
            0
        };
        match a.signature {
            Some((n, given)) if n == number => match given {
                None => Close,
                Some(s) => {
                    let at = put(out, 4, &[14]);
                    let at = put_string(out, at, s);
                    put(out, 0, &(at as u32 - 4).to_be_bytes());
                    Reply(at)
                }
            },
            _ => Sign(number, c.at - 4 - data.len(), c.at - 4, hash),
        }
    }
    fn add(&mut self, mut c: Cursor<'_>, constrained: bool, a: Answers<'_>, out: &mut [u8]) -> Option<Outcome> {
        let parts = key(&mut c)?;
        let fields = (1, c.at);
        let text = std::str::from_utf8(c.string()?).ok()?.as_bytes();
        let (mut limited, mut seconds, mut confirm) = (false, 0, false);
        while constrained && c.at < c.all.len() {
            c.at += 1;
            match c.all[c.at - 1] {
                1 if !limited => {
                    limited = true;
                    seconds = c.number()?;
                }
                2 => confirm = true,
                _ => return None,
            }
        }
        let blob_len: usize = parts.iter().map(|p| p.1 - p.0).sum();
        let fields_len = fields.1 - fields.0;
        if blob_len > 1024 || fields_len > 3072 || text.len() > 255 || self.next == u64::MAX {
            return None;
        }
        let mut blob = [0; 1024];
        let mut n = 0;
        for p in parts {
            n = put(&mut blob, n, &c.all[p.0..p.1]);
        }
        let end = self.end();
        let (i, place) = self.find(&blob[..n]).unwrap_or((self.held(), end..end));
        let len = n + fields_len + text.len();
        if i == ENTRIES || end - place.len() + len > STORE {
            return None;
        }
        match a.check {
            None => return Some(Check(fields.0, fields.1)),
            Some(false) => return None,
            Some(true) => {}
        }
        self.store.copy_within(place.end..end, place.start + len);
        if len < place.len() {
            self.store[end - place.len() + len..end].fill(0);
        }
        let at = put(&mut self.store[..], place.start, &blob[..n]);
        let at = put(&mut self.store[..], at, &c.all[fields.0..fields.1]);
        put(&mut self.store[..], at, text);
        (self.numbers[i], self.readings[i]) = (self.next, self.clock);
        (self.blob_lens[i], self.fields_lens[i], self.comment_lens[i]) = (n, fields_len, text.len());
        (self.limited[i], self.seconds[i], self.confirm[i]) = (limited, seconds, confirm);
        self.next += 1;
        Some(said(out, true))
    }
}
