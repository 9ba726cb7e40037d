//! Which keys the rule holds, in list order, by the requests that landed: what a list must show, and whether there is room for one more.
use crate::{string, strings};

pub const KEYS: usize = 24;
pub const STORE: usize = 32_768;

/// What an add request carries: the blob that its fields give, these, the comment, and what is behind it.
pub struct Addition<'a> {
    pub blob: Vec<u8>,
    pub fields: &'a [u8],
    pub comment: &'a [u8],
    pub rest: &'a [u8],
}
impl Addition<'_> {
    /// Of an add request whose strings are whole.
    pub fn of(payload: &[u8]) -> Option<Addition<'_>> {
        if !matches!(payload.first(), Some(17 | 25)) {
            return None;
        }
        let n = match *strings(&payload[1..], 1).0.first()? {
            b"ssh-ed25519" => 3,
            b"ssh-rsa" => 7,
            _ => 4,
        };
        let (s, rest) = strings(&payload[1..], n + 1);
        let comment = *s.get(n)?;
        let parts = if n == 7 { vec![s[0], s[2], s[1]] } else { s[..n - 1].to_vec() };
        let blob = parts.iter().flat_map(|p| string(p)).collect();
        let end: usize = s[..n].iter().map(|x| 4 + x.len()).sum();
        Some(Addition { blob, fields: &payload[1..1 + end], comment, rest })
    }
    /// Its bytes in the store.
    pub fn len(&self) -> usize {
        self.blob.len() + self.fields.len() + self.comment.len()
    }
    /// The lifetime in milliseconds. For whole constraints alone.
    pub fn lifetime(&self) -> Option<u64> {
        let mut rest = self.rest;
        while let [2, more @ ..] = rest {
            rest = more;
        }
        (rest.first() == Some(&1)).then(|| 1000 * u32::from_be_bytes(rest[1..5].try_into().unwrap()) as u64)
    }
}

pub struct Entry {
    pub blob: Vec<u8>,
    pub fields: Vec<u8>,
    pub comment: Vec<u8>,
    due: Option<u64>,
}
impl Entry {
    fn len(&self) -> usize {
        self.blob.len() + self.fields.len() + self.comment.len()
    }
}
#[derive(Default)]
pub struct Held(pub Vec<Entry>);

impl Held {
    /// Bytes in the store.
    pub fn len(&self) -> usize {
        self.0.iter().map(Entry::len).sum()
    }
    pub fn expire(&mut self, clock: u64) {
        self.0.retain(|e| e.due.is_none_or(|due| due > clock));
    }
    /// Why there is no room, as the list of differences has it; nothing where there is.
    pub fn no_room(&self, a: &Addition<'_>) -> Option<&'static str> {
        let others = || self.0.iter().filter(|e| e.blob != a.blob);
        let beyond = others().map(Entry::len).sum::<usize>() + a.len() > STORE;
        match others().count() {
            KEYS => Some("17, 25: a 25th key"),
            n if beyond && n == self.0.len() => Some("17, 25: a key beyond 32,768 bytes in all"),
            _ if beyond => Some("17, 25: a held key once more, beyond 32,768 bytes in all"),
            _ => None,
        }
    }
    /// A request that was answered with SUCCESS.
    pub fn land(&mut self, payload: &[u8], clock: u64) {
        match payload {
            [17 | 25, ..] => {
                let a = Addition::of(payload).expect("taken, so it is whole");
                let due = (payload[0] == 25).then(|| a.lifetime()).flatten().map(|life| clock + life);
                let entry = Entry { fields: a.fields.to_vec(), comment: a.comment.to_vec(), due, blob: a.blob };
                match self.0.iter_mut().find(|e| e.blob == entry.blob) {
                    Some(e) => *e = entry,
                    None => self.0.push(entry),
                }
            }
            [18, rest @ ..] => self.0.retain(|e| e.blob != strings(rest, 1).0[0]),
            [19, ..] => self.0.clear(),
            _ => {}
        }
    }
}

#[cfg(test)]
mod tests {
    use super::*;
    use crate::requests::{ed25519_key, rsa_exact};
    use crate::Random;

    fn add(h: &mut Held, fields: &[u8], comment: usize) -> Option<&'static str> {
        let p = [&[17][..], fields, &string(&vec![b'x'; comment])].concat();
        let why = h.no_room(&Addition::of(&p).unwrap());
        if why.is_none() {
            h.land(&p, 0);
        }
        why
    }
    #[test]
    fn room() {
        let (mut r, mut h) = (Random(1), Held::default());
        let full: Vec<_> = (0..8).map(|_| rsa_exact(&mut r, Some(1024), 3072)).collect();
        assert!(full.iter().all(|k| add(&mut h, &k.fields, 0).is_none()));
        assert_eq!(add(&mut h, &full[3].fields, 1), Some("17, 25: a held key once more, beyond 32,768 bytes in all"));
        assert_eq!(add(&mut h, &ed25519_key(&mut r).fields, 0), Some("17, 25: a key beyond 32,768 bytes in all"));
        h.land(&[&[18][..], &string(&full[3].blob)].concat(), 0);
        assert_eq!(h.0.iter().position(|e| e.blob == full[4].blob), Some(3));
        assert!((0..16).all(|_| add(&mut h, &ed25519_key(&mut r).fields, 0).is_none()));
        assert_eq!(h.len(), 7 * 4096 + 16 * 170);
        assert_eq!((add(&mut h, &ed25519_key(&mut r).fields, 9), h.0.len()), (None, 24));
        assert_eq!(add(&mut h, &ed25519_key(&mut r).fields, 0), Some("17, 25: a 25th key"));
        assert_eq!(add(&mut h, &full[4].fields, 255), None);
    }
    #[test]
    fn lifetimes() {
        let (mut r, mut h) = (Random(2), Held::default());
        for (constraints, left) in [(&[2, 1, 0, 0, 0, 2][..], true), (&[1, 0, 0, 0, 1, 2], false), (&[2], true)] {
            h.land(&[&[25][..], &ed25519_key(&mut r).fields, &string(b"c"), constraints].concat(), 500);
            h.expire(1499);
            let n = h.0.len();
            h.expire(1500);
            assert_eq!(h.0.len() == n, left);
        }
    }
}
