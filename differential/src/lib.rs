//! The core behind the oracle's script language, and what the comparison needs beside it.
pub mod both;
pub mod ed25519;
pub mod held;
pub mod requests;
pub mod stale;
pub mod world;

/// A generator of its own (SplitMix64), so that a seed means the same requests everywhere.
pub struct Random(pub u64);
impl Random {
    pub fn next(&mut self) -> u64 {
        self.0 = self.0.wrapping_add(0x9e37_79b9_7f4a_7c15);
        let mut z = self.0;
        z = (z ^ (z >> 30)).wrapping_mul(0xbf58_476d_1ce4_e5b9);
        z = (z ^ (z >> 27)).wrapping_mul(0x94d0_49bb_1331_11eb);
        z ^ (z >> 31)
    }
    pub fn below(&mut self, n: usize) -> usize {
        (self.next() % n as u64) as usize
    }
    /// True n times in a hundred.
    pub fn percent(&mut self, n: usize) -> bool {
        self.below(100) < n
    }
    pub fn pick<'a, T>(&mut self, items: &'a [T]) -> &'a T {
        &items[self.below(items.len())]
    }
    pub fn bytes(&mut self, n: usize) -> Vec<u8> {
        (0..n).map(|_| self.next() as u8).collect()
    }
}

pub fn string(b: &[u8]) -> Vec<u8> {
    [&(b.len() as u32).to_be_bytes()[..], b].concat()
}
pub fn hex(b: &[u8]) -> String {
    const DIGITS: &[u8; 16] = b"0123456789abcdef";
    let mut s = String::with_capacity(b.len() * 2);
    for x in b {
        s.push(DIGITS[(x >> 4) as usize] as char);
        s.push(DIGITS[(x & 15) as usize] as char);
    }
    s
}
pub fn unhex(s: &str) -> Vec<u8> {
    let digit = |c: u8| (c as char).to_digit(16).expect("hex") as u8;
    let s = if s == "-" { "" } else { s };
    s.as_bytes().chunks(2).map(|c| digit(c[0]) << 4 | digit(c[1])).collect()
}
/// The strings at the front of `b`, at most `n`, as far as they are whole; and what is behind them.
pub fn strings(mut b: &[u8], n: usize) -> (Vec<&[u8]>, &[u8]) {
    let mut out = Vec::new();
    while out.len() < n && b.len() >= 4 {
        let k = u32::from_be_bytes(b[..4].try_into().unwrap()) as usize;
        if b.len() - 4 < k {
            break;
        }
        out.push(&b[4..4 + k]);
        b = &b[4 + k..];
    }
    (out, b)
}
/// The items of a list reply, blob and comment each; none of another reply.
pub fn items(f: &[u8]) -> Vec<(&[u8], &[u8])> {
    if f.get(4) != Some(&12) {
        return Vec::new();
    }
    let (s, _) = strings(&f[9..], usize::MAX);
    s.chunks(2).map(|c| (c[0], c[1])).collect()
}
/// A list reply with its items in the order of their bytes; other replies as they stand.
pub fn sorted(f: &[u8]) -> Vec<u8> {
    let mut all: Vec<Vec<u8>> = items(f).iter().map(|(b, c)| [string(b), string(c)].concat()).collect();
    all.sort();
    if all.is_empty() {
        f.to_vec()
    } else {
        [&f[..9], &all.concat()].concat()
    }
}
/// A line of answer, a list's with each comment empty, as the Rust has it; other lines as they stand.
pub fn without_comments(line: &str) -> String {
    if line.len() <= 24 || &line[14..16] != "0c" {
        return line.to_string();
    }
    let reply = unhex(&line[6..]);
    let all: Vec<u8> = items(&reply).iter().flat_map(|(b, _)| [string(b), string(b"")].concat()).collect();
    format!("reply {}", hex(&string(&[&reply[4..9], &all].concat())))
}

#[cfg(test)]
mod tests {
    use super::*;
    #[test]
    fn lists() {
        let list = |items: &[(&str, &str)]| {
            let all: Vec<u8> = items.iter().flat_map(|(b, c)| [string(b.as_bytes()), string(c.as_bytes())].concat()).collect();
            string(&[&[12][..], &(items.len() as u32).to_be_bytes(), &all].concat())
        };
        let line = |f: Vec<u8>| format!("reply {}", hex(&f));
        let full = list(&[("zz", "温室"), ("a", ""), ("ab", "c")]);
        assert_eq!(items(&full), [(&b"zz"[..], "温室".as_bytes()), (b"a", b""), (b"ab", b"c")]);
        assert_eq!(sorted(&full), list(&[("a", ""), ("ab", "c"), ("zz", "温室")]));
        assert_eq!(without_comments(&line(full)), line(list(&[("zz", ""), ("a", ""), ("ab", "")])));
        for other in ["reply 0000000105", "close", "ask gate 1", &line(list(&[])), &line(string(&[&[14][..], &string(b"sig")].concat()))] {
            assert_eq!(without_comments(other), other);
        }
        assert!(items(&string(&[5])).is_empty() && sorted(&list(&[])) == list(&[]));
    }
}
