//! Random requests: keys of all five kinds that the library accepts, every message, and damaged copies of them.
use crate::{ed25519, string, Random};

/// Key fields and public blob.
#[derive(Clone)]
pub struct Key {
    pub fields: Vec<u8>,
    pub blob: Vec<u8>,
}
fn join(parts: &[&[u8]]) -> Vec<u8> {
    parts.iter().flat_map(|p| string(p)).collect()
}
/// A positive mpint of `n` bytes, sign byte not counted.
fn number(r: &mut Random, n: usize) -> Vec<u8> {
    let mut b = r.bytes(n);
    if b[0] == 0 {
        b[0] = 1;
    }
    if b[0] >= 128 {
        b.insert(0, 0);
    }
    b
}
pub fn ed25519_key(r: &mut Random) -> Key {
    let seed: [u8; 32] = r.bytes(32).try_into().unwrap();
    let a = ed25519::public(&seed);
    Key { fields: join(&[b"ssh-ed25519", &a, &[seed, a].concat()]), blob: join(&[b"ssh-ed25519", &a]) }
}
pub fn ecdsa_key(r: &mut Random) -> Key {
    let (curve, size) = *r.pick(&[("nistp256", 32), ("nistp384", 48), ("nistp521", 66)]);
    let t = format!("ecdsa-sha2-{curve}");
    let q = [vec![4], r.bytes(2 * size)].concat();
    // shorter ones too, down to where the library stops
    let short = if r.percent(20) { r.below(size - 31) } else { 0 };
    let mut d = number(r, size - short);
    if d.len() < 32 {
        d = number(r, 32);
    }
    let blob = join(&[t.as_bytes(), curve.as_bytes(), &q]);
    Key { fields: [blob.clone(), string(&d)].concat(), blob }
}
/// n of this many bytes, the others in proportion.
pub fn rsa_key(r: &mut Random, n: usize) -> Key {
    let e = if r.percent(80) { vec![1, 0, 1] } else { number(r, 4) };
    let (n, d, i, p, q) = (number(r, n), number(r, n), number(r, n / 2), number(r, n / 2), number(r, n / 2));
    Key { fields: join(&[b"ssh-rsa", &n, &e, &d, &i, &p, &q]), blob: join(&[b"ssh-rsa", &e, &n]) }
}
/// An RSA key whose blob or fields have exactly this length.
pub fn rsa_exact(r: &mut Random, blob: Option<usize>, fields: usize) -> Key {
    let small = |r: &mut Random, n: usize| {
        let mut b = r.bytes(n);
        b[0] = 1 + b[0] % 127;
        b
    };
    let e = vec![1, 0, 1];
    let n = small(r, blob.unwrap_or(500) - 4 - 7 - 4 - 3 - 4);
    let used = 7 * 4 + 7 + 3 + n.len() + 3;
    let d = small(r, fields - used);
    let one = vec![3];
    Key { fields: join(&[b"ssh-rsa", &n, &e, &d, &one, &one, &one]), blob: join(&[b"ssh-rsa", &e, &n]) }
}
/// A key of any kind, all within 01's limits.
pub fn any_key(r: &mut Random) -> Key {
    match r.below(10) {
        0..=3 => ed25519_key(r),
        4..=6 => ecdsa_key(r),
        7 => {
            let (b, f) = (Some(1000 + r.below(25)), 3000 + r.below(73));
            let b = if r.percent(50) { b } else { None };
            rsa_exact(r, b, f)
        }
        _ => {
            let n = *r.pick(&[1usize, 8, 64, 128, 128, 256, 384, 512]);
            rsa_key(r, n.max(2))
        }
    }
}
/// A comment that is kept: UTF-8 of at most 255 bytes.
pub fn comment(r: &mut Random) -> Vec<u8> {
    string(text(r).as_bytes())
}
/// A comment of this length.
pub fn text_of(n: usize) -> Vec<u8> {
    string(&vec![b'x'; n])
}
fn text(r: &mut Random) -> String {
    match r.below(10) {
        0..=5 => r.pick(&["", "", "c", "technician", "Gewächshaus 3", "温室", "a\0b", "🌱"]).to_string(),
        6 => "x".repeat(255),
        7 => r.pick(&["é", "温", "🌱"]).repeat(30 + r.below(33)),
        8 => "é".repeat(127) + "x",
        _ => (0..r.below(256)).map(|_| (r.next() % 128) as u8 as char).collect(),
    }
}
/// One that is not UTF-8, of any length.
pub fn no_text(r: &mut Random) -> Vec<u8> {
    let bad = *r.pick(&[&b"\xff"[..], b"\xc0\x80", b"\xed\xa0\x80", b"\xf4\x90\x80\x80", b"\xe2\x82", b"\x80"]);
    let front = if r.percent(50) { text(r) } else { "x".repeat(250 + r.below(8)) };
    string(&[front.as_bytes(), bad].concat())
}
/// One of more than 255 bytes.
fn long_text(r: &mut Random) -> Vec<u8> {
    string(r.pick(&["x".repeat(256), "x".repeat(257), "é".repeat(128), "温".repeat(86), "\0".repeat(256), "x".repeat(5_000)]).as_bytes())
}
fn any_comment(r: &mut Random) -> Vec<u8> {
    if r.percent(3) {
        no_text(r)
    } else {
        comment(r)
    }
}
/// Constraints of a 25.
pub fn constraints(r: &mut Random) -> Vec<u8> {
    let life = |r: &mut Random| {
        let s: u32 = *r.pick(&[0, 1, 1, 1, 2, 2, 3, 5, 60, 86_400, u32::MAX]);
        [&[1][..], &s.to_be_bytes()].concat()
    };
    match r.below(10) {
        0 => vec![],
        1 | 2 => vec![2],
        3 => vec![2, 2],
        4 | 5 => life(r),
        6 => [life(r), vec![2]].concat(),
        7 => [vec![2], life(r)].concat(),
        8 => [life(r), vec![2, 2]].concat(),
        _ => match r.below(6) {
            0 => [life(r), life(r)].concat(),
            1 => vec![255],
            2 => [life(r), vec![255]].concat(),
            3 => life(r)[..1 + r.below(4)].to_vec(),
            4 => vec![r.next() as u8],
            _ => [vec![2], life(r), vec![1, 0]].concat(),
        },
    }
}
pub fn passphrase(r: &mut Random) -> Vec<u8> {
    match r.below(12) {
        0 => vec![],
        1 => b"abcd".to_vec(),
        2 => b"cd".to_vec(),
        3 => {
            let n = 1 + r.below(40);
            vec![0; n]
        }
        4 => {
            let n = *r.pick(&[1023usize, 1024, 1024, 300]);
            vec![7; n]
        }
        _ => b"ab".to_vec(),
    }
}
fn trailing(r: &mut Random, mut p: Vec<u8>) -> Vec<u8> {
    if r.percent(10) {
        let n = 1 + r.below(5);
        p.extend(r.bytes(n));
    }
    p
}
/// A whole request over these keys.
pub fn whole(r: &mut Random, keys: &[Key]) -> Vec<u8> {
    let k = r.pick(keys).clone();
    match r.below(100) {
        0..=7 => trailing(r, vec![11]),
        8..=24 => {
            let p = [vec![17], k.fields, any_comment(r)].concat();
            trailing(r, p)
        }
        25..=41 => [vec![25], k.fields, any_comment(r), constraints(r)].concat(),
        42..=50 => {
            let p = [vec![18], string(&k.blob)].concat();
            trailing(r, p)
        }
        51 => trailing(r, vec![19]),
        52..=83 => {
            let flags = *r.pick(&[0u32, 0, 0, 1, 2, 4, 6, 7, 0xffff_fffb, 0x0200_0000]);
            let n = *r.pick(&[0usize, 1, 4, 20, 100, 300, 1900]);
            let data = r.bytes(n);
            let p = [vec![13], string(&k.blob), string(&data), flags.to_be_bytes().to_vec()].concat();
            trailing(r, p)
        }
        84..=86 => {
            let p = [vec![22], string(&passphrase(r))].concat();
            trailing(r, p)
        }
        87..=95 => {
            let p = [vec![23], string(&if r.percent(60) { b"ab".to_vec() } else { passphrase(r) })].concat();
            trailing(r, p)
        }
        96 => vec![],
        _ => {
            let n = r.below(8);
            let first = *r.pick(&[0u8, 1, 5, 6, 9, 10, 12, 14, 20, 21, 26, 27, 28, 200, 255]);
            [vec![first], r.bytes(n)].concat()
        }
    }
}
/// A request that 01 and the Rust are known to answer differently, or that lies close to one.
pub fn special(r: &mut Random, keys: &[Key]) -> Vec<u8> {
    let fs = |k: &Key| -> Vec<Vec<u8>> { crate::strings(&k.fields, 7).0.iter().map(|s| s.to_vec()).collect() };
    let put = |f: Vec<Vec<u8>>| [vec![17], f.iter().flat_map(|s| string(s)).collect(), string(b"c")].concat();
    match r.below(18) {
        0 => {
            let mut f = fs(&ed25519_key(r));
            let i = 1 + r.below(2);
            f[i].push(0);
            put(f)
        }
        1 => {
            let mut f = fs(&ecdsa_key(r));
            let half = f[2].len() / 2;
            f[2].truncate(half + 1);
            f[2][0] = 2 + r.below(2) as u8;
            put(f)
        }
        2 => {
            let mut f = fs(&ecdsa_key(r));
            let size = (f[2].len() - 1) / 2;
            f[3] = match r.below(5) {
                0 => [vec![129], r.bytes(size - 1)].concat(),
                1 => [vec![0, 1], r.bytes(size - 1)].concat(),
                2 => [vec![0, 0], r.bytes(size - 2)].concat(),
                3 => vec![0; size],
                _ => number(r, size - 1),
            };
            put(f)
        }
        3 => {
            let mut f = fs(&rsa_key(r, 64));
            f[0] = r.pick(&[&b"rsa-sha2-256"[..], b"rsa-sha2-512", b"ssh-rsa2", b"SSH-RSA", b"ssh-rsa@x.y"]).to_vec();
            put(f)
        }
        4 => {
            let mut f = fs(r.pick(keys));
            f[0] = r.pick(&[&b"ssh-dss"[..], b"foo@example.com", b"ssh-foo", b"", b"\xff", b"ssh-ed25519", b"ecdsa-sha2-nistp256", b"ssh-rsa"]).to_vec();
            put(f)
        }
        5 => [vec![22], string(&vec![7; 1025 + r.below(3)])].concat(),
        6 => {
            let k = rsa_exact(r, Some(1025), 3072);
            [vec![17], k.fields, string(b"")].concat()
        }
        7 => {
            let k = rsa_exact(r, None, 3073);
            [vec![17], k.fields, string(b"")].concat()
        }
        8 => {
            // a seed that does not give A: the key check says no
            let mut f = fs(&ed25519_key(r));
            f[2][r.below(32)] ^= 1 << r.below(8);
            put(f)
        }
        9 => {
            // shorter numbers than the library takes
            let mut f = fs(&ecdsa_key(r));
            let n = 1 + r.below(31);
            f[3] = number(r, n);
            put(f)
        }
        10 => {
            let mut f = fs(&rsa_key(r, 64));
            let i = 1 + r.below(6);
            f[i] = match r.below(5) {
                0 => vec![],
                1 => vec![0],
                2 => [vec![0], f[i].clone()].concat(),
                3 => [vec![255], f[i].clone()].concat(),
                _ => vec![1],
            };
            put(f)
        }
        11 => {
            let k = r.pick(keys);
            let n = 2048 - 40 + r.below(80);
            [vec![13], string(&k.blob), string(&vec![5; n]), vec![0; 4]].concat()
        }
        12 => {
            let mut f = fs(&ecdsa_key(r));
            f[1] = r.pick(&[&b"nistp256"[..], b"nistp384", b"nistp521", b"nistp224", b""]).to_vec();
            put(f)
        }
        13 => {
            let mut f = fs(&ed25519_key(r));
            f[2][32 + r.below(32)] ^= 1;
            put(f)
        }
        14 => {
            let mut f = fs(&ecdsa_key(r));
            match r.below(4) {
                0 => f[2].push(0),
                1 => drop(f[2].pop()),
                2 => f[2] = vec![0],
                _ => f[2][0] = r.next() as u8,
            }
            put(f)
        }
        15 => [vec![17], r.pick(keys).fields.clone(), string(b"\xf4\x8f\xbf\xbf")].concat(),
        16 => [vec![17], r.pick(keys).fields.clone(), long_text(r)].concat(),
        _ => [vec![25], r.pick(keys).fields.clone(), long_text(r), constraints(r)].concat(),
    }
}
/// A damaged copy.
pub fn damaged(r: &mut Random, mut p: Vec<u8>) -> Vec<u8> {
    for _ in 0..1 + r.below(2) {
        if p.is_empty() {
            p.push(r.next() as u8);
            continue;
        }
        let at = r.below(p.len());
        match r.below(8) {
            0 => p.truncate(at),
            1 => p[at] ^= 1 << r.below(8),
            2 => p[at] = r.next() as u8,
            3 => p.insert(at, r.next() as u8),
            4 => drop(p.remove(at)),
            5 => {
                // a length, or what may be one
                let at = [1usize, 5, 16, 20, 52].into_iter().filter(|a| a + 4 <= p.len()).last().unwrap_or(0).min(at);
                if at + 4 <= p.len() {
                    let v = u32::from_be_bytes(p[at..at + 4].try_into().unwrap());
                    let w = *r.pick(&[v.wrapping_add(1), v.wrapping_sub(1), 0, u32::MAX, v << 8]);
                    p[at..at + 4].copy_from_slice(&w.to_be_bytes());
                }
            }
            6 => {
                let n = r.below(p.len() - at + 1).min(40);
                let part = p[at..at + n].to_vec();
                p.splice(at..at, part);
            }
            _ => {
                let n = p.len() - 1 - r.below(p.len().min(6));
                p.truncate(n);
            }
        }
    }
    p
}
