//! Sets of keys to hold, from a fixed seed, with fields and blobs of true lengths. Ed25519 keys are true ones, which russh looks at; of the others
//! nobody here looks whether their numbers fit, and they are chance.
#[path = "../../differential/src/ed25519.rs"]
mod ed25519;

/// How many of which; of those that need more room than 24 take, as many as are held.
#[rustfmt::skip]
pub const SETS: [&str; 10] = [
    "8-ed25519", "8-p256", "8-rsa-2048", "8-mixed", "24-ed25519", "24-p256", "24-rsa-2048", "18-rsa-3072", "13-rsa-4096", "24-mixed",
];
const MIX: [&str; 12] = ["ed25519", "p256", "rsa-2048", "ed25519", "p256", "rsa-3072", "ed25519", "p256", "rsa-2048", "p384", "p521", "rsa-4096"];
/// Of ten bytes.
pub const COMMENT: &[u8] = b"technician";

#[derive(Clone)]
pub struct Key {
    pub kind: &'static [u8],
    pub fields: Vec<u8>,
    pub blob: Vec<u8>,
}
pub fn s(b: &[u8]) -> Vec<u8> {
    [&(b.len() as u32).to_be_bytes()[..], b].concat()
}
fn join(parts: &[&[u8]]) -> Vec<u8> {
    parts.iter().flat_map(|p| s(p)).collect()
}

/// SplitMix64.
struct Chance(u64);
impl Chance {
    fn bytes(&mut self, n: usize) -> Vec<u8> {
        let mut next = || {
            self.0 = self.0.wrapping_add(0x9e37_79b9_7f4a_7c15);
            let z = (self.0 ^ (self.0 >> 30)).wrapping_mul(0xbf58_476d_1ce4_e5b9);
            let z = (z ^ (z >> 27)).wrapping_mul(0x94d0_49bb_1331_11eb);
            (z ^ (z >> 31)) as u8
        };
        (0..n).map(|_| next()).collect()
    }
    /// A positive mpint of this many bytes in all; odd, as an RSA key's are.
    fn number(&mut self, n: usize) -> Vec<u8> {
        let mut b = self.bytes(n);
        b[n - 1] |= 1;
        if n % 2 == 1 {
            (b[0], b[1]) = (0, b[1] | 128);
        } else {
            b[0] = b[0] & 127 | 64;
        }
        b
    }
    fn ecdsa(&mut self, kind: &'static [u8], size: usize) -> Key {
        let q = [vec![4], self.bytes(2 * size)].concat();
        let blob = join(&[kind, &kind[11..], &q]);
        let d = self.number(size);
        Key { kind, fields: [blob.clone(), s(&d)].concat(), blob }
    }
    /// Lengths as OpenSSH's keys have them: n and the primes with a sign byte, d without.
    fn rsa(&mut self, size: usize, inverse: usize) -> Key {
        let (n, e, d, i) = (self.number(size + 1), [1, 0, 1], self.number(size), self.number(inverse));
        let (p, q) = (self.number(size / 2 + 1), self.number(size / 2 + 1));
        Key { kind: b"ssh-rsa", fields: join(&[b"ssh-rsa", &n, &e, &d, &i, &p, &q]), blob: join(&[b"ssh-rsa", &e, &n]) }
    }
    fn key(&mut self, kind: &str) -> Key {
        match kind {
            "ed25519" => {
                let seed: [u8; 32] = self.bytes(32).try_into().unwrap();
                let a = ed25519::public(&seed);
                let kind = b"ssh-ed25519";
                Key { kind, fields: join(&[kind, &a, &[seed, a].concat()]), blob: join(&[kind, &a]) }
            }
            "p256" => self.ecdsa(b"ecdsa-sha2-nistp256", 32),
            "p384" => self.ecdsa(b"ecdsa-sha2-nistp384", 48),
            "p521" => self.ecdsa(b"ecdsa-sha2-nistp521", 66),
            "rsa-2048" => self.rsa(256, 128),
            "rsa-3072" => self.rsa(384, 193),
            "rsa-4096" => self.rsa(512, 256),
            _ => panic!("unknown kind {kind}"),
        }
    }
}

pub fn set(name: &str) -> Vec<Key> {
    let (count, kind) = name.split_once('-').expect("COUNT-KIND");
    let mut chance = Chance(112);
    let keys: Vec<_> = (0..count.parse().expect("COUNT")).map(|i| chance.key(if kind == "mixed" { MIX[i % MIX.len()] } else { kind })).collect();
    let bytes: usize = keys.iter().map(|k| k.blob.len() + k.fields.len() + COMMENT.len()).sum();
    assert!(keys.len() <= crate::table::ENTRIES && bytes <= crate::table::STORE, "{name} are not held at once");
    keys
}
