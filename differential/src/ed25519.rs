//! The public key of an Ed25519 seed (RFC 8032), for the key check: ssh-key accepts an Ed25519 key exactly when its seed gives A. Not for
//! secrets: it takes its time by the bits.

#[rustfmt::skip]
const K: [u64; 80] = [
    0x428a2f98d728ae22, 0x7137449123ef65cd, 0xb5c0fbcfec4d3b2f, 0xe9b5dba58189dbbc,
    0x3956c25bf348b538, 0x59f111f1b605d019, 0x923f82a4af194f9b, 0xab1c5ed5da6d8118,
    0xd807aa98a3030242, 0x12835b0145706fbe, 0x243185be4ee4b28c, 0x550c7dc3d5ffb4e2,
    0x72be5d74f27b896f, 0x80deb1fe3b1696b1, 0x9bdc06a725c71235, 0xc19bf174cf692694,
    0xe49b69c19ef14ad2, 0xefbe4786384f25e3, 0x0fc19dc68b8cd5b5, 0x240ca1cc77ac9c65,
    0x2de92c6f592b0275, 0x4a7484aa6ea6e483, 0x5cb0a9dcbd41fbd4, 0x76f988da831153b5,
    0x983e5152ee66dfab, 0xa831c66d2db43210, 0xb00327c898fb213f, 0xbf597fc7beef0ee4,
    0xc6e00bf33da88fc2, 0xd5a79147930aa725, 0x06ca6351e003826f, 0x142929670a0e6e70,
    0x27b70a8546d22ffc, 0x2e1b21385c26c926, 0x4d2c6dfc5ac42aed, 0x53380d139d95b3df,
    0x650a73548baf63de, 0x766a0abb3c77b2a8, 0x81c2c92e47edaee6, 0x92722c851482353b,
    0xa2bfe8a14cf10364, 0xa81a664bbc423001, 0xc24b8b70d0f89791, 0xc76c51a30654be30,
    0xd192e819d6ef5218, 0xd69906245565a910, 0xf40e35855771202a, 0x106aa07032bbd1b8,
    0x19a4c116b8d2d0c8, 0x1e376c085141ab53, 0x2748774cdf8eeb99, 0x34b0bcb5e19b48a8,
    0x391c0cb3c5c95a63, 0x4ed8aa4ae3418acb, 0x5b9cca4f7763e373, 0x682e6ff3d6b2b8a3,
    0x748f82ee5defb2fc, 0x78a5636f43172f60, 0x84c87814a1f0ab72, 0x8cc702081a6439ec,
    0x90befffa23631e28, 0xa4506cebde82bde9, 0xbef9a3f7b2c67915, 0xc67178f2e372532b,
    0xca273eceea26619c, 0xd186b8c721c0c207, 0xeada7dd6cde0eb1e, 0xf57d4f7fee6ed178,
    0x06f067aa72176fba, 0x0a637dc5a2c898a6, 0x113f9804bef90dae, 0x1b710b35131c471b,
    0x28db77f523047d84, 0x32caab7b40c72493, 0x3c9ebe0a15c9bebc, 0x431d67c49c100d4c,
    0x4cc5d4becb3e42b6, 0x597f299cfc657e2a, 0x5fcb6fab3ad6faec, 0x6c44198c4a475817,
];
#[rustfmt::skip]
const H: [u64; 8] = [
    0x6a09e667f3bcc908, 0xbb67ae8584caa73b, 0x3c6ef372fe94f82b, 0xa54ff53a5f1d36f1,
    0x510e527fade682d1, 0x9b05688c2b3e6c1f, 0x1f83d9abfb41bd6b, 0x5be0cd19137e2179,
];

/// SHA-512 (FIPS 180-4).
pub fn sha512(message: &[u8]) -> [u8; 64] {
    let mut h = H;
    let mut m = message.to_vec();
    m.push(0x80);
    while m.len() % 128 != 112 {
        m.push(0);
    }
    m.extend((message.len() as u128 * 8).to_be_bytes());
    for block in m.chunks(128) {
        let mut w = [0u64; 80];
        for (i, x) in block.chunks(8).enumerate() {
            w[i] = u64::from_be_bytes(x.try_into().unwrap());
        }
        for i in 16..80 {
            let (a, b) = (w[i - 15], w[i - 2]);
            let s0 = a.rotate_right(1) ^ a.rotate_right(8) ^ (a >> 7);
            let s1 = b.rotate_right(19) ^ b.rotate_right(61) ^ (b >> 6);
            w[i] = w[i - 16].wrapping_add(s0).wrapping_add(w[i - 7]).wrapping_add(s1);
        }
        let mut v = h;
        for i in 0..80 {
            let [a, b, c, _, e, f, g, _] = v;
            let s1 = e.rotate_right(14) ^ e.rotate_right(18) ^ e.rotate_right(41);
            let t1 = v[7].wrapping_add(s1).wrapping_add((e & f) ^ (!e & g)).wrapping_add(K[i]).wrapping_add(w[i]);
            let s0 = a.rotate_right(28) ^ a.rotate_right(34) ^ a.rotate_right(39);
            let t2 = s0.wrapping_add((a & b) ^ (a & c) ^ (b & c));
            v = [t1.wrapping_add(t2), a, b, c, v[3].wrapping_add(t1), e, f, g];
        }
        for (x, y) in h.iter_mut().zip(v) {
            *x = x.wrapping_add(y);
        }
    }
    let mut out = [0; 64];
    for (o, x) in out.chunks_mut(8).zip(h) {
        o.copy_from_slice(&x.to_be_bytes());
    }
    out
}

/// A number modulo 2^255 - 19, five limbs of 51 bits.
type F = [u64; 5];
const MASK: u64 = (1 << 51) - 1;
const D2: F = [0x69b9426b2f159, 0x35050762add7a, 0x3cf44c0038052, 0x6738cc7407977, 0x2406d9dc56dff];
const BX: F = [0x62d608f25d51a, 0x412a4b4f6592a, 0x75b7171a4b31d, 0x1ff60527118fe, 0x216936d3cd6e5];
const BY: F = [0x6666666666658, 0x4cccccccccccc, 0x1999999999999, 0x3333333333333, 0x6666666666666];
const BT: F = [0x68ab3a5b7dda3, 0xeea2a5eadbb, 0x2af8df483c27e, 0x332b375274732, 0x67875f0fd78b7];

fn carry(mut a: F) -> F {
    let mut c = 0;
    for x in a.iter_mut() {
        *x += c;
        c = *x >> 51;
        *x &= MASK;
    }
    a[0] += 19 * c;
    a
}
fn add(a: F, b: F) -> F {
    carry(std::array::from_fn(|i| a[i] + b[i]))
}
fn sub(a: F, b: F) -> F {
    // four times the modulus keeps every limb positive
    const P4: F = [4 * (MASK - 18), 4 * MASK, 4 * MASK, 4 * MASK, 4 * MASK];
    carry(std::array::from_fn(|i| a[i] + P4[i] - b[i]))
}
fn mul(a: F, b: F) -> F {
    let mut t = [0u128; 5];
    for i in 0..5 {
        for j in 0..5 {
            let x = a[i] as u128 * b[j] as u128;
            if i + j < 5 {
                t[i + j] += x;
            } else {
                t[i + j - 5] += 19 * x;
            }
        }
    }
    let mut r = [0; 5];
    let mut c = 0u128;
    for i in 0..5 {
        let x = t[i] + c;
        r[i] = x as u64 & MASK;
        c = x >> 51;
    }
    r[0] += 19 * c as u64;
    carry(r)
}
fn invert(a: F) -> F {
    // a^(p-2); p - 2 = 2^255 - 21 has all bits set but 2 and 4
    let mut r = [1, 0, 0, 0, 0];
    for i in (0..255).rev() {
        r = mul(r, r);
        if i != 2 && i != 4 {
            r = mul(r, a);
        }
    }
    r
}
fn bytes(a: F) -> [u8; 32] {
    let mut a = carry(carry(a));
    // a is below 2^255 + a little: take the modulus off if a + 19 reaches 2^255
    for _ in 0..2 {
        let mut q = a;
        q[0] += 19;
        for i in 0..4 {
            q[i + 1] += q[i] >> 51;
            q[i] &= MASK;
        }
        if q[4] >> 51 != 0 {
            q[4] &= MASK;
            a = q;
        }
    }
    let mut out = [0; 32];
    for bit in 0..255 {
        out[bit / 8] |= ((a[bit / 51] >> (bit % 51) & 1) as u8) << (bit % 8);
    }
    out
}
/// Extended coordinates (X, Y, Z, T).
type P = [F; 4];
fn plus(p: P, q: P) -> P {
    let a = mul(sub(p[1], p[0]), sub(q[1], q[0]));
    let b = mul(add(p[1], p[0]), add(q[1], q[0]));
    let c = mul(mul(p[3], q[3]), D2);
    let d = mul(add(p[2], p[2]), q[2]);
    let (e, f, g, h) = (sub(b, a), sub(d, c), add(d, c), add(b, a));
    [mul(e, f), mul(g, h), mul(f, g), mul(e, h)]
}
/// A for a seed.
pub fn public(seed: &[u8; 32]) -> [u8; 32] {
    let h = sha512(seed);
    let mut s: [u8; 32] = h[..32].try_into().unwrap();
    s[0] &= 248;
    s[31] = s[31] & 127 | 64;
    let one = [1, 0, 0, 0, 0];
    let mut r: P = [[0; 5], one, one, [0; 5]];
    for bit in (0..255).rev() {
        r = plus(r, r);
        if s[bit / 8] >> (bit % 8) & 1 == 1 {
            r = plus(r, [BX, BY, one, BT]);
        }
    }
    let z = invert(r[2]);
    let mut out = bytes(mul(r[1], z));
    out[31] |= (bytes(mul(r[0], z))[0] & 1) << 7;
    out
}

#[cfg(test)]
mod tests {
    fn hex(s: &str) -> [u8; 32] {
        std::array::from_fn(|i| u8::from_str_radix(&s[2 * i..2 * i + 2], 16).unwrap())
    }
    // RFC 8032, 7.1
    #[test]
    fn rfc8032() {
        for (seed, a) in [
            ("9d61b19deffd5a60ba844af492ec2cc44449c5697b326919703bac031cae7f60", "d75a980182b10ab7d54bfed3c964073a0ee172f3daa62325af021a68f707511a"),
            ("4ccd089b28ff96da9db6c346ec114e0f5b8a319f35aba624da8cf6ed4fb8a6fb", "3d4017c3e843895a92b70aa74d1b7ebc9c982ccf2ec4968cc0cd55f12af4660c"),
            ("c5aa8df43f9f837bedb7442f31dcb7b166d38535076f094b85ce3a2e0b4458f7", "fc51cd8e6218a1a38da47ed00230f0580816ed13ba3303ac5deb911548908025"),
        ] {
            assert_eq!(super::public(&hex(seed)), hex(a));
        }
    }
}
