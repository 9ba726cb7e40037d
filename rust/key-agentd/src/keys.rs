//! Key mathematics, which the core leaves outside, by libcrypto: the key check and the signatures.
//!
//! A key comes as its key fields, the form in which an add request carries it (draft-ietf-sshm-ssh-agent, section 3.2); the core has cut them
//! out of the request and found them well formed. A signature goes out as its blob (RFC 4253, RFC 5656, RFC 8332, RFC 8709).
use key_agent::Hash;
use openssl::bn::{BigNum, BigNumContext, BigNumContextRef, BigNumRef};
use openssl::ec::{EcGroup, EcKey, EcPoint};
use openssl::ecdsa::EcdsaSig;
use openssl::error::ErrorStack;
use openssl::hash::{hash, MessageDigest};
use openssl::nid::Nid;
use openssl::pkey::{Id, PKey, Private};
use openssl::rsa::Rsa;
use openssl::sign::{Signer, Verifier};
use std::fmt;

/// As OpenSSH has it: a shorter modulus is no key.
const LEAST_RSA_BITS: i32 = 1024;

/// Why fields are no key, or nothing is signed.
#[derive(Debug)]
pub enum Fault {
    Fields,
    Apart(&'static str),
    Library(ErrorStack),
}

impl From<ErrorStack> for Fault {
    fn from(e: ErrorStack) -> Fault {
        Fault::Library(e)
    }
}

impl fmt::Display for Fault {
    fn fmt(&self, f: &mut fmt::Formatter<'_>) -> fmt::Result {
        match self {
            Fault::Fields => write!(f, "not the fields of a key"),
            Fault::Apart(why) => write!(f, "{why}"),
            Fault::Library(e) => write!(f, "{}", e.errors().first().and_then(|e| e.reason()).unwrap_or("the library says no")),
        }
    }
}

type Answer<T> = Result<T, Fault>;

/// What signs, derived from key fields. Freed, libcrypto zeroes it.
pub enum Key {
    Ed25519(PKey<Private>),
    Ecdsa(Curve, EcKey<Private>),
    Rsa(PKey<Private>),
}

#[derive(Clone, Copy, PartialEq, Eq, Debug)]
pub enum Curve {
    P256,
    P384,
    P521,
}

impl Curve {
    fn named(kind: &[u8]) -> Option<Curve> {
        match kind {
            b"ecdsa-sha2-nistp256" => Some(Curve::P256),
            b"ecdsa-sha2-nistp384" => Some(Curve::P384),
            b"ecdsa-sha2-nistp521" => Some(Curve::P521),
            _ => None,
        }
    }

    fn kind(self) -> &'static str {
        match self {
            Curve::P256 => "ecdsa-sha2-nistp256",
            Curve::P384 => "ecdsa-sha2-nistp384",
            Curve::P521 => "ecdsa-sha2-nistp521",
        }
    }

    fn nid(self) -> Nid {
        match self {
            Curve::P256 => Nid::X9_62_PRIME256V1,
            Curve::P384 => Nid::SECP384R1,
            Curve::P521 => Nid::SECP521R1,
        }
    }

    /// RFC 5656: the hash goes with the curve.
    fn digest(self) -> MessageDigest {
        match self {
            Curve::P256 => MessageDigest::sha256(),
            Curve::P384 => MessageDigest::sha384(),
            Curve::P521 => MessageDigest::sha512(),
        }
    }
}

/// The strings that stand one behind the other.
fn strings(mut bytes: &[u8]) -> Answer<Vec<&[u8]>> {
    let mut found = Vec::with_capacity(7);
    while !bytes.is_empty() {
        let prefix = bytes.get(..4).ok_or(Fault::Fields)?;
        let len = u32::from_be_bytes([prefix[0], prefix[1], prefix[2], prefix[3]]) as usize;
        found.push(bytes.get(4..4 + len).ok_or(Fault::Fields)?);
        bytes = &bytes[4 + len..];
    }
    Ok(found)
}

/// A number whose memory is zeroed when it is freed.
fn number(bytes: &[u8]) -> Answer<BigNum> {
    let mut n = BigNum::new_secure()?;
    n.copy_from_slice(bytes)?;
    Ok(n)
}

fn less_one(n: &BigNumRef) -> Answer<BigNum> {
    let (mut less, mut one) = (BigNum::new_secure()?, BigNum::new()?);
    one.add_word(1)?;
    less.checked_sub(n, &one)?;
    Ok(less)
}

fn remainder(n: &BigNumRef, by: &BigNumRef, ctx: &mut BigNumContextRef) -> Answer<BigNum> {
    let mut r = BigNum::new_secure()?;
    r.checked_rem(n, by, ctx)?;
    Ok(r)
}

/// Is a b = 1 modulo m?
fn are_inverse(a: &BigNumRef, b: &BigNumRef, m: &BigNumRef, ctx: &mut BigNumContextRef) -> Answer<bool> {
    let mut r = BigNum::new_secure()?;
    r.mod_mul(a, b, m, ctx)?;
    Ok(r.num_bits() == 1)
}

impl Key {
    /// The key of these fields. Only those that `check` has said yes to are handed in.
    pub fn load(fields: &[u8]) -> Answer<Key> {
        match strings(fields)?[..] {
            [b"ssh-ed25519", _, pair] if pair.len() == 64 => Ok(Key::Ed25519(PKey::private_key_from_raw_bytes(&pair[..32], Id::ED25519)?)),
            [b"ssh-rsa", n, e, d, iqmp, p, q] => load_rsa([n, e, d, iqmp, p, q]),
            [kind, _, point, d] => load_ecdsa(Curve::named(kind).ok_or(Fault::Fields)?, point, d),
            _ => Err(Fault::Fields),
        }
    }

    /// Are these the fields of a key whose halves belong together?
    pub fn check(fields: &[u8]) -> Answer<Key> {
        let parts = strings(fields)?;
        let key = Key::load(fields)?;
        match (&key, &parts[..]) {
            (Key::Ed25519(k), [_, a, _]) if k.raw_public_key()? != *a => Err(Fault::Apart("the seed gives another public key")),
            (Key::Ed25519(_), _) => Ok(key),
            (Key::Ecdsa(_, k), _) => k.check_key().map_err(|_| Fault::Apart("d gives another public key")).map(|_| key),
            (Key::Rsa(k), [_, n, e, d, iqmp, p, q]) => check_rsa(k, [n, e, d, iqmp, p, q]).map(|_| key),
            _ => Err(Fault::Fields),
        }
    }

    pub fn kind(&self) -> &'static str {
        match self {
            Key::Ed25519(_) => "ssh-ed25519",
            Key::Ecdsa(curve, _) => curve.kind(),
            Key::Rsa(_) => "ssh-rsa",
        }
    }

    /// The signature blob. The hash is RSA's choice alone; the other kinds have one each.
    pub fn sign(&self, data: &[u8], choice: Hash) -> Answer<Vec<u8>> {
        match self {
            Key::Ed25519(key) => Ok(blob(self.kind(), &Signer::new_without_digest(key)?.sign_oneshot_to_vec(data)?)),
            Key::Ecdsa(curve, key) => {
                let signature = EcdsaSig::sign(&hash(curve.digest(), data)?, key)?;
                Ok(blob(curve.kind(), &[mpint(signature.r()), mpint(signature.s())].concat()))
            }
            Key::Rsa(key) => {
                let (name, digest) = rsa_hash(choice);
                let mut signer = Signer::new(digest, key)?;
                signer.update(data)?;
                Ok(blob(name, &signer.sign_to_vec()?))
            }
        }
    }
}

/// RFC 4253 and RFC 8332.
fn rsa_hash(choice: Hash) -> (&'static str, MessageDigest) {
    match choice {
        Hash::None => ("ssh-rsa", MessageDigest::sha1()),
        Hash::Sha256 => ("rsa-sha2-256", MessageDigest::sha256()),
        Hash::Sha512 => ("rsa-sha2-512", MessageDigest::sha512()),
    }
}

fn load_ecdsa(curve: Curve, point: &[u8], d: &[u8]) -> Answer<Key> {
    let group = EcGroup::from_curve_name(curve.nid())?;
    let mut ctx = BigNumContext::new_secure()?;
    let point = EcPoint::from_bytes(&group, point, &mut ctx)?;
    let d = number(d)?;
    Ok(Key::Ecdsa(curve, EcKey::from_private_components(&group, &d, &point)?))
}

fn load_rsa([n, e, d, iqmp, p, q]: [&[u8]; 6]) -> Answer<Key> {
    let mut ctx = BigNumContext::new_secure()?;
    let (d, p, q) = (number(d)?, number(p)?, number(q)?);
    let dmp1 = remainder(&d, &*less_one(&p)?, &mut ctx)?;
    let dmq1 = remainder(&d, &*less_one(&q)?, &mut ctx)?;
    let rsa = Rsa::from_private_components(number(n)?, number(e)?, d, p, q, dmp1, dmq1, number(iqmp)?)?;
    Ok(Key::Rsa(PKey::from_rsa(rsa)?))
}

/// The six numbers belong together, and a signature made with them verifies: with a p or q that is no prime it would not.
fn check_rsa(key: &PKey<Private>, [n, e, d, iqmp, p, q]: [&[u8]; 6]) -> Answer<()> {
    let mut ctx = BigNumContext::new_secure()?;
    let (n, e, d, iqmp, p, q) = (number(n)?, number(e)?, number(d)?, number(iqmp)?, number(p)?, number(q)?);
    if n.num_bits() < LEAST_RSA_BITS {
        return Err(Fault::Apart("the modulus is too short"));
    }
    let mut product = BigNum::new_secure()?;
    product.checked_mul(&p, &q, &mut ctx)?;
    if product != n {
        return Err(Fault::Apart("n is not p times q"));
    }
    if !are_inverse(&d, &e, &*less_one(&p)?, &mut ctx)? || !are_inverse(&d, &e, &*less_one(&q)?, &mut ctx)? {
        return Err(Fault::Apart("d does not belong to e"));
    }
    if !are_inverse(&iqmp, &q, &p, &mut ctx)? {
        return Err(Fault::Apart("iqmp does not belong to q"));
    }
    is_signing(key)
}

fn is_signing(key: &PKey<Private>) -> Answer<()> {
    let mut signer = Signer::new(MessageDigest::sha256(), key)?;
    signer.update(b"trial")?;
    let signature = signer.sign_to_vec()?;
    let mut verifier = Verifier::new(MessageDigest::sha256(), key)?;
    verifier.update(b"trial")?;
    if verifier.verify(&signature)? {
        Ok(())
    } else {
        Err(Fault::Apart("a signature with it does not verify"))
    }
}

fn string(bytes: &[u8]) -> Vec<u8> {
    [&(bytes.len() as u32).to_be_bytes()[..], bytes].concat()
}

fn mpint(n: &BigNumRef) -> Vec<u8> {
    let mut bytes = n.to_vec();
    if bytes.first().map_or(false, |b| *b >= 128) {
        bytes.insert(0, 0);
    }
    string(&bytes)
}

fn blob(name: &str, signature: &[u8]) -> Vec<u8> {
    [string(name.as_bytes()), string(signature)].concat()
}

#[cfg(test)]
mod tests {
    use super::*;

    fn ed25519(seed: [u8; 32]) -> Vec<u8> {
        let public = PKey::private_key_from_raw_bytes(&seed, Id::ED25519).unwrap().raw_public_key().unwrap();
        [string(b"ssh-ed25519"), string(&public), string(&[&seed[..], &public].concat())].concat()
    }

    fn rsa(bits: u32) -> [Vec<u8>; 6] {
        let k = Rsa::generate(bits).unwrap();
        let numbers = [k.n(), k.e(), k.d(), k.iqmp().unwrap(), k.p().unwrap(), k.q().unwrap()];
        numbers.map(|n| n.to_vec())
    }

    fn rsa_fields(numbers: &[Vec<u8>; 6]) -> Vec<u8> {
        let parts: Vec<u8> = numbers.iter().flat_map(|n| mpint(&BigNum::from_slice(n).unwrap())).collect();
        [string(b"ssh-rsa"), parts].concat()
    }

    #[test]
    fn the_vector_of_rfc_8032() {
        // section 7.1, test 2
        let seed = BigNum::from_hex_str("4ccd089b28ff96da9db6c346ec114e0f5b8a319f35aba624da8cf6ed4fb8a6fb").unwrap().to_vec_padded(32).unwrap();
        let want = "92a009a9f0d4cab8720e820b5f642540a2b27b5416503f8fb3762223ebdb69da085ac1e43e15996e458f3613d0f11d8c387b2eaeb4302aeeb00d291612bb0c00";
        let key = Key::check(&ed25519(seed.try_into().unwrap())).unwrap();
        let signature = key.sign(&[0x72], Hash::Sha512).unwrap();
        let want = BigNum::from_hex_str(want).unwrap().to_vec_padded(64).unwrap();
        assert_eq!(signature, blob("ssh-ed25519", &want));
    }

    #[test]
    fn ed25519_halves_apart() {
        let mut fields = ed25519([7; 32]);
        let at = fields.len() - 64;
        fields[at] ^= 1;
        assert!(Key::check(&fields).is_err());
    }

    #[test]
    fn ecdsa_d_apart() {
        for (curve, name) in [(Curve::P256, "nistp256"), (Curve::P384, "nistp384"), (Curve::P521, "nistp521")] {
            let group = EcGroup::from_curve_name(curve.nid()).unwrap();
            let key = EcKey::generate(&group).unwrap();
            let mut ctx = BigNumContext::new().unwrap();
            let point = key.public_key().to_bytes(&group, openssl::ec::PointConversionForm::UNCOMPRESSED, &mut ctx).unwrap();
            let fields = |d: &BigNumRef| [string(curve.kind().as_bytes()), string(name.as_bytes()), string(&point), mpint(d)].concat();
            assert!(Key::check(&fields(key.private_key())).is_ok());
            let other = less_one(key.private_key()).unwrap();
            assert!(Key::check(&fields(&other)).is_err());
            let mut order = BigNum::new().unwrap();
            group.order(&mut order, &mut ctx).unwrap();
            assert!(Key::check(&fields(&(&order + key.private_key()))).is_err());
        }
    }

    #[test]
    fn rsa_numbers_apart() {
        let numbers = rsa(2048);
        assert!(Key::check(&rsa_fields(&numbers)).is_ok());
        for i in 0..6 {
            let mut wrong = numbers.clone();
            let last = wrong[i].len() - 1;
            wrong[i][last] ^= 2;
            assert!(Key::check(&rsa_fields(&wrong)).is_err(), "number {i}");
        }
        assert!(Key::check(&rsa_fields(&rsa(768))).is_err());
    }

    #[test]
    fn fields_of_anything() {
        for fields in [&b""[..], b"\0\0\0\x01", b"\0\0\0\x07ssh-rsa", &[255; 40], &string(b"ssh-ed25519")] {
            assert!(Key::check(fields).is_err());
        }
        let one = [vec![1], vec![3], vec![1], vec![1], vec![1], vec![1]];
        assert!(Key::check(&rsa_fields(&one)).is_err());
    }
}
