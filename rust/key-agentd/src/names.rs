//! Words for messages, classes and keys, as log and panel show them.
use key_agent::{Class, Hash};
use openssl::base64::encode_block;
use openssl::sha::sha256;

pub fn message(payload: &[u8]) -> String {
    let name = match payload.first() {
        None => "EMPTY",
        Some(9) => "REMOVE_ALL_V1",
        Some(11) => "LIST",
        Some(13) => "SIGN",
        Some(17) => "ADD",
        Some(18) => "REMOVE",
        Some(19) => "REMOVE_ALL",
        Some(20) => "ADD_CARD",
        Some(21) => "REMOVE_CARD",
        Some(22) => "LOCK",
        Some(23) => "UNLOCK",
        Some(25) => "ADD_CONSTRAINED",
        Some(26) => "ADD_CARD_CONSTRAINED",
        Some(27) => "EXTENSION",
        Some(n) => return format!("MESSAGE_{n}"),
    };
    name.to_string()
}

/// Does its length tell the length of a passphrase or a PIN?
pub fn is_telling(payload: &[u8]) -> bool {
    matches!(payload.first(), Some(20..=23 | 26))
}

pub fn class(class: Class) -> &'static str {
    match class {
        Class::RequestKeys => "RequestKeys",
        Class::AddKeys => "AddKeys",
        Class::RemoveKeys => "RemoveKeys",
        Class::RemoveAllKeys => "RemoveAllKeys",
        Class::Sign => "Sign",
        Class::Lock => "Lock",
        Class::Unlock => "Unlock",
    }
}

pub fn hash(hash: Hash) -> &'static str {
    match hash {
        Hash::None => "none",
        Hash::Sha256 => "256",
        Hash::Sha512 => "512",
    }
}

/// What a reply is; it is the core's own frame.
pub fn reply(frame: &[u8]) -> String {
    match frame[4] {
        5 => "FAILURE".to_string(),
        6 => "SUCCESS".to_string(),
        12 => format!("IDENTITIES, {} keys", number_at(frame, 5)),
        14 => format!("SIGNATURE, {} bytes", frame.len() - 9),
        n => format!("REPLY_{n}"),
    }
}

fn number_at(bytes: &[u8], at: usize) -> u32 {
    u32::from_be_bytes([bytes[at], bytes[at + 1], bytes[at + 2], bytes[at + 3]])
}

/// The blob that a sign or remove request begins with, where it is whole. For the panel's eyes alone: the core reads it for itself.
pub fn blob_in(payload: &[u8]) -> Option<&[u8]> {
    if !matches!(payload.first(), Some(13 | 18)) || payload.len() < 5 {
        return None;
    }
    payload.get(5..5 + number_at(payload, 1) as usize)
}

pub fn fingerprint(blob: &[u8]) -> String {
    format!("SHA256:{}", encode_block(&sha256(blob)).trim_end_matches('='))
}

/// One line for eyes: what could move a cursor, turn a line round or is not seen at all is shown as `?`.
pub fn shown(text: &str) -> String {
    text.chars().map(|c| if c.is_control() || is_unseen(c) { '?' } else { c }).collect()
}

fn is_unseen(c: char) -> bool {
    matches!(c, '\u{ad}' | '\u{61c}' | '\u{115f}' | '\u{1160}' | '\u{180b}'..='\u{180f}' | '\u{200b}'..='\u{200f}' | '\u{2028}'..='\u{202e}'
        | '\u{2060}'..='\u{206f}' | '\u{3164}' | '\u{feff}' | '\u{ffa0}' | '\u{fff0}'..='\u{fffb}' | '\u{e0000}'..='\u{e0fff}')
}

/// The same as one word.
pub fn word(text: &str) -> String {
    let one: String = shown(text).chars().map(|c| if c.is_whitespace() { '_' } else { c }).collect();
    if one.is_empty() {
        "-".to_string()
    } else {
        one
    }
}

#[cfg(test)]
mod tests {
    use super::*;

    #[test]
    fn texts_are_one_line() {
        assert_eq!(shown("a\nb\u{202e}c\x1b[2J ü"), "a?b?c?[2J ü");
        assert_eq!(word("Web Content\t"), "Web_Content?");
        assert_eq!(word(""), "-");
    }

    #[test]
    fn a_cut_blob_is_none() {
        assert_eq!(blob_in(&[13, 0, 0, 0, 2, 7]), None);
        assert_eq!(blob_in(&[18, 0, 0, 0, 1, 7, 8]), Some(&[7][..]));
        assert_eq!(blob_in(&[13, 255, 255, 255, 255]), None);
        assert_eq!(blob_in(&[22, 0, 0, 0, 1, 7]), None);
    }
}
