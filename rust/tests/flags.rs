//! Any state handed in: a flag that is neither 0 nor 1, which the safe interface cannot make, is unsound, and the call is refused (3).
mod open;

use key_agent::MAX_KEYS;
use open::{add, ed25519, raw, string, Open};

#[test]
fn a_flag_is_0_or_1() {
    let key = ed25519(1);
    let sign = [&[13][..], &string(&key.1), &string(b"data"), &[0, 0, 0, 0]].concat();
    let mut held = Open::fresh();
    held.does(&add(&key, b"", &[]), 0);
    // one held key, with neither flag; each flag of each entry with each value
    let flags: [(&str, fn(&mut raw::Columns) -> &mut [u8; MAX_KEYS]); 2] = [("limited", |c| &mut c.limited), ("confirm", |c| &mut c.confirm)];
    for (name, flag) in flags {
        for entry in 0..MAX_KEYS {
            for value in 0..=255 {
                let mut o = held.clone();
                flag(&mut o.state.columns)[entry] = value;
                let (damaged, sound) = (o.clone(), value == 0 || value == 1 && entry == 0);
                assert_eq!(o.is_sound(), sound, "{name} of entry {entry} is {value}");
                let (kind, number, _) = o.call(&sign, 0);
                if sound {
                    // the signer is asked; with Confirm the confirmation; with a lifetime of 0 seconds the key is gone, FAILURE
                    let want = [(4, 1), if name == "confirm" { (3, 1) } else { (5, 0) }][value as usize];
                    assert_eq!((kind, number), want, "{name} of entry {entry} is {value}");
                } else {
                    assert_eq!((kind, number), (0, 3), "{name} of entry {entry} is {value}");
                    assert!(o == damaged, "a refused call alters nothing");
                }
            }
        }
    }
}
