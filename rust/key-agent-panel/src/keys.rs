//! Key presses, read from the bytes of a terminal.

/// A key press that means something here.
#[derive(Clone, Copy, Debug, PartialEq, Eq)]
pub enum Press {
    Yes,
    No,
    Digit(u8),
    Up,
    Down,
    Escape,
    Redraw,
    Suspend,
    Quit,
    /// Any other key.
    Other,
}

#[derive(Clone, Copy, Default)]
enum State {
    #[default]
    Ground,
    Escape,
    /// Behind `ESC [` or `ESC O`, before the byte that ends it.
    Sequence,
}

/// Reads bytes as they come; a sequence may come in pieces.
#[derive(Default)]
pub struct Keys {
    state: State,
}

impl Keys {
    pub fn feed(&mut self, byte: u8) -> Option<Press> {
        let (state, press) = match (self.state, byte) {
            (State::Ground, 0x1b) => (State::Escape, None),
            (State::Ground, b) => (State::Ground, Some(plain(b))),
            (State::Escape, b'[' | b'O') => (State::Sequence, None),
            (State::Escape, 0x1b) => (State::Escape, Some(Press::Escape)),
            (State::Escape, _) => (State::Ground, Some(Press::Other)), // with Alt
            (State::Sequence, b'A') => (State::Ground, Some(Press::Up)),
            (State::Sequence, b'B') => (State::Ground, Some(Press::Down)),
            (State::Sequence, 0x1b) => (State::Escape, None),
            (State::Sequence, 0x40..=0x7e) => (State::Ground, Some(Press::Other)),
            (State::Sequence, _) => (State::Sequence, None),
        };
        self.state = state;
        press
    }

    /// Is an escape alone so far? It is the key Escape if nothing follows.
    pub fn waits(&self) -> bool {
        matches!(self.state, State::Escape)
    }

    /// Nothing followed.
    pub fn settle(&mut self) -> Option<Press> {
        let waited = self.waits();
        self.state = State::Ground;
        waited.then_some(Press::Escape)
    }
}

fn plain(byte: u8) -> Press {
    match byte {
        b'y' | b'Y' => Press::Yes,
        b'n' | b'N' => Press::No,
        b'0'..=b'9' => Press::Digit(byte - b'0'),
        b'k' => Press::Up,
        b'j' => Press::Down,
        b'q' | b'Q' | 0x03 => Press::Quit,
        0x0c => Press::Redraw,
        0x1a => Press::Suspend,
        _ => Press::Other,
    }
}

#[cfg(test)]
mod tests {
    use super::*;

    fn all(bytes: &[u8]) -> Vec<Press> {
        let mut keys = Keys::default();
        bytes.iter().filter_map(|&b| keys.feed(b)).collect()
    }

    #[test]
    fn plain_keys() {
        assert_eq!(all(b"yN7q"), [Press::Yes, Press::No, Press::Digit(7), Press::Quit]);
        assert_eq!(all(b"\x03\x0c\x1aZ\xff"), [Press::Quit, Press::Redraw, Press::Suspend, Press::Other, Press::Other]);
    }

    #[test]
    fn arrows_and_other_sequences() {
        assert_eq!(all(b"\x1b[A\x1b[B\x1bOA\x1bOB"), [Press::Up, Press::Down, Press::Up, Press::Down]);
        assert_eq!(all(b"\x1b[5~\x1b[1;5C\x1b[200~"), [Press::Other; 3]);
    }

    #[test]
    fn no_answer_comes_out_of_a_sequence() {
        assert_eq!(all(b"\x1by\x1bn"), [Press::Other; 2]);
        assert_eq!(all(b"\x1b[y\x1b[12n"), [Press::Other; 2]);
    }

    #[test]
    fn an_escape_alone() {
        let mut keys = Keys::default();
        assert_eq!(keys.feed(0x1b), None);
        assert!(keys.waits());
        assert_eq!(keys.settle(), Some(Press::Escape));
        assert_eq!(keys.feed(b'y'), Some(Press::Yes));
        assert_eq!(keys.settle(), None);
    }
}
