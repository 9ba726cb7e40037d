//! Lines of answers, from a terminal or a panel, however their bytes come.

/// A longer line is no answer.
const LONGEST: usize = 256;

#[derive(Default)]
pub struct Lines {
    begun: Vec<u8>,
    is_too_long: bool,
}

/// A whole line; none where it was too long.
pub type Line = Option<String>;

impl Lines {
    pub fn take(&mut self, bytes: &[u8]) -> Vec<Line> {
        let mut whole = Vec::new();
        for b in bytes {
            match b {
                b'\n' => whole.push(self.end()),
                _ if self.begun.len() < LONGEST => self.begun.push(*b),
                _ => self.is_too_long = true,
            }
        }
        whole
    }

    fn end(&mut self) -> Line {
        let line = String::from_utf8_lossy(&std::mem::take(&mut self.begun)).into_owned();
        if std::mem::replace(&mut self.is_too_long, false) {
            None
        } else {
            Some(line)
        }
    }
}

#[cfg(test)]
mod tests {
    use super::*;

    #[test]
    fn a_long_line_is_none_and_the_next_is_one() {
        let mut lines = Lines::default();
        assert_eq!(lines.take(b"1 y\n2"), [Some("1 y".to_string())]);
        assert_eq!(lines.take(b" n\n"), [Some("2 n".to_string())]);
        assert_eq!(lines.take(&[b"3 y".to_vec(), vec![b' '; 300], b"stop\n4 y\n".to_vec()].concat()), [None, Some("4 y".to_string())]);
        assert_eq!(lines.take(&[b' '; 256]), []);
        assert_eq!(lines.take(b"\n\n"), [Some(" ".repeat(256)), Some(String::new())]);
    }
}
