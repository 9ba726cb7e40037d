//! The lines of the panel's socket, cut and read. Nothing that comes in is trusted: lines and words have a longest length, and no control
//! character goes further.

/// The longest line that is read; the rest of a longer one is skipped.
pub const LONGEST: usize = 4096;
const LONGEST_COMMENT: usize = 255;
const LONGEST_WORD: usize = 64;

/// Cuts bytes into lines.
#[derive(Default)]
pub struct Lines {
    part: Vec<u8>,
    skips: bool,
}

impl Lines {
    /// The lines that end in these bytes, without their ends; none for one that was too long.
    pub fn feed(&mut self, bytes: &[u8]) -> Vec<Option<String>> {
        let mut lines = Vec::new();
        for &b in bytes {
            if b == b'\n' {
                let whole = !self.skips;
                lines.push(whole.then(|| clean(&self.part)));
                self.part.clear();
                self.skips = false;
            } else if self.part.len() < LONGEST {
                self.part.push(b);
            } else {
                self.skips = true;
            }
        }
        lines
    }
}

/// Text that a terminal may have: what is not UTF-8, controls it, turns its direction or is not seen becomes `?` or the replacement character.
pub fn clean(bytes: &[u8]) -> String {
    String::from_utf8_lossy(bytes).chars().map(|c| if c.is_control() || is_unseen(c) { '?' } else { c }).collect()
}

/// Direction marks, line separators, and what has no width.
fn is_unseen(c: char) -> bool {
    matches!(c,
        '\u{ad}' | '\u{61c}' | '\u{180e}' | '\u{200b}'..='\u{200f}' | '\u{2028}'..='\u{202e}' | '\u{2060}'..='\u{206f}' | '\u{feff}'
        | '\u{fff9}'..='\u{fffb}' | '\u{e0000}'..='\u{e007f}')
}

/// What a question is about.
#[derive(Clone, Debug, PartialEq, Eq)]
pub enum What {
    /// The gate, and the request's class.
    Gate(String),
    /// The confirmation for the key of this number.
    Confirm(u64),
}

/// An open question: who asks, and what.
#[derive(Clone, Debug, PartialEq, Eq)]
pub struct Question {
    pub number: u64,
    pub connection: u64,
    pub message: String,
    pub what: What,
    pub uid: String,
    pub pid: String,
    pub program: String,
    pub fingerprint: Option<String>,
    pub comment: Option<String>,
}

/// A held key.
#[derive(Clone, Debug, PartialEq, Eq)]
pub struct Key {
    pub number: u64,
    pub fingerprint: String,
    /// Seconds.
    pub left: Option<u64>,
    pub confirm: bool,
    pub comment: String,
}

/// What a line says.
#[derive(Clone, Debug, PartialEq, Eq)]
pub enum Event {
    Ask(Question),
    Answered {
        number: u64,
        yes: bool,
        late: bool,
    },
    Gone(u64),
    Error(String),
    /// The head of a block: locked or open.
    Lock(bool),
    Key(Key),
    End,
    Unknown,
}

/// Reads a line that `Lines` gave.
pub fn read(line: Option<&str>) -> Event {
    line.and_then(event).unwrap_or(Event::Unknown)
}

fn event(line: &str) -> Option<Event> {
    let mut rest = line;
    match word(&mut rest)? {
        "ask" => ask(rest).map(Event::Ask),
        "answered" => answered(rest),
        "gone" => number(word(&mut rest)?).map(Event::Gone),
        "error" => Some(Event::Error(cut(rest, LONGEST_COMMENT))),
        "lock" => lock(rest),
        "key" => key(rest).map(Event::Key),
        "end" => Some(Event::End),
        _ => None,
    }
}

fn ask(mut rest: &str) -> Option<Question> {
    let number = number(word(&mut rest)?)?;
    expect(&mut rest, "conn")?;
    let connection = self::number(word(&mut rest)?)?;
    let message = cut(word(&mut rest)?, LONGEST_WORD);
    let mut fingerprint = None;
    let what = match word(&mut rest)? {
        "gate" => What::Gate(cut(word(&mut rest)?, LONGEST_WORD)),
        "confirm" => {
            expect(&mut rest, "key")?;
            let key = self::number(word(&mut rest)?)?;
            fingerprint = word(&mut rest).and_then(known);
            What::Confirm(key)
        }
        _ => return None,
    };
    let unknown = || "?".to_string();
    let mut q = Question { number, connection, message, what, uid: unknown(), pid: unknown(), program: unknown(), fingerprint, comment: None };
    while let Some((name, value)) = pair(&mut rest) {
        match name {
            "uid" => q.uid = cut(value, LONGEST_WORD),
            "pid" => q.pid = cut(value, LONGEST_WORD),
            "program" => q.program = cut(value, LONGEST_WORD),
            "key" => q.fingerprint = known(value),
            "comment" => q.comment = Some(cut(value, LONGEST_COMMENT)),
            _ => {}
        }
    }
    Some(q)
}

fn answered(mut rest: &str) -> Option<Event> {
    let number = number(word(&mut rest)?)?;
    let yes = said(word(&mut rest)?)?;
    Some(Event::Answered { number, yes, late: word(&mut rest) == Some("timeout") })
}

fn lock(mut rest: &str) -> Option<Event> {
    match word(&mut rest)? {
        "open" => Some(Event::Lock(false)),
        "locked" => Some(Event::Lock(true)),
        _ => None,
    }
}

fn key(mut rest: &str) -> Option<Key> {
    let number = number(word(&mut rest)?)?;
    let fingerprint = cut(word(&mut rest)?, LONGEST_WORD);
    let mut key = Key { number, fingerprint, left: None, confirm: false, comment: String::new() };
    while let Some((name, value)) = pair(&mut rest) {
        match name {
            "left" if value != "-" => key.left = Some(self::number(value)?),
            "confirm" => key.confirm = said(value)?,
            "comment" => key.comment = cut(value, LONGEST_COMMENT),
            _ => {}
        }
    }
    Some(key)
}

/// The next word; none at the end.
fn word<'a>(rest: &mut &'a str) -> Option<&'a str> {
    let (word, behind) = rest.split_once(' ').unwrap_or((rest, ""));
    *rest = behind;
    (!word.is_empty()).then_some(word)
}

/// A name and its value; a comment's goes to the end of the line.
fn pair<'a>(rest: &mut &'a str) -> Option<(&'a str, &'a str)> {
    let name = word(rest)?;
    let value = if name == "comment" { std::mem::take(rest) } else { word(rest)? };
    Some((name, value))
}

fn expect(rest: &mut &str, name: &str) -> Option<()> {
    (word(rest)? == name).then_some(())
}

/// A number as the agent takes it: up to 18 digits.
pub fn number(word: &str) -> Option<u64> {
    let fits = (1..=18).contains(&word.len()) && word.bytes().all(|b| b.is_ascii_digit());
    if fits {
        word.parse().ok()
    } else {
        None
    }
}

/// A yes or a no, in the words that the agent takes.
pub fn said(word: &str) -> Option<bool> {
    match word {
        "y" | "yes" => Some(true),
        "n" | "no" => Some(false),
        _ => None,
    }
}

/// The line to send for an answer that was typed, `NUMBER y` or `NUMBER n`.
pub fn answer(line: &str) -> Option<String> {
    let mut words = line.split_whitespace();
    let (number, yes) = (number(words.next()?)?, said(words.next()?)?);
    words.next().is_none().then(|| answer_line(number, yes))
}

pub fn answer_line(number: u64, yes: bool) -> String {
    format!("{number} {}", if yes { 'y' } else { 'n' })
}

fn known(word: &str) -> Option<String> {
    (word != "-").then(|| cut(word, LONGEST_WORD))
}

/// The first characters of a text.
pub fn cut(text: &str, longest: usize) -> String {
    text.chars().take(longest).collect()
}

#[cfg(test)]
mod tests {
    use super::*;

    fn read(line: &str) -> Event {
        super::read(Some(line))
    }

    fn asked(line: &str) -> Question {
        match read(line) {
            Event::Ask(q) => q,
            e => panic!("{e:?}"),
        }
    }

    #[test]
    fn a_gate_question() {
        let q = asked("ask 3 conn 7 LOCK gate Lock uid 1000 pid 42 program ssh-add");
        assert_eq!((q.number, q.connection, q.message.as_str(), q.what), (3, 7, "LOCK", What::Gate("Lock".into())));
        assert_eq!((q.uid.as_str(), q.pid.as_str(), q.program.as_str()), ("1000", "42", "ssh-add"));
        assert_eq!((q.fingerprint, q.comment), (None, None));
    }

    #[test]
    fn a_gate_question_with_its_key() {
        let q = asked("ask 3 conn 7 SIGN gate Sign uid 0 pid 42 program ssh key SHA256:abc comment night  shift uid 5");
        assert_eq!((q.uid.as_str(), q.fingerprint.as_deref(), q.comment.as_deref()), ("0", Some("SHA256:abc"), Some("night  shift uid 5")));
        let q = asked("ask 3 conn 7 REMOVE gate RemoveKeys uid 0 pid 42 program ssh key SHA256:abc");
        assert_eq!((q.fingerprint.as_deref(), q.comment), (Some("SHA256:abc"), None));
    }

    #[test]
    fn a_confirmation() {
        let q = asked("ask 9 conn 1 SIGN confirm key 2 SHA256:abc uid 0 pid 1 program a comment ");
        assert_eq!((q.what, q.fingerprint.as_deref(), q.comment.as_deref()), (What::Confirm(2), Some("SHA256:abc"), Some("")));
        let q = asked("ask 9 conn 1 SIGN confirm key 2 - uid 0 pid 1 program a");
        assert_eq!((q.what, q.fingerprint, q.comment, q.program.as_str()), (What::Confirm(2), None, None, "a"));
    }

    #[test]
    fn a_question_without_the_added_words() {
        let q = asked("ask 1 conn 1 LIST gate RequestKeys");
        assert_eq!((q.uid.as_str(), q.program.as_str()), ("?", "?"));
        assert_eq!(asked("ask 1 conn 1 SIGN confirm key 4").what, What::Confirm(4));
    }

    #[test]
    fn other_lines() {
        assert_eq!(read("answered 4 y"), Event::Answered { number: 4, yes: true, late: false });
        assert_eq!(read("answered 4 n timeout"), Event::Answered { number: 4, yes: false, late: true });
        assert_eq!(read("gone 4"), Event::Gone(4));
        assert_eq!(read("error question 4 is not open"), Event::Error("question 4 is not open".into()));
        assert_eq!(read("lock open"), Event::Lock(false));
        assert_eq!(read("lock locked"), Event::Lock(true));
        assert_eq!(read("end"), Event::End);
        let fingerprint = || "SHA256:a".to_string();
        let key = |left, confirm, comment: &str| Event::Key(Key { number: 1, fingerprint: fingerprint(), left, confirm, comment: comment.into() });
        assert_eq!(read("key 1 SHA256:a left - confirm no comment "), key(None, false, ""));
        assert_eq!(read("key 1 SHA256:a left 59 confirm yes comment left 3"), key(Some(59), true, "left 3"));
    }

    #[test]
    fn lines_that_say_nothing() {
        let lines = [
            "",
            " ",
            "ask",
            "ask 1",
            "ask x conn 1 LIST gate RequestKeys",
            "ask -1 conn 1 LIST gate RequestKeys",
            "ask 1 conn",
            "ask 1 conn 1",
            "ask 1 conn 1 LIST",
            "ask 1 conn 1 LIST gate",
            "ask 1 conn 1 LIST door X",
            "ask 1 conn 1 SIGN confirm",
            "ask 1 conn 1 SIGN confirm key x",
            "ask 9999999999999999999 conn 1 LIST gate RequestKeys",
            "ask +1 conn 1 LIST gate X",
            "ask ١ conn 1 LIST gate X",
            "answered",
            "answered 1",
            "answered 1 maybe",
            "gone",
            "gone 1.5",
            "lock",
            "lock ajar",
            "key",
            "key 1",
            "key 1 SHA256:a left soon",
            "key 1 SHA256:a confirm perhaps",
            "ASK 1 conn 1 LIST gate RequestKeys",
            " ask 1 conn 1 LIST gate RequestKeys",
            "question 1: conn 1",
        ];
        for line in lines {
            assert_eq!(read(line), Event::Unknown, "{line:?}");
        }
        assert_eq!(super::read(None), Event::Unknown);
    }

    #[test]
    fn typed_answers() {
        assert_eq!([answer("3 y"), answer(" 04  no ")], [Some("3 y".into()), Some("4 n".into())]);
        for line in ["", "3", "y", "y 3", "3 y 4", "3 maybe", "-3 y", "3y", "1111111111111111111 y"] {
            assert_eq!(answer(line), None, "{line:?}");
        }
    }

    #[test]
    fn words_have_a_longest_length() {
        let long = "x".repeat(3000);
        let q = asked(&format!("ask 1 conn 1 {long} gate {long} uid {long} pid {long} program {long} key {long} comment {long}"));
        let words = [q.message, q.uid, q.pid, q.program, q.fingerprint.unwrap()];
        assert!(words.iter().all(|w| w.len() == LONGEST_WORD));
        assert_eq!(q.comment.unwrap().len(), LONGEST_COMMENT);
        assert_eq!(read(&format!("error {long}")), Event::Error("x".repeat(LONGEST_COMMENT)));
    }

    #[test]
    fn lines_are_cut_wherever_the_bytes_are() {
        let mut lines = Lines::default();
        assert!(lines.feed(b"go").is_empty());
        assert_eq!(lines.feed(b"ne 1\n\nlock op"), [Some("gone 1".into()), Some(String::new())]);
        assert_eq!(lines.feed(b"en\n"), [Some("lock open".into())]);
    }

    #[test]
    fn an_overlong_line_is_skipped_and_not_kept() {
        let mut lines = Lines::default();
        for _ in 0..1000 {
            assert!(lines.feed(&[b'a'; 4096]).is_empty());
        }
        assert!(lines.part.capacity() <= 2 * LONGEST);
        assert_eq!(lines.feed(b"\ngone 1\n"), [None, Some("gone 1".into())]);
        let whole = [&[b'a'; LONGEST][..], b"\n"].concat();
        assert_eq!(lines.feed(&whole), [Some("a".repeat(LONGEST))]);
    }

    #[test]
    fn what_controls_a_terminal_is_replaced() {
        assert_eq!(clean(b"a\x1b[2Jb\x07\r\t\x7f\0"), "a?[2Jb?????");
        assert_eq!(clean("\u{9b}2J \u{90}x".as_bytes()), "?2J ?x");
        assert_eq!(clean("a\u{202e}b\u{2066}c\u{200f}d\u{2028}e\u{feff}f\u{61c}g\u{e0041}h".as_bytes()), "a?b?c?d?e?f?g?h");
        assert_eq!(clean("Gewächshaus 温室 🌱".as_bytes()), "Gewächshaus 温室 🌱");
        assert_eq!(clean(b"a\xff\x9bb"), "a\u{fffd}\u{fffd}b");
    }

    #[test]
    fn bytes_of_chance() {
        let mut lines = Lines::default();
        let mut x = 1u64;
        let starts = ["ask ", "ask 1 conn 1 SIGN ", "key 1 ", "answered ", "lock ", ""];
        for round in 0..20_000 {
            let mut bytes = starts[round % starts.len()].as_bytes().to_vec();
            for _ in 0..round % 40 {
                x = x.wrapping_mul(6364136223846793005).wrapping_add(1442695040888963407);
                bytes.push(if x >> 63 == 0 { b" \n019-ykc"[(x >> 33) as usize % 9] } else { (x >> 40) as u8 });
            }
            for line in lines.feed(&bytes) {
                super::read(line.as_deref());
            }
        }
    }
}
