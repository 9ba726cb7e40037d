//! The open questions, and whoever watches them: answered by number, in any order, on the terminal or on the panel's socket.
use crate::core::Shown;
use crate::lines::{Line, Lines};
use std::collections::BTreeMap;
use std::io::{ErrorKind, Read, Write};
use std::os::unix::io::{AsRawFd, RawFd};
use std::os::unix::net::UnixStream;

/// What may wait for a panel: the open questions of many connections fit.
const UNREAD: usize = 2 << 20;
/// A panel that takes nothing for so many milliseconds, while something waits for it, does not read.
const PATIENCE: u64 = 5000;

/// What is asked, in the words of the panel: the key's words are left out while locked.
pub struct Text {
    pub front: String,
    pub key: Option<KeyWords>,
    pub who: String,
}

/// The key of a question. A confirmation names it at once, a gate's question behind who asks.
pub struct KeyWords {
    pub is_confirmation: bool,
    pub fingerprint: String,
    pub comment: Option<String>,
}

impl Text {
    pub fn words(&self, is_locked: bool) -> String {
        let (front, who) = (&self.front, &self.who);
        let comment = |k: &KeyWords| k.comment.as_ref().map_or(String::new(), |c| format!(" comment {c}"));
        match &self.key {
            Some(k) if k.is_confirmation && is_locked => format!("{front} - {who}"),
            Some(k) if k.is_confirmation => format!("{front} {} {who}{}", k.fingerprint, comment(k)),
            Some(k) if !is_locked => format!("{front} {who} key {}{}", k.fingerprint, comment(k)),
            _ => format!("{front} {who}"),
        }
    }
}

struct Question {
    text: Text,
    /// The connection that waits for it.
    asker: u64,
    /// The reading at which it is a no.
    deadline: Option<u64>,
}

/// A connection to the panel's socket.
struct Watcher {
    stream: UnixStream,
    lines: Lines,
    unread: Vec<u8>,
    /// Shall it see keys and lock at each change?
    is_watching: bool,
    /// It is to see keys and lock, or the open questions, once it has read what was written before.
    wants_block: bool,
    wants_list: bool,
    /// Is the loop told of room to write?
    is_told: bool,
    /// The bytes that it has taken; how many they were, and at which reading, when it was looked at and nothing waited or some had been taken.
    taken: u64,
    seen: (u64, u64),
}

/// What came of a line.
#[derive(Debug, PartialEq, Eq)]
pub enum Said {
    Answer { number: u64, asker: u64, yes: bool },
    Wrong(String),
    List,
    Show,
    Watch,
    Nothing,
}

#[derive(Default)]
pub struct Panel {
    open: BTreeMap<u64, Question>,
    asked: u64,
    watchers: BTreeMap<u64, Watcher>,
}

impl Panel {
    pub fn ask(&mut self, text: Text, asker: u64, deadline: Option<u64>, is_locked: bool) -> u64 {
        self.asked += 1;
        self.tell(&format!("ask {} {}", self.asked, text.words(is_locked)));
        self.open.insert(self.asked, Question { text, asker, deadline });
        self.asked
    }

    /// The question has an answer, or nobody waits for it any more; was it open?
    pub fn close(&mut self, number: u64, line: &str) -> bool {
        let was_open = self.open.remove(&number).is_some();
        if was_open {
            self.tell(line);
        }
        was_open
    }

    /// The questions whose time is over.
    pub fn overdue(&self, reading: u64) -> Vec<(u64, u64)> {
        let is_over = |q: &Question| q.deadline.map_or(false, |d| d <= reading);
        self.open.iter().filter(|(_, q)| is_over(q)).map(|(n, q)| (*n, q.asker)).collect()
    }

    /// The reading at which the next question's time is over.
    pub fn due(&self) -> Option<u64> {
        self.open.values().filter_map(|q| q.deadline).min()
    }

    /// All open questions, and who asks each.
    pub fn open(&self) -> Vec<(u64, u64)> {
        self.open.iter().map(|(n, q)| (*n, q.asker)).collect()
    }

    /// What a line from the terminal or a panel says.
    pub fn read_line(&self, line: &Line) -> Said {
        let words: Vec<&str> = match line {
            Some(line) => line.split_whitespace().collect(),
            None => return unreadable(),
        };
        match words[..] {
            [] => Said::Nothing,
            ["?"] => Said::List,
            ["show"] => Said::Show,
            ["watch"] => Said::Watch,
            [number, answer] => self.read_answer(number, answer),
            _ => unreadable(),
        }
    }

    /// The open questions, for who asks for them.
    pub fn listed(&self, is_locked: bool) -> String {
        let lines: Vec<String> = self.open.iter().map(|(n, q)| format!("question {n}: {}", q.text.words(is_locked))).collect();
        if lines.is_empty() {
            "no question is open".to_string()
        } else {
            lines.join("\n")
        }
    }

    fn read_answer(&self, number: &str, answer: &str) -> Said {
        let is_number = number.len() <= 18 && number.bytes().all(|b| b.is_ascii_digit());
        let yes = matches!(answer, "y" | "yes");
        match number.parse::<u64>() {
            Ok(n) if is_number && (yes || matches!(answer, "n" | "no")) => match self.open.get(&n) {
                Some(q) => Said::Answer { number: n, asker: q.asker, yes },
                None => Said::Wrong(format!("question {n} is not open")),
            },
            _ => unreadable(),
        }
    }

    pub fn connect(&mut self, token: u64, stream: UnixStream, is_locked: bool) {
        let mut w = Watcher {
            stream,
            lines: Lines::default(),
            unread: Vec::new(),
            is_watching: false,
            wants_block: false,
            wants_list: false,
            is_told: false,
            taken: 0,
            seen: (0, 0),
        };
        let lines: Vec<String> = self.open.iter().map(|(n, q)| format!("ask {n} {}", q.text.words(is_locked))).collect();
        if !lines.is_empty() {
            w.put(&lines.join("\n"));
        }
        self.watchers.insert(token, w);
    }

    pub fn is_panel(&self, token: u64) -> bool {
        self.watchers.contains_key(&token)
    }

    pub fn panels(&self) -> usize {
        self.watchers.len()
    }

    fn tell(&mut self, line: &str) {
        for w in self.watchers.values_mut() {
            w.put(line);
        }
    }

    pub fn tell_one(&mut self, token: u64, line: &str) {
        if let Some(w) = self.watchers.get_mut(&token) {
            w.put(line);
        }
    }

    /// The panel is to see keys and lock: once, or at each change.
    pub fn want_block(&mut self, token: u64, is_watching: bool) {
        if let Some(w) = self.watchers.get_mut(&token) {
            w.wants_block = true;
            w.is_watching |= is_watching;
        }
    }

    pub fn want_list(&mut self, token: u64) {
        if let Some(w) = self.watchers.get_mut(&token) {
            w.wants_list = true;
        }
    }

    /// Keys or lock have changed.
    pub fn want_blocks(&mut self) {
        for w in self.watchers.values_mut().filter(|w| w.is_watching) {
            w.wants_block = true;
        }
    }

    /// Is there one that wants to see something, and has read all before it?
    pub fn has_wishes(&self) -> bool {
        self.watchers.values().any(|w| w.unread.is_empty() && (w.wants_block || w.wants_list))
    }

    pub fn grant_wishes(&mut self, is_locked: bool, keys: &[Shown]) {
        let (block, list) = (block(is_locked, keys), self.listed(is_locked).replace('\n', "; "));
        for w in self.watchers.values_mut().filter(|w| w.unread.is_empty()) {
            if std::mem::replace(&mut w.wants_block, false) {
                w.put(&block);
            }
            if std::mem::replace(&mut w.wants_list, false) {
                w.put(&format!("error {list}"));
            }
        }
    }

    /// The lines that a panel has sent; none where it has ended.
    pub fn read(&mut self, token: u64) -> Option<Vec<Line>> {
        self.watchers.get_mut(&token)?.read()
    }

    pub fn write(&mut self, token: u64) {
        if let Some(w) = self.watchers.get_mut(&token) {
            w.flush();
        }
    }

    pub fn remove(&mut self, token: u64) {
        self.watchers.remove(&token);
    }

    /// Those that do not read.
    pub fn unread(&mut self, reading: u64) -> Vec<u64> {
        self.watchers.iter_mut().filter_map(|(t, w)| w.is_unread(reading).then(|| *t)).collect()
    }

    /// The reading at which one of them may count as one that does not read.
    pub fn unread_due(&self) -> Option<u64> {
        self.watchers.values().filter(|w| !w.unread.is_empty()).map(|w| w.seen.1 + PATIENCE).min()
    }

    /// The panels for which the loop is to be told otherwise than before: of room to write, or no more of it.
    pub fn retold(&mut self) -> Vec<(u64, RawFd, bool)> {
        let mut changed = Vec::new();
        for (token, w) in &mut self.watchers {
            if w.is_told == w.unread.is_empty() {
                w.is_told = !w.is_told;
                changed.push((*token, w.stream.as_raw_fd(), w.is_told));
            }
        }
        changed
    }
}

fn unreadable() -> Said {
    Said::Wrong("write NUMBER y or NUMBER n; ? shows the open questions".to_string())
}

fn block(is_locked: bool, keys: &[Shown]) -> String {
    let mut lines = vec![format!("lock {}", if is_locked { "locked" } else { "open" })];
    for k in keys {
        let left = k.left.map_or("-".to_string(), |s| s.to_string());
        let confirm = if k.confirm { "yes" } else { "no" };
        lines.push(format!("key {} {} left {left} confirm {confirm} comment {}", k.number, k.fingerprint, crate::names::shown(&k.comment)));
    }
    lines.push("end".to_string());
    lines.join("\n")
}

impl Watcher {
    fn put(&mut self, line: &str) {
        if self.unread.len() <= UNREAD {
            self.unread.extend_from_slice(line.as_bytes());
            self.unread.push(b'\n');
            self.flush();
        }
    }

    fn flush(&mut self) {
        while !self.unread.is_empty() {
            match self.stream.write(&self.unread) {
                Ok(0) => break,
                Ok(n) => {
                    self.taken += n as u64;
                    self.unread.drain(..n);
                }
                Err(e) if e.kind() == ErrorKind::Interrupted => {}
                Err(e) if e.kind() == ErrorKind::WouldBlock => break,
                Err(_) => return self.unread.clear(), // its end is seen by the next read
            }
        }
    }

    fn is_unread(&mut self, reading: u64) -> bool {
        if self.unread.is_empty() || self.taken != self.seen.0 {
            self.seen = (self.taken, reading);
        }
        self.unread.len() > UNREAD || self.seen.1 + PATIENCE <= reading
    }

    fn read(&mut self) -> Option<Vec<Line>> {
        let mut chunk = [0; 1024];
        match self.stream.read(&mut chunk) {
            Ok(0) => None,
            Ok(n) => Some(self.lines.take(&chunk[..n])),
            Err(e) if matches!(e.kind(), ErrorKind::WouldBlock | ErrorKind::Interrupted) => Some(Vec::new()),
            Err(_) => None,
        }
    }
}

#[cfg(test)]
mod tests {
    use super::*;

    fn text() -> Text {
        let key = KeyWords { is_confirmation: true, fingerprint: "SHA256:x".to_string(), comment: Some("bob 1".to_string()) };
        Text { front: "conn 2 SIGN confirm key 4".to_string(), key: Some(key), who: "uid 7 pid 8 program ssh".to_string() }
    }

    #[test]
    fn words_of_a_key_go_while_locked() {
        assert_eq!(text().words(false), "conn 2 SIGN confirm key 4 SHA256:x uid 7 pid 8 program ssh comment bob 1");
        assert_eq!(text().words(true), "conn 2 SIGN confirm key 4 - uid 7 pid 8 program ssh");
        let mut gate = text();
        gate.front = "conn 2 SIGN gate Sign".to_string();
        gate.key.as_mut().unwrap().is_confirmation = false;
        assert_eq!(gate.words(false), "conn 2 SIGN gate Sign uid 7 pid 8 program ssh key SHA256:x comment bob 1");
        assert_eq!(gate.words(true), "conn 2 SIGN gate Sign uid 7 pid 8 program ssh");
    }

    #[test]
    fn an_answer_counts_for_its_question_alone() {
        let mut p = Panel::default();
        let one = p.ask(text(), 11, None, false);
        let two = p.ask(text(), 12, Some(500), false);
        let line = |text: &str| Some(text.to_string());
        assert_eq!(p.read_line(&line("2 y")), Said::Answer { number: two, asker: 12, yes: true });
        assert_eq!(p.read_line(&line("  1   no ")), Said::Answer { number: one, asker: 11, yes: false });
        for wrong in ["y", "3 y", "1 maybe", "-1 y", "+1 y", "1 y 2", "99999999999999999999 y"] {
            assert!(matches!(p.read_line(&line(wrong)), Said::Wrong(_)), "{wrong}");
        }
        assert!(matches!(p.read_line(&None), Said::Wrong(_)));
        assert_eq!(p.overdue(499), []);
        assert_eq!(p.overdue(500), [(two, 12)]);
        assert!(p.close(one, "gone 1") && !p.close(one, "gone 1"));
        assert!(matches!(p.read_line(&line("1 y")), Said::Wrong(_)));
    }
}
