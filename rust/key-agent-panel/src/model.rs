//! What the panel knows and what its user has selected: lines in, key presses in, lines out. No clock, no terminal, no socket.
use crate::keys::Press;
use crate::view::sentence;
use crate::words::{answer_line, Event, Key, Question};
use std::collections::{BTreeMap, VecDeque};
use std::time::Duration;

/// More questions are counted and not kept.
pub const MOST_QUESTIONS: usize = 4096;
/// More keys are not kept; the agent holds up to 24.
pub const MOST_KEYS: usize = 64;
const MOST_NOTES: usize = 3;
const NOTE: Duration = Duration::from_secs(5);
/// Digits that come later begin a new number.
const TYPING: Duration = Duration::from_secs(2);
/// Many that count must not draw all the time.
const SHORTEST: Duration = Duration::from_millis(100);

/// A question, and what happened to it here.
pub struct Open {
    pub question: Question,
    pub came: Duration,
    /// It was open before this panel came.
    pub older: bool,
    /// The answer that was sent.
    pub sent: Option<bool>,
}

/// The question that y and n are for.
#[derive(Clone, Copy, Debug, PartialEq, Eq)]
pub struct Selected {
    pub number: u64,
    /// The user has seen it selected, or has named its number.
    pub seen: bool,
}

struct Block {
    locked: bool,
    keys: Vec<Key>,
}

struct Note {
    until: Duration,
    text: String,
}

/// What a key press leads to.
#[derive(Clone, Debug, PartialEq, Eq)]
pub enum Deed {
    /// Send this line.
    Say(String),
    Redraw,
    Suspend,
    End,
}

#[derive(Default)]
pub struct Model {
    /// None: not told yet.
    pub locked: Option<bool>,
    /// Nobody is there who could tell.
    pub is_away: bool,
    pub keys: Vec<Key>,
    /// When `keys` came.
    pub told: Duration,
    pub questions: BTreeMap<u64, Open>,
    pub left_out: usize,
    pub selected: Option<Selected>,
    typed: Option<(u64, Duration)>,
    block: Option<Block>,
    blocks: u64,
    notes: VecDeque<Note>,
    bell: bool,
}

impl Model {
    /// A line of the agent.
    pub fn hear(&mut self, event: Event, now: Duration) {
        if let Some(text) = sentence(&event) {
            self.note(text, now);
        }
        match event {
            Event::Ask(question) => self.ask(question, now),
            Event::Answered { number, .. } | Event::Gone(number) => self.close(number),
            Event::Lock(locked) => self.begin(locked),
            Event::Key(key) => self.hold(key),
            Event::End => self.finish(now),
            Event::Error(_) | Event::Unknown => {}
        }
    }

    fn ask(&mut self, question: Question, now: Duration) {
        let number = question.number;
        if let Some(open) = self.questions.get(&number) {
            if open.question == question {
                return;
            }
            self.close(number);
        }
        if self.questions.len() == MOST_QUESTIONS {
            self.left_out = self.left_out.saturating_add(1);
            return;
        }
        self.questions.insert(number, Open { question, came: now, older: self.blocks == 0, sent: None });
        self.bell = true;
    }

    fn close(&mut self, number: u64) {
        if self.questions.remove(&number).is_none() {
            self.left_out = self.left_out.saturating_sub(1);
        }
        if self.selected.map(|s| s.number) == Some(number) {
            self.selected = None;
        }
    }

    fn begin(&mut self, locked: bool) {
        if locked {
            self.locked = Some(true);
            self.keys.clear();
        }
        self.block = Some(Block { locked, keys: Vec::new() });
    }

    fn hold(&mut self, key: Key) {
        if let Some(block) = &mut self.block {
            if !block.locked && block.keys.len() < MOST_KEYS {
                block.keys.push(key);
            }
        }
    }

    fn finish(&mut self, now: Duration) {
        if let Some(block) = self.block.take() {
            self.locked = Some(block.locked);
            self.keys = block.keys;
            self.told = now;
            self.blocks += 1;
        }
    }

    /// Nothing of any key is shown: the agent is locked, or has not yet said that it is not.
    pub fn hides(&self) -> bool {
        self.locked != Some(false)
    }

    /// How often the agent has told its state.
    pub fn blocks(&self) -> u64 {
        self.blocks
    }

    /// A key press of the user.
    pub fn press(&mut self, press: Press, now: Duration) -> Option<Deed> {
        let typed = self.typed.take();
        match press {
            Press::Digit(digit) => self.digit(typed, digit, now),
            Press::Up => self.step(false),
            Press::Down => self.step(true),
            Press::Escape => self.selected = None,
            Press::Yes => return self.answer(true, now),
            Press::No => return self.answer(false, now),
            Press::Redraw => return Some(Deed::Redraw),
            Press::Suspend => return Some(Deed::Suspend),
            Press::Quit => return Some(Deed::End),
            Press::Other => {}
        }
        None
    }

    /// One more digit of a number. Where no such question is open none is selected: a y behind it must not fall to another.
    fn digit(&mut self, typed: Option<(u64, Duration)>, digit: u8, now: Duration) {
        let before = typed.filter(|(_, at)| now.saturating_sub(*at) < TYPING).map_or(0, |(n, _)| n);
        let number = before.saturating_mul(10).saturating_add(digit.into());
        self.typed = Some((number, now));
        self.selected = self.can_answer(number).then_some(Selected { number, seen: true });
    }

    fn can_answer(&self, number: u64) -> bool {
        self.questions.get(&number).map_or(false, |open| open.sent.is_none())
    }

    fn step(&mut self, down: bool) {
        let at = self.selected.map(|s| s.number);
        let mut numbers = self.questions.keys().copied().filter(|&n| self.can_answer(n));
        let next = match (down, at) {
            (true, Some(at)) => numbers.find(|&n| n > at),
            (true, None) => numbers.next(),
            (false, Some(at)) => numbers.take_while(|&n| n < at).last(),
            (false, None) => numbers.next_back(),
        };
        if let Some(number) = next {
            self.selected = Some(Selected { number, seen: false });
        }
    }

    fn answer(&mut self, yes: bool, now: Duration) -> Option<Deed> {
        let number = match self.selected {
            Some(Selected { number, seen: true }) => number,
            Some(Selected { number, seen: false }) => {
                self.note(format!("question {number} was not shown as selected yet: y or n?"), now);
                return None;
            }
            None => {
                self.note("no question is selected".into(), now);
                return None;
            }
        };
        self.selected = None;
        self.questions.get_mut(&number)?.sent = Some(yes);
        Some(Deed::Say(answer_line(number, yes)))
    }

    /// The screen now shows this question as selected, or none.
    pub fn shown(&mut self, number: Option<u64>) {
        if let Some(selected) = &mut self.selected {
            selected.seen |= number == Some(selected.number);
        }
    }

    /// The number that is being typed.
    pub fn typed(&self) -> Option<u64> {
        self.typed.map(|(number, _)| number)
    }

    /// Shows this for a moment; what is shown already stays longer.
    pub fn note(&mut self, text: String, now: Duration) {
        self.notes.retain(|n| n.text != text);
        if self.notes.len() == MOST_NOTES {
            self.notes.pop_front();
        }
        self.notes.push_back(Note { until: now + NOTE, text });
    }

    /// The newest first.
    pub fn notes(&self) -> impl Iterator<Item = &str> {
        self.notes.iter().rev().map(|n| n.text.as_str())
    }

    /// Time has passed.
    pub fn tick(&mut self, now: Duration) {
        self.notes.retain(|n| now < n.until);
        self.typed = self.typed.filter(|(_, at)| now.saturating_sub(*at) < TYPING);
    }

    /// How long until the screen changes with time alone.
    pub fn until_change(&self, now: Duration) -> Option<Duration> {
        let keys = self.keys.iter().any(|k| k.left.is_some()).then_some(self.told);
        let seconds = self.questions.values().map(|open| open.came).chain(keys).map(|from| to_whole_second(now.saturating_sub(from)));
        let typed = self.typed.map(|(_, at)| at + TYPING);
        let ends = self.notes.iter().map(|n| n.until).chain(typed).map(|end| end.saturating_sub(now));
        seconds.chain(ends).min().map(|d| d.max(SHORTEST))
    }

    /// Has a question come since the last time?
    pub fn take_bell(&mut self) -> bool {
        std::mem::take(&mut self.bell)
    }
}

fn to_whole_second(past: Duration) -> Duration {
    Duration::from_secs(1) - Duration::from_nanos(past.subsec_nanos().into())
}

#[cfg(test)]
mod tests {
    use super::*;
    use crate::words::read;

    const NOW: Duration = Duration::from_secs(100);

    fn hearing(lines: &[&str]) -> Model {
        let mut m = Model::default();
        hear(&mut m, lines);
        m
    }

    fn hear(m: &mut Model, lines: &[&str]) {
        for line in lines {
            m.hear(read(Some(line)), NOW);
        }
    }

    fn asks(numbers: &[u64]) -> Model {
        let mut m = hearing(&["lock open", "end"]);
        for n in numbers {
            hear(&mut m, &[&format!("ask {n} conn 1 LIST gate RequestKeys uid 1 pid 2 program p")]);
        }
        m
    }

    fn press(m: &mut Model, presses: &[Press]) -> Vec<Deed> {
        presses.iter().filter_map(|&p| m.press(p, NOW)).collect()
    }

    fn selected(m: &Model) -> Option<u64> {
        m.selected.map(|s| s.number)
    }

    fn say(line: &str) -> Vec<Deed> {
        vec![Deed::Say(line.into())]
    }

    #[test]
    fn nothing_is_selected_of_itself() {
        let mut m = asks(&[1]);
        assert_eq!(press(&mut m, &[Press::Yes, Press::No]), []);
        assert_eq!(m.notes().count(), 1);
    }

    #[test]
    fn a_number_selects_and_is_answered_once() {
        let mut m = asks(&[1, 12]);
        assert_eq!(press(&mut m, &[Press::Digit(1), Press::Digit(2), Press::Yes]), say("12 y"));
        assert_eq!(press(&mut m, &[Press::Digit(1), Press::Digit(2), Press::Yes]), []);
        assert_eq!(press(&mut m, &[Press::Digit(1), Press::No]), say("1 n"));
    }

    #[test]
    fn a_number_that_is_not_open_selects_nothing() {
        let mut m = asks(&[1, 2]);
        assert_eq!(press(&mut m, &[Press::Digit(1), Press::Digit(2), Press::Yes]), []);
        assert_eq!(press(&mut m, &[Press::Digit(9); 60]), []);
        assert_eq!((selected(&m), m.typed()), (None, Some(u64::MAX)));
    }

    #[test]
    fn digits_that_come_late_begin_a_new_number() {
        let mut m = asks(&[1, 2, 12]);
        m.press(Press::Digit(1), NOW);
        m.press(Press::Digit(2), NOW + Duration::from_secs(3));
        assert_eq!(selected(&m), Some(2));
    }

    #[test]
    fn an_arrow_must_be_seen_before_its_answer() {
        let mut m = asks(&[3, 5]);
        assert_eq!(press(&mut m, &[Press::Down, Press::Yes]), []);
        m.shown(Some(3));
        assert_eq!(press(&mut m, &[Press::Yes]), say("3 y"));
        press(&mut m, &[Press::Down]);
        m.shown(None);
        assert_eq!(press(&mut m, &[Press::Yes]), []);
        assert_eq!(selected(&m), Some(5));
    }

    #[test]
    fn arrows_stop_at_the_ends() {
        let mut m = asks(&[3, 5, 8]);
        let mut after = |p| {
            press(&mut m, &[p]);
            selected(&m)
        };
        assert_eq!([after(Press::Down), after(Press::Down), after(Press::Down), after(Press::Down)], [Some(3), Some(5), Some(8), Some(8)]);
        assert_eq!([after(Press::Up), after(Press::Up), after(Press::Up)], [Some(5), Some(3), Some(3)]);
        assert_eq!([after(Press::Escape), after(Press::Up)], [None, Some(8)]);
    }

    #[test]
    fn arrows_pass_over_what_was_answered() {
        let mut m = asks(&[3, 5, 8]);
        assert_eq!(press(&mut m, &[Press::Digit(5), Press::No]), say("5 n"));
        press(&mut m, &[Press::Down, Press::Down]);
        assert_eq!(selected(&m), Some(8));
    }

    #[test]
    fn a_question_that_goes_hands_its_answer_to_nobody() {
        for line in ["gone 1", "answered 1 y", "answered 1 n timeout"] {
            let mut m = asks(&[1, 2]);
            press(&mut m, &[Press::Down]);
            m.shown(Some(1));
            hear(&mut m, &[line]);
            assert_eq!(selected(&m), None);
            assert_eq!(press(&mut m, &[Press::Yes]), []);
            hear(&mut m, &["ask 1 conn 4 LOCK gate Lock", "ask 3 conn 4 LOCK gate Lock"]);
            assert_eq!(press(&mut m, &[Press::Yes]), []);
            press(&mut m, &[Press::Digit(2)]);
            assert_eq!(press(&mut m, &[Press::Yes]), say("2 y"));
        }
    }

    #[test]
    fn a_question_that_changes_is_not_selected_any_more() {
        let mut m = asks(&[1]);
        press(&mut m, &[Press::Digit(1)]);
        hear(&mut m, &["ask 1 conn 1 LIST gate RequestKeys uid 1 pid 2 program p"]);
        assert_eq!(selected(&m), Some(1));
        hear(&mut m, &["ask 1 conn 2 LOCK gate Lock"]);
        assert_eq!(selected(&m), None);
    }

    #[test]
    fn other_questions_leave_the_selection() {
        let mut m = asks(&[1, 2]);
        press(&mut m, &[Press::Digit(2)]);
        hear(&mut m, &["gone 1", "gone 77", "ask 9 conn 1 LIST gate RequestKeys", "lock locked", "end"]);
        assert_eq!(press(&mut m, &[Press::Yes]), say("2 y"));
    }

    #[test]
    fn keys_come_with_the_end_of_their_block() {
        let mut m = hearing(&["lock open", "key 1 SHA256:a left - confirm no comment x"]);
        assert!(m.keys.is_empty() && m.hides() && m.blocks() == 0);
        hear(&mut m, &["end"]);
        assert!(m.keys.len() == 1 && !m.hides() && m.blocks() == 1);
        hear(&mut m, &["lock open", "key 2 SHA256:b left 5 confirm yes comment y", "key 3 SHA256:c left - confirm no comment z", "end"]);
        assert_eq!(m.keys.iter().map(|k| k.number).collect::<Vec<_>>(), [2, 3]);
    }

    #[test]
    fn a_lock_hides_at_once_and_keeps_no_key() {
        let mut m = hearing(&["lock open", "key 1 SHA256:a left - confirm no comment x", "end", "lock locked"]);
        assert!(m.keys.is_empty() && m.hides());
        hear(&mut m, &["key 1 SHA256:a left - confirm no comment x", "end"]);
        assert!(m.keys.is_empty() && m.hides());
        hear(&mut m, &["key 1 SHA256:a left - confirm no comment x", "end"]);
        assert!(m.keys.is_empty() && m.hides());
        hear(&mut m, &["lock open", "end"]);
        assert!(!m.hides());
    }

    #[test]
    fn nothing_grows_without_bound() {
        let mut m = hearing(&["lock open"]);
        for n in 0..3 * MOST_QUESTIONS {
            hear(&mut m, &[&format!("ask {n} conn 1 LIST gate RequestKeys"), &format!("key {n} SHA256:a left - confirm no comment x")]);
            hear(&mut m, &["what", &format!("error {n}")]);
        }
        hear(&mut m, &["end"]);
        assert_eq!((m.questions.len(), m.left_out, m.keys.len(), m.notes().count()), (MOST_QUESTIONS, 2 * MOST_QUESTIONS, MOST_KEYS, MOST_NOTES));
        hear(&mut m, &["gone 1", &format!("gone {}", 2 * MOST_QUESTIONS)]);
        assert_eq!((m.questions.len(), m.left_out), (MOST_QUESTIONS - 1, 2 * MOST_QUESTIONS - 1));
    }

    #[test]
    fn a_bell_for_each_new_question() {
        let mut m = asks(&[1]);
        assert!(m.take_bell() && !m.take_bell());
        hear(&mut m, &["ask 1 conn 1 LIST gate RequestKeys uid 1 pid 2 program p", "gone 4"]);
        assert!(!m.take_bell());
        hear(&mut m, &["ask 2 conn 1 LIST gate RequestKeys"]);
        assert!(m.take_bell());
    }

    #[test]
    fn notes_go_after_a_moment() {
        let mut m = asks(&[1]);
        hear(&mut m, &["gone 1"]);
        assert_eq!(m.notes().collect::<Vec<_>>(), ["question 1: nobody waits for it any more"]);
        assert_eq!(m.until_change(NOW), Some(NOTE));
        m.tick(NOW + NOTE);
        assert!(m.notes().next().is_none() && m.until_change(NOW + NOTE).is_none());
    }

    #[test]
    fn the_next_second_that_is_shown() {
        let at = |ms| NOW + Duration::from_millis(ms);
        assert_eq!(hearing(&["lock open", "key 1 SHA256:a left - confirm no comment x", "end"]).until_change(at(300)), None);
        let mut m = asks(&[1]);
        assert_eq!([m.until_change(NOW), m.until_change(at(300))], [Some(Duration::from_secs(1)), Some(Duration::from_millis(700))]);
        assert_eq!(m.until_change(at(1999)), Some(SHORTEST));
        m.hear(read(Some("lock open")), at(500));
        m.hear(read(Some("key 1 SHA256:a left 5 confirm no comment x")), at(500));
        m.hear(Event::End, at(500));
        assert_eq!(m.until_change(at(3250)), Some(Duration::from_millis(250)));
    }

    #[test]
    fn quitting_and_the_rest() {
        let mut m = asks(&[1]);
        assert_eq!(press(&mut m, &[Press::Quit, Press::Redraw, Press::Suspend]), [Deed::End, Deed::Redraw, Deed::Suspend]);
        assert_eq!(press(&mut m, &[Press::Other]), []);
    }
}
