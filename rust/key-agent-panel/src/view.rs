//! What is shown of a model: rows of a screen, and sentences.
use crate::model::{Model, Open};
use crate::words::{cut, Event, Key, Question, What};
use std::ops::Range;
use std::time::Duration;

/// Rows and columns in which one question of any kind is seen.
const SMALLEST: (usize, usize) = (11, 30);
const INDENT: &str = "       ";
const HELP: &str = " y yes   n no   up, down or its number selects   q ends";

#[derive(Clone, Copy, Debug, PartialEq, Eq)]
pub enum Style {
    Plain,
    Title,
    /// What the user must see at once.
    Strong,
    Selected,
}

#[derive(Clone, Debug, PartialEq, Eq)]
pub struct Row {
    pub style: Style,
    pub text: String,
}

pub struct Screen {
    pub rows: Vec<Row>,
    /// The question that is seen as selected.
    pub selected: Option<u64>,
}

/// Exactly `height` rows of at most `width` characters.
pub fn screen(m: &Model, now: Duration, height: usize, width: usize) -> Screen {
    if height < SMALLEST.0 || width < SMALLEST.1 {
        return too_small(height, width);
    }
    // the head, the note and the help, and the titles of questions and keys with a free row before each
    let room = height - 7;
    let questions: Vec<Vec<Row>> = m.questions.values().map(|open| question_rows(m, open, now, width)).collect();
    let at = m.selected.and_then(|s| m.questions.keys().position(|&n| n == s.number));
    let shown = window(&questions, at, room);
    let mut rows = vec![head(m), row("")];
    rows.push(title(questions_title(m, &shown)));
    rows.extend(questions[shown.clone()].concat());
    rows.push(row(""));
    rows.extend(keys_part(m, now, height - 2 - rows.len()));
    rows.resize(height - 2, row(""));
    rows.push(row(notes(m)));
    rows.push(row(help(m)));
    for r in &mut rows {
        r.text = cut(r.text.trim_end(), width);
    }
    let selected = at.filter(|i| shown.contains(i)).and(m.selected).map(|s| s.number);
    Screen { rows, selected }
}

fn too_small(height: usize, width: usize) -> Screen {
    let mut rows = vec![row(cut("the window is too small", width))];
    rows.resize(height.max(1), row(""));
    Screen { rows, selected: None }
}

fn row(text: impl Into<String>) -> Row {
    Row { style: Style::Plain, text: text.into() }
}

fn title(text: String) -> Row {
    Row { style: Style::Title, text }
}

fn head(m: &Model) -> Row {
    let (style, text) = match m.locked {
        Some(true) => (Style::Strong, " The agent is LOCKED"),
        Some(false) => (Style::Title, " The agent is open"),
        None if m.is_away => (Style::Strong, " Nobody serves the panel"),
        None => (Style::Title, " The agent has not told its state yet"),
    };
    Row { style, text: text.into() }
}

/// The questions that fit, whole ones from the first on, or else up to the one that must be seen.
fn window(questions: &[Vec<Row>], must: Option<usize>, room: usize) -> Range<usize> {
    let end = fitting(questions.iter(), room);
    match must {
        Some(must) if must >= end => must + 1 - fitting(questions[..=must].iter().rev(), room)..must + 1,
        _ => 0..end,
    }
}

/// How many of these go into the room.
fn fitting<'a>(blocks: impl Iterator<Item = &'a Vec<Row>>, room: usize) -> usize {
    let mut used = 0;
    blocks
        .take_while(|b| {
            used += b.len();
            used <= room
        })
        .count()
}

fn questions_title(m: &Model, shown: &Range<usize>) -> String {
    let all = m.questions.len();
    let mut text = if all == 0 { " No question is open".to_string() } else { format!(" Questions: {all}") };
    if shown.len() < all {
        text += &format!(", {} to {} shown", shown.start + 1, shown.end);
    }
    if m.left_out > 0 {
        text += &format!("; {} more are too many for this panel", m.left_out);
    }
    text
}

fn question_rows(m: &Model, open: &Open, now: Duration, width: usize) -> Vec<Row> {
    let q = &open.question;
    let selected = m.selected.map(|s| s.number) == Some(q.number);
    let mark = if selected { '>' } else { ' ' };
    let mut texts = vec![format!("{mark}{:>4}  {}, {}", q.number, what(m, q), state(open, now)), format!("{INDENT}{}", who(q))];
    if let Some((fingerprint, comment)) = of_key(m, q) {
        let together = format!("{INDENT}{fingerprint}  {comment}");
        if columns(&together) <= width {
            texts.push(together);
        } else {
            texts.extend([format!("{INDENT}{fingerprint}"), format!("{INDENT}{comment}")]);
        }
    }
    let style = if selected { Style::Selected } else { Style::Plain };
    texts.into_iter().map(|text| Row { style, text }).collect()
}

/// The columns that a text may take, at most.
fn columns(text: &str) -> usize {
    text.chars().map(|c| if c < '\u{1100}' { 1 } else { 2 }).sum()
}

fn state(open: &Open, now: Duration) -> String {
    match open.sent {
        Some(yes) => format!("{} sent", yes_or_no(yes)),
        None => format!("waits {}{}", if open.older { "over " } else { "" }, span(now.saturating_sub(open.came).as_secs())),
    }
}

fn what(m: &Model, q: &Question) -> String {
    match &q.what {
        What::Gate(class) => format!("{}, gate {class}", q.message),
        What::Confirm(_) if m.hides() => format!("{}, confirm", q.message),
        What::Confirm(key) => format!("{}, confirm key {key}", q.message),
    }
}

fn who(q: &Question) -> String {
    format!("uid {}, pid {}, program {}, connection {}", q.uid, q.pid, q.program, q.connection)
}

/// Fingerprint and comment of the key that a question names, as far as they may be shown.
fn of_key<'a>(m: &Model, q: &'a Question) -> Option<(&'a str, &'a str)> {
    let fingerprint = q.fingerprint.as_deref().filter(|_| !m.hides())?;
    Some((fingerprint, q.comment.as_deref().unwrap_or("(not held)")))
}

/// The keys that fit: in two rows each where all do, else in one, with as much of the fingerprint as goes into it.
fn keys_part(m: &Model, now: Duration, room: usize) -> Vec<Row> {
    let room = room.saturating_sub(1);
    let is_short = 2 * m.keys.len() > room;
    let keys: Vec<Vec<Row>> = m.keys.iter().map(|k| key_rows(k, left(m, k, now), is_short)).collect();
    let shown = fitting(keys.iter(), room);
    let mut text = match (m.hides(), keys.len()) {
        (true, _) => " Keys are not shown".to_string(),
        (false, 0) => " No key is held".to_string(),
        (false, n) => format!(" Keys: {n}"),
    };
    if shown < keys.len() {
        text += &format!(", {shown} shown");
    }
    let mut rows = vec![title(text)];
    rows.extend(keys[..shown].concat());
    rows
}

fn key_rows(key: &Key, left: Option<u64>, is_short: bool) -> Vec<Row> {
    let left = left.map_or("stays".to_string(), |s| format!("{} left", span(s)));
    let confirm = if key.confirm { "confirm" } else { "" };
    let text = format!(" {:>4}  {left:<16} {confirm:<8} {}", key.number, key.comment);
    if is_short {
        return vec![row(format!("{text}  {}", key.fingerprint))];
    }
    vec![row(text), row(format!("{INDENT}{}", key.fingerprint))]
}

/// The seconds that a key has left now.
fn left(m: &Model, key: &Key, now: Duration) -> Option<u64> {
    key.left.map(|s| s.saturating_sub(now.saturating_sub(m.told).as_secs()))
}

fn notes(m: &Model) -> String {
    m.notes().map(|text| format!(" {text}")).collect::<Vec<_>>().join(" |")
}

fn help(m: &Model) -> String {
    match m.typed() {
        Some(number) if m.selected.is_none() => format!("{HELP}   ({number} is not open)"),
        _ => HELP.to_string(),
    }
}

/// Seconds in words: `7 s`, `2:07`, `1:02:07`, `3 d 1:02:07`.
pub fn span(seconds: u64) -> String {
    let (days, hours, minutes, s) = (seconds / 86400, seconds / 3600 % 24, seconds / 60 % 60, seconds % 60);
    match (days, hours, minutes) {
        (0, 0, 0) => format!("{s} s"),
        (0, 0, _) => format!("{minutes}:{s:02}"),
        (0, ..) => format!("{hours}:{minutes:02}:{s:02}"),
        _ => format!("{days} d {hours}:{minutes:02}:{s:02}"),
    }
}

fn yes_or_no(yes: bool) -> &'static str {
    if yes {
        "yes"
    } else {
        "no"
    }
}

/// What a line says in a sentence, where it needs no state.
pub fn sentence(event: &Event) -> Option<String> {
    match event {
        Event::Answered { number, yes, late } => {
            Some(format!("question {number}: {}{}", yes_or_no(*yes), if *late { ", its time was over" } else { "" }))
        }
        Event::Gone(number) => Some(format!("question {number}: nobody waits for it any more")),
        Event::Error(text) => Some(format!("the agent says: {text}")),
        Event::Unknown => Some("the agent says something that this panel does not know".into()),
        Event::Ask(_) | Event::Lock(_) | Event::Key(_) | Event::End => None,
    }
}

/// Hears a line, and says what came of it in sentences. Questions that were open before are told with the first block.
pub fn tell(m: &mut Model, event: Event, now: Duration) -> Vec<String> {
    let blocks = m.blocks();
    let mut lines: Vec<String> = sentence(&event).into_iter().collect();
    if let Event::Ask(q) = &event {
        if blocks > 0 {
            lines.push(question_sentence(m, q));
        }
    }
    m.hear(event, now);
    if m.blocks() > blocks {
        lines.extend(state_sentences(m, now));
        if blocks == 0 {
            lines.extend(question_sentences(m));
        }
    }
    lines
}

fn question_sentence(m: &Model, q: &Question) -> String {
    let key = of_key(m, q).map_or(String::new(), |(fingerprint, comment)| format!(", key {fingerprint} comment {comment}"));
    format!("question {}: {}, {}{key}", q.number, what(m, q), who(q))
}

/// Lock and keys in sentences.
pub fn state_sentences(m: &Model, now: Duration) -> Vec<String> {
    let lock = if m.hides() { "locked" } else { "open" };
    let mut lines = vec![format!("the agent is {lock}")];
    lines.extend(m.keys.iter().map(|k| {
        let left = left(m, k, now).map_or(String::new(), |s| format!(", {} left", span(s)));
        let confirm = if k.confirm { ", confirm" } else { "" };
        format!("key {}: {}{left}{confirm}, comment {}", k.number, k.fingerprint, k.comment)
    }));
    lines
}

/// The open questions in sentences.
pub fn question_sentences(m: &Model) -> Vec<String> {
    m.questions.values().map(|open| question_sentence(m, &open.question)).collect()
}

#[cfg(test)]
mod tests {
    use super::*;
    use crate::keys::Press;
    use crate::words::read;

    const NOW: Duration = Duration::from_secs(100);
    const SIGN: &str = "ask 3 conn 7 SIGN confirm key 1 SHA256:abc uid 1000 pid 42 program ssh comment night shift";
    const LOCK: &str = "ask 4 conn 8 LOCK gate Lock uid 1000 pid 43 program ssh-add";
    const KEY: &str = "key 1 SHA256:abc left 65 confirm yes comment night shift";

    fn hearing(lines: &[&str]) -> Model {
        let mut m = Model::default();
        for line in lines {
            m.hear(read(Some(line)), NOW);
        }
        m
    }

    fn texts(m: &Model, now: Duration, height: usize, width: usize) -> Vec<String> {
        let rows = screen(m, now, height, width).rows;
        assert_eq!(rows.len(), height);
        assert!(rows.iter().all(|r| r.text.chars().count() <= width));
        rows.into_iter().map(|r| r.text).collect()
    }

    #[test]
    fn a_whole_screen() {
        let mut m = hearing(&["lock open", KEY, "key 2 SHA256:def left - confirm no comment ", "end", SIGN, LOCK]);
        m.press(Press::Digit(4), NOW);
        let want = " The agent is open

 Questions: 2
    3  SIGN, confirm key 1, waits 12 s
       uid 1000, pid 42, program ssh, connection 7
       SHA256:abc  night shift
>   4  LOCK, gate Lock, waits 12 s
       uid 1000, pid 43, program ssh-add, connection 8

 Keys: 2
    1  53 s left        confirm  night shift
       SHA256:abc
    2  stays
       SHA256:def


 y yes   n no   up, down or its number selects   q ends";
        assert_eq!(texts(&m, NOW + Duration::from_secs(12), 17, 80).join("\n"), want);
    }

    #[test]
    fn as_many_keys_as_fit() {
        let key = |n| format!("key {n} SHA256:f{n} left - confirm no comment c{n}");
        let keys = |count| {
            let lines: Vec<String> = ["lock open".to_string()].into_iter().chain((1..=count).map(key)).chain(["end".to_string()]).collect();
            hearing(&lines.iter().map(|l| &l[..]).collect::<Vec<_>>())
        };
        // 24 rows have room for eight keys in two rows each, and for 17 in one
        let rows = texts(&keys(8), NOW, 24, 80);
        assert_eq!(rows[4..7], [" Keys: 8", "    1  stays                     c1", "       SHA256:f1"]);
        assert_eq!(rows[20], "       SHA256:f8");
        let rows = texts(&keys(24), NOW, 24, 80);
        assert_eq!(rows[4..6], [" Keys: 24, 17 shown", "    1  stays                     c1  SHA256:f1"]);
        assert_eq!(rows[21], "   17  stays                     c17  SHA256:f17");
        let rows = texts(&keys(24), NOW, 60, 80);
        assert_eq!((&rows[4][..], &rows[52][..]), (" Keys: 24", "       SHA256:f24"));
    }

    #[test]
    fn while_locked_nothing_of_a_key() {
        let mut m = hearing(&["lock open", KEY, "end", SIGN, "ask 5 conn 9 REMOVE gate RemoveKeys uid 1 pid 2 program p key SHA256:abc"]);
        let open = texts(&m, NOW, 24, 80).join("\n");
        assert!(open.contains("SHA256:abc  night shift") && open.contains("SHA256:abc  (not held)"));
        m.hear(read(Some("lock locked")), NOW);
        for _ in 0..2 {
            let locked = texts(&m, NOW, 24, 80).join("\n");
            assert!(!locked.contains("SHA256") && !locked.contains("night shift") && locked.contains("LOCKED"), "{locked}");
            assert!(locked.contains("SIGN, confirm, waits") && locked.contains("program ssh"));
            let plain = [state_sentences(&m, NOW), question_sentences(&m)].concat().join("\n");
            assert!(!plain.contains("SHA256") && !plain.contains("night shift") && plain.contains("the agent is locked"), "{plain}");
            m.hear(read(Some("end")), NOW);
        }
    }

    #[test]
    fn before_the_first_block_nothing_of_a_key() {
        let m = hearing(&[SIGN, "lock open", KEY]);
        assert!(!texts(&m, NOW, 24, 80).join("\n").contains("SHA256"));
    }

    #[test]
    fn questions_that_were_open_before_waited_longer() {
        let m = hearing(&[SIGN, "lock open", "end", LOCK]);
        let text = texts(&m, NOW + Duration::from_secs(70), 24, 80).join("\n");
        assert!(text.contains("confirm key 1, waits over 1:10") && text.contains("gate Lock, waits 1:10"), "{text}");
    }

    #[test]
    fn a_key_whose_time_is_over_has_nothing_left() {
        let m = hearing(&["lock open", KEY, "end"]);
        assert!(texts(&m, NOW + Duration::from_secs(1000), 24, 80).join("\n").contains("0 s left"));
    }

    #[test]
    fn the_selected_question_is_seen_in_any_window() {
        let mut m = hearing(&["lock open", KEY, "end"]);
        for n in 1..=50 {
            m.hear(read(Some(&format!("ask {n} conn {n} SIGN gate Sign uid 1 pid 2 program p key SHA256:abc comment {}", "c".repeat(250)))), NOW);
        }
        for height in [SMALLEST.0, 12, 13, 24, 60] {
            m.selected = None;
            for n in 1..=50 {
                m.press(Press::Down, NOW);
                let s = screen(&m, NOW, height, 80);
                let marked = s.rows.iter().filter(|r| r.text.starts_with('>')).collect::<Vec<_>>();
                assert_eq!((s.selected, marked.len()), (Some(n), 1), "height {height}");
                assert!(marked[0].text.starts_with(&format!(">{n:>4}  ")));
            }
        }
    }

    #[test]
    fn too_small_a_window_shows_nothing_selected() {
        let mut m = hearing(&["lock open", "end", LOCK]);
        m.press(Press::Digit(4), NOW);
        for (height, width) in [(1, 80), (10, 80), (24, 5), (24, 0), (0, 0)] {
            let s = screen(&m, NOW, height, width);
            assert_eq!((s.selected, s.rows.len()), (None, height.max(1)));
        }
    }

    #[test]
    fn a_comment_that_does_not_fit_has_a_row_of_its_own() {
        let ask = |comment: &str| format!("ask 3 conn 7 SIGN gate Sign uid 1 pid 2 program p key SHA256:abc comment {comment}");
        let rows = |comment: &str| texts(&hearing(&["lock open", "end", &ask(comment)]), NOW, 24, 40)[5..7].to_vec();
        assert_eq!(rows(&"c".repeat(21)), [format!("       SHA256:abc  {}", "c".repeat(21)), String::new()]);
        assert_eq!(rows(&"c".repeat(22)), ["       SHA256:abc".to_string(), format!("       {}", "c".repeat(22))]);
        assert_eq!(rows(&"温".repeat(11)), ["       SHA256:abc".to_string(), format!("       {}", "温".repeat(11))]);
    }

    #[test]
    fn rows_are_cut_between_characters() {
        let m = hearing(&["lock open", "key 1 SHA256:a left - confirm no comment 温室温室温室温室温室", "end"]);
        assert!(texts(&m, NOW, 24, 36).join("\n").contains("温"));
    }

    #[test]
    fn times() {
        assert_eq!([span(0), span(59), span(60), span(3599)], ["0 s", "59 s", "1:00", "59:59"]);
        assert_eq!([span(3600), span(86400), span(u64::MAX)], ["1:00:00", "1 d 0:00:00", "213503982334601 d 7:00:15"]);
    }

    #[test]
    fn sentences() {
        let said = |line| sentence(&read(Some(line))).unwrap();
        assert_eq!(said("answered 3 y"), "question 3: yes");
        assert_eq!(said("answered 3 n timeout"), "question 3: no, its time was over");
        assert_eq!(said("gone 3"), "question 3: nobody waits for it any more");
        assert_eq!(said("error question 3 is not open"), "the agent says: question 3 is not open");
    }

    #[test]
    fn telling() {
        let mut m = Model::default();
        let mut told = Vec::new();
        for line in ["end", SIGN, "lock open", KEY, "end", LOCK, "gone 3", "lock locked", "end", "end"] {
            told.extend(tell(&mut m, read(Some(line)), NOW));
        }
        let want = [
            "the agent is open",
            "key 1: SHA256:abc, 1:05 left, confirm, comment night shift",
            "question 3: SIGN, confirm key 1, uid 1000, pid 42, program ssh, connection 7, key SHA256:abc comment night shift",
            "question 4: LOCK, gate Lock, uid 1000, pid 43, program ssh-add, connection 8",
            "question 3: nobody waits for it any more",
            "the agent is locked",
        ];
        assert_eq!(told, want);
    }
}
