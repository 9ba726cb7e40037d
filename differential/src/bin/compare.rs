//! compare ORACLE REQUESTS SEED OUT: random requests to the unchanged Rust and to the core, answers and states compared. ORACLE is the program
//! `scripted`, or `standin` (one request at a time alone).
//! ../README.md has the rest.
use differential::both::{Both, CALLS, FIRSTS};
use differential::held::{Addition, Held, KEYS, STORE};
use differential::requests::{any_key, comment, constraints, damaged, ed25519_key, rsa_exact, rsa_key, special, text_of, whole, Key};
use differential::stale::Stale;
use differential::world::{Landing, World};
use differential::{hex, string, strings, unhex, without_comments, Random};
use key_agent::{Hash, Reply};
use std::collections::BTreeMap;
use std::io::{Read, Write};
use std::process::{Command, Stdio};
use std::sync::atomic::Ordering;

/// What an output line belongs to: the request's number in its segment, or the list behind it.
#[derive(Clone, Copy, PartialEq)]
enum Out {
    Request(usize),
    Answer(usize),
    Probe(usize),
    /// The first part of a frame, or a frame that is too long: nothing lands.
    Bytes(usize),
}
#[derive(Default)]
struct Segment {
    crossing: bool,
    lines: Vec<String>,
    outs: Vec<Out>,
    requests: Vec<Vec<u8>>,
    /// The Rust is told no at the gate where the rule has no room, so that both go on with the same keys.
    aligned: bool,
    /// Of each request, one at a time, the line by which its gate is answered.
    gates: Vec<usize>,
}
impl Segment {
    /// One at a time, which landing is a request's.
    fn landing_of(&self) -> Vec<usize> {
        let mut at = 0;
        let mut begun = vec![0; self.requests.len()];
        for what in &self.outs {
            if let Out::Request(i) = *what {
                begun[i] = at;
            }
            at += matches!(what, Out::Request(_) | Out::Probe(_)) as usize;
        }
        begun
    }
    /// The script for the Rust, by how the requests landed here.
    fn for_rust(&self, landings: &[Landing]) -> Vec<String> {
        let mut lines = self.lines.clone();
        if self.aligned {
            for (at, gate) in self.landing_of().into_iter().zip(&self.gates) {
                if landings.get(at).is_some_and(|l| l.no_room.is_some()) {
                    assert_eq!(lines[*gate].pop(), Some('y'), "past the gate");
                    lines[*gate].push('n');
                }
            }
        }
        lines
    }
    fn say(&mut self, line: impl Into<String>) {
        self.lines.push(line.into());
    }
    fn out(&mut self, what: Out, line: String) {
        self.lines.push(line);
        self.outs.push(what);
    }
    fn to(&mut self, conn: &str, payload: Vec<u8>) -> usize {
        let i = self.requests.len();
        let text = if payload.is_empty() { "-".into() } else { hex(&payload) };
        self.out(Out::Request(i), format!("to {conn} {text}"));
        self.requests.push(payload);
        i
    }
}

const MOVES: [u64; 14] = [0, 1, 1, 10, 499, 500, 501, 998, 999, 1000, 1001, 1999, 2000, 3000];

/// Keys that come near a limit, and the requests by which they are added first: 24 or more of any kind; so many large ones that the bytes give out; or
/// bytes to the last one, or one more.
fn crowd(r: &mut Random, pool: &[Key]) -> (Vec<Key>, Vec<Vec<u8>>) {
    let (kind, limited) = (r.below(3), r.percent(35));
    let n = if kind == 0 { KEYS + 1 + r.below(8) } else { 12 };
    let (mut keys, mut adds, mut held) = (Vec::new(), Vec::new(), Held::default());
    while keys.len() < n {
        if kind == 2 && STORE - held.len() < 3_900 {
            let left = STORE - held.len() + r.below(2);
            keys.push(last_key(r, left, &mut adds));
            keys.extend((0..4).map(|_| ed25519_key(r)));
            break;
        }
        let size = 760 + r.below(9);
        let key = if kind > 0 { rsa_key(r, size) } else if r.percent(80) { ed25519_key(r) } else { r.pick(pool).clone() };
        let life = if limited && r.percent(60) { vec![1, 0, 0, 0, 1 + r.below(2) as u8] } else { vec![] };
        let p = [vec![25], key.fields.clone(), comment(r), life].concat();
        held.land(&p, 0);
        keys.push(key);
        adds.push(p);
    }
    (keys, adds)
}
/// A key that takes this many bytes with its comment; and its request.
fn last_key(r: &mut Random, left: usize, adds: &mut Vec<Vec<u8>>) -> Key {
    let blob = (left / 4).min(1024);
    let text = r.below(blob.min(256));
    let key = rsa_exact(r, Some(blob), left - blob - text);
    adds.push([vec![17], key.fields.clone(), text_of(text)].concat());
    key
}

/// A request by which keys come and go: adds, also of held keys with other comments, and removals.
fn turnover(r: &mut Random, keys: &[Key]) -> Vec<u8> {
    let k = r.pick(keys).clone();
    let text = if r.percent(30) { text_of(255) } else { comment(r) };
    match r.below(10) {
        0..=2 => [vec![17], k.fields, text].concat(),
        3..=5 => [vec![25], k.fields, text, constraints(r)].concat(),
        _ => [vec![18], string(&k.blob)].concat(),
    }
}

/// One request at a time.
fn serial(r: &mut Random, pool: &[Key]) -> Segment {
    let mut s = Segment { aligned: r.percent(75), ..Segment::default() };
    s.say("fresh");
    let crowded = r.percent(30);
    let (keys, first) = if crowded {
        crowd(r, pool)
    } else {
        let keys: Vec<Key> = (0..3 + r.below(10)).map(|_| r.pick(pool).clone()).collect();
        let adds = r.below(keys.len() + 1);
        let first = keys[..adds].iter().map(|k| [vec![17], k.fields.clone(), comment(r)].concat()).collect();
        (keys, first)
    };
    let specials = r.percent(25);
    let length = 30 + r.below(90);
    let mut phrases: Vec<Vec<u8>> = vec![b"ab".to_vec()];
    let adds = first.len();
    for at in 0..length {
        let mut p = if at < adds {
            first[at].clone()
        } else if crowded && r.percent(50) {
            turnover(r, &keys)
        } else if specials && r.percent(4) {
            special(r, &keys)
        } else {
            whole(r, &keys)
        };
        if at >= adds && r.percent(20) {
            p = damaged(r, p);
        }
        let (gate, confirm) = (if r.percent(95) { 'y' } else { 'n' }, if r.percent(80) { 'y' } else { 'n' });
        let asked = r.percent(30);
        s.gates.push(s.lines.len());
        s.say(format!("gate-always {}", if asked { '?' } else { gate }));
        s.say(format!("confirm-always {}", if asked { '?' } else { confirm }));
        if let (Some(22), (w, _)) = (p.first(), strings(&p[1.min(p.len())..], 1)) {
            if w.len() == 1 && !phrases.iter().any(|x| x == w[0]) {
                phrases.push(w[0].to_vec());
            }
        }
        let first = p.first().copied();
        let conn = *r.pick(&["a", "b", "c"]);
        if r.percent(2) && r.percent(10) {
            // at the longest payload, and beyond it
            p.resize(262_144 + r.below(2), 0);
        }
        let i = if p.len() > 262_144 {
            let i = s.requests.len();
            s.out(Out::Bytes(i), format!("to {conn} {}", hex(&p)));
            s.requests.push(p);
            i
        } else if r.percent(3) {
            let (i, f) = (s.requests.len(), string(&p));
            let at = r.below(f.len());
            if at > 0 {
                s.out(Out::Bytes(i), format!("raw {conn} {}", hex(&f[..at])));
            }
            s.out(Out::Request(i), format!("raw {conn} {}", hex(&f[at..])));
            s.requests.push(p);
            i
        } else {
            s.to(conn, p)
        };
        if asked {
            s.gates[i] = s.lines.len();
            s.out(Out::Answer(i), format!("ans {conn} {gate}"));
            s.out(Out::Answer(i), format!("ans {conn} {confirm}"));
        }
        if first == Some(25) {
            // lets a timer of lifetime 0 go off in the Rust
            s.say("adv 0");
        }
        s.say("gate-always y");
        s.out(Out::Probe(i), "to z 0b".into());
        if r.percent(25) {
            s.say(format!("adv {}", r.pick(&MOVES)));
        }
    }
    // what a lock has hidden comes out
    s.say("confirm-always y");
    for p in phrases {
        let i = s.to("z", [vec![23], string(&p)].concat());
        s.out(Out::Probe(i), "to z 0b".into());
    }
    s
}

/// Adds keys until there is room for no more, or hardly; some of these, and some that are not held.
fn fill(r: &mut Random, pool: &[Key], s: &mut Segment) -> Vec<Key> {
    let mut held = Held::default();
    s.requests.iter().for_each(|p| held.land(p, 0));
    let large = r.percent(40);
    let mut keys = Vec::new();
    let spare = r.below(2);
    while held.0.len() + spare < KEYS {
        let key = if large { rsa_key(r, 768) } else if r.percent(70) { ed25519_key(r) } else { r.pick(pool).clone() };
        let life = if r.percent(30) { vec![1, 0, 0, 0, 1 + r.below(3) as u8] } else { vec![] };
        let p = [vec![25], key.fields.clone(), comment(r), life].concat();
        keys.push(key);
        if held.no_room(&Addition::of(&p).expect("whole")).is_some() {
            break;
        }
        held.land(&p, 0);
        s.to("s", p);
    }
    let from = keys.len() - keys.len().min(3);
    keys.drain(..from);
    keys.extend([ed25519_key(r), rsa_key(r, 64)]);
    keys
}

/// Requests that cross: a few keys, then up to six requests with their questions left open and answered in any order.
fn crossing(r: &mut Random, pool: &[Key]) -> Segment {
    let mut s = Segment { crossing: true, ..Segment::default() };
    // about the lock, about one key and its confirmations, or about the room that is left
    let (about_lock, about_room) = (r.percent(50), r.percent(25));
    let n = if about_lock { 1 + r.below(3) } else { 1 };
    let mut keys: Vec<Key> = (0..n).map(|_| r.pick(pool).clone()).collect();
    let add = |r: &mut Random, k: &Key| {
        let mut c = Vec::new();
        if r.percent(40) {
            c.extend([1, 0, 0, 0, 1 + r.below(3) as u8]);
        }
        if r.percent(if about_lock { 60 } else { 80 }) {
            c.push(2);
        }
        [vec![25], k.fields.clone(), comment(r), c].concat()
    };
    s.say("fresh");
    for k in &keys {
        if r.percent(85) {
            let p = add(r, k);
            s.to("s", p);
        }
    }
    if about_room {
        keys.extend(fill(r, pool, &mut s));
    }
    let locked = about_lock && r.percent(30);
    if locked {
        s.to("s", [vec![22], string(b"ab")].concat());
    }
    s.say("gate-always ?");
    s.say("confirm-always ?");
    let total = 2 + r.below(5);
    let mut slots: Vec<(String, usize, usize)> = Vec::new();
    let most = s.requests.len() + 40;
    while s.requests.len() < most && (slots.len() < total || r.percent(60)) {
        if slots.len() < total && r.percent(40) {
            let k = r.pick(&keys).clone();
            let p = match r.below(if locked { 26 } else if about_lock { 18 } else { 13 }) {
                0 => vec![11],
                1..=3 => add(r, &k),
                4 | 5 => [vec![18], string(&k.blob)].concat(),
                6 if r.percent(50) => vec![19],
                6..=12 => {
                    let flags = *r.pick(&[0u32, 2, 4]);
                    [vec![13], string(&k.blob), string(b"data"), flags.to_be_bytes().to_vec()].concat()
                }
                13..=15 => [vec![22], string(*r.pick(&[&b"ab"[..], b"cd", b""]))].concat(),
                _ => [vec![23], string(*r.pick(&[&b"ab"[..], b"ab", b"cd", b"", b"abcd", b"abab"]))].concat(),
            };
            let conn = format!("c{}", slots.len());
            let i = s.to(&conn, p);
            slots.push((conn, i, 0));
        } else if r.percent(15) {
            s.say(format!("adv {}", r.pick(&MOVES[1..])));
        } else if !slots.is_empty() {
            let at = r.below(slots.len());
            let yes = r.percent(85);
            let (conn, i, used) = &mut slots[at];
            *used += 1;
            s.out(Out::Answer(*i), format!("ans {conn} {}", if yes { 'y' } else { 'n' }));
        }
    }
    while !slots.is_empty() {
        let (conn, i, _) = slots.swap_remove(r.below(slots.len()));
        for _ in 0..6 {
            s.out(Out::Answer(i), format!("ans {conn} y"));
        }
    }
    s.say("gate-always y");
    s.say("confirm-always y");
    for p in [vec![11], [vec![23], string(b"ab")].concat(), vec![11], [vec![23], string(b"cd")].concat(), vec![11]] {
        s.to("e", p);
    }
    s
}

#[derive(Default)]
struct Tally {
    compared: u64,
    lists: u64,
    by_byte: BTreeMap<String, u64>,
    kinds: BTreeMap<String, (u64, String)>,
    dropped: u64,
    crossing: u64,
    crossing_differ: u64,
    asked_again: u64,
    crossings: BTreeMap<String, (u64, String)>,
    /// Refused for want of room, and the Rust was told no.
    foretold: BTreeMap<&'static str, u64>,
    most_held: usize,
    most_expired: usize,
    told: u64,
    replayed: u64,
    held_replayed: u64,
    unlisted: Vec<String>,
    segments: (u64, u64),
    comments: [u64; 4],
    accepted: u64,
    signed: u64,
}
fn note(kinds: &mut BTreeMap<String, (u64, String)>, kind: &str, input: String) {
    let e = kinds.entry(kind.to_string()).or_insert((0, input.clone()));
    e.0 += 1;
    if input.len() < e.1.len() {
        e.1 = input;
    }
}

const FAILURE: &str = "reply 0000000105";
const SUCCESS: &str = "reply 0000000106";

fn is_positive(d: &[u8]) -> bool {
    match d {
        [] => false,
        [0, b, ..] => *b >= 128,
        [0] => false,
        [b, ..] => *b < 128,
    }
}

/// A difference that docs/DIFFERENCES.md lists for one request at a time, by what stands in the payload; and whether the states part.
fn listed(standin: bool, p: &[u8], l: &Landing, ours: &str, rust: &str) -> Option<(&'static str, bool)> {
    if l.was_locked {
        return None;
    }
    match p.first()? {
        17 | 25 if ours == FAILURE && rust == SUCCESS => {
            let (s, _) = strings(&p[1..], 7);
            let length = |n: usize| s[..n].iter().map(|x| 4 + x.len()).sum::<usize>();
            match *s.first()? {
                // `standin` reads key fields as 01 does
                b"ssh-ed25519" | b"ecdsa-sha2-nistp256" | b"ecdsa-sha2-nistp384" | b"ecdsa-sha2-nistp521" if standin => {}
                t if standin && t != b"ssh-rsa" => return None,
                b"ssh-ed25519" if s.len() > 2 => {
                    if s[1].len() > 32 || s[2].len() > 64 {
                        return Some(("17, 25: Ed25519 with A of more than 32 bytes, or a pair of more than 64", true));
                    }
                }
                b"ecdsa-sha2-nistp256" | b"ecdsa-sha2-nistp384" | b"ecdsa-sha2-nistp521" if s.len() > 3 => {
                    if matches!(s[2].first(), Some(2 | 3)) {
                        return Some(("17, 25: ECDSA with Q compressed", true));
                    }
                    if !is_positive(s[3]) {
                        return Some(if s[3].iter().all(|b| *b == 0) {
                            ("17, 25: ECDSA with d zero in full size", true)
                        } else if s[3][0] == 0 {
                            ("17, 25: ECDSA with a needless 00 in front of d", true)
                        } else {
                            ("17, 25: ECDSA with d's high bit set and no sign byte", true)
                        });
                    }
                }
                b"ssh-rsa" if s.len() > 6 => {
                    if 4 + 7 + 4 + s[1].len() + 4 + s[2].len() > 1024 {
                        return Some(("17, 25: a blob of more than 1,024 bytes", true));
                    }
                    if length(7) > 3072 {
                        return Some(("17, 25: fields of more than 3,072 bytes", true));
                    }
                }
                b"ssh-ed25519" | b"ssh-rsa" => return None,
                _ => return Some(("17, 25: a type that is none of 01's five", true)),
            }
            // these are found before the key check
            let why = if Addition::of(p)?.comment.len() > 255 { Some("17, 25: a comment of more than 255 bytes") } else { l.no_room };
            why.filter(|_| l.request.check.is_none()).map(|why| (why, true))
        }
        22 if ours == FAILURE && rust == SUCCESS => (strings(&p[1..], 1).0.first()?.len() > 1024).then_some(("22: a passphrase of more than 1,024 bytes", true)),
        13 if ours == "close" && rust.len() > 16 && &rust[14..16] == "0e" => {
            (strings(&unhex(&rust[16..]), 1).0.first()?.len() > 2048).then_some(("13: a signature of more than 2,048 bytes", false))
        }
        _ => None,
    }
}

/// The hash that a signature of `scripted` was made with.
fn hash_of(reply: &str) -> Hash {
    let b = unhex(&reply[16..]);
    let sig = strings(&b, 1).0[0].to_vec();
    match strings(&sig, 1).0[0] {
        b"rsa-sha2-256" => Hash::Sha256,
        b"rsa-sha2-512" => Hash::Sha512,
        _ => Hash::None,
    }
}

fn show(s: &Segment, upto: usize) -> String {
    // the segment's lines up to the one that gives output line `upto`
    let mut k = 0;
    let mut text = String::new();
    for l in &s.lines {
        text += l;
        text.push('\n');
        if l.starts_with("to ") || l.starts_with("ans ") || l.starts_with("raw ") {
            if k == upto {
                break;
            }
            k += 1;
        }
    }
    text
}

/// A list that is the Rust's but for its comments.
fn has_comments(ours: &str, rust: &str, t: &mut Tally) -> bool {
    let is = ours != rust && without_comments(ours) == rust;
    if is {
        note(&mut t.kinds, "11: comments, which the Rust drops", "0b".into());
    }
    is
}

fn judge_serial(standin: bool, s: &Segment, ours: &[String], rust: &[String], landings: &[Landing], t: &mut Tally) {
    t.segments.0 += 1;
    let begun = s.landing_of();
    for (k, what) in s.outs.iter().enumerate() {
        let (Out::Request(i) | Out::Answer(i) | Out::Probe(i) | Out::Bytes(i)) = *what;
        t.lists += matches!(what, Out::Probe(_)) as u64;
        if let (Out::Request(_), true, Some(why)) = (what, s.aligned, landings[begun[i]].no_room) {
            *t.foretold.entry(why).or_default() += 1;
        }
        if matches!(what, Out::Request(_)) || s.requests[i].len() > 262_144 && matches!(what, Out::Bytes(_)) {
            t.compared += 1;
            *t.by_byte.entry(s.requests[i].first().map_or("empty".into(), |b| if [11, 13, 17, 18, 19, 22, 23, 25].contains(b) { b.to_string() } else { "other".into() })).or_default() += 1;
        }
        if has_comments(&ours[k], &rust[k], t) || ours[k] == rust[k] {
            if ours[k].len() > 16 && &ours[k][14..16] == "0e" {
                t.signed += 1;
                let mine = landings[begun[i]].request.hash.expect("a signature was asked for");
                // of `standin` the signature itself says so
                let theirs = if standin { mine } else { hash_of(&rust[k]) };
                if mine != theirs {
                    let blob = strings(&s.requests[i][1..], 1).0[0];
                    if strings(blob, 1).0[0] != b"ssh-rsa" && theirs == Hash::None {
                        note(&mut t.kinds, "13: flags 2 or 4, key not RSA: a hash is asked for, the Rust signs without", hex(&s.requests[i]));
                    } else {
                        t.unlisted.push(format!("hash {mine:?} against {theirs:?}\n{}", show(s, k)));
                    }
                }
            } else if ours[k] == SUCCESS && matches!(s.requests[i].first(), Some(17 | 25)) && !matches!(what, Out::Probe(_)) {
                t.accepted += 1;
            }
            continue;
        }
        let found = match what {
            Out::Probe(_) | Out::Bytes(_) => None,
            _ => listed(standin, &s.requests[i], &landings[begun[i]], &ours[k], &rust[k]),
        };
        match found {
            Some((kind, parts)) => {
                note(&mut t.kinds, kind, hex(&s.requests[i]));
                if parts {
                    t.dropped += (s.requests.len() - 1 - i) as u64;
                    return;
                }
            }
            None => {
                t.unlisted.push(format!("core {}\nrust {}\nscript:\n{}", ours[k], rust[k], show(s, k)));
                return;
            }
        }
    }
}

/// What the core made of a script.
struct Ran {
    ours: Vec<String>,
    landings: Vec<Landing>,
    gateway: Both,
    clock: u64,
}
fn run_core(s: &Segment, w: &mut World, t: &mut Tally) -> Ran {
    let ours: Vec<String> = s.lines.iter().flat_map(|l| w.line(l)).collect();
    assert_eq!(ours.len(), s.outs.len());
    assert!(!s.crossing || w.open() == 0, "all have landed");
    judge_held(s, w, t);
    Ran { ours, landings: std::mem::take(&mut w.landings), gateway: w.gateway.clone(), clock: w.clock }
}

/// What the host found of lists and of room since the script began.
fn judge_held(s: &Segment, w: &mut World, t: &mut Tally) {
    w.compare_keys();
    t.told += std::mem::take(&mut w.told);
    t.comments.iter_mut().zip(std::mem::take(&mut w.listed)).for_each(|(n, m)| *n += m);
    t.most_held = t.most_held.max(w.most_held);
    t.most_expired = t.most_expired.max(w.most_expired);
    for wrong in w.wrong.drain(..) {
        t.unlisted.push(format!("{wrong}\nscript:\n{}", show(s, usize::MAX)));
    }
}

/// Demand 3 on the running code: the landed requests once more, one at a time in landing order on a fresh gateway, each with the answers lent
/// at its landing, at the greatest reading accepted so far. Same outcomes, same replies, same end.
fn replay(landings: &[Landing], mut end: Both, clock: u64) -> Result<u64, String> {
    let mut g = Both::new();
    let mut reply = Reply::new();
    for (i, l) in landings.iter().enumerate() {
        let o = g.call(l.request.payload(), l.clock, &l.request.answers(), &mut reply);
        if o != l.outcome || reply.bytes() != l.reply {
            return Err(format!("landing {i} ({}): {:?} {} alone, {:?} {} crossing", l.conn, o, hex(reply.bytes()), l.outcome, hex(&l.reply)));
        }
    }
    for gateway in [&mut g, &mut end] {
        gateway.call(Default::default(), clock, &Default::default(), &mut reply);
    }
    if *g != *end {
        return Err(format!("ends differ: {:?} alone, {:?} crossing", *g, *end));
    }
    if let Some(wrong) = g.wrong.into_iter().chain(end.wrong).next() {
        return Err(wrong);
    }
    Ok(landings.len() as u64)
}

fn name(p: &[u8]) -> &'static str {
    match p[0] {
        11 => "list",
        13 => "sign",
        17 | 25 => "add",
        18 => "remove",
        19 => "remove all",
        22 => "LOCK",
        23 => "UNLOCK",
        _ => "other",
    }
}

/// The last thing that each request heard.
fn ends(s: &Segment, lines: &[String]) -> Vec<String> {
    let mut out = vec![String::new(); s.requests.len()];
    for (what, line) in s.outs.iter().zip(lines) {
        let (Out::Request(i) | Out::Answer(i) | Out::Probe(i) | Out::Bytes(i)) = *what;
        if line != "nobody-asked" {
            out[i] = line.clone();
        }
    }
    out
}

fn judge_crossing(s: &Segment, ours: &[String], rust: &[String], predicted: &[String], landings: &[Landing], t: &mut Tally) {
    t.segments.1 += 1;
    if let Some(k) = (0..rust.len()).find(|k| rust[*k] != predicted[*k]) {
        t.unlisted.push(format!("crossing: the Rust does not follow its own rule\nrust      {}\npredicted {}\nscript:\n{}", rust[k], predicted[k], show(s, k)));
        return;
    }
    let (mine, theirs) = (ends(s, ours), ends(s, rust));
    t.crossing += s.requests.len() as u64;
    let mut earlier = false;
    // in the order of landing here
    for (at, l) in landings.iter().enumerate() {
        // a connection has one request in the part that crosses; before and after it they come one at a time
        let nth = landings[..at].iter().filter(|x| x.conn == l.conn).count();
        let i = s.outs.iter().zip(s.lines.iter().filter(|x| x.starts_with("to ") || x.starts_with("ans "))).filter_map(|(o, line)| match o {
            Out::Request(i) if line.split(' ').nth(1) == Some(&l.conn) => Some(*i),
            _ => None,
        });
        let i = i.clone().nth(nth).expect("its request");
        if has_comments(&mine[i], &theirs[i], t) || mine[i] == theirs[i] {
            if l.request.confirmations > 1 {
                t.asked_again += 1;
            }
            continue;
        }
        t.crossing_differ += 1;
        let p = &s.requests[i];
        let asked = l.request.gate == Some(true);
        let kind = if asked && l.was_locked && p[0] != 23 && mine[i] == FAILURE {
            Some(format!("{} past a landed LOCK", name(p)))
        } else if asked && !l.was_locked && p[0] == 23 && mine[i] == FAILURE {
            Some("UNLOCK past a landed UNLOCK".to_string())
        } else if let Some(why) = l.no_room.filter(|_| mine[i] == FAILURE) {
            Some(format!("add that finds no room at its landing ({why})"))
        } else if p[0] == 13 && asked && l.request.confirmations > 0 && l.request.confirmations < 2 && l.request.signature.is_none() && mine[i] == FAILURE && l.request.confirmation.is_some_and(|c| c.answer) {
            let blob = strings(&p[1..], 1).0[0];
            let removed = landings[..at].iter().any(|x| {
                x.reply == [0, 0, 0, 1, 6]
                    && match x.request.payload().bytes() {
                        [19, ..] => true,
                        [18, rest @ ..] => strings(rest, 1).0[0] == blob,
                        _ => false,
                    }
            });
            Some(format!("sign with a key that {} while its confirmation was open", if removed { "was removed" } else { "expired" }))
        } else if p[0] == 13 && asked && l.request.confirmation.zip(l.request.signature.as_ref()).is_some_and(|(c, s)| c.number != s.0) {
            Some("sign with a key that was replaced by one without Confirm while its confirmation was open: the old one's no does not count".to_string())
        } else if p[0] == 13 && asked && l.request.confirmations > 1 {
            Some("sign with a key that was replaced while its confirmation was open: asked again".to_string())
        } else {
            None
        };
        let kind = match kind {
            Some(k) => k,
            // the tables or locks differ since an earlier one
            None if earlier => "follows from an earlier one in its script".to_string(),
            None => {
                t.unlisted.push(format!("crossing, {}: core {} rust {}\nscript:\n{}", name(p), mine[i], theirs[i], show(s, usize::MAX)));
                return;
            }
        };
        earlier = true;
        note(&mut t.crossings, &kind, show(s, usize::MAX));
    }
}

fn run_oracle(oracle: &str, script: String) -> Vec<String> {
    let mut child = Command::new(oracle).env("SORT", "1").stdin(Stdio::piped()).stdout(Stdio::piped()).spawn().expect("the oracle starts");
    let mut input = child.stdin.take().unwrap();
    let writer = std::thread::spawn(move || input.write_all(script.as_bytes()));
    let mut text = String::new();
    child.stdout.take().unwrap().read_to_string(&mut text).expect("text");
    writer.join().unwrap().expect("the oracle reads its script");
    assert!(child.wait().unwrap().success(), "the oracle failed");
    text.lines().map(str::to_string).collect()
}

fn main() {
    let a: Vec<String> = std::env::args().collect();
    let (oracle, requests, seed, out) = (&a[1], a[2].parse::<u64>().expect("REQUESTS"), a[3].parse::<u64>().expect("SEED"), &a[4]);
    let standin = oracle.ends_with("standin");
    let mut r = Random(seed);
    let mut t = Tally::default();
    let start = std::time::Instant::now();
    while t.compared + t.crossing < requests {
        let pool: Vec<Key> = (0..60).map(|_| any_key(&mut r)).collect();
        let segments: Vec<Segment> = (0..150).map(|_| if !standin && r.percent(70) { crossing(&mut r, &pool) } else { serial(&mut r, &pool) }).collect();
        let (mut w, mut held, mut stale) = (World::new(), World::new(), Stale::default());
        (w.sort, w.standin) = (true, standin);
        let ran: Vec<Ran> = segments.iter().map(|s| run_core(s, &mut w, &mut t)).collect();
        let script: String = segments.iter().zip(&ran).flat_map(|(s, ran)| s.for_rust(&ran.landings)).flat_map(|l| [l, "\n".into()]).collect();
        let rust = run_oracle(oracle, script);
        let mut at = 0;
        for (s, ran) in segments.iter().zip(ran) {
            let theirs = &rust[at..at + ran.ours.len()];
            at += ran.ours.len();
            if s.crossing {
                let predicted: Vec<String> = s.lines.iter().filter_map(|l| stale.line(l)).collect();
                judge_crossing(s, &ran.ours, theirs, &predicted, &ran.landings, &mut t);
                match replay(&ran.landings, ran.gateway, ran.clock) {
                    Ok(n) => t.replayed += n,
                    Err(e) => t.unlisted.push(format!("demand 3: {e}\nscript:\n{}", show(s, usize::MAX))),
                }
                // once more with check and signature left open too, here alone
                for l in &s.lines {
                    match l.as_str() {
                        "gate-always ?" => held.hold = true,
                        "gate-always y" => held.hold = false,
                        _ => {}
                    }
                    held.line(l);
                }
                judge_held(s, &mut held, &mut t);
                match replay(&held.landings, held.gateway.clone(), held.clock) {
                    Ok(n) => t.held_replayed += n,
                    Err(e) => t.unlisted.push(format!("demand 3, all questions held: {e}\nscript:\n{}", show(s, usize::MAX))),
                }
            } else {
                judge_serial(standin, s, &ran.ours, theirs, &ran.landings, &mut t);
                for l in s.lines.iter().filter(|l| l.starts_with("adv ")) {
                    stale.line(l);
                    held.line(l);
                }
            }
            if t.unlisted.len() > 20 {
                break;
            }
        }
        assert!(t.unlisted.len() > 20 || at == rust.len(), "lines left over");
        if t.unlisted.len() > 20 {
            break;
        }
    }
    let mut text = String::new();
    let say = |line: String, text: &mut String| {
        println!("{line}");
        *text += &line;
        text.push('\n');
    };
    say(format!("{} seed {seed}: {} requests compared in {} scripts, {:.0} s", if standin { "standin," } else { "scripted," }, t.compared + t.crossing, t.segments.0 + t.segments.1, start.elapsed().as_secs_f64()), &mut text);
    say(format!("one at a time: {} requests in {} scripts, and a list behind each ({} lists)", t.compared, t.segments.0, t.lists), &mut text);
    let by: Vec<String> = t.by_byte.iter().map(|(k, n)| format!("{k}: {n}")).collect();
    say(format!("  by first byte: {}", by.join(", ")), &mut text);
    say(format!("  keys added on both sides: {}; signatures on both sides: {}", t.accepted, t.signed), &mut text);
    say(format!("  listed differences: {}; {} requests behind one of them not compared", t.kinds.values().map(|k| k.0).sum::<u64>(), t.dropped), &mut text);
    for (k, (n, p)) in &t.kinds {
        say(format!("    {n:8}  {k}; smallest payload {}", if p.len() > 100 { format!("{}.. ({} bytes)", &p[..100], p.len() / 2) } else { p.clone() }), &mut text);
    }
    say("  no room, as the rule foretold; the Rust was told no and holds the same keys:".into(), &mut text);
    for (k, n) in &t.foretold {
        say(format!("    {n:8}  {k}"), &mut text);
    }
    say(format!("crossing: {} requests in {} scripts; the Rust's answers as its own rule predicts; {} requests end differently", t.crossing, t.segments.1, t.crossing_differ), &mut text);
    let mut scripts = String::new();
    for (k, (n, script)) in &t.crossings {
        say(format!("    {n:8}  {k}"), &mut text);
        scripts += &format!("# {k}\n{script}\n");
    }
    say(format!("  replaced while its confirmation was open, asked again here and not by the Rust, and the same end: {}", t.asked_again), &mut text);
    say(format!("  landings replayed one at a time on the core: {} (check and signature answered at once), {} (all questions held)", t.replayed, t.held_replayed), &mut text);
    let [all, empty, beyond, longest] = t.comments;
    say(format!("lists of the core, each item and its place compared with what the rule holds: {all} items; comments: {empty} empty, {beyond} beyond ASCII, {longest} of 255 bytes"), &mut text);
    say(format!("keys held at a script's end, their blobs, fields and comments compared with what the adds carried: {}", t.told), &mut text);
    say(format!("most keys held at once: {}; most that were gone on time at once: {}", t.most_held, t.most_expired), &mut text);
    let [calls, firsts] = [&CALLS, &FIRSTS].map(|n| n.load(Ordering::Relaxed));
    say(format!("calls made twice, as an inner one and from outside, with the same outcome, state, store and reply buffer: {calls}, and {firsts} first calls"), &mut text);
    say(format!("unlisted differences: {}", t.unlisted.len()), &mut text);
    for u in &t.unlisted {
        say(format!("-- UNLISTED\n{u}"), &mut text);
    }
    std::fs::create_dir_all(out).expect("OUT");
    std::fs::write(format!("{out}/report-{seed}{}.txt", if standin { "-standin" } else { "" }), text).expect("report");
    if !standin {
        std::fs::write(format!("{out}/crossings-{seed}.txt"), scripts).expect("scripts");
    }
    std::process::exit(if t.unlisted.is_empty() { 0 } else { 1 });
}
