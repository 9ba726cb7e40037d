//! bench agree: do all sides give the same replies? bench times ROUNDS: nanoseconds per request of the sides, alternating. bench count SET: each work
//! by each side, for counting from outside what is inside `measured`, between `began` and `ended`. Without words: the sets.
//! Sides: inner (the proved library's inner calls, through the crate), outer (its calls from outside, as C has them), table (the same table in Rust,
//! with its test at each call), bare (that without), russh (the unchanged `respond`). Of the first four: one call on the payload with all answers
//! lent. `..-asked`: the calls of the loop, each question answered as it comes; the library's first one is from the frame. `signer`: the signer that
//! russh has here, alone; `own`: that of the other sides.
mod keys;
mod outer;
mod table;
use agent_oracle::keys::agent::server::probe::Probe;
use agent_oracle::keys::ssh_key::{encoding::Decode, private::KeypairData, PrivateKey};
use agent_oracle::keys::PrivateKeyWithHashAlg;
use agent_oracle::scripted;
use key_agent::{split, Answers, First, Gateway, Numbered, Outcome, Payload, Question, Reply};
use keys::{s, Key, COMMENT, SETS};
use outer::Outer;
use std::cell::OnceCell;
use std::hint::black_box;
use std::sync::Arc;
use std::time::Instant;

const WORKS: [&str; 9] = ["is_sound", "list", "sign", "add", "lock", "unlock", "empty", "remove+add", "longer+shorter"];
const SIDES: [&str; 9] = ["inner", "outer", "table", "bare", "inner-asked", "outer-asked", "table-asked", "bare-asked", "russh"];
fn sides(work: &str) -> Vec<&'static str> {
    match work {
        "is_sound" => vec!["outer-sound", "table-sound"],
        "sign" => [&SIDES[..], &["signer", "own"]].concat(),
        _ => SIDES.to_vec(),
    }
}

fn add(key: &Key, comment: &[u8]) -> Vec<u8> {
    [&[17][..], &key.fields, &s(comment)].concat()
}
/// A frame that is measured, or one that only goes with it.
struct Step {
    frame: Vec<u8>,
    is_measured: bool,
}
/// The frames of a work, behind which the state is as before: `lock` and `unlock` go with each other, `add` replaces the last key by itself,
/// `remove+add` removes and adds each key in turn, always the first, `longer+shorter` replaces the first by itself with a comment of another length.
fn work(name: &str, keys: &[Key]) -> Vec<Step> {
    let (first, last) = (&keys[0], &keys[keys.len() - 1]);
    let payloads = match name {
        "list" => vec![vec![11]],
        "sign" => vec![[vec![13], s(&last.blob), s(&DATA), vec![0; 4]].concat()],
        "add" => vec![add(last, COMMENT)],
        "lock" | "unlock" => vec![[vec![22], s(b"ab")].concat(), [vec![23], s(b"ab")].concat()],
        "empty" | "is_sound" => vec![vec![]],
        "remove+add" => keys.iter().flat_map(|k| [[vec![18], s(&k.blob)].concat(), add(k, COMMENT)]).collect(),
        "longer+shorter" => vec![add(first, &[COMMENT, COMMENT].concat()), add(first, COMMENT)],
        _ => panic!("unknown work {name}"),
    };
    let goes_with = |p: &Vec<u8>| matches!((name, p.first()), ("lock", Some(23)) | ("unlock", Some(22)));
    payloads.iter().map(|p| Step { frame: s(p), is_measured: !goes_with(p) }).collect()
}
fn payload(frame: &[u8]) -> Payload<'_> {
    split(frame).payload().expect("a whole frame")
}

const DATA: [u8; 200] = [7; 200];
/// A signature as the oracle's `scripted` signer makes it.
fn signature(kind: &[u8], data: &[u8]) -> Vec<u8> {
    let mut all = Vec::with_capacity(8 + kind.len() + data.len());
    for part in [kind, data] {
        all.extend_from_slice(&(part.len() as u32).to_be_bytes());
        all.extend_from_slice(part);
    }
    all
}

/// A whole request by inner calls, each question answered as it comes.
fn inner_asked(g: &mut Gateway, reply: &mut Reply, kind: &[u8], frame: &[u8]) {
    let (made, mut a) = (OnceCell::new(), Answers::default());
    let First::Began { payload, outcome, .. } = g.first(frame, 5, reply) else { panic!("no whole frame") };
    let mut has_landed = meets(outcome, payload, kind, &made, &mut a);
    while !has_landed {
        has_landed = meets(g.call(payload, 5, &a, reply), payload, kind, &made, &mut a);
    }
}
/// Answers a question; or the request has landed.
#[inline(always)]
fn meets<'a>(outcome: Outcome, p: Payload<'_>, kind: &[u8], made: &'a OnceCell<Vec<u8>>, a: &mut Answers<'a>) -> bool {
    match outcome {
        Outcome::Reply => return true,
        Outcome::Asks(Question::Gate(_)) => a.gate = Some(true),
        Outcome::Asks(Question::Check(_)) => a.check = Some(true),
        Outcome::Asks(Question::Signature { number, data, .. }) => {
            a.signature = Some(Numbered { number, answer: Some(made.get_or_init(|| signature(kind, p.part(&data)))) });
        }
        _ => panic!("neither a question of these works nor a reply"),
    }
    false
}

/// `lent`: the last key's signature and number. `kind`: its type.
enum Side {
    Inner { g: Gateway, reply: Reply, lent: Vec<u8>, number: u64 },
    InnerAsked { g: Gateway, reply: Reply, kind: &'static [u8] },
    Outer { o: Outer, lent: Vec<u8>, number: u64 },
    OuterAsked { o: Outer, kind: &'static [u8] },
    OuterSound { o: Outer },
    Table { t: table::Table, reply: Vec<u8>, lent: Vec<u8>, number: u64 },
    TableAsked { t: table::Table, reply: Vec<u8>, kind: &'static [u8] },
    TableSound { t: table::Table },
    Russh { p: Probe, reply: Vec<u8> },
    Signer { key: PrivateKeyWithHashAlg },
    Own { kind: &'static [u8] },
}
impl Side {
    /// With these keys held.
    fn new(name: &str, keys: &[Key]) -> Side {
        let last = &keys[keys.len() - 1];
        let (kind, lent, number) = (last.kind, signature(last.kind, &DATA), keys.len() as u64);
        let table = || (table::Table::new(!name.starts_with("bare")), vec![0; key_agent::REPLY_LEN]);
        let mut side = match name {
            "inner" => Side::Inner { g: Gateway::new(), reply: Reply::new(), lent, number },
            "inner-asked" => Side::InnerAsked { g: Gateway::new(), reply: Reply::new(), kind },
            "outer" | "outer-sound" => Side::Outer { o: Outer::new(), lent, number },
            "outer-asked" => Side::OuterAsked { o: Outer::new(), kind },
            "table" | "bare" | "table-sound" => {
                let (t, reply) = table();
                Side::Table { t, reply, lent, number }
            }
            "table-asked" | "bare-asked" => {
                let (t, reply) = table();
                Side::TableAsked { t, reply, kind }
            }
            "russh" => Side::Russh { p: Probe::new(), reply: Vec::new() },
            "signer" => {
                let key = PrivateKey::new(KeypairData::decode(&mut &last.fields[..]).expect("a key"), "").expect("a key");
                return Side::Signer { key: PrivateKeyWithHashAlg::new(Arc::new(key), None) };
            }
            "own" => return Side::Own { kind },
            _ => panic!("unknown side {name}"),
        };
        for key in keys {
            let frame = s(&add(key, COMMENT));
            side.serve(&frame, payload(&frame));
            assert_eq!(side.reply(), [0, 0, 0, 1, 6], "{name}");
        }
        match (name, side) {
            ("outer-sound", Side::Outer { o, .. }) => Side::OuterSound { o },
            ("table-sound", Side::Table { t, .. }) => Side::TableSound { t },
            (_, side) => side,
        }
    }
    fn reply(&self) -> Vec<u8> {
        match self {
            Side::Inner { reply, .. } | Side::InnerAsked { reply, .. } => reply.bytes().to_vec(),
            Side::Outer { o, .. } | Side::OuterAsked { o, .. } => o.reply().to_vec(),
            Side::Table { reply, .. } | Side::TableAsked { reply, .. } => {
                reply[..4 + u32::from_be_bytes(reply[..4].try_into().unwrap()) as usize].to_vec()
            }
            Side::Russh { reply, .. } => reply.clone(),
            Side::OuterSound { .. } | Side::TableSound { .. } | Side::Signer { .. } | Side::Own { .. } => vec![],
        }
    }
    /// One request, to its landing.
    #[inline(never)]
    fn serve(&mut self, frame: &[u8], p: Payload<'_>) {
        match self {
            Side::Inner { g, reply, lent, number } => {
                let mut a = Answers { gate: Some(true), check: Some(true), ..Answers::default() };
                if p.bytes().first() == Some(&13) {
                    a.signature = Some(Numbered { number: *number, answer: Some(&lent[..]) });
                }
                assert!(matches!(g.call(p, 5, &a, reply), Outcome::Reply));
            }
            Side::InnerAsked { g, reply, kind } => inner_asked(g, reply, kind, frame),
            Side::Outer { o, lent, number } => o.call(p.bytes(), *number, lent),
            Side::OuterAsked { o, kind } => o.asked(frame, |data| signature(kind, data)),
            Side::Table { t, reply, lent, number } => {
                let a = table::Answers { gate: Some(true), check: Some(true), confirmation: None, signature: Some((*number, Some(lent))) };
                assert!(matches!(t.call(p.bytes(), 5, a, reply), table::Outcome::Reply(_)));
            }
            Side::TableAsked { t, reply, kind } => {
                let (mut gate, mut check, mut made) = (None, None, None::<(u64, Vec<u8>)>);
                loop {
                    let signature_lent = made.as_ref().map(|(number, sig)| (*number, Some(&sig[..])));
                    match t.call(p.bytes(), 5, table::Answers { gate, check, confirmation: None, signature: signature_lent }, reply) {
                        table::Outcome::Reply(_) => break,
                        table::Outcome::Gate(_) => gate = Some(true),
                        table::Outcome::Check(..) => check = Some(true),
                        table::Outcome::Sign(number, from, to, _) => made = Some((number, signature(kind, &p.bytes()[from..to]))),
                        _ => panic!("neither a question of these works nor a reply"),
                    }
                }
            }
            Side::Russh { p: probe, reply } => assert!(probe.call(p.bytes(), reply)),
            Side::Signer { key } => drop(black_box(scripted::sign_with_hash_alg(key, black_box(&DATA)))),
            Side::Own { kind } => drop(black_box(signature(kind, black_box(&DATA)))),
            Side::OuterSound { o } => assert!(black_box(&*o).is_sound()),
            Side::TableSound { t } => assert!(black_box(&*t).is_sound()),
        }
    }
    /// Throws away what the scripted signer keeps for `siglog`.
    fn tidy(&self, p: Payload<'_>) {
        if matches!(self, Side::Russh { .. } | Side::Signer { .. }) && p.bytes().first() == Some(&13) {
            scripted::LOG.lock().unwrap().clear();
        }
    }
}

// not the same code, which would be one function
#[no_mangle]
#[inline(never)]
fn began() {
    black_box(1);
}
#[no_mangle]
#[inline(never)]
fn ended() {
    black_box(2);
}
#[no_mangle]
#[inline(never)]
fn measured(side: &mut Side, frame: &[u8], p: Payload<'_>) {
    side.serve(frame, p);
}
type Prepared<'a> = (&'a Step, Payload<'a>);
fn prepared(steps: &[Step]) -> Vec<Prepared<'_>> {
    steps.iter().map(|step| (step, payload(&step.frame))).collect()
}
/// The work once.
fn once(side: &mut Side, steps: &[Prepared<'_>]) {
    for (step, p) in steps {
        if step.is_measured {
            measured(side, black_box(&step.frame), black_box(*p));
        } else {
            side.serve(&step.frame, *p);
        }
        side.tidy(*p);
    }
}
/// Nanoseconds of the measured part of the work, which is one step of several: each is timed for itself, less what looking at the clock takes.
fn once_apart(side: &mut Side, steps: &[Prepared<'_>]) -> f64 {
    let mut sum = 0.0;
    for (step, p) in steps {
        if step.is_measured {
            let start = Instant::now();
            measured(side, black_box(&step.frame), black_box(*p));
            sum += start.elapsed().as_nanos() as f64;
        } else {
            side.serve(&step.frame, *p);
        }
    }
    sum
}
fn clock() -> f64 {
    let mut all: Vec<_> = (0..10_001).map(|_| Instant::now().elapsed().as_nanos()).collect();
    all.sort_unstable();
    all[all.len() / 2] as f64
}

/// Of a list what russh has of it: its blobs, in any order, and no comment.
fn without_comments(r: &[u8]) -> Vec<Vec<u8>> {
    if r[4] != 12 {
        return vec![r.to_vec()];
    }
    let mut rest = &r[9..];
    let mut next = || {
        let n = u32::from_be_bytes(rest[..4].try_into().unwrap()) as usize;
        let string = rest[4..4 + n].to_vec();
        rest = &rest[4 + n..];
        string
    };
    let mut blobs: Vec<_> = (0..r[8]).map(|_| (next(), next()).0).collect();
    assert!(rest.is_empty());
    blobs.sort();
    blobs
}
/// All sides give the same replies, and the same list behind each; all but russh to the last byte.
fn agree() {
    for set in SETS {
        let keys = keys::set(set);
        for w in &WORKS[1..] {
            let frames: Vec<_> = work(w, &keys).into_iter().flat_map(|step| [step.frame, s(&[11])]).collect();
            let replies = |name| {
                let mut side = Side::new(name, &keys);
                let one = |f: &Vec<u8>| {
                    side.serve(f, payload(f));
                    side.reply()
                };
                frames.iter().map(one).collect::<Vec<_>>()
            };
            let all = SIDES.map(replies);
            let (russh, ours) = all.split_last().unwrap();
            assert!(ours.iter().all(|r| r == &ours[0]), "{set}, {w}");
            let blank = |replies: &[Vec<u8>]| replies.iter().map(|r| without_comments(r)).collect::<Vec<_>>();
            assert_eq!(blank(&ours[0]), blank(russh), "{set}, {w}");
        }
    }
}

fn times(rounds: usize) {
    const REQUESTS: usize = 200;
    let clock = clock();
    for set in SETS {
        let keys = keys::set(set);
        for w in WORKS {
            let steps = work(w, &keys);
            let p = prepared(&steps);
            let counted = p.iter().filter(|(step, _)| step.is_measured).count();
            let times_each = REQUESTS.div_ceil(counted);
            let mut sides: Vec<_> = sides(w).into_iter().map(|n| (n, Side::new(n, &keys), Vec::new())).collect();
            for _ in 0..rounds {
                for (_, side, t) in &mut sides {
                    let start = Instant::now();
                    let all = if counted == p.len() {
                        (0..times_each).for_each(|_| once(side, &p));
                        start.elapsed().as_nanos() as f64
                    } else {
                        (0..times_each).map(|_| once_apart(side, &p) - clock).sum()
                    };
                    t.push(all / (times_each * counted) as f64);
                }
            }
            for (name, _, t) in &mut sides {
                t.sort_by(f64::total_cmp);
                println!("{set} {w} {name} {:.0} {:.0}", t[0], t[t.len() / 2]);
            }
        }
    }
}

/// Once before it counts: what is bound or grows at the first request drops out.
fn count(set: &str) {
    let keys = keys::set(set);
    for w in WORKS {
        let steps = work(w, &keys);
        let p = prepared(&steps);
        for name in sides(w) {
            let mut side = Side::new(name, &keys);
            once(&mut side, &p);
            println!("{set} {w} {name}");
            began();
            for _ in 0..20usize.div_ceil(p.len()) {
                once(&mut side, &p);
            }
            ended();
        }
    }
}

fn main() {
    let a: Vec<String> = std::env::args().skip(1).collect();
    let a: Vec<&str> = a.iter().map(String::as_str).collect();
    match a[..] {
        ["agree"] => agree(),
        ["times", rounds] => times(rounds.parse().expect("ROUNDS")),
        ["count", set] => count(set),
        [] => SETS.iter().for_each(|set| println!("{set}")),
        _ => {
            eprintln!("usage: bench agree | bench times ROUNDS | bench count SET");
            std::process::exit(2);
        }
    }
}
