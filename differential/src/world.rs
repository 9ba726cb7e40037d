//! The core as a program that answers scripts: the host of a gateway, with connections, questions left open, a clock that is moved, the key
//! check that ssh-key makes and the signer that the oracle `scripted` has.
use crate::both::Both;
use crate::held::{Addition, Held};
use crate::{ed25519, hex, items, sorted, string, strings, unhex};
use key_agent::{split, Answers, First, Hash, Numbered, Outcome, Payload, Question, Reply};
use std::collections::{HashMap, VecDeque};

/// Does the library take these key fields, which 01 has parsed? The Rust's check is what its key decoder does beyond 01: an Ed25519 seed must
/// give A, and an ECDSA number must have at least 32 bytes as it stands in the request. It tests no relation between an RSA key's numbers.
pub fn library_accepts(fields: &[u8], known: &mut HashMap<[u8; 32], [u8; 32]>) -> bool {
    let (s, _) = strings(fields, 7);
    match s[0] {
        b"ssh-ed25519" => {
            let seed: [u8; 32] = s[2][..32].try_into().unwrap();
            *known.entry(seed).or_insert_with(|| ed25519::public(&seed)) == *s[1]
        }
        b"ssh-rsa" => true,
        _ => s[3].len() >= 32,
    }
}

/// What `scripted` signs with: the type (for RSA by the hash), then the data. `standin`: the hash, then the data.
pub fn signature(fields: &[u8], data: &[u8], hash: Hash, standin: bool) -> Vec<u8> {
    let t: &[u8] = match (strings(fields, 1).0[0], hash) {
        (_, Hash::None) if standin => b"none",
        (_, Hash::Sha256) if standin => b"sha256",
        (_, Hash::Sha512) if standin => b"sha512",
        (b"ssh-rsa", Hash::Sha256) => b"rsa-sha2-256",
        (b"ssh-rsa", Hash::Sha512) => b"rsa-sha2-512",
        (t, _) => t,
    };
    [string(t), string(data)].concat()
}

/// A request on its way, with the answers that it has.
#[derive(Clone, Default)]
pub struct Request {
    frame: Vec<u8>,
    pub gate: Option<bool>,
    pub check: Option<bool>,
    pub confirmation: Option<Numbered<bool>>,
    pub signature: Option<(u64, Option<Vec<u8>>)>,
    /// The question that waits for `ans`.
    open: Option<Question>,
    /// How often a confirmation was asked for, and the hash of the last signature that was.
    pub confirmations: u32,
    pub hash: Option<Hash>,
}
impl Request {
    pub fn payload(&self) -> Payload<'_> {
        split(&self.frame).payload().expect("a whole frame")
    }

    pub fn answers(&self) -> Answers<'_> {
        Answers {
            gate: self.gate,
            check: self.check,
            confirmation: self.confirmation,
            signature: self.signature.as_ref().map(|(number, s)| Numbered { number: *number, answer: s.as_deref() }),
        }
    }
}

/// What landed, for replaying: the request with the answers lent at its landing, the kept clock then, and the outcome.
pub struct Landing {
    pub conn: String,
    pub request: Request,
    pub clock: u64,
    pub was_locked: bool,
    /// An add past the gate that finds no room.
    pub no_room: Option<&'static str>,
    pub outcome: Outcome,
    pub reply: Vec<u8>,
}

#[derive(Default)]
struct Conn {
    bytes: Vec<u8>,
    request: Option<Request>,
}

pub struct World {
    pub gateway: Both,
    pub clock: u64,
    pub landings: Vec<Landing>,
    /// Check and signature wait for `ans` too.
    pub hold: bool,
    /// Sorts lists.
    pub sort: bool,
    /// Signer and key check are those of the oracle `standin`: the check always says yes.
    pub standin: bool,
    /// Listed comments that were compared: all, empty ones, those with bytes beyond ASCII, those of 255 bytes.
    pub listed: [u64; 4],
    /// Where the core has not followed the rule by which keys are held: lists in another order or with other comments, a key taken or about to be
    /// taken for which there is no room, other bytes of a held key; and where an inner call and one from outside came to different things.
    pub wrong: Vec<String>,
    held: Held,
    /// Held keys whose bytes were compared with what their adds carried.
    pub told: u64,
    /// The most keys held at once, and the most that were gone on time when a request landed.
    pub most_held: usize,
    pub most_expired: usize,
    known: HashMap<[u8; 32], [u8; 32]>,
    conns: HashMap<String, Conn>,
    gate: VecDeque<char>,
    confirm: VecDeque<char>,
    gate_always: char,
    confirm_always: char,
    signatures: VecDeque<Option<Vec<u8>>>,
    log: Vec<String>,
    reply: Reply,
}

impl Default for World {
    fn default() -> World {
        World::new()
    }
}

impl World {
    pub fn new() -> World {
        World {
            gateway: Both::new(),
            clock: 0,
            landings: Vec::new(),
            hold: false,
            sort: false,
            standin: false,
            listed: [0; 4],
            wrong: Vec::new(),
            held: Held::default(),
            told: 0,
            most_held: 0,
            most_expired: 0,
            known: HashMap::new(),
            conns: HashMap::new(),
            gate: VecDeque::new(),
            confirm: VecDeque::new(),
            gate_always: 'y',
            confirm_always: 'y',
            signatures: VecDeque::new(),
            log: Vec::new(),
            reply: Reply::new(),
        }
    }

    /// Requests that wait for an answer.
    pub fn open(&self) -> usize {
        self.conns.values().filter(|c| c.request.is_some()).count()
    }

    /// One line of a script; the lines that it answers with.
    pub fn line(&mut self, line: &str) -> Vec<String> {
        let ws: Vec<&str> = line.split_whitespace().collect();
        let word = |i: usize| ws.get(i).copied().unwrap_or("");
        match word(0) {
            "" => {}
            w if w.starts_with('#') => {}
            "fresh" => {
                let known = std::mem::take(&mut self.known);
                *self = World { clock: self.clock, hold: self.hold, sort: self.sort, standin: self.standin, known, ..World::new() };
            }
            w @ ("to" | "raw") => {
                let p = unhex(word(2));
                let c = self.conns.entry(word(1).to_string()).or_default();
                c.bytes.extend(if w == "to" { string(&p) } else { p });
                return vec![self.serve(word(1))];
            }
            "ans" => return vec![self.answer(word(1), word(2) == "y")],
            "adv" => self.clock += word(1).parse::<u64>().expect("adv MS"),
            "drop" => {
                self.conns.remove(word(1));
            }
            "gate" => self.gate.extend(word(1).chars()),
            "confirm" => self.confirm.extend(word(1).chars()),
            "gate-always" => self.gate_always = word(1).chars().next().expect("an answer"),
            "confirm-always" => self.confirm_always = word(1).chars().next().expect("an answer"),
            "sig" => self.signatures.push_back((word(1) != "none").then(|| unhex(word(1)))),
            "siglog" => return std::mem::take(&mut self.log),
            "say" => return vec![line[3..].trim().to_string()],
            w => panic!("unknown command {w}"),
        }
        Vec::new()
    }

    /// Goes on with a connection whose server may be idle: the next frame, if it is there.
    fn serve(&mut self, name: &str) -> String {
        let c = self.conns.get_mut(name).expect("opened");
        if c.request.is_some() {
            return "wait".into();
        }
        let was_locked = self.gateway.is_locked();
        let first = self.gateway.first(&c.bytes, self.clock, &mut self.reply);
        self.wrong.append(&mut self.gateway.wrong);
        match first {
            First::MoreNeeded => "wait".into(),
            First::TooLong => {
                self.conns.remove(name);
                "close".into()
            }
            First::Began { used, outcome, .. } => {
                let frame = c.bytes.drain(..used).collect();
                self.step(name, Request { frame, ..Request::default() }, Some((was_locked, outcome)))
            }
        }
    }

    fn answer(&mut self, name: &str, yes: bool) -> String {
        let Some(mut r) = self.conns.get_mut(name).and_then(|c| c.request.take()) else { return "nobody-asked".into() };
        match r.open.take().expect("a request that waits has asked") {
            Question::Gate(_) => r.gate = Some(yes),
            Question::Confirmation { number } => r.confirmation = Some(Numbered { number, answer: yes }),
            // held questions are answered by library and signer, whatever `ans` says
            Question::Check(part) => r.check = Some(self.standin || library_accepts(r.payload().part(&part), &mut self.known)),
            Question::Signature { number, data, hash } => r.signature = Some((number, self.sign(number, r.payload().part(&data), hash))),
        }
        self.step(name, r, None)
    }

    /// The signer: nothing if the key has gone meanwhile (the answer is then for an old number), or if the signature would be refused.
    fn sign(&mut self, number: u64, data: &[u8], hash: Hash) -> Option<Vec<u8>> {
        let fields = self.gateway.key(number)?.fields;
        let s = signature(fields, data, hash, self.standin);
        let t = String::from_utf8_lossy(strings(&s, 1).0[0]).into_owned();
        self.log.push(format!("signed {t} {}", hex(data)));
        let s = if self.signatures.is_empty() { Some(s) } else { self.signatures.pop_front().unwrap() };
        s.filter(|s| s.len() <= key_agent::MAX_SIGNATURE)
    }

    /// A landed request by the rule: why there is no room for a key, and what a list shows.
    fn follow(&mut self, r: &Request, reply: &[u8], was_locked: bool) -> Option<&'static str> {
        let payload = r.payload().bytes();
        let no_room = self.no_room(payload).filter(|_| r.gate == Some(true) && !was_locked);
        if reply == [0, 0, 0, 1, 6] {
            if let Some(why) = no_room {
                self.wrong.push(format!("taken: {why}"));
            }
            self.held.land(payload, self.clock);
        }
        let listed = items(reply);
        for (_, comment) in &listed {
            let kinds = [true, comment.is_empty(), !comment.is_ascii(), comment.len() == 255];
            self.listed.iter_mut().zip(kinds).for_each(|(n, is)| *n += is as u64);
        }
        if reply.get(4) == Some(&12) && !self.held.0.iter().map(|e| (&e.blob[..], &e.comment[..])).eq(listed.iter().copied()) {
            let show = |(blob, comment): (&[u8], &[u8])| format!("{} {}", hex(blob), hex(comment));
            let held: Vec<_> = self.held.0.iter().map(|e| show((&e.blob, &e.comment))).collect();
            let listed: Vec<_> = listed.into_iter().map(show).collect();
            self.wrong.push(format!("listed\n{}\nheld\n{}", listed.join("\n"), held.join("\n")));
        }
        no_room
    }

    /// The held keys that a host is told of, beside those that the rule holds: blob, fields and comment, wherever they moved.
    pub fn compare_keys(&mut self) {
        self.held.expire(self.gateway.clock());
        let mut told: Vec<_> = self.gateway.keys().map(|k| (k.blob.to_vec(), k.fields.to_vec(), k.comment.as_bytes().to_vec())).collect();
        let mut held: Vec<_> = self.held.0.iter().map(|e| (e.blob.clone(), e.fields.clone(), e.comment.clone())).collect();
        told.sort();
        held.sort();
        self.told += told.len() as u64;
        if told != held {
            self.wrong.push(format!("the host is told of {} keys: not of the {} that are held, or not of their bytes", told.len(), held.len()));
        }
    }

    fn no_room(&mut self, payload: &[u8]) -> Option<&'static str> {
        let before = self.held.0.len();
        self.held.expire(self.clock);
        self.most_held = self.most_held.max(before);
        self.most_expired = self.most_expired.max(before - self.held.0.len());
        self.held.no_room(&Addition::of(payload)?)
    }

    /// Calls until the request lands or a question stays open. `first`: was it locked before its first call, and what did that come to, where only
    /// that was made.
    fn step(&mut self, name: &str, mut r: Request, mut first: Option<(bool, Outcome)>) -> String {
        loop {
            let (was_locked, outcome) = first.take().unwrap_or_else(|| {
                (self.gateway.is_locked(), self.gateway.call(r.payload(), self.clock, &r.answers(), &mut self.reply))
            });
            self.wrong.append(&mut self.gateway.wrong);
            let q = match outcome {
                Outcome::Asks(q) => q,
                Outcome::Refused(why) => panic!("{why}"),
                Outcome::Reply | Outcome::Close => {
                    let reply = self.reply.bytes().to_vec();
                    let line = if outcome == Outcome::Close {
                        self.conns.remove(name);
                        "close".to_string()
                    } else if self.sort {
                        format!("reply {}", hex(&sorted(&reply)))
                    } else {
                        format!("reply {}", hex(&reply))
                    };
                    let no_room = self.follow(&r, &reply, was_locked);
                    let clock = self.gateway.clock();
                    self.landings.push(Landing { conn: name.to_string(), request: r, clock, was_locked, no_room, outcome, reply });
                    return line;
                }
            };
            let (said, text) = match &q {
                Question::Gate(class) => (self.gate.pop_front().unwrap_or(self.gate_always), format!("ask gate {}", class.number())),
                Question::Confirmation { number } => {
                    r.confirmations += 1;
                    let blob = hex(self.gateway.key(*number).expect("held").blob);
                    (self.confirm.pop_front().unwrap_or(self.confirm_always), format!("ask confirm {blob}"))
                }
                Question::Check(_) => {
                    if let Some(why) = self.no_room(r.payload().bytes()) {
                        self.wrong.push(format!("the check was asked for: {why}"));
                    }
                    (if self.hold { '?' } else { 'y' }, "ask check".into())
                }
                Question::Signature { hash, .. } => {
                    r.hash = Some(*hash);
                    (if self.hold { '?' } else { 'y' }, "ask signature".into())
                }
            };
            r.open = Some(q);
            self.conns.get_mut(name).expect("there").request = Some(r);
            if said == '?' {
                return text;
            }
            // answered at once: as `ans` would, in this loop
            r = self.conns.get_mut(name).unwrap().request.take().unwrap();
            match r.open.take().unwrap() {
                Question::Gate(_) => r.gate = Some(said == 'y'),
                Question::Confirmation { number } => r.confirmation = Some(Numbered { number, answer: said == 'y' }),
                Question::Check(part) => r.check = Some(self.standin || library_accepts(r.payload().part(&part), &mut self.known)),
                Question::Signature { number, data, hash } => r.signature = Some((number, self.sign(number, r.payload().part(&data), hash))),
            }
        }
    }
}
