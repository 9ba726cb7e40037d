//! The Rust's rule for requests that cross, in a few lines: lock and table are looked at before a question, and not again behind it. It
//! predicts every answer of the unchanged Rust on the crossing scripts, so that each difference there is the rule's and none is left over.
//! For whole requests and lifetimes of a second or more alone.
use crate::held::Addition;
use crate::{hex, sorted, string, strings, unhex};
use std::collections::HashMap;

#[derive(Clone)]
struct Key {
    blob: Vec<u8>,
    confirm: bool,
    due: Option<u64>,
}
enum Open {
    Gate(Vec<u8>),
    Confirm(Vec<u8>),
}
#[derive(Default)]
pub struct Stale {
    keys: Vec<Key>,
    lock: Vec<u8>,
    pub clock: u64,
    gate: Option<char>,
    confirm: Option<char>,
    open: HashMap<String, Open>,
}
fn reply(body: Vec<u8>) -> String {
    format!("reply {}", hex(&sorted(&string(&body))))
}
impl Stale {
    pub fn line(&mut self, line: &str) -> Option<String> {
        let ws: Vec<&str> = line.split_whitespace().collect();
        match ws[0] {
            "fresh" => *self = Stale { clock: self.clock, ..Stale::default() },
            "adv" => {
                self.clock += ws[1].parse::<u64>().unwrap();
                self.keys.retain(|k| k.due.is_none_or(|d| d > self.clock));
            }
            "gate-always" => self.gate = ws[1].chars().next(),
            "confirm-always" => self.confirm = ws[1].chars().next(),
            "to" => return Some(self.arrive(ws[1], unhex(ws[2]))),
            "ans" => {
                return Some(match self.open.remove(ws[1]) {
                    None => "nobody-asked".into(),
                    Some(Open::Gate(p)) => self.past_gate(ws[1], p, ws[2] == "y"),
                    Some(Open::Confirm(p)) => self.confirmed(p, ws[2] == "y"),
                })
            }
            w => panic!("{w}"),
        }
        None
    }
    fn arrive(&mut self, conn: &str, p: Vec<u8>) -> String {
        let class = match p[0] {
            11 => 1,
            17 | 25 => 2,
            18 => 3,
            19 => 4,
            13 => 5,
            22 => 6,
            _ => 7,
        };
        if (p[0] == 23) == self.lock.is_empty() {
            return reply(vec![5]);
        }
        match self.gate.unwrap_or('y') {
            '?' => {
                self.open.insert(conn.into(), Open::Gate(p));
                format!("ask gate {class}")
            }
            c => self.past_gate(conn, p, c == 'y'),
        }
    }
    fn past_gate(&mut self, conn: &str, p: Vec<u8>, yes: bool) -> String {
        let first = |p: &[u8]| strings(&p[1..], 1).0[0].to_vec();
        let said = |ok: bool| reply(vec![if ok { 6 } else { 5 }]);
        if !yes {
            return said(false);
        }
        match p[0] {
            11 => {
                let mut b = vec![12];
                b.extend((self.keys.len() as u32).to_be_bytes());
                for k in &self.keys {
                    b.extend(string(&k.blob));
                    b.extend([0; 4]);
                }
                reply(b)
            }
            17 | 25 => {
                let a = Addition::of(&p).expect("whole");
                let constrained = p[0] == 25;
                let due = constrained.then(|| a.lifetime()).flatten().map(|life| self.clock + life);
                let confirm = constrained && (a.rest.first() == Some(&2) || a.rest.get(5) == Some(&2));
                let blob = a.blob;
                self.keys.retain(|k| k.blob != blob);
                self.keys.push(Key { blob, confirm, due });
                said(true)
            }
            18 => {
                let n = self.keys.len();
                self.keys.retain(|k| k.blob != first(&p));
                said(self.keys.len() < n)
            }
            19 => {
                self.keys.clear();
                said(true)
            }
            22 => {
                self.lock.extend(first(&p));
                said(true)
            }
            23 => {
                let ok = self.lock == first(&p);
                if ok {
                    self.lock.clear();
                }
                said(ok)
            }
            _ => match self.keys.iter().find(|k| k.blob == first(&p)) {
                None => said(false),
                Some(k) if !k.confirm => self.confirmed(p, true),
                Some(k) => match self.confirm.unwrap_or('y') {
                    '?' => {
                        let text = format!("ask confirm {}", hex(&k.blob));
                        self.open.insert(conn.into(), Open::Confirm(p));
                        text
                    }
                    c => self.confirmed(p, c == 'y'),
                },
            },
        }
    }
    fn confirmed(&mut self, p: Vec<u8>, yes: bool) -> String {
        if !yes {
            return reply(vec![5]);
        }
        let (s, rest) = strings(&p[1..], 2);
        let flags = u32::from_be_bytes(rest[..4].try_into().unwrap());
        let kind = strings(s[0], 1).0[0];
        let t = if kind != b"ssh-rsa" || flags & 6 == 0 {
            kind
        } else if flags & 2 != 0 {
            b"rsa-sha2-256"
        } else {
            b"rsa-sha2-512"
        };
        reply([vec![14], string(&[string(t), string(s[1])].concat())].concat())
    }
}
