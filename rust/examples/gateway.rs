//! A gateway loop over the proved core, in the shape of russh's agent: an `Agent` that answers questions, `serve` over a listener, a
//! `Connection` with `run`, `read_frame` and `respond`.
//!
//!     cargo run --example gateway -- PATH     serves the Unix socket PATH
//!     cargo run --example gateway             plays two crossing requests on a socket of its own, and ends
//!
//! The signer here is a stand-in: it writes the key's type and the data. A true one takes the key fields and signs.
use key_agent::{split, Answers, Class, First, Gateway, Hash, Numbered, Outcome, Question, Reply};
use std::fs::{self, DirBuilder, Permissions};
use std::io::{self, Read, Write};
use std::os::unix::fs::{DirBuilderExt, PermissionsExt};
use std::os::unix::net::{UnixListener, UnixStream};
use std::path::Path;
use std::sync::mpsc::{channel, Sender};
use std::sync::{Arc, Mutex};
use std::time::Instant;

/// What the core asks of the outside. In russh `confirm` and `confirm_request` are in the trait, and key check and signer are a library's.
trait Agent: Clone + Send + 'static {
    /// May a request of this class go on?
    fn confirm_request(&self, _class: Class) -> bool {
        true
    }
    /// May this key sign?
    fn confirm(&self, _blob: &[u8]) -> bool {
        true
    }
    /// Are these key fields, from the type string on, a key?
    fn check(&self, fields: &[u8]) -> bool;
    /// The signature blob, or none: then the connection is closed.
    fn sign(&self, fields: &[u8], data: &[u8], hash: Hash) -> Option<Vec<u8>>;
}

/// One gateway for all connections. Its lock is held for one call, never while a question is open.
struct Shared {
    gateway: Mutex<Gateway>,
    start: Instant,
}

fn serve<A: Agent>(listener: UnixListener, agent: A) -> io::Result<()> {
    let shared = Arc::new(Shared { gateway: Mutex::new(Gateway::new()), start: Instant::now() });
    for stream in listener.incoming() {
        let c = Connection { shared: shared.clone(), agent: agent.clone(), s: stream?, buf: Vec::new() };
        std::thread::spawn(move || c.run());
    }
    Ok(())
}

struct Connection<A: Agent> {
    shared: Arc<Shared>,
    agent: A,
    s: UnixStream,
    /// What has come and no request has used.
    buf: Vec<u8>,
}

impl<A: Agent> Connection<A> {
    fn run(mut self) -> io::Result<()> {
        let mut reply = Reply::new();
        while let Some((used, first)) = self.read_frame(&mut reply)? {
            if !self.respond(first, &mut reply) {
                break;
            }
            self.s.write_all(reply.bytes())?;
            self.buf.drain(..used);
        }
        Ok(())
    }

    fn reading(&self) -> u64 {
        self.shared.start.elapsed().as_millis() as u64
    }

    /// Reads until a request has begun: the bytes that it takes, and what its first call came to; none at the end of the connection, or if a frame
    /// is too long.
    fn read_frame(&mut self, reply: &mut Reply) -> io::Result<Option<(usize, Outcome)>> {
        loop {
            match self.shared.gateway.lock().unwrap().first(&self.buf, self.reading(), reply) {
                First::Began { used, outcome, .. } => return Ok(Some((used, outcome))),
                First::TooLong => return Ok(None),
                First::MoreNeeded => {}
            }
            let mut chunk = [0; 4096];
            match self.s.read(&mut chunk)? {
                0 => return Ok(None),
                n => self.buf.extend_from_slice(&chunk[..n]),
            }
        }
    }

    /// Calls until the request lands: true with a reply, false to close.
    fn respond(&self, first: Outcome, reply: &mut Reply) -> bool {
        let payload = split(&self.buf).payload().expect("a request's frame is whole");
        let mut outcome = first;
        let (mut gate, mut check, mut confirmation) = (None, None, None);
        let mut signature: Option<(u64, Option<Vec<u8>>)> = None;
        let mut about = Vec::new();
        loop {
            match outcome {
                Outcome::Reply => return true,
                Outcome::Close => return false,
                // `sign` gives no longer signature
                Outcome::Refused(why) => panic!("{why}"),
                Outcome::Asks(Question::Gate(class)) => gate = Some(self.agent.confirm_request(class)),
                Outcome::Asks(Question::Check(fields)) => check = Some(self.agent.check(payload.part(&fields))),
                Outcome::Asks(Question::Confirmation { number }) => {
                    confirmation = Some(Numbered { number, answer: self.agent.confirm(&about) });
                }
                Outcome::Asks(Question::Signature { number, data, hash }) => {
                    let s = self.agent.sign(&about, payload.part(&data), hash).filter(|s| s.len() <= key_agent::MAX_SIGNATURE);
                    signature = Some((number, s));
                }
            }
            let answers = Answers {
                gate,
                check,
                confirmation,
                signature: signature.as_ref().map(|(number, s)| Numbered { number: *number, answer: s.as_deref() }),
            };
            let mut g = self.shared.gateway.lock().unwrap();
            outcome = g.call(payload, self.reading(), &answers, reply);
            about = key_asked(&g, &outcome);
        }
    }
}

/// What a question about a key needs of it, looked up before the lock is given back: later the key may be gone.
fn key_asked(g: &Gateway, outcome: &Outcome) -> Vec<u8> {
    let part = match outcome {
        Outcome::Asks(Question::Confirmation { number }) => g.key(*number).map(|k| k.blob),
        Outcome::Asks(Question::Signature { number, .. }) => g.key(*number).map(|k| k.fields),
        _ => None,
    };
    part.unwrap_or(&[]).to_vec()
}

/// Says what it is asked, and yes. A list waits for the head grower's word, where somebody plays her.
#[derive(Clone)]
struct Panel {
    grower: Option<Sender<Sender<bool>>>,
}

fn string(b: &[u8]) -> Vec<u8> {
    [&(b.len() as u32).to_be_bytes()[..], b].concat()
}

impl Agent for Panel {
    fn confirm_request(&self, class: Class) -> bool {
        let yes = match &self.grower {
            Some(grower) if class == Class::RequestKeys => {
                let (word, heard) = channel();
                grower.send(word).is_ok() && heard.recv().unwrap_or(false)
            }
            _ => true,
        };
        println!("panel: {class:?}? {}", if yes { "yes" } else { "no" });
        yes
    }
    fn confirm(&self, blob: &[u8]) -> bool {
        println!("panel: sign with a key of {} bytes? yes", blob.len());
        true
    }
    fn check(&self, _fields: &[u8]) -> bool {
        true
    }
    fn sign(&self, fields: &[u8], data: &[u8], _hash: Hash) -> Option<Vec<u8>> {
        let n = u32::from_be_bytes(fields.get(..4)?.try_into().ok()?) as usize;
        Some([string(fields.get(4..4 + n)?), string(data)].concat())
    }
}

/// One request on a connection of its own.
fn request(path: &Path, payload: &[u8]) -> io::Result<Vec<u8>> {
    let mut s = UnixStream::connect(path)?;
    s.write_all(&string(payload))?;
    let mut prefix = [0; 4];
    s.read_exact(&mut prefix)?;
    let mut body = vec![0; u32::from_be_bytes(prefix) as usize];
    s.read_exact(&mut body)?;
    Ok(body)
}

/// A socket of mode 0600: made in a folder that nobody else enters, and put in its place, where nothing may stand, when its mode is set.
fn bind(path: &Path) -> io::Result<UnixListener> {
    let folder = path.with_extension(std::process::id().to_string());
    DirBuilder::new().mode(0o700).create(&folder)?;
    let inside = folder.join("socket");
    let listener = UnixListener::bind(&inside).and_then(|listener| {
        fs::set_permissions(&inside, Permissions::from_mode(0o600))?;
        fs::hard_link(&inside, path)?;
        Ok(listener)
    });
    let _ = fs::remove_file(&inside);
    fs::remove_dir(&folder)?;
    listener
}

fn main() -> io::Result<()> {
    if let Some(path) = std::env::args_os().nth(1) {
        return serve(bind(Path::new(&path))?, Panel { grower: None });
    }
    let path = std::env::temp_dir().join(format!("key-agent-{}", std::process::id()));
    let listener = bind(&path)?;
    let (grower, asked) = channel();
    std::thread::spawn(move || serve(listener, Panel { grower: Some(grower) }));
    let q = [&[4][..], &[1; 64]].concat();
    let blob = [string(b"ecdsa-sha2-nistp256"), string(b"nistp256"), string(&q)].concat();
    let add = [&[25][..], &blob, &string(&[1; 32]), &string(b"night shift"), &[2]].concat();
    assert_eq!(request(&path, &add)?, [6]);
    let signed = request(&path, &[&[13][..], &string(&blob), &string(b"data"), &[0; 4]].concat())?;
    assert_eq!(signed[5..], [string(b"ecdsa-sha2-nistp256"), string(b"data")].concat());
    // a list that waits at the gate, and the head grower's word for it
    let list = || {
        let path = path.clone();
        let reply = std::thread::spawn(move || request(&path, &[11]));
        (asked.recv().expect("the panel is asked"), reply)
    };
    let (word, reply) = list();
    word.send(true).unwrap();
    assert_eq!(reply.join().unwrap()?, [&[12, 0, 0, 0, 1][..], &string(&blob), &string(b"night shift")].concat());
    // while one waits a lock lands: the list finds it
    let (word, reply) = list();
    assert_eq!(request(&path, &[&[22][..], &string(b"ab")].concat())?, [6]);
    word.send(true).unwrap();
    assert_eq!(reply.join().unwrap()?, [5]);
    println!("the lock landed first: the list got FAILURE");
    fs::remove_file(&path)
}
