//! One client: the bytes that it has sent, the request that waits, the reply that is on its way.
use crate::core::Lent;
use crate::names::is_telling;
use crate::secret::Secret;
use crate::sockets::Peer;
use key_agent::{split, Payload};
use std::io::{ErrorKind, Read, Write};
use std::os::unix::net::UnixStream;

/// A frame is at most this long with its length in front.
const FRAME: usize = 4 + key_agent::MAX_PAYLOAD;
/// What is read at a time, so that a long frame holds nobody up.
const CHUNK: usize = 16_384;

/// What a request waits for.
#[derive(Clone, Copy, PartialEq, Eq, Debug)]
pub enum Waiting {
    Question(u64),
    Work(u64),
}

/// A request that has not landed. Its frame stands at the front of the connection's bytes.
pub struct Request {
    /// How many of the bytes the frame takes.
    pub used: usize,
    pub lent: Lent,
    pub waiting: Option<Waiting>,
    /// The insertion number that the question or the work is about; 0 is none.
    pub about: u64,
    /// What was asked, for the log.
    pub what: String,
}

pub struct Connection {
    pub stream: UnixStream,
    pub name: String,
    pub peer: Peer,
    pub input: Option<Secret>,
    pub request: Option<Request>,
    /// A reply, and how much of it is sent.
    reply: Vec<u8>,
    sent: usize,
    /// The client sends nothing more.
    pub has_ended: bool,
    /// The reading at which something came or went last.
    pub active: u64,
    /// Is the loop told of bytes to read, of room to write?
    pub interest: (bool, bool),
    /// The client has sent more while its request waits.
    pub has_more: bool,
    /// A frame is whole, and its turn comes.
    pub is_ready: bool,
}

impl Connection {
    pub fn new(stream: UnixStream, number: u64, peer: Peer, reading: u64) -> Connection {
        let name = format!("conn {number}");
        Connection {
            stream,
            name,
            peer,
            input: None,
            request: None,
            reply: Vec::new(),
            sent: 0,
            has_ended: false,
            active: reading,
            interest: (true, false),
            has_more: false,
            is_ready: false,
        }
    }

    /// Reads what is there, up to a chunk. Nothing is read while a frame is whole, so no more than one is kept.
    pub fn read(&mut self) -> std::io::Result<()> {
        let mut input = self.input.take().map_or_else(|| Secret::with_room(0), Ok)?;
        if input.room() == 0 {
            input.reserve(1)?;
        }
        let most = CHUNK.min(FRAME.saturating_sub(input.len())).min(input.room());
        let got = self.stream.read(&mut input.free()[..most]);
        if let Ok(n) = got {
            input.grown(n);
        }
        if !input.is_empty() {
            self.input = Some(input);
        }
        match got {
            Ok(0) => self.has_ended = true,
            Ok(_) => {}
            Err(e) if matches!(e.kind(), ErrorKind::WouldBlock | ErrorKind::Interrupted) => {}
            Err(e) => return Err(e),
        }
        Ok(())
    }

    pub fn is_long(&self) -> bool {
        self.bytes().len() >= CHUNK
    }

    pub fn bytes(&self) -> &[u8] {
        self.input.as_deref().unwrap_or(&[])
    }

    /// The payload of the frame at the front, the request's that has not landed; empty where none is whole.
    pub fn payload(&self) -> Payload<'_> {
        split(self.bytes()).payload().unwrap_or_default()
    }

    /// The length that the frame at the front announces; 0 where not all of it has come.
    pub fn announced(&self) -> u32 {
        self.bytes().get(..4).map_or(0, |b| u32::from_be_bytes([b[0], b[1], b[2], b[3]]))
    }

    /// What the loop is to be told of. While a request waits nothing is read; who sends nothing meanwhile needs no word to the system.
    pub fn wished(&self) -> (bool, bool) {
        let is_reading = !self.is_sending() && !self.is_ready && (self.request.is_none() || (self.interest.0 && !self.has_more));
        (is_reading, self.is_sending())
    }

    /// The request has landed: its bytes are zeroed.
    pub fn drop_front(&mut self, end: usize) {
        if let Some(input) = &mut self.input {
            input.shift(end);
            if input.is_empty() {
                self.input = None;
            }
        }
    }

    /// How a frame was cut where the client has ended within one. Of a passphrase not even the length is told.
    pub fn cut(&self) -> Option<String> {
        let bytes = self.bytes();
        match bytes.len() {
            0 => None,
            n @ 1..=3 => Some(format!("cut frame: {n} of 4 bytes of its length")),
            4 => Some("cut frame: nothing of its payload".to_string()),
            _ if is_telling(&bytes[4..]) => Some("cut frame: a part of its payload".to_string()),
            n => Some(format!("cut frame: {} of {} bytes of its payload", n - 4, self.announced())),
        }
    }

    /// Sends a frame, as much of it as is taken.
    pub fn send(&mut self, frame: &[u8]) -> std::io::Result<()> {
        match self.stream.write(frame) {
            Ok(n) if n == frame.len() => Ok(()),
            Ok(n) => {
                self.keep(&frame[n..]);
                Ok(())
            }
            Err(e) if matches!(e.kind(), ErrorKind::WouldBlock | ErrorKind::Interrupted) => {
                self.keep(frame);
                Ok(())
            }
            Err(e) => Err(e),
        }
    }

    fn keep(&mut self, rest: &[u8]) {
        self.reply = rest.to_vec();
        self.sent = 0;
    }

    pub fn is_sending(&self) -> bool {
        self.sent < self.reply.len()
    }

    /// Goes on with the rest of a reply.
    pub fn write(&mut self) -> std::io::Result<()> {
        while self.is_sending() {
            match self.stream.write(&self.reply[self.sent..]) {
                Ok(n) => self.sent += n,
                Err(e) if e.kind() == ErrorKind::Interrupted => {}
                Err(e) if e.kind() == ErrorKind::WouldBlock => return Ok(()),
                Err(e) => return Err(e),
            }
        }
        self.reply = Vec::new();
        self.sent = 0;
        Ok(())
    }
}
