//! The connection to the agent's panel socket.
use crate::words::{read, Event, Lines};
use std::io::{self, ErrorKind, Read, Write};
use std::os::unix::io::{AsRawFd, RawFd};
use std::os::unix::net::UnixStream;
use std::path::Path;

pub struct Link {
    stream: UnixStream,
    lines: Lines,
}

impl Link {
    /// Connects, and sends the first line.
    pub fn open(path: &Path, first: &str) -> Result<Link, String> {
        let stream = UnixStream::connect(path).and_then(|s| s.set_nonblocking(true).map(|()| s));
        let stream = stream.map_err(|e| not_served(path, &e))?;
        let mut link = Link { stream, lines: Lines::default() };
        link.say(first)?;
        Ok(link)
    }

    /// What has come; an error where the agent has ended.
    pub fn hear(&mut self) -> Result<Vec<Event>, String> {
        let mut bytes = [0; 4096];
        match self.stream.read(&mut bytes) {
            Ok(0) => Err("the agent has ended, or has closed this panel".into()),
            Ok(n) => Ok(self.lines.feed(&bytes[..n]).iter().map(|line| read(line.as_deref())).collect()),
            Err(e) if matches!(e.kind(), ErrorKind::WouldBlock | ErrorKind::Interrupted) => Ok(Vec::new()),
            Err(e) => Err(format!("the agent has ended: {}", reason(&e))),
        }
    }

    pub fn say(&mut self, line: &str) -> Result<(), String> {
        self.stream.write_all(format!("{line}\n").as_bytes()).map_err(|e| match e.kind() {
            ErrorKind::WouldBlock => "the agent does not read".into(),
            _ => format!("the agent has ended: {}", reason(&e)),
        })
    }
}

impl AsRawFd for Link {
    fn as_raw_fd(&self) -> RawFd {
        self.stream.as_raw_fd()
    }
}

fn not_served(path: &Path, e: &io::Error) -> String {
    let what = match e.kind() {
        ErrorKind::NotFound | ErrorKind::ConnectionRefused => "nobody serves",
        _ => "no connection to",
    };
    format!("{what} {}: {}", path.display(), reason(e))
}

fn reason(e: &io::Error) -> String {
    e.raw_os_error().map_or_else(|| e.to_string(), |n| nix::errno::Errno::from_i32(n).desc().into())
}
