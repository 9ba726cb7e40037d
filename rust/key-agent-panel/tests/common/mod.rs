//! A panel on a terminal of its own, and an agent that says what the test wants.
#![allow(dead_code)]
use nix::libc::TIOCSWINSZ;
use nix::poll::{poll, PollFd, PollFlags};
use nix::pty::{openpty, Winsize};
use nix::sys::signal::{kill, Signal};
use nix::sys::termios::{tcgetattr, Termios};
use nix::unistd::Pid;
use std::fs::File;
use std::io::{BufRead, BufReader, Read, Write};
use std::os::unix::io::{AsRawFd, FromRawFd};
use std::os::unix::net::{UnixListener, UnixStream};
use std::path::{Path, PathBuf};
use std::process::{Child, Command, ExitStatus, Stdio};
use std::time::{Duration, Instant};

nix::ioctl_write_ptr_bad!(set_size, TIOCSWINSZ, Winsize);

pub const PATIENCE: Duration = Duration::from_secs(20);

/// A folder that goes with the test.
pub struct Folder(pub PathBuf);

impl Folder {
    pub fn new(name: &str) -> Folder {
        let path = std::env::temp_dir().join(format!("key-agent-panel-{}-{name}", std::process::id()));
        std::fs::create_dir(&path).unwrap();
        Folder(path)
    }

    pub fn socket(&self) -> PathBuf {
        self.0.join("panel")
    }
}

impl Drop for Folder {
    fn drop(&mut self) {
        let _ = std::fs::remove_dir_all(&self.0);
    }
}

/// The agent's end of a panel's connection.
pub struct Agent(BufReader<UnixStream>);

impl Agent {
    /// The panel that connects; its first line is this.
    pub fn meet(listener: &UnixListener, first: &str) -> Agent {
        let (stream, _) = listener.accept().unwrap();
        stream.set_read_timeout(Some(PATIENCE)).unwrap();
        let mut agent = Agent(BufReader::new(stream));
        assert_eq!(agent.hear(), first);
        agent
    }

    pub fn say(&mut self, lines: &[&str]) {
        for line in lines {
            self.say_bytes(format!("{line}\n").as_bytes());
        }
    }

    pub fn say_bytes(&mut self, bytes: &[u8]) {
        self.0.get_mut().write_all(bytes).unwrap();
    }

    pub fn hear(&mut self) -> String {
        let mut line = String::new();
        self.0.read_line(&mut line).unwrap();
        line.trim_end().to_string()
    }
}

pub fn panel(socket: &Path) -> Command {
    let mut command = Command::new(env!("CARGO_BIN_EXE_key-agent-panel"));
    command.arg("--socket").arg(socket);
    command
}

fn window(rows: u16, columns: u16) -> Winsize {
    Winsize { ws_row: rows, ws_col: columns, ws_xpixel: 0, ws_ypixel: 0 }
}

/// A program on a terminal.
pub struct OnTerminal {
    master: File,
    slave: File,
    before: Termios,
    pub child: Child,
    /// All that was written.
    pub output: Vec<u8>,
    /// Where the drawing stands in it that was seen last.
    seen: usize,
}

impl OnTerminal {
    pub fn start(mut command: Command) -> OnTerminal {
        let ends = openpty(&window(24, 80), None).unwrap();
        // SAFETY: two new descriptors that nobody else has.
        let (master, slave) = unsafe { (File::from_raw_fd(ends.master), File::from_raw_fd(ends.slave)) };
        let before = tcgetattr(slave.as_raw_fd()).unwrap();
        let end = || Stdio::from(slave.try_clone().unwrap());
        let child = command.stdin(end()).stdout(end()).stderr(end()).spawn().unwrap();
        OnTerminal { master, slave, before, child, output: Vec::new(), seen: 0 }
    }

    pub fn press(&mut self, keys: &str) {
        self.master.write_all(keys.as_bytes()).unwrap();
    }

    pub fn send(&self, signal: Signal) {
        kill(Pid::from_raw(self.child.id() as i32), signal).unwrap();
    }

    pub fn resize(&self, rows: u16, columns: u16) {
        // SAFETY: the kernel reads the struct that is lent.
        unsafe { set_size(self.master.as_raw_fd(), &window(rows, columns)).unwrap() };
        self.send(Signal::SIGWINCH);
    }

    /// Is the terminal as it was before?
    pub fn is_put_back(&self) -> bool {
        tcgetattr(self.slave.as_raw_fd()).unwrap() == self.before
    }

    /// Takes what is written within a moment.
    pub fn take(&mut self) {
        let mut polled = [PollFd::new(self.master.as_raw_fd(), PollFlags::POLLIN)];
        if poll(&mut polled, 50).unwrap() > 0 {
            let mut bytes = [0; 65536];
            let n = self.master.read(&mut bytes).unwrap();
            self.output.extend_from_slice(&bytes[..n]);
        }
    }

    /// Waits for something to be true of all that was written.
    pub fn until(&mut self, what: impl Fn(&OnTerminal) -> bool) {
        let start = Instant::now();
        while !what(self) {
            assert!(start.elapsed() < PATIENCE, "the terminal has\n{}", self.frame());
            self.take();
        }
    }

    /// Waits for a drawing with all of these words, the last one that was seen or one after it.
    pub fn see(&mut self, words: &[&str]) -> String {
        let has_all = |text: &str| words.iter().all(|w| text.contains(w));
        self.until(|t| t.frames().iter().any(|(_, text)| has_all(text)));
        let (at, text) = self.frames().into_iter().find(|(_, text)| has_all(text)).unwrap();
        self.seen = at;
        text
    }

    /// The rows of each whole drawing from the last seen on, and where it begins.
    fn frames(&self) -> Vec<(usize, String)> {
        let text = std::str::from_utf8(&self.output).or_else(|e| std::str::from_utf8(&self.output[..e.valid_up_to()])).unwrap();
        let whole = |(at, _)| text[at..].find("\x1b[J").map(|end| (at, plain(&text[at..at + end])));
        text[self.seen..].match_indices("\x1b[H").map(|(at, m)| (self.seen + at, m)).filter_map(whole).collect()
    }

    /// What stands on the screen.
    pub fn frame(&self) -> String {
        self.frames().pop().map_or(String::new(), |(_, text)| text)
    }

    pub fn ends(&mut self) -> ExitStatus {
        let start = Instant::now();
        loop {
            self.take();
            if let Some(status) = self.child.try_wait().unwrap() {
                self.take();
                return status;
            }
            assert!(start.elapsed() < PATIENCE, "it does not end");
        }
    }
}

impl Drop for OnTerminal {
    fn drop(&mut self) {
        let _ = self.child.kill();
        let _ = self.child.wait();
    }
}

/// Text without what controls the terminal.
pub fn plain(text: &str) -> String {
    let mut plain = String::new();
    let mut chars = text.chars();
    while let Some(c) = chars.next() {
        match c {
            '\x1b' => {
                chars.by_ref().skip(1).find(|c| ('@'..='~').contains(c));
            }
            '\r' | '\x07' => {}
            c => plain.push(c),
        }
    }
    plain
}
