//! The loop. It owns the core and never blocks: whoever answers a question, checks a key or signs does so elsewhere, and the answer comes back as
//! the next call of the request. Between two calls any other request may land; each call looks afresh.
mod arrivals;
mod questions;
mod requests;

use crate::clock::{Clock, Timer};
use crate::connection::{Connection, Request, Waiting};
use crate::core::{Core, Lent, Shown};
use crate::lines::Line;
use crate::log::{Level, Log};
use crate::names;
use crate::options::{Options, Say, Sign};
use crate::panel::{KeyWords, Panel, Said, Text};
use crate::secret::{self, Secret};
use crate::sockets::Peer;
use crate::workers::{Answer, Source, Wake, Work, Workers};
use key_agent::{First, Hash, Numbered, Outcome, Payload, Question, MAX_SIGNATURE};
use nix::libc;
use nix::sys::epoll::{epoll_create1, epoll_ctl, epoll_wait, EpollCreateFlags, EpollEvent, EpollFlags, EpollOp};
use nix::sys::signal::{kill, Signal};
use nix::sys::signalfd::SignalFd;
use nix::unistd::Pid;
use std::collections::{HashMap, VecDeque};
use std::io::ErrorKind;
use std::os::unix::io::{AsRawFd, RawFd};
use std::os::unix::net::{UnixListener, UnixStream};
use std::os::unix::process::ExitStatusExt;
use std::process::ExitStatus;
use std::sync::mpsc::Receiver;
use std::time::{Duration, Instant};

// What the loop is woken by; connections and panels have the numbers above.
const AGENT: u64 = 0;
const PANEL: u64 = 1;
const SIGNALS: u64 = 2;
const WAKE: u64 = 3;
const TIMER: u64 = 4;
const FIRST: u64 = 5;

/// Frames of one connection in a row, before the others have their turn.
const TURN: usize = 2;
/// Connections taken in a row, and lines from the terminal.
const TAKEN: usize = 8;
const TYPED: usize = 64;
/// Panels at a time.
const PANELS: usize = 16;
/// Lines of one kind about connections that are refused, in a second.
const A_SECOND: u64 = 10;
/// Idle connections are looked for once in so many milliseconds.
const SWEEP: u64 = 1000;
/// Long rooms that nobody took for so many milliseconds go back to the system.
const UNUSED: u64 = 1000;
/// How long nothing is taken where the system has no descriptor left.
const PAUSE: u64 = 100;
/// A connection that ends by what its client sent is closed so many milliseconds later, and so many of them wait for it. The system frees what belonged
/// to a connection behind its close and in batches, for which all others wait: who connects again at once is to come seldom.
const HELD: u64 = 50;
const HELD_MOST: usize = 256;
/// Where the last event came within this time, the next one is looked for so long before the loop sleeps: to be woken takes longer than to look.
const LOOK: Duration = Duration::from_micros(100);

/// Why a connection ends.
enum End {
    Closed(String),
    /// By what its client sent: an over-long frame, or a request that lands as a close.
    Fault(String),
}

impl From<std::io::Error> for End {
    fn from(e: std::io::Error) -> End {
        End::Closed(format!("closed: {e}"))
    }
}

/// What a call came to.
enum Step {
    Reply,
    Close,
    /// For a question or a work, about the key of this insertion number (0: none), in these words.
    Wait(Waiting, u64, String),
}

pub struct Serve {
    pub options: Options,
    pub log: Log,
    pub clock: Clock,
    pub wake: Wake,
    /// From the terminal; none is its end.
    pub lines: Receiver<Option<Line>>,
    pub signals: SignalFd,
    pub agent: UnixListener,
    pub panel_listener: Option<UnixListener>,
    pub child: Option<std::process::Child>,
    /// The connections that are served at a time.
    pub most: usize,
    /// Is the terminal read for answers?
    pub has_terminal: bool,
}

/// Lines that somebody could make us write without end.
#[derive(Default)]
struct Seldom {
    /// The reading at which the second began, how many lines were written in it, and how many were left out since the last.
    began: u64,
    written: u64,
    left_out: u64,
}

impl Seldom {
    /// The line to write now, if any.
    fn line(&mut self, text: &str, reading: u64) -> Option<String> {
        if reading >= self.began + 1000 {
            self.began = reading;
            self.written = 0;
        }
        if self.written >= A_SECOND {
            self.left_out += 1;
            return None;
        }
        self.written += 1;
        let more = std::mem::take(&mut self.left_out);
        Some(if more == 0 { text.to_string() } else { format!("{text}; {more} lines like it were left out") })
    }
}

struct Loop {
    set: Serve,
    epoll: RawFd,
    core: Core,
    panel: Panel,
    workers: Workers,
    connections: HashMap<u64, Connection>,
    /// The connection that each work is for.
    works: HashMap<u64, u64>,
    /// Connections with frames that are whole and not yet looked at.
    ready: VecDeque<u64>,
    /// Connections in the midst of a long frame, with what they were told of in this turn.
    later: Vec<(u64, EpollFlags)>,
    /// The turns that they had.
    turns: usize,
    /// Connections that have ended, and the reading at which each is closed.
    held: VecDeque<(u64, UnixStream)>,
    last_token: u64,
    opened: u64,
    /// Nothing is taken before this reading.
    paused: Option<u64>,
    /// The reading at which idle connections were looked for.
    swept: u64,
    /// The most connections since memory was handed back.
    peak: usize,
    /// The uses of long rooms, and the reading at which they were so many for the first time, while some are kept.
    long: Option<(usize, u64)>,
    timer: Timer,
    /// The last event came within `LOOK`.
    is_quick: bool,
    /// Lines about other users and about too many connections, on the agent's and on the panel's socket.
    others: [Seldom; 2],
    crowds: [Seldom; 2],
    is_told_unlocked: bool,
}

/// Serves until a signal or the command's end; the exit status.
pub fn serve(set: Serve) -> Result<(i32, Log), String> {
    let fault = |e: nix::errno::Errno| e.desc().to_string();
    let epoll = epoll_create1(EpollCreateFlags::EPOLL_CLOEXEC).map_err(fault)?;
    let core = Core::new(set.clock);
    let workers = Workers::new(set.wake).map_err(|e| format!("no thread: {e}"))?;
    let timer = Timer::new(set.clock).map_err(fault)?;
    let mut l = Loop {
        set,
        epoll,
        core,
        panel: Panel::default(),
        workers,
        connections: HashMap::new(),
        works: HashMap::new(),
        ready: VecDeque::new(),
        later: Vec::new(),
        turns: 0,
        held: VecDeque::new(),
        last_token: FIRST,
        opened: 0,
        paused: None,
        swept: 0,
        peak: 0,
        long: None,
        timer,
        is_quick: false,
        others: Default::default(),
        crowds: Default::default(),
        is_told_unlocked: false,
    };
    l.add(l.set.agent.as_raw_fd(), AGENT).map_err(fault)?;
    if let Some(p) = &l.set.panel_listener {
        l.add(p.as_raw_fd(), PANEL).map_err(fault)?;
    }
    l.add(l.set.signals.as_raw_fd(), SIGNALS).map_err(fault)?;
    l.add(l.set.wake.fd(), WAKE).map_err(fault)?;
    l.add(l.timer.fd(), TIMER).map_err(fault)?;
    let status = l.run();
    Ok((status, l.set.log))
}

fn flags(read: bool, write: bool) -> EpollFlags {
    let mut f = EpollFlags::empty();
    f.set(EpollFlags::EPOLLIN, read);
    f.set(EpollFlags::EPOLLOUT, write);
    f
}

impl Loop {
    fn add(&self, fd: RawFd, token: u64) -> nix::Result<()> {
        epoll_ctl(self.epoll, EpollOp::EpollCtlAdd, fd, &mut EpollEvent::new(EpollFlags::EPOLLIN, token))
    }

    fn watch_for(&self, fd: RawFd, token: u64, read: bool, write: bool) {
        let _ = epoll_ctl(self.epoll, EpollOp::EpollCtlMod, fd, &mut EpollEvent::new(flags(read, write), token));
    }

    fn run(&mut self) -> i32 {
        let mut events = vec![EpollEvent::empty(); 256];
        loop {
            self.timer.set(self.deadline());
            let n = if self.ready.is_empty() { self.wait(&mut events) } else { self.poll(&mut events, 0) };
            let mut status = None;
            for e in &events[..n] {
                status = status.or(self.on_event(e.data(), e.events()));
            }
            if let Some(status) = status {
                return status;
            }
            self.on_later();
            self.on_ready();
            let reading = self.set.clock.reading();
            self.on_time(reading);
            self.tell_changes(reading);
        }
    }

    fn poll(&self, events: &mut [EpollEvent], patience: isize) -> usize {
        epoll_wait(self.epoll, events, patience).unwrap_or(0)
    }

    /// Sleeps until something comes; who asks again at once finds the loop awake. Whoever shares the core with it goes first.
    fn wait(&mut self, events: &mut [EpollEvent]) -> usize {
        let began = Instant::now();
        while self.is_quick {
            let n = self.poll(events, 0);
            if n > 0 {
                return n;
            }
            std::thread::yield_now();
            self.is_quick = began.elapsed() < LOOK;
        }
        let n = self.poll(events, -1);
        self.is_quick = began.elapsed() < LOOK;
        n
    }

    /// The reading at which something is to be done though nobody comes.
    fn deadline(&self) -> Option<u64> {
        let sweep = self.set.options.idle_timeout.filter(|_| !self.connections.is_empty()).map(|_| self.swept + SWEEP);
        let unused = self.long.map(|(_, since)| since + UNUSED);
        let held = self.held.front().map(|(due, _)| *due);
        [self.core.due(), self.panel.due(), self.panel.unread_due(), sweep, unused, held, self.paused].into_iter().flatten().min()
    }

    fn on_event(&mut self, token: u64, events: EpollFlags) -> Option<i32> {
        match token {
            AGENT => self.take_clients(),
            PANEL => self.take_panels(),
            SIGNALS => return self.on_signal(),
            WAKE => self.on_wake(),
            TIMER => self.timer.clear(),
            _ if self.panel.is_panel(token) => self.on_panel(token, events),
            _ => self.on_client(token, events),
        }
        None
    }

    fn on_wake(&mut self) {
        self.set.wake.clear();
        for (number, answer) in self.workers.done() {
            let token = self.works.remove(&number);
            if let Some((token, mut c)) = token.and_then(|t| self.connections.remove(&t).map(|c| (t, c))) {
                let result = self.worked(token, &mut c, number, answer);
                self.put_back(token, c, result);
            }
        }
        for _ in 0..TYPED {
            match self.set.lines.try_recv() {
                Ok(line) => self.on_terminal(line),
                Err(_) => return,
            }
        }
        self.set.wake.call(); // more may wait
    }

    fn on_signal(&mut self) -> Option<i32> {
        let signal = self.set.signals.read_signal().ok().flatten()?;
        let signal = Signal::try_from(signal.ssi_signo as i32).ok()?;
        match (&mut self.set.child, signal) {
            (Some(child), Signal::SIGCHLD) => child.try_wait().map_or(Some(1), |ended| ended.map(status_of)),
            (None, Signal::SIGCHLD) => None,
            // the agent ends with its command, which has Ctrl-C from the terminal itself
            (Some(_), Signal::SIGINT) => None,
            (Some(child), _) => {
                let _ = kill(Pid::from_raw(child.id() as i32), signal);
                None
            }
            (None, _) => Some(0),
        }
    }

    fn on_ready(&mut self) {
        for _ in 0..self.ready.len() {
            let token = self.ready.pop_front().expect("counted");
            if let Some(mut c) = self.connections.remove(&token) {
                c.is_ready = false;
                let result = self.take_turn(token, &mut c);
                self.put_back(token, c, result);
            }
        }
    }

    fn on_time(&mut self, reading: u64) {
        if self.core.due().map_or(false, |due| due <= reading) {
            self.core.let_go();
        }
        for (number, asker) in self.panel.overdue(reading) {
            self.set.log.say(format!("question {number}: no answer in time, so it is a no"));
            self.answer(number, asker, false, " timeout");
        }
        if self.paused.map_or(false, |p| p <= reading) {
            self.paused = None;
            self.watch_for(self.set.agent.as_raw_fd(), AGENT, true, false);
            if let Some(p) = &self.set.panel_listener {
                self.watch_for(p.as_raw_fd(), PANEL, true, false);
            }
        }
        while self.held.front().map_or(false, |(due, _)| *due <= reading) {
            self.held.pop_front();
        }
        if let Some(seconds) = self.set.options.idle_timeout {
            self.sweep(reading, u64::from(seconds) * 1000);
        }
        self.hand_memory_back();
        self.look_at_long_rooms(reading);
        if secret::has_unlocked() && !self.is_told_unlocked {
            self.is_told_unlocked = true;
            self.set.log.write(Level::Warn, "-", "", "some memory is not locked: the limit of locked memory (ulimit -l) is reached");
        }
    }

    /// Closes connections that have been idle for so many milliseconds.
    fn sweep(&mut self, reading: u64, idle: u64) {
        if reading < self.swept + SWEEP {
            return;
        }
        self.swept = reading;
        let is_idle = |c: &Connection| c.request.is_none() && c.active + idle <= reading;
        let tokens: Vec<u64> = self.connections.iter().filter(|(_, c)| is_idle(c)).map(|(t, _)| *t).collect();
        for token in tokens {
            if let Some(c) = self.connections.remove(&token) {
                self.close(c, End::Closed(format!("closed: idle for {} s", idle / 1000)));
            }
        }
    }

    /// What a crowd of connections has taken goes back to the system.
    fn hand_memory_back(&mut self) {
        if self.peak > 8 && self.connections.len() <= self.peak / 8 {
            self.peak = self.connections.len();
            secret::trim();
            self.connections.shrink_to_fit();
            self.works.shrink_to_fit();
            self.ready.shrink_to_fit();
            // SAFETY: only hands free memory back.
            unsafe { libc::malloc_trim(0) };
        }
    }

    fn look_at_long_rooms(&mut self, reading: u64) {
        self.long = match (secret::kept_long(), self.long) {
            (Some(uses), Some((before, since))) if uses == before => Some((uses, since)),
            (Some(uses), _) => Some((uses, reading)),
            (None, _) => None,
        };
        if self.long.map_or(false, |(_, since)| since + UNUSED <= reading) {
            secret::trim();
            self.long = None;
        }
    }

    fn tell_changes(&mut self, reading: u64) {
        if self.core.is_changed() || self.panel.has_wishes() {
            self.core.let_go(); // so that what is told is as of now
        }
        let (gone, is_changed) = self.core.changes();
        for (number, fingerprint) in gone {
            self.set.log.write(Level::Info, "-", "", &format!("key {number} is gone: {fingerprint}"));
        }
        if is_changed {
            self.panel.want_blocks();
        }
        if self.panel.has_wishes() {
            self.panel.grant_wishes(self.core.is_locked(), &self.core.shown());
        }
        for token in self.panel.unread(reading) {
            self.close_panel(token, "closed: the panel does not read");
        }
        for (token, fd, has_unread) in self.panel.retold() {
            self.watch_for(fd, token, true, has_unread);
        }
    }
}

fn status_of(ended: ExitStatus) -> i32 {
    ended.code().unwrap_or_else(|| 128 + ended.signal().unwrap_or(0))
}

fn yes_or_no(yes: bool) -> &'static str {
    if yes {
        "yes"
    } else {
        "no"
    }
}
