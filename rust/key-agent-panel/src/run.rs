//! The loops: on a terminal, in plain lines, and once.
use crate::keys::Keys;
use crate::link::Link;
use crate::model::{Deed, Model};
use crate::terminal::{size, Terminal};
use crate::view::{question_sentences, screen, state_sentences, tell};
use crate::words::{answer, Event, Lines};
use nix::errno::Errno;
use nix::libc::STDIN_FILENO;
use nix::poll::{poll, PollFd, PollFlags};
use nix::sys::signal::{SigSet, Signal};
use nix::sys::signalfd::{SfdFlags, SignalFd};
use nix::time::{clock_gettime, ClockId};
use std::io::Write;
use std::os::unix::io::{AsRawFd, RawFd};
use std::path::Path;
use std::time::Duration;

/// How long an escape waits for the rest of a sequence, in milliseconds.
const ESCAPE: u64 = 50;
/// How long `once` waits for the agent.
const PATIENCE: Duration = Duration::from_secs(5);
const SECOND: u64 = 1000;

/// The agent's own clock: it goes on while the machine sleeps.
fn now() -> Duration {
    clock_gettime(ClockId::CLOCK_BOOTTIME).map_or(Duration::ZERO, Duration::from)
}

/// Waits until one of these can be read, or for some milliseconds; which of them can.
fn ready<const N: usize>(fds: [Option<RawFd>; N], most: Option<u64>) -> Result<[bool; N], String> {
    let mut polled = fds.map(|fd| PollFd::new(fd.unwrap_or(-1), PollFlags::POLLIN)); // -1 is passed over
    match poll(&mut polled, most.map_or(-1, |ms| ms as i32)) {
        Ok(_) => Ok(polled.map(|p| p.revents().map_or(true, |r| !r.is_empty()))),
        Err(Errno::EINTR) => Ok([false; N]),
        Err(e) => Err(format!("poll: {}", e.desc())),
    }
}

/// The connection, and what is known of the agent behind it.
struct Watch<'a> {
    path: &'a Path,
    wait: bool,
    link: Option<Link>,
    /// When we tried to connect.
    tried: Option<Duration>,
    model: Model,
}

impl<'a> Watch<'a> {
    fn new(path: &'a Path, wait: bool) -> Result<Watch<'a>, String> {
        let mut watch = Watch { path, wait, link: None, tried: None, model: Model::default() };
        watch.connect()?;
        Ok(watch)
    }

    /// Connects where there is no connection, once a second. Nobody there is an error, unless we wait.
    fn connect(&mut self) -> Result<(), String> {
        let is_soon = self.tried.map_or(false, |at| now().saturating_sub(at) < Duration::from_millis(SECOND));
        if self.link.is_none() && !is_soon {
            self.tried = Some(now());
            match Link::open(self.path, "watch") {
                Ok(link) => (self.link, self.model) = (Some(link), Model::default()),
                Err(e) if self.wait => self.miss(&e),
                Err(e) => return Err(e),
            }
        }
        Ok(())
    }

    /// The agent is gone, and all that was known of it.
    fn lose(&mut self, why: String) -> Result<(), String> {
        if !self.wait {
            return Err(why);
        }
        (self.link, self.model) = (None, Model::default());
        self.miss(&why);
        Ok(())
    }

    fn miss(&mut self, why: &str) {
        self.model.is_away = true;
        self.model.note(format!("waiting: {why}"), now());
    }

    fn hear(&mut self) -> Result<Vec<Event>, String> {
        match self.link.as_mut().map_or(Ok(Vec::new()), Link::hear) {
            Ok(events) => Ok(events),
            Err(e) => self.lose(e).map(|()| Vec::new()),
        }
    }

    fn say(&mut self, line: &str) -> Result<(), String> {
        match self.link.as_mut().map_or(Ok(()), |link| link.say(line)) {
            Ok(()) => Ok(()),
            Err(e) => self.lose(e),
        }
    }

    fn fd(&self) -> Option<RawFd> {
        self.link.as_ref().map(Link::as_raw_fd)
    }
}

/// The panel on a terminal, until its user ends it.
pub fn on_terminal(path: &Path, wait: bool) -> Result<(), String> {
    let watch = Watch::new(path, wait)?;
    let no_terminal = |e: Errno| format!("the terminal: {}", e.desc());
    let signals = signals().map_err(no_terminal)?;
    let terminal = Terminal::new().map_err(no_terminal)?;
    let mut panel = Panel { watch, signals, terminal, keys: Keys::default() };
    loop {
        panel.draw().map_err(no_terminal)?;
        let [line, signal, key] = ready([panel.watch.fd(), Some(panel.signals.as_raw_fd()), Some(STDIN_FILENO)], panel.sleep())?;
        if line {
            panel.hear()?;
        }
        let quiet = !(line || signal || key);
        if signal && panel.signal().map_err(no_terminal)? || key && panel.press()? || quiet && panel.settle()? {
            return Ok(());
        }
        panel.watch.connect()?;
    }
}

fn signals() -> nix::Result<SignalFd> {
    let mut set = SigSet::empty();
    for s in [Signal::SIGINT, Signal::SIGTERM, Signal::SIGHUP, Signal::SIGQUIT, Signal::SIGWINCH, Signal::SIGTSTP, Signal::SIGCONT] {
        set.add(s);
    }
    set.thread_block()?;
    SignalFd::with_flags(&set, SfdFlags::SFD_NONBLOCK | SfdFlags::SFD_CLOEXEC)
}

struct Panel<'a> {
    watch: Watch<'a>,
    signals: SignalFd,
    terminal: Terminal,
    keys: Keys,
}

impl Panel<'_> {
    fn draw(&mut self) -> nix::Result<()> {
        let model = &mut self.watch.model;
        model.tick(now());
        let (height, width) = size();
        let screen = screen(model, now(), height, width);
        let selected = screen.selected;
        self.terminal.draw(screen)?;
        model.shown(selected);
        if model.take_bell() {
            self.terminal.bell()?;
        }
        Ok(())
    }

    /// The longest sleep in milliseconds.
    fn sleep(&self) -> Option<u64> {
        let escape = self.keys.waits().then_some(ESCAPE);
        let retry = self.watch.link.is_none().then_some(SECOND);
        let change = self.watch.model.until_change(now()).map(|d| d.as_millis() as u64 + 1);
        [escape, retry, change].into_iter().flatten().min()
    }

    fn hear(&mut self) -> Result<(), String> {
        for event in self.watch.hear()? {
            self.watch.model.hear(event, now());
        }
        Ok(())
    }

    /// A signal; true for one that ends the panel.
    fn signal(&mut self) -> nix::Result<bool> {
        while let Some(signal) = self.signals.read_signal()? {
            match Signal::try_from(signal.ssi_signo as i32)? {
                Signal::SIGWINCH => self.terminal.forget(),
                Signal::SIGCONT => self.terminal.enter()?,
                Signal::SIGTSTP => self.terminal.suspend()?,
                _ => return Ok(true),
            }
        }
        Ok(false)
    }

    /// Keys; true at the end.
    fn press(&mut self) -> Result<bool, String> {
        let mut bytes = [0; 64];
        let n = match nix::unistd::read(STDIN_FILENO, &mut bytes) {
            Ok(0) => return Ok(true),
            Ok(n) => n,
            Err(Errno::EINTR | Errno::EAGAIN) => 0,
            Err(_) => return Ok(true), // the terminal is gone
        };
        for &b in &bytes[..n] {
            if let Some(press) = self.keys.feed(b) {
                let deed = self.watch.model.press(press, now());
                if self.act(deed)? {
                    return Ok(true);
                }
            }
        }
        Ok(false)
    }

    /// No key came: an escape was the key of that name.
    fn settle(&mut self) -> Result<bool, String> {
        let deed = self.keys.settle().and_then(|press| self.watch.model.press(press, now()));
        self.act(deed)
    }

    fn act(&mut self, deed: Option<Deed>) -> Result<bool, String> {
        match deed {
            None => {}
            Some(Deed::Say(line)) => self.watch.say(&line)?,
            Some(Deed::Redraw) => self.terminal.forget(),
            Some(Deed::Suspend) => self.terminal.suspend().map_err(|e| e.desc().to_string())?,
            Some(Deed::End) => return Ok(true),
        }
        Ok(false)
    }
}

/// Each event as a line, and answers from standard input, until the agent ends.
pub fn plain(path: &Path, wait: bool) -> Result<(), String> {
    let mut watch = Watch::new(path, wait)?;
    not_stopped_by_reading().map_err(|e| e.desc().to_string())?;
    let mut typed = Some(Lines::default());
    let mut away = String::new();
    loop {
        away = say_away(&watch, away)?;
        let stdin = typed.as_ref().map(|_| STDIN_FILENO);
        let [line, input] = ready([watch.fd(), stdin], watch.link.is_none().then_some(SECOND))?;
        if line {
            for event in watch.hear()? {
                print(&tell(&mut watch.model, event, now()))?;
            }
        }
        if let (true, Some(lines)) = (input, &mut typed) {
            match read_input(lines) {
                None => typed = None,
                Some(lines) => {
                    if !type_lines(&mut watch, lines)? {
                        return Ok(());
                    }
                }
            }
        }
        watch.connect()?;
    }
}

/// In the background a read from the terminal fails then.
fn not_stopped_by_reading() -> nix::Result<()> {
    let mut set = SigSet::empty();
    set.add(Signal::SIGTTIN);
    set.thread_block()
}

/// Says once that nobody is there.
fn say_away(watch: &Watch<'_>, said: String) -> Result<String, String> {
    let note = watch.model.notes().next().filter(|_| watch.link.is_none()).unwrap_or("").to_string();
    if !note.is_empty() && said.is_empty() {
        print(std::slice::from_ref(&note))?;
    }
    Ok(note)
}

/// The lines that have come on standard input; none at its end.
fn read_input(lines: &mut Lines) -> Option<Vec<Option<String>>> {
    let mut bytes = [0; 4096];
    match nix::unistd::read(STDIN_FILENO, &mut bytes) {
        Ok(0) => None,
        Ok(n) => Some(lines.feed(&bytes[..n])),
        Err(Errno::EINTR | Errno::EAGAIN) => Some(Vec::new()),
        Err(_) => None,
    }
}

/// Typed lines; false for one that ends the panel.
fn type_lines(watch: &mut Watch<'_>, lines: Vec<Option<String>>) -> Result<bool, String> {
    for line in lines {
        let line = line.unwrap_or_default();
        match line.trim() {
            "" => {}
            "q" => return Ok(false),
            "?" => print(&[state_sentences(&watch.model, now()), question_sentences(&watch.model)].concat())?,
            text => match answer(text) {
                Some(_) if watch.link.is_none() => print(&["nobody serves the panel: not sent".into()])?,
                Some(answer) => watch.say(&answer)?,
                None => print(&["write NUMBER y or NUMBER n; ? shows keys and open questions, q ends".into()])?,
            },
        }
    }
    Ok(true)
}

fn print(lines: &[String]) -> Result<(), String> {
    let mut out = std::io::stdout().lock();
    for line in lines {
        writeln!(out, "{line}").map_err(|e| format!("standard output: {e}"))?;
    }
    out.flush().map_err(|e| format!("standard output: {e}"))
}

/// Lock, keys and open questions, once.
pub fn once(path: &Path, wait: bool) -> Result<(), String> {
    let mut link = first_link(path, wait)?;
    let mut model = Model::default();
    let end = now() + PATIENCE;
    while model.blocks() == 0 {
        let left = end.saturating_sub(now()).as_millis() as u64;
        let [line] = ready([Some(link.as_raw_fd())], Some(left))?;
        if !line && left == 0 {
            return Err(format!("who serves {} does not tell the agent's state", path.display()));
        }
        for event in link.hear()? {
            model.hear(event, now());
        }
    }
    print(&[state_sentences(&model, now()), question_sentences(&model)].concat())
}

fn first_link(path: &Path, wait: bool) -> Result<Link, String> {
    loop {
        match Link::open(path, "show") {
            Err(_) if wait => std::thread::sleep(Duration::from_millis(SECOND)),
            link => return link,
        }
    }
}
