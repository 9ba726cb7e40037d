//! The terminal: raw mode, size, drawing. It is put back on every end, a panic's too.
use crate::view::{Row, Screen, Style};
use nix::errno::Errno;
use nix::libc::{STDIN_FILENO, STDOUT_FILENO, TIOCGWINSZ};
use nix::poll::{poll, PollFd, PollFlags};
use nix::pty::Winsize;
use nix::sys::signal::{raise, Signal};
use nix::sys::termios::{cfmakeraw, tcgetattr, tcsetattr, SetArg, Termios};
use std::sync::{Mutex, MutexGuard};

nix::ioctl_read_bad!(window_size, TIOCGWINSZ, Winsize);

/// The other screen, no cursor, and lines that end at the edge.
const ENTER: &str = "\x1b[?1049h\x1b[?25l\x1b[?7l\x1b[2J";
const LEAVE: &str = "\x1b[0m\x1b[?7h\x1b[?25h\x1b[?1049l";

/// The terminal's settings before, while they are ours.
static BEFORE: Mutex<Option<Termios>> = Mutex::new(None);

pub struct Terminal {
    drawn: Vec<Row>,
}

impl Terminal {
    pub fn new() -> nix::Result<Terminal> {
        let hook = std::panic::take_hook();
        std::panic::set_hook(Box::new(move |panic| {
            leave();
            hook(panic);
        }));
        let mut terminal = Terminal { drawn: Vec::new() };
        terminal.enter()?;
        Ok(terminal)
    }

    /// Takes the terminal; also when the program goes on after somebody else has stopped it.
    pub fn enter(&mut self) -> nix::Result<()> {
        let mut raw = tcgetattr(STDIN_FILENO)?;
        before().get_or_insert_with(|| raw.clone());
        cfmakeraw(&mut raw);
        tcsetattr(STDIN_FILENO, SetArg::TCSAFLUSH, &raw)?;
        self.drawn.clear();
        write(ENTER)
    }

    /// Stops, and takes the terminal when it goes on.
    pub fn suspend(&mut self) -> nix::Result<()> {
        leave();
        raise(Signal::SIGSTOP)?;
        self.enter()
    }

    /// The next drawing draws all.
    pub fn forget(&mut self) {
        self.drawn.clear();
    }

    pub fn draw(&mut self, screen: Screen) -> nix::Result<()> {
        if screen.rows == self.drawn {
            return Ok(());
        }
        let rows: Vec<String> = screen.rows.iter().map(dressed).collect();
        self.drawn = screen.rows;
        write(&format!("\x1b[H{}\x1b[J", rows.join("\r\n")))
    }

    pub fn bell(&self) -> nix::Result<()> {
        write("\x07")
    }
}

impl Drop for Terminal {
    fn drop(&mut self) {
        leave();
    }
}

fn before() -> MutexGuard<'static, Option<Termios>> {
    BEFORE.lock().unwrap_or_else(|e| e.into_inner())
}

/// Puts the terminal back, if it is ours.
fn leave() {
    if let Some(settings) = before().take() {
        let _ = write(LEAVE);
        let _ = tcsetattr(STDIN_FILENO, SetArg::TCSANOW, &settings);
    }
}

fn dressed(row: &Row) -> String {
    let style = match row.style {
        Style::Plain => "",
        Style::Title => "\x1b[1m",
        Style::Strong => "\x1b[1;7m",
        Style::Selected => "\x1b[7m",
    };
    format!("{style}{}\x1b[0m\x1b[K", row.text)
}

/// Rows and columns.
pub fn size() -> (usize, usize) {
    let mut size = Winsize { ws_row: 0, ws_col: 0, ws_xpixel: 0, ws_ypixel: 0 };
    // SAFETY: the kernel fills the struct that is lent.
    let told = unsafe { window_size(STDOUT_FILENO, &mut size) };
    match told {
        Ok(_) if size.ws_row > 0 && size.ws_col > 0 => (size.ws_row.into(), size.ws_col.into()),
        _ => (24, 80),
    }
}

/// All of a text, also where the terminal takes it in pieces.
fn write(text: &str) -> nix::Result<()> {
    let mut bytes = text.as_bytes();
    while !bytes.is_empty() {
        match nix::unistd::write(STDOUT_FILENO, bytes) {
            Ok(n) => bytes = &bytes[n..],
            Err(Errno::EINTR) => {}
            Err(Errno::EAGAIN) => {
                poll(&mut [PollFd::new(STDOUT_FILENO, PollFlags::POLLOUT)], -1)?;
            }
            Err(e) => return Err(e),
        }
    }
    Ok(())
}
