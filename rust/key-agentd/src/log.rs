//! What is written on the terminal. A thread of its own writes it: nobody who does not read can hold up the loop.
use nix::libc;
use std::io::Write;
use std::sync::atomic::{AtomicU64, Ordering};
use std::sync::mpsc::{sync_channel, Receiver, SyncSender, TrySendError};
use std::sync::Arc;
use std::time::{Duration, SystemTime, UNIX_EPOCH};

#[derive(Clone, Copy, Debug, PartialEq, Eq, PartialOrd, Ord, clap::ValueEnum)]
pub enum Level {
    /// Faults
    Error,
    /// What a user should know of, as a connection that was refused
    Warn,
    /// Each connection, request, question and landing
    Info,
    /// Each call of the core too
    Debug,
}

/// Lines that may wait to be written; more are counted and left out.
const WAITING: usize = 4096;

pub struct Log {
    level: Level,
    lines: SyncSender<String>,
    lost: Arc<AtomicU64>,
    ended: Receiver<()>,
}

impl Log {
    /// Writes to standard output, or to standard error where a command has the output.
    pub fn new(level: Level, is_beside_command: bool) -> std::io::Result<Log> {
        let (lines, to_write) = sync_channel::<String>(WAITING);
        let (end, ended) = sync_channel(1);
        let lost = Arc::new(AtomicU64::new(0));
        let missed = lost.clone();
        std::thread::Builder::new().name("log".to_string()).spawn(move || {
            while let Ok(line) = to_write.recv() {
                let n = missed.swap(0, Ordering::Relaxed);
                if n > 0 {
                    put(&format!("agent: {n} lines are left out here, since nobody read them"), is_beside_command);
                }
                put(&line, is_beside_command);
            }
            let _ = end.send(());
        })?;
        Ok(Log { level, lines, lost, ended })
    }

    pub fn say(&self, line: String) {
        if let Err(TrySendError::Full(_)) = self.lines.try_send(line) {
            self.lost.fetch_add(1, Ordering::Relaxed);
        }
    }

    pub fn has(&self, level: Level) -> bool {
        level <= self.level
    }

    pub fn write(&self, level: Level, who: &str, message: &str, text: &str) {
        if self.has(level) {
            self.say(format!("{}  {who:<8}  {message:<16}  {text}", moment()).trim_end().to_string());
        }
    }

    /// Waits until all is written, or for a second where nobody reads.
    pub fn finish(self) {
        drop(self.lines);
        let _ = self.ended.recv_timeout(Duration::from_secs(1));
    }
}

// an error means that nobody reads: the agent serves on
fn put(line: &str, is_beside_command: bool) {
    let line = format!("{line}\n");
    if is_beside_command {
        let _ = std::io::stderr().write_all(line.as_bytes());
    } else {
        let mut out = std::io::stdout();
        let _ = out.write_all(line.as_bytes()).and_then(|_| out.flush());
    }
}

/// The time of day, local, in milliseconds.
fn moment() -> String {
    let now = SystemTime::now().duration_since(UNIX_EPOCH).unwrap_or_default();
    let seconds = now.as_secs() as libc::time_t;
    // SAFETY: both are locals; localtime_r fills the second, which is plain numbers and a pointer that is not used.
    let day = unsafe {
        let mut day = std::mem::zeroed();
        libc::localtime_r(&seconds, &mut day);
        day
    };
    format!("{:02}:{:02}:{:02}.{:03}", day.tm_hour, day.tm_min, day.tm_sec, now.subsec_millis())
}
