//! An SSH agent on a Unix socket whose every decision is the proved core's.
//!
//! This host owns what the core leaves outside: sockets, frames, the clock, the panel (gate and confirmation), key check and signatures. It
//! keeps no rule. Each request goes to the core as a call; where the core asks, the host gets the answer and calls again with all answers so
//! far, until the request lands: the core replies or closes.
#![deny(unsafe_op_in_unsafe_fn)]

mod clock;
mod connection;
mod core;
mod keys;
mod lines;
mod log;
mod names;
mod options;
mod panel;
mod process;
mod secret;
mod serve;
mod sockets;
mod workers;

use clap::Parser;
use lines::{Line, Lines};
use nix::sys::signal::{SigSet, Signal};
use options::{Options, Say};
use sockets::{absolute, handed_over, listen, own_path, Made};
use std::io::{Read, Write};
use std::os::unix::ffi::OsStrExt;
use std::os::unix::net::UnixListener;
use std::path::PathBuf;
use std::sync::mpsc::{sync_channel, SyncSender};

fn main() {
    let options = Options::parse();
    // a fault is told by its place alone: what was worked on stays out of every log
    std::panic::set_hook(Box::new(|fault| {
        let at = fault.location().map_or(String::new(), |at| format!(" at {}:{}", at.file(), at.line()));
        complain(&format!("a fault{at}"));
    }));
    let mut made = Made::default();
    let ended = std::panic::catch_unwind(std::panic::AssertUnwindSafe(|| run(options, &mut made)));
    let has_made = made.remove();
    let status = match ended {
        Ok(Ok((status, log, is_told))) => {
            if is_told {
                log.say(if has_made { "agent: ended, socket removed" } else { "agent: ended" }.to_string());
            }
            log.finish();
            status
        }
        Ok(Err(why)) => {
            complain(&why);
            1
        }
        Err(_) => 1,
    };
    std::process::exit(status);
}

/// On standard error; nobody may be there to read it.
fn complain(text: &str) {
    let _ = writeln!(std::io::stderr(), "key-agentd: {text}");
}

/// The exit status, the log, and whether its last line is to be written.
fn run(options: Options, made: &mut Made) -> Result<(i32, log::Log, bool), String> {
    let before = process::keep_to_ourselves();
    process::lock_all();
    let signals = process::signals().map_err(|e| e.desc().to_string())?;
    let (agent, panel_listener, path) = all_sockets(&options, made)?;
    let has_command = !options.command.is_empty();
    let log = log::Log::new(options.log, has_command).map_err(|e| format!("no thread: {e}"))?;
    let is_told = !has_command || log.has(log::Level::Info);
    if is_told {
        let end = if made.is_empty() { "Ctrl-C ends it" } else { "Ctrl-C ends it and removes the socket" };
        log.say(format!("export SSH_AUTH_SOCK={}", quoted(path.as_os_str().as_bytes())));
        log.say(format!("agent: gate {}, confirm {}; {end}", options.gate.word(), options.confirm.word()));
    }
    let wake = workers::Wake::new().map_err(|e| e.desc().to_string())?;
    let (to_loop, lines) = sync_channel(64);
    let has_terminal = (options.gate == Say::Ask || options.confirm == Say::Ask) && !has_command;
    if has_terminal {
        read_terminal(to_loop, wake).map_err(|e| format!("no thread: {e}"))?;
    }
    let child = if has_command { Some(process::start(&options.command, &path, before)?) } else { None };
    let most = process::most_connections(options.max_connections);
    let set = serve::Serve { options, log, clock: clock::Clock::new(), wake, lines, signals, agent, panel_listener, child, most, has_terminal };
    let (status, log) = serve::serve(set)?;
    Ok((status, log, is_told))
}

/// The agent's and the panel's, and the agent's path.
fn all_sockets(options: &Options, made: &mut Made) -> Result<(UnixListener, Option<UnixListener>, PathBuf), String> {
    let (agent, panel) = handed_over()?;
    let (agent, path) = match agent {
        Some(agent) => {
            let path = agent.local_addr().ok().and_then(|a| a.as_pathname().map(PathBuf::from)).unwrap_or_default();
            (agent, path)
        }
        None => {
            let path = match &options.socket {
                Some(path) => absolute(path)?,
                None => own_path(made)?,
            };
            (listen(&path, made)?, path)
        }
    };
    let panel = match (panel, &options.panel) {
        (Some(panel), _) => Some(panel),
        (None, Some(path)) => Some(listen(path, made)?),
        (None, None) => None,
    };
    Ok((agent, panel, path))
}

/// Lines from standard input go to the loop, and its end.
fn read_terminal(to_loop: SyncSender<Option<Line>>, wake: workers::Wake) -> std::io::Result<()> {
    std::thread::Builder::new().name("terminal".to_string()).spawn(move || {
        let mut ttin = SigSet::empty();
        ttin.add(Signal::SIGTTIN);
        let _ = ttin.thread_block(); // in the background a read then fails and does not stop us
        let (mut lines, mut chunk) = (Lines::default(), [0; 1024]);
        loop {
            match std::io::stdin().read(&mut chunk) {
                Ok(0) => break,
                Ok(n) => {
                    for line in lines.take(&chunk[..n]) {
                        let _ = to_loop.send(Some(line));
                        wake.call();
                    }
                }
                Err(_) => std::thread::sleep(std::time::Duration::from_secs(1)),
            }
        }
        let _ = to_loop.send(None);
        wake.call();
    })?;
    Ok(())
}

/// As a word of a shell's line.
fn quoted(path: &[u8]) -> String {
    let is_plain = |b: &u8| b.is_ascii_alphanumeric() || b"@%+=:,./-_".contains(b);
    match std::str::from_utf8(path) {
        Ok(text) if !path.is_empty() && path.iter().all(is_plain) => text.to_string(),
        Ok(text) if !text.chars().any(char::is_control) => format!("'{}'", text.replace('\'', "'\"'\"'")),
        _ => format!("$'{}'", path.iter().map(|b| if is_plain(b) { char::from(*b).to_string() } else { format!("\\x{b:02x}") }).collect::<String>()),
    }
}

#[cfg(test)]
mod tests {
    use super::quoted;

    #[test]
    fn paths_for_a_shell() {
        assert_eq!(quoted(b"/run/user/1000/agent"), "/run/user/1000/agent");
        assert_eq!(quoted("/tmp/it's ü".as_bytes()), "'/tmp/it'\"'\"'s ü'");
        assert_eq!(quoted(b"/tmp/\xff\n"), "$'/tmp/\\xff\\x0a'");
    }
}
