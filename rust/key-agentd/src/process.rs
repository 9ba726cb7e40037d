//! What the process keeps from others, and the signals that it hears.
use nix::libc;
use nix::sys::resource::{getrlimit, setrlimit, Resource};
use nix::sys::signal::{signal, SigHandler, SigSet, Signal};
use nix::sys::signalfd::{SfdFlags, SignalFd};
use std::os::unix::process::CommandExt;
use std::process::{Child, Command};

/// What was set before, for a command that is started.
pub struct Before {
    limits: [(Resource, Option<(u64, u64)>); 3],
    mask: SigSet,
}

/// Nobody attaches to us or reads our memory, no core file is written, and as many descriptors and as much locked memory as
/// the system allows are ours.
pub fn keep_to_ourselves() -> Before {
    // SAFETY: sets an attribute of this process.
    unsafe { libc::prctl(libc::PR_SET_DUMPABLE, 0, 0, 0, 0) };
    let mask = SigSet::thread_get_mask().unwrap_or_else(|_| SigSet::empty());
    let limits = [Resource::RLIMIT_CORE, Resource::RLIMIT_NOFILE, Resource::RLIMIT_MEMLOCK].map(|what| (what, getrlimit(what).ok()));
    for (what, before) in limits {
        if let Some((_, hard)) = before {
            let _ = setrlimit(what, if what == Resource::RLIMIT_CORE { 0 } else { hard }, hard);
        }
    }
    Before { limits, mask }
}

/// Locks all memory, the library's copies of keys too, where no limit stands against it; is it locked? With a limit each buffer is locked for itself.
pub fn lock_all() -> bool {
    const MCL_ONFAULT: i32 = 4; // linux/mman.h
    let is_unlimited = getrlimit(Resource::RLIMIT_MEMLOCK).map_or(false, |(soft, _)| soft == libc::RLIM_INFINITY);
    // SAFETY: locks pages as they are used, and alters none.
    (is_unlimited || may_lock()) && unsafe { libc::mlockall(libc::MCL_CURRENT | libc::MCL_FUTURE | MCL_ONFAULT) } == 0
}

/// Has the process the capability that stands above the limit?
fn may_lock() -> bool {
    const CAP_IPC_LOCK: u64 = 1 << 14;
    let status = std::fs::read_to_string("/proc/self/status").unwrap_or_default();
    let effective = status.lines().find_map(|l| l.strip_prefix("CapEff:")).and_then(|v| u64::from_str_radix(v.trim(), 16).ok());
    effective.map_or(false, |bits| bits & CAP_IPC_LOCK != 0)
}

/// The connections that can be served beside what else takes a descriptor.
pub fn most_connections(wished: u32) -> usize {
    let files = getrlimit(Resource::RLIMIT_NOFILE).map_or(1024, |(soft, _)| soft);
    (u64::from(wished)).min(files.saturating_sub(64)).max(1) as usize
}

/// Those that end the agent, and a command's end. To be called before any thread is started, so that all of them leave these to the loop.
pub fn signals() -> nix::Result<SignalFd> {
    // SAFETY: no handler is set. Where it was ignored the system would not tell us of a command's end.
    unsafe { signal(Signal::SIGCHLD, SigHandler::SigDfl) }?;
    let mut set = SigSet::empty();
    for s in [Signal::SIGINT, Signal::SIGTERM, Signal::SIGCHLD] {
        set.add(s);
    }
    if !is_hangup_ignored() {
        set.add(Signal::SIGHUP);
    }
    set.thread_block()?;
    SignalFd::with_flags(&set, SfdFlags::SFD_NONBLOCK | SfdFlags::SFD_CLOEXEC)
}

/// As `nohup` leaves it.
fn is_hangup_ignored() -> bool {
    // SAFETY: only asks, into a local of plain numbers.
    unsafe {
        let mut now: libc::sigaction = std::mem::zeroed();
        libc::sigaction(libc::SIGHUP, std::ptr::null(), &mut now) == 0 && now.sa_sigaction == libc::SIG_IGN
    }
}

/// Starts a command under the agent, with the limits and the signals that we had.
pub fn start(words: &[std::ffi::OsString], socket: &std::path::Path, before: Before) -> Result<Child, String> {
    let mut command = Command::new(&words[0]);
    command.args(&words[1..]).env("SSH_AUTH_SOCK", socket).env("SSH_AGENT_PID", std::process::id().to_string());
    // SAFETY: both calls may be made between fork and exec.
    unsafe {
        command.pre_exec(move || {
            for (what, value) in before.limits {
                if let Some((soft, hard)) = value {
                    let _ = setrlimit(what, soft, hard);
                }
            }
            Ok(before.mask.thread_set_mask()?)
        });
    }
    command.spawn().map_err(|e| format!("{}: {e}", words[0].to_string_lossy()))
}
