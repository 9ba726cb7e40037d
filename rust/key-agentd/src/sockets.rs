//! The sockets that are served, and who is at the other end.
use crate::names::word;
use nix::errno::Errno;
use nix::fcntl::{flock, FlockArg};
use nix::sys::socket::{connect, getsockopt, socket, sockopt, AddressFamily, SockFlag, SockType, UnixAddr};
use nix::sys::stat::{umask, Mode};
use std::fs;
use std::io;
use std::os::unix::fs::{DirBuilderExt, FileTypeExt, MetadataExt};
use std::os::unix::io::{AsRawFd, FromRawFd, RawFd};
use std::os::unix::net::{UnixListener, UnixStream};
use std::path::{Path, PathBuf};

/// What was made and is removed at the end, where it still is what was made.
#[derive(Default)]
pub struct Made {
    sockets: Vec<(PathBuf, Option<(u64, u64)>)>,
    folder: Option<PathBuf>,
}

impl Made {
    pub fn is_empty(&self) -> bool {
        self.sockets.is_empty()
    }

    /// Was there anything?
    pub fn remove(&mut self) -> bool {
        let has_made = !self.is_empty();
        for (path, made) in self.sockets.drain(..) {
            if identity(&path) == made {
                let _ = fs::remove_file(path);
            }
        }
        if let Some(folder) = self.folder.take() {
            let _ = fs::remove_dir(folder);
        }
        has_made
    }
}

fn identity(path: &Path) -> Option<(u64, u64)> {
    fs::symlink_metadata(path).ok().map(|m| (m.dev(), m.ino()))
}

/// A path in a new folder of mode 0700.
pub fn own_path(made: &mut Made) -> Result<PathBuf, String> {
    let parent = match std::env::var_os("XDG_RUNTIME_DIR").filter(|d| !d.is_empty()) {
        Some(d) if Path::new(&d).is_dir() => absolute(Path::new(&d))?,
        Some(d) => {
            let d = d.to_string_lossy();
            return Err(format!("XDG_RUNTIME_DIR names {d}, which is not there: make it, unset it, or name a socket by --socket"));
        }
        None => std::env::temp_dir(),
    };
    let folder = new_folder(&parent).map_err(|e| format!("no folder in {}: {e}", parent.display()))?;
    made.folder = Some(folder.clone());
    Ok(folder.join("agent"))
}

/// What is there already is not taken, whoever made it.
fn new_folder(parent: &Path) -> io::Result<PathBuf> {
    let mut n = 0;
    loop {
        let folder = parent.join(format!("key-agentd-{}.{n}", std::process::id()));
        let before = umask(Mode::from_bits_truncate(0o077));
        let created = fs::DirBuilder::new().mode(0o700).create(&folder);
        umask(before);
        match created {
            Ok(()) => return Ok(folder),
            Err(e) if e.kind() == io::ErrorKind::AlreadyExists && n < 1000 => n += 1,
            Err(e) => return Err(e),
        }
    }
}

pub fn absolute(path: &Path) -> Result<PathBuf, String> {
    std::env::current_dir().map(|d| d.join(path)).map_err(|e| format!("no folder to begin a path with: {e}"))
}

/// Holds the folder of a path while a socket is looked for and made there, so that of two who start at once one sees the other. Whoever cannot have it
/// within a second goes on without.
struct Turn {
    _folder: Option<fs::File>,
}

impl Turn {
    fn at(path: &Path) -> Turn {
        let folder = path.parent().and_then(|d| fs::File::open(d).ok());
        if let Some(f) = &folder {
            for _ in 0..100 {
                if flock(f.as_raw_fd(), FlockArg::LockExclusiveNonblock) != Err(Errno::EWOULDBLOCK) {
                    break;
                }
                std::thread::sleep(std::time::Duration::from_millis(10));
            }
        }
        Turn { _folder: folder }
    }
}

/// A socket of mode 0600 at this path; one that nobody serves any more is replaced.
pub fn listen(path: &Path, made: &mut Made) -> Result<UnixListener, String> {
    let path = &absolute(path)?;
    let _turn = Turn::at(path);
    match probe(path) {
        Ok(()) | Err(Errno::EAGAIN) => return Err(format!("somebody serves {} already", path.display())),
        Err(Errno::ECONNREFUSED) => remove_stale(path),
        Err(_) => {} // nothing there, or something that bind refuses
    }
    let before = umask(Mode::from_bits_truncate(0o177));
    let bound = UnixListener::bind(path);
    umask(before);
    let listener = bound.map_err(|e| format!("no socket at {}: {e}", path.display()))?;
    made.sockets.push((path.to_path_buf(), identity(path)));
    listener.set_nonblocking(true).map_err(|e| e.to_string())?;
    Ok(listener)
}

/// Does somebody serve it? Where he takes nobody at the moment, the answer is EAGAIN.
fn probe(path: &Path) -> nix::Result<()> {
    let fd = socket(AddressFamily::Unix, SockType::Stream, SockFlag::SOCK_NONBLOCK | SockFlag::SOCK_CLOEXEC, None)?;
    let answer = UnixAddr::new(path).and_then(|to| connect(fd, &to));
    let _ = nix::unistd::close(fd);
    answer
}

fn remove_stale(path: &Path) {
    if fs::symlink_metadata(path).map_or(false, |m| m.file_type().is_socket()) {
        let _ = fs::remove_file(path);
    }
}

/// The sockets that whoever started us listens on: the agent's and the panel's.
pub fn handed_over() -> Result<(Option<UnixListener>, Option<UnixListener>), String> {
    let number = |name| std::env::var(name).ok().and_then(|v| v.parse::<u32>().ok());
    if number("LISTEN_PID") != Some(std::process::id()) {
        return Ok((None, None));
    }
    let names: Vec<String> = std::env::var("LISTEN_FDNAMES").unwrap_or_default().split(':').map(String::from).collect();
    let count = number("LISTEN_FDS").unwrap_or(0);
    if count > 2 {
        return Err(format!("LISTEN_FDS hands over {count} sockets; there are two, the agent's and the panel's"));
    }
    for name in ["LISTEN_PID", "LISTEN_FDS", "LISTEN_FDNAMES"] {
        std::env::remove_var(name);
    }
    let (mut agent, mut panel) = (None, None);
    for i in 0..count {
        let listener = take_over(3 + i as RawFd)?;
        match names.get(i as usize).map(String::as_str) {
            Some("agent") => agent = Some(listener),
            Some("panel") => panel = Some(listener),
            _ if agent.is_none() => agent = Some(listener),
            _ => panel = Some(listener),
        }
    }
    Ok((agent, panel))
}

fn take_over(fd: RawFd) -> Result<UnixListener, String> {
    match getsockopt(fd, sockopt::AcceptConn) {
        Ok(true) => {}
        _ => return Err(format!("descriptor {fd}, which LISTEN_FDS names, is no socket that listens")),
    }
    // SAFETY: a descriptor that was handed to this process, and nobody else takes it.
    let listener = unsafe { UnixListener::from_raw_fd(fd) };
    listener.local_addr().map_err(|_| format!("descriptor {fd}, which LISTEN_FDS names, is no Unix socket"))?;
    nix::fcntl::fcntl(fd, nix::fcntl::FcntlArg::F_SETFD(nix::fcntl::FdFlag::FD_CLOEXEC)).map_err(|e| e.desc().to_string())?;
    listener.set_nonblocking(true).map_err(|e| e.to_string())?;
    Ok(listener)
}

/// Who is at the other end, as the kernel says.
#[derive(Clone, Copy)]
pub struct Peer {
    uid: u32,
    pid: i32,
}

impl Peer {
    pub fn of(stream: &UnixStream) -> nix::Result<Peer> {
        let c = getsockopt(stream.as_raw_fd(), sockopt::PeerCredentials)?;
        Ok(Peer { uid: c.uid(), pid: c.pid() })
    }

    /// For log and panel. The program's name is read when it is to be shown, and not of each who comes.
    pub fn words(&self) -> String {
        let Peer { uid, pid } = self;
        let name = fs::read(format!("/proc/{pid}/comm")).unwrap_or_default();
        format!("uid {uid} pid {pid} program {}", word(String::from_utf8_lossy(&name).trim_end_matches('\n')))
    }

    /// Our own user, and root.
    pub fn is_let_in(&self) -> bool {
        self.uid == 0 || self.uid == nix::unistd::getuid().as_raw()
    }
}
