//! Threads for cryptography, so that the loop waits for none of it. One thread takes key checks first, the others signatures, and checks never
//! take every thread: neither kind holds up the other.
use crate::keys::Key;
use crate::secret::{wipe_stack, Secret};
use key_agent::Hash;
use nix::sys::eventfd::{eventfd, EfdFlags};
use std::collections::VecDeque;
use std::os::unix::io::RawFd;
use std::panic::{catch_unwind, AssertUnwindSafe};
use std::sync::{Arc, Condvar, Mutex};
use std::thread;

/// What signs: derived before, or to be derived.
pub enum Source {
    Derived(Arc<Key>),
    Fields(Secret),
}

pub enum Work {
    Check {
        fields: Secret,
    },
    Sign {
        source: Source,
        data: Secret,
        hash: Hash,
    },
    /// For tests: what a fault in a library would do.
    Panic,
}

pub enum Answer {
    /// The kind of the key, or why it is none.
    Checked(Result<&'static str, String>),
    /// The signature, and what signed; or why there is none.
    Signed(Result<(Vec<u8>, Arc<Key>), String>),
    Panicked,
}

#[derive(Default)]
struct Queue {
    signs: VecDeque<(u64, Work)>,
    checks: VecDeque<(u64, Work)>,
    checking: usize,
}

struct Shared {
    queue: Mutex<Queue>,
    more: Condvar,
    most_checks: usize,
    done: Mutex<Vec<(u64, Answer)>>,
    wake: Wake,
}

/// Wakes the loop from another thread.
#[derive(Clone, Copy)]
pub struct Wake {
    fd: RawFd,
}

impl Wake {
    pub fn new() -> nix::Result<Wake> {
        Ok(Wake { fd: eventfd(0, EfdFlags::EFD_NONBLOCK | EfdFlags::EFD_CLOEXEC)? })
    }

    pub fn fd(self) -> RawFd {
        self.fd
    }

    pub fn call(self) {
        let _ = nix::unistd::write(self.fd, &1u64.to_ne_bytes());
    }

    pub fn clear(self) {
        let _ = nix::unistd::read(self.fd, &mut [0; 8]);
    }
}

pub struct Workers {
    shared: Arc<Shared>,
    last: u64,
}

impl Workers {
    pub fn new(wake: Wake) -> std::io::Result<Workers> {
        let threads = thread::available_parallelism().map_or(2, |n| n.get()).max(2);
        let shared = Shared { queue: Mutex::default(), more: Condvar::new(), most_checks: threads - 1, done: Mutex::default(), wake };
        let shared = Arc::new(shared);
        for n in 0..threads {
            let shared = shared.clone();
            thread::Builder::new().name(format!("worker {n}")).spawn(move || shared.run(n == 0))?;
        }
        Ok(Workers { shared, last: 0 })
    }

    /// Hands work out; its answer comes back with this number.
    pub fn start(&mut self, work: Work) -> u64 {
        self.last += 1;
        let mut queue = self.shared.queue.lock().expect("no panic under it");
        match work {
            Work::Check { .. } => queue.checks.push_back((self.last, work)),
            _ => queue.signs.push_back((self.last, work)),
        }
        drop(queue);
        self.shared.more.notify_one(); // whoever waits can take it, or is not needed
        self.last
    }

    /// Work that nobody waits for any more, where it has not begun.
    pub fn forget(&mut self, number: u64) {
        let mut queue = self.shared.queue.lock().expect("no panic under it");
        queue.signs.retain(|(n, _)| *n != number);
        queue.checks.retain(|(n, _)| *n != number);
    }

    pub fn done(&mut self) -> Vec<(u64, Answer)> {
        std::mem::take(&mut *self.shared.done.lock().expect("no panic under it"))
    }
}

impl Shared {
    fn run(&self, is_for_checks: bool) {
        loop {
            let (number, work) = self.next(is_for_checks);
            let is_check = matches!(work, Work::Check { .. });
            let answer = catch_unwind(AssertUnwindSafe(|| carry_out(work))).unwrap_or(Answer::Panicked);
            wipe_stack();
            if is_check {
                self.queue.lock().expect("no panic under it").checking -= 1;
            }
            self.done.lock().expect("no panic under it").push((number, answer));
            self.wake.call();
        }
    }

    fn next(&self, is_for_checks: bool) -> (u64, Work) {
        let mut queue = self.queue.lock().expect("no panic under it");
        loop {
            let found = if is_for_checks {
                queue.check(self.most_checks).or_else(|| queue.signs.pop_front())
            } else {
                queue.signs.pop_front().or_else(|| queue.check(self.most_checks))
            };
            match found {
                Some(work) => return work,
                None => queue = self.more.wait(queue).expect("no panic under it"),
            }
        }
    }
}

impl Queue {
    fn check(&mut self, most: usize) -> Option<(u64, Work)> {
        if self.checking >= most {
            return None;
        }
        let work = self.checks.pop_front()?;
        self.checking += 1;
        Some(work)
    }
}

fn carry_out(work: Work) -> Answer {
    match work {
        Work::Check { fields } => Answer::Checked(Key::check(&fields).map(|k| k.kind()).map_err(|e| e.to_string())),
        Work::Sign { source, data, hash } => Answer::Signed(signed(source, &data, hash)),
        Work::Panic => panic!("the signer was told to"),
    }
}

fn signed(source: Source, data: &[u8], hash: Hash) -> Result<(Vec<u8>, Arc<Key>), String> {
    let key = match source {
        Source::Derived(key) => key,
        Source::Fields(fields) => Arc::new(Key::load(&fields).map_err(|e| e.to_string())?),
    };
    let signature = key.sign(data, hash).map_err(|e| e.to_string())?;
    Ok((signature, key))
}

#[cfg(test)]
mod tests {
    use super::*;

    fn await_one(workers: &mut Workers) -> (u64, Answer) {
        loop {
            if let Some(done) = workers.done().pop() {
                return done;
            }
            thread::yield_now();
        }
    }

    #[test]
    fn a_panic_ends_one_work_alone() {
        let mut workers = Workers::new(Wake::new().unwrap()).unwrap();
        for _ in 0..20 {
            let n = workers.start(Work::Panic);
            assert!(matches!(await_one(&mut workers), (m, Answer::Panicked) if m == n));
        }
        let n = workers.start(Work::Check { fields: Secret::of(b"no key").unwrap() });
        assert!(matches!(await_one(&mut workers), (m, Answer::Checked(Err(_))) if m == n));
    }
}
