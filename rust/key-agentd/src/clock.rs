//! Milliseconds since the start. They never fall, and go on while the machine sleeps.
use nix::sys::time::{TimeSpec, TimeValLike};
use nix::sys::timerfd::{self, Expiration, TimerFd, TimerFlags, TimerSetTimeFlags};
use nix::time::{clock_gettime, ClockId};
use std::os::unix::io::{AsRawFd, RawFd};

fn now() -> u64 {
    let t = clock_gettime(ClockId::CLOCK_BOOTTIME).expect("every Linux has it");
    t.tv_sec() as u64 * 1000 + t.tv_nsec() as u64 / 1_000_000
}

#[derive(Clone, Copy)]
pub struct Clock {
    start: u64,
}

impl Clock {
    pub fn new() -> Clock {
        Clock { start: now() }
    }

    pub fn reading(&self) -> u64 {
        now() - self.start
    }
}

/// Wakes the loop at a reading, also behind a sleep of the machine.
pub struct Timer {
    fd: TimerFd,
    clock: Clock,
    at: Option<u64>,
}

impl Timer {
    pub fn new(clock: Clock) -> nix::Result<Timer> {
        let fd = TimerFd::new(timerfd::ClockId::CLOCK_BOOTTIME, TimerFlags::TFD_NONBLOCK | TimerFlags::TFD_CLOEXEC)?;
        Ok(Timer { fd, clock, at: None })
    }

    pub fn fd(&self) -> RawFd {
        self.fd.as_raw_fd()
    }

    /// At this reading, or never; what is set already is not set again.
    pub fn set(&mut self, at: Option<u64>) {
        if at != self.at {
            let _ = match at {
                Some(reading) => {
                    let moment = TimeSpec::milliseconds((self.clock.start + reading).min(i64::MAX as u64) as i64);
                    self.fd.set(Expiration::OneShot(moment), TimerSetTimeFlags::TFD_TIMER_ABSTIME)
                }
                None => self.fd.unset(),
            };
            self.at = at;
        }
    }

    /// It has rung.
    pub fn clear(&mut self) {
        let _ = nix::unistd::read(self.fd(), &mut [0; 8]);
        self.at = None;
    }
}
