//! Memory for what must not stay: pages of their own, locked where the limit allows it, zeroed when they are let go.
use nix::libc;
use nix::sys::mman::{madvise, mlock, mmap, munmap, MapFlags, MmapAdvise, ProtFlags};
use std::ffi::c_void;
use std::io;
use std::num::NonZeroUsize;
use std::ops::{Deref, DerefMut};
use std::sync::atomic::{AtomicBool, AtomicUsize, Ordering};
use std::sync::{Mutex, MutexGuard};

/// What a buffer has room for, in steps: most frames fit the first, and who sends 64 KB may get room for the longest frame.
const ROOMS: [usize; 3] = [8 << 10, 64 << 10, 260 << 10];
/// How many of each are kept for the next that needs one.
const KEPT: [usize; 3] = [64, 4, 4];
/// What rooms above the first may take in all; above it who needs one is turned away. The first is there for everybody.
const MOST: usize = 128 << 20;
/// What takes a state by value takes up to 14 KB of stack with it, a call less (include/key_agent.h), and who calls it some more.
const STACK: usize = 24 * 1024;

static UNLOCKED: AtomicBool = AtomicBool::new(false);
static TAKEN: AtomicUsize = AtomicUsize::new(0);
static LONG_USES: AtomicUsize = AtomicUsize::new(0);

static POOL: Mutex<[Vec<Pages>; 3]> = Mutex::new([Vec::new(), Vec::new(), Vec::new()]);

fn pool() -> MutexGuard<'static, [Vec<Pages>; 3]> {
    POOL.lock().expect("no panic under it")
}

/// Hands back to the system what is kept: all long rooms, and the short ones but for a few.
pub fn trim() {
    for (kept, most) in pool().iter_mut().zip([8, 0, 0]) {
        kept.truncate(most);
    }
}

/// Where long rooms are kept: how often one was taken or came back so far.
pub fn kept_long() -> Option<usize> {
    let has_long = pool()[1..].iter().any(|kept| !kept.is_empty());
    has_long.then(|| LONG_USES.load(Ordering::Relaxed))
}

fn note_use(step: usize) {
    if step > 0 {
        LONG_USES.fetch_add(1, Ordering::Relaxed);
    }
}

/// Writes zeros that no compiler leaves out.
fn wipe(bytes: &mut [u8]) {
    // SAFETY: a slice and its length.
    unsafe { libc::explicit_bzero(bytes.as_mut_ptr() as *mut c_void, bytes.len()) };
}

/// Has memory stayed unlocked, as the limit of locked memory was reached?
pub fn has_unlocked() -> bool {
    UNLOCKED.load(Ordering::Relaxed)
}

/// Keeps these bytes out of swap and core files, as far as the system lets us.
pub fn lock(at: *const u8, len: usize) {
    // SAFETY: neither call reads or writes the memory; at and len are those of a live allocation.
    if unsafe { mlock(at as *const c_void, len) }.is_err() {
        UNLOCKED.store(true, Ordering::Relaxed);
    }
}

/// Whole pages from the system.
struct Pages {
    at: *mut u8,
    len: usize,
}

// SAFETY: the pages belong to this value alone.
unsafe impl Send for Pages {}

impl Pages {
    fn new(len: usize) -> io::Result<Pages> {
        let taken = if len > ROOMS[0] { TAKEN.fetch_add(len, Ordering::Relaxed) } else { 0 };
        let mut pages = Pages { at: std::ptr::null_mut(), len };
        if taken + len > MOST {
            return Err(io::Error::new(io::ErrorKind::OutOfMemory, "too many long frames at a time"));
        }
        let size = NonZeroUsize::new(len).expect("above zero");
        // SAFETY: new private memory, wherever the system puts it.
        let at = unsafe { mmap(None, size, ProtFlags::PROT_READ | ProtFlags::PROT_WRITE, MapFlags::MAP_PRIVATE | MapFlags::MAP_ANONYMOUS, -1, 0) }?;
        pages.at = at as *mut u8;
        // SAFETY: pages that were just mapped.
        let _ = unsafe { madvise(at, len, MmapAdvise::MADV_DONTDUMP) };
        lock(pages.at, len);
        Ok(pages)
    }
}

impl Drop for Pages {
    fn drop(&mut self) {
        if self.len > ROOMS[0] {
            TAKEN.fetch_sub(self.len, Ordering::Relaxed);
        }
        if !self.at.is_null() {
            // SAFETY: mapped in `new`, and nobody has a reference any more.
            let _ = unsafe { munmap(self.at as *mut c_void, self.len) };
        }
    }
}

/// Bytes that are zeroed when they are dropped.
pub struct Secret {
    pages: Option<Pages>,
    len: usize,
}

impl Secret {
    /// With room for so many bytes, and none in it.
    pub fn with_room(room: usize) -> io::Result<Secret> {
        let step = ROOMS.iter().position(|r| room <= *r).expect("no frame is longer");
        note_use(step);
        let kept = pool()[step].pop();
        let pages = kept.map_or_else(|| Pages::new(ROOMS[step]), Ok)?;
        Ok(Secret { pages: Some(pages), len: 0 })
    }

    pub fn of(bytes: &[u8]) -> io::Result<Secret> {
        let mut s = Secret::with_room(bytes.len())?;
        s.push(bytes)?;
        Ok(s)
    }

    fn pages(&self) -> &Pages {
        self.pages.as_ref().expect("there until the drop")
    }

    pub fn room(&self) -> usize {
        self.pages().len - self.len
    }

    /// Adds bytes at the end; what is there moves to a larger place where it must.
    pub fn push(&mut self, bytes: &[u8]) -> io::Result<()> {
        self.reserve(bytes.len())?;
        let from = self.len;
        self.len += bytes.len();
        self[from..].copy_from_slice(bytes);
        Ok(())
    }

    pub fn reserve(&mut self, more: usize) -> io::Result<()> {
        if self.room() < more {
            let mut larger = Secret::with_room(self.len + more)?;
            larger.len = self.len;
            larger.copy_from_slice(self);
            *self = larger;
        }
        Ok(())
    }

    /// The room behind the bytes, for a read; `grown` says how many came.
    pub fn free(&mut self) -> &mut [u8] {
        let (at, len) = (self.pages().at, self.pages().len);
        // SAFETY: pages of this value, initialised by the system, borrowed with it.
        unsafe { std::slice::from_raw_parts_mut(at.add(self.len), len - self.len) }
    }

    pub fn grown(&mut self, n: usize) {
        assert!(n <= self.room());
        self.len += n;
    }

    /// The first n bytes go, and those behind them move to the front.
    pub fn shift(&mut self, n: usize) {
        let left = self.len - n;
        self.copy_within(n.., 0);
        wipe(&mut self[left..]);
        self.len = left;
    }

    pub fn clear(&mut self) {
        wipe(self);
        self.len = 0;
    }
}

impl Deref for Secret {
    type Target = [u8];
    fn deref(&self) -> &[u8] {
        // SAFETY: the first len bytes of the pages, borrowed with this value.
        unsafe { std::slice::from_raw_parts(self.pages().at, self.len) }
    }
}

impl DerefMut for Secret {
    fn deref_mut(&mut self) -> &mut [u8] {
        // SAFETY: as above, and borrowed mutably.
        unsafe { std::slice::from_raw_parts_mut(self.pages().at, self.len) }
    }
}

impl Drop for Secret {
    fn drop(&mut self) {
        self.clear();
        let pages = self.pages.take().expect("dropped once");
        if let Some(step) = ROOMS.iter().position(|r| *r == pages.len) {
            note_use(step);
            let mut pool = pool();
            if pool[step].len() < KEPT[step] {
                pool[step].push(pages);
            }
        }
    }
}

/// Overwrites the stack below the caller, where the core or the library has left keys or passphrases.
#[inline(never)]
pub fn wipe_stack() {
    let mut below = std::mem::MaybeUninit::<[u8; STACK]>::uninit();
    // SAFETY: a local array of this length. The library's function is never left out, though nobody reads what it writes.
    unsafe { libc::explicit_bzero(below.as_mut_ptr() as *mut c_void, STACK) };
}

#[cfg(test)]
mod tests {
    use super::*;

    // one behind the other, as both take long rooms
    #[test]
    fn rooms() {
        grows_and_shifts();
        long_rooms_have_an_end_and_short_ones_none();
    }

    fn grows_and_shifts() {
        let mut s = Secret::of(b"vents").unwrap();
        s.push(&[7; 262_143]).unwrap();
        assert_eq!((&s[..5], s.len()), (&b"vents"[..], 4 + key_agent::MAX_PAYLOAD));
        s.shift(3);
        assert_eq!((&s[..3], s.len()), (&b"ts\x07"[..], 262_145));
        s.clear();
        assert!(s.is_empty() && s.free().iter().all(|b| *b == 0));
    }

    fn long_rooms_have_an_end_and_short_ones_none() {
        let long: Vec<_> = std::iter::from_fn(|| Secret::with_room(200_000).ok()).take(2000).collect();
        assert!(long.len() > 400 && long.len() < 520);
        assert!(Secret::with_room(100).is_ok());
        drop(long);
        assert!(Secret::with_room(200_000).is_ok());
    }

    #[test]
    fn a_pooled_buffer_is_zero() {
        drop(Secret::of(b"a passphrase"));
        assert!(Secret::with_room(12).unwrap().free().iter().all(|b| *b == 0));
    }
}
