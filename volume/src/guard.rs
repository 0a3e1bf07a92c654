//! Lent memory between two pages that may not be touched.
//!
//! What is lent stands flush against the page behind it, or flush after the
//! page before it, so that one byte too far ends the run. What a call may only
//! read is the same memory mapped twice: written through one mapping and lent
//! through the other, which is read-only.

use crate::dice::{self, Dice};
use std::ffi::{c_char, c_void};
use std::io;

const PROT_NONE: i32 = 0;
const PROT_READ: i32 = 1;
const PROT_WRITE: i32 = 2;
const MAP_SHARED: i32 = 1;
const MAP_PRIVATE: i32 = 2;
const MAP_FIXED: i32 = 0x10;
const MAP_ANONYMOUS: i32 = 0x20;
const SC_PAGESIZE: i32 = 30;

extern "C" {
    fn mmap(at: *mut c_void, size: usize, may: i32, how: i32, file: i32, from: i64) -> *mut c_void;
    fn mprotect(at: *mut c_void, size: usize, may: i32) -> i32;
    fn munmap(at: *mut c_void, size: usize) -> i32;
    fn memfd_create(name: *const c_char, flags: u32) -> i32;
    fn ftruncate(file: i32, size: i64) -> i32;
    fn close(file: i32) -> i32;
    fn sysconf(name: i32) -> i64;
}

/// Which of the two pages the lent memory touches.
#[derive(Clone, Copy, Debug, PartialEq, Eq)]
pub enum Side {
    Front,
    Back,
}

impl Side {
    pub fn any(dice: &mut Dice) -> Side {
        *dice.pick(&[Side::Front, Side::Back])
    }
}

/// Mapped memory with a page that may not be touched on each side.
struct Fenced {
    whole: *mut u8,
    page: usize,
    /// Bytes between the two pages.
    size: usize,
}

impl Fenced {
    fn new(least: usize) -> Fenced {
        let page = unsafe { sysconf(SC_PAGESIZE) } as usize;
        let size = least.max(1).next_multiple_of(page);
        let how = MAP_PRIVATE | MAP_ANONYMOUS;
        let null = std::ptr::null_mut();
        let whole = unsafe { mmap(null, size + 2 * page, PROT_NONE, how, -1, 0) };
        let whole = mapped(whole);
        Fenced { whole, page, size }
    }

    fn inside(&self) -> *mut u8 {
        unsafe { self.whole.add(self.page) }
    }

    /// Where so many bytes begin that touch the page on this side.
    fn start(&self, bytes: usize, side: Side) -> usize {
        assert!(
            bytes <= self.size,
            "{bytes} bytes in a room of {}",
            self.size
        );
        match side {
            Side::Front => 0,
            Side::Back => self.size - bytes,
        }
    }
}

impl Drop for Fenced {
    fn drop(&mut self) {
        unsafe { munmap(self.whole.cast(), self.size + 2 * self.page) };
    }
}

fn mapped(at: *mut c_void) -> *mut u8 {
    assert!(at as isize != -1, "mmap: {}", io::Error::last_os_error());
    at.cast()
}

fn done(outcome: i32) -> i32 {
    assert!(outcome >= 0, "memory: {}", io::Error::last_os_error());
    outcome
}

/// Memory that a call may read and not write.
pub struct Lender {
    lent: Fenced,
    /// The same memory, to be written here.
    written: *mut u8,
}

impl Lender {
    pub fn new(least: usize) -> Lender {
        let lent = Fenced::new(least);
        let size = lent.size;
        unsafe {
            let file = done(memfd_create(c"lent".as_ptr(), 0));
            done(ftruncate(file, size as i64));
            let how = MAP_SHARED | MAP_FIXED;
            mapped(mmap(lent.inside().cast(), size, PROT_READ, how, file, 0));
            let may = PROT_READ | PROT_WRITE;
            let null = std::ptr::null_mut();
            let written = mapped(mmap(null, size, may, MAP_SHARED, file, 0));
            done(close(file));
            Lender { lent, written }
        }
    }

    /// A copy that can only be read.
    pub fn lend<T: Copy>(&mut self, items: &[T], side: Side) -> &[T] {
        let start = self.lent.start(size_of_val(items), side);
        unsafe {
            let to = self.written.add(start).cast::<T>();
            std::ptr::copy_nonoverlapping(items.as_ptr(), to, items.len());
            let from = self.lent.inside().add(start).cast::<T>();
            std::slice::from_raw_parts(from, items.len())
        }
    }
}

impl Drop for Lender {
    fn drop(&mut self) {
        unsafe { munmap(self.written.cast(), self.lent.size) };
    }
}

/// Memory that a call may write.
pub struct Room {
    lent: Fenced,
    /// What stood in the room when it was lent.
    before: Vec<u8>,
}

impl Room {
    pub fn new(least: usize) -> Room {
        let lent = Fenced::new(least);
        let may = PROT_READ | PROT_WRITE;
        unsafe { done(mprotect(lent.inside().cast(), lent.size, may)) };
        let before = Vec::new();
        Room { lent, before }
    }

    /// So many elements of bytes that came by dice, and what these bytes are.
    pub fn lend<T: Copy>(&mut self, dice: &mut Dice, count: usize, side: Side) -> (&mut [T], &[T]) {
        let bytes = count * size_of::<T>();
        let start = self.lent.start(bytes, side);
        // Elements of two bytes want to stand at an even place.
        self.before.resize(bytes.next_multiple_of(8) + 8, 0);
        dice::fill(dice, &mut self.before);
        let skipped = self.before.as_ptr().align_offset(align_of::<T>());
        let before = &self.before[skipped..skipped + bytes];
        unsafe {
            let at = self.lent.inside().add(start);
            std::ptr::copy_nonoverlapping(before.as_ptr(), at, bytes);
            let room = std::slice::from_raw_parts_mut(at.cast::<T>(), count);
            let before = std::slice::from_raw_parts(before.as_ptr().cast::<T>(), count);
            (room, before)
        }
    }

    /// A thing that a call may change where it stands, flush against the page
    /// on this side.
    pub fn hold<T: Copy>(&mut self, thing: T, side: Side) -> &mut T {
        let start = self.lent.start(size_of::<T>(), side);
        unsafe {
            let at = self.lent.inside().add(start).cast::<T>();
            assert!(at.is_aligned(), "a thing whose size is none of its places");
            at.write(thing);
            &mut *at
        }
    }
}

#[cfg(test)]
mod tests {
    use super::*;

    #[test]
    fn lent_and_written() {
        let mut dice = Dice::new(1);
        let mut lender = Lender::new(5000);
        for side in [Side::Front, Side::Back] {
            assert_eq!(lender.lend(b"abc", side), b"abc");
            assert_eq!(lender.lend(&[1usize, usize::MAX], side), [1, usize::MAX]);
            assert_eq!(lender.lend::<u8>(&[], side), b"");
        }
        let mut room = Room::new(20_000);
        for count in [0, 1, 7, 10_000] {
            for side in [Side::Front, Side::Back] {
                let (lent, before) = room.lend::<u16>(&mut dice, count, side);
                assert_eq!(lent, before);
                lent.fill(7);
            }
        }
        for side in [Side::Front, Side::Back] {
            let held = room.hold([1u64, u64::MAX], side);
            assert_eq!(*held, [1, u64::MAX]);
            held[1] = 2;
        }
    }

    /// The bytes beside what is lent stand in the pages that may not be touched.
    #[test]
    fn flush_against_the_pages() {
        let mut lender = Lender::new(1);
        let (page, inside) = (lender.lent.page, lender.lent.inside() as usize);
        assert_eq!(inside % page, 0);
        let front = lender.lend(b"abc", Side::Front).as_ptr() as usize;
        assert_eq!(front, inside);
        let back = lender.lend(b"abc", Side::Back).as_ptr() as usize;
        assert_eq!(back + 3, inside + lender.lent.size);
        let mut room = Room::new(1);
        let inside = room.lent.inside() as usize;
        let front = std::ptr::from_ref(room.hold(7u64, Side::Front)) as usize;
        assert_eq!(front, inside);
        let back = std::ptr::from_ref(room.hold(7u64, Side::Back)) as usize;
        assert_eq!(back + 8, inside + room.lent.size);
    }
}
