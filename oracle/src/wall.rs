//! Memory to lend: what is read ends at a wall, so that reading one place too far ends the program; what is written stands between fences.

use std::ffi::c_void;
use std::ptr::null_mut;

extern "C" {
    fn mmap(at: *mut c_void, length: usize, protection: i32, flags: i32, file: i32, offset: i64) -> *mut c_void;
    fn mprotect(at: *mut c_void, length: usize, protection: i32) -> i32;
}

const NONE: i32 = 0;
const READ_WRITE: i32 = 3;
const PRIVATE_ANONYMOUS: i32 = 0x22;

/// A multiple of every page size in use.
const PAGE: usize = 65_536;

/// Room for so many bytes in front of a wall.
pub struct Wall {
    start: *mut u8,
    room: usize,
}

impl Wall {
    pub fn new(bytes: usize) -> Wall {
        let room = (bytes / PAGE + 1) * PAGE;
        let start = unsafe { mmap(null_mut(), room + PAGE, READ_WRITE, PRIVATE_ANONYMOUS, -1, 0) } as *mut u8;
        assert!(start as isize != -1, "no memory");
        let closed = unsafe { mprotect(start.add(room) as *mut c_void, PAGE, NONE) };
        assert_eq!(closed, 0, "no wall");
        Wall { start, room }
    }

    /// A copy of these bytes whose end is at the wall.
    pub fn holding(&mut self, text: &[u8]) -> &[u8] {
        assert!(text.len() <= self.room);
        let place = unsafe { std::slice::from_raw_parts_mut(self.start, self.room) };
        let place = &mut place[self.room - text.len()..];
        place.copy_from_slice(text);
        place
    }
}

/// So many places in front of a slice that is written, and as many behind.
const FENCE: usize = 16;

/// Room for n places between two fences, all with what stood there before.
pub fn fenced<T: Copy>(n: usize, stood: T) -> Vec<T> {
    vec![stood; n + 2 * FENCE]
}

/// The places between the fences.
pub fn lent<T>(all: &mut [T]) -> &mut [T] {
    let end = all.len() - FENCE;
    &mut all[FENCE..end]
}
