//! Memory to lend: a page that nobody may touch lies behind it, and words that nobody may change lie before it.

use core::ffi::{c_int, c_void};

unsafe extern "C" {
    fn mmap(
        at: *mut c_void,
        len: usize,
        prot: c_int,
        flags: c_int,
        fd: c_int,
        offset: i64,
    ) -> *mut c_void;
    fn mprotect(at: *mut c_void, len: usize, prot: c_int) -> c_int;
}

const PAGE: usize = 4096;
const WORD: usize = size_of::<u64>();
/// What the words before the lent ones hold, and how many of them are looked at.
const GUARD: u64 = 0x6775_6172_6465_6421;
const GUARDS: usize = 16;

/// Room for lent words. It is never given back: the program makes five of these.
pub struct Lent {
    start: *mut u64,
    room: usize,
    len: usize,
}

impl Lent {
    /// Room for at least `most` words.
    pub fn new(most: usize) -> Self {
        let bytes = ((most + GUARDS) * WORD).next_multiple_of(PAGE);
        // SAFETY: a new private mapping (read and write, anonymous), of which the last page is then closed.
        let start = unsafe {
            let start = mmap(core::ptr::null_mut(), bytes + PAGE, 3, 0x22, -1, 0);
            assert!(start as isize != -1, "no memory");
            assert_eq!(mprotect(start.byte_add(bytes), PAGE, 0), 0, "no guard page");
            start.cast::<u64>()
        };
        Self {
            start,
            room: bytes / WORD,
            len: 0,
        }
    }

    /// Lends these words: they end where the closed page begins.
    pub fn fill(&mut self, words: &[u64]) {
        self.len = words.len();
        assert!(
            self.len + GUARDS <= self.room,
            "room for {} words",
            self.room
        );
        self.words().copy_from_slice(words);
        self.guards().fill(GUARD);
    }

    /// The lent words.
    pub fn words(&mut self) -> &mut [u64] {
        // SAFETY: the words from room - len to room lie in the mapping, which lives as long as the program.
        unsafe { core::slice::from_raw_parts_mut(self.start.add(self.room - self.len), self.len) }
    }

    /// Whether the words before the lent ones are as they were.
    pub fn guarded(&mut self) -> bool {
        self.guards().iter().all(|&word| word == GUARD)
    }

    fn guards(&mut self) -> &mut [u64] {
        // SAFETY: as in `words`; `fill` has checked that there is room.
        unsafe {
            core::slice::from_raw_parts_mut(self.start.add(self.room - self.len - GUARDS), GUARDS)
        }
    }
}
