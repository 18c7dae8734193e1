//! What is lent to the library stands between two pages that can be neither read nor written, right against one of them: a stray read or
//! write past that end stops the comparison at the instruction that does it. Between the other end and its page stand bytes of one
//! known value: comparing the whole shows every byte that changed, also outside of what was lent.

use reference::answers::Register;
use reference::inputs::Random;
use std::ffi::{c_int, c_void};
use std::fmt;
use std::ptr::null_mut;
use std::slice;
use std::sync::Mutex;

// The system's own calls, as Linux on x86-64 has them.
extern "C" {
    fn mmap(address: *mut c_void, length: usize, protection: c_int, flags: c_int, file: c_int, offset: i64) -> *mut c_void;
    fn mprotect(address: *mut c_void, length: usize, protection: c_int) -> c_int;
}
const NOTHING: c_int = 0;
const READ_AND_WRITE: c_int = 1 | 2;
const PRIVATE_AND_ANONYMOUS: c_int = 2 | 0x20;

const PAGE: usize = 4096;
/// The longest thing lent is a store, or a block, and some hundred bytes.
const ROOM: usize = 5 * PAGE;
const FENCE: u8 = 0xA7;

/// Memory of ROOM bytes, with a page before it and a page behind it that may not be touched.
struct Room(*mut u8);

// It is a piece of memory that has one owner.
unsafe impl Send for Room {}

/// Rooms that are not in use: mapping one takes longer than most of the calls that are compared.
static IDLE: Mutex<Vec<Room>> = Mutex::new(Vec::new());

impl Room {
    fn new() -> Room {
        let idle = IDLE.lock().expect("no thread fails").pop();
        idle.unwrap_or_else(Room::mapped)
    }

    fn mapped() -> Room {
        unsafe {
            let whole = mmap(null_mut(), PAGE + ROOM + PAGE, NOTHING, PRIVATE_AND_ANONYMOUS, -1, 0);
            assert!(whole as isize != -1, "no memory for what is lent");
            let room = whole.cast::<u8>().add(PAGE);
            assert!(mprotect(room.cast(), ROOM, READ_AND_WRITE) == 0, "the pages inside can be written");
            Room(room)
        }
    }
}

impl Drop for Room {
    fn drop(&mut self) {
        IDLE.lock().expect("no thread fails").push(Room(self.0));
    }
}

/// Which of the two pages the bytes stand against.
#[derive(Clone, Copy, PartialEq, Eq)]
pub enum Against {
    Lower,
    Upper,
}

pub fn any_side(random: &mut Random) -> Against {
    if random.once_in(2) {
        Against::Lower
    } else {
        Against::Upper
    }
}

/// Lent bytes.
pub struct Bytes {
    room: Room,
    /// The pages that hold them, by their first byte in the room and their length.
    pages: (usize, usize),
    /// The bytes themselves, in those pages.
    from: usize,
    len: usize,
}

impl Bytes {
    pub fn new(bytes: &[u8], side: Against) -> Bytes {
        let size = PAGE * bytes.len().div_ceil(PAGE).max(1);
        assert!(size <= ROOM, "room for what is lent");
        let (first, from) = match side {
            Against::Lower => (0, 0),
            Against::Upper => (ROOM - size, size - bytes.len()),
        };
        let mut lent = Bytes { room: Room::new(), pages: (first, size), from, len: bytes.len() };
        lent.whole_mut().fill(FENCE);
        lent.inside_mut().copy_from_slice(bytes);
        lent
    }

    pub fn len(&self) -> usize {
        self.len
    }

    pub fn start(&mut self) -> *mut u8 {
        unsafe { self.room.0.add(self.pages.0 + self.from) }
    }

    fn whole(&self) -> &[u8] {
        unsafe { slice::from_raw_parts(self.room.0.add(self.pages.0), self.pages.1) }
    }

    fn whole_mut(&mut self) -> &mut [u8] {
        unsafe { slice::from_raw_parts_mut(self.room.0.add(self.pages.0), self.pages.1) }
    }

    pub fn inside(&self) -> &[u8] {
        &self.whole()[self.from..self.from + self.len]
    }

    pub fn inside_mut(&mut self) -> &mut [u8] {
        let (from, to) = (self.from, self.from + self.len);
        &mut self.whole_mut()[from..to]
    }

    /// The byte behind the last, where that is not the upper page's.
    pub fn behind(&mut self) -> Option<&mut u8> {
        let at = self.from + self.len;
        self.whole_mut().get_mut(at)
    }

    fn is_fenced(&self) -> bool {
        let (before, rest) = self.whole().split_at(self.from);
        before.iter().chain(&rest[self.len..]).all(|&byte| byte == FENCE)
    }

    /// What changed on the way to another state of the same bytes, for a person.
    pub fn changes(&self, to: &Bytes) -> String {
        let all: Vec<usize> = (0..self.whole().len()).filter(|&i| self.whole()[i] != to.whole()[i]).collect();
        let mut text = format!("{} bytes differ", all.len());
        for &i in all.iter().take(8) {
            text += &format!("; byte {}: {:02x} and {:02x}", i as i64 - self.from as i64, self.whole()[i], to.whole()[i]);
        }
        text
    }
}

impl Clone for Bytes {
    fn clone(&self) -> Bytes {
        let mut copy = Bytes { room: Room::new(), ..*self };
        copy.whole_mut().copy_from_slice(self.whole());
        copy
    }
}

impl PartialEq for Bytes {
    fn eq(&self, other: &Bytes) -> bool {
        self.from == other.from && self.len == other.len && self.whole() == other.whole()
    }
}

/// A lent register. Its size is a multiple of its alignment, so it is aligned against either page.
#[derive(Clone, PartialEq)]
pub struct LentRegister(Bytes);

impl LentRegister {
    pub fn new(register: Register, side: Against) -> LentRegister {
        let mut lent = LentRegister(Bytes::new(&[0; std::mem::size_of::<Register>()], side));
        lent.set(register);
        lent
    }

    pub fn start(&mut self) -> *mut Register {
        self.0.start().cast()
    }

    pub fn get(&self) -> Register {
        unsafe { self.0.inside().as_ptr().cast::<Register>().read() }
    }

    pub fn set(&mut self, register: Register) {
        unsafe { self.start().write(register) }
    }
}

impl fmt::Debug for LentRegister {
    fn fmt(&self, out: &mut fmt::Formatter) -> fmt::Result {
        write!(out, "{:?}{}", self.get(), if self.0.is_fenced() { "" } else { ", and bytes beside it changed" })
    }
}
