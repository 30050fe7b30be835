//! A thread whose stack is memory of our own, painted before it starts: what is not paint any more was used.

use crate::call::Call;
use std::ffi::c_void;
use std::ptr::null_mut;

/// The bytes of the stack. Of them the system takes a few KiB at the top for itself.
pub const STACK: usize = 256 * 1024;

/// Two, since a byte that is written can be the paint: the deeper figure of the two counts.
pub const PAINTS: [u8; 2] = [0xa5, 0x5a];

/// What lies below the stack, where nothing may be read or written: more than any frame, so that none leaps over it.
const GUARD: usize = 1024 * 1024;

/// `pthread_attr_t`, as x86-64 Linux has it.
#[repr(C, align(8))]
struct Attributes([u8; 56]);

pub type Start = unsafe extern "C" fn(*mut c_void) -> *mut c_void;

extern "C" {
    fn mmap(place: *mut c_void, length: usize, protection: i32, flags: i32, file: i32, offset: i64) -> *mut c_void;
    fn mprotect(place: *mut c_void, length: usize, protection: i32) -> i32;
    fn pthread_attr_init(attributes: *mut Attributes) -> i32;
    fn pthread_attr_setstack(attributes: *mut Attributes, place: *mut c_void, length: usize) -> i32;
    fn pthread_create(thread: *mut usize, attributes: *const Attributes, start: Start, argument: *mut c_void) -> i32;
    fn pthread_join(thread: usize, result: *mut *mut c_void) -> i32;
}

const READ_WRITE: i32 = 3;
const PRIVATE_ANONYMOUS: i32 = 0x22;

/// The memory, and the attributes that make it a thread's stack.
pub struct Stack {
    low: *mut u8,
    attributes: Attributes,
}

impl Stack {
    pub fn new() -> Stack {
        let mut attributes = Attributes([0; 56]);
        // Mapped with no rights at all; the part above the guard gets both.
        let low = unsafe {
            let whole = mmap(null_mut(), GUARD + STACK, 0, PRIVATE_ANONYMOUS, -1, 0);
            assert_ne!(whole as isize, -1, "memory for a stack");
            let low = whole.add(GUARD);
            assert_eq!(mprotect(low, STACK, READ_WRITE), 0);
            assert_eq!(pthread_attr_init(&mut attributes), 0);
            assert_eq!(pthread_attr_setstack(&mut attributes, low, STACK), 0);
            low as *mut u8
        };
        Stack { low, attributes }
    }

    /// The bytes that the call takes: from the stack pointer before its arguments down to the lowest byte that is not paint any more.
    pub fn measure(&self, paint: u8, start: Start, call: &mut Call) -> usize {
        let mut thread = 0;
        unsafe {
            self.low.write_bytes(paint, STACK);
            let argument = call as *mut Call as *mut c_void;
            assert_eq!(pthread_create(&mut thread, &self.attributes, start, argument), 0, "a thread");
            assert_eq!(pthread_join(thread, null_mut()), 0);
        }
        call.pointer - self.lowest(paint)
    }

    /// The address of the lowest byte that is not paint: by words first, which is quicker.
    fn lowest(&self, paint: u8) -> usize {
        let words = unsafe { std::slice::from_raw_parts(self.low as *const u64, STACK / 8) };
        let painted = u64::from_ne_bytes([paint; 8]);
        let word = words.iter().position(|word| *word != painted).expect("a thread uses its stack");
        self.low as usize + 8 * word + (words[word] ^ painted).trailing_zeros() as usize / 8
    }
}
