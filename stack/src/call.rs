//! One call of the library, of the reader, of its UTF-8 check or of the writer, all that it needs made ready before: the thread does nothing else.

use std::arch::asm;
use std::ffi::c_void;
use std::ptr::null_mut;

#[link(name = "ffi", kind = "static")]
extern "C" {
    fn tarbucket_parse_source(
        src: *const u8,
        src_len: usize,
        tokens: *mut u32,
        tokens_len: usize,
        text: *mut u8,
        text_len: usize,
        tree: *mut u32,
        tree_len: usize,
        answer: *mut u32,
        answer_len: usize,
    ) -> u32;
    fn tarbucket_write_source(
        src: *const u8,
        src_len: usize,
        tokens: *mut u32,
        tokens_len: usize,
        text: *mut u8,
        text_len: usize,
        tree: *mut u32,
        tree_len: usize,
        out: *mut u8,
        out_len: usize,
        answer: *mut u32,
        answer_len: usize,
    ) -> u32;
    fn tarbucket_utf8_error(src: *const u8, src_len: usize, answer: *mut u64, answer_len: usize) -> u32;
}

/// The longest source that is read, in bytes.
pub const LONGEST: usize = 65_536;

/// A source with its areas, which are exactly as long as they must be.
pub struct Call {
    src: Vec<u8>,
    tokens: Vec<u32>,
    text: Vec<u8>,
    tree: Vec<u32>,
    out: Vec<u8>,
    pub answer: [u32; 7],
    /// The stack pointer before the call's arguments are put on the stack.
    pub pointer: usize,
}

impl Call {
    /// The same areas serve one source after the other.
    pub fn new() -> Call {
        let most = LONGEST + 1;
        let (tokens, text, tree) =
            (Vec::with_capacity(3 * (most + 1)), Vec::with_capacity(most), Vec::with_capacity(16 * most + 16));
        Call { src: Vec::with_capacity(most), tokens, text, tree, out: vec![7; LONGEST], answer: [7; 7], pointer: 0 }
    }

    /// A source that is read.
    pub fn take(&mut self, src: &[u8]) {
        self.take_text(src);
        self.tokens.resize(3 * (src.len() + 1), 7);
        self.text.resize(src.len(), 7);
        self.tree.resize(16 * src.len() + 16, 7);
    }

    /// A text that is only checked: it may be longer than any source, and no area is lent for it.
    pub fn take_text(&mut self, text: &[u8]) {
        self.src.clear();
        self.src.extend(text);
        self.answer = [7; 7];
    }

    /// A source that is written.
    pub fn take_to_write(&mut self, src: &[u8]) {
        self.take(src);
        self.out.fill(7);
    }

    /// The text that was written.
    pub fn written(&self) -> &[u8] {
        &self.out[..self.answer[6] as usize]
    }

    /// Number and place.
    pub fn said(&self) -> String {
        format!("{} {}", self.answer[0], self.answer[1])
    }

    /// The nodes and the bytes of strings, 0 where it was refused.
    pub fn counts(&self) -> [u32; 2] {
        [self.answer[3], self.answer[4]]
    }
}

/// What a thread starts with to read the source: a `Call`, which nobody else touches until the thread has ended.
pub unsafe extern "C" fn run(call: *mut c_void) -> *mut c_void {
    let call = &mut *(call as *mut Call);
    // By hand, so that the arguments on the stack are surely counted: a compiler may put them there before or behind where the pointer is read.
    asm!(
        "mov r12, rsp",
        "push 6",
        "push {answer}",
        "push {tree_len}",
        "push {tree}",
        "call {parse}",
        "mov rsp, r12",
        parse = sym tarbucket_parse_source,
        in("rdi") call.src.as_ptr(),
        in("rsi") call.src.len(),
        in("rdx") call.tokens.as_mut_ptr(),
        in("rcx") call.tokens.len(),
        in("r8") call.text.as_mut_ptr(),
        in("r9") call.text.len(),
        tree = in(reg) call.tree.as_mut_ptr(),
        tree_len = in(reg) call.tree.len(),
        answer = in(reg) call.answer.as_mut_ptr(),
        out("r12") call.pointer,
        clobber_abi("C"),
    );
    null_mut()
}

/// The same to write the source's standard text.
pub unsafe extern "C" fn run_write(call: *mut c_void) -> *mut c_void {
    let call = &mut *(call as *mut Call);
    asm!(
        "mov r12, rsp",
        "push 7",
        "push {answer}",
        "push {out_len}",
        "push {out}",
        "push {tree_len}",
        "push {tree}",
        "call {write}",
        "mov rsp, r12",
        write = sym tarbucket_write_source,
        in("rdi") call.src.as_ptr(),
        in("rsi") call.src.len(),
        in("rdx") call.tokens.as_mut_ptr(),
        in("rcx") call.tokens.len(),
        in("r8") call.text.as_mut_ptr(),
        in("r9") call.text.len(),
        tree = in(reg) call.tree.as_mut_ptr(),
        tree_len = in(reg) call.tree.len(),
        out = in(reg) call.out.as_mut_ptr(),
        out_len = in(reg) call.out.len(),
        answer = in(reg) call.answer.as_mut_ptr(),
        out("r12") call.pointer,
        clobber_abi("C"),
    );
    null_mut()
}

/// The same to check the text; number and place go to the answer.
pub unsafe extern "C" fn run_check(call: *mut c_void) -> *mut c_void {
    let call = &mut *(call as *mut Call);
    // `asm!` takes a pointer to anything: the type must be said here.
    let mut answer = [7u64; 2];
    asm!(
        "mov r12, rsp",
        "call {check}",
        check = sym tarbucket_utf8_error,
        in("rdi") call.src.as_ptr(),
        in("rsi") call.src.len(),
        in("rdx") answer.as_mut_ptr(),
        in("rcx") answer.len(),
        lateout("eax") call.answer[0],
        out("r12") call.pointer,
        clobber_abi("C"),
    );
    call.answer[1] = answer[0] as u32;
    null_mut()
}
