//! librefal5.a's functions as safe Rust ones.

use oracle::cases::{Case, Functions};
use oracle::reference::link::File;
use oracle::terms::Answer;

/// Whether the archive was there when this was built.
pub fn is_linked() -> bool {
    cfg!(library)
}

/// Whether the library has the function that a case calls.
pub fn has(case: &Case) -> bool {
    is_linked()
        && match case {
            Case::Name { .. } | Case::Index { .. } | Case::Equal { .. } => true,
            Case::Read { .. } => cfg!(feature = "read"),
            Case::Parse { .. } => cfg!(feature = "parse"),
            Case::Write { .. } => cfg!(feature = "write"),
            Case::Link { .. } => cfg!(feature = "link"),
            Case::Real { .. } | Case::Reals { .. } => cfg!(feature = "real"),
        }
}

#[cfg(library)]
mod c {
    unsafe extern "C" {
        pub fn refal5_canonical_name(
            name: *const u8,
            n: usize,
            out: *mut u8,
            m: usize,
            answer: *mut u64,
        );
        pub fn refal5_canonical_index(
            name: *const u8,
            n: usize,
            out: *mut u8,
            m: usize,
            answer: *mut u64,
        );
        pub fn refal5_names_equal(a: *const u8, n: usize, b: *const u8, m: usize) -> bool;
        #[cfg(feature = "read")]
        pub fn refal5_read(src: *const u8, n: usize, rows: *mut u32, m: usize, answer: *mut u64);
        #[cfg(feature = "parse")]
        pub fn refal5_parse(
            tokens: *const u32,
            n: usize,
            rows: *mut u32,
            m: usize,
            answer: *mut u64,
        );
        #[cfg(feature = "write")]
        pub fn refal5_write(
            tree: *const u32,
            n: usize,
            src: *const u8,
            k: usize,
            out: *mut u8,
            m: usize,
            answer: *mut u64,
        );
        #[cfg(feature = "link")]
        pub fn refal5_link(
            tree1: *const u32,
            n1: usize,
            src1: *const u8,
            m1: usize,
            tree2: *const u32,
            n2: usize,
            src2: *const u8,
            m2: usize,
            work: *mut u32,
            w: usize,
            answer: *mut u64,
        );
        #[cfg(feature = "real")]
        pub fn refal5_real(
            text: *const u8,
            n: usize,
            digits: *mut u8,
            m: usize,
            form: *mut u64,
            answer: *mut u64,
        );
    }
}

/// What an answer holds before a call: every word must be set by it.
#[cfg(library)]
const UNSET: Answer = [0xa5a5_a5a5_a5a5_a5a5; 7];

/// The proved library. A function that it does not have yet is answered by the reference.
pub struct Library;

#[cfg(library)]
impl Functions for Library {
    fn canonical_name(&self, name: &[u8], out: &mut [u8]) -> Answer {
        let mut answer = UNSET;
        // Sound: each pointer comes from a slice with the length beside it.
        unsafe {
            c::refal5_canonical_name(
                name.as_ptr(),
                name.len(),
                out.as_mut_ptr(),
                out.len(),
                answer.as_mut_ptr(),
            );
        }
        answer
    }

    fn canonical_index(&self, name: &[u8], out: &mut [u8]) -> Answer {
        let mut answer = UNSET;
        // Sound: each pointer comes from a slice with the length beside it.
        unsafe {
            c::refal5_canonical_index(
                name.as_ptr(),
                name.len(),
                out.as_mut_ptr(),
                out.len(),
                answer.as_mut_ptr(),
            );
        }
        answer
    }

    fn names_equal(&self, a: &[u8], b: &[u8]) -> bool {
        // Sound: each pointer comes from a slice with the length beside it.
        unsafe { c::refal5_names_equal(a.as_ptr(), a.len(), b.as_ptr(), b.len()) }
    }

    #[cfg(feature = "read")]
    fn read(&self, src: &[u8], rows: &mut [u32]) -> Answer {
        let mut answer = UNSET;
        // Sound: each pointer comes from a slice with the length beside it.
        unsafe {
            c::refal5_read(
                src.as_ptr(),
                src.len(),
                rows.as_mut_ptr(),
                rows.len(),
                answer.as_mut_ptr(),
            );
        }
        answer
    }
    #[cfg(not(feature = "read"))]
    fn read(&self, src: &[u8], rows: &mut [u32]) -> Answer {
        oracle::reference::read(src, rows)
    }

    #[cfg(feature = "parse")]
    fn parse(&self, tokens: &[u32], rows: &mut [u32]) -> Answer {
        let mut answer = UNSET;
        // Sound: each pointer comes from a slice with the length beside it.
        unsafe {
            c::refal5_parse(
                tokens.as_ptr(),
                tokens.len(),
                rows.as_mut_ptr(),
                rows.len(),
                answer.as_mut_ptr(),
            );
        }
        answer
    }
    #[cfg(not(feature = "parse"))]
    fn parse(&self, tokens: &[u32], rows: &mut [u32]) -> Answer {
        oracle::reference::parse(tokens, rows)
    }

    #[cfg(feature = "write")]
    fn write(&self, tree: &[u32], src: &[u8], out: &mut [u8]) -> Answer {
        let mut answer = UNSET;
        // Sound: each pointer comes from a slice with the length beside it.
        unsafe {
            c::refal5_write(
                tree.as_ptr(),
                tree.len(),
                src.as_ptr(),
                src.len(),
                out.as_mut_ptr(),
                out.len(),
                answer.as_mut_ptr(),
            );
        }
        answer
    }
    #[cfg(not(feature = "write"))]
    fn write(&self, tree: &[u32], src: &[u8], out: &mut [u8]) -> Answer {
        oracle::reference::write(tree, src, out)
    }

    #[cfg(feature = "link")]
    fn link(&self, one: File<'_>, two: File<'_>, work: &mut [u32]) -> Answer {
        let mut answer = UNSET;
        // Sound: each pointer comes from a slice with the length beside it.
        unsafe {
            c::refal5_link(
                one.tree.as_ptr(),
                one.tree.len(),
                one.src.as_ptr(),
                one.src.len(),
                two.tree.as_ptr(),
                two.tree.len(),
                two.src.as_ptr(),
                two.src.len(),
                work.as_mut_ptr(),
                work.len(),
                answer.as_mut_ptr(),
            );
        }
        answer
    }
    #[cfg(not(feature = "link"))]
    fn link(&self, one: File<'_>, two: File<'_>, work: &mut [u32]) -> Answer {
        oracle::reference::link(one, two, work)
    }

    #[cfg(feature = "real")]
    fn real(&self, text: &[u8], digits: &mut [u8], form: &mut [u64; 3]) -> Answer {
        let mut answer = UNSET;
        // Sound: each pointer comes from a slice with the length beside it, or from an array of
        // the length that the function takes.
        unsafe {
            c::refal5_real(
                text.as_ptr(),
                text.len(),
                digits.as_mut_ptr(),
                digits.len(),
                form.as_mut_ptr(),
                answer.as_mut_ptr(),
            );
        }
        answer
    }
}

#[cfg(not(library))]
impl Functions for Library {
    fn canonical_name(&self, name: &[u8], out: &mut [u8]) -> Answer {
        oracle::reference::canonical_name(name, out)
    }
    fn canonical_index(&self, name: &[u8], out: &mut [u8]) -> Answer {
        oracle::reference::canonical_index(name, out)
    }
    fn names_equal(&self, a: &[u8], b: &[u8]) -> bool {
        oracle::reference::names_equal(a, b)
    }
    fn read(&self, src: &[u8], rows: &mut [u32]) -> Answer {
        oracle::reference::read(src, rows)
    }
    fn parse(&self, tokens: &[u32], rows: &mut [u32]) -> Answer {
        oracle::reference::parse(tokens, rows)
    }
    fn write(&self, tree: &[u32], src: &[u8], out: &mut [u8]) -> Answer {
        oracle::reference::write(tree, src, out)
    }
    fn link(&self, one: File<'_>, two: File<'_>, work: &mut [u32]) -> Answer {
        oracle::reference::link(one, two, work)
    }
}
