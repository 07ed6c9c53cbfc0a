//! Buffers in pages of their own, each between pages that cannot be accessed.

use std::ffi::c_void;
use std::marker::PhantomData;
use std::ops::Range;

const PAGE: usize = 4_096;
/// Inaccessible pages on either side: many, so that a stray access meets no other buffer.
const GUARD: usize = 64;

// Values of Linux.
const NO_ACCESS: i32 = 0;
const READ: i32 = 1;
const READ_AND_WRITE: i32 = 3;
const PRIVATE_AND_ANONYMOUS: i32 = 0x22;

extern "C" {
    fn mmap(
        address: *mut c_void,
        length: usize,
        protection: i32,
        flags: i32,
        file: i32,
        offset: i64,
    ) -> *mut c_void;
    fn mprotect(address: *mut c_void, length: usize, protection: i32) -> i32;
}

/// Which end of a buffer is at an inaccessible page. Filler is beyond the other.
#[derive(Clone, Copy, Debug)]
pub enum Flush {
    Start,
    End,
}

/// What fills the rest of a buffer's pages.
const FILLER: u8 = 0xc3;

/// Pages of which only those with the buffer can be accessed.
pub struct Pages<T> {
    base: *mut u8,
    /// Most pages that a buffer takes.
    most: usize,
    /// Those that can be accessed.
    opened: Range<usize>,
    protection: i32,
    /// Where the buffer starts, in bytes from the base.
    start: usize,
    /// In elements.
    length: usize,
    element: PhantomData<T>,
}

impl<T: Copy> Pages<T> {
    /// For a buffer of at most this many elements; empty at first.
    pub fn up_to(elements: usize) -> Pages<T> {
        let most = (elements * size_of::<T>()).div_ceil(PAGE);
        let length = (GUARD + most + GUARD) * PAGE;
        // SAFETY: new pages at an address of the system's choice.
        let base = unsafe {
            let anywhere = std::ptr::null_mut();
            mmap(anywhere, length, NO_ACCESS, PRIVATE_AND_ANONYMOUS, -1, 0)
        };
        assert!(base as isize != -1, "the system gives pages");
        Pages {
            base: base.cast(),
            most,
            opened: GUARD..GUARD,
            protection: NO_ACCESS,
            start: GUARD * PAGE,
            length: 0,
            element: PhantomData,
        }
    }

    /// Makes the buffer a copy of these elements, which may be written.
    pub fn put(&mut self, content: &[T], flush: Flush) {
        let bytes = size_of_val(content);
        let pages = bytes.div_ceil(PAGE);
        assert!(pages <= self.most, "the buffer fits into its pages");
        let end = GUARD + self.most;
        let (first, start) = match flush {
            Flush::Start => (GUARD, GUARD * PAGE),
            Flush::End => (end - pages, end * PAGE - bytes),
        };
        self.open(first..first + pages);
        (self.start, self.length) = (start, content.len());
        for rest in self.rest() {
            // SAFETY: within the opened pages, which nothing else borrows.
            unsafe { self.base.add(rest.start).write_bytes(FILLER, rest.len()) }
        }
        self.as_mut_slice().copy_from_slice(content);
    }

    /// Lets a write to the buffer end the program, until the next is put there.
    pub fn forbid_writing(&mut self) {
        self.protect(self.opened.clone(), READ);
        self.protection = READ;
    }

    fn open(&mut self, pages: Range<usize>) {
        if self.opened == pages && self.protection == READ_AND_WRITE {
            return;
        }
        self.protect(self.opened.clone(), NO_ACCESS);
        self.protect(pages.clone(), READ_AND_WRITE);
        (self.opened, self.protection) = (pages, READ_AND_WRITE);
    }

    fn protect(&self, pages: Range<usize>, protection: i32) {
        // SAFETY: pages that `up_to` made, between the guards.
        let failed = unsafe {
            let first = self.base.add(pages.start * PAGE).cast();
            !pages.is_empty() && mprotect(first, pages.len() * PAGE, protection) != 0
        };
        assert!(!failed, "the system protects pages");
    }

    /// The bytes that can be accessed before the buffer and after it.
    fn rest(&self) -> [Range<usize>; 2] {
        let end = self.start + self.length * size_of::<T>();
        let Range { start, end: last } = self.opened;
        match self.opened.is_empty() {
            true => [0..0, 0..0],
            false => [start * PAGE..self.start, end..last * PAGE],
        }
    }

    /// False if a byte of the buffer's pages was written outside the buffer.
    pub fn rest_is_untouched(&self) -> bool {
        self.rest().into_iter().all(|rest| {
            // SAFETY: within the opened pages; nothing borrows them to write now.
            let bytes =
                unsafe { std::slice::from_raw_parts(self.base.add(rest.start), rest.len()) };
            bytes.iter().all(|&byte| byte == FILLER)
        })
    }

    pub fn as_slice(&self) -> &[T] {
        // SAFETY: the buffer's elements were written by `put`; pages are aligned for elements.
        unsafe { std::slice::from_raw_parts(self.base.add(self.start).cast(), self.length) }
    }

    pub fn as_mut_slice(&mut self) -> &mut [T] {
        // SAFETY: as above; the elements are borrowed with these pages.
        unsafe { std::slice::from_raw_parts_mut(self.base.add(self.start).cast(), self.length) }
    }
}

/// For structs whose fields are pointers, lengths and counts.
impl Pages<usize> {
    /// Makes the buffer this struct, which may be written.
    pub fn put_struct<S>(&mut self, content: S, flush: Flush) -> &mut S {
        const { assert!(size_of::<S>() % size_of::<usize>() == 0) };
        const { assert!(align_of::<S>() == align_of::<usize>()) };
        self.put(&vec![0; size_of::<S>() / size_of::<usize>()], flush);
        let at: *mut S = self.as_mut_slice().as_mut_ptr().cast();
        // SAFETY: room for the struct, aligned for it; it is borrowed with these pages.
        unsafe {
            at.write(content);
            &mut *at
        }
    }

    /// The same, and a write to it ends the program.
    pub fn put_struct_for_reading<S>(&mut self, content: S, flush: Flush) -> &S {
        let at: *const S = self.put_struct(content, flush);
        self.forbid_writing();
        // SAFETY: as above.
        unsafe { &*at }
    }
}
