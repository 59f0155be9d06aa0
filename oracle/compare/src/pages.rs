//! Memory that ends at an unreadable page, on x86-64 Linux: one piece of memory seen twice, once
//! to write and once only to read, each time with unreadable pages on both sides.

use std::ffi::{c_char, c_int, c_long, c_uint, c_void};

const PAGE: usize = 4096;

const PROT_NONE: c_int = 0;
const PROT_READ: c_int = 1;
const PROT_WRITE: c_int = 2;
const MAP_SHARED: c_int = 0x01;
const MAP_PRIVATE: c_int = 0x02;
const MAP_FIXED: c_int = 0x10;
const MAP_ANONYMOUS: c_int = 0x20;

unsafe extern "C" {
    fn mmap(
        address: *mut c_void,
        length: usize,
        protection: c_int,
        flags: c_int,
        file: c_int,
        offset: c_long,
    ) -> *mut c_void;
    fn munmap(address: *mut c_void, length: usize) -> c_int;
    fn memfd_create(name: *const c_char, flags: c_uint) -> c_int;
    fn ftruncate(file: c_int, length: c_long) -> c_int;
    fn close(file: c_int) -> c_int;
}

pub struct Pages {
    written: *mut u8,
    read: *mut u8,
    bytes: usize,
}

impl Pages {
    /// Pages for so many bytes, made anew where there are too few.
    pub fn of_at_least(pages: &mut Option<Pages>, bytes: usize) -> &mut Pages {
        if pages.as_ref().is_none_or(|pages| pages.bytes < bytes) {
            *pages = Some(Pages::new((2 * bytes).next_multiple_of(PAGE).max(PAGE)));
        }
        pages.as_mut().expect("they were just made")
    }

    fn new(bytes: usize) -> Self {
        // SAFETY: plain system calls; the file is closed once both views are there.
        unsafe {
            let file = memfd_create(c"compare".as_ptr(), 0);
            assert!(file >= 0, "no memory file");
            assert_eq!(ftruncate(file, bytes as c_long), 0, "no memory");
            let written = view(file, bytes, PROT_READ | PROT_WRITE);
            let read = view(file, bytes, PROT_READ);
            close(file);
            Self {
                written,
                read,
                bytes,
            }
        }
    }

    /// The last so many bytes.
    pub fn last(&mut self, bytes: usize) -> *mut u8 {
        // SAFETY: the caller asks no more than there are.
        unsafe { self.written.add(self.bytes - bytes) }
    }

    pub fn last_to_read(&self, bytes: usize) -> *const u8 {
        // SAFETY: the caller asks no more than there are.
        unsafe { self.read.add(self.bytes - bytes) }
    }
}

impl Drop for Pages {
    fn drop(&mut self) {
        for view in [self.written, self.read] {
            // SAFETY: `view` made it with a page on each side.
            unsafe { munmap(view.sub(PAGE).cast(), self.bytes + 2 * PAGE) };
        }
    }
}

/// The file's memory between two unreadable pages.
unsafe fn view(file: c_int, bytes: usize, protection: c_int) -> *mut u8 {
    // SAFETY: the second mapping lies within the first, which is nobody else's.
    unsafe {
        let whole = mmap(
            std::ptr::null_mut(),
            bytes + 2 * PAGE,
            PROT_NONE,
            MAP_PRIVATE | MAP_ANONYMOUS,
            -1,
            0,
        );
        assert_ne!(whole as isize, -1, "no memory");
        let inner = mmap(
            whole.add(PAGE),
            bytes,
            protection,
            MAP_SHARED | MAP_FIXED,
            file,
            0,
        );
        assert_ne!(inner as isize, -1, "no memory");
        inner.cast()
    }
}
