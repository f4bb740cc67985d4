//! A list between two pages that nobody may read or write. It ends where the second one starts; what is before it on its own pages is filled
//! with a byte, and looked at afterwards.
use std::ffi::c_void;

extern "C" {
    fn mmap(at: *mut c_void, len: usize, prot: i32, flags: i32, fd: i32, offset: i64) -> *mut c_void;
    fn mprotect(at: *mut c_void, len: usize, prot: i32) -> i32;
    fn munmap(at: *mut c_void, len: usize) -> i32;
}

const PAGE: usize = 4096;
const BYTE: u8 = 0xA5;
const READ_WRITE: i32 = 3;
const PRIVATE_ANONYMOUS: i32 = 0x22;

pub struct Guarded<T> {
    base: *mut u8,
    pages: usize,
    list: *mut T,
    len: usize,
}

impl<T: Copy> Guarded<T> {
    pub fn new(values: &[T]) -> Guarded<T> {
        let bytes = std::mem::size_of_val(values);
        let pages = bytes.div_ceil(PAGE).max(1);
        let total = (pages + 2) * PAGE;
        unsafe {
            let base = mmap(std::ptr::null_mut(), total, 0, PRIVATE_ANONYMOUS, -1, 0).cast::<u8>();
            assert!(base as isize != -1, "mmap");
            assert_eq!(mprotect(base.add(PAGE).cast(), pages * PAGE, READ_WRITE), 0, "mprotect");
            base.add(PAGE).write_bytes(BYTE, pages * PAGE);
            let list = base.add(PAGE * (pages + 1) - bytes).cast::<T>();
            list.copy_from_nonoverlapping(values.as_ptr(), values.len());
            Guarded { base, pages, list, len: values.len() }
        }
    }

    pub fn get(&self) -> &[T] {
        unsafe { std::slice::from_raw_parts(self.list, self.len) }
    }

    pub fn get_mut(&mut self) -> &mut [T] {
        unsafe { std::slice::from_raw_parts_mut(self.list, self.len) }
    }

    /// Whether nothing before the list was written.
    pub fn intact(&self) -> bool {
        let start = unsafe { self.base.add(PAGE) };
        let before = self.list as usize - start as usize;
        unsafe { std::slice::from_raw_parts(start, before) }.iter().all(|&byte| byte == BYTE)
    }
}

impl<T> Drop for Guarded<T> {
    fn drop(&mut self) {
        unsafe { munmap(self.base.cast(), (self.pages + 2) * PAGE) };
    }
}
