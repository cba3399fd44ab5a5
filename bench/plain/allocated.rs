//! An allocator that gives nothing back, to be preloaded: what a program holds is then all that it
//! allocated, each block rounded up to 16 bytes.
#![no_std]
use core::ptr::{copy_nonoverlapping, null_mut};
use core::sync::atomic::{AtomicUsize, Ordering};

extern "C" {
    fn mmap(
        address: *mut u8,
        length: usize,
        protection: i32,
        flags: i32,
        file: i32,
        offset: i64,
    ) -> *mut u8;
    fn abort() -> !;
}

#[panic_handler]
fn panic(_: &core::panic::PanicInfo) -> ! {
    unsafe { abort() }
}

/// The address space from which all is taken; a page is held once it is written.
const ROOM: usize = 1 << 36;
const READ_AND_WRITE: i32 = 3;
const PRIVATE_ANONYMOUS_NORESERVE: i32 = 0x4022;

static NEXT: AtomicUsize = AtomicUsize::new(0);

fn take(size: usize, align: usize) -> *mut u8 {
    if NEXT.load(Ordering::Relaxed) == 0 {
        let flags = PRIVATE_ANONYMOUS_NORESERVE;
        let room = unsafe { mmap(null_mut(), ROOM, READ_AND_WRITE, flags, -1, 0) };
        let _ = NEXT.compare_exchange(0, room as usize, Ordering::Relaxed, Ordering::Relaxed);
    }
    let block = |next: usize| next.next_multiple_of(align.max(16));
    let after = |next| Some(block(next) + size);
    let next = NEXT.fetch_update(Ordering::Relaxed, Ordering::Relaxed, after).unwrap_or(0);
    block(next) as *mut u8
}

#[no_mangle]
extern "C" fn malloc(size: usize) -> *mut u8 {
    take(size, 16)
}

#[no_mangle]
extern "C" fn calloc(count: usize, size: usize) -> *mut u8 {
    take(count * size, 16)
}

#[no_mangle]
extern "C" fn free(_: *mut u8) {}

/// No block's size is kept: what follows the old block is copied too.
#[no_mangle]
extern "C" fn realloc(block: *mut u8, size: usize) -> *mut u8 {
    let new = take(size, 16);
    if !block.is_null() {
        unsafe { copy_nonoverlapping(block, new, size.min(new as usize - block as usize)) };
    }
    new
}

#[no_mangle]
extern "C" fn aligned_alloc(align: usize, size: usize) -> *mut u8 {
    take(size, align)
}

#[no_mangle]
unsafe extern "C" fn posix_memalign(block: *mut *mut u8, align: usize, size: usize) -> i32 {
    block.write(take(size, align));
    0
}
