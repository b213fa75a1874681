//! The memory functions that the library needs. They call those of Rust.

use std::alloc::{alloc, dealloc, realloc, Layout};

/// What a memory function returns: whether there was memory, and its address.
#[repr(C)]
pub struct AllocationResult {
    ok: bool,
    address: *mut u8,
}

/// The number of bytes before each allocation, which hold its size.
const HEADER_SIZE: usize = 16;

/// Writes the size at the head of a new block, and returns the address after it. A null block is an allocation that failed.
fn allocation_result(block: *mut u8, size: usize) -> AllocationResult {
    if block.is_null() {
        return AllocationResult { ok: false, address: std::ptr::NonNull::dangling().as_ptr() };
    }
    // SAFETY: `block` has HEADER_SIZE bytes and more, and is aligned to HEADER_SIZE.
    unsafe {
        block.cast::<usize>().write(size);
        AllocationResult { ok: true, address: block.add(HEADER_SIZE) }
    }
}

/// Returns the layout of a block with room for its size and these bytes, unless that is too large.
fn layout_of(size: usize) -> Option<Layout> {
    Layout::from_size_align(size.checked_add(HEADER_SIZE)?, HEADER_SIZE).ok()
}

/// Allocates memory for the library, aligned to 16 bytes like malloc's.
#[no_mangle]
extern "C" fn rattle_alloc(size: usize, _align: usize) -> AllocationResult {
    // SAFETY: the layout has at least HEADER_SIZE bytes.
    allocation_result(layout_of(size).map_or(std::ptr::null_mut(), |layout| unsafe { alloc(layout) }), size)
}

/// # Safety
/// `address` is from one of these functions, and has not been freed.
#[no_mangle]
unsafe extern "C" fn rattle_realloc(address: *mut u8, _kept: usize, size: usize, _align: usize) -> AllocationResult {
    let block = address.sub(HEADER_SIZE);
    let old_size = block.cast::<usize>().read();
    match (layout_of(old_size), layout_of(size)) {
        (Some(old_layout), Some(new_layout)) => allocation_result(realloc(block, old_layout, new_layout.size()), size),
        _ => allocation_result(std::ptr::null_mut(), size),
    }
}

/// # Safety
/// `address` is from one of these functions, and has not been freed.
#[no_mangle]
unsafe extern "C" fn rattle_dealloc(address: *mut u8) {
    let block = address.sub(HEADER_SIZE);
    let old_size = block.cast::<usize>().read();
    if let Some(layout) = layout_of(old_size) {
        dealloc(block, layout);
    }
}
