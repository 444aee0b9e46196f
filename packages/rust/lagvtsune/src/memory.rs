//! The memory of the library. During a call, small blocks are parts of chunks, which go back to the
//! program's allocator when the call ends. So most blocks cost a few instructions. A larger block
//! comes from the program's allocator, and goes back to it when the library frees it.
//!
//! The functions that the library calls let no panic out: a panic of the program's allocator ends the
//! process at the edge of an `extern "C"` function.

use std::alloc::{self, Layout};
use std::cell::Cell;
use std::{mem, ptr};

/// The size of a chunk in bytes.
const CHUNK: usize = 32 << 10;

/// The size in bytes, with the header, of the largest block in a chunk.
const MOST_IN_CHUNK: usize = 2 << 10;

/// The header before each block. Its alignment is the largest that the library requests.
#[repr(C, align(16))]
struct Header {
    /// The size of the block with this header: a multiple of the alignment.
    whole: usize,
    is_in_chunk: bool,
}

const HEADER: usize = mem::size_of::<Header>();

/// The header of a chunk, before its blocks.
#[repr(C, align(16))]
struct Chunk {
    /// The chunk that was allocated before this one, or null.
    before: *mut Chunk,
}

const CHUNK_LAYOUT: Layout = Layout::new::<[Header; CHUNK / HEADER]>();

/// The chunks of a call.
#[derive(Clone, Copy)]
struct Arena {
    /// The newest chunk, or null.
    newest: *mut Chunk,
    /// The start of the free bytes at the end of that chunk, and their number.
    free: *mut u8,
    left: usize,
}

const EMPTY: Arena = Arena { newest: ptr::null_mut(), free: ptr::null_mut(), left: 0 };

thread_local! {
    /// The chunks of the call that this thread makes.
    static ARENA: Cell<Arena> = const { Cell::new(EMPTY) };
}

/// Makes a call of the library, and frees its chunks. The library has freed all other blocks. A call
/// that another one makes on the same thread has its own chunks.
pub(crate) fn for_call<R>(call: impl FnOnce() -> R) -> R {
    let outer = ARENA.replace(EMPTY);
    let returned = call();
    let mut chunk = ARENA.replace(outer).newest;
    while !chunk.is_null() {
        // SAFETY: `with_chunk` allocated the chunk with this layout and wrote its first bytes, which
        // no block overlaps. The library keeps no block after a call.
        unsafe {
            let before = (*chunk).before;
            alloc::dealloc(chunk.cast(), CHUNK_LAYOUT);
            chunk = before;
        }
    }
    returned
}

/// The answer to a request of the library for memory.
#[repr(C)]
struct Tried {
    ok: bool,
    /// Without memory, a byte that nothing reads: the pointer must not be null.
    block: *mut u8,
}

/// Allocates a block with this size. If there is no memory, the library receives that answer, and
/// fails with "out of memory".
#[unsafe(no_mangle)]
extern "C" fn rattle_alloc(size: usize, align: usize) -> Tried {
    match allocate(size, align) {
        Some(block) => Tried { ok: true, block },
        None => refusal(),
    }
}

/// Changes the size of a block, and keeps the first `kept` bytes that fit. If there is no memory, the
/// block is unchanged.
///
/// # Safety
///
/// The block came from here or from `rattle_alloc`, and was not freed. It has `kept` bytes. The library
/// is proved to pass no other block.
#[unsafe(no_mangle)]
unsafe extern "C" fn rattle_realloc(
    block: *mut u8,
    kept: usize,
    size: usize,
    align: usize,
) -> Tried {
    // SAFETY: by this function's own condition.
    match unsafe { resize(block, kept, size, align) } {
        Some(block) => Tried { ok: true, block },
        None => refusal(),
    }
}

/// Frees a block.
///
/// # Safety
///
/// The block came from `rattle_alloc` or `rattle_realloc`, and was not freed. The library is proved to
/// pass no other block.
#[unsafe(no_mangle)]
unsafe extern "C" fn rattle_dealloc(block: *mut u8) {
    // SAFETY: by this function's own condition, there is a header before the block, and the bytes are
    // not used any more.
    unsafe {
        let start = start_of(block);
        let Header { whole, is_in_chunk } = *start;
        if is_in_chunk {
            give_back(start.cast(), whole);
        } else {
            alloc::dealloc(start.cast(), Layout::from_size_align_unchecked(whole, HEADER));
        }
    }
}

fn refusal() -> Tried {
    static UNREAD: u8 = 0;
    Tried { ok: false, block: (&raw const UNREAD).cast_mut() }
}

/// Returns a block with this size, or `None` if there is no memory.
fn allocate(size: usize, align: usize) -> Option<*mut u8> {
    let layout = layout(size, align)?;
    let is_in_chunk = layout.size() <= most_in_chunk();
    let start = match is_in_chunk {
        true => take(layout.size())?,
        // SAFETY: the layout includes the header, so it is not empty.
        false => unsafe { alloc::alloc(layout) },
    };
    if start.is_null() {
        return None;
    }
    // SAFETY: at `start` there is memory with this layout, which nothing else uses.
    Some(unsafe { block_after(start, Header { whole: layout.size(), is_in_chunk }) })
}

/// Does what `rattle_realloc` does.
///
/// # Safety
///
/// The condition of `rattle_realloc`.
unsafe fn resize(block: *mut u8, kept: usize, size: usize, align: usize) -> Option<*mut u8> {
    let layout = layout(size, align)?;
    // SAFETY: by the condition, there is a header before the block.
    let (start, Header { whole, is_in_chunk }) = unsafe {
        let start = start_of(block);
        (start.cast::<u8>(), start.read())
    };
    if !is_in_chunk {
        // SAFETY: the block has this layout, and the new size is that of a layout.
        let start = unsafe {
            let old = Layout::from_size_align_unchecked(whole, HEADER);
            alloc::realloc(start, old, layout.size())
        };
        if start.is_null() {
            return None;
        }
        // SAFETY: the allocator returned memory with this layout.
        return Some(unsafe { block_after(start, Header { whole: layout.size(), is_in_chunk }) });
    }
    if layout.size() <= whole {
        return Some(block);
    }
    if grow(start, whole, layout.size()) {
        // SAFETY: now the block has this size.
        return Some(unsafe { block_after(start, Header { whole: layout.size(), is_in_chunk }) });
    }
    let new = allocate(size, align)?;
    // SAFETY: the new block is another one. It has more bytes than the old one, which has `kept`.
    unsafe {
        ptr::copy_nonoverlapping(block, new, kept);
        rattle_dealloc(block);
    }
    Some(new)
}

/// Returns the layout of a block with this size and its header, if there is one.
fn layout(size: usize, align: usize) -> Option<Layout> {
    let whole = size.checked_add(HEADER)?.checked_next_multiple_of(HEADER)?;
    (align <= HEADER).then(|| Layout::from_size_align(whole, HEADER).ok())?
}

/// Writes the header, and returns the block after it.
///
/// # Safety
///
/// At `start` there is memory of the size in the header, aligned to the header.
unsafe fn block_after(start: *mut u8, header: Header) -> *mut u8 {
    let place: *mut Header = start.cast();
    // SAFETY: by the condition. The block begins at most one byte past the end of the memory.
    unsafe {
        place.write(header);
        start.add(HEADER)
    }
}

/// Returns the header of a block.
///
/// # Safety
///
/// `block_after` returned the block.
unsafe fn start_of(block: *mut u8) -> *mut Header {
    // SAFETY: by the condition, the header is before the block.
    unsafe { block.sub(HEADER).cast() }
}

/// Returns memory of this size in a chunk: a multiple of the header's size, at most [`MOST_IN_CHUNK`].
fn take(whole: usize) -> Option<*mut u8> {
    let mut arena = ARENA.get();
    if whole > arena.left {
        arena = with_chunk(arena.newest)?;
    }
    let start = arena.free;
    ARENA.set(after(arena, whole));
    Some(start)
}

/// Returns the same chunks, with this number of free bytes less.
fn after(arena: Arena, bytes: usize) -> Arena {
    Arena { free: arena.free.wrapping_add(bytes), left: arena.left - bytes, ..arena }
}

/// Returns the chunks with a new one, if there is memory.
fn with_chunk(before: *mut Chunk) -> Option<Arena> {
    // SAFETY: the layout is not empty.
    let newest: *mut Chunk = unsafe { alloc::alloc(CHUNK_LAYOUT) }.cast();
    if newest.is_null() {
        return None;
    }
    // SAFETY: the chunk begins with its first member.
    unsafe { newest.write(Chunk { before }) };
    let used = mem::size_of::<Chunk>();
    Some(Arena { newest, free: newest.cast::<u8>().wrapping_add(used), left: CHUNK - used })
}

/// Makes a block of the newest chunk larger, if it is the last one and there are enough free bytes.
/// Returns whether it is larger now.
fn grow(start: *mut u8, whole: usize, larger: usize) -> bool {
    let arena = ARENA.get();
    let can_grow = is_last(start, whole, arena) && larger - whole <= arena.left;
    if can_grow {
        ARENA.set(after(arena, larger - whole));
    }
    can_grow
}

/// Makes the bytes of a block free again, if it is the last one in the newest chunk. Otherwise they
/// stay in use until the call ends.
fn give_back(start: *mut u8, whole: usize) {
    let arena = ARENA.get();
    if is_last(start, whole, arena) {
        let free = arena.free.wrapping_sub(whole);
        ARENA.set(Arena { free, left: arena.left + whole, ..arena });
    }
}

/// Returns whether the free bytes follow this block. Those of the newest chunk follow no block of
/// another chunk, because a header precedes them.
fn is_last(start: *mut u8, whole: usize, arena: Arena) -> bool {
    start.wrapping_add(whole) == arena.free
}

/// Returns the size of the largest block in a chunk.
#[cfg(not(test))]
fn most_in_chunk() -> usize {
    MOST_IN_CHUNK
}

#[cfg(test)]
thread_local! {
    /// The size of the largest block in a chunk. If it is 0, each block comes from the program's
    /// allocator, so that a test can refuse it, and `valgrind` knows where it ends.
    static MOST: Cell<usize> = const { Cell::new(0) };
}

#[cfg(test)]
fn most_in_chunk() -> usize {
    MOST.get()
}

/// Makes calls of the library as in a program: small blocks are in chunks.
#[cfg(test)]
pub(crate) fn in_chunks<R>(calls: impl FnOnce() -> R) -> R {
    MOST.set(MOST_IN_CHUNK);
    let returned = calls();
    MOST.set(0);
    returned
}

#[cfg(test)]
mod tests;
