//! Tests the memory functions with random calls, as the library may make them.

use super::{
    for_call, in_chunks, rattle_alloc, rattle_dealloc, rattle_realloc, Tried, CHUNK, HEADER,
    MOST_IN_CHUNK,
};
use crate::refusing::refused;
use std::collections::hash_map::DefaultHasher;
use std::hash::{Hash, Hasher};

/// A block in which each byte is `filler`.
struct Block {
    start: *mut u8,
    size: usize,
    filler: u8,
}

impl Block {
    /// Fills the block that a call returned.
    fn of(Tried { ok, block: start }: Tried, size: usize, filler: u8) -> Block {
        assert!(ok && start.align_offset(HEADER) == 0);
        // SAFETY: the block has this size.
        unsafe { start.write_bytes(filler, size) };
        Block { start, size, filler }
    }

    fn allocated(size: usize, filler: u8) -> Block {
        Block::of(rattle_alloc(size, HEADER), size, filler)
    }

    fn has(&self, length: usize) -> bool {
        // SAFETY: the block has at least this many bytes, which were written.
        let bytes = unsafe { std::slice::from_raw_parts(self.start, length) };
        bytes.iter().all(|byte| *byte == self.filler)
    }

    fn resized(self, kept: usize, size: usize, filler: u8) -> Block {
        assert!(self.has(self.size));
        // SAFETY: the block is in use.
        let tried = unsafe { rattle_realloc(self.start, kept, size, HEADER) };
        let moved = Block { start: tried.block, ..self };
        assert!(tried.ok && moved.has(kept.min(size)));
        Block::of(tried, size, filler)
    }

    fn free(self) {
        assert!(self.has(self.size));
        // SAFETY: the block is in use.
        unsafe { rattle_dealloc(self.start) };
    }
}

/// Returns a number that depends on a seed, and changes the seed.
fn below(seed: &mut u64, bound: usize) -> usize {
    let mut hasher = DefaultHasher::new();
    seed.hash(&mut hasher);
    *seed = hasher.finish();
    usize::try_from(*seed % bound as u64).unwrap()
}

fn size(seed: &mut u64) -> usize {
    let most = [40, 40, 300, MOST_IN_CHUNK + 100, 3 * CHUNK][below(seed, 5)];
    below(seed, most)
}

/// Makes random calls, and checks that no block changes but by them.
fn random_calls(seed: &mut u64) {
    let mut blocks: Vec<Block> = Vec::new();
    for number in 0..400 {
        let filler = u8::try_from(number % 251).unwrap();
        let at = below(seed, blocks.len() + 1);
        match below(seed, 4) {
            0 | 1 => blocks.push(Block::allocated(size(seed), filler)),
            2 if at < blocks.len() => {
                let block = blocks.swap_remove(at);
                let kept = below(seed, block.size + 1);
                blocks.push(block.resized(kept, size(seed), filler));
            }
            // Often, the newest block is freed first.
            _ => drop(blocks.pop().map(Block::free)),
        }
    }
    while !blocks.is_empty() {
        blocks.swap_remove(below(seed, blocks.len())).free();
    }
}

#[test]
fn blocks_keep_their_bytes() {
    let mut seed = 5;
    for _ in 0..20 {
        let ((), left) = refused(0, || for_call(|| in_chunks(|| random_calls(&mut seed))));
        assert_eq!(left, 0);
        let ((), left) = refused(0, || for_call(|| random_calls(&mut seed)));
        assert_eq!(left, 0);
    }
}

#[test]
fn the_newest_block_grows_where_it_is_and_is_used_again() {
    for_call(|| {
        in_chunks(|| {
            let older = Block::allocated(10, 1);
            let block = Block::allocated(10, 2);
            let start = block.start;
            let block = block.resized(10, 1_000, 3);
            assert_eq!(block.start, start);
            block.free();
            let block = Block::allocated(1, 4);
            assert_eq!(block.start, start);
            let moved = older.resized(10, 20, 5);
            assert!(moved.start > start);
            block.free();
            moved.free();
        });
    });
}

#[test]
fn a_call_within_a_call_has_its_own_chunks() {
    let ((), left) = refused(0, || {
        for_call(|| {
            in_chunks(|| {
                let outer = Block::allocated(100, 1);
                for_call(|| Block::allocated(100, 2).free());
                let next = Block::allocated(100, 3);
                assert_eq!(
                    next.start,
                    outer.start.wrapping_add(100usize.next_multiple_of(HEADER) + HEADER)
                );
                outer.free();
                next.free();
            });
        });
    });
    assert_eq!(left, 0);
}

#[test]
fn a_request_without_memory_changes_nothing() {
    let sizes = [usize::MAX, usize::MAX - HEADER, isize::MAX.unsigned_abs()];
    let calls = || {
        let block = Block::allocated(100, 1);
        for size in sizes {
            assert!(!rattle_alloc(size, 1).ok);
            // SAFETY: the block is in use.
            assert!(!unsafe { rattle_realloc(block.start, 100, size, 1) }.ok);
        }
        assert!(!rattle_alloc(8, 2 * HEADER).ok);
        block.free();
    };
    for_call(calls);
    for_call(|| in_chunks(calls));
    // The first chunk is refused, and then a block that is too large for a chunk.
    let tried = |size| rattle_alloc(size, 1).ok;
    assert!(!refused(1, || for_call(|| in_chunks(|| tried(8)))).0);
    assert!(!refused(1, || for_call(|| in_chunks(|| tried(CHUNK)))).0);
    // A block that grows out of its chunk is refused, and stays.
    let grown = |block: &Block| {
        // SAFETY: the block is in use.
        refused(1, || unsafe { rattle_realloc(block.start, 100, 2 * CHUNK, 1) }.ok)
    };
    for_call(|| {
        in_chunks(|| {
            let block = Block::allocated(100, 1);
            assert_eq!(grown(&block), (false, 0));
            block.free();
        });
    });
}
