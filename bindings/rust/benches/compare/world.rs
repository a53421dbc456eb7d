//! The buffers that the operations are timed on: a program, an account of 4 MiB that it owns, a transaction and four block contexts.

use crate::library;
use crate::plain_words::{put_u16, put_u32};
use hekthumar::layout::FRAME_ENTRY;
use hekthumar::{control_len, pool_len, Edition};

pub const SLOTS_PAGES: usize = 1024;
pub const PAGE: usize = 4096;
const CODE: usize = 65_536;
const ACCOUNTS: usize = 2;
const CONTEXTS: usize = 4;
const TRANSACTION: usize = 4096;
/// A use that no frame is taken from.
const NOBODYS: u8 = 255;

/// The three buffers.
#[derive(Clone, PartialEq)]
pub struct World {
    pub s: Vec<u8>,
    pub c: Vec<u8>,
    pub p: Vec<u8>,
}

/// The address of a byte of the slots.
pub fn slot(offset: usize) -> u64 {
    0x0300_0100_0000 + offset as u64
}

pub const STACK: u64 = 0x0500_00FF_F000;
pub const HEAP: u64 = 0x0700_0000_0000;

fn snapshot() -> Vec<u8> {
    let context_at = 32 + 80 * ACCOUNTS;
    let transaction_at = context_at + 120 * CONTEXTS;
    let data_at = transaction_at + TRANSACTION;
    let total = data_at + CODE + PAGE * SLOTS_PAGES;
    let mut s: Vec<u8> = (0..total).map(|i| (i * 31 % 251) as u8).collect();
    s[..context_at].fill(0);
    let words = [ACCOUNTS, CONTEXTS, TRANSACTION, 32, context_at, transaction_at, data_at, total];
    for (i, word) in words.into_iter().enumerate() {
        put_u32(&mut s, 4 * i, word as u32);
    }
    for (i, (flags, length, data)) in [(1, CODE, data_at), (3, PAGE * SLOTS_PAGES, data_at + CODE)].into_iter().enumerate() {
        let at = 32 + 80 * i;
        put_u16(&mut s, at, flags);
        put_u32(&mut s, at + 4, length as u32);
        put_u32(&mut s, at + 8, data as u32);
    }
    s
}

impl World {
    /// A program of an edition, begun with so many frames, all of them free.
    pub fn begun_of(edition: Edition, frames: usize) -> World {
        let mut w = World { s: snapshot(), c: vec![0; control_len(frames)], p: vec![0; pool_len(frames)] };
        assert_eq!(library::begin_pages(&w.s, &mut w.c, &mut w.p, 0, edition as u32, 0), 0);
        w
    }

    /// A program of the newer edition.
    pub fn begun(frames: usize) -> World {
        World::begun_of(Edition::Newer, frames)
    }

    /// Calls the program from itself, so that copies are taken at depth 1.
    pub fn called(mut self) -> World {
        assert_eq!(library::call(&self.s, &mut self.c, &self.p, 0, &[0; 256]), 0);
        self
    }

    /// Stores to the slots' pages, in this order: the first copy is in the highest free frame.
    pub fn stored(mut self, pages: impl Iterator<Item = usize>) -> World {
        for page in pages {
            assert_eq!(library::store(&self.s, &mut self.c, &mut self.p, slot(PAGE * page), 8, page as u64).number, 0);
        }
        self
    }

    /// Takes copies of the slots' pages, the first in the lowest free frame and each other one behind it. So the last page is stored to first,
    /// while the frames behind are in nobody's use.
    pub fn copied(mut self, pages: impl Iterator<Item = usize>) -> World {
        let pages: Vec<usize> = pages.collect();
        let held = self.c[control_len(0)..].chunks_exact(FRAME_ENTRY).take_while(|entry| entry[0] != 0).count();
        let behind = control_len(held + pages.len());
        self.c[behind..].fill(NOBODYS);
        let mut world = self.stored(pages.iter().rev().copied());
        world.c[behind..].fill(0);
        let page = |entry: &[u8]| usize::from(u16::from_le_bytes([entry[4], entry[5]]));
        let taken = world.c[control_len(held)..behind].chunks_exact(FRAME_ENTRY).map(page);
        assert!(taken.eq(pages), "a copy took another frame than the highest free one");
        world
    }

    /// Grows the stack and the heap.
    pub fn grown(mut self, pages: usize) -> World {
        for region in [2, 3] {
            assert_eq!(library::resize(&self.s, &mut self.c, &mut self.p, region, pages), 0);
        }
        self
    }

    /// The slots as the snapshot holds them.
    pub fn slots(&self) -> Vec<u8> {
        self.s[self.s.len() - PAGE * SLOTS_PAGES..].to_vec()
    }
}
