//! Little-endian numbers in byte buffers, and the fixed places of document 01's buffers.

pub const PAGE: usize = 4096;
pub const MAX_DATA: usize = 1 << 24;
/// Pages of a whole region: 2^24 bytes.
pub const MAX_PAGES: usize = 4096;

pub const SNAPSHOT_HEADER: usize = 32;
pub const ACCOUNT_ENTRY: usize = 80;
pub const METADATA: usize = 64;
pub const CONTEXT: usize = 120;

/// The last two of the control block's six words: the edition, and a zero.
pub const EDITION_AT: usize = 16;
pub const ZERO_AT: usize = 20;
/// "Shadow frames start at 24, the table at 4,512"
pub const RECORDS_AT: usize = 24;
pub const TABLE_AT: usize = 4512;
pub const RECORD: usize = 264;
pub const REGISTERS: usize = 256;
pub const MAX_LIVE: usize = 16;
/// Depths that no program reaches, and that frame entries and lists may hold nevertheless.
pub const ODD_DEPTHS: [u16; 6] = [16, 0xFF, 0x100, 0x1234, 0x8000, 0xFFFF];
pub const FRAME_ENTRY: usize = 8;
pub const MAX_FRAMES: usize = 1024;

const _: () = assert!(TABLE_AT == RECORDS_AT + RECORD * (MAX_LIVE + 1));

/// "1 older, 2 newer": source documents 001 and 000.
pub const OLDER: u32 = 1;
pub const NEWER: u32 = 2;
pub const EDITIONS: [u32; 2] = [OLDER, NEWER];

pub const FREE: u8 = 0;
pub const COPY: u8 = 1;
pub const STACK: u8 = 2;
pub const HEAP: u8 = 3;

pub const LIST_HEADER: usize = 16;
/// "The change list entry grows from 8 to 12 bytes"
pub const LIST_ENTRY: usize = 12;
pub const BASE_LIST_ENTRY: usize = 8;

/// "frame count F", "live invocations D", the two offsets, "a u32 edition (1 older, 2 newer) and a zero u32"
pub fn control_words(frames: usize, live: usize, edition: u32) -> [u32; 6] {
    [frames as u32, live as u32, RECORDS_AT as u32, TABLE_AT as u32, edition, 0]
}

pub fn put_words(bytes: &mut [u8], words: &[u32]) {
    for (word, &value) in words.iter().enumerate() {
        put_u32(bytes, 4 * word, value);
    }
}

/// The last three words of a change list's header: 16, "the pages begin at 16+12n", "Totals become 16+4,108n".
pub fn list_words(count: u64) -> [u64; 3] {
    list_words_by(LIST_ENTRY, count)
}

/// Of a list whose entries have so many bytes: the base's are "16, 16+8n, total 16+4,104n".
pub fn list_words_by(entry: usize, count: u64) -> [u64; 3] {
    let entries = entry as u64 * count;
    let header = LIST_HEADER as u64;
    [header, header + entries, header + entries + PAGE as u64 * count]
}

pub fn number(bytes: &[u8]) -> u64 {
    bytes.iter().rev().fold(0, |value, &byte| value << 8 | u64::from(byte))
}

pub fn u16_at(bytes: &[u8], at: usize) -> u16 {
    number(&bytes[at..at + 2]) as u16
}

pub fn u32_at(bytes: &[u8], at: usize) -> u32 {
    number(&bytes[at..at + 4]) as u32
}

pub fn put_u16(bytes: &mut [u8], at: usize, value: u16) {
    bytes[at..at + 2].copy_from_slice(&value.to_le_bytes());
}

pub fn put_u32(bytes: &mut [u8], at: usize, value: u32) {
    bytes[at..at + 4].copy_from_slice(&value.to_le_bytes());
}

/// The bytes from `at` on, zeros where the buffer has ended. Damaged buffers are looked at by this.
pub fn part_or_zeros(bytes: &[u8], at: usize, length: usize) -> Vec<u8> {
    let mut part: Vec<u8> = bytes.iter().skip(at).take(length).copied().collect();
    part.resize(length, 0);
    part
}

/// Live bytes of a page: min(4,096, length - 4,096 * page), none where the page begins at or past the end.
pub fn live_bytes(length: usize, page: u16) -> usize {
    length.saturating_sub(PAGE * usize::from(page)).min(PAGE)
}
