//! The C interface as it is: `include/hekthumar.h` in Rust. Every function accepts every input as long as each pointer and length
//! is a buffer that may be read (or written, where it is `*mut`), and no buffer that is written overlaps another.

/// What [`hekthumar_join`] answers.
#[repr(C)]
#[derive(Clone, Copy, Debug, PartialEq, Eq)]
pub struct Joined {
    pub address: u64,
    pub number: u8,
}

/// What [`hekthumar_split`] answers.
#[repr(C)]
#[derive(Clone, Copy, Debug, PartialEq, Eq)]
pub struct Fields {
    pub offset: u32,
    pub index: u16,
    pub segment: u8,
    pub number: u8,
}

/// What a load or a fetch answers.
#[repr(C)]
#[derive(Clone, Copy, Debug, PartialEq, Eq)]
pub struct Value {
    pub value: u64,
    pub distance: u16,
    pub number: u8,
}

/// What a store, a span load, a span store or a record's write answers.
#[repr(C)]
#[derive(Clone, Copy, Debug, PartialEq, Eq)]
pub struct Outcome {
    pub distance: u16,
    pub number: u8,
}

/// What [`hekthumar_translate`] answers.
#[repr(C)]
#[derive(Clone, Copy, Debug, PartialEq, Eq)]
pub struct Place {
    pub at: u64,
    pub frame: u16,
    pub account: u16,
    pub page: u16,
    pub place: u8,
    pub number: u8,
}

/// What [`hekthumar_page_view`] answers.
#[repr(C)]
#[derive(Clone, Copy, Debug, PartialEq, Eq)]
pub struct View {
    pub start: u64,
    pub length: u64,
    pub holder: u8,
    pub number: u8,
}

/// A buffer descriptor.
#[repr(C)]
#[derive(Clone, Copy, Debug, PartialEq, Eq)]
pub struct Buffer {
    pub pointer: u64,
    pub length: u64,
}

#[repr(C)]
#[derive(Clone, Copy, Debug, PartialEq, Eq)]
pub struct Event {
    pub kind: Buffer,
    pub data: Buffer,
}

#[repr(C)]
#[derive(Clone, Copy, Debug, PartialEq, Eq)]
pub struct Location {
    pub file: Buffer,
    pub line: u32,
    pub column: u32,
}

#[repr(C)]
#[derive(Clone, Copy, Debug, PartialEq, Eq)]
pub struct CallRecord {
    pub context_id: Buffer,
    pub function: Buffer,
    pub params: Buffer,
}

/// A returned value; any discriminant can be given.
#[repr(C)]
#[derive(Clone, Copy, Debug, PartialEq, Eq)]
pub struct Returned {
    pub discriminant: u64,
    pub buffer: Buffer,
}

/// What a record's read answers: `hekthumar_read_buffer_answer` and so on.
#[repr(C)]
#[derive(Clone, Copy, Debug, PartialEq, Eq)]
pub struct ReadAnswer<T> {
    pub record: T,
    pub distance: u16,
    pub number: u8,
}

#[link(name = "hekthumar", kind = "static")]
extern "C" {
    pub fn hekthumar_join(segment: u8, index: u16, offset: u32) -> Joined;
    pub fn hekthumar_split(address: u64) -> Fields;
    pub fn hekthumar_begin(
        snapshot: *const u8,
        snapshot_len: usize,
        control: *mut u8,
        control_len: usize,
        pool: *mut u8,
        pool_len: usize,
        program: u16,
        edition: u32,
    ) -> u8;
    pub fn hekthumar_begin_pages(
        snapshot: *const u8,
        snapshot_len: usize,
        control: *mut u8,
        control_len: usize,
        pool: *mut u8,
        pool_len: usize,
        program: u16,
        edition: u32,
        pages: usize,
    ) -> u8;
    pub fn hekthumar_translate(
        snapshot: *const u8,
        snapshot_len: usize,
        control: *const u8,
        control_len: usize,
        pool: *const u8,
        pool_len: usize,
        kind: u8,
        address: u64,
        length: usize,
    ) -> Place;
    pub fn hekthumar_load(
        snapshot: *const u8,
        snapshot_len: usize,
        control: *const u8,
        control_len: usize,
        pool: *const u8,
        pool_len: usize,
        address: u64,
        size: usize,
    ) -> Value;
    pub fn hekthumar_fetch(
        snapshot: *const u8,
        snapshot_len: usize,
        control: *const u8,
        control_len: usize,
        pool: *const u8,
        pool_len: usize,
        address: u64,
        size: usize,
    ) -> Value;
    pub fn hekthumar_store(
        snapshot: *const u8,
        snapshot_len: usize,
        control: *mut u8,
        control_len: usize,
        pool: *mut u8,
        pool_len: usize,
        address: u64,
        size: usize,
        value: u64,
    ) -> Outcome;
    pub fn hekthumar_load_span(
        snapshot: *const u8,
        snapshot_len: usize,
        control: *const u8,
        control_len: usize,
        pool: *const u8,
        pool_len: usize,
        address: u64,
        out: *mut u8,
        out_len: usize,
    ) -> Outcome;
    pub fn hekthumar_store_span(
        snapshot: *const u8,
        snapshot_len: usize,
        control: *mut u8,
        control_len: usize,
        pool: *mut u8,
        pool_len: usize,
        address: u64,
        bytes: *const u8,
        bytes_len: usize,
    ) -> Outcome;
    pub fn hekthumar_call(
        snapshot: *const u8,
        snapshot_len: usize,
        control: *mut u8,
        control_len: usize,
        pool: *const u8,
        pool_len: usize,
        program: u16,
        registers: *const u8,
        registers_len: usize,
    ) -> u8;
    pub fn hekthumar_return(
        snapshot: *const u8,
        snapshot_len: usize,
        control: *mut u8,
        control_len: usize,
        pool: *const u8,
        pool_len: usize,
        registers: *mut u8,
        registers_len: usize,
    ) -> u8;
    pub fn hekthumar_resize(
        snapshot: *const u8,
        snapshot_len: usize,
        control: *mut u8,
        control_len: usize,
        pool: *mut u8,
        pool_len: usize,
        region: u8,
        pages: usize,
    ) -> u8;
    pub fn hekthumar_change_list(
        snapshot: *const u8,
        snapshot_len: usize,
        control: *const u8,
        control_len: usize,
        pool: *const u8,
        pool_len: usize,
        out: *mut u8,
        out_len: usize,
    ) -> u8;
    pub fn hekthumar_apply(list: *const u8, list_len: usize, account: u16, data: *mut u8, data_len: usize) -> u8;
    pub fn hekthumar_page_view(
        snapshot: *const u8,
        snapshot_len: usize,
        control: *const u8,
        control_len: usize,
        pool: *const u8,
        pool_len: usize,
        account: u16,
        page: u16,
    ) -> View;
}

/// The read and the write of each record.
macro_rules! record_functions {
    ($($record:ident: $read:ident, $write:ident;)*) => {
        extern "C" {
            $(
                pub fn $read(
                    snapshot: *const u8,
                    snapshot_len: usize,
                    control: *const u8,
                    control_len: usize,
                    pool: *const u8,
                    pool_len: usize,
                    address: u64,
                ) -> ReadAnswer<$record>;
                pub fn $write(
                    snapshot: *const u8,
                    snapshot_len: usize,
                    control: *mut u8,
                    control_len: usize,
                    pool: *mut u8,
                    pool_len: usize,
                    address: u64,
                    record: $record,
                ) -> Outcome;
            )*
        }
    };
}

record_functions! {
    Buffer: hekthumar_read_buffer, hekthumar_write_buffer;
    Event: hekthumar_read_event, hekthumar_write_event;
    Location: hekthumar_read_location, hekthumar_write_location;
    CallRecord: hekthumar_read_call_record, hekthumar_write_call_record;
    Returned: hekthumar_read_returned, hekthumar_write_returned;
}
