//! Each operation of the library against the same in safe Rust, the bulk operations against a plain copy of the same bytes, and the search
//! of the frame table alone.
//!
//! `cargo bench --offline` prints a table for each: nanoseconds a call, medians of batches run in turns, and their ratio. Words given after
//! `--` choose the rows whose names hold one of them.

mod bulk;
mod library;
mod plain_access;
mod plain_address;
mod plain_apply;
mod plain_headers;
mod plain_invocations;
mod plain_lists;
mod plain_place;
mod plain_records;
mod plain_refused;
mod plain_resize;
mod plain_search;
mod plain_view;
mod plain_words;
mod records;
mod searches;
mod single;
mod table;
mod timing;
mod world;

fn main() {
    let mut report = table::Report::from_arguments();
    report.heading("against safe Rust", "Rust");
    single::addresses(&mut report);
    single::loads(&mut report);
    single::stores(&mut report);
    single::refused(&mut report);
    single::invocations(&mut report);
    bulk::spans(&mut report);
    records::events(&mut report);
    bulk::copies(&mut report);
    bulk::resizes(&mut report);
    bulk::lists(&mut report);
    report.mean();
    report.heading("against a plain copy of the same bytes", "copy");
    bulk::against_copy(&mut report);
    searches::alone(&mut report);
}
