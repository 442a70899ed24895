//! `include/luvrodan.h` as Rust declarations. The rest of the crate is over these and is safe.

/// Pages of a run: their numbers are 0 to 15. A run takes a clearance word for each.
pub const PAGE_COUNT: usize = 16;

/// The clearance word of a page that is cleared for all owners.
pub const ALL_OWNERS: i64 = 4_294_967_295;

/// Bytes of the longest page.
pub const PAGE_LIMIT: usize = 33_792;

/// Bytes of the longest sheet and of the longest listing.
pub const SHEET_LIMIT: usize = 36_864;
pub const TEXT_LIMIT: usize = 106_496;

/// Kinds of stack entries.
pub const ENTRY_VALUE: i64 = 0;
pub const ENTRY_FRAME: i64 = 1;
pub const ENTRY_FRAME_RESULT: i64 = 2;

/// Kinds of lines.
pub const LINE_NUMBER: i64 = 0;
pub const LINE_END: i64 = 1;

#[repr(C)]
#[derive(Clone, Copy, Debug, PartialEq, Eq)]
pub struct RawResult {
    pub refusal: u64,
    pub position: u64,
    pub stop: u64,
    pub steps: u64,
    pub pc: i64,
    pub pc_label: u64,
    pub depth: u64,
    pub lines: u64,
    pub faults: u64,
    pub kernel_steps: u64,
}

#[repr(C)]
#[derive(Clone, Copy, Debug, PartialEq, Eq)]
pub struct RawPage {
    pub status: u64,
    pub length: u64,
}

#[repr(C)]
#[derive(Clone, Copy, Debug, PartialEq, Eq)]
pub struct RawWritten {
    pub refusal: u64,
    pub position: u64,
    pub length: u64,
}

extern "C" {
    pub fn luvrodan_plain(
        sheet: *const u8,
        sheet_length: usize,
        values: *mut i64,
        value_count: usize,
        labels: *mut i64,
        label_count: usize,
        clearances: *const i64,
        clearance_count: usize,
        program: *mut i64,
        program_words: usize,
        stack: *mut i64,
        stack_words: usize,
        numbers: *mut i64,
        number_count: usize,
        line_labels: *mut i64,
        line_label_count: usize,
        kinds: *mut i64,
        kind_count: usize,
        pages: *mut i64,
        page_count: usize,
        fuel: u64,
    ) -> RawResult;

    pub fn luvrodan_tagged(
        sheet: *const u8,
        sheet_length: usize,
        values: *mut i64,
        value_count: usize,
        labels: *mut i64,
        label_count: usize,
        clearances: *const i64,
        clearance_count: usize,
        table: *const u8,
        table_length: usize,
        rule_memory: *mut i64,
        rule_memory_words: usize,
        program: *mut i64,
        program_words: usize,
        stack: *mut i64,
        stack_words: usize,
        handler: *mut i64,
        handler_words: usize,
        numbers: *mut i64,
        number_count: usize,
        line_labels: *mut i64,
        line_label_count: usize,
        kinds: *mut i64,
        kind_count: usize,
        pages: *mut i64,
        page_count: usize,
        fuel: u64,
    ) -> RawResult;

    pub fn luvrodan_handler_count(table: *const u8, table_length: usize) -> u64;

    pub fn luvrodan_page(job: *const u8, job_length: usize, page: *mut u8, page_length: usize) -> RawPage;

    pub fn luvrodan_assemble(
        text: *const u8,
        text_length: usize,
        sheet: *mut u8,
        sheet_length: usize,
    ) -> RawWritten;

    pub fn luvrodan_list(
        sheet: *const u8,
        sheet_length: usize,
        text: *mut u8,
        text_length: usize,
    ) -> RawWritten;
}
