//! The static library's functions, declared as include/teaselram.h has them: a slice is a pointer and a length.

#[repr(C)]
#[derive(Debug, Clone, Copy)]
pub struct Answer {
    pub number: u8,
    pub fault: u8,
    pub count: u16,
    pub value: u32,
}

#[repr(C)]
#[derive(Debug, Clone, Copy)]
pub struct HeadAnswer {
    pub number: u8,
    pub registers: u8,
    pub width: u8,
    pub modulus: u8,
    pub kinds: u8,
    pub zero: u8,
    pub states: u16,
}

#[repr(C)]
#[derive(Debug, Clone, Copy)]
pub struct KindAnswer {
    pub number: u8,
    pub size: u8,
    pub alignment: u8,
    pub flags: u8,
    pub starts: u8,
    pub zero: u8,
    pub first_start: u16,
}

extern "C" {
    pub fn teaselram_read_sheet(sheet: *const u8, sheet_len: usize) -> HeadAnswer;
    pub fn teaselram_read_table(table: *const u8, table_len: usize) -> HeadAnswer;
    pub fn teaselram_sheet_kind(sheet: *const u8, sheet_len: usize, kind: u64) -> KindAnswer;
    pub fn teaselram_table_kind(table: *const u8, table_len: usize, kind: u64) -> KindAnswer;
    pub fn teaselram_row(table: *const u8, table_len: usize, state: u64) -> Answer;
    pub fn teaselram_place_by_rules(
        sheet: *const u8,
        sheet_len: usize,
        kinds: *const u8,
        kinds_len: usize,
        out: *mut u8,
        out_len: usize,
    ) -> Answer;
    pub fn teaselram_place_by_table(
        table: *const u8,
        table_len: usize,
        kinds: *const u8,
        kinds_len: usize,
        out: *mut u8,
        out_len: usize,
    ) -> Answer;
    pub fn teaselram_build(
        sheet: *const u8,
        sheet_len: usize,
        out: *mut u8,
        out_len: usize,
    ) -> Answer;
    pub fn teaselram_judge(
        table: *const u8,
        table_len: usize,
        out: *mut u8,
        out_len: usize,
    ) -> Answer;
}
