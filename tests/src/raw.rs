//! The calls as include/teaselram.h declares them, declared once more, so that every field of an answer is seen.

/// `struct teaselram_answer`.
#[repr(C)]
#[derive(Debug, Default, Clone, Copy, PartialEq, Eq)]
pub struct Answer {
    pub number: u8,
    pub fault: u8,
    pub count: u16,
    pub value: u32,
}

/// `struct teaselram_head`.
#[repr(C)]
#[derive(Debug, Default, Clone, Copy, PartialEq, Eq)]
pub struct Head {
    pub number: u8,
    pub registers: u8,
    pub width: u8,
    pub modulus: u8,
    pub kinds: u8,
    pub zero: u8,
    pub states: u16,
}

/// `struct teaselram_kind`.
#[repr(C)]
#[derive(Debug, Default, Clone, Copy, PartialEq, Eq)]
pub struct Kind {
    pub number: u8,
    pub size: u8,
    pub alignment: u8,
    pub flags: u8,
    pub starts: u8,
    pub zero: u8,
    pub first_start: u16,
}

extern "C" {
    fn teaselram_read_sheet(sheet: *const u8, sheet_len: usize) -> Head;
    fn teaselram_read_table(table: *const u8, table_len: usize) -> Head;
    fn teaselram_sheet_kind(sheet: *const u8, sheet_len: usize, kind: u64) -> Kind;
    fn teaselram_table_kind(table: *const u8, table_len: usize, kind: u64) -> Kind;
    fn teaselram_row(table: *const u8, table_len: usize, state: u64) -> Answer;
    fn teaselram_place_by_rules(
        sheet: *const u8,
        sheet_len: usize,
        kinds: *const u8,
        kinds_len: usize,
        out: *mut u8,
        out_len: usize,
    ) -> Answer;
    fn teaselram_place_by_table(
        table: *const u8,
        table_len: usize,
        kinds: *const u8,
        kinds_len: usize,
        out: *mut u8,
        out_len: usize,
    ) -> Answer;
    fn teaselram_build(sheet: *const u8, sheet_len: usize, out: *mut u8, out_len: usize) -> Answer;
    fn teaselram_judge(table: *const u8, table_len: usize, out: *mut u8, out_len: usize) -> Answer;
}

type Reader = unsafe extern "C" fn(*const u8, usize) -> Head;
type Placer = unsafe extern "C" fn(*const u8, usize, *const u8, usize, *mut u8, usize) -> Answer;
type Maker = unsafe extern "C" fn(*const u8, usize, *mut u8, usize) -> Answer;

// SAFETY, of all that follow: each pointer and length are a slice's, `out` is borrowed alone, and the library keeps nothing.

fn read(call: Reader, file: &[u8]) -> Head {
    unsafe { call(file.as_ptr(), file.len()) }
}

fn place(call: Placer, file: &[u8], kinds: &[u8], out: &mut [u8]) -> Answer {
    unsafe {
        call(
            file.as_ptr(),
            file.len(),
            kinds.as_ptr(),
            kinds.len(),
            out.as_mut_ptr(),
            out.len(),
        )
    }
}

fn make(call: Maker, file: &[u8], out: &mut [u8]) -> Answer {
    unsafe { call(file.as_ptr(), file.len(), out.as_mut_ptr(), out.len()) }
}

pub fn read_sheet(sheet: &[u8]) -> Head {
    read(teaselram_read_sheet, sheet)
}

pub fn read_table(table: &[u8]) -> Head {
    read(teaselram_read_table, table)
}

pub fn sheet_kind(sheet: &[u8], kind: u64) -> Kind {
    unsafe { teaselram_sheet_kind(sheet.as_ptr(), sheet.len(), kind) }
}

pub fn table_kind(table: &[u8], kind: u64) -> Kind {
    unsafe { teaselram_table_kind(table.as_ptr(), table.len(), kind) }
}

pub fn row(table: &[u8], state: u64) -> Answer {
    unsafe { teaselram_row(table.as_ptr(), table.len(), state) }
}

pub fn place_by_rules(sheet: &[u8], kinds: &[u8], out: &mut [u8]) -> Answer {
    place(teaselram_place_by_rules, sheet, kinds, out)
}

pub fn place_by_table(table: &[u8], kinds: &[u8], out: &mut [u8]) -> Answer {
    place(teaselram_place_by_table, table, kinds, out)
}

pub fn build(sheet: &[u8], out: &mut [u8]) -> Answer {
    make(teaselram_build, sheet, out)
}

pub fn judge(table: &[u8], out: &mut [u8]) -> Answer {
    make(teaselram_judge, table, out)
}
