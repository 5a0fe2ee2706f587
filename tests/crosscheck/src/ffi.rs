//! The library's calls as C has them.

#[repr(C)]
pub struct Counts {
    pub number: u32,
    pub nets: u32,
    pub entries: u32,
}

#[repr(C)]
pub struct Part {
    pub offset: usize,
    pub length: usize,
}

#[repr(C)]
pub struct Answer {
    pub number: u32,
    pub width: u32,
    pub trials: u32,
    pub moved: u32,
}

extern "C" {
    pub fn trackrouter_read(sheet: *const u8, sheet_len: usize) -> Counts;

    pub fn trackrouter_record(sheet: *const u8, sheet_len: usize, place: usize) -> Part;

    pub fn trackrouter_check(
        sheet: *const u8,
        sheet_len: usize,
        dead: *const u8,
        dead_len: usize,
        ticket: *const u8,
        ticket_len: usize,
    ) -> u32;

    pub fn trackrouter_route(
        sheet: *const u8,
        sheet_len: usize,
        dead: *const u8,
        dead_len: usize,
        budget: u32,
        out: *mut u8,
        out_len: usize,
    ) -> Answer;

    pub fn trackrouter_least(
        sheet: *const u8,
        sheet_len: usize,
        dead: *const u8,
        dead_len: usize,
        budget: u32,
        out: *mut u8,
        out_len: usize,
    ) -> Answer;

    pub fn trackrouter_refit(
        sheet: *const u8,
        sheet_len: usize,
        dead: *const u8,
        dead_len: usize,
        old: *const u8,
        old_len: usize,
        budget: u32,
        out: *mut u8,
        out_len: usize,
    ) -> Answer;

    pub fn trackrouter_remove(
        sheet: *const u8,
        sheet_len: usize,
        ticket: *const u8,
        ticket_len: usize,
        net: u32,
        out: *mut u8,
        out_len: usize,
    ) -> u32;

    pub fn trackrouter_standard(
        sheet: *const u8,
        sheet_len: usize,
        out: *mut u8,
        out_len: usize,
    ) -> u32;
}
