//! The exported calls as C sees them.

/// The answer of a check of names: the number of the refusal, 0 where the name is allowed, and the invalid byte for 1.
#[repr(C)]
#[derive(Clone, Copy)]
pub struct NameAnswer {
    pub number: u32,
    pub value: u32,
}

/// The answer of a call that writes a text: the number of the refusal, 0 where it wrote, and the length of the text.
#[repr(C)]
#[derive(Clone, Copy)]
pub struct TextAnswer {
    pub number: u32,
    pub length: usize,
}

/// A check of names: a pointer to the bytes, and their count.
pub type NameCheck = unsafe extern "C" fn(*const u8, usize) -> NameAnswer;

// A pointer is good for as many bytes as the count after it says, and any where that is 0.
unsafe extern "C" {
    pub fn gushteral_tag_name(input: *const u8, length: usize) -> NameAnswer;
    pub fn gushteral_reference_name_partial(input: *const u8, length: usize) -> NameAnswer;
    pub fn gushteral_reference_name(input: *const u8, length: usize) -> NameAnswer;
    pub fn gushteral_reference_branch_name(input: *const u8, length: usize) -> NameAnswer;
    pub fn gushteral_reference_name_partial_or_sanitize(
        input: *const u8,
        length: usize,
        out: *mut u8,
        out_length: usize,
    ) -> TextAnswer;
    pub fn gushteral_path_component(input: *const u8, length: usize, link: u8, windows: u8, hfs: u8, ntfs: u8) -> u32;
    pub fn gushteral_path_component_is_windows_device(input: *const u8, length: usize) -> u8;
    pub fn gushteral_enter_all(
        names: *const u8,
        names_length: usize,
        length: usize,
        answers: *mut u8,
        answers_length: usize,
    ) -> usize;
    pub fn gushteral_refusal_text(number: u32, value: u32, out: *mut u8, out_length: usize) -> TextAnswer;
}
