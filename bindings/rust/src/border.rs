//! The functions of `libdelugash.a`. A slice crosses as a pointer, which is not null, and a length; memory that a
//! call writes overlaps nothing else that it is lent.

#[repr(C)]
#[derive(Clone, Copy)]
pub struct Answer {
    pub number: u32,
    pub length: usize,
}

#[repr(C)]
#[derive(Clone, Copy)]
pub struct Part {
    pub number: u32,
    pub begin: usize,
    pub length: usize,
}

extern "C" {
    pub fn delugash_size() -> usize;
    pub fn delugash_make(
        session: *mut u64,
        words: usize,
        key: *const u8,
        key_length: usize,
        salt: *const u8,
        salt_length: usize,
        policy: u64,
        ids: *const u8,
        ids_length: usize,
        suite: u32,
    ) -> u32;
    pub fn delugash_add(session: *mut u64, words: usize, ssrc: u32, way: u32, rollover: u32) -> u32;
    pub fn delugash_protect(session: *mut u64, words: usize, buf: *mut u8, length: usize, n: usize) -> Answer;
    pub fn delugash_unprotect(session: *mut u64, words: usize, buf: *mut u8, length: usize, n: usize) -> Answer;
    pub fn delugash_find(packet: *const u8, length: usize, id: u32) -> Part;
    pub fn delugash_stretch(
        key: *const u8,
        key_length: usize,
        salt: *const u8,
        salt_length: usize,
        ssrc: u32,
        index: u64,
        start: u64,
        buf: *mut u8,
        length: usize,
    ) -> u32;
}
