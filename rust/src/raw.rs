//! The calls as include/mbyasoka.h declares them.
#[rustfmt::skip]
extern "C" {
    pub fn mbyasoka_check(counts: *const [u8; 4], m1: *const i8, l1: usize, m2: *const i8, l2: usize, m3: *const i8, l3: usize) -> u8;
    pub fn mbyasoka_read_mesh(
        counts: *mut [u8; 4], m1: *mut i8, l1: usize, m2: *mut i8, l2: usize, m3: *mut i8, l3: usize,
        bytes: *const u8, bytes_length: usize, used: *mut usize, place: *mut u32,
    ) -> u8;
    pub fn mbyasoka_write_mesh(
        counts: *const [u8; 4], m1: *const i8, l1: usize, m2: *const i8, l2: usize, m3: *const i8, l3: usize,
        out: *mut u8, out_length: usize, written: *mut usize,
    ) -> u8;
    pub fn mbyasoka_euler(
        counts: *const [u8; 4], m1: *const i8, l1: usize, m2: *const i8, l2: usize, m3: *const i8, l3: usize, number: *mut i16,
    ) -> u8;
    pub fn mbyasoka_apply_operator(
        counts: *mut [u8; 4], m1: *mut i8, l1: usize, m2: *mut i8, l2: usize, m3: *mut i8, l3: usize,
        bytes: *const u8, bytes_length: usize, place: *mut u32,
    ) -> u8;
    pub fn mbyasoka_run_script(
        counts: *mut [u8; 4], m1: *mut i8, l1: usize, m2: *mut i8, l2: usize, m3: *mut i8, l3: usize,
        bytes: *const u8, bytes_length: usize, ran: *mut u16, place: *mut u32,
    ) -> u8;
    pub fn mbyasoka_boundary(
        counts: *const [u8; 4], m1: *const i8, l1: usize, m2: *const i8, l2: usize, m3: *const i8, l3: usize,
        dimension: u8, chain: *const i32, chain_length: usize, out: *mut i32, out_length: usize,
    ) -> u8;
    pub fn mbyasoka_carry(
        counts: *const [u8; 4], m1: *const i8, l1: usize, m2: *const i8, l2: usize, m3: *const i8, l3: usize,
        bytes: *const u8, bytes_length: usize, dimension: u8, chain: *const i32, chain_length: usize, out: *mut i32, out_length: usize,
        place: *mut u32,
    ) -> u8;
    pub fn mbyasoka_import_off(
        counts: *mut [u8; 4], m1: *mut i8, l1: usize, m2: *mut i8, l2: usize, m3: *mut i8, l3: usize,
        coordinates: *mut i32, coordinates_length: usize, text: *const u8, text_length: usize,
    ) -> u8;
    pub fn mbyasoka_export_off(
        counts: *const [u8; 4], m1: *const i8, l1: usize, m2: *const i8, l2: usize, m3: *const i8, l3: usize,
        coordinates: *const i32, coordinates_length: usize, out: *mut u8, out_length: usize, written: *mut usize,
    ) -> u8;
}
