//! The C interface: `include/muon.h`.

extern "C" {
    pub fn muon_read(
        level: u32,
        text: *const u8,
        text_len: usize,
        table: *mut u32,
        table_len: usize,
        place: *mut usize,
        count: *mut usize,
    ) -> u32;

    pub fn muon_integer(
        piece: *const u8,
        piece_len: usize,
        value: *mut i64,
        place: *mut usize,
        count: *mut usize,
    ) -> u32;

    pub fn muon_text(
        piece: *const u8,
        piece_len: usize,
        buffer: *mut u8,
        buffer_len: usize,
        place: *mut usize,
        count: *mut usize,
    ) -> u32;

    pub fn muon_blob(
        piece: *const u8,
        piece_len: usize,
        buffer: *mut u8,
        buffer_len: usize,
        place: *mut usize,
        count: *mut usize,
    ) -> u32;

    pub fn muon_bits(
        piece: *const u8,
        piece_len: usize,
        buffer: *mut u8,
        buffer_len: usize,
        place: *mut usize,
        count: *mut usize,
    ) -> u32;

    pub fn muon_file_write(
        text: *const u8,
        text_len: usize,
        buffer: *mut u8,
        buffer_len: usize,
        place: *mut usize,
        count: *mut usize,
    ) -> u32;

    pub fn muon_file_check(
        text: *const u8,
        text_len: usize,
        file: *const u8,
        file_len: usize,
        place: *mut usize,
        count: *mut usize,
    ) -> u32;

    pub fn muon_plain(
        level: u32,
        text: *const u8,
        text_len: usize,
        table: *const u32,
        table_len: usize,
        buffer: *mut u8,
        buffer_len: usize,
        place: *mut usize,
        count: *mut usize,
    ) -> u32;

    pub fn muon_convert(
        level: u32,
        text: *const u8,
        text_len: usize,
        buffer: *mut u8,
        buffer_len: usize,
        place: *mut usize,
        count: *mut usize,
    ) -> u32;

    pub fn muon_utf8(text: *const u8, text_len: usize, place: *mut usize, steps: *mut usize)
        -> u32;

    pub fn muon_line_column(
        text: *const u8,
        text_len: usize,
        place: usize,
        line: *mut usize,
        column: *mut usize,
    );
}
