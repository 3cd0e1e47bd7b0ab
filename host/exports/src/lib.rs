//! The sixteen calls of libboardid.a, as C declares them.
//!
//! A slice goes out as a pointer and a length, and a length of 0 goes with any pointer. Every call
//! is safe where its pointers are good for their lengths and where what it writes overlaps nothing
//! else that it is lent.

extern "C" {
    pub fn boardid_check(format: u32, edition: u32, image: *const u8, image_length: usize) -> u64;

    pub fn boardid_list(
        format: u32,
        edition: u32,
        image: *const u8,
        image_length: usize,
        records: *mut u8,
        records_length: usize,
    ) -> u64;

    pub fn boardid_entry(
        format: u32,
        edition: u32,
        image: *const u8,
        image_length: usize,
        n: u64,
        record: *mut u8,
        record_length: usize,
    ) -> u64;

    pub fn boardid_value(
        format: u32,
        edition: u32,
        image: *const u8,
        image_length: usize,
        n: u64,
    ) -> u64;

    pub fn boardid_string(
        format: u32,
        edition: u32,
        image: *const u8,
        image_length: usize,
        number: u64,
    ) -> u64;

    pub fn boardid_step(
        walk: *mut u8,
        walk_length: usize,
        image: *const u8,
        image_length: usize,
        record: *mut u8,
        record_length: usize,
    ) -> u64;

    pub fn boardid_write(
        format: u32,
        edition: u32,
        fields: *const u8,
        fields_length: usize,
        values: *const u8,
        values_length: usize,
        out: *mut u8,
        out_length: usize,
    ) -> u64;

    pub fn boardid_edit(
        format: u32,
        edition: u32,
        image: *const u8,
        image_length: usize,
        n: u64,
        value: *const u8,
        value_length: usize,
        out: *mut u8,
        out_length: usize,
    ) -> u64;

    pub fn boardid_vendor_read(
        format: u32,
        edition: u32,
        image: *const u8,
        image_length: usize,
        payload: *mut u8,
        payload_length: usize,
        block: *mut u8,
        block_length: usize,
    ) -> u64;

    pub fn boardid_vendor_write(
        format: u32,
        edition: u32,
        serial: *const u8,
        serial_length: usize,
        offsets: u64,
        pieces: *const u8,
        pieces_length: usize,
        out: *mut u8,
        out_length: usize,
    ) -> u64;

    pub fn boardid_add(
        format: u32,
        edition: u32,
        image: *const u8,
        image_length: usize,
        field: *const u8,
        field_length: usize,
        values: *const u8,
        values_length: usize,
        out: *mut u8,
        out_length: usize,
    ) -> u64;

    pub fn boardid_remove(
        format: u32,
        edition: u32,
        image: *const u8,
        image_length: usize,
        n: u64,
        out: *mut u8,
        out_length: usize,
    ) -> u64;

    pub fn boardid_room_add(
        form: u32,
        edition: u32,
        file: *const u8,
        file_length: usize,
        board: u32,
        format: u32,
        body: *const u8,
        body_length: usize,
        out: *mut u8,
        out_length: usize,
    ) -> u64;

    pub fn boardid_room_replace(
        form: u32,
        edition: u32,
        file: *const u8,
        file_length: usize,
        board: u32,
        format: u32,
        body: *const u8,
        body_length: usize,
        out: *mut u8,
        out_length: usize,
    ) -> u64;

    pub fn boardid_room_remove(
        form: u32,
        edition: u32,
        file: *const u8,
        file_length: usize,
        board: u32,
        out: *mut u8,
        out_length: usize,
    ) -> u64;

    pub fn boardid_room_fetch(
        form: u32,
        edition: u32,
        file: *const u8,
        file_length: usize,
        board: u32,
    ) -> u64;
}
