//! The proved library: its jobs, as safe functions.

extern "C" {
    fn puffcradle_crc32(bytes: *const u8, count: usize) -> u32;
    fn puffcradle_crc32_nibble(bytes: *const u8, count: usize) -> u32;
    fn puffcradle_alloc_cycle(count: usize, seed: u32) -> u64;
    fn puffcradle_alloc_each(count: usize, seed: u32, places: *mut u16, places_len: usize) -> u64;
    fn puffcradle_read_page(
        flash: *const u8,
        flash_len: usize,
        magic: u32,
        page: u16,
        header: *mut u8,
        header_len: usize,
        out: *mut u8,
        out_len: usize,
    ) -> u64;
    fn puffcradle_write_page(
        flash: *mut u8,
        flash_len: usize,
        magic: u32,
        page: u16,
        header: *const u8,
        header_len: usize,
        payload: *const u8,
        payload_len: usize,
        piece: usize,
        left: usize,
    ) -> u64;
    fn puffcradle_merge(
        runs: *const u8,
        runs_len: usize,
        ends: *const usize,
        ends_len: usize,
        most: usize,
        key: *mut u8,
        key_len: usize,
        value: *mut u8,
        value_len: usize,
    ) -> u64;
}

// SAFETY of each call below: a slice goes as its pointer and its length, the mutable ones are borrowed by nobody else, and the
// library's contracts have no precondition.

pub fn crc32(bytes: &[u8]) -> u32 {
    unsafe { puffcradle_crc32(bytes.as_ptr(), bytes.len()) }
}

pub fn crc32_nibble(bytes: &[u8]) -> u32 {
    unsafe { puffcradle_crc32_nibble(bytes.as_ptr(), bytes.len()) }
}

pub fn alloc_cycle(count: usize, seed: u32) -> u64 {
    unsafe { puffcradle_alloc_cycle(count, seed) }
}

pub fn alloc_each(count: usize, seed: u32, places: &mut [u16]) -> u64 {
    unsafe { puffcradle_alloc_each(count, seed, places.as_mut_ptr(), places.len()) }
}

pub fn read_page(flash: &[u8], magic: u32, page: u16, header: &mut [u8], out: &mut [u8]) -> u64 {
    unsafe {
        puffcradle_read_page(
            flash.as_ptr(),
            flash.len(),
            magic,
            page,
            header.as_mut_ptr(),
            header.len(),
            out.as_mut_ptr(),
            out.len(),
        )
    }
}

pub fn write_page(
    flash: &mut [u8],
    magic: u32,
    page: u16,
    header: &[u8],
    payload: &[u8],
    piece: usize,
    left: usize,
) -> u64 {
    unsafe {
        puffcradle_write_page(
            flash.as_mut_ptr(),
            flash.len(),
            magic,
            page,
            header.as_ptr(),
            header.len(),
            payload.as_ptr(),
            payload.len(),
            piece,
            left,
        )
    }
}

pub fn merge(runs: &[u8], ends: &[usize], most: usize, key: &mut [u8], value: &mut [u8]) -> u64 {
    unsafe {
        puffcradle_merge(
            runs.as_ptr(),
            runs.len(),
            ends.as_ptr(),
            ends.len(),
            most,
            key.as_mut_ptr(),
            key.len(),
            value.as_mut_ptr(),
            value.len(),
        )
    }
}
