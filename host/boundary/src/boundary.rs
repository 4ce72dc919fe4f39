//! The functions of the proved library, as `host/include/skywimple.h` declares them for C.
//! They ask nothing of their arguments but what every Rust slice keeps.

extern "C" {
    pub fn skywimple_crc32(s: *const u8, s_len: usize) -> u32;
    pub fn skywimple_sha1(s: *const u8, s_len: usize, out: *mut u8, out_len: usize) -> u32;
    pub fn skywimple_serve(
        session: u8,
        message: *const u8,
        message_len: usize,
        date: *const u8,
        date_len: usize,
        log: *mut u8,
        log_len: usize,
        waiting: *mut u8,
        waiting_len: usize,
        index: *mut u8,
        index_len: usize,
        reply: *mut u8,
        reply_len: usize,
    ) -> u32;
    pub fn skywimple_learn(
        log: *const u8,
        log_len: usize,
        waiting: *const u8,
        waiting_len: usize,
        index: *const u8,
        index_len: usize,
        known: *mut u8,
        known_len: usize,
    ) -> u32;
    pub fn skywimple_serve_known(
        session: u8,
        message: *const u8,
        message_len: usize,
        date: *const u8,
        date_len: usize,
        log: *mut u8,
        log_len: usize,
        waiting: *mut u8,
        waiting_len: usize,
        index: *mut u8,
        index_len: usize,
        reply: *mut u8,
        reply_len: usize,
        known: *mut u8,
        known_len: usize,
    ) -> u32;
    pub fn skywimple_report(
        log: *const u8,
        log_len: usize,
        buffer: *mut u8,
        buffer_len: usize,
    ) -> u32;
    pub fn skywimple_look_up_by(
        log: *const u8,
        log_len: usize,
        waiting: *const u8,
        waiting_len: usize,
        index: *const u8,
        index_len: usize,
        kind: u8,
        score: *const [u8; 20],
    ) -> u64;
    pub fn skywimple_rebuild(
        log: *const u8,
        log_len: usize,
        index: *mut u8,
        index_len: usize,
    ) -> u32;
    pub fn skywimple_sound_at(log: *const u8, log_len: usize, sector: usize) -> u32;
    pub fn skywimple_cut(kind: u8, block: *const u8, block_len: usize) -> usize;
    pub fn skywimple_pad(
        kind: u8,
        buffer: *mut u8,
        buffer_len: usize,
        block_len: usize,
        target: usize,
    ) -> u32;
    pub fn skywimple_locate(
        log: *const u8,
        log_len: usize,
        waiting: *const u8,
        waiting_len: usize,
        page: *const u8,
        page_len: usize,
        entry: *const u8,
        entry_len: usize,
        offset: u64,
    ) -> u64;
    pub fn skywimple_fill(
        log: *const u8,
        log_len: usize,
        waiting: *const u8,
        waiting_len: usize,
        entry: *const u8,
        entry_len: usize,
        offset: u64,
        buffer: *mut u8,
        buffer_len: usize,
        told: *mut u64,
    ) -> u64;
    pub fn skywimple_walk(
        log: *const u8,
        log_len: usize,
        waiting: *const u8,
        waiting_len: usize,
        score: *const [u8; 20],
        allowance: u64,
    ) -> u64;
    pub fn skywimple_difference(
        first: *const u8,
        first_len: usize,
        second: *const u8,
        second_len: usize,
    ) -> u64;
    pub fn skywimple_differences(
        log: *const u8,
        log_len: usize,
        waiting: *const u8,
        waiting_len: usize,
        first: *const u8,
        first_len: usize,
        second: *const u8,
        second_len: usize,
        allowance: u64,
        told: *mut u64,
    ) -> u64;
    pub fn skywimple_search(
        log: *const u8,
        log_len: usize,
        waiting: *const u8,
        waiting_len: usize,
        page: *const u8,
        page_len: usize,
        entry: *const u8,
        entry_len: usize,
        query: *const u8,
        query_len: usize,
    ) -> u64;
    pub fn skywimple_is_card(bytes: *const u8, bytes_len: usize) -> u32;
    pub fn skywimple_block_type(number: u64) -> u32;
    pub fn skywimple_copy(
        log: *const u8,
        log_len: usize,
        waiting: *const u8,
        waiting_len: usize,
        second: *mut u8,
        second_len: usize,
        date: *const u8,
        date_len: usize,
        score: *const [u8; 20],
        allowance: u64,
    ) -> u64;
    pub fn skywimple_write_file(
        log: *const u8,
        log_len: usize,
        waiting: *mut u8,
        waiting_len: usize,
        date: *const u8,
        date_len: usize,
        slice: *const u8,
        slice_len: usize,
        dsize: usize,
        psize: usize,
        entry: *mut u8,
        entry_len: usize,
        scores: *mut u8,
        scores_len: usize,
    ) -> u32;
}
