//! The C interface, as `include/ragyvosin.h` documents it: a slice is a
//! pointer and the number of its entries.

extern "C" {
    pub fn rgv_read_rule(
        text: *const u8,
        text_len: usize,
        nodes: *mut u32,
        nodes_len: usize,
        values: *mut [usize; 2],
    ) -> u8;

    pub fn rgv_read_line(
        controller: usize,
        line: *const u8,
        line_len: usize,
        nodes: *mut u32,
        nodes_len: usize,
        values: *mut [usize; 2],
    ) -> u8;

    pub fn rgv_write_rule(
        controller: usize,
        count: usize,
        nodes: *const u32,
        nodes_len: usize,
        text: *mut u8,
        text_len: usize,
        values: *mut [usize; 1],
    ) -> u8;

    pub fn rgv_to_archive(
        text: *const u8,
        text_len: usize,
        archive: *mut u8,
        archive_len: usize,
        values: *mut [usize; 1],
    ) -> u8;

    pub fn rgv_from_archive(
        archive: *const u8,
        archive_len: usize,
        text: *mut u8,
        text_len: usize,
        values: *mut [usize; 1],
    ) -> u8;

    pub fn rgv_read_recording(
        text: *const u8,
        text_len: usize,
        masks: *mut u32,
        masks_len: usize,
        states: *mut u64,
        states_len: usize,
        values: *mut [usize; 2],
    ) -> u8;

    pub fn rgv_read_joint(
        rule: *const u8,
        rule_len: usize,
        recording: *const u8,
        recording_len: usize,
        nodes: *mut u32,
        nodes_len: usize,
        masks: *mut u32,
        masks_len: usize,
        states: *mut u64,
        states_len: usize,
        values: *mut [usize; 7],
    ) -> u8;

    pub fn rgv_project(
        controllers: usize,
        count: usize,
        masks: *const u32,
        masks_len: usize,
        states: *const u64,
        states_len: usize,
        c: usize,
        places: *mut u32,
        places_len: usize,
        values: *mut [usize; 1],
    ) -> u8;

    pub fn rgv_judge_local(
        controller: usize,
        count: usize,
        nodes: *const u32,
        nodes_len: usize,
        controllers: usize,
        states_count: usize,
        masks: *const u32,
        masks_len: usize,
        states: *const u64,
        states_len: usize,
        values: *mut [usize; 2],
    ) -> u8;

    pub fn rgv_evidence(
        controller: usize,
        count: usize,
        nodes: *const u32,
        nodes_len: usize,
        controllers: usize,
        states_count: usize,
        masks: *const u32,
        masks_len: usize,
        states: *const u64,
        states_len: usize,
        weak: u8,
        pairs: *mut u32,
        pairs_len: usize,
        values: *mut [usize; 1],
    ) -> u8;

    pub fn rgv_rewrite_plain(
        controller: usize,
        count: usize,
        nodes: *const u32,
        nodes_len: usize,
        mask: u32,
        table: *mut u32,
        table_len: usize,
        values: *mut [usize; 3],
    ) -> u8;

    pub fn rgv_rewrite_short(
        controller: usize,
        count: usize,
        nodes: *const u32,
        nodes_len: usize,
        mask: u32,
        table: *mut u32,
        table_len: usize,
        values: *mut [usize; 3],
    ) -> u8;

    pub fn rgv_judge_recording(
        count: usize,
        nodes: *const u32,
        nodes_len: usize,
        weak_top: usize,
        strong_top: usize,
        controllers: usize,
        states_count: usize,
        masks: *const u32,
        masks_len: usize,
        states: *const u64,
        states_len: usize,
        c: usize,
        rows: *mut u64,
        rows_len: usize,
        values: *mut [usize; 2],
    ) -> u8;

    pub fn rgv_open_session(
        controllers: usize,
        owned: *const u32,
        owned_len: usize,
        controller: usize,
        count: usize,
        rule: *const u32,
        rule_len: usize,
        heading: *mut [usize; 4],
        masks: *mut u32,
        masks_len: usize,
        nodes: *mut u32,
        nodes_len: usize,
        states: *mut u64,
        states_len: usize,
    ) -> u8;

    pub fn rgv_arrive(
        state: u64,
        heading: *mut [usize; 4],
        masks: *const u32,
        masks_len: usize,
        states: *mut u64,
        states_len: usize,
    ) -> u8;

    pub fn rgv_withdraw(heading: *mut [usize; 4], states: *mut u64, states_len: usize) -> u8;

    pub fn rgv_replace_rule(
        controller: usize,
        count: usize,
        rule: *const u32,
        rule_len: usize,
        heading: *mut [usize; 4],
        nodes: *mut u32,
        nodes_len: usize,
    ) -> u8;

    pub fn rgv_session_verdicts(
        heading: *const [usize; 4],
        masks: *const u32,
        masks_len: usize,
        nodes: *const u32,
        nodes_len: usize,
        states: *const u64,
        states_len: usize,
        values: *mut [usize; 3],
    ) -> u8;
}
