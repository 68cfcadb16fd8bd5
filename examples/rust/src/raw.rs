//! The library's ten functions and its version, as `include/doeragyeol.h` declares them and says what a caller owes.

#[link(name = "doeragyeol", kind = "static")]
extern "C" {
    pub fn doeragyeol_version_6() -> u32;

    pub fn doeragyeol_check(
        links: *const u16,
        links_length: usize,
        parents: *const u16,
        parents_length: usize,
        root: u16,
        depth: u16,
        rule: u16,
        sizes: *mut u64,
        sizes_length: usize,
    ) -> u32;

    pub fn doeragyeol_table(
        links: *const u16,
        links_length: usize,
        parents: *const u16,
        parents_length: usize,
        root: u16,
        depth: u16,
        rule: u16,
        entries: *mut u64,
        entries_length: usize,
    ) -> u32;

    pub fn doeragyeol_map(
        links: *const u16,
        links_length: usize,
        parents: *const u16,
        parents_length: usize,
        root: u16,
        depth: u16,
        rule: u16,
        words: *mut u64,
        words_length: usize,
        told: *mut u64,
        told_length: usize,
    ) -> u32;

    pub fn doeragyeol_change(
        links: *mut u16,
        links_length: usize,
        parents: *const u16,
        parents_length: usize,
        root: u16,
        depth: u16,
        rule: u16,
        entries: *mut u64,
        entries_length: usize,
        link: u16,
        mark: u16,
        length: u16,
    ) -> u32;

    pub fn doeragyeol_write(
        links: *const u16,
        links_length: usize,
        parents: *const u16,
        parents_length: usize,
        root: u16,
        depth: u16,
        file: *mut u8,
        file_length: usize,
        size: *mut u64,
        size_length: usize,
    ) -> u32;

    pub fn doeragyeol_read(
        file: *const u8,
        file_length: usize,
        links: *mut u16,
        links_length: usize,
        parents: *mut u16,
        parents_length: usize,
        entries: *mut u64,
        entries_length: usize,
        header: *mut u64,
        header_length: usize,
    ) -> u32;

    pub fn doeragyeol_forward_sum(
        links: *const u16,
        links_length: usize,
        parents: *const u16,
        parents_length: usize,
        root: u16,
        depth: u16,
        rule: u16,
        start: u16,
        failed: u16,
        ordinary: *mut u16,
        ordinary_length: usize,
        detour: *mut u16,
        detour_length: usize,
        way: *mut u64,
        way_length: usize,
    ) -> u32;

    pub fn doeragyeol_forward_incr(
        links: *const u16,
        links_length: usize,
        parents: *const u16,
        parents_length: usize,
        root: u16,
        depth: u16,
        rule: u16,
        start: u16,
        failed: u16,
        ordinary: *mut u16,
        ordinary_length: usize,
        detour: *mut u16,
        detour_length: usize,
        way: *mut u64,
        way_length: usize,
    ) -> u32;

    pub fn doeragyeol_forward_max(
        links: *const u16,
        links_length: usize,
        parents: *const u16,
        parents_length: usize,
        root: u16,
        depth: u16,
        rule: u16,
        start: u16,
        failed: u16,
        ordinary: *mut u16,
        ordinary_length: usize,
        detour: *mut u16,
        detour_length: usize,
        way: *mut u64,
        way_length: usize,
    ) -> u32;

    pub fn doeragyeol_distance(
        links: *const u16,
        links_length: usize,
        parents: *const u16,
        parents_length: usize,
        root: u16,
        from: u16,
        to: u16,
        distance: *mut u64,
        distance_length: usize,
    ) -> u32;
}
