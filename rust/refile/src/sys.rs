//! The C interface, as `include/refile.h` declares it; the test `header` holds the two together.
//!
//! The declarations are private to the crate: what they require of a replica's buffer is seen to by
//! [`Replica`](crate::Replica), which owns it.

unsafe extern "C" {
    pub fn refile_version() -> u64;

    pub fn refile_is_replica(bytes: *const u8, bytes_len: usize) -> u64;

    pub fn refile_fresh(replica: *mut u8, replica_len: usize) -> u64;

    pub fn refile_load(
        replica: *mut u8,
        replica_len: usize,
        image: *const u8,
        image_len: usize,
    ) -> u64;

    pub fn refile_save(replica: *const u8, replica_len: usize, out: *mut u8, out_len: usize)
        -> u64;

    pub fn refile_write(
        replica: *mut u8,
        replica_len: usize,
        id: *const u8,
        id_len: usize,
        number: u32,
        path: *const u8,
        path_len: usize,
        kind: u32,
        label: u64,
    ) -> u64;

    pub fn refile_take_in(
        replica: *mut u8,
        replica_len: usize,
        line: *const u8,
        line_len: usize,
    ) -> u64;

    pub fn refile_edit(
        replica: *mut u8,
        replica_len: usize,
        id: *const u8,
        id_len: usize,
        hash: *const u8,
        hash_len: usize,
        kind: u32,
        label: u64,
        named: u32,
        parent_number: u32,
        parent_hash: *const u8,
        parent_hash_len: usize,
    ) -> u64;

    pub fn refile_winner(
        replica: *const u8,
        replica_len: usize,
        id: *const u8,
        id_len: usize,
        out: *mut u8,
        out_len: usize,
    ) -> u64;

    pub fn refile_leaves(
        replica: *const u8,
        replica_len: usize,
        id: *const u8,
        id_len: usize,
        out: *mut u8,
        out_len: usize,
    ) -> u64;

    pub fn refile_path(
        replica: *const u8,
        replica_len: usize,
        id: *const u8,
        id_len: usize,
        number: u32,
        hash: *const u8,
        hash_len: usize,
        out: *mut u8,
        out_len: usize,
    ) -> u64;

    pub fn refile_put_out(
        replica: *const u8,
        replica_len: usize,
        id: *const u8,
        id_len: usize,
        out: *mut u8,
        out_len: usize,
    ) -> u64;

    pub fn refile_put_out_size(
        replica: *const u8,
        replica_len: usize,
        id: *const u8,
        id_len: usize,
    ) -> u64;

    pub fn refile_missing(
        replica: *const u8,
        replica_len: usize,
        id: *const u8,
        id_len: usize,
        asked: *const u8,
        asked_len: usize,
        out: *mut u8,
        out_len: usize,
    ) -> u64;

    pub fn refile_changes(
        replica: *const u8,
        replica_len: usize,
        after: u32,
        out: *mut u8,
        out_len: usize,
        answer: *mut u8,
        answer_len: usize,
    ) -> u64;

    pub fn refile_pull(
        target: *mut u8,
        target_len: usize,
        source: *const u8,
        source_len: usize,
        after: u32,
        answer: *mut u8,
        answer_len: usize,
    ) -> u64;

    pub fn refile_update_sequence(replica: *const u8, replica_len: usize) -> u64;

    pub fn refile_counts(
        replica: *const u8,
        replica_len: usize,
        answer: *mut u8,
        answer_len: usize,
    ) -> u64;

    pub fn refile_report(image: *const u8, image_len: usize, out: *mut u8, out_len: usize) -> u64;
}
