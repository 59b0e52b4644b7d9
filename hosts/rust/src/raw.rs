//! The calls on lent bytes, of any length, and on numbers of 32 bits, which reach the library as they are.
//!
//! Each is safe for every input: the library refuses what it does not allow. `include/dossier.h` says what the calls do.

use crate::answer::{Answer, GradeAnswer, MigrationAnswer};

mod exported {
    use crate::answer::{Answer, GradeAnswer, MigrationAnswer};

    extern "C" {
        pub fn dossier_view(
            store: *const u8,
            store_length: usize,
            subject: u32,
            path: *const u8,
            path_length: usize,
            output: *mut u8,
            output_length: usize,
        ) -> Answer;
        pub fn dossier_view_xml(
            store: *const u8,
            store_length: usize,
            subject: u32,
            path: *const u8,
            path_length: usize,
            output: *mut u8,
            output_length: usize,
        ) -> Answer;
        pub fn dossier_insert(
            store: *mut u8,
            store_length: usize,
            subject: u32,
            path: *const u8,
            path_length: usize,
            kind: u32,
            value: *const u8,
            value_length: usize,
        ) -> Answer;
        pub fn dossier_update(
            store: *mut u8,
            store_length: usize,
            subject: u32,
            path: *const u8,
            path_length: usize,
            kind: u32,
            value: *const u8,
            value_length: usize,
        ) -> Answer;
        pub fn dossier_delete(store: *mut u8, store_length: usize, subject: u32, path: *const u8, path_length: usize) -> Answer;
        pub fn dossier_grade(
            store: *const u8,
            store_length: usize,
            subject: u32,
            base: *const u8,
            base_length: usize,
            top: *const u8,
            top_length: usize,
            n: u32,
        ) -> GradeAnswer;
        pub fn dossier_insert_xml(
            store: *mut u8,
            store_length: usize,
            subject: u32,
            parent: *const u8,
            parent_length: usize,
            text: *const u8,
            text_length: usize,
        ) -> Answer;
        pub fn dossier_migrate(store: *mut u8, store_length: usize) -> MigrationAnswer;
    }
}

/// Lists the path and everything in the subject's view below it into the output. Count: the bytes written; those behind them
/// keep their contents.
pub fn view(store: &[u8], subject: u32, path: &[u8], output: &mut [u8]) -> Answer {
    // SAFETY: each pointer reaches as many bytes as its length says; the output overlaps nothing, being a `&mut`.
    unsafe {
        exported::dossier_view(store.as_ptr(), store.len(), subject, path.as_ptr(), path.len(), output.as_mut_ptr(), output.len())
    }
}

/// Writes the path and everything in the subject's view below it as XML into the output. Count: the bytes written; those behind
/// them keep their contents.
pub fn view_xml(store: &[u8], subject: u32, path: &[u8], output: &mut [u8]) -> Answer {
    // SAFETY: each pointer reaches as many bytes as its length says; the output overlaps nothing, being a `&mut`.
    unsafe {
        exported::dossier_view_xml(
            store.as_ptr(),
            store.len(),
            subject,
            path.as_ptr(),
            path.len(),
            output.as_mut_ptr(),
            output.len(),
        )
    }
}

/// Makes one live element with a value, in the subject's partition, and the missing groups above it. Count: how many groups were
/// made.
pub fn insert(store: &mut [u8], subject: u32, path: &[u8], kind: u32, value: &[u8]) -> Answer {
    // SAFETY: each pointer reaches as many bytes as its length says; the store overlaps nothing, being a `&mut`.
    unsafe {
        exported::dossier_insert(
            store.as_mut_ptr(),
            store.len(),
            subject,
            path.as_ptr(),
            path.len(),
            kind,
            value.as_ptr(),
            value.len(),
        )
    }
}

/// Replaces the value of a live element and keeps all else, what stands below it too. Count: 1, the element replaced.
pub fn update(store: &mut [u8], subject: u32, path: &[u8], kind: u32, value: &[u8]) -> Answer {
    // SAFETY: each pointer reaches as many bytes as its length says; the store overlaps nothing, being a `&mut`.
    unsafe {
        exported::dossier_update(
            store.as_mut_ptr(),
            store.len(),
            subject,
            path.as_ptr(),
            path.len(),
            kind,
            value.as_ptr(),
            value.len(),
        )
    }
}

/// Deletes the element and every live element below it of the same label. Count: how many were taken.
pub fn delete(store: &mut [u8], subject: u32, path: &[u8]) -> Answer {
    // SAFETY: each pointer reaches as many bytes as its length says; the store overlaps nothing, being a `&mut`.
    unsafe { exported::dossier_delete(store.as_mut_ptr(), store.len(), subject, path.as_ptr(), path.len()) }
}

/// The even grade between the measures at two paths in n sizes: top minus base is n × step + remainder, the remainder 0 to n - 1.
pub fn grade(store: &[u8], subject: u32, base: &[u8], top: &[u8], n: u32) -> GradeAnswer {
    // SAFETY: each pointer reaches as many bytes as its length says; nothing is written.
    unsafe {
        exported::dossier_grade(store.as_ptr(), store.len(), subject, base.as_ptr(), base.len(), top.as_ptr(), top.len(), n)
    }
}

/// XML intake: makes all elements of a style, sent as one XML element, below the parent, or none. Count: how many were made.
pub fn insert_xml(store: &mut [u8], subject: u32, parent: &[u8], text: &[u8]) -> Answer {
    // SAFETY: each pointer reaches as many bytes as its length says; the store overlaps nothing, being a `&mut`.
    unsafe {
        exported::dossier_insert_xml(
            store.as_mut_ptr(),
            store.len(),
            subject,
            parent.as_ptr(),
            parent.len(),
            text.as_ptr(),
            text.len(),
        )
    }
}

/// The migration of a store that was written before the path order changed: each partition that is well formed in the order of
/// before gets its elements in the order of now, each other keeps its bytes, and its bit in the mask is set.
pub fn migrate(store: &mut [u8]) -> MigrationAnswer {
    // SAFETY: the pointer reaches as many bytes as its length says; the store overlaps nothing, being a `&mut`.
    unsafe { exported::dossier_migrate(store.as_mut_ptr(), store.len()) }
}
