//! The two implementations that are measured: the library, by its calls for C, and the ordinary one; with `--cfg beside`, in
//! place of the ordinary one, the library of another revision.

use crate::ordinary::layout::{Layout, Options};
use crate::ordinary::lookup::Lookup;

pub type LookupCall = fn(&[u8], &Options, &[u8]) -> Lookup;

pub struct Side {
    pub commit: fn(&mut [u8], &Options, &[u8]) -> u32,
    pub full_check: fn(&[u8], &Options) -> u32,
}

/// The library first. They are called through pointers, so that neither is compiled for the options of a row.
pub const SIDES: [Side; 2] = [LIBRARY, OTHER];

/// What tools/speed calls the other side.
pub const BESIDE: &str = env!("BESIDE");

/// Declares calls of slc1.h that are lent an image: its pointer and length, the options as six numbers, and what else a
/// call takes.
macro_rules! calls {
    ($($name:ident(image: $image:ty $(, $more:ident: $kind:ty)*);)*) => {
        extern "C" {
            $(fn $name(
                image: $image, length: usize, key_size: u64, index_size: u64, slot_capacity: u64, user_version: u64,
                ordered: u64, role: u64 $(, $more: $kind)*
            ) -> u32;)*
        }
    };
}

calls! {
    slc1_create(image: *mut u8);
    slc1_begin(image: *mut u8);
    slc1_full_check(image: *const u8);
    slc1_commit(image: *mut u8, batch: *const u8, batch_length: usize);
    slc1_lookup_results(image: *const u8, key: *const u8, key_length: usize, results: *mut u64, count: usize);
    slc1_set_user_fields(image: *mut u8, user_flags: u64, user_data: *const u8, data_length: usize);
}

// Of the library of another revision, to whose calls tools/speed gives these names.
#[cfg(beside)]
calls! {
    beside_full_check(image: *const u8);
    beside_commit(image: *mut u8, batch: *const u8, batch_length: usize);
    beside_lookup_results(image: *const u8, key: *const u8, key_length: usize, results: *mut u64, count: usize);
}

/// Makes such a call.
macro_rules! call {
    ($name:ident, $image:expr, $length:expr, $options:expr $(, $more:expr)*) => {
        unsafe {
            $name(
                $image, $length, $options.key_size, $options.index_size, $options.slot_capacity, $options.user_version,
                $options.ordered, $options.role $(, $more)*
            )
        }
    };
}

/// The side that two such calls make.
macro_rules! side {
    ($commit:ident, $full_check:ident) => {
        Side {
            commit: |image, options, batch| {
                call!(
                    $commit,
                    image.as_mut_ptr(),
                    image.len(),
                    options,
                    batch.as_ptr(),
                    batch.len()
                )
            },
            full_check: |image, options| call!($full_check, image.as_ptr(), image.len(), options),
        }
    };
}

const LIBRARY: Side = side!(slc1_commit, slc1_full_check);

#[cfg(beside)]
const OTHER: Side = side!(beside_commit, beside_full_check);

#[cfg(not(beside))]
const OTHER: Side = Side {
    commit: crate::ordinary::commit::commit,
    full_check: crate::ordinary::check::full_check,
};

/// A lookup by such a call, which writes its numbers to a list.
macro_rules! lookup_by {
    ($name:ident) => {
        |image, options, key| {
            let mut results = [0; 4];
            let answer = call!(
                $name,
                image.as_ptr(),
                image.len(),
                options,
                key.as_ptr(),
                key.len(),
                results.as_mut_ptr(),
                results.len()
            );
            let [_, slot, revision, buckets] = results;
            Lookup {
                answer,
                slot,
                revision: revision as i64,
                buckets,
            }
        }
    };
}

/// Those whose lookups are timed, the library first.
#[cfg(beside)]
pub fn lookups() -> Vec<(&'static str, LookupCall)> {
    vec![
        ("library", lookup_by!(slc1_lookup_results)),
        (BESIDE, lookup_by!(beside_lookup_results)),
    ]
}

/// Those whose lookups are timed: the library, and the ordinary one with each CRC.
#[cfg(not(beside))]
pub fn lookups() -> Vec<(&'static str, LookupCall)> {
    use crate::ordinary::digests::{has_instruction, EightTables, Instruction, OneTable};
    use crate::ordinary::lookup::lookup;
    let mut all: Vec<(&'static str, LookupCall)> = vec![
        ("library", lookup_by!(slc1_lookup_results)),
        ("one table", lookup::<OneTable>),
        ("eight tables", lookup::<EightTables>),
    ];
    if has_instruction() {
        all.push(("CRC instruction", lookup::<Instruction>));
    }
    all
}

/// Sets user_flags and all of user_data, or makes them zero, by the library.
pub fn set_user_fields(image: &mut [u8], options: &Options, set: bool) {
    let flags = 0x0123456789ABCDEF * u64::from(set);
    let data: Vec<u8> = (1..=64).map(|number| 3 * number * u8::from(set)).collect();
    let answer = call!(
        slc1_set_user_fields,
        image.as_mut_ptr(),
        image.len(),
        options,
        flags,
        data.as_ptr(),
        data.len()
    );
    assert_eq!(answer, 0, "set user fields");
}

/// A fresh image, DIRTY, by the library.
pub fn begun_image(options: &Options) -> Vec<u8> {
    let layout = Layout::of(options);
    let mut image = vec![0; layout.total_size];
    let created = call!(slc1_create, image.as_mut_ptr(), image.len(), options);
    let begun = call!(slc1_begin, image.as_mut_ptr(), image.len(), options);
    assert_eq!((created, begun), (0, 0), "create and begin");
    image
}
