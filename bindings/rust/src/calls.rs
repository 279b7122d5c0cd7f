//! The calls of the library, as its header `cargo_lock.h` has them. All that is unsafe is here.

use crate::{DiffError, Edge, Error, MergeError, Side};

use std::mem::size_of;

mod library {
    use crate::Edge;

    // Declares a call that returns items: after the text and the call's own arguments come the
    // buffer for the items, its length, and the number of items that it sets.
    macro_rules! hands_out {
        ($call:ident, $item:ty $(, $name:ident: $type:ty)*) => {
            extern "C" {
                pub fn $call(
                    text: *const u8,
                    text_len: usize,
                    $($name: $type,)*
                    out: *mut $item,
                    out_len: usize,
                    length: *mut usize,
                ) -> u32;
            }
        };
    }

    extern "C" {
        pub fn cargo_lock_format(text: *const u8, text_len: usize, format: *mut u32) -> u32;
        pub fn cargo_lock_survives(text: *const u8, text_len: usize, format: u32) -> u32;
    }
    hands_out!(cargo_lock_fault, u8);
    hands_out!(cargo_lock_translate, u8, format: u32);
    hands_out!(cargo_lock_packages, u8);
    hands_out!(cargo_lock_check, u8);
    hands_out!(cargo_lock_bill, u8, compact: bool);
    hands_out!(cargo_lock_why, u8, spec: *const u8, spec_len: usize, all: bool);
    hands_out!(cargo_lock_duplicates, u8);
    hands_out!(cargo_lock_json, u8);
    hands_out!(cargo_lock_edges, Edge);
    hands_out!(cargo_lock_tree, u8, package: usize, inverted: bool, exact: bool);
    hands_out!(cargo_lock_diff, u8, new: *const u8, new_len: usize, dependencies: bool);

    // Declares a call of a merge, which takes the base, ours and theirs.
    macro_rules! merges {
        ($call:ident) => {
            hands_out!(
                $call, u8, ours: *const u8, ours_len: usize, theirs: *const u8, theirs_len: usize
            );
        };
    }

    merges!(cargo_lock_merge);
    merges!(cargo_lock_merge_moved);

    /// A call of a merge.
    pub type Merge = unsafe extern "C" fn(
        *const u8,
        usize,
        *const u8,
        usize,
        *const u8,
        usize,
        *mut u8,
        usize,
        *mut usize,
    ) -> u32;
}

// The statuses that are not faults.
const DONE: u32 = 0;
const NO_ROOM: u32 = 5;

// What is said of the second of several texts, and of the third.
const NO_NEW_LOCKFILE: u32 = 10;
const NO_NEW_TEXT: u32 = 11;
const NO_THIRD_LOCKFILE: u32 = 19;
const NO_THIRD_TEXT: u32 = 20;

// The statuses of merges that come with a text besides the merged one.
const CONFLICTS: u32 = 15;
const BASE_REFUSED: u32 = 16;
const OURS_REFUSED: u32 = 17;
const THEIRS_REFUSED: u32 = 18;

pub(crate) fn format(text: &[u8]) -> Result<u32, Error> {
    let mut number = 0;
    // SAFETY: the pointers and the length are those of a slice and of a number that is borrowed.
    let status = unsafe { library::cargo_lock_format(text.as_ptr(), text.len(), &mut number) };
    done(text, status)?;
    Ok(number)
}

pub(crate) fn survives(text: &[u8], number: u32) -> Result<(), Error> {
    // SAFETY: the pointer and the length are those of a slice.
    let status = unsafe { library::cargo_lock_survives(text.as_ptr(), text.len(), number) };
    done(text, status)
}

pub(crate) fn fault(text: &[u8]) -> Result<String, Error> {
    // SAFETY: the pointers and lengths are those of slices and of a number that are borrowed.
    words(text, |out, length| unsafe {
        library::cargo_lock_fault(text.as_ptr(), text.len(), out.as_mut_ptr(), out.len(), length)
    })
}

pub(crate) fn translate(text: &[u8], number: u32) -> Result<String, Error> {
    // SAFETY: as above.
    words(text, |out, length| unsafe {
        let (at, room) = (out.as_mut_ptr(), out.len());
        library::cargo_lock_translate(text.as_ptr(), text.len(), number, at, room, length)
    })
}

pub(crate) fn check(text: &[u8]) -> Result<String, Error> {
    // SAFETY: as above.
    words(text, |out, length| unsafe {
        library::cargo_lock_check(text.as_ptr(), text.len(), out.as_mut_ptr(), out.len(), length)
    })
}

pub(crate) fn bill(text: &[u8], compact: bool) -> Result<String, Error> {
    // SAFETY: as above.
    words(text, |out, length| unsafe {
        let (at, room) = (out.as_mut_ptr(), out.len());
        library::cargo_lock_bill(text.as_ptr(), text.len(), compact, at, room, length)
    })
}

pub(crate) fn why(text: &[u8], spec: &str, all: bool) -> Result<String, Error> {
    // SAFETY: as above.
    words(text, |out, length| unsafe {
        let (at, room) = (out.as_mut_ptr(), out.len());
        let (given, given_len) = (text.as_ptr(), text.len());
        library::cargo_lock_why(given, given_len, spec.as_ptr(), spec.len(), all, at, room, length)
    })
}

pub(crate) fn duplicates(text: &[u8]) -> Result<String, Error> {
    // SAFETY: as above.
    words(text, |out, length| unsafe {
        let (at, room) = (out.as_mut_ptr(), out.len());
        library::cargo_lock_duplicates(text.as_ptr(), text.len(), at, room, length)
    })
}

pub(crate) fn json(text: &[u8]) -> Result<String, Error> {
    // SAFETY: as above.
    words(text, |out, length| unsafe {
        library::cargo_lock_json(text.as_ptr(), text.len(), out.as_mut_ptr(), out.len(), length)
    })
}

pub(crate) fn packages(text: &[u8]) -> Result<String, Error> {
    // SAFETY: as above.
    words(text, |out, length| unsafe {
        library::cargo_lock_packages(text.as_ptr(), text.len(), out.as_mut_ptr(), out.len(), length)
    })
}

pub(crate) fn edges(text: &[u8]) -> Result<Vec<Edge>, Error> {
    // SAFETY: as above, and the library's edge has the fields of `Edge`.
    items(text, |out: &mut [Edge], length| unsafe {
        library::cargo_lock_edges(text.as_ptr(), text.len(), out.as_mut_ptr(), out.len(), length)
    })
}

pub(crate) fn tree(
    text: &[u8],
    package: usize,
    inverted: bool,
    exact: bool,
) -> Result<String, Error> {
    // SAFETY: as above.
    words(text, |out, length| unsafe {
        let (at, room) = (out.as_mut_ptr(), out.len());
        let (given, given_len) = (text.as_ptr(), text.len());
        library::cargo_lock_tree(given, given_len, package, inverted, exact, at, room, length)
    })
}

pub(crate) fn diff(old: &[u8], new: &[u8], dependencies: bool) -> Result<String, DiffError> {
    // SAFETY: as above.
    let answer = room_for(old.len() + new.len(), |out, length| unsafe {
        let (at, room) = (out.as_mut_ptr(), out.len());
        let (before, before_len) = (old.as_ptr(), old.len());
        let (after, after_len) = (new.as_ptr(), new.len());
        library::cargo_lock_diff(
            before, before_len, after, after_len, dependencies, at, room, length,
        )
    });
    match answer {
        Ok(bytes) => Ok(String::from_utf8(bytes).expect("the library answers UTF-8")),
        Err(NO_NEW_LOCKFILE) => Err(DiffError::New(fault_of(new, 1))),
        Err(NO_NEW_TEXT) => Err(DiffError::New(fault_of(new, 2))),
        Err(status) => Err(DiffError::Old(fault_of(old, status))),
    }
}

pub(crate) fn merge(base: &[u8], ours: &[u8], theirs: &[u8]) -> Result<String, MergeError> {
    merged(library::cargo_lock_merge, base, ours, theirs)
}

pub(crate) fn merge_moved(base: &[u8], ours: &[u8], theirs: &[u8]) -> Result<String, MergeError> {
    merged(library::cargo_lock_merge_moved, base, ours, theirs)
}

/// The text that a call of a merge answers.
fn merged(
    call: library::Merge,
    base: &[u8],
    ours: &[u8],
    theirs: &[u8],
) -> Result<String, MergeError> {
    // SAFETY: the pointers and lengths are those of slices and of a number that are borrowed.
    let (status, bytes) = answer_in_room(ours.len() + theirs.len(), |out, length| unsafe {
        call(
            base.as_ptr(),
            base.len(),
            ours.as_ptr(),
            ours.len(),
            theirs.as_ptr(),
            theirs.len(),
            out.as_mut_ptr(),
            out.len(),
            length,
        )
    });
    let text = String::from_utf8(bytes).expect("the library answers UTF-8");
    match status {
        DONE => Ok(text),
        CONFLICTS => Err(MergeError::Conflicts(text.lines().map(str::to_owned).collect())),
        BASE_REFUSED => Err(MergeError::Refused(Side::Base, text.trim_end().to_owned())),
        OURS_REFUSED => Err(MergeError::Refused(Side::Ours, text.trim_end().to_owned())),
        THEIRS_REFUSED => Err(MergeError::Refused(Side::Theirs, text.trim_end().to_owned())),
        NO_NEW_LOCKFILE => Err(MergeError::Unread(Side::Ours, fault_of(ours, 1))),
        NO_NEW_TEXT => Err(MergeError::Unread(Side::Ours, fault_of(ours, 2))),
        NO_THIRD_LOCKFILE => Err(MergeError::Unread(Side::Theirs, fault_of(theirs, 1))),
        NO_THIRD_TEXT => Err(MergeError::Unread(Side::Theirs, fault_of(theirs, 2))),
        status => Err(MergeError::Unread(Side::Base, fault_of(base, status))),
    }
}

/// The text that a call answers.
fn words(text: &[u8], call: impl FnMut(&mut [u8], &mut usize) -> u32) -> Result<String, Error> {
    let bytes = items(text, call)?;
    Ok(String::from_utf8(bytes).expect("the library answers UTF-8"))
}

/// The items that a call answers.
fn items<T: Clone + Default>(
    text: &[u8],
    call: impl FnMut(&mut [T], &mut usize) -> u32,
) -> Result<Vec<T>, Error> {
    room_for(text.len(), call).map_err(|status| fault_of(text, status))
}

/// The items that a call answers, or its status.
fn room_for<T: Clone + Default>(
    length_of_text: usize,
    call: impl FnMut(&mut [T], &mut usize) -> u32,
) -> Result<Vec<T>, u32> {
    match answer_in_room(length_of_text, call) {
        (DONE, items) => Ok(items),
        (status, _) => Err(status),
    }
}

/// The status of a call, and the items that it sets, none if it sets none. The first room is enough
/// for most texts of this length, so that they are read once; if it is not, it is made as long as it
/// has to be.
fn answer_in_room<T: Clone + Default>(
    length_of_text: usize,
    mut call: impl FnMut(&mut [T], &mut usize) -> u32,
) -> (u32, Vec<T>) {
    let room = 2 * length_of_text + 4096;
    let mut out = vec![T::default(); room / size_of::<T>()];
    let mut length = 0;
    let mut status = call(&mut out, &mut length);
    while status == NO_ROOM {
        out.resize(length, T::default());
        length = 0;
        status = call(&mut out, &mut length);
    }
    out.truncate(length);
    (status, out)
}

/// The fault of a status, if it is one.
fn done(text: &[u8], status: u32) -> Result<(), Error> {
    match status {
        DONE => Ok(()),
        status => Err(fault_of(text, status)),
    }
}

/// The fault of a status other than 0 that is said of a text.
fn fault_of(text: &[u8], status: u32) -> Error {
    match status {
        1 => fault(text).map_or_else(|error| error, Error::NotALockfile),
        2 => Error::NotUtf8,
        3 => Error::OutOfMemory,
        4 => Error::NoFormat,
        6 => Error::Lost,
        7 => Error::Unresolved,
        8 => Error::NoPackage,
        9 => Error::NoLine,
        12 => Error::Repeated,
        13 => Error::NothingFits,
        status => Error::UnknownStatus(status),
    }
}
