//! A handle: what is kept for many pages.

use crate::structs::{DocumentOptions, Limits, Report};
use crate::{NULL, Passed, asked};
use kit::alloc::Global;
use nulbiko_lent::Handle as Lent;
use nulbiko_lent::opened::{nulbiko_close_lent, nulbiko_open_lent, nulbiko_run_lent};
use std::ptr::{null_mut, slice_from_raw_parts_mut};

const OUT_OF_MEMORY: u32 = 5;

/// What C holds a pointer to.
pub struct Handle {
    lent: Lent,
}

/// Opens a handle.
///
/// # Safety
///
/// As the header says.
#[unsafe(no_mangle)]
pub unsafe extern "C" fn nulbiko_open(
    limits: *const Limits,
    options: *const DocumentOptions,
    handle: *mut *mut Handle,
) -> u32 {
    if handle.is_null() {
        return NULL;
    }
    // Sound: as the header asks for; so for all that follows.
    unsafe { handle.write(null_mut()) };
    let (setup, macros) = match unsafe { asked(limits, options) } {
        Ok(asked) => asked,
        Err(outcome) => return outcome,
    };
    let mut room = Vec::new();
    if room.try_reserve_exact(1).is_err() {
        return OUT_OF_MEMORY;
    }
    let mut lent = Lent::none(Global);
    let outcome = nulbiko_open_lent(Global, &setup, macros, &mut lent);
    if outcome == 0 {
        room.push(Handle { lent });
        unsafe { handle.write(Box::into_raw(room.into_boxed_slice()).cast()) };
    }
    outcome
}

/// Prints a page.
///
/// # Safety
///
/// As the header says; the handle is null or one that is open and that no other call uses.
#[unsafe(no_mangle)]
pub unsafe extern "C" fn nulbiko_run(
    handle: *mut Handle,
    input: *const u8,
    length: usize,
    output: *mut u8,
    capacity: usize,
    report: *mut Report,
) -> u32 {
    let passed = Passed { input, length, output, capacity, report };
    unsafe {
        if handle.is_null() {
            return passed.call(|_, _, _| NULL);
        }
        let lent = &mut (*handle).lent;
        passed.call(|page, output, reported| nulbiko_run_lent(Global, lent, page, output, reported))
    }
}

/// Closes a handle.
///
/// # Safety
///
/// As the header says; the handle is null or one that is open and that no other call uses.
#[unsafe(no_mangle)]
pub unsafe extern "C" fn nulbiko_close(handle: *mut Handle) {
    if handle.is_null() {
        return;
    }
    // Sound: it was made of such a slice.
    let mut room = unsafe { Box::from_raw(slice_from_raw_parts_mut(handle, 1)) };
    nulbiko_close_lent(Global, &mut room[0].lent);
}
