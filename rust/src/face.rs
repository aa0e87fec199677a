//! The calls as `include/oul.h` declares them, on slices. All unsafe code is here.

#![allow(unsafe_code)]

use crate::Given;

/// What a call answers, and what it tells.
pub type Answer = (usize, [usize; 3]);

mod c {
    pub type Write = unsafe extern "C" fn(
        file: *const u8,
        length: usize,
        which_or_at: usize,
        mode: *const u8,
        mode_length: usize,
        sent: *const u8,
        sent_length: usize,
        control: *const u8,
        control_length: usize,
        out: *mut u8,
        room: usize,
        told: *mut [usize; 3],
    ) -> usize;

    extern "C" {
        pub fn oul_check(message: *const u8, length: usize, told: *mut [usize; 3]) -> usize;
        pub fn oul_locate(
            message: *const u8,
            length: usize,
            ordinal: usize,
            field: usize,
            component: usize,
            told: *mut [usize; 3],
        ) -> usize;
        pub fn oul_part_text(
            message: *const u8,
            length: usize,
            ordinal: usize,
            field: usize,
            component: usize,
            out: *mut u8,
            room: usize,
            told: *mut [usize; 3],
        ) -> usize;
        pub fn oul_to_sheet(
            message: *const u8,
            length: usize,
            out: *mut u8,
            room: usize,
            told: *mut [usize; 3],
        ) -> usize;
        pub fn oul_to_message(
            sheet: *const u8,
            length: usize,
            out: *mut u8,
            room: usize,
            told: *mut [usize; 3],
        ) -> usize;
        pub fn oul_segment(
            message: *const u8,
            length: usize,
            ordinal: usize,
            told: *mut [usize; 3],
        ) -> usize;
        pub fn oul_spot(
            text: *const u8,
            length: usize,
            refusal: usize,
            told: *mut [usize; 3],
        ) -> usize;
        pub fn oul_csv_count(file: *const u8, length: usize, told: *mut [usize; 3]) -> usize;
        pub fn oul_csv_sheet(
            file: *const u8,
            length: usize,
            which: usize,
            mode: *const u8,
            mode_length: usize,
            sent: *const u8,
            sent_length: usize,
            control: *const u8,
            control_length: usize,
            out: *mut u8,
            room: usize,
            told: *mut [usize; 3],
        ) -> usize;
        pub fn oul_csv_next(
            file: *const u8,
            length: usize,
            at: usize,
            mode: *const u8,
            mode_length: usize,
            sent: *const u8,
            sent_length: usize,
            control: *const u8,
            control_length: usize,
            out: *mut u8,
            room: usize,
            told: *mut [usize; 3],
        ) -> usize;
        pub fn oul_csv_spot(file: *const u8, length: usize, told: *mut [usize; 3]) -> usize;
    }
}

// SAFETY of every call: each pointer is to as many bytes as the length after it says, what is
// lent to be written overlaps nothing else (it is borrowed mutably), and no pointer is kept.

pub fn check(m: &[u8]) -> Answer {
    let mut told = [0; 3];
    // SAFETY: as above.
    let answer = unsafe { c::oul_check(m.as_ptr(), m.len(), &mut told) };
    (answer, told)
}

pub fn locate(m: &[u8], ordinal: usize, field: usize, component: usize) -> Answer {
    let mut told = [0; 3];
    // SAFETY: as above.
    let answer =
        unsafe { c::oul_locate(m.as_ptr(), m.len(), ordinal, field, component, &mut told) };
    (answer, told)
}

pub fn part_text(
    m: &[u8],
    ordinal: usize,
    field: usize,
    component: usize,
    out: &mut [u8],
) -> Answer {
    let mut told = [0; 3];
    let (to, room) = (out.as_mut_ptr(), out.len());
    // SAFETY: as above.
    let answer = unsafe {
        c::oul_part_text(
            m.as_ptr(),
            m.len(),
            ordinal,
            field,
            component,
            to,
            room,
            &mut told,
        )
    };
    (answer, told)
}

pub fn to_sheet(m: &[u8], out: &mut [u8]) -> Answer {
    let mut told = [0; 3];
    let (to, room) = (out.as_mut_ptr(), out.len());
    // SAFETY: as above.
    let answer = unsafe { c::oul_to_sheet(m.as_ptr(), m.len(), to, room, &mut told) };
    (answer, told)
}

pub fn to_message(sheet: &[u8], out: &mut [u8]) -> Answer {
    let mut told = [0; 3];
    let (to, room) = (out.as_mut_ptr(), out.len());
    // SAFETY: as above.
    let answer = unsafe { c::oul_to_message(sheet.as_ptr(), sheet.len(), to, room, &mut told) };
    (answer, told)
}

pub fn segment(m: &[u8], ordinal: usize) -> Answer {
    let mut told = [0; 3];
    // SAFETY: as above.
    let answer = unsafe { c::oul_segment(m.as_ptr(), m.len(), ordinal, &mut told) };
    (answer, told)
}

pub fn spot(text: &[u8], refusal: usize) -> Answer {
    let mut told = [0; 3];
    // SAFETY: as above.
    let answer = unsafe { c::oul_spot(text.as_ptr(), text.len(), refusal, &mut told) };
    (answer, told)
}

pub fn csv_count(file: &[u8]) -> Answer {
    let mut told = [0; 3];
    // SAFETY: as above.
    let answer = unsafe { c::oul_csv_count(file.as_ptr(), file.len(), &mut told) };
    (answer, told)
}

pub fn csv_sheet(file: &[u8], which: usize, given: Given<'_>, out: &mut [u8]) -> Answer {
    write_of(c::oul_csv_sheet, file, which, given, out)
}

pub fn csv_next(file: &[u8], at: usize, given: Given<'_>, out: &mut [u8]) -> Answer {
    write_of(c::oul_csv_next, file, at, given, out)
}

/// A call that writes a sheet of a file, the one that a number tells.
fn write_of(call: c::Write, file: &[u8], n: usize, given: Given<'_>, out: &mut [u8]) -> Answer {
    let Given {
        mode,
        sent,
        control,
    } = given;
    let mut told = [0; 3];
    let (to, room) = (out.as_mut_ptr(), out.len());
    // SAFETY: as above.
    let answer = unsafe {
        call(
            file.as_ptr(),
            file.len(),
            n,
            mode.as_ptr(),
            mode.len(),
            sent.as_ptr(),
            sent.len(),
            control.as_ptr(),
            control.len(),
            to,
            room,
            &mut told,
        )
    };
    (answer, told)
}

pub fn csv_spot(file: &[u8]) -> Answer {
    let mut told = [0; 3];
    // SAFETY: as above.
    let answer = unsafe { c::oul_csv_spot(file.as_ptr(), file.len(), &mut told) };
    (answer, told)
}
