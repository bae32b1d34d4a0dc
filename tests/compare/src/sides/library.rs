//! The library's side: its functions for C, wrapped in safe ones.

use crate::calls::{Call, Lent, Side};

mod c {
    extern "C" {
        pub fn ttg_check(file: *const u8, file_len: usize) -> u64;
        pub fn ttg_build(
            file: *const u8,
            file_len: usize,
            notices: *mut u8,
            notices_len: usize,
            graph: *mut u8,
            graph_len: usize,
        ) -> u64;
        pub fn ttg_post(
            file: *const u8,
            file_len: usize,
            notices: *mut u8,
            notices_len: usize,
            graph: *mut u8,
            graph_len: usize,
            number: u16,
            ride: u16,
            delay: u16,
        ) -> u64;
        pub fn ttg_withdraw(
            file: *const u8,
            file_len: usize,
            notices: *mut u8,
            notices_len: usize,
            graph: *mut u8,
            graph_len: usize,
            number: u16,
        ) -> u64;
        pub fn ttg_enquire(
            file: *const u8,
            file_len: usize,
            notices: *const u8,
            notices_len: usize,
            graph: *const u8,
            graph_len: usize,
            work: *mut u8,
            work_len: usize,
            journey: *mut u8,
            journey_len: usize,
            from: u16,
            to: u16,
            time: u16,
        ) -> u64;
        pub fn ttg_margin(
            file: *const u8,
            file_len: usize,
            notices: *const u8,
            notices_len: usize,
            graph: *const u8,
            graph_len: usize,
            ride: u16,
            next: u16,
        ) -> i64;
        pub fn ttg_why(
            file: *const u8,
            file_len: usize,
            notices: *const u8,
            notices_len: usize,
            ride: u16,
        ) -> u64;
        pub fn ttg_import(
            text: *const u8,
            text_len: usize,
            change: *const u8,
            change_len: usize,
            file: *mut u8,
            file_len: usize,
        ) -> u64;
        pub fn ttg_export(file: *const u8, file_len: usize, text: *mut u8, text_len: usize) -> u64;
    }
}

// SAFETY, for all nine: pointer and length come from one slice each, the slices live through
// the call, and mutable ones overlap nothing.

fn check(file: &[u8]) -> u64 {
    unsafe { c::ttg_check(file.as_ptr(), file.len()) }
}

fn build(file: &[u8], notices: &mut [u8], graph: &mut [u8]) -> u64 {
    unsafe {
        c::ttg_build(
            file.as_ptr(),
            file.len(),
            notices.as_mut_ptr(),
            notices.len(),
            graph.as_mut_ptr(),
            graph.len(),
        )
    }
}

fn post(
    file: &[u8],
    notices: &mut [u8],
    graph: &mut [u8],
    number: u16,
    ride: u16,
    delay: u16,
) -> u64 {
    unsafe {
        c::ttg_post(
            file.as_ptr(),
            file.len(),
            notices.as_mut_ptr(),
            notices.len(),
            graph.as_mut_ptr(),
            graph.len(),
            number,
            ride,
            delay,
        )
    }
}

fn withdraw(file: &[u8], notices: &mut [u8], graph: &mut [u8], number: u16) -> u64 {
    unsafe {
        c::ttg_withdraw(
            file.as_ptr(),
            file.len(),
            notices.as_mut_ptr(),
            notices.len(),
            graph.as_mut_ptr(),
            graph.len(),
            number,
        )
    }
}

#[allow(clippy::too_many_arguments)]
fn enquire(
    file: &[u8],
    notices: &[u8],
    graph: &[u8],
    work: &mut [u8],
    journey: &mut [u8],
    from: u16,
    to: u16,
    time: u16,
) -> u64 {
    unsafe {
        c::ttg_enquire(
            file.as_ptr(),
            file.len(),
            notices.as_ptr(),
            notices.len(),
            graph.as_ptr(),
            graph.len(),
            work.as_mut_ptr(),
            work.len(),
            journey.as_mut_ptr(),
            journey.len(),
            from,
            to,
            time,
        )
    }
}

fn margin(file: &[u8], notices: &[u8], graph: &[u8], ride: u16, next: u16) -> i64 {
    unsafe {
        c::ttg_margin(
            file.as_ptr(),
            file.len(),
            notices.as_ptr(),
            notices.len(),
            graph.as_ptr(),
            graph.len(),
            ride,
            next,
        )
    }
}

fn why(file: &[u8], notices: &[u8], ride: u16) -> u64 {
    unsafe {
        c::ttg_why(
            file.as_ptr(),
            file.len(),
            notices.as_ptr(),
            notices.len(),
            ride,
        )
    }
}

fn import(text: &[u8], change: &[u8], file: &mut [u8]) -> i64 {
    let answer = unsafe {
        c::ttg_import(
            text.as_ptr(),
            text.len(),
            change.as_ptr(),
            change.len(),
            file.as_mut_ptr(),
            file.len(),
        )
    };
    answer as i64
}

fn export(file: &[u8], text: &mut [u8]) -> i64 {
    let answer = unsafe { c::ttg_export(file.as_ptr(), file.len(), text.as_mut_ptr(), text.len()) };
    answer as i64
}

fn call(file: &[u8], [n, g, w, j]: Lent, call: Call) -> i64 {
    match call {
        Call::Check => check(file) as i64,
        Call::Build => build(file, n, g) as i64,
        Call::Post(number, ride, delay) => post(file, n, g, number, ride, delay) as i64,
        Call::Withdraw(number) => withdraw(file, n, g, number) as i64,
        Call::Enquire(from, to, time) => enquire(file, n, g, w, j, from, to, time) as i64,
        Call::Margin(ride, next) => margin(file, n, g, ride, next),
        Call::Why(ride) => why(file, n, ride) as i64,
    }
}

pub static LIBRARY: Side = Side {
    name: "library",
    call,
    import,
    export,
};
