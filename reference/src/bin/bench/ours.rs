//! The proved calls, as `crates/exports` hands them out.

/// Bytes that hold every listing: as many as `salmurkki_listing_size` says.
pub const LISTING_BYTES: usize = 17_006;

#[link(name = "exports", kind = "static")]
#[allow(improper_ctypes)]
extern "C" {
    fn salmurkki_check(net: &[u8], estimate: &[u8], report: &mut [u8]) -> u32;
    fn salmurkki_read(net: &[u8], estimate: &[u8]) -> u32;
    fn salmurkki_listing_size() -> usize;
    fn salmurkki_list(input: &[u8], output: &mut [u8; LISTING_BYTES]) -> usize;
    fn salmurkki_start(net: &[u8], estimate: &[u8], count: usize) -> u32;
    fn salmurkki_bring(net: &[u8], estimate: &[u8], arrival: &[u8], count: usize) -> u32;
    fn salmurkki_withdraw(
        net: &[u8],
        estimate: &[u8],
        arrival: &[u8],
        choices: &[u8],
        count: usize,
    ) -> u32;
    fn salmurkki_steps(
        net: &[u8],
        estimate: &[u8],
        arrival: &[u8],
        choices: &[u8],
        count: usize,
    ) -> u32;
    fn salmurkki_guarded_steps(
        net: &[u8],
        estimate: &[u8],
        arrival: &[u8],
        choices: &[u8],
        count: usize,
    ) -> u32;
    fn salmurkki_door(
        net: &[u8],
        estimate: &[u8],
        arrival: &[u8],
        choices: &[u8],
        count: usize,
    ) -> u32;
    fn salmurkki_ready(
        net: &[u8],
        estimate: &[u8],
        arrival: &[u8],
        choices: &[u8],
        count: usize,
    ) -> u32;
}

// The functions are proved for every input, so that each call is safe.

use reference::cases::heavy::Heavy;

pub fn check(heavy: &Heavy, report: &mut [u8]) -> u32 {
    unsafe { salmurkki_check(&heavy.net, &heavy.estimate, report) }
}

pub fn read(heavy: &Heavy) -> u32 {
    unsafe { salmurkki_read(&heavy.net, &heavy.estimate) }
}

pub fn listing_size() -> usize {
    unsafe { salmurkki_listing_size() }
}

/// How many bytes of the output are written.
pub fn list(input: &[u8], output: &mut [u8; LISTING_BYTES]) -> usize {
    unsafe { salmurkki_list(input, output) }
}

pub fn start(heavy: &Heavy, count: usize) -> u32 {
    unsafe { salmurkki_start(&heavy.net, &heavy.estimate, count) }
}

pub fn bring(heavy: &Heavy, count: usize) -> u32 {
    unsafe { salmurkki_bring(&heavy.net, &heavy.estimate, &heavy.arrival, count) }
}

pub fn withdraw(heavy: &Heavy, count: usize) -> u32 {
    let Heavy { net, estimate, arrival, choices, .. } = heavy;
    unsafe { salmurkki_withdraw(net, estimate, arrival, choices, count) }
}

pub fn steps(heavy: &Heavy, count: usize) -> u32 {
    let Heavy { net, estimate, arrival, choices, .. } = heavy;
    unsafe { salmurkki_steps(net, estimate, arrival, choices, count) }
}

pub fn guarded_steps(heavy: &Heavy, count: usize) -> u32 {
    let Heavy { net, estimate, arrival, choices, .. } = heavy;
    unsafe { salmurkki_guarded_steps(net, estimate, arrival, choices, count) }
}

pub fn door(heavy: &Heavy, choice: [u8; 3], count: usize) -> u32 {
    let Heavy { net, estimate, arrival, .. } = heavy;
    unsafe { salmurkki_door(net, estimate, arrival, &choice, count) }
}

pub fn ready(heavy: &Heavy, count: usize) -> u32 {
    let Heavy { net, estimate, arrival, choices, .. } = heavy;
    unsafe { salmurkki_ready(net, estimate, arrival, choices, count) }
}
