//! The listing of a file, from Rust: listing FILE. Exit status 0 where the file is accepted, 1 where it is refused, 2 where it cannot be read or written.

use std::io::Write;
use std::process::ExitCode;

#[link(name = "kodarfi", kind = "static")]
extern "C" {
    fn kodarfi_listing(file: *const u8, file_len: usize, listing: *mut u8, written: *mut usize, places: *mut u64) -> u32;
}

/// What is said of a file, 0 where it is accepted, and its listing.
fn listing_of(file: &[u8]) -> (u32, Vec<u8>) {
    let (mut listing, mut written, mut places) = (vec![0; 32768], 0, [0; 2]);
    // every pointer leads to as many bytes or numbers as include/kodarfi.h asks for
    let number = unsafe { kodarfi_listing(file.as_ptr(), file.len(), listing.as_mut_ptr(), &mut written, places.as_mut_ptr()) };
    listing.truncate(written);
    (number, listing)
}

fn main() -> ExitCode {
    let Some(Ok(file)) = std::env::args_os().nth(1).map(std::fs::read) else { return ExitCode::from(2) };
    let (number, listing) = listing_of(&file);
    match std::io::stdout().write_all(&listing) {
        Ok(()) => ExitCode::from((number != 0) as u8),
        Err(_) => ExitCode::from(2),
    }
}
