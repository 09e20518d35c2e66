//! The proved library of the Bravolith track conditions box.
//!
//! Each function is proved: for every input it puts exactly the bytes that its
//! definition gives, and nothing else. `include/bravolith.h` says the same for C,
//! and `docs/FORMATS.md` what inputs and outputs are, byte by byte.
//!
//! All but [`list_length`] and [`word`] take an input and a lent buffer; all of
//! these but [`write()`] put the output's first bytes into the buffer, as far as
//! the buffer reaches, and leave the bytes past them alone. The answer is how many
//! bytes were put: the length of the whole output or of the buffer, whichever is
//! less. So an answer that is less than the buffer's length says that all of it is
//! there; of a listing, [`list_length`] tells a buffer that fits exactly from one
//! that is too short.
//!
//! Each call takes a whole input and begins with a fresh desk, listener or
//! record. Nothing is kept between two calls, and none fails.
//!
//! The library is for x86-64 Linux. `build.rs` links it, and says what to run
//! where it is not there.
//!
//! ```
//! // One list with one order, after its length: number 1, type 3, from 1,200 m
//! // to 1,500 m.
//! let lists = [0, 10, 0, 0, 0, 1, 3, 0, 0x04, 0xB0, 0x05, 0xDC];
//! let mut tables = [0; 130];
//! let put = bravolith::run(&lists, &mut tables);
//! assert_eq!(put, 130);
//!
//! let mut listing = vec![0; bravolith::list_length(&tables)];
//! let put = bravolith::list(&tables, &mut listing);
//! assert_eq!(put, listing.len());
//! assert_eq!(
//!     listing,
//!     b"conditions 1\ntable 1 1 0\n0 1 3 1200 1500 new\nend 1\n"
//! );
//! ```

#![no_std]
#![deny(missing_docs)]
#![deny(unsafe_op_in_unsafe_fn)]
#![warn(rust_2018_idioms, unreachable_pub)]

unsafe extern "C" {
    fn bravolith_list(
        recording: *const u8,
        recording_length: usize,
        out: *mut u8,
        out_length: usize,
    ) -> usize;
    fn bravolith_list_length(recording: *const u8, recording_length: usize) -> usize;
    fn bravolith_hear(
        telegrams: *const u8,
        telegrams_length: usize,
        out: *mut u8,
        out_length: usize,
    ) -> usize;
    fn bravolith_run(
        lists: *const u8,
        lists_length: usize,
        out: *mut u8,
        out_length: usize,
    ) -> usize;
    fn bravolith_run_lines(
        lists: *const u8,
        lists_length: usize,
        out: *mut u8,
        out_length: usize,
    ) -> usize;
    fn bravolith_write(
        lists: *const u8,
        lists_length: usize,
        packet: u8,
        out: *mut u8,
        out_length: usize,
    ) -> u8;
    fn bravolith_signals(
        calls: *const u8,
        calls_length: usize,
        out: *mut u8,
        out_length: usize,
    ) -> usize;
    fn bravolith_word(word: *const u8, word_length: usize) -> u8;
}

/// The most bytes that the lines of so many telegrams have, which one listener
/// hears from a fresh start: 639 for each five of them, since a table needs five,
/// and 11 for each one over. This is proved.
///
/// ```
/// assert_eq!(bravolith::lines_room(12), 2 * 639 + 2 * 11);
/// ```
pub const fn lines_room(telegrams: usize) -> usize {
    telegrams / 5 * 639 + telegrams % 5 * 11
}

/// The most bytes that the listing of a recording of this length has: those of
/// [`lines_room`], and 49 more. This is proved.
///
/// ```
/// let listing = [0u8; bravolith::list_room(130)];
/// assert_eq!(listing.len(), 639 + 49);
/// ```
pub const fn list_room(recording_length: usize) -> usize {
    lines_room(recording_length / 26) + 49
}

/// The listing of a recording of telegrams of 26 bytes, one after another, as the
/// program `list_conditions` writes it. [`list_room`] bytes are always enough.
pub fn list(recording: &[u8], out: &mut [u8]) -> usize {
    // SAFETY: both slices are valid for their lengths and do not overlap, and
    // the function reads the one and writes the other within these lengths.
    unsafe {
        bravolith_list(
            recording.as_ptr(),
            recording.len(),
            out.as_mut_ptr(),
            out.len(),
        )
    }
}

/// How many bytes the listing of a recording has, so that a buffer that it fits
/// exactly is told from one that is too short.
///
/// It takes as long as [`list`]. Of a recording of more than 2^61 bytes the
/// answer may be `usize::MAX` for a longer listing.
///
/// ```
/// let mut out = [0; 19];
/// let put = bravolith::list(&[], &mut out);
/// assert_eq!(&out, b"conditions 1\nend 0\n");
/// // The buffer is full, and nothing is missing.
/// assert_eq!(put, bravolith::list_length(&[]));
/// ```
pub fn list_length(recording: &[u8]) -> usize {
    // SAFETY: the slice is valid for its length, and the function only reads it.
    unsafe { bravolith_list_length(recording.as_ptr(), recording.len()) }
}

/// The lines that a listing has for telegrams of any length, each after its
/// length in two bytes, high first, which one fresh listener hears; and
/// `short telegram` where the input ends inside one. [`lines_room`] bytes and 15
/// more are always enough.
pub fn hear(telegrams: &[u8], out: &mut [u8]) -> usize {
    // SAFETY: as for `list`.
    unsafe {
        bravolith_hear(
            telegrams.as_ptr(),
            telegrams.len(),
            out.as_mut_ptr(),
            out.len(),
        )
    }
}

/// The tables of a fresh desk that is handed lists, each after its length in two
/// bytes, high first: for each list that is accepted the table as five telegrams,
/// packets 3 to 7. 130 bytes for each list are always enough.
pub fn run(lists: &[u8], out: &mut [u8]) -> usize {
    // SAFETY: as for `list`.
    unsafe { bravolith_run(lists.as_ptr(), lists.len(), out.as_mut_ptr(), out.len()) }
}

/// The lines on the same lists: `refused N at list I` for each that is refused,
/// and `short list` where the input ends inside one. 64 bytes for each list, and
/// 11 more, are always enough.
pub fn run_lines(lists: &[u8], out: &mut [u8]) -> usize {
    // SAFETY: as for `list`.
    unsafe { bravolith_run_lines(lists.as_ptr(), lists.len(), out.as_mut_ptr(), out.len()) }
}

/// One packet of the table of the desk that these lists leave, written into a
/// buffer of any length.
///
/// The answer is 0 where the packet is written, and then all 26 bytes are; 9
/// where the packet is not 3 to 7; 10 where the buffer is not 26 bytes. A refused
/// call changes no byte.
pub fn write(lists: &[u8], packet: u8, out: &mut [u8]) -> u8 {
    // SAFETY: as for `list`.
    unsafe {
        bravolith_write(
            lists.as_ptr(),
            lists.len(),
            packet,
            out.as_mut_ptr(),
            out.len(),
        )
    }
}

/// The lines of calls with train telegrams, each a length in two bytes, high
/// first, and so many bytes; the length FFFFh, with nothing after it, is a call
/// with no telegram. One line a call, and `short call` where the input ends
/// inside one. 256 bytes for each call, and 11 more, are always enough.
pub fn signals(calls: &[u8], out: &mut [u8]) -> usize {
    // SAFETY: as for `list`.
    unsafe { bravolith_signals(calls.as_ptr(), calls.len(), out.as_mut_ptr(), out.len()) }
}

/// What [`word`] answers to a text that is no fixed word of a listing.
pub const OTHER: u8 = 0;
/// What [`word`] answers to `conditions 1` and a line feed.
pub const HEADER: u8 = 1;
/// What [`word`] answers to `new`.
pub const NEW: u8 = 2;
/// What [`word`] answers to `carried`.
pub const CARRIED: u8 = 3;
/// What [`word`] answers to `refused` and a blank.
pub const REFUSED: u8 = 4;

/// Which of the fixed words of a listing a text is, byte by byte: [`HEADER`],
/// [`NEW`], [`CARRIED`], [`REFUSED`] or [`OTHER`].
pub fn word(text: &[u8]) -> u8 {
    // SAFETY: as for `list_length`.
    unsafe { bravolith_word(text.as_ptr(), text.len()) }
}
