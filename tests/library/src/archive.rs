//! The calls of the static library. This is the one place with code that the
//! compiler cannot check: the declarations have to say what
//! `crates/culvertjig/src/lib.rt` says, and `tests/examples.sh` compares them.

mod outside {
    extern "C" {
        /// A slice passes as a pointer and a length.
        pub fn culvertjig_block(
            block: *const u8,
            block_length: usize,
            excluded: bool,
            expected: i64,
            hours: u64,
            row: *mut i64,
            row_length: usize,
            place: *mut u64,
            grains: *mut i64,
            cents: *mut i64,
        ) -> u64;

        /// The same for a block of an internal controllable line.
        pub fn culvertjig_line_block(
            block: *const u8,
            block_length: usize,
            excluded: bool,
            expected: i64,
            hours: u64,
            row: *mut i64,
            row_length: usize,
            place: *mut u64,
            grains: *mut i64,
            cents: *mut i64,
        ) -> u64;
    }

    /// Either of them.
    pub type BlockCall = unsafe extern "C" fn(
        *const u8,
        usize,
        bool,
        i64,
        u64,
        *mut i64,
        usize,
        *mut u64,
        *mut i64,
        *mut i64,
    ) -> u64;
}

/// The numbers that a caller lends.
#[derive(Clone, Copy, Debug, PartialEq, Eq)]
pub struct Numbers {
    /// Where a check refuses.
    pub place: u64,
    /// The sum of a paid block.
    pub grains: i64,
    /// Its cents.
    pub cents: i64,
}

/// Either of the two calls below.
pub type BlockCall = fn(&[u8], bool, i64, u64, &mut [i64], &mut Numbers) -> u64;

/// The block call: 0 where the block is paid, else the number of the check
/// that refuses. `expected` below 0 stands for any hour, and `hours` is the
/// count of the day's hours otherwise.
pub fn block(
    block: &[u8],
    excluded: bool,
    expected: i64,
    hours: u64,
    row: &mut [i64],
    numbers: &mut Numbers,
) -> u64 {
    let call = outside::culvertjig_block;
    lend(call, block, excluded, expected, hours, row, numbers)
}

/// The same for a block of an internal controllable line.
pub fn line_block(
    block: &[u8],
    excluded: bool,
    expected: i64,
    hours: u64,
    row: &mut [i64],
    numbers: &mut Numbers,
) -> u64 {
    let call = outside::culvertjig_line_block;
    lend(call, block, excluded, expected, hours, row, numbers)
}

fn lend(
    call: outside::BlockCall,
    block: &[u8],
    excluded: bool,
    expected: i64,
    hours: u64,
    row: &mut [i64],
    numbers: &mut Numbers,
) -> u64 {
    // The call asks nothing of its caller but that what is lent is there.
    unsafe {
        call(
            block.as_ptr(),
            block.len(),
            excluded,
            expected,
            hours,
            row.as_mut_ptr(),
            row.len(),
            &mut numbers.place,
            &mut numbers.grains,
            &mut numbers.cents,
        )
    }
}
