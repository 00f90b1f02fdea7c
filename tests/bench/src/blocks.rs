//! The block call: through the static library, and of the second program.

use std::hint::black_box;
use std::path::Path;
use std::{fs, io};

use library::archive::{self, Numbers};
use second::day::HOURS;
use second::hour::judge_block;
use second::record::MOST_INTERVALS;
use second::{Answer, Ask, Run, Way};

use crate::programs::run;
use crate::sheets::Sheets;
use crate::timing::{alternate, Growth, COUNTS};

fn proved(block: &[u8], row: &mut [i64]) -> Option<i64> {
    let mut numbers = Numbers {
        place: 0,
        grains: 0,
        cents: 0,
    };
    let number = archive::block(block, false, -1, HOURS as u64, row, &mut numbers);
    Some(numbers.cents).filter(|_| number == 0)
}

fn second(block: &[u8], row: &mut [i64]) -> Option<i64> {
    let run = &mut Run::quiet(Way::Steps);
    match judge_block(block, Ask::default(), row, run) {
        Answer::Paid(paid) => i64::try_from(paid.cents).ok(),
        Answer::Refused(_) => None,
    }
}

type Call = fn(&[u8], &mut [i64]) -> Option<i64>;

/// The cents of the blocks of so many sheets.
fn cents(sheets: &Sheets, count: usize, call: Call) -> Option<i64> {
    let mut row = [0; MOST_INTERVALS];
    let blocks = sheets.blocks_of(count);
    blocks.map(|block| call(black_box(block), &mut row)).sum()
}

/// Measures the calls over the blocks of 1 to 1,000 sheets, and `wc -l` over a
/// file of the same bytes.
pub fn measure(sheets: &Sheets, folder: &Path) -> io::Result<Vec<Growth>> {
    let all = sheets.days.len();
    if cents(sheets, all, proved) != cents(sheets, all, second) {
        return Err(io::Error::other("the calls do not pay the same"));
    }
    let file = folder.join("blocks");
    let mut growth = Vec::new();
    for count in COUNTS {
        fs::write(&file, sheets.blocks_of(count).collect::<Vec<_>>().concat())?;
        let cents = |call| _ = black_box(cents(sheets, count, call));
        growth.push(alternate(
            count,
            [&mut || cents(proved), &mut || cents(second), &mut || {
                _ = run(Path::new("wc"), &["-l"], &file)
            }],
        ));
    }
    fs::remove_file(&file)?;
    Ok(growth)
}
