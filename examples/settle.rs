//! Settles samples/hour/sample.txt by the proved library. README says how it is built.
extern "C" {
    fn culvertjig_block(
        block: *const u8, block_length: usize, excluded: bool, expected: i64, hours: u64, row: *mut i64, row_length: usize,
        place: &mut u64, grains: &mut i64, cents: &mut i64,
    ) -> u64;
}

fn main() -> std::io::Result<()> {
    let text = std::fs::read("samples/hour/sample.txt")?;
    let (mut row, mut place, mut grains, mut cents) = ([0i64; 30], 0, 0, 0);
    let refused = unsafe {
        culvertjig_block(text.as_ptr(), text.len(), false, -1, 24, row.as_mut_ptr(), row.len(), &mut place, &mut grains, &mut cents)
    };
    match refused {
        0 => println!("grains={grains} pay={cents}, interval 1: {}", row[0]),
        _ => println!("refused={refused} at={place}"),
    }
    Ok(())
}
