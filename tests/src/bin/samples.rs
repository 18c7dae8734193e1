//! Makes the blocks of samples/ and what the programs must print: the listing of each block but those of the two antennas, and the
//! answers to a few questions about those. `samples FOLDER` writes them there. The blocks follow from this file alone, what is printed
//! from the reference, so that anyone can make them again.

use reference::antennas::line;
use reference::fractions::{bits_of, unpacked};
use reference::listing::listing;
use reference::store::record_of;
use std::path::Path;

/// The bits of p/q.
struct Burst {
    p: i128,
    q: i128,
    bits: usize,
}

const fn burst(p: i128, q: i128, bits: usize) -> Burst {
    Burst { p, q, bits }
}

/// Meter 1's burst first. Short and long ones; with and without lead-in; whole numbers; the limits; periods past the listing's allowance.
const BURSTS: [Burst; 32] = [
    burst(-1, 37, 13),
    burst(0, 1, 1),
    burst(1, 1, 2),
    burst(-1, 1, 40),
    burst(2, 1, 70),
    burst(-1, 3, 61),
    burst(-5, 15, 128),
    burst(7, 5, 100),
    burst(-13, 11, 512),
    burst(1_000_000, 3, 513),
    burst(-1, 1021, 64),
    burst(511, 1023, 200),
    burst(-77, 509, 1000),
    burst(-1, 65_537, 90),
    burst(-1, 65_539, 91),
    burst(-2, 131_101, 92),
    burst(12_345, 65_521, 4096),
    burst(-1, 1_073_741_823, 62),
    burst(-1_073_741_822, 1_073_741_823, 4096),
    burst(1_073_741_823, 1, 300),
    burst(-1_073_741_823, 1, 61),
    burst(1_073_741_821, 1_073_741_819, 62),
    burst(-1_073_741_789, 1_073_741_783, 777),
    burst(536_870_912, 1, 30),
    // past the limits: a long burst has no pair, a short one may have another
    burst(1_073_741_824, 1, 31),
    burst(1_073_741_825, 1_073_741_827, 50),
    burst(1_073_741_825, 1_073_741_827, 64),
    burst(123_456_789_123, 987_654_321, 80),
    burst(-3, 7, 9),
    burst(5, 9, 8),
    burst(-100, 101, 2048),
    burst(355, 113, 33),
];

/// All 32 meters, highest first and in turn, each burst cut into records of uneven lengths.
fn all_meters() -> Vec<u8> {
    let bursts: Vec<Vec<bool>> = BURSTS.iter().map(|burst| bits_of(burst.p, burst.q, burst.bits)).collect();
    let mut taken = [0; 32];
    let mut block = Vec::new();
    let mut round = 0;
    while taken.iter().zip(&bursts).any(|(&from, bits)| from < bits.len()) {
        for i in (0..32).rev() {
            let left = &bursts[i][taken[i]..];
            // at most nine records to a meter: the longest burst has eight full ones
            let n = if left.len() > 512 { 512 } else { left.len().div_ceil(2).max((13 * i + round) % 97 + 1) }.min(left.len());
            if n > 0 {
                block.extend(record_of(i + 1, &left[..n]));
                taken[i] += n;
            }
        }
        round += 1;
    }
    assert!(block.len() <= 16_384);
    block
}

/// Meter 3 twice and meter 7. The first antenna lost the end of meter 3's second record, the second heard meter 32 as well.
fn antennas() -> [Vec<u8>; 2] {
    let both =
        [record_of(3, &bits_of(-1, 37, 13)), record_of(7, &bits_of(-1, 3, 3)), record_of(3, &unpacked(&[0x0B, 0xA5, 0xFF], 24))].concat();
    let first = both[..both.len() - 1].to_vec();
    let second = [both, record_of(32, &[true])].concat();
    [first, second]
}

/// A meter and an ordinal: a record of each of two meters, and one more than there is.
const QUESTIONS: [(u32, u32); 3] = [(3, 2), (3, 3), (32, 1)];

fn main() -> std::io::Result<()> {
    let folder = std::env::args().nth(1).expect("usage: samples FOLDER");
    let write = |name: &str, bytes: &[u8]| std::fs::write(Path::new(&folder).join(name), bytes);
    let example = vec![0x5A, 0xC3, 0, 3, 0, 0x0D, 0x53, 0x04, 0x5A, 0xC3, 0, 7, 0, 3, 5];
    // the receiver was cut off in the second record's bits
    let refused = [record_of(3, &bits_of(-1, 37, 13)), record_of(7, &bits_of(-1, 3, 20))[..8].to_vec()].concat();
    for (name, block) in [("example", example), ("refused", refused), ("all-meters", all_meters()), ("empty", vec![])] {
        write(&format!("{name}.block"), &block)?;
        write(&format!("{name}.expected"), listing(&block).as_bytes())?;
    }
    let [first, second] = antennas();
    write("antenna-1.block", &first)?;
    write("antenna-2.block", &second)?;
    for (meter, ordinal) in QUESTIONS {
        write(&format!("antenna-{meter}-{ordinal}.expected"), line(&first, &second, meter, ordinal).as_bytes())?;
    }
    Ok(())
}
