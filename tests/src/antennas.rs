//! The reader over the blocks of two antennas.

use crate::answers::{Read, HEADER_BYTES, METERS};
use crate::store::records;

/// "The first antenna's block is used if all of it is well formed, otherwise the second's." Refusals: "11 to 16 of the first block with its
/// place if both blocks are malformed, then 14 for the asked meter, then new 18 if the block used has no such record or the ordinal is 0".
pub fn read(first: &[u8], second: &[u8], meter: u32, ordinal: u32) -> Read {
    let refused = |refusal: u32, place: u32| Read { refusal, place, ..Read::default() };
    let (antenna, used) = match (records(first), records(second)) {
        (Ok(used), _) => (1, used),
        (Err(_), Ok(used)) => (2, used),
        (Err(first), Err(_)) => return refused(first.refusal, first.place),
    };
    if meter < 1 || meter > METERS as u32 {
        return refused(14, 0);
    }
    // "an ordinal from 1"
    let mut left = ordinal;
    for record in used.iter().filter(|record| record.meter == meter as usize) {
        if left == 1 {
            let count = record.bits.len() as u32;
            let start = (record.start + HEADER_BYTES) as u32;
            return Read { refusal: 0, place: 0, count, antenna, start, length: count.div_ceil(8) };
        }
        left = left.saturating_sub(1);
    }
    refused(18, 0)
}

/// What the program `read` prints: antenna, bit count and payload in hexadecimal; or the refusal, with a place where it is a block's.
pub fn line(first: &[u8], second: &[u8], meter: u32, ordinal: u32) -> String {
    let answer = read(first, second, meter, ordinal);
    match answer.refusal {
        0 => {
            let block = if answer.antenna == 1 { first } else { second };
            let payload = &block[answer.start as usize..(answer.start + answer.length) as usize];
            let digits: String = payload.iter().map(|byte| format!("{byte:02X}")).collect();
            format!("{} {} {digits}\n", answer.antenna, answer.count)
        }
        14 | 18 if records(first).is_ok() || records(second).is_ok() => format!("refused {}\n", answer.refusal),
        refusal => format!("refused {refusal} at {}\n", answer.place),
    }
}

#[cfg(test)]
mod tests {
    use super::*;
    use crate::answers::BLOCK_BYTES;
    use crate::fractions::bits_of;
    use crate::store::record_of;

    fn refused(refusal: u32, place: u32) -> Read {
        Read { refusal, place, ..Read::default() }
    }

    #[test]
    fn example() {
        let good = [0x5A, 0xC3, 0, 3, 0, 0x0D, 0x53, 0x04, 0x5A, 0xC3, 0, 7, 0, 3, 5, 0x5A, 0xC3, 0, 3, 0, 8, 0xA5];
        let other = record_of(3, &bits_of(-1, 37, 20));
        let torn = &good[..14];
        let found = |count, antenna, start, length| Read { refusal: 0, place: 0, count, antenna, start, length };
        assert_eq!(read(&good, &other, 3, 1), found(13, 1, 6, 2));
        assert_eq!(read(&good, &other, 7, 1), found(3, 1, 14, 1));
        assert_eq!(read(&good, torn, 3, 2), found(8, 1, 21, 1));
        assert_eq!(read(torn, &good, 3, 2), found(8, 2, 21, 1));
        assert_eq!(read(torn, &other, 3, 1), found(20, 2, 6, 3));
        assert_eq!(read(&vec![0; BLOCK_BYTES + 1], &good, 3, 1), found(13, 2, 6, 2));
    }

    #[test]
    fn refusals_in_their_order() {
        let good = record_of(3, &[true; 9]);
        let torn = [good.clone(), vec![0x5A]].concat();
        let mark = [good.clone(), good.clone(), vec![0; 6]].concat();
        assert_eq!(read(&torn, &mark, 0, 0), refused(12, 8));
        assert_eq!(read(&mark, &torn, 0, 0), refused(13, 16));
        assert_eq!(read(&vec![0; BLOCK_BYTES + 1], &torn, 3, 1), refused(11, 0));
        assert_eq!(read(&good, &torn, 0, 0), refused(14, 0));
        assert_eq!(read(&torn, &good, 33, 1), refused(14, 0));
        assert_eq!(read(&good, &good, 3, 0), refused(18, 0));
        assert_eq!(read(&good, &[good.clone(), good.clone()].concat(), 3, 2), refused(18, 0));
        assert_eq!(read(&good, &good, 4, 1), refused(18, 0));
        // an empty block is well formed
        assert_eq!(read(&[], &good, 3, 1), refused(18, 0));
        assert_eq!(read(&torn, &[], 3, 1), refused(18, 0));
    }

    #[test]
    fn lines() {
        let good = [record_of(3, &[true; 9]), record_of(3, &[true; 4])].concat();
        let meter_33 = [good.clone(), record_of(33, &[true])].concat();
        let good = &good[..];
        assert_eq!(line(good, &meter_33, 3, 1), "1 9 FF01\n");
        assert_eq!(line(&meter_33, good, 3, 2), "2 4 0F\n");
        assert_eq!(line(good, good, 3, 3), "refused 18\n");
        // the 14 of the question has no place, that of a block has one
        assert_eq!(line(good, good, 33, 1), "refused 14\n");
        assert_eq!(line(&meter_33, &meter_33, 3, 1), "refused 14 at 15\n");
    }
}
