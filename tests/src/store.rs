//! Records, blocks and the store of bursts.

use crate::answers::{Fraction, Taken, BLOCK_BYTES, HEADER_BYTES, METERS, MOST_BITS, PLACE_BYTES, RECORD_BITS, STORE_BYTES};
use crate::fractions::{packed, unpacked};
use crate::learning::learn;

/// A record, wherever it stands: its first byte, its meter, its bits.
#[derive(Clone, PartialEq, Eq, Debug)]
pub struct Record {
    pub start: usize,
    pub meter: usize,
    pub bits: Vec<bool>,
}

fn number(high: u8, low: u8) -> usize {
    256 * high as usize + low as usize
}

/// The bits of one place, or nothing where it breaks the rules: a count of 0 to 4,096, and "Bits at and past the count are zero."
pub fn place_bits(place: &[u8]) -> Option<Vec<bool>> {
    let count = number(place[0], place[1]);
    if count > MOST_BITS {
        return None;
    }
    let all = unpacked(&place[2..], MOST_BITS);
    if all[count..].iter().any(|&bit| bit) {
        return None;
    }
    Some(all[..count].to_vec())
}

/// The bursts of all 32 places, or nothing where the store is not one.
pub fn bursts(store: &[u8]) -> Option<Vec<Vec<bool>>> {
    if store.len() != STORE_BYTES {
        return None;
    }
    store.chunks(PLACE_BYTES).map(place_bits).collect()
}

/// The bytes of a place with these bits.
pub fn place_of(bits: &[bool]) -> Vec<u8> {
    let mut place = vec![(bits.len() / 256) as u8, (bits.len() % 256) as u8];
    place.extend(packed(bits));
    place.resize(PLACE_BYTES, 0);
    place
}

pub fn store_of(bursts: &[Vec<bool>]) -> Vec<u8> {
    bursts.iter().flat_map(|bits| place_of(bits)).collect()
}

/// The bytes of a record.
pub fn record_of(meter: usize, bits: &[bool]) -> Vec<u8> {
    let mut record = vec![0x5A, 0xC3, (meter / 256) as u8, (meter % 256) as u8, (bits.len() / 256) as u8, (bits.len() % 256) as u8];
    record.extend(packed(bits));
    record
}

/// "each 12 (short header), 13, 14, 15, 12 (bits past end), 16": the record that stands at the start of the rest, or the refusal.
fn record_at(block: &[u8], start: usize) -> Result<Record, u32> {
    let rest = &block[start..];
    if rest.len() < HEADER_BYTES {
        return Err(12);
    }
    if rest[..2] != [0x5A, 0xC3] {
        return Err(13);
    }
    let meter = number(rest[2], rest[3]);
    if !(1..=METERS).contains(&meter) {
        return Err(14);
    }
    let count = number(rest[4], rest[5]);
    if count == 0 || count > RECORD_BITS {
        return Err(15);
    }
    let bytes = count.div_ceil(8);
    let Some(payload) = rest[HEADER_BYTES..].get(..bytes) else {
        return Err(12);
    };
    let all = unpacked(payload, 8 * bytes);
    if all[count..].iter().any(|&bit| bit) {
        return Err(16);
    }
    Ok(Record { start, meter, bits: all[..count].to_vec() })
}

/// Every record of a block, or the first refusal with its place.
pub fn records(block: &[u8]) -> Result<Vec<Record>, Taken> {
    if block.len() > BLOCK_BYTES {
        return Err(Taken { refusal: 11, place: 0 });
    }
    let mut found = Vec::new();
    let mut at = 0;
    while at < block.len() {
        match record_at(block, at) {
            Ok(record) => {
                at += HEADER_BYTES + record.bits.len().div_ceil(8);
                found.push(record);
            }
            Err(refusal) => return Err(Taken { refusal, place: at as u32 }),
        }
    }
    Ok(found)
}

/// "Block: 10, 11, then records in order ..; only when all have passed, 17, at the first record that overfills." Changes nothing on a refusal.
pub fn take(store: &mut [u8], block: &[u8]) -> Taken {
    let Some(mut bursts) = bursts(store) else {
        return Taken { refusal: 10, place: 0 };
    };
    let records = match records(block) {
        Ok(records) => records,
        Err(refusal) => return refusal,
    };
    for record in records {
        let burst = &mut bursts[record.meter - 1];
        burst.extend(record.bits);
        if burst.len() > MOST_BITS {
            return Taken { refusal: 17, place: record.start as u32 };
        }
    }
    store.copy_from_slice(&store_of(&bursts));
    Taken { refusal: 0, place: 0 }
}

/// "By meter: 10, 14, 3."
pub fn learn_meter(store: &[u8], meter: u32) -> Fraction {
    let Some(bursts) = bursts(store) else {
        return Fraction::refused(10);
    };
    if meter < 1 || meter > METERS as u32 {
        return Fraction::refused(14);
    }
    let burst = &bursts[meter as usize - 1];
    learn(&packed(burst), burst.len() as u64)
}

#[cfg(test)]
mod tests {
    use super::*;

    fn taken(block: &[u8]) -> Taken {
        let mut store = vec![0; STORE_BYTES];
        let answer = take(&mut store, block);
        assert!(answer.refusal == 0 || store == vec![0; STORE_BYTES]);
        answer
    }

    #[test]
    fn bench_values() {
        let example = [0x5A, 0xC3, 0, 3, 0, 0x0D, 0x53, 0x04, 0x5A, 0xC3, 0, 7, 0, 3, 5];
        let mut store = vec![0; STORE_BYTES];
        assert_eq!(take(&mut store, &example), Taken { refusal: 0, place: 0 });
        assert_eq!(learn_meter(&store, 3), Fraction::of(-1, 37));
        assert_eq!(learn_meter(&store, 7), Fraction::of(-1, 3));
        assert_eq!(learn_meter(&store, 1), Fraction::of(0, 1));
        // "A record with one byte of its bits missing is 12; a five-byte block is 12, whatever it holds; 513 in the count is 15 even if
        // the block ends there."
        assert_eq!(taken(&example[..14]), Taken { refusal: 12, place: 8 });
        assert_eq!(taken(&[1, 2, 3, 4, 5]), Taken { refusal: 12, place: 0 });
        assert_eq!(taken(&[0x5A, 0xC3, 0, 1, 2, 1]), Taken { refusal: 15, place: 0 });
    }

    #[test]
    fn refusals_in_their_order() {
        let head =
            |mark: u8, meter: usize, count: usize| vec![0x5A, mark, (meter / 256) as u8, meter as u8, (count / 256) as u8, count as u8];
        assert_eq!(taken(&[]), Taken::default());
        assert_eq!(taken(&head(0xC4, 0, 0)).refusal, 13);
        assert_eq!(taken(&head(0xC3, 0, 0)).refusal, 14);
        assert_eq!(taken(&head(0xC3, 33, 513)).refusal, 14);
        assert_eq!(taken(&head(0xC3, 257, 1)).refusal, 14);
        assert_eq!(taken(&head(0xC3, 1, 0)).refusal, 15);
        assert_eq!(taken(&head(0xC3, 1, 9)).refusal, 12);
        assert_eq!(taken(&[head(0xC3, 1, 9), vec![0, 2]].concat()).refusal, 16);
        assert_eq!(taken(&[head(0xC3, 1, 9), vec![0, 1]].concat()).refusal, 0);
        assert_eq!(taken(&vec![0; BLOCK_BYTES + 1]), Taken { refusal: 11, place: 0 });
        assert_eq!(take(&mut vec![0; STORE_BYTES - 1], &vec![0; BLOCK_BYTES + 1]), Taken { refusal: 10, place: 0 });
        // 17 only when all have passed
        let full = record_of(2, &[true; 512]).repeat(8);
        let over = [full.clone(), record_of(1, &[true]), record_of(2, &[false]), record_of(2, &[false])].concat();
        assert_eq!(taken(&full).refusal, 0);
        assert_eq!(taken(&over), Taken { refusal: 17, place: 8 * 70 + 7 });
        assert_eq!(taken(&[over.clone(), vec![0; 6]].concat()), Taken { refusal: 13, place: over.len() as u32 });
        // 10
        let mut store = vec![0; STORE_BYTES];
        store[PLACE_BYTES] = 0x10;
        assert_eq!(learn_meter(&store, 99), Fraction::refused(14));
        store[PLACE_BYTES + 1] = 1;
        assert_eq!(learn_meter(&store, 99), Fraction::refused(10));
        assert_eq!(take(&mut store, &[]).refusal, 10);
    }
}
