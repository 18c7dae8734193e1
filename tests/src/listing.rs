//! What the listing program prints for a block.

use crate::answers::STORE_BYTES;
use crate::registers::{length, load};
use crate::store::{bursts, learn_meter, take};
use crate::walking::walk;

/// "The walk's allowance is 65,536; past it the last two are "-"."
const ALLOWANCE: u32 = 65_536;

fn line(store: &[u8], meter: usize, count: usize) -> String {
    let pair = learn_meter(store, meter as u32);
    if pair.refusal == 3 {
        return format!("{meter} {count} none\n");
    }
    let loaded = load(pair.p, pair.q);
    assert!(loaded.refusal == 0, "a learned pair loads");
    let walked = walk(loaded.state, ALLOWANCE);
    let last = if walked.refusal == 0 { format!("{} {}", walked.lead, walked.period) } else { "- -".to_string() };
    format!("{meter} {count} {} {} {} {} {last}\n", pair.p, pair.q, length(pair.q), loaded.state.memory)
}

/// "It reads a block on standard input into a fresh store and prints, by rising meter number, each meter with bits."
pub fn listing(block: &[u8]) -> String {
    let mut store = vec![0; STORE_BYTES];
    let taken = take(&mut store, block);
    if taken.refusal != 0 {
        return format!("refused {} at {}\n", taken.refusal, taken.place);
    }
    let mut text = "meter bits p q cells memory lead period\n".to_string();
    for (i, burst) in bursts(&store).expect("a store that was taken into is one").iter().enumerate() {
        if !burst.is_empty() {
            text += &line(&store, i + 1, burst.len());
        }
    }
    text
}

#[cfg(test)]
mod tests {
    use super::*;

    #[test]
    fn the_document_s_example() {
        let example = [0x5A, 0xC3, 0, 3, 0, 0x0D, 0x53, 0x04, 0x5A, 0xC3, 0, 7, 0, 3, 5];
        assert_eq!(listing(&example), "meter bits p q cells memory lead period\n3 13 -1 37 5 0 0 36\n7 3 -1 3 2 0 0 2\n");
        assert_eq!(listing(&[]), "meter bits p q cells memory lead period\n");
        assert_eq!(listing(&example[..14]), "refused 12 at 8\n");
        assert_eq!(listing(&vec![0; 16385]), "refused 11 at 0\n");
    }
}
