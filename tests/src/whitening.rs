//! "each byte is combined by exclusive or with the next eight emitted bits, first bit lowest."

use crate::answers::{Register, WHITEN_BYTES};
use crate::registers::{is_valid, stepped};

/// "Whiten: 5, 9." Changes nothing on a refusal.
pub fn whiten(register: &mut Register, bytes: &mut [u8]) -> u32 {
    if !is_valid(*register) {
        return 5;
    }
    if bytes.len() > WHITEN_BYTES {
        return 9;
    }
    for byte in bytes {
        for i in 0..8 {
            let (bit, after) = stepped(*register);
            *byte ^= (bit as u8) << i;
            *register = after;
        }
    }
    0
}

#[cfg(test)]
mod tests {
    use super::*;
    use crate::fractions::bits_of;

    #[test]
    fn whitening_is_the_expansion_and_its_own_inverse() {
        let start = Register { q: 37, cells: 19, memory: 0 };
        let mut register = start;
        let mut bytes = vec![0u8; 20];
        assert_eq!(whiten(&mut register, &mut bytes), 0);
        for (i, bit) in bits_of(-1, 37, 160).into_iter().enumerate() {
            assert_eq!(bytes[i / 8] >> (i % 8) & 1 == 1, bit);
        }
        let mut again = start;
        assert_eq!(whiten(&mut again, &mut bytes), 0);
        assert_eq!(again, register);
        assert_eq!(bytes, vec![0u8; 20]);
    }

    #[test]
    fn refusals_change_nothing() {
        let mut register = Register { q: 37, cells: 19, memory: 0 };
        let mut bytes = vec![3u8; 513];
        assert_eq!(whiten(&mut register, &mut bytes), 9);
        assert_eq!((register.cells, &bytes), (19, &vec![3u8; 513]));
        register.cells = 32;
        assert_eq!(whiten(&mut register, &mut bytes), 5);
        assert_eq!((register.cells, &bytes), (32, &vec![3u8; 513]));
        register.cells = 19;
        assert_eq!(whiten(&mut register, &mut []), 0);
        assert_eq!(register.cells, 19);
    }
}
