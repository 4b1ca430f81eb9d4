//! Args.Mob.Session (RFC 9433, 6.1; docs/RULES.md, Args): QFI 6, R 1, U 1, TEID 32.

/// Width of the field.
pub const BITS: u32 = 40;
const MASK: u128 = (1 << BITS) - 1;

/// The session's values. U is sent 0 and ignored on receipt.
#[derive(Clone, Copy, Debug, PartialEq, Eq)]
pub struct ArgsMobSession {
    pub qfi: u8,
    pub reflective: bool,
    pub teid: u32,
}

impl ArgsMobSession {
    pub fn to_bits(self) -> u64 {
        u64::from(self.qfi & 0x3f) << 34 | u64::from(self.reflective) << 33 | u64::from(self.teid)
    }

    pub fn from_bits(bits: u64) -> Self {
        ArgsMobSession {
            qfi: (bits >> 34) as u8 & 0x3f,
            reflective: bits >> 33 & 1 == 1,
            teid: bits as u32,
        }
    }

    /// The address with these Args beginning at octet `start` (0 to 11); its other bits stay.
    pub fn place(self, address: u128, start: u8) -> u128 {
        let shift = shift_of(start);
        address & !(MASK << shift) | u128::from(self.to_bits()) << shift
    }

    /// The Args that begin at octet `start` (0 to 11) of an address.
    pub fn read(address: u128, start: u8) -> Self {
        Self::from_bits((address >> shift_of(start) & MASK) as u64)
    }
}

fn shift_of(start: u8) -> u32 {
    128 - BITS - 8 * u32::from(start)
}

#[cfg(test)]
mod tests {
    use super::*;

    const FIRST: ArgsMobSession = ArgsMobSession {
        qfi: 9,
        reflective: true,
        teid: 0x0102_0304,
    };

    #[test]
    fn bits() {
        assert_eq!(FIRST.to_bits(), 0x26_0102_0304);
        assert_eq!(
            ArgsMobSession {
                qfi: 5,
                reflective: false,
                ..FIRST
            }
            .to_bits(),
            0x14_0102_0304
        );
        let top = ArgsMobSession {
            qfi: 63,
            reflective: true,
            teid: 0,
        };
        assert_eq!(top.to_bits() >> 32, 0xfe);
        assert_eq!(ArgsMobSession::from_bits(0xff_0000_0000), top);
    }

    #[test]
    fn placing_changes_forty_bits_only() {
        for start in 0..=11u8 {
            for address in [0, u128::MAX, 0x2001_0db8_000b_0001_1122_3344_5566_7788] {
                let placed = FIRST.place(address, start).to_be_bytes();
                let before = address.to_be_bytes();
                let s = usize::from(start);
                assert_eq!(placed[..s], before[..s]);
                assert_eq!(placed[s..s + 5], [0x26, 1, 2, 3, 4]);
                assert_eq!(placed[s + 5..], before[s + 5..]);
                assert_eq!(
                    ArgsMobSession::read(u128::from_be_bytes(placed), start),
                    FIRST
                );
            }
        }
    }
}
