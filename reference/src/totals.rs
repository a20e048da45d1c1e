//! Running totals that the host lends to each casting call.
//!
//! An answered call adds one to casts and its probes to probes; a refused
//! call adds one to refusals. A total that would pass the ceiling becomes
//! the ceiling and stays there.

/// The greatest total: the 64-bit maximum.
pub const CEILING: u64 = 18_446_744_073_709_551_615;

/// Bytes of a saved record: three 32-bit little-endian numbers.
pub const SAVED_BYTES: usize = 12;

/// Bytes of one number in a saved record.
const NUMBER_BYTES: usize = 4;

/// Refusal number of a saved record that is not exactly `SAVED_BYTES` long.
const WRONG_LENGTH: u32 = 18;

/// The record of running totals.
#[derive(Clone, Copy, Debug, Default, PartialEq, Eq)]
pub struct Totals {
    /// Calls answered.
    pub casts: u64,
    /// Probes of the calls answered.
    pub probes: u64,
    /// Calls refused.
    pub refusals: u64,
}

impl Totals {
    /// The record after one casting call that was lent it: `probes` are the
    /// probes of its answer, or `None` if the call was refused.
    pub fn after(self, probes: Option<u32>) -> Totals {
        match probes {
            Some(count) => Totals {
                casts: add(self.casts, 1),
                probes: add(self.probes, u64::from(count)),
                refusals: self.refusals,
            },
            None => Totals {
                casts: self.casts,
                probes: self.probes,
                refusals: add(self.refusals, 1),
            },
        }
    }

    /// Reads a saved record (casts, probes, refusals) into this one, each
    /// number unchanged. A saved record of any length but `SAVED_BYTES` is
    /// refused with 18, and this record keeps its contents.
    pub fn restore(&mut self, saved: &[u8]) -> Result<(), u32> {
        if saved.len() != SAVED_BYTES {
            return Err(WRONG_LENGTH);
        }
        *self = Totals {
            casts: number(saved, 0),
            probes: number(saved, 1),
            refusals: number(saved, 2),
        };
        Ok(())
    }
}

impl From<[u64; 3]> for Totals {
    /// From casts, probes and refusals, in that order.
    fn from(numbers: [u64; 3]) -> Totals {
        Totals {
            casts: numbers[0],
            probes: numbers[1],
            refusals: numbers[2],
        }
    }
}

impl From<Totals> for [u64; 3] {
    /// To casts, probes and refusals, in that order.
    fn from(totals: Totals) -> [u64; 3] {
        [totals.casts, totals.probes, totals.refusals]
    }
}

/// The sum in 128 bits, or the ceiling if the sum passes it.
fn add(total: u64, more: u64) -> u64 {
    let sum: u128 = u128::from(total) + u128::from(more);
    if sum > u128::from(CEILING) {
        CEILING
    } else {
        sum as u64
    }
}

/// The number at `place` (0, 1 or 2) of a saved record of the right length:
/// the sum of its byte i times 256 to the i.
fn number(saved: &[u8], place: usize) -> u64 {
    let mut sum: u64 = 0;
    let mut weight: u64 = 1;
    for i in 0..NUMBER_BYTES {
        sum += u64::from(saved[place * NUMBER_BYTES + i]) * weight;
        weight *= 256;
    }
    sum
}
