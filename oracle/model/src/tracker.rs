//! "Each destination owns five bits of a 640-bit row": destination n the bits from 5n on, the first the lowest.
use crate::Reading;

pub struct Tracker {
    reading: Reading,
    numbers: [u8; 128],
}

impl Tracker {
    pub fn new(reading: Reading, numbers: [u8; 128]) -> Self {
        Tracker { reading, numbers }
    }

    /// The destination's number, which then steps. Refuses by 12.
    pub fn next_transfer_id(&mut self, destination: u8) -> Result<u8, u8> {
        let greatest = if self.reading == Reading::LastNodeRefused { 126 } else { 127 };
        if destination > greatest {
            return Err(12);
        }
        let number = &mut self.numbers[usize::from(destination)];
        let given = *number;
        *number = match self.reading {
            Reading::IdStaysAt31 => (given + 1).min(31),
            Reading::StraddleLost => ((given + 1) % 32) & first_word_part(destination),
            _ => (given + 1) % 32,
        };
        Ok(given)
    }

    pub fn numbers(&self) -> [u8; 128] {
        self.numbers
    }

    /// The row as twenty words, the first bit the lowest.
    pub fn row(&self) -> [u32; 20] {
        let mut row = [0; 20];
        for (destination, number) in self.numbers.iter().enumerate() {
            for bit in (0..5).filter(|bit| number >> bit & 1 == 1) {
                let at = 5 * destination + bit;
                row[at / 32] |= 1 << (at % 32);
            }
        }
        row
    }
}

/// The bits of a number that lie in the word in which it begins.
fn first_word_part(destination: u8) -> u8 {
    let left = 32 - 5 * u32::from(destination) % 32;
    if left < 5 {
        (1 << left) - 1
    } else {
        31
    }
}
