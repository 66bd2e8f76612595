//! The lines of a statement, put into one buffer.

use crate::Refusal;
use crate::package::{Holding, Hour, MAX_HOLDINGS};
use crate::posting::Figures;

/// Room for any one line: its words, and numbers of at most twelve characters each.
const LINE: usize = 128;
/// The longest line of a holding: numbered 1023, of owner 127, with an amount of -20000000000.
const HOLDING_LINE: usize = 43;
/// A line is always put with a whole `LINE` of room before it, so the last one needs that much too.
pub const MAX_BYTES: usize = MAX_HOLDINGS * HOLDING_LINE + LINE;

/// A number of at most four digits: the digits from the left, and how many they are.
#[derive(Clone, Copy)]
struct Small {
    digits: [u8; 4],
    length: u32,
}

/// Holdings are numbered below this, and so are owners and hours.
const SMALL_NUMBERS: usize = MAX_HOLDINGS;
const SMALL: [Small; SMALL_NUMBERS] = small_numbers();

const fn small_numbers() -> [Small; SMALL_NUMBERS] {
    let mut table = [Small {
        digits: [b'0'; 4],
        length: 1,
    }; SMALL_NUMBERS];
    let mut number = 1;
    while number < SMALL_NUMBERS {
        let length = number.ilog10() + 1;
        let (mut rest, mut place) = (number, length as usize);
        while place > 0 {
            place -= 1;
            table[number].digits[place] = b'0' + (rest % 10) as u8;
            rest /= 10;
        }
        table[number].length = length;
        number += 1;
    }
    table
}

/// A line in the making. Digits are put whole words at a time: what lies past `length` is not yet part
/// of the line.
struct Line<'a> {
    bytes: &'a mut [u8; LINE],
    length: usize,
}

impl Line<'_> {
    #[inline(always)]
    fn put<const N: usize>(&mut self, word: &[u8; N]) {
        self.put_some(word, N);
    }

    /// Puts the first `count` bytes of the word, by writing all of it.
    #[inline(always)]
    fn put_some<const N: usize>(&mut self, word: &[u8; N], count: usize) {
        self.bytes[self.length..self.length + N].copy_from_slice(word);
        self.length += count;
    }

    #[inline(always)]
    fn put_small(&mut self, number: usize) {
        let small = &SMALL[number];
        self.put_some(&small.digits, small.length as usize);
    }

    /// Puts a number below 1024 × 10^8; no figure of a statement is larger.
    #[inline(always)]
    fn put_number(&mut self, number: u64) {
        if number < 100_000_000 {
            let digits = eight_digits(number);
            // The mark keeps the last digit of 0.
            let zeros = (digits | 1 << 56).trailing_zeros() / 8;
            let ascii = (digits | ZEROS) >> (8 * zeros);
            self.put_some(&ascii.to_le_bytes(), 8 - zeros as usize);
        } else {
            self.put_small((number / 100_000_000) as usize);
            self.put(&(eight_digits(number % 100_000_000) | ZEROS).to_le_bytes());
        }
    }

    #[inline(always)]
    fn put_amount(&mut self, amount: i64) {
        self.put_some(b"-", (amount < 0) as usize);
        self.put_number(amount.unsigned_abs());
    }
}

const ZEROS: u64 = u64::from_le_bytes(*b"00000000");

/// The eight digits of a number below 10^8, one to a byte, the first in the lowest. All parts of the
/// number are split at once: into fours, then pairs, then single digits. Each division is a product and
/// a shift that is exact in its range.
#[inline(always)]
fn eight_digits(number: u64) -> u64 {
    let fours = number / 10_000 | (number % 10_000) << 32;
    let hundreds = (fours * 10_486 >> 20) & 0x0000_007F_0000_007F;
    let pairs = hundreds | (fours - 100 * hundreds) << 16;
    let tens = (pairs * 103 >> 10) & 0x000F_000F_000F_000F;
    tens | (pairs - 10 * tens) << 8
}

fn line_at(output: &mut [u8; MAX_BYTES], at: usize) -> Line<'_> {
    let bytes = output[at..]
        .first_chunk_mut()
        .expect("room for a line after every holding");
    Line { bytes, length: 0 }
}

/// Puts the hour's statement, and answers its length.
pub fn statement(
    output: &mut [u8; MAX_BYTES],
    hour: &Hour,
    amounts: &[i64; MAX_HOLDINGS],
    figures: &Figures,
) -> usize {
    let mut at = 0;
    for (number, (holding, amount)) in hour.holding[..hour.holdings]
        .iter()
        .zip(amounts)
        .enumerate()
    {
        at += holding_line(line_at(output, at), number, holding, *amount);
    }
    at + hour_line(line_at(output, at), hour.number, figures)
}

#[inline(always)]
fn holding_line(mut line: Line, number: usize, holding: &Holding, amount: i64) -> usize {
    line.put(b"holding ");
    line.put_small(number);
    line.put(b" owner ");
    line.put_small(holding.owner as usize);
    line.put(b" amount ");
    line.put_amount(amount);
    line.put(b"\n");
    line.length
}

fn hour_line(mut line: Line, number: u16, figures: &Figures) -> usize {
    line.put(b"hour ");
    line.put_small(number as usize);
    line.put(b" rent ");
    line.put_amount(figures.rent);
    line.put(b" credit ");
    line.put_amount(figures.credits);
    line.put(b" charge ");
    line.put_amount(figures.charges);
    line.put(b" short ");
    line.put_amount(figures.short);
    line.put(b" balance ");
    line.put_amount(figures.balance);
    line.put(b"\n");
    line.length
}

/// Puts the line of a refusal, and answers its length.
pub fn refused(output: &mut [u8; MAX_BYTES], refusal: &Refusal) -> usize {
    let mut line = line_at(output, 0);
    line.put(b"refused ");
    line.put_number(u64::from(refusal.number));
    line.put(b" at ");
    line.put_number(refusal.place as u64);
    line.put(b"\n");
    line.length
}
