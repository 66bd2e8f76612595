//! A package's bytes as the tables of an hour.

use crate::Refusal;

pub const MAX_BYTES: usize = 44_340;
pub const MAX_CONSTRAINTS: usize = 32;
pub const MAX_POINTS: usize = 256;
pub const MAX_HOLDINGS: usize = 1_024;
pub const MAX_RENT: u64 = 3_000_000_000;

const MAX_PRICE: i32 = 1_000_000;
const MAX_FACTOR: i16 = 10_000;
const MAX_QUANTITY: u32 = 100_000;
const MAX_ACTUAL: u32 = 800_000;

/// The sum over every constraint of the largest difference of two factors, 20,000, times a weight's part
/// has room in an `i32`: no part is above 2,384, which is 10^10 without its low 22 bits.
pub const WEIGHT_BITS: u32 = 11;
const WEIGHT_MASK: i64 = (1 << WEIGHT_BITS) - 1;

/// A settlement point: its letter, its price and its Minimum and Maximum Resource Price.
#[derive(Clone, Copy)]
pub struct Point {
    pub letter: u8,
    pub price: i32,
    pub minimum: i32,
    pub maximum: i32,
}

#[derive(Clone, Copy)]
pub struct Holding {
    pub owner: u16,
    pub source: u16,
    pub sink: u16,
    pub letter: u8,
    pub block: u8,
    pub quantity: u32,
    pub actual: u32,
    pub real_time: u32,
}

/// One hour. Every row of shift factors has all its places, zero past the hour's constraints, and so
/// have the weights: the sum over constraints then always runs over the same fixed length.
pub struct Hour {
    pub number: u16,
    pub weekday: u8,
    pub ending: u8,
    pub rent: u64,
    pub constraints: usize,
    pub points: usize,
    pub holdings: usize,
    /// Shadow price times deration factor of each constraint, in parts of `WEIGHT_BITS`, the lowest
    /// first. Part and shift factor both have 16 bits, and a product of two such is cheap.
    pub weights: [[i16; MAX_CONSTRAINTS]; 3],
    pub point: [Point; MAX_POINTS],
    pub factors: [[i16; MAX_CONSTRAINTS]; MAX_POINTS],
    pub holding: [Holding; MAX_HOLDINGS],
}

impl Hour {
    pub const EMPTY: Hour = Hour {
        number: 0,
        weekday: 0,
        ending: 0,
        rent: 0,
        constraints: 0,
        points: 0,
        holdings: 0,
        weights: [[0; MAX_CONSTRAINTS]; 3],
        point: [Point {
            letter: 0,
            price: 0,
            minimum: 0,
            maximum: 0,
        }; MAX_POINTS],
        factors: [[0; MAX_CONSTRAINTS]; MAX_POINTS],
        holding: [Holding {
            owner: 0,
            source: 0,
            sink: 0,
            letter: 0,
            block: 0,
            quantity: 0,
            actual: 0,
            real_time: 0,
        }; MAX_HOLDINGS],
    };
}

/// What is wrong with a record's fields.
enum Fault {
    Length,
    Range,
}

/// The records not yet read, and the number of the first of them.
struct Reader<'a> {
    rest: &'a [u8],
    number: usize,
}

pub fn read(bytes: &[u8], hour: &mut Hour) -> Result<(), Refusal> {
    let mut reader = open(bytes)?;
    let days = reader.each(b'D', 1, |_, fields| read_day(fields, hour))?;
    if days == 0 {
        return Err(Refusal {
            number: 4,
            place: 0,
        });
    }
    let constraints = reader.each(b'C', MAX_CONSTRAINTS, |place, fields| {
        let weight = read_weight(fields)?;
        hour.weights[0][place] = (weight & WEIGHT_MASK) as i16;
        hour.weights[1][place] = (weight >> WEIGHT_BITS & WEIGHT_MASK) as i16;
        hour.weights[2][place] = (weight >> (2 * WEIGHT_BITS)) as i16;
        Ok(())
    })?;
    hour.constraints = constraints;
    hour.points = reader.each(b'P', MAX_POINTS, |place, fields| {
        let (point, factors) = fields.split_first_chunk().ok_or(Fault::Length)?;
        if factors.len() != 2 * constraints {
            return Err(Fault::Length);
        }
        hour.point[place] = read_point(point)?;
        read_factors(factors, &mut hour.factors[place])
    })?;
    hour.holdings = reader.each(b'H', MAX_HOLDINGS, |place, fields| {
        hour.holding[place] = read_holding(fields)?;
        Ok(())
    })?;
    // What is left begins with a letter that is unknown or stands in the wrong order.
    if !reader.rest.is_empty() {
        return Err(Refusal {
            number: 4,
            place: reader.number,
        });
    }
    Ok(())
}

/// The reader of the records, once the package's own length and version are right.
fn open(bytes: &[u8]) -> Result<Reader<'_>, Refusal> {
    match bytes.split_first_chunk() {
        Some((&length, [version, rest @ ..]))
            if bytes.len() <= MAX_BYTES
                && u32::from_be_bytes(length) as usize == bytes.len() - 4 =>
        {
            if *version != 1 {
                return Err(Refusal {
                    number: 2,
                    place: 0,
                });
            }
            Ok(Reader { rest, number: 0 })
        }
        _ => Err(Refusal {
            number: 1,
            place: 0,
        }),
    }
}

impl<'a> Reader<'a> {
    /// Reads the records that come next and have this letter, and answers how many they are. A record
    /// with another letter stays, for whoever asks next.
    #[inline(always)]
    fn each(
        &mut self,
        letter: u8,
        limit: usize,
        mut read: impl FnMut(usize, &'a [u8]) -> Result<(), Fault>,
    ) -> Result<usize, Refusal> {
        let mut count = 0;
        while !self.rest.is_empty() {
            let refused = |number| Refusal {
                number,
                place: self.number,
            };
            let (found, fields, rest) = split(self.rest).ok_or(refused(3))?;
            if found != letter {
                break;
            }
            if count == limit {
                // A second D is out of order; any other letter is one too many.
                return Err(refused(if letter == b'D' { 4 } else { 5 }));
            }
            read(count, fields).map_err(|fault| match fault {
                Fault::Length => refused(3),
                Fault::Range => refused(6),
            })?;
            count += 1;
            self.rest = rest;
            self.number += 1;
        }
        Ok(count)
    }
}

/// The first record's letter and fields, and what follows it; none where the record is empty or ends
/// past the package.
#[inline(always)]
fn split(rest: &[u8]) -> Option<(u8, &[u8], &[u8])> {
    let (length, rest) = rest.split_first_chunk()?;
    let (record, rest) = rest.split_at_checked(u16::from_be_bytes(*length) as usize)?;
    let (letter, fields) = record.split_first()?;
    Some((*letter, fields, rest))
}

fn in_range(yes: bool) -> Result<(), Fault> {
    if yes { Ok(()) } else { Err(Fault::Range) }
}

fn read_day(fields: &[u8], hour: &mut Hour) -> Result<(), Fault> {
    let &[n0, n1, weekday, ending, ref rent @ ..] = fields else {
        return Err(Fault::Length);
    };
    hour.rent = u64::from_be_bytes(rent.try_into().map_err(|_| Fault::Length)?);
    hour.number = u16::from_be_bytes([n0, n1]);
    hour.weekday = weekday;
    hour.ending = ending;
    in_range(
        (1..=744).contains(&hour.number)
            && weekday <= 6
            && (1..=24).contains(&ending)
            && hour.rent <= MAX_RENT,
    )
}

fn read_weight(fields: &[u8]) -> Result<i64, Fault> {
    let &[s0, s1, s2, s3, f0, f1] = fields else {
        return Err(Fault::Length);
    };
    let shadow_price = u32::from_be_bytes([s0, s1, s2, s3]);
    let deration = u16::from_be_bytes([f0, f1]);
    in_range(shadow_price <= MAX_PRICE as u32 && deration <= MAX_FACTOR as u16)?;
    Ok(i64::from(shadow_price) * i64::from(deration))
}

#[inline(always)]
fn read_point(fields: &[u8; 13]) -> Result<Point, Fault> {
    let &[letter, p0, p1, p2, p3, l0, l1, l2, l3, h0, h1, h2, h3] = fields;
    let price = i32::from_be_bytes([p0, p1, p2, p3]);
    let minimum = i32::from_be_bytes([l0, l1, l2, l3]);
    let maximum = i32::from_be_bytes([h0, h1, h2, h3]);
    let prices = -MAX_PRICE..=MAX_PRICE;
    in_range(
        prices.contains(&price)
            && match letter {
                b'R' => minimum >= -MAX_PRICE && minimum <= maximum && maximum <= MAX_PRICE,
                b'Z' | b'H' => minimum | maximum == 0,
                _ => false,
            },
    )?;
    Ok(Point {
        letter,
        price,
        minimum,
        maximum,
    })
}

/// The smallest and the largest factor are tested once, not each factor by itself.
#[inline(always)]
fn read_factors(fields: &[u8], row: &mut [i16; MAX_CONSTRAINTS]) -> Result<(), Fault> {
    let (mut least, mut most) = (0, 0);
    for (factor, bytes) in row.iter_mut().zip(fields.chunks_exact(2)) {
        *factor = i16::from_be_bytes([bytes[0], bytes[1]]);
        least = least.min(*factor);
        most = most.max(*factor);
    }
    in_range(least >= -MAX_FACTOR && most <= MAX_FACTOR)
}

#[inline(always)]
fn read_holding(fields: &[u8]) -> Result<Holding, Fault> {
    let &[
        o0,
        o1,
        letter,
        s0,
        s1,
        t0,
        t1,
        q0,
        q1,
        q2,
        q3,
        block,
        a0,
        a1,
        a2,
        a3,
        r0,
        r1,
        r2,
        r3,
    ] = fields
    else {
        return Err(Fault::Length);
    };
    let holding = Holding {
        owner: u16::from_be_bytes([o0, o1]),
        source: u16::from_be_bytes([s0, s1]),
        sink: u16::from_be_bytes([t0, t1]),
        letter,
        block,
        quantity: u32::from_be_bytes([q0, q1, q2, q3]),
        actual: u32::from_be_bytes([a0, a1, a2, a3]),
        real_time: u32::from_be_bytes([r0, r1, r2, r3]),
    };
    in_range(
        (1..=MAX_QUANTITY).contains(&holding.quantity)
            && matches!(block, b'W' | b'E' | b'N')
            && match letter {
                b'B' | b'O' => holding.actual | holding.real_time == 0,
                b'b' | b'o' => holding.actual <= MAX_ACTUAL && holding.real_time <= MAX_QUANTITY,
                _ => false,
            },
    )?;
    Ok(holding)
}
