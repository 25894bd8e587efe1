//! Bytes in parts: a count, offsets of four bytes, one more than there are parts, and the parts up to the end. Command tables and
//! batches of sheets are written so.

use std::ops::{Range, RangeInclusive};

use crate::format::{u16_at, u32_at};

/// The first thing at fault.
#[derive(Clone, Copy, Debug, PartialEq, Eq, PartialOrd, Ord)]
pub enum Fault {
    /// the bytes end before the offsets do
    Short,
    /// too few parts, or too many
    Count,
    /// the first offset is not 0
    First,
    /// an offset is below the one before it
    Falling,
    /// the last part ends behind the bytes
    Past,
    /// there are bytes behind the last part
    LeftOver,
}

/// The bytes of these parts.
pub fn write(parts: &[Vec<u8>]) -> Vec<u8> {
    let mut out = (parts.len() as u16).to_le_bytes().to_vec();
    let mut at = 0u32;
    out.extend(at.to_le_bytes());
    for part in parts {
        at += part.len() as u32;
        out.extend(at.to_le_bytes());
    }
    [out, parts.concat()].concat()
}

/// Where each part lies in the bytes, of which there may be so many.
pub fn read(b: &[u8], counts: RangeInclusive<usize>) -> Result<Vec<Range<usize>>, Fault> {
    if b.len() < 2 {
        return Err(Fault::Short);
    }
    let count = u16_at(b, 0);
    let start = 2 + 4 * (count + 1);
    if !counts.contains(&count) {
        return Err(Fault::Count);
    }
    if b.len() < start {
        return Err(Fault::Short);
    }
    let offsets: Vec<usize> = (0..=count).map(|k| u32_at(b, 2 + 4 * k) as usize).collect();
    match b.len() - start {
        _ if offsets[0] != 0 => Err(Fault::First),
        _ if offsets.windows(2).any(|w| w[0] > w[1]) => Err(Fault::Falling),
        length if offsets[count] > length => Err(Fault::Past),
        length if offsets[count] < length => Err(Fault::LeftOver),
        _ => Ok(offsets.windows(2).map(|w| start + w[0]..start + w[1]).collect()),
    }
}
