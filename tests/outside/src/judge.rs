//! Checksum and verify.

use crate::device::Device;
use crate::words::CONFIG;

/// The checksum of a reading: 13, 21.
pub fn checksum(d: &Device, reading: &[u16]) -> Result<u16, u32> {
    if !d.lawful() {
        return Err(13);
    }
    if !d.is_reading(reading) {
        return Err(21);
    }
    let p = d.p();
    let mut sum = u64::from(reading[p + 7] & d.mask1) + u64::from(reading[p + 8] & d.mask2);
    if d.protected(reading) {
        // The first ID's nibble is the highest.
        for (k, id) in reading[p..p + 4].iter().enumerate() {
            sum += u64::from(id & 15) << (12 - 4 * k);
        }
    } else {
        sum += reading[..p].iter().map(|&w| u64::from(w)).sum::<u64>();
    }
    Ok((sum % 65_536) as u16)
}

/// Number, first differing word address and how many differ, spare bits apart: 13, 21.
pub fn verify(d: &Device, wanted: &[u16], reading: &[u16]) -> (u32, u16, usize) {
    if !d.lawful() {
        return (13, 0, 0);
    }
    if !d.is_reading(wanted) || !d.is_reading(reading) {
        return (21, 0, 0);
    }
    let p = d.p();
    let protected = d.protected(reading);
    let mut places: Vec<(usize, u16)> = Vec::new();
    if !protected {
        places.extend((0..p).map(|i| (i, i as u16)));
    }
    places.extend([0usize, 1, 2, 3, 7, 8].map(|k| (p + k, CONFIG + k as u16)));
    let differing: Vec<u16> = places
        .iter()
        .filter(|(i, _)| (wanted[*i] ^ reading[*i]) & d.mask(*i) != 0)
        .map(|&(_, address)| address)
        .collect();
    match differing.first() {
        Some(&first) => (40, first, differing.len()),
        None if protected => (41, 0, 0),
        None => (0, 0, 0),
    }
}
