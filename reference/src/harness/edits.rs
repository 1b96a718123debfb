//! Every single-byte edit of good requests: as it is, with the frame's checksum
//! made right afterwards, and with all checksums made right.

use super::generator::Generator;
use super::{scenes, Bench};
use crate::crc;

/// Changes at one position: 0 deletes, 1 to 255 replace, 256 to 511 insert before it.
pub const CHANGES: usize = 512;
/// 0 nothing, 1 the frame, 2 the records (inner ones first) and the frame.
pub const FIXES: usize = 3;

/// Where the records of a good request stand, checksum included: inner ones first.
pub fn records_in(request: &[u8]) -> Vec<(usize, usize)> {
    let mut found = Vec::new();
    let mut start = 5;
    for field in request[5..].split(|&byte| byte == b'~') {
        let record = &field[field.len().min(1)..];
        if [&b"PK.ECDH.1|"[..], b"VKLOAD.RESP.1|", b"KEY.1|"].iter().any(|kind| record.starts_with(kind)) {
            let mut inner = start + 1;
            for part in record.split(|&byte| byte == b'|') {
                if part.starts_with(b"KMCID.1:") || part.starts_with(b"SMID.1:") {
                    found.push((inner, inner + part.len()));
                }
                inner += part.len() + 1;
            }
            found.push((start + 1, start + field.len()));
        }
        start += field.len() + 1;
    }
    found
}

/// One edit. `position` may be the length only for an insertion.
pub fn edit(request: &[u8], records: &[(usize, usize)], position: usize, change: usize, fix: usize) -> Vec<u8> {
    let mut bytes = request.to_vec();
    let mut shift = 0isize;
    match change {
        0 => {
            bytes.remove(position);
            shift = -1;
        }
        1..=255 => bytes[position] ^= change as u8,
        _ => {
            bytes.insert(position, (change - 256) as u8);
            shift = 1;
        }
    }
    if fix == 2 {
        for &(start, end) in records {
            // The bounds move with the edit.
            let moved = |bound: usize| if position < bound { bound.wrapping_add_signed(shift) } else { bound };
            let (start, end) = (moved(start), moved(end));
            if start + 4 <= end && end <= bytes.len() {
                let checksum = crc::digits(crc::modbus(&bytes[start..end - 4]));
                bytes[end - 4..end].copy_from_slice(&checksum);
            }
        }
    }
    if fix >= 1 && bytes.len() >= 10 {
        let end = bytes.len() - 5;
        let checksum = crc::digits(crc::arc(&bytes[..end]));
        bytes[end..end + 4].copy_from_slice(&checksum);
    }
    bytes
}

/// All edits of all scenes, or `most` of them spread evenly.
pub fn all(bench: &mut Bench, most: u64, seed: u64) -> Result<(), String> {
    let scenes = scenes::all();
    let sizes: Vec<u64> = scenes.iter().map(|scene| ((scene.request.len() + 1) * CHANGES * FIXES) as u64).collect();
    let total: u64 = sizes.iter().sum();
    let made = total.min(most.max(1));
    // Each made edit stands for `total / made` neighbours; which of them is random.
    let mut generator = Generator::new(seed ^ 0xED17);
    for number in 0..made {
        let low = (u128::from(number) * u128::from(total) / u128::from(made)) as u64;
        let high = (u128::from(number + 1) * u128::from(total) / u128::from(made)) as u64;
        let mut index = low + generator.below((high - low) as usize) as u64;
        let mut place = 0;
        while index >= sizes[place] {
            index -= sizes[place];
            place += 1;
        }
        let scene = &scenes[place];
        let index = index as usize;
        let (fix, change, position) = (index % FIXES, index / FIXES % CHANGES, index / FIXES / CHANGES);
        if position == scene.request.len() && change < 256 {
            continue;
        }
        let request = edit(&scene.request, &scene.records, position, change, fix);
        bench.call(&mut scene.tables.clone(), &scene.supplement, &request, 1024)?;
        bench.counts.edits.0 += 1;
    }
    // At the end of a request there are insertions only.
    bench.counts.edits.1 = total - (scenes.len() * 256 * FIXES) as u64;
    Ok(())
}
