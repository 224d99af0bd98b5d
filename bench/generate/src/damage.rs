//! Damaged inputs of the check program: each record cut, of wrong kind, of wrong
//! length, with numbers out of range; bytes after; records missing or moved.

use crate::prng::Prng;

/// The records of an undamaged input, each with its header.
pub fn records(input: &[u8]) -> Vec<Vec<u8>> {
    let mut records = Vec::new();
    let mut rest = input;
    while rest.len() >= 6 {
        let length = u32::from_le_bytes([rest[0], rest[1], rest[2], rest[3]]) as usize;
        let (record, after) = rest.split_at(6 + length);
        records.push(record.to_vec());
        rest = after;
    }
    records
}

/// Damages the five records and joins them.
pub fn damaged(rng: &mut Prng, input: &[u8]) -> Vec<u8> {
    let mut records = records(input);
    let which = rng.below(records.len());
    match rng.below(15) {
        0 => return input[..rng.below(input.len() + 1)].to_vec(),
        1 => return cut_near_a_border(rng, &records),
        2 => wrong_kind(rng, &mut records[which]),
        3 | 4 => wrong_length(rng, &mut records[which]),
        5 => body_and_length(rng, &mut records[which]),
        6 | 7 => first_record_number(rng, &mut records[0]),
        8 | 9 => table_number(rng, &mut records),
        10 => {
            let count = rng.between(1, 20);
            let junk = (0..count).map(|_| rng.pick(&[0, 0, 1, 5, 255])).collect();
            records.push(junk);
        }
        11 => match rng.below(4) {
            0 => {
                records.remove(which);
            }
            1 => records.insert(which, records[which].clone()),
            2 => {
                let other = rng.below(records.len());
                records.swap(which, other);
            }
            _ => records.push(records[which].clone()),
        },
        12 => return two_in_one_record(rng, &mut records, which),
        13 => {
            let count = rng.below(40);
            return (0..count).map(|_| rng.below(256) as u8).collect();
        }
        _ => {
            let mut bytes = records.concat();
            for _ in 0..rng.between(1, 3) {
                let at = rng.below(bytes.len());
                bytes[at] = rng.pick(&[0, 1, 2, 3, 64, 65, 128, 254, 255, bytes[at] ^ 1]);
            }
            return bytes;
        }
    }
    // A second damage, at times, so that the order of the checks is asked for.
    let mut bytes = records.concat();
    if rng.chance(25) && !bytes.is_empty() {
        match rng.below(3) {
            0 => bytes.truncate(rng.below(bytes.len() + 1)),
            1 => bytes.extend([0, 0, 0]),
            _ => {
                let at = rng.below(bytes.len().min(60));
                bytes[at] = rng.pick(&[0, 1, 2, 3, 65, 200, 255]);
            }
        }
    }
    bytes
}

/// Two or three things wrong with one record, so that only the order of the
/// checks decides which is given.
fn two_in_one_record(rng: &mut Prng, records: &mut [Vec<u8>], which: usize) -> Vec<u8> {
    let start: usize = records[..which].iter().map(Vec::len).sum();
    let size = records[which].len();
    if rng.chance(35) {
        wrong_kind(rng, &mut records[which]);
    }
    if rng.chance(35) {
        wrong_length(rng, &mut records[which]);
    }
    if rng.chance(50) && size > 6 {
        let at = rng.between(6, size - 1);
        records[which][at] = rng.pick(&[65, 200, 254, 255]);
    }
    let mut bytes = records.concat();
    if rng.chance(70) {
        bytes.truncate(start + rng.below(size));
    }
    bytes
}

/// Cut within a header, at a border or just beside one.
fn cut_near_a_border(rng: &mut Prng, records: &[Vec<u8>]) -> Vec<u8> {
    let bytes = records.concat();
    let border: usize = records[..rng.below(records.len())].iter().map(Vec::len).sum();
    let at = (border + rng.below(9)).saturating_sub(rng.below(3));
    bytes[..at.min(bytes.len())].to_vec()
}

fn wrong_kind(rng: &mut Prng, record: &mut [u8]) {
    if rng.chance(75) {
        record[4] = rng.pick(&[0, 1, 2, 3, 4, 5, 6, 255]);
    } else {
        record[5] = rng.pick(&[1, 128, 255]);
    }
}

/// Another length, the body as it was.
fn wrong_length(rng: &mut Prng, record: &mut [u8]) {
    let length = u32::from_le_bytes([record[0], record[1], record[2], record[3]]);
    let other = match rng.below(7) {
        0 => 0,
        1 => length.wrapping_add(1),
        2 => length.wrapping_sub(1),
        3 => length.wrapping_add(2),
        4 => length.wrapping_sub(2),
        5 => length | 1 << rng.between(8, 31),
        _ => u32::MAX - rng.below(3) as u32,
    };
    record[..4].copy_from_slice(&other.to_le_bytes());
}

/// Another body, with the length that belongs to it.
fn body_and_length(rng: &mut Prng, record: &mut Vec<u8>) {
    if rng.chance(50) || record.len() == 6 {
        let count = rng.between(1, 3);
        record.extend(vec![0; count]);
    } else {
        record.pop();
    }
    let length = record.len() as u32 - 6;
    record[..4].copy_from_slice(&length.to_le_bytes());
}

/// n, initial state, tree start or k changed, mostly out of range.
fn first_record_number(rng: &mut Prng, record: &mut [u8]) {
    let n = record[6];
    match rng.below(4) {
        0 => record[6] = rng.pick(&[0, 65, 66, 128, 255, n.wrapping_add(1), n.wrapping_sub(1)]),
        1 => record[7] = rng.pick(&[n, n.wrapping_add(1), 64, 128, 254, 255]),
        2 => record[8] = rng.pick(&[n, n.wrapping_add(1), 64, 128, 254, 255]),
        _ => {
            let k = u16::from_le_bytes([record[9], record[10]]);
            let other: u16 = rng.pick(&[0, 257, 258, 512, 65_535, k.wrapping_add(1), k - 1, 256]);
            record[9..11].copy_from_slice(&other.to_le_bytes());
        }
    }
}

/// A number in one of the tables changed, mostly out of range.
fn table_number(rng: &mut Prng, records: &mut [Vec<u8>]) {
    let n = records[0][6];
    let which = rng.between(1, 3);
    for _ in 0..rng.between(1, 2) {
        let body = records[which].len() - 6;
        let anywhere = rng.below(body);
        let at = 6 + rng.pick(&[0, body - 1, anywhere]);
        records[which][at] = match which {
            3 => rng.pick(&[3, 4, 128, 255]),
            _ => rng.pick(&[n, n, n.saturating_add(1), 64, 128, 254, 255]),
        };
    }
}
