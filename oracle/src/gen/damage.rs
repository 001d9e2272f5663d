//! Damaged copies of good plans, and files that were never good.

use crate::rng::Rng;
use crate::write::{record, Records};

/// One to three changes: bytes changed, cut out or put in, records doubled, moved, cut or with another length.
pub fn damaged(rng: &mut Rng, good: &Records) -> Vec<u8> {
    let mut records = good.clone();
    if records.0.is_empty() {
        return any_bytes(rng);
    }
    for _ in 0..rng.between(0, 2) {
        change_records(rng, &mut records);
    }
    let mut bytes = records.bytes();
    if !bytes.is_empty() && rng.once_in(2) {
        change_bytes(rng, &mut bytes);
    }
    bytes
}

fn change_records(rng: &mut Rng, records: &mut Records) {
    let at = rng.below(records.0.len());
    match rng.below(6) {
        0 => {
            let again = records.0[at].clone();
            let to = rng.below(records.0.len() + 1);
            records.0.insert(to, again);
        }
        1 if records.0.len() > 1 => drop(records.0.remove(at)),
        2 => rng.shuffle(&mut records.0),
        // One field's byte, past the header.
        3 if records.0[at].len() > 6 => {
            let byte = rng.between(6, (records.0[at].len() - 1).min(16));
            records.0[at][byte] = rng.pick(&[0, 1, 2, 3, 28, 127, 128, 255]);
        }
        4 => {
            let kind = rng.pick(&[0, 1, 2, 3, 4, 5, 16, 17, 18, 19, 257, 272]);
            let payload: Vec<u8> = records.0[at][6..].to_vec();
            records.0[at] = record(kind, &payload);
        }
        _ => {
            // A payload one byte longer or shorter, with a length that says so.
            let kind = u16::from_le_bytes([records.0[at][4], records.0[at][5]]);
            let mut payload: Vec<u8> = records.0[at][6..].to_vec();
            if rng.once_in(2) {
                payload.push(rng.next() as u8);
            } else {
                payload.pop();
            }
            records.0[at] = record(kind, &payload);
        }
    }
}

fn change_bytes(rng: &mut Rng, bytes: &mut Vec<u8>) {
    let at = rng.below(bytes.len());
    match rng.below(4) {
        0 => bytes.truncate(at),
        1 => drop(bytes.remove(at)),
        2 => bytes.insert(at, rng.next() as u8),
        _ => bytes[at] ^= 1 << rng.below(8),
    }
}

/// Random bytes, sometimes behind headers that fit.
pub fn any_bytes(rng: &mut Rng) -> Vec<u8> {
    let random = |rng: &mut Rng, count: usize| -> Vec<u8> { (0..count).map(|_| rng.next() as u8).collect() };
    if rng.once_in(2) {
        let count = rng.pick(&[0, 1, 5, 6, 7, 40, 300, 1000]);
        return random(rng, count);
    }
    let mut bytes = Vec::new();
    for _ in 0..rng.between(1, 5) {
        let (kind, length) =
            rng.pick(&[(1, 31), (1, 55), (2, 5), (3, 38), (4, 10), (16, 24), (17, 26), (18, 11), (9, 3)]);
        let mut payload = random(rng, length);
        // A count that fits makes the record get past its length.
        match kind {
            1 => payload[4..7].copy_from_slice(&[u8::from(length == 55), 2, 0]),
            3 => payload[20..22].copy_from_slice(&[2, 0]),
            _ => {}
        }
        bytes.extend(record(kind, &payload));
    }
    bytes
}
