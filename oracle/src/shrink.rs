//! Making a plan smaller while it still shows what it shows.

use crate::reader::split_record;

/// The records of a file; what is no whole record stands last in one piece.
pub fn pieces(file: &[u8]) -> Vec<Vec<u8>> {
    let mut pieces = Vec::new();
    let mut rest = file;
    while let Some((_, _, behind)) = split_record(rest) {
        pieces.push(rest[..rest.len() - behind.len()].to_vec());
        rest = behind;
    }
    if !rest.is_empty() {
        pieces.push(rest.to_vec());
    }
    pieces
}

/// The file with records dropped, as many as can be while `shows` holds: halves first, single records last.
pub fn shrink(file: &[u8], mut shows: impl FnMut(&[u8]) -> bool) -> Vec<u8> {
    let mut kept = pieces(file);
    let mut size = kept.len().div_ceil(2);
    while size > 0 {
        let mut at = 0;
        let mut dropped = false;
        while at < kept.len() {
            let mut fewer = kept.clone();
            fewer.drain(at..(at + size).min(kept.len()));
            if shows(&fewer.concat()) {
                kept = fewer;
                dropped = true;
            } else {
                at += size;
            }
        }
        // Single records are tried until none can go: one may need another gone first.
        size = if size == 1 && dropped { 1 } else { size / 2 };
    }
    kept.concat()
}
