//! Compares the proved reader of plan files with the oracle's: number, counts and every entry of every table,
//! entries past the counts and the tables of a refused file too. Then times both on a full file.
//!
//! `compare-plan [COUNT [SEED]]`, after `c/archive plan_c`.

use compare_common::reader;
use compare_common::tables::{Counts, Read, Tables, SIZES};
use kartsodi_oracle::gen::plans;
use kartsodi_oracle::reader::{check, scan, Plan};
use std::hint::black_box;
use std::time::{Duration, Instant};

reader!(
    read, kartsodi_read_plan:
    lanes usize, points f32, ends f32, fans usize, links usize,
    sections usize, bounds f64, stations f64, places usize
);

/// What the oracle's reader says: a plan, or a number. A side above 1 comes after the records and before 7.
fn oracle(file: &[u8], side: usize) -> Result<Plan, u8> {
    let plan = scan(file)?;
    if side > 1 {
        return Err(5);
    }
    check(&plan)?;
    Ok(plan)
}

/// The tables of the oracle's plan, over tables that hold the mark.
fn expected(plan: &Plan) -> (Counts, Tables) {
    let mut t = Tables::marked();
    let counts = t.load(plan);
    (counts, t)
}

fn compare(name: &str, file: &[u8], side: usize, numbers: &mut [usize; 16]) -> bool {
    let (number, counts, tables) = match oracle(file, side) {
        Ok(plan) => {
            let (counts, tables) = expected(&plan);
            (0, counts, tables)
        }
        Err(n) => (usize::from(n), Counts::default(), Tables::marked()),
    };
    let mut t = Tables::marked();
    let r = read(file, side, &mut t);
    numbers[number] += 1;
    if r != (Read { number, counts }) {
        println!("{name} side {side}: read {r:?}, oracle {number} {counts:?}");
        return false;
    }
    if let Err(table) = t.same(&tables) {
        println!("{name} side {side}: table {table} differs");
        return false;
    }
    true
}

/// Number 1: each table shorter by one entry than its limit, whatever the file; nothing is written.
fn short_tables() -> usize {
    let mut differ = 0;
    for (k, &size) in SIZES[..9].iter().enumerate() {
        for less in 0..2 {
            let mut t = Tables::marked();
            let n = size - less;
            t.cut(k, n);
            let before = t.clone();
            let r = read(&vec![0; 65537], 0, &mut t);
            let number = if less == 1 { 1 } else { 2 };
            if r != (Read { number, ..Read::default() }) || t.same(&before).is_err() {
                println!("table {k} of {n} entries: {r:?}");
                differ += 1;
            }
        }
    }
    differ
}

/// A file of 65,536 bytes or a little less with 256 lanes; the more links, sections and places it is given, the fewer points.
fn full(links: usize, sections: usize, places: usize) -> Vec<u8> {
    fn record(kind: u16, payload: &[u8], out: &mut Vec<u8>) {
        out.extend((payload.len() as u32).to_le_bytes());
        out.extend(kind.to_le_bytes());
        out.extend(payload);
    }
    let mut rest = Vec::new();
    for k in 0..links {
        let (from, to) = ((k * 37 % 256) as u16, (k * 11 % 300) as u16);
        record(2, &[&from.to_le_bytes()[..], &[(k % 3) as u8], &to.to_le_bytes()].concat(), &mut rest);
    }
    for k in 0..sections {
        let mut p = vec![7, 0];
        p.extend((k as u16).to_le_bytes());
        for x in [0.0f64, 8.0] {
            p.extend(x.to_le_bytes());
        }
        p.extend(2u16.to_le_bytes());
        for x in [0.0f64, 8.0] {
            p.extend(x.to_le_bytes());
        }
        record(3, &p, &mut rest);
    }
    for k in (0..places).rev() {
        let p = [&(k as u16).to_le_bytes()[..], &[7, 0], &((k % sections) as u16).to_le_bytes(), &((k / sections) as i32 - 2).to_le_bytes()].concat();
        record(4, &p, &mut rest);
    }
    let room = 65_536 - rest.len() - 256 * 13;
    let all = (room / 12).min(4096);
    let mut file = Vec::new();
    for k in 0..256usize {
        let n = if places > 0 { 2 } else { all / 256 + usize::from(k < all % 256) };
        let mut p = (k as u16).to_le_bytes().to_vec();
        p.extend([1, 0, 0]);
        p.extend((n as u16).to_le_bytes());
        for j in 0..3 * n {
            p.extend(((j as f32) - (k as f32)).to_le_bytes());
        }
        record(1, &p, &mut file);
    }
    file.extend(rest);
    // queries fill the rest
    while file.len() + 30 <= 65_536 {
        record(16, &[0; 24], &mut file);
    }
    file
}

/// The best of many runs of each, in turn, in one process.
fn time(name: &str, file: &[u8]) {
    let (mut ours, mut theirs) = (Duration::MAX, Duration::MAX);
    let mut t = Tables::marked();
    for _ in 0..300 {
        let start = Instant::now();
        black_box(read(black_box(file), 0, &mut t));
        ours = ours.min(start.elapsed());
        let start = Instant::now();
        let _ = black_box(oracle(black_box(file), 0));
        theirs = theirs.min(start.elapsed());
    }
    println!(
        "{name} ({} bytes): read_plan {:.1} us, oracle's reader {:.1} us, ratio {:.2}",
        file.len(), ours.as_secs_f64() * 1e6, theirs.as_secs_f64() * 1e6, ours.as_secs_f64() / theirs.as_secs_f64()
    );
}

fn main() {
    let args: Vec<u64> = std::env::args().skip(1).map(|a| a.parse().expect("a number")).collect();
    let count = args.first().copied().unwrap_or(20_000) as usize;
    let seed = args.get(1).copied().unwrap_or(2026);
    let mut numbers = [0; 16];
    let (mut passed, mut failed) = (0, 0);
    for case in plans(seed, count) {
        for side in 0..3 {
            if compare(&case.name, &case.file, side, &mut numbers) {
                passed += 1;
            } else {
                failed += 1;
            }
        }
    }
    let full_files = [("256 lanes, 4,096 points", full(0, 1, 0)), ("2,048 links, 64 sections, 256 places", full(2048, 64, 256))];
    for (name, file) in &full_files {
        if compare(name, file, 0, &mut numbers) {
            passed += 1;
        } else {
            failed += 1;
        }
    }
    failed += short_tables();
    println!("numbers seen, 0 to 8: {:?}", &numbers[..9]);
    for (name, file) in &full_files {
        time(name, file);
    }
    println!("{passed} passed, {failed} failed");
    if failed > 0 {
        std::process::exit(1);
    }
}
