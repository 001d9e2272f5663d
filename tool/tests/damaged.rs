//! Damaged texts and plans: no panic, and of each run a status and, where it is not 0, a word.

mod common;

use common::{file, fixed, run, Random};

const COMMANDS: [&[&str]; 7] =
    [&["make"], &["show"], &["check"], &["answer"], &["answer", "--bits"], &["draw"], &["sheet"]];

/// Runs every command over an input.
fn survives(input: &[u8]) {
    for words in COMMANDS {
        let ran = run(words, input);
        assert!(ran.status == 0 || ran.status == 1, "{words:?}: status {}: {}", ran.status, ran.err);
        assert_eq!(ran.status == 0, ran.err.is_empty(), "{words:?}: status {}: {}", ran.status, ran.err);
        let prefix = format!("kartsodi {}: ", words[0]);
        assert!(ran.err.lines().all(|line| line.starts_with(&prefix)), "{words:?}: {}", ran.err);
    }
}

/// Changes, drops, doubles or moves a few bytes, or cuts the end off.
fn damaged(random: &mut Random, bytes: &[u8]) -> Vec<u8> {
    let mut bytes = bytes.to_vec();
    for _ in 0..1 + random.below(4) {
        let at = random.below(bytes.len().max(1)).min(bytes.len());
        match random.below(6) {
            0 => bytes.truncate(at),
            1 => bytes.insert(at, random.bits() as u8),
            2 => drop(bytes.splice(at..(at + 1 + random.below(9)).min(bytes.len()), [])),
            3 => {
                let part = bytes[at..(at + 40).min(bytes.len())].to_vec();
                let to = random.below(bytes.len().max(1)).min(bytes.len());
                bytes.splice(to..to, part);
            }
            _ => {
                if let Some(byte) = bytes.get_mut(at) {
                    *byte = if random.below(2) == 0 { random.bits() as u8 } else { *byte ^ (1 << random.below(8)) };
                }
            }
        }
    }
    bytes
}

/// Puts odd words in the place of some.
fn misspelt(random: &mut Random, text: &str) -> String {
    const ODD: [&str; 20] = [
        "",
        "lnk",
        "nan",
        "-inf",
        "1e40",
        "1e400",
        "-1",
        "65536",
        "é",
        "bits:7FC00001",
        "3,5",
        "lane",
        "ends",
        "#",
        "\n",
        "99999999999999999999",
        "0x10",
        "both",
        "successor",
        "\u{202E}",
    ];
    let words: Vec<&str> = text.split(' ').collect();
    let chosen = |random: &mut Random| random.below(words.len() / 3 + 1) == 0;
    let all = words.iter().map(|word| if chosen(random) { *random.pick(&ODD) } else { *word });
    all.collect::<Vec<_>>().join(" ")
}

#[test]
fn five_hundred_texts() {
    let mut random = Random(2026);
    let text = file("examples/junction.txt");
    for _ in 0..250 {
        survives(&damaged(&mut random, &text));
        survives(misspelt(&mut random, &String::from_utf8_lossy(&text)).as_bytes());
    }
}

#[test]
fn five_hundred_plans() {
    let mut random = Random(2027);
    let mut plans: Vec<Vec<u8>> =
        fixed().into_iter().map(|(_, plan, _)| plan).filter(|plan| plan.len() < 4096).collect();
    plans.push(file("examples/junction.plan"));
    for _ in 0..500 {
        let plan = random.pick(&plans).clone();
        survives(&damaged(&mut random, &plan));
    }
}

#[test]
fn bytes_of_any_kind() {
    let mut random = Random(2028);
    for length in 0..50 {
        survives(&(0..length).map(|_| random.bits() as u8).collect::<Vec<_>>());
    }
    survives(&[0; 70_000]);
    survives(&[b'x'; 70_000]);
    survives(&[b'\n'; 70_000]);
    survives("lane ".repeat(20_000).as_bytes());
}
