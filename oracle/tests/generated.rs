//! The generator, the shrinking, the comparer, the fixed list, and the figures of the papers.

use std::collections::BTreeMap;
use std::path::Path;
use std::process::Command;

use kartsodi_oracle::answer::Loaded;
use kartsodi_oracle::gen::{family_case, plans, random_case, FAMILIES};
use kartsodi_oracle::shrink::{pieces, shrink};
use kartsodi_oracle::{print, query};

#[test]
fn ten_thousand_plans_are_answered() {
    let mut numbers: BTreeMap<String, usize> = BTreeMap::new();
    let mut count = 0;
    for case in plans(1, 10_000) {
        let mut text = print::run(&case.file);
        let loaded = Loaded::new(&case.file);
        for asked in &case.queries {
            print::answer(&mut text, &loaded.answer(asked));
        }
        for line in text.lines() {
            let words: Vec<&str> = line.split(' ').collect();
            if !matches!(words[0], "lane" | "point" | "at" | "end") {
                *numbers.entry(format!("{} {}", words[0], words[1])).or_default() += 1;
            }
        }
        count += 1;
    }
    assert_eq!(count, 10_000);
    // Each number that each query can get was given.
    let plan = (2..=8).map(|n| format!("plan {n}"));
    let later = ["route 9", "route 10", "route 11", "route 14", "advance 12", "advance 13", "advance 14", "beside 12"];
    let caller = ["beside 15", "beside 5", "nearest 9", "nearest 10", "pose 12", "nearest 0", "pose 0", "route 0"];
    let all = plan.chain(later.iter().chain(&caller).map(|s| s.to_string()));
    for number in all {
        assert!(numbers.get(&number).is_some_and(|&n| n > 1), "{number}: {numbers:?}");
    }
}

#[test]
fn a_seed_gives_the_same_plans() {
    for index in 0..200 {
        assert_eq!(random_case(9, index).file, random_case(9, index).file);
    }
    assert_ne!(random_case(9, 0).file, random_case(10, 0).file);
}

#[test]
fn families_are_accepted() {
    for (name, _) in FAMILIES {
        for index in 0..40 {
            let case = family_case(name, 5, index).unwrap();
            let number = Loaded::new(&case.file).plan().err();
            // A full plan may be too long for a file, which is a number too.
            assert!(number.is_none() || (*name == "full" && number == Some(2)), "{}: {number:?}", case.name);
        }
    }
}

#[test]
fn queries_are_read_as_written() {
    for index in 0..300 {
        for asked in random_case(3, index).queries {
            let read = query::parse(&query::to_line(&asked)).unwrap();
            assert_eq!(query::to_line(&read), query::to_line(&asked));
        }
    }
}

#[test]
fn shrinking_keeps_what_shows() {
    let case = family_case("town", 1, 3).unwrap();
    let all = pieces(&case.file);
    // It shows while the first lane and the last record are there.
    let (first, last) = (all[0].clone(), all[all.len() - 1].clone());
    let small = shrink(&case.file, |file| {
        let pieces = pieces(file);
        pieces.contains(&first) && pieces.contains(&last)
    });
    assert_eq!(pieces(&small), [first, last]);
}

fn compare(arguments: &[&str]) -> (bool, String) {
    let output = Command::new(env!("CARGO_BIN_EXE_plan-compare")).args(arguments).output().unwrap();
    (output.status.success(), String::from_utf8_lossy(&output.stdout).into_owned())
}

#[test]
fn the_comparer_agrees_and_reports() {
    let program = env!("CARGO_BIN_EXE_oracle-run");
    let (agreed, text) = compare(&["--count", "300", "oracle", program]);
    assert!(agreed && text.contains("300 passed, 0 failed"), "{text}");
    // A program that prints nothing differs on the first plan, and on the empty file it shrinks to.
    let (agreed, text) = compare(&["--count", "5", "oracle", "true"]);
    assert!(!agreed && text.contains("shrunk to 0"), "{text}");
}

#[test]
fn the_comparer_shrinks_a_difference() {
    // A wrong oracle that prefers the smaller lane number: four lanes, four links and the route show it.
    let program = format!("{} --run {}", env!("CARGO_BIN_EXE_wrong-oracles"), number_of("o.lane.0.cmp(&self.lane.0)"));
    let kept = Path::new(env!("CARGO_TARGET_TMPDIR")).join("small.plan");
    let (agreed, text) = compare(&["--count", "40", "--keep", kept.to_str().unwrap(), "oracle", &program]);
    assert!(!agreed && text.contains("difference on junction-equal-costs"), "{text}");
    assert_eq!(pieces(&std::fs::read(kept).unwrap()).len(), 9, "{text}");
}

/// The number of a wrong oracle, by its new text.
fn number_of(new: &str) -> usize {
    let table = include_str!(concat!(env!("OUT_DIR"), "/wrong/table.rs"));
    let line = table.lines().position(|line| line.contains(&format!("{new:?}")));
    line.expect("the wrong oracle is listed")
}

#[test]
fn the_fixed_list_replays() {
    let folder = Path::new(env!("CARGO_MANIFEST_DIR")).join("fixed");
    let made = Path::new(env!("CARGO_TARGET_TMPDIR")).join("list");
    let status = Command::new(env!("CARGO_BIN_EXE_plan-gen")).arg("--list").arg(&made).status().unwrap();
    assert!(status.success());
    let names = |folder: &Path| -> Vec<String> {
        let mut names: Vec<String> = std::fs::read_dir(folder)
            .unwrap()
            .map(|entry| entry.unwrap().file_name().into_string().unwrap())
            .filter(|name| !name.ends_with(".md"))
            .collect();
        names.sort();
        names
    };
    assert_eq!(names(&folder), names(&made));
    for name in names(&folder) {
        assert_eq!(std::fs::read(folder.join(&name)).unwrap(), std::fs::read(made.join(&name)).unwrap(), "{name}");
    }
}

/// The last line of a script that counts.
fn last_line(script: &str, arguments: &[&str]) -> String {
    let script = Path::new(env!("CARGO_MANIFEST_DIR")).join(script);
    let output = Command::new(script).args(arguments).output().unwrap();
    String::from_utf8_lossy(&output.stdout).lines().last().unwrap_or_default().to_string()
}

#[test]
fn replay_counts() {
    let program = env!("CARGO_BIN_EXE_oracle-run");
    assert_eq!(last_line("replay", &[program]), "413 passed, 0 failed");
    assert_eq!(last_line("replay", &["--query", &format!("{program} --query /dev/stdin")]), "156 passed, 0 failed");
    // It prints what it should, and then fails.
    let failing = Path::new(env!("CARGO_TARGET_TMPDIR")).join("failing");
    std::fs::write(&failing, format!("{program}\nexit 3\n")).unwrap();
    assert_eq!(last_line("replay", &[&format!("sh {}", failing.display())]), "0 passed, 413 failed");
}

#[test]
fn the_papers_have_the_figures_of_the_table() {
    let table = include_str!(concat!(env!("OUT_DIR"), "/wrong/table.rs"));
    let wrong: Vec<&str> = table.lines().filter(|line| line.starts_with("    (")).collect();
    let told = wrong.iter().filter(|line| line.ends_with(", \"\"),")).count();
    let (all, equal) = (wrong.len(), wrong.len() - told);
    let (readme, list) = (include_str!("../README.md"), include_str!("../WRONG.md"));
    assert!(list.contains(&format!("\n{all} oracles with")));
    assert!(list.contains(&format!("\n## Told apart: {told}\n")));
    assert!(list.contains(&format!("\n## Not told apart, since nothing can: {equal}\n")));
    assert!(readme.contains(&format!("`wrong-oracles` holds {all} oracles")));
    assert!(readme.contains(&format!("{told} are told apart; {equal} answer")));
}
