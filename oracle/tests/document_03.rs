//! Decisions of document 03 that an answer shows.

use kartsodi_oracle::answer::{Answer, Loaded};
use kartsodi_oracle::gen::{bounds, edges, junction, Case};
use kartsodi_oracle::print;
use kartsodi_oracle::reader::Query;

fn case(name: &str) -> Case {
    let all = junction::cases().into_iter().chain(edges::cases()).chain(bounds::cases());
    all.into_iter().find(|case| case.name == name).expect(name)
}

fn first_lines(name: &str, count: usize) -> Vec<String> {
    print::run(&case(name).file).lines().take(count).map(str::to_string).collect()
}

/// The number that a file gets.
fn number(name: &str) -> u8 {
    Loaded::new(&case(name).file).plan().err().unwrap_or(0)
}

#[test]
fn printing() {
    // 1: a refused beside has its position, in zeros.
    let text = print::run(&case("junction-sides").file);
    assert!(text.contains("beside 15\nat 0 0000000000000000 0000000000000000\n"));
    // 3 and 4: refused files and queries.
    assert_eq!(print::run(&[1]), "plan 3 0 0\n");
    assert_eq!(print::run(&[]), "plan 0 0 0\n");
    assert_eq!(first_lines("junction-empty-route", 2), ["plan 0 0 0", "route 10 0 0 00000000"]);
    assert_eq!(first_lines("junction-keys-1025", 2)[1], "advance 14 0 0");
    // 6: all NaNs are one, minus zero stays.
    let text = print::run(&case("junction-offset-nan").file);
    assert!(text.contains(" 7FF8000000000000\n") && text.contains(" 8000000000000000\n"));
    let text = print::run(&case("edge-odd-nans").file);
    assert_eq!(text.matches(" 7FF8000000000000\n").count(), 4);
}

#[test]
fn refused_queries_print_zeros() {
    // 4 and 24: each number of a query, in order; 9 before 10, and 12 before 13.
    let heads = |name: &str| -> String {
        let text = print::run(&case(name).file);
        let number = |line: &str| line.split(' ').nth(1).unwrap_or_default().to_string();
        let heads = text.lines().filter(|line| line.starts_with(['r', 'a', 'b']) && !line.starts_with("at"));
        heads.map(number).collect::<Vec<_>>().join(" ")
    };
    let (nine, twelve) = (["9"; 6].join(" "), ["12"; 18].join(" "));
    assert_eq!(heads("junction-refused-queries"), format!("0 0 {nine} 11 {twelve} 13 13 13 15 15 0 0"));
    assert_eq!(heads("junction-empty-queries"), format!("10 12 {nine} 10 {twelve} 12 12 12 12 12 10 12"));
    assert_eq!(heads("junction-nothing-drives"), "10 9 0");
    let text = print::run(&case("junction-refused-queries").file);
    for refused in ["route 9 0 0 00000000\n", "route 11 0 0 00000000\n", "advance 12 0 0\n", "advance 13 0 0\n"] {
        assert!(text.contains(refused), "{refused}");
    }
    assert!(text.contains("beside 12\nat 0 0000000000000000 0000000000000000\n"));
}

#[test]
fn numbers_2_to_6() {
    let expected = [
        ("size-65536", 0),
        ("size-65537", 2),
        ("size-65537-bad-first", 2),
        ("size-65535", 3),
        ("size-65536-unknown", 4),
        ("order-unknown-past-the-file", 3),
        ("order-bad-type-wrong-length", 4),
        ("order-bad-type-then-unknown-past-the-file", 5),
        ("order-unknown-then-unknown-past-the-file", 4),
        ("order-again-then-unknown-past-the-file", 3),
        ("lanes-256", 0),
        ("lanes-257", 6),
        ("lanes-257-bad-type", 5),
        ("lanes-257-one-point", 5),
        ("lanes-257-direction", 5),
        ("lanes-257-coordinate", 5),
        ("lanes-257-none", 6),
        ("links-2048", 0),
        ("links-2049", 6),
        ("links-2049-role", 5),
        ("points-one-lane-4096", 0),
        ("points-one-lane-4097", 6),
        ("points-two-lanes-4096", 0),
        ("points-two-lanes-4097", 6),
        ("points-twice-4096", 7),
        ("points-twice-4097", 6),
        ("sections-64", 0),
        ("sections-65", 6),
        ("sections-65-start", 5),
        ("stations-4096", 0),
        ("stations-4097", 6),
        ("places-256", 0),
        ("places-257", 6),
        ("header-4294967295-1", 3),
        ("header-0-1", 4),
        ("length-lane-6", 4),
        ("length-lane-31", 0),
        ("length-lane-32", 4),
        ("length-section-21", 4),
        ("length-link-6", 4),
        ("lane-ends-2-24", 5),
        ("lane-ends-2-0", 4),
        ("lane-ends-255-24", 5),
        ("lane-ends-1-24", 0),
        ("lane-ends-0-24", 4),
        ("lane-count-0-0", 5),
        ("lane-count-1-1", 5),
        ("lane-count-2-2", 0),
        ("section-count-1-1", 5),
        ("section-count-0-0", 5),
        ("stations-1", 5),
        ("section-ends-0", 0),
        ("section-ends-2", 5),
        ("section-both-8000000000000000", 0),
        ("section-both-8000000000000001", 5),
        ("section-both-4130000000000000", 0),
        ("section-both-4130000000000001", 5),
        ("kind-5-28", 4),
        ("kind-7-10", 4),
        ("kind-19-10", 4),
        ("kind-257-5", 4),
        ("role-2", 0),
        ("role-3", 5),
        ("side-1", 0),
        ("side-2", 5),
        ("lane-byte-2-27", 0),
        ("lane-byte-2-28", 5),
        ("lane-byte-3-2", 0),
        ("lane-byte-3-3", 5),
    ];
    for (name, expected) in expected {
        assert_eq!(number(&format!("bounds-{name}")), expected, "{name}");
    }
}

#[test]
fn numbers_7_and_8() {
    let expected = [
        ("twice-lane", 7),
        ("twice-section", 7),
        ("twice-place-of-lane", 7),
        ("twice-lane-id", 7),
        ("twice-lane-id-lane-missing", 7),
        ("twice-place-section-missing", 7),
        ("twice-in-missing-section", 7),
        ("order-missing-from-then-again", 7),
        ("once-0-1--1", 0),
        ("once-1-0--1", 0),
        ("once-0-0-1", 0),
        ("links-twice", 0),
        ("absent-from-0", 8),
        ("absent-from-2", 8),
        ("absent-to-0", 0),
        ("absent-to-2", 0),
        ("absent-placed-lane", 8),
        ("absent-section-0-1", 8),
        ("absent-section-40-0", 8),
        ("counts-differ", 8),
        ("counts-differ-unplaced", 0),
        ("absent-query-lane", 0),
        ("reversed", 0),
    ];
    for (name, expected) in expected {
        assert_eq!(number(&format!("bounds-{name}")), expected, "{name}");
    }
}

#[test]
fn a_side_of_the_caller() {
    let side_2 = Query::Beside { lane: 1, s: 2.0, side: 2 };
    for (name, expected) in
        [("twice-lane", 5), ("absent-from-0", 5), ("links-2049", 6), ("size-65537", 2), ("role-3", 5)]
    {
        let answer = Loaded::new(&case(&format!("bounds-{name}")).file).answer(&side_2);
        assert!(matches!(answer, Answer::Beside(Err(number)) if number == expected), "{name}: {answer:?}");
    }
}

#[test]
fn the_box_test() {
    // 31: the lane behind its box is not measured.
    assert_eq!(first_lines("junction-box-test", 3)[2], "lane 2");
}

#[test]
fn one_key_for_a_lane_without_length() {
    // 36: lanes 2 and 3 each have one key, though they are entered from either end; then nothing is left to enter.
    assert_eq!(first_lines("junction-zero-length-key", 2)[1], "advance 0 2 0");
}

#[test]
fn long_lanes() {
    // 37: a short trip on a lane of a thousand kilometres is answered, its whole length is refused.
    let text = print::run(&case("junction-long-lane-short-trip").file);
    let routes: Vec<&str> = text.lines().filter(|line| line.starts_with("route")).collect();
    assert_eq!(routes, ["route 0 1 11 00000000", "route 14 0 0 00000000", "route 11 0 0 00000000"]);
}

#[test]
fn far_points_take_the_first_span() {
    // 32: all squares are infinite.
    let lines = first_lines("junction-far-points", 4);
    assert_eq!(lines[1..3], ["route 0 2 7 41000000", "lane 1"]);
}

#[test]
fn an_advance_by_nothing_may_move() {
    let text = print::run(&case("edge-advance-by-nothing").file);
    // From station 4020000000000003 to the next float.
    assert!(text.contains("at 1 4020000000000004 0000000000000000\n"));
}
