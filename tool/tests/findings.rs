//! What new users found, each as a test with its number; and what `check` and `answer` say.

mod common;

use common::{file, fixed, path, run, shell};

const TWO_LANES: &str = "\
lane 1 driving forward  0 0 0  8 0 0
lane 2 driving forward  8 0 0  16 0 0
link 1 successor 2
link 2 predecessor 1
";

/// What `check` prints of an accepted text.
fn checked(text: &str) -> String {
    run(&["check"], text.as_bytes()).done_text()
}

/// The warnings among it.
fn warned(text: &str) -> Vec<String> {
    let lines = checked(text);
    let lines = lines.lines().filter_map(|line| line.strip_prefix("warning: standard input"));
    lines.map(|line| line.trim_start_matches([',', ' ', ':']).to_string()).collect()
}

fn answered(text: &str) -> String {
    run(&["answer"], text.as_bytes()).done_text()
}

#[test]
fn finding_1_a_failed_make_writes_nothing() {
    let text = b"lane 1 1 forward 0 0 0 8 0 0\nlnk 1 successor 2\n";
    let said = run(&["make"], text).refused();
    assert!(said.contains("standard input, line 2: 'lnk': expected lane, link"), "{said}");
    let folder = std::env::temp_dir().join(format!("kartsodi-finding-1-{}", std::process::id()));
    std::fs::create_dir_all(&folder).unwrap();
    let plan = folder.join("my.plan");
    run(&["make", "-o", plan.to_str().unwrap()], text).refused();
    assert!(!plan.exists());
    run(&["make", "-o", plan.to_str().unwrap()], TWO_LANES.as_bytes()).done();
    run(&["make", "-o", plan.to_str().unwrap()], text).refused();
    assert_eq!(std::fs::read(&plan).unwrap(), run(&["make"], TWO_LANES.as_bytes()).done(), "what stood there stands");
    std::fs::remove_dir_all(&folder).unwrap();
    // Piped on, it is a plan without lanes, and no part of the one that was meant.
    let piped = shell("printf 'lane 1 1 forward 0 0 0 8 0 0\\nlnk 1 successor 2\\n' | $K make | $K answer --bits");
    assert_eq!(piped.text(), "plan 0 0 0\n");
    assert!(piped.err.contains("line 2: 'lnk'"), "{}", piped.err);
}

/// Nor does any other command write a part of a page; a file that cannot be written stays as it is.
#[test]
fn finding_1_a_refused_plan_leaves_no_page() {
    let page = std::env::temp_dir().join(format!("kartsodi-page-{}", std::process::id()));
    for command in ["answer", "draw", "sheet"] {
        run(&[command, "-o", page.to_str().unwrap()], b"link 1 successor 2").refused();
        assert!(!page.exists(), "{command}");
    }
    let folder = path("examples");
    assert!(run(&["answer", "-o", folder.to_str().unwrap()], b"")
        .refused()
        .contains("cannot be written: is a directory"));
}

/// Nor is what is read written over, by its name, by a link to it or through standard input.
#[test]
fn finding_1_what_is_read_stays() {
    let folder = std::env::temp_dir().join(format!("kartsodi-own-{}", std::process::id()));
    std::fs::create_dir_all(&folder).unwrap();
    let (text, link) = (folder.join("my.txt"), folder.join("link.txt"));
    std::fs::write(&text, TWO_LANES).unwrap();
    std::os::unix::fs::symlink(&text, &link).unwrap();
    let (text, link) = (text.to_str().unwrap(), link.to_str().unwrap());
    for command in ["make", "answer", "draw", "sheet"] {
        for line in
            [format!("'{text}' -o '{text}'"), format!("'{text}' -o '{link}'"), format!("-o '{text}' < '{link}'")]
        {
            let ran = shell(&format!("$K {command} {line}"));
            assert_eq!((ran.status, ran.text().as_str()), (2, ""), "{command} {line}");
            assert!(ran.err.contains("is what is read: -o names another file"), "{}", ran.err);
            assert_eq!(std::fs::read_to_string(text).unwrap(), TWO_LANES, "{command} {line}");
        }
    }
    std::fs::remove_dir_all(&folder).unwrap();
}

/// A plan that the library refuses is not written either.
#[test]
fn finding_1_a_refused_plan_is_not_written() {
    let said = run(&["make"], format!("{TWO_LANES}lane 1 bus forward 0 0 0 8 0 0\n").as_bytes()).refused();
    assert!(
        said.contains("refused with number 7") && said.contains("line 5: there is a lane 1 already: see line 1"),
        "{said}"
    );
}

#[test]
fn finding_2_output_that_cannot_be_written() {
    let example = path("examples/junction.txt");
    for command in ["make", "check", "answer", "answer --bits", "draw", "sheet", "make --help |", "--version |"] {
        let (words, name) = match command.strip_suffix(" |") {
            Some(words) => (words.to_string(), String::new()),
            None => (command.to_string(), format!("'{}'", example.display())),
        };
        let full = shell(&format!("$K {words} {name} > /dev/full"));
        assert_eq!(full.status, 1, "{command}: {}", full.err);
        assert!(full.err.contains("standard output cannot be written: no space left"), "{command}: {}", full.err);
        let closed = shell(&format!("$K {words} {name} >&-"));
        assert_eq!(closed.status, 1, "{command}: {}", closed.err);
        assert!(closed.err.contains("standard output is closed"), "{command}: {}", closed.err);
    }
    // The reader is gone before the answer comes.
    let line = format!("exec 3>&1; {{ sleep 0.5; $K answer '{}' 3>&-; echo $? >&3; }} | true", example.display());
    let gone = shell(&line);
    assert_eq!((gone.text().as_str(), gone.err.contains("cannot be written: broken pipe")), ("1\n", true), "{gone:?}");
    assert_eq!(shell("$K answer <&-").refused(), "kartsodi answer: standard input is closed\n");
    assert_eq!(shell("$K make -o /no/such/folder < /dev/null").refused().matches("cannot be written").count(), 1);
}

/// A file that is written only in part is taken away, and what stood there stays: a part of a plan may look like a plan. Here a file may have 512 or
/// 1,024 bytes.
#[test]
fn finding_2_a_file_that_cannot_be_written_whole() {
    let folder = std::env::temp_dir().join(format!("kartsodi-part-{}", std::process::id()));
    std::fs::create_dir_all(&folder).unwrap();
    let names = || std::fs::read_dir(&folder).unwrap().map(|entry| entry.unwrap().file_name()).collect::<Vec<_>>();
    let page = folder.join("my.plan");
    let (example, to) = (path("examples/crossing.txt"), page.display());
    let line = format!("trap '' XFSZ; ulimit -f 1; $K make '{}' -o '{to}'", example.display());
    let said = format!("kartsodi make: {to} cannot be written: file too large\n");
    assert_eq!(shell(&line).refused(), said);
    assert_eq!(names(), [""; 0]);
    std::fs::write(&page, "what stood there").unwrap();
    assert_eq!(shell(&line).refused(), said);
    assert_eq!((names(), std::fs::read(&page).unwrap()), (vec!["my.plan".into()], b"what stood there".to_vec()));
    std::fs::remove_dir_all(&folder).unwrap();
}

/// A file is replaced where it is: with its rights, and by a link too, which stays, also one to a file that is yet to be written.
#[test]
fn finding_2_a_file_is_replaced_where_it_is() {
    use std::os::unix::fs::{symlink, PermissionsExt};
    let folder = std::env::temp_dir().join(format!("kartsodi-place-{}", std::process::id()));
    std::fs::create_dir_all(folder.join("in")).unwrap();
    let (plan, made) = (folder.join("in/my.plan"), run(&["make"], TWO_LANES.as_bytes()).done());
    symlink("in/link", folder.join("first")).unwrap();
    symlink("my.plan", folder.join("in/link")).unwrap();
    let link = folder.join("first");
    for stood in [None, Some("what stood there, and is longer than the plan of two lanes that comes: ".repeat(9))] {
        if let Some(stood) = &stood {
            std::fs::write(&plan, stood).unwrap();
            std::fs::set_permissions(&plan, PermissionsExt::from_mode(0o640)).unwrap();
        }
        run(&["make", "-o", link.to_str().unwrap()], TWO_LANES.as_bytes()).done();
        assert_eq!(std::fs::read(&plan).unwrap(), made);
        assert_eq!(std::fs::read_link(&link).unwrap().to_str(), Some("in/link"));
        assert_eq!(std::fs::read_dir(folder.join("in")).unwrap().count(), 2);
        assert!(stood.is_none() || plan.metadata().unwrap().permissions().mode() & 0o777 == 0o640);
    }
    // What is no file is written as it is.
    let tee = path("examples/tee.txt");
    assert_eq!(shell(&format!("$K make '{}' -o /dev/stdout | cat", tee.display())).done(), file("examples/tee.plan"));
    let said = shell(&format!("$K make '{}' -o /dev/full", tee.display())).refused();
    assert_eq!(said, "kartsodi make: /dev/full cannot be written: no space left on device\n");
    std::fs::remove_dir_all(&folder).unwrap();
}

/// What is far too long is not read to its end.
#[test]
fn finding_6_an_input_that_is_far_too_long() {
    for command in ["make", "show", "check", "answer", "draw", "sheet"] {
        let said = shell(&format!("head -c 16777217 /dev/zero | $K {command}")).refused();
        assert!(said.contains("standard input is longer than 16777216 bytes"), "{command}: {said}");
    }
}

#[test]
fn finding_3_a_gap_at_a_successor() {
    let gap = "lane 1 driving forward 0 0 0 8 0 0\nlane 2 driving forward 108 0 0 116 0 0\n\
               link 1 successor 2\nlink 2 predecessor 1";
    let warnings = warned(gap);
    assert_eq!(warnings[0], "line 3: lane 1 ends 100.000 m from where lane 2 begins");
    assert_eq!(warnings[1], "line 4: lane 1 ends 100.000 m from where lane 2 begins");
    assert_eq!(warned(TWO_LANES), [""; 0]);
}

#[test]
fn finding_3_reversed_points() {
    let reversed = TWO_LANES.replace("8 0 0  16 0 0", "16 0 0  8 0 0");
    assert_eq!(
        warned(&reversed)[0],
        "line 3: lane 1 ends 8.000 m from where lane 2 begins; \
         other ends of them meet: is a lane's direction or the order of its points wrong?"
    );
    // Of a link from a lane to itself, no order of its points is right.
    let own = "lane 1 driving forward 0 0 0 8 0 0\nlink 1 successor 1\nlink 1 predecessor 1\n";
    assert_eq!(warned(own)[0], "line 2: lane 1 ends 8.000 m from where lane 1 begins");
    // The same points are right where the traffic goes against them.
    assert_eq!(warned(&reversed.replace("2 driving forward", "2 driving backward")), [""; 0]);
    assert_eq!(warned(&reversed.replace("2 driving forward", "2 driving both")), [""; 0]);
}

#[test]
fn finding_3_lanes_of_a_section() {
    let section = "lane 1 driving forward 0 -2 0 9 -2 0\nlane 2 driving backward 0 2 0 9 2 0\nsection 1 0 0 9 0 9\n";
    let placed = |one: i32, two: i32| format!("{section}place 1 1 0 {one}\nplace 2 1 0 {two}\n");
    assert_eq!(warned(&placed(-1, 1)), [""; 0]);
    assert_eq!(
        warned(&placed(1, -1)),
        ["line 5: lane 1 (number 1) is drawn to the right of lane 2 (number -1), and numbers fall from left to right"]
    );
    let against = placed(-1, 1).replace("0 2 0 9 2 0", "9 2 0 0 2 0");
    assert!(
        warned(&against)[0].starts_with("line 4: the points of lanes 2 and 1 of one section run against each other")
    );
}

#[test]
fn finding_3_links_are_not_mirrored() {
    let one_way = "lane 1 driving forward 0 0 0 8 0 0\nlane 2 driving forward 8 0 0 16 0 0\nlink 1 successor 2\n";
    let said = "its mirror, a predecessor link: an advance by a distance below 0 ends where its lane begins";
    assert_eq!(warned(one_way), [format!("the only successor link has not {said}")]);
    let two = format!("{one_way}lane 3 driving forward 16 0 0 24 0 0\nlink 2 successor 3\n");
    assert_eq!(warned(&two), [format!("none of the 2 successor links has {said}")]);
    let some = format!("{one_way}lane 3 driving forward 16 0 0 24 0 0\nlink 2 successor 3\nlink 3 predecessor 2\n");
    assert_eq!(
        warned(&some),
        ["line 3: there is no `link 2 predecessor 1`: an advance by a distance below 0 does not go back over it"]
    );
    let back = "lane 1 driving forward 0 0 0 8 0 0\nlane 2 driving forward 8 0 0 16 0 0\nlink 2 predecessor 1\n";
    assert_eq!(warned(back), ["line 3: there is no `link 1 successor 2`: no route and no advance goes on over it"]);
    let places = "section 1 0 0 8 0 8\nsection 2 0 0 8 0 8\nplace 1 1 0 -1\nplace 2 2 0 -1\nadvance 2 0 0 -6\n";
    let page = answered(&format!("{one_way}{places}"));
    assert!(page.contains("1. advance 6 m back from lane 2, station 0, offset 0\n"), "{page}");
    assert!(page.contains("dead end, 6.000 m short: lane 2, station 0.000"), "{page}");
    let page = answered(&format!("{TWO_LANES}{places}"));
    assert!(page.contains("reached: lane 1, station 2.000"), "{page}");
    let aside = "lane 1 driving forward 0 0 0 8 0 0\nlane 2 driving forward 0 3 0 8 3 0\nlink 1 neighbour 2\n";
    assert_eq!(warned(aside), ["line 3: there is no `link 2 neighbour 1`: no route changes back"]);
}

/// Neighbours that go different ways, without places, by points and direction.
#[test]
fn finding_3_neighbours_that_go_different_ways() {
    let two = |other: &str| {
        format!("lane 1 driving forward 0 0 0 40 0 0\nlane 2 driving {other}\nlink 1 neighbour 2\nlink 2 neighbour 1\n")
    };
    let warnings = [
        "line 3: lanes 1 and 2 are neighbours, and traffic on them goes different ways",
        "line 4: lanes 2 and 1 are neighbours, and traffic on them goes different ways",
    ];
    assert_eq!(warned(&two("backward 0 3.5 0 40 3.5 0")), warnings);
    assert_eq!(warned(&two("forward 40 3.5 0 0 3.5 0")), warnings);
    for right in ["forward 0 3.5 0 40 3.5 0", "backward 40 3.5 0 0 3.5 0", "both 0 3.5 0 40 3.5 0"] {
        assert_eq!(warned(&two(right)), [""; 0], "{right}");
    }
    // The library changes lanes all the same.
    let page = answered(&format!("{}route 10 0 0  5 3.5 0\n", two("backward 0 3.5 0 40 3.5 0")));
    assert!(page.contains("   lanes 1, 2; cost 30.000;"), "{page}");
}

#[test]
fn finding_3_kilometres() {
    let warnings = warned("lane 1 driving forward 0 0 0 0.032 0 0\nsection 1 0 0 32 0 32\nplace 1 1 0 -1\n");
    assert_eq!(warnings[0], "the whole plan is 0.032 m wide: are its points in kilometres?");
    assert!(
        warnings[1].ends_with("the stations of its section go 32.000 m on: are its points in kilometres?"),
        "{warnings:?}"
    );
}

#[test]
fn finding_3_stations_unlike_metres() {
    let placed = |stations: &str| {
        format!("lane 1 driving forward 0 0 0 20 0 0 32 0 0\nsection 1 0 0 32 {stations}\nplace 1 1 0 -1\n")
    };
    assert_eq!(warned(&placed("0 20 32")), [""; 0]);
    let warnings = warned(&placed("0 10 20"));
    assert_eq!(
        warnings[0],
        "line 2: section 0 of road 1 goes from 0.000 to 32.000, and its stations from 0.000 to 20.000"
    );
    assert_eq!(warnings[1], "line 3: lane 1 is 32.000 m long, and the stations of its section go 20.000 m on");
    let shifted = warned(&placed("0 10 32"));
    assert_eq!(
        shifted,
        ["line 3: lane 1 is 20.000 m long from point 1 to point 2, and the stations of its section go 10.000 m on"]
    );
    // The one that was found; and of a bend, what its outer lanes have more than the road is no mistake.
    let two = "lane 1 driving forward 0 0 0 32 0 0\nsection 1 0 0 20 0 20\nplace 1 1 0 -1\n";
    assert_eq!(warned(two), ["line 3: lane 1 is 32.000 m long, and the stations of its section go 20.000 m on"]);
    assert_eq!(warned(&two.replace("20 0 20", "31 0 31")), [""; 0]);
    assert_eq!(warned(&two.replace("20 0 20", "28 0 28")).len(), 1);
    let bend = "lane 1 driving forward 0 0 0 12 5 0 24 0 0\nsection 1 0 0 20 0 10 20\nplace 1 1 0 -1\n";
    assert_eq!(warned(bend), [""; 0]);
}

#[test]
fn a_plan_without_lanes() {
    assert_eq!(warned(""), ["the plan has no lanes"]);
}

/// Bus is 3, and routes start and end on driving lanes alone.
#[test]
fn finding_3_a_plan_in_which_no_lane_drives() {
    let text = "lane 1 3 forward 0 0 0 8 0 0\nroute 1 0 0 7 0 0\n";
    assert_eq!(warned(text), ["no lane is of the type driving (1): every route is refused"]);
    assert!(answered(text).contains("   refused with number 10: no lane of the plan drives"));
}

#[test]
fn finding_3_a_link_to_a_missing_lane() {
    let warnings = warned(&format!("{TWO_LANES}link 2 successor 9\n"));
    assert_eq!(warnings, ["line 5: lane 9 is not in the plan, so that the link leads nowhere"]);
}

#[test]
fn finding_3_the_side_of_an_offset() {
    let text = "lane 1 driving backward 0 0 0 8 0 0\nsection 1 0 0 8 0 8\nplace 1 1 0 1\nadvance 1 6 0.5 4\nadvance 1 6 -0.5 4\n";
    let page = answered(text);
    assert!(page.contains("reached: lane 1, station 2.000, 0.500 m to the left of its points"), "{page}");
    assert!(page.contains("reached: lane 1, station 2.000, 0.500 m to the right of its points"), "{page}");
}

#[test]
fn finding_3_what_else_can_be_told() {
    let odd = format!("{TWO_LANES}link 1 successor 2\nsection 1 0 0 8 0 8\nplace 1 1 0 -1\nsection 2 0 0 8 0 8\n");
    assert_eq!(
        warned(&odd),
        [
            "line 2: lane 2 has no place: no position of an advance is on it",
            "line 5: the same link stands before",
            "line 8: no lane has a place in section 0 of road 2",
        ]
    );
    let apart = "lane 1 driving forward 0 0 0 8 0 0\nlane 2 driving forward 0 30 0 8 30 0\n\
                 link 1 neighbour 2\nlink 2 neighbour 1\nlane 3 bus forward 1 1 0 1 1 0\n";
    assert_eq!(
        warned(apart),
        [
            "line 3: lanes 1 and 2 are neighbours and 30.000 m apart",
            "line 4: lanes 2 and 1 are neighbours and 30.000 m apart",
            "line 5: lane 3 has no length: all its points are one",
        ]
    );
}

/// How to draw: the page has each line of the text, as `make --help` prints them.
#[test]
fn finding_3_how_to_draw_has_the_lines() {
    let (page, help) = (file("docs/DRAWING.md"), run(&["make", "--help"], b"").done_text());
    let page = String::from_utf8(page).unwrap();
    let names = ["lane", "link", "section", "place", "route", "advance", "beside"];
    for name in names {
        let line = help.lines().find(|line| line.starts_with(&format!("  {name} "))).unwrap().trim();
        assert!(page.lines().any(|shown| shown.starts_with(&format!("    {line}"))), "{line}");
    }
}

/// Two ways of one cost: the library takes the one over the larger lane number.
#[test]
fn finding_3_equal_chains() {
    let text = "\
lane 1 driving forward  0 0 0  8 0 0
lane 2 driving forward  8 0 0  12 3 0  16 0 0
lane 3 driving forward  8 0 0  12 -3 0  16 0 0
lane 4 driving forward  16 0 0  24 0 0
link 1 successor 2
link 1 successor 3
link 2 successor 4
link 3 successor 4
route 2 0 0  20 0 0
";
    let note = "lanes 1, 2, 4 lead there at the same cost, so that another answer is as good as the library's";
    let page = answered(text);
    assert!(page.contains("   lanes 1, 3, 4; cost 18.000;") && page.contains(&format!("   note: {note}\n")), "{page}");
    assert_eq!(warned(text)[1], format!("line 9: {note}"));
    let page = answered(&text.replace("12 3 0", "12 4 0"));
    assert!(page.contains("   lanes 1, 3, 4; cost 18.000;") && !page.contains("note"), "{page}");
}

/// Where two lanes are linked both as successor and as neighbour, the cheaper counts, and is what is said.
#[test]
fn a_step_of_two_links_costs_the_cheaper() {
    let text = |metres: u8| {
        format!(
            "lane 1 driving forward 0 0 0 {metres} 0 0\nlane 2 driving forward {metres} 0 0 80 0 0\n\
             link 1 successor 2\nlink 1 neighbour 2\nroute 2 0 0 70 0 0\n"
        )
    };
    let page = answered(&text(8));
    assert!(page.contains("cost 8.000;") && page.contains("   cost: 8.000 for lane 1;"), "{page}");
    let page = answered(&text(40));
    assert!(
        page.contains("cost 30.000;") && page.contains("   cost: 30 for the change from lane 1 to lane 2;"),
        "{page}"
    );
}

/// A bus lane beside two driving lanes.
const BUS: &str = "\
lane 1 driving forward  0 0 0  8 0 0
lane 3 bus forward      0 -3.5 0  8 -3.5 0
route 2 -3.5 0  6 -3.5 0
route 2 -1 0    6 9 0
";

#[test]
fn finding_4_a_point_on_a_bus_lane() {
    let page = answered(BUS);
    let told = "taken to lane 1, which is 3.500 m away, 2.000 m along its points; \
                lane 3 (bus) is nearer, 0.000 m, but routes start and end on driving lanes alone";
    assert!(page.contains(&format!("start: {told}")), "{page}");
    assert!(page.contains("goal: taken to lane 1, which is 9.000 m away, 6.000 m along its points\n"), "{page}");
    assert!(page.contains("start: on lane 1, 2.000 m along its points, 1.000 m off\n"), "{page}");
    assert_eq!(
        warned(BUS),
        [
            "line 3: the start is taken to lane 1, which is 3.500 m away; lane 3 (bus) is nearer, 0.000 m, \
             but routes start and end on driving lanes alone",
            "line 3: the goal is taken to lane 1, which is 3.500 m away; lane 3 (bus) is nearer, 0.000 m, \
             but routes start and end on driving lanes alone",
            "line 4: the goal is taken to lane 1, which is 9.000 m away",
        ]
    );
}

/// A chain over a bus lane, which its links allow, is told.
#[test]
fn finding_4_a_route_over_a_bus_lane() {
    let text =
        "lane 1 driving forward 0 0 0 8 0 0\nlane 2 bus forward 8 0 0 16 0 0\nlane 3 driving forward 16 0 0 24 0 0\n\
                link 1 successor 2\nlink 2 successor 3\nroute 1 0 0 20 0 0\n";
    let page = answered(text);
    assert!(page.contains("   lanes 1, 2, 3; cost 16.000;"), "{page}");
    assert!(page.contains("   note: lane 2 of the chain is no driving lane (bus)\n"), "{page}");
}

/// At a stop line several lanes begin and end: the library takes the one that is written first.
#[test]
fn finding_4_a_point_as_near_to_other_lanes() {
    let text = format!("{TWO_LANES}lane 3 driving forward 8 0 0 16 4 0\nroute 2 0 0  8 0 0\nroute 8 3 0  8 0 0\n");
    let page = answered(&text);
    assert!(page.contains("   start: on lane 1, 2.000 m along its points, 0.000 m off\n"), "{page}");
    assert!(
        page.contains("   goal: on lane 1, 8.000 m along its points, 0.000 m off; lanes 2, 3 are as near\n"),
        "{page}"
    );
    let goal = "the goal is taken to lane 1, which is 0.000 m away; lanes 2, 3 are as near";
    assert!(warned(&text).contains(&format!("line 6: {goal}")), "{:?}", warned(&text));
    let between = "lane 5 driving forward 0 3 0 50 3 0\nlane 2 driving forward 0 -3 0 50 -3 0\nroute 5 0 0 45 3 0\n";
    assert_eq!(warned(between), ["line 3: the start is taken to lane 5, which is 3.000 m away; lane 2 is as near"]);
}

/// A plan of 196 lines: 64 lanes with their places, 64 links, and the sections.
fn many() -> String {
    let lanes: String =
        (0..64).map(|k| format!("lane {k} driving forward {} 0 0 {} 0 0\n", 8 * k, 8 * k + 8)).collect();
    let links: String = (0..64).map(|k| format!("link {k} successor {}\n", k + 1)).collect();
    let places: String = (0..64).map(|k| format!("place {k} {} 0 {}\n", k % 4, -1 - k / 4)).collect();
    let sections: String = (0..4).map(|k| format!("section {k} 0 0 8 0 8\n")).collect();
    lanes + &sections + &links + &places
}

#[test]
fn finding_5_a_refused_plan_names_the_record() {
    let good = many();
    assert_eq!(good.lines().count(), 196);
    assert!(checked(&good).starts_with("standard input is a plan (number 0): 64 lanes, 128 points, 64 links"));
    let twice = good.replace("place 40 0 0 -11\n", "place 40 0 0 -3\n");
    let said = run(&["check"], twice.as_bytes()).refused();
    assert_eq!(
        said,
        "kartsodi check: standard input is refused with number 7: a lane, a section, a place or an OpenDRIVE number stands twice\n\
         kartsodi check: standard input, line 173: section 0 of road 0 has a lane with the number -3 already: see line 141\n\
         kartsodi check: what to do: give each its own number\n"
    );
    let plan = run(&["make", "--unchecked"], twice.as_bytes()).done();
    let said = run(&["check"], &plan).refused();
    assert!(said.contains("standard input, record 173 (byte 3888): section 0 of road 0 has"), "{said}");
    assert!(said.contains("see record 141 (byte 3376)"), "{said}");
}

/// Every refused plan of the fixed list: this reading comes to the library's number, and names the record.
#[test]
fn finding_5_every_refusal_is_found() {
    let mut refused = 0;
    for (name, plan, printed) in fixed() {
        let number = String::from_utf8(printed).unwrap().split(' ').nth(1).unwrap().to_string();
        if number == "0" {
            continue;
        }
        refused += 1;
        let said = run(&["check", "--plan"], &plan).refused();
        assert!(said.contains(&format!("is refused with number {number}: ")), "{name}: {said}");
        assert_eq!(said.lines().count(), 3, "{name}: {said}");
        assert!(number == "2" || said.contains("standard input, record "), "{name}: {said}");
    }
    assert!(refused > 100, "{refused} refused");
}

#[test]
fn finding_5_each_number_in_words() {
    let lane = "lane 1 driving forward 0 0 0 8 0 0\n";
    for (text, said) in [
        (
            "lane 1 driving forward 0 0 0 5000 0 0".to_string(),
            "line 1: x of point 2 of lane 1 is 5000.0, and lies from -4096",
        ),
        ("lane 1 driving forward 0 0 0".into(), "line 1: lane 1 has 1 point, and needs two at least"),
        ("section 1 0 0 8 0 0".into(), "line 1: station 2 of section 0 of road 1 is 0.0 after 0.0, and stations rise"),
        ("section 1 0 9 8 0 8".into(), "line 1: section 0 of road 1 starts at 9.0, behind its end at 8.0"),
        (
            "section 1 0 0 2e6 0 8".into(),
            "line 1: end of section 0 of road 1 is 2000000.0, and lies from 0 to 1048576 metres",
        ),
        (
            (0..257).map(|k| lane.replace("lane 1", &format!("lane {k}"))).collect(),
            "line 257: with this lane the plan has 257 lanes",
        ),
        (lane.repeat(2), "line 2: there is a lane 1 already: see line 1"),
        ("section 1 0 0 8 0 8\n".repeat(2), "line 2: there is a section 0 of road 1 already: see line 1"),
        (
            format!("{lane}section 1 0 0 8 0 8\nplace 1 1 0 1\nplace 1 1 0 2"),
            "line 4: lane 1 has a place already: see line 3",
        ),
        (format!("{lane}link 2 successor 1"), "line 2: it is a link from lane 2, which is not in the plan"),
        (format!("{lane}place 2 1 0 1"), "line 2: it places lane 2, which is not in the plan"),
        (format!("{lane}place 1 1 0 1"), "line 2: section 0 of road 1 is not in the plan"),
        (
            format!("{lane}section 1 0 0 8 0 4 8\nplace 1 1 0 1"),
            "line 3: lane 1 has 2 points, and its section 3 stations: see line 2",
        ),
    ] {
        let heard = run(&["check"], text.as_bytes()).refused();
        assert!(heard.contains(said), "{said}: {heard}");
        assert_eq!(heard.matches("what to do: ").count(), 1, "{heard}");
        for command in ["make", "answer", "draw", "sheet"] {
            let same = heard.replace("kartsodi check", &format!("kartsodi {command}"));
            assert_eq!(run(&[command], text.as_bytes()).refused(), same);
        }
    }
}

#[test]
fn finding_6_words_of_make() {
    for (text, said) in [
        (&b"link 1 successor 2 3"[..], "line 1: '3': expected the end of the line"),
        (b"route 2 0 0 6 0", "line 1: the line ends, and expected was z of the goal"),
        (b"\nroute 1e40 0 0 0 0 0", "line 2: '1e40': expected x of the start: a number from -3.4028235e38"),
        (b"# caf\xE9\n", "line 1: the byte E9 is not UTF-8"),
        (b"\xFF\xFEl\0a\0", "is UTF-16: save the text as UTF-8"),
    ] {
        let heard = run(&["make"], text).refused();
        assert!(heard.contains(said), "{said}: {heard}");
    }
    // Each line with a fault is named, up to twenty.
    let heard = run(&["make"], "lnk\n".repeat(30).as_bytes()).refused();
    assert!(heard.contains("standard input, line 20: 'lnk'") && !heard.contains("line 21"), "{heard}");
    assert!(heard.ends_with("kartsodi make: standard input: and 10 more lines have faults\n"), "{heard}");
    let folder = path("crates");
    let folder = folder.to_str().unwrap();
    assert!(run(&["make", folder], b"").refused().contains("cannot be read: is a directory"));
    assert!(shell(&format!("$K make < '{folder}'"))
        .refused()
        .contains("standard input cannot be read: is a directory"));
    assert!(run(&["make", "/no/such/file"], b"").refused().contains("/no/such/file cannot be read: no such file"));
}

/// A text that is taken for a plan, and a plan for a text.
#[test]
fn finding_6_texts_and_plans_are_told_apart() {
    let (text, plan) = (file("examples/junction.txt"), file("examples/junction.plan"));
    assert!(run(&["check", "--plan"], &text).refused().contains("if it is a text, --text takes it as one"));
    assert!(run(&["check", "--text"], &plan).refused().contains("a zero byte stands in no text: is this a plan"));
    assert!(run(&["make"], &plan).refused().contains("a zero byte stands in no text: is this a plan"));
    assert!(run(&["show"], &text).refused().contains("is it a text, and no plan?"));
}

/// Faults of a file name it.
#[test]
fn finding_6_a_fault_names_its_file() {
    let name = std::env::temp_dir().join(format!("kartsodi-finding-6-{}.txt", std::process::id()));
    std::fs::write(&name, "link 1 successor\n").unwrap();
    let said = run(&["make", name.to_str().unwrap()], b"").refused();
    std::fs::remove_file(&name).unwrap();
    assert!(said.contains(&format!("{}, line 1: the line ends", name.display())), "{said}");
}

#[test]
fn finding_6_help_answers_at_once() {
    for command in ["make", "show", "check", "answer", "draw", "sheet"] {
        let help = run(&[command, "--help"], b"").done_text();
        assert!(help.starts_with(&format!("kartsodi {command} ")), "{help}");
        assert_eq!(run(&[command, "--version"], b"").done_text(), "kartsodi 0.1.0\n");
    }
    assert_eq!(run(&["--help"], b"").done(), run(&["help"], b"").done());
    for wrong in [&["maek"][..], &["make", "--bits"], &["make", "a", "b"], &[]] {
        let ran = run(wrong, b"");
        assert_eq!((ran.status, ran.out.len()), (2, 0), "{wrong:?}");
        assert!(ran.err.starts_with("kartsodi: "), "{}", ran.err);
    }
}

/// The example in metres and in words, and no zero below zero.
#[test]
fn finding_6_answers_in_metres() {
    let page = answered(&String::from_utf8(file("examples/junction.txt")).unwrap());
    for line in [
        "standard input: 6 lanes, 6 links, 5 questions",
        "1. route from (-30, -5.25, 0) to (1.75, 30, 0)",
        "   lanes 2, 1, 4, 6; cost 78.869; 32 points",
        "   cost: 30 for the change from lane 2 to lane 1, 30.000 for lane 1, 18.869 for lane 4; \
         the last lane does not count, so this is no distance driven",
        "   start: on lane 2, 10.000 m along its points, 0.000 m off",
        "   goal: on lane 6, 20.000 m along its points, 0.000 m off",
        "2. route from (1.75, 30, 0) to (-30, -5.25, 0)",
        "   refused with number 11: no chain of lanes leads to the goal. \
         What to do: the plan has no such way: look for a missing link",
        "3. advance 60 m on from lane 1, station 20, offset 0",
        "   2 positions; 4 keys",
        "   reached: lane 5, station 30.000",
        "   dead end, 1.131 m short: lane 6, station 30.000",
        "4. the lane to the right of lane 1 at station 20",
        "   lane 2, station 20.000",
        "   refused with number 15: no lane is on that side. What to do: nothing: this is the answer",
    ] {
        assert!(page.lines().any(|shown| shown == line), "{line}\n{page}");
    }
    assert!(!page.contains("-0.000"), "{page}");
}
