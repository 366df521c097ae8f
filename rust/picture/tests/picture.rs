//! The marks are as many as the events, whatever the input; every page is well-formed, and nothing of the input is taken for a tag.

use depot_register::{Bearing, Depot};
use picture::arguments::{parse, Asked, Form};
use picture::filter::Filter;
use picture::run::{Event, Line, Run};
use std::collections::HashSet;
use picture::xml;

/// Numbers at random, the same every time.
struct Random(u64);

impl Random {
    fn below(&mut self, most: u64) -> u64 {
        self.0 = self.0.wrapping_mul(6_364_136_223_846_793_005).wrapping_add(1_442_695_040_888_963_407);
        (self.0 >> 33) % most
    }
}

/// So many lines, with counts at random.
fn lines(seed: u64, count: usize) -> Vec<u8> {
    let mut random = Random(seed);
    let counts = [4, 4, 12, 6].map(|most| 1 + random.below(most));
    lines_of(random, count, counts)
}

/// A setup, and after it calls with good numbers and some that are not, and lines that are none.
fn lines_of(mut random: Random, count: usize, [depots, shelves, bearings, crews]: [u64; 4]) -> Vec<u8> {
    let homes: Vec<String> = (0..crews).map(|_| random.below(depots).to_string()).collect();
    let mut text = format!("S {} {} {} {} {}\n", depots, shelves, bearings, crews, homes.join(" "));
    for _ in 1..count {
        let (crew, bearing) = (random.below(crews + 1), random.below(bearings + 1));
        let (depot, shelf, from) = (random.below(depots), random.below(shelves), random.below(depots));
        text += &match random.below(24) {
            0..=3 => format!("W {} {} {} 1112539136 1097859072\n", crew, bearing, random.below(146_200)),
            4..=5 => format!("R {} {}\n", crew, bearing),
            6 => format!("L {}{}\n", crew, (0..random.below(10)).map(|_| format!(" {}", random.below(bearings))).collect::<String>()),
            7..=9 => format!("K {} {}\n", depot, shelf),
            10..=18 => format!("T {} {} {}\n", depot, shelf, from),
            19..=22 => format!("F {} {}\n", depot, shelf),
            _ => ["hello\n", "M 0 1\n", "\n", "K 0  0\n"][random.below(4) as usize].to_string(),
        };
    }
    text.into_bytes()
}

fn svg(run: &Run, form: Form) -> String {
    picture::picture(run, &Asked { form, ..Asked::default() })
}

fn run(input: &[u8]) -> Run {
    Run::of(input, &mut |_| ())
}

#[test]
fn as_many_marks_as_events() {
    for seed in 0..40 {
        let run = run(&lines(seed, 200));
        assert_eq!(run.lines.len(), 200);
        for form in [Form::Svg, Form::Phone] {
            let svg = svg(&run, form);
            assert_eq!(xml::check(&svg), Ok(()));
            let marks = |mark: &str| svg.matches(mark).count();
            let done = |of: fn(&Event) -> bool| run.lines.iter().filter(|line| line.refused.is_none() && of(&line.event)).count();
            let refused = run.lines.iter().filter(|line| line.refused.is_some() || line.event == Event::Bad).count();
            let copies = || run.messages.iter().filter(|message| message.copy.is_some());
            let taken = copies().filter(|message| message.taken.is_some()).count();
            let shown = copies().filter(|message| message.shown.is_some()).count();
            let beats = run.messages.iter().filter(|message| message.copy.is_none() && message.taken.is_some()).count();
            assert_eq!(marks("class=\"row\""), run.lines.len());
            assert_eq!(marks("class=\"written\""), done(|event| matches!(event, Event::Write { .. })));
            let shelves = run.sections[0].counts.shelves;
            let shelves_read = |line: &Line| match &line.event {
                Event::Read { .. } => 1,
                Event::List { page, .. } => page.iter().map(|(bearing, _)| bearing.0 % shelves).collect::<HashSet<_>>().len(),
                _ => 0,
            };
            let read: usize = run.lines.iter().filter(|line| line.refused.is_none()).map(shelves_read).sum();
            assert_eq!(marks("class=\"read\""), read);
            assert_eq!(marks("class=\"page\""), done(|event| matches!(event, Event::List { .. })));
            assert_eq!(marks("class=\"dot tick\""), done(|event| matches!(event, Event::Tick { .. })));
            assert_eq!(marks("class=\"dot heard\""), beats);
            assert_eq!(marks("class=\"taken\""), taken);
            assert_eq!(taken + beats, done(|event| matches!(event, Event::Take { .. })), "each take that is done takes one");
            assert_eq!(marks("class=\"read refresh\""), done(|event| matches!(event, Event::Refresh { .. })));
            assert_eq!(marks("class=\"wait\""), taken);
            assert_eq!(marks("class=\"green\"") + marks("class=\"lower\""), shown);
            assert_eq!(marks("class=\"no\""), refused);
            let has = run.newest.iter().flat_map(|newest| &newest.has).filter(|&&has| has).count();
            assert_eq!(marks("class=\"green has\""), has);
        }
    }
}

#[test]
fn messages_are_sent_before_they_are_taken_and_taken_before_they_are_shown() {
    for seed in 0..40 {
        let run = run(&lines(seed, 400));
        let depots = run.sections[0].counts.depots as usize;
        for message in &run.messages {
            assert!(message.taken.map_or(true, |taken| taken > message.sent));
            assert!(message.shown.map_or(true, |shown| message.taken.is_some_and(|taken| shown > taken)));
        }
        let sends = |event: &Event| matches!(event, Event::Write { .. } | Event::Tick { .. });
        let sent = run.lines.iter().filter(|line| line.refused.is_none() && sends(&line.event)).count();
        assert_eq!(run.messages.len(), sent * (depots - 1), "one for each other depot");
    }
}

#[test]
fn any_bytes_give_a_page() {
    let mut random = Random(7);
    let odd: [&[u8]; 8] = [b"", b"\n", b"\n\n", b"\r\n", b"\xff\xfe", b"S 2 2 4 2 0 1", b"<svg/>\n&amp;", b"\0\0\n"];
    for input in odd {
        let run = run(input);
        let page = picture::picture(&run, &Asked::default());
        assert_eq!(xml::check(&page), Ok(()), "{:?}", input);
        assert_eq!(run.lines.len(), picture::run::lines(input).len());
    }
    for _ in 0..200 {
        let bytes: Vec<u8> = (0..random.below(600)).map(|_| b"SRWKTF 0123\n<&\"\xff\x00"[random.below(17) as usize]).collect();
        let input = [&lines(random.below(1_000), 20)[..], &bytes[..]].concat();
        assert_eq!(xml::check(&picture::picture(&run(&input), &Asked::default())), Ok(()));
    }
    // A second setup, with other counts, and lines before the first.
    let twice = [&b"R 0 0\n"[..], &lines(1, 60)[..], &lines(2, 60)[..], &lines(3, 60)[..]].concat();
    let run = run(&twice);
    assert_eq!(run.sections.len(), 3);
    assert_eq!(run.lines[0].refused, Some(1));
    assert_eq!(xml::check(&picture::picture(&run, &Asked::default())), Ok(()));
}

#[test]
fn text_is_escaped() {
    let run = run(b"<script>alert('1')</script>\nS 1 1 1 1 0\n\"&\\\x1b[31m\xe2\x80\xae\n");
    let title = "</title><script>alert(2)</script>\u{1}".to_string();
    let page = picture::picture(&run, &Asked { title, ..Asked::default() });
    assert_eq!(xml::check(&page), Ok(()));
    assert!(!page.contains("<script"));
    assert!(page.contains("&lt;script&gt;alert(&#39;1&#39;)&lt;/script&gt; → 13"));
    assert!(page.contains("&quot;&amp;\\\\\\x1b[31m\\xe2\\x80\\xae → 13"));
    assert!(!page.contains('\u{1}') && !page.contains('\u{1b}'));
    for outside in ["http://", "https://", "url(", "@import", "<img", "<link", "<iframe"] {
        let ours = page.matches("http://www.w3.org/2000/svg").count() + page.matches("url(#").count();
        assert!(page.matches(outside).count() <= ours, "{}", outside);
    }
}

#[test]
fn a_bad_line_and_an_unknown_one_are_shown_as_such() {
    let run = run(b"S 1 1 1 1 0\nhello\nL 0 0 0 x\nR 0 9\n");
    let svg = svg(&run, Form::Svg);
    assert_eq!(svg.matches("class=\"no\"").count(), 3);
    assert!(svg.contains("Refused: BAD LINE (13)"));
    assert!(svg.contains("Refused: BAD KEY (4)"));
}

#[test]
fn a_filter_leaves_what_it_names() {
    let run = run(&lines_of(Random(5), 5_000, [3, 2, 12, 6]));
    let rows = |filter: Filter| {
        let page = picture::picture(&run, &Asked { form: Form::Svg, filter, ..Asked::default() });
        assert_eq!(xml::check(&page), Ok(()));
        page.matches("class=\"row\"").count()
    };
    assert_eq!(rows(Filter::default()), 5_000);
    assert_eq!(rows(Filter { lines: Some((101, 160)), ..Filter::default() }), 60);
    let bearing = rows(Filter { bearing: Some(Bearing(0)), ..Filter::default() });
    let depot = rows(Filter { depot: Some(Depot(0)), ..Filter::default() });
    let both = rows(Filter { bearing: Some(Bearing(0)), depot: Some(Depot(0)), lines: Some((1, 2_000)) });
    assert!(0 < both && both < bearing && bearing < depot && depot < 5_000, "{} {} {}", both, bearing, depot);
    assert_eq!(rows(Filter { bearing: Some(Bearing(99)), lines: Some((2, 5_000)), ..Filter::default() }), 0);
}

#[test]
fn the_checker_refuses_what_is_not_well_formed() {
    for bad in [
        "", "<a>", "<a></b>", "<a/><b/>", "<a>&</a>", "<a>&nbsp;</a>", "<a b=c/>", "<a b=\"<\"/>", "<a b=\"1\" b=\"2\"/>",
        "x<a/>", "<a/>x", "<a>\u{1}</a>", "<a><b></a></b>", "<1/>", "<a", "<a b=\"1\"c=\"2\"/>", "<a>></a>",
    ] {
        assert!(xml::check(bad).is_err(), "{}", bad);
    }
    for good in ["<a/>", "<a b=\"1\" c-d=\"&lt;\">x &amp; y<b></b></a>\n", "<!DOCTYPE html>\n<html></html>"] {
        assert_eq!(xml::check(good), Ok(()), "{}", good);
    }
}

#[test]
fn options() {
    let parsed = |line: &str| parse(line.split_whitespace().map(String::from));
    assert_eq!(parsed("").unwrap(), Asked::default());
    let asked = parsed("--svg --bearing 3 --depot 1 --lines 10-20 --title x").unwrap();
    assert_eq!(asked.filter, Filter { bearing: Some(Bearing(3)), depot: Some(Depot(1)), lines: Some((10, 20)) });
    assert_eq!((asked.form, &asked.title[..]), (Form::Svg, "x"));
    for bad in ["--phone", "--lines 20-10", "--lines 0-1", "--lines 5", "--bearing x", "--bearing", "x"] {
        assert!(parsed(bad).is_err(), "{}", bad);
    }
}
