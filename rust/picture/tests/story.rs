//! The story that README.md begins with, and its picture.

use std::fs;
use std::path::Path;

use depot_register::{raw, ANSWER_BYTES, WORDS};
use picture::arguments::{Asked, Form};
use picture::run::Run;

/// The lines of the story and their answers, from its table.
fn story() -> Vec<(String, String)> {
    let readme = Path::new(env!("CARGO_MANIFEST_DIR")).join("../../README.md");
    let text = fs::read_to_string(readme).unwrap();
    let start = text.find("## A bearing moves to a new motor").unwrap();
    let rows = text[start..].lines().skip_while(|line| !line.starts_with("| `")).take_while(|line| line.starts_with('|'));
    let cell = |row: &str, at: usize| row.split('|').nth(at).unwrap().trim().trim_matches('`').to_string();
    rows.map(|row| (cell(row, 1), cell(row, 2))).collect()
}

fn line(book: &mut [u32], line: &str) -> String {
    let mut out = [0; ANSWER_BYTES];
    let length = raw::line(book, line.as_bytes(), &mut out);
    String::from_utf8(out[..length - 1].to_vec()).unwrap()
}

/// The number that an attribute has in a tag.
fn attribute(tag: &str, name: &str) -> i32 {
    let after = tag.split(&format!(" {}=\"", name)).nth(1).unwrap();
    after.split('"').next().unwrap().parse().unwrap()
}

#[test]
fn the_desk_answers_as_it_is_told() {
    let story = story();
    assert_eq!(story.len(), 15);
    let mut book = vec![0; WORDS];
    for (asked, answer) in &story {
        assert_eq!(line(&mut book, asked), *answer, "{}", asked);
    }
}

#[test]
fn hidden_exactly_while_the_desk_hides_it() {
    let story = story();
    // By the desk: after which lines the bearing's copy is taken at depot 1, and crew 1 is not shown it. Each question is put
    // to a copy of the book.
    let mut book = vec![0; WORDS];
    let mut written = false;
    let mut hidden = Vec::new();
    for (at, (asked, answer)) in story.iter().enumerate() {
        line(&mut book, asked);
        written |= asked.starts_with("W 0 0") && answer.starts_with("0 ");
        let taken = written && line(&mut book.clone(), "T 1 0 0") == "7";
        let unwritten = line(&mut book.clone(), "R 1 0").starts_with("0 -");
        if taken && unwritten {
            hidden.push(at + 1);
        }
    }
    let (first, last) = (hidden[0], hidden[hidden.len() - 1]);
    assert_eq!(hidden, (first..=last).collect::<Vec<_>>());

    // By the picture: one stretch of bearing 0, from the row of the first of these lines to that of the line after the last.
    let lines: Vec<&str> = story.iter().map(|(line, _)| &line[..]).collect();
    let run = Run::of(lines.join("\n").as_bytes(), &mut |_| ());
    let svg = picture::picture(&run, &Asked { form: Form::Svg, ..Asked::default() });
    let waits: Vec<&str> = svg.split("<g class=\"wait\"").skip(1).filter(|wait| attribute(wait, "data-bearing") == 0).collect();
    assert_eq!(waits.len(), 1);
    let wait = waits[0];
    assert_eq!((attribute(wait, "data-from"), attribute(wait, "data-to")), (first as i32, last as i32 + 1));
    assert_eq!(attribute(wait, "data-depot"), 1);

    // And as it is drawn: its ends lie within these rows.
    let bar = wait.split("<rect").nth(1).unwrap();
    let (top, bottom) = (attribute(bar, "y"), attribute(bar, "y") + attribute(bar, "height"));
    let number = |line: usize| {
        let row = svg.split(&format!("<g id=\"d{}\"", line)).nth(1).unwrap();
        attribute(row.split("<text").nth(1).unwrap(), "y")
    };
    assert!(number(first) - 28 < top && top < number(first + 1) - 18, "from line {}", first);
    assert!(number(last + 1) - 28 < bottom && bottom < number(last + 2) - 18, "to line {}", last + 1);
}

#[test]
fn everybody_has_it_and_the_auditor_is_content() {
    let lines: Vec<String> = story().into_iter().map(|(line, _)| line).collect();
    let run = Run::of(lines.join("\n").as_bytes(), &mut |_| ());
    assert!(run.newest.iter().all(|newest| newest.has == [true, true]));
    assert!(run.word.unwrap().starts_with("causal"));
}
