//! A desk with a journal, by the straight version, and its snapshot: what the killing test is tried on. With a slip it makes one
//! mistake, which the killing test must find.
//!
//!     straight_desk SLIP desk JOURNAL [IMAGE]
//!     straight_desk SLIP snapshot JOURNAL NEW_IMAGE [IMAGE]

use std::fs::{self, File, OpenOptions};
use std::io::{self, Read, Write};
use std::process::exit;
use std::thread::sleep;
use std::time::Duration;
use std::{env, path::Path};

use straight::{desk_with_journal, load_image, recover, save_image, Recovered, CUT, IMAGE, WHOLE, WORDS};

/// The mistakes.
#[derive(Clone, Copy, PartialEq)]
enum Slip {
    None,
    /// An answer is given before its record is written.
    AnswersFirst,
    /// Records are written, but not synced.
    NeverSyncs,
    /// The answers are given between the write and the sync.
    SyncsLate,
    /// Records are written when there are many.
    Gathers,
    /// What is left of a torn record stays in the file.
    KeepsTail,
    /// A refused line has a record too: that of a tick.
    RecordsRefusals,
    /// The last record is not recovered.
    ForgetsLast,
    /// The image is not loaded.
    ForgetsImage,
    /// Where the disk is full it goes on.
    GoesOnWhenFull,
    /// A journal with a fault is cut before it.
    CutsFaults,
    /// More is cut off than a torn record has.
    CutsLong,
    /// A new register is saved, and not the journal's.
    SavesAnother,
}

/// The bytes of the longest record that a call leaves.
const LONGEST: usize = 82;

const SLIPS: [(&str, Slip); 13] = [
    ("None", Slip::None),
    ("AnswersFirst", Slip::AnswersFirst),
    ("NeverSyncs", Slip::NeverSyncs),
    ("SyncsLate", Slip::SyncsLate),
    ("Gathers", Slip::Gathers),
    ("KeepsTail", Slip::KeepsTail),
    ("RecordsRefusals", Slip::RecordsRefusals),
    ("ForgetsLast", Slip::ForgetsLast),
    ("ForgetsImage", Slip::ForgetsImage),
    ("GoesOnWhenFull", Slip::GoesOnWhenFull),
    ("CutsFaults", Slip::CutsFaults),
    ("CutsLong", Slip::CutsLong),
    ("SavesAnother", Slip::SavesAnother),
];

fn main() {
    let words: Vec<String> = env::args().skip(1).collect();
    let words: Vec<&str> = words.iter().map(String::as_str).collect();
    let slip = words.first().and_then(|name| SLIPS.iter().find(|slip| slip.0 == *name)).map(|slip| slip.1);
    let outcome = match (slip, words.get(1..).unwrap_or(&[])) {
        (Some(slip), ["desk", journal]) => desk(slip, journal, None),
        (Some(slip), ["desk", journal, image]) => desk(slip, journal, Some(image)),
        (Some(slip), ["snapshot", journal, to]) => snapshot(slip, journal, to, None),
        (Some(slip), ["snapshot", journal, to, image]) => snapshot(slip, journal, to, Some(image)),
        _ => Err("it takes a slip, desk or snapshot, and files".to_string()),
    };
    if let Err(why) = outcome {
        eprintln!("straight_desk: {}", why);
        exit(1);
    }
}

fn told(path: &str) -> impl Fn(io::Error) -> String + '_ {
    move |error| format!("{}: {}", path, error)
}

/// The book of a journal, its file, and what of it counts.
fn opened(slip: Slip, path: &str, image: Option<&str>) -> Result<(Vec<u32>, File, Recovered), String> {
    let mut book = vec![0; WORDS];
    if let Some(image) = image.filter(|_| slip != Slip::ForgetsImage) {
        let bytes = fs::read(image).map_err(told(image))?;
        load_image(&mut book, &bytes).map_err(|number| format!("{}: {}", image, number))?;
    }
    let mut file = OpenOptions::new().read(true).append(true).create(true).open(Path::new(path)).map_err(told(path))?;
    let mut bytes = Vec::new();
    file.read_to_end(&mut bytes).map_err(told(path))?;
    let start = book.clone();
    let mut found = recover(&mut book, &bytes);
    if slip == Slip::ForgetsLast && found.bytes > 0 {
        book = start;
        found = recover(&mut book, &bytes[..found.bytes - 1]);
    }
    let torn = found.ended == CUT && (bytes.len() - found.bytes < LONGEST || slip == Slip::CutsLong);
    if found.ended != WHOLE && !torn && slip != Slip::CutsFaults {
        return Err(format!("{}: record {} is refused: {}", path, found.records + 1, found.ended));
    }
    Ok((book, file, found))
}

fn desk(slip: Slip, path: &str, image: Option<&str>) -> Result<(), String> {
    let (mut book, mut file, found) = opened(slip, path, image)?;
    if slip != Slip::KeepsTail {
        file.set_len(found.bytes as u64).map_err(told(path))?;
    }
    file.sync_all().map_err(told(path))?;
    eprintln!("straight_desk: {}: {} records", path, found.records);
    let (mut input, mut output) = (io::stdin().lock(), io::stdout().lock());
    let (mut piece, mut left, mut records) = (vec![0; 1 << 14], Vec::new(), Vec::new());
    loop {
        let length = input.read(&mut piece).map_err(told("standard input"))?;
        left.extend_from_slice(&piece[..length]);
        let end = match left.iter().rposition(|&byte| byte == b'\n') {
            _ if length == 0 => left.len(),
            Some(at) => at + 1,
            None => continue,
        };
        let text: Vec<u8> = left.drain(..end).collect();
        let mut answers = String::new();
        for line in text.split_inclusive(|&byte| byte == b'\n') {
            let line = line.strip_suffix(b"\n").unwrap_or(line);
            let answer = desk_with_journal(&mut book, &mut records, line);
            if slip == Slip::RecordsRefusals && answer == "7\n" {
                records.extend([4, 0, 0, 0, 0, 0, 0, 0, 0]);
            }
            answers += &answer;
        }
        let mut give =
            |answers: &str| output.write_all(answers.as_bytes()).and_then(|()| output.flush()).map_err(told("answers"));
        let early = match slip {
            Slip::AnswersFirst => 1,
            Slip::SyncsLate => 2,
            _ => 3,
        };
        for step in 1..=3 {
            if step == early {
                give(&answers)?;
                sleep(Duration::from_millis(u64::from(early < 3)));
            }
            let written = match step {
                1 if slip == Slip::Gathers && records.len() < 2_000 && length > 0 => Ok(()),
                1 => file.write_all(&std::mem::take(&mut records)),
                2 if slip != Slip::NeverSyncs => file.sync_data(),
                _ => Ok(()),
            };
            if slip != Slip::GoesOnWhenFull {
                written.map_err(told(path))?;
            }
        }
        if length == 0 {
            return Ok(());
        }
    }
}

fn snapshot(slip: Slip, path: &str, to: &str, image: Option<&str>) -> Result<(), String> {
    let (mut book, _, _) = opened(slip, path, image)?;
    if slip == Slip::SavesAnother {
        straight::setup(&mut book, 1, 1, 1, 1, &[0]).map_err(|refusal| format!("{:?}", refusal))?;
    }
    let mut bytes = vec![0; IMAGE];
    save_image(&book, &mut bytes).map_err(|number| format!("{}: {}", path, number))?;
    let mut file = File::create(to).map_err(told(to))?;
    file.write_all(&bytes).and_then(|()| file.sync_all()).map_err(told(to))
}
