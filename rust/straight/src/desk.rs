//! The desk: a line in, a line out.

use crate::calls::Reading;
use crate::journal::record;
use crate::layout::{Counts, WORDS};
use crate::request::{call, Answer, Request};
use crate::Refusal;

/// The bytes a line may have, its line feed not counted.
pub const LONGEST_LINE: usize = 120;

/// All of the desk's output for all of its input. The book starts as zeros.
pub fn desk(input: &[u8]) -> Vec<u8> {
    let mut book = vec![0; WORDS];
    let mut output = Vec::new();
    for text in lines(input) {
        output.extend_from_slice(line(&mut book, text).as_bytes());
    }
    output
}

/// The lines of an input, without their line feeds; a last one that has none counts if it is not empty.
pub(crate) fn lines(input: &[u8]) -> Vec<&[u8]> {
    let mut lines: Vec<&[u8]> = input.split(|&byte| byte == b'\n').collect();
    if lines.last() == Some(&&b""[..]) {
        lines.pop();
    }
    lines
}

/// The answer to one line, given without its line feed; the answer has one.
pub fn line(book: &mut [u32], text: &[u8]) -> String {
    let outcome = asked(text).and_then(|request| call(book, &request));
    told(book, outcome)
}

/// The answer to one line, of a desk with a journal: the record of a line that is done is appended to it. Neither a refused
/// line nor one in no line's form has a record.
pub fn desk_with_journal(book: &mut [u32], journal: &mut Vec<u8>, text: &[u8]) -> String {
    let outcome = asked(text).and_then(|request| {
        let answer = call(book, &request)?;
        journal.extend(record(&request));
        Ok(answer)
    });
    told(book, outcome)
}

/// What a line asks for.
fn asked(text: &[u8]) -> Result<Request, Refusal> {
    let (event, numbers) = parts(text).ok_or(Refusal::BadLine)?;
    match (event, &numbers[..]) {
        (b'S', &[depots, shelves, bearings, crews, ref homes @ ..]) if homes.len() <= 16 => {
            Ok(Request::Setup { depots, shelves, bearings, crews, homes: homes.to_vec() })
        }
        (b'R', &[crew, bearing]) => Ok(Request::Read { crew, bearing }),
        (b'L', &[crew, ref bearings @ ..]) => Ok(Request::List { crew, bearings: bearings.to_vec() }),
        (b'W', &[crew, bearing, value, diameter, width]) => Ok(Request::Write { crew, bearing, value, diameter, width }),
        (b'K', &[depot, shelf]) => Ok(Request::Tick { depot, shelf }),
        (b'T', &[depot, shelf, from]) => Ok(Request::Take { depot, shelf, from }),
        (b'F', &[depot, shelf]) => Ok(Request::Refresh { depot, shelf }),
        _ => Err(Refusal::BadLine),
    }
}

/// The line that tells what a call answered or why it was refused.
fn told(book: &[u32], outcome: Result<Answer, Refusal>) -> String {
    match outcome {
        Ok(Answer::Done) => "0\n".to_string(),
        Ok(Answer::Read(reading)) => format!("0{}\n", read(book, &reading)),
        Ok(Answer::List(readings)) => {
            let each: String = readings.iter().map(|reading| read(book, reading)).collect();
            format!("0{}\n", each)
        }
        Ok(Answer::Written(written)) => format!("0 {} {}\n", written.stamp, if written.current { "C" } else { "S" }),
        Err(refusal) => format!("{}\n", refusal as u32),
    }
}

/// A read's answer: the value and the card, or - if the bearing is unwritten; then the entries, one for each depot.
fn read(book: &[u32], reading: &Reading) -> String {
    let mut text = match reading.value {
        Some(value) => format!(" {} {} {}", value, reading.diameter, reading.width),
        None => " -".to_string(),
    };
    for entry in &reading.vector[..Counts::of(book).depots] {
        text += &format!(" {}", entry);
    }
    text
}

/// The first byte of a line and its numbers, each after one space.
fn parts(text: &[u8]) -> Option<(u8, Vec<u32>)> {
    if text.len() > LONGEST_LINE {
        return None;
    }
    let mut words = text.split(|&byte| byte == b' ');
    match words.next() {
        Some(&[event]) => Some((event, words.map(number).collect::<Option<Vec<u32>>>()?)),
        _ => None,
    }
}

/// A number of 1 to 10 digits, with no spare leading zero, that 32 bits hold.
pub(crate) fn number(digits: &[u8]) -> Option<u32> {
    let plain = !digits.is_empty() && digits.len() <= 10 && digits.iter().all(u8::is_ascii_digit);
    let spare_zero = digits.len() > 1 && digits[0] == b'0';
    if !plain || spare_zero {
        return None;
    }
    std::str::from_utf8(digits).ok()?.parse().ok()
}
