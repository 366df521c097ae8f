//! `record < LINES > HISTORY`: performs lines of the desk on a book of zeros, and writes what crews wrote and were shown since the
//! last setup, as the lines that the program `audit` reads.

use std::io::{self, Read, Write};

use depot_register::audit::Recorder;
use depot_register::WORDS;

fn main() -> io::Result<()> {
    let mut input = Vec::new();
    io::stdin().read_to_end(&mut input)?;
    let mut book = vec![0; WORDS];
    let mut recorder = Recorder::new();
    let mut lines: Vec<&[u8]> = input.split(|&byte| byte == b'\n').collect();
    if lines.last() == Some(&&b""[..]) {
        lines.pop();
    }
    for line in lines {
        recorder.line_on(&mut book, line);
    }
    io::stdout().write_all(recorder.lines().as_bytes())
}
