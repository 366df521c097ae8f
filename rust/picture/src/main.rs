//! Lines of the desk from standard input, a picture of their run to standard output. [`picture::arguments`] says how it is asked.

use std::env;
use std::io::{self, stderr, IsTerminal, Read, Write};
use std::process::exit;

use picture::arguments::{parse, USAGE};
use picture::run::Run;

fn main() {
    let words: Vec<String> = env::args_os().skip(1).map(|word| word.to_string_lossy().into_owned()).collect();
    if words.iter().any(|word| word == "--help" || word == "-h") {
        println!("depot register {}\n{}", depot_register::VERSION, USAGE);
        return;
    }
    let asked = parse(words).unwrap_or_else(|why| {
        eprintln!("picture: {}\n{}", why, USAGE);
        exit(2);
    });
    let mut input = Vec::new();
    if let Err(error) = io::stdin().lock().read_to_end(&mut input) {
        eprintln!("picture: {}", error);
        exit(1);
    }
    let watched = stderr().is_terminal();
    let mut watch = |done: usize| {
        if watched && done % 10_000 == 0 {
            let _ = write!(stderr(), "\rpicture: {} lines\x1b[K", done);
        }
    };
    let run = Run::of(&input, &mut watch);
    if watched && run.lines.len() >= 10_000 {
        let _ = write!(stderr(), "\r\x1b[K");
    }
    if let Err(error) = io::stdout().lock().write_all(picture::picture(&run, &asked).as_bytes()) {
        eprintln!("picture: {}", error);
        exit(1);
    }
}
