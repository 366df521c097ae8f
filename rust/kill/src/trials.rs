//! What is tried with a desk, and what must come of it.

use std::fs;
use std::path::{Path, PathBuf};
use std::time::Duration;

use crate::desk::{Ended, Files, Moment, Programs};
use crate::expected::{Answered, Expected};
use crate::load;
use replay::random::Random;

/// How much was tried.
#[derive(Default, Debug)]
pub struct Count {
    pub kills: u64,
    /// Of them those that came before the first answer.
    pub early: u64,
    pub lines: u64,
    pub answers: u64,
    /// Tails cut off by the kill, and cuts made in the file after it.
    pub torn: u64,
    pub cut: u64,
    pub images: u64,
    /// Disks that were full.
    pub full: u64,
}

/// What went wrong.
pub type Trouble = String;

/// One register, kept in a folder, and what must be found in it.
pub struct Trial<'a> {
    programs: &'a Programs,
    folder: PathBuf,
    files: Files,
    expected: Expected,
    images: usize,
    random: Random,
    pub count: Count,
}

fn failed(what: &str, error: std::io::Error) -> Trouble {
    format!("{}: {}", what, error)
}

/// The signal that ended it, or its status, and what it said.
fn how(ended: &Ended) -> String {
    let said = if ended.said.is_empty() { "nothing".to_string() } else { format!("{:?}", ended.said) };
    format!("it ended with {} and said {}", ended.status, said)
}

/// What a desk complains of: all it says but how many records it has found.
fn complaint(ended: &Ended) -> String {
    let greets = |line: &&str| {
        let words: Vec<&str> = line.split(' ').collect();
        words.windows(2).any(|two| two[0].parse::<u64>().is_ok() && two[1].starts_with("records"))
    };
    ended.said.lines().filter(|line| !greets(line)).collect::<Vec<_>>().join("\n")
}

impl<'a> Trial<'a> {
    /// A register in an empty folder.
    pub fn new(programs: &'a Programs, folder: &Path, seed: u64) -> Trial<'a> {
        let files = Files { journal: folder.join("journal"), image: None };
        let (expected, random) = (Expected::default(), Random::new(seed));
        Trial { programs, folder: folder.to_path_buf(), files, expected, images: 0, random, count: Count::default() }
    }

    /// One kill: the desk is started on what there is, busy, killed, and what it leaves is looked at. Then the file is sometimes
    /// cut, and sometimes the register goes on from an image.
    pub fn kill(&mut self) -> Result<(), Trouble> {
        let many = self.random.choose(&[20, 200, 1_000, 4_000]);
        let lines = load::lines(&mut self.random, &self.expected, many);
        let moment = match self.random.below(8) {
            0 => Moment::After(Duration::ZERO),
            1 | 2 => Moment::After(Duration::from_micros(self.random.below(30_000) as u64)),
            3 => Moment::AtEnd,
            _ => Moment::Answered(self.random.below(12 * lines.len()) + 1),
        };
        let before = self.file()?;
        let ended =
            self.programs.run(&self.files, &lines, moment, &mut self.random).map_err(|error| failed("the desk", error))?;
        let all = matches!(moment, Moment::AtEnd);
        if !all {
            self.count.kills += 1;
            self.count.early += u64::from(ended.answers.is_empty());
        } else if !complaint(&ended).is_empty() {
            return Err(format!("its input ended, and {}", how(&ended)));
        }
        let answered = self.holds(&before, &lines, &ended)?;
        if all && answered < lines.len() {
            return Err(format!("{} lines of {} are answered; {}", answered, lines.len(), how(&ended)));
        }
        if self.random.percent(30) {
            self.cut()?;
        }
        if self.random.percent(15) {
            self.image()?;
        }
        Ok(())
    }

    /// Holds what was answered and what was kept against the straight version. `before` is the file as it was found. Says how many
    /// lines were answered.
    fn holds(&mut self, before: &[u8], lines: &[Vec<u8>], ended: &Ended) -> Result<usize, Trouble> {
        let mut after = self.expected.clone();
        let told: Vec<Answered> = lines.iter().map(|line| after.line(line)).collect();
        self.count.lines += lines.len() as u64;

        // The answers: a first stretch of those that there must be.
        let mut left = &ended.answers[..];
        let mut kept = self.expected.journal.len();
        let mut answered = 0;
        for (line, told) in lines.iter().zip(&told) {
            let given = &left[..left.len().min(told.answer.len())];
            if *given != told.answer.as_bytes()[..given.len()] {
                let (line, given) = (String::from_utf8_lossy(line), String::from_utf8_lossy(left).into_owned());
                let given = given.lines().next().unwrap_or("").to_string();
                return Err(format!(
                    "line {}, {:?}, is answered {:?}, and not {:?}; {}",
                    answered + 1,
                    line,
                    given,
                    told.answer,
                    how(ended)
                ));
            }
            // An answer of which a byte is there is given.
            if !given.is_empty() {
                kept = told.kept;
                answered += 1;
            }
            left = &left[given.len()..];
        }
        if !left.is_empty() {
            return Err(format!("there are more answers than lines: {:?}", String::from_utf8_lossy(left)));
        }
        self.count.answers += answered as u64;

        // The journal: a first stretch of what was asked for, and all that was answered in it. A desk that was killed soon may have
        // left a torn record as it was.
        let file = self.file()?;
        if file == before && kept == self.expected.journal.len() {
            return Ok(answered);
        }
        let same = file.iter().zip(&after.journal).take_while(|(found, asked)| found == asked).count();
        if same < file.len() {
            return Err(format!(
                "the journal has {} bytes, and from byte {} on they are of no line that was asked for",
                file.len(),
                same
            ));
        }
        if file.len() < kept {
            return Err(format!(
                "the journal has {} bytes, and what was answered takes {}: {} answers, {}",
                file.len(),
                kept,
                answered,
                how(ended)
            ));
        }
        self.expected.cut_to(&file);
        self.count.torn += u64::from(self.expected.journal.len() < file.len());
        Ok(answered)
    }

    /// What the journal's file holds; one that there is not holds nothing.
    fn file(&self) -> Result<Vec<u8>, Trouble> {
        match fs::read(&self.files.journal) {
            Err(error) if error.kind() == std::io::ErrorKind::NotFound => Ok(Vec::new()),
            other => other.map_err(|error| failed("the journal", error)),
        }
    }

    /// The power cuts the file at any byte, near its end or anywhere. What the desk must know then is what the rest holds.
    fn cut(&mut self) -> Result<(), Trouble> {
        let mut file = self.file()?;
        let most = if self.random.percent(70) { file.len().min(60) } else { file.len() };
        file.truncate(file.len() - self.random.below(most + 1));
        fs::write(&self.files.journal, &file).map_err(|error| failed("the journal", error))?;
        self.expected.cut_to(&file);
        self.count.cut += 1;
        Ok(())
    }

    /// The register goes on from an image, with a new journal.
    fn image(&mut self) -> Result<(), Trouble> {
        let Some(image) = self.expected.image() else { return Ok(()) };
        // A desk that was killed soon has made no journal, and there is no snapshot of none.
        if !self.files.journal.exists() {
            return Ok(());
        }
        let before = self.file()?;
        self.images += 1;
        let to = self.folder.join(format!("image-{}", self.images));
        let ended = self.programs.snapshot(&self.files, &to).map_err(|error| failed("the snapshot", error))?;
        if !ended.status.success() {
            return Err(format!("the snapshot: {}", how(&ended)));
        }
        if fs::read(&to).map_err(|error| failed("the image", error))? != image {
            return Err("the image is not that of the journal's book".to_string());
        }
        if self.file()? != before && self.file()? != self.expected.journal {
            return Err("the snapshot has changed the journal".to_string());
        }
        self.expected = Expected::from_image(&image);
        let journal = self.folder.join(format!("journal-{}", self.images));
        self.files = Files { journal, image: Some(to) };
        self.count.images += 1;
        Ok(())
    }

    /// A disk that is full after some blocks: the desk says so and gives no answer that is not kept. With room it goes on.
    pub fn full(&mut self) -> Result<(), Trouble> {
        let mut blocks = self.file()?.len() / 512;
        loop {
            blocks += self.random.between(1, 8);
            let before = self.file()?;
            let lines = load::lines(&mut self.random, &self.expected, 2_000);
            let ended =
                self.programs.run_limited(&self.files, &lines, blocks, &mut self.random).map_err(|error| failed("sh", error))?;
            let answered = self.holds(&before, &lines, &ended)?;
            if answered == lines.len() {
                continue;
            }
            if complaint(&ended).is_empty() {
                return Err(format!("on a full disk {} lines of {} are answered, and {}", answered, lines.len(), how(&ended)));
            }
            self.count.full += 1;
            return Ok(());
        }
    }

    /// Files that are no journal or cannot be one: the desk says so, answers nothing, and leaves them as they are.
    pub fn refused(&mut self) -> Result<(), Trouble> {
        let good = &self.expected.journal;
        let strange = [&good[..], &[9, 1, 2, 3]].concat();
        let late = [&good[..], &[3, 0, 0, 0, 0, 0, 0, 0, 0], &u32::MAX.to_le_bytes(), &[0, 0, 128, 63, 0, 0, 128, 63]].concat();
        let path = self.folder.join("refused");
        // No record that a call leaves is so long: its count is damaged, and the records behind it are not to be cut off.
        let long = [&good[..], &[1, 255], &[0; 100]].concat();
        for (bytes, number) in [(strange, 110), (late, if self.expected.is_set_up() { 16 } else { 1 }), (long, 111)] {
            fs::write(&path, &bytes).map_err(|error| failed("a journal", error))?;
            self.says_no(&path, Some(number))?;
            if fs::read(&path).ok() != Some(bytes) {
                return Err("a journal with a fault is changed".to_string());
            }
        }
        fs::remove_file(&path).map_err(|error| failed("a journal", error))?;
        let none = self.folder.join("no such folder").join("journal");
        for path in [self.folder.clone(), none] {
            self.says_no(&path, None)?;
        }
        Ok(())
    }

    /// The desk does not start on this file, and names the number of the fault, if there is one.
    fn says_no(&mut self, path: &Path, number: Option<u32>) -> Result<(), Trouble> {
        let files = Files { journal: path.to_path_buf(), image: self.files.image.clone() };
        let lines = [b"S 1 1 1 1 0".to_vec()];
        let ended =
            self.programs.run(&files, &lines, Moment::AtEnd, &mut self.random).map_err(|error| failed("the desk", error))?;
        let complaint = complaint(&ended).replace(&path.display().to_string(), "");
        let named = number.map_or(true, |number| names(&complaint, number));
        if !ended.answers.is_empty() || complaint.is_empty() || !named {
            return Err(format!(
                "on {}: answers {:?}, and {}",
                path.display(),
                String::from_utf8_lossy(&ended.answers),
                how(&ended)
            ));
        }
        Ok(())
    }
}

/// Whether a number stands in a text, by itself.
fn names(text: &str, number: u32) -> bool {
    text.split(|letter: char| !letter.is_ascii_digit()).any(|word| word == number.to_string())
}
