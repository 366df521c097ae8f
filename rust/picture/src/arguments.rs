//! What the command line of `picture` asks for.

use depot_register::{Bearing, Depot};

use crate::filter::Filter;

pub const USAGE: &str = "\
usage: picture [OPTIONS] < LINES > PAGE    lines of the desk in, one page out: HTML that needs nothing else
  --svg            the picture alone, as SVG
  --phone          with --svg: as narrow as a telephone
  --title TEXT     what stands above it
  --bearing B      only the lines of this bearing: written, read, taken or shown
  --depot D        only the lines that happen at this depot, or take what it sent
  --lines FROM-TO  only these lines, counted from 1";

#[derive(Clone, Copy, Debug, PartialEq, Eq)]
pub enum Form {
    Page,
    Svg,
    Phone,
}

#[derive(Clone, Debug, PartialEq, Eq)]
pub struct Asked {
    pub form: Form,
    pub title: String,
    pub filter: Filter,
}

impl Default for Asked {
    fn default() -> Asked {
        Asked { form: Form::Page, title: "A run of the depot register".to_string(), filter: Filter::default() }
    }
}

/// What the words ask for, or why they ask for nothing.
pub fn parse(words: impl IntoIterator<Item = String>) -> Result<Asked, String> {
    let mut asked = Asked::default();
    let mut words = words.into_iter();
    let (mut svg, mut phone) = (false, false);
    while let Some(word) = words.next() {
        let mut next = || words.next().ok_or(format!("nothing follows {}", word));
        match &word[..] {
            "--svg" => svg = true,
            "--phone" => phone = true,
            "--title" => asked.title = next()?,
            "--bearing" => asked.filter.bearing = Some(Bearing(number(&next()?)?)),
            "--depot" => asked.filter.depot = Some(Depot(number(&next()?)?)),
            "--lines" => asked.filter.lines = Some(range(&next()?)?),
            _ => return Err(format!("{} is no option", word)),
        }
    }
    asked.form = match (svg, phone) {
        (false, false) => Form::Page,
        (true, false) => Form::Svg,
        (true, true) => Form::Phone,
        (false, true) => return Err("--phone goes with --svg; a page has both".to_string()),
    };
    Ok(asked)
}

fn number(word: &str) -> Result<u32, String> {
    word.parse().map_err(|_| format!("{} is no number", word))
}

fn range(word: &str) -> Result<(usize, usize), String> {
    let ends = word.split_once('-').and_then(|(first, last)| Some((first.parse().ok()?, last.parse().ok()?)));
    ends.filter(|&(first, last)| first >= 1 && first <= last).ok_or(format!("{} is not FROM-TO, like 100-200", word))
}
