//! Words in lines of a width.

use crate::plan::Shape;
use crate::words::Tone;

pub fn line_height(tone: Tone) -> i32 {
    match tone {
        Tone::Main => 23,
        Tone::Refused | Tone::Hidden | Tone::Shown => 22,
        Tone::Thin | Tone::Desk => 19,
    }
}

pub fn class(tone: Tone) -> &'static str {
    match tone {
        Tone::Main => "main",
        Tone::Thin => "thin",
        Tone::Refused => "refused",
        Tone::Hidden => "hidden",
        Tone::Shown => "shown",
        Tone::Desk => "desk",
    }
}

/// Words broken to the width, by what a letter takes at most on average; a word that is too long is cut.
pub fn wrap(text: &str, tone: Tone, width: i32) -> Vec<String> {
    let tenths = match tone {
        Tone::Main => 90,
        Tone::Refused | Tone::Hidden | Tone::Shown => 110,
        Tone::Thin => 80,
        Tone::Desk => 86,
    };
    let most = (width * 10 / tenths).max(8) as usize;
    let mut lines = vec![String::new()];
    let mut length = 0;
    for word in text.split(' ') {
        let mut word: Vec<char> = word.chars().collect();
        if length > 0 && length + 1 + word.len() > most {
            lines.push(String::new());
            length = 0;
        }
        if length > 0 {
            lines.last_mut().unwrap().push(' ');
            length += 1;
        }
        while word.len() > most {
            let rest = word.split_off(most);
            lines.last_mut().unwrap().extend(word);
            lines.push(String::new());
            word = rest;
        }
        length += word.len();
        lines.last_mut().unwrap().extend(word);
    }
    lines
}

/// The broken lines of all texts, with their tones.
pub fn broken(texts: &[(Tone, String)], width: i32) -> Vec<(Tone, String)> {
    texts.iter().flat_map(|(tone, text)| wrap(text, *tone, width).into_iter().map(|line| (*tone, line))).collect()
}

/// Whether the words and the desk's line stand side by side: those of a line of small weight, if they have the room.
pub fn in_one(texts: &[(Tone, String)], shape: &Shape) -> bool {
    let length = |text: &str| text.chars().count() as i32;
    matches!(texts, [(Tone::Thin, words), (Tone::Desk, desk)] if length(words) * 8 + length(desk) * 86 / 10 < shape.words)
}

pub fn height_of(texts: &[(Tone, String)]) -> i32 {
    texts.iter().map(|(tone, _)| line_height(*tone)).sum()
}
