//! Text and numbers inside a page: everything that is not ours is escaped.

/// Text as it may stand between tags and in an attribute. What XML has no place for becomes a replacement character.
pub fn escape(text: &str) -> String {
    let mut out = String::with_capacity(text.len());
    for char in text.chars() {
        match char {
            '&' => out += "&amp;",
            '<' => out += "&lt;",
            '>' => out += "&gt;",
            '"' => out += "&quot;",
            '\'' => out += "&#39;",
            '\t' | '\n' | '\r' => out.push(' '),
            '\u{0}'..='\u{1f}' | '\u{7f}'..='\u{9f}' | '\u{fffe}' | '\u{ffff}' => out.push('\u{fffd}'),
            _ => out.push(char),
        }
    }
    out
}

/// Whether a text is well-formed XML of the kind that is written here: one root element, tags that match, quoted attributes
/// that are named once, and only the five entities and numbers. Says what is wrong, and at which byte.
pub fn check(text: &str) -> Result<(), String> {
    let mut rest = text;
    let mut open: Vec<&str> = Vec::new();
    let mut roots = 0;
    loop {
        let at = text.len() - rest.len();
        let Some(start) = rest.find('<') else {
            if !rest.trim().is_empty() {
                return Err(format!("text after the end, at {}", at));
            }
            return match (open.last(), roots) {
                (Some(name), _) => Err(format!("{} is not closed", name)),
                (None, 1) => Ok(()),
                (None, roots) => Err(format!("{} roots", roots)),
            };
        };
        let between = &rest[..start];
        if open.is_empty() && !between.trim().is_empty() {
            return Err(format!("text outside the root, at {}", at));
        }
        check_text(between).map_err(|why| format!("{}, after {}", why, at))?;
        rest = &rest[start..];
        if let Some(after) = rest.strip_prefix("<!DOCTYPE html>").filter(|_| roots == 0) {
            rest = after;
            continue;
        }
        let end = tag_end(rest).ok_or(format!("a tag without its end, at {}", at + start))?;
        let tag = &rest[1..end];
        rest = &rest[end + 1..];
        if let Some(name) = tag.strip_prefix('/') {
            if open.pop() != Some(name) {
                return Err(format!("{} is closed where it is not open, at {}", name, at + start));
            }
            continue;
        }
        let (tag, alone) = tag.strip_suffix('/').map_or((tag, false), |tag| (tag, true));
        let name = check_tag(tag).map_err(|why| format!("{}, at {}", why, at + start))?;
        roots += usize::from(open.is_empty());
        if !alone {
            open.push(name);
        }
    }
}

/// The place of the `>` that ends a tag, outside of quotes.
fn tag_end(tag: &str) -> Option<usize> {
    let mut quoted = false;
    tag.bytes().position(|byte| {
        quoted ^= byte == b'"';
        byte == b'>' && !quoted
    })
}

/// The name of a tag whose attributes are well written.
fn check_tag(tag: &str) -> Result<&str, String> {
    let (name, mut rest) = tag.split_at(tag.find(' ').unwrap_or(tag.len()));
    check_name(name)?;
    let mut seen = Vec::new();
    while !rest.is_empty() {
        rest = rest.strip_prefix(' ').ok_or("no space before an attribute")?;
        let (attribute, after) = rest.split_once("=\"").ok_or(format!("{} has no value", rest))?;
        let (value, after) = after.split_once('"').ok_or(format!("{} is not ended", attribute))?;
        check_name(attribute)?;
        if value.contains('<') || seen.contains(&attribute) {
            return Err(format!("{} has a < or comes twice", attribute));
        }
        check_text(value)?;
        seen.push(attribute);
        rest = after;
    }
    Ok(name)
}

fn check_name(name: &str) -> Result<(), String> {
    let mut bytes = name.bytes();
    let first = bytes.next().is_some_and(|byte| byte.is_ascii_alphabetic());
    let good = first && bytes.all(|byte| byte.is_ascii_alphanumeric() || matches!(byte, b'-' | b':'));
    if good {
        Ok(())
    } else {
        Err(format!("{:?} is no name", name))
    }
}

/// Text has entities that are known and only characters that XML has.
fn check_text(text: &str) -> Result<(), String> {
    let bad =
        |char: char| matches!(char, '\u{0}'..='\u{8}' | '\u{b}' | '\u{c}' | '\u{e}'..='\u{1f}' | '\u{fffe}' | '\u{ffff}' | '>');
    if let Some(char) = text.chars().find(|&char| bad(char)) {
        return Err(format!("{:?} may not stand there", char));
    }
    for entity in text.split('&').skip(1) {
        let name = entity.split(';').next().filter(|name| name.len() < entity.len());
        let number = |name: &str| name.strip_prefix('#').is_some_and(|digits| digits.parse::<u32>().is_ok());
        match name {
            Some("amp" | "lt" | "gt" | "quot" | "apos") => {}
            Some(name) if number(name) => {}
            _ => return Err("an & that begins no entity".to_string()),
        }
    }
    Ok(())
}
