//! The whole page around a picture.

use crate::arguments::Asked;
use crate::draw::svg;
use crate::plan::{width, DESK, PHONE};
use crate::run::Run;
use crate::xml::escape;

/// From so many lines shown on, a page has the wide picture alone: twice as much would load slowly.
const LONG: usize = 1_000;

/// One page of HTML, also well-formed as XML, that needs nothing from outside.
pub fn page(run: &Run, asked: &Asked) -> String {
    let shown: Vec<usize> = (0..run.lines.len()).filter(|&at| asked.filter.shows(run, at)).collect();
    let narrow = shown.len() <= LONG;
    let mut body = String::new();
    if shown.len() > 120 {
        body += &ladder(&shown);
    }
    body += "<div class=\"wide\">\n";
    body += &svg(run, asked, &DESK, false);
    body += "</div>\n";
    if narrow {
        // It fills the width, but text is never set smaller than at 85 of 100.
        body += &format!("<div class=\"narrow\" style=\"min-width:{}px\">\n", width(run, &PHONE) * 85 / 100);
        body += &svg(run, asked, &PHONE, false);
        body += "</div>\n";
    }
    let style = if narrow { format!("{}{}", STYLE, TWO) } else { STYLE.to_string() };
    let title = escape(&asked.title);
    format!(
        "<!DOCTYPE html>\n<html lang=\"en\">\n<head>\n<meta charset=\"utf-8\"/>\n\
         <meta name=\"viewport\" content=\"width=device-width, initial-scale=1\"/>\n<meta name=\"color-scheme\" content=\"light dark\"/>\n\
         <title>{}</title>\n<style>\n{}</style>\n</head>\n<body>\n{}</body>\n</html>\n",
        title, style, body
    )
}

/// Links to every hundredth line shown, and to the end.
fn ladder(shown: &[usize]) -> String {
    let links: Vec<String> = shown.iter().step_by(100).map(|at| format!("<a href=\"#d{}\">{}</a>", at + 1, at + 1)).collect();
    format!("<p>To line {} <a href=\"#d-end\">to the end</a></p>\n", links.join(" "))
}

const STYLE: &str = "\
html{background:#ffffff;color:#15191e;font:17px/1.5 system-ui,sans-serif}
body{margin:0;padding:8px;overflow-x:auto}
p{margin:8px}
a{color:#0a4f9e}
svg{display:block;margin:0 auto}
@media (prefers-color-scheme:dark){html{background:#12161b;color:#f2f4f7}a{color:#8cc6ff}}
";

/// Of the two pictures the one that is for the width at hand.
const TWO: &str = "\
.narrow{display:none}
@media (max-width:640px){body{padding:0}.wide{display:none}.narrow{display:block}.narrow svg{width:100%;height:auto}}
";
