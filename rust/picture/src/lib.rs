//! A picture of a run of the register. Lines of the desk go in; one page comes out, that needs no script and nothing from
//! outside: time runs downwards, each depot is a column and each of its shelves a line in it; what a crew wrote is a mark, its
//! copies are arrows to where they are taken, and a hatched stretch is the time for which a copy is there but hidden.
//!
//! ```
//! use picture::arguments::Asked;
//! use picture::run::Run;
//!
//! let run = Run::of(b"S 2 1 4 2 0 1\nW 0 2 9131 1112539136 1097859072\nT 1 0 0\nF 1 0\nR 1 2\n", &mut |_| ());
//! let page = picture::picture(&run, &Asked::default());
//! assert!(page.contains("Crew 1 reads bearing 2: 31\u{a0}Dec\u{a0}2024"));
//! assert_eq!(picture::xml::check(&page), Ok(()));
//! ```

pub mod arguments;
mod auditor;
pub mod book;
mod draw;
pub mod filter;
mod key;
mod lettering;
mod messages;
mod page;
mod plan;
pub mod run;
mod shapes;
mod style;
mod words;
pub mod xml;

use arguments::{Asked, Form};
use draw::svg;
use plan::{DESK, PHONE};
use run::Run;

/// The picture that was asked for.
pub fn picture(run: &Run, asked: &Asked) -> String {
    match asked.form {
        Form::Page => page::page(run, asked),
        Form::Svg => svg(run, asked, &DESK, true),
        Form::Phone => svg(run, asked, &PHONE, true),
    }
}
