//! Long random event lists, replayed on two registers side by side. After every event the answers and all words of the
//! two books are compared. [`event`] says what an event is, [`generate`] makes lists of them, [`compare`] runs them, [`shrink`]
//! finds the shortest list that shows a difference, and [`tally`] counts what was reached. [`values`] are those around the
//! calendar's end. [`damage`] spoils each word of a book in turn, for each call; [`parts`] says what a call looks at. [`slips`]
//! are registers with one mistake each, to show that it would be found. [`frames`] does all this for the frames of the radio
//! link, apart from the rest, and [`journal`] for calls with their records, recovery and images.

pub mod arguments;
pub mod books;
pub mod compare;
pub mod damage;
pub mod event;
pub mod frames;
pub mod generate;
pub mod journal;
pub mod lines;
pub mod parts;
pub mod progress;
pub mod random;
pub mod register;
pub mod shrink;
pub mod slips;
pub mod stream;
pub mod tally;
pub mod values;
