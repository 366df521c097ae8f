//! The desk with the auditor listening: whatever the crews wrote and read is for it to judge.

use depot_register::audit::{Recorder, Verdict, ENTRY, MOST_ENTRIES};

/// Answers the lines of a run, one after the other, and keeps what the auditor needs.
#[derive(Default)]
pub struct Audited {
    recorder: Recorder,
}

impl Audited {
    /// The answer to a line, without its line feed, by the library's own desk.
    pub fn line(&mut self, book: &mut [u32], line: &[u8]) -> Vec<u8> {
        let mut answer = self.recorder.line_on(book, line);
        answer.pop();
        answer
    }

    /// What the auditor says of the reads and writes since the last setup; nothing if there are none.
    pub fn word(&self) -> Option<String> {
        let entries = self.recorder.words().len() / ENTRY;
        let word = match self.recorder.verdict() {
            _ if entries == 0 => return None,
            Verdict::Causal => format!("causal. No read is lower than its past. Reads and writes: {}", entries),
            Verdict::TooMany => format!("{} reads and writes are more than the {} that it judges", entries, MOST_ENTRIES),
            other => other.to_string(),
        };
        Some(word)
    }
}
