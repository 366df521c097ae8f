//! What a desk with a journal must answer, and what its journal must hold, by the straight version.

use straight::{desk_with_journal, load_image, recover, save_image, IMAGE, WHOLE, WORDS};

/// A register and its journal, as far as they are known: what was answered, and what the file holds.
#[derive(Clone)]
pub struct Expected {
    /// The book that the journal starts from: zeros, or an image's.
    start: Vec<u32>,
    pub book: Vec<u32>,
    pub journal: Vec<u8>,
}

impl Default for Expected {
    fn default() -> Expected {
        Expected { start: vec![0; WORDS], book: vec![0; WORDS], journal: Vec::new() }
    }
}

/// What becomes of a line: its answer, and how long the journal is when it may be given.
pub struct Answered {
    pub answer: String,
    pub kept: usize,
}

impl Expected {
    /// A line without its line feed.
    pub fn line(&mut self, text: &[u8]) -> Answered {
        let answer = desk_with_journal(&mut self.book, &mut self.journal, text);
        Answered { answer, kept: self.journal.len() }
    }

    /// The journal is now these bytes, a first stretch of a journal. What is left of a cut record does not count.
    pub fn cut_to(&mut self, bytes: &[u8]) {
        self.book.clone_from(&self.start);
        let told = recover(&mut self.book, bytes);
        assert!(told.ended == WHOLE || told.ended == straight::CUT, "a first stretch of a journal has no fault");
        self.journal = bytes[..told.bytes].to_vec();
    }

    /// Whether something was set up.
    pub fn is_set_up(&self) -> bool {
        self.book != vec![0; WORDS]
    }

    /// The image of the register, if something was set up.
    pub fn image(&self) -> Option<Vec<u8>> {
        let mut image = vec![0; IMAGE];
        save_image(&self.book, &mut image).ok().map(|()| image)
    }

    /// The register goes on from its image, with a new journal.
    pub fn from_image(image: &[u8]) -> Expected {
        let mut start = vec![0; WORDS];
        load_image(&mut start, image).expect("an image that was just compared");
        Expected { book: start.clone(), start, journal: Vec::new() }
    }
}
