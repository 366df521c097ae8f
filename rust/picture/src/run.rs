//! A run: the lines of the desk one after the other, what each was answered, and where each message was sent, taken and shown.
//! The answers are the library's; what became of the messages is read off the book after each line.

use depot_register::{Bearing, Card, Counts, Crew, Depot, Register, Shelf, WORDS};

use crate::auditor::Audited;
use crate::book::{home, stored, Link, Stored};

/// What a read was told: value and card, or that the bearing is unwritten.
pub type Found = Option<(u32, Card)>;

/// What a line asked for.
#[derive(Clone, Debug, PartialEq)]
pub enum Event {
    Setup {
        counts: Counts,
        homes: Vec<Depot>,
    },
    Read {
        crew: Crew,
        bearing: Bearing,
        answer: Found,
    },
    /// Bearings read at one moment, each with its answer.
    List {
        crew: Crew,
        page: Vec<(Bearing, Found)>,
    },
    Write {
        crew: Crew,
        bearing: Bearing,
        value: u32,
        card: Card,
        superseded: bool,
    },
    Tick {
        depot: Depot,
        shelf: Shelf,
    },
    Take {
        depot: Depot,
        shelf: Shelf,
        from: Depot,
    },
    Refresh {
        depot: Depot,
        shelf: Shelf,
    },
    /// No line of the desk, or of none that is known here.
    Bad,
}

impl Event {
    /// Whether it asks for the bearing.
    pub fn reads(&self, asked: Bearing) -> bool {
        match self {
            Event::Read { bearing, .. } => *bearing == asked,
            Event::List { page, .. } => page.iter().any(|(bearing, _)| *bearing == asked),
            _ => false,
        }
    }
}

#[derive(Clone, Debug, PartialEq)]
pub struct Line {
    /// Its bytes, without the line feed.
    pub text: Vec<u8>,
    /// The answer, without the line feed.
    pub answer: String,
    pub event: Event,
    /// The number of the refusal.
    pub refused: Option<u32>,
    /// The depot and shelf that it happens at, if there are such.
    pub place: Option<(Depot, Shelf)>,
    /// The message that it took.
    pub took: Option<usize>,
    /// The copies that it showed.
    pub showed: Vec<usize>,
    /// Copies of the bearing read, taken there but hidden at that moment.
    pub hidden: Vec<usize>,
    /// The setup that it follows: the place in [`Run::sections`].
    pub section: Option<usize>,
}

/// A copy or a heartbeat, on its way from one depot to another. Lines are counted from 0.
#[derive(Clone, Debug, PartialEq)]
pub struct Message {
    pub link: Link,
    pub stamp: u32,
    /// The bearing and its value, if it is a copy.
    pub copy: Option<(Bearing, u32)>,
    pub section: usize,
    pub sent: usize,
    pub taken: Option<usize>,
    pub shown: Option<usize>,
    /// Whether, when it was shown, it became the version that the depot stores; else a greater one was there.
    pub kept: bool,
}

/// From a setup that was done to the next.
#[derive(Clone, Debug, PartialEq)]
pub struct Section {
    pub counts: Counts,
    pub start: usize,
    /// The line after its last one.
    pub end: usize,
}

/// The newest version of a bearing at the end of the run, and who has it.
#[derive(Clone, Debug, PartialEq)]
pub struct Newest {
    pub bearing: Bearing,
    pub version: Stored,
    /// For each depot.
    pub has: Vec<bool>,
}

#[derive(Clone, Debug, Default, PartialEq)]
pub struct Run {
    pub lines: Vec<Line>,
    pub messages: Vec<Message>,
    pub sections: Vec<Section>,
    /// Of each bearing that is written anywhere.
    pub newest: Vec<Newest>,
    /// The auditor's word.
    pub word: Option<String>,
}

/// The lines of an input; a last one without its line feed counts if it is not empty.
pub fn lines(input: &[u8]) -> Vec<&[u8]> {
    let mut lines: Vec<&[u8]> = input.split(|&byte| byte == b'\n').collect();
    if lines.last() == Some(&&b""[..]) {
        lines.pop();
    }
    lines
}

impl Run {
    /// The run of an input, whatever its bytes. `watch` is told after each line how many are done.
    pub fn of(input: &[u8], watch: &mut dyn FnMut(usize)) -> Run {
        let mut run = Run::default();
        let mut book = vec![0; WORDS];
        let mut desk = Audited::default();
        // The messages that now stand on each link, the oldest first.
        let mut links = vec![Vec::new(); 64];
        for text in lines(input) {
            let at = run.lines.len();
            let answer = desk.line(&mut book, text);
            let answer = String::from_utf8_lossy(&answer).into_owned();
            let mut line = read(text, answer, &book);
            if let (Event::Setup { counts, .. }, None) = (&line.event, line.refused) {
                run.sections.push(Section { counts: *counts, start: at, end: at });
                links = vec![Vec::new(); 64];
            }
            line.section = run.sections.len().checked_sub(1);
            if let (Some(section), None) = (line.section, line.refused) {
                run.follow(&book, section, at, &mut links, &mut line);
            }
            if let Some(section) = run.sections.last_mut() {
                section.end = at + 1;
            }
            run.lines.push(line);
            watch(at + 1);
        }
        run.word = desk.word();
        if let Ok(register) = Register::from_words(book) {
            run.newest = newest(&register);
        }
        run
    }

    /// What the line did to the messages on the links.
    fn follow(&mut self, book: &[u32], section: usize, at: usize, links: &mut [Vec<usize>], line: &mut Line) {
        for link in Link::all(self.sections[section].counts) {
            let slots = link.slots(book);
            let before = std::mem::take(&mut links[link.number()]);
            for &id in &before {
                let message = &mut self.messages[id];
                if slots.iter().any(|slot| slot.stamp == message.stamp) {
                    continue;
                }
                if let Some((bearing, _)) = message.copy {
                    let now = stored(book, link.to, bearing);
                    message.shown = Some(at);
                    message.kept = now.is_some_and(|now| now.origin == link.from && now.stamp == message.stamp);
                    line.showed.push(id);
                } else {
                    message.taken = Some(at);
                    line.took = Some(id);
                }
            }
            for slot in slots {
                let known = before.iter().copied().find(|&id| self.messages[id].stamp == slot.stamp);
                let id = known.unwrap_or(self.messages.len());
                if known.is_none() {
                    let (stamp, copy) = (slot.stamp, slot.copy);
                    self.messages.push(Message { link, stamp, copy, section, sent: at, taken: None, shown: None, kept: false });
                }
                let message = &mut self.messages[id];
                if slot.taken && message.taken.is_none() {
                    message.taken = Some(at);
                    line.took = Some(id);
                }
                if line.place.is_some_and(|(depot, _)| slot.taken && link.to == depot)
                    && slot.copy.is_some_and(|(copied, _)| line.event.reads(copied))
                {
                    line.hidden.push(id);
                }
                links[link.number()].push(id);
            }
        }
    }
}

/// A line and its answer, taken apart. A crew's home is that of the book.
fn read(text: &[u8], answer: String, book: &[u32]) -> Line {
    let number: Option<u32> = answer.split(' ').next().and_then(|word| word.parse().ok());
    let refused = number.filter(|&number| number != 0);
    let event = if refused == Some(13) { None } else { asked(text, &answer, book[0]) };
    let event = event.unwrap_or(Event::Bad);
    let [depots, shelves, bearings, crews] = [book[0], book[1], book[2], book[3]];
    let at_home = |crew: &Crew, bearing: &Bearing| {
        (crew.0 < crews && bearing.0 < bearings).then(|| (home(book, *crew), Shelf(bearing.0 % shelves)))
    };
    let place = match &event {
        Event::Setup { .. } | Event::Bad => None,
        Event::Read { crew, bearing, .. } | Event::Write { crew, bearing, .. } => at_home(crew, bearing),
        Event::List { crew, page } => page.first().and_then(|(bearing, _)| at_home(crew, bearing)),
        Event::Tick { depot, shelf } | Event::Take { depot, shelf, .. } | Event::Refresh { depot, shelf } => {
            (depot.0 < depots && shelf.0 < shelves).then_some((*depot, *shelf))
        }
    };
    let none = Vec::new;
    Line { text: text.to_vec(), answer, event, refused, place, took: None, showed: none(), hidden: none(), section: None }
}

/// What a line of the grammar asks for, and what it was told. Each answer ends with as many entries as there are depots.
fn asked(text: &[u8], answer: &str, depots: u32) -> Option<Event> {
    let text = std::str::from_utf8(text).ok()?;
    let mut words = text.split(' ');
    let letter = words.next()?;
    let numbers: Vec<u32> = words.map(|word| word.parse().ok()).collect::<Option<_>>()?;
    let told: Vec<Option<u32>> = answer.split(' ').map(|word| word.parse().ok()).collect();
    Some(match (letter, &numbers[..]) {
        ("S", [depots, shelves, bearings, crews, homes @ ..]) => {
            let counts = Counts { depots: *depots, shelves: *shelves, bearings: *bearings, crews: *crews };
            Event::Setup { counts, homes: homes.iter().copied().map(Depot).collect() }
        }
        ("R", &[crew, bearing]) => Event::Read { crew: Crew(crew), bearing: Bearing(bearing), answer: found(&told[1..]) },
        ("L", [crew, bearings @ ..]) => {
            let mut rest = &told[1..];
            let mut next = |bearing: &u32| {
                let answer = found(rest);
                let words = depots as usize + if answer.is_some() { 3 } else { 1 };
                rest = rest.get(words..).unwrap_or(&[]);
                (Bearing(*bearing), answer)
            };
            Event::List { crew: Crew(*crew), page: bearings.iter().map(&mut next).collect() }
        }
        ("W", &[crew, bearing, value, diameter, width]) => Event::Write {
            crew: Crew(crew),
            bearing: Bearing(bearing),
            value,
            card: Card::from_bits(diameter, width),
            superseded: answer.ends_with('S'),
        },
        ("K", &[depot, shelf]) => Event::Tick { depot: Depot(depot), shelf: Shelf(shelf) },
        ("T", &[depot, shelf, from]) => Event::Take { depot: Depot(depot), shelf: Shelf(shelf), from: Depot(from) },
        ("F", &[depot, shelf]) => Event::Refresh { depot: Depot(depot), shelf: Shelf(shelf) },
        _ => return None,
    })
}

/// The value and card with which the answer of a read begins, if it does.
fn found(told: &[Option<u32>]) -> Found {
    match *told {
        [Some(value), Some(diameter), Some(width), ..] => Some((value, Card::from_bits(diameter, width))),
        _ => None,
    }
}

/// The newest version of each written bearing: of the depots' versions the one that the fewest depots have.
fn newest(register: &Register) -> Vec<Newest> {
    let counts = register.counts();
    let of = |bearing| {
        let depots = (0..counts.depots).map(Depot);
        let holders = depots.filter_map(|depot| Some((depot, register.who_has(depot, bearing).ok()?)));
        let (depot, holders) = holders.min_by_key(|(_, holders)| holders.count)?;
        let version = stored(register.words(), depot, bearing)?;
        Some(Newest { bearing, version, has: (0..counts.depots).map(|x| holders.includes(Depot(x))).collect() })
    };
    (0..counts.bearings).map(Bearing).filter_map(of).collect()
}
