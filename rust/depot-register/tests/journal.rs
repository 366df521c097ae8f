//! A journal on a disk that fills up, fails and loses its power, and in a file.

use std::cell::RefCell;
use std::io::{self, ErrorKind};
use std::rc::Rc;
use std::{env, fs, process};

use depot_register::journal::{End, Journal, NotDone, NotOpened, Recovered, Storage};
use depot_register::{Answer, Bearing, Card, Counts, Crew, Depot, Reading, Refusal, Register, Request, Shelf, Written};

const COUNTS: Counts = Counts { depots: 2, shelves: 2, bearings: 4, crews: 2 };
const ONE: Card = Card { diameter: 1.0, width: 1.0 };

fn setup() -> Request {
    Request::Setup { counts: COUNTS, homes: vec![Depot(0), Depot(1)] }
}

fn read(crew: u32, bearing: u32) -> Request {
    Request::Read { crew: Crew(crew), bearing: Bearing(bearing) }
}

fn write(crew: u32, bearing: u32, value: u32) -> Request {
    Request::Write { crew: Crew(crew), bearing: Bearing(bearing), value, card: ONE }
}

fn tick(depot: u32, shelf: u32) -> Request {
    Request::Tick { depot: Depot(depot), shelf: Shelf(shelf) }
}

fn take(at: u32, shelf: u32, from: u32) -> Request {
    Request::Take { at: Depot(at), shelf: Shelf(shelf), from: Depot(from) }
}

fn refresh(depot: u32, shelf: u32) -> Request {
    Request::Refresh { depot: Depot(depot), shelf: Shelf(shelf) }
}

fn list(crew: u32, bearings: &[u32]) -> Request {
    Request::List { crew: Crew(crew), bearings: bearings.iter().copied().map(Bearing).collect() }
}

/// The listing, and a call of each other kind: what is asked, and what is answered.
fn story() -> Vec<(Request, Result<Answer, Refusal>)> {
    let found = |value, stamp| Reading::Written { value, card: ONE, vector: [stamp, 0, 0, 0] };
    let current = |stamp| Ok(Answer::Written(Written::Current { stamp }));
    vec![
        (setup(), Ok(Answer::Done)),
        (read(0, 0), Ok(Answer::Read(Reading::Unwritten))),
        (write(0, 0, 20), current(1)),
        (write(0, 1, 30), Err(Refusal::Wait)),
        (tick(0, 1), Ok(Answer::Done)),
        (write(0, 1, 30), current(2)),
        (take(1, 0, 0), Ok(Answer::Done)),
        (refresh(1, 0), Ok(Answer::Done)),
        (read(1, 0), Ok(Answer::Read(Reading::Unwritten))),
        (take(1, 1, 0), Ok(Answer::Done)),
        (refresh(1, 0), Ok(Answer::Done)),
        (read(1, 0), Ok(Answer::Read(found(20, 1)))),
        (list(1, &[1, 0, 0]), Ok(Answer::List(vec![Reading::Unwritten, found(20, 1), found(20, 1)]))),
        (list(1, &[]), Err(Refusal::BadList)),
        (Request::Move { crew: Crew(1), depot: Depot(0) }, Ok(Answer::Done)),
        (read(1, 1), Ok(Answer::Read(found(30, 2)))),
    ]
}

/// The register after the first calls of the story, and their records.
fn after(calls: usize) -> (Option<Register>, Vec<u8>) {
    let (mut register, mut journal): (Option<Register>, _) = (None, Vec::new());
    for (request, answer) in story().iter().take(calls) {
        match &mut register {
            None => {
                register = Register::setup(COUNTS, &[Depot(0), Depot(1)]).ok();
                let mut other = register.clone().unwrap();
                assert_eq!(other.recorded(request, &mut journal), *answer, "a setup of its own book");
                assert_eq!(other, register.clone().unwrap());
            }
            Some(register) => assert_eq!(register.recorded(request, &mut journal), *answer),
        }
    }
    (register, journal)
}

#[derive(Default)]
struct State {
    /// What stays when the power goes, and what is there while it is on.
    synced: Vec<u8>,
    bytes: Vec<u8>,
    syncs: u32,
    /// How many bytes it has room for, and how many are read at a time.
    room: Option<usize>,
    most: Option<usize>,
    /// How often in a row each of these fails from now on.
    failing_syncs: u32,
    failing_cuts: u32,
    /// Whether every second read is interrupted, and whether the last was.
    interrupts: bool,
    interrupted: bool,
}

#[derive(Clone, Default)]
struct Disk(Rc<RefCell<State>>);

impl Disk {
    fn holding(bytes: &[u8]) -> Disk {
        let disk = Disk::default();
        disk.with(|state| (state.synced, state.bytes) = (bytes.to_vec(), bytes.to_vec()));
        disk
    }

    fn with<T>(&self, look: impl FnOnce(&mut State) -> T) -> T {
        look(&mut self.0.borrow_mut())
    }

    /// What is left when the power goes.
    fn synced(&self) -> Vec<u8> {
        self.with(|state| state.synced.clone())
    }

    fn open(&self) -> Result<Journal<Disk>, NotOpened> {
        Journal::over(self.clone(), None, &mut |_| ())
    }
}

fn fails(left: &mut u32) -> io::Result<()> {
    if *left == 0 {
        return Ok(());
    }
    *left -= 1;
    Err(io::Error::new(ErrorKind::Other, "it fails"))
}

impl Storage for Disk {
    fn read(&mut self, at: u64, into: &mut [u8]) -> io::Result<usize> {
        self.with(|state| {
            state.interrupted = state.interrupts && !state.interrupted;
            if state.interrupted {
                return Err(ErrorKind::Interrupted.into());
            }
            let left = &state.bytes[at as usize..];
            let length = left.len().min(into.len()).min(state.most.unwrap_or(usize::MAX));
            into[..length].copy_from_slice(&left[..length]);
            Ok(length)
        })
    }

    fn write(&mut self, at: u64, bytes: &[u8]) -> io::Result<()> {
        self.with(|state| {
            assert_eq!(state.bytes.len() as u64, at, "a record is written at the end");
            let room = state.room.map_or(usize::MAX, |room| room - state.bytes.len());
            state.bytes.extend(&bytes[..room.min(bytes.len())]);
            if room < bytes.len() {
                return Err(io::Error::new(ErrorKind::Other, "no room"));
            }
            Ok(())
        })
    }

    fn cut(&mut self, length: u64) -> io::Result<()> {
        self.with(|state| {
            fails(&mut state.failing_cuts)?;
            state.bytes.truncate(length as usize);
            Ok(())
        })
    }

    fn sync(&mut self) -> io::Result<()> {
        self.with(|state| {
            fails(&mut state.failing_syncs)?;
            state.syncs += 1;
            state.synced = state.bytes.clone();
            Ok(())
        })
    }
}

/// What a call answers, with a refusal beside it.
fn answered(outcome: Result<Answer, NotDone>) -> Result<Answer, Refusal> {
    outcome.map_err(|not_done| match not_done {
        NotDone::Refused(refusal) => refusal,
        NotDone::NotKept(error) => panic!("{}", error),
    })
}

#[test]
fn the_story_and_the_power_goes_after_each_call() {
    let disk = Disk::default();
    let mut journal = disk.open().unwrap();
    assert_eq!((journal.register(), journal.records(), journal.bytes()), (None, 0, 0));
    for (at, (request, answer)) in story().into_iter().enumerate() {
        assert_eq!(answered(journal.call(&request)), answer, "{:?}", request);
        let (register, records) = after(at + 1);
        assert_eq!(disk.synced(), records, "it is kept before the answer is here");
        assert_eq!(journal.register(), register.as_ref());
        assert_eq!(journal.bytes(), records.len() as u64);

        let again = Disk::holding(&disk.synced()).open().unwrap();
        assert_eq!(again.register(), register.as_ref());
        assert_eq!((again.records(), again.bytes()), (journal.records(), journal.bytes()));
    }
    assert_eq!(journal.records(), 14);
}

#[test]
fn calls_share_a_sync() {
    let disk = Disk::default();
    let mut journal = disk.open().unwrap();
    let (requests, answers): (Vec<_>, Vec<_>) = story().into_iter().unzip();
    let before = disk.with(|state| state.syncs);
    assert_eq!(journal.calls(&requests).unwrap(), answers);
    assert_eq!(disk.with(|state| state.syncs), before + 1);
    assert_eq!((journal.register().cloned(), disk.synced()), after(requests.len()));
    // Refusals alone, or nothing at all, are no reason to write.
    assert_eq!(journal.calls(&[list(0, &[]), read(9, 9)]).unwrap(), [Err(Refusal::BadList), Err(Refusal::BadCrew)]);
    assert_eq!(journal.calls(&[]).unwrap(), []);
    assert_eq!(disk.with(|state| state.syncs), before + 1);
}

/// Of every length of the journal: what is left of the last record is cut off, and the journal goes on.
#[test]
fn every_torn_tail() {
    let (_, all) = after(usize::MAX);
    for cut in 0..all.len() {
        let disk = Disk::holding(&all[..cut]);
        let mut journal = disk.open().unwrap();
        let whole = (0..=story().len()).rev().find(|&calls| after(calls).1.len() <= cut).unwrap();
        let (register, records) = after(whole);
        assert_eq!((journal.register(), disk.synced()), (register.as_ref(), records), "cut at {}", cut);
        for (request, answer) in story().into_iter().skip(whole) {
            assert_eq!(answered(journal.call(&request)), answer, "cut at {}", cut);
        }
        assert_eq!(disk.synced(), all, "cut at {}", cut);
    }
}

#[test]
fn a_fault_names_record_and_number() {
    let (_, all) = after(usize::MAX);
    let late = [&[3, 0, 0, 0, 0, 0, 0, 0, 0][..], &146_097_u32.to_le_bytes(), &[0, 0, 128, 63, 0, 0, 128, 63]].concat();
    for (behind, end, text) in [
        (&[9][..], End::BadRecord, "record 3 of the journal, at byte 35: the byte is no kind of record (110, BAD RECORD)"),
        (
            &late,
            End::Refused(Refusal::BadDate),
            "record 3 of the journal, at byte 35: the day is beyond the calendar (16, BAD DATE)",
        ),
    ] {
        let bytes = [&all[..35], behind, &all].concat();
        let disk = Disk::holding(&bytes);
        let error = disk.open().map(|_| ()).unwrap_err();
        assert_eq!(error.to_string(), text);
        assert!(matches!(error, NotOpened::Fault(told) if told == Recovered { records: 2, bytes: 35, end }));
        assert_eq!(disk.synced(), bytes, "it is as it was");
    }
    // The record of no call is so long: the byte that counts its homes is damaged.
    let bytes = [&all[..35], &[1, 255], &[0; 80]].concat();
    let error = Disk::holding(&bytes).open().map(|_| ()).unwrap_err();
    assert_eq!(error.to_string(), "record 3 of the journal, at byte 35: the journal ends inside the record (111, CUT)");
    assert!(Disk::holding(&bytes[..116]).open().is_ok(), "81 bytes may be left of a record that the power cut off");
    assert_eq!([End::Whole, End::Cut, End::BadRecord, End::Refused(Refusal::Wait)].map(End::number), [0, 111, 110, 8]);
}

/// On a disk with every amount of room the call that does not fit has not happened, and happens when there is room again.
#[test]
fn a_full_disk() {
    let (_, all) = after(usize::MAX);
    for room in 0..all.len() {
        let disk = Disk::default();
        disk.with(|state| state.room = Some(room));
        let mut journal = disk.open().unwrap();
        for (at, (request, answer)) in story().into_iter().enumerate() {
            let (register, records) = after(at);
            if disk.with(|state| state.room.is_some()) && after(at + 1).1.len() > room {
                assert_eq!(journal.call(&request).unwrap_err().to_string(), "the record cannot be kept: no room");
                assert_eq!((journal.register(), disk.synced()), (register.as_ref(), records), "room for {}", room);
                disk.with(|state| state.room = None);
            }
            assert_eq!(answered(journal.call(&request)), answer, "room for {}", room);
        }
        assert_eq!(disk.synced(), all, "room for {}", room);
    }
}

/// A sync, the cut after it and the sync after that fail, in any number.
#[test]
fn a_failing_disk() {
    for (syncs, cuts) in [(1, 0), (2, 0), (3, 0), (1, 1), (1, 2), (2, 2), (4, 3)] {
        let disk = Disk::default();
        let mut journal = disk.open().unwrap();
        for (at, (request, answer)) in story().into_iter().enumerate() {
            let (register, records) = after(at);
            if answer.is_ok() {
                disk.with(|state| (state.failing_syncs, state.failing_cuts) = (syncs, cuts));
                let mut failed = 0;
                let answered = loop {
                    match journal.call(&request) {
                        Err(NotDone::NotKept(_)) => failed += 1,
                        other => break answered(other),
                    }
                    let seen = journal.register();
                    assert!(seen.is_none() || seen == register.as_ref(), "nothing that is not kept is seen");
                    let kept = disk.synced();
                    assert_eq!(kept, records, "{} syncs and {} cuts fail", syncs, cuts);
                };
                assert_eq!(answered, answer);
                assert!(failed >= 1 && failed <= syncs + cuts, "{} syncs and {} cuts fail: {}", syncs, cuts, failed);
                disk.with(|state| (state.failing_syncs, state.failing_cuts) = (0, 0));
            } else {
                assert_eq!(answered(journal.call(&request)), answer);
            }
        }
        assert_eq!((journal.register().cloned(), disk.synced()), after(usize::MAX));
    }
}

/// Several calls of which a sync fails: none of them has happened.
#[test]
fn calls_fail_together() {
    let disk = Disk::default();
    let mut journal = disk.open().unwrap();
    let (requests, answers): (Vec<_>, Vec<_>) = story().into_iter().unzip();
    assert_eq!(journal.calls(&requests[..5]).unwrap(), answers[..5]);
    disk.with(|state| state.failing_syncs = 1);
    assert!(journal.calls(&requests[5..]).is_err());
    assert_eq!((journal.register().cloned(), disk.synced()), after(5));
    assert_eq!(journal.records(), 4);
    assert_eq!(journal.calls(&requests[5..]).unwrap(), answers[5..]);
    assert_eq!((journal.register().cloned(), disk.synced()), after(usize::MAX));
}

/// Bytes that somebody else wrote behind the journal's back are noticed when it is built again.
#[test]
fn not_what_was_written() {
    let disk = Disk::default();
    let mut journal = disk.open().unwrap();
    journal.call(&setup()).unwrap();
    journal.call(&tick(0, 0)).unwrap();
    disk.with(|state| {
        state.bytes[26] = 9;
        state.failing_syncs = 1;
    });
    for _ in 0..2 {
        journal.call(&tick(0, 0)).unwrap_err();
        assert_eq!(journal.register(), None);
    }
    disk.with(|state| state.bytes[26] = 4);
    journal.call(&tick(0, 0)).unwrap();
    assert_eq!(journal.records(), 3);
}

/// Read by any number of bytes at a time, with interruptions, it is the same journal.
#[test]
fn short_reads() {
    let (register, all) = after(usize::MAX);
    for most in 1..=all.len() {
        let disk = Disk::holding(&all);
        disk.with(|state| (state.most, state.interrupts) = (Some(most), true));
        let mut told = Vec::new();
        let journal = Journal::over(disk, None, &mut |bytes| told.push(bytes)).unwrap();
        assert_eq!(journal.register(), register.as_ref());
        assert!(told.windows(2).all(|two| two[0] <= two[1]) && told.last() == Some(&(all.len() as u64)));
    }
}

/// A journal goes on from an image, with or without records of its own.
#[test]
fn from_an_image() {
    let (requests, answers): (Vec<_>, Vec<_>) = story().into_iter().unzip();
    for first in 1..requests.len() {
        let (register, records) = after(first);
        let image = Register::load_image(&register.as_ref().unwrap().save_image()).unwrap();
        let disk = Disk::default();
        let mut journal = Journal::over(disk.clone(), Some(image.clone()), &mut |_| ()).unwrap();
        assert_eq!((journal.register(), journal.records()), (register.as_ref(), 0));
        disk.with(|state| state.failing_syncs = 1);
        if answers[first].is_ok() {
            journal.call(&requests[first]).unwrap_err();
            assert_eq!(journal.register(), register.as_ref(), "built again from the image");
        }
        disk.with(|state| state.failing_syncs = 0);
        assert_eq!(journal.calls(&requests[first..]).unwrap(), answers[first..]);
        let (last, all) = after(usize::MAX);
        assert_eq!((journal.register(), disk.synced()), (last.as_ref(), all[records.len()..].to_vec()));

        let again = Journal::over(Disk::holding(&disk.synced()), Some(image), &mut |_| ()).unwrap();
        assert_eq!(again.register(), last.as_ref());
    }
    let disk = Disk::default();
    assert!(matches!(disk.open().unwrap().call(&read(0, 0)), Err(NotDone::Refused(Refusal::BadBook))), "zeros, and no setup");
}

/// In a file, over more than one piece; a folder is no journal.
#[test]
fn in_a_file() {
    let folder = env::temp_dir().join(format!("depot-register-journal-{}", process::id()));
    fs::create_dir_all(&folder).unwrap();
    let path = folder.join("journal");
    let mut journal = Journal::open(&path).unwrap();
    journal.call(&setup()).unwrap();
    let rounds: Vec<Request> = (0..5_000).flat_map(|_| [tick(0, 0), take(1, 0, 0), read(1, 0)]).collect();
    assert!(journal.calls(&rounds).unwrap().iter().all(Result::is_ok));
    let register = journal.register().cloned();
    drop(journal);

    let length = fs::metadata(&path).unwrap().len();
    assert_eq!(length, 26 + 5_000 * 31);
    fs::OpenOptions::new().write(true).open(&path).unwrap().set_len(length - 1).unwrap();
    let mut journal = Journal::open(&path).unwrap();
    assert_eq!((journal.records(), journal.bytes()), (15_000, length - 9));
    assert_eq!(fs::metadata(&path).unwrap().len(), length - 9);
    assert_eq!(journal.call(&read(1, 0)).unwrap(), Answer::Read(Reading::Unwritten));
    assert_eq!(journal.register(), register.as_ref());
    drop(journal);
    assert_eq!(Journal::open(&path).unwrap().register(), register.as_ref());

    fs::write(&path, [9]).unwrap();
    assert!(matches!(Journal::open(&path), Err(NotOpened::Fault(_))));
    assert_eq!(fs::read(&path).unwrap(), [9]);
    for none in [folder.clone(), folder.join("no such folder/journal")] {
        let error = Journal::open(none).unwrap_err();
        assert!(error.to_string().starts_with("the journal cannot be opened: "), "{}", error);
    }
    fs::remove_dir_all(&folder).unwrap();
}
