//! A journal that is kept: on a disk, or wherever bytes stay when the power goes.

use std::error::Error;
use std::fmt;
use std::fs::{File, OpenOptions};
use std::io::{self, ErrorKind, Read, Seek, SeekFrom, Write};
use std::path::Path;

use super::{End, Recovered};
use crate::{Answer, Refusal, Register, Request};

/// How many bytes of a journal are read at a time.
const PIECE: usize = 1 << 16;

/// The bytes of the longest record that a call leaves.
const LONGEST: usize = 82;

/// Where the bytes of a journal are kept. `File` is one.
pub trait Storage {
    /// Reads bytes from a place on; 0 of them at the end.
    fn read(&mut self, at: u64, into: &mut [u8]) -> io::Result<usize>;
    /// Writes bytes at a place, which is the end. They need not stay before a sync.
    fn write(&mut self, at: u64, bytes: &[u8]) -> io::Result<()>;
    /// Cuts what is kept to so many bytes.
    fn cut(&mut self, length: u64) -> io::Result<()>;
    /// Does not come back before all that was written or cut stays when the power goes.
    fn sync(&mut self) -> io::Result<()>;
}

impl Storage for File {
    fn read(&mut self, at: u64, into: &mut [u8]) -> io::Result<usize> {
        self.seek(SeekFrom::Start(at))?;
        Read::read(self, into)
    }

    fn write(&mut self, at: u64, bytes: &[u8]) -> io::Result<()> {
        self.seek(SeekFrom::Start(at))?;
        self.write_all(bytes)
    }

    fn cut(&mut self, length: u64) -> io::Result<()> {
        self.set_len(length)
    }

    fn sync(&mut self) -> io::Result<()> {
        self.sync_data()
    }
}

/// Why a journal could not be opened. It is as it was.
#[derive(Debug)]
pub enum NotOpened {
    /// It could not be read, cut or synced.
    Failed(io::Error),
    /// A record stopped recovery: the one behind so many records of so many bytes. [`End::Cut`] where more bytes are left than a
    /// torn record has: then a count is damaged, and the records behind it are not to be cut off.
    Fault(Recovered),
}

impl fmt::Display for NotOpened {
    fn fmt(&self, f: &mut fmt::Formatter<'_>) -> fmt::Result {
        match self {
            NotOpened::Failed(error) => write!(f, "the journal cannot be opened: {}", error),
            NotOpened::Fault(told) => {
                write!(f, "record {} of the journal, at byte {}: {}", told.records + 1, told.bytes, told.end)
            }
        }
    }
}

impl Error for NotOpened {
    fn source(&self) -> Option<&(dyn Error + 'static)> {
        match self {
            NotOpened::Failed(error) => Some(error),
            NotOpened::Fault(_) => None,
        }
    }
}

impl From<io::Error> for NotOpened {
    fn from(error: io::Error) -> NotOpened {
        NotOpened::Failed(error)
    }
}

/// Why a call was not done. It has changed nothing, neither in the book nor in the journal.
#[derive(Debug)]
pub enum NotDone {
    Refused(Refusal),
    /// Its record could not be written or synced.
    NotKept(io::Error),
}

impl fmt::Display for NotDone {
    fn fmt(&self, f: &mut fmt::Formatter<'_>) -> fmt::Result {
        match self {
            NotDone::Refused(refusal) => refusal.fmt(f),
            NotDone::NotKept(error) => write!(f, "the record cannot be kept: {}", error),
        }
    }
}

impl Error for NotDone {
    fn source(&self) -> Option<&(dyn Error + 'static)> {
        match self {
            NotDone::Refused(refusal) => Some(refusal),
            NotDone::NotKept(error) => Some(error),
        }
    }
}

/// A register whose calls are kept in a journal. An answer is given only when the call's record is synced.
///
/// Let one `Journal` at a time have the file.
#[derive(Debug)]
pub struct Journal<S = File> {
    storage: S,
    /// The book that the journal starts from: zeros, or an image's.
    start: Register,
    /// The book after the records that are kept; after these and others, if something failed.
    register: Register,
    kept: Recovered,
    /// Whether a write, a cut or a sync failed, and what is behind the records that are kept has not been cut off since.
    failed: bool,
}

impl Journal {
    /// Opens the journal in a file, which is made if it is not there, and builds the book again. What is left of a record that
    /// the power cut off is cut off the file.
    pub fn open(path: impl AsRef<Path>) -> Result<Journal, NotOpened> {
        Journal::from_file(path.as_ref(), None)
    }

    /// Opens a journal that goes on from an image.
    ///
    /// ```
    /// # use depot_register::journal::Journal;
    /// # use depot_register::{Bearing, Card, Counts, Crew, Depot, Register, Request, Shelf};
    /// # fn main() -> Result<(), Box<dyn std::error::Error>> {
    /// # let path = std::env::temp_dir().join(format!("depot-register-{}.image", std::process::id()));
    /// # let counts = Counts { depots: 1, shelves: 1, bearings: 1, crews: 1 };
    /// # let image = Register::setup(counts, &[Depot(0)])?.save_image();
    /// let mut journal = Journal::open_from(&path, Register::load_image(&image)?)?;
    /// journal.call(&Request::Tick { depot: Depot(0), shelf: Shelf(0) })?; // without a setup
    /// # std::fs::remove_file(&path)?;
    /// # Ok(())
    /// # }
    /// ```
    pub fn open_from(path: impl AsRef<Path>, image: Register) -> Result<Journal, NotOpened> {
        Journal::from_file(path.as_ref(), Some(image))
    }

    fn from_file(path: &Path, image: Option<Register>) -> Result<Journal, NotOpened> {
        let file = OpenOptions::new().read(true).write(true).create(true).truncate(false).open(path)?;
        if file.metadata()?.len() == 0 {
            // The file may be new: then its folder has to keep its name.
            let folder = path.parent().filter(|folder| folder.as_os_str() != "").unwrap_or(Path::new("."));
            File::open(folder)?.sync_all()?;
        }
        Journal::over(file, image, &mut |_| ())
    }
}

impl<S: Storage> Journal<S> {
    /// Opens the journal in any storage, with or without an image. `progress` is told now and then how many bytes have been
    /// read.
    pub fn over(mut storage: S, image: Option<Register>, progress: &mut dyn FnMut(u64)) -> Result<Journal<S>, NotOpened> {
        let start = image.unwrap_or_else(Register::zeros);
        let mut register = start.clone();
        let (mut kept, left) = read(&mut storage, &mut register, progress)?;
        if kept.end.is_fault() || left >= LONGEST {
            return Err(NotOpened::Fault(kept));
        }
        if kept.end == End::Cut {
            storage.cut(kept.bytes)?;
            kept.end = End::Whole;
        }
        // Whoever was killed before a sync may have left records that the power can still take away.
        storage.sync()?;
        Ok(Journal { storage, start, register, kept, failed: false })
    }

    /// The register, as the records that are kept made it. There is none before the first setup.
    pub fn register(&self) -> Option<&Register> {
        let set_up = self.kept.records > 0 || self.start != Register::zeros();
        (set_up && !self.failed).then_some(&self.register)
    }

    /// How many records are kept.
    pub fn records(&self) -> u64 {
        self.kept.records
    }

    /// How many bytes these have.
    pub fn bytes(&self) -> u64 {
        self.kept.bytes
    }

    /// Makes a call. Its record is synced before the answer is here.
    pub fn call(&mut self, request: &Request) -> Result<Answer, NotDone> {
        let answers = self.calls(std::slice::from_ref(request)).map_err(NotDone::NotKept)?;
        answers.into_iter().next().expect("a call has an answer").map_err(NotDone::Refused)
    }

    /// Makes calls one after the other, with one sync for all: either what was done of them is kept, and the answers are here,
    /// or none of them has happened.
    pub fn calls(&mut self, requests: &[Request]) -> io::Result<Vec<Result<Answer, Refusal>>> {
        self.mend()?;
        let mut records = Vec::new();
        let answers: Vec<_> = requests.iter().map(|request| self.register.recorded(request, &mut records)).collect();
        if !records.is_empty() {
            let kept = self.storage.write(self.kept.bytes, &records).and_then(|()| self.storage.sync());
            if let Err(error) = kept {
                self.failed = true;
                // If this fails too, the next call tries it again, and until then there is no register to be seen.
                let _ = self.mend();
                return Err(error);
            }
            self.kept.bytes += records.len() as u64;
            self.kept.records += answers.iter().filter(|answer| answer.is_ok()).count() as u64;
        }
        Ok(answers)
    }

    /// After a failure: cuts off what is behind the records that are kept, and builds the book again from these.
    fn mend(&mut self) -> io::Result<()> {
        if !self.failed {
            return Ok(());
        }
        self.storage.cut(self.kept.bytes)?;
        self.storage.sync()?;
        let mut register = self.start.clone();
        let (told, left) = read(&mut self.storage, &mut register, &mut |_| ())?;
        if told != self.kept || left > 0 {
            return Err(io::Error::new(ErrorKind::InvalidData, "the journal does not hold what was written"));
        }
        self.register = register;
        self.failed = false;
        Ok(())
    }
}

/// Recovers what a storage holds, piece by piece. Tells how many bytes are left of a record that is cut.
fn read<S: Storage>(storage: &mut S, register: &mut Register, progress: &mut dyn FnMut(u64)) -> io::Result<(Recovered, usize)> {
    let mut all = Recovered { records: 0, bytes: 0, end: End::Whole };
    // What has been read and does not count yet: the beginning of a record.
    let mut piece = Vec::new();
    loop {
        let left = piece.len();
        piece.resize(left + PIECE, 0);
        let more = loop {
            match storage.read(all.bytes + left as u64, &mut piece[left..]) {
                Err(error) if error.kind() == ErrorKind::Interrupted => {}
                read => break read?,
            }
        };
        if more == 0 {
            return Ok((all, left));
        }
        piece.truncate(left + more);
        let told = register.recover(&piece);
        all = Recovered { records: all.records + told.records, bytes: all.bytes + told.bytes, end: told.end };
        if told.end.is_fault() {
            return Ok((all, 0));
        }
        piece.drain(..told.bytes as usize);
        progress(all.bytes);
    }
}
