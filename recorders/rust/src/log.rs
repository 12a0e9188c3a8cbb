//! The bytes of a log of version 3, as docs/FORMATS.md has them.

use std::fs::{self, File, OpenOptions};
use std::io::{self, Write};
use std::path::{Path, PathBuf};

/// How many elements a list of a record may have.
const MOST_COUNTED: usize = 1_048_576;
/// How many records a log may have.
const MOST_RECORDS: u64 = 4_294_967_295;

/// A record that is being made. It is written when it is whole.
pub(crate) struct Record {
    bytes: Vec<u8>,
    is_too_long: bool,
}

impl Record {
    pub(crate) fn new(kind: u8) -> Record {
        Record {
            bytes: vec![kind],
            is_too_long: false,
        }
    }

    pub(crate) fn u16(&mut self, value: u16) {
        self.bytes.extend_from_slice(&value.to_le_bytes());
    }

    pub(crate) fn u32(&mut self, value: u32) {
        self.bytes.extend_from_slice(&value.to_le_bytes());
    }

    pub(crate) fn u64(&mut self, value: u64) {
        self.bytes.extend_from_slice(&value.to_le_bytes());
    }

    /// How many elements the list has that follows.
    pub(crate) fn count(&mut self, count: usize) {
        self.is_too_long |= count > MOST_COUNTED;
        self.u32(count as u32);
    }

    /// A path of pointer fields.
    pub(crate) fn path(&mut self, path: &[u16]) {
        self.count(path.len());
        for field in path {
            self.u16(*field);
        }
    }

    /// A frame, behind its length.
    pub(crate) fn frame(&mut self, bytes: &[u8]) {
        self.u32(bytes.len() as u32);
        self.bytes.extend_from_slice(bytes);
    }
}

/// The file of a log. What is in it always ends with a whole record.
pub(crate) struct Log {
    file: Option<File>,
    path: PathBuf,
    kept: Vec<u8>,
    room: usize,
    length: u64,
    written: u64,
    records: u64,
}

impl Log {
    /// Begins the log of a vat.
    pub(crate) fn new(path: &Path, vat: u32) -> io::Result<Log> {
        let mut log = Log {
            file: None,
            path: path.to_path_buf(),
            kept: Vec::new(),
            room: 0,
            length: 0,
            written: 0,
            records: 0,
        };
        log.kept.extend_from_slice(b"VATLOG03");
        log.kept.extend_from_slice(&vat.to_le_bytes());
        log.open()?;
        log.flush()?;
        Ok(log)
    }

    // Logs that are there already are kept.
    fn open(&mut self) -> io::Result<()> {
        if let Ok(place) = fs::canonicalize(&self.path) {
            self.path = place;
        }
        move_on(&self.path)?;
        move_on(&self.stopped())?;
        let file = OpenOptions::new()
            .write(true)
            .create(true)
            .truncate(true)
            .open(&self.path)?;
        self.file = Some(file);
        // The program may change its folder.
        self.path = fs::canonicalize(&self.path)?;
        Ok(())
    }

    /// The name of a log whose recorder stopped.
    fn stopped(&self) -> PathBuf {
        with_ending(&self.path, ".stopped")
    }

    /// Whether its file still has its name, and may have another one.
    fn is_still_there(&self) -> bool {
        let mine = self.file.as_ref().and_then(|file| file.metadata().ok());
        match (mine, fs::metadata(&self.path)) {
            (Some(mine), Ok(there)) => mine.is_file() && is_same(&mine, &there),
            _ => false,
        }
    }

    /// How many records there are; where a write failed, how many were written.
    pub(crate) fn records(&self) -> u64 {
        self.records
    }

    /// Keeps so many bytes of records before they are written.
    pub(crate) fn keep(&mut self, bytes: usize) {
        self.room = bytes;
    }

    /// Adds a record that is whole.
    pub(crate) fn add(&mut self, record: Record) -> Result<(), String> {
        if record.is_too_long {
            return Err("a log has no room for so long a list".to_string());
        }
        if self.records == MOST_RECORDS {
            return Err("a log has no room for more records".to_string());
        }
        self.kept.extend_from_slice(&record.bytes);
        self.records += 1;
        if self.kept.len() < self.room {
            return Ok(());
        }
        self.flush()
            .map_err(|error| format!("the log can't be written: {}", error))
    }

    /// Writes what is kept. What the system takes in part is taken back.
    pub(crate) fn flush(&mut self) -> io::Result<()> {
        let file = match self.file.as_mut() {
            Some(file) => file,
            None => return Ok(()),
        };
        let outcome = file.write_all(&self.kept);
        if outcome.is_ok() {
            self.length += self.kept.len() as u64;
            self.written = self.records;
        } else {
            // Where the file has no length to be set, the last record stays cut.
            let _ = file.set_len(self.length);
            self.records = self.written;
        }
        self.kept.clear();
        outcome
    }

    /// Gives the log another name, so that nobody takes it for a whole one. Answers where it lies.
    pub(crate) fn set_aside(&mut self) -> PathBuf {
        let _ = self.flush();
        let is_still_there = self.is_still_there();
        self.file = None;
        let stopped = self.stopped();
        if is_still_there
            && move_on(&stopped)
                .and_then(|()| fs::rename(&self.path, &stopped))
                .is_ok()
        {
            self.path = stopped;
        }
        self.path.clone()
    }
}

fn with_ending(path: &Path, ending: &str) -> PathBuf {
    let mut name = path.to_path_buf().into_os_string();
    name.push(ending);
    PathBuf::from(name)
}

#[cfg(unix)]
fn is_same(one: &fs::Metadata, other: &fs::Metadata) -> bool {
    use std::os::unix::fs::MetadataExt;
    (one.dev(), one.ino()) == (other.dev(), other.ino())
}

#[cfg(not(unix))]
fn is_same(_: &fs::Metadata, other: &fs::Metadata) -> bool {
    other.is_file()
}

/// Gives a file that is there the first number behind its name that is free, so that nothing is lost.
fn move_on(path: &Path) -> io::Result<()> {
    if !fs::metadata(path).map_or(false, |there| there.is_file()) {
        return Ok(());
    }
    let mut number = 1;
    loop {
        let numbered = with_ending(path, &format!(".{}", number));
        match fs::hard_link(path, &numbered) {
            Ok(()) => return fs::remove_file(path),
            Err(error) if error.kind() == io::ErrorKind::AlreadyExists => number += 1,
            // A file system without links.
            Err(_) if fs::symlink_metadata(&numbered).is_err() => {
                return fs::rename(path, numbered)
            }
            Err(error) => return Err(error),
        }
    }
}
