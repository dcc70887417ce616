//! A channel's recording: entries as `splicer::recorder` makes them. What is added goes to the system before an answer is sent, whole
//! entries only.

use crate::time;
use std::fs::{File, OpenOptions};
use std::io::{self, Write};
use std::path::{Path, PathBuf};
use std::sync::Arc;

pub struct Recording {
    pub path: PathBuf,
    file: Option<Arc<File>>,
    pending: Vec<u8>,
    /// Where the entries of `pending` end.
    ends: Vec<usize>,
    /// Bytes in the file, whole entries.
    pub bytes: u64,
    dirty: bool,
    pub error: Option<String>,
}

impl Recording {
    /// A new file in the folder; one that exists is never written over.
    pub fn create(folder: &Path, name: &[u8], started: u64) -> io::Result<Recording> {
        let path = folder.join(format!("{}-{}.rec", escaped(name), time::stamp(started)));
        let file = OpenOptions::new().write(true).create_new(true).open(&path)?;
        let (pending, ends) = (Vec::new(), Vec::new());
        Ok(Recording { path, file: Some(Arc::new(file)), pending, ends, bytes: 0, dirty: false, error: None })
    }

    /// The next entry, whole.
    pub fn add(&mut self, entry: &[u8]) {
        if self.file.is_some() {
            self.pending.extend_from_slice(entry);
            self.ends.push(self.pending.len());
        }
    }

    /// Hands all that was added to the system. At an error the recording ends at its last whole entry, and that is given, once.
    pub fn write(&mut self) -> Result<(), String> {
        let Some(file) = self.file.clone() else {
            return Ok(());
        };
        let (put, ended) = put(&file, &self.pending);
        let whole = self.ends.iter().copied().take_while(|end| *end <= put).last().unwrap_or(0);
        self.bytes += whole as u64;
        self.dirty |= whole > 0;
        self.pending.clear();
        self.ends.clear();
        ended.map_err(|error| self.fail(&file, &error))
    }

    fn fail(&mut self, file: &File, error: &io::Error) -> String {
        let mut said = format!("{}: {error}: this recording ends at byte {}", self.path.display(), self.bytes);
        if let Err(cut) = file.set_len(self.bytes) {
            said += &format!(", with a part of an entry behind it: {cut}");
        }
        self.file = None;
        self.error = Some(said.clone());
        said
    }

    /// Its file, if something was written since it was last asked for: to be flushed.
    pub fn to_flush(&mut self) -> Option<Arc<File>> {
        std::mem::take(&mut self.dirty).then(|| self.file.clone()).flatten()
    }

    pub fn is_dirty(&self) -> bool {
        self.dirty
    }
}

/// Writes; how many bytes went out, and the error that stopped it.
fn put(mut file: &File, bytes: &[u8]) -> (usize, io::Result<()>) {
    let mut at = 0;
    while at < bytes.len() {
        match file.write(&bytes[at..]) {
            Ok(0) => return (at, Err(io::ErrorKind::WriteZero.into())),
            Ok(n) => at += n,
            Err(error) if error.kind() == io::ErrorKind::Interrupted => {}
            Err(error) => return (at, Err(error)),
        }
    }
    (at, Ok(()))
}

/// A name for a file: bytes outside A-Z a-z 0-9 - _ as %XX.
pub fn escaped(name: &[u8]) -> String {
    let plain = |byte: &u8| byte.is_ascii_alphanumeric() || b"-_".contains(byte);
    name.iter().map(|byte| if plain(byte) { char::from(*byte).to_string() } else { format!("%{byte:02X}") }).collect()
}

#[cfg(test)]
mod tests {
    use super::*;
    use splicer::recorder::{record_cue, record_name, record_section, Feed};

    fn made(record: impl Fn(&mut dyn FnMut(&[u8]))) -> Vec<u8> {
        let mut entry = Vec::new();
        record(&mut |bytes: &[u8]| entry.extend_from_slice(bytes));
        entry
    }

    fn name_entry(name: &[u8; splicer::NAME]) -> Vec<u8> {
        made(|mut to| record_name(&mut to, name))
    }

    fn section_entry(which: u8, section: &[u8]) -> Vec<u8> {
        let feed = if which == 0 { Feed::Primary } else { Feed::Insertion };
        made(|mut to| record_section(&mut to, feed, section))
    }

    fn cue_entry(section: &[u8], pts: u64, seconds: u32, micros: u32) -> Vec<u8> {
        made(|mut to| record_cue(&mut to, section, pts, seconds, micros))
    }

    #[test]
    fn names_of_files() {
        assert_eq!(escaped(b"CH1"), "CH1");
        assert_eq!(escaped(b"../a b\xFF"), "%2E%2E%2Fa%20b%FF");
    }

    #[test]
    fn further_marks() {
        assert_eq!(section_entry(1, &[7, 8]), [0x4C, 1, 0, 2, 7, 8]);
        assert_eq!(section_entry(0, &[0; 2000]).len(), 4 + 1025);
        let cue = cue_entry(&[9], 1 << 32, 5, 6);
        assert_eq!(cue, [0x51, 0, 0, 1, 9, 0, 0, 0, 1, 0, 0, 0, 0, 0, 0, 0, 5, 0, 0, 0, 6]);
        assert_eq!(name_entry(&splicer::name(b"A"))[..4], [0x4E, 0, b'A', 0]);
    }

    #[test]
    fn never_over_an_existing_file() {
        let folder = std::env::temp_dir().join(format!("splicerd-recording-{}", std::process::id()));
        std::fs::create_dir_all(&folder).unwrap();
        let mut first = Recording::create(&folder, b"CH1", 1).unwrap();
        assert_eq!(Recording::create(&folder, b"CH1", 1).err().unwrap().kind(), io::ErrorKind::AlreadyExists);
        first.add(&[0x4F, 0]);
        first.write().unwrap();
        assert_eq!(std::fs::read(&first.path).unwrap(), [0x4F, 0]);
        assert!(first.to_flush().is_some() && first.to_flush().is_none());
        std::fs::remove_dir_all(&folder).unwrap();
    }

    #[test]
    fn a_full_disk_ends_it_once() {
        // Linux's device that is always full
        let file = OpenOptions::new().write(true).open("/dev/full").unwrap();
        let (pending, ends) = (Vec::new(), Vec::new());
        let file = Some(Arc::new(file));
        let mut full = Recording { path: "/dev/full".into(), file, pending, ends, bytes: 0, dirty: false, error: None };
        full.add(&[0x4F, 0]);
        assert!(full.write().is_err());
        full.add(&[0x43, 0]);
        assert_eq!(full.write(), Ok(()));
        assert!(full.error.is_some() && full.bytes == 0);
    }
}
