//! Recordings are flushed to the disk each second, by a thread of its own: a slow disk delays nobody.

use std::fs::File;
use std::io::Write;
use std::sync::atomic::{AtomicUsize, Ordering};
use std::sync::mpsc::{channel, Sender};
use std::sync::Arc;
use std::thread::JoinHandle;
use std::time::{Duration, Instant};

const EVERY: Duration = Duration::from_secs(1);

pub struct Flush {
    at: Option<Instant>,
    sender: Option<Sender<Vec<Arc<File>>>>,
    /// Batches that are not on the disk yet.
    left: Arc<AtomicUsize>,
    thread: Option<JoinHandle<()>>,
}

impl Flush {
    pub fn new() -> Flush {
        let (sender, files) = channel::<Vec<Arc<File>>>();
        let left = Arc::new(AtomicUsize::new(0));
        let done = left.clone();
        let thread = std::thread::spawn(move || {
            for batch in files {
                batch.iter().for_each(|file| on_disk(file));
                done.fetch_sub(1, Ordering::AcqRel);
            }
        });
        Flush { at: None, sender: Some(sender), left, thread: Some(thread) }
    }

    /// Something was written, or nothing.
    pub fn mark(&mut self, written: bool) {
        if written && self.at.is_none() {
            self.at = Some(Instant::now() + EVERY);
        }
    }

    /// When it is next to be done.
    pub fn at(&self) -> Option<Instant> {
        self.at
    }

    pub fn is_due(&self) -> bool {
        self.at.is_some_and(|at| at <= Instant::now())
    }

    /// Whether the last batch is not done: a disk that is slower than a second does not get a second one.
    pub fn is_busy(&self) -> bool {
        self.left.load(Ordering::Acquire) > 0
    }

    pub fn postpone(&mut self) {
        self.at = Some(Instant::now() + EVERY);
    }

    /// Waits for the last batch, for the end alone.
    pub fn wait(&self) {
        while self.is_busy() {
            std::thread::sleep(Duration::from_millis(1));
        }
    }

    pub fn start(&mut self, files: Vec<Arc<File>>) {
        self.at = None;
        if let Some(sender) = &self.sender {
            self.left.fetch_add(1, Ordering::AcqRel);
            // it ends with this program only
            let _ = sender.send(files);
        }
    }

    /// Waits until all is on the disk.
    pub fn end(&mut self) {
        self.sender = None;
        if let Some(thread) = self.thread.take() {
            let _ = thread.join();
        }
    }
}

fn on_disk(file: &File) {
    if let Err(error) = file.sync_data() {
        // the next write meets the error again, and tells whose it is
        let _ = writeln!(std::io::stderr(), "splicerd: flush: {error}");
    }
}

impl Default for Flush {
    fn default() -> Flush {
        Flush::new()
    }
}
