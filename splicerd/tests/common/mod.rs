//! A splicer of its own for each test, on ports that the system chooses, and what talks to it.
#![allow(dead_code)]

use std::io::{BufRead, BufReader, Read, Write};
use std::net::{SocketAddr, TcpStream};
use std::path::PathBuf;
use std::process::{Child, Command, Stdio};
use std::sync::mpsc::channel;
use std::sync::{Arc, Mutex};
use std::time::{Duration, Instant};

/// What is waited for at most: longer is a failure, and nothing else depends on it.
pub const PATIENCE: Duration = Duration::from_secs(20);

pub struct Splicerd {
    pub child: Child,
    pub servers: SocketAddr,
    pub page: SocketAddr,
    pub log: Arc<Mutex<Vec<String>>>,
    pub folder: PathBuf,
}

/// A folder of this test alone.
pub fn folder(name: &str) -> PathBuf {
    let folder = PathBuf::from(env!("CARGO_TARGET_TMPDIR")).join(format!("{name}-{}", std::process::id()));
    let _ = std::fs::remove_dir_all(&folder);
    std::fs::create_dir_all(&folder).expect("a folder");
    folder
}

impl Splicerd {
    /// With recording and the clock that is moved by hand.
    pub fn start(name: &str, more: &[&str]) -> Splicerd {
        let folder = folder(name);
        let record = folder.to_str().expect("a path").to_owned();
        let mut words = vec!["--listen", "127.0.0.1:0", "--page", "127.0.0.1:0", "--record", &record];
        if !more.contains(&"--clock") {
            words.extend(["--clock", "manual"]);
        }
        words.extend(more);
        Splicerd::run(&words, folder.clone())
    }

    pub fn run(words: &[&str], folder: PathBuf) -> Splicerd {
        let mut child = Command::new(env!("CARGO_BIN_EXE_splicerd")).args(words).stderr(Stdio::piped()).spawn().expect("splicerd");
        let errors = BufReader::new(child.stderr.take().expect("its standard error"));
        let (told, listening) = channel::<Result<SocketAddr, std::net::AddrParseError>>();
        let log = Arc::new(Mutex::new(Vec::new()));
        let kept = log.clone();
        std::thread::spawn(move || {
            for line in errors.lines().map_while(Result::ok) {
                if let Some((_, address)) = line.split_once(" on ").filter(|_| line.contains("listening")) {
                    let _ = told.send(address.trim_end_matches(['"', '}']).parse::<SocketAddr>());
                }
                kept.lock().expect("the log").push(line);
            }
        });
        let address = || listening.recv_timeout(PATIENCE).expect("it listens").expect("an address");
        let (servers, page) = (address(), address());
        Splicerd { child, servers, page, log, folder }
    }

    pub fn connect(&self) -> TcpStream {
        let stream = TcpStream::connect(self.servers).expect("a connection");
        stream.set_read_timeout(Some(PATIENCE)).expect("a timeout");
        stream.set_nodelay(true).expect("no delay");
        stream
    }

    /// A connection that is initialised.
    pub fn initialised(&self, name: &[u8]) -> TcpStream {
        let mut stream = self.connect();
        stream.write_all(&splicerd::wire::init(name, b"")).expect("sent");
        assert_eq!(message(&mut stream)[4..6], [0, 100]);
        stream
    }

    /// A request of the page: its status and body.
    pub fn ask(&self, head: &str, headers: &str, body: &str) -> (u16, String) {
        ask(self.page, head, headers, body)
    }

    pub fn get(&self, path: &str) -> (u16, String) {
        self.ask(&format!("GET {path}"), "", "")
    }

    pub fn state(&self) -> serde_json::Value {
        serde_json::from_str(&self.get("/state").1).expect("JSON")
    }

    /// Moves the clock: the status.
    pub fn clock(&self, seconds: u32, micros: u32) -> u16 {
        self.ask("POST /clock", "", &format!("{{\"seconds\":{seconds},\"micros\":{micros}}}")).0
    }

    /// A figure of /metrics.
    pub fn figure(&self, name: &str) -> u64 {
        let text = self.get("/metrics").1;
        let line = text.lines().find(|l| l.starts_with(name)).unwrap_or_else(|| panic!("{name} in {text}"));
        line.rsplit(' ').next().and_then(|n| n.parse().ok()).expect("a number")
    }

    /// Waits until something holds.
    pub fn until(&self, what: &str, mut holds: impl FnMut() -> bool) {
        let began = Instant::now();
        while !holds() {
            assert!(began.elapsed() < PATIENCE, "{what} did not come");
            std::thread::yield_now();
        }
    }

    pub fn until_said(&self, word: &str) {
        self.until(word, || self.log.lock().expect("the log").iter().any(|line| line.contains(word)));
    }

    /// The one recording of its folder, by the channel's name.
    pub fn recording(&self, name: &str) -> Vec<u8> {
        let begin = format!("{name}-");
        let files = std::fs::read_dir(&self.folder).expect("the folder").map(|f| f.expect("a file").path());
        let found: Vec<PathBuf> =
            files.filter(|p| p.file_name().is_some_and(|n| n.to_string_lossy().starts_with(&begin))).collect();
        assert_eq!(found.len(), 1, "one recording of {name}");
        std::fs::read(&found[0]).expect("a recording")
    }

    /// Ends it as a terminal does; its status.
    pub fn end(&mut self) -> Option<i32> {
        let id = self.child.id().to_string();
        assert!(Command::new("kill").args(["-TERM", &id]).status().expect("kill").success());
        self.child.wait().expect("its end").code()
    }
}

impl Drop for Splicerd {
    fn drop(&mut self) {
        let _ = self.child.kill();
        let _ = self.child.wait();
        let _ = std::fs::remove_dir_all(&self.folder);
    }
}

/// A request by hand, so that any header can be sent.
pub fn ask(to: SocketAddr, head: &str, headers: &str, body: &str) -> (u16, String) {
    let host = if headers.to_ascii_lowercase().contains("host:") { String::new() } else { format!("Host: {to}\r\n") };
    let mut stream = TcpStream::connect(to).expect("the page");
    stream.set_read_timeout(Some(PATIENCE)).expect("a timeout");
    let text = format!("{head} HTTP/1.1\r\n{host}{headers}Content-Length: {}\r\n\r\n{body}", body.len());
    stream.write_all(text.as_bytes()).expect("sent");
    let mut answer = Vec::new();
    let mut slice = [0; 65_536];
    while !is_whole(&answer) {
        match stream.read(&mut slice).expect("an answer") {
            0 => break,
            n => answer.extend_from_slice(&slice[..n]),
        }
    }
    let answer = String::from_utf8_lossy(&answer).into_owned();
    let status = answer.split(' ').nth(1).and_then(|s| s.parse().ok()).expect("a status");
    (status, answer.split_once("\r\n\r\n").map(|(_, body)| body.to_owned()).unwrap_or_default())
}

/// Whether an answer is there as long as its head says; not every server closes behind it.
fn is_whole(answer: &[u8]) -> bool {
    let Some(at) = answer.windows(4).position(|w| w == b"\r\n\r\n") else {
        return false;
    };
    let head = String::from_utf8_lossy(&answer[..at]).to_ascii_lowercase();
    let length = head.lines().find_map(|line| line.strip_prefix("content-length:")?.trim().parse::<usize>().ok());
    length.is_some_and(|length| answer.len() >= at + 4 + length)
}

/// The next whole message of a connection.
pub fn message(stream: &mut TcpStream) -> Vec<u8> {
    let mut header = [0; 8];
    stream.read_exact(&mut header).expect("a header");
    let mut data = vec![0; usize::from(u16::from_be_bytes([header[2], header[3]]))];
    stream.read_exact(&mut data).expect("its data");
    [&header[..], &data].concat()
}

/// Whether the splicer closed it without a further byte.
pub fn is_closed(stream: &mut TcpStream) -> bool {
    let mut rest = Vec::new();
    stream.read_to_end(&mut rest).is_ok() && rest.is_empty()
}
