//! The page in a real browser, by its driver: by command alone, `sh tools/page.sh`. PICTURES names the folder for what it looks like.

mod common;

use common::{ask, message, Splicerd, PATIENCE};
use serde_json::{json, Value};
use splicerd::{cues, wire};
use std::io::Write;
use std::net::SocketAddr;
use std::process::{Child, Command, Stdio};
use std::time::Instant;

/// Chromium by chromedriver, which speaks WebDriver over HTTP.
struct Browser {
    driver: Child,
    at: SocketAddr,
    session: String,
}

impl Browser {
    fn start(wide: u32, high: u32, dark: bool) -> Browser {
        let port = std::net::TcpListener::bind("127.0.0.1:0").unwrap().local_addr().unwrap().port();
        let mut driver = Command::new("chromedriver");
        driver.arg(format!("--port={port}")).stdout(Stdio::null()).stderr(Stdio::null());
        let driver = driver.spawn().expect("chromedriver");
        let at = SocketAddr::from(([127, 0, 0, 1], port));
        let began = Instant::now();
        while std::net::TcpStream::connect(at).is_err() {
            assert!(began.elapsed() < PATIENCE, "chromedriver does not listen");
            std::thread::yield_now();
        }
        let mut browser = Browser { driver, at, session: String::new() };
        let mut args = vec!["--headless=new".into(), "--no-sandbox".into(), "--disable-gpu".into(), "--hide-scrollbars".into()];
        args.push(format!("--window-size={wide},{high}"));
        if dark {
            args.push("--force-dark-mode".into());
        }
        let asked = json!({"capabilities": {"alwaysMatch": {"browserName": "chrome", "goog:chromeOptions": {"args": args}}}});
        let made = browser.send("POST /session", &asked);
        browser.session = made["sessionId"].as_str().expect("a session").to_owned();
        browser
    }

    fn send(&self, head: &str, body: &Value) -> Value {
        let headers = "Content-Type: application/json\r\nConnection: close\r\n";
        let (status, said) = ask(self.at, head, headers, &body.to_string());
        let value: Value = serde_json::from_str(&said).unwrap_or_else(|_| panic!("{status} {said}"));
        assert_eq!(status, 200, "{value}");
        value["value"].clone()
    }

    fn go(&self, to: &str) {
        self.send(&format!("POST /session/{}/url", self.session), &json!({ "url": to }));
    }

    fn script(&self, text: &str) -> Value {
        self.send(&format!("POST /session/{}/execute/sync", self.session), &json!({"script": text, "args": []}))
    }

    fn until(&self, what: &str, script: &str) {
        let began = Instant::now();
        while self.script(script) != json!(true) {
            assert!(began.elapsed() < PATIENCE, "{what}: {}", self.script("return document.body.innerText"));
        }
    }

    fn picture(&self, name: &str) {
        let (_, said) = ask(self.at, &format!("GET /session/{}/screenshot", self.session), "Connection: close\r\n", "");
        let value: Value = serde_json::from_str(&said).expect("JSON");
        let picture = cues::base64(value["value"].as_str().expect("a picture")).expect("base64");
        let folder = std::env::var("PICTURES").expect("PICTURES names a folder");
        std::fs::write(format!("{folder}/{name}.png"), picture).expect("written");
    }
}

impl Drop for Browser {
    fn drop(&mut self) {
        let _ = ask(self.at, &format!("DELETE /session/{}", self.session), "Connection: close\r\n", "");
        let _ = self.driver.kill();
        let _ = self.driver.wait();
    }
}

fn spot(session: u32, seconds: u32, access: u8) -> Vec<u8> {
    let (prior, micros, duration, event) = (u32::MAX, 0, 2_700_000, 4711);
    wire::splice(&wire::Splice { session, prior, seconds, micros, duration, event, access, over: true, mux: None })
}

/// A spot goes on air while the page is looked at, another covers it; then on a phone in the dark.
#[test]
#[ignore = "by tools/page.sh"]
fn a_spot_goes_on_air_while_it_is_looked_at() {
    let splicerd = Splicerd::start("browser", &["--channel", "CH1", "--channel", "<i>SPORT</i>"]);
    let mut server = splicerd.initialised(b"CH1");
    assert_eq!(splicerd.clock(1_794_816_000, 0), 200);
    for (session, ahead, access) in [(7, 10, 3), (8, 25, 6), (9, 70, 5)] {
        server.write_all(&spot(session, 1_794_816_000 + ahead, access)).unwrap();
        assert_eq!(message(&mut server)[4..6], [0, 100]);
    }
    let browser = Browser::start(1200, 1100, false);
    browser.go(&format!("http://{}/", splicerd.page));
    browser.until("live", "return document.getElementById('link').textContent === 'live'");
    let air = |text: &str| format!("return !!document.querySelector('.air')?.textContent.includes('{text}')");
    browser.until("the primary channel", &air("the primary channel"));
    browser.until("three wait", "return document.querySelectorAll('.spot.waiting').length === 3");
    assert_eq!(splicerd.clock(1_794_816_010, 0), 200);
    browser.until("on air", &air("session 7 of connection 0"));
    assert_eq!(splicerd.clock(1_794_816_030, 0), 200);
    browser.until("the other on air", &air("session 8 of connection 0"));
    browser.until("covered", "return document.querySelectorAll('.spot.covered').length === 1");
    // names are text, and nothing came from elsewhere
    assert_eq!(browser.script("return document.querySelectorAll('i').length"), json!(0));
    assert_eq!(browser.script("return document.querySelectorAll('h2')[1].textContent"), json!("<i>SPORT</i>"));
    let others = "return performance.getEntriesByType('resource').filter(e => !e.name.startsWith(location.origin)).length";
    assert_eq!(browser.script(others), json!(0));
    // by keyboard: each channel can be reached, and says whose it is
    assert_eq!(
        browser.script("const s = document.querySelector('section'); s.focus(); return document.activeElement === s"),
        json!(true)
    );
    assert_eq!(browser.script("return document.querySelector('section').getAttribute('aria-label')"), json!("Channel CH1"));
    browser.picture("splicerd");
    drop(browser);
    let phone = Browser::start(500, 900, true);
    phone.go(&format!("http://{}/", splicerd.page));
    phone.until("on air", &air("session 8 of connection 0"));
    assert_eq!(phone.script("return document.documentElement.scrollWidth <= window.innerWidth"), json!(true));
    phone.picture("splicerd-phone");
}

/// What the referee says stands on the page; a difference also in the window's title and at the top, as an alert.
#[test]
#[ignore = "by tools/page.sh"]
fn a_difference_is_seen() {
    let splicerd = Splicerd::start("browser-differs", &["--channel", "CH1", "--channel", "SPORT", "--misheard", "2"]);
    let browser = Browser::start(1000, 800, false);
    browser.go(&format!("http://{}/", splicerd.page));
    browser.until("in order", "return document.body.textContent.includes('Referee: 0 calls, all in order')");
    assert_eq!(browser.script("return document.getElementById('alarm').textContent"), json!(""));
    let _server = splicerd.initialised(b"SPORT");
    browser.until("the title", "return document.title === 'REFEREE DIFFERS: SPORT'");
    let alarm = "const a = document.querySelector('[role=alert]'); return a.textContent === 'The referee differs on SPORT'";
    browser.until("the alarm", alarm);
    let word =
        "return !!document.querySelector('section[aria-label=\"Channel SPORT\"] .bad')?.textContent.includes('call 2, at byte 36')";
    browser.until("its word", word);
    assert_eq!(browser.script("return document.documentElement.scrollWidth <= window.innerWidth"), json!(true));
}
