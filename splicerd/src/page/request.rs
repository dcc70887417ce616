//! A request of the page: read, and held to its own address.

use std::net::SocketAddr;

/// The longest head and the longest body.
const HEAD: usize = 8 * 1024;
pub const BODY: usize = 64 * 1024;
pub const LONGEST: usize = HEAD + BODY;
const HEADERS: usize = 64;

pub struct Request<'r> {
    pub method: &'r str,
    pub path: &'r str,
    pub body: &'r [u8],
    host: Option<&'r str>,
    origin: Option<&'r str>,
    site: Option<&'r str>,
}

pub enum Asked<'r> {
    /// Read on.
    More,
    /// It is refused with this status.
    Bad(u16),
    Whole(Request<'r>),
}

/// The request at the front of what was read.
pub fn read(input: &[u8]) -> Asked<'_> {
    let mut headers = [httparse::EMPTY_HEADER; HEADERS];
    let mut parsed = httparse::Request::new(&mut headers);
    let at = match parsed.parse(input) {
        Ok(httparse::Status::Complete(at)) if at <= HEAD => at,
        Ok(httparse::Status::Partial) if input.len() < HEAD => return Asked::More,
        Ok(_) => return Asked::Bad(431),
        Err(_) => return Asked::Bad(400),
    };
    let (Some(method), Some(path)) = (parsed.method, parsed.path) else {
        return Asked::Bad(400);
    };
    let Ok(found) = Found::of(parsed.headers) else {
        return Asked::Bad(400);
    };
    if found.coded {
        return Asked::Bad(411);
    }
    if found.length > BODY {
        return Asked::Bad(413);
    }
    match input.get(at..at + found.length) {
        None => Asked::More,
        Some(body) => Asked::Whole(Request { method, path, body, host: found.host, origin: found.origin, site: found.site }),
    }
}

/// The headers that are read.
#[derive(Default)]
struct Found<'r> {
    host: Option<&'r str>,
    origin: Option<&'r str>,
    site: Option<&'r str>,
    length: usize,
    coded: bool,
}

impl<'r> Found<'r> {
    /// One that says twice where it goes or how long it is is none.
    fn of(headers: &[httparse::Header<'r>]) -> Result<Found<'r>, ()> {
        let mut found = Found::default();
        let mut lengths = 0;
        for header in headers {
            let value = || std::str::from_utf8(header.value).map_err(|_| ());
            let once = |old: Option<&str>| if old.is_some() { Err(()) } else { value() };
            match header.name.to_ascii_lowercase().as_str() {
                "host" => found.host = Some(once(found.host)?),
                "origin" => found.origin = Some(once(found.origin)?),
                "sec-fetch-site" => found.site = Some(once(found.site)?),
                "transfer-encoding" => found.coded = true,
                "content-length" => {
                    lengths += 1;
                    // one that does not fit a number is over every bound
                    let digits = value()?;
                    let good = lengths == 1 && !digits.is_empty() && digits.bytes().all(|b| b.is_ascii_digit());
                    found.length = if good { digits.parse().unwrap_or(usize::MAX) } else { return Err(()) };
                }
                _ => {}
            }
        }
        Ok(found)
    }
}

impl Request<'_> {
    /// Whether its Host is the address that it came to, by number or, on a loopback, as localhost; and nothing says that another
    /// origin's page sent it.
    pub fn is_own(&self, address: SocketAddr) -> bool {
        let own = |name: &str| {
            let local = format!("localhost:{}", address.port());
            name == address.to_string() || (address.ip().is_loopback() && name.eq_ignore_ascii_case(&local))
        };
        let from = self.origin.is_none_or(|origin| origin.strip_prefix("http://").is_some_and(own));
        let site = self.site.is_none_or(|site| site == "same-origin" || site == "none");
        self.host.is_some_and(own) && from && site
    }
}

/// The head of an answer; without a length it is a stream of events.
pub fn head(status: u16, kind: &str, length: Option<u64>) -> Vec<u8> {
    let length = length.map_or("Cache-Control: no-store".into(), |length| format!("Content-Length: {length}"));
    let lines = [
        &format!("HTTP/1.1 {status} {}", reason(status)),
        &format!("Content-Type: {kind}"),
        &length,
        "Connection: close",
        "X-Content-Type-Options: nosniff",
        "Referrer-Policy: no-referrer",
        "Content-Security-Policy: default-src 'none'; style-src 'unsafe-inline'; script-src 'unsafe-inline'; connect-src 'self'",
    ];
    (lines.join("\r\n") + "\r\n\r\n").into_bytes()
}

pub fn reason(status: u16) -> &'static str {
    match status {
        200 => "OK",
        400 => "Bad Request",
        403 => "Forbidden",
        404 => "Not Found",
        405 => "Method Not Allowed",
        409 => "Conflict",
        411 => "Length Required",
        413 => "Content Too Large",
        422 => "Unprocessable Content",
        431 => "Request Header Fields Too Large",
        _ => "Internal Server Error",
    }
}

#[cfg(test)]
mod tests {
    use super::*;

    fn status(text: &str) -> u16 {
        match read(text.as_bytes()) {
            Asked::More => 0,
            Asked::Bad(status) => status,
            Asked::Whole(request) if request.is_own("127.0.0.1:8168".parse().unwrap()) => 200,
            Asked::Whole(_) => 403,
        }
    }

    #[test]
    fn who_may_ask() {
        assert_eq!(status("GET / HTTP/1.1\r\nHost: 127.0.0.1:8168\r\n\r\n"), 200);
        assert_eq!(status("GET / HTTP/1.1\r\nHost: LocalHost:8168\r\n\r\n"), 200);
        assert_eq!(status("GET / HTTP/1.1\r\nHost: evil.example:8168\r\n\r\n"), 403);
        assert_eq!(status("GET / HTTP/1.1\r\nHost: 127.0.0.1\r\n\r\n"), 403);
        assert_eq!(status("GET / HTTP/1.1\r\n\r\n"), 403);
        assert_eq!(status("GET / HTTP/1.1\r\nHost: localhost:8168\r\nOrigin: http://localhost:8168\r\n\r\n"), 200);
        assert_eq!(status("GET / HTTP/1.1\r\nHost: localhost:8168\r\nOrigin: http://evil.example\r\n\r\n"), 403);
        assert_eq!(status("GET / HTTP/1.1\r\nHost: localhost:8168\r\nOrigin: null\r\n\r\n"), 403);
        assert_eq!(status("GET / HTTP/1.1\r\nHost: localhost:8168\r\nSec-Fetch-Site: cross-site\r\n\r\n"), 403);
    }

    #[test]
    fn what_is_read() {
        assert_eq!(status("GET / HTTP/1.1\r\nHost: localhost:8168\r\n"), 0);
        assert_eq!(status("POST /clock HTTP/1.1\r\nHost: localhost:8168\r\nContent-Length: 5\r\n\r\n{}"), 0);
        assert_eq!(status("POST /clock HTTP/1.1\r\nHost: localhost:8168\r\nContent-Length: 2\r\n\r\n{}"), 200);
        assert_eq!(status("POST / HTTP/1.1\r\nHost: localhost:8168\r\nContent-Length: 65537\r\n\r\n"), 413);
        assert_eq!(status("POST / HTTP/1.1\r\nHost: localhost:8168\r\nContent-Length: 99999999999999999999\r\n\r\n"), 413);
        assert_eq!(status("POST / HTTP/1.1\r\nHost: localhost:8168\r\nTransfer-Encoding: chunked\r\n\r\n"), 411);
        assert_eq!(status("POST / HTTP/1.1\r\nContent-Length: 1\r\nContent-Length: 2\r\n\r\n"), 400);
        assert_eq!(status("nothing\r\n\r\n"), 400);
        assert_eq!(status(&format!("GET /{} HTTP/1.1\r\n", "x".repeat(HEAD))), 431);
    }
}
