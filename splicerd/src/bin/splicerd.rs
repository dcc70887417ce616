//! The splicer.
#![forbid(unsafe_code)]

use splicerd::{options, server::Server};
use std::process::ExitCode;

fn main() -> ExitCode {
    let options = match options::read(std::env::args_os()) {
        Ok(options) => options,
        Err((said, 0)) => {
            println!("{said}");
            return ExitCode::SUCCESS;
        }
        Err((said, status)) => return ended(&said, status),
    };
    let ran = Server::open(options).map(|mut server| server.run());
    match ran {
        Err(said) => ended(&format!("splicerd: {said}"), 2),
        Ok(Err(error)) => ended(&format!("splicerd: {error}"), 1),
        Ok(Ok(())) => ExitCode::SUCCESS,
    }
}

fn ended(said: &str, status: u8) -> ExitCode {
    eprintln!("{said}");
    ExitCode::from(status)
}
