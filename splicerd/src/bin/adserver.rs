//! The client.
#![forbid(unsafe_code)]

use splicerd::adserver;
use std::process::ExitCode;

fn main() -> ExitCode {
    let options = match adserver::read(std::env::args_os()) {
        Ok(options) => options,
        Err((said, 0)) => {
            println!("{said}");
            return ExitCode::SUCCESS;
        }
        Err((said, status)) => {
            eprintln!("{said}");
            return ExitCode::from(status);
        }
    };
    match adserver::run(&options) {
        Ok(status) => ExitCode::from(status),
        Err(why) => {
            eprintln!("adserver: {why}");
            ExitCode::from(adserver::NONE)
        }
    }
}
