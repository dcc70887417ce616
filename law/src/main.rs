//! The definitions of the repository, run: see docs/notes/law.md.

mod cases;
mod change;
mod code;
mod compile;
mod cues;
mod eval;
mod kit;
mod law;
mod lex;
mod load;
mod mutate;
mod named;
mod parse;
mod reach;
mod show;
mod states;
mod table;
mod tree;
mod value;

fn main() {
    let args: Vec<String> = std::env::args().skip(1).collect();
    // definitions recurse as deep as their lists are long
    let run = move || law::command(&args);
    let worker = std::thread::Builder::new().stack_size(3 << 30).spawn(run).expect("a thread");
    let status = worker.join().unwrap_or(2);
    std::process::exit(status);
}
