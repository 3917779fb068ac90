//! What `wqplan plan` does on declarations that have a plan, over petgraph, indexmap and memchr: the yardstick of bench/run.
//!
//! The format is that of docs/FORMAT.md. A declaration without a plan gets one line on standard error and status 1, and
//! its limits, the bytes of names and the order of its faults aren't judged: see bench/README.md. It takes time in the
//! length of the text.

mod declaration;
mod plan;

use declaration::Declaration;
use plan::Plan;
use std::error::Error;
use std::fs::File;
use std::io::{self, BufWriter, Read, Write};
use std::process::ExitCode;
use std::{env, result};

type Result<T> = result::Result<T, Box<dyn Error>>;

/// The file of this path, or standard input where there is none, to its end.
fn read(path: Option<String>) -> io::Result<Vec<u8>> {
    let mut text = Vec::new();
    match path {
        Some(path) => File::open(path)?.read_to_end(&mut text)?,
        None => io::stdin().read_to_end(&mut text)?,
    };
    Ok(text)
}

fn run() -> Result<()> {
    let mut words = env::args().skip(1);
    if words.next().as_deref() != Some("plan") {
        return Err("usage: peer-petgraph plan [FILE]".into());
    }
    let text = read(words.next())?;
    let declaration = Declaration::parse(&text)?;
    let plan = Plan::new(&declaration).ok_or("the groups wait in a circle")?;
    let mut out = BufWriter::new(io::stdout().lock());
    plan.write(&mut out)?;
    out.flush()?;
    Ok(())
}

fn main() -> ExitCode {
    match run() {
        Ok(()) => ExitCode::SUCCESS,
        Err(error) => {
            eprintln!("{error}");
            ExitCode::FAILURE
        }
    }
}
