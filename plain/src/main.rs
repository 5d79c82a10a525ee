//! A checker of FlatZinc models and solution streams in plain Rust, without contracts: a yardstick.

mod check;
mod lex;
mod model;
mod names;
mod parse;
mod sets;
mod show;
mod stream;
mod text;
mod tree;

use check::Checker;
use lex::{max_bytes, read_large, Fault, FaultName};
use std::ffi::OsString;
use std::fs::File;
use std::io::{Read, Write};
use std::process::exit;
use stream::{load, pad, Answer, CheckError, Run};

const USAGE: &str = "usage: plain show [--large] MODEL | check [--large] MODEL [STREAM]";

fn usage() -> ! {
    eprintln!("{USAGE}");
    exit(5)
}

/// Tells a refusal on standard error and ends with its status.
fn refuse(e: CheckError) -> ! {
    let place = |what: String, f: Fault| match f.name {
        FaultName::TooLong => format!("refused: {what}: TooLong"),
        n => format!("refused: {what}: {n:?} at {}..{}", f.start, f.end),
    };
    let (text, status) = match e {
        CheckError::Model(f) => (place("model".into(), f), 4),
        CheckError::Stream(f) => (place("stream".into(), f), 4),
        CheckError::Block(n, f) => (place(format!("block {n}"), f), 4),
        CheckError::Read => ("refused: read".into(), 6),
        CheckError::Write => ("refused: write".into(), 6),
    };
    eprintln!("{text}");
    exit(status)
}

fn open(name: &OsString) -> Result<File, CheckError> {
    File::open(name).map_err(|_| CheckError::Read)
}

fn read_model(mut f: File) -> Result<Vec<u8>, CheckError> {
    let mut v = Vec::new();
    let guess = f
        .metadata()
        .map_or(0, |m| m.len())
        .min(max_bytes() as u64 + 1) as usize;
    v.reserve_exact(guess + 1 + 1 + lex::PAD);
    (&mut f)
        .take(max_bytes() as u64 + 1)
        .read_to_end(&mut v)
        .map_err(|_| CheckError::Read)?;
    Ok(v)
}

fn show(name: &OsString) -> Result<u8, CheckError> {
    let (src, end) = pad(read_model(open(name)?)?);
    let text = show::canonical(&src, end).map_err(CheckError::Model)?;
    std::io::stdout()
        .write_all(&text)
        .map_err(|_| CheckError::Write)?;
    Ok(0)
}

fn check(model: &OsString, stream: Option<&OsString>) -> Result<u8, CheckError> {
    let model = open(model)?;
    let mut input: Box<dyn Read> = match stream {
        Some(s) => Box::new(open(s)?),
        None => Box::new(std::io::stdin()),
    };
    let (src, end) = pad(read_model(model)?);
    let b = load(&src, end).map_err(CheckError::Model)?;
    let mut out = std::io::stdout().lock();
    let answer = Run::new(Checker::new(b.m), &mut out).run(&mut input)?;
    Ok(match answer {
        Answer::Accepted(_) => 0,
        Answer::Rejected(_) => 1,
        Answer::Undecided(_) => 2,
        Answer::NoBlocks => 3,
    })
}

fn main() {
    let args: Vec<OsString> = std::env::args_os().skip(1).collect();
    let Some(word) = args.first() else { usage() };
    let mut files = &args[1..];
    if let [first, others @ ..] = files {
        if first == "--large" {
            read_large();
            files = others;
        }
    }
    let r = match (word.as_encoded_bytes(), files) {
        (b"show", [model]) => show(model),
        (b"check", [model]) => check(model, None),
        (b"check", [model, stream]) => check(model, Some(stream)),
        _ => usage(),
    };
    match r {
        Ok(status) => exit(status.into()),
        Err(e) => refuse(e),
    }
}
