//! The yardstick of the benchmark: `show`, `check`, `unpack` and `pack` as a plain Rust program, without proofs and
//! without crates.
//!
//! It reads in pieces of at least 64 KiB into one buffer that holds a whole message, or a whole line of a script, and
//! judges each message where it lies. What it writes is gathered in one buffer that goes out at 64 KiB. Numbers are
//! written by hand, two digits at a time from a table, as the crate `itoa` does it; `format!` stands only in lines that
//! come once.
//!
//! The jobs of `ends` drive ends of connections over memory, beside `bt_bench`.
mod bencoding;
mod end;
mod ends;
mod hex;
mod judging;
mod lines;
mod reading;
mod scripts;
mod sha1;

use judging::{Judged, Receiver};
use lines::{Shown, Text};
use reading::{CHUNK, Input, Sink, walk};
use scripts::{Script, longest_line, pack};
use std::fs::File;
use std::io::{self, Read};
use std::os::fd::AsFd;
use std::process::ExitCode;

const USAGE: &str = "usage: plain [show|check|unpack|pack] [--rules free|bep] [--reserved HEX] [--pieces N] \
                     [--metadata-id N] [--info-hash HEX] [--limit N]\n       \
                     plain serve|fetch|pair|hash BLOCKS ROUNDS\n       \
                     plain digest BLOCKS\n       \
                     plain ends COUNT [new|open|serving|busy|drained|fetching [LIMIT]]";

/// Why a run has no verdict.
pub enum Fault {
    Read,
    Write,
}

/// `check` keeps nothing of the items.
struct Unshown;

impl Sink for Unshown {
    fn handshake(&mut self, _: &[u8]) {}
    fn keep_alive(&mut self, _: u64) {}
    fn message(&mut self, _: u64, _: &[u8], _: &judging::Seen) {}
    fn has_failed(&self) -> bool {
        false
    }
}

/// The verdict's line, and whether the stream is accepted.
fn verdict<R: Read, S: Sink>(
    receiver: &mut Receiver,
    input: &mut Input<R>,
    sink: &mut S,
) -> Result<(bool, String), Fault> {
    let mut count = 0;
    let ended: Judged<()> = walk(receiver, input, sink, &mut count).map_err(|_| Fault::Read)?;
    Ok(match ended {
        Ok(()) => (true, format!("ok messages={count} bytes={}\n", input.at)),
        Err((place, reason)) => {
            let message = if input.at == 0 { 0 } else { count + 1 };
            let at = input.at + place as u64;
            (
                false,
                format!("refused message={message} at={at} {reason:?}\n"),
            )
        }
    })
}

/// Runs a command; the answer is whether the stream or the script is accepted.
fn run(command: &str, receiver: &mut Receiver) -> Result<bool, Fault> {
    let longest = match command {
        "pack" => longest_line(receiver) + 1,
        _ => receiver.limit as usize + 4,
    };
    let mut input = Input::new(io::stdin().lock(), longest + CHUNK);
    // Standard output as a file, which nothing gathers a second time.
    let output = io::stdout()
        .as_fd()
        .try_clone_to_owned()
        .map_err(|_| Fault::Write)?;
    let output = File::from(output);
    if command == "pack" {
        let refused = pack(receiver, &mut input, output)?;
        if let Some((line, reason)) = refused {
            eprintln!("refused line={line} {reason:?}");
        }
        return Ok(refused.is_none());
    }
    let mut text = Text::new(output);
    let told = match command {
        "check" => verdict(receiver, &mut input, &mut Unshown),
        "unpack" => verdict(receiver, &mut input, &mut Script(&mut text)),
        _ => verdict(receiver, &mut input, &mut Shown(&mut text)),
    };
    if let (Ok((_, line)), true) = (&told, command != "unpack") {
        text.word(line);
    }
    text.flush();
    let (accepted, line) = told?;
    text.written.map_err(|_| Fault::Write)?;
    if command == "unpack" && !accepted {
        eprint!("{line}");
    }
    Ok(accepted)
}

/// Does a job of `ends`.
fn run_ends(words: &[String]) -> ExitCode {
    match ends::run(words) {
        Some(Ok(line)) => {
            println!("{line}");
            ExitCode::SUCCESS
        }
        Some(Err((place, reason))) => {
            eprintln!("fault: {reason:?} at {place}");
            ExitCode::from(3)
        }
        None => {
            eprintln!("{USAGE}");
            ExitCode::from(2)
        }
    }
}

fn main() -> ExitCode {
    let words: Vec<String> = std::env::args().skip(1).collect();
    if words.first().is_some_and(|word| ends::JOBS.contains(&word.as_str())) {
        return run_ends(&words);
    }
    let command = words.first().map_or("show", String::as_str);
    let options = words.get(1..).unwrap_or(&[]);
    let known = ["show", "check", "unpack", "pack"].contains(&command);
    let Some(mut receiver) = Receiver::from_words(command == "check", options).filter(|_| known)
    else {
        eprintln!("{USAGE}");
        return ExitCode::from(2);
    };
    match run(command, &mut receiver) {
        Ok(accepted) => ExitCode::from(u8::from(!accepted)),
        Err(fault) => {
            eprintln!(
                "fault: {}",
                if matches!(fault, Fault::Read) {
                    "read"
                } else {
                    "write"
                }
            );
            ExitCode::from(3)
        }
    }
}
