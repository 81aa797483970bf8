//! `gate run`, `gate check -` and `gate --version`, as `version`, by the crate for Rust. Other words go to the program that
//! the variable GATE names. If the variable CHANGES is set, what stands behind the reply to a line is what the line moved, and a
//! line `=`. If EXPLAIN is set, what is said of each reply goes to standard error, by the numbers of the lines in the input.

use gate::{Error, Gate, Keys, Reply};
use std::io::{stdin, stdout, BufWriter, Read, Write};
use std::os::unix::process::CommandExt;
use std::process::{exit, Command};

const LINES: usize = 1_000_000;

fn everything() -> Vec<u8> {
    let mut text = Vec::new();
    stdin().read_to_end(&mut text).expect("an input");
    text
}

/// The opening with its line `---`, and the lines behind it.
fn parted(text: &[u8]) -> (&[u8], &[u8]) {
    let mut at = 0;
    for line in text.split_inclusive(|byte| *byte == b'\n') {
        at += line.len();
        if line.strip_suffix(b"\n").unwrap_or(line) == b"---" {
            break;
        }
    }
    text.split_at(at)
}

fn run() -> i32 {
    let text = everything();
    let (opening, events) = parted(&text);
    let mut out = BufWriter::new(stdout());
    let mut gate = match Gate::open(Keys { first: 5, second: text.len() as u64 }, opening) {
        Ok(gate) => gate,
        Err(refused @ Error::OpeningRefused { .. }) => {
            writeln!(out, "{}", refused).expect("an output");
            return 2;
        }
        Err(_) => return 90,
    };
    if std::env::var_os("EXPLAIN").is_some() {
        let lines = opening.iter().filter(|byte| **byte == b'\n').count() as u64;
        gate.explain(lines + 1).expect("an open gate");
    }
    // a gate may go to another thread
    std::thread::scope(|threads| threads.spawn(move || answer_all(gate, events, &mut out)).join().expect("no panic"))
}

fn answer_all(mut gate: Gate, events: &[u8], out: &mut impl Write) -> i32 {
    let tells_changes = std::env::var_os("CHANGES").is_some();
    for (number, line) in events.split_inclusive(|byte| *byte == b'\n').enumerate() {
        if number == LINES {
            out.write_all(b"refused L3 too-many-lines\n").expect("an output");
            break;
        }
        match gate.answer(line.strip_suffix(b"\n").unwrap_or(line)) {
            Ok(reply) => {
                assert_eq!(gate.reply().as_ref(), Ok(&reply));
                assert!(reply.is_empty() || reply.parse::<Reply>().map(|parts| parts.to_string() + "\n").as_ref() == Ok(&reply));
                out.write_all(reply.as_bytes()).expect("an output");
                eprint!("{}", gate.explanation().expect("what is said"));
                if tells_changes {
                    writeln!(out, "{}=", gate.changes().expect("changes")).expect("an output");
                }
            }
            Err(Error::LineTooLong) => {
                out.write_all(b"refused L2 line-too-long\n").expect("an output");
                break;
            }
            Err(_) => return 91,
        }
    }
    0
}

fn main() {
    let words: Vec<String> = std::env::args().skip(1).collect();
    let status = match words.iter().map(String::as_str).collect::<Vec<_>>().as_slice() {
        ["run"] => run(),
        ["check", "-"] => {
            let checked = gate::check(everything()).expect("memory");
            stdout().write_all(checked.lines.as_bytes()).expect("an output");
            i32::from(!checked.is_standard)
        }
        ["version"] => {
            println!("gate {}", gate::version().expect("memory"));
            0
        }
        _ => {
            let program = std::env::var_os("GATE").expect("a program");
            panic!("{}", Command::new(program).args(&words).exec())
        }
    };
    exit(status)
}
