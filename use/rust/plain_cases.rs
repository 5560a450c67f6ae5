//! Runs plain.rs on cases from standard input, one a line, for check_plain.py.
//!
//! `store RECORD OUTLEN`, `put BANK K RECORD`, `read BLOCK MARKS OUTLEN`, `report BANK
//! MARKS`, `get BANK K MARKS OUTLEN WINDOW`, `patrol BANK K MARKS WINDOW`, `propose
//! WINDOW MARKS`, `write_slip SLIPS AT K NUMBER KIND CARD N` and `read_slip SLIPS AT`,
//! with bytes in hexadecimal and `-` for an empty slice.  The output starts as OUTLEN
//! bytes 0xA5.  Prints what was said, then in hexadecimal what may have been
//! written: output, bank or slips, and window.

#[allow(dead_code)] // this program uses a part of it
mod plain;

use plain::window::{self, Window};
use plain::{slips, Answer};
use std::fmt::Write as _;
use std::io::{self, BufRead, Write as _};

fn bytes(word: &str) -> Vec<u8> {
    if word == "-" {
        return Vec::new();
    }
    let digit = |d: u8| (d as char).to_digit(16).expect("a hexadecimal digit") as u8;
    word.as_bytes()
        .chunks(2)
        .map(|pair| 16 * digit(pair[0]) + digit(pair[1]))
        .collect()
}

fn hex(bytes: &[u8]) -> String {
    bytes.iter().fold(String::new(), |mut text, byte| {
        let _ = write!(text, "{byte:02x}");
        text
    })
}

fn window_in(word: &str) -> Window {
    bytes(word).try_into().expect("64 bytes")
}

fn said(answer: Answer) -> String {
    match answer {
        Answer::Clean => "0 0 0 0".into(),
        Answer::Chips { n } => format!("0 1 0 {n}"),
        Answer::Card { card, n } => format!("0 2 {card} {n}"),
        Answer::Refused(number) => format!("{number} 0 0 0"),
        Answer::None => "10 0 0 0".into(),
        Answer::Several { card } => format!("11 0 {card} 0"),
    }
}

/// An answer from its four numbers.
fn answer_in(numbers: [u8; 4]) -> Answer {
    match numbers {
        [0, 0, 0, 0] => Answer::Clean,
        [0, 1, 0, n] => Answer::Chips { n },
        [0, 2, card, n] => Answer::Card { card, n },
        [10, 0, 0, 0] => Answer::None,
        [11, 0, card, 0] => Answer::Several { card },
        [number, 0, 0, 0] => Answer::Refused(number),
        _ => panic!("not an answer: {numbers:?}"),
    }
}

fn run(words: &[&str]) -> String {
    let number = |word: &str| word.parse().expect("a number");
    let output = |length: &str| vec![0xA5; number(length)];
    match *words {
        ["store", record, length] => {
            let mut out = output(length);
            let number = plain::store(&bytes(record), &mut out).err().unwrap_or(0);
            format!("{number} {}", hex(&out))
        }
        ["put", bank, k, record] => {
            let mut bank = bytes(bank);
            let done = plain::put(&mut bank, number(k), &bytes(record));
            format!("{} {}", done.err().unwrap_or(0), hex(&bank))
        }
        ["read", block, marks, length] => {
            let mut out = output(length);
            let answer = plain::read(&bytes(block), &bytes(marks), &mut out);
            format!("{} {}", said(answer), hex(&out))
        }
        ["get", bank, k, marks, length, held] => {
            let (mut out, mut held) = (output(length), window_in(held));
            let (bank, k, marks) = (bytes(bank), number(k), bytes(marks));
            let answer = window::get(&bank, k, &marks, &mut out, &mut held);
            format!("{} {} {}", said(answer), hex(&out), hex(&held))
        }
        ["patrol", bank, k, marks, held] => {
            let (mut bank, mut held) = (bytes(bank), window_in(held));
            let answer = window::patrol(&mut bank, number(k), &bytes(marks), &mut held);
            format!("{} {} {}", said(answer), hex(&bank), hex(&held))
        }
        ["propose", held, marks] => match window::propose(&window_in(held), &bytes(marks)) {
            Err(number) => format!("{number} 0"),
            Ok(chip) => format!("0 {}", chip.unwrap_or(255)),
        },
        ["write_slip", run, at, k, ref answer @ ..] => {
            let (mut run, at) = (bytes(run), number(at));
            let parts = answer.iter().map(|part| part.parse().expect("a byte"));
            let answer = answer_in(parts.collect::<Vec<u8>>().try_into().expect("four"));
            let written = slips::write(&mut run, at, number(k), answer);
            let number = written.err().unwrap_or(0);
            format!("{number} {} {}", written.unwrap_or(at), hex(&run))
        }
        ["read_slip", run, at] => match slips::read(&bytes(run), number(at)) {
            Err((number, offset)) => format!("{number} {offset} 0 0 0 0 0"),
            Ok((k, answer, next)) => format!("0 {next} {k} {}", said(answer)),
        },
        ["report", bank, marks] => match plain::report(&bytes(bank), &bytes(marks)) {
            Err(number) => format!("{number}"),
            Ok(t) => format!(
                "0 {} {} {} {} {}",
                t.clean, t.chips, t.card, t.none, t.several
            ),
        },
        _ => panic!("not a case: {words:?}"),
    }
}

fn main() -> io::Result<()> {
    let mut out = io::BufWriter::new(io::stdout().lock());
    for line in io::stdin().lock().lines() {
        let line = line?;
        let words: Vec<&str> = line.split(' ').collect();
        writeln!(out, "{}", run(&words))?;
    }
    out.flush()
}
