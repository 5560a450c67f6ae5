//! The benchmark's program: the library through its C interface, plain.rs, its calls
//! in words and libfec's RS(45,34), in one process on the same records and damage.
//!
//!   bench times             a line for each case and codec: median time
//!   bench count CASE CODEC  each input of the case once, for callgrind
//!   bench list              the cases, and the codecs that are linked
//!
//! Built by use/bench/run, with --cfg library and --cfg libfec where the two
//! are at hand.  Each codec has the same C functions; callgrind counts what runs
//! inside them and nothing else.

#[cfg(library)]
#[allow(dead_code)] // the benchmark calls the C functions alone
#[path = "../rust/livomashen.rs"]
mod livomashen;

#[allow(dead_code)] // the benchmark uses a part of it
#[path = "../rust/plain.rs"]
mod plain;

#[allow(dead_code)] // the tests use the rest
#[path = "../rust/random.rs"]
mod random;

mod cases;
mod codecs;
#[cfg(libfec)]
mod fec;
mod plainly;

use cases::{reading, slip_of, Case, Input, What, CASES, NO_MARKS};
use codecs::{codecs, Codec, Registers, Window};
use random::Random;
use std::hint::black_box;
use std::time::Instant;

const BLOCK: usize = 45;
const RECORD: usize = 34;
const FRESH_REGISTERS: Registers = [0, 0, 0, 0, 0, 0, 0, 0, 255, 0, 255, 255];

/// A case made ready for one codec.
struct Ready<'a> {
    codec: &'a Codec,
    what: What,
    inputs: Vec<Input>,
    /// The damaged blocks one after the other; and as they were, since a patrol
    /// mends them.
    bank: Vec<u8>,
    damaged: Vec<u8>,
    /// What gets and patrols add to.
    window: Window,
    /// What a get by command goes by: the block number is put there first.
    registers: Registers,
    /// For each input of a proposal, a full window.
    windows: Vec<Window>,
    /// For each input, a reading's code and its slip.
    slips: Vec<(u32, Vec<u8>)>,
}

fn ready<'a>(case: &Case, codec: &'a Codec) -> Ready<'a> {
    // The seed is the case's alone, so that every codec gets the same.
    let mut rng = Random(case.seed.bytes().map(u64::from).sum());
    let mut inputs = Vec::new();
    let mut bank = vec![0; BLOCK * case.inputs];
    for (k, block) in bank.chunks_exact_mut(BLOCK).enumerate() {
        let record = std::array::from_fn(|_| rng.next() as u8);
        let (damage, marks) = case.make(k, &mut rng);
        if case.what != What::Store {
            // Not there: callgrind would count these stores as well.
            codec.store(&record, block);
        }
        for (byte, change) in block.iter_mut().zip(damage) {
            *byte ^= change;
        }
        inputs.push(Input {
            record,
            damage,
            marks,
        });
    }
    let proposals = match case.what {
        What::Propose => case.inputs,
        _ => 0,
    };
    let windows = (0..proposals).map(|_| full_window(&mut rng)).collect();
    let slip = |k| {
        let code = reading(&mut rng);
        (code, slip_of(k, code))
    };
    let slips = (0..case.inputs).map(slip).collect();
    Ready {
        codec,
        what: case.what,
        inputs,
        damaged: bank.clone(),
        bank,
        window: [255; 64],
        registers: FRESH_REGISTERS,
        windows,
        slips,
    }
}

fn full_window(rng: &mut Random) -> Window {
    std::array::from_fn(|_| rng.below(BLOCK) as u8)
}

/// The lowest position that is there four times, or 255.
fn to_propose(window: &Window) -> u8 {
    let often = |&p: &u8| window.iter().filter(|&&held| held == p).count() >= 4;
    (0..BLOCK as u8).find(often).unwrap_or(255)
}

/// Where a report's code counts a block with such damage and nothing marked.
fn total(damage: &[u8; BLOCK]) -> u32 {
    let bad = |p: &usize| damage[*p] != 0;
    let mut cards: Vec<usize> = (0..BLOCK).filter(bad).map(|p| p / 9).collect();
    let chips = cards.len();
    cards.dedup();
    match (chips, cards.len()) {
        (0, _) => 8,
        (1, _) => 19,
        (_, 1) => 30,
        _ => 41,
    }
}

impl Ready<'_> {
    fn block(&self, k: usize) -> &[u8] {
        &self.bank[BLOCK * k..BLOCK * (k + 1)]
    }

    /// Puts the damage back that patrols have mended.
    fn damage_again(&mut self) {
        self.bank.copy_from_slice(&self.damaged);
    }

    /// Makes every call once.  The output is used again, never cleared.
    fn once(&mut self, out: &mut [u8]) {
        if self.what == What::Report {
            black_box(self.codec.report(black_box(&self.bank), &NO_MARKS));
            return;
        }
        for k in 0..self.inputs.len() {
            black_box(self.call(k, out));
        }
        black_box(out);
    }

    fn call(&mut self, k: usize, out: &mut [u8]) -> u64 {
        let (input, slip) = (&self.inputs[k], &self.slips[k]);
        let code = match self.what {
            What::Store => self.codec.store(black_box(&input.record), out),
            What::Put => self.codec.put(&mut self.bank, k, black_box(&input.record)),
            What::Get => {
                let bank = black_box(&self.bank);
                self.codec.get(bank, k, &input.marks, out, &mut self.window)
            }
            What::CommandGet => {
                self.registers[1..3].copy_from_slice(&(k as u16).to_le_bytes());
                let (registers, bank) = (&mut self.registers, &mut self.bank);
                self.codec
                    .command_get(registers, bank, out, &mut self.window)
            }
            What::Patrol => {
                let (bank, window) = (&mut self.bank, &mut self.window);
                self.codec.patrol(bank, k, &input.marks, window)
            }
            What::Propose => self
                .codec
                .propose(black_box(&self.windows[k]), &input.marks),
            What::WriteSlip => self.codec.write_slip(out, 0, k, black_box(slip.0)),
            What::ReadSlip => return self.codec.read_slip(black_box(&slip.1), 0),
            _ => self.codec.read(black_box(self.block(k)), &input.marks, out),
        };
        code.into()
    }

    /// A time or count is worth nothing if the answers are not right.
    fn check(&mut self) {
        if self.what == What::Report {
            let code = self.codec.report(&self.bank, &NO_MARKS);
            let counted = self.inputs.iter().map(|input| 1 << total(&input.damage));
            let wanted: u64 = counted.sum();
            assert_eq!(code, wanted, "{}: report", self.codec.name);
            return;
        }
        for k in 0..self.inputs.len() {
            let mut out = [0; BLOCK];
            let code = self.call(k, &mut out);
            let number = code & 0xFF;
            match self.what {
                What::ReadAny => {}
                What::ReadNone => assert_eq!(number, 10, "{}: {k}", self.codec.name),
                What::Propose => {
                    let chip = to_propose(&self.windows[k]) as u64;
                    assert_eq!(code, chip << 8, "{}: {k}", self.codec.name);
                }
                What::WriteSlip | What::ReadSlip => self.check_slip(k, code, &out),
                What::CommandGet => {
                    // Done and clean: the command, its answer, bit 0 pending.
                    let [command, _, _, _, answer, detail, _, pending, ..] = self.registers;
                    assert_eq!([command, answer, detail, pending], [1, 0, 0, 1], "{k}");
                    self.check_done(k, number, &out);
                }
                _ => self.check_done(k, number, &out),
            }
        }
        self.check_window();
    }

    /// A slip written has its bytes and length, one read what it says as well.
    fn check_slip(&self, k: usize, code: u64, out: &[u8]) {
        let (reading, slip) = &self.slips[k];
        let mut wanted = (slip.len() as u64) << 8;
        if self.what == What::ReadSlip {
            wanted |= (k as u64) << 16 | (*reading as u64) << 32;
        } else {
            assert_eq!(out[..slip.len()], **slip, "{}: {k}", self.codec.name);
        }
        assert_eq!(code, wanted, "{}: {k}", self.codec.name);
    }

    /// The last of the changed positions are in the window.
    fn check_window(&self) {
        let added = match self.what {
            What::Get | What::Patrol => &self.inputs[..],
            _ => &[],
        };
        let mut run = vec![255; 64];
        for input in added {
            let changed = (0..BLOCK).filter(|&p| input.damage[p] != 0);
            run.extend(changed.map(|p| p as u8));
        }
        let wanted = &run[run.len() - 64..];
        assert_eq!(self.window, wanted, "{}: window", self.codec.name);
    }

    /// The call is not refused, and the block it gives is the one put.
    fn check_done(&self, k: usize, number: u64, out: &[u8]) {
        let (name, input) = (self.codec.name, &self.inputs[k]);
        assert_eq!(number, 0, "{name}: input {k} is refused");
        let given = match self.what {
            What::Put | What::Patrol => self.block(k),
            _ => out,
        };
        assert_eq!(given[..RECORD], input.record, "{name}: input {k}");
        if self.what == What::Store {
            return;
        }
        let restored: Vec<u8> = self.damaged[BLOCK * k..BLOCK * (k + 1)]
            .iter()
            .zip(input.damage)
            .map(|(a, b)| a ^ b)
            .collect();
        assert_eq!(given[..], restored, "{name}: input {k}");
    }
}

fn takes_part(case: &Case, codec: &Codec) -> bool {
    match case.what {
        What::ReadAny | What::ReadNone => codec.name != "fec",
        What::Report => case.every == 1 || codec.name != "fec",
        What::CommandGet => codec.write_register.is_some(),
        What::Propose | What::WriteSlip | What::ReadSlip => codec.beyond.is_some(),
        _ => true,
    }
}

// ----------------------------------------------------------------------- times

const ROUNDS: usize = 151;

fn median(mut times: Vec<f64>) -> f64 {
    times.sort_by(f64::total_cmp);
    times[times.len() / 2]
}

/// The codecs take turns, so that a slow moment of the machine hits them all.
fn times() {
    let all = codecs();
    for case in &CASES {
        let mut runs: Vec<(Ready, Vec<f64>)> = all
            .iter()
            .filter(|codec| takes_part(case, codec))
            .map(|codec| (ready(case, codec), Vec::new()))
            .collect();
        runs.iter_mut().for_each(|(run, _)| run.check());
        let mut out = [0; BLOCK];
        for _ in 0..ROUNDS {
            for (run, taken) in &mut runs {
                run.damage_again();
                let begin = Instant::now();
                run.once(&mut out);
                taken.push(begin.elapsed().as_nanos() as f64 / case.inputs as f64);
            }
        }
        for (run, taken) in runs {
            println!("{} {} {:.1}", case.name, run.codec.name, median(taken));
        }
    }
}

// ------------------------------------------------------------------------ main

fn count(case: &str, codec: &str) {
    let case = CASES.iter().find(|c| c.name == case).expect("a case");
    let all = codecs();
    let codec = all.iter().find(|c| c.name == codec).expect("a codec");
    ready(case, codec).once(&mut [0; BLOCK]);
}

fn list() {
    for case in &CASES {
        let calls = match case.what {
            What::Report => 1,
            _ => case.inputs,
        };
        for codec in codecs().iter().filter(|codec| takes_part(case, codec)) {
            println!(
                "{} {} {}_{} {} {}",
                case.name,
                codec.name,
                codec.name,
                case.what.call(),
                calls,
                case.inputs
            );
        }
    }
}

fn main() {
    #[cfg(libfec)]
    fec::begin();
    let words: Vec<String> = std::env::args().skip(1).collect();
    match words.iter().map(String::as_str).collect::<Vec<_>>()[..] {
        ["times"] => times(),
        ["list"] => list(),
        ["count", case, codec] => count(case, codec),
        _ => panic!("bench times | list | count CASE CODEC"),
    }
}
