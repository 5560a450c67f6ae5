//! Order 8's slips: every outcome written and read, the refusals of writer and
//! reader with their offsets, runs of slips, and what gets say; against plain.rs.

use crate::damage::{any_marks, damage, from_environment};
use crate::livomashen::{self, read_slip, read_slips, write_slip};
use crate::livomashen::{Corrected, Fault, Refusal, Slip, Window};
use crate::livomashen::{BLOCK, LONGEST_SLIP, MOST_BLOCKS, RECORD};
use crate::plain::{self, Answer};
use crate::random::Random;

type Reading = Result<Corrected, Refusal>;

fn as_plains(reading: Reading) -> Answer {
    match reading {
        Ok(Corrected::Clean) => Answer::Clean,
        Ok(Corrected::Chips { n }) => Answer::Chips { n },
        Ok(Corrected::Card { card, n }) => Answer::Card { card, n },
        Err(Refusal::None) => Answer::None,
        Err(Refusal::Several { card }) => Answer::Several { card },
        Err(other) => Answer::Refused(other.number()),
    }
}

/// Those that have a slip: 64.
fn every_reading() -> Vec<Reading> {
    let mut readings = vec![Ok(Corrected::Clean), Err(Refusal::None)];
    readings.extend((1..=2).map(|n| Ok(Corrected::Chips { n })));
    for card in 0..5 {
        readings.extend((1..=11).map(|n| Ok(Corrected::Card { card, n })));
        readings.push(Err(Refusal::Several { card }));
    }
    assert_eq!(readings.len(), 64);
    readings
}

/// Refusals that are no reading: every one but None and Several.
const OTHERS: [Refusal; 15] = [
    Refusal::BlockLength,
    Refusal::OutputLength,
    Refusal::RecordLength,
    Refusal::BankLength,
    Refusal::BlockNumber,
    Refusal::MarkRange,
    Refusal::MarkTwice,
    Refusal::MarkLimit,
    Refusal::MarkAbsent,
    Refusal::RegisterAddress,
    Refusal::RegisterReadOnly,
    Refusal::CommandUnknown,
    Refusal::SlipCut,
    Refusal::SlipRules,
    Refusal::SlipSpace,
];

/// Those that have none.
fn no_readings() -> Vec<Reading> {
    let mut readings: Vec<Reading> = OTHERS.into_iter().map(Err).collect();
    readings.push(Ok(Corrected::Chips { n: 0 }));
    readings.extend((3..=255).map(|n| Ok(Corrected::Chips { n })));
    for other in 5..=255 {
        readings.extend((0..=255).map(|n| Ok(Corrected::Card { card: other, n })));
        readings.push(Err(Refusal::Several { card: other }));
    }
    for card in 0..5 {
        readings.extend((12..=255).map(|n| Ok(Corrected::Card { card, n })));
        readings.push(Ok(Corrected::Card { card, n: 0 }));
    }
    readings
}

// ------------------------------------------------------- one call, by plain.rs

/// A write of ours and one of plain.rs's, each on its own bytes.
fn write(slips: &mut [u8], at: usize, k: usize, reading: Reading) -> Result<usize, u8> {
    let mut others = slips.to_vec();
    let said = write_slip(slips, at, k, reading).map_err(Refusal::number);
    let wanted = plain::slips::write(&mut others, at, k, as_plains(reading));
    assert_eq!(
        said,
        wanted,
        "block {k}, {reading:?}, offset {at} of {}",
        slips.len()
    );
    assert_eq!(slips, others, "block {k}, {reading:?}, offset {at}");
    said
}

fn read(slips: &[u8], at: usize) -> Result<(Slip, usize), (u8, usize)> {
    let said = read_slip(slips, at).map_err(|fault| (fault.refusal.number(), fault.offset));
    let told = said.map(|(slip, next)| (slip.block, as_plains(slip.reading), next));
    let wanted = plain::slips::read(slips, at);
    assert_eq!(told, wanted, "{slips:?} at {at}");
    said
}

// -------------------------------------------------------------------- writing

#[test]
fn worked_slips() {
    let rows: [(usize, Reading, &[u8]); 8] = [
        (0, Ok(Corrected::Clean), &[3, 0, 0, 0]),
        (1023, Ok(Corrected::Clean), &[3, 255, 3, 0]),
        (255, Ok(Corrected::Chips { n: 1 }), &[11, 255, 0, 1, 1]),
        (256, Ok(Corrected::Chips { n: 2 }), &[11, 0, 1, 1, 2]),
        (
            258,
            Ok(Corrected::Card { card: 1, n: 9 }),
            &[15, 2, 1, 2, 1, 9],
        ),
        (
            7,
            Ok(Corrected::Card { card: 4, n: 11 }),
            &[15, 7, 0, 2, 4, 11],
        ),
        (7, Err(Refusal::None), &[17, 7, 0, 10]),
        (513, Err(Refusal::Several { card: 4 }), &[21, 1, 2, 4, 11]),
    ];
    for (k, reading, bytes) in rows {
        let mut slips = [0xA5; LONGEST_SLIP];
        assert_eq!(write(&mut slips, 0, k, reading), Ok(bytes.len()));
        assert_eq!(slips[..bytes.len()], *bytes, "block {k}, {reading:?}");
    }
}

#[test]
fn every_outcome_of_every_block() {
    for k in 0..MOST_BLOCKS {
        for reading in every_reading() {
            let mut slips = [0xA5; 3 + LONGEST_SLIP];
            let end = write(&mut slips, 3, k, reading).expect("an offset");
            let slip = Slip {
                block: k as u16,
                reading,
            };
            assert_eq!(read(&slips, 3), Ok((slip, end)));
            assert_eq!(read(&slips[..end], 3), Ok((slip, end)));
            assert_eq!(read(&slips[..end - 1], 3), Err((15, end - 1)));
        }
    }
}

#[test]
fn what_has_no_slip() {
    for reading in no_readings() {
        for len in [0, 3, LONGEST_SLIP] {
            assert_eq!(write(&mut vec![7; len], 0, 0, reading), Err(16));
        }
    }
    for reading in every_reading() {
        for k in [
            1024,
            1025,
            65_535,
            65_536,
            65_541,
            (1 << 32) + 5,
            usize::MAX - 1023,
            usize::MAX,
        ] {
            assert_eq!(write(&mut [7; LONGEST_SLIP], 0, k, reading), Err(16));
            assert_eq!(write(&mut [], usize::MAX, k, reading), Err(16));
        }
    }
}

/// Every length with every offset in it and behind it.
#[test]
fn no_space() {
    let far = [1 << 16, 1 << 32, usize::MAX / 2];
    let last = (0..=LONGEST_SLIP).map(|back| usize::MAX - back);
    let far: Vec<usize> = far.into_iter().chain(last).collect();
    for reading in every_reading() {
        for len in 0..=2 * LONGEST_SLIP {
            for at in (0..=len + 1).chain(far.iter().copied()) {
                let mut slips: Vec<u8> = (0..len as u8).map(|at| at * 37 + 11).collect();
                let said = write(&mut slips, at, 1023, reading);
                assert!(said == Err(17) || said.is_ok_and(|next| next <= len));
                let _ = read(&slips, at);
            }
        }
    }
}

// -------------------------------------------------------------------- reading

#[test]
fn causes_and_their_offsets() {
    let rows: [(&[u8], u8, usize); 17] = [
        (&[], 15, 0),
        (&[15, 0], 15, 2),
        (&[15, 0, 4], 16, 2),
        (&[3, 0, 0, 1], 16, 3),
        (&[7], 16, 0),
        (&[47, 0, 0, 2, 0, 1], 16, 0),
        (&[3, 0, 0], 15, 3),
        (&[3, 255, 4, 9], 16, 2),
        (&[11, 0, 0, 2, 1], 16, 3),
        (&[11, 0, 0, 1, 0], 16, 4),
        (&[11, 0, 0, 1, 3], 16, 4),
        (&[15, 0, 0, 2, 5, 12], 16, 4),
        (&[15, 0, 0, 2, 4, 12], 16, 5),
        (&[15, 0, 0, 2, 4], 15, 5),
        (&[17, 0, 0, 11], 16, 3),
        (&[21, 0, 0, 5, 10], 16, 3),
        (&[21, 0, 0, 4, 10], 16, 4),
    ];
    for (bytes, number, offset) in rows {
        assert_eq!(read(bytes, 0), Err((number, offset)), "{bytes:?}");
        let behind = [&[15, 0, 0], bytes].concat();
        assert_eq!(read(&behind, 3), Err((number, 3 + offset)), "{behind:?}");
    }
    for at in [4, 5, 1 << 32, usize::MAX - 1, usize::MAX] {
        assert_eq!(read(&[3, 0, 0, 0], at), Err((15, 4)), "offset {at}");
    }
}

/// Values at the edges of every field behind each map, in every mixture, cut at
/// every length.  What is read, written again, is the same.
#[test]
fn every_mixture_of_edges() {
    let edges = [0, 1, 2, 3, 4, 5, 10, 11, 12, 255];
    for map in [3, 11, 15, 17, 21] {
        for mixture in 0..100_000 {
            let mut slips = [map; LONGEST_SLIP];
            let mut left = mixture;
            for byte in &mut slips[1..] {
                *byte = edges[left % edges.len()];
                left /= edges.len();
            }
            for len in 1..=LONGEST_SLIP {
                let Ok((slip, next)) = read(&slips[..len], 0) else {
                    continue;
                };
                let mut again = slips;
                assert_eq!(
                    write(&mut again, 0, slip.block.into(), slip.reading),
                    Ok(next)
                );
                assert_eq!(again, slips, "two slips of one outcome");
            }
        }
    }
}

#[test]
fn every_map() {
    for map in 0..=255 {
        for tail in [[0, 0, 0, 0, 0], [1, 2, 2, 3, 4], [255, 3, 1, 2, 11]] {
            let slips = [&[map][..], &tail].concat();
            let known = matches!(map, 3 | 11 | 15 | 17 | 21);
            assert!(known || read(&slips, 0) == Err((16, 0)), "map {map}");
            assert!(!known || read(&slips[..1], 0) == Err((15, 1)), "map {map}");
        }
    }
}

#[test]
fn a_fault_in_words() {
    let words = |bytes: &[u8]| read_slip(bytes, 0).expect_err("a fault").to_string();
    assert_eq!(
        words(&[3, 0]),
        "the slice ends before the slip does, at byte 2"
    );
    assert_eq!(
        words(&[3, 0, 4]),
        "a bit or value that no slip has, at byte 2"
    );
}

// ----------------------------------------------------------------------- runs

/// Every outcome, one behind the other.
fn run_of_slips() -> (Vec<Slip>, Vec<u8>) {
    let mut bytes = vec![0; 64 * LONGEST_SLIP];
    let (mut slips, mut end) = (Vec::new(), 0);
    for (at, reading) in every_reading().into_iter().enumerate() {
        let block = 16 * at as u16 + 5;
        end = write(&mut bytes, end, block.into(), reading).expect("an offset");
        slips.push(Slip { block, reading });
    }
    bytes.truncate(end);
    (slips, bytes)
}

#[test]
fn a_run() {
    let (slips, bytes) = run_of_slips();
    let found: Result<Vec<Slip>, Fault> = read_slips(&bytes).collect();
    assert_eq!(found, Ok(slips.clone()));
    assert_eq!(read_slips(&[]).next(), None);
    for at in 0..bytes.len() + 2 {
        let _ = read(&bytes, at);
    }
    // Cut, or with a map that is none, it ends at the fault.
    let cut = Fault {
        refusal: Refusal::SlipCut,
        offset: bytes.len() - 1,
    };
    let mut found = read_slips(&bytes[..bytes.len() - 1]).skip(63);
    assert_eq!((found.next(), found.next()), (Some(Err(cut)), None));
    let mut spoilt = bytes.clone();
    spoilt[8] = 1;
    let fault = Fault {
        refusal: Refusal::SlipRules,
        offset: 8,
    };
    let found: Vec<_> = read_slips(&spoilt).collect();
    assert_eq!(found, [Ok(slips[0]), Ok(slips[1]), Err(fault)]);
}

#[test]
fn what_gets_say() {
    let seed = from_environment("SEED", 1);
    let mut rng = Random(seed ^ 0x5117);
    let (mut bytes, mut seen) = (vec![0; 64 * LONGEST_SLIP], [0; 5]);
    for case in 0..from_environment("CASES", 200_000) / 1000 {
        let (mut wanted, mut end) = (Vec::new(), 0);
        for _ in 0..64 {
            let (marks, k) = (any_marks(&mut rng), rng.below(3));
            let mut bank = [0; 3 * BLOCK];
            assert_eq!(livomashen::put(&mut bank, k, &rng.bytes(RECORD)), Ok(()));
            damage(&mut rng, &mut bank[BLOCK * k..BLOCK * (k + 1)], &marks);
            let mut window = Window::fresh();
            let reading = livomashen::get(&bank, k, &marks, &mut [0; BLOCK], &mut window);
            let kind = match reading {
                Ok(Corrected::Clean) => 0,
                Ok(Corrected::Chips { .. }) => 1,
                Ok(Corrected::Card { .. }) => 2,
                Err(Refusal::None) => 3,
                Err(Refusal::Several { .. }) => 4,
                Err(_) => {
                    assert_eq!(write(&mut bytes, end, k, reading), Err(16));
                    continue;
                }
            };
            seen[kind] += 1;
            end = write(&mut bytes, end, k, reading).expect("an offset");
            wanted.push(Ok(Slip {
                block: k as u16,
                reading,
            }));
        }
        let found: Vec<_> = read_slips(&bytes[..end]).collect();
        assert_eq!(found, wanted, "seed {seed}, case {case}");
    }
    assert!(
        seen.iter().all(|&count| count > 0),
        "every kind is met: {seen:?}"
    );
}
