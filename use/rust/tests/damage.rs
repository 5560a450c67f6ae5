//! Random damage and random banks, against plain.rs.
//!
//! SEED=7 CASES=100000 ./tests      other cases, more of them

use crate::livomashen::{self, Corrected, Window, BLOCK, FRESH, RECORD};
use crate::random::Random;
use crate::{number, plain, told};

pub fn from_environment(name: &str, otherwise: u64) -> u64 {
    std::env::var(name)
        .ok()
        .and_then(|text| text.parse().ok())
        .unwrap_or(otherwise)
}

/// plain.rs's words as ours.
pub fn as_ours(answer: plain::Answer) -> Result<Corrected, (u8, u8)> {
    match answer {
        plain::Answer::Clean => Ok(Corrected::Clean),
        plain::Answer::Chips { n } => Ok(Corrected::Chips { n }),
        plain::Answer::Card { card, n } => Ok(Corrected::Card { card, n }),
        plain::Answer::Refused(number) => Err((number, 0)),
        plain::Answer::None => Err((10, 0)),
        plain::Answer::Several { card } => Err((11, card)),
    }
}

pub fn any_marks(rng: &mut Random) -> [u8; 4] {
    let mut marks = FRESH;
    if rng.below(2) == 0 {
        marks[0] = rng.below(5) as u8;
    }
    marks[1] = rng.below(3) as u8;
    for place in 0..marks[1] as usize {
        marks[2 + place] = rng.below(BLOCK) as u8;
    }
    // Now and then a byte of any value; most such records are refused.
    if rng.below(20) == 0 {
        marks[rng.below(4)] = rng.byte();
    }
    marks
}

fn hit_card(rng: &mut Random, block: &mut [u8], card: usize) {
    for chip in 0..9 {
        block[9 * card + chip] = rng.byte();
    }
}

/// Some damage, allowed by the marks or not.
pub fn damage(rng: &mut Random, block: &mut [u8], marks: &[u8; 4]) {
    let marked_card = if marks[0] < 5 {
        marks[0] as usize
    } else {
        rng.below(5)
    };
    let sort = rng.below(8);
    if sort & 1 != 0 {
        for &chip in &marks[2..] {
            if (chip as usize) < BLOCK {
                block[chip as usize] = rng.byte();
            }
        }
    }
    match sort / 2 {
        0 => {}
        1 => hit_card(rng, block, marked_card),
        2 => {
            let any = rng.below(5);
            hit_card(rng, block, any);
        }
        _ => {
            // 8, 6, 1 on three neighbours fits every card.
            let at = 9 * rng.below(5) + rng.below(7);
            for (step, value) in [8, 6, 1].into_iter().enumerate() {
                block[at + step] ^= value;
            }
        }
    }
    for _ in 0..rng.below(4) {
        let p = rng.below(BLOCK);
        block[p] ^= rng.byte();
    }
}

#[test]
fn random_damage_reads_as_by_plain() {
    let seed = from_environment("SEED", 1);
    let cases = from_environment("CASES", 200_000);
    let mut rng = Random(seed);
    let mut seen = [0; 9];
    for case in 0..cases {
        let record = rng.bytes(RECORD);
        let marks = any_marks(&mut rng);
        let (mut ours, mut theirs) = ([1; BLOCK], [2; BLOCK]);
        assert_eq!(livomashen::store(&record, &mut ours), Ok(()));
        assert_eq!(plain::store(&record, &mut theirs), Ok(()));
        assert_eq!(
            ours, theirs,
            "seed {seed}, case {case}: store of {record:?}"
        );
        let mut block = ours;
        damage(&mut rng, &mut block, &marks);
        let (mut ours, mut theirs) = ([0xA5; BLOCK], [0xA5; BLOCK]);
        let said = told(livomashen::read(&block, &marks, &mut ours));
        let wanted = as_ours(plain::read(&block, &marks, &mut theirs));
        assert_eq!(
            said, wanted,
            "seed {seed}, case {case}: {block:?} under {marks:?}"
        );
        assert_eq!(
            ours, theirs,
            "seed {seed}, case {case}: output of {block:?} under {marks:?}"
        );
        seen[match said {
            Ok(Corrected::Clean) => 0,
            Ok(Corrected::Chips { .. }) => 1,
            Ok(Corrected::Card { .. }) => 2,
            Err((10, _)) => 3,
            Err((11, card)) => 5 + card as usize,
            Err(_) => 4,
        }] += 1;
    }
    // Card 3 is named too seldom to ask for.
    assert!(
        cases < 10_000 || seen[..8].iter().all(|&count| count > 0),
        "every answer is met: {seen:?}"
    );
}

#[test]
fn random_banks_count_as_by_plain() {
    let seed = from_environment("SEED", 1);
    let mut rng = Random(seed ^ 0xB4E4);
    for case in 0..300 {
        let blocks = 1 + rng.below(if case % 50 == 0 { 1024 } else { 12 });
        let marks = any_marks(&mut rng);
        let mut bank = vec![0xFF; blocks * BLOCK];
        assert_eq!(livomashen::clear(&mut bank), Ok(()));
        for k in 0..blocks {
            assert_eq!(livomashen::put(&mut bank, k, &rng.bytes(RECORD)), Ok(()));
            if rng.below(2) == 0 {
                damage(&mut rng, &mut bank[BLOCK * k..BLOCK * (k + 1)], &marks);
            }
        }
        let counted = livomashen::report(&bank, &marks)
            .map(|t| [t.clean, t.chips, t.card, t.none, t.several]);
        let wanted =
            plain::report(&bank, &marks).map(|t| [t.clean, t.chips, t.card, t.none, t.several]);
        assert_eq!(number(counted), wanted, "seed {seed}, case {case}");
        patrols_as_by_plain(&mut bank, &marks, blocks);
    }
}

/// Every block is got, then patrolled: both answers, and every byte after.
fn patrols_as_by_plain(bank: &mut [u8], marks: &[u8; 4], blocks: usize) {
    let (mut window, mut wanted_window) = (Window::fresh(), [255; 64]);
    let mut wanted_bank = bank.to_vec();
    for k in 0..blocks {
        let (mut out, mut wanted_out) = ([0xA5; BLOCK], [0xA5; BLOCK]);
        let got = livomashen::get(bank, k, marks, &mut out, &mut window);
        let wanted = plain::window::get(bank, k, marks, &mut wanted_out, &mut wanted_window);
        assert_eq!(told(got), as_ours(wanted), "get {k}");
        assert_eq!(out, wanted_out, "get {k}, output");
        assert_eq!(*window.bytes(), wanted_window, "get {k}, window");
        let patrolled = livomashen::patrol(bank, k, marks, &mut window);
        let wanted = plain::window::patrol(&mut wanted_bank, k, marks, &mut wanted_window);
        assert_eq!(told(patrolled), as_ours(wanted), "patrol {k}");
        assert!(*bank == *wanted_bank, "patrol {k}, bank");
        assert_eq!(*window.bytes(), wanted_window, "patrol {k}, window");
    }
}
