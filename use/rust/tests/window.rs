//! Order 2's window: what a correction adds, by call and by command, what adds
//! nothing, and the proposal.

use crate::damage::{any_marks, as_ours, damage, from_environment};
use crate::livomashen::{self, at, command, Refusal, Registers, Window};
use crate::livomashen::{BLOCK, FRESH, RECORD, REGISTERS, WINDOW};
use crate::random::Random;
use crate::worked::zeros_with;
use crate::{number, plain, told};

/// A window that holds these positions and no more.
fn holding(positions: &[u8]) -> Window {
    let mut bytes = [255; WINDOW];
    bytes[WINDOW - positions.len()..].copy_from_slice(positions);
    Window::from_bytes(bytes)
}

fn any_bytes() -> [u8; WINDOW] {
    std::array::from_fn(|at| (at * 37 + 11) as u8)
}

// -------------------------------------------------------- bytes and proposals

#[test]
fn fresh_and_cleared() {
    assert_eq!(*Window::fresh().bytes(), [255; WINDOW]);
    assert_eq!(Window::fresh().positions().next(), None);
    assert_eq!(Window::fresh().propose(&FRESH), Ok(None));
    for bytes in [any_bytes(), [0; WINDOW], [44; WINDOW], [255; WINDOW]] {
        let mut window = Window::from_bytes(bytes);
        window.clear();
        assert_eq!(window, Window::fresh());
    }
}

#[test]
fn from_and_to_bytes() {
    let window = Window::from_bytes(any_bytes());
    assert_eq!(*window.bytes(), any_bytes());
    let positions: Vec<u8> = any_bytes().into_iter().filter(|&p| p < 45).collect();
    assert!(window.positions().eq(positions));
    assert!(holding(&[7, 3, 7]).positions().eq([7, 3, 7]));
}

#[test]
fn every_byte_from_no_time_to_64() {
    for value in 0..=255 {
        for times in 0..=WINDOW {
            let window = holding(&vec![value; times]);
            let is_position = value < 45;
            let held = if is_position { times } else { 0 };
            assert_eq!(window.times(value), held, "{value}, {times} times");
            let wanted = (held >= 4).then_some(value);
            assert_eq!(window.propose(&FRESH), Ok(wanted), "{value}, {times} times");
        }
    }
}

#[test]
fn the_lowest_that_is_not_marked() {
    // 2 stands there three times, the others four.
    let window = holding(&[44, 30, 3, 10, 2].repeat(4)[..19]);
    for (marks, wanted) in [
        (FRESH, Ok(Some(3))),
        ([255, 1, 44, 255], Ok(Some(3))),
        ([255, 1, 3, 255], Ok(Some(10))),
        ([0, 0, 255, 255], Ok(Some(10))),
        ([255, 2, 10, 3], Ok(Some(30))),
        ([255, 2, 3, 10], Ok(Some(30))),
        ([0, 1, 10, 255], Ok(Some(30))),
        ([3, 2, 10, 3], Ok(Some(44))),
        ([0, 2, 44, 30], Ok(Some(10))),
        ([5, 0, 255, 255], Err(Refusal::MarkRange)),
        ([255, 1, 45, 255], Err(Refusal::MarkRange)),
        ([255, 2, 9, 9], Err(Refusal::MarkTwice)),
    ] {
        assert_eq!(window.propose(&marks), wanted, "marks {marks:?}");
    }
    assert_eq!(holding(&[3; 4]).propose(&[0, 0, 255, 255]), Ok(None));
    assert_eq!(window.propose(&FRESH[..3]), Err(Refusal::MarkRange));
}

// ------------------------------------------------------------- what is added

/// The ways to correct a block.
#[derive(Clone, Copy, Debug)]
enum Way {
    Get,
    Patrol,
    Command(u8),
}

const WAYS: [Way; 4] = [
    Way::Get,
    Way::Patrol,
    Way::Command(command::GET),
    Way::Command(command::PATROL),
];

fn correct(
    way: Way,
    bank: &mut [u8],
    k: usize,
    marks: &[u8; 4],
    window: &mut Window,
) -> Result<(), (u8, u8)> {
    let mut out = [0; BLOCK];
    let said = match way {
        Way::Get => livomashen::get(bank, k, marks, &mut out, window).map(|_| ()),
        Way::Patrol => livomashen::patrol(bank, k, marks, window).map(|_| ()),
        Way::Command(asked) => {
            let mut bytes = [0; REGISTERS];
            bytes[1..3].copy_from_slice(&(k as u16).to_le_bytes());
            bytes[8..].copy_from_slice(marks);
            let mut registers = Registers::from_bytes(bytes);
            let written = registers.write(at::COMMAND, asked, bank, &mut out, window);
            assert_eq!(written, Ok(()));
            registers.last_answer().expect("an answer").map(|_| ())
        }
    };
    told(said)
}

#[test]
fn what_each_way_adds() {
    let (three, card_2) = ([(0, 8), (1, 6), (2, 1)], [2, 0, 255, 255]);
    type Row<'a> = ([u8; 4], &'a [(usize, u8)], Result<&'a [u8], (u8, u8)>);
    let rows: [Row; 14] = [
        (FRESH, &[], Ok(&[])),
        (FRESH, &[(20, 7)], Ok(&[20])),
        (FRESH, &[(0, 1), (1, 1)], Ok(&[0, 1])),
        (FRESH, &three, Err((11, 0))),
        (FRESH, &[(0, 1), (9, 1)], Err((10, 0))),
        ([255, 2, 0, 0], &[(0, 1)], Err((7, 0))),
        ([5, 0, 255, 255], &[(0, 1)], Err((6, 0))),
        ([1, 0, 255, 255], &three, Ok(&[9, 10, 11])),
        // Chips marked the high one first, and one further chip.
        ([255, 2, 30, 3], &[(3, 1), (30, 1)], Ok(&[3, 30])),
        ([255, 1, 20, 255], &[(20, 1), (5, 1)], Ok(&[5, 20])),
        // A marked card, with a chip before it, after it, and on both sides.
        (card_2, &[(18, 1), (26, 2), (0, 3)], Ok(&[0, 18, 26])),
        (card_2, &[(18, 1), (26, 2), (44, 3)], Ok(&[18, 26, 44])),
        ([2, 2, 44, 0], &[(0, 1), (22, 2), (44, 3)], Ok(&[0, 22, 44])),
        ([0, 0, 255, 255], &[(8, 1), (9, 2)], Ok(&[8, 9])),
    ];
    let full: Vec<u8> = (0..WINDOW as u8).map(|at| at % 45).collect();
    for (marks, changes, wanted) in rows {
        for way in WAYS {
            for before in [&[], &full[..62], &full, &any_bytes()[..]] {
                let mut window = holding(before);
                let mut run = window.bytes().to_vec();
                run.extend(wanted.unwrap_or(&[]));
                let said = correct(way, &mut zeros_with(changes), 0, &marks, &mut window);
                let words = format!("{way:?}, marks {marks:?}, bytes set {changes:?}");
                assert_eq!(said, wanted.map(|_| ()), "{words}");
                assert_eq!(window.bytes()[..], run[run.len() - WINDOW..], "{words}");
            }
        }
    }
}

/// Block p has chip p bad.
fn bank_of_bad_chips() -> Vec<u8> {
    (0..BLOCK).flat_map(|p| zeros_with(&[(p, 1)])).collect()
}

#[test]
fn three_and_four_times_64_and_65_held() {
    for way in WAYS {
        let mut window = Window::fresh();
        // A fresh bank each time, since a patrol mends it.
        let mut add = |p| {
            let said = correct(way, &mut bank_of_bad_chips(), p, &FRESH, &mut window);
            assert_eq!(said, Ok(()));
            window.propose(&FRESH)
        };
        for _ in 0..3 {
            assert_eq!(add(7), Ok(None), "{way:?}");
        }
        assert_eq!(add(7), Ok(Some(7)), "{way:?}");
        for more in 0..60 {
            assert_eq!(add(8 + more % 30), Ok(Some(7)), "{way:?}, {more}");
        }
        assert_eq!(add(44), Ok(None), "{way:?}: the first of the four has left");
    }
}

#[test]
fn other_calls_add_nothing() {
    let (mut bank, mut out) = (bank_of_bad_chips(), [0; BLOCK]);
    let mut window = holding(&[7, 7, 7]);
    assert_eq!(correct(Way::Get, &mut bank, 7, &FRESH, &mut window), Ok(()));
    let before = window.clone();
    assert!(livomashen::read(&bank[BLOCK * 7..BLOCK * 8], &FRESH, &mut out).is_ok());
    assert!(livomashen::report(&bank, &FRESH).is_ok());
    assert!(livomashen::put(&mut bank, 7, &[9; RECORD]).is_ok());
    assert!(livomashen::clear(&mut bank).is_ok());
    assert!(livomashen::place_chip(&mut { FRESH }, 7).is_ok());
    let short = livomashen::get(&bank, 7, &FRESH, &mut out[1..], &mut window);
    assert_eq!(short, Err(Refusal::OutputLength));
    assert_eq!(window, before);
    // Proposing places no mark, so it is proposed again.
    assert_eq!(window.propose(&FRESH), Ok(Some(7)));
    assert_eq!(window.propose(&FRESH), Ok(Some(7)));
}

// -------------------------------------------------------------- lists of calls

const BLOCKS: usize = 3;

/// A list so far: bank, marks and window, beside all positions since the window's
/// last clear, and plain.rs's window.
struct List {
    words: String,
    bank: [u8; BLOCKS * BLOCK],
    marks: [u8; 4],
    /// A chip that is hit again and again.
    going: usize,
    window: Window,
    run: Vec<u8>,
    plains: plain::window::Window,
}

impl List {
    fn begin(words: String, going: usize) -> List {
        List {
            words,
            bank: [0; BLOCKS * BLOCK],
            marks: FRESH,
            going,
            window: Window::fresh(),
            run: vec![255; WINDOW],
            plains: [255; WINDOW],
        }
    }

    fn clear_window(&mut self) {
        self.window.clear();
        self.run = vec![255; WINDOW];
        self.plains = [255; WINDOW];
    }

    /// Hits, marks that change, clears of bank and window; or nothing.
    fn between(&mut self, rng: &mut Random) {
        let block = BLOCK * rng.below(BLOCKS);
        match rng.below(40) {
            0 => self.clear_window(),
            1 => self.marks = any_marks(rng),
            2 => self.marks = FRESH,
            3 => assert_eq!(livomashen::clear(&mut self.bank), Ok(())),
            4..20 => self.bank[block + self.going] ^= rng.change(),
            20..24 => damage(rng, &mut self.bank[block..block + BLOCK], &self.marks),
            _ => {}
        }
    }

    fn correct(&mut self, way: Way, k: usize) {
        let (before, mut after) = (self.bank, self.bank);
        let wanted = plain::window::patrol(&mut after, k, &self.marks, &mut self.plains);
        let said = correct(way, &mut self.bank, k, &self.marks, &mut self.window);
        assert_eq!(said, as_ours(wanted).map(|_| ()), "{}", self.words);
        let changed = (0..before.len()).filter(|&p| before[p] != after[p]);
        self.run.extend(changed.map(|p| (p % BLOCK) as u8));
    }

    /// The window is the last 64; gives the proposal.
    fn check(&self) -> Result<Option<u8>, u8> {
        let last = &self.run[self.run.len() - WINDOW..];
        assert_eq!(self.window.bytes(), last, "{}", self.words);
        assert_eq!(self.plains, last, "{}: plain.rs", self.words);
        let proposal = number(self.window.propose(&self.marks));
        let wanted = plain::window::propose(&self.plains, &self.marks);
        assert_eq!(proposal, wanted, "{}", self.words);
        proposal
    }
}

#[test]
fn random_lists() {
    let seed = from_environment("SEED", 1);
    let lists = from_environment("CASES", 200_000) / 400;
    let mut rng = Random(seed ^ 0x3A11);
    let mut seen = [0; 3];
    for at in 0..lists {
        let mut list = List::begin(format!("seed {seed}, list {at}"), rng.below(BLOCK));
        for _ in 0..400 {
            list.between(&mut rng);
            list.correct(WAYS[rng.below(4)], rng.below(BLOCKS + 1));
            seen[list.check().map_or(2, |chip| chip.is_some() as usize)] += 1;
        }
    }
    assert!(
        lists < 25 || seen.iter().all(|&count| count > 0),
        "no chip, a chip and a refusal are met: {seen:?}"
    );
}
