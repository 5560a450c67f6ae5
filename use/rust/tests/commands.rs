//! Each command of the registers against the call that it stands for.

use crate::damage::{any_marks, damage, from_environment};
use crate::livomashen::{self, at, command, Corrected, Refusal, Registers, Said, Window};
use crate::livomashen::{BLOCK, RECORD, REGISTERS};
use crate::random::Random;

/// The registers after a command, by the call that it stands for.
fn by_call(
    bytes: &[u8; REGISTERS],
    asked: u8,
    bank: &mut [u8],
    out: &mut [u8],
    window: &mut Window,
) -> [u8; REGISTERS] {
    let (mut after, mut marks) = (*bytes, [0; 4]);
    marks.copy_from_slice(&bytes[8..]);
    let k = bytes[1] as usize + 256 * bytes[2] as usize;
    let chip_or_card = bytes[3] as u32;
    let said = match asked {
        command::GET => livomashen::get(bank, k, &marks, out, window).map(Said::Corrected),
        command::PATROL => livomashen::patrol(bank, k, &marks, window).map(Said::Corrected),
        command::MARK_CHIP => {
            livomashen::place_chip(&mut marks, chip_or_card).map(|()| Said::Marked)
        }
        command::MARK_CARD => {
            livomashen::place_card(&mut marks, chip_or_card).map(|()| Said::Marked)
        }
        command::LIFT_CHIP => {
            livomashen::lift_chip(&mut marks, chip_or_card).map(|()| Said::Marked)
        }
        _ => livomashen::lift_card(&mut marks).map(|()| Said::Marked),
    };
    after[0] = asked;
    (after[4], after[5]) = match said {
        Ok(Said::Corrected(Corrected::Clean)) => (0, 0),
        Ok(Said::Corrected(Corrected::Chips { n })) => (1, n),
        Ok(Said::Corrected(Corrected::Card { card, n })) => (2, n + 16 * card),
        Ok(Said::Marked) => (3, 0),
        Err(Refusal::Several { card }) => (27, 16 * card),
        Err(refusal) => (16 + refusal.number(), 0),
    };
    after[7] |= if said.is_ok() { 1 } else { 2 };
    after[8..].copy_from_slice(&marks);
    after
}

/// Registers whose block is most often there, and whose chip or card is marked
/// now and then.
fn any_registers(rng: &mut Random, marks: &[u8; 4]) -> [u8; REGISTERS] {
    let mut bytes = [0; REGISTERS];
    bytes.fill_with(|| rng.byte());
    bytes[1] = rng.below(4) as u8;
    bytes[2] = if rng.below(20) == 0 { 1 } else { 0 };
    bytes[3] = match rng.below(4) {
        0 => marks[2],
        1 => rng.below(5) as u8,
        2 => rng.below(45) as u8,
        _ => rng.byte(),
    };
    bytes[8..].copy_from_slice(marks);
    bytes
}

#[test]
fn random_commands_do_what_their_calls_do() {
    let seed = from_environment("SEED", 1);
    let mut rng = Random(seed ^ 0x7E61);
    let mut seen = [0; 28];
    let (mut window, mut other_window) = (Window::fresh(), Window::fresh());
    for case in 0..from_environment("CASES", 200_000) {
        let marks = any_marks(&mut rng);
        let mut bank = [0; 3 * BLOCK];
        for block in bank.chunks_exact_mut(BLOCK) {
            assert_eq!(livomashen::store(&rng.bytes(RECORD), block), Ok(()));
            damage(&mut rng, block, &marks);
        }
        let (mut out, before) = ([0xA5; BLOCK], any_registers(&mut rng, &marks));
        let (mut other_bank, mut other_out) = (bank, out);
        let asked = 1 + rng.below(6) as u8;
        let wanted = by_call(
            &before,
            asked,
            &mut other_bank,
            &mut other_out,
            &mut other_window,
        );
        let mut registers = Registers::from_bytes(before);
        let said = registers.write(at::COMMAND, asked, &mut bank, &mut out, &mut window);
        assert_eq!(said, Ok(()), "seed {seed}, case {case}");
        assert_eq!(*registers.bytes(), wanted, "seed {seed}, case {case}");
        assert_eq!(
            (bank, out),
            (other_bank, other_out),
            "seed {seed}, case {case}"
        );
        assert_eq!(window, other_window, "seed {seed}, case {case}");
        seen[wanted[4] as usize] += 1;
    }
    for met in [0, 1, 2, 3, 21, 22, 23, 24, 25, 26, 27] {
        assert!(seen[met] > 0, "every answer is met: {seen:?}");
    }
}
