//! Order 1's registers: addresses, commands and bits.  commands.rs has each
//! command against the call that it stands for.

use crate::livomashen::{self, at, command, pending, Corrected, Refusal, Registers, Said};
use crate::livomashen::{Window, BLOCK, FRESH, REGISTERS};
use crate::number;

/// Lawful states, one with every bit set, and one whose marks are 6.
const STATES: [[u8; REGISTERS]; 4] = [
    [0, 0, 0, 0, 0, 0, 0, 0, 255, 0, 255, 255],
    [255; REGISTERS],
    [2, 1, 0, 4, 2, 27, 1, 2, 4, 1, 44, 255],
    [6, 1, 0, 0, 25, 0, 3, 0, 5, 0, 255, 255],
];

/// A write on slices that it must not change; gives its number.
fn write(registers: &mut Registers, address: u32, value: u8) -> Result<(), u8> {
    let (mut bank, mut out) = ([7; 2 * BLOCK], [9; BLOCK]);
    let mut window = Window::fresh();
    let said = number(registers.write(address, value, &mut bank, &mut out, &mut window));
    assert_eq!((bank, out), ([7; 2 * BLOCK], [9; BLOCK]), "lent bytes");
    assert_eq!(window, Window::fresh());
    said
}

#[test]
fn at_the_start() {
    let registers = Registers::fresh();
    assert_eq!(*registers.bytes(), STATES[0]);
    assert_eq!(registers.marks(), FRESH);
    assert!(!registers.interrupt());
    assert_eq!(
        registers.last_answer(),
        Some(Ok(Said::Corrected(Corrected::Clean)))
    );
    assert_eq!(registers, Registers::from_bytes(STATES[0]));
}

#[test]
fn every_address() {
    let wide = [256, 257, 0x1_0000, 0x1_0007, 0x8000_0000, u32::MAX];
    for state in STATES {
        for address in (0..=300).chain(wide) {
            let mut registers = Registers::from_bytes(state);
            let wanted = state.get(address as usize).copied().ok_or(12);
            assert_eq!(number(registers.read(address)), wanted, "read {address}");
            let wanted = match address {
                12.. => Err(12),
                4 | 5 | 8.. => Err(13),
                0 => Err(14),
                _ => Ok(()),
            };
            assert_eq!(write(&mut registers, address, 9), wanted, "write {address}");
            if wanted.is_err() {
                assert_eq!(*registers.bytes(), state, "write {address}");
            }
        }
    }
}

#[test]
fn every_command() {
    for state in STATES {
        for value in 0..=255 {
            let mut registers = Registers::from_bytes(state);
            let known = (1..=6).contains(&value);
            let (mut bank, mut out) = ([0; 2 * BLOCK], [0; BLOCK]);
            let mut window = Window::fresh();
            let said = registers.write(at::COMMAND, value, &mut bank, &mut out, &mut window);
            let wanted = if known { Ok(()) } else { Err(14) };
            assert_eq!(number(said), wanted, "command {value}");
            if known {
                assert_eq!(registers.bytes()[0], value);
            } else {
                assert_eq!(*registers.bytes(), state, "command {value}");
            }
        }
    }
}

/// Bytes 1, 2, 3 and 6 take any value, and ones clear the bits of byte 7; no
/// slice is looked at.
#[test]
fn every_value_of_a_plain_register() {
    for state in STATES {
        for value in 0..=255 {
            for address in [at::BLOCK_LOW, at::BLOCK_HIGH, at::ASKED, at::ENABLE] {
                let mut registers = Registers::from_bytes(state);
                let mut window = Window::fresh();
                let said = registers.write(address, value, &mut [], &mut [], &mut window);
                assert_eq!(said, Ok(()));
                let mut wanted = state;
                wanted[address as usize] = value;
                assert_eq!(*registers.bytes(), wanted, "write {address}");
            }
            for before in 0..=255 {
                let mut wanted = state;
                wanted[7] = before;
                let mut registers = Registers::from_bytes(wanted);
                assert_eq!(write(&mut registers, at::PENDING, value), Ok(()));
                wanted[7] = before & !value;
                assert_eq!(*registers.bytes(), wanted, "{value} clears of {before}");
            }
        }
    }
}

#[test]
fn the_interrupt() {
    for enabled in 0..=255 {
        for pending in 0..=255 {
            let bytes = [9, 9, 9, 9, 9, 9, enabled, pending, 9, 9, 9, 9];
            let shared = (0..8).any(|bit| enabled >> bit & 1 == 1 && pending >> bit & 1 == 1);
            assert_eq!(Registers::from_bytes(bytes).interrupt(), shared);
        }
    }
}

/// Bytes 4 and 5 as commands leave them, then every other byte 4.
#[test]
fn every_last_answer() {
    let said = |answer, detail| {
        let bytes = [0, 0, 0, 0, answer, detail, 0, 0, 255, 0, 255, 255];
        Registers::from_bytes(bytes).last_answer()
    };
    let corrected = |kind| Some(Ok(Said::Corrected(kind)));
    assert_eq!(said(0, 0), corrected(Corrected::Clean));
    assert_eq!(said(1, 2), corrected(Corrected::Chips { n: 2 }));
    assert_eq!(said(2, 11), corrected(Corrected::Card { card: 0, n: 11 }));
    assert_eq!(said(2, 75), corrected(Corrected::Card { card: 4, n: 11 }));
    assert_eq!(said(3, 0), Some(Ok(Said::Marked)));
    assert_eq!(said(27, 64), Some(Err(Refusal::Several { card: 4 })));
    for answer in 4..=255 {
        let told = said(answer, 0).map(|said| number(said).map_err(|number| 16 + number));
        let wanted = (17..=27).contains(&answer).then_some(Err(answer));
        assert_eq!(told, wanted, "byte 4 is {answer}");
    }
}

#[test]
fn lengths_behind_a_command() {
    for bank_len in [0, 44, 45, 46, 90, 46_035, 46_080, 46_125] {
        for out_len in [0, 44, 45, 46] {
            let mut bank = vec![0; bank_len];
            let mut out = vec![0xA5; out_len];
            let mut window = Window::fresh();
            let mut run = |command, k: usize| {
                let mut bytes = STATES[0];
                bytes[1..3].copy_from_slice(&(k as u16).to_le_bytes());
                let mut registers = Registers::from_bytes(bytes);
                let written =
                    registers.write(at::COMMAND, command, &mut bank, &mut out, &mut window);
                assert_eq!(written, Ok(()));
                number(registers.last_answer().expect("an answer"))
            };
            let lawful = bank_len % 45 == 0 && (45..=46_080).contains(&bank_len);
            for k in [0, 1, 1022, 1023, 1024, 65_535] {
                let patrolled = if !lawful {
                    Err(4)
                } else if k >= bank_len / 45 {
                    Err(5)
                } else {
                    Ok(Said::Corrected(Corrected::Clean))
                };
                let got = if out_len == 45 { patrolled } else { Err(2) };
                let lengths = (bank_len, out_len, k);
                assert_eq!(run(command::GET, k), got, "{lengths:?}");
                assert_eq!(run(command::PATROL, k), patrolled, "{lengths:?}");
                assert_eq!(run(command::MARK_CHIP, k), Ok(Said::Marked), "{lengths:?}");
                assert_eq!(run(command::LIFT_CARD, k), Err(9), "{lengths:?}");
            }
        }
    }
}

/// A mark is placed by one and lifted by the other: the record is the same.
#[test]
fn commands_and_calls_on_one_mark_record() {
    let mut registers = Registers::fresh();
    assert_eq!(livomashen::place_chip(registers.marks_mut(), 44), Ok(()));
    assert_eq!(write(&mut registers, at::ASKED, 3), Ok(()));
    assert_eq!(
        write(&mut registers, at::COMMAND, command::MARK_CHIP),
        Ok(())
    );
    assert_eq!(
        write(&mut registers, at::COMMAND, command::MARK_CARD),
        Ok(())
    );
    assert_eq!(registers.marks(), [3, 2, 44, 3]);
    assert_eq!(registers.last_answer(), Some(Ok(Said::Marked)));
    // What is marked already may be marked again, by one and by the other.
    for again in [command::MARK_CHIP, command::MARK_CARD] {
        assert_eq!(write(&mut registers, at::PENDING, 255), Ok(()));
        assert_eq!(registers.bytes()[7], 0);
        assert_eq!(write(&mut registers, at::COMMAND, again), Ok(()));
        assert_eq!(registers.last_answer(), Some(Ok(Said::Marked)));
        assert_eq!(registers.bytes()[7], pending::DONE);
    }
    assert_eq!(livomashen::place_chip(registers.marks_mut(), 44), Ok(()));
    assert_eq!(registers.marks(), [3, 2, 44, 3]);
    assert_eq!(livomashen::lift_card(registers.marks_mut()), Ok(()));
    assert_eq!(
        write(&mut registers, at::COMMAND, command::LIFT_CARD),
        Ok(())
    );
    assert_eq!(registers.last_answer(), Some(Err(Refusal::MarkAbsent)));
    assert_eq!(registers.bytes()[7], pending::DONE | pending::REFUSED);
    assert_eq!(registers.marks(), [255, 2, 44, 3]);
}
