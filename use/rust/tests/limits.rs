//! Every length, every mark byte, and what a refused call leaves alone.

use crate::livomashen::{self, Corrected, Refusal, Window, BLOCK, FRESH, RECORD};
use crate::{number, plain};

#[test]
fn every_length_of_block_output_and_marks() {
    for block_len in 0..=92 {
        for out_len in 0..=92 {
            for marks_len in 0..=6 {
                let block = vec![0; block_len];
                let marks: Vec<u8> = FRESH.iter().cycle().take(marks_len).copied().collect();
                let mut out = vec![0xA5; out_len];
                let said = number(livomashen::read(&block, &marks, &mut out));
                let wanted = match (block_len, out_len, marks_len) {
                    (45, 45, 4) => Ok(Corrected::Clean),
                    (45, 45, _) => Err(6),
                    (45, _, _) => Err(2),
                    _ => Err(1),
                };
                assert_eq!(said, wanted, "lengths {block_len}, {out_len}, {marks_len}");
                if said.is_err() {
                    assert!(out.iter().all(|&byte| byte == 0xA5), "written on a refusal");
                }
            }
        }
    }
}

#[test]
fn every_length_of_record_and_output() {
    for record_len in 0..=70 {
        for out_len in 0..=92 {
            let mut out = vec![0xA5; out_len];
            let said = number(livomashen::store(&vec![7; record_len], &mut out));
            let wanted = match (out_len, record_len) {
                (45, 34) => Ok(()),
                (45, _) => Err(3),
                _ => Err(2),
            };
            assert_eq!(said, wanted, "lengths {record_len}, {out_len}");
            assert!(
                said.is_ok() || out.iter().all(|&byte| byte == 0xA5),
                "written"
            );
        }
    }
}

#[test]
fn banks_and_block_numbers() {
    let record = [9; RECORD];
    let (mut out, mut window) = ([0; BLOCK], Window::fresh());
    for len in [
        0, 1, 44, 45, 46, 89, 90, 91, 4500, 46_079, 46_080, 46_081, 46_125,
    ] {
        let lawful = len % 45 == 0 && (45..=46_080).contains(&len);
        let mut bank = vec![1; len];
        let wanted = if lawful { Ok(()) } else { Err(4) };
        assert_eq!(
            number(livomashen::clear(&mut bank)),
            wanted,
            "clear of {len}"
        );
        assert!(bank.iter().all(|&byte| byte == if lawful { 0 } else { 1 }));
        let n = len / 45;
        for k in [
            0,
            n.saturating_sub(1),
            n,
            n + 1,
            usize::MAX / 45 + 1,
            usize::MAX,
        ] {
            let wanted = if !lawful {
                Err(4)
            } else if k >= n {
                Err(5)
            } else {
                Ok(())
            };
            let before = bank.clone();
            assert_eq!(
                number(livomashen::put(&mut bank, k, &record)),
                wanted,
                "put {k} of {len}"
            );
            let got = livomashen::get(&bank, k, &FRESH, &mut out, &mut window);
            assert_eq!(number(got).map(|_| ()), wanted, "get {k} of {len}");
            let patrolled = livomashen::patrol(&mut bank, k, &FRESH, &mut window);
            assert_eq!(number(patrolled).map(|_| ()), wanted, "patrol {k} of {len}");
            assert!(
                wanted.is_ok() || bank == before,
                "bank written on a refusal"
            );
        }
        let counted = number(livomashen::report(&bank, &FRESH));
        match wanted {
            Ok(()) => assert_eq!(counted.map(|t| t.clean as usize), Ok(n)),
            Err(refusal) => assert_eq!(counted.map(|_| ()), Err(refusal)),
        }
    }
    assert_eq!(window, Window::fresh());
}

#[test]
fn empty_slices() {
    let mut window = Window::fresh();
    assert_eq!(livomashen::store(&[], &mut []), Err(Refusal::OutputLength));
    assert_eq!(
        livomashen::read(&[], &[], &mut []),
        Err(Refusal::BlockLength)
    );
    assert_eq!(livomashen::clear(&mut []), Err(Refusal::BankLength));
    assert_eq!(livomashen::put(&mut [], 0, &[]), Err(Refusal::RecordLength));
    assert_eq!(
        livomashen::get(&[], 0, &[], &mut [], &mut window),
        Err(Refusal::OutputLength)
    );
    assert_eq!(
        livomashen::patrol(&mut [], 0, &[], &mut window),
        Err(Refusal::BankLength)
    );
    assert_eq!(livomashen::report(&[], &[]), Err(Refusal::BankLength));
    assert_eq!(livomashen::place_chip(&mut [], 0), Err(Refusal::MarkRange));
    assert_eq!(livomashen::lift_chip(&mut [], 0), Err(Refusal::MarkRange));
    assert_eq!(livomashen::place_card(&mut [], 0), Err(Refusal::MarkRange));
    assert_eq!(livomashen::lift_card(&mut []), Err(Refusal::MarkRange));
    assert_eq!(window.propose(&[]), Err(Refusal::MarkRange));
    let written = livomashen::write_slip(&mut [], 0, 0, Ok(Corrected::Clean));
    assert_eq!(written, Err(Refusal::SlipSpace));
    let read = livomashen::read_slip(&[], 0).map_err(|fault| fault.refusal);
    assert_eq!(read, Err(Refusal::SlipCut));
}

#[test]
fn every_value_of_every_mark_byte() {
    let shapes: [[u8; 4]; 6] = [
        FRESH,
        [255, 1, 7, 255],
        [255, 2, 0, 44],
        [3, 0, 255, 255],
        [3, 1, 0, 255],
        [2, 2, 19, 44],
    ];
    for shape in shapes {
        for place in 0..4 {
            for value in 0..=255 {
                let mut marks = shape;
                marks[place] = value;
                let wanted = plain::marks_number(&marks);
                let mut out = [0; BLOCK];
                let said = livomashen::read(&[0; BLOCK], &marks, &mut out);
                let got = said.err().map_or(0, Refusal::number);
                assert_eq!(got, wanted, "marks {marks:?}");
            }
        }
    }
}

#[test]
fn placing_and_lifting() {
    let mut marks = FRESH;
    assert_eq!(
        livomashen::lift_chip(&mut marks, 3),
        Err(Refusal::MarkAbsent)
    );
    assert_eq!(
        livomashen::place_chip(&mut marks, 45),
        Err(Refusal::MarkRange)
    );
    assert_eq!(livomashen::place_chip(&mut marks, 44), Ok(()));
    assert_eq!(livomashen::place_chip(&mut marks, 3), Ok(()));
    assert_eq!(marks, [255, 2, 44, 3]);
    assert_eq!(livomashen::place_chip(&mut marks, 44), Ok(()));
    assert_eq!(livomashen::place_chip(&mut marks, 3), Ok(()));
    assert_eq!(
        livomashen::place_chip(&mut marks, 4),
        Err(Refusal::MarkLimit)
    );
    assert_eq!(marks, [255, 2, 44, 3]);
    assert_eq!(
        livomashen::place_card(&mut marks, 5),
        Err(Refusal::MarkRange)
    );
    assert_eq!(livomashen::place_card(&mut marks, 4), Ok(()));
    assert_eq!(livomashen::place_card(&mut marks, 4), Ok(()));
    assert_eq!(livomashen::place_chip(&mut marks, 3), Ok(()));
    assert_eq!(marks, [4, 2, 44, 3]);
    assert_eq!(
        livomashen::place_card(&mut marks, 0),
        Err(Refusal::MarkLimit)
    );
    assert_eq!(livomashen::lift_chip(&mut marks, 44), Ok(()));
    assert_eq!(marks, [4, 1, 3, 255]);
    assert_eq!(livomashen::lift_card(&mut marks), Ok(()));
    assert_eq!(livomashen::lift_card(&mut marks), Err(Refusal::MarkAbsent));
    assert_eq!(marks, [255, 1, 3, 255]);
}

#[test]
fn numbers_that_no_byte_holds() {
    for asked in [256, 256 + 4, 300, 0x1_0000, 0x1_002C, 0x8000_0000, u32::MAX] {
        for before in [FRESH, [4, 1, 44, 255], [255, 2, 0, 4]] {
            let mut marks = before;
            let refused = Err(Refusal::MarkRange);
            assert_eq!(livomashen::place_chip(&mut marks, asked), refused);
            assert_eq!(livomashen::lift_chip(&mut marks, asked), refused);
            assert_eq!(livomashen::place_card(&mut marks, asked), refused);
            assert_eq!(marks, before, "asked for {asked}");
        }
    }
}

#[test]
fn the_record_is_a_part_of_the_output() {
    let mut out = [0; BLOCK];
    let said = livomashen::read(&[0; BLOCK], &FRESH, &mut out);
    let part = livomashen::record_of(&out, &said);
    assert_eq!((part.as_ptr(), part.len()), (out.as_ptr(), RECORD));
    assert!(livomashen::record_of(&out, &Err(Refusal::None)).is_empty());
    assert!(livomashen::record_of(&out[..44], &said).is_empty());
}
