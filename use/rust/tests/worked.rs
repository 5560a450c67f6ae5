//! Document 01's worked blocks.

use crate::livomashen::{self, Corrected, BLOCK, FRESH};
use crate::told;

pub fn zeros_with(changes: &[(usize, u8)]) -> [u8; BLOCK] {
    let mut block = [0; BLOCK];
    for &(p, value) in changes {
        block[p] = value;
    }
    block
}

#[test]
fn worked_blocks() {
    let three = [(0, 8), (1, 6), (2, 1)];
    type Row<'a> = ([u8; 4], &'a [(usize, u8)], Result<Corrected, (u8, u8)>);
    let rows: [Row; 19] = [
        (FRESH, &[], Ok(Corrected::Clean)),
        (FRESH, &[(20, 7)], Ok(Corrected::Chips { n: 1 })),
        (FRESH, &three, Err((11, 0))),
        (
            [0, 0, 255, 255],
            &three,
            Ok(Corrected::Card { card: 0, n: 3 }),
        ),
        (
            [1, 0, 255, 255],
            &three,
            Ok(Corrected::Card { card: 1, n: 3 }),
        ),
        (FRESH, &[(0, 1), (9, 1)], Err((10, 0))),
        (
            FRESH,
            &[(0, 1), (1, 1)],
            Ok(Corrected::Card { card: 0, n: 2 }),
        ),
        (
            [255, 1, 0, 255],
            &[(0, 1), (9, 1)],
            Ok(Corrected::Chips { n: 2 }),
        ),
        ([255, 2, 0, 9], &[(20, 7)], Err((11, 2))),
        (
            [0, 0, 255, 255],
            &[(0, 1), (9, 1)],
            Ok(Corrected::Card { card: 0, n: 2 }),
        ),
        // Order 5: a marked chip of the marked card costs nothing; one off it does.
        ([0, 1, 1, 255], &[(9, 1)], Ok(Corrected::Chips { n: 1 })),
        ([0, 2, 1, 8], &[(9, 1)], Ok(Corrected::Chips { n: 1 })),
        ([0, 1, 10, 255], &[(9, 1)], Err((10, 0))),
        ([0, 2, 1, 10], &[(9, 1)], Err((10, 0))),
        ([255, 2, 0, 0], &[], Err((7, 0))),
        // Order 6: two cards fit, and the lower one is named.
        ([255, 1, 9, 255], &[(0, 1), (2, 2)], Err((11, 0))),
        ([255, 1, 0, 255], &[(10, 1), (12, 1)], Err((11, 1))),
        ([255, 1, 0, 255], &[(20, 1), (24, 1)], Err((11, 2))),
        ([255, 1, 7, 255], &[(36, 1), (43, 7)], Err((11, 3))),
    ];
    for (marks, changes, wanted) in rows {
        let mut out = [0xA5; BLOCK];
        let said = livomashen::read(&zeros_with(changes), &marks, &mut out);
        assert_eq!(told(said), wanted, "marks {marks:?}, bytes set {changes:?}");
        let after = match wanted {
            Err(_) => [0xA5; BLOCK],
            Ok(Corrected::Card { card: 1, .. }) => {
                zeros_with(&[(0, 8), (1, 6), (2, 1), (9, 8), (10, 6), (11, 1)])
            }
            Ok(_) => [0; BLOCK],
        };
        assert_eq!(out, after, "output: marks {marks:?}, bytes set {changes:?}");
    }
}
