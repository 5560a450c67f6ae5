//! A record is put into a bank, card 1 is pulled, and the record is got again, which
//! a slip keeps.  Then a chip is going, and is proposed.

use livomashen::{Corrected, Refusal, Slip, Window, BLOCK, FRESH, LONGEST_SLIP, RECORD};

fn main() -> Result<(), Refusal> {
    let mut bank = [0; 4 * BLOCK];
    let mut record = [0; RECORD];
    record[..22].copy_from_slice(b"line 7, car 2, talking");
    livomashen::clear(&mut bank)?;
    livomashen::put(&mut bank, 2, &record)?;

    bank[2 * BLOCK + 9..2 * BLOCK + 18].fill(0xFF);
    let (mut out, mut window) = ([0; BLOCK], Window::fresh());
    let said = livomashen::get(&bank, 2, &FRESH, &mut out, &mut window);
    assert_eq!(said, Ok(Corrected::Card { card: 1, n: 9 }));
    assert_eq!(livomashen::record_of(&out, &said), record);

    let mut slips = [0; LONGEST_SLIP];
    let end = livomashen::write_slip(&mut slips, 0, 2, said)?;
    let slip = Slip {
        block: 2,
        reading: said,
    };
    assert!(livomashen::read_slips(&slips[..end]).eq([Ok(slip)]));

    livomashen::patrol(&mut bank, 2, &FRESH, &mut window)?;
    let totals = livomashen::report(&bank, &FRESH)?;
    println!("{} of 4 clean", totals.clean);

    // The card is a new one: what the old one did says nothing of it.
    window.clear();
    for _ in 0..4 {
        bank[2 * BLOCK + 31] ^= 0x55;
        livomashen::patrol(&mut bank, 2, &FRESH, &mut window)?;
    }
    assert!(window.positions().eq([31; 4]));
    assert_eq!(window.propose(&FRESH)?, Some(31));
    println!("chip 31 is proposed after {} times", window.times(31));
    Ok(())
}
