//! The fast call for the dearest book gives what the second calculation gives, at every limit, past it and
//! between, into outputs of each length.

mod common;

use books::Random;
use common::compare_dearest;

/// Catches a limit or a length that is one off.
#[test]
fn every_limit() {
    let most = 1_000_000_000;
    let rows = [
        0,
        1,
        2,
        40,
        255,
        256,
        3_999,
        4_000,
        4_001,
        65_536,
        1 << 32,
        usize::MAX,
    ];
    let amounts = [
        0,
        1,
        255,
        256,
        most - 1,
        most,
        most + 1,
        1 << 32,
        usize::MAX,
    ];
    for (rows, most) in rows
        .iter()
        .flat_map(|rows| amounts.map(|most| (*rows, most)))
    {
        let length = 8 + 16 * rows.min(4_001);
        let rooms = [0, 7, 8, 23, 24, 25, length - 1, length, length + 1, 65_536];
        for room in rooms {
            let told = compare_dearest(rows, most, room);
            let taken = rows <= 4_000 && (1..=1_000_000_000).contains(&most);
            let expected = match taken {
                false => 22,
                true if room < length => 12,
                true => 0,
            };
            assert_eq!(told, expected, "{rows} {most} {room}");
        }
    }
}

#[test]
fn random_numbers() {
    let mut told = [0; 23];
    for case in 0..2_000 {
        let mut random = Random::of_case(23, case);
        let rows = random.below(random.clone().pick(&[10, 300, 4_200])) as usize;
        let most = random.below(1_100_000_000) as usize;
        let room = (8 + 16 * rows).saturating_sub(random.below(9) as usize) + 5;
        told[compare_dearest(rows, most, room) as usize] += 1;
    }
    assert!(
        [0, 12, 22].iter().all(|number| told[*number] > 20),
        "{told:?}"
    );
    assert_eq!(told.iter().sum::<u64>(), 2_000);
}
