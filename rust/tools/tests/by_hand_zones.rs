//! The zones of the stored ladders, checked as a user does who has the page and a pocket calculator: which is
//! long and which short in each match, with what, and what is matched.

mod pocket;

use pocket::{column, ladders, numbers, parts};

/// The zones of the three matches between zones, in order.
const PAIRS: [[usize; 2]; 3] = [[0, 1], [1, 2], [0, 2]];

/// A zone of a match as it is printed: its number, its side, its net before.
fn zone_is_printed(words: &[&str], zone: usize, net: i128) {
    let side = ["short", "zero", "long"][(1 + net.signum()) as usize];
    assert_eq!(words[..2], [&(zone + 1).to_string(), side]);
    assert_eq!(numbers(words[2]), [net.abs()]);
}

/// Catches a zone whose sides are not those of its bands, or its match not the lesser of them.
#[test]
fn zones_have_the_nets_of_their_bands() {
    for (name, text) in ladders("currency") {
        let [_, bands, zones, _, steps, _] = parts(&text);
        let nets = [&bands[..4], &bands[4..7], &bands[7..]].map(|bands| column(bands, 0));
        for (zone, line) in zones.iter().enumerate() {
            let [long, short, net] = [2, 1, 0].map(|from_end| column(&[line], from_end));
            assert_eq!([net, long - short], [nets[zone]; 2], "{name}: {line}");
            let step = steps[1 + zone];
            assert_eq!(column(&[step], 2), long.min(short), "{name}: {step}");
        }
    }
}

/// Catches a zone that is on the wrong side or has another net than the matches before leave it, and
/// a match that is not the lesser net of two opposite ones.
#[test]
fn zones_match_as_printed() {
    for (_, text) in ladders("currency") {
        let [_, _, zones, matches, steps, _] = parts(&text);
        let mut left: Vec<i128> = zones.iter().map(|line| column(&[line], 0)).collect();
        for ((line, step), [one, other]) in matches.iter().zip(&steps[4..]).zip(PAIRS) {
            let words: Vec<&str> = line.split_whitespace().collect();
            zone_is_printed(&words[4..7], one, left[one]);
            zone_is_printed(&words[7..10], other, left[other]);
            let matched = match left[one].signum() * left[other].signum() {
                -1 => left[one].abs().min(left[other].abs()),
                _ => 0,
            };
            assert_eq!(column(&[step], 2), matched, "{step}");
            match matched {
                0 => assert_eq!(words[10], "nothing"),
                _ => assert_eq!(numbers(words[10]), [matched], "{line}"),
            }
            left[one] -= left[one].signum() * matched;
            left[other] -= left[other].signum() * matched;
        }
    }
}
