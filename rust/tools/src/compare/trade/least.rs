//! What a run must have seen of the least trade at least.

use super::Seen;

/// What 20,000 cases must show at least: about a third of what they do show.
pub const LEAST: Seen = Seen {
    answers: [2_290, 360, 17, 80, 40, 355],
    sorts: [245, 255, 125, 105, 265, 60, 250, 400, 240, 23, 45],
    refusals: [
        490, 315, 800, 400, 325, 29, 1_140, 480, 90, 70, 165, 150, 80, 200, 200,
    ],
};

#[cfg(test)]
mod tests {
    use super::super::super::tally::Tally;
    use super::*;

    /// Catches a minimum that is left out, is nothing or is not asked for.
    #[test]
    fn every_count_has_a_minimum() {
        let lacking = Tally::default().lacking(20_000);
        let named = LEAST.named();
        assert_eq!(named.len(), 32);
        for (name, least) in named {
            let line = format!("{name}: 0 where at least {least} are wanted");
            assert!(lacking.contains(&line), "{line}");
        }
    }

    /// Catches a count that is held to the minimum of another.
    #[test]
    fn every_count_is_held_to_its_own_minimum() {
        for at in 0..LEAST.refusals.len() {
            let mut tally = Tally {
                trade: LEAST,
                ..Tally::default()
            };
            tally.trade.refusals[at] -= 1;
            let lacking = tally.lacking(20_000);
            let about = |line: &&String| line.starts_with("least trades refused ");
            assert_eq!(lacking.iter().filter(about).count(), 1);
        }
    }
}
