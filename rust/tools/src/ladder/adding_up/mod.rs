//! What a ladder adds up to (document 02, P8), in lines that a user can check by hand. Each
//! holds a figure to what it must be: the first by the library's own matches and residual, all
//! others by the rows, which are added up one by one and not by bands.

mod commodity;
mod interest;

use crate::lines::Shown;

pub use crate::lines::{broken, show, Line};
pub use commodity::commodity;
pub use interest::{interest, interest_of};

/// The longs and the shorts of the rows of one ladder, what they are called and how they are
/// printed.
struct Sides {
    long: i128,
    short: i128,
    names: [&'static str; 2],
    print: fn(i128) -> String,
}

impl Sides {
    fn gross(&self) -> i128 {
        self.long + self.short
    }

    /// The net without its sign.
    fn net(&self) -> i128 {
        (self.long - self.short).abs()
    }

    /// Both sides, longs first.
    fn printed(&self) -> [String; 2] {
        let [long, short] = [self.long, self.short].map(self.print);
        let [long_name, short_name] = self.names;
        [
            format!("{long} {long_name}"),
            format!("{short} {short_name}"),
        ]
    }

    /// The gross, as a sum.
    fn sum(&self) -> Shown {
        let [long, short] = self.printed();
        (self.gross(), format!("{long} + {short}"))
    }

    /// The net, as the larger side less the smaller.
    fn difference(&self) -> Shown {
        let [long, short] = self.printed();
        let text = match self.long >= self.short {
            true => format!("{long} - {short}"),
            false => format!("{short} - {long}"),
        };
        (self.net(), text)
    }
}

/// Twice the matches and the residual.
fn by_matches(matched: i128, residual: i128, print: fn(i128) -> String) -> Shown {
    let [twice, left] = [matched, residual].map(print);
    let text = format!("2 x {twice} matched + {left} residual");
    (2 * matched + residual, text)
}

#[cfg(test)]
mod tests {
    use super::*;

    /// Catches a net with its sign, and a difference that a reader would have to turn round.
    #[test]
    fn the_smaller_side_is_taken_off_the_larger() {
        let sides = |long, short| Sides {
            long,
            short,
            names: ["long", "short"],
            print: |value| value.to_string(),
        };
        let cases = [
            ([5, 2], 3, "5 long - 2 short"),
            ([2, 5], 3, "5 short - 2 long"),
            ([2, 2], 0, "2 long - 2 short"),
        ];
        for ([long, short], net, text) in cases {
            let sides = sides(long, short);
            assert_eq!(sides.difference(), (net, text.to_string()));
            assert_eq!(
                sides.sum(),
                (long + short, format!("{long} long + {short} short"))
            );
        }
    }
}
