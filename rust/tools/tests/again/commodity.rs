//! The lines of one commodity's ladder.

use super::{amount, mils, sides, span};
use books::Book;
use second::{commodity_band, CommodityLadder};

/// The lines of the bands, from the nearest on: the net carried in joins its side, the
/// smaller side is the match, all that remains is carried on (A.4, 8 and 9). The second
/// calculation gives the sums; each band is worked here.
fn band_lines(book: &Book, group: usize, ladder: &CommodityLadder) -> Vec<String> {
    let rows = &book.classes[3];
    let own = rows.iter().filter(|row| usize::from(row.group) == group);
    let (mut net, mut matches, mut carried) = (0i128, 0, 0);
    let mut lines = vec!["band days long short".to_string()];
    let mut below = vec!["".into(), "band carried in matched net".into()];
    for band in 0..7 {
        let inside = |days: u16| commodity_band(days.into()) == band;
        let (long, short) = sides(own.clone().filter(|row| inside(row.days)));
        let carried_in = net;
        let [longs, shorts] = match carried_in >= 0 {
            true => [long + carried_in, short],
            false => [long, short - carried_in],
        };
        let matched = longs.min(shorts);
        net = longs - shorts;
        matches += matched;
        carried += carried_in.abs();
        let days = span(commodity_band, band);
        lines.push(format!("{band} {days} {} {}", amount(long), amount(short)));
        let cells = [carried_in, matched, net].map(amount);
        below.push(format!("{band} {}", cells.join(" ")));
    }
    let sums = [ladder.matches, ladder.carried, ladder.residual].map(i128::from);
    assert_eq!([matches, carried, net.abs()], sums);
    [lines, below].concat()
}

/// The lines of the charge: 1.5% on each side of a match, 15,000 mils a unit (A.4, 8);
/// 0.6% a step carried, 6,000, and 15% of the residual, 150,000 (A.4, 9).
fn charge_lines(ladder: &CommodityLadder) -> Vec<String> {
    let line = |name: &str, sum: u64, rate: &str, each: i128| {
        let sum = i128::from(sum);
        format!("{name} {} {rate} {}", amount(sum), mils(sum * each))
    };
    vec![
        "sum rate charge".into(),
        line(
            "matches, each on two sides",
            ladder.matches,
            "2 x 1.5%",
            2 * 15_000,
        ),
        line("carried, at every step", ladder.carried, "0.6%", 6_000),
        line("residual", ladder.residual, "15%", 150_000),
        format!("charge {}", mils(ladder.charge)),
    ]
}

/// The last lines (document 02, P8). At each step all is carried that the rows of the bands
/// so far leave open. 1.5% on each side of a match and 15% of the residual are 1.5% of gross
/// and 13.5% of the residual.
fn adding_up_lines(book: &Book, group: usize, ladder: &CommodityLadder) -> Vec<String> {
    let own = |band: usize| {
        let own = book.classes[3].iter();
        let own = own.filter(move |row| usize::from(row.group) == group);
        sides(own.filter(move |row| commodity_band(row.days.into()) <= band))
    };
    let net = |(long, short): (i128, i128)| long.max(short) - long.min(short);
    let (steps, (long, short)) = ([0, 1, 2, 3, 4, 5].map(|band| net(own(band))), own(6));
    let [matches, carried, residual, charge] = [
        ladder.matches,
        ladder.carried,
        ladder.residual,
        ladder.charge,
    ]
    .map(i128::from);
    let gross = long + short;
    let parts = [15_000 * gross, 135_000 * residual, 6_000 * carried];
    assert_eq!(gross, 2 * matches + residual);
    assert_eq!(residual, net((long, short)));
    assert_eq!(carried, steps.iter().sum::<i128>());
    assert_eq!(charge, parts.iter().sum::<i128>());
    let longs = format!("{} long", amount(long));
    let shorts = format!("{} short", amount(short));
    let difference = match short > long {
        true => format!("{shorts} - {longs}"),
        false => format!("{longs} - {shorts}"),
    };
    let [of_gross, of_residual, of_carried] = parts.map(mils);
    let [gross, matches, residual] = [gross, matches, residual].map(amount);
    vec![
        format!("gross {gross} = 2 x {matches} matched + {residual} residual"),
        format!("gross {gross} = {longs} + {shorts}"),
        format!("residual {residual} = {difference}"),
        format!(
            "carried {} = {}",
            amount(carried),
            steps.map(amount).join(" + ")
        ),
        format!(
            "charge {} = {of_gross} (1.5% of gross) + {of_residual} (13.5% of residual) + \
             {of_carried} (0.6% of carried)",
            mils(charge)
        ),
    ]
}

/// All lines of a commodity.
pub fn commodity(book: &Book, group: usize) -> Vec<String> {
    let ladder = second::commodity_ladder(&book.encode().unwrap(), group);
    let mut lines = vec![
        format!("commodity {group}: amounts in thousands, charges in currency units"),
        "".into(),
    ];
    lines.extend(band_lines(book, group, &ladder));
    lines.push("".into());
    lines.extend(charge_lines(&ladder));
    lines.push("".into());
    lines.extend(adding_up_lines(book, group, &ladder));
    lines
}
