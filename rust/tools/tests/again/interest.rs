//! The lines of one currency's ladder.

use super::{amount, decimal, mils, sides, span};
use books::{Book, Row};
use second::{interest_band, read_table, zone_of_band, InterestLadder, Table};

/// Longs and shorts.
type Sides = (i128, i128);

/// A weighted position: thousands times basis points are tenths of the currency unit.
fn weighted(value: i128) -> String {
    decimal(value, 1)
}

/// The amounts of each band.
fn amounts(rows: &[Row], group: usize) -> Vec<Sides> {
    let own = rows.iter().filter(|row| usize::from(row.group) == group);
    let coupon = |row: &Row| if row.kind == 4 { 300 } else { row.coupon };
    let band = |row: &Row| interest_band(row.days.into(), coupon(row).into());
    let one = |number| sides(own.clone().filter(move |row| band(row) == number));
    (0..15).map(one).collect()
}

/// One line of a band: zone, days of both columns, weight, amounts.
fn amount_line(band: usize, weight: i128, (long, short): Sides) -> String {
    let cells = [
        zone_of_band(band).to_string(),
        band.to_string(),
        span(|days| interest_band(days, 300), band),
        span(|days| interest_band(days, 299), band),
        decimal(weight, 2) + "%",
        amount(long),
        amount(short),
    ];
    cells.join(" ")
}

/// The other line of a band: weighted positions, what matches and what is left of it.
fn weighted_line(band: usize, weight: i128, (long, short): Sides) -> String {
    let figures = [long, short, long.min(short), long - short];
    let figures = figures.map(|figure| weighted(figure * weight));
    format!("{band} {}", figures.join(" "))
}

/// The lines of all bands, in both tables.
fn band_lines(bands: &[Sides], table: &Table) -> Vec<String> {
    let days = "coupon 3% or more below 3%";
    let mut lines = vec![format!("zone band {days} weight long short")];
    let drawn = || bands.iter().zip(table.weights).enumerate();
    lines.extend(drawn().map(|(band, (sides, weight))| amount_line(band, weight, *sides)));
    lines.push("".into());
    lines.push("band weighted long weighted short matched net".into());
    lines.extend(drawn().map(|(band, (sides, weight))| weighted_line(band, weight, *sides)));
    lines
}

/// What is net long and what is net short among nets.
fn split(nets: &[i128]) -> Sides {
    let long = nets.iter().filter(|net| **net > 0).sum();
    let short: i128 = nets.iter().filter(|net| **net < 0).sum();
    (long, -short)
}

/// The nets of the bands of each zone (A.1, 13).
fn zone_nets(bands: &[Sides], table: &Table) -> [Vec<i128>; 3] {
    let net = |band: usize| (bands[band].0 - bands[band].1) * table.weights[band];
    [0..4, 4..7, 7..15].map(|bands| bands.map(net).collect())
}

/// The lines of the zones. The second calculation gives the matches; the sides are worked here.
fn zone_lines(nets: &[Vec<i128>; 3], matches: &[u64]) -> Vec<String> {
    let mut lines = vec!["step long short net".to_string()];
    for (zone, (nets, matched)) in nets.iter().zip(matches).enumerate() {
        let (long, short) = split(nets);
        assert_eq!(long.min(short), i128::from(*matched));
        let figures = [long, short, nets.iter().sum()].map(weighted);
        lines.push(format!("within zone {} {}", zone + 1, figures.join(" ")));
    }
    lines
}

/// A zone with its side and what it has, without its sign.
fn before(zone: usize, left: i128) -> String {
    let side = match left {
        1.. => "long",
        0 => "zero",
        _ => "short",
    };
    format!("{} {side} {}", zone + 1, weighted(left.abs()))
}

/// The lines of 1-2, 2-3 and 1-3 of what is left (A.1, 13): a match wants one zone on each side.
fn match_lines(nets: &[Vec<i128>; 3], matches: &[u64]) -> Vec<String> {
    let mut left: Vec<i128> = nets.iter().map(|nets| nets.iter().sum()).collect();
    let mut lines = vec!["step zone net before zone net before matched".to_string()];
    for ([one, other], matched) in [[0, 1], [1, 2], [0, 2]].into_iter().zip(matches) {
        let matched = i128::from(*matched);
        let opposite = left[one].signum() * left[other].signum() < 0;
        assert_eq!(matched > 0, opposite);
        let zones = format!("{} {}", before(one, left[one]), before(other, left[other]));
        let told = match opposite {
            true => weighted(matched),
            false => "nothing".into(),
        };
        lines.push(format!(
            "zones {} and {} {zones} {told}",
            one + 1,
            other + 1
        ));
        for zone in [one, other] {
            left[zone] -= left[zone].signum() * matched;
        }
    }
    lines
}

/// The steps of zones and pairs of zones (A.1, 13) with a table's per cents.
fn horizontal(table: &Table) -> [(&'static str, i128); 6] {
    [
        ("within zone 1", table.zones[0]),
        ("within zone 2", table.zones[1]),
        ("within zone 3", table.zones[2]),
        ("zones 1 and 2", table.adjacent),
        ("zones 2 and 3", table.adjacent),
        ("zones 1 and 3", table.zones_1_3),
    ]
}

/// The lines of what is charged: within bands (A.1, 12), horizontal, 100% of the residual (A.1, 8).
fn charge_lines(table: &Table, ladder: &InterestLadder, matches: [u64; 6]) -> Vec<String> {
    let charged = |position: u64, per_cent: i128| {
        let position = i128::from(position);
        let charge = mils(position * per_cent);
        format!("{} {per_cent}% {charge}", weighted(position))
    };
    let mut lines = vec![
        "step matched per cent disallowance".to_string(),
        format!("within bands {}", charged(ladder.vertical, table.vertical)),
    ];
    for ((name, per_cent), matched) in horizontal(table).into_iter().zip(matches) {
        lines.push(format!("{name} {}", charged(matched, per_cent)));
    }
    lines.push(format!("residual {}", charged(ladder.residual, 100)));
    lines.push(format!("charge {}", mils(ladder.charge)));
    lines
}

/// The lines of the zones, of the matches between them and of what is charged.
fn step_lines(bands: &[Sides], table: &Table, ladder: &InterestLadder) -> [Vec<String>; 3] {
    let matches = [
        ladder.zone_1,
        ladder.zone_2,
        ladder.zone_3,
        ladder.zones_1_2,
        ladder.zones_2_3,
        ladder.zones_1_3,
    ];
    let nets = zone_nets(bands, table);
    [
        zone_lines(&nets, &matches[..3]),
        match_lines(&nets, &matches[3..]),
        charge_lines(table, ladder, matches),
    ]
}

/// The weighted longs and the weighted shorts of a currency, row by row.
fn weighted_sides(rows: &[Row], group: usize, table: &Table) -> Sides {
    let own = rows.iter().filter(|row| usize::from(row.group) == group);
    own.fold((0, 0), |(long, short), row| {
        let weight = table.weights[interest_band(row.days.into(), row.coupon.into())];
        (
            long + weight * i128::from(row.long),
            short + weight * i128::from(row.short),
        )
    })
}

/// The last lines (document 02, P8). A position is matched on both its sides, or is left; what
/// is left is the net of all; it bears 100%, and nothing bears more.
fn adding_up_lines((long, short): Sides, ladder: &InterestLadder) -> Vec<String> {
    let matched = [
        ladder.vertical,
        ladder.zone_1,
        ladder.zone_2,
        ladder.zone_3,
        ladder.zones_1_2,
        ladder.zones_2_3,
        ladder.zones_1_3,
    ];
    let matched = matched.map(i128::from).iter().sum::<i128>();
    let (gross, residual) = (long + short, long.max(short) - long.min(short));
    let charge = i128::from(ladder.charge);
    assert_eq!(
        [gross, residual],
        [ladder.gross, ladder.residual].map(i128::from)
    );
    assert_eq!(gross, 2 * matched + residual);
    assert!((100 * residual..=50 * (gross + residual)).contains(&charge));
    let longs = format!("{} weighted long", weighted(long));
    let shorts = format!("{} weighted short", weighted(short));
    let [larger, smaller] = match short > long {
        true => [&shorts, &longs],
        false => [&longs, &shorts],
    };
    let [gross, matched, residual] = [gross, matched, residual].map(weighted);
    vec![
        format!("gross {gross} = 2 x {matched} matched + {residual} residual"),
        format!("gross {gross} = {longs} + {shorts}"),
        format!("residual {residual} = {larger} - {smaller}"),
        format!("charge {} >= {residual} residual", mils(charge)),
        format!(
            "2 x charge {} <= {gross} gross + {residual} residual",
            mils(2 * charge)
        ),
    ]
}

/// All lines of a currency under a table.
pub fn interest(book: &Book, table: &[u8], group: usize) -> Vec<String> {
    let bands = amounts(&book.classes[0], group);
    let ladder = second::interest_ladder(&book.encode().unwrap(), table, group);
    let table = read_table(table).unwrap();
    let units = "amounts in thousands, weighted positions and charges in currency units";
    let mut lines = vec![format!("currency {group}: {units}"), "".into()];
    lines.extend(band_lines(&bands, &table));
    for part in step_lines(&bands, &table, &ladder) {
        lines.push("".into());
        lines.extend(part);
    }
    lines.push("".into());
    let sides = weighted_sides(&book.classes[0], group, &table);
    lines.extend(adding_up_lines(sides, &ladder));
    lines
}
