//! Figures as text: numbers with separators, and tables of them.

/// Digits in threes: 1234567 is 1,234,567.
fn grouped(digits: &str) -> String {
    let mut text = String::new();
    for (at, digit) in digits.chars().enumerate() {
        if at > 0 && (digits.len() - at).is_multiple_of(3) {
            text.push(',');
        }
        text.push(digit);
    }
    text
}

/// A whole number with thousands separators.
///
/// ```
/// assert_eq!(market_risk::text::whole(-1_234_567), "-1,234,567");
/// ```
pub fn whole(value: impl Into<i128>) -> String {
    let value: i128 = value.into();
    let sign = if value < 0 { "-" } else { "" };
    format!("{sign}{}", grouped(&value.unsigned_abs().to_string()))
}

/// A number that counts tenths, thousandths and so on, with so many places.
///
/// ```
/// assert_eq!(market_risk::text::places(123_456, 2), "1,234.56");
/// ```
pub fn places(value: impl Into<i128>, places: u32) -> String {
    let value: i128 = value.into();
    let one = 10i128.pow(places);
    let sign = if value < 0 && value > -one { "-" } else { "" };
    let rest = value.unsigned_abs() % one.unsigned_abs();
    format!(
        "{sign}{}.{rest:0width$}",
        whole(value / one),
        width = places as usize
    )
}

/// Mils as currency units: a mil is a thousandth of the unit.
///
/// ```
/// assert_eq!(market_risk::text::mils(4_580_112_500u64), "4,580,112.500");
/// ```
pub fn mils(value: impl Into<i128>) -> String {
    places(value, 3)
}

/// A weighted position (thousands times basis points) as currency units.
///
/// ```
/// assert_eq!(market_risk::text::weighted(5_250), "525.0");
/// ```
pub fn weighted(value: impl Into<i128>) -> String {
    places(value, 1)
}

/// Lines of cells as text: the first column to the left, the others to the right.
///
/// ```
/// let lines = [["residual", "525.0"], ["charge", "735.000"]];
/// let lines = lines.map(|line| line.map(String::from).to_vec());
/// assert_eq!(market_risk::text::table(&lines), "residual    525.0\ncharge    735.000\n");
/// ```
pub fn table(lines: &[Vec<String>]) -> String {
    let columns = lines.iter().map(Vec::len).max().unwrap_or(0);
    let width = |column: usize| {
        let cells = lines.iter().filter_map(|line| line.get(column));
        cells.map(|cell| cell.chars().count()).max().unwrap_or(0)
    };
    let widths: Vec<usize> = (0..columns).map(width).collect();
    let mut text = String::new();
    for line in lines {
        let mut shown = String::new();
        for (column, cell) in line.iter().enumerate() {
            let width = widths[column];
            match column {
                0 => shown.push_str(&format!("{cell:<width$}")),
                _ => shown.push_str(&format!("  {cell:>width$}")),
            }
        }
        text.push_str(shown.trim_end());
        text.push('\n');
    }
    text
}

#[cfg(test)]
mod tests {
    use super::*;

    #[test]
    fn thousands() {
        assert_eq!(whole(0), "0");
        assert_eq!(whole(999), "999");
        assert_eq!(whole(1_000), "1,000");
        assert_eq!(whole(-1_234_567), "-1,234,567");
        assert_eq!(whole(u64::MAX), "18,446,744,073,709,551,615");
    }

    #[test]
    fn decimal_places() {
        assert_eq!(mils(4_580_112_500u64), "4,580,112.500");
        assert_eq!(mils(7), "0.007");
        assert_eq!(mils(-7), "-0.007");
        assert_eq!(mils(-1_000), "-1.000");
        assert_eq!(weighted(5_250), "525.0");
    }

    #[test]
    fn columns_line_up() {
        let cells = |line: &str| line.split(' ').map(String::from).collect();
        let lines: Vec<Vec<String>> = vec![cells("a 10 1"), cells("bcd 2")];
        assert_eq!(table(&lines), "a    10  1\nbcd   2\n");
    }
}
