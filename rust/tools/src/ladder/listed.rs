//! A ladder as lists of named figures, from which its JSON and its CSV text are both written.

use crate::json::Json;

/// A whole number and its name, which ends with the unit where there is one.
pub type Figure = (&'static str, i128);

/// The figures of CSV text, below `class`, `group` and `step`: a column for each that a band or a step
/// can have.
const COLUMNS: [&str; 20] = [
    "band",
    "zone",
    "weight_basis_points",
    "long_thousands",
    "short_thousands",
    "carried_thousands",
    "matched_thousands",
    "net_thousands",
    "residual_thousands",
    "long_weighted",
    "short_weighted",
    "matched_weighted",
    "net_weighted",
    "zone_1_net_weighted",
    "zone_2_net_weighted",
    "zone_3_net_weighted",
    "residual_weighted",
    "basis_points",
    "per_cent",
    "mils",
];

/// The figures of a ladder.
pub struct Listed {
    /// The class of its rows, and what their group is.
    pub class: &'static str,
    pub of: &'static str,
    pub group: u64,
    pub bands: Vec<Vec<Figure>>,
    /// The steps by name, with the residual; their mils make up the charge.
    pub steps: Vec<(&'static str, Vec<Figure>)>,
    /// The sums that the library gives beside the charge.
    pub sums: Vec<Figure>,
    pub charge: u64,
}

/// The fields of figures.
fn fields(figures: &[Figure]) -> Vec<(&'static str, Json)> {
    let field = |(name, value): &Figure| (*name, (*value).into());
    figures.iter().map(field).collect()
}

/// The first line of CSV text.
pub fn titles() -> String {
    format!("class,group,step,{}\n", COLUMNS.join(","))
}

impl Listed {
    pub fn json(&self) -> Json {
        let bands = self.bands.iter();
        let bands = bands.map(|figures| Json::Object(fields(figures)));
        let steps = self.steps.iter().map(|(step, figures)| {
            let name = vec![("step", Json::from(*step))];
            Json::Object([name, fields(figures)].into_iter().flatten().collect())
        });
        let mut ladder = vec![
            (self.of, self.group.into()),
            ("bands", Json::List(bands.collect())),
            ("steps", Json::List(steps.collect())),
        ];
        ladder.extend(fields(&self.sums));
        ladder.push(("charge_mils", self.charge.into()));
        Json::Object(ladder)
    }

    /// A line for each band, each step and the charge; empty where there is no such figure.
    pub fn csv(&self) -> String {
        let line = |step: &str, figures: &[Figure]| {
            let cell = |column: &&str| {
                let found = figures.iter().find(|(name, _)| name == column);
                found.map_or(String::new(), |(_, value)| value.to_string())
            };
            let cells: Vec<String> = COLUMNS.iter().map(cell).collect();
            format!("{},{},{step},{}\n", self.class, self.group, cells.join(","))
        };
        let bands = self.bands.iter().map(|figures| line("", figures));
        let steps = self.steps.iter();
        let steps = steps.map(|(step, figures)| line(step, figures));
        let charge = line("charge", &[("mils", self.charge.into())]);
        bands.chain(steps).chain([charge]).collect()
    }
}

#[cfg(test)]
mod tests {
    use super::super::commodity::Commodity;
    use super::super::interest::Interest;
    use super::super::made;
    use super::*;
    use market_risk::Table;

    /// Catches a figure that no column has, which CSV text would leave out.
    #[test]
    fn every_figure_has_a_column() {
        let interest: Interest = made(&[(3, 2); 15], 7, &Table::amendment()).unwrap();
        let commodity = Commodity::new(&[], 5, &Default::default()).unwrap();
        let mut used = Vec::new();
        for listed in [interest.listed(false), commodity.listed(false)] {
            used.extend(listed.bands.into_iter().flatten());
            used.extend(listed.steps.into_iter().flat_map(|(_, figures)| figures));
        }
        for (name, _) in &used {
            assert!(COLUMNS.contains(name), "{name}");
        }
        for column in COLUMNS {
            assert!(used.iter().any(|(name, _)| *name == column), "{column}");
        }
    }

    /// Catches a figure in the column of another, and one that is written twice.
    #[test]
    fn figures_stand_in_their_columns() {
        let listed = Listed {
            class: "commodity",
            of: "commodity",
            group: 31,
            bands: vec![vec![("net_thousands", -2), ("band", 6)]],
            steps: vec![("residual", vec![("mils", 9), ("residual_thousands", 2)])],
            sums: vec![("residual_thousands", 2)],
            charge: 9,
        };
        let expected = "commodity,31,,6,,,,,,,-2,,,,,,,,,,,,\n\
                        commodity,31,residual,,,,,,,,,2,,,,,,,,,,,9\n\
                        commodity,31,charge,,,,,,,,,,,,,,,,,,,,9\n";
        assert_eq!(listed.csv(), expected);
        let json = listed.json().to_string().replace(['\n', ' '], "");
        let expected = r#"{"commodity":31,"bands":[{"net_thousands":-2,"band":6}],"steps":[{"step":"residual","mils":9,"residual_thousands":2}],"residual_thousands":2,"charge_mils":9}"#;
        assert_eq!(json, expected);
    }
}
