//! The table that figures are under, as JSON.

use crate::json::Json;
use market_risk::Table;

/// Document 01's table by its name, any other by its figures.
pub fn json(table: &Table) -> Json {
    if *table == Table::amendment() {
        return "document 01".into();
    }
    let weights = table.weights().map(|weight| u64::from(weight).into());
    let per_cents = table.per_cents();
    let [zone_1, zone_2, zone_3] = per_cents.zones;
    let per_cents = [
        ("vertical_per_cent", per_cents.vertical),
        ("zone_1_per_cent", zone_1),
        ("zone_2_per_cent", zone_2),
        ("zone_3_per_cent", zone_3),
        ("adjacent_per_cent", per_cents.adjacent),
        ("zones_1_3_per_cent", per_cents.zones_1_3),
    ];
    let mut fields = vec![("weights_basis_points", Json::List(weights.into()))];
    fields.extend(per_cents.map(|(name, value)| (name, u64::from(value).into())));
    Json::Object(fields)
}
