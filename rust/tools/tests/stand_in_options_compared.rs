//! The comparison over a library that charges or refuses options wrongly, which it must notice.

mod common;
mod stand_in_library;

use stand_in_library::{told_within, BY};

/// Faults of the book, of gamma and vega and of the charges, which the claims or the second calculation find,
/// whichever comes first.
const WRONG: [&str; 25] = [
    "deltas_longer",
    "last_option_missing",
    "deltas_down",
    "deltas_to_nearest",
    "sold_puts_short",
    "calls_long",
    "days_dropped",
    "shares_alike",
    "rows_reversed",
    "fx_as_commodities",
    "row_of_delta_0",
    "gammas_exchanged",
    "gamma_for_vega",
    "signs_by_call",
    "positive_gamma",
    "vega_as_gamma",
    "delta_0_skipped",
    "groups_together",
    "commodities_move_8",
    "whole_shift",
    "halves_each",
    "halves_down",
    "more_alone",
    "greeks_in_total",
    "deltas_uncharged",
];

/// Faults of refusals, which show in the entries of the call.
const REFUSED: [&str; 14] = [
    "options",
    "options_999",
    "options_1001",
    "any_length",
    "group_32_taken",
    "days_of_shares_taken",
    "delta_10000_refused",
    "last_bad_told",
    "bad_row_untold",
    "sixteen_for_seventeen",
    "seventeen_first",
    "deltas_twelve_late",
    "deltas_length_kept",
    "greeks_kept",
];

/// Catches a comparison without this call, without its bytes or what it must leave alone, or without tables
/// that show each wrong reading.
#[test]
fn compare_fails_with_each_fault_of_options() {
    let entries = format!("options{BY}entry ");
    let wrong = WRONG.map(|fault| (fault, "options"));
    let refused = REFUSED.map(|fault| (fault, &entries[..]));
    let bytes = ["deltas_twelve_writes", "deltas_cleared"];
    let bytes = bytes.map(|fault| (fault, "options: output byte "));
    for (fault, first) in wrong.into_iter().chain(refused).chain(bytes) {
        let told = told_within("1000", "options", fault);
        assert!(told.starts_with(first), "{fault}: {told}");
    }
}
