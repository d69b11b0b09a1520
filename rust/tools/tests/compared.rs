//! The comparison as the gate runs it.

mod common;

use common::{fails, prints};

/// Catches a command that compares other calculations than these two, or whose cases do
/// not come up to the minimums of a run of the usual length.
#[test]
fn the_usual_run_compares_the_library_with_the_second_calculation() {
    let text = prints(&["compare"]);
    let first = text.lines().next().unwrap();
    assert!(
        first.starts_with("seed 1: 20000 pairs equal in "),
        "{first}"
    );
    let named = ", by the proved library and by the second calculation";
    assert!(first.ends_with(named), "{first}");
}

/// Catches a run that compares nothing and says that all is equal.
#[test]
fn a_run_of_no_pairs_is_none() {
    assert!(fails(2, &["compare", "--count", "0"]).contains("must not be 0"));
}
