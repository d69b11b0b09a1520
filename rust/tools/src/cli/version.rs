//! `version`: which version of the tool this is.

use super::{print, Args, Command, Outcome, Part};

/// The version that Cargo.toml gives.
pub const VERSION: &str = env!("CARGO_PKG_VERSION");

pub const COMMAND: Command = Command {
    name: "version",
    brief: "the version of this tool",
    forms: &[""],
    about: &[Part::Text(
        "Prints the name and the version of this tool, as market-risk --version does.",
    )],
    options: &[],
    operands: None,
    run,
};

fn run(args: &Args) -> Outcome {
    let [] = args.files()?;
    print(&format!("market-risk {VERSION}\n"))
}
