//! The command `market-risk`: books as text, reports and ladders from the proved
//! library, and its comparison with the second calculation.

mod bench;
mod calls;
mod cli;
mod compare;
mod dearest;
mod drawing;
mod files;
mod forms;
mod html;
mod join;
mod json;
mod ladder;
mod least_trade;
mod lines;
mod load;
mod markup;
mod name;
mod net;
mod offset;
mod options;
mod pack;
mod progress;
mod report;
mod shortest;
mod small_bank;
mod streams;
mod table;
mod text;
mod trouble;
mod unpack;
mod vectors;
mod written;

use cli::Command;
use std::ffi::OsString;
use std::io::Write;
use std::process::ExitCode;

/// The subcommands, in the order of the help text.
const COMMANDS: &[Command] = &[
    pack::COMMAND,
    unpack::COMMAND,
    report::COMMAND,
    ladder::COMMAND,
    least_trade::COMMAND,
    small_bank::COMMAND,
    html::COMMAND,
    join::COMMAND,
    net::COMMAND,
    offset::COMMAND,
    shortest::COMMAND,
    dearest::COMMAND,
    options::COMMAND,
    table::COMMAND,
    compare::COMMAND,
    bench::COMMAND,
    vectors::COMMAND,
    cli::man::COMMAND,
    cli::completion::COMMAND,
    cli::help::COMMAND,
    cli::version::COMMAND,
];

fn main() -> ExitCode {
    let words: Vec<OsString> = std::env::args_os().skip(1).collect();
    match cli::run(COMMANDS, &words) {
        Ok(()) => ExitCode::SUCCESS,
        Err(failure) => {
            // The exit status stands also where the message cannot be written.
            let _ = writeln!(std::io::stderr(), "market-risk: {}", failure.message);
            ExitCode::from(failure.status)
        }
    }
}
