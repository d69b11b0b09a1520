//! What a run has seen of options: tables of each size, refused in each way, with options of each sort,
//! and of two tables.

use super::super::case::Case;
use super::super::nets::{add, listed};
use super::fields::{past, ENDS};
use super::greeks::{gammas, vegas, GAMMAS, VEGAS};
use super::pairs::{of_two, TWO};
use super::sorts::{of_length, of_options, of_place, of_room, of_size};
use super::sorts::{LENGTHS, PLACES, ROOMS, SIZES, SORTS};
use super::OptionTables;
use books::options::{decode, OptionRow};
use std::fmt;

/// Counts of first tables, and of both.
#[derive(Default)]
pub struct Seen {
    /// Tables without a fault, by their number of options.
    pub sizes: [u64; 5],
    /// Refused with 16.
    pub lengths: [u64; 8],
    /// Refused with 17 for an option that is one past one end alone.
    pub ends: [u64; 12],
    /// Refused with 17, by the place of the option.
    pub places: [u64; 6],
    /// Refused with 12.
    pub short: u64,
    /// Outputs of tables without a fault.
    pub rooms: [u64; 4],
    /// Written tables by the options that they have, by gamma and by vega.
    pub sorts: [u64; 13],
    pub gammas: [u64; 12],
    pub vegas: [u64; 12],
    /// Both tables of a case.
    pub two: [u64; 6],
}

impl Seen {
    /// Counts a table that is refused with 17.
    fn count_bad(&mut self, options: &[OptionRow], row: usize, room: usize) {
        let past = past(&options[row]);
        let alone = past.iter().sum::<u32>() == 1;
        add(&mut self.ends, past.map(|by| by == 1 && alone));
        add(&mut self.places, of_place(options, row, room));
    }

    /// Counts a table without a fault, whose book has so many bytes.
    fn count_good(&mut self, options: &[OptionRow], length: usize, room: usize) {
        add(&mut self.sizes, of_size(options.len()));
        add(&mut self.rooms, of_room(room, length, options.len()));
        // Without room nothing was written, and nothing compared.
        if room < length {
            self.short += 1;
            return;
        }
        add(&mut self.sorts, of_options(options));
        add(&mut self.gammas, gammas(options));
        add(&mut self.vegas, vegas(options));
    }

    /// Counts the first table.
    fn count_first(&mut self, tables: &OptionTables) {
        let (options, room) = (decode(&tables.a).unwrap_or_default(), tables.room);
        match second::options_book(&tables.a) {
            Ok(book) => self.count_good(&options, book.len(), room),
            Err(refusal) if refusal.number == 17 => {
                self.count_bad(&options, refusal.row as usize, room);
            }
            Err(_) => add(&mut self.lengths, of_length(&tables.a, room)),
        }
    }

    /// Counts the tables of a case.
    pub fn count(&mut self, case: &Case) {
        self.count_first(&case.options);
        add(&mut self.two, of_two(&case.options));
    }

    /// Every count beside its name.
    pub fn named(&self) -> Vec<(String, u64)> {
        let named = |what: &str, names: &[&str], counts: &[u64]| -> Vec<(String, u64)> {
            let counts = names.iter().zip(counts);
            let named = counts.map(|(name, count)| (format!("{what} {name}"), *count));
            named.collect()
        };
        [
            named("option tables of", &SIZES, &self.sizes),
            named("option tables refused 16 for", &LENGTHS, &self.lengths),
            named("option tables refused 17 for", &ENDS, &self.ends),
            named("bad options,", &PLACES, &self.places),
            named("option tables refused", &["12"], &[self.short]),
            named("outputs of options", &ROOMS, &self.rooms),
            named("options with", &SORTS, &self.sorts),
            named("gammas", &GAMMAS, &self.gammas),
            named("vegas", &VEGAS, &self.vegas),
            named("two option tables", &TWO, &self.two),
        ]
        .concat()
    }
}

impl fmt::Display for Seen {
    fn fmt(&self, out: &mut fmt::Formatter) -> fmt::Result {
        write!(
            out,
            "option tables of {}; refused 12: {}, 16 for {}\nrefused 17 for {}\nbad options, {}; outputs \
             {}\noptions with {}\ngammas {}\nvegas {}\ntwo option tables {}",
            listed(&SIZES, &self.sizes),
            self.short,
            listed(&LENGTHS, &self.lengths),
            listed(&ENDS, &self.ends),
            listed(&PLACES, &self.places),
            listed(&ROOMS, &self.rooms),
            listed(&SORTS, &self.sorts),
            listed(&GAMMAS, &self.gammas),
            listed(&VEGAS, &self.vegas),
            listed(&TWO, &self.two)
        )
    }
}
