//! One ladder as a picture.

use super::{Ladder, Wanted};
use crate::cli::{usage, Args, Failure};
use crate::drawing;
use crate::forms::Form;

/// Whether a picture is wanted, which has one ladder whole and is no other form.
pub fn wanted(args: &Args, wanted: &Wanted, form: Form) -> Result<bool, Failure> {
    let single = !wanted.of_book();
    match (args.flag("--svg"), single, form) {
        (false, ..) => Ok(false),
        (true, false, _) => Err(usage(
            "ladder: --svg draws one ladder; give --currency N or --commodity N",
        )),
        (true, true, Form::Text) if !args.flag("--hide-empty") => Ok(true),
        (true, true, _) => Err(usage(
            "ladder: --svg is not given with --json, --csv or --hide-empty",
        )),
    }
}

/// The ladders as pictures, with the table that they are under where it is not document 01's.
pub fn pictures(ladders: Vec<Ladder>, note: &str) -> String {
    let picture = |ladder: Ladder| {
        let drawing = match &ladder {
            Ladder::Currency(ladder) => drawing::interest(ladder),
            Ladder::Commodity(ladder) => drawing::commodity(ladder),
        };
        drawing.file(note)
    };
    ladders.into_iter().map(picture).collect()
}
