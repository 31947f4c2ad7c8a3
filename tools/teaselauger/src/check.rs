//! `check`: whether a model file is accepted, and where it is not.
use crate::arguments::Arguments;
use crate::failure::{Failure, Status};
use crate::files::{read_model, ModelFile};
use crate::meaning::meaning;
use crate::model::Model;
use crate::place::place;
use std::io::Write;
use teaselauger::{Drawing, Refused};

pub const HELP: &str = "\
teaselauger check FILE

Judges a model file: accepted with its counts (H the horizon, V variables, E events, N segments, T threads), or refused
with its number, what the number means, and the place: the record with its kind, the byte, the statement if it is in one.
Records, bytes, segments, threads and statements are counted from 0. FILE may be - for standard input.
";

pub fn command(arguments: &Arguments, out: &mut dyn Write) -> Result<Status, Failure> {
    let file = read_model(arguments.only("FILE")?)?;
    match Drawing::open(&file.bytes) {
        Ok(drawing) => {
            let Model { horizon, variables, events, segments, threads } = Model::of(&drawing);
            writeln!(out, "accepted: H {horizon}, V {variables}, E {events}, N {}, T {}", segments.len(), threads.len())?;
            Ok(Status::Done)
        }
        Err(refused) => {
            writeln!(out, "{}", report(&file, refused))?;
            Ok(Status::Refused)
        }
    }
}

/// The number of a refused file, its meaning and its place, in three lines; a fourth for a file of which the end was not read.
pub fn report(file: &ModelFile, refused: Refused) -> String {
    let found = place(&file.bytes, refused.0).map_or("place not found".into(), |place| place.to_string());
    let mut text = format!("{refused}\n{}\n{found}", meaning(refused.0));
    if file.is_longer {
        text += &format!("\nthe first {} bytes were read, as the programs do, and the file has more", file.bytes.len());
    }
    text
}

/// The model of a file; a failure if it is refused.
pub fn open(path: &str, file: &ModelFile) -> Result<Model, Failure> {
    match Drawing::open(&file.bytes) {
        Ok(drawing) => Ok(Model::of(&drawing)),
        Err(refused) => Err(Failure::Refused(format!("{path}: {}", report(file, refused)))),
    }
}
