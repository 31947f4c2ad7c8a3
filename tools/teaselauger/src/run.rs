//! `run`: the sheet of the plain run, exactly as `plainrun` prints it.
use crate::arguments::{Arguments, Known};
use crate::failure::{Failure, Status};
use crate::files::read_model;
use std::io::Write;

pub const HELP: &str = "\
teaselauger run FILE [--budget N]

Makes the plain run of a model file with a budget of N segments, 1,000,000 if not given, and prints its sheet: a line v for
each variable, a line t for each thread, n how many segments ran, and spent if the budget was used up. Of a refused file it
prints refused and the number; teaselauger check says more. FILE may be - for standard input.
";

pub const OPTIONS: [Known; 1] = [("--budget", true)];
const BUDGET: u64 = 1_000_000;

pub fn command(arguments: &Arguments, out: &mut dyn Write) -> Result<Status, Failure> {
    let path = arguments.only("FILE")?;
    let budget = arguments.number("--budget")?.unwrap_or(BUDGET);
    let file = read_model(path)?;
    out.write_all(teaselauger::sheet(&file.bytes, budget).as_bytes())?;
    Ok(if teaselauger::read(&file.bytes).is_ok() { Status::Done } else { Status::Refused })
}
