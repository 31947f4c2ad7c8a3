//! The command line tool over the proved library: it lays out, names and draws; numbers, bytes and runs are the library's.
#![forbid(unsafe_code)]

mod arguments;
mod build;
mod check;
mod failure;
mod files;
mod frames;
mod language;
mod layout;
mod meaning;
mod model;
mod names;
mod order;
mod picture;
mod place;
mod player;
mod records;
mod replay;
mod resolve;
mod run;
mod show;
mod steps;
mod svg;
mod trace;
mod vcd;
mod words;

use arguments::{Arguments, Known};
use failure::{Failure, Status};
use std::io::{self, BufWriter, Write};
use std::process::ExitCode;

const HELP: &str = "\
teaselauger COMMAND ..

    check FILE                 whether a model file is accepted, and where it is not
    show FILE                  a model file as text
    build TEXT [-o OUT]        a text to a model file
    run FILE                   the plain run's sheet
    replay FILE CALL..         requests, grants and finishes, or by an order until nothing is ready
    trace FILE                 each segment with what it did: as text, for GTKWave (--vcd), as a picture (--svg)

teaselauger COMMAND --help says more of each. Exit status: 0; 1 for a refused file or text; 2 for wrong usage; 3 for input
or output that failed. docs/TUTORIAL.md leads through all of them.
";

struct Command {
    name: &'static str,
    help: &'static str,
    options: &'static [Known],
    run: fn(&Arguments, &mut dyn Write) -> Result<Status, Failure>,
}

const COMMANDS: [Command; 6] = [
    Command { name: "check", help: check::HELP, options: &[], run: check::command },
    Command { name: "show", help: show::HELP, options: &[], run: show::command },
    Command { name: "build", help: build::HELP, options: &build::OPTIONS, run: build::command },
    Command { name: "run", help: run::HELP, options: &run::OPTIONS, run: run::command },
    Command { name: "replay", help: replay::HELP, options: &replay::OPTIONS, run: replay::command },
    Command { name: "trace", help: trace::HELP, options: &trace::OPTIONS, run: trace::command },
];

// Arguments that are no text cannot be named in a message.
fn given() -> Result<Vec<String>, Failure> {
    let text =
        |argument: std::ffi::OsString| argument.into_string().map_err(|_| Failure::Usage("an argument is no text (UTF-8)".into()));
    std::env::args_os().skip(1).map(text).collect()
}

fn asks_help(argument: &String) -> bool {
    argument == "--help" || argument == "-h"
}

fn perform(given: &[String], out: &mut dyn Write) -> Result<Status, Failure> {
    let Some((name, rest)) = given.split_first() else {
        return Err(Failure::Usage("a command is missing; teaselauger --help lists them".into()));
    };
    if asks_help(name) {
        out.write_all(HELP.as_bytes())?;
        return Ok(Status::Done);
    }
    let Some(command) = COMMANDS.iter().find(|command| command.name == name) else {
        return Err(Failure::Usage(format!("{name} is no command; teaselauger --help lists them")));
    };
    if rest.iter().take_while(|argument| *argument != "--").any(asks_help) {
        out.write_all(command.help.as_bytes())?;
        return Ok(Status::Done);
    }
    let usage = |failure| match failure {
        Failure::Usage(what) => Failure::Usage(format!("{what}; teaselauger {name} --help says more")),
        other => other,
    };
    let arguments = Arguments::of(rest, command.options).map_err(usage)?;
    (command.run)(&arguments, out).map_err(usage)
}

fn main() -> ExitCode {
    let mut out = BufWriter::new(io::stdout().lock());
    let ended = given().and_then(|given| perform(&given, &mut out));
    let flushed = out.flush().map_err(Failure::from);
    match ended.and_then(|status| flushed.map(|()| status)) {
        Ok(Status::Done) => ExitCode::SUCCESS,
        Ok(Status::Refused) => ExitCode::from(1),
        Err(failure) => {
            let said = failure.to_string();
            if !said.is_empty() {
                // Where this cannot be written either, the status is all that is left.
                let _ = writeln!(io::stderr(), "teaselauger: {said}");
            }
            ExitCode::from(failure.status())
        }
    }
}
