//! `show`: a model file as text, in the language that `build` reads.
use crate::arguments::Arguments;
use crate::check::open;
use crate::failure::{Failure, Status};
use crate::files::read_model;
use crate::model::{Closer, Model, Next, Statement, ADD, ADD_VARIABLE, COPY, NOTIFY, NO_TEST, SET};
use crate::names::Names;
use std::io::Write;
use teaselauger::UNUSED;

pub const HELP: &str = "\
teaselauger show FILE

Prints a model file as text. A file holds no names: variables are called v0, v1, .., ports p0, .., events e0, .., segments
s0, .. and threads t0, .. by their numbers. `teaselauger build` makes the same file of the text, byte by byte.
FILE may be - for standard input.
";

const NAMES_A_LINE: usize = 16;

pub fn command(arguments: &Arguments, out: &mut dyn Write) -> Result<Status, Failure> {
    let path = arguments.only("FILE")?;
    let model = open(path, &read_model(path)?)?;
    out.write_all(text(&model, &Names::canonical(&model)).as_bytes())?;
    Ok(Status::Done)
}

pub fn text(model: &Model, names: &Names) -> String {
    let mut text = format!("horizon {}\n", model.horizon);
    for (word, all) in [("variables", &names.variables), ("events", &names.events), ("ports", &names.ports)] {
        for line in all.chunks(NAMES_A_LINE) {
            text += &format!("{word} {}\n", line.join(" "));
        }
    }
    for (segment, name) in model.segments.iter().zip(&names.segments) {
        text += &format!("\nsegment {name}\n");
        for &statement in &segment.statements {
            text += &format!("    {}\n", statement_text(statement, names));
        }
        text += &format!("    {}\n", closer_text(&segment.closer, names));
    }
    text += "\n";
    for (k, thread) in model.threads.iter().enumerate() {
        let ports = ports_text(&thread.ports, names);
        text += &format!("thread {} starts at {}{ports}\n", names.threads[k], names.segments[thread.first as usize]);
    }
    text
}

pub fn statement_text(statement: Statement, names: &Names) -> String {
    let Statement { operation, a, b } = statement;
    if operation == NOTIFY {
        return format!("notify {}", names.events[a as usize]);
    }
    let sign = match operation {
        SET | COPY => "=",
        ADD | ADD_VARIABLE => "+=",
        _ => "-=",
    };
    let value = if operation == SET || operation == ADD { b.to_string() } else { names.variable(b).to_string() };
    format!("{} {sign} {value}", names.variable(a))
}

pub fn closer_text(closer: &Closer, names: &Names) -> String {
    match closer {
        Closer::End => "end".into(),
        Closer::Time { delay, next } => format!("wait {delay} then {}", next_text(next, names)),
        Closer::Event { event, next } => format!("wait for {} then {}", names.events[*event as usize], next_text(next, names)),
    }
}

fn next_text(next: &Next, names: &Names) -> String {
    let a = &names.segments[next.a as usize];
    if next.test == NO_TEST {
        return a.clone();
    }
    format!("{a} if {} < {} else {}", names.variable(next.test), next.limit, names.segments[next.b as usize])
}

fn ports_text(ports: &[u32; 8], names: &Names) -> String {
    let used = ports.iter().enumerate().filter(|(_, &x)| x != UNUSED);
    let given: Vec<String> = used.map(|(p, &x)| format!("{} = {}", names.ports[p], names.variables[x as usize])).collect();
    if given.is_empty() {
        String::new()
    } else {
        format!(" with {}", given.join(", "))
    }
}
