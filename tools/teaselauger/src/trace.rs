//! `trace`: each granted segment with what it did, as lines, as a VCD file or as a picture.
use crate::arguments::{Arguments, Known};
use crate::build::build;
use crate::check::open;
use crate::failure::{Failure, Status};
use crate::files::{read_model, write};
use crate::model::Model;
use crate::names::Names;
use crate::order::Order;
use crate::records::{Cycle, Record, Standing};
use crate::replay::MOST;
use crate::steps::{run, Run, Step};
use crate::{svg, vcd};
use std::io::Write;

pub const HELP: &str = "\
teaselauger trace FILE [--order least|most-ahead|random] [--seed S] [--most N] [--names TEXT]
                  [--text] [--vcd OUT] [--svg OUT [--from TIME] [--to TIME]]

Asks the ready threads by an order until none is ready up to the horizon, as teaselauger replay does (least if not given), and
tells of each granted segment: its cycle, thread and number, whether it was granted early (at a cycle later than the floor),
which variables have another value after it, which events it notifies, who hears an event by its grant, and what its thread
does then. Several forms may be asked for at once; --text if none is.

    --text      a line for each segment, in the order of the grants; then the counts of replay --stats; the last line says
                whether the run equals the plain run
    --vcd OUT   a file for GTKWave, in the order of the site's own time. A comment in it says how cycles are told as time
    --svg OUT   a picture: a lane for each thread, and the log's fill below. It shows the cycles of the times --from to --to;
                without these the first that fit. The picture says which it shows
    --names TEXT    names of the text that the file was built of; the file must be the one that the text builds
    --most N    asks at most N times, 1,000,000 if not given, and says so where that was not enough

OUT may be - for standard output, FILE - for standard input.
";

pub const OPTIONS: [Known; 9] = [
    ("--order", true),
    ("--seed", true),
    ("--most", true),
    ("--names", true),
    ("--text", false),
    ("--vcd", true),
    ("--svg", true),
    ("--from", true),
    ("--to", true),
];

pub fn command(arguments: &Arguments, out: &mut dyn Write) -> Result<Status, Failure> {
    let path = arguments.only("FILE")?;
    let order = Order::of(arguments)?.unwrap_or_else(Order::least);
    let most = arguments.number("--most")?.unwrap_or(MOST);
    let window = (arguments.number("--from")?, arguments.number("--to")?);
    if window != (None, None) && !arguments.has("--svg") {
        return Err(Failure::Usage("--from and --to go with --svg".into()));
    }
    one_at_a_time(path, arguments)?;
    let file = read_model(path)?;
    let model = open(path, &file)?;
    let names = names(arguments.value("--names"), &file.bytes, &model)?;
    let run = run(&file.bytes, &model, order, most)?;
    let title = title(path, arguments);
    if let Some(to) = arguments.value("--vcd") {
        write(to, vcd::text(&model, &names, &run, &title).as_bytes(), out)?;
    }
    if let Some(to) = arguments.value("--svg") {
        write(to, svg::text(&model, &names, &run, &title, window).as_bytes(), out)?;
    }
    if asks_text(arguments) {
        lines(&model, &names, &run, out)?;
    }
    Ok(if run.right { Status::Done } else { Status::Refused })
}

fn asks_text(arguments: &Arguments) -> bool {
    arguments.has("--text") || !(arguments.has("--vcd") || arguments.has("--svg"))
}

// Standard output has room for one form, and standard input for one file.
fn one_at_a_time(path: &str, arguments: &Arguments) -> Result<(), Failure> {
    let printed = [arguments.value("--vcd") == Some("-"), arguments.value("--svg") == Some("-"), asks_text(arguments)];
    if printed.iter().filter(|&&asked| asked).count() > 1 {
        return Err(Failure::Usage("one form alone can go to standard output".into()));
    }
    if path == "-" && arguments.value("--names") == Some("-") {
        return Err(Failure::Usage("FILE and --names cannot both be standard input".into()));
    }
    Ok(())
}

// The file by its last name, and the order.
fn title(path: &str, arguments: &Arguments) -> String {
    let name = path.rsplit('/').next().unwrap_or(path);
    let seed = arguments.value("--seed").map_or(String::new(), |seed| format!(", seed {seed}"));
    format!("{name}, order {}{seed}", arguments.value("--order").unwrap_or("least"))
}

fn names(text: Option<&str>, file: &[u8], model: &Model) -> Result<Names, Failure> {
    let Some(path) = text else { return Ok(Names::canonical(model)) };
    let built = build(path)?;
    if built.file != file {
        return Err(Failure::Refused(format!("{path}: the text builds another file")));
    }
    Ok(built.names)
}

fn lines(model: &Model, names: &Names, run: &Run, out: &mut dyn Write) -> Result<(), Failure> {
    for step in &run.steps {
        writeln!(out, "{}", line(model, names, step))?;
    }
    Ok(write!(out, "{}{}", run.counts, run.ending)?)
}

pub fn cycle_text((time, delta): Cycle) -> String {
    format!("({time}, {delta})")
}

/// What a step did, in pieces: values, notifications, hearings.
pub fn pieces(model: &Model, names: &Names, step: &Step) -> Vec<String> {
    let changed = step.changed.iter().map(|&(i, value)| format!("{} = {value}", names.variables[i]));
    let notified =
        model.segments[step.segment].notified().into_iter().map(|event| format!("notify {}", names.events[event as usize]));
    let heard = step.heard.iter().map(|heard| {
        format!("{} hears {} of {}", names.threads[heard.thread], names.events[heard.event as usize], cycle_text(heard.of))
    });
    changed.chain(notified).chain(heard).collect()
}

fn line(model: &Model, names: &Names, step: &Step) -> String {
    let mut all = pieces(model, names, step);
    all.push(then(names, &step.after));
    let early = if step.early { " early" } else { "" };
    let (cycle, thread, segment) = (cycle_text(step.cycle), &names.threads[step.thread], &names.segments[step.segment]);
    format!("{} {cycle} {thread} {segment}{early}: {}", step.number, all.join("; "))
}

fn then(names: &Names, after: &Record) -> String {
    match after.standing {
        Standing::Ended => "ended".into(),
        Standing::Overrun => "overrun".into(),
        Standing::Waiting(event) => format!("waits for {}", names.events[event as usize]),
        Standing::Ready | Standing::Running => {
            format!("then {} at {}", names.segments[after.segment as usize], cycle_text(after.cycle))
        }
    }
}
