//! A run as a value change dump (IEEE 1364), in the order of the site's own time: by stamps, whatever the order of the grants.
use crate::model::{Closer, Model};
use crate::names::Names;
use crate::records::{Cycle, Standing};
use crate::steps::{Run, Step};

const UNIT: u64 = 1_000_000;
const DELTA: u64 = 100;
/// The end of a cycle, after all threads.
const CYCLE_END: u64 = 99;

const COMMENT: &str = "  One unit of the site's time is 1 us, that is 1000000 ps. Within it a delta is 100 ps, and within a delta the threads run 1 ps
  apart: the thread of number k at k + 1 ps, and what is heard of the cycle becomes known at 99 ps. So 1250 us and 102 ps is the
  cycle (1250, 1), thread 1.
  Of a thread: segment is the one that it ran last, runs counts them, early is 1 if that was granted at a cycle later than the
  floor, state is what it does since. An event is marked when it is notified.";

/// The signals of a thread: kind and width, name, value at the start.
const OF_THREAD: [(&str, &str, &str); 4] =
    [("string 1", "segment", "s- "), ("integer 32", "runs", "b0 "), ("wire 1", "early", "0"), ("string 1", "state", "sready ")];

/// What changes at a time: the code of a signal, and its value as it is written.
struct Change {
    at: u64,
    text: String,
}

fn tick((time, delta): Cycle, place: u64) -> u64 {
    time * UNIT + delta * DELTA + place
}

/// The code of a signal, by its number.
fn code(mut number: usize) -> String {
    let mut text = String::new();
    loop {
        text.push(char::from(b'!' + (number % 94) as u8));
        number /= 94;
        if number == 0 {
            return text;
        }
    }
}

// The signals in their order: variables, events, then four of each thread.
struct Signals {
    variables: usize,
    events: usize,
}

impl Signals {
    fn variable(&self, i: usize) -> String {
        code(i)
    }

    fn event(&self, i: usize) -> String {
        code(self.variables + i)
    }

    // By the place in OF_THREAD.
    fn thread(&self, k: usize, which: usize) -> String {
        code(self.variables + self.events + 4 * k + which)
    }
}

pub fn text(model: &Model, names: &Names, run: &Run, title: &str) -> String {
    let signals = Signals { variables: names.variables.len(), events: names.events.len() };
    let mut text = head(names, &signals, run, title);
    let mut changes = changes(model, names, &signals, &run.steps);
    changes.sort_by_key(|change| change.at);
    let mut now = 0;
    for Change { at, text: change } in changes {
        if at != now {
            text += &format!("#{at}\n");
            now = at;
        }
        text += &change;
        text.push('\n');
    }
    let last = run.steps.iter().map(|step| step.cycle.0).max().unwrap_or(0);
    text + &format!("#{}\n", (last + 1) * UNIT)
}

fn head(names: &Names, signals: &Signals, run: &Run, title: &str) -> String {
    let plain = |text: &str| text.replace("$end", "$ end").replace('\n', " ");
    let mut text = format!("$comment\n  {}\n  {}\n{COMMENT}\n$end\n$timescale 1 ps $end\n", plain(title), plain(&run.ending));
    let mut start = String::new();
    let scope = |name: &str| format!("$scope module {name} $end\n");
    let up = "$upscope $end\n";
    text += &scope("variables");
    for (i, name) in names.variables.iter().enumerate() {
        text += &format!("$var reg 32 {} {name} [31:0] $end\n", signals.variable(i));
        start += &format!("b0 {}\n", signals.variable(i));
    }
    text += &format!("{up}{}", scope("events"));
    for (i, name) in names.events.iter().enumerate() {
        text += &format!("$var event 1 {} {name} $end\n", signals.event(i));
    }
    text += &format!("{up}{}", scope("threads"));
    for (k, name) in names.threads.iter().enumerate() {
        text += &scope(name);
        for (which, (kind, signal, value)) in OF_THREAD.into_iter().enumerate() {
            text += &format!("$var {kind} {} {name}_{signal} $end\n", signals.thread(k, which));
            start += &format!("{value}{}\n", signals.thread(k, which));
        }
        text += up;
    }
    format!("{text}{up}$enddefinitions $end\n#0\n$dumpvars\n{start}$end\n")
}

fn changes(model: &Model, names: &Names, signals: &Signals, steps: &[Step]) -> Vec<Change> {
    let mut runs = vec![0u64; names.threads.len()];
    let mut all = Vec::new();
    for step in steps {
        let k = step.thread;
        runs[k] += 1;
        let at = tick(step.cycle, k as u64 + 1);
        let mut add = |text: String| all.push(Change { at, text });
        add(format!("s{} {}", names.segments[step.segment], signals.thread(k, 0)));
        add(format!("b{:b} {}", runs[k], signals.thread(k, 1)));
        add(format!("{}{}", u8::from(step.early), signals.thread(k, 2)));
        add(format!("s{} {}", state(model, names, step), signals.thread(k, 3)));
        for &(i, value) in &step.changed {
            add(format!("b{value:b} {}", signals.variable(i)));
        }
        for event in model.segments[step.segment].notified() {
            add(format!("1{}", signals.event(event as usize)));
        }
        for heard in &step.heard {
            let word = if heard.overrun { "overrun" } else { "ready" };
            all.push(Change { at: tick(heard.of, CYCLE_END), text: format!("s{word} {}", signals.thread(heard.thread, 3)) });
        }
    }
    all
}

// What the thread does when its segment has ended. Where it waits for an event that is told later, at the end of a cycle.
fn state(model: &Model, names: &Names, step: &Step) -> String {
    match (&model.segments[step.segment].closer, step.after.standing) {
        (Closer::Event { event, .. }, _) => format!("waits_{}", names.events[*event as usize]),
        (Closer::End, _) => "ended".into(),
        (Closer::Time { .. }, Standing::Overrun) => "overrun".into(),
        (Closer::Time { .. }, _) => "ready".into(),
    }
}

#[cfg(test)]
mod tests {
    use super::code;

    #[test]
    fn codes_differ() {
        let mut all: Vec<String> = (0..20_000).map(code).collect();
        all.sort();
        all.dedup();
        assert_eq!(all.len(), 20_000);
        assert!(all.iter().all(|code| code.bytes().all(|byte| (33..127).contains(&byte))));
    }
}
