//! The thread records of a state, and the lines that print a state as the programs do.
use teaselauger::State;

/// A time and a delta.
pub type Cycle = (u64, u64);

#[derive(Clone, Copy, Debug, PartialEq, Eq)]
pub enum Standing {
    Ended,
    Overrun,
    Ready,
    /// On this event.
    Waiting(u32),
    Running,
}

#[derive(Clone, Copy, Debug, PartialEq, Eq)]
pub struct Record {
    pub segment: u32,
    pub standing: Standing,
    pub cycle: Cycle,
}

/// The records of the threads, as many as the model has.
pub fn records(state: &State, threads: usize) -> Vec<Record> {
    let of = |words: &[u64]| Record {
        segment: words[0] as u32,
        standing: match words[1] {
            0 => Standing::Ended,
            1 => Standing::Overrun,
            2 => Standing::Ready,
            3 => Standing::Waiting(words[2] as u32),
            _ => Standing::Running,
        },
        cycle: (words[3], words[4]),
    };
    state.records().chunks(5).take(threads).map(of).collect()
}

/// The least cycle of a ready or running thread.
pub fn floor(records: &[Record]) -> Option<Cycle> {
    let due = |record: &&Record| matches!(record.standing, Standing::Ready | Standing::Running);
    records.iter().filter(due).map(|record| record.cycle).min()
}

/// The lines v and t of a state.
pub fn site_lines(state: &State, variables: u32, records: &[Record]) -> String {
    let mut text = String::new();
    for (i, value) in state.variables().iter().take(variables as usize).enumerate() {
        text += &format!("v {i} {value}\n");
    }
    for (k, Record { segment, standing, cycle: (time, delta) }) in records.iter().enumerate() {
        let word = match standing {
            Standing::Ended => "ended".into(),
            Standing::Overrun => "overrun".into(),
            Standing::Ready => "ready".into(),
            Standing::Waiting(event) => format!("wait {event}"),
            Standing::Running => "running".to_string(),
        };
        text += &format!("t {k} {segment} {word} {time} {delta}\n");
    }
    text
}

/// The lines l of a state.
pub fn log_lines(state: &State) -> String {
    let places = state.log()[1..].chunks(3).take(logged(state));
    places.map(|place| format!("l {} {} {}\n", place[0], place[1], place[2])).collect()
}

/// How many places of the log are in use.
pub fn logged(state: &State) -> usize {
    state.log()[0] as usize
}
