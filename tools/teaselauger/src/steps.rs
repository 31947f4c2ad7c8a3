//! A run as steps: each segment that was granted, with what it changed. Requests are made one at a time; variables and hearings are told by
//! the difference of the states before and after, notifications by the statements of the segment that ran.
use crate::failure::Failure;
use crate::model::{Closer, Model};
use crate::order::Order;
use crate::player::{Granted, Player};
use crate::records::{logged, Cycle, Record, Standing};

/// A thread that hears an event, and the cycle in which that was notified.
#[derive(Clone, Copy, Debug, PartialEq, Eq)]
pub struct Heard {
    pub thread: usize,
    pub event: u32,
    pub of: Cycle,
    /// It went past the last delta, and will never run.
    pub overrun: bool,
}

#[derive(Clone, Debug)]
pub struct Step {
    /// From 1 on, in the order of the grants.
    pub number: usize,
    pub thread: usize,
    pub segment: usize,
    pub cycle: Cycle,
    /// Granted at a cycle later than the floor.
    pub early: bool,
    /// Variables that have another value after it, with that value.
    pub changed: Vec<(usize, u32)>,
    /// What threads hear by this grant, this thread perhaps among them.
    pub heard: Vec<Heard>,
    /// The thread's record after it.
    pub after: Record,
    /// Places of the log in use after it.
    pub log: usize,
}

/// A run, and what was said at its end.
pub struct Run {
    pub steps: Vec<Step>,
    pub counts: String,
    pub ending: String,
    pub right: bool,
}

/// The run of a site by an order, at most so many requests.
pub fn run(file: &[u8], model: &Model, mut order: Order, most: u64) -> Result<Run, Failure> {
    let mut player = Player::new(file, model)?;
    let mut steps = Vec::new();
    let (mut variables, mut records) = (*player.state.variables(), player.records.clone());
    let end = player.play(&mut order, most, |player, _, answer| {
        if let Ok(granted) = answer {
            let now = *player.state.variables();
            let changed = (0..now.len()).filter(|&i| now[i] != variables[i]).map(|i| (i, now[i])).collect();
            let heard = heard(model, &granted, &records, &player.records);
            steps.push(step(steps.len() + 1, &granted, changed, heard, player));
            (variables, records) = (now, player.records.clone());
        }
        Ok(())
    })?;
    let (ending, right) = player.ending(end);
    Ok(Run { steps, counts: player.counts.lines(), ending, right })
}

fn step(number: usize, granted: &Granted, changed: Vec<(usize, u32)>, heard: Vec<Heard>, player: &Player) -> Step {
    let Granted { thread, grant, early } = granted;
    Step {
        number,
        thread: usize::from(*thread),
        segment: usize::from(grant.segment),
        cycle: (grant.time, u64::from(grant.delta)),
        early: *early,
        changed,
        heard,
        after: player.records[usize::from(*thread)],
        log: logged(&player.state),
    }
}

// Who waited and does not wait any more. The granted thread waits first, if its closer says so.
fn heard(model: &Model, granted: &Granted, before: &[Record], after: &[Record]) -> Vec<Heard> {
    let waited = |k: usize| match (k == usize::from(granted.thread), before[k].standing) {
        (true, _) => match model.segments[usize::from(granted.grant.segment)].closer {
            Closer::Event { event, .. } => Some(event),
            _ => None,
        },
        (false, Standing::Waiting(event)) => Some(event),
        (false, _) => None,
    };
    let hears = |k: usize| {
        let (event, (time, delta)) = (waited(k)?, after[k].cycle);
        match after[k].standing {
            Standing::Ready => Some(Heard { thread: k, event, of: (time, delta.saturating_sub(1)), overrun: false }),
            Standing::Overrun => Some(Heard { thread: k, event, of: (time, delta), overrun: true }),
            _ => None,
        }
    };
    (0..after.len()).filter_map(hears).collect()
}
