//! A site that is played call by call, with what is counted of the calls.
use crate::failure::Failure;
use crate::meaning::meaning;
use crate::model::Model;
use crate::order::Order;
use crate::records::{floor, records, site_lines, Record, Standing};
use teaselauger::{Call, Grant, RequestError, Site, State};

/// What was counted of the calls that were made.
#[derive(Default)]
pub struct Counts {
    pub calls: u64,
    pub grants: u64,
    /// Grants at a cycle later than the floor.
    pub early: u64,
    refusals: [u64; 20],
}

impl Counts {
    pub fn lines(&self) -> String {
        let refused: u64 = self.refusals.iter().sum();
        let mut text = format!("calls {}\ngrants {}\nearly {}\nrefusals {refused}\n", self.calls, self.grants, self.early);
        for (number, &count) in self.refusals.iter().enumerate().filter(|(_, &count)| count > 0) {
            text += &format!("refused {number}: {count}. {}\n", meaning(number as u8));
        }
        text
    }
}

pub struct Player<'a> {
    file: &'a [u8],
    pub model: &'a Model,
    site: Site,
    pub state: State,
    pub records: Vec<Record>,
    pub counts: Counts,
}

/// A request that was granted.
pub struct Granted {
    pub thread: u8,
    pub grant: Grant,
    pub early: bool,
}

/// How a run by an order went on.
pub enum Turn {
    /// A request, and its answer.
    Asked(u8, Result<Granted, u8>),
    /// No thread is ready up to the horizon.
    Done,
    /// Threads are ready up to the horizon, and each request was refused. The library is proved never to come to this.
    Standstill,
}

impl<'a> Player<'a> {
    pub fn new(file: &'a [u8], model: &'a Model) -> Result<Player<'a>, Failure> {
        let site = Site::new(file).map_err(|refused| Failure::Refused(refused.to_string()))?;
        let state = site.fresh();
        let records = records(&state, model.threads.len());
        Ok(Player { file, model, site, state, records, counts: Counts::default() })
    }

    /// Makes a call. A refusal is its number.
    pub fn call(&mut self, call: Call) -> Result<Granted, u8> {
        let floor = floor(&self.records);
        self.counts.calls += 1;
        match self.site.call(&mut self.state, call) {
            Ok(grant) => {
                let (thread, is_finish) = match call {
                    Call::Both(thread) | Call::Grant(thread) => (thread, false),
                    Call::Finish(thread) => (thread, true),
                };
                let early = !is_finish && floor.is_some_and(|floor| (grant.time, u64::from(grant.delta)) > floor);
                self.counts.grants += u64::from(!is_finish);
                self.counts.early += u64::from(early);
                self.records = records(&self.state, self.model.threads.len());
                Ok(Granted { thread, grant, early })
            }
            Err(RequestError::Refused(refused)) => {
                self.counts.refusals[usize::from(refused.0).min(19)] += 1;
                Err(refused.0)
            }
            Err(RequestError::OtherSite) => unreachable!("the state is of this site"),
        }
    }

    /// The threads that are ready up to the horizon.
    pub fn ready(&self) -> Vec<u8> {
        let is_due = |record: &Record| record.standing == Standing::Ready && record.cycle.0 <= u64::from(self.model.horizon);
        (0..self.records.len()).filter(|&k| is_due(&self.records[k])).map(|k| k as u8).collect()
    }

    /// The next request by an order. What was refused is asked again after a grant.
    pub fn turn(&mut self, order: &mut Order) -> Turn {
        if order.is_new() {
            let ready = self.ready();
            if ready.is_empty() {
                return Turn::Done;
            }
            order.begin(ready, &self.records);
        }
        let Some(thread) = order.next() else { return Turn::Standstill };
        let answer = self.call(Call::Both(thread));
        if answer.is_ok() {
            order.granted();
        }
        Turn::Asked(thread, answer)
    }

    /// The lines v and t.
    pub fn site_lines(&self) -> String {
        site_lines(&self.state, self.model.variables, &self.records)
    }

    /// Whether variables and threads are those of the plain run, after as many segments, and the plain run is done too.
    pub fn equals_plain_run(&self) -> bool {
        let grants = self.counts.grants;
        teaselauger::sheet(self.file, grants) == format!("{}n {grants}\n", self.site_lines())
    }

    /// What is said of a run by an order that has come to its end, and whether it is as it must be.
    pub fn ending(&self, end: End) -> (String, bool) {
        let still = self.ready().len();
        match end {
            End::Stopped(most) => {
                (format!("stopped after {most} calls (--most); threads ready up to the horizon: {still}\n"), true)
            }
            End::Standstill => (format!("at a standstill; threads ready up to the horizon: {still}\n"), false),
            End::Done if self.equals_plain_run() => {
                (format!("equal to the plain run: variables, threads and {} segments\n", self.counts.grants), true)
            }
            End::Done => (format!("NOT equal to the plain run, after {} segments\n", self.counts.grants), false),
        }
    }

    /// Requests by an order until nothing is ready up to the horizon, at most so many. Each request is handed on with its answer.
    pub fn play<F>(&mut self, order: &mut Order, most: u64, mut each: F) -> Result<End, Failure>
    where
        F: FnMut(&Player, u8, Result<Granted, u8>) -> Result<(), Failure>,
    {
        while self.counts.calls < most {
            match self.turn(order) {
                Turn::Asked(thread, answer) => each(self, thread, answer)?,
                Turn::Done => return Ok(End::Done),
                Turn::Standstill => return Ok(End::Standstill),
            }
        }
        Ok(if self.ready().is_empty() { End::Done } else { End::Stopped(most) })
    }
}

/// How a run by an order ended.
#[derive(Clone, Copy, Debug, PartialEq, Eq)]
pub enum End {
    Done,
    Standstill,
    /// After so many calls.
    Stopped(u64),
}

#[cfg(test)]
mod tests {
    use super::*;
    use crate::build::of_text;
    use teaselauger::Drawing;

    #[test]
    fn a_run_equals_the_plain_run_at_its_end_alone() {
        let file = of_text(include_str!("../../../models/m.txt")).unwrap().file;
        let model = Model::of(&Drawing::open(&file).unwrap());
        let mut player = Player::new(&file, &model).unwrap();
        assert!(!player.equals_plain_run() && !player.ending(End::Done).1);
        let stopped = player.play(&mut Order::least(), 253, |_, _, _| Ok(())).unwrap();
        assert!(stopped == End::Stopped(253) && !player.equals_plain_run() && player.ending(stopped).1);
        let done = player.play(&mut Order::least(), 254, |_, _, _| Ok(())).unwrap();
        assert!(done == End::Done && player.equals_plain_run() && player.ending(done).1);
        assert!(!player.ending(End::Standstill).1);
        player.counts.grants += 1;
        assert!(!player.equals_plain_run());
    }

    #[test]
    fn variables_and_threads_are_compared() {
        let text = include_str!("../../../models/case07.txt");
        let file = of_text(text).unwrap().file;
        let model = Model::of(&Drawing::open(&file).unwrap());
        for (from, to) in [("sounder2 = 1", "sounder2 = 2"), ("wait 10", "wait 11")] {
            let other = of_text(&text.replace(from, to)).unwrap().file;
            let mut player = Player::new(&file, &model).unwrap();
            assert_eq!(player.play(&mut Order::least(), 100, |_, _, _| Ok(())).unwrap(), End::Done);
            assert!(player.equals_plain_run());
            player.file = &other;
            assert!(!player.equals_plain_run());
        }
    }
}
