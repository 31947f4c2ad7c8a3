//! What variables, ports, events, segments and threads are called. A model file holds no names: those of a text come with the text, and
//! without one each thing is called by a letter and its number.
use crate::model::Model;

#[derive(Clone, Debug, Default, PartialEq, Eq)]
pub struct Names {
    pub variables: Vec<String>,
    pub ports: Vec<String>,
    pub events: Vec<String>,
    pub segments: Vec<String>,
    pub threads: Vec<String>,
}

fn numbered(letter: char, count: usize) -> Vec<String> {
    (0..count).map(|i| format!("{letter}{i}")).collect()
}

impl Names {
    /// v0, p0, e0, s0, t0 and so on.
    pub fn canonical(model: &Model) -> Names {
        Names {
            variables: numbered('v', model.variables as usize),
            ports: numbered('p', model.ports()),
            events: numbered('e', model.events as usize),
            segments: numbered('s', model.segments.len()),
            threads: numbered('t', model.threads.len()),
        }
    }

    /// What a statement or a test names: a variable, or from 128 on a port.
    pub fn variable(&self, x: u32) -> &str {
        match x {
            0..=127 => &self.variables[x as usize],
            _ => &self.ports[x as usize - 128],
        }
    }
}
