//! A text's names looked up: the model that it draws, and what its things are called. Whether the model keeps the rules the library judges.
use crate::language::{Action, Close, Onward, SegmentText, Text, ThreadText, Value};
use crate::model::{Closer, Model, Next, Segment, Statement, Thread, ADD, ADD_VARIABLE, COPY, NOTIFY, NO_TEST, SET, SUB_VARIABLE};
use crate::names::Names;
use crate::words::{wrong, Named, TextError};
use std::collections::HashMap;
use teaselauger::{port, UNUSED};

// The numbers of the names of one kind.
struct Numbers {
    what: &'static str,
    numbers: HashMap<String, u32>,
}

impl Numbers {
    fn new(what: &'static str) -> Numbers {
        Numbers { what, numbers: HashMap::new() }
    }

    fn of<'a>(what: &'static str, all: impl Iterator<Item = &'a Named>) -> Result<Numbers, TextError> {
        let mut numbers = Numbers::new(what);
        for (i, named) in all.enumerate() {
            numbers.add(named, i as u32)?;
        }
        Ok(numbers)
    }

    fn add(&mut self, named: &Named, number: u32) -> Result<(), TextError> {
        match self.numbers.insert(named.name.clone(), number) {
            None => Ok(()),
            Some(_) => wrong(named.at, format!("a second {} is called {}", self.what, named.name)),
        }
    }

    fn get(&self, named: &Named) -> Result<u32, TextError> {
        match self.numbers.get(&named.name) {
            Some(&number) => Ok(number),
            None => wrong(named.at, format!("no {} is called {}", self.what, named.name)),
        }
    }
}

struct Lookup {
    variables: Numbers,
    // Variables, and ports as 128 to 135.
    places: Numbers,
    ports: Numbers,
    events: Numbers,
    segments: Numbers,
}

fn lookup(text: &Text) -> Result<Lookup, TextError> {
    let mut places = Numbers::of("variable or port", text.variables.iter())?;
    for (p, named) in text.ports.iter().enumerate() {
        if p == 8 {
            return wrong(named.at, "a thread has eight ports, and this is a ninth");
        }
        places.add(named, port(p as u32))?;
    }
    Ok(Lookup {
        variables: Numbers::of("variable", text.variables.iter())?,
        places,
        ports: Numbers::of("port", text.ports.iter())?,
        events: Numbers::of("event", text.events.iter())?,
        segments: Numbers::of("segment", text.segments.iter().map(|segment| &segment.name))?,
    })
}

/// The model of a text, and its names.
pub fn resolve(text: &Text) -> Result<(Model, Names), TextError> {
    let lookup = lookup(text)?;
    Numbers::of("thread", text.threads.iter().map(|thread| &thread.name))?;
    let model = Model {
        horizon: text.horizon.0,
        variables: text.variables.len() as u32,
        events: text.events.len() as u32,
        segments: text.segments.iter().map(|segment| lookup.segment(segment)).collect::<Result<_, _>>()?,
        threads: text.threads.iter().map(|thread| lookup.thread(thread)).collect::<Result<_, _>>()?,
    };
    Ok((model, names(text)))
}

fn names(text: &Text) -> Names {
    let of = |all: &[Named]| all.iter().map(|named| named.name.clone()).collect();
    Names {
        variables: of(&text.variables),
        ports: of(&text.ports),
        events: of(&text.events),
        segments: text.segments.iter().map(|segment| segment.name.name.clone()).collect(),
        threads: text.threads.iter().map(|thread| thread.name.name.clone()).collect(),
    }
}

impl Lookup {
    fn segment(&self, text: &SegmentText) -> Result<Segment, TextError> {
        let statements = text.actions.iter().map(|(_, action)| self.statement(action)).collect::<Result<_, _>>()?;
        let closer = match &text.close {
            None | Some((_, Close::End)) => Closer::End,
            Some((_, Close::Time(delay, onward))) => Closer::Time { delay: *delay, next: self.next(onward)? },
            Some((_, Close::Event(event, onward))) => Closer::Event { event: self.events.get(event)?, next: self.next(onward)? },
        };
        Ok(Segment { statements, closer })
    }

    fn statement(&self, action: &Action) -> Result<Statement, TextError> {
        let (operation, a, b) = match action {
            Action::Notify(event) => return Ok(Statement { operation: NOTIFY, a: self.events.get(event)?, b: 0 }),
            Action::Set(a, Value::Number(b)) => (SET, a, *b),
            Action::Set(a, Value::Variable(b)) => (COPY, a, self.places.get(b)?),
            Action::Add(a, Value::Number(b)) => (ADD, a, *b),
            Action::Add(a, Value::Variable(b)) => (ADD_VARIABLE, a, self.places.get(b)?),
            Action::Subtract(a, b) => (SUB_VARIABLE, a, self.places.get(b)?),
        };
        Ok(Statement { operation, a: self.places.get(a)?, b })
    }

    fn next(&self, onward: &Onward) -> Result<Next, TextError> {
        let a = self.segments.get(&onward.a)?;
        match &onward.test {
            None => Ok(Next { a, b: a, test: NO_TEST, limit: 0 }),
            Some((variable, limit, b)) => Ok(Next { a, b: self.segments.get(b)?, test: self.places.get(variable)?, limit: *limit }),
        }
    }

    fn thread(&self, text: &ThreadText) -> Result<Thread, TextError> {
        let mut ports = [UNUSED; 8];
        for (port, variable) in &text.ports {
            let place = &mut ports[self.ports.get(port)? as usize];
            if *place != UNUSED {
                return wrong(port.at, format!("port {} is given twice", port.name));
            }
            *place = self.variables.get(variable)?;
        }
        Ok(Thread { first: self.segments.get(&text.first)?, ports })
    }
}
