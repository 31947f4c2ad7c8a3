//! The language of models: a text, as it stands, line by line. Names are not looked up here.
use crate::words::{wrong, At, Line, Named, TextError};

#[derive(Debug)]
pub enum Value {
    Number(u32),
    Variable(Named),
}

#[derive(Debug)]
pub enum Action {
    Notify(Named),
    Set(Named, Value),
    Add(Named, Value),
    Subtract(Named, Named),
}

/// The next segment, and with a test the variable, the limit and the segment that is next otherwise.
#[derive(Debug)]
pub struct Onward {
    pub a: Named,
    pub test: Option<(Named, u32, Named)>,
}

#[derive(Debug)]
pub enum Close {
    End,
    Time(u32, Onward),
    Event(Named, Onward),
}

#[derive(Debug)]
pub struct SegmentText {
    pub name: Named,
    pub actions: Vec<(At, Action)>,
    pub close: Option<(At, Close)>,
}

#[derive(Debug)]
pub struct ThreadText {
    pub name: Named,
    pub first: Named,
    pub ports: Vec<(Named, Named)>,
}

#[derive(Debug)]
pub struct Text {
    pub horizon: (u32, At),
    pub variables: Vec<Named>,
    pub events: Vec<Named>,
    pub ports: Vec<Named>,
    pub segments: Vec<SegmentText>,
    pub threads: Vec<ThreadText>,
    pub end: At,
}

// What has been read so far.
struct Reader {
    horizon: Option<(u32, At)>,
    text: Text,
    open: bool,
}

/// Reads a text.
pub fn read(source: &str) -> Result<Text, TextError> {
    let end = At { line: source.lines().count().max(1), column: source.lines().last().map_or(1, |line| line.chars().count() + 1) };
    let text = Text { horizon: (0, end), variables: vec![], events: vec![], ports: vec![], segments: vec![], threads: vec![], end };
    let mut reader = Reader { horizon: None, text, open: false };
    for (i, line) in source.lines().enumerate() {
        reader.line(Line::of(i + 1, line)?)?;
    }
    reader.closed(end)?;
    match reader.horizon {
        Some(horizon) => Ok(Text { horizon, ..reader.text }),
        None => wrong(end, "the text has no line 'horizon'"),
    }
}

impl Reader {
    fn line(&mut self, mut line: Line) -> Result<(), TextError> {
        if line.is_done() {
            return Ok(());
        }
        let at = line.at();
        if line.takes("horizon") {
            self.closed(at)?;
            self.horizon_line(at, &mut line)?;
        } else if line.takes("variables") {
            self.closed(at)?;
            names(&mut line, "a variable", &mut self.text.variables)?;
        } else if line.takes("events") {
            self.closed(at)?;
            names(&mut line, "an event", &mut self.text.events)?;
        } else if line.takes("ports") {
            self.closed(at)?;
            names(&mut line, "a port", &mut self.text.ports)?;
        } else if line.takes("segment") {
            self.closed(at)?;
            self.text.segments.push(SegmentText { name: line.name("a segment")?, actions: vec![], close: None });
            self.open = true;
        } else if line.takes("thread") {
            self.closed(at)?;
            self.text.threads.push(thread_line(&mut line)?);
        } else {
            self.body_line(at, &mut line)?;
        }
        line.done()
    }

    fn horizon_line(&mut self, at: At, line: &mut Line) -> Result<(), TextError> {
        if self.horizon.is_some() {
            return wrong(at, "a second line 'horizon'");
        }
        let at = line.at();
        self.horizon = Some((line.number("the horizon")?, at));
        Ok(())
    }

    // Before anything else stands, the segment that was begun must have its closer.
    fn closed(&mut self, at: At) -> Result<(), TextError> {
        match self.text.segments.last() {
            Some(segment) if self.open && segment.close.is_none() => {
                wrong(at, format!("segment {} has no closer before this: 'wait ..' or 'end'", segment.name.name))
            }
            _ => {
                self.open = false;
                Ok(())
            }
        }
    }

    fn body_line(&mut self, at: At, line: &mut Line) -> Result<(), TextError> {
        let Some(segment) = self.text.segments.last_mut().filter(|_| self.open) else {
            return wrong(at, "a statement or closer stands outside of a segment");
        };
        if segment.close.is_some() {
            return wrong(at, format!("segment {} has its closer already, and nothing follows it", segment.name.name));
        }
        if line.takes("end") {
            segment.close = Some((at, Close::End));
        } else if line.takes("wait") {
            segment.close = Some((line.at(), wait_line(line)?));
        } else {
            segment.actions.push((at, action_line(line)?));
        }
        Ok(())
    }
}

fn names(line: &mut Line, what: &str, all: &mut Vec<Named>) -> Result<(), TextError> {
    all.push(line.name(what)?);
    while !line.is_done() {
        line.takes(",");
        all.push(line.name(what)?);
    }
    Ok(())
}

fn wait_line(line: &mut Line) -> Result<Close, TextError> {
    if line.takes("for") {
        let event = line.name("an event")?;
        return Ok(Close::Event(event, onward(line)?));
    }
    let delay = line.number("the delay, or 'for' and an event")?;
    Ok(Close::Time(delay, onward(line)?))
}

fn onward(line: &mut Line) -> Result<Onward, TextError> {
    line.must("then")?;
    let a = line.name("the next segment")?;
    if !line.takes("if") {
        return Ok(Onward { a, test: None });
    }
    let variable = line.name("a variable or port")?;
    line.must("<")?;
    let limit = line.number("the limit")?;
    line.must("else")?;
    Ok(Onward { a, test: Some((variable, limit, line.name("the next segment")?)) })
}

fn action_line(line: &mut Line) -> Result<Action, TextError> {
    if line.takes("notify") {
        return Ok(Action::Notify(line.name("an event")?));
    }
    let target = line.name("a variable or port")?;
    if line.takes("=") {
        return Ok(Action::Set(target, value(line)?));
    }
    if line.takes("+=") {
        return Ok(Action::Add(target, value(line)?));
    }
    let at = line.at();
    if !line.takes("-=") {
        return wrong(at, "'=', '+=' or '-=' is missing");
    }
    let at = line.at();
    if line.has_number() {
        return wrong(at, "a variable can be subtracted, and no number; add 4294967296 less the number");
    }
    Ok(Action::Subtract(target, line.name("a variable or port")?))
}

fn value(line: &mut Line) -> Result<Value, TextError> {
    if line.has_number() {
        return Ok(Value::Number(line.number("a value")?));
    }
    Ok(Value::Variable(line.name("a variable or port, or a number,")?))
}

fn thread_line(line: &mut Line) -> Result<ThreadText, TextError> {
    let name = line.name("a thread")?;
    line.must("starts")?;
    line.must("at")?;
    let mut thread = ThreadText { name, first: line.name("its first segment")?, ports: vec![] };
    let mut more = line.takes("with");
    while more {
        let port = line.name("a port")?;
        line.must("=")?;
        thread.ports.push((port, line.name("a variable")?));
        more = line.takes(",");
    }
    Ok(thread)
}
