//! The place in a file to which a number of refusal belongs. The number is the library's; here it is taken as given, and the first record
//! to which it applies is looked for. Since the library gives the first number that applies, nothing before that place is at fault.
use crate::frames::{frames, long, name, short, Frame, Frames, END, HEAD, PORTS, SEGMENT, THREAD};
use std::fmt;

const LONGEST: u32 = 1_000_000_000;
const UNUSED: u8 = 255;

#[derive(Debug, PartialEq, Eq)]
pub struct Place {
    pub record: usize,
    pub kind: String,
    pub byte: usize,
    pub statement: Option<usize>,
    pub what: String,
}

impl fmt::Display for Place {
    fn fmt(&self, f: &mut fmt::Formatter) -> fmt::Result {
        write!(f, "record {} ({}), byte {}", self.record, self.kind, self.byte)?;
        if let Some(statement) = self.statement {
            write!(f, ", statement {statement}")?;
        }
        write!(f, ": {}", self.what)
    }
}

// A fault of a record: the place in the record, the statement, and what is wrong.
type Fault = (usize, Option<usize>, String);

fn of(frame: &Frame, fault: Fault) -> Place {
    let (at, statement, what) = fault;
    Place { record: frame.record, kind: frame.name(), byte: frame.at + at, statement, what }
}

/// Where the number first applies; none if it applies nowhere.
pub fn place(file: &[u8], number: u8) -> Option<Place> {
    let frames = frames(file);
    let first =
        |fault: &dyn Fn(&Frame) -> Option<Fault>| frames.all.iter().find_map(|frame| fault(frame).map(|fault| of(frame, fault)));
    let (variables, events) = counts(&frames);
    match number {
        1 => cut_off(file, &frames),
        2 => out_of_order(&frames),
        3 => first(&wrong_length),
        4 => first(&out_of_range),
        5 => first(&|frame| closer(frame).and_then(closer_rule)),
        6 => first(&wrong_operation),
        7 => first(&|frame| unknown_name(frame, variables, events)),
        8 => unknown_segment(&frames),
        9 => bytes_after(file, &frames),
        17 => first(&|frame| wrong_ports(frame, variables)),
        18 => lacking_port(&frames),
        _ => None,
    }
}

// V and E of the head, 0 without one.
fn counts(frames: &Frames) -> (u8, u8) {
    match frames.all.first() {
        Some(head) if head.kind == HEAD && head.bytes.len() >= 10 => (head.bytes[8], head.bytes[9]),
        _ => (0, 0),
    }
}

fn cut_off(file: &[u8], frames: &Frames) -> Option<Place> {
    if frames.ended {
        return None;
    }
    let left = &file[frames.rest..];
    let (kind, what) = match left.len() {
        0 => ("missing".into(), "the bytes end here, and no end record has come".into()),
        n @ 1..=3 => ("cut off".into(), format!("{n} left, and a record's head has 4 bytes")),
        n => {
            let kind = short(left, 2);
            let number = frames.all.iter().filter(|frame| frame.kind == kind).count();
            (
                name(kind, number),
                match short(left, 0) {
                    length @ 0..=3 => format!("length {length} is below 4"),
                    length => format!("length {length} goes past the end, {n} bytes are left"),
                },
            )
        }
    };
    Some(Place { record: frames.all.len(), kind, byte: frames.rest, statement: None, what })
}

fn out_of_order(frames: &Frames) -> Option<Place> {
    let mut before = 0;
    for frame in &frames.all {
        let may: &[u16] = match before {
            0 => &[HEAD],
            HEAD => &[SEGMENT],
            SEGMENT => &[SEGMENT, THREAD],
            THREAD => &[THREAD, END, PORTS],
            _ => &[THREAD, END],
        };
        if !may.contains(&frame.kind) {
            let may: Vec<String> = may.iter().map(|kind| kind.to_string()).collect();
            let what = format!("kind {} stands where the kind may be {}", frame.kind, may.join(" or "));
            return Some(of(frame, (2, None, what)));
        }
        before = frame.kind;
    }
    None
}

fn wrong_length(frame: &Frame) -> Option<Fault> {
    let n = frame.bytes.len();
    let (fits, must) = match frame.kind {
        HEAD => (n == 10, "10"),
        SEGMENT => ((17..=209).contains(&n) && (n - 17) % 6 == 0, "17 + 6 n, n at most 32"),
        THREAD => (n == 5, "5"),
        END => (n == 4, "4"),
        PORTS => (n == 12, "12"),
        _ => return None,
    };
    (!fits).then(|| (0, None, format!("length {n}, and it must be {must}")))
}

fn out_of_range(frame: &Frame) -> Option<Fault> {
    let bytes = frame.bytes;
    match frame.kind {
        HEAD if bytes.len() >= 10 => match (long(bytes, 4), bytes[8], bytes[9]) {
            (h, ..) if h == 0 || h > LONGEST => Some((4, None, format!("horizon H = {h}, and it must be 1 to 1,000,000,000"))),
            (_, v, _) if v > 64 => Some((8, None, format!("V = {v} variables, and there are at most 64"))),
            (_, _, e) if e > 32 => Some((9, None, format!("E = {e} events, and there are at most 32"))),
            _ => None,
        },
        SEGMENT if frame.number == 64 => Some((0, None, "there are at most 64 segments".into())),
        THREAD if frame.number == 32 => Some((0, None, "there are at most 32 threads".into())),
        _ => None,
    }
}

// The thirteen bytes of a segment's closer.
fn closer<'a>(frame: &Frame<'a>) -> Option<&'a [u8]> {
    (frame.kind == SEGMENT).then(|| frame.bytes.get(4..17)).flatten()
}

fn closer_rule(c: &[u8]) -> Option<Fault> {
    let at = |place: usize, what: String| Some((4 + place, None, what));
    let stray = |range: std::ops::Range<usize>| range.clone().find(|&i| c[i] != 0);
    if c[0] > 2 {
        return at(0, format!("closer of kind {}, and it must be 0, 1 or 2", c[0]));
    }
    let must_be_0 = match c[0] {
        0 => stray(1..13),
        1 => stray(1..2),
        _ => stray(2..6),
    };
    if let Some(i) = must_be_0 {
        return at(i, format!("byte {i} of a closer of kind {} is {}, and it must be 0", c[0], c[i]));
    }
    if long(c, 2) > LONGEST {
        return at(2, format!("a delay of {}, and it must be at most 1,000,000,000", long(c, 2)));
    }
    if c[0] == 0 || c[8] != UNUSED {
        return None;
    }
    if c[6] != c[7] {
        return at(7, format!("with no test B is {}, and it must be A, {}", c[7], c[6]));
    }
    (long(c, 9) != 0).then(|| (13, None, format!("with no test the limit is {}, and it must be 0", long(c, 9))))
}

fn wrong_operation(frame: &Frame) -> Option<Fault> {
    if frame.kind != SEGMENT {
        return None;
    }
    frame.statements().find_map(|(j, at, operation, _, b)| match operation {
        1..=5 => None,
        6 if b == 0 => None,
        6 => Some((at + 2, Some(j), format!("a notify with b = {b}, and it must be 0"))),
        _ => Some((at, Some(j), format!("operation {operation}, and it must be 1 to 6"))),
    })
}

// The fault of a number where a variable or an event is named.
fn variable(x: u32, v: u8) -> Option<String> {
    let named = x < u32::from(v) || (128..136).contains(&x);
    (!named).then(|| format!("variable {x}, and V is {v}"))
}

fn event(x: u8, e: u8) -> Option<String> {
    (x >= e).then(|| format!("event {x}, and E is {e}"))
}

fn unknown_name(frame: &Frame, v: u8, e: u8) -> Option<Fault> {
    let c = closer(frame)?;
    if c[0] == 2 {
        if let Some(what) = event(c[1], e) {
            return Some((5, None, what));
        }
    }
    if c[0] != 0 && c[8] != UNUSED {
        if let Some(what) = variable(c[8].into(), v) {
            return Some((12, None, format!("tests {what}")));
        }
    }
    frame.statements().find_map(|(j, at, operation, a, b)| {
        let of_a = if operation == 6 { event(a, e) } else { variable(a.into(), v) };
        let of_b = || if (3..=5).contains(&operation) { variable(b, v) } else { None };
        of_a.map(|what| (at + 1, Some(j), what)).or_else(|| of_b().map(|what| (at + 2, Some(j), what)))
    })
}

fn unknown_segment(frames: &Frames) -> Option<Place> {
    let n = frames.all.iter().filter(|frame| frame.kind == SEGMENT).count();
    let wrong = |frame: &Frame, at: usize, what: &str| {
        let x = frame.bytes[at];
        (usize::from(x) >= n).then(|| of(frame, (at, None, format!("{what} segment {x}, and N is {n}"))))
    };
    let next = |frame: &Frame| {
        let c = closer(frame)?;
        (c[0] != 0).then(|| wrong(frame, 10, "next").or_else(|| wrong(frame, 11, "next")))?
    };
    let first = |frame: &Frame| (frame.kind == THREAD && frame.bytes.len() > 4).then(|| wrong(frame, 4, "first"))?;
    frames.all.iter().find_map(next).or_else(|| frames.all.iter().find_map(first))
}

fn bytes_after(file: &[u8], frames: &Frames) -> Option<Place> {
    let more = file.len() - frames.rest;
    (frames.ended && more > 0).then(|| Place {
        record: frames.all.len(),
        kind: "after the end".into(),
        byte: frames.rest,
        statement: None,
        what: format!("{more} more, and nothing may follow the end record"),
    })
}

fn wrong_ports(frame: &Frame, v: u8) -> Option<Fault> {
    let ports = (frame.kind == PORTS).then(|| frame.bytes.get(4..12)).flatten()?;
    if ports.iter().all(|&x| x == UNUSED) {
        return Some((4, None, "all eight ports are unused".into()));
    }
    let p = ports.iter().position(|&x| x != UNUSED && x >= v)?;
    Some((4 + p, None, format!("port {p} is variable {}, and V is {v}", ports[p])))
}

// The ports that a segment names.
fn ports_named(frame: &Frame) -> Vec<u32> {
    let mut named: Vec<u32> = Vec::new();
    if let Some(c) = closer(frame).filter(|c| c[0] != 0) {
        named.push(c[8].into());
    }
    for (_, _, operation, a, b) in frame.statements() {
        match operation {
            1 | 2 => named.push(a.into()),
            3..=5 => named.extend([a.into(), b]),
            _ => {}
        }
    }
    named.into_iter().filter(|x| (128..136).contains(x)).map(|x| x - 128).collect()
}

// Of each segment, whether next segments lead to it from the first.
fn reached(segments: &[&Frame], first: usize) -> Vec<bool> {
    let mut seen = vec![false; segments.len()];
    let mut due = vec![first];
    while let Some(s) = due.pop() {
        if s < seen.len() && !seen[s] {
            seen[s] = true;
            if let Some(c) = closer(segments[s]).filter(|c| c[0] != 0) {
                due.extend([usize::from(c[6]), usize::from(c[7])]);
            }
        }
    }
    seen
}

fn lacking_port(frames: &Frames) -> Option<Place> {
    let segments: Vec<&Frame> = frames.all.iter().filter(|frame| frame.kind == SEGMENT).collect();
    for (i, thread) in frames.all.iter().enumerate().filter(|(_, frame)| frame.kind == THREAD && frame.bytes.len() > 4) {
        let ports = frames.all.get(i + 1).filter(|next| next.kind == PORTS);
        let used = |p: u32| ports.is_some_and(|record| record.bytes.get(4 + p as usize).is_some_and(|&x| x != UNUSED));
        let seen = reached(&segments, usize::from(thread.bytes[4]));
        for segment in segments.iter().filter(|segment| seen[segment.number]) {
            if let Some(p) = ports_named(segment).into_iter().find(|&p| !used(p)) {
                let what = format!("it reaches segment {}, which names port {p}, and leaves that port unused", segment.number);
                return Some(of(thread, (0, None, what)));
            }
        }
    }
    None
}

#[cfg(test)]
mod tests {
    use super::*;

    // Case 1: a head, a segment that ends, a thread, an end.
    fn small() -> Vec<u8> {
        let mut file = vec![10, 0, 1, 0, 10, 0, 0, 0, 0, 0, 17, 0, 2, 0];
        file.extend([0; 13]);
        file.extend([5, 0, 3, 0, 0, 4, 0, 4, 0]);
        file
    }

    fn text(file: &[u8], number: u8) -> String {
        place(file, number).map_or("place not found".into(), |place| place.to_string())
    }

    #[test]
    fn nothing_is_wrong_with_a_legal_file() {
        for number in 0..=255 {
            assert_eq!(place(&small(), number), None, "{number}");
        }
    }

    #[test]
    fn a_place_has_its_record_and_byte() {
        let mut file = small();
        file[31] = 1;
        assert_eq!(text(&file, 8), "record 2 (thread 0), byte 31: first segment 1, and N is 1");
        file.push(0);
        assert_eq!(text(&file, 9), "record 4 (after the end), byte 36: 1 more, and nothing may follow the end record");
        assert_eq!(text(&file[..33], 1), "record 3 (cut off), byte 32: 1 left, and a record's head has 4 bytes");
        assert_eq!(text(&[], 1), "record 0 (missing), byte 0: the bytes end here, and no end record has come");
        file[4] = 0;
        assert_eq!(text(&file, 4), "record 0 (head), byte 4: horizon H = 0, and it must be 1 to 1,000,000,000");
    }

    #[test]
    fn a_statement_has_its_number() {
        let mut file = small();
        file[10] = 23;
        file.splice(27..27, [1, 200, 0, 0, 0, 0]);
        assert_eq!(text(&file, 7), "record 1 (segment 0), byte 28, statement 0: variable 200, and V is 0");
        assert_eq!(text(&file, 6), "place not found");
    }
}
