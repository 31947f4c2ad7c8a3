//! `build`: a text to a model file. The bytes are the proved writer's, and so is the number of a model that breaks the rules; the line and
//! column of such a number are looked for here.
use crate::arguments::{Arguments, Known};
use crate::failure::{Failure, Status};
use crate::files;
use crate::language::{self, Close, Text};
use crate::meaning::meaning;
use crate::model::Model;
use crate::names::Names;
use crate::resolve::resolve;
use crate::words::{At, TextError};
use std::io::Write;
use teaselauger::Refused;

pub const HELP: &str = "\
teaselauger build TEXT [-o OUT]

Makes the model file of a text, on standard output or in OUT. Nothing is written if the text is refused; what is wrong is
said with its line and column. TEXT may be - for standard input. A text has these lines, names being letters, digits and _:

    horizon 1261                      the last time at which anything runs
    variables count total             32 bits each, from 0 on
    events tick
    ports counter                     at most eight: each thread says which variable its port is
    segment poll                      its statements, a line each, and then its closer
        count = 5                     or  count = total
        count += 1                    or  count += total,  count -= total
        notify tick
        wait 10 then poll             or  wait 10 then poll if count < 126 else stop
        wait for tick then show       the same, with or without a test
        end
    thread poller starts at poll
    thread loop starts at tally with counter = count

Names are parted by spaces; what follows a # is a comment. Variables, events, ports, segments and threads are numbered as they
stand, the first being 0; lines of variables, events and ports go on from one another. A file holds no names.
";

pub const OPTIONS: [Known; 1] = [("-o", true)];

pub fn command(arguments: &Arguments, out: &mut dyn Write) -> Result<Status, Failure> {
    let path = arguments.only("TEXT")?;
    let built = build(path)?;
    files::write(arguments.value("-o").unwrap_or("-"), &built.file, out)?;
    Ok(Status::Done)
}

pub struct Built {
    pub file: Vec<u8>,
    pub names: Names,
}

/// The model file of a text, with the names that the text gives.
pub fn build(path: &str) -> Result<Built, Failure> {
    let bytes = files::read(path)?;
    let failed = |error: TextError| Failure::Refused(format!("{path}: {error}"));
    let source = std::str::from_utf8(&bytes).map_err(|error| failed(not_utf8(&bytes, error.valid_up_to())))?;
    of_text(source).map_err(failed)
}

fn not_utf8(bytes: &[u8], at: usize) -> TextError {
    let before = String::from_utf8_lossy(&bytes[..at]);
    let line = before.matches('\n').count() + 1;
    let column = before.rsplit('\n').next().unwrap_or("").chars().count() + 1;
    TextError { at: At { line, column }, what: "this is no text (UTF-8)".into() }
}

pub fn of_text(source: &str) -> Result<Built, TextError> {
    let text = language::read(source)?;
    let (model, names) = resolve(&text)?;
    match model.drawing().save() {
        Ok(file) => Ok(Built { file, names }),
        Err(refused) => Err(TextError { at: place(&text, &model, refused), what: format!("{refused}: {}", meaning(refused.0)) }),
    }
}

// Where in the text the number of refusal belongs; its end, if nowhere else.
fn place(text: &Text, model: &Model, refused: Refused) -> At {
    let found = match refused.0 {
        3 => text.segments.iter().find_map(|segment| segment.actions.get(32)).map(|action| action.0),
        4 => Some(out_of_range(text)),
        5 => text.segments.iter().find_map(|segment| match segment.close {
            Some((at, Close::Time(delay, _))) if delay > 1_000_000_000 => Some(at),
            _ => None,
        }),
        18 => lacking_port(text, model),
        _ => None,
    };
    found.unwrap_or(text.end)
}

fn out_of_range(text: &Text) -> At {
    let past = [text.variables.get(64), text.events.get(32)];
    let horizon = text.horizon.0;
    match past.into_iter().flatten().next() {
        _ if horizon == 0 || horizon > 1_000_000_000 => text.horizon.1,
        Some(named) => named.at,
        None => text
            .segments
            .get(64)
            .map(|segment| segment.name.at)
            .or(text.threads.get(32).map(|thread| thread.name.at))
            .unwrap_or(text.end),
    }
}

// The first thread without which the model would be accepted up to it: the library is asked for the threads up to each.
fn lacking_port(text: &Text, model: &Model) -> Option<At> {
    let upto = |k: usize| Model { threads: model.threads[..=k].to_vec(), ..model.clone() };
    let k = (0..model.threads.len()).find(|&k| upto(k).drawing().save() == Err(Refused(18)))?;
    Some(text.threads[k].name.at)
}

#[cfg(test)]
mod tests {
    use super::*;
    use crate::show::text as shown;
    use teaselauger::Drawing;

    fn fails(source: &str) -> String {
        of_text(source).err().map_or("built".into(), |error| error.to_string())
    }

    const SITE: &str = "horizon 9\nvariables a b\nevents e\nports p q\nsegment s\n    a += 1\n    p = b\n    q -= a\n    notify e\n    wait 0 then s if p < 3 else s\nthread t starts at s with q = b, p = a\n";

    #[test]
    fn what_is_shown_is_built_again() {
        let built = of_text(SITE).unwrap();
        let model = Model::of(&Drawing::open(&built.file).unwrap());
        assert_eq!(of_text(&shown(&model, &built.names)).unwrap().file, built.file);
        let canonical = shown(&model, &Names::canonical(&model));
        assert!(canonical.contains("    p1 -= v0\n    notify e0\n    wait 0 then s0 if p0 < 3 else s0\n"), "{canonical}");
        let again = of_text(&canonical).unwrap();
        assert_eq!((again.file, again.names), (built.file, Names::canonical(&model)));
    }

    #[test]
    fn what_is_wrong_has_its_line_and_column() {
        for (from, to, said) in [
            ("a += 1", "a + 1", "line 6, column 7: '+' is no sign of the language"),
            ("a += 1", "c += 1", "line 6, column 5: no variable or port is called c"),
            ("a += 1", "a -= 1", "line 6, column 10: a variable can be subtracted, and no number; add 4294967296 less the number"),
            ("a += 1", "a += 4294967296", "line 6, column 10: 4294967296 is above 4,294,967,295"),
            ("notify e", "notify f", "line 9, column 12: no event is called f"),
            ("notify e", "notify e e", "line 9, column 14: the line should end here"),
            ("then s if", "to s if", "line 10, column 12: 'then' is missing"),
            ("else s\n", "else\n", "line 10, column 32: the name of the next segment is missing"),
            ("else s\n", "else s\n  a = 1\n", "line 11, column 3: segment s has its closer already, and nothing follows it"),
            (
                "    wait 0 then s if p < 3 else s\n",
                "",
                "line 10, column 1: segment s has no closer before this: 'wait ..' or 'end'",
            ),
            ("variables a b", "variables a a", "line 2, column 13: a second variable or port is called a"),
            ("ports p q", "ports p a", "line 4, column 9: a second variable or port is called a"),
            ("q = b", "p = b", "line 11, column 34: port p is given twice"),
            ("starts at s", "starts at r", "line 11, column 20: no segment is called r"),
            ("horizon 9\n", "", "line 10, column 39: the text has no line 'horizon'"),
            ("horizon 9", "horizon 9\nhorizon 9", "line 2, column 1: a second line 'horizon'"),
            ("segment s\n", "", "line 5, column 5: a statement or closer stands outside of a segment"),
            ("events e", "events end", "line 3, column 8: 'end' is a word of the language, and here an event is named"),
            ("ports p q", "ports p q r1 r2 r3 r4 r5 r6 r7", "line 4, column 29: a thread has eight ports, and this is a ninth"),
        ] {
            assert!(SITE.contains(from));
            assert_eq!(fails(&SITE.replacen(from, to, 1)), said, "{to}");
        }
    }

    #[test]
    fn what_the_library_refuses_has_its_line_and_column() {
        let many = |word: &str, n: usize| (0..n).map(|i| format!("{word}{i}")).collect::<Vec<_>>().join(" ");
        for (from, to, said) in [
            ("horizon 9", "horizon 0".to_string(), "line 1, column 9: refused 4"),
            ("a b\n", format!("a b\nvariables {}\n", many("c", 63)), "line 3, column 249: refused 4"),
            ("events e", format!("events e\nevents {}", many("f", 32)), "line 4, column 122: refused 4"),
            ("notify e\n", "notify e\n".repeat(30), "line 38, column 1: refused 3"),
            ("wait 0", "wait 1000000001".into(), "line 10, column 10: refused 5"),
            (" with q = b, p = a", "".into(), "line 11, column 8: refused 18"),
            ("q = b, p = a\n", "q = b, p = a\nthread u starts at s with p = a\n".into(), "line 12, column 8: refused 18"),
            ("thread t starts at s with q = b, p = a\n", "".into(), "line 10, column 34: refused 2"),
        ] {
            let text = SITE.replacen(from, &to, 1);
            assert!(text != SITE && fails(&text).starts_with(said), "{}", fails(&text));
        }
    }
}
