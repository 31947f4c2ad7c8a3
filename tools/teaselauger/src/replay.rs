//! `replay`: calls on a site, as `replayrun` prints them, or requests by an order until nothing is ready.
use crate::arguments::{Arguments, Known};
use crate::failure::{Failure, Status};
use crate::files::read_model;
use crate::model::Model;
use crate::order::Order;
use crate::player::{Granted, Player};
use crate::records::log_lines;
use std::io::Write;
use teaselauger::{Call, Drawing};

pub const HELP: &str = "\
teaselauger replay FILE CALL.. [--stats] [--most N]
teaselauger replay FILE --order least|most-ahead|random [--seed S] [--quiet] [--stats] [--most N]

Makes calls on a site, from its start on, and prints each answer as replayrun does: r THREAD granted SEGMENT TIME DELTA, or
r THREAD refused NUMBER; then the lines v, t and l for variables, threads and the log. A call is a thread's number for a
request, g and a number for a grant, f and a number for a finish.

With --order ready threads are asked until none is ready up to the horizon, between two grants each at most once: the one
that is least far first (least), the one that is farthest ahead first (most-ahead), or by chance (random; the seed is 1 if
not given). The last line says whether variables, threads and the number of segments equal those of the plain run. They do:
that is proved. If they did not, the exit status would be 1.

    --quiet     prints no answers
    --stats     prints how many calls were made, grants, how many were early (later than the floor), refusals by number
    --most N    makes at most N calls, 1,000,000 if not given, and says so where there were more

FILE may be - for standard input. Of a refused file it prints refused and the number.
";

pub const OPTIONS: [Known; 5] = [("--order", true), ("--seed", true), ("--quiet", false), ("--stats", false), ("--most", true)];
pub const MOST: u64 = 1_000_000;

pub fn command(arguments: &Arguments, out: &mut dyn Write) -> Result<Status, Failure> {
    let Some((path, calls)) = arguments.rest.split_first() else { return Err(Failure::Usage("FILE is missing".into())) };
    let order = Order::of(arguments)?;
    let most = arguments.number("--most")?.unwrap_or(MOST);
    let calls: Vec<Asked> = calls.iter().map(|text| asked(text)).collect::<Result<_, _>>()?;
    match (&order, calls.is_empty()) {
        (Some(_), false) => return Err(Failure::Usage("calls and --order do not go together".into())),
        (None, _) if arguments.has("--quiet") => return Err(Failure::Usage("--quiet goes with --order".into())),
        _ => {}
    }
    let file = read_model(path)?;
    let drawing = match Drawing::open(&file.bytes) {
        Ok(drawing) => drawing,
        Err(refused) => {
            writeln!(out, "{refused}")?;
            return Ok(Status::Refused);
        }
    };
    let model = Model::of(&drawing);
    let mut player = Player::new(&file.bytes, &model)?;
    let (ending, right) = match order {
        None => list(&mut player, &calls, most, out)?,
        Some(order) => by_order(&mut player, order, most, arguments.has("--quiet"), out)?,
    };
    if arguments.has("--stats") {
        write!(out, "{}", player.counts.lines())?;
    }
    write!(out, "{ending}")?;
    Ok(if right { Status::Done } else { Status::Refused })
}

/// A call as it was given: its letter, its thread's number, which may be any, and the call.
struct Asked {
    letter: char,
    label: u64,
    call: Call,
}

// A thread that no model has stands for every number above 255.
fn asked(text: &str) -> Result<Asked, Failure> {
    let (letter, digits) = match text.as_bytes().first() {
        Some(b'g') => ('g', &text[1..]),
        Some(b'f') => ('f', &text[1..]),
        _ => ('r', text),
    };
    let is_number = (1..=19).contains(&digits.len()) && digits.bytes().all(|byte| byte.is_ascii_digit());
    let Some(label) = digits.parse::<u64>().ok().filter(|_| is_number) else {
        return Err(Failure::Usage(format!("{text} is no call: a thread's number, or g or f and a number")));
    };
    let thread = u8::try_from(label).unwrap_or(u8::MAX);
    let call = match letter {
        'g' => Call::Grant(thread),
        'f' => Call::Finish(thread),
        _ => Call::Both(thread),
    };
    Ok(Asked { letter, label, call })
}

fn answer_line(letter: char, label: u64, answer: &Result<Granted, u8>) -> String {
    match answer {
        Ok(Granted { grant, .. }) => {
            let word = if letter == 'f' { "finished" } else { "granted" };
            format!("{letter} {label} {word} {} {} {}", grant.segment, grant.time, grant.delta)
        }
        Err(number) => format!("{letter} {label} refused {number}"),
    }
}

fn list(player: &mut Player, calls: &[Asked], most: u64, out: &mut dyn Write) -> Result<(String, bool), Failure> {
    for Asked { letter, label, call } in calls.iter().take(usize::try_from(most).unwrap_or(usize::MAX)) {
        let answer = player.call(*call);
        writeln!(out, "{}", answer_line(*letter, *label, &answer))?;
    }
    write!(out, "{}{}", player.site_lines(), log_lines(&player.state))?;
    let left = calls.len() as u64 - player.counts.calls;
    Ok((if left == 0 { String::new() } else { format!("stopped after {most} calls (--most); calls not made: {left}\n") }, true))
}

fn by_order(player: &mut Player, mut order: Order, most: u64, quiet: bool, out: &mut dyn Write) -> Result<(String, bool), Failure> {
    let end = player.play(&mut order, most, |_, thread, answer| {
        if !quiet {
            writeln!(out, "{}", answer_line('r', thread.into(), &answer))?;
        }
        Ok(())
    })?;
    write!(out, "{}{}", player.site_lines(), log_lines(&player.state))?;
    Ok(player.ending(end))
}
