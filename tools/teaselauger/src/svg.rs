//! A run as a picture: a lane for each thread, a column for each cycle, and the log's fill below. Columns stand side by side whatever time
//! lies between them; what is notified in a cycle goes up and down in the gap after its column, to the next delta, where it is heard.
use crate::layout::{Layout, BOX, LANE, MARGIN, SMALL, TEXT};
use crate::model::{Closer, Model};
use crate::names::Names;
use crate::picture::{text_width, Picture};
use crate::records::{Cycle, Standing};
use crate::steps::{Run, Step};
use crate::trace::{cycle_text, pieces};
use std::collections::BTreeMap;

/// The colours of lanes, segments and lines.
const STYLE: &str = "\
text { fill: #222; pointer-events: none; }
.paper { fill: #fff; }
.lane { fill: #f5f6f8; }
.lane.odd { fill: #fff; }
.time { stroke: #d5d9e0; stroke-width: 1; }
.segment { fill: #d6e6f7; stroke: #35679a; stroke-width: 1; }
.early { fill: #ffdca3; stroke: #b96a00; stroke-width: 1.6; }
.wait { stroke: #7c8696; stroke-width: 1.4; }
.event { stroke: #7c8696; stroke-width: 1.4; stroke-dasharray: 3 3; }
.stop { fill: #444; }
.overrun { stroke: #c01818; stroke-width: 1.8; fill: none; }
.bus { stroke-width: 1.4; fill: none; }
.nobody { stroke: #555; stroke-width: 1.2; }
.lost { stroke: #555; stroke-width: 1.2; fill: #fff; }
.bar { fill: #8fa3bd; }
.axis { stroke: #aab2bf; stroke-width: 1; }
.faint { fill: #666; }
";

/// What the picture is drawn of.
struct View<'a> {
    model: &'a Model,
    names: &'a Names,
    run: &'a Run,
    layout: Layout,
    /// The steps of the columns, by stamp.
    steps: Vec<&'a Step>,
}

pub fn text(model: &Model, names: &Names, run: &Run, title: &str, window: (Option<u64>, Option<u64>)) -> String {
    let layout = Layout::of(model, names, run, window);
    let mut steps: Vec<&Step> = run.steps.iter().filter(|step| layout.column(step.cycle).is_some()).collect();
    steps.sort_by_key(|step| (step.cycle, step.thread));
    let view = View { model, names, run, layout, steps };
    let mut picture = Picture::default();
    picture.rect("paper", (0.0, 0.0), view.layout.size());
    view.titles(&mut picture, title);
    view.lanes(&mut picture);
    view.columns(&mut picture);
    view.waits(&mut picture);
    view.notifications(&mut picture);
    view.segments(&mut picture);
    view.log(&mut picture);
    view.legend(&mut picture);
    picture.file(view.layout.size(), title, STYLE)
}

/// The colour of an event, as different from those beside it as can be.
fn colour(event: u32) -> String {
    const FIRST: [&str; 8] = ["#0a7d4f", "#a3259c", "#c2410c", "#1d4ed8", "#7a6a00", "#be123c", "#0e7490", "#6d28d9"];
    match FIRST.get(event as usize) {
        Some(colour) => colour.to_string(),
        None => format!("hsl({}, 70%, 35%)", event * 137 % 360),
    }
}

fn stroke(event: u32) -> String {
    format!(" style=\"stroke: {}\"", colour(event))
}

impl View<'_> {
    fn titles(&self, picture: &mut Picture, title: &str) {
        let most = ((self.layout.size().0 - 2.0 * MARGIN) / text_width("x", TEXT + 2.0)) as usize;
        let skipped = title.chars().count().saturating_sub(most.saturating_sub(2));
        let shown: String =
            if skipped > 0 { format!("..{}", title.chars().skip(skipped).collect::<String>()) } else { title.into() };
        picture.text("title", (MARGIN, MARGIN + 12.0), TEXT + 2.0, "start", &shown);
        picture.text("said faint", (MARGIN, MARGIN + 30.0), TEXT, "start", &self.layout.said);
        let ending = self.run.ending.trim_end();
        picture.text("said faint", (MARGIN, MARGIN + 46.0), TEXT, "start", ending);
    }

    fn lanes(&self, picture: &mut Picture) {
        let (left, right) = (self.layout.left, self.layout.right());
        for (k, name) in self.layout.threads.iter().enumerate() {
            let top = self.layout.lane(k);
            picture.rect(if k % 2 == 0 { "lane" } else { "lane odd" }, (MARGIN, top), (right - MARGIN, LANE));
            picture.text("name", (left - 8.0, top + LANE / 2.0 + 4.0), TEXT, "end", name);
        }
    }

    // The times and deltas above the lanes, and a line before each time.
    fn columns(&self, picture: &mut Picture) {
        let top = self.layout.top();
        picture.text("axis-name faint", (self.layout.left - 8.0, top - 20.0), SMALL, "end", "time");
        picture.text("axis-name faint", (self.layout.left - 8.0, top - 7.0), SMALL, "end", "delta");
        let mut before = None;
        for (i, &(time, delta)) in self.layout.cycles.iter().enumerate() {
            let middle = self.layout.x(i) + self.layout.width / 2.0;
            if before != Some(time) {
                let x = self.layout.x(i) - 4.0;
                picture.line("time", (x, top - 30.0), (x, self.layout.bottom()), "");
                picture.text("time-label", (middle, top - 20.0), SMALL, "middle", &time.to_string());
            }
            picture.text("delta-label faint", (middle, top - 7.0), SMALL, "middle", &delta.to_string());
            before = Some(time);
        }
    }

    // The line of a thread from a segment to the next one, by what it waits for.
    fn waits(&self, picture: &mut Picture) {
        for k in 0..self.layout.threads.len() {
            let own: Vec<&&Step> = self.steps.iter().filter(|step| step.thread == k).collect();
            let mut from = self.before_window(k);
            for step in own {
                let Some(column) = self.layout.column(step.cycle) else { continue };
                if let Some((x, class)) = from {
                    self.wait(picture, k, class, x, self.layout.x(column));
                }
                from = self.after(picture, step, self.layout.x(column) + self.layout.width);
            }
            if let Some((x, class)) = from {
                self.wait(picture, k, class, x, self.layout.right());
            }
        }
    }

    fn wait(&self, picture: &mut Picture, k: usize, class: &str, from: f64, to: f64) {
        let y = self.layout.middle(k);
        picture.line(class, (from, y), (to, y), "");
    }

    // A wait that began before the first column.
    fn before_window(&self, k: usize) -> Option<(f64, &'static str)> {
        let first = *self.layout.cycles.first()?;
        let before = self.run.steps.iter().filter(|step| step.thread == k && step.cycle < first).max_by_key(|step| step.cycle)?;
        Some((self.layout.left, self.class(before)?))
    }

    // How a thread's line goes on after a segment; none if the thread is done, which is marked.
    fn after(&self, picture: &mut Picture, step: &Step, x: f64) -> Option<(f64, &'static str)> {
        let y = self.layout.middle(step.thread);
        let class = self.class(step);
        match (class, step.after.standing) {
            (None, Standing::Ended) => picture.rect("stop", (x + 2.0, y - 4.0), (4.0, 8.0)),
            (None, _) => picture.cross("overrun", (x + 5.0, y)),
            _ => {}
        }
        class.map(|class| (x, class))
    }

    // By the closer; none if the thread ends there, or is overrun by a wait of 0.
    fn class(&self, step: &Step) -> Option<&'static str> {
        match self.model.segments[step.segment].closer {
            Closer::End => None,
            Closer::Time { .. } if step.after.standing == Standing::Overrun => None,
            Closer::Time { .. } => Some("wait"),
            Closer::Event { .. } => Some("event"),
        }
    }

    fn notifications(&self, picture: &mut Picture) {
        let mut heard: BTreeMap<(Cycle, u32), Vec<(usize, bool)>> = BTreeMap::new();
        for heard_now in self.run.steps.iter().flat_map(|step| &step.heard) {
            heard.entry((heard_now.of, heard_now.event)).or_default().push((heard_now.thread, heard_now.overrun));
        }
        for (i, &cycle) in self.layout.cycles.iter().enumerate() {
            for (slot, &event) in self.layout.slots[i].iter().enumerate() {
                let notifies = |step: &&&Step| step.cycle == cycle && self.notified(step).contains(&event);
                let from: Vec<usize> = self.steps.iter().filter(notifies).map(|step| step.thread).collect();
                self.notification(picture, (i, slot), event, &from, &heard[&(cycle, event)]);
            }
        }
        for step in &self.steps {
            self.lost(picture, step);
        }
    }

    fn notified(&self, step: &Step) -> Vec<u32> {
        self.model.segments[step.segment].notified()
    }

    // One mark for all that a segment notifies and nobody hears.
    fn lost(&self, picture: &mut Picture, step: &Step) {
        let Some(column) = self.layout.column(step.cycle) else { return };
        let heard = &self.layout.slots[column];
        if self.notified(step).iter().any(|event| !heard.contains(event)) {
            let (x, y) = (self.layout.slot(column, heard.len()), self.layout.middle(step.thread) + 10.0);
            picture.line("nobody", (self.layout.x(column) + self.layout.width, y), (x, y), "");
            picture.circle("lost", (x, y), 2.5, "");
        }
    }

    // Those who notify an event in a cycle, and those who hear it, joined in the gap after the cycle's column.
    fn notification(&self, picture: &mut Picture, place: (usize, usize), event: u32, from: &[usize], to: &[(usize, bool)]) {
        let (column, slot) = place;
        let (x, style) = (self.layout.slot(column, slot), stroke(event));
        let y = |k: usize| self.layout.middle(k) + [-7.0, 7.0, -4.0, 4.0][slot % 4];
        for &k in from {
            picture.line("bus", (self.layout.x(column) + self.layout.width, y(k)), (x, y(k)), &style);
        }
        let ends = || from.iter().copied().chain(to.iter().map(|hearer| hearer.0)).map(y);
        let (high, low) = (ends().fold(f64::MAX, f64::min), ends().fold(f64::MIN, f64::max));
        picture.line("bus", (x, high), (x, low), &style);
        let right = self.layout.x(column + 1);
        for &(k, overrun) in to {
            picture.line("bus", (x, y(k)), (right - 4.0, y(k)), &style);
            picture.head((right, y(k)), &format!(" style=\"fill: {}\"", colour(event)));
            if overrun {
                picture.cross("overrun", (right + 6.0, self.layout.middle(k)));
            }
        }
    }

    fn segments(&self, picture: &mut Picture) {
        for step in &self.steps {
            let Some(column) = self.layout.column(step.cycle) else { continue };
            let (x, top) = (self.layout.x(column), self.layout.middle(step.thread) - BOX / 2.0);
            let what = [
                format!("{} {} at {}", self.names.threads[step.thread], self.names.segments[step.segment], cycle_text(step.cycle)),
                format!("grant {}{}", step.number, if step.early { ", early" } else { "" }),
            ];
            let told: Vec<String> = what.into_iter().chain(pieces(self.model, self.names, step)).collect();
            let class = if step.early { "segment early" } else { "segment" };
            picture.told_rect(class, (x, top), (self.layout.width, BOX), &told.join("; "));
            let middle = x + self.layout.width / 2.0;
            picture.text("what", (middle, top + 12.0), TEXT, "middle", &self.layout.segments[step.segment]);
            picture.text("grant faint", (middle, top + 23.0), SMALL, "middle", &step.number.to_string());
        }
    }

    // For each cycle the most places that were in use right after a grant of it.
    fn log(&self, picture: &mut Picture) {
        let (base, high) = (self.layout.log_base(), self.layout.log_height());
        let fill = |cycle: Cycle| self.steps.iter().filter(|step| step.cycle == cycle).map(|step| step.log).max().unwrap_or(0);
        let fills: Vec<usize> = self.layout.cycles.iter().map(|&cycle| fill(cycle)).collect();
        let top = fills.iter().copied().max().unwrap_or(0).max(8);
        picture.text("name", (self.layout.left - 8.0, base - 2.0), TEXT, "end", "log");
        picture.line("axis", (self.layout.left, base), (self.layout.right(), base), "");
        for (i, &count) in fills.iter().enumerate() {
            let height = high * count as f64 / top as f64;
            let x = self.layout.x(i);
            picture.rect("bar", (x + self.layout.width * 0.25, base - height), (self.layout.width * 0.5, height));
            picture.text("fill faint", (x + self.layout.width / 2.0, base - height - 3.0), SMALL, "middle", &count.to_string());
        }
    }

    fn legend(&self, picture: &mut Picture) {
        for (x, y, item) in self.layout.legend_places() {
            let mark = (x, y - 4.0);
            match item.mark {
                Mark::Box(class) => picture.rect(class, (x, y - 10.0), (18.0, 12.0)),
                Mark::Line(class) => picture.line(class, mark, (x + 18.0, y - 4.0), ""),
                Mark::Stop => picture.rect("stop", (x + 7.0, y - 8.0), (4.0, 8.0)),
                Mark::Cross => picture.cross("overrun", (x + 9.0, y - 4.0)),
                Mark::Lost => picture.circle("lost", (x + 9.0, y - 4.0), 2.5, ""),
                Mark::Event(event) => {
                    picture.line("bus", mark, (x + 14.0, y - 4.0), &stroke(event));
                    picture.head((x + 18.0, y - 4.0), &format!(" style=\"fill: {}\"", colour(event)));
                }
                Mark::Bar => picture.rect("bar", (x + 5.0, y - 10.0), (8.0, 12.0)),
            }
            picture.text("legend", (x + 24.0, y), SMALL, "start", &item.text);
        }
    }
}

/// What stands before an entry of the legend.
#[derive(Clone, Copy)]
pub enum Mark {
    Box(&'static str),
    Line(&'static str),
    Stop,
    Cross,
    Lost,
    Event(u32),
    Bar,
}

pub struct Entry {
    pub mark: Mark,
    pub text: String,
}
