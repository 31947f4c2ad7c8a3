//! Where things stand in the picture of a run. Every width follows from what is to be written, so that nothing overlaps.
use crate::model::Model;
use crate::names::Names;
use crate::picture::text_width;
use crate::records::Cycle;
use crate::steps::Run;
use crate::svg::{Entry, Mark};
use crate::trace::cycle_text;
use std::collections::{BTreeMap, BTreeSet};

pub const MARGIN: f64 = 16.0;
pub const LANE: f64 = 38.0;
pub const BOX: f64 = 28.0;
pub const TEXT: f64 = 11.0;
pub const SMALL: f64 = 9.0;

const TITLES: f64 = 58.0;
const AXIS: f64 = 36.0;
const LOG: f64 = 62.0;
const ROW: f64 = 18.0;
const GAP: f64 = 22.0;
const SLOT: f64 = 6.0;
const END: f64 = 14.0;
/// The columns that are shown where no window is given fit into this width, as far as one does.
const WIDE: f64 = 1180.0;
const NARROWEST: f64 = 760.0;
/// In a window that is given.
const MOST_COLUMNS: usize = 2000;
const LONGEST_NAME: usize = 18;

pub struct Layout {
    pub cycles: Vec<Cycle>,
    /// The events that are notified in each cycle and heard.
    pub slots: Vec<Vec<u32>>,
    /// Where each column begins, and where the one after the last would.
    starts: Vec<f64>,
    pub left: f64,
    /// Of a segment's box.
    pub width: f64,
    /// Which cycles are shown.
    pub said: String,
    pub segments: Vec<String>,
    pub threads: Vec<String>,
    legend: Vec<Entry>,
}

// A name, or its beginning where it is long; the title of a box has the whole.
fn fitted(names: &[String]) -> Vec<String> {
    let fit = |name: &String| if name.len() > LONGEST_NAME { format!("{}..", &name[..LONGEST_NAME - 2]) } else { name.clone() };
    names.iter().map(fit).collect()
}

fn widest(texts: impl Iterator<Item = String>, size: f64) -> f64 {
    texts.map(|text| text_width(&text, size)).fold(0.0, f64::max)
}

/// A cycle in which a segment ran.
struct Column {
    cycle: Cycle,
    /// The events that are notified in it and heard.
    heard: Vec<u32>,
    /// Whether one is notified that nobody hears.
    lost: bool,
}

// All of them, in order.
fn all_columns(model: &Model, run: &Run) -> Vec<Column> {
    let mut heard: BTreeMap<Cycle, BTreeSet<u32>> = BTreeMap::new();
    for of in run.steps.iter().flat_map(|step| &step.heard) {
        heard.entry(of.of).or_default().insert(of.event);
    }
    let mut notified: BTreeMap<Cycle, BTreeSet<u32>> = BTreeMap::new();
    for step in &run.steps {
        notified.entry(step.cycle).or_default().extend(model.segments[step.segment].notified());
    }
    let none = BTreeSet::new();
    let column = |(cycle, notified): (Cycle, BTreeSet<u32>)| {
        let heard = heard.get(&cycle).unwrap_or(&none);
        Column { cycle, lost: !notified.is_subset(heard), heard: heard.iter().copied().collect() }
    };
    notified.into_iter().map(column).collect()
}

impl Layout {
    pub fn of(model: &Model, names: &Names, run: &Run, window: (Option<u64>, Option<u64>)) -> Layout {
        let all = all_columns(model, run);
        let (from, to) = (window.0.unwrap_or(0), window.1.unwrap_or(u64::MAX));
        let inside: Vec<&Column> = all.iter().filter(|column| (from..=to).contains(&column.cycle.0)).collect();
        let (segments, threads) = (fitted(&names.segments), fitted(&names.threads));
        let left = MARGIN + widest(threads.iter().cloned(), TEXT).max(text_width("delta", TEXT)).ceil() + 16.0;
        let labels = widest(inside.iter().take(MOST_COLUMNS).map(|column| column.cycle.0.to_string()), SMALL);
        let width = widest(segments.iter().cloned(), TEXT).max(labels).max(22.0).ceil() + 10.0;
        let mut layout = Layout {
            cycles: vec![],
            slots: vec![],
            starts: vec![left + 10.0],
            left,
            width,
            said: String::new(),
            segments,
            threads,
            legend: vec![],
        };
        for column in inside.iter().take(MOST_COLUMNS) {
            let slots = column.heard.len() + usize::from(column.lost);
            let next = layout.right() + width + GAP + SLOT * slots as f64;
            if window == (None, None) && next > WIDE && !layout.cycles.is_empty() {
                break;
            }
            layout.cycles.push(column.cycle);
            layout.slots.push(column.heard.clone());
            layout.starts.push(next);
        }
        layout.said = layout.said(inside.len(), all.len(), window);
        layout.legend = layout.legend(names);
        layout
    }

    fn said(&self, inside: usize, all: usize, window: (Option<u64>, Option<u64>)) -> String {
        let shown = self.cycles.len();
        let (Some(&first), Some(&last)) = (self.cycles.first(), self.cycles.last()) else {
            return format!("no segment ran in this window; the run has {all} cycles");
        };
        let which = match (window, shown == inside) {
            _ if shown == all => format!("all {all} cycles of the run"),
            ((None, None), _) => format!("the first {shown} of {all} cycles; --from and --to show others"),
            (_, true) => format!("{shown} of the run's {all} cycles"),
            (_, false) => format!("the first {shown} of the window's {inside} cycles"),
        };
        format!("{} to {}: {which}", cycle_text(first), cycle_text(last))
    }

    fn legend(&self, names: &Names) -> Vec<Entry> {
        let entry = |mark: Mark, text: &str| Entry { mark, text: text.into() };
        let mut all = vec![
            entry(Mark::Box("segment"), "a segment, with the number of its grant"),
            entry(Mark::Box("segment early"), "granted early, ahead of a slower thread"),
            entry(Mark::Line("wait"), "waits for time"),
            entry(Mark::Line("event"), "waits for an event"),
            entry(Mark::Stop, "ended"),
            entry(Mark::Cross, "overrun"),
            entry(Mark::Lost, "notified, heard by nobody"),
            entry(Mark::Bar, "places of the log in use, of 128"),
        ];
        let mut events: Vec<u32> = self.slots.iter().flatten().copied().collect();
        events.sort_unstable();
        events.dedup();
        let called = fitted(&names.events);
        all.extend(events.into_iter().map(|event| entry(Mark::Event(event), &format!("event {}", called[event as usize]))));
        all
    }

    pub fn column(&self, cycle: Cycle) -> Option<usize> {
        self.cycles.binary_search(&cycle).ok()
    }

    /// Where a column begins; after the last one, the end of the lanes' segments.
    pub fn x(&self, column: usize) -> f64 {
        self.starts[column]
    }

    /// The line of an event that is notified in a column's cycle; after those that are heard, of what nobody hears.
    pub fn slot(&self, column: usize, slot: usize) -> f64 {
        self.x(column) + self.width + 8.0 + SLOT * slot as f64
    }

    /// Where the lanes end.
    pub fn right(&self) -> f64 {
        self.starts.last().copied().unwrap_or(self.left)
    }

    pub fn top(&self) -> f64 {
        MARGIN + TITLES + AXIS
    }

    pub fn lane(&self, thread: usize) -> f64 {
        self.top() + LANE * thread as f64
    }

    pub fn middle(&self, thread: usize) -> f64 {
        self.lane(thread) + LANE / 2.0
    }

    /// Where the lanes end below.
    pub fn bottom(&self) -> f64 {
        self.lane(self.threads.len())
    }

    pub fn log_base(&self) -> f64 {
        self.bottom() + LOG
    }

    /// Of the fullest bar; its number stands above it.
    pub fn log_height(&self) -> f64 {
        LOG - 20.0
    }

    pub fn size(&self) -> (f64, f64) {
        let width = (self.right() + END + MARGIN).max(NARROWEST).max(2.0 * MARGIN + text_width(&self.said, TEXT));
        let rows = self.legend_places().last().map_or(0.0, |place| place.1);
        (width, rows + MARGIN)
    }

    /// The entries of the legend, each where its text stands, row by row.
    pub fn legend_places(&self) -> Vec<(f64, f64, &Entry)> {
        let right = (self.right() + END).max(NARROWEST - MARGIN);
        let (mut x, mut y) = (MARGIN, self.log_base() + 28.0);
        let mut places = Vec::new();
        for entry in &self.legend {
            let width = 24.0 + text_width(&entry.text, SMALL) + 18.0;
            if x + width > right && x > MARGIN {
                (x, y) = (MARGIN, y + ROW);
            }
            places.push((x, y, entry));
            x += width;
        }
        places
    }
}
