//! Safe wrappers of the Teaselauger scheduler library. `docs/REFUSALS.md` has the numbers of refusal, `docs/RULES.md` every rule.
//!
//! The library itself uses words and a state as it is given them, of whatever model they are. Here a [`Site`] owns a file's bytes and
//! the words made of them (opened by rows it has none and needs none), a [`State`] knows its site and can be read but not written to, and
//! a call with a state of another site is [`RequestError::OtherSite`]. So every answer is one that demand 3 (`docs/RULES.md`, 8) speaks of.
//!
//! Every buffer is an array of the length that the library asks, so that a buffer that is too short (11 or 16) cannot be handed in.
//! The library holds no state: any thread may call it, on a stack of 256 KB or more.
//!
//! ```
//! let site = teaselauger::Site::new(&std::fs::read("../../models/m.model")?)?;
//! let mut state = site.fresh();
//! let grant = site.request(&mut state, 1)?;
//! assert_eq!((grant.segment, grant.time, grant.delta), (2, 0, 0));
//! # Ok::<(), Box<dyn std::error::Error>>(())
//! ```
//!
//! A request runs a segment at once. To run segments on several cores a thread is granted ([`Site::grant`]) and finished ([`Site::finish`])
//! apart: between the two it is running, and others can be granted. `examples/pool.rs` does so.
#![deny(unsafe_code)]
#![warn(missing_docs)]

#[allow(unsafe_code)]
mod calls;
#[cfg(test)]
mod tests;

use calls::{Kept, Words, ANSWER, FILE, HELD, LOG, MODEL, RECORDS, ROW, SHEET, VARIABLES};
use std::{error, fmt, sync::Arc};

/// A number of refusal, 1 to 19.
///
/// ```
/// assert_eq!(teaselauger::Refused(14).to_string(), "refused 14");
/// ```
#[derive(Clone, Copy, Debug, PartialEq, Eq)]
pub struct Refused(pub u8);

impl fmt::Display for Refused {
    fn fmt(&self, f: &mut fmt::Formatter) -> fmt::Result {
        write!(f, "refused {}", self.0)
    }
}

impl error::Error for Refused {}

fn checked(number: u8) -> Result<(), Refused> {
    if number == 0 {
        Ok(())
    } else {
        Err(Refused(number))
    }
}

/// Why a request or a grant was not granted, or a thread not finished. The state is as it was.
///
/// ```
/// use teaselauger::{RequestError, Refused, Site};
/// let site = Site::new(&std::fs::read("../../models/m.model")?)?;
/// assert_eq!(site.request(&mut site.fresh(), 2), Err(RequestError::Refused(Refused(10))));
/// # Ok::<(), Box<dyn std::error::Error>>(())
/// ```
#[derive(Clone, Copy, Debug, PartialEq, Eq)]
pub enum RequestError {
    /// The library refused it, with this number.
    Refused(Refused),
    /// The state belongs to a site of other bytes; the library was not called.
    OtherSite,
}

impl From<Refused> for RequestError {
    fn from(refused: Refused) -> RequestError {
        RequestError::Refused(refused)
    }
}

impl fmt::Display for RequestError {
    fn fmt(&self, f: &mut fmt::Formatter) -> fmt::Result {
        match self {
            RequestError::Refused(refused) => refused.fmt(f),
            RequestError::OtherSite => f.write_str("the state belongs to another site"),
        }
    }
}

impl error::Error for RequestError {}

/// A grant: the segment that is run, and its cycle. A finish answers that which was granted.
///
/// ```
/// let site = teaselauger::Site::new(&std::fs::read("../../models/m.model")?)?;
/// assert_eq!(site.request(&mut site.fresh(), 0)?, teaselauger::Grant { segment: 0, time: 0, delta: 0 });
/// # Ok::<(), Box<dyn std::error::Error>>(())
/// ```
#[derive(Clone, Copy, Debug, PartialEq, Eq)]
pub struct Grant {
    /// The segment.
    pub segment: u8,
    /// The time of its cycle.
    pub time: u64,
    /// The delta of its cycle.
    pub delta: u32,
}

// The library writes a segment and a delta that are in range.
fn grant(segment: u64, time: u64, delta: u64) -> Grant {
    Grant { segment: segment as u8, time, delta: delta as u32 }
}

// Of the five words of a list's answer, the first of which is the call's own.
fn answered(a: &[u64]) -> Result<Grant, Refused> {
    checked(a[1] as u8).map(|()| grant(a[2], a[3], a[4]))
}

/// A call of a list, of a thread. A thread's number alone is a request.
///
/// ```
/// use teaselauger::{Call, Site};
/// let site = Site::new(&std::fs::read("../../models/m.model")?)?;
/// assert_eq!(site.replay(&[Call::Grant(0), Call::Finish(0)]).1, site.replay(&[Call::Both(0)]).1);
/// assert_eq!(site.replay(&[Call::Both(0)]), site.replay(&[0]));
/// # Ok::<(), Box<dyn std::error::Error>>(())
/// ```
#[derive(Clone, Copy, Debug, PartialEq, Eq)]
pub enum Call {
    /// A request: a grant and its finish at once, as [`Site::request`].
    Both(u8),
    /// A grant, as [`Site::grant`].
    Grant(u8),
    /// A finish, as [`Site::finish`].
    Finish(u8),
}

impl From<u8> for Call {
    fn from(thread: u8) -> Call {
        Call::Both(thread)
    }
}

impl Call {
    // As the library has it in a list.
    fn word(self) -> u16 {
        match self {
            Call::Both(thread) => thread.into(),
            Call::Grant(thread) => 256 + u16::from(thread),
            Call::Finish(thread) => 512 + u16::from(thread),
        }
    }
}

/// Whether a model file keeps the rules.
///
/// ```
/// assert_eq!(teaselauger::read(&[]), Err(teaselauger::Refused(1)));
/// ```
pub fn read(file: &[u8]) -> Result<(), Refused> {
    checked(calls::read(file))
}

/// The sheet of a file's plain run with a budget, or the line of its refusal.
///
/// ```
/// let file = std::fs::read("../../models/case01.model")?;
/// assert_eq!(teaselauger::sheet(&file, 1_000_000), "t 0 0 ended 0 0\nn 1\n");
/// assert_eq!(teaselauger::sheet(&[], 1_000_000), "refused 1\n");
/// # Ok::<(), std::io::Error>(())
/// ```
pub fn sheet(file: &[u8], budget: u64) -> String {
    let mut out = [0; SHEET];
    let n = calls::sheet(file, budget, &mut out);
    out[..n].iter().map(|&byte| char::from(byte)).collect()
}

/// The number by which a statement or a test names port `p`, 0 to 7, in place of a variable: 128 to 135.
///
/// ```
/// assert_eq!((teaselauger::port(0), teaselauger::port(7)), (128, 135));
/// ```
pub const fn port(p: u32) -> u32 {
    assert!(p < 8, "a thread has ports 0 to 7");
    128 + p
}

/// The variable of a port that a thread leaves unused.
///
/// ```
/// let drawing = teaselauger::Drawing::open(&std::fs::read("../../models/m.model")?)?;
/// assert_eq!(drawing.ports(0), [teaselauger::UNUSED; 8]);
/// # Ok::<(), Box<dyn std::error::Error>>(())
/// ```
pub const UNUSED: u32 = 255;

/// A model as numbers, to be drawn, changed and saved: H, V, E, N, T; then 104 numbers for each segment (the closer's kind, event, delay,
/// A, B, test and limit, n, and 32 places of operation, a, b); then nine for each thread, its first segment and the variables of its ports
/// 0 to 7. `docs/MODEL-FILE.md` has the layout.
///
/// ```
/// let file = std::fs::read("../../models/m.model")?;
/// let mut drawing = teaselauger::Drawing::open(&file)?;
/// assert_eq!(drawing.numbers[..5], [1261, 3, 1, 4, 2]);
/// assert_eq!(drawing.save()?, file);
/// drawing.numbers[0] = 0;
/// assert_eq!(drawing.save(), Err(teaselauger::Refused(4)));
/// # Ok::<(), Box<dyn std::error::Error>>(())
/// ```
///
/// A third loop, on the code that two loops run already, with a counter of its own:
///
/// ```
/// use teaselauger::{sheet, Drawing, UNUSED};
/// let mut loops = Drawing::open(&std::fs::read("../../models/loops.model")?)?;
/// loops.numbers[1] += 1;
/// loops.add_thread(0, [2, UNUSED, UNUSED, UNUSED, UNUSED, UNUSED, UNUSED, UNUSED]);
/// assert!(sheet(&loops.save()?, 1_000_000).starts_with("v 0 2\nv 1 2\nv 2 2\n"));
/// # Ok::<(), Box<dyn std::error::Error>>(())
/// ```
#[derive(Clone, Debug, PartialEq, Eq)]
pub struct Drawing {
    /// The numbers, in their layout.
    pub numbers: Vec<u32>,
}

impl Drawing {
    /// The model of a file; the reader's number where it is refused.
    pub fn open(file: &[u8]) -> Result<Drawing, Refused> {
        let mut numbers = vec![0; MODEL];
        checked(calls::model(file, &mut numbers))?;
        let mut drawing = Drawing { numbers };
        drawing.numbers.truncate(drawing.thread(drawing.numbers[4]));
        Ok(drawing)
    }

    /// The model file, or the number of the first fault: 11 for fewer numbers than N and T ask for, then 2 to 7 and 17 in file order, then
    /// 8, then 18.
    pub fn save(&self) -> Result<Vec<u8>, Refused> {
        let mut out = vec![0; FILE];
        let (number, length) = calls::write(&self.numbers, &mut out);
        checked(number)?;
        out.truncate(length as usize);
        Ok(out)
    }

    // Where thread k stands.
    fn thread(&self, k: u32) -> usize {
        5 + 104 * self.numbers[3] as usize + 9 * k as usize
    }

    /// The variables of a thread's ports 0 to 7, [`UNUSED`] for an unused one. Panics where the numbers have no such thread.
    ///
    /// ```
    /// let loops = teaselauger::Drawing::open(&std::fs::read("../../models/loops.model")?)?;
    /// assert_eq!((loops.ports(0)[0], loops.ports(1)[0]), (0, 1));
    /// # Ok::<(), Box<dyn std::error::Error>>(())
    /// ```
    pub fn ports(&self, thread: u32) -> [u32; 8] {
        let p = self.thread(thread) + 1;
        self.numbers[p..p + 8].try_into().expect("eight ports")
    }

    /// Other variables for a thread's ports. Panics where the numbers have no such thread.
    ///
    /// ```
    /// let file = std::fs::read("../../models/loops.model")?;
    /// let mut loops = teaselauger::Drawing::open(&file)?;
    /// loops.set_ports(1, [teaselauger::UNUSED; 8]);
    /// assert_eq!(loops.save(), Err(teaselauger::Refused(18)));
    /// # Ok::<(), Box<dyn std::error::Error>>(())
    /// ```
    pub fn set_ports(&mut self, thread: u32, ports: [u32; 8]) {
        let p = self.thread(thread) + 1;
        self.numbers[p..p + 8].copy_from_slice(&ports);
    }

    /// One thread more, after the others: its first segment and the variables of its ports. What stands past the last thread goes.
    ///
    /// ```
    /// let mut loops = teaselauger::Drawing::open(&std::fs::read("../../models/loops.model")?)?;
    /// loops.add_thread(1, [teaselauger::UNUSED; 8]);
    /// assert!(teaselauger::sheet(&loops.save()?, 1_000_000).contains("t 2 1 ended 0 0\n"));
    /// # Ok::<(), Box<dyn std::error::Error>>(())
    /// ```
    pub fn add_thread(&mut self, first: u32, ports: [u32; 8]) {
        self.numbers.truncate(self.thread(self.numbers[4]));
        self.numbers.push(first);
        self.numbers.extend(ports);
        self.numbers[4] += 1;
    }
}

// By rows there are no words.
struct Opened {
    file: Box<[u8]>,
    words: Option<Box<Words>>,
}

/// A model file that was accepted, with its distance table or, for small machines, without it ([`Site::by_rows`]). A clone is the same
/// site and costs nothing.
///
/// Sites of equal bytes are equal, also where they were opened apart or the one by rows, and a state of the one is a state of the other:
/// the library keeps nothing between calls, its words follow from the bytes, and by rows it works out the same distances, so that both
/// give the same answers. Whoever opens a file once for each thread, or again later, expects to go on with the state at hand; to tell
/// the openings apart would refuse that and rule out no wrong answer.
///
/// ```
/// use teaselauger::Site;
/// let file = std::fs::read("../../models/m.model")?;
/// let (site, again) = (Site::new(&file)?, Site::new(&file)?);
/// assert!(site == again && again.request(&mut site.fresh(), 0).is_ok());
/// # Ok::<(), Box<dyn std::error::Error>>(())
/// ```
#[derive(Clone)]
pub struct Site(Arc<Opened>);

impl PartialEq for Site {
    fn eq(&self, other: &Site) -> bool {
        Arc::ptr_eq(&self.0, &other.0) || self.0.file == other.0.file
    }
}

impl Eq for Site {}

impl fmt::Debug for Site {
    fn fmt(&self, f: &mut fmt::Formatter) -> fmt::Result {
        write!(f, "Site({} bytes{})", self.0.file.len(), if self.0.words.is_some() { "" } else { ", by rows" })
    }
}

impl Site {
    /// Reads a model file and makes its tables.
    ///
    /// ```
    /// let refused = teaselauger::Site::new(&std::fs::read("../../models/refused7.model")?);
    /// assert_eq!(refused, Err(teaselauger::Refused(7)));
    /// # Ok::<(), std::io::Error>(())
    /// ```
    pub fn new(file: &[u8]) -> Result<Site, Refused> {
        let mut words = calls::no_words();
        checked(calls::load(file, &mut words))?;
        Ok(Site(Arc::new(Opened { file: file.into(), words: Some(words) })))
    }

    /// Reads a model file and makes no table: a call or a list works out one segment's distances at a time, when they are needed, in 512
    /// bytes of stack. A site of [`Site::new`] keeps 32,768 bytes, a list on it takes as many again while it is made, and requests on
    /// large sites are faster.
    ///
    /// ```
    /// use teaselauger::{Refused, Site};
    /// let file = std::fs::read("../../models/m.model")?;
    /// let (small, full) = (Site::by_rows(&file)?, Site::new(&file)?);
    /// assert_eq!(small.replay(&[1, 0, 0]), full.replay(&[1, 0, 0]));
    /// // The same bytes: a state goes from the one to the other.
    /// let mut state = full.fresh();
    /// assert!(small == full && small.request(&mut state, 1).is_ok() && full.request(&mut state, 0).is_ok());
    /// assert_eq!(Site::by_rows(&[]), Err(Refused(1)));
    /// # Ok::<(), Box<dyn std::error::Error>>(())
    /// ```
    pub fn by_rows(file: &[u8]) -> Result<Site, Refused> {
        checked(calls::load_by_rows(file, &[0; ROW]))?;
        Ok(Site(Arc::new(Opened { file: file.into(), words: None })))
    }

    // Of an accepted file, in buffers of full length, the library refuses neither a fresh state nor a list.
    fn state(&self, number: u8, kept: Box<Kept>) -> State {
        assert_eq!(number, 0, "an accepted file has a fresh state");
        State { site: self.clone(), kept }
    }

    /// The fresh state: every thread ready at (0, 0), every variable 0, nothing logged.
    ///
    /// ```
    /// let site = teaselauger::Site::new(&std::fs::read("../../models/m.model")?)?;
    /// assert_eq!(site.fresh().variables(), &[0; 64]);
    /// # Ok::<(), Box<dyn std::error::Error>>(())
    /// ```
    pub fn fresh(&self) -> State {
        let mut kept = Box::new(Kept::zero());
        self.state(calls::fresh(&self.0.file, &mut kept), kept)
    }

    /// One request by a thread, on a state of this site. If it is not granted the state is as it was.
    ///
    /// ```
    /// use teaselauger::{RequestError, Site};
    /// let open = |path| Ok::<_, Box<dyn std::error::Error>>(Site::new(&std::fs::read(path)?)?);
    /// let (site, other) = (open("../../models/case06.model")?, open("../../models/case07.model")?);
    /// let mut state = site.fresh();
    /// assert!(site.request(&mut state, 0).is_ok());
    /// assert_eq!(other.request(&mut state, 1), Err(RequestError::OtherSite));
    /// # Ok::<(), Box<dyn std::error::Error>>(())
    /// ```
    pub fn request(&self, state: &mut State, thread: u8) -> Result<Grant, RequestError> {
        self.call(state, Call::Both(thread))
    }

    /// A grant of a thread, on a state of this site: the values that its segment reads are fixed, and until [`Site::finish`] the thread is
    /// running. If it is not granted the state is as it was.
    ///
    /// ```
    /// use teaselauger::{RequestError, Refused, Site};
    /// let site = Site::new(&std::fs::read("../../models/m.model")?)?;
    /// let mut state = site.fresh();
    /// let grant = site.grant(&mut state, 0)?;
    /// assert_eq!(site.grant(&mut state, 0), Err(RequestError::Refused(Refused(19))));
    /// assert_eq!((state.variables()[0], site.finish(&mut state, 0)?), (0, grant));
    /// assert_eq!(state.variables()[0], 1);
    /// # Ok::<(), Box<dyn std::error::Error>>(())
    /// ```
    pub fn grant(&self, state: &mut State, thread: u8) -> Result<Grant, RequestError> {
        self.call(state, Call::Grant(thread))
    }

    /// The finish of a running thread, on a state of this site: what its segment writes is stored, and what it notifies is heard. Threads may
    /// be finished in any order. No other number than 10 and 19 refuses it, and then the state is as it was.
    ///
    /// ```
    /// use teaselauger::{RequestError, Refused, Site};
    /// let site = Site::new(&std::fs::read("../../models/loops.model")?)?;
    /// let mut state = site.fresh();
    /// assert_eq!(site.finish(&mut state, 0), Err(RequestError::Refused(Refused(19))));
    /// site.grant(&mut state, 0)?;
    /// site.grant(&mut state, 1)?;
    /// site.finish(&mut state, 1)?;
    /// site.finish(&mut state, 0)?;
    /// assert_eq!(state, site.replay(&[0, 1]).1);
    /// # Ok::<(), Box<dyn std::error::Error>>(())
    /// ```
    pub fn finish(&self, state: &mut State, thread: u8) -> Result<Grant, RequestError> {
        self.call(state, Call::Finish(thread))
    }

    /// A request, a grant or a finish.
    ///
    /// ```
    /// use teaselauger::{Call, Site};
    /// let site = Site::new(&std::fs::read("../../models/m.model")?)?;
    /// let (mut one, mut other) = (site.fresh(), site.fresh());
    /// assert_eq!(site.call(&mut one, Call::Grant(1)), site.grant(&mut other, 1));
    /// assert_eq!(one, other);
    /// # Ok::<(), Box<dyn std::error::Error>>(())
    /// ```
    pub fn call(&self, state: &mut State, call: Call) -> Result<Grant, RequestError> {
        if state.site != *self {
            return Err(RequestError::OtherSite);
        }
        let (file, kept, answer, row) = (&self.0.file, &mut state.kept, &mut [0; ANSWER], &mut [0; ROW]);
        checked(match (call, &self.0.words) {
            (Call::Both(thread), Some(words)) => calls::request(file, words, kept, thread, answer),
            (Call::Both(thread), None) => calls::request_by_rows(file, row, kept.lent(), thread, answer),
            (Call::Grant(thread), Some(words)) => calls::grant(file, words, kept.lent(), thread, answer),
            (Call::Grant(thread), None) => calls::grant_by_rows(file, row, kept.lent(), thread, answer),
            (Call::Finish(thread), Some(words)) => calls::finish(file, words, kept.lent(), thread, answer),
            (Call::Finish(thread), None) => calls::finish_by_rows(file, row, kept.lent(), thread, answer),
        })?;
        let [segment, time, delta] = *answer;
        Ok(grant(segment, time, delta))
    }

    /// A list of calls from the fresh state on, or of threads, each of which makes a request: each answer, and the state after the list.
    ///
    /// ```
    /// use teaselauger::Call::{Both, Finish, Grant};
    /// let site = teaselauger::Site::new(&std::fs::read("../../models/m.model")?)?;
    /// let (answers, state) = site.replay(&[0, 0]);
    /// assert_eq!(answers[1], Err(teaselauger::Refused(14)));
    /// assert_eq!(state.variables()[0], 1);
    /// let (answers, state) = site.replay(&[Grant(1), Grant(0), Both(1), Finish(0), Finish(1)]);
    /// assert_eq!(answers[2], Err(teaselauger::Refused(19)));
    /// assert_eq!(state.variables()[0], 1);
    /// # Ok::<(), Box<dyn std::error::Error>>(())
    /// ```
    pub fn replay<C: Copy + Into<Call>>(&self, list: &[C]) -> (Vec<Result<Grant, Refused>>, State) {
        let words: Vec<u16> = list.iter().map(|&call| call.into().word()).collect();
        let (file, mut kept) = (&self.0.file, Box::new(Kept::zero()));
        let (number, answers) = match self.0.words {
            Some(_) => calls::replay(file, &mut calls::no_words(), &words, kept.lent()),
            None => calls::replay_by_rows(file, &mut [0; ROW], &words, kept.lent()),
        };
        (answers.chunks(5).map(answered).collect(), self.state(number, kept))
    }
}

/// The state of a site, its thread records and the values that are held for running threads, as numbers. It begins with [`Site::fresh`] or
/// [`Site::replay`], and [`Site::request`], [`Site::grant`] and [`Site::finish`] alone change it. To keep a run beyond the program, keep the
/// list of the calls that were made, and replay it.
///
/// ```
/// let site = teaselauger::Site::new(&std::fs::read("../../models/m.model")?)?;
/// let (mut state, replayed) = (site.fresh(), site.replay(&[1]).1);
/// site.request(&mut state, 1)?;
/// assert_eq!(state, replayed);
/// # Ok::<(), Box<dyn std::error::Error>>(())
/// ```
///
/// There is no other way to make one or to write to it:
///
/// ```compile_fail,E0594
/// # let site = teaselauger::Site::new(&std::fs::read("../../models/m.model")?)?;
/// site.fresh().variables()[0] = 1;
/// # Ok::<(), Box<dyn std::error::Error>>(())
/// ```
#[derive(Clone, Debug, PartialEq, Eq)]
pub struct State {
    site: Site,
    kept: Box<Kept>,
}

impl State {
    /// The site that the state belongs to.
    ///
    /// ```
    /// let site = teaselauger::Site::new(&std::fs::read("../../models/m.model")?)?;
    /// assert_eq!(site.fresh().site(), &site);
    /// # Ok::<(), Box<dyn std::error::Error>>(())
    /// ```
    pub fn site(&self) -> &Site {
        &self.site
    }

    /// The variables; those that the model does not have are 0.
    ///
    /// ```
    /// let site = teaselauger::Site::new(&std::fs::read("../../models/m.model")?)?;
    /// assert_eq!(site.replay(&[0]).1.variables()[..3], [1, 0, 0]);
    /// # Ok::<(), Box<dyn std::error::Error>>(())
    /// ```
    pub fn variables(&self) -> &[u32; VARIABLES] {
        &self.kept.variables
    }

    /// The log: the count, then 128 places of event, time, delta.
    ///
    /// ```
    /// let site = teaselauger::Site::new(&std::fs::read("../../models/m.model")?)?;
    /// assert_eq!(site.replay(&[0]).1.log()[..4], [1, 0, 0, 0]);
    /// # Ok::<(), Box<dyn std::error::Error>>(())
    /// ```
    pub fn log(&self) -> &[u64; LOG] {
        &self.kept.log
    }

    /// For each of 32 threads: segment, state (0 ended, 1 overrun, 2 ready, 3 waiting, 4 running), event (0 unless waiting), time, delta.
    ///
    /// ```
    /// let site = teaselauger::Site::new(&std::fs::read("../../models/m.model")?)?;
    /// assert_eq!(site.replay(&[0]).1.records()[..10], [0, 2, 0, 10, 0, 2, 2, 0, 0, 0]);
    /// # Ok::<(), Box<dyn std::error::Error>>(())
    /// ```
    pub fn records(&self) -> &[u64; RECORDS] {
        &self.kept.records
    }

    /// For each of 32 threads 64 values: the variables as they were when it was granted, while it is running, and else 0.
    ///
    /// ```
    /// use teaselauger::Call::{Both, Grant};
    /// let site = teaselauger::Site::new(&std::fs::read("../../models/m.model")?)?;
    /// let state = site.replay(&[Both(0), Grant(1)]).1;
    /// assert_eq!((&state.held()[..64], &state.held()[64..128]), (&[0; 64][..], &state.variables()[..]));
    /// # Ok::<(), Box<dyn std::error::Error>>(())
    /// ```
    pub fn held(&self) -> &[u32; HELD] {
        &self.kept.held
    }
}
