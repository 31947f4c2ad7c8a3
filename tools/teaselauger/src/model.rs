//! A model in its parts, to and from the numbers of the library's [`Drawing`] (`docs/MODEL-FILE.md`, "Writing a model").
use teaselauger::{Drawing, UNUSED};

pub const NO_TEST: u32 = 255;
const SEGMENT: usize = 104;
const PLACES: usize = 32;

#[derive(Clone, Debug, PartialEq, Eq)]
pub enum Closer {
    End,
    Time { delay: u32, next: Next },
    Event { event: u32, next: Next },
}

/// The next segment: `a` if the test variable is below the limit, else `b`. Without a test both are the same.
#[derive(Clone, Debug, PartialEq, Eq)]
pub struct Next {
    pub a: u32,
    pub b: u32,
    pub test: u32,
    pub limit: u32,
}

#[derive(Clone, Copy, Debug, PartialEq, Eq)]
pub struct Statement {
    pub operation: u32,
    pub a: u32,
    pub b: u32,
}

pub const SET: u32 = 1;
pub const ADD: u32 = 2;
pub const COPY: u32 = 3;
pub const ADD_VARIABLE: u32 = 4;
pub const SUB_VARIABLE: u32 = 5;
pub const NOTIFY: u32 = 6;

#[derive(Clone, Debug, PartialEq, Eq)]
pub struct Segment {
    pub statements: Vec<Statement>,
    pub closer: Closer,
}

#[derive(Clone, Debug, PartialEq, Eq)]
pub struct Thread {
    pub first: u32,
    pub ports: [u32; 8],
}

#[derive(Clone, Debug, PartialEq, Eq)]
pub struct Model {
    pub horizon: u32,
    pub variables: u32,
    pub events: u32,
    pub segments: Vec<Segment>,
    pub threads: Vec<Thread>,
}

impl Segment {
    // Of its 104 numbers, in a model that the library has accepted.
    fn of(numbers: &[u32]) -> Segment {
        let next = Next { a: numbers[3], b: numbers[4], test: numbers[5], limit: numbers[6] };
        let closer = match numbers[0] {
            0 => Closer::End,
            1 => Closer::Time { delay: numbers[2], next },
            _ => Closer::Event { event: numbers[1], next },
        };
        let statements = numbers[8..].chunks(3).take(numbers[7] as usize).map(|s| Statement { operation: s[0], a: s[1], b: s[2] });
        Segment { statements: statements.collect(), closer }
    }

    // More statements than there are places are counted and not placed: the writer refuses the count.
    fn numbers(&self) -> Vec<u32> {
        let (kind, event, delay, next) = match &self.closer {
            Closer::End => (0, 0, 0, None),
            Closer::Time { delay, next } => (1, 0, *delay, Some(next)),
            Closer::Event { event, next } => (2, *event, 0, Some(next)),
        };
        let [a, b, test, limit] = next.map_or([0; 4], |next| [next.a, next.b, next.test, next.limit]);
        let mut numbers = vec![kind, event, delay, a, b, test, limit, self.statements.len() as u32];
        numbers.extend(self.statements.iter().take(PLACES).flat_map(|s| [s.operation, s.a, s.b]));
        numbers.resize(SEGMENT, 0);
        numbers
    }

    /// The events that its statements notify, each once, in their order.
    pub fn notified(&self) -> Vec<u32> {
        let mut events = Vec::new();
        for statement in self.statements.iter().filter(|statement| statement.operation == NOTIFY) {
            if !events.contains(&statement.a) {
                events.push(statement.a);
            }
        }
        events
    }
}

impl Model {
    pub fn of(drawing: &Drawing) -> Model {
        let numbers = &drawing.numbers;
        let (segments, threads) = numbers[5..].split_at(SEGMENT * numbers[3] as usize);
        let thread = |k: u32| Thread { first: threads[9 * k as usize], ports: drawing.ports(k) };
        Model {
            horizon: numbers[0],
            variables: numbers[1],
            events: numbers[2],
            segments: segments.chunks(SEGMENT).map(Segment::of).collect(),
            threads: (0..numbers[4]).map(thread).collect(),
        }
    }

    pub fn drawing(&self) -> Drawing {
        let mut numbers = vec![self.horizon, self.variables, self.events, self.segments.len() as u32, 0];
        numbers.extend(self.segments.iter().flat_map(Segment::numbers));
        let mut drawing = Drawing { numbers };
        for thread in &self.threads {
            drawing.add_thread(thread.first, thread.ports);
        }
        drawing
    }

    /// How many ports there are up to the last that a segment names or a thread uses.
    pub fn ports(&self) -> usize {
        let tests = self.segments.iter().filter_map(|segment| match &segment.closer {
            Closer::End => None,
            Closer::Time { next, .. } | Closer::Event { next, .. } => Some(next.test),
        });
        let statements = self.segments.iter().flat_map(|segment| &segment.statements).flat_map(|s| match s.operation {
            NOTIFY => [0, 0],
            SET | ADD => [s.a, 0],
            _ => [s.a, s.b],
        });
        let named = tests.chain(statements).filter(|x| (128..136).contains(x)).map(|x| x as usize - 127);
        let used = self.threads.iter().filter_map(|thread| thread.ports.iter().rposition(|&x| x != UNUSED)).map(|p| p + 1);
        named.chain(used).max().unwrap_or(0)
    }
}
