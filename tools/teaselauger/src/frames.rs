//! The records of a model file as they are framed: where each begins, its kind and its bytes. Nothing is judged here.

pub const HEAD: u16 = 1;
pub const SEGMENT: u16 = 2;
pub const THREAD: u16 = 3;
pub const END: u16 = 4;
pub const PORTS: u16 = 5;

/// A record: its number in the file, where it begins, its kind, how many of its kind stand before it, and all its bytes.
#[derive(Clone, Copy, Debug)]
pub struct Frame<'a> {
    pub record: usize,
    pub at: usize,
    pub kind: u16,
    pub number: usize,
    pub bytes: &'a [u8],
}

/// The records up to the end record, or as far as their lengths go.
pub struct Frames<'a> {
    pub all: Vec<Frame<'a>>,
    /// Where the bytes go on after them.
    pub rest: usize,
    /// Whether the last is an end record.
    pub ended: bool,
}

pub fn short(bytes: &[u8], at: usize) -> u16 {
    u16::from_le_bytes([bytes[at], bytes[at + 1]])
}

pub fn long(bytes: &[u8], at: usize) -> u32 {
    u32::from_le_bytes([bytes[at], bytes[at + 1], bytes[at + 2], bytes[at + 3]])
}

pub fn frames(file: &[u8]) -> Frames<'_> {
    let mut out = Frames { all: Vec::new(), rest: 0, ended: false };
    let mut counts = [0; 6];
    while !out.ended {
        let left = &file[out.rest..];
        if left.len() < 4 {
            break;
        }
        let (length, kind) = (usize::from(short(left, 0)), short(left, 2));
        if length < 4 || length > left.len() {
            break;
        }
        let count = &mut counts[usize::from(kind).min(5)];
        out.all.push(Frame { record: out.all.len(), at: out.rest, kind, number: *count, bytes: &left[..length] });
        *count += 1;
        out.rest += length;
        out.ended = kind == END;
    }
    out
}

/// What a record of a kind is called; ports go by the thread before them.
pub fn name(kind: u16, number: usize) -> String {
    match kind {
        HEAD => "head".into(),
        SEGMENT => format!("segment {number}"),
        THREAD => format!("thread {number}"),
        END => "end".into(),
        PORTS => "ports".into(),
        _ => format!("kind {kind}"),
    }
}

impl<'a> Frame<'a> {
    pub fn name(&self) -> String {
        name(self.kind, self.number)
    }

    /// The statements of a segment: number, place in the record, operation, a, b.
    pub fn statements(&self) -> impl Iterator<Item = (usize, usize, u8, u8, u32)> + 'a {
        let bytes = self.bytes;
        (17..bytes.len().saturating_sub(5))
            .step_by(6)
            .enumerate()
            .map(|(j, at)| (j, at, bytes[at], bytes[at + 1], long(bytes, at + 2)))
    }
}
