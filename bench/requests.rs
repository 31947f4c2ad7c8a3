// Lists of requests: the proved replay, with its table and by rows, and plain loops, round by round in one run, with the cost of a request and the share of grants later than the floor.
use std::hint::black_box;
use std::time::Instant;

extern "C" {
    fn teaselauger_replay(
        file: *const u8, n: usize, words: *mut u64, w: usize, held: *mut u32, h: usize, calls: *const u16, c: usize, answers: *mut u64, a: usize, variables: *mut u32, v: usize, log: *mut u64, l: usize, records: *mut u64, r: usize,
    ) -> u8;
    fn teaselauger_fresh(file: *const u8, n: usize, variables: *mut u32, v: usize, log: *mut u64, l: usize, records: *mut u64, r: usize) -> u8;
    fn teaselauger_request(
        file: *const u8, n: usize, words: *const u64, w: usize, variables: *mut u32, v: usize, log: *mut u64, l: usize, records: *mut u64, r: usize, thread: u8, answer: *mut u64, a: usize,
    ) -> u8;
    fn teaselauger_replay_by_rows(
        file: *const u8, n: usize, row: *mut u64, w: usize, held: *mut u32, h: usize, calls: *const u16, c: usize, answers: *mut u64, a: usize, variables: *mut u32, v: usize, log: *mut u64, l: usize, records: *mut u64, r: usize,
    ) -> u8;
    fn teaselauger_request_by_rows(
        file: *const u8, n: usize, row: *mut u64, w: usize, variables: *mut u32, v: usize, log: *mut u64, l: usize, records: *mut u64, r: usize, thread: u8, answer: *mut u64, a: usize,
    ) -> u8;
    fn native_replay(file: *const u8, n: usize, threads: *const u8, t: usize, answers: *mut u64, granted: *mut u64, ahead: *mut u64) -> u8;
}

fn seg(b: &mut Vec<u8>, closer: [u8; 13], statements: &[[u8; 6]]) {
    let size = 17 + 6 * statements.len() as u16;
    b.extend([size as u8, (size >> 8) as u8, 2, 0]);
    b.extend(closer);
    for s in statements {
        b.extend(s);
    }
}

// t threads, half of them tell their neighbour, which waits: `shared` variables are common to neighbours, else each has its own.
fn site(t: u8, shared: bool) -> Vec<u8> {
    let mut b = vec![10, 0, 1, 0, 0, 202, 154, 59, 64, t / 2];
    for k in 0..t {
        let own = if shared { k / 2 } else { k };
        let (other, event) = (2 * k + 1, k / 2);
        if k % 2 == 0 {
            seg(&mut b, [1, 0, 3 + k, 0, 0, 0, other, other, 255, 0, 0, 0, 0], &[[2, own, 1, 0, 0, 0], [6, event, 0, 0, 0, 0]]);
            seg(&mut b, [1, 0, 1, 0, 0, 0, 2 * k, 2 * k, 255, 0, 0, 0, 0], &[[2, own, 2, 0, 0, 0]]);
        } else {
            seg(&mut b, [2, event, 0, 0, 0, 0, other, other, 255, 0, 0, 0, 0], &[[2, own, 1, 0, 0, 0]]);
            seg(&mut b, [1, 0, 2, 0, 0, 0, 2 * k, 2 * k, 255, 0, 0, 0, 0], &[[4, own, own, 0, 0, 0]]);
        }
    }
    for k in 0..t {
        b.extend([5, 0, 3, 0, 2 * k]);
    }
    b.extend([4, 0, 4, 0]);
    b
}

// Eight threads: a poller notifies event 0 every unit, a display adds to variable 0 every unit, and six slow sounders each wait many units, then for event 0, then add to variable 0.
fn sounders() -> Vec<u8> {
    let mut b = vec![10, 0, 1, 0, 0, 202, 154, 59, 1, 1];
    let wait = |units: u8, next: u8| [1, 0, units, 0, 0, 0, next, next, 255, 0, 0, 0, 0];
    seg(&mut b, wait(1, 0), &[[6, 0, 0, 0, 0, 0]]);
    seg(&mut b, wait(1, 1), &[[2, 0, 1, 0, 0, 0]]);
    for k in 0..6 {
        let first = 2 + 3 * k;
        seg(&mut b, wait(20 + k, first + 1), &[]);
        seg(&mut b, [2, 0, 0, 0, 0, 0, first + 2, first + 2, 255, 0, 0, 0, 0], &[]);
        seg(&mut b, wait(5, first), &[[2, 0, 1, 0, 0, 0]]);
    }
    for first in [0, 1].into_iter().chain((0..6).map(|k| 2 + 3 * k)) {
        b.extend([5, 0, 3, 0, first]);
    }
    b.extend([4, 0, 4, 0]);
    b
}

// The words are the table's, or the 64 of a row.
struct Entry {
    words: Vec<u64>,
    by_rows: bool,
    variables: [u32; 64],
    log: [u64; 385],
    records: [u64; 160],
    held: Vec<u32>,
    answers: Vec<u64>,
}

impl Entry {
    fn new(words: usize, by_rows: bool, requests: usize) -> Entry {
        Entry { words: vec![u64::MAX; words], by_rows, variables: [0; 64], log: [0; 385], records: [0; 160], held: vec![0; 2048], answers: vec![0; 5 * requests] }
    }

    // The nanoseconds of a list.
    fn list(&mut self, b: &[u8], ks: &[u16]) -> f64 {
        let call = if self.by_rows { teaselauger_replay_by_rows } else { teaselauger_replay };
        let Entry { words, variables: v, log: l, records: r, held: h, answers: x, .. } = self;
        let start = Instant::now();
        let number = unsafe {
            call(black_box(b.as_ptr()), b.len(), words.as_mut_ptr(), words.len(), h.as_mut_ptr(), h.len(), ks.as_ptr(), ks.len(), x.as_mut_ptr(), x.len(), v.as_mut_ptr(), v.len(), l.as_mut_ptr(), l.len(), r.as_mut_ptr(), r.len())
        };
        let took = start.elapsed().as_nanos() as f64;
        assert_eq!(number, 0);
        took
    }

    // The nanoseconds of the same requests one at a time; the list was made before.
    fn one_at_a_time(&mut self, b: &[u8], ks: &[u8]) -> f64 {
        let Entry { words, by_rows, variables: v, log: l, records: r, answers: x, .. } = self;
        let mut answer = [0; 3];
        let start = Instant::now();
        assert_eq!(unsafe { teaselauger_fresh(b.as_ptr(), b.len(), v.as_mut_ptr(), v.len(), l.as_mut_ptr(), l.len(), r.as_mut_ptr(), r.len()) }, 0);
        for (i, &k) in ks.iter().enumerate() {
            let number = unsafe {
                if *by_rows {
                    teaselauger_request_by_rows(b.as_ptr(), b.len(), words.as_mut_ptr(), words.len(), v.as_mut_ptr(), v.len(), l.as_mut_ptr(), l.len(), r.as_mut_ptr(), r.len(), k, answer.as_mut_ptr(), 3)
                } else {
                    teaselauger_request(b.as_ptr(), b.len(), words.as_ptr(), words.len(), v.as_mut_ptr(), v.len(), l.as_mut_ptr(), l.len(), r.as_mut_ptr(), r.len(), k, answer.as_mut_ptr(), 3)
                }
            };
            assert_eq!(number as u64, x[5 * i + 1]);
        }
        start.elapsed().as_nanos() as f64
    }
}

fn main() {
    println!("| site | threads, segments | requests | granted | refused 14 | later than the floor | proved, ns a request | native, ns a request | proved / native | one at a time, ns a request |");
    println!("|---|---|---|---|---|---|---|---|---|---|");
    let sites = [
        ("small, own variables", 2u8, 4, site(2, false)), ("small, shared", 2, 4, site(2, true)), ("medium, own", 8, 16, site(8, false)), ("medium, shared", 8, 16, site(8, true)),
        ("full, own", 32, 64, site(32, false)), ("full, shared", 32, 64, site(32, true)), ("slow sounders", 8, 20, sounders()),
    ];
    let mut rows = String::new();
    for (name, t, segments, b) in sites {
        let n = 2000usize;
        let mut seed = 1u64;
        let ks: Vec<u8> = (0..n).map(|_| { seed = seed.wrapping_mul(6364136223846793005).wrapping_add(1442695040888963407); ((seed >> 33) % t as u64) as u8 }).collect();
        let calls: Vec<u16> = ks.iter().map(|&k| k as u16).collect();
        let (mut full, mut by_rows, mut y) = (Entry::new(segments * segments, false, n), Entry::new(64, true, n), vec![0u64; 4 * n]);
        let (mut granted, mut ahead) = (0u64, 0u64);
        let mut native = |n: usize, y: &mut Vec<u64>| unsafe {
            let start = Instant::now();
            assert_eq!(native_replay(black_box(b.as_ptr()), b.len(), ks.as_ptr(), n, y.as_mut_ptr(), &mut granted, &mut ahead), 0);
            start.elapsed().as_nanos() as f64
        };
        // Of each: no requests, then all.
        let mut least = [f64::INFINITY; 6];
        for _ in 0..15 {
            let took = [full.list(&b, &[]), native(0, &mut y), by_rows.list(&b, &[]), full.list(&b, &calls), native(n, &mut y), by_rows.list(&b, &calls)];
            least = std::array::from_fn(|i| least[i].min(took[i]));
        }
        let same = full.answers.chunks(5).zip(y.chunks(4)).all(|(a, b)| &a[1..] == b);
        assert!(same && full.answers == by_rows.answers, "the answers of {name} differ");
        let mut ones = [f64::INFINITY; 2];
        for _ in 0..5 {
            let took = [full.one_at_a_time(&b, &ks), by_rows.one_at_a_time(&b, &ks)];
            ones = std::array::from_fn(|i| ones[i].min(took[i]));
        }
        let [p, q, z] = std::array::from_fn(|i| (least[3 + i] - least[i]) / n as f64);
        let [one, one_by_rows] = ones.map(|x| x / n as f64);
        let held = (0..n).filter(|i| y[4 * i] == 14).count();
        println!("| {name} | {t}, {segments} | {n} | {granted} | {held} | {:.0} % | {p:.0} | {q:.0} | {:.2} | {one:.0} |", 100.0 * ahead as f64 / granted as f64, p / q);
        let lent = [&full, &by_rows].map(|entry| 8 * entry.words.len());
        rows += &format!("| {name} | {} | {} | {p:.0} | {z:.0} | {:.2} | {one:.0} | {one_by_rows:.0} | {:.2} |\n", lent[0], lent[1], z / p, one_by_rows / one);
    }
    println!("\nBy rows:\n");
    println!("| site | bytes lent, full | by rows | in a list, ns a request, full | by rows | by rows / full | one at a time, ns a request, full | by rows | by rows / full |");
    println!("|---|---|---|---|---|---|---|---|---|");
    print!("{rows}");
}
