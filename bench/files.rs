// Model files read, loaded with their distance tables, and written from numbers: the proved library and native loops, round by round in one run.
use std::hint::black_box;
use std::time::Instant;

extern "C" {
    fn teaselauger_read(file: *const u8, len: usize) -> u8;
    fn teaselauger_load(file: *const u8, len: usize, words: *mut u64, count: usize) -> u8;
    fn native_read(file: *const u8, len: usize) -> u8;
    fn native_load(file: *const u8, len: usize, words: *mut u64, count: usize) -> u8;
    fn teaselauger_model(file: *const u8, len: usize, numbers: *mut u32, count: usize) -> u8;
    fn teaselauger_write(numbers: *const u32, count: usize, out: *mut u8, room: usize, length: *mut u64, one: usize) -> u8;
    fn native_write(numbers: *const u32, count: usize, out: *mut u8, room: usize, length: *mut u64, one: usize) -> u8;
}

// n segments of k statements, t threads. Each segment waits and goes on to the next one, or skips one.
fn model(n: u8, k: u8, t: u8) -> Vec<u8> {
    let mut b = vec![10, 0, 1, 0, 0, 202, 154, 59, 64, 32];
    for i in 0..n {
        let size = 17 + 6 * k as u16;
        b.extend([size as u8, (size >> 8) as u8, 2, 0, 1, 0, i % 3, 0, 0, 0, (i + 1) % n, (i + 2) % n, 63, 255, 255, 255, 255]);
        for j in 0..k {
            let op = 1 + j % 6;
            b.extend([op, 31, if op == 6 { 0 } else { 63 }, 0, 0, 0]);
        }
    }
    for i in 0..t {
        b.extend([5, 0, 3, 0, i % n]);
    }
    b.extend([4, 0, 4, 0]);
    b
}

// The least time of one call, in nanoseconds, over rounds in which both take turns.
fn both(rounds: u32, calls: u32, f: &mut dyn FnMut() -> u8, g: &mut dyn FnMut() -> u8) -> (f64, f64) {
    let time = |h: &mut dyn FnMut() -> u8| {
        let start = Instant::now();
        for _ in 0..calls {
            assert_eq!(black_box(h()), 0);
        }
        start.elapsed().as_nanos() as f64 / calls as f64
    };
    let mut least = (f64::INFINITY, f64::INFINITY);
    for _ in 0..rounds {
        least = (least.0.min(time(f)), least.1.min(time(g)));
    }
    least
}

fn main() {
    println!("| model | bytes | call | proved, ns | native, ns | proved / native |");
    println!("|---|---|---|---|---|---|");
    for (name, n, k, t) in [("small", 4, 2, 2), ("medium", 16, 8, 8), ("full", 64, 32, 32)] {
        let b = model(n, k, t);
        let (mut w, mut x) = (vec![0u64; 4096], vec![0u64; 4096]);
        let (p, len) = (b.as_ptr(), b.len());
        let (a, c) = both(400, 20, &mut || unsafe { teaselauger_read(black_box(p), len) }, &mut || unsafe { native_read(black_box(p), len) });
        println!("| {name} | {len} | read | {a:.0} | {c:.0} | {:.2} |", a / c);
        let (a, c) = both(200, 5, &mut || unsafe { teaselauger_load(p, len, w.as_mut_ptr(), 4096) }, &mut || unsafe { native_load(p, len, x.as_mut_ptr(), 4096) });
        assert_eq!(w, x);
        println!("| {name} | {len} | load | {a:.0} | {c:.0} | {:.2} |", a / c);
        let (mut xs, mut y, mut z, mut l, mut o) = (vec![0u32; 6949], vec![0u8; 13934], vec![0u8; 13934], 0u64, 0u64);
        assert_eq!(unsafe { teaselauger_model(p, len, xs.as_mut_ptr(), xs.len()) }, 0);
        let q = xs.as_ptr();
        let (a, c) = both(200, 20, &mut || unsafe { teaselauger_write(black_box(q), 6949, y.as_mut_ptr(), 13934, &mut l, 1) }, &mut || unsafe { native_write(black_box(q), 6949, z.as_mut_ptr(), 13934, &mut o, 1) });
        assert!(y == z && y[..len] == b[..] && l == len as u64 && o == l);
        println!("| {name} | {len} | write | {a:.0} | {c:.0} | {:.2} |", a / c);
    }
}
