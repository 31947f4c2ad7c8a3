//! Runs a model on two threads of the machine: each takes a grant, does the work of the segment (here a dummy load), and finishes it, in
//! whatever order that turns out. Prints the lines of the state at the end, which are those of the sheet.
use std::sync::{Condvar, Mutex};
use teaselauger::{sheet, Drawing, Site, State};

const WORKERS: usize = 2;

/// What the workers share: the state, how many threads are running, and how many were finished.
struct Board {
    state: State,
    running: u32,
    finished: u64,
}

/// Stands for what a granted segment has to do: more on some than on others.
fn load(segment: u8, time: u64) {
    let rounds = 1_000 + 20_000 * ((u64::from(segment) + time / 5) % 3);
    let mut x = time;
    for i in 0..rounds {
        x = std::hint::black_box(x.wrapping_mul(6_364_136_223_846_793_005).wrapping_add(i));
    }
}

/// Takes grants and finishes them, until none is left to take and none is running that could lead to another.
fn work(site: &Site, board: &Mutex<Board>, changed: &Condvar) {
    let mut now = board.lock().expect("no worker panics");
    loop {
        let taken = (0..32).find_map(|thread| site.grant(&mut now.state, thread).ok().map(|grant| (thread, grant)));
        if let Some((thread, grant)) = taken {
            now.running += 1;
            drop(now);
            load(grant.segment, grant.time);
            now = board.lock().expect("no worker panics");
            assert_eq!(site.finish(&mut now.state, thread), Ok(grant));
            now.running -= 1;
            now.finished += 1;
            changed.notify_all();
        } else if now.running > 0 {
            now = changed.wait(now).expect("no worker panics");
        } else {
            return;
        }
    }
}

/// The lines of a sheet, of V variables and T threads.
fn lines(board: &Board, v: u32, t: u32) -> String {
    let mut text = String::new();
    for (i, value) in board.state.variables().iter().enumerate().take(v as usize) {
        text += &format!("v {i} {value}\n");
    }
    for (k, record) in board.state.records().chunks(5).enumerate().take(t as usize) {
        let state = ["ended", "overrun", "ready", "wait", "running"][record[1] as usize];
        let event = if record[1] == 3 { format!(" {}", record[2]) } else { String::new() };
        text += &format!("t {k} {} {state}{event} {} {}\n", record[0], record[3], record[4]);
    }
    text + &format!("n {}\n", board.finished)
}

fn main() {
    let path = std::env::args().nth(1).expect("usage: pool MODEL");
    let file = std::fs::read(path).expect("a model file");
    let site = Site::new(&file).expect("an accepted file");
    let board = Mutex::new(Board { state: site.fresh(), running: 0, finished: 0 });
    let changed = Condvar::new();
    std::thread::scope(|scope| {
        for _ in 0..WORKERS {
            scope.spawn(|| work(&site, &board, &changed));
        }
    });
    let numbers = Drawing::open(&file).expect("an accepted file").numbers;
    let text = lines(&board.into_inner().expect("no worker panics"), numbers[1], numbers[4]);
    print!("{text}");
    assert_eq!(text, sheet(&file, 1_000_000), "the sheet of the plain run");
    println!("as the sheet, on {WORKERS} threads of the machine");
}
