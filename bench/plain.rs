// The proved plain run as an engine of plain.py: a model file on standard input, its sheet on standard output, the time and n on standard error.
use std::io::{Read, Write};
use std::time::Instant;

extern "C" {
    fn teaselauger_sheet(file: *const u8, len: usize, budget: u64, out: *mut u8, count: usize) -> usize;
}

fn main() {
    let mut file = Vec::new();
    std::io::stdin().read_to_end(&mut file).unwrap();
    let mut out = [0u8; 8192];
    let start = Instant::now();
    let n = unsafe { teaselauger_sheet(file.as_ptr(), file.len(), 1_000_000, out.as_mut_ptr(), out.len()) };
    let ns = start.elapsed().as_nanos();
    let sheet = std::str::from_utf8(&out[..n]).unwrap();
    let run = sheet.lines().find_map(|l| l.strip_prefix("n ")).unwrap_or("0");
    eprintln!("time {ns} {run}");
    std::io::stdout().write_all(sheet.as_bytes()).unwrap();
}
