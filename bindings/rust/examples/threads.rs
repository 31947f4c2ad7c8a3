//! Reads a model file, prints the sheet of its plain run, then issues threads one at a time, lowest number first, until none is granted.
fn main() {
    let path = std::env::args().nth(1).expect("usage: threads MODEL");
    let file = std::fs::read(path).expect("a model file");
    print!("{}", teaselauger::sheet(&file, 1_000_000));
    let Ok(site) = teaselauger::Site::new(&file) else { std::process::exit(1) };
    let mut state = site.fresh();
    let (mut granted, mut thread) = (0, 0);
    while thread < 32 {
        if site.request(&mut state, thread).is_ok() {
            granted += 1;
            thread = 0;
        } else {
            thread += 1;
        }
    }
    println!("granted {granted}, variable 0 is {}", state.variables()[0]);
}
