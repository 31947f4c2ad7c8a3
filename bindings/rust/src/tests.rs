use super::*;
use calls::Lent;
use Call::{Both, Finish, Grant as Granting};

fn file(name: &str) -> Vec<u8> {
    std::fs::read(format!("{}/../../models/{name}.model", env!("CARGO_MANIFEST_DIR"))).expect("a model file")
}

fn site(name: &str) -> Site {
    Site::new(&file(name)).expect("an accepted file")
}

/// With its table, and by rows.
fn both_of(bytes: &[u8]) -> [Site; 2] {
    [Site::new(bytes), Site::by_rows(bytes)].map(|site| site.expect("an accepted file"))
}

fn both(name: &str) -> [Site; 2] {
    both_of(&file(name))
}

fn refused(number: u8) -> Result<Grant, RequestError> {
    Err(RequestError::Refused(Refused(number)))
}

fn granted(segment: u8, time: u64, delta: u32) -> Result<Grant, RequestError> {
    Ok(Grant { segment, time, delta })
}

/// Issues threads, lowest number first, until none is granted; the threads that were.
fn issue(site: &Site, state: &mut State) -> Vec<u8> {
    let mut threads = Vec::new();
    while let Some(k) = (0..32).find(|&k| site.request(state, k).is_ok()) {
        threads.push(k);
    }
    threads
}

#[test]
fn fresh_is_the_start() {
    for m in both("m") {
        let state = m.fresh();
        assert_eq!(state.variables(), &[0; 64]);
        assert_eq!(state.log(), &[0; 385]);
        assert_eq!(state.records()[..10], [0, 2, 0, 0, 0, 2, 2, 0, 0, 0]);
        assert!(state.records()[10..].iter().all(|&word| word == 0));
        assert_eq!(state, m.fresh());
    }
}

#[test]
fn request_grants_or_leaves_the_state() {
    for m in both("m") {
        let mut state = m.fresh();
        assert_eq!(m.request(&mut state, 0), granted(0, 0, 0));
        let before = state.clone();
        assert_eq!(m.request(&mut state, 0), refused(14));
        assert_eq!(m.request(&mut state, 2), refused(10));
        assert_eq!(m.request(&mut state, 255), refused(10));
        assert_eq!(state, before);
        assert_eq!(m.request(&mut state, 1), granted(2, 0, 0));
        assert_eq!(m.request(&mut state, 1), granted(3, 0, 1));
    }
}

#[test]
fn requests_end_as_the_plain_run() {
    for m in both("m") {
        let mut state = m.fresh();
        assert_eq!(issue(&m, &mut state).len(), 254);
        assert_eq!(state.variables()[..3], [126; 3]);
        assert_eq!(state.records()[..10], [1, 0, 0, 1260, 0, 3, 3, 0, 1250, 1]);
        assert_eq!([m.request(&mut state, 0), m.request(&mut state, 1)], [refused(12), refused(12)]);
    }
    for sooner in both("case02") {
        let mut state = sooner.fresh();
        issue(&sooner, &mut state);
        assert_eq!(sooner.request(&mut state, 0), refused(13));
    }
}

#[test]
fn replay_is_the_requests_in_turn() {
    for site in ["m", "case06", "case07", "case08", "calls"].into_iter().flat_map(both) {
        let threads = [1, 0, 0, 3, 1, 0, 2, 1, 0, 0, 1, 40];
        let (answers, replayed) = site.replay(&threads);
        let mut state = site.fresh();
        let asked: Vec<_> = threads.iter().map(|&k| site.request(&mut state, k)).collect();
        assert_eq!(answers.into_iter().map(|a| a.map_err(RequestError::from)).collect::<Vec<_>>(), asked);
        assert_eq!(replayed, state);
        assert_eq!(site.replay::<Call>(&[]), (vec![], site.fresh()));
    }
}

#[test]
fn a_state_goes_on_after_a_replay() {
    let [full, rows] = &both("m");
    for (one, other) in [(full, full), (rows, rows), (full, rows), (rows, full)] {
        let (_, mut state) = one.replay(&[0, 1]);
        let rest = issue(other, &mut state);
        let whole: Vec<u8> = [0, 1].into_iter().chain(rest).collect();
        assert_eq!(one.replay(&whole).1, state);
    }
}

#[test]
fn refused_files_have_no_site() {
    let mut longer = file("m");
    longer.push(0);
    let shorter = file("m")[..115].to_vec();
    for (bytes, number) in [(vec![], 1), (shorter, 1), (vec![4, 0, 4, 0], 2), (file("refused7"), 7), (longer, 9)] {
        assert_eq!([Site::new(&bytes), Site::by_rows(&bytes)], [Err(Refused(number)), Err(Refused(number))]);
        assert_eq!(read(&bytes), Err(Refused(number)));
        assert_eq!(sheet(&bytes, 1_000_000), format!("refused {number}\n"));
    }
    assert_eq!(read(&file("m")), Ok(()));
}

#[test]
fn a_state_of_another_site_is_an_error() {
    let (other, mut words) = (file("case07"), calls::no_words());
    assert_eq!(calls::load(&other, &mut words), 0);
    for one in both("case06") {
        for mut state in [one.fresh(), one.replay(&[0]).1, one.replay(&[0, 0, 1, 1]).1] {
            let before = state.clone();
            // Every number of the state is in range for the other model: the library itself answers for the mixture.
            assert_ne!(calls::request(&other, &words, &mut state.kept.clone(), 1, &mut [0; ANSWER]), 11);
            assert_ne!(calls::request_by_rows(&other, &mut [0; ROW], state.kept.clone().lent(), 1, &mut [0; ANSWER]), 11);
            for site in both("case07") {
                assert_ne!(site, one);
                for thread in 0..=255 {
                    assert_eq!(site.request(&mut state, thread), Err(RequestError::OtherSite));
                }
            }
            assert_eq!(state, before);
            assert_eq!(state.site(), &one);
        }
    }
    // The same numbers are not the same state.
    assert_eq!(site("case02").fresh().records(), site("case03").fresh().records());
    assert_ne!(site("case02").fresh(), site("case03").fresh());
}

#[test]
fn sites_of_equal_bytes_are_the_same() {
    let one = site("m");
    for again in both("m") {
        let mut state = one.fresh();
        assert_eq!(state, again.fresh());
        for k in [0, 1, 1, 0] {
            let (mut a, mut b) = (state.clone(), state.clone());
            assert_eq!(one.request(&mut a, k), again.request(&mut b, k));
            assert_eq!(a, b);
            state = b;
        }
        assert_eq!(one.clone(), again);
        assert_eq!(issue(&one, &mut state), issue(&again, &mut again.replay(&[0, 1, 1, 0]).1));
    }
}

#[test]
fn a_drawing_has_the_ports_of_its_threads() {
    let bytes = file("loops");
    let loops = Drawing::open(&bytes).expect("an accepted file");
    assert_eq!(loops.numbers.len(), 5 + 2 * 104 + 2 * 9);
    assert_eq!(loops.numbers[loops.numbers.len() - 18..][..3], [0, 0, UNUSED]);
    assert_eq!((loops.ports(0)[0], loops.ports(1)[0]), (0, 1));
    assert_eq!(loops.ports(0)[1..], [UNUSED; 7]);
    assert_eq!((loops.numbers[10], loops.numbers[14]), (port(0), port(0)));
    assert_eq!(loops.save(), Ok(bytes));

    let changed = |p: usize, variable: u32| {
        let (mut drawing, mut ports) = (loops.clone(), loops.ports(1));
        ports[p] = variable;
        drawing.set_ports(1, ports);
        drawing.save()
    };
    for (p, variable, number) in [(0, 2, 17), (0, 128, 17), (7, 256, 17), (7, u32::MAX, 17), (0, UNUSED, 18)] {
        assert_eq!(changed(p, variable), Err(Refused(number)));
    }
    // Port 7, which nobody names, is written and read again.
    let again = changed(7, 1).expect("a variable of the model");
    assert_eq!(Drawing::open(&again).map(|drawing| drawing.ports(1)[7]), Ok(1));
    // A thread without a used port has no record of ports: 5 bytes more, not 17.
    let mut more = loops.clone();
    more.add_thread(1, [UNUSED; 8]);
    assert_eq!(more.save().map(|file| file.len()), Ok(file("loops").len() + 5));
    assert_eq!(more.save().and_then(|file| Drawing::open(&file)), Ok(more));
}

#[test]
fn threads_conflict_through_ports() {
    for own in both("loops") {
        assert_eq!(own.replay(&[1, 1, 1]).0, [(0, 0), (0, 3), (1, 6)].map(|(segment, time)| Ok(Grant { segment, time, delta: 0 })));
    }
    // With one counter for both, thread 1 has to wait for thread 0.
    for one in both_of(&one_counter()) {
        let (answers, state) = one.replay(&[1, 0, 1]);
        assert_eq!(answers.into_iter().map(Result::err).collect::<Vec<_>>(), [Some(Refused(14)), None, None]);
        assert_eq!(state.variables()[..2], [2, 0]);
    }
}

/// The loops, with one counter for both.
fn one_counter() -> Vec<u8> {
    let mut drawing = Drawing::open(&file("loops")).expect("an accepted file");
    drawing.set_ports(1, drawing.ports(0));
    drawing.save().expect("a file")
}

/// 64 segments of 32 statements, 32 threads with ports, 64 variables, 32 events: the largest model.
fn largest() -> Vec<u8> {
    let mut bytes = vec![10, 0, 1, 0];
    bytes.extend(1_000_000_000u32.to_le_bytes());
    bytes.extend([64, 32]);
    for s in 0..64 {
        bytes.extend([209, 0, 2, 0, 1, 0]);
        bytes.extend(1_000_000_000u32.to_le_bytes());
        bytes.extend([(s + 1) % 64, (s + 1) % 64, 255, 0, 0, 0, 0]);
        for i in 0..32 {
            bytes.extend([1, s / 32 * 32 + i, 255, 255, 255, 255]);
        }
    }
    for k in 0..32 {
        bytes.extend([5, 0, 3, 0, 2 * k + 1]);
        bytes.extend([12, 0, 5, 0, k, k, k, k, k, k, k, 63 - k]);
    }
    bytes.extend([4, 0, 4, 0]);
    bytes
}

#[test]
fn no_buffer_is_too_short() {
    let bytes = largest();
    assert_eq!(bytes.len(), 13_934);
    let drawing = Drawing::open(&bytes).expect("16 is for too few numbers");
    assert_eq!(drawing.numbers.len(), 6_949);
    assert_eq!(drawing.save(), Ok(bytes.clone()));
    for site in both_of(&bytes) {
        let mut state = site.fresh();
        for k in 0..32 {
            assert_eq!(site.request(&mut state, k), granted(2 * k + 1, 0, 0));
        }
        for k in 0..32 {
            assert_eq!(site.request(&mut state, k), granted((2 * k + 2) % 64, 1_000_000_000, 0));
            assert_eq!(site.request(&mut state, k), refused(13));
        }
        let threads: Vec<u8> = (0..10_000u32).map(|i| (i % 256) as u8).collect();
        let (answers, replayed) = site.replay(&threads);
        assert_eq!(answers.len(), threads.len());
        assert!(answers.iter().all(|a| !matches!(a, Err(Refused(11 | 16)))));
        assert_eq!(replayed, state);
    }
    let text = sheet(&bytes, 1_000_000);
    assert_eq!((text.lines().count(), text.lines().last()), (64 + 32 + 1, Some("n 64")));
}

#[test]
fn any_thread_may_call_on_256_kb_of_stack() {
    let work = |open: fn(&[u8]) -> Result<Site, Refused>| {
        let site = open(&largest()).expect("an accepted file");
        let mut state = site.fresh();
        let mut apart = site.fresh();
        let calls: Vec<_> = (0..32).map(Granting).chain((0..32).map(Finish)).map(|call| site.call(&mut apart, call)).collect();
        (issue(&site, &mut state), calls, apart, site.replay(&[0; 100]).1, sheet(&largest(), 100), state)
    };
    let small = |open| std::thread::Builder::new().stack_size(256 * 1024).spawn(move || work(open)).expect("a thread");
    let [one, other, rows] = [Site::new, Site::new, Site::by_rows].map(small).map(|thread| thread.join().expect("enough stack"));
    assert_eq!(one, other);
    assert_eq!(one, rows);
}

/// What the 64 words may hold before a call: all ones, a pattern, what the last call left.
fn junk(turn: usize, left: Vec<u64>) -> Vec<u64> {
    match turn % 3 {
        0 => vec![u64::MAX; ROW],
        1 => (1..=ROW as u64).map(|i| i.wrapping_mul(0x9e37_79b9_7f4a_7c15)).collect(),
        _ => left,
    }
}

/// The buffers with junk in the held values of threads that do not run.
fn strewn(mut kept: Box<Kept>, turn: usize) -> Box<Kept> {
    for (k, set) in kept.held.chunks_mut(64).enumerate() {
        if kept.records[5 * k + 1] != 4 {
            set.fill(3 * turn as u32 + k as u32 + 1);
        }
    }
    kept
}

/// The buffers, but for the held values of threads that do not run, which are 0.
fn without_junk(mut kept: Box<Kept>) -> Box<Kept> {
    for (k, set) in kept.held.chunks_mut(64).enumerate() {
        if kept.records[5 * k + 1] != 4 {
            set.fill(0);
        }
    }
    kept
}

fn words(list: &[Call]) -> Vec<u16> {
    list.iter().map(|call| call.word()).collect()
}

/// A call by rows.
fn call_by_rows(bytes: &[u8], row: &mut [u64], lent: Lent, call: Call, answer: &mut [u64; ANSWER]) -> u8 {
    match call {
        Both(thread) => calls::request_by_rows(bytes, row, lent, thread, answer),
        Granting(thread) => calls::grant_by_rows(bytes, row, lent, thread, answer),
        Finish(thread) => calls::finish_by_rows(bytes, row, lent, thread, answer),
    }
}

/// A list by rows, as a list and one at a time, in 64 words of junk and with junk held for threads that do not run: the answers and the
/// states of the table.
fn same_by_rows<C: Copy + Into<Call>>(bytes: &[u8], list: &[C]) {
    let list: Vec<Call> = list.iter().map(|&call| call.into()).collect();
    let site = Site::new(bytes).expect("an accepted file");
    let (expected, after) = site.replay(&list);
    let mut row = vec![0; ROW];
    for turn in 0..3 {
        row = junk(turn, row);
        let mut kept = strewn(Box::new(Kept::zero()), turn);
        let (number, answers) = calls::replay_by_rows(bytes, &mut row, &words(&list), kept.lent());
        assert_eq!((number, answers.chunks(5).map(answered).collect()), (0, expected.clone()));
        assert!(answers.chunks(5).map(|a| a[0]).eq(words(&list).into_iter().map(u64::from)));
        assert_eq!(without_junk(kept), after.kept);
    }
    for first in 0..3 {
        let mut state = site.fresh();
        let mut kept = state.kept.clone();
        for (i, &call) in list.iter().enumerate() {
            row = junk(first + i, row);
            kept = strewn(kept, first + i);
            let (before, mut answer) = (kept.held, [0; ANSWER]);
            let number = call_by_rows(bytes, &mut row, kept.lent(), call, &mut answer);
            assert_eq!(answered(&[0, number as u64, answer[0], answer[1], answer[2]]), expected[i]);
            assert_eq!(site.call(&mut state, call), expected[i].map_err(RequestError::from));
            assert!(matches!(call, Granting(_) | Finish(_)) && number == 0 || kept.held == before);
            assert_eq!(without_junk(kept.clone()), state.kept);
        }
        assert_eq!(without_junk(kept), after.kept);
    }
}

#[test]
fn nothing_hangs_on_the_words_of_a_row() {
    for name in ["m", "case02", "case06", "case07", "case08", "calls", "loops"] {
        let bytes = file(name);
        for threads in [&[][..], &[0], &[0, 0, 1, 1], &[0, 1, 1, 0], &[1, 1, 1], &[1, 0, 1], &[0, 0, 2, 255, 1, 1]] {
            same_by_rows(&bytes, threads);
        }
        same_by_rows(&bytes, &[1, 0, 0, 3, 1, 0, 2, 1, 0, 0, 1, 40]);
        let site = site(name);
        let whole = issue(&site, &mut site.fresh());
        same_by_rows(&bytes, &whole);
        same_by_rows(&bytes, &whole.iter().flat_map(|&k| [k ^ 1, k]).collect::<Vec<u8>>());
    }
    same_by_rows(&one_counter(), &[1, 0, 1]);
    same_by_rows(&largest(), &(0..32).chain((0..32).flat_map(|k| [k, k])).collect::<Vec<u8>>());
    same_by_rows(&largest(), &[0; 100]);
}

/// A request by rows on M's fresh state, with so many words of a row and of records. A refusal leaves the state, and no call touches words
/// past the 64.
fn ask_m(words: usize, records: usize, thread: u8) -> u8 {
    let mut kept = site("m").fresh().kept;
    let (before, mut row, mut answer) = (kept.clone(), vec![7; words], [9; ANSWER]);
    let lent = kept.lent();
    let lent = Lent { records: &mut lent.records[..records], ..lent };
    let number = calls::request_by_rows(&file("m"), &mut row, lent, thread, &mut answer);
    assert!(row.iter().skip(ROW).all(|&word| word == 7));
    assert!(number == 0 || kept == before && answer == [9; ANSWER]);
    number
}

#[test]
fn a_row_has_64_words() {
    // M has two threads, and so ten words of records.
    for (words, records, thread, number) in [
        (64, 160, 1, 0),
        (65, 160, 1, 0),
        (64, 10, 1, 0),
        (63, 160, 1, 16),
        (0, 160, 1, 16),
        (63, 160, 9, 16),
        (63, 10, 255, 16),
        (64, 160, 9, 10),
        (65, 160, 2, 10),
        (63, 0, 1, 11),
        (63, 0, 9, 11),
        (0, 9, 1, 11),
        (64, 0, 9, 11),
        (65, 9, 1, 11),
    ] {
        assert_eq!(ask_m(words, records, thread), number, "{words} words, {records} words of records, thread {thread}");
    }
    // 12 comes after it.
    let mut waits = site("m").replay(&[1]).1.kept;
    for (words, number) in [(63, 16), (64, 12)] {
        assert_eq!(calls::request_by_rows(&file("m"), &mut vec![0; words], waits.lent(), 1, &mut [0; ANSWER]), number);
    }
    // A number that no state has, and one that does not fit the model, before it.
    for (place, value) in [(1, 5), (0, 4)] {
        let mut kept = site("m").fresh().kept;
        kept.records[place] = value;
        for words in [63, 64] {
            assert_eq!(calls::request_by_rows(&file("m"), &mut vec![0; words], kept.lent(), 9, &mut [0; ANSWER]), 11);
        }
    }
}

#[test]
fn a_file_or_a_list_by_rows_takes_64_words() {
    let mut longer = file("m");
    longer.push(0);
    let files = [(vec![], 1), (vec![4, 0, 4, 0], 2), (file("refused7"), 7), (longer, 9), (file("m"), 0), (largest(), 0)];
    for (bytes, number) in files {
        for (words, short) in [(0, true), (63, true), (64, false), (65, false)] {
            let (mut kept, mut row) = (Kept::zero(), vec![7; words]);
            let expected = if number == 0 && short { 16 } else { number };
            assert_eq!(calls::load_by_rows(&bytes, &row), expected);
            assert_eq!(calls::replay_by_rows(&bytes, &mut row, &[0, 9, 256, 512], kept.lent()).0, expected);
            assert!(row.iter().skip(ROW).all(|&word| word == 7));
            assert!(expected == 0 || kept == Kept::zero());
            // 11 for no records after the reader's number, and before 16.
            let lent = Lent { records: &mut [], ..kept.lent() };
            assert_eq!(calls::replay_by_rows(&bytes, &mut row, &[0, 9], lent).0, if number == 0 { 11 } else { number });
            // So for 63 held values.
            let lent = kept.lent();
            let lent = Lent { held: &mut lent.held[..63], ..lent };
            assert_eq!(calls::replay_by_rows(&bytes, &mut row, &[0, 9], lent).0, if number == 0 { 11 } else { number });
        }
    }
}

#[test]
fn a_grant_holds_and_a_finish_stores() {
    for m in both("m") {
        let mut state = m.fresh();
        assert_eq!(m.grant(&mut state, 0), granted(0, 0, 0));
        assert_eq!((state.variables(), state.log()), (&[0; 64], &[0; 385]));
        assert_eq!(state.records()[..10], [0, 4, 0, 0, 0, 2, 2, 0, 0, 0]);
        assert_eq!(m.grant(&mut state, 1), granted(2, 0, 0));
        assert_eq!(m.finish(&mut state, 0), granted(0, 0, 0));
        // Kept in the log, since thread 1 runs at (0, 0).
        assert_eq!((state.variables()[0], &state.log()[..4]), (1, &[1, 0, 0, 0][..]));
        assert_eq!(m.finish(&mut state, 1), granted(2, 0, 0));
        assert_eq!((state.log()[0], &state.records()[5..10]), (0, &[3, 2, 0, 0, 1][..]));
        assert_eq!(state.held(), &[0; 2048]);
    }
}

#[test]
fn out_of_turn_is_19() {
    for m in both("m") {
        let list = [Finish(0), Granting(0), Granting(0), Both(0), Finish(1), Finish(2), Granting(2), Finish(0), Finish(0)];
        let numbers: Vec<u8> = m.replay(&list).0.into_iter().map(|a| a.err().map_or(0, |refused| refused.0)).collect();
        assert_eq!(numbers, [19, 0, 19, 19, 19, 10, 10, 0, 19]);
        let mut state = m.fresh();
        issue(&m, &mut state);
        // Thread 0 has ended, and thread 1 waits.
        for k in [0, 1] {
            assert_eq!([m.grant(&mut state, k), m.finish(&mut state, k)], [refused(12), refused(19)]);
        }
    }
}

/// What a thread reads is fixed by its grant: a state in which others have finished since is no matter.
#[test]
fn finishes_in_any_order_end_as_the_plain_run() {
    for name in ["m", "case02", "case06", "case07", "case08", "calls", "loops"] {
        for site in both(name) {
            let mut plain = site.fresh();
            let count = issue(&site, &mut plain).len();
            for seed in 0..20u32 {
                let (mut state, mut list, mut draw) = (site.fresh(), Vec::new(), seed);
                // Threads from a number on that the seed draws, and finishes or requests first.
                loop {
                    draw = draw.wrapping_mul(1_103_515_245).wrapping_add(12_345);
                    let kinds: [fn(u8) -> Call; 3] =
                        [[Granting, Finish, Both], [Finish, Granting, Both], [Both, Granting, Finish]][(draw >> 16) as usize % 3];
                    let threads = (0..32u8).map(|k| k.wrapping_add((draw >> 20) as u8) % 32);
                    let next = kinds
                        .into_iter()
                        .flat_map(|kind| threads.clone().map(kind))
                        .find(|&call| site.call(&mut state, call).is_ok());
                    let Some(call) = next else { break };
                    list.push(call);
                }
                assert_eq!(state, plain);
                assert_eq!(list.iter().filter(|call| !matches!(call, Finish(_))).count(), count);
                assert_eq!(site.replay(&list).1, plain);
            }
        }
    }
}

#[test]
fn a_request_is_a_grant_and_its_finish() {
    for site in ["m", "case06", "case07", "case08", "calls", "loops"].into_iter().flat_map(both) {
        let mut state = site.fresh();
        loop {
            let mut asked = Vec::new();
            for k in 0..4 {
                let (mut apart, mut at_once) = (state.clone(), state.clone());
                let granted = site.grant(&mut apart, k);
                assert_eq!(granted, site.request(&mut at_once, k));
                let other =
                    granted
                        .map_err(|e| if e == RequestError::Refused(Refused(10)) { e } else { RequestError::Refused(Refused(19)) });
                assert_eq!(site.finish(&mut apart, k), other);
                assert_eq!(apart, at_once);
                asked.extend(granted.is_ok().then_some(at_once));
            }
            let Some(next) = asked.pop() else { break };
            state = next;
        }
    }
}

#[test]
fn lists_of_calls_by_rows() {
    for name in ["m", "case02", "case06", "case07", "case08", "calls", "loops"] {
        let bytes = file(name);
        let mut draw = 7u32;
        for _ in 0..10 {
            let list: Vec<Call> = (0..40)
                .map(|_| {
                    draw = draw.wrapping_mul(1_103_515_245).wrapping_add(12_345);
                    let k = (draw >> 16) as u8 % 4;
                    [Granting(k), Finish(k), Both(k)][(draw >> 24) as usize % 3]
                })
                .collect();
            same_by_rows(&bytes, &list);
            let site = site(name);
            let mut state = site.fresh();
            let asked: Vec<_> = list.iter().map(|&call| site.call(&mut state, call)).collect();
            let (answers, replayed) = site.replay(&list);
            assert_eq!(answers.into_iter().map(|a| a.map_err(RequestError::from)).collect::<Vec<_>>(), asked);
            assert_eq!(replayed, state);
        }
    }
    let all: Vec<Call> = (0..32).map(Granting).chain((0..32).rev().map(Finish)).collect();
    same_by_rows(&largest(), &all);
}

#[test]
fn a_call_is_a_word() {
    for (call, word) in
        [(Both(0), 0), (Both(255), 255), (Granting(0), 256), (Granting(255), 511), (Finish(0), 512), (Finish(255), 767)]
    {
        assert_eq!(call.word(), word);
    }
    // From 768 on, of a thread that no model has.
    let list = [255, 511, 767, 768, 1023, 1024, u16::MAX];
    let (number, answers) = calls::replay_by_rows(&file("m"), &mut [0; ROW], &list, Kept::zero().lent());
    assert_eq!(number, 0);
    assert!(answers.chunks(5).zip(list).all(|(a, word)| *a == [u64::from(word), 10, 0, 0, 0]));
}

/// M has two threads, and so 128 held values: with fewer a grant or a finish is refused with 11, before 16 and 10, and nothing is written.
#[test]
fn so_many_values_are_held() {
    let (bytes, mut table) = (file("m"), calls::no_words());
    assert_eq!(calls::load(&bytes, &mut table), 0);
    for (call, list) in [(Granting(1), &[][..]), (Granting(9), &[]), (Finish(0), &[Granting(0)]), (Finish(1), &[Granting(0)])] {
        for (values, words) in [(0, 64), (127, 64), (127, 63), (128, 64), (128, 63), (2048, 64)] {
            let mut kept = site("m").replay(list).1.kept;
            let (before, mut answer) = (kept.clone(), [9; ANSWER]);
            let Lent { variables, log, records, held } = kept.lent();
            let lent = Lent { variables, log, records, held: &mut held[..values] };
            let number = call_by_rows(&bytes, &mut vec![7; words], lent, call, &mut answer);
            let own = match call {
                Granting(9) => 10,
                Finish(1) => 19,
                _ => 0,
            };
            assert_eq!(
                number,
                if values < 128 {
                    11
                } else if words < 64 {
                    16
                } else {
                    own
                },
                "{call:?}, {values} values, {words} words"
            );
            assert!(number == 0 || kept == before && answer == [9; ANSWER]);
            if words == 64 {
                let mut full = before.clone();
                let Lent { variables, log, records, held } = full.lent();
                let lent = Lent { variables, log, records, held: &mut held[..values] };
                let again = match call {
                    Finish(thread) => calls::finish(&bytes, &table, lent, thread, &mut answer),
                    Both(thread) | Granting(thread) => calls::grant(&bytes, &table, lent, thread, &mut answer),
                };
                assert_eq!((again, full), (number, kept));
            }
        }
    }
}

#[test]
fn errors_say_what_happened() {
    assert_eq!(RequestError::from(Refused(15)).to_string(), "refused 15");
    assert_eq!(RequestError::OtherSite.to_string(), "the state belongs to another site");
    assert_eq!(both("m").map(|site| format!("{site:?}")), ["Site(116 bytes)", "Site(116 bytes, by rows)"]);
}
