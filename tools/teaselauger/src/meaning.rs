//! The numbers of refusal in words, as `docs/RULES.md`, 7, has them.

/// One sentence for each number, 1 to 19.
pub fn meaning(number: u8) -> &'static str {
    match number {
        1 => "The bytes end before a record's head or before its length, or a length is below 4.",
        2 => "A record's kind is not 1 to 5, or a record of its kind may not stand there.",
        3 => "A record's length is not that of its kind.",
        4 => "The horizon, the number of variables or the number of events is out of range, or there is a 65th segment or a 33rd thread.",
        5 => "A closer breaks a rule of its bytes.",
        6 => "An operation is not 1 to 6, or a notify has a b that is not 0.",
        7 => "A variable is neither below V nor a port (128 to 135), or an event is not below E.",
        8 => "A next segment or a first segment is not below N.",
        9 => "Bytes follow the end record.",
        10 => "The thread number is not below T.",
        11 => "What was handed in is not fit: a model against the rules, a buffer that is too short, or numbers that no state has.",
        12 => "The thread is not ready: it waits, has ended or is overrun.",
        13 => "The thread is ready later than the horizon.",
        14 => "A hazard stands: another thread could run a conflicting segment before.",
        15 => "The log has no room for the segment's notifications.",
        16 => "A buffer for the distance table, a row or an output is too short.",
        17 => "A record of ports has all eight unused, or a number that is neither 255 nor below V.",
        18 => "A thread can reach a segment that names a port which the thread leaves unused.",
        19 => "A running thread was granted or requested, or one that is not running was finished.",
        _ => "No such number of refusal.",
    }
}

#[cfg(test)]
mod tests {
    use super::meaning;

    #[test]
    fn every_number_has_one_sentence_of_its_own() {
        let all: Vec<&str> = (1..=19).map(meaning).collect();
        for (i, text) in all.iter().enumerate() {
            assert!(text.ends_with('.') && text.matches(". ").count() == 0, "{text}");
            assert!(!all[..i].contains(text), "{text}");
        }
        assert_eq!((meaning(0), meaning(20)), (meaning(255), meaning(255)));
    }
}
