//! The order in which ready threads are asked.
use crate::arguments::Arguments;
use crate::failure::Failure;
use crate::records::Record;

enum Way {
    Least,
    MostAhead,
    Random(Random),
}

/// Between two grants each ready thread is asked at most once.
pub struct Order {
    way: Way,
    /// The threads to be asked, last first; none before the first round and after a grant.
    due: Option<Vec<u8>>,
}

const SEED: u64 = 1;

impl Order {
    /// By the options --order and --seed.
    pub fn of(arguments: &Arguments) -> Result<Option<Order>, Failure> {
        let seed = arguments.number("--seed")?;
        let way = match arguments.value("--order") {
            None => None,
            Some("least") => Some(Way::Least),
            Some("most-ahead") => Some(Way::MostAhead),
            Some("random") => Some(Way::Random(Random(seed.unwrap_or(SEED)))),
            Some(other) => return Err(Failure::Usage(format!("--order is least, most-ahead or random, not {other}"))),
        };
        if seed.is_some() && !matches!(way, Some(Way::Random(_))) {
            return Err(Failure::Usage("--seed goes with --order random".into()));
        }
        Ok(way.map(|way| Order { way, due: None }))
    }

    /// The ready thread of the least stamp, which is always granted.
    pub fn least() -> Order {
        Order { way: Way::Least, due: None }
    }

    pub fn is_new(&self) -> bool {
        self.due.is_none()
    }

    /// A round of requests by the ready threads.
    pub fn begin(&mut self, mut ready: Vec<u8>, records: &[Record]) {
        let stamp = |&k: &u8| (records[usize::from(k)].cycle, k);
        match &mut self.way {
            Way::Least => ready.sort_by_key(|k| std::cmp::Reverse(stamp(k))),
            Way::MostAhead => ready.sort_by_key(stamp),
            Way::Random(random) => random.shuffle(&mut ready),
        }
        self.due = Some(ready);
    }

    pub fn next(&mut self) -> Option<u8> {
        self.due.as_mut().and_then(Vec::pop)
    }

    pub fn granted(&mut self) {
        self.due = None;
    }
}

/// Numbers by chance, the same for the same seed (SplitMix64).
struct Random(u64);

impl Random {
    fn next(&mut self) -> u64 {
        self.0 = self.0.wrapping_add(0x9e37_79b9_7f4a_7c15);
        let mut x = self.0;
        x = (x ^ (x >> 30)).wrapping_mul(0xbf58_476d_1ce4_e5b9);
        x = (x ^ (x >> 27)).wrapping_mul(0x94d0_49bb_1331_11eb);
        x ^ (x >> 31)
    }

    fn shuffle(&mut self, all: &mut [u8]) {
        for i in (1..all.len()).rev() {
            all.swap(i, (self.next() % (i as u64 + 1)) as usize);
        }
    }
}

#[cfg(test)]
mod tests {
    use super::*;
    use crate::records::Standing;

    fn asked(mut order: Order) -> Vec<u8> {
        let cycles = [(5, 0), (5, 1), (0, 9), (5, 0)];
        let records = cycles.map(|cycle| Record { segment: 0, standing: Standing::Ready, cycle });
        order.begin(vec![0, 1, 2, 3], &records);
        std::iter::from_fn(|| order.next()).collect()
    }

    #[test]
    fn orders_go_by_stamps() {
        assert_eq!(asked(Order::least()), [2, 0, 3, 1]);
        assert_eq!(asked(Order { way: Way::MostAhead, due: None }), [1, 3, 0, 2]);
    }

    #[test]
    fn chance_asks_each_once_and_hangs_on_the_seed() {
        let by = |seed| asked(Order { way: Way::Random(Random(seed)), due: None });
        let all: Vec<Vec<u8>> = (0..50).map(by).collect();
        assert!(all.iter().all(|order| (0..4).all(|k| order.contains(&k))));
        assert!((0..4).all(|k| all.iter().any(|order| order[0] == k)));
        assert_eq!(by(7), by(7));
    }
}
