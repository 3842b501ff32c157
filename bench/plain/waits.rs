//! Commit wait over the reports of a replay.
use std::collections::BTreeMap;
use std::io::Write;

/// The line of a transaction's begin, by its stamp and its place among all transactions.
type Waiting = BTreeMap<(u128, u64), u64>;

#[derive(Default)]
pub struct Waits {
    /// Those that wait at each device.
    waiting: Vec<Waiting>,
    /// The greatest stamp of those that ended, with the place and the line of the first that has it.
    worst: Option<(u128, u64, u64)>,
    begun: u64,
    ended: u64,
    disorders: u64,
}

impl Waits {
    pub fn new(devices: usize) -> Waits {
        Waits { waiting: vec![Waiting::new(); devices], ..Waits::default() }
    }

    /// A report at a line: those that end with it, a disorder, and the transaction that begins.
    pub fn report(&mut self, line: u64, d: u32, name: &str, clock: u128, eps: u128, out: &mut impl Write) {
        let (waiting, stamp) = (&mut self.waiting[d as usize], clock + eps);
        let left = waiting.split_off(&(clock.saturating_sub(eps), 0));
        let mut ended: Vec<_> = std::mem::replace(waiting, left).into_iter().collect();
        ended.sort_by_key(|((_, place), _)| *place);
        self.ended += ended.len() as u64;
        for ((stamp, place), begin) in ended {
            writeln!(out, "ended {line} {begin}").unwrap();
            if self.worst.map_or(true, |worst| stamp > worst.0 || stamp == worst.0 && place < worst.1) {
                self.worst = Some((stamp, place, begin));
            }
        }
        if let Some((_, _, begin)) = self.worst.filter(|worst| stamp <= worst.0) {
            self.disorders += 1;
            writeln!(out, "disorder {line} {begin}").unwrap();
        }
        writeln!(out, "begin {line} {name} {stamp}").unwrap();
        self.waiting[d as usize].insert((stamp, self.begun), line);
        self.begun += 1;
    }

    pub fn finish(&self, out: &mut impl Write) {
        writeln!(out, "waits {} {} {}", self.begun, self.ended, self.disorders).unwrap();
    }
}
