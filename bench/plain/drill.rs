//! Drills a plan, to be timed beside `sundial drill`.
//! usage: drill TOPOLOGY PLAN BASE HOLD
//! It knows texts in the forms in which bench/parts/networks.py and `sundial plan` print them.
#[allow(dead_code)]
mod judge;
#[allow(dead_code)]
mod texts;

use judge::{Domain, Judge, Timing, NONE};
use std::fs::read_to_string;
use std::io::{stdout, Write};
use texts::{Network, Plan};

/// The greatest sum of halves over the walks of a device, and the greatest number of links.
#[derive(Clone, Copy, Default, PartialEq)]
struct Way {
    halves: u64,
    links: u32,
}

impl Way {
    fn over(self, half: u64) -> Way {
        Way { halves: self.halves + half, links: self.links + 1 }
    }

    fn or(self, other: Way) -> Way {
        Way { halves: self.halves.max(other.halves), links: self.links.max(other.links) }
    }
}

struct Drill<'a> {
    judge: Judge<'a>,
    halves: Vec<u64>,
    /// What each number of links adds: the drift of the longest silence, with the grain.
    growths: Vec<u128>,
    source: u128,
    /// Of each device the way where nothing hits it, and the end of its line then.
    calm: Vec<Way>,
    ends: Vec<Vec<u8>>,
    /// The ways under the domain of a mark.
    ways: Vec<(u32, Way)>,
    mark: u32,
}

/// What a device adds where its longest walk has this many links.
fn growth(timing: &Timing, waits: [u64; 3], links: u128) -> u128 {
    let [first, second, wait] = waits.map(u128::from);
    let takeover = timing.up(first) + timing.up(second) + 6 * (timing.silence + timing.tick);
    let move_over = timing.up(wait) + timing.tick + timing.silence;
    let quiet = takeover.max(move_over) + 2 * timing.silence * (links + 1);
    let age = (1_000_000 * (quiet + timing.grain + 1) - 1) / (1_000_000 - timing.ppm);
    timing.grain + timing.growth(age)
}

impl<'a> Drill<'a> {
    fn new(judge: Judge<'a>, waits: [u64; 3], base: u64, hold: u64) -> Drill<'a> {
        let halves: Vec<u64> = judge.net.links.iter().map(|link| link.max - (link.min + link.max) / 2).collect();
        let timing = &judge.timing;
        let most = timing.depth as u32 + 1;
        let growths = (0..=most).map(|links| growth(timing, waits, links.into())).collect();
        let to_root = |device: u32| -> u64 {
            let ways = judge.walk(device).map(|here| judge.hops[here as usize].way);
            ways.filter(|way| *way != NONE).map(|way| halves[way as usize]).sum()
        };
        let backup_root = judge.backup_root as usize;
        let fallback = halves[judge.hops[backup_root].backup_way as usize] + to_root(judge.hops[backup_root].backup);
        let far = u128::from(to_root(judge.backup_root).max(fallback));
        let held = timing.grain + timing.growth(hold.into());
        let source = u128::from(base) + far + 2 * held + far;
        let count = judge.hops.len();
        let mut drill = Drill {
            judge,
            halves,
            growths,
            source,
            calm: vec![Way::default(); count],
            ends: vec![Vec::new(); count],
            ways: vec![(0, Way::default()); count],
            mark: 0,
        };
        for device in 0..count as u32 {
            drill.calm[device as usize] = drill.calm_way(device);
            drill.ends[device as usize] = drill.line_end(device, drill.calm[device as usize]);
        }
        drill
    }

    fn is_root(&self, device: u32) -> bool {
        device == self.judge.root || device == self.judge.backup_root
    }

    fn calm_way(&self, device: u32) -> Way {
        if self.is_root(device) || !self.judge.members[device as usize] {
            return Way::default();
        }
        let above = self.calm_way(self.judge.hops[device as usize].parent);
        above.over(self.halves[self.judge.hops[device as usize].way as usize])
    }

    /// The way of a device while things of the domain fail.
    fn way(&mut self, device: u32) -> Way {
        if self.is_root(device) || !self.judge.is_hit(device) {
            return self.calm[device as usize];
        }
        let (mark, known) = self.ways[device as usize];
        if mark == self.mark {
            return known;
        }
        let half = self.halves[self.judge.hops[device as usize].way as usize];
        let mut way = self.way(self.judge.hops[device as usize].parent).over(half);
        let backup = self.judge.hops[device as usize].backup;
        if backup != NONE {
            let half = self.halves[self.judge.hops[device as usize].backup_way as usize];
            way = way.or(self.way(backup).over(half));
        }
        self.ways[device as usize] = (self.mark, way);
        way
    }

    fn line_end(&self, device: u32, way: Way) -> Vec<u8> {
        let bound = self.source + u128::from(way.halves) + self.growths[way.links as usize];
        format!(" {} {bound}\n", self.judge.net.names[device as usize]).into_bytes()
    }

    fn put_domain(&mut self, domain: Domain, bytes: &mut Vec<u8>) -> usize {
        self.judge.look_at(domain);
        self.mark += 1;
        let net = self.judge.net;
        let name = match domain {
            Domain::Listed(number) => format!("bound listed {}", net.domain_names[number as usize]),
            Domain::Device(number) => format!("bound device {}", net.names[number as usize]),
            Domain::Link(number) => format!("bound link {}", net.link_names[number as usize]),
        };
        let mut members = 0;
        for device in (0..self.calm.len() as u32).filter(|device| self.judge.members[*device as usize]) {
            members += 1;
            let is_calm = !self.judge.is_hit(device) || self.is_root(device);
            let way = if is_calm { self.calm[device as usize] } else { self.way(device) };
            let has_bound = !self.judge.is_failed(device) && (is_calm || self.judge.is_fed(device));
            if !has_bound || way.links as usize >= self.growths.len() {
                bytes.extend_from_slice(b"no");
                bytes.extend_from_slice(name.as_bytes());
                writeln!(bytes, " {}", net.names[device as usize]).expect("room");
                continue;
            }
            bytes.extend_from_slice(name.as_bytes());
            if way == self.calm[device as usize] {
                bytes.extend_from_slice(&self.ends[device as usize]);
            } else {
                bytes.extend_from_slice(&self.line_end(device, way));
            }
        }
        members
    }
}

fn main() {
    let words: Vec<String> = std::env::args().skip(1).collect();
    let net = Network::read(read_to_string(&words[0]).expect("a topology").leak());
    let plan = Plan::read(&net, &read_to_string(&words[1]).expect("a plan"));
    let [base, hold] = [2, 3].map(|place| words[place].parse().expect("a number"));
    let mut judge = Judge::new(&net, &plan);
    if let Some(condition) = judge.breach() {
        println!("refused plan 1 {condition}");
        return;
    }
    let mut drill = Drill::new(judge, plan.waits, base, hold);
    let (mut out, mut bytes, mut members, mut domains) = (stdout().lock(), Vec::new(), 0, 0);
    for domain in drill.judge.domains() {
        members = drill.put_domain(domain, &mut bytes);
        out.write_all(&bytes).expect("to be written");
        bytes.clear();
        domains += 1;
    }
    writeln!(out, "done {domains} {members}").expect("to be written");
}
