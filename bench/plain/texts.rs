//! Topologies as bench/schedule.py and bench/parts/networks.py print them, and plans as `sundial plan`
//! does, each read in one pass. A text is kept to the end, so that names are parts of it.
use std::collections::HashMap;
use std::hash::{BuildHasherDefault, Hasher};

/// A quick hash of names, which a text can be made to defeat.
#[derive(Default)]
pub struct Quick(u64);

impl Hasher for Quick {
    fn write(&mut self, bytes: &[u8]) {
        for part in bytes.chunks(8) {
            let mut eight = [0; 8];
            eight[..part.len()].copy_from_slice(part);
            self.0 = (self.0.rotate_left(5) ^ u64::from_le_bytes(eight)).wrapping_mul(0x517c_c1b7_2722_0a95);
        }
    }

    fn write_u8(&mut self, _end: u8) {}

    fn finish(&self) -> u64 {
        self.0 ^ self.0 >> 32
    }
}

type Numbers<N> = HashMap<&'static str, N, BuildHasherDefault<Quick>>;

pub struct Link {
    pub ends: [u32; 2],
    pub min: u64,
    pub max: u64,
}

#[derive(Default)]
pub struct Network {
    pub names: Vec<&'static str>,
    pub links: Vec<Link>,
    pub link_names: Vec<&'static str>,
    pub domain_names: Vec<&'static str>,
    /// The devices and the links of each domain.
    pub domains: Vec<(Vec<u32>, Vec<u32>)>,
    pub numbers: Numbers<u64>,
    devices: Numbers<u32>,
    link_numbers: Numbers<u32>,
}

/// The rates, the period, the limit of ticks and the rounds that may be lost.
pub struct Params {
    pub ppm: u64,
    pub grain: u64,
    pub period: u64,
    pub tick: u64,
    pub loss: u64,
}

/// The place of a byte in a short text.
fn place(text: &str, byte: u8) -> Option<usize> {
    text.bytes().position(|it| it == byte)
}

/// What stands in quotes, from left to right.
fn quoted(mut text: &str) -> impl Iterator<Item = &str> {
    std::iter::from_fn(move || {
        let from = &text[place(text, b'"')? + 1..];
        let end = place(from, b'"')?;
        text = &from[end + 1..];
        Some(&from[..end])
    })
}

fn name(value: &'static str) -> &'static str {
    quoted(value).next().unwrap()
}

impl Network {
    pub fn read(text: &'static str) -> Network {
        let (mut net, mut kind) = (Network::default(), "");
        for line in text.lines() {
            if line.starts_with('[') {
                kind = line;
                continue;
            }
            let key = &line[..place(line, b' ').unwrap()];
            let value = &line[key.len() + " = ".len()..];
            match kind {
                "[[device]]" => {
                    net.devices.insert(name(value), net.names.len() as u32);
                    net.names.push(name(value));
                }
                "[[link]]" => net.read_link(key, value),
                "[[domain]]" => net.read_domain(key, value),
                _ if key != "roots" => {
                    net.numbers.insert(key, value.parse().unwrap());
                }
                _ => {}
            }
        }
        net
    }

    /// A line of a link, whose name comes first.
    fn read_link(&mut self, key: &str, value: &'static str) {
        if key == "name" {
            self.link_numbers.insert(name(value), self.links.len() as u32);
            self.link_names.push(name(value));
            self.links.push(Link { ends: [0, 0], min: 0, max: 0 });
            return;
        }
        let link = self.links.last_mut().unwrap();
        match key {
            "min" => link.min = value.parse().unwrap(),
            "max" => link.max = value.parse().unwrap(),
            _ => quoted(value).zip(&mut link.ends).for_each(|(name, end)| *end = self.devices[name]),
        }
    }

    /// A line of a domain, whose name comes first.
    fn read_domain(&mut self, key: &str, value: &'static str) {
        match key {
            "name" => {
                self.domain_names.push(name(value));
                self.domains.push(Default::default());
            }
            "devices" => self.domains.last_mut().unwrap().0 = quoted(value).map(|it| self.devices[it]).collect(),
            _ => self.domains.last_mut().unwrap().1 = quoted(value).map(|it| self.link_numbers[it]).collect(),
        }
    }

    pub fn params(&self) -> Params {
        let [ppm, grain, period, tick, loss] = ["ppm", "grain", "period", "tick", "loss"].map(|key| self.numbers[key]);
        Params { ppm, grain, period, tick, loss }
    }

    fn device(&self, name: &str) -> u32 {
        self.devices[name]
    }

    fn link(&self, name: &str) -> u32 {
        self.link_numbers[name]
    }
}

/// The far end of a link that a device sends over.
pub struct End {
    pub link: u32,
    pub receiver: u32,
    pub min: u64,
    pub max: u64,
    pub mid: u64,
    pub half: u64,
    /// Whether the receiver listens to the link in each mode.
    pub heard_in: [bool; 3],
}

pub struct Plan {
    pub root: u32,
    pub backup_root: u32,
    pub waits: [u64; 3],
    pub members: Vec<bool>,
    pub is_absent: Vec<bool>,
    /// The parents of each device, and the links to them.
    pub primary: Vec<Option<u32>>,
    pub backup: Vec<Option<u32>>,
    pub primary_link: Vec<Option<u32>>,
    pub backup_link: Vec<Option<u32>>,
    /// Below each device: links ascending.
    pub ends: Vec<Vec<End>>,
}

/// What stands behind a key of a JSON text, up to the end of the text.
fn behind<'a>(text: &'a str, key: &str) -> &'a str {
    let key = format!("\"{key}\":");
    &text[text.find(&key).unwrap() + key.len()..]
}

fn number(text: &str, key: &str) -> u64 {
    let text = behind(text, key);
    text[..text.find(|c: char| !c.is_ascii_digit()).unwrap()].parse().unwrap()
}

/// The names of a list of names, or the words of a list of rows.
fn list<'a>(text: &'a str, key: &str) -> &'a str {
    let text = behind(text, key);
    &text[..text.find(']').unwrap()]
}

/// A row of a plan: its device, and its parents with the links to them.
#[derive(Default)]
struct Row {
    device: u32,
    parents: [Option<u32>; 2],
    links: [Option<u32>; 2],
}

impl Row {
    fn read(net: &Network, text: &str) -> Option<Row> {
        let (mut row, mut words) = (Row::default(), quoted(text));
        while let Some(key) = words.next() {
            let name = words.next()?;
            match key {
                "device" => row.device = net.device(name),
                "parent" => row.parents[0] = Some(net.device(name)),
                "backup" => row.parents[1] = Some(net.device(name)),
                "link" => row.links[0] = Some(net.link(name)),
                _ => row.links[1] = Some(net.link(name)),
            }
        }
        row.parents[0].is_some().then_some(row)
    }
}

impl Plan {
    pub fn read(net: &Network, text: &str) -> Plan {
        let count = net.names.len();
        let device = |key| net.device(quoted(behind(text, key)).next().unwrap());
        let mut plan = Plan {
            root: device("root"),
            backup_root: device("backup_root"),
            waits: ["wait_first", "wait_second", "wait"].map(|key| number(text, key)),
            members: vec![true; count],
            is_absent: vec![false; net.links.len()],
            primary: vec![None; count],
            backup: vec![None; count],
            primary_link: vec![None; count],
            backup_link: vec![None; count],
            ends: Vec::new(),
        };
        quoted(list(text, "absent_devices")).for_each(|name| plan.members[net.device(name) as usize] = false);
        quoted(list(text, "absent_links")).for_each(|name| plan.is_absent[net.link(name) as usize] = true);
        let mut edges = Vec::with_capacity(2 * count);
        for row in list(text, "rows").split('}').filter_map(|row| Row::read(net, row)) {
            let device = row.device as usize;
            [plan.primary[device], plan.backup[device]] = row.parents;
            [plan.primary_link[device], plan.backup_link[device]] = row.links;
            for (parent, link) in row.parents.into_iter().zip(row.links) {
                if let (Some(parent), Some(link)) = (parent, link) {
                    edges.push((parent, link, row.device, row.links.map(|it| it == Some(link))));
                }
            }
        }
        edges.sort_unstable();
        let mut left = &edges[..];
        for parent in 0..count as u32 {
            let (below, behind) = left.split_at(left.partition_point(|edge| edge.0 == parent));
            plan.ends.push(below.iter().map(|&(_, link, receiver, hears)| End::new(net, link, receiver, hears)).collect());
            left = behind;
        }
        plan
    }
}

impl End {
    fn new(net: &Network, link: u32, receiver: u32, [primary, backup]: [bool; 2]) -> End {
        let Link { min, max, .. } = net.links[link as usize];
        let mid = min + (max - min) / 2;
        End { link, receiver, min, max, mid, half: max - mid, heard_in: [primary, backup, false] }
    }
}
