//! Judges a plan by the conditions of docs/CONDITIONS.md, as plainly and as fast as Rust does it.
//! It knows networks with the same rates for all devices, and says which condition is broken first
//! and no more.
use crate::texts::{Network, Plan};

pub const NONE: u32 = u32::MAX;

/// A fault domain, in the order of the checker.
#[derive(Clone, Copy)]
pub enum Domain {
    Listed(u32),
    Device(u32),
    Link(u32),
}

/// The numbers of the topology that the rules of timing speak of.
pub struct Timing {
    pub ppm: u128,
    pub grain: u128,
    pub tick: u128,
    pub depth: u128,
    /// The greatest silence over a sound path.
    pub silence: u128,
    pub period: u128,
    pub delay: u128,
}

impl Timing {
    fn new(net: &Network) -> Timing {
        let [ppm, grain, tick, depth, period, loss] =
            ["ppm", "grain", "tick", "depth", "period", "loss"].map(|key| u128::from(net.numbers[key]));
        let delay = net.links.iter().map(|link| link.max).max().unwrap_or(0).into();
        let mut timing = Timing { ppm, grain, tick, depth, silence: 0, period, delay };
        timing.silence = (loss + 2) * (timing.up(period) + tick) + 4 * (depth + 1) * delay;
        timing
    }

    pub fn growth(&self, counter: u128) -> u128 {
        (self.ppm * counter).div_ceil(1_000_000)
    }

    pub fn up(&self, counter: u128) -> u128 {
        counter + self.growth(counter) + self.grain
    }

    fn low(&self, counter: u128) -> u128 {
        counter.saturating_sub(self.growth(counter) + self.grain)
    }

    fn is_met(&self, waits: [u64; 3]) -> bool {
        let [first, second, wait] = waits.map(u128::from);
        let patience = self.silence + self.tick;
        self.low(self.period) > 2 * (self.depth + 1) * self.delay + self.tick
            && self.low(first) >= 2 * patience
            && self.low(second) >= 2 * patience
            && self.low(wait) >= self.up(first) + self.up(second) + 6 * patience
            && self.low(wait) >= 2 * self.up(first) + self.up(second) + 2 * patience
    }
}

/// The parents of a device and the links to them: `NONE` where there is none.
#[derive(Clone, Copy)]
pub struct Hops {
    pub parent: u32,
    pub way: u32,
    pub backup: u32,
    pub backup_way: u32,
}

impl Hops {
    /// Where the device turns when its way is hit.
    fn next(self) -> (u32, u32) {
        if self.backup == NONE { (self.parent, self.way) } else { (self.backup, self.backup_way) }
    }
}

/// What is looked up of a plan, by number, and marks that hold for one domain.
pub struct Judge<'a> {
    pub net: &'a Network,
    pub root: u32,
    pub backup_root: u32,
    pub members: &'a [bool],
    pub hops: Vec<Hops>,
    pub timing: Timing,
    waits: [u64; 3],
    is_absent: Vec<bool>,
    /// The links of each device, one after the other, each with the device at its other end.
    around: Vec<Vec<(u32, u32)>>,
    /// Devices in preorder: those above the backup root, and then those that follow it.
    order: Vec<u32>,
    enter: Vec<u32>,
    leave: Vec<u32>,
    behind: u32,
    /// The device that a link carries.
    carried: Vec<u32>,
    /// The mark of the domain that is looked at, and which devices and links have it.
    mark: u32,
    failed: Vec<u32>,
    failed_links: Vec<u32>,
    is_hit: Vec<u32>,
    pub hit: Vec<u32>,
    fed: Vec<(u32, bool)>,
    /// The way of a device of which is asked whether it is fed.
    steps: Vec<u32>,
    joined: Vec<u32>,
    has_searched: bool,
}

impl<'a> Judge<'a> {
    pub fn new(net: &'a Network, plan: &'a Plan) -> Judge<'a> {
        let (devices, links) = (net.names.len(), net.links.len());
        let hops = (0..devices).map(|d| {
            let [parent, way, backup, backup_way] =
                [&plan.primary, &plan.primary_link, &plan.backup, &plan.backup_link].map(|list| list[d].unwrap_or(NONE));
            Hops { parent, way, backup, backup_way }
        });
        let mut around = vec![Vec::new(); devices];
        for (number, link) in net.links.iter().enumerate() {
            around[link.ends[0] as usize].push((number as u32, link.ends[1]));
            around[link.ends[1] as usize].push((number as u32, link.ends[0]));
        }
        let mut judge = Judge {
            net,
            root: plan.root,
            backup_root: plan.backup_root,
            members: &plan.members,
            hops: hops.collect(),
            timing: Timing::new(net),
            waits: plan.waits,
            is_absent: plan.is_absent.clone(),
            around,
            order: Vec::with_capacity(devices),
            enter: vec![0; devices],
            leave: vec![0; devices],
            behind: 0,
            carried: vec![NONE; links],
            mark: 0,
            failed: vec![0; devices],
            failed_links: vec![0; links],
            is_hit: vec![0; devices],
            hit: Vec::new(),
            fed: vec![(0, false); devices],
            steps: Vec::new(),
            joined: vec![0; devices],
            has_searched: false,
        };
        for (device, hops) in judge.hops.iter().enumerate().filter(|(_, hops)| hops.way != NONE) {
            judge.carried[hops.way as usize] = device as u32;
        }
        judge
    }

    pub fn domains(&self) -> impl Iterator<Item = Domain> {
        let [listed, devices, links] =
            [self.net.domains.len(), self.net.names.len(), self.net.links.len()].map(|count| count as u32);
        (0..listed).map(Domain::Listed).chain((0..devices).map(Domain::Device)).chain((0..links).map(Domain::Link))
    }

    /// The first condition that is broken.
    pub fn breach(&mut self) -> Option<&'static str> {
        if !self.has_structure() {
            return Some("structure");
        }
        if (0..self.hops.len() as u32).any(|device| self.is_above_its_backup(device)) {
            return Some("ancestor");
        }
        if !self.timing.is_met(self.waits) {
            return Some("timing");
        }
        if !self.keeps_roots() {
            return Some("root");
        }
        self.put_in_order();
        self.breach_of_hit()
    }

    fn joins(&self, link: u32, device: u32, parent: u32) -> bool {
        let ends = self.net.links[link as usize].ends;
        !self.is_absent[link as usize] && (ends == [device, parent] || ends == [parent, device])
    }

    fn has_structure(&self) -> bool {
        let (root, backup_root) = (self.root as usize, self.backup_root as usize);
        let is_member = |device: u32| self.members[device as usize];
        root != backup_root
            && self.members[root]
            && self.members[backup_root]
            && self.hops[backup_root].backup != NONE
            && (0..self.hops.len()).all(|d| {
                let Hops { parent, way, backup, backup_way } = self.hops[d];
                (parent != NONE) == (self.members[d] && d != root)
                    && (parent == NONE
                        || is_member(parent)
                            && self.joins(way, d as u32, parent)
                            && self.steps(d as u32) <= self.timing.depth)
                    && (backup == NONE
                        || is_member(backup)
                            && self.joins(backup_way, d as u32, backup)
                            && backup_way != way)
            })
    }

    /// How many steps the walk of a device takes, or more than the depth where it comes to no root.
    fn steps(&self, mut device: u32) -> u128 {
        let mut steps = 0;
        while device != self.root && steps <= self.timing.depth {
            device = self.hops[device as usize].parent;
            steps += 1;
            if device == NONE {
                return self.timing.depth + 1;
            }
        }
        steps
    }

    /// The devices of a walk to the root.
    pub fn walk(&self, device: u32) -> impl Iterator<Item = u32> + '_ {
        std::iter::successors(Some(device), |here| Some(self.hops[*here as usize].parent).filter(|next| *next != NONE))
    }

    fn is_above_its_backup(&self, device: u32) -> bool {
        let backup = self.hops[device as usize].backup;
        if backup == NONE {
            return false;
        }
        let ends = |here: &u32| *here == self.backup_root || *here == self.root;
        let mut walk = self.walk(backup);
        if device == self.backup_root {
            return walk.any(|here| here == device);
        }
        walk.find(|here| *here == device || ends(here)) == Some(device)
    }

    /// Whether no domain takes both roots, or both ways of the backup root.
    fn keeps_roots(&self) -> bool {
        let (mut on_path, mut on_backup) = (vec![[false; 2]; self.hops.len()], vec![[false; 2]; self.is_absent.len()]);
        let backup_root = self.backup_root as usize;
        on_backup[self.hops[backup_root].way as usize][0] = true;
        for here in self.walk(self.hops[backup_root].parent) {
            on_path[here as usize][0] = true;
            if here != self.root {
                on_backup[self.hops[here as usize].way as usize][0] = true;
            }
        }
        on_backup[self.hops[backup_root].backup_way as usize][1] = true;
        for here in self.walk(self.hops[backup_root].backup).filter(|here| *here != self.root) {
            on_path[here as usize][1] = true;
            on_backup[self.hops[here as usize].way as usize][1] = true;
        }
        self.domains().all(|domain| {
            let (mut hits, mut cuts, mut roots) = (false, false, 0);
            self.each_thing(domain, |is_device, number| {
                let [path, backup] = if is_device { on_path[number as usize] } else { on_backup[number as usize] };
                (hits, cuts) = (hits | path, cuts | backup);
                roots += u32::from(is_device && self.is_root(number));
            });
            roots < 2 && !(hits && cuts)
        })
    }

    /// Hands on each thing of a domain: whether it is a device, and its number.
    fn each_thing(&self, domain: Domain, mut take: impl FnMut(bool, u32)) {
        match domain {
            Domain::Listed(number) => {
                let (devices, links) = &self.net.domains[number as usize];
                devices.iter().for_each(|place| take(true, *place));
                links.iter().for_each(|place| take(false, *place));
            }
            Domain::Device(number) => take(true, number),
            Domain::Link(number) => take(false, number),
        }
    }

    /// Those that follow the backup root stand behind all others: a domain above it does not hit them.
    pub fn put_in_order(&mut self) {
        let mut below = vec![Vec::new(); self.hops.len()];
        for (device, hops) in self.hops.iter().enumerate().filter(|(_, hops)| hops.parent != NONE) {
            below[hops.parent as usize].push(device as u32);
        }
        self.order.clear();
        self.put_below(self.root, &below);
        self.behind = self.order.len() as u32;
        for device in &below[self.backup_root as usize] {
            self.put_below(*device, &below);
        }
    }

    fn put_below(&mut self, device: u32, below: &[Vec<u32>]) {
        self.enter[device as usize] = self.order.len() as u32;
        self.order.push(device);
        if device != self.backup_root {
            for next in &below[device as usize] {
                self.put_below(*next, below);
            }
        }
        self.leave[device as usize] = self.order.len() as u32;
    }

    /// Marks the things of a domain, and lists the devices that it hits.
    pub fn look_at(&mut self, domain: Domain) {
        self.mark += 1;
        self.has_searched = false;
        self.hit.clear();
        match domain {
            Domain::Listed(number) => {
                let (devices, links) = &self.net.domains[number as usize];
                devices.iter().for_each(|device| self.fail(*device));
                links.iter().for_each(|link| self.cut(*link));
            }
            Domain::Device(device) => self.fail(device),
            Domain::Link(link) => self.cut(link),
        }
    }

    fn fail(&mut self, device: u32) {
        self.failed[device as usize] = self.mark;
        if device == self.backup_root {
            self.strike(self.behind, self.order.len() as u32);
        } else if self.members[device as usize] {
            self.strike(self.enter[device as usize] + 1, self.leave[device as usize]);
        }
    }

    fn cut(&mut self, link: u32) {
        self.failed_links[link as usize] = self.mark;
        let device = self.carried[link as usize];
        if device != NONE {
            self.strike(self.enter[device as usize], self.leave[device as usize]);
        }
    }

    fn strike(&mut self, from: u32, to: u32) {
        for device in &self.order[from as usize..to as usize] {
            if self.is_hit[*device as usize] != self.mark {
                self.is_hit[*device as usize] = self.mark;
                self.hit.push(*device);
            }
        }
    }

    pub fn is_hit(&self, device: u32) -> bool {
        self.is_hit[device as usize] == self.mark
    }

    pub fn is_failed(&self, device: u32) -> bool {
        self.failed[device as usize] == self.mark
    }

    /// Whether a hop is of no use: its parent or its link has failed.
    fn fails(&self, parent: u32, link: u32) -> bool {
        self.is_failed(parent) || self.failed_links[link as usize] == self.mark
    }

    fn is_root(&self, device: u32) -> bool {
        device == self.root || device == self.backup_root
    }

    /// The first of the conditions on hit devices that some domain breaks.
    fn breach_of_hit(&mut self) -> Option<&'static str> {
        let (mut settled, mut path) = (vec![0; self.hops.len()], Vec::new());
        let (mut loses, mut strands) = (false, false);
        for domain in self.domains() {
            self.look_at(domain);
            if self.has_cycle(&mut settled, &mut path) {
                return Some("loop");
            }
            for place in 0..self.hit.len() {
                let device = self.hit[place];
                if self.is_root(device) || self.is_failed(device) {
                    continue;
                }
                let Hops { backup, backup_way, .. } = self.hops[device as usize];
                let is_lost = backup != NONE && self.fails(backup, backup_way);
                if (is_lost || !self.is_fed(device)) && !self.is_cut(device) {
                    (loses, strands) = (loses | is_lost, true);
                }
            }
        }
        if loses { Some("domain") } else { strands.then_some("reach") }
    }

    /// Whether hit devices may come to follow each other round. Each is settled once for a domain: 2 k while it is on the
    /// way that is followed, and 2 k + 1 afterwards, for the mark k.
    fn has_cycle(&self, settled: &mut [u32], path: &mut Vec<(u32, u8)>) -> bool {
        let on_way = 2 * self.mark;
        let leads_on = |next: u32| next != NONE && !self.is_root(next) && self.is_hit(next);
        for device in &self.hit {
            if settled[*device as usize] >= on_way || self.is_root(*device) {
                continue;
            }
            let Hops { parent, backup, .. } = self.hops[*device as usize];
            if ![parent, backup].iter().any(|next| leads_on(*next) && settled[*next as usize] <= on_way) {
                settled[*device as usize] = on_way + 1;
                continue;
            }
            settled[*device as usize] = on_way;
            path.push((*device, 0));
            while let Some((here, tried)) = path.last_mut() {
                let hops = self.hops[*here as usize];
                let next = match tried {
                    0 => hops.parent,
                    1 => hops.backup,
                    _ => {
                        settled[*here as usize] = on_way + 1;
                        path.pop();
                        continue;
                    }
                };
                *tried += 1;
                if !leads_on(next) || settled[next as usize] > on_way {
                    continue;
                }
                if settled[next as usize] == on_way {
                    return true;
                }
                settled[next as usize] = on_way;
                path.push((next, 0));
            }
        }
        false
    }

    /// Whether a device that has not failed hears an acting root again.
    pub fn is_fed(&mut self, device: u32) -> bool {
        let mut here = device;
        let fed = loop {
            let (mark, fed) = self.fed[here as usize];
            if mark == self.mark {
                break fed;
            }
            if self.is_root(here) || !self.is_hit(here) {
                break !self.is_failed(here);
            }
            // while it is not known, it is not fed: so a ring is not
            self.fed[here as usize] = (self.mark, false);
            let (next, way) = self.hops[here as usize].next();
            if self.fails(next, way) {
                break false;
            }
            self.steps.push(here);
            here = next;
        };
        if fed {
            self.steps.iter().for_each(|step| self.fed[*step as usize].1 = true);
        }
        self.steps.clear();
        fed
    }

    /// Whether no way is left from a device to the acting end.
    fn is_cut(&mut self, device: u32) -> bool {
        if !self.has_searched {
            self.search();
        }
        self.joined[device as usize] != self.mark
    }

    fn search(&mut self) {
        self.has_searched = true;
        let end = if self.is_failed(self.root) { self.backup_root } else { self.root };
        if self.is_failed(end) {
            return;
        }
        self.joined[end as usize] = self.mark;
        let mut left = vec![end];
        while let Some(here) = left.pop() {
            for (link, next) in &self.around[here as usize] {
                let is_open = self.failed_links[*link as usize] != self.mark && !self.is_absent[*link as usize];
                let is_new = self.joined[*next as usize] != self.mark;
                if is_new && is_open && self.members[*next as usize] && self.failed[*next as usize] != self.mark {
                    self.joined[*next as usize] = self.mark;
                    left.push(*next);
                }
            }
        }
    }
}
