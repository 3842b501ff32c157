//! How commit wait goes into a database in Rust: a key-value store on two nodes, each with the clock of its device.
//!
//!     kv [unwaited]
//!
//! Clients raise numbers on the nodes and move them between these. What they saw is printed for
//! `integrations/postgres/trial/checker.py`. With `unwaited` no write waits, and the checker finds it.
use std::collections::HashMap;
use std::fs;
use std::path::Path;
use std::sync::atomic::{AtomicBool, AtomicU64, Ordering};
use std::sync::Mutex;
use std::thread;
use std::time::Duration;

use sundial_device::clock::{raw_now, Mapping, Quality, Reader, Terms, Waited, Writer};
use sundial_device::{Device, Duty, Rates, ROOT};

const KEYS: u64 = 5;
const CLIENTS: u64 = 4;
const WRITES: usize = 250; // of each client
const GREATEST: u64 = 10_000_000; // ns: a clock that is wider gives no stamp
const PATIENCE: u64 = 1_000_000_000;

/// What is kept of a key. Where it is on the other node, nothing is.
struct Kept {
    version: u64,
    stamp: u64,
}

struct Node {
    clock: Reader,
    last: AtomicU64, // of the stamps that this node took
    keys: HashMap<u64, Mutex<Option<Kept>>>,
    waits: bool,
}

impl Node {
    /// Writes what `change` makes of the version, and answers that and its stamp. Nothing is written where the key is not
    /// here, or where the clock gives no stamp or does not pass it.
    fn write(&self, key: u64, change: impl FnOnce(Option<u64>) -> Option<u64>, leaves: bool) -> Option<(u64, u64)> {
        let mut kept = self.keys[&key].lock().ok()?; // 1. the lock
        let version = change(kept.as_ref().map(|kept| kept.version))?;
        let now = self.clock.read(GREATEST).ok().filter(|now| now.quality == Quality::Good)?;
        let stamp = now.stamp(&self.last); // 2. the stamp, once the lock is held
        if self.waits {
            // 3. nobody sees the write before its stamp has passed
            let Ok(Waited::Passed(then)) = self.clock.wait(stamp, PATIENCE) else { return None };
            if then.disruptions != now.disruptions {
                return None; // (the stamp may be too small)
            }
        }
        assert!(kept.as_ref().map_or(true, |kept| !self.waits || kept.stamp < stamp));
        *kept = (!leaves).then_some(Kept { version, stamp });
        Some((version, stamp))
    } // 4. the lock is released, and the client is answered
}

/// Publishes a device whose clock is off by this, and whose eps is the greatest that it may be off.
fn publish(path: &Path, eps: u64, off: i64, ends: &AtomicBool) {
    let duty = Duty { epoch: 1, role: ROOT, period: 1_000_000_000, rates: Rates { grain: 1_000, ppm: 200 }, ..Duty::default() };
    let mapping = Mapping { raw: raw_now(), counter: 0, skew: if off < 0 { -90 } else { 90 } };
    let terms = Terms { stale_after: 1_000_000_000, void_after: 60_000_000_000, skew: mapping.skew, ..Terms::default() };
    let mut writer = Writer::create(path, terms).expect("a page");
    let clock = |raw: u64| (raw * 1_000).wrapping_add_signed(off);
    let mut device = Device::start(&duty, 0, clock(mapping.raw), eps).expect("a device");
    while !ends.load(Ordering::Relaxed) {
        let raw = raw_now();
        let counter = mapping.counter_at(raw);
        device.fix(counter, clock(raw), eps).expect("a fix");
        device.tick(counter).expect("a tick");
        writer.publish(&device, counter, raw).expect("a publication");
        thread::sleep(Duration::from_millis(1));
    }
    writer.withdraw();
}

/// Writes, and prints what the client saw.
fn ask(nodes: &[Node], node: usize, key: u64, change: impl FnOnce(Option<u64>) -> Option<u64>, leaves: bool) -> Option<u64> {
    let begin = raw_now();
    let (version, stamp) = nodes[node].write(key, change, leaves)?;
    println!("{begin} {} {stamp} {key} {version} {node}", raw_now());
    Some(version)
}

/// Raises a key where that is, or takes it away and puts it to the other node.
fn client(nodes: &[Node], number: u64) {
    let mut random = number;
    for _ in 0..WRITES {
        random = random.wrapping_mul(6_364_136_223_846_793_005).wrapping_add(1_442_695_040_888_963_407);
        let (key, node, leaves) = ((random >> 40) % KEYS, (random >> 50) as usize % 2, random >> 60 & 1 == 1);
        let Some(version) = ask(nodes, node, key, |held| Some(held? + 1), leaves) else { continue };
        while leaves && ask(nodes, 1 - node, key, |_| Some(version + 1), false).is_none() {}
    }
}

fn main() {
    let waits = std::env::args().nth(1).as_deref() != Some("unwaited");
    let pages = [0, 1].map(|node| std::env::temp_dir().join(format!("sundial-kv-{}-{node}", std::process::id())));
    let ends = AtomicBool::new(false);
    thread::scope(|scope| {
        scope.spawn(|| publish(&pages[0], 2_000_000_000, 1_800_000_000, &ends));
        scope.spawn(|| publish(&pages[1], 200_000_000, -180_000_000, &ends));
        let nodes = [0, 1].map(|node| {
            let clock = loop {
                match Reader::open(&pages[node]) {
                    Ok(clock) if clock.read(GREATEST).is_ok() => break clock,
                    _ => thread::sleep(Duration::from_millis(1)),
                }
            };
            let keys = (0..KEYS).map(|key| (key, Mutex::new((key % 2 == node as u64).then_some(Kept { version: 0, stamp: 0 }))));
            Node { clock, last: AtomicU64::new(0), keys: keys.collect(), waits }
        });
        let nodes = &nodes;
        thread::scope(|clients| (0..CLIENTS).for_each(|number| drop(clients.spawn(move || client(nodes, number)))));
        ends.store(true, Ordering::Relaxed);
    });
    for page in pages {
        let _ = (fs::remove_file(&page), fs::remove_file(page.with_extension("lock")));
    }
}
