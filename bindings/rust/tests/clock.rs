//! The clock of a shared page: by threads of this process, and beside a writer in C.
#![cfg(all(feature = "clock", target_os = "linux"))]

use std::path::{Path, PathBuf};
use std::sync::atomic::{AtomicBool, AtomicU64, Ordering};
use std::thread;
use std::time::Duration;

use sundial_device::clock::{raw_now, Mapping, Now, Quality, Reader, Terms, Unpublished, Unread, Waited, Writer};
use sundial_device::{Device, Duty, Fault, Mode, Rates, ROOT};

const SECOND: u64 = 1_000_000_000;
const EPS: u64 = 100_000;
const READERS: usize = 4;

fn page(name: &str) -> PathBuf {
    std::env::temp_dir().join(format!("sundial-rust-{name}-{}", std::process::id()))
}

fn duty() -> Duty {
    Duty { epoch: 1, role: ROOT, period: 1_000_000_000, rates: Rates { grain: 1_000, ppm: 200 }, ..Duty::default() }
}

fn remove(path: &Path) {
    std::fs::remove_file(path).unwrap();
    std::fs::remove_file(format!("{}.lock", path.display())).unwrap();
}

/// A clock that is `CLOCK_MONOTONIC_RAW` itself, by a counter that is 50 ppm fast.
fn mapping() -> Mapping {
    Mapping { raw: raw_now(), counter: 5_000, skew: 50 }
}

fn terms() -> Terms {
    Terms { stale_after: 50 * SECOND, void_after: 100 * SECOND, skew: 50, origin: 1_000, ..Terms::default() }
}

/// Nothing where the writer came round at each try.
fn read(reader: &Reader) -> Option<Now> {
    match reader.read(SECOND) {
        Ok(now) => Some(now),
        Err(Unread::Busy) => None,
        Err(unread) => panic!("{unread}"),
    }
}

#[test]
fn each_answer() {
    let path = page("answers");
    assert_eq!(Reader::open("/dev/null").unwrap_err().kind(), std::io::ErrorKind::InvalidData);
    let mut writer = Writer::create(&path, terms()).unwrap();
    assert_eq!(Writer::create(&path, terms()).unwrap_err().kind(), std::io::ErrorKind::WouldBlock);
    let reader = Reader::open(&path).unwrap();
    assert_eq!(reader.read(0), Err(Unread::Empty));
    let (known, raw) = (mapping(), raw_now());
    let device = Device::start(&duty(), 5_000, known.raw * 1_000, EPS).unwrap();
    assert_eq!(writer.publish(&device, 4_999, raw), Err(Unpublished::Fault(Fault::CounterFell)));
    assert_eq!(writer.publish(&device, 5_000, raw + SECOND), Err(Unpublished::BadRaw));
    writer.publish(&device, known.counter_at(raw), raw).unwrap();
    assert_eq!(writer.publish(&device, known.counter_at(raw), raw - 1), Err(Unpublished::BadRaw));
    let now = reader.read(10 * SECOND).unwrap();
    assert_eq!((now.quality, now.mode, now.epoch, now.civil(5)), (Quality::Good, Mode::Acting, 1, 1_005));
    assert!(now.earliest <= raw_now() && now.latest >= raw);
    assert_eq!(reader.read(0).unwrap().quality, Quality::Wide);
    assert!(matches!(reader.wait(now.latest + 100 * SECOND, 0), Ok(Waited::NotYet(_))));
    assert!(now.lease_holds(now.latest + 1) && !now.lease_holds(now.latest));
    assert!(now.lease_is_over(now.earliest - 1) && !now.lease_is_over(now.earliest));
    assert!(now.has_passed(now.earliest - 1) && !now.has_passed(now.earliest));
    writer.terms.stale_after = 0;
    writer.publish(&device, known.counter_at(raw), raw).unwrap();
    assert_eq!(reader.read(10 * SECOND).unwrap().quality, Quality::Stale);
    writer.terms.void_after = 0;
    writer.publish(&device, known.counter_at(raw), raw).unwrap();
    assert_eq!(reader.read(SECOND), Err(Unread::Void));
    writer.terms = Terms { skew: 100_001, ..terms() };
    assert_eq!(writer.publish(&device, known.counter_at(raw), raw), Err(Unpublished::BadTerms));
    writer.withdraw();
    assert_eq!(reader.read(SECOND), Err(Unread::Withdrawn));
    writer.terms = terms();
    let raw = raw_now();
    writer.publish(&device, known.counter_at(raw), raw).unwrap();
    assert_eq!(reader.read(SECOND).unwrap().disruptions, 0);
    writer.disrupt(device);
    assert_eq!(reader.read(SECOND), Err(Unread::Disrupted));
    let device = Device::start(&duty(), 5_000, raw_now() * 1_000, EPS).unwrap();
    writer.publish(&device, 5_000, raw_now()).unwrap();
    assert_eq!(reader.read(SECOND).unwrap().disruptions, 1);
    drop(writer);
    assert!(Writer::create(&path, terms()).is_ok());
    remove(&path);
}

#[test]
fn a_rebase_lowers_both() {
    let path = page("rebase");
    let mut writer = Writer::create(&path, Terms { skew: 0, ..terms() }).unwrap();
    let reader = Reader::open(&path).unwrap();
    let raw = raw_now();
    let mut known = Mapping { raw: raw - 1_000 * SECOND, counter: 0, skew: 0 };
    let kept = known;
    let mut device = Device::start(&duty(), known.counter_at(raw), 5_000_000, EPS).unwrap();
    writer.publish(&device, known.counter_at(raw), raw).unwrap();
    let raw = raw_now();
    let lowered = known.rebase(&mut device, &mut [], raw).unwrap();
    assert!(lowered > 999 * SECOND && known.counter_at(raw) + lowered == kept.counter_at(raw));
    assert_eq!(writer.publish(&device, kept.counter_at(raw), raw), Err(Unpublished::Apart));
    writer.publish(&device, known.counter_at(raw), raw).unwrap();
    assert!(reader.read(SECOND).unwrap().latest < SECOND);
    remove(&path);
}

/// The words of a slot are those that `clock_test.c` has for the same device and terms.
#[test]
fn words_as_in_c() {
    let path = page("words");
    let numbers = Terms { stale_after: 50, void_after: 60, slack: 10_001, slack_ppm: 7, skew: -3, origin: 9 };
    let mut writer = Writer::create(&path, numbers).unwrap();
    let device = Device::start(&Duty { epoch: 3, ..duty() }, 7_000, 5_000_000_000_000, 394).unwrap();
    let raw = raw_now();
    writer.publish(&device, 3_007_000, raw).unwrap();
    let bytes = std::fs::read(&path).unwrap();
    let words: Vec<u64> = bytes.chunks_exact(8).map(|it| u64::from_le_bytes(it.try_into().unwrap())).collect();
    assert_eq!((&bytes[..8], &words[1..4], words.len()), (&b"sundial\0"[..], &[2, 320, 1][..], 40));
    assert_eq!(words[24..26], [1, 0]);
    let interval = [5_000_002_987, 5_000_003_013, 999_789_999, 1_000_204_001];
    assert_eq!(words[29..36], [&[raw, raw + 50, raw + 60][..], &interval[..]].concat());
    assert_eq!(words[36..], [9, 3_000, 3 | 2 << 32, 0]);
    remove(&path);
}

#[test]
fn readers_beside_a_writer() {
    let path = page("threads");
    let mut writer = Writer::create(&path, terms()).unwrap();
    let known = mapping();
    let mut device = Device::start(&duty(), known.counter, known.raw * 1_000, EPS).unwrap();
    writer.publish(&device, known.counter, known.raw).unwrap();
    let (stop, last) = (AtomicBool::new(false), AtomicU64::new(0));
    let reading = || {
        let reader = Reader::open(&path).unwrap();
        let mut stamps = Vec::new();
        while !stop.load(Ordering::Relaxed) || stamps.is_empty() {
            let before = raw_now();
            let Some(now) = read(&reader) else { continue };
            assert!(now.earliest <= raw_now() && now.latest >= before, "an interval misses the reference time");
            stamps.push(now.stamp(&last));
            if stamps.len() % 64 == 0 {
                let stamp = stamps[stamps.len() - 1];
                if let Ok(Waited::Passed(now)) = reader.wait(stamp, SECOND / 20) {
                    assert!(raw_now() > stamp && now.has_passed(stamp), "a wait ended too early");
                }
            }
        }
        stamps
    };
    let mut all: Vec<u64> = thread::scope(|scope| {
        let readers: Vec<_> = (0..READERS).map(|_| scope.spawn(reading)).collect();
        let begun = raw_now();
        while raw_now() - begun < SECOND / 2 {
            let raw = raw_now();
            device.fix(known.counter_at(raw), raw * 1_000, EPS).unwrap();
            device.tick(known.counter_at(raw)).unwrap();
            writer.publish(&device, known.counter_at(raw), raw).unwrap();
            thread::sleep(Duration::from_micros(20));
        }
        stop.store(true, Ordering::Relaxed);
        readers.into_iter().flat_map(|it| it.join().unwrap()).collect()
    });
    let count = all.len();
    all.sort_unstable();
    all.dedup();
    assert_eq!(all.len(), count, "two stamps are one");
    remove(&path);
}

/// SUNDIAL_CLOCK names the page of a writer in C, whose reference time is `CLOCK_MONOTONIC_RAW`
/// itself. Without it the test does nothing.
#[test]
fn beside_a_writer_in_c() {
    let Some(path) = std::env::var_os("SUNDIAL_CLOCK") else { return };
    let reader = Reader::open(path).unwrap();
    for _ in 0..1_000 {
        let before = raw_now();
        let Some(now) = read(&reader) else { continue };
        assert!(now.earliest <= raw_now() && now.latest >= before, "an interval misses the reference time");
        assert_eq!((now.mode, now.epoch, now.origin), (Mode::Acting, 1, 1_000));
        thread::sleep(Duration::from_micros(50));
    }
}
