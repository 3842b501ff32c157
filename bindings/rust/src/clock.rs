//! A clock for the processes of one machine: `bindings/c/sundial_clock.h` in Rust, over the same page. One
//! process drives the device and publishes it ([`Writer`]). Any number of processes read the time
//! ([`Reader`]), in any language, without a call of the system and without a lock.
//!
//! It needs the feature `clock`, the standard library, and Linux on 64 bits. Times are in whole ns
//! where they are not said to be in ps. They are rounded outward.
//!
//! What you owe, beside what the device asks:
//! - the counter and the reading of `CLOCK_MONOTONIC_RAW` of a publication were taken at one moment,
//!   and from then on the one follows the other as the [`Terms`] say;
//! - where the machine sleeps, or is a virtual one that is stopped or moved, [`Writer::disrupt`] is
//!   called: that clock stands still or jumps then;
//! - a process opens a page after its last change of time namespace.

extern crate std;

use core::ffi::{c_int, c_void};
use core::mem::size_of;
use core::ptr::{self, NonNull};
use core::sync::atomic::{AtomicU64, Ordering};
use std::ffi::OsString;
use std::fs::{self, File, OpenOptions};
use std::io;
use std::os::fd::AsRawFd;
use std::os::unix::fs::{MetadataExt, OpenOptionsExt};
use std::path::Path;
use std::thread;
use std::time::Duration;

use crate::{Device, Fault, Mode, Port};

const MAGIC: u64 = u64::from_le_bytes(*b"sundial\0");
const VERSION: u64 = 2;
const SECOND: u64 = 1_000_000_000;
const WORDS: usize = 16;
/// How often a read tries again where the writer came round to its slot.
const TRIES: u32 = 1_000;
/// A wait sleeps while more than this is left.
const NEARLY: u64 = 60_000;
const WITHDRAWN: u64 = 107;
const DISRUPTED: u64 = 108;

/// The page, whose head `sundial_clock.h` describes.
#[repr(C)]
struct Page {
    magic: AtomicU64,
    version: AtomicU64,
    length: AtomicU64,
    latest: AtomicU64,
    none: [AtomicU64; 4],
    slots: [[AtomicU64; WORDS]; 2],
}

/// What holds of an interval after its publication.
#[derive(Clone, Copy, Debug, Default, PartialEq, Eq)]
pub struct Terms {
    /// How long nothing may be published until the interval is stale.
    pub stale_after: u64,
    /// How long nothing may be published until there is none.
    pub void_after: u64,
    /// How far the counter of a publication may be off, in ps: at most 10^12.
    pub slack: u64,
    /// How many parts per million more of what has passed since: at most 100000.
    pub slack_ppm: u32,
    /// Parts per million by which the counter is faster than `CLOCK_MONOTONIC_RAW`, from -100000 to 100000.
    pub skew: i32,
    /// The civil time at reference time 0, since 1970 and without leap seconds.
    pub origin: i64,
}

/// A counter that is `CLOCK_MONOTONIC_RAW`: while that shows `raw` + x ns, it shows `counter` + 1000 x
/// + x * `skew` / 1000 ps. Real hosts have no skew.
#[derive(Clone, Copy, Debug, Default, PartialEq, Eq)]
pub struct Mapping {
    /// A reading of `CLOCK_MONOTONIC_RAW`.
    pub raw: u64,
    /// The counter then, in ps.
    pub counter: u64,
    /// Parts per million by which the counter is fast, from -100000 to 100000.
    pub skew: i32,
}

impl Mapping {
    /// What the counter shows while `CLOCK_MONOTONIC_RAW` shows this.
    pub fn counter_at(&self, raw: u64) -> u64 {
        let passed = raw.saturating_sub(self.raw);
        let skewed = (passed / 1000) as i64 * i64::from(self.skew)
            + (passed % 1000) as i64 * i64::from(self.skew) / 1000;
        self.counter.wrapping_add(passed * 1000).wrapping_add(skewed as u64)
    }

    /// Rebases the device and its ports, lowers the mapping by as much, and answers by how much. Faults: those
    /// of [`Device::rebase`].
    pub fn rebase(&mut self, device: &mut Device, ports: &mut [Port], raw: u64) -> Result<u64, Fault> {
        let counter = self.counter_at(raw);
        let lowered = device.rebase_with_ports(ports, counter)?;
        self.raw = self.raw.max(raw);
        self.counter = counter - lowered;
        Ok(lowered)
    }
}

/// Which clock `CLOCK_MONOTONIC_RAW` is in a process: the boot, and what the time namespace adds.
#[derive(Clone, Copy, Debug, PartialEq, Eq)]
struct Identity {
    boot: [u64; 2],
    offset: i64,
}

impl Identity {
    /// That of this process.
    fn here() -> io::Result<Identity> {
        let invalid = || io::Error::from(io::ErrorKind::InvalidData);
        let text = fs::read_to_string("/proc/sys/kernel/random/boot_id")?.trim().replace('-', "");
        let boot = u128::from_str_radix(&text, 16).map_err(|_| invalid())?.to_be_bytes();
        let half = |at: usize| u64::from_le_bytes(core::array::from_fn(|i| boot[at + i]));
        let boot = [half(0), half(8)];
        let offsets = match fs::read_to_string("/proc/self/timens_offsets") {
            Err(error) if error.kind() == io::ErrorKind::NotFound => return Ok(Identity { boot, offset: 0 }),
            read => read?,
        };
        // (where a process made a namespace for its children, the kernel shows theirs)
        if fs::metadata("/proc/self/ns/time")?.ino() != fs::metadata("/proc/self/ns/time_for_children")?.ino() {
            return Err(io::ErrorKind::Unsupported.into());
        }
        let mut words = offsets.split_whitespace().skip(1).map(str::parse::<i64>);
        let (Some(Ok(seconds)), Some(Ok(rest))) = (words.next(), words.next()) else { return Err(invalid()) };
        Ok(Identity { boot, offset: seconds * SECOND as i64 + rest })
    }
}

/// What a slot holds.
#[derive(Clone, Copy, Debug, PartialEq, Eq)]
struct Slot {
    status: u64,
    clock: Identity,
    raw: u64,
    stale_after: u64,
    void_after: u64,
    earliest: i64,
    latest: i64,
    slow: u64,
    fast: u64,
    origin: i64,
    age: u64,
    epoch: u32,
    mode: u32,
    disruptions: u64,
}

impl Slot {
    fn words(&self, number: u64) -> [u64; WORDS] {
        [
            number, self.status, self.clock.boot[0], self.clock.boot[1], self.clock.offset as u64, self.raw,
            self.stale_after, self.void_after, self.earliest as u64, self.latest as u64, self.slow, self.fast,
            self.origin as u64, self.age, u64::from(self.epoch) | u64::from(self.mode) << 32, self.disruptions,
        ]
    }

    fn from_words(words: [u64; WORDS]) -> Slot {
        let [_, status, one, other, offset, raw, stale_after, void_after, earliest, latest, slow, fast, origin, age, plan, disruptions] =
            words;
        Slot {
            status, clock: Identity { boot: [one, other], offset: offset as i64 }, raw, stale_after, void_after,
            earliest: earliest as i64, latest: latest as i64, slow, fast, origin: origin as i64, age,
            epoch: plan as u32, mode: (plan >> 32) as u32, disruptions,
        }
    }

    /// A slot without an interval.
    fn none(status: u64, clock: Identity, disruptions: u64) -> Slot {
        Slot {
            status, clock, raw: raw_now(), stale_after: 0, void_after: 0, earliest: 0, latest: 0, slow: 0, fast: 0,
            origin: 0, age: 0, epoch: 0, mode: 0, disruptions,
        }
    }

    /// The interval of this device, as the terms extend it from here on.
    fn line(terms: &Terms, device: &Device, clock: Identity, counter: u64, raw: u64) -> Result<Slot, Unpublished> {
        const MILLION: u64 = 1_000_000;
        if terms.slack > MILLION * MILLION || terms.slack_ppm > 100_000 || terms.skew.abs() > 100_000 {
            return Err(Unpublished::BadTerms);
        }
        let report = device.report(counter)?;
        let ppm = u64::from(device.0.rates.ppm);
        // A counter that is off by the slack moves the clock by it, and lets eps grow by ppm of it. The roundings of
        // the counter, of that growth and of the report's own are 3 ps at most.
        let eps = report.eps as i128 + i128::from(terms.slack + (terms.slack * ppm).div_ceil(MILLION) + 3);
        let middle = report.clock as i128;
        let too_great = |_| Unpublished::Fault(Fault::EstimateTooGreat);
        let faster = (MILLION as i64 + i64::from(terms.skew)) as u64;
        let grows = (ppm * faster + u64::from(terms.slack_ppm) * (MILLION + ppm)).div_ceil(1000);
        Ok(Slot {
            status: 0,
            clock,
            raw,
            stale_after: raw.saturating_add(terms.stale_after),
            void_after: raw.saturating_add(terms.void_after),
            earliest: i64::try_from((middle - eps).div_euclid(1000)).map_err(too_great)?,
            latest: i64::try_from(-(-middle - eps).div_euclid(1000)).map_err(too_great)?,
            slow: 1000 * faster - grows,
            fast: 1000 * faster + grows,
            origin: terms.origin,
            age: (counter - device.0.estimate.at) / 1000,
            epoch: if device.0.has_duty != 0 { device.0.duty.epoch } else { 0 },
            mode: u32::from(device.0.mode),
            disruptions: 0,
        })
    }

    /// Its interval at a later reading of `CLOCK_MONOTONIC_RAW`.
    fn extended(&self, raw: u64) -> (i64, i64) {
        let (whole, rest) = ((raw - self.raw) / SECOND, (raw - self.raw) % SECOND);
        let earliest = whole * self.slow + rest * self.slow / SECOND;
        let latest = whole * self.fast + (rest * self.fast).div_ceil(SECOND);
        (self.earliest.wrapping_add(earliest as i64), self.latest.wrapping_add(latest as i64))
    }

    /// What a process of this clock reads in it.
    fn at(&self, clock: Identity, raw: u64, greatest: u64) -> Result<Now, Unread> {
        if self.clock != clock || raw < self.raw {
            return Err(Unread::Foreign);
        }
        match self.status {
            0 if raw > self.void_after => return Err(Unread::Void),
            0 => {}
            DISRUPTED => return Err(Unread::Disrupted),
            _ => return Err(Unread::Withdrawn),
        }
        let (earliest, latest) = self.extended(raw);
        let eps = (latest.wrapping_sub(earliest) as u64).div_ceil(2);
        Ok(Now {
            earliest: earliest.max(0) as u64,
            latest: latest.max(0) as u64,
            eps,
            age: self.age + (raw - self.raw),
            silent: raw - self.raw,
            disruptions: self.disruptions,
            origin: self.origin,
            epoch: self.epoch,
            mode: match self.mode {
                0 => Mode::Primary,
                1 => Mode::Backup,
                2 => Mode::Acting,
                _ => Mode::Idle,
            },
            quality: if raw > self.stale_after {
                Quality::Stale
            } else if eps > greatest {
                Quality::Wide
            } else {
                Quality::Good
            },
        })
    }
}

/// How good an interval is.
#[derive(Clone, Copy, Debug, PartialEq, Eq)]
pub enum Quality {
    /// As good as the device's own.
    Good,
    /// Nothing was published for longer than `stale_after`. The interval is right, and grows.
    Stale,
    /// `eps` is over the greatest that the caller takes. The interval is right.
    Wide,
}

/// What a read found.
#[derive(Clone, Copy, Debug, PartialEq, Eq)]
pub struct Now {
    /// The earliest that the reference time can be.
    pub earliest: u64,
    /// The latest that it can be.
    pub latest: u64,
    /// Half of what lies between, rounded up.
    pub eps: u64,
    /// By the counter, since the device's clock was set by a start, a join, a fix or a message, or since
    /// its latest rebase.
    pub age: u64,
    /// How long ago the latest publication was.
    pub silent: u64,
    /// How many disruptions there were. Where two reads differ in it, the earlier may have been wrong.
    pub disruptions: u64,
    /// The civil time at reference time 0.
    pub origin: i64,
    /// The number of the device's plan, and 0 where it follows none.
    pub epoch: u32,
    /// How the device takes part.
    pub mode: Mode,
    /// How good the interval is.
    pub quality: Quality,
}

impl Now {
    /// Whether the reference time has surely passed the stamp: the end of a commit wait.
    pub fn has_passed(&self, stamp: u64) -> bool {
        self.earliest > stamp
    }

    /// A stamp that is not before the reference time, and greater than every stamp that was taken of
    /// the same `last`, also where a message moved `latest` back. `last` is 0 at first. Take it after the
    /// locks are held, and wait until it has passed.
    pub fn stamp(&self, last: &AtomicU64) -> u64 {
        let mut before = last.load(Ordering::Relaxed);
        loop {
            let stamp = self.latest.max(before.saturating_add(1));
            match last.compare_exchange_weak(before, stamp, Ordering::AcqRel, Ordering::Relaxed) {
                Ok(_) => return stamp,
                Err(found) => before = found,
            }
        }
    }

    /// Whether who has a lease that ends at this reference time may act. At one moment of the reference
    /// time this and `lease_is_over` are not both so, on any two machines. A holder that is stopped after
    /// this call acts late: what it writes to needs a fencing token.
    pub fn lease_holds(&self, end: u64) -> bool {
        self.latest < end
    }

    /// Whether another may take the lease.
    pub fn lease_is_over(&self, end: u64) -> bool {
        self.earliest > end
    }

    /// The civil time of a reference time, since 1970 on the scale of the origin.
    pub fn civil(&self, reference: u64) -> i64 {
        self.origin.wrapping_add(reference as i64)
    }
}

/// Why a read gave no interval.
#[derive(Clone, Copy, Debug, PartialEq, Eq)]
pub enum Unread {
    /// Nothing was published yet.
    Empty,
    /// The writer came round at each try.
    Busy,
    /// The writer's clock is another: of another boot or another time namespace, or the publication is after now.
    Foreign,
    /// Nothing was published for longer than `void_after`.
    Void,
    /// The writer withdrew the interval.
    Withdrawn,
    /// The writer's clock stood still or jumped: what was read shortly before may be wrong, too.
    Disrupted,
}

impl core::fmt::Display for Unread {
    fn fmt(&self, to: &mut core::fmt::Formatter<'_>) -> core::fmt::Result {
        to.write_str(match self {
            Unread::Empty => "nothing was published yet",
            Unread::Busy => "the writer came round at each try",
            Unread::Foreign => "the writer's clock is of another boot or time namespace",
            Unread::Void => "nothing was published for too long",
            Unread::Withdrawn => "the interval was withdrawn",
            Unread::Disrupted => "the writer's clock stood still or jumped",
        })
    }
}

impl core::error::Error for Unread {}

/// Why a publication was not made. The page is then as it was.
#[derive(Clone, Copy, Debug, PartialEq, Eq)]
pub enum Unpublished {
    /// This interval and the one in the page have no time in common, so one of them is wrong. A counter that
    /// was not lowered after a rebase does this. Withdraw, find out which it is, and publish again.
    Apart,
    /// `raw` is before that of the latest publication, or after now.
    BadRaw,
    /// A number of the terms is past its limit.
    BadTerms,
    /// What a report of the device answered.
    Fault(Fault),
}

impl From<Fault> for Unpublished {
    fn from(fault: Fault) -> Unpublished {
        Unpublished::Fault(fault)
    }
}

impl core::fmt::Display for Unpublished {
    fn fmt(&self, to: &mut core::fmt::Formatter<'_>) -> core::fmt::Result {
        match self {
            Unpublished::Apart => to.write_str("the interval has no time in common with the one published before"),
            Unpublished::BadRaw => to.write_str("the reading is before the publication before, or after now"),
            Unpublished::BadTerms => to.write_str("a number of the terms is past its limit"),
            Unpublished::Fault(fault) => fault.fmt(to),
        }
    }
}

impl core::error::Error for Unpublished {}

/// How a wait ended.
#[derive(Clone, Copy, Debug, PartialEq, Eq)]
pub enum Waited {
    /// The reference time has surely passed the stamp.
    Passed(Now),
    /// Patience ran out. This was read last.
    NotYet(Now),
}

/// The clock that readers read, in ns: `CLOCK_MONOTONIC_RAW`.
pub fn raw_now() -> u64 {
    const CLOCK_MONOTONIC_RAW: c_int = 4;
    let mut at = Timespec { seconds: 0, nanoseconds: 0 };
    unsafe { clock_gettime(CLOCK_MONOTONIC_RAW, &mut at) };
    at.seconds as u64 * 1_000_000_000 + at.nanoseconds as u64
}

/// A page for reading.
#[derive(Debug)]
pub struct Reader {
    mapped: Mapped,
    clock: Identity,
}

impl Reader {
    /// The page of this file. A file that is no page is `InvalidData`, one of another version
    /// `Unsupported`. A process that made a time namespace for its children gets `Unsupported`, too.
    pub fn open(path: impl AsRef<Path>) -> io::Result<Reader> {
        let clock = Identity::here()?;
        Ok(Reader { mapped: Mapped::new(&File::open(path)?, PROT_READ)?, clock })
    }

    /// The interval in which the reference time lies at some moment of this call. Where `eps` is over
    /// `greatest`, its quality is `Wide`.
    pub fn read(&self, greatest: u64) -> Result<Now, Unread> {
        let slot = self.mapped.page().slot()?;
        // (after the copy: so a reading of the same clock is not before the publication)
        slot.at(self.clock, raw_now(), greatest)
    }

    /// Waits until the reference time has surely passed the stamp: it sleeps, and then asks again and
    /// again. It goes on while the clock is stale or busy. It gives up after `patience`.
    pub fn wait(&self, stamp: u64, patience: u64) -> Result<Waited, Unread> {
        let begun = raw_now();
        loop {
            let read = self.read(u64::MAX);
            let left = match read {
                Ok(now) if now.has_passed(stamp) => return Ok(Waited::Passed(now)),
                Ok(now) => stamp - now.earliest,
                Err(Unread::Busy) => 0,
                Err(unread) => return Err(unread),
            };
            let waited = raw_now() - begun;
            if waited >= patience {
                return read.map(Waited::NotYet);
            }
            let left = left.min(patience - waited);
            if left > NEARLY {
                thread::sleep(Duration::from_nanos(left - NEARLY));
            } else {
                core::hint::spin_loop();
            }
        }
    }
}

/// A page for its one writer, which has the lock until it is dropped. Then the interval stays, and grows
/// stale. Where no writer will come, withdraw first.
#[derive(Debug)]
pub struct Writer {
    mapped: Mapped,
    clock: Identity,
    _lock: File,
    /// Those of the next publication.
    pub terms: Terms,
}

impl Writer {
    /// The page of this file, which is made where it is not there. A page that is there stays as it
    /// is: readers go on with what the writer before published. The lock is that of the file PATH.lock.
    /// `WouldBlock` where there is a writer, `PermissionDenied` where one of the files is another user's,
    /// has another name or may be written by others.
    pub fn create(path: impl AsRef<Path>, terms: Terms) -> io::Result<Writer> {
        const LOCK_EX: c_int = 2;
        const LOCK_NB: c_int = 4;
        let clock = Identity::here()?;
        let mut name = OsString::from(path.as_ref());
        name.push(".lock");
        let lock = own(name.as_ref(), 0o600)?;
        if unsafe { flock(lock.as_raw_fd(), LOCK_EX | LOCK_NB) } != 0 {
            return Err(io::Error::last_os_error());
        }
        let file = own(path.as_ref(), 0o644)?;
        if file.metadata()?.len() == 0 {
            file.set_len(size_of::<Page>() as u64)?;
        }
        Ok(Writer { mapped: Mapped::new(&file, PROT_READ | PROT_WRITE)?, clock, _lock: lock, terms })
    }

    /// Shows readers the device as it is now. The counter and `raw`, a reading of `CLOCK_MONOTONIC_RAW`, were
    /// taken at one moment, which is not before that of the device's latest call. It waits for nobody.
    pub fn publish(&mut self, device: &Device, counter: u64, raw: u64) -> Result<(), Unpublished> {
        let mut slot = Slot::line(&self.terms, device, self.clock, counter, raw)?;
        let before = self.mapped.page().slot().ok();
        let same = before.filter(|before| before.clock == self.clock);
        if raw > raw_now() || same.is_some_and(|before| raw < before.raw) {
            return Err(Unpublished::BadRaw);
        }
        if let Some(before) = same.filter(|before| before.status == 0) {
            let (earliest, latest) = before.extended(raw);
            if slot.latest < earliest || slot.earliest > latest {
                return Err(Unpublished::Apart);
            }
        }
        slot.disruptions = before.map_or(0, |before| before.disruptions);
        self.put(&slot);
        Ok(())
    }

    /// From now on reads answer `Withdrawn`, until the next publication.
    pub fn withdraw(&mut self) {
        self.put(&Slot::none(WITHDRAWN, self.clock, self.disruptions()));
    }

    /// The machine slept, or is a virtual one that was stopped, restored or migrated. From now on reads answer
    /// `Disrupted`, until the next publication. The device is gone, since the premise drift is broken: start or
    /// join another.
    pub fn disrupt(&mut self, device: Device) {
        drop(device);
        self.put(&Slot::none(DISRUPTED, self.clock, self.disruptions() + 1));
    }

    fn disruptions(&self) -> u64 {
        self.mapped.page().slot().map_or(0, |slot| slot.disruptions)
    }

    /// A writer that is killed within this leaves what was published before.
    fn put(&mut self, slot: &Slot) {
        let page = self.mapped.page();
        let number = page.latest.load(Ordering::Relaxed) + 1;
        let to = &page.slots[(number % 2) as usize];
        to[0].store(0, Ordering::Relaxed);
        // (a reader that sees one of these words sees the 0 before it, too)
        for (to, word) in to.iter().zip(slot.words(number)).skip(1) {
            to.store(word, Ordering::Release);
        }
        to[0].store(number, Ordering::Release);
        page.latest.store(number, Ordering::Release);
    }
}

/// A file that this user alone may write, made where it is not there.
fn own(path: &Path, mode: u32) -> io::Result<File> {
    const O_NOFOLLOW: c_int = if cfg!(target_arch = "aarch64") { 0o100000 } else { 0o400000 };
    let file = OpenOptions::new()
        .read(true)
        .write(true)
        .create(true)
        .truncate(false)
        .mode(mode)
        .custom_flags(O_NOFOLLOW)
        .open(path)?;
    let found = file.metadata()?;
    if found.is_file() && found.uid() == unsafe { geteuid() } && found.nlink() == 1 && found.mode() & 0o777 & !mode == 0 {
        return Ok(file);
    }
    Err(io::ErrorKind::PermissionDenied.into())
}

// The system.

const PROT_READ: c_int = 1;
const PROT_WRITE: c_int = 2;

#[repr(C)]
struct Timespec {
    seconds: i64,
    nanoseconds: i64,
}

extern "C" {
    fn clock_gettime(clock: c_int, at: *mut Timespec) -> c_int;
    fn flock(file: c_int, operation: c_int) -> c_int;
    fn geteuid() -> u32;
    fn mmap(at: *mut c_void, bytes: usize, rights: c_int, flags: c_int, file: c_int, from: i64) -> *mut c_void;
    fn munmap(at: *mut c_void, bytes: usize) -> c_int;
}

/// A page of a file, shared with all that have it.
#[derive(Debug)]
struct Mapped(NonNull<Page>);

// (all its words are atomic)
unsafe impl Send for Mapped {}
unsafe impl Sync for Mapped {}

impl Mapped {
    /// The page of this file. A writer makes the head of one that has none.
    fn new(file: &File, rights: c_int) -> io::Result<Mapped> {
        const MAP_SHARED: c_int = 1;
        if file.metadata()?.len() < size_of::<Page>() as u64 {
            return Err(io::ErrorKind::InvalidData.into());
        }
        let at = unsafe {
            mmap(ptr::null_mut(), size_of::<Page>(), rights, MAP_SHARED, file.as_raw_fd(), 0)
        };
        if at as isize == -1 {
            return Err(io::Error::last_os_error());
        }
        let mapped = Mapped(NonNull::new(at.cast()).expect("mmap gives no null page where it is not asked for one"));
        let page = mapped.page();
        let [magic, version, length] = [&page.magic, &page.version, &page.length].map(|word| word.load(Ordering::Acquire));
        match (magic, version, length) {
            (MAGIC, VERSION, LENGTH) => {}
            (0, 0, _) if rights & PROT_WRITE != 0 => {
                page.length.store(LENGTH, Ordering::Relaxed);
                page.version.store(VERSION, Ordering::Relaxed);
                page.magic.store(MAGIC, Ordering::Release);
            }
            (MAGIC, ..) => return Err(io::ErrorKind::Unsupported.into()),
            _ => return Err(io::ErrorKind::InvalidData.into()),
        }
        Ok(mapped)
    }

    fn page(&self) -> &Page {
        unsafe { self.0.as_ref() }
    }
}

impl Drop for Mapped {
    fn drop(&mut self) {
        unsafe { munmap(self.0.as_ptr().cast(), size_of::<Page>()) };
    }
}

impl Page {
    /// The latest publication.
    fn slot(&self) -> Result<Slot, Unread> {
        for _ in 0..TRIES {
            let number = self.latest.load(Ordering::Acquire);
            if number == 0 {
                return Err(Unread::Empty);
            }
            let from = &self.slots[(number % 2) as usize];
            let words = from.each_ref().map(|word| word.load(Ordering::Acquire));
            // (a slot never has a number again, so it had this one all the time)
            if from[0].load(Ordering::Relaxed) == number {
                return Ok(Slot::from_words(words));
            }
            core::hint::spin_loop();
        }
        Err(Unread::Busy)
    }
}

const LENGTH: u64 = size_of::<Page>() as u64;
const _: () = assert!(LENGTH == 320);
