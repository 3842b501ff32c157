//! The core of a sundial device, for plain Rust: a safe wrapper over the proved static library.
//! `docs/EMBED.md` says how to use it, and what its promise asks of you.
//!
//! The crate needs `core` alone: it allocates nothing and asks nothing of a system. All times are in
//! picoseconds. The feature `clock` adds a clock for the processes of one machine, on Linux.
#![no_std]
#![deny(missing_docs)]

#[cfg(all(feature = "clock", target_os = "linux", target_pointer_width = "64"))]
pub mod clock;
pub mod raw;

use core::fmt;

pub use raw::{Duty, Edge, Message, Rates, BACKUP_ROOT, ORDINARY, ROOT};

/// Why a call was not made. The device is then as it was.
#[derive(Clone, Copy, Debug, PartialEq, Eq)]
pub enum Fault {
    /// The numbers are those of no device.
    NoDevice,
    /// Epoch 0, a role that is none, or a number past its limit.
    NoDuty,
    /// More than 100000 parts per million, or a grain of more than 10^12 ps.
    RatesTooGreat,
    /// The counter is below one that the device keeps.
    CounterFell,
    /// The clock or its eps, set from outside, is 2^100 ps or more.
    ClockTooGreat,
    /// The device's own clock or eps is 2^100 ps or more.
    EstimateTooGreat,
    /// The device's own term is 2^31 or more, or its round 2^62 or more.
    StampTooGreat,
    /// The message's clock or eps is 2^100 ps or more, its term 2^31 or more, or its round 2^62 or
    /// more.
    MessageTooGreat,
    /// No duty of a root was given to the device.
    NotRoot,
    /// What is kept of so many ports takes [`kept_size`] of them in bytes, and not so many.
    WrongSize,
    /// The bytes are not what is kept of a device with so many ports.
    NotKept,
    /// More than a tick may have passed since the device's latest tick.
    TooLate,
    /// An answer that the header does not name.
    Unknown(u32),
}

impl fmt::Display for Fault {
    fn fmt(&self, to: &mut fmt::Formatter<'_>) -> fmt::Result {
        to.write_str(match self {
            Fault::NoDevice => "the numbers are those of no device",
            Fault::NoDuty => "the duty has epoch 0, a role that is none, or a number past its limit",
            Fault::RatesTooGreat => "the rates are past 100000 parts per million or a grain of 10^12 ps",
            Fault::CounterFell => "the counter is below one that the device keeps",
            Fault::ClockTooGreat => "the clock or its eps, set from outside, is 2^100 ps or more",
            Fault::EstimateTooGreat => "the device's own clock or eps is 2^100 ps or more",
            Fault::StampTooGreat => "the device's own term is 2^31 or more, or its round 2^62 or more",
            Fault::MessageTooGreat => "the message has a clock, an eps, a term or a round past its limit",
            Fault::NotRoot => "no duty of a root was given to the device",
            Fault::WrongSize => "what is kept of so many ports takes another number of bytes",
            Fault::NotKept => "the bytes are not what is kept of a device with so many ports",
            Fault::TooLate => "more than a tick may have passed since the device's latest tick",
            Fault::Unknown(answer) => return write!(to, "the library answered {answer}"),
        })
    }
}

impl core::error::Error for Fault {}

/// How a device takes part.
#[derive(Clone, Copy, Debug, PartialEq, Eq)]
pub enum Mode {
    /// It follows its primary parent.
    Primary,
    /// It follows its backup parent.
    Backup,
    /// It acts as root.
    Acting,
    /// It has no duty yet.
    Idle,
}

/// The reference time lies from `clock - eps` to `clock + eps`, in ps.
#[derive(Clone, Copy, Debug, PartialEq, Eq)]
pub struct Report {
    /// What the device takes the reference time for, in ps.
    pub clock: u128,
    /// By how much that may be off, in ps.
    pub eps: u128,
}

/// The reference time lies from the one to the other, in ps.
#[derive(Clone, Copy, Debug, PartialEq, Eq)]
pub struct Interval {
    /// The earliest that the reference time can be, in ps.
    pub earliest: u128,
    /// The latest that the reference time can be, in ps: the stamp of a transaction.
    pub latest: u128,
}

impl Interval {
    /// Whether the reference time has surely passed the stamp, in ps: the end of a commit wait.
    pub fn has_passed(self, stamp: u128) -> bool {
        self.earliest > stamp
    }
}

impl Report {
    /// The earliest reference time that the report allows, in ps.
    pub fn earliest(self) -> u128 {
        self.clock.saturating_sub(self.eps)
    }

    /// The latest reference time that the report allows, in ps.
    pub fn latest(self) -> u128 {
        self.clock + self.eps
    }

    /// Whether the reference time has surely passed the stamp, in ps: the end of a commit wait.
    pub fn has_passed(self, stamp: u128) -> bool {
        self.interval().has_passed(stamp)
    }

    /// The interval that it allows.
    pub fn interval(self) -> Interval {
        Interval { earliest: self.earliest(), latest: self.latest() }
    }
}

/// A link over which messages come to a device, as its host sees it: whether it takes what comes.
///
/// One that was never opened takes nothing. Its counter is that of the device, so
/// [`Device::rebase_with_ports`] lowers it too. Keep the ports beside the device. After a restore they
/// go on as they were.
///
/// ```
/// use sundial_device::{Edge, Port, Rates};
///
/// let (edge, rates) = (Edge { mid: 7, half: 3, parent: 0, link: 0 }, Rates { grain: 5, ppm: 200 });
/// let mut port = Port::default();
/// port.open(&edge, &rates, 1_000)?;
/// assert!(!port.takes(1_026));
/// assert!(port.takes(1_027)); // 27 ps later more than 2 * (7 + 3) ps have surely passed
/// # Ok::<(), sundial_device::Fault>(())
/// ```
#[derive(Clone, Copy, Debug, Default, PartialEq, Eq)]
#[repr(transparent)]
pub struct Port(raw::Port);

impl Port {
    /// The device starts or joins while the link works, or the link works again. The edge is the way
    /// over it by the device's duty, or by the duty that it is about to be given. Faults: `NoDuty`,
    /// `RatesTooGreat`.
    pub fn open(&mut self, edge: &Edge, rates: &Rates, counter: u64) -> Result<(), Fault> {
        done(unsafe { raw::sundial_port_open(&mut self.0, edge, rates, counter) })
    }

    /// The link is down.
    pub fn close(&mut self) {
        unsafe { raw::sundial_port_close(&mut self.0) }
    }

    /// Whether it was opened, and not closed since.
    pub fn is_open(&self) -> bool {
        self.0.is_open != 0
    }

    /// Whether a message that came while the counter showed this may be given to
    /// [`Device::receive`]. Otherwise drop it: it counts as lost.
    pub fn takes(&self, counter: u64) -> bool {
        unsafe { raw::sundial_port_takes(&self.0, counter) != 0 }
    }
}

/// How many bytes are kept of a device with so many ports.
pub const fn kept_size(ports: usize) -> usize {
    318 + 17 * ports
}

/// What was kept of a device, but for its ports.
#[derive(Clone, Debug, PartialEq, Eq)]
pub struct Restored {
    /// The device.
    pub device: Device,
    /// By how much the counter of its calls is lower than the hardware's, modulo 2^64.
    pub lowered: u64,
    /// What the hardware's counter showed at its latest tick, or at the start or join where that is later.
    pub ticked: u64,
}

/// A device: plain numbers, which may be copied and kept.
///
/// Counters, clocks and eps are in ps. A counter is not below one that the device keeps, and a clock
/// and its eps are below 2^100. A call that is not made answers the fault, and changes nothing.
///
/// Two devices are equal where no call tells them apart: a duty or a parent whose flag is 0 may
/// hold any numbers.
///
/// ```
/// use sundial_device::{Device, Duty, Rates, ROOT};
///
/// let duty = Duty { epoch: 1, role: ROOT, period: 100_000_000, ..Duty::default() };
/// let mut root = Device::start(&duty, 0, 5_000, 10)?;
/// if let Some(message) = root.tick(100_000_000)? {
///     // the message goes over each link to a device that has this one as a parent
///     assert_eq!(message.epoch, 1);
/// }
/// let now = root.now(200_000_000)?;
/// assert!(now.earliest <= 200_005_000 && 200_005_000 <= now.latest);
/// # Ok::<(), sundial_device::Fault>(())
/// ```
#[derive(Clone, Debug)]
pub struct Device(raw::Device);

impl PartialEq for Device {
    fn eq(&self, other: &Device) -> bool {
        plain(&self.0) == plain(&other.0)
    }
}

impl Eq for Device {}

impl Device {
    /// A device of the plan in force, which begins for the first time. The clock is within eps of
    /// the reference time. Faults: `NoDuty`.
    pub fn start(duty: &Duty, counter: u64, clock: u64, eps: u64) -> Result<Device, Fault> {
        let mut device = raw::Device::default();
        done(unsafe { raw::sundial_start(&mut device, duty, counter, clock, eps) })?;
        Ok(Device(device))
    }

    /// The same, with a clock and an eps of 128 bits. Faults: `NoDuty`, `ClockTooGreat`.
    pub fn start_wide(duty: &Duty, counter: u64, clock: u128, eps: u128) -> Result<Device, Fault> {
        let mut device = raw::Device::default();
        done(unsafe {
            raw::sundial_start_wide(&mut device, duty, counter, &wide(clock), &wide(eps))
        })?;
        Ok(Device(device))
    }

    /// A device that begins, or begins anew, while a new plan is brought in. The clock is within eps
    /// of the reference time. Faults: `RatesTooGreat`.
    pub fn join(rates: &Rates, counter: u64, clock: u64, eps: u64) -> Result<Device, Fault> {
        let mut device = raw::Device::default();
        done(unsafe { raw::sundial_join(&mut device, rates, counter, clock, eps) })?;
        Ok(Device(device))
    }

    /// The same, with a clock and an eps of 128 bits. Faults: `RatesTooGreat`, `ClockTooGreat`.
    pub fn join_wide(rates: &Rates, counter: u64, clock: u128, eps: u128) -> Result<Device, Fault> {
        let mut device = raw::Device::default();
        done(unsafe {
            raw::sundial_join_wide(&mut device, rates, counter, &wide(clock), &wide(eps))
        })?;
        Ok(Device(device))
    }

    /// Writes what is to be kept of it and its ports, as many bytes as [`kept_size`] says: beside it by how
    /// much its counter is lower than the hardware's, modulo 2^64, and what the hardware showed at its latest
    /// tick, or at the start or join where that is later. Keep the bytes after each call that changed any of
    /// it, and before you send what the call sent. Faults: `WrongSize`.
    pub fn keep(&self, ports: &[Port], lowered: u64, ticked: u64, bytes: &mut [u8]) -> Result<(), Fault> {
        let (first, room) = (ports.as_ptr().cast(), bytes.as_mut_ptr());
        done(unsafe {
            raw::sundial_keep(&self.0, first, ports.len(), lowered, ticked, room, bytes.len())
        })
    }

    /// What was kept of a device with as many ports, which it writes. One byte that is another is found, always.
    /// Faults: `NotKept`.
    pub fn kept_in(bytes: &[u8], ports: &mut [Port]) -> Result<Restored, Fault> {
        let (mut device, mut lowered, mut ticked) = (raw::Device::default(), 0, 0);
        let (from, first) = (bytes.as_ptr(), ports.as_mut_ptr().cast());
        done(unsafe {
            raw::sundial_kept(from, bytes.len(), &mut device, first, ports.len(), &mut lowered, &mut ticked)
        })?;
        Ok(Restored { device: Device(device), lowered, ticked })
    }

    /// The same, for a device that is to go on: surely no more than `tick` ps have passed since its latest tick,
    /// while the hardware's counter shows this. Tick at once. Faults: `NotKept`, `TooLate`.
    pub fn restore_in_time(
        bytes: &[u8],
        tick: u64,
        hardware: u64,
        ports: &mut [Port],
    ) -> Result<Restored, Fault> {
        let (mut device, mut lowered, mut ticked) = (raw::Device::default(), 0, 0);
        let (from, first, count) = (bytes.as_ptr(), ports.as_mut_ptr().cast(), ports.len());
        done(unsafe {
            raw::sundial_restore(
                from, bytes.len(), tick, hardware, &mut device, first, count, &mut lowered, &mut ticked,
            )
        })?;
        Ok(Restored { device: Device(device), lowered, ticked })
    }

    /// The device that was kept as these numbers. Faults: `NoDevice`.
    pub fn restore(kept: raw::Device) -> Result<Device, Fault> {
        done(unsafe { raw::sundial_made(&kept) })?;
        Ok(Device(kept))
    }

    /// Whether a device that was kept may go on after a pause: surely no more than `tick` ps have passed
    /// since its latest tick, when the hardware's counter showed `ticked`.
    pub fn is_in_time(rates: &Rates, tick: u64, ticked: u64, hardware: u64) -> bool {
        unsafe { raw::sundial_in_time(rates, tick, ticked, hardware) != 0 }
    }

    /// Its numbers, to be kept.
    pub fn kept(&self) -> raw::Device {
        self.0
    }

    /// Its duty in the next plan, kept beside the present one. Faults: `NoDuty`.
    pub fn give(&mut self, duty: &Duty) -> Result<(), Fault> {
        done(unsafe { raw::sundial_give(&mut self.0, duty) })
    }

    /// It takes up the given duty at once, as the root of the next plan. Ask `acts` first: a device that
    /// does not act, and was given the duty of a root, is not refused. Faults: `CounterFell`,
    /// `StampTooGreat`, `NotRoot`.
    pub fn commit(&mut self, counter: u64) -> Result<(), Fault> {
        done(unsafe { raw::sundial_commit(&mut self.0, counter) })
    }

    /// From now on it may move to its backup parent and take over.
    pub fn seal(&mut self) -> Result<(), Fault> {
        done(unsafe { raw::sundial_seal(&mut self.0) })
    }

    /// Sets the clock from outside, within eps of the reference time. Faults: `CounterFell`.
    pub fn fix(&mut self, counter: u64, clock: u64, eps: u64) -> Result<(), Fault> {
        done(unsafe { raw::sundial_fix(&mut self.0, counter, clock, eps) })
    }

    /// The same, with a clock and an eps of 128 bits. Faults: `CounterFell`, `ClockTooGreat`.
    pub fn fix_wide(&mut self, counter: u64, clock: u128, eps: u128) -> Result<(), Fault> {
        done(unsafe { raw::sundial_fix_wide(&mut self.0, counter, &wide(clock), &wide(eps)) })
    }

    /// It lowers the counters that it keeps by as much as it can, and answers by how much. From then
    /// on each call takes the counter less the sum of all that was lowered, and answers as it would
    /// have. The header has the one condition, on the ppm of a commit. Faults: `CounterFell`,
    /// `EstimateTooGreat`.
    pub fn rebase(&mut self, counter: u64) -> Result<u64, Fault> {
        let mut lowered = 0;
        done(unsafe { raw::sundial_rebase(&mut self.0, counter, &mut lowered) })?;
        Ok(lowered)
    }

    /// The same, of the device and of all its ports: after it each port takes what it would have taken.
    /// Faults: those of a rebase.
    pub fn rebase_with_ports(&mut self, ports: &mut [Port], counter: u64) -> Result<u64, Fault> {
        let mut lowered = 0;
        let first = ports.as_mut_ptr().cast();
        done(unsafe { raw::sundial_rebase_with_ports(&mut self.0, first, ports.len(), counter, &mut lowered) })?;
        Ok(lowered)
    }

    /// Its own timer: what it sends to each device below, if it sends. Faults: `CounterFell`,
    /// `EstimateTooGreat`, `StampTooGreat`.
    pub fn tick(&mut self, counter: u64) -> Result<Option<Message>, Fault> {
        let mut effect = raw::Effect::default();
        done(unsafe { raw::sundial_tick(&mut self.0, counter, &mut effect) })?;
        Ok(sent(&effect))
    }

    /// A message that came over this link: what it sends on, if it accepts it. A message that it does
    /// not accept is no fault. Faults: `CounterFell`, `MessageTooGreat`.
    ///
    /// Hand it none that was sent before the device started or joined, or while the link was down or
    /// before that. The device cannot tell, so ask the link's [`Port`] first.
    pub fn receive(
        &mut self,
        link: u32,
        message: &Message,
        counter: u64,
    ) -> Result<Option<Message>, Fault> {
        let mut effect = raw::Effect::default();
        done(unsafe { raw::sundial_receive(&mut self.0, link, message, counter, &mut effect) })?;
        Ok(sent(&effect))
    }

    /// What it takes the reference time for. Faults: `CounterFell`, `EstimateTooGreat`.
    pub fn report(&self, counter: u64) -> Result<Report, Fault> {
        let mut report = raw::Report::default();
        done(unsafe { raw::sundial_report(&self.0, counter, &mut report) })?;
        Ok(Report {
            clock: number(report.clock),
            eps: number(report.eps),
        })
    }

    /// The interval in which the reference time lies, as a database asks for it. Faults: those of a
    /// report.
    pub fn now(&self, counter: u64) -> Result<Interval, Fault> {
        Ok(self.report(counter)?.interval())
    }

    /// The age of the estimate: by how much the counter has advanced since the clock was set, by a
    /// start, a join, a fix or a message that was accepted. Faults: those of a report.
    pub fn age(&self, counter: u64) -> Result<u64, Fault> {
        self.report(counter)?;
        Ok(counter - self.0.estimate.at)
    }

    /// How it takes part.
    pub fn mode(&self) -> Result<Mode, Fault> {
        done(unsafe { raw::sundial_made(&self.0) })?;
        Ok(match self.0.mode {
            raw::PRIMARY => Mode::Primary,
            raw::BACKUP => Mode::Backup,
            raw::ACTING => Mode::Acting,
            _ => Mode::Idle,
        })
    }

    /// The number of the device that it follows, if it follows one.
    pub fn parent(&self) -> Result<Option<u32>, Fault> {
        let mut parent = raw::Parent::default();
        done(unsafe { raw::sundial_parent(&self.0, &mut parent) })?;
        Ok((parent.has_parent != 0).then_some(parent.parent))
    }

    /// Whether it acts as root.
    pub fn acts(&self) -> Result<bool, Fault> {
        let mut acts = 0;
        done(unsafe { raw::sundial_acts(&self.0, &mut acts) })?;
        Ok(acts != 0)
    }

    /// The number of the plan that it follows, 0 where it follows none yet.
    pub fn epoch(&self) -> Result<u32, Fault> {
        let mut epoch = 0;
        done(unsafe { raw::sundial_epoch(&self.0, &mut epoch) })?;
        Ok(epoch)
    }
}

/// The device with 0 for all that no call reads, and 1 for each flag that is set.
fn plain(device: &raw::Device) -> raw::Device {
    raw::Device {
        duty: plain_duty(device.has_duty, &device.duty),
        given: plain_duty(device.has_given, &device.given),
        has_duty: flag(device.has_duty),
        has_given: flag(device.has_given),
        sealed: flag(device.sealed),
        ..*device
    }
}

fn plain_duty(is_there: u8, duty: &Duty) -> Duty {
    if is_there == 0 {
        return Duty::default();
    }
    Duty {
        primary: plain_edge(duty.has_primary, duty.primary),
        backup: plain_edge(duty.has_backup, duty.backup),
        has_primary: flag(duty.has_primary),
        has_backup: flag(duty.has_backup),
        ..*duty
    }
}

fn plain_edge(is_there: u8, edge: Edge) -> Edge {
    if is_there == 0 { Edge::default() } else { edge }
}

fn flag(byte: u8) -> u8 {
    u8::from(byte != 0)
}

fn number(wide: raw::Wide) -> u128 {
    u128::from(wide.high) << 64 | u128::from(wide.low)
}

fn wide(number: u128) -> raw::Wide {
    // (its two halves)
    raw::Wide { low: number as u64, high: (number >> 64) as u64 }
}

fn sent(effect: &raw::Effect) -> Option<Message> {
    (effect.sends != 0).then_some(effect.message)
}

fn done(answer: u32) -> Result<(), Fault> {
    Err(match answer {
        raw::DONE => return Ok(()),
        1 => Fault::NoDevice,
        2 => Fault::NoDuty,
        3 => Fault::RatesTooGreat,
        4 => Fault::CounterFell,
        6 => Fault::ClockTooGreat,
        7 => Fault::EstimateTooGreat,
        8 => Fault::StampTooGreat,
        9 => Fault::MessageTooGreat,
        10 => Fault::NotRoot,
        11 => Fault::WrongSize,
        12 => Fault::NotKept,
        13 => Fault::TooLate,
        other => Fault::Unknown(other),
    })
}
