//! The calls and structs of `include/sundial_device.h`, as they are. That header has the units, the
//! ranges and the faults.

/// The answer of a call that was made.
pub const DONE: u32 = 0;

/// The role of a device that acts as root.
pub const ROOT: u8 = 0;
/// The role of a device that takes over where the root falls silent.
pub const BACKUP_ROOT: u8 = 1;
/// The role of every other device.
pub const ORDINARY: u8 = 2;

/// The mode of a device that follows its primary parent.
pub const PRIMARY: u8 = 0;
/// The mode of a device that follows its backup parent.
pub const BACKUP: u8 = 1;
/// The mode of a device that acts as root.
pub const ACTING: u8 = 2;
/// The mode of a device that has no duty yet.
pub const IDLE: u8 = 3;

macro_rules! plain {
    ($(#[$doc:meta])* $name:ident $size:literal {
        $($(#[$of_field:meta])* $field:ident: $kind:ty),* $(,)?
    }) => {
        $(#[$doc])*
        #[repr(C)]
        #[derive(Clone, Copy, Debug, Default, PartialEq, Eq)]
        pub struct $name { $($(#[$of_field])* pub $field: $kind),* }
        const _: () = assert!(core::mem::size_of::<$name>() == $size);
    };
}

plain!(
    /// The number `high * 2^64 + low`.
    Wide 16 {
        /// The lower 64 bits.
        low: u64,
        /// The upper 64 bits.
        high: u64,
    }
);
plain!(
    /// How far the oscillator may drift: a constant, and a part of the time that passes.
    Rates 16 {
        /// A constant in ps, at most 10^12.
        grain: u64,
        /// Parts per million, at most 100000.
        ppm: u32,
    }
);
plain!(
    /// A parent, the link to it, and the correction of what comes over it.
    Edge 24 {
        /// The middle of the least and the greatest delay towards the device, in ps, rounded down.
        mid: u64,
        /// How far a delay may lie from the middle, in ps.
        half: u64,
        /// The number of the parent in the topology, from 0.
        parent: u32,
        /// The number of the link in the topology, from 0.
        link: u32,
    }
);
plain!(
    /// The device's part of a plan.
    Duty 104 {
        /// Whom it follows at first. Read where `has_primary` is not 0.
        primary: Edge,
        /// Whom it moves to after a silence. Read where `has_backup` is not 0.
        backup: Edge,
        /// Between two sendings of an acting root, in ps.
        period: u64,
        /// Silence until the backup root moves to its backup parent, in ps.
        wait_first: u64,
        /// Silence there until it takes over, in ps.
        wait_second: u64,
        /// Silence until any other device moves to its backup parent, in ps.
        wait: u64,
        /// How far its oscillator may drift.
        rates: Rates,
        /// The number of the plan, from 1.
        epoch: u32,
        /// `ROOT`, `BACKUP_ROOT` or `ORDINARY`.
        role: u8,
        /// Not 0 where it has a primary parent.
        has_primary: u8,
        /// Not 0 where it has a backup parent.
        has_backup: u8,
    }
);
plain!(
    /// The age of a message.
    Stamp 16 {
        /// How often that root has sent since.
        round: u64,
        /// How often a device began to act as root.
        term: u32,
    }
);
plain!(
    /// The clock and its uncertainty while the counter showed `at`.
    Estimate 40 {
        /// The clock, in ps.
        clock: Wide,
        /// Its uncertainty, in ps.
        base: Wide,
        /// The counter then, in ps.
        at: u64,
    }
);
plain!(
    /// The reference time lies from `clock - eps` to `clock + eps`.
    Report 32 {
        /// The clock, in ps.
        clock: Wide,
        /// Its uncertainty, in ps.
        eps: Wide,
    }
);
plain!(
    /// What a device sends downward.
    Message 56 {
        /// The clock, in ps.
        clock: Wide,
        /// Its uncertainty, in ps.
        eps: Wide,
        /// Its age.
        stamp: Stamp,
        /// The number of the plan that its sender follows.
        epoch: u32,
    }
);
plain!(
    /// What a call sends.
    Effect 64 {
        /// The message to each device below.
        message: Message,
        /// Not 0 where there is one.
        sends: u8,
    }
);
plain!(
    /// The parent of a device, where it has one.
    Parent 8 {
        /// Its number in the topology.
        parent: u32,
        /// Not 0 where there is one.
        has_parent: u8,
    }
);
plain!(
    /// All that a device keeps.
    Device 304 {
        /// Its duty in the plan that it follows. Read where `has_duty` is not 0.
        duty: Duty,
        /// Its duty in the next plan. Read where `has_given` is not 0.
        given: Duty,
        /// What it knew of the reference time last.
        estimate: Estimate,
        /// The age of the latest message, or its own as root.
        stamp: Stamp,
        /// How far its oscillator may drift.
        rates: Rates,
        /// The counter of its latest message or move, in ps.
        last: u64,
        /// The counter of its latest sending as root, in ps.
        sent: u64,
        /// Not 0 where it has a duty.
        has_duty: u8,
        /// Not 0 where it was given a duty in the next plan.
        has_given: u8,
        /// `PRIMARY`, `BACKUP`, `ACTING` or `IDLE`.
        mode: u8,
        /// Not 0 where it may move and take over.
        sealed: u8,
    }
);
plain!(
    /// A link over which messages come to a device: whether its host may hand on what comes.
    Port 24 {
        /// The counter from which on it takes what comes, in ps. Read where `is_open` is not 0.
        clear: Wide,
        /// Not 0 where the link works, and the device runs.
        is_open: u8,
    }
);

// Each reference is to initialised memory of its own, which is all that the calls ask.
extern "C" {
    /// The version of the library. Another has another name, so that these bindings do not link with it.
    pub fn sundial_version_1() -> u32;
    /// Whether the struct holds a device.
    pub fn sundial_made(device: &Device) -> u32;
    /// A device of the plan in force begins.
    pub fn sundial_start(device: &mut Device, duty: &Duty, counter: u64, clock: u64, eps: u64) -> u32;
    /// The same, with a clock and an eps of 128 bits.
    pub fn sundial_start_wide(
        device: &mut Device,
        duty: &Duty,
        counter: u64,
        clock: &Wide,
        eps: &Wide,
    ) -> u32;
    /// A device begins while a new plan is brought in.
    pub fn sundial_join(device: &mut Device, rates: &Rates, counter: u64, clock: u64, eps: u64) -> u32;
    /// The same, with a clock and an eps of 128 bits.
    pub fn sundial_join_wide(
        device: &mut Device,
        rates: &Rates,
        counter: u64,
        clock: &Wide,
        eps: &Wide,
    ) -> u32;
    /// Its duty in the next plan.
    pub fn sundial_give(device: &mut Device, duty: &Duty) -> u32;
    /// It takes up the given duty as root.
    pub fn sundial_commit(device: &mut Device, counter: u64) -> u32;
    /// From now on it may move and take over.
    pub fn sundial_seal(device: &mut Device) -> u32;
    /// Sets its clock from outside.
    pub fn sundial_fix(device: &mut Device, counter: u64, clock: u64, eps: u64) -> u32;
    /// The same, with a clock and an eps of 128 bits.
    pub fn sundial_fix_wide(device: &mut Device, counter: u64, clock: &Wide, eps: &Wide) -> u32;
    /// Its own timer.
    pub fn sundial_tick(device: &mut Device, counter: u64, effect: &mut Effect) -> u32;
    /// A message came over this link.
    pub fn sundial_receive(
        device: &mut Device,
        link: u32,
        message: &Message,
        counter: u64,
        effect: &mut Effect,
    ) -> u32;
    /// It lowers the counters that it keeps.
    pub fn sundial_rebase(device: &mut Device, counter: u64, lowered: &mut u64) -> u32;
    /// The same, of the device and of as many ports from the first one on.
    pub fn sundial_rebase_with_ports(
        device: &mut Device,
        ports: *mut Port,
        count: usize,
        counter: u64,
        lowered: &mut u64,
    ) -> u32;
    /// The link works, and the device runs.
    pub fn sundial_port_open(port: &mut Port, edge: &Edge, rates: &Rates, counter: u64) -> u32;
    /// The link is down.
    pub fn sundial_port_close(port: &mut Port);
    /// 1 where the device may be given what comes, and else 0.
    pub fn sundial_port_takes(port: &Port, counter: u64) -> u32;
    /// 1 where it may go on after a pause, and else 0.
    pub fn sundial_in_time(rates: &Rates, tick: u64, ticked: u64, hardware: u64) -> u32;
    /// Writes what is to be kept of a device and of as many ports from the first one on.
    pub fn sundial_keep(
        device: &Device,
        ports: *const Port,
        count: usize,
        lowered: u64,
        ticked: u64,
        bytes: *mut u8,
        size: usize,
    ) -> u32;
    /// Reads what was kept.
    pub fn sundial_kept(
        bytes: *const u8,
        size: usize,
        device: &mut Device,
        ports: *mut Port,
        count: usize,
        lowered: &mut u64,
        ticked: &mut u64,
    ) -> u32;
    /// The same, where the device may go on after its pause.
    pub fn sundial_restore(
        bytes: *const u8,
        size: usize,
        tick: u64,
        hardware: u64,
        device: &mut Device,
        ports: *mut Port,
        count: usize,
        lowered: &mut u64,
        ticked: &mut u64,
    ) -> u32;
    /// What it takes the reference time for.
    pub fn sundial_report(device: &Device, counter: u64, report: &mut Report) -> u32;
    /// Whom it follows.
    pub fn sundial_parent(device: &Device, parent: &mut Parent) -> u32;
    /// Whether it acts as root.
    pub fn sundial_acts(device: &Device, acts: &mut u8) -> u32;
    /// The number of the plan that it follows.
    pub fn sundial_epoch(device: &Device, epoch: &mut u32) -> u32;
}

/// No program links with a library of another version.
#[used]
static VERSION: unsafe extern "C" fn() -> u32 = sundial_version_1;
