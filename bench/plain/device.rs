//! One device.
use crate::texts::{End, Params, Plan};

/// No plan.
pub const NO_PLAN: u32 = u32::MAX;

#[derive(Clone, Copy, Default, PartialEq)]
pub enum Mode {
    #[default]
    Primary,
    Backup,
    Acting,
}

#[derive(Clone, Copy)]
pub struct Message {
    pub plan: u32,
    /// The term above 32 bits of the round: neither exceeds the number of events.
    pub stamp: u64,
    pub clock: u128,
    pub eps: u128,
}

/// What became of a message.
#[derive(PartialEq)]
pub enum Heard {
    Nothing,
    Taken,
    /// It brought the device into the plan that it was given.
    Moved,
}

#[derive(Clone, Copy, Default)]
pub struct Device {
    pub mode: Mode,
    pub sealed: bool,
    pub plan: u32,
    pub given: u32,
    pub stamp: u64,
    /// The counter since which it waits, as root for its next round, and how long it does before a
    /// tick has an effect.
    pub since: u64,
    pub patience: u64,
    pub at: u64,
    pub clock: u128,
    pub base: u128,
}

impl Device {
    pub fn start(plan: u32, acts: bool, counter: u64, clock: u64, eps: u64) -> Device {
        Device {
            mode: if acts { Mode::Acting } else { Mode::Primary },
            plan,
            given: NO_PLAN,
            sealed: true,
            since: counter,
            clock: clock.into(),
            base: eps.into(),
            at: counter,
            ..Device::default()
        }
    }

    pub fn commit(&mut self, plan: u32, counter: u64) {
        (self.plan, self.given, self.sealed) = (plan, NO_PLAN, false);
        if self.mode != Mode::Acting {
            self.act(0, counter);
        }
    }

    /// Becomes root in a new term.
    fn act(&mut self, round: u64, counter: u64) {
        (self.mode, self.stamp, self.since) = (Mode::Acting, ((self.stamp >> 32) + 1) << 32 | round, counter);
    }

    /// Sets how long it waits, after its mode, its plan or its seal has changed.
    pub fn arm(&mut self, plan: &Plan, d: u32, period: u64) {
        let is_backup_root = d == plan.backup_root;
        self.patience = match self.mode {
            Mode::Acting => period,
            Mode::Backup if self.sealed && is_backup_root => plan.waits[1],
            Mode::Primary if self.sealed && d != plan.root && plan.backup[d as usize].is_some() => {
                plan.waits[if is_backup_root { 0 } else { 2 }]
            }
            _ => u64::MAX,
        };
    }

    pub fn parent(&self, plan: &Plan, d: u32) -> Option<u32> {
        match self.mode {
            Mode::Primary => plan.primary[d as usize],
            Mode::Backup => plan.backup[d as usize],
            Mode::Acting => None,
        }
    }

    pub fn report(&self, params: &Params, counter: u64) -> (u128, u128) {
        let elapsed = u128::from(counter - self.at);
        let drift = (u128::from(params.ppm) * elapsed).div_ceil(1_000_000);
        (self.clock + elapsed, self.base + u128::from(params.grain) + drift)
    }

    /// A tick after it has waited long enough: whether it speaks.
    pub fn lose_patience(&mut self, counter: u64) -> bool {
        self.since = counter;
        match self.mode {
            Mode::Acting => self.stamp += 1,
            Mode::Backup => self.act(1, counter),
            Mode::Primary => self.mode = Mode::Backup,
        }
        self.mode == Mode::Acting
    }

    #[inline]
    pub fn receive(&mut self, end: &End, message: &Message, counter: u64) -> Heard {
        let moves = self.given == message.plan && end.heard_in[Mode::Primary as usize];
        if moves {
            (self.plan, self.given, self.sealed, self.mode) = (message.plan, NO_PLAN, false, Mode::Primary);
        } else if !(self.plan == message.plan && end.heard_in[self.mode as usize] && message.stamp > self.stamp) {
            return Heard::Nothing;
        }
        self.stamp = message.stamp;
        self.clock = message.clock + u128::from(end.mid);
        self.base = message.eps + u128::from(end.half);
        (self.at, self.since) = (counter, counter);
        if moves { Heard::Moved } else { Heard::Taken }
    }
}
