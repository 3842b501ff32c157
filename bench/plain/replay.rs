//! A fabric with its devices, event by event.
use crate::device::{Device, Heard, Message};
use crate::events::Event;
use crate::texts::{End, Network, Params, Plan};
use crate::waits::Waits;
use std::collections::{HashSet, VecDeque};
use std::io::Write;

/// One copy of a message, to one end.
pub struct Flight<'a> {
    pub end: &'a End,
    /// The number of the sending that it is of.
    pub sending: u32,
    /// Whether it is on its way, and whether the monitor of loss waits for it.
    pub flies: bool,
    pub waits: bool,
}

/// What a device sent to all of its ends at once.
pub struct Sending {
    pub sender: u32,
    pub sent_at: u64,
    pub message: Message,
}

/// A device, and what is kept of it.
#[derive(Clone, Copy, Default)]
pub struct State {
    pub device: Device,
    pub up: bool,
    pub made: bool,
    pub failed: bool,
    pub acts: bool,
    pub given_in_window: bool,
    pub entered: bool,
    pub parent: Option<u32>,
    pub reading: u64,
    /// The least of what readings of this life said of the slowest and of the fastest rate.
    pub slow: i128,
    pub fast: i128,
    /// Flights up to this number were interrupted by a failure.
    pub cut: u64,
}

pub struct Replay<'a> {
    pub net: &'a Network,
    pub plans: &'a [Plan],
    pub params: Params,
    pub states: Vec<State>,
    /// The reference since which each device owes a tick: the greatest number where it owes none.
    pub owed: Vec<u64>,
    /// No reference up to this one finds a tick late.
    pub punctual: u64,
    pub links_failed: Vec<bool>,
    pub links_cut: Vec<u64>,
    pub flights: VecDeque<Flight<'a>>,
    /// The number of the first flight that is kept, and how many were sent.
    pub first: u64,
    pub sent: u64,
    pub sendings: VecDeque<Sending>,
    pub first_sending: u32,
    /// How many of the flights that are kept were judged for loss, and when the next is due.
    pub judged: usize,
    pub due: u64,
    /// The stamps of rounds of which a message was lost.
    pub spoiled: HashSet<u64>,
    pub failures: Vec<(bool, u32)>,
    pub epoch: u32,
    pub staged: bool,
    pub committed: bool,
    pub sealed: bool,
    pub was_staged: bool,
    pub reference: u64,
    pub began: Option<u64>,
    pub ended: bool,
    /// How many members of the first plan were not started.
    pub awaited: u32,
    pub acting: u32,
    pub looped: bool,
    /// The premises that are broken, a bit for each.
    pub broken: u8,
    pub events: u64,
    pub reports: u64,
    /// Commit wait, where it is asked for.
    pub waits: Option<Waits>,
}

/// What an event brings.
#[derive(Default)]
pub struct Found {
    pub broken: u8,
    /// Whether the device may have another parent now, or act where it did not.
    pub stands: bool,
}

const NAMES: [&str; 7] = ["start", "drift", "delay", "tick", "loss", "domain", "renew"];
const START: u8 = 0;
const DRIFT: u8 = 1;
const DELAY: u8 = 2;
const TICK: u8 = 3;
const LOSS: u8 = 4;
const DOMAIN: u8 = 5;
const RENEW: u8 = 6;

impl Found {
    fn breaks(&mut self, premise: u8, is_broken: bool) {
        self.broken |= u8::from(is_broken) << premise;
    }
}

impl<'a> Replay<'a> {
    pub fn new(net: &'a Network, plans: &'a [Plan]) -> Replay<'a> {
        let count = net.names.len();
        Replay {
            net,
            plans,
            params: net.params(),
            states: vec![State::default(); count],
            owed: vec![u64::MAX; count],
            punctual: 0,
            links_failed: vec![false; net.links.len()],
            links_cut: vec![0; net.links.len()],
            flights: VecDeque::new(),
            first: 1,
            sent: 0,
            sendings: VecDeque::new(),
            first_sending: 0,
            judged: 0,
            due: u64::MAX,
            spoiled: HashSet::new(),
            failures: Vec::new(),
            epoch: 0,
            staged: false,
            committed: false,
            sealed: false,
            was_staged: false,
            reference: 0,
            began: None,
            ended: false,
            awaited: plans[0].members.iter().filter(|is| **is).count() as u32,
            acting: 0,
            looped: false,
            broken: 0,
            events: 0,
            reports: 0,
            waits: None,
        }
    }

    /// A tick, or the cause for which it is refused.
    #[inline(always)]
    pub fn tick(
        &mut self,
        reference: u64,
        d: u32,
        counter: u64,
        out: &mut impl Write,
    ) -> Result<(), &'static str> {
        if !self.admits(reference, d, counter) {
            self.refuse(reference, &Event::Tick { device: d, counter })?;
        }
        let mut found = self.count(reference);
        self.read(reference, d, counter, &mut found);
        self.owed[d as usize] = reference;
        let device = &self.states[d as usize].device;
        let is_due = counter - device.since >= device.patience;
        self.judge(reference, &mut found);
        if is_due {
            self.lose_patience(reference, d, counter, &mut found);
        }
        self.conclude(d, &found, out);
        Ok(())
    }

    /// A message is received, or the cause for which that is refused.
    #[inline(always)]
    pub fn receive(
        &mut self,
        reference: u64,
        d: u32,
        counter: u64,
        message: u64,
        out: &mut impl Write,
    ) -> Result<(), &'static str> {
        if !self.admits(reference, d, counter) || !self.is_flight(reference, d, message) {
            self.refuse(reference, &Event::Recv { device: d, counter, message })?;
        }
        let mut found = self.count(reference);
        self.read(reference, d, counter, &mut found);
        let flight = &mut self.flights[(message - self.first) as usize];
        (flight.flies, flight.waits) = (false, false);
        let end = flight.end;
        let sending = &self.sendings[(flight.sending - self.first_sending) as usize];
        let age = reference - sending.sent_at;
        found.breaks(DELAY, age < end.min || age > end.max);
        let heard = self.states[d as usize].device.receive(end, &sending.message, counter);
        self.judge(reference, &mut found);
        if heard != Heard::Nothing {
            if heard == Heard::Moved {
                self.enter(d, &mut found);
            }
            self.pass_on(reference, d);
        }
        self.conclude(d, &found, out);
        Ok(())
    }

    /// Any other event happens, or the cause for which it is refused.
    pub fn step(&mut self, reference: u64, event: Event, out: &mut impl Write) -> Result<(), &'static str> {
        self.refuse(reference, &event)?;
        self.began.get_or_insert(reference);
        let mut found = self.count(reference);
        if let (Some(d), Some(counter)) = (event.device(), event.counter()) {
            if let Event::Start { .. } = event {
                self.begin_rates(d, reference, counter);
            }
            self.read(reference, d, counter, &mut found);
        }
        self.happen(reference, &event, &mut found);
        self.judge(reference, &mut found);
        if self.committed {
            self.close_if_settled();
        }
        if let Some(d) = event.device() {
            self.conclude(d, &found, out);
        } else {
            self.print_broken(&found, out);
        }
        if let Event::Ask { device, counter } = event {
            self.report(reference, device, counter, out);
        }
        Ok(())
    }

    /// Counts an event, and judges what its reference alone tells.
    #[inline(always)]
    fn count(&mut self, reference: u64) -> Found {
        let mut found = Found::default();
        if reference > self.punctual {
            found.breaks(TICK, self.is_late(reference));
        }
        (self.reference, self.events) = (reference, self.events + 1);
        found
    }

    #[inline(always)]
    fn read(&mut self, reference: u64, d: u32, counter: u64, found: &mut Found) {
        found.breaks(DRIFT, !self.keeps_rates(d, reference, counter));
        self.states[d as usize].reading = counter;
    }

    #[inline(always)]
    fn judge(&mut self, reference: u64, found: &mut Found) {
        if reference > self.due {
            found.breaks(LOSS, !self.judge_flights(reference));
        }
    }

    #[inline(always)]
    fn conclude(&mut self, d: u32, found: &Found, out: &mut impl Write) {
        if found.broken & !self.broken != 0 {
            self.print_broken(found, out);
        }
        if found.stands {
            self.stand(d, out);
        }
    }

    fn arm(&mut self, d: u32) {
        let device = &mut self.states[d as usize].device;
        device.arm(&self.plans[device.plan as usize], d, self.params.period);
    }

    /// A tick that has an effect.
    fn lose_patience(&mut self, reference: u64, d: u32, counter: u64, found: &mut Found) {
        let device = &mut self.states[d as usize].device;
        let mode = device.mode;
        let speaks = device.lose_patience(counter);
        if device.mode != mode {
            found.stands = true;
            self.arm(d);
        }
        if speaks {
            let (clock, eps) = self.states[d as usize].device.report(&self.params, counter);
            self.send(reference, d, clock, eps);
        }
    }

    /// A device has come into the plan that it was given.
    fn enter(&mut self, d: u32, found: &mut Found) {
        self.states[d as usize].entered = true;
        self.arm(d);
        found.stands = true;
    }

    /// A device sends on what it has just heard.
    #[inline(always)]
    fn pass_on(&mut self, reference: u64, d: u32) {
        let device = &self.states[d as usize].device;
        if !self.plans[device.plan as usize].ends[d as usize].is_empty() {
            self.send(reference, d, device.clock, device.base);
        }
    }

    fn happen(&mut self, reference: u64, event: &Event, found: &mut Found) {
        match *event {
            Event::Lose { message } => self.flights[(message - self.first) as usize].flies = false,
            Event::Start { device, counter, clock, eps } => {
                found.breaks(START, clock.abs_diff(reference) > eps);
                found.breaks(RENEW, self.was_staged);
                found.stands = true;
                let acts = device == self.plans[self.epoch as usize].root;
                let state = &mut self.states[device as usize];
                state.device = Device::start(self.epoch, acts, counter, clock, eps);
                (state.up, state.made) = (true, true);
                self.arm(device);
                self.awaited -= u32::from(self.plans[0].members[device as usize]);
                self.owed[device as usize] = reference;
                self.punctual = self.punctual.min(reference + self.params.tick);
            }
            Event::Fail { is_device, which } => {
                found.breaks(RENEW, self.committed);
                self.failures.push((is_device, which));
                found.breaks(DOMAIN, !self.is_in_one_domain());
                found.stands = is_device;
                self.fail(is_device, which);
            }
            _ => self.renew(event, found),
        }
    }

    /// An event of a renewal, or the end.
    fn renew(&mut self, event: &Event, found: &mut Found) {
        let staged = self.epoch + 1;
        match *event {
            Event::Stage => {
                (self.staged, self.was_staged) = (true, true);
                self.states.iter_mut().for_each(|state| (state.given_in_window, state.entered) = (false, false));
            }
            Event::Give { device } => {
                let state = &mut self.states[device as usize];
                (state.device.given, state.given_in_window) = (staged, true);
            }
            Event::Commit { device, counter } => {
                found.breaks(RENEW, !self.states[device as usize].acts || !self.is_prepared());
                self.states[device as usize].device.commit(staged, counter);
                self.committed = true;
                self.enter(device, found);
            }
            Event::Seal { device } => {
                found.breaks(RENEW, !self.sealed && !self.have_entered());
                (self.sealed, self.states[device as usize].device.sealed) = (true, true);
                self.arm(device);
            }
            Event::End => self.ended = true,
            _ => {}
        }
    }

    fn send(&mut self, reference: u64, sender: u32, clock: u128, eps: u128) {
        let Device { plan, stamp, .. } = self.states[sender as usize].device;
        let ends = &self.plans[plan as usize].ends[sender as usize];
        if ends.is_empty() || plan != self.epoch && !(self.staged && plan == self.epoch + 1) {
            return;
        }
        if self.judged == self.flights.len() {
            self.due = reference + ends[0].max;
        }
        let sending = self.first_sending + self.sendings.len() as u32;
        self.sendings.push_back(Sending { sender, sent_at: reference, message: Message { plan, stamp, clock, eps } });
        self.sent += ends.len() as u64;
        let (states, links_failed) = (&self.states, &self.links_failed);
        self.flights.extend(ends.iter().map(|end| {
            let reaches = !links_failed[end.link as usize] && states[end.receiver as usize].up;
            Flight { end, sending, flies: reaches, waits: reaches }
        }));
    }

    fn fail(&mut self, is_device: bool, which: u32) {
        if !is_device {
            (self.links_failed[which as usize], self.links_cut[which as usize]) = (true, self.sent);
        } else {
            let state = &mut self.states[which as usize];
            (state.up, state.failed, state.cut) = (false, true, self.sent);
            self.owed[which as usize] = u64::MAX;
        }
        for flight in &mut self.flights {
            flight.flies &= if is_device { flight.end.receiver } else { flight.end.link } != which;
        }
    }

    fn close_if_settled(&mut self) {
        let staged = self.epoch + 1;
        let members = &self.plans[staged as usize].members;
        let is_settled = |state: &State| state.device.plan == staged && state.device.sealed;
        if self.states.iter().zip(members).all(|(state, is)| !(*is && state.up) || is_settled(state)) {
            (self.epoch, self.staged, self.committed, self.sealed) = (staged, false, false, false);
            self.failures.clear();
        }
    }

    #[cold]
    fn print_broken(&mut self, found: &Found, out: &mut impl Write) {
        let is_new = |premise: &usize| found.broken & !self.broken & 1 << premise != 0;
        for premise in (0..NAMES.len()).filter(is_new) {
            writeln!(out, "broken {} {}", self.events, NAMES[premise]).unwrap();
        }
        self.broken |= found.broken;
    }

    fn report(&mut self, reference: u64, d: u32, counter: u64, out: &mut impl Write) {
        let (clock, eps) = self.states[d as usize].device.report(&self.params, counter);
        let name = &self.net.names[d as usize];
        self.reports += 1;
        writeln!(out, "report {} {name} {clock} {eps}", self.events).unwrap();
        if clock.abs_diff(reference.into()) > eps {
            writeln!(out, "alarm {} interval {name} {reference}", self.events).unwrap();
        }
        if let Some(waits) = &mut self.waits {
            waits.report(self.events, d, name, clock, eps, out);
        }
    }
}
