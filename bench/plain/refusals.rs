//! Why an event is refused.
use crate::events::Event;
use crate::replay::{Flight, Replay, State};

const MOST_EVENTS: u64 = 1 << 26;

impl Replay<'_> {
    /// Whether nothing is against a reading of a device.
    #[inline(always)]
    pub fn admits(&self, reference: u64, d: u32, counter: u64) -> bool {
        let is_open = !self.ended && self.events < MOST_EVENTS;
        let admits = |state: &State| state.up && counter >= state.reading;
        is_open && reference >= self.reference && self.states.get(d as usize).is_some_and(admits)
    }

    /// Whether a message is on its way to a device.
    #[inline(always)]
    pub fn is_flight(&self, reference: u64, d: u32, message: u64) -> bool {
        let flight = self.flights.get(message.wrapping_sub(self.first) as usize);
        flight.is_some_and(|flight| flight.end.receiver == d && self.flies(flight, reference))
    }

    #[inline(always)]
    fn flies(&self, flight: &Flight, reference: u64) -> bool {
        let sending = &self.sendings[(flight.sending - self.first_sending) as usize];
        flight.flies && reference <= sending.sent_at + 2 * flight.end.max
    }

    /// The first cause, as `sundial replay` names it.
    #[cold]
    pub fn refuse(&self, reference: u64, event: &Event) -> Result<(), &'static str> {
        let cause = self
            .place_refusal(event)
            .or_else(|| self.message_refusal(reference, event))
            .or_else(|| self.device_refusal(reference, event))
            .or_else(|| self.window_refusal(event))
            .or_else(|| self.late_refusal(event));
        cause.map_or(Ok(()), Err)
    }

    fn place_refusal(&self, event: &Event) -> Option<&'static str> {
        if let Some(d) = event.device() {
            match self.states.get(d as usize) {
                None => return Some("UnknownDevice"),
                Some(state) if state.failed => return Some("DeadDevice"),
                _ => {}
            }
        }
        if let Event::Fail { is_device: false, which } = *event {
            match self.links_failed.get(which as usize) {
                None => return Some("UnknownLink"),
                Some(true) => return Some("DeadLink"),
                _ => {}
            }
        }
        None
    }

    fn message_refusal(&self, reference: u64, event: &Event) -> Option<&'static str> {
        let (Event::Recv { message, .. } | Event::Lose { message }) = *event else { return None };
        if message == 0 || message > self.sent {
            return Some("UnknownMessage");
        }
        match message.checked_sub(self.first).map(|place| &self.flights[place as usize]) {
            Some(flight) if self.flies(flight, reference) => {
                event.device().is_some_and(|d| d != flight.end.receiver).then_some("WrongDevice")
            }
            _ => Some("SpentMessage"),
        }
    }

    fn device_refusal(&self, reference: u64, event: &Event) -> Option<&'static str> {
        if reference < self.reference {
            return Some("TimeFalls");
        }
        let state = &self.states[event.device()? as usize];
        match *event {
            Event::Start { .. } => state.made.then_some("StartedTwice"),
            Event::Fail { .. } => None,
            _ if event.counter().is_some_and(|counter| counter < state.reading) => Some("CounterFalls"),
            _ => (!state.up).then_some("NotStarted"),
        }
    }

    fn window_refusal(&self, event: &Event) -> Option<&'static str> {
        let staged = self.epoch + 1;
        let is_out_of_order = match *event {
            Event::Stage if !self.staged && staged as usize >= self.plans.len() => return Some("NoPlanLeft"),
            Event::Stage => self.staged,
            Event::Give { .. } => !self.staged || self.committed,
            Event::Commit { device, .. } => {
                let is_open = self.staged && !self.committed;
                !(is_open
                    && self.plans[staged as usize].root == device
                    && self.states[device as usize].device.given == staged)
            }
            Event::Seal { device } => !self.committed || self.states[device as usize].device.plan != staged,
            _ => false,
        };
        is_out_of_order.then_some("WindowOrder")
    }

    fn late_refusal(&self, event: &Event) -> Option<&'static str> {
        if self.ended {
            return Some("AfterEnd");
        }
        let is_member = match *event {
            Event::Start { device, .. } => self.plans[self.epoch as usize].members[device as usize],
            Event::Give { device } => self.plans[self.epoch as usize + 1].members[device as usize],
            _ => true,
        };
        if !is_member {
            return Some("NotMember");
        }
        (self.events >= MOST_EVENTS).then_some("TooManyEvents")
    }
}
