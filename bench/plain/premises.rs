//! The premises on ticks, drift, losses, failures and renewals.
use crate::replay::Replay;

const MILLION: i128 = 1_000_000;

impl Replay<'_> {
    /// Whether some tick is late. All are looked at, which has to be done once in the time by which
    /// they are early.
    #[cold]
    pub fn is_late(&mut self, reference: u64) -> bool {
        let awaited = self.began.filter(|_| self.awaited > 0).unwrap_or(u64::MAX);
        let oldest = self.owed.iter().fold(awaited, |oldest, owed| oldest.min(*owed));
        self.punctual = oldest.saturating_add(self.params.tick);
        reference > self.punctual
    }

    /// What a reading says of the slowest rate since time zero, and of the fastest.
    fn rates(&self, reference: u64, counter: u64) -> (i128, i128) {
        let ahead = i128::from(counter as i64 - reference as i64) * MILLION;
        let drift = i128::from(self.params.ppm) * i128::from(counter);
        (ahead - drift, -ahead - drift)
    }

    pub fn begin_rates(&mut self, d: u32, reference: u64, counter: u64) {
        let rates = self.rates(reference, counter);
        let state = &mut self.states[d as usize];
        (state.slow, state.fast) = rates;
    }

    /// Whether a reading keeps the rates with all of its life, which it joins.
    #[inline(always)]
    pub fn keeps_rates(&mut self, d: u32, reference: u64, counter: u64) -> bool {
        let (slow, fast) = self.rates(reference, counter);
        let grain = i128::from(self.params.grain) * MILLION;
        let state = &mut self.states[d as usize];
        let keeps = slow - state.slow <= grain && fast - state.fast <= grain;
        (state.slow, state.fast) = (state.slow.min(slow), state.fast.min(fast));
        keeps
    }

    /// Adds a spoiled round, and tells whether it is none of too many in a row.
    fn spoil(&mut self, stamp: u64) -> bool {
        self.spoiled.insert(stamp);
        let is_spoiled = |stamp: &u64| self.spoiled.contains(stamp);
        let behind = (stamp >> 32 << 32..stamp).rev().take_while(is_spoiled).count();
        let before = (stamp + 1..).take_while(is_spoiled).count();
        (behind + before) as u64 + 1 <= self.params.loss
    }

    /// Whether no round is one of too many spoiled ones, the flights judged that are overdue.
    pub fn judge_flights(&mut self, reference: u64) -> bool {
        let mut holds = true;
        self.due = u64::MAX;
        while let Some(flight) = self.flights.get_mut(self.judged) {
            let sending = &self.sendings[(flight.sending - self.first_sending) as usize];
            let due = sending.sent_at + flight.end.max;
            if reference <= due {
                self.due = due;
                break;
            }
            let number = self.first + self.judged as u64;
            self.judged += 1;
            if std::mem::replace(&mut flight.waits, false) {
                let ends = [sending.sender, flight.end.receiver].map(|d| self.states[d as usize].cut);
                if number > ends[0].max(ends[1]).max(self.links_cut[flight.end.link as usize]) {
                    let stamp = sending.message.stamp;
                    holds &= self.spoil(stamp);
                }
            }
        }
        self.drop_first(reference);
        holds
    }

    /// Drops the flights at the front that were judged and are not on their way.
    fn drop_first(&mut self, reference: u64) {
        while let (1.., Some(flight)) = (self.judged, self.flights.front()) {
            let sending = &self.sendings[(flight.sending - self.first_sending) as usize];
            if flight.flies && sending.sent_at + 2 * flight.end.max >= reference {
                break;
            }
            self.flights.pop_front();
            self.first += 1;
            self.judged -= 1;
        }
        let all = self.first_sending + self.sendings.len() as u32;
        let first = self.flights.front().map_or(all, |flight| flight.sending);
        self.sendings.drain(..(first - self.first_sending) as usize);
        self.first_sending = first;
    }

    pub fn is_in_one_domain(&self) -> bool {
        self.failures.iter().all(|failure| *failure == self.failures[0])
            || self.net.domains.iter().any(|(devices, links)| {
                self.failures.iter().all(|(is_device, which)| if *is_device { devices } else { links }.contains(which))
            })
    }

    /// Whether a commit finds all prepared: no device that is up is left out of the staged plan but
    /// cut off, which is judged more strictly here, by any device that is left out and up.
    pub fn is_prepared(&self) -> bool {
        let plan = &self.plans[self.epoch as usize + 1];
        self.states.iter().zip(&plan.members).all(|(state, is_member)| {
            if *is_member {
                state.up && state.given_in_window
            } else {
                !state.up
            }
        }) && (0..self.links_failed.len()).all(|l| !self.links_failed[l] || plan.is_absent[l])
    }

    pub fn have_entered(&self) -> bool {
        let plan = &self.plans[self.epoch as usize + 1];
        self.states.iter().zip(&plan.members).all(|(state, is_member)| !(*is_member && state.up) || state.entered)
    }
}
