//! Loops of parents, and several roots.
use crate::device::Mode;
use crate::replay::Replay;
use std::io::Write;

impl Replay<'_> {
    /// Notes how a device stands now, and prints the alarms that it brings.
    pub fn stand(&mut self, d: u32, out: &mut impl Write) {
        let state = &mut self.states[d as usize];
        let (parent, acts) = if state.up {
            let plan = &self.plans[state.device.plan as usize];
            (state.device.parent(plan, d), state.device.mode == Mode::Acting)
        } else {
            (None, false)
        };
        let (had, acted) = (std::mem::replace(&mut state.parent, parent), std::mem::replace(&mut state.acts, acts));
        if acted != acts {
            self.act(acts, out);
        }
        if had != parent {
            self.follow(d, out);
        }
    }

    /// One device more acts as root, or one less.
    fn act(&mut self, acts: bool, out: &mut impl Write) {
        self.acting = if acts { self.acting + 1 } else { self.acting - 1 };
        if acts && self.acting == 2 {
            let mut roots = (0..self.states.len()).filter(|d| self.states[*d].acts).map(|d| &self.net.names[d]);
            let (first, second) = (roots.next().unwrap(), roots.next().unwrap());
            writeln!(out, "alarm {} roots {first} {second}", self.events).unwrap();
        }
    }

    /// A device has another parent.
    fn follow(&mut self, d: u32, out: &mut impl Write) {
        let (was_looped, mut here, mut least) = (self.looped, self.states[d as usize].parent, d);
        for _ in 0..self.states.len() {
            match here {
                Some(parent) if parent != d => {
                    least = least.min(parent);
                    here = self.states[parent as usize].parent;
                }
                _ => break,
            }
        }
        self.looped = here == Some(d);
        if self.looped && !was_looped {
            writeln!(out, "alarm {} loop {}", self.events, self.net.names[least as usize]).unwrap();
        }
    }
}
