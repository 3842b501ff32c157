//! The schedule that the example in C wrote, driven once more: each report has to be the same.
//!
//! SUNDIAL_EXAMPLE names a folder with `schedule`, which `bindings/c/embed` wrote, and `told`, what
//! it printed. Without it the test does nothing.

use std::collections::HashMap;
use std::fs;
use std::path::Path;

use sundial_device::{Device, Duty, Edge, Message, Rates, BACKUP_ROOT, ORDINARY, ROOT};

const NAMES: [&str; 5] = ["s0", "s1", "s2", "l0", "l1"];
const ENDS: [(usize, usize); 6] = [(0, 3), (0, 4), (1, 3), (1, 4), (2, 3), (2, 4)];
const RATES: Rates = Rates { grain: 1_000, ppm: 200 };

/// Role, primary and backup link of each device in each plan: those of bindings/c/fabric.h.
const PLANS: [[(u8, Option<(u32, u32)>); 5]; 3] = [
    [
        (ROOT, None),
        (BACKUP_ROOT, Some((2, 3))),
        (ORDINARY, Some((4, 5))),
        (ORDINARY, Some((0, 2))),
        (ORDINARY, Some((1, 3))),
    ],
    [
        (ORDINARY, None),
        (ROOT, None),
        (BACKUP_ROOT, Some((4, 5))),
        (ORDINARY, Some((2, 4))),
        (ORDINARY, Some((3, 5))),
    ],
    [
        (BACKUP_ROOT, Some((0, 1))),
        (ROOT, None),
        (ORDINARY, Some((4, 5))),
        (ORDINARY, Some((2, 0))),
        (ORDINARY, Some((3, 1))),
    ],
];

fn other_end(link: usize, device: usize) -> Option<usize> {
    let (first, second) = ENDS[link];
    match device {
        _ if device == first => Some(second),
        _ if device == second => Some(first),
        _ => None,
    }
}

fn edge(link: u32, device: usize) -> Edge {
    let parent = other_end(link as usize, device).unwrap() as u32;
    Edge { mid: 700_000, half: 300_000, parent, link }
}

fn duty(epoch: u32, device: usize) -> Duty {
    let (role, links) = PLANS[epoch as usize - 1][device];
    Duty {
        primary: links.map_or(Edge::default(), |(primary, _)| edge(primary, device)),
        backup: links.map_or(Edge::default(), |(_, backup)| edge(backup, device)),
        period: 100_000_000,
        wait_first: 1_240_417_084,
        wait_second: 1_240_417_084,
        wait: 6_203_077_952,
        rates: RATES,
        epoch,
        role,
        has_primary: links.is_some().into(),
        has_backup: links.is_some().into(),
    }
}

#[derive(Default)]
struct Fabric {
    devices: [Option<Device>; 5],
    staged: u32,
    sent: u64,
    messages: HashMap<u64, (u32, Message)>,
}

impl Fabric {
    fn device(&mut self, number: u64) -> &mut Device {
        self.devices[number as usize].as_mut().unwrap()
    }

    /// The message over each link below the sender, by ascending link, each with the next number.
    fn send(&mut self, sender: u64, message: Option<Message>) {
        let Some(message) = message else { return };
        let epoch = self.device(sender).epoch().unwrap();
        for link in 0..ENDS.len() {
            let Some(receiver) = other_end(link, sender as usize) else { continue };
            let (_, links) = PLANS[epoch as usize - 1][receiver];
            let link = link as u32;
            if links.is_some_and(|(primary, backup)| link == primary || link == backup) {
                self.sent += 1;
                self.messages.insert(self.sent, (link, message));
            }
        }
    }

    /// The line that the replay prints for this line of the schedule, if it prints one.
    fn step(&mut self, line: usize, text: &str) -> Option<String> {
        let words: Vec<&str> = text.split(' ').collect();
        let n = |place: usize| words[place].parse::<u64>().unwrap();
        match words[0] {
            "start" => {
                let first = duty(1, n(2) as usize);
                let device = Device::start(&first, n(3), n(4), n(5)).unwrap();
                self.devices[n(2) as usize] = Some(device);
            }
            "join" => {
                let device = Device::join(&RATES, n(3), n(4), n(5)).unwrap();
                assert_eq!(device.epoch(), Ok(0));
                self.devices[n(2) as usize] = Some(device);
            }
            "tick" => {
                let sent = self.device(n(2)).tick(n(3)).unwrap();
                self.send(n(2), sent);
            }
            "recv" => {
                let (link, message) = self.messages.remove(&n(4)).unwrap();
                let sent = self.device(n(2)).receive(link, &message, n(3)).unwrap();
                self.send(n(2), sent);
            }
            "fix" => self.device(n(2)).fix(n(3), n(4), n(5)).unwrap(),
            "stage" => self.staged = self.staged.max(1) + 1,
            "give" => {
                let given = duty(self.staged, n(2) as usize);
                self.device(n(2)).give(&given).unwrap();
            }
            "commit" => self.device(n(2)).commit(n(3)).unwrap(),
            "seal" => self.device(n(2)).seal().unwrap(),
            "fail" if words[2] == "device" => self.devices[n(3) as usize] = None,
            "ask" => {
                let kept = self.device(n(2)).kept();
                let report = Device::restore(kept).unwrap().report(n(3)).unwrap();
                assert!(!report.has_passed(n(1).into()) && report.latest() >= n(1).into());
                let name = NAMES[n(2) as usize];
                return Some(format!("report {line} {name} {} {}", report.clock, report.eps));
            }
            "fail" | "mend" | "lose" | "end" => (),
            other => panic!("{other}"),
        }
        None
    }
}

#[test]
fn reports_as_in_c() {
    let Some(folder) = std::env::var_os("SUNDIAL_EXAMPLE") else { return };
    let schedule = fs::read_to_string(Path::new(&folder).join("schedule")).unwrap();
    let told = fs::read_to_string(Path::new(&folder).join("told")).unwrap();
    let mut fabric = Fabric::default();
    let mut reports = Vec::new();
    for (line, text) in schedule.lines().enumerate() {
        reports.extend(fabric.step(line + 1, text));
    }
    let wanted: Vec<&str> = told.lines().filter(|text| text.starts_with("report ")).collect();
    assert!(wanted.len() > 100);
    assert_eq!(reports, wanted);
    for number in 0..5 {
        let device = fabric.device(number);
        assert_eq!(device.epoch(), Ok(3));
        assert_eq!(device.acts(), Ok(number == 1));
        let primary = duty(3, number as usize);
        let parent = (primary.has_primary != 0).then_some(primary.primary.parent);
        assert_eq!(device.parent(), Ok(parent));
    }
}
