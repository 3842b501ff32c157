//! A backup root from its start to its takeover, beside values worked out by hand.

use sundial_device::raw::{Stamp, Wide};
use sundial_device::{Device, Duty, Edge, Fault, Message, Mode, Port, Rates, Report};

fn edge(parent: u32, link: u32) -> Edge {
    Edge { mid: 7, half: 3, parent, link }
}

fn standby() -> Duty {
    Duty {
        primary: edge(0, 0),
        backup: edge(2, 2),
        period: 100,
        wait_first: 300,
        wait_second: 200,
        wait: 900,
        rates: Rates { grain: 1_000, ppm: 200 },
        epoch: 1,
        role: 1,
        has_primary: 1,
        has_backup: 1,
    }
}

#[test]
fn takes_over_after_two_silences() {
    let mut device = Device::start(&standby(), 0, 0, 500).unwrap();
    let heard = Message {
        clock: Wide { low: 110, high: 0 },
        eps: Wide { low: 50, high: 0 },
        stamp: Stamp { round: 1, term: 0 },
        epoch: 1,
    };
    let relayed = device.receive(0, &heard, 120).unwrap().unwrap();
    assert_eq!((relayed.clock.low, relayed.eps.low), (117, 53));
    assert_eq!((device.mode(), device.age(150)), (Ok(Mode::Primary), Ok(30)));
    assert_eq!(device.age(119), Err(Fault::CounterFell));
    assert!(device.tick(420).unwrap().is_none());
    assert_eq!((device.mode(), device.age(420)), (Ok(Mode::Backup), Ok(300)));
    assert_eq!(device.parent(), Ok(Some(2)));
    assert_eq!(device.report(500), Ok(Report { clock: 497, eps: 1_054 }));
    let mut again = Device::restore(device.kept()).unwrap();
    assert_eq!(again, device);
    let sent = again.tick(620).unwrap().unwrap();
    assert_eq!((sent.stamp.term, sent.stamp.round), (1, 1));
    assert_eq!((sent.clock.low, sent.eps.low), (617, 1_054));
    assert_eq!((again.acts(), again.mode()), (Ok(true), Ok(Mode::Acting)));
    assert_ne!(again, device);
    let now = again.now(700).unwrap();
    assert_eq!(now, again.report(700).unwrap().interval());
    assert_eq!((now.earliest, now.latest), (0, 1_751));
    let later = again.now(5_000).unwrap();
    assert!(later.has_passed(later.earliest - 1) && !later.has_passed(later.earliest));
}

#[test]
fn names_what_is_wrong() {
    let mut device = Device::start(&standby(), 100, 0, 500).unwrap();
    assert_eq!(device.tick(99).err(), Some(Fault::CounterFell));
    let mut kept = device.kept();
    kept.mode = 4;
    assert_eq!(Device::restore(kept).err(), Some(Fault::NoDevice));
    assert_eq!(device.commit(100).err(), Some(Fault::NotRoot));
    let fault: Box<dyn std::error::Error> = Fault::CounterFell.into();
    assert_eq!(fault.to_string(), "the counter is below one that the device keeps");
    assert_eq!(Fault::Unknown(77).to_string(), "the library answered 77");
}

/// By how much a counter has to advance until more than twice the greatest delay has surely passed.
fn wait(edge: &Edge, rates: &Rates) -> u64 {
    let least = 2 * (edge.mid + edge.half) + rates.grain + 1;
    (least * 1_000_000).div_ceil(1_000_000 - u64::from(rates.ppm))
}

/// A port takes nothing until more than twice the greatest delay has passed by the fastest oscillator.
/// Without it a device takes a message of before its start.
#[test]
fn clear_of_older_messages() {
    const MOST: u64 = 1_000_000_000_000;
    for mid in [0, 7, MOST] {
        for grain in [0, 1_000, MOST] {
            let edge = Edge { mid, half: 3, parent: 0, link: 0 };
            let rates = Rates { grain, ppm: 100_000 };
            let after = wait(&edge, &rates);
            let mut port = Port::default();
            port.open(&edge, &rates, 0).unwrap();
            assert!(port.takes(after) && !port.takes(after - 1));
        }
    }
    let old = Message {
        clock: Wide { low: 110, high: 0 },
        eps: Wide { low: 50, high: 0 },
        stamp: Stamp { round: 1, term: 0 },
        epoch: 1,
    };
    let mut device = Device::start(&standby(), 120, 120, 500).unwrap();
    let mut port = Port::default();
    port.open(&standby().primary, &standby().rates, 120).unwrap();
    assert!(!port.takes(125));
    let past = Edge { mid: 1_000_000_000_001, half: 3, parent: 0, link: 0 };
    assert_eq!(port.open(&past, &standby().rates, 120), Err(Fault::NoDuty));
    assert!(device.receive(0, &old, 125).unwrap().is_some());
}

/// What no call reads tells no two devices apart, and what one reads does.
#[test]
fn equal_where_no_call_differs() {
    let device = Device::start(&standby(), 100, 0, 500).unwrap();
    let mut kept = device.kept();
    kept.given = standby();
    kept.has_duty = 7;
    kept.duty.has_backup = 3;
    assert_eq!(Device::restore(kept), Ok(device.clone()));
    kept.has_given = 1;
    assert_ne!(Device::restore(kept), Ok(device.clone()));
    kept.has_given = 0;
    kept.duty.backup.mid += 1;
    assert_ne!(Device::restore(kept), Ok(device));
}

/// A port takes the same messages whether the device is rebased or not, and none that was sent before
/// it was opened, also near the end of a counter.
#[test]
fn ports_across_rebases() {
    let rates = standby().rates;
    let after = wait(&edge(0, 0), &rates);
    for begin in [1_000_000, u64::MAX - after - 1, u64::MAX - after / 2] {
        let mut device = Device::start(&standby(), begin, 0, 500).unwrap();
        let mut ports = [Port::default(); 3];
        assert!(!ports[0].takes(begin) && !ports[0].is_open());
        ports[0].open(&edge(0, 0), &rates, begin).unwrap();
        ports[1].open(&edge(0, 0), &rates, begin).unwrap();
        ports[1].close();
        let not_lowered = ports[0];
        let lowered = device.rebase_with_ports(&mut ports, begin + after / 3).unwrap();
        assert!(lowered > 0);
        for since in [after / 3, after - 1, after, after + 1, 10 * after] {
            let counter = (begin - lowered).wrapping_add(since);
            assert_eq!(ports[0].takes(counter), since >= after);
            assert!(!ports[1].takes(counter) && !ports[2].takes(counter));
            if let Some(counter) = begin.checked_add(since) {
                assert_eq!(not_lowered.takes(counter), since >= after);
            }
        }
        let later = (begin - lowered).wrapping_add(2 * after);
        let again = device.rebase_with_ports(&mut ports, later).unwrap();
        assert!(ports[0].takes(later - again));
    }
}
