//! The calls for long lives: clocks of 128 bits, and counters that are lowered.

use sundial_device::{Device, Duty, Fault, Rates, ORDINARY, ROOT};

const RATES: Rates = Rates { grain: 1_000, ppm: 200 };
/// More than a clock of 64 bits holds, in ps.
const YEARS: u128 = 1 << 80;
const TOO_GREAT: u128 = 1 << 100;

fn root() -> Duty {
    Duty { period: 100, rates: RATES, epoch: 1, role: ROOT, ..Duty::default() }
}

#[test]
fn wide_clocks_go_on_where_narrow_ones_end() {
    let mut device = Device::start_wide(&root(), 10, YEARS, 500).unwrap();
    let report = device.report(1_000_010).unwrap();
    assert_eq!((report.clock, report.eps), (YEARS + 1_000_000, 500 + 1_000 + 200));
    device.fix_wide(1_000_010, 2 * YEARS, YEARS).unwrap();
    let now = device.now(1_000_010).unwrap();
    assert_eq!((now.earliest, now.latest), (YEARS - 1_000, 3 * YEARS + 1_000));
    let sent = device.tick(1_000_110).unwrap().unwrap();
    assert_eq!((sent.clock.high, sent.clock.low), (1 << 17, 100));
    let joined = Device::join_wide(&RATES, 0, YEARS, 7).unwrap();
    assert_eq!(joined.report(0).unwrap().clock, YEARS);
    assert_eq!(joined.epoch(), Ok(0));
}

#[test]
fn wide_calls_are_the_narrow_ones_for_small_clocks() {
    let narrow = Device::start(&root(), 10, 20, 30).unwrap();
    assert_eq!(Device::start_wide(&root(), 10, 20, 30).unwrap(), narrow);
    let joined = Device::join(&RATES, 10, 20, 30).unwrap();
    assert_eq!(Device::join_wide(&RATES, 10, 20, 30).unwrap(), joined);
    let (mut one, mut other) = (narrow.clone(), narrow);
    one.fix(40, 50, 60).unwrap();
    other.fix_wide(40, 50, 60).unwrap();
    assert_eq!(one, other);
}

#[test]
fn clocks_past_the_limit_change_nothing() {
    let start = Device::start_wide(&root(), 0, TOO_GREAT, 0);
    assert_eq!(start.err(), Some(Fault::ClockTooGreat));
    let join = Device::join_wide(&RATES, 0, 0, TOO_GREAT);
    assert_eq!(join.err(), Some(Fault::ClockTooGreat));
    let mut device = Device::start_wide(&root(), 0, TOO_GREAT - 1, 0).unwrap();
    let before = device.clone();
    assert_eq!(device.fix_wide(0, 0, TOO_GREAT), Err(Fault::ClockTooGreat));
    assert_eq!(device, before);
}

/// One device is rebased each day and the other is not: both report and send the same.
#[test]
fn a_rebase_changes_no_answer() {
    const DAY: u64 = 86_400_000_000_000_000;
    let duty = Duty { period: DAY / 2, ..root() };
    let mut kept = Device::start(&duty, 0, 0, 500).unwrap();
    let mut rebased = kept.clone();
    let mut lowered = 0;
    for day in 1..=30 {
        let counter = day * DAY;
        assert_eq!(rebased.report(counter - lowered), kept.report(counter));
        let (one, other) = (kept.tick(counter).unwrap(), rebased.tick(counter - lowered).unwrap());
        assert_eq!(one.unwrap().stamp, other.unwrap().stamp);
        lowered += rebased.rebase(counter - lowered).unwrap();
        assert!(counter - lowered <= DAY);
        assert_eq!(rebased.report(counter - lowered), kept.report(counter));
    }
    rebased.tick(DAY).unwrap();
    assert_eq!(rebased.rebase(0).err(), Some(Fault::CounterFell));
}

#[test]
fn a_device_that_waits_keeps_its_silence() {
    let duty = Duty { role: ORDINARY, wait: 900, has_primary: 1, has_backup: 1, ..root() };
    let mut device = Device::start(&duty, 1_000, 0, 500).unwrap();
    let lowered = device.rebase(1_500).unwrap();
    assert_eq!(lowered, 1_000);
    assert!(device.tick(899).unwrap().is_none());
    assert_eq!(device.kept().mode, 0);
    assert!(device.tick(900).unwrap().is_none());
    assert_eq!(device.kept().mode, 1);
}
