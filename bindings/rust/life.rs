
// run.sh puts the code of docs/LIFE-OF-A-DEVICE.md above this, and makes a test of both.

use sundial_device::raw::{Stamp, Wide};
use sundial_device::{Edge, Mode, Rates, ORDINARY};

const TICK: u64 = 40_000_000;

fn leaf() -> Duty {
    Duty {
        primary: Edge { mid: 700_000, half: 300_000, parent: 0, link: 1 },
        backup: Edge { mid: 700_000, half: 300_000, parent: 1, link: 2 },
        period: 100_000_000,
        wait: 5_000_000_000,
        rates: Rates { grain: 1_000, ppm: 200 },
        epoch: 1,
        role: ORDINARY,
        has_primary: 1,
        has_backup: 1,
        ..Duty::default()
    }
}

fn message(round: u64, clock: u64) -> Message {
    Message {
        clock: Wide { low: clock, high: 0 },
        eps: Wide { low: 500, high: 0 },
        stamp: Stamp { round, term: 0 },
        epoch: 1,
    }
}

/// A leaf from its boot across the end of its hardware's counter, rebased before each call.
#[test]
fn goes_on_for_years() {
    let begin = u64::MAX - 3_000_000_000;
    let mut me = Kept::boot(&leaf(), 3, begin, 1_000, 1_000).unwrap();
    assert!(me.receive(1, &message(1, 0), begin + 2_000_000).unwrap().is_none());
    for round in 2..100 {
        let since = round * 100_000_000;
        let hardware = begin.wrapping_add(since);
        me.rebase(hardware).unwrap();
        assert!(me.tick(hardware).unwrap().is_none());
        me.rebase(hardware).unwrap();
        assert!(me.receive(0, &message(round, since), hardware).unwrap().is_none());
        let relayed = me.receive(1, &message(round, since), hardware).unwrap().unwrap();
        assert_eq!(relayed.clock.low, since + 700_000);
        let mut bytes = me.bytes().unwrap();
        let restored = Kept::restore(&bytes, 3, TICK, hardware.wrapping_add(TICK - 9_001));
        assert_eq!(restored.as_ref(), Ok(&me));
        assert_eq!(Kept::restore(&bytes, 3, TICK, hardware.wrapping_add(TICK - 8_990)), Err(Fault::TooLate));
        assert_eq!(Kept::restore(&bytes, 2, TICK, hardware), Err(Fault::NotKept));
        let at = (round * 7) as usize % bytes.len();
        bytes[at] ^= 1 << (round % 8);
        assert_eq!(Kept::restore(&bytes, 3, TICK, hardware), Err(Fault::NotKept));
        me = restored.unwrap(); // and goes on with what was kept
    }
    assert_eq!(me.device.mode(), Ok(Mode::Primary));
    assert!(me.counter(begin.wrapping_add(9_900_000_000)) <= 101_000_000); // (a period, since it heard)
}
