//! The lines of a schedule.

#[derive(Clone, Copy)]
pub enum Event {
    Start { device: u32, counter: u64, clock: u64, eps: u64 },
    Tick { device: u32, counter: u64 },
    Recv { device: u32, counter: u64, message: u64 },
    Ask { device: u32, counter: u64 },
    Commit { device: u32, counter: u64 },
    Give { device: u32 },
    Seal { device: u32 },
    Fail { is_device: bool, which: u32 },
    Lose { message: u64 },
    Stage,
    End,
}

impl Event {
    pub fn device(&self) -> Option<u32> {
        use Event::*;
        match *self {
            Start { device, .. } | Tick { device, .. } | Recv { device, .. } | Ask { device, .. } => Some(device),
            Commit { device, .. } | Give { device } | Seal { device } => Some(device),
            Fail { is_device: true, which } => Some(which),
            _ => None,
        }
    }

    pub fn counter(&self) -> Option<u64> {
        use Event::*;
        match *self {
            Start { counter, .. } | Tick { counter, .. } | Recv { counter, .. } | Ask { counter, .. } => Some(counter),
            Commit { counter, .. } => Some(counter),
            _ => None,
        }
    }
}

/// The number at the front of the bytes, and what follows the space or newline behind it.
fn take(bytes: &[u8]) -> Option<(u64, &[u8])> {
    let mut value = 0u64;
    for (len, byte) in bytes.iter().enumerate().take(20) {
        let digit = byte.wrapping_sub(b'0');
        if digit > 9 {
            let is_plain = len == 1 || len > 1 && bytes[0] != b'0';
            let is_whole = is_plain && matches!(byte, b' ' | b'\n') && value <= 1 << 60;
            return is_whole.then(|| (value, &bytes[len + 1..]));
        }
        value = value.wrapping_mul(10).wrapping_add(digit.into());
    }
    None
}

/// How many bytes are looked at together: lines that are longer take longer.
const WINDOW: usize = 64;

/// The places of the bytes that are no digits among the first 48, a bit for each.
#[cfg(target_arch = "x86_64")]
fn gaps(window: &[u8; WINDOW]) -> u64 {
    use std::arch::x86_64::*;
    let sixteen = |place: usize| {
        let half = |place: usize| i64::from_le_bytes(window[place..place + 8].try_into().unwrap());
        // SAFETY: each x86_64 has SSE2. Of the signed bytes, the digits become the ten greatest.
        let mask = unsafe {
            let bytes = _mm_set_epi64x(half(place + 8), half(place));
            let raised = _mm_add_epi8(bytes, _mm_set1_epi8(0x7f - b'9' as i8));
            _mm_movemask_epi8(_mm_cmplt_epi8(raised, _mm_set1_epi8(0x7f - 9)))
        };
        u64::from(mask as u16)
    };
    sixteen(0) | sixteen(16) << 16 | sixteen(32) << 32
}

#[cfg(not(target_arch = "x86_64"))]
fn gaps(window: &[u8; WINDOW]) -> u64 {
    (0..48).fold(0, |gaps, place| gaps | u64::from(!window[place].is_ascii_digit()) << place)
}

/// The number that eight digits show, of which the first stands lowest.
fn eight(digits: u64) -> u64 {
    const PAIR: u64 = 0x0000_00ff_0000_00ff;
    let pairs = digits * 10 + (digits >> 8);
    let (outer, inner) = (pairs & PAIR, pairs >> 16 & PAIR);
    (outer * (100 + (1_000_000 << 32))).wrapping_add(inner * (1 + (10_000 << 32))) >> 32
}

/// The number of the digits between two places of a window, where there are at most sixteen.
#[inline(always)]
fn number(window: &[u8; WINDOW], from: usize, to: usize) -> Option<u64> {
    let digits = |place: usize| Some(u64::from_le_bytes(*window.get(place..)?.first_chunk()?) ^ 0x3030_3030_3030_3030);
    let (front, len) = (digits(from)?, to - from);
    let is_plain = len == 1 || front as u8 != 0;
    match len {
        1..=8 if is_plain => Some(eight(front << (64 - 8 * len))),
        9..=16 if is_plain => Some(eight(front << (128 - 8 * len)) * 100_000_000 + eight(digits(to - 8)?)),
        _ => None,
    }
}

/// The same as `event_of` for a short line of a `tick` or a `recv` that has enough bytes behind it.
#[inline(always)]
pub fn quick_event_of(bytes: &[u8]) -> Option<(u64, Event, &[u8])> {
    let window = bytes.first_chunk()?;
    let is_tick = window.starts_with(b"tick ");
    if !is_tick && !window.starts_with(b"recv ") {
        return None;
    }
    let mut gaps = gaps(window) >> 5 << 5;
    let mut last = 4;
    let mut field = |behind: u8| {
        let (from, to) = (last + 1, gaps.trailing_zeros() as usize);
        (last, gaps) = (to, gaps & gaps.wrapping_sub(1));
        if *window.get(to)? == behind { number(window, from, to) } else { None }
    };
    let (reference, device) = (field(b' ')?, field(b' ')? as u32);
    let event = if is_tick {
        Event::Tick { device, counter: field(b'\n')? }
    } else {
        Event::Recv { device, counter: field(b' ')?, message: field(b'\n')? }
    };
    Some((reference, event, &bytes[last + 1..]))
}

/// The event of the line at the front of the bytes, with its reference, and the lines behind it.
pub fn event_of(bytes: &[u8]) -> Option<(u64, Event, &[u8])> {
    let word = &bytes[..bytes.iter().position(|byte| *byte == b' ')?];
    let (reference, rest) = take(&bytes[word.len() + 1..])?;
    if word == b"stage" || word == b"end" {
        return Some((reference, if word == b"end" { Event::End } else { Event::Stage }, rest));
    }
    if word == b"fail" {
        let is_device = rest.starts_with(b"device ");
        let (which, rest) = take(&rest[if is_device { 7 } else { 5 }..])?;
        return Some((reference, Event::Fail { is_device, which: which as u32 }, rest));
    }
    let (which, rest) = take(rest)?;
    let device = u32::try_from(which).ok();
    Some(match word {
        b"tick" => {
            take(rest).map(|(counter, rest)| Some((reference, Event::Tick { device: device?, counter }, rest)))??
        }
        b"recv" => {
            let (counter, rest) = take(rest)?;
            let (message, rest) = take(rest)?;
            (reference, Event::Recv { device: device?, counter, message }, rest)
        }
        b"ask" => {
            take(rest).map(|(counter, rest)| Some((reference, Event::Ask { device: device?, counter }, rest)))??
        }
        b"commit" => {
            take(rest).map(|(counter, rest)| Some((reference, Event::Commit { device: device?, counter }, rest)))??
        }
        b"lose" => (reference, Event::Lose { message: which }, rest),
        b"give" => (reference, Event::Give { device: device? }, rest),
        b"seal" => (reference, Event::Seal { device: device? }, rest),
        b"start" => {
            let (counter, rest) = take(rest)?;
            let (clock, rest) = take(rest)?;
            let (eps, rest) = take(rest)?;
            (reference, Event::Start { device: device?, counter, clock, eps }, rest)
        }
        _ => return None,
    })
}
