//! Computes bounds on delays from exchanges as plainly and as fast as Rust does it, to be timed
//! beside `sundial twoway`.
//! usage: twoway TOPOLOGY EXCHANGES
//! It knows topologies in the form of bench/parts/networks.py, with the same rates for all devices.
#[allow(dead_code)]
mod input;
#[allow(dead_code)]
mod texts;

use input::{each_line, growth, numbers};
use std::fs::{read_to_string, File};
use std::io::{stdout, Write};
use texts::Network;

const MOST: i128 = 1_000_000_000_000;

/// The spans of a link, joined.
#[derive(Clone, Copy)]
struct Span {
    min: i128,
    max: i128,
    count: u64,
}

struct Rates {
    ppm: u64,
    grain: i128,
}

impl Rates {
    fn growth(&self, counter: u64) -> i128 {
        i128::from(growth(self.ppm, counter)) + self.grain
    }

    fn low(&self, counter: u64) -> i128 {
        (i128::from(counter) - self.growth(counter)).max(0)
    }

    fn up(&self, counter: u64) -> i128 {
        i128::from(counter) + self.growth(counter)
    }

    /// The span of an exchange.
    fn span(&self, asym: u64, whole: u64, inside: u64) -> Result<(i128, i128), &'static str> {
        let most = self.up(whole) - self.low(inside);
        if most < 0 {
            return Err("Impossible");
        }
        let (least, asym) = ((self.low(whole) - self.up(inside)).max(0), i128::from(asym));
        let min = if least > asym { (least - asym + 1) / 2 } else { 0 };
        let max = most.min((most + asym) / 2);
        if max > MOST { Err("TooLarge") } else { Ok((min, max)) }
    }
}

fn take(spans: &mut [Span], rates: &Rates, line: &[u8]) -> Result<(), &'static str> {
    let [link, side, asym, t1, t2, t3, t4] =
        numbers(line.strip_prefix(b"exchange ").ok_or("UnknownWord")?).ok_or("FieldCount")?;
    if side > 1 || asym > MOST as u64 {
        return Err("Number");
    }
    let joined = spans.get_mut(link as usize).ok_or("UnknownLink")?;
    if t4 < t1 || t3 < t2 {
        return Err("Backwards");
    }
    let (min, max) = rates.span(asym, t4 - t1, t3 - t2)?;
    *joined = Span { min: joined.min.min(min), max: joined.max.max(max), count: joined.count + 1 };
    Ok(())
}

fn main() {
    let words: Vec<String> = std::env::args().skip(1).collect();
    let net = Network::read(read_to_string(&words[0]).expect("a topology").leak());
    let params = net.params();
    let rates = Rates { ppm: params.ppm, grain: params.grain.into() };
    let mut spans = vec![Span { min: i128::MAX, max: 0, count: 0 }; net.links.len()];
    let (mut lines, mut ended, mut refused) = (0u64, false, None);
    let taken = each_line(File::open(&words[1]).expect("a file"), |line| {
        lines += 1;
        if line == b"end" && !ended {
            ended = true;
        } else {
            refused = if ended { Some("AfterEnd") } else { take(&mut spans, &rates, line).err() };
        }
        refused.is_none()
    });
    taken.expect("to be read");
    let mut out = stdout().lock();
    if let Some(reason) = refused {
        writeln!(out, "input exchanges {lines} {reason}").expect("to be written");
        return;
    }
    let mut printed = 0;
    for (number, (span, link)) in spans.iter().zip(&net.links).enumerate().filter(|(_, (span, _))| span.count > 0) {
        let is_inside = span.min >= i128::from(link.min) && span.max <= i128::from(link.max);
        let place = if is_inside { "inside" } else { "outside" };
        let Span { min, max, count } = span;
        writeln!(out, "link {} {min} {max} {count} {place}", net.link_names[number]).expect("to be written");
        printed += 1;
    }
    writeln!(out, "done {lines} {printed}").expect("to be written");
}
