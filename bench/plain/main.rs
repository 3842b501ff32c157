//! Replays a schedule of bench/schedule.py as plainly and as fast as Rust does it, to be timed
//! beside `sundial replay`; with the word `--order` in front, beside `sundial order`.
//! usage: plain [--order] TOPOLOGY PLAN.. SCHEDULE
//! It does what docs/RULES.md says, with no proof and for such schedules alone: it reads their lines
//! as they come, refuses events, drives the devices, judges all seven premises, and looks for loops
//! and several roots. It knows texts in the forms in which bench/schedule.py and `sundial plan`
//! print them, and takes plans as accepted; no event is a `join`, a `fix` or a `mend`; and all links
//! have one greatest delay, so that flights are due in their order. The nanoseconds that the lines
//! took go to standard error.
mod alarms;
mod device;
mod events;
mod premises;
mod refusals;
mod replay;
#[allow(dead_code)]
mod texts;
mod waits;

use events::{event_of, quick_event_of, Event};
use replay::Replay;
use std::fs::{read_to_string, File};
use std::io::{stdout, BufWriter, Read, Write};
use std::time::Instant;
use texts::{Network, Plan};
use waits::Waits;

/// Goes through a schedule to its end, or to an event that is refused.
fn go_through(replay: &mut Replay, mut file: File, out: &mut impl Write) -> std::io::Result<()> {
    let (mut buffer, mut held) = (vec![0u8; 1 << 18], 0);
    loop {
        let count = file.read(&mut buffer[held..])?;
        if count == 0 {
            writeln!(out, "done {} {}", replay.events, replay.reports)?;
            if let Some(waits) = &replay.waits {
                waits.finish(out);
            }
            return Ok(());
        }
        held += count;
        let whole = buffer[..held].iter().rposition(|byte| *byte == b'\n').map_or(0, |at| at + 1);
        let mut lines = &buffer[..whole];
        while !lines.is_empty() {
            let (reference, event, rest) = quick_event_of(lines).or_else(|| event_of(lines)).expect("a line is none of a schedule");
            lines = rest;
            let done = match event {
                Event::Tick { device, counter } => replay.tick(reference, device, counter, out),
                Event::Recv { device, counter, message } => replay.receive(reference, device, counter, message, out),
                _ => replay.step(reference, event, out),
            };
            if let Err(fault) = done {
                return writeln!(out, "input schedule {} {fault}", replay.events + 1);
            }
        }
        buffer.copy_within(whole..held, 0);
        held -= whole;
    }
}

fn main() {
    let mut words: Vec<String> = std::env::args().skip(1).collect();
    let orders = words[0] == "--order";
    words.drain(..usize::from(orders));
    let net = Network::read(read_to_string(&words[0]).unwrap().leak());
    let (schedule, plans) = words[1..].split_last().unwrap();
    let plans: Vec<Plan> = plans.iter().map(|file| Plan::read(&net, &read_to_string(file).unwrap())).collect();
    let mut out = BufWriter::new(stdout().lock());
    let begin = Instant::now();
    let mut replay = Replay::new(&net, &plans);
    replay.waits = orders.then(|| Waits::new(net.names.len()));
    go_through(&mut replay, File::open(schedule).unwrap(), &mut out).unwrap();
    out.flush().unwrap();
    eprintln!("{}", begin.elapsed().as_nanos());
}
