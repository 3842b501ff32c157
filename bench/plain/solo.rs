//! Replays the schedule of one device as plainly and as fast as Rust does it, to be timed beside
//! `sundial solo`. Each report is one write, as docs/RULES.md asks: whoever reads the output has a
//! report before the next line is read.
//! usage: solo SCHEDULE
mod input;

use input::{each_line, growth, numbers, put_number};
use std::fs::File;
use std::io::{stdout, Write};

const PPM: u64 = 200;
const GRAIN: u64 = 1000;

#[derive(Default)]
struct Solo {
    started: bool,
    ended: bool,
    reference: u64,
    reading: u64,
    clock: u64,
    base: u64,
    at: u64,
    lines: u64,
    reports: u64,
    printed: Vec<u8>,
}

impl Solo {
    /// Whether a line is accepted.
    fn take(&mut self, line: &[u8]) -> Result<(), &'static str> {
        self.lines += 1;
        match line.first() {
            Some(b'a') => self.ask(numbers(line.strip_prefix(b"ask ").ok_or("UnknownWord")?).ok_or("FieldCount")?),
            Some(b'f') => self.set(false, numbers(line.strip_prefix(b"fix ").ok_or("UnknownWord")?).ok_or("FieldCount")?),
            Some(b's') => self.set(true, numbers(line.strip_prefix(b"start ").ok_or("UnknownWord")?).ok_or("FieldCount")?),
            Some(b'e') => self.end(numbers(line.strip_prefix(b"end ").ok_or("UnknownWord")?).ok_or("FieldCount")?),
            _ => Err("UnknownWord"),
        }
    }

    fn admit(&mut self, reference: u64, device: u64) -> Result<(), &'static str> {
        if device != 0 {
            return Err("UnknownDevice");
        }
        if reference < self.reference {
            return Err("TimeFalls");
        }
        self.reference = reference;
        Ok(())
    }

    fn read(&mut self, counter: u64) -> Result<(), &'static str> {
        if counter < self.reading {
            return Err("CounterFalls");
        }
        if !self.started {
            return Err("NotStarted");
        }
        if self.ended {
            return Err("AfterEnd");
        }
        self.reading = counter;
        Ok(())
    }

    fn ask(&mut self, [reference, device, counter]: [u64; 3]) -> Result<(), &'static str> {
        self.admit(reference, device)?;
        self.read(counter)?;
        let elapsed = counter - self.at;
        let drift = growth(PPM, elapsed);
        self.printed.extend_from_slice(b"report ");
        for (number, behind) in [(self.lines, &b" 0 "[..]), (self.clock + elapsed, b" "), (self.base + GRAIN + drift, b"\n")] {
            put_number(&mut self.printed, number);
            self.printed.extend_from_slice(behind);
        }
        self.reports += 1;
        self.flush();
        Ok(())
    }

    fn set(&mut self, starts: bool, [reference, device, counter, clock, eps]: [u64; 5]) -> Result<(), &'static str> {
        self.admit(reference, device)?;
        if starts {
            if self.started {
                return Err("StartedTwice");
            }
            (self.started, self.reading) = (true, counter);
        }
        self.read(counter)?;
        (self.clock, self.base, self.at) = (clock, eps, counter);
        Ok(())
    }

    fn end(&mut self, [reference]: [u64; 1]) -> Result<(), &'static str> {
        self.admit(reference, 0)?;
        self.ended = true;
        Ok(())
    }

    fn flush(&mut self) {
        stdout().lock().write_all(&self.printed).expect("to be written");
        self.printed.clear();
    }
}

fn main() {
    let path = std::env::args().nth(1).expect("a schedule");
    let (mut solo, mut refused) = (Solo::default(), None);
    let taken = each_line(File::open(path).expect("a file"), |line| {
        refused = solo.take(line).err();
        refused.is_none()
    });
    taken.expect("to be read");
    let last = match refused {
        Some(reason) => format!("input schedule {} {reason}\n", solo.lines),
        None => format!("done {} {}\n", solo.lines, solo.reports),
    };
    solo.printed.extend_from_slice(last.as_bytes());
    solo.flush();
}
