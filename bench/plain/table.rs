//! Writes the lines of a drill from a table, as plainly and as fast as Rust does it, to be timed
//! beside `sundial drill`.
//! usage: table ANSWER [--read] >COPY
//! ANSWER is what `drill` wrote. Its lines are read into a table of numbers first; then they are
//! printed again. With `--read` nothing is printed, so that the time of reading can be taken off.
#[allow(dead_code)]
mod input;

use input::put_number;
use std::collections::HashMap;
use std::io::{stdout, Write};

/// A line: its words before the bound by number, and the bound, where there is one.
struct Row {
    domain: u32,
    device: u32,
    bound: Option<u64>,
}

/// Names by number.
#[derive(Default)]
struct Names<'a> {
    names: Vec<&'a [u8]>,
    numbers: HashMap<&'a [u8], u32>,
}

impl<'a> Names<'a> {
    fn number(&mut self, name: &'a [u8]) -> u32 {
        let names = &mut self.names;
        *self.numbers.entry(name).or_insert_with(|| {
            names.push(name);
            names.len() as u32 - 1
        })
    }
}

fn put_row(bytes: &mut Vec<u8>, domains: &[&[u8]], devices: &[&[u8]], row: &Row) {
    bytes.extend_from_slice(if row.bound.is_some() {
        b"bound "
    } else {
        b"nobound "
    });
    bytes.extend_from_slice(domains[row.domain as usize]);
    bytes.push(b' ');
    bytes.extend_from_slice(devices[row.device as usize]);
    if let Some(bound) = row.bound {
        bytes.push(b' ');
        put_number(bytes, bound);
    }
    bytes.push(b'\n');
}

fn main() {
    let path = std::env::args().nth(1).expect("the answer of a drill");
    let answer = std::fs::read(path).expect("a file");
    let (mut domains, mut devices, mut rows) = (Names::default(), Names::default(), Vec::new());
    for line in answer.split(|byte| *byte == b'\n') {
        let mut words = line.splitn(2, |byte| *byte == b' ');
        let (kind, rest) = (words.next().unwrap_or(b""), words.next().unwrap_or(b""));
        let (named, bound) = match kind {
            b"bound" => {
                let at = rest
                    .iter()
                    .rposition(|byte| *byte == b' ')
                    .expect("a bound");
                let digits = std::str::from_utf8(&rest[at + 1..]).expect("digits");
                (&rest[..at], Some(digits.parse().expect("a number")))
            }
            b"nobound" => (rest, None),
            _ => continue,
        };
        let at = named
            .iter()
            .rposition(|byte| *byte == b' ')
            .expect("a device");
        let (domain, device) = (
            domains.number(&named[..at]),
            devices.number(&named[at + 1..]),
        );
        rows.push(Row {
            domain,
            device,
            bound,
        });
    }
    drop(domains.numbers);
    if std::env::args().nth(2).is_some() {
        return;
    }
    let mut out = stdout().lock();
    let mut bytes = Vec::with_capacity(1 << 16);
    for row in &rows {
        put_row(&mut bytes, &domains.names, &devices.names, row);
        if bytes.len() > (1 << 16) - 256 {
            out.write_all(&bytes).expect("to be written");
            bytes.clear();
        }
    }
    out.write_all(&bytes).expect("to be written");
}
