//! Checks a plan, to be timed beside `sundial check`.
//! usage: check TOPOLOGY PLAN
//! It knows texts in the forms in which bench/parts/networks.py and `sundial plan` print them.
#[allow(dead_code)]
mod judge;
#[allow(dead_code)]
mod texts;

use judge::Judge;
use std::fs::read_to_string;
use texts::{Network, Plan};

fn main() {
    let words: Vec<String> = std::env::args().skip(1).collect();
    let net = Network::read(read_to_string(&words[0]).expect("a topology").leak());
    let plan = Plan::read(&net, &read_to_string(&words[1]).expect("a plan"));
    let mut judge = Judge::new(&net, &plan);
    match judge.breach() {
        Some(condition) => println!("refused plan 1 {condition}"),
        None => println!("accepted {} {} {}", net.names.len(), net.links.len(), judge.domains().count()),
    }
}
