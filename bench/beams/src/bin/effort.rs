//! What an effort finds: `effort BATCH DEFECTS MILLIONS [wholes]` or `effort gen START ITEMS DEFECTS MILLIONS [wholes]`, the latter without tails. Prints the loss and the ticks behind the
//! first plan and each beam; where the environment has OUT, the plan is stored there.
use plainbeams::base::Instance;
use plainbeams::tails::State;
use std::env;
use std::fs::{read_to_string, write};

fn main() {
    let words: Vec<String> = env::args().skip(1).collect();
    let number = |n: usize| words[n].parse().unwrap();
    let (instance, rest) = if words[0] == "gen" {
        (Instance::drawn(number(1), number(2), number(3)), &words[4..])
    } else {
        (Instance::read(&read_to_string(&words[0]).unwrap(), &read_to_string(&words[1]).unwrap()), &words[2..])
    };
    let mut state = State::new(&instance, rest[0].parse::<u64>().unwrap() * 1_000_000, true);
    if rest.get(1).is_some_and(|word| word == "wholes") { state.wholes() } else { state.rounds() }
    println!("loss {}", state.loss);
    if let Ok(file) = env::var("OUT") { write(file, plainbeams::plan::text(&instance, &state.best)).unwrap(); }
}
