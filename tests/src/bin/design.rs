//! Writes a generated design with loops, for other tools and for measurements: `design GATES LOOPS NEVERS`, where NEVERS is the file for the
//! promises that its arbiters rest on.

use simulator::generate::designs::{design, Planted, TAKEN_OUT};
use simulator::generate::Random;
use std::{env, fs};

fn main() {
    let words: Vec<String> = env::args().skip(1).collect();
    let [gates, loops, nevers] = &words[..] else {
        panic!("design GATES LOOPS NEVERS");
    };
    let number = |word: &String| word.parse().expect("a number");
    let mut random = Random::new(1);
    let shapes: Vec<Planted> = (0..number(loops))
        .map(|_| random.pick(&TAKEN_OUT))
        .collect();
    let made = design(&mut random, number(gates), &shapes);
    print!("{}", made.text(&mut random));
    fs::write(nevers, made.promises.join("\n") + "\n").expect("a file");
}
