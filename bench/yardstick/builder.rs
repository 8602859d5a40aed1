//! A yardstick for building tables and for the sample: a builder in plain Rust, by `rustc` alone.
//!
//! Without words, standard input is a script of `albert batch` with a problem over the field of 251 elements, `build` and
//! `dimensions`, and it prints the same bytes. With the words `sample N` it prints what `albert sample N` prints.

mod algebra;
mod table;

use algebra::{Algebra, Mono, Node};
use std::io::Read;
use table::{Element, P, Sums, Table, Vector};

/// The numbers that a sample draws.
struct Draws(u64);

impl Draws {
    fn draw(&mut self, below: u64) -> u64 {
        self.0 = self.0.wrapping_mul(6_364_136_223_846_793_005).wrapping_add(1_442_695_040_888_963_407);
        (self.0 >> 33) % below
    }
}

fn run_script(text: &str) {
    let mut by = Algebra::new();
    let mut built = None;
    for line in text.lines() {
        let (word, rest) = line.split_once(' ').unwrap_or((line, ""));
        if by.states(word, rest) {
            if word == "identity" {
                println!("identity {}", by.identities.len());
            } else {
                println!("ok");
            }
        } else if word == "build" {
            let (table, end) = Table::build(&mut by);
            println!("{}", table.built_text(&end));
            built = Some(table);
        } else if word == "dimensions" {
            print!("{}", built.as_ref().expect("a table").dimensions_text());
        }
    }
}

/// The polynomial that is drawn for the number k, as vectors: the value of an instance times a generator, and a basis element.
struct Sample {
    by: Algebra,
    table: Table,
    factors: [Mono; 3],
    sums: Sums,
}

impl Sample {
    fn value(&mut self, draws: &mut Draws, k: u64) -> Vector {
        let identity = draws.draw(2) as usize;
        let places: Vec<Mono> = (0..3).map(|_| self.factors[draws.draw(3) as usize]).collect();
        let side = draws.draw(4);
        let generator = self.by.monomials.number(Node::Letter((side % 2) as u8));
        let mut whole = Vec::new();
        for (m, c) in self.by.identities[identity].1.clone() {
            let m = self.by.monomials.filled(m, &places);
            let (l, r) = if side < 2 { (generator, m) } else { (m, generator) };
            let m = self.by.monomials.number(Node::Product(l, r));
            whole.push((self.table.value(&self.by, &mut self.sums, m), c as u16, m));
        }
        let m = whole[0].2;
        for (value, c, _) in whole {
            value.iter().for_each(|(b, x)| self.sums.add(*b, x * c % P));
        }
        if k % 2 == 1 {
            let at: Vec<u8> = self.by.monomials.counts[m as usize][..2].to_vec();
            let at = self.table.types.iter().position(|t| *t == at).expect("a type of the table");
            let (first, above) = self.table.bases[at];
            if first < above {
                self.sums.add(first + draws.draw(u64::from(above - first)) as u32, 1);
            }
        }
        self.sums.take()
    }
}

fn run_sample(count: u64) {
    let mut by = Algebra::new();
    for (word, rest) in [("generators", "4a4b"), ("identity", "(x,x,y)"), ("identity", "(y,x,x)")] {
        by.states(word, rest);
    }
    let (table, _) = Table::build(&mut by);
    let factors = ["a", "b", "ab"].map(|text| by.read_monomial(text));
    let mut sample = Sample { by, table, factors, sums: Sums::new() };
    let mut draws = Draws(count);
    let zero = (1..=count).filter(|k| sample.value(&mut draws, *k).is_empty()).count() as u64;
    let table = &sample.table;
    let (first, above) = *table.bases.last().expect("a type");
    assert!(matches!(table.elements[0], Element::Generator(0)), "the generator a");
    println!(
        "sample {count}: zero {zero}, not zero {}, dimension {}, products {}, coefficients {}",
        count - zero,
        above - first,
        table.products,
        table.coefficients
    );
}

fn main() {
    let words: Vec<String> = std::env::args().skip(1).collect();
    match words.as_slice() {
        [word, count] if word == "sample" => run_sample(count.parse().expect("a number")),
        _ => {
            let mut text = String::new();
            std::io::stdin().read_to_string(&mut text).expect("a script");
            run_script(&text);
        }
    }
}
