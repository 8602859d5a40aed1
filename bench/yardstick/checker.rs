//! A yardstick for the judging of evidence: a checker in plain Rust, by `rustc` alone.
//!
//! Standard input is a script of `albert check`. For each claim with a derivation it prints `accepted zero`, or `rejected` and the
//! number of the first faulty line (0 where only the last polynomial is another one); for each with a table, which has to be over
//! the field of 251 elements, `accepted not zero`, or `rejected` and 60, 61 or 62.

mod algebra;
mod refutation;
mod table;

use algebra::{Algebra, Mono, Node, Poly};
use std::io::Read;

/// The polynomial of a line, unless it has a fault.
fn line(by: &mut Algebra, known: &[Poly], words: &mut std::str::SplitAsciiWhitespace) -> Option<Poly> {
    let number = words.next()?.parse::<usize>().ok()?;
    if number != known.len() + 1 {
        return None;
    }
    match words.next()? {
        "instance" => {
            let identity = words.next()?.parse::<usize>().ok()?.checked_sub(1)?;
            let at: Vec<Mono> = words.map(|word| by.read_monomial(word)).collect();
            let (degree, linear) = by.identities.get(identity)?;
            if *degree != at.len() {
                return None;
            }
            let counts = &by.monomials.counts;
            if !by.is_within(|k| at.iter().map(|m| u32::from(counts[*m as usize][k])).sum()) {
                return None;
            }
            for &(m, c) in linear {
                let m = by.monomials.filled(m, &at);
                by.collector.add(by.p, m, c);
            }
            Some(by.collector.take())
        }
        "times" => {
            let f = known.get(words.next()?.parse::<usize>().ok()?.checked_sub(1)?)?;
            let is_left = words.next()? == "left";
            let factor = by.read_monomial(words.next()?);
            let mut product = Poly::with_capacity(f.len());
            for &(m, c) in f {
                let (l, r) = if is_left { (factor, m) } else { (m, factor) };
                let counts = &by.monomials.counts;
                if !by.is_within(|k| u32::from(counts[l as usize][k]) + u32::from(counts[r as usize][k])) {
                    return None;
                }
                product.push((by.monomials.number(Node::Product(l, r)), c));
            }
            product.sort_unstable();
            Some(product)
        }
        "sum" => {
            for word in words {
                let (c, k) = word.split_once('*')?;
                let c = c.parse::<i64>().ok()?.rem_euclid(i64::from(by.p)) as u32;
                for &(m, d) in known.get(k.parse::<usize>().ok()?.checked_sub(1)?)? {
                    by.collector.add(by.p, m, c * d % by.p);
                }
            }
            Some(by.collector.take())
        }
        _ => None,
    }
}

/// What is said of a derivation of a claim, whose lines stand between its heading and its end.
fn judged<'a>(by: &mut Algebra, claim: &Poly, lines: impl Iterator<Item = &'a str>) -> String {
    let mut known = Vec::new();
    let mut fault = None;
    for text in lines {
        if fault.is_none() {
            match line(by, &known, &mut text.split_ascii_whitespace()) {
                Some(f) => known.push(f),
                None => fault = Some(known.len() + 1),
            }
        }
    }
    let is_claim = known.last().map_or(claim.is_empty(), |f| f == claim);
    match (fault, is_claim) {
        (Some(k), _) => format!("rejected {k}"),
        (None, false) => "rejected 0".to_string(),
        (None, true) => "accepted zero".to_string(),
    }
}

fn main() {
    let mut text = String::new();
    std::io::stdin().read_to_string(&mut text).expect("a script");
    let mut by = Algebra::new();
    let mut forms = Vec::new();
    let mut lines = text.lines().peekable();
    while let Some(given) = lines.next() {
        let (word, rest) = given.split_once(' ').unwrap_or((given, ""));
        if by.states(word, rest) {
            continue;
        }
        match word {
            "build" => forms = refutation::forms_of(&mut by),
            "claim" => {
                let claim = by.read(rest);
                let is_derivation = lines.next_if_eq(&"derivation").is_some();
                let block = lines.by_ref().take_while(|text| *text != "end");
                if is_derivation {
                    println!("{}", judged(&mut by, &claim, block));
                } else {
                    println!("{}", refutation::judged(&by, &forms, &claim, block));
                }
            }
            _ => {}
        }
    }
}
