//! A yardstick for `prove`: a prover in plain Rust, by `rustc` alone.
//!
//! Standard input is a script of `albert batch` over the field of 251 elements whose questions are `prove`, of polynomials within the
//! table. It answers each with a derivation or a table that `albert check` accepts. A line that was derived once is used again, also
//! by later questions; of all lines a derivation has those that its last one needs. A polynomial that is not zero gets the same bytes
//! as of `albert batch`.

mod algebra;
mod table;

use algebra::{Algebra, Mono, Node};
use std::collections::HashMap;
use std::fmt::Write;
use std::io::Read;
use table::{Element, Elimination, Origin, P, Sums, Table, Vector, signed};

const MOST_ITEMS: usize = 64;

#[derive(Clone, PartialEq, Eq, Hash)]
enum Line {
    Instance(usize, Vec<Mono>),
    Times(usize, bool, Mono),
    Sum(Vec<(u16, usize)>),
}

/// A polynomial as coefficients at lines; nothing where it is zero.
type Items = HashMap<usize, u16>;

struct Prover {
    by: Algebra,
    table: Table,
    sums: Sums,
    lines: Vec<Line>,
    found: HashMap<Line, usize>,
    names: HashMap<u32, Mono>,
    /// For each monomial the line of the monomial less its value, unless they are the same, and the value.
    differences: HashMap<Mono, (Option<usize>, Vector)>,
    /// For each product of basis elements the line of the product less its entry.
    products: HashMap<(u32, u32), Option<usize>>,
    /// For each type the pivot columns with their rows as combinations of kept instances, and the lines of these.
    recipes: HashMap<usize, HashMap<usize, Vec<(u16, usize)>>>,
    rows: HashMap<(usize, usize), Option<usize>>,
}

fn put(items: &mut Items, at: usize, c: u16) {
    let value = items.entry(at).or_default();
    *value = (*value + c) % P;
}

impl Prover {
    fn line(&mut self, line: Line) -> usize {
        if let Some(&k) = self.found.get(&line) {
            return k;
        }
        self.lines.push(line.clone());
        self.found.insert(line, self.lines.len() - 1);
        self.lines.len() - 1
    }

    fn sum(&mut self, items: Items) -> Option<usize> {
        let mut items: Vec<(u16, usize)> = items.into_iter().filter(|(_, c)| *c != 0).map(|(k, c)| (c, k)).collect();
        items.sort_unstable_by_key(|(_, k)| *k);
        if let [(1, k)] = items.as_slice() {
            return Some(*k);
        }
        while items.len() > MOST_ITEMS {
            let rest = items.split_off(MOST_ITEMS);
            let first = self.line(Line::Sum(items));
            items = rest;
            items.insert(0, (1, first));
        }
        (!items.is_empty()).then(|| self.line(Line::Sum(items)))
    }

    fn name(&mut self, b: u32) -> Mono {
        if let Some(&m) = self.names.get(&b) {
            return m;
        }
        let node = match self.table.elements[b as usize] {
            Element::Generator(k) => Node::Letter(k),
            Element::Product(l, r) => Node::Product(self.name(l), self.name(r)),
        };
        let m = self.by.monomials.number(node);
        self.names.insert(b, m);
        m
    }

    /// Adds `c` times the difference of `lr` and the product of the values of `l` and `r`.
    fn factors(&mut self, items: &mut Items, c: u16, l: Mono, r: Mono) -> (Vector, Vector) {
        let (left, x) = self.difference(l);
        let (right, y) = self.difference(r);
        if let Some(k) = left {
            let at = self.line(Line::Times(k, false, r));
            put(items, at, c);
        }
        if let Some(k) = right {
            for &(b, d) in &x {
                let m = self.name(b);
                let at = self.line(Line::Times(k, true, m));
                put(items, at, c * d % P);
            }
        }
        (x, y)
    }

    fn difference(&mut self, m: Mono) -> (Option<usize>, Vector) {
        if let Some(known) = self.differences.get(&m) {
            return known.clone();
        }
        let made = match self.by.monomials.nodes[m as usize] {
            Node::Letter(k) => (None, vec![(u32::from(k), 1)]),
            Node::Product(l, r) => {
                let mut items = Items::new();
                let (x, y) = self.factors(&mut items, 1, l, r);
                for &(b, c) in &x {
                    for &(e, d) in &y {
                        if let Some(k) = self.product(b, e) {
                            put(&mut items, k, c * d % P);
                        }
                    }
                }
                let value = self.table.product(&mut self.sums, &x, &y);
                (self.sum(items), value)
            }
        };
        self.differences.insert(m, made.clone());
        made
    }

    fn product(&mut self, b: u32, c: u32) -> Option<usize> {
        if let Some(&known) = self.products.get(&(b, c)) {
            return known;
        }
        let at: table::Type = self.table.type_at(b).iter().zip(self.table.type_at(c)).map(|(n, m)| n + m).collect();
        let at = self.table.types.iter().position(|t| *t == at).expect("a type of the table");
        let column = self.table.blocks[at].as_ref().expect("a block").column(b, c);
        let mut items = Items::new();
        for (x, origin) in self.recipe(at, column) {
            if let Some(k) = self.row(at, origin) {
                put(&mut items, k, x);
            }
        }
        let made = self.sum(items);
        self.products.insert((b, c), made);
        made
    }

    fn recipe(&mut self, at: usize, column: usize) -> Vec<(u16, usize)> {
        let (table, recipes) = (&self.table, &mut self.recipes);
        let known = recipes.entry(at).or_insert_with(|| recipes_of(table, at));
        known.get(&column).cloned().unwrap_or_default()
    }

    /// The line of the row of a kept instance: the instance less what its factors are more than their values.
    fn row(&mut self, at: usize, k: usize) -> Option<usize> {
        if let Some(&known) = self.rows.get(&(at, k)) {
            return known;
        }
        let Origin { identity, tuple } = self.table.blocks[at].as_ref().expect("a block").origins[k].clone();
        let places: Vec<Mono> = tuple.iter().map(|b| self.name(*b)).collect();
        let mut items = Items::new();
        let instance = self.line(Line::Instance(identity, places.clone()));
        put(&mut items, instance, 1);
        for (m, c) in self.by.identities[identity].1.clone() {
            let m = self.by.monomials.filled(m, &places);
            let Node::Product(l, r) = self.by.monomials.nodes[m as usize] else { panic!("a product") };
            self.factors(&mut items, P - c as u16, l, r);
        }
        let made = self.sum(items);
        self.rows.insert((at, k), made);
        made
    }

    fn prove(&mut self, text: &str) -> String {
        let g = self.by.read(text);
        let mut items = Items::new();
        let mut value = Sums::new();
        for (m, c) in g {
            let (line, x) = self.difference(m);
            x.iter().for_each(|(b, d)| value.add(*b, *d * c as u16 % P));
            if let Some(k) = line {
                put(&mut items, k, c as u16);
            }
        }
        let value = value.take();
        if !value.is_empty() {
            return self.refuted(&value);
        }
        let last = self.sum(items);
        format!("[{}] zero\nderivation\n{}end\n", self.table.degree, last.map_or(String::new(), |k| self.written(k)))
    }

    /// The normal form, and the table whose top is the least type of its terms.
    fn refuted(&mut self, value: &Vector) -> String {
        let mut text = format!("[{}] not zero:", self.table.degree);
        for (k, (b, c)) in value.iter().rev().enumerate() {
            let x = signed(*c);
            text.push_str(match (k, x < 0) {
                (0, false) => " ",
                (0, true) => " -",
                (_, false) => " + ",
                (_, true) => " - ",
            });
            if x.abs() != 1 {
                write!(text, "{}", x.abs()).expect("a text");
            }
            let m = self.name(*b);
            self.monomial(&mut text, m, false);
        }
        text.push('\n');
        self.table.write_refutation(&mut text, self.table.type_of[value[0].0 as usize]);
        text
    }

    /// The lines that a line needs, numbered from 1.
    fn written(&self, last: usize) -> String {
        let mut needed = vec![false; last + 1];
        needed[last] = true;
        for k in (0..=last).rev() {
            if needed[k] {
                match &self.lines[k] {
                    Line::Instance(..) => {}
                    Line::Times(of, ..) => needed[*of] = true,
                    Line::Sum(items) => items.iter().for_each(|(_, of)| needed[*of] = true),
                }
            }
        }
        let mut numbers = vec![0; last + 1];
        let (mut count, mut text) = (0, String::new());
        for k in (0..=last).filter(|k| needed[*k]) {
            count += 1;
            numbers[k] = count;
            write!(text, "{count}").expect("a text");
            match &self.lines[k] {
                Line::Instance(identity, places) => {
                    write!(text, " instance {}", identity + 1).expect("a text");
                    for m in places {
                        text.push(' ');
                        self.monomial(&mut text, *m, false);
                    }
                }
                Line::Times(of, is_left, m) => {
                    write!(text, " times {} {} ", numbers[*of], if *is_left { "left" } else { "right" }).expect("a text");
                    self.monomial(&mut text, *m, false);
                }
                Line::Sum(items) => {
                    text.push_str(" sum");
                    for (c, of) in items {
                        write!(text, " {}*{}", signed(*c), numbers[*of]).expect("a text");
                    }
                }
            }
            text.push('\n');
        }
        text
    }

    fn monomial(&self, text: &mut String, m: Mono, is_factor: bool) {
        match self.by.monomials.nodes[m as usize] {
            Node::Letter(k) => text.push((b'a' + k) as char),
            Node::Product(l, r) => {
                if is_factor {
                    text.push('(');
                }
                self.monomial(text, l, true);
                self.monomial(text, r, true);
                if is_factor {
                    text.push(')');
                }
            }
        }
    }
}

/// The rows of the pivots of a type as combinations of its kept instances.
fn recipes_of(table: &Table, at: usize) -> HashMap<usize, Vec<(u16, usize)>> {
    let block = table.blocks[at].as_ref().expect("a block");
    let (columns, count) = (block.products.len(), block.origins.len());
    let mut elimination = Elimination::new(columns + count);
    for (k, origin) in block.origins.iter().enumerate() {
        let mut row = table.row_of(block, origin);
        row.resize(columns + count, 0);
        row[columns + k] = 1;
        elimination.offer(&mut row);
    }
    elimination.close();
    let recipe = |row: &[u16]| (0..count).filter(|k| row[columns + k] != 0).map(|k| (row[columns + k], k)).collect();
    elimination.kept.iter().map(|(pivot, row)| (*pivot, recipe(row))).collect()
}

fn main() {
    let mut text = String::new();
    std::io::stdin().read_to_string(&mut text).expect("a script");
    let mut by = Algebra::new();
    let mut prover = None;
    for line in text.lines() {
        let (word, rest) = line.split_once(' ').unwrap_or((line, ""));
        match word {
            "build" => {
                let mut by = std::mem::replace(&mut by, Algebra::new());
                let (table, end) = Table::build(&mut by);
                println!("{}", table.built_text(&end));
                prover = Some(Prover {
                    by,
                    table,
                    sums: Sums::new(),
                    lines: Vec::new(),
                    found: HashMap::new(),
                    names: HashMap::new(),
                    differences: HashMap::new(),
                    products: HashMap::new(),
                    recipes: HashMap::new(),
                    rows: HashMap::new(),
                });
            }
            "prove" => print!("{}", prover.as_mut().expect("a table").prove(rest)),
            _ if by.states(word, rest) => println!("{}", if word == "identity" { "identity" } else { "ok" }),
            _ => {}
        }
    }
}
