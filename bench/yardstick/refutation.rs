//! Tables as evidence: read, and judged as a plain program does it, at the tuples whose types add up to at most the top.

use crate::algebra::{Algebra, Mono, Node};
use crate::table::{Form, P, Sums, Table, Type, Vector, all_types};
use std::collections::HashMap;

/// A table: the types of its elements, which element each generator is, and the products that are not zero.
struct Refutation {
    top: Type,
    types: Vec<Type>,
    generators: [Option<u32>; 26],
    /// For each pair of elements one above the place of their product, or 0 where it is zero.
    places: Vec<u32>,
    products: Vec<Vector>,
}

fn read_type(text: &str) -> Option<Type> {
    text.strip_prefix('(')?.strip_suffix(')')?.split(',').map(|n| n.parse().ok()).collect()
}

fn read_number(text: Option<&str>) -> Option<usize> {
    text?.parse::<usize>().ok()?.checked_sub(1)
}

impl Refutation {
    /// The table of the lines from the heading on, unless one departs from the rules of shape.
    fn read<'a>(by: &Algebra, mut lines: impl Iterator<Item = &'a str>) -> Option<Refutation> {
        let top = read_type(lines.next()?.strip_prefix("table ")?)?;
        let target: Vec<u8> = by.target.iter().copied().take_while(|n| *n > 0).collect();
        Table::less(&target, &top).filter(|_| top.len() == target.len() && top.iter().any(|n| *n > 0))?;
        let mut made = Refutation { top, types: Vec::new(), generators: [None; 26], places: Vec::new(), products: Vec::new() };
        let mut last = None;
        for line in lines {
            let words: Vec<&str> = line.split_ascii_whitespace().collect();
            match *words.as_slice() {
                ["element", number, at] if last.is_none() => made.element(number, at)?,
                ["generator", letter, number] if last.is_none() => made.generator(letter, number)?,
                ["entry", l, r, to, c] => last = Some(made.entry(last, [l, r, to], c)?),
                _ => return None,
            }
        }
        Some(made)
    }

    fn element(&mut self, number: &str, at: &str) -> Option<()> {
        let at = read_type(at)?;
        Table::less(&self.top, &at).filter(|_| at.len() == self.top.len() && at.iter().any(|n| *n > 0))?;
        (read_number(Some(number))? == self.types.len()).then(|| self.types.push(at))
    }

    fn generator(&mut self, letter: &str, number: &str) -> Option<()> {
        let k = usize::from(letter.bytes().next()?.checked_sub(b'a')?);
        let b = read_number(Some(number))?;
        let own: Type = (0..self.top.len()).map(|j| u8::from(j == k)).collect();
        (*self.types.get(b)? == own).then(|| self.generators[k] = Some(b as u32))
    }

    /// Takes an entry behind the last one. Returns its place.
    fn entry(&mut self, last: Option<[usize; 3]>, at: [&str; 3], c: &str) -> Option<[usize; 3]> {
        let count = self.types.len();
        self.places.resize(count * count, 0);
        let [l, r, to] = at.map(|text| read_number(Some(text)));
        let at = [l?, r?, to?];
        let sum: Type = self.types.get(at[0])?.iter().zip(self.types.get(at[1])?).map(|(n, m)| n + m).collect();
        let c = c.parse::<i64>().ok()?.rem_euclid(i64::from(P)) as u16;
        if *self.types.get(at[2])? != sum || last.is_some_and(|last| at <= last) || c == 0 {
            return None;
        }
        let place = &mut self.places[at[0] * count + at[1]];
        if *place == 0 {
            self.products.push(Vector::new());
            *place = self.products.len() as u32;
        }
        self.products[*place as usize - 1].push((at[2] as u32, c));
        Some(at)
    }

    fn product(&self, sums: &mut Sums, x: &[(u32, u16)], y: &[(u32, u16)]) -> Vector {
        for &(l, c) in x {
            for &(r, d) in y {
                let place = self.places.get(l as usize * self.types.len() + r as usize);
                if let Some(k) = place.and_then(|k| k.checked_sub(1)) {
                    let factor = c * d % P;
                    self.products[k as usize].iter().for_each(|&(b, e)| sums.add(b, factor * e % P));
                }
            }
        }
        sums.take()
    }

    fn value(&self, by: &Algebra, sums: &mut Sums, known: &mut HashMap<Mono, Vector>, m: Mono) -> Vector {
        if let Some(value) = known.get(&m) {
            return value.clone();
        }
        let value = match by.monomials.nodes[m as usize] {
            Node::Letter(k) => self.generators[usize::from(k)].iter().map(|b| (*b, 1)).collect(),
            Node::Product(l, r) => {
                let (x, y) = (self.value(by, sums, known, l), self.value(by, sums, known, r));
                self.product(sums, &x, &y)
            }
        };
        known.insert(m, value.clone());
        value
    }
}

/// What a walk over tuples needs: for each type at most the top the elements that fit it.
struct Walk<'a> {
    table: &'a Refutation,
    fitting: HashMap<Type, Vec<u32>>,
}

impl Walk<'_> {
    fn of(table: &Refutation) -> Walk<'_> {
        let fits = |rest: &Type| (0..table.types.len()).filter(|b| Table::less(rest, &table.types[*b]).is_some()).map(|b| b as u32).collect();
        let fitting = all_types(&table.top).into_iter().map(|rest| (rest.clone(), fits(&rest))).collect();
        Walk { table, fitting }
    }

    /// Whether a form is zero at each tuple that begins so.
    fn holds(&self, form: &Form, rest: &Type, tuple: &mut Vec<u32>, sums: &mut Sums, values: &mut Vec<Vector>) -> bool {
        if tuple.len() == form.degree {
            return self.is_zero_at(form, tuple, sums, values);
        }
        self.fitting.get(rest).into_iter().flatten().all(|b| {
            tuple.push(*b);
            let less = Table::less(rest, &self.table.types[*b as usize]).expect("an element that fits");
            let holds = self.holds(form, &less, tuple, sums, values);
            tuple.pop();
            holds
        })
    }

    fn is_zero_at(&self, form: &Form, tuple: &[u32], sums: &mut Sums, values: &mut Vec<Vector>) -> bool {
        form.values(tuple, values, |x, y| self.table.product(sums, x, y));
        let mut terms = Vec::new();
        for &(l, r, c) in &form.terms {
            let value = self.table.product(sums, &values[l], &values[r]);
            terms.extend(value.iter().map(|(b, x)| (*b, c * x % P)));
        }
        terms.iter().for_each(|(b, x)| sums.add(*b, *x));
        sums.take().is_empty()
    }
}

/// The forms of the identities.
pub fn forms_of(by: &mut Algebra) -> Vec<Form> {
    by.identities.clone().iter().map(|(degree, f)| Form::of(by, *degree, f)).collect()
}

/// What is said of a table as evidence that a claim is not a consequence.
pub fn judged<'a>(by: &Algebra, forms: &[Form], claim: &[(Mono, u32)], lines: impl Iterator<Item = &'a str>) -> &'static str {
    let Some(table) = Refutation::read(by, lines) else { return "rejected 60" };
    let (mut sums, mut values) = (Sums::new(), Vec::new());
    let walk = Walk::of(&table);
    if !forms.iter().all(|form| walk.holds(form, &table.top, &mut Vec::new(), &mut sums, &mut values)) {
        return "rejected 61";
    }
    let mut known = HashMap::new();
    let mut whole = Sums::new();
    for &(m, c) in claim {
        let value = table.value(by, &mut sums, &mut known, m);
        value.iter().for_each(|&(b, x)| whole.add(b, x * c as u16 % P));
    }
    if whole.take().is_empty() { "rejected 62" } else { "accepted not zero" }
}
