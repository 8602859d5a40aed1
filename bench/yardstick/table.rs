//! Tables of relatively free algebras, degree by degree, as a plain program makes them: the rows of one tuple of basis elements for
//! each orbit, dense over all products of a type, eliminated by loops that the compiler turns into vector instructions.

use crate::algebra::{Algebra, Mono, Node, Poly};
use std::collections::HashMap;

pub const P: u16 = 251;

/// How often each generator occurs.
pub type Type = Vec<u8>;
/// A combination of basis elements, ascending.
pub type Vector = Vec<(u32, u16)>;

/// A basis element: a generator, or a product of two basis elements.
#[derive(Clone, Copy)]
pub enum Element {
    Generator(u8),
    Product(u32, u32),
}

/// An instance of an identity at basis elements.
#[derive(Clone)]
pub struct Origin {
    pub identity: usize,
    pub tuple: Vec<u32>,
}

/// The products of two basis elements of one type, from the greatest to the least, and their entries.
pub struct Block {
    pub at: usize,
    /// For each left factor its first column and one above the greatest right factor.
    starts: HashMap<u32, (u32, u32)>,
    pub products: Vec<(u32, u32)>,
    pub entries: Vec<Vector>,
    pub origins: Vec<Origin>,
}

impl Block {
    pub fn column(&self, l: u32, r: u32) -> usize {
        let (first, above) = self.starts[&l];
        (first + (above - 1 - r)) as usize
    }
}

/// How a building ended.
pub enum End {
    Complete,
    TooWide(usize, usize),
    TooManyProducts(usize),
    TooManyCoefficients(usize),
}

pub struct Table {
    pub types: Vec<Type>,
    pub degree: usize,
    pub total: usize,
    numbers: HashMap<Type, usize>,
    /// The basis of each type: its first number and one above its last.
    pub bases: Vec<(u32, u32)>,
    pub elements: Vec<Element>,
    pub type_of: Vec<usize>,
    /// The block of each type of a degree above 1.
    pub blocks: Vec<Option<Block>>,
    pub products: usize,
    pub coefficients: usize,
    pub forms: Vec<Form>,
}

/// A linearized identity: its terms as products of two factors, with the different factors, each after its parts.
pub struct Form {
    pub degree: usize,
    pub runs: Vec<usize>,
    factors: Vec<Factor>,
    pub terms: Vec<(usize, usize, u16)>,
}

enum Factor {
    Place(usize),
    Product(usize, usize),
}

fn degree_of(t: &Type) -> usize {
    t.iter().map(|n| *n as usize).sum()
}

pub fn all_types(target: &[u8]) -> Vec<Type> {
    let mut all: Vec<Type> = vec![Vec::new()];
    for most in target {
        all = all.iter().flat_map(|t| (0..=*most).map(move |n| [t.as_slice(), &[n]].concat())).collect();
    }
    all.retain(|t| degree_of(t) > 0);
    all.sort_by(|t, u| degree_of(t).cmp(&degree_of(u)).then(u.cmp(t)));
    all
}

/// Whether the terms stay the same where two neighbouring places are exchanged.
fn is_symmetric(by: &mut Algebra, f: &Poly, k: u8, degree: usize) -> bool {
    let letters: Vec<Mono> = (0..degree as u8)
        .map(|j| if j == k { k + 1 } else if j == k + 1 { k } else { j })
        .map(|j| by.monomials.number(Node::Letter(j)))
        .collect();
    let turned: Poly = f.iter().map(|(m, c)| (by.monomials.filled(*m, &letters), *c)).collect();
    by.sum(&[(1, &turned)]) == *f
}

impl Form {
    pub fn of(by: &mut Algebra, degree: usize, f: &Poly) -> Form {
        let mut runs = vec![1];
        for k in 1..degree {
            if is_symmetric(by, f, k as u8 - 1, degree) {
                *runs.last_mut().expect("a run") += 1;
            } else {
                runs.push(1);
            }
        }
        let mut form = Form { degree, runs, factors: Vec::new(), terms: Vec::new() };
        let mut known = HashMap::new();
        for &(m, c) in f {
            let Node::Product(l, r) = by.monomials.nodes[m as usize] else { panic!("a degree above 1") };
            let (l, r) = (form.factor(by, &mut known, l), form.factor(by, &mut known, r));
            form.terms.push((l, r, c as u16));
        }
        form
    }

    fn factor(&mut self, by: &Algebra, known: &mut HashMap<Mono, usize>, m: Mono) -> usize {
        if let Some(&k) = known.get(&m) {
            return k;
        }
        let factor = match by.monomials.nodes[m as usize] {
            Node::Letter(place) => Factor::Place(place as usize),
            Node::Product(l, r) => {
                let l = self.factor(by, known, l);
                Factor::Product(l, self.factor(by, known, r))
            }
        };
        self.factors.push(factor);
        known.insert(m, self.factors.len() - 1);
        self.factors.len() - 1
    }

    /// Makes the values of the factors at a tuple.
    pub fn values(&self, tuple: &[u32], values: &mut Vec<Vector>, mut product: impl FnMut(&[(u32, u16)], &[(u32, u16)]) -> Vector) {
        values.clear();
        for factor in &self.factors {
            let value = match factor {
                Factor::Place(k) => vec![(tuple[*k], 1)],
                Factor::Product(l, r) => product(&values[*l], &values[*r]),
            };
            values.push(value);
        }
    }
}

/// The residue between -P/2 and P/2.
pub fn signed(c: u16) -> i32 {
    if 2 * c > P { i32::from(c) - i32::from(P) } else { i32::from(c) }
}

fn inverse(x: u16) -> u16 {
    (1..P).find(|y| u32::from(x) * u32::from(*y) % u32::from(P) == 1).expect("a unit")
}

fn add_scaled(row: &mut [u16], c: u16, by: &[u16]) {
    for (x, y) in row.iter_mut().zip(by) {
        *x = (*x + c * *y) % P;
    }
}

/// Rows that are 1 at their pivots, and 0 before them.
pub struct Elimination {
    pub kept: Vec<(usize, Vec<u16>)>,
    place: Vec<Option<usize>>,
}

impl Elimination {
    pub fn new(columns: usize) -> Elimination {
        Elimination { kept: Vec::new(), place: vec![None; columns] }
    }

    /// Clears the row at the pivots, and keeps it where it is not zero then.
    pub fn offer(&mut self, row: &mut [u16]) -> bool {
        for column in 0..row.len() {
            let x = row[column];
            if x == 0 {
                continue;
            }
            match self.place[column] {
                Some(k) => add_scaled(&mut row[column..], P - x, &self.kept[k].1[column..]),
                None => {
                    let c = inverse(x);
                    row.iter_mut().for_each(|x| *x = *x * c % P);
                    self.place[column] = Some(self.kept.len());
                    self.kept.push((column, row.to_vec()));
                    return true;
                }
            }
        }
        false
    }

    /// Clears each row at the pivots of the others.
    pub fn close(&mut self) {
        for column in (0..self.place.len()).rev() {
            let Some(k) = self.place[column] else { continue };
            let by = std::mem::take(&mut self.kept[k].1);
            for (pivot, row) in &mut self.kept {
                if *pivot < column && row[column] != 0 {
                    let c = P - row[column];
                    add_scaled(&mut row[column..], c, &by[column..]);
                }
            }
            self.kept[k].1 = by;
        }
    }
}

/// Vectors over the basis, added up in one array.
pub struct Sums {
    values: Vec<u16>,
    touched: Vec<u32>,
}

impl Sums {
    pub fn new() -> Sums {
        Sums { values: Vec::new(), touched: Vec::new() }
    }

    pub fn add(&mut self, at: u32, c: u16) {
        if self.values.len() <= at as usize {
            self.values.resize(at as usize + 1, 0);
        }
        let value = &mut self.values[at as usize];
        if *value == 0 {
            self.touched.push(at);
        }
        *value = (*value + c) % P;
    }

    pub fn take(&mut self) -> Vector {
        self.touched.sort_unstable();
        self.touched.dedup();
        let mut sum = Vector::new();
        for at in self.touched.drain(..) {
            let value = std::mem::take(&mut self.values[at as usize]);
            if value != 0 {
                sum.push((at, value));
            }
        }
        sum
    }
}

impl Table {
    /// The table of degree 1.
    pub fn new(by: &mut Algebra) -> Table {
        assert_eq!(by.p, u32::from(P), "the field of 251 elements");
        let target: Vec<u8> = by.target.iter().copied().take_while(|n| *n > 0).collect();
        let types = all_types(&target);
        let numbers = types.iter().enumerate().map(|(k, t)| (t.clone(), k)).collect();
        let count = target.len() as u32;
        let identities = by.identities.clone();
        Table {
            degree: 1,
            total: target.iter().map(|n| *n as usize).sum(),
            numbers,
            bases: (0..count).map(|k| (k, k + 1)).collect(),
            elements: (0..target.len()).map(|k| Element::Generator(k as u8)).collect(),
            type_of: (0..target.len()).collect(),
            blocks: types.iter().map(|_| None).collect(),
            products: 0,
            coefficients: 0,
            forms: identities.iter().map(|(degree, f)| Form::of(by, *degree, f)).collect(),
            types,
        }
    }

    pub fn type_at(&self, b: u32) -> &Type {
        &self.types[self.type_of[b as usize]]
    }

    pub fn less(t: &Type, u: &Type) -> Option<Type> {
        t.iter().zip(u).map(|(n, m)| n.checked_sub(*m)).collect()
    }

    fn number(&self, t: &Type) -> Option<usize> {
        self.numbers.get(t).copied()
    }

    fn products_of(&self, t: &Type) -> usize {
        let lefts = self.types.iter().take(self.bases.len());
        let sizes = lefts.enumerate().filter_map(|(k, u)| {
            let v = self.number(&Table::less(t, u)?)?;
            let size = |k: usize| (self.bases[k].1 - self.bases[k].0) as usize;
            (v < self.bases.len()).then(|| size(k) * size(v))
        });
        sizes.sum()
    }

    fn open(&self, at: usize) -> Block {
        let mut block = Block { at, starts: HashMap::new(), products: Vec::new(), entries: Vec::new(), origins: Vec::new() };
        for l in (0..self.elements.len() as u32).rev() {
            let Some(rest) = Table::less(&self.types[at], self.type_at(l)) else { continue };
            let Some(v) = self.number(&rest).filter(|v| *v < self.bases.len()) else { continue };
            let (first, above) = self.bases[v];
            block.starts.insert(l, (block.products.len() as u32, above));
            block.products.extend((first..above).rev().map(|r| (l, r)));
        }
        block
    }

    /// The entry of a product, which is zero where its type is beyond the table.
    pub fn entry(&self, l: u32, r: u32) -> Option<&Vector> {
        let sum: Type = self.type_at(l).iter().zip(self.type_at(r)).map(|(n, m)| n + m).collect();
        let block = self.blocks[self.number(&sum)?].as_ref()?;
        Some(&block.entries[block.column(l, r)])
    }

    pub fn product(&self, sums: &mut Sums, x: &[(u32, u16)], y: &[(u32, u16)]) -> Vector {
        for &(l, c) in x {
            for &(r, d) in y {
                let factor = c * d % P;
                for &(b, e) in self.entry(l, r).into_iter().flatten() {
                    sums.add(b, factor * e % P);
                }
            }
        }
        sums.take()
    }

    /// Adds the row of the instance of a form at a tuple.
    fn row(&self, sums: &mut Sums, form: &Form, tuple: &[u32], block: &Block, values: &mut Vec<Vector>, row: &mut [u16]) {
        form.values(tuple, values, |x, y| self.product(sums, x, y));
        for &(l, r, c) in &form.terms {
            for &(b, x) in &values[l] {
                for &(d, y) in &values[r] {
                    let cell = &mut row[block.column(b, d)];
                    *cell = (*cell + c * x % P * y % P) % P;
                }
            }
        }
    }

    /// Calls `visit` at each tuple for the places from `k` on, whose numbers do not fall within a run.
    fn tuples(&self, form: &Form, k: usize, rest: &Type, tuple: &mut Vec<u32>, visit: &mut dyn FnMut(&[u32])) {
        if k == form.degree {
            visit(tuple);
            return;
        }
        let mut starts = form.runs.iter().scan(0, |at, n| Some(std::mem::replace(at, *at + n)));
        let least = if starts.any(|s| s == k) { 0 } else { tuple[k - 1] };
        let range = if k + 1 == form.degree {
            match self.number(rest).filter(|v| *v < self.bases.len()) {
                Some(v) => self.bases[v],
                None => return,
            }
        } else {
            (0, self.elements.len() as u32)
        };
        for b in range.0.max(least)..range.1 {
            let Some(less) = Table::less(rest, self.type_at(b)) else { continue };
            if k + 1 < form.degree && degree_of(&less) == 0 {
                continue;
            }
            tuple.push(b);
            self.tuples(form, k + 1, &less, tuple, visit);
            tuple.pop();
        }
    }

    fn fill(&self, block: &mut Block) -> Elimination {
        let columns = block.products.len();
        let mut elimination = Elimination::new(columns);
        let (mut row, mut values, mut sums) = (vec![0; columns], Vec::new(), Sums::new());
        let mut origins = Vec::new();
        for (identity, form) in self.forms.iter().enumerate() {
            self.tuples(form, 0, &self.types[block.at].clone(), &mut Vec::new(), &mut |tuple| {
                row.fill(0);
                self.row(&mut sums, form, tuple, block, &mut values, &mut row);
                if elimination.offer(&mut row) {
                    origins.push(Origin { identity, tuple: tuple.to_vec() });
                }
            });
        }
        block.origins = origins;
        elimination.close();
        elimination
    }

    /// The row of a kept instance.
    pub fn row_of(&self, block: &Block, origin: &Origin) -> Vec<u16> {
        let mut row = vec![0; block.products.len()];
        self.row(&mut Sums::new(), &self.forms[origin.identity], &origin.tuple, block, &mut Vec::new(), &mut row);
        row
    }

    /// One degree more, or the limit that it passes.
    fn grow(&mut self) -> Result<(), End> {
        let next: Vec<usize> = (self.bases.len()..self.types.len()).take_while(|k| degree_of(&self.types[*k]) == self.degree + 1).collect();
        let counts: Vec<usize> = next.iter().map(|k| self.products_of(&self.types[*k])).collect();
        if let Some(k) = counts.iter().position(|n| *n > 4096) {
            return Err(End::TooWide(next[k], counts[k]));
        }
        let products = self.products + counts.iter().sum::<usize>();
        if products > 1_000_000 {
            return Err(End::TooManyProducts(products));
        }
        let mut made = Vec::new();
        let mut coefficients = self.coefficients;
        let mut number = self.elements.len() as u32;
        for at in next {
            let mut block = self.open(at);
            let elimination = self.fill(&mut block);
            let normal: Vec<usize> = (0..block.products.len()).filter(|c| elimination.place[*c].is_none()).collect();
            let name = |column: usize| number + (normal.len() - 1 - normal.partition_point(|c| *c < column)) as u32;
            block.entries = (0..block.products.len())
                .map(|column| match elimination.place[column] {
                    None => vec![(name(column), 1)],
                    Some(k) => {
                        let row = &elimination.kept[k].1;
                        normal.iter().rev().filter(|c| row[**c] != 0).map(|c| (name(*c), P - row[*c])).collect()
                    }
                })
                .collect();
            coefficients += block.entries.iter().map(Vec::len).sum::<usize>();
            number += normal.len() as u32;
            made.push((block, normal));
        }
        if coefficients > 16_777_216 {
            return Err(End::TooManyCoefficients(coefficients));
        }
        for (block, normal) in made {
            let first = self.elements.len() as u32;
            for column in normal.iter().rev() {
                let (l, r) = block.products[*column];
                self.elements.push(Element::Product(l, r));
                self.type_of.push(block.at);
            }
            self.bases.push((first, self.elements.len() as u32));
            let at = block.at;
            self.blocks[at] = Some(block);
        }
        self.products = products;
        self.coefficients = coefficients;
        self.degree += 1;
        Ok(())
    }

    /// The table at which the building ends, and how.
    pub fn build(by: &mut Algebra) -> (Table, End) {
        let mut table = Table::new(by);
        while table.degree < table.total {
            if let Err(end) = table.grow() {
                return (table, end);
            }
        }
        (table, End::Complete)
    }

    pub fn type_text(&self, k: usize) -> String {
        let counts: Vec<String> = self.types[k].iter().map(u8::to_string).collect();
        format!("({})", counts.join(","))
    }

    /// The line that `build` is answered.
    pub fn built_text(&self, end: &End) -> String {
        match end {
            End::Complete => format!("built {}", self.degree),
            End::TooWide(at, n) => format!("built {}, stopped: {n} products of type {}", self.degree, self.type_text(*at)),
            End::TooManyProducts(n) => format!("built {}, stopped: {n} products in all", self.degree),
            End::TooManyCoefficients(n) => format!("built {}, stopped: {n} coefficients in all", self.degree),
        }
    }

    /// The lines that `dimensions` is answered.
    pub fn dimensions_text(&self) -> String {
        let mut text = format!("[{}] dimensions {}\n", self.degree, self.bases.len());
        for (k, (first, above)) in self.bases.iter().enumerate() {
            text += &format!("{} {}\n", self.type_text(k), above - first);
        }
        text
    }

    /// Writes the elements whose types are at most a type of the table, and their products, as evidence.
    pub fn write_refutation(&self, text: &mut String, top: usize) {
        let fits = |b: &u32| Table::less(&self.types[top], self.type_at(*b)).is_some();
        let kept: Vec<u32> = (0..self.elements.len() as u32).filter(fits).collect();
        let mut numbers = vec![0; self.elements.len()];
        *text += &format!("table {}\n", self.type_text(top));
        for (k, b) in kept.iter().enumerate() {
            numbers[*b as usize] = k + 1;
            *text += &format!("element {} {}\n", k + 1, self.type_text(self.type_of[*b as usize]));
        }
        for b in &kept {
            if let Element::Generator(k) = self.elements[*b as usize] {
                *text += &format!("generator {} {}\n", char::from(b'a' + k), numbers[*b as usize]);
            }
        }
        for l in &kept {
            let rest = Table::less(&self.types[top], self.type_at(*l)).expect("a type at most the top");
            for r in kept.iter().filter(|r| Table::less(&rest, self.type_at(**r)).is_some()) {
                for (b, c) in self.entry(*l, *r).into_iter().flatten() {
                    *text += &format!("entry {} {} {} {}\n", numbers[*l as usize], numbers[*r as usize], numbers[*b as usize], signed(*c));
                }
            }
        }
        *text += "end\n";
    }

    /// The value of a monomial, whose letters are generators.
    pub fn value(&self, by: &Algebra, sums: &mut Sums, m: Mono) -> Vector {
        match by.monomials.nodes[m as usize] {
            Node::Letter(k) => vec![(u32::from(k), 1)],
            Node::Product(l, r) => {
                let (x, y) = (self.value(by, sums, l), self.value(by, sums, r));
                self.product(sums, &x, &y)
            }
        }
    }
}
