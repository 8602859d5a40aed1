//! What the yardsticks share: numbered monomials, polynomials modulo p, their reader, and full linearization.
//!
//! A polynomial is a list of (number of a monomial, residue), ascending. Sums are collected in one array over all numbers.

use std::collections::HashMap;

pub type Mono = u32;
pub type Poly = Vec<(Mono, u32)>;

#[derive(Clone, Copy, PartialEq, Eq, Hash)]
pub enum Node {
    Letter(u8),
    Product(Mono, Mono),
}

/// All monomials that were met, each with how often each letter occurs in it.
#[derive(Default)]
pub struct Monomials {
    pub numbers: HashMap<Node, Mono>,
    pub nodes: Vec<Node>,
    pub counts: Vec<[u8; 26]>,
}

impl Monomials {
    pub fn number(&mut self, node: Node) -> Mono {
        if let Some(&m) = self.numbers.get(&node) {
            return m;
        }
        let mut counts = [0; 26];
        match node {
            Node::Letter(k) => counts[k as usize] = 1,
            Node::Product(l, r) => {
                for (k, c) in counts.iter_mut().enumerate() {
                    *c = self.counts[l as usize][k] + self.counts[r as usize][k];
                }
            }
        }
        let m = self.nodes.len() as Mono;
        self.numbers.insert(node, m);
        self.nodes.push(node);
        self.counts.push(counts);
        m
    }

    /// The monomial with each letter replaced by the monomial of its number.
    pub fn filled(&mut self, m: Mono, by: &[Mono]) -> Mono {
        match self.nodes[m as usize] {
            Node::Letter(k) => by[k as usize],
            Node::Product(l, r) => {
                let node = Node::Product(self.filled(l, by), self.filled(r, by));
                self.number(node)
            }
        }
    }

    pub fn letters(&self, m: Mono, found: &mut Vec<u8>) {
        match self.nodes[m as usize] {
            Node::Letter(k) => found.push(k),
            Node::Product(l, r) => {
                self.letters(l, found);
                self.letters(r, found);
            }
        }
    }

    /// The monomial with its letters from left to right replaced by new ones.
    pub fn relabelled(&mut self, m: Mono, letters: &mut impl Iterator<Item = u8>) -> Mono {
        let node = match self.nodes[m as usize] {
            Node::Letter(_) => Node::Letter(letters.next().expect("a letter for each place")),
            Node::Product(l, r) => {
                let l = self.relabelled(l, letters);
                Node::Product(l, self.relabelled(r, letters))
            }
        };
        self.number(node)
    }
}

/// Sums, collected in one array.
#[derive(Default)]
pub struct Collector {
    sums: Vec<u32>,
    touched: Vec<Mono>,
    is_touched: Vec<bool>,
}

impl Collector {
    pub fn add(&mut self, p: u32, m: Mono, c: u32) {
        let at = m as usize;
        if self.sums.len() <= at {
            self.sums.resize(at + 1, 0);
            self.is_touched.resize(at + 1, false);
        }
        if !self.is_touched[at] {
            self.is_touched[at] = true;
            self.touched.push(m);
        }
        self.sums[at] = (self.sums[at] + c) % p;
    }

    pub fn take(&mut self) -> Poly {
        self.touched.sort_unstable();
        let mut sum = Poly::new();
        for &m in &self.touched {
            let at = m as usize;
            if self.sums[at] != 0 {
                sum.push((m, self.sums[at]));
            }
            self.sums[at] = 0;
            self.is_touched[at] = false;
        }
        self.touched.clear();
        sum
    }
}

pub struct Algebra {
    pub p: u32,
    pub target: [u8; 26],
    pub monomials: Monomials,
    pub collector: Collector,
    /// For each identity its degree, and its linearization over letters that are places.
    pub identities: Vec<(usize, Poly)>,
}

/// Reads polynomials: sums of products and Jordan products of letters, brackets, associators and commutators, with powers and
/// coefficients.
pub struct Reader<'a> {
    text: &'a [u8],
    at: usize,
}

impl Reader<'_> {
    pub fn next(&self) -> u8 {
        *self.text.get(self.at).unwrap_or(&0)
    }

    pub fn take(&mut self, byte: u8) {
        assert_eq!(self.next(), byte, "a byte of the grammar");
        self.at += 1;
    }

    pub fn number(&mut self) -> u64 {
        let mut n = 0;
        while self.next().is_ascii_digit() {
            n = n * 10 + u64::from(self.next() - b'0');
            self.at += 1;
        }
        n
    }

    pub fn sum(&mut self, by: &mut Algebra) -> Poly {
        let mut whole = Poly::new();
        loop {
            let sign = match self.next() {
                b'-' => by.p - 1,
                _ => 1,
            };
            if matches!(self.next(), b'+' | b'-') {
                self.at += 1;
            }
            let term = self.product(by);
            whole = by.sum(&[(1, &whole), (sign, &term)]);
            if !matches!(self.next(), b'+' | b'-') {
                return whole;
            }
        }
    }

    pub fn product(&mut self, by: &mut Algebra) -> Poly {
        let mut factor = 1;
        if self.next().is_ascii_digit() {
            factor = (self.number() % u64::from(by.p)) as u32;
        }
        let mut whole = self.juxtaposed(by);
        while self.next() == b'*' {
            self.at += 1;
            let right = self.juxtaposed(by);
            whole = by.jordan_product(&whole, &right);
        }
        by.sum(&[(factor, &whole)])
    }

    pub fn juxtaposed(&mut self, by: &mut Algebra) -> Poly {
        let mut whole = self.power(by);
        while matches!(self.next(), b'a'..=b'z' | b'(' | b'[') {
            let right = self.power(by);
            whole = by.product(&whole, &right);
        }
        whole
    }

    pub fn power(&mut self, by: &mut Algebra) -> Poly {
        let atom = self.atom(by);
        let mut whole = atom.clone();
        if self.next() == b'^' {
            self.at += 1;
            for _ in 1..self.number() {
                whole = by.product(&whole, &atom);
            }
        }
        whole
    }

    pub fn atom(&mut self, by: &mut Algebra) -> Poly {
        let first = self.next();
        self.at += 1;
        if first.is_ascii_lowercase() {
            return vec![(by.monomials.number(Node::Letter(first - b'a')), 1)];
        }
        assert!(matches!(first, b'(' | b'['), "a letter or a bracket");
        let x = self.sum(by);
        if first == b'[' {
            self.take(b',');
            let y = self.sum(by);
            self.take(b']');
            let (xy, yx) = (by.product(&x, &y), by.product(&y, &x));
            return by.sum(&[(1, &xy), (by.p - 1, &yx)]);
        }
        if self.next() == b')' {
            self.at += 1;
            return x;
        }
        self.take(b',');
        let y = self.sum(by);
        self.take(b',');
        let z = self.sum(by);
        self.take(b')');
        let (xy, yz) = (by.product(&x, &y), by.product(&y, &z));
        let (left, right) = (by.product(&xy, &z), by.product(&x, &yz));
        by.sum(&[(1, &left), (by.p - 1, &right)])
    }
}

/// All orders of some numbers.
fn orders(of: &[u8]) -> Vec<Vec<u8>> {
    if of.is_empty() {
        return vec![Vec::new()];
    }
    let mut all = Vec::new();
    for k in 0..of.len() {
        let mut rest = of.to_vec();
        let first = rest.remove(k);
        for mut order in orders(&rest) {
            order.insert(0, first);
            all.push(order);
        }
    }
    all
}

impl Algebra {
    /// No identities over the field of 251 elements and no generators.
    pub fn new() -> Algebra {
        Algebra {
            p: 251,
            target: [0; 26],
            monomials: Monomials::default(),
            collector: Collector::default(),
            identities: Vec::new(),
        }
    }

    /// Takes a line that says something of the problem. Returns whether it was one.
    pub fn states(&mut self, word: &str, rest: &str) -> bool {
        match word {
            "field" => self.p = rest.parse().expect("a prime"),
            "generators" => {
                let mut count = 0;
                for byte in rest.bytes() {
                    match byte {
                        b'0'..=b'9' => count = count * 10 + (byte - b'0'),
                        b'a'..=b'z' => self.target[(byte - b'a') as usize] = std::mem::take(&mut count),
                        _ => {}
                    }
                }
            }
            "identity" => self.identity(rest),
            _ => return false,
        }
        true
    }

    pub fn sum(&mut self, parts: &[(u32, &Poly)]) -> Poly {
        for (c, f) in parts {
            for &(m, d) in *f {
                self.collector.add(self.p, m, c * d % self.p);
            }
        }
        self.collector.take()
    }

    pub fn product(&mut self, f: &Poly, g: &Poly) -> Poly {
        for &(l, c) in f {
            for &(r, d) in g {
                let m = self.monomials.number(Node::Product(l, r));
                self.collector.add(self.p, m, c * d % self.p);
            }
        }
        self.collector.take()
    }

    /// The Jordan product without a factor, `fg + gf`.
    pub fn jordan_product(&mut self, f: &Poly, g: &Poly) -> Poly {
        let (fg, gf) = (self.product(f, g), self.product(g, f));
        self.sum(&[(1, &fg), (1, &gf)])
    }

    pub fn read(&mut self, text: &str) -> Poly {
        let text: Vec<u8> = text.bytes().filter(|b| !matches!(b, b' ' | b'\t' | b'\r')).collect();
        let mut reader = Reader { text: &text, at: 0 };
        let f = reader.sum(self);
        assert_eq!(reader.at, text.len(), "a polynomial and nothing else");
        f
    }

    pub fn read_monomial(&mut self, text: &str) -> Mono {
        let mut reader = Reader { text: text.as_bytes(), at: 0 };
        self.monomial(&mut reader)
    }

    pub fn monomial(&mut self, reader: &mut Reader) -> Mono {
        let mut whole = None;
        loop {
            let first = reader.next();
            let factor = match first {
                b'a'..=b'z' => {
                    reader.at += 1;
                    self.monomials.number(Node::Letter(first - b'a'))
                }
                b'(' => {
                    reader.at += 1;
                    let inner = self.monomial(reader);
                    reader.take(b')');
                    inner
                }
                _ => return whole.expect("a monomial"),
            };
            whole = Some(match whole {
                None => factor,
                Some(left) => self.monomials.number(Node::Product(left, factor)),
            });
        }
    }

    /// Keeps an identity: each letter is replaced by places of its own, in all orders.
    pub fn identity(&mut self, text: &str) {
        let f = self.read(text);
        let mut degrees = [0u8; 26];
        let mut letters = Vec::new();
        self.monomials.letters(f[0].0, &mut letters);
        letters.iter().for_each(|k| degrees[*k as usize] += 1);
        let mut arrangements = vec![vec![Vec::new(); 26]];
        let mut first = 0;
        for (k, degree) in degrees.iter().enumerate() {
            let places: Vec<u8> = (first..first + degree).collect();
            first += degree;
            let mut longer = Vec::new();
            for known in &arrangements {
                for order in orders(&places) {
                    let mut next = known.clone();
                    next[k] = order;
                    longer.push(next);
                }
            }
            arrangements = longer;
        }
        let mut terms = Vec::new();
        for (m, c) in f {
            let mut letters = Vec::new();
            self.monomials.letters(m, &mut letters);
            for arrangement in &arrangements {
                let mut used = [0; 26];
                let mut places = letters.iter().map(|k| {
                    used[*k as usize] += 1;
                    arrangement[*k as usize][used[*k as usize] - 1]
                });
                terms.push((self.monomials.relabelled(m, &mut places), c));
            }
        }
        let linear = self.sum(&[(1, &terms)]);
        self.identities.push((first as usize, linear));
    }

    pub fn is_within(&self, counts: impl Fn(usize) -> u32) -> bool {
        (0..26).all(|k| counts(k) <= u32::from(self.target[k]))
    }
}
