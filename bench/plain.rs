// The same machine in plain Rust, with bounds checks and nothing proved: the baseline of the benchmark.
// usage: plain ROUNDS < TEXT     walks forward until the token stops, and back to the opening, ROUNDS times
use std::collections::HashMap;
use std::io::Read;

#[derive(Clone, Copy, PartialEq)]
enum Kind {
    Root,
    Number,
    Successor,
    Multiplexer,
    Iterator,
    LeftCounter,
    RightCounter,
    Transfer,
}

#[derive(Clone, Copy)]
struct Cell {
    kind: Kind,
    value: u32,
    links: [u32; 3],
}

const ABSENT: u32 = u32::MAX;

enum Term {
    Var(String),
    Num(u32),
    Succ(Box<Term>),
    Lam(String, Box<Term>),
    App(Box<Term>, Box<Term>),
    Pair(Box<Term>, Box<Term>),
    Let(String, String, Box<Term>, Box<Term>),
    Iter(Box<Term>, Box<Term>, Box<Term>),
}

struct Reader {
    signs: Vec<String>,
    at: usize,
}

impl Reader {
    fn new(text: &str) -> Reader {
        let mut signs: Vec<String> = Vec::new();
        let mut glue = false;
        for c in text.chars() {
            if c == ' ' || c == '\n' {
                glue = false;
                continue;
            }
            let run = c.is_ascii_lowercase() || c.is_ascii_digit();
            match signs.last_mut() {
                Some(last) if run && glue && last.chars().all(|d| d.is_ascii_digit() == c.is_ascii_digit()) => last.push(c),
                _ => signs.push(c.to_string()),
            }
            glue = run;
        }
        Reader { signs, at: 0 }
    }

    fn next(&mut self) -> String {
        self.at += 1;
        self.signs[self.at - 1].clone()
    }

    fn skip_type(&mut self) {
        if self.next() == "(" {
            self.skip_type();
            self.next();
            self.skip_type();
            self.next();
        }
    }

    fn term(&mut self) -> Term {
        let sign = self.next();
        match sign.as_str() {
            "S" => Term::Succ(Box::new(self.term())),
            "\\" => {
                let x = self.next();
                self.next();
                self.skip_type();
                self.next();
                Term::Lam(x, Box::new(self.term()))
            }
            "(" => {
                let t = self.term();
                let u = self.term();
                self.next();
                Term::App(Box::new(t), Box::new(u))
            }
            "<" => {
                let t = self.term();
                self.next();
                let u = self.term();
                self.next();
                Term::Pair(Box::new(t), Box::new(u))
            }
            "let" => {
                self.next();
                let x = self.next();
                self.next();
                let y = self.next();
                self.next();
                self.next();
                let t = self.term();
                self.next();
                Term::Let(x, y, Box::new(t), Box::new(self.term()))
            }
            "iter" => {
                let t = self.term();
                let u = self.term();
                Term::Iter(Box::new(t), Box::new(u), Box::new(self.term()))
            }
            word => match word.parse() {
                Ok(n) => Term::Num(n),
                Err(_) => Term::Var(word.to_string()),
            },
        }
    }
}

fn free(t: &Term, out: &mut Vec<String>) {
    match t {
        Term::Var(x) => out.push(x.clone()),
        Term::Num(_) => {}
        Term::Succ(t) => free(t, out),
        Term::Lam(x, t) => {
            let from = out.len();
            free(t, out);
            let part: Vec<String> = out.drain(from..).filter(|y| y != x).collect();
            out.extend(part);
        }
        Term::App(t, u) | Term::Pair(t, u) => {
            free(t, out);
            free(u, out);
        }
        Term::Let(x, y, t, u) => {
            free(t, out);
            let from = out.len();
            free(u, out);
            let part: Vec<String> = out.drain(from..).filter(|z| z != x && z != y).collect();
            out.extend(part);
        }
        Term::Iter(t, u, v) => {
            free(t, out);
            free(u, out);
            free(v, out);
        }
    }
}

struct Builder {
    cells: Vec<Cell>,
    ports: HashMap<String, u32>,
    iterators: u32,
}

impl Builder {
    fn make(&mut self, kind: Kind, value: u32) -> u32 {
        self.cells.push(Cell { kind, value, links: [ABSENT; 3] });
        3 * (self.cells.len() as u32 - 1)
    }

    fn join(&mut self, a: u32, b: u32) {
        self.cells[a as usize / 3].links[a as usize % 3] = b;
        self.cells[b as usize / 3].links[b as usize % 3] = a;
    }

    fn part(&mut self, t: &Term, root: u32, iterator: u32) {
        let mut names = Vec::new();
        free(t, &mut names);
        let outside: Vec<(String, u32)> = names.iter().map(|x| (x.clone(), self.ports[x])).collect();
        // The part is built with its variables at places of their own, which the nodes made after it take over.
        let mut uses = Vec::new();
        for (x, _) in &outside {
            uses.push((x.clone(), self.ports.insert(x.clone(), ABSENT - 1)));
        }
        let mut open = HashMap::new();
        self.term(t, root, Some(&mut open));
        for (x, port) in outside {
            let node = self.make(Kind::Transfer, iterator);
            self.join(node, port);
            let inside = open[&x];
            self.join(node + 1, inside);
        }
    }

    fn term(&mut self, t: &Term, root: u32, mut open: Option<&mut HashMap<String, u32>>) {
        match t {
            Term::Var(x) => {
                let port = self.ports[x];
                match open {
                    Some(open) if port == ABSENT - 1 => {
                        open.insert(x.clone(), root);
                    }
                    _ => self.join(port, root),
                }
            }
            Term::Num(n) => {
                let k = self.make(Kind::Number, *n);
                self.join(root, k);
            }
            Term::Succ(t) => {
                let k = self.make(Kind::Successor, 0);
                self.join(root, k + 1);
                self.term(t, k, open);
            }
            Term::Lam(x, t) => {
                let k = self.make(Kind::Multiplexer, 0);
                self.join(root, k);
                self.ports.insert(x.clone(), k + 2);
                self.term(t, k + 1, open);
            }
            Term::App(t, u) => {
                let k = self.make(Kind::Multiplexer, 0);
                self.join(root, k + 1);
                self.term(t, k, open.as_deref_mut());
                self.term(u, k + 2, open);
            }
            Term::Pair(t, u) => {
                let k = self.make(Kind::Multiplexer, 0);
                self.join(root, k);
                self.term(t, k + 1, open.as_deref_mut());
                self.term(u, k + 2, open);
            }
            Term::Let(x, y, t, u) => {
                let k = self.make(Kind::Multiplexer, 0);
                self.term(t, k, open.as_deref_mut());
                self.ports.insert(x.clone(), k + 1);
                self.ports.insert(y.clone(), k + 2);
                self.term(u, root, open);
            }
            Term::Iter(t, u, v) => {
                self.iterators += 1;
                let iterator = self.iterators;
                let i = self.make(Kind::Iterator, 0);
                let c = self.make(Kind::LeftCounter, 0);
                let d = self.make(Kind::RightCounter, 0);
                let m = self.make(Kind::Multiplexer, 0);
                self.join(root, i + 1);
                self.join(i + 2, c + 1);
                self.join(c, d);
                self.join(d + 2, m + 1);
                self.join(c + 2, m + 2);
                self.term(t, i, open.as_deref_mut());
                self.within(u, m, iterator, open.as_deref_mut());
                self.within(v, d + 1, iterator, open);
            }
        }
    }

    // A step or a base: its variables that an enclosing part left open stay open outside of it.
    fn within(&mut self, t: &Term, root: u32, iterator: u32, open: Option<&mut HashMap<String, u32>>) {
        let mut names = Vec::new();
        free(t, &mut names);
        let before: Vec<(String, u32)> = names.iter().map(|x| (x.clone(), self.ports[x])).collect();
        let Some(open) = open else {
            self.part(t, root, iterator);
            return;
        };
        let mut inner = HashMap::new();
        for (x, _) in &before {
            self.ports.insert(x.clone(), ABSENT - 1);
        }
        self.term(t, root, Some(&mut inner));
        for (x, port) in before {
            let node = self.make(Kind::Transfer, iterator);
            if port == ABSENT - 1 {
                open.insert(x.clone(), node);
            } else {
                self.join(node, port);
            }
            let inside = inner[&x];
            self.join(node + 1, inside);
        }
    }
}

fn build(text: &str) -> Vec<Cell> {
    let term = Reader::new(text).term();
    let mut builder = Builder { cells: Vec::new(), ports: HashMap::new(), iterators: 0 };
    builder.make(Kind::Root, 0);
    builder.term(&term, 0, None);
    builder.cells
}

#[derive(Clone, Copy, PartialEq)]
enum Letter {
    Left,
    Right,
}

#[derive(Clone, Copy)]
enum IterCell {
    Number(u32),
    Pair(u32, u32),
}

#[derive(Clone, Copy)]
enum DataCell {
    Question,
    Number(u32),
}

struct Stack<T> {
    cells: Vec<T>,
    limit: usize,
}

impl<T: Copy> Stack<T> {
    fn new(limit: usize) -> Stack<T> {
        Stack { cells: Vec::with_capacity(limit), limit }
    }

    fn room(&self, n: usize) -> Result<(), u8> {
        if self.cells.len() + n <= self.limit { Ok(()) } else { Err(24) }
    }

    fn top(&self) -> Option<T> {
        self.cells.last().copied()
    }
}

struct Token<'a> {
    cells: &'a [Cell],
    from: u32,
    to: u32,
    letters: Stack<Letter>,
    iters: Stack<IterCell>,
    datas: Stack<DataCell>,
    shelves: Vec<Stack<IterCell>>,
}

impl<'a> Token<'a> {
    fn new(cells: &'a [Cell]) -> Token<'a> {
        let mut datas = Stack::new(1024);
        datas.cells.push(DataCell::Question);
        Token {
            cells,
            from: 0,
            to: cells[0].links[0],
            letters: Stack::new(256),
            iters: Stack::new(256),
            datas,
            shelves: (0..64).map(|_| Stack::new(64)).collect(),
        }
    }

    fn link(&self, port: u32) -> Option<u32> {
        if port == ABSENT {
            return None;
        }
        self.cells.get(port as usize / 3).map(|cell| cell.links[port as usize % 3])
    }

    fn linked(&self, a: u32, b: u32) -> bool {
        self.link(a) == Some(b) && self.link(b) == Some(a)
    }

    // The way out of the node: its port's link, if the two are linked to each other.
    fn exit(&self, port: u32) -> Result<(u32, u32), u8> {
        let out = self.to - self.to % 3 + port - 1;
        match self.link(out) {
            Some(to) if self.linked(out, to) => Ok((out, to)),
            _ => Err(23),
        }
    }

    fn go(&mut self, way: (u32, u32)) -> Result<(), u8> {
        self.from = way.0;
        self.to = way.1;
        Ok(())
    }

    fn step(&mut self) -> Result<(), u8> {
        if self.to == 0 {
            return Err(21);
        }
        if !self.linked(self.from, self.to) {
            return Err(23);
        }
        if self.to < 3 {
            return Err(22);
        }
        let cell = self.cells[self.to as usize / 3];
        let port = self.to % 3 + 1;
        match (cell.kind, port) {
            (Kind::Number, 1) => {
                let new = match self.datas.top() {
                    Some(DataCell::Question) => DataCell::Number(cell.value),
                    Some(DataCell::Number(a)) if a == cell.value => DataCell::Question,
                    _ => return Err(22),
                };
                let way = self.exit(1)?;
                *self.datas.cells.last_mut().unwrap() = new;
                self.go(way)
            }
            (Kind::Successor, 2) => {
                let (under, top) = match self.datas.top() {
                    Some(DataCell::Question) => (DataCell::Question, DataCell::Question),
                    Some(DataCell::Number(a)) if a >= 1 => (DataCell::Question, DataCell::Number(a - 1)),
                    _ => return Err(22),
                };
                self.datas.room(1)?;
                let way = self.exit(1)?;
                *self.datas.cells.last_mut().unwrap() = under;
                self.datas.cells.push(top);
                self.go(way)
            }
            (Kind::Successor, 1) => {
                let n = self.datas.cells.len();
                if n < 2 {
                    return Err(22);
                }
                let new = match (self.datas.cells[n - 1], self.datas.cells[n - 2]) {
                    (DataCell::Question, DataCell::Question) => DataCell::Question,
                    (DataCell::Number(a), DataCell::Question) => DataCell::Number(a.checked_add(1).ok_or(25)?),
                    _ => return Err(22),
                };
                let way = self.exit(2)?;
                self.datas.cells.pop();
                self.datas.cells[n - 2] = new;
                self.go(way)
            }
            (Kind::Multiplexer, 1) => {
                let way = match self.letters.top() {
                    Some(Letter::Left) => self.exit(2)?,
                    Some(Letter::Right) => self.exit(3)?,
                    None => return Err(22),
                };
                self.letters.cells.pop();
                self.go(way)
            }
            (Kind::Multiplexer, _) => {
                self.letters.room(1)?;
                let way = self.exit(1)?;
                self.letters.cells.push(if port == 2 { Letter::Left } else { Letter::Right });
                self.go(way)
            }
            (Kind::Iterator, 2) => {
                self.datas.room(1)?;
                let way = self.exit(1)?;
                self.datas.cells.push(DataCell::Question);
                self.go(way)
            }
            (Kind::Iterator, 1) => match self.datas.top() {
                Some(DataCell::Question) => {
                    let way = self.exit(2)?;
                    self.datas.cells.pop();
                    self.go(way)
                }
                Some(DataCell::Number(a)) => {
                    self.iters.room(1)?;
                    let way = self.exit(3)?;
                    self.datas.cells.pop();
                    self.iters.cells.push(IterCell::Number(a));
                    self.go(way)
                }
                None => Err(22),
            },
            (Kind::Iterator, _) => match self.iters.top() {
                Some(IterCell::Number(a)) => {
                    self.datas.room(1)?;
                    let way = self.exit(1)?;
                    self.iters.cells.pop();
                    self.datas.cells.push(DataCell::Number(a));
                    self.go(way)
                }
                _ => Err(22),
            },
            (Kind::LeftCounter | Kind::RightCounter, _) => {
                let left = cell.kind == Kind::LeftCounter;
                let (new, out) = match (port, self.iters.top()) {
                    (2, Some(IterCell::Number(b))) => (if left { IterCell::Pair(0, b) } else { IterCell::Pair(b, 0) }, 1),
                    (3, Some(IterCell::Pair(a, b))) if left => (IterCell::Pair(a.checked_add(1).ok_or(25)?, b), 1),
                    (3, Some(IterCell::Pair(a, b))) => (IterCell::Pair(a, b.checked_add(1).ok_or(25)?), 1),
                    (1, Some(IterCell::Pair(0, b))) if left => (IterCell::Number(b), 2),
                    (1, Some(IterCell::Pair(a, b))) if left => (IterCell::Pair(a - 1, b), 3),
                    (1, Some(IterCell::Pair(a, 0))) => (IterCell::Number(a), 2),
                    (1, Some(IterCell::Pair(a, b))) => (IterCell::Pair(a, b - 1), 3),
                    _ => return Err(22),
                };
                let way = self.exit(out)?;
                *self.iters.cells.last_mut().unwrap() = new;
                self.go(way)
            }
            (Kind::Transfer, 1 | 2) if (1..=64).contains(&cell.value) => {
                let j = cell.value as usize - 1;
                let (from, to) = if port == 2 { (&self.iters, &self.shelves[j]) } else { (&self.shelves[j], &self.iters) };
                let Some(top) = from.top() else { return Err(22) };
                to.room(1)?;
                let way = self.exit(3 - port)?;
                if port == 2 {
                    self.iters.cells.pop();
                    self.shelves[j].cells.push(top);
                } else {
                    self.shelves[j].cells.pop();
                    self.iters.cells.push(top);
                }
                self.go(way)
            }
            _ => Err(22),
        }
    }

    fn turn(&mut self) {
        std::mem::swap(&mut self.from, &mut self.to);
    }
}

fn main() {
    let rounds: u32 = std::env::args().nth(1).and_then(|a| a.parse().ok()).unwrap_or(1);
    let mut text = String::new();
    std::io::stdin().read_to_string(&mut text).unwrap();
    let cells = build(&text);
    let mut token = Token::new(&cells);
    let mut steps = 0u64;
    for _ in 0..rounds {
        let mut far = 0;
        let reason = loop {
            match token.step() {
                Ok(()) => far += 1,
                Err(reason) => break reason,
            }
        };
        if steps == 0 {
            let number = match token.datas.cells.as_slice() {
                [DataCell::Number(n)] => n.to_string(),
                _ => "-".to_string(),
            };
            println!("end={reason} steps={far} number={number}");
        }
        token.turn();
        for _ in 0..far {
            token.step().unwrap();
        }
        token.turn();
        steps += 2 * far;
    }
    println!("walked={steps}");
}
