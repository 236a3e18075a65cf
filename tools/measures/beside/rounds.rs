//! The commands `solve FILE` and `check FILE` in plain Rust, std alone: what `spadesk` is measured beside. Dijkstra with potentials over
//! labels that are whole numbers, a binary heap, labels cut at the best end found so far. It reads its text laxly: neither limits nor the
//! order of lines are tested. peer.rs closes its round by the same search.
//!
//! RANKS in the environment of rustc is the number of places of a list, 12 where it is not set.

use std::cmp::Reverse;
use std::collections::{BinaryHeap, HashMap};
use std::fmt::Write as _;
use std::io::Write as _;

pub const RANKS: usize = match option_env!("RANKS") {
    Some(text) => number(text.as_bytes(), 0, 0),
    None => 12,
};
const fn number(text: &[u8], at: usize, n: usize) -> usize {
    if at == text.len() { n } else { number(text, at + 1, 10 * n + (text[at] - b'0') as usize) }
}
const NP: usize = RANKS + 1;
/// The size, and then each rank.
type Row = [i64; NP];

/// A row as one whole number, its places digits of ten bits, but for the last, which the others leave of the size.
type Label = i128;
const BITS: usize = 10;

/// The weight of a pair.
fn weight(rank: usize) -> Row {
    let mut row = [0; NP];
    row[0] = 1;
    row[rank + 1] = 1;
    row
}
/// A row as the aim reads it, and once more, which gives the row again.
fn as_read(generous: bool, row: Row) -> Row {
    let mut read = row;
    if generous {
        for k in 1..NP {
            read[k] = -row[NP - k]
        }
    }
    read
}
fn packed(generous: bool, row: Row) -> Label {
    as_read(generous, row)[..RANKS].iter().fold(0, |sum, place| (sum << BITS) + *place as i128)
}
fn places(label: Label, generous: bool) -> Row {
    let (mut rest, mut r) = (label, [0; NP]);
    for place in (0..RANKS).rev() {
        let digit = ((rest + (1 << (BITS - 1))) & ((1 << BITS) - 1)) as i64 - (1 << (BITS - 1));
        r[place] = digit;
        rest = (rest - digit as i128) >> BITS;
    }
    let others: i64 = r[1..RANKS].iter().sum();
    r[RANKS] = if generous { -r[0] - others } else { r[0] - others };
    as_read(generous, r)
}
/// For each student the place in the list, and the prices of students, projects and supervisors.
#[derive(Default)]
pub struct Answer {
    pub places: Vec<Option<usize>>,
    u: Vec<Row>,
    y: Vec<Row>,
    z: Vec<Row>,
}
/// What a round text says: codes, with quotas, the supervisors of projects and the projects of lists.
#[derive(Default)]
pub struct Round<'a> {
    generous: bool,
    sups: Vec<(&'a str, u32)>,
    pub projects: Vec<(&'a str, usize, u32)>,
    pub students: Vec<(&'a str, Vec<usize>)>,
    told: Answer,
}

/// Reads the next row of prices, which must be that of this entry.
fn price(rows: &mut Vec<Row>, entry: Option<&usize>, mut fields: std::str::Split<char>) -> Option<()> {
    (*entry? == rows.len()).then_some(())?;
    let mut row = [0; NP];
    for place in &mut row {
        *place = fields.next()?.parse().ok()?
    }
    rows.push(row);
    fields.next().is_none().then_some(())
}

/// Reads a text, or gives the number of its first bad line.
pub fn read(text: &str) -> Result<Round<'_>, usize> {
    let mut r = Round::default();
    let (mut sn, mut pn, mut cn) = (HashMap::new(), HashMap::new(), HashMap::new());
    for (i, line) in text.lines().enumerate() {
        let mut f = line.split(',');
        let ok = (|| {
            let kind = f.next()?;
            let code = f.next()?;
            match kind {
                "A" => r.generous = code == "generous",
                "S" => {
                    sn.insert(code, r.sups.len());
                    r.sups.push((code, f.next()?.parse().ok()?))
                }
                "P" => {
                    let l = *sn.get(f.next()?)?;
                    pn.insert(code, r.projects.len());
                    r.projects.push((code, l, f.next()?.parse().ok()?))
                }
                "C" => {
                    let list = f.map(|c| pn.get(c).copied()).collect::<Option<Vec<_>>>()?;
                    cn.insert(code, r.students.len());
                    r.students.push((code, list));
                    r.told.places.push(None)
                }
                "M" => {
                    let (s, p) = (*cn.get(code)?, *pn.get(f.next()?)?);
                    r.told.places[s] = Some(r.students[s].1.iter().position(|q| *q == p)?)
                }
                "U" => price(&mut r.told.u, cn.get(code), f)?,
                "Y" => price(&mut r.told.y, pn.get(code), f)?,
                "Z" => price(&mut r.told.z, sn.get(code), f)?,
                _ => return None,
            }
            Some(())
        })();
        ok.ok_or(i + 1)?;
    }
    Ok(r)
}

#[derive(Clone, Copy)]
enum From {
    Student(usize),
    Supervisor(usize),
}
enum End {
    Out,
    At(usize, From),
    Drop(usize),
}

struct Network<'a> {
    r: &'a Round<'a>,
    place: Vec<Option<usize>>,
    inside: Vec<Vec<usize>>,
    offers: Vec<Vec<usize>>,
    load: Vec<u32>,
    price: Vec<Label>,
    z: Vec<Label>,
    u: Vec<Label>,
    weight: Vec<Label>,
    dist: Vec<Label>,
    seen: Vec<u32>,    // the turn in which dist was written; so a turn clears nothing
    settled: Vec<u32>, // the turn in which the node was settled
    turn: u32,
    heap: BinaryHeap<Reverse<(Label, usize)>>,
    done: Vec<(usize, Label)>,
    from: Vec<From>,
    via: Vec<usize>,
}
impl<'a> Network<'a> {
    fn new(r: &'a Round<'a>) -> Self {
        let (np, nl) = (r.projects.len(), r.sups.len());
        let mut offers = vec![vec![]; nl];
        for (p, x) in r.projects.iter().enumerate() {
            offers[x.1].push(p)
        }
        let weight: Vec<Label> = (0..RANKS).map(|rank| packed(r.generous, weight(rank))).collect();
        let z: Vec<Label> = r.sups.iter().map(|x| if x.1 == 0 { weight[0] } else { 0 }).collect();
        Network {
            r,
            place: vec![],
            inside: vec![vec![]; np],
            offers,
            load: vec![0; nl],
            price: r.projects.iter().map(|x| if x.2 == 0 { z[x.1] + weight[0] } else { z[x.1] }).collect(),
            z,
            u: vec![],
            weight,
            dist: vec![0; np + nl],
            seen: vec![0; np + nl],
            settled: vec![0; np + nl],
            turn: 0,
            heap: BinaryHeap::new(),
            done: vec![],
            from: vec![From::Student(0); np],
            via: vec![0; nl],
        }
    }
    fn full(&self, p: usize) -> bool { self.inside[p].len() as u32 >= self.r.projects[p].2 }
    fn price(&self, p: usize) -> Label { if self.full(p) { self.price[p] } else { self.z[self.r.projects[p].1] } }
    fn admit(&mut self, s0: usize) {
        let np = self.r.projects.len();
        let zero = 0;
        let list = &self.r.students[s0].1;
        let u0 = list.iter().enumerate().map(|(k, p)| self.weight[k] - self.price(*p)).max().unwrap_or(zero).max(zero);
        self.place.push(None);
        self.u.push(u0);
        if u0 == zero {
            return;
        }
        self.turn += 1;
        let turn = self.turn;
        let (mut heap, mut done) = (std::mem::take(&mut self.heap), std::mem::take(&mut self.done));
        heap.clear();
        done.clear();
        let mut best = u0;
        let mut end = End::Out;
        macro_rules! label {
            ($v:expr, $c:expr, $set:expr) => {{
                let (v, c) = ($v, $c);
                if c < best && self.settled[v] != turn && (self.seen[v] != turn || c < self.dist[v]) {
                    self.dist[v] = c;
                    self.seen[v] = turn;
                    $set;
                    heap.push(Reverse((c, v)))
                }
            }};
        }
        macro_rules! enter {
            ($p:expr, $c:expr, $s:expr) => {{
                let (p, c, s) = ($p, $c, $s);
                let (_, l, _) = self.r.projects[p];
                if !self.full(p) && self.load[l] < self.r.sups[l].1 {
                    if c < best {
                        best = c;
                        end = End::At(p, From::Student(s))
                    }
                } else {
                    label!(p, c, self.from[p] = From::Student(s))
                }
            }};
        }
        for (k, p) in list.iter().enumerate() {
            enter!(*p, u0 + self.price(*p) - self.weight[k], s0)
        }
        while let Some(Reverse((d, v))) = heap.pop() {
            if d >= best {
                break;
            }
            if self.settled[v] == turn {
                continue;
            }
            self.settled[v] = turn;
            done.push((v, d));
            if v < np {
                let l = self.r.projects[v].1;
                if !self.full(v) {
                    label!(np + l, d, self.via[l] = v)
                }
                for i in 0..self.inside[v].len() {
                    let s = self.inside[v][i];
                    let b = d + self.u[s];
                    if b < best {
                        best = b;
                        end = End::Drop(s)
                    }
                    for (k, q) in self.r.students[s].1.iter().enumerate() {
                        if Some(k) != self.place[s] {
                            enter!(*q, b + self.price(*q) - self.weight[k], s)
                        }
                    }
                }
            } else {
                let l = v - np;
                for i in 0..self.offers[l].len() {
                    let q = self.offers[l][i];
                    if !self.inside[q].is_empty() {
                        label!(q, d + self.price(q) - self.z[l], self.from[q] = From::Supervisor(l))
                    }
                }
            }
        }
        self.u[s0] = u0 - best;
        for &(v, d) in &done {
            if d >= best {
                continue;
            }
            let x = best - d;
            if v < np {
                self.price[v] = self.price[v] + x;
                for s in &self.inside[v] {
                    self.u[*s] = self.u[*s] - x
                }
            } else {
                self.z[v - np] = self.z[v - np] + x
            }
        }
        (self.heap, self.done) = (heap, done);
        self.push(end)
    }
    fn leave(&mut self, p: usize, s: usize) {
        if let Some(i) = self.inside[p].iter().position(|x| *x == s) {
            self.inside[p].swap_remove(i);
        }
    }
    fn join(&mut self, p: usize, s: usize) {
        self.inside[p].push(s);
        self.place[s] = self.r.students[s].1.iter().position(|q| *q == p);
    }
    fn push(&mut self, end: End) {
        // `fresh`: p gains one student net of the walk, so that it may become full
        let (mut p, mut f, mut fresh) = match end {
            End::Out => return,
            End::At(p, f) => {
                self.load[self.r.projects[p].1] += 1;
                (p, f, true)
            }
            End::Drop(s) => {
                let Some(k) = self.place[s].take() else { return };
                let p = self.r.students[s].1[k];
                self.leave(p, s);
                (p, self.from[p], false)
            }
        };
        loop {
            match f {
                From::Supervisor(l) => {
                    p = self.via[l];
                    f = self.from[p];
                    fresh = true
                }
                From::Student(s) => {
                    let old = self.place[s].map(|k| self.r.students[s].1[k]);
                    if let Some(o) = old {
                        self.leave(o, s)
                    }
                    self.join(p, s);
                    if fresh && self.full(p) {
                        self.price[p] = self.z[self.r.projects[p].1]
                    }
                    let Some(o) = old else { return };
                    p = o;
                    f = self.from[o];
                    fresh = false;
                }
            }
        }
    }
}

fn write(r: &Round, n: &Answer) -> String {
    let mut o = String::with_capacity(64 * (r.sups.len() + r.projects.len() + 3 * r.students.len()));
    if r.generous {
        o.push_str("A,generous\n")
    }
    for (c, q) in &r.sups {
        let _ = writeln!(o, "S,{c},{q}");
    }
    for (c, l, q) in &r.projects {
        let _ = writeln!(o, "P,{c},{},{q}", r.sups[*l].0);
    }
    for (c, list) in &r.students {
        let _ = write!(o, "C,{c}");
        for p in list {
            let _ = write!(o, ",{}", r.projects[*p].0);
        }
        o.push('\n');
    }
    for (s, (c, list)) in r.students.iter().enumerate() {
        if let Some(k) = n.places[s] {
            let _ = writeln!(o, "M,{c},{}", r.projects[list[k]].0);
        }
    }
    let mut line = |k: char, c: &str, v: Row| {
        let _ = write!(o, "{k},{c}");
        for x in v {
            let _ = write!(o, ",{x}");
        }
        o.push('\n');
    };
    r.students.iter().zip(&n.u).for_each(|(student, row)| line('U', student.0, *row));
    r.projects.iter().zip(&n.y).for_each(|(project, row)| line('Y', project.0, *row));
    r.sups.iter().zip(&n.z).for_each(|(supervisor, row)| line('Z', supervisor.0, *row));
    o
}

fn check(r: &Round) -> Result<Row, String> {
    let Answer { places, u, y, z } = &r.told;
    let (mut cp, mut cl, mut w) = (vec![0; r.projects.len()], vec![0; r.sups.len()], [0; NP]);
    for (place, (_, list)) in places.iter().zip(&r.students) {
        if let Some(k) = *place {
            cp[list[k]] += 1;
            cl[r.projects[list[k]].1] += 1;
            w[0] += 1;
            w[k + 1] += 1
        }
    }
    if cp.iter().zip(&r.projects).any(|(a, b)| *a > b.2) || cl.iter().zip(&r.sups).any(|(a, b)| *a > b.1) {
        return Err("fault 1".into());
    }
    let all = || u.iter().chain(y).chain(z);
    let is_whole = u.len() == r.students.len() && y.len() == r.projects.len() && z.len() == r.sups.len();
    if !is_whole || all().flatten().any(|x| x.abs() > 1_000_000) {
        return Err("fault 2".into());
    }
    if all().any(|v| as_read(r.generous, *v) < [0; NP]) {
        return Err("fault 3".into());
    }
    for ((c, list), u) in r.students.iter().zip(u) {
        for (k, p) in list.iter().enumerate() {
            let (y, z) = (&y[*p], &z[r.projects[*p].1]);
            if as_read(r.generous, std::array::from_fn(|t| u[t] + y[t] + z[t])) < as_read(r.generous, weight(k)) {
                return Err(format!("fault 4 {c} {}", k + 1));
            }
        }
    }
    let times = r.students.iter().map(|_| 1).chain(r.projects.iter().map(|p| p.2)).chain(r.sups.iter().map(|l| l.1));
    let mut v = [0; NP];
    for (row, times) in all().zip(times) {
        for i in 0..NP {
            v[i] += times as i64 * row[i]
        }
    }
    if v != w {
        return Err("fault 5".into());
    }
    Ok(w)
}

pub fn solve(r: &Round) -> Answer {
    let mut n = Network::new(r);
    for s in 0..r.students.len() {
        n.admit(s)
    }
    let y = |p: usize| if r.projects[p].2 == 0 { n.weight[0] } else { n.price(p) - n.z[r.projects[p].1] };
    let y = (0..r.projects.len()).map(|p| places(y(p), r.generous)).collect();
    let rows = |labels: &[Label]| labels.iter().map(|x| places(*x, r.generous)).collect();
    Answer { u: rows(&n.u), z: rows(&n.z), y, places: n.place }
}
fn main() {
    let words: Vec<String> = std::env::args().collect();
    let text = std::fs::read_to_string(&words[2]).expect("a file");
    let round = read(&text).unwrap_or_else(|line| {
        eprintln!("bad line {line}");
        std::process::exit(1)
    });
    if words[1] != "check" {
        std::io::stdout().write_all(write(&round, &solve(&round)).as_bytes()).expect("an output");
        return;
    }
    match check(&round) {
        Ok(w) => println!("best size {} profile {}", w[0], w[1..].iter().map(|v| v.to_string()).collect::<Vec<_>>().join(" ")),
        Err(fault) => {
            println!("{fault}");
            std::process::exit(1)
        }
    }
}
