//! Tries the definitions of the crate `rules` on random input. Builds, queries and fused steps: the
//! Rust text of copp computes each expected number. Refusals and master checks, which it does not
//! have: document 01's questions as plain tests here, and tables that are good, or damaged, by how
//! they are made. This program prints a module for antt with one claim a trial, that the
//! definitions give what is expected. `compare/definitions` runs it. The first trials of a kind go
//! through every damage, and every triple of special floats, in turn; later ones are random.
//!
//! Arguments: the seed, the number of trials of each kind, and proofs/Pieces.antt, whose `use`
//! lines and whose list of definitions to compute with the module takes over.

use input::{diag, path, range, Build, State};
use query::Query;
use random::Random;
use set::{Set, LIMIT};
use spline::coefficients;

mod asked;
mod input;
mod query;
mod random;
// (A trial's answer is known by how its set was made.)
#[allow(dead_code)]
mod set;

// The text of src/path/spline.rs, unchanged, with one function after it that hands out the coefficients.
#[allow(dead_code)]
mod spline;

impl Random {
    /// A special float, any bits, or a coordinate.
    fn float(&mut self) -> f64 {
        match self.below(3) {
            0 => self.pick(&[f64::MIN_POSITIVE, -5e-324, 1.5, 1.0 + f64::EPSILON, 1.0 - f64::EPSILON / 2.0]),
            1 => f64::from_bits(self.bits()),
            _ => self.coordinate(),
        }
    }
}

const SPECIAL: [f64; 9] = [0.0, -0.0, 1.0, -1.0, 5e-324, f64::MAX, f64::NAN, f64::INFINITY, f64::NEG_INFINITY];

// ---- antt

fn float(x: f64) -> String {
    if x.is_nan() {
        "nan".to_string()
    } else {
        format!("f {:#x}", x.to_bits())
    }
}

fn list<T: Copy>(xs: &[T], cell: impl Fn(T) -> String) -> String {
    let cells: String = xs.iter().map(|&x| format!("({}) ∷ ", cell(x))).collect();
    format!("({cells}[])")
}

fn whole(z: i64) -> String {
    format!("{} {}", if z < 0 { "negative" } else { "pos" }, z.unsigned_abs())
}

fn param(x: f64) -> String {
    format!("record {{ 0 = {} }}", float(x))
}

fn mode(clamp: bool) -> &'static str {
    if clamp {
        "Clamp"
    } else {
        "Error"
    }
}

// ---- builds

impl State {
    fn text(&self) -> String {
        self.given.map_or("None".to_string(), |(rows, columns, marked)| format!("given {rows} {columns} {marked}"))
    }
}

impl Build {
    /// Of a size that antt computes in no time.
    fn small(random: &mut Random, axes: usize) -> Build {
        let order = random.pick(&[3, 5, 7]);
        let points = 2 + random.below(5) as usize;
        Build::random(random, order, points, axes)
    }
    fn text(&self) -> String {
        format!(
            "(record {{ config = record {{ order = {}; «s_min» = {}; «s_max» = {}; «out_of_range_mode» = {}; «start_state» = {}; \
             «end_state» = {} }}; points = {}; axes = {}; waypoints = {}; start = {}; end = {} }})",
            self.order,
            param(self.s_min),
            param(self.s_max),
            mode(self.clamp),
            self.start.text(),
            self.end.text(),
            self.points,
            self.axes,
            list(&self.waypoints, float),
            list(&self.start.numbers, float),
            list(&self.end.numbers, float),
        )
    }
}

fn build(random: &mut Random, _: usize) -> String {
    let axes = 1 + random.below(3) as usize;
    let b = Build::small(random, axes);
    format!("holds (built {} {})", b.text(), list(coefficients(&b.path().unwrap()), float))
}

fn refused_build(random: &mut Random, trial: usize) -> String {
    let axes = 1 + random.below(3) as usize;
    let mut b = Build::small(random, axes);
    b.damage(trial % Build::DAMAGES);
    if trial >= Build::DAMAGES {
        b.damage(random.below(Build::DAMAGES as u64) as usize);
    }
    format!("eqb (build_number {} {}) {}", b.text(), b.cells, b.number())
}

// ---- queries

fn query(random: &mut Random, _: usize) -> String {
    let b = Build::small(random, 1);
    let (lo, hi) = (b.s_min, b.s_max);
    let within = lo + random.unit() * (hi - lo);
    let inside = random.pick(&[lo, hi, within, within, within, within]).clamp(lo, hi);
    let outside = random.pick(&[lo - 1.0, hi + 1.0, f64::INFINITY, f64::NEG_INFINITY]);
    let s = if b.clamp && random.one_in(3) { outside } else { inside };
    let mut out = [[0.0]; 4];
    let [q, dq, ddq, dddq] = &mut out;
    b.path().unwrap().eval_at::<3>(s.clamp(lo, hi), 1, q, dq, ddq, dddq);
    format!("holds (queried {} ({}) {})", b.text(), float(s), list(&out.concat(), float))
}

impl Query {
    fn text(&self) -> String {
        let [q, dq, ddq, dddq] = self.lengths;
        format!(
            "(record {{ path = record {{ order = {}; segments = {}; axes = {}; «s_min» = {}; «s_max» = {}; «inv_ds» = {}; mode = {} }}; \
             coefficients = replicate {} nan; s = {}; level = {} }}) (record {{ q = {q}; dq = {dq}; ddq = {ddq}; dddq = {dddq} }})",
            self.order,
            self.segments,
            self.axes,
            param(self.s_min),
            param(self.s_max),
            float(self.inv_ds),
            mode(self.clamp),
            self.cells,
            param(self.s),
            self.level,
        )
    }
}

fn refused_query(random: &mut Random, trial: usize) -> String {
    let axes = 1 + random.below(3) as usize;
    let b = Build::small(random, axes);
    let mut q = Query {
        order: b.order,
        segments: b.points - 1,
        axes,
        s_min: b.s_min,
        s_max: b.s_max,
        inv_ds: range(b.points - 1, b.s_min, b.s_max).unwrap(),
        clamp: b.clamp,
        cells: b.cells,
        s: b.s_min,
        level: random.pick(&[0, 2, 3]),
        lengths: [axes; 4],
    };
    q.damage(trial % Query::DAMAGES);
    if trial >= Query::DAMAGES {
        q.damage(random.below(Query::DAMAGES as u64) as usize);
    }
    format!("eqb (query_number {}) {}", q.text(), q.number())
}

// ---- fused steps

fn step(a: f64, b: f64, c: f64) -> String {
    format!("stepped ({}) ({}) ({}) ({}) ∷ ", float(a), float(b), float(c), float(a.mul_add(b, c)))
}

/// Ten steps: two special factors with each special addend, and one of random floats, at times close to cancelling.
fn fused_steps(random: &mut Random, trial: usize) -> String {
    let (a, b) = (SPECIAL[trial / 9 % 9], SPECIAL[trial % 9]);
    let special: String = SPECIAL.iter().map(|&c| step(a, b, c)).collect();
    let (a, b) = (random.float(), random.float());
    let c = if random.one_in(3) { -(a * b) } else { random.float() };
    format!("all holds ({special}{}[])", step(a, b, c))
}

// ---- master checks

/// A good set by how it is made. It stays good, or one thing in it is changed.
fn master_check(random: &mut Random, trial: usize) -> String {
    let (order, segments) = (random.pick(&[3, 5, 7]), 1 + random.below(4) as usize);
    let mut set = Set::continued(random, order, segments, 9);
    let lists = set.lists_mut();
    let which = random.below(4) as usize;
    let place = random.below(lists[which].len() as u64) as usize;
    let cell = &mut lists[which][place];
    let (mut number, mut good) = (0, false);
    match trial % 16 {
        0..=3 => good = true,
        4..=6 => *cell += [-1, 1, 7][trial % 16 - 4],
        7 | 8 => *cell = [LIMIT, -LIMIT][trial % 16 - 7],
        9 | 10 => (*cell, number) = ([LIMIT + 1, -LIMIT - 1][trial % 16 - 9], 4),
        11 => (set.order, number) = (order + 1, 302),
        12 => {
            lists[0].truncate(trial / 16 % 2);
            number = 304;
        }
        13 => {
            lists[0].resize(258, 0);
            number = 2;
        }
        14 => {
            lists[1 + trial / 16 % 2].push(0);
            number = 303;
        }
        _ => {
            lists[3].pop();
            number = 2;
        }
    }
    let [waypoints, start, end, table] = set.lists().map(|l| list(l, whole));
    let order = set.order;
    let set = format!("record {{ order = {order}; waypoints = {waypoints}; start = {start}; end = {end}; table = {table} }}");
    format!("says ({set}) {number} {good}")
}

fn main() {
    let arguments: Vec<String> = std::env::args().collect();
    let mut random = Random(arguments[1].parse::<u64>().unwrap() | 1);
    let count: usize = arguments[2].parse().unwrap();
    let pieces = std::fs::read_to_string(&arguments[3]).unwrap();
    let uses: Vec<&str> = pieces.lines().filter(|line| line.starts_with("use ")).collect();
    let from = pieces.find("unfolding ").unwrap();
    let unfolding = &pieces[from..from + pieces[from..].find("\nboth").unwrap()];
    println!("-- Random trials of the definitions. Assumes nothing.");
    println!("{}", uses.join("\n"));
    println!("use Rattle.std.specs.Prelude.{{ℕ, Bool, true, false, ◌&&◌, [], ◌∷◌, eqb, pos, replicate, None, Float}}");
    println!("use Rattle.std.specs.Bool.{{beq}}\nuse Rattle.std.specs.Float.{{nan, binary64}}\nuse lib.Ieee.{{of_bits}}");
    println!("use Rattle.rules.specs.declared.OutOfRangeMode.TheVariants.{{Error, Clamp}}");
    println!("use Rattle.rules.specs.Build.{{given}}");
    println!("use Rattle.rules.specs.Tables.{{neg as negative}}");
    println!("use Rattle.rules.specs.Master.{{MasterSet}}");
    println!("use Rattle.rules.specs.Pieces.{{built, queried, stepped}}\n");
    println!("abbrev f : ℕ → Float\nunfolding of_bits\nf bits = of_bits binary64 bits\n");
    println!("abbrev says : MasterSet → ℕ → Bool → Bool");
    println!("says s number good = eqb (check_master s).number number && beq (check_master s).good good\n");
    for kind in [build, query, fused_steps, refused_build, refused_query, master_check] {
        for trial in 0..count {
            let name = format!("trial-{}", random.bits());
            println!("{name} : T ({})\n{unfolding} of_bits\n{name} = tt\n", kind(&mut random, trial));
        }
    }
}
