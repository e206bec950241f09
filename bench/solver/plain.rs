// The stated solver (docs/solver.md) in plain Rust, with 128-bit numbers and a greatest common divisor for each row that
// a pivot changes: the yardstick of `bench/solver/run`. Input, words and output are those of the driver beside this file.
use std::io::Read;

#[derive(Clone, Copy)]
enum Place {
    Row(usize),
    Column(usize),
}

struct Tableau {
    columns: usize,
    rows: Vec<Vec<i128>>,
    places: Vec<Place>,
}

fn gcd(a: u128, b: u128) -> u128 {
    let (mut x, mut y) = (a, b);
    while y != 0 {
        if x <= u64::MAX as u128 && y <= u64::MAX as u128 {
            let (mut p, mut q) = (x as u64, y as u64);
            while q != 0 {
                (p, q) = (q, p % q);
            }
            return p as u128;
        }
        (x, y) = (y, x % y);
    }
    x
}

fn reduce(row: &mut [i128]) {
    let mut common = 0;
    for number in row.iter() {
        common = gcd(common, number.unsigned_abs());
        if common == 1 {
            return;
        }
    }
    for number in row {
        *number /= common as i128;
    }
}

enum Answer {
    Feasible(Vec<i64>),
    Infeasible(Vec<(u32, i64)>),
}

impl Tableau {
    fn start(columns: usize, folds: &[[i64; 6]]) -> Tableau {
        let mut places: Vec<Place> = (0..columns).map(|k| Place::Column(k + 2)).collect();
        let mut rows = Vec::new();
        for (r, &[a, b, c, d, alpha, beta]) in folds.iter().enumerate() {
            let mut row = vec![0; columns + 2];
            (row[0], row[1]) = (1, -1);
            row[c as usize + 1] += 1;
            row[d as usize + 1] += 1;
            row[a as usize + 1] -= alpha as i128;
            row[b as usize + 1] -= beta as i128;
            rows.push(row);
            places.push(Place::Row(r));
        }
        Tableau { columns, rows, places }
    }

    fn find(&self, test: impl Fn(usize, Place) -> bool) -> Option<usize> {
        (self.columns..self.places.len()).find(|&x| test(x, self.places[x]))
    }

    fn pivot(&mut self, x: usize, y: usize) {
        let (Place::Row(r), Place::Column(p)) = (self.places[x], self.places[y]) else {
            unreachable!()
        };
        let mut solved = self.rows[r].clone();
        let (sign, denominator) = (solved[p].signum(), solved[0]);
        for number in &mut solved {
            *number *= -sign;
        }
        (solved[0], solved[p]) = (-solved[p], sign * denominator);
        self.places[x] = Place::Column(p);
        self.places[y] = Place::Row(r);
        for (q, row) in self.rows.iter_mut().enumerate() {
            let factor = row[p];
            if q == r || factor == 0 {
                continue;
            }
            row[p] = 0;
            row[0] *= solved[0];
            for k in 1..row.len() {
                row[k] = row[k] * solved[0] + factor * solved[k];
            }
            reduce(row);
        }
        self.rows[r] = solved;
    }

    fn solve(columns: usize, folds: &[[i64; 6]]) -> Answer {
        let mut t = Tableau::start(columns, folds);
        for height in 0..columns {
            let Place::Column(p) = t.places[height] else { unreachable!() };
            if let Some(x) = t.find(|_, o| matches!(o, Place::Row(r) if t.rows[r][p] != 0)) {
                t.pivot(x, height);
            }
        }
        while let Some(x) = t.find(|_, o| matches!(o, Place::Row(r) if t.rows[r][1] < 0)) {
            let Place::Row(r) = t.places[x] else { unreachable!() };
            let Some(y) = t.find(|_, o| matches!(o, Place::Column(p) if t.rows[r][p] > 0)) else {
                return Answer::Infeasible(t.multipliers(r));
            };
            t.pivot(x, y);
        }
        Answer::Feasible(t.heights())
    }

    fn multipliers(&self, row: usize) -> Vec<(u32, i64)> {
        let of_place = |o| match o {
            Place::Row(r) if r == row => self.rows[row][0],
            Place::Row(_) => 0,
            Place::Column(p) => -self.rows[row][p],
        };
        let slacks = self.places[self.columns..].iter().enumerate();
        let all = slacks.map(|(j, &o)| (j as u32, of_place(o) as i64));
        all.filter(|m| m.1 != 0).collect()
    }

    fn heights(&self) -> Vec<i64> {
        let mut scale = 1;
        for &place in &self.places[..self.columns] {
            if let Place::Row(r) = place {
                let d = self.rows[r][0] / gcd(self.rows[r][0] as u128, self.rows[r][1].unsigned_abs()) as i128;
                scale *= d / gcd(scale as u128, d as u128) as i128;
            }
        }
        let of_place = |&o| match o {
            Place::Row(r) => (scale * self.rows[r][1] / self.rows[r][0]) as i64,
            Place::Column(_) => 0,
        };
        self.places[..self.columns].iter().map(of_place).collect()
    }
}

fn add(sum: &mut u64, number: i64) {
    *sum = sum.wrapping_mul(31).wrapping_add(number.unsigned_abs()).wrapping_add(u64::from(number < 0));
}

fn main() {
    let words: Vec<usize> = std::env::args().skip(1).map(|w| w.parse().unwrap()).collect();
    let mut text = String::new();
    std::io::stdin().read_to_string(&mut text).unwrap();
    let mut lists = vec![Vec::new()];
    for line in text.lines() {
        let numbers: Vec<i64> = line.split_whitespace().flat_map(str::parse).collect();
        match <[i64; 6]>::try_from(numbers) {
            Ok(fold) => lists.last_mut().unwrap().push(fold),
            Err(_) => lists.push(Vec::new()),
        }
    }
    lists.retain(|list| !list.is_empty());
    let (mut feasible, mut infeasible, mut sum) = (0u64, 0u64, 0);
    for _ in 0..words[1] {
        for list in &lists {
            match Tableau::solve(words[0], list) {
                Answer::Feasible(heights) => {
                    feasible += 1;
                    heights.iter().for_each(|&h| add(&mut sum, h));
                }
                Answer::Infeasible(multipliers) => {
                    infeasible += 1;
                    for (row, multiplier) in multipliers {
                        add(&mut sum, i64::from(row));
                        add(&mut sum, multiplier);
                    }
                }
            }
        }
    }
    println!("{feasible} {infeasible} 0 {sum}");
}
