// The stream's search in plain Rust on a square of side 4: the yardstick of `bench/stream/run`.
//     plain COUNT      makes so many items, keeps none, and prints how many came
type Step = (usize, usize);
type Triangle = (usize, usize, usize);

struct Face {
    points: Vec<(i64, i64)>,
    boundary: Vec<Step>,
}

struct Path {
    word: Vec<usize>,
    triangles: Vec<Triangle>,
    steps: Vec<Step>,
    between: Vec<Step>,
}

impl Face {
    fn square(side: i64) -> Face {
        let points: Vec<_> = (0..=side).flat_map(|x| (0..=side).map(move |y| (x, y))).collect();
        let mut face = Face { points, boundary: Vec::new() };
        let n = face.points.len();
        for a in 0..n {
            for b in 0..n {
                let (p, q) = (face.points[a], face.points[b]);
                let is_next = (q.0 - p.0).abs() + (q.1 - p.1).abs() == 1;
                if is_next && (0..n).all(|c| face.area(a, b, c) >= 0) {
                    face.boundary.push((a, b));
                }
            }
        }
        face
    }

    fn area(&self, a: usize, b: usize, c: usize) -> i64 {
        let (p, q, r) = (self.points[a], self.points[b], self.points[c]);
        (q.0 - p.0) * (r.1 - p.1) - (q.1 - p.1) * (r.0 - p.0)
    }

    fn orient(&self, a: usize, b: usize, c: usize) -> i64 {
        self.area(a, b, c).signum()
    }

    fn conflict(&self, (x, y): Step, (z, w): Step) -> bool {
        if (x, y) == (z, w) {
            return true;
        }
        if (x, y) == (w, z) {
            return false;
        }
        self.orient(x, y, z) * self.orient(x, y, w) < 0 && self.orient(z, w, x) * self.orient(z, w, y) < 0
    }

    fn is_beyond(&self, (x, y): Step, u: &Triangle) -> bool {
        self.orient(x, y, u.0) != 1 && self.orient(x, y, u.1) != 1 && self.orient(x, y, u.2) != 1
    }

    fn are_compatible(&self, t: &Triangle, u: &Triangle) -> bool {
        let sides = |t: &Triangle| [(t.0, t.1), (t.1, t.2), (t.2, t.0)];
        if sides(u).iter().any(|side| self.is_beyond(*side, t)) || sides(t).iter().any(|side| self.is_beyond(*side, u)) {
            return true;
        }
        !sides(t).iter().any(|one| sides(u).iter().any(|other| self.conflict(*one, *other)))
    }

    fn fits(&self, triangles: &[Triangle], t: &Triangle) -> bool {
        self.area(t.0, t.1, t.2) == 1 && triangles.iter().rev().all(|u| self.are_compatible(u, t))
    }

    fn add_first(&self, start: usize, after: Option<usize>, path: &mut Path) -> bool {
        if start == path.steps.len() {
            return true;
        }
        let (a, b) = path.steps[start];
        for c in after.map_or(0, |last| last + 1)..self.points.len() {
            let triangle = written(a, b, c);
            if !self.fits(&path.triangles, &triangle) {
                continue;
            }
            let next = path.steps.len();
            path.push(start, c, triangle);
            if self.add_first(next, None, path) {
                return true;
            }
            path.pop(next);
        }
        false
    }

    fn add_next(&self, start: usize, last: &[usize], path: &mut Path) -> bool {
        let Some((c, rest)) = last.split_first() else {
            return false;
        };
        let (a, b) = path.steps[start];
        let next = path.steps.len();
        path.push(start, *c, written(a, b, *c));
        if self.add_next(next, rest, path) {
            return true;
        }
        path.pop(next);
        self.add_first(start, Some(*c), path)
    }

    /// The item after the last one: its word and its triangles.
    fn next(&self, last: Option<&[usize]>) -> Option<(Vec<usize>, Vec<Triangle>)> {
        let room = last.map_or(0, |word| word.len());
        let mut path = Path {
            word: Vec::with_capacity(room),
            triangles: Vec::with_capacity(room),
            steps: self.boundary.clone(),
            between: Vec::new(),
        };
        let found = match last {
            None => self.add_first(0, None, &mut path),
            Some(word) => self.add_next(0, word, &mut path),
        };
        found.then_some((path.word, path.triangles))
    }
}

fn written(a: usize, b: usize, c: usize) -> Triangle {
    if a < b && a < c {
        (a, b, c)
    } else if b < a && b < c {
        (b, c, a)
    } else {
        (c, a, b)
    }
}

fn add_after(e: Step, steps: &[Step], out: &mut Vec<Step>) {
    if steps.contains(&e) {
        out.extend(steps.iter().filter(|f| **f != e));
        return;
    }
    let back = (e.1, e.0);
    let place = steps.iter().position(|f| back < *f).unwrap_or(steps.len());
    out.extend_from_slice(&steps[..place]);
    out.push(back);
    out.extend_from_slice(&steps[place..]);
}

impl Path {
    fn push(&mut self, start: usize, c: usize, triangle: Triangle) {
        let (a, b) = self.steps[start];
        self.between.clear();
        add_after((b, c), &self.steps[start + 1..], &mut self.between);
        let between = std::mem::take(&mut self.between);
        add_after((c, a), &between, &mut self.steps);
        self.between = between;
        self.word.push(c);
        self.triangles.push(triangle);
    }

    fn pop(&mut self, steps: usize) {
        self.word.pop();
        self.triangles.pop();
        self.steps.truncate(steps);
    }
}

fn main() {
    let most: usize = std::env::args().nth(1).and_then(|word| word.parse().ok()).unwrap_or(0);
    let face = Face::square(4);
    let mut last: Option<Vec<usize>> = None;
    let mut count = 0;
    while count < most {
        let Some((word, triangles)) = face.next(last.as_deref()) else {
            break;
        };
        std::hint::black_box(&triangles);
        last = Some(word.clone());
        count += 1;
    }
    println!("{count} items");
}
