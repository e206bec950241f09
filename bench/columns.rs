// The scan of the columns in plain Rust, with the loops of `lattice_points`: the yardstick of `bench/run`.
// It reads a pair text on standard input, prints the number of points, and tells the seconds of the scan on standard error.
use std::time::Instant;
#[derive(Clone, Copy)]
struct Extent {
    low: i64,
    high: i64,
}
fn narrow(open: Extent, slope: i64, level: i64) -> Extent {
    if slope < 0 {
        if slope * open.low + level < -1 {
            return Extent { low: 1, high: 0 };
        }
        if slope * open.high + level < -1 {
            return Extent {
                low: open.low,
                high: (level + 1).div_euclid(-slope),
            };
        }
    } else {
        if slope * open.high + level < -1 {
            return Extent { low: 1, high: 0 };
        }
        if slope * open.low + level < -1 {
            return Extent {
                low: -(level + 1).div_euclid(slope),
                high: open.high,
            };
        }
    }
    open
}
fn interval(dual: &[[i64; 4]], sums: &[i64; 64], x3: i64, extent: Extent) -> Extent {
    let mut open = extent;
    for (i, c) in dual.iter().enumerate() {
        open = narrow(open, c[3], sums[i] + c[2] * x3);
        if open.high < open.low {
            break;
        }
    }
    open
}
fn head_sums(dual: &[[i64; 4]], x1: i64, x2: i64) -> [i64; 64] {
    let mut sums = [0; 64];
    for (i, c) in dual.iter().enumerate() {
        sums[i] = c[0] * x1 + c[1] * x2;
    }
    sums
}
fn extent_at(v: &[[i64; 4]], k: usize) -> Extent {
    Extent {
        low: v.iter().map(|x| x[k]).min().unwrap(),
        high: v.iter().map(|x| x[k]).max().unwrap(),
    }
}
fn points(vertices: &[[i64; 4]], dual: &[[i64; 4]]) -> Vec<([i64; 4], Vec<u32>)> {
    let e: Vec<Extent> = (0..4).map(|k| extent_at(vertices, k)).collect();
    let mut found = Vec::new();
    for x1 in e[0].low..=e[0].high {
        for x2 in e[1].low..=e[1].high {
            let sums = head_sums(dual, x1, x2);
            for x3 in e[2].low..=e[2].high {
                let inside = interval(dual, &sums, x3, e[3]);
                for x4 in inside.low..=inside.high {
                    let x = [x1, x2, x3, x4];
                    let f: Vec<u32> = dual
                        .iter()
                        .enumerate()
                        .filter(|(_, m)| (0..4).map(|k| m[k] * x[k]).sum::<i64>() == -1)
                        .map(|(i, _)| i as u32 + 1)
                        .collect();
                    if f.len() >= 2 {
                        found.push((x, f));
                    }
                }
            }
        }
    }
    found
}
fn main() {
    let mut text = String::new();
    std::io::Read::read_to_string(&mut std::io::stdin(), &mut text).unwrap();
    let mut lists = vec![];
    for l in text.lines() {
        if l.starts_with('#') {
            continue;
        }
        if l.starts_with('v') || l.starts_with('d') {
            lists.push(vec![]);
            continue;
        }
        let n: Vec<i64> = l.split_whitespace().map(|w| w.parse().unwrap()).collect();
        if n.len() == 4 {
            lists.last_mut().unwrap().push([n[0], n[1], n[2], n[3]]);
        }
    }
    let t = Instant::now();
    let p = points(&lists[0], &lists[1]);
    eprintln!("{:.3}s", t.elapsed().as_secs_f64());
    println!("{} points", p.len());
}
