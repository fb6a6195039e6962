//! Document 01's check on lists, with the tolerances of 02's Paper 5 and the row sums of its Paper 9, in 128-bit numbers.

use crate::nets::{Net, Outcome, COLUMN, MATRIX};

struct System {
    n: usize,
    steps: i128,
    inverse_steps: i128,
    a: Vec<Vec<i128>>,
    b: Vec<i128>,
    d: Vec<i128>,
    x: Vec<i128>,
    g: Vec<Vec<i128>>,
    w: Vec<i128>,
}

fn wide(list: &[i64]) -> Vec<i128> {
    list.iter().map(|&v| v as i128).collect()
}

fn rows(list: &[i64], n: usize) -> Vec<Vec<i128>> {
    list[..n * n].chunks(n).map(wide).collect()
}

fn all_within(list: &[i64], size: i64) -> bool {
    list.iter().all(|v| (-size..=size).contains(v))
}

/// 8: "A lent list too short."
fn too_short(net: &Net) -> bool {
    let [matrix, right, tolerance, guess, inverse, weights, solution, bounds] = net.lengths;
    [matrix, inverse, bounds].iter().any(|&l| l < MATRIX) || [right, tolerance, guess, weights, solution].iter().any(|&l| l < COLUMN)
}

/// 3: "A number outside its range".
fn out_of_range(net: &Net) -> bool {
    if !(1..=32).contains(&net.n) || net.s > 20 || net.t > 20 {
        return true;
    }
    let n = net.n as usize;
    let [matrix, right, tolerance, guess, inverse, weights] = &net.lists;
    !(all_within(&matrix[..n * n], 1 << 20)
        && all_within(&right[..n], 1 << 30)
        && tolerance[..n].iter().all(|d| (0..=1 << 20).contains(d))
        && all_within(&guess[..n], 1 << 36)
        && all_within(&inverse[..n * n], 1 << 20)
        && weights[..n].iter().all(|w| (1..=1024).contains(w)))
}

fn dot(left: &[i128], right: &[i128]) -> i128 {
    left.iter().zip(right).map(|(x, y)| x * y).sum()
}

fn column(matrix: &[Vec<i128>], j: usize) -> Vec<i128> {
    matrix.iter().map(|row| row[j]).collect()
}

impl System {
    fn of(net: &Net) -> System {
        let n = net.n as usize;
        let [matrix, right, tolerance, guess, inverse, weights] = &net.lists;
        System {
            n,
            steps: 1 << net.s,
            inverse_steps: 1 << net.t,
            a: rows(matrix, n),
            b: wide(&right[..n]),
            d: wide(&tolerance[..n]),
            x: wide(&guess[..n]),
            g: rows(inverse, n),
            w: wide(&weights[..n]),
        }
    }

    /// T·w_m − (sum over j of |D_mj|·w_j), D = T·I − G·A.
    fn margin(&self, m: usize) -> i128 {
        let sum: i128 = (0..self.n)
            .map(|j| {
                let unit = if j == m { self.inverse_steps } else { 0 };
                (unit - dot(&self.g[m], &column(&self.a, j))).abs() * self.w[j]
            })
            .sum();
        self.inverse_steps * self.w[m] - sum
    }

    /// S·b − A·X.
    fn guess_residual(&self) -> Vec<i128> {
        self.residual(self.steps, &self.b, &self.x)
    }

    /// scale·right − A·guess.
    fn residual(&self, scale: i128, right: &[i128], guess: &[i128]) -> Vec<i128> {
        (0..self.n).map(|k| scale * right[k] - dot(&self.a[k], guess)).collect()
    }

    /// S·d_k for each row.
    fn slacks(&self) -> Vec<i128> {
        self.d.iter().map(|d| self.steps * d).collect()
    }

    fn inverse_residual(&self, j: usize) -> Vec<i128> {
        let unit: Vec<i128> = (0..self.n).map(|k| (k == j) as i128).collect();
        self.residual(self.inverse_steps, &unit, &column(&self.g, j))
    }

    /// The sum of |a| along each row.
    fn row_sums(&self) -> Vec<i128> {
        self.a.iter().map(|row| row.iter().map(|a| a.abs()).sum()).collect()
    }

    /// The first row whose residual and slack are above 2^25 together in size, or whose residual is above its sum.
    fn above(&self, residual: &[i128], slacks: &[i128], sums: &[i128]) -> Option<usize> {
        (0..self.n).find(|&k| residual[k].abs() + slacks[k] > 1 << 25 || residual[k].abs() > sums[k])
    }

    /// The largest over all rows m of w_i·(|p_m| + the sum over j of |G_mj|·slack_j) / g_m, each rounded up.
    fn bounds(&self, residual: &[i128], slacks: &[i128], margins: &[i128]) -> Vec<u64> {
        let carried = |row: &[i128]| row.iter().zip(slacks).map(|(g, slack)| g.abs() * slack).sum::<i128>();
        let p: Vec<i128> = self.g.iter().map(|row| dot(row, residual).abs() + carried(row)).collect();
        let up = |w: i128, m: usize| (w * p[m] + margins[m] - 1).div_euclid(margins[m]);
        self.w.iter().map(|&w| (0..self.n).map(|m| up(w, m)).max().unwrap() as u64).collect()
    }
}

pub fn check(net: &Net) -> Outcome {
    if too_short(net) {
        return Outcome::refused(8, [0, 0]);
    }
    if out_of_range(net) {
        return Outcome::refused(3, [0, 0]);
    }
    compute_bounds(&System::of(net))
}

/// 5, 6, 7 and the limits.
fn compute_bounds(system: &System) -> Outcome {
    let n = system.n;
    let (residual, slacks, sums, none) = (system.guess_residual(), system.slacks(), system.row_sums(), vec![0; n]);
    let margins: Vec<i128> = (0..n).map(|m| system.margin(m)).collect();
    if let Some(m) = margins.iter().position(|&g| g <= 0) {
        return Outcome::refused(5, [m as u64 + 1, 0]);
    }
    if let Some(k) = system.above(&residual, &slacks, &sums) {
        return Outcome::refused(6, [k as u64 + 1, 0]);
    }
    let columns: Vec<Vec<i128>> = (0..n).map(|j| system.inverse_residual(j)).collect();
    if let Some((j, k)) = columns.iter().enumerate().find_map(|(j, r)| Some((j, system.above(r, &none, &sums)?))) {
        return Outcome::refused(7, [j as u64 + 1, k as u64 + 1]);
    }
    let limits: Vec<Vec<u64>> = columns.iter().map(|residual| system.bounds(residual, &none, &margins)).collect();
    let inverse = (0..n * n).map(|at| limits[at % n][at / n]).collect();
    Outcome { number: 0, places: [0, 0], solution: system.bounds(&residual, &slacks, &margins), inverse }
}
