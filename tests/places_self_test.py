"""The test of places.py: right functions, mutants by name, and the project's own sources with one place multiplied out."""

from common.mutated import close
from places import Reader, sources

RIGHT = {
    "a product of numbers": "fn f(a: u64, b: u64) -> u64 { a * b }",
    "elements": "fn f(xs: &[i64], i: usize, j: usize) -> i64 { let x = xs[i] * xs[j]; x }",
    "a count made a number": "fn f(n: usize) -> u64 { n as u64 * SQUARE }",
    "results that are numbers": "fn size(x: i64) -> u64 { 0 } fn f(xs: &[i64], i: usize) -> u64 { size(xs[i]) * size(xs[0]) }",
    "a carried place": "fn f(xs: &[i64], n: usize) -> i64 { let mut sum = 0; let mut place = 0; for j in 0..n { sum += xs[place]; place += n + 1; } sum }",
    "in a contract": "fn f(i: usize, n: usize) -> usize\n requires { ⌜ i * n < 1024 ⌝ }\n ensures { λ r. ⌜ r ≡ i * n ⌝ }\n{ i }",
    "in a comment": "// i * n\nfn f(i: usize) -> usize { i }",
    "a parameter made an index": "fn f(xs: &[i64], n: u32) -> i64 { let size = n as usize; xs[size] }",
    "a shift of numbers": "fn f(s: u32) -> u64 { 1u64 << s }",
    "a count of terms": "fn f(xs: &[i64], n: usize) -> i64 { let mut sum = 0; for i in 0..n * n { sum += xs[i]; } sum }",
    "behind a reference": "fn f(x: &u64, i: usize) -> u64 { return *x; }",
}

MUTANTS = {
    "in brackets": "fn f(xs: &[i64], i: usize, n: usize) -> i64 { xs[i * n] }",
    "in brackets, beside a sum": "fn f(xs: &[i64], i: u64, n: u64) -> i64 { xs[3 + i * n] }",
    "in a name that stands in brackets": "fn f(xs: &[i64], a: u64, b: u64) -> i64 { let place = a * b; xs[place] }",
    "in a name that is given to one": "fn f(xs: &[i64], i: usize) -> i64 { let start = ROW * SIZE; let mut place = start; place += i; xs[place] }",
    "a start": "fn f(j: usize, n: usize) -> usize { let column = j * (n + 1); column }",
    "handed to a call": "fn f(xs: &[u64], m: usize, n: usize) -> i64 { row(xs, m, m * (n + 1)) }",
    "handed back": "fn f(i: usize, n: usize) -> usize { i * n }",
    "a loop's variable": "fn f(k: u64) -> u64 { let mut sum = 0; for i in 0..k { sum += i * 3; } sum }",
    "a place multiplied": "fn f(xs: &[i64], place: usize) -> i64 { let mut at = place; at *= 2; xs[at] }",
    "a stride that grows": "fn f(xs: &[i64], n: usize) -> i64 { let mut at = 0; for j in 0..n { at += 2 * 3; } xs[at] }",
    "through numbers": "fn f(xs: &[i64], j: u32, n: u32) -> i64 { get(xs, (j * n) as usize) }",
    "of casts": "fn f(xs: &[i64], j: u32, n: u32) -> i64 { get(xs, j as usize * n as usize) }",
    "in a local that is cast": "fn f(xs: &[i64], j: u32, n: u32) -> i64 { let place = j * n; get(xs, place as usize) }",
    "in a local, of casts both ways": "fn f(xs: &[i64], j: usize, n: usize) -> i64 { let place = j as u64 * n as u64; get(xs, place as usize) }",
    "in a helper of numbers": "fn times(a: u64, b: u64) -> u64 { a * b } fn f(xs: &[i64], j: usize, n: usize) -> i64 { xs[times(j as u64, n as u64) as usize] }",
    "in a helper of indices": "fn times(a: usize, b: usize) -> usize { a * b } fn f(xs: &[i64], j: usize, n: usize) -> i64 { xs[times(j, n)] }",
    "a shift": "fn f(xs: &[i64], j: usize) -> i64 { xs[j << 5] }",
    "a shift handed to a call": "fn f(xs: &[i64], j: usize) -> i64 { get(xs, j << 5) }",
    "a shifted place": "fn f(xs: &[i64], place: usize) -> i64 { let mut at = place; at <<= 1; xs[at] }",
    "a method": "fn f(xs: &[i64], j: usize, n: usize) -> i64 { get(xs, j.wrapping_mul(n)) }",
    "a field that is cast": "struct Row { start: u64 } fn f(row: Row, start: u32) -> i64 { get(row.start as usize) }",
    "a length": "fn f(xs: &[i64]) -> usize { xs.len() * 2 }",
    "a field": "struct Row { start: usize } fn f(row: Row) -> u64 { get(row.start * 3) }",
    "the start of a loop's range": "fn f(xs: &[i64], m: usize, n: usize) -> i64 { let mut sum = 0; for i in m * n..1024 { sum += xs[i]; } sum }",
    "a place in a loop of counted terms": "fn f(xs: &[i64], m: usize, n: usize) -> i64 { let mut sum = 0; for j in 0..n * n { sum += xs[m * n]; } sum }",
    "handed on in a loop of counted terms": "fn f(xs: &[i64], m: usize, n: usize) -> i64 { let mut sum = 0; for j in 0..n * n { sum += get(xs, m * n); } sum }",
    "a result": "fn next(i: u32) -> usize { 0 } fn f(i: u32) -> u64 { get(next(i) * 3) }",
}

# The project's own sources: a file, its text and the text with a place multiplied out.
MUTANTS_HERE = {
    "a term of the guess's residual": ("linear/src/lib.rt", "add_product(sum, a[at_a], x[at_x])", "add_product(sum, a[p + j * s], x[at_x])"),
    "a term of biased rows": ("check_biased_rows/src/lib.rt", "low_dot(&a[p..p + n], ", "low_dot(&a[i * (n + 1)..p + n], "),
    "the start of a biased row": ("check_biased_rows/src/lib.rt", "        place += n + 1;", "        place = (i + 1) * (n + 1);"),
    "a row of the defect": ("check_margins/src/lib.rt", "margin_of(t, defects, weights, ones, n, m, row)", "margin_of(t, defects, weights, ones, n, m, m * n)"),
    "a row of the matrix": ("check_defects/src/lib.rt", "store_row(out, &mut sums, t, m, xs, start, stride, rows, n)", "store_row(out, &mut sums, t, m, xs, m * step, stride, rows, n)"),
    "a biased row of the inverse": ("check_defects/src/lib.rt", "        row += n + 1;", "        row = (k + 1) * (n + 1);"),
    "a place across the diagonal": ("check_symmetry/src/lib.rt", "        down += n;", "        down = (j + 1) * n + i;"),
    "a row of p": ("check_bounds/src/lib.rt", "out[m] = magnitude(row_dot(rows, m, row, residuals, 0, 0, n))", "out[m] = magnitude(row_dot(rows, m, m * (n + 1), residuals, 0, 0, n))"),
    "a magnitude across the columns": ("check_inverse_bounds/src/lib.rt", "        across += n;", "        across = (m + 1) * n + j;"),
    "a term of the search's sums": ("weights_steps/src/lib.rt", "        place += n;", "        place = (m + 1) * n + m;"),
    "a term handed on in the search": ("weights_steps/src/lib.rt", "sum += magnitudes[place] * w;", "sum += magnitudes[m * n + m] * w;"),
    "a row that is filled out": ("half_fill/src/lib.rt", "        to += n;", "        to = (i + 1) * n;"),
    "a row of the equations": ("build_equations/src/lib.rt", "store_row(&row.sums, width, matrix, start)", "store_row(&row.sums, width, matrix, i * n)"),
    "where a limit is written": ("check_bounds/src/lib.rt", "        dst[place] = column[i];", "        dst[start + i * stride] = column[i];"),
}


def faults(text):
    return Reader({"made up": text}).all_faults()


def self_test():
    failed = [f"at fault, and should not be: {name}" for name, text in RIGHT.items() if faults(text)]
    failed += [f"not detected: {name}" for name, text in MUTANTS.items() if not faults(text)]
    here = sources()
    for name, (path, old, new) in MUTANTS_HERE.items():
        if here[path].count(old) != 1:
            failed.append(f"{path} does not have once what is to be changed: {name}")
        elif not Reader({**here, path: here[path].replace(old, new)}).all_faults():
            failed.append(f"not detected: {name}")
    return close(len(RIGHT) + len(MUTANTS) + len(MUTANTS_HERE), failed)
