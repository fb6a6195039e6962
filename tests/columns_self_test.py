"""The test of columns.py: right functions, mutants by name, and the project's own sources with one change."""

from columns import Writers, sources
from common.mutated import close

STORE = "fn store(dst: &mut [u64], column: [u64; 32], n: usize) { for i in 0..n { dst[i] = column[i]; } }"
RIGHT = {
    "an array by value": STORE + " fn check(bounds: &mut [u64], n: usize) { let column = bounds_of(n); store(bounds, column, n); }",
    "a list that is copied": "fn copy(dst: &mut [u64], src: &[u64], n: usize) { for i in 0..n { dst[i] = src[i]; } } fn check(solution_bounds1: &mut [u64], n: usize)"
    " { let limits = [0u64; 32]; copy(solution_bounds1, &limits, n); }",
    "a part that is copied": "fn copy(dst: &mut [u64], src: &[u64], n: usize) { dst[..n].copy_from_slice(&src[..n]); } fn check(bounds: &mut [u64], n: usize)"
    " { let limits = [0u64; 32]; copy(bounds, &limits, n); }",
    "a length": STORE + " fn check(bounds: &mut [u64], c: [u64; 32]) { if bounds.len() < 32 { return; } store(bounds, c, 32); }",
    "a method": STORE + " fn check(self, bounds: &mut [u64], c: [u64; 32]) { store(bounds, c, 32); } fn through(bounds: &mut [u64], d: Desk) { d.check(bounds, d.c); }",
    "a list that is no limit list": STORE + " fn check(bounds: &mut [u64], c: [u64; 32]) { store(bounds, c, 32); } fn bias(rows: &mut [u64], x: u64) { rows[0] = x + 1; }",
}
MUTANTS = {
    "worked out where it is written": "fn check(bounds: &mut [u64], n: usize) { for i in 0..n { bounds[i] = limit(i); } }",
    "worked out where it is written, in a callee": "fn store(dst: &mut [u64], n: usize) { for i in 0..n { dst[i] = limit(i); } } fn check(bounds: &mut [u64], n: usize) { store(bounds, n); }",
    "an array that the writer fills": "fn check(bounds: &mut [u64], n: usize) { let mut column = [0u64; 32]; for i in 0..n { column[i] = limit(i); bounds[i] = column[i]; } }",
    "a sum of elements": "fn store(dst: &mut [u64], c: [u64; 32]) { dst[0] = c[0] + 1; } fn check(bounds: &mut [u64], c: [u64; 32]) { store(bounds, c); }",
    "a sum of what is gone along": "fn store(dst: &mut [u64], c: [u64; 32]) { for &limit in &c[..2] { dst[0] = limit + 1; } } fn check(bounds: &mut [u64], c: [u64; 32]) { store(bounds, c); }",
    "what is gone along, bound again": "fn store(dst: &mut [u64], c: [u64; 32]) { for &limit in &c[..2] { let limit = limit + 1; dst[0] = limit; } } fn check(bounds: &mut [u64], c: [u64; 32]) { store(bounds, c); }",
    "gone along, and bound by another loop": "fn store(dst: &mut [u64], c: [u64; 32]) { for &limit in &c[..2] { } for limit in 0..2 { dst[0] = limit; } } fn check(bounds: &mut [u64], c: [u64; 32]) { store(bounds, c); }",
    "gone along, and bound by a pattern": "fn store(dst: &mut [u64], c: [u64; 32]) { for &limit in &c[..2] { if let Some(limit) = work(limit) { dst[0] = limit; } } } fn check(bounds: &mut [u64], c: [u64; 32]) { store(bounds, c); }",
    "gone along, and bound by an arm": "fn store(dst: &mut [u64], c: [u64; 32]) { for &limit in &c[..2] { match work(limit) { limit => { dst[0] = limit; } } } } fn check(bounds: &mut [u64], c: [u64; 32]) { store(bounds, c); }",
    "gone along, and bound in a pair": "fn store(dst: &mut [u64], c: [u64; 32]) { for &limit in &c[..2] { let (limit, _) = (limit + 1, 0); dst[0] = limit; } } fn check(bounds: &mut [u64], c: [u64; 32]) { store(bounds, c); }",
    "gone along what may change": "fn store(dst: &mut [u64], c: &mut [u64]) { for &limit in &c[..2] { dst[0] = limit; } } fn check(bounds: &mut [u64], c: [u64; 32]) { store(bounds, &mut c); }",
    "a part of what may change": "fn copy(dst: &mut [u64], c: &mut [u64]) { dst[..2].copy_from_slice(&c[..2]); } fn check(bounds: &mut [u64], c: [u64; 32]) { copy(bounds, &mut c); }",
    "a part of what is bound again": "fn copy(dst: &mut [u64], c: &[u64]) { let c = work(c); dst[..2].copy_from_slice(&c[..2]); } fn check(bounds: &mut [u64], c: [u64; 32]) { copy(bounds, &c); }",
    "a part of what a loop binds": "fn copy(dst: &mut [u64], c: &[u64]) { for c in all { dst[..2].copy_from_slice(&c[..2]); } } fn check(bounds: &mut [u64], c: [u64; 32]) { copy(bounds, &c); }",
    "added to": "fn store(dst: &mut [u64], c: [u64; 32]) { dst[0] += c[0]; } fn check(bounds: &mut [u64], c: [u64; 32]) { store(bounds, c); }",
    "a list that may change": "fn store(dst: &mut [u64], c: &mut [u64]) { dst[0] = c[0]; } fn check(bounds: &mut [u64], c: [u64; 32]) { store(bounds, &mut c); }",
    "another name": STORE + " fn check(bounds: &mut [u64], c: [u64; 32]) { store(bounds, c, 1); let list = bounds; list[0] = 1; }",
    "a part of it": STORE + " fn check(bounds: &mut [u64], c: [u64; 32]) { store(bounds, c, 1); fill(&mut bounds[2..]); }",
    "handed to what is not read": STORE + " fn check(bounds: &mut [u64], c: [u64; 32]) { store(bounds, c, 1); elsewhere(bounds); }",
    "nothing is written": "fn check(bounds: &mut [u64]) -> bool { bounds.len() < 32 }",
}
# The project's own sources: a file, its text and another text.
MUTANTS_HERE = {
    "the writer adds": ("check_bounds/src/lib.rt", "dst[place] = column[i];", "dst[place] = column[i] + 1;"),
    "the array by reference that may change": ("check_bounds/src/lib.rt", "column: [u64; 32], n: usize)", "column: &mut [u64; 32], n: usize)"),
    "the check writes one itself": ("check_lists/src/lib.rt", "store(solution_bounds, 0, 1, column, n);", "solution_bounds[0] = column[0];"),
    "a column is written as it is worked out": ("check_inverse_bounds/src/lib.rt", "store_limits(dst, j, n, &magnitudes, margins, caps, weights, n);", "dst[j] = largest(&magnitudes);"),
}


def faults(changed):
    return Writers(changed).run()[1]


def self_test():
    failed = [f"at fault, and should not be: {name}: {faults({'made up': text})}" for name, text in RIGHT.items() if faults({"made up": text})]
    failed += [f"not detected: {name}" for name, text in MUTANTS.items() if not faults({"made up": text})]
    here = sources()
    for name, (path, old, new) in MUTANTS_HERE.items():
        if here[path].count(old) != 1:
            failed.append(f"{path} does not have once what is to be changed: {name}")
        elif not faults({**here, path: here[path].replace(old, new)}):
            failed.append(f"not detected: {name}")
    return close(len(RIGHT) + len(MUTANTS) + len(MUTANTS_HERE), failed)
