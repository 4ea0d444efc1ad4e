//! Inputs: random problems and derivations, valid and damaged, long and short, and the five workloads that are timed.

use crate::plain::{Checker, Poly, Rule};

const MOST: i64 = 1_000_000_000_000;
const FILE: usize = 8192;

/// A problem's bytes and a derivation's.
pub struct Input {
    pub problem: Vec<u8>,
    pub steps: Vec<u8>,
}

/// Pseudo-random numbers (splitmix64): one seed, one run.
pub struct Random(pub u64);

impl Random {
    pub fn next(&mut self) -> u64 {
        self.0 = self.0.wrapping_add(0x9E37_79B9_7F4A_7C15);
        let mut z = self.0;
        z = (z ^ z >> 30).wrapping_mul(0xBF58_476D_1CE4_E5B9);
        z = (z ^ z >> 27).wrapping_mul(0x94D0_49BB_1331_11EB);
        z ^ z >> 31
    }

    pub fn below(&mut self, n: usize) -> usize {
        (self.next() % n as u64) as usize
    }

    fn between(&mut self, low: i64, high: i64) -> i64 {
        low + (self.next() % (high - low + 1) as u64) as i64
    }

    fn one_in(&mut self, n: usize) -> bool {
        self.below(n) == 0
    }

    fn of<T: Copy>(&mut self, from: &[T]) -> T {
        from[self.below(from.len())]
    }

    fn mix<T>(&mut self, items: &mut [T]) {
        for i in (1..items.len()).rev() {
            items.swap(i, self.below(i + 1));
        }
    }
}

// ---- records

type Records = Vec<Vec<u8>>;

fn v(n: u8) -> Vec<u8> {
    vec![b'V', n]
}

fn m(mask: u32) -> Vec<u8> {
    [&b"M"[..], &mask.to_le_bytes()].concat()
}

fn c(plain: u32, negated: u32, weight: i64) -> Vec<u8> {
    [&b"C"[..], &plain.to_le_bytes(), &negated.to_le_bytes(), &weight.to_le_bytes()].concat()
}

/// W, S, P or B.
fn amount(kind: u8, w: i64) -> Vec<u8> {
    [&[kind][..], &w.to_le_bytes()].concat()
}

fn e(number: u8, w: i64) -> Vec<u8> {
    [&[b'E', number][..], &w.to_le_bytes()].concat()
}

fn terms(poly: &Poly) -> Records {
    poly.terms().iter().map(|&k| m(k as u32)).collect()
}

fn hard(poly: &Poly) -> Records {
    [terms(poly), vec![b"H".to_vec()]].concat()
}

fn step(rule: Rule, f: &Poly, g: &Poly, w: i64) -> Records {
    let last = match rule {
        Rule::Sum => amount(b'S', w),
        Rule::Prod => amount(b'P', w),
        Rule::Hard(number) => e(number, w),
    };
    [terms(f), vec![b"K".to_vec()], terms(g), vec![last]].concat()
}

fn sum_or_prod(sum: bool) -> Rule {
    if sum { Rule::Sum } else { Rule::Prod }
}

fn size(records: &Records) -> usize {
    records.iter().map(Vec::len).sum()
}

fn poly(masks: &[u32]) -> Poly {
    let mut poly = Poly::ZERO;
    for &mask in masks {
        poly.toggle(mask);
    }
    poly
}

// ---- random parts

fn some_mask(r: &mut Random, n: u32) -> u32 {
    if n == 0 || r.one_in(7) {
        return 0;
    }
    if r.one_in(4) {
        return (r.next() & ((1 << n) - 1)) as u32;
    }
    (0..r.of(&[1, 1, 1, 2, 2, 3])).fold(0, |mask, _| mask | 1 << r.below(n as usize))
}

fn some_poly(r: &mut Random, n: u32, most: usize) -> Poly {
    let masks: Vec<u32> = (0..1 + r.below(most)).map(|_| some_mask(r, n)).collect();
    poly(&masks)
}

fn some_weight(r: &mut Random) -> i64 {
    let most = r.of(&[1, 3, 9, 100, 1_000_000, 1_000_000_000]);
    if r.one_in(5) { most } else { r.between(1, most) }
}

fn some_clause(r: &mut Random, n: u32, most: usize) -> Vec<u8> {
    let (mut plain, mut negated) = (0u32, 0u32);
    for _ in 0..r.below(most + 1) {
        if n > 0 {
            let bit = 1 << r.below(n as usize);
            if r.one_in(2) { plain |= bit } else { negated |= bit }
        }
    }
    if !r.one_in(12) {
        negated &= !plain;
    }
    c(plain, negated, some_weight(r))
}

/// A filing that is mostly accepted.
fn filing(r: &mut Random) -> Records {
    let n = r.of(&[0, 1, 1, 2, 2, 3, 3, 3, 4, 4, 5, 6, 7, 8, 9, 12, 16, 17, 24, 31, 32, 32]);
    let lines = if r.one_in(12) { 60 + r.below(90) } else { r.below(15) };
    let hards = r.of(&[0, 0, 0, 1, 1, 2, 3, 15, 16]);
    let mut is_hard = [vec![true; hards], vec![false; lines]].concat();
    r.mix(&mut is_hard);
    let mut records = vec![v(n as u8)];
    for is_hard in is_hard {
        let mut new = Vec::new();
        if is_hard {
            let most = if r.one_in(20) { 70 } else { 3 };
            new = hard(&if r.one_in(10) { Poly::ZERO } else { some_poly(r, n, most) });
        } else if r.one_in(2) {
            let most = r.of(&[2, 4, 4, 7]);
            new.push(some_clause(r, n, most));
        } else {
            let most = if r.one_in(40) { 70 } else { 4 };
            new = terms(&some_poly(r, n, most));
            r.mix(&mut new);
            if r.one_in(20) {
                new.push(some_clause(r, n, 3));
            }
            new.push(amount(b'W', some_weight(r)));
        }
        if size(&records) + size(&new) > FILE {
            break;
        }
        records.extend(new);
    }
    records
}

fn held(r: &mut Random, checker: &Checker, most: usize) -> Option<Poly> {
    for _ in 0..8 {
        if checker.lines.count > 0 {
            let (_, poly) = checker.lines.line(r.below(checker.lines.count));
            if poly.len <= most {
                return Some(*poly);
            }
        }
    }
    None
}

/// A step that is often accepted.
fn some_step(r: &mut Random, checker: &Checker, signed: bool) -> (Rule, Poly, Poly, i64) {
    let (n, k) = (checker.lines.n, checker.hard.len());
    let rule = if k > 0 && r.one_in(2) { Rule::Hard(1 + r.below(k) as u8) } else { sum_or_prod(r.below(5) < 3) };
    let f = match (signed && r.one_in(2), rule) {
        (true, _) => some_poly(r, n, 3),
        (_, Rule::Hard(_)) if r.one_in(8) => Poly::ZERO,
        _ => held(r, checker, 16).unwrap_or(Poly::ZERO),
    };
    let g = match r.below(12) {
        0 => f,
        1 => Poly::ZERO,
        2 => poly(&[0]),
        3..=5 => some_poly(r, n, 3),
        6 if f.len > 0 => poly(&[f.keys[0] as u32, 0]),
        _ => held(r, checker, 16).unwrap_or(Poly::ZERO),
    };
    if signed {
        let most = r.of(&[1, 3, 9, 1000, MOST / 2, MOST]);
        let w = if r.one_in(4) { r.of(&[most, -most]) } else { r.between(-most, most) };
        return (rule, f, g, w);
    }
    let mut top = if f.len == 0 { MOST } else { checker.lines.weight_of(f.terms()) };
    if rule == Rule::Sum && g.len > 0 {
        top = if f.terms() == g.terms() { top / 2 } else { top.min(checker.lines.weight_of(g.terms())) };
    }
    let top = top.max(1);
    let between = r.between(1, top);
    let w = r.of(&[1, top, top + 1, between, between]);
    (rule, f, g, w)
}

/// A derivation of accepted records from the lines that are held, and its claim.
fn derivation(r: &mut Random, checker: &mut Checker, steps: usize) -> Records {
    let signed = r.one_in(2);
    let mut records = vec![vec![if signed { b'Z' } else { b'N' }]];
    let (mut room, mut taken) = (FILE - 10, Vec::new());
    for _ in 0..steps {
        let (rule, f, g, w) = some_step(r, checker, signed);
        let mut new = step(rule, &f, &g, w);
        if size(&new) <= room && checker.take(rule, signed, &f, &g, w).is_ok() {
            room -= size(&new);
            if r.one_in(4) {
                let (front, back) = new.split_at_mut(f.len);
                r.mix(front);
                r.mix(&mut back[1..1 + g.len]);
            }
            records.extend(new);
            taken.push((rule, f, g, w));
        }
    }
    // signed steps are mostly taken back, so that no line is negative
    if signed && !r.one_in(6) {
        for (rule, f, g, w) in taken.into_iter().rev() {
            let new = step(rule, &f, &g, -w);
            if size(&new) > room || checker.take(rule, true, &f, &g, -w).is_err() {
                break;
            }
            room -= size(&new);
            records.extend(new);
        }
    }
    let top = checker.lines.weight_of(&[0]).max(0);
    let claim = match r.below(8) {
        0 => 0,
        1 => r.between(0, top),
        2 => top + 1,
        _ => top,
    };
    records.push(amount(b'B', claim));
    records
}

// ---- damage

/// One wrong record, at the place where it stands.
fn wrong_record(r: &mut Random, n: u32, derivation: bool) -> Vec<u8> {
    let far = r.of(&[0, -1, 1_000_000_001, MOST + 1, -MOST, -MOST - 1, i64::MAX, i64::MIN, 5]);
    match r.below(11) {
        0 => vec![r.next() as u8],
        1 => v(r.of(&[0, 3, 32, 33, 255])),
        2 => m(r.next() as u32),
        3 => m(some_mask(r, n)),
        4 => c(r.next() as u32 & r.next() as u32, 0, 1),
        5 if derivation => amount(r.of(b"SPB"), far),
        5 => amount(b'W', far),
        6 => c(0, some_mask(r, n), far),
        7 => vec![r.of(b"KNZH")],
        8 => e(r.next() as u8, far),
        9 => e(r.below(18) as u8, r.between(-1, 9)),
        _ => amount(r.of(b"SPBW"), r.between(1, 9)),
    }
}

fn damage(r: &mut Random, records: &mut Records, n: u32, derivation: bool) {
    let at = r.below(records.len() + 1);
    match r.below(8) {
        0 | 1 => records.insert(at, wrong_record(r, n, derivation)),
        2 if at < records.len() => {
            records.remove(at);
        }
        3 if at < records.len() => records.insert(at, records[at].clone()),
        4 if at < records.len() => {
            let i = r.below(records[at].len());
            records[at][i] ^= 1 << r.below(8);
        }
        5 if at < records.len() => {
            let size = records[at].len();
            records[at].truncate(r.below(size + 1));
            records.truncate(at + 1);
        }
        6 => records.truncate(at),
        _ => records.push(wrong_record(r, n, derivation)),
    }
}

/// Inputs aimed at limits that random ones seldom meet.
fn at_a_limit(r: &mut Random) -> (Records, Records) {
    let w = r.between(1, 9);
    match r.below(9) {
        // lines up to 128 and beyond, in the filing
        0 => (
            (0..126 + r.below(6)).fold(vec![v(8)], |mut p, i| {
                p.push(c(0, i as u32, w));
                p
            }),
            vec![b"N".to_vec(), amount(b'B', 0)],
        ),
        // and by steps
        1 => {
            let lines = 124 + r.below(4);
            let problem = (0..lines).fold(vec![v(9)], |mut p, i| {
                p.push(c(0, i as u32, 9));
                p
            });
            let mut steps = vec![b"N".to_vec()];
            for _ in 0..4 {
                let (f, g) = (r.below(lines) as u32, 256 + r.below(200) as u32);
                steps.extend(step(sum_or_prod(r.one_in(3)), &poly(&[f]), &poly(&[g]), w.min(2)));
            }
            steps.push(amount(b'B', w.min(9)));
            (problem, steps)
        }
        // weights up to 10^12 and beyond
        2 => {
            let mut steps = vec![b"Z".to_vec()];
            for _ in 0..3 {
                let near = MOST - r.of(&[0, 0, 1, 5, 500_000_000_000]);
                let w = r.of(&[near, -near]);
                steps.extend(step(sum_or_prod(r.one_in(2)), &poly(&[1]), &poly(&[2, 4][..1 + r.below(2)]), w));
            }
            (vec![v(3), c(1, 0, w)], steps)
        }
        // 64 terms and more in the work polynomial
        3 => {
            let records: Records = (0..63 + r.below(4)).map(|i| m(if r.one_in(40) { 5 } else { i as u32 })).collect();
            if r.one_in(2) {
                return ([vec![v(7)], records, vec![amount(b'W', w)]].concat(), vec![b"N".to_vec()]);
            }
            (vec![v(7)], [vec![b"N".to_vec()], records, vec![b"K".to_vec()]].concat())
        }
        // results near 64 terms
        4 => {
            let plain = (1u32 << 4 + r.below(3)) - 1;
            let f = Poly::clause(plain, 0).unwrap();
            let g = poly(&[&[r.next() as u32 & 255, 128][..], &[0, 64][..r.below(3)]].concat());
            let steps = [vec![b"N".to_vec()], step(sum_or_prod(r.one_in(2)), &f, &g, 1), vec![amount(b'B', 0)]].concat();
            (vec![[v(8), c(plain, 0, w)].concat(), [terms(&g), vec![amount(b'W', 2)]].concat().concat()], steps)
        }
        // long products of random polynomials
        5 => {
            let n = 4 + r.below(4) as u32;
            let (f, g) = (some_poly(r, n, 60), some_poly(r, n, 60));
            let mut steps = vec![b"Z".to_vec()];
            for w in [w, -w] {
                steps.extend(step(sum_or_prod(r.one_in(2)), &f, &g, w));
            }
            steps.push(amount(b'B', 0));
            (vec![v(n as u8)], steps)
        }
        // hard polynomials up to sixteen and beyond, and numbers around theirs
        6 => {
            let (n, k) = (r.below(6) as u32, 15 + r.below(3));
            let problem = (0..k).fold(vec![v(n as u8), c(0, 0, w)], |p, _| [p, hard(&some_poly(r, n, 2))].concat());
            let number = r.of(&[0, 1, 15, 16, 17, 255]);
            (problem, [vec![b"N".to_vec()], step(Rule::Hard(number), &poly(&[0]), &some_poly(r, n, 2), w), vec![amount(b'B', 0)]].concat())
        }
        // steps by a long hard polynomial, with results of some 64 terms and far more
        7 => {
            let n = 6 + r.below(5) as u32;
            let (h, mut f) = (some_poly(r, n, 80), some_poly(r, n, 60));
            let most = r.of(&[1, 2, 60]);
            let q = some_poly(r, n, most);
            // some terms of f vanish
            for &k in h.terms().iter().take(r.below(65)) {
                f.toggle(k as u32 | q.keys[0] as u32);
            }
            let problem = [vec![v(n as u8)], hard(&h), terms(&f), vec![amount(b'W', 9)]].concat();
            (problem, [vec![r.of(&[b"N", b"Z"]).to_vec()], step(Rule::Hard(1), &f, &q, w), vec![amount(b'B', 0)]].concat())
        }
        // files of 8,192 bytes and a little more
        _ => {
            let mut problem = vec![v(32), c(0, 0, w)];
            let mut steps = vec![b"N".to_vec()];
            if r.one_in(2) {
                while size(&problem) + 14 <= FILE {
                    problem.extend([m(r.next() as u32), amount(b'W', w)]);
                }
                problem.push(vec![b'M'; r.of(&[0, FILE - size(&problem), FILE + 1 - size(&problem)])]);
            }
            while size(&steps) + 30 <= FILE {
                steps.extend([m(r.next() as u32), b"K".to_vec(), amount(b'P', 1)]);
            }
            steps.push(vec![b'K'; r.of(&[0, FILE - size(&steps), FILE + 1 - size(&steps)])]);
            (problem, steps)
        }
    }
}

/// One input of any sort.
pub fn any(r: &mut Random, checker: &mut Checker) -> Input {
    if r.one_in(50) {
        let bytes = |r: &mut Random| (0..r.below(40)).map(|_| if r.one_in(2) { r.of(b"VMWCHNZKSPEB") } else { r.next() as u8 % 3 }).collect();
        return Input { problem: if r.one_in(2) { v(3) } else { bytes(r) }, steps: bytes(r) };
    }
    if r.one_in(12) {
        let (problem, steps) = at_a_limit(r);
        return Input { problem: problem.concat(), steps: steps.concat() };
    }
    let mut problem = filing(r);
    if r.one_in(6) {
        let n = problem[0][1] as u32;
        damage(r, &mut problem, n, false);
    }
    let bytes = problem.concat();
    let filed = checker.file(&bytes).is_ok();
    let n = checker.lines.n;
    let length = r.of(&[0, 1, 2, 3, 5, 8, 20, 60, 60, 400]);
    let mut steps = if filed { derivation(r, checker, length) } else { vec![b"N".to_vec()] };
    if r.one_in(2) {
        damage(r, &mut steps, n, true);
    }
    Input { problem: bytes, steps: steps.concat() }
}

// ---- workloads

/// The same problem with a derivation that claims 0 at once.
pub fn without_steps(input: &Input) -> Input {
    Input { problem: input.problem.clone(), steps: [b"N".to_vec(), amount(b'B', 0)].concat() }
}

/// (a) The whole case of document 01.
pub fn whole_case() -> Input {
    let steps = [vec![b"N".to_vec()], step(Rule::Sum, &poly(&[1]), &poly(&[1, 0]), 2), vec![amount(b'B', 2)]].concat();
    Input { problem: [v(1), c(1, 0, 2), c(0, 1, 3)].concat(), steps: steps.concat() }
}

/// (b) Several hundred steps over 90 to 128 short lines, n = 32, near 8,192 bytes; (e) the same by sixteen hard polynomials.
pub fn many_short_lines(seed: u64, by_hard: bool, checker: &mut Checker) -> Input {
    let r = &mut Random(seed);
    let mut problem = vec![v(32), c(0, 0, 7)];
    for i in 0..32 {
        problem.push(c(1 << i, 0, 100 + i as i64));
        problem.push(c(0, 1 << i, 200 + i as i64));
    }
    for i in 0..36 {
        let j = (7 * i + 3) % 32;
        problem.push(c(0, 1 << (i % 32) | 1 << j, 300 + i as i64));
    }
    for i in (0..32).step_by(2).filter(|_| by_hard) {
        problem.extend(hard(&poly(&[1 << i, 2 << i, 0][..2 + i / 2 % 2])));
    }
    let problem = problem.concat();
    checker.file(&problem).unwrap();
    let mut steps = vec![b"N".to_vec()];
    // at most so many terms of f, and so many bytes of a step and the claim
    let (most, room) = if by_hard { (4, 45) } else { (2, 40) };
    while size(&steps) + room < FILE {
        let (Some(f), Some(other)) = (held(r, checker, most), held(r, checker, most)) else { continue };
        let rule = if by_hard { Rule::Hard(1 + r.below(16) as u8) } else { sum_or_prod(r.one_in(2)) };
        let g = match rule {
            Rule::Sum => other,
            Rule::Hard(_) if r.one_in(2) => poly(&[0]),
            _ => poly(&[1 << r.below(32)]),
        };
        let mut top = checker.lines.weight_of(f.terms());
        if rule == Rule::Sum {
            top = top.min(checker.lines.weight_of(g.terms()));
        }
        // where many lines are held, steps that use up a line
        let w = if checker.lines.count > 105 { top } else { r.between(1, top) };
        let before = checker.lines.clone();
        let good = f.terms() != g.terms() && checker.take(rule, false, &f, &g, w).is_ok();
        let short = (0..checker.lines.count).all(|i| checker.lines.line(i).1.len <= 4);
        if good && short && (90..=128).contains(&checker.lines.count) {
            steps.extend(step(rule, &f, &g, w));
        } else {
            checker.lines = before;
        }
    }
    steps.push(amount(b'B', checker.lines.weight_of(&[0])));
    Input { problem, steps: steps.concat() }
}

/// The polynomial that is 1 where none of the variables of `set` is, or just those of a mask of `points`.
fn near_clause(set: u32, points: &[u32]) -> Poly {
    let mut poly = Poly::clause(set, 0).unwrap();
    for &point in points {
        for &k in Poly::clause(set & !point, point).unwrap().terms() {
            poly.toggle(k as u32);
        }
    }
    poly
}

/// A polynomial times a term.
fn times(f: &Poly, mask: u32) -> Poly {
    poly(&f.terms().iter().map(|&k| k as u32 | mask).collect::<Vec<u32>>())
}

/// Six variables, and masks for a left and a right factor; points at which all of the six are 1 but one.
struct Six {
    set: u32,
    left: u32,
    right: u32,
    points: Vec<u32>,
}

/// Some six variables. The factors' masks are 0 or, where they are `spread`, have twelve other variables and six of these.
fn some_six(r: &mut Random, spread: bool) -> Six {
    let mut bits: Vec<u32> = (0..32).collect();
    r.mix(&mut bits);
    let some = |from: usize, to: usize| bits[from..to].iter().fold(0, |set, &b| set | 1 << b);
    let set = some(0, 6);
    let (left, right) = if spread { (some(6, 18), some(6, 12)) } else { (0, 0) };
    Six { set, left, right, points: bits[..6].iter().map(|&b| set & !(1 << b)).collect() }
}

/// (c) Clauses of six plain literals, sums of clauses of 64 and 32 terms, and products of some 60 by 60 terms, of which 64 or fewer are
/// left. The operands of a product lie in the same six variables; where they are `spread`, the clauses have twelve negated literals
/// besides, and the factors are multiplied by terms of these, so that a product has 18 variables.
pub fn long_lines(seed: u64, spread: bool) -> Input {
    let r = &mut Random(seed);
    let mut problem = vec![v(32), c(0, 0, 5)];
    let mut steps = vec![b"N".to_vec()];
    loop {
        let Six { set, left, right, points } = some_six(r, spread);
        let bit = set & !points[0];
        // the same clause with one literal negated
        problem.extend([c(set, left, 4), c(set & !bit, left | bit, 4)]);
        let mut new = step(Rule::Sum, &Poly::clause(set, left).unwrap(), &Poly::clause(set & !bit, left | bit).unwrap(), 3);
        let f = times(&near_clause(set, &points[1..4]), left);
        let g = times(&near_clause(set, &[points[1], points[4] & points[5]]), right);
        problem.extend(terms(&f));
        problem.push(amount(b'W', 6));
        new.extend(step(Rule::Prod, &f, &g, 5));
        if size(&steps) + size(&new) + 9 > FILE {
            break;
        }
        steps.extend(new);
    }
    steps.push(amount(b'B', 5));
    Input { problem: problem.concat(), steps: steps.concat() }
}

/// (e) Steps by hard polynomials of some 60 terms, by factors of some 60: from a long line to a short one, and back in part.
pub fn long_hard(seed: u64, spread: bool) -> Input {
    let r = &mut Random(seed);
    let mut problem = vec![v(32), c(0, 0, 5)];
    let mut steps = vec![b"N".to_vec()];
    for number in 1..=16 {
        let Six { set, left, right, points } = some_six(r, spread);
        let h = times(&near_clause(set, &points[1..4]), left);
        let q = times(&near_clause(set, &[points[1], points[4] & points[5]]), right);
        let f = times(&near_clause(set, &[points[4] & points[5]]), left);
        // q h is 1 where none of the variables is, or just those of one point
        let mut short = f;
        for &k in times(&near_clause(set, &points[1..2]), left).terms() {
            short.toggle(k as u32);
        }
        let rule = Rule::Hard(number);
        let new = [step(rule, &f, &q, 5), step(rule, &short, &q, 3)].concat();
        if size(&steps) + size(&new) + 9 > FILE {
            break;
        }
        problem.extend([hard(&h), terms(&f), vec![amount(b'W', 6)]].concat());
        steps.extend(new);
    }
    steps.push(amount(b'B', 5));
    Input { problem: problem.concat(), steps: steps.concat() }
}

/// (d) One small derivation with so many lines held: a line is split in two and the two are put together again.
pub fn lines_held(lines: usize) -> Input {
    let mut problem = vec![v(32), c(0, 0, 3), c(0, 1, 9)];
    for i in 0..lines - 2 {
        let (a, b) = (2 + i % 30, 2 + (i / 30 * 11 + i + 5) % 30);
        problem.push(match i % 4 {
            0 => c(0, 1 << a, 5),
            1 => c(1 << a, 1 << b, 5),
            2 => c(1 << a, 0, 5),
            _ => c(0, 1 << a | 1 << b, 5),
        });
        if i >= 60 {
            *problem.last_mut().unwrap() = c(0, 1 << a | 1 << b | 2, 5);
        }
    }
    let (x, y) = (1, 2);
    let mut steps = vec![b"N".to_vec()];
    for i in 0..20 {
        let w = if i % 2 == 0 { 9 } else { 4 };
        steps.extend(step(Rule::Prod, &poly(&[x]), &poly(&[y]), w));
        steps.extend(step(Rule::Sum, &poly(&[x | y]), &poly(&[x | y, x]), w));
    }
    steps.push(amount(b'B', 3));
    Input { problem: problem.concat(), steps: steps.concat() }
}
