//! A second, plain program for the work of `rack`, to compare the two.
//!
//! It reads a DIMACS CNF text from standard input and prints the result sheet,
//! or the refused line.  It keeps nothing but the formula, the assignment, the
//! weights, the stamps and the tick.  Costs, scores, marks and the list of
//! unsatisfied clauses are worked out anew from their definitions whenever they
//! are asked for, by the slowest and plainest way.  It shares no code with the
//! crates of this repository.
//!
//! Build: `rustc -O reference.rs`.  With the argument `facts` it also writes
//! one line to standard error: how often weights were smoothed.

use std::io::{Read, Write};

const TEXT_MAX: usize = 65_535;
const VARIABLES_MAX: i64 = 256;
const CLAUSES_MAX: i64 = 1_024;
const LITERALS_MAX: usize = 4_096;
const MAGNITUDE_MAX: i64 = 99_999;
const BUDGET: u32 = 1_000;
const SEED: u64 = 1;

// ---------------------------------------------------------------- the text

struct Fault {
    number: u32,
    place: usize,
}

fn fault<T>(number: u32, place: usize) -> Result<T, Fault> {
    Err(Fault { number, place })
}

struct Formula {
    variables: usize,
    clauses: Vec<Vec<i64>>,
}

fn is_white(byte: u8) -> bool {
    byte == 9 || byte == 10 || byte == 13 || byte == 32
}

/// The words of `text[from..to]`, each as (offset in the text, bytes).
fn words(text: &[u8], from: usize, to: usize) -> Vec<(usize, &[u8])> {
    let mut found = Vec::new();
    let mut at = from;
    while at < to {
        if is_white(text[at]) {
            at += 1;
            continue;
        }
        let start = at;
        while at < to && !is_white(text[at]) {
            at += 1;
        }
        found.push((start, &text[start..at]));
    }
    found
}

/// Checks 3 and 4.
fn number(place: usize, word: &[u8]) -> Result<i64, Fault> {
    if word == b"0" {
        return Ok(0);
    }
    let negative = word[0] == b'-';
    let digits = if negative { &word[1..] } else { word };
    let well_formed = !digits.is_empty()
        && digits[0] != b'0'
        && digits.iter().all(|byte| byte.is_ascii_digit());
    if !well_formed {
        return fault(3, place);
    }
    // No leading zero: six digits or more are above 99,999 whatever they are.
    if digits.len() > 5 {
        return fault(4, place);
    }
    let mut magnitude: i64 = 0;
    for digit in digits {
        magnitude = magnitude * 10 + i64::from(digit - b'0');
    }
    if magnitude > MAGNITUDE_MAX {
        return fault(4, place);
    }
    Ok(if negative { -magnitude } else { magnitude })
}

fn read_text(text: &[u8]) -> Result<Formula, Fault> {
    // 1
    if text.len() > TEXT_MAX {
        return fault(1, 0);
    }

    // 2: pass the comment lines, then look at the first other line.
    let mut line = 0;
    let line_end = loop {
        if line == text.len() {
            return fault(2, line);
        }
        let end = (line..text.len())
            .find(|&at| text[at] == 10)
            .unwrap_or(text.len());
        if text[line] != b'c' {
            break end;
        }
        line = if end < text.len() { end + 1 } else { end };
    };
    let head = words(text, line, line_end);
    if text[line] != b'p' || head.len() != 4 || head[0].1 != b"p" || head[1].1 != b"cnf" {
        return fault(2, line);
    }

    // 3, 4, 5 for V, then for C
    let variables = number(head[2].0, head[2].1)?;
    if !(1..=VARIABLES_MAX).contains(&variables) {
        return fault(5, head[2].0);
    }
    let count = number(head[3].0, head[3].1)?;
    if !(1..=CLAUSES_MAX).contains(&count) {
        return fault(5, head[3].0);
    }

    // The clauses, word by word.
    let mut clauses: Vec<Vec<i64>> = Vec::new();
    let mut open: Vec<i64> = Vec::new();
    let mut literals = 0;
    for (place, word) in words(text, line_end, text.len()) {
        let value = number(place, word)?;
        if clauses.len() as i64 == count {
            return fault(6, place);
        }
        if value.abs() > variables {
            return fault(7, place);
        }
        if value == 0 {
            if open.is_empty() {
                return fault(8, place);
            }
            clauses.push(std::mem::take(&mut open));
        } else {
            literals += 1;
            if literals > LITERALS_MAX {
                return fault(9, place);
            }
            open.push(value);
        }
    }
    if clauses.len() as i64 != count || !open.is_empty() {
        return fault(6, text.len());
    }
    Ok(Formula {
        variables: variables as usize,
        clauses,
    })
}

// ---------------------------------------------------------------- the search

/// Values and stamps have an unused place 0; weights stand in clause order.
struct Search {
    formula: Formula,
    values: Vec<bool>,
    weights: Vec<i64>,
    stamps: Vec<u32>,
    tick: u32,
    smoothings: u32,
}

fn variable_of(literal: i64) -> usize {
    literal.unsigned_abs() as usize
}

fn satisfied(clause: &[i64], values: &[bool]) -> bool {
    clause
        .iter()
        .any(|&literal| values[variable_of(literal)] == (literal > 0))
}

impl Search {
    fn new(formula: Formula) -> Search {
        let variables = formula.variables;
        let clauses = formula.clauses.len();
        Search {
            formula,
            values: vec![false; variables + 1],
            weights: vec![1; clauses],
            stamps: vec![0; variables + 1],
            tick: 0,
            smoothings: 0,
        }
    }

    /// S
    fn sum(&self) -> i64 {
        self.weights.iter().sum()
    }

    fn count(&self) -> i64 {
        self.formula.clauses.len() as i64
    }

    /// The places, from 0, of the unsatisfied clauses in rising order.
    fn unsatisfied(&self) -> Vec<usize> {
        (0..self.formula.clauses.len())
            .filter(|&at| !satisfied(&self.formula.clauses[at], &self.values))
            .collect()
    }

    fn cost_under(&self, values: &[bool]) -> i64 {
        let mut cost = 0;
        for (clause, weight) in self.formula.clauses.iter().zip(&self.weights) {
            if !satisfied(clause, values) {
                cost += weight;
            }
        }
        cost
    }

    /// The cost now minus the cost if only this variable were flipped.
    fn score(&self, variable: usize) -> i64 {
        let mut other = self.values.clone();
        other[variable] = !other[variable];
        self.cost_under(&self.values) - self.cost_under(&other)
    }

    /// Never flipped, or a neighbour was flipped later.
    fn changed(&self, variable: usize) -> bool {
        let own = self.stamps[variable];
        if own == 0 {
            return true;
        }
        self.formula.clauses.iter().any(|clause| {
            clause.iter().any(|&one| variable_of(one) == variable)
                && clause.iter().any(|&one| {
                    variable_of(one) != variable && self.stamps[variable_of(one)] > own
                })
        })
    }

    /// Policy cca.
    fn level(&self, score: i64, changed: bool) -> u32 {
        if changed && score > 0 {
            1
        } else if score * self.count() > self.sum() {
            2
        } else {
            0
        }
    }

    /// Least level above 0, greatest score, least stamp, least number.
    fn scan(&self) -> Option<usize> {
        let mut admitted = Vec::new();
        for variable in 1..=self.formula.variables {
            let score = self.score(variable);
            let level = self.level(score, self.changed(variable));
            if level != 0 {
                admitted.push((level, -score, self.stamps[variable], variable));
            }
        }
        admitted.into_iter().min().map(|least| least.3)
    }

    fn flip(&mut self, variable: usize) {
        self.values[variable] = !self.values[variable];
        self.tick += 1;
        self.stamps[variable] = self.tick;
    }

    fn weigh(&mut self) {
        for at in self.unsatisfied() {
            self.weights[at] += 1;
        }
        let sum = self.sum();
        let count = self.count();
        if sum > 300 * count {
            let q = if count <= 15 * self.formula.variables as i64 {
                0
            } else {
                7
            };
            for weight in &mut self.weights {
                *weight = 3 * *weight / 10 + q * sum / (10 * count);
            }
            self.smoothings += 1;
        }
    }

    /// The variable of the drawn clause: greatest score, least stamp, least number.
    fn dive(&mut self, drawn: u64) {
        self.weigh();
        let list = self.unsatisfied();
        let clause = &self.formula.clauses[list[(drawn % list.len() as u64) as usize]];
        let picked = clause
            .iter()
            .map(|&literal| variable_of(literal))
            .map(|variable| (-self.score(variable), self.stamps[variable], variable))
            .min()
            .expect("a clause has a literal")
            .2;
        self.flip(picked);
    }

    /// Steps and dives made; the search ends at Found or with the budget.
    fn run(&mut self) -> (u32, u32) {
        let mut seed = SEED;
        let mut steps = 0;
        let mut dives = 0;
        while steps < BUDGET && !self.unsatisfied().is_empty() {
            match self.scan() {
                Some(variable) => self.flip(variable),
                None => {
                    seed = 16_807 * seed % 2_147_483_647;
                    self.dive(seed);
                    dives += 1;
                }
            }
            steps += 1;
        }
        (steps, dives)
    }
}

// ---------------------------------------------------------------- the sheet

fn sheet(search: &Search, steps: u32, dives: u32) -> String {
    let mut lines = format!("c steps {steps} dives {dives}\n");
    if !search.unsatisfied().is_empty() {
        lines.push_str("s UNKNOWN\n");
        return lines;
    }
    lines.push_str("s SATISFIABLE\nv");
    for variable in 1..=search.formula.variables {
        let sign = if search.values[variable] { "" } else { "-" };
        lines.push_str(&format!(" {sign}{variable}"));
    }
    lines.push_str(" 0\n");
    lines
}

fn main() {
    // One byte above the limit is enough to refuse by 1.
    let mut text = Vec::new();
    std::io::stdin()
        .take(TEXT_MAX as u64 + 1)
        .read_to_end(&mut text)
        .expect("standard input can be read");

    let mut smoothings = 0;
    let output = match read_text(&text) {
        Err(Fault { number, place }) => format!("c refused {number} at {place}\n"),
        Ok(formula) => {
            let mut search = Search::new(formula);
            let (steps, dives) = search.run();
            smoothings = search.smoothings;
            sheet(&search, steps, dives)
        }
    };
    std::io::stdout()
        .write_all(output.as_bytes())
        .expect("standard output can be written");
    if std::env::args().nth(1).as_deref() == Some("facts") {
        eprintln!("smoothings {smoothings}");
    }
}
