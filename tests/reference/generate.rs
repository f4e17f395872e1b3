//! Random texts for comparing `rack` with the reference.
//!
//! `generate SEED NUMBER` writes the text of that number to standard output;
//! the same two numbers always give the same bytes.  Build: `rustc -O generate.rs`.
//!
//! The texts are tables of several kinds in a free layout: tiny ones, ones with
//! repeated literals and tautologies, ones whose weights grow until they are
//! smoothed, 3-SAT near its threshold, colourings, tables at the limits; about
//! one in nine is damaged.

use std::io::Write;

const VARIABLES_MAX: u64 = 256;
const CLAUSES_MAX: u64 = 1_024;
const LITERALS_MAX: usize = 4_096;

// ---------------------------------------------------------------- numbers

/// xorshift with 64 bits.
struct Random {
    state: u64,
}

impl Random {
    fn new(seed: u64, number: u64) -> Random {
        // Spread the two numbers over the word, so that near ones differ much.
        let mut state = seed
            .wrapping_mul(0x9E37_79B9_7F4A_7C15)
            .wrapping_add(number.wrapping_mul(0xD1B5_4A32_D192_ED03))
            .wrapping_add(1);
        state = (state ^ (state >> 30)).wrapping_mul(0xBF58_476D_1CE4_E5B9);
        state = (state ^ (state >> 27)).wrapping_mul(0x94D0_49BB_1331_11EB);
        state ^= state >> 31;
        if state == 0 {
            state = 1;
        }
        Random { state }
    }

    fn next(&mut self) -> u64 {
        self.state ^= self.state << 13;
        self.state ^= self.state >> 7;
        self.state ^= self.state << 17;
        self.state >> 16
    }

    /// A number from `low` to `high`, both included.
    fn from_to(&mut self, low: u64, high: u64) -> u64 {
        low + self.next() % (high - low + 1)
    }

    fn one_in(&mut self, n: u64) -> bool {
        self.next() % n == 0
    }

    fn sign(&mut self, variable: u64) -> i64 {
        if self.one_in(2) {
            variable as i64
        } else {
            -(variable as i64)
        }
    }
}

// ---------------------------------------------------------------- tables

struct Table {
    variables: u64,
    clauses: Vec<Vec<i64>>,
}

impl Table {
    fn new(variables: u64) -> Table {
        Table {
            variables,
            clauses: Vec::new(),
        }
    }

    fn literals(&self) -> usize {
        self.clauses.iter().map(Vec::len).sum()
    }

    /// Adds the clause if the limits allow it.
    fn add(&mut self, clause: Vec<i64>) -> bool {
        let fits = self.clauses.len() < CLAUSES_MAX as usize
            && self.literals() + clause.len() <= LITERALS_MAX;
        if fits {
            self.clauses.push(clause);
        }
        fits
    }

    fn shuffle(&mut self, random: &mut Random) {
        for at in (1..self.clauses.len()).rev() {
            let other = random.from_to(0, at as u64) as usize;
            self.clauses.swap(at, other);
        }
    }
}

/// A clause that may repeat literals and name a variable in both signs.
fn free_clause(random: &mut Random, variables: u64, length: u64) -> Vec<i64> {
    let mut clause = Vec::new();
    for _ in 0..length {
        let variable = random.from_to(1, variables);
        clause.push(random.sign(variable));
    }
    clause
}

/// A clause over different variables, shorter if there are too few of them.
fn plain_clause(random: &mut Random, variables: u64, length: u64) -> Vec<i64> {
    let mut clause: Vec<i64> = Vec::new();
    while (clause.len() as u64) < length.min(variables) {
        let variable = random.from_to(1, variables);
        if clause.iter().all(|&one| one.unsigned_abs() != variable) {
            clause.push(random.sign(variable));
        }
    }
    clause
}

fn tiny(random: &mut Random) -> Table {
    let mut table = Table::new(random.from_to(1, 6));
    let longest = random.from_to(1, 4);
    for _ in 0..random.from_to(1, 18) {
        let length = random.from_to(1, longest);
        table.add(free_clause(random, table.variables, length));
    }
    table
}

/// Few variables with unit clauses in both signs and a few longer clauses: half
/// of the weight can never be satisfied, and S soon passes 300 for each clause.
fn contradictory(random: &mut Random) -> Table {
    let variables = random.from_to(1, 8);
    let mut table = Table::new(variables);
    let against = random.from_to(1, variables);
    for variable in 1..=against {
        let literal = random.sign(variable);
        for _ in 0..random.from_to(1, 2) {
            table.add(vec![literal]);
        }
        for _ in 0..random.from_to(1, 2) {
            table.add(vec![-literal; random.from_to(1, 2) as usize]);
        }
    }
    for _ in 0..random.from_to(0, variables) {
        let length = random.from_to(1, 3);
        table.add(free_clause(random, variables, length));
    }
    table.shuffle(random);
    table
}

/// One or two contradictory pairs and nothing else, or one clause more.
fn contradictory_pair(random: &mut Random) -> Table {
    let mut table = Table::new(random.from_to(1, 3));
    for _ in 0..random.from_to(1, 2) {
        let variable = random.from_to(1, table.variables);
        let literal = random.sign(variable);
        table.add(vec![literal]);
        table.add(vec![-literal]);
    }
    if random.one_in(2) {
        let length = random.from_to(1, 3);
        table.add(free_clause(random, table.variables, length));
    }
    table.shuffle(random);
    table
}

/// As above with more than 15 clauses, or just 15, for each variable.
fn contradictory_dense(random: &mut Random) -> Table {
    let variables = if random.one_in(4) {
        random.from_to(1, 20)
    } else {
        random.from_to(1, 5)
    };
    let mut table = Table::new(variables);
    let clauses = match random.from_to(0, 3) {
        0 => 15 * variables,
        1 => 15 * variables + 1,
        _ => random.from_to(15 * variables + 1, 24 * variables),
    };
    let longer = random.from_to(3, 12);
    while (table.clauses.len() as u64) < clauses {
        if random.one_in(longer) {
            table.add(free_clause(random, variables, 2));
        } else {
            table.add(free_clause(random, variables, 1));
        }
    }
    table
}

/// 3-SAT with the number of clauses near 4.26 for each variable.
fn threshold(random: &mut Random, least: u64, most: u64) -> Table {
    let variables = random.from_to(least, most);
    let mut table = Table::new(variables);
    let clauses = variables * random.from_to(370, 450) / 100;
    for _ in 0..clauses {
        table.add(plain_clause(random, variables, 3));
    }
    table
}

/// Every clause is satisfied by one hidden assignment.
fn planted(random: &mut Random, most: u64) -> Table {
    let variables = random.from_to(3, most);
    let hidden: Vec<i64> = (1..=variables).map(|one| random.sign(one)).collect();
    let mut table = Table::new(variables);
    let clauses = variables * random.from_to(300, 700) / 100;
    let longest = random.from_to(3, 5);
    for _ in 0..clauses {
        let length = random.from_to(2, longest);
        let clause = plain_clause(random, variables, length);
        let held = |one: &i64| hidden[one.unsigned_abs() as usize - 1] == *one;
        if clause.iter().any(held) {
            table.add(clause);
        }
    }
    if table.clauses.is_empty() {
        table.add(vec![hidden[0]]);
    }
    table
}

/// Exactly one colour for each point of a random graph, not the same at both ends of an edge.
fn colouring(random: &mut Random) -> Table {
    let colours = random.from_to(2, 4);
    let points = random.from_to(3, 24);
    let mut table = Table::new(points * colours);
    let name = |point: u64, colour: u64| (point * colours + colour + 1) as i64;
    for point in 0..points {
        table.add((0..colours).map(|colour| name(point, colour)).collect());
        for one in 0..colours {
            for other in one + 1..colours {
                table.add(vec![-name(point, one), -name(point, other)]);
            }
        }
    }
    for _ in 0..points * random.from_to(10, 24) / 10 {
        let one = random.from_to(0, points - 1);
        let other = random.from_to(0, points - 1);
        if one != other {
            for colour in 0..colours {
                table.add(vec![-name(one, colour), -name(other, colour)]);
            }
        }
    }
    table
}

/// Any size up to the given limits, any lengths, repeats and tautologies.
fn mixed(random: &mut Random, variables_most: u64, clauses_most: u64) -> Table {
    let variables = random.from_to(1, variables_most);
    let mut table = Table::new(variables);
    let clauses = random.from_to(1, clauses_most);
    let longest = random.from_to(2, 7);
    let named = random.from_to(1, variables);
    for _ in 0..clauses {
        let length = if random.one_in(40) {
            1
        } else {
            random.from_to(2, longest)
        };
        let mut clause = free_clause(random, named, length);
        if random.one_in(6) {
            let again = clause[random.from_to(0, clause.len() as u64 - 1) as usize];
            clause.push(if random.one_in(4) { -again } else { again });
        }
        if !table.add(clause) {
            break;
        }
    }
    table
}

/// A table at one or more of the limits.
fn at_limits(random: &mut Random) -> Table {
    let variables = if random.one_in(2) {
        VARIABLES_MAX
    } else {
        random.from_to(1, VARIABLES_MAX)
    };
    let mut table = Table::new(variables);
    match random.from_to(0, 2) {
        0 => {
            // One clause with every literal there may be.
            let length = LITERALS_MAX as u64 - random.from_to(0, 1);
            let variable = random.from_to(1, variables);
            let clause = if random.one_in(2) {
                vec![variable as i64; length as usize]
            } else {
                free_clause(random, variables, length)
            };
            table.add(clause);
        }
        1 => {
            // 1,024 clauses of four literals.
            while table.add(free_clause(random, variables, 4)) {}
        }
        _ => {
            // 1,024 short clauses.
            for _ in 0..CLAUSES_MAX {
                let length = random.from_to(1, 3);
                table.add(free_clause(random, variables, length));
            }
        }
    }
    table
}

fn any_small(random: &mut Random) -> Table {
    match random.from_to(0, 4) {
        0 => contradictory(random),
        1 => threshold(random, 3, 20),
        2 => mixed(random, 20, 40),
        _ => tiny(random),
    }
}

// ---------------------------------------------------------------- texts

fn comment(random: &mut Random) -> Vec<u8> {
    let mut line = vec![b'c'];
    for _ in 0..random.from_to(0, 20) {
        let byte = random.from_to(0, 255) as u8;
        if byte != 10 {
            line.push(byte);
        }
    }
    line.push(10);
    line
}

fn gap(random: &mut Random, within_line: bool) -> Vec<u8> {
    let bytes: &[u8] = if within_line {
        &[9, 13, 32]
    } else {
        &[9, 10, 13, 32]
    };
    let mut white = Vec::new();
    for _ in 0..random.from_to(1, 3) {
        white.push(bytes[random.from_to(0, bytes.len() as u64 - 1) as usize]);
    }
    white
}

/// The words of the head and of the clauses, as they will stand in the text.
struct Words {
    head: Vec<String>,
    body: Vec<String>,
}

fn table_words(table: &Table) -> Words {
    let head = vec![
        "p".to_string(),
        "cnf".to_string(),
        table.variables.to_string(),
        table.clauses.len().to_string(),
    ];
    let mut body = Vec::new();
    for clause in &table.clauses {
        body.extend(clause.iter().map(i64::to_string));
        body.push("0".to_string());
    }
    Words { head, body }
}

fn layout(random: &mut Random, words: &Words) -> Vec<u8> {
    let mut text = Vec::new();
    if random.one_in(3) {
        for _ in 0..random.from_to(1, 3) {
            text.extend(comment(random));
        }
    }
    let free = random.one_in(4);
    for (at, word) in words.head.iter().enumerate() {
        if at > 0 {
            text.extend(if free { gap(random, true) } else { vec![32] });
        }
        text.extend(word.as_bytes());
    }
    if free && random.one_in(2) {
        text.extend(gap(random, true));
    }
    text.push(10);
    if free && random.one_in(2) {
        text.extend(gap(random, false));
    }
    let last = words.body.len().wrapping_sub(1);
    for (at, word) in words.body.iter().enumerate() {
        text.extend(word.as_bytes());
        if free && (at != last || random.one_in(2)) {
            text.extend(gap(random, false));
        } else if !free && word == "0" {
            text.push(10);
        } else if !free {
            text.push(32);
        }
    }
    text
}

/// Puts comment bytes in front until the text has the given length.
fn lengthen(text: Vec<u8>, length: usize) -> Vec<u8> {
    if text.len() + 2 > length {
        return text;
    }
    let mut long = vec![b'c'; length - text.len() - 1];
    long.push(10);
    long.extend(text);
    long
}

const ODD_WORDS: [&str; 24] = [
    "-0", "00", "01", "-01", "+1", "-", "--1", "1-", "1.", "x", "%", "c", "p", "99999", "-99999",
    "100000", "-100000", "2147483648", "-2147483648", "4294967297", "18446744073709551617",
    "340282366920938463463374607431768211457", "257", "1025",
];

fn odd_word(random: &mut Random) -> String {
    ODD_WORDS[random.from_to(0, ODD_WORDS.len() as u64 - 1) as usize].to_string()
}

/// A text with a mistake made on purpose; now and then it does no harm.
fn damaged(random: &mut Random) -> Vec<u8> {
    let table = any_small(random);
    let mut words = table_words(&table);
    let body_at = random.from_to(0, words.body.len() as u64 - 1) as usize;
    match random.from_to(0, 15) {
        // Words that are wrong.
        0 | 1 => words.body[body_at] = odd_word(random),
        2 => {
            let at = random.from_to(2, 3) as usize;
            words.head[at] = odd_word(random);
        }
        3 => {
            let at = random.from_to(0, 1) as usize;
            words.head[at] = ["P", "CNF", "pcnf", "cnf", "p", "q", "cn", "cnff"]
                [random.from_to(0, 7) as usize]
                .to_string();
        }
        // A count that is wrong.
        4 => {
            let count = table.clauses.len() as u64;
            words.head[3] = random.from_to(count.saturating_sub(2), count + 2).to_string();
        }
        5 => words.head[2] = random.from_to(0, table.variables).to_string(),
        6 => words.head[2] = random.from_to(250, 260).to_string(),
        7 => words.head[3] = random.from_to(1_020, 1_030).to_string(),
        // Words that are missing or too many.
        8 => {
            words.body.remove(body_at);
        }
        9 => {
            let word = words.body[random.from_to(0, words.body.len() as u64 - 1) as usize].clone();
            words.body.insert(body_at, word);
        }
        10 => {
            let word = if random.one_in(2) {
                odd_word(random)
            } else {
                "0".to_string()
            };
            words.body.push(word);
        }
        11 => {
            let at = random.from_to(0, 3) as usize;
            if random.one_in(2) {
                words.head.remove(at);
            } else {
                words.head.insert(at, "1".to_string());
            }
        }
        // A cut end.
        12 => {
            let mut text = layout(random, &words);
            let length = random.from_to(0, text.len() as u64) as usize;
            text.truncate(length);
            return text;
        }
        // Bytes that are wrong.
        13 => {
            let mut text = layout(random, &words);
            for _ in 0..random.from_to(1, 4) {
                let at = random.from_to(0, text.len() as u64 - 1) as usize;
                text[at] = random.from_to(0, 255) as u8;
            }
            return text;
        }
        14 => {
            let common = b" \n\r\t-0123456789cpnf\0";
            let mut text = layout(random, &words);
            for _ in 0..random.from_to(1, 3) {
                let at = random.from_to(0, text.len() as u64 - 1) as usize;
                let byte = common[random.from_to(0, common.len() as u64 - 1) as usize];
                if random.one_in(3) {
                    text.remove(at);
                } else if random.one_in(2) {
                    text.insert(at, byte);
                } else {
                    text[at] = byte;
                }
                if text.is_empty() {
                    break;
                }
            }
            return text;
        }
        // Something before the problem line, or a comment after it.
        _ => {
            let text = layout(random, &words);
            let mut whole = match random.from_to(0, 4) {
                0 => b"\n".to_vec(),
                1 => b" ".to_vec(),
                2 => b"c\n\r\n".to_vec(),
                3 => b" c\n".to_vec(),
                _ => Vec::new(),
            };
            let before = whole.len();
            whole.extend(text);
            if before == 0 {
                whole.extend(b"\nc the end\n");
            }
            return whole;
        }
    }
    layout(random, &words)
}

/// Texts around the greatest length and the greatest number of literals.
fn around_limits(random: &mut Random) -> Vec<u8> {
    if random.one_in(2) {
        let table = any_small(random);
        let words = table_words(&table);
        let text = layout(random, &words);
        lengthen(text, random.from_to(65_534, 65_537) as usize)
    } else {
        let variables = random.from_to(1, VARIABLES_MAX);
        let mut table = Table::new(variables);
        let mut left = LITERALS_MAX as u64 + random.from_to(0, 2) - 1;
        while left > 0 {
            let length = random.from_to(1, 1_500).min(left);
            // Past the limit on purpose, so not by `add`.
            table.clauses.push(free_clause(random, variables, length));
            left -= length;
        }
        let words = table_words(&table);
        layout(random, &words)
    }
}

fn text(random: &mut Random) -> Vec<u8> {
    let table = match random.from_to(0, 53) {
        0..=6 => tiny(random),
        7..=11 => contradictory(random),
        12..=13 => contradictory_pair(random),
        14..=17 => contradictory_dense(random),
        18..=24 => threshold(random, 5, 40),
        25..=29 => threshold(random, 40, 100),
        30..=31 => threshold(random, 100, 240),
        32..=34 => planted(random, 60),
        35 => planted(random, 200),
        36..=39 => colouring(random),
        40..=44 => mixed(random, 60, 250),
        45..=46 => mixed(random, VARIABLES_MAX, CLAUSES_MAX),
        47 => at_limits(random),
        48 => return around_limits(random),
        _ => return damaged(random),
    };
    let words = table_words(&table);
    layout(random, &words)
}

fn main() {
    let given: Vec<u64> = std::env::args()
        .skip(1)
        .map(|word| word.parse().expect("two numbers: seed and number"))
        .collect();
    assert!(given.len() == 2, "two numbers: seed and number");
    let bytes = text(&mut Random::new(given[0], given[1]));
    std::io::stdout()
        .write_all(&bytes)
        .expect("standard output can be written");
}
