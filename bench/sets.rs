//! Searches for the sets of a family of `nf_assigned` or `nf_counts`, as one has to where another version of Unicode's data makes
//! their proofs refuse those that are. From the folder of the repository:
//!
//!     rustc -O --edition 2021 bench/sets.rs -o sets
//!     ./sets crates/nf_assigned/src/pairs.rt SECOND SEED STEPS LOSS TEXT..
//!     ./sets crates/nf_counts/src/scripts.rt kana SEED STEPS LOSS TEXT..
//!
//! It begins with the sets that the file has. What has to be looked up must be found; of what need not, as little as can be of
//! what stands in the texts, of which each weighs a thousand, and one that is named twice two. A step turns one bit of the sets or
//! two, and is kept where that is no loss, or by chance: the more seldom the greater the loss is and the later it comes (simulated
//! annealing). A LOSS of 5 stays near the sets that are, and one of 100 forgets them. Written are the sets, how much of a
//! thousand characters of each text that are not ASCII they find, and how many characters they do not find and must: where there
//! is one the status is 1.

use std::collections::HashMap;
use std::env::args;
use std::error::Error;
use std::fs::read_to_string;
use std::process::ExitCode;

/// Has what must be looked up: the values of code points.
const ROWS: &str = "crates/nf_counts/src/rows.rt";
/// What it costs not to find what must be found: at first, and at last.
const MISSED: (f64, f64) = (100.0, 1000.0);
/// The loss that is taken every third time or so at last.
const LAST_LOSS: f64 = 0.1;
/// The tables of sets as a source names them.
const TABLES: [&str; 4] = ["first_high:", "first_low:", "next_high:", "next_low:"];

/// By the high and the low half of a byte, and of the next.
type Sets = [[u8; 16]; 4];

/// A character, or what else one look has to tell of: the pairs of bytes that are asked, and what it costs to find it; where it
/// must be found that is `None`.
struct Item {
    pairs: Vec<[u8; 2]>,
    cost: Option<f64>,
}

/// The value of each code point that one to three bytes encode, as `table.rt` of `nf_counts` has it.
fn values(rows: &str) -> Option<Vec<u8>> {
    let array = |name| numbers(rows.split_once(name)?.1.split_once('=')?.1);
    let (index, words) = (array("static INDEX:")?, array("static WORDS:")?);
    let word = |code: usize| words.get(*index.get(code / 64)? as usize * 4 + code % 64 / 16);
    (0..0x10000).map(|code| Some((word(code)? >> (code % 16 * 4)) as u8 & 15)).collect()
}

/// The sets that a source has by this name.
fn sets(source: &str, name: &str) -> Option<Sets> {
    let (_, from) = source.split_once(&format!(" {name}: Pairs"))?;
    let mut sets = [[0; 16]; 4];
    for (set, name) in sets.iter_mut().zip(TABLES) {
        *set = numbers(from.split_once(name)?.1)?.iter().map(|&it| it as u8).collect::<Vec<_>>().try_into().ok()?;
    }
    Some(sets)
}

/// The numbers of the next array.
fn numbers(text: &str) -> Option<Vec<u64>> {
    let (list, _) = text.split_once('[')?.1.split_once(']')?;
    list.split(',').map(str::trim).filter(|it| !it.is_empty()).map(number).collect()
}

fn number(text: &str) -> Option<u64> {
    let plain = text.replace('_', "");
    plain.strip_prefix("0x").map_or_else(|| plain.parse().ok(), |digits| u64::from_str_radix(digits, 16).ok())
}

/// The pairs of the character of which the family is asked, and whether it must be found whatever the rows say; none where the
/// family is not asked of it.
fn asked(family: &str, character: char) -> Option<(Vec<[u8; 2]>, bool)> {
    let mut bytes = [0; 4];
    let bytes = character.encode_utf8(&mut bytes).as_bytes();
    let pairs: Vec<[u8; 2]> = bytes.windows(2).map(|it| [it[0], it[1]]).collect();
    let after = |lead: u8, from: u8, to: u8| {
        (bytes.len() == 3 && bytes[0] == lead).then(|| (pairs[1..].to_vec(), !(from..=to).contains(&bytes[1])))
    };
    match family {
        "FIRST" | "SECOND" | "WIDE" | "narrow" => Some((pairs, false)),
        "indic" => after(0xE0, 0x80, 0xAF),
        "southern" => after(0xE0, 0xB0, 0xB7),
        "thai" => after(0xE0, 0xB8, 0xBF),
        "letters" => after(0xE1, 0x80, 0xBF),
        "kana" => after(0xE3, 0x80, 0xBF),
        _ => None,
    }
}

/// How often each character stands in a thousand of a text that are not ASCII.
fn weights(text: &str) -> HashMap<char, f64> {
    let all = text.chars().filter(|it| !it.is_ascii()).count() as f64;
    let mut weights = HashMap::new();
    for character in text.chars().filter(|it| !it.is_ascii()) {
        *weights.entry(character).or_insert(0.0) += 1000.0 / all;
    }
    weights
}

fn items(family: &str, is_looked_up: impl Fn(u32) -> bool, texts: &[HashMap<char, f64>]) -> Vec<Item> {
    let mut items = Vec::new();
    for character in '\u{80}'..='\u{FFFF}' {
        let Some((pairs, must)) = asked(family, character) else { continue };
        let cost: f64 = texts.iter().filter_map(|it| it.get(&character)).sum();
        if must || is_looked_up(character as u32) {
            items.push(Item { pairs, cost: None });
        } else if cost > 0.0 {
            items.push(Item { pairs, cost: Some(cost) });
        }
    }
    if asked(family, '\u{80}').is_some() {
        // Characters of four bytes are looked up by their first two.
        let four = (0xF0..0xF5).flat_map(|lead| (0x80..0xC0).map(move |next| vec![[lead, next]]));
        items.extend(four.map(|pairs| Item { pairs, cost: None }));
    }
    items
}

struct Search<'a> {
    items: &'a [Item],
    /// The items in whose pairs a byte stands first, and those in whose pairs it stands next.
    of: [Vec<Vec<usize>>; 2],
    /// The tables, each with a half of a byte that such a byte has.
    halves: Vec<[usize; 2]>,
    sets: Sets,
    is_found: Vec<bool>,
    missed: f64,
}

impl<'a> Search<'a> {
    fn new(items: &'a [Item], sets: Sets) -> Self {
        let mut of = [vec![Vec::new(); 256], vec![Vec::new(); 256]];
        let mut halves = Vec::new();
        for (at, item) in items.iter().enumerate() {
            for [first, next] in item.pairs.iter().map(|it| it.map(usize::from)) {
                of[0][first].push(at);
                of[1][next].push(at);
                halves.extend([[0, first / 16], [1, first % 16], [2, next / 16], [3, next % 16]]);
            }
        }
        halves.sort();
        halves.dedup();
        let mut search = Search { items, of, halves, sets, is_found: Vec::new(), missed: MISSED.0 };
        search.is_found = items.iter().map(|it| search.finds(&it.pairs)).collect();
        search
    }

    /// The sets that a byte is in, first or next.
    fn sets_of(&self, place: usize, byte: u8) -> u8 {
        self.sets[2 * place][(byte >> 4) as usize] & self.sets[2 * place + 1][(byte & 15) as usize]
    }

    fn finds(&self, pairs: &[[u8; 2]]) -> bool {
        pairs.iter().any(|&[first, next]| self.sets_of(0, first) & self.sets_of(1, next) != 0)
    }

    fn cost(&self, at: usize) -> f64 {
        match (self.items[at].cost, self.is_found[at]) {
            (Some(cost), true) => cost,
            (None, false) => self.missed,
            _ => 0.0,
        }
    }

    /// Turns a bit of a table, notes the items that are found now and were not, or the other way, and answers what that costs.
    fn turn(&mut self, table: usize, half: usize, bit: u8, turned: &mut Vec<usize>) -> f64 {
        self.sets[table][half] ^= bit;
        let (place, other) = (table / 2, self.sets[table ^ 1]);
        let mut more = 0.0;
        for rest in (0..16).filter(|&it| other[it] & bit != 0) {
            let byte = if table % 2 == 0 { half * 16 + rest } else { rest * 16 + half };
            for index in 0..self.of[place][byte].len() {
                let at = self.of[place][byte][index];
                if self.finds(&self.items[at].pairs) != self.is_found[at] {
                    more -= self.cost(at);
                    self.is_found[at] ^= true;
                    more += self.cost(at);
                    turned.push(at);
                }
            }
        }
        more
    }

    /// One step, of one bit or of two, at this loss.
    fn step(&mut self, loss: f64, random: &mut Random) {
        let bit = 1 << random.below(8);
        let bits: Vec<[usize; 2]> = (0..1 + random.below(3) / 2).map(|_| self.halves[random.below(self.halves.len())]).collect();
        let mut turned = Vec::new();
        let more: f64 = bits.iter().map(|&[table, half]| self.turn(table, half, bit, &mut turned)).sum();
        if more > 0.0 && (-more / loss).exp() < random.below(1 << 30) as f64 / (1 << 30) as f64 {
            bits.iter().for_each(|&[table, half]| self.sets[table][half] ^= bit);
            turned.iter().for_each(|&at| self.is_found[at] ^= true);
        }
    }
}

/// Marsaglia's xorshift.
struct Random(u64);

impl Random {
    fn below(&mut self, end: usize) -> usize {
        self.0 ^= self.0 << 13;
        self.0 ^= self.0 >> 7;
        self.0 ^= self.0 << 17;
        (self.0 >> 20) as usize % end
    }
}

fn anneal(search: &mut Search, seed: u64, steps: usize, loss: f64) {
    let mut random = Random((seed + 1).wrapping_mul(0x9E37_79B9_7F4A_7C15));
    for step in 0..steps {
        let done = step as f64 / steps as f64;
        search.missed = MISSED.0 + (MISSED.1 - MISSED.0) * done;
        search.step(loss * (LAST_LOSS / loss).powf(done), &mut random);
    }
}

fn run() -> Result<bool, Box<dyn Error>> {
    let words: Vec<String> = args().skip(1).collect();
    let [file, family, seed, steps, loss, names @ ..] = &words[..] else {
        return Err("FILE, NAME, SEED, STEPS and LOSS are needed".into());
    };
    let sets = sets(&read_to_string(file)?, family).ok_or(format!("{file} has no sets by the name {family}"))?;
    let values = values(&read_to_string(ROWS)?).ok_or(format!("{ROWS} has no INDEX and WORDS"))?;
    let is_assigned_asked = file.contains("nf_assigned");
    let is_looked_up = |code: u32| if is_assigned_asked { values[code as usize] == 8 } else { values[code as usize] != 0 };
    let texts: Vec<_> = names.iter().map(|it| read_to_string(it).map(|text| weights(&text))).collect::<Result<_, _>>()?;
    let items = items(family, is_looked_up, &texts);
    let mut search = Search::new(&items, sets);
    anneal(&mut search, seed.parse()?, steps.parse()?, loss.parse()?);
    for (name, table) in TABLES.iter().zip(&search.sets) {
        println!("{name} {table:?},");
    }
    for (name, weights) in names.iter().zip(&texts) {
        let is_found = |it: &(&char, &f64)| asked(family, *it.0).is_some_and(|(pairs, _)| search.finds(&pairs));
        println!("{:6.2} of 1000: {name}", weights.iter().filter(is_found).map(|it| it.1).sum::<f64>() + 0.0);
    }
    let missed = items.iter().filter(|it| it.cost.is_none() && !search.finds(&it.pairs)).count();
    println!("{missed:6} that must be found are not");
    Ok(missed == 0)
}

fn main() -> ExitCode {
    match run() {
        Ok(finds_all) => ExitCode::from(u8::from(!finds_all)),
        Err(error) => {
            eprintln!("sets: {error}");
            ExitCode::from(2)
        }
    }
}
