//! A second opinion on the grammar: the manual's Appendix B as a table, less
//! what is left out. From it come the words that can begin a legal text, by
//! Earley's method, and words that obey the grammar but no later rule.

use crate::trials::random::Random;
use crate::words::{PlacedWord, Word};
use std::collections::{BTreeMap, BTreeSet};

/// One notion a line; `name`, `constant` and `same` (the last name again) are
/// kinds of words, what begins with a small letter otherwise is a notion, and
/// anything else is that word. `~` stands for nothing.
const TABLE: &str = "
text      = facilities operations CONTROL states end dollar
dollar    = ~ | $
end       = . | END
facilities = registers | registers memories | registers terminals | registers memories terminals
facilities = memories | memories terminals | terminals
registers = REGISTER registerlist end
registerlist = register | registerlist , register
register  = plain | # plain
plain     = name | name [ bounds ] | name [ bounds , bounds ]
bounds    = constant | constant : constant
memories  = MEMORY memorylist end
memorylist = plain | memorylist , plain
terminals = TERMINAL terminallist end
terminallist = terminal | terminallist , terminal
terminal  = plain | name function | name [ bounds ] function
function  = = expression | = INPUT ( constant , same )
operations = ~ | OPERATION operationlist | OPERATION operationlist end
operationlist = operation | operationlist , operation
operation = name = [ actions ]
actions   = action | actions , action
action    = left <- expression | left = expression | reference @ | name
action    = CASE expression cases ENDCASE | IF expression THEN actions ENDIF
action    = IF expression THEN actions ELSE actions ENDIF
cases     = DO actions | cases DO actions
left      = reference | reference CON reference
states    = state | states state
state     = / | stateactions / | label / | label stateactions /
label     = name : | name ( constant ) :
stateactions = stateaction | stateactions , stateaction
stateaction = name | reference @ | -> name | => name | RETURN
stateaction = CASE expression statecases ENDCASE | IF expression THEN stateactions ENDIF
stateaction = IF expression THEN stateactions ELSE stateactions ENDIF
statecases = DO stateactions | statecases DO stateactions
reference = name | name [ expression ] | name [ expression , expression ] | name [ expression ] [ expression ]
reference = name [ part ] | name [ expression , part ] | name [ expression ] [ part ]
part      = constant : constant
expression = minterm | expression + minterm
minterm   = product | minterm [+] product
product   = complement | product * complement
complement = chain | - chain
chain     = reduction | chain CON reduction
reduction = adjustment | + RED adjustment | * RED adjustment | [+] RED adjustment | (+) RED adjustment
adjustment = relation | adjustment EXT constant | adjustment TAIL constant | adjustment HEAD constant
relation  = arithmetic | arithmetic (=) arithmetic | arithmetic # arithmetic | arithmetic < arithmetic
relation  = arithmetic > arithmetic | arithmetic >= arithmetic | arithmetic <= arithmetic
arithmetic = term | (-) term | arithmetic (+) term | arithmetic (-) term
term      = reference | constant | ( expression ) | IF expression THEN expression ELSE expression ENDIF
term      = CASE expression DO expression expressions ENDCASE
expressions = DO expression | expressions DO expression
";

type Rules = BTreeMap<&'static str, Vec<Vec<&'static str>>>;

fn rules() -> Rules {
    let mut rules = Rules::new();
    for line in TABLE.lines().filter(|line| !line.is_empty()) {
        let mut parts = line.split_whitespace();
        let notion = parts.next().unwrap_or_default();
        let ways: Vec<&str> = parts.skip(1).collect();
        let ways = ways.split(|&part| part == "|").map(|way| way.iter().copied().filter(|&part| part != "~").collect());
        rules.entry(notion).or_default().extend(ways);
    }
    rules
}

/// A way of a notion, read up to `done`, that began before word `from`.
#[derive(Clone, PartialEq, Eq, PartialOrd, Ord)]
struct Item {
    notion: &'static str,
    way: usize,
    done: usize,
    from: usize,
}

struct Reading {
    rules: Rules,
    sets: Vec<BTreeSet<Item>>,
}

/// The first word that no legal text has here, the number of words if only
/// the rest is missing, or none for a legal text.
pub fn first_misplaced(words: &[PlacedWord]) -> Option<usize> {
    let mut reading = Reading { rules: rules(), sets: vec![BTreeSet::new()] };
    let start: Vec<Item> = reading.begun("text", 0);
    reading.sets[0].extend(start);
    reading.close();
    let mut last_name = None;
    for (number, placed) in words.iter().enumerate() {
        let set = reading.after(&placed.word, last_name);
        if set.is_empty() {
            return Some(number);
        }
        reading.sets.push(set);
        reading.close();
        if let Word::Name(name) = &placed.word {
            last_name = Some(name);
        }
    }
    let whole = |item: &Item| item.notion == "text" && item.from == 0 && reading.next(item).is_none();
    let legal = reading.sets[words.len()].iter().any(whole);
    if legal {
        None
    } else {
        Some(words.len())
    }
}

fn is_word(part: &str, word: &Word, last_name: Option<&String>) -> bool {
    match (part, word) {
        ("name", Word::Name(_)) | ("constant", Word::Constant { .. }) => true,
        ("same", Word::Name(name)) => Some(name) == last_name,
        (_, Word::Sign(sign)) => part == *sign,
        _ => false,
    }
}

impl Reading {
    fn begun(&self, notion: &'static str, from: usize) -> Vec<Item> {
        (0..self.rules[notion].len()).map(|way| Item { notion, way, done: 0, from }).collect()
    }

    fn next(&self, item: &Item) -> Option<&'static str> {
        self.rules[item.notion][item.way].get(item.done).copied()
    }

    fn after(&self, word: &Word, last_name: Option<&String>) -> BTreeSet<Item> {
        let last = &self.sets[self.sets.len() - 1];
        let reads = |item: &&Item| self.next(item).is_some_and(|part| is_word(part, word, last_name));
        last.iter().filter(reads).map(advanced).collect()
    }

    /// Adds what may begin or has ended here, until nothing is new.
    fn close(&mut self) {
        let here = self.sets.len() - 1;
        let mut waiting: Vec<Item> = self.sets[here].iter().cloned().collect();
        while let Some(item) = waiting.pop() {
            let found = match self.next(&item) {
                Some(part) if self.rules.contains_key(part) => {
                    // A notion that may be empty is passed over at once.
                    let empty = self.rules[part].iter().any(Vec::is_empty);
                    let mut found = self.begun(part, here);
                    found.extend(empty.then(|| advanced(&item)));
                    found
                }
                Some(_) => Vec::new(),
                None => self.awaiting(item.notion, item.from),
            };
            let new = |item: &Item| self.sets[here].insert(item.clone());
            waiting.extend(found.into_iter().filter(new).collect::<Vec<_>>());
        }
    }

    /// The items that waited for a notion begun there, now one part further.
    fn awaiting(&self, notion: &'static str, from: usize) -> Vec<Item> {
        let waits = |item: &&Item| self.next(item) == Some(notion);
        self.sets[from].iter().filter(waits).map(advanced).collect()
    }
}

fn advanced(item: &Item) -> Item {
    Item { done: item.done + 1, ..item.clone() }
}

const CONSTANTS: [&str; 12] = ["0", "1", "2", "3", "4", "16", "1B1", "1B0", "2B10", "4HA", "2D3", "17D65536"];

const LEVELS: [&str; 11] = [
    "expression",
    "minterm",
    "product",
    "complement",
    "chain",
    "reduction",
    "adjustment",
    "relation",
    "arithmetic",
    "term",
    "reference",
];

/// Words that obey the grammar, made from the table.
pub fn derived(random: &mut Random) -> Vec<String> {
    let mut derivation = Derivation { rules: rules(), words: Vec::new(), names: Vec::new(), left: 1_000 };
    derivation.notion("text", random);
    derivation.words
}

struct Derivation {
    rules: Rules,
    words: Vec<String>,
    names: Vec<String>,
    /// How many notions may still take another than their first, shortest way.
    left: usize,
}

impl Derivation {
    fn notion(&mut self, notion: &'static str, random: &mut Random) {
        let ways = self.rules[notion].len();
        // Expressions have many levels; free ways on each would nest too deeply.
        let often = if LEVELS.contains(&notion) { 15 } else { 60 };
        let free = self.left > 0 && random.chance(often);
        self.left = self.left.saturating_sub(1);
        let way = if free { random.below(ways) } else { 0 };
        let declares = ["plain", "terminal", "operation", "label"].contains(&notion);
        for part in self.rules[notion][way].clone() {
            match part {
                "name" => self.name(declares, random),
                "same" => self.words.extend(self.words.iter().rev().find(|word| self.names.contains(word)).cloned()),
                "constant" => self.words.push(random.pick(&CONSTANTS).to_string()),
                part if self.rules.contains_key(part) => self.notion(part, random),
                sign => self.words.push(sign.to_string()),
            }
        }
    }

    /// A new name where one is declared, mostly; elsewhere an old one, mostly.
    fn name(&mut self, declares: bool, random: &mut Random) {
        if self.names.is_empty() || declares != random.chance(3) {
            self.names.push(format!("N{}", self.names.len()));
            self.words.extend(self.names.last().cloned());
        } else {
            self.words.push(random.pick(&self.names));
        }
    }
}
