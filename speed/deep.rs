//! Images nested as deep as the ceilings allow, which pass; and the same with
//! few records.

use crate::calls::{Case, Outcome};
use crate::chains::{levels, Around, Chain, Leaf, Level, Stand, SOUND, STANDS};
use crate::chains::{CONDITIONALS, CUTS, INFIXES, PREFIXES, SUBSCRIPTS};
use crate::records::{Sketch, C};

/// What an image may have.
#[derive(Clone, Copy)]
pub struct Ceilings {
    /// Operators, operands and actions.
    pub counted: usize,
    /// Expressions one in another.
    pub depth: usize,
    /// Expressions and actions.
    pub records: usize,
}

impl Ceilings {
    pub const ALL: Ceilings = Ceilings { counted: 2_048, depth: 4_097, records: 34_816 };

    pub fn few(records: usize) -> Ceilings {
        Ceilings { records, ..Ceilings::ALL }
    }

    fn hold(&self, sketch: &Sketch) -> bool {
        sketch.counted <= self.counted && sketch.depth() <= self.depth && sketch.records() <= self.records
    }

    /// As much of something as an image may have.
    pub fn most(&self, sketch: impl Fn(usize) -> Sketch) -> usize {
        let fits = |count: &usize| self.hold(&sketch(*count));
        let bits = (0..).take_while(|bit| fits(&(1 << bit))).collect::<Vec<u32>>();
        bits.into_iter().rev().fold(0, |most, bit| Some(most + (1 << bit)).filter(fits).unwrap_or(most))
    }

    pub fn full(&self, sketch: impl Fn(usize) -> Sketch) -> Sketch {
        sketch(self.most(&sketch))
    }
}

/// A chain in an action of the operation, below so many conditionals.
#[derive(Clone, Copy)]
pub struct Plan<'a> {
    pub around: (Around, usize),
    pub stand: Stand,
    pub chain: Chain<'a>,
}

impl<'a> Plan<'a> {
    pub fn right(levels: &'a [Level], leaf: Leaf) -> Plan<'a> {
        Plan { around: (Around::If, 0), stand: Stand::Right, chain: Chain { levels, leaf } }
    }

    pub fn sketch(&self, count: usize) -> Sketch {
        let mut sketch = Sketch::default();
        if self.stand == Stand::Terminal {
            let expression = self.chain.write(&mut sketch, count);
            sketch.end_terminal(expression);
        }
        let (around, ifs) = self.around;
        around.write(&mut sketch, ifs, |sketch| self.stand.write(sketch, self.chain, count));
        sketch.end_operation();
        if self.stand == Stand::Value {
            sketch.value = Some(self.chain.write(&mut sketch, count));
        }
        sketch.action(6, [0; 3]);
        sketch.action(7, [0; 3]);
        sketch
    }
}

/// A chain in the condition of an IF in the state, below so many others.
pub fn in_state(chain: Chain, ifs: usize, count: usize) -> Sketch {
    let mut sketch = Plan::right(&[], SOUND).sketch(0);
    Around::If.write(&mut sketch, ifs, |sketch| {
        let condition = chain.write(sketch, count);
        let conditional = sketch.action(10, [condition, 0, 0]);
        let arm = sketch.action(12, [0; 3]);
        sketch.action(6, [0; 3]);
        sketch.hold(arm, 0);
        sketch.hold(conditional, 1);
    });
    sketch
}

/// Operations, each of which names the one before it below so many conditionals.
pub fn through_operations(around: Around, operations: usize, ifs: usize) -> Sketch {
    let mut sketch = Sketch::default();
    for operation in 0..operations as u16 {
        let inner = |sketch: &mut Sketch| match operation.checked_sub(1) {
            Some(before) => {
                sketch.action(6, [before, 0, 0]);
            }
            None => Stand::Right.write(sketch, Chain { levels: &[], leaf: SOUND }, 0),
        };
        around.write(&mut sketch, ifs, inner);
        sketch.end_operation();
    }
    sketch.action(6, [operations as u16 - 1, 0, 0]);
    sketch.action(7, [0; 3]);
    sketch
}

/// Terminals, each of which has so many levels around the one before it.
pub fn through_terminals(levels: &[Level], terminals: u8, count: usize) -> Sketch {
    let mut sketch = Sketch::default();
    for terminal in 0..terminals {
        let leaf = if terminal == 0 { SOUND } else { Leaf::Whole(C + (terminal - 1)) };
        let expression = Chain { levels, leaf }.write(&mut sketch, count);
        sketch.end_terminal(expression);
    }
    Stand::Right.write(&mut sketch, Chain { levels: &[], leaf: Leaf::Whole(C + (terminals - 1)) }, 0);
    sketch.end_operation();
    sketch.action(6, [0; 3]);
    sketch.action(7, [0; 3]);
    sketch
}

fn case(name: String, sketch: &Sketch, outcome: Outcome) -> Case {
    Case { name, image: sketch.image(), outcome }
}

/// Each level alone, on the right side of a store.
fn alone(ceilings: Ceilings) -> Vec<Case> {
    let one = |level: &Level| {
        let plan = Plan::right(std::slice::from_ref(level), SOUND);
        case(level.name.to_string(), &ceilings.full(|count| plan.sketch(count)), Outcome::Completes)
    };
    levels().iter().map(one).collect()
}

/// Families of levels in turn, and all of them, wherever an expression can stand.
fn standing(ceilings: Ceilings) -> Vec<Case> {
    let all = levels();
    let families: [(&str, &[Level]); 6] = [
        ("prefix operators", &PREFIXES[..3]),
        ("cuts", &CUTS),
        ("infix operators", &INFIXES),
        ("subscripts", &SUBSCRIPTS[..1]),
        ("conditionals", &CONDITIONALS),
        ("all levels", &all),
    ];
    let mut cases = Vec::new();
    for (family, levels) in families {
        for (stand, place) in STANDS {
            let plan = Plan { stand, ..Plan::right(levels, SOUND) };
            let sketch = ceilings.full(|count| plan.sketch(count));
            cases.push(case(format!("{family} {place}"), &sketch, Outcome::Completes));
        }
        let chain = Chain { levels, leaf: SOUND };
        let sketch = ceilings.full(|count| in_state(chain, 0, count));
        cases.push(case(format!("{family} in a state"), &sketch, Outcome::Completes));
    }
    cases
}

/// The innermost is wide, or stops the cycle.
fn innermost(ceilings: Ceilings) -> Vec<Case> {
    let all = levels();
    let families: [(&str, &[Level]); 3] =
        [("subscripts", &SUBSCRIPTS[..1]), ("complements", &PREFIXES[..1]), ("all levels", &all)];
    let leaves = [("wide", Leaf::Wide, Outcome::Completes), ("a stop", Leaf::Stops, Outcome::Stops(1))];
    let mut cases = Vec::new();
    for (family, levels) in families {
        for (name, leaf, outcome) in leaves {
            let sketch = ceilings.full(|count| Plan::right(levels, leaf).sketch(count));
            cases.push(case(format!("{family} around {name}"), &sketch, outcome));
        }
    }
    cases
}

const AROUND: [(Around, &str); 3] =
    [(Around::If, "IFs"), (Around::FirstArm, "CASEs in first arms"), (Around::LastArm, "CASEs in last arms")];

/// Conditionals of actions one in another: alone; above an expression that takes what they leave; in operations that
/// name each other; in the state.
fn conditionals(ceilings: Ceilings) -> Vec<Case> {
    let mut cases = Vec::new();
    let mut add = |name: String, sketch: Sketch| cases.push(case(name, &sketch, Outcome::Completes));
    for (around, name) in AROUND {
        let plan = |ifs: usize| Plan { around: (around, ifs), ..Plan::right(&SUBSCRIPTS[..1], SOUND) };
        let most = ceilings.most(|ifs| plan(ifs).sketch(0));
        add(name.to_string(), plan(most).sketch(0));
        for parts in [1, 2, 3] {
            let half = plan(most * parts / 4);
            add(format!("{name}, {parts} of 4, above subscripts"), ceilings.full(|count| half.sketch(count)));
        }
        let through = |ifs: usize| through_operations(around, 128, ifs);
        add(format!("{name} in 128 operations"), ceilings.full(through));
        let few = |ifs: usize| through_operations(around, 16, ifs);
        add(format!("{name} in 16 operations"), ceilings.full(few));
    }
    let chain = Chain { levels: &SUBSCRIPTS[..1], leaf: SOUND };
    add("IFs in the state".to_string(), ceilings.full(|ifs| in_state(chain, ifs, 0)));
    add("IFs in the state above subscripts".to_string(), ceilings.full(|both| in_state(chain, both / 4, both / 2)));
    cases
}

/// Terminals that name each other.
fn terminals(ceilings: Ceilings) -> Vec<Case> {
    let all = levels();
    let families: [(&str, &[Level]); 3] =
        [("HEAD", &CUTS[1..2]), ("subscripts", &SUBSCRIPTS[..1]), ("all levels", &all)];
    let mut cases = Vec::new();
    for (family, levels) in families {
        let fits = |terminals: &u8| ceilings.hold(&through_terminals(levels, *terminals, 0));
        for terminals in [16, 60, 250].into_iter().filter(fits) {
            let sketch = ceilings.full(|count| through_terminals(levels, terminals, count));
            cases.push(case(format!("{family} in {terminals} terminals"), &sketch, Outcome::Completes));
        }
    }
    cases
}

pub fn cases(ceilings: Ceilings) -> Vec<Case> {
    [alone, standing, innermost, conditionals, terminals].iter().flat_map(|some| some(ceilings)).collect()
}
