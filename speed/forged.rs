//! Forged images, which are refused: nested deeper than any that passes, or
//! at fault where the check comes last.

use crate::calls::{Case, Outcome};
use crate::chains::{levels, Around, Chain, Leaf, Level, Stand, ARMS, SOUND, STANDS, SUBSCRIPTS, UNKNOWN};
use crate::deep::{in_state, through_operations, through_terminals, Ceilings, Plan};
use crate::records::Sketch;

fn case(name: impl Into<String>, sketch: &Sketch) -> Case {
    Case { name: name.into(), image: sketch.image(), outcome: Outcome::Refused }
}

/// Arms where an expression should stand, alone and in turn with every level.
fn arms(ceilings: Ceilings) -> Vec<Case> {
    let full = |levels: &[Level]| ceilings.full(|count| Plan::right(levels, SOUND).sketch(count));
    let alone = ARMS.iter().map(|arm| case(format!("{} in turn", arm.name), &full(&[*arm])));
    let both = levels().into_iter().map(|level| case(format!("arms and {}", level.name), &full(&[ARMS[0], level])));
    alone.chain(both).collect()
}

/// The same wherever an expression can stand, and as a state's value.
fn standing(ceilings: Ceilings) -> Vec<Case> {
    let turns = [ARMS[0], SUBSCRIPTS[0]];
    let places = STANDS.into_iter().chain([(Stand::Value, "as a state's value")]);
    let one = |(stand, place)| {
        let plan = Plan { stand, ..Plan::right(&turns, SOUND) };
        case(format!("arms and subscripts {place}"), &ceilings.full(|count| plan.sketch(count)))
    };
    let chain = Chain { levels: &turns, leaf: SOUND };
    let state = case("arms and subscripts in a state", &ceilings.full(|count| in_state(chain, 0, count)));
    places.map(one).chain([state]).collect()
}

/// Chains whose innermost record is at fault, so that every one above it is.
fn innermost(ceilings: Ceilings) -> Vec<Case> {
    let mut cases = Vec::new();
    for level in levels() {
        for (fault, leaf) in [("an unknown facility", UNKNOWN), ("a wrong length", Leaf::TooLong)] {
            let plan = Plan::right(std::slice::from_ref(&level), leaf);
            cases.push(case(format!("{} around {fault}", level.name), &ceilings.full(|count| plan.sketch(count))));
        }
    }
    cases
}

/// Conditionals of actions above arms and subscripts that take what they leave; with a fault below them, and with
/// one that is found last.
fn conditionals(ceilings: Ceilings) -> Vec<Case> {
    let turns = [ARMS[0], SUBSCRIPTS[0]];
    let mut cases = Vec::new();
    for (around, name) in [(Around::If, "IFs"), (Around::LastArm, "CASEs")] {
        let plan = |ifs: usize, leaf: Leaf| Plan { around: (around, ifs), ..Plan::right(&turns, leaf) };
        let most = ceilings.most(|ifs| plan(ifs, UNKNOWN).sketch(0));
        cases.push(case(format!("{name} above an unknown facility"), &plan(most, UNKNOWN).sketch(0)));
        let mut twice = plan(most, SOUND).sketch(0);
        twice.named_twice = true;
        cases.push(case(format!("{name} and a name declared twice"), &twice));
        let arms = Plan { around: (around, most), ..Plan::right(&ARMS[..1], UNKNOWN) };
        cases.push(case(format!("{name} above arms"), &ceilings.full(|count| arms.sketch(count))));
        for parts in [1, 2, 3] {
            let some = plan(most * parts / 4, SOUND);
            let sketch = ceilings.full(|count| some.sketch(count));
            cases.push(case(format!("{name}, {parts} of 4, above arms and subscripts"), &sketch));
        }
    }
    cases
}

/// A fault that is found when all is judged: a name declared twice.
fn found_last(ceilings: Ceilings) -> Vec<Case> {
    let twice = |name: &str, mut sketch: Sketch| {
        sketch.named_twice = true;
        case(format!("{name} and a name declared twice"), &sketch)
    };
    let subscripts = Plan::right(&SUBSCRIPTS[..1], SOUND);
    let operations = ceilings.full(|ifs| through_operations(Around::If, 128, ifs));
    let terminals = ceilings.full(|count| through_terminals(&SUBSCRIPTS[..1], 60, count));
    vec![
        twice("subscripts", ceilings.full(|count| subscripts.sketch(count))),
        twice("IFs in operations", operations),
        twice("subscripts in terminals", terminals),
    ]
}

/// `@` to arms, so many deep, around a facility: as many as there may be.
fn many_arms(arms: usize, last: usize) -> Sketch {
    let mut sketch = Sketch::default();
    for action in 0..2_040 {
        let deep = if action == 2_039 { last } else { arms };
        let left = Chain { levels: &ARMS[..1], leaf: SOUND }.write(&mut sketch, deep);
        sketch.action(5, [left, 0, 0]);
    }
    sketch.end_operation();
    sketch.action(6, [0; 3]);
    sketch
}

/// At the most expressions and the deepest that the check looks into, and one past each.
fn ceilings_of_the_check() -> Vec<Case> {
    let besides = many_arms(16, 0).expression_records();
    let most = 34_816 - besides;
    let deepest = |count: usize| Plan::right(&ARMS[..1], SOUND).sketch(count);
    let ifs = |count: usize| Plan { around: (Around::If, count), ..Plan::right(&[], SOUND) }.sketch(0);
    vec![
        case("34,816 expressions", &many_arms(16, most)),
        case("34,817 expressions", &many_arms(16, most + 1)),
        case("depth 4,097", &deepest(4_096)),
        case("depth 4,098", &deepest(4_097)),
        case("4,095 actions", &ifs(2_046)),
        case("4,097 actions", &ifs(2_047)),
    ]
}

/// Nothing of an image.
fn no_images() -> Vec<Case> {
    let sketch = Plan::right(&[], SOUND).sketch(0);
    let mut cut = case("an image cut short", &sketch);
    cut.image.pop();
    let mut zeroes = case("zeroes", &sketch);
    zeroes.image.fill(0);
    let mut empty = case("no bytes", &sketch);
    empty.image.clear();
    vec![cut, zeroes, empty]
}

pub fn few(ceilings: Ceilings) -> Vec<Case> {
    let chains = [arms, standing, innermost, conditionals, found_last];
    chains.iter().flat_map(|some| some(ceilings)).chain(no_images()).collect()
}

pub fn cases() -> Vec<Case> {
    few(Ceilings::ALL).into_iter().chain(ceilings_of_the_check()).collect()
}
