//! Images that no text within its ceiling has but that pass: nesting far
//! beyond 24, up to 2,048 operators, operands and actions; and images one
//! past a ceiling, which do not.

use crate::held::{self, Loan};
use crate::{Failure, Harness};
use second::calls::store_size;
use second::description::*;
use second::image::image;
use second::record::RECORD;
use second::trials::random::Random;
use second::value::Bits;

/// What is counted besides the nested expression: a store, an operation's name, a goto.
const BESIDES: usize = 3;
const COUNTED: usize = 2_048;

pub fn some_deep(harness: &mut Harness) -> Result<(), Failure> {
    let random = &mut harness.random;
    let (kind, outline) = match random.below(5) {
        0 => ("at a ceiling", ceiling(random)),
        1 => return most_work(harness),
        2 => ("deep in actions", deep_actions(random)),
        _ => ("deep in an expression", deep_expression(random)),
    };
    let description = second::judged(outline).map_err(|refusal| format!("{kind}: {refusal:?}"))?;
    run_image(harness, kind, &description)
}

fn run_image(harness: &mut Harness, kind: &str, description: &Description) -> Result<(), Failure> {
    let image = image(description);
    let size = store_size(description);
    let (refusal, store, record) = held::open(harness, kind, &image, [size, RECORD])?;
    held::lookups(harness, kind, &image, 0)?;
    if refusal > 0 {
        return Ok(());
    }
    let mut loan = Loan { image, store, record, scratch: 4 * size, trace: 0 };
    held::cycle(harness, kind, &mut loan, &[])?;
    held::run(harness, kind, &mut loan, &[], 3).map(|_| ())
}

fn name(text: &str) -> Name {
    Name { text: text.to_string(), place: 0 }
}

fn constant(number: usize, length: usize) -> Constant {
    Constant { value: Bits::from_number(number, length), bare: false, place: 0 }
}

fn whole(text: &str) -> Reference {
    Reference { name: name(text), subscripts: Vec::new() }
}

fn facility(text: &str, kind: Kind) -> Facility {
    Facility { name: name(text), dimensions: Vec::new(), kind }
}

/// One bit A, two bits X, and a terminal T; operation O in state P, which goes on to itself.
fn outline(actions: Vec<Action>) -> Outline {
    let bits = Dimension { first: Some(constant(0, 16)), last: constant(1, 16) };
    let register = || Kind::Register { sequencing: false };
    let mut two_bits = facility("X", register());
    two_bits.dimensions.push(bits);
    let state = State {
        place: 0,
        label: Some(name("P")),
        value: None,
        actions: vec![Action::Operation(name("O")), Action::Goto(name("P"))],
    };
    Outline {
        facilities: vec![facility("A", register()), two_bits, facility("T", Kind::Plain)],
        operations: vec![Operation { name: name("O"), actions }],
        states: vec![state],
    }
}

fn before(operator: Prefix, operand: Expression) -> Expression {
    Expression::Prefix { operator, place: 0, operand: Box::new(operand) }
}

/// The first bit of an expression.
fn first(operand: Expression) -> Expression {
    let count = constant(1, 16);
    Expression::Counted { operator: Counted::Head, place: 0, operand: Box::new(operand), count }
}

/// An expression of one bit around another, and how many it counts.
fn around(inner: Expression, random: &mut Random) -> (Expression, usize) {
    let operand = || Box::new(Expression::Reference(whole("A")));
    let inner_box = Box::new(inner);
    match random.below(7) {
        0 => (before(random.pick(&[Prefix::Complement, Prefix::ReduceOr, Prefix::ReduceXor]), *inner_box), 1),
        1 => (first(before(Prefix::Negate, *inner_box)), 2),
        2 => (Expression::Infix { operator: Infix::Xor, place: 0, left: operand(), right: inner_box }, 2),
        3 => (Expression::Infix { operator: Infix::Less, place: 0, left: inner_box, right: operand() }, 2),
        4 => {
            let subscripts = vec![Subscript::Single(*inner_box)];
            (Expression::Reference(Reference { name: name("X"), subscripts }), 1)
        }
        5 => (first(*inner_box), 1),
        _ => {
            let arms = if random.chance(50) { vec![*operand(), *inner_box] } else { vec![*inner_box, *operand()] };
            let conditional = Conditional { choice: Choice::Case, place: 0, condition: *operand(), arms };
            (Expression::Conditional(Box::new(conditional)), 3)
        }
    }
}

/// Nested as far as the count allows, or with one too many.
fn deep_expression(random: &mut Random) -> Outline {
    let past = random.chance(30) as usize;
    let goal = random.pick(&[30, 300, COUNTED - BESIDES + past]);
    let mut expression = Expression::Reference(whole("A"));
    let mut counted = 1;
    while counted < goal {
        let room = goal - counted;
        let (outer, more) = match room {
            1 | 2 => (before(Prefix::Complement, expression), 1),
            _ => around(expression, random),
        };
        (expression, counted) = (outer, counted + more);
    }
    outline(vec![Action::Store { left: vec![whole("A")], sign: 0, delayed: true, right: expression }])
}

/// IF within IF; the innermost sets the terminal.
fn deep_actions(random: &mut Random) -> Outline {
    let levels = random.pick(&[30, 300, (COUNTED - BESIDES) / 2, (COUNTED - BESIDES) / 2 + 1]);
    let mut action = Action::Set { left: whole("T"), sign: 0 };
    for _ in 0..levels {
        let condition = before(Prefix::Complement, Expression::Reference(whole("A")));
        let plain = Expression::Reference(whole("A"));
        let condition = if levels <= 300 { condition } else { plain };
        let otherwise = random.chance(20) && levels <= 300;
        let choice = if otherwise { Choice::Case } else { Choice::If };
        let mut arms = vec![vec![action]];
        if otherwise {
            arms.insert(random.below(2), vec![Action::Set { left: whole("T"), sign: 0 }]);
        }
        action = Action::Conditional(Conditional { choice, place: 0, condition, arms });
    }
    outline(vec![action])
}

/// As many facilities, operations or states as there may be, or one more.
fn ceiling(random: &mut Random) -> Outline {
    let past = random.below(2);
    let mut outline = outline(vec![Action::Set { left: whole("T"), sign: 0 }]);
    match random.below(3) {
        0 => {
            for number in outline.facilities.len()..256 + past {
                outline.facilities.push(facility(&format!("F{number}"), Kind::Input));
            }
        }
        1 => {
            for number in outline.operations.len()..128 + past {
                let actions = vec![Action::Operation(name("O"))];
                outline.operations.push(Operation { name: name(&format!("O{number}")), actions });
            }
        }
        _ => {
            while outline.states.len() < 256 + past {
                outline.states.push(State { place: 0, label: None, value: None, actions: Vec::new() });
            }
        }
    }
    outline
}

/// Operations that double each other's work, and a state that needs 65,536 in all, or one more.
fn most_work(harness: &mut Harness) -> Result<(), Failure> {
    let set = || Action::Set { left: whole("T"), sign: 0 };
    let perform = |number: usize| Action::Operation(name(&format!("D{number}")));
    let mut outline = outline(vec![set()]);
    for number in 0..15 {
        let actions = if number == 0 { vec![set()] } else { vec![perform(number - 1), perform(number - 1)] };
        outline.operations.push(Operation { name: name(&format!("D{number}")), actions });
    }
    // D0 needs 1 and each other 2 more than twice the one before it; naming it needs 1.
    outline.states[0].actions = [14, 12, 10, 8, 6, 4, 2, 2].map(perform).to_vec();
    outline.states.push(State { place: 0, label: None, value: None, actions: Vec::new() });
    let mut description = second::judged(outline).map_err(|refusal| format!("most work: {refusal:?}"))?;
    if harness.random.chance(50) {
        description.outline.states[0].actions.push(set());
    }
    run_image(harness, "of the most work", &description)
}
