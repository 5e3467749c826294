//! Texts that ask for much stack: long lists, long chains, deep nesting, many
//! names; legal, and at fault where it is found last.

use crate::module;
use crate::painted::Stacks;
use crate::reading::text_at_the_ceilings;

const LARGEST_IMAGE: usize = 165_556;
const LARGEST_TEXT: usize = 32_768;
/// Brackets in an operation, whose own is the twenty-fourth.
const NESTED: usize = 23;
/// What every text but the one at the ceilings ends with.
const END: &str = "->P/.\n";

pub struct Text {
    pub name: String,
    pub text: Vec<u8>,
    /// What the image's buffer has room for.
    room: usize,
    /// What reading answers.
    refusal: u32,
}

impl Text {
    pub fn legal(name: &str, text: Vec<u8>) -> Text {
        Text { name: name.to_string(), text, room: LARGEST_IMAGE, refusal: 0 }
    }

    fn refused(&self, fault: &str, text: Vec<u8>, refusal: u32) -> Text {
        Text { name: format!("{}, {fault}", self.name), text, room: LARGEST_IMAGE, refusal }
    }

    /// The stack that reading takes, and the image, which is empty where the text is refused.
    pub fn taken(&self, stacks: &Stacks) -> Result<(usize, Vec<u8>), String> {
        let mut image = vec![0; self.room];
        let mut answer = Default::default();
        let bytes = stacks.needed(&mut || answer = module::read(&self.text, &mut image))?;
        image.truncate(answer.length as usize);
        match answer.refusal == self.refusal {
            true => Ok((bytes, image)),
            false => Err(format!("{}: refused {} at {}", self.name, answer.refusal, answer.place)),
        }
    }
}

/// A text whose innermost operand is given.
type Making = fn(&str) -> String;

const DECLARED: &str = "REGISTER A, B, X[0:1], S[6], W[256].\nTERMINAL T";

fn operation(actions: &str) -> String {
    format!("{DECLARED}.\nOPERATION O = [{actions}].\nCONTROL P: O,\n{END}")
}

fn state(actions: &str) -> String {
    format!("{DECLARED}.\nOPERATION O = [A <- B].\nCONTROL P: {actions},\n{END}")
}

fn nested(open: &str, times: usize, inner: &str, close: &str) -> String {
    format!("{}{inner}{}", open.repeat(times), close.repeat(times))
}

fn list(one: &str, times: usize, last: &str) -> String {
    format!("{}{last}", format!("{one},\n").repeat(times))
}

fn chained(operand: &str, sign: &str, times: usize, inner: &str) -> String {
    format!("{inner}{}", format!("\n{sign}{operand}").repeat(times))
}

const FLAT: [(&str, Making); 12] = [
    ("a flat list of 2,043 operations", |name| state(&list("O", 2_041, &format!("O,\nIF {name} THEN O ENDIF")))),
    ("an operation of 1,020 stores", |name| operation(&list("A<-B", 1_019, &format!("A<-{name}")))),
    ("an operation of 1,020 stores to two", |name| operation(&list("A CON B<-X", 1_019, &format!("A<-{name}")))),
    ("2,040 times @", |name| operation(&list("T@", 2_039, &format!("A<-{name}")))),
    ("1,020 products", |name| operation(&format!("A<-{}", chained("B", "*", 1_020, name)))),
    ("four times 254 differences", |name| {
        let store = |first: &str| format!("A<-{} TAIL 1", chained("B", "(-)", 254, first));
        operation(&list(&store("B"), 3, &store(name)))
    }),
    ("2,040 HEADs", |name| operation(&format!("A<-{}", chained("1", "HEAD ", 2_040, name)))),
    ("1,020 products of 256 bits", |name| operation(&format!("W<-{}", chained("256D1", "*", 1_020, name)))),
    ("1,019 stores of 256 bits", |name| operation(&list("W<-256D1", 1_019, &format!("A<-{name}")))),
    ("a CASE of 64 arms", |name| operation(&format!("A<-CASE S\n{}DO {name} ENDCASE", "DO B\n".repeat(63)))),
    ("a CASE of 64 arms of actions", |name| {
        operation(&format!("CASE S\n{}DO A<-{name} ENDCASE", "DO T@,A<-B\n".repeat(63)))
    }),
    ("30 CASEs of 64 arms of 256 bits", |name| {
        let case = format!("W<-CASE S\n{}ENDCASE", "DO 256D1\n".repeat(64));
        operation(&list(&case, 30, &format!("A<-{name}")))
    }),
];

/// One operator of each level of precedence, whose right operands are under way.
const UNDER_WAY: &str = "A+A[+]A*A CON A(=)A(+)";

/// The same before each of what is one in another.
fn behind(open: &str, name: &str, close: &str) -> String {
    operation(&format!("X<-\n{}", nested(&format!("{UNDER_WAY}{open}\n"), NESTED, name, close)))
}

const NESTS: [(&str, Making); 21] = [
    ("brackets", |name| operation(&format!("A<-{}", nested("(", NESTED, name, ")")))),
    ("brackets on the right", |name| operation(&format!("A<-{}", nested("A*(", NESTED, name, ")")))),
    ("brackets after 42 products", |name| {
        let open = format!("{}(", "A*".repeat(42));
        operation(&format!("A<-\n{}", nested(&format!("{open}\n"), NESTED, name, ")")))
    }),
    ("brackets before 42 products", |name| {
        operation(&format!("A<-\n{}", nested("(", NESTED, name, &format!("){}\n", "*A".repeat(42)))))
    }),
    ("brackets behind operators", |name| behind("(", name, ")")),
    ("subscripts behind operators", |name| behind("X[", name, "]")),
    ("second subscripts behind operators", |name| {
        behind("M[0,", name, "]").replace("TERMINAL T", "MEMORY M[0:1,0:1].\nTERMINAL T")
    }),
    ("conditionals behind operators", |name| behind("IF 1B0 THEN X ELSE", &format!("X*{name}"), " ENDIF\n")),
    ("conditions behind operators", |name| behind("CASE", &format!("X*{name}"), " DO X DO X DO X DO X ENDCASE\n")),
    ("subscripts", |name| operation(&format!("A<-{}", nested("X[", NESTED, name, "]")))),
    ("subscripts on the left", |name| operation(&format!("{}<-B", nested("X[", NESTED, name, "]")))),
    ("subscripts and 80 HEADs", |name| {
        let close = format!("]{}", "\nHEAD 1".repeat(80));
        operation(&format!("A<-{}", nested("X[", NESTED, name, &close)))
    }),
    ("conditionals", |name| operation(&format!("A<-\n{}", nested("IF 1B1 THEN\n", NESTED, name, " ELSE B ENDIF\n")))),
    ("conditionals in ELSE", |name| {
        operation(&format!("A<-\n{}", nested("IF 1B0 THEN B ELSE\n", NESTED, name, " ENDIF\n")))
    }),
    ("conditionals in conditions", |name| {
        operation(&format!("A<-\n{}", nested("IF\n", NESTED, name, " THEN A ELSE B ENDIF\n")))
    }),
    ("CASEs", |name| operation(&format!("A<-\n{}", nested("CASE 1B0 DO B DO\n", NESTED, name, " ENDCASE\n")))),
    ("prefix operators", |name| {
        operation(&format!("A<-{}", nested("-+RED(-)(\n", NESTED / 4, &format!("-+RED(-){name}"), ")\n")))
    }),
    ("all in turn", |name| {
        let (open, close) = ("-(X[IF 1B1 THEN\n", " ELSE B ENDIF])\n");
        operation(&format!("A<-\n{}", nested(open, NESTED / 4, &format!("((({name})))"), close)))
    }),
    ("IFs of actions", |name| operation(&nested("IF 1B1 THEN\n", NESTED, &format!("A<-{name}"), " ENDIF\n"))),
    ("IFs of actions above brackets", |name| {
        let store = format!("A<-{}", nested("(A*", NESTED - 11, name, ")"));
        operation(&nested("IF 1B1 THEN\n", 11, &store, " ELSE T@ ENDIF\n"))
    }),
    ("IFs of a state", |name| state(&nested("IF 1B1 THEN\n", NESTED, &format!("IF {name} THEN O ENDIF"), " ENDIF\n"))),
];

/// In terminals and states, which have no bracket of their own; and names that name each other, which a cycle
/// follows.
const NAMED: [(&str, Making); 13] = [
    ("brackets in a terminal", |name| {
        let terminal = nested("(", NESTED + 1, name, ")");
        format!("{DECLARED}, C = {terminal}.\nOPERATION O = [A<-C].\nCONTROL P: O,\n{END}")
    }),
    ("conditionals behind operators in a terminal", |name| {
        let open = format!("{UNDER_WAY}IF 1B0 THEN X ELSE\n");
        let terminal = nested(&open, NESTED + 1, &format!("X*{name}"), " ENDIF\n");
        format!("{DECLARED}, C[2] = {terminal}.\nOPERATION O = [X<-C].\nCONTROL P: O,\n{END}")
    }),
    ("subscripts behind operators before @ in a state", |name| {
        let subscripts = nested(&format!("{UNDER_WAY}X[\n"), NESTED, name, "]");
        format!("{DECLARED}, V[0:3].\nOPERATION O = [A<-B].\nCONTROL P: V[{subscripts}]@, O,\n{END}")
    }),
    ("250 terminals of 7 HEADs", |name| terminals(250, name, "", &" HEAD 1".repeat(7))),
    ("100 terminals of 19 HEADs", |name| terminals(100, name, "", &"\nHEAD 1".repeat(19))),
    ("250 terminals of 7 subscripts", |name| terminals(250, name, &"X[".repeat(7), &"]".repeat(7))),
    ("100 terminals of 19 subscripts", |name| terminals(100, name, &"X[".repeat(19), &"]".repeat(19))),
    ("250 terminals of one HEAD, then 700 products", |name| terminals(250, &chained("B", "*", 700, name), "", " HEAD 1")),
    ("250 terminals, then 880 products", |name| terminals(250, &chained("B", "*", 880, name), "", "")),
    ("128 operations", |name| operations(128, 0, name)),
    ("128 operations of 7 IFs", |name| operations(128, 7, name)),
    ("44 operations of 22 IFs", |name| operations(44, 22, name)),
    ("names of 132 letters", |name| {
        let names: Vec<String> = (0..200).map(|number| format!("{}{number:03}", "N".repeat(129))).collect();
        let declared = names.join("\n,\n");
        format!("REGISTER A,\n{declared}\n.\nOPERATION O = [A<-{name},\n{}\n<-A].\nCONTROL P: O,\n{END}", names[199])
    }),
];

fn terminals(count: usize, first: &str, before: &str, behind: &str) -> String {
    let one = |number: usize| match number {
        0 => format!(",\nC0={first}"),
        _ => format!(",\nC{number}={before}C{}{behind}", number - 1),
    };
    let all: String = (0..count).map(one).collect();
    format!("{DECLARED}{all}.\nOPERATION O = [A<-C{}].\nCONTROL P: O,\n{END}", count - 1)
}

fn operations(count: usize, ifs: usize, name: &str) -> String {
    let one = |number: usize| {
        let action = if number == 0 { format!("A<-{name}") } else { format!("O{}", number - 1) };
        format!("O{number}=[{}]", nested("IF 1B1 THEN\n", ifs, &action, " ENDIF\n"))
    };
    let all: Vec<String> = (0..count).map(one).collect();
    format!("{DECLARED}.\nOPERATION {}.\nCONTROL P: O{},\n{END}", all.join(",\n"), count - 1)
}

/// A text as it is made, and with faults that are found at its end and in its innermost operand.
fn and_faults((name, making): &(&str, Making)) -> Vec<Text> {
    let text = making("A");
    let ending = |end: &str| format!("{}{end}", text.strip_suffix(END).unwrap_or(&text)).into_bytes();
    let legal = Text::legal(name, text.clone().into_bytes());
    vec![
        legal.refused("with an unknown name", making("Z").into_bytes(), 4),
        legal.refused("to an unknown state", ending("->Z/.\n"), 4),
        legal.refused("without its period", ending("->P/\n"), 3),
        legal.refused("with a bad constant", ending("IF 3B9 THEN ->P ENDIF/.\n"), 5),
        Text { room: 100, refusal: 12, ..legal.refused("without room", text.clone().into_bytes(), 12) },
        legal,
    ]
}

/// What passes a ceiling, at its end.
fn past_ceilings() -> Vec<Text> {
    let some = Text::legal("a text", Vec::new());
    let long = |bytes: usize| format!("{:<1$}", operation("A<-B"), bytes).replace(' ', "\n").into_bytes();
    let ceilings = text_at_the_ceilings();
    let deep = operation(&format!("A<-{}", nested("(", NESTED + 1, "A", ")")));
    vec![
        Text::legal("a text at the ceilings", ceilings.clone().into_bytes()),
        some.refused(
            "at the ceilings, to an unknown state",
            ceilings.replacen("->SADDRESS000", "->SADDRESS999", 1).into_bytes(),
            4,
        ),
        some.refused("past nesting 24", deep.into_bytes(), 10),
        some.refused("past 2,048", operation(&list("A<-B", 1_023, "A<-B")).into_bytes(), 10),
        some.refused("past its length", long(LARGEST_TEXT + 1), 1),
        Text::legal("a text of the most bytes", long(LARGEST_TEXT)),
    ]
}

/// Some hundred records of an ordinary kind: counters that are loaded, counted and compared.
fn ordinary() -> Text {
    let register = |number: usize| format!("R{number}[16]");
    let registers: Vec<String> = (0..9).map(register).collect();
    let count = |number: usize| {
        format!(
            "O{number}=[IF R{number} < 16D9 THEN R{number} <- (R{number} (+) 16D1) TAIL 16\n\
             ELSE R{number} <- R{} * 16D255, A <- R{number}[1] ENDIF]",
            (number + 1) % 9
        )
    };
    let operations: Vec<String> = (0..9).map(count).collect();
    let names: Vec<String> = (0..9).map(|number| format!("O{number}")).collect();
    let [registers, operations, names] = [registers.join(",\n"), operations.join(",\n"), names.join(", ")];
    let text = format!("REGISTER A, {registers}.\nOPERATION {operations}.\nCONTROL P: {names},\n{END}");
    Text::legal("counters", text.into_bytes())
}

/// The largest number that decimal digits make a value of.
fn decimal() -> Text {
    let ones = "115792089237316195423570985008687907853269984665640564039457584007913129639935";
    Text::legal("a decimal of 256 bits", operation(&format!("W<-\n256D{ones}")).into_bytes())
}

/// So many of those above, each with its faults, and the others.
pub fn texts(most: usize) -> Vec<Text> {
    let made = FLAT.iter().chain(&NESTS).chain(&NAMED).take(most).flat_map(and_faults);
    made.chain(past_ceilings()).chain([ordinary(), decimal()]).collect()
}
