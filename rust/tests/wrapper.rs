//! What the wrapper adds to the calls: messages, names, words and stimuli.

use ddlp::{Bounds, Halt, Image, Kind, Refusal, Run, Stimulus, StimulusError, Stop};
use ddlp::{SMALL_RECORDS, STACK_MOST, STACK_READ, STACK_SMALL, STACK_TEXT};

const TEXT: &[u8] = b"REGISTER A[9], #S[2].
MEMORY M[7:0,12].
TERMINAL GO = INPUT(1,GO), N[3] = INPUT(1,N), ODD = A[9].
OPERATION COUNT = [A <- (A (+) 9D1) TAIL 9, M[N] = 3B0 CON A].
CONTROL P(1): COUNT, IF GO THEN =>P ELSE ->P ENDIF/ Q(2): RETURN/.
";

fn image() -> Image {
    Image::read(TEXT).expect("the text is legal")
}

fn stimulus<'a>(image: &'a Image, go: &str, n: &str) -> Stimulus<'a> {
    let mut stimulus = image.stimulus();
    stimulus.set("go", go).expect("GO has one bit");
    stimulus.set("N", n).expect("N has three bits");
    stimulus
}

#[test]
fn a_refused_text_says_where() {
    let error = Image::read(b"REGISTER A. CONTROL B/.").expect_err("B is not declared");
    assert_eq!((error.refusal, error.place), (Refusal::Name, 20));
    let message = "refused 4: a name is unknown here, of the wrong kind, declared twice, or too long, at byte 20";
    assert_eq!(error.to_string(), message);
}

#[test]
fn facilities_are_found_by_name() {
    let image = image();
    let names: Vec<&str> = image.facilities().map(|facility| facility.name()).collect();
    assert_eq!(names, ["A", "S", "M", "GO", "N", "ODD"]);
    let memory = image.facility_named("m").expect("M is declared");
    assert_eq!((memory.number(), memory.kind(), memory.place()), (2, Kind::Memory, Some(3)));
    assert_eq!((memory.words(), memory.word_count()), (Some(Bounds { first: 7, last: 0 }), 8));
    assert_eq!((memory.bits(), memory.word_length()), (Some(Bounds { first: 1, last: 12 }), 12));
    assert_eq!(memory.word_place(7), Some(3));
    assert_eq!(memory.word_place(8), None);
    assert_eq!(image.facility_named("ODD").and_then(|facility| facility.place()), None);
    assert_eq!(image.facility(6), Err(Refusal::Subscript));
    assert_eq!((image.state_name(1), image.state_name(2)), (Ok("Q"), Err(Refusal::Subscript)));
    assert_eq!((image.facility_count(), image.state_count()), (6, 2));
    assert_eq!((image.store_size(), image.stimulus_size()), (2 + 1 + 16 + 2, 2));
}

#[test]
fn cycles_advance_the_registers() {
    let image = image();
    let mut run = Run::open(&image).expect("the image passes");
    assert_eq!(run.word_named("S").and_then(|word| word.number()), Some(1));
    assert_eq!(run.cycle(stimulus(&image, "0", "101")), Ok(0));
    assert_eq!(run.word_named("A").map(|word| word.to_string()), Some("000000001".to_string()));
    assert_eq!((run.cycles(), run.state()), (1, 0));
    let memory = image.facility_named("M").expect("M is declared");
    assert!(run.set_word(&memory, 2, "111100001111"));
    assert!(!run.set_word(&memory, 2, "1111000011110") && !run.set_word(&memory, 8, "111100001111"));
    assert_eq!(run.word(&memory, 2).and_then(|word| word.number()), Some(0xF0F));
    assert_eq!(run.word(&memory, 2).map(|word| word.length()), Some(12));
}

#[test]
fn the_seventeenth_call_stops() {
    let image = image();
    let mut run = Run::open(&image).expect("the image passes");
    let go = stimulus(&image, "1", "000");
    let stimuli = go.as_ref().repeat(20);
    let mut trace = vec![1; 20 * image.store_size()];
    let ran = run.run(&stimuli, 20, &mut trace).expect("nothing is refused");
    assert_eq!((ran.cycles, ran.stop), (16, Some(Stop::TooManyCalls)));
    assert_eq!(run.cycle(&go), Err(Halt::Stopped(Stop::TooManyCalls)));
    assert_eq!(Stop::TooManyCalls.to_string(), "stop 5: a call with 16 returns held");
    assert_eq!(&trace[15 * image.store_size()..16 * image.store_size()], run.store());
    assert!(trace[16 * image.store_size()..].iter().all(|&byte| byte == 0));
}

#[test]
fn stimuli_are_judged() {
    let image = image();
    let mut run = Run::open(&image).expect("the image passes");
    assert_eq!(image.stimulus().set("A", "1"), Err(StimulusError::NoInput));
    assert_eq!(image.stimulus().set("N", "01"), Err(StimulusError::Bits));
    assert_eq!(image.stimulus().set("N", "012"), Err(StimulusError::Bits));
    assert_eq!(run.cycle([0]), Err(Halt::Refused(Refusal::Stimulus)));
    assert_eq!(run.cycle([0, 8]), Err(Halt::Refused(Refusal::Stimulus)));
}

#[test]
fn extreme_numbers_name_nothing() {
    let image = image();
    for number in [1 << 8, 1 << 16, u32::MAX] {
        assert_eq!(image.facility(number), Err(Refusal::Subscript));
        assert_eq!(image.state_name(number), Err(Refusal::Subscript));
    }
    let all = Bounds { first: u16::MAX, last: 0 };
    assert_eq!((all.span(), all.position(0), all.position(1 << 16)), (1 << 16, Some(65_535), None));
    assert_eq!(Bounds { first: 0, last: u16::MAX }.position(u32::MAX), None);
    let memory = image.facility_named("M").expect("M is declared");
    let mut run = Run::open(&image).expect("the image passes");
    assert_eq!((memory.word_place(u32::MAX), run.word(&memory, u32::MAX)), (None, None));
    assert!(!run.set_word(&memory, u32::MAX, "111100001111") && !run.set_word(&memory, 0, &"1".repeat(1 << 20)));
}

#[test]
fn a_facility_of_another_image_names_nothing() {
    let large = Image::read(b"REGISTER A. MEMORY M[65535:49153,8]. CONTROL P: ->P/.").expect("the text is legal");
    let memory = large.facility_named("M").expect("M is declared");
    assert_eq!(memory.word_place(49_153), Some(1 + 16_382));
    let image = image();
    let mut run = Run::open(&image).expect("the image passes");
    assert_eq!(run.word(&memory, 49_153), None);
    assert!(!run.set_word(&memory, 49_153, "00000000"));
}

#[test]
fn the_longest_run_is_refused_where_it_has_no_room() {
    let image = image();
    let mut run = Run::open(&image).expect("the image passes");
    assert_eq!(run.run(&[], u32::MAX, &mut [0]), Err(Refusal::BufferTooShort));
    assert_eq!(run.run(&[], u32::MAX, &mut []), Err(Refusal::Stimulus));
    assert_eq!(run.cycles(), 0);
}

#[test]
fn kept_bytes_are_taken_up_again() {
    let image = image();
    let mut bytes = image.as_bytes().to_vec();
    bytes.push(7);
    assert_eq!(Image::from_bytes(bytes.clone()).as_ref(), Ok(&image));
    bytes[52] = 9;
    assert_eq!(Image::from_bytes(bytes), Err(Refusal::Image));
    assert_eq!(Image::from_bytes(Vec::new()), Err(Refusal::Image));
}

#[test]
fn each_refusal_and_stop_keeps_its_number() {
    for number in (1..=10).chain(12..=15) {
        assert_eq!(Refusal::answered(number).map_err(Refusal::number), Err(number));
    }
    for number in 1..=7 {
        assert_eq!(Stop::answered(number).map(Stop::number), Some(number));
        assert_ne!(Stop::answered(number), Some(Stop::Other(number)));
    }
    assert_eq!(Stop::answered(8), Some(Stop::Other(8)));
    assert_eq!((Refusal::answered(0), Stop::answered(0)), (Ok(()), None));
    assert_eq!(Refusal::answered(11), Err(Refusal::Other(11)));
}

const HEADER: &str = include_str!("../../include/ddlp.h");

#[test]
fn the_header_has_the_same_stops() {
    let numbered = HEADER.lines().filter_map(|line| line.trim().strip_prefix("DDLP_STOP_")?.split_once(" = "));
    let digits = |rest: &str| rest.chars().take_while(char::is_ascii_digit).collect::<String>().parse().ok();
    let stops: Vec<Option<u32>> = numbered.map(|(_, rest)| digits(rest)).collect();
    assert_eq!(stops, (1..=7).map(Some).collect::<Vec<_>>());
}

/// The number that the header gives a name.
fn defined(name: &str) -> Option<usize> {
    let definition = HEADER.lines().find_map(|line| line.strip_prefix("#define DDLP_")?.strip_prefix(name));
    definition.and_then(|number| number.trim().parse().ok())
}

#[test]
fn the_header_has_the_same_sizes_of_stack() {
    assert_eq!(defined("STACK_MOST"), Some(STACK_MOST));
    assert_eq!(defined("STACK_READ"), Some(STACK_READ));
    assert_eq!(defined("STACK_TEXT"), Some(STACK_TEXT));
    assert_eq!(defined("STACK_SMALL"), Some(STACK_SMALL));
    assert_eq!(defined("SMALL_RECORDS"), Some(SMALL_RECORDS));
}
