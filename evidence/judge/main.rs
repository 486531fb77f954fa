//! The judge: sends operations to the replay program and compares every answer, and every lent word, with the test Rust and with document
//! 01's table of refusals. See docs/TESTING.md, "Runs against the Rust".
//!
//!     judge run OPERATIONS SEED PROGRAM..      random sequences, until so many operations were compared
//!     judge seek OPERATIONS SEED PROGRAM..     the same, but of a difference it says no more than that there is one
//!     judge record SEED STDIN STDOUT           writes a short list of operations, and what must be answered, to two files
//!
//! What must be answered never comes from the program.

mod composer;
mod counts;
mod damage;
mod kinds;
mod model;
mod operation;
mod program;
mod random;
mod references;
mod shrink;
mod soundness;
mod words;

use std::io::Write;
use std::sync::mpsc::{channel, Sender};
use std::time::{Duration, Instant};

use composer::{Composer, Sequence, Style};
use counts::Counts;
use operation::Operation;
use program::Program;
use random::Random;

/// A kind of sequence, and how often it comes.
type Kind = (usize, fn(&mut Composer<'_>));

const KINDS: [Kind; 9] = [
    (30, |composer| composer.general()),
    (21, |composer| composer.booleans()),
    (4, |composer| composer.tall()),
    (21, |composer| composer.small_rooms()),
    (2, |composer| composer.wide()),
    (4, |composer| composer.colliding()),
    (12, |composer| composer.damaged()),
    (10, |composer| composer.wrong_arguments()),
    (4, |composer| composer.wrong_lengths()),
];

/// How many sequences are recorded.
const RECORDED: usize = 125;

fn main() {
    let words: Vec<String> = std::env::args().skip(1).collect();
    let number = |at: usize| words[at].parse::<u64>().expect("a whole number");
    match words.first().map(String::as_str) {
        Some(what @ ("run" | "seek")) if words.len() > 3 => {
            let program = Program {
                words: words[3..].to_vec(),
            };
            run(number(1), number(2), &program, what == "run");
        }
        Some("record") if words.len() == 4 => record(number(1), &words[2], &words[3]),
        _ => {
            eprintln!("judge run|seek OPERATIONS SEED PROGRAM.. | judge record SEED STDIN STDOUT");
            std::process::exit(2);
        }
    }
}

/// A sequence of a kind that is drawn, and what it counts for.
fn draw(random: &mut Random, style: Style) -> (Sequence, Counts) {
    let mut left = random.below(KINDS.iter().map(|(often, _)| often).sum());
    let mut kinds = KINDS.iter();
    let compose = loop {
        let (often, compose) = kinds
            .next()
            .expect("the numbers sum up to what was drawn below");
        if left < *often {
            break compose;
        }
        left -= often;
    };
    composed(random, style, compose)
}

/// A sequence of one kind. Where the references contradict one another, it is printed and that is the end.
fn composed(
    random: &mut Random,
    style: Style,
    compose: &fn(&mut Composer<'_>),
) -> (Sequence, Counts) {
    // Its numbers are its own, so that a kind of sequences can change and the others stay.
    let mut own = Random::new(random.bits());
    let mut composer = Composer::new(&mut own, style);
    compose(&mut composer);
    let (sequence, mut model) = composer.finish();
    if let Some(objection) = model.objection {
        println!(
            "{}the references differ: {objection}",
            program::text(&sequence.operations)
        );
        std::process::exit(1);
    }
    model.counts.sequences = 1;
    (sequence, model.counts)
}

/// Sends sequences until so many operations were sent, or an answer is wrong, and says what was found.
fn run(operations: u64, seed: u64, program: &Program, in_full: bool) {
    let mut child = program.start();
    let stdin = child.stdin.take().expect("stdin is a pipe");
    let stdout = child.stdout.take().expect("stdout is a pipe");
    let (sent, received) = channel::<Sequence>();
    let listener = std::thread::spawn(move || program::first_wrong(stdout, received));
    let counts = send(operations, seed, stdin, sent);
    let wrong = listener.join().expect("listening does not panic");
    let ended_well = child
        .wait()
        .expect("the program was started here")
        .success();
    match wrong {
        Some(sequence) => {
            println!(
                "# a difference after at most {} operations",
                counts.operations()
            );
            if in_full {
                report(program, &sequence.operations);
            }
        }
        None if !ended_well => println!("the program ended with an error"),
        None => {
            println!("no difference: seed {seed}, {counts}");
            return;
        }
    }
    std::process::exit(1);
}

/// Sends sequences to the program, and to the listener what they must bring forth. The first fills the largest table.
fn send(operations: u64, seed: u64, mut stdin: impl Write, sent: Sender<Sequence>) -> Counts {
    let mut random = Random::new(seed);
    let mut counts = Counts::default();
    let mut next_line = Instant::now() + Duration::from_secs(1);
    let full: fn(&mut Composer<'_>) = |composer| composer.full();
    let (mut sequence, mut counted) = composed(&mut random, Style::Full, &full);
    while counts.operations() < operations {
        counts.add(&counted);
        let text = program::text(&sequence.operations);
        // The listener ends at the first wrong answer, and a program that ended takes nothing more.
        if sent.send(sequence).is_err() || stdin.write_all(text.as_bytes()).is_err() {
            break;
        }
        if Instant::now() > next_line {
            eprintln!(
                "{} of {operations} operations sent, no difference so far",
                counts.operations()
            );
            next_line = Instant::now() + Duration::from_secs(1);
        }
        let drawn = draw(&mut random, Style::Full);
        sequence = drawn.0;
        counted = drawn.1;
    }
    counts
}

/// Prints a sequence that was answered wrongly, and the smallest that was found from it.
fn report(program: &Program, operations: &[Operation]) {
    println!("# the sequence:");
    print!("{}", program::text(operations));
    match shrink::difference(program, operations) {
        None => println!("# answered rightly when it is sent alone: what came before it matters"),
        Some(_) => {
            let smallest = shrink::smallest(program, operations);
            println!("# the smallest that was found:");
            print!("{}", program::text(&smallest));
            if let Some(found) = shrink::difference(program, &smallest) {
                println!(
                    "# operation {} must answer: {}",
                    found.operation + 1,
                    found.expected
                );
                println!("# it answers: {}", found.found);
            }
        }
    }
}

/// Writes a short list of operations of all kinds and their answers, as the test Rust and LAYOUT.md have them.
fn record(seed: u64, stdin: &str, stdout: &str) {
    let mut random = Random::new(seed);
    let mut counts = Counts::default();
    let mut input = format!(
        "# Made by evidence/record {seed}. The answers beside it (stdout) are those of the test Rust and of the judge's own layout;\n\
         # the kernel was not run to make them. The lines are those of the replay protocol.\n"
    );
    let mut output = String::new();
    for n in 0..RECORDED {
        // Each kind in turn first, so that none is left out.
        let (sequence, counted) = match KINDS.get(n) {
            Some((_, compose)) => composed(&mut random, Style::Brief, compose),
            None => draw(&mut random, Style::Brief),
        };
        counts.add(&counted);
        input += &program::text(&sequence.operations);
        for line in sequence.lines {
            output += &line;
            output.push('\n');
        }
    }
    std::fs::write(stdin, input).expect("the operations are written");
    std::fs::write(stdout, output).expect("the answers are written");
    println!("recorded: {counts}");
}
