//! Compares the program under test with this implementation: `season_compare PROGRAM`.

use std::collections::BTreeMap;
use std::env;
use std::path::Path;
use std::process::ExitCode;

use oracle::season;
use oracle::testing::damage::{ShapeFault, WORD_FAULTS};
use oracle::testing::draw::{Draft, Drawer};
use oracle::testing::program::{Delivery, Program};
use oracle::testing::score::{difference, Score};

const SEED: u64 = 20_230_501;

/// Every answer has to be reached so often.
const LEAST: usize = 100;

const REFUSALS: [&str; 4] = ["refused 6", "refused 5", "refused 3", "refused 8"];

/// A way of drawing files: what they are, how many, and how one is drawn.
type Way = (&'static str, usize, fn(&mut Drawer) -> Vec<u8>);

const WAYS: [Way; 8] = [
    ("sound files", 700, |drawer| drawer.sound().bytes()),
    ("files with a wrong word", 700, |drawer| {
        wrong_word(drawer).bytes()
    }),
    ("files with two wrong words", 400, two_wrong_words),
    ("files of a wrong shape", 400, wrong_shape),
    (
        "files of a wrong shape with a wrong word",
        250,
        wrong_shape_and_word,
    ),
    ("files that are far longer", 24, far_longer),
    ("files of random words", 150, Drawer::random_words),
    ("files of garbage", 150, Drawer::garbage),
];

fn main() -> ExitCode {
    let Some(path) = env::args_os().nth(1) else {
        eprintln!("usage: season_compare PROGRAM");
        return ExitCode::FAILURE;
    };
    let mut program = Program::new(Path::new(&path));
    let mut drawer = Drawer::new(SEED);
    let mut score = Score::default();
    let mut reached = BTreeMap::new();
    for (kind, files, draw) in WAYS {
        let mut compare = |file| {
            let input = draw(&mut drawer);
            let expected = season::answer(&input);
            *reached.entry(answer_kind(&expected)).or_insert(0) += 1;
            let delivery = delivery(&mut drawer, &input);
            let output = program.output_of(&input, delivery);
            difference(&expected, output).map(|failure| format!("file {file}: {failure}"))
        };
        let failures: Vec<Option<String>> = (0..files).map(&mut compare).collect();
        score.all(kind, &failures);
    }
    report(&reached, &mut score);
    score.finish()
}

fn wrong_word(drawer: &mut Drawer) -> Draft {
    let mut draft = drawer.sound();
    let fault = drawer.random.pick(&WORD_FAULTS);
    drawer.damage(&mut draft, fault);
    draft
}

/// Two faults of different kinds.
fn two_wrong_words(drawer: &mut Drawer) -> Vec<u8> {
    let mut draft = drawer.sound();
    let first = drawer.random.below(4);
    let second = (first + 1 + drawer.random.below(3)) % 4;
    drawer.damage(&mut draft, WORD_FAULTS[first]);
    drawer.damage(&mut draft, WORD_FAULTS[second]);
    draft.bytes()
}

fn wrong_shape(drawer: &mut Drawer) -> Vec<u8> {
    let draft = drawer.sound();
    misshape(drawer, draft)
}

fn wrong_shape_and_word(drawer: &mut Drawer) -> Vec<u8> {
    let draft = wrong_word(drawer);
    misshape(drawer, draft)
}

fn misshape(drawer: &mut Drawer, draft: Draft) -> Vec<u8> {
    let fault = drawer.random.pick(&[
        ShapeFault::Count,
        ShapeFault::Days,
        ShapeFault::Cut,
        ShapeFault::Longer,
    ]);
    drawer.misshape(draft, fault)
}

fn far_longer(drawer: &mut Drawer) -> Vec<u8> {
    let draft = drawer.sound();
    drawer.misshape(draft, ShapeFault::FarLonger)
}

/// Some files come in pieces; megabytes would take too long that way.
fn delivery(drawer: &mut Drawer, input: &[u8]) -> Delivery {
    if input.len() > 1_000 || !drawer.random.one_in(6) {
        return Delivery::Whole;
    }
    Delivery::Pieces(drawer.random.pick(&[3, 8, 50, 367, 368]))
}

fn answer_kind(answer: &str) -> &'static str {
    let answer = answer.trim_end();
    let refusal = REFUSALS.into_iter().find(|refusal| *refusal == answer);
    refusal.unwrap_or("limits")
}

/// One test: an answer that was hardly reached fails it.
fn report(reached: &BTreeMap<&str, usize>, score: &mut Score) {
    let mut seldom = Vec::new();
    for answer in ["limits"].into_iter().chain(REFUSALS) {
        let times = reached.get(answer).copied().unwrap_or(0);
        println!("{times:9} {answer}");
        if times < LEAST {
            seldom.push(answer);
        }
    }
    let failure = (!seldom.is_empty()).then(|| format!("not {}", seldom.join(", ")));
    score.one(&format!("every answer {LEAST} times or more"), failure);
}
