//! Every finished text is a sentence of the root template's nonterminal, by a recogniser that knows
//! neither machine.

use recogniser::{start, Grammar, BUDGET};
use trials::generate;
use trials::{Machine, Random, SECOND};

/// Texts up to this length are judged: an ambiguous grammar makes longer ones slow.
const LONGEST: usize = 600;

#[derive(Default)]
struct Counts {
    derived: usize,
    undecided: usize,
    neighbours: usize,
    noticed: usize,
}

#[test]
fn finished_texts_are_derived() {
    judge(&SECOND);
}

fn judge(machine: &dyn Machine) {
    let seed = std::env::var("TRIALS_SEED").ok();
    let seed = seed.and_then(|seed| seed.parse().ok()).unwrap_or(1);
    println!("seed {seed}");
    let mut counts = Counts::default();
    for case in 0..1_500 {
        let mut random = Random::for_case(seed, case);
        let streams = match case % 3 {
            0 => generate::streams(&mut random),
            _ => generate::accepted(&mut random),
        };
        let mut out = vec![0; 65_536];
        let fields = machine.evaluate(streams.parts(), 50_000, &mut out, &mut [0; 4_800]);
        if fields[0] == 0 && fields[4] as usize <= LONGEST {
            let grammar = Grammar::read(&streams.grammar).expect("an accepted grammar");
            let nonterminal = start(&streams.templates).expect("a template 0");
            let text = &out[..fields[4] as usize];
            match grammar.derives(nonterminal, text, BUDGET) {
                Some(true) => {
                    counts.derived += 1;
                    judge_neighbour(&mut random, &grammar, nonterminal, text, &mut counts);
                }
                Some(false) => panic!("seed {seed} case {case}: a finished text isn't derived"),
                None => counts.undecided += 1,
            }
        }
    }
    let Counts {
        derived,
        undecided,
        neighbours,
        noticed,
    } = counts;
    println!("{derived} finished texts derived, {undecided} undecided");
    println!("{noticed} of {neighbours} texts with a byte more or less aren't derived");
    assert!(derived > 300 && undecided * 20 < derived);
    assert!(noticed * 2 > neighbours);
}

/// Whether a byte deleted or inserted is noticed.
fn judge_neighbour(
    random: &mut Random,
    grammar: &Grammar,
    nonterminal: u16,
    text: &[u8],
    counts: &mut Counts,
) {
    let mut neighbour = text.to_vec();
    if random.once_in(2) && !text.is_empty() {
        neighbour.remove(random.below(text.len()));
    } else {
        neighbour.insert(random.below(text.len() + 1), random.byte());
    }
    if let Some(derived) = grammar.derives(nonterminal, &neighbour, BUDGET) {
        counts.neighbours += 1;
        counts.noticed += usize::from(!derived);
    }
}
