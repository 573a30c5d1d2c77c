//! The comparison can fail: every wrong variant of the independent board is found by it, on the traces that the exported calls
//! are compared on.

use board_tests::independent::Model;
use board_tests::model::fault::{Broken, Sound, MUTANTS};
use board_tests::trace::{difference, shrink, Trace};

/// The comparison's first traces; a variant that these do not show is not found.
const TRACES: u64 = 4000;

#[test]
fn every_mutant_is_found() {
    let mut missed = Vec::new();
    let mut greatest = 0;
    for (mutant, text) in MUTANTS {
        let differs = |trace: &Trace| difference(trace, &mut Model(Sound), &mut Model(Broken(*mutant))).map(|(n, _)| n);
        let mut steps = 0;
        let found = (1..=TRACES).map(Trace::numbered).find(|trace| {
            steps += trace.ops.len();
            differs(trace).is_some()
        });
        let Some(trace) = found else {
            println!("NOT FOUND  {mutant:?}: {text}");
            missed.push(mutant);
            continue;
        };
        let short = shrink(&trace, differs);
        greatest = greatest.max(trace.seed);
        println!("found in trace {:4}, shortest {:2} steps  {mutant:?}: {text}", trace.seed, short.ops.len());
    }
    println!("{} of {} mutants found, the last in trace {greatest}", MUTANTS.len() - missed.len(), MUTANTS.len());
    assert!(MUTANTS.len() >= 25);
    assert!(missed.is_empty(), "not found: {missed:?}");
}
