//! Measures the proved library against the same calls in plain Rust, prints the tables and writes docs/BENCHMARKS.md.
mod common;
mod equal;
mod follow;
mod inputs;
mod journals;
mod measure;
mod pairs;
mod plain;
mod records;
mod report;
mod sides;

use common::share;
use equal::compare;
use follow::follow;
use inputs::{growing, shapes, HALVED, OF_KINDS};
use journals::journals;
use measure::{measure, Halved, Measured, OfKinds};
use networks::Draw;
use pairs::pairs;
use records::records;
use sides::{Call, Timed};
use std::path::Path;

fn main() -> std::io::Result<()> {
    let all = |inputs: Vec<_>| -> Vec<_> {
        let inputs = inputs.into_iter();
        inputs.map(|input| measure(input, &Timed::all())).collect()
    };
    let shapes = all(shapes());
    let halved = shapes
        .iter()
        .filter(|one| HALVED.contains(&&one.input.name[..]));
    let halves: Vec<_> = halved
        .map(|whole| Halved {
            whole,
            half: measure(whole.input.half(), &Call::INSIDE.map(Timed::ascending)),
        })
        .collect();
    let kinds: Vec<_> = shapes
        .iter()
        .filter(|one| OF_KINDS.contains(&&one.input.name[..]))
        .map(of_kinds)
        .collect();
    let growth = all(growing());
    let journals: Vec<_> = journals().into_iter().map(follow).collect();
    let pairs: Vec<_> = pairs().into_iter().map(compare).collect();
    let records: Vec<_> = records().into_iter().map(share).collect();
    let text = report::report(
        &shapes, &halves, &kinds, &growth, &journals, &pairs, &records,
    );
    print!("{text}");
    let page = Path::new(env!("CARGO_MANIFEST_DIR")).join("../docs/BENCHMARKS.md");
    std::fs::write(page, text)
}

/// A network with kind 0 alone, with kinds drawn, and with kind 7 alone.
fn of_kinds(single: &Measured) -> OfKinds<'_> {
    let random = &mut Draw::new(6);
    let lightest = single.input.with_kinds(|| 0);
    let drawn = single.input.with_kinds(|| random.below(8) as u8);
    let heaviest = single.input.with_kinds(|| 7);
    let [lightest, drawn, heaviest] =
        [lightest, drawn, heaviest].map(|input| measure(input, &Timed::of_kinds()));
    OfKinds {
        single,
        lightest,
        drawn,
        heaviest,
    }
}
