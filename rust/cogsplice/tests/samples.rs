//! Findings, layers, pairs of the harmonic measure and refusals read as they are printed: every sample, against the texts beside it, and
//! the journals' findings after some of their entries. Old files are read as the files beside them.
use cogsplice::{Journal, Network};
use std::fs;
use std::path::{Path, PathBuf};

/// The samples of this kind.
fn samples_of(kind: &'static str) -> impl Iterator<Item = PathBuf> {
    let folder = Path::new(env!("CARGO_MANIFEST_DIR")).join("../../samples");
    let files = fs::read_dir(folder).unwrap().map(|entry| entry.unwrap().path());
    files.filter(move |path| path.extension().map_or(false, |other| other == kind))
}

/// The network files of the samples.
fn samples() -> impl Iterator<Item = PathBuf> {
    samples_of("vch")
}

/// What is said of each of the networks, or its refusal, is the text of this kind beside it.
fn assert_read(samples: impl Iterator<Item = PathBuf>, kind: &str, said: impl Fn(Network) -> String) {
    let mut compared = 0;
    for path in samples {
        let network = Network::from_file(fs::read(&path).unwrap());
        let text = network.map_or_else(|refusal| refusal.to_string(), &said);
        // A text without lines, that of no layers, has no end of the last.
        let end = if text.is_empty() { "" } else { "\n" };
        assert_eq!(
            text + end,
            fs::read_to_string(path.with_extension(kind)).unwrap(),
            "{}",
            path.display()
        );
        compared += 1;
    }
    assert!(compared > 0);
}

#[test]
fn findings_read_as_they_are_printed() {
    assert_read(samples(), "txt", |network| network.finding().to_string());
}

/// The samples that have a text of this kind beside them.
fn samples_with(kind: &'static str) -> impl Iterator<Item = PathBuf> {
    samples().filter(move |path| path.with_extension(kind).exists())
}

#[test]
fn layers_read_as_they_are_printed() {
    assert_read(samples_with("layers"), "layers", |network| network.layers().to_string());
}

#[test]
fn harmonic_pairs_read_as_they_are_printed() {
    assert_read(samples_with("harmonic"), "harmonic", |network| network.harmonic().to_string());
}

/// A file by the old rule, and beside it the same with its links in order.
#[test]
fn old_files_are_read_in_order() {
    let mut compared = 0;
    for path in samples_with("ordered") {
        let old = Network::read_old(&fs::read(&path).unwrap()).unwrap();
        let ordered = fs::read(path.with_extension("ordered")).unwrap();
        assert_eq!(old.file(), ordered, "{}", path.display());
        assert_eq!(Network::from_file(ordered), Ok(old));
        compared += 1;
    }
    assert!(compared > 0);
}

#[test]
fn the_first_layer_is_the_finding() {
    assert_read(samples(), "txt", |network| {
        let mut finding = network.finding();
        finding.pair = network.layers().pair(1);
        finding.to_string()
    });
}

/// The findings of a journal after some of its entries, and the entries that are refused.
fn assert_journal_read(path: &Path) {
    let journal = Journal::read(fs::read(path).unwrap()).unwrap();
    let name = path.with_extension("");
    let mut compared = 0;
    for entries in 0..=journal.len() {
        if let Ok(text) = fs::read_to_string(format!("{}-{entries}.txt", name.display())) {
            let finding = journal.after(entries).network.finding();
            assert_eq!(format!("{finding}\n"), text, "{} after {entries}", path.display());
            compared += 1;
        }
    }
    assert!(compared > 0);
    let refusals = journal.after_all().refusals.into_iter().enumerate();
    let refused = refusals.filter_map(|(entry, refusal)| refusal.map(|refusal| format!("entry {entry} {refusal}\n")));
    assert_eq!(
        refused.collect::<String>(),
        fs::read_to_string(path.with_extension("numbers")).unwrap(),
        "{}",
        path.display()
    );
}

#[test]
fn journals_read_as_they_are_printed() {
    let journals: Vec<PathBuf> = samples_of("vjn").collect();
    assert!(!journals.is_empty());
    journals.iter().for_each(|path| assert_journal_read(path));
}
