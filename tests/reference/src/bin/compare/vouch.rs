//! What one link more moves where every link weighs 1, in version 1 and with kinds 0 and 1: in the file with it every level, level across and equal level is the one before or one more, inside any A and
//! B. This is held to the library's own answers, whatever the reference gives.
mod examples;
mod large;

use crate::case::Case;
use crate::enumerate::{of_picture, pictured};
use crate::inside::{everyone, lend, lent_groups, Groups};
use crate::link_kinds::{light, perhaps_with_kinds};
use crate::networks::{drawn_light, full_file, largest_file, medium_file, small_file};
use crate::table::Table;
use cogsplice::lent::{self, CheckNumbers, LevelNumbers};
use networks::{all_links, Draw, Kinded, Link, Network};
use reference::work_length;
use std::mem;

/// The most links of a file whose levels the reference is asked for as well: it is slow.
const FEW_LINKS: usize = 400;

/// A call that answers with a level, with the number that it is asked for.
#[derive(Clone, Copy)]
enum Call {
    Level(u16),
    Across(u16),
    Equal,
}

use Call::{Across, Equal, Level};

impl Call {
    fn name(self) -> String {
        match self {
            Level(x) => format!("level {x}"),
            Across(y) => format!("level_across {y}"),
            Equal => "equal_level".into(),
        }
    }

    /// Its place in the tally.
    fn place(self) -> usize {
        match self {
            Level(_) => 0,
            Across(_) => 1,
            Equal => 2,
        }
    }

    fn library(self, file: &[u8], [a, b]: [&[u8]; 2], work: &mut [u16]) -> LevelNumbers {
        match self {
            Level(x) => lent::level(file, a, b, x, work),
            Across(y) => lent::level_across(file, a, b, y, work),
            Equal => lent::equal_level(file, a, b, work),
        }
    }

    fn reference(self, file: &[u8], groups: [&[u8]; 2], work: usize) -> LevelNumbers {
        match self {
            Level(x) => reference::level(file, groups, x, work),
            Across(y) => reference::level_across(file, groups, y, work),
            Equal => reference::equal_level(file, groups, work),
        }
    }
}

/// What is asked of both files: A and B, and the calls, none of them for 0.
struct Question {
    groups: Groups,
    calls: Vec<Call>,
}

/// The level and the level across for each of these numbers, and the equal level, inside each of these groups.
fn questions(groups: Vec<Groups>, numbers: &[u16]) -> Vec<Question> {
    let both = numbers
        .iter()
        .flat_map(|&asked| [Level(asked), Across(asked)]);
    let calls: Vec<Call> = both.chain([Equal]).collect();
    let question = |groups| Question {
        groups,
        calls: calls.clone(),
    };
    groups.into_iter().map(question).collect()
}

/// Everyone of n members in both groups, and drawn groups in tables that may be longer.
fn groups_to_try(case: &mut Case, n: usize) -> Vec<Groups> {
    let lengths = [(); 2].map(|()| n + case.draw.below(3));
    let drawn = lent_groups(&mut case.draw, n, lengths, [false; 2]);
    vec![everyone(n), drawn]
}

/// Where a network has a link, or where it would stand.
fn place_of(network: &Kinded, link: Link) -> Result<usize, usize> {
    network.links.binary_search_by_key(&link, |vouch| vouch.0)
}

/// The network with an absent link more, in the order of the file. In version 2 it is of kind 0 or 1.
fn with_link(draw: &mut Draw, network: &Kinded, link: Link) -> Kinded {
    let mut more = network.clone();
    let place = place_of(network, link).unwrap_or_else(|place| place);
    let kind = match network.version {
        2 => draw.below(2) as u8,
        _ => 0,
    };
    more.links.insert(place, (link, kind));
    more
}

/// Every link between members that the network lacks.
fn absent(network: &Kinded) -> Vec<Link> {
    let members: Vec<usize> = (0..network.n).collect();
    let mut links = all_links(&members, &members);
    links.retain(|&link| place_of(network, link).is_err());
    links
}

/// The library's answers to a question on the case's file, with one work table for all calls. None is refused, but that for 0 by 12, and
/// nothing else is written.
fn levels(case: &mut Case, question: &Question) -> Vec<usize> {
    let (n, m) = case.claimed();
    let needed = work_length(n, m);
    let groups = question.groups.clone();
    let mut work = Table::words(&mut case.draw, needed);
    let mut before = work.clone();
    let mut answer = |&call: &Call| call.library(&case.file, lend(&groups), work.lend());
    let for_zero = [Level(0), Across(0)].map(|call| answer(&call).refusal);
    let answers: Vec<LevelNumbers> = question.calls.iter().map(answer).collect();
    let refused = answers.iter().find(|answer| answer.refusal != 0);
    case.compare(|| "levels: not refused".into(), None, refused);
    case.compare(|| "levels for 0".into(), [12; 2], for_zero);
    work.clear(needed);
    before.clear(needed);
    case.compare(
        || "levels: what is lent".into(),
        (&question.groups, None),
        (&groups, before.difference(&work)),
    );
    answers.iter().map(|answer| answer.level).collect()
}

/// The library's answers to each question on the case's file, and of a file with few links the reference's.
fn all_levels(case: &mut Case, questions: &[Question]) -> Vec<Vec<usize>> {
    let each = questions.iter();
    let given: Vec<Vec<usize>> = each.map(|question| levels(case, question)).collect();
    if case.claimed().1 <= FEW_LINKS {
        for (question, given) in questions.iter().zip(&given) {
            compare_with_reference(case, question, given);
        }
    }
    given
}

/// The reference's answers to a question on the case's file against these of the library.
fn compare_with_reference(case: &mut Case, question: &Question, given: &[usize]) {
    let (n, m) = case.claimed();
    for (call, &given) in question.calls.iter().zip(given) {
        let expected = call.reference(&case.file, lend(&question.groups), work_length(n, m));
        case.seen(expected.refusal);
        case.compare(|| inside(call, question), expected.level, given);
    }
}

/// A call, and what it searches inside.
fn inside(call: &Call, question: &Question) -> String {
    let [a, b] = &question.groups;
    format!("{} inside {a:?} and {b:?}", call.name())
}

/// The network of the case's file with an absent link more: its file is accepted, and each level there, which is the answer, is the one
/// before or one more.
fn try_link(
    case: &mut Case,
    network: &Kinded,
    link: Link,
    questions: &[Question],
    before: &[Vec<usize>],
) -> Vec<Vec<usize>> {
    let more = with_link(&mut case.draw, network, link);
    let file = mem::replace(&mut case.file, more.encode());
    let accepted = CheckNumbers {
        refusal: 0,
        link: 0,
        n: more.n,
        m: network.links.len() + 1,
    };
    let checked = lent::check(&case.file);
    case.compare(|| "check: with a link more".into(), accepted, checked);
    let after = all_levels(case, questions);
    case.file = file;
    for ((question, before), after) in questions.iter().zip(before).zip(&after) {
        try_rises(case, link, question, before, after);
    }
    after
}

/// Each level rises by 0 or by 1.
fn try_rises(case: &mut Case, link: Link, question: &Question, before: &[usize], after: &[usize]) {
    for ((call, &before), &after) in question.calls.iter().zip(before).zip(after) {
        let allowed = after.clamp(before, before + 1);
        case.rose(call.place(), allowed - before);
        let call = || {
            let asked = inside(call, question);
            format!("{asked}, {before} without the link {link:?}, and with it")
        };
        case.compare(call, allowed, after);
    }
}

/// Each of these absent links alone, in the network of the case's file.
fn try_links(case: &mut Case, network: &Kinded, links: &[Link], questions: &[Question]) {
    let before = all_levels(case, questions);
    for &link in links {
        try_link(case, network, link, questions, &before);
    }
}

/// All absent links of a network of up to 3 members by turns, or one of 4, inside all groups of up to 3 members, and every number up to two
/// above that of its links.
fn try_picture(case: &mut Case) {
    let (n, picture) = pictured(case);
    let network = light(perhaps_with_kinds(&mut case.draw, &of_picture(n, picture)));
    let m = network.links.len();
    case.kind = format!("picture, version {}, n {n}, m {m}", network.version);
    case.file = network.encode();
    let group = |bits: usize| (0..n).map(|member| (bits >> member & 1) as u8).collect();
    let pairs = (0..1 << (2 * n)).map(|bits| [group(bits), group(bits >> n)]);
    let groups = match n {
        0..=3 => pairs.collect(),
        _ => groups_to_try(case, n),
    };
    let numbers: Vec<u16> = (1..=m as u16 + 2).collect();
    let links = absent(&network);
    try_links(case, &network, &links, &questions(groups, &numbers));
}

/// All absent links of a small network.
fn try_small(case: &mut Case) {
    let network = drawn_light(case, small_file);
    let n = network.n;
    let groups = groups_to_try(case, n);
    let mut numbers: Vec<u16> = (1..=n as u16 + 1).collect();
    numbers.push(u16::MAX);
    let links = absent(&network);
    try_links(case, &network, &links, &questions(groups, &numbers));
}

/// From no links to all of them, one at a time, in order, back to front or in a drawn order: after k links no level is above k.
fn try_steps(case: &mut Case) {
    let n = case.draw.among(1, 5);
    let mut network = perhaps_with_kinds(&mut case.draw, &Network::new(n, &[]));
    let mut links = absent(&network);
    match case.draw.below(3) {
        0 => (),
        1 => links.reverse(),
        _ => case.draw.shuffle(&mut links),
    }
    case.kind = format!("one link at a time, n {n}");
    case.file = network.encode();
    let groups = groups_to_try(case, n);
    let numbers: Vec<u16> = (1..=n as u16 + 1).collect();
    let questions = questions(groups, &numbers);
    let mut levels = all_levels(case, &questions);
    for link in links {
        let k = network.links.len();
        let above = levels.iter().flatten().find(|&&level| level > k);
        case.compare(|| format!("no level is above {k}"), None, above);
        levels = try_link(case, &network, link, &questions, &levels);
        network = with_link(&mut case.draw, &network, link);
        case.file = network.encode();
    }
}

pub fn vouch(case: &mut Case) {
    if case.number == 0 {
        examples::examples(case);
    }
    try_picture(case);
    try_small(case);
    try_steps(case);
    if case.number % 11 == 0 {
        large::try_large(case, medium_file);
    }
    if case.number % 13 == 0 {
        large::try_large(case, full_file);
    }
    if case.number % 130 == 0 {
        large::try_large(case, largest_file);
    }
}
