//! The text of the measurements.
use crate::common::Shared;
use crate::equal::Compared;
use crate::follow::Followed;
use crate::inputs::Links;
use crate::measure::{
    library_ratio, Halved, Measured, OfKinds, Times, LEAST_ROUNDS, ROUND, ROUNDS, ROUNDS_TIME,
};
use crate::sides::{Call, Timed};
use std::fmt::Write;
use std::process::Command;
use std::time::{SystemTime, UNIX_EPOCH};

/// A ratio that a call is to keep on every network: on the file in order, or on the others.
struct Goal {
    call: Call,
    in_order: bool,
    most: f64,
}

const fn goal(call: Call, in_order: bool, most: f64) -> Goal {
    Goal {
        call,
        in_order,
        most,
    }
}

const GOALS: [Goal; 12] = [
    goal(Call::Check, true, 1.1),
    goal(Call::Write, true, 1.1),
    goal(Call::Order, true, 1.1),
    goal(Call::Count, true, 1.1),
    goal(Call::Index, true, 1.1),
    goal(Call::Core, true, 1.2),
    goal(Call::Level, true, 1.2),
    goal(Call::Finding, true, 1.2),
    goal(Call::Layers, true, 1.2),
    goal(Call::Harmonic, true, 1.2),
    goal(Call::Check, false, 1.5),
    goal(Call::Order, false, 1.5),
];

/// The same for the library's time where every link has kind 7, divided by its time where every link has kind 0.
const HEAVIEST_MOST: f64 = 2.0;

/// The same for the journals.
const JOURNAL_MOST: f64 = 1.2;

/// The same for the comparison of findings.
const EQUAL_MOST: f64 = 1.2;

/// The same for the links in both of two files.
const COMMON_MOST: f64 = 1.2;

/// Whatever is measured, for the screen and for docs/BENCHMARKS.md.
pub fn report(
    shapes: &[Measured],
    halves: &[Halved],
    kinds: &[OfKinds],
    growth: &[Measured],
    journals: &[Followed],
    pairs: &[Compared],
    records: &[Shared],
) -> String {
    let goals = [
        goal_table(shapes, halves, growth),
        kind_goals(kinds),
        journal_goal(journals),
        equal_goal(pairs),
        common_goal(records),
    ];
    let parts = [
        ("Goals", goals.concat()),
        ("Times", time_table(shapes)),
        ("Half of the members", half_table(halves)),
        ("Kinds of vouch", kind_table(kinds)),
        ("Links in any order", order_table(shapes)),
        ("Journals", journal_table(journals)),
        ("Two findings compared", equal_table(pairs)),
        ("Links in both of two files", common_table(records)),
        ("Growth", growth_tables(growth)),
    ];
    let how = how_measured();
    let part = |(title, text): (&str, String)| format!("\n## {title}\n\n{text}");
    let parts: String = parts.map(part).concat();
    format!("# Benchmarks\n\n{how}{parts}")
}

fn how_measured() -> String {
    let (today, machine) = (today(), machine());
    let (kit, compiler) = (
        version_of("rt", "version"),
        version_of("rustc", "--version"),
    );
    let (round, most) = (ROUND.as_millis(), ROUNDS_TIME.as_secs());
    format!(
        "The proved library against the same calls in plain Rust (`bench/src/plain.rs`), in one run of
`cargo run --release --manifest-path bench/Cargo.toml`, which writes this page.

- Date: {today} (UTC)
- Machine: {machine}
- Compiler of the library: {kit}
- Compiler of the plain Rust: {compiler}, opt-level 3

Before the calls on a network are timed, both sides must give the same answers, the same tables, and the same refusals of damaged files
and of a faulty A or B; before a journal is, the same after none, some and all of its entries, and the same refusals of damaged ones and of
short tables; before two findings are compared, the same answer, and the same refusals where n is too large, a table too short or a group
faulty in either or both; before the links in both of two files are looked for, the same file and numbers either way round, with other kinds
and of two versions, and the same refusals of each damaged file beside each, of two n that differ and of short outputs.
Then each call is timed, the two sides turn by turn, in {ROUNDS} rounds of at least {round} ms for each side, or, once these took {most} s,
in as many as were made by then, {LEAST_ROUNDS} at least. The least time of one call counts, in microseconds, or in nanoseconds where two
findings are compared. The ratio is the library's time divided by that of plain Rust.

Both sides check the file in every call, run in one thread, and write to tables that are lent to them. Nothing clears these tables between
calls. What plain Rust sorts and peels in is kept from call to call, so that no allocation is timed. It sorts links only where they do not
ascend, and ends a peel as soon as a side is empty. Its code is compiled for each version of the file by itself: for version 1, in which
each link weighs 1, no loop has a weight. For version 2 it checks the links in one pass, and an entry of a row has the weight beside the
place; the library's rows have it so for both versions. Both keep the degrees of the whole network, with which each peel begins. Library and
plain Rust both take the level of 1 from the heaviest place, and begin a climb with the side that rises. The finding both search by rows of
one x and columns of one y, from the equal level down: a peel goes on from each pair that is left, by the least degrees, to what would be
better, until a side is empty. Where each link weighs 1 they try each row by itself; else many together, the library a quarter of those that
are left, or, where all weigh the same, those in which no core changes, and plain Rust a third. In a climb by small steps, where weights
differ from 1, the library passes over 32 places together where none falls short, and plain Rust over 16. Both ask first whether everyone is
in A and B, and else list the links from A to B in one pass and search among these; for the layers plain Rust takes those that have a layer
from the list, and searches the others anew for each layer. For the harmonic measure both find the next place to drop by a tree of matches
over the places, in which a place whose degree fell plays only up to the first match that it loses; plain Rust has the leaves of the tree in
a table too, and stops dropping where no link is left. For a journal plain Rust has the links present in a sorted vector, each as a number
of 32 bits that orders them, and so each named state, with the totals live and due beside each. It finds a link by binary search, and by two
more among the 64 links on either side how many its voucher has given; it has no table of the members. It moves what lies behind a link in
one piece, and copies a state in one piece, all in memory that is kept from call to call.
Everyone is in A and B, but for the table of half of the members. Links ascend, unless it is said that they stand in random order. Files are
of version 1, but for those that are called of version 2.
"
    )
}

fn goal_table(shapes: &[Measured], halves: &[Halved], growth: &[Measured]) -> String {
    let head =
        "| Call | Goal | Greatest ratio | On | Measured above | Met |\n|---|---|---|---|---|---|\n";
    let mut text = head.to_string();
    for goal in GOALS {
        let halves = halves.iter().map(|halved| &halved.half);
        let measured = shapes.iter().chain(halves).chain(growth);
        let ratios = measured.flat_map(|one| ratios(one, &goal)).collect();
        let call = match goal.in_order {
            true => goal.call.name().to_string(),
            false => format!("{}, links in any order", goal.call.name()),
        };
        add(&mut text, &goal_line(&call, goal.most, ratios));
    }
    text
}

/// The goals of the calls on files in order for version 2, then those of the library's times where every link has kind 7.
fn kind_goals(networks: &[OfKinds]) -> String {
    let goals = GOALS
        .iter()
        .filter(|goal| goal.in_order && goal.call.reads(2));
    let mut text = String::new();
    for goal in goals.clone() {
        let timed = Timed::ascending(goal.call);
        let ratios = networks.iter().flat_map(OfKinds::all).map(|(kinds, one)| {
            let name = format!("{}, kinds {kinds}", one.input.name);
            (one.of(timed).ratio(), name)
        });
        let call = format!("{}, version 2", goal.call.name());
        add(&mut text, &goal_line(&call, goal.most, ratios.collect()));
    }
    for goal in goals {
        let ratios = networks.iter().map(|of| {
            let ratio = library_ratio(goal.call, &of.heaviest, &of.lightest);
            (ratio, of.single.input.name.clone())
        });
        let call = format!("{}, kind 7 beside kind 0", goal.call.name());
        add(
            &mut text,
            &goal_line(&call, HEAVIEST_MOST, ratios.collect()),
        );
    }
    text
}

fn journal_goal(journals: &[Followed]) -> String {
    let with_goal = journals.iter().filter(|one| one.journal.has_goal);
    let ratios = with_goal
        .map(|one| (one.ratio(), one.journal.name.to_string()))
        .collect();
    goal_line("journal", JOURNAL_MOST, ratios) + "\n"
}

fn equal_goal(pairs: &[Compared]) -> String {
    let with_goal = pairs.iter().filter(|one| one.pair.has_goal);
    let ratios = with_goal
        .map(|one| {
            let (name, n) = (one.pair.name, one.pair.n());
            (one.ratio(), format!("{n} members, {name} differs"))
        })
        .collect();
    goal_line("equal findings", EQUAL_MOST, ratios) + "\n"
}

fn common_goal(records: &[Shared]) -> String {
    let ratios = records
        .iter()
        .map(|one| {
            (
                one.ratio(),
                format!(
                    "in both: {}, version {}",
                    one.records.name,
                    one.records.version()
                ),
            )
        })
        .collect();
    goal_line("common", COMMON_MOST, ratios) + "\n"
}

/// How a call keeps to the ratio that is its goal, by all ratios measured and what they were measured on.
fn goal_line(call: &str, most: f64, mut ratios: Vec<(f64, String)>) -> String {
    ratios.sort_by(|a, b| b.0.total_cmp(&a.0));
    let (greatest, on) = &ratios[0];
    let above = ratios.iter().filter(|(ratio, _)| *ratio > most).count();
    let all = ratios.len();
    let met = if above == 0 { "yes" } else { "no" };
    format!("| {call} | at most {most} | {greatest:.2} | {on} | {above} of {all} | {met} |")
}

/// The ratios of a goal's call on the files of a network, and what these are called.
fn ratios<'a>(one: &'a Measured, goal: &Goal) -> impl Iterator<Item = (f64, String)> + 'a {
    let in_order = goal.in_order;
    let named = move |times: &Times| (times.ratio(), times.timed.links.of(&one.input.name));
    let times = one.all_of(goal.call);
    times
        .filter(move |times| (times.timed.links == Links::Ascending) == in_order)
        .map(named)
}

fn time_table(measured: &[Measured]) -> String {
    let head = "| Network | n | m | Layers | Call | Library (µs) | Plain Rust (µs) | Ratio |\n|---|---|---|---|---|---|---|---|\n";
    let mut text = head.to_string();
    for one in measured {
        for call in Call::ALL {
            let (name, n, m) = (&one.input.name, one.input.n, one.input.m);
            let cells = cells(one.of(Timed::ascending(call)));
            let (layers, call) = (one.layers, call.name());
            add(
                &mut text,
                &format!("| {name} | {n} | {m} | {layers} | {call} | {cells} |"),
            );
        }
    }
    text
}

/// The library's time, that of plain Rust, and their ratio.
fn cells(times: &Times) -> String {
    let (library, plain, ratio) = (times.library, times.plain, times.ratio());
    format!("{library:.1} | {plain:.1} | {ratio:.2}")
}

/// The calls that search inside A and B, with everyone in these and with every other member.
fn half_table(halves: &[Halved]) -> String {
    let mut text = "Every other member is in A and in B, so that about a quarter of the links go from A to B. Beside each search stands the same with everyone.

| Network | Call | In A and B | Layers | Library (µs) | Plain Rust (µs) | Ratio |
|---|---|---|---|---|---|---|
".to_string();
    for Halved { whole, half } in halves {
        for call in Call::INSIDE {
            for (who, one) in [("everyone", *whole), ("half", half)] {
                let (network, name, layers) = (&whole.input.name, call.name(), one.layers);
                let cells = cells(one.of(Timed::ascending(call)));
                add(
                    &mut text,
                    &format!("| {network} | {name} | {who} | {layers} | {cells} |"),
                );
            }
        }
    }
    text
}

/// The networks with kinds, and beside them the library's times on the same links in version 1.
fn kind_table(networks: &[OfKinds]) -> String {
    let mut text = "Files of version 2, with five bytes for each link, the last its kind: the same links as in the networks above, all of kind 0, with a kind
drawn for each from 0 to 7, or all of kind 7, which weighs 12. Degrees and E are sums of weights, so that the levels that are climbed are
higher than the numbers of links. Where all links have kind 7 every core is one of the same links with kind 0, and x and y are 12 times as
great; with drawn kinds there are many more layers. Beside the two sides stand the library's time on the same links in version 1, in which
all have kind 0, and how many times that version 2 takes. The goal for all of kind 7 is at most twice the time with kind 0 alone, in version
2 both. `order` reads version 1 only.

| Network | Kinds | Layers | Call | Library (µs) | Plain Rust (µs) | Ratio | Library, version 1 (µs) | Version 2 to 1 |
|---|---|---|---|---|---|---|---|---|
".to_string();
    for of in networks {
        for (kinds, one) in of.all() {
            let (name, layers) = (&one.input.name, one.layers);
            for timed in Timed::of_kinds() {
                let cells = cells(one.of(timed));
                let (call, single) = (timed.call.name(), of.single.of(timed).library);
                let ratio = library_ratio(timed.call, one, of.single);
                let line = format!(
                    "| {name} | {kinds} | {layers} | {call} | {cells} | {single:.1} | {ratio:.2} |"
                );
                add(&mut text, &line);
            }
        }
    }
    text
}

/// The calls that are timed on links that do not ascend, beside the same on links that do.
fn order_table(measured: &[Measured]) -> String {
    let mut text = "Where links do not ascend, every call refuses the file by 8 if one repeats an earlier one, and every call but `order` by 15 if none does. Beside each such file stands the ascending one.

| Network | n | m | Call | Links | Library (µs) | Plain Rust (µs) | Ratio |
|---|---|---|---|---|---|---|---|
".to_string();
    for one in measured {
        let (name, n, m) = (&one.input.name, one.input.n, one.input.m);
        for call in [Call::Check, Call::Order] {
            for times in one.all_of(call) {
                let (call, links, cells) = (call.name(), times.timed.links.name(), cells(times));
                add(
                    &mut text,
                    &format!("| {name} | {n} | {m} | {call} | {links} | {cells} |"),
                );
            }
        }
    }
    text
}

/// The journals, with a set of another kind beside the two sides.
fn journal_table(journals: &[Followed]) -> String {
    let mut text = "Each journal first adds 8,192 links in random order and sets the four named states: 8,196 of its entries. The links are four of each of
2,048 members, or 64 of each of 128 where it is called by these. The other entries are what it is called by. A link is added for a member
that has given fewer than at first; in a full network one is withdrawn. One in twenty of the additions and withdrawals is drawn to be
refused; one in a hundred sets a named state or returns to one, where these are among them. One in ten of the sets and returns is an
addition or a withdrawal. Where the first link is withdrawn and added again, all others move each time. Where all entries but the first
ones are drawn to be refused, little but the search is timed: this journal has no goal. Beside the two sides stands plain Rust over a
BTreeSet, whose copies are allocated.

| Journal | Entries | Refused | Library (µs) | Plain Rust (µs) | Ratio | With a BTreeSet (µs) |
|---|---|---|---|---|---|---|
".to_string();
    for one in journals {
        let (name, entries, refused) = (one.journal.name, one.journal.entries(), one.refused);
        let (library, plain, ratio, tree) = (one.library, one.plain, one.ratio(), one.tree);
        add(
            &mut text,
            &format!(
                "| {name} | {entries} | {refused} | {library:.1} | {plain:.1} | {ratio:.2} | {tree:.1} |"
            ),
        );
    }
    text
}

/// The pairs of findings, with plain Rust that compares before it tests beside the two sides.
fn equal_table(pairs: &[Compared]) -> String {
    let mut text = "Each finding has tables of its own, with a member in a group by a chance of one half. A faulty byte refuses the call whatever differs, so
that in every row all bytes of the four groups are tested before there is an answer. Plain Rust gathers the bits of a group's bytes in
eight words, 64 bytes at a time, and then looks at them once. After all tests it compares x, y and the groups, each group in one piece,
and ends at the first that differs. Where nothing differs, or only the last member of T, every byte is both tested and compared: the rows
of 2,048 members have a goal. Where x differs, or the first member of S, next to nothing is compared, and the row shows what the tests
alone take. Whether a call saves the comparison there, or compares in the pass in which it tests, is its own choice: these rows have no
goal. Nor have those of fewer members, where handing over fourteen arguments counts for more. Beside the two sides stands plain Rust that
compares the groups before it tests them, and where they agree tests those of one finding alone.

| n | Differs | Library (ns) | Plain Rust (ns) | Ratio | Compared first (ns) |
|---|---|---|---|---|---|
".to_string();
    for one in pairs {
        let (name, n, ratio) = (one.pair.name, one.pair.n(), one.ratio());
        let [library, plain, first] = [one.library, one.plain, one.first].map(|time| time * 1e3);
        let line =
            format!("| {n} | {name} | {library:.1} | {plain:.1} | {ratio:.2} | {first:.1} |");
        add(&mut text, &line);
    }
    text
}

/// The pairs of files, with plain Rust that looks for the links in both by simpler means beside the two sides.
fn common_table(records: &[Shared]) -> String {
    let mut text = "Each file has bytes of its own, 2,048 members and 8,192 links, all drawn; two files that share all links have the same bytes. The output is
as long as either file in version 2. Files of version 2 have drawn kinds, a link in both the same in both. The file that is written is of
version 2 in any case, with the kinds of the first file, and links are in both only with equal weight. Both sides check both files before
they look for the links in both. Plain Rust then passes over the two lists once. Where they agree it compares eight links of each at once,
and copies all that agree in one piece; where they do not it takes steps that branch by no link, in which it reads the links that may be
next before it knows which is. It writes to a table that is kept from call to call, and copies the links in both to the output once it knows
that they fit: one pass is enough whatever the output's length. Beside the two sides stand plain Rust that takes such steps alone, each
after the links are read, and plain Rust that branches at each link.

| In both | Links in both | Version | Library (µs) | Plain Rust (µs) | Ratio | By steps (µs) | By branches (µs) |
|---|---|---|---|---|---|---|---|
".to_string();
    for one in records {
        let (name, both, ratio) = (one.records.name, one.records.both, one.ratio());
        let version = one.records.version();
        let Shared { library, plain, .. } = one;
        let (steps, branches) = (one.steps, one.branches);
        let line = format!("| {name} | {both} | {version} | {library:.1} | {plain:.1} | {ratio:.2} | {steps:.1} | {branches:.1} |");
        add(&mut text, &line);
    }
    text
}

/// One table for each call: random networks with four links for each member, doubled from row to row.
fn growth_tables(growth: &[Measured]) -> String {
    let mut text = "Random networks with n = m / 4. The step is the library's time divided by that for half as many links.\n".to_string();
    for timed in Timed::all() {
        let title = format!("\n### {}\n", timed.name());
        add(&mut text, &title);
        let head = "| m | Library (µs) | Step | Plain Rust (µs) | Ratio |\n|---|---|---|---|---|";
        add(&mut text, head);
        let mut before = None;
        for measured in growth {
            let (times, m) = (measured.of(timed), measured.input.m);
            let (library, plain, ratio) = (times.library, times.plain, times.ratio());
            let step = before.map_or(String::new(), |half: f64| format!("{:.2}", library / half));
            let line = format!("| {m} | {library:.1} | {step} | {plain:.1} | {ratio:.2} |");
            add(&mut text, &line);
            before = Some(library);
        }
    }
    text
}

fn add(text: &mut String, line: &str) {
    writeln!(text, "{line}").expect("a string takes every line");
}

/// The kind of machine: architecture, processor and number of cores.
fn machine() -> String {
    let kinds = std::fs::read_to_string("/proc/cpuinfo").unwrap_or_default();
    let name = kinds
        .lines()
        .filter_map(|line| line.strip_prefix("model name"))
        .find_map(|rest| rest.split_once(':'))
        .map_or("unknown processor", |(_, name)| name.trim());
    let cores = std::thread::available_parallelism().map_or(1, usize::from);
    format!("{}, {name}, {cores} cores", std::env::consts::ARCH)
}

/// What a compiler says of its version, or its name where it cannot be asked.
fn version_of(command: &str, asked: &str) -> String {
    let told = Command::new(command).arg(asked).output();
    let version = told.map(|told| String::from_utf8_lossy(&told.stdout).trim().to_string());
    version.unwrap_or(command.to_string())
}

fn today() -> String {
    let passed = SystemTime::now().duration_since(UNIX_EPOCH);
    let days = passed.map_or(0, |passed| passed.as_secs() / 86_400);
    let (year, month, day) = date_of(days);
    format!("{year}-{month:02}-{day:02}")
}

/// The date so many days after 1 January 1970.
fn date_of(mut days: u64) -> (u64, usize, u64) {
    let of = |year: u64, years| year % years == 0;
    let leap = |year| of(year, 4) && (!of(year, 100) || of(year, 400));
    let mut year = 1970;
    while days >= 365 + u64::from(leap(year)) {
        days -= 365 + u64::from(leap(year));
        year += 1;
    }
    let february = 28 + u64::from(leap(year));
    let lengths = [31, february, 31, 30, 31, 30, 31, 31, 30, 31, 30, 31];
    let mut month = 0;
    while days >= lengths[month] {
        days -= lengths[month];
        month += 1;
    }
    (year, month + 1, days + 1)
}
