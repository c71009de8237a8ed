//! The two sides that are measured, called alike.
use crate::inputs::{Input, Links};
use crate::plain::{Index, Plain, Refusal};
use cogsplice::{lent, work_length};

/// The x and y of the core that is measured, and the number whose level is.
const CORE: [u16; 2] = [2, 2];
const LEVEL: u16 = 2;

#[derive(Clone, Copy, PartialEq, Eq)]
pub enum Call {
    Finding,
    Layers,
    Harmonic,
    Core,
    Level,
    Check,
    Index,
    Write,
    Order,
    Count,
}

impl Call {
    pub const ALL: [Call; 10] = [
        Call::Finding,
        Call::Layers,
        Call::Harmonic,
        Call::Core,
        Call::Level,
        Call::Check,
        Call::Index,
        Call::Write,
        Call::Order,
        Call::Count,
    ];

    /// The calls that search inside A and B.
    pub const INSIDE: [Call; 4] = [Call::Finding, Call::Layers, Call::Core, Call::Level];

    /// Whether it reads files of this version.
    pub fn reads(self, version: u8) -> bool {
        version == 1 || self != Call::Order
    }

    pub fn name(self) -> &'static str {
        match self {
            Call::Finding => "finding",
            Call::Layers => "layers",
            Call::Harmonic => "harmonic",
            Call::Core => "core [2,2]",
            Call::Level => "level of 2",
            Call::Check => "check",
            Call::Index => "index",
            Call::Write => "write",
            Call::Order => "order",
            Call::Count => "count",
        }
    }
}

/// What is timed: a call, on the file of a network in which the links stand so.
#[derive(Clone, Copy, PartialEq, Eq)]
pub struct Timed {
    pub call: Call,
    pub links: Links,
}

impl Timed {
    /// The calls that are timed on links that do not ascend.
    pub const UNORDERED: [Timed; 3] = [
        Timed {
            call: Call::Check,
            links: Links::Shuffled,
        },
        Timed {
            call: Call::Check,
            links: Links::Repeating,
        },
        Timed {
            call: Call::Order,
            links: Links::Shuffled,
        },
    ];

    pub fn ascending(call: Call) -> Self {
        let links = Links::Ascending;
        Self { call, links }
    }

    /// Every call on links that ascend, then those on links that do not.
    pub fn all() -> Vec<Self> {
        let ascending = Call::ALL.into_iter().map(Self::ascending);
        ascending.chain(Self::UNORDERED).collect()
    }

    /// Every call that reads version 2, on links that ascend.
    pub fn of_kinds() -> Vec<Self> {
        let calls = Call::ALL.into_iter().filter(|call| call.reads(2));
        calls.map(Self::ascending).collect()
    }

    pub fn name(self) -> String {
        self.links.of(self.call.name())
    }
}

/// The refusal, the link, then the numbers of the call, and zeros.
pub type Numbers = [usize; 8];

/// The tables that a side is lent, long enough for one network. Nothing clears them between calls.
#[derive(Clone, PartialEq, Eq)]
pub struct Tables {
    s: Vec<u8>,
    t: Vec<u8>,
    layers: Vec<u16>,
    out: Vec<u8>,
    /// The output of `order`, which reads version 1 only: the ascending file.
    pub ordered: Vec<u8>,
    out_starts: Vec<u16>,
    out_rows: Vec<u16>,
    in_starts: Vec<u16>,
    in_rows: Vec<u16>,
}

impl Tables {
    /// Tables full of one number, so that an entry that only one side writes is noticed.
    fn new(input: &Input, full: u8) -> Self {
        let wide = |length| vec![u16::from(full); length];
        let file = 9 + input.stride() * input.m;
        let ordered = if input.version == 1 { file } else { 0 };
        Self {
            s: vec![full; input.n],
            t: vec![full; input.n],
            layers: wide(input.m),
            out: vec![full; file],
            ordered: vec![full; ordered],
            out_starts: wide(input.n + 1),
            out_rows: wide(input.m),
            in_starts: wide(input.n + 1),
            in_rows: wide(input.m),
        }
    }
}

pub trait Side {
    fn new(input: &Input) -> Self;
    fn call(&mut self, call: Call, file: &[u8], input: &Input) -> Numbers;
    fn tables(&self) -> &Tables;
}

/// The proved library, with the work table that it is lent.
pub struct Library {
    tables: Tables,
    work: Vec<u16>,
}

impl Side for Library {
    fn new(input: &Input) -> Self {
        Self {
            tables: Tables::new(input, 2),
            work: vec![0; work_length(input.n, input.m)],
        }
    }

    fn call(&mut self, call: Call, file: &[u8], input: &Input) -> Numbers {
        let Tables { s, t, layers, .. } = &mut self.tables;
        let (a, b, work) = (&input.a, &input.b, &mut self.work);
        match call {
            Call::Finding => finding_numbers(lent::finding(file, a, b, s, t, work)),
            Call::Layers => {
                let told = lent::layers(file, a, b, layers, work);
                numbers(told.refusal, told.link, [told.layers])
            }
            Call::Harmonic => totals_numbers(lent::harmonic(file, s, t, work)),
            Call::Core => {
                let [x, y] = CORE;
                totals_numbers(lent::core(file, a, b, x, y, s, t, work))
            }
            Call::Level => {
                let told = lent::level(file, a, b, LEVEL, work);
                numbers(told.refusal, told.link, [told.level])
            }
            Call::Check => {
                let told = lent::check(file);
                numbers(told.refusal, told.link, [told.n, told.m])
            }
            Call::Index => self.index(file),
            Call::Write => write_numbers(lent::write(file, &mut self.tables.out)),
            Call::Order => write_numbers(lent::order(file, &mut self.tables.ordered)),
            Call::Count => totals_numbers(lent::count(file, &input.s, &input.t)),
        }
    }

    fn tables(&self) -> &Tables {
        &self.tables
    }
}

impl Library {
    fn index(&mut self, file: &[u8]) -> Numbers {
        let tables = &mut self.tables;
        let told = lent::index(
            file,
            &mut tables.out_starts,
            &mut tables.out_rows,
            &mut tables.in_starts,
            &mut tables.in_rows,
        );
        numbers(told.refusal, told.link, [])
    }
}

fn numbers<const K: usize>(refusal: u16, link: u16, values: [usize; K]) -> Numbers {
    let mut numbers = [0; 8];
    numbers[0] = refusal.into();
    numbers[1] = link.into();
    numbers[2..2 + K].copy_from_slice(&values);
    numbers
}

fn write_numbers(told: lent::WriteNumbers) -> Numbers {
    numbers(told.refusal, told.link, [told.m])
}

fn totals_numbers(told: lent::TotalsNumbers) -> Numbers {
    let values = [told.edges as usize, told.sources, told.targets];
    numbers(told.refusal, told.link, values)
}

fn finding_numbers(told: lent::FindingNumbers) -> Numbers {
    let edges = told.edges as usize;
    let values = [
        told.x,
        told.y,
        told.equal,
        edges,
        told.sources,
        told.targets,
    ];
    numbers(told.refusal, told.link, values)
}

/// The same calls in plain Rust, with what they keep from call to call.
pub struct PlainRust {
    tables: Tables,
    plain: Plain,
}

impl Side for PlainRust {
    fn new(input: &Input) -> Self {
        Self {
            tables: Tables::new(input, 3),
            plain: Plain::default(),
        }
    }

    fn call(&mut self, call: Call, file: &[u8], input: &Input) -> Numbers {
        let Self { tables, plain } = self;
        let inside = [&input.a[..], &input.b];
        match call {
            Call::Finding => told(plain.finding(file, inside, groups_of(tables))),
            Call::Layers => told(plain.layers(file, inside, &mut tables.layers)),
            Call::Harmonic => told(plain.harmonic(file, groups_of(tables))),
            Call::Core => told(plain.core(file, inside, CORE, groups_of(tables))),
            Call::Level => told(plain.level(file, inside, LEVEL)),
            Call::Check => told(plain.check(file)),
            Call::Index => told(plain.index(file, index_of(tables))),
            Call::Write => told(plain.write(file, &mut tables.out)),
            Call::Order => told(plain.order(file, &mut tables.ordered)),
            Call::Count => told(plain.count(file, [&input.s, &input.t])),
        }
    }

    fn tables(&self) -> &Tables {
        &self.tables
    }
}

fn groups_of(tables: &mut Tables) -> [&mut [u8]; 2] {
    [&mut tables.s, &mut tables.t]
}

fn index_of(tables: &mut Tables) -> Index<'_> {
    Index {
        out_starts: &mut tables.out_starts,
        out_rows: &mut tables.out_rows,
        in_starts: &mut tables.in_starts,
        in_rows: &mut tables.in_rows,
    }
}

fn told<const K: usize>(answer: Result<[usize; K], Refusal>) -> Numbers {
    match answer {
        Ok(values) => numbers(0, 0, values),
        Err(refusal) => numbers(refusal.number, refusal.link as u16, []),
    }
}
