//! The structs of the C interface are laid out as tests/layout.def says, to which the tests hold the header too.
use cogsplice::lent::*;
use std::mem::size_of_val;

fn address<T>(part: &T) -> usize {
    part as *const T as usize
}

/// The lines of a struct: its size, and where each field lies.
macro_rules! lines {
    ($name:literal, $kind:ident { $($field:ident),* }) => {{
        let whole = $kind { $($field: Default::default()),* };
        let size = format!("SIZE({}, {})", $name, size_of_val(&whole));
        let fields = [$((stringify!($field), address(&whole.$field) - address(&whole))),*];
        let field = |&(field, at): &(&str, usize)| format!("FIELD({}, {field}, {at})", $name);
        std::iter::once(size).chain(fields.iter().map(field)).collect::<Vec<String>>()
    }};
}

#[test]
fn structs_lie_as_in_c() {
    let declared = [
        lines!("check_numbers", CheckNumbers { refusal, link, n, m }),
        lines!(
            "totals_numbers",
            TotalsNumbers {
                refusal,
                link,
                edges,
                sources,
                targets
            }
        ),
        lines!("write_numbers", WriteNumbers { refusal, link, m }),
        lines!("index_numbers", IndexNumbers { refusal, link }),
        lines!("row_numbers", RowNumbers { start, length, refusal }),
        lines!("level_numbers", LevelNumbers { refusal, link, level }),
        lines!(
            "finding_numbers",
            FindingNumbers {
                refusal,
                link,
                edges,
                x,
                y,
                equal,
                sources,
                targets
            }
        ),
        lines!("layers_numbers", LayersNumbers { refusal, link, layers }),
        lines!("equal_numbers", EqualNumbers { refusal, equal }),
        lines!(
            "common_numbers",
            CommonNumbers {
                refusal,
                link,
                both,
                first_only,
                second_only
            }
        ),
    ]
    .concat();
    let wanted = include_str!("../../../tests/layout.def").lines();
    let wanted: Vec<&str> = wanted
        .filter(|line| line.starts_with("SIZE") || line.starts_with("FIELD"))
        .collect();
    assert_eq!(declared, wanted);
}
