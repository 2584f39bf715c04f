//! Tables stored by place and restored, beside plain transpositions. All calls go from one table to another, the same two for all of them, which begin
//! half a page apart; nothing is cleared before a call, so that the second holds what the call before left.
use crate::from_offset;
use crate::timing::{self, Subject};
use entryreader::lent;
use std::cell::RefCell;
use std::hint::black_box;

/// V and n.
type Size = (u32, u32);

/// The narrowest and the greatest table, and one in which a row is a power of two; entries of a register; a page of register lines.
const SIZES: [Size; 10] = [
    (3, 4095),
    (256, 4096),
    (256, 4095),
    (60, 20),
    (60, 50),
    (60, 80),
    (250, 20),
    (250, 50),
    (250, 80),
    (251, 2948),
];

/// Moves all cells from one table to another, unless it refuses to.
type Call = fn(Size, &[u32], &mut [u32]) -> bool;

fn store((variables, length): Size, table: &[u32], stored: &mut [u32]) -> bool {
    lent::store(variables, length, table, stored).is_ok()
}

fn restore((variables, length): Size, stored: &[u32], table: &mut [u32]) -> bool {
    lent::restore(variables, length, stored, table).is_ok()
}

/// Turns rows of cells into columns, unless a table is too short.
type Turn = fn(usize, usize, &[u32], &mut [u32]) -> bool;

/// Storing, with its tests, by a twin.
fn stored_by(turn: Turn, (variables, length): Size, table: &[u32], stored: &mut [u32]) -> bool {
    in_range((variables, length)) && turn(variables as usize, length as usize + 1, table, stored)
}

/// Restoring, likewise.
fn restored_by(turn: Turn, (variables, length): Size, stored: &[u32], table: &mut [u32]) -> bool {
    in_range((variables, length)) && turn(length as usize + 1, variables as usize, stored, table)
}

fn in_range((variables, length): Size) -> bool {
    (1..=256).contains(&variables) && length <= 4096
}

/// The plain twin, as one would write it: lengths first, then along the target, both numbers of each cell.
fn plain(rows: usize, columns: usize, source: &[u32], target: &mut [u32]) -> bool {
    let due = 2 * rows * columns;
    if source.len() < due || target.len() < due {
        return false;
    }
    let (source, target) = (&source[..due], &mut target[..due]);
    for column in 0..columns {
        for row in 0..rows {
            let (from, to) = (2 * (row * columns + column), 2 * (column * rows + row));
            target[to] = source[from];
            target[to + 1] = source[from + 1];
        }
    }
    true
}

/// The same with the two numbers of a cell as one.
fn by_cells(rows: usize, columns: usize, source: &[u32], target: &mut [u32]) -> bool {
    let due = 2 * rows * columns;
    if source.len() < due || target.len() < due {
        return false;
    }
    let source: &[[u32; 2]] = source[..due].as_chunks().0;
    let target = target[..due].as_chunks_mut().0;
    for column in 0..columns {
        for row in 0..rows {
            target[column * rows + row] = source[row * columns + column];
        }
    }
    true
}

/// Proved, and by the two twins, of each way.
const WAYS: [[(&str, Call); 3]; 2] = [
    [
        ("store", store),
        ("plain store", |size, table, stored| {
            stored_by(plain, size, table, stored)
        }),
        ("store by cells", |size, table, stored| {
            stored_by(by_cells, size, table, stored)
        }),
    ],
    [
        ("restore", restore),
        ("plain restore", |size, stored, table| {
            restored_by(plain, size, stored, table)
        }),
        ("restore by cells", |size, stored, table| {
            restored_by(by_cells, size, stored, table)
        }),
    ],
];

/// Two tables of so many cells.
struct Tables {
    source: Vec<u32>,
    target: Vec<u32>,
    cells: usize,
}

impl Tables {
    /// Every number of the first is another one.
    fn new(cells: usize) -> Tables {
        let length = 2 * cells + 1024;
        Tables {
            source: (0..length as u32).collect(),
            target: vec![0; length],
            cells,
        }
    }

    fn slices(&mut self) -> (&[u32], &mut [u32]) {
        (
            from_offset(&mut self.source, 64, 2 * self.cells),
            from_offset(&mut self.target, 2112, 2 * self.cells),
        )
    }

    /// What a call leaves.
    fn left(&mut self, call: Call, size: Size) -> Vec<u32> {
        let (source, target) = self.slices();
        target.fill(7);
        assert!(call(size, source, target), "{size:?}");
        target.to_vec()
    }
}

/// A call, so many times.
fn moving<'a>(
    (name, call): (&'static str, Call),
    size: Size,
    tables: &'a RefCell<Tables>,
) -> Subject<'a> {
    let run = move |calls| {
        let mut tables = tables.borrow_mut();
        let (source, target) = tables.slices();
        for _ in 0..calls {
            assert!(call(size, black_box(source), black_box(&mut *target)));
        }
    };
    (name, Box::new(run))
}

/// Proved and twins by turns, and what the proved one takes for a cell. All leave the same.
fn beside(way: [(&'static str, Call); 3], size: Size, tables: &RefCell<Tables>) -> String {
    let left = way.map(|(_, call)| tables.borrow_mut().left(call, size));
    assert!(left.iter().all(|numbers| *numbers == left[0]), "{size:?}");
    let times = timing::medians(&mut way.map(|call| moving(call, size, tables)));
    let cells = left[0].len() as f64 / 2.0;
    let [of_plain, of_by_cells, of_cells] = [times[1], times[2], cells].map(|by| times[0] / by);
    format!(
        "{:.0} | {:.0} ({of_plain:.2}) | {:.0} ({of_by_cells:.2}) | {of_cells:.2}",
        times[0], times[1], times[2]
    )
}

fn row(size: Size) {
    let (variables, bytes) = size;
    let cells = variables as usize * (bytes as usize + 1);
    let tables = RefCell::new(Tables::new(cells));
    let [stores, restores] = WAYS.map(|way| beside(way, size, &tables));
    println!("| {variables} | {bytes} | {cells} | {stores} | {restores} |");
}

pub fn table() {
    println!("\n## Tables stored by place and restored, beside plain transpositions\n");
    println!(
        "| V | bytes | cells | store: proved, ns | plain, ns (of it) | by cells, ns (of it) | a cell, ns | restore: proved, ns | plain, ns (of it) | by cells, ns (of it) | a cell, ns |"
    );
    println!("|---|---|---|---|---|---|---|---|---|---|---|");
    SIZES.into_iter().for_each(row);
}
