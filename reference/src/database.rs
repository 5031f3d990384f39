//! Databases: 64 committed cells and eight slots for transactions (docs/databases.md).
//!
//! Both makes show the same meaning but for the unit of a lock, so one type serves for both.

use crate::statements::{Statement, CELLS};

/// How many transactions a database can have open.
pub const SLOTS: usize = 8;

/// The two makes; they differ in the unit that a cell's lock is on.
#[derive(Clone, Copy)]
pub enum Make {
    InPlace,
    Deferred,
}

impl Make {
    /// The unit of a cell, as the one bit that stands for it in a set of units.
    fn unit(self, cell: usize) -> u64 {
        match self {
            Make::InPlace => 1 << cell,
            Make::Deferred => 1 << (cell / 8),
        }
    }
}

/// An open slot: the units it has locked, one bit each, and the values it wrote and has not sealed.
#[derive(Clone, Copy)]
struct Slot {
    reading: u64,
    writing: u64,
    own: [Option<u64>; CELLS],
}

/// A database of either make.
pub struct Database {
    make: Make,
    cells: [u64; CELLS],
    mark: usize,
    slots: [Option<Slot>; SLOTS],
}

impl Database {
    /// A cleared database.
    pub fn new(make: Make) -> Self {
        Database { make, cells: [0; CELLS], mark: 0, slots: [None; SLOTS] }
    }

    /// The committed cell.
    pub fn cell(&self, cell: usize) -> u64 {
        self.cells[cell]
    }

    /// One past the position of the message that was sealed or taken in last, or 0.
    pub fn mark(&self) -> usize {
        self.mark
    }

    /// Opens the first free slot and tells its number; `None` where all are open.
    pub fn open(&mut self) -> Option<usize> {
        let slot = self.slots.iter().position(Option::is_none)?;
        self.slots[slot] = Some(Slot { reading: 0, writing: 0, own: [None; CELLS] });
        Some(slot)
    }

    /// Runs a statement in an open slot and answers its result; `None` where the cell's unit is busy.
    pub fn run(&mut self, slot: usize, statement: &Statement) -> Option<u64> {
        let unit = self.make.unit(statement.cell);
        let others = self.slots.iter().enumerate().filter(|(other, _)| *other != slot);
        for other in others.filter_map(|(_, other)| other.as_ref()) {
            let held = if statement.writes() { other.reading | other.writing } else { other.writing };
            if held & unit != 0 {
                return None;
            }
        }
        let slot = self.slots[slot].as_mut().expect("the slot is open");
        let held = slot.own[statement.cell].unwrap_or(self.cells[statement.cell]);
        let (left, result) = statement.apply(held);
        if statement.writes() {
            slot.writing |= unit;
            slot.own[statement.cell] = Some(left);
        } else {
            slot.reading |= unit;
        }
        Some(result)
    }

    /// Makes the slot's own values the committed cells and closes it.
    pub fn seal(&mut self, slot: usize, position: usize) {
        let sealed = self.slots[slot].take().expect("the slot is open");
        for (cell, own) in self.cells.iter_mut().zip(sealed.own) {
            *cell = own.unwrap_or(*cell);
        }
        self.mark = position + 1;
    }

    /// Closes the slot and drops its own values.
    pub fn undo(&mut self, slot: usize) {
        self.slots[slot] = None;
    }

    /// Closes every slot and drops all own values; cells and mark stay.
    pub fn lose(&mut self) {
        self.slots = [None; SLOTS];
    }

    /// Runs statements on the committed cells of a quiet database. The results have to be those noted with them.
    pub fn intake(&mut self, noted: &[(Statement, u64)], position: usize) {
        assert!(self.slots.iter().all(Option::is_none), "an intake needs a quiet database");
        for (statement, result) in noted {
            let (left, answered) = statement.apply(self.cells[statement.cell]);
            assert_eq!(answered, *result, "an intake answers as the first run did");
            self.cells[statement.cell] = left;
        }
        self.mark = position + 1;
    }
}
