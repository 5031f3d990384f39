//! Statements: one operation on one cell (docs/statements.md).

/// How many cells a database holds; cells and members are numbered below it.
pub const CELLS: usize = 64;

/// What a statement does to its cell.
#[derive(Clone, Copy, Debug)]
pub enum Operation {
    Get,
    Set(u64),
    Add(u64),
    Take(u64),
    Join(u8),
    Leave(u8),
    Heads,
}

/// An operation and the number of its cell. The numbers may be out of range: see [`Statement::exists`].
#[derive(Clone, Copy, Debug)]
pub struct Statement {
    pub cell: usize,
    pub operation: Operation,
}

impl Statement {
    /// Whether the cell and, for `join` and `leave`, the member are below 64.
    pub fn exists(&self) -> bool {
        let member = match self.operation {
            Operation::Join(member) | Operation::Leave(member) => usize::from(member),
            _ => 0,
        };
        self.cell < CELLS && member < CELLS
    }

    /// Whether the statement counts as writing, even where the cell happens to stay as it is.
    pub fn writes(&self) -> bool {
        !matches!(self.operation, Operation::Get | Operation::Heads)
    }

    /// From what the cell holds: what the statement leaves there, and what it answers.
    pub fn apply(&self, held: u64) -> (u64, u64) {
        match self.operation {
            Operation::Get => (held, held),
            Operation::Set(value) => (value, held),
            Operation::Add(value) => {
                let sum = held.wrapping_add(value);
                (sum, sum)
            }
            Operation::Take(value) => match held.checked_sub(value) {
                Some(less) => (less, 1),
                None => (held, 0),
            },
            Operation::Join(member) => (held | 1 << member, 1 - (held >> member & 1)),
            Operation::Leave(member) => (held & !(1 << member), held >> member & 1),
            Operation::Heads => (held, u64::from(held.count_ones())),
        }
    }
}
