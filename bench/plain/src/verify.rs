//! The verifier: the least table of each method by a walk over marked instructions, and accepted sets.

use crate::file::{self, Fault, Refused};
use crate::heap::Value;
use crate::set::*;

/// How many numbers a row of a written table has.
const ROW_NUMBERS: usize = 1 + MAX_HEIGHT + MAX_REGISTERS;
/// An absent cell, an absent register, or an unusable one.
const NOTHING: u8 = 255;

/// A set of which each method has a well-typing, with the tables that the machine looks things up in.
#[derive(Clone)]
pub struct Accepted {
    pub set: Set,
    pub tables: Tables,
}

impl Accepted {
    pub fn empty() -> Accepted {
        let set = Set::default();
        Accepted {
            tables: Tables::of(&set),
            set,
        }
    }

    /// The least table of the method that a class sees, 33 numbers for each instruction.
    pub fn least_table(&self, class: u8, name: u8) -> Option<Vec<u16>> {
        let method = &self.set.methods[self.tables.seen(class, name)?];
        let mut walk = Walk::new();
        walk.least(&self.set, &self.tables, method)?;
        let rows = &walk.rows[..method.code_len as usize];
        Some(rows.iter().flat_map(Row::numbers).collect())
    }
}

/// Reads a file and verifies it.
pub fn load(bytes: &[u8], set: &mut Set) -> Result<Accepted, Refused> {
    file::read(bytes, set)?;
    let tables = verify(set)?;
    Ok(Accepted {
        set: set.clone(),
        tables,
    })
}

/// Refuses the first method that has no well-typing; else answers the set's tables.
pub fn verify(set: &Set) -> Result<Tables, Refused> {
    let tables = Tables::of(set);
    let mut walk = Walk::new();
    for (place, method) in set.methods.iter().enumerate() {
        if walk.least(set, &tables, method).is_none() {
            return Err(Refused {
                fault: Fault::Untypable,
                place,
            });
        }
    }
    Ok(tables)
}

/// What is known before an instruction. Cells at and above the height, and absent registers, are NOTHING.
#[derive(Clone, Copy, PartialEq)]
struct Row {
    reached: bool,
    height: u8,
    cells: [u8; MAX_HEIGHT],
    registers: [u8; MAX_REGISTERS],
}

impl Row {
    const UNREACHED: Row = Row {
        reached: false,
        height: 0,
        cells: [NOTHING; MAX_HEIGHT],
        registers: [NOTHING; MAX_REGISTERS],
    };

    fn start(method: &Method) -> Row {
        let mut row = Row {
            reached: true,
            ..Row::UNREACHED
        };
        row.registers[0] = Type::of_class(method.class).0;
        for (i, ty) in method.parameters().iter().enumerate() {
            row.registers[1 + i] = ty.0;
        }
        row
    }

    fn pop(&mut self) -> Option<Type> {
        self.height = self.height.checked_sub(1)?;
        let cell = &mut self.cells[self.height as usize];
        Some(Type(std::mem::replace(cell, NOTHING)))
    }

    fn push(&mut self, ty: Type, greatest: u8) -> Option<()> {
        if self.height >= greatest {
            return None;
        }
        self.cells[self.height as usize] = ty.0;
        self.height += 1;
        Some(())
    }

    fn load(&self, register: u8) -> Option<Type> {
        let cell = *self.registers.get(register as usize)?;
        (cell != NOTHING).then_some(Type(cell))
    }

    /// What a handler's target gets: the lowest cells, the class on top, the registers as they are.
    fn caught(&self, depth: u16, class: u8, greatest: u8) -> Option<Row> {
        if depth > self.height as u16 {
            return None;
        }
        let mut row = *self;
        row.height = depth as u8;
        row.cells[depth as usize..].fill(NOTHING);
        row.push(Type::of_class(class), greatest)?;
        Some(row)
    }

    /// Raises this row to its join with another; answers whether it changed, or none where there is no join.
    fn raise(&mut self, other: &Row, tables: &Tables) -> Option<bool> {
        if self == other {
            return Some(false);
        }
        if !self.reached {
            *self = *other;
            return Some(true);
        }
        if self.height != other.height {
            return None;
        }
        let before = *self;
        for i in 0..self.height as usize {
            self.cells[i] = join(tables, self.cells[i], other.cells[i])?;
        }
        for i in 0..MAX_REGISTERS {
            self.registers[i] = join(tables, self.registers[i], other.registers[i]).unwrap_or(NOTHING);
        }
        Some(*self != before)
    }

    fn numbers(&self) -> [u16; ROW_NUMBERS] {
        let mut out = [NOTHING as u16; ROW_NUMBERS];
        out[0] = if self.reached { 1 + self.height as u16 } else { 0 };
        for (to, from) in out[1..].iter_mut().zip(self.cells.iter().chain(&self.registers)) {
            *to = *from as u16;
        }
        out
    }
}

/// The least type above both, if there is one; NOTHING has no join but with itself.
#[inline]
fn join(tables: &Tables, a: u8, b: u8) -> Option<u8> {
    if a == b {
        return Some(a);
    }
    if a == NOTHING || b == NOTHING {
        return None;
    }
    match (Type(a).class(), Type(b).class()) {
        (Some(c), Some(d)) => Some(Type::of_class(common_superclass(tables, c, d)).0),
        (Some(_), None) => (Type(b) == Type::NULL).then_some(a),
        (None, Some(_)) => (Type(a) == Type::NULL).then_some(b),
        (None, None) => None,
    }
}

/// The higher number is replaced by its superclass until both are equal: superclass numbers are smaller.
fn common_superclass(tables: &Tables, mut c: u8, mut d: u8) -> u8 {
    while c != d {
        if c > d {
            c = tables.superclass(c);
        } else {
            d = tables.superclass(d);
        }
    }
    c
}

/// Where control goes after an instruction.
enum Next {
    Following,
    Jump(i16),
    Both(i16),
    Nowhere,
}

/// Rows and marks, kept from method to method so that nothing is allocated again.
struct Walk {
    rows: Vec<Row>,
    marks: [u64; MAX_METHOD_CODE / 64],
}

impl Walk {
    fn new() -> Walk {
        Walk {
            rows: vec![Row::UNREACHED; MAX_METHOD_CODE],
            marks: [0; MAX_METHOD_CODE / 64],
        }
    }

    /// Fills the rows with the method's least well-typing, or answers none if it has no well-typing.
    fn least(&mut self, set: &Set, tables: &Tables, method: &Method) -> Option<()> {
        self.rows[..method.code_len as usize].fill(Row::UNREACHED);
        self.marks.fill(0);
        self.rows[0] = Row::start(method);
        self.mark(0);
        let judge = Judge { set, tables, method };
        while let Some(place) = self.unmark_first() {
            judge.visit(self, place)?;
        }
        Some(())
    }

    fn mark(&mut self, place: usize) {
        self.marks[place / 64] |= 1 << (place % 64);
    }

    /// Takes the lowest mark: code mostly flows downward, so rows are seldom visited before they are complete.
    fn unmark_first(&mut self) -> Option<usize> {
        let word = self.marks.iter().position(|m| *m != 0)?;
        let bit = self.marks[word].trailing_zeros() as usize;
        self.marks[word] &= self.marks[word] - 1;
        Some(word * 64 + bit)
    }

    fn flow(&mut self, tables: &Tables, row: &Row, target: usize) -> Option<()> {
        if self.rows[target].raise(row, tables)? {
            self.mark(target);
        }
        Some(())
    }
}

/// The rules of one method's instructions.
struct Judge<'a> {
    set: &'a Set,
    tables: &'a Tables,
    method: &'a Method,
}

impl Judge<'_> {
    fn visit(&self, walk: &mut Walk, place: usize) -> Option<()> {
        let at = self.method.first_code as usize + place;
        let instruction = self.set.code[at];
        let before = walk.rows[place];
        let mut row = before;
        let next = self.effect(&mut row, instruction, at)?;
        match next {
            Next::Following => walk.flow(self.tables, &row, self.inside(place, 1)?)?,
            Next::Jump(z) => walk.flow(self.tables, &row, self.inside(place, z)?)?,
            Next::Both(z) => {
                walk.flow(self.tables, &row, self.inside(place, 1)?)?;
                walk.flow(self.tables, &row, self.inside(place, z)?)?;
            }
            Next::Nowhere => {}
        }
        self.handlers(walk, &before, instruction, place)
    }

    fn inside(&self, place: usize, z: i16) -> Option<usize> {
        let target = place.checked_add_signed(z as isize)?;
        (target < self.method.code_len as usize).then_some(target)
    }

    /// Checks the needs of an instruction on its row and turns the row into what its successors get.
    fn effect(&self, row: &mut Row, instruction: Instruction, at: usize) -> Option<Next> {
        let greatest = self.method.height;
        match instruction {
            Instruction::Load(n) => row.push(row.load(n)?, greatest)?,
            Instruction::Store(n) => self.store(row, n)?,
            Instruction::Push(v) => row.push(type_of(v), greatest)?,
            Instruction::Pop => drop(row.pop()?),
            Instruction::New(c) => row.push(self.class_type(c)?, greatest)?,
            Instruction::Getfield(_, c) => self.getfield(row, c, at)?,
            Instruction::Putfield(_, c) => self.putfield(row, c, at)?,
            Instruction::Checkcast(c) => self.checkcast(row, c)?,
            Instruction::Invoke(m, n) => return self.invoke(row, m, n),
            Instruction::Return => {
                return self
                    .tables
                    .below(row.pop()?, self.method.result)
                    .then_some(Next::Nowhere);
            }
            Instruction::IAdd => self.add(row)?,
            Instruction::CmpEq => self.compare(row)?,
            Instruction::IfFalse(z) => {
                return (row.pop()? == Type::BOOLEAN).then_some(Next::Both(z));
            }
            Instruction::Goto(z) => return Some(Next::Jump(z)),
            Instruction::Throw => return row.pop()?.is_reference().then_some(Next::Nowhere),
        }
        Some(Next::Following)
    }

    fn class_type(&self, class: u8) -> Option<Type> {
        self.tables.is_class(class).then(|| Type::of_class(class))
    }

    fn store(&self, row: &mut Row, register: u8) -> Option<()> {
        let ty = row.pop()?;
        if register >= self.method.registers {
            return None;
        }
        row.registers[register as usize] = ty.0;
        Some(())
    }

    fn getfield(&self, row: &mut Row, class: u8, at: usize) -> Option<()> {
        let field = self.tables.field(at)?;
        let object = row.pop()?;
        if !self.tables.below(object, Type::of_class(class)) {
            return None;
        }
        row.push(field.ty, self.method.height)
    }

    fn putfield(&self, row: &mut Row, class: u8, at: usize) -> Option<()> {
        let field = self.tables.field(at)?;
        let (value, object) = (row.pop()?, row.pop()?);
        let good = self.tables.below(value, field.ty) && self.tables.below(object, Type::of_class(class));
        good.then_some(())
    }

    fn checkcast(&self, row: &mut Row, class: u8) -> Option<()> {
        let ty = self.class_type(class)?;
        if !row.pop()?.is_reference() {
            return None;
        }
        row.push(ty, self.method.height)
    }

    fn add(&self, row: &mut Row) -> Option<()> {
        if row.pop()? != Type::INTEGER || row.pop()? != Type::INTEGER {
            return None;
        }
        row.push(Type::INTEGER, self.method.height)
    }

    fn compare(&self, row: &mut Row) -> Option<()> {
        let (a, b) = (row.pop()?, row.pop()?);
        if a != b && !(a.is_reference() && b.is_reference()) {
            return None;
        }
        row.push(Type::BOOLEAN, self.method.height)
    }

    fn invoke(&self, row: &mut Row, name: u8, arguments: u8) -> Option<Next> {
        let receiver_at = (row.height as usize).checked_sub(1 + arguments as usize)?;
        let receiver = Type(row.cells[receiver_at]);
        if receiver == Type::NULL {
            return Some(Next::Nowhere);
        }
        let method = &self.set.methods[self.tables.seen(receiver.class()?, name)?];
        let given = &row.cells[receiver_at + 1..row.height as usize];
        let fit = given
            .iter()
            .zip(method.parameters())
            .all(|(a, p)| self.tables.below(Type(*a), *p));
        if method.parameter_count != arguments || !fit {
            return None;
        }
        row.cells[receiver_at..].fill(NOTHING);
        row.height = receiver_at as u8;
        row.push(method.result, self.method.height)?;
        Some(Next::Following)
    }

    fn handlers(&self, walk: &mut Walk, before: &Row, instruction: Instruction, place: usize) -> Option<()> {
        for handler in self.set.handlers_of(self.method) {
            if handler.covers(place) && self.relevant(instruction, handler.class) {
                self.suits(walk, before, handler)?;
            }
        }
        Some(())
    }

    fn relevant(&self, instruction: Instruction, class: u8) -> bool {
        let thrown = match instruction {
            Instruction::Throw | Instruction::Invoke(..) => return true,
            Instruction::Getfield(..) | Instruction::Putfield(..) => NULL_POINTER,
            Instruction::Checkcast(_) => CLASS_CAST,
            Instruction::New(_) => OUT_OF_MEMORY,
            _ => return false,
        };
        self.tables.at_or_below(thrown, class)
    }

    fn suits(&self, walk: &mut Walk, before: &Row, handler: &Handler) -> Option<()> {
        if !self.tables.is_class(handler.class) || handler.target >= self.method.code_len {
            return None;
        }
        let row = before.caught(handler.depth, handler.class, self.method.height)?;
        walk.flow(self.tables, &row, handler.target as usize)
    }
}

fn type_of(literal: Value) -> Type {
    match literal {
        Value::Unit => Type::VOID,
        Value::Bool(_) => Type::BOOLEAN,
        Value::Int(_) => Type::INTEGER,
        Value::Null | Value::Addr(_) => Type::NULL,
    }
}
