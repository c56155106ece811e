//! Values, objects and charge lines; the slot heap, the cell heap, and allowances over any heap.

use crate::set::MAX_FIELDS;

#[derive(Clone, Copy, PartialEq, Eq, Debug)]
pub enum Value {
    Unit,
    Null,
    Bool(bool),
    Int(i32),
    Addr(u16),
}

/// A budget that every object is charged to.
#[derive(Clone, Copy)]
pub struct Line {
    pub fixed: u16,
    pub per_field: u16,
    pub total: u16,
}

impl Line {
    pub fn cost(&self, values: usize) -> u64 {
        self.fixed as u64 + self.per_field as u64 * values as u64
    }

    /// The cost of all objects that a heap shows.
    pub fn usage(&self, heap: &impl Heap) -> u64 {
        (0..heap.count())
            .filter_map(|a| heap.row_len(a as u16))
            .map(|n| self.cost(n))
            .sum()
    }
}

/// Add answers none where it refuses; the others where there is no such object or field.
pub trait Heap {
    fn add(&mut self, class: u8, row: &[Value]) -> Option<u16>;
    fn empty(&mut self);
    fn count(&self) -> usize;
    fn class(&self, address: u16) -> Option<u8>;
    fn row_len(&self, address: u16) -> Option<usize>;
    fn read(&self, address: u16, field: usize) -> Option<Value>;
    fn write(&mut self, address: u16, field: usize, value: Value) -> Option<()>;
    /// The charge lines, from the top of the pile downward.
    fn lines(&self) -> Vec<Line>;
}

const SLOTS: usize = 128;

#[derive(Clone, Copy)]
struct Slot {
    class: u8,
    len: u8,
    values: [Value; MAX_FIELDS],
}

/// At most 128 objects, each in a slot of 8 values.
pub struct SlotHeap {
    slots: Vec<Slot>,
}

impl SlotHeap {
    pub fn new() -> SlotHeap {
        SlotHeap {
            slots: Vec::with_capacity(SLOTS),
        }
    }
}

impl Heap for SlotHeap {
    #[inline]
    fn add(&mut self, class: u8, row: &[Value]) -> Option<u16> {
        let address = self.slots.len();
        if row.len() > MAX_FIELDS || address >= SLOTS {
            return None;
        }
        let mut values = [Value::Unit; MAX_FIELDS];
        values[..row.len()].copy_from_slice(row);
        self.slots.push(Slot {
            class,
            len: row.len() as u8,
            values,
        });
        Some(address as u16)
    }

    fn empty(&mut self) {
        self.slots.clear();
    }

    fn count(&self) -> usize {
        self.slots.len()
    }

    #[inline]
    fn class(&self, address: u16) -> Option<u8> {
        Some(self.slots.get(address as usize)?.class)
    }

    #[inline]
    fn row_len(&self, address: u16) -> Option<usize> {
        Some(self.slots.get(address as usize)?.len as usize)
    }

    #[inline]
    fn read(&self, address: u16, field: usize) -> Option<Value> {
        let slot = self.slots.get(address as usize)?;
        if field >= slot.len as usize {
            return None;
        }
        slot.values.get(field).copied()
    }

    #[inline]
    fn write(&mut self, address: u16, field: usize, value: Value) -> Option<()> {
        let slot = self.slots.get_mut(address as usize)?;
        if field >= slot.len as usize {
            return None;
        }
        *slot.values.get_mut(field)? = value;
        Some(())
    }

    fn lines(&self) -> Vec<Line> {
        vec![Line {
            fixed: 1,
            per_field: 0,
            total: SLOTS as u16,
        }]
    }
}

const CELLS: usize = 1024;

#[derive(Clone, Copy)]
struct Head {
    class: u8,
    len: u8,
    start: u16,
}

/// At most 1,024 cells, one for each object and one for each value.
pub struct CellHeap {
    heads: Vec<Head>,
    values: Vec<Value>,
}

impl CellHeap {
    pub fn new() -> CellHeap {
        CellHeap {
            heads: Vec::with_capacity(CELLS),
            values: Vec::with_capacity(CELLS),
        }
    }

    #[inline]
    fn place(&self, address: u16, field: usize) -> Option<usize> {
        let head = self.heads.get(address as usize)?;
        (field < head.len as usize).then_some(head.start as usize + field)
    }
}

impl Heap for CellHeap {
    #[inline]
    fn add(&mut self, class: u8, row: &[Value]) -> Option<u16> {
        let address = self.heads.len();
        if row.len() > MAX_FIELDS || address + self.values.len() + 1 + row.len() > CELLS {
            return None;
        }
        self.heads.push(Head {
            class,
            len: row.len() as u8,
            start: self.values.len() as u16,
        });
        self.values.extend_from_slice(row);
        Some(address as u16)
    }

    fn empty(&mut self) {
        self.heads.clear();
        self.values.clear();
    }

    fn count(&self) -> usize {
        self.heads.len()
    }

    #[inline]
    fn class(&self, address: u16) -> Option<u8> {
        Some(self.heads.get(address as usize)?.class)
    }

    #[inline]
    fn row_len(&self, address: u16) -> Option<usize> {
        Some(self.heads.get(address as usize)?.len as usize)
    }

    #[inline]
    fn read(&self, address: u16, field: usize) -> Option<Value> {
        self.values.get(self.place(address, field)?).copied()
    }

    #[inline]
    fn write(&mut self, address: u16, field: usize, value: Value) -> Option<()> {
        let place = self.place(address, field)?;
        *self.values.get_mut(place)? = value;
        Some(())
    }

    fn lines(&self) -> Vec<Line> {
        vec![Line {
            fixed: 1,
            per_field: 1,
            total: CELLS as u16,
        }]
    }
}

/// One more line over a lower heap, whose objects it shows.
pub struct Allowance<L> {
    line: Line,
    lower: L,
}

impl<L: Heap> Allowance<L> {
    pub fn new(line: Line, mut lower: L) -> Allowance<L> {
        lower.empty();
        Allowance { line, lower }
    }
}

impl<L: Heap> Heap for Allowance<L> {
    /// Sums its use anew at each add: an allowance keeps no running total.
    fn add(&mut self, class: u8, row: &[Value]) -> Option<u16> {
        if self.line.usage(&self.lower) + self.line.cost(row.len()) > self.line.total as u64 {
            return None;
        }
        self.lower.add(class, row)
    }

    fn empty(&mut self) {
        self.lower.empty();
    }

    fn count(&self) -> usize {
        self.lower.count()
    }

    #[inline]
    fn class(&self, address: u16) -> Option<u8> {
        self.lower.class(address)
    }

    #[inline]
    fn row_len(&self, address: u16) -> Option<usize> {
        self.lower.row_len(address)
    }

    #[inline]
    fn read(&self, address: u16, field: usize) -> Option<Value> {
        self.lower.read(address, field)
    }

    #[inline]
    fn write(&mut self, address: u16, field: usize, value: Value) -> Option<()> {
        self.lower.write(address, field, value)
    }

    fn lines(&self) -> Vec<Line> {
        let mut lines = vec![self.line];
        lines.extend(self.lower.lines());
        lines
    }
}

#[derive(Clone, Copy, PartialEq, Eq, Debug)]
pub enum BaseHeap {
    Slot,
    Cell,
}

/// Which heap to build: a base and the lines of at most two allowances, from the inside out.
#[derive(Clone)]
pub struct HeapPlan {
    pub base: BaseHeap,
    pub allowances: Vec<Line>,
}

/// What is done with a heap of whatever kind a plan asks for.
pub trait UseHeap {
    type Out;
    fn with<H: Heap + 'static>(self, heap: H) -> Self::Out;
}

impl HeapPlan {
    pub const MAX_ALLOWANCES: usize = 2;

    pub fn build<U: UseHeap>(&self, user: U) -> U::Out {
        match self.base {
            BaseHeap::Slot => self.pile(SlotHeap::new(), user),
            BaseHeap::Cell => self.pile(CellHeap::new(), user),
        }
    }

    fn pile<H: Heap + 'static, U: UseHeap>(&self, base: H, user: U) -> U::Out {
        match self.allowances[..] {
            [] => user.with(base),
            [inner] => user.with(Allowance::new(inner, base)),
            [inner, outer, ..] => user.with(Allowance::new(outer, Allowance::new(inner, base))),
        }
    }
}
