//! The checked step: first every check of the instruction, then its effect. A failed check changes nothing.

use super::frame::{Frame, Frames};
use crate::heap::{Heap, Value};
use crate::set::{Handler, Instruction, Tables, Type};
use crate::verify::Accepted;

const NULL_POINTER_AT: u16 = 0;
const CLASS_CAST_AT: u16 = 1;
const OUT_OF_MEMORY_AT: u16 = 2;

/// Why a run of steps stopped. The last two are steps that were made, and left no frame.
pub enum Event {
    Enough,
    FramesFull,
    Unsound,
    Finished(Value),
    Uncaught(u16),
}

/// Why the top frame cannot go on by itself. Here the instruction is checked no further yet.
enum Leave {
    Enough,
    Invoke(u8, u8),
    Return,
    Throw(u16),
    Unsound,
}

pub struct Stepper<'a, H> {
    pub program: &'a Accepted,
    pub heap: &'a mut H,
    pub frames: &'a mut Frames,
}

impl<H: Heap> Stepper<'_, H> {
    /// Makes at most so many steps; answers how many were made.
    pub fn run(&mut self, most: u64) -> (u64, Event) {
        let mut done = 0;
        while done < most {
            let leave = self.run_top(most, &mut done);
            let event = match leave {
                Leave::Enough => return (done, Event::Enough),
                Leave::Invoke(name, arguments) => self.invoke(name, arguments),
                Leave::Return => self.leave_method(),
                Leave::Throw(address) => self.throw(address),
                Leave::Unsound => None,
            };
            match event {
                None => return (done, Event::Unsound),
                Some(Event::Enough) => done += 1,
                Some(Event::FramesFull) => return (done, Event::FramesFull),
                Some(last) => return (done + 1, last),
            }
        }
        (done, Event::Enough)
    }

    /// Steps within the top frame, with its method and code at hand.
    fn run_top(&mut self, most: u64, done: &mut u64) -> Leave {
        let Accepted { set, tables } = self.program;
        let Some(frame) = self.frames.top() else {
            return Leave::Unsound;
        };
        let Some(method) = set.methods.get(frame.method) else {
            return Leave::Unsound;
        };
        let code = set.code_of(method);
        let mut local = Local {
            heap: &mut *self.heap,
            tables,
            first: method.first_code as usize,
            len: code.len(),
            greatest: method.height as usize,
            registers: method.registers,
            place: frame.place,
            height: frame.height,
            frame,
        };
        let mut made = *done;
        let leave = loop {
            if made >= most {
                break Leave::Enough;
            }
            let Some(&instruction) = code.get(local.place) else {
                break Leave::Unsound;
            };
            match local.step(instruction) {
                Ok(()) => made += 1,
                Err(leave) => break leave,
            }
        };
        *done = made;
        local.frame.place = local.place;
        local.frame.height = local.height;
        leave
    }

    fn invoke(&mut self, name: u8, arguments: u8) -> Option<Event> {
        let Accepted { set, tables } = self.program;
        let top = self.frames.top()?;
        let receiver_at = top.height.checked_sub(1 + arguments as usize)?;
        let cells = top.stack.get(receiver_at..top.height)?;
        let address = match cells[0] {
            Value::Null => return self.throw(NULL_POINTER_AT),
            Value::Addr(address) => address,
            _ => return None,
        };
        let number = tables.seen(self.heap.class(address)?, name)?;
        let method = &set.methods[number];
        let fit = cells[1..]
            .iter()
            .zip(method.parameters())
            .all(|(v, t)| fits(tables, self.heap, *v, *t));
        let room = receiver_at < set.methods.get(top.method)?.height as usize;
        if method.parameter_count != arguments || !fit || !room {
            return None;
        }
        if self.frames.is_full() {
            return Some(Event::FramesFull);
        }
        self.frames.open_from_top(number, method, receiver_at)?;
        Some(Event::Enough)
    }

    fn leave_method(&mut self) -> Option<Event> {
        let Accepted { set, tables } = self.program;
        let (top, caller) = self.frames.top_and_caller()?;
        let method = set.methods.get(top.method)?;
        let value = *top.stack.get(top.height.checked_sub(1)?)?;
        if !fits(tables, self.heap, value, method.result) {
            return None;
        }
        let Some(caller) = caller else {
            self.frames.close_all();
            return Some(Event::Finished(value));
        };
        let height = caller.height.checked_sub(1 + method.parameter_count as usize)?;
        if height >= set.methods.get(caller.method)?.height as usize {
            return None;
        }
        *caller.stack.get_mut(height)? = value;
        caller.height = height + 1;
        caller.place += 1;
        self.frames.close_top();
        Some(Event::Enough)
    }

    /// Finds the handler that catches, from the top frame downward, and goes to it.
    fn throw(&mut self, address: u16) -> Option<Event> {
        let class = self.heap.class(address)?;
        let Some((index, handler)) = self.catching(class) else {
            self.frames.close_all();
            return Some(Event::Uncaught(address));
        };
        let frame = &self.frames.standing()[index];
        let method = &self.program.set.methods[frame.method];
        let depth = handler.depth as usize;
        if depth > frame.height || depth >= method.height as usize || handler.target >= method.code_len {
            return None;
        }
        self.frames.close_above(index);
        let frame = self.frames.top()?;
        *frame.stack.get_mut(depth)? = Value::Addr(address);
        frame.height = depth + 1;
        frame.place = handler.target as usize;
        Some(Event::Enough)
    }

    fn catching(&self, class: u8) -> Option<(usize, Handler)> {
        let Accepted { set, tables } = self.program;
        for (index, frame) in self.frames.standing().iter().enumerate().rev() {
            let handlers = set.handlers_of(set.methods.get(frame.method)?);
            let catches = |h: &&Handler| h.covers(frame.place) && tables.at_or_below(class, h.class);
            if let Some(handler) = handlers.iter().find(catches) {
                return Some((index, *handler));
            }
        }
        None
    }
}

/// The type of the value is at or below the type asked for; an address has its object's class.
#[inline]
fn fits<H: Heap>(tables: &Tables, heap: &H, value: Value, ty: Type) -> bool {
    match value {
        Value::Unit => ty == Type::VOID,
        Value::Null => ty.is_reference(),
        Value::Bool(_) => ty == Type::BOOLEAN,
        Value::Int(_) => ty == Type::INTEGER,
        Value::Addr(address) => match (heap.class(address), ty.class()) {
            (Some(low), Some(high)) => tables.at_or_below(low, high),
            _ => false,
        },
    }
}

/// The top frame while it runs: place and height are held here and put back when it is left.
struct Local<'a, H> {
    heap: &'a mut H,
    tables: &'a Tables,
    /// Of the method: where its code begins in the set's, its length, greatest height and register count.
    first: usize,
    len: usize,
    greatest: usize,
    registers: u8,
    frame: &'a mut Frame,
    place: usize,
    height: usize,
}

type Step = Result<(), Leave>;

fn check(good: bool) -> Step {
    if good {
        Ok(())
    } else {
        Err(Leave::Unsound)
    }
}

impl<H: Heap> Local<'_, H> {
    #[inline(always)]
    fn step(&mut self, instruction: Instruction) -> Step {
        match instruction {
            Instruction::Load(n) => self.load(n),
            Instruction::Store(n) => self.store(n),
            Instruction::Push(v) => self.push(v),
            Instruction::Pop => self.pop(),
            Instruction::New(c) => self.new_object(c),
            Instruction::Getfield(_, c) => self.getfield(c),
            Instruction::Putfield(_, c) => self.putfield(c),
            Instruction::Checkcast(c) => self.checkcast(c),
            Instruction::Invoke(m, n) => Err(Leave::Invoke(m, n)),
            Instruction::Return => Err(Leave::Return),
            Instruction::IAdd => self.add(),
            Instruction::CmpEq => self.compare(),
            Instruction::IfFalse(z) => self.if_false(z),
            Instruction::Goto(z) => self.jump(z),
            Instruction::Throw => self.throw(),
        }
    }

    /// The cell so far below the top; none where the stack is not that high.
    #[inline(always)]
    fn cell(&self, below: usize) -> Result<Value, Leave> {
        let at = self.height.checked_sub(1 + below).ok_or(Leave::Unsound)?;
        self.frame.stack.get(at).copied().ok_or(Leave::Unsound)
    }

    /// A push that starts at this height keeps the greatest height.
    #[inline(always)]
    fn room(&self, height: usize) -> Step {
        check(height < self.greatest)
    }

    /// Removes cells, puts a value on top and goes on; the checks are made.
    #[inline(always)]
    fn replace(&mut self, removed: usize, value: Value) -> Step {
        let at = self.height - removed;
        *self.frame.stack.get_mut(at).ok_or(Leave::Unsound)? = value;
        self.height = at + 1;
        self.place += 1;
        Ok(())
    }

    #[inline(always)]
    fn push(&mut self, value: Value) -> Step {
        self.room(self.height)?;
        self.replace(0, value)
    }

    #[inline(always)]
    fn load(&mut self, n: u8) -> Step {
        check(n < self.registers)?;
        let value = self.frame.registers.get(n as usize).copied().ok_or(Leave::Unsound)?;
        self.push(value)
    }

    #[inline(always)]
    fn store(&mut self, n: u8) -> Step {
        let value = self.cell(0)?;
        check(n < self.registers)?;
        *self.frame.registers.get_mut(n as usize).ok_or(Leave::Unsound)? = value;
        self.height -= 1;
        self.place += 1;
        Ok(())
    }

    #[inline(always)]
    fn pop(&mut self) -> Step {
        self.height = self.height.checked_sub(1).ok_or(Leave::Unsound)?;
        self.place += 1;
        Ok(())
    }

    #[inline(always)]
    fn new_object(&mut self, class: u8) -> Step {
        let row = self.tables.default_row(class).ok_or(Leave::Unsound)?;
        self.room(self.height)?;
        let address = self
            .heap
            .add(class, row.values())
            .ok_or(Leave::Throw(OUT_OF_MEMORY_AT))?;
        self.replace(0, Value::Addr(address))
    }

    /// The object that a field instruction works on; none for Null.
    #[inline(always)]
    fn object(&self, value: Value, class: u8) -> Result<Option<u16>, Leave> {
        match value {
            Value::Null => Ok(None),
            Value::Addr(address) => {
                let low = self.heap.class(address).ok_or(Leave::Unsound)?;
                check(self.tables.at_or_below(low, class))?;
                Ok(Some(address))
            }
            _ => Err(Leave::Unsound),
        }
    }

    /// The place of the present instruction in the whole set's code.
    #[inline(always)]
    fn at(&self) -> usize {
        self.first + self.place
    }

    #[inline(always)]
    fn getfield(&mut self, class: u8) -> Step {
        let field = self.tables.field(self.at()).ok_or(Leave::Unsound)?;
        let object = self.object(self.cell(0)?, class)?;
        self.room(self.height - 1)?;
        let address = object.ok_or(Leave::Throw(NULL_POINTER_AT))?;
        let value = self.heap.read(address, field.slot as usize).ok_or(Leave::Unsound)?;
        check(fits(self.tables, self.heap, value, field.ty))?;
        self.replace(1, value)
    }

    #[inline(always)]
    fn putfield(&mut self, class: u8) -> Step {
        let field = self.tables.field(self.at()).ok_or(Leave::Unsound)?;
        let value = self.cell(0)?;
        let object = self.object(self.cell(1)?, class)?;
        check(fits(self.tables, self.heap, value, field.ty))?;
        let address = object.ok_or(Leave::Throw(NULL_POINTER_AT))?;
        self.heap
            .write(address, field.slot as usize, value)
            .ok_or(Leave::Unsound)?;
        self.height -= 2;
        self.place += 1;
        Ok(())
    }

    #[inline(always)]
    fn checkcast(&mut self, class: u8) -> Step {
        let value = self.cell(0)?;
        check(self.tables.is_class(class))?;
        self.room(self.height - 1)?;
        match value {
            Value::Null => {}
            Value::Addr(address) => {
                let low = self.heap.class(address).ok_or(Leave::Unsound)?;
                if !self.tables.at_or_below(low, class) {
                    return Err(Leave::Throw(CLASS_CAST_AT));
                }
            }
            _ => return Err(Leave::Unsound),
        }
        self.place += 1;
        Ok(())
    }

    #[inline(always)]
    fn add(&mut self) -> Step {
        let (Value::Int(j), Value::Int(i)) = (self.cell(0)?, self.cell(1)?) else {
            return Err(Leave::Unsound);
        };
        self.room(self.height - 2)?;
        self.replace(2, Value::Int(i.wrapping_add(j)))
    }

    #[inline(always)]
    fn compare(&mut self) -> Step {
        let (w, v) = (self.cell(0)?, self.cell(1)?);
        self.room(self.height - 2)?;
        self.replace(2, Value::Bool(v == w))
    }

    #[inline(always)]
    fn target(&self, z: i16) -> Result<usize, Leave> {
        let target = self.place.wrapping_add_signed(z as isize);
        check(target < self.len)?;
        Ok(target)
    }

    #[inline(always)]
    fn if_false(&mut self, z: i16) -> Step {
        let Value::Bool(value) = self.cell(0)? else {
            return Err(Leave::Unsound);
        };
        let target = self.target(z)?;
        self.height -= 1;
        self.place = if value { self.place + 1 } else { target };
        Ok(())
    }

    #[inline(always)]
    fn jump(&mut self, z: i16) -> Step {
        self.place = self.target(z)?;
        Ok(())
    }

    #[inline(always)]
    fn throw(&mut self) -> Step {
        match self.cell(0)? {
            Value::Null => Err(Leave::Throw(NULL_POINTER_AT)),
            Value::Addr(address) => Err(Leave::Throw(address)),
            _ => Err(Leave::Unsound),
        }
    }
}
