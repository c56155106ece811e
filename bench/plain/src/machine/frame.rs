//! Frames in place: each has its operand stack and registers in itself, and nothing is cleared that is not used.

use crate::heap::Value;
use crate::set::{Method, MAX_HEIGHT, MAX_REGISTERS};

pub const MAX_FRAMES: usize = 32;

#[derive(Clone, Copy)]
pub struct Frame {
    /// The method's number over the whole set.
    pub method: usize,
    pub place: usize,
    pub height: usize,
    pub stack: [Value; MAX_HEIGHT],
    pub registers: [Value; MAX_REGISTERS],
}

pub struct Frames {
    all: Box<[Frame; MAX_FRAMES]>,
    count: usize,
}

impl Frames {
    pub fn new() -> Frames {
        let frame = Frame {
            method: 0,
            place: 0,
            height: 0,
            stack: [Value::Unit; MAX_HEIGHT],
            registers: [Value::Unit; MAX_REGISTERS],
        };
        Frames {
            all: Box::new([frame; MAX_FRAMES]),
            count: 0,
        }
    }

    pub fn standing(&self) -> &[Frame] {
        &self.all[..self.count]
    }

    #[inline]
    pub fn is_full(&self) -> bool {
        self.count >= MAX_FRAMES
    }

    #[inline]
    pub fn top(&mut self) -> Option<&mut Frame> {
        self.all.get_mut(self.count.checked_sub(1)?)
    }

    /// The top frame and the one that called it.
    #[inline]
    pub fn top_and_caller(&mut self) -> Option<(&mut Frame, Option<&mut Frame>)> {
        let (top, below) = self.all.get_mut(..self.count)?.split_last_mut()?;
        Some((top, below.last_mut()))
    }

    /// Opens a frame at the method's first instruction; the caller makes sure that there is room.
    #[inline]
    pub fn open(&mut self, number: usize, method: &Method, this: Value, arguments: &[Value]) {
        enter(&mut self.all[self.count], number, method, this, arguments);
        self.count += 1;
    }

    /// Opens a frame for an Invoke whose receiver stands at this cell of the top frame, arguments above it.
    #[inline]
    pub fn open_from_top(&mut self, number: usize, method: &Method, receiver_at: usize) -> Option<()> {
        let (low, high) = self.all.split_at_mut_checked(self.count)?;
        let (caller, frame) = (low.last()?, high.first_mut()?);
        let cells = caller.stack.get(receiver_at..caller.height)?;
        let (this, arguments) = cells.split_first()?;
        enter(frame, number, method, *this, arguments);
        self.count += 1;
        Some(())
    }

    #[inline]
    pub fn close_top(&mut self) {
        self.count -= 1;
    }

    /// Closes all frames above this one.
    pub fn close_above(&mut self, index: usize) {
        self.count = index + 1;
    }

    pub fn close_all(&mut self) {
        self.count = 0;
    }
}

#[inline]
fn enter(frame: &mut Frame, number: usize, method: &Method, this: Value, arguments: &[Value]) {
    frame.method = number;
    frame.place = 0;
    frame.height = 0;
    frame.registers[0] = this;
    let extras = 1 + arguments.len();
    for (register, value) in frame.registers[1..].iter_mut().zip(arguments) {
        *register = *value;
    }
    for register in &mut frame.registers[extras..method.registers as usize] {
        *register = Value::Unit;
    }
}
