//! The machine over any heap: making, begin, step, run, end and looking. The checked step itself is in `step`.

mod frame;
mod step;

use std::rc::Rc;

pub use frame::Frame;
use frame::Frames;
use step::{Event, Stepper};

use crate::heap::{Heap, Value};
use crate::set::{Type, CLASS_CAST, NULL_POINTER, OUT_OF_MEMORY};
use crate::verify::Accepted;

/// Where begin puts the object of the class named.
const THIS: u16 = 3;

/// The refusals of the machine's calls; the discriminant is the number.
#[derive(Clone, Copy, PartialEq, Eq, Debug)]
pub enum Refusal {
    Busy = 12,
    Unseen = 13,
    Argument = 14,
    NoSpace = 15,
    Idle = 16,
    Ticket = 17,
}

#[derive(Clone, Copy, PartialEq, Eq, Debug)]
pub enum Phase {
    Idle,
    Running,
    Finished(Value),
    Uncaught(u16),
}

/// What a step answers; the discriminant is the number.
#[derive(Clone, Copy, PartialEq, Eq, Debug)]
pub enum Answer {
    Stepped = 0,
    Finished = 1,
    Uncaught = 2,
    FramesFull = 3,
    Unsound = 4,
}

/// Handed out by begin, taken back by end.
#[must_use]
#[derive(Debug)]
pub struct Ticket {
    machine: u32,
}

pub struct Ended {
    pub phase: Phase,
    pub steps: u64,
}

pub struct Machine<H> {
    program: Rc<Accepted>,
    number: u32,
    heap: H,
    phase: Phase,
    frames: Frames,
    steps: u64,
}

impl<H: Heap> Machine<H> {
    pub fn new(program: Rc<Accepted>, mut heap: H, number: u32) -> Machine<H> {
        heap.empty();
        Machine {
            program,
            number,
            heap,
            phase: Phase::Idle,
            frames: Frames::new(),
            steps: 0,
        }
    }

    pub fn begin(&mut self, class: u8, name: u8, arguments: &[Value]) -> Result<Ticket, Refusal> {
        if self.phase != Phase::Idle {
            return Err(Refusal::Busy);
        }
        let program = self.program.clone();
        let seen = program.tables.seen(class, name).ok_or(Refusal::Unseen)?;
        let method = &program.set.methods[seen];
        let fit = arguments
            .iter()
            .zip(method.parameters())
            .all(|(v, t)| argument_fits(*v, *t));
        if arguments.len() != method.parameters().len() || !fit {
            return Err(Refusal::Argument);
        }
        self.heap.empty();
        if self.first_objects(class).is_none() {
            self.heap.empty();
            return Err(Refusal::NoSpace);
        }
        self.frames.open(seen, method, Value::Addr(THIS), arguments);
        self.steps = 0;
        self.phase = Phase::Running;
        Ok(Ticket { machine: self.number })
    }

    fn first_objects(&mut self, class: u8) -> Option<()> {
        for class in [NULL_POINTER, CLASS_CAST, OUT_OF_MEMORY, class] {
            self.heap.add(class, self.program.tables.default_row(class)?.values())?;
        }
        Some(())
    }

    pub fn step(&mut self) -> Result<Answer, Refusal> {
        Ok(self.run(1)?.1)
    }

    /// Steps until so many answered 0 or another answer came: how many did, and the last answer.
    pub fn run(&mut self, most: u64) -> Result<(u64, Answer), Refusal> {
        let answer = match self.phase {
            Phase::Idle => return Err(Refusal::Idle),
            Phase::Running => return Ok(self.run_frames(most)),
            Phase::Finished(_) => Answer::Finished,
            Phase::Uncaught(_) => Answer::Uncaught,
        };
        Ok((0, if most == 0 { Answer::Stepped } else { answer }))
    }

    fn run_frames(&mut self, most: u64) -> (u64, Answer) {
        let mut stepper = Stepper {
            program: &self.program,
            heap: &mut self.heap,
            frames: &mut self.frames,
        };
        let (done, event) = stepper.run(most);
        let mut answer = Answer::Stepped;
        match event {
            Event::Enough => {}
            Event::FramesFull => answer = Answer::FramesFull,
            Event::Unsound => answer = Answer::Unsound,
            Event::Finished(value) => {
                self.phase = Phase::Finished(value);
                answer = Answer::Finished;
            }
            Event::Uncaught(address) => {
                self.phase = Phase::Uncaught(address);
                answer = Answer::Uncaught;
            }
        }
        self.steps = self.steps.saturating_add(done);
        // The step that leaves the last frame answers 0 itself; only a further one says so.
        if done == most {
            answer = Answer::Stepped;
        }
        (done, answer)
    }

    pub fn end(&mut self, ticket: Ticket) -> Result<Ended, (Refusal, Ticket)> {
        if self.phase == Phase::Idle {
            return Err((Refusal::Idle, ticket));
        }
        if ticket.machine != self.number {
            return Err((Refusal::Ticket, ticket));
        }
        let phase = std::mem::replace(&mut self.phase, Phase::Idle);
        self.frames.close_all();
        Ok(Ended {
            phase,
            steps: self.steps,
        })
    }

    pub fn phase(&self) -> Phase {
        self.phase
    }

    /// The standing frames, the bottom one first.
    pub fn frames(&self) -> &[Frame] {
        self.frames.standing()
    }

    pub fn program(&self) -> &Accepted {
        &self.program
    }

    pub fn heap(&self) -> &H {
        &self.heap
    }
}

/// No address is ever an argument: begin empties the heap.
fn argument_fits(value: Value, ty: Type) -> bool {
    match value {
        Value::Unit => ty == Type::VOID,
        Value::Null => ty.is_reference(),
        Value::Bool(_) => ty == Type::BOOLEAN,
        Value::Int(_) => ty == Type::INTEGER,
        Value::Addr(_) => false,
    }
}
