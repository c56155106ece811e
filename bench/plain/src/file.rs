//! The file format: the reader that fills a set or refuses with number and place, and the writer.

use crate::heap::Value;
use crate::set::*;

/// The refusals of reading and verifying; the discriminant is the number.
#[derive(Clone, Copy, PartialEq, Eq, Debug)]
pub enum Fault {
    Cut = 1,
    Padded = 2,
    Oversize = 3,
    Outside = 4,
    Unknown = 5,
    Classless = 6,
    Twice = 7,
    Override = 8,
    LeftOver = 9,
    Untypable = 11,
}

#[derive(Clone, Copy, PartialEq, Eq, Debug)]
pub struct Refused {
    pub fault: Fault,
    pub place: usize,
}

type Read<T> = Result<T, Refused>;

/// Fills the set with the file's program; a refusal leaves it empty.
pub fn read(bytes: &[u8], set: &mut Set) -> Read<()> {
    set.clear();
    let mut reader = Reader {
        bytes,
        at: 0,
        began: 0,
        own_classes: 0,
        set,
    };
    let outcome = reader.file();
    if outcome.is_err() {
        set.clear();
    }
    outcome
}

struct Reader<'a> {
    bytes: &'a [u8],
    at: usize,
    /// Where the last number began: the place of every fault but one.
    began: usize,
    own_classes: u32,
    set: &'a mut Set,
}

impl Reader<'_> {
    fn refused(&self, fault: Fault) -> Refused {
        Refused {
            fault,
            place: self.began,
        }
    }

    fn check(&self, good: bool, fault: Fault) -> Read<()> {
        if good {
            Ok(())
        } else {
            Err(self.refused(fault))
        }
    }

    #[inline]
    fn number(&mut self) -> Read<u32> {
        self.began = self.at;
        match self.bytes.get(self.at) {
            Some(&byte) if byte < 128 => {
                self.at += 1;
                Ok(byte as u32)
            }
            _ => self.long_number(),
        }
    }

    fn long_number(&mut self) -> Read<u32> {
        let mut value = 0;
        for group in 0..5 {
            let Some(&byte) = self.bytes.get(self.at) else {
                return Err(self.refused(Fault::Cut));
            };
            self.at += 1;
            self.check(group < 4 || byte <= 15, Fault::Oversize)?;
            value |= (byte as u32 & 127) << (7 * group);
            if byte < 128 {
                self.check(byte != 0 || group == 0, Fault::Padded)?;
                break;
            }
        }
        Ok(value)
    }

    fn signed(&mut self) -> Read<i32> {
        let n = self.number()?;
        Ok((n >> 1) as i32 ^ -((n & 1) as i32))
    }

    fn up_to(&mut self, most: u32) -> Read<u32> {
        let n = self.number()?;
        self.check(n <= most, Fault::Outside)?;
        Ok(n)
    }

    fn byte(&mut self) -> Read<u8> {
        Ok(self.up_to(255)? as u8)
    }

    fn ty(&mut self) -> Read<Type> {
        let n = self.number()?;
        self.check(n < 8 + self.own_classes, Fault::Classless)?;
        Ok(Type(n as u8))
    }

    /// A count that together with what stands already keeps a limit.
    fn count(&mut self, already: usize, most: usize) -> Read<usize> {
        let n = self.number()? as usize;
        self.check(already + n <= most, Fault::Outside)?;
        Ok(n)
    }

    fn file(&mut self) -> Read<()> {
        self.own_classes = self.up_to(MAX_OWN_CLASSES as u32)?;
        for _ in 0..self.own_classes {
            self.class()?;
        }
        if self.at < self.bytes.len() {
            return Err(Refused {
                fault: Fault::LeftOver,
                place: self.at,
            });
        }
        Ok(())
    }

    fn class(&mut self) -> Read<()> {
        let number = self.set.class_count();
        let superclass = self.number()?;
        self.check((superclass as usize) < number, Fault::Classless)?;
        let superclass = superclass as u8;
        let inherited = self.set.own_class(superclass).map_or(0, |c| c.row_len);
        let fields = self.count(inherited as usize, MAX_FIELDS)?;
        let class = Class {
            superclass,
            first_field: self.set.fields.len() as u16,
            field_count: fields as u8,
            row_len: inherited + fields as u8,
            first_method: self.set.methods.len() as u8,
            method_count: 0,
        };
        for _ in 0..fields {
            self.field(class.first_field as usize)?;
        }
        self.set.classes.push(class);
        self.methods(number as u8)
    }

    fn field(&mut self, first: usize) -> Read<()> {
        let name = self.byte()?;
        let twice = self.set.fields[first..].iter().any(|f| f.name == name);
        self.check(!twice, Fault::Twice)?;
        let ty = self.ty()?;
        self.set.fields.push(Field { name, ty });
        Ok(())
    }

    /// The class grows by each method that is read, so that names declared twice are found in it.
    fn methods(&mut self, class: u8) -> Read<()> {
        let count = self.count(self.set.methods.len(), MAX_METHODS)?;
        for _ in 0..count {
            let method = self.method(class)?;
            self.set.methods.push(method);
            self.set.classes[class as usize - BUILT_IN].method_count += 1;
        }
        Ok(())
    }

    fn method(&mut self, class: u8) -> Read<Method> {
        let name = self.byte()?;
        let own = &self.set.classes[class as usize - BUILT_IN];
        let superclass = own.superclass;
        let twice = self.set.own_methods(own).iter().any(|m| m.name == name);
        self.check(!twice, Fault::Twice)?;
        let mut method = Method {
            class,
            name,
            parameter_count: self.up_to(MAX_PARAMETERS as u32)? as u8,
            parameters: [Type::VOID; MAX_PARAMETERS],
            result: Type::VOID,
            height: 0,
            registers: 0,
            first_code: self.set.code.len() as u16,
            code_len: 0,
            first_handler: self.set.handlers.len() as u8,
            handler_count: 0,
        };
        self.signature(&mut method, superclass)?;
        method.height = self.up_to(MAX_HEIGHT as u32)? as u8;
        let fixed = 1 + method.parameter_count as usize;
        method.registers = (fixed + self.count(fixed, MAX_REGISTERS)?) as u8;
        method.code_len = self.code()? as u16;
        method.handler_count = self.handlers()? as u8;
        Ok(method)
    }

    fn signature(&mut self, method: &mut Method, superclass: u8) -> Read<()> {
        for i in 0..method.parameter_count as usize {
            method.parameters[i] = self.ty()?;
        }
        method.result = self.ty()?;
        let kept = self
            .set
            .climb(superclass, method.name)
            .is_none_or(|seen| seen.same_types(method));
        self.check(kept, Fault::Override)
    }

    fn code(&mut self) -> Read<usize> {
        let count = self.count(self.set.code.len(), MAX_CODE)?;
        self.check((1..=MAX_METHOD_CODE).contains(&count), Fault::Outside)?;
        for _ in 0..count {
            let instruction = self.instruction()?;
            self.set.code.push(instruction);
        }
        Ok(count)
    }

    fn instruction(&mut self) -> Read<Instruction> {
        Ok(match self.number()? {
            0 => Instruction::Load(self.byte()?),
            1 => Instruction::Store(self.byte()?),
            2 => Instruction::Push(self.literal()?),
            3 => Instruction::Pop,
            4 => Instruction::New(self.byte()?),
            5 => Instruction::Getfield(self.byte()?, self.byte()?),
            6 => Instruction::Putfield(self.byte()?, self.byte()?),
            7 => Instruction::Checkcast(self.byte()?),
            8 => Instruction::Invoke(self.byte()?, self.byte()?),
            9 => Instruction::Return,
            10 => Instruction::IAdd,
            11 => Instruction::CmpEq,
            12 => Instruction::IfFalse(self.offset()?),
            13 => Instruction::Goto(self.offset()?),
            14 => Instruction::Throw,
            _ => return Err(self.refused(Fault::Unknown)),
        })
    }

    fn literal(&mut self) -> Read<Value> {
        Ok(match self.number()? {
            0 => Value::Unit,
            1 => Value::Null,
            2 => match self.number()? {
                0 => Value::Bool(false),
                1 => Value::Bool(true),
                _ => return Err(self.refused(Fault::Unknown)),
            },
            3 => Value::Int(self.signed()?),
            _ => return Err(self.refused(Fault::Unknown)),
        })
    }

    fn offset(&mut self) -> Read<i16> {
        let z = self.signed()?;
        self.check((-255..=255).contains(&z), Fault::Outside)?;
        Ok(z as i16)
    }

    fn handlers(&mut self) -> Read<usize> {
        let count = self.count(self.set.handlers.len(), MAX_HANDLERS)?;
        for _ in 0..count {
            let handler = Handler {
                first: self.up_to(256)? as u16,
                end: self.up_to(256)? as u16,
                class: self.byte()?,
                target: self.up_to(256)? as u16,
                depth: self.up_to(256)? as u16,
            };
            self.set.handlers.push(handler);
        }
        Ok(count)
    }
}

/// The bytes of a set.
pub fn write(set: &Set) -> Vec<u8> {
    let mut pen = Pen(Vec::new());
    pen.number(set.classes.len());
    for class in &set.classes {
        pen.class(set, class);
    }
    pen.0
}

struct Pen(Vec<u8>);

impl Pen {
    fn number(&mut self, n: usize) {
        let mut rest = n;
        while rest >= 128 {
            self.0.push(rest as u8 | 128);
            rest >>= 7;
        }
        self.0.push(rest as u8);
    }

    fn numbers(&mut self, all: &[usize]) {
        for &n in all {
            self.number(n);
        }
    }

    fn signed(&mut self, z: i32) {
        self.number(((z << 1) ^ (z >> 31)) as u32 as usize);
    }

    fn class(&mut self, set: &Set, class: &Class) {
        self.numbers(&[class.superclass as usize, class.field_count as usize]);
        for field in set.own_fields(class) {
            self.numbers(&[field.name as usize, field.ty.0 as usize]);
        }
        self.number(class.method_count as usize);
        for method in set.own_methods(class) {
            self.method(set, method);
        }
    }

    fn method(&mut self, set: &Set, method: &Method) {
        self.numbers(&[method.name as usize, method.parameter_count as usize]);
        for ty in method.parameters() {
            self.number(ty.0 as usize);
        }
        let extras = method.registers - 1 - method.parameter_count;
        self.numbers(&[method.result.0 as usize, method.height as usize, extras as usize]);
        self.number(method.code_len as usize);
        for instruction in set.code_of(method) {
            self.instruction(*instruction);
        }
        self.number(method.handler_count as usize);
        for h in set.handlers_of(method) {
            self.numbers(&[
                h.first as usize,
                h.end as usize,
                h.class as usize,
                h.target as usize,
                h.depth as usize,
            ]);
        }
    }

    fn instruction(&mut self, instruction: Instruction) {
        match instruction {
            Instruction::Load(n) => self.numbers(&[0, n as usize]),
            Instruction::Store(n) => self.numbers(&[1, n as usize]),
            Instruction::Push(value) => self.push(value),
            Instruction::Pop => self.number(3),
            Instruction::New(c) => self.numbers(&[4, c as usize]),
            Instruction::Getfield(f, c) => self.numbers(&[5, f as usize, c as usize]),
            Instruction::Putfield(f, c) => self.numbers(&[6, f as usize, c as usize]),
            Instruction::Checkcast(c) => self.numbers(&[7, c as usize]),
            Instruction::Invoke(m, n) => self.numbers(&[8, m as usize, n as usize]),
            Instruction::Return => self.number(9),
            Instruction::IAdd => self.number(10),
            Instruction::CmpEq => self.number(11),
            Instruction::IfFalse(z) => self.jump(12, z),
            Instruction::Goto(z) => self.jump(13, z),
            Instruction::Throw => self.number(14),
        }
    }

    fn jump(&mut self, opcode: usize, z: i16) {
        self.number(opcode);
        self.signed(z as i32);
    }

    fn push(&mut self, value: Value) {
        match value {
            Value::Unit => self.numbers(&[2, 0]),
            Value::Null => self.numbers(&[2, 1]),
            Value::Bool(b) => self.numbers(&[2, 2, b as usize]),
            Value::Int(i) => {
                self.numbers(&[2, 3]);
                self.signed(i);
            }
            Value::Addr(_) => unreachable!("no file pushes an address"),
        }
    }
}
