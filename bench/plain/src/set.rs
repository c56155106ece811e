//! The rule set in memory as flat tables, and the lookup tables that verifier and machine share.

use crate::heap::Value;

pub const OBJECT: u8 = 0;
pub const NULL_POINTER: u8 = 1;
pub const CLASS_CAST: u8 = 2;
pub const OUT_OF_MEMORY: u8 = 3;

/// How many classes are built in; own classes are numbered from here.
pub const BUILT_IN: usize = 4;
pub const MAX_OWN_CLASSES: usize = 28;
pub const MAX_CLASSES: usize = BUILT_IN + MAX_OWN_CLASSES;
pub const MAX_FIELDS: usize = 8;
pub const MAX_PARAMETERS: usize = 8;
pub const MAX_HEIGHT: usize = 16;
pub const MAX_REGISTERS: usize = 16;
pub const MAX_METHOD_CODE: usize = 256;
pub const MAX_METHODS: usize = 64;
pub const MAX_CODE: usize = 1024;
pub const MAX_HANDLERS: usize = 64;

/// A type by its number in a file: the four plain ones, then 4 + c for class c.
#[derive(Clone, Copy, PartialEq, Eq, Debug, Default)]
pub struct Type(pub u8);

impl Type {
    pub const VOID: Type = Type(0);
    pub const BOOLEAN: Type = Type(1);
    pub const INTEGER: Type = Type(2);
    pub const NULL: Type = Type(3);

    pub fn of_class(class: u8) -> Type {
        Type(class + 4)
    }

    pub fn class(self) -> Option<u8> {
        self.0.checked_sub(4)
    }

    pub fn is_reference(self) -> bool {
        self.0 >= Type::NULL.0
    }

    /// The value that a field of this type starts with.
    pub fn default_value(self) -> Value {
        match self {
            Type::VOID => Value::Unit,
            Type::BOOLEAN => Value::Bool(false),
            Type::INTEGER => Value::Int(0),
            _ => Value::Null,
        }
    }
}

#[derive(Clone, Copy, Debug)]
pub enum Instruction {
    Load(u8),
    Store(u8),
    /// The reader makes no address here.
    Push(Value),
    Pop,
    New(u8),
    Getfield(u8, u8),
    Putfield(u8, u8),
    Checkcast(u8),
    Invoke(u8, u8),
    Return,
    IAdd,
    CmpEq,
    IfFalse(i16),
    Goto(i16),
    Throw,
}

#[derive(Clone, Copy)]
pub struct Field {
    pub name: u8,
    pub ty: Type,
}

#[derive(Clone, Copy)]
pub struct Handler {
    pub first: u16,
    pub end: u16,
    pub class: u8,
    pub target: u16,
    pub depth: u16,
}

impl Handler {
    pub fn covers(&self, place: usize) -> bool {
        (self.first as usize) <= place && place < self.end as usize
    }
}

#[derive(Clone)]
pub struct Class {
    pub superclass: u8,
    pub first_field: u16,
    pub field_count: u8,
    /// All fields of an object, inherited ones included.
    pub row_len: u8,
    pub first_method: u8,
    pub method_count: u8,
}

#[derive(Clone)]
pub struct Method {
    pub class: u8,
    pub name: u8,
    pub parameter_count: u8,
    pub parameters: [Type; MAX_PARAMETERS],
    pub result: Type,
    pub height: u8,
    /// This object, parameters and extras together.
    pub registers: u8,
    pub first_code: u16,
    pub code_len: u16,
    pub first_handler: u8,
    pub handler_count: u8,
}

impl Method {
    pub fn parameters(&self) -> &[Type] {
        &self.parameters[..self.parameter_count as usize]
    }

    pub fn same_types(&self, other: &Method) -> bool {
        self.parameters() == other.parameters() && self.result == other.result
    }
}

/// A rule set: classes, fields, methods, code and handlers, each in file order.
#[derive(Clone, Default)]
pub struct Set {
    pub classes: Vec<Class>,
    pub fields: Vec<Field>,
    pub methods: Vec<Method>,
    pub code: Vec<Instruction>,
    pub handlers: Vec<Handler>,
}

impl Set {
    pub fn clear(&mut self) {
        self.classes.clear();
        self.fields.clear();
        self.methods.clear();
        self.code.clear();
        self.handlers.clear();
    }

    pub fn class_count(&self) -> usize {
        BUILT_IN + self.classes.len()
    }

    pub fn own_class(&self, class: u8) -> Option<&Class> {
        self.classes.get((class as usize).checked_sub(BUILT_IN)?)
    }

    pub fn own_fields(&self, class: &Class) -> &[Field] {
        let first = class.first_field as usize;
        &self.fields[first..first + class.field_count as usize]
    }

    pub fn own_methods(&self, class: &Class) -> &[Method] {
        let first = class.first_method as usize;
        &self.methods[first..first + class.method_count as usize]
    }

    pub fn code_of(&self, method: &Method) -> &[Instruction] {
        let first = method.first_code as usize;
        &self.code[first..first + method.code_len as usize]
    }

    pub fn handlers_of(&self, method: &Method) -> &[Handler] {
        let first = method.first_handler as usize;
        &self.handlers[first..first + method.handler_count as usize]
    }

    /// The method of this name that is declared nearest upward, by a climb.
    pub fn climb(&self, mut class: u8, name: u8) -> Option<&Method> {
        while let Some(own) = self.own_class(class) {
            if let Some(method) = self.own_methods(own).iter().find(|m| m.name == name) {
                return Some(method);
            }
            class = own.superclass;
        }
        None
    }
}

/// Where a declared field stands in a row, and its type.
#[derive(Clone, Copy)]
pub struct FieldPlace {
    pub slot: u8,
    pub ty: Type,
}

/// The row that a new object of a class starts with.
#[derive(Clone, Copy)]
pub struct DefaultRow {
    values: [Value; MAX_FIELDS],
    len: u8,
}

impl DefaultRow {
    pub fn values(&self) -> &[Value] {
        &self.values[..self.len as usize]
    }
}

const NO_METHOD: u8 = 255;

/// Lookups prepared once a set, so that no step climbs or searches.
#[derive(Clone)]
pub struct Tables {
    class_count: u8,
    superclass: [u8; MAX_CLASSES],
    /// Bit d of entry c: class c is at or below class d.
    upward: [u32; MAX_CLASSES],
    seen: Vec<[u8; 256]>,
    rows: Vec<DefaultRow>,
    /// For each Getfield and Putfield of the code its field, if the class named declares it.
    fields: Vec<Option<FieldPlace>>,
}

impl Tables {
    pub fn of(set: &Set) -> Tables {
        let empty_row = DefaultRow {
            values: [Value::Unit; MAX_FIELDS],
            len: 0,
        };
        let mut tables = Tables {
            class_count: set.class_count() as u8,
            superclass: [OBJECT; MAX_CLASSES],
            upward: [0; MAX_CLASSES],
            seen: vec![[NO_METHOD; 256]; BUILT_IN],
            rows: vec![empty_row; BUILT_IN],
            fields: Vec::with_capacity(set.code.len()),
        };
        for class in 0..BUILT_IN {
            tables.upward[class] = 1 << class | 1 << OBJECT;
        }
        for class in &set.classes {
            tables.add_class(set, class);
        }
        tables.fields.extend(set.code.iter().map(|i| field_place(set, *i)));
        tables
    }

    /// Superclasses are smaller, so their entries are complete when a class copies them.
    fn add_class(&mut self, set: &Set, class: &Class) {
        let number = self.seen.len();
        let superclass = class.superclass as usize;
        self.superclass[number] = class.superclass;
        self.upward[number] = self.upward[superclass] | 1 << number;
        let mut seen = self.seen[superclass];
        for (i, method) in set.own_methods(class).iter().enumerate() {
            seen[method.name as usize] = class.first_method + i as u8;
        }
        self.seen.push(seen);
        let mut row = self.rows[superclass];
        for field in set.own_fields(class) {
            row.values[row.len as usize] = field.ty.default_value();
            row.len += 1;
        }
        self.rows.push(row);
    }

    #[inline]
    pub fn is_class(&self, class: u8) -> bool {
        class < self.class_count
    }

    #[inline]
    pub fn superclass(&self, class: u8) -> u8 {
        self.superclass[class as usize]
    }

    /// A number that is no class is at or below nothing, and nothing is at or below it.
    #[inline]
    pub fn at_or_below(&self, low: u8, high: u8) -> bool {
        let bits = self.upward.get(low as usize).copied().unwrap_or(0);
        bits.checked_shr(high as u32).unwrap_or(0) & 1 == 1
    }

    #[inline]
    pub fn below(&self, low: Type, high: Type) -> bool {
        low == high
            || match (low.class(), high.class()) {
                (Some(c), Some(d)) => self.at_or_below(c, d),
                (None, Some(_)) => low == Type::NULL,
                _ => false,
            }
    }

    /// The number of the method that a class sees under a name.
    #[inline]
    pub fn seen(&self, class: u8, name: u8) -> Option<usize> {
        match self.seen.get(class as usize)?[name as usize] {
            NO_METHOD => None,
            method => Some(method as usize),
        }
    }

    #[inline]
    pub fn default_row(&self, class: u8) -> Option<&DefaultRow> {
        self.rows.get(class as usize)
    }

    /// The field that the instruction at this place of the whole code names.
    #[inline]
    pub fn field(&self, at: usize) -> Option<FieldPlace> {
        *self.fields.get(at)?
    }
}

fn field_place(set: &Set, instruction: Instruction) -> Option<FieldPlace> {
    let (Instruction::Getfield(name, class) | Instruction::Putfield(name, class)) = instruction else {
        return None;
    };
    let own = set.own_class(class)?;
    let fields = set.own_fields(own);
    let i = fields.iter().position(|f| f.name == name)?;
    Some(FieldPlace {
        slot: own.row_len - own.field_count + i as u8,
        ty: fields[i].ty,
    })
}
