//! The shell: one command a line in, one answer line out, so that two machines can be fed the same script.

use std::fmt::Write as _;
use std::io::{self, BufRead, Write};
use std::rc::Rc;

use crate::file::{self, Refused};
use crate::heap::{BaseHeap, Heap, HeapPlan, Line, UseHeap, Value};
use crate::machine::{Frame, Machine, Phase, Ticket};
use crate::set::Set;
use crate::verify::{self, Accepted};

/// Answers every line of standard input, and flushes when no further line is waiting.
pub fn talk() -> io::Result<()> {
    let mut input = io::BufReader::new(io::stdin().lock());
    let mut output = io::BufWriter::new(io::stdout().lock());
    let mut shell = Shell::new();
    let mut line = Vec::new();
    while input.read_until(b'\n', &mut line)? > 0 {
        let text = String::from_utf8_lossy(&line);
        if let Some(answer) = shell.line(text.trim()) {
            writeln!(output, "{answer}")?;
        }
        if input.buffer().is_empty() {
            output.flush()?;
        }
        line.clear();
    }
    output.flush()
}

type Answer = Result<String, String>;

struct Shell {
    plan: HeapPlan,
    set: Set,
    accepted: Rc<Accepted>,
    machine: Option<Box<dyn Session>>,
}

impl Shell {
    fn new() -> Shell {
        Shell {
            plan: HeapPlan {
                base: BaseHeap::Slot,
                allowances: Vec::new(),
            },
            set: Set::default(),
            accepted: Rc::new(Accepted::empty()),
            machine: None,
        }
    }

    fn line(&mut self, text: &str) -> Option<String> {
        if text.is_empty() || text.starts_with('#') {
            return None;
        }
        let answer = self.command(text);
        Some(answer.unwrap_or_else(|message| format!("error: {message}")))
    }

    fn command(&mut self, text: &str) -> Answer {
        let words: Vec<&str> = text.split_whitespace().collect();
        let rest = &words[1..];
        match words[0] {
            "heap" => self.heap(rest),
            "read" => self.read(&bytes(rest)?),
            "load" => self.load(&bytes(rest)?),
            "write" => no_words(rest).map(|()| hexadecimal(&file::write(&self.set))),
            "table" => self.table(rest),
            "make" => self.make(rest),
            "begin" | "step" | "run" | "end" | "look" | "objects" | "use" => {
                let machine = self.machine.as_mut().ok_or("no machine")?;
                machine.command(words[0], rest)
            }
            other => Err(format!("no command {other}")),
        }
    }

    fn heap(&mut self, words: &[&str]) -> Answer {
        let (base, rest) = words.split_first().ok_or("slot or cell?")?;
        let base = base_heap(base)?;
        let numbers = rest
            .iter()
            .map(|w| number(w, 65_535))
            .collect::<Result<Vec<u64>, _>>()?;
        if numbers.len() % 3 != 0 || numbers.len() > 3 * HeapPlan::MAX_ALLOWANCES {
            return Err("allowances are up to two triples".to_string());
        }
        self.plan = HeapPlan {
            base,
            allowances: numbers.chunks(3).map(line_of).collect(),
        };
        Ok("heap ok".to_string())
    }

    fn read(&mut self, bytes: &[u8]) -> Answer {
        Ok(match file::read(bytes, &mut self.set) {
            Ok(()) => format!("read {}", counts(&self.set)),
            Err(refused) => refusal(refused),
        })
    }

    fn load(&mut self, bytes: &[u8]) -> Answer {
        Ok(match verify::load(bytes, &mut self.set) {
            Ok(accepted) => {
                self.accepted = Rc::new(accepted);
                format!("accepted {}", counts(&self.set))
            }
            Err(refused) => refusal(refused),
        })
    }

    fn table(&mut self, words: &[&str]) -> Answer {
        let [class, name] = words else {
            return Err("table CLASS NAME".to_string());
        };
        let (class, name) = (byte(class)?, byte(name)?);
        Ok(match self.accepted.least_table(class, name) {
            Some(numbers) => joined(numbers.iter().map(u16::to_string)),
            None => "refused 13".to_string(),
        })
    }

    fn make(&mut self, words: &[&str]) -> Answer {
        let [number_word] = words else {
            return Err("make NUMBER".to_string());
        };
        let number = number(number_word, u32::MAX as u64)? as u32;
        if let Some(old) = &mut self.machine {
            old.close();
        }
        self.machine = Some(self.plan.build(Make {
            program: self.accepted.clone(),
            number,
        }));
        Ok("made".to_string())
    }
}

struct Make {
    program: Rc<Accepted>,
    number: u32,
}

impl UseHeap for Make {
    type Out = Box<dyn Session>;

    fn with<H: Heap + 'static>(self, heap: H) -> Box<dyn Session> {
        Box::new(Open {
            machine: Machine::new(self.program, heap, self.number),
            ticket: None,
        })
    }
}

/// A machine over some heap, with the ticket of its open run.
trait Session {
    fn command(&mut self, command: &str, words: &[&str]) -> Answer;
    /// Ends an open run.
    fn close(&mut self);
}

struct Open<H> {
    machine: Machine<H>,
    ticket: Option<Ticket>,
}

impl<H: Heap> Session for Open<H> {
    fn command(&mut self, command: &str, words: &[&str]) -> Answer {
        match command {
            "begin" => return self.begin(words),
            "run" => return self.run(words),
            _ => no_words(words)?,
        }
        Ok(match command {
            "step" => self.step(),
            "end" => self.end(),
            "look" => self.look(),
            "objects" => self.objects(),
            _ => self.usage(),
        })
    }

    fn close(&mut self) {
        self.end();
    }
}

impl<H: Heap> Open<H> {
    fn begin(&mut self, words: &[&str]) -> Answer {
        let [class, name, values @ ..] = words else {
            return Err("begin CLASS NAME VALUE...".to_string());
        };
        let (class, name) = (byte(class)?, byte(name)?);
        let values = values.iter().map(|w| value(w)).collect::<Result<Vec<Value>, _>>()?;
        Ok(match self.machine.begin(class, name, &values) {
            Ok(ticket) => {
                self.ticket = Some(ticket);
                "begun".to_string()
            }
            Err(refusal) => format!("refused {}", refusal as u8),
        })
    }

    fn step(&mut self) -> String {
        match self.machine.step() {
            Ok(answer) => format!("answer {}", answer as u8),
            Err(refusal) => format!("refused {}", refusal as u8),
        }
    }

    fn run(&mut self, words: &[&str]) -> Answer {
        let [most] = words else { return Err("run N".to_string()) };
        Ok(match self.machine.run(number(most, u64::MAX)?) {
            Ok((count, answer)) => format!("ran {count} answer {}", answer as u8),
            Err(refusal) => format!("refused {}", refusal as u8),
        })
    }

    /// Without an open run there is no ticket, and the machine is idle.
    fn end(&mut self) -> String {
        let Some(ticket) = self.ticket.take() else {
            return "refused 16".to_string();
        };
        match self.machine.end(ticket) {
            Ok(ended) => format!("ended {} {} {}", phase(ended.phase), ended.steps, outcome(ended.phase)),
            Err((refusal, ticket)) => {
                self.ticket = Some(ticket);
                format!("refused {}", refusal as u8)
            }
        }
    }

    fn look(&self) -> String {
        let mut out = phase(self.machine.phase()).to_string();
        for frame in self.machine.frames().iter().rev() {
            let registers = self.machine.program().set.methods[frame.method].registers as usize;
            show_frame(&mut out, frame, registers);
        }
        out
    }

    fn objects(&self) -> String {
        let heap = self.machine.heap();
        let mut out = heap.count().to_string();
        for address in 0..heap.count() as u16 {
            let class = heap.class(address).unwrap_or_default();
            let row = (0..heap.row_len(address).unwrap_or(0)).filter_map(|f| heap.read(address, f));
            let _ = write!(out, " | class {class} [{}]", joined(row.map(shown)));
        }
        out
    }

    fn usage(&self) -> String {
        let heap = self.machine.heap();
        joined(
            heap.lines()
                .iter()
                .map(|line| format!("{}/{}", line.usage(heap), line.total)),
        )
    }
}

fn show_frame(out: &mut String, frame: &Frame, registers: usize) {
    let stack = joined(frame.stack[..frame.height].iter().map(|v| shown(*v)));
    let registers = joined(frame.registers[..registers].iter().map(|v| shown(*v)));
    let _ = write!(
        out,
        " | method {} at {} stack [{stack}] registers [{registers}]",
        frame.method, frame.place
    );
}

fn counts(set: &Set) -> String {
    format!(
        "classes {} methods {} instructions {}",
        set.classes.len(),
        set.methods.len(),
        set.code.len()
    )
}

fn refusal(refused: Refused) -> String {
    format!("refused {} at {}", refused.fault as u8, refused.place)
}

fn phase(phase: Phase) -> &'static str {
    match phase {
        Phase::Idle => "idle",
        Phase::Running => "running",
        Phase::Finished(_) => "finished",
        Phase::Uncaught(_) => "uncaught",
    }
}

fn outcome(phase: Phase) -> String {
    match phase {
        Phase::Finished(value) => shown(value),
        Phase::Uncaught(address) => shown(Value::Addr(address)),
        Phase::Idle | Phase::Running => "-".to_string(),
    }
}

fn shown(value: Value) -> String {
    match value {
        Value::Unit => "unit".to_string(),
        Value::Null => "null".to_string(),
        Value::Bool(b) => b.to_string(),
        Value::Int(i) => i.to_string(),
        Value::Addr(a) => format!("@{a}"),
    }
}

fn joined(words: impl Iterator<Item = String>) -> String {
    words.collect::<Vec<_>>().join(" ")
}

fn hexadecimal(bytes: &[u8]) -> String {
    bytes.iter().fold(String::new(), |mut out, byte| {
        let _ = write!(out, "{byte:02x}");
        out
    })
}

fn no_words(words: &[&str]) -> Result<(), String> {
    match words.first() {
        None => Ok(()),
        Some(word) => Err(format!("{word} is too much")),
    }
}

/// Pairs of hexadecimal digits, with spaces anywhere.
fn bytes(words: &[&str]) -> Result<Vec<u8>, String> {
    let digits = words
        .concat()
        .chars()
        .map(|c| c.to_digit(16))
        .collect::<Option<Vec<u32>>>();
    let digits = digits.ok_or("bytes are hexadecimal digits")?;
    if digits.len() % 2 != 0 {
        return Err("half a byte".to_string());
    }
    Ok(digits.chunks(2).map(|pair| (pair[0] * 16 + pair[1]) as u8).collect())
}

pub fn base_heap(word: &str) -> Result<BaseHeap, String> {
    match word {
        "slot" => Ok(BaseHeap::Slot),
        "cell" => Ok(BaseHeap::Cell),
        other => Err(format!("no heap {other}")),
    }
}

pub fn line_of(triple: &[u64]) -> Line {
    Line {
        fixed: triple[0] as u16,
        per_field: triple[1] as u16,
        total: triple[2] as u16,
    }
}

/// A number in decimal digits alone.
pub fn number(word: &str, most: u64) -> Result<u64, String> {
    let digits = !word.is_empty() && word.bytes().all(|b| b.is_ascii_digit());
    let n = word.parse::<u64>().ok().filter(|n| digits && *n <= most);
    n.ok_or_else(|| format!("{word} is no number up to {most}"))
}

pub fn byte(word: &str) -> Result<u8, String> {
    Ok(number(word, 255)? as u8)
}

pub fn value(word: &str) -> Result<Value, String> {
    Ok(match word {
        "unit" => Value::Unit,
        "null" => Value::Null,
        "true" => Value::Bool(true),
        "false" => Value::Bool(false),
        _ => match word.strip_prefix('@') {
            Some(address) => Value::Addr(number(address, 65_535)? as u16),
            None => Value::Int(integer(word)?),
        },
    })
}

fn integer(word: &str) -> Result<i32, String> {
    let i = word.parse::<i32>().ok().filter(|_| !word.starts_with('+'));
    i.ok_or_else(|| format!("{word} is no value"))
}
