//! Measuring: how long a step, a verification and a read of a rule-set file take.

use std::hint::black_box;
use std::rc::Rc;
use std::time::Instant;

use crate::file::{self, Refused};
use crate::heap::{BaseHeap, Heap, HeapPlan, UseHeap, Value};
use crate::machine::{Answer, Machine, Refusal};
use crate::set::Set;
use crate::shell::{base_heap, byte, line_of, number, value};
use crate::verify;

pub fn measure(words: &[String]) -> Result<(), String> {
    let words: Vec<&str> = words.iter().map(String::as_str).collect();
    match words[..] {
        ["run", ref rest @ ..] => measure_run(&Options::parse(rest)?),
        ["verify", path, times] => measure_verify(path, number(times, u64::MAX)?),
        ["read", path, times] => measure_read(path, number(times, u64::MAX)?),
        _ => Err("bench run, bench verify or bench read".to_string()),
    }
}

struct Options {
    path: String,
    class: u8,
    name: u8,
    steps: u64,
    values: Vec<Value>,
    plan: HeapPlan,
    again: bool,
}

impl Options {
    fn parse(words: &[&str]) -> Result<Options, String> {
        let [path, class, name, steps, rest @ ..] = words else {
            return Err("bench run FILE CLASS NAME STEPS [VALUE...]".to_string());
        };
        let mut options = Options {
            path: path.to_string(),
            class: byte(class)?,
            name: byte(name)?,
            steps: number(steps, u64::MAX)?,
            values: Vec::new(),
            plan: HeapPlan {
                base: BaseHeap::Slot,
                allowances: Vec::new(),
            },
            again: false,
        };
        let mut rest = rest.iter();
        while let Some(word) = rest.next() {
            match *word {
                "--again" => options.again = true,
                "--heap" => options.plan.base = base_heap(rest.next().ok_or("slot or cell?")?)?,
                "--allowance" => options.allowance(rest.next().ok_or("F,P,T?")?)?,
                other => options.values.push(value(other)?),
            }
        }
        Ok(options)
    }

    fn allowance(&mut self, word: &str) -> Result<(), String> {
        let triple = word
            .split(',')
            .map(|w| number(w, 65_535))
            .collect::<Result<Vec<u64>, _>>()?;
        if triple.len() != 3 || self.plan.allowances.len() == HeapPlan::MAX_ALLOWANCES {
            return Err("up to two allowances F,P,T".to_string());
        }
        self.plan.allowances.push(line_of(&triple));
        Ok(())
    }
}

fn measure_run(options: &Options) -> Result<(), String> {
    options.plan.build(Run(options))
}

struct Run<'a>(&'a Options);

impl UseHeap for Run<'_> {
    type Out = Result<(), String>;

    fn with<H: Heap + 'static>(self, heap: H) -> Result<(), String> {
        let options = self.0;
        let accepted = verify::load(&bytes(&options.path)?, &mut Set::default()).map_err(refused)?;
        let mut machine = Machine::new(Rc::new(accepted), heap, 1);
        let began = Instant::now();
        let made = run(&mut machine, options).map_err(|r| format!("refused {}", r as u8))?;
        let nanoseconds = began.elapsed().as_nanos() as f64;
        println!("steps={made}");
        println!("ns-per-step={:.3}", nanoseconds / made.max(1) as f64);
        Ok(())
    }
}

/// Makes the steps asked for; a run that ends before is begun again if the options say so.
fn run<H: Heap>(machine: &mut Machine<H>, options: &Options) -> Result<u64, Refusal> {
    let mut made = 0;
    loop {
        let ticket = machine.begin(options.class, options.name, &options.values)?;
        let (count, answer) = machine.run(options.steps - made)?;
        made += count;
        machine.end(ticket).map_err(|(refusal, _)| refusal)?;
        let over = matches!(answer, Answer::Finished | Answer::Uncaught);
        if !(options.again && over && made < options.steps) {
            return Ok(made);
        }
    }
}

fn measure_verify(path: &str, times: u64) -> Result<(), String> {
    let mut set = Set::default();
    file::read(&bytes(path)?, &mut set).map_err(refused)?;
    let began = Instant::now();
    for _ in 0..times {
        black_box(verify::verify(black_box(&set)).map_err(refused)?);
    }
    println!("us-per-verification={:.3}", microseconds(began, times));
    Ok(())
}

fn measure_read(path: &str, times: u64) -> Result<(), String> {
    let bytes = bytes(path)?;
    let mut set = Set::default();
    let began = Instant::now();
    for _ in 0..times {
        file::read(black_box(&bytes), black_box(&mut set)).map_err(refused)?;
    }
    println!("us-per-read={:.3}", microseconds(began, times));
    Ok(())
}

fn microseconds(began: Instant, times: u64) -> f64 {
    began.elapsed().as_nanos() as f64 / 1000.0 / times.max(1) as f64
}

fn bytes(path: &str) -> Result<Vec<u8>, String> {
    std::fs::read(path).map_err(|e| format!("{path}: {e}"))
}

fn refused(refused: Refused) -> String {
    format!("refused {} at {}", refused.fault as u8, refused.place)
}
