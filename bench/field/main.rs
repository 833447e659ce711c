// strip.py writes the names of the modules before this text.
mod beside;
mod crew;
mod drawn;
mod pool;
mod programs;
mod work;

use oss_code::Code;
use oss_field::{Field, FieldSeat};
use oss_jobs::Job;
use oss_model::Answer;
use prelude::{Box, Global};
use std::string::String;
use std::vec::Vec;

/// The ticks that a task may take.
const FUEL: u32 = 1_000_000;

/// The code of a program; `None` if it is none.
fn code_of(text: &str) -> Option<Code> {
    let program = oss_parse::parse(Global, text.as_bytes()).ok()?;
    let known = oss_names::resolve(Global, program).ok()?;
    oss_lower::lower(Global, &known).ok()
}

/// A field with so many entries, in which main stands at its beginning.
fn field_of(code: &Code, entries: u32) -> (Field, FieldSeat) {
    let Ok(body) = oss_body::main_body(Global, code, FUEL) else {
        panic!("memory");
    };
    let Ok(accesses) = body.accesses() else {
        panic!("memory");
    };
    let Ok(job) = Job::new(Global, body, &accesses) else {
        panic!("memory");
    };
    let Ok(job) = Box::new(Global, job) else {
        panic!("memory");
    };
    match Field::new(Global, code, FUEL, entries, job) {
        Ok(made) => made,
        Err(_) => panic!("memory"),
    }
}

/// What the sequential run of a code prints; `None` if a fault ends it.
fn printed(code: &Code) -> Option<Vec<u8>> {
    let Ok(ran) = oss_serial::serial(Global, code, FUEL) else {
        panic!("memory");
    };
    match ran.answer {
        Answer::Done(output, _) => Some(output.as_slice().to_vec()),
        Answer::Fault(_, _, _) => None,
    }
}

/// How many tasks a random program of this start has at most.
fn size_of(start: u64) -> u32 {
    4 + (start % 21) as u32
}

/// The program of this start, and its code.
fn program_of(start: u64) -> (String, Code) {
    let text = programs::program(start, size_of(start));
    match code_of(&text) {
        Some(code) => (text, code),
        None => panic!("start {start}: this is no program:\n{text}"),
    }
}

/// Tells a difference, with the program and the steps, and ends.
fn tell(start: u64, why: &str, text: &str, steps: &[String]) -> ! {
    println!("start {start}: {why}\n{text}");
    for step in steps {
        println!("  {step}");
    }
    std::process::exit(1);
}

/// What a panic said.
fn said(why: std::boxed::Box<dyn std::any::Any + Send>) -> String {
    let text = why.downcast_ref::<String>().cloned();
    text.or(why.downcast_ref::<&str>().map(|why| why.to_string()))
        .unwrap_or_default()
}

/// Random programs beside the core, from this start on.
fn beside_all(from: u64, count: u64) {
    let mut counts = beside::Counts::default();
    let (mut ran, mut faults) = (0, 0);
    for start in from..from + count {
        let (text, code) = program_of(start);
        if printed(&code).is_none() {
            faults += 1;
            continue;
        }
        let mut steps: Vec<String> = Vec::new();
        let ended = std::panic::catch_unwind(std::panic::AssertUnwindSafe(|| {
            let (field, seat) = field_of(&code, 1_024);
            let seats = 1 + (start % 4) as usize;
            drawn::run(&code, &field, seat, FUEL, seats, start, &mut |step| {
                steps.push(step)
            })
        }));
        match ended {
            Ok(more) => {
                ran += 1;
                counts.add(&more);
            }
            Err(why) => tell(start, &said(why), &text, &steps),
        }
    }
    println!("beside the core: {ran} programs from {from} on ({faults} more have a fault); {counts}; no difference");
}

/// How threads run the programs of a call.
#[derive(Clone, Copy)]
struct Threads {
    threads: usize,
    turns: bool,
    /// How often each program is run.
    times: u64,
}

/// Random programs by threads: in turns, step by step and beside the core, or freely.
fn threads_all(from: u64, count: u64, how: Threads) {
    let (mut ran, mut steps, mut touched, mut tasks) = (0, 0, 0, 0);
    let mut counts = beside::Counts::default();
    for start in from..from + count {
        let (text, code) = program_of(start);
        let Some(wanted) = printed(&code) else {
            continue;
        };
        for time in 0..how.times {
            let made = run_once(&code, 1_024, start, time, how);
            match made.failure {
                Some(why) => tell(
                    start,
                    &std::format!("time {time}: {why}"),
                    &text,
                    &made.notes,
                ),
                None if made.printed != wanted => tell(
                    start,
                    "it prints something else than the sequential run",
                    &text,
                    &made.notes,
                ),
                None => {}
            }
            ran += 1;
            steps += made.steps;
            touched += made.touched;
            tasks += made.tasks;
            counts.add(&made.counts);
        }
    }
    let threads = how.threads;
    if how.turns {
        println!("{threads} threads in turns: {ran} runs from {from} on, {steps} atomic steps, {touched} jobs that were taken and put at once; {counts}; each move was one of the core, and each run printed what the sequential run prints");
    } else {
        println!("{threads} threads at once: {ran} runs from {from} on, {touched} jobs that were taken and put at once; {tasks} tasks, main among them; each run printed what the sequential run prints");
    }
}

/// Random programs by threads that share a queue, from this start on, each so often.
fn pools_all(from: u64, count: u64, threads: usize, times: u64) {
    let (mut ran, mut tasks) = (0, 0);
    for start in from..from + count {
        let (text, code) = program_of(start);
        let Some(wanted) = printed(&code) else {
            continue;
        };
        for _ in 0..times {
            let (field, seat) = field_of(&code, 1_024);
            let ended = std::panic::catch_unwind(std::panic::AssertUnwindSafe(|| {
                pool::run(&code, &field, seat, 1_024, threads)
            }));
            match ended {
                Ok(made) if made.printed == wanted => tasks += made.tasks + 1,
                Ok(_) => tell(
                    start,
                    "it prints something else than the sequential run",
                    &text,
                    &[],
                ),
                Err(why) => tell(start, &said(why), &text, &[]),
            }
            ran += 1;
        }
    }
    println!("{threads} threads with a queue: {ran} runs from {from} on; {tasks} tasks, main among them; each run ended with all of them, and printed what the sequential run prints");
}

/// One run of a program.
fn run_once(code: &Code, entries: u32, start: u64, time: u64, how: Threads) -> crew::Ran {
    let (field, seat) = field_of(code, entries);
    let how = crew::How {
        threads: how.threads,
        turns: how.turns,
        start: start * how.times + time,
        pick: match start % 2 {
            0 => crew::Pick::Random,
            _ => crew::Pick::Compete,
        },
    };
    crew::run(code, &field, seat, FUEL, how)
}

/// Runs the program of a file by threads, in fields with so many entries.
fn file_by_threads(file: &str, entries: u32, how: Threads) {
    let Some(code) = std::fs::read_to_string(file)
        .ok()
        .and_then(|text| code_of(&text))
    else {
        panic!("this is no program");
    };
    let Some(wanted) = printed(&code) else {
        println!("{file}: it ends with a fault");
        return;
    };
    let (mut tasks, mut steps) = (0, 0);
    for time in 0..how.times {
        let made = run_once(&code, entries, time, 0, how);
        match made.failure {
            Some(why) => tell(time, &why, file, &made.notes),
            None if made.printed != wanted => tell(
                time,
                "it prints something else than the sequential run",
                file,
                &made.notes,
            ),
            None => {}
        }
        tasks += made.tasks;
        steps += made.steps;
    }
    println!("{file}: {} runs by {} threads, {tasks} tasks, {steps} atomic steps; each printed what the sequential run prints", how.times, how.threads);
}

/// Runs the program of a file by so many threads that share a queue, in a field with so many entries, and tells what it took.
fn count(file: &str, entries: u32, threads: usize) {
    let text = std::fs::read_to_string(file).expect("the file cannot be read");
    let code = code_of(&text).expect("a program");
    let (field, seat) = field_of(&code, entries);
    let (began, before) = (std::time::Instant::now(), processor_seconds());
    let ran = pool::run(&code, &field, seat, entries, threads);
    let (seconds, processor) = (began.elapsed().as_secs_f64(), processor_seconds() - before);
    print!("{}", String::from_utf8_lossy(&ran.printed));
    let (tasks, steps) = (ran.tasks, ran.steps);
    eprintln!("tasks {tasks} steps {steps} seconds {seconds:.3} processor {processor:.2}");
}

/// What this program and what it asks of the system have taken so far, of all processors, to a hundredth.
fn processor_seconds() -> f64 {
    let told = std::fs::read_to_string("/proc/self/stat").unwrap_or_default();
    let fields = told.rsplit(')').next().unwrap_or_default().split(' ');
    let ticks = fields
        .skip(12)
        .take(2)
        .map(|ticks| ticks.parse().unwrap_or(0));
    ticks.sum::<u64>() as f64 / 100.0
}

fn main() {
    let words: Vec<String> = std::env::args().skip(1).collect();
    let number = |at: usize| words[at].parse::<u64>().expect("a number");
    match words[0].as_str() {
        "program" => print!("{}", programs::program(number(1), size_of(number(1)))),
        "beside" => beside_all(number(1), number(2)),
        "turns" | "threads" => {
            let how = Threads {
                threads: number(3) as usize,
                turns: words[0] == "turns",
                times: number(4),
            };
            threads_all(number(1), number(2), how);
        }
        "pool" => pools_all(number(1), number(2), number(3) as usize, number(4)),
        "file" => {
            let how = Threads {
                threads: number(3) as usize,
                turns: words.get(5).is_some(),
                times: number(4),
            };
            file_by_threads(&words[1], number(2) as u32, how);
        }
        "serial" => {
            let text = std::fs::read_to_string(&words[1]).expect("the file cannot be read");
            let code = code_of(&text).expect("a program");
            let output = printed(&code).expect("a run without fault");
            print!("{}", String::from_utf8_lossy(&output));
        }
        "count" => count(&words[1], number(2) as u32, number(3) as usize),
        other => panic!("no mode is named {other}"),
    }
}
