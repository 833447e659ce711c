// strip.py writes the names of the modules before this text.
use oss_model::Answer;
use oss_regions::Regions;
use prelude::{Global, NoGate};

/// The ticks that a sequential run may take, and each task of a run by waves.
const FUEL: u32 = 1_000_000_000;

/// Called as `program serial FILE`, `program waves FILE` or `program worker FILE`: reads the program in the file, runs it one act after the other, by
/// waves over regions with one worker, or over regions by one worker with priorities, and prints what it prints.
fn main() {
    let mut words = std::env::args().skip(1);
    let (Some(mode), Some(file)) = (words.next(), words.next()) else {
        panic!("a mode and a file are to be named");
    };
    let text = std::fs::read(file).expect("the file cannot be read");
    let Ok(program) = oss_parse::parse(Global, &text) else {
        panic!("this is no program");
    };
    let Ok(known) = oss_names::resolve(Global, program) else {
        panic!("this program breaks a rule");
    };
    let Ok(code) = oss_lower::lower(Global, &known) else {
        panic!("out of memory");
    };
    match mode.as_str() {
        "serial" => match oss_serial::serial(Global, &code, FUEL) {
            Ok(ran) => print_answer(&ran.answer),
            Err(_) => panic!("out of memory"),
        },
        "waves" => {
            let regions = Regions::new(Global);
            match oss_waves::waves(&Global, Global, &code, FUEL, regions, 1, &NoGate) {
                Ok(ran) => print_answer(&ran.answer),
                Err(_) => panic!("out of memory"),
            }
        }
        "worker" => {
            let regions = Regions::new(Global);
            match oss_prior::single(Global, &code, FUEL, regions, &NoGate) {
                Ok(ran) => print_answer(&ran.answer),
                Err(_) => panic!("out of memory"),
            }
        }
        _ => panic!("no mode is named {mode}"),
    }
}

/// Prints the output of a run, and on the standard error where a fault ended it.
fn print_answer(answer: &Answer) {
    match answer {
        Answer::Done(output, _) => print!("{}", String::from_utf8_lossy(output.as_slice())),
        Answer::Fault(_, line, output) => {
            print!("{}", String::from_utf8_lossy(output.as_slice()));
            eprintln!("fault at line {line}");
        }
    }
}
