//! Threads that share a field: each takes tasks that it knows to be ready, goes on with them, and gives up their entries. They run freely, or one at a time, and then a die says before each atomic
//! step whose turn it is. In turns the core stands beside them.

use crate::beside::{Beside, Counts};
use crate::oss_code::Code;
use crate::oss_field::{Field, FieldSeat};
use crate::oss_jobs::Job;
use crate::prelude::Global;
use crate::programs::Dice;
use crate::table;
use crate::work::{places_of_job, Did, Made, Watch, Worker};
use std::collections::VecDeque;
use std::string::String;
use std::sync::{Arc, Condvar, Mutex, MutexGuard};
use std::vec::Vec;

/// Takes a lock, which a thread that has failed may have let go.
fn locked<T>(place: &Mutex<T>) -> MutexGuard<'_, T> {
    match place.lock() {
        Ok(guard) => guard,
        Err(poisoned) => poisoned.into_inner(),
    }
}

// --- turns ---

struct TurnState {
    turn: usize,
    alive: Vec<bool>,
    dice: Dice,
    /// A thread goes on for one step, and then with one chance in so many another comes next.
    sticks: u32,
    failed: bool,
    steps: u64,
}

/// Who makes the next step.
struct Turns {
    state: Mutex<TurnState>,
    woken: Vec<Condvar>,
}

impl Turns {
    fn new(threads: usize, start: u64) -> Turns {
        let mut dice = Dice::new(start ^ 0x5555);
        let sticks = [1, 2, 5, 20][dice.below(4) as usize];
        Turns {
            state: Mutex::new(TurnState {
                turn: 0,
                alive: (0..threads).map(|_| true).collect(),
                dice,
                sticks,
                failed: false,
                steps: 0,
            }),
            woken: (0..threads).map(|_| Condvar::new()).collect(),
        }
    }

    /// Another thread may come next, and this one waits until it is its turn.
    fn pass(&self, me: usize) {
        let mut state = locked(&self.state);
        state.steps += 1;
        let sticks = state.sticks;
        if state.dice.one_in(sticks) {
            self.pick(&mut state, me);
        }
        self.wait(state, me);
    }

    fn pick(&self, state: &mut TurnState, me: usize) {
        let alive: Vec<usize> = (0..state.alive.len())
            .filter(|at| state.alive[*at])
            .collect();
        if alive.is_empty() {
            return;
        }
        state.turn = alive[state.dice.below(alive.len() as u32) as usize];
        if state.turn != me {
            self.woken[state.turn].notify_all();
        }
    }

    fn wait(&self, mut state: MutexGuard<'_, TurnState>, me: usize) {
        while state.turn != me && !state.failed {
            state = match self.woken[me].wait(state) {
                Ok(guard) => guard,
                Err(poisoned) => poisoned.into_inner(),
            };
        }
        let failed = state.failed;
        drop(state);
        if failed && !std::thread::panicking() {
            panic!("another thread has failed");
        }
    }

    fn begin(&self, me: usize) {
        self.wait(locked(&self.state), me);
    }

    fn leave(&self, me: usize, failed: bool) {
        let mut state = locked(&self.state);
        state.alive[me] = false;
        state.failed |= failed;
        if state.failed {
            self.woken.iter().for_each(Condvar::notify_all);
        } else {
            self.pick(&mut state, me);
        }
    }
}

// --- what threads share ---

struct Common<'a> {
    /// Tasks whose count is 0, which nobody has begun.
    ready: VecDeque<u32>,
    /// Tasks that have begun, and wait for others.
    parked: VecDeque<u32>,
    /// How many tasks there are, main among them, that are not over.
    open: u64,
    tasks: u64,
    /// What was printed, by its point.
    printed: Vec<(Vec<u16>, Vec<u8>)>,
    beside: Option<Beside<'a>>,
    /// The entries of all tasks.
    entries: Vec<u32>,
    idle: u64,
    failure: Option<String>,
    steps: u64,
    notes: Vec<String>,
    /// The numbers of all tasks, and how many of their jobs were taken to be put back.
    numbers: Vec<u32>,
    touched: u64,
}

/// What a thread tells of its calls.
struct Teller<'c, 'a> {
    common: &'c Mutex<Common<'a>>,
    me: usize,
}

impl Teller<'_, '_> {
    /// Tells the core beside, if there is one.
    fn tell(&mut self, what: impl FnOnce(&mut Beside<'_>)) {
        let mut common = locked(self.common);
        if let Some(beside) = &mut common.beside {
            what(beside);
        }
    }

    fn note(&mut self, what: impl FnOnce() -> String) {
        let mut common = locked(self.common);
        if common.beside.is_some() {
            let me = self.me;
            let what = what();
            common.notes.push(std::format!("thread {me} {what}"));
        }
    }
}

impl Watch for Teller<'_, '_> {
    fn found(&mut self, job: &Job, cell: u32, value: u64) {
        self.note(|| std::format!("found {value} in cell {cell} for {}", job.task()));
        self.tell(|beside| beside.found_by(job, cell, value));
    }

    fn acted(&mut self, job: &Job) {
        self.note(|| std::format!("went on with {}", job.task()));
        self.tell(|beside| beside.acted(job));
    }

    fn made(&mut self, creator: &Job, task: Made) {
        self.note(|| std::format!("made {} by {}", task.number, creator.task()));
        let mut common = locked(self.common);
        common.open += 1;
        common.tasks += 1;
        common.numbers.push(task.number);
        common.entries.push(task.number);
        common
            .entries
            .extend(task.places.iter().map(|place| place.entry));
        if let Some(beside) = &mut common.beside {
            beside.made(creator, task);
        }
    }

    fn freed(&mut self, task: u32) {
        self.note(|| std::format!("freed {task}"));
        self.tell(|beside| beside.freed(task));
        locked(self.common).ready.push_back(task);
    }

    fn giving(&mut self, job: &Job, cell: u32) {
        self.note(|| std::format!("begins to give up cell {cell} of {}", job.task()));
        self.tell(|beside| beside.giving(job, cell));
    }

    fn gave(&mut self, job: &Job, cell: u32) {
        self.note(|| std::format!("gave up cell {cell} of {}", job.task()));
        self.tell(|beside| beside.gave(job, cell));
    }

    fn leaving(&mut self, job: &Job, cell: u32) {
        self.note(|| std::format!("leaves cell {cell} of {}", job.task()));
        self.tell(|beside| beside.leaving(job, cell));
    }

    fn joining(&mut self, entry: u32) {
        self.note(|| std::format!("begins to join entry {entry}"));
        self.tell(|beside| beside.joining(entry));
    }

    fn joined(&mut self, entry: u32) {
        self.note(|| std::format!("joined entry {entry}"));
        self.tell(|beside| beside.joined(entry));
    }

    fn finishing(&mut self, job: &Job) {
        self.note(|| std::format!("begins to give up {}", job.task()));
        self.tell(|beside| beside.finishing(job));
    }
}

/// How a thread picks what it does.
#[derive(Clone, Copy, PartialEq, Eq)]
pub enum Pick {
    /// Tasks at random, with jobs that are put back now and then.
    Random,
    /// The same, and now and then any job is taken and put back at once: so threads compete for jobs.
    Compete,
}

struct Thread<'c, 'a> {
    worker: Worker<'a>,
    teller: Teller<'c, 'a>,
    dice: Dice,
    pick: Pick,
}

impl Thread<'_, '_> {
    /// A task to go on with.
    fn next(&mut self) -> Option<u32> {
        let mut common = locked(self.teller.common);
        let count = (common.ready.len() + common.parked.len()) as u32;
        if count == 0 {
            return None;
        }
        let at = self.dice.below(count) as usize;
        if at < common.ready.len() {
            common.ready.remove(at)
        } else {
            let at = at - common.ready.len();
            common.parked.remove(at)
        }
    }

    fn is_over(&self) -> bool {
        locked(self.teller.common).open == 0
    }

    /// Goes on until all tasks are over. `rests` is called when there is nothing to do.
    fn run(&mut self, rests: &dyn Fn()) {
        while !self.is_over() {
            if self.pick == Pick::Compete && self.dice.one_in(2) {
                self.touch_any();
            }
            let Some(task) = self.next() else {
                rests();
                continue;
            };
            let went = self.go_on(task);
            let mut common = locked(self.teller.common);
            common.idle = if went { 0 } else { common.idle + 1 };
            if common.idle > 200_000 {
                drop(common);
                panic!("no thread finds anything to do, and the program has not ended");
            }
            drop(common);
            if !went {
                rests();
            }
        }
    }

    /// Takes the job of any task, if it is there, and puts it back. It is there only if its task is ready.
    fn touch_any(&mut self) {
        let common = locked(self.teller.common);
        let at = self.dice.below(common.numbers.len() as u32) as usize;
        let task = common.numbers[at];
        drop(common);
        let Some(job) = self.worker.field.take_body(&mut self.worker.seat, task) else {
            return;
        };
        self.teller.tell(|beside| beside.check_ready(task));
        assert!(
            job.task() == task,
            "the job of another task is in the slot of {task}"
        );
        self.worker.field.put_body(&mut self.worker.seat, job);
        locked(self.teller.common).touched += 1;
    }

    /// Goes on with a task, which is known to be ready: whether anything was done.
    fn go_on(&mut self, task: u32) -> bool {
        let field = self.worker.field;
        let Some(mut job) = field.take_body(&mut self.worker.seat, task) else {
            assert!(
                self.pick == Pick::Compete,
                "the job of the ready task {task} is not there"
            );
            locked(self.teller.common).parked.push_back(task);
            return false;
        };
        let mut went = false;
        let mut did = Did::Acted;
        while did == Did::Acted {
            if self.dice.one_in(10) {
                break;
            }
            did = self.worker.act(&mut job, &mut self.teller);
            went |= did == Did::Acted;
        }
        assert!(did != Did::Failed, "the task {task} stands before a fault");
        let over = self.give_up(&job, &mut went);
        if over {
            self.print(&job);
        }
        field.put_body(&mut self.worker.seat, job);
        let mut common = locked(self.teller.common);
        if over {
            common.open -= 1;
        } else {
            common.parked.push_back(task);
        }
        went
    }

    /// Gives up what may be given up now: whether the task is over.
    fn give_up(&mut self, job: &Job, went: &mut bool) -> bool {
        if job.task() == 0 {
            return job.body().ended();
        }
        let mut places = places_of_job(job);
        let all = places.clone();
        while !places.is_empty() {
            let at = self.dice.below(places.len() as u32) as usize;
            let place = places.remove(at);
            if self.worker.may_give(job, &place) {
                self.worker.give(job, &place, &mut self.teller);
                *went = true;
            } else if self.worker.may_leave(job, &place) {
                self.worker.leave(job, &place, &mut self.teller);
                *went = true;
            }
        }
        if self.worker.may_finish(job, &all) {
            self.worker.finish(job, &mut self.teller);
            *went = true;
            return true;
        }
        false
    }

    /// Keeps what a task has printed.
    fn print(&mut self, job: &Job) {
        let mut common = locked(self.teller.common);
        for print in job.prints() {
            common
                .printed
                .push((print.at.as_slice().to_vec(), print.text.as_slice().to_vec()));
        }
    }
}

/// What came of a run.
pub struct Ran {
    pub printed: Vec<u8>,
    pub tasks: u64,
    pub steps: u64,
    pub touched: u64,
    pub counts: Counts,
    pub failure: Option<String>,
    pub notes: Vec<String>,
}

/// How threads run.
#[derive(Clone, Copy)]
pub struct How {
    pub threads: usize,
    /// In turns, with the core beside; the number from which turns and picks are drawn.
    pub turns: bool,
    pub start: u64,
    pub pick: Pick,
}

/// Runs a program by threads, to its end.
pub fn run(code: &Code, field: &Field, mut seat: FieldSeat, fuel: u32, how: How) -> Ran {
    let common = Mutex::new(Common {
        ready: VecDeque::from([0]),
        parked: VecDeque::new(),
        open: 1,
        tasks: 1,
        printed: Vec::new(),
        beside: how.turns.then(|| Beside::new(code, fuel)),
        entries: Vec::new(),
        idle: 0,
        failure: None,
        steps: 0,
        notes: Vec::new(),
        numbers: std::iter::once(0).collect(),
        touched: 0,
    });
    let turns = how
        .turns
        .then(|| Arc::new(Turns::new(how.threads, how.start)));
    let mut seats = Vec::new();
    while seats.len() + 1 < how.threads {
        match field.split(Global, &mut seat) {
            Ok(other) => seats.push(other),
            Err(_) => panic!("memory"),
        }
    }
    let mut first = None;
    let mut others = Vec::new();
    if how.threads == 1 && !how.turns {
        first = Some(thread(code, field, seat, &common, None, how, 0));
    } else {
        std::thread::scope(|scope| {
            let mut handles = Vec::new();
            for (at, seat) in std::iter::once(seat).chain(seats).enumerate() {
                let turns = turns.clone();
                let common = &common;
                handles
                    .push(scope.spawn(move || thread(code, field, seat, common, turns, how, at)));
            }
            for (at, handle) in handles.into_iter().enumerate() {
                match handle.join() {
                    Ok(seat) if at == 0 => first = Some(seat),
                    Ok(seat) => others.extend(seat),
                    Err(_) => panic!("a thread has failed"),
                }
            }
        });
    }
    finish(code, field, first.flatten(), others, common)
}

/// What one thread does: its seat, if it has not failed.
fn thread<'a>(
    code: &'a Code,
    field: &'a Field,
    seat: FieldSeat,
    common: &Mutex<Common<'a>>,
    turns: Option<Arc<Turns>>,
    how: How,
    me: usize,
) -> Option<FieldSeat> {
    let before = table::steps();
    let ended = std::panic::catch_unwind(std::panic::AssertUnwindSafe(|| {
        if let Some(turns) = &turns {
            let hook = turns.clone();
            table::set_hook(Some(std::boxed::Box::new(move || hook.pass(me))));
            turns.begin(me);
        }
        let mut thread = Thread {
            worker: Worker {
                field,
                code,
                seat,
                late: false,
            },
            teller: Teller { common, me },
            dice: Dice::new(how.start.wrapping_mul(31).wrapping_add(me as u64)),
            pick: how.pick,
        };
        let rests = || match &turns {
            Some(turns) => turns.pass(me),
            None => std::thread::yield_now(),
        };
        thread.run(&rests);
        thread.worker.seat
    }));
    table::set_hook(None);
    if let Some(turns) = &turns {
        turns.leave(me, ended.is_err());
    }
    let mut common = locked(common);
    common.steps += table::steps() - before;
    match ended {
        Ok(seat) => Some(seat),
        Err(why) => {
            let said = why.downcast_ref::<String>().cloned();
            let said = said
                .or(why.downcast_ref::<&str>().map(|why| why.to_string()))
                .unwrap_or_default();
            common.open = 0;
            if common.failure.is_none() || said != "another thread has failed" {
                common.failure = Some(said);
            }
            None
        }
    }
}

/// The seats come back, and what is left is looked at: no message is held, and each entry is done.
fn finish(
    code: &Code,
    field: &Field,
    first: Option<FieldSeat>,
    others: Vec<FieldSeat>,
    common: Mutex<Common<'_>>,
) -> Ran {
    let mut common = match common.into_inner() {
        Ok(common) => common,
        Err(poisoned) => poisoned.into_inner(),
    };
    let mut counts = Counts::default();
    if let (Some(mut first), None) = (first, &common.failure) {
        let mut failure = None;
        for seat in others {
            if seat.holding() {
                failure = Some(String::from("a seat holds a message at the end"));
            }
            field.join(&mut first, seat);
        }
        let mut worker = Worker {
            field,
            code,
            seat: first,
            late: false,
        };
        for entry in &common.entries {
            let flags = worker.flags(*entry);
            if !(flags.given && flags.done && flags.clear) {
                failure = Some(std::format!(
                    "entry {entry} is not done and clear at the end"
                ));
            }
        }
        if !common.ready.is_empty() || !common.parked.is_empty() {
            failure = Some(String::from("tasks are left at the end"));
        }
        if let Some(beside) = &mut common.beside {
            if let Some(why) = beside.left_over() {
                failure = Some(why);
            }
            counts = beside.counts;
        }
        common.failure = failure;
    }
    common.printed.sort_by(|one, other| one.0.cmp(&other.0));
    Ran {
        printed: common
            .printed
            .into_iter()
            .flat_map(|(_, text)| text)
            .collect(),
        tasks: common.tasks,
        steps: common.steps,
        touched: common.touched,
        counts,
        failure: common.failure,
        notes: common.notes,
    }
}
