//! Seats of threads that share a queue of ready tasks, to be counted and timed. A task that waits is taken again only when what it waits for has come, and a thread that finds nothing to do sleeps.

use crate::oss_body::Act;
use crate::oss_code::Code;
use crate::oss_field::{Field, FieldSeat, Touched};
use crate::oss_jobs::Job;
use crate::oss_syntax::Mode;
use crate::oss_words::{state_of, EntryState};
use crate::prelude::Global;
use crate::table;
use crate::work::{places_of_job, Did, Made, Place, Watch, Worker};
use std::collections::VecDeque;
use std::sync::atomic::{AtomicBool, AtomicU64, Ordering::SeqCst};
use std::sync::{Condvar, Mutex};
use std::vec::Vec;

/// So many news of a thread are queued at once.
const MANY: usize = 48;

/// What a task waits for at an entry.
#[derive(Clone, Copy)]
enum Need {
    Done,
    /// And all siblings before it.
    AllDone,
    Given,
}

/// The first thing that a task waits for.
#[derive(Clone, Copy)]
struct Wait {
    entry: u32,
    need: Need,
}

impl Wait {
    /// As a number; 0 is none, since no task waits for an entry of main.
    fn hint(self) -> u64 {
        4 * self.entry as u64 + self.need as u64
    }

    fn of(hint: u64) -> Wait {
        Wait {
            entry: (hint / 4) as u32,
            need: match hint % 4 {
                0 => Need::Done,
                1 => Need::AllDone,
                _ => Need::Given,
            },
        }
    }

    fn is_met(self, flags: &EntryState) -> bool {
        match self.need {
            Need::Done => flags.done,
            Need::AllDone => flags.done && flags.clear,
            Need::Given => flags.given,
        }
    }
}

// --- what threads share ---

struct Queue {
    tasks: VecDeque<u32>,
    asleep: usize,
    /// Nothing is queued or in hand any more, or a thread has failed.
    closed: bool,
}

struct Pool {
    queue: Mutex<Queue>,
    bell: Condvar,
    /// What each task waits for, whose job is in its slot. Who makes it come takes the hint, and then queues the task.
    hints: Vec<AtomicU64>,
    /// Whether any task has waited for cells.
    cells: AtomicBool,
    /// How many tasks are queued or in hand.
    left: AtomicU64,
    printed: Mutex<Vec<(Vec<u16>, Vec<u8>)>>,
}

impl Pool {
    /// Queues these tasks, and wakes as many threads as may take them.
    fn push(&self, news: &mut Vec<u32>) {
        if news.is_empty() {
            return;
        }
        self.left.fetch_add(news.len() as u64, SeqCst);
        let mut queue = self.queue.lock().expect("no thread has failed");
        let woken = queue.asleep.min(news.len());
        queue.tasks.extend(news.drain(..));
        drop(queue);
        for _ in 0..woken {
            self.bell.notify_one();
        }
    }

    /// The next task; `None` once all is over.
    fn next(&self) -> Option<u32> {
        let mut queue = self.queue.lock().expect("no thread has failed");
        loop {
            if let Some(task) = queue.tasks.pop_front() {
                return Some(task);
            }
            if queue.closed {
                return None;
            }
            queue.asleep += 1;
            queue = self.bell.wait(queue).expect("no thread has failed");
            queue.asleep -= 1;
        }
    }

    /// A task is out of hand.
    fn lower(&self) {
        if self.left.fetch_sub(1, SeqCst) == 1 {
            self.close();
        }
    }

    fn close(&self) {
        if let Ok(mut queue) = self.queue.lock() {
            queue.closed = true;
        }
        self.bell.notify_all();
    }
}

/// Closes the pool where its thread fails, so that no other sleeps for ever.
struct Watcher<'p>(&'p Pool);

impl Drop for Watcher<'_> {
    fn drop(&mut self) {
        if std::thread::panicking() {
            self.0.close();
        }
    }
}

// --- one thread ---

/// What a thread is told of its calls.
struct News<'p, 'a> {
    pool: &'p Pool,
    field: &'a Field,
    tasks: Vec<u32>,
    made: u64,
}

impl News<'_, '_> {
    fn tell(&mut self, task: u32) {
        self.tasks.push(task);
        if self.tasks.len() >= MANY {
            self.pool.push(&mut self.tasks);
        }
    }

    /// Whether a task waits for this entry, and for what.
    fn waits(&self, task: u32, entry: u32) -> Option<Wait> {
        let hint = self.pool.hints[task as usize].load(SeqCst);
        let wait = Wait::of(hint);
        (hint != 0 && wait.entry == entry).then_some(wait)
    }

    /// A task that waits for this is taken off, by one thread alone, and queued.
    fn wake(&mut self, task: u32, wait: Wait) {
        let hint = &self.pool.hints[task as usize];
        if hint
            .compare_exchange(wait.hint(), 0, SeqCst, SeqCst)
            .is_ok()
        {
            self.tell(task);
        }
    }

    fn wake_if(&mut self, task: u32, entry: u32, flags: &EntryState) {
        if let Some(wait) = self.waits(task, entry) {
            if wait.is_met(flags) {
                self.wake(task, wait);
            }
        }
    }

    /// The task above that may wait for an entry, whose info tells this; of a cell's entry only where any task has waited for cells.
    fn waiter(&self, entry: u32, task: u32, parent: u32) -> Option<u32> {
        if task == entry {
            return Some(parent);
        }
        if !self.pool.cells.load(SeqCst) {
            return None;
        }
        self.field.peek_info(parent).map(|above| above.task)
    }
}

impl Watch for News<'_, '_> {
    fn found(&mut self, _: &Job, _: u32, _: u64) {}

    fn acted(&mut self, _: &Job) {}

    fn made(&mut self, _: &Job, _: Made) {
        self.made += 1;
    }

    fn freed(&mut self, task: u32) {
        self.tell(task);
    }

    fn delivered(&mut self, last: &Touched) {
        let flags = state_of(last.state);
        let info = last.entry_info();
        if info.strong && matches!(info.mode, Mode::Fold(_)) {
            self.wake_if(info.task, last.entry, &flags);
        }
        if let Some(above) = self.waiter(last.entry, info.task, info.parent) {
            self.wake_if(above, last.entry, &flags);
        }
    }

    fn giving(&mut self, _: &Job, _: u32) {}

    fn gave(&mut self, _: &Job, _: u32) {}

    fn leaving(&mut self, _: &Job, _: u32) {}

    fn joining(&mut self, _: u32) {}

    fn joined(&mut self, _: u32) {}

    fn finishing(&mut self, _: &Job) {}
}

struct Thread<'p, 'a> {
    worker: Worker<'a>,
    news: News<'p, 'a>,
    over: u64,
}

impl Thread<'_, '_> {
    /// Goes on with tasks until all is over.
    fn run(&mut self) {
        let pool = self.news.pool;
        while let Some(task) = pool.next() {
            self.go_on(task);
            pool.push(&mut self.news.tasks);
            pool.lower();
        }
    }

    /// Goes on with a ready task until it waits, or is over.
    fn go_on(&mut self, task: u32) {
        let field = self.worker.field;
        let Some(mut job) = field.take_body(&mut self.worker.seat, task) else {
            panic!("the job of the ready task {task} is not there");
        };
        let wait = loop {
            match self.worker.act(&mut job, &mut self.news) {
                Did::Acted => continue,
                Did::Failed => panic!("the task {task} stands before a fault"),
                Did::Waits => {}
                Did::Ended if self.give_up(&job) => break None,
                Did::Ended => {}
            }
            if let Some(wait) = self.wanted(&job) {
                break Some(wait);
            }
        };
        if wait.is_none() {
            self.over += 1;
            self.print(&job);
        }
        field.put_body(&mut self.worker.seat, job);
        if let Some(wait) = wait {
            self.park(task, wait);
        }
    }

    /// The job is put; then the hint is set, and then the entry is looked at once more. So either this thread or the one that makes it come sees both.
    fn park(&mut self, task: u32, wait: Wait) {
        self.news.pool.hints[task as usize].store(wait.hint(), SeqCst);
        if self.has_come(wait) {
            self.news.wake(task, wait);
        }
    }

    fn has_come(&mut self, wait: Wait) -> bool {
        wait.is_met(&self.worker.flags(wait.entry))
    }

    /// The first thing that a task waits for, if it waits.
    fn wanted(&mut self, job: &Job) -> Option<Wait> {
        if job.body().ended() {
            let last = job.last_child().filter(|_| job.body().waits());
            return self
                .first(last.into_iter(), Need::AllDone)
                .or_else(|| self.first_fold(job));
        }
        match job.body().pending() {
            Act::Await => self.first(job.last_child().into_iter(), Need::Done),
            Act::Wait => self.first(job.last_child().into_iter(), Need::AllDone),
            Act::WaitOn(ranges) => {
                self.news.pool.cells.store(true, SeqCst);
                let ranges = ranges.as_slice().iter();
                let cells = ranges.flat_map(|range| range.lo..range.hi);
                self.first(cells.filter_map(|cell| job.last(cell)), Need::AllDone)
            }
            _ => None,
        }
    }

    /// The first of these entries at which this has not come.
    fn first(&mut self, entries: impl Iterator<Item = u32>, need: Need) -> Option<Wait> {
        entries
            .map(|entry| Wait { entry, need })
            .find(|wait| !self.has_come(*wait))
    }

    /// The first reduction of an ended task that is not joined.
    fn first_fold(&mut self, job: &Job) -> Option<Wait> {
        let places = places_of_job(job);
        let folds = places.iter().filter(|place| place.leaves());
        self.first(folds.map(|place| place.entry), Need::Given)
    }

    /// Gives up what may be given up of an ended task: whether it is over.
    fn give_up(&mut self, job: &Job) -> bool {
        if job.task() == 0 {
            return true;
        }
        let places = places_of_job(job);
        for place in &places {
            self.give_place(job, place);
        }
        if !self.worker.may_finish(job, &places) {
            return false;
        }
        self.worker.finish(job, &mut self.news);
        self.look_above(job.task());
        true
    }

    fn give_place(&mut self, job: &Job, place: &Place) {
        if self.worker.may_give(job, place) {
            self.worker.give(job, place, &mut self.news);
            if self.news.pool.cells.load(SeqCst) {
                self.look_above(place.entry);
            }
        } else if self.worker.may_leave(job, place) {
            self.worker.leave(job, place, &mut self.news);
        }
    }

    /// An entry without children is done as soon as it is given up: then no delivery tells it.
    fn look_above(&mut self, entry: u32) {
        let Some(info) = self.worker.field.peek_info(entry) else {
            panic!("the entry {entry} is not there");
        };
        let Some(above) = self.news.waiter(entry, info.task, info.parent) else {
            return;
        };
        if self.news.waits(above, entry).is_some() {
            let flags = self.worker.flags(entry);
            self.news.wake_if(above, entry, &flags);
        }
    }

    fn print(&mut self, job: &Job) {
        if job.prints().is_empty() {
            return;
        }
        let mut printed = self.news.pool.printed.lock().expect("no thread has failed");
        for print in job.prints() {
            printed.push((print.at.as_slice().to_vec(), print.text.as_slice().to_vec()));
        }
    }
}

// --- a run ---

/// What came of a run.
pub struct Ran {
    pub printed: Vec<u8>,
    /// How many tasks were made, without main.
    pub tasks: u64,
    /// How many atomic steps, in a build that counts them.
    pub steps: u64,
}

/// Runs a program by so many threads, in a field with so many entries. It ends with a panic where a task is lost.
pub fn run(code: &Code, field: &Field, mut seat: FieldSeat, entries: u32, threads: usize) -> Ran {
    let pool = Pool {
        queue: Mutex::new(Queue {
            tasks: VecDeque::from([0]),
            asleep: 0,
            closed: false,
        }),
        bell: Condvar::new(),
        hints: (0..entries).map(|_| AtomicU64::new(0)).collect(),
        cells: AtomicBool::new(false),
        left: AtomicU64::new(1),
        printed: Mutex::new(Vec::new()),
    };
    let mut seats = Vec::new();
    while seats.len() + 1 < threads {
        match field.split(Global, &mut seat) {
            Ok(other) => seats.push(other),
            Err(_) => panic!("memory"),
        }
    }
    let mut ran = Ran {
        printed: Vec::new(),
        tasks: 0,
        steps: 0,
    };
    let mut over = 0;
    let mut add = |(made, ended, steps): (u64, u64, u64)| {
        ran.tasks += made;
        ran.steps += steps;
        over += ended;
    };
    std::thread::scope(|scope| {
        let handles: Vec<_> = seats
            .into_iter()
            .map(|seat| scope.spawn(|| thread(code, field, seat, &pool)))
            .collect();
        add(thread(code, field, seat, &pool));
        for handle in handles {
            add(handle.join().expect("no thread has failed"));
        }
    });
    assert!(over == ran.tasks + 1, "tasks wait that nobody wakes");
    let mut printed = pool.printed.into_inner().expect("no thread has failed");
    printed.sort_by(|one, other| one.0.cmp(&other.0));
    ran.printed = printed.into_iter().flat_map(|(_, text)| text).collect();
    ran
}

/// What one thread does: how many tasks it made and ended, and how many atomic steps it took.
fn thread(code: &Code, field: &Field, seat: FieldSeat, pool: &Pool) -> (u64, u64, u64) {
    let before = table::steps();
    let _watcher = Watcher(pool);
    let mut thread = Thread {
        worker: Worker {
            field,
            code,
            seat,
            late: false,
        },
        news: News {
            pool,
            field,
            tasks: Vec::new(),
            made: 0,
        },
        over: 0,
    };
    thread.run();
    assert!(
        !thread.worker.seat.holding(),
        "a seat holds a message at the end"
    );
    (thread.news.made, thread.over, table::steps() - before)
}
