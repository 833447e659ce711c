//! What a worker does with the jobs of a field, by its public calls alone. What a call asks for is so by construction.

use crate::oss_body::memory::{combined, word};
use crate::oss_body::Act;
use crate::oss_code::Code;
use crate::oss_field::{Field, FieldSeat, Touched};
use crate::oss_jobs::Job;
use crate::oss_syntax::{Access, List, Mode};
use crate::oss_words::{state_of, After, EntryInfo, EntryState};
use crate::prelude::{Box, Global};
use std::vec::Vec;

/// Who is told what the calls of a worker have done.
pub trait Watch {
    /// A load, or the first half of a fold, found this in a cell.
    fn found(&mut self, job: &Job, cell: u32, value: u64);
    /// The act of a job has happened. It is told before the job goes on.
    fn acted(&mut self, job: &Job);
    /// A task was made, with entries on these cells, and its creator's act has happened.
    fn made(&mut self, creator: &Job, task: Made);
    /// The count of this task became 0.
    fn freed(&mut self, task: u32);
    /// The seat has delivered a message or joined a value, and has touched this.
    fn delivered(&mut self, _: &Touched) {}
    /// The seat is going to give up this cell of a job's task.
    fn giving(&mut self, job: &Job, cell: u32);
    /// It has.
    fn gave(&mut self, job: &Job, cell: u32);
    /// The seat is going to leave the value of a reduction.
    fn leaving(&mut self, job: &Job, cell: u32);
    /// The seat is going to join the value of this entry, and to give it up.
    fn joining(&mut self, entry: u32);
    /// It has.
    fn joined(&mut self, entry: u32);
    /// The seat is going to give up the own entry of a job's task.
    fn finishing(&mut self, job: &Job);
}

/// A task that was made.
pub struct Made {
    pub number: u32,
    pub point: Vec<u16>,
    pub places: Vec<Place>,
}

/// A cell of a task, with its entry.
#[derive(Clone, Copy)]
pub struct Place {
    pub cell: u32,
    pub entry: u32,
    pub mode: Mode,
    pub strong: bool,
}

impl Place {
    /// Whether the task leaves a value there for a join.
    pub fn leaves(&self) -> bool {
        self.strong && matches!(self.mode, Mode::Fold(_))
    }
}

/// What became of an act.
#[derive(Clone, Copy, PartialEq, Eq, Debug)]
pub enum Did {
    Acted,
    Waits,
    Ended,
    Failed,
}

/// A seat with the field at which it is.
pub struct Worker<'a> {
    pub field: &'a Field,
    pub code: &'a Code,
    pub seat: FieldSeat,
    /// Messages wait for their delivery until the seat must hold none.
    pub late: bool,
}

/// The cells of these accesses, which are those of the task with this number, in rising order.
pub fn places_of(task: u32, accesses: &[Access]) -> Vec<Place> {
    let mut places = Vec::new();
    for access in accesses {
        for cell in access.range.lo..access.range.hi {
            places.push(Place {
                cell,
                entry: task + 1 + places.len() as u32,
                mode: access.mode,
                strong: access.strong,
            });
        }
    }
    places
}

/// The cells of a job's task.
pub fn places_of_job(job: &Job) -> Vec<Place> {
    if job.task() == 0 {
        return Vec::new();
    }
    let Ok(accesses) = job.body().accesses() else {
        panic!("memory");
    };
    places_of(job.task(), accesses.as_slice())
}

/// A new job numbers its entries as the driver does.
fn check_places(new: &Job, places: &[Place]) {
    assert!(
        places.len() as u32 == new.cells(),
        "a job tells another number of cells"
    );
    for place in places {
        assert!(
            new.entry(place.cell) == place.entry,
            "a job tells another entry"
        );
    }
}

/// Whether the count of a new task waits for a flag of this entry: it is strong, reads or writes, and begins no list of main.
fn is_waited(creator: &Job, place: &Place) -> bool {
    let begins = creator.task() == 0 && creator.last(place.cell).is_none();
    place.strong && !matches!(place.mode, Mode::Fold(_)) && !begins
}

impl<'a> Worker<'a> {
    /// The flags of an entry, as they stand.
    pub fn flags(&mut self, entry: u32) -> EntryState {
        state_of(self.field.flags(&mut self.seat, entry))
    }

    /// Delivers all that the seat holds.
    pub fn deliver(&mut self, watch: &mut impl Watch) {
        while self.seat.holding() {
            self.deliver_one(watch);
        }
    }

    /// Delivers the message that comes first. Condition: the seat holds one.
    pub fn deliver_one(&mut self, watch: &mut impl Watch) {
        match self.seat.next_join() {
            Some(entry) => {
                watch.joining(entry);
                self.field.fold(&mut self.seat, entry);
                assert!(
                    self.seat.touched().entry == entry,
                    "a fold has touched another entry"
                );
                watch.joined(entry);
            }
            None => {
                if let Some(task) = self.field.deliver(&mut self.seat) {
                    watch.freed(task);
                }
            }
        }
        watch.delivered(&self.seat.touched());
    }

    /// Delivers all that the seat holds, unless it is to wait until that must be.
    fn deliver_soon(&mut self, watch: &mut impl Watch) {
        if !self.late {
            self.deliver(watch);
        }
    }

    /// Whether the last child there is done, and all before it where `all` is asked for.
    fn is_done(&mut self, last: Option<u32>, all: bool) -> bool {
        match last {
            None => true,
            Some(entry) => {
                let flags = self.flags(entry);
                flags.done && (flags.clear || !all)
            }
        }
    }

    /// Whether the seat sees now that what the job's next act waits for has come.
    pub fn may_pass(&mut self, job: &Job) -> bool {
        match job.body().pending() {
            Act::Await => self.is_done(job.last_child(), false),
            Act::Wait => self.is_done(job.last_child(), true),
            Act::WaitOn(ranges) => {
                for range in ranges.as_slice() {
                    for cell in range.lo..range.hi {
                        if !self.is_done(job.last(cell), true) {
                            return false;
                        }
                    }
                }
                true
            }
            _ => true,
        }
    }

    /// Whether the job's task has ended, and its clause `wait` is met.
    pub fn is_through(&mut self, job: &Job) -> bool {
        job.body().ended() && (!job.body().waits() || self.is_done(job.last_child(), true))
    }

    /// The next act of a job that the seat holds, with all messages that it sends.
    pub fn act(&mut self, job: &mut Job, watch: &mut impl Watch) -> Did {
        if job.body().ended() {
            return Did::Ended;
        }
        if !self.may_pass(job) {
            return Did::Waits;
        }
        let mut answer = 0;
        match job.body().pending() {
            Act::Fault { .. } => return Did::Failed,
            Act::Create { included, .. } if !*included => {
                self.create(job, watch);
                self.go_on(job, 0);
                return Did::Acted;
            }
            Act::Load(cell) => {
                answer = self.field.load(&mut self.seat, job, *cell);
                watch.found(job, *cell, answer);
            }
            Act::Store(cell, value) => {
                self.field.store(&mut self.seat, job, *cell, word(*value));
            }
            Act::Fold {
                cell,
                op,
                value,
                slot,
            } if !*slot => {
                let found = self.field.load(&mut self.seat, job, *cell);
                watch.found(job, *cell, found);
                let made = combined(*op, found, word(*value));
                self.field.store(&mut self.seat, job, *cell, made);
            }
            _ => {}
        }
        watch.acted(job);
        self.go_on(job, answer);
        Did::Acted
    }

    fn go_on(&mut self, job: &mut Job, answer: u64) {
        if job.advance(self.code, answer).is_err() {
            panic!("memory");
        }
    }

    /// Makes the task whose creation stands next in the job.
    fn create(&mut self, job: &mut Job, watch: &mut impl Watch) {
        let (mut new, accesses) = self.prepare(job);
        let Some(task) = self.field.draw(&mut self.seat, 1 + new.cells()) else {
            panic!("the field has too few entries");
        };
        new.start(task);
        let point = new.body().point().as_slice().to_vec();
        let places = places_of(task, accesses.as_slice());
        check_places(&new, &places);
        let count = 1 + places.iter().filter(|place| is_waited(job, place)).count() as u32;
        self.field.set_count(&mut self.seat, job, task, count);
        self.hang(job, task, (point.len() - 1) as u8, &places, watch);
        let Ok(boxed) = Box::new(Global, new) else {
            panic!("memory");
        };
        self.field.put_first(&mut self.seat, boxed);
        job.note(task, &accesses);
        let free = self.field.count_down(&mut self.seat, job, task);
        let made = Made {
            number: task,
            point,
            places,
        };
        watch.made(job, made);
        if free {
            watch.freed(task);
        }
    }

    /// The job of the task whose creation stands next, without a number, and its accesses, for which the creator's job has room. All memory is taken here.
    fn prepare(&self, job: &mut Job) -> (Job, List<Access>) {
        let Act::Create { creation, .. } = job.body().pending() else {
            panic!("no creation stands next");
        };
        let Ok(accesses) = creation.get().accesses() else {
            panic!("memory");
        };
        let (Ok(body), Ok(())) = (job.body().child(self.code), job.reserve(&accesses)) else {
            panic!("memory");
        };
        match Job::new(Global, body, &accesses) {
            Ok(new) => (new, accesses),
            Err(_) => panic!("memory"),
        }
    }

    /// Links all entries of a new task: its own, and those on its cells.
    fn hang(&mut self, job: &Job, task: u32, depth: u8, places: &[Place], watch: &mut impl Watch) {
        let own = EntryInfo {
            mode: Mode::Read,
            strong: false,
            depth,
            parent: job.task(),
            task,
        };
        self.link(job, task, &own, None, watch);
        for place in places {
            let info = EntryInfo {
                mode: place.mode,
                strong: place.strong,
                depth,
                parent: match job.task() {
                    0 => 0,
                    _ => job.entry(place.cell),
                },
                task,
            };
            self.link(job, place.entry, &info, Some(place.cell), watch);
        }
    }

    /// Links an entry of a new task, and delivers what that completes.
    fn link(
        &mut self,
        job: &Job,
        entry: u32,
        info: &EntryInfo,
        cell: Option<u32>,
        watch: &mut impl Watch,
    ) {
        let last = match cell {
            Some(cell) => job.last(cell),
            None => job.last_child(),
        };
        let after = match last {
            Some(sibling) => After::Sibling(sibling),
            None if job.task() == 0 => After::FirstOfMain,
            None => After::FirstOf(info.parent),
        };
        self.deliver(watch);
        self.field
            .link(&mut self.seat, job, entry, info, cell, after);
        self.deliver_soon(watch);
    }

    /// Whether a cell with no join may be given up now: it is not yet, and the task has released it, or is through.
    pub fn may_give(&mut self, job: &Job, place: &Place) -> bool {
        if place.leaves() || self.flags(place.entry).given {
            return false;
        }
        job.body().has_released(place.cell) || self.is_through(job)
    }

    /// Whether the value of a reduction may be left now.
    pub fn may_leave(&mut self, job: &Job, place: &Place) -> bool {
        if !place.leaves() {
            return false;
        }
        let flags = self.flags(place.entry);
        !flags.left && !flags.given && self.is_through(job)
    }

    /// Whether the task's own entry may be given up now: the task has ended, and all its cells are given up.
    pub fn may_finish(&mut self, job: &Job, places: &[Place]) -> bool {
        if job.task() == 0 || !job.body().ended() || self.flags(job.task()).given {
            return false;
        }
        places.iter().all(|place| self.flags(place.entry).given)
    }

    /// Gives up a cell that may be given up, with all messages that this sends.
    pub fn give(&mut self, job: &Job, place: &Place, watch: &mut impl Watch) {
        self.deliver(watch);
        watch.giving(job, place.cell);
        self.field.give(&mut self.seat, job, Some(place.cell));
        watch.gave(job, place.cell);
        self.deliver_soon(watch);
    }

    /// Leaves a value that may be left, with all messages that this sends.
    pub fn leave(&mut self, job: &Job, place: &Place, watch: &mut impl Watch) {
        self.deliver(watch);
        watch.leaving(job, place.cell);
        let value = job.body().slot(place.cell);
        self.field.leave(&mut self.seat, job, place.cell, value);
        self.deliver_soon(watch);
    }

    /// Gives up the own entry of a job's task, which may be given up, with all messages that this sends.
    pub fn finish(&mut self, job: &Job, watch: &mut impl Watch) {
        self.deliver(watch);
        watch.finishing(job);
        self.field.give(&mut self.seat, job, None);
        self.deliver_soon(watch);
    }
}
