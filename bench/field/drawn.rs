//! A field beside the core, deed by deed: which seat acts, and what it does, is drawn; behind each deed all is compared.

use crate::beside::{Beside, Counts};
use crate::oss_code::Code;
use crate::oss_field::Field;
use crate::oss_jobs::Job;
use crate::oss_model::Move;
use crate::prelude::{Box, Global};
use crate::programs::Dice;
use crate::work::{Did, Watch, Worker};
use std::vec::Vec;

/// The jobs that a seat holds, the last taken last.
type Hand = Vec<Box<Job>>;

struct Run<'a> {
    beside: Beside<'a>,
    workers: Vec<Worker<'a>>,
    hands: Vec<Hand>,
    dice: Dice,
    /// How many entries were drawn for nothing.
    wasted: u32,
}

/// Runs a program by so many seats, each deed drawn from the start, with the core beside it: what was done. It ends with a panic where a difference is found. `told` is called before each deed.
pub fn run(
    code: &Code,
    field: &Field,
    seat: crate::oss_field::FieldSeat,
    fuel: u32,
    seats: usize,
    start: u64,
    told: &mut dyn FnMut(std::string::String),
) -> Counts {
    // in every other program messages wait
    let late = (start / 4) % 2 == 1;
    let mut workers = Vec::new();
    workers.push(Worker {
        field,
        code,
        seat,
        late,
    });
    while workers.len() < seats {
        let Ok(seat) = field.split(Global, &mut workers[0].seat) else {
            panic!("memory");
        };
        workers.push(Worker {
            field,
            code,
            seat,
            late,
        });
    }
    let hands = workers.iter().map(|_| Vec::new()).collect();
    let mut run = Run {
        beside: Beside::new(code, fuel),
        workers,
        hands,
        dice: Dice::new(start),
        wasted: 0,
    };
    let mut idle = 0;
    while !run.is_over() {
        let made = run.deed(told);
        if run.is_at_rest() {
            run.compare();
        }
        idle = if made { 0 } else { idle + 1 };
        assert!(
            idle < 20_000,
            "no seat finds anything to do, and the program has not ended"
        );
    }
    run.end()
}

impl Run<'_> {
    /// No seat holds a message.
    fn is_at_rest(&self) -> bool {
        self.workers.iter().all(|worker| !worker.seat.holding())
    }

    fn is_over(&self) -> bool {
        self.is_at_rest()
            && self.hands.iter().all(Vec::is_empty)
            && self
                .beside
                .tasks
                .iter()
                .all(|task| task.ended && (task.gave_own || task.number == 0))
    }

    /// All is over in the core too. The seats that were split off come back.
    fn end(mut self) -> Counts {
        if let Some(why) = self.beside.left_over() {
            panic!("{why}");
        }
        let field = self.workers[0].field;
        let many = field.draw(&mut self.workers[0].seat, 1_024);
        assert!(many.is_none(), "more entries were drawn than there are");
        while self.workers.len() > 1 {
            let Some(other) = self.workers.pop() else {
                break;
            };
            assert!(!other.seat.holding(), "a seat holds a message at the end");
            field.join(&mut self.workers[0].seat, other.seat);
        }
        self.beside.counts
    }

    /// Something that some seat does; false if it found nothing to do.
    fn deed(&mut self, told: &mut dyn FnMut(std::string::String)) -> bool {
        let seat = self.dice.below(self.workers.len() as u32) as usize;
        let held = self.hands[seat].len() as u32;
        if self.dice.one_in(60) {
            self.waste(seat, told);
        }
        if self.workers[seat].seat.holding() {
            if self.dice.one_in(2) {
                told(std::format!("seat {seat} delivers a message"));
                self.workers[seat].deliver_one(&mut self.beside);
                self.beside.counts.deeds += 1;
                self.beside.counts.late += 1;
                return true;
            }
        } else if seat > 0 && held == 0 && self.dice.one_in(12) {
            self.renew(seat, told);
        }
        if held == 0 || (held < 3 && self.dice.one_in(8)) {
            return self.take(seat, told);
        }
        let which = self.dice.below(held) as usize;
        let last = which + 1 == held as usize;
        match self.dice.below(12) {
            0 if last => {
                self.put(seat, told);
                true
            }
            1 | 2 => self.give(seat, which, told),
            _ => self.act(seat, which, last, told),
        }
    }

    /// A seat that holds nothing comes back to the first, and another is split off in its place.
    fn renew(&mut self, seat: usize, told: &mut dyn FnMut(std::string::String)) {
        told(std::format!(
            "seat {seat} is joined to seat 0, and split off anew"
        ));
        let field = self.workers[0].field;
        let code = self.workers[0].code;
        let late = self.workers[0].late;
        let other = self.workers.swap_remove(seat);
        field.join(&mut self.workers[0].seat, other.seat);
        let Ok(new) = field.split(Global, &mut self.workers[0].seat) else {
            panic!("memory");
        };
        self.workers.push(Worker {
            field,
            code,
            seat: new,
            late,
        });
        let last = self.workers.len() - 1;
        self.workers.swap(seat, last);
        self.beside.counts.seats += 1;
    }

    /// A seat draws an entry that nobody ever uses.
    fn waste(&mut self, seat: usize, told: &mut dyn FnMut(std::string::String)) {
        if self.wasted == 50 {
            return;
        }
        let worker = &mut self.workers[seat];
        let drawn = worker.field.draw(&mut worker.seat, 1);
        told(std::format!(
            "seat {seat} draws an entry for nothing: {drawn:?}"
        ));
        let known = self
            .beside
            .tasks
            .iter()
            .map(|task| task.number + task.places.len() as u32)
            .max();
        assert!(drawn > known, "an entry was drawn that is used");
        self.wasted += 1;
    }

    fn take(&mut self, seat: usize, told: &mut dyn FnMut(std::string::String)) -> bool {
        let at = self.dice.below(self.beside.tasks.len() as u32) as usize;
        let number = self.beside.tasks[at].number;
        let out = self
            .hands
            .iter()
            .any(|hand| hand.iter().any(|job| job.task() == number));
        let worker = &mut self.workers[seat];
        told(std::format!("seat {seat} takes the job of {number}"));
        let found = worker.field.take_body(&mut worker.seat, number);
        self.check_taken(at, out, found.is_some());
        match found {
            Some(job) => {
                self.beside.counts.deeds += 1;
                let task = &self.beside.tasks[at];
                let idle = task.ended && task.gave_own;
                self.hands[seat].push(job);
                if idle {
                    self.put(seat, told);
                }
                !idle
            }
            None => false,
        }
    }

    /// A job is there exactly if no seat has it, and the task has begun or may begin.
    fn check_taken(&mut self, at: usize, out: bool, found: bool) {
        let task = &self.beside.tasks[at];
        let number = task.number;
        let ready = task.begun || at == 0 || self.beside.core.enabled(&Move::Step(task.core));
        let rests = self.workers.iter().all(|worker| !worker.seat.holding());
        assert!(
            found == (ready && !out) || (!found && !rests),
            "the job of {number} is {}there, the core has its task {}ready, and it is {}out",
            if found { "" } else { "not " },
            if ready { "" } else { "not " },
            if out { "" } else { "not " },
        );
        let task = &self.beside.tasks[at];
        assert!(
            !found || task.freed,
            "the task {number} may be taken, and no call has told it"
        );
    }

    fn put(&mut self, seat: usize, told: &mut dyn FnMut(std::string::String)) {
        let Some(job) = self.hands[seat].pop() else {
            return;
        };
        told(std::format!("seat {seat} puts the job of {}", job.task()));
        let worker = &mut self.workers[seat];
        worker.field.put_body(&mut worker.seat, job);
        self.beside.counts.deeds += 1;
    }

    /// The next act of a job. One that waits or has ended is put back, if it was taken last.
    fn act(
        &mut self,
        seat: usize,
        which: usize,
        last: bool,
        told: &mut dyn FnMut(std::string::String),
    ) -> bool {
        let job = &mut self.hands[seat][which];
        let at = self.beside.place_of(job.task());
        told(std::format!("seat {seat} goes on with {}", job.task()));
        let did = self.workers[seat].act(job, &mut self.beside);
        let ended = job.body().ended();
        self.beside.tasks[at].ended = ended;
        match did {
            Did::Acted => {
                self.beside.counts.deeds += 1;
                true
            }
            Did::Failed => panic!("the task {} stands before a fault", job.task()),
            Did::Ended if self.dice.below(3) > 0 && self.give(seat, which, told) => true,
            _ => {
                if last {
                    self.put(seat, told);
                }
                false
            }
        }
    }

    /// Gives up or leaves some entry of a job's task. What the seat holds is delivered before.
    fn give(
        &mut self,
        seat: usize,
        which: usize,
        told: &mut dyn FnMut(std::string::String),
    ) -> bool {
        let Run {
            beside,
            workers,
            hands,
            dice,
            ..
        } = self;
        let job = &hands[seat][which];
        let worker = &mut workers[seat];
        let number = job.task();
        if number == 0 {
            return false;
        }
        let places = beside.tasks[beside.place_of(number)].places.clone();
        let count = places.len() + 1;
        let from = dice.below(count as u32) as usize;
        for turn in 0..count {
            let place = places.get((from + turn) % count);
            let what = match place {
                None if worker.may_finish(job, &places) => {
                    worker.finish(job, beside);
                    std::format!("gave up the task {number}")
                }
                Some(place) if worker.may_give(job, place) => {
                    worker.give(job, place, beside);
                    std::format!("gave up cell {} of {number}", place.cell)
                }
                Some(place) if worker.may_leave(job, place) => {
                    worker.leave(job, place, beside);
                    std::format!("left cell {} of {number}", place.cell)
                }
                _ => continue,
            };
            told(std::format!("seat {seat} {what}"));
            beside.counts.deeds += 1;
            return true;
        }
        false
    }

    /// Compares all that may happen next, and the flags that tell what is done.
    fn compare(&mut self) {
        self.beside.counts.compared += 1;
        for at in 0..self.beside.tasks.len() {
            self.compare_ready(at);
            self.compare_flags(at);
        }
        for seat in 0..self.workers.len() {
            for which in 0..self.hands[seat].len() {
                self.compare_held(seat, which);
            }
        }
    }

    /// A task that has not begun may begin in the field exactly if it may in the core. Seat 0 looks, and puts back what it finds.
    fn compare_ready(&mut self, at: usize) {
        let task = &self.beside.tasks[at];
        if task.begun {
            return;
        }
        let number = task.number;
        let out = self
            .hands
            .iter()
            .any(|hand| hand.iter().any(|job| job.task() == number));
        if out {
            return;
        }
        let seat = self.dice.below(self.workers.len() as u32) as usize;
        let worker = &mut self.workers[seat];
        let found = worker.field.take_body(&mut worker.seat, number);
        self.check_taken(at, false, found.is_some());
        if let Some(job) = found {
            self.beside.counts.readies += 1;
            let worker = &mut self.workers[seat];
            worker.field.put_body(&mut worker.seat, job);
        }
    }

    /// The flags that tell what is given up, done and clear.
    fn compare_flags(&mut self, at: usize) {
        if at == 0 {
            return;
        }
        let number = self.beside.tasks[at].number;
        let flags = self.workers[0].flags(number);
        let done = self.beside.is_done(at);
        assert!(
            flags.given == self.beside.tasks[at].gave_own,
            "the flag `given` of the task {number}"
        );
        assert!(
            flags.done == done,
            "the flag `done` of the task {number} is {}",
            flags.done
        );
        assert!(
            flags.clear == self.beside.is_clear(at, None),
            "the flag `clear` of the task {number} is {}",
            flags.clear
        );
        let complete = self.beside.core.tree().complete(self.beside.tasks[at].core);
        assert!(
            !done || complete,
            "the task {number} is done, and is not complete in the core"
        );
        self.compare_infos(at);
        for place in 0..self.beside.tasks[at].places.len() {
            self.compare_cell(at, place);
        }
    }

    /// The infos of a task's entries tell without a seat whose they are, and below which entries of its creator they hang.
    fn compare_infos(&self, at: usize) {
        let task = &self.beside.tasks[at];
        let creator = &self.beside.tasks[task.parent.unwrap_or(0)];
        self.compare_info(task.number, task.number, creator.number);
        for place in &task.places {
            let above = creator.places.iter().find(|one| one.cell == place.cell);
            let parent = above.map_or(0, |above| above.entry);
            self.compare_info(task.number, place.entry, parent);
        }
    }

    fn compare_info(&self, task: u32, entry: u32, parent: u32) {
        let Some(info) = self.workers[0].field.peek_info(entry) else {
            panic!("the entry {entry} is not there");
        };
        assert!(
            info.task == task && info.parent == parent,
            "the info of the entry {entry} tells of the task {} below {}",
            info.task,
            info.parent
        );
    }

    fn compare_cell(&mut self, at: usize, place: usize) {
        let task = &self.beside.tasks[at];
        let number = task.number;
        let one = task.places[place];
        let flags = self.workers[0].flags(one.entry);
        let cell = one.cell;
        assert!(
            flags.given == task.given[place],
            "the flag `given` of cell {cell} of the task {number}"
        );
        assert!(
            flags.left == task.left[place],
            "the flag `left` of cell {cell} of the task {number}"
        );
        let done = self.beside.is_cell_done(at, place);
        assert!(
            flags.done == done,
            "the flag `done` of cell {cell} of the task {number} is {}",
            flags.done
        );
        let clear = self.beside.is_clear(at, Some(cell));
        assert!(
            flags.clear == clear,
            "the flag `clear` of cell {cell} of the task {number} is {}",
            flags.clear
        );
        assert!(
            !flags.writes || flags.reads,
            "cell {cell} of the task {number} may be written and not read"
        );
        // a value that is left is joined as soon as it may be
        let joinable = self
            .beside
            .core
            .enabled(&Move::Join(self.beside.tasks[at].core, cell));
        let task = &self.beside.tasks[at];
        assert!(
            !(joinable && task.left[place]),
            "cell {cell} of the task {number} is left and was not joined"
        );
        if joinable {
            assert!(flags.folds, "cell {cell} of the task {number} may be joined in the core, and has not the flag `folds`");
        }
    }

    /// What may happen next to a job that a seat holds.
    fn compare_held(&mut self, seat: usize, which: usize) {
        let job = &self.hands[seat][which];
        let worker = &mut self.workers[seat];
        let beside = &mut self.beside;
        let number = job.task();
        let at = beside.place_of(number);
        let core = beside.tasks[at].core;
        // the core completes a task before its own entry is given up, so it may be ahead
        let all_gave = beside.tasks.iter().all(|task| {
            task.gave_own || task.number == 0 || !beside.core.tree().complete(task.core)
        });
        if !job.body().ended() {
            let passes = worker.may_pass(job);
            let enabled = beside.core.enabled(&Move::Step(core));
            assert!(
                !passes || enabled,
                "the task {number} may go on, and may not in the core"
            );
            assert!(
                passes || !enabled || !all_gave,
                "the task {number} may not go on, and may in the core"
            );
        }
        for place in 0..beside.tasks[at].places.len() {
            let one = beside.tasks[at].places[place];
            let gives = worker.may_give(job, &one);
            let lets = beside.core.enabled(&Move::Let(core, one.cell));
            assert!(
                !gives || lets,
                "the task {number} may give up cell {}, and may not in the core",
                one.cell
            );
            assert!(
                gives || !lets || !all_gave,
                "the task {number} may not give up cell {}, and may in the core",
                one.cell
            );
            if one.leaves() {
                let leaves = worker.may_leave(job, &one);
                let folds = worker.flags(one.entry).folds;
                let joins = beside.core.enabled(&Move::Join(core, one.cell));
                assert!(
                    !(leaves && folds) || joins,
                    "the task {number} may join cell {}, and may not in the core",
                    one.cell
                );
                assert!(
                    (leaves && folds) || !joins || !all_gave,
                    "the task {number} may not join cell {}, and may in the core",
                    one.cell
                );
            }
        }
    }
}
