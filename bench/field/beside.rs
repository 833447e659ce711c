//! A field beside the core: the moves that the core makes for what the seats of a field do, and what is compared of both.

use crate::oss_body::Act;
use crate::oss_code::Code;
use crate::oss_core::Core;
use crate::oss_deps::PlainDeps;
use crate::oss_jobs::Job;
use crate::oss_model::{Move, TaskNo};
use crate::prelude::Global;
use crate::work::{Made, Place, Watch};
use std::vec::Vec;

/// What the driver notes of a task.
pub struct Noted {
    pub number: u32,
    pub core: TaskNo,
    /// The places of its children in the list of all, in the order of their creation.
    pub children: Vec<usize>,
    pub parent: Option<usize>,
    pub places: Vec<Place>,
    /// Which of these cells are given up, and which are left.
    pub given: Vec<bool>,
    pub left: Vec<bool>,
    /// Whether its own entry is given up.
    pub gave_own: bool,
    pub begun: bool,
    pub ended: bool,
    /// Whether the field told that its count became 0.
    pub freed: bool,
}

/// How often each kind of deed was made.
#[derive(Clone, Copy, Default)]
pub struct Counts {
    pub deeds: u64,
    pub acts: u64,
    pub tasks: u64,
    pub waits: u64,
    pub gives: u64,
    pub early: u64,
    pub leaves: u64,
    pub joins: u64,
    pub finishes: u64,
    pub compared: u64,
    pub readies: u64,
    pub seats: u64,
    /// Messages that waited.
    pub late: u64,
}

impl std::fmt::Display for Counts {
    fn fmt(&self, out: &mut std::fmt::Formatter<'_>) -> std::fmt::Result {
        let Counts {
            tasks,
            acts,
            waits,
            gives,
            early,
            leaves,
            joins,
            finishes,
            ..
        } = self;
        write!(out, "{tasks} tasks, {acts} acts, {waits} of them waits, {gives} gives, {early} of them early, {leaves} leaves, {joins} joins, {finishes} ends")?;
        let Counts {
            deeds,
            late,
            seats,
            compared,
            readies,
            ..
        } = self;
        match compared {
            0 => Ok(()),
            _ => write!(out, "; {deeds} deeds, {late} messages that waited, {seats} seats that came and went; compared {compared} times, {readies} ready tasks"),
        }
    }
}

impl Counts {
    pub fn add(&mut self, more: &Counts) {
        self.deeds += more.deeds;
        self.acts += more.acts;
        self.tasks += more.tasks;
        self.waits += more.waits;
        self.gives += more.gives;
        self.early += more.early;
        self.leaves += more.leaves;
        self.joins += more.joins;
        self.finishes += more.finishes;
        self.compared += more.compared;
        self.readies += more.readies;
        self.seats += more.seats;
        self.late += more.late;
    }
}

fn is_same(a: &Move, b: &Move) -> bool {
    match (a, b) {
        (Move::Step(t), Move::Step(u)) => t.0 == u.0,
        (Move::Let(t, c), Move::Let(u, d)) => t.0 == u.0 && c == d,
        (Move::Join(t, c), Move::Join(u, d)) => t.0 == u.0 && c == d,
        _ => false,
    }
}

/// The core, and what is noted of each task.
pub struct Beside<'a> {
    pub code: &'a Code,
    pub core: Core<PlainDeps>,
    pub tasks: Vec<Noted>,
    pub counts: Counts,
    /// What loads have found of acts that are not told yet: the task, the cell and the number.
    pub finds: Vec<(u32, u32, u64)>,
    /// Moves of calls that are being made: the core makes such a move at the end of its call, or before, if another move needs it.
    pub flying: Vec<Move>,
}

impl<'a> Beside<'a> {
    /// Main alone, at its beginning.
    pub fn new(code: &'a Code, fuel: u32) -> Beside<'a> {
        let Ok(core) = Core::new(Global, code, fuel, PlainDeps::new(Global)) else {
            panic!("memory");
        };
        let main = Noted {
            number: 0,
            core: TaskNo(0),
            children: Vec::new(),
            parent: None,
            places: Vec::new(),
            given: Vec::new(),
            left: Vec::new(),
            gave_own: false,
            begun: false,
            ended: false,
            freed: true,
        };
        let mut tasks = Vec::new();
        tasks.push(main);
        Beside {
            code,
            core,
            tasks,
            counts: Counts::default(),
            finds: Vec::new(),
            flying: Vec::new(),
        }
    }

    /// What is left to be done in the core, when the field has ended.
    pub fn left_over(&mut self) -> Option<std::string::String> {
        if !self.core.stopped() {
            return Some("the field has ended, and the core may go on".into());
        }
        match self.core.unfinished() {
            0 => None,
            _ => Some("the field has ended, and the core has unfinished tasks".into()),
        }
    }

    /// A job was taken: its task has begun, or may begin.
    pub fn check_ready(&mut self, task: u32) {
        let at = self.place_of(task);
        if !self.tasks[at].begun {
            self.reach("a take", at, Move::Step(self.tasks[at].core));
        }
    }

    /// The next act of a job has found this. The thread that has the turn goes on with this job alone until the act is told.
    pub fn found_by(&mut self, job: &Job, cell: u32, value: u64) {
        self.finds.retain(|found| found.0 != job.task());
        self.finds.push((job.task(), cell, value));
    }

    pub fn place_of(&self, number: u32) -> usize {
        match self.tasks.iter().position(|task| task.number == number) {
            Some(place) => place,
            None => panic!("the task {number} is not known"),
        }
    }

    /// Which of a task's cells this is.
    pub fn place_on(&self, at: usize, cell: u32) -> usize {
        match self.tasks[at]
            .places
            .iter()
            .position(|place| place.cell == cell)
        {
            Some(place) => place,
            None => panic!("the task {} has no cell {cell}", self.tasks[at].number),
        }
    }

    /// The task and the cell of an entry.
    pub fn owner(&self, entry: u32) -> (usize, usize) {
        for (at, task) in self.tasks.iter().enumerate() {
            if let Some(cell) = task.places.iter().position(|place| place.entry == entry) {
                return (at, cell);
            }
        }
        panic!("the entry {entry} is of no task");
    }

    /// The core makes a move that the field has made.
    pub fn make(&mut self, what: &str, at: usize, m: Move) {
        self.reach(what, at, m);
        if self.core.apply(self.code, m).is_err() {
            panic!("memory");
        }
    }

    /// The core may make this move, if need be after moves of calls that are being made.
    pub fn reach(&mut self, what: &str, at: usize, m: Move) {
        let mut turn = 0;
        while !self.core.enabled(&m) {
            let Some(place) =
                (turn..self.flying.len()).find(|place| self.core.enabled(&self.flying[*place]))
            else {
                panic!(
                    "{what} of the task {}: the core may not make this move",
                    self.tasks[at].number
                );
            };
            let flies = self.flying.remove(place);
            if self.core.apply(self.code, flies).is_err() {
                panic!("memory");
            }
            turn = 0;
        }
    }

    /// A call is begun that makes this move.
    pub fn fly(&mut self, m: Move) {
        self.flying.push(m);
    }

    /// It has ended.
    pub fn land(&mut self, what: &str, at: usize, m: Move) {
        if let Some(place) = self.flying.iter().position(|flies| is_same(flies, &m)) {
            self.flying.remove(place);
            self.make(what, at, m);
        }
    }

    /// Whether an own entry is to be done: it and those of all tasks below are given up.
    pub fn is_done(&self, at: usize) -> bool {
        let task = &self.tasks[at];
        task.gave_own && task.children.iter().all(|child| self.is_done(*child))
    }

    /// Whether the entry of a task on a cell is to be done: it and those of its children on the cell are given up.
    pub fn is_cell_done(&self, at: usize, place: usize) -> bool {
        let task = &self.tasks[at];
        task.given[place] && self.cell_children_done(at, task.places[place].cell)
    }

    pub fn cell_children_done(&self, at: usize, cell: u32) -> bool {
        self.tasks[at].children.iter().all(|child| {
            let found = self.tasks[*child]
                .places
                .iter()
                .position(|place| place.cell == cell);
            found.map_or(true, |place| self.is_cell_done(*child, place))
        })
    }

    /// Whether all siblings before a task are done there: on the cell, or themselves.
    pub fn is_clear(&self, at: usize, cell: Option<u32>) -> bool {
        let Some(parent) = self.tasks[at].parent else {
            return true;
        };
        let before = self.tasks[parent]
            .children
            .iter()
            .take_while(|child| **child != at);
        before.into_iter().all(|child| match cell {
            None => self.is_done(*child),
            Some(cell) => {
                let found = self.tasks[*child]
                    .places
                    .iter()
                    .position(|place| place.cell == cell);
                found.map_or(true, |place| self.is_cell_done(*child, place))
            }
        })
    }
}

impl Watch for Beside<'_> {
    fn found(&mut self, job: &Job, cell: u32, value: u64) {
        self.found_by(job, cell, value);
    }

    fn acted(&mut self, job: &Job) {
        let at = self.place_of(job.task());
        self.counts.acts += 1;
        if matches!(
            job.body().pending(),
            Act::Wait | Act::WaitOn(_) | Act::Await
        ) {
            self.counts.waits += 1;
        }
        let m = Move::Step(self.tasks[at].core);
        self.reach("an act", at, m);
        if let Some(place) = self.finds.iter().position(|found| found.0 == job.task()) {
            let (_, cell, value) = self.finds.swap_remove(place);
            let wanted = self.core.cells()[cell as usize];
            assert!(
                wanted == value,
                "the task {} found {value} in cell {cell}, and the core has {wanted}",
                job.task()
            );
        }
        self.make("an act", at, m);
        self.tasks[at].begun = true;
    }

    fn made(&mut self, creator: &Job, task: Made) {
        let parent = self.place_of(creator.task());
        self.make("a creation", parent, Move::Step(self.tasks[parent].core));
        self.counts.tasks += 1;
        let Some(core) = self.core.find(&task.point) else {
            panic!("the core has no task {:?}", task.point);
        };
        let at = self.tasks.len();
        self.tasks[parent].begun = true;
        self.tasks[parent].children.push(at);
        let count = task.places.len();
        self.tasks.push(Noted {
            number: task.number,
            core,
            children: Vec::new(),
            parent: Some(parent),
            places: task.places,
            given: std::iter::repeat(false).take(count).collect(),
            left: std::iter::repeat(false).take(count).collect(),
            gave_own: false,
            begun: false,
            ended: false,
            freed: false,
        });
    }

    fn freed(&mut self, task: u32) {
        let at = self.place_of(task);
        assert!(
            !self.tasks[at].freed,
            "the count of the task {task} became 0 twice"
        );
        self.tasks[at].freed = true;
    }

    fn giving(&mut self, job: &Job, cell: u32) {
        let at = self.place_of(job.task());
        let place = self.place_on(at, cell);
        assert!(
            !self.tasks[at].given[place],
            "cell {cell} of {} is given up twice",
            job.task()
        );
        self.tasks[at].given[place] = true;
        self.fly(Move::Let(self.tasks[at].core, cell));
    }

    fn gave(&mut self, job: &Job, cell: u32) {
        let at = self.place_of(job.task());
        self.land("a give", at, Move::Let(self.tasks[at].core, cell));
        self.counts.gives += 1;
        self.counts.early += !job.body().ended() as u64;
    }

    fn leaving(&mut self, job: &Job, cell: u32) {
        let at = self.place_of(job.task());
        let place = self.place_on(at, cell);
        assert!(
            !self.tasks[at].left[place],
            "cell {cell} of {} is left twice",
            job.task()
        );
        self.tasks[at].left[place] = true;
        self.counts.leaves += 1;
    }

    fn joining(&mut self, entry: u32) {
        let (at, place) = self.owner(entry);
        assert!(
            self.tasks[at].left[place],
            "entry {entry} is joined and not left"
        );
        assert!(
            !self.tasks[at].given[place],
            "entry {entry} is joined twice"
        );
        self.tasks[at].given[place] = true;
        self.fly(Move::Join(
            self.tasks[at].core,
            self.tasks[at].places[place].cell,
        ));
    }

    fn joined(&mut self, entry: u32) {
        let (at, place) = self.owner(entry);
        let cell = self.tasks[at].places[place].cell;
        self.land("a join", at, Move::Join(self.tasks[at].core, cell));
        self.counts.joins += 1;
    }

    fn finishing(&mut self, job: &Job) {
        let at = self.place_of(job.task());
        assert!(
            !self.tasks[at].gave_own,
            "the task {} is given up twice",
            job.task()
        );
        self.tasks[at].gave_own = true;
        self.counts.finishes += 1;
    }
}
