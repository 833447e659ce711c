//! Random programs of tasks: each from one number.

use std::fmt::Write;
use std::string::String;
use std::vec::Vec;

/// Numbers in no order, the same each time.
#[derive(Clone)]
pub struct Dice {
    state: u64,
}

impl Dice {
    pub fn new(start: u64) -> Dice {
        let mut dice = Dice {
            state: start.wrapping_mul(0x9e37_79b9_7f4a_7c15) ^ 0x2545_f491_4f6c_dd1d,
        };
        dice.below(2);
        dice.below(2);
        dice
    }

    /// A number below this one, which is not 0.
    pub fn below(&mut self, sides: u32) -> u32 {
        self.state = self
            .state
            .wrapping_mul(6_364_136_223_846_793_005)
            .wrapping_add(1_442_695_040_888_963_407);
        ((self.state >> 33) % sides as u64) as u32
    }

    /// Whether one of so many cases came.
    pub fn one_in(&mut self, sides: u32) -> bool {
        self.below(sides) == 0
    }
}

/// What a task may do with a cell.
#[derive(Clone, Copy, PartialEq, Eq)]
enum May {
    Nothing,
    Read,
    Write,
    Fold(usize),
}

const OPERATORS: [&str; 4] = ["+", "&", "|", "^"];

/// Where a task stands with a cell.
#[derive(Clone, Copy)]
struct Held {
    may: May,
    strong: bool,
    /// A child was told of it, and was not waited for.
    lent: bool,
}

struct Maker {
    dice: Dice,
    text: String,
    cells: usize,
    /// How many tasks are still to be made.
    left: u32,
}

/// The text of a program over at most 5 cells with at most so many tasks.
pub fn program(start: u64, tasks: u32) -> String {
    let mut dice = Dice::new(start);
    let cells = 1 + dice.below(5) as usize;
    let mut maker = Maker {
        dice,
        text: String::new(),
        cells,
        left: tasks,
    };
    let _ = write!(maker.text, "long a[{cells}];\nint main() {{\n");
    let mut held = vec_of(
        cells,
        Held {
            may: May::Write,
            strong: true,
            lent: false,
        },
    );
    while maker.left > 0 {
        maker.statement(&mut held, 0, true);
    }
    maker.text.push_str("#pragma oss taskwait\n");
    for cell in 0..cells {
        let _ = write!(maker.text, "printf(\"%ld\\n\", a[{cell}]);\n");
    }
    maker.text.push_str("}\n");
    maker.text
}

fn vec_of<T: Clone>(count: usize, item: T) -> Vec<T> {
    std::iter::repeat(item).take(count).collect()
}

impl Maker {
    /// One statement of a body.
    fn statement(&mut self, held: &mut Vec<Held>, depth: u32, of_main: bool) {
        match self.dice.below(10) {
            0 if !of_main || self.dice.one_in(3) => {
                self.text.push_str("#pragma oss taskwait\n");
                held.iter_mut().for_each(|one| one.lent = false);
            }
            1 if !of_main || self.dice.one_in(2) => self.wait_on(held),
            2 if !of_main => self.release(held),
            3 | 4 => self.touch(held),
            _ if depth < 4 => self.task(held, depth),
            _ => self.touch(held),
        }
    }

    /// Some cell that passes the test.
    fn some_cell(&mut self, held: &[Held], test: impl Fn(&Held) -> bool) -> Option<usize> {
        let fitting: Vec<usize> = (0..held.len()).filter(|cell| test(&held[*cell])).collect();
        match fitting.len() {
            0 => None,
            count => Some(fitting[self.dice.below(count as u32) as usize]),
        }
    }

    fn wait_on(&mut self, held: &mut Vec<Held>) {
        if let Some(cell) = self.some_cell(held, |one| one.may != May::Nothing) {
            let _ = write!(self.text, "#pragma oss taskwait on(a[{cell}])\n");
            held[cell].lent = false;
        }
    }

    fn release(&mut self, held: &mut Vec<Held>) {
        // what is reduced is not released
        let Some(cell) = self.some_cell(held, |one| matches!(one.may, May::Read | May::Write))
        else {
            return;
        };
        let word = clause_word(held[cell].may, !held[cell].strong);
        let _ = write!(self.text, "#pragma oss release {word}a[{cell}])\n");
        held[cell].may = May::Nothing;
    }

    /// A touch of a cell to which the task has a strong right, and which it has not lent.
    fn touch(&mut self, held: &[Held]) {
        let Some(cell) = self.some_cell(held, |one| {
            one.strong && !one.lent && one.may != May::Nothing
        }) else {
            self.text.push_str(";\n");
            return;
        };
        let number = 1 + self.dice.below(9);
        let _ = match held[cell].may {
            May::Read => write!(self.text, "printf(\"r%ld\\n\", a[{cell}]);\n"),
            May::Fold(op) => write!(self.text, "a[{cell}] {}= {number};\n", OPERATORS[op]),
            _ => match self.dice.below(4) {
                0 => write!(self.text, "a[{cell}] = {number};\n"),
                1 => write!(self.text, "a[{cell}] += {number};\n"),
                _ => write!(self.text, "a[{cell}] = a[{cell}] * 3 + {number};\n"),
            },
        };
    }

    /// What a child may have of a cell of which its creator has this.
    fn part_of(&mut self, may: May) -> May {
        match may {
            May::Write => match self.dice.below(6) {
                0 | 1 => May::Read,
                2 | 3 => May::Write,
                // mostly one operator, so that neighbours are the same reduction
                _ if self.dice.one_in(4) => May::Fold(self.dice.below(4) as usize),
                _ => May::Fold(0),
            },
            other => other,
        }
    }

    /// A task with clauses that its creator's rights cover.
    fn task(&mut self, held: &mut Vec<Held>, depth: u32) {
        if self.left == 0 {
            self.touch(held);
            return;
        }
        self.left -= 1;
        self.text.push_str("#pragma oss task");
        let mut own = self.clauses(held);
        if self.dice.one_in(6) {
            self.text.push_str(" wait");
        }
        if self.dice.one_in(12) {
            self.text.push_str(" if(0)");
        }
        if self.dice.one_in(12) {
            self.text.push_str(" final(1)");
            own.iter_mut().for_each(|one| one.strong = true);
        }
        self.text.push_str("\n{\n");
        for (cell, one) in own.iter().enumerate() {
            held[cell].lent |= one.may != May::Nothing;
        }
        for _ in 0..self.dice.below(6) {
            self.statement(&mut own, depth + 1, false);
        }
        self.text.push_str("}\n");
    }

    /// The clauses of a task: what it may do.
    fn clauses(&mut self, held: &[Held]) -> Vec<Held> {
        let mut own = vec_of(
            self.cells,
            Held {
                may: May::Nothing,
                strong: false,
                lent: false,
            },
        );
        for cell in 0..self.cells {
            if held[cell].may == May::Nothing || self.dice.below(5) < 2 {
                continue;
            }
            let may = self.part_of(held[cell].may);
            let weak = self.dice.below(5) < 2;
            let _ = write!(self.text, " {}a[{cell}])", clause_word(may, weak));
            own[cell] = Held {
                may,
                strong: !weak,
                lent: false,
            };
        }
        own
    }
}

/// The beginning of a clause.
fn clause_word(may: May, weak: bool) -> String {
    let weak = if weak { "weak" } else { "" };
    match may {
        May::Read => std::format!("{weak}in("),
        May::Fold(op) => std::format!("{weak}reduction({}: ", OPERATORS[op]),
        _ => std::format!("{weak}inout("),
    }
}
