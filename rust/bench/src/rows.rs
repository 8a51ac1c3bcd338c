//! The rows of the table: what each program does, on what, and how it is counted.

use crate::hostile;
use crate::inputs;
use crate::programs::{Input, Outcome, Work};

/// What the time of a run is divided by.
#[derive(Clone, Copy)]
pub enum Per {
    Step,
    Byte,
    Run,
}

/// The names of the rows that others are held against.
const DEEP: &str = "Step: deep chains";
const DENSE: &str = "Step: AttrApp-dense, a store of 1,024 fills";
const NO_STORE: &str = "Step: capacity 0";
const INSIDE_63: &str = "Step: capacity 0, inside 63 forms";
const CHOICES: &str = "Step: IF- and application-dense";
const FULL_CHECK: &str = "Store check, 1,024 entries";
const SMALL_SHEET: &str = "Sheet check, a byte of 1 KiB";

pub struct Row {
    pub name: &'static str,
    pub work: Work,
    pub per: Per,
    pub input: Input,
}

impl Row {
    /// How many units a run with this outcome has.
    pub fn units(&self, outcome: &Outcome) -> f64 {
        match self.per {
            Per::Step => outcome.brought.fields[4] as f64,
            Per::Byte => self.input.sheet.len() as f64,
            Per::Run => 1.0,
        }
    }
}

fn row(name: &'static str, work: Work, per: Per, input: Input) -> Row {
    Row {
        name,
        work,
        per,
        input,
    }
}

/// The rows in their order. `left` gives the input with the store that its question leaves.
pub fn ordinary(left: impl Fn(&Input) -> Input) -> Vec<Row> {
    let filled = left(&inputs::hops(1_024));
    let with_kept = |kept| Input {
        kept,
        ..filled.clone()
    };
    let kib = |size: usize| inputs::sized(size * 1_024);
    use Per::{Byte, Run, Step};
    use Work::{Ask, AskCleared, AskIn, CheckSheet, CheckStore, Kept, Question};
    vec![
        row(DEEP, Question, Step, inputs::chains()),
        row(DENSE, Question, Step, inputs::hops(1_024)),
        row(NO_STORE, Question, Step, inputs::hops(0)),
        row(CHOICES, Question, Step, inputs::branches()),
        row(
            "Step: sums of Ints of both signs",
            Question,
            Step,
            inputs::signs(),
        ),
        row(
            "Step: parameterised",
            Question,
            Step,
            inputs::parameterised(),
        ),
        row(
            "Step: parameterised, 64 forms deep",
            Question,
            Step,
            inputs::deep_parameters(),
        ),
        row(INSIDE_63, Question, Step, inputs::inside_63()),
        row("Step: forwards", Question, Step, inputs::forwards()),
        row(
            "One kept figure, sheet and store checked",
            Kept,
            Run,
            inputs::kept_figure(),
        ),
        row("Whole `ask`, sheet L", Ask, Run, inputs::sheet_l()),
        row(
            "Whole `ask` in cleared scratch, sheet L",
            AskCleared,
            Run,
            inputs::sheet_l(),
        ),
        row(
            "Whole `ask` in lent scratch, sheet L",
            AskIn,
            Run,
            inputs::sheet_l(),
        ),
        row(
            "Whole `ask` in lent scratch, 64 KiB and 1,024 kept",
            AskIn,
            Run,
            kib(64),
        ),
        row(SMALL_SHEET, CheckSheet, Byte, kib(1)),
        row("Sheet check, a byte of 16 KiB", CheckSheet, Byte, kib(16)),
        row("Sheet check, a byte of 64 KiB", CheckSheet, Byte, kib(64)),
        row("Store check, 0 entries", CheckStore, Run, with_kept(0)),
        row("Store check, 128 entries", CheckStore, Run, with_kept(128)),
        row(FULL_CHECK, CheckStore, Run, with_kept(1_024)),
    ]
}

/// The rows for what a hostile owner would choose, each with the name of the ordinary row of its kind.
pub fn hostile() -> Vec<(Row, &'static str)> {
    use Per::{Byte, Run, Step};
    use Work::{CheckSheet, CheckStore, Kept, Question};
    let step = |name, input, kind| (row(name, Question, Step, input), kind);
    let check = |name, input| (row(name, CheckStore, Run, input), FULL_CHECK);
    vec![
        step("Step: look-ups, spread keys", hostile::spread(), DENSE),
        (
            row(
                "Step: look-ups, one bucket filled by questions",
                Kept,
                Step,
                hostile::one_bucket_by_questions(),
            ),
            DENSE,
        ),
        step(
            "Step: look-ups, one bucket lent",
            hostile::one_bucket(),
            DENSE,
        ),
        step(
            "Step: look-ups that miss, one bucket lent",
            hostile::one_bucket_missed(),
            DENSE,
        ),
        step(
            "Step: a full store that misses",
            hostile::full_store(),
            DENSE,
        ),
        step(
            "Step: inside 63 forms, 61 of one bucket",
            hostile::open_in_one_bucket(),
            INSIDE_63,
        ),
        step(
            "Step: the widest branch, second of its IF",
            hostile::widest_branch(true),
            CHOICES,
        ),
        step(
            "Step: the widest branch, first of its IF",
            hostile::widest_branch(false),
            CHOICES,
        ),
        step(
            "Step: the deepest nesting",
            hostile::deepest_nesting(),
            DEEP,
        ),
        step(
            "Step: the widest fan-out",
            hostile::widest_fan_out(),
            NO_STORE,
        ),
        (
            row(
                "Sheet check, a byte with the most pairs",
                CheckSheet,
                Byte,
                hostile::most_pairs(),
            ),
            SMALL_SHEET,
        ),
        check("Store check, 1,024 spread keys", hostile::spread()),
        check(
            "Store check, 1,024 keys of one bucket",
            hostile::one_bucket(),
        ),
    ]
}
