//! The frame machine (document 01, "The steps", with stops 14 to 16; document 02, F-4, F-7 and F-9, with stops 17 and 20): heads are read until one
//! is a value, and values are given to frames until one has an expression to step.

use calls::index::Key;
use calls::tally::{APPLICATIONS, ATTRIBUTES, CONDITIONS};
use calls::{Refusal, Rows, Stop};

use crate::answers::Answer;
use crate::bytes::{four, int, two};
use crate::expressions::LONGEST;
use crate::occurrences::Occurrences;
use crate::sheets::{Definition, Sheet};
use crate::stores::{Found, Store};
use crate::values::{Function, Value, NULL};

/// How many forms can be open.
pub const MOST_OPEN: usize = 64;
/// A question has a frame for every two of its bytes at most. So has what an open form stands around, with its own frames: two frames inside an
/// expression take five bytes of it.
const MOST_FRAMES: usize = LONGEST / 2 * (1 + MOST_OPEN);

/// What waits for a value.
#[derive(Clone, Copy)]
pub enum Frame {
    /// IF, for its condition.
    Condition,
    /// IF, for the branch that is taken; the other is passed over after it.
    Branch,
    /// Application, for its function.
    Function,
    /// Application, for its argument; the function is held.
    Argument(Value),
    /// An attribute, for its node.
    Node { attribute: u8 },
    /// An attribute, for its parameter.
    Parameter { attribute: u8, node: u16 },
    /// The innermost open form, for the value of its rule, or of the attribute that its forward leads to.
    Form,
    /// The innermost open form, for the value of its forward.
    Forward,
}

/// An open form: its occurrence, the link that the search for it in the store gave, and the offset to go on from in the piece around it.
#[derive(Clone, Copy)]
pub struct Form {
    node: u16,
    attribute: u8,
    parameter: Value,
    free: u16,
    back: usize,
}

/// The memory that a run works in. Nothing is asked of what it holds.
pub struct Stack {
    frames: [Frame; MOST_FRAMES],
    forms: [Form; MOST_OPEN],
    occurrences: Occurrences,
    /// The width of each expression of the question less one, at the offset of its first byte, from its check.
    pub widths: [u8; LONGEST],
}

impl Default for Stack {
    fn default() -> Stack {
        let form = Form {
            node: 0,
            attribute: 0,
            parameter: Value::Unit,
            free: 0,
            back: 0,
        };
        Stack {
            frames: [Frame::Condition; MOST_FRAMES],
            forms: [form; MOST_OPEN],
            occurrences: Occurrences::default(),
            widths: [0; LONGEST],
        }
    }
}

/// The steps that the budget leaves.
struct Budget {
    left: u64,
}

impl Budget {
    fn allows(&self) -> Result<(), Stop> {
        match self.left {
            0 => Err(Stop::Spent),
            _ => Ok(()),
        }
    }

    /// Counts the AttrApp of what is not kept, inside so many open forms.
    #[inline(always)]
    fn count_inside(&mut self, open: usize, row: &mut u64) -> Result<(), Stop> {
        self.allows()?;
        if open == MOST_OPEN {
            return Err(Stop::Depth);
        }
        self.count(row)
    }

    /// Counts a step in its row.
    fn count(&mut self, row: &mut u64) -> Result<(), Stop> {
        self.allows()?;
        self.left -= 1;
        *row += 1;
        Ok(())
    }
}

/// Runs an accepted question. The tally is lent without steps.
pub fn run(
    sheet: &Sheet,
    store: &mut Store,
    question: &[u8],
    budget: u64,
    stack: &mut Stack,
    tally: &mut Rows,
) -> Answer {
    let mut counted = Budget { left: budget };
    let ending = evaluate(sheet, store, question, &mut counted, tally, stack);
    Answer {
        ending: ending.map_err(Refusal::from),
        steps: budget - counted.left,
        kept: store.kept as u64,
    }
}

fn evaluate(
    sheet: &Sheet,
    store: &mut Store,
    question: &[u8],
    budget: &mut Budget,
    tally: &mut Rows,
    Stack {
        frames,
        forms,
        occurrences,
        widths: noted,
    }: &mut Stack,
) -> Result<Value, Stop> {
    // The running piece lies in the question while no form is open, and in the sheet inside a form.
    let mut piece = question;
    let mut widths = &noted[..];
    let mut at = 0;
    let mut height = 0;
    let mut open = 0;
    loop {
        let head = piece[at];
        let mut value = match head {
            0x20 => {
                frames[height] = Frame::Condition;
                height += 1;
                at += 1;
                continue;
            }
            0x21 => {
                frames[height] = Frame::Function;
                height += 1;
                at += 1;
                continue;
            }
            0x22 => {
                let attribute = piece[at + 1];
                frames[height] = Frame::Node { attribute };
                height += 1;
                at += 2;
                continue;
            }
            0x10 => {
                at += 1;
                Value::Unit
            }
            0x11 => {
                at += 2;
                Value::Bool(piece[at - 1] == 1)
            }
            0x12 => {
                at += 5;
                Value::Int(int(four(piece, at - 4)))
            }
            0x13 => {
                at += 3;
                Value::Node(two(piece, at - 2))
            }
            0x14 => {
                at += 2;
                Value::Function(Function::of(piece[at - 1]))
            }
            0x30 => {
                at += 1;
                Value::Node(forms[open - 1].node)
            }
            _ => {
                at += 1;
                forms[open - 1].parameter
            }
        };
        loop {
            let Some(top) = height.checked_sub(1) else {
                return Ok(value);
            };
            match frames[top] {
                Frame::Condition => {
                    budget.count(&mut tally[CONDITIONS])?;
                    if value == Value::Bool(true) {
                        frames[top] = Frame::Branch;
                    } else {
                        at += usize::from(widths[at]) + 1;
                        height = top;
                    }
                    break;
                }
                Frame::Branch => {
                    at += usize::from(widths[at]) + 1;
                    height = top;
                }
                Frame::Function => {
                    frames[top] = Frame::Argument(value);
                    break;
                }
                Frame::Argument(function) => {
                    // A sum that does not fit is tested before the budget.
                    value = function.apply(value).ok_or(Stop::Overflow)?;
                    budget.count(&mut tally[APPLICATIONS])?;
                    height = top;
                }
                Frame::Node { attribute } => {
                    let Value::Node(node) = value else {
                        unreachable!("ill typed")
                    };
                    frames[top] = Frame::Parameter { attribute, node };
                    break;
                }
                Frame::Parameter { attribute, node } => {
                    if node == NULL {
                        return Err(Stop::Null);
                    }
                    let key = Key {
                        node,
                        attribute,
                        word: value.word(),
                    };
                    // A declared attribute's number is below 32. The remainder says so, and no index is tested.
                    let row = &mut tally[usize::from(attribute) % ATTRIBUTES];
                    let result = sheet.result(attribute);
                    value = match store.find(key) {
                        Found::Value(kept) => {
                            budget.count(row)?;
                            result.value(kept)
                        }
                        Found::Nothing(free) => {
                            let (frame, start) = match sheet.definition(node, attribute) {
                                Definition::Figure(figure) => {
                                    // Its form closes at once, and so is never open around a part.
                                    budget.count_inside(open, row)?;
                                    value = result.value(figure);
                                    store.append(free, key, value);
                                    height = top;
                                    continue;
                                }
                                Definition::Rule(start) => (Frame::Form, start),
                                Definition::Forward(start) => (Frame::Forward, start),
                            };
                            if occurrences.has(open, key) {
                                return Err(Stop::Circle);
                            }
                            budget.count_inside(open, row)?;
                            forms[open] = Form {
                                node,
                                attribute,
                                parameter: value,
                                free: free as u16,
                                back: at,
                            };
                            occurrences.open(open, key);
                            open += 1;
                            frames[top] = frame;
                            piece = sheet.bytes;
                            widths = &sheet.index.widths;
                            at = start;
                            break;
                        }
                    };
                    height = top;
                }
                Frame::Forward => {
                    // The same attribute of the node that the form's forward leads to, with the form's parameter, is due.
                    let Value::Node(node) = value else {
                        unreachable!("ill typed")
                    };
                    let form = &forms[open - 1];
                    frames[top] = Frame::Form;
                    frames[height] = Frame::Parameter {
                        attribute: form.attribute,
                        node,
                    };
                    height += 1;
                    value = form.parameter;
                }
                Frame::Form => {
                    open -= 1;
                    let form = forms[open];
                    occurrences.close(open);
                    let key = Key {
                        node: form.node,
                        attribute: form.attribute,
                        word: form.parameter.word(),
                    };
                    store.write(form.free.into(), key, value);
                    if open == 0 {
                        piece = question;
                        widths = &noted[..];
                    }
                    at = form.back;
                    height = top;
                }
            }
        }
    }
}
