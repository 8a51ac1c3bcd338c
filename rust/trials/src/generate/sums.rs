//! Sums at the ends of Int and beyond them: sheets in which they are due, with questions for them.

use oracle::caching::MOST_OPEN;
use oracle::values::{Base, Value};

use super::draft::{int, Draft};
use super::rng::Rng;
use super::sheets::begun;
use super::writer::{apply, literal, number};
use crate::write::{if_else, of, ADD, EQUAL, LE, SUBTRACT};

/// Twice this is one beyond the upper end, and twice its negative the lower end.
const HALF: i32 = 1 << 30;

/// An add or subtract and its two arguments. The exact result is an end of Int, one beside it on either side, or far from it.
pub fn at_an_end(rng: &mut Rng) -> (u8, [i32; 2]) {
    let code = rng.pick(&[ADD, SUBTRACT]);
    let end = rng.pick(&[i32::MIN, i32::MAX]);
    let from_end = rng.pick(&[-1, 0, 0, 1, -HALF, HALF]);
    let exact = i64::from(end) + i64::from(from_end);
    loop {
        let first = i64::from(int(rng));
        let second = match code {
            ADD => exact - first,
            _ => first - exact,
        };
        if let (Ok(first), Ok(second)) = (first.try_into(), second.try_into()) {
            return (code, [first, second]);
        }
    }
}

/// An Int expression for such a sum of literals.
pub fn literals_at_an_end(rng: &mut Rng) -> Vec<u8> {
    let (code, arguments) = at_an_end(rng);
    let [first, second] = arguments.map(number);
    apply(code, &[&first, &second])
}

/// Each node has two figures with such a sum, which is due inside one form or two, after figures that are finished by then. Beside them an
/// attribute climbs to an end of Int, a form for each step.
pub fn draft(rng: &mut Rng) -> Draft {
    let mut draft = begun(rng, 6);
    let next = draft.attribute(Base::Node, Base::Unit);
    let [first, second, sum] = [0; 3].map(|_| draft.attribute(Base::Int, Base::Unit));
    let [placed, climb] = [0; 2].map(|_| draft.attribute(Base::Int, Base::Int));
    let nodes = rng.between(1, 4) as u16;
    for node in 0..nodes {
        let (code, arguments) = at_an_end(rng);
        let kind = code - ADD;
        draft.node(kind);
        let following = (node + 1 < nodes).then_some(node + 1);
        draft.figures.push((node, next, Value::Node(following)));
        for (attribute, argument) in [first, second].into_iter().zip(arguments) {
            draft.figures.push((node, attribute, Value::Int(argument)));
        }
    }
    let here = |attribute| of(&[0x30], attribute, &[0x10]);
    let climbing = Climb::any(rng);
    for code in [ADD, SUBTRACT] {
        let kind = code - ADD;
        let parts = [&here(first)[..], &here(second)];
        draft.rules.push((kind, sum, apply(code, &parts)));
        let place = Place {
            sum: here(sum),
            figure: first,
            next: here(next),
            climb,
        };
        draft.rules.push((kind, placed, place.any(rng)));
        draft.rules.push((kind, climb, climbing.rule(climb)));
    }
    for node in 0..nodes {
        let node = literal(Value::Node(Some(node)));
        draft.questions.push(of(&node, sum, &[0x10]));
        let parameter = number(int(rng));
        draft.questions.push(of(&node, placed, &parameter));
        let parameter = number(climbing.start(rng));
        draft.questions.push(of(&node, climb, &parameter));
    }
    draft.questions.push(literals_at_an_end(rng));
    draft
}

/// What a rule needs to put a sum into some place.
struct Place {
    sum: Vec<u8>,
    /// An Int attribute, a figure of every node.
    figure: u8,
    /// A node or null.
    next: Vec<u8>,
    /// An Int attribute with an Int parameter.
    climb: u8,
}

impl Place {
    /// An Int expression with the sum as an argument, in a condition, in the node of an attribute, as a parameter, in a branch that may not be taken,
    /// or beside an attribute of what may be null.
    fn any(&self, rng: &mut Rng) -> Vec<u8> {
        let sum = &self.sum[..];
        let parameter = &[0x31][..];
        let figure_of = |node: &[u8]| of(node, self.figure, &[0x10]);
        let code = rng.pick(&[ADD, SUBTRACT]);
        match rng.below(7) {
            0 => apply(code, &[parameter, sum]),
            1 => if_else(
                &apply(LE, &[sum, parameter]),
                &figure_of(&[0x30]),
                parameter,
            ),
            2 => {
                let alike = apply(EQUAL, &[parameter, sum]);
                figure_of(&if_else(&alike, &self.next, &[0x30]))
            }
            3 => of(&[0x30], self.climb, sum),
            4 => if_else(&apply(LE, &[parameter, &number(0)]), sum, parameter),
            5 => apply(code, &[&figure_of(&self.next), sum]),
            _ => apply(code, &[sum, &figure_of(&self.next)]),
        }
    }
}

/// How an attribute climbs.
enum Climb {
    /// It is itself, with a parameter that is nearer to an end by so much.
    By { code: u8, step: i32 },
    /// The same, and it would end where the parameter no longer rises.
    Until { code: u8 },
    /// It is itself, with twice the parameter.
    Double,
    /// It is the sum of itself and itself, with a parameter that is less by one, and 1 from 0 down.
    Sum,
}

impl Climb {
    fn any(rng: &mut Rng) -> Climb {
        let code = rng.pick(&[ADD, SUBTRACT]);
        match rng.below(6) {
            // The whole of Int from 0 takes 32 or 64 of the larger steps.
            0..=2 => Climb::By {
                code,
                step: rng.pick(&[1, 1, 1 << 25, 1 << 26]),
            },
            3 => Climb::Until { code },
            4 => Climb::Double,
            _ => Climb::Sum,
        }
    }

    /// The rule of the attribute with a number.
    fn rule(&self, climb: u8) -> Vec<u8> {
        let again = |parameter: &[u8]| of(&[0x30], climb, parameter);
        let moved = |code, by| apply(code, &[&[0x31], &number(by)]);
        match *self {
            Climb::By { code, step } => again(&moved(code, step)),
            Climb::Until { code } => {
                let further = moved(code, 1);
                let stuck = apply(EQUAL, &[&[0x31], &further]);
                if_else(&stuck, &[0x31], &again(&further))
            }
            Climb::Double => again(&apply(ADD, &[&[0x31], &[0x31]])),
            Climb::Sum => {
                let less = again(&moved(SUBTRACT, 1));
                let done = apply(LE, &[&[0x31], &number(0)]);
                if_else(&done, &number(1), &apply(ADD, &[&less, &less]))
            }
        }
    }

    /// A parameter from which an end is reached inside some forms, up to 64 of them and a few more.
    fn start(&self, rng: &mut Rng) -> i32 {
        let most = MOST_OPEN as i32;
        let forms = rng.pick(&[0, 1, 2, 10, 31, most - 2, most - 1, most, most + 1]);
        match *self {
            Climb::By { code, step } => below_end(code, step, forms),
            Climb::Until { code } => below_end(code, 1, forms),
            Climb::Double => rng.pick(&[-1, 1, 3, 700, HALF, -HALF, HALF + 1]),
            Climb::Sum => forms,
        }
    }
}

/// The Int from which so many steps lead to the end that add or subtract climbs to, or the other end if that is nearer.
fn below_end(code: u8, step: i32, steps: i32) -> i32 {
    let way = i64::from(step) * i64::from(steps);
    let [least, most] = [i32::MIN, i32::MAX].map(i64::from);
    let start = match code {
        ADD => (most - way).max(least),
        _ => (least + way).min(most),
    };
    start as i32
}

#[cfg(test)]
mod tests {
    use super::*;
    use oracle::ask::{ask_accepted, Answer, MOST_STEPS};
    use oracle::sheet::Sheet;
    use std::collections::BTreeSet;

    #[test]
    fn sums_lie_at_both_ends_for_both_functions() {
        let mut rng = Rng::new(5, 0);
        let mut drawn = BTreeSet::new();
        let mut least_subtracted = false;
        let [least, most] = [i32::MIN, i32::MAX].map(i64::from);
        for _ in 0..2_000 {
            let (code, [first, second]) = at_an_end(&mut rng);
            let [first, second] = [first, second].map(i64::from);
            let exact = match code {
                ADD => first + second,
                _ => first - second,
            };
            drawn.insert((code, exact));
            least_subtracted |= code == SUBTRACT && second == least;
        }
        assert!(least_subtracted);
        let half = i64::from(HALF);
        for code in [ADD, SUBTRACT] {
            for exact in [least, least + 1, least - 1, least - half] {
                assert!(drawn.contains(&(code, exact)), "{code} {exact}");
            }
            for exact in [most, most - 1, most + 1, most + half] {
                assert!(drawn.contains(&(code, exact)), "{code} {exact}");
            }
        }
    }

    /// The answers to all questions that the sheets of many drafts are made for, each with an empty store.
    fn answers() -> Vec<Answer> {
        let answered = |number| {
            let draft = draft(&mut Rng::new(5, number));
            let sheet = Sheet::read(&draft.bytes()).expect("an accepted sheet");
            let store = vec![0; 12 * 1_024];
            let ask = |question: &Vec<u8>| {
                ask_accepted(&sheet, &mut store.clone(), 0, question, MOST_STEPS)
            };
            draft.questions.iter().map(ask).collect::<Vec<_>>()
        };
        (0..400).flat_map(answered).collect()
    }

    #[test]
    fn overflow_comes_at_once_and_late_and_beside_every_other_ending() {
        let answers = answers();
        let with = |wanted: &dyn Fn(&Answer) -> bool| {
            let found = answers.iter().filter(|answer| wanted(answer)).count();
            100 * found / answers.len()
        };
        let numbers: BTreeSet<i64> = answers.iter().map(|answer| answer.number).collect();
        assert!(numbers.into_iter().eq([0, 14, 16, 17]));
        assert!((30..70).contains(&with(&|answer| answer.number == 17)));
        assert!(with(&|answer| answer.number == 0) > 20);
        assert!(with(&|answer| (answer.number, answer.steps) == (17, 1)) > 2);
        // Finished figures are kept, and inside nearly 64 forms nothing is finished.
        assert!(with(&|answer| answer.number == 17 && answer.kept > 1) > 10);
        let deep = |answer: &Answer| answer.steps > 120 && answer.kept == 0;
        assert!(with(&|answer| answer.number == 17 && deep(answer)) > 2);
    }
}
