//! Names, values and expressions as text.

use sofretu::{Type, Value};

use crate::expression::{Attribute, Expr, FUNCTIONS};

/// `unit`, `true`, `700`, `n3`, `null`.
pub fn value(value: Value) -> String {
    match value {
        Value::Node(Some(node)) => format!("n{node}"),
        other => other.to_string(),
    }
}

/// An attribute of a node with its parameter: `n1.a2`, `n1.a4(5)`.
pub fn occurrence(node: u16, attribute: u8, parameter: Value) -> String {
    format!("n{node}.a{attribute}{}", argument(parameter))
}

/// The parameter where there is a choice: a Unit is not written.
pub fn argument(parameter: Value) -> String {
    match parameter {
        Value::Unit => String::new(),
        other => format!("({})", value(other)),
    }
}

/// A declaration: `a4(Int): Bool`.
pub fn declaration(number: usize, attribute: Attribute) -> String {
    match attribute.parameter {
        Type::Unit => format!("a{number}: {}", attribute.result),
        parameter => format!("a{number}({parameter}): {}", attribute.result),
    }
}

/// An expression: `if equal(this.a1)(0) then this.a0.a2 else this.a1`.
pub fn expression(expr: &Expr) -> String {
    let mut text = String::new();
    write(expr, &mut text);
    text
}

fn write(expr: &Expr, text: &mut String) {
    match expr {
        Expr::Literal(literal) => text.push_str(&value(*literal)),
        Expr::Function(code) => text.push_str(FUNCTIONS[usize::from(*code)]),
        Expr::This => text.push_str("this"),
        Expr::Parameter => text.push_str("parameter"),
        Expr::If(parts) => {
            let [condition, yes, no] = &**parts;
            text.push_str("if ");
            write_tight(condition, text);
            text.push_str(" then ");
            write_tight(yes, text);
            text.push_str(" else ");
            write(no, text);
        }
        Expr::Apply(parts) => {
            let [function, argument] = &**parts;
            write_tight(function, text);
            text.push('(');
            write(argument, text);
            text.push(')');
        }
        Expr::Attribute(number, parts) => {
            let [node, parameter] = &**parts;
            write_tight(node, text);
            text.push_str(&format!(".a{number}"));
            if *parameter != Expr::Literal(Value::Unit) {
                text.push('(');
                write(parameter, text);
                text.push(')');
            }
        }
    }
}

/// As `write`, with an IF in parentheses, so that it is plain where it ends.
fn write_tight(expr: &Expr, text: &mut String) {
    let brackets = matches!(expr, Expr::If(_));
    if brackets {
        text.push('(');
    }
    write(expr, text);
    if brackets {
        text.push(')');
    }
}

/// Bytes in hexadecimal, at most so many, and `..` for the rest.
pub fn hex(bytes: &[u8], most: usize) -> String {
    let shown = bytes.iter().take(most).map(|byte| format!("{byte:02x}"));
    let rest = (bytes.len() > most).then(|| "..".to_string());
    shown.chain(rest).collect::<Vec<_>>().join(" ")
}

/// A number with what is counted, one or several: `1 step`, `8 steps`, `1,024 nodes`.
pub fn count(number: u64, what: &str) -> String {
    let plural = if number == 1 { "" } else { "s" };
    format!("{} {what}{plural}", thousands(number))
}

/// A number with commas between groups of three digits.
pub fn thousands(number: u64) -> String {
    let digits = number.to_string();
    let mut text = String::new();
    for (place, digit) in digits.chars().enumerate() {
        if place > 0 && (digits.len() - place).is_multiple_of(3) {
            text.push(',');
        }
        text.push(digit);
    }
    text
}

/// A text of at most so many characters, the last of them `…` where some are left out.
pub fn shortened(text: &str, most: usize) -> String {
    if text.chars().count() <= most {
        return text.into();
    }
    let kept: String = text.chars().take(most.saturating_sub(1)).collect();
    kept + "…"
}

#[cfg(test)]
mod tests {
    use super::*;

    #[test]
    fn an_if_is_in_parentheses_where_it_is_a_part() {
        let truth = |truth| Expr::Literal(Value::Bool(truth));
        let choice = || Expr::If(Box::new([truth(true), truth(false), truth(true)]));
        let nested = Expr::If(Box::new([choice(), choice(), choice()]));
        assert_eq!(
            expression(&nested),
            "if (if true then false else true) then (if true then false else true) \
             else if true then false else true"
        );
        let applied = Expr::Apply(Box::new([choice(), choice()]));
        assert_eq!(
            expression(&applied),
            "(if true then false else true)(if true then false else true)"
        );
    }

    #[test]
    fn numbers_are_grouped_and_texts_cut() {
        assert_eq!(count(1, "step"), "1 step");
        assert_eq!(count(1_000_000, "step"), "1,000,000 steps");
        assert_eq!(thousands(123), "123");
        assert_eq!(shortened("abcdef", 6), "abcdef");
        assert_eq!(shortened("abcdefg", 6), "abcde…");
        assert_eq!(hex(&[1, 2, 255], 2), "01 02 ..");
        assert_eq!(hex(&[], 2), "");
    }
}
