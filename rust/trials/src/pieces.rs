//! Sheets and expressions taken apart by the widths of their commands and heads alone, whatever else is wrong with them.

use std::ops::Range;

/// The shortest expressions.
pub const LEAVES: [&[u8]; 6] = [
    &[0x10],
    &[0x30],
    &[0x31],
    &[0x11, 0],
    &[0x13, 0xFF, 0xFF],
    &[0x12, 0, 0, 0, 0],
];

/// A sheet's commands. What is no command, or cut, is the last.
pub fn commands(sheet: &[u8]) -> Vec<Vec<u8>> {
    let mut commands = Vec::new();
    let mut rest = sheet;
    while let Some(command) = rest.first() {
        let width = match command {
            0x41 => 3,
            0x4E => 2,
            0x56 => 8,
            0x5A => 1,
            _ => match before_expression(rest) {
                Some(front) => {
                    let length = [rest[front - 2], rest[front - 1]];
                    front + usize::from(u16::from_le_bytes(length))
                }
                None => rest.len(),
            },
        };
        let (command, after) = rest.split_at(width.min(rest.len()));
        commands.push(command.to_vec());
        rest = after;
    }
    commands
}

/// How many bytes stand before the expression of a rule or forward, where a command is one and has them. The last two are the length.
pub fn before_expression(command: &[u8]) -> Option<usize> {
    let width = match command.first()? {
        0x52 => 5,
        0x46 => 4,
        _ => return None,
    };
    (command.len() >= width).then_some(width)
}

/// The expressions inside one, itself the first, each with those that it is directly made of. None of what has no form.
pub fn parts(bytes: &[u8]) -> Vec<(Range<usize>, Vec<Range<usize>>)> {
    let mut found = Vec::new();
    match read(bytes, 0, &mut found) {
        Some(_) => found,
        None => Vec::new(),
    }
}

/// The range of the expression at an offset.
fn read(
    bytes: &[u8],
    start: usize,
    found: &mut Vec<(Range<usize>, Vec<Range<usize>>)>,
) -> Option<Range<usize>> {
    let (operands, parts) = match bytes.get(start)? {
        0x10 | 0x30 | 0x31 => (0, 0),
        0x11 | 0x14 => (1, 0),
        0x12 => (4, 0),
        0x13 => (2, 0),
        0x20 => (0, 3),
        0x21 => (0, 2),
        0x22 => (1, 2),
        _ => return None,
    };
    let place = found.len();
    found.push((start..start, Vec::new()));
    let mut end = start + 1 + operands;
    for _ in 0..parts {
        let part = read(bytes, end, found)?;
        end = part.end;
        found[place].1.push(part);
    }
    found[place].0 = start..end;
    (end <= bytes.len()).then_some(start..end)
}

#[cfg(test)]
mod tests {
    use super::*;

    #[test]
    fn commands_are_cut_at_their_widths() {
        let sheet = [
            0x41, 1, 2, 0x4E, 0, 0x52, 0, 0, 1, 0, 0x10, 0x46, 0, 3, 0, 0x13, 0xFF, 0xFF, 0x5A, 9,
            9,
        ];
        let widths: Vec<usize> = commands(&sheet).iter().map(Vec::len).collect();
        assert_eq!(widths, [3, 2, 6, 7, 1, 2]);
        assert_eq!(commands(&sheet).concat(), sheet);
        for length in 0..sheet.len() {
            assert_eq!(commands(&sheet[..length]).concat(), sheet[..length]);
        }
    }

    #[test]
    fn an_expression_is_made_of_its_parts() {
        // IF not(0x31) THEN 0x10 ELSE 0x10
        let bytes = [0x20, 0x21, 0x14, 3, 0x31, 0x10, 0x10];
        let found = parts(&bytes);
        assert_eq!(found[0], (0..7, vec![1..5, 5..6, 6..7]));
        assert_eq!(found[1], (1..5, vec![2..4, 4..5]));
        assert_eq!(found.len(), 6);
        assert_eq!(parts(&bytes[..6]), []);
        assert_eq!(parts(&[0x12, 0, 0]), []);
    }
}
