//! Document 02, F-3: the Int of four bytes, wherever one is read.

use crate::ask;
use crate::common::*;

/// The unsigned number of four bytes, at its four ends, and the Int.
const ENDS: [(u32, i64); 4] = [
    (0, 0),
    (2_147_483_647, 2_147_483_647),
    (2_147_483_648, -2_147_483_648),
    (4_294_967_295, -1),
];

/// Attributes: OWN is a figure, ECHO its parameter.
const OWN: u8 = 0;
const ECHO: u8 = 1;

#[test]
fn the_four_ends_are_read_alike_in_every_place() {
    for (u, value) in ENDS {
        // The writers of commands, literals and entries take the four bytes as an `i32`.
        let written = u as i32;
        let sheet = [
            attribute(2, 0),
            attribute(2, 2),
            node(0),
            figure(0, OWN, written),
            rule(0, ECHO, &PARAMETER),
            end(),
        ]
        .concat();
        let own = of(&node_literal(0), OWN, &UNIT);
        let echo = |parameter| of(&node_literal(0), ECHO, &int(parameter));
        let ask_in = |store: &mut [u8], kept, question: &[u8]| {
            ask(&sheet, store, kept, question, 1_000_000).fields()
        };
        let brings = |steps, kept| [0, 0, 2, value, steps, kept];

        // The operand of an expression, and a figure.
        assert_eq!(ask_in(&mut [], 0, &int(written)), brings(0, 0));
        assert_eq!(ask_in(&mut [], 0, &own), brings(1, 0));
        // A parameter, and what is kept of it and of its value.
        let mut store = [0xEE; 12];
        assert_eq!(ask_in(&mut store, 0, &echo(written)), brings(1, 1));
        assert_eq!(store[..], entry(0, ECHO, INT_TYPE, written, written));
        // The value of an entry, and the parameter of another.
        let mut store = [
            entry(0, ECHO, INT_TYPE, 5, written),
            entry(0, ECHO, INT_TYPE, written, 9),
        ]
        .concat();
        let lent = store.clone();
        assert_eq!(ask_in(&mut store, 2, &echo(5)), brings(1, 2));
        assert_eq!(ask_in(&mut store, 2, &echo(written))[3], 9);
        assert_eq!(store, lent);
    }
}
