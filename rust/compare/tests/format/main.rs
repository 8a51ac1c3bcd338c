//! Every string of bytes in docs/FORMAT.md, run by the library or by the report program.

mod limits;
mod page;

use std::fs::{self, File};
use std::path::Path;
use std::process::Command;

use page::{code, spelt, tables, Table, PAGE};
use sofretu::{ask, Call, Refusal, Session, Sheet, Stop, Store, Value, MOST_STEPS};
use trials::write::*;

/// What a question to a sheet comes to, in the page's words.
fn asked(sheet: &[u8], question: &[u8]) -> String {
    let mut store = [0; 96];
    let answer = ask(Call {
        sheet,
        question,
        store: &mut store,
        kept: 0,
        budget: MOST_STEPS,
    });
    match answer.value {
        Ok(value) => value.to_string(),
        Err(refusal) => format!("stop {}", refusal.stop.number()),
    }
}

/// A sheet with one attribute of node 0 and of node 1.
fn one_attribute(result: u8, parameter: u8, definition: &[u8]) -> Vec<u8> {
    let declared = [attribute(result, parameter), node(0), node(0)].concat();
    [&declared, definition, &end()].concat()
}

/// Four bytes as a figure, which is asked for, and in a kept entry, which is checked.
fn values(table: &Table) {
    let rows = table.bytes().into_iter().zip(table.column("Value"));
    for ((word, value), cell) in rows.zip(table.column("Code")) {
        let word = i32::from_le_bytes(word.try_into().expect("four bytes"));
        let with = |word| {
            let figures = [figure(0, 0, word), figure(1, 0, word)].concat();
            one_attribute(code(cell), UNIT_TYPE, &figures)
        };
        let found = asked(&with(word), &of(&node_literal(0), 0, &UNIT));
        let sheet = Sheet::load(with(0)).expect("figures with zeros");
        let lent = Store::from_parts(entry(0, 0, code(cell), 0, word), 1);
        let refusal = Session::open(&sheet, lent).err().map(Refusal::from);
        match value {
            "none" => {
                assert_eq!(found, "stop 4");
                assert_eq!(refusal, Some(Stop::StoreEntry.at(0)));
            }
            _ => assert_eq!((&*found, refusal), (value, None)),
        }
    }
}

/// The commands make a sheet. Each has its code, and operands of the widths that are named.
fn commands(table: &Table) {
    let rows = table.bytes().into_iter().zip(table.column("Operands"));
    for ((command, operands), cell) in rows.zip(table.column("Code")) {
        assert_eq!(command[0], code(cell));
        let fixed: usize = operands
            .split(['(', ')'])
            .filter_map(|part| part.parse::<usize>().ok())
            .sum();
        let rest = command.len() - 1 - fixed;
        assert_eq!(rest > 0, operands.ends_with("expression"), "{operands}");
        if rest > 0 {
            assert_eq!(command[fixed - 1..=fixed], (rest as u16).to_le_bytes());
        }
    }
    let sheet = table.bytes().concat();
    assert_eq!(asked(&sheet, &of(&node_literal(0), 0, &UNIT)), "700");
    // Each of them counts: without the figure, the rule has its turn, and then the forward, which needs itself.
    let mut commands = table.bytes();
    for expected in ["7", "stop 20", "stop 8"] {
        commands.remove(2);
        let question = of(&node_literal(0), 0, &UNIT);
        assert_eq!(asked(&commands.concat(), &question), expected);
    }
}

/// Questions to sheet L, or rules.
fn expressions(table: &Table) {
    for (expression, value) in table.bytes().iter().zip(table.column("Value")) {
        match value {
            "in a rule: this node" => {
                let sheet = one_attribute(NODE_TYPE, UNIT_TYPE, &rule(0, 0, expression));
                let question = of(&node_literal(1), 0, &UNIT);
                assert_eq!(asked(&sheet, &question), "node 1");
                assert_eq!(asked(&sheet, expression), "stop 12");
                let forward = forward(0, expression);
                let sheet = one_attribute(NODE_TYPE, UNIT_TYPE, &forward);
                assert!(Sheet::check(&sheet).is_ok());
            }
            "in a rule: the parameter" => {
                let sheet = one_attribute(INT_TYPE, INT_TYPE, &rule(0, 0, expression));
                let question = of(&node_literal(1), 0, &int(5));
                assert_eq!(asked(&sheet, &question), "5");
                assert_eq!(asked(&sheet, expression), "stop 12");
                let forward = forward(0, expression);
                let sheet = one_attribute(NODE_TYPE, NODE_TYPE, &forward);
                let refusal = Sheet::check(&sheet).expect_err("a refused forward");
                assert_eq!(refusal.stop, Stop::RuleForm);
            }
            _ => assert_eq!(asked(&sheet_l(), expression), value, "{expression:?}"),
        }
    }
    if table.header.contains(&"Why") {
        for (expression, value) in table.bytes().iter().zip(table.column("Value")) {
            let sheet = l_with(&[], &[], &rule(2, DIAL, expression));
            let refusal = Sheet::check(&sheet).expect_err("a refused rule");
            let expected = [("stop 12", Stop::RuleForm), ("stop 13", Stop::RuleType)];
            assert!(expected.contains(&(value, refusal.stop)), "{expression:?}");
        }
    }
    if table.header.contains(&"Code") {
        let functions = table.section == "Functions";
        for (expression, cell) in table.bytes().iter().zip(table.column("Code")) {
            let head = expression.iter().position(|byte| *byte == 0x14);
            let found = if functions {
                expression[head.expect("a function") + 1]
            } else {
                expression[0]
            };
            assert_eq!(found, code(cell));
        }
    }
}

/// What the store keeps after node 1's dial, read without its sheet, and lent again.
fn entries(table: &Table) {
    let sheet = Sheet::load(sheet_l()).expect("sheet L");
    let mut session = Session::open(&sheet, Store::default()).expect("an empty store");
    assert_eq!(session.ask(&d(), MOST_STEPS).value, Ok(Value::Int(700)));
    let store = session.into_store();
    let kept = table.bytes();
    assert_eq!(store.kept(), kept.len() as u64);
    assert_eq!(store.bytes()[..kept.len() * 12], kept.concat());
    for ((entry, says), number) in store.entries().zip(table.column("Says")).zip(0..) {
        let entry = entry.expect("an entry");
        let (node, attribute) = (entry.node, entry.attribute);
        let words = format!(
            "node {node}, attribute {attribute}, parameter {}: {}",
            entry.parameter, entry.value
        );
        assert_eq!(words, says);
        assert_eq!(table.column("Entry")[number], number.to_string());
    }
    let lent = Store::from_parts(kept.concat(), kept.len() as u64);
    assert!(Session::open(&sheet, lent).is_ok());
}

/// The report program's input, and what it prints.
fn stream(table: &Table) {
    let place = Path::new(env!("CARGO_TARGET_TMPDIR")).join("format");
    fs::create_dir_all(&place).expect("a directory");
    fs::write(place.join("sheet.bin"), sheet_l()).expect("a file");
    fs::write(place.join("input"), table.bytes().concat()).expect("a file");
    let program = concat!(env!("CARGO_MANIFEST_DIR"), "/../../target/bin/report");
    let output = Command::new(program)
        .current_dir(&place)
        .stdin(File::open(place.join("input")).expect("a file"))
        .output()
        .expect("`scripts/build.sh` puts target/bin/report there");
    let printed = String::from_utf8(output.stdout).expect("text");
    assert!(printed.lines().eq(table.column("Prints")), "{printed}");
}

/// The pieces of a sheet, each at its offset.
fn offsets<'a>(table: &'a Table) -> Vec<(usize, Vec<u8>)> {
    let offsets = table.column("Offset").into_iter();
    let offsets = offsets.map(|cell: &'a str| cell.parse().expect("an offset"));
    offsets.zip(table.bytes()).collect()
}

/// Sheet L, whole.
fn sheet_l_in_pieces(table: &Table) {
    let mut sheet = Vec::new();
    for (offset, piece) in offsets(table) {
        assert_eq!(sheet.len(), offset);
        sheet.extend(piece);
    }
    assert_eq!(sheet, sheet_l());
    assert_eq!(asked(&sheet, &d()), "700");
}

/// What sheet LF has besides: without it, it is sheet L.
fn sheet_lf_in_pieces(table: &Table) {
    let mut sheet = sheet_l();
    for (offset, piece) in offsets(table) {
        sheet.splice(offset..offset, piece);
    }
    assert_eq!(sheet, sheet_lf());
    assert_eq!(sheet.len(), 121);
    assert_eq!(asked(&sheet, &of(&node_literal(3), DIAL, &UNIT)), "700");
}

#[test]
fn every_string_of_bytes_is_run() {
    assert!(!PAGE.contains("```"), "bytes stand in tables");
    let on_page = PAGE.split('`').skip(1).step_by(2);
    let on_page = on_page.filter(|span| spelt(&format!("`{span}`")).is_some());
    let mut run = 0;
    for table in tables()
        .iter()
        .filter(|table| table.header.contains(&"Bytes"))
    {
        match table.section {
            "Values" => values(table),
            "Commands" => commands(table),
            "Expressions" | "Functions" => expressions(table),
            "A store" => entries(table),
            "Questions in a stream" => stream(table),
            "Sheet L, byte by byte" => sheet_l_in_pieces(table),
            "Sheet LF: a forward" => sheet_lf_in_pieces(table),
            other => panic!("nobody knows how to run the bytes of {other}"),
        }
        run += table.rows.len();
    }
    assert_eq!(run, on_page.count(), "bytes stand outside the tables");
}
