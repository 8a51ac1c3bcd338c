//! The limits of docs/FORMAT.md, tried at the limit and one beyond it.

use sofretu::{ask, Call, Stop, MOST_STEPS};
use trials::write::*;

use crate::one_attribute;
use crate::page::{most, tables};

/// The stop of a call, 0 for none.
fn stop(sheet: &[u8], question: &[u8], store: usize, budget: u64) -> u32 {
    let call = Call {
        sheet,
        question,
        store: &mut vec![0; store],
        kept: 0,
        budget,
    };
    let refusal = ask(call).value.err();
    refusal.map_or(0, |refusal| refusal.stop.number())
}

/// The stop of a sheet with these commands.
fn of_sheet(commands: &[u8]) -> u32 {
    stop(&[commands, &end()].concat(), &UNIT, 0, 0)
}

/// A Bool of so many bytes: one more than a multiple of 3, with the parameter in it, or two more.
fn long(length: usize) -> Vec<u8> {
    let base: &[u8] = if length % 3 == 1 { &PARAMETER } else { &TRUE };
    [&[0x21, 0x14, NOT].repeat((length - 1) / 3), base].concat()
}

/// The stop of a call with so many, or with this code, of what a row of the page limits, where its limit is a number.
fn with(row: &str, number: usize) -> Option<u32> {
    let code = number as u8;
    Some(match row {
        "bytes of a sheet" => of_sheet(&vec![0x5A; number - 1]),
        "attributes" => of_sheet(&attribute(UNIT_TYPE, UNIT_TYPE).repeat(number)),
        "nodes" => of_sheet(&node(0).repeat(number)),
        "types" => of_sheet(&attribute(UNIT_TYPE, code)).max(of_sheet(&attribute(code, UNIT_TYPE))),
        "kinds" => of_sheet(&node(code)),
        "bytes of a rule or forward" => {
            let rule = rule(0, 0, &long(number));
            stop(&one_attribute(BOOL_TYPE, BOOL_TYPE, &rule), &UNIT, 0, 0)
        }
        "bytes of a store" => stop(&end(), &UNIT, number.next_multiple_of(12), 0),
        "budget" => stop(&end(), &UNIT, 0, number as u64),
        "bytes of a question" if number % 3 == 2 => stop(&end(), &long(number), 0, MOST_STEPS),
        "bytes of a question" => {
            let question = if_else(&TRUE, &long(number - 5), &TRUE);
            stop(&end(), &question, 0, MOST_STEPS)
        }
        _ => return None,
    })
}

#[test]
fn the_limits_are_the_librarys() {
    let tables = tables();
    let limits = tables.iter().find(|table| table.section == "Limits");
    let limits = limits.expect("the limits");
    let (mut told, mut tried) = (Vec::new(), 0);
    for row in &limits.rows {
        let (_, numbers) = row[2].split_once(' ').expect("stops");
        let stops = numbers
            .split(", ")
            .map(|word| word.parse().expect("a stop"));
        let stops: Vec<u32> = stops.collect();
        if with(row[0], 8).is_some() {
            let most = most(row[1]);
            let within = with(row[0], most);
            // A sheet of so many ends is none, whatever its length.
            let allowed = if row[0] == "bytes of a sheet" { 2 } else { 0 };
            assert_eq!(within, Some(allowed), "{} {most}", row[0]);
            let beyond = with(row[0], most + 1);
            assert_eq!(beyond, Some(stops[0]), "{} {}", row[0], most + 1);
            tried += 1;
        }
        told.extend(stops);
    }
    assert_eq!(tried, 9);
    told.dedup();
    let all = Stop::ALL.iter().map(|stop| stop.number());
    assert!(all.eq(told), "every stop has a row");
}
