//! Refused sheets of every kind, and stops of every kind.

mod program;

use std::path::Path;

use program::{directory, file, on};
use trials::case::{bytes, read_lists};
use trials::examples::read_examples;

fn sheet(place: &Path, groups: &str) -> std::path::PathBuf {
    let bytes = bytes(&groups.replace(' ', "")).expect("hexadecimal digits");
    file(place, "sheet.bin", &bytes)
}

/// Each refused sheet of the vectors: `check` says the vector's stop, and marks the line at its place.
#[test]
fn the_vectors_refused_sheets_are_told() {
    let place = directory("vectors");
    let lists = read_lists(include_str!("../../../tests/vectors/lists.txt")).expect("their form");
    let mut met = [0; 9];
    for list in &lists {
        let Some(answer) = list
            .answers
            .first()
            .filter(|answer| (1..9).contains(&answer.number))
        else {
            continue;
        };
        met[answer.number as usize] += 1;
        let path = file(&place, "sheet.bin", &list.case.sheet);
        let (code, out, err) = on(&path, "check");
        assert_eq!((code, err.as_str()), (1, ""));
        let at = match answer.number {
            1 => String::new(),
            8 => format!(
                " at node {}, attribute {}",
                answer.place / 32,
                answer.place % 32
            ),
            _ => format!(" at byte {}", answer.place),
        };
        let first = format!("{}: stop {}{at}: ", path.display(), answer.number);
        assert!(out.starts_with(&first), "{out}");
        assert!(out.contains("\ncaused by the sheet's author\n"), "{out}");
        let marked: Vec<&str> = out.lines().filter(|line| line.starts_with("> ")).collect();
        match answer.number {
            1 => assert!(marked.is_empty()),
            8 => assert_eq!(marked.len(), 2, "{out}"),
            _ => {
                let fault = format!("! stop {}: ", answer.number);
                let [marked] = marked[..] else {
                    panic!("{out}")
                };
                assert!(marked.contains(&fault), "{out}");
                let offset = marked[1..].split_whitespace().next();
                assert_eq!(offset, Some(answer.place.to_string().as_str()), "{out}");
            }
        }
        let refused = format!("sofretu: {}: stop {}{at}: ", path.display(), answer.number);
        for command in ["ask n0 a0", "all a0", "why n0 a0", "draw"] {
            let (code, out, err) = on(&path, command);
            assert_eq!((code, out.as_str()), (1, ""));
            assert!(
                err.starts_with(&refused) && err.lines().count() == 1,
                "{err}"
            );
        }
    }
    assert!((1..9).all(|stop| met[stop] > 0), "{met:?}");
}

/// The sheets of the page of stops, under the heading of each number.
#[test]
fn the_sheets_of_the_page_of_stops_are_told() {
    let place = directory("page");
    let page = include_str!("../../../docs/STOPS.md");
    for example in read_examples(page).expect("the page's form") {
        let path = file(&place, "sheet.bin", &example.case.sheet);
        let (code, out, _) = on(&path, "check");
        if (1..9).contains(&example.number) {
            let stop = format!(": stop {}", example.number);
            assert!(
                code == 1 && out.lines().next().is_some_and(|line| line.contains(&stop)),
                "{out}"
            );
        } else {
            assert!(code == 0 && out.contains(": accepted: "), "{out}");
        }
    }
}

#[test]
fn a_fault_is_shown_with_its_reason_and_the_lines_around_it() {
    let place = directory("faults");
    let path = sheet(&place, "410200 4e00 4600020011 01 5a");
    assert_eq!(
        on(&path, "check").1,
        format!(
            "{}: stop 7 at byte 5: a rule is not of its attribute's type, or a forward is no Node
caused by the sheet's author

      0  41 02 00                    a0: Int
      3  4e 00                       n0: k0
>     5  46 00 02 00 11 01           k0 -> true  ! stop 7: it is of type Bool, and not Node
     11  5a                          end
",
            path.display()
        )
    );
    for (groups, line) in [
        ("410900 5a", "    0  41 09 00                    a0: result type 9, parameter type 0  ! stop 4: a type is 0 to 3"),
        ("4e10 5a", "    0  4e 10                       n0: k16  ! stop 4: a kind is 0 to 15, and not 16"),
        ("4e00 410200 5a", "    2  41 02 00                    a0: Int  ! stop 2: an attribute belongs further to the front"),
        (
            "410200 4e00 5600000007000000 410200 4e00 5a",
            "   16  4e 00                       n1: k0  ! stop 2: a node belongs further to the front",
        ),
        ("410200 77 5a", "    3  77 5a                       2 bytes  ! stop 2: 0x77 is no command"),
        ("410200 5600", "    3  56 00                       2 bytes  ! stop 2: a command is cut"),
        ("410200", "    3                              ! stop 2: the end command is missing"),
        ("5a 5a5b", "    1  5a 5b                       2 bytes  ! stop 2: after the end"),
        (
            "410100 4e00 5600000002000000 5a",
            "    5  56 00 00 00 02 00 00 00     n0.a0 = 02 00 00 00  ! stop 4: 02 00 00 00 is no Bool",
        ),
        (
            "410200 4e00 5601000002000000 5a",
            "    5  56 01 00 00 02 00 00 00     n1.a0 = 02 00 00 00  ! stop 4: n1 is not declared",
        ),
        (
            "410200 4e00 5600000007000000 5600000008000000 5a",
            "   13  56 00 00 00 08 00 00 00     n0.a0 = 8  ! stop 5: the figure at 5 defines it already",
        ),
        (
            "410200 4e00 520000010077 5a",
            "    5  52 00 00 01 00 77           k0.a0 = 77  ! stop 6: 0x77 begins no expression",
        ),
        (
            "410200 4e00 5200000600120700000010 5a",
            "    5  52 00 00 06 00 12 07 00 ..  k0.a0 = 12 07 00 00 00 10  ! stop 6: a byte is left over after the expression",
        ),
        (
            "410200 4e00 5200000000 5a",
            "    5  52 00 00 00 00              k0.a0 =  ! stop 6: an expression has 1 to 256 bytes, and not 0",
        ),
        (
            "410200 4e00 4600010031 5a",
            "    5  46 00 01 00 31              k0 -> 31  ! stop 6: only a rule has a parameter",
        ),
        (
            "410200 4e00 5200000a00201200000000 1101 1101 5a",
            "    5  52 00 00 0a 00 20 12 00 ..  k0.a0 = if 0 then true else true  ! stop 7: a condition is of type Int, and not Bool",
        ),
    ] {
        let (code, out, _) = on(&sheet(&place, groups), "show");
        assert_eq!(code, 0);
        assert!(out.lines().any(|shown| shown == line), "{line}\n{out}");
    }
}

#[test]
fn a_gap_is_told_with_what_could_fill_it() {
    let path = sheet(
        &directory("gap"),
        "410200 410200 4e00 4e03 5600000007000000 5601000107000000 5a",
    );
    let (code, out, _) = on(&path, "check");
    assert_eq!(code, 1);
    let told = "
>     0  41 02 00                    a0: Int
      3  41 02 00                    a1: Int
      6  4e 00                       n0: k0
>     8  4e 03                       n1: k3
     10  56 00 00 00 07 00 00 00     n0.a0 = 7
     18  56 01 00 01 07 00 00 00     n1.a1 = 7
     26  5a                          end

n1, of kind k3, has no a0. Any of these defines it:
  a figure   n1.a0 = a value of type Int
  a rule     k3.a0 = an expression of type Int, for all nodes of k3
  a forward  k3 -> an expression of type Node, for all that nodes of k3 lack
1 other pair of node and attribute lacks a definition.
";
    assert!(out.ends_with(told), "{out}");
}

const CIRCLE: &str =
    "410300 410200 4e00 4e00 5600000001000000 5601000000000000 520001070022012200301010 5a";

#[test]
fn a_circle_is_told_with_what_is_on_it() {
    let path = sheet(&directory("circle"), CIRCLE);
    let (code, out, _) = on(&path, "why n0 a1");
    assert_eq!(code, 1);
    let said = "n0.a1 has no value: stop 20: an attribute was due inside itself, and so needs its own value (caused by the run)

equation               steps  from
n0.a1 has no value         4  rule at 26: this.a0.a1
├─ n0.a0 = n1              1  figure at 10
└─ n1.a1 has no value      2  rule at 26: this.a0.a1
   └─ n1.a0 = n0           1  figure at 18

the circle:
  n0.a1  rule at 26: this.a0.a1
  n1.a1  rule at 26: this.a0.a1
due: n0.a1

4 steps, 2 figures kept, 2 of them new; the library's answer is the same
";
    assert_eq!(out, said);
    let (code, out, _) = on(&path, "all a1 --csv");
    assert_eq!(code, 1);
    let words = "an attribute was due inside itself, and so needs its own value";
    let rows = format!("0,0,20,,4,\"{words}\"\n1,0,20,,4,\"{words}\"\n");
    assert!(out.ends_with(&rows), "{out}");
}

#[test]
fn the_stops_of_a_run_are_explained_by_the_way_there() {
    let place = directory("ways");
    let l = file(&place, "l.bin", &trials::write::sheet_l());
    for (sheet, words, end) in [
        (&l, "why n1 a2 --budget 7", "the way there:\n  n1.a2  rule at 72: if equal(this.a1)(0) then this.a0.a2 else this.a1\n  \
             n0.a2  rule at 63: this.a1\ndue: n0.a1\n"),
        (&l, "why n1 a2 --budget 0", "due: n1.a2\n"),
        (&l, "why n1 a2 --budget 2", "due: a function given an argument\n"),
        (&l, "why n1 a2 --budget 4", "due: the branch of an IF\n"),
        (
            &sheet(&place, "410300 410200 4e00 56000000ffff0000 46000400 22003010 5a"),
            "why n0 a1",
            "the way there:\n  n0.a1  forward at 16: this.a0\ndue: null.a1\n",
        ),
        (
            &file(&place, "sum.bin", &bytes("4102004102004e0056000000ffffff7f5200010d00212114042200301012010000005a").expect("hex")),
            "why n0 a1",
            "due: add(2147483647)(1), which is 2147483648\n",
        ),
    ] {
        let (code, out, _) = on(sheet, words);
        assert_eq!(code, 1);
        assert!(out.contains(end), "{words}: {out}");
        assert!(out.ends_with("; the library's answer is the same\n"), "{out}");
    }
    let (code, out, _) = on(&l, "why n1 a2 --budget 1000001");
    assert_eq!(code, 1);
    assert!(out.starts_with("n1.a2 has no value: stop 11: "), "{out}");
}

/// A parameter that grows without end: 64 open, and few of them shown.
#[test]
fn a_deep_tree_is_cut_where_it_is_said() {
    let path = sheet(
        &directory("deep"),
        "410202 4e00 5200000d0022003021211404311201000000 5a",
    );
    let (code, out, _) = on(&path, "why n0 a0 0 --depth 2");
    assert_eq!(code, 1);
    let tree = "
equation                  steps  from
n0.a0(0) has no value       192  rule at 5: this.a0(add(parameter)(1))
└─ n0.a0(1) has no value    189  rule at 5: this.a0(add(parameter)(1))
   └─ ... 1 more            186  not shown

the way there:
  n0.a0(0)   rule at 5: this.a0(add(parameter)(1))
";
    assert!(out.contains(tree), "{out}");
    assert!(
        out.contains("  n0.a0(63)  rule at 5: this.a0(add(parameter)(1))\ndue: n0.a0(64)\n"),
        "{out}"
    );
    // The budget is looked at before the depth.
    let (_, out, _) = on(&path, "why n0 a0 0 --budget 192");
    assert!(out.starts_with("n0.a0(0) has no value: stop 15: "), "{out}");
    assert!(
        out.ends_with("; the library's answer is the same\n"),
        "{out}"
    );
    let (_, out, _) = on(&path, "why n0 a0 0 --lines 0");
    assert!(out.contains("\n... 1 more    192  not shown"), "{out}");
}
