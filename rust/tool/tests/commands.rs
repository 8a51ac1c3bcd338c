//! Every command, on sheet L, on sheet LF, and on a sheet of 1,024 nodes.

mod program;

use std::ffi::OsStr;
use std::fmt::Write as _;

use program::{directory, file, on, run_in};
use sofretu::{Session, Sheet, Store, Value, MOST_STEPS};
use tool::paint::Paint;
use trials::write::*;

const SHOW_L: &str = "    0  41 03 00                    a0: Node
    3  41 02 00                    a1: Int
    6  41 02 00                    a2: Int
    9  4e 00                       n0: k0
   11  4e 01                       n1: k1
   13  4e 01                       n2: k1
   15  56 00 00 00 ff ff 00 00     n0.a0 = null
   23  56 00 00 01 bc 02 00 00     n0.a1 = 700
   31  56 01 00 00 00 00 00 00     n1.a0 = n0
   39  56 01 00 01 00 00 00 00     n1.a1 = 0
   47  56 02 00 00 00 00 00 00     n2.a0 = n0
   55  56 02 00 01 2b 03 00 00     n2.a1 = 811
   63  52 00 02 04 00 22 01 30 ..  k0.a2 = this.a1
   72  52 01 02 19 00 20 21 21 ..  k1.a2 = if equal(this.a1)(0) then this.a0.a2 else this.a1
  102  5a                          end
";

const ASK_L: &str = "n1.a2 = 700
8 steps, 5 figures kept
  a0                    1
  a1                    2
  a2                    2
  applications          2
  conditions            1
";

const WHY_L: &str = "n1.a2 = 700

equation           steps  from
n1.a2 = 700            8  rule at 72: if equal(this.a1)(0) then this.a0.a2 else this.a1
├─ n1.a1 = 0           1  figure at 39
├─ n1.a0 = n0          1  figure at 31
└─ n0.a2 = 700         2  rule at 63: this.a1
   └─ n0.a1 = 700      1  figure at 23

8 steps, 5 figures kept, 5 of them new; the library's answer is the same
";

const DRAW_L: &str = r##"digraph sheet {
  rankdir=RL;
  node [shape=box, style="rounded,filled", fontname="sans-serif"];
  edge [fontname="sans-serif", fontsize=10];
  n0 [label="n0 k0", fillcolor="#cfe3f7", tooltip="n0: k0, a0 = null, a1 = 700"];
  n1 [label="n1 k1", fillcolor="#fde2b8", tooltip="n1: k1, a0 = n0, a1 = 0"];
  n2 [label="n2 k1", fillcolor="#fde2b8", tooltip="n2: k1, a0 = n0, a1 = 811"];
  n1 -> n0 [label="a0"];
  n2 -> n0 [label="a0"];
}
"##;

fn fine(text: &str) -> (u8, String, String) {
    (0, text.into(), String::new())
}

#[test]
fn sheet_l() {
    let place = directory("sheet_l");
    let sheet = file(&place, "l.bin", &trials::write::sheet_l());
    let name = sheet.display();
    assert_eq!(on(&sheet, "show"), fine(SHOW_L));
    let counts = "3 attributes, 3 nodes, 6 figures, 2 rules, 0 forwards, 103 bytes";
    assert_eq!(
        on(&sheet, "check"),
        fine(&format!("{name}: accepted: {counts}\n"))
    );
    for words in [
        "ask n1 a2",
        "ask 1 2",
        "ask --budget 8 1 a2 unit",
        "ask n1 --budget=1,000 a2",
    ] {
        assert_eq!(on(&sheet, words), fine(ASK_L), "{words}");
    }
    assert_eq!(on(&sheet, "why n1 a2"), fine(WHY_L));
    assert_eq!(on(&sheet, "draw"), fine(DRAW_L));
    assert_eq!(
        on(&sheet, "all a2"),
        fine(
            "node   kind      steps  a2
n0     k0            2  700
n1     k1            7  700
n2     k1            6  811
"
        )
    );
    assert_eq!(
        on(&sheet, "all --csv a0"),
        fine(
            "node,kind,number,value,steps,words
0,0,0,null,1,
1,1,0,n0,1,
2,1,0,n0,1,
"
        )
    );
}

/// The picture in the documents is the program's.
#[test]
fn the_drawing_of_sheet_l() {
    let sheet = file(&directory("drawing"), "l.bin", &trials::write::sheet_l());
    let drawing = include_str!("../../../docs/sheet-l.svg");
    assert_eq!(on(&sheet, "draw --svg"), fine(drawing));
}

#[test]
fn sheet_lf() {
    let sheet = file(&directory("sheet_lf"), "lf.bin", &trials::write::sheet_lf());
    let (_, show, _) = on(&sheet, "show");
    let lines: Vec<&str> = show.lines().collect();
    assert_eq!(lines.len(), 18);
    assert_eq!(lines[6], "   15  4e 02                       n3: k2");
    assert_eq!(
        lines[16],
        "  112  46 02 04 00 22 00 30 10     k2 -> this.a0"
    );
    let (code, check, _) = on(&sheet, "check");
    let counts = ": accepted: 3 attributes, 4 nodes, 7 figures, 2 rules, 1 forward, 121 bytes\n";
    assert!(code == 0 && check.ends_with(counts), "{check}");
    assert_eq!(
        on(&sheet, "why n3 a2"),
        fine(
            "n3.a2 = 700

equation              steps  from
n3.a2 = 700              10  forward at 112: this.a0
├─ n3.a0 = n1             1  figure at 65
└─ n1.a2 = 700            8  rule at 82: if equal(this.a1)(0) then this.a0.a2 else this.a1
   ├─ n1.a1 = 0           1  figure at 41
   ├─ n1.a0 = n0          1  figure at 33
   └─ n0.a2 = 700         2  rule at 73: this.a1
      └─ n0.a1 = 700      1  figure at 25

10 steps, 7 figures kept, 7 of them new; the library's answer is the same
"
        )
    );
    let (_, drawing, _) = on(&sheet, "draw");
    assert!(drawing.contains("  n3 -> n1 [label=\"a0\"];\n"));
    let (_, all, _) = on(&sheet, "all a1");
    assert!(all.ends_with("n3     k2            3  0\n"), "{all}");
}

/// 1,024 nodes: the tree of sheet L's rules in which each node's up is drawn from those before it.
fn load() -> Vec<u8> {
    let mut s = 1_u32;
    let mut draw = || {
        s = s.wrapping_mul(1_664_525).wrapping_add(1_013_904_223);
        s
    };
    let (mut nodes, mut figures) = (Vec::new(), Vec::new());
    for number in 3..1_024_u16 {
        nodes.extend(node(1));
        figures.extend(figure(number, UP, (draw() % u32::from(number)) as i32));
        figures.extend(figure(number, OWN, (draw() % 4) as i32));
    }
    l_with(&nodes, &figures, &[])
}

#[test]
fn a_sheet_of_1024_nodes() {
    let bytes = load();
    let path = file(&directory("load"), "load.bin", &bytes);
    let (code, show, _) = on(&path, "show");
    assert_eq!((code, show.lines().count()), (0, 3 + 1_024 + 2_048 + 2 + 1));
    let (code, check, _) = on(&path, "check");
    assert!(
        code == 0 && check.contains("1,024 nodes, 2,048 figures"),
        "{check}"
    );

    let sheet = Sheet::check(&bytes).expect("an accepted sheet");
    let mut session = Session::open(&sheet, Store::default()).expect("an empty store");
    let mut expected = String::from("node,kind,number,value,steps,words\n");
    for number in 0..1_024_u16 {
        let answer = session.ask(&of(&node_literal(number), DIAL, &UNIT), MOST_STEPS);
        let Ok(Value::Int(dial)) = answer.value else {
            panic!("n{number} has no dial");
        };
        let kind = u8::from(number > 0);
        writeln!(expected, "{number},{kind},0,{dial},{},", answer.steps).expect("text");
    }
    assert_eq!(on(&path, "all --csv a2"), fine(&expected));

    let (code, why, _) = on(&path, "why n1023 a2");
    assert!(
        code == 0 && why.ends_with("; the library's answer is the same\n"),
        "{why}"
    );
    let (_, drawing, _) = on(&path, "draw --svg");
    assert_eq!(drawing.matches("<title>n").count(), 1_024);
    let (_, graph, _) = on(&path, "draw");
    assert_eq!(graph.matches(" -> ").count(), 1_023);
}

/// One node with an attribute of each parameter type, which gives whether the parameter is an own one.
fn parameters() -> Vec<u8> {
    let equals = binary(EQUAL, &PARAMETER, &int(-5));
    let same = binary(2, &PARAMETER, &THIS);
    [
        attribute(BOOL_TYPE, BOOL_TYPE),
        attribute(BOOL_TYPE, INT_TYPE),
        attribute(BOOL_TYPE, NODE_TYPE),
        node(0),
        rule(0, 0, &apply(&function(NOT), &PARAMETER)),
        rule(0, 1, &equals),
        rule(0, 2, &same),
        end(),
    ]
    .concat()
}

#[test]
fn parameters_are_of_the_attributes_type() {
    let sheet = file(&directory("parameters"), "p.bin", &parameters());
    for (words, first) in [
        ("ask n0 a0 true", "n0.a0(true) = false"),
        ("ask n0 a1 -5", "n0.a1(-5) = true"),
        ("ask n0 a1 -2,147,483,648", "n0.a1(-2147483648) = false"),
        ("ask n0 a2 n0", "n0.a2(n0) = true"),
        ("ask n0 a2 0", "n0.a2(n0) = true"),
        ("ask n0 a2 null", "n0.a2(null) = false"),
        ("why n0 a2 null", "n0.a2(null) = false"),
    ] {
        let (code, out, _) = on(&sheet, words);
        assert_eq!((code, out.lines().next()), (0, Some(first)));
    }
    let (_, show, _) = on(&sheet, "show");
    assert!(show.contains("a1(Int): Bool\n"));
    assert!(show.contains("k0.a2 = equal_node(parameter)(this)\n"));
    for (words, said) in [
        ("ask n0 a0", "a0 takes a parameter of type Bool"),
        (
            "ask n0 a0 yes",
            "a0 takes a parameter of type Bool, and not \"yes\"",
        ),
        (
            "ask n0 a1 2147483648",
            "a1 takes a parameter of type Int, and not \"2147483648\"",
        ),
        ("ask n0 a2 n1", "no n1: the sheet has n0"),
        ("ask n1 a0 true", "no n1: the sheet has n0"),
        ("ask n0 a3", "no a3: the sheet has a0 to a2"),
        ("ask a0 a0 true", "\"a0\" is no node"),
        ("ask +0 a0 true", "\"+0\" is no node"),
        ("ask n70000 a0 true", "\"n70000\" is no node"),
        ("ask n0 a300", "\"a300\" is no attribute"),
        (
            "ask n0 a0 true --budget many",
            "--budget takes a number, and not \"many\"",
        ),
        ("ask n0 a0 true --budget", "--budget needs a value"),
        ("ask n0 a0 true --csv", "no option --csv"),
        ("ask n0", "something is missing"),
        ("ask n0 a0 true false", "too many words"),
    ] {
        let err = format!("sofretu: ask: {said}; see 'sofretu ask --help'\n");
        assert_eq!(on(&sheet, words), (2, String::new(), err), "{words}");
    }
}

#[test]
fn every_command_has_help() {
    let run = |words: &[&str]| {
        let words: Vec<&OsStr> = words.iter().map(OsStr::new).collect();
        run_in(Paint::default(), &words)
    };
    let (code, help, _) = run(&["--help"]);
    assert_eq!(code, 0);
    for command in &tool::usage::COMMANDS {
        assert!(help.contains(&format!("  sofretu {} {}\n", command.name, command.form)));
        let (code, own, _) = run(&[command.name, "--help"]);
        assert!(code == 0 && own.starts_with(&format!("usage: sofretu {} ", command.name)));
        assert!(own.contains("Exit codes: 0 a value"));
    }
    assert_eq!(
        run(&["--version"]),
        fine(concat!("sofretu ", env!("CARGO_PKG_VERSION"), "\n"))
    );
    let (code, _, err) = run(&[]);
    assert_eq!(
        (code, err.as_str()),
        (2, "sofretu: no command; see 'sofretu --help'\n")
    );
    let (code, _, err) = run(&["frobnicate"]);
    assert_eq!(code, 2);
    assert_eq!(
        err,
        "sofretu: no command \"frobnicate\"; see 'sofretu --help'\n"
    );
}

#[test]
fn colours_are_used_where_they_are_wanted() {
    let sheet = file(&directory("colours"), "l.bin", &trials::write::sheet_l());
    let words = ["ask", "n1", "a2"].map(OsStr::new);
    let words = [words[0], sheet.as_os_str(), words[1], words[2]];
    let (_, plain, _) = run_in(Paint { colours: false }, &words);
    let (_, painted, _) = run_in(Paint { colours: true }, &words);
    assert!(!plain.contains('\x1b') && painted.contains("\x1b[1;32m700\x1b[0m"));
}
