//! An explanation that differs from the library's answer is not given for one.

use sofretu::{Answer, Session, Sheet, Stop, Store, Tally, Value, MOST_STEPS};
use tool::commands::why::{kept, told};
use tool::evaluate::explain;
use tool::kept::Occurrence;
use tool::listing::Listing;
use tool::paint::Paint;
use tool::tree::Tree;
use tool::Console;
use trials::write::sheet_l;

/// The exit code and both outputs for D, where the library's answer and the store that it left are changed so.
fn explained(change: impl Fn(&mut Answer, &mut Vec<u8>)) -> (u8, String, String) {
    let bytes = sheet_l();
    let listing = Listing::of(&bytes);
    let sheet = Sheet::check(&bytes).expect("an accepted sheet");
    let mut session = Session::open(&sheet, Store::default()).expect("an empty store");
    let asked = Occurrence {
        node: 1,
        attribute: 2,
        parameter: Value::Unit,
    };
    let question = listing
        .sheet
        .question(&asked.question())
        .expect("a question");
    let before = kept(&listing.sheet, session.store()).expect("an empty store");
    let tree = Tree::new(100, 10);
    let explained = explain(&listing.sheet, before, &question, MOST_STEPS, tree);
    let mut answer = session.ask(&asked.question(), MOST_STEPS);
    let mut store = session.store().bytes().to_vec();
    change(&mut answer, &mut store);
    let (mut out, mut err) = (Vec::new(), Vec::new());
    let console = &mut Console {
        out: &mut out,
        err: &mut err,
        paint: Paint::default(),
        bar: false,
    };
    let code = told(&listing.sheet, &asked, &explained, &answer, &store, console).expect("outputs");
    let text = |bytes| String::from_utf8(bytes).expect("text");
    (code, text(out), text(err))
}

#[test]
fn an_unchanged_answer_is_explained() {
    let (code, out, err) = explained(|_, _| {});
    assert_eq!((code, err.as_str()), (0, ""));
    assert!(
        out.ends_with("; the library's answer is the same\n"),
        "{out}"
    );
}

#[test]
fn any_other_answer_is_said_to_differ() {
    let other: [fn(&mut Answer, &mut Vec<u8>); 6] = [
        |answer, _| answer.value = Ok(Value::Int(701)),
        |answer, _| answer.value = Err(Stop::Null.into()),
        |answer, _| answer.steps = 9,
        |answer, _| answer.kept = 4,
        |answer, _| {
            let mut rows = [0; 34];
            rows[0] = 8;
            answer.tally = Tally::from(rows);
        },
        |_, store| store[8] = 1,
    ];
    for change in other {
        let (code, out, err) = explained(change);
        assert_eq!(
            (code, out.as_str()),
            (4, "THE EXPLANATION DISAGREES WITH THE LIBRARY\n")
        );
        assert!(
            err.starts_with("sofretu: THE EXPLANATION DISAGREES WITH THE LIBRARY: "),
            "{err}"
        );
    }
    let (_, _, err) = explained(|answer, _| answer.steps = 9);
    assert_eq!(
        err,
        "sofretu: THE EXPLANATION DISAGREES WITH THE LIBRARY: the library answers 0 0 2 700 9 5 in 8 steps: 1 of attribute 0, 2 of attribute 1, \
         2 of attribute 2, 2 applications, 1 condition, the explanation 700 in 8 steps: 1 of attribute 0, 2 of attribute 1, 2 of attribute 2, \
         2 applications, 1 condition with 5 kept. Believe the library, and report this sheet.\n"
    );
}
