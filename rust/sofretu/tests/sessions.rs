//! Sessions that are kept: in a struct beside their sheet, on several threads, with one store and sheet after the other.

use std::sync::Arc;
use std::thread;

use sofretu::{Refusal, Session, Sheet, Stop, Store, Value, MOST_STEPS};

/// One Int attribute on one node: its figure.
fn figure(number: u8) -> Vec<u8> {
    vec![0x41, 2, 0, 0x4E, 0, 0x56, 0, 0, 0, number, 0, 0, 0, 0x5A]
}

/// The attribute of the node.
const QUESTION: [u8; 6] = [0x22, 0, 0x13, 0, 0, 0x10];

/// The attribute of node 0 with Bool result: no entry of `figure`'s store is one of this sheet's.
const OTHER: [u8; 14] = [0x41, 1, 0, 0x4E, 0, 0x56, 0, 0, 0, 1, 0, 0, 0, 0x5A];

/// The value and the steps of the question.
fn asked<B: AsRef<[u8]>, S: sofretu::Holds>(session: &mut Session<B, S>) -> (i32, u64) {
    let answer = session.ask(&QUESTION, MOST_STEPS);
    let value = answer.value.expect("a value");
    (i32::try_from(value).expect("an Int"), answer.steps)
}

/// What a server keeps.
struct Server {
    sheet: Sheet,
    session: Session,
}

impl Server {
    fn open(bytes: Vec<u8>) -> Result<Server, Refusal> {
        let sheet = Sheet::load(bytes)?;
        let session = Session::open(&sheet, Store::default())?;
        Ok(Server { sheet, session })
    }
}

#[test]
fn a_server_keeps_its_sheet_and_its_session_in_one_struct() {
    let mut server = Server::open(figure(7)).expect("an accepted sheet");
    assert_eq!(asked(&mut server.session), (7, 1));
    // It can be moved, with all it has, to another thread.
    let mut server = thread::spawn(move || {
        assert_eq!(server.session.store().kept(), 1);
        server
    })
    .join()
    .expect("the server");
    assert_eq!(asked(&mut server.session), (7, 1));
    assert_eq!(server.sheet.bytes(), server.session.sheet().bytes());
    assert_eq!(
        Server::open(vec![0]).err(),
        Some(Stop::Command.at(0)),
        "a refused sheet"
    );
}

#[test]
fn a_sheet_shares_its_bytes_and_its_check_with_its_clones() {
    let bytes: Arc<[u8]> = figure(9).into();
    let sheet = Sheet::load(Arc::clone(&bytes)).expect("an accepted sheet");
    let clone = sheet.clone();
    assert!(clone.same(&sheet));
    let other = Sheet::load(Arc::clone(&bytes)).expect("an accepted sheet");
    assert!(!clone.same(&other), "the same bytes checked again");
    drop(sheet);
    assert!(std::ptr::eq(clone.bytes(), &*bytes));
    let sessions: Vec<_> = (0..4)
        .map(|_| {
            let sheet = clone.clone();
            thread::spawn(move || {
                let mut session = Session::open(&sheet, Store::default()).expect("an empty store");
                asked(&mut session)
            })
        })
        .collect();
    for session in sessions {
        assert_eq!(session.join().expect("an answer"), (9, 1));
    }
}

#[test]
fn a_session_gives_its_store_back_and_goes_on_where_another_stopped() {
    let sheet = Sheet::load(figure(7)).expect("an accepted sheet");
    let mut session = Session::open(&sheet, Store::with_capacity(3)).expect("an empty store");
    asked(&mut session);
    let store = session.into_store();
    assert_eq!((store.capacity(), store.kept()), (3, 1));
    // As another program would read it again.
    let (bytes, kept) = store.into_parts();
    let mut session = Session::open(&sheet, Store::from_parts(bytes, kept)).expect("its own store");
    assert_eq!((asked(&mut session), session.store().kept()), ((7, 1), 1));
}

#[test]
fn a_cleared_session_works_its_figures_out_again() {
    let sheet = Sheet::check(&OTHER).expect("an accepted sheet");
    let mut store = Store::with_capacity(1);
    let mut session = Session::open(&sheet, &mut store).expect("an empty store");
    for _ in 0..3 {
        assert_eq!(session.ask(&QUESTION, 9).value, Ok(Value::Bool(true)));
        assert_eq!(session.store().kept(), 1);
        session.clear();
        assert_eq!(session.store().kept(), 0);
    }
    assert_eq!(store.kept(), 0);
}

#[test]
fn a_reloaded_session_answers_by_the_new_sheet_alone() {
    let mut server = Server::open(figure(1)).expect("an accepted sheet");
    for number in 1..=5 {
        assert_eq!(asked(&mut server.session), (i32::from(number), 1));
        server.sheet = Sheet::load(figure(number + 1)).expect("an accepted sheet");
        // Until then the session has the sheet that it was opened with.
        assert_eq!(asked(&mut server.session), (i32::from(number), 1));
        server.session.reload(&server.sheet);
        assert_eq!(server.session.store().kept(), 0);
    }
    assert_eq!(asked(&mut server.session), (6, 1));
}

#[test]
fn a_session_is_switched_from_store_to_store_and_from_sheet_to_sheet() {
    let sheets = [7, 8].map(|number| Sheet::load(figure(number)).expect("an accepted sheet"));
    let mut session = Session::open(&sheets[0], Store::with_capacity(2)).expect("an empty store");
    assert_eq!(asked(&mut session), (7, 1));
    // The first store is put by with its figure, and taken up again.
    let first = session.switch(&sheets[1], Store::with_capacity(1));
    let first = first.expect("an empty store");
    assert_eq!((first.capacity(), first.kept()), (2, 1));
    assert_eq!((asked(&mut session), session.store().kept()), ((8, 1), 1));
    let second = session.switch(&sheets[0], first).expect("its own store");
    assert_eq!((second.capacity(), second.kept()), (1, 1));
    assert_eq!((asked(&mut session), session.store().kept()), ((7, 1), 1));
}

#[test]
fn a_refused_switch_leaves_the_session_as_it_was() {
    let sheet = Sheet::load(figure(7)).expect("an accepted sheet");
    let other = Sheet::load(OTHER).expect("an accepted sheet");
    let mut session = Session::open(&sheet, Store::with_capacity(2)).expect("an empty store");
    asked(&mut session);
    let before = session.store().clone();
    for (store, refusal) in [
        // What was kept for one sheet is no entry of the other.
        (before.clone(), Stop::StoreEntry.at(0)),
        (Store::with_capacity(5_000), Stop::StoreShape.at(0)),
    ] {
        let unopened = session.switch(&other, store.clone()).unwrap_err();
        assert_eq!((unopened.refusal, unopened.store), (refusal, store));
        assert_eq!(*session.store(), before);
        assert_eq!(session.sheet().bytes(), sheet.bytes());
        assert_eq!((asked(&mut session), session.store().kept()), ((7, 1), 1));
    }
}

#[test]
fn sheets_and_sessions_go_from_thread_to_thread() {
    fn goes<T: Send>() {}
    fn is_shared<T: Sync>() {}
    goes::<Sheet>();
    is_shared::<Sheet>();
    goes::<Session>();
    goes::<Session<&[u8], &mut Store>>();
}
