//! Questions to a checked sheet and a checked store.
//!
//! One call requires more than its borrows give: `ask_checked` takes the checked sheet as the sheet's check left it, and the checked store as the
//! store's check or the question before left it, for these same bytes and this same number kept. The private fields of [`Sheet`] and [`Session`]
//! are how it gets that.
#![allow(unsafe_code)]

use std::error::Error;
use std::fmt;
use std::mem;
use std::sync::Arc;

use calls::{Call, Refusal};
use sofretu_sys::{CheckedStore, Run};

use crate::answer::Answer;
use crate::sheet::{verdict, Sheet};
use crate::store::Store;
use crate::whole::answered;

/// How a session holds its store: as its own [`Store`], or as a `&mut Store` that it is lent. There is no other way.
pub trait Holds: private::Holds {}

impl Holds for Store {}
impl Holds for &mut Store {}

mod private {
    use crate::store::Store;

    /// Nobody else implements this: a session relies on being given the same store each time.
    pub trait Holds {
        fn held(&self) -> &Store;
        fn held_mut(&mut self) -> &mut Store;
    }

    impl Holds for Store {
        fn held(&self) -> &Store {
            self
        }

        fn held_mut(&mut self) -> &mut Store {
            self
        }
    }

    impl Holds for &mut Store {
        fn held(&self) -> &Store {
            self
        }

        fn held_mut(&mut self) -> &mut Store {
            self
        }
    }
}

/// A checked sheet and a checked store, to which questions are put one after the other.
///
/// It is the quickest way to ask: sheet and store are checked once, and no question takes scratch from the stack or the heap. A session has its
/// own scratch, some 100 KB, for as long as it lives: [`clear`](Session::clear), [`reload`](Session::reload) and [`switch`](Session::switch) put it
/// to another store or sheet, and take none.
///
/// It owns its store and shares its sheet, so that it can be kept in a struct and sent to another thread; or it borrows them:
///
/// ```
/// use sofretu::{Session, Sheet, Store};
///
/// let (bytes, mut store) = ([0x5A], Store::with_capacity(1));
/// let sheet = Sheet::check(&bytes)?;
/// let mut session: Session<&[u8], &mut Store> = Session::open(&sheet, &mut store)?;
/// assert_eq!(session.ask(&[0x10], 0).kept, 0);
/// # Ok::<(), sofretu::Refusal>(())
/// ```
///
/// Nobody else touches the store until the session ends:
///
/// ```compile_fail,E0502
/// use sofretu::{Session, Sheet, Store};
///
/// let sheet = Sheet::check(&[0x5A]).unwrap();
/// let mut store = Store::with_capacity(1);
/// let mut session = Session::open(&sheet, &mut store).unwrap();
/// store.kept();
/// let _ = session.ask(&[0x10], 0);
/// ```
///
/// nor can a store have two sessions, lent
///
/// ```compile_fail,E0499
/// use sofretu::{Session, Sheet, Store};
///
/// let sheet = Sheet::check(&[0x5A]).unwrap();
/// let mut store = Store::with_capacity(1);
/// let mut first = Session::open(&sheet, &mut store).unwrap();
/// let mut second = Session::open(&sheet, &mut store).unwrap();
/// let _ = first.ask(&[0x10], 0);
/// ```
///
/// or given:
///
/// ```compile_fail,E0382
/// use sofretu::{Session, Sheet, Store};
///
/// let sheet = Sheet::check(&[0x5A]).unwrap();
/// let store = Store::with_capacity(1);
/// let first = Session::open(&sheet, store).unwrap();
/// let second = Session::open(&sheet, store).unwrap();
/// ```
///
/// A session shows its store and lends it to nobody for writing:
///
/// ```compile_fail,E0596
/// use sofretu::{Session, Sheet, Store};
///
/// let sheet = Sheet::check(&[0x5A]).unwrap();
/// let session = Session::open(&sheet, Store::with_capacity(1)).unwrap();
/// session.store().clear();
/// ```
///
/// and two threads do not ask one session at a time:
///
/// ```compile_fail,E0499
/// use sofretu::{Session, Sheet, Store};
///
/// let sheet = Sheet::load([0x5A]).unwrap();
/// let mut session = Session::open(&sheet, Store::default()).unwrap();
/// std::thread::scope(|scope| {
///     scope.spawn(|| session.ask(&[0x10], 0));
///     scope.spawn(|| session.ask(&[0x10], 0));
/// });
/// ```
pub struct Session<B = Arc<[u8]>, S = Store> {
    sheet: Sheet<B>,
    store: S,
    checked: CheckedStore,
    run: Run,
}

/// A store that opens no session with its sheet, given back with the reason.
#[derive(Clone, Debug, PartialEq, Eq)]
#[non_exhaustive]
pub struct Unopened<S = Store> {
    /// Stop 9, or stop 10 with the faulty entry's number.
    pub refusal: Refusal,
    /// The store, as it was.
    pub store: S,
}

impl<B: AsRef<[u8]>, S: Holds> Session<B, S> {
    /// Checks the store against the sheet, and opens a session on both.
    ///
    /// # Errors
    ///
    /// Stops 9 and 10, with the store.
    pub fn open(sheet: &Sheet<B>, store: S) -> Result<Session<B, S>, Unopened<S>> {
        let mut checked = CheckedStore::default();
        match check_store(sheet, store.held(), &mut checked) {
            Ok(()) => Ok(Session {
                sheet: sheet.clone(),
                store,
                checked,
                run: Run::default(),
            }),
            Err(refusal) => Err(Unopened { refusal, store }),
        }
    }

    /// The answer to one question, within a budget of counted steps. The store is left as the answer's run leaves it.
    ///
    /// # Panics
    ///
    /// If the library brings what is no answer of document 01, which the proofs rule out.
    pub fn ask(&mut self, question: &[u8], budget: u64) -> Answer {
        let (bytes, checked_sheet) = self.sheet.checked();
        let (store, kept) = self.store.held_mut().lend();
        let call = Call {
            sheet: bytes,
            question,
            store,
            kept: *kept,
            budget,
        };
        let (checked, run) = (&mut self.checked, &mut self.run);
        answered(|tally| {
            // SAFETY: the checked sheet is as the sheet's check left it, in a private field beside the bytes, which nobody changes for as long as
            // the sheet lives. The checked store is as the store's check or the question before left it: the session alone holds the store, or
            // its `&mut`, and writes its bytes and its number kept here and where it checks it again.
            let fields =
                unsafe { sofretu_sys::ask_checked(call, checked_sheet, checked, run, tally) };
            *kept = fields[5].cast_unsigned();
            fields
        })
    }

    /// Forgets what is kept, and goes on with the same sheet and the emptied store.
    pub fn clear(&mut self) {
        self.store.held_mut().clear();
        self.check_again();
    }

    /// Goes on with another sheet and the emptied store: what was kept for one sheet is of no use to another.
    ///
    /// ```
    /// use sofretu::{Session, Sheet, Store, Value};
    ///
    /// // One node with an Int attribute, whose figure is 7, and then 8.
    /// let of = |figure| Sheet::load([0x41, 2, 0, 0x4E, 0, 0x56, 0, 0, 0, figure, 0, 0, 0, 0x5A]);
    /// let question = [0x22, 0, 0x13, 0, 0, 0x10];
    ///
    /// let mut session = Session::open(&of(7)?, Store::default())?;
    /// assert_eq!(session.ask(&question, 9).value, Ok(Value::Int(7)));
    /// session.reload(&of(8)?);
    /// assert_eq!(session.ask(&question, 9).value, Ok(Value::Int(8)));
    /// # Ok::<(), sofretu::Refusal>(())
    /// ```
    pub fn reload(&mut self, sheet: &Sheet<B>) {
        self.sheet = sheet.clone();
        self.clear();
    }

    /// Goes on with another store, and the same sheet or another, and gives back the store that it had.
    ///
    /// # Errors
    ///
    /// Stops 9 and 10, with the new store. The session then goes on with the sheet and the store that it has.
    pub fn switch(&mut self, sheet: &Sheet<B>, store: S) -> Result<S, Unopened<S>> {
        match check_store(sheet, store.held(), &mut self.checked) {
            Ok(()) => {
                self.sheet = sheet.clone();
                Ok(mem::replace(&mut self.store, store))
            }
            Err(refusal) => {
                self.check_again();
                Err(Unopened { refusal, store })
            }
        }
    }

    /// Checks the session's own store again: one that passed, as the last question left it, or emptied.
    fn check_again(&mut self) {
        let checked = check_store(&self.sheet, self.store.held(), &mut self.checked);
        checked.expect("a session's store passes its check");
    }

    /// The sheet.
    #[must_use]
    pub fn sheet(&self) -> &Sheet<B> {
        &self.sheet
    }

    /// The store as the last question left it.
    #[must_use]
    pub fn store(&self) -> &Store {
        self.store.held()
    }

    /// Ends the session, and gives its store back.
    #[must_use]
    pub fn into_store(self) -> S {
        self.store
    }
}

/// The first of stops 9 and 10 that holds of a store. Whatever it is, `checked` is overwritten.
fn check_store<B: AsRef<[u8]>>(
    sheet: &Sheet<B>,
    store: &Store,
    checked: &mut CheckedStore,
) -> Result<(), Refusal> {
    let (bytes, checked_sheet) = sheet.checked();
    verdict(sofretu_sys::check_store(
        bytes,
        checked_sheet,
        store.bytes(),
        store.kept(),
        checked,
    ))
}

impl<B: AsRef<[u8]>, S: Holds> fmt::Debug for Session<B, S> {
    fn fmt(&self, f: &mut fmt::Formatter<'_>) -> fmt::Result {
        f.debug_struct("Session")
            .field("sheet", &self.sheet)
            .field("capacity", &self.store().capacity())
            .field("kept", &self.store().kept())
            .finish_non_exhaustive()
    }
}

impl<S> fmt::Display for Unopened<S> {
    fn fmt(&self, f: &mut fmt::Formatter<'_>) -> fmt::Result {
        self.refusal.fmt(f)
    }
}

impl<S: fmt::Debug> Error for Unopened<S> {}

impl<S> From<Unopened<S>> for Refusal {
    fn from(unopened: Unopened<S>) -> Refusal {
        unopened.refusal
    }
}
