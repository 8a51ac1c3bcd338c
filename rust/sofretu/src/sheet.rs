//! Checked sheets.

use std::fmt;
use std::sync::Arc;

use calls::{Refusal, Stop};
use sofretu_sys::{CheckedSheet, Found};

/// A sheet that none of stops 1 to 8 holds of, with its bytes: its own ([`load`](Sheet::load)) or borrowed ones ([`check`](Sheet::check)).
///
/// It is a handle: a clone shares bytes and check with its original, on any thread. What the check leaves takes some 130 KB, once for a sheet and all
/// its clones.
///
/// The bytes cannot change while a sheet borrows them:
///
/// ```compile_fail,E0506
/// let mut bytes = [0x5A];
/// let sheet = sofretu::Sheet::check(&bytes).unwrap();
/// bytes[0] = 0;
/// sheet.nodes();
/// ```
///
/// nor can they be dropped:
///
/// ```compile_fail,E0597
/// let sheet = {
///     let bytes = vec![0x5A];
///     sofretu::Sheet::check(&bytes).unwrap()
/// };
/// sheet.nodes();
/// ```
pub struct Sheet<B = Arc<[u8]>> {
    checked: Arc<Checked<B>>,
}

/// The bytes, and what their check left: nobody changes either.
struct Checked<B> {
    bytes: B,
    sheet: CheckedSheet,
}

impl Sheet {
    /// Checks a sheet that owns its bytes: a `Vec<u8>`, a `Box<[u8]>`, or an `Arc<[u8]>` that it shares with others.
    ///
    /// ```
    /// use sofretu::{Refusal, Session, Sheet, Store};
    ///
    /// struct Server {
    ///     sheet: Sheet,
    ///     session: Session,
    /// }
    ///
    /// fn serve(bytes: Vec<u8>) -> Result<Server, Refusal> {
    ///     let sheet = Sheet::load(bytes)?;
    ///     let session = Session::open(&sheet, Store::default())?;
    ///     Ok(Server { sheet, session })
    /// }
    ///
    /// let mut server = serve(vec![0x5A])?;
    /// assert_eq!(server.session.ask(&[0x10], 0).steps, 0);
    /// assert_eq!(server.sheet.nodes(), 0);
    /// # Ok::<(), Refusal>(())
    /// ```
    ///
    /// # Errors
    ///
    /// The first of stops 1 to 8 that holds of the bytes. Who needs the bytes then keeps a clone of their `Arc`.
    pub fn load(bytes: impl Into<Arc<[u8]>>) -> Result<Sheet, Refusal> {
        Sheet::over(bytes.into())
    }
}

impl<'a> Sheet<&'a [u8]> {
    /// Checks a sheet over borrowed bytes.
    ///
    /// ```
    /// use sofretu::{Origin, Sheet, Stop};
    ///
    /// let refusal = Sheet::check(&[0x41, 2, 9, 0x5A]).unwrap_err();
    /// assert_eq!(refusal, Stop::Operand.at(0));
    /// assert_eq!(refusal.stop.origin(), Origin::Author);
    /// assert_eq!(
    ///     refusal.to_string(),
    ///     "stop 4 at byte 0: a command's operand is outside its values or undeclared"
    /// );
    /// ```
    ///
    /// # Errors
    ///
    /// The first of stops 1 to 8 that holds of the bytes.
    pub fn check(bytes: &'a [u8]) -> Result<Sheet<&'a [u8]>, Refusal> {
        Sheet::over(bytes)
    }
}

// Only the two functions above make sheets, so `B` is one of their types, and `as_ref` gives the same bytes each time.
impl<B: AsRef<[u8]>> Sheet<B> {
    fn over(bytes: B) -> Result<Sheet<B>, Refusal> {
        let mut sheet = CheckedSheet::default();
        verdict(sofretu_sys::check_sheet(bytes.as_ref(), &mut sheet))?;
        let checked = Arc::new(Checked { bytes, sheet });
        Ok(Sheet { checked })
    }

    /// The bytes that the sheet was read from.
    #[must_use]
    pub fn bytes(&self) -> &[u8] {
        self.checked.bytes.as_ref()
    }

    /// How many attributes it declares.
    #[must_use]
    pub fn attributes(&self) -> u64 {
        self.checked.sheet.attributes
    }

    /// How many nodes it declares.
    #[must_use]
    pub fn nodes(&self) -> u64 {
        self.checked.sheet.nodes
    }

    /// Whether both are handles of one sheet: the one a clone of the other, or of the same third one.
    #[must_use]
    pub fn same(&self, other: &Sheet<B>) -> bool {
        Arc::ptr_eq(&self.checked, &other.checked)
    }

    /// The bytes, and what their check left when it accepted them.
    #[inline]
    pub(crate) fn checked(&self) -> (&[u8], &CheckedSheet) {
        let Checked { bytes, sheet } = &*self.checked;
        (bytes.as_ref(), sheet)
    }
}

impl<B> Clone for Sheet<B> {
    fn clone(&self) -> Sheet<B> {
        Sheet {
            checked: Arc::clone(&self.checked),
        }
    }
}

impl<B: AsRef<[u8]>> fmt::Debug for Sheet<B> {
    fn fmt(&self, f: &mut fmt::Formatter<'_>) -> fmt::Result {
        f.debug_struct("Sheet")
            .field("length", &self.bytes().len())
            .field("attributes", &self.attributes())
            .field("nodes", &self.nodes())
            .finish_non_exhaustive()
    }
}

/// What a check found as a result.
pub(crate) fn verdict((number, place): Found) -> Result<(), Refusal> {
    if number == 0 {
        return Ok(());
    }
    let stop = Stop::from_number(number).expect("a stop of document 01");
    Err(stop.at(place))
}
