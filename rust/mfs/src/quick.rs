//! Quick find: a name looked up in an image whose volume is hardly checked.

use std::error::Error;
use std::fmt;

use crate::{ffi, Entry, Refusal};

/// What [`quick_find`] found.
#[derive(Clone, Debug, PartialEq, Eq)]
pub struct QuickFound {
    /// The place in directory order, over the entries read.
    pub place: u64,
    /// The entry.
    pub entry: Entry,
    /// How many directory blocks were looked at: those up to the entry's own.
    pub looked: u16,
}

/// Why [`quick_find`] was refused.
#[derive(Clone, Copy, Debug, PartialEq, Eq)]
pub struct QuickRefusal {
    /// The refusal.
    pub refusal: Refusal,
    /// How many directory blocks were looked at: with 13 all of them, with every other number none.
    pub looked: u16,
}

impl fmt::Display for QuickRefusal {
    fn fmt(&self, f: &mut fmt::Formatter<'_>) -> fmt::Result {
        self.refusal.fmt(f)
    }
}

impl Error for QuickRefusal {}

impl From<QuickRefusal> for Refusal {
    fn from(refused: QuickRefusal) -> Refusal {
        refused.refusal
    }
}

/// The place and the entry of a name, from the volume information and the directory blocks up to the one that has it;
/// nothing else is read. Where [`Volume::check`](crate::Volume::check) accepts the image, place and entry are those of
/// [`Volume::find`](crate::Volume::find).
///
/// The volume is not checked beyond 1 to 4, so that an image may be answered that every other call refuses. Of a
/// directory block the entries are then read up to one that 6 would refuse; the first equal name so read is the answer,
/// and its place is counted over the entries so read. Only images are taken: a wrapped file is refused by 1, for its
/// length. [`unwrap`](crate::unwrap) it first, which checks all of it.
pub fn quick_find(image: &[u8], name: &[u8]) -> Result<QuickFound, QuickRefusal> {
    let answer = ffi::quick_find(image, name);
    let looked = answer.looked;
    Refusal::of(answer.number).map_err(|refusal| QuickRefusal { refusal, looked })?;
    Ok(QuickFound {
        place: answer.place,
        entry: answer.entry.into(),
        looked,
    })
}
