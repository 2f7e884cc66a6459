//! What every call on a sheet has to know: the kind, the format and the most rows of a place.

use crate::format::Format;
use crate::kind::Kind;

#[derive(Clone, Debug)]
pub struct Setting {
    pub kind: Kind,
    pub format: Format,
    pub room: usize,
}

impl Setting {
    /// On so many rows: twelve areas, each of at most 4,096 rows.
    pub fn on_rows(kind: Kind, format: Format, rows: u64) -> Setting {
        let room = usize::try_from((rows / 12).min(4096)).expect("at most 4,096");
        Setting { kind, format, room }
    }
}
