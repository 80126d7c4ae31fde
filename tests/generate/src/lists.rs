//! Lists of a named kind, for a typed table.

use second::service::typed_table;
use second::translate::list_bytes;

use crate::faithful::faithful;
use crate::kind::ListKind;
use crate::list_faults;
use crate::rng::Rng;
use crate::unfaithful;

/// A list of this kind for the table, which is a typed one; none if the table has nothing that could be changed so.
pub fn list(rng: &mut Rng, table: &[u8], kind: ListKind) -> Option<Vec<u8>> {
    let (parsed, types) = typed_table(table).ok()?;
    match kind {
        ListKind::Compiled => Some(list_bytes(&parsed, &types)),
        ListKind::Faithful => Some(faithful(rng, &parsed, &types)),
        ListKind::Unfaithful(change) => unfaithful::unfaithful(rng, table, change),
        ListKind::Fault(number) => {
            let fine = accepted(rng, table)?;
            Some(list_faults::faulty(rng, &fine, parsed.free().len(), number))
        }
    }
}

/// A list that is accepted: the compiler's own or another one.
pub fn accepted(rng: &mut Rng, table: &[u8]) -> Option<Vec<u8>> {
    let kind = rng.pick(&[ListKind::Compiled, ListKind::Faithful, ListKind::Faithful]);
    list(rng, table, kind)
}
