//! `types [TABLE] [-o FILE]`: the widest type of each symbol, in words.

use crate::asked::Asked;
use crate::input::Source;
use crate::output::{keep_apart, refuse, Place};
use crate::{Outcome, Status};

pub fn types(asked: &Asked) -> Outcome {
    let source = Source::of(asked.names.first().map(|name| name.as_os_str()));
    let place = Place::of(asked.value("-o"))?;
    keep_apart(&[&source], &place.targets())?;
    let table = source.read_table()?;
    match mirvashol::types(&table) {
        Ok(types) => place.put(words::types(&table, &types).as_bytes(), Status::Fine),
        Err(refusal) => {
            refuse(&refusal, &table, None, None, asked.quiet())?;
            Ok(Status::Refused)
        }
    }
}
