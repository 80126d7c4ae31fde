//! `compile [TABLE] [-o FILE]`: the list of a role table.

use crate::asked::Asked;
use crate::input::Source;
use crate::output::{keep_apart, refuse, Place};
use crate::{Outcome, Status};

pub fn compile(asked: &Asked) -> Outcome {
    let source = Source::of(asked.names.first().map(|name| name.as_os_str()));
    let place = Place::of(asked.value("-o"))?;
    keep_apart(&[&source], &place.targets())?;
    let table = source.read_table()?;
    match mirvashol::compile(&table) {
        Ok(list) => place.put(&list, Status::Fine),
        Err(refusal) => {
            refuse(&refusal, &table, None, None, asked.quiet())?;
            Ok(Status::Refused)
        }
    }
}
