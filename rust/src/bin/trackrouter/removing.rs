//! Remove.

use crate::options::Options;
use crate::refusal::{number_of, refused, Asked};
use crate::routing::deliver;
use crate::verb::Role;
use crate::{input, print, Outcome};
use trackrouter::lines::{write_placed, Missing};
use trackrouter::MAX_ENTRIES;

pub fn remove(options: &Options) -> Outcome {
    let net = options.needed(Role::Net)?;
    let net = options.number("NET", "from 0 to 4294967295", net)?;
    let sheet = input::sheet(options)?.bytes;
    let ticket = input::ticket(options)?.for_call(&sheet, Missing::Unplaced)?;
    let mut out = [0; MAX_ENTRIES];
    let removed = trackrouter::remove(&sheet, &ticket, net, &mut out);
    let line = format!("answer {}\n", number_of(&removed));
    match removed {
        Ok(left) => deliver(options, line, &sheet, left, write_placed),
        Err(refusal) => {
            print::to_stdout(line.as_bytes())?;
            Ok(refused(refusal.number, Asked::Old))
        }
    }
}
