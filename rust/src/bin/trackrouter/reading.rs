//! Read, Record and Check.

use crate::options::Options;
use crate::refusal::{number_of, refused, Asked};
use crate::verb::Role;
use crate::{input, print, Outcome, Status};
use trackrouter::lines::Missing;
use trackrouter::Refusal;

pub fn read(options: &Options) -> Outcome {
    let sheet = input::sheet(options)?;
    let counts = trackrouter::read(&sheet.bytes);
    let number = number_of(&counts);
    let (nets, entries) = counts.map_or((0, 0), |counts| (counts.nets, counts.entries));
    let line = format!("answer {number} nets {nets} entries {entries}\n");
    print::to_stdout(line.as_bytes())?;
    Ok(status(counts))
}

pub fn record(options: &Options) -> Outcome {
    let place = options.number("PLACE", "from 0 on", options.needed(Role::Place)?)?;
    let sheet = input::sheet(options)?.bytes;
    let part = trackrouter::record(&sheet, place);
    let offset = part.as_ptr() as usize - sheet.as_ptr() as usize;
    let length = part.len();
    print::to_stdout(format!("offset {offset} length {length}\n").as_bytes())?;
    if length > 0 {
        return Ok(Status::Success);
    }
    match trackrouter::read(&sheet) {
        Err(refusal) => Ok(refused(refusal.number, Asked::Plain)),
        Ok(counts) => {
            print::say(&format!(
                "there is no record at place {place}: the sheet has {} nets, from place 0 on",
                counts.nets
            ));
            Ok(Status::Refused)
        }
    }
}

pub fn check(options: &Options) -> Outcome {
    let sheet = input::sheet(options)?.bytes;
    let dead = input::dead(options)?;
    let ticket = input::ticket(options)?.for_call(&sheet, Missing::Wrong)?;
    let checked = trackrouter::check(&sheet, &dead, &ticket);
    print::to_stdout(format!("answer {}\n", number_of(&checked)).as_bytes())?;
    Ok(status(checked))
}

/// Says the refusal, if it is one.
fn status<T>(answer: Result<T, Refusal>) -> Status {
    match answer {
        Ok(_) => Status::Success,
        Err(refusal) => refused(refusal.number, Asked::Plain),
    }
}
