//! The command line.

use crate::wrong::Wrong;

/// The calls of a whole run.
pub const CALLS: u64 = 510_000;

pub const USAGE: &str = "\
usage: crosscheck [--fixed] [--seed N] [--calls N] [--wrong CALL.FIELD] [--trace]
                  [--digest] [--old] [--programs]
  --fixed             only the fixed list of refusals
  --seed N            another seed for the run by chance
  --calls N           at least N calls; with fewer than 510000, and with
                      --fixed, a number that no call gave is no failure
  --wrong CALL.FIELD  make the model's answer wrong there, as in route.trials;
                      also back.output, explain.number, .of, .record,
                      .entry, .item, .offset, .row, form.output, .other, .pair,
                      .again, .counts, .answer, .tracks, .force, .list,
                      rows.sign, .shift, .order, .form, .number, .limit,
                      rim.straight, .search, .inner, .rows, .corner,
                      .end, .own, .list,
                      dead.check, .route, .least, .refit, .half, .beside,
                      .low, .width, .chip, .late, .load, .lost, .fixed,
                      .home, .skip, .list, .order, .above,
                      twin.read, .record, .check, .route, .least, .refit,
                      .remove, .standard, .tracks, .form, the same of wide,
                      mark.list, .relisted, bad.number,
                      long.trials, long.output, threads.number, .form,
                      .rows, .dead, .marks, coverage.number, .moved,
                      .unroutable, .removed, .form, .rows, .width, .rim, .dead,
                      .list, .mark, .edge, .halves, .twin, .length, and the
                      wrong programs of 02 M-106 (--programs lists them)
  --trace             print every call to standard error before it is made
  --digest            print a digest of the calls on sheets marked 57 48 of at
                      most 8600 bytes, which a library from before 02 M-106
                      gives too
  --programs          list the wrong programs of 02 M-106 for --wrong
  --old               ask the library on these sheets alone: the model answers
                      for it on all others";

#[derive(Clone, Debug)]
pub struct Options {
    pub fixed: bool,
    pub seed: u64,
    pub calls: u64,
    pub wrong: Option<Wrong>,
    pub trace: bool,
    pub digest: bool,
    pub old: bool,
    pub programs: bool,
}

impl Default for Options {
    fn default() -> Self {
        Options {
            fixed: false,
            seed: 1,
            calls: CALLS,
            wrong: None,
            trace: false,
            digest: false,
            old: false,
            programs: false,
        }
    }
}

impl Options {
    pub fn parse(arguments: impl Iterator<Item = String>) -> Result<Self, String> {
        let mut options = Options::default();
        let mut arguments = arguments;
        while let Some(argument) = arguments.next() {
            let mut value = || {
                let missing = || format!("{argument} needs a value");
                arguments.next().ok_or_else(missing)
            };
            match &*argument {
                "--fixed" => options.fixed = true,
                "--trace" => options.trace = true,
                "--digest" => options.digest = true,
                "--old" => options.old = true,
                "--programs" => options.programs = true,
                "--seed" => options.seed = number(&value()?)?,
                "--calls" => options.calls = number(&value()?)?,
                "--wrong" => options.wrong = Some(Wrong::parse(&value()?)?),
                _ => return Err(format!("no such option: {argument}")),
            }
        }
        Ok(options)
    }
}

fn number(text: &str) -> Result<u64, String> {
    text.parse().map_err(|_| format!("not a number: {text}"))
}
