//! The developers' oracle: its words are in README.md and below.

use oracle::session::{PORTED, PORTED_UPDATE, TEXTBOOK, TEXTBOOK_UPDATE};
use oracle::step::{self, Answer};
use oracle::{
    calls, cases, damaged, decimals, edition_examples, edition_slips, editions, fit, formulas,
    geometry, leaves, legs, marked_editions, pivots, replay, roots, scripts, sessions, slips,
    smooth, special, standing, table, textbook_slips,
};
use std::cell::RefCell;
use std::env;
use std::io::{self, BufWriter, Read, Write};
use std::process::ExitCode;

const USAGE: &str = "\
usage: oracle leaves [--counts]    answer the calls on standard input, as program `leaves` does;
                                   --counts: and count the answers, on standard error
       oracle leaves --ops K       the same; call numbers above K are unknown
       oracle roots COUNT SEED     write an input of COUNT root calls
       oracle calls COUNT SEED     write an input of COUNT calls of operations 2 to 8
       oracle damaged COUNT SEED   write an input of COUNT root calls and one damaged call
       oracle formulas             answer the input of program `step`, by document 01's formulas
       oracle cases COUNT SEED     write a batch of COUNT inputs of program `step`
       oracle pivots COUNT SEED    the same: one in three is a Dogleg with a pivot near the bound
       oracle pivot-calls COUNT SEED
                                   write an input of COUNT inverses with a pivot near the bound
       oracle batch [--counts]     answer such a batch, by argmin's own code where that is built
                                   in, else by the formulas; --counts: and count the answers, on
                                   standard error
       oracle session SEED         write an input of program `replay`
       oracle fit-example          write the example of program `replay`
       oracle standing CHOICE      write the fit that stood on its start, for program `replay`: by the
                                   ported dogleg (1) or the second one (2)
       oracle edition-example EDITION
                                   write a fit whose Hessian is right from the start, for program `replay`: under
                                   edition 1 every answer is refused, under edition 2 it arrives
       oracle zero-step EDITION    the same of the ported dogleg's zero step
       oracle replay               answer an input of it, by argmin's own code where that is built
                                   in, else by the formulas
       oracle scripts COUNT SEED [KIND]
                                   write an input of program `replays` of COUNT scripts; KIND: of
                                   this kind (1 to 4), else of kinds 1 and 2
       oracle smooth COUNT SEED KIND
                                   the same: fits of smooth functions, some dozen trials each
       oracle smooth COUNT SEED 4 EDITION
                                   the same: they name their edition
       oracle special              the same: marked sessions that chance would hardly make
       oracle editions COUNT SEED EDITION
                                   the same: sessions of kind 4 at the borders of both editions' tests
       oracle edition-borders COUNT SEED EDITION
                                   tell how many answers of these lie on each border
       oracle special-editions     the same: marked sessions of request Seven
       oracle edition-slips COUNT SEED
                                   tell how many scripts each wrong program about the editions answers
                                   wrongly
       oracle textbook COUNT SEED  the same: single proposals of the second dogleg, on every leg and border
       oracle textbook-legs COUNT SEED
                                   tell how many of these lie on each leg
       oracle textbook-slips COUNT SEED
                                   tell how many scripts each wrong program about the second dogleg
                                   answers wrongly
       oracle geometry COUNT SEED  tell how far the second dogleg is from the textbook's, by wide numbers
       oracle replay --many [--counts]
                                   answer it; --counts: and count the lines, on standard error
       oracle difference FILE      the first script of the input whose lines are not those in FILE
       oracle table                an input of program `replay` as the table of `replay_table`
       oracle decimals COUNT SEED  write an input of program `decimals`: COUNT numbers
       oracle decimal              answer it, by Rust's own shortest digits
       oracle pick NUMBER          write case NUMBER (from 0) of the batch on standard input
       oracle slips COUNT SEED     tell how many of COUNT cases each wrong program answers wrongly
with argmin's own code built in (README.md):
       oracle step                 answer the input of program `step`, by argmin's own code
       oracle agree COUNT SEED     compare argmin's own code with the formulas on COUNT cases
       oracle agree-sessions COUNT SEED
                                   the same on the sessions of the seeds from SEED on
";

/// Sessions by the best that is there.
#[cfg(feature = "argmin")]
const ENGINE: oracle::argmin_sessions::Argmin = oracle::argmin_sessions::Argmin;
#[cfg(not(feature = "argmin"))]
const ENGINE: oracle::session::Formulas = oracle::session::Formulas;

fn main() -> ExitCode {
    let words: Vec<String> = env::args().skip(1).collect();
    let words: Vec<&str> = words.iter().map(String::as_str).collect();
    let done = match words[..] {
        ["leaves"] => answer_leaves(leaves::OPERATIONS, false),
        ["leaves", "--counts"] => answer_leaves(leaves::OPERATIONS, true),
        ["leaves", "--ops", k] => match k.parse() {
            Ok(k) if k <= leaves::OPERATIONS => answer_leaves(k, false),
            _ => return usage(),
        },
        ["formulas"] => answer_one(|input| step::answer(input, formulas::solve)),
        ["pick", number] => match number.parse() {
            Ok(number) => pick(number),
            Err(_) => return usage(),
        },
        ["session", seed] => match seed.parse() {
            Ok(seed) => write_all(&sessions::input(seed)),
            Err(_) => return usage(),
        },
        ["fit-example"] => write_all(&fit::input()),
        ["standing", choice] => match choice.parse() {
            Ok(choice @ (PORTED | TEXTBOOK)) => write_all(&standing::input(choice)),
            _ => return usage(),
        },
        ["edition-example", edition] => match edition.parse() {
            Ok(edition @ (PORTED_UPDATE | TEXTBOOK_UPDATE)) => {
                write_all(&edition_examples::exact(edition))
            }
            _ => return usage(),
        },
        ["zero-step", edition] => match edition.parse() {
            Ok(edition @ (PORTED_UPDATE | TEXTBOOK_UPDATE)) => {
                write_all(&edition_examples::zero_step(edition))
            }
            _ => return usage(),
        },
        ["replay"] => answer_replay(),
        ["replay", "--many"] => answer_scripts(false),
        ["replay", "--many", "--counts"] => answer_scripts(true),
        ["smooth", count, seed, kind] => match (count.parse(), seed.parse(), kind.parse()) {
            (Ok(count), Ok(seed), Ok(kind @ 1..=4)) => write_all(&smooth::input(count, seed, kind)),
            _ => return usage(),
        },
        ["smooth", count, seed, "4", edition] => {
            match (count.parse(), seed.parse(), edition.parse()) {
                (Ok(count), Ok(seed), Ok(edition @ (PORTED_UPDATE | TEXTBOOK_UPDATE))) => {
                    write_all(&smooth::of_edition(count, seed, edition))
                }
                _ => return usage(),
            }
        }
        ["special"] => write_all(&special::input()),
        ["special-editions"] => write_all(&marked_editions::input()),
        ["editions", count, seed, edition] => {
            match (count.parse(), seed.parse(), edition.parse()) {
                (Ok(count), Ok(seed), Ok(edition @ (PORTED_UPDATE | TEXTBOOK_UPDATE))) => {
                    write_all(&editions::input(count, seed, edition))
                }
                _ => return usage(),
            }
        }
        ["edition-borders", count, seed, edition] => {
            match (count.parse(), seed.parse(), edition.parse()) {
                (Ok(count), Ok(seed), Ok(edition @ (PORTED_UPDATE | TEXTBOOK_UPDATE))) => {
                    editions::report(count, seed, edition, &mut io::stdout())
                }
                _ => return usage(),
            }
        }
        ["difference", file] => difference(file),
        ["scripts", count, seed, kind] => match (count.parse(), seed.parse(), kind.parse()) {
            (Ok(count), Ok(seed), Ok(kind @ 1..=4)) => {
                write_all(&scripts::input(count, seed, Some(kind)))
            }
            _ => return usage(),
        },
        ["decimal"] => answer_decimal(),
        ["table"] => answer_table(),
        ["batch"] => answer_batch(false),
        ["batch", "--counts"] => answer_batch(true),
        #[cfg(feature = "argmin")]
        ["step"] => answer_one(best),
        [word, count, seed] => {
            let (Ok(count), Ok(seed)) = (count.parse(), seed.parse()) else {
                return usage();
            };
            match word {
                "roots" => write_all(&roots::input(count, seed)),
                "calls" => write_all(&calls::input(count, seed)),
                "decimals" => write_all(&decimals::input(count, seed)),
                "damaged" => write_all(&damaged::input(count, seed)),
                "cases" => write_all(&cases::input(count, seed)),
                "pivots" => write_all(&pivots::input(count, seed)),
                "pivot-calls" => write_all(&pivots::calls(count, seed)),
                "scripts" => write_all(&scripts::input(count, seed, None)),
                "textbook" => write_all(&legs::input(count, seed)),
                "geometry" => geometry::report(count, seed, &mut io::stdout()),
                "textbook-slips" => textbook_slips::report(count, seed, &mut io::stdout()),
                "edition-slips" => edition_slips::report(count, seed, &mut io::stdout()),
                "textbook-legs" => legs::report(count, seed, &mut io::stdout()),
                "slips" => slips::report(count, seed, &mut io::stdout()),
                #[cfg(feature = "argmin")]
                "agree" => all_agree(oracle::agree::report(count, seed, &mut io::stdout())),
                #[cfg(feature = "argmin")]
                "agree-sessions" => {
                    let agree = oracle::agree::report_sessions(count, seed, &mut io::stdout());
                    all_agree(agree)
                }
                _ => return usage(),
            }
        }
        _ => return usage(),
    };
    match done {
        Ok(()) => ExitCode::SUCCESS,
        Err(error) => {
            eprintln!("oracle: {error}");
            ExitCode::FAILURE
        }
    }
}

fn usage() -> ExitCode {
    eprint!("{USAGE}");
    ExitCode::from(2)
}

fn write_all(bytes: &[u8]) -> io::Result<()> {
    io::stdout().write_all(bytes)
}

fn standard_input() -> io::Result<Vec<u8>> {
    let mut input = Vec::new();
    io::stdin().lock().read_to_end(&mut input)?;
    Ok(input)
}

fn answer_leaves(operations: u64, counts: bool) -> io::Result<()> {
    let input = standard_input()?;
    let mut out = BufWriter::new(io::stdout().lock());
    let tally = leaves::answer(&input, operations, &mut out)?;
    out.flush()?;
    if counts {
        tally.write(&mut io::stderr())?;
    }
    Ok(())
}

fn answer_one(answer: impl Fn(&[u8]) -> Answer) -> io::Result<()> {
    answer(&standard_input()?).write(&mut io::stdout())
}

fn pick(number: usize) -> io::Result<()> {
    let input = standard_input()?;
    let mut rest = &input[..];
    let mut cases = std::iter::from_fn(|| {
        let (case, after) = step::split_case(rest)?;
        rest = after;
        Some(case)
    });
    match cases.nth(number) {
        Some(case) => write_all(case),
        None => Err(io::Error::other("the batch has no such case")),
    }
}

fn answer_decimal() -> io::Result<()> {
    let input = standard_input()?;
    write_all(decimals::answer(&input).as_bytes())
}

fn answer_replay() -> io::Result<()> {
    let input = standard_input()?;
    let mut out = BufWriter::new(io::stdout().lock());
    replay::answer(&input, &ENGINE, &mut out)?;
    out.flush()
}

fn answer_table() -> io::Result<()> {
    let input = standard_input()?;
    let mut out = BufWriter::new(io::stdout().lock());
    table::answer(&input, &ENGINE, &mut out)?;
    out.flush()
}

fn answer_scripts(counts: bool) -> io::Result<()> {
    let input = standard_input()?;
    let mut out = BufWriter::new(io::stdout().lock());
    let tally = scripts::answer(&input, &ENGINE, &mut out)?;
    out.flush()?;
    if counts {
        tally.write(&mut io::stderr())?;
    }
    Ok(())
}

fn difference(file: &str) -> io::Result<()> {
    let other = std::fs::read(file)?;
    scripts::difference(&standard_input()?, &other, &ENGINE, &mut io::stdout())
}

#[cfg(feature = "argmin")]
fn all_agree(agree: io::Result<bool>) -> io::Result<()> {
    match agree? {
        true => Ok(()),
        false => Err(io::Error::other("argmin and the formulas differ")),
    }
}

/// Program `step` by the best that is there.
#[cfg(feature = "argmin")]
fn best(input: &[u8]) -> Answer {
    step::answer(input, oracle::argmin_kernels::solve)
}

#[cfg(not(feature = "argmin"))]
fn best(input: &[u8]) -> Answer {
    step::answer(input, formulas::solve)
}

fn answer_batch(counts: bool) -> io::Result<()> {
    let input = standard_input()?;
    let mut out = BufWriter::new(io::stdout().lock());
    let tally = RefCell::new(step::tally());
    let answer = |case: &[u8]| {
        let answer = best(case);
        step::count(&mut tally.borrow_mut(), case, &answer);
        answer
    };
    step::batch(&input, answer, &mut out)?;
    out.flush()?;
    if counts {
        tally.borrow().write(&mut io::stderr())?;
    }
    Ok(())
}
