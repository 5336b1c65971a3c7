//! argmin's files against the text of document 01, without any Rattle: the same cases for both.

use crate::argmin_sessions::Argmin;
use crate::cases::Cases;
use crate::session::Formulas;
use crate::step::{self, Answer};
use crate::{argmin_kernels, formulas, replay, sessions};
use std::collections::BTreeMap;
use std::io::{self, Write};

/// So many differences are shown whole.
const SHOWN: u64 = 20;

/// Compares the answers to `count` cases and writes differences and counts. True if there are none.
pub fn report(count: u64, seed: u64, out: &mut impl Write) -> io::Result<bool> {
    let mut tally = step::tally();
    let mut differing = 0;
    for (number, case) in Cases::new(seed).take(count as usize).enumerate() {
        let by_argmin = step::answer(&case, argmin_kernels::solve);
        let by_formulas = step::answer(&case, formulas::solve);
        step::count(&mut tally, &case, &by_argmin);
        if !by_argmin.same(&by_formulas) {
            differing += 1;
            if differing <= SHOWN {
                writeln!(out, "case {number} differs; its words are")?;
                show(&case, &by_argmin, &by_formulas, out)?;
            }
        }
    }
    tally.write(out)?;
    writeln!(out, "{count} cases, {differing} differ")?;
    Ok(differing == 0)
}

fn show(case: &[u8], argmin: &Answer, formulas: &Answer, out: &mut impl Write) -> io::Result<()> {
    for chunk in case.chunks(8) {
        let mut word = [0; 8];
        word[..chunk.len()].copy_from_slice(chunk);
        writeln!(out, "  {:016x}", u64::from_le_bytes(word))?;
    }
    writeln!(out, "argmin:")?;
    argmin.write(out)?;
    writeln!(out, "formulas:")?;
    formulas.write(out)
}

/// The same for the sessions of `count` seeds from `seed` on, two for each: of kinds 1 and 2 and of
/// kinds 3 and 4. Counts lines by kind and first word.
pub fn report_sessions(count: u64, seed: u64, out: &mut impl Write) -> io::Result<bool> {
    let mut lines: BTreeMap<(String, String), u64> = BTreeMap::new();
    let mut differing = 0;
    let seeds = (seed..).take(count as usize);
    let inputs = seeds.flat_map(|seed| {
        let both = [sessions::input(seed), sessions::hidden(seed)];
        both.map(|input| (seed, input))
    });
    for (seed, input) in inputs {
        let (mut by_argmin, mut by_formulas) = (Vec::new(), Vec::new());
        replay::answer(&input, &Argmin, &mut by_argmin)?;
        replay::answer(&input, &Formulas, &mut by_formulas)?;
        let kind = match input.first() {
            Some(1) => "TrustRegion",
            Some(2) => "SR1TrustRegion",
            Some(3) => "TrustRegion,NaN",
            Some(4) => "SR1TrustRegion,NaN",
            _ => "no kind",
        };
        for line in String::from_utf8_lossy(&by_argmin).lines() {
            let words: Vec<&str> = line.split(' ').collect();
            let name = match words[..] {
                ["refused" | "end", ..] => words[..2].join(" "),
                ["bad", ..] => line.to_string(),
                _ => words[0].to_string(),
            };
            *lines.entry((kind.to_string(), name)).or_default() += 1;
        }
        if by_argmin != by_formulas {
            differing += 1;
            if differing <= SHOWN {
                writeln!(out, "session {seed} of {kind} differs")?;
            }
        }
    }
    for ((kind, name), counted) in lines {
        writeln!(out, "{counted:9}  {kind}: {name}")?;
    }
    writeln!(out, "{} sessions, {differing} differ", 2 * count)?;
    Ok(differing == 0)
}

#[cfg(test)]
mod tests {
    use super::*;
    use crate::session::{PORTED, PORTED_UPDATE, TEXTBOOK, TEXTBOOK_UPDATE};
    use crate::{edition_examples, editions, marked_editions, scripts, smooth, special, standing};

    #[test]
    fn argmin_and_document_agree() {
        let mut out = Vec::new();
        let agree = report(20_000, 2, &mut out).unwrap();
        assert!(agree, "{}", String::from_utf8(out).unwrap());
    }

    #[test]
    fn sessions_agree() {
        let mut out = Vec::new();
        let agree = report_sessions(3000, 1, &mut out).unwrap();
        assert!(agree, "{}", String::from_utf8(out).unwrap());
    }

    /// The fit that stood on its start stands by argmin's own code too.
    #[test]
    fn the_standing_fit_agrees() {
        for dogleg in [PORTED, TEXTBOOK] {
            let (mut by_argmin, mut by_formulas) = (Vec::new(), Vec::new());
            let input = standing::input(dogleg);
            replay::answer(&input, &Argmin, &mut by_argmin).unwrap();
            replay::answer(&input, &Formulas, &mut by_formulas).unwrap();
            assert!(by_argmin == by_formulas);
        }
    }

    /// Whether both write the same lines; and how many of SR1's answers argmin's own code judged, and at how many of these it did as
    /// the session's edition does.
    fn agreed(input: &[u8]) -> [u64; 2] {
        let (mut by_argmin, mut by_formulas) = (Vec::new(), Vec::new());
        let tally = scripts::answer(input, &Argmin, &mut by_argmin).unwrap();
        scripts::answer(input, &Formulas, &mut by_formulas).unwrap();
        assert!(by_argmin == by_formulas);
        let all = |row| (0..4).map(|kernel| tally.get(row, kernel)).sum::<u64>();
        let judged = all("updated") + all("skipped");
        [judged, judged - all("editions differ")]
    }

    #[test]
    fn marked_sessions_agree() {
        agreed(&special::input());
        agreed(&marked_editions::input());
    }

    /// Under edition 2 the Hessian is argmin's own often enough for this to say something.
    #[test]
    fn both_editions_agree() {
        for edition in [PORTED_UPDATE, TEXTBOOK_UPDATE] {
            let [judged, alike] = agreed(&editions::input(3000, 1, edition));
            assert!(judged > 3000 && alike > 1000, "{judged} {alike}");
            let [judged, alike] = agreed(&smooth::of_edition(300, 1, edition));
            assert!(judged > 1500 && alike > 1000, "{judged} {alike}");
            for example in [edition_examples::exact, edition_examples::zero_step] {
                let (mut by_argmin, mut by_formulas) = (Vec::new(), Vec::new());
                let input = example(edition);
                replay::answer(&input, &Argmin, &mut by_argmin).unwrap();
                replay::answer(&input, &Formulas, &mut by_formulas).unwrap();
                assert!(by_argmin == by_formulas);
            }
        }
    }
}
