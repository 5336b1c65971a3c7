//! Wrong sessions: each call with one slip about the count put in around it. They show that the
//! scripts of `special`, and those of `scripts`, tell each slip apart from what request Five says.

use crate::replay::{self, Call};
use crate::scripts;
use crate::session::{Formulas, Station};
use crate::special;

macro_rules! slips {
    ($($name:ident: $text:literal,)*) => {
        #[derive(Clone, Copy, Debug, PartialEq, Eq)]
        enum Slip {
            $($name,)*
        }

        /// Each slip and what it is.
        const SLIPS: &[(Slip, &str)] = &[$((Slip::$name, $text)),*];
    };
}

slips! {
    Nothing: "no slip (must be 0)",
    DerivativesLeave: "derivatives leave the count",
    AcceptedLeaves: "an accepted cost leaves it",
    RejectedLeaves: "a rejected cost leaves it",
    RatioRaises: "a ratio of NaN raises it, whatever the cost",
    RefusedResets: "a refused call sets it to 0",
    NineResets: "refusal 9 sets it to 0",
    OneRaises: "a NaN answer that is refused by 1 raises it",
    ThreeRaises: "a NaN answer that is refused by 3 raises it",
    FourRaises: "a NaN answer that is refused by 4 raises it",
    EightRaises: "a NaN answer that is refused by 8 raises it",
    Capped: "it is never above the allowance",
    PutResets: "call 4 sets it to 0",
    LowHalf: "the low half of a count alone",
    NineBeforeFour: "9 before 4",
    NineBeforeDone: "9 before done",
    NineBeforeFive: "9 before 5",
    NineBehindKernel: "9 behind 6, 7 and 8",
    NineEarly: "9 at one below the allowance",
    NineNever: "9 never",
    NineAbove: "9 for 2 in a proposal above the allowance",
    NineToAnswers: "9 to a NaN answer at the allowance",
    AboveInProposals: "the count looked at in proposals only",
    AboveBehindTurn: "3 before 2 above the allowance",
    AboveBeforeSize: "2 before 1 above the allowance",
}

use Slip::*;

/// A call as the right session takes it.
struct Taken {
    proposal: bool,
    /// A NaN answer.
    hidden: bool,
    /// The session before.
    before: Station,
    said: String,
    /// The session afterwards, and what it says, had the count been 0 before.
    free: Station,
    free_said: String,
}

impl Taken {
    fn new(station: &mut Station, call: &Call) -> Taken {
        let before = station.clone();
        let mut free = Station {
            count: 0,
            ..before.clone()
        };
        Taken {
            proposal: matches!(call, Call::Propose(_)),
            hidden: matches!(call, Call::Cost(_, cost, _) if cost.is_nan()),
            before,
            free_said: said(&mut free, call),
            free,
            said: said(station, call),
        }
    }

    fn allowance(&self) -> u64 {
        self.before.settings.allowance
    }

    fn is_at(&self) -> bool {
        self.before.count == self.allowance()
    }

    fn is_above(&self) -> bool {
        self.before.count > self.allowance()
    }

    fn refused(&self) -> Option<u8> {
        refusal(&self.said)
    }

    /// A proposal that the kernel would make or refuse, if the count did not stop it.
    fn reaches_kernel(&self) -> bool {
        self.proposal
            && (self.free_said.starts_with("proposed") || refusal(&self.free_said) > Some(5))
    }

    /// The number by which a session with this slip refuses it instead.
    fn refused_by(&self, slip: Slip) -> Option<u8> {
        let nine = match slip {
            NineBeforeFour => self.proposal && self.is_at() && self.refused() == Some(4),
            NineBeforeDone => self.is_at() && self.said == "done\n",
            NineBeforeFive => self.is_at() && self.refused() == Some(5),
            NineEarly => self.reaches_kernel() && self.before.count == self.allowance() - 1,
            NineAbove => self.reaches_kernel() && self.is_above(),
            NineToAnswers => self.hidden && self.is_at() && self.refused().is_none(),
            _ => false,
        };
        match slip {
            NineBehindKernel if self.refused() == Some(9) => refusal(&self.free_said),
            AboveInProposals if self.is_above() && !self.proposal => refusal(&self.free_said),
            AboveBehindTurn if self.is_above() => {
                refusal(&self.free_said).filter(|number| *number == 3)
            }
            AboveBeforeSize if self.is_above() && self.refused() == Some(1) => Some(2),
            _ => nine.then_some(9),
        }
    }

    /// The count afterwards, where such a session takes it although it is to be refused.
    fn taken_with(&self, slip: Slip) -> Option<u64> {
        let count = self.before.count;
        match slip {
            NineNever if self.refused() == Some(9) => Some(count),
            AboveInProposals if self.is_above() && !self.proposal && self.refused() == Some(2) => {
                Some(if self.hidden {
                    count.wrapping_add(1)
                } else {
                    0
                })
            }
            _ => None,
        }
    }

    /// The count that such a session has afterwards.
    fn counted(&self, slip: Slip, call: &Call, count: u64) -> u64 {
        let before = self.before.count;
        let leaves = match slip {
            DerivativesLeave => self.said == "taken\n",
            AcceptedLeaves => self.said.starts_with("accepted"),
            RejectedLeaves => self.said.starts_with("rejected") && !self.hidden,
            _ => false,
        };
        let raises = match slip {
            RatioRaises => self.said.starts_with("rejected 7ff8"),
            OneRaises => self.hidden && self.refused() == Some(1),
            ThreeRaises => self.hidden && self.refused() == Some(3),
            FourRaises => self.hidden && self.refused() == Some(4),
            EightRaises => self.hidden && self.refused() == Some(8),
            _ => false,
        };
        let resets = match slip {
            RefusedResets => self.refused().is_some(),
            NineResets => self.refused() == Some(9),
            PutResets => matches!(call, Call::Put(..)),
            _ => false,
        };
        match (slip, call) {
            (Capped, Call::Cost(..)) => count.min(self.allowance().max(before)),
            (LowHalf, Call::Count(count)) => count & u64::from(u32::MAX),
            _ if leaves => before,
            _ if raises => before.wrapping_add(1),
            _ if resets => 0,
            _ => count,
        }
    }
}

/// What the right session says to a call.
fn said(station: &mut Station, call: &Call) -> String {
    let mut lines = Vec::new();
    replay::run(station, call.clone(), &Formulas, &mut lines).unwrap();
    String::from_utf8(lines).unwrap()
}

/// The number of a refusal.
fn refusal(said: &str) -> Option<u8> {
    said.strip_prefix("refused ")?.trim_end().parse().ok()
}

/// A call to the session with this slip.
fn wrong(slip: Slip, station: &mut Station, call: &Call) -> String {
    let taken = Taken::new(station, call);
    if let Some(number) = taken.refused_by(slip) {
        *station = taken.before;
        return format!("refused {number}\n");
    }
    if let Some(count) = taken.taken_with(slip) {
        *station = Station {
            count,
            ..taken.free
        };
        return taken.free_said;
    }
    station.count = taken.counted(slip, call, station.count);
    taken.said
}

/// For each slip the scripts of an input that it answers otherwise.
fn told_apart(input: &[u8]) -> Vec<u64> {
    let mut counts = vec![0; SLIPS.len()];
    let mut left = input;
    while let Some((script, rest)) = scripts::split(left) {
        let mut right = Vec::new();
        replay::answer(script, &Formulas, &mut right).unwrap();
        for (counted, &(slip, _)) in counts.iter_mut().zip(SLIPS) {
            let mut lines = Vec::new();
            let run = |station: &mut Station, call: Call, out: &mut Vec<u8>| {
                out.extend(wrong(slip, station, &call).into_bytes());
                Ok(())
            };
            replay::answer_by(run, script, &mut lines).unwrap();
            *counted += u64::from(lines != right);
        }
        left = rest;
    }
    counts
}

/// By the marked scripts alone, and by random ones alone.
#[test]
fn every_slip_is_told_apart() {
    let random = [3, 4]
        .map(|kind| scripts::input(600, 1, Some(kind)))
        .concat();
    for (name, input) in [("special", special::input()), ("scripts", random)] {
        for (&(slip, text), counted) in SLIPS.iter().zip(told_apart(&input)) {
            assert_eq!(counted > 0, slip != Nothing, "{name}: {text}");
        }
    }
}
