//! The month's sheet: totals over finished runs. Written from document 02, Q-12. Its numbers are wider than any total, so that a sum is taken
//! first and held to the limit after.

use crate::rules::*;

/// "20 if any total would pass 18,446,744,073,709,551,615".
pub const MOST: u128 = 18_446_744_073_709_551_615;

/// The endings that a run has, in the header file's order. 6 and 13 are none: nothing was sent.
pub const ENDINGS: [u8; 8] =
    [SUCCESS, BAD_HEADER, NO_ROOM, ATTEMPTS_USED_UP, WITHDRAWN, NOTHING, BROKE_ITS_WORD, OUT_OF_REACH];

/// What a sheet counts of a run that has ended.
#[derive(Clone, Copy, Debug, PartialEq, Eq)]
pub struct Finished {
    pub ending: u8,
    pub blocks: u64,
    pub commands: u64,
    pub failed: u64,
}

#[derive(Clone, Debug, Default, PartialEq, Eq)]
pub struct Sheet {
    pub runs: [u128; 8],
    pub blocks: u128,
    pub commands: u128,
    pub failed: u128,
}

impl Sheet {
    /// "Runs by ending, blocks kept, commands sent, failed attempts".
    pub fn totals(&self) -> Vec<u128> {
        self.runs.into_iter().chain([self.blocks, self.commands, self.failed]).collect()
    }

    pub fn of_totals(totals: &[u128]) -> Sheet {
        let mut runs = [0; 8];
        runs.copy_from_slice(&totals[..8]);
        Sheet { runs, blocks: totals[8], commands: totals[9], failed: totals[10] }
    }

    pub fn good_runs(&self) -> u128 {
        self.runs[0]
    }

    /// Whether there are runs with these totals: blocks are kept by good runs alone, and without a run nothing was sent and nothing failed.
    pub fn has_runs(&self) -> bool {
        let any_run = self.runs.iter().any(|runs| *runs > 0);
        (self.blocks == 0 || self.good_runs() > 0) && (self.commands == 0 || any_run) && (self.failed == 0 || any_run)
    }

    /// "13 for an ending that no run has, or for blocks kept with an ending other than 0; then 20 [..]; nothing is entered then."
    pub fn enter(&mut self, run: Finished) -> u8 {
        let Some(place) = ENDINGS.iter().position(|ending| *ending == run.ending) else {
            return BAD_SETUP;
        };
        if run.blocks > 0 && run.ending != SUCCESS {
            return BAD_SETUP;
        }
        let mut one = Sheet::default();
        one.runs[place] = 1;
        one.blocks = run.blocks.into();
        one.commands = run.commands.into();
        one.failed = run.failed.into();
        self.add(&one)
    }

    /// The runs of another sheet too.
    pub fn add(&mut self, other: &Sheet) -> u8 {
        let sums: Vec<u128> = self.totals().iter().zip(other.totals()).map(|(one, other)| one + other).collect();
        if sums.iter().any(|sum| *sum > MOST) {
            return TOTAL_FULL;
        }
        *self = Sheet::of_totals(&sums);
        SUCCESS
    }

    /// "The mean blocks a good run, as a whole part and a remainder". "A month with no good run has no mean".
    pub fn mean(&self) -> Option<(u128, u128)> {
        let good = self.good_runs();
        (good > 0).then(|| (self.blocks / good, self.blocks % good))
    }
}
