use std::fmt;

use crate::Element;

/// Why a call was refused: a variant for each number of document 01's table. The table can grow, so a `match` has a last
/// arm for the rest.
///
/// ```
/// use legrudda::{layout, Error};
///
/// let error = layout::plan(11, 0, &[1, 0, 0]).unwrap_err();
/// assert_eq!(error, Error::LimitExceeded);
/// assert_eq!(error.to_string(), "refused as 1: a limit is exceeded, or a flag is over 1");
/// ```
#[derive(Clone, Copy, Debug, PartialEq, Eq)]
#[non_exhaustive]
pub enum Error {
    /// 1: l_skip, n_stack, the number of matrices (4,096 in a commitment, one in each after the first of a run) or of
    /// commitments is above its limit, or a flag is over 1.
    LimitExceeded,
    /// 2: a commitment has over 4,096 columns.
    TooManyColumns,
    /// 3: a trace height has not exactly one bit set.
    HeightNotOneBit,
    /// 4: a column is higher than a stack column.
    LayoutHeightExceeded,
    /// 5: a column does not fit below the last one in its stack column.
    LayoutRowOverflow,
    /// 6: log heights rise, though all fits.
    HeightsRise,
    /// 7: a commitment has no column, in stacking, a run or a verdict.
    NoColumn,
    /// 8: a run's call came out of turn.
    OutOfTurn,
    /// 9: a slice has another length than the one asked for.
    WrongLength,
    /// 10: a word is not below p.
    NotCanonical,
    /// 11: there is no such matrix or column, or the matrix to be viewed has width 0.
    NoSuchColumn,
    /// 12: the prover's u_0 lies in the skip subgroup. No call gives it since version 0.5, in which every u_0 is taken; the variant
    /// stays, so that a `match` over all of them still builds.
    InSkipSubgroup,
    /// 13: the claims are not the first polynomial's.
    S0Mismatch {
        /// The weighted claims: the sum of the claims times their lambda powers.
        s_0: Element,
        /// The first polynomial's sum over the skip subgroup.
        s_0_sum_eval: Element,
    },
    /// 14: the openings are not those of the claim that the rounds carried.
    FinalSumMismatch {
        /// The claim carried through all challenges.
        claim: Element,
        /// The sum that the openings give.
        final_sum: Element,
    },
    /// Another number: the linked library has a longer table than this crate.
    Unknown(u32),
}

impl Error {
    /// The number in document 01's table, 1 to 14, or the one that is unknown.
    ///
    /// ```
    /// use legrudda::Error;
    ///
    /// assert_eq!(Error::NotCanonical.number(), 10);
    /// ```
    pub fn number(&self) -> u32 {
        match self {
            Error::LimitExceeded => 1,
            Error::TooManyColumns => 2,
            Error::HeightNotOneBit => 3,
            Error::LayoutHeightExceeded => 4,
            Error::LayoutRowOverflow => 5,
            Error::HeightsRise => 6,
            Error::NoColumn => 7,
            Error::OutOfTurn => 8,
            Error::WrongLength => 9,
            Error::NotCanonical => 10,
            Error::NoSuchColumn => 11,
            Error::InSkipSubgroup => 12,
            Error::S0Mismatch { .. } => 13,
            Error::FinalSumMismatch { .. } => 14,
            Error::Unknown(number) => *number,
        }
    }

    /// What a number of the library's answers, 0 for done; only a verdict has sides.
    pub(crate) fn check(number: u32, left: Element, right: Element) -> Result<(), Error> {
        Err(match number {
            0 => return Ok(()),
            1 => Error::LimitExceeded,
            2 => Error::TooManyColumns,
            3 => Error::HeightNotOneBit,
            4 => Error::LayoutHeightExceeded,
            5 => Error::LayoutRowOverflow,
            6 => Error::HeightsRise,
            7 => Error::NoColumn,
            8 => Error::OutOfTurn,
            9 => Error::WrongLength,
            10 => Error::NotCanonical,
            11 => Error::NoSuchColumn,
            12 => Error::InSkipSubgroup,
            13 => Error::S0Mismatch {
                s_0: left,
                s_0_sum_eval: right,
            },
            14 => Error::FinalSumMismatch {
                claim: left,
                final_sum: right,
            },
            unknown => Error::Unknown(unknown),
        })
    }

    /// The same where there are no sides.
    pub(crate) fn check_number(number: u32) -> Result<(), Error> {
        Error::check(number, Element::ZERO, Element::ZERO)
    }
}

impl fmt::Display for Error {
    fn fmt(&self, f: &mut fmt::Formatter<'_>) -> fmt::Result {
        write!(f, "refused as {}: ", self.number())?;
        f.write_str(match self {
            Error::LimitExceeded => "a limit is exceeded, or a flag is over 1",
            Error::TooManyColumns => "over 4,096 columns in a commitment",
            Error::HeightNotOneBit => "a height that has not exactly one bit set",
            Error::LayoutHeightExceeded => "a column higher than a stack column",
            Error::LayoutRowOverflow => "a column that does not fit in its stack column",
            Error::HeightsRise => "log heights that rise",
            Error::NoColumn => "a commitment of no column",
            Error::OutOfTurn => "a call out of turn",
            Error::WrongLength => "a slice of another length",
            Error::NotCanonical => "a word that is not below p",
            Error::NoSuchColumn => "no such matrix or column",
            Error::InSkipSubgroup => "a u_0 in the skip subgroup",
            Error::S0Mismatch { s_0, s_0_sum_eval } => {
                let (left, right) = (s_0.words, s_0_sum_eval.words);
                return write!(
                    f,
                    "weighted claims {left:?}, but the first polynomial's sum is {right:?}"
                );
            }
            Error::FinalSumMismatch { claim, final_sum } => {
                let (left, right) = (claim.words, final_sum.words);
                return write!(f, "claim {left:?}, but the openings' sum is {right:?}");
            }
            Error::Unknown(_) => "a number that this version of the client does not know",
        })
    }
}

impl std::error::Error for Error {}

#[cfg(test)]
mod tests {
    use super::*;

    /// 0 is done, each number has its variant, and those past the table are kept.
    #[test]
    fn every_number_is_an_answer() {
        assert_eq!(Error::check_number(0), Ok(()));
        for number in (1..40).chain([u32::MAX]) {
            let error = Error::check_number(number).unwrap_err();
            assert_eq!(error.number(), number);
            assert_eq!(matches!(error, Error::Unknown(_)), number > 14);
            let text = error.to_string();
            assert!(
                text.starts_with(&format!("refused as {number}: ")),
                "{text}"
            );
        }
    }
}
