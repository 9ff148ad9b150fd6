//! The three numbers each operation answers, and the table of refusals (SPECIFICATION 7.2).

/// The number (0 on success), the count and the detail of an answer.
#[derive(Debug, Clone, Copy, PartialEq, Eq)]
pub struct Answer {
    pub number: usize,
    pub count: usize,
    pub detail: usize,
}

/// The trade's word: overlong.
pub const TEXT_TOO_LONG: usize = 1;
/// The trade's word: form.
pub const SYNTAX_ERROR: usize = 2;
/// The trade's word: crowded.
pub const OVER_A_LIMIT: usize = 3;
/// The trade's word: twice.
pub const DUPLICATE_DECLARATION: usize = 4;
/// The trade's word: unknown.
pub const UNDECLARED_NAME: usize = 5;
/// The trade's word: torn.
pub const MALFORMED_BLOCK: usize = 6;
/// The trade's word: setting.
pub const BAD_SETTING: usize = 7;
/// The trade's word: swollen.
pub const TOO_MANY_COPIES: usize = 8;
/// The trade's word: undecided.
pub const NOT_SETTLED: usize = 9;
/// The trade's word: looped.
pub const NOT_STRAIGHT: usize = 10;
/// The trade's word: short.
pub const NO_ROOM: usize = 11;
/// The trade's word: strangers.
pub const INTERFACE_MISMATCH: usize = 12;
/// The trade's word: order.
pub const NOT_A_PERMUTATION: usize = 13;

impl Answer {
    /// Success, with a count.
    pub fn success(count: usize) -> Answer {
        Answer {
            number: 0,
            count,
            detail: 0,
        }
    }

    /// A refusal, with a detail (0 where none is stated).
    pub fn refusal(number: usize, detail: usize) -> Answer {
        Answer {
            number,
            count: 0,
            detail,
        }
    }
}

impl From<unloop::raw::Reply> for Answer {
    fn from(reply: unloop::raw::Reply) -> Answer {
        Answer {
            number: reply.number,
            count: reply.count,
            detail: reply.detail,
        }
    }
}

/// A count and a result, or the answer that refuses.
pub(crate) type Outcome<T> = Result<(usize, Vec<T>), Answer>;

/// Refuses with `number` and no detail where `bad` holds.
pub(crate) fn refuse_if(bad: bool, number: usize) -> Result<(), Answer> {
    match bad {
        true => Err(Answer::refusal(number, 0)),
        false => Ok(()),
    }
}

/// The answer and the result; the result is empty where the operation refuses.
pub(crate) fn told<T>(outcome: Outcome<T>, room: usize) -> (Answer, Vec<T>) {
    match outcome {
        Ok((_, result)) if result.len() > room => (Answer::refusal(NO_ROOM, 0), Vec::new()),
        Ok((count, result)) => (Answer::success(count), result),
        Err(refusal) => (refusal, Vec::new()),
    }
}
