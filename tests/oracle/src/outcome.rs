//! Answers of the calls ("Plan and report", "Who can cause a refusal").

/// A refusal: its number and two places.
#[derive(Clone, Copy, Debug, PartialEq, Eq)]
pub struct Refusal {
    pub number: u64,
    pub first: u64,
    pub second: u64,
}

impl Refusal {
    /// A refusal with one place; the second is 0.
    pub fn at(number: u64, place: usize) -> Refusal {
        Refusal::at_two(number, place, 0)
    }

    /// A refusal with two places.
    pub fn at_two(number: u64, first: usize, second: usize) -> Refusal {
        Refusal {
            number,
            first: first as u64,
            second: second as u64,
        }
    }
}

/// What a call answers: number 0 and the length written, or a refusal's three numbers.
#[derive(Clone, Copy, Debug, PartialEq, Eq)]
pub struct Outcome {
    pub number: u64,
    pub first: u64,
    pub second: u64,
}

impl Outcome {
    /// Success: number 0 and the length written.
    pub fn written(length: usize) -> Outcome {
        Outcome {
            number: 0,
            first: length as u64,
            second: 0,
        }
    }

    /// Outcome of a call that gives the length written or a refusal.
    pub fn of(result: Result<usize, Refusal>) -> Outcome {
        match result {
            Ok(length) => Outcome::written(length),
            Err(refusal) => Outcome {
                number: refusal.number,
                first: refusal.first,
                second: refusal.second,
            },
        }
    }
}
