//! A refusal: its number in the table of what is said no to, and its detail.

#[derive(Debug, Clone, Copy, PartialEq, Eq)]
pub struct Refusal {
    pub number: u8,
    pub detail: u64,
}

/// The refusal with this number and detail.
pub fn refusal(number: u8, detail: usize) -> Refusal {
    Refusal {
        number,
        detail: detail as u64,
    }
}

/// Refuses with this number and detail where the condition is met.
pub fn refuse_if(condition: bool, number: u8, detail: usize) -> Result<(), Refusal> {
    if condition {
        Err(refusal(number, detail))
    } else {
        Ok(())
    }
}
