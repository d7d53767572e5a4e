//! 01, "Answer numbers": the refusals.

/// 01, "Answer numbers": a refusal; position and fault are 0 where 01 names none.
#[derive(Debug, Clone, Copy, PartialEq, Eq)]
pub struct Refusal {
    pub number: u8,
    pub position: usize,
    pub fault: u8,
}

impl Refusal {
    pub(crate) const LENGTH: Refusal = Refusal::numbered(1);
    pub(crate) const VERSION: Refusal = Refusal::numbered(2);
    pub(crate) const MISSING_BYTE: Refusal = Refusal::numbered(3);
    pub(crate) const HEAD: Refusal = Refusal::numbered(4);
    pub(crate) const KIND: Refusal = Refusal::numbered(5);
    pub(crate) const LEFT_OVER: Refusal = Refusal::numbered(6);
    pub(crate) const TRANSITION: Refusal = Refusal::numbered(7);
    pub(crate) const TOO_MANY_ARGUMENTS: Refusal = Refusal::numbered(8);
    pub(crate) const TOO_MANY_STATES: Refusal = Refusal::numbered(11);
    pub(crate) const SHORT_OUTPUT: Refusal = Refusal::numbered(12);
    pub(crate) const NO_SUCH_STATE: Refusal = Refusal::numbered(13);

    pub(crate) const fn no_such_kind(position: usize) -> Refusal {
        Refusal {
            position,
            ..Refusal::numbered(9)
        }
    }

    pub(crate) const fn faulty_step(position: usize, fault: u8) -> Refusal {
        Refusal {
            position,
            fault,
            ..Refusal::numbered(10)
        }
    }

    const fn numbered(number: u8) -> Refusal {
        Refusal {
            number,
            position: 0,
            fault: 0,
        }
    }
}

/// Passes where `holds`, and refuses with `refusal` otherwise.
pub(crate) fn ensure(holds: bool, refusal: Refusal) -> Result<(), Refusal> {
    if holds {
        Ok(())
    } else {
        Err(refusal)
    }
}
