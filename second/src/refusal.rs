//! Numbered refusals: the table of document 01 and the numbers of document 02, each with its place.

use std::fmt;

/// A numbered refusal and its place; "Places count from 0."
#[derive(Clone, Copy, Debug, PartialEq, Eq)]
pub struct Refusal {
    pub number: u32,
    pub place: usize,
}

/// One name a line: its number, "given exactly when", and its place.
impl Refusal {
    /// "more than 256 tasks"
    pub const TOO_MANY_TASKS: Refusal = Refusal::new(1, 0);

    /// "no resource, or more than 16"
    pub const NO_RESOURCE_OR_TOO_MANY: Refusal = Refusal::new(2, 0);

    /// "an identifier repeats an earlier one"; place "first resource that repeats"
    pub fn identifier_repeats(resource: usize) -> Refusal {
        Refusal::new(3, resource)
    }

    /// "a limit outside its ends"; place "first such resource"
    pub fn limit_outside(resource: usize) -> Refusal {
        Refusal::new(4, resource)
    }

    /// "a task's range is outside its ends, or low above high"
    pub fn range_outside(task: usize) -> Refusal {
        Refusal::new(5, task)
    }

    /// "a task's set is empty or names a place beyond the resource list"
    pub fn set_empty_or_beyond(task: usize) -> Refusal {
        Refusal::new(6, task)
    }

    /// "a step finds no plan"
    pub const NO_PLAN: Refusal = Refusal::new(7, 0);

    /// "in a file: not the mark that is due, or a sense byte above 1"; place
    /// "byte where the record starts"
    pub fn wrong_mark_or_sense(start: usize) -> Refusal {
        Refusal::new(8, start)
    }

    /// "in a file: cut short, or bytes left over"; place "byte where the record
    /// or the rest starts"
    pub fn cut_short_or_left_over(start: usize) -> Refusal {
        Refusal::new(9, start)
    }

    /// "output buffer shorter than the file"
    pub const BUFFER_SHORTER: Refusal = Refusal::new(10, 0);

    /// "a list lent to the reader is shorter than the file's count"
    pub const LIST_SHORTER: Refusal = Refusal::new(11, 0);

    /// "a resource step names a place not in the list"
    pub const PLACE_NOT_IN_LIST: Refusal = Refusal::new(12, 0);

    /// "a band out of order, beyond its ends, naming no resource, or a 65th, place
    /// the first such band"
    pub const fn band_outside(band: usize) -> Refusal {
        Refusal::new(13, band)
    }

    /// The last number.
    pub const LAST_NUMBER: u32 = Refusal::band_outside(0).number;

    pub const fn new(number: u32, place: usize) -> Refusal {
        Refusal { number, place }
    }
}

/// "`refused`, number, place, with single spaces, as `refused 7 0`."
impl fmt::Display for Refusal {
    fn fmt(&self, out: &mut fmt::Formatter) -> fmt::Result {
        write!(out, "refused {} {}", self.number, self.place)
    }
}
