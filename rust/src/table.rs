//! The table of who proposed what (02, 2.9): beside the tuples of a board, what
//! each seat has proposed in each round.

use crate::config::{Config, DEFAULT, STRONG};
use crate::fields::{Tuple, MOST_SEATS};
use crate::policy::LAST_ROUND;

/// How many places the table has: a row for each round, in it one for each of
/// the most seats, whatever n is.
pub const PLACES: usize = (LAST_ROUND as usize + 1) * MOST_SEATS as usize;

/// At each place the travelling number of what was proposed there, 0 for
/// nothing: the mark, which travels as 0, is never proposed.
pub type Table = [u64; PLACES];

/// A table without proposals.
pub const EMPTY: Table = [0; PLACES];

/// The place of a round from 0 to 7 and a seat from 1 to n; others have none.
pub fn place(config: &Config, round: u64, seat: u64) -> Option<usize> {
    let has_place = round <= LAST_ROUND && seat <= MOST_SEATS && config.has_seat(seat);
    has_place.then(|| (MOST_SEATS * round + seat - 1) as usize)
}

/// The place of a tuple that is due in the table, and its offset: under
/// policies 2 and 3 a proposal, whatever its offset, that has a place.
pub fn due(config: &Config, tuple: &Tuple) -> Option<(usize, u64)> {
    if ![DEFAULT, STRONG].contains(&config.policy) {
        return None;
    }
    let (round, seat, offset) = tuple.as_proposal()?;
    Some((place(config, round, seat)?, offset))
}

/// The table of these tuples. There is none if two of them are due at one
/// place, equal ones too, or one that is due is of what may not be proposed.
pub fn of(config: &Config, held: &[Tuple]) -> Option<Table> {
    let mut table = EMPTY;
    for (place, offset) in held.iter().filter_map(|tuple| due(config, tuple)) {
        if table[place] != 0 || !config.may_propose(offset) {
            return None;
        }
        table[place] = offset;
    }
    Some(table)
}
