//! Readings: what the sensors say.
use crate::refusal::Refusal;

/// Range variables are 0 to 31.
pub const RANGE_VARIABLES: usize = 32;
/// Boolean variables are 32 to 63.
pub const VARIABLES: usize = 64;
/// The place below all keys.
pub const LOWEST_PLACE: i64 = -(1 << 32) - 1;
/// The place above all keys.
pub const HIGHEST_PLACE: i64 = (1 << 32) - 1;

/// The place that is exactly a key.
pub const fn place(key: i32) -> i64 {
    2 * key as i64
}

/// The place between a key and the next one.
pub const fn place_above(key: i32) -> i64 {
    place(key) + 1
}

/// A value for every variable. A new reading has every range variable at key 0, and every boolean at no.
///
/// ```
/// use spanwhistle::{Reading, Refusal};
///
/// let mut reading = Reading::default();
/// reading.set_key(0, 15)?; // variable 0 is exactly 15
/// reading.set_above(1, 3)?; // variable 1 is more than 3 and less than 4
/// reading.set_bool(32, true)?;
/// assert_eq!(reading.places[..2], [30, 7]);
/// assert_eq!(reading.bools, 1);
/// assert_eq!(reading.set_key(32, 15), Err(Refusal::BadVariable));
/// # Ok::<(), Refusal>(())
/// ```
#[derive(Clone, Copy, Debug, Default, PartialEq, Eq, Hash)]
pub struct Reading {
    /// The place of each range variable. One beyond [`LOWEST_PLACE`] or [`HIGHEST_PLACE`] is refused when the reading is used.
    pub places: [i64; RANGE_VARIABLES],
    /// Bit i is variable 32 + i.
    pub bools: u32,
}

impl Reading {
    /// Puts a range variable at a place. Any place is taken.
    ///
    /// # Errors
    ///
    /// `BadVariable`, where the variable is 32 or more.
    pub fn set_place(&mut self, variable: u32, place: i64) -> Result<(), Refusal> {
        match self.places.get_mut(variable as usize) {
            Some(slot) => {
                *slot = place;
                Ok(())
            }
            None => Err(Refusal::BadVariable),
        }
    }

    /// Puts a range variable exactly at a key.
    ///
    /// # Errors
    ///
    /// `BadVariable`, where the variable is 32 or more.
    pub fn set_key(&mut self, variable: u32, key: i32) -> Result<(), Refusal> {
        self.set_place(variable, place(key))
    }

    /// Puts a range variable between a key and the next one.
    ///
    /// # Errors
    ///
    /// `BadVariable`, where the variable is 32 or more.
    pub fn set_above(&mut self, variable: u32, key: i32) -> Result<(), Refusal> {
        self.set_place(variable, place_above(key))
    }

    /// Sets a boolean variable.
    ///
    /// # Errors
    ///
    /// `BadVariable`, where the variable is below 32, or 64 or more.
    pub fn set_bool(&mut self, variable: u32, value: bool) -> Result<(), Refusal> {
        let variable = variable as usize;
        if !(RANGE_VARIABLES..VARIABLES).contains(&variable) {
            return Err(Refusal::BadVariable);
        }
        let bit = 1 << (variable - RANGE_VARIABLES);
        if value {
            self.bools |= bit;
        } else {
            self.bools &= !bit;
        }
        Ok(())
    }
}
