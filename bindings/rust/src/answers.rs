//! What a call answers, and how it is read from the library's arrays.

use crate::refusal::unknown;

/// A checked cell.
#[derive(Clone, Copy, Debug, PartialEq, Eq)]
pub struct Cell {
    /// What it holds, and how that came about.
    pub state: State,
    /// What the last test that doubted its value was.
    pub flag: Flag,
}

/// What a checked cell holds. Values are in the unit of the cell's [`Element`](crate::Element).
#[derive(Clone, Copy, Debug, PartialEq, Eq)]
pub enum State {
    /// No value.
    Missing,
    /// A value as the report gave it, or the rain 0 of a dry station.
    Read(i32),
    /// A temperature whose sign was mended.
    Corrected(i32),
    /// A value from the two neighbours in time.
    Filled(i32),
    /// A relative humidity, percent, that the report gave in place of a dew point: in cells of
    /// [`Element::DewPoint`](crate::Element::DewPoint) alone.
    Humidity(i32),
}

/// What the last test that doubted a value was. A missing or filled cell with a flag other than none had a value discarded.
#[derive(Clone, Copy, Debug, PartialEq, Eq, Hash)]
pub enum Flag {
    /// No test doubted it.
    None,
    /// It was outside its limits.
    Range,
    /// It did not go with another value of the report.
    Internal,
    /// It was too far from both neighbours in time.
    Time,
    /// It was doubted, and kept: it counts as read, and nothing but this flag tells.
    Suspect,
}

impl Cell {
    /// The value in the element's unit: none where it is missing, or a humidity.
    pub fn value(&self) -> Option<i32> {
        match self.state {
            State::Read(value) | State::Corrected(value) | State::Filled(value) => Some(value),
            State::Missing | State::Humidity(_) => None,
        }
    }

    /// The relative humidity in percent, where the cell holds one.
    pub fn humidity(&self) -> Option<i32> {
        match self.state {
            State::Humidity(percent) => Some(percent),
            _ => None,
        }
    }

    /// From state, flag and value.
    pub(crate) fn from_array([state, flag, value]: [i32; 3]) -> Cell {
        let state = match state {
            0 => State::Missing,
            1 => State::Read(value),
            2 => State::Corrected(value),
            3 => State::Filled(value),
            4 => State::Humidity(value),
            _ => unknown("state", state),
        };
        let flag = match flag {
            0 => Flag::None,
            1 => Flag::Range,
            2 => Flag::Internal,
            3 => Flag::Time,
            4 => Flag::Suspect,
            _ => unknown("flag", flag),
        };
        Cell { state, flag }
    }
}

/// A mean over slots 0 to 7, exact: a whole number of eighths.
#[derive(Clone, Copy, Debug, PartialEq)]
pub enum Mean {
    /// None, as one of these slots has no value: it is missing, or a humidity in the place of a dew point.
    Absent,
    /// Of eight values that were all read.
    Read(f64),
    /// Of eight values, one or more of them corrected or filled.
    Mended(f64),
}

impl Mean {
    /// The mean, read or mended, if there is one.
    pub fn value(&self) -> Option<f64> {
        match *self {
            Mean::Read(value) | Mean::Mended(value) => Some(value),
            Mean::Absent => None,
        }
    }

    fn from_kind(kind: i32, value: f64) -> Mean {
        match kind {
            0 => Mean::Absent,
            1 => Mean::Read(value),
            2 => Mean::Mended(value),
            _ => unknown("kind of mean", kind),
        }
    }
}

/// What a settled station's day comes to. Slots are 0 to 8 ([`hour`](crate::hour)).
#[derive(Clone, Copy, Debug, PartialEq)]
pub struct DayLine {
    /// Tenths of a degree Celsius.
    pub temperature: Mean,
    /// Tenths of a degree Celsius.
    pub dew_point: Mean,
    /// Tenths of hPa.
    pub pressure: Mean,
    /// Tenths of m/s.
    pub wind_speed: Mean,
    /// Eighths of the sky.
    pub cloud: Mean,
    /// Hundredths of hPa, at the dew point; of a humidity, its share of the pressure at the temperature.
    pub vapour_pressure: Mean,
    /// Tenths of mm, from 06 UTC of the day to 06 UTC of the next, if there is a total. A dry day has a total of 0.
    pub rain: Option<i32>,
    /// Of slots 0 to 7 the one with the highest temperature, the latest of equal ones; none without any temperature.
    pub warmest: Option<u32>,
    /// Of slots 0 to 7 the one with the lowest temperature, the earliest of equal ones; none without any temperature.
    pub coldest: Option<u32>,
    /// How many of the 81 checked cells are read, suspect ones and humidities too.
    pub read: u32,
    /// How many of them are corrected.
    pub corrected: u32,
    /// How many of them are filled.
    pub filled: u32,
    /// How many of them are missing: on a whole day 20 or so.
    pub missing: u32,
}

impl DayLine {
    /// From the arrays of [`arrays::day`](crate::arrays::day).
    pub(crate) fn from_arrays(means: &[f64; 6], numbers: &[i32; 14]) -> DayLine {
        let mean = |i: usize| Mean::from_kind(numbers[i], means[i]);
        let slot = |number: i32| u32::try_from(number).ok();
        let [read, corrected, filled, missing] = [10, 11, 12, 13].map(|i| numbers[i] as u32);
        DayLine {
            temperature: mean(0),
            dew_point: mean(1),
            pressure: mean(2),
            wind_speed: mean(3),
            cloud: mean(4),
            vapour_pressure: mean(5),
            rain: (numbers[6] == 1).then_some(numbers[7]),
            warmest: slot(numbers[8]),
            coldest: slot(numbers[9]),
            read,
            corrected,
            filled,
            missing,
        }
    }
}

/// How many reports of a bulletin were accepted and refused.
#[derive(Clone, Copy, Debug, PartialEq, Eq)]
pub struct Tally {
    /// Those that [`Store::file`](crate::Store::file) would have accepted, NIL too.
    pub accepted: u32,
    /// Those that it would have refused.
    pub refused: u32,
}

#[cfg(test)]
mod tests {
    use super::*;

    #[test]
    fn a_cell_by_its_numbers() {
        let states = [0, 1, 2, 3, 4].map(|state| Cell::from_array([state, 0, -7 * state]).state);
        let expected = [
            State::Missing,
            State::Read(-7),
            State::Corrected(-14),
            State::Filled(-21),
            State::Humidity(-28),
        ];
        assert_eq!(states, expected);
        let flags = [0, 1, 2, 3, 4].map(|flag| Cell::from_array([0, flag, 0]).flag);
        assert_eq!(flags, [Flag::None, Flag::Range, Flag::Internal, Flag::Time, Flag::Suspect]);
    }

    #[test]
    fn no_value_for_a_missing_cell_or_a_humidity() {
        let cells = [0, 1, 2, 3, 4].map(|state| Cell::from_array([state, 0, 50]));
        assert_eq!(cells.map(|cell| cell.value()), [None, Some(50), Some(50), Some(50), None]);
        assert_eq!(cells.map(|cell| cell.humidity()), [None, None, None, None, Some(50)]);
    }

    #[test]
    #[should_panic(expected = "knows no state 5")]
    fn a_state_of_another_version_ends() {
        Cell::from_array([5, 0, 0]);
    }

    #[test]
    #[should_panic(expected = "knows no flag 5")]
    fn a_flag_of_another_version_ends() {
        Cell::from_array([0, 5, 0]);
    }

    #[test]
    #[should_panic(expected = "knows no kind of mean 3")]
    fn a_mean_of_another_version_ends() {
        Mean::from_kind(3, 0.0);
    }

    #[test]
    fn a_day_line_by_its_arrays() {
        let means = [1.125, 2.25, 3.375, 4.5, 5.625, 6.75];
        let line = DayLine::from_arrays(&means, &[1, 2, 1, 2, 1, 2, 1, 42, 5, 0, 60, 1, 3, 17]);
        let expected = DayLine {
            temperature: Mean::Read(1.125),
            dew_point: Mean::Mended(2.25),
            pressure: Mean::Read(3.375),
            wind_speed: Mean::Mended(4.5),
            cloud: Mean::Read(5.625),
            vapour_pressure: Mean::Mended(6.75),
            rain: Some(42),
            warmest: Some(5),
            coldest: Some(0),
            read: 60,
            corrected: 1,
            filled: 3,
            missing: 17,
        };
        assert_eq!(line, expected);
        assert_eq!(line.dew_point.value(), Some(2.25));
    }

    #[test]
    fn what_is_absent_from_a_day_line() {
        let line = DayLine::from_arrays(&[0.0; 6], &[0, 0, 0, 0, 0, 0, 0, 0, -1, -1, 0, 0, 0, 81]);
        let means = [
            line.temperature,
            line.dew_point,
            line.pressure,
            line.wind_speed,
            line.cloud,
            line.vapour_pressure,
        ];
        assert_eq!(means, [Mean::Absent; 6]);
        assert_eq!(means.map(|mean| mean.value()), [None; 6]);
        assert_eq!((line.rain, line.warmest, line.coldest), (None, None, None));
        let dry = DayLine::from_arrays(&[0.0; 6], &[0, 0, 0, 0, 0, 0, 1, 0, -1, -1, 0, 0, 0, 81]);
        assert_eq!(dry.rain, Some(0));
    }
}
