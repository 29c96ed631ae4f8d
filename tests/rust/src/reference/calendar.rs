//! "The day and its slots".

/// A real calendar date of 2000 to 2099: the day D of a store.
#[derive(Clone, Copy, Debug, PartialEq, Eq)]
pub struct Date {
    pub year: u16,
    pub month: u8,
    pub day: u8,
}

/// The hour (UTC) of each slot; the first six are of D, the last three of D+1.
const SLOT_HOURS: [u8; 9] = [6, 9, 12, 15, 18, 21, 0, 3, 6];
const FIRST_SLOT_OF_NEXT_DAY: usize = 6;

impl Date {
    pub fn new(year: u32, month: u32, day: u32) -> Option<Date> {
        let real = (2000..=2099).contains(&year)
            && (1..=12).contains(&month)
            && (1..=month_length(year, month)).contains(&day);
        real.then_some(Date { year: year as u16, month: month as u8, day: day as u8 })
    }

    /// The day of the month of D+1.
    pub fn next_day(self) -> u8 {
        if u32::from(self.day) == month_length(self.year.into(), self.month.into()) {
            1
        } else {
            self.day + 1
        }
    }

    /// Warm is month 4 to 9.
    pub fn warm(self) -> bool {
        (4..=9).contains(&self.month)
    }

    /// The slot that a report's YY and GG match.
    pub fn slot(self, yy: u8, gg: u8) -> Option<usize> {
        (0..9).find(|&slot| {
            let day = if slot < FIRST_SLOT_OF_NEXT_DAY { self.day } else { self.next_day() };
            yy == day && gg == SLOT_HOURS[slot]
        })
    }
}

fn month_length(year: u32, month: u32) -> u32 {
    let leap = year % 4 == 0 && (year % 100 != 0 || year % 400 == 0);
    match month {
        2 if leap => 29,
        2 => 28,
        4 | 6 | 9 | 11 => 30,
        _ => 31,
    }
}
