//! Card 4 of document 02, seasons and service hours, by the plainest means: the days of a hundred years are walked one by one, and
//! the minutes of a day likewise.
use std::collections::HashMap;
use std::sync::OnceLock;

/// Refusals, and their kind in the upper half of an answer.
const REFUSED: u64 = 3 << 32;
const SPACE: u64 = 8;
const CALENDAR: u64 = 11;

pub const MINUTES: u32 = 1440;
/// The hour of the changes.
const ONE_O_CLOCK: u32 = 60;

/// Year, month and day.
pub type Date = (u32, u32, u32);

/// A day's number in the walk, and a minute of it.
type Moment = (usize, u32);

/// The walk from 1 January 2000 to 31 December 2099.
pub struct Walk {
    pub days: Vec<Date>,
    numbers: HashMap<Date, usize>,
    /// The changes in their order: from when on, and which season.
    pub changes: Vec<(Moment, char)>,
}

fn is_leap(year: u32) -> bool {
    if year % 400 == 0 {
        return true;
    }
    year % 4 == 0 && year % 100 != 0
}

fn last_day(year: u32, month: u32) -> u32 {
    match month {
        4 | 6 | 9 | 11 => 30,
        2 if is_leap(year) => 29,
        2 => 28,
        _ => 31,
    }
}

fn day_after((year, month, day): Date) -> Date {
    if day < last_day(year, month) {
        (year, month, day + 1)
    } else if month < 12 {
        (year, month + 1, 1)
    } else {
        (year + 1, 1, 1)
    }
}

/// The Sundays' numbers: 1 January 2000 was a Saturday.
fn sundays(days: &[Date]) -> Vec<usize> {
    (0..days.len()).filter(|number| number % 7 == 1).collect()
}

/// A Sunday is the last of its month where the next Sunday is another month's.
fn changes(days: &[Date]) -> Vec<(Moment, char)> {
    let sundays = sundays(days);
    let is_last = |k: usize| sundays.get(k + 1).is_none_or(|next| days[*next].1 != days[sundays[k]].1);
    let last = (0..sundays.len()).filter(|k| is_last(*k)).map(|k| sundays[k]);
    last.filter_map(|number| match days[number].1 {
        3 => Some(((number, ONE_O_CLOCK), 'A')),
        10 => Some(((number, ONE_O_CLOCK), 'B')),
        _ => None,
    })
    .collect()
}

/// Walked once.
pub fn walk() -> &'static Walk {
    static WALK: OnceLock<Walk> = OnceLock::new();
    WALK.get_or_init(|| {
        let next = |date: &Date| Some(day_after(*date)).filter(|(year, _, _)| *year < 2100);
        let days: Vec<Date> = std::iter::successors(Some((2000, 1, 1)), next).collect();
        let numbers = days.iter().enumerate().map(|(number, date)| (*date, number)).collect();
        let changes = changes(&days);
        Walk { days, numbers, changes }
    })
}

/// None where the walk doesn't come by.
fn moment(date: Date, minute: u32) -> Option<Moment> {
    let number = walk().numbers.get(&date)?;
    (minute < MINUTES).then_some((*number, minute))
}

/// `hf_season`: 0 for A, 1 for B.
pub fn season(year: u32, month: u32, day: u32, minute: u32) -> u64 {
    let Some(now) = moment((year, month, day), minute) else {
        return REFUSED + CALENDAR;
    };
    let last = walk().changes.iter().rev().find(|(at, _)| *at <= now);
    u64::from(last.is_none_or(|(_, season)| *season == 'B'))
}

/// `hf_next_season`: 1 with the change's year, month, day and minute in `out`, 0 where there is none.
pub fn next_season(year: u32, month: u32, day: u32, minute: u32, out: &mut [u32]) -> u64 {
    let Ok(out) = <&mut [u32; 4]>::try_from(out) else {
        return REFUSED + SPACE;
    };
    let Some(now) = moment((year, month, day), minute) else {
        return REFUSED + CALENDAR;
    };
    let Some(((number, minute), _)) = walk().changes.iter().find(|(at, _)| *at > now) else {
        return 0;
    };
    let (year, month, day) = walk().days[*number];
    *out = [year, month, day, *minute];
    1
}

/// The minutes at which a service is open, from the first on until its end comes.
pub fn hours(first: u32, end: u32) -> [bool; MINUTES as usize] {
    let mut open = [false; MINUTES as usize];
    let mut minute = first;
    loop {
        open[minute as usize] = true;
        minute = (minute + 1) % MINUTES;
        if minute == end {
            return open;
        }
    }
}

/// `hf_open`: 1 for open, 0 for shut.
pub fn open(first: u32, end: u32, minute: u32) -> u64 {
    if [first, end, minute].into_iter().any(|minute| minute >= MINUTES) {
        return REFUSED + CALENDAR;
    }
    u64::from(hours(first, end)[minute as usize])
}
