//! Occurrences of a rule: its days are gone through from the start, from unit to unit.

use crate::moment::{LAST_DAY, Moment, date, day_number, days_in_month};

#[derive(Clone, Debug)]
pub struct Rule {
    pub frequency: Frequency,
    pub interval: u32,
    pub count: Option<u32>,
    pub until: Option<Moment>,
    pub week_start: i32,
}

#[derive(Clone, Debug)]
pub enum Frequency {
    Daily,
    Weekly(Vec<i32>),
    Monthly { days: Vec<i32>, weekdays: Vec<(i32, i32)> },
    Yearly { months: Vec<u32>, days: Vec<i32> },
}

fn weekday_of(text: &str) -> Option<i32> {
    ["MO", "TU", "WE", "TH", "FR", "SA", "SU"].iter().position(|it| it.eq_ignore_ascii_case(text)).map(|it| it as i32)
}

/// 0 for Monday; 1970-01-01 was a Thursday.
fn weekday(day: i32) -> i32 {
    (day + 3).rem_euclid(7)
}

fn list<T>(value: Option<&str>, read: impl Fn(&str) -> Option<T>) -> Option<Vec<T>> {
    value.map_or(Some(Vec::new()), |it| it.split(',').map(read).collect())
}

pub fn read_rule(text: &str) -> Option<Rule> {
    let mut parts = Vec::new();
    for part in text.split(';') {
        let (name, value) = part.split_once('=')?;
        let name = name.to_ascii_uppercase();
        if parts.iter().any(|(other, _)| *other == name) {
            return None;
        }
        parts.push((name, value));
    }
    let part = |name: &str| parts.iter().find(|(other, _)| other == name).map(|(_, value)| *value);
    let place = |text: &str| text.parse::<i32>().ok().filter(|it| *it != 0 && it.abs() <= 31);
    let frequency = match part("FREQ")?.to_ascii_uppercase().as_str() {
        "DAILY" => Frequency::Daily,
        "WEEKLY" => Frequency::Weekly(list(part("BYDAY"), weekday_of)?),
        "MONTHLY" => Frequency::Monthly {
            days: list(part("BYMONTHDAY"), place)?,
            weekdays: list(part("BYDAY"), |it| {
                let (place, name) = it.split_at(it.len().checked_sub(2)?);
                let place = if place.is_empty() { 0 } else { place.parse().ok()? };
                Some((place, weekday_of(name)?))
            })?,
        },
        "YEARLY" => Frequency::Yearly {
            months: list(part("BYMONTH"), |it| it.parse().ok())?,
            days: list(part("BYMONTHDAY"), place)?,
        },
        _ => return None,
    };
    Some(Rule {
        frequency,
        interval: part("INTERVAL").map_or(Some(1), |it| it.parse().ok())?,
        count: part("COUNT").map_or(Some(None), |it| it.parse().ok().map(Some))?,
        until: part("UNTIL").map_or(Some(None), |it| crate::moment::read_moment(it.as_bytes(), None).map(Some))?,
        week_start: part("WKST").map_or(Some(0), weekday_of)?,
    })
}

/// Has `each` called with each later day of the pattern in order, until it answers false.
fn walk(rule: &Rule, start: i32, mut each: impl FnMut(i32) -> bool) {
    let interval = rule.interval as i32;
    match &rule.frequency {
        Frequency::Daily => {
            let mut day = start + interval;
            while day <= LAST_DAY && each(day) {
                day += interval;
            }
        }
        Frequency::Weekly(days) => {
            let mut days = if days.is_empty() { vec![weekday(start)] } else { days.clone() };
            days.iter_mut().for_each(|it| *it = (*it - rule.week_start).rem_euclid(7));
            days.sort_unstable();
            days.dedup();
            let mut week = start - (weekday(start) - rule.week_start).rem_euclid(7);
            while week <= LAST_DAY {
                for offset in &days {
                    let day = week + offset;
                    if day > start && (day > LAST_DAY || !each(day)) {
                        return;
                    }
                }
                week += 7 * interval;
            }
        }
        Frequency::Monthly { days, weekdays } => {
            let (year, month, of_month) = date(start);
            let mut at = 12 * year + month as i32 - 1;
            while at / 12 <= 9999 {
                let (year, month) = (at / 12, at as u32 % 12 + 1);
                if !walk_month(year, month, start, &month_days(year, month, of_month, days, weekdays), &mut each) {
                    return;
                }
                at += interval;
            }
        }
        Frequency::Yearly { months, days } => {
            let (mut year, month, of_month) = date(start);
            let mut months = if months.is_empty() { vec![month] } else { months.clone() };
            months.sort_unstable();
            months.dedup();
            while year <= 9999 {
                for month in &months {
                    if !walk_month(year, *month, start, &month_days(year, *month, of_month, days, &[]), &mut each) {
                        return;
                    }
                }
                year += interval;
            }
        }
    }
}

fn walk_month(year: i32, month: u32, start: i32, days: &[i32], each: &mut impl FnMut(i32) -> bool) -> bool {
    if days.is_empty() {
        return true;
    }
    let first = day_number(year, month, 1);
    days.iter().all(|day| first + day - 1 <= start || each(first + day - 1))
}

/// The selected days of a month, in order.
fn month_days(year: i32, month: u32, of_month: u32, places: &[i32], weekdays: &[(i32, i32)]) -> Vec<i32> {
    let length = days_in_month(year, month) as i32;
    let mut days: Vec<i32> = if places.is_empty() && weekdays.is_empty() {
        vec![of_month as i32]
    } else {
        places.iter().map(|it| if *it > 0 { *it } else { length + 1 + it }).collect()
    };
    if !weekdays.is_empty() {
        let first = weekday(day_number(year, month, 1));
        for (place, name) in weekdays {
            let one = (name - first).rem_euclid(7) + 1;
            let count = (length - one) / 7 + 1;
            match place {
                0 => days.extend((0..count).map(|it| one + 7 * it)),
                place if *place > 0 => days.push(if *place <= count { one + 7 * (place - 1) } else { 0 }),
                place => days.push(if -place <= count { one + 7 * (count + place) } else { 0 }),
            }
        }
    }
    days.retain(|it| (1..=length).contains(it));
    days.sort_unstable();
    days.dedup();
    days
}

pub struct Series {
    pub start: Moment,
    pub rule: Option<Rule>,
    pub rdates: Vec<Moment>,
    pub exdates: Vec<Moment>,
}

/// The moments of a series in a window, in order.
pub fn occurrences(series: &Series, from: i32, to: i32) -> Vec<Moment> {
    let mut found = Vec::new();
    let start = &series.start;
    let until = series.rule.as_ref().and_then(|rule| rule.until.as_ref());
    if until.is_none_or(|last| start <= last) {
        found.push(start.clone());
    }
    if let Some(rule) = &series.rule {
        let mut left = rule.count.map_or(u32::MAX, |it| it - 1);
        if left > 0 {
            walk(rule, start.day, |day| {
                if day >= to {
                    return false;
                }
                if day >= from {
                    let moment = Moment { day, ..start.clone() };
                    if until.is_some_and(|last| moment > *last) {
                        return false;
                    }
                    found.push(moment);
                }
                left -= 1;
                left > 0
            });
        }
    }
    if !series.rdates.is_empty() {
        found.extend(series.rdates.iter().cloned());
        found.sort();
        found.dedup();
    }
    found.retain(|it| from <= it.day && it.day < to && series.exdates.binary_search(it).is_err());
    found
}
