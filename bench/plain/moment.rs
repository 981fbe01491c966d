//! Days and moments.

pub const LAST_DAY: i32 = 2_932_896;

/// The number of a date from 1970-01-01.
pub fn day_number(year: i32, month: u32, day: u32) -> i32 {
    let y = if month <= 2 { year - 1 } else { year };
    let era = y.div_euclid(400);
    let of_era = y.rem_euclid(400);
    let of_year = (153 * (if month > 2 { month as i32 - 3 } else { month as i32 + 9 }) + 2) / 5 + day as i32 - 1;
    era * 146_097 + of_era * 365 + of_era / 4 - of_era / 100 + of_year - 719_468
}

pub fn date(day: i32) -> (i32, u32, u32) {
    let z = day + 719_468;
    let era = z.div_euclid(146_097);
    let of_era = z.rem_euclid(146_097);
    let year = (of_era - of_era / 1460 + of_era / 36_524 - of_era / 146_096) / 365;
    let of_year = of_era - (365 * year + year / 4 - year / 100);
    let at = (5 * of_year + 2) / 153;
    let month = if at < 10 { at + 3 } else { at - 9 } as u32;
    let of_month = (of_year - (153 * at + 2) / 5 + 1) as u32;
    (year + era * 400 + i32::from(month <= 2), month, of_month)
}

pub fn days_in_month(year: i32, month: u32) -> u32 {
    match month {
        2 if year % 4 == 0 && (year % 100 != 0 || year % 400 == 0) => 29,
        2 => 28,
        4 | 6 | 9 | 11 => 30,
        _ => 31,
    }
}

#[derive(Clone, Copy, Debug, PartialEq, Eq, PartialOrd, Ord)]
pub struct Stamp {
    pub day: i32,
    pub second: u32,
}

/// In order: the day, then the second, a date before every second, then the form, then the zone.
#[derive(Clone, Debug, PartialEq, Eq, PartialOrd, Ord)]
pub struct Moment {
    pub day: i32,
    pub second: Option<u32>,
    pub form: Form,
    pub zone: Option<Box<[u8]>>,
}

#[derive(Clone, Copy, Debug, PartialEq, Eq, PartialOrd, Ord)]
pub enum Form {
    Date,
    Floating,
    Utc,
    Zoned,
}

/// The number that some digits spell.
fn digits(text: &[u8]) -> Option<u32> {
    text.iter().try_fold(0, |number, it| it.is_ascii_digit().then(|| 10 * number + u32::from(it - b'0')))
}

fn read_day(text: &[u8]) -> Option<i32> {
    if text.len() != 8 {
        return None;
    }
    let (year, month, day) = (digits(&text[..4])? as i32, digits(&text[4..6])?, digits(&text[6..])?);
    if month == 0 || month > 12 || day == 0 || day > days_in_month(year, month) {
        return None;
    }
    Some(day_number(year, month, day))
}

fn read_local(text: &[u8]) -> Option<Stamp> {
    if text.len() != 15 || text[8] != b'T' {
        return None;
    }
    let day = read_day(&text[..8])?;
    let (hour, minute, second) = (digits(&text[9..11])?, digits(&text[11..13])?, digits(&text[13..])?);
    if hour > 23 || minute > 59 || second > 60 {
        return None;
    }
    Some(Stamp { day, second: hour * 3600 + minute * 60 + second.min(59) })
}

pub fn read_stamp(text: &[u8]) -> Option<Stamp> {
    read_local(text.strip_suffix(b"Z")?)
}

pub fn read_moment(text: &[u8], tzid: Option<&[u8]>) -> Option<Moment> {
    if let Some(day) = read_day(text) {
        return Some(Moment { day, second: None, form: Form::Date, zone: None });
    }
    if let Some(at) = read_stamp(text) {
        return Some(Moment { day: at.day, second: Some(at.second), form: Form::Utc, zone: None });
    }
    let at = read_local(text)?;
    let zone: Option<Box<[u8]>> = tzid.filter(|it| !it.is_empty()).map(Box::from);
    let form = if zone.is_some() { Form::Zoned } else { Form::Floating };
    Some(Moment { day: at.day, second: Some(at.second), form, zone })
}

pub fn write_stamp(at: Stamp, out: &mut Vec<u8>) {
    write_day(at.day, out);
    write_time(at.second, out);
    out.push(b'Z');
}

pub fn write_moment(moment: &Moment, out: &mut Vec<u8>) {
    write_day(moment.day, out);
    if let Some(second) = moment.second {
        write_time(second, out);
    }
    if moment.form == Form::Utc {
        out.push(b'Z');
    }
}

fn write_day(day: i32, out: &mut Vec<u8>) {
    let (year, month, day) = date(day);
    out.extend_from_slice(&padded::<4>(year.unsigned_abs()));
    out.extend_from_slice(&padded::<2>(month));
    out.extend_from_slice(&padded::<2>(day));
}

fn write_time(second: u32, out: &mut Vec<u8>) {
    out.push(b'T');
    for number in [second / 3600, second / 60 % 60, second % 60] {
        out.extend_from_slice(&padded::<2>(number));
    }
}

/// The last digits of a number.
fn padded<const N: usize>(number: u32) -> [u8; N] {
    std::array::from_fn(|at| b'0' + (number / 10u32.pow((N - 1 - at) as u32) % 10) as u8)
}
