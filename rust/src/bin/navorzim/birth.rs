//! Where an array comes from: 16 bytes that no other array has, and when it was made.
use crate::failure::Failure;
use crate::files::trouble;
use std::fs::File;
use std::io::Read;
use std::path::Path;
use std::time::{SystemTime, UNIX_EPOCH};

/// An array's own mark. A new split is a new one, so that an older version of the same data is another array.
#[derive(Clone, Debug, PartialEq, Eq)]
pub struct Birth {
    pub identity: [u8; 16],
    /// for people
    pub made: String,
}

impl Birth {
    /// A new one, drawn from the system.
    pub fn draw() -> Result<Birth, Failure> {
        let source = Path::new("/dev/urandom");
        let mut identity = [0; 16];
        let drawn = File::open(source).and_then(|mut file| file.read_exact(&mut identity));
        drawn.map_err(|error| trouble("read", source, error))?;
        let now = SystemTime::now().duration_since(UNIX_EPOCH);
        Ok(Birth { identity, made: moment(now.map_or(0, |now| now.as_secs())) })
    }
}

/// A moment as a person writes it.
fn moment(seconds: u64) -> String {
    let (day, rest) = (seconds / 86_400, seconds % 86_400);
    // Years from March to February, of which 400 have 146,097 days; a leap day is then the last of its year.
    let day = day + 719_468;
    let (era, day) = (day / 146_097, day % 146_097);
    let year = (day - day / 1_460 + day / 36_524 - day / 146_096) / 365;
    let day = day - (365 * year + year / 4 - year / 100);
    let month = (5 * day + 2) / 153;
    let day = day - (153 * month + 2) / 5 + 1;
    let (year, month) = (era * 400 + year + month / 10, (month + 2) % 12 + 1);
    let (hour, minute, second) = (rest / 3600, rest / 60 % 60, rest % 60);
    format!("{year:04}-{month:02}-{day:02} {hour:02}:{minute:02}:{second:02} UTC")
}

#[test]
fn moments_are_those_of_the_calendar() {
    for (seconds, text) in [
        (0, "1970-01-01 00:00:00 UTC"),
        (951_782_399, "2000-02-28 23:59:59 UTC"),
        (951_782_400, "2000-02-29 00:00:00 UTC"),
        (1_709_251_199, "2024-02-29 23:59:59 UTC"),
        (4_107_542_400, "2100-03-01 00:00:00 UTC"),
    ] {
        assert_eq!(moment(seconds), text);
    }
}
