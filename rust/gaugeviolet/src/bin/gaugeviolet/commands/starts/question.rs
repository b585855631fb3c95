//! What is asked of `starts`: a train and minutes, as they were typed.

use std::ffi::OsString;

use gaugeviolet::{counted, time_of_day, Explanation, STARTS_MOST};

/// The last minute of the second day.
const LAST_MINUTE: u32 = 2879;

/// A number as it was typed, and its value. One that is too great for the type is the greatest of it, which
/// no file has as a train and no list as a minute: so it is refused as it would be itself.
struct Typed<'a> {
    text: &'a str,
    value: u32,
}

impl Typed<'_> {
    /// A number has digits alone and no leading zero, as in the files: `0600` may be meant for 06:00.
    fn read(word: &OsString) -> Option<Typed<'_>> {
        let text = word.to_str()?;
        let digits = !text.is_empty() && text.bytes().all(|byte| byte.is_ascii_digit());
        let leading_zero = text.len() > 1 && text.starts_with('0');
        let value = text.parse().unwrap_or(u32::MAX);
        (digits && !leading_zero).then_some(Typed { text, value })
    }
}

/// A train, and the minutes from which it may set out.
pub struct Question<'a> {
    train: Typed<'a>,
    minutes: Vec<Typed<'a>>,
}

impl Question<'_> {
    /// The question that was typed, or why it is none. The first word is the train.
    pub fn read(words: &[OsString]) -> Result<Question<'_>, String> {
        let (train, minutes) = words.split_first().ok_or("there is no train")?;
        let no_train = || {
            let train = train.display();
            format!("a train is told by its number in the file, such as 6, not by {train}")
        };
        let minute = |word| {
            Typed::read(word).ok_or_else(|| {
                let word = word.display();
                format!("a minute is a number from midnight on, such as 600 for 10:00, not {word}")
            })
        };
        Ok(Question {
            train: Typed::read(train).ok_or_else(no_train)?,
            minutes: minutes.iter().map(minute).collect::<Result<_, _>>()?,
        })
    }

    /// The train as the library takes it.
    pub fn train(&self) -> u32 {
        self.train.value
    }

    /// The minutes as the library takes them.
    pub fn minutes(&self) -> Vec<u16> {
        let minutes = self.minutes.iter();
        minutes
            .map(|minute| u16::try_from(minute.value).unwrap_or(u16::MAX))
            .collect()
    }

    /// What is wrong with it, where the line has so many trains.
    pub fn fault(&self, trains: u32) -> Explanation {
        let (found, allowed) = self
            .wrong_count()
            .or_else(|| self.past_the_last())
            .or_else(|| self.not_rising())
            .unwrap_or_else(|| self.wrong_train(trains));
        Explanation {
            quotation: None,
            field: None,
            found,
            allowed,
            hints: Vec::new(),
        }
    }

    fn wrong_count(&self) -> Option<(String, String)> {
        let found = match self.minutes.len() {
            0 => "no minute".to_string(),
            count if count > STARTS_MOST => counted(count as u32, "minute"),
            _ => return None,
        };
        Some((found, format!("1 to {STARTS_MOST} minutes")))
    }

    fn past_the_last(&self) -> Option<(String, String)> {
        let mut minutes = self.minutes.iter();
        let past = minutes.find(|minute| minute.value > LAST_MINUTE)?;
        let allowed = format!("minutes from 0 to {LAST_MINUTE}");
        Some((format!("minute {}", past.text), allowed))
    }

    fn not_rising(&self) -> Option<(String, String)> {
        let mut pairs = self.minutes.windows(2);
        let pair = pairs.find(|pair| pair[0].value >= pair[1].value)?;
        let in_words =
            |minute: &Typed| format!("minute {} ({})", minute.text, time_of_day(minute.value));
        let found = format!("{} after {}", in_words(&pair[1]), in_words(&pair[0]));
        Some((found, "minutes that rise from each to the next".to_string()))
    }

    fn wrong_train(&self, trains: u32) -> (String, String) {
        let found = format!(
            "train {}; the line has {}",
            self.train.text,
            counted(trains, "train")
        );
        let allowed = match trains {
            0 => "a line with trains".to_string(),
            _ => format!("a train from 1 to {trains}"),
        };
        (found, allowed)
    }
}
