//! One line of a journal, read and written: the text form of docs/JOURNAL.md.
//!
//! Fields are read from left to right, and reading stops at the first that does not fit.

use std::fmt;

use judge::fit::{Criterion, PruningRule, Settings};
use judge::numbers::{bits, one_value};
use judge::statistics::{Confidence, DegreeBound, Tolerance};
use judge::surface::{Site, SurfaceSample};
use judge::Sample;

use crate::call::Call;
use crate::memory::{Name, MEMORY, NAMES};

/// The most bytes of a line.
pub const LONGEST_LINE: usize = 131_100;

/// The most digits of a whole number.
const DIGITS: usize = 9;

/// The most bytes of a field: those of the longest frame, whose length has two bytes and counts what
/// follows.
pub const MOST_BYTES: usize = 2 + 65_535;

/// What a line asks for: something of the memory, or a call.
#[derive(Debug, Clone, PartialEq)]
pub enum Request {
    Lent {
        name: Name,
        length: usize,
    },
    Put {
        name: Name,
        index: usize,
        value: f64,
    },
    /// The same of a memory of whole numbers.
    PutNumber {
        name: Name,
        index: usize,
        number: usize,
    },
    /// One place each of xs, zs and ys.
    Row {
        index: usize,
        sample: SurfaceSample,
    },
    Count(usize),
    Show {
        name: Name,
        from: usize,
        to: usize,
    },
    Call(Call),
}

/// Why a field does not fit.
#[derive(Debug, Clone, Copy, PartialEq, Eq)]
pub enum Message {
    NotACall,
    NotAName,
    NotANumber,
    NotAFloat,
    NotHexadecimal,
    TooLarge,
    Missing,
    OneTooMany,
}

/// The first field that does not fit, counted from 1.
#[derive(Debug, Clone, Copy, PartialEq, Eq)]
pub struct Malformed {
    pub field: usize,
    pub message: Message,
}

type Read<T> = Result<T, Malformed>;

/// The fields of a line, from left to right.
struct Fields<'a> {
    /// What follows the field read last; none after the last field.
    rest: Option<&'a [u8]>,
    /// The number of the field read last.
    field: usize,
}

/// What the line asks for; none for a line that is skipped.
pub fn read(line: &[u8]) -> Read<Option<Request>> {
    if line.len() > LONGEST_LINE {
        return Err(Malformed { field: 1, message: Message::TooLarge });
    }
    if line.is_empty() || line[0] == b'#' {
        return Ok(None);
    }
    let mut fields = Fields { rest: Some(line), field: 0 };
    let request = request(&mut fields)?;
    fields.end()?;
    Ok(Some(request))
}

fn request(fields: &mut Fields) -> Read<Request> {
    Ok(match fields.next()? {
        b"lent" => {
            let name = fields.name()?;
            Request::Lent { name, length: fields.at_most(name.places())? }
        }
        b"put" => put(fields)?,
        b"row" => Request::Row {
            index: fields.at_most(MEMORY - 1)?,
            sample: SurfaceSample { x: fields.float()?, z: fields.float()?, y: fields.float()? },
        },
        b"count" => Request::Count(fields.number()?),
        b"show" => show(fields)?,
        word => Request::Call(call(word, fields)?),
    })
}

fn call(word: &[u8], fields: &mut Fields) -> Read<Call> {
    Ok(match word {
        b"open" => Call::Open,
        b"add" => Call::Add(fields.sample()?),
        b"window" => Call::AddWindow(fields.sample()?),
        b"correct" => Call::Correct { index: fields.number()?, y: fields.float()? },
        b"withdraw" => Call::Withdraw { index: fields.number()? },
        b"frame" => Call::AddFrame(fields.bytes()?),
        b"lines" => Call::AddLines(fields.bytes()?),
        b"carry" => Call::Carry,
        b"fit" => Call::Fit { degree: fields.number()? },
        b"report" => Call::Report(fields.settings()?),
        b"split" => Call::Split { limit: fields.number()?, settings: fields.settings()? },
        b"losses" => Call::Losses(fields.settings()?),
        b"scores" => Call::Scores(fields.settings()?),
        b"validate" => Call::Validate {
            folds: fields.number()?,
            bound: fields.bound()?,
            criterion: fields.criterion()?,
        },
        b"band" => Call::Band {
            x: fields.float()?,
            degree: fields.number()?,
            confidence: fields.confidence()?,
            tolerance: fields.tolerance()?,
        },
        b"surface_fit" => Call::SurfaceFit { degree: fields.number()? },
        b"surface_report" => Call::SurfaceReport(fields.settings()?),
        b"surface_band" => Call::SurfaceBand {
            site: Site { x: fields.float()?, z: fields.float()? },
            degree: fields.number()?,
            confidence: fields.confidence()?,
            tolerance: fields.tolerance()?,
        },
        b"start" => Call::Start { quota: fields.number()? },
        b"renew" => Call::Renew,
        b"group_report" => {
            Call::GroupReport { group: fields.number()?, settings: fields.settings()? }
        }
        b"group_surface_report" => {
            Call::GroupSurfaceReport { group: fields.number()?, settings: fields.settings()? }
        }
        b"group_split" => {
            Call::GroupSplit { group: fields.number()?, settings: fields.settings()? }
        }
        b"season_open" => Call::SeasonOpen,
        b"season_report" => Call::SeasonReport(fields.settings()?),
        word => match of_stake(word) {
            Some(word) => {
                Call::Season { stake: fields.number()?, call: Box::new(call(word, fields)?) }
            }
            None => return fields.malformed(Message::NotACall),
        },
    })
}

/// A stake's calls: the word of a season and that of the book's own call.
const OF_STAKE: [(&str, &str); 15] = [
    ("season_open_stake", "open"),
    ("season_add", "add"),
    ("season_window", "window"),
    ("season_correct", "correct"),
    ("season_withdraw", "withdraw"),
    ("season_frame", "frame"),
    ("season_lines", "lines"),
    ("season_carry", "carry"),
    ("season_fit", "fit"),
    ("season_report_stake", "report"),
    ("season_split", "split"),
    ("season_losses", "losses"),
    ("season_scores", "scores"),
    ("season_validate", "validate"),
    ("season_band", "band"),
];

/// The word of the call that a stake's call is.
fn of_stake(word: &[u8]) -> Option<&'static [u8]> {
    let (_, own) = OF_STAKE.iter().find(|(season, _)| season.as_bytes() == word)?;
    Some(own.as_bytes())
}

/// The line of a stake's call: its own word, the stake, and the fields of the book's call.
fn stake_line(stake: usize, call: &Call) -> String {
    let line = call.to_string();
    let word = line.split(' ').next().unwrap_or_default();
    let season = OF_STAKE.iter().find(|(_, own)| *own == word).map_or("no call", |(word, _)| word);
    format!("{season} {stake}{}", &line[word.len()..])
}

/// A memory of whole numbers takes one, any other a float; bytes are not put.
fn put(fields: &mut Fields) -> Read<Request> {
    let name = fields.name()?;
    if name.holds_bytes() {
        return fields.malformed(Message::NotAName);
    }
    let index = fields.at_most(name.places() - 1)?;
    if name.holds_numbers() {
        return Ok(Request::PutNumber { name, index, number: fields.number()? });
    }
    Ok(Request::Put { name, index, value: fields.float()? })
}

/// FROM is judged again once TO is read.
fn show(fields: &mut Fields) -> Read<Request> {
    let name = fields.name()?;
    let from = fields.at_most(name.places())?;
    let to = fields.at_most(name.places())?;
    if from > to {
        return Err(Malformed { field: fields.field - 1, message: Message::TooLarge });
    }
    Ok(Request::Show { name, from, to })
}

impl<'a> Fields<'a> {
    /// The field read last does not fit.
    fn malformed<T>(&self, message: Message) -> Read<T> {
        Err(Malformed { field: self.field, message })
    }

    fn next(&mut self) -> Read<&'a [u8]> {
        self.field += 1;
        let rest = match self.rest {
            Some(rest) => rest,
            None => return self.malformed(Message::Missing),
        };
        match rest.iter().position(|&byte| byte == b' ') {
            Some(space) => {
                self.rest = Some(&rest[space + 1..]);
                Ok(&rest[..space])
            }
            None => {
                self.rest = None;
                Ok(rest)
            }
        }
    }

    fn end(&mut self) -> Read<()> {
        self.field += 1;
        match self.rest {
            Some(_) => self.malformed(Message::OneTooMany),
            None => Ok(()),
        }
    }

    fn name(&mut self) -> Read<Name> {
        let word = self.next()?;
        match NAMES.iter().find(|(_, text)| text.as_bytes() == word) {
            Some((name, _)) => Ok(*name),
            None => self.malformed(Message::NotAName),
        }
    }

    /// One to nine decimal digits.
    fn number(&mut self) -> Read<usize> {
        let word = self.next()?;
        if word.is_empty() || word.len() > DIGITS || !word.iter().all(u8::is_ascii_digit) {
            return self.malformed(Message::NotANumber);
        }
        Ok(word.iter().fold(0, |number, digit| 10 * number + usize::from(digit - b'0')))
    }

    fn at_most(&mut self, most: usize) -> Read<usize> {
        let number = self.number()?;
        if number > most {
            return self.malformed(Message::TooLarge);
        }
        Ok(number)
    }

    /// Exactly 16 hexadecimal digits; every NaN is the one NaN.
    fn float(&mut self) -> Read<f64> {
        let word = self.next()?;
        let digits = digits(word);
        if word.len() != 16 || digits.len() < 16 {
            return self.malformed(Message::NotAFloat);
        }
        Ok(one_value(digits.iter().fold(0, |pattern, digit| pattern << 4 | u64::from(*digit))))
    }

    fn sample(&mut self) -> Read<Sample> {
        Ok(Sample { x: self.float()?, y: self.float()?, weight: self.weight()? })
    }

    /// No field at all is weight 1.
    fn weight(&mut self) -> Read<f64> {
        if self.rest.is_none() {
            return Ok(1.0);
        }
        self.float()
    }

    /// An even number of hexadecimal digits; no field at all is no bytes.
    fn bytes(&mut self) -> Read<Vec<u8>> {
        if self.rest.is_none() {
            return Ok(Vec::new());
        }
        let word = self.next()?;
        let digits = digits(word);
        if word.is_empty() || digits.len() < word.len() || word.len() % 2 == 1 {
            return self.malformed(Message::NotHexadecimal);
        }
        if word.len() > 2 * MOST_BYTES {
            return self.malformed(Message::TooLarge);
        }
        Ok(digits.chunks(2).map(|pair| 16 * pair[0] + pair[1]).collect())
    }

    /// A report's.
    fn settings(&mut self) -> Read<Settings> {
        Ok(Settings {
            bound: self.bound()?,
            criterion: self.criterion()?,
            confidence: self.confidence()?,
            tolerance: self.tolerance()?,
            pruning: self.pruning()?,
        })
    }

    fn bound(&mut self) -> Read<DegreeBound> {
        let of: fn(usize) -> DegreeBound = match self.next()? {
            b"conservative" => |_| DegreeBound::Conservative,
            b"relaxed" => |_| DegreeBound::Relaxed,
            b"aggressive" => |_| DegreeBound::Aggressive,
            b"custom" => DegreeBound::Custom,
            _ => return self.malformed(Message::NotAName),
        };
        Ok(of(self.number()?))
    }

    fn criterion(&mut self) -> Read<Criterion> {
        match self.next()? {
            b"aic" => Ok(Criterion::Aic),
            b"bic" => Ok(Criterion::Bic),
            _ => self.malformed(Message::NotAName),
        }
    }

    fn confidence(&mut self) -> Read<Confidence> {
        let of: fn(f64) -> Confidence = match self.next()? {
            b"p80" => |_| Confidence::P80,
            b"p90" => |_| Confidence::P90,
            b"p95" => |_| Confidence::P95,
            b"p98" => |_| Confidence::P98,
            b"p99" => |_| Confidence::P99,
            b"p999" => |_| Confidence::P999,
            b"custom" => Confidence::Custom,
            _ => return self.malformed(Message::NotAName),
        };
        Ok(of(self.float()?))
    }

    fn tolerance(&mut self) -> Read<Tolerance> {
        let of: fn(f64) -> Tolerance = match self.next()? {
            b"none" => |_| Tolerance::None,
            b"absolute" => Tolerance::Absolute,
            b"variance" => Tolerance::Variance,
            b"measurement" => Tolerance::Measurement,
            _ => return self.malformed(Message::NotAName),
        };
        Ok(of(self.float()?))
    }

    /// No field at all is polyfit's rule.
    fn pruning(&mut self) -> Read<PruningRule> {
        if self.rest.is_none() {
            return Ok(PruningRule::Positive);
        }
        match self.next()? {
            b"positive" => Ok(PruningRule::Positive),
            b"size" => Ok(PruningRule::Size),
            _ => self.malformed(Message::NotAName),
        }
    }
}

/// The values of the hexadecimal digits in a word.
fn digits(word: &[u8]) -> Vec<u8> {
    let value = |&byte: &u8| match byte {
        b'0'..=b'9' => Some(byte - b'0'),
        b'A'..=b'F' => Some(byte - b'A' + 10),
        b'a'..=b'f' => Some(byte - b'a' + 10),
        _ => None,
    };
    word.iter().filter_map(value).collect()
}

/// A float as a field: its bits.
pub fn float_field(value: f64) -> String {
    format!("{:016X}", bits(value))
}

fn bound_fields(bound: DegreeBound) -> String {
    match bound {
        DegreeBound::Conservative => "conservative 0".to_string(),
        DegreeBound::Relaxed => "relaxed 0".to_string(),
        DegreeBound::Aggressive => "aggressive 0".to_string(),
        DegreeBound::Custom(degree) => format!("custom {degree}"),
    }
}

fn criterion_field(criterion: Criterion) -> &'static str {
    match criterion {
        Criterion::Aic => "aic",
        Criterion::Bic => "bic",
    }
}

fn confidence_fields(confidence: Confidence) -> String {
    let (word, value) = match confidence {
        Confidence::P80 => ("p80", 0.0),
        Confidence::P90 => ("p90", 0.0),
        Confidence::P95 => ("p95", 0.0),
        Confidence::P98 => ("p98", 0.0),
        Confidence::P99 => ("p99", 0.0),
        Confidence::P999 => ("p999", 0.0),
        Confidence::Custom(z) => ("custom", z),
    };
    format!("{word} {}", float_field(value))
}

fn tolerance_fields(tolerance: Tolerance) -> String {
    let (word, value) = match tolerance {
        Tolerance::None => ("none", 0.0),
        Tolerance::Absolute(v) => ("absolute", v),
        Tolerance::Variance(v) => ("variance", v),
        Tolerance::Measurement(v) => ("measurement", v),
    };
    format!("{word} {}", float_field(value))
}

/// The space and the field of a weight; 1 has none.
fn weight_field(weight: f64) -> String {
    if weight == 1.0 {
        String::new()
    } else {
        format!(" {}", float_field(weight))
    }
}

fn sample_fields(sample: Sample) -> String {
    let Sample { x, y, weight } = sample;
    format!("{} {}{}", float_field(x), float_field(y), weight_field(weight))
}

/// The space and the field of a rule; polyfit's has none.
fn pruning_field(rule: PruningRule) -> &'static str {
    match rule {
        PruningRule::Positive => "",
        PruningRule::Size => " size",
    }
}

fn settings_fields(settings: Settings) -> String {
    format!(
        "{} {} {} {}{}",
        bound_fields(settings.bound),
        criterion_field(settings.criterion),
        confidence_fields(settings.confidence),
        tolerance_fields(settings.tolerance),
        pruning_field(settings.pruning)
    )
}

/// The space and the field of bytes; no bytes have none.
fn bytes_field(bytes: &[u8]) -> String {
    let digits = bytes.iter().map(|byte| format!("{byte:02X}"));
    if bytes.is_empty() {
        String::new()
    } else {
        format!(" {}", digits.collect::<String>())
    }
}

/// The line that asks for this.
impl fmt::Display for Request {
    fn fmt(&self, f: &mut fmt::Formatter<'_>) -> fmt::Result {
        match self {
            Request::Lent { name, length } => write!(f, "lent {} {length}", name.word()),
            Request::Put { name, index, value } => {
                write!(f, "put {} {index} {}", name.word(), float_field(*value))
            }
            Request::PutNumber { name, index, number } => {
                write!(f, "put {} {index} {number}", name.word())
            }
            Request::Row { index, sample: SurfaceSample { x, z, y } } => {
                let [x, z, y] = [*x, *z, *y].map(float_field);
                write!(f, "row {index} {x} {z} {y}")
            }
            Request::Count(count) => write!(f, "count {count}"),
            Request::Show { name, from, to } => write!(f, "show {} {from} {to}", name.word()),
            Request::Call(call) => call.fmt(f),
        }
    }
}

/// The line that asks for this; a reader has one that is never read.
impl fmt::Display for Call {
    fn fmt(&self, f: &mut fmt::Formatter<'_>) -> fmt::Result {
        match self {
            Call::Open => write!(f, "open"),
            Call::Add(sample) => write!(f, "add {}", sample_fields(*sample)),
            Call::AddWindow(sample) => write!(f, "window {}", sample_fields(*sample)),
            Call::Correct { index, y } => write!(f, "correct {index} {}", float_field(*y)),
            Call::Withdraw { index } => write!(f, "withdraw {index}"),
            Call::AddFrame(bytes) => write!(f, "frame{}", bytes_field(bytes)),
            Call::AddLines(text) => write!(f, "lines{}", bytes_field(text)),
            Call::Carry => write!(f, "carry"),
            Call::Fit { degree } => write!(f, "fit {degree}"),
            Call::Report(settings) => write!(f, "report {}", settings_fields(*settings)),
            Call::Split { limit, settings } => {
                write!(f, "split {limit} {}", settings_fields(*settings))
            }
            Call::Losses(settings) => write!(f, "losses {}", settings_fields(*settings)),
            Call::Scores(settings) => write!(f, "scores {}", settings_fields(*settings)),
            Call::Validate { folds, bound, criterion } => {
                let criterion = criterion_field(*criterion);
                write!(f, "validate {folds} {} {criterion}", bound_fields(*bound))
            }
            Call::Band { x, degree, confidence, tolerance } => write!(
                f,
                "band {} {degree} {} {}",
                float_field(*x),
                confidence_fields(*confidence),
                tolerance_fields(*tolerance)
            ),
            Call::SurfaceFit { degree } => write!(f, "surface_fit {degree}"),
            Call::SurfaceReport(settings) => {
                write!(f, "surface_report {}", settings_fields(*settings))
            }
            Call::SurfaceBand { site, degree, confidence, tolerance } => write!(
                f,
                "surface_band {} {} {degree} {} {}",
                float_field(site.x),
                float_field(site.z),
                confidence_fields(*confidence),
                tolerance_fields(*tolerance)
            ),
            Call::Start { quota } => write!(f, "start {quota}"),
            Call::Renew => write!(f, "renew"),
            Call::GroupReport { group, settings } => {
                write!(f, "group_report {group} {}", settings_fields(*settings))
            }
            Call::GroupSurfaceReport { group, settings } => {
                write!(f, "group_surface_report {group} {}", settings_fields(*settings))
            }
            Call::GroupSplit { group, settings } => {
                write!(f, "group_split {group} {}", settings_fields(*settings))
            }
            Call::SeasonOpen => write!(f, "season_open"),
            Call::Season { stake, call } => write!(f, "{}", stake_line(*stake, call)),
            Call::SeasonReport(settings) => {
                write!(f, "season_report {}", settings_fields(*settings))
            }
            Call::Reader(bytes) => write!(f, "reader{}", bytes_field(bytes)),
        }
    }
}

impl fmt::Display for Malformed {
    fn fmt(&self, f: &mut fmt::Formatter<'_>) -> fmt::Result {
        let message = match self.message {
            Message::NotACall => "not a call",
            Message::NotAName => "not a name",
            Message::NotANumber => "not a number",
            Message::NotAFloat => "not a float",
            Message::NotHexadecimal => "not hexadecimal",
            Message::TooLarge => "too large",
            Message::Missing => "missing",
            Message::OneTooMany => "one too many",
        };
        write!(f, "field {}: {message}", self.field)
    }
}

#[cfg(test)]
mod tests {
    use super::*;

    /// What is said of a malformed line.
    fn said(line: &str) -> String {
        match read(line.as_bytes()) {
            Ok(_) => "fits".to_string(),
            Err(malformed) => malformed.to_string(),
        }
    }

    const ONE: &str = "3FF0000000000000";

    #[test]
    fn first_field_that_does_not_fit() {
        let cases = [
            ("opened", "field 1: not a call"),
            (" open", "field 1: not a call"),
            (" ", "field 1: not a call"),
            ("open\r", "field 1: not a call"),
            ("Open", "field 1: not a call"),
            ("open ", "field 2: one too many"),
            ("open now please", "field 2: one too many"),
            ("lent x 3", "field 2: not a name"),
            ("lent xs 4200", "fits"),
            ("lent xs 4201", "field 3: too large"),
            ("lent xs", "field 3: missing"),
            ("lent xs ", "field 3: not a number"),
            ("put pruned 0 x", "field 2: not a name"),
            ("put outliers", "field 2: not a name"),
            ("put xs 4200 x", "field 3: too large"),
            ("put xs 4199 x", "field 4: not a float"),
            ("count 999999999", "fits"),
            ("count 0000000001", "field 2: not a number"),
            ("count -1", "field 2: not a number"),
            ("show xs 4200 4200", "fits"),
            ("show xs 4201 x", "field 3: too large"),
            ("show xs 5 x", "field 4: not a number"),
            ("show xs 5 4201", "field 4: too large"),
            ("show xs 5 4 7", "field 3: too large"),
            ("show xs 5 5 7", "field 5: one too many"),
            ("add  x", "field 2: not a float"),
            ("add ", "field 2: not a float"),
            ("add", "field 2: missing"),
            ("add 3FF000000000000", "field 2: not a float"),
            ("add 3FF00000000000000", "field 2: not a float"),
            ("add 3ff000000000000g", "field 2: not a float"),
            (&format!("add {ONE}"), "field 3: missing"),
            (&format!("add {ONE} {ONE}"), "fits"),
            (&format!("add {ONE} {ONE} "), "field 4: not a float"),
            (&format!("add {ONE} {ONE} 2"), "field 4: not a float"),
            (&format!("add {ONE} {ONE} {ONE}"), "fits"),
            (&format!("add {ONE} {ONE} {ONE} {ONE}"), "field 5: one too many"),
            (&format!("window {ONE}"), "field 3: missing"),
            (&format!("window {ONE} {ONE}"), "fits"),
            (&format!("window {ONE} {ONE} 2"), "field 4: not a float"),
            (&format!("window {ONE} {ONE} {ONE} 100"), "field 5: one too many"),
            ("windows", "field 1: not a call"),
            ("lent ws 4200", "fits"),
            ("show ws 0 4200", "fits"),
            (&format!("put ws 4199 {ONE}"), "fits"),
            ("put weights 0", "field 2: not a name"),
            ("frame", "fits"),
            ("frame ", "field 2: not hexadecimal"),
            ("frame 0", "field 2: not hexadecimal"),
            ("frame 0x", "field 2: not hexadecimal"),
            ("frame 00 00", "field 3: one too many"),
            ("lines", "fits"),
            ("lines ", "field 2: not hexadecimal"),
            ("lines 1 2", "field 2: not hexadecimal"),
            ("lines 312032", "fits"),
            ("lines 31 32", "field 3: one too many"),
            ("carry", "fits"),
            ("carry ", "field 2: one too many"),
            ("carry 0", "field 2: one too many"),
            ("carried", "field 1: not a call"),
            ("report tight 0", "field 2: not a name"),
            ("report custom one", "field 3: not a number"),
            ("report relaxed", "field 3: missing"),
            ("report relaxed 0 mse", "field 4: not a name"),
            ("report relaxed 0 aic p96", "field 5: not a name"),
            ("report relaxed 0 aic p95 none", "field 6: not a float"),
            (&format!("report relaxed 0 aic p95 {ONE} none {ONE}"), "fits"),
            (&format!("report relaxed 0 aic p95 {ONE} none {ONE} positive"), "fits"),
            (&format!("report relaxed 0 aic p95 {ONE} none {ONE} "), "field 9: not a name"),
            (&format!("report relaxed 0 aic p95 {ONE} none {ONE} sign"), "field 9: not a name"),
            (
                &format!("report relaxed 0 aic p95 {ONE} none {ONE} size 1"),
                "field 10: one too many",
            ),
            ("split", "field 2: missing"),
            ("split relaxed 0", "field 2: not a number"),
            ("split 1234567890", "field 2: not a number"),
            ("split 30 tight", "field 3: not a name"),
            ("split 30 custom 1 aic", "field 6: missing"),
            (&format!("split 30 custom 1 aic p95 {ONE} none {ONE}"), "fits"),
            (&format!("split 30 custom 1 aic p95 {ONE} none {ONE} size"), "fits"),
            (&format!("split 30 custom 1 aic p95 {ONE} none {ONE} sign"), "field 10: not a name"),
            (
                &format!("split 30 custom 1 aic p95 {ONE} none {ONE} size 1"),
                "field 11: one too many",
            ),
            ("lent before 4200", "fits"),
            ("show after 0 17", "fits"),
            (&format!("put before 16 {ONE}"), "fits"),
            (&format!("losses relaxed 0 aic p95 {ONE} none {ONE}"), "fits"),
            (&format!("losses relaxed 0 aic p95 {ONE} none {ONE} sign"), "field 9: not a name"),
            ("losses relaxed", "field 3: missing"),
            ("loss", "field 1: not a call"),
            ("lent losses 4200", "fits"),
            (&format!("put losses 4199 {ONE}"), "fits"),
            ("lent zs 4200", "fits"),
            (&format!("row 4199 {ONE} {ONE} {ONE}"), "fits"),
            (&format!("row 4200 {ONE} {ONE} {ONE}"), "field 2: too large"),
            (&format!("row 0 {ONE} {ONE}"), "field 5: missing"),
            (&format!("row 0 {ONE} {ONE} {ONE} {ONE}"), "field 6: one too many"),
            ("surface_fit 1234567890", "field 2: not a number"),
            ("surface_fit 4 4", "field 3: one too many"),
            (&format!("surface_report custom 4 aic p95 {ONE} none {ONE} size"), "fits"),
            (&format!("surface_band {ONE} {ONE} 1 p95 {ONE} none {ONE}"), "fits"),
            (&format!("surface_band {ONE} 1 p95 {ONE} none {ONE}"), "field 3: not a float"),
            ("surface", "field 1: not a call"),
            (&format!("scores relaxed 0 aic p95 {ONE} none {ONE}"), "fits"),
            (&format!("scores relaxed 0 aic p95 {ONE} none {ONE} sign"), "field 9: not a name"),
            ("scores", "field 2: missing"),
            ("score", "field 1: not a call"),
            ("lent solved 15", "fits"),
            ("show solved 0 17", "fits"),
            (&format!("put scores 16 {ONE}"), "fits"),
            (&format!("put solved 0 {ONE}"), "field 2: not a name"),
            ("start", "field 2: missing"),
            ("start 999999999", "fits"),
            ("start 1 2", "field 3: one too many"),
            ("renew", "fits"),
            ("renew 0", "field 2: one too many"),
            ("group_report custom 1", "field 2: not a number"),
            (&format!("group_report 8 relaxed 0 aic p95 {ONE} none {ONE}"), "fits"),
            (&format!("group_surface_report 7 custom 4 aic p95 {ONE} none {ONE} size"), "fits"),
            (
                &format!("group_split 0 custom 1 aic p95 {ONE} none {ONE} sign"),
                "field 10: not a name",
            ),
            (&format!("group_split 0 30 custom 1 aic p95 {ONE} none {ONE}"), "field 3: not a name"),
            ("group_band", "field 1: not a call"),
            ("lent table 8", "fits"),
            ("show table 0 10", "fits"),
            ("put table 8 17", "fits"),
            ("put table 4200 17", "field 3: too large"),
            (&format!("put table 0 {ONE}"), "field 4: not a number"),
            ("season_open", "fits"),
            ("season_open 0", "field 2: one too many"),
            ("season_open_stake", "field 2: missing"),
            ("season_open_stake 32", "fits"),
            ("season_open_stake 0 0", "field 3: one too many"),
            ("season_add", "field 2: missing"),
            (&format!("season_add {ONE} {ONE}"), "field 2: not a number"),
            (&format!("season_add 31 {ONE}"), "field 4: missing"),
            (&format!("season_add 31 {ONE} {ONE}"), "fits"),
            (&format!("season_window 999999999 {ONE} {ONE} {ONE}"), "fits"),
            ("season_carry 3", "fits"),
            ("season_frame 3", "fits"),
            ("season_lines 3 3120", "fits"),
            ("season_fit 3", "field 3: missing"),
            ("season_withdraw 3 5 6", "field 4: one too many"),
            ("season_validate 3 2 custom 1", "field 6: missing"),
            (
                &format!("season_report_stake relaxed 0 aic p95 {ONE} none {ONE}"),
                "field 2: not a number",
            ),
            (&format!("season_report relaxed 0 aic p95 {ONE} none {ONE} size"), "fits"),
            (&format!("season_report 0 relaxed 0 aic p95 {ONE} none {ONE}"), "field 2: not a name"),
            ("season_start 1", "field 1: not a call"),
            ("season_surface_fit 1 1", "field 1: not a call"),
            ("season_reader", "field 1: not a call"),
            ("season_", "field 1: not a call"),
            ("lent counts 31", "fits"),
            ("show counts 0 33", "fits"),
            ("put counts 31 4096", "fits"),
            (&format!("put counts 0 {ONE}"), "field 4: not a number"),
            ("put counts 4200 0", "field 3: too large"),
            ("lent sums 8800", "fits"),
            ("lent sums 8801", "field 3: too large"),
            (&format!("put sums 8800 {ONE}"), "field 3: too large"),
            ("show sums 8704 8801", "field 4: too large"),
            ("validate 3 custom 2 bic", "fits"),
            ("validate 3 custom 2 bic 0", "field 6: one too many"),
        ];
        for (line, expected) in cases {
            assert_eq!(said(line), expected, "{line}");
        }
        assert_eq!(said(&format!("band {ONE} 1 p95 {ONE} some")), "field 6: not a name");
        assert_eq!(said(&format!("band {ONE} 1 p95 {ONE} none")), "field 7: missing");
        assert_eq!(said(&format!("correct 4294967296 {ONE}")), "field 2: not a number");
    }

    #[test]
    fn long_lines() {
        let line = |word: &str, length: usize| format!("{word}{}", "0".repeat(length - word.len()));
        assert_eq!(said(&line("frame ", 6 + 131_074)), "fits");
        assert_eq!(said(&line("frame ", 6 + 131_075)), "field 2: not hexadecimal");
        assert_eq!(said(&line("frame ", 6 + 131_076)), "field 2: too large");
        assert_eq!(said(&line("frame x", 6 + 131_076)), "field 2: not hexadecimal");
        assert_eq!(said(&line("frame ", 131_100)), "field 2: too large");
        assert_eq!(said(&line("frame ", 131_101)), "field 1: too large");
        assert_eq!(said(&line("lines ", 6 + 131_074)), "fits");
        assert_eq!(said(&line("lines ", 6 + 131_076)), "field 2: too large");
        assert_eq!(said(&line("#", 131_100)), "fits");
        assert_eq!(said(&line("#", 131_101)), "field 1: too large");
    }

    #[test]
    fn one_nan_is_read() {
        let line = "add fff0000000000001 FFF0000000000000 7FF4000000000000";
        let sample = match read(line.as_bytes()) {
            Ok(Some(Request::Call(Call::Add(sample)))) => sample,
            other => panic!("{other:?}"),
        };
        assert_eq!((sample.x.to_bits(), sample.y), (judge::numbers::NAN_BITS, f64::NEG_INFINITY));
        assert_eq!(sample.weight.to_bits(), judge::numbers::NAN_BITS);
    }

    #[test]
    fn weight_1_or_nothing() {
        let nothing = format!("add {ONE} {ONE}");
        let one = format!("{nothing} {ONE}");
        assert_eq!(read(one.as_bytes()), read(nothing.as_bytes()));
        assert_eq!(read(one.as_bytes()).unwrap().unwrap().to_string(), nothing);
    }

    /// What is written is read as the same.
    #[test]
    fn written_and_read() {
        let lines = [
            "lent outliers 17".to_string(),
            format!("put upper 3 {ONE}"),
            "count 5000".to_string(),
            "show errors 0 16".to_string(),
            "open".to_string(),
            format!("add {ONE} 8000000000000000"),
            format!("add {ONE} {ONE} 0000000000000001"),
            format!("add {ONE} {ONE} 7FF8000000000000"),
            format!("window {ONE} 8000000000000000"),
            format!("window {ONE} {ONE} 0000000000000001"),
            "lent ws 5".to_string(),
            format!("correct 12 {ONE}"),
            "withdraw 0".to_string(),
            "frame".to_string(),
            "frame 000101".to_string(),
            "lines".to_string(),
            "lines 3120320A".to_string(),
            "carry".to_string(),
            "fit 15".to_string(),
            format!("report custom 7 bic p999 0000000000000000 measurement {ONE}"),
            format!("report custom 7 bic p999 0000000000000000 measurement {ONE} size"),
            "split 0 relaxed 0 aic p80 0000000000000000 none 0000000000000000".to_string(),
            format!("split 999999999 custom 3 bic custom {ONE} variance {ONE} size"),
            format!("losses custom 7 bic p999 0000000000000000 measurement {ONE}"),
            format!("losses custom 7 bic p999 0000000000000000 measurement {ONE} size"),
            format!("row 17 {ONE} 8000000000000000 7FF8000000000000"),
            "lent zs 5".to_string(),
            "surface_fit 4".to_string(),
            format!("surface_report custom 4 bic p999 0000000000000000 measurement {ONE}"),
            format!("surface_report relaxed 0 aic p80 0000000000000000 variance {ONE} size"),
            format!("surface_band {ONE} 8000000000000000 2 custom {ONE} absolute {ONE}"),
            format!("scores custom 7 bic p999 0000000000000000 measurement {ONE}"),
            format!("scores custom 7 bic p999 0000000000000000 measurement {ONE} size"),
            "start 0".to_string(),
            "renew".to_string(),
            "put table 8 999999999".to_string(),
            format!("group_report 7 custom 4 bic p999 0000000000000000 measurement {ONE}"),
            format!(
                "group_surface_report 8 relaxed 0 aic p80 0000000000000000 absolute {ONE} size"
            ),
            format!("group_split 0 custom 3 bic custom {ONE} variance {ONE} size"),
            "put counts 31 999999999".to_string(),
            "lent sums 8735".to_string(),
            "season_open".to_string(),
            "season_open_stake 31".to_string(),
            format!("season_add 0 {ONE} 8000000000000000"),
            format!("season_add 32 {ONE} {ONE} 0000000000000001"),
            format!("season_window 999999999 {ONE} {ONE} 0000000000000001"),
            format!("season_correct 31 12 {ONE}"),
            "season_withdraw 31 0".to_string(),
            "season_frame 7".to_string(),
            "season_frame 7 000101".to_string(),
            "season_lines 7".to_string(),
            "season_lines 7 3120320A".to_string(),
            "season_carry 7".to_string(),
            "season_fit 7 15".to_string(),
            format!("season_report_stake 7 custom 7 bic p999 0000000000000000 measurement {ONE}"),
            format!("season_report custom 7 bic p999 0000000000000000 measurement {ONE} size"),
            format!("season_split 7 999999999 custom 3 bic custom {ONE} variance {ONE} size"),
            format!("season_losses 7 custom 7 bic p999 0000000000000000 measurement {ONE}"),
            format!("season_scores 7 custom 7 bic p999 0000000000000000 measurement {ONE} size"),
            "season_validate 7 10 aggressive 0 aic".to_string(),
            format!("season_band 7 {ONE} 2 custom {ONE} none 0000000000000000"),
            "validate 10 aggressive 0 aic".to_string(),
            format!("band {ONE} 2 custom {ONE} none 0000000000000000"),
        ];
        for line in lines {
            let request = read(line.as_bytes()).unwrap().unwrap();
            assert_eq!(request.to_string(), line);
        }
    }
}
