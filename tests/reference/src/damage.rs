//! Lines that cannot be read, in every form.

use crate::generate::Line;
use crate::lines::MAX_LINE;
use crate::random::Random;

/// The forms of an unreadable line. A last line without its line feed comes
/// from `inputs::write_input`.
#[derive(Clone, Copy, Debug, PartialEq, Eq)]
pub enum Form {
    Empty,
    DomainOnly,
    NoDomain,
    FieldMissing,
    FieldExtra,
    FieldEmpty,
    CommaLast,
    LettersUnknown,
    LettersLower,
    LettersLong,
    LettersEmpty,
    LeadingZero,
    TwoTo64,
    Wrapping,
    ManyDigits,
    Sign,
    Blank,
    Tab,
    CarriageReturn,
    Quotes,
    Nul,
    HighByte,
    NotDecimal,
    OtherComma,
    Bytes201,
    Longer,
}

pub const FORMS: [Form; 26] = [
    Form::Empty,
    Form::DomainOnly,
    Form::NoDomain,
    Form::FieldMissing,
    Form::FieldExtra,
    Form::FieldEmpty,
    Form::CommaLast,
    Form::LettersUnknown,
    Form::LettersLower,
    Form::LettersLong,
    Form::LettersEmpty,
    Form::LeadingZero,
    Form::TwoTo64,
    Form::Wrapping,
    Form::ManyDigits,
    Form::Sign,
    Form::Blank,
    Form::Tab,
    Form::CarriageReturn,
    Form::Quotes,
    Form::Nul,
    Form::HighByte,
    Form::NotDecimal,
    Form::OtherComma,
    Form::Bytes201,
    Form::Longer,
];

/// An RG line of exactly `length` bytes, readable but for its length.
pub fn register_line(length: usize) -> Vec<u8> {
    let mut line = b"0,RG,0,1,0,1".to_vec();
    while line.len() + 3 < length {
        line.extend_from_slice(b",1");
    }
    while line.len() < length {
        line.extend_from_slice(if length - line.len() == 3 {
            b",10"
        } else {
            b",1"
        });
    }
    line
}

/// A BT line of exactly `length` bytes, 36 to 340: readable but for its length,
/// with numbers of up to 20 digits.
pub fn boot_line(length: usize) -> Vec<u8> {
    let mut line = b"0,BT".to_vec();
    let mut more = length - 36;
    for _ in 0..16 {
        let digits = 1 + more.min(19);
        more -= digits - 1;
        line.push(b',');
        line.resize(line.len() + digits, b'1');
    }
    line
}

/// The line in a form that cannot be read.
pub fn damage(line: &Line, form: Form, random: &mut Random) -> Vec<u8> {
    let mut fields = line.fields();
    // A field that holds a number: the domain or an argument.
    let mut at = random.index(fields.len() - 1);
    if at > 0 {
        at += 1;
    }
    match form {
        Form::Empty => return Vec::new(),
        Form::DomainOnly => fields.truncate(1),
        Form::NoDomain => {
            fields.remove(0);
        }
        Form::FieldMissing => {
            let needed = match line.letters {
                "RG" => 4,
                _ => line.args.len(),
            };
            match needed {
                0 => fields.truncate(1),
                _ => fields.truncate(2 + random.index(needed)),
            }
        }
        Form::FieldExtra => {
            if line.letters == "RG" {
                fields[1] = "IN".into();
                fields.truncate(6);
            }
            fields.push(random.below(10).to_string());
        }
        Form::FieldEmpty => fields[at].clear(),
        Form::CommaLast => fields.push(String::new()),
        Form::LettersUnknown => {
            fields[1] = random
                .pick(&["XX", "QQ", "BR", "RR", "TR", "DR", "R", "0", "00", "?!"])
                .into();
        }
        Form::LettersLower => {
            fields[1] = if random.percent(50) {
                line.letters.to_lowercase()
            } else {
                line.letters[..1].to_string() + &line.letters[1..].to_lowercase()
            };
        }
        Form::LettersLong => {
            let more = random.pick(&["R", "D", "0", " ", "\0", "\r"]);
            fields[1] += more;
        }
        Form::LettersEmpty => fields[1].clear(),
        Form::LeadingZero => fields[at].insert_str(0, random.pick(&["0", "00", "0000000"])),
        Form::TwoTo64 => fields[at] = (1u128 << 64).to_string(),
        Form::Wrapping => {
            let value: u128 = fields[at].parse().unwrap_or(0);
            let times = random.pick(&[1u128, 2, 10, 1 << 32]);
            fields[at] = (value + (times << 64)).to_string();
        }
        Form::ManyDigits => {
            let digit = random.pick(&["1", "9"]);
            fields[at] = digit.repeat(21 + random.index(40));
        }
        Form::Sign => fields[at].insert_str(0, random.pick(&["+", "-"])),
        Form::Blank => {
            let place = random.pick(&[0, fields[at].len()]);
            fields[at].insert(place, ' ');
        }
        Form::Tab => {
            let place = random.pick(&[0, fields[at].len()]);
            fields[at].insert(place, '\t');
        }
        Form::CarriageReturn => {
            let last = fields.len() - 1;
            fields[last].push('\r');
        }
        Form::Quotes => fields[at] = format!("\"{}\"", fields[at]),
        Form::Nul => {
            let place = random.pick(&[0, fields[at].len()]);
            fields[at].insert(place, '\0');
        }
        Form::HighByte => {
            let mut bytes = line.bytes();
            let place = random.index(bytes.len() + 1);
            bytes.insert(place, random.pick(&[0x80, 0xb0, 0xff, 0xb2]));
            return bytes;
        }
        Form::NotDecimal => {
            fields[at] = random
                .pick(&["x", "0x10", "1e3", "1.0", "1_0", "1a", "a1", "/", ":", "R"])
                .into();
        }
        Form::OtherComma => {
            return fields
                .join(random.pick(&[";", ", ", " ", "\t", ",,"]))
                .into_bytes()
        }
        Form::Bytes201 => return register_line(MAX_LINE + 1),
        Form::Longer => {
            let most = random.pick(&[3, 60, 4000]);
            let length = MAX_LINE + 2 + random.index(most);
            if random.percent(30) {
                // Readable as far as its first 200 bytes go.
                let mut bytes = line.bytes();
                bytes.resize(length, b'0');
                return bytes;
            }
            return register_line(length);
        }
    }
    fields.join(",").into_bytes()
}
