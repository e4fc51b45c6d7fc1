//! Refusals 3 and 22 told apart: what about a line of a rule file or of a script is of another form. The library
//! judges; here is only looked for what a person can mend.

/// The forms that the lines of a text have.
pub struct Forms {
    /// The letters, and how many numbers follow each.
    lines: &'static [(u8, usize)],
    /// What is said of another letter.
    other: &'static str,
    /// What is said of a query.
    query: &'static str,
}

/// The forms of a rule file.
pub const RULES: Forms = Forms {
    lines: &[(b'T', 3), (b'P', 3), (b'I', 2), (b'C', 2), (b'L', 3)],
    other: "the line begins with none of the letters T, P, I, C and L",
    query: "a query stands in the rule file; queries belong into a file of their own (rulefile sheet FILE QUERIES)",
};

/// The form of a script.
pub const SCRIPT: Forms = Forms {
    lines: &[(b'S', 3)],
    other: "the line does not begin with the letter S",
    query: "a query stands in the script; a line of a script is `S,unit,iso,direction`",
};

/// The highest number of a line of a rule file or of a script.
const MOST: u64 = 65_535;

/// A line of a file, counted from 1, with its ending.
pub fn line(file: &[u8], number: usize) -> Option<&[u8]> {
    let place = number.checked_sub(1)?;
    file.split_inclusive(|byte| *byte == b'\n').nth(place)
}

/// A line without its ending.
pub fn text(line: &[u8]) -> &[u8] {
    let line = line.strip_suffix(b"\n").unwrap_or(line);
    line.strip_suffix(b"\r").unwrap_or(line)
}

/// A line as it can be printed, without its ending: what cannot be seen is written as `\xNN`.
pub fn shown_whole(line: &[u8]) -> String {
    let mut shown = String::new();
    for byte in text(line) {
        match byte {
            b' '..=b'~' => shown.push(char::from(*byte)),
            b'\r' => shown += "\\r",
            b'\t' => shown += "\\t",
            _ => shown += &format!("\\x{byte:02X}"),
        }
    }
    shown
}

/// The same, of a long line its beginning.
pub fn shown(line: &[u8]) -> String {
    match text(line).get(..60) {
        Some(front) => shown_whole(front) + " …",
        None => shown_whole(line),
    }
}

/// What is wrong with the form of a line.
pub fn fault(forms: &Forms, file: &[u8], number: usize) -> Option<String> {
    let line = line(file, number)?;
    whole_file(file, number)
        .or_else(|| ending(file, line))
        .or_else(|| query(forms, line))
        .or_else(|| strange_byte(line))
        .or_else(|| letter(forms, line))
        .or_else(|| fields(forms, line))
}

/// The most bytes of a query, its ending among them.
const QUERY: usize = 200;

/// What is wrong with a line that should be a query, `Q,iso,direction,budget,letters`.
pub fn query_fault(line: &[u8]) -> Option<String> {
    let fields: Vec<&[u8]> = text(line).splitn(5, |byte| *byte == b',').collect();
    let number = |place: usize, most: u64| {
        let field = String::from_utf8_lossy(fields.get(place)?).into_owned();
        self::field(&field, most).map(|why| shown_whole(why.as_bytes()))
    };
    match (line.len(), &fields[..]) {
        (bytes, _) if bytes > QUERY => {
            Some(format!("it has {bytes} bytes; a query has at most {QUERY}"))
        }
        _ if !line.ends_with(b"\n") => Some("it does not end with a line feed".to_string()),
        (_, [b"Q", rest @ ..]) if rest.len() < 4 => Some(format!(
            "a query has four commas, here there are {}",
            rest.len()
        )),
        (_, [b"Q", _, direction, ..]) => number(1, MOST)
            .or_else(|| number(2, MOST))
            .or_else(|| {
                let (other, shown) = (*direction != b"0" && *direction != b"1", shown(direction));
                other.then(|| format!("the direction is 0 for there or 1 for back, not {shown}"))
            })
            .or_else(|| number(3, u32::MAX.into())),
        _ => Some("a query begins with Q and a comma".to_string()),
    }
}

/// What is wrong with a line that should be a unit, `tline,number`.
pub fn unit_fault(file: &[u8], number: usize) -> Option<String> {
    numbers_fault(file, number, "a unit")
}

/// What is wrong with a line that should be a pair, `from,to`.
pub fn pair_fault(file: &[u8], number: usize) -> Option<String> {
    numbers_fault(file, number, "a pair")
}

/// What is wrong with a line that should be two numbers.
fn numbers_fault(file: &[u8], number: usize, what: &str) -> Option<String> {
    let line = line(file, number)?;
    whole_file(file, number)
        .or_else(|| ending(file, line))
        .or_else(|| strange_byte(line))
        .or_else(|| two_numbers(line, what))
}

fn two_numbers(line: &[u8], what: &str) -> Option<String> {
    let text = String::from_utf8_lossy(text(line));
    let fields: Vec<&str> = text.split(',').collect();
    let most = u32::MAX.into();
    match fields.len() {
        2 => fields
            .into_iter()
            .find_map(|field| self::field(field, most)),
        given => Some(format!("{what} has 2 numbers, here there are {given}")),
    }
}

/// Beginnings of files that are no text, and what they are.
const KINDS: &[(&[u8], &str)] = &[
    (b"\x89PNG", "a picture (PNG)"),
    (b"\xFF\xD8\xFF", "a picture (JPEG)"),
    (b"%PDF", "a PDF"),
    (
        b"PK\x03\x04",
        "a ZIP archive, or a document of an office program",
    ),
    (b"\x1F\x8B", "a compressed file (gzip)"),
    (b"7z\xBC\xAF", "an archive (7z)"),
    (b"\xD0\xCF\x11\xE0", "a document of an office program"),
    (b"\x7FELF", "a program"),
    (b"MZ", "a program"),
];

/// What bytes are that are no text: a known kind of file, or bytes that no text has, in a part that is looked at.
pub fn no_text(file: &[u8]) -> Option<String> {
    let front = &file[..file.len().min(4096)];
    let kind = KINDS.iter().find(|kind| front.starts_with(kind.0));
    let control = |byte: &u8| matches!(byte, 0..=8 | 11 | 12 | 14..=31 | 127);
    let odd = front.iter().filter(|byte| control(byte)).count();
    // a byte cut in two at the end of the part is no fault of the text
    let text = match std::str::from_utf8(front) {
        Ok(_) => true,
        Err(error) => error.error_len().is_none(),
    };
    match kind {
        Some((_, kind)) if !text || odd > 0 || file.starts_with(b"%PDF") => {
            Some(format!("its bytes are no text: it is {kind}"))
        }
        _ if odd * 10 > front.len() => Some("its bytes are no text".to_string()),
        _ if !text && odd > 0 => Some("its bytes are no text".to_string()),
        _ => None,
    }
}

/// Encodings other than plain text, and what is no text.
fn whole_file(file: &[u8], number: usize) -> Option<String> {
    if is_utf_16(file) {
        let why = "the file is in UTF-16, two bytes a letter: it was saved as \"Unicode\"; ask for plain text";
        return Some(why.to_string());
    }
    if let Some(why) = no_text(file) {
        return Some(format!("{why}; ask for the file as plain text"));
    }
    if number == 1 && file.starts_with(&[0xEF, 0xBB, 0xBF]) {
        let why = "the file begins with a byte order mark (bytes EF BB BF): an editor saved it as \"UTF-8 with BOM\"; \
            ask for plain text";
        return Some(why.to_string());
    }
    None
}

/// A byte order mark of UTF-16, or zeros at every second place.
pub fn is_utf_16(file: &[u8]) -> bool {
    let pairs = file.len() / 2;
    let zeros = |place: usize| file.iter().skip(place).step_by(2).all(|byte| *byte == 0);
    let letters = |place: usize| file.iter().skip(place).step_by(2).all(|byte| *byte != 0);
    file.starts_with(&[0xFF, 0xFE])
        || file.starts_with(&[0xFE, 0xFF])
        || (pairs > 0 && ((zeros(0) && letters(1)) || (zeros(1) && letters(0))))
}

/// Carriage returns that are not of an ending, and an ending that is missing.
fn ending(file: &[u8], line: &[u8]) -> Option<String> {
    let ended = line.ends_with(b"\n");
    let text = line.strip_suffix(b"\n").unwrap_or(line);
    let text = match ended {
        true => text.strip_suffix(b"\r").unwrap_or(text),
        false => text,
    };
    let returns = text.iter().filter(|byte| **byte == b'\r').count();
    if returns > 0 && !file.contains(&b'\n') {
        let why = "the lines end with carriage returns alone, as old editors saved them; a line ends with a line feed";
        return Some(why.to_string());
    }
    if let Some(place) = text.iter().position(|byte| *byte == b'\r') {
        return Some(format!(
            "a carriage return stands at byte {} of the line; it may stand only directly before the line feed",
            place + 1
        ));
    }
    if !ended {
        let why = "the last line does not end with a line feed: the file may have been cut off";
        return Some(why.to_string());
    }
    None
}

/// A query among other lines.
fn query(forms: &Forms, line: &[u8]) -> Option<String> {
    line.starts_with(b"Q").then(|| forms.query.to_string())
}

/// A byte that no line has.
fn strange_byte(line: &[u8]) -> Option<String> {
    let text = text(line);
    if text.is_empty() {
        return Some("the line is empty".to_string());
    }
    let place = text
        .iter()
        .position(|byte| !byte.is_ascii_alphanumeric() && *byte != b',')?;
    let at = format!("at byte {} of the line", place + 1);
    Some(match text[place] {
        b' ' | b'\t' => format!("there is a blank {at}; a line has none"),
        b';' => format!("there is a semicolon {at}; a spreadsheet program may have saved the file; commas part the fields"),
        b'"' | b'\'' => format!("there is a quotation mark {at}; nothing is quoted"),
        b'+' | b'-' | b'.' => format!("there is a sign or a point {at}; numbers are whole and have none"),
        0 => format!("there is a zero byte {at}: the file is no text, or was damaged"),
        byte => match std::str::from_utf8(text).is_ok() {
            true => format!("there is a letter that no line has ({}, hexadecimal {byte:02X}) {at}", character(text, place)),
            false => format!("there is a byte that is no text (hexadecimal {byte:02X}) {at}"),
        },
    })
}

/// The character at a place of a text, as it can be printed.
fn character(text: &[u8], place: usize) -> String {
    let text = String::from_utf8_lossy(&text[place..]);
    let first = text.chars().next().unwrap_or_default();
    match first.is_control() {
        true => "which cannot be seen".to_string(),
        false => first.to_string(),
    }
}

/// The letter in front.
fn letter(forms: &Forms, line: &[u8]) -> Option<String> {
    let first = *line.first()?;
    let known = |letter: u8| forms.lines.iter().any(|form| form.0 == letter);
    if known(first) {
        return None;
    }
    let upper = first.to_ascii_uppercase();
    if known(upper) {
        let (small, large) = (char::from(first), char::from(upper));
        return Some(format!(
            "the line begins with a small {small}; its letter is {large}"
        ));
    }
    Some(forms.other.to_string())
}

/// The numbers behind the letter.
fn fields(forms: &Forms, line: &[u8]) -> Option<String> {
    let text = String::from_utf8_lossy(text(line));
    let mut fields = text.split(',');
    let letter = fields.next()?;
    let mut known = forms.lines.iter();
    let Some((_, wanted)) = known.find(|form| letter.as_bytes() == [form.0]) else {
        return Some("a comma is missing behind the letter".to_string());
    };
    let fields: Vec<&str> = fields.collect();
    if fields.len() != *wanted {
        let given = fields.len();
        return Some(format!(
            "{wanted} numbers follow the letter {letter}, here there are {given}"
        ));
    }
    fields
        .into_iter()
        .find_map(|field| self::field(field, MOST))
}

/// A number of 32 bits, as lines have it.
pub fn number(field: &str) -> Option<u32> {
    let fault = self::field(field, u32::MAX.into());
    field.parse().ok().filter(|_| fault.is_none())
}

/// What is wrong with a number of at most this.
fn field(field: &str, most: u64) -> Option<String> {
    if field.is_empty() {
        Some("a number is missing between two commas or at the end".to_string())
    } else if !field.bytes().all(|byte| byte.is_ascii_digit()) {
        Some(format!("{field} is not a number"))
    } else if field.len() > 1 && field.starts_with('0') {
        Some(format!("the number {field} has a leading zero"))
    } else if field.parse().map_or(true, |number: u64| number > most) {
        Some(format!("the number {field} is over {most}"))
    } else {
        None
    }
}
