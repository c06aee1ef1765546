//! The sheet and its listing, as text.
use super::{walk, OLD, PAST, SETTING, SHEET, SIZE};

const MOST_BYTES: usize = 4096;

/// What a sheet says.
struct Sheet<'a> {
    w: usize,
    h: usize,
    limit: usize,
    digits: &'a [u8],
}

/// A refusal's number, and for 12 its line.
type Refused = (u32, usize);

/// All that `edgelist` prints for a sheet.
pub fn listing(bytes: &[u8]) -> String {
    match read(bytes).and_then(|sheet| list(&sheet)) {
        Ok(text) => text,
        Err((SHEET, line)) => format!("refused={SHEET} line={line}\n"),
        Err((number, _)) => format!("refused={number}\n"),
    }
}

fn read(bytes: &[u8]) -> Result<Sheet<'_>, Refused> {
    let mut at = 0;
    let w = line(bytes, &mut at, 1, "width=", number)?;
    let h = line(bytes, &mut at, 2, "height=", number)?;
    let limit = line(bytes, &mut at, 3, "tr_log2=", number)?;
    let edge = line(bytes, &mut at, 4, "v_edge=", |text| (text == b"own" || text == b"source").then_some(text))?;
    let digits = line(bytes, &mut at, 5, "splits=", |text| text.iter().all(|d| b"01".contains(d)).then_some(text))?;
    if at < bytes.len() {
        return Err((SHEET, 6));
    }
    if ![w, h].iter().all(|&n| n % 4 == 0 && (4..=256).contains(&n)) {
        return Err((SIZE, 0));
    }
    if limit != 5 && limit != 6 {
        return Err((SETTING, 0));
    }
    if edge == b"source" {
        return Err((OLD, 0));
    }
    Ok(Sheet { w, h, limit, digits })
}

/// The value of the line that starts at `at`: all of it, its newline included, lies before byte 4,097.
fn line<'a, T>(
    bytes: &'a [u8],
    at: &mut usize,
    number: usize,
    name: &str,
    value: impl Fn(&'a [u8]) -> Option<T>,
) -> Result<T, Refused> {
    let refused = (SHEET, number);
    let rest = &bytes[*at..];
    let length = rest.iter().position(|&byte| byte == b'\n').ok_or(refused)?;
    *at += length + 1;
    if *at > MOST_BYTES {
        return Err(refused);
    }
    let text = rest[..length].strip_prefix(name.as_bytes()).ok_or(refused)?;
    value(text).ok_or(refused)
}

/// One to four digits without leading zeros.
fn number(text: &[u8]) -> Option<usize> {
    let digits = (1..=4).contains(&text.len()) && text.iter().all(u8::is_ascii_digit);
    let good = digits && (text.len() == 1 || text[0] != b'0');
    good.then(|| text.iter().fold(0, |n, d| 10 * n + (d - b'0') as usize))
}

fn list(sheet: &Sheet) -> Result<String, Refused> {
    let mut digits = sheet.digits.iter();
    let leaves = walk::leaves(sheet.w, sheet.h, |_, _, _| digits.next().map(|&d| d == b'1').ok_or(SHEET));
    let leaves = leaves.map_err(|number| if number == PAST { (PAST, 0) } else { (SHEET, 5) })?;
    if digits.next().is_some() {
        return Err((SHEET, 5));
    }
    let vertical = walk::vertical(sheet.w, sheet.h, &leaves, sheet.limit);
    let horizontal = walk::horizontal(&leaves, sheet.limit);
    let mut text = String::new();
    vertical.iter().for_each(|(x, y)| text += &format!("v {x} {y}\n"));
    horizontal.iter().for_each(|(x, y)| text += &format!("h {x} {y}\n"));
    text += &format!("v_count={}\nh_count={}\n", vertical.len(), horizontal.len());
    Ok(text)
}
