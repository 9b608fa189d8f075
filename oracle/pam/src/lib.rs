//! A second reader and writer of PAM files, written apart from the proved ones, after the public description and the refusals
//! alone. The reader collects the lines of a header and asks what each keyword says; a number stays the digits that write it.
use tulonkasa::SIDE_MOST;

/// The refusals by their numbers.
const SIDE: u32 = 2;
const BUFFER: u32 = 6;
const ZERO_SIDE: u32 = 12;
const HEADER: u32 = 13;
const TUPLES: u32 = 14;
const TEXELS: u32 = 15;

const MAGIC: &[u8] = b"P7\n";
const KEYWORDS: [&[u8]; 5] = [b"WIDTH", b"HEIGHT", b"DEPTH", b"MAXVAL", b"TUPLTYPE"];

/// The most that the description allows as a maximum.
const MAXVAL_MOST: u32 = 65535;

/// What a header says, and where the texels behind it begin.
#[derive(Clone, Copy, Debug, PartialEq, Eq)]
pub struct Header {
    pub width: u32,
    pub height: u32,
    pub texels: usize,
}

/// Answers width and height, and puts the texels in front of the picture. An error is the refusal's number.
pub fn read(file: &[u8], picture: &mut [u8]) -> Result<(u32, u32), u32> {
    let Header { width, height, texels } = header(file)?;
    let count = texel_bytes(width, height);
    let texels = file[texels..].get(..count).ok_or(TEXELS)?;
    picture.get_mut(..count).ok_or(BUFFER)?.copy_from_slice(texels);
    Ok((width, height))
}

/// Answers how many bytes of the file it wrote. An error is the refusal's number.
pub fn write(width: u32, height: u32, picture: &[u8], file: &mut [u8]) -> Result<u32, u32> {
    if width.max(height) > SIDE_MOST {
        return Err(SIDE);
    }
    if width.min(height) == 0 {
        return Err(ZERO_SIDE);
    }
    let texels = picture.get(..texel_bytes(width, height)).ok_or(BUFFER)?;
    let header = spelling(width, height);
    let count = header.len() + texels.len();
    let file = file.get_mut(..count).ok_or(BUFFER)?;
    file[..header.len()].copy_from_slice(header.as_bytes());
    file[header.len()..].copy_from_slice(texels);
    Ok(count as u32)
}

/// The writer's header.
pub fn spelling(width: u32, height: u32) -> String {
    format!("P7\nWIDTH {width}\nHEIGHT {height}\nDEPTH 4\nMAXVAL 255\nTUPLTYPE RGB_ALPHA\nENDHDR\n")
}

/// How many bytes the texels of a picture are. Neither side is above the limit.
pub fn texel_bytes(width: u32, height: u32) -> usize {
    4 * width as usize * height as usize
}

/// The header of a file that holds pictures of the writer's kind. An error is the refusal's number.
pub fn header(file: &[u8]) -> Result<Header, u32> {
    let text = file.strip_prefix(MAGIC).ok_or(HEADER)?;
    let lines = || text.split_inclusive(|&byte| byte == b'\n').filter_map(|line| line.strip_suffix(b"\n"));
    let ends = |line| said(line).is_some_and(|(keyword, _)| keyword == b"ENDHDR");
    let end = lines().position(ends).ok_or(HEADER)?;
    let texels = MAGIC.len() + lines().take(end + 1).map(|line| line.len() + 1).sum::<usize>();

    let all: Vec<_> = lines().take(end).filter_map(said).collect();
    if all.iter().any(|(keyword, _)| !KEYWORDS.contains(keyword)) {
        return Err(HEADER);
    }
    let [widths, heights, depths, maxvals, types] = KEYWORDS
        .map(|name| all.iter().filter(|(keyword, _)| *keyword == name).map(|(_, value)| *value).collect::<Vec<_>>());
    let (width, height, depth, maxval) = (number(&widths)?, number(&heights)?, number(&depths)?, number(&maxvals)?);
    if above(maxval, MAXVAL_MOST) || types.iter().any(|value| value.is_empty()) {
        return Err(HEADER);
    }
    if depth != b"4" || maxval != b"255" || types.join(&b' ') != b"RGB_ALPHA" {
        return Err(TUPLES);
    }
    Ok(Header { width: side(width)?, height: side(height)?, texels })
}

/// The keyword of a line and its value; none of a comment or an empty line.
fn said(line: &[u8]) -> Option<(&[u8], &[u8])> {
    let words = if line.starts_with(b"#") { b"" } else { trimmed(line) };
    let end = words.iter().position(|&byte| is_white(byte)).unwrap_or(words.len());
    let (keyword, value) = words.split_at(end);
    (!keyword.is_empty()).then(|| (keyword, trimmed(value)))
}

/// The white space of a line: tab, vertical tab, form feed, carriage return and space.
fn is_white(byte: u8) -> bool {
    matches!(byte, 9 | 11 | 12 | 13 | 32)
}

/// Without white space at the two ends.
fn trimmed(bytes: &[u8]) -> &[u8] {
    let Some(first) = bytes.iter().position(|&byte| !is_white(byte)) else { return b"" };
    let last = bytes.iter().rposition(|&byte| !is_white(byte)).expect("the first one at least");
    &bytes[first..=last]
}

/// The digits of a number that stands exactly once and is not 0, without leading zeros.
fn number<'a>(values: &[&'a [u8]]) -> Result<&'a [u8], u32> {
    let [value] = values else { return Err(HEADER) };
    if !value.iter().all(u8::is_ascii_digit) {
        return Err(HEADER);
    }
    let first = value.iter().position(|&digit| digit != b'0').ok_or(HEADER)?;
    Ok(&value[first..])
}

/// Whether the number is above a limit: it has more digits, or as many and they come later in the order of bytes.
fn above(digits: &[u8], most: u32) -> bool {
    let most = most.to_string();
    (digits.len(), digits) > (most.len(), most.as_bytes())
}

fn side(digits: &[u8]) -> Result<u32, u32> {
    if above(digits, SIDE_MOST) {
        return Err(SIDE);
    }
    Ok(digits.iter().fold(0, |number, digit| 10 * number + u32::from(digit - b'0')))
}
