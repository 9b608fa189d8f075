//! Files and pictures with the answers that are due by the rule.
use crate::input::pattern;
use pam::{texel_bytes, Header};
use tulonkasa::SIDE_MOST;

/// The writer's header of a picture of 2 by 1 texels, and the texels. Most cases are this with a thing or two changed.
const WRITTEN: &str = "P7\nWIDTH 2\nHEIGHT 1\nDEPTH 4\nMAXVAL 255\nTUPLTYPE RGB_ALPHA\nENDHDR\n";
const HEADER: &[u8] = WRITTEN.as_bytes();
const TEXELS: &[u8] = &[1, 2, 3, 4, 5, 6, 7, 8];

/// A file to be read, and the length of the picture that is lent for it.
pub struct Read {
    pub name: &'static str,
    pub file: Vec<u8>,
    pub room: usize,
    /// An error is the refusal's number.
    pub answer: Result<Header, u32>,
}

/// A picture to be written by its size and the length of its buffer, and the length of the file that is lent for it.
pub struct Write {
    pub width: u32,
    pub height: u32,
    pub picture: usize,
    pub room: usize,
    /// The count of bytes written. An error is the refusal's number.
    pub answer: Result<usize, u32>,
}

/// Bytes of the file where they first stand, and what stands in their place.
type Edit<'a> = (&'a [u8], &'a [u8]);

pub fn reads() -> Vec<Read> {
    let parts =
        [taken(), no_magic(), no_end(), no_line(), not_once(), no_number(), out_of_range(), tuples(), sides(), lengths()];
    parts.into_iter().flatten().collect()
}

fn edited(edits: &[Edit]) -> Vec<u8> {
    let mut file = [HEADER, TEXELS].concat();
    for &(old, new) in edits {
        let at = file.windows(old.len()).position(|bytes| bytes == old).expect("an edit of what is there");
        file.splice(at..at + old.len(), new.iter().copied());
    }
    file
}

/// A case with a picture that is long enough.
fn read(name: &'static str, file: Vec<u8>, answer: Result<Header, u32>) -> Read {
    Read { name, room: file.len(), file, answer }
}

/// Edited files that are refused.
fn refused(refusal: u32, rows: &[(&'static str, &[Edit])]) -> Vec<Read> {
    rows.iter().map(|&(name, edits)| read(name, edited(edits), Err(refusal))).collect()
}

fn taken() -> Vec<Read> {
    let wide = |width, texels| Ok(Header { width, height: 1, texels });
    let case = |name, edits: &[Edit], texels| read(name, edited(edits), wide(2, texels));
    let crlf = WRITTEN.replace('\n', "\r\n").replacen("\r\n", "\n", 1);
    let comment = ["HEIGHT 1\n#", &"c".repeat(299), "\n"].concat();
    let most = SIDE_MOST.to_string();
    let reordered = b"P7\nTUPLTYPE RGB_ALPHA\nMAXVAL 255\nDEPTH 4\nHEIGHT 1\nWIDTH 2\nENDHDR\n";
    let spaced = b"P7\n  WIDTH 2 \n\tHEIGHT \t 1\nDEPTH  4\t\nMAXVAL\x0b255\nTUPLTYPE\t RGB_ALPHA \t\n ENDHDR \n";
    vec![
        case("the writer's spelling", &[], 65),
        case("lines in another order", &[(HEADER, reordered)], 65),
        case("a comment right after the magic line", &[(b"P7\n", b"P7\n# made by hand\n")], 80),
        case("a comment with bytes 0, 228 and 255", &[(b"ENDHDR", b"# \x00\xe4\xff\nENDHDR")], 71),
        case("comments that look like lines", &[(b"HEIGHT 1\n", b"HEIGHT 1\n#WIDTH 9\n#ENDHDR\n")], 82),
        case("a comment of 300 bytes", &[(b"HEIGHT 1\n", comment.as_bytes())], 366),
        case("empty lines, and lines of white space", &[(b"P7\n", b"P7\n\n \t \n")], 70),
        case("white space before the keyword, behind it and at the end", &[(HEADER, spaced)], 78),
        case("carriage returns before every newline but the first", &[(HEADER, crlf.as_bytes())], 71),
        read(
            "leading zeros, which are decimal",
            edited(&[(b"2\n", b"0010\n"), (b"255", b"0255"), (TEXELS, &TEXELS.repeat(5))]),
            wide(10, 69),
        ),
        case("thirty zeros before the digit", &[(b"2\n", b"0000000000000000000000000000002\n")], 95),
        case("words after ENDHDR", &[(b"ENDHDR", b"ENDHDR of header")], 75),
        case("bytes after the texels", &[(TEXELS, b"\x01\x02\x03\x04\x05\x06\x07\x08P7\nmore")], 65),
        read(
            "a side at the limit",
            edited(&[(b"2", most.as_bytes()), (TEXELS, &pattern(texel_bytes(SIDE_MOST, 1)))]),
            wide(SIDE_MOST, 64 + most.len()),
        ),
        Read { room: 8, ..case("a picture buffer of exactly 8 bytes", &[], 65) },
        case("texels that hold newlines and the word ENDHDR", &[(TEXELS, b"ENDHDR\n\n")], 65),
    ]
}

fn no_magic() -> Vec<Read> {
    let crlf = WRITTEN.replace('\n', "\r\n");
    let whole = &[HEADER, TEXELS].concat();
    refused(
        13,
        &[
            ("an empty file", &[(whole, b"")]),
            ("`P7` and nothing more", &[(whole, b"P7")]),
            ("`P7`, newline and nothing more", &[(whole, b"P7\n")]),
            ("another magic number", &[(b"P7", b"P6")]),
            ("small p", &[(b"P7", b"p7")]),
            ("something after `P7` on its line", &[(b"P7", b"P7x")]),
            ("a space after `P7`", &[(b"P7", b"P7 ")]),
            ("a carriage return after `P7`", &[(HEADER, crlf.as_bytes())]),
            ("a comment before it", &[(b"P7", b"# hi\nP7")]),
            ("an empty line before it", &[(b"P7", b"\nP7")]),
            ("a byte-order mark before it", &[(b"P7", b"\xef\xbb\xbfP7")]),
            ("no newline after it", &[(b"P7\n", b"P7 ")]),
        ],
    )
}

fn no_end() -> Vec<Read> {
    let returns = WRITTEN.replace('\n', "\r");
    refused(
        13,
        &[
            ("no ENDHDR", &[(b"ENDHDR\n", b"")]),
            ("no newline after it", &[(b"ENDHDR\n", b"ENDHDR"), (TEXELS, b"")]),
            ("no newline between it and the texels", &[(b"ENDHDR\n", b"ENDHDR")]),
            ("only in a comment", &[(b"ENDHDR", b"#ENDHDR")]),
            ("carriage returns in place of newlines", &[(HEADER, returns.as_bytes())]),
        ],
    )
}

fn no_line() -> Vec<Read> {
    refused(
        13,
        &[
            ("an unknown keyword", &[(b"DEPTH", b"AUTHOR me\nDEPTH")]),
            ("a keyword of more than eight characters", &[(b"DEPTH", b"COPYRIGHTED 2\nDEPTH")]),
            ("small letters", &[(b"WIDTH", b"width")]),
            ("no space after the keyword", &[(b"WIDTH 2", b"WIDTH2")]),
            ("an equals sign", &[(b"WIDTH 2", b"WIDTH=2")]),
            ("`#` after a space", &[(b"DEPTH", b" # hi\nDEPTH")]),
            ("a line of one zero byte", &[(b"DEPTH", b"\x00\nDEPTH")]),
            ("a no-break space is no white space", &[(b"WIDTH 2", b"WIDTH\xa02")]),
            ("the tuple type stuck to its keyword", &[(b"TUPLTYPE ", b"TUPLTYPE")]),
            ("ENDHDR with more letters", &[(b"ENDHDR", b"ENDHDRS")]),
        ],
    )
}

fn not_once() -> Vec<Read> {
    refused(
        13,
        &[
            ("no WIDTH", &[(b"WIDTH 2\n", b"")]),
            ("no HEIGHT", &[(b"HEIGHT 1\n", b"")]),
            ("no DEPTH", &[(b"DEPTH 4\n", b"")]),
            ("no MAXVAL", &[(b"MAXVAL 255\n", b"")]),
            ("WIDTH twice, equal", &[(b"WIDTH 2", b"WIDTH 2\nWIDTH 2")]),
            ("WIDTH twice, different", &[(b"ENDHDR", b"WIDTH 1\nENDHDR")]),
            ("MAXVAL twice", &[(b"ENDHDR", b"MAXVAL 255\nENDHDR")]),
        ],
    )
}

fn no_number() -> Vec<Read> {
    refused(
        13,
        &[
            ("nothing after WIDTH", &[(b"WIDTH 2", b"WIDTH")]),
            ("a letter", &[(b"WIDTH 2", b"WIDTH 2x")]),
            ("hexadecimal", &[(b"WIDTH 2", b"WIDTH 0x2")]),
            ("a plus sign", &[(b"WIDTH 2", b"WIDTH +2")]),
            ("a minus sign", &[(b"WIDTH 2", b"WIDTH -2")]),
            ("a point", &[(b"WIDTH 2", b"WIDTH 2.0")]),
            ("a comma", &[(b"WIDTH 2", b"WIDTH 1,024")]),
            ("two numbers", &[(b"WIDTH 2", b"WIDTH 2 3")]),
            ("a number and a remark", &[(b"WIDTH 2", b"WIDTH 2 # two")]),
            ("a zero byte after the number", &[(b"WIDTH 2", b"WIDTH 2\x00")]),
        ],
    )
}

fn out_of_range() -> Vec<Read> {
    let wide = format!("WIDTH {}", 5 * SIDE_MOST);
    refused(
        13,
        &[
            ("WIDTH 0", &[(b"WIDTH 2", b"WIDTH 0"), (TEXELS, b"")]),
            ("HEIGHT 000", &[(b"HEIGHT 1", b"HEIGHT 000"), (TEXELS, b"")]),
            ("DEPTH 0", &[(b"DEPTH 4", b"DEPTH 0")]),
            ("MAXVAL 0", &[(b"MAXVAL 255", b"MAXVAL 0")]),
            ("MAXVAL 65536", &[(b"MAXVAL 255", b"MAXVAL 65536"), (TEXELS, &TEXELS.repeat(4))]),
            ("MAXVAL 2^64 + 255", &[(b"MAXVAL 255", b"MAXVAL 18446744073709551871")]),
            ("TUPLTYPE with nothing after it", &[(b"TUPLTYPE RGB_ALPHA", b"TUPLTYPE")]),
            ("TUPLTYPE with white space alone, and a good one", &[(b"TUPLTYPE", b"TUPLTYPE \t\nTUPLTYPE")]),
            ("an unknown line beside DEPTH 3", &[(b"DEPTH 4", b"DEPTH 3"), (b"RGB_ALPHA", b"RGB\nAUTHOR me")]),
            (
                "no height beside a width above the limit",
                &[(b"WIDTH 2", wide.as_bytes()), (b"HEIGHT 1", b"HEIGHT 0"), (TEXELS, b"")],
            ),
        ],
    )
}

fn tuples() -> Vec<Read> {
    let wide = format!("WIDTH {}", 5 * SIDE_MOST);
    refused(
        14,
        &[
            ("DEPTH 3, RGB", &[(b"DEPTH 4", b"DEPTH 3"), (b"RGB_ALPHA", b"RGB")]),
            ("DEPTH 5", &[(b"DEPTH 4", b"DEPTH 5"), (TEXELS, &TEXELS.repeat(2))]),
            ("DEPTH 2^64 + 4", &[(b"DEPTH 4", b"DEPTH 18446744073709551620")]),
            ("MAXVAL 254", &[(b"MAXVAL 255", b"MAXVAL 254")]),
            ("MAXVAL 65535", &[(b"MAXVAL 255", b"MAXVAL 65535"), (TEXELS, &TEXELS.repeat(2))]),
            ("no TUPLTYPE", &[(b"TUPLTYPE RGB_ALPHA\n", b"")]),
            ("TUPLTYPE RGB", &[(b"RGB_ALPHA", b"RGB")]),
            ("small letters", &[(b"RGB_ALPHA", b"rgb_alpha")]),
            ("a second word", &[(b"RGB_ALPHA", b"RGB_ALPHA sRGB")]),
            ("a remark", &[(b"RGB_ALPHA", b"RGB_ALPHA # x")]),
            ("two TUPLTYPE lines, both RGB_ALPHA", &[(b"RGB_ALPHA", b"RGB_ALPHA\nTUPLTYPE RGB_ALPHA")]),
            ("two TUPLTYPE lines, RGB and ALPHA", &[(b"RGB_ALPHA", b"RGB\nTUPLTYPE ALPHA")]),
            ("a byte above 127 in it", &[(b"RGB_ALPHA", b"RGB_ALPHA\xe4")]),
            (
                "DEPTH 3 beside a width above the limit",
                &[(b"DEPTH 4", b"DEPTH 3"), (b"RGB_ALPHA", b"RGB"), (b"WIDTH 2", wide.as_bytes()), (TEXELS, b"")],
            ),
        ],
    )
}

fn sides() -> Vec<Read> {
    let [wide, high] = ["WIDTH", "HEIGHT"].map(|name| format!("{name} {}", SIDE_MOST + 1));
    let digits = format!("WIDTH 1{}", "0".repeat(99));
    refused(
        2,
        &[
            ("WIDTH above the limit", &[(b"WIDTH 2", wide.as_bytes()), (TEXELS, &pattern(texel_bytes(SIDE_MOST + 1, 1)))]),
            ("HEIGHT above the limit, no texels", &[(b"HEIGHT 1", high.as_bytes()), (TEXELS, b"")]),
            ("WIDTH 2^32 + 2", &[(b"WIDTH 2", b"WIDTH 4294967298")]),
            ("WIDTH 2^64 + 2", &[(b"WIDTH 2", b"WIDTH 18446744073709551618")]),
            ("WIDTH of a hundred digits", &[(b"WIDTH 2", digits.as_bytes())]),
        ],
    )
}

fn lengths() -> Vec<Read> {
    let case = |name, texels, room, refusal| Read { name, file: edited(&[(TEXELS, texels)]), room, answer: Err(refusal) };
    vec![
        case("no texels", b"", 8, 15),
        case("one byte too few", &TEXELS[..7], 8, 15),
        case("one byte too few, and a picture buffer of 7 bytes", &TEXELS[..7], 7, 15),
        case("a picture buffer of 7 bytes", TEXELS, 7, 6),
        case("a picture buffer of no bytes", TEXELS, 0, 6),
    ]
}

impl Write {
    /// What stands in front of the written file.
    pub fn header(&self) -> Vec<u8> {
        let text = WRITTEN.replace("WIDTH 2", &format!("WIDTH {}", self.width));
        text.replace("HEIGHT 1", &format!("HEIGHT {}", self.height)).into_bytes()
    }
}

pub fn writes() -> Vec<Write> {
    let above = SIDE_MOST + 1;
    let long = texel_bytes(above, 1);
    let largest = texel_bytes(SIDE_MOST, SIDE_MOST);
    let whole = 63 + 2 * SIDE_MOST.to_string().len() + largest;
    let rows = [
        (2, 1, 8, 73, Ok(73)),
        (2, 1, 8, 100, Ok(73)),
        (2, 1, 9, 73, Ok(73)),
        (SIDE_MOST, SIDE_MOST, largest, whole, Ok(whole)),
        (1, 1, 4, 69, Ok(69)),
        (9, 10, 360, 426, Ok(426)),
        (above, 1, long, 2 * long, Err(2)),
        (1, above, long, 2 * long, Err(2)),
        (above, 0, 0, 0, Err(2)),
        (0, 1, 0, 100, Err(12)),
        (1, 0, 0, 0, Err(12)),
        (0, 0, 0, 0, Err(12)),
        (2, 1, 7, 73, Err(6)),
        (2, 1, 8, 72, Err(6)),
        (2, 1, 0, 0, Err(6)),
        (u32::MAX, u32::MAX, 0, 0, Err(2)),
    ];
    rows.map(|(width, height, picture, room, answer)| Write { width, height, picture, room, answer }).into()
}
