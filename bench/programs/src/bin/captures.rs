//! Makes what the replays are timed on, the same bytes each time: captures RECORDS FOLDER. Into the folder it writes
//! companion.bin; rising.bin, whose sources stand in it one behind the other; and jumping.bin, the same records with each
//! source at a random place.
use std::fs::File;
use std::io::{self, BufWriter, Write};
use std::path::Path;

/// A load's source has at most this many bytes. The companion has as many for each record.
const SOURCE_MOST: u32 = 32;

/// Format, size, palette and mode of the usual texels.
const TEXELS: [[u8; 4]; 6] = [[0, 2, 0, 0], [0, 3, 0, 0], [2, 0, 7, 2], [2, 1, 0, 2], [3, 1, 0, 0], [4, 0, 0, 0]];

fn main() -> io::Result<()> {
    let arguments: Vec<String> = std::env::args().collect();
    let [_, records, folder] = &arguments[..] else {
        panic!("captures RECORDS FOLDER");
    };
    let records: u32 = records.parse().expect("a number of records");
    let end = records.checked_mul(SOURCE_MOST).expect("a companion whose places fit in four bytes");
    let create = |name| File::create(Path::new(folder).join(name)).map(BufWriter::new);
    let mut companion = create("companion.bin")?;
    let mut rising = create("rising.bin")?;
    let mut jumping = create("jumping.bin")?;
    let mut random = Random(1);
    for i in 0..records {
        for _ in 0..SOURCE_MOST / 8 {
            companion.write_all(&random.next().to_be_bytes())?;
        }
        let record = Record::random(i, &mut random);
        rising.write_all(&record.bytes(i * SOURCE_MOST))?;
        jumping.write_all(&record.bytes(random.to(end - record.length)))?;
    }
    companion.flush()?;
    rising.flush()?;
    jumping.flush()
}

/// SplitMix64.
struct Random(u64);

impl Random {
    fn next(&mut self) -> u64 {
        self.0 = self.0.wrapping_add(0x9e37_79b9_7f4a_7c15);
        let mut z = self.0;
        z = (z ^ (z >> 30)).wrapping_mul(0xbf58_476d_1ce4_e5b9);
        z = (z ^ (z >> 27)).wrapping_mul(0x94d0_49bb_1331_11eb);
        z ^ (z >> 31)
    }

    /// 0 to `most`.
    fn to(&mut self, most: u32) -> u32 {
        (self.next() % (u64::from(most) + 1)) as u32
    }

    fn pick<T: Copy>(&mut self, choices: &[T]) -> T {
        choices[self.to(choices.len() as u32 - 1) as usize]
    }
}

/// A record without the place of its source. What is not set is 0.
#[derive(Default)]
struct Record {
    kind: u8,
    texel: [u8; 4],
    line: u16,
    tmem_addr: u16,
    /// Width and height.
    side: u16,
    image_siz: u16,
    dxt: u16,
    words: u16,
    rows: u16,
    count: u16,
    stride: u16,
    length: u32,
}

impl Record {
    /// A key every 64th time, a palette of up to sixteen entries every eighth, else a block or a tile of one to four words.
    fn random(i: u32, random: &mut Random) -> Self {
        match (i % 64, i % 8, random.to(1)) {
            (63, ..) => Self::key(random),
            (_, 3, _) => Self::palette(random),
            (.., 0) => Self::block(random),
            _ => Self::tile(random),
        }
    }

    /// Any place of the bank, and any of the usual texels.
    fn any(kind: u8, random: &mut Random) -> Self {
        let texel = random.pick(&TEXELS);
        let (line, tmem_addr) = (random.to(4) as u16, random.to(511) as u16);
        Self { kind, texel, line, tmem_addr, image_siz: texel[1].into(), ..Self::default() }
    }

    fn block(random: &mut Random) -> Self {
        let words = random.to(3) + 1;
        Self { dxt: random.pick(&[0, 512, 1024, 2048]), words: words as u16, length: words * 8, ..Self::any(0, random) }
    }

    fn tile(random: &mut Random) -> Self {
        let (rows, words) = random.pick(&[(1, 1), (1, 2), (2, 1), (3, 1), (2, 2), (4, 1)]);
        Self { rows, words, stride: words * 8, length: u32::from(rows * words) * 8, ..Self::any(1, random) }
    }

    /// Entries of two bytes, packed into the upper half.
    fn palette(random: &mut Random) -> Self {
        let count = random.to(15) + 1;
        let tmem_addr = 256 + random.to(240) as u16;
        Self { kind: 2, tmem_addr, image_siz: 2, rows: 1, count: count as u16, length: count * 2, ..Self::default() }
    }

    fn key(random: &mut Random) -> Self {
        Self { side: 8, ..Self::any(3, random) }
    }

    fn bytes(&self, offset: u32) -> Vec<u8> {
        let [fmt, siz, palette, mode] = self.texel;
        let mut bytes = vec![self.kind, 0, fmt, siz, palette, mode, 0, 0, 0, 0];
        let twos = [self.line, self.tmem_addr, self.side, self.side, self.image_siz];
        let more = [self.dxt, self.words, self.rows, self.count, self.stride];
        bytes.extend(twos.into_iter().chain(more).flat_map(u16::to_be_bytes));
        bytes.extend([offset, self.length].into_iter().flat_map(u32::to_be_bytes));
        bytes.resize(48, 0);
        bytes
    }
}
