//! Random files by a seed, most of them near to a good one, and pictures to write.
use crate::cases;
use crate::draft::{join, needed, numbers, others, split, Draft, LINES, SPACES, TYPES};
use crate::input::{pattern, Input, SIDES};
use pam::{spelling, texel_bytes};
use tulonkasa::SIDE_MOST;

pub struct Random {
    random: common::Random,
    numbers: Vec<String>,
    cases: Vec<Vec<u8>>,
}

impl Random {
    pub fn new(seed: u64) -> Self {
        let cases = cases::reads().into_iter().map(|case| case.file).collect();
        Self { random: common::Random::new(seed), numbers: numbers(), cases }
    }

    fn to(&mut self, most: usize) -> usize {
        self.random.to(most)
    }

    fn pick<T: Copy>(&mut self, choices: &[T]) -> T {
        self.random.pick(choices)
    }

    pub fn input(&mut self) -> Input {
        if self.to(15) == 0 {
            self.write()
        } else {
            let file = self.file();
            Input::Read { room: self.room(&file), file }
        }
    }

    fn write(&mut self) -> Input {
        let (width, mut height) = (self.pick(&SIDES), self.pick(&SIDES));
        let rare = match width.saturating_mul(height) {
            0..=0x4000 => 0,
            0x4001..=0x100000 => 255,
            _ => 8191,
        };
        if self.to(rare) != 0 {
            height = 1;
        }
        let texels = if width.max(height) > SIDE_MOST { 64 } else { texel_bytes(width, height) };
        let picture = self.beside(texels);
        Input::Write { width, height, picture, room: self.beside(spelling(width, height).len() + texels) }
    }

    /// Mostly the length that is needed or more, else less.
    fn beside(&mut self, length: usize) -> usize {
        match self.to(7) {
            0 => length.saturating_sub(1),
            1 => self.to(length),
            2 => length + 1,
            3 => length + self.to(64),
            _ => length,
        }
    }

    /// The length of a picture for a file.
    fn room(&mut self, file: &[u8]) -> usize {
        if self.to(1) == 0 {
            file.len()
        } else {
            self.beside(needed(file))
        }
    }

    /// A file that is good or nearly so, with some things changed: lines first, then bytes.
    fn file(&mut self) -> Vec<u8> {
        let mut draft = self.draft();
        while self.to(2) != 0 && !draft.lines.is_empty() {
            self.change_lines(&mut draft.lines);
        }
        let mut file = draft.file();
        while self.to(3) == 0 {
            self.change_bytes(&mut file);
        }
        match self.to(15) {
            0 => file.truncate(self.to(file.len())),
            1 => file.truncate(file.len().saturating_sub(self.to(5))),
            2 => file.extend(self.pick(&LINES)),
            _ => {}
        }
        file
    }

    fn draft(&mut self) -> Draft {
        let (width, height) = match self.to(63) {
            0 => (SIDE_MOST, 1 + self.to(1) as u32),
            1 => (1 + self.to(1) as u32, SIDE_MOST),
            2 => (SIDE_MOST + 1, 1),
            _ => (1 + self.to(10) as u32, 1 + self.to(10) as u32),
        };
        let header = match self.to(7) {
            0..=3 => {
                let case = self.to(self.cases.len() - 1);
                return Draft::new(&self.cases[case]);
            }
            4 => {
                let other = self.to(5);
                others(width, height)[other].clone()
            }
            _ => spelling(width, height),
        };
        let length = texel_bytes(width, height);
        let texels = match self.to(3) {
            0 => b"ENDHDR\n\n".repeat(length.div_ceil(8))[..length].to_vec(),
            _ => pattern(length),
        };
        Draft::new(&[header.into_bytes(), texels].concat())
    }

    fn change_lines(&mut self, lines: &mut Vec<Vec<u8>>) {
        let last = lines.len() - 1;
        let (i, j) = (self.to(last), self.to(last));
        match self.to(15) {
            0 | 1 => lines.swap(i, j),
            2 => lines.insert(j, lines[i].clone()),
            3 => drop(lines.remove(i)),
            4 => join(lines, i, self.pick(&[&b""[..], b" "])),
            5 => split(lines, i, self.to(lines[i].len())),
            6 => lines.insert(i, self.pick(&LINES).to_vec()),
            7 => lines[i] = self.pick(&LINES).to_vec(),
            8 => lines[i] = format!("TUPLTYPE {}", self.pick(&TYPES)).into_bytes(),
            9 => self.change_keyword(&mut lines[i]),
            10 => {
                let place = self.place(&lines[i]);
                lines[i].insert(place, self.pick(&SPACES));
            }
            11 => {
                let digits = b"0".repeat(1 + self.to(40));
                let place = self.place(&lines[i]);
                lines[i].splice(place..place, digits);
            }
            _ => {
                let number = self.number();
                let keyword = lines[i].split(|&byte| byte == b' ').next().unwrap_or_default();
                lines[i] = [keyword, b" ", number.as_bytes()].concat();
            }
        }
    }

    /// Changes a letter of the keyword, or its case; or it comes twice or not at all.
    fn change_keyword(&mut self, line: &mut Vec<u8>) {
        let end = line.iter().position(|&byte| byte == b' ').unwrap_or(line.len());
        if end == 0 {
            return;
        }
        let place = self.to(end - 1);
        match self.to(3) {
            0 => line[place] ^= 0x20,
            1 => line[place] = b'A' + self.to(25) as u8,
            2 => line.insert(place, line[place]),
            _ => drop(line.remove(place)),
        }
    }

    /// A place in a line: its start, its end, at a space in it, or any.
    fn place(&mut self, line: &[u8]) -> usize {
        let space = line.iter().position(|&byte| byte == b' ').unwrap_or(0);
        match self.to(4) {
            0 => 0,
            1 => line.len(),
            2 => space,
            3 => line.len().min(space + 1),
            _ => self.to(line.len()),
        }
    }

    fn number(&mut self) -> String {
        let number = self.to(self.numbers.len() - 1);
        let number = self.numbers[number].clone();
        match self.to(7) {
            0 => "0".repeat(1 + self.to(30)) + &number,
            1 => number + &"1234567890".repeat(1 + self.to(3)),
            2 => self.pick(&["+", "-", "0x", "1,", "."]).to_owned() + &number,
            3 => self.to(9).to_string(),
            _ => number,
        }
    }

    fn change_bytes(&mut self, file: &mut Vec<u8>) {
        let byte = if self.to(1) == 0 { self.pick(&SPACES) } else { self.random.bits() as u8 };
        let place = self.to(file.len().min(100));
        match self.to(2) {
            0 => file.insert(place, byte),
            1 if place < file.len() => file[place] = byte,
            _ if place < file.len() => drop(file.remove(place)),
            _ => {}
        }
    }
}
