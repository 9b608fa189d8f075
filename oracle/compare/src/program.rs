//! The compiled replay program, run on files.
use crate::replay::File;
use std::fs;
use std::io::{self, Seek, SeekFrom, Write};
use std::path::{Path, PathBuf};
use std::process::Command;

/// The words that start the program, and a directory for its files, which goes with this.
pub struct Program {
    words: Vec<String>,
    directory: PathBuf,
}

impl Program {
    /// The program of one worker.
    pub fn new(words: &[String], worker: usize) -> Self {
        let directory = std::env::temp_dir().join(format!("tulonkasa-replay-{}-{worker}", std::process::id()));
        fs::create_dir_all(&directory).expect("a temporary directory can be made");
        Self { words: words.to_vec(), directory }
    }

    /// What it prints. An error says why it failed.
    pub fn replay(&self, companion: &File, records: &[u8]) -> Result<String, String> {
        let companion_path = self.directory.join("companion");
        let records_path = self.directory.join("records");
        write_companion(&companion_path, companion).expect("a temporary companion can be written");
        fs::write(&records_path, records).expect("temporary records can be written");
        let records = fs::File::open(&records_path).expect("what was written can be read");
        let output = Command::new(&self.words[0])
            .args(&self.words[1..])
            .arg(&companion_path)
            .stdin(records)
            .output()
            .map_err(|error| format!("{}: {error}", self.words[0]))?;
        if !output.status.success() || !output.stderr.is_empty() {
            return Err(format!("the program ends with {}: {}", output.status, String::from_utf8_lossy(&output.stderr)));
        }
        Ok(String::from_utf8_lossy(&output.stdout).into_owned())
    }
}

impl Drop for Program {
    fn drop(&mut self) {
        let _ = fs::remove_dir_all(&self.directory);
    }
}

/// Writes a companion's ends. What is between them takes no room on the disk.
fn write_companion(path: &Path, companion: &File) -> io::Result<()> {
    let mut file = fs::File::create(path)?;
    file.write_all(&companion.front)?;
    file.set_len(companion.length)?;
    file.seek(SeekFrom::Start(companion.length - companion.back.len() as u64))?;
    file.write_all(&companion.back)
}
