//! Inputs with one thing smaller.
use crate::input::Input;
use common::{shorter, smaller};

/// Inputs with one thing smaller, the smallest first.
pub fn smaller_inputs(input: &Input) -> Box<dyn Iterator<Item = Input> + '_> {
    match *input {
        Input::Read { ref file, room } => {
            let files = shorter(file).map(move |file| Input::Read { file, room });
            Box::new(files.chain(smaller(room).map(|room| Input::Read { file: file.clone(), room })))
        }
        Input::Write { width, height, picture, room } => {
            let widths = smaller(width as usize).map(|width| (width as u32, height, picture, room));
            let heights = smaller(height as usize).map(|height| (width, height as u32, picture, room));
            let pictures = smaller(picture).map(|picture| (width, height, picture, room));
            let rooms = smaller(room).map(|room| (width, height, picture, room));
            let writes: Vec<_> = widths.chain(heights).chain(pictures).chain(rooms).collect();
            let write = |(width, height, picture, room)| Input::Write { width, height, picture, room };
            Box::new(writes.into_iter().map(write))
        }
    }
}
