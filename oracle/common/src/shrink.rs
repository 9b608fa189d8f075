//! Parts of an input, made smaller.

/// The list with half of it, a quarter, and so on down to one left out.
pub fn shorter<T: Clone>(list: &[T]) -> impl Iterator<Item = Vec<T>> + '_ {
    let pieces = std::iter::successors(Some(list.len().div_ceil(2)), |piece| (*piece > 1).then_some(piece / 2));
    let places =
        pieces.filter(|&piece| piece > 0).flat_map(|piece| (0..list.len()).step_by(piece).map(move |at| (at, piece)));
    places.map(|(at, piece)| [&list[..at], &list[list.len().min(at + piece)..]].concat())
}

/// 0, half, and one less.
pub fn smaller(number: usize) -> impl Iterator<Item = usize> {
    [0, number / 2, number.saturating_sub(1)].into_iter().filter(move |&smaller| smaller < number)
}
