//! Makes a difference small enough to look at.

/// Leaves items out as long as the difference stays.
pub fn shrunk<T: Clone>(items: &[T], differs: impl Fn(&[T]) -> bool) -> Vec<T> {
    let mut smallest = items.to_vec();
    let mut place = 0;
    while place < smallest.len() {
        let mut without = smallest.clone();
        without.remove(place);
        if differs(&without) {
            smallest = without;
        } else {
            place += 1;
        }
    }
    smallest
}
