//! From a script that shows a difference to the shortest that still does.

/// Drops items while the difference stays. `shows` gives the item at which a
/// difference shows; what comes after it is dropped at once. Chunks of half
/// the script go first, then smaller ones, at last single items, until no
/// single item can be dropped.
pub fn shortest<T: Clone>(items: &[T], shows: impl Fn(&[T]) -> Option<usize>) -> Vec<T> {
    let Some(last) = shows(items) else {
        return items.to_vec();
    };
    let mut items = items[..items.len().min(last + 1)].to_vec();
    let mut size = items.len().div_ceil(2);
    loop {
        let before = items.len();
        items = drop_chunks(items, size, &shows);
        if size > 1 {
            size = size.div_ceil(2);
        } else if items.len() == before {
            return items;
        }
    }
}

/// Tries to drop every chunk of this size once, from the end to the start.
fn drop_chunks<T: Clone>(
    mut items: Vec<T>,
    size: usize,
    shows: &impl Fn(&[T]) -> Option<usize>,
) -> Vec<T> {
    let mut end = items.len();
    while end > 0 {
        let start = end.saturating_sub(size);
        let fewer = [&items[..start], &items[end..]].concat();
        if let Some(last) = shows(&fewer) {
            items = fewer;
            items.truncate(last + 1);
        }
        end = start.min(items.len());
    }
    items
}

#[cfg(test)]
mod tests {
    use super::*;

    #[test]
    fn two_items_far_apart_are_all_that_is_left() {
        let items: Vec<u32> = (0..1_000).collect();
        let shows = |items: &[u32]| {
            let first = items.iter().position(|&item| item == 17)?;
            let second = items.iter().position(|&item| item == 803)?;
            Some(first.max(second))
        };
        assert_eq!(shortest(&items, shows), [17, 803]);
    }

    #[test]
    fn a_count_of_items_is_cut_to_that_count() {
        let items = vec![(); 5_000];
        let shows = |items: &[()]| (items.len() >= 7).then(|| items.len() - 1);
        assert_eq!(shortest(&items, shows).len(), 7);
    }

    #[test]
    fn a_difference_without_any_item_is_left_alone() {
        assert!(shortest(&[], |_: &[u8]| Some(0)).is_empty());
        assert!(shortest(&[1, 2, 3], |_| Some(0)).is_empty());
    }

    #[test]
    fn without_a_difference_nothing_is_dropped() {
        assert_eq!(shortest(&[1, 2, 3], |_| None), [1, 2, 3]);
    }
}
