//! The smallest part of a list that still shows a difference.

/// Drops pieces, large ones first and single ones last, while what is left still differs.
pub fn dropped<T: Clone>(items: Vec<T>, mut differs: impl FnMut(&[T]) -> bool) -> Vec<T> {
    let mut kept = items;
    let mut piece = kept.len().div_ceil(2);
    while piece > 0 {
        let before = kept.len();
        let mut at = 0;
        while at < kept.len() {
            let end = (at + piece).min(kept.len());
            let without: Vec<T> = [&kept[..at], &kept[end..]].concat();
            if differs(&without) {
                kept = without;
            } else {
                at = end;
            }
        }
        // Single ones are tried again until none can go.
        piece = if piece == 1 && kept.len() < before { 1 } else { piece / 2 };
    }
    kept
}

#[cfg(test)]
mod tests {
    use super::*;

    #[test]
    fn only_what_matters_is_kept() {
        let items: Vec<u32> = (0..1_000).collect();
        let kept = dropped(items, |part| part.contains(&17) && part.contains(&901));
        assert_eq!(kept, [17, 901]);
    }
}
