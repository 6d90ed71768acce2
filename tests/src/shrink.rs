//! Delta debugging: the shortest failing history that dropping records can find.

/// Drops ever smaller runs of items while `fails` holds, until no single item can be dropped.
pub fn shrink<T: Clone>(history: &[T], fails: impl Fn(&[T]) -> bool) -> Vec<T> {
    if fails(&[]) {
        return Vec::new();
    }
    let mut shortest = history.to_vec();
    let mut run = shortest.len() / 2;
    while run > 0 {
        let mut dropped = false;
        let mut at = 0;
        while at < shortest.len() {
            let end = (at + run).min(shortest.len());
            let without = [&shortest[..at], &shortest[end..]].concat();
            if fails(&without) {
                shortest = without;
                dropped = true;
            } else {
                at = end;
            }
        }
        if !dropped || run > 1 {
            run /= 2;
        }
    }
    shortest
}

#[cfg(test)]
mod tests {
    use super::*;

    #[test]
    fn only_what_matters_is_left() {
        let history: Vec<u32> = (0..1000).collect();
        let fails = |items: &[u32]| items.contains(&3) && items.contains(&500) && items.contains(&999);
        assert_eq!(shrink(&history, fails), [3, 500, 999]);
    }

    #[test]
    fn an_order_that_matters_is_kept() {
        let fails = |items: &[u32]| items.windows(2).any(|two| two[0] > two[1]);
        assert_eq!(shrink(&[1, 2, 9, 3, 4, 5], fails).len(), 2);
    }
}
