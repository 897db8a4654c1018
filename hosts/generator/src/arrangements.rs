//! Every arrangement of a few things, by their numbers.

/// Every list of at most `most` of the numbers below a count to which a number
/// may be added; the shorter ones come first, and of them the empty one.
fn grown(count: usize, most: usize, may: impl Fn(&[usize], usize) -> bool) -> Vec<Vec<usize>> {
    let mut all = vec![Vec::new()];
    let mut shorter = 0..1;
    for _ in 0..most {
        for at in shorter.clone() {
            for number in 0..count {
                if may(&all[at], number) {
                    all.push([&all[at][..], &[number]].concat());
                }
            }
        }
        shorter = shorter.end..all.len();
    }
    all
}

/// Every list of at most `most` of the numbers below a count, none of them
/// twice.
pub fn choices(count: usize, most: usize) -> Vec<Vec<usize>> {
    grown(count, most, |list, number| !list.contains(&number))
}

/// The same, also with one of them twice and more often.
pub fn lists(count: usize, most: usize) -> Vec<Vec<usize>> {
    grown(count, most, |_, _| true)
}

/// Every order of the numbers below a count.
pub fn orders(count: usize) -> Vec<Vec<usize>> {
    let mut orders = choices(count, count);
    orders.retain(|order| order.len() == count);
    orders
}

/// A list in the order of these numbers.
pub fn arranged<T: Clone>(list: &[T], order: &[usize]) -> Vec<T> {
    order.iter().map(|&at| list[at].clone()).collect()
}
