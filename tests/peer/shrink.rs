//! The shortest input that still fails, by leaving parts out.

/// Leaves out ever smaller runs of items while what is left still fails.
pub fn fewest<T: Clone>(items: &[T], mut fails: impl FnMut(&[T]) -> bool) -> Vec<T> {
    let mut left = items.to_vec();
    let mut run = left.len().div_ceil(2);
    while run > 0 {
        let mut at = 0;
        while at < left.len() {
            let mut fewer = left.clone();
            fewer.drain(at..(at + run).min(left.len()));
            if fails(&fewer) {
                left = fewer;
            } else {
                at += run;
            }
        }
        run /= 2;
    }
    left
}
