//! Making something smaller while it still serves a purpose.

use std::ops::Sub;

/// Whether a smaller trial still serves; nothing if no more may be tried.
pub(crate) type Serves<'a, T> = dyn FnMut(&T) -> Option<bool> + 'a;

/// Runs of at most so many elements are tried at every place. Labels with short values are
/// among them.
const SHORT_RUN: usize = 64;

/// Takes runs of elements away, long runs first, then sets runs to zero.
pub(crate) fn items<T: Copy + Default + PartialEq>(
    items: &mut Vec<T>,
    serves: &mut Serves<'_, Vec<T>>,
) -> Option<()> {
    let short_runs = (1..=SHORT_RUN.min(items.len())).rev();
    let long_runs = halves(items.len()).take_while(|&run| run > SHORT_RUN);
    for run in long_runs.chain(short_runs) {
        take_away(items, run, serves)?;
    }
    for run in halves(items.len()) {
        set_to_zero(items, run, serves)?;
    }
    Some(())
}

fn take_away<T: Copy>(
    items: &mut Vec<T>,
    run: usize,
    serves: &mut Serves<'_, Vec<T>>,
) -> Option<()> {
    let step = if run > SHORT_RUN { run } else { 1 };
    let mut from = 0;
    while from < items.len() {
        let mut fewer = items.clone();
        fewer.drain(from..items.len().min(from + run));
        if serves(&fewer)? {
            *items = fewer;
        } else {
            from += step;
        }
    }
    Some(())
}

fn set_to_zero<T: Copy + Default + PartialEq>(
    items: &mut Vec<T>,
    run: usize,
    serves: &mut Serves<'_, Vec<T>>,
) -> Option<()> {
    let zero = T::default();
    for from in (0..items.len()).step_by(run) {
        let part = from..items.len().min(from + run);
        if items[part.clone()].iter().all(|&item| item == zero) {
            continue;
        }
        let mut zeroed = items.clone();
        zeroed[part].fill(zero);
        if serves(&zeroed)? {
            *items = zeroed;
        }
    }
    Some(())
}

/// A number and its halves, down to 1.
fn halves(number: usize) -> impl Iterator<Item = usize> {
    std::iter::successors(Some(number), |number| Some(number / 2)).take_while(|&half| half > 0)
}

/// Takes as much from a number as it can: all of it, or else half and half again.
pub(crate) fn number<T>(number: &mut T, serves: &mut Serves<'_, T>) -> Option<()>
where
    T: Copy + Default + Ord + Sub<Output = T> + Half,
{
    let none = T::default();
    let mut step = *number;
    while step > none {
        let smaller = *number - step;
        if serves(&smaller)? {
            *number = smaller;
        }
        let half = step.half();
        // Half, rounded up; behind a step of 1 there is none.
        step = if half > none { step - half } else { none }.min(*number);
    }
    Some(())
}

/// A number that has a half, rounded down.
pub(crate) trait Half {
    fn half(self) -> Self;
}

macro_rules! half {
    ($($number:ty),+) => { $(
        impl Half for $number {
            fn half(self) -> Self {
                self / 2
            }
        }
    )+ };
}

half!(u8, u32, u64, usize);

#[cfg(test)]
mod tests {
    use super::*;

    #[test]
    fn elements_that_matter_stay() {
        let mut bytes: Vec<u8> = (0..=255).collect();
        let is_needed = |bytes: &Vec<u8>| Some(bytes.contains(&77) && bytes.len() >= 3);
        items(&mut bytes, &mut |trial| is_needed(trial)).unwrap();
        bytes.sort();
        assert_eq!(bytes, [0, 0, 77]);
    }

    #[test]
    fn numbers_go_down_to_the_least_that_serves() {
        for least in [0, 1, 2, 3, 1_000, u64::MAX / 3, u64::MAX] {
            let mut found = u64::MAX;
            number(&mut found, &mut |&trial| Some(trial >= least)).unwrap();
            assert_eq!(found, least);
        }
    }

    #[test]
    fn it_ends_where_no_more_may_be_tried() {
        let mut bytes = vec![1; 100];
        let mut left = 5;
        let done = items(&mut bytes, &mut |_| {
            left -= 1;
            (left > 0).then_some(false)
        });
        assert_eq!((done, left, bytes.len()), (None, 0, 100));
    }
}
