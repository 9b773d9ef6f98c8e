//! The marks of a payment's extension parts: their order, how often each, and whether the rest can be filled.

const BENEFICIARY: u64 = 1;
const PURPOSE: u64 = 2;
const SENDER: u64 = 3;
const MOST_PURPOSES: usize = 13;
/// Behind a first mark 01: thirteen purposes and a sender.
const MOST_AFTER_BENEFICIARY: usize = 14;

/// Where a payment stands among its marks.
#[derive(Clone, Copy, Debug, Default)]
pub struct Marks {
    to_come: usize,
    last: u64,
    purposes: usize,
}

impl Marks {
    /// Before the first mark of a payment with so many parts.
    pub fn expecting(parts: usize) -> Self {
        Marks {
            to_come: parts,
            ..Marks::default()
        }
    }

    /// Takes the next mark; false where it breaks a rule.
    pub fn take(&mut self, mark: u64) -> bool {
        let to_come = self.to_come.saturating_sub(1);
        let purposes = self.purposes + usize::from(mark == PURPOSE);
        let may_follow = match mark {
            BENEFICIARY => MOST_AFTER_BENEFICIARY,
            // The purposes left and one sender.
            PURPOSE if purposes <= MOST_PURPOSES => MOST_PURPOSES - purposes + 1,
            SENDER => 0,
            _ => return false,
        };
        let ascends = mark > self.last || (mark == PURPOSE && self.last == PURPOSE);
        *self = Marks {
            to_come,
            last: mark,
            purposes,
        };
        ascends && to_come <= may_follow
    }
}

#[cfg(test)]
mod tests {
    use super::*;

    /// The first part, from 1, whose mark is refused.
    fn refused_at(marks: &[u64]) -> Option<usize> {
        let mut state = Marks::expecting(marks.len());
        let broken = marks.iter().position(|&mark| !state.take(mark))?;
        Some(broken + 1)
    }

    fn marks(first: &[u64], purposes: usize, last: &[u64]) -> Vec<u64> {
        [first, &vec![PURPOSE; purposes], last].concat()
    }

    #[test]
    fn one_part_takes_any_of_the_three() {
        for mark in 0..=99 {
            let expected = (!(1..=3).contains(&mark)).then_some(1);
            assert_eq!(refused_at(&[mark]), expected, "mark {mark}");
        }
    }

    #[test]
    fn marks_never_descend_nor_leave_the_rest_unfillable() {
        assert_eq!(refused_at(&[3, 3]), Some(1));
        assert_eq!(refused_at(&[3, 2]), Some(1));
        assert_eq!(refused_at(&[2, 1]), Some(2));
        assert_eq!(refused_at(&[1, 1]), Some(2));
        assert_eq!(refused_at(&[1, 3, 2]), Some(2));
        assert_eq!(refused_at(&[1, 3]), None);
        assert_eq!(refused_at(&[2, 2, 3]), None);
    }

    #[test]
    fn fourteen_parts_are_not_all_purposes() {
        assert_eq!(refused_at(&marks(&[], 14, &[])), Some(14));
        assert_eq!(refused_at(&marks(&[1], 13, &[])), None);
        assert_eq!(refused_at(&marks(&[1], 12, &[3])), None);
        assert_eq!(refused_at(&marks(&[], 13, &[3])), None);
    }

    #[test]
    fn fifteen_parts_are_filled_in_one_way() {
        assert_eq!(refused_at(&marks(&[1], 13, &[3])), None);
        assert_eq!(refused_at(&marks(&[], 14, &[3])), Some(1));
        assert_eq!(refused_at(&marks(&[1], 12, &[3, 3])), Some(14));
        assert_eq!(refused_at(&marks(&[1], 14, &[])), Some(15));
    }

    #[test]
    fn up_to_thirteen_parts_may_all_be_purposes() {
        for parts in 1..=13 {
            assert_eq!(refused_at(&marks(&[], parts, &[])), None);
        }
    }
}
