//! Memory lent to the library with guards on both sides: exactly as many elements as a question is asked with, and a pattern in and around them that
//! differs from case to case, so that a write to a place that should be left is seen.
use reference::maker::random::mixed;

/// Elements on each side that nothing may write to.
const GUARD: usize = 8;

/// What can be lent: numbers made of the lowest bits of a pattern.
pub trait Element: Copy + PartialEq + std::fmt::Debug {
    fn of(bits: u64) -> Self;
}

impl Element for u8 {
    fn of(bits: u64) -> u8 {
        bits.to_le_bytes()[0]
    }
}

impl Element for u32 {
    fn of(bits: u64) -> u32 {
        (bits & 0xffff_ffff).try_into().unwrap()
    }
}

impl Element for u64 {
    fn of(bits: u64) -> u64 {
        bits
    }
}

/// Guard, lent elements, guard.
pub struct Lent<T> {
    all: Vec<T>,
    length: usize,
    pattern: u64,
}

impl<T: Element> Lent<T> {
    pub fn new(length: usize, pattern: u64) -> Lent<T> {
        let all = (0..length + 2 * GUARD).map(|i| Self::filling(pattern, i)).collect();
        Lent { all, length, pattern }
    }

    fn filling(pattern: u64, place: usize) -> T {
        T::of(mixed(pattern.wrapping_add(u64::try_from(place).unwrap())))
    }

    /// Lends those elements, with the pattern around them.
    pub fn holding(elements: &[T], pattern: u64) -> Lent<T> {
        let mut lent = Lent::new(elements.len(), pattern);
        lent.all[GUARD..GUARD + elements.len()].copy_from_slice(elements);
        lent
    }

    pub fn len(&self) -> usize {
        self.length
    }

    /// The first lent element. The pointer is good for the guards too, so that a write there is a fault that is seen and not undefined.
    pub fn pointer(&mut self) -> *mut T {
        self.all.as_mut_ptr().wrapping_add(GUARD)
    }

    pub fn elements(&self) -> &[T] {
        &self.all[GUARD..GUARD + self.length]
    }

    /// What is wrong if the first elements should be these and every other place, in the guards too, as it was.
    pub fn fault(&self, written: &[T]) -> Option<String> {
        for (place, found) in self.all.iter().enumerate() {
            let lent = place.checked_sub(GUARD).and_then(|i| written.get(i));
            let expected = lent.copied().unwrap_or_else(|| Self::filling(self.pattern, place));
            if *found != expected {
                let index = i64::try_from(place).unwrap() - i64::try_from(GUARD).unwrap();
                let what = if lent.is_some() { "should be" } else { "should be left as" };
                return Some(format!("place {index} of {} is {found:?}, {what} {expected:?}", self.length));
            }
        }
        None
    }
}

#[cfg(test)]
mod tests {
    use super::*;

    /// Writes one element at an index counted from the first lent one, as a faulty library would.
    fn write_at(lent: &mut Lent<u32>, index: isize) {
        let old = lent.all[GUARD.checked_add_signed(index).unwrap()];
        // SAFETY: the index lies in the guards or between them.
        #[allow(unsafe_code)]
        unsafe {
            *lent.pointer().offset(index) = !old;
        }
    }

    #[test]
    fn nothing_written_is_no_fault() {
        assert_eq!(Lent::<u32>::new(3, 5).fault(&[]), None);
        assert_eq!(Lent::<u64>::new(0, 5).fault(&[]), None);
    }

    #[test]
    fn a_write_beside_the_lent_elements_is_seen() {
        for index in [-8, -1, 3, 10] {
            let mut lent = Lent::new(3, 5);
            write_at(&mut lent, index);
            assert!(lent.fault(&[]).is_some_and(|fault| fault.starts_with(&format!("place {index} of 3"))));
        }
    }

    #[test]
    fn a_write_to_an_element_that_should_be_left_is_seen() {
        let mut lent = Lent::new(3, 5);
        write_at(&mut lent, 2);
        let first = lent.elements()[..2].to_vec();
        assert!(lent.fault(&first).is_some_and(|fault| fault.starts_with("place 2 of 3")));
    }

    #[test]
    fn an_element_that_should_be_written_and_is_not_is_seen() {
        let lent = Lent::<u32>::new(3, 5);
        assert!(lent.fault(&[!lent.elements()[0]]).is_some());
    }

    #[test]
    fn patterns_differ_from_case_to_case() {
        assert_ne!(Lent::<u64>::new(4, 5).elements(), Lent::<u64>::new(4, 6).elements());
    }
}
