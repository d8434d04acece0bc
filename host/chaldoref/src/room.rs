//! Room for answers.
use std::collections::TryReserveError;

/// Room for so many entries, or the error where there is no memory for them.
pub fn room<T: Clone + Default>(count: usize) -> Result<Vec<T>, TryReserveError> {
    let mut room = Vec::new();
    room.try_reserve_exact(count)?;
    room.resize(count, T::default());
    Ok(room)
}

#[cfg(test)]
mod tests {
    use super::*;

    #[test]
    fn rooms() {
        assert_eq!(room::<u8>(3), Ok(vec![0; 3]));
        assert!(room::<u64>(usize::MAX / 16).is_err());
    }
}
