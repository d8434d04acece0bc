//! Zeros that take no memory until they are written to. Vec can ask for them only in a way that ends the program where there is no memory.
use std::alloc::{alloc_zeroed, Layout};
use std::io::{self, ErrorKind};

/// So many zeros. The system hands out many of them as pages that it has not filled yet.
pub fn zeros(count: usize) -> io::Result<Vec<u8>> {
    let no_memory = || io::Error::from(ErrorKind::OutOfMemory);
    let layout = Layout::array::<u8>(count).map_err(|_| no_memory())?;
    if count == 0 {
        return Ok(Vec::new());
    }
    // SAFETY: the layout is of at least one byte.
    let start = unsafe { alloc_zeroed(layout) };
    if start.is_null() {
        return Err(no_memory());
    }
    // SAFETY: the allocator that Vec has gave these bytes for just this layout, they are all set, and no one else knows them.
    Ok(unsafe { Vec::from_raw_parts(start, count, count) })
}

#[cfg(test)]
mod tests {
    use super::*;

    #[test]
    fn so_many_zeros_or_an_error() {
        for count in [0, 1, 4096, 1 << 22] {
            assert_eq!(zeros(count).unwrap(), vec![0; count]);
        }
        for count in [usize::MAX, isize::MAX as usize] {
            assert_eq!(zeros(count).unwrap_err().kind(), ErrorKind::OutOfMemory);
        }
    }
}
