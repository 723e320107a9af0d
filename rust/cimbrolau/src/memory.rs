//! Memory for outputs, where there may be too little of it: asked for, never assumed.

use std::alloc::{alloc_zeroed, Layout};

/// So many zeros, or none where there is no memory for them. They come from the system as zeros, so that what the library
/// does not write is never touched.
#[allow(unsafe_code)]
pub(crate) fn zeros(length: usize) -> Option<Vec<u8>> {
    if length == 0 {
        return Some(Vec::new());
    }
    let layout = Layout::array::<u8>(length).ok()?;
    // SAFETY: the layout has a size other than 0.
    let start = unsafe { alloc_zeroed(layout) };
    if start.is_null() {
        return None;
    }
    // SAFETY: the bytes are initialised, and were allocated by the allocator of `Vec` with the layout of `length` bytes.
    Some(unsafe { Vec::from_raw_parts(start, length, length) })
}

#[cfg(test)]
mod tests {
    use super::*;

    #[test]
    fn zeros_are_as_many_as_asked_for_or_none() {
        assert_eq!(zeros(0), Some(vec![]));
        assert_eq!(zeros(5), Some(vec![0; 5]));
        assert_eq!(zeros(usize::MAX), None);
        assert_eq!(zeros(isize::MAX as usize), None);
    }
}
