//! The one function for other languages, as C calls it. The header is foreign/c/bradovusc_asking.h.

use std::panic::catch_unwind;
use std::ptr::slice_from_raw_parts_mut;

use bradovusc_notation::report::fault_object;

use crate::request::answer;
use crate::Status;

/// Answers a request in JSON: hands back the status, and the lines of the answer with a zero byte
/// behind them. They are the caller's until they are handed to [`bradovusc_forget`].
///
/// # Safety
///
/// `request` is readable for `request_length` bytes, or null where there are none. `lines` and
/// `lines_length` can be written. No two of the three overlap.
#[no_mangle]
pub unsafe extern "C" fn bradovusc_request(
    request: *const u8,
    request_length: usize,
    lines: *mut *mut u8,
    lines_length: *mut usize,
) -> u32 {
    let given: &[u8] = match request_length {
        0 => &[],
        length => std::slice::from_raw_parts(request, length),
    };
    // nothing is unwound into a caller that may not know of it
    let (status, text) = catch_unwind(|| answer(given)).unwrap_or_else(|_| {
        let words = "the request was not answered: this is a fault of the library around it";
        (Status::Failure, fault_object(words, Status::Failure).done() + "\n")
    });
    let length = text.len();
    let mut bytes = text.into_bytes();
    bytes.push(0);
    *lines = Box::into_raw(bytes.into_boxed_slice()).cast();
    *lines_length = length;
    u32::from(status.number())
}

/// Takes back the lines of an answer, with the length that was told.
///
/// # Safety
///
/// They are from [`bradovusc_request`], or null, and are not used any more.
#[no_mangle]
pub unsafe extern "C" fn bradovusc_forget(lines: *mut u8, lines_length: usize) {
    if !lines.is_null() {
        drop(Box::from_raw(slice_from_raw_parts_mut(lines, lines_length + 1)));
    }
}

/// Memory for a request, for callers that have none of their own: in the browser. It has one byte more
/// than this, and is taken back by [`bradovusc_forget`] as an answer is.
#[no_mangle]
pub extern "C" fn bradovusc_lend(length: usize) -> *mut u8 {
    Box::into_raw(vec![0; length + 1].into_boxed_slice()).cast()
}

#[cfg(test)]
mod tests {
    use super::*;

    /// Asks by memory that is lent, as a page does.
    fn asked(request: &str) -> (u32, String) {
        let (mut lines, mut length) = (std::ptr::null_mut(), 0);
        // SAFETY: what is lent has the request's length, and all of it is handed back once.
        unsafe {
            let lent = bradovusc_lend(request.len());
            lent.copy_from_nonoverlapping(request.as_ptr(), request.len());
            let status = bradovusc_request(lent, request.len(), &mut lines, &mut length);
            bradovusc_forget(lent, request.len());
            let text = std::slice::from_raw_parts(lines, length + 1).to_vec();
            bradovusc_forget(lines, length);
            assert_eq!(text.last(), Some(&0));
            (status, String::from_utf8(text[..length].to_vec()).unwrap())
        }
    }

    #[test]
    fn as_it_is_called() {
        let request = r#"{"rules": "a = A{x}\nb = {x}B\n"}"#;
        let (status, lines) = asked(request);
        let (wanted, text) = answer(request.as_bytes());
        assert_eq!((status, lines), (u32::from(wanted.number()), text));
        assert_eq!(status, 1);
    }

    #[test]
    fn nothing_at_all() {
        let (mut lines, mut length) = (std::ptr::null_mut(), 0);
        // SAFETY: no byte is read where the length is 0.
        unsafe {
            let status = bradovusc_request(std::ptr::null(), 0, &mut lines, &mut length);
            bradovusc_forget(lines, length);
            bradovusc_forget(std::ptr::null_mut(), 0);
            assert_eq!(status, 3);
        }
        assert_eq!(asked("").0, 3);
    }
}
