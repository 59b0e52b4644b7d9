//! The access list of a file (POSIX ACL): who may use it beside its owner and its group. Where a file has one, the mode's bits of
//! the group are only the most that the list may give; so they mean something else without the list.

use std::ffi::{c_char, c_int, c_void, CStr};
use std::fs::File;
use std::io;
use std::os::fd::AsRawFd;

/// The attribute of a file that holds its access list.
const NAME: &CStr = c"system.posix_acl_access";
/// The most bytes that the system keeps in an attribute.
const BYTES_MAX: usize = 65_536;
/// The system's errors where there is no such attribute, and where the file system keeps none.
const NO_DATA: i32 = 61;
const NOT_SUPPORTED: i32 = 95;

extern "C" {
    fn fgetxattr(file: c_int, name: *const c_char, value: *mut c_void, size: usize) -> isize;
    fn fsetxattr(file: c_int, name: *const c_char, value: *const c_void, size: usize, flags: c_int) -> c_int;
    fn fremovexattr(file: c_int, name: *const c_char) -> c_int;
}

/// Gives a file the access list of another, or none where that has none.
pub(crate) fn copy(from: &File, to: &File) -> io::Result<()> {
    let mut value = vec![0_u8; BYTES_MAX];
    // SAFETY: the name ends in byte 0, and the value has as many bytes as its size says.
    let got = unsafe { fgetxattr(from.as_raw_fd(), NAME.as_ptr(), value.as_mut_ptr().cast(), value.len()) };
    let status = match usize::try_from(got) {
        // SAFETY: as above; the system wrote so many bytes.
        Ok(size) => unsafe { fsetxattr(to.as_raw_fd(), NAME.as_ptr(), value.as_ptr().cast(), size, 0) },
        Err(_) if is_missing() => {
            // SAFETY: the name ends in byte 0.
            let status = unsafe { fremovexattr(to.as_raw_fd(), NAME.as_ptr()) };
            return if status == 0 || is_missing() { Ok(()) } else { Err(io::Error::last_os_error()) };
        }
        Err(_) => -1,
    };
    if status == 0 {
        Ok(())
    } else {
        Err(io::Error::last_os_error())
    }
}

/// Whether the system's last error is that there is no access list.
fn is_missing() -> bool {
    matches!(io::Error::last_os_error().raw_os_error(), Some(NO_DATA | NOT_SUPPORTED))
}
