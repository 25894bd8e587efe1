//! A line's bytes: the sheet of its arguments.

use std::ffi::OsStr;
use std::os::unix::ffi::OsStrExt;

/// The most arguments of a line, and the most bytes of all of them together.
pub(crate) const ARGUMENTS: usize = 256;
const AREA: usize = 32_768;

/// Writes the sheet of any arguments behind what is there. What a sheet cannot hold is cut so that the run refuses it by its
/// number: of too many arguments only the count is written (6), and too long an area is left out, which its offsets do not fit
/// (5). So no sheet is longer than the longest good one.
pub(crate) fn write(out: &mut Vec<u8>, args: &[&OsStr]) {
    let cut = |number: usize| u16::try_from(number).unwrap_or(u16::MAX).to_le_bytes();
    out.extend(cut(args.len()));
    if args.len() > ARGUMENTS {
        return;
    }
    let mut offset = 0;
    out.extend(cut(offset));
    for arg in args {
        offset += arg.len();
        out.extend(cut(offset));
    }
    if offset <= AREA {
        args.iter().for_each(|arg| out.extend(arg.as_bytes()));
    }
}

#[cfg(test)]
mod tests {
    use super::*;

    /// The sheets of docs/FORMAT.md, section 2, and those that say too much.
    #[test]
    fn sheets() {
        let sheet = |args: &[&str]| {
            let (args, mut out): (Vec<&OsStr>, Vec<u8>) = (args.iter().map(OsStr::new).collect(), Vec::new());
            write(&mut out, &args);
            out
        };
        assert_eq!(sheet(&[]), b"\0\0\0\0");
        assert_eq!(sheet(&["-vv"]), b"\x01\0\0\0\x03\0-vv");
        assert_eq!(sheet(&["", "a"]), b"\x02\0\0\0\0\0\x01\0a");
        assert_eq!(sheet(&["a"; 257]), b"\x01\x01");
        assert_eq!(sheet(&["a"; 65_537]), b"\xff\xff");
        let long = "x".repeat(65_536);
        assert_eq!(sheet(&[&long, ""]), b"\x02\0\0\0\xff\xff\xff\xff");
        assert_eq!((sheet(&[&long[..AREA]]).len(), sheet(&[&long[..AREA], "y"]).len()), (6 + AREA, 8));
    }
}
