//! Stands in for bpaf's src/from_os_str.rs, which was not at hand: the only stand-in that a run reaches.
//!
//! An `OsString` is handed over as it is; any other type is read by its `FromStr` from the text, which must be UTF-8.

use std::{
    any::{Any, TypeId},
    ffi::OsString,
    fmt::Display,
    str::FromStr,
};

pub(crate) fn parse_os_str<T>(os: OsString) -> Result<T, String>
where
    T: FromStr + 'static,
    <T as FromStr>::Err: Display,
{
    if TypeId::of::<T>() == TypeId::of::<OsString>() {
        let boxed: Box<dyn Any> = Box::new(os);
        return Ok(*boxed.downcast::<T>().expect("the type was just compared"));
    }
    match os.to_str() {
        Some(s) => T::from_str(s).map_err(|e| e.to_string()),
        None => Err(format!("{} is not valid UTF-8", os.to_string_lossy())),
    }
}
