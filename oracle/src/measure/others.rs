//! Lines of `wear` read by other readers: glibc's getopt_long, and the Rust crates lexopt and getopts where they are installed.
//! Each reader is what a caller would write with it: the options, a limit that is a number in bounds, then label and parts.

use std::{
    ffi::{c_char, c_int, CStr, CString, OsString},
    hint::black_box,
    os::unix::ffi::OsStrExt,
    ptr,
    time::Duration,
};

use crate::{
    benchmarks::{arguments, wear, Benchmark},
    clock,
    table::{thousands, with_sides},
    values::Shown,
};

const BUDGET: Duration = Duration::from_millis(300);

/// What a line of `wear` says, with texts of any type.
#[derive(Default)]
struct Order<T> {
    limit: Option<u32>,
    cradles: [bool; 6],
    operands: Vec<T>,
}

impl<T> Order<T> {
    fn cradle(&mut self, letter: char) -> Option<()> {
        *self.cradles.get_mut((letter as usize).wrapping_sub('1' as usize))? = true;
        Some(())
    }

    fn set_limit(&mut self, text: &str) -> Option<()> {
        let limit = text.parse().ok().filter(|n| (1..=9999).contains(n))?;
        self.limit = Some(limit);
        Some(())
    }

    /// As the values of `wear` are shown; none without a label.
    fn show(&self, text: impl Fn(&T) -> OsString) -> Option<String> {
        let (label, parts) = self.operands.split_first()?;
        let mut fields = vec![self.limit.show()];
        fields.extend(self.cradles.iter().map(Shown::show));
        fields.push(text(label).show());
        fields.push(parts.iter().map(text).collect::<Vec<_>>().show());
        Some(fields.join("; "))
    }
}

/// A reader of lines: what is timed, and the values as text.
trait Reader {
    fn read(&mut self) -> bool;
    fn values(&mut self) -> Option<String>;
}

#[repr(C)]
struct LongOption {
    name: *const c_char,
    has_argument: c_int,
    flag: *mut c_int,
    value: c_int,
}

extern "C" {
    static mut optind: c_int;
    static mut opterr: c_int;
    static optarg: *const c_char;
    fn getopt_long(
        count: c_int,
        arguments: *const *mut c_char,
        shorts: *const c_char,
        longs: *const LongOption,
        which: *mut c_int,
    ) -> c_int;
}

/// glibc's, on a line whose arguments it may reorder: the pointers are put back before each reading.
struct Getopt {
    _kept: Vec<CString>,
    given: Vec<*mut c_char>,
    arguments: Vec<*mut c_char>,
    longs: [LongOption; 2],
}

impl Getopt {
    fn new(line: &[OsString]) -> Getopt {
        let words = [b"wear"].into_iter().map(|w| &w[..]).chain(line.iter().map(|w| w.as_bytes()));
        let kept: Vec<CString> = words.map(|w| CString::new(w).expect("an argument without a NUL")).collect();
        let mut given: Vec<*mut c_char> = kept.iter().map(|w| w.as_ptr().cast_mut()).collect();
        given.push(ptr::null_mut());
        let longs = [
            LongOption { name: c"limit".as_ptr(), has_argument: 1, flag: ptr::null_mut(), value: 'l' as c_int },
            LongOption { name: ptr::null(), has_argument: 0, flag: ptr::null_mut(), value: 0 },
        ];
        Getopt { _kept: kept, arguments: given.clone(), given, longs }
    }

    fn order(&mut self) -> Option<Order<&CStr>> {
        self.arguments.copy_from_slice(&self.given);
        let count = self.given.len() - 1;
        let mut order = Order::default();
        // 0 makes glibc begin anew
        unsafe { (optind, opterr) = (0, 0) };
        loop {
            let (arguments, longs) = (self.arguments.as_ptr(), self.longs.as_ptr());
            match unsafe { getopt_long(count as c_int, arguments, c"l:123456".as_ptr(), longs, ptr::null_mut()) } {
                -1 => break,
                c if c == 'l' as c_int => order.set_limit(unsafe { CStr::from_ptr(optarg) }.to_str().ok()?)?,
                c => order.cradle(char::from_u32(c as u32)?)?,
            }
        }
        let operands = &self.arguments[unsafe { optind } as usize..count];
        order.operands = operands.iter().map(|p| unsafe { CStr::from_ptr(*p) }).collect();
        (!order.operands.is_empty()).then_some(order)
    }
}

impl Reader for Getopt {
    fn read(&mut self) -> bool {
        black_box(self.order()).is_some()
    }

    fn values(&mut self) -> Option<String> {
        self.order()?.show(|text| OsString::from(text.to_string_lossy().into_owned()))
    }
}

#[cfg(lexopt)]
struct Lexopt(Vec<OsString>);

#[cfg(lexopt)]
impl Lexopt {
    fn order(&self) -> Option<Order<OsString>> {
        let mut order = Order::default();
        let mut parser = lexopt::Parser::from_args(self.0.clone());
        while let Some(argument) = parser.next().ok()? {
            match argument {
                lexopt::Arg::Short('l') | lexopt::Arg::Long("limit") => order.set_limit(parser.value().ok()?.to_str()?)?,
                lexopt::Arg::Short(letter) => order.cradle(letter)?,
                lexopt::Arg::Long(_) => return None,
                lexopt::Arg::Value(text) => order.operands.push(text),
            }
        }
        (!order.operands.is_empty()).then_some(order)
    }
}

#[cfg(lexopt)]
impl Reader for Lexopt {
    fn read(&mut self) -> bool {
        black_box(self.order()).is_some()
    }

    fn values(&mut self) -> Option<String> {
        self.order()?.show(Clone::clone)
    }
}

/// Its options are built once.
#[cfg(getopts)]
struct Getopts(getopts::Options, Vec<OsString>);

#[cfg(getopts)]
impl Getopts {
    fn new(line: &[OsString]) -> Getopts {
        let mut options = getopts::Options::new();
        options.optopt("l", "limit", "", "LIMIT");
        ["1", "2", "3", "4", "5", "6"].iter().for_each(|cradle| {
            options.optflag(cradle, "", "");
        });
        Getopts(options, line.to_vec())
    }

    fn order(&self) -> Option<Order<String>> {
        let matches = self.0.parse(&self.1).ok()?;
        let mut order = Order::default();
        if let Some(limit) = matches.opt_str("l") {
            order.set_limit(&limit)?;
        }
        for (k, cradle) in ["1", "2", "3", "4", "5", "6"].iter().enumerate() {
            order.cradles[k] = matches.opt_present(cradle);
        }
        order.operands = matches.free;
        (!order.operands.is_empty()).then_some(order)
    }
}

#[cfg(getopts)]
impl Reader for Getopts {
    fn read(&mut self) -> bool {
        black_box(self.order()).is_some()
    }

    fn values(&mut self) -> Option<String> {
        self.order()?.show(|text| OsString::from(text))
    }
}

/// Where a crate is not installed its column is empty.
struct Missing;

impl Reader for Missing {
    fn read(&mut self) -> bool {
        false
    }

    fn values(&mut self) -> Option<String> {
        None
    }
}

#[cfg(lexopt)]
fn lexopt(line: &[OsString]) -> Option<Box<dyn Reader>> {
    Some(Box::new(Lexopt(line.to_vec())))
}

#[cfg(not(lexopt))]
fn lexopt(_: &[OsString]) -> Option<Box<dyn Reader>> {
    None
}

#[cfg(getopts)]
fn getopts(line: &[OsString]) -> Option<Box<dyn Reader>> {
    Some(Box::new(Getopts::new(line)))
}

#[cfg(not(getopts))]
fn getopts(_: &[OsString]) -> Option<Box<dyn Reader>> {
    None
}

/// All readers on some lines of `wear`, in nanoseconds.
pub fn print() {
    println!("| | ours | without clearing | bpaf | getopt_long | lexopt | getopts |");
    println!("|---|---|---|---|---|---|---|");
    let words = |times: usize| vec!["part"; times].join(" ");
    let lines =
        ["-1 lock", "-14 -l 40 lock chain", "-1 -4 --limit=40 lock chain tyre"].map(|l| (format!("`{l}`"), l.to_string()));
    for (name, line) in lines.into_iter().chain([("256 words".to_string(), words(256))]) {
        let benchmark = Benchmark::of(wear(), &name, vec![arguments(&line)]);
        benchmark.assert_same();
        row(&benchmark);
    }
}

fn row(benchmark: &Benchmark) {
    let line = &benchmark.lines[0];
    let theirs = benchmark.fields.as_ref().and_then(|fields| fields.values(line).ok());
    let mut readers = [Some(Box::new(Getopt::new(line)) as Box<dyn Reader>), lexopt(line), getopts(line)];
    for reader in readers.iter_mut().flatten() {
        assert_eq!(reader.values(), theirs, "{}: another reader's values and bpaf's", benchmark.name);
    }
    let there = readers.each_ref().map(Option::is_some);
    let [mut a, mut b, mut c] = readers.map(|reader| reader.unwrap_or_else(|| Box::new(Missing)));
    let times = with_sides(benchmark, |[ours, clearing, bpaf]| {
        let read = |reader: &mut Box<dyn Reader>| {
            black_box(reader.read());
        };
        clock::best(BUDGET, [ours, clearing, bpaf, &mut || read(&mut a), &mut || read(&mut b), &mut || read(&mut c)])
    });
    let other = |k: usize| if there[k] { thousands(times[3 + k]) } else { "-".to_string() };
    let [ours, clearing, bpaf] = [times[0], times[1], times[2]];
    let cells = [ours, ours - clearing, bpaf].map(thousands).join(" | ");
    println!("| {} | {cells} | {} | {} | {} |", benchmark.name, other(0), other(1), other(2));
}
