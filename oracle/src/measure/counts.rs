//! Instructions of a call, by valgrind's callgrind: the same whatever else the machine does. This program is run again under
//! it, and what each call of one function costs is written to a file of its own.

use std::{collections::BTreeMap, fs, hint::black_box, io, path::PathBuf, process::Command};

/// Calls whose instructions are counted together, so that a step of the allocator weighs little.
const TIMES: usize = 8;

/// What is counted. Its name is told to callgrind.
#[no_mangle]
#[inline(never)]
pub fn measure_counted(side: &mut dyn FnMut()) {
    for _ in 0..TIMES {
        black_box(&mut *side)();
    }
}

/// Under callgrind: one call that warms up, then those that are counted.
pub fn count(side: &mut dyn FnMut()) {
    side();
    measure_counted(side);
}

/// The files that callgrind wrote, one for each side that `measure count` counts, in its order.
pub struct Counts {
    out: PathBuf,
}

impl Counts {
    /// Runs `measure count` of a part under callgrind; an error if valgrind is not installed.
    pub fn take(part: &str) -> io::Result<Counts> {
        let program = std::env::current_exe()?;
        let folder = program.with_file_name("callgrind");
        if folder.exists() {
            fs::remove_dir_all(&folder)?;
        }
        fs::create_dir(&folder)?;
        let out = folder.join("counted");
        let ended = Command::new("valgrind")
            .args(["--tool=callgrind", "--toggle-collect=measure_counted", "--dump-after=measure_counted"])
            .arg(format!("--callgrind-out-file={}", out.display()))
            .arg(program)
            .args(["count", part])
            .output()?;
        assert!(ended.status.success(), "callgrind: {}", String::from_utf8_lossy(&ended.stderr));
        Ok(Counts { out })
    }

    fn file(&self, side: usize) -> PathBuf {
        self.out.with_extension((side + 1).to_string())
    }

    /// The instructions of one call of a side.
    pub fn instructions(&self, side: usize) -> f64 {
        let file = fs::read_to_string(self.file(side)).expect("a file for every side");
        let totals = file.lines().find_map(|line| line.strip_prefix("totals: "));
        totals.and_then(|n| n.trim().parse::<f64>().ok()).expect("callgrind's total") / TIMES as f64
    }

    /// The same by function of the proved code, as callgrind_annotate lists them.
    pub fn functions(&self, side: usize) -> io::Result<BTreeMap<String, f64>> {
        let listed = Command::new("callgrind_annotate").arg("--threshold=100").arg(self.file(side)).output()?;
        let mut functions = BTreeMap::new();
        for line in String::from_utf8_lossy(&listed.stdout).lines() {
            if let Some((name, count)) = function(line) {
                *functions.entry(name).or_default() += count / TIMES as f64;
            }
        }
        Ok(functions)
    }
}

/// A line such as `10,856 ( 2.83%)  ???:reader::letters_of [program]`: the function, without a mark of recursion, and its
/// instructions. The variants of the C library for this machine go by the plain name. The functions that lead to the call are
/// listed with all that it costs, so this program's own are left out.
fn function(line: &str) -> Option<(String, f64)> {
    let (count, rest) = line.trim_start().split_once(" (")?;
    let count = count.replace(',', "").parse().ok()?;
    let (_, place) = rest.split_once(")  ")?;
    let name = place.split_once(':')?.1.split(" [").next()?.split('\'').next()?;
    let library = ["memset", "memcpy", "memmove"].into_iter().find(|c| name.starts_with(&format!("__{c}_")));
    let own = ["measure::", "std::", "core::", "alloc::", "<"].iter().any(|module| name.starts_with(module));
    let proved = !own && (name.contains("::") || name.starts_with("silverpoise_"));
    library.or(proved.then_some(name)).map(|name| (name.to_string(), count))
}
