//! What the bench runs on.
use std::{fs, path::Path, process::Command};

/// The machine, the tools and the date: a name and what it is.
pub fn description() -> Vec<(&'static str, String)> {
    let processors = fs::read_to_string("/proc/cpuinfo").unwrap_or_default();
    let of = |key: &str| field(&processors, key).unwrap_or_else(|| "unknown".into());
    let (family, model) = (of("cpu family"), of("model"));
    let cores = processors.lines().filter(|line| line.starts_with("processor")).count();
    let kernel = fs::read_to_string("/proc/sys/kernel/osrelease").unwrap_or_default();
    vec![
        ("Processor", format!("{}, family {family}, model {model}", of("model name"))),
        ("Cores", format!("{cores}, of which one is used")),
        ("Memory", memory()),
        ("Kernel", format!("Linux {}", kernel.trim())),
        ("Compiler of the Rust", rustc()),
        ("Compiler of the library", compiler()),
        ("Kit of the library", told("rt", &["version"])),
        ("Date", told("date", &["-u", "+%F"])),
    ]
}

/// The first value of a key in the kernel's lines of `key : value`.
fn field(lines: &str, key: &str) -> Option<String> {
    let pairs = lines.lines().filter_map(|line| line.split_once(':'));
    let value = pairs.into_iter().find(|(name, _)| name.trim() == key);
    value.map(|(_, value)| value.trim().into())
}

fn memory() -> String {
    let total = field(&fs::read_to_string("/proc/meminfo").unwrap_or_default(), "MemTotal");
    let kib = total.and_then(|total| total.trim_end_matches(" kB").parse::<f64>().ok());
    kib.map_or("unknown".into(), |kib| format!("{:.0} GiB", kib / f64::from(1 << 20)))
}

/// With the version of its back end.
fn rustc() -> String {
    let version = told("rustc", &["-vV"]);
    let llvm = field(&version, "LLVM version").unwrap_or_else(|| "unknown".into());
    format!("{}, LLVM {llvm}", version.lines().next().unwrap_or_default())
}

/// The kit's own, which is beside its guide.
fn compiler() -> String {
    let guide = told("rt", &["doc"]);
    let kit = Path::new(&guide).ancestors().nth(1).unwrap_or(Path::new(""));
    let clang = kit.join("toolchain/bin/clang");
    let version = told(&clang.to_string_lossy(), &["--version"]);
    version.lines().next().unwrap_or_default().into()
}

/// What a command prints.
fn told(command: &str, arguments: &[&str]) -> String {
    let output = Command::new(command).args(arguments).output();
    output.map_or("unknown".into(), |o| String::from_utf8_lossy(&o.stdout).trim().into())
}
