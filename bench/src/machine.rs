//! What a reader has to know of the machine. Nothing that names it or its users.

use std::env;
use std::fs;

/// Lines of Markdown.
pub fn description() -> String {
    let processors = fs::read_to_string("/proc/cpuinfo").unwrap_or_default();
    let memory = fs::read_to_string("/proc/meminfo").unwrap_or_default();
    let count = fields(&processors, "processor").count();
    let model = fields(&processors, "model name").next();
    let flags = fields(&processors, "flags").next().unwrap_or("");
    let machine = match flags.split(' ').any(|flag| flag == "hypervisor") {
        true => "virtual machine",
        false => "machine",
    };
    let architecture = env::consts::ARCH;
    let rattle = env::var("RATTLE_VERSION").unwrap_or_else(|_| "not said".to_owned());
    format!(
        "- {machine} with {count} processors: {}\n\
         - memory: {}\n\
         - system: {} {}, {architecture}\n\
         - fast model: {}, release build for the plain instruction set of {architecture}\n\
         - library: Rattle toolchain {rattle}\n",
        model.unwrap_or("not said"),
        fields(&memory, "MemTotal")
            .next()
            .map_or("not said".to_owned(), gibibytes),
        first_line("/proc/sys/kernel/ostype"),
        first_line("/proc/sys/kernel/osrelease"),
        env!("RUSTC_VERSION"),
    )
}

/// How many processes ran or wanted to, on the average of the last minute.
pub fn load() -> String {
    let averages = first_line("/proc/loadavg");
    averages.split(' ').next().unwrap_or_default().to_owned()
}

/// The values of the lines `name: value`.
fn fields<'a>(text: &'a str, name: &'a str) -> impl Iterator<Item = &'a str> {
    text.lines()
        .filter_map(|line| line.split_once(':'))
        .filter(move |(key, _)| key.trim() == name)
        .map(|(_, value)| value.trim())
}

/// "16384000 kB" in words.
fn gibibytes(kilobytes: &str) -> String {
    let number = kilobytes
        .split(' ')
        .next()
        .and_then(|word| word.parse::<f64>().ok());
    number.map_or("not said".to_owned(), |number| {
        format!("{:.1} GiB", number / 1024.0 / 1024.0)
    })
}

fn first_line(path: &str) -> String {
    let text = fs::read_to_string(path).unwrap_or_default();
    text.lines().next().unwrap_or("not said").to_owned()
}
