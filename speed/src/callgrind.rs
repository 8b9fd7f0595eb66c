//! Instructions by `valgrind --tool=callgrind`, the difference of two runs of this program.

use std::process::Command;

/// Instructions of one step, where `words` are the arguments of a run of so many.
pub fn a_step<const N: usize>(words: impl Fn(u64) -> [String; N], steps: u64) -> f64 {
    let [few, more] = [steps, 2 * steps].map(|n| collected(&words(n)));
    (more - few) as f64 / steps as f64
}

fn collected(words: &[String]) -> u64 {
    let program = std::env::current_exe().expect("the program's own path");
    let run = Command::new("valgrind")
        .args(["--tool=callgrind", "--callgrind-out-file=/dev/null"])
        .arg(program)
        .args(words)
        .output()
        .unwrap_or_else(|e| panic!("valgrind does not run: {e}"));
    let said = String::from_utf8_lossy(&run.stderr);
    let line = said.lines().find(|l| l.contains("Collected :")).unwrap_or_else(|| panic!("valgrind says: {said}"));
    line.rsplit(' ').next().and_then(|n| n.parse().ok()).unwrap_or_else(|| panic!("not a number: {line}"))
}
