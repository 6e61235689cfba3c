//! Instructions, counted by callgrind.
use std::env::current_exe;
use std::process::Command;

/// The C library sets and copies memory by vectors: one `rep stosb` counts as an instruction for each byte.
const BY_VECTORS: &str = "glibc.cpu.x86_rep_stosb_threshold=100000000:glibc.cpu.x86_rep_movsb_threshold=100000000";

/// The instructions that a function takes, what it calls included, where this program is run with these words.
pub fn instructions(function: &str, words: &[&str]) -> u64 {
    let out = Command::new("valgrind")
        .args(["--tool=callgrind", "--callgrind-out-file=/dev/null", &format!("--toggle-collect={function}")])
        .arg(current_exe().expect("this program"))
        .args(words)
        .env("GLIBC_TUNABLES", BY_VECTORS)
        .output()
        .expect("valgrind is there");
    let said = String::from_utf8_lossy(&out.stderr);
    let count = said.lines().find_map(|line| line.split_once("Collected : ")).and_then(|(_, count)| count.trim().parse().ok());
    count.unwrap_or_else(|| panic!("callgrind says no count:\n{said}"))
}
