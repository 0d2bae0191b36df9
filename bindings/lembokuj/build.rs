//! Says whether there are regions that processes share: with the feature `processes`, on systems that have them. And notes which
//! compiler lays out the values that lie in a mapping: programs of two compilers do not share one.

use std::env::var;

fn main() {
    println!("cargo::rerun-if-changed=build.rs");
    println!("cargo::rustc-check-cfg=cfg(processes)");
    let is = |name: &str, values: &[&str]| var(name).is_ok_and(|value| values.contains(&value.as_str()));
    let has_mappings = is("CARGO_CFG_TARGET_OS", &["linux"]) && is("CARGO_CFG_TARGET_ARCH", &["x86_64", "aarch64"]);
    if var("CARGO_FEATURE_PROCESSES").is_ok() && has_mappings {
        println!("cargo::rustc-cfg=processes");
        println!("cargo::rustc-env=LEMBOKUJ_COMPILER={}", compiler());
    }
}

fn compiler() -> String {
    let name = var("RUSTC").unwrap_or_else(|_| "rustc".into());
    let version = std::process::Command::new(name).arg("-vV").output();
    let text = version.map(|output| String::from_utf8_lossy(&output.stdout).replace('\n', " ")).unwrap_or_default();
    text.trim().into()
}
