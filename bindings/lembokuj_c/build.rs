//! The name under which a program that is linked with the shared library looks for it; and whether there are regions that processes
//! share, as lembokuj's own build script says it.
fn main() {
    println!("cargo::rustc-check-cfg=cfg(processes)");
    if env("CARGO_CFG_TARGET_OS") == "linux" && ["x86_64", "aarch64"].contains(&env("CARGO_CFG_TARGET_ARCH").as_str()) {
        println!("cargo::rustc-cfg=processes");
    }
    // Before version 1 each minor version is a library of its own.
    let version = (env("CARGO_PKG_VERSION_MAJOR"), env("CARGO_PKG_VERSION_MINOR"));
    if env("CARGO_CFG_TARGET_OS") == "linux" {
        println!("cargo::rustc-cdylib-link-arg=-Wl,-soname,liblembokuj.so.{}.{}", version.0, version.1);
    }
    println!("cargo::rerun-if-changed=build.rs");
}

fn env(name: &str) -> String {
    std::env::var(name).unwrap_or_default()
}
