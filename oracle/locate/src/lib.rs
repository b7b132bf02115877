//! Where things are: the Rust's files, which are compiled where they stand, and our static libraries.
//! The build scripts ask here.
use std::env;
use std::path::{Path, PathBuf};
use std::process::ExitCode;

/// The Rust's files, each with the variable that names it to `include!`.
const FILES: [(&str, &str); 7] = [
    ("RUST_ERROR", "motor_core/src/error.rs"),
    ("RUST_MODEL", "motor_core/src/model.rs"),
    ("RUST_BUS", "motor_core/src/bus.rs"),
    ("RUST_FEEDBACK", "motor_core/src/feedback.rs"),
    ("RUST_PROTOCOL", "motor_vendors/robstride/src/protocol.rs"),
    ("RUST_REGISTERS", "motor_vendors/robstride/src/registers.rs"),
    ("RUST_MOTOR", "motor_vendors/robstride/src/motor.rs"),
];

/// The exit status that says: the Rust's files aren't here, so nothing was compared.
const NOT_COMPARED: u8 = 77;

/// The folder that a variable names, else the one that stands at `usual`. A path that isn't absolute
/// starts at the folder oracle.
fn folder(variable: &str, usual: &str) -> PathBuf {
    println!("cargo::rerun-if-env-changed={variable}");
    let oracle = Path::new(env!("CARGO_MANIFEST_DIR")).parent();
    let oracle = oracle.expect("the folder of a member stands in oracle");
    let folder = match env::var(variable) {
        Ok(named) if !named.is_empty() => oracle.join(named),
        _ => oracle.join(usual),
    };
    folder.canonicalize().unwrap_or(folder)
}

/// Tells the crate that is being built where the Rust's files are, and by the cfg `rust_found`
/// whether all of them are there.
pub fn announce() {
    println!("cargo::rustc-check-cfg=cfg(rust_found)");
    println!("cargo::rerun-if-changed=build.rs");
    let folder = folder("COMBRADISH_RUST_SRC", "../../shared/docs/src");
    println!("cargo::rustc-env=RUST_SRC={}", folder.display());
    let mut found = true;
    for (variable, file) in FILES {
        let path = folder.join(file);
        println!("cargo::rerun-if-changed={}", path.display());
        println!("cargo::rustc-env={variable}={}", path.display());
        found &= path.is_file();
    }
    if found {
        println!("cargo::rustc-cfg=rust_found");
    }
}

/// Links the static library of one of our crates, where `rt lib` leaves it. Without it nothing can be
/// compared, and that is a failure.
pub fn link_ours(name: &str) {
    println!("cargo::rerun-if-changed=build.rs");
    let folder = folder("COMBRADISH_STATICLIB", &format!("../crates/{name}/out"));
    let library = folder.join(format!("lib{name}.a"));
    println!("cargo::rerun-if-changed={}", library.display());
    if !library.is_file() {
        println!(
            "cargo::error=no lib{name}.a in {}: make it by `rt lib` in crates/{name}, or name its folder in COMBRADISH_STATICLIB",
            folder.display()
        );
    }
    println!("cargo::rustc-link-search=native={}", folder.display());
    println!("cargo::rustc-link-lib=static={name}");
}

/// What a command says and answers where the Rust's files aren't found.
pub fn not_found(command: &str, folder: &str) -> ExitCode {
    println!("{command}: not compared: the Rust's files are not all in {folder} (COMBRADISH_RUST_SRC names the folder)");
    ExitCode::from(NOT_COMPARED)
}
