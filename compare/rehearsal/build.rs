//! Compiles the C twin with gcc -O3, and links the proved library, whose archive stands in the folder that RATTLE_LIBS names.

use std::path::PathBuf;
use std::process::Command;

fn must(command: &mut Command) {
    let status = command.status().unwrap_or_else(|e| panic!("{command:?}: {e}"));
    assert!(status.success(), "{command:?}");
}

fn main() {
    let out = PathBuf::from(std::env::var("OUT_DIR").unwrap());
    let object = out.join("twin.o");
    must(Command::new("gcc").args(["-std=gnu11", "-O3", "-Wall", "-Wextra", "-Werror", "-c", "c/twin.c", "-o"]).arg(&object));
    let archive = out.join("librehearsal_twin.a");
    let _ = std::fs::remove_file(&archive);
    must(Command::new("ar").arg("rcs").arg(&archive).arg(&object));
    println!("cargo:rerun-if-changed=c");
    println!("cargo:rerun-if-changed=../c/table.h");
    println!("cargo:rustc-link-search=native={}", out.display());
    println!("cargo:rustc-link-lib=static=rehearsal_twin");
    println!("cargo:rerun-if-env-changed=RATTLE_LIBS");
    let folder = std::env::var("RATTLE_LIBS").expect("RATTLE_LIBS names the folder of librehearsal.a: use compare/rehearsal/run");
    println!("cargo:rerun-if-changed={folder}");
    println!("cargo:rustc-link-search=native={folder}");
    println!("cargo:rustc-link-lib=static=rehearsal");
}
