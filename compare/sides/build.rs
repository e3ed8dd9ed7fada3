//! Compiles the C twin with gcc -O3, and links the proved library: RATTLE_LIBS names the folder of its archives. Without
//! it nothing is built, so that no comparison passes with the proved library left out.

use std::path::{Path, PathBuf};
use std::process::Command;

fn must(command: &mut Command) {
    let status = command.status().unwrap_or_else(|e| panic!("{command:?}: {e}"));
    assert!(status.success(), "{command:?}");
}

fn main() {
    let out = PathBuf::from(std::env::var("OUT_DIR").unwrap());
    let c = Path::new("../c");
    let mut objects = vec![];
    let lua53 = std::env::var("CARGO_FEATURE_LUA53").is_ok();
    let steps = if lua53 { "../lua53/steps.h" } else { "steps.h" };
    for name in ["twin", "lift"] {
        let object = out.join(format!("{name}.o"));
        must(
            Command::new("gcc")
                .args(["-O3", "-Wall", "-Wextra", "-Werror", "-c"])
                .arg(format!("-DTWIN_STEPS=\"{steps}\""))
                .arg(c.join(format!("{name}.c")))
                .arg("-o")
                .arg(&object),
        );
        objects.push(object);
    }
    let archive = out.join("libtwin.a");
    let _ = std::fs::remove_file(&archive);
    must(Command::new("ar").arg("rcs").arg(&archive).args(&objects));
    println!("cargo:rerun-if-changed=../c");
    println!("cargo:rerun-if-changed=../lua53/steps.h");
    println!("cargo:rustc-link-search=native={}", out.display());
    println!("cargo:rustc-link-lib=static=twin");

    println!("cargo:rerun-if-env-changed=RATTLE_LIBS");
    let folder = std::env::var("RATTLE_LIBS").expect("RATTLE_LIBS, which compare/run and compare/benchmarks set");
    println!("cargo:rerun-if-changed={folder}");
    println!("cargo:rustc-link-search=native={folder}");
    let archives: &[&str] = if lua53 { &["lua53", "meter53", "budget53", "meter", "budget"] } else { &["exports", "meter", "budget", "ranges", "service"] };
    for name in archives {
        println!("cargo:rustc-link-lib=static={name}");
    }
}
