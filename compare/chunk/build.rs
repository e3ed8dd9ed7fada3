//! Links the proved library, which RATTLE_LIBS names a folder of, and, if LUA_SRC names the folder of Lua's sources, Lua's own loader.

use std::path::{Path, PathBuf};
use std::process::Command;

fn must(command: &mut Command) {
    let status = command.status().unwrap_or_else(|e| panic!("{command:?}: {e}"));
    assert!(status.success(), "{command:?}");
}

fn main() {
    println!("cargo:rerun-if-env-changed=RATTLE_LIBS");
    println!("cargo:rerun-if-env-changed=LUA_SRC");
    println!("cargo:rerun-if-changed=real.c");
    println!("cargo:rustc-check-cfg=cfg(lua)");
    let folder = std::env::var("RATTLE_LIBS").expect("RATTLE_LIBS: the folder of libchunk.a");
    println!("cargo:rerun-if-changed={folder}");
    println!("cargo:rustc-link-search=native={folder}");
    println!("cargo:rustc-link-lib=static=chunk");
    let Ok(lua) = std::env::var("LUA_SRC") else { return };
    let out = PathBuf::from(std::env::var("OUT_DIR").unwrap());
    let mut sources: Vec<PathBuf> = std::fs::read_dir(&lua).unwrap().map(|e| e.unwrap().path()).collect();
    sources.retain(|p| {
        let name = p.file_name().unwrap().to_str().unwrap();
        name.starts_with('l') && name.ends_with(".c") && name != "lua.c" && name != "luac.c"
    });
    sources.push(Path::new("real.c").to_path_buf());
    let mut objects = vec![];
    for source in &sources {
        let object = out.join(source.file_name().unwrap()).with_extension("o");
        must(Command::new("gcc").args(["-O2", "-w", "-std=gnu99", "-DLUA_USE_POSIX", "-c", "-I"]).arg(&lua).arg(source).arg("-o").arg(&object));
        objects.push(object);
    }
    let archive = out.join("libreal.a");
    let _ = std::fs::remove_file(&archive);
    must(Command::new("ar").arg("rcs").arg(&archive).args(&objects));
    println!("cargo:rustc-cfg=lua");
    println!("cargo:rustc-link-search=native={}", out.display());
    println!("cargo:rustc-link-lib=static=real");
    println!("cargo:rustc-link-lib=m");
}
