//! Finds the archive of the C library: in the directory that `ZOMTSJE_LIB_DIR` names, or where pkg-config says.
use std::env;
use std::process::Command;

fn directory() -> Option<String> {
    if let Ok(directory) = env::var("ZOMTSJE_LIB_DIR") {
        return Some(directory);
    }
    let printed = Command::new("pkg-config").args(["--variable=libdir", "zomtsje"]).output().ok()?;
    let directory = String::from_utf8(printed.stdout).ok()?;
    (printed.status.success() && !directory.trim().is_empty()).then(|| directory.trim().to_owned())
}

fn main() {
    println!("cargo:rerun-if-env-changed=ZOMTSJE_LIB_DIR");
    println!("cargo:rerun-if-env-changed=PKG_CONFIG_PATH");
    match directory() {
        Some(directory) => {
            println!("cargo:rerun-if-changed={directory}/libzomtsje.a");
            println!("cargo:rustc-link-search=native={directory}");
        }
        None => println!("cargo:warning=set ZOMTSJE_LIB_DIR to the directory of libzomtsje.a, or PKG_CONFIG_PATH"),
    }
    println!("cargo:rustc-link-lib=static=zomtsje");
}
