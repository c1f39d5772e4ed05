//! Links librvvbox.a. Its folder is RVVBOX_LIB, or the one that pkg-config tells.
use std::{env, process::Command};

fn told() -> String {
    let words = ["--variable=libdir", "rvvbox"];
    let answer = Command::new("pkg-config").args(words).output().expect("neither RVVBOX_LIB nor pkg-config tells where librvvbox.a is");
    String::from_utf8(answer.stdout).unwrap().trim().to_string()
}

fn main() {
    let folder = env::var("RVVBOX_LIB").unwrap_or_else(|_| told());
    println!("cargo:rustc-link-search=native={folder}");
    println!("cargo:rustc-link-lib=static=rvvbox");
    println!("cargo:rerun-if-env-changed=RVVBOX_LIB");
    println!("cargo:rerun-if-changed={folder}/librvvbox.a");
}
