//! Says where the proved archive lies. It never stops a type-check: a machine that cannot link is told so, and the link then fails.
use std::env;
use std::path::Path;

fn main() {
    println!("cargo:rerun-if-env-changed=QUAY_ARCHIVE_DIR");
    match archive_directory() {
        Ok(directory) => {
            println!("cargo:rerun-if-changed={directory}/libquay.a");
            println!("cargo:rustc-link-search=native={directory}");
        }
        Err(reason) => {
            println!("cargo:warning={reason}: this type-checks, but it cannot be linked")
        }
    }
    // Also where it was not found: a build without the archive fails here, and does not wait for the first program that calls it.
    println!("cargo:rustc-link-lib=static=quay");
}

fn archive_directory() -> Result<String, String> {
    let machine = target("ARCH");
    // Structs cross by value as System V has it on x86-64, where a pointer has 64 bits.
    if machine != "x86_64" || target("POINTER_WIDTH") != "64" || target("FAMILY") != "unix" {
        let system = target("OS");
        return Err(format!("libquay.a is for 64-bit x86-64 Unix, and the target is {machine} {system}"));
    }
    let directory =
        env::var("QUAY_ARCHIVE_DIR").map_err(|_| "QUAY_ARCHIVE_DIR does not name the directory of libquay.a".to_string())?;
    if !Path::new(&directory).join("libquay.a").is_file() {
        return Err(format!("there is no libquay.a in QUAY_ARCHIVE_DIR ({directory})"));
    }
    Ok(directory)
}

fn target(what: &str) -> String {
    env::var(format!("CARGO_CFG_TARGET_{what}")).unwrap_or_default()
}
