//! Says where the library lies. It is looked for in the folder of the environment's `SCQ_LIB_DIR`;
//! else in the one that `pkg-config` names for a version that this crate can use; else in this
//! crate, which is packed with an archive for each target that it has one for.
//!
//! The archive `libscq.a` is linked. With `SCQ_LINK=shared` it is the shared object instead, which
//! is not packed.
use std::env;
use std::path::{Path, PathBuf};
use std::process::{exit, Command};

fn main() {
    for name in [
        "SCQ_LIB_DIR",
        "SCQ_LINK",
        "PKG_CONFIG",
        "PKG_CONFIG_PATH",
        "PKG_CONFIG_LIBDIR",
        "PKG_CONFIG_SYSROOT_DIR",
    ] {
        println!("cargo:rerun-if-env-changed={name}");
    }
    let shared = match env::var("SCQ_LINK").as_deref() {
        Ok("shared") => true,
        Ok("static" | "") | Err(env::VarError::NotPresent) => false,
        other => refuse(&format!("SCQ_LINK is neither shared nor static: {other:?}")),
    };
    let file = if shared { "libscq.so" } else { "libscq.a" };
    let folder = match env::var_os("SCQ_LIB_DIR") {
        Some(folder) => PathBuf::from(folder),
        None => installed().filter(|folder| folder.join(file).exists()).unwrap_or_else(packed),
    };
    let library = folder.join(file);
    if !library.exists() {
        refuse(&format!(
            "{} isn't there; SCQ_LIB_DIR may say in which folder it lies",
            library.display()
        ));
    }
    // What ThreadSanitizer has to be told.
    if env::var("CARGO_CFG_SANITIZE").map_or(false, |names| names.contains("thread")) {
        println!("cargo:rustc-cfg=scq_tsan");
    }
    println!("cargo:rerun-if-changed={}", library.display());
    println!("cargo:rustc-link-search=native={}", folder.display());
    println!("cargo:rustc-link-lib={}=scq", if shared { "dylib" } else { "static" });
}

/// Ends the build, with its cause.
fn refuse(cause: &str) -> ! {
    eprintln!("{cause}");
    exit(1)
}

/// What cargo says of the crate or the target; it always does.
fn of_cargo(name: &str) -> String {
    env::var(name).unwrap_or_else(|_| refuse(&format!("cargo doesn't say {name}")))
}

/// The folder that `pkg-config` names, where this is built for the machine that it is built on, and
/// a library is installed that is of this crate's first number and not older.
fn installed() -> Option<PathBuf> {
    if of_cargo("HOST") != of_cargo("TARGET") {
        return None;
    }
    let first: u32 = of_cargo("CARGO_PKG_VERSION_MAJOR").parse().ok()?;
    let wanted = format!("scq >= {} scq < {}", of_cargo("CARGO_PKG_VERSION"), first + 1);
    let tool = env::var_os("PKG_CONFIG").unwrap_or_else(|| "pkg-config".into());
    let said = Command::new(&tool).args(["--exists", &wanted]).status();
    if !said.ok()?.success() {
        return None;
    }
    let said = Command::new(&tool).args(["--variable=libdir", "scq"]).output().ok()?;
    let folder = String::from_utf8(said.stdout).ok()?;
    Some(PathBuf::from(folder.trim_end())).filter(|folder| folder.is_absolute())
}

/// Where the archive for this target stands in the crate. All that it has are of 64 bits, with the
/// lower byte first.
fn packed() -> PathBuf {
    let form = of_cargo("CARGO_CFG_TARGET_POINTER_WIDTH") + &of_cargo("CARGO_CFG_TARGET_ENDIAN");
    if form != "64little" {
        refuse(&format!("the crate has no library for {}", of_cargo("TARGET")));
    }
    let target = of_cargo("CARGO_CFG_TARGET_ARCH") + "-" + &of_cargo("CARGO_CFG_TARGET_OS");
    Path::new(&of_cargo("CARGO_MANIFEST_DIR")).join("lib").join(target)
}
