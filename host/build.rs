//! Where libgalemosu.a is: GALEMOSU_ARCHIVE names its folder, a relative one from where cargo was started; without it,
//! where tools/native-archive writes it.
//!
//! Where GALEMOSU_ARCHIVE is not set and there is no archive, documentation and checks go on, as they link nothing, and
//! a build stops at the missing library behind a warning that says what to do. An archive that is there must be one for
//! the processor that is built for, with the calls of this version; a build with another one stops here.

use std::env;
use std::path::{Path, PathBuf};

fn main() {
    println!("cargo:rerun-if-env-changed=GALEMOSU_ARCHIVE");
    let root = PathBuf::from(env::var_os("CARGO_MANIFEST_DIR").expect("cargo names the crate's folder"));
    println!("cargo:include={}", root.join("include").display());
    let asked = env::var_os("GALEMOSU_ARCHIVE").filter(|folder| !folder.is_empty()).map(PathBuf::from);
    let folder = match &asked {
        None => root.parent().unwrap_or(&root).join("target/native"),
        Some(folder) if folder.is_relative() => start().join(folder),
        Some(folder) => folder.clone(),
    };
    if folder.is_file() {
        stop(&format!("GALEMOSU_ARCHIVE names a file, {}: name the folder that has it", folder.display()));
    }
    let archive = folder.join("libgalemosu.a");
    println!("cargo:rerun-if-changed={}", archive.display());
    println!("cargo:rustc-link-search=native={}", folder.display());
    println!("cargo:rustc-link-lib=static=galemosu");
    match std::fs::read(&archive) {
        Ok(bytes) => {
            if let Err(why) = fits(&bytes) {
                stop(&format!("{} {why}", archive.display()));
            }
        }
        Err(why) if asked.is_some() => {
            stop(&format!("GALEMOSU_ARCHIVE names a folder without an archive: {}: {why}", archive.display()))
        }
        Err(_) => println!(
            "cargo:warning=there is no {}: run host/build, or set GALEMOSU_ARCHIVE to the folder that has it. \
             Documentation and checks do without; a build stops at the native static library `galemosu`",
            archive.display()
        ),
    }
}

fn stop(why: &str) -> ! {
    eprintln!("galemosu: {why}");
    std::process::exit(1);
}

/// Where cargo was started: this program is started by it, in the crate's folder.
fn start() -> PathBuf {
    println!("cargo:rerun-if-env-changed=PWD");
    #[cfg(target_os = "linux")]
    if let Ok(folder) = std::fs::read_link(format!("/proc/{}/cwd", std::os::unix::process::parent_id())) {
        return folder;
    }
    match env::var_os("PWD") {
        Some(folder) if Path::new(&folder).is_dir() => PathBuf::from(folder),
        _ => stop("GALEMOSU_ARCHIVE is relative, and where cargo was started is not known here: make it absolute"),
    }
}

/// Whether an archive can be linked into what is built; if not, why.
fn fits(archive: &[u8]) -> Result<(), String> {
    let target = env::var("CARGO_CFG_TARGET_ARCH").unwrap_or_default();
    let machine = machine(archive).ok_or("is not an archive of ELF objects of 64 bits")?;
    let name = match machine {
        62 => "x86_64",
        183 => "aarch64",
        _ => "another processor",
    };
    if name != target {
        return Err(format!(
            "is for {name}, and this build is for {target}: tools/native-archive --target {target} galemosu writes one \
             for it, and GALEMOSU_ARCHIVE names its folder"
        ));
    }
    let system = env::var("CARGO_CFG_TARGET_OS").unwrap_or_default();
    let apple = env::var("CARGO_CFG_TARGET_VENDOR").is_ok_and(|vendor| vendor == "apple");
    if apple || system == "windows" || system == "uefi" {
        return Err(format!("has ELF objects, which cannot be linked for {system}"));
    }
    let has = |name: &[u8]| archive.windows(name.len()).any(|word| word == name);
    if !has(b"galemosu_version") {
        return Err("has no galemosu_version: it is of 0.1.0, whose calls take other arguments".to_string());
    }
    if !has(b"galemosu_inverse") {
        return Err("has no galemosu_inverse: it is of a version before 0.4.0, without the way back".to_string());
    }
    if !has(b"galemosu_guarded_sub_block") {
        return Err("has no galemosu_guarded_sub_block: it is of a version before 0.5.0".to_string());
    }
    if !has(b"galemosu_write_symbols") {
        return Err("has no galemosu_write_symbols: it is of a version before 0.6.0, without run lists".to_string());
    }
    Ok(())
}

/// The processor's number in the first ELF object of an archive, if it has 64 bits and the low byte first.
fn machine(archive: &[u8]) -> Option<u16> {
    let mut rest = archive.strip_prefix(b"!<arch>\n")?;
    // a head of 60 bytes has the member's length in decimal at 48..58; members begin at even places
    while rest.len() > 60 {
        let length: usize = std::str::from_utf8(&rest[48..58]).ok()?.trim().parse().ok()?;
        let member = rest[60..].get(..length)?;
        if member.starts_with(b"\x7fELF") {
            let number = [*member.get(18)?, *member.get(19)?];
            return (member[4..6] == [2, 1]).then_some(u16::from_le_bytes(number));
        }
        rest = rest[60..].get(length + length % 2..)?;
    }
    None
}
