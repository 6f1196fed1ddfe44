//! Builds what a benchmark calls of the proved crates, and links it.

use std::{
    env, fs,
    path::{Path, PathBuf},
    process::Command,
};

/// The sources in `ffi` that are built for a benchmark.
fn sources(package: &str) -> &'static [&'static str] {
    match package {
        "calls-bench" => &["calls_bench"],
        "cores-bench" => &["cores_bench"],
        "interfaces-bench" => &["interfaces_bench"],
        "lists-bench" => &["flounder_bench"],
        "rings-bench" => &["flounder_bench", "flounder_threads"],
        "streams-bench" => &["streams_bench", "flounder_streams", "flounder_threads"],
        "stubs-bench" => &["stubs_bench"],
        "world-bench" => &["world_bench"],
        _ => panic!("which sources {package} needs isn't known"),
    }
}

fn main() {
    let bench = PathBuf::from(env::var("CARGO_MANIFEST_DIR").unwrap()).join("..");
    let sources = sources(&env::var("CARGO_PKG_NAME").unwrap());
    // One place for all benchmarks, so that the crates are checked once; not in the repository, whose
    // gate refuses sources that no check reads.
    let into = env::temp_dir().join("flounder-bench");
    let script = bench.join("build-ffi.sh");
    let status = Command::new(&script).arg(&into).args(sources).status().expect("a shell");
    assert!(status.success(), "the proved crates were not built");
    println!("cargo:rerun-if-changed={}", script.display());
    println!("cargo:rerun-if-changed={}", bench.join("ffi").display());
    for proved in fs::read_dir(bench.join("../crates")).expect("the crates").flatten() {
        println!("cargo:rerun-if-changed={}", proved.path().join("src").display());
    }
    println!("cargo:rustc-link-search=native={}", into.display());
    for source in sources {
        // a static library starts no threads, so what does is a program of its own
        match *source {
            "flounder_threads" | "flounder_streams" => {
                let name = source.to_uppercase();
                println!("cargo:rustc-env={name}={}", into.join(source).display());
            }
            _ => println!("cargo:rustc-link-lib=static={source}"),
        }
    }
    println!("cargo:rustc-link-lib=static=libc_c");
    let plain_c = PathBuf::from("src/ring.c");
    if plain_c.exists() {
        compile_c(&plain_c);
    }
    let lines = PathBuf::from("src/lines.c");
    if lines.exists() {
        compile_lines(&lines);
    }
}

/// Compiles a benchmark's plain C, and links it.
fn compile_c(source: &Path) {
    println!("cargo:rerun-if-changed={}", source.display());
    let out = PathBuf::from(env::var("OUT_DIR").unwrap());
    let (object, archive) = (out.join("plain_c.o"), out.join("libplain_c.a"));
    run(Command::new("cc").args(["-O3", "-std=c11", "-D_POSIX_C_SOURCE=199309L", "-c"]).arg(source).arg("-o").arg(&object));
    run(Command::new("ar").arg("crs").arg(&archive).arg(&object));
    println!("cargo:rustc-link-search=native={}", out.display());
    println!("cargo:rustc-link-lib=static=plain_c");
}

/// Compiles a benchmark's own `malloc`, which a proved program is started with.
fn compile_lines(source: &Path) {
    println!("cargo:rerun-if-changed={}", source.display());
    let library = PathBuf::from(env::var("OUT_DIR").unwrap()).join("lines.so");
    // No built-in: a `malloc` and a `memset` would be made one `calloc`.
    run(Command::new("cc").args(["-O2", "-fno-builtin", "-shared", "-fPIC"]).arg(source).arg("-o").arg(&library));
    println!("cargo:rustc-env=LINES={}", library.display());
}

fn run(command: &mut Command) {
    let status = command.status().expect("a C compiler");
    assert!(status.success(), "the plain C was not built");
}
