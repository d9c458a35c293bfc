//! The build of this package.

use std::process::Command;

/// Without the static library the build says what makes it, and where it was looked for.
#[test]
fn build_without_the_library() {
    let folder = std::env::temp_dir().join(format!("bezowik-build-{}", std::process::id()));
    std::fs::create_dir_all(&folder).expect("a folder can be made");
    let mut cargo = Command::new(env!("CARGO"));
    cargo.args(["check", "--offline", "--quiet", "--lib", "--target-dir"]).arg(folder.join("target"));
    cargo.current_dir(env!("CARGO_MANIFEST_DIR")).env("BEZOWIK_LIB", &folder);
    let output = cargo.output().expect("cargo runs");
    let _ = std::fs::remove_dir_all(&folder);
    let told = String::from_utf8_lossy(&output.stderr);
    let expected = format!("no libbezowik.a in {}: run `./build` first\n", folder.display());
    assert!(!output.status.success() && told.contains(&expected), "{told}");
}
