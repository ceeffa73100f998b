//! Hands the profile, the optimisation level and the layout on to the benchmark, which prints them.

fn main() {
    println!("cargo:rerun-if-changed=build.rs");
    println!("cargo:rerun-if-env-changed=LAYOUT");
    for name in ["PROFILE", "OPT_LEVEL"] {
        let value = std::env::var(name).expect("cargo sets it");
        println!("cargo:rustc-env=BUILT_{name}={value}");
    }
    // Sixteen bytes of padding a layout: see benchmark.rs.
    let layout: u32 = std::env::var("LAYOUT").map_or(0, |n| n.parse().expect("a number"));
    println!("cargo:rustc-env=BUILT_PADDING={}", 16 * layout);
}
