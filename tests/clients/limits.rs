//! Prints the constants of the Rust bindings, name and value, as limits.c prints the header's. The version is that of the crate's manifest.

macro_rules! show {
    ($($name:ident)*) => { $(println!("{} {}", stringify!($name), fumarehi::$name);)* };
}

fn main() {
    let manifest = include_str!("../../bindings/rust/Cargo.toml");
    let version = manifest.lines().find_map(|line| line.strip_prefix("version = ")).expect("a version");
    println!("VERSION {}", version.trim_matches('"'));
    show! {
        MOST_LETTERS MOST_STATES MOST_MOVES LONGEST RECORD_NUMBERS COUNT_NUMBERS TRAILER_LENGTH LONGEST_FILE DEEPEST_BRACKETS MOST_TYPED MOST_TERMS MOST_GROUPS
        MOST_NAMES MOST_RULES END
    }
}
