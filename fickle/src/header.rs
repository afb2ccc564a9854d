//! The numbers that the C header has under names, for tests that hold them against those here.

/// Returns the number that include/fickle.h defines under a name.
pub fn defined<N: std::str::FromStr<Err = std::num::ParseIntError>>(name: &str) -> N {
    let header = include_str!("../../include/fickle.h");
    let mut defines = header.lines().filter_map(|line| line.strip_prefix("#define ")?.split_once(' '));
    let (_, value) = defines.find(|&(defined, _)| defined == name).expect(name);
    let number = value.split_whitespace().next().expect(name);
    number.trim_end_matches('u').parse().expect(name)
}
