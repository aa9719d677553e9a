//! An enum whose variants have names for a reader, and the list of these names in the order of the enum; what was met
//! by these names.

macro_rules! named {
    ($(#[$of_enum:meta])* $enum:ident, $(#[$of_list:meta])* $list:ident { $($variant:ident: $name:literal,)* }) => {
        $(#[$of_enum])*
        #[derive(Clone, Copy, PartialEq, Eq, Debug)]
        pub enum $enum { $($variant,)* }

        $(#[$of_list])*
        pub const $list: &[&str] = &[$($name,)*];
    };
}
pub(crate) use named;

/// Prints how often each was met.
pub fn print(names: &[&str], counts: &[u64]) {
    for (name, count) in names.iter().zip(counts) {
        println!("{count:>10} {name}");
    }
}

/// The names of what was not met.
pub fn unmet(names: &[&str], counts: &[u64]) -> Vec<String> {
    names.iter().zip(counts).filter(|(_, &count)| count == 0).map(|(name, _)| name.to_string()).collect()
}
