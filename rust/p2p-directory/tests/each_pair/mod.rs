//! Tests with keys and signatures of each pair of sizes.

/// Makes a test of each of these functions with each pair of sizes, in a module that is named as the
/// pair. They are generic in it. One that isn't listed here is never used, which the compiler says.
#[allow(unused_macros)]
macro_rules! tests_of_each_pair {
    ($($tests:tt)*) => {
        tests_of_two_pairs! { $($tests)* }
        tests_of_pair! { keys48_96, p2p_directory::keys48_96::Keys48_96: $($tests)* }
        tests_of_pair! { keys96_48, p2p_directory::keys96_48::Keys96_48: $($tests)* }
    };
}

/// The same with two of them: keys that have any bytes, and keys that begin with certain ones.
macro_rules! tests_of_two_pairs {
    ($($tests:tt)*) => {
        tests_of_pair! { keys32_64, p2p_directory::Keys32_64: $($tests)* }
        tests_of_pair! { keys33_64, p2p_directory::keys33_64::Keys33_64: $($tests)* }
    };
}

macro_rules! tests_of_pair {
    ($module:ident, $pair:ty: $($(#[$attribute:meta])* $test:ident),+ $(,)?) => {
        mod $module {
            $(
                #[test]
                $(#[$attribute])*
                fn $test() {
                    super::$test::<$pair>();
                }
            )+
        }
    };
}
