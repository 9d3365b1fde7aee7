//! The macros of the crate `log`, with no logger: arguments are checked and not evaluated.

macro_rules! trace {
    ($($arg:tt)*) => {
        if false {
            let _ = format_args!($($arg)*);
        }
    };
}

macro_rules! debug {
    ($($arg:tt)*) => {
        trace!($($arg)*)
    };
}

macro_rules! warn {
    ($($arg:tt)*) => {
        trace!($($arg)*)
    };
}
