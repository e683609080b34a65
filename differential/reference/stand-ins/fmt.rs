//! Stands for fmt.rs, the logging macros: the arguments are checked and never written.

macro_rules! silent {
    ($($argument:tt)*) => {
        if false {
            let _ = core::format_args!($($argument)*);
        }
    };
}

macro_rules! error { ($($argument:tt)*) => { silent!($($argument)*) }; }
macro_rules! warn { ($($argument:tt)*) => { silent!($($argument)*) }; }
macro_rules! debug { ($($argument:tt)*) => { silent!($($argument)*) }; }
macro_rules! trace { ($($argument:tt)*) => { silent!($($argument)*) }; }
