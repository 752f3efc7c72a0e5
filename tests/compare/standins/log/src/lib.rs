//! Stand-in of log: a warning's arguments are computed, and nothing is written.
#[macro_export]
macro_rules! warn {
    ($($words:tt)*) => {{
        let _ = format_args!($($words)*);
    }};
}
