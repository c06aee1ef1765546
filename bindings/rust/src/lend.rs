//! How a slice goes to the archive.

/// A call of [`sys`](crate::sys), its arguments in the header's order: `in s` stands for the pointer and the length of a slice `s` that is read, `mut s`
/// for those of one that is written, and anything else for itself. So no pointer goes without its own length. What is left to the caller, and why a call is
/// `unsafe`: that each slice lives through the call, and that none that is written overlaps another.
///
/// ```
/// let (run, mut block) = ([100; 17], [0; 16]);
/// let number = unsafe { lomsakeun::lend!(lomsakeun_ipred_b(0, 4, in run, mut block)) };
/// assert_eq!((number, block), (0, [100; 16]));
/// ```
#[macro_export]
macro_rules! lend {
    ($call:ident($($arguments:tt)*)) => {
        $crate::lend!(@ $call [] $($arguments)*)
    };
    (@ $call:ident [$($lent:expr,)*]) => {
        $crate::sys::$call($($lent),*)
    };
    (@ $call:ident [$($lent:expr,)*] in $slice:expr $(, $($rest:tt)*)?) => {
        $crate::lend!(@ $call [$($lent,)* $slice.as_ptr(), $slice.len(),] $($($rest)*)?)
    };
    (@ $call:ident [$($lent:expr,)*] mut $slice:expr $(, $($rest:tt)*)?) => {
        $crate::lend!(@ $call [$($lent,)* $slice.as_mut_ptr(), $slice.len(),] $($($rest)*)?)
    };
    (@ $call:ident [$($lent:expr,)*] $value:expr $(, $($rest:tt)*)?) => {
        $crate::lend!(@ $call [$($lent,)* $value,] $($($rest)*)?)
    };
}
