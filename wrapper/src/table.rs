//! The library's function and a safe one from each row of the table of calls.

/// A row has the call's name, which the library has after `packet_store_`; both memories, with `mut` where the call may write them;
/// its arguments, numbers; and what it gives. Working memory is always lent, so no row names it.
macro_rules! calls {
    ($(
        $(#[$doc:meta])*
        $name:ident(
            relations: &$($relations_mut:ident)? [u32],
            sets: &$($sets_mut:ident)? [u32]
            $(, $x:ident)*
        ) -> $given:tt $(<$of:tt>)?;
    )*) => {
        /// The library's functions.
        pub(crate) mod declared {
            extern "C" {$(
                $crate::table::declare! {
                    $given $(<$of>)?,
                    $name(
                        relations: &$($relations_mut)? [u32],
                        sets: &$($sets_mut)? [u32]
                        $(, $x: u32)*
                    )
                }
            )*}
        }

        $(
            $(#[$doc])*
            pub fn $name(
                relations: &$($relations_mut)? [u32],
                sets: &$($sets_mut)? [u32],
                work: &mut [u32]
                $(, $x: u32)*
            ) -> Result<$given $(<$of>)?, $crate::Refusal> {
                $crate::table::give!($given $(<$of>)?, $name(relations, sets, work $(, $x)*))
            }
        )*
    };
}

/// The library's function of a call that gives this; for the children it is lent an array.
macro_rules! declare {
    (Made, $($call:tt)*) => {
        $crate::lend::exported! { $($call)* -> $crate::raw::Reply }
    };
    (Node, $($call:tt)*) => {
        $crate::lend::exported! { $($call)* -> $crate::raw::Reply }
    };
    (Option<(u32, u32)>, $($call:tt)*) => {
        $crate::lend::exported! { $($call)* -> $crate::raw::Pair }
    };
    ([u32; $count:literal], $name:ident($($arguments:tt)*)) => {
        $crate::lend::exported! { $name($($arguments)*, children: *mut u32) -> u64 }
    };
    ($number:ident, $($call:tt)*) => {
        $crate::lend::exported! { $($call)* -> u64 }
    };
}

/// What a call gives where it is accepted, or its refusal: a handle with the nodes added, a handle alone, yes or no, a pair or none, or
/// the children.
macro_rules! give {
    (Made, $name:ident($($arguments:tt)*)) => {
        $crate::lend::ask!($name($($arguments)*)).made()
    };
    (Node, $name:ident($($arguments:tt)*)) => {
        $crate::lend::ask!($name($($arguments)*)).node()
    };
    (u32, $name:ident($($arguments:tt)*)) => {
        $crate::given::unpack($crate::lend::ask!($name($($arguments)*)))
    };
    (bool, $name:ident($($arguments:tt)*)) => {
        $crate::given::unpack($crate::lend::ask!($name($($arguments)*))).map(|yes| yes == 1)
    };
    (Option<(u32, u32)>, $name:ident($($arguments:tt)*)) => {
        $crate::lend::ask!($name($($arguments)*)).pair()
    };
    ([u32; $count:literal], $name:ident($($arguments:tt)*)) => {{
        let mut children = [0; $count];
        let pointer = children.as_mut_ptr();
        let answer = $crate::lend::ask!($name($($arguments)*, pointer));
        $crate::given::unpack(answer).map(|_| children)
    }};
}

pub(crate) use {calls, declare, give};
