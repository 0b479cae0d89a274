//! Slices as the pointer and the length that C takes, and a call of the library on them.

/// A slice lent for a call.
pub(crate) trait Lend {
    type Pointer;
    fn pointer(self) -> Self::Pointer;
}

impl Lend for &[u32] {
    type Pointer = *const u32;
    fn pointer(self) -> *const u32 {
        self.as_ptr()
    }
}

impl Lend for &mut [u32] {
    type Pointer = *mut u32;
    fn pointer(self) -> *mut u32 {
        self.as_mut_ptr()
    }
}

/// Declares the library's function of this name on the three memories and its own arguments.
macro_rules! exported {
    ($name:ident(
        relations: &$($relations:ident)? [u32],
        sets: &$($sets:ident)? [u32]
        $(, $x:ident: $type:ty)*
    ) -> $returned:ty) => {
        #[doc = concat!("The C function of [`", stringify!($name), "`](crate::", stringify!($name), ").")]
        #[link_name = concat!("packet_store_", stringify!($name))]
        pub fn $name(
            relations: $crate::lend::pointer!($($relations)?),
            relations_len: usize,
            sets: $crate::lend::pointer!($($sets)?),
            sets_len: usize,
            work: *mut u32,
            work_len: usize
            $(, $x: $type)*
        ) -> $returned;
    };
}

/// The pointer to a memory, with `mut` where it may be written.
macro_rules! pointer {
    () => { *const u32 };
    (mut) => { *mut u32 };
}

/// Calls the library's function of this name on the three memories and its own arguments.
macro_rules! ask {
    ($name:ident($relations:ident, $sets:ident, $work:ident $(, $value:expr)*)) => {{
        let (relations_len, sets_len, work_len) = ($relations.len(), $sets.len(), $work.len());
        // SAFETY: each pointer comes from a slice of the length beside it, or from what the call
        // writes besides. What is written is borrowed mutably, so none overlaps another.
        unsafe {
            $crate::raw::$name(
                $crate::lend::Lend::pointer($relations),
                relations_len,
                $crate::lend::Lend::pointer($sets),
                sets_len,
                $work.as_mut_ptr(),
                work_len
                $(, $value)*
            )
        }
    }};
}

pub(crate) use {ask, exported, pointer};
