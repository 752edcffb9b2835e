//! The Rust that is ported: mod.rs and impls.rs as they stand in docs/src.
//!
//! `no_builtins`, as compiler-builtins itself is built: without it the compiler may see memcpy in a loop, and call the host's.
#![no_std]
#![no_builtins]

/// What mod.rs wraps its six functions in. Here they stay plain functions, under no symbol of C's, and are not inlined into their
/// callers, so that they are built as this crate's profile says.
macro_rules! intrinsics {
    ($(#[mem_builtin] pub unsafe extern "C" fn $name:ident($($of:ident: $type:ty),*) -> $result:ty $body:block)*) => {
        $(
            /// # Safety
            /// As C says of the function of this name; bcmp as memcmp.
            #[inline(never)]
            pub unsafe extern "C" fn $name($($of: $type),*) -> $result $body
        )*
    };
}

#[rustfmt::skip]
#[path = "../../../docs/src/library/compiler-builtins/compiler-builtins/src/mem/mod.rs"]
pub mod mem;

mod support {
    pub fn cold_path() {}
}
