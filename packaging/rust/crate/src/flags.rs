//! How a declaration is printed.

use std::{fmt, ops};

/// How a declaration is printed: a set of bits, with the calls and operators that the crate `bitflags` gives one. Bits
/// without a name change nothing.
///
/// ```
/// use msvc_demangler::{demangle, DemangleFlags};
///
/// const FLAGS: DemangleFlags = DemangleFlags::llvm().union(DemangleFlags::NO_MS_KEYWORDS);
/// assert_eq!(demangle("?f@@YAXHH@Z", FLAGS)?, "void f(int, int)");
/// assert_eq!(demangle("?f@@YAXHH@Z", FLAGS - DemangleFlags::SPACE_AFTER_COMMA)?, "void f(int,int)");
/// # Ok::<(), msvc_demangler::Error>(())
/// ```
#[derive(Clone, Copy, Debug, Default, PartialEq, Eq, PartialOrd, Ord, Hash)]
pub struct DemangleFlags(u32);

macro_rules! flags {
    ($($(#[$doc:meta])* $name:ident = $bits:literal;)*) => {
        impl DemangleFlags {
            $($(#[$doc])* pub const $name: DemangleFlags = DemangleFlags($bits);)*

            /// Returns the set of all bits that have a name.
            pub const fn all() -> DemangleFlags {
                DemangleFlags($($bits)|*)
            }
        }
    };
}

flags! {
    /// No flag.
    COMPLETE = 0x0;
    /// Drops `__cdecl` and the like, of pointers to functions too. Turns `void __cdecl f(void)` of `?f@@YAXXZ` into
    /// `void f(void)`.
    NO_MS_KEYWORDS = 0x2;
    /// Drops everything before the name. Turns `public: static int __cdecl A::f(void)` of `?f@A@@SAHXZ` into
    /// `A::f(void)`.
    NO_FUNCTION_RETURNS = 0x4;
    /// Changes nothing alone.
    NO_MS_THISTYPE = 0x20;
    /// Changes nothing alone.
    NO_CV_THISTYPE = 0x40;
    /// NO_MS_THISTYPE and NO_CV_THISTYPE: drops `const` and the like of member functions. Turns
    /// `public: int __thiscall A::f(void) const` of `?f@A@@QBEHXZ` into `public: int __thiscall A::f(void)`.
    NO_THISTYPE = 0x60;
    /// Drops `public` and the like, of functions only. Turns `public: static int __cdecl A::f(void)` of `?f@A@@SAHXZ`
    /// into `static int __cdecl A::f(void)`.
    NO_ACCESS_SPECIFIERS = 0x80;
    /// Drops `static` and `virtual`, of functions only. Turns `public: static int __cdecl A::f(void)` of `?f@A@@SAHXZ`
    /// into `public: int __cdecl A::f(void)`.
    NO_MEMBER_TYPE = 0x200;
    /// Prints `__int64` and `__int128`. Turns `int64_t __cdecl f(void)` of `?f@@YA_JXZ` into `__int64 __cdecl f(void)`.
    MS_TYPENAMES = 0x400;
    /// Changes nothing.
    DECODE_32_BIT = 0x800;
    /// Prints the name only. Turns `int ns::x` of `?x@ns@@3HA` into `ns::x`.
    NAME_ONLY = 0x1000;
    /// Drops `class`, `struct`, `union` and `enum`. Turns `void __cdecl f(class A,int)` of `?f@@YAXVA@@H@Z` into
    /// `void __cdecl f(A,int)`.
    NO_CLASS_TYPE = 0x100000;
    /// Prints a space after each comma. Turns `void __cdecl f(int,int)` of `?f@@YAXHH@Z` into
    /// `void __cdecl f(int, int)`.
    SPACE_AFTER_COMMA = 0x200000;
    /// Drops the space before `*` and `&`. Turns `int *x` of `?x@@3PEAHEA` into `int*x`.
    HUG_TYPE = 0x400000;
    /// Drops the space after `*` and `&`; under HUG_TYPE prints one before them after a word. Turns
    /// `int const * const x` of `?x@@3QEBHEB` into `int const *const x`.
    SPACE_BEFORE_POINTER = 0x800000;
    /// Prints `__ptr64` after the parameters of a member function. Turns `public: int __cdecl A::f(void) const` of
    /// `?f@A@@QEBAHXZ` into `public: int __cdecl A::f(void) const __ptr64`.
    WITH_PTR64 = 0x1000000;
}

impl DemangleFlags {
    /// Reads the symbols of today's compilers, of which the crate reads a part. [`demangle_full`](crate::demangle_full)
    /// sets it. This is a bit of the library alone: it is in no set of named bits, and `all`, `from_bits` and
    /// `from_bits_truncate` don't know it.
    ///
    /// ```
    /// use msvc_demangler::{demangle_within, DemangleFlags};
    ///
    /// let flags = DemangleFlags::llvm() | DemangleFlags::FULL;
    /// assert_eq!(demangle_within("?f@@YA?A?<auto>@@H@Z", flags, 100, 100)?, "<auto> __cdecl f(int)");
    /// # Ok::<(), msvc_demangler::Error>(())
    /// ```
    pub const FULL: DemangleFlags = DemangleFlags(0x80000000);

    /// Returns the flags whose spelling is near that of `llvm-undname`: `MS_TYPENAMES`, `SPACE_AFTER_COMMA`,
    /// `HUG_TYPE` and `SPACE_BEFORE_POINTER`.
    pub const fn llvm() -> DemangleFlags {
        DemangleFlags::MS_TYPENAMES
            .union(DemangleFlags::SPACE_AFTER_COMMA)
            .union(DemangleFlags::HUG_TYPE)
            .union(DemangleFlags::SPACE_BEFORE_POINTER)
    }

    /// Returns the empty set.
    pub const fn empty() -> DemangleFlags {
        DemangleFlags(0)
    }

    /// Returns the bits.
    pub const fn bits(&self) -> u32 {
        self.0
    }

    /// Returns the set of these bits; `None` if one of them has no name.
    pub const fn from_bits(bits: u32) -> Option<DemangleFlags> {
        if DemangleFlags::all().0 | bits == DemangleFlags::all().0 {
            Some(DemangleFlags(bits))
        } else {
            None
        }
    }

    /// Returns the set of those of these bits that have a name.
    pub const fn from_bits_truncate(bits: u32) -> DemangleFlags {
        DemangleFlags::all().intersection(DemangleFlags(bits))
    }

    /// Returns the set of these bits.
    pub const fn from_bits_retain(bits: u32) -> DemangleFlags {
        DemangleFlags(bits)
    }

    /// Tests whether no bit is set.
    pub const fn is_empty(&self) -> bool {
        self.0 == 0
    }

    /// Tests whether all bits are set that have a name.
    pub const fn is_all(&self) -> bool {
        self.contains(DemangleFlags::all())
    }

    /// Tests whether all bits of `other` are set.
    pub const fn contains(&self, other: DemangleFlags) -> bool {
        self.0 & other.0 == other.0
    }

    /// Tests whether a bit of `other` is set.
    pub const fn intersects(&self, other: DemangleFlags) -> bool {
        self.0 & other.0 != 0
    }

    /// Returns the bits that are in one of both sets, as `|` does.
    #[must_use]
    pub const fn union(self, other: DemangleFlags) -> DemangleFlags {
        DemangleFlags(self.0 | other.0)
    }

    /// Returns the bits that are in both sets, as `&` does.
    #[must_use]
    pub const fn intersection(self, other: DemangleFlags) -> DemangleFlags {
        DemangleFlags(self.0 & other.0)
    }

    /// Returns the bits that are not in `other`, as `-` does.
    #[must_use]
    pub const fn difference(self, other: DemangleFlags) -> DemangleFlags {
        DemangleFlags(self.0 & !other.0)
    }

    /// Returns the bits that are in exactly one of both sets, as `^` does.
    #[must_use]
    pub const fn symmetric_difference(self, other: DemangleFlags) -> DemangleFlags {
        DemangleFlags(self.0 ^ other.0)
    }

    /// Returns the bits that have a name and are not set, as `!` does.
    #[must_use]
    pub const fn complement(self) -> DemangleFlags {
        DemangleFlags::all().difference(self)
    }

    /// Sets the bits of `other`.
    pub fn insert(&mut self, other: DemangleFlags) {
        *self |= other;
    }

    /// Clears the bits of `other`.
    pub fn remove(&mut self, other: DemangleFlags) {
        *self -= other;
    }

    /// Changes each bit of `other`.
    pub fn toggle(&mut self, other: DemangleFlags) {
        *self ^= other;
    }

    /// Sets the bits of `other`, or clears them.
    pub fn set(&mut self, other: DemangleFlags, value: bool) {
        if value {
            self.insert(other);
        } else {
            self.remove(other);
        }
    }
}

macro_rules! operators {
    ($($operator:ident $call:ident, $assigning:ident $assign:ident: $does:ident;)*) => {$(
        impl ops::$operator for DemangleFlags {
            type Output = DemangleFlags;

            fn $call(self, other: DemangleFlags) -> DemangleFlags {
                self.$does(other)
            }
        }

        impl ops::$assigning for DemangleFlags {
            fn $assign(&mut self, other: DemangleFlags) {
                *self = self.$does(other);
            }
        }
    )*};
}

operators! {
    BitOr bitor, BitOrAssign bitor_assign: union;
    BitAnd bitand, BitAndAssign bitand_assign: intersection;
    BitXor bitxor, BitXorAssign bitxor_assign: symmetric_difference;
    Sub sub, SubAssign sub_assign: difference;
}

impl ops::Not for DemangleFlags {
    type Output = DemangleFlags;

    fn not(self) -> DemangleFlags {
        self.complement()
    }
}

impl Extend<DemangleFlags> for DemangleFlags {
    fn extend<I: IntoIterator<Item = DemangleFlags>>(&mut self, sets: I) {
        sets.into_iter().for_each(|set| self.insert(set));
    }
}

impl FromIterator<DemangleFlags> for DemangleFlags {
    fn from_iter<I: IntoIterator<Item = DemangleFlags>>(sets: I) -> DemangleFlags {
        sets.into_iter().fold(DemangleFlags::empty(), DemangleFlags::union)
    }
}

macro_rules! number_formats {
    ($($format:ident)*) => {$(
        impl fmt::$format for DemangleFlags {
            fn fmt(&self, f: &mut fmt::Formatter<'_>) -> fmt::Result {
                fmt::$format::fmt(&self.0, f)
            }
        }
    )*};
}

number_formats! { Binary Octal LowerHex UpperHex }
