//! What a filter in Rust is given, as span.h says it to one in C. rustc has no `core` for BPF, so that behind it stands what
//! the language itself asks of one: of rustc 1.95. Operators are there for u32 and u64; they wrap, as in C.
#![allow(dead_code)]

/// What r1 points to. `--context 4` lets a filter read all of it, the text, and the link.
#[repr(C)]
pub struct Span {
    pub text: *const u8,     // 0: the text's first byte
    pub end: *const u8,      // 8: the place after its last byte
    pub len: u32,            // 16: its length in bytes, 0 to 131,072
    pub characters: u32,     // 20: its length in characters
    pub flags: u32,          // 24: the sum of 1 strong, 2 em, 4 link, 8 color, 16 comment, 32 code
    pub color: u32,          // 28: 65,536 * red + 256 * green + blue; 0 where there is none
    pub link_len: u32,       // 32: the link's length in bytes, 0 where there is none
    pub comments: u32,       // 36: how many comments there are
    pub index: u32,          // 40: the span's place among those of the version, from 0
    pub count: u32,          // 44: how many spans the version has
    pub version: u64,        // 48: the version's number
    pub link: *const u8,     // 56: the link's first byte
    pub link_end: *const u8, // 64: the place after its last byte; equal to `link` where there is none
}

impl Span {
    /// The text's byte at a place. The verifier refuses a filter that doesn't ask before whether the place is less than `len`.
    #[inline(always)]
    pub fn byte(&self, place: u32) -> u32 {
        unsafe { *((self.text as u64 + place as u64) as *const u8) as u32 }
    }
}

#[lang = "pointee_sized"]
pub trait PointeeSized {}

#[lang = "meta_sized"]
pub trait MetaSized: PointeeSized {}

#[lang = "sized"]
pub trait Sized: MetaSized {}

#[lang = "legacy_receiver"]
pub trait LegacyReceiver {}
impl<T: PointeeSized> LegacyReceiver for &T {}
impl<T: PointeeSized> LegacyReceiver for &mut T {}

#[lang = "freeze"]
pub unsafe auto trait Freeze {}

#[lang = "copy"]
pub trait Copy {}
impl Copy for u8 {}
impl<T: PointeeSized> Copy for *const T {}

#[lang = "eq"]
pub trait PartialEq<R: PointeeSized = Self>: PointeeSized {
    fn eq(&self, other: &R) -> bool;
    fn ne(&self, other: &R) -> bool;
}

#[lang = "partial_ord"]
pub trait PartialOrd<R: PointeeSized = Self>: PartialEq<R> {
    fn lt(&self, other: &R) -> bool;
    fn le(&self, other: &R) -> bool;
    fn gt(&self, other: &R) -> bool;
    fn ge(&self, other: &R) -> bool;
}

macro_rules! compared {
    ($($number:ty)*) => {
        $(
            impl Copy for $number {}
            impl PartialEq for $number {
                fn eq(&self, other: &$number) -> bool { *self == *other }
                fn ne(&self, other: &$number) -> bool { *self != *other }
            }
            impl PartialOrd for $number {
                fn lt(&self, other: &$number) -> bool { *self < *other }
                fn le(&self, other: &$number) -> bool { *self <= *other }
                fn gt(&self, other: &$number) -> bool { *self > *other }
                fn ge(&self, other: &$number) -> bool { *self >= *other }
            }
        )*
    };
}
compared!(u32 u64);

macro_rules! operators {
    ($($lang:literal $name:ident $of:ident $operator:tt, $and_set:literal $set_name:ident $set:ident $setter:tt;)*) => {
        $(
            #[lang = $lang]
            pub trait $name<R = Self> {
                type Output;
                fn $of(self, other: R) -> Self::Output;
            }
            #[lang = $and_set]
            pub trait $set_name<R = Self> {
                fn $set(&mut self, other: R);
            }
            operators!(@ u32 $name $of $operator $set_name $set $setter);
            operators!(@ u64 $name $of $operator $set_name $set $setter);
        )*
    };
    (@ $number:ident $name:ident $of:ident $operator:tt $set_name:ident $set:ident $setter:tt) => {
        impl $name for $number {
            type Output = $number;
            fn $of(self, other: $number) -> $number { self $operator other }
        }
        impl $set_name for $number {
            fn $set(&mut self, other: $number) { *self $setter other }
        }
    };
}
operators! {
    "add" Add add +, "add_assign" AddAssign add_assign +=;
    "sub" Sub sub -, "sub_assign" SubAssign sub_assign -=;
    "mul" Mul mul *, "mul_assign" MulAssign mul_assign *=;
    "bitand" BitAnd bitand &, "bitand_assign" BitAndAssign bitand_assign &=;
    "bitor" BitOr bitor |, "bitor_assign" BitOrAssign bitor_assign |=;
    "bitxor" BitXor bitxor ^, "bitxor_assign" BitXorAssign bitxor_assign ^=;
    "shl" Shl shl <<, "shl_assign" ShlAssign shl_assign <<=;
    "shr" Shr shr >>, "shr_assign" ShrAssign shr_assign >>=;
}
