// A value that is dropped while a panic passes, and one that isn't: made without a core library by
//
//     rustc +nightly --target aarch64-apple-darwin --emit obj -O -o dropped.o dropped.rs
//
// of rustc 1.97.0-nightly (e50aa6fba 2026-05-19). The personality function is one of its own.
#![feature(no_core, lang_items, auto_traits)]
#![no_core]
#![no_main]
#![allow(internal_features)]

#[lang = "pointee_sized"]
pub trait PointeeSized {}
#[lang = "meta_sized"]
pub trait MetaSized: PointeeSized {}
#[lang = "sized"]
pub trait Sized: MetaSized {}
#[lang = "copy"]
pub trait Copy {}
#[lang = "sync"]
pub unsafe trait Sync {}
#[lang = "freeze"]
pub unsafe trait Freeze {}
#[lang = "unpin"]
pub auto trait Unpin {}
#[lang = "unsafe_unpin"]
pub unsafe auto trait UnsafeUnpin {}
#[lang = "legacy_receiver"]
pub trait LegacyReceiver {}
#[lang = "drop"]
pub trait Drop {
    fn drop(&mut self);
}

impl<T: PointeeSized> LegacyReceiver for &T {}
impl<T: PointeeSized> LegacyReceiver for &mut T {}
impl Copy for i32 {}
unsafe impl Sync for &[&str; 2] {}

#[lang = "drop_glue"]
#[allow(unconditional_recursion)]
pub unsafe fn drop_glue<T: PointeeSized>(value: &mut T) {
    unsafe { drop_glue(value) }
}

#[lang = "eh_personality"]
extern "C" fn rust_eh_personality() {}

#[lang = "panic_cannot_unwind"]
fn panic_cannot_unwind() -> ! {
    loop {}
}

#[lang = "panic_in_cleanup"]
fn panic_in_cleanup() -> ! {
    loop {}
}

pub struct Guard(i32);

unsafe extern "C-unwind" {
    fn getpid() -> i32;
}

#[no_mangle]
pub static mut SEEN: i32 = 0;

impl Drop for Guard {
    #[inline(never)]
    fn drop(&mut self) {
        unsafe { SEEN = self.0 }
    }
}

#[no_mangle]
pub static NAMES: &[&str; 2] = &["one", "two"];

// The guard is dropped also where the call unwinds.
#[no_mangle]
#[inline(never)]
pub extern "C-unwind" fn guarded(number: i32) -> i32 {
    let _guard = Guard(number);
    unsafe { getpid() }
}

#[no_mangle]
pub extern "C-unwind" fn main(count: i32) -> i32 {
    guarded(count)
}
