// Greetings that lead to each other, in Rust without its core library, so that the object needs no other one.
#![feature(no_core, lang_items, auto_traits)]
#![no_core]
#![crate_type = "lib"]

#[lang = "pointee_sized"]
pub trait PointeeSized {}
#[lang = "meta_sized"]
pub trait MetaSized: PointeeSized {}
#[lang = "sized"]
pub trait Sized: MetaSized {}
#[lang = "copy"]
pub trait Copy {}
#[lang = "sync"]
pub unsafe auto trait Sync {}
#[lang = "freeze"]
unsafe auto trait Freeze {}
impl Copy for *const u8 {}
impl<T: PointeeSized> Copy for &T {}

#[lang = "drop_in_place"]
unsafe fn drop_in_place<T: PointeeSized>(_: *mut T) {}

unsafe extern "C" {
    fn fputs(text: *const u8, stream: *const u8) -> i32;
    static __stdoutp: *const u8;
}

type Say = extern "C" fn(&'static Greeting) -> i32;

/// A text, the next greeting, and how it is said.
pub struct Greeting(&'static [u8; 7], &'static Greeting, Say);

static HELLO: Greeting = Greeting(b"hello\n\0", &WORLD, say);
static WORLD: Greeting = Greeting(b"world\n\0", &HELLO, say);

#[unsafe(no_mangle)]
pub static mut FIRST: &Greeting = &HELLO;

extern "C" fn say(greeting: &'static Greeting) -> i32 {
    unsafe { fputs(greeting.0 as *const [u8; 7] as *const u8, __stdoutp) }
}

#[unsafe(no_mangle)]
pub extern "C" fn main() -> i32 {
    unsafe {
        let first = FIRST;
        (first.2)(first);
        (first.1.2)(first.1)
    }
}
