//! What a function in Rust takes of the kit, for `#![no_std]`, `#![no_main]` and this file as
//! `mod seuss`. README.md here says how it is compiled.

/// The most bytes of a packet, in or out.
pub const PACKET_BYTES: usize = 32768;

/// A function that is given a packet and fills in the reply, whose length it returns.
pub type Handler = fn(packet: &[u8], reply: &mut [u8]) -> usize;

extern "C" {
    /// The loop of start.S, which serves packets and never returns.
    pub fn seuss_serve(handle: extern "C" fn(*const u8, usize, *mut u8) -> usize) -> !;
}

/// Has the function, a [`Handler`], serve packets: `seuss::serve!(handle);` beside it.
macro_rules! serve {
    ($handle:path) => {
        #[no_mangle]
        extern "C" fn main() -> i32 {
            extern "C" fn serve_one(packet: *const u8, length: usize, reply: *mut u8) -> usize {
                let handler: $crate::seuss::Handler = $handle;
                // Both are start.S's, of 32,768 bytes each, and the packet has `length` of them.
                unsafe {
                    handler(
                        core::slice::from_raw_parts(packet, length),
                        core::slice::from_raw_parts_mut(reply, $crate::seuss::PACKET_BYTES),
                    )
                }
            }
            unsafe { $crate::seuss::seuss_serve(serve_one) }
        }
    };
}
pub(crate) use serve;

/// A panic is a `fault:3`, and its words are for no one.
#[panic_handler]
fn panic(_: &core::panic::PanicInfo) -> ! {
    unsafe { core::arch::asm!("ebreak", options(noreturn)) }
}
