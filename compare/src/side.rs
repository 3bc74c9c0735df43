//! The interface by which compare/bench plays frames on each side: the library, the Rust in several builds, libopus' C.

/// A shape, by the state's names.
#[repr(C)]
pub struct Shape {
    pub fs_khz: i32,
    pub nb_subfr: i32,
    pub frame_length: i32,
    pub subfr_length: i32,
    pub ltp_mem_length: i32,
    pub lpc_order: i32,
}

/// A call of a player. Each is a function of its own name in the program, so that what it runs can be counted; it answers 0, or the
/// library's a refusal's number.
pub type Call<P> = unsafe extern "C" fn(*mut P) -> i32;

/// A side. Its player P, a state with the frame that was brought and its samples, is `size` bytes, which may be copied; F and C are a
/// frame's numbers as the library is lent them.
#[repr(C)]
pub struct Side<P, F = [i32; 16], C = [i16; 68]> {
    pub size: usize,
    /// The bytes of the state alone.
    pub state: usize,
    /// Whether it plays what libopus recorded, where the Rust plays something else.
    pub recorded: bool,
    pub set_up: unsafe extern "C" fn(*mut P, &Shape),
    /// Brings a frame, with its pulses and their count. The pulses stay the caller's.
    pub bring: unsafe extern "C" fn(*mut P, &F, &C, *const i16, usize),
    pub output: unsafe extern "C" fn(*const P) -> *const i16,
    /// A received frame and a lost one.
    pub frames: [Call<P>; 2],
    /// Core, concealment and noise alone.
    pub stages: [Option<Call<P>>; 3],
}

macro_rules! calls {
    ($($name:ident |$player:ident| $body:expr;)*) => {$(
        #[unsafe(no_mangle)]
        unsafe extern "C" fn $name(player: *mut Player) -> i32 {
            let $player = unsafe { &mut *player };
            $body
        }
    )*};
}
pub(crate) use calls;
