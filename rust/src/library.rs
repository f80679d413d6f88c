//! The proved library, through its C interface c/vchan_end.h.

/// The 32 bytes of an end, which only the library changes. It refuses bytes that are no end's, so any are allowed.
#[repr(C)]
#[derive(Clone, Copy, Debug, Default, PartialEq, Eq)]
pub struct Kept([u32; 8]);

/// What the caller does next: it moves bytes, stores, signals, makes the event that is awaited, and looks after that.
#[repr(C)]
#[derive(Clone, Copy, Debug, Default)]
pub struct Step {
    pub kind: u8,
    pub width: u8,
    pub offset: u16,
    pub moves: u8,
    pub ring: u8,
    pub store_width: u8,
    pub signals: u8,
    pub store_offset: u16,
    pub answer: u8,
    pub look_width: u8,
    pub place: u32,
    pub at: u32,
    pub first: u32,
    pub second: u32,
    pub answer_first: u32,
    pub answer_second: u32,
    pub look_offset: u16,
    pub spare: u16,
    pub stored: u64,
    pub bits: u64,
}

const _: () = assert!(size_of::<Kept>() == 32 && size_of::<Step>() == 56);

#[link(name = "vchan_c", kind = "static")]
unsafe extern "C" {
    fn vchan_end_init(
        end: &mut Kept,
        role: u32,
        state: u32,
        left: u32,
        right: u32,
        prod: u32,
        cons: u32,
    ) -> bool;
    fn vchan_end_begin(end: &mut Kept, call: u8, len: u32, step: &mut Step) -> u8;
    fn vchan_end_took(end: &mut Kept, value: u64, look: u64, step: &mut Step) -> bool;
    fn vchan_end_live(role: u8) -> u16;
    fn vchan_end_is_open(role: u8, persists: bool, live: u8) -> u8;
}

// SAFETY of all five: the declarations match c/vchan_end.h, and the functions accept any numbers.

pub fn init(role: u8, state: u8, orders: (u32, u32), prod: u32, cons: u32) -> Option<Kept> {
    let mut end = Kept::default();
    unsafe {
        vchan_end_init(
            &mut end,
            role.into(),
            state.into(),
            orders.0,
            orders.1,
            prod,
            cons,
        )
    }
    .then_some(end)
}

pub fn begin(end: &mut Kept, call: u8, len: u32, step: &mut Step) -> u8 {
    unsafe { vchan_end_begin(end, call, len, step) }
}

pub fn took(end: &mut Kept, value: u64, look: u64, step: &mut Step) -> bool {
    unsafe { vchan_end_took(end, value, look, step) }
}

/// The offset of the byte that tells an end of this role whether its peer is there.
pub fn live(role: u8) -> u16 {
    unsafe { vchan_end_live(role) }
}

pub fn is_open(role: u8, live: u8) -> u8 {
    unsafe { vchan_end_is_open(role, false, live) }
}
