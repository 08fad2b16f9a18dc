//! The structs and functions of include/aodv.h.
pub const VERSION: u32 = 1;

#[repr(C)]
pub struct Handle {
    at: *mut u8,
    live: bool,
}

impl Handle {
    pub const NOTHING: Handle = Handle {
        at: std::ptr::null_mut(),
        live: false,
    };
}

#[repr(C)]
#[derive(Clone)]
pub struct Outcome {
    pub took: u32,
    pub from: u32,
    pub dest: u32,
    pub delivered: bool,
    pub lost: bool,
    pub broken: bool,
    pub broke: u32,
    pub cast: u32,
    pub to_len: u32,
    pub to: [u32; 200],
    pub packet_len: u32,
    pub packet: [u8; 1604],
    pub body_len: u32,
    pub body: [u8; 512],
}

impl Outcome {
    pub const EMPTY: Outcome = Outcome {
        took: 0,
        from: 0,
        dest: 0,
        delivered: false,
        lost: false,
        broken: false,
        broke: 0,
        cast: 0,
        to_len: 0,
        to: [0; 200],
        packet_len: 0,
        packet: [0; 1604],
        body_len: 0,
        body: [0; 512],
    };
}

#[repr(C)]
pub struct Addrs {
    pub len: u32,
    pub addrs: [u32; 200],
}

impl Addrs {
    pub const EMPTY: Addrs = Addrs {
        len: 0,
        addrs: [0; 200],
    };
}

#[repr(C)]
pub struct Row {
    pub dsn: u32,
    pub known: bool,
    pub valid: bool,
    pub hops: u32,
    pub next: u32,
    pub pre_len: u32,
    pub pre: [u32; 200],
}

impl Row {
    pub const EMPTY: Row = Row {
        dsn: 0,
        known: false,
        valid: false,
        hops: 0,
        next: 0,
        pre_len: 0,
        pre: [0; 200],
    };
}

extern "C" {
    pub fn aodv_version() -> u32;
    pub fn aodv_new(
        h: &mut Handle,
        addrs: *const u32,
        n: usize,
        me: u32,
        first: u32,
        variant: u32,
    ) -> u32;
    pub fn aodv_free(h: &mut Handle);
    pub fn aodv_hear(h: &mut Handle, from: u32, bytes: *const u8, n: usize) -> u32;
    pub fn aodv_give(h: &mut Handle, dest: u32, body: *const u8, n: usize) -> u32;
    pub fn aodv_turn(h: &mut Handle, near: *const u32, n: usize, out: &mut Outcome) -> u32;
    pub fn aodv_send(
        h: &mut Handle,
        near: *const u32,
        n: usize,
        dest: u32,
        out: &mut Outcome,
    ) -> u32;
    pub fn aodv_ask(h: &mut Handle, dest: u32, out: &mut Outcome) -> u32;
    pub fn aodv_items(h: &mut Handle, count: &mut usize) -> u32;
    pub fn aodv_sendable(h: &mut Handle, list: &mut Addrs) -> u32;
    pub fn aodv_askable(h: &mut Handle, list: &mut Addrs) -> u32;
    pub fn aodv_number(h: &mut Handle, number: &mut u32) -> u32;
    pub fn aodv_entry(h: &mut Handle, dest: u32, row: &mut Row) -> u32;
    pub fn aodv_waiting(h: &mut Handle, dest: u32, count: &mut usize) -> u32;
    pub fn aodv_seen(h: &mut Handle, originator: u32, id: u32, seen: &mut bool) -> u32;
}
