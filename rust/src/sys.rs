//! The library for C, as `include/yarrowdoor.h` declares it. `tools/check/numbers` compares the numbers and the layout.

use std::mem::{offset_of, size_of};

pub(crate) const UDP: u32 = 0;
pub(crate) const TCP: u32 = 1;

pub(crate) const NO_ADDRESS: u8 = 0;
pub(crate) const IPV4: u8 = 4;
pub(crate) const IPV6: u8 = 6;

pub(crate) const SHA1: u32 = 1;
pub(crate) const SHA256: u32 = 2;

pub(crate) const AUTO: u32 = 0;
pub(crate) const REQUIRED: u32 = 1;
pub(crate) const DISABLED: u32 = 2;

/// What the buffer of `poll_transmit` needs, in bytes: every packet is shorter.
pub(crate) const MAX_PACKET: usize = 65_556;
/// What the packet of `send_to` may have beyond its data, in bytes, and what the buffer of a head needs.
pub(crate) const MAX_OVERHEAD: usize = 64;

pub(crate) const CALL_DELETE: u32 = 1;
pub(crate) const CALL_CREATE_PERMISSION: u32 = 2;
pub(crate) const CALL_BIND_CHANNEL: u32 = 3;
pub(crate) const CALL_TCP_CONNECT: u32 = 4;
pub(crate) const CALL_ALLOCATED_TCP_SOCKET: u32 = 5;
pub(crate) const CALL_TCP_CLOSED: u32 = 6;
pub(crate) const CALL_RECV: u32 = 8;
pub(crate) const CALL_POLL_RECV: u32 = 9;
pub(crate) const CALL_POLL: u32 = 10;
pub(crate) const CALL_POLL_TRANSMIT: u32 = 11;
pub(crate) const CALL_POLL_EVENT: u32 = 12;
pub(crate) const CALL_PROTOCOL_ERROR: u32 = 13;
pub(crate) const CALL_RELAYED_ADDRESSES: u32 = 14;
pub(crate) const CALL_HAVE_PERMISSION: u32 = 16;
pub(crate) const CALL_READ: u32 = 17;
pub(crate) const CALL_SET_PERMISSION_KEPT: u32 = 18;
pub(crate) const CALL_SET_CHANNEL_KEPT: u32 = 19;
/// The data is counted and not read: its pointer may be null.
pub(crate) const CALL_SEND_HEAD: u32 = 20;
pub(crate) const CALL_ABANDON: u32 = 21;
pub(crate) const CALL_NEXT_PERMISSION: u32 = 22;

pub(crate) const OUT_OF_MEMORY: u32 = 1;
pub(crate) const BAD_TIME: u32 = 2;
pub(crate) const BAD_PAYLOAD: u32 = 4;
pub(crate) const REFUSED: u32 = 7;
pub(crate) const DONE: u32 = 8;
pub(crate) const NOTHING: u32 = 9;
pub(crate) const WAIT_UNTIL: u32 = 10;
pub(crate) const ALLOCATE_TCP_SOCKET: u32 = 11;
pub(crate) const TCP_CLOSE: u32 = 12;
pub(crate) const CLOSED: u32 = 13;
pub(crate) const PACKET: u32 = 14;
pub(crate) const HANDLED: u32 = 15;
pub(crate) const IGNORED: u32 = 16;
pub(crate) const PEER_DATA: u32 = 17;
pub(crate) const PEER_DATA_RANGE: u32 = 34;
pub(crate) const PEER_ICMP: u32 = 18;
pub(crate) const BYTES: u32 = 19;
pub(crate) const ADDRESS: u32 = 20;
pub(crate) const YES: u32 = 21;
pub(crate) const NO: u32 = 22;
pub(crate) const ALLOCATION_CREATED: u32 = 23;
pub(crate) const ALLOCATION_CREATE_FAILED: u32 = 24;
pub(crate) const PERMISSION_CREATED: u32 = 25;
pub(crate) const PERMISSION_CREATE_FAILED: u32 = 26;
pub(crate) const CHANNEL_CREATED: u32 = 27;
pub(crate) const CHANNEL_CREATE_FAILED: u32 = 28;
pub(crate) const TCP_CONNECTED: u32 = 29;
pub(crate) const TCP_CONNECT_FAILED: u32 = 30;

pub(crate) const MESSAGE: u32 = 35;
pub(crate) const CHANNEL_DATA: u32 = 36;

pub(crate) const CLASS_REQUEST: u16 = 0;
pub(crate) const CLASS_INDICATION: u16 = 1;
pub(crate) const CLASS_SUCCESS: u16 = 2;

pub(crate) const ERROR_ALREADY_EXISTS: u32 = 1;
pub(crate) const ERROR_NO_ALLOCATION: u32 = 2;
pub(crate) const ERROR_NO_PERMISSION: u32 = 3;
pub(crate) const ERROR_NO_SOCKET: u32 = 4;
pub(crate) const ERROR_EXPIRED: u32 = 5;
pub(crate) const ERROR_NOT_GRANTED: u32 = 6;

/// No pause between two requests, as `request_cadence` of the settings.
pub(crate) const NO_PAUSE: u64 = u64::MAX;

/// A client: nothing of it is known here.
#[repr(C)]
pub(crate) struct Client {
    _opaque: [u8; 0],
}

#[derive(Clone, Copy, Default)]
#[repr(C)]
pub(crate) struct Address {
    pub(crate) ip: [u8; 16],
    pub(crate) flow: u32,
    pub(crate) scope: u32,
    pub(crate) port: u16,
    pub(crate) family: u8,
    pub(crate) reserved: u8,
}

#[derive(Clone, Copy, Default)]
#[repr(C)]
pub(crate) struct Settings {
    pub(crate) wait_initial: u64,
    pub(crate) wait_max: u64,
    pub(crate) wait_last: u64,
    pub(crate) wait_count: u32,
    pub(crate) has_waits: u32,
    pub(crate) transport: u32,
    pub(crate) allocation_transport: u32,
    pub(crate) family: u32,
    pub(crate) other_family: u32,
    pub(crate) algorithm: u32,
    pub(crate) other_algorithm: u32,
    pub(crate) anonymous: u32,
    pub(crate) max_stale_nonces: u16,
    pub(crate) timed_from_send: u16,
    pub(crate) local: Address,
    pub(crate) remote: Address,
    pub(crate) request_cadence: u64,
    pub(crate) keepalive: u64,
    pub(crate) refresh_ahead: u64,
    pub(crate) reserved_places: [u64; 2],
}

#[derive(Clone, Copy, Default)]
#[repr(C)]
pub(crate) struct Request {
    pub(crate) time: u64,
    pub(crate) kind: u32,
    pub(crate) id: u32,
    pub(crate) transport: u32,
    pub(crate) reserved: u32,
    pub(crate) from: Address,
    pub(crate) to: Address,
    pub(crate) peer: Address,
    pub(crate) local: Address,
}

#[derive(Clone, Copy, Default)]
#[repr(C)]
pub(crate) struct Answer {
    pub(crate) kind: u32,
    pub(crate) error: u32,
    pub(crate) time: u64,
    pub(crate) len: usize,
    pub(crate) start: usize,
    pub(crate) left: usize,
    pub(crate) id: u32,
    pub(crate) transport: u32,
    pub(crate) family: u32,
    pub(crate) icmp_data: u32,
    pub(crate) icmp_type: u8,
    pub(crate) icmp_code: u8,
    pub(crate) reserved: u16,
    pub(crate) from: Address,
    pub(crate) to: Address,
    pub(crate) peer: Address,
    pub(crate) reserved_places: [u64; 2],
}

#[derive(Clone, Copy, Default)]
#[repr(C)]
pub(crate) struct Message {
    pub(crate) len: u64,
    pub(crate) kind: u32,
    pub(crate) method: u16,
    pub(crate) class: u16,
    pub(crate) id: [u8; 12],
    pub(crate) channel: u16,
    pub(crate) code: u16,
    pub(crate) reason_at: u32,
    pub(crate) reason_len: u32,
    pub(crate) realm_at: u32,
    pub(crate) realm_len: u32,
    pub(crate) mapped: Address,
    pub(crate) alternate: Address,
    pub(crate) reserved: [u8; 8],
}

#[derive(Clone, Copy, Default)]
#[repr(C)]
pub(crate) struct Load {
    pub(crate) late: u64,
    pub(crate) delay: u64,
    pub(crate) slots: u32,
    pub(crate) extras: u32,
}

const _: () = {
    assert!(size_of::<usize>() == 8);
    assert!(
        size_of::<Load>() == 24
            && offset_of!(Load, delay) == 8
            && offset_of!(Load, slots) == 16
            && offset_of!(Load, extras) == 20
    );
    assert!(
        size_of::<Message>() == 112
            && offset_of!(Message, class) == 14
            && offset_of!(Message, channel) == 28
            && offset_of!(Message, realm_len) == 44
            && offset_of!(Message, mapped) == 48
            && offset_of!(Message, alternate) == 76
    );
    assert!(
        size_of::<Address>() == 28
            && offset_of!(Address, port) == 24
            && offset_of!(Address, family) == 26
    );
    assert!(
        size_of::<Settings>() == 160
            && offset_of!(Settings, transport) == 32
            && offset_of!(Settings, local) == 64
            && offset_of!(Settings, request_cadence) == 120
            && offset_of!(Settings, reserved_places) == 144
    );
    assert!(
        size_of::<Request>() == 136
            && offset_of!(Request, from) == 24
            && offset_of!(Request, local) == 108
    );
    assert!(
        size_of::<Answer>() == 160 && offset_of!(Answer, len) == 16 && offset_of!(Answer, id) == 40
    );
    assert!(
        offset_of!(Answer, icmp_type) == 56
            && offset_of!(Answer, from) == 60
            && offset_of!(Answer, peer) == 116
            && offset_of!(Answer, reserved_places) == 144
    );
};

extern "C" {
    pub(crate) fn yarrowdoor_new(
        settings: *const Settings,
        user: *const u8,
        user_len: usize,
        password: *const u8,
        password_len: usize,
        seed: *const u8,
        seed_len: usize,
        place: *mut *mut Client,
    ) -> u32;

    pub(crate) fn yarrowdoor_call(
        client: *mut Client,
        request: *const Request,
        bytes: *const u8,
        bytes_len: usize,
        buffer: *mut u8,
        buffer_len: usize,
        answer: *mut Answer,
    ) -> u32;

    pub(crate) fn yarrowdoor_look(
        client: *const Client,
        request: *const Request,
        answer: *mut Answer,
    ) -> u32;

    pub(crate) fn yarrowdoor_read_message(
        transport: u32,
        bytes: *const u8,
        len: usize,
        message: *mut Message,
    ) -> u32;

    pub(crate) fn yarrowdoor_read_attribute(
        bytes: *const u8,
        len: usize,
        kind: u16,
        start: *mut usize,
        value_len: *mut usize,
    ) -> u32;

    pub(crate) fn yarrowdoor_free(client: *mut Client);
}

unsafe extern "C" {
    /// 0. What refers to it is linked to a library of this layout only.
    safe static yarrowdoor_abi_0: u32;

    // Each only reads what the reference leads to.
    pub(crate) safe fn yarrowdoor_kept_grants(load: &Load, cadence: u64, ahead: u64) -> u64;
    pub(crate) safe fn yarrowdoor_longest_cadence(load: &Load, count: u64, ahead: u64) -> u64;
}

impl Settings {
    /// Settings that are all 0, as the symbol of the layout is, so that no library of another layout is linked.
    pub(crate) fn none() -> Settings {
        Settings {
            reserved_places: [u64::from(yarrowdoor_abi_0), 0],
            ..Settings::default()
        }
    }
}
