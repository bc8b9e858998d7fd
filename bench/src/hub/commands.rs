//! The numbers of the requests that the hub serves, and of its replies. The
//! confirm of a request has the next number.

pub const PASSWORD_ENTER: u16 = 0x3000;
pub const PASSWORD_CHANGE: u16 = 0x3002;
pub const GET_NODE: u16 = 0x0200;
pub const SET_VARIATION: u16 = 0x0206;
pub const SET_NAME: u16 = 0x0208;
pub const SET_ORDER: u16 = 0x020D;
pub const REMOVE_NODES: u16 = 0x0106;
pub const VIRGIN_STATE: u16 = 0x0108;
pub const MODE_SEND: u16 = 0x0320;

pub const ERROR: u16 = 0x0000;
/// Follows the confirm of get.
pub const NODE_NOTICE: u16 = 0x0210;
pub const SESSION_FINISHED: u16 = 0x0304;

/// The places for indices in a mode send.
pub const INDICES: u8 = 20;
/// The originators that a mode send may have.
pub const ORIGINATORS: [u8; 10] = [1, 2, 3, 5, 8, 9, 11, 12, 13, 255];
