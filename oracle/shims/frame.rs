//! The module `frame`: headers and codec helpers are the Rust's; the frames
//! themselves carry a header and no body, since no comparison sends one.

pub mod basic;
pub mod codec;
pub mod error;

pub use basic::EthernetHeader;

use crate::PowerlinkError;
use codec::Codec;

macro_rules! frames {
    ($($variant:ident $name:ident),*) => {
        $(
            #[derive(Debug)]
            pub struct $name {
                pub eth_header: EthernetHeader,
            }

            impl Codec for $name {
                fn serialize(&self, _buffer: &mut [u8]) -> Result<usize, PowerlinkError> {
                    Ok(0)
                }

                fn deserialize(
                    eth_header: EthernetHeader,
                    _buffer: &[u8],
                ) -> Result<Self, PowerlinkError> {
                    Ok(Self { eth_header })
                }
            }
        )*

        #[derive(Debug)]
        pub enum PowerlinkFrame {
            $($variant($name)),*
        }

        impl PowerlinkFrame {
            pub fn ethernet_header(&self) -> &EthernetHeader {
                match self {
                    $(Self::$variant(frame) => &frame.eth_header),*
                }
            }

            pub fn serialize(&self, buffer: &mut [u8]) -> Result<usize, PowerlinkError> {
                match self {
                    $(Self::$variant(frame) => frame.serialize(buffer)),*
                }
            }
        }
    };
}

frames!(Soc SocFrame, PReq PReqFrame, PRes PResFrame, SoA SoAFrame, ASnd ASndFrame);

/// Data link state machine of a controlled node; nothing here asks its state.
#[derive(Debug, Default)]
pub struct DllCsStateMachine;
