//! Stood in, from the Zigbee specification 4.4.10.1: a key type, and a descriptor of that type's length.
use zigbee_macros::impl_byte;
use zigbee_types::ByteArray;

impl_byte! {
    #[tag(u8)]
    #[derive(Debug, Clone, Copy, PartialEq, Eq)]
    pub enum TransportKey {
        #[tag_value = 0x01]
        StandardNetworkKey(ByteArray<33>),
        #[tag_value = 0x03]
        ApplicationLinkKey(ByteArray<25>),
        #[tag_value = 0x04]
        TrustCenterLinkKey(ByteArray<32>),
        #[fallback = true]
        Reserved(u8),
    }
}
