//! Stood in, from the Zigbee specification 4.4.10.5: so many bytes.
pub type SwitchKey = zigbee_types::ByteArray<1>;
