//! Stood in, from the Zigbee specification 4.4.10.7: so many bytes.
pub type VerifyKey = zigbee_types::ByteArray<25>;
