//! Stood in, from the Zigbee specification 4.4.10.4: so many bytes.
pub type RequestKey = zigbee_types::ByteArray<1>;
