//! Stood in, from the Zigbee specification 4.4.10.8: so many bytes.
pub type ConfirmKey = zigbee_types::ByteArray<10>;
