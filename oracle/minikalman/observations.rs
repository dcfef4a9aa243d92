#[path = "../../target/oracle/files/observations/regular.rs"]
pub mod regular;
