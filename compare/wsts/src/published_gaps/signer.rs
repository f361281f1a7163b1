//! Stand-in for state_machine/signer.rs: only the error types that the published files name.

#[derive(thiserror::Error, Debug, Clone)]
pub enum ConfigError {
    #[error("signer id {0}")]
    InvalidSignerId(u32),
    #[error("key id {0}")]
    InvalidKeyId(u32),
}

#[derive(thiserror::Error, Debug, Clone)]
pub enum Error {
    #[error("configuration: {0}")]
    Config(#[from] ConfigError),
}
