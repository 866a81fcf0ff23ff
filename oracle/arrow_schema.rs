//! A stand-in for the one type that interval.rs and bounding.rs import from the crate `arrow_schema`.

#[derive(Debug)]
pub enum ArrowError {
    ExternalError(Box<dyn std::error::Error + Send + Sync>),
    InvalidArgumentError(String),
}
