pub use crate::nmea::Sentence;
