/// Latitude and longitude in 1/10,000 of a minute, and the datum.
#[derive(Clone, Copy, Debug)]
pub struct Position(pub i32, pub i32, crate::nmea::Datum);
