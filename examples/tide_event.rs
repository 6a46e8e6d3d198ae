/// An event in the log of a tide gauge.
/// 
/// ```dafny
/// var event := TideEvent.High(1204, now);
/// ```
/// 
/// Levels are in millimetres above chart datum:
/// |   level = raw - zero
#[derive(Clone, Debug, PartialEq)]
pub enum TideEvent {
    /// High water.
    High {
        level_mm: i32,
        at: ::std::time::SystemTime
    },
    /// Low water.
    Low {
        level_mm: i32,
        at: ::std::time::SystemTime
    },
    /// What the level stood above the predicted tide,
    /// and for how long.
    Surge(i32,
        ::std::time::Duration),
    Fault(crate::nmea::Fault),
    Idle {}
}
