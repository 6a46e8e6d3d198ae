/// Offset in mm.
pub struct Gauge {
    pub mm: i32,
    id: &u8
}
