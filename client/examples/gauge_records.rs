//! Prints the gauge records of a release: forty structs, from a table of plain data.
//!
//! `cargo run --release --example gauge_records`

use std::error::Error;

use tillercoral::tree::{Declaration, Field, Path, Struct, Type};

/// A row for each record: its name, its doc, and its fields. A field is its name and its type, and
/// `-` before it says that it is private.
const ROWS: &str = "\
TideHeight         | Height of the tide over chart datum. | mm i32, at u64
TideStream         | Set and rate of the tidal stream. | set_degrees u16, rate_mm_s u32, at u64
DepthBelowKeel     | Depth of water under the keel. | mm u32, -offset_mm i32
DepthBelowSounder  | Depth of water under the transducer. | mm u32, -sounder rc Sounder
SounderEcho        | Strength of each echo of one ping. | levels list u8, gain u8
SounderPing        | One ping and the echoes of it. | echoes list SounderEcho, at u64
SounderFault       | Why a sounder gave no depth. | code u16, -raw 8 u8
WindApparent       | Wind as the mast feels it. | angle_degrees i16, speed_mm_s u32
WindTrue           | Wind over the ground. | angle_degrees i16, speed_mm_s u32, -from rc WindApparent
WindGust           | The strongest wind of ten minutes. | speed_mm_s u32, at u64
AirPressure        | Pressure at sea level. | pascal u32
AirPressureTrend   | Pressure over the last hours. | pascal 12 u32, falling bool
AirTemperature     | Temperature of the air. | millikelvin u32
AirHumidity        | Relative humidity. | permille u16
WaterTemperature   | Temperature of the water at the hull. | millikelvin u32, depth_mm u32
WaterSalinity      | Salinity of the water. | permille u16
WaterClarity       | How far a light shows under water. | mm u32
WaterSpeed         | Speed through the water. | mm_s i32, -paddle rc Paddle
Paddle             | The paddle wheel of a log. | pulses u64, -pulses_per_m u32
DistanceLog        | Distance run since it was set to zero. | m u64, -zeroed_at u64
HeadingMagnetic    | Heading by the compass. | degrees u16, -deviation 36 i8
HeadingTrue        | Heading from true north. | degrees u16, variation_degrees i16
RateOfTurn         | Rate of turn. | millidegrees_s i32
RudderAngle        | Angle of the rudder, to starboard positive. | degrees i8
Heel               | Angle of heel. | millidegrees i32
Pitch              | Angle of pitch. | millidegrees i32
Heave              | Rise and fall over the mean level. | mm i32, -samples list i32
EngineSpeed        | Revolutions of the shaft. | per_minute u16, shaft u8
EngineTemperature  | Temperature of the coolant. | millikelvin u32, alarm bool
EngineOilPressure  | Pressure of the oil. | pascal u32, alarm bool
EngineHours        | Hours run. | seconds u64
FuelLevel          | Fuel in each tank. | litres list u32, -tanks u8
FreshWaterLevel    | Fresh water in each tank. | litres list u32, -tanks u8
BilgeLevel         | Water in the bilge. | mm u32, pumping bool
BatteryCharge      | Charge of one bank. | permille u16, millivolt u32, -cells 6 u16
AnchorChain        | Chain that is out. | m u16, -windlass rc Paddle
AnchorDrift        | Distance from where the anchor lies. | m u16, alarm bool
Position           | Where the antenna is. | latitude i64, longitude i64, at u64
PositionQuality    | How far a position can be trusted. | satellites u8, error_mm u32
Track              | The positions of a passage. | positions list Position, -log rc DistanceLog
";

fn main() -> Result<(), Box<dyn Error>> {
    for (index, declaration) in declarations()?.iter().enumerate() {
        if index > 0 {
            println!();
        }
        println!("{}", declaration.to_text(0)?);
    }
    Ok(())
}

/// The declarations of all rows.
pub fn declarations() -> Result<Vec<Declaration>, String> {
    ROWS.lines().map(declaration).collect()
}

fn declaration(row: &str) -> Result<Declaration, String> {
    let columns: Vec<&str> = row.split('|').map(str::trim).collect();
    let [name, doc, fields] = columns[..] else {
        return Err(format!("a row has three columns: {row}"));
    };
    let mut record = Struct::new(name).doc(doc).derive(["Clone", "Debug"]);
    for field in fields.split(", ") {
        record = record.field(field_of(field)?);
    }
    Ok(record.into())
}

fn field_of(source: &str) -> Result<Field, String> {
    let (name, of) = source
        .split_once(' ')
        .ok_or_else(|| format!("a field has a name and a type: {source}"))?;
    let field_type = type_of(of);
    Ok(match name.strip_prefix('-') {
        Some(name) => Field::private(name, field_type),
        None => Field::public(name, field_type),
    })
}

/// `rc T` is shared, `list T` a vector, `8 T` an array; anything else is one word.
fn type_of(source: &str) -> Type {
    match source.split_once(' ') {
        Some(("rc", of)) => Type::rc(type_of(of)),
        Some(("list", of)) => Path::global(["std", "vec", "Vec"]).apply([type_of(of)]),
        Some((size, of)) => Type::array(type_of(of), size),
        None => match source {
            "bool" => Type::Bool,
            "i8" => Type::I8,
            "i16" => Type::I16,
            "i32" => Type::I32,
            "i64" => Type::I64,
            "u8" => Type::U8,
            "u16" => Type::U16,
            "u32" => Type::U32,
            "u64" => Type::U64,
            name => Type::named(name),
        },
    }
}
