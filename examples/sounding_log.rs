/// The last soundings of a transducer, oldest first.
/// 
/// ```
/// let deepest = log.window.iter().max();
/// ```
#[derive(Clone)]
#[allow(dead_code, non_snake_case)]
pub struct SoundingLog<T: crate::nmea::Unit + ::std::clone::Clone, K> {
    pub transducer: ::std::rc::Rc<dyn crate::nmea::Transducer>,
    pub soundings: ::dafny_runtime::Sequence<T>,
    pub latest: ::dafny_runtime::Object<crate::nmea::Fix>,
    window: [Millimetres; 16],
    gain: u8,
    on_alarm: ::std::option::Option<::std::rc::Rc<dyn ::std::ops::Fn(&T, (Millimetres, bool)) -> bool>>,
    key: K
}
