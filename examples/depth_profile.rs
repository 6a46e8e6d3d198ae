/// Depths by distance along the track, `None` where the echo was lost.
pub type DepthProfile<T> = ::std::vec::Vec<(u32, ::std::option::Option<T>)>;
