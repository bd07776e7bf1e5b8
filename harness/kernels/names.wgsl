// Names that C, Rust or the generated members have themselves.
struct float { int: f32, short: f32, short_: f32, unused_at_12: f32, type_1: vec3<f32>, member_0: u32 }
struct u8 { self_: float, double: u32 }
struct type_3 { u8: array<u8, 2>, offset: u32 }
