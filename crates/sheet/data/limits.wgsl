struct Narrow { scale: f16, member_1: u32 }
struct Long { rows: array<vec4<f32>, 16>, last: f32 }
struct Full { rows: array<vec4<f32>, 16> }
struct Open { first: u32, rest: array<vec3<f32>> }
struct Flag { on: bool }
