// A cloth of points and springs.
struct Point { now: vec3<f32>, before: vec3<f32>, inverse_mass: f32 }
struct Spring { ends: vec2<u32>, length: f32, stiffness: f32 }
struct Cloth { wind: vec3<f32>, damping: f32, points: array<Point, 256>, springs: array<Spring> }
