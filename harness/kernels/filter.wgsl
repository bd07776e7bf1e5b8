// Weights of a convolution, and where it is applied.
struct Filter { weights: array<array<f32, 5>, 5>, scale: f32, bias: vec3<f32> }
struct Area { origin: vec2<i32>, extent: vec2<u32> }
struct Job { area: Area, filters: array<Filter, 3>, mix: mat2x2<f32> }
