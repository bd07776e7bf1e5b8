// Layers of a network in half precision; read with --capabilities 2.
struct Layer { weights: array<vec4<f16>, 16>, bias: vec3<f16>, scale: f16, turn: mat3x2<f16> }
struct Network { layers: array<Layer, 4>, rate: f32, inputs: array<vec2<f16>> }
