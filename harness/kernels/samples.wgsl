// Matrices of every shape, and padding that attributes ask for.
struct Shapes {
    a: mat2x2<f32>, b: mat2x3<f32>, c: mat2x4<f32>,
    d: mat3x2<f32>, e: mat3x3<f32>, f: mat3x4<f32>,
    g: mat4x2<f32>, h: mat4x3<f32>, i: mat4x4<f32>,
}
struct Sample { @size(16) at: vec2<f32>, @align(32) value: vec4<f32>, count: u32 }
struct Samples { shapes: Shapes, @align(256) samples: array<Sample, 7>, last: array<array<mat3x3<f32>, 2>, 3> }
