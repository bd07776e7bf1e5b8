// A Fourier transform over rows.
struct Transform { stage: u32, direction: i32, scale: f32, twiddles: array<vec2<f32>, 128> }
struct Signal { transform: Transform, samples: array<vec2<f32>> }
