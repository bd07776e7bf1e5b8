// What a camera hands to each pass.
struct Camera {
    view: mat4x4<f32>,
    projection: mat4x4<f32>,
    normal: mat3x3<f32>,
    eye: vec3<f32>,
    exposure: f32,
    jitter: vec2<f32>,
}
