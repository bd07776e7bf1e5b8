// Bones of a mesh, three rows each, and weighted vertices.
struct Bone { bind: mat4x3<f32>, pose: mat4x3<f32> }
struct Vertex { position: vec3<f32>, bones: vec4<u32>, weights: vec4<f32>, uv: vec2<f32> }
struct Skin { bones: array<Bone, 48>, vertices: array<Vertex> }
