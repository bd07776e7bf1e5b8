// Lights in clusters.
struct Light { color: vec3<f32>, range: f32, position: vec3<f32>, angle: f32, direction: vec3<f32>, kind: u32 }
struct Cluster { first: u32, count: u32 }
struct Lights { ambient: vec4<f32>, count: u32, clusters: array<Cluster, 64>, lights: array<Light> }
