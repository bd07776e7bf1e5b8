// Indirect draws that a culling kernel writes.
struct Draw { vertices: u32, instances: atomic<u32>, first_vertex: u32, first_instance: u32 }
struct Culling { planes: array<vec4<f32>, 6>, eye: vec3<f32>, count: u32 }
struct Draws { culling: Culling, draws: array<Draw> }
