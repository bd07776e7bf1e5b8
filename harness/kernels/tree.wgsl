// Nodes of a bounding volume tree, and what a ray finds.
struct Bounds { low: vec3<f32>, high: vec3<f32> }
struct Node { bounds: Bounds, left: u32, right: u32, @size(24) parent: i32 }
struct Tree { root: u32, nodes: array<Node> }
struct Hit { at: vec3<f32>, distance: f32, normal: vec3<f32>, triangle: u32, weights: vec2<f32> }
