// Bodies that attract each other.
struct Body { position: vec3<f32>, mass: f32, velocity: vec3<f32>, fixed: u32 }
struct Step { time: f32, softening: f32, count: u32 }
struct Bodies { step: Step, bodies: array<Body> }
