// Cells of a fluid, and the grid that they stand in.
struct Cell { flow: vec3<f32>, heat: f32, pressure: f32, solid: u32 }
struct Grid { size: vec3<u32>, spacing: f32, gravity: vec3<f32>, dissipation: vec2<f32> }
struct Fluid { grid: Grid, @align(64) cells: array<Cell, 512> }
