struct Cell {
    flow: vec3<f32>,
    heat: f32,
}
struct Grid {
    turn: mat3x3<f32>,
    origin: vec2<f32>,
    cells: array<Cell>,
}
