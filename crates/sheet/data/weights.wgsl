struct Weights { rows: array<f32, 5>, turn: mat3x3<f32>, @size(8) count: u32 }
