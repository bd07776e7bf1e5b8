// A sparse matrix in compressed rows.
struct Sparse { rows: u32, columns: u32, starts: array<u32, 1025>, values: array<f32, 4096>, indices: array<u32> }
struct Solve { residual: f32, alpha: f32, beta: f32, iteration: u32 }
