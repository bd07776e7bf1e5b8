struct Cells {
    count: u32,
    cells array<f32>,
}
