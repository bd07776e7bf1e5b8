struct Tail {
    rest: array<u32>,
    count: u32,
}
