// Structs A and B are the worked example of the W3C specification's memory layout.
struct A {          // align 8, size 24
    u: f32,         // 0
    v: f32,         // 4
    w: vec2<f32>,   // 8
    x: f32          // 16
}

struct B {          // align 16, size 160
    a: vec2<f32>,   // 0
    b: vec3<f32>,   // 16
    c: f32,         // 28
    d: f32,         // 32
    e: A,           // 40
    f: vec3<f32>,   // 64
    g: array<A, 3>, // 80, stride 24
    h: i32          // 152
};

/* What A and B have not. /* Comments nest. */ */
struct C {                                  // align 64, size 128
    n: u32,                                 // 0
    @size(8) b: bool,                       // 4, up to 12
    h: f16,                                 // 12
    m: mat3x2<f16>,                         // 16, three columns of 4 bytes
    t: atomic<u32>,                         // 28
    @size(32) @align(64) v: vec4<i32>,      // 64, up to 96
    r: array<array<u32, 2,>>,               // 96, stride 8
}
