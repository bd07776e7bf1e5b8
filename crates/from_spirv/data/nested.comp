#version 450
layout(local_size_x = 1) in;
struct Inner {
    vec2 at;
    float heat;
};
struct Outer {
    Inner inner[3];
    mat2x4 map;
    uint flag;
};
layout(std430, binding = 0) buffer Grid {
    uint size;
    Outer cells[2][4];
    mat3x2 maps[2];
    Outer tail[];
} grid;
void main() {
    grid.size = 1;
}
