#version 450
layout(local_size_x = 1) in;
layout(std140, binding = 0) buffer Block { mat2 pair; } block;
void main() {
    block.pair[0][0] = 1.0;
}
