#version 450
layout(local_size_x = 1) in;
layout(std430, row_major, binding = 0) buffer Block { mat4 turned[2]; } block;
void main() {
    block.turned[0][0][0] = 1.0;
}
