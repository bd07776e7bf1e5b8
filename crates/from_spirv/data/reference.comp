#version 450
#extension GL_EXT_buffer_reference : require
layout(local_size_x = 1) in;
layout(buffer_reference) buffer Node;
layout(std430, buffer_reference) buffer Node {
    uint value;
    Node next;
};
layout(std430, binding = 0) buffer Block { Node first; } block;
void main() {
    block.first.value = 1;
}
