#version 450
layout(local_size_x = 4) in;
layout(std430, binding = 0) buffer Block { float values[]; } block;
shared float tile[4];
void main() {
    tile[gl_LocalInvocationIndex] = block.values[gl_GlobalInvocationID.x];
    barrier();
    block.values[gl_GlobalInvocationID.x] = tile[3 - gl_LocalInvocationIndex];
}
