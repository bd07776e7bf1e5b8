#version 450
layout(local_size_x = 1) in;
struct Light {
    vec3 position;
    float range;
    mat3 frame;
};
layout(std140, binding = 0) uniform Scene {
    mat4 view;
    float weights[3];
    Light lights[2];
    vec2 corner;
    ivec3 cells;
    uint count;
} scene;
layout(std430, binding = 1) buffer Out { uint value; } result;
void main() {
    result.value = scene.count;
}
