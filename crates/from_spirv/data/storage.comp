#version 450
// Each module NAME.spv here is made once: glslangValidator -V NAME.comp -o NAME.spv (glslang 12.0.0), and NAME.spvasm is what
// spirv-dis --no-color prints of it (SPIRV-Tools 2023.1). The lines of ../stdout are worked out from that text.
layout(local_size_x = 1) in;
struct Particle {
    vec3 position;
    float mass;
    vec2 velocity;
};
layout(std430, binding = 0) buffer Block {
    mat3 rotation;
    vec3 center;
    float scale;
    uint counts[4];
    mat2 pair;
    Particle particles[];
} block;
void main() {
    block.scale = 1.0;
}
