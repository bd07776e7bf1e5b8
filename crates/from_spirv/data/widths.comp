#version 450
#extension GL_EXT_shader_explicit_arithmetic_types : require
#extension GL_EXT_shader_8bit_storage : require
#extension GL_EXT_shader_16bit_storage : require
layout(local_size_x = 1) in;
layout(std430, binding = 0) buffer Widths {
    int8_t a;
    u8vec3 b;
    uint16_t c;
    f16vec3 d;
    float16_t e[5];
    int64_t f;
    u64vec2 g;
    double h;
    dvec3 i;
    dmat2x3 j;
} widths;
void main() {
    widths.h = 1.0;
}
