# Modules of any size, to time the reader: awk -v what=WHAT -v n=N -f harness/spirv_large.awk
# shader: GLSL with 60 storage buffers and n statements; constants, members, skipped: text for spirv-as with n integer constants, with a
# struct of n members, with a struct of 64 members, or -v m=M of them, behind n names
function statement(i) { return "    b" i % 60 ".u[" i % 60 "].a[" i % 4 "] += b" (i * 7) % 60 ".x * " i ".0 + float(b" (i * 3) % 60 ".t[" i % 8 "]);" }
function head() { print "OpCapability Shader"; print "OpMemoryModel Logical GLSL450" }
BEGIN {
    if (what == "shader") {
        print "#version 450\nlayout(local_size_x = 1) in;"
        for (i = 0; i < 60; i++)
            print "struct S" i " { vec3 v; float a[4]; mat3 m; };\nlayout(std430, binding = " i ") buffer B" i " { float x; uint t[8]; vec4 w; mat4 m; S" i " u[]; } b" i ";"
        print "void main() {"
        for (i = 0; i < n; i++) print statement(i)
        print "}"
        exit
    }
    head()
    members = what == "members" ? n : m ? m : 64
    if (what == "skipped") for (i = 0; i < n; i++) print "OpName %s \"abc\""
    if (what != "constants") for (i = 0; i < members; i++) print "OpMemberDecorate %s " i " Offset " 4 * i
    print "%u = OpTypeInt 32 0"
    if (what == "constants") for (i = 0; i < n; i++) print "%c" i " = OpConstant %u " i
    if (what != "constants") { printf "%%s = OpTypeStruct"; for (i = 0; i < members; i++) printf " %%u"; print "" }
}
