# From what spirv-dis prints of a module, the lines that from_spirv writes of it: types in the order of their instructions, offsets and strides
# as they are printed. Usage: awk -f harness/spirv_text.awk MODULE.spvasm
BEGIN { types = 0; members = 0 }
function up(n, a) { return int((n + a - 1) / a) * a }
function refuse(number) { refused = number; exit }
function type(id, words, bytes, align) { number[id] = types; size[id] = bytes; alignment[id] = align; lines[types++] = "type " words }
function vector(rows) { return rows == 2 ? 2 : 4 }
# the matrix that a type is or is an array of
function matrix(id) { while (id in element) id = element[id]; return id in step ? step[id] : 0 }
$1 == "OpDecorate" && $3 == "ArrayStride" { stride[$2] = $4 }
$1 == "OpMemberDecorate" { decoration[$2, $3, $4] = NF > 4 ? $5 : "given" }
$3 == "OpConstant" { value[$1] = $5 }
$3 == "OpTypeBool" { kind[$1] = 3; type($1, "0 3 1 0 0 0", 1, 1) }
$3 == "OpTypeInt" { kind[$1] = 1 - $5; w = $4 / 8; type($1, "0 " kind[$1] " " w " 0 0 0", w, w) }
$3 == "OpTypeFloat" { kind[$1] = 2; w = $4 / 8; type($1, "0 2 " w " 0 0 0", w, w) }
$3 == "OpTypeVector" {
    w = size[$4]; kind[$1] = kind[$4]; width[$1] = w; rows[$1] = $5
    type($1, "1 " $5 " " kind[$4] " " w " 0 0", $5 * w, vector($5) * w)
}
$3 == "OpTypeMatrix" {
    w = width[$4]; step[$1] = vector(rows[$4]) * w
    type($1, "2 " $5 " " rows[$4] " " kind[$4] " " w " 0", $5 * step[$1], step[$1])
}
$3 == "OpTypeArray" || $3 == "OpTypeRuntimeArray" {
    if (!($1 in stride) || !($4 in number)) refuse(30)
    element[$1] = $4
    if ($3 == "OpTypeArray") type($1, "7 " number[$4] " 0 " value[$5] " " stride[$1] " 0", value[$5] * stride[$1], alignment[$4])
    else type($1, "7 " number[$4] " 1 0 " stride[$1] " 0", stride[$1], alignment[$4])
}
$3 == "OpTypeStruct" {
    for (j = 0; j < NF - 3; j++) {
        m = matrix($(4 + j))
        if (m && (($1, j, "RowMajor") in decoration)) refuse(29)
        if (m && (($1, j, "MatrixStride") in decoration) && decoration[$1, j, "MatrixStride"] != m) refuse(29)
    }
    first = members; a = 1; end = 0
    for (j = 0; j < NF - 3; j++) {
        id = $(4 + j)
        if (!(id in number) || !(($1, j, "Offset") in decoration)) refuse(30)
        rowLines[members++] = "member " number[id] " " decoration[$1, j, "Offset"]
        if (alignment[id] > a) a = alignment[id]
        end = decoration[$1, j, "Offset"] + size[id]
    }
    type($1, "8 " first " " NF - 3 " " up(end, a) " 0 0", up(end, a), a)
}
END {
    if (refused) { print "refused " refused " 0 0 0"; exit }
    for (i = 0; i < types; i++) print lines[i]
    for (i = 0; i < members; i++) print rowLines[i]
}
