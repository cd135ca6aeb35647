# Turns the module made of the proved source, LLVM's text for x86-64, into one for a 32-bit target:
#   awk -v layout=.. -v triple=.. -v small=.. -f convert.awk IN > OUT
# It changes three lines: the data layout, the triple, and the attributes, which name an x86 processor
# and a stack probe that other targets lack, and take what small says instead: empty, or that the code
# is to be small. All else stays. It fails if the module has anything that
# was not there when this was tried, as it might depend on the size of a pointer.
BEGIN {
    kind["call"] = kind["store"] = kind["br"] = kind["ret"] = kind["switch"] = kind["unreachable"] = "void"
    n = split("add alloca and bitcast call fadd fcmp fdiv fmul fneg fsub getelementptr icmp load lshr mul or shl " \
              "sub trunc udiv urem xor zext extractvalue", ops, " ")
    for (k = 1; k <= n; k++) value[ops[k]] = 1
    # What include/mearrasot.h declares; 's' is a pointer and its count of 64 bits.
    want["mearrasot_layout"] = "s s s s s s float float float float i32"
    want["mearrasot_relayout"] = "s s s s s s s float float float float i32"
    want["mearrasot_size"] = "s s ptr float float float float i32"
    want["mearrasot_index"] = "s s s s s s s"
    want["mearrasot_scroll"] = "s float ptr"
    want["mearrasot_coarse"] = "s s s s"
    want["mearrasot_keeps_order"] = "s s"
    want["mearrasot_in_profile"] = "s s float float float float i32"
}
function stop(why) {
    print "convert: line " NR ": " why ": " substr($0, 1, 120) > "/dev/stderr"
    bad = 1
    exit 1
}
/^target datalayout = / {
    if ($0 != "target datalayout = \"e-m:e-p270:32:32-p271:32:32-p272:64:64-i64:64-i128:128-f80:128-n8:16:32:64-S128\"")
        stop("another data layout")
    # A pair with a word of 64 bits lies in memory as it does on x86-64.
    if (layout !~ /-i64:64(-|$)/) stop("a target that aligns 64 bits in another way")
    print "target datalayout = \"" layout "\""
    changed++
    next
}
/^target triple = / {
    if ($0 != "target triple = \"x86_64-unknown-linux-gnu\"") stop("another triple")
    print "target triple = \"" triple "\""
    changed++
    next
}
/^attributes #0 = / {
    if ($0 != "attributes #0 = { nounwind \"probe-stack\"=\"inline-asm\" \"stack-probe-size\"=\"3072\" \"target-cpu\"=\"x86-64-v2\" }")
        stop("other attributes")
    print "attributes #0 = { nounwind " small "}"
    changed++
    next
}
/^attributes #[1-9] = / {
    # Of the few functions of LLVM that are declared below.
    # llvm.trap stands where the language's library is proved never to come.
    if ($0 ~ /^attributes #[1-9] = \{ cold noreturn nounwind memory\(inaccessiblemem: write\) \}$/) {
        print
        next
    }
    if ($0 !~ /^attributes #[1-9] = \{ ((nocallback|nocreateundeforpoison|nofree|nosync|nounwind|speculatable|willreturn) )+memory\((none|argmem: (readwrite|write))\) \}$/)
        stop("other attributes")
    print
    next
}
{
    # No integer is wider or stranger than these, and a pointer is never taken for one.
    rest = $0
    gsub(/"[^"]*"/, "", rest)
    while (match(rest, /(^|[^A-Za-z0-9_%@.])i[0-9]+/)) {
        type = substr(rest, RSTART, RLENGTH)
        sub(/^[^i]/, "", type)
        if (type !~ /^i(1|8|32|64)$/) stop("an integer of another width")
        rest = substr(rest, RSTART + RLENGTH)
    }
    if ($0 ~ /ptrtoint|inttoptr|addrspace|asm |double|half|fp128|vscale|volatile|atomic/) stop("an unknown form")
}
/^define / {
    functions++
    if ($0 !~ /^define internal /) {
        name = $0
        sub(/^[^@]*@/, "", name)
        sub(/\(.*/, "", name)
        args = $0
        sub(/^[^(]*\(/, "", args)
        sub(/\) #0 \{$/, "", args)
        gsub(/ noundef %a[0-9]+/, "", args)
        gsub(/,/, "", args)
        gsub(/ptr i64/, "s", args)
        if (!(name in want) || args != want[name] || $0 !~ /^define noundef i64 @/) stop("a function that the header does not declare so")
        exported++
    }
    print
    next
}
/^declare / {
    if ($0 !~ /^declare void @llvm\.(memmove\.p0\.p0|memset\.p0)\.i64\(/ && $0 !~ /^declare void @llvm\.trap\(\) / &&
        $0 !~ /^declare float @llvm\.arithmetic\.fence\.f32\(float\) /)
        stop("an unknown declaration")
    print
    next
}
/^  / {
    if ($1 ~ /^%/ && $2 == "=") {
        op = $3
        if (!(op in value)) stop("an unknown instruction")
        if (op ~ /^f/ && $4 != "float" && !(op == "fcmp" && $5 == "float")) stop("a floating-point operation with a flag")
        if (op == "getelementptr" && $0 !~ / = getelementptr (inbounds nuw )?i8, ptr /) stop("an address that depends on a type")
        if (op == "extractvalue" && $0 !~ / = extractvalue \{ (i8|i32|float), (i8|i32|i64|float) \} %r[0-9]+, [01]$/) stop("an unknown pair")
        if ($0 ~ /@llvm\./ && $0 !~ / = call float @llvm\.arithmetic\.fence\.f32\(float [^ ,()]+\)$/) stop("an unknown call of LLVM")
        if (op == "bitcast" && $4 != "float" && $4 != "i32") stop("an unknown conversion")
        instructions++
    } else if ($1 in kind) {
        if ($0 ~ /@llvm\./ && $0 !~ /@llvm\.memmove\.p0\.p0\.i64\(ptr [^,]*, ptr [^,]*, i64 [0-9]+, i1 false\)$/ &&
            $0 !~ /@llvm\.memset\.p0\.i64\(ptr [^,]*, i8 [0-9]+, i64 [0-9]+, i1 false\)$/ &&
            $0 !~ /^  call void @llvm\.trap\(\)$/)
            stop("an unknown call of LLVM")
        instructions++
    } else if ($0 !~ /^    i(8|32) [0-9]+, label %[A-Za-z0-9_.]+$/ && $0 !~ /^  \]$/) stop("an unknown line")
    print
    next
}
/^[A-Za-z0-9_.]+:/ || /^}$/ || /^$/ || /^;/ || /^!/ || /^source_filename = / { print; next }
{ stop("an unknown line") }
END {
    if (bad) exit 1
    if (changed != 3 || exported != 8) {
        print "convert: " changed + 0 " of 3 lines changed, " exported + 0 " of 8 functions exported" > "/dev/stderr"
        exit 1
    }
    print "convert: " functions " functions, " instructions " instructions, 3 lines changed" > "/dev/stderr"
}
