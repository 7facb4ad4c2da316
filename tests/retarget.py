"""tools/retarget.py on small modules: what it changes, and that it stops at every form that it does not know."""

import os
import subprocess
import sys
import tempfile

TOOL = os.path.join(os.path.dirname(os.path.abspath(__file__)), '..', 'tools', 'retarget.py')

MODULE = '''; ModuleID = 'module.bc'
source_filename = "rattle"
target datalayout = "e-m:e-i64:64"
target triple = "x86_64-unknown-linux-gnu"

@powers = private unnamed_addr constant [4 x i32] [i32 1, i32 2, i32 4, i32 8], align 4
@letters = internal constant [4 x i8] c"a\\22;\\00", align 1
@rows = private local_unnamed_addr constant [2 x [2 x i16]] [[2 x i16] [i16 -1, i16 2], [2 x i16] zeroinitializer], align 2
@packed = private constant <{ [2 x i8], i64 }> <{ [2 x i8] c"ab", i64 -9 }>, align 1

; Function Attrs: nounwind
define internal noundef zeroext i1 @"shelf::is_small"(i64 noundef %a0) #0 {
start:
  %r0 = icmp ult i64 %a0, 4
  ret i1 %r0
}

; Function Attrs: nounwind
define internal noundef { i8, i64 } @"shelf::half"(ptr noundef %a0) #0 {
start:
  %r0 = load { i8, i64 }, ptr %a0, align 8
  ret { i8, i64 } %r0
}

; Function Attrs: nounwind
define noundef i32 @power(i64 noundef %a0, ptr noundef %a1) #0 {
start:
  %r0 = alloca [16 x i8], align 8
  call void @llvm.memmove.p0.p0.i64(ptr %r0, ptr %a1, i64 16, i1 false)
  %r5 = icmp eq ptr %a1, null
  %r6 = call { i8, i64 } @"shelf::half"(ptr %r0)
  %r7 = extractvalue { i8, i64 } %r6, 1
  %r1 = call i1 @"shelf::is_small"(i64 %a0)
  br i1 %r1, label %then.1, label %else.2

then.1:                                           ; preds = %start
  %r2 = mul nuw i64 %a0, 4
  %r3 = getelementptr inbounds nuw i8, ptr @powers, i64 %r2
  %r4 = load i32, ptr %r3, align 4, !noundef !1
  store i32 %r4, ptr %r0, align 8
  ret i32 %r4

else.2:                                           ; preds = %start
  ret i32 0
}

; Function Attrs: nounwind
define noundef i32 @small(i32 noundef %a0) #0 {
start:
  switch i32 %a0, label %else.1 [
    i32 7, label %then.2
  ]

else.1:                                           ; preds = %start
  unreachable

then.2:                                           ; preds = %start
  ret i32 1
}

; Function Attrs: nocallback nofree nounwind willreturn memory(argmem: readwrite)
declare void @llvm.memmove.p0.p0.i64(ptr writeonly captures(none), ptr readonly captures(none), i64, i1 immarg) #1

attributes #0 = { nounwind "probe-stack"="inline-asm" "stack-probe-size"="3072" "target-cpu"="x86-64" }
attributes #1 = { nocallback nofree nounwind willreturn memory(argmem: readwrite) }

!llvm.ident = !{!0}

!0 = !{!"rattle logic=5e"}
!1 = !{}
'''

HEADER = '''target datalayout = "e-m:e-p:64:64-i64:64-n32:64"
target triple = "riscv64-unknown-linux-gnu"

@calls = constant [2 x ptr] [ptr @power, ptr @small], align 8

declare signext i32 @power(i64 noundef, ptr noundef) #0

declare signext i32 @small(i32 noundef signext) #0
'''

# What the module is on that target: these lines are others, and no more.
RETARGETED = {
    'target datalayout = "e-m:e-i64:64"': 'target datalayout = "e-m:e-p:64:64-i64:64-n32:64"',
    'target triple = "x86_64-unknown-linux-gnu"': 'target triple = "riscv64-unknown-linux-gnu"',
    'define noundef i32 @power(i64 noundef %a0, ptr noundef %a1) #0 {': 'define noundef signext i32 @power(i64 noundef %a0, ptr noundef %a1) #0 {',
    'define noundef i32 @small(i32 noundef %a0) #0 {': 'define noundef signext i32 @small(i32 noundef signext %a0) #0 {',
    'attributes #0 = { nounwind "probe-stack"="inline-asm" "stack-probe-size"="3072" "target-cpu"="x86-64" }': 'attributes #0 = { nounwind }',
}

# What a module says of extensions itself does not matter: those of the target are put in their place.
EXTENDED_OTHERWISE = ('define noundef i32 @small(i32 noundef %a0) #0 {', 'define noundef zeroext i32 @small(i32 noundef zeroext %a0) #0 {')

# Lines that say something of addresses, and what stands for each where an address has 64 bits and where it has 32.
READ_BY_HALVES = (
    ('  %r2 = load { ptr, i64 }, ptr %a1, align 8', """  %r2.low = load ptr, ptr %a1, align 8
  %r2.place = getelementptr i8, ptr %a1, i64 8
  %r2.high = load i64, ptr %r2.place, align 8
  %r2.half = insertvalue { ptr, i64 } poison, ptr %r2.low, 0
  %r2 = insertvalue { ptr, i64 } %r2.half, i64 %r2.high, 1"""),
    ('  %r2 = load { i8, ptr }, ptr %a1, align 8', """  %r2.low = load i8, ptr %a1, align 8
  %r2.place = getelementptr i8, ptr %a1, i64 8
  %r2.high = load ptr, ptr %r2.place, align 8
  %r2.half = insertvalue { i8, ptr } poison, i8 %r2.low, 0
  %r2 = insertvalue { i8, ptr } %r2.half, ptr %r2.high, 1"""),
)
ADDRESS = '  %r2 = ptrtoaddr ptr %a1 to i64'
NARROW = """  %r2.own = ptrtoaddr ptr %a1 to i32
  %r2 = zext i32 %r2.own to i64"""
AS_THEY_ARE = (
    '  %r2 = extractvalue { ptr, i64 } %r6, 1',
    '  %r2 = call { ptr, i64 } @"shelf::half"(ptr %r0)',
)

# A line of the module, and one in its place that stops the program: where it would ask for a pointer's width, and whatever else is not known.
UNKNOWN = [
    ('  %r2 = mul nuw i64 %a0, 4', line) for line in (
        '  %r2 = ptrtoint ptr %a1 to i64',
        '  %r2 = inttoptr i64 %a0 to ptr',
        '  %r2 = getelementptr i64, ptr %a1, i64 %a0',
        '  %r2 = getelementptr ptr, ptr %a1, i64 1',
        '  %r2 = getelementptr [2 x ptr], ptr %a1, i64 1',
        '  %r2 = getelementptr i8, ptr %a1, i32 1',
        '  %r2 = alloca { ptr, i64 }, align 8',
        '  %r2 = alloca [2 x ptr], align 8',
        '  %r2 = alloca i8, i64 %a0, align 1',
        '  %r2 = load <2 x i64>, ptr %a1, align 16',
        '  %r2 = ptrtoaddr ptr %a1 to i32',
        '  %r2 = load { ptr, ptr, i64 }, ptr %a1, align 8',
        '  %r2 = load <{ ptr, i64 }>, ptr %a1, align 8',
        '  %r2 = extractvalue { ptr, i64 } %r6, 2',
        '  %r2 = insertvalue { ptr, i64 } %r6, i64 %a0, 1',
        '  store { ptr, i64 } %r6, ptr %a1, align 8',
        '  %r2 = load { i8, i64, i8 }, ptr %a1, align 8',
        '  %r2 = load <{ i8, i64 }>, ptr %a1, align 8',
        '  %r2 = extractvalue { i8, i64 } %r6, 2',
        '  %r2 = insertvalue { i8, i64 } %r6, i64 %a0, 1',
        '  store { i8, i64 } %r6, ptr %a1, align 8',
        '  %r2 = load i128, ptr %a1, align 16',
        '  %r2 = load volatile i64, ptr %a1, align 8',
        '  %r2 = load atomic i64, ptr %a1 seq_cst, align 8',
        '  store double 0.000000e+00, ptr %a1, align 8',
        '  store [2 x i64] zeroinitializer, ptr %a1, align 8',
        '  store i64 ptrtoint (ptr @powers to i64), ptr %a1, align 8',
        '  %r2 = icmp eq ptr %r0, null',
        '  %r2 = icmp eq ptr %a1, %r0',
        '  %r2 = icmp ne ptr %a1, null',
        '  %r2 = icmp ugt ptr %a1, null',
        '  %r2 = icmp ult ptr %a1, @powers',
        '  %r2 = addrspacecast ptr %a1 to ptr addrspace(1)',
        '  %r2 = bitcast i64 %a0 to double',
        '  %r2 = cmpxchg ptr %a1, i64 0, i64 1 seq_cst seq_cst',
        '  fence seq_cst',
        '  %r2 = call i64 asm "rdtsc", "=r"()',
        '  %r2 = call i64 %a1(i64 %a0)',
        '  %r2 = call i64 @"shelf::is_small"(i64 %a0) [ "deopt"() ]',
        '  %r2 = call i128 @"shelf::is_small"(i64 %a0)',
        '  %r2 = call i64 @"shelf::is_small"({ ptr, i64 } %a0)',
        '  call void @llvm.memmove.p0.p0.i64(ptr byval([16 x i8]) %r0, ptr %a1, i64 16, i1 false)',
        '  %r2 = invoke i64 @power(i64 %a0) to label %then.1 unwind label %else.2',
        '  indirectbr ptr %a1, [label %then.1]',
        '  ret { ptr, i64 } zeroinitializer',
        '  resume ptr %a1',
        'module asm "nop"',
    )
] + [
    ('@powers = private unnamed_addr constant [4 x i32] [i32 1, i32 2, i32 4, i32 8], align 4', line) for line in (
        '@powers = private global [4 x i32] [i32 1, i32 2, i32 4, i32 8], align 4',
        '@powers = external constant [4 x i32], align 4',
        '@powers = constant [4 x i32] [i32 1, i32 2, i32 4, i32 8], align 4',
        '@powers = private constant [1 x ptr] [ptr @letters], align 8',
        '@powers = private constant [1 x i64] [i64 ptrtoint (ptr @letters to i64)], align 8',
        '@powers = private constant { i8, i64 } { i8 1, i64 2 }, align 8',
        '@powers = private constant <{ i8, ptr }> <{ i8 1, ptr @letters }>, align 8',
        '@powers = private constant [1 x { i8, i64 }] [{ i8, i64 } { i8 1, i64 2 }], align 8',
        '@powers = private constant [2 x i64] [i64 sub (i64 ptrtoint (ptr @letters to i64), i64 1), i64 2], align 8',
        '@powers = private constant [1 x double] [double 1.000000e+00], align 8',
        '@powers = private constant [4 x i32] undef, align 4',
        '@powers = private thread_local constant [1 x i32] [i32 1], align 4',
        '@powers = private constant [4 x i32] [i32 1, i32 2, i32 4, i32 8], section ".fast", align 4',
        '%powers = type { ptr, i64 }',
    )
] + [
    ('declare void @llvm.memmove.p0.p0.i64(ptr writeonly captures(none), ptr readonly captures(none), i64, i1 immarg) #1', line) for line in (
        'declare void @llvm.memmove.p0.p0.i32(ptr writeonly captures(none), ptr readonly captures(none), i32, i1 immarg) #1',
        'declare void @free(ptr) #1',
        'declare i64 @llvm.readcyclecounter() #1',
        'declare void @llvm.va_start.p0(ptr) #1',
    )
] + [
    ('define internal noundef zeroext i1 @"shelf::is_small"(i64 noundef %a0) #0 {', line) for line in (
        'define internal fastcc noundef zeroext i1 @"shelf::is_small"(i64 noundef %a0) #0 {',
        'define weak noundef zeroext i1 @"shelf::is_small"(i64 noundef %a0) #0 {',
        'define internal noundef zeroext i1 @"shelf::is_small"(ptr sret([16 x i8]) %a0) #0 {',
        'define internal noundef zeroext i1 @"shelf::is_small"(i64 noundef %a0, ...) #0 {',
        'define internal noundef zeroext i1 @"shelf::is_small"(i64 noundef %a0) #0 personality ptr @small {',
    )
]

# A header that C sees otherwise than the module has it, and what is said.
OTHERWISE = [
    ('declare signext i32 @power(i64 noundef, ptr noundef)', 'declare signext i32 @power(i32 noundef, ptr noundef)',
     'power: the module has it as i32 i64 ptr, C as i32 i32 ptr'),
    ('declare signext i32 @power(i64 noundef, ptr noundef)', 'declare i64 @power(i64 noundef, ptr noundef)',
     'power: the module has it as i32 i64 ptr, C as i64 i64 ptr'),
    ('declare signext i32 @power(i64 noundef, ptr noundef)', 'declare signext i32 @power(i64 noundef)',
     'power: the module has it as i32 i64 ptr, C as i32 i64'),
    ('declare signext i32 @power(i64 noundef, ptr noundef)', 'declare signext i32 @power([2 x i32] noundef, ptr noundef)',
     'passed in a way that is not known'),
    ('declare signext i32 @power(i64 noundef, ptr noundef)', 'declare signext i32 @power(ptr byval(i64) align 4, ptr noundef)',
     'passed in a way that is not known'),
    ('declare signext i32 @small(i32 noundef signext) #0\n', '', 'not both declared and exported: small'),
    ('@small(i32 noundef signext)', '@smaller(i32 noundef signext)', 'not both declared and exported: small smaller'),
    ('target triple = "riscv64-unknown-linux-gnu"\n', '', "0 lines begin with 'target triple'"),
    ('p:64:64-i64:64', 'p:64:64-i64:32', 'numbers of 64 bits are not at multiples of eight bytes'),
    ('p:64:64-i64:64', 'p:64:64', 'numbers of 64 bits are not at multiples of eight bytes'),
]

# An export that returns a pair, as no C function of the header does.
PAIR = ('define noundef i32 @power(i64', 'define noundef { i8, i64 } @power(i64', 'passed in a way that is not known')

failures = 0


def fail(message):
    global failures
    failures += 1
    print('retarget: ' + message)


def retarget(module, header):
    """Exit status, what was written, what was said."""
    with tempfile.TemporaryDirectory(prefix='retarget-') as room:
        names = [os.path.join(room, name) for name in ('module.ll', 'header.ll')]
        for name, text in zip(names, (module, header)):
            with open(name, 'w', encoding='utf-8') as file:
                file.write(text)
        done = subprocess.run([sys.executable, TOOL] + names, stdout=subprocess.PIPE, stderr=subprocess.PIPE, check=False)
    return done.returncode, done.stdout.decode(), done.stderr.decode()


def spoiled(text, old, new):
    assert text.count(old) == 1, old
    return text.replace(old, new)


def want_retargeted(what, module, wanted, header=HEADER):
    status, written, message = retarget(module, header)
    if (status, written, message) != (0, wanted, ''):
        fail('%s: status %d, %r said, written\n%s' % (what, status, message, written))


def want_stop(what, module, header, said):
    status, written, message = retarget(module, header)
    if status != 1 or written or said not in message:
        fail('%s: status %d, %d characters written, %r said' % (what, status, len(written), message))


def main():
    wanted = MODULE
    for old, new in RETARGETED.items():
        wanted = spoiled(wanted, old, new)
    want_retargeted('a module of known forms', MODULE, wanted)
    want_retargeted('a module with extensions of another processor', spoiled(MODULE, *EXTENDED_OTHERWISE), wanted)
    line = '  %r2 = mul nuw i64 %a0, 4'
    narrow = (HEADER.replace('p:64:64', 'p:32:32'), wanted.replace('p:64:64', 'p:32:32'))
    for header, there in ((HEADER, wanted), narrow):
        for old, new in READ_BY_HALVES:
            want_retargeted(old, spoiled(MODULE, line, old), spoiled(there, line, new), header)
        for same in AS_THEY_ARE:
            want_retargeted(same, spoiled(MODULE, line, same), spoiled(there, line, same), header)
    want_retargeted(ADDRESS, spoiled(MODULE, line, ADDRESS), spoiled(wanted, line, ADDRESS))
    want_retargeted(ADDRESS + ', narrow', spoiled(MODULE, line, ADDRESS), spoiled(narrow[1], line, NARROW), narrow[0])
    for old, new in UNKNOWN:
        want_stop(new, spoiled(MODULE, old, new), HEADER, 'has a form that is not known to mean the same on another processor: ' + new.strip())
    for old, new, said in OTHERWISE:
        want_stop(new or 'without ' + old, MODULE, spoiled(HEADER, old, new), said)
    want_stop('an export of a pair', spoiled(MODULE, *PAIR[:2]), HEADER, PAIR[2])
    want_stop('two data layouts', spoiled(MODULE, 'source_filename = "rattle"', 'target datalayout = "e"'), HEADER, "2 lines begin with 'target datalayout'")
    print('retarget: %d modules and headers, %d failed' % (len(UNKNOWN) + len(OTHERWISE) + 4 + 2 * (len(READ_BY_HALVES) + len(AS_THEY_ARE)) + 2, failures))
    return failures != 0


if __name__ == '__main__':
    sys.exit(main())
