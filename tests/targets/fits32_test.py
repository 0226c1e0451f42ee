#!/usr/bin/env python3
"""tools/fits32.py on small modules: one that fits, and others, each with a line more, that do not; and on what
tools/plain32.py makes of modules that do not fit."""
import pathlib
import subprocess
import sys
import tempfile

TOOL = pathlib.Path(__file__).resolve().parents[2] / 'tools/fits32.py'
PLAIN = TOOL.with_name('plain32.py')
FITS = '''@table = constant [2 x i8] c"ab"

define internal i32 @inner(ptr %a0, i64 %a1) #0 {
start:
  %r0 = getelementptr inbounds nuw i8, ptr %a0, i64 %a1
  %r1 = load i32, ptr %r0, align 4, !noundef !1
  ret i32 %r1
}

define internal { ptr, i64 } @pair(ptr %a0) #0 {
start:
  %r0 = alloca [16 x i8], align 8
  call void @llvm.memset.p0.i64(ptr %r0, i8 0, i64 16, i1 false)
  store ptr %a0, ptr %r0, align 8
  %r1 = load { ptr, i64 }, ptr %r0, align 8
  ret { ptr, i64 } %r1
}

define i32 @outer(ptr %a0) #0 {
start:
  %r0 = alloca [16 x i8], align 8
  %r1 = alloca ptr, align 8
  %r2 = alloca [16 x i8], align 8
  store ptr %a0, ptr %r0, align 8
  %r3 = getelementptr inbounds nuw i8, ptr %r0, i64 8
  store i64 4, ptr %r3, align 8
  call void @llvm.memmove.p0.p0.i64(ptr %r2, ptr %r0, i64 16, i1 false)
  %r4 = load ptr, ptr %r2, align 8
  store ptr %r4, ptr %r1, align 8
  %r5 = load ptr, ptr %r1, align 8
  %r7 = call { ptr, i64 } @pair(ptr %r5)
  %r8 = extractvalue { ptr, i64 } %r7, 0
  %r9 = icmp eq ptr %r8, null
  %s0 = ptrtoaddr ptr %a0 to i32
  %s1 = zext i32 %s0 to i64
  %s2 = ptrtoaddr ptr %r8 to i32
  %s3 = zext i32 %s2 to i64
  %s4 = sub i64 %s1, %s3
  %s5 = icmp ult i64 %s4, 16
  %s6 = icmp ult i64 %s1, %s3
  %s7 = insertvalue { i8, ptr } poison, i8 4, 0
  %s8 = insertvalue { i8, ptr } %s7, ptr %r8, 1
  %s9 = extractvalue { i8, ptr } %s8, 1
  %r6 = call i32 @inner(ptr %s9, i64 4)
  ret i32 %r6
}
'''
LAST = '  ret i32 %r6\n'
FAULTS = {
    'a pointer as a number': '  %x = ptrtoint ptr %a0 to i64\n',
    'a number as a pointer': '  %x = inttoptr i64 4 to ptr\n',
    'pointers compared': '  %x = icmp eq ptr %a0, %r0\n',
    'a pointer from a pair over a number': '  store ptr %r8, ptr %r3, align 8\n',
    'a pointer in the table that inner reads through a pair': '  store ptr %r0, ptr %r8, align 8\n',
    'a pair of pointers': '  %x = load { ptr, ptr }, ptr %r2, align 8\n',
    'a pair with a number that would be nearer': '  %x = load { ptr, i32 }, ptr %r2, align 8\n',
    'a pair of numbers over a pointer': '  %x = load { i32, i32 }, ptr %r2, align 8\n',
    'a pointer that is made otherwise': '  %y = call ptr @made(i64 4)\n  store i64 4, ptr %y, align 8\n',
    'an address by elements': '  %x = getelementptr inbounds nuw ptr, ptr %r0, i64 1\n',
    'half of a pointer read': '  %x = load i32, ptr %r2, align 4\n',
    'the other half, after a move': '  %y = getelementptr i8, ptr %r2, i64 4\n  %x = load i8, ptr %y, align 1\n',
    'a pointer over a number': '  store ptr %a0, ptr %r3, align 8\n',
    'a pointer in the table that inner reads': '  store ptr %r0, ptr %a0, align 8\n',
    'memory with a pointer filled': '  call void @llvm.memset.p0.i64(ptr %r0, i8 1, i64 16, i1 false)\n',
    'a computed offset among pointers': '  %x = getelementptr i8, ptr %r0, i64 %n\n',
    'a local of type ptr moved': '  call void @llvm.memmove.p0.p0.i64(ptr %r1, ptr %r0, i64 8, i1 false)\n',
    'a local of type ptr as a number': '  %x = load i64, ptr %r1, align 8\n',
    'a pointer for a function that is not known': '  %x = call i64 @strlen(ptr %a0)\n',
    'an instruction that is not known': '  %x = freeze i64 4\n',
    'a choice of pointers': '  %x = select i1 true, ptr %r0, ptr %r2\n',
    'a pair with its pointer nearer': '  %x = load { i8, ptr }, ptr %r2, align 8\n',
    'a pair stored': '  store { i8, ptr } %s8, ptr %r2, align 8\n',
    'a number for the pointer of a pair': '  %x = insertvalue { i8, ptr } %s7, i64 4, 1\n',
    'a pointer out of a made pair over a number': '  store ptr %s9, ptr %r3, align 8\n',
    'a pointer in the table that inner reads through a made pair': '  store ptr %r0, ptr %s9, align 8\n',
    'a local of type ptr handed on': '  %x = call i32 @inner(ptr %r1, i64 4)\n',
    'a part of a pointer moved':
        '  call void @llvm.memmove.p0.p0.i64(ptr %r2, ptr %r0, i64 4, i1 false)\n',
    'a pointer moved over a number': '  call void @llvm.memmove.p0.p0.i64(ptr %r3, ptr %r0, i64 8, i1 false)\n',
    'a pointer moved into the table that inner reads':
        '  call void @llvm.memmove.p0.p0.i64(ptr %a0, ptr %r0, i64 8, i1 false)\n',
    'so many bytes as are computed, with pointers':
        '  call void @llvm.memmove.p0.p0.i64(ptr %r2, ptr %r0, i64 %s, i1 false)\n',
    'an address of 64 bits': '  %x = ptrtoaddr ptr %a0 to i64\n',
    'an address in memory': '  store i64 %s1, ptr %r3, align 8\n',
    'half an address in memory': '  store i32 %s0, ptr %r3, align 8\n',
    'an address extended by its sign': '  %x = sext i32 %s0 to i64\n',
    'an address as an offset': '  %x = getelementptr i8, ptr %r3, i64 %s1\n',
    'a difference as an offset': '  %x = getelementptr i8, ptr %r3, i64 %s4\n',
    'a difference in memory': '  store i64 %s4, ptr %r3, align 8\n',
    'a difference handed on': '  %x = call i32 @inner(ptr %a0, i64 %s4)\n',
    'a number added to an address': '  %x = add i64 %s1, 4\n',
    'a number taken from an address': '  %x = sub i64 %s1, 4\n',
    'an address compared with a number': '  %x = icmp ult i64 %s1, 4\n',
    'an address compared with a difference': '  %x = icmp ult i64 %s1, %s4\n',
    'a difference compared with its sign': '  %x = icmp slt i64 %s4, 0\n',
    'a choice of addresses': '  %x = select i1 true, i64 %s1, i64 %s3\n',
    'an address cut': '  %x = trunc i64 %s1 to i8\n',
    'an address that is used before': '  %x = add i64 %t, 4\n  %t = ptrtoaddr ptr %a0 to i32\n',
    'an address of another name': '  %"t" = ptrtoaddr ptr %a0 to i32\n',
}
# what does not fit as it is, and fits once it is plain
WIDE = {
    'a pair with its pointer nearer': """  %t0 = alloca [16 x i8], align 8
  store i64 1, ptr %t0, align 8
  %t1 = getelementptr i8, ptr %t0, i64 8
  store ptr %a0, ptr %t1, align 8
  %t2 = load { i8, ptr }, ptr %t0, align 8
  %t3 = extractvalue { i8, ptr } %t2, 1
  %t4 = call i32 @inner(ptr %t3, i64 4)
""",
    'a local of type ptr handed on': """  %t0 = alloca ptr, align 8
  store ptr %a0, ptr %t0, align 8
  %t1 = call { ptr, i64 } @pair(ptr %t0)
""",
    'the addresses of 64 bits': """  %t0 = ptrtoaddr ptr %a0 to i64
  %t1 = ptrtoaddr ptr %r0 to i64
  %t2 = sub i64 %t0, %t1
  %t3 = icmp ult i64 %t2, 16
""",
}
# and with a line more it does not
WIDER = {
    'a pair with its pointer nearer': '  store ptr %t3, ptr %t0, align 8\n',
    'a local of type ptr handed on': '  store i32 4, ptr %t0, align 4\n',
    'the addresses of 64 bits': '  store i64 %t2, ptr %r3, align 8\n',
}


def said(tool, text):
    with tempfile.NamedTemporaryFile('w', suffix='.ll') as file:
        file.write(text)
        file.flush()
        return subprocess.run([tool, file.name], capture_output=True, check=False, text=True)


def fits(text):
    run = said(TOOL, text)
    if run.returncode != 0 and not run.stdout.endswith(' faults\n'):
        sys.exit(f'fits32.py: {run.stderr}')
    return run.returncode == 0


def plain(text):
    return said(PLAIN, text).stdout


if not fits(FITS):
    sys.exit('what fits is refused')
for what, line in FAULTS.items():
    if fits(FITS.replace(LAST, line + LAST)):
        sys.exit(f'not refused: {what}')
if fits(FITS + '@pointers = constant [1 x ptr] [ptr @table]\n'):
    sys.exit('not refused: a constant with a pointer')
if fits(FITS + '@number = global [4 x i8] zeroinitializer\n'):
    sys.exit('not refused: a global that is no constant')
if not fits(plain(FITS)):
    sys.exit('what fits is refused when it is plain')
for what, lines in WIDE.items():
    wide = FITS.replace(LAST, lines + LAST)
    if fits(wide):
        sys.exit(f'not refused: {what}')
    if not fits(plain(wide)):
        sys.exit(f'refused when it is plain: {what}')
    if fits(plain(wide.replace(LAST, WIDER[what] + LAST))):
        sys.exit(f'not refused when it is plain: {what}, {WIDER[what]}')
print(f'fits32.py: {len(FAULTS) + 2 + 2 * len(WIDE)} modules refused, as they should be')
