; Functions of LLVM IR for test_opcodes.py, besides those that it makes for each width. Each takes two numbers, and
; gives one. A line that ends with "left out" is for LLVM alone: it says what the C does without it.
target triple = "x86_64-unknown-linux-gnu"

@numbers = private unnamed_addr constant [4 x i16] [i16 -1, i16 0, i16 513, i16 7], align 2
@text = private unnamed_addr constant [5 x i8] c"a\00\FF\22z", align 1
@row = private unnamed_addr constant <{ [29 x i8] }> <{ [29 x i8] c"abcdefghijklmnopqrstabcdeghij" }>, align 1
@zeros = private unnamed_addr constant [8 x i8] zeroinitializer, align 8

declare void @llvm.memcpy.p0.p0.i64(ptr, ptr, i64, i1)
declare void @llvm.memmove.p0.p0.i64(ptr, ptr, i64, i1)
declare void @llvm.memset.p0.i64(ptr, i8, i64, i1)
declare void @llvm.lifetime.start.p0(i64, ptr)
declare void @llvm.lifetime.end.p0(i64, ptr)
declare void @llvm.assume(i1)
declare void @llvm.experimental.noalias.scope.decl(metadata)
declare void @llvm.trap()
declare i32 @bcmp(ptr, ptr, i64)

!0 = !{!1}
!1 = distinct !{!1, !2}
!2 = distinct !{!2}

define internal fastcc i64 @own(i64 noundef %x, i64 %y) unnamed_addr {
  %z = sub i64 %x, %y
  ret i64 %z
}

; A number of a row of constants.
define i64 @constant_row(i64 %a, i64 %b) {
  %i = and i64 %a, 3
  %p = getelementptr inbounds i16, ptr @numbers, i64 %i
  %x = load i16, ptr %p, align 2
  %r = zext i16 %x to i64
  ret i64 %r
}

; Octets are set, copied over these, of which there may be none, and moved up by one.
define i64 @filled_copied_moved(i64 %a, i64 %b) {
  %m = alloca [16 x i8], align 8
  call void @llvm.memset.p0.i64(ptr %m, i8 7, i64 16, i1 false)
  %n = and i64 %a, 3
  call void @llvm.memcpy.p0.p0.i64(ptr %m, ptr @text, i64 %n, i1 false)
  %q = getelementptr i8, ptr %m, i64 %n
  %k = getelementptr i8, ptr %q, i64 -1
  %o = getelementptr i8, ptr %k, i64 2
  call void @llvm.memmove.p0.p0.i64(ptr %o, ptr %m, i64 8, i1 false)
  %x = load i64, ptr %m, align 8
  %y = load i64, ptr %o, align 1
  %r = xor i64 %x, %y
  ret i64 %r
}

; 12 or 13 octets move up or down, over themselves.
define i64 @moved(i64 %a, i64 %b) {
  %m = alloca [29 x i8], align 8
  call void @llvm.memcpy.p0.p0.i64(ptr %m, ptr @row, i64 29, i1 false)
  %c = icmp ult i64 %a, %b
  %from = select i1 %c, i64 8, i64 5
  %p = getelementptr inbounds i8, ptr %m, i64 %from
  %to = sub i64 13, %from
  %q = getelementptr inbounds i8, ptr %m, i64 %to
  %odd = and i64 %b, 1
  %n = add i64 %odd, 12
  call void @llvm.memmove.p0.p0.i64(ptr %q, ptr %p, i64 %n, i1 false)
  %p1 = getelementptr i8, ptr %m, i64 5
  %p2 = getelementptr i8, ptr %m, i64 13
  %p3 = getelementptr i8, ptr %m, i64 21
  %x1 = load i64, ptr %p1, align 1
  %x2 = load i64, ptr %p2, align 1
  %x3 = load i64, ptr %p3, align 1
  %s = mul i64 %x2, 3
  %t = mul i64 %x3, 5
  %u = add i64 %x1, %s
  %r = add i64 %t, %u
  ret i64 %r
}

; Octets are compared, of which there may be none. What is told of memory and of what holds changes nothing.
define i64 @compared(i64 %a, i64 %b) {
  %m = alloca [16 x i8], align 8
  %n = alloca [16 x i8], align 8
  call void @llvm.lifetime.start.p0(i64 16, ptr %m)
  call void @llvm.experimental.noalias.scope.decl(metadata !0)
  store i64 %a, ptr %m, align 8
  store i64 %b, ptr %n, align 8
  %k = and i64 %a, 7
  %u = call i32 @bcmp(ptr %m, ptr %n, i64 %k)
  %d = icmp ne i32 %u, 0
  %g = icmp eq i32 %u, 0
  %o = or i1 %d, %g
  call void @llvm.assume(i1 %o)
  call void @llvm.lifetime.end.p0(i64 16, ptr %m)
  %r = select i1 %d, i64 %k, i64 9
  ret i64 %r
}

; A place that is read before it is written. LLVM leaves it open what is there, and C has zero.
define i64 @zero_at_first(i64 %a, i64 %b) {
  %m = alloca [16 x i8], align 8
  store i64 0, ptr %m, align 8 ; left out
  %x = load i64, ptr %m, align 8
  %s = add i64 %x, %a
  ret i64 %s
}

; Two places are in one order or in the other.
define i64 @order_of_addresses(i64 %a, i64 %b) {
  %m = alloca i64, align 8
  %n = alloca i64, align 8
  %below = icmp ult ptr %m, %n
  %above = icmp uge ptr %m, %n
  %one = xor i1 %below, %above
  %same = icmp eq ptr %m, %n
  %unlike = icmp ne ptr %m, %n
  %x = select i1 %one, i64 %a, i64 1
  %y = select i1 %same, i64 2, i64 %x
  %r = select i1 %unlike, i64 %y, i64 3
  ret i64 %r
}

; An address that lies outside of its object for a while.
define i64 @far_outside(i64 %a, i64 %b) {
  %m = alloca [16 x i8], align 8
  store i64 %b, ptr %m, align 8
  %far = or i64 %a, -9223372036854775808
  %p = getelementptr i8, ptr %m, i64 %far
  %back = sub i64 0, %far
  %q = getelementptr i8, ptr %p, i64 %back
  %x = load i64, ptr %q, align 1
  ret i64 %x
}

; An address that goes back in its object, by words.
define i64 @inside(i64 %a, i64 %b) {
  %m = alloca [16 x i8], align 8
  %p = getelementptr inbounds i64, ptr %m, i64 1
  store i64 %a, ptr %m, align 8
  store i64 %b, ptr %p, align 8
  %n = and i64 %a, 1
  %k = sub i64 0, %n
  %q = getelementptr inbounds i64, ptr %p, i64 %k
  %x = load i64, ptr %q, align 8
  ret i64 %x
}

; Values that change places on the way from block to block.
define i64 @loop(i64 %a, i64 %b) {
begin:
  %n = and i64 %a, 15
  br label %l
l:
  %i = phi i64 [ 0, %begin ], [ %j, %l ]
  %x = phi i64 [ %a, %begin ], [ %y, %l ]
  %y = phi i64 [ %b, %begin ], [ %x, %l ]
  %j = add i64 %i, 1
  %c = icmp ult i64 %j, %n
  br i1 %c, label %l, label %e
e:
  %r = sub i64 %x, %y
  ret i64 %r
}

; Addresses of constants as numbers, by the way to the block.
define i64 @address_as_number(i64 %a, i64 %b) {
begin:
  %c = icmp ult i64 %a, %b
  br i1 %c, label %l, label %e
l:
  br label %e
e:
  %x = phi i64 [ ptrtoint (ptr @text to i64), %begin ], [ add (i64 ptrtoint (ptr @text to i64), i64 3), %l ]
  %r = sub i64 %x, ptrtoint (ptr @text to i64)
  ret i64 %r
}

; Numbers that are made of addresses of constants.
define i64 @sums_of_addresses(i64 %a, i64 %b) {
  %p = getelementptr i8, ptr getelementptr inbounds (i8, ptr @row, i64 1), i64 2
  %n = ptrtoint ptr %p to i64
  %x = sub i64 %n, sub (i64 ptrtoint (ptr @row to i64), i64 2)
  %y = xor i64 ptrtoint (ptr @row to i64), xor (i64 ptrtoint (ptr @row to i64), i64 21)
  %z = mul i64 %y, 100
  %r = add i64 %x, %z
  ret i64 %r
}

; A struct whose fields are changed, and which depends on the way.
define i64 @struct(i64 %a, i64 %b) {
begin:
  %s = insertvalue { i64, i8 } poison, i64 %a, 0
  %x = trunc i64 %b to i8
  %t = insertvalue { i64, i8 } %s, i8 %x, 1
  %c = icmp ult i64 %a, %b
  br i1 %c, label %d, label %e
d:
  %v = insertvalue { i64, i8 } %t, i64 %b, 0
  br label %e
e:
  %u = phi { i64, i8 } [ %t, %begin ], [ %v, %d ]
  %f = extractvalue { i64, i8 } %u, 0
  %g = extractvalue { i64, i8 } %u, 1
  %w = zext i8 %g to i64
  %r = add i64 %f, %w
  ret i64 %r
}

; An address made a number, and back.
define i64 @number_as_address(i64 %a, i64 %b) {
  %p = getelementptr i8, ptr @text, i64 1
  %n = ptrtoint ptr %p to i64
  %m = inttoptr i64 %n to ptr
  %c = icmp ult ptr @text, %m
  %x = load i8, ptr %m, align 1
  %y = zext i1 %c to i8
  %z = add i8 %x, %y
  %f = freeze i8 %z
  %r = zext i8 %f to i64
  ret i64 %r
}

; An address that may be null, and is kept in memory; values by words.
define i64 @no_address(i64 %a, i64 %b) {
  %m = alloca ptr, align 8
  %c = icmp ult i64 %a, %b
  %p = select i1 %c, ptr null, ptr getelementptr inbounds (i8, ptr @text, i64 2)
  store ptr %p, ptr %m, align 8
  %q = load ptr, ptr %m, align 8
  %n = ptrtoint ptr %q to i64
  %d = icmp eq i64 %n, 0
  br i1 %d, label %none, label %some
none:
  br label %e
some:
  %x = load i8, ptr %q, align 1
  br label %e
e:
  %y = phi i8 [ zeroinitializer, %none ], [ %x, %some ]
  %z = phi i1 [ true, %none ], [ false, %some ]
  %h = zext i8 %y to i64
  %k = select i1 %z, i64 %a, i64 5
  %s = add i64 %k, %h
  %t = load i64, ptr @zeros, align 8
  %r = add i64 %s, %t
  ret i64 %r
}

; Values that nobody looks at.
define i64 @not_looked_at(i64 %a, i64 %b) {
begin:
  %c = icmp ult i64 %a, %b
  br i1 %c, label %d, label %e
d:
  br label %e
e:
  %x = phi i64 [ poison, %begin ], [ %a, %d ]
  %y = phi i64 [ undef, %begin ], [ %b, %d ]
  %z = xor i64 %x, %y
  %r = select i1 %c, i64 %z, i64 7
  ret i64 %r
}

; A function of the module.
define i64 @call(i64 %a, i64 %b) {
  %x = call fastcc i64 @own(i64 noundef %a, i64 %b)
  %y = tail call fastcc i64 @own(i64 %a, i64 1)
  %z = shl i64 %y, 1
  %r = or i64 %x, %z
  ret i64 %r
}

; A block that isn't reached, or the program stops.
define i64 @unreachable(i64 %a, i64 %b) {
  %c = icmp ult i64 %a, %b
  br i1 %c, label %d, label %e
d:
  unreachable
e:
  ret i64 %a
}

; The program stops.
define i64 @trap(i64 %a, i64 %b) {
  %c = icmp ult i64 %a, %b
  br i1 %c, label %d, label %e
d:
  call void @llvm.trap()
  br label %e
e:
  ret i64 %a
}
