	.text
	.section	.text._RNvNtNtNtCs00000000000_7pkcs1_c5calls7pkcs1_c9algorithm17is_same_otherwise,"ax",@progbits
	.p2align	2
	.type	_RNvNtNtNtCs00000000000_7pkcs1_c5calls7pkcs1_c9algorithm17is_same_otherwise,@function
_RNvNtNtNtCs00000000000_7pkcs1_c5calls7pkcs1_c9algorithm17is_same_otherwise:
	.cfi_startproc
	cmp	x1, x3
	b.ne	.LBB0_2
	str	x30, [sp, #-16]!
	.cfi_def_cfa_offset 16
	.cfi_offset w30, -16
	mov	x8, x1
	mov	x1, x2
	mov	x2, x8
	bl	memcmp
	cmp	w0, #0
	cset	w0, eq
	ldr	x30, [sp], #16
	.cfi_def_cfa_offset 0
	.cfi_restore w30
	ret
.LBB0_2:
	mov	w0, wzr
	ret
.Lfunc_end0:
	.size	_RNvNtNtNtCs00000000000_7pkcs1_c5calls7pkcs1_c9algorithm17is_same_otherwise, .Lfunc_end0-_RNvNtNtNtCs00000000000_7pkcs1_c5calls7pkcs1_c9algorithm17is_same_otherwise
	.cfi_endproc

	.section	.text._RNvNtNtNtCs00000000000_7pkcs1_c5calls7pkcs1_c9algorithm17is_hash_otherwise,"ax",@progbits
	.p2align	2
	.type	_RNvNtNtNtCs00000000000_7pkcs1_c5calls7pkcs1_c9algorithm17is_hash_otherwise,@function
_RNvNtNtNtCs00000000000_7pkcs1_c5calls7pkcs1_c9algorithm17is_hash_otherwise:
	.cfi_startproc
	ldrb	w8, [x0, #16]
	mov	x3, x2
	mov	x2, x1
	cmp	w8, #1
	b.ne	.LBB1_3
	ldrb	w8, [x0, #17]
	cmp	w8, #5
	mov	w8, wzr
	b.ne	.LBB1_10
	ldr	x9, [x0, #32]
	cbnz	x9, .LBB1_10
.LBB1_3:
	ldr	x8, [x0, #8]
	cmp	x8, x3
	b.ne	.LBB1_7
	ldr	x0, [x0]
	cmp	x3, #5
	b.eq	.LBB1_8
	cmp	x3, #9
	b.ne	.LBB1_11
	ldr	x8, [x0]
	ldr	x9, [x2]
	ldrb	w10, [x0, #8]
	ldrb	w11, [x2, #8]
	cmp	x8, x9
	b	.LBB1_9
.LBB1_7:
	mov	w0, wzr
	ret
.LBB1_8:
	ldr	w8, [x0]
	ldr	w9, [x2]
	ldrb	w10, [x0, #4]
	ldrb	w11, [x2, #4]
	cmp	w8, w9
.LBB1_9:
	ccmp	w10, w11, #0, eq
	cset	w8, eq
.LBB1_10:
	mov	w0, w8
	ret
.LBB1_11:
	mov	x1, x3
	b	_RNvNtNtNtCs00000000000_7pkcs1_c5calls7pkcs1_c9algorithm17is_same_otherwise
.Lfunc_end1:
	.size	_RNvNtNtNtCs00000000000_7pkcs1_c5calls7pkcs1_c9algorithm17is_hash_otherwise, .Lfunc_end1-_RNvNtNtNtCs00000000000_7pkcs1_c5calls7pkcs1_c9algorithm17is_hash_otherwise
	.cfi_endproc

	.section	.text.pkcs1_c_algorithm_is,"ax",@progbits
	.globl	pkcs1_c_algorithm_is
	.p2align	2
	.type	pkcs1_c_algorithm_is,@function
pkcs1_c_algorithm_is:
	.cfi_startproc
	hint	#34
	mov	x8, x1
	ldr	x9, [x0, #8]
	ldr	x1, [x1]
	ldr	x2, [x8, #8]
	cmp	x9, #9
	b.ne	.LBB2_7
	ldrb	w8, [x0, #16]
	tbz	w8, #0, .LBB2_4
	ldrb	w8, [x0, #17]
	cmp	w8, #5
	mov	w8, wzr
	b.ne	.LBB2_6
	ldr	x9, [x0, #32]
	cbnz	x9, .LBB2_6
.LBB2_4:
	cmp	x2, #9
	b.ne	.LBB2_8
	ldr	x8, [x0]
	ldr	x10, [x1]
	ldrb	w11, [x1, #8]
	ldr	x9, [x8]
	ldrb	w8, [x8, #8]
	cmp	x9, x10
	ccmp	w8, w11, #0, eq
	cset	w8, eq
.LBB2_6:
	mov	w0, w8
	ret
.LBB2_7:
	b	_RNvNtNtNtCs00000000000_7pkcs1_c5calls7pkcs1_c9algorithm17is_hash_otherwise
.LBB2_8:
	mov	w0, wzr
	ret
.Lfunc_end2:
	.size	pkcs1_c_algorithm_is, .Lfunc_end2-pkcs1_c_algorithm_is
	.cfi_endproc

	.section	.text._RNvNtNtNtCs00000000000_7pkcs1_c5calls7pkcs1_c9algorithm19uses_hash_otherwise,"ax",@progbits
	.p2align	2
	.type	_RNvNtNtNtCs00000000000_7pkcs1_c5calls7pkcs1_c9algorithm19uses_hash_otherwise,@function
_RNvNtNtNtCs00000000000_7pkcs1_c5calls7pkcs1_c9algorithm19uses_hash_otherwise:
	.cfi_startproc
	stp	x30, x21, [sp, #-32]!
	.cfi_def_cfa_offset 32
	stp	x20, x19, [sp, #16]
	.cfi_offset w19, -8
	.cfi_offset w20, -16
	.cfi_offset w21, -24
	.cfi_offset w30, -32
	.cfi_remember_state
	ldrb	w8, [x1, #16]
	cmp	w8, #1
	b.ne	.LBB3_12
	ldr	x8, [x1, #8]
	cmp	x8, #9
	b.ne	.LBB3_24
	ldr	x8, [x1]
	mov	x10, #34346
	movk	x10, #34376, lsl #16
	ldr	x9, [x8]
	movk	x10, #3575, lsl #32
	movk	x10, #257, lsl #48
	cmp	x9, x10
	b.ne	.LBB3_24
	ldrb	w8, [x8, #8]
	cmp	w8, #8
	b.ne	.LBB3_24
	ldrb	w9, [x0, #16]
	mov	x8, x0
	cmp	w9, #1
	b.ne	.LBB3_7
	ldrb	w9, [x8, #17]
	mov	w0, wzr
	cmp	w9, #5
	b.ne	.LBB3_13
	ldr	x9, [x8, #32]
	cbnz	x9, .LBB3_13
.LBB3_7:
	ldr	x9, [x8, #8]
	cmp	x9, x3
	b.ne	.LBB3_24
	ldr	x8, [x8]
	cmp	x3, #5
	b.eq	.LBB3_14
	mov	x21, x1
	cmp	x3, #9
	b.ne	.LBB3_16
	ldr	x9, [x8]
	ldr	x10, [x2]
	mov	w0, wzr
	cmp	x9, x10
	b.ne	.LBB3_13
	ldrb	w8, [x8, #8]
	ldrb	w9, [x2, #8]
	mov	x1, x21
	cmp	w8, w9
	b.eq	.LBB3_17
	b	.LBB3_13
.LBB3_12:
	mov	w0, wzr
.LBB3_13:
	ldp	x20, x19, [sp, #16]
	ldp	x30, x21, [sp], #32
	.cfi_def_cfa_offset 0
	.cfi_restore w19
	.cfi_restore w20
	.cfi_restore w21
	.cfi_restore w30
	ret
.LBB3_14:
	.cfi_restore_state
	.cfi_remember_state
	ldr	w9, [x8]
	ldr	w10, [x2]
	mov	w0, wzr
	cmp	w9, w10
	b.ne	.LBB3_13
	ldrb	w8, [x8, #4]
	ldrb	w9, [x2, #4]
	cmp	w8, w9
	b.eq	.LBB3_17
	b	.LBB3_13
.LBB3_16:
	mov	x0, x8
	mov	x1, x3
	mov	x19, x2
	mov	x20, x3
	bl	_RNvNtNtNtCs00000000000_7pkcs1_c5calls7pkcs1_c9algorithm17is_same_otherwise
	mov	x3, x20
	mov	x2, x19
	mov	x1, x21
	tbz	w0, #0, .LBB3_24
.LBB3_17:
	ldrb	w8, [x1, #40]
	cmp	w8, #1
	b.ne	.LBB3_20
	ldrb	w8, [x1, #41]
	mov	w0, wzr
	cmp	w8, #5
	b.ne	.LBB3_13
	ldr	x8, [x1, #56]
	cbnz	x8, .LBB3_13
.LBB3_20:
	ldr	x8, [x1, #32]
	cmp	x8, x3
	b.ne	.LBB3_24
	ldr	x0, [x1, #24]
	cmp	x3, #5
	b.eq	.LBB3_25
	cmp	x3, #9
	b.ne	.LBB3_26
	ldr	x8, [x0]
	ldr	x9, [x2]
	ldrb	w10, [x0, #8]
	ldrb	w11, [x2, #8]
	cmp	x8, x9
	ccmp	w10, w11, #0, eq
	cset	w0, eq
	ldp	x20, x19, [sp, #16]
	ldp	x30, x21, [sp], #32
	.cfi_def_cfa_offset 0
	.cfi_restore w19
	.cfi_restore w20
	.cfi_restore w21
	.cfi_restore w30
	ret
.LBB3_24:
	.cfi_restore_state
	.cfi_remember_state
	mov	w0, wzr
	ldp	x20, x19, [sp, #16]
	ldp	x30, x21, [sp], #32
	.cfi_def_cfa_offset 0
	.cfi_restore w19
	.cfi_restore w20
	.cfi_restore w21
	.cfi_restore w30
	ret
.LBB3_25:
	.cfi_restore_state
	.cfi_remember_state
	ldr	w8, [x0]
	ldr	w9, [x2]
	ldrb	w10, [x0, #4]
	ldrb	w11, [x2, #4]
	cmp	w8, w9
	ccmp	w10, w11, #0, eq
	cset	w0, eq
	ldp	x20, x19, [sp, #16]
	ldp	x30, x21, [sp], #32
	.cfi_def_cfa_offset 0
	.cfi_restore w19
	.cfi_restore w20
	.cfi_restore w21
	.cfi_restore w30
	ret
.LBB3_26:
	.cfi_restore_state
	ldp	x20, x19, [sp, #16]
	mov	x1, x3
	ldp	x30, x21, [sp], #32
	.cfi_def_cfa_offset 0
	.cfi_restore w19
	.cfi_restore w20
	.cfi_restore w21
	.cfi_restore w30
	b	_RNvNtNtNtCs00000000000_7pkcs1_c5calls7pkcs1_c9algorithm17is_same_otherwise
.Lfunc_end3:
	.size	_RNvNtNtNtCs00000000000_7pkcs1_c5calls7pkcs1_c9algorithm19uses_hash_otherwise, .Lfunc_end3-_RNvNtNtNtCs00000000000_7pkcs1_c5calls7pkcs1_c9algorithm19uses_hash_otherwise
	.cfi_endproc

	.section	.text.pkcs1_c_uses_hash,"ax",@progbits
	.globl	pkcs1_c_uses_hash
	.p2align	2
	.type	pkcs1_c_uses_hash,@function
pkcs1_c_uses_hash:
	.cfi_startproc
	hint	#34
	mov	x8, x2
	ldr	x9, [x0, #8]
	ldr	x2, [x2]
	ldr	x3, [x8, #8]
	cmp	x9, #9
	b.ne	.LBB4_9
	ldrb	w8, [x1, #16]
	cmp	w8, #1
	b.ne	.LBB4_19
	ldr	x8, [x1, #8]
	cmp	x8, #9
	b.ne	.LBB4_19
	ldr	x8, [x1]
	mov	x10, #34346
	movk	x10, #34376, lsl #16
	ldr	x9, [x8]
	movk	x10, #3575, lsl #32
	movk	x10, #257, lsl #48
	cmp	x9, x10
	b.ne	.LBB4_19
	ldrb	w8, [x8, #8]
	cmp	w8, #8
	b.ne	.LBB4_19
	ldrb	w8, [x0, #16]
	cmp	w8, #1
	b.ne	.LBB4_10
	ldrb	w9, [x0, #17]
	mov	x8, x0
	mov	w0, wzr
	cmp	w9, #5
	b.ne	.LBB4_20
	ldr	x9, [x8, #32]
	cbnz	x9, .LBB4_20
	cmp	x3, #9
	b.eq	.LBB4_11
	b	.LBB4_20
.LBB4_9:
	b	_RNvNtNtNtCs00000000000_7pkcs1_c5calls7pkcs1_c9algorithm19uses_hash_otherwise
.LBB4_10:
	mov	x8, x0
	cmp	x3, #9
	b.ne	.LBB4_19
.LBB4_11:
	ldr	x9, [x8]
	ldr	x8, [x2]
	mov	w0, wzr
	ldr	x10, [x9]
	cmp	x8, x10
	b.ne	.LBB4_20
	ldrb	w9, [x9, #8]
	ldrb	w10, [x2, #8]
	cmp	w9, w10
	b.ne	.LBB4_20
	ldrb	w10, [x1, #40]
	cmp	w10, #1
	b.ne	.LBB4_17
	ldrb	w10, [x1, #41]
	mov	w0, wzr
	cmp	w10, #5
	b.ne	.LBB4_20
	ldr	x10, [x1, #56]
	cbnz	x10, .LBB4_20
	ldr	x10, [x1, #32]
	cmp	x10, #9
	b.eq	.LBB4_18
	b	.LBB4_20
.LBB4_17:
	ldr	x10, [x1, #32]
	cmp	x10, #9
	b.ne	.LBB4_19
.LBB4_18:
	ldr	x10, [x1, #24]
	ldr	x11, [x10]
	ldrb	w10, [x10, #8]
	cmp	x11, x8
	ccmp	w10, w9, #0, eq
	cset	w0, eq
	ret
.LBB4_19:
	mov	w0, wzr
.LBB4_20:
	ret
.Lfunc_end4:
	.size	pkcs1_c_uses_hash, .Lfunc_end4-pkcs1_c_uses_hash
	.cfi_endproc

	.section	.text.pkcs1_c_private_key_info_decode,"ax",@progbits
	.globl	pkcs1_c_private_key_info_decode
	.p2align	2
	.type	pkcs1_c_private_key_info_decode,@function
pkcs1_c_private_key_info_decode:
	.cfi_startproc
	hint	#34
	sub	sp, sp, #240
	.cfi_def_cfa_offset 240
	stp	x29, x30, [sp, #144]
	stp	x28, x27, [sp, #160]
	stp	x26, x25, [sp, #176]
	stp	x24, x23, [sp, #192]
	stp	x22, x21, [sp, #208]
	stp	x20, x19, [sp, #224]
	.cfi_offset w19, -8
	.cfi_offset w20, -16
	.cfi_offset w21, -24
	.cfi_offset w22, -32
	.cfi_offset w23, -40
	.cfi_offset w24, -48
	.cfi_offset w25, -56
	.cfi_offset w26, -64
	.cfi_offset w27, -72
	.cfi_offset w28, -80
	.cfi_offset w30, -88
	.cfi_offset w29, -96
	.cfi_remember_state
	lsr	x8, x1, #32
	cbz	x8, .LBB5_2
.LBB5_1:
	mov	w0, #8
	b	.LBB5_95
.LBB5_2:
	mov	x9, x1
	subs	x10, x1, #2
	b.lo	.LBB5_35
	mov	x1, x0
	ldrb	w8, [x1], #2
	cmp	w8, #48
	b.ne	.LBB5_35
	ldrsb	w8, [x0, #1]
	tbnz	w8, #31, .LBB5_18
	and	x8, x8, #0xff
	subs	x26, x10, x8
	b.lo	.LBB5_35
	cmp	x8, #2
	b.lo	.LBB5_92
.LBB5_7:
	mov	x11, x1
	ldrb	w9, [x11], #2
	cmp	w9, #2
	b.ne	.LBB5_92
	ldrsb	w10, [x1, #1]
	sub	x9, x8, #2
	tbnz	w10, #31, .LBB5_23
	and	x12, x10, #0xff
	subs	x9, x9, x12
	b.lo	.LBB5_92
	add	x10, x11, x12
	cbz	x12, .LBB5_94
.LBB5_11:
	cmp	x12, #1
	b.ne	.LBB5_28
	ldrb	w8, [x11]
	cbnz	w8, .LBB5_29
	subs	x11, x9, #2
	b.lo	.LBB5_53
	mov	x1, x10
	ldrb	w8, [x1], #2
	cmp	w8, #48
	b.ne	.LBB5_53
	ldrsb	w8, [x10, #1]
	tbnz	w8, #31, .LBB5_43
	and	x8, x8, #0xff
	subs	x23, x11, x8
	b.lo	.LBB5_53
	add	x24, x1, x8
	cmp	x8, #2
	b.hs	.LBB5_55
	b	.LBB5_143
.LBB5_18:
	and	w8, w8, #0xff
	cmp	w8, #130
	b.ne	.LBB5_30
	cmp	x10, #1
	b.ls	.LBB5_35
	ldrb	w8, [x0, #2]
	cbz	x8, .LBB5_35
	ldrb	w10, [x0, #3]
	orr	x8, x10, x8, lsl #8
	sub	x10, x9, #4
	subs	x26, x10, x8
	b.lo	.LBB5_35
	add	x1, x0, #4
	b	.LBB5_7
.LBB5_23:
	and	w10, w10, #0xff
	cmp	w10, #130
	b.ne	.LBB5_37
	cmp	x9, #1
	b.ls	.LBB5_92
	ldrb	w9, [x1, #2]
	cbz	x9, .LBB5_92
	ldrb	w10, [x1, #3]
	orr	x12, x10, x9, lsl #8
	sub	x9, x8, #4
	subs	x9, x9, x12
	b.lo	.LBB5_92
	add	x11, x1, #4
	add	x10, x11, x12
	cbnz	x12, .LBB5_11
	b	.LBB5_94
.LBB5_28:
	ldrb	w8, [x11]
	cbz	w8, .LBB5_42
.LBB5_29:
	mov	w0, #14
	b	.LBB5_95
.LBB5_30:
	cbz	x10, .LBB5_35
	cmp	w8, #129
	b.ne	.LBB5_35
	ldrsb	w8, [x1]
	tbz	w8, #31, .LBB5_35
	sub	x10, x9, #3
	and	x8, x8, #0xff
	subs	x26, x10, x8
	b.lo	.LBB5_35
	add	x1, x0, #3
	b	.LBB5_7
.LBB5_35:
	mov	x19, x2
	mov	x20, x3
	mov	x1, x0
	add	x0, sp, #112
	mov	x2, x9
	mov	w3, #48
	mov	x21, x4
	bl	_RNvNtNtNtCs00000000000_7pkcs1_c6proved8der_core5split14split_unlikely
	ldr	x1, [sp, #112]
	cbz	x1, .LBB5_406
	ldr	x8, [sp, #120]
	ldr	x26, [sp, #136]
	mov	x4, x21
	mov	x3, x20
	mov	x2, x19
	cmp	x8, #2
	b.hs	.LBB5_7
	b	.LBB5_92
.LBB5_37:
	cbz	x9, .LBB5_91
	cmp	w10, #129
	b.ne	.LBB5_92
	ldrsb	w9, [x11]
	tbz	w9, #31, .LBB5_92
	sub	x10, x8, #3
	and	x12, x9, #0xff
	subs	x9, x10, x12
	b.lo	.LBB5_92
	add	x11, x1, #3
	add	x10, x11, x12
	cbnz	x12, .LBB5_11
	b	.LBB5_94
.LBB5_42:
	ldrsb	w8, [x11, #1]
	mov	w9, #13
	cmp	w8, #0
	mov	w8, #4
	csel	w8, w9, w8, lt
	b	.LBB5_407
.LBB5_43:
	and	w8, w8, #0xff
	cmp	w8, #130
	b.ne	.LBB5_48
	cmp	x11, #1
	b.ls	.LBB5_53
	ldrb	w8, [x10, #2]
	cbz	x8, .LBB5_53
	ldrb	w11, [x10, #3]
	orr	x8, x11, x8, lsl #8
	sub	x11, x9, #4
	subs	x23, x11, x8
	b.lo	.LBB5_53
	add	x1, x10, #4
	add	x24, x1, x8
	b	.LBB5_55
.LBB5_48:
	cbz	x11, .LBB5_53
	cmp	w8, #129
	b.ne	.LBB5_53
	ldrsb	w8, [x1]
	tbz	w8, #31, .LBB5_53
	sub	x11, x9, #3
	and	x8, x8, #0xff
	subs	x23, x11, x8
	b.lo	.LBB5_53
	add	x1, x10, #3
	add	x24, x1, x8
	b	.LBB5_55
.LBB5_53:
	mov	x19, x2
	mov	x20, x3
	add	x0, sp, #112
	mov	x1, x10
	mov	x2, x9
	mov	w3, #48
	mov	x21, x4
	bl	_RNvNtNtNtCs00000000000_7pkcs1_c6proved8der_core5split14split_unlikely
	ldr	x1, [sp, #112]
	cbz	x1, .LBB5_406
	ldp	x8, x24, [sp, #120]
	mov	x4, x21
	ldr	x23, [sp, #136]
	mov	x3, x20
	mov	x2, x19
	cmp	x8, #2
	b.lo	.LBB5_143
.LBB5_55:
	mov	x27, x1
	ldrb	w9, [x27], #2
	cmp	w9, #6
	b.ne	.LBB5_143
	ldrsb	w10, [x1, #1]
	sub	x9, x8, #2
	tbnz	w10, #31, .LBB5_71
	and	x22, x10, #0xff
	subs	x21, x9, x22
	b.lo	.LBB5_143
	add	x1, x27, x22
	sub	x9, x22, #1
	cmp	x9, #38
	b.hi	.LBB5_145
.LBB5_59:
	ldrsb	w8, [x27, x9]
	tbnz	w8, #31, .LBB5_77
	movi	v0.8b, #128
	movi	v1.4h, #128
	mov	x10, x27
	b	.LBB5_64
.LBB5_61:
	ldr	d2, [x10]
	cmeq	v2.8b, v2.8b, v0.8b
	umaxv	b2, v2.8b
	fmov	w11, s2
	tbnz	w11, #0, .LBB5_76
	mov	x11, #-8
	mov	w12, #8
.LBB5_63:
	add	x9, x11, x9
	add	x10, x10, x12
.LBB5_64:
	cmp	x9, #7
	b.hi	.LBB5_61
	cmp	x9, #3
	b.ls	.LBB5_68
	ldr	s2, [x10]
	ushll	v2.8h, v2.8b, #0
	cmeq	v2.4h, v2.4h, v1.4h
	umaxv	h2, v2.4h
	fmov	w11, s2
	tbnz	w11, #0, .LBB5_76
	mov	x11, #-4
	mov	w12, #4
	b	.LBB5_63
.LBB5_68:
	cbz	x9, .LBB5_80
	ldrb	w11, [x10]
	cmp	w11, #128
	b.eq	.LBB5_76
	mov	x11, #-1
	mov	w12, #1
	b	.LBB5_63
.LBB5_71:
	and	w10, w10, #0xff
	cmp	w10, #130
	b.ne	.LBB5_86
	cmp	x9, #1
	b.ls	.LBB5_143
	ldrb	w9, [x1, #2]
	cbz	x9, .LBB5_143
	ldrb	w10, [x1, #3]
	orr	x22, x10, x9, lsl #8
	sub	x9, x8, #4
	subs	x21, x9, x22
	b.lo	.LBB5_143
	add	x27, x1, #4
	add	x1, x27, x22
	sub	x9, x22, #1
	cmp	x9, #38
	b.ls	.LBB5_59
	b	.LBB5_145
.LBB5_76:
	cbz	x22, .LBB5_80
.LBB5_77:
	ldrb	w9, [x27]
	cmp	w9, #128
	b.eq	.LBB5_145
	subs	x9, x22, #1
	b.ne	.LBB5_97
.LBB5_79:
	tbnz	w8, #31, .LBB5_145
.LBB5_80:
	cbz	x21, .LBB5_96
	ldrb	w25, [x1]
	mov	w8, #31
	mov	w0, #12
	bics	wzr, w8, w25
	b.eq	.LBB5_95
	and	w8, w25, #0xffffffdf
	tst	w8, #0xff
	b.eq	.LBB5_95
	cmp	x21, #1
	b.eq	.LBB5_135
	ldrsb	w9, [x1, #1]
	sub	x8, x21, #2
	tbnz	w9, #31, .LBB5_102
	and	x16, x9, #0xff
	b	.LBB5_106
.LBB5_86:
	cbz	x9, .LBB5_142
	cmp	w10, #129
	b.ne	.LBB5_143
	ldrsb	w9, [x27]
	tbz	w9, #31, .LBB5_143
	sub	x10, x8, #3
	and	x22, x9, #0xff
	subs	x21, x10, x22
	b.lo	.LBB5_143
	add	x27, x1, #3
	add	x1, x27, x22
	sub	x9, x22, #1
	cmp	x9, #38
	b.hi	.LBB5_145
	b	.LBB5_59
.LBB5_91:
	mov	w8, #2
.LBB5_92:
	mov	x19, x2
	mov	x20, x3
	add	x0, sp, #112
	mov	x2, x8
	mov	w3, #2
	mov	x21, x4
	bl	_RNvNtNtNtCs00000000000_7pkcs1_c6proved8der_core5split14split_unlikely
	ldr	x11, [sp, #112]
	cbz	x11, .LBB5_406
	ldp	x12, x10, [sp, #120]
	mov	x4, x21
	ldr	x9, [sp, #136]
	mov	x3, x20
	mov	x2, x19
	cbnz	x12, .LBB5_11
.LBB5_94:
	mov	w0, #4
.LBB5_95:
	ldp	x20, x19, [sp, #224]
	ldp	x22, x21, [sp, #208]
	ldp	x24, x23, [sp, #192]
	ldp	x26, x25, [sp, #176]
	ldp	x28, x27, [sp, #160]
	ldp	x29, x30, [sp, #144]
	add	sp, sp, #240
	.cfi_def_cfa_offset 0
	.cfi_restore w19
	.cfi_restore w20
	.cfi_restore w21
	.cfi_restore w22
	.cfi_restore w23
	.cfi_restore w24
	.cfi_restore w25
	.cfi_restore w26
	.cfi_restore w27
	.cfi_restore w28
	.cfi_restore w30
	.cfi_restore w29
	ret
.LBB5_96:
	.cfi_restore_state
	mov	x16, xzr
	mov	x17, xzr
	mov	x28, xzr
	b	.LBB5_109
.LBB5_97:
	mov	x0, xzr
	add	x10, x27, #1
	b	.LBB5_99
.LBB5_98:
	add	x0, x0, #1
	add	x10, x10, #1
	cmp	x9, x0
	b.eq	.LBB5_79
.LBB5_99:
	ldrb	w11, [x10]
	cmp	w11, #128
	b.ne	.LBB5_98
	cmp	x0, x22
	b.hs	.LBB5_211
	ldursb	w11, [x10, #-1]
	tbnz	w11, #31, .LBB5_98
	b	.LBB5_145
.LBB5_102:
	and	w9, w9, #0xff
	cmp	w9, #130
	b.ne	.LBB5_131
	cmp	x8, #1
	b.ls	.LBB5_135
	ldrb	w8, [x1, #2]
	cbz	x8, .LBB5_135
	ldrb	w9, [x1, #3]
	orr	x16, x9, x8, lsl #8
	sub	x8, x21, #4
.LBB5_106:
	subs	x8, x8, x16
	b.lo	.LBB5_135
.LBB5_107:
	cbnz	x8, .LBB5_155
.LBB5_108:
	and	x28, x16, #0xffffffffff000000
	and	x17, x16, #0xffff00
.LBB5_109:
	subs	x8, x23, #2
	b.lo	.LBB5_129
	mov	x11, x24
	ldrb	w9, [x11], #2
	cmp	w9, #4
	b.ne	.LBB5_129
	ldrsb	w9, [x24, #1]
	tbnz	w9, #31, .LBB5_113
	and	x12, x9, #0xff
	subs	x8, x8, x12
	b.hs	.LBB5_124
	b	.LBB5_129
.LBB5_113:
	and	w9, w9, #0xff
	cmp	w9, #130
	b.ne	.LBB5_119
	cmp	x8, #1
	b.ls	.LBB5_129
	ldrb	w8, [x24, #2]
	cbz	x8, .LBB5_129
	ldrb	w9, [x24, #3]
	orr	x12, x9, x8, lsl #8
	sub	x8, x23, #4
	subs	x8, x8, x12
	b.lo	.LBB5_129
	add	x11, x24, #4
	add	x1, x11, x12
	cbnz	x8, .LBB5_125
.LBB5_118:
	mov	x13, xzr
	b	.LBB5_154
.LBB5_119:
	cbz	x8, .LBB5_129
	cmp	w9, #129
	b.ne	.LBB5_129
	ldrsb	w8, [x11]
	tbz	w8, #31, .LBB5_129
	sub	x9, x23, #3
	and	x12, x8, #0xff
	subs	x8, x9, x12
	b.lo	.LBB5_129
	add	x11, x24, #3
.LBB5_124:
	add	x1, x11, x12
	cbz	x8, .LBB5_118
.LBB5_125:
	ldrb	w9, [x1]
	cmp	w9, #160
	b.ne	.LBB5_155
	cmp	x8, #1
	b.eq	.LBB5_151
	ldrsb	w10, [x1, #1]
	add	x13, x1, #2
	sub	x9, x8, #2
	tbnz	w10, #31, .LBB5_137
	and	x14, x10, #0xff
	subs	x9, x9, x14
	b.hs	.LBB5_153
	b	.LBB5_151
.LBB5_129:
	mov	x19, x2
	mov	x29, x3
	add	x0, sp, #112
	mov	x1, x24
	mov	x2, x23
	mov	w3, #4
	stp	x17, x16, [sp, #96]
	mov	x20, x4
	bl	_RNvNtNtNtCs00000000000_7pkcs1_c6proved8der_core5split14split_unlikely
	ldr	x11, [sp, #112]
	cbz	x11, .LBB5_406
	ldp	x12, x1, [sp, #120]
	mov	x4, x20
	ldp	x17, x16, [sp, #96]
	mov	x3, x29
	ldr	x8, [sp, #136]
	mov	x2, x19
	cbnz	x8, .LBB5_125
	b	.LBB5_118
.LBB5_131:
	cbz	x8, .LBB5_135
	cmp	w9, #129
	b.ne	.LBB5_135
	ldrsb	w8, [x1, #2]
	tbz	w8, #31, .LBB5_135
	sub	x9, x21, #3
	and	x16, x8, #0xff
	subs	x8, x9, x16
	b.hs	.LBB5_107
.LBB5_135:
	mov	x19, x2
	mov	x20, x3
	add	x0, sp, #112
	mov	x2, x21
	mov	w3, w25
	mov	x29, x4
	bl	_RNvNtNtNtCs00000000000_7pkcs1_c6proved8der_core5split14split_unlikely
	ldr	x8, [sp, #112]
	cbz	x8, .LBB5_406
	ldr	x16, [sp, #120]
	ldr	x8, [sp, #136]
	mov	x4, x29
	mov	x3, x20
	mov	x2, x19
	cbnz	x8, .LBB5_155
	b	.LBB5_108
.LBB5_137:
	and	w10, w10, #0xff
	cmp	w10, #130
	b.ne	.LBB5_146
	cmp	x9, #1
	b.ls	.LBB5_151
	ldrb	w9, [x1, #2]
	cbz	x9, .LBB5_151
	ldrb	w10, [x1, #3]
	orr	x14, x10, x9, lsl #8
	sub	x9, x8, #4
	subs	x9, x9, x14
	b.lo	.LBB5_151
	add	x13, x1, #4
	b	.LBB5_153
.LBB5_142:
	mov	w8, #2
.LBB5_143:
	mov	x19, x2
	mov	x20, x3
	add	x0, sp, #112
	mov	x2, x8
	mov	w3, #6
	mov	x25, x4
	bl	_RNvNtNtNtCs00000000000_7pkcs1_c6proved8der_core5split14split_unlikely
	ldr	x27, [sp, #112]
	cbz	x27, .LBB5_406
	ldp	x22, x1, [sp, #120]
	mov	x4, x25
	ldr	x21, [sp, #136]
	mov	x3, x20
	mov	x2, x19
	sub	x9, x22, #1
	cmp	x9, #38
	b.ls	.LBB5_59
.LBB5_145:
	mov	w0, #6
	b	.LBB5_95
.LBB5_146:
	cbz	x9, .LBB5_151
	cmp	w10, #129
	b.ne	.LBB5_151
	ldrsb	w9, [x13]
	tbz	w9, #31, .LBB5_151
	sub	x10, x8, #3
	and	x14, x9, #0xff
	subs	x9, x10, x14
	b.lo	.LBB5_151
	add	x13, x1, #3
	b	.LBB5_153
.LBB5_151:
	mov	x19, x2
	mov	x20, x3
	add	x0, sp, #112
	mov	x2, x8
	mov	w3, #160
	stp	x17, x16, [sp, #96]
	mov	x23, x12
	mov	x24, x11
	mov	x29, x4
	bl	_RNvNtNtNtCs00000000000_7pkcs1_c6proved8der_core5split14split_unlikely
	ldr	x13, [sp, #112]
	cbz	x13, .LBB5_406
	ldp	x17, x16, [sp, #96]
	mov	x4, x29
	ldr	x14, [sp, #120]
	ldr	x9, [sp, #136]
	mov	x3, x20
	mov	x2, x19
	mov	x11, x24
	mov	x12, x23
.LBB5_153:
	cbnz	x9, .LBB5_155
.LBB5_154:
	cbz	x26, .LBB5_156
.LBB5_155:
	mov	w0, #13
	b	.LBB5_95
.LBB5_156:
	cmp	x22, #4
	b.lo	.LBB5_175
	ldrb	w8, [x27]
	cmp	w8, #42
	b.ne	.LBB5_175
	ldrb	w8, [x27, #1]
	cmp	w8, #134
	b.ne	.LBB5_175
	ldrb	w8, [x27, #2]
	stp	x2, x3, [sp, #88]
	str	x4, [sp, #104]
	cmp	w8, #72
	b.ne	.LBB5_175
	cmp	x22, #9
	mov	w0, #7
	b.ne	.LBB5_95
	ldrb	w8, [x27, #3]
	cmp	w8, #134
	b.ne	.LBB5_95
	ldrb	w8, [x27, #4]
	cmp	w8, #247
	b.ne	.LBB5_95
	ldrb	w8, [x27, #5]
	cmp	w8, #13
	b.ne	.LBB5_95
	ldrb	w8, [x27, #6]
	cmp	w8, #1
	b.ne	.LBB5_95
	ldrb	w8, [x27, #7]
	cmp	w8, #1
	b.ne	.LBB5_95
	ldrb	w9, [x27, #8]
	mov	w8, #9
	mov	w10, #6
	cmp	w9, #1
	csel	w8, w10, w8, ne
	cbz	x21, .LBB5_407
	cmp	w9, #1
	b.ne	.LBB5_407
	and	x8, x25, #0xff
	mov	w0, #14
	cmp	x8, #5
	b.ne	.LBB5_95
	and	x8, x16, #0xff
	orr	x9, x17, x28
	orr	x8, x8, x9
	cbnz	x8, .LBB5_95
	lsr	x8, x12, #32
	mov	x24, x12
	cbnz	x8, .LBB5_1
	mov	x20, x14
	mov	x23, x13
	mov	x19, x11
	subs	x8, x24, #2
	b.lo	.LBB5_186
	mov	x1, x19
	ldrb	w9, [x1], #2
	cmp	w9, #48
	b.ne	.LBB5_186
	ldrsb	w9, [x19, #1]
	tbnz	w9, #31, .LBB5_176
	and	x2, x9, #0xff
	subs	x22, x8, x2
	b.hs	.LBB5_188
	b	.LBB5_186
.LBB5_175:
	mov	w0, #7
	b	.LBB5_95
.LBB5_176:
	and	w9, w9, #0xff
	cmp	w9, #130
	b.ne	.LBB5_181
	cmp	x8, #1
	b.ls	.LBB5_186
	ldrb	w8, [x19, #2]
	cbz	x8, .LBB5_186
	ldrb	w9, [x19, #3]
	orr	x2, x9, x8, lsl #8
	sub	x8, x24, #4
	subs	x22, x8, x2
	b.lo	.LBB5_186
	add	x1, x19, #4
	b	.LBB5_189
.LBB5_181:
	cbz	x8, .LBB5_186
	cmp	w9, #129
	b.ne	.LBB5_186
	ldrsb	w8, [x1]
	tbz	w8, #31, .LBB5_186
	sub	x9, x24, #3
	and	x2, x8, #0xff
	subs	x22, x9, x2
	b.lo	.LBB5_186
	add	x1, x19, #3
	b	.LBB5_189
.LBB5_186:
	add	x0, sp, #112
	mov	x1, x19
	mov	x2, x24
	mov	w3, #48
	bl	_RNvNtNtNtCs00000000000_7pkcs1_c6proved8der_core5split14split_unlikely
	ldr	x1, [sp, #112]
	cbz	x1, .LBB5_406
	ldr	x2, [sp, #120]
	ldr	x22, [sp, #136]
.LBB5_188:
	cmp	x2, #2
	b.lo	.LBB5_262
.LBB5_189:
	mov	x9, x1
	ldrb	w8, [x9], #2
	cmp	w8, #2
	b.ne	.LBB5_262
	ldrsb	w10, [x1, #1]
	sub	x8, x2, #2
	tbnz	w10, #31, .LBB5_192
	and	x10, x10, #0xff
	subs	x8, x8, x10
	b.hs	.LBB5_202
	b	.LBB5_262
.LBB5_192:
	and	w10, w10, #0xff
	cmp	w10, #130
	b.ne	.LBB5_197
	cmp	x8, #1
	b.ls	.LBB5_262
	ldrb	w8, [x1, #2]
	cbz	x8, .LBB5_262
	ldrb	w9, [x1, #3]
	orr	x10, x9, x8, lsl #8
	sub	x8, x2, #4
	subs	x8, x8, x10
	b.lo	.LBB5_262
	add	x9, x1, #4
	add	x1, x9, x10
	cbnz	x10, .LBB5_203
	b	.LBB5_94
.LBB5_197:
	cbz	x8, .LBB5_261
	cmp	w10, #129
	b.ne	.LBB5_262
	ldrsb	w8, [x9]
	tbz	w8, #31, .LBB5_262
	sub	x9, x2, #3
	and	x10, x8, #0xff
	subs	x8, x9, x10
	b.lo	.LBB5_262
	add	x9, x1, #3
.LBB5_202:
	add	x1, x9, x10
	cbz	x10, .LBB5_94
.LBB5_203:
	cmp	x10, #1
	b.ne	.LBB5_208
	ldrsb	w9, [x9]
	tbnz	w9, #31, .LBB5_29
.LBB5_205:
	cbz	w9, .LBB5_212
	and	w9, w9, #0xff
	cmp	w9, #1
	b.ne	.LBB5_29
	mov	w21, #1
	b	.LBB5_213
.LBB5_208:
	ldrb	w11, [x9]
	cbnz	w11, .LBB5_29
	ldrsb	w9, [x9, #1]
	tbnz	w9, #31, .LBB5_223
.LBB5_210:
	mov	w0, #5
	b	.LBB5_95
.LBB5_211:
	mov	x1, x22
	brk	#0x1
.LBB5_212:
	mov	w21, wzr
.LBB5_213:
	subs	x9, x8, #2
	b.lo	.LBB5_230
	mov	x25, x1
	ldrb	w10, [x25], #2
	cmp	w10, #2
	b.ne	.LBB5_230
	ldrsb	w10, [x1, #1]
	tbnz	w10, #31, .LBB5_218
	and	x26, x10, #0xff
	subs	x2, x9, x26
	b.lo	.LBB5_230
	add	x1, x25, x26
	b	.LBB5_232
.LBB5_218:
	and	w10, w10, #0xff
	cmp	w10, #130
	b.ne	.LBB5_224
	cmp	x9, #1
	b.ls	.LBB5_230
	ldrb	w9, [x1, #2]
	cbz	x9, .LBB5_230
	ldrb	w10, [x1, #3]
	orr	x26, x10, x9, lsl #8
	sub	x9, x8, #4
	subs	x2, x9, x26
	b.lo	.LBB5_230
	add	x25, x1, #4
	b	.LBB5_229
.LBB5_223:
	sub	x10, x10, #3
	cmn	x10, #2
	b.lo	.LBB5_29
	b	.LBB5_205
.LBB5_224:
	cbz	x9, .LBB5_230
	cmp	w10, #129
	b.ne	.LBB5_230
	ldrsb	w9, [x25]
	tbz	w9, #31, .LBB5_230
	sub	x10, x8, #3
	and	x26, x9, #0xff
	subs	x2, x10, x26
	b.lo	.LBB5_230
	add	x25, x1, #3
.LBB5_229:
	add	x1, x25, x26
	b	.LBB5_233
.LBB5_230:
	add	x0, sp, #112
	mov	x2, x8
	mov	w3, #2
	bl	_RNvNtNtNtCs00000000000_7pkcs1_c6proved8der_core5split14split_unlikely
	ldr	x25, [sp, #112]
	cbz	x25, .LBB5_406
	ldp	x26, x1, [sp, #120]
	ldr	x2, [sp, #136]
.LBB5_232:
	cbz	x26, .LBB5_94
.LBB5_233:
	ldrsb	w8, [x25]
	cbz	w8, .LBB5_235
	tbz	w8, #31, .LBB5_238
	b	.LBB5_29
.LBB5_235:
	subs	x26, x26, #1
	b.eq	.LBB5_237
	ldrsb	w8, [x25, #1]!
	tbz	w8, #31, .LBB5_210
	b	.LBB5_238
.LBB5_237:
	mov	w26, #1
.LBB5_238:
	subs	x8, x2, #2
	b.lo	.LBB5_254
	mov	x27, x1
	ldrb	w9, [x27], #2
	cmp	w9, #2
	b.ne	.LBB5_254
	ldrsb	w9, [x1, #1]
	tbnz	w9, #31, .LBB5_243
	and	x28, x9, #0xff
	subs	x8, x8, x28
	b.lo	.LBB5_254
	add	x1, x27, x28
	b	.LBB5_256
.LBB5_243:
	and	w9, w9, #0xff
	cmp	w9, #130
	b.ne	.LBB5_248
	cmp	x8, #1
	b.ls	.LBB5_254
	ldrb	w8, [x1, #2]
	cbz	x8, .LBB5_254
	ldrb	w9, [x1, #3]
	orr	x28, x9, x8, lsl #8
	sub	x8, x2, #4
	subs	x8, x8, x28
	b.lo	.LBB5_254
	add	x27, x1, #4
	b	.LBB5_253
.LBB5_248:
	cbz	x8, .LBB5_254
	cmp	w9, #129
	b.ne	.LBB5_254
	ldrsb	w8, [x27]
	tbz	w8, #31, .LBB5_254
	sub	x9, x2, #3
	and	x28, x8, #0xff
	subs	x8, x9, x28
	b.lo	.LBB5_254
	add	x27, x1, #3
.LBB5_253:
	add	x1, x27, x28
	b	.LBB5_257
.LBB5_254:
	add	x0, sp, #112
	mov	w3, #2
	bl	_RNvNtNtNtCs00000000000_7pkcs1_c6proved8der_core5split14split_unlikely
	ldr	x27, [sp, #112]
	cbz	x27, .LBB5_406
	ldp	x28, x1, [sp, #120]
	ldr	x8, [sp, #136]
.LBB5_256:
	cbz	x28, .LBB5_94
.LBB5_257:
	ldrsb	w9, [x27]
	cbz	w9, .LBB5_259
	tbz	w9, #31, .LBB5_265
	b	.LBB5_29
.LBB5_259:
	subs	x28, x28, #1
	b.eq	.LBB5_264
	ldrsb	w9, [x27, #1]!
	tbz	w9, #31, .LBB5_210
	b	.LBB5_265
.LBB5_261:
	mov	w2, #2
.LBB5_262:
	add	x0, sp, #112
	mov	w3, #2
	bl	_RNvNtNtNtCs00000000000_7pkcs1_c6proved8der_core5split14split_unlikely
	ldr	x9, [sp, #112]
	cbz	x9, .LBB5_406
	ldp	x10, x1, [sp, #120]
	ldr	x8, [sp, #136]
	cbnz	x10, .LBB5_203
	b	.LBB5_94
.LBB5_264:
	mov	w28, #1
.LBB5_265:
	subs	x9, x8, #2
	b.lo	.LBB5_281
	mov	x29, x1
	ldrb	w10, [x29], #2
	cmp	w10, #2
	b.ne	.LBB5_281
	ldrsb	w10, [x1, #1]
	tbnz	w10, #31, .LBB5_270
	and	x10, x10, #0xff
	subs	x2, x9, x10
	str	x10, [sp, #80]
	b.lo	.LBB5_281
	ldr	x8, [sp, #80]
	add	x1, x29, x8
	b	.LBB5_283
.LBB5_270:
	and	w10, w10, #0xff
	cmp	w10, #130
	b.ne	.LBB5_275
	cmp	x9, #1
	b.ls	.LBB5_281
	ldrb	w9, [x1, #2]
	cbz	x9, .LBB5_281
	ldrb	w10, [x1, #3]
	orr	x10, x10, x9, lsl #8
	sub	x9, x8, #4
	subs	x2, x9, x10
	str	x10, [sp, #80]
	b.lo	.LBB5_281
	add	x29, x1, #4
	b	.LBB5_280
.LBB5_275:
	cbz	x9, .LBB5_281
	cmp	w10, #129
	b.ne	.LBB5_281
	ldrsb	w9, [x29]
	tbz	w9, #31, .LBB5_281
	sub	x10, x8, #3
	and	x9, x9, #0xff
	subs	x2, x10, x9
	str	x9, [sp, #80]
	b.lo	.LBB5_281
	add	x29, x1, #3
.LBB5_280:
	ldr	x8, [sp, #80]
	add	x1, x29, x8
	b	.LBB5_284
.LBB5_281:
	add	x0, sp, #112
	mov	x2, x8
	mov	w3, #2
	bl	_RNvNtNtNtCs00000000000_7pkcs1_c6proved8der_core5split14split_unlikely
	ldr	x29, [sp, #112]
	cbz	x29, .LBB5_406
	ldp	x8, x1, [sp, #120]
	ldr	x2, [sp, #136]
	str	x8, [sp, #80]
.LBB5_283:
	ldr	x8, [sp, #80]
	cbz	x8, .LBB5_94
.LBB5_284:
	ldrsb	w8, [x29]
	cbz	w8, .LBB5_286
	tbz	w8, #31, .LBB5_289
	b	.LBB5_29
.LBB5_286:
	ldr	x8, [sp, #80]
	subs	x8, x8, #1
	str	x8, [sp, #80]
	b.eq	.LBB5_288
	ldrsb	w8, [x29, #1]!
	tbz	w8, #31, .LBB5_210
	b	.LBB5_289
.LBB5_288:
	mov	w8, #1
	str	x8, [sp, #80]
.LBB5_289:
	subs	x8, x2, #2
	b.lo	.LBB5_305
	mov	x10, x1
	ldrb	w9, [x10], #2
	str	x10, [sp, #72]
	cmp	w9, #2
	b.ne	.LBB5_305
	ldrsb	w9, [x1, #1]
	tbnz	w9, #31, .LBB5_294
	and	x9, x9, #0xff
	subs	x8, x8, x9
	str	x9, [sp, #64]
	b.lo	.LBB5_305
	ldp	x10, x9, [sp, #64]
	add	x1, x9, x10
	b	.LBB5_307
.LBB5_294:
	and	w9, w9, #0xff
	cmp	w9, #130
	b.ne	.LBB5_299
	cmp	x8, #1
	b.ls	.LBB5_305
	ldrb	w8, [x1, #2]
	cbz	x8, .LBB5_305
	ldrb	w9, [x1, #3]
	orr	x9, x9, x8, lsl #8
	sub	x8, x2, #4
	subs	x8, x8, x9
	str	x9, [sp, #64]
	b.lo	.LBB5_305
	add	x9, x1, #4
	b	.LBB5_304
.LBB5_299:
	cbz	x8, .LBB5_305
	cmp	w9, #129
	b.ne	.LBB5_305
	ldr	x8, [sp, #72]
	ldrsb	w8, [x8]
	tbz	w8, #31, .LBB5_305
	sub	x9, x2, #3
	and	x8, x8, #0xff
	str	x8, [sp, #64]
	subs	x8, x9, x8
	b.lo	.LBB5_305
	add	x9, x1, #3
.LBB5_304:
	ldr	x10, [sp, #64]
	str	x9, [sp, #72]
	add	x1, x9, x10
	b	.LBB5_308
.LBB5_305:
	add	x0, sp, #112
	mov	w3, #2
	bl	_RNvNtNtNtCs00000000000_7pkcs1_c6proved8der_core5split14split_unlikely
	ldr	x8, [sp, #112]
	str	x8, [sp, #72]
	cbz	x8, .LBB5_406
	ldp	x8, x1, [sp, #120]
	str	x8, [sp, #64]
	ldr	x8, [sp, #136]
.LBB5_307:
	ldr	x9, [sp, #64]
	cbz	x9, .LBB5_94
.LBB5_308:
	ldr	x9, [sp, #72]
	ldrsb	w9, [x9]
	cbz	w9, .LBB5_310
	tbz	w9, #31, .LBB5_313
	b	.LBB5_29
.LBB5_310:
	ldr	x9, [sp, #64]
	subs	x9, x9, #1
	str	x9, [sp, #64]
	b.eq	.LBB5_312
	ldr	x10, [sp, #72]
	ldrsb	w9, [x10, #1]!
	str	x10, [sp, #72]
	tbz	w9, #31, .LBB5_210
	b	.LBB5_313
.LBB5_312:
	mov	w9, #1
	str	x9, [sp, #64]
.LBB5_313:
	subs	x9, x8, #2
	b.lo	.LBB5_329
	mov	x11, x1
	ldrb	w10, [x11], #2
	str	x11, [sp, #56]
	cmp	w10, #2
	b.ne	.LBB5_329
	ldrsb	w10, [x1, #1]
	tbnz	w10, #31, .LBB5_318
	and	x10, x10, #0xff
	subs	x2, x9, x10
	str	x10, [sp, #48]
	b.lo	.LBB5_329
	ldp	x9, x8, [sp, #48]
	add	x1, x8, x9
	b	.LBB5_331
.LBB5_318:
	and	w10, w10, #0xff
	cmp	w10, #130
	b.ne	.LBB5_323
	cmp	x9, #1
	b.ls	.LBB5_329
	ldrb	w9, [x1, #2]
	cbz	x9, .LBB5_329
	ldrb	w10, [x1, #3]
	orr	x10, x10, x9, lsl #8
	sub	x9, x8, #4
	subs	x2, x9, x10
	str	x10, [sp, #48]
	b.lo	.LBB5_329
	add	x8, x1, #4
	b	.LBB5_328
.LBB5_323:
	cbz	x9, .LBB5_329
	cmp	w10, #129
	b.ne	.LBB5_329
	ldr	x9, [sp, #56]
	ldrsb	w9, [x9]
	tbz	w9, #31, .LBB5_329
	sub	x10, x8, #3
	and	x9, x9, #0xff
	subs	x2, x10, x9
	str	x9, [sp, #48]
	b.lo	.LBB5_329
	add	x8, x1, #3
.LBB5_328:
	ldr	x9, [sp, #48]
	str	x8, [sp, #56]
	add	x1, x8, x9
	b	.LBB5_332
.LBB5_329:
	add	x0, sp, #112
	mov	x2, x8
	mov	w3, #2
	bl	_RNvNtNtNtCs00000000000_7pkcs1_c6proved8der_core5split14split_unlikely
	ldr	x8, [sp, #112]
	str	x8, [sp, #56]
	cbz	x8, .LBB5_406
	ldp	x8, x1, [sp, #120]
	ldr	x2, [sp, #136]
	str	x8, [sp, #48]
.LBB5_331:
	ldr	x8, [sp, #48]
	cbz	x8, .LBB5_94
.LBB5_332:
	ldr	x8, [sp, #56]
	ldrsb	w8, [x8]
	cbz	w8, .LBB5_334
	tbz	w8, #31, .LBB5_337
	b	.LBB5_29
.LBB5_334:
	ldr	x8, [sp, #48]
	subs	x8, x8, #1
	str	x8, [sp, #48]
	b.eq	.LBB5_336
	ldr	x9, [sp, #56]
	ldrsb	w8, [x9, #1]!
	str	x9, [sp, #56]
	tbz	w8, #31, .LBB5_210
	b	.LBB5_337
.LBB5_336:
	mov	w8, #1
	str	x8, [sp, #48]
.LBB5_337:
	subs	x8, x2, #2
	b.lo	.LBB5_353
	mov	x10, x1
	ldrb	w9, [x10], #2
	str	x10, [sp, #40]
	cmp	w9, #2
	b.ne	.LBB5_353
	ldrsb	w9, [x1, #1]
	tbnz	w9, #31, .LBB5_342
	and	x9, x9, #0xff
	subs	x8, x8, x9
	str	x9, [sp, #32]
	b.lo	.LBB5_353
	ldp	x10, x9, [sp, #32]
	add	x1, x9, x10
	b	.LBB5_355
.LBB5_342:
	and	w9, w9, #0xff
	cmp	w9, #130
	b.ne	.LBB5_347
	cmp	x8, #1
	b.ls	.LBB5_353
	ldrb	w8, [x1, #2]
	cbz	x8, .LBB5_353
	ldrb	w9, [x1, #3]
	orr	x9, x9, x8, lsl #8
	sub	x8, x2, #4
	subs	x8, x8, x9
	str	x9, [sp, #32]
	b.lo	.LBB5_353
	add	x9, x1, #4
	b	.LBB5_352
.LBB5_347:
	cbz	x8, .LBB5_353
	cmp	w9, #129
	b.ne	.LBB5_353
	ldr	x8, [sp, #40]
	ldrsb	w8, [x8]
	tbz	w8, #31, .LBB5_353
	sub	x9, x2, #3
	and	x8, x8, #0xff
	str	x8, [sp, #32]
	subs	x8, x9, x8
	b.lo	.LBB5_353
	add	x9, x1, #3
.LBB5_352:
	ldr	x10, [sp, #32]
	str	x9, [sp, #40]
	add	x1, x9, x10
	b	.LBB5_356
.LBB5_353:
	add	x0, sp, #112
	mov	w3, #2
	bl	_RNvNtNtNtCs00000000000_7pkcs1_c6proved8der_core5split14split_unlikely
	ldr	x8, [sp, #112]
	str	x8, [sp, #40]
	cbz	x8, .LBB5_406
	ldp	x8, x1, [sp, #120]
	str	x8, [sp, #32]
	ldr	x8, [sp, #136]
.LBB5_355:
	ldr	x9, [sp, #32]
	cbz	x9, .LBB5_94
.LBB5_356:
	ldr	x9, [sp, #40]
	ldrsb	w9, [x9]
	cbz	w9, .LBB5_358
	tbz	w9, #31, .LBB5_361
	b	.LBB5_29
.LBB5_358:
	ldr	x9, [sp, #32]
	subs	x9, x9, #1
	str	x9, [sp, #32]
	b.eq	.LBB5_360
	ldr	x10, [sp, #40]
	ldrsb	w9, [x10, #1]!
	str	x10, [sp, #40]
	tbz	w9, #31, .LBB5_210
	b	.LBB5_361
.LBB5_360:
	mov	w9, #1
	str	x9, [sp, #32]
.LBB5_361:
	subs	x9, x8, #2
	b.lo	.LBB5_377
	mov	x11, x1
	ldrb	w10, [x11], #2
	str	x11, [sp, #24]
	cmp	w10, #2
	b.ne	.LBB5_377
	ldrsb	w10, [x1, #1]
	tbnz	w10, #31, .LBB5_366
	and	x10, x10, #0xff
	subs	x2, x9, x10
	str	x10, [sp, #16]
	b.lo	.LBB5_377
	ldp	x9, x8, [sp, #16]
	add	x1, x8, x9
	b	.LBB5_379
.LBB5_366:
	and	w10, w10, #0xff
	cmp	w10, #130
	b.ne	.LBB5_371
	cmp	x9, #1
	b.ls	.LBB5_377
	ldrb	w9, [x1, #2]
	cbz	x9, .LBB5_377
	ldrb	w10, [x1, #3]
	orr	x10, x10, x9, lsl #8
	sub	x9, x8, #4
	subs	x2, x9, x10
	str	x10, [sp, #16]
	b.lo	.LBB5_377
	add	x8, x1, #4
	b	.LBB5_376
.LBB5_371:
	cbz	x9, .LBB5_377
	cmp	w10, #129
	b.ne	.LBB5_377
	ldr	x9, [sp, #24]
	ldrsb	w9, [x9]
	tbz	w9, #31, .LBB5_377
	sub	x10, x8, #3
	and	x9, x9, #0xff
	subs	x2, x10, x9
	str	x9, [sp, #16]
	b.lo	.LBB5_377
	add	x8, x1, #3
.LBB5_376:
	ldr	x9, [sp, #16]
	str	x8, [sp, #24]
	add	x1, x8, x9
	b	.LBB5_380
.LBB5_377:
	add	x0, sp, #112
	mov	x2, x8
	mov	w3, #2
	bl	_RNvNtNtNtCs00000000000_7pkcs1_c6proved8der_core5split14split_unlikely
	ldr	x8, [sp, #112]
	str	x8, [sp, #24]
	cbz	x8, .LBB5_406
	ldp	x8, x1, [sp, #120]
	ldr	x2, [sp, #136]
	str	x8, [sp, #16]
.LBB5_379:
	ldr	x8, [sp, #16]
	cbz	x8, .LBB5_94
.LBB5_380:
	ldr	x8, [sp, #24]
	ldrsb	w8, [x8]
	cbz	w8, .LBB5_382
	tbz	w8, #31, .LBB5_385
	b	.LBB5_29
.LBB5_382:
	ldr	x8, [sp, #16]
	subs	x8, x8, #1
	str	x8, [sp, #16]
	b.eq	.LBB5_384
	ldr	x9, [sp, #24]
	ldrsb	w8, [x9, #1]!
	str	x9, [sp, #24]
	tbz	w8, #31, .LBB5_210
	b	.LBB5_385
.LBB5_384:
	mov	w8, #1
	str	x8, [sp, #16]
.LBB5_385:
	subs	x8, x2, #2
	b.lo	.LBB5_401
	mov	x10, x1
	ldrb	w9, [x10], #2
	str	x10, [sp, #8]
	cmp	w9, #2
	b.ne	.LBB5_401
	ldrsb	w9, [x1, #1]
	tbnz	w9, #31, .LBB5_390
	and	x9, x9, #0xff
	subs	x8, x8, x9
	str	x9, [sp]
	b.lo	.LBB5_401
	ldp	x10, x9, [sp]
	add	x1, x9, x10
	b	.LBB5_403
.LBB5_390:
	and	w9, w9, #0xff
	cmp	w9, #130
	b.ne	.LBB5_395
	cmp	x8, #1
	b.ls	.LBB5_401
	ldrb	w8, [x1, #2]
	cbz	x8, .LBB5_401
	ldrb	w9, [x1, #3]
	orr	x9, x9, x8, lsl #8
	sub	x8, x2, #4
	subs	x8, x8, x9
	str	x9, [sp]
	b.lo	.LBB5_401
	add	x9, x1, #4
	b	.LBB5_400
.LBB5_395:
	cbz	x8, .LBB5_401
	cmp	w9, #129
	b.ne	.LBB5_401
	ldr	x8, [sp, #8]
	ldrsb	w8, [x8]
	tbz	w8, #31, .LBB5_401
	sub	x9, x2, #3
	and	x8, x8, #0xff
	str	x8, [sp]
	subs	x8, x9, x8
	b.lo	.LBB5_401
	add	x9, x1, #3
.LBB5_400:
	ldr	x10, [sp]
	str	x9, [sp, #8]
	add	x1, x9, x10
	b	.LBB5_404
.LBB5_401:
	add	x0, sp, #112
	mov	w3, #2
	bl	_RNvNtNtNtCs00000000000_7pkcs1_c6proved8der_core5split14split_unlikely
	ldr	x8, [sp, #112]
	str	x8, [sp, #8]
	cbz	x8, .LBB5_406
	ldp	x8, x1, [sp, #120]
	str	x8, [sp]
	ldr	x8, [sp, #136]
.LBB5_403:
	ldr	x9, [sp]
	cbz	x9, .LBB5_94
.LBB5_404:
	ldr	x9, [sp, #8]
	ldrsb	w9, [x9]
	cbz	w9, .LBB5_414
	tbz	w9, #31, .LBB5_417
	b	.LBB5_29
.LBB5_406:
	ldrb	w8, [sp, #120]
.LBB5_407:
	sub	w9, w8, #17
	and	w10, w9, #0xff
	and	x9, x9, #0xff
	cmp	w10, #3
	csinc	x9, xzr, x9, hs
	cmp	x9, #1
	b.gt	.LBB5_410
	cbnz	x9, .LBB5_412
	and	w8, w8, #0xff
	add	w0, w8, #1
	b	.LBB5_95
.LBB5_410:
	cmp	x9, #2
	b.ne	.LBB5_413
	mov	w0, #19
	b	.LBB5_95
.LBB5_412:
	mov	w0, #18
	b	.LBB5_95
.LBB5_413:
	mov	w0, #20
	b	.LBB5_95
.LBB5_414:
	ldr	x9, [sp]
	subs	x9, x9, #1
	str	x9, [sp]
	b.eq	.LBB5_416
	ldr	x10, [sp, #8]
	ldrsb	w9, [x10, #1]!
	str	x10, [sp, #8]
	tbz	w9, #31, .LBB5_210
	b	.LBB5_417
.LBB5_416:
	mov	w9, #1
	str	x9, [sp]
.LBB5_417:
	cbz	x8, .LBB5_419
	add	x0, sp, #112
	mov	x2, x8
	mov	w3, w21
	b	.LBB5_421
.LBB5_419:
	cbz	w21, .LBB5_424
	add	x0, sp, #112
	mov	x2, xzr
	mov	w3, #1
.LBB5_421:
	bl	_RNvNtNtNtCs00000000000_7pkcs1_c6proved5pkcs110viewed_key9read_list
	ldrb	w8, [sp, #112]
	tbz	w8, #0, .LBB5_423
	ldrb	w8, [sp, #113]
	b	.LBB5_407
.LBB5_423:
	ldr	x8, [sp, #120]
	b	.LBB5_425
.LBB5_424:
	mov	x8, xzr
.LBB5_425:
	cbnz	x22, .LBB5_155
	cmp	x23, #0
	ldr	x10, [sp, #88]
	adrp	x9, _RNvNtCs00000000000_7pkcs1_c10rattle_std8AN_OCTET
	add	x9, x9, :lo12:_RNvNtCs00000000000_7pkcs1_c10rattle_std8AN_OCTET
	cset	w11, ne
	mov	w0, wzr
	csel	x12, x23, x9, ne
	strb	w11, [x10, #16]
	csel	x11, x20, xzr, ne
	stp	x19, x24, [x10]
	cmp	x8, #0
	stp	x12, x11, [x10, #24]
	ldr	x10, [sp, #96]
	ldr	x11, [sp, #80]
	csel	x8, x9, x8, eq
	stp	x29, x11, [x10, #32]
	ldp	x11, x9, [sp, #64]
	stp	x25, x26, [x10]
	stp	x9, x11, [x10, #48]
	stp	x27, x28, [x10, #16]
	ldp	x11, x9, [sp, #48]
	stp	x9, x11, [x10, #64]
	ldp	x11, x9, [sp, #32]
	stp	x9, x11, [x10, #80]
	ldp	x12, x11, [sp, #16]
	stp	x11, x12, [x10, #96]
	ldp	x13, x12, [sp]
	stp	x12, x13, [x10, #112]
	ldp	x12, x11, [sp, #128]
	csel	x11, xzr, x11, eq
	csel	x9, xzr, x12, eq
	str	x11, [x10, #128]
	ldr	x10, [sp, #104]
	stp	x8, x9, [x10]
	b	.LBB5_95
.Lfunc_end5:
	.size	pkcs1_c_private_key_info_decode, .Lfunc_end5-pkcs1_c_private_key_info_decode
	.cfi_endproc

	.section	.text.pkcs1_c_private_key_info_encode,"ax",@progbits
	.globl	pkcs1_c_private_key_info_encode
	.p2align	2
	.type	pkcs1_c_private_key_info_encode,@function
pkcs1_c_private_key_info_encode:
	.cfi_startproc
	hint	#34
	sub	sp, sp, #192
	.cfi_def_cfa_offset 192
	str	x30, [sp, #112]
	stp	x26, x25, [sp, #128]
	stp	x24, x23, [sp, #144]
	stp	x22, x21, [sp, #160]
	stp	x20, x19, [sp, #176]
	.cfi_offset w19, -8
	.cfi_offset w20, -16
	.cfi_offset w21, -24
	.cfi_offset w22, -32
	.cfi_offset w23, -40
	.cfi_offset w24, -48
	.cfi_offset w25, -56
	.cfi_offset w26, -64
	.cfi_offset w30, -80
	.cfi_remember_state
	ldr	x19, [x0, #8]
	lsr	x8, x19, #32
	cbz	x8, .LBB6_2
	mov	w8, #7
	b	.LBB6_98
.LBB6_2:
	ldr	x20, [x0]
	subs	x10, x19, #2
	b.lo	.LBB6_33
	mov	x8, x20
	ldrb	w9, [x8], #2
	cmp	w9, #48
	b.ne	.LBB6_33
	ldrsb	w9, [x20, #1]
	tbnz	w9, #31, .LBB6_16
	and	x9, x9, #0xff
	subs	x22, x10, x9
	b.lo	.LBB6_33
	cmp	x9, #2
	b.lo	.LBB6_95
.LBB6_7:
	mov	x11, x8
	ldrb	w10, [x11], #2
	cmp	w10, #2
	b.ne	.LBB6_95
	ldrsb	w12, [x8, #1]
	sub	x10, x9, #2
	tbnz	w12, #31, .LBB6_21
	and	x12, x12, #0xff
	subs	x10, x10, x12
	b.lo	.LBB6_95
	add	x8, x11, x12
	cbz	x12, .LBB6_97
.LBB6_11:
	cmp	x12, #1
	b.ne	.LBB6_26
	ldrsb	w9, [x11]
	tbnz	w9, #31, .LBB6_27
.LBB6_13:
	cbz	w9, .LBB6_42
	and	w9, w9, #0xff
	cmp	w9, #1
	b.ne	.LBB6_27
	mov	w21, #1
	b	.LBB6_43
.LBB6_16:
	and	w9, w9, #0xff
	cmp	w9, #130
	b.ne	.LBB6_28
	cmp	x10, #1
	b.ls	.LBB6_33
	ldrb	w8, [x20, #2]
	cbz	x8, .LBB6_33
	ldrb	w9, [x20, #3]
	orr	x9, x9, x8, lsl #8
	sub	x8, x19, #4
	subs	x22, x8, x9
	b.lo	.LBB6_33
	add	x8, x20, #4
	b	.LBB6_7
.LBB6_21:
	and	w12, w12, #0xff
	cmp	w12, #130
	b.ne	.LBB6_35
	cmp	x10, #1
	b.ls	.LBB6_95
	ldrb	w10, [x8, #2]
	cbz	x10, .LBB6_95
	ldrb	w11, [x8, #3]
	orr	x12, x11, x10, lsl #8
	sub	x10, x9, #4
	subs	x10, x10, x12
	b.lo	.LBB6_95
	add	x11, x8, #4
	add	x8, x11, x12
	cbnz	x12, .LBB6_11
	b	.LBB6_97
.LBB6_26:
	ldrb	w9, [x11]
	cbz	w9, .LBB6_40
.LBB6_27:
	mov	w8, #13
	b	.LBB6_98
.LBB6_28:
	cbz	x10, .LBB6_33
	cmp	w9, #129
	b.ne	.LBB6_33
	ldrsb	w8, [x8]
	tbz	w8, #31, .LBB6_33
	sub	x10, x19, #3
	and	x9, x8, #0xff
	subs	x22, x10, x9
	b.lo	.LBB6_33
	add	x8, x20, #3
	b	.LBB6_7
.LBB6_33:
	mov	x21, x0
	mov	x23, x2
	mov	x24, x3
	mov	x25, x1
	add	x0, sp, #32
	mov	x1, x20
	mov	x2, x19
	mov	w3, #48
	bl	_RNvNtNtNtCs00000000000_7pkcs1_c6proved8der_core5split14split_unlikely
	ldr	x8, [sp, #32]
	cbz	x8, .LBB6_231
	ldr	x9, [sp, #40]
	ldr	x22, [sp, #56]
	mov	x1, x25
	mov	x3, x24
	mov	x2, x23
	mov	x0, x21
	cmp	x9, #2
	b.hs	.LBB6_7
	b	.LBB6_95
.LBB6_35:
	cbz	x10, .LBB6_94
	cmp	w12, #129
	b.ne	.LBB6_95
	ldrsb	w10, [x11]
	tbz	w10, #31, .LBB6_95
	sub	x11, x9, #3
	and	x12, x10, #0xff
	subs	x10, x11, x12
	b.lo	.LBB6_95
	add	x11, x8, #3
	add	x8, x11, x12
	cbnz	x12, .LBB6_11
	b	.LBB6_97
.LBB6_40:
	ldrsb	w9, [x11, #1]
	tbnz	w9, #31, .LBB6_53
.LBB6_41:
	mov	w8, #4
	b	.LBB6_98
.LBB6_42:
	mov	w21, wzr
.LBB6_43:
	subs	x9, x10, #2
	b.lo	.LBB6_60
	mov	x11, x8
	ldrb	w12, [x11], #2
	cmp	w12, #2
	b.ne	.LBB6_60
	ldrsb	w12, [x8, #1]
	tbnz	w12, #31, .LBB6_48
	and	x12, x12, #0xff
	subs	x9, x9, x12
	b.lo	.LBB6_60
	add	x10, x11, x12
	cbnz	x12, .LBB6_62
	b	.LBB6_97
.LBB6_48:
	and	w12, w12, #0xff
	cmp	w12, #130
	b.ne	.LBB6_54
	cmp	x9, #1
	b.ls	.LBB6_60
	ldrb	w9, [x8, #2]
	cbz	x9, .LBB6_60
	ldrb	w11, [x8, #3]
	orr	x12, x11, x9, lsl #8
	sub	x9, x10, #4
	subs	x9, x9, x12
	b.lo	.LBB6_60
	add	x11, x8, #4
	b	.LBB6_59
.LBB6_53:
	sub	x11, x12, #3
	cmn	x11, #2
	b.hs	.LBB6_13
	b	.LBB6_27
.LBB6_54:
	cbz	x9, .LBB6_60
	cmp	w12, #129
	b.ne	.LBB6_60
	ldrsb	w9, [x11]
	tbz	w9, #31, .LBB6_60
	sub	x11, x10, #3
	and	x12, x9, #0xff
	subs	x9, x11, x12
	b.lo	.LBB6_60
	add	x11, x8, #3
.LBB6_59:
	add	x10, x11, x12
	b	.LBB6_62
.LBB6_60:
	mov	x23, x0
	mov	x24, x2
	mov	x25, x3
	mov	x26, x1
	add	x0, sp, #32
	mov	x1, x8
	mov	x2, x10
	mov	w3, #2
	bl	_RNvNtNtNtCs00000000000_7pkcs1_c6proved8der_core5split14split_unlikely
	ldr	x11, [sp, #32]
	cbz	x11, .LBB6_231
	ldp	x12, x10, [sp, #40]
	mov	x1, x26
	ldr	x9, [sp, #56]
	mov	x3, x25
	mov	x2, x24
	mov	x0, x23
	cbz	x12, .LBB6_97
.LBB6_62:
	ldrsb	w8, [x11]
	cbz	w8, .LBB6_64
	tbz	w8, #31, .LBB6_66
	b	.LBB6_27
.LBB6_64:
	cmp	x12, #1
	b.eq	.LBB6_66
	ldrsb	w8, [x11, #1]
	tbz	w8, #31, .LBB6_41
.LBB6_66:
	subs	x8, x9, #2
	b.lo	.LBB6_82
	mov	x11, x10
	ldrb	w12, [x11], #2
	cmp	w12, #2
	b.ne	.LBB6_82
	ldrsb	w12, [x10, #1]
	tbnz	w12, #31, .LBB6_71
	and	x12, x12, #0xff
	subs	x8, x8, x12
	b.lo	.LBB6_82
	add	x10, x11, x12
	b	.LBB6_84
.LBB6_71:
	and	w12, w12, #0xff
	cmp	w12, #130
	b.ne	.LBB6_76
	cmp	x8, #1
	b.ls	.LBB6_82
	ldrb	w8, [x10, #2]
	cbz	x8, .LBB6_82
	ldrb	w11, [x10, #3]
	orr	x12, x11, x8, lsl #8
	sub	x8, x9, #4
	subs	x8, x8, x12
	b.lo	.LBB6_82
	add	x11, x10, #4
	b	.LBB6_81
.LBB6_76:
	cbz	x8, .LBB6_82
	cmp	w12, #129
	b.ne	.LBB6_82
	ldrsb	w8, [x11]
	tbz	w8, #31, .LBB6_82
	sub	x11, x9, #3
	and	x12, x8, #0xff
	subs	x8, x11, x12
	b.lo	.LBB6_82
	add	x11, x10, #3
.LBB6_81:
	add	x10, x11, x12
	b	.LBB6_85
.LBB6_82:
	mov	x23, x0
	mov	x24, x2
	mov	x25, x3
	mov	x26, x1
	add	x0, sp, #32
	mov	x1, x10
	mov	x2, x9
	mov	w3, #2
	bl	_RNvNtNtNtCs00000000000_7pkcs1_c6proved8der_core5split14split_unlikely
	ldr	x11, [sp, #32]
	cbz	x11, .LBB6_231
	ldp	x12, x10, [sp, #40]
	mov	x1, x26
	ldr	x8, [sp, #56]
	mov	x3, x25
	mov	x2, x24
	mov	x0, x23
.LBB6_84:
	cbz	x12, .LBB6_97
.LBB6_85:
	ldrsb	w9, [x11]
	cbz	w9, .LBB6_87
	tbz	w9, #31, .LBB6_89
	b	.LBB6_27
.LBB6_87:
	cmp	x12, #1
	b.eq	.LBB6_89
	ldrsb	w9, [x11, #1]
	tbz	w9, #31, .LBB6_41
.LBB6_89:
	subs	x9, x8, #2
	b.lo	.LBB6_111
	mov	x11, x10
	ldrb	w12, [x11], #2
	cmp	w12, #2
	b.ne	.LBB6_111
	ldrsb	w12, [x10, #1]
	tbnz	w12, #31, .LBB6_100
	and	x12, x12, #0xff
	subs	x9, x9, x12
	b.lo	.LBB6_111
	add	x10, x11, x12
	b	.LBB6_113
.LBB6_94:
	mov	w9, #2
.LBB6_95:
	mov	x21, x0
	mov	x23, x2
	mov	x24, x3
	mov	x25, x1
	add	x0, sp, #32
	mov	x1, x8
	mov	x2, x9
	mov	w3, #2
	bl	_RNvNtNtNtCs00000000000_7pkcs1_c6proved8der_core5split14split_unlikely
	ldr	x11, [sp, #32]
	cbz	x11, .LBB6_231
	ldp	x12, x8, [sp, #40]
	mov	x1, x25
	ldr	x10, [sp, #56]
	mov	x3, x24
	mov	x2, x23
	mov	x0, x21
	cbnz	x12, .LBB6_11
.LBB6_97:
	mov	w8, #3
.LBB6_98:
	and	w8, w8, #0xff
	add	w0, w8, #1
.LBB6_99:
	ldp	x20, x19, [sp, #176]
	ldr	x30, [sp, #112]
	ldp	x22, x21, [sp, #160]
	ldp	x24, x23, [sp, #144]
	ldp	x26, x25, [sp, #128]
	add	sp, sp, #192
	.cfi_def_cfa_offset 0
	.cfi_restore w19
	.cfi_restore w20
	.cfi_restore w21
	.cfi_restore w22
	.cfi_restore w23
	.cfi_restore w24
	.cfi_restore w25
	.cfi_restore w26
	.cfi_restore w30
	ret
.LBB6_100:
	.cfi_restore_state
	and	w12, w12, #0xff
	cmp	w12, #130
	b.ne	.LBB6_105
	cmp	x9, #1
	b.ls	.LBB6_111
	ldrb	w9, [x10, #2]
	cbz	x9, .LBB6_111
	ldrb	w11, [x10, #3]
	orr	x12, x11, x9, lsl #8
	sub	x9, x8, #4
	subs	x9, x9, x12
	b.lo	.LBB6_111
	add	x11, x10, #4
	b	.LBB6_110
.LBB6_105:
	cbz	x9, .LBB6_111
	cmp	w12, #129
	b.ne	.LBB6_111
	ldrsb	w9, [x11]
	tbz	w9, #31, .LBB6_111
	sub	x11, x8, #3
	and	x12, x9, #0xff
	subs	x9, x11, x12
	b.lo	.LBB6_111
	add	x11, x10, #3
.LBB6_110:
	add	x10, x11, x12
	b	.LBB6_114
.LBB6_111:
	mov	x23, x0
	mov	x24, x2
	mov	x25, x3
	mov	x26, x1
	add	x0, sp, #32
	mov	x1, x10
	mov	x2, x8
	mov	w3, #2
	bl	_RNvNtNtNtCs00000000000_7pkcs1_c6proved8der_core5split14split_unlikely
	ldr	x11, [sp, #32]
	cbz	x11, .LBB6_231
	ldp	x12, x10, [sp, #40]
	mov	x1, x26
	ldr	x9, [sp, #56]
	mov	x3, x25
	mov	x2, x24
	mov	x0, x23
.LBB6_113:
	cbz	x12, .LBB6_97
.LBB6_114:
	ldrsb	w8, [x11]
	cbz	w8, .LBB6_116
	tbz	w8, #31, .LBB6_118
	b	.LBB6_27
.LBB6_116:
	cmp	x12, #1
	b.eq	.LBB6_118
	ldrsb	w8, [x11, #1]
	tbz	w8, #31, .LBB6_41
.LBB6_118:
	subs	x8, x9, #2
	b.lo	.LBB6_134
	mov	x11, x10
	ldrb	w12, [x11], #2
	cmp	w12, #2
	b.ne	.LBB6_134
	ldrsb	w12, [x10, #1]
	tbnz	w12, #31, .LBB6_123
	and	x12, x12, #0xff
	subs	x8, x8, x12
	b.lo	.LBB6_134
	add	x10, x11, x12
	b	.LBB6_136
.LBB6_123:
	and	w12, w12, #0xff
	cmp	w12, #130
	b.ne	.LBB6_128
	cmp	x8, #1
	b.ls	.LBB6_134
	ldrb	w8, [x10, #2]
	cbz	x8, .LBB6_134
	ldrb	w11, [x10, #3]
	orr	x12, x11, x8, lsl #8
	sub	x8, x9, #4
	subs	x8, x8, x12
	b.lo	.LBB6_134
	add	x11, x10, #4
	b	.LBB6_133
.LBB6_128:
	cbz	x8, .LBB6_134
	cmp	w12, #129
	b.ne	.LBB6_134
	ldrsb	w8, [x11]
	tbz	w8, #31, .LBB6_134
	sub	x11, x9, #3
	and	x12, x8, #0xff
	subs	x8, x11, x12
	b.lo	.LBB6_134
	add	x11, x10, #3
.LBB6_133:
	add	x10, x11, x12
	b	.LBB6_137
.LBB6_134:
	mov	x23, x0
	mov	x24, x2
	mov	x25, x3
	mov	x26, x1
	add	x0, sp, #32
	mov	x1, x10
	mov	x2, x9
	mov	w3, #2
	bl	_RNvNtNtNtCs00000000000_7pkcs1_c6proved8der_core5split14split_unlikely
	ldr	x11, [sp, #32]
	cbz	x11, .LBB6_231
	ldp	x12, x10, [sp, #40]
	mov	x1, x26
	ldr	x8, [sp, #56]
	mov	x3, x25
	mov	x2, x24
	mov	x0, x23
.LBB6_136:
	cbz	x12, .LBB6_97
.LBB6_137:
	ldrsb	w9, [x11]
	cbz	w9, .LBB6_139
	tbz	w9, #31, .LBB6_141
	b	.LBB6_27
.LBB6_139:
	cmp	x12, #1
	b.eq	.LBB6_141
	ldrsb	w9, [x11, #1]
	tbz	w9, #31, .LBB6_41
.LBB6_141:
	subs	x9, x8, #2
	b.lo	.LBB6_157
	mov	x11, x10
	ldrb	w12, [x11], #2
	cmp	w12, #2
	b.ne	.LBB6_157
	ldrsb	w12, [x10, #1]
	tbnz	w12, #31, .LBB6_146
	and	x12, x12, #0xff
	subs	x9, x9, x12
	b.lo	.LBB6_157
	add	x10, x11, x12
	b	.LBB6_159
.LBB6_146:
	and	w12, w12, #0xff
	cmp	w12, #130
	b.ne	.LBB6_151
	cmp	x9, #1
	b.ls	.LBB6_157
	ldrb	w9, [x10, #2]
	cbz	x9, .LBB6_157
	ldrb	w11, [x10, #3]
	orr	x12, x11, x9, lsl #8
	sub	x9, x8, #4
	subs	x9, x9, x12
	b.lo	.LBB6_157
	add	x11, x10, #4
	b	.LBB6_156
.LBB6_151:
	cbz	x9, .LBB6_157
	cmp	w12, #129
	b.ne	.LBB6_157
	ldrsb	w9, [x11]
	tbz	w9, #31, .LBB6_157
	sub	x11, x8, #3
	and	x12, x9, #0xff
	subs	x9, x11, x12
	b.lo	.LBB6_157
	add	x11, x10, #3
.LBB6_156:
	add	x10, x11, x12
	b	.LBB6_160
.LBB6_157:
	mov	x23, x0
	mov	x24, x2
	mov	x25, x3
	mov	x26, x1
	add	x0, sp, #32
	mov	x1, x10
	mov	x2, x8
	mov	w3, #2
	bl	_RNvNtNtNtCs00000000000_7pkcs1_c6proved8der_core5split14split_unlikely
	ldr	x11, [sp, #32]
	cbz	x11, .LBB6_231
	ldp	x12, x10, [sp, #40]
	mov	x1, x26
	ldr	x9, [sp, #56]
	mov	x3, x25
	mov	x2, x24
	mov	x0, x23
.LBB6_159:
	cbz	x12, .LBB6_97
.LBB6_160:
	ldrsb	w8, [x11]
	cbz	w8, .LBB6_162
	tbz	w8, #31, .LBB6_164
	b	.LBB6_27
.LBB6_162:
	cmp	x12, #1
	b.eq	.LBB6_164
	ldrsb	w8, [x11, #1]
	tbz	w8, #31, .LBB6_41
.LBB6_164:
	subs	x8, x9, #2
	b.lo	.LBB6_180
	mov	x11, x10
	ldrb	w12, [x11], #2
	cmp	w12, #2
	b.ne	.LBB6_180
	ldrsb	w12, [x10, #1]
	tbnz	w12, #31, .LBB6_169
	and	x12, x12, #0xff
	subs	x8, x8, x12
	b.lo	.LBB6_180
	add	x10, x11, x12
	b	.LBB6_182
.LBB6_169:
	and	w12, w12, #0xff
	cmp	w12, #130
	b.ne	.LBB6_174
	cmp	x8, #1
	b.ls	.LBB6_180
	ldrb	w8, [x10, #2]
	cbz	x8, .LBB6_180
	ldrb	w11, [x10, #3]
	orr	x12, x11, x8, lsl #8
	sub	x8, x9, #4
	subs	x8, x8, x12
	b.lo	.LBB6_180
	add	x11, x10, #4
	b	.LBB6_179
.LBB6_174:
	cbz	x8, .LBB6_180
	cmp	w12, #129
	b.ne	.LBB6_180
	ldrsb	w8, [x11]
	tbz	w8, #31, .LBB6_180
	sub	x11, x9, #3
	and	x12, x8, #0xff
	subs	x8, x11, x12
	b.lo	.LBB6_180
	add	x11, x10, #3
.LBB6_179:
	add	x10, x11, x12
	b	.LBB6_183
.LBB6_180:
	mov	x23, x0
	mov	x24, x2
	mov	x25, x3
	mov	x26, x1
	add	x0, sp, #32
	mov	x1, x10
	mov	x2, x9
	mov	w3, #2
	bl	_RNvNtNtNtCs00000000000_7pkcs1_c6proved8der_core5split14split_unlikely
	ldr	x11, [sp, #32]
	cbz	x11, .LBB6_231
	ldp	x12, x10, [sp, #40]
	mov	x1, x26
	ldr	x8, [sp, #56]
	mov	x3, x25
	mov	x2, x24
	mov	x0, x23
.LBB6_182:
	cbz	x12, .LBB6_97
.LBB6_183:
	ldrsb	w9, [x11]
	cbz	w9, .LBB6_185
	tbz	w9, #31, .LBB6_187
	b	.LBB6_27
.LBB6_185:
	cmp	x12, #1
	b.eq	.LBB6_187
	ldrsb	w9, [x11, #1]
	tbz	w9, #31, .LBB6_41
.LBB6_187:
	subs	x9, x8, #2
	b.lo	.LBB6_203
	mov	x11, x10
	ldrb	w12, [x11], #2
	cmp	w12, #2
	b.ne	.LBB6_203
	ldrsb	w12, [x10, #1]
	tbnz	w12, #31, .LBB6_192
	and	x12, x12, #0xff
	subs	x9, x9, x12
	b.lo	.LBB6_203
	add	x8, x11, x12
	b	.LBB6_205
.LBB6_192:
	and	w12, w12, #0xff
	cmp	w12, #130
	b.ne	.LBB6_197
	cmp	x9, #1
	b.ls	.LBB6_203
	ldrb	w9, [x10, #2]
	cbz	x9, .LBB6_203
	ldrb	w11, [x10, #3]
	orr	x12, x11, x9, lsl #8
	sub	x9, x8, #4
	subs	x9, x9, x12
	b.lo	.LBB6_203
	add	x11, x10, #4
	b	.LBB6_202
.LBB6_197:
	cbz	x9, .LBB6_203
	cmp	w12, #129
	b.ne	.LBB6_203
	ldrsb	w9, [x11]
	tbz	w9, #31, .LBB6_203
	sub	x11, x8, #3
	and	x12, x9, #0xff
	subs	x9, x11, x12
	b.lo	.LBB6_203
	add	x11, x10, #3
.LBB6_202:
	add	x8, x11, x12
	b	.LBB6_206
.LBB6_203:
	mov	x23, x0
	mov	x24, x2
	mov	x25, x3
	mov	x26, x1
	add	x0, sp, #32
	mov	x1, x10
	mov	x2, x8
	mov	w3, #2
	bl	_RNvNtNtNtCs00000000000_7pkcs1_c6proved8der_core5split14split_unlikely
	ldr	x11, [sp, #32]
	cbz	x11, .LBB6_231
	ldp	x12, x8, [sp, #40]
	mov	x1, x26
	ldr	x9, [sp, #56]
	mov	x3, x25
	mov	x2, x24
	mov	x0, x23
.LBB6_205:
	cbz	x12, .LBB6_97
.LBB6_206:
	ldrsb	w10, [x11]
	cbz	w10, .LBB6_208
	tbz	w10, #31, .LBB6_210
	b	.LBB6_27
.LBB6_208:
	cmp	x12, #1
	b.eq	.LBB6_210
	ldrsb	w10, [x11, #1]
	tbz	w10, #31, .LBB6_41
.LBB6_210:
	subs	x10, x9, #2
	str	x1, [sp, #120]
	stp	x2, x3, [sp, #8]
	str	x0, [sp, #24]
	b.lo	.LBB6_226
	mov	x11, x8
	ldrb	w12, [x11], #2
	cmp	w12, #2
	b.ne	.LBB6_226
	ldrsb	w12, [x8, #1]
	tbnz	w12, #31, .LBB6_215
	and	x12, x12, #0xff
	subs	x10, x10, x12
	b.lo	.LBB6_226
	add	x1, x11, x12
	b	.LBB6_228
.LBB6_215:
	and	w12, w12, #0xff
	cmp	w12, #130
	b.ne	.LBB6_220
	cmp	x10, #1
	b.ls	.LBB6_226
	ldrb	w10, [x8, #2]
	cbz	x10, .LBB6_226
	ldrb	w11, [x8, #3]
	orr	x12, x11, x10, lsl #8
	sub	x10, x9, #4
	subs	x10, x10, x12
	b.lo	.LBB6_226
	add	x11, x8, #4
	b	.LBB6_225
.LBB6_220:
	cbz	x10, .LBB6_226
	cmp	w12, #129
	b.ne	.LBB6_226
	ldrsb	w10, [x11]
	tbz	w10, #31, .LBB6_226
	sub	x11, x9, #3
	and	x12, x10, #0xff
	subs	x10, x11, x12
	b.lo	.LBB6_226
	add	x11, x8, #3
.LBB6_225:
	add	x1, x11, x12
	b	.LBB6_229
.LBB6_226:
	add	x0, sp, #32
	mov	x1, x8
	mov	x2, x9
	mov	w3, #2
	bl	_RNvNtNtNtCs00000000000_7pkcs1_c6proved8der_core5split14split_unlikely
	ldr	x11, [sp, #32]
	cbz	x11, .LBB6_231
	ldp	x12, x1, [sp, #40]
	ldr	x10, [sp, #56]
.LBB6_228:
	cbz	x12, .LBB6_97
.LBB6_229:
	ldrsb	w8, [x11]
	cbz	w8, .LBB6_238
	tbz	w8, #31, .LBB6_240
	b	.LBB6_27
.LBB6_231:
	ldrb	w8, [sp, #42]
	ldrh	w9, [sp, #40]
.LBB6_232:
	orr	w8, w9, w8, lsl #16
	sub	w9, w8, #17
	and	w10, w9, #0xff
	and	x9, x9, #0xff
	cmp	w10, #3
	csinc	x9, xzr, x9, hs
	cmp	x9, #1
	b.gt	.LBB6_235
	cbz	x9, .LBB6_98
	mov	w0, #18
	b	.LBB6_99
.LBB6_235:
	cmp	x9, #2
	b.ne	.LBB6_237
	mov	w0, #19
	b	.LBB6_99
.LBB6_237:
	mov	w0, #20
	b	.LBB6_99
.LBB6_238:
	cmp	x12, #1
	b.eq	.LBB6_240
	ldrsb	w8, [x11, #1]
	tbz	w8, #31, .LBB6_41
.LBB6_240:
	cbz	x10, .LBB6_242
	add	x0, sp, #32
	mov	x2, x10
	mov	w3, w21
	b	.LBB6_244
.LBB6_242:
	cbz	w21, .LBB6_246
	add	x0, sp, #32
	mov	x2, xzr
	mov	w3, #1
.LBB6_244:
	bl	_RNvNtNtNtCs00000000000_7pkcs1_c6proved5pkcs110viewed_key9read_list
	ldrb	w8, [sp, #32]
	cmp	w8, #1
	b.ne	.LBB6_246
	ldrb	w8, [sp, #35]
	ldurh	w9, [sp, #33]
	b	.LBB6_232
.LBB6_246:
	cbz	x22, .LBB6_248
	mov	w8, #12
	b	.LBB6_98
.LBB6_248:
	adrp	x8, .Lanon.0
	add	x8, x8, :lo12:.Lanon.0
	mov	w10, #1
	ldr	x8, [x8]
	strb	w10, [sp, #80]
	ldr	x10, [sp, #24]
	stur	xzr, [sp, #81]
	mov	x9, xzr
	mov	x11, xzr
	stur	xzr, [sp, #97]
	ldp	x1, x2, [x10, #24]
	stur	xzr, [sp, #89]
	str	x8, [sp, #72]
	ldrb	w8, [x10, #16]
	stur	xzr, [sp, #103]
	ldur	q0, [sp, #72]
	ldur	q1, [sp, #88]
	cmp	w8, #1
	stp	q0, q1, [sp, #32]
	stur	x11, [sp, #63]
	b.ne	.LBB6_258
	cmp	x2, #128
	b.hs	.LBB6_251
	add	x9, x2, #2
	b	.LBB6_258
.LBB6_251:
	cmp	x2, #256
	b.hs	.LBB6_253
	add	x9, x2, #3
	b	.LBB6_258
.LBB6_253:
	cmp	x2, #16, lsl #12
	b.hs	.LBB6_255
	add	x9, x2, #4
	b	.LBB6_258
.LBB6_255:
	lsr	x9, x2, #24
	cbnz	x9, .LBB6_257
	add	x9, x2, #5
	b	.LBB6_258
.LBB6_257:
	adds	x9, x2, #6
	csinv	x9, x9, xzr, lo
.LBB6_258:
	adds	x10, x9, x19
	csinv	x10, x10, xzr, lo
	subs	x10, x10, x9
	csel	x10, xzr, x10, lo
	cmp	x10, #128
	b.hs	.LBB6_260
	add	x10, x10, #2
	b	.LBB6_267
.LBB6_260:
	cmp	x10, #256
	b.hs	.LBB6_262
	add	x10, x10, #3
	b	.LBB6_267
.LBB6_262:
	cmp	x10, #16, lsl #12
	b.hs	.LBB6_264
	add	x10, x10, #4
	b	.LBB6_267
.LBB6_264:
	lsr	x11, x10, #24
	cbnz	x11, .LBB6_266
	add	x10, x10, #5
	b	.LBB6_267
.LBB6_266:
	adds	x10, x10, #6
	csinv	x10, x10, xzr, lo
.LBB6_267:
	adds	x9, x9, x10
	csinv	x9, x9, xzr, lo
	adds	x10, x9, #2
	csinv	x10, x10, xzr, lo
	adds	x11, x9, #11
	csinv	x11, x11, xzr, lo
	subs	x11, x11, x10
	csel	x11, xzr, x11, lo
	cmp	x11, #128
	b.hs	.LBB6_269
	add	x11, x11, #2
	b	.LBB6_276
.LBB6_269:
	cmp	x11, #256
	b.hs	.LBB6_271
	add	x11, x11, #3
	b	.LBB6_276
.LBB6_271:
	cmp	x11, #16, lsl #12
	b.hs	.LBB6_273
	add	x11, x11, #4
	b	.LBB6_276
.LBB6_273:
	lsr	x12, x11, #24
	cbnz	x12, .LBB6_275
	add	x11, x11, #5
	b	.LBB6_276
.LBB6_275:
	adds	x11, x11, #6
	csinv	x11, x11, xzr, lo
.LBB6_276:
	adds	x10, x10, x11
	csinv	x10, x10, xzr, lo
	subs	x10, x10, x9
	csel	x10, xzr, x10, lo
	cmp	x10, #128
	b.hs	.LBB6_278
	add	x10, x10, #2
	b	.LBB6_285
.LBB6_278:
	cmp	x10, #256
	b.hs	.LBB6_280
	add	x10, x10, #3
	b	.LBB6_285
.LBB6_280:
	cmp	x10, #16, lsl #12
	b.hs	.LBB6_282
	add	x10, x10, #4
	b	.LBB6_285
.LBB6_282:
	lsr	x11, x10, #24
	cbnz	x11, .LBB6_284
	add	x10, x10, #5
	b	.LBB6_285
.LBB6_284:
	adds	x10, x10, #6
	csinv	x10, x10, xzr, lo
.LBB6_285:
	adds	x9, x9, x10
	csinv	x9, x9, xzr, lo
	adds	x10, x9, #1
	csinv	x10, x10, xzr, lo
	subs	x10, x10, x9
	csel	x10, xzr, x10, lo
	cmp	x10, #128
	b.hs	.LBB6_287
	add	x10, x10, #2
	b	.LBB6_294
.LBB6_287:
	cmp	x10, #256
	b.hs	.LBB6_289
	add	x10, x10, #3
	b	.LBB6_294
.LBB6_289:
	cmp	x10, #16, lsl #12
	b.hs	.LBB6_291
	add	x10, x10, #4
	b	.LBB6_294
.LBB6_291:
	lsr	x11, x10, #24
	cbnz	x11, .LBB6_293
	add	x10, x10, #5
	b	.LBB6_294
.LBB6_293:
	adds	x10, x10, #6
	csinv	x10, x10, xzr, lo
.LBB6_294:
	adds	x9, x9, x10
	csinv	x9, x9, xzr, lo
	cmp	x9, #128
	b.hs	.LBB6_296
	add	x21, x9, #2
	b	.LBB6_304
.LBB6_296:
	cmp	x9, #256
	b.hs	.LBB6_298
	add	x21, x9, #3
	b	.LBB6_304
.LBB6_298:
	cmp	x9, #16, lsl #12
	b.hs	.LBB6_300
	add	x21, x9, #4
	b	.LBB6_304
.LBB6_300:
	lsr	x10, x9, #24
	cbnz	x10, .LBB6_302
	add	x21, x9, #5
	b	.LBB6_304
.LBB6_302:
	adds	x9, x9, #6
	csinv	x21, x9, xzr, lo
	lsr	x9, x21, #32
	cbz	x9, .LBB6_304
	mov	w0, #8
	b	.LBB6_99
.LBB6_304:
	ldp	x10, x9, [sp, #8]
	cmp	x21, x10
	str	x21, [x9]
	b.ls	.LBB6_306
	mov	w0, #15
	b	.LBB6_99
.LBB6_306:
	mov	x22, x21
	cbz	w8, .LBB6_328
	subs	x23, x21, x2
	mov	x22, x21
	b.lo	.LBB6_309
	ldr	x8, [sp, #120]
	add	x0, x8, x23
	bl	memcpy
	mov	x22, x23
.LBB6_309:
	sub	x8, x21, x22
	cmp	w8, #128
	b.hs	.LBB6_313
	subs	x9, x22, #2
	b.lo	.LBB6_328
	cmp	x21, x22
	b.lo	.LBB6_419
	mov	w10, #160
	mov	x22, x9
	orr	w10, w10, w8, lsl #8
	ldr	x8, [sp, #120]
	strh	w10, [x8, x9]
	b	.LBB6_328
.LBB6_313:
	cmp	w8, #256
	b.hs	.LBB6_317
	subs	x9, x22, #3
	b.lo	.LBB6_328
	cmp	x21, x22
	b.lo	.LBB6_419
	ldr	x10, [sp, #120]
	mov	w11, #33184
	mov	x22, x9
	add	x10, x10, x9
	strh	w11, [x10]
	strb	w8, [x10, #2]
	b	.LBB6_328
.LBB6_317:
	cmp	w8, #16, lsl #12
	b.hs	.LBB6_321
	subs	x9, x22, #4
	b.lo	.LBB6_328
	cmp	x21, x22
	b.lo	.LBB6_419
	mov	w10, #-1602093056
	mov	x22, x9
	orr	w8, w8, w10
	rev	w10, w8
	ldr	x8, [sp, #120]
	str	w10, [x8, x9]
	b	.LBB6_328
.LBB6_321:
	lsr	w9, w8, #24
	cbnz	w9, .LBB6_325
	subs	x9, x22, #5
	b.lo	.LBB6_328
	cmp	x21, x22
	b.lo	.LBB6_419
	ldr	x10, [sp, #120]
	lsr	x11, x8, #16
	lsr	x13, x8, #8
	mov	w12, #33696
	mov	x22, x9
	add	x10, x10, x9
	strh	w12, [x10]
	strb	w11, [x10, #2]
	strb	w13, [x10, #3]
	strb	w8, [x10, #4]
	b	.LBB6_328
.LBB6_325:
	subs	x9, x22, #6
	b.lo	.LBB6_328
	cmp	x21, x22
	b.lo	.LBB6_419
	ldr	x10, [sp, #120]
	mov	w12, #33952
	lsr	x11, x8, #24
	lsr	x13, x8, #16
	mov	x22, x9
	add	x10, x10, x9
	strh	w12, [x10]
	lsr	x12, x8, #8
	strb	w11, [x10, #2]
	strb	w13, [x10, #3]
	strb	w12, [x10, #4]
	strb	w8, [x10, #5]
.LBB6_328:
	subs	x23, x22, x19
	mov	x8, x22
	b.lo	.LBB6_331
	cmp	x22, x21
	b.hi	.LBB6_419
	ldr	x8, [sp, #120]
	mov	x1, x20
	mov	x2, x19
	add	x0, x8, x23
	bl	memcpy
	mov	x8, x23
.LBB6_331:
	sub	x9, x22, x8
	cmp	w9, #128
	b.hs	.LBB6_335
	subs	x10, x8, #2
	b.lo	.LBB6_350
	cmp	x8, x21
	b.hi	.LBB6_419
	mov	w8, #4
	orr	w9, w8, w9, lsl #8
	ldr	x8, [sp, #120]
	strh	w9, [x8, x10]
	mov	x8, x10
	b	.LBB6_350
.LBB6_335:
	cmp	w9, #256
	b.hs	.LBB6_339
	subs	x10, x8, #3
	b.lo	.LBB6_350
	cmp	x8, x21
	b.hi	.LBB6_419
	ldr	x8, [sp, #120]
	mov	w11, #33028
	add	x8, x8, x10
	strh	w11, [x8]
	strb	w9, [x8, #2]
	mov	x8, x10
	b	.LBB6_350
.LBB6_339:
	cmp	w9, #16, lsl #12
	b.hs	.LBB6_343
	subs	x10, x8, #4
	b.lo	.LBB6_350
	cmp	x8, x21
	b.hi	.LBB6_419
	mov	w8, #75628544
	orr	w8, w9, w8
	rev	w9, w8
	ldr	x8, [sp, #120]
	str	w9, [x8, x10]
	mov	x8, x10
	b	.LBB6_350
.LBB6_343:
	lsr	w10, w9, #24
	cbnz	w10, .LBB6_347
	subs	x10, x8, #5
	b.lo	.LBB6_350
	cmp	x8, x21
	b.hi	.LBB6_419
	ldr	x8, [sp, #120]
	lsr	x11, x9, #16
	lsr	x13, x9, #8
	add	x12, x8, x10
	mov	w8, #33540
	strh	w8, [x12]
	mov	x8, x10
	strb	w11, [x12, #2]
	strb	w13, [x12, #3]
	strb	w9, [x12, #4]
	b	.LBB6_350
.LBB6_347:
	subs	x10, x8, #6
	b.lo	.LBB6_350
	cmp	x8, x21
	b.hi	.LBB6_419
	ldr	x8, [sp, #120]
	lsr	x11, x9, #24
	lsr	x13, x9, #16
	add	x12, x8, x10
	mov	w8, #33796
	strh	w8, [x12]
	lsr	x8, x9, #8
	strb	w11, [x12, #2]
	strb	w13, [x12, #3]
	strb	w8, [x12, #4]
	mov	x8, x10
	strb	w9, [x12, #5]
.LBB6_350:
	cmp	x8, x21
	b.hi	.LBB6_419
	subs	x10, x8, #2
	mov	x11, x8
	mov	x9, x8
	b.lo	.LBB6_356
	ldr	x9, [sp, #120]
	cmp	x10, #9
	mov	w11, #5
	strh	w11, [x9, x10]
	b.hs	.LBB6_354
	mov	x11, x10
	mov	x9, x10
	b	.LBB6_356
.LBB6_354:
	cmp	x10, x21
	b.hi	.LBB6_419
	ldr	x11, [sp, #120]
	sub	x9, x8, #11
	ldr	x12, [sp, #32]
	ldrb	w13, [sp, #40]
	add	x11, x11, x9
	str	x12, [x11]
	strb	w13, [x11, #8]
	mov	x11, x10
.LBB6_356:
	sub	x10, x11, x9
	cmp	w10, #128
	b.hs	.LBB6_360
	subs	x11, x9, #2
	b.lo	.LBB6_375
	cmp	x9, x21
	b.hi	.LBB6_419
	mov	w9, #6
	orr	w10, w9, w10, lsl #8
	ldr	x9, [sp, #120]
	strh	w10, [x9, x11]
	mov	x9, x11
	b	.LBB6_375
.LBB6_360:
	cmp	w10, #256
	b.hs	.LBB6_364
	subs	x11, x9, #3
	b.lo	.LBB6_375
	cmp	x9, x21
	b.hi	.LBB6_419
	ldr	x9, [sp, #120]
	mov	w12, #33030
	add	x9, x9, x11
	strh	w12, [x9]
	strb	w10, [x9, #2]
	mov	x9, x11
	b	.LBB6_375
.LBB6_364:
	cmp	w10, #16, lsl #12
	b.hs	.LBB6_368
	subs	x11, x9, #4
	b.lo	.LBB6_375
	cmp	x9, x21
	b.hi	.LBB6_419
	mov	w9, #109182976
	orr	w9, w10, w9
	rev	w10, w9
	ldr	x9, [sp, #120]
	str	w10, [x9, x11]
	mov	x9, x11
	b	.LBB6_375
.LBB6_368:
	lsr	w11, w10, #24
	cbnz	w11, .LBB6_372
	subs	x11, x9, #5
	b.lo	.LBB6_375
	cmp	x9, x21
	b.hi	.LBB6_419
	ldr	x9, [sp, #120]
	lsr	x12, x10, #16
	lsr	x14, x10, #8
	add	x13, x9, x11
	mov	w9, #33542
	strh	w9, [x13]
	mov	x9, x11
	strb	w12, [x13, #2]
	strb	w14, [x13, #3]
	strb	w10, [x13, #4]
	b	.LBB6_375
.LBB6_372:
	subs	x11, x9, #6
	b.lo	.LBB6_375
	cmp	x9, x21
	b.hi	.LBB6_419
	ldr	x9, [sp, #120]
	lsr	x12, x10, #24
	lsr	x14, x10, #16
	add	x13, x9, x11
	mov	w9, #33798
	strh	w9, [x13]
	lsr	x9, x10, #8
	strb	w12, [x13, #2]
	strb	w14, [x13, #3]
	strb	w9, [x13, #4]
	mov	x9, x11
	strb	w10, [x13, #5]
.LBB6_375:
	sub	x8, x8, x9
	cmp	w8, #128
	b.hs	.LBB6_379
	subs	x10, x9, #2
	b.lo	.LBB6_394
	cmp	x9, x21
	b.hi	.LBB6_419
	mov	w9, #48
	orr	w9, w9, w8, lsl #8
	ldr	x8, [sp, #120]
	strh	w9, [x8, x10]
	mov	x9, x10
	b	.LBB6_394
.LBB6_379:
	cmp	w8, #256
	b.hs	.LBB6_383
	subs	x10, x9, #3
	b.lo	.LBB6_394
	cmp	x9, x21
	b.hi	.LBB6_419
	ldr	x9, [sp, #120]
	mov	w11, #33072
	add	x9, x9, x10
	strh	w11, [x9]
	strb	w8, [x9, #2]
	mov	x9, x10
	b	.LBB6_394
.LBB6_383:
	cmp	w8, #16, lsl #12
	b.hs	.LBB6_387
	subs	x10, x9, #4
	b.lo	.LBB6_394
	cmp	x9, x21
	b.hi	.LBB6_419
	mov	w9, #813826048
	orr	w8, w8, w9
	rev	w9, w8
	ldr	x8, [sp, #120]
	str	w9, [x8, x10]
	mov	x9, x10
	b	.LBB6_394
.LBB6_387:
	lsr	w10, w8, #24
	cbnz	w10, .LBB6_391
	subs	x10, x9, #5
	b.lo	.LBB6_394
	cmp	x9, x21
	b.hi	.LBB6_419
	ldr	x9, [sp, #120]
	lsr	x11, x8, #16
	lsr	x13, x8, #8
	add	x12, x9, x10
	mov	w9, #33584
	strh	w9, [x12]
	mov	x9, x10
	strb	w11, [x12, #2]
	strb	w13, [x12, #3]
	strb	w8, [x12, #4]
	b	.LBB6_394
.LBB6_391:
	subs	x10, x9, #6
	b.lo	.LBB6_394
	cmp	x9, x21
	b.hi	.LBB6_419
	ldr	x9, [sp, #120]
	lsr	x11, x8, #24
	lsr	x13, x8, #16
	add	x12, x9, x10
	mov	w9, #33840
	strh	w9, [x12]
	lsr	x9, x8, #8
	strb	w11, [x12, #2]
	strb	w13, [x12, #3]
	strb	w9, [x12, #4]
	mov	x9, x10
	strb	w8, [x12, #5]
.LBB6_394:
	cbz	x9, .LBB6_416
	cmp	x9, x21
	b.hi	.LBB6_419
	sub	x10, x9, #1
	subs	x8, x9, #3
	ldr	x9, [sp, #120]
	strb	wzr, [x9, x10]
	b.lo	.LBB6_399
	cmp	x10, x21
	b.hi	.LBB6_419
	ldr	x9, [sp, #120]
	mov	w10, #258
	strh	w10, [x9, x8]
	mov	x10, x8
.LBB6_399:
	sub	x8, x21, x10
	cmp	w8, #128
	b.hs	.LBB6_403
	cmp	x10, #2
	b.lo	.LBB6_416
	cmp	x21, x10
	b.lo	.LBB6_419
	mov	w9, #48
	mov	w0, wzr
	orr	w9, w9, w8, lsl #8
	ldr	x8, [sp, #120]
	add	x8, x8, x10
	sturh	w9, [x8, #-2]
	b	.LBB6_99
.LBB6_403:
	cmp	w8, #256
	b.hs	.LBB6_407
	cmp	x10, #3
	b.lo	.LBB6_416
	cmp	x21, x10
	b.lo	.LBB6_419
	ldr	x9, [sp, #120]
	mov	w0, wzr
	add	x9, x9, x10
	mov	w10, #33072
	sturh	w10, [x9, #-3]
	sturb	w8, [x9, #-1]
	b	.LBB6_99
.LBB6_407:
	cmp	w8, #16, lsl #12
	b.hs	.LBB6_411
	cmp	x10, #4
	b.lo	.LBB6_416
	cmp	x21, x10
	b.lo	.LBB6_419
	mov	w9, #813826048
	mov	w0, wzr
	orr	w9, w8, w9
	ldr	x8, [sp, #120]
	rev	w9, w9
	add	x8, x8, x10
	stur	w9, [x8, #-4]
	b	.LBB6_99
.LBB6_411:
	lsr	w9, w8, #24
	cbnz	w9, .LBB6_415
	cmp	x10, #5
	b.lo	.LBB6_416
	cmp	x21, x10
	b.lo	.LBB6_419
	ldr	x9, [sp, #120]
	lsr	x11, x8, #16
	lsr	x12, x8, #8
	mov	w0, wzr
	add	x9, x9, x10
	mov	w10, #33584
	sturh	w10, [x9, #-5]
	sturb	w11, [x9, #-3]
	sturb	w12, [x9, #-2]
	sturb	w8, [x9, #-1]
	b	.LBB6_99
.LBB6_415:
	cmp	x10, #6
	b.hs	.LBB6_417
.LBB6_416:
	mov	w0, wzr
	b	.LBB6_99
.LBB6_417:
	cmp	x21, x10
	b.lo	.LBB6_419
	ldr	x9, [sp, #120]
	lsr	x11, x8, #24
	lsr	x12, x8, #16
	mov	w0, wzr
	add	x9, x9, x10
	mov	w10, #33840
	sturh	w10, [x9, #-6]
	lsr	x10, x8, #8
	sturb	w11, [x9, #-4]
	sturb	w12, [x9, #-3]
	sturb	w10, [x9, #-2]
	sturb	w8, [x9, #-1]
	b	.LBB6_99
.LBB6_419:
	brk	#0x1
.Lfunc_end6:
	.size	pkcs1_c_private_key_info_encode, .Lfunc_end6-pkcs1_c_private_key_info_encode
	.cfi_endproc

	.section	.text._RNvNtNtNtCs00000000000_7pkcs1_c5calls7pkcs1_c8meanings12is_same_hash,"ax",@progbits
	.p2align	2
	.type	_RNvNtNtNtCs00000000000_7pkcs1_c5calls7pkcs1_c8meanings12is_same_hash,@function
_RNvNtNtNtCs00000000000_7pkcs1_c5calls7pkcs1_c8meanings12is_same_hash:
	.cfi_startproc
	str	x30, [sp, #-32]!
	.cfi_def_cfa_offset 32
	stp	x20, x19, [sp, #16]
	.cfi_offset w19, -8
	.cfi_offset w20, -16
	.cfi_offset w30, -32
	.cfi_remember_state
	ldrb	w8, [x0, #16]
	cmp	w8, #1
	b.ne	.LBB7_3
	ldrb	w9, [x0, #17]
	cmp	w9, #5
	b.ne	.LBB7_11
	ldr	x9, [x0, #32]
	cbnz	x9, .LBB7_11
.LBB7_3:
	ldrb	w9, [x1, #16]
	tbz	w9, #0, .LBB7_13
	ldrb	w10, [x1, #17]
	cmp	w10, #5
	b.ne	.LBB7_6
	ldr	x10, [x1, #32]
	cbz	x10, .LBB7_13
.LBB7_6:
	tbz	w8, #0, .LBB7_12
	tbz	w9, #0, .LBB7_12
.LBB7_8:
	ldrb	w8, [x0, #17]
	ldrb	w9, [x1, #17]
	cmp	w8, w9
	b.ne	.LBB7_17
	ldr	x2, [x0, #32]
	ldr	x8, [x1, #32]
	cmp	x2, x8
	b.ne	.LBB7_17
	ldr	x8, [x1, #24]
	ldr	x9, [x0, #24]
	mov	x19, x0
	mov	x20, x1
	mov	x0, x9
	mov	x1, x8
	bl	memcmp
	mov	x1, x20
	mov	w8, w0
	mov	x0, x19
	cbnz	w8, .LBB7_17
	b	.LBB7_13
.LBB7_11:
	ldrb	w9, [x1, #16]
	tbnz	w9, #0, .LBB7_8
.LBB7_12:
	cmp	w8, w9
	b.ne	.LBB7_17
.LBB7_13:
	ldr	x3, [x0, #8]
	ldr	x8, [x1, #8]
	cmp	x3, x8
	b.ne	.LBB7_17
	ldr	x0, [x0]
	ldr	x2, [x1]
	cmp	x3, #5
	b.eq	.LBB7_18
	cmp	x3, #9
	b.ne	.LBB7_19
	ldr	x8, [x0]
	ldr	x9, [x2]
	ldrb	w10, [x0, #8]
	ldrb	w11, [x2, #8]
	cmp	x8, x9
	ccmp	w10, w11, #0, eq
	cset	w0, eq
	ldp	x20, x19, [sp, #16]
	ldr	x30, [sp], #32
	.cfi_def_cfa_offset 0
	.cfi_restore w19
	.cfi_restore w20
	.cfi_restore w30
	ret
.LBB7_17:
	.cfi_restore_state
	.cfi_remember_state
	mov	w0, wzr
	ldp	x20, x19, [sp, #16]
	ldr	x30, [sp], #32
	.cfi_def_cfa_offset 0
	.cfi_restore w19
	.cfi_restore w20
	.cfi_restore w30
	ret
.LBB7_18:
	.cfi_restore_state
	.cfi_remember_state
	ldr	w8, [x0]
	ldr	w9, [x2]
	ldrb	w10, [x0, #4]
	ldrb	w11, [x2, #4]
	cmp	w8, w9
	ccmp	w10, w11, #0, eq
	cset	w0, eq
	ldp	x20, x19, [sp, #16]
	ldr	x30, [sp], #32
	.cfi_def_cfa_offset 0
	.cfi_restore w19
	.cfi_restore w20
	.cfi_restore w30
	ret
.LBB7_19:
	.cfi_restore_state
	ldp	x20, x19, [sp, #16]
	mov	x1, x3
	ldr	x30, [sp], #32
	.cfi_def_cfa_offset 0
	.cfi_restore w19
	.cfi_restore w20
	.cfi_restore w30
	b	_RNvNtNtNtCs00000000000_7pkcs1_c5calls7pkcs1_c9algorithm17is_same_otherwise
.Lfunc_end7:
	.size	_RNvNtNtNtCs00000000000_7pkcs1_c5calls7pkcs1_c8meanings12is_same_hash, .Lfunc_end7-_RNvNtNtNtCs00000000000_7pkcs1_c5calls7pkcs1_c8meanings12is_same_hash
	.cfi_endproc

	.section	.text.pkcs1_c_algorithm_is_same_hash,"ax",@progbits
	.globl	pkcs1_c_algorithm_is_same_hash
	.p2align	2
	.type	pkcs1_c_algorithm_is_same_hash,@function
pkcs1_c_algorithm_is_same_hash:
	.cfi_startproc
	hint	#34
	b	_RNvNtNtNtCs00000000000_7pkcs1_c5calls7pkcs1_c8meanings12is_same_hash
.Lfunc_end8:
	.size	pkcs1_c_algorithm_is_same_hash, .Lfunc_end8-pkcs1_c_algorithm_is_same_hash
	.cfi_endproc

	.section	.text.pkcs1_c_pss_means_same,"ax",@progbits
	.globl	pkcs1_c_pss_means_same
	.p2align	2
	.type	pkcs1_c_pss_means_same,@function
pkcs1_c_pss_means_same:
	.cfi_startproc
	hint	#34
	str	x30, [sp, #-32]!
	.cfi_def_cfa_offset 32
	stp	x20, x19, [sp, #16]
	.cfi_offset w19, -8
	.cfi_offset w20, -16
	.cfi_offset w30, -32
	.cfi_remember_state
	mov	x19, x1
	mov	x20, x0
	bl	_RNvNtNtNtCs00000000000_7pkcs1_c5calls7pkcs1_c8meanings12is_same_hash
	cbz	w0, .LBB9_13
	ldrb	w8, [x20, #56]
	ldrb	w9, [x19, #56]
	cmp	w8, #1
	b.ne	.LBB9_5
	tbz	w9, #0, .LBB9_5
	add	x0, x20, #64
	add	x1, x19, #64
	bl	_RNvNtNtNtCs00000000000_7pkcs1_c5calls7pkcs1_c8meanings12is_same_hash
	tbnz	w0, #0, .LBB9_6
	mov	w0, wzr
	ldp	x20, x19, [sp, #16]
	ldr	x30, [sp], #32
	.cfi_def_cfa_offset 0
	.cfi_restore w19
	.cfi_restore w20
	.cfi_restore w30
	ret
.LBB9_5:
	.cfi_restore_state
	.cfi_remember_state
	cmp	w8, w9
	b.ne	.LBB9_17
.LBB9_6:
	ldr	x1, [x20, #48]
	ldr	x8, [x19, #48]
	cmp	x1, x8
	b.ne	.LBB9_17
	ldr	x8, [x20, #40]
	ldr	x2, [x19, #40]
	cmp	x1, #5
	b.eq	.LBB9_11
	cmp	x1, #9
	b.ne	.LBB9_14
	ldr	x9, [x8]
	ldr	x10, [x2]
	mov	w0, wzr
	cmp	x9, x10
	b.ne	.LBB9_13
	ldrb	w8, [x8, #8]
	ldrb	w9, [x2, #8]
	cmp	w8, w9
	b.eq	.LBB9_15
	b	.LBB9_13
.LBB9_11:
	ldr	w9, [x8]
	ldr	w10, [x2]
	mov	w0, wzr
	cmp	w9, w10
	b.ne	.LBB9_13
	ldrb	w8, [x8, #4]
	ldrb	w9, [x2, #4]
	cmp	w8, w9
	b.eq	.LBB9_15
.LBB9_13:
	ldp	x20, x19, [sp, #16]
	ldr	x30, [sp], #32
	.cfi_def_cfa_offset 0
	.cfi_restore w19
	.cfi_restore w20
	.cfi_restore w30
	ret
.LBB9_14:
	.cfi_restore_state
	.cfi_remember_state
	mov	x0, x8
	mov	x3, x1
	bl	_RNvNtNtNtCs00000000000_7pkcs1_c5calls7pkcs1_c9algorithm17is_same_otherwise
	tbz	w0, #0, .LBB9_17
.LBB9_15:
	ldrb	w8, [x20, #104]
	ldrb	w9, [x19, #104]
	cmp	w8, w9
	b.ne	.LBB9_17
	ldrb	w8, [x20, #105]
	ldrb	w9, [x19, #105]
	cmp	w8, w9
	cset	w0, eq
	ldp	x20, x19, [sp, #16]
	ldr	x30, [sp], #32
	.cfi_def_cfa_offset 0
	.cfi_restore w19
	.cfi_restore w20
	.cfi_restore w30
	ret
.LBB9_17:
	.cfi_restore_state
	mov	w0, wzr
	ldp	x20, x19, [sp, #16]
	ldr	x30, [sp], #32
	.cfi_def_cfa_offset 0
	.cfi_restore w19
	.cfi_restore w20
	.cfi_restore w30
	ret
.Lfunc_end9:
	.size	pkcs1_c_pss_means_same, .Lfunc_end9-pkcs1_c_pss_means_same
	.cfi_endproc

	.section	.text.pkcs1_c_oaep_means_same,"ax",@progbits
	.globl	pkcs1_c_oaep_means_same
	.p2align	2
	.type	pkcs1_c_oaep_means_same,@function
pkcs1_c_oaep_means_same:
	.cfi_startproc
	hint	#34
	str	x30, [sp, #-32]!
	.cfi_def_cfa_offset 32
	stp	x20, x19, [sp, #16]
	.cfi_offset w19, -8
	.cfi_offset w20, -16
	.cfi_offset w30, -32
	.cfi_remember_state
	mov	x20, x1
	mov	x19, x0
	bl	_RNvNtNtNtCs00000000000_7pkcs1_c5calls7pkcs1_c8meanings12is_same_hash
	cbz	w0, .LBB10_22
	ldrb	w8, [x19, #56]
	ldrb	w9, [x20, #56]
	cmp	w8, #1
	b.ne	.LBB10_5
	tbz	w9, #0, .LBB10_5
	add	x0, x19, #64
	add	x1, x20, #64
	bl	_RNvNtNtNtCs00000000000_7pkcs1_c5calls7pkcs1_c8meanings12is_same_hash
	tbnz	w0, #0, .LBB10_6
	mov	w0, wzr
	ldp	x20, x19, [sp, #16]
	ldr	x30, [sp], #32
	.cfi_def_cfa_offset 0
	.cfi_restore w19
	.cfi_restore w20
	.cfi_restore w30
	ret
.LBB10_5:
	.cfi_restore_state
	.cfi_remember_state
	cmp	w8, w9
	b.ne	.LBB10_29
.LBB10_6:
	ldr	x1, [x19, #48]
	ldr	x8, [x20, #48]
	cmp	x1, x8
	b.ne	.LBB10_29
	ldr	x8, [x19, #40]
	ldr	x2, [x20, #40]
	cmp	x1, #5
	b.eq	.LBB10_11
	cmp	x1, #9
	b.ne	.LBB10_13
	ldr	x9, [x8]
	ldr	x10, [x2]
	mov	w0, wzr
	cmp	x9, x10
	b.ne	.LBB10_22
	ldrb	w8, [x8, #8]
	ldrb	w9, [x2, #8]
	cmp	w8, w9
	b.eq	.LBB10_14
	b	.LBB10_22
.LBB10_11:
	ldr	w9, [x8]
	ldr	w10, [x2]
	mov	w0, wzr
	cmp	w9, w10
	b.ne	.LBB10_22
	ldrb	w8, [x8, #4]
	ldrb	w9, [x2, #4]
	cmp	w8, w9
	b.eq	.LBB10_14
	b	.LBB10_22
.LBB10_13:
	mov	x0, x8
	mov	x3, x1
	bl	_RNvNtNtNtCs00000000000_7pkcs1_c5calls7pkcs1_c9algorithm17is_same_otherwise
	tbz	w0, #0, .LBB10_29
.LBB10_14:
	ldr	x1, [x19, #112]
	ldr	x8, [x20, #112]
	cmp	x1, x8
	b.ne	.LBB10_29
	ldr	x8, [x19, #104]
	ldr	x2, [x20, #104]
	cmp	x1, #5
	b.eq	.LBB10_19
	cmp	x1, #9
	b.ne	.LBB10_23
	ldr	x9, [x8]
	ldr	x10, [x2]
	mov	w0, wzr
	cmp	x9, x10
	b.ne	.LBB10_22
	ldrb	w8, [x8, #8]
	ldrb	w9, [x2, #8]
	b	.LBB10_21
.LBB10_19:
	ldr	w9, [x8]
	ldr	w10, [x2]
	mov	w0, wzr
	cmp	w9, w10
	b.ne	.LBB10_22
	ldrb	w8, [x8, #4]
	ldrb	w9, [x2, #4]
.LBB10_21:
	cmp	w8, w9
	b.eq	.LBB10_24
.LBB10_22:
	ldp	x20, x19, [sp, #16]
	ldr	x30, [sp], #32
	.cfi_def_cfa_offset 0
	.cfi_restore w19
	.cfi_restore w20
	.cfi_restore w30
	ret
.LBB10_23:
	.cfi_restore_state
	.cfi_remember_state
	mov	x0, x8
	mov	x3, x1
	bl	_RNvNtNtNtCs00000000000_7pkcs1_c5calls7pkcs1_c9algorithm17is_same_otherwise
	tbz	w0, #0, .LBB10_29
.LBB10_24:
	ldrb	w8, [x19, #120]
	ldrb	w9, [x20, #120]
	tbz	w8, #0, .LBB10_30
	tbz	w9, #0, .LBB10_30
	ldrb	w8, [x19, #121]
	ldrb	w9, [x20, #121]
	cmp	w8, w9
	b.ne	.LBB10_29
	ldr	x2, [x19, #136]
	ldr	x8, [x20, #136]
	cmp	x2, x8
	b.ne	.LBB10_29
	ldr	x1, [x20, #128]
	ldr	x0, [x19, #128]
	bl	memcmp
	cmp	w0, #0
	cset	w0, eq
	ldp	x20, x19, [sp, #16]
	ldr	x30, [sp], #32
	.cfi_def_cfa_offset 0
	.cfi_restore w19
	.cfi_restore w20
	.cfi_restore w30
	ret
.LBB10_29:
	.cfi_restore_state
	.cfi_remember_state
	mov	w0, wzr
	ldp	x20, x19, [sp, #16]
	ldr	x30, [sp], #32
	.cfi_def_cfa_offset 0
	.cfi_restore w19
	.cfi_restore w20
	.cfi_restore w30
	ret
.LBB10_30:
	.cfi_restore_state
	cmp	w8, w9
	cset	w0, eq
	ldp	x20, x19, [sp, #16]
	ldr	x30, [sp], #32
	.cfi_def_cfa_offset 0
	.cfi_restore w19
	.cfi_restore w20
	.cfi_restore w30
	ret
.Lfunc_end10:
	.size	pkcs1_c_oaep_means_same, .Lfunc_end10-pkcs1_c_oaep_means_same
	.cfi_endproc

	.section	.text.pkcs1_c_bit_len,"ax",@progbits
	.globl	pkcs1_c_bit_len
	.p2align	2
	.type	pkcs1_c_bit_len,@function
pkcs1_c_bit_len:
	.cfi_startproc
	hint	#34
	cmp	x1, #2
	b.lo	.LBB11_5
	add	x8, x0, x1
	sub	x9, x8, #1
	mov	x8, x1
.LBB11_2:
	ldrb	w10, [x0]
	cbnz	w10, .LBB11_8
	sub	x8, x8, #1
	add	x0, x0, #1
	cmp	x8, #1
	b.hi	.LBB11_2
	mov	x0, x9
	b	.LBB11_6
.LBB11_5:
	cbz	x1, .LBB11_9
.LBB11_6:
	cbz	x0, .LBB11_9
	ldrb	w10, [x0]
	mov	w8, #1
	b	.LBB11_10
.LBB11_8:
	lsr	x9, x8, #32
	cbz	x9, .LBB11_10
.LBB11_9:
	cmp	x1, #0
	csetm	x0, ne
	ret
.LBB11_10:
	lsl	x8, x8, #3
	clz	w9, w10
	sub	w9, w9, #24
	sub	x0, x8, w9, uxtb
	ret
.Lfunc_end11:
	.size	pkcs1_c_bit_len, .Lfunc_end11-pkcs1_c_bit_len
	.cfi_endproc

	.section	.text._RNvNtNtNtCs00000000000_7pkcs1_c5calls7pkcs1_c4oaep11from_c_oaep,"ax",@progbits
	.p2align	2
	.type	_RNvNtNtNtCs00000000000_7pkcs1_c5calls7pkcs1_c4oaep11from_c_oaep,@function
_RNvNtNtNtCs00000000000_7pkcs1_c5calls7pkcs1_c4oaep11from_c_oaep:
	.cfi_startproc
	str	x30, [sp, #-64]!
	.cfi_def_cfa_offset 64
	stp	x24, x23, [sp, #16]
	stp	x22, x21, [sp, #32]
	stp	x20, x19, [sp, #48]
	.cfi_offset w19, -8
	.cfi_offset w20, -16
	.cfi_offset w21, -24
	.cfi_offset w22, -32
	.cfi_offset w23, -40
	.cfi_offset w24, -48
	.cfi_offset w30, -64
	.cfi_remember_state
	mov	x8, x1
	ldr	x1, [x1, #8]
	sub	x9, x1, #1
	cmp	x9, #38
	b.hi	.LBB12_40
	ldr	x13, [x8]
	ldrsb	w10, [x13, x9]
	tbnz	w10, #31, .LBB12_14
	movi	v0.8b, #128
	movi	v1.4h, #128
	mov	x11, x13
	b	.LBB12_4
.LBB12_3:
	add	x9, x12, x9
	add	x11, x11, x14
.LBB12_4:
	cmp	x9, #7
	b.ls	.LBB12_7
	ldr	d2, [x11]
	cmeq	v2.8b, v2.8b, v0.8b
	umaxv	b2, v2.8b
	fmov	w12, s2
	tbnz	w12, #0, .LBB12_13
	mov	x12, #-8
	mov	w14, #8
	b	.LBB12_3
.LBB12_7:
	cmp	x9, #3
	b.ls	.LBB12_10
	ldr	s2, [x11]
	ushll	v2.8h, v2.8b, #0
	cmeq	v2.4h, v2.4h, v1.4h
	umaxv	h2, v2.4h
	fmov	w12, s2
	tbnz	w12, #0, .LBB12_13
	mov	x12, #-4
	mov	w14, #4
	b	.LBB12_3
.LBB12_10:
	cbz	x9, .LBB12_17
	ldrb	w12, [x11]
	cmp	w12, #128
	b.eq	.LBB12_13
	mov	x12, #-1
	mov	w14, #1
	b	.LBB12_3
.LBB12_13:
	cbz	x1, .LBB12_17
.LBB12_14:
	ldrb	w9, [x13]
	cmp	w9, #128
	b.eq	.LBB12_40
	subs	x11, x1, #1
	b.ne	.LBB12_35
.LBB12_16:
	tbnz	w10, #31, .LBB12_40
.LBB12_17:
	ldrb	w9, [x8, #16]
	cmp	w9, #1
	b.ne	.LBB12_22
	ldrb	w14, [x8, #17]
	mov	w9, #31
	bics	wzr, w9, w14
	mov	w9, #11
	b.eq	.LBB12_41
	and	w10, w14, #0xffffffdf
	cbz	w10, .LBB12_41
	ldr	x15, [x8, #32]
	lsr	x9, x15, #32
	cbz	x9, .LBB12_70
	mov	w9, #7
	b	.LBB12_41
.LBB12_22:
	mov	x16, xzr
	ldr	x9, [x8, #48]
	sub	x10, x9, #1
	cmp	x10, #38
	b.hi	.LBB12_99
.LBB12_23:
	ldr	x2, [x8, #40]
	ldrsb	w11, [x2, x10]
	tbnz	w11, #31, .LBB12_44
	movi	v0.8b, #128
	movi	v1.4h, #128
	mov	x12, x2
	b	.LBB12_28
.LBB12_25:
	ldr	d2, [x12]
	cmeq	v2.8b, v2.8b, v0.8b
	umaxv	b2, v2.8b
	fmov	w3, s2
	tbnz	w3, #0, .LBB12_43
	mov	x3, #-8
	mov	w4, #8
.LBB12_27:
	add	x10, x3, x10
	add	x12, x12, x4
.LBB12_28:
	cmp	x10, #7
	b.hi	.LBB12_25
	cmp	x10, #3
	b.ls	.LBB12_32
	ldr	s2, [x12]
	ushll	v2.8h, v2.8b, #0
	cmeq	v2.4h, v2.4h, v1.4h
	umaxv	h2, v2.4h
	fmov	w3, s2
	tbnz	w3, #0, .LBB12_43
	mov	x3, #-4
	mov	w4, #4
	b	.LBB12_27
.LBB12_32:
	cbz	x10, .LBB12_47
	ldrb	w3, [x12]
	cmp	w3, #128
	b.eq	.LBB12_43
	mov	x3, #-1
	mov	w4, #1
	b	.LBB12_27
.LBB12_35:
	mov	x9, xzr
	add	x12, x13, #1
	b	.LBB12_37
.LBB12_36:
	add	x9, x9, #1
	add	x12, x12, #1
	cmp	x11, x9
	b.eq	.LBB12_16
.LBB12_37:
	ldrb	w14, [x12]
	cmp	w14, #128
	b.ne	.LBB12_36
	cmp	x9, x1
	b.hs	.LBB12_119
	ldursb	w14, [x12, #-1]
	tbnz	w14, #31, .LBB12_36
.LBB12_40:
	mov	w14, wzr
	mov	w9, #5
.LBB12_41:
	orr	w8, w9, w14, lsl #8
.LBB12_42:
	strb	wzr, [x0, #10]
	strh	w8, [x0, #8]
	str	xzr, [x0]
	ldp	x20, x19, [sp, #48]
	ldp	x22, x21, [sp, #32]
	ldp	x24, x23, [sp, #16]
	ldr	x30, [sp], #64
	.cfi_def_cfa_offset 0
	.cfi_restore w19
	.cfi_restore w20
	.cfi_restore w21
	.cfi_restore w22
	.cfi_restore w23
	.cfi_restore w24
	.cfi_restore w30
	ret
.LBB12_43:
	.cfi_restore_state
	.cfi_remember_state
	cbz	x9, .LBB12_47
.LBB12_44:
	ldrb	w10, [x2]
	cmp	w10, #128
	b.eq	.LBB12_99
	subs	x12, x9, #1
	b.ne	.LBB12_94
.LBB12_46:
	tbnz	w11, #31, .LBB12_99
.LBB12_47:
	ldrb	w10, [x8, #56]
	cmp	w10, #1
	b.ne	.LBB12_71
	ldr	x10, [x8, #72]
	sub	x11, x10, #1
	cmp	x11, #38
	b.hi	.LBB12_115
	ldr	x3, [x8, #64]
	ldrsb	w12, [x3, x11]
	tbnz	w12, #31, .LBB12_62
	movi	v0.8b, #128
	movi	v1.4h, #128
	mov	x4, x3
	b	.LBB12_53
.LBB12_51:
	mov	x5, #-1
	mov	w6, #1
.LBB12_52:
	add	x11, x5, x11
	add	x4, x4, x6
.LBB12_53:
	cmp	x11, #7
	b.ls	.LBB12_56
	ldr	d2, [x4]
	cmeq	v2.8b, v2.8b, v0.8b
	umaxv	b2, v2.8b
	fmov	w5, s2
	tbnz	w5, #0, .LBB12_61
	mov	x5, #-8
	mov	w6, #8
	b	.LBB12_52
.LBB12_56:
	cmp	x11, #3
	b.ls	.LBB12_59
	ldr	s2, [x4]
	ushll	v2.8h, v2.8b, #0
	cmeq	v2.4h, v2.4h, v1.4h
	umaxv	h2, v2.4h
	fmov	w5, s2
	tbnz	w5, #0, .LBB12_61
	mov	x5, #-4
	mov	w6, #4
	b	.LBB12_52
.LBB12_59:
	cbz	x11, .LBB12_65
	ldrb	w5, [x4]
	cmp	w5, #128
	b.ne	.LBB12_51
.LBB12_61:
	cbz	x10, .LBB12_65
.LBB12_62:
	ldrb	w11, [x3]
	cmp	w11, #128
	b.eq	.LBB12_115
	subs	x4, x10, #1
	b.ne	.LBB12_110
.LBB12_64:
	tbnz	w12, #31, .LBB12_115
.LBB12_65:
	ldrb	w11, [x8, #80]
	cmp	w11, #1
	b.ne	.LBB12_102
	ldrb	w4, [x8, #81]
	mov	w11, #31
	bics	wzr, w11, w4
	mov	w11, #11
	b.eq	.LBB12_116
	and	w12, w4, #0xffffffdf
	cbz	w12, .LBB12_116
	ldr	x5, [x8, #96]
	lsr	x11, x5, #32
	cbz	x11, .LBB12_118
	mov	w11, #7
	orr	w8, w11, w4, lsl #8
	b	.LBB12_42
.LBB12_70:
	ldr	x16, [x8, #24]
	lsr	x18, x15, #8
	lsr	x17, x15, #24
	ldr	x9, [x8, #48]
	sub	x10, x9, #1
	cmp	x10, #38
	b.ls	.LBB12_23
	b	.LBB12_99
.LBB12_71:
	mov	x3, xzr
.LBB12_72:
	ldr	x11, [x8, #112]
	sub	x12, x11, #1
	cmp	x12, #38
	b.hi	.LBB12_108
	ldr	x20, [x8, #104]
	ldrsb	w21, [x20, x12]
	tbnz	w21, #31, .LBB12_86
	movi	v0.8b, #128
	movi	v1.4h, #128
	mov	x22, x20
	b	.LBB12_77
.LBB12_75:
	mov	x23, #-1
	mov	w24, #1
.LBB12_76:
	add	x12, x23, x12
	add	x22, x22, x24
.LBB12_77:
	cmp	x12, #7
	b.ls	.LBB12_80
	ldr	d2, [x22]
	cmeq	v2.8b, v2.8b, v0.8b
	umaxv	b2, v2.8b
	fmov	w23, s2
	tbnz	w23, #0, .LBB12_85
	mov	x23, #-8
	mov	w24, #8
	b	.LBB12_76
.LBB12_80:
	cmp	x12, #3
	b.ls	.LBB12_83
	ldr	s2, [x22]
	ushll	v2.8h, v2.8b, #0
	cmeq	v2.4h, v2.4h, v1.4h
	umaxv	h2, v2.4h
	fmov	w23, s2
	tbnz	w23, #0, .LBB12_85
	mov	x23, #-4
	mov	w24, #4
	b	.LBB12_76
.LBB12_83:
	cbz	x12, .LBB12_89
	ldrb	w23, [x22]
	cmp	w23, #128
	b.ne	.LBB12_75
.LBB12_85:
	cbz	x11, .LBB12_89
.LBB12_86:
	ldrb	w12, [x20]
	cmp	w12, #128
	b.eq	.LBB12_108
	subs	x22, x11, #1
	b.ne	.LBB12_103
.LBB12_88:
	tbnz	w21, #31, .LBB12_108
.LBB12_89:
	ldrb	w12, [x8, #120]
	cmp	w12, #1
	b.ne	.LBB12_100
	ldrb	w12, [x8, #121]
	mov	w21, #31
	bics	wzr, w21, w12
	mov	w21, #11
	b.eq	.LBB12_109
	and	w22, w12, #0xffffffdf
	cbz	w22, .LBB12_109
	ldr	x21, [x8, #136]
	lsr	x22, x21, #32
	cbz	x22, .LBB12_117
	mov	w21, #7
	b	.LBB12_109
.LBB12_94:
	mov	x10, xzr
	add	x3, x2, #1
	b	.LBB12_96
.LBB12_95:
	add	x10, x10, #1
	add	x3, x3, #1
	cmp	x12, x10
	b.eq	.LBB12_46
.LBB12_96:
	ldrb	w4, [x3]
	cmp	w4, #128
	b.ne	.LBB12_95
	cmp	x10, x9
	b.hs	.LBB12_120
	ldursb	w4, [x3, #-1]
	tbnz	w4, #31, .LBB12_95
.LBB12_99:
	mov	w8, #5
	b	.LBB12_42
.LBB12_100:
	mov	x8, xzr
.LBB12_101:
	str	x13, [x0]
	lsr	w13, w1, #16
	strh	w9, [x0, #48]
	strb	w13, [x0, #10]
	lsr	x13, x17, #32
	str	x8, [x0, #112]
	lsr	x8, x22, #32
	strb	w13, [x0, #31]
	lsr	w13, w9, #16
	lsr	w9, w10, #16
	strh	w1, [x0, #8]
	strb	w9, [x0, #66]
	lsr	x9, x7, #32
	strb	wzr, [x0, #15]
	strb	w9, [x0, #87]
	ubfx	x9, x11, #16, #16
	stur	wzr, [x0, #11]
	str	x16, [x0, #16]
	strb	w15, [x0, #24]
	sturh	w18, [x0, #25]
	stur	w17, [x0, #27]
	stp	x14, x2, [x0, #32]
	strb	w13, [x0, #50]
	strb	wzr, [x0, #55]
	stur	wzr, [x0, #51]
	str	x3, [x0, #56]
	strh	w10, [x0, #64]
	strb	wzr, [x0, #71]
	stur	wzr, [x0, #67]
	str	x6, [x0, #72]
	strb	w5, [x0, #80]
	sturh	w19, [x0, #81]
	stur	w7, [x0, #83]
	stp	x4, x20, [x0, #88]
	strh	w11, [x0, #104]
	strb	w9, [x0, #106]
	strb	wzr, [x0, #111]
	stur	wzr, [x0, #107]
	strb	w21, [x0, #120]
	sturh	w23, [x0, #121]
	stur	w22, [x0, #123]
	strb	w8, [x0, #127]
	str	x12, [x0, #128]
	ldp	x20, x19, [sp, #48]
	ldp	x22, x21, [sp, #32]
	ldp	x24, x23, [sp, #16]
	ldr	x30, [sp], #64
	.cfi_def_cfa_offset 0
	.cfi_restore w19
	.cfi_restore w20
	.cfi_restore w21
	.cfi_restore w22
	.cfi_restore w23
	.cfi_restore w24
	.cfi_restore w30
	ret
.LBB12_102:
	.cfi_restore_state
	mov	x6, xzr
	b	.LBB12_72
.LBB12_103:
	mov	x12, xzr
	add	x23, x20, #1
	b	.LBB12_105
.LBB12_104:
	add	x12, x12, #1
	add	x23, x23, #1
	cmp	x22, x12
	b.eq	.LBB12_88
.LBB12_105:
	ldrb	w24, [x23]
	cmp	w24, #128
	b.ne	.LBB12_104
	cmp	x12, x11
	b.hs	.LBB12_121
	ldursb	w24, [x23, #-1]
	tbnz	w24, #31, .LBB12_104
.LBB12_108:
	mov	w12, wzr
	mov	w21, #5
.LBB12_109:
	orr	w8, w21, w12, lsl #8
	b	.LBB12_42
.LBB12_110:
	mov	x11, xzr
	add	x5, x3, #1
	b	.LBB12_112
.LBB12_111:
	add	x11, x11, #1
	add	x5, x5, #1
	cmp	x4, x11
	b.eq	.LBB12_64
.LBB12_112:
	ldrb	w6, [x5]
	cmp	w6, #128
	b.ne	.LBB12_111
	cmp	x11, x10
	b.hs	.LBB12_122
	ldursb	w6, [x5, #-1]
	tbnz	w6, #31, .LBB12_111
.LBB12_115:
	mov	w4, wzr
	mov	w11, #5
.LBB12_116:
	orr	w8, w11, w4, lsl #8
	b	.LBB12_42
.LBB12_117:
	ldr	x8, [x8, #128]
	lsr	x23, x21, #8
	lsr	x22, x21, #24
	b	.LBB12_101
.LBB12_118:
	ldr	x6, [x8, #88]
	lsr	x19, x5, #8
	lsr	x7, x5, #24
	b	.LBB12_72
.LBB12_119:
	mov	x0, x9
	brk	#0x1
.LBB12_120:
	mov	x0, x10
	mov	x1, x9
	brk	#0x1
.LBB12_121:
	mov	x0, x12
	mov	x1, x11
	brk	#0x1
.LBB12_122:
	mov	x0, x11
	mov	x1, x10
	brk	#0x1
.Lfunc_end12:
	.size	_RNvNtNtNtCs00000000000_7pkcs1_c5calls7pkcs1_c4oaep11from_c_oaep, .Lfunc_end12-_RNvNtNtNtCs00000000000_7pkcs1_c5calls7pkcs1_c4oaep11from_c_oaep
	.cfi_endproc

	.section	.text.pkcs1_c_oaep_params_decode,"ax",@progbits
	.globl	pkcs1_c_oaep_params_decode
	.p2align	2
	.type	pkcs1_c_oaep_params_decode,@function
pkcs1_c_oaep_params_decode:
	.cfi_startproc
	hint	#34
	lsr	x9, x1, #32
	cbz	x9, .LBB13_2
	mov	w0, #8
	ret
.LBB13_2:
	sub	sp, sp, #192
	.cfi_def_cfa_offset 192
	str	x30, [sp, #144]
	stp	x22, x21, [sp, #160]
	stp	x20, x19, [sp, #176]
	.cfi_offset w19, -8
	.cfi_offset w20, -16
	.cfi_offset w21, -24
	.cfi_offset w22, -32
	.cfi_offset w30, -48
	.cfi_remember_state
	mov	x8, x1
	subs	x10, x1, #2
	b.lo	.LBB13_17
	mov	x1, x0
	ldrb	w9, [x1], #2
	cmp	w9, #48
	b.ne	.LBB13_17
	ldrsb	w9, [x0, #1]
	tbnz	w9, #31, .LBB13_7
	and	x9, x9, #0xff
	subs	x20, x10, x9
	b.lo	.LBB13_17
	mov	x19, x2
	b	.LBB13_19
.LBB13_7:
	and	w9, w9, #0xff
	cmp	w9, #130
	b.ne	.LBB13_12
	cmp	x10, #1
	b.ls	.LBB13_17
	ldrb	w9, [x0, #2]
	cbz	x9, .LBB13_17
	ldrb	w10, [x0, #3]
	orr	x9, x10, x9, lsl #8
	sub	x10, x8, #4
	subs	x20, x10, x9
	b.lo	.LBB13_17
	mov	x19, x2
	add	x1, x0, #4
	b	.LBB13_19
.LBB13_12:
	cbz	x10, .LBB13_17
	cmp	w9, #129
	b.ne	.LBB13_17
	ldrsb	w9, [x1]
	tbz	w9, #31, .LBB13_17
	sub	x10, x8, #3
	and	x9, x9, #0xff
	subs	x20, x10, x9
	b.lo	.LBB13_17
	mov	x19, x2
	add	x1, x0, #3
	b	.LBB13_19
.LBB13_17:
	mov	x19, x2
	mov	x1, x0
	mov	x0, sp
	mov	x2, x8
	mov	w3, #48
	bl	_RNvNtNtNtCs00000000000_7pkcs1_c6proved8der_core5split14split_unlikely
	ldr	x1, [sp]
	cbz	x1, .LBB13_34
	ldr	x9, [sp, #8]
	ldr	x20, [sp, #24]
.LBB13_19:
	mov	x0, sp
	mov	x2, x9
	bl	_RNvNtNtNtCs00000000000_7pkcs1_c6proved12pkcs1_params6noting9note_oaep
	ldrb	w9, [sp, #2]
	ldrh	w10, [sp]
	ldrb	w8, [sp, #136]
	orr	w9, w10, w9, lsl #16
	cmp	w8, #2
	b.ne	.LBB13_23
.LBB13_20:
	sub	w8, w9, #17
	and	w10, w8, #0xff
	and	x8, x8, #0xff
	cmp	w10, #3
	csinc	x8, xzr, x8, hs
	cmp	x8, #1
	b.gt	.LBB13_25
	cbnz	x8, .LBB13_32
	and	w8, w9, #0xff
	add	w0, w8, #1
	ldp	x20, x19, [sp, #176]
	ldr	x30, [sp, #144]
	ldp	x22, x21, [sp, #160]
	add	sp, sp, #192
	.cfi_def_cfa_offset 0
	.cfi_restore w19
	.cfi_restore w20
	.cfi_restore w21
	.cfi_restore w22
	.cfi_restore w30
	ret
.LBB13_23:
	.cfi_restore_state
	.cfi_remember_state
	cbz	x20, .LBB13_27
	mov	w0, #13
	ldp	x20, x19, [sp, #176]
	ldr	x30, [sp, #144]
	ldp	x22, x21, [sp, #160]
	add	sp, sp, #192
	.cfi_def_cfa_offset 0
	.cfi_restore w19
	.cfi_restore w20
	.cfi_restore w21
	.cfi_restore w22
	.cfi_restore w30
	ret
.LBB13_25:
	.cfi_restore_state
	.cfi_remember_state
	cmp	x8, #2
	b.ne	.LBB13_33
	mov	w0, #19
	ldp	x20, x19, [sp, #176]
	ldr	x30, [sp, #144]
	ldp	x22, x21, [sp, #160]
	add	sp, sp, #192
	.cfi_def_cfa_offset 0
	.cfi_restore w19
	.cfi_restore w20
	.cfi_restore w21
	.cfi_restore w22
	.cfi_restore w30
	ret
.LBB13_27:
	.cfi_restore_state
	.cfi_remember_state
	ldur	w8, [sp, #3]
	ldrb	w10, [sp, #7]
	ldrh	w11, [sp, #8]
	lsl	x8, x8, #24
	orr	x8, x8, x10, lsl #56
	ldrb	w10, [sp, #10]
	bfxil	x8, x9, #0, #24
	orr	w9, w11, w10, lsl #16
	cbz	x8, .LBB13_35
	ldr	x11, [sp, #16]
	ldrb	w16, [sp, #15]
	ldur	w17, [sp, #11]
	ldr	x14, [sp, #56]
	cbz	x11, .LBB13_36
	ldp	x10, x12, [sp, #24]
	mov	w15, #1
	orr	x0, x17, x16, lsl #32
	ldr	x16, [sp, #112]
	mov	x13, x19
	cbz	x14, .LBB13_37
.LBB13_30:
	ldp	x18, x2, [sp, #64]
	cbz	x2, .LBB13_38
	ldp	x17, x1, [sp, #80]
	mov	w3, #1
	mov	w4, #1
	b	.LBB13_39
.LBB13_32:
	mov	w0, #18
	ldp	x20, x19, [sp, #176]
	ldr	x30, [sp, #144]
	ldp	x22, x21, [sp, #160]
	add	sp, sp, #192
	.cfi_def_cfa_offset 0
	.cfi_restore w19
	.cfi_restore w20
	.cfi_restore w21
	.cfi_restore w22
	.cfi_restore w30
	ret
.LBB13_33:
	.cfi_restore_state
	.cfi_remember_state
	mov	w0, #20
	ldp	x20, x19, [sp, #176]
	ldr	x30, [sp, #144]
	ldp	x22, x21, [sp, #160]
	add	sp, sp, #192
	.cfi_def_cfa_offset 0
	.cfi_restore w19
	.cfi_restore w20
	.cfi_restore w21
	.cfi_restore w22
	.cfi_restore w30
	ret
.LBB13_34:
	.cfi_restore_state
	ldrb	w9, [sp, #8]
	b	.LBB13_20
.LBB13_35:
	b	.LBB13_20
.LBB13_36:
	mov	x10, xzr
	mov	w12, wzr
	mov	w15, wzr
	adrp	x11, _RNvNtCs00000000000_7pkcs1_c10rattle_std8AN_OCTET
	add	x11, x11, :lo12:_RNvNtCs00000000000_7pkcs1_c10rattle_std8AN_OCTET
	orr	x0, x17, x16, lsl #32
	ldr	x16, [sp, #112]
	mov	x13, x19
	cbnz	x14, .LBB13_30
.LBB13_37:
	adrp	x2, _RNvNtCs00000000000_7pkcs1_c10rattle_std8AN_OCTET
	add	x2, x2, :lo12:_RNvNtCs00000000000_7pkcs1_c10rattle_std8AN_OCTET
	mov	x17, xzr
	mov	w1, wzr
	mov	w3, wzr
	mov	x18, xzr
	mov	w4, wzr
	mov	x14, x2
	b	.LBB13_39
.LBB13_38:
	mov	x17, xzr
	mov	w1, wzr
	mov	w3, wzr
	mov	w4, #1
	adrp	x2, _RNvNtCs00000000000_7pkcs1_c10rattle_std8AN_OCTET
	add	x2, x2, :lo12:_RNvNtCs00000000000_7pkcs1_c10rattle_std8AN_OCTET
.LBB13_39:
	ldp	x19, x20, [sp, #40]
	bfi	x9, x0, #24, #40
	ldp	x5, x6, [sp, #96]
	cbz	x16, .LBB13_41
	ldp	x7, x21, [sp, #120]
	mov	w22, #1
	b	.LBB13_42
.LBB13_41:
	mov	x7, xzr
	mov	w21, wzr
	mov	w22, wzr
	adrp	x16, _RNvNtCs00000000000_7pkcs1_c10rattle_std8AN_OCTET
	add	x16, x16, :lo12:_RNvNtCs00000000000_7pkcs1_c10rattle_std8AN_OCTET
.LBB13_42:
	mov	w0, wzr
	stp	x8, x9, [x13]
	strb	w15, [x13, #16]
	strb	w12, [x13, #17]
	stp	x11, x10, [x13, #24]
	stp	x19, x20, [x13, #40]
	strb	w4, [x13, #56]
	stp	x14, x18, [x13, #64]
	strb	w3, [x13, #80]
	strb	w1, [x13, #81]
	stp	x2, x17, [x13, #88]
	stp	x5, x6, [x13, #104]
	strb	w22, [x13, #120]
	strb	w21, [x13, #121]
	stp	x16, x7, [x13, #128]
	ldp	x20, x19, [sp, #176]
	ldr	x30, [sp, #144]
	ldp	x22, x21, [sp, #160]
	add	sp, sp, #192
	.cfi_def_cfa_offset 0
	.cfi_restore w19
	.cfi_restore w20
	.cfi_restore w21
	.cfi_restore w22
	.cfi_restore w30
	ret
.Lfunc_end13:
	.size	pkcs1_c_oaep_params_decode, .Lfunc_end13-pkcs1_c_oaep_params_decode
	.cfi_endproc

	.section	.text.pkcs1_c_oaep_params_decode_strict,"ax",@progbits
	.globl	pkcs1_c_oaep_params_decode_strict
	.p2align	2
	.type	pkcs1_c_oaep_params_decode_strict,@function
pkcs1_c_oaep_params_decode_strict:
	.cfi_startproc
	hint	#34
	lsr	x9, x1, #32
	cbz	x9, .LBB14_2
	mov	w0, #8
	ret
.LBB14_2:
	sub	sp, sp, #192
	.cfi_def_cfa_offset 192
	str	x30, [sp, #144]
	stp	x22, x21, [sp, #160]
	stp	x20, x19, [sp, #176]
	.cfi_offset w19, -8
	.cfi_offset w20, -16
	.cfi_offset w21, -24
	.cfi_offset w22, -32
	.cfi_offset w30, -48
	.cfi_remember_state
	mov	x8, x1
	subs	x10, x1, #2
	b.lo	.LBB14_17
	mov	x1, x0
	ldrb	w9, [x1], #2
	cmp	w9, #48
	b.ne	.LBB14_17
	ldrsb	w9, [x0, #1]
	tbnz	w9, #31, .LBB14_7
	and	x9, x9, #0xff
	subs	x20, x10, x9
	b.lo	.LBB14_17
	mov	x19, x2
	b	.LBB14_19
.LBB14_7:
	and	w9, w9, #0xff
	cmp	w9, #130
	b.ne	.LBB14_12
	cmp	x10, #1
	b.ls	.LBB14_17
	ldrb	w9, [x0, #2]
	cbz	x9, .LBB14_17
	ldrb	w10, [x0, #3]
	orr	x9, x10, x9, lsl #8
	sub	x10, x8, #4
	subs	x20, x10, x9
	b.lo	.LBB14_17
	mov	x19, x2
	add	x1, x0, #4
	b	.LBB14_19
.LBB14_12:
	cbz	x10, .LBB14_17
	cmp	w9, #129
	b.ne	.LBB14_17
	ldrsb	w9, [x1]
	tbz	w9, #31, .LBB14_17
	sub	x10, x8, #3
	and	x9, x9, #0xff
	subs	x20, x10, x9
	b.lo	.LBB14_17
	mov	x19, x2
	add	x1, x0, #3
	b	.LBB14_19
.LBB14_17:
	mov	x19, x2
	mov	x1, x0
	mov	x0, sp
	mov	x2, x8
	mov	w3, #48
	bl	_RNvNtNtNtCs00000000000_7pkcs1_c6proved8der_core5split14split_unlikely
	ldr	x1, [sp]
	cbz	x1, .LBB14_34
	ldr	x9, [sp, #8]
	ldr	x20, [sp, #24]
.LBB14_19:
	mov	x0, sp
	mov	x2, x9
	bl	_RNvNtNtNtCs00000000000_7pkcs1_c6proved12pkcs1_params6noting9note_oaep
	ldrb	w9, [sp, #2]
	ldrh	w10, [sp]
	ldrb	w8, [sp, #136]
	orr	w9, w10, w9, lsl #16
	cmp	w8, #2
	b.ne	.LBB14_23
.LBB14_20:
	sub	w8, w9, #17
	and	w10, w8, #0xff
	and	x8, x8, #0xff
	cmp	w10, #3
	csinc	x8, xzr, x8, hs
	cmp	x8, #1
	b.gt	.LBB14_25
	cbnz	x8, .LBB14_29
	and	w8, w9, #0xff
	add	w0, w8, #1
	ldp	x20, x19, [sp, #176]
	ldr	x30, [sp, #144]
	ldp	x22, x21, [sp, #160]
	add	sp, sp, #192
	.cfi_def_cfa_offset 0
	.cfi_restore w19
	.cfi_restore w20
	.cfi_restore w21
	.cfi_restore w22
	.cfi_restore w30
	ret
.LBB14_23:
	.cfi_restore_state
	.cfi_remember_state
	cbz	x20, .LBB14_27
	mov	w0, #13
	ldp	x20, x19, [sp, #176]
	ldr	x30, [sp, #144]
	ldp	x22, x21, [sp, #160]
	add	sp, sp, #192
	.cfi_def_cfa_offset 0
	.cfi_restore w19
	.cfi_restore w20
	.cfi_restore w21
	.cfi_restore w22
	.cfi_restore w30
	ret
.LBB14_25:
	.cfi_restore_state
	.cfi_remember_state
	cmp	x8, #2
	b.ne	.LBB14_30
	mov	w0, #19
	ldp	x20, x19, [sp, #176]
	ldr	x30, [sp, #144]
	ldp	x22, x21, [sp, #160]
	add	sp, sp, #192
	.cfi_def_cfa_offset 0
	.cfi_restore w19
	.cfi_restore w20
	.cfi_restore w21
	.cfi_restore w22
	.cfi_restore w30
	ret
.LBB14_27:
	.cfi_restore_state
	.cfi_remember_state
	tbz	w8, #0, .LBB14_31
	mov	w0, #5
	ldp	x20, x19, [sp, #176]
	ldr	x30, [sp, #144]
	ldp	x22, x21, [sp, #160]
	add	sp, sp, #192
	.cfi_def_cfa_offset 0
	.cfi_restore w19
	.cfi_restore w20
	.cfi_restore w21
	.cfi_restore w22
	.cfi_restore w30
	ret
.LBB14_29:
	.cfi_restore_state
	.cfi_remember_state
	mov	w0, #18
	ldp	x20, x19, [sp, #176]
	ldr	x30, [sp, #144]
	ldp	x22, x21, [sp, #160]
	add	sp, sp, #192
	.cfi_def_cfa_offset 0
	.cfi_restore w19
	.cfi_restore w20
	.cfi_restore w21
	.cfi_restore w22
	.cfi_restore w30
	ret
.LBB14_30:
	.cfi_restore_state
	.cfi_remember_state
	mov	w0, #20
	ldp	x20, x19, [sp, #176]
	ldr	x30, [sp, #144]
	ldp	x22, x21, [sp, #160]
	add	sp, sp, #192
	.cfi_def_cfa_offset 0
	.cfi_restore w19
	.cfi_restore w20
	.cfi_restore w21
	.cfi_restore w22
	.cfi_restore w30
	ret
.LBB14_31:
	.cfi_restore_state
	ldur	w8, [sp, #3]
	ldrb	w10, [sp, #7]
	ldrh	w11, [sp, #8]
	lsl	x8, x8, #24
	orr	x8, x8, x10, lsl #56
	ldrb	w10, [sp, #10]
	bfxil	x8, x9, #0, #24
	orr	w9, w11, w10, lsl #16
	cbz	x8, .LBB14_35
	lsr	w10, w9, #8
	ldrb	w15, [sp, #15]
	ldur	w16, [sp, #11]
	ldr	x12, [sp, #56]
	and	w11, w10, #0xff00
	ldr	x10, [sp, #16]
	bfxil	w11, w9, #8, #8
	and	w9, w9, #0xff
	orr	w18, w9, w11, lsl #8
	cbz	x10, .LBB14_36
	ldp	x9, x11, [sp, #24]
	mov	w14, #1
	b	.LBB14_37
.LBB14_34:
	ldrb	w9, [sp, #8]
	b	.LBB14_20
.LBB14_35:
	b	.LBB14_20
.LBB14_36:
	mov	x9, xzr
	mov	w11, wzr
	mov	w14, wzr
	adrp	x10, _RNvNtCs00000000000_7pkcs1_c10rattle_std8AN_OCTET
	add	x10, x10, :lo12:_RNvNtCs00000000000_7pkcs1_c10rattle_std8AN_OCTET
.LBB14_37:
	orr	x0, x16, x15, lsl #32
	ldr	x15, [sp, #112]
	mov	x13, x19
	cbz	x12, .LBB14_40
	ldp	x17, x2, [sp, #64]
	cbz	x2, .LBB14_41
	ldp	x16, x1, [sp, #80]
	mov	w3, #1
	mov	w4, #1
	b	.LBB14_42
.LBB14_40:
	adrp	x2, _RNvNtCs00000000000_7pkcs1_c10rattle_std8AN_OCTET
	add	x2, x2, :lo12:_RNvNtCs00000000000_7pkcs1_c10rattle_std8AN_OCTET
	mov	x16, xzr
	mov	w1, wzr
	mov	w3, wzr
	mov	x17, xzr
	mov	w4, wzr
	mov	x12, x2
	b	.LBB14_42
.LBB14_41:
	mov	x16, xzr
	mov	w1, wzr
	mov	w3, wzr
	mov	w4, #1
	adrp	x2, _RNvNtCs00000000000_7pkcs1_c10rattle_std8AN_OCTET
	add	x2, x2, :lo12:_RNvNtCs00000000000_7pkcs1_c10rattle_std8AN_OCTET
.LBB14_42:
	ldp	x7, x19, [sp, #40]
	orr	x22, x18, x0, lsl #24
	ldp	x18, x5, [sp, #96]
	cbz	x15, .LBB14_44
	ldp	x6, x20, [sp, #120]
	mov	w21, #1
	b	.LBB14_45
.LBB14_44:
	mov	x6, xzr
	mov	w20, wzr
	mov	w21, wzr
	adrp	x15, _RNvNtCs00000000000_7pkcs1_c10rattle_std8AN_OCTET
	add	x15, x15, :lo12:_RNvNtCs00000000000_7pkcs1_c10rattle_std8AN_OCTET
.LBB14_45:
	mov	w0, wzr
	stp	x8, x22, [x13]
	strb	w14, [x13, #16]
	strb	w11, [x13, #17]
	stp	x10, x9, [x13, #24]
	stp	x7, x19, [x13, #40]
	strb	w4, [x13, #56]
	stp	x12, x17, [x13, #64]
	strb	w3, [x13, #80]
	strb	w1, [x13, #81]
	stp	x2, x16, [x13, #88]
	stp	x18, x5, [x13, #104]
	strb	w21, [x13, #120]
	strb	w20, [x13, #121]
	stp	x15, x6, [x13, #128]
	ldp	x20, x19, [sp, #176]
	ldr	x30, [sp, #144]
	ldp	x22, x21, [sp, #160]
	add	sp, sp, #192
	.cfi_def_cfa_offset 0
	.cfi_restore w19
	.cfi_restore w20
	.cfi_restore w21
	.cfi_restore w22
	.cfi_restore w30
	ret
.Lfunc_end14:
	.size	pkcs1_c_oaep_params_decode_strict, .Lfunc_end14-pkcs1_c_oaep_params_decode_strict
	.cfi_endproc

	.section	.text.pkcs1_c_oaep_params_encode,"ax",@progbits
	.globl	pkcs1_c_oaep_params_encode
	.p2align	2
	.type	pkcs1_c_oaep_params_encode,@function
pkcs1_c_oaep_params_encode:
	.cfi_startproc
	hint	#34
	sub	sp, sp, #384
	.cfi_def_cfa_offset 384
	str	x29, [sp, #304]
	stp	x30, x25, [sp, #320]
	stp	x24, x23, [sp, #336]
	stp	x22, x21, [sp, #352]
	stp	x20, x19, [sp, #368]
	.cfi_offset w19, -8
	.cfi_offset w20, -16
	.cfi_offset w21, -24
	.cfi_offset w22, -32
	.cfi_offset w23, -40
	.cfi_offset w24, -48
	.cfi_offset w25, -56
	.cfi_offset w30, -64
	.cfi_offset w29, -80
	.cfi_remember_state
	mov	x19, x1
	mov	x1, x0
	add	x0, sp, #8
	mov	x20, x3
	mov	x21, x2
	bl	_RNvNtNtNtCs00000000000_7pkcs1_c5calls7pkcs1_c4oaep11from_c_oaep
	ldr	x8, [sp, #8]
	cbz	x8, .LBB15_36
	ldur	q0, [sp, #104]
	ldur	q1, [sp, #120]
	add	x22, sp, #144
	ldur	q2, [sp, #56]
	ldr	x8, [sp, #136]
	stp	q0, q1, [x22, #96]
	ldur	q0, [sp, #40]
	ldur	q1, [sp, #88]
	str	x8, [sp, #272]
	stp	q0, q2, [x22, #32]
	ldur	q0, [sp, #72]
	ldur	q2, [sp, #24]
	stp	q0, q1, [x22, #64]
	ldur	q0, [sp, #8]
	stp	q0, q2, [x22]
	ldr	x9, [sp, #160]
	cbz	x9, .LBB15_9
	ldr	x8, [sp, #152]
	cmp	x8, #5
	b.ne	.LBB15_9
	ldr	x8, [sp, #144]
	ldrb	w9, [x8]
	cmp	w9, #43
	b.ne	.LBB15_9
	ldrb	w9, [x8, #1]
	cmp	w9, #14
	b.ne	.LBB15_9
	ldrb	w9, [x8, #2]
	cmp	w9, #3
	b.ne	.LBB15_9
	ldrb	w9, [x8, #3]
	cmp	w9, #2
	b.ne	.LBB15_9
	ldrb	w8, [x8, #4]
	cmp	w8, #26
	b.ne	.LBB15_9
	ldrb	w8, [sp, #176]
	ldr	x9, [sp, #168]
	cmp	x8, #5
	ccmp	x9, #0, #0, eq
	cset	w23, eq
	b	.LBB15_10
.LBB15_9:
	mov	w23, wzr
.LBB15_10:
	ldr	x8, [sp, #200]
	cbz	x8, .LBB15_22
	ldr	x9, [sp, #192]
	cmp	x9, #9
	b.ne	.LBB15_22
	ldr	x9, [sp, #184]
	mov	x11, #34346
	movk	x11, #34376, lsl #16
	ldr	x10, [x9]
	movk	x11, #3575, lsl #32
	movk	x11, #257, lsl #48
	cmp	x10, x11
	b.ne	.LBB15_22
	ldrb	w9, [x9, #8]
	cmp	w9, #8
	b.ne	.LBB15_22
	ldr	x9, [sp, #216]
	mov	w24, wzr
	cbz	x9, .LBB15_23
	ldr	x9, [sp, #208]
	cmp	x9, #5
	b.ne	.LBB15_23
	ldrb	w9, [x8]
	cmp	w9, #43
	b.ne	.LBB15_22
	ldrb	w9, [x8, #1]
	cmp	w9, #14
	b.ne	.LBB15_22
	ldrb	w9, [x8, #2]
	cmp	w9, #3
	b.ne	.LBB15_22
	ldrb	w9, [x8, #3]
	cmp	w9, #2
	b.ne	.LBB15_22
	ldrb	w8, [x8, #4]
	cmp	w8, #26
	b.ne	.LBB15_22
	ldrb	w8, [sp, #232]
	ldr	x9, [sp, #224]
	cmp	x8, #5
	ccmp	x9, #0, #0, eq
	cset	w24, eq
	b	.LBB15_23
.LBB15_22:
	mov	w24, wzr
.LBB15_23:
	ldr	x8, [sp, #256]
	cbz	x8, .LBB15_32
	ldr	x8, [sp, #248]
	cmp	x8, #9
	b.ne	.LBB15_32
	ldr	x8, [sp, #240]
	mov	x10, #34346
	movk	x10, #34376, lsl #16
	ldr	x9, [x8]
	movk	x10, #3575, lsl #32
	movk	x10, #257, lsl #48
	cmp	x9, x10
	b.ne	.LBB15_32
	ldrb	w8, [x8, #8]
	cmp	w8, #9
	b.ne	.LBB15_32
	ldrb	w8, [sp, #272]
	ldr	x9, [sp, #264]
	cmp	x8, #4
	ccmp	x9, #0, #0, eq
	cset	w25, eq
	str	xzr, [sp, #280]
	cbnz	w23, .LBB15_33
.LBB15_28:
	cbz	w24, .LBB15_41
	tbnz	w25, #0, .LBB15_31
	add	x0, x22, #96
	add	x1, sp, #280
	bl	_RINvNtNtNtCs00000000000_7pkcs1_c6proved12pkcs1_params6fields13prepend_fieldINtNtNtB6_9spki_core20algorithm_identifier21AlgorithmIdentifierOfNtNtB1g_15identifier_view14IdentifierViewNtNtB1g_3any6AnyRefENtNtNtB6_8der_core7counter7CounterEB8_
.LBB15_31:
	add	x0, sp, #8
	add	x1, sp, #280
	bl	_RINvNtNtNtCs00000000000_7pkcs1_c6proved12pkcs1_params6fields13prepend_fieldINtNtNtB6_9spki_core20algorithm_identifier21AlgorithmIdentifierOfNtNtB1g_15identifier_view14IdentifierViewNtNtB1g_3any6AnyRefENtNtNtB6_8der_core7counter7CounterEB8_
	ldr	x8, [sp, #280]
	cmp	x8, #128
	b.hs	.LBB15_44
	b	.LBB15_49
.LBB15_32:
	mov	w25, wzr
	str	xzr, [sp, #280]
	cbz	w23, .LBB15_28
.LBB15_33:
	cbz	w24, .LBB15_46
	tbz	w25, #0, .LBB15_64
	mov	x8, xzr
	b	.LBB15_49
.LBB15_36:
	ldrb	w8, [sp, #16]
	sub	w9, w8, #17
	and	x10, x9, #0xff
	cmp	w9, #3
	csinc	x9, xzr, x10, hs
	cmp	x9, #1
	b.gt	.LBB15_39
	cbnz	x9, .LBB15_62
	add	w0, w8, #1
	b	.LBB15_97
.LBB15_39:
	cmp	x9, #2
	b.ne	.LBB15_63
	mov	w0, #19
	b	.LBB15_97
.LBB15_41:
	tbnz	w25, #0, .LBB15_43
	add	x0, x22, #96
	add	x1, sp, #280
	bl	_RINvNtNtNtCs00000000000_7pkcs1_c6proved12pkcs1_params6fields13prepend_fieldINtNtNtB6_9spki_core20algorithm_identifier21AlgorithmIdentifierOfNtNtB1g_15identifier_view14IdentifierViewNtNtB1g_3any6AnyRefENtNtNtB6_8der_core7counter7CounterEB8_
.LBB15_43:
	add	x0, x22, #40
	add	x1, sp, #280
	bl	_RINvNtNtNtCs00000000000_7pkcs1_c6proved12pkcs1_params6fields13prepend_fieldINtNtNtB6_9spki_core20algorithm_identifier21AlgorithmIdentifierOfNtNtB1g_15identifier_view14IdentifierViewIB1c_B2e_NtNtB1g_3any6AnyRefEENtNtNtB6_8der_core7counter7CounterEB8_
	add	x0, sp, #8
	add	x1, sp, #280
	bl	_RINvNtNtNtCs00000000000_7pkcs1_c6proved12pkcs1_params6fields13prepend_fieldINtNtNtB6_9spki_core20algorithm_identifier21AlgorithmIdentifierOfNtNtB1g_15identifier_view14IdentifierViewNtNtB1g_3any6AnyRefENtNtNtB6_8der_core7counter7CounterEB8_
	ldr	x8, [sp, #280]
	cmp	x8, #128
	b.lo	.LBB15_49
.LBB15_44:
	cmp	x8, #256
	b.hs	.LBB15_60
	mov	w9, #3
	b	.LBB15_50
.LBB15_46:
	tbnz	w25, #0, .LBB15_48
	add	x0, x22, #96
	add	x1, sp, #280
	bl	_RINvNtNtNtCs00000000000_7pkcs1_c6proved12pkcs1_params6fields13prepend_fieldINtNtNtB6_9spki_core20algorithm_identifier21AlgorithmIdentifierOfNtNtB1g_15identifier_view14IdentifierViewNtNtB1g_3any6AnyRefENtNtNtB6_8der_core7counter7CounterEB8_
.LBB15_48:
	add	x0, x22, #40
	add	x1, sp, #280
	bl	_RINvNtNtNtCs00000000000_7pkcs1_c6proved12pkcs1_params6fields13prepend_fieldINtNtNtB6_9spki_core20algorithm_identifier21AlgorithmIdentifierOfNtNtB1g_15identifier_view14IdentifierViewIB1c_B2e_NtNtB1g_3any6AnyRefEENtNtNtB6_8der_core7counter7CounterEB8_
	ldr	x8, [sp, #280]
	cmp	x8, #128
	b.hs	.LBB15_44
.LBB15_49:
	mov	w9, #2
.LBB15_50:
	add	x10, x9, x8
.LBB15_51:
	cmp	x10, x21
	str	x10, [x20]
	b.ls	.LBB15_53
	mov	w0, #15
	b	.LBB15_97
.LBB15_53:
	stp	x19, x10, [sp, #280]
	str	x10, [sp, #296]
	cbz	w23, .LBB15_57
	cbz	w24, .LBB15_65
	mov	x9, x10
	tbnz	w25, #0, .LBB15_74
	add	x1, x22, #96
	add	x2, sp, #280
	mov	w0, #2
	b	.LBB15_72
.LBB15_57:
	cbz	w24, .LBB15_68
	tbnz	w25, #0, .LBB15_71
	add	x1, x22, #96
	add	x2, sp, #280
	mov	w0, #2
	bl	_RINvNtNtNtCs00000000000_7pkcs1_c6proved12pkcs1_params6fields13prepend_fieldINtNtNtB6_9spki_core20algorithm_identifier21AlgorithmIdentifierOfNtNtB1g_15identifier_view14IdentifierViewNtNtB1g_3any6AnyRefENtNtNtB6_8der_core11back_writer10BackWriterEB8_
	b	.LBB15_71
.LBB15_60:
	cmp	x8, #16, lsl #12
	b.hs	.LBB15_87
	mov	w9, #4
	b	.LBB15_50
.LBB15_62:
	mov	w0, #18
	b	.LBB15_97
.LBB15_63:
	mov	w0, #20
	b	.LBB15_97
.LBB15_64:
	add	x0, x22, #96
	add	x1, sp, #280
	bl	_RINvNtNtNtCs00000000000_7pkcs1_c6proved12pkcs1_params6fields13prepend_fieldINtNtNtB6_9spki_core20algorithm_identifier21AlgorithmIdentifierOfNtNtB1g_15identifier_view14IdentifierViewNtNtB1g_3any6AnyRefENtNtNtB6_8der_core7counter7CounterEB8_
	ldr	x8, [sp, #280]
	cmp	x8, #128
	b.hs	.LBB15_44
	b	.LBB15_49
.LBB15_65:
	tbnz	w25, #0, .LBB15_67
	add	x1, x22, #96
	add	x2, sp, #280
	mov	w0, #2
	bl	_RINvNtNtNtCs00000000000_7pkcs1_c6proved12pkcs1_params6fields13prepend_fieldINtNtNtB6_9spki_core20algorithm_identifier21AlgorithmIdentifierOfNtNtB1g_15identifier_view14IdentifierViewNtNtB1g_3any6AnyRefENtNtNtB6_8der_core11back_writer10BackWriterEB8_
.LBB15_67:
	add	x0, x22, #40
	add	x1, sp, #280
	bl	_RINvNtNtNtCs00000000000_7pkcs1_c6proved12pkcs1_params6fields13prepend_fieldINtNtNtB6_9spki_core20algorithm_identifier21AlgorithmIdentifierOfNtNtB1g_15identifier_view14IdentifierViewIB1c_B2e_NtNtB1g_3any6AnyRefEENtNtNtB6_8der_core11back_writer10BackWriterEB8_
	b	.LBB15_73
.LBB15_68:
	tbnz	w25, #0, .LBB15_70
	add	x1, x22, #96
	add	x2, sp, #280
	mov	w0, #2
	bl	_RINvNtNtNtCs00000000000_7pkcs1_c6proved12pkcs1_params6fields13prepend_fieldINtNtNtB6_9spki_core20algorithm_identifier21AlgorithmIdentifierOfNtNtB1g_15identifier_view14IdentifierViewNtNtB1g_3any6AnyRefENtNtNtB6_8der_core11back_writer10BackWriterEB8_
.LBB15_70:
	add	x0, x22, #40
	add	x1, sp, #280
	bl	_RINvNtNtNtCs00000000000_7pkcs1_c6proved12pkcs1_params6fields13prepend_fieldINtNtNtB6_9spki_core20algorithm_identifier21AlgorithmIdentifierOfNtNtB1g_15identifier_view14IdentifierViewIB1c_B2e_NtNtB1g_3any6AnyRefEENtNtNtB6_8der_core11back_writer10BackWriterEB8_
.LBB15_71:
	add	x1, sp, #8
	add	x2, sp, #280
	mov	w0, wzr
.LBB15_72:
	bl	_RINvNtNtNtCs00000000000_7pkcs1_c6proved12pkcs1_params6fields13prepend_fieldINtNtNtB6_9spki_core20algorithm_identifier21AlgorithmIdentifierOfNtNtB1g_15identifier_view14IdentifierViewNtNtB1g_3any6AnyRefENtNtNtB6_8der_core11back_writer10BackWriterEB8_
.LBB15_73:
	ldp	x10, x9, [sp, #288]
.LBB15_74:
	sub	x8, x10, x9
	cmp	w8, #128
	b.hs	.LBB15_78
	cmp	x9, #2
	b.lo	.LBB15_96
	cmp	x10, x9
	b.lo	.LBB15_100
	ldr	x10, [sp, #280]
	mov	w11, #48
	mov	w0, wzr
	orr	w8, w11, w8, lsl #8
	add	x9, x10, x9
	sturh	w8, [x9, #-2]
	b	.LBB15_97
.LBB15_78:
	cmp	w8, #256
	b.hs	.LBB15_83
	cmp	x9, #3
	b.lo	.LBB15_96
	cmp	x10, x9
	b.lo	.LBB15_100
	ldr	x10, [sp, #280]
	mov	w11, #33072
	add	x9, x10, x9
	sturh	w11, [x9, #-3]
.LBB15_82:
	sturb	w8, [x9, #-1]
	b	.LBB15_96
.LBB15_83:
	cmp	w8, #16, lsl #12
	b.hs	.LBB15_89
	cmp	x9, #4
	b.lo	.LBB15_96
	cmp	x10, x9
	b.lo	.LBB15_100
	ldr	x10, [sp, #280]
	mov	w11, #813826048
	mov	w0, wzr
	orr	w8, w8, w11
	add	x9, x10, x9
	rev	w8, w8
	stur	w8, [x9, #-4]
	b	.LBB15_97
.LBB15_87:
	lsr	x9, x8, #24
	cbnz	x9, .LBB15_93
	mov	w9, #5
	b	.LBB15_50
.LBB15_89:
	lsr	w11, w8, #24
	cbnz	w11, .LBB15_95
	cmp	x9, #5
	b.lo	.LBB15_96
	cmp	x10, x9
	b.lo	.LBB15_100
	ldr	x10, [sp, #280]
	lsr	x11, x8, #16
	mov	w12, #33584
	add	x9, x10, x9
	lsr	x10, x8, #8
	sturh	w12, [x9, #-5]
	sturb	w11, [x9, #-3]
	sturb	w10, [x9, #-2]
	b	.LBB15_82
.LBB15_93:
	adds	x8, x8, #6
	csinv	x10, x8, xzr, lo
	lsr	x8, x10, #32
	cbz	x8, .LBB15_51
	mov	w0, #8
	b	.LBB15_97
.LBB15_95:
	cmp	x9, #6
	b.hs	.LBB15_98
.LBB15_96:
	mov	w0, wzr
.LBB15_97:
	ldp	x20, x19, [sp, #368]
	ldr	x29, [sp, #304]
	ldp	x22, x21, [sp, #352]
	ldp	x24, x23, [sp, #336]
	ldp	x30, x25, [sp, #320]
	add	sp, sp, #384
	.cfi_def_cfa_offset 0
	.cfi_restore w19
	.cfi_restore w20
	.cfi_restore w21
	.cfi_restore w22
	.cfi_restore w23
	.cfi_restore w24
	.cfi_restore w25
	.cfi_restore w30
	.cfi_restore w29
	ret
.LBB15_98:
	.cfi_restore_state
	cmp	x10, x9
	b.lo	.LBB15_100
	ldr	x10, [sp, #280]
	mov	w12, #33840
	lsr	x11, x8, #24
	add	x9, x10, x9
	lsr	x10, x8, #16
	sturh	w12, [x9, #-6]
	lsr	x12, x8, #8
	sturb	w11, [x9, #-4]
	sturb	w10, [x9, #-3]
	sturb	w12, [x9, #-2]
	b	.LBB15_82
.LBB15_100:
	brk	#0x1
.Lfunc_end15:
	.size	pkcs1_c_oaep_params_encode, .Lfunc_end15-pkcs1_c_oaep_params_encode
	.cfi_endproc

	.section	.text.pkcs1_c_oaep_label,"ax",@progbits
	.globl	pkcs1_c_oaep_label
	.p2align	2
	.type	pkcs1_c_oaep_label,@function
pkcs1_c_oaep_label:
	.cfi_startproc
	hint	#34
	ldrb	w8, [x0, #16]
	cmp	w8, #1
	mov	w8, wzr
	b.ne	.LBB16_7
	ldrb	w9, [x0, #17]
	cmp	w9, #4
	b.ne	.LBB16_7
	ldr	x8, [x0, #8]
	cmp	x8, #9
	b.ne	.LBB16_6
	ldr	x8, [x0]
	mov	x10, #34346
	movk	x10, #34376, lsl #16
	ldr	x9, [x8]
	movk	x10, #3575, lsl #32
	movk	x10, #257, lsl #48
	cmp	x9, x10
	b.ne	.LBB16_6
	ldrb	w8, [x8, #8]
	cmp	w8, #9
	b.ne	.LBB16_6
	ldp	x8, x9, [x0, #24]
	mov	w0, #1
	stp	x8, x9, [x1]
	ret
.LBB16_6:
	mov	w8, wzr
.LBB16_7:
	mov	w0, w8
	ret
.Lfunc_end16:
	.size	pkcs1_c_oaep_label, .Lfunc_end16-pkcs1_c_oaep_label
	.cfi_endproc

	.section	.text.pkcs1_c_oaep_algorithm_decode,"ax",@progbits
	.globl	pkcs1_c_oaep_algorithm_decode
	.p2align	2
	.type	pkcs1_c_oaep_algorithm_decode,@function
pkcs1_c_oaep_algorithm_decode:
	.cfi_startproc
	hint	#34
	sub	sp, sp, #192
	.cfi_def_cfa_offset 192
	stp	x30, x23, [sp, #144]
	stp	x22, x21, [sp, #160]
	stp	x20, x19, [sp, #176]
	.cfi_offset w19, -8
	.cfi_offset w20, -16
	.cfi_offset w21, -24
	.cfi_offset w22, -32
	.cfi_offset w23, -40
	.cfi_offset w30, -48
	.cfi_remember_state
	lsr	x9, x1, #32
	cbz	x9, .LBB17_3
	mov	w0, #8
.LBB17_2:
	ldp	x20, x19, [sp, #176]
	ldp	x22, x21, [sp, #160]
	ldp	x30, x23, [sp, #144]
	add	sp, sp, #192
	.cfi_def_cfa_offset 0
	.cfi_restore w19
	.cfi_restore w20
	.cfi_restore w21
	.cfi_restore w22
	.cfi_restore w23
	.cfi_restore w30
	ret
.LBB17_3:
	.cfi_restore_state
	.cfi_remember_state
	mov	x8, x1
	subs	x10, x1, #2
	b.lo	.LBB17_49
	mov	x1, x0
	ldrb	w9, [x1], #2
	cmp	w9, #48
	b.ne	.LBB17_49
	ldrsb	w9, [x0, #1]
	tbnz	w9, #31, .LBB17_34
	and	x9, x9, #0xff
	subs	x21, x10, x9
	b.lo	.LBB17_49
	cmp	x9, #2
	b.lo	.LBB17_81
.LBB17_8:
	mov	x22, x1
	ldrb	w8, [x22], #2
	cmp	w8, #6
	b.ne	.LBB17_81
	ldrsb	w10, [x1, #1]
	sub	x8, x9, #2
	tbnz	w10, #31, .LBB17_39
	and	x19, x10, #0xff
	subs	x8, x8, x19
	b.lo	.LBB17_81
	add	x1, x22, x19
	sub	x10, x19, #1
	cmp	x10, #38
	b.hi	.LBB17_83
.LBB17_12:
	ldrsb	w9, [x22, x10]
	tbnz	w9, #31, .LBB17_25
	movi	v0.8b, #128
	movi	v1.4h, #128
	mov	x11, x22
	b	.LBB17_16
.LBB17_14:
	mov	x12, #-1
	mov	w13, #1
.LBB17_15:
	add	x10, x12, x10
	add	x11, x11, x13
.LBB17_16:
	cmp	x10, #7
	b.ls	.LBB17_19
	ldr	d2, [x11]
	cmeq	v2.8b, v2.8b, v0.8b
	umaxv	b2, v2.8b
	fmov	w12, s2
	tbnz	w12, #0, .LBB17_24
	mov	x12, #-8
	mov	w13, #8
	b	.LBB17_15
.LBB17_19:
	cmp	x10, #3
	b.ls	.LBB17_22
	ldr	s2, [x11]
	ushll	v2.8h, v2.8b, #0
	cmeq	v2.4h, v2.4h, v1.4h
	umaxv	h2, v2.4h
	fmov	w12, s2
	tbnz	w12, #0, .LBB17_24
	mov	x12, #-4
	mov	w13, #4
	b	.LBB17_15
.LBB17_22:
	cbz	x10, .LBB17_28
	ldrb	w12, [x11]
	cmp	w12, #128
	b.ne	.LBB17_14
.LBB17_24:
	cbz	x19, .LBB17_28
.LBB17_25:
	ldrb	w10, [x22]
	cmp	w10, #128
	b.eq	.LBB17_83
	subs	x10, x19, #1
	b.ne	.LBB17_57
.LBB17_27:
	tbnz	w9, #31, .LBB17_83
.LBB17_28:
	cbz	x8, .LBB17_56
	ldrb	w20, [x1]
	mov	w9, #31
	mov	w0, #12
	bics	wzr, w9, w20
	b.eq	.LBB17_2
	and	w9, w20, #0xffffffdf
	tst	w9, #0xff
	b.eq	.LBB17_2
	cmp	x8, #1
	b.eq	.LBB17_72
	ldrsb	w10, [x1, #1]
	add	x9, x1, #2
	sub	x11, x8, #2
	tbnz	w10, #31, .LBB17_62
	and	x10, x10, #0xff
	subs	x11, x11, x10
	b.hs	.LBB17_74
	b	.LBB17_72
.LBB17_34:
	and	w9, w9, #0xff
	cmp	w9, #130
	b.ne	.LBB17_44
	cmp	x10, #1
	b.ls	.LBB17_49
	ldrb	w9, [x0, #2]
	cbz	x9, .LBB17_49
	ldrb	w10, [x0, #3]
	orr	x9, x10, x9, lsl #8
	sub	x10, x8, #4
	subs	x21, x10, x9
	b.lo	.LBB17_49
	add	x1, x0, #4
	b	.LBB17_8
.LBB17_39:
	and	w10, w10, #0xff
	cmp	w10, #130
	b.ne	.LBB17_51
	cmp	x8, #1
	b.ls	.LBB17_81
	ldrb	w8, [x1, #2]
	cbz	x8, .LBB17_81
	ldrb	w10, [x1, #3]
	orr	x19, x10, x8, lsl #8
	sub	x8, x9, #4
	subs	x8, x8, x19
	b.lo	.LBB17_81
	add	x22, x1, #4
	add	x1, x22, x19
	sub	x10, x19, #1
	cmp	x10, #38
	b.ls	.LBB17_12
	b	.LBB17_83
.LBB17_44:
	cbz	x10, .LBB17_49
	cmp	w9, #129
	b.ne	.LBB17_49
	ldrsb	w9, [x1]
	tbz	w9, #31, .LBB17_49
	sub	x10, x8, #3
	and	x9, x9, #0xff
	subs	x21, x10, x9
	b.lo	.LBB17_49
	add	x1, x0, #3
	b	.LBB17_8
.LBB17_49:
	mov	x19, x2
	mov	x1, x0
	mov	x0, sp
	mov	x2, x8
	mov	w3, #48
	bl	_RNvNtNtNtCs00000000000_7pkcs1_c6proved8der_core5split14split_unlikely
	ldr	x1, [sp]
	cbz	x1, .LBB17_84
	ldr	x9, [sp, #8]
	ldr	x21, [sp, #24]
	mov	x2, x19
	cmp	x9, #2
	b.hs	.LBB17_8
	b	.LBB17_81
.LBB17_51:
	cbz	x8, .LBB17_80
	cmp	w10, #129
	b.ne	.LBB17_81
	ldrsb	w8, [x22]
	tbz	w8, #31, .LBB17_81
	sub	x10, x9, #3
	and	x19, x8, #0xff
	subs	x8, x10, x19
	b.lo	.LBB17_81
	add	x22, x1, #3
	add	x1, x22, x19
	sub	x10, x19, #1
	cmp	x10, #38
	b.hi	.LBB17_83
	b	.LBB17_12
.LBB17_56:
	mov	x9, xzr
	mov	x10, xzr
	mov	x11, xzr
	cbnz	x21, .LBB17_76
	b	.LBB17_77
.LBB17_57:
	mov	x0, xzr
	add	x11, x22, #1
	b	.LBB17_59
.LBB17_58:
	add	x0, x0, #1
	add	x11, x11, #1
	cmp	x10, x0
	b.eq	.LBB17_27
.LBB17_59:
	ldrb	w12, [x11]
	cmp	w12, #128
	b.ne	.LBB17_58
	cmp	x0, x19
	b.hs	.LBB17_111
	ldursb	w12, [x11, #-1]
	tbnz	w12, #31, .LBB17_58
	b	.LBB17_83
.LBB17_62:
	and	w10, w10, #0xff
	cmp	w10, #130
	b.ne	.LBB17_67
	cmp	x11, #1
	b.ls	.LBB17_72
	ldrb	w9, [x1, #2]
	cbz	x9, .LBB17_72
	ldrb	w10, [x1, #3]
	orr	x10, x10, x9, lsl #8
	sub	x9, x8, #4
	subs	x11, x9, x10
	b.lo	.LBB17_72
	add	x9, x1, #4
	b	.LBB17_74
.LBB17_67:
	cbz	x11, .LBB17_72
	cmp	w10, #129
	b.ne	.LBB17_72
	ldrsb	w9, [x9]
	tbz	w9, #31, .LBB17_72
	sub	x11, x8, #3
	and	x10, x9, #0xff
	subs	x11, x11, x10
	b.lo	.LBB17_72
	add	x9, x1, #3
	b	.LBB17_74
.LBB17_72:
	mov	x23, x2
	mov	x0, sp
	mov	x2, x8
	mov	w3, w20
	bl	_RNvNtNtNtCs00000000000_7pkcs1_c6proved8der_core5split14split_unlikely
	ldr	x9, [sp]
	cbz	x9, .LBB17_84
	ldr	x10, [sp, #8]
	ldr	x11, [sp, #24]
	mov	x2, x23
.LBB17_74:
	cbnz	x11, .LBB17_76
	and	x8, x10, #0xffffffffff000000
	and	x11, x10, #0xffff00
	cbz	x21, .LBB17_77
.LBB17_76:
	mov	w0, #13
	ldp	x20, x19, [sp, #176]
	ldp	x22, x21, [sp, #160]
	ldp	x30, x23, [sp, #144]
	add	sp, sp, #192
	.cfi_def_cfa_offset 0
	.cfi_restore w19
	.cfi_restore w20
	.cfi_restore w21
	.cfi_restore w22
	.cfi_restore w23
	.cfi_restore w30
	ret
.LBB17_77:
	.cfi_restore_state
	.cfi_remember_state
	cmp	x19, #9
	b.ne	.LBB17_79
	mov	x14, #34346
	ldr	x12, [x22]
	ldrb	w13, [x22, #8]
	movk	x14, #34376, lsl #16
	movk	x14, #3575, lsl #32
	movk	x14, #257, lsl #48
	cmp	x12, x14
	ccmp	w13, #7, #0, eq
	b.eq	.LBB17_92
.LBB17_79:
	mov	w0, #7
	ldp	x20, x19, [sp, #176]
	ldp	x22, x21, [sp, #160]
	ldp	x30, x23, [sp, #144]
	add	sp, sp, #192
	.cfi_def_cfa_offset 0
	.cfi_restore w19
	.cfi_restore w20
	.cfi_restore w21
	.cfi_restore w22
	.cfi_restore w23
	.cfi_restore w30
	ret
.LBB17_80:
	.cfi_restore_state
	.cfi_remember_state
	mov	w9, #2
.LBB17_81:
	mov	x20, x2
	mov	x0, sp
	mov	x2, x9
	mov	w3, #6
	bl	_RNvNtNtNtCs00000000000_7pkcs1_c6proved8der_core5split14split_unlikely
	ldr	x22, [sp]
	cbz	x22, .LBB17_84
	ldp	x19, x1, [sp, #8]
	mov	x2, x20
	ldr	x8, [sp, #24]
	sub	x10, x19, #1
	cmp	x10, #38
	b.ls	.LBB17_12
.LBB17_83:
	mov	w0, #6
	ldp	x20, x19, [sp, #176]
	ldp	x22, x21, [sp, #160]
	ldp	x30, x23, [sp, #144]
	add	sp, sp, #192
	.cfi_def_cfa_offset 0
	.cfi_restore w19
	.cfi_restore w20
	.cfi_restore w21
	.cfi_restore w22
	.cfi_restore w23
	.cfi_restore w30
	ret
.LBB17_84:
	.cfi_restore_state
	.cfi_remember_state
	ldrb	w8, [sp, #8]
.LBB17_85:
	sub	w9, w8, #17
	and	w10, w9, #0xff
	and	x9, x9, #0xff
	cmp	w10, #3
	csinc	x9, xzr, x9, hs
	cmp	x9, #1
	b.gt	.LBB17_88
	cbnz	x9, .LBB17_90
	and	w8, w8, #0xff
	add	w0, w8, #1
	ldp	x20, x19, [sp, #176]
	ldp	x22, x21, [sp, #160]
	ldp	x30, x23, [sp, #144]
	add	sp, sp, #192
	.cfi_def_cfa_offset 0
	.cfi_restore w19
	.cfi_restore w20
	.cfi_restore w21
	.cfi_restore w22
	.cfi_restore w23
	.cfi_restore w30
	ret
.LBB17_88:
	.cfi_restore_state
	.cfi_remember_state
	cmp	x9, #2
	b.ne	.LBB17_91
	mov	w0, #19
	ldp	x20, x19, [sp, #176]
	ldp	x22, x21, [sp, #160]
	ldp	x30, x23, [sp, #144]
	add	sp, sp, #192
	.cfi_def_cfa_offset 0
	.cfi_restore w19
	.cfi_restore w20
	.cfi_restore w21
	.cfi_restore w22
	.cfi_restore w23
	.cfi_restore w30
	ret
.LBB17_90:
	.cfi_restore_state
	.cfi_remember_state
	mov	w0, #18
	ldp	x20, x19, [sp, #176]
	ldp	x22, x21, [sp, #160]
	ldp	x30, x23, [sp, #144]
	add	sp, sp, #192
	.cfi_def_cfa_offset 0
	.cfi_restore w19
	.cfi_restore w20
	.cfi_restore w21
	.cfi_restore w22
	.cfi_restore w23
	.cfi_restore w30
	ret
.LBB17_91:
	.cfi_restore_state
	.cfi_remember_state
	mov	w0, #20
	ldp	x20, x19, [sp, #176]
	ldp	x22, x21, [sp, #160]
	ldp	x30, x23, [sp, #144]
	add	sp, sp, #192
	.cfi_def_cfa_offset 0
	.cfi_restore w19
	.cfi_restore w20
	.cfi_restore w21
	.cfi_restore w22
	.cfi_restore w23
	.cfi_restore w30
	ret
.LBB17_92:
	.cfi_restore_state
	.cfi_remember_state
	cbz	x9, .LBB17_98
	and	w12, w20, #0xff
	cmp	w12, #48
	b.ne	.LBB17_99
	and	x10, x10, #0xff
	orr	x8, x11, x8
	mov	x19, x2
	mov	x0, sp
	orr	x2, x10, x8
	mov	x1, x9
	bl	_RNvNtNtNtCs00000000000_7pkcs1_c6proved12pkcs1_params6noting9note_oaep
	ldrb	w9, [sp, #136]
	ldrb	w8, [sp]
	cmp	w9, #2
	b.eq	.LBB17_85
	ldrb	w9, [sp, #2]
	ldur	w10, [sp, #3]
	ldrb	w11, [sp, #1]
	ldrb	w12, [sp, #7]
	lsl	x10, x10, #24
	orr	x8, x8, x9, lsl #16
	ldrb	w9, [sp, #8]
	orr	x10, x10, x12, lsl #56
	orr	x8, x8, x11, lsl #8
	orr	x8, x8, x10
	cbz	x8, .LBB17_100
	ldrb	w11, [sp, #9]
	ldrb	w15, [sp, #10]
	ldrb	w16, [sp, #15]
	ldr	x10, [sp, #16]
	ldur	w17, [sp, #11]
	ldr	x12, [sp, #56]
	orr	x18, x9, x11, lsl #8
	cbz	x10, .LBB17_101
	ldp	x9, x11, [sp, #24]
	mov	w14, #1
	b	.LBB17_102
.LBB17_98:
	mov	w0, #10
	ldp	x20, x19, [sp, #176]
	ldp	x22, x21, [sp, #160]
	ldp	x30, x23, [sp, #144]
	add	sp, sp, #192
	.cfi_def_cfa_offset 0
	.cfi_restore w19
	.cfi_restore w20
	.cfi_restore w21
	.cfi_restore w22
	.cfi_restore w23
	.cfi_restore w30
	ret
.LBB17_99:
	.cfi_restore_state
	.cfi_remember_state
	mov	w0, #11
	ldp	x20, x19, [sp, #176]
	ldp	x22, x21, [sp, #160]
	ldp	x30, x23, [sp, #144]
	add	sp, sp, #192
	.cfi_def_cfa_offset 0
	.cfi_restore w19
	.cfi_restore w20
	.cfi_restore w21
	.cfi_restore w22
	.cfi_restore w23
	.cfi_restore w30
	ret
.LBB17_100:
	.cfi_restore_state
	.cfi_remember_state
	mov	w8, w9
	b	.LBB17_85
.LBB17_101:
	mov	x9, xzr
	mov	w11, wzr
	mov	w14, wzr
	adrp	x10, _RNvNtCs00000000000_7pkcs1_c10rattle_std8AN_OCTET
	add	x10, x10, :lo12:_RNvNtCs00000000000_7pkcs1_c10rattle_std8AN_OCTET
.LBB17_102:
	orr	x0, x17, x16, lsl #32
	orr	x4, x18, x15, lsl #16
	ldr	x15, [sp, #112]
	mov	x13, x19
	cbz	x12, .LBB17_105
	ldp	x17, x1, [sp, #64]
	cbz	x1, .LBB17_106
	ldp	x16, x18, [sp, #80]
	mov	w2, #1
	mov	w3, #1
	b	.LBB17_107
.LBB17_105:
	adrp	x1, _RNvNtCs00000000000_7pkcs1_c10rattle_std8AN_OCTET
	add	x1, x1, :lo12:_RNvNtCs00000000000_7pkcs1_c10rattle_std8AN_OCTET
	mov	x16, xzr
	mov	w18, wzr
	mov	w2, wzr
	mov	x17, xzr
	mov	w3, wzr
	mov	x12, x1
	b	.LBB17_107
.LBB17_106:
	mov	x16, xzr
	mov	w18, wzr
	mov	w2, wzr
	mov	w3, #1
	adrp	x1, _RNvNtCs00000000000_7pkcs1_c10rattle_std8AN_OCTET
	add	x1, x1, :lo12:_RNvNtCs00000000000_7pkcs1_c10rattle_std8AN_OCTET
.LBB17_107:
	ldp	x7, x19, [sp, #40]
	orr	x22, x4, x0, lsl #24
	ldp	x4, x5, [sp, #96]
	cbz	x15, .LBB17_109
	ldp	x6, x20, [sp, #120]
	mov	w21, #1
	b	.LBB17_110
.LBB17_109:
	mov	x6, xzr
	mov	w20, wzr
	mov	w21, wzr
	adrp	x15, _RNvNtCs00000000000_7pkcs1_c10rattle_std8AN_OCTET
	add	x15, x15, :lo12:_RNvNtCs00000000000_7pkcs1_c10rattle_std8AN_OCTET
.LBB17_110:
	mov	w0, wzr
	stp	x8, x22, [x13]
	strb	w14, [x13, #16]
	strb	w11, [x13, #17]
	stp	x10, x9, [x13, #24]
	stp	x7, x19, [x13, #40]
	strb	w3, [x13, #56]
	stp	x12, x17, [x13, #64]
	strb	w2, [x13, #80]
	strb	w18, [x13, #81]
	stp	x1, x16, [x13, #88]
	stp	x4, x5, [x13, #104]
	strb	w21, [x13, #120]
	strb	w20, [x13, #121]
	stp	x15, x6, [x13, #128]
	ldp	x20, x19, [sp, #176]
	ldp	x22, x21, [sp, #160]
	ldp	x30, x23, [sp, #144]
	add	sp, sp, #192
	.cfi_def_cfa_offset 0
	.cfi_restore w19
	.cfi_restore w20
	.cfi_restore w21
	.cfi_restore w22
	.cfi_restore w23
	.cfi_restore w30
	ret
.LBB17_111:
	.cfi_restore_state
	mov	x1, x19
	brk	#0x1
.Lfunc_end17:
	.size	pkcs1_c_oaep_algorithm_decode, .Lfunc_end17-pkcs1_c_oaep_algorithm_decode
	.cfi_endproc

	.section	.text.pkcs1_c_oaep_algorithm_decode_strict,"ax",@progbits
	.globl	pkcs1_c_oaep_algorithm_decode_strict
	.p2align	2
	.type	pkcs1_c_oaep_algorithm_decode_strict,@function
pkcs1_c_oaep_algorithm_decode_strict:
	.cfi_startproc
	hint	#34
	sub	sp, sp, #192
	.cfi_def_cfa_offset 192
	stp	x30, x23, [sp, #144]
	stp	x22, x21, [sp, #160]
	stp	x20, x19, [sp, #176]
	.cfi_offset w19, -8
	.cfi_offset w20, -16
	.cfi_offset w21, -24
	.cfi_offset w22, -32
	.cfi_offset w23, -40
	.cfi_offset w30, -48
	.cfi_remember_state
	lsr	x9, x1, #32
	cbz	x9, .LBB18_3
	mov	w0, #8
.LBB18_2:
	ldp	x20, x19, [sp, #176]
	ldp	x22, x21, [sp, #160]
	ldp	x30, x23, [sp, #144]
	add	sp, sp, #192
	.cfi_def_cfa_offset 0
	.cfi_restore w19
	.cfi_restore w20
	.cfi_restore w21
	.cfi_restore w22
	.cfi_restore w23
	.cfi_restore w30
	ret
.LBB18_3:
	.cfi_restore_state
	.cfi_remember_state
	mov	x8, x1
	subs	x10, x1, #2
	b.lo	.LBB18_49
	mov	x1, x0
	ldrb	w9, [x1], #2
	cmp	w9, #48
	b.ne	.LBB18_49
	ldrsb	w9, [x0, #1]
	tbnz	w9, #31, .LBB18_34
	and	x9, x9, #0xff
	subs	x21, x10, x9
	b.lo	.LBB18_49
	cmp	x9, #2
	b.lo	.LBB18_81
.LBB18_8:
	mov	x22, x1
	ldrb	w8, [x22], #2
	cmp	w8, #6
	b.ne	.LBB18_81
	ldrsb	w10, [x1, #1]
	sub	x8, x9, #2
	tbnz	w10, #31, .LBB18_39
	and	x19, x10, #0xff
	subs	x8, x8, x19
	b.lo	.LBB18_81
	add	x1, x22, x19
	sub	x10, x19, #1
	cmp	x10, #38
	b.hi	.LBB18_83
.LBB18_12:
	ldrsb	w9, [x22, x10]
	tbnz	w9, #31, .LBB18_25
	movi	v0.8b, #128
	movi	v1.4h, #128
	mov	x11, x22
	b	.LBB18_16
.LBB18_14:
	mov	x12, #-1
	mov	w13, #1
.LBB18_15:
	add	x10, x12, x10
	add	x11, x11, x13
.LBB18_16:
	cmp	x10, #7
	b.ls	.LBB18_19
	ldr	d2, [x11]
	cmeq	v2.8b, v2.8b, v0.8b
	umaxv	b2, v2.8b
	fmov	w12, s2
	tbnz	w12, #0, .LBB18_24
	mov	x12, #-8
	mov	w13, #8
	b	.LBB18_15
.LBB18_19:
	cmp	x10, #3
	b.ls	.LBB18_22
	ldr	s2, [x11]
	ushll	v2.8h, v2.8b, #0
	cmeq	v2.4h, v2.4h, v1.4h
	umaxv	h2, v2.4h
	fmov	w12, s2
	tbnz	w12, #0, .LBB18_24
	mov	x12, #-4
	mov	w13, #4
	b	.LBB18_15
.LBB18_22:
	cbz	x10, .LBB18_28
	ldrb	w12, [x11]
	cmp	w12, #128
	b.ne	.LBB18_14
.LBB18_24:
	cbz	x19, .LBB18_28
.LBB18_25:
	ldrb	w10, [x22]
	cmp	w10, #128
	b.eq	.LBB18_83
	subs	x10, x19, #1
	b.ne	.LBB18_57
.LBB18_27:
	tbnz	w9, #31, .LBB18_83
.LBB18_28:
	cbz	x8, .LBB18_56
	ldrb	w20, [x1]
	mov	w9, #31
	mov	w0, #12
	bics	wzr, w9, w20
	b.eq	.LBB18_2
	and	w9, w20, #0xffffffdf
	tst	w9, #0xff
	b.eq	.LBB18_2
	cmp	x8, #1
	b.eq	.LBB18_72
	ldrsb	w10, [x1, #1]
	add	x9, x1, #2
	sub	x11, x8, #2
	tbnz	w10, #31, .LBB18_62
	and	x10, x10, #0xff
	subs	x11, x11, x10
	b.hs	.LBB18_74
	b	.LBB18_72
.LBB18_34:
	and	w9, w9, #0xff
	cmp	w9, #130
	b.ne	.LBB18_44
	cmp	x10, #1
	b.ls	.LBB18_49
	ldrb	w9, [x0, #2]
	cbz	x9, .LBB18_49
	ldrb	w10, [x0, #3]
	orr	x9, x10, x9, lsl #8
	sub	x10, x8, #4
	subs	x21, x10, x9
	b.lo	.LBB18_49
	add	x1, x0, #4
	b	.LBB18_8
.LBB18_39:
	and	w10, w10, #0xff
	cmp	w10, #130
	b.ne	.LBB18_51
	cmp	x8, #1
	b.ls	.LBB18_81
	ldrb	w8, [x1, #2]
	cbz	x8, .LBB18_81
	ldrb	w10, [x1, #3]
	orr	x19, x10, x8, lsl #8
	sub	x8, x9, #4
	subs	x8, x8, x19
	b.lo	.LBB18_81
	add	x22, x1, #4
	add	x1, x22, x19
	sub	x10, x19, #1
	cmp	x10, #38
	b.ls	.LBB18_12
	b	.LBB18_83
.LBB18_44:
	cbz	x10, .LBB18_49
	cmp	w9, #129
	b.ne	.LBB18_49
	ldrsb	w9, [x1]
	tbz	w9, #31, .LBB18_49
	sub	x10, x8, #3
	and	x9, x9, #0xff
	subs	x21, x10, x9
	b.lo	.LBB18_49
	add	x1, x0, #3
	b	.LBB18_8
.LBB18_49:
	mov	x19, x2
	mov	x1, x0
	mov	x0, sp
	mov	x2, x8
	mov	w3, #48
	bl	_RNvNtNtNtCs00000000000_7pkcs1_c6proved8der_core5split14split_unlikely
	ldr	x1, [sp]
	cbz	x1, .LBB18_84
	ldr	x9, [sp, #8]
	ldr	x21, [sp, #24]
	mov	x2, x19
	cmp	x9, #2
	b.hs	.LBB18_8
	b	.LBB18_81
.LBB18_51:
	cbz	x8, .LBB18_80
	cmp	w10, #129
	b.ne	.LBB18_81
	ldrsb	w8, [x22]
	tbz	w8, #31, .LBB18_81
	sub	x10, x9, #3
	and	x19, x8, #0xff
	subs	x8, x10, x19
	b.lo	.LBB18_81
	add	x22, x1, #3
	add	x1, x22, x19
	sub	x10, x19, #1
	cmp	x10, #38
	b.hi	.LBB18_83
	b	.LBB18_12
.LBB18_56:
	mov	x9, xzr
	mov	x10, xzr
	mov	x11, xzr
	cbnz	x21, .LBB18_76
	b	.LBB18_77
.LBB18_57:
	mov	x0, xzr
	add	x11, x22, #1
	b	.LBB18_59
.LBB18_58:
	add	x0, x0, #1
	add	x11, x11, #1
	cmp	x10, x0
	b.eq	.LBB18_27
.LBB18_59:
	ldrb	w12, [x11]
	cmp	w12, #128
	b.ne	.LBB18_58
	cmp	x0, x19
	b.hs	.LBB18_113
	ldursb	w12, [x11, #-1]
	tbnz	w12, #31, .LBB18_58
	b	.LBB18_83
.LBB18_62:
	and	w10, w10, #0xff
	cmp	w10, #130
	b.ne	.LBB18_67
	cmp	x11, #1
	b.ls	.LBB18_72
	ldrb	w9, [x1, #2]
	cbz	x9, .LBB18_72
	ldrb	w10, [x1, #3]
	orr	x10, x10, x9, lsl #8
	sub	x9, x8, #4
	subs	x11, x9, x10
	b.lo	.LBB18_72
	add	x9, x1, #4
	b	.LBB18_74
.LBB18_67:
	cbz	x11, .LBB18_72
	cmp	w10, #129
	b.ne	.LBB18_72
	ldrsb	w9, [x9]
	tbz	w9, #31, .LBB18_72
	sub	x11, x8, #3
	and	x10, x9, #0xff
	subs	x11, x11, x10
	b.lo	.LBB18_72
	add	x9, x1, #3
	b	.LBB18_74
.LBB18_72:
	mov	x23, x2
	mov	x0, sp
	mov	x2, x8
	mov	w3, w20
	bl	_RNvNtNtNtCs00000000000_7pkcs1_c6proved8der_core5split14split_unlikely
	ldr	x9, [sp]
	cbz	x9, .LBB18_84
	ldr	x10, [sp, #8]
	ldr	x11, [sp, #24]
	mov	x2, x23
.LBB18_74:
	cbnz	x11, .LBB18_76
	and	x8, x10, #0xffffffffff000000
	and	x11, x10, #0xffff00
	cbz	x21, .LBB18_77
.LBB18_76:
	mov	w0, #13
	ldp	x20, x19, [sp, #176]
	ldp	x22, x21, [sp, #160]
	ldp	x30, x23, [sp, #144]
	add	sp, sp, #192
	.cfi_def_cfa_offset 0
	.cfi_restore w19
	.cfi_restore w20
	.cfi_restore w21
	.cfi_restore w22
	.cfi_restore w23
	.cfi_restore w30
	ret
.LBB18_77:
	.cfi_restore_state
	.cfi_remember_state
	cmp	x19, #9
	b.ne	.LBB18_79
	mov	x14, #34346
	ldr	x12, [x22]
	ldrb	w13, [x22, #8]
	movk	x14, #34376, lsl #16
	movk	x14, #3575, lsl #32
	movk	x14, #257, lsl #48
	cmp	x12, x14
	ccmp	w13, #7, #0, eq
	b.eq	.LBB18_92
.LBB18_79:
	mov	w0, #7
	ldp	x20, x19, [sp, #176]
	ldp	x22, x21, [sp, #160]
	ldp	x30, x23, [sp, #144]
	add	sp, sp, #192
	.cfi_def_cfa_offset 0
	.cfi_restore w19
	.cfi_restore w20
	.cfi_restore w21
	.cfi_restore w22
	.cfi_restore w23
	.cfi_restore w30
	ret
.LBB18_80:
	.cfi_restore_state
	.cfi_remember_state
	mov	w9, #2
.LBB18_81:
	mov	x20, x2
	mov	x0, sp
	mov	x2, x9
	mov	w3, #6
	bl	_RNvNtNtNtCs00000000000_7pkcs1_c6proved8der_core5split14split_unlikely
	ldr	x22, [sp]
	cbz	x22, .LBB18_84
	ldp	x19, x1, [sp, #8]
	mov	x2, x20
	ldr	x8, [sp, #24]
	sub	x10, x19, #1
	cmp	x10, #38
	b.ls	.LBB18_12
.LBB18_83:
	mov	w0, #6
	ldp	x20, x19, [sp, #176]
	ldp	x22, x21, [sp, #160]
	ldp	x30, x23, [sp, #144]
	add	sp, sp, #192
	.cfi_def_cfa_offset 0
	.cfi_restore w19
	.cfi_restore w20
	.cfi_restore w21
	.cfi_restore w22
	.cfi_restore w23
	.cfi_restore w30
	ret
.LBB18_84:
	.cfi_restore_state
	.cfi_remember_state
	ldrb	w8, [sp, #8]
.LBB18_85:
	sub	w9, w8, #17
	and	w10, w9, #0xff
	and	x9, x9, #0xff
	cmp	w10, #3
	csinc	x9, xzr, x9, hs
	cmp	x9, #1
	b.gt	.LBB18_88
	cbnz	x9, .LBB18_90
	and	w8, w8, #0xff
	add	w0, w8, #1
	ldp	x20, x19, [sp, #176]
	ldp	x22, x21, [sp, #160]
	ldp	x30, x23, [sp, #144]
	add	sp, sp, #192
	.cfi_def_cfa_offset 0
	.cfi_restore w19
	.cfi_restore w20
	.cfi_restore w21
	.cfi_restore w22
	.cfi_restore w23
	.cfi_restore w30
	ret
.LBB18_88:
	.cfi_restore_state
	.cfi_remember_state
	cmp	x9, #2
	b.ne	.LBB18_91
	mov	w0, #19
	ldp	x20, x19, [sp, #176]
	ldp	x22, x21, [sp, #160]
	ldp	x30, x23, [sp, #144]
	add	sp, sp, #192
	.cfi_def_cfa_offset 0
	.cfi_restore w19
	.cfi_restore w20
	.cfi_restore w21
	.cfi_restore w22
	.cfi_restore w23
	.cfi_restore w30
	ret
.LBB18_90:
	.cfi_restore_state
	.cfi_remember_state
	mov	w0, #18
	ldp	x20, x19, [sp, #176]
	ldp	x22, x21, [sp, #160]
	ldp	x30, x23, [sp, #144]
	add	sp, sp, #192
	.cfi_def_cfa_offset 0
	.cfi_restore w19
	.cfi_restore w20
	.cfi_restore w21
	.cfi_restore w22
	.cfi_restore w23
	.cfi_restore w30
	ret
.LBB18_91:
	.cfi_restore_state
	.cfi_remember_state
	mov	w0, #20
	ldp	x20, x19, [sp, #176]
	ldp	x22, x21, [sp, #160]
	ldp	x30, x23, [sp, #144]
	add	sp, sp, #192
	.cfi_def_cfa_offset 0
	.cfi_restore w19
	.cfi_restore w20
	.cfi_restore w21
	.cfi_restore w22
	.cfi_restore w23
	.cfi_restore w30
	ret
.LBB18_92:
	.cfi_restore_state
	.cfi_remember_state
	cbz	x9, .LBB18_97
	and	w12, w20, #0xff
	cmp	w12, #48
	b.ne	.LBB18_98
	and	x10, x10, #0xff
	orr	x8, x11, x8
	mov	x19, x2
	mov	x0, sp
	orr	x2, x10, x8
	mov	x1, x9
	bl	_RNvNtNtNtCs00000000000_7pkcs1_c6proved12pkcs1_params6noting9note_oaep
	ldrb	w9, [sp, #136]
	ldrb	w8, [sp]
	cmp	w9, #2
	b.eq	.LBB18_85
	tbz	w9, #0, .LBB18_99
	mov	w0, #5
	ldp	x20, x19, [sp, #176]
	ldp	x22, x21, [sp, #160]
	ldp	x30, x23, [sp, #144]
	add	sp, sp, #192
	.cfi_def_cfa_offset 0
	.cfi_restore w19
	.cfi_restore w20
	.cfi_restore w21
	.cfi_restore w22
	.cfi_restore w23
	.cfi_restore w30
	ret
.LBB18_97:
	.cfi_restore_state
	.cfi_remember_state
	mov	w0, #10
	ldp	x20, x19, [sp, #176]
	ldp	x22, x21, [sp, #160]
	ldp	x30, x23, [sp, #144]
	add	sp, sp, #192
	.cfi_def_cfa_offset 0
	.cfi_restore w19
	.cfi_restore w20
	.cfi_restore w21
	.cfi_restore w22
	.cfi_restore w23
	.cfi_restore w30
	ret
.LBB18_98:
	.cfi_restore_state
	.cfi_remember_state
	mov	w0, #11
	ldp	x20, x19, [sp, #176]
	ldp	x22, x21, [sp, #160]
	ldp	x30, x23, [sp, #144]
	add	sp, sp, #192
	.cfi_def_cfa_offset 0
	.cfi_restore w19
	.cfi_restore w20
	.cfi_restore w21
	.cfi_restore w22
	.cfi_restore w23
	.cfi_restore w30
	ret
.LBB18_99:
	.cfi_restore_state
	.cfi_remember_state
	ldrb	w9, [sp, #2]
	ldur	w10, [sp, #3]
	ldrb	w11, [sp, #1]
	ldrb	w12, [sp, #7]
	lsl	x10, x10, #24
	orr	x8, x8, x9, lsl #16
	ldrb	w9, [sp, #8]
	orr	x10, x10, x12, lsl #56
	orr	x8, x8, x11, lsl #8
	orr	x8, x8, x10
	cbz	x8, .LBB18_102
	ldrb	w11, [sp, #9]
	ldrb	w14, [sp, #10]
	ldrb	w15, [sp, #15]
	ldr	x10, [sp, #16]
	ldur	w16, [sp, #11]
	ldr	x12, [sp, #56]
	orr	x17, x9, x11, lsl #8
	cbz	x10, .LBB18_103
	ldp	x9, x11, [sp, #24]
	mov	w13, #1
	b	.LBB18_104
.LBB18_102:
	mov	w8, w9
	b	.LBB18_85
.LBB18_103:
	mov	x9, xzr
	mov	w11, wzr
	mov	w13, wzr
	adrp	x10, _RNvNtCs00000000000_7pkcs1_c10rattle_std8AN_OCTET
	add	x10, x10, :lo12:_RNvNtCs00000000000_7pkcs1_c10rattle_std8AN_OCTET
.LBB18_104:
	orr	x0, x16, x15, lsl #32
	orr	x3, x17, x14, lsl #16
	ldr	x14, [sp, #112]
	cbz	x12, .LBB18_107
	ldp	x16, x18, [sp, #64]
	cbz	x18, .LBB18_108
	ldp	x15, x17, [sp, #80]
	mov	w1, #1
	mov	w2, #1
	b	.LBB18_109
.LBB18_107:
	adrp	x18, _RNvNtCs00000000000_7pkcs1_c10rattle_std8AN_OCTET
	add	x18, x18, :lo12:_RNvNtCs00000000000_7pkcs1_c10rattle_std8AN_OCTET
	mov	x15, xzr
	mov	w17, wzr
	mov	w1, wzr
	mov	x16, xzr
	mov	w2, wzr
	mov	x12, x18
	b	.LBB18_109
.LBB18_108:
	mov	x15, xzr
	mov	w17, wzr
	mov	w1, wzr
	mov	w2, #1
	adrp	x18, _RNvNtCs00000000000_7pkcs1_c10rattle_std8AN_OCTET
	add	x18, x18, :lo12:_RNvNtCs00000000000_7pkcs1_c10rattle_std8AN_OCTET
.LBB18_109:
	ldp	x6, x7, [sp, #40]
	orr	x22, x3, x0, lsl #24
	ldp	x3, x4, [sp, #96]
	cbz	x14, .LBB18_111
	ldp	x5, x20, [sp, #120]
	mov	w21, #1
	b	.LBB18_112
.LBB18_111:
	mov	x5, xzr
	mov	w20, wzr
	mov	w21, wzr
	adrp	x14, _RNvNtCs00000000000_7pkcs1_c10rattle_std8AN_OCTET
	add	x14, x14, :lo12:_RNvNtCs00000000000_7pkcs1_c10rattle_std8AN_OCTET
.LBB18_112:
	mov	w0, wzr
	stp	x8, x22, [x19]
	strb	w13, [x19, #16]
	strb	w11, [x19, #17]
	stp	x10, x9, [x19, #24]
	stp	x6, x7, [x19, #40]
	strb	w2, [x19, #56]
	stp	x12, x16, [x19, #64]
	strb	w1, [x19, #80]
	strb	w17, [x19, #81]
	stp	x18, x15, [x19, #88]
	stp	x3, x4, [x19, #104]
	strb	w21, [x19, #120]
	strb	w20, [x19, #121]
	stp	x14, x5, [x19, #128]
	ldp	x20, x19, [sp, #176]
	ldp	x22, x21, [sp, #160]
	ldp	x30, x23, [sp, #144]
	add	sp, sp, #192
	.cfi_def_cfa_offset 0
	.cfi_restore w19
	.cfi_restore w20
	.cfi_restore w21
	.cfi_restore w22
	.cfi_restore w23
	.cfi_restore w30
	ret
.LBB18_113:
	.cfi_restore_state
	mov	x1, x19
	brk	#0x1
.Lfunc_end18:
	.size	pkcs1_c_oaep_algorithm_decode_strict, .Lfunc_end18-pkcs1_c_oaep_algorithm_decode_strict
	.cfi_endproc

	.section	.text.pkcs1_c_oaep_algorithm_encode,"ax",@progbits
	.globl	pkcs1_c_oaep_algorithm_encode
	.p2align	2
	.type	pkcs1_c_oaep_algorithm_encode,@function
pkcs1_c_oaep_algorithm_encode:
	.cfi_startproc
	hint	#34
	sub	sp, sp, #384
	.cfi_def_cfa_offset 384
	str	x29, [sp, #304]
	stp	x30, x25, [sp, #320]
	stp	x24, x23, [sp, #336]
	stp	x22, x21, [sp, #352]
	stp	x20, x19, [sp, #368]
	.cfi_offset w19, -8
	.cfi_offset w20, -16
	.cfi_offset w21, -24
	.cfi_offset w22, -32
	.cfi_offset w23, -40
	.cfi_offset w24, -48
	.cfi_offset w25, -56
	.cfi_offset w30, -64
	.cfi_offset w29, -80
	.cfi_remember_state
	mov	x19, x1
	mov	x1, x0
	add	x0, sp, #8
	mov	x20, x3
	mov	x21, x2
	bl	_RNvNtNtNtCs00000000000_7pkcs1_c5calls7pkcs1_c4oaep11from_c_oaep
	ldr	x8, [sp, #8]
	cbz	x8, .LBB19_36
	ldur	q0, [sp, #104]
	ldur	q1, [sp, #120]
	add	x22, sp, #144
	ldur	q2, [sp, #56]
	ldr	x8, [sp, #136]
	stp	q0, q1, [x22, #96]
	ldur	q0, [sp, #40]
	ldur	q1, [sp, #88]
	str	x8, [sp, #272]
	stp	q0, q2, [x22, #32]
	ldur	q0, [sp, #72]
	ldur	q2, [sp, #24]
	stp	q0, q1, [x22, #64]
	ldur	q0, [sp, #8]
	stp	q0, q2, [x22]
	ldr	x9, [sp, #160]
	cbz	x9, .LBB19_9
	ldr	x8, [sp, #152]
	cmp	x8, #5
	b.ne	.LBB19_9
	ldr	x8, [sp, #144]
	ldrb	w9, [x8]
	cmp	w9, #43
	b.ne	.LBB19_9
	ldrb	w9, [x8, #1]
	cmp	w9, #14
	b.ne	.LBB19_9
	ldrb	w9, [x8, #2]
	cmp	w9, #3
	b.ne	.LBB19_9
	ldrb	w9, [x8, #3]
	cmp	w9, #2
	b.ne	.LBB19_9
	ldrb	w8, [x8, #4]
	cmp	w8, #26
	b.ne	.LBB19_9
	ldrb	w8, [sp, #176]
	ldr	x9, [sp, #168]
	cmp	x8, #5
	ccmp	x9, #0, #0, eq
	cset	w23, eq
	b	.LBB19_10
.LBB19_9:
	mov	w23, wzr
.LBB19_10:
	ldr	x8, [sp, #200]
	cbz	x8, .LBB19_22
	ldr	x9, [sp, #192]
	cmp	x9, #9
	b.ne	.LBB19_22
	ldr	x9, [sp, #184]
	mov	x11, #34346
	movk	x11, #34376, lsl #16
	ldr	x10, [x9]
	movk	x11, #3575, lsl #32
	movk	x11, #257, lsl #48
	cmp	x10, x11
	b.ne	.LBB19_22
	ldrb	w9, [x9, #8]
	cmp	w9, #8
	b.ne	.LBB19_22
	ldr	x9, [sp, #216]
	mov	w24, wzr
	cbz	x9, .LBB19_23
	ldr	x9, [sp, #208]
	cmp	x9, #5
	b.ne	.LBB19_23
	ldrb	w9, [x8]
	cmp	w9, #43
	b.ne	.LBB19_22
	ldrb	w9, [x8, #1]
	cmp	w9, #14
	b.ne	.LBB19_22
	ldrb	w9, [x8, #2]
	cmp	w9, #3
	b.ne	.LBB19_22
	ldrb	w9, [x8, #3]
	cmp	w9, #2
	b.ne	.LBB19_22
	ldrb	w8, [x8, #4]
	cmp	w8, #26
	b.ne	.LBB19_22
	ldrb	w8, [sp, #232]
	ldr	x9, [sp, #224]
	cmp	x8, #5
	ccmp	x9, #0, #0, eq
	cset	w24, eq
	b	.LBB19_23
.LBB19_22:
	mov	w24, wzr
.LBB19_23:
	ldr	x8, [sp, #256]
	cbz	x8, .LBB19_32
	ldr	x8, [sp, #248]
	cmp	x8, #9
	b.ne	.LBB19_32
	ldr	x8, [sp, #240]
	mov	x10, #34346
	movk	x10, #34376, lsl #16
	ldr	x9, [x8]
	movk	x10, #3575, lsl #32
	movk	x10, #257, lsl #48
	cmp	x9, x10
	b.ne	.LBB19_32
	ldrb	w8, [x8, #8]
	cmp	w8, #9
	b.ne	.LBB19_32
	ldrb	w8, [sp, #272]
	ldr	x9, [sp, #264]
	cmp	x8, #4
	ccmp	x9, #0, #0, eq
	cset	w25, eq
	str	xzr, [sp, #280]
	cbnz	w23, .LBB19_33
.LBB19_28:
	cbz	w24, .LBB19_41
	tbnz	w25, #0, .LBB19_31
	add	x0, x22, #96
	add	x1, sp, #280
	bl	_RINvNtNtNtCs00000000000_7pkcs1_c6proved12pkcs1_params6fields13prepend_fieldINtNtNtB6_9spki_core20algorithm_identifier21AlgorithmIdentifierOfNtNtB1g_15identifier_view14IdentifierViewNtNtB1g_3any6AnyRefENtNtNtB6_8der_core7counter7CounterEB8_
.LBB19_31:
	add	x0, sp, #8
	add	x1, sp, #280
	bl	_RINvNtNtNtCs00000000000_7pkcs1_c6proved12pkcs1_params6fields13prepend_fieldINtNtNtB6_9spki_core20algorithm_identifier21AlgorithmIdentifierOfNtNtB1g_15identifier_view14IdentifierViewNtNtB1g_3any6AnyRefENtNtNtB6_8der_core7counter7CounterEB8_
	ldr	x8, [sp, #280]
	cmp	x8, #128
	b.hs	.LBB19_44
	b	.LBB19_53
.LBB19_32:
	mov	w25, wzr
	str	xzr, [sp, #280]
	cbz	w23, .LBB19_28
.LBB19_33:
	cbz	w24, .LBB19_50
	tbz	w25, #0, .LBB19_74
	mov	x8, xzr
	b	.LBB19_53
.LBB19_36:
	ldrb	w8, [sp, #16]
	sub	w9, w8, #17
	and	x10, x9, #0xff
	cmp	w9, #3
	csinc	x9, xzr, x10, hs
	cmp	x9, #1
	b.gt	.LBB19_39
	cbnz	x9, .LBB19_72
	add	w0, w8, #1
	b	.LBB19_156
.LBB19_39:
	cmp	x9, #2
	b.ne	.LBB19_73
	mov	w0, #19
	b	.LBB19_156
.LBB19_41:
	tbnz	w25, #0, .LBB19_43
	add	x0, x22, #96
	add	x1, sp, #280
	bl	_RINvNtNtNtCs00000000000_7pkcs1_c6proved12pkcs1_params6fields13prepend_fieldINtNtNtB6_9spki_core20algorithm_identifier21AlgorithmIdentifierOfNtNtB1g_15identifier_view14IdentifierViewNtNtB1g_3any6AnyRefENtNtNtB6_8der_core7counter7CounterEB8_
.LBB19_43:
	add	x0, x22, #40
	add	x1, sp, #280
	bl	_RINvNtNtNtCs00000000000_7pkcs1_c6proved12pkcs1_params6fields13prepend_fieldINtNtNtB6_9spki_core20algorithm_identifier21AlgorithmIdentifierOfNtNtB1g_15identifier_view14IdentifierViewIB1c_B2e_NtNtB1g_3any6AnyRefEENtNtNtB6_8der_core7counter7CounterEB8_
	add	x0, sp, #8
	add	x1, sp, #280
	bl	_RINvNtNtNtCs00000000000_7pkcs1_c6proved12pkcs1_params6fields13prepend_fieldINtNtNtB6_9spki_core20algorithm_identifier21AlgorithmIdentifierOfNtNtB1g_15identifier_view14IdentifierViewNtNtB1g_3any6AnyRefENtNtNtB6_8der_core7counter7CounterEB8_
	ldr	x8, [sp, #280]
	cmp	x8, #128
	b.lo	.LBB19_53
.LBB19_44:
	cmp	x8, #256
	b.hs	.LBB19_70
	add	x8, x8, #3
	adds	x9, x8, #9
	csinv	x9, x9, xzr, lo
	subs	x9, x9, x8
	csel	x9, xzr, x9, lo
	cmp	x9, #128
	b.lo	.LBB19_54
.LBB19_46:
	cmp	x9, #256
	b.hs	.LBB19_63
	add	x9, x9, #3
	adds	x8, x8, x9
	csinv	x8, x8, xzr, lo
	cmp	x8, #128
	b.lo	.LBB19_55
.LBB19_48:
	cmp	x8, #256
	b.hs	.LBB19_65
	mov	w9, #3
	b	.LBB19_56
.LBB19_50:
	tbnz	w25, #0, .LBB19_52
	add	x0, x22, #96
	add	x1, sp, #280
	bl	_RINvNtNtNtCs00000000000_7pkcs1_c6proved12pkcs1_params6fields13prepend_fieldINtNtNtB6_9spki_core20algorithm_identifier21AlgorithmIdentifierOfNtNtB1g_15identifier_view14IdentifierViewNtNtB1g_3any6AnyRefENtNtNtB6_8der_core7counter7CounterEB8_
.LBB19_52:
	add	x0, x22, #40
	add	x1, sp, #280
	bl	_RINvNtNtNtCs00000000000_7pkcs1_c6proved12pkcs1_params6fields13prepend_fieldINtNtNtB6_9spki_core20algorithm_identifier21AlgorithmIdentifierOfNtNtB1g_15identifier_view14IdentifierViewIB1c_B2e_NtNtB1g_3any6AnyRefEENtNtNtB6_8der_core7counter7CounterEB8_
	ldr	x8, [sp, #280]
	cmp	x8, #128
	b.hs	.LBB19_44
.LBB19_53:
	add	x8, x8, #2
	adds	x9, x8, #9
	csinv	x9, x9, xzr, lo
	subs	x9, x9, x8
	csel	x9, xzr, x9, lo
	cmp	x9, #128
	b.hs	.LBB19_46
.LBB19_54:
	add	x9, x9, #2
	adds	x8, x8, x9
	csinv	x8, x8, xzr, lo
	cmp	x8, #128
	b.hs	.LBB19_48
.LBB19_55:
	mov	w9, #2
.LBB19_56:
	add	x8, x9, x8
.LBB19_57:
	cmp	x8, x21
	str	x8, [x20]
	b.ls	.LBB19_59
	mov	w0, #15
	b	.LBB19_156
.LBB19_59:
	stp	x19, x8, [sp, #280]
	str	x8, [sp, #296]
	cbz	w23, .LBB19_67
	cbz	w24, .LBB19_79
	mov	x11, x8
	tbnz	w25, #0, .LBB19_88
	add	x1, x22, #96
	add	x2, sp, #280
	mov	w0, #2
	b	.LBB19_86
.LBB19_63:
	cmp	x9, #16, lsl #12
	b.hs	.LBB19_75
	add	x9, x9, #4
	adds	x8, x8, x9
	csinv	x8, x8, xzr, lo
	cmp	x8, #128
	b.hs	.LBB19_48
	b	.LBB19_55
.LBB19_65:
	cmp	x8, #16, lsl #12
	b.hs	.LBB19_77
	mov	w9, #4
	b	.LBB19_56
.LBB19_67:
	cbz	w24, .LBB19_82
	tbnz	w25, #0, .LBB19_85
	add	x1, x22, #96
	add	x2, sp, #280
	mov	w0, #2
	bl	_RINvNtNtNtCs00000000000_7pkcs1_c6proved12pkcs1_params6fields13prepend_fieldINtNtNtB6_9spki_core20algorithm_identifier21AlgorithmIdentifierOfNtNtB1g_15identifier_view14IdentifierViewNtNtB1g_3any6AnyRefENtNtNtB6_8der_core11back_writer10BackWriterEB8_
	b	.LBB19_85
.LBB19_70:
	cmp	x8, #16, lsl #12
	b.hs	.LBB19_100
	add	x8, x8, #4
	adds	x9, x8, #9
	csinv	x9, x9, xzr, lo
	subs	x9, x9, x8
	csel	x9, xzr, x9, lo
	cmp	x9, #128
	b.lo	.LBB19_54
	b	.LBB19_46
.LBB19_72:
	mov	w0, #18
	b	.LBB19_156
.LBB19_73:
	mov	w0, #20
	b	.LBB19_156
.LBB19_74:
	add	x0, x22, #96
	add	x1, sp, #280
	bl	_RINvNtNtNtCs00000000000_7pkcs1_c6proved12pkcs1_params6fields13prepend_fieldINtNtNtB6_9spki_core20algorithm_identifier21AlgorithmIdentifierOfNtNtB1g_15identifier_view14IdentifierViewNtNtB1g_3any6AnyRefENtNtNtB6_8der_core7counter7CounterEB8_
	ldr	x8, [sp, #280]
	cmp	x8, #128
	b.hs	.LBB19_44
	b	.LBB19_53
.LBB19_75:
	lsr	x10, x9, #24
	cbnz	x10, .LBB19_102
	add	x9, x9, #5
	adds	x8, x8, x9
	csinv	x8, x8, xzr, lo
	cmp	x8, #128
	b.lo	.LBB19_55
	b	.LBB19_48
.LBB19_77:
	lsr	x9, x8, #24
	cbnz	x9, .LBB19_103
	mov	w9, #5
	b	.LBB19_56
.LBB19_79:
	tbnz	w25, #0, .LBB19_81
	add	x1, x22, #96
	add	x2, sp, #280
	mov	w0, #2
	bl	_RINvNtNtNtCs00000000000_7pkcs1_c6proved12pkcs1_params6fields13prepend_fieldINtNtNtB6_9spki_core20algorithm_identifier21AlgorithmIdentifierOfNtNtB1g_15identifier_view14IdentifierViewNtNtB1g_3any6AnyRefENtNtNtB6_8der_core11back_writer10BackWriterEB8_
.LBB19_81:
	add	x0, x22, #40
	add	x1, sp, #280
	bl	_RINvNtNtNtCs00000000000_7pkcs1_c6proved12pkcs1_params6fields13prepend_fieldINtNtNtB6_9spki_core20algorithm_identifier21AlgorithmIdentifierOfNtNtB1g_15identifier_view14IdentifierViewIB1c_B2e_NtNtB1g_3any6AnyRefEENtNtNtB6_8der_core11back_writer10BackWriterEB8_
	b	.LBB19_87
.LBB19_82:
	tbnz	w25, #0, .LBB19_84
	add	x1, x22, #96
	add	x2, sp, #280
	mov	w0, #2
	bl	_RINvNtNtNtCs00000000000_7pkcs1_c6proved12pkcs1_params6fields13prepend_fieldINtNtNtB6_9spki_core20algorithm_identifier21AlgorithmIdentifierOfNtNtB1g_15identifier_view14IdentifierViewNtNtB1g_3any6AnyRefENtNtNtB6_8der_core11back_writer10BackWriterEB8_
.LBB19_84:
	add	x0, x22, #40
	add	x1, sp, #280
	bl	_RINvNtNtNtCs00000000000_7pkcs1_c6proved12pkcs1_params6fields13prepend_fieldINtNtNtB6_9spki_core20algorithm_identifier21AlgorithmIdentifierOfNtNtB1g_15identifier_view14IdentifierViewIB1c_B2e_NtNtB1g_3any6AnyRefEENtNtNtB6_8der_core11back_writer10BackWriterEB8_
.LBB19_85:
	add	x1, sp, #8
	add	x2, sp, #280
	mov	w0, wzr
.LBB19_86:
	bl	_RINvNtNtNtCs00000000000_7pkcs1_c6proved12pkcs1_params6fields13prepend_fieldINtNtNtB6_9spki_core20algorithm_identifier21AlgorithmIdentifierOfNtNtB1g_15identifier_view14IdentifierViewNtNtB1g_3any6AnyRefENtNtNtB6_8der_core11back_writer10BackWriterEB8_
.LBB19_87:
	ldp	x8, x11, [sp, #288]
.LBB19_88:
	sub	x10, x8, x11
	cmp	w10, #128
	b.hs	.LBB19_92
	ldr	x9, [sp, #280]
	subs	x12, x11, #2
	b.lo	.LBB19_114
	cmp	x8, x11
	b.lo	.LBB19_157
	mov	w11, #48
	orr	w10, w11, w10, lsl #8
	mov	x11, x12
	strh	w10, [x9, x12]
	b	.LBB19_113
.LBB19_92:
	cmp	w10, #256
	b.hs	.LBB19_96
	ldr	x9, [sp, #280]
	subs	x12, x11, #3
	b.lo	.LBB19_114
	cmp	x8, x11
	b.lo	.LBB19_157
	add	x11, x9, x12
	mov	w13, #33072
	strh	w13, [x11]
	strb	w10, [x11, #2]
	mov	x11, x12
	b	.LBB19_113
.LBB19_96:
	cmp	w10, #16, lsl #12
	b.hs	.LBB19_105
	ldr	x9, [sp, #280]
	subs	x12, x11, #4
	b.lo	.LBB19_114
	cmp	x8, x11
	b.lo	.LBB19_157
	mov	w11, #813826048
	orr	w10, w10, w11
	mov	x11, x12
	rev	w10, w10
	str	w10, [x9, x12]
	b	.LBB19_113
.LBB19_100:
	lsr	x9, x8, #24
	cbnz	x9, .LBB19_109
	add	x8, x8, #5
	adds	x9, x8, #9
	csinv	x9, x9, xzr, lo
	subs	x9, x9, x8
	csel	x9, xzr, x9, lo
	cmp	x9, #128
	b.lo	.LBB19_54
	b	.LBB19_46
.LBB19_102:
	adds	x9, x9, #6
	csinv	x9, x9, xzr, lo
	adds	x8, x8, x9
	csinv	x8, x8, xzr, lo
	cmp	x8, #128
	b.hs	.LBB19_48
	b	.LBB19_55
.LBB19_103:
	adds	x8, x8, #6
	csinv	x8, x8, xzr, lo
	lsr	x9, x8, #32
	cbz	x9, .LBB19_57
	mov	w0, #8
	b	.LBB19_156
.LBB19_105:
	lsr	w9, w10, #24
	cbnz	w9, .LBB19_110
	ldr	x9, [sp, #280]
	subs	x12, x11, #5
	b.lo	.LBB19_114
	cmp	x8, x11
	b.lo	.LBB19_157
	lsr	x11, x10, #16
	add	x13, x9, x12
	lsr	x15, x10, #8
	mov	w14, #33584
	strb	w10, [x13, #4]
	strb	w11, [x13, #2]
	mov	x11, x12
	strh	w14, [x13]
	strb	w15, [x13, #3]
	b	.LBB19_113
.LBB19_109:
	adds	x8, x8, #6
	csinv	x8, x8, xzr, lo
	adds	x9, x8, #9
	csinv	x9, x9, xzr, lo
	subs	x9, x9, x8
	csel	x9, xzr, x9, lo
	cmp	x9, #128
	b.lo	.LBB19_54
	b	.LBB19_46
.LBB19_110:
	ldr	x9, [sp, #280]
	subs	x12, x11, #6
	b.lo	.LBB19_114
	cmp	x8, x11
	b.lo	.LBB19_157
	add	x13, x9, x12
	mov	w14, #33840
	lsr	x11, x10, #24
	lsr	x15, x10, #16
	strh	w14, [x13]
	lsr	x14, x10, #8
	strb	w11, [x13, #2]
	mov	x11, x12
	strb	w15, [x13, #3]
	strb	w14, [x13, #4]
	strb	w10, [x13, #5]
.LBB19_113:
	subs	x10, x11, #9
	b.hs	.LBB19_118
.LBB19_114:
	mov	x10, x11
	sub	x11, x11, x11
	cmp	w11, #128
	b.hs	.LBB19_120
.LBB19_115:
	subs	x12, x10, #2
	b.lo	.LBB19_135
	cmp	x10, x8
	b.hi	.LBB19_157
	mov	w10, #6
	orr	w10, w10, w11, lsl #8
	strh	w10, [x9, x12]
	mov	x10, x12
	b	.LBB19_135
.LBB19_118:
	cmp	x11, x8
	b.hi	.LBB19_157
	adrp	x12, .Lanon.1
	add	x12, x12, :lo12:.Lanon.1
	add	x13, x9, x10
	ldr	x12, [x12]
	mov	w14, #7
	strb	w14, [x13, #8]
	str	x12, [x13]
	sub	x11, x11, x10
	cmp	w11, #128
	b.lo	.LBB19_115
.LBB19_120:
	cmp	w11, #256
	b.hs	.LBB19_124
	subs	x12, x10, #3
	b.lo	.LBB19_135
	cmp	x10, x8
	b.hi	.LBB19_157
	add	x10, x9, x12
	mov	w13, #33030
	strh	w13, [x10]
	strb	w11, [x10, #2]
	mov	x10, x12
	b	.LBB19_135
.LBB19_124:
	cmp	w11, #16, lsl #12
	b.hs	.LBB19_128
	subs	x12, x10, #4
	b.lo	.LBB19_135
	cmp	x10, x8
	b.hi	.LBB19_157
	mov	w10, #109182976
	orr	w10, w11, w10
	rev	w10, w10
	str	w10, [x9, x12]
	mov	x10, x12
	b	.LBB19_135
.LBB19_128:
	lsr	w12, w11, #24
	cbnz	w12, .LBB19_132
	subs	x12, x10, #5
	b.lo	.LBB19_135
	cmp	x10, x8
	b.hi	.LBB19_157
	lsr	x10, x11, #16
	add	x13, x9, x12
	lsr	x15, x11, #8
	mov	w14, #33542
	strb	w11, [x13, #4]
	strb	w10, [x13, #2]
	mov	x10, x12
	strh	w14, [x13]
	strb	w15, [x13, #3]
	b	.LBB19_135
.LBB19_132:
	subs	x12, x10, #6
	b.lo	.LBB19_135
	cmp	x10, x8
	b.hi	.LBB19_157
	add	x13, x9, x12
	mov	w14, #33798
	lsr	x10, x11, #24
	lsr	x15, x11, #16
	strh	w14, [x13]
	lsr	x14, x11, #8
	strb	w10, [x13, #2]
	mov	x10, x12
	strb	w15, [x13, #3]
	strb	w14, [x13, #4]
	strb	w11, [x13, #5]
.LBB19_135:
	sub	x11, x8, x10
	cmp	w11, #128
	b.hs	.LBB19_139
	cmp	x10, #2
	b.lo	.LBB19_155
	cmp	x8, x10
	b.lo	.LBB19_157
	mov	w8, #48
	add	x9, x10, x9
	mov	w0, wzr
	orr	w8, w8, w11, lsl #8
	sturh	w8, [x9, #-2]
	b	.LBB19_156
.LBB19_139:
	cmp	w11, #256
	b.hs	.LBB19_143
	cmp	x10, #3
	b.lo	.LBB19_155
	cmp	x8, x10
	b.lo	.LBB19_157
	add	x8, x10, x9
	mov	w9, #33072
	mov	w0, wzr
	sturh	w9, [x8, #-3]
	sturb	w11, [x8, #-1]
	b	.LBB19_156
.LBB19_143:
	cmp	w11, #16, lsl #12
	b.hs	.LBB19_147
	cmp	x10, #4
	b.lo	.LBB19_155
	cmp	x8, x10
	b.lo	.LBB19_157
	mov	w8, #813826048
	add	x9, x10, x9
	mov	w0, wzr
	orr	w8, w11, w8
	rev	w8, w8
	stur	w8, [x9, #-4]
	b	.LBB19_156
.LBB19_147:
	lsr	w12, w11, #24
	cbnz	w12, .LBB19_151
	cmp	x10, #5
	b.lo	.LBB19_155
	cmp	x8, x10
	b.lo	.LBB19_157
	lsr	x8, x11, #16
	lsr	x12, x11, #8
	add	x9, x10, x9
	mov	w10, #33584
	sturh	w10, [x9, #-5]
	sturb	w8, [x9, #-3]
	sturb	w12, [x9, #-2]
	b	.LBB19_154
.LBB19_151:
	cmp	x10, #6
	b.lo	.LBB19_155
	cmp	x8, x10
	b.lo	.LBB19_157
	add	x9, x10, x9
	mov	w10, #33840
	lsr	x8, x11, #24
	lsr	x12, x11, #16
	sturh	w10, [x9, #-6]
	lsr	x10, x11, #8
	sturb	w8, [x9, #-4]
	sturb	w12, [x9, #-3]
	sturb	w10, [x9, #-2]
.LBB19_154:
	sturb	w11, [x9, #-1]
.LBB19_155:
	mov	w0, wzr
.LBB19_156:
	ldp	x20, x19, [sp, #368]
	ldr	x29, [sp, #304]
	ldp	x22, x21, [sp, #352]
	ldp	x24, x23, [sp, #336]
	ldp	x30, x25, [sp, #320]
	add	sp, sp, #384
	.cfi_def_cfa_offset 0
	.cfi_restore w19
	.cfi_restore w20
	.cfi_restore w21
	.cfi_restore w22
	.cfi_restore w23
	.cfi_restore w24
	.cfi_restore w25
	.cfi_restore w30
	.cfi_restore w29
	ret
.LBB19_157:
	.cfi_restore_state
	brk	#0x1
.Lfunc_end19:
	.size	pkcs1_c_oaep_algorithm_encode, .Lfunc_end19-pkcs1_c_oaep_algorithm_encode
	.cfi_endproc

	.section	.text.pkcs1_c_private_key_decode,"ax",@progbits
	.globl	pkcs1_c_private_key_decode
	.p2align	2
	.type	pkcs1_c_private_key_decode,@function
pkcs1_c_private_key_decode:
	.cfi_startproc
	hint	#34
	lsr	x8, x1, #32
	cbz	x8, .LBB20_2
	mov	w0, #8
	ret
.LBB20_2:
	sub	sp, sp, #208
	.cfi_def_cfa_offset 208
	stp	x29, x30, [sp, #112]
	stp	x28, x27, [sp, #128]
	stp	x26, x25, [sp, #144]
	stp	x24, x23, [sp, #160]
	stp	x22, x21, [sp, #176]
	stp	x20, x19, [sp, #192]
	.cfi_offset w19, -8
	.cfi_offset w20, -16
	.cfi_offset w21, -24
	.cfi_offset w22, -32
	.cfi_offset w23, -40
	.cfi_offset w24, -48
	.cfi_offset w25, -56
	.cfi_offset w26, -64
	.cfi_offset w27, -72
	.cfi_offset w28, -80
	.cfi_offset w30, -88
	.cfi_offset w29, -96
	.cfi_remember_state
	mov	x9, x1
	subs	x10, x1, #2
	b.lo	.LBB20_33
	mov	x1, x0
	ldrb	w8, [x1], #2
	cmp	w8, #48
	b.ne	.LBB20_33
	ldrsb	w8, [x0, #1]
	tbnz	w8, #31, .LBB20_16
	and	x8, x8, #0xff
	subs	x20, x10, x8
	b.lo	.LBB20_33
	cmp	x8, #2
	b.lo	.LBB20_40
.LBB20_7:
	mov	x10, x1
	ldrb	w9, [x10], #2
	cmp	w9, #2
	b.ne	.LBB20_40
	ldrsb	w11, [x1, #1]
	sub	x9, x8, #2
	tbnz	w11, #31, .LBB20_21
	and	x11, x11, #0xff
	subs	x9, x9, x11
	b.lo	.LBB20_40
	add	x1, x10, x11
	cbz	x11, .LBB20_234
.LBB20_11:
	cmp	x11, #1
	b.ne	.LBB20_26
	ldrsb	w8, [x10]
	tbnz	w8, #31, .LBB20_27
.LBB20_13:
	cmp	w8, #1
	b.eq	.LBB20_44
	and	w8, w8, #0xff
	cbnz	w8, .LBB20_27
	mov	w19, wzr
	b	.LBB20_45
.LBB20_16:
	and	w8, w8, #0xff
	cmp	w8, #130
	b.ne	.LBB20_28
	cmp	x10, #1
	b.ls	.LBB20_33
	ldrb	w8, [x0, #2]
	cbz	x8, .LBB20_33
	ldrb	w10, [x0, #3]
	orr	x8, x10, x8, lsl #8
	sub	x10, x9, #4
	subs	x20, x10, x8
	b.lo	.LBB20_33
	add	x1, x0, #4
	b	.LBB20_7
.LBB20_21:
	and	w11, w11, #0xff
	cmp	w11, #130
	b.ne	.LBB20_35
	cmp	x9, #1
	b.ls	.LBB20_40
	ldrb	w9, [x1, #2]
	cbz	x9, .LBB20_40
	ldrb	w10, [x1, #3]
	orr	x11, x10, x9, lsl #8
	sub	x9, x8, #4
	subs	x9, x9, x11
	b.lo	.LBB20_40
	add	x10, x1, #4
	add	x1, x10, x11
	cbnz	x11, .LBB20_11
	b	.LBB20_234
.LBB20_26:
	ldrb	w8, [x10]
	cbz	w8, .LBB20_42
.LBB20_27:
	mov	w0, #14
	b	.LBB20_235
.LBB20_28:
	cbz	x10, .LBB20_33
	cmp	w8, #129
	b.ne	.LBB20_33
	ldrsb	w8, [x1]
	tbz	w8, #31, .LBB20_33
	sub	x10, x9, #3
	and	x8, x8, #0xff
	subs	x20, x10, x8
	b.lo	.LBB20_33
	add	x1, x0, #3
	b	.LBB20_7
.LBB20_33:
	mov	x19, x2
	mov	x21, x3
	mov	x1, x0
	add	x0, sp, #80
	mov	x2, x9
	mov	w3, #48
	bl	_RNvNtNtNtCs00000000000_7pkcs1_c6proved8der_core5split14split_unlikely
	ldr	x1, [sp, #80]
	cbz	x1, .LBB20_236
	ldr	x8, [sp, #88]
	ldr	x20, [sp, #104]
	mov	x3, x21
	mov	x2, x19
	cmp	x8, #2
	b.hs	.LBB20_7
	b	.LBB20_40
.LBB20_35:
	cbz	x9, .LBB20_40
	cmp	w11, #129
	b.ne	.LBB20_40
	ldrsb	w9, [x10]
	tbz	w9, #31, .LBB20_40
	sub	x10, x8, #3
	and	x11, x9, #0xff
	subs	x9, x10, x11
	b.lo	.LBB20_40
	add	x10, x1, #3
	add	x1, x10, x11
	cbnz	x11, .LBB20_11
	b	.LBB20_234
.LBB20_40:
	mov	x19, x2
	mov	x21, x3
	add	x0, sp, #80
	mov	x2, x8
	mov	w3, #2
	bl	_RNvNtNtNtCs00000000000_7pkcs1_c6proved8der_core5split14split_unlikely
	ldr	x10, [sp, #80]
	cbz	x10, .LBB20_236
	ldp	x11, x1, [sp, #88]
	mov	x3, x21
	ldr	x9, [sp, #104]
	mov	x2, x19
	cbnz	x11, .LBB20_11
	b	.LBB20_234
.LBB20_42:
	ldrsb	w8, [x10, #1]
	tbnz	w8, #31, .LBB20_55
.LBB20_43:
	mov	w0, #5
	b	.LBB20_235
.LBB20_44:
	mov	w19, #1
.LBB20_45:
	subs	x8, x9, #2
	b.lo	.LBB20_62
	mov	x21, x1
	ldrb	w10, [x21], #2
	cmp	w10, #2
	b.ne	.LBB20_62
	ldrsb	w10, [x1, #1]
	tbnz	w10, #31, .LBB20_50
	and	x22, x10, #0xff
	subs	x8, x8, x22
	b.lo	.LBB20_62
	add	x1, x21, x22
	cbnz	x22, .LBB20_64
	b	.LBB20_234
.LBB20_50:
	and	w10, w10, #0xff
	cmp	w10, #130
	b.ne	.LBB20_56
	cmp	x8, #1
	b.ls	.LBB20_62
	ldrb	w8, [x1, #2]
	cbz	x8, .LBB20_62
	ldrb	w10, [x1, #3]
	orr	x22, x10, x8, lsl #8
	sub	x8, x9, #4
	subs	x8, x8, x22
	b.lo	.LBB20_62
	add	x21, x1, #4
	b	.LBB20_61
.LBB20_55:
	sub	x10, x11, #3
	cmn	x10, #2
	b.hs	.LBB20_13
	b	.LBB20_27
.LBB20_56:
	cbz	x8, .LBB20_62
	cmp	w10, #129
	b.ne	.LBB20_62
	ldrsb	w8, [x21]
	tbz	w8, #31, .LBB20_62
	sub	x10, x9, #3
	and	x22, x8, #0xff
	subs	x8, x10, x22
	b.lo	.LBB20_62
	add	x21, x1, #3
.LBB20_61:
	add	x1, x21, x22
	b	.LBB20_64
.LBB20_62:
	mov	x23, x2
	mov	x24, x3
	add	x0, sp, #80
	mov	x2, x9
	mov	w3, #2
	bl	_RNvNtNtNtCs00000000000_7pkcs1_c6proved8der_core5split14split_unlikely
	ldr	x21, [sp, #80]
	cbz	x21, .LBB20_236
	ldp	x22, x1, [sp, #88]
	mov	x3, x24
	ldr	x8, [sp, #104]
	mov	x2, x23
	cbz	x22, .LBB20_234
.LBB20_64:
	ldrsb	w9, [x21]
	cbz	w9, .LBB20_66
	tbz	w9, #31, .LBB20_69
	b	.LBB20_27
.LBB20_66:
	subs	x22, x22, #1
	b.eq	.LBB20_68
	ldrsb	w9, [x21, #1]!
	tbz	w9, #31, .LBB20_43
	b	.LBB20_69
.LBB20_68:
	mov	w22, #1
.LBB20_69:
	subs	x9, x8, #2
	b.lo	.LBB20_85
	mov	x23, x1
	ldrb	w10, [x23], #2
	cmp	w10, #2
	b.ne	.LBB20_85
	ldrsb	w10, [x1, #1]
	tbnz	w10, #31, .LBB20_74
	and	x24, x10, #0xff
	subs	x9, x9, x24
	b.lo	.LBB20_85
	add	x1, x23, x24
	b	.LBB20_87
.LBB20_74:
	and	w10, w10, #0xff
	cmp	w10, #130
	b.ne	.LBB20_79
	cmp	x9, #1
	b.ls	.LBB20_85
	ldrb	w9, [x1, #2]
	cbz	x9, .LBB20_85
	ldrb	w10, [x1, #3]
	orr	x24, x10, x9, lsl #8
	sub	x9, x8, #4
	subs	x9, x9, x24
	b.lo	.LBB20_85
	add	x23, x1, #4
	b	.LBB20_84
.LBB20_79:
	cbz	x9, .LBB20_85
	cmp	w10, #129
	b.ne	.LBB20_85
	ldrsb	w9, [x23]
	tbz	w9, #31, .LBB20_85
	sub	x10, x8, #3
	and	x24, x9, #0xff
	subs	x9, x10, x24
	b.lo	.LBB20_85
	add	x23, x1, #3
.LBB20_84:
	add	x1, x23, x24
	b	.LBB20_88
.LBB20_85:
	mov	x25, x2
	mov	x26, x3
	add	x0, sp, #80
	mov	x2, x8
	mov	w3, #2
	bl	_RNvNtNtNtCs00000000000_7pkcs1_c6proved8der_core5split14split_unlikely
	ldr	x23, [sp, #80]
	cbz	x23, .LBB20_236
	ldp	x24, x1, [sp, #88]
	mov	x3, x26
	ldr	x9, [sp, #104]
	mov	x2, x25
.LBB20_87:
	cbz	x24, .LBB20_234
.LBB20_88:
	ldrsb	w8, [x23]
	cbz	w8, .LBB20_90
	tbz	w8, #31, .LBB20_93
	b	.LBB20_27
.LBB20_90:
	subs	x24, x24, #1
	b.eq	.LBB20_92
	ldrsb	w8, [x23, #1]!
	tbz	w8, #31, .LBB20_43
	b	.LBB20_93
.LBB20_92:
	mov	w24, #1
.LBB20_93:
	subs	x8, x9, #2
	b.lo	.LBB20_109
	mov	x25, x1
	ldrb	w10, [x25], #2
	cmp	w10, #2
	b.ne	.LBB20_109
	ldrsb	w10, [x1, #1]
	tbnz	w10, #31, .LBB20_98
	and	x26, x10, #0xff
	subs	x8, x8, x26
	b.lo	.LBB20_109
	add	x1, x25, x26
	b	.LBB20_111
.LBB20_98:
	and	w10, w10, #0xff
	cmp	w10, #130
	b.ne	.LBB20_103
	cmp	x8, #1
	b.ls	.LBB20_109
	ldrb	w8, [x1, #2]
	cbz	x8, .LBB20_109
	ldrb	w10, [x1, #3]
	orr	x26, x10, x8, lsl #8
	sub	x8, x9, #4
	subs	x8, x8, x26
	b.lo	.LBB20_109
	add	x25, x1, #4
	b	.LBB20_108
.LBB20_103:
	cbz	x8, .LBB20_109
	cmp	w10, #129
	b.ne	.LBB20_109
	ldrsb	w8, [x25]
	tbz	w8, #31, .LBB20_109
	sub	x10, x9, #3
	and	x26, x8, #0xff
	subs	x8, x10, x26
	b.lo	.LBB20_109
	add	x25, x1, #3
.LBB20_108:
	add	x1, x25, x26
	b	.LBB20_112
.LBB20_109:
	mov	x27, x2
	mov	x28, x3
	add	x0, sp, #80
	mov	x2, x9
	mov	w3, #2
	bl	_RNvNtNtNtCs00000000000_7pkcs1_c6proved8der_core5split14split_unlikely
	ldr	x25, [sp, #80]
	cbz	x25, .LBB20_236
	ldp	x26, x1, [sp, #88]
	mov	x3, x28
	ldr	x8, [sp, #104]
	mov	x2, x27
.LBB20_111:
	cbz	x26, .LBB20_234
.LBB20_112:
	ldrsb	w9, [x25]
	cbz	w9, .LBB20_114
	tbz	w9, #31, .LBB20_117
	b	.LBB20_27
.LBB20_114:
	subs	x26, x26, #1
	b.eq	.LBB20_116
	ldrsb	w9, [x25, #1]!
	tbz	w9, #31, .LBB20_43
	b	.LBB20_117
.LBB20_116:
	mov	w26, #1
.LBB20_117:
	subs	x9, x8, #2
	b.lo	.LBB20_133
	mov	x27, x1
	ldrb	w10, [x27], #2
	cmp	w10, #2
	b.ne	.LBB20_133
	ldrsb	w10, [x1, #1]
	tbnz	w10, #31, .LBB20_122
	and	x11, x10, #0xff
	subs	x9, x9, x11
	b.lo	.LBB20_133
	add	x1, x27, x11
	b	.LBB20_135
.LBB20_122:
	and	w10, w10, #0xff
	cmp	w10, #130
	b.ne	.LBB20_127
	cmp	x9, #1
	b.ls	.LBB20_133
	ldrb	w9, [x1, #2]
	cbz	x9, .LBB20_133
	ldrb	w10, [x1, #3]
	orr	x11, x10, x9, lsl #8
	sub	x9, x8, #4
	subs	x9, x9, x11
	b.lo	.LBB20_133
	add	x27, x1, #4
	b	.LBB20_132
.LBB20_127:
	cbz	x9, .LBB20_133
	cmp	w10, #129
	b.ne	.LBB20_133
	ldrsb	w9, [x27]
	tbz	w9, #31, .LBB20_133
	sub	x10, x8, #3
	and	x11, x9, #0xff
	subs	x9, x10, x11
	b.lo	.LBB20_133
	add	x27, x1, #3
.LBB20_132:
	add	x1, x27, x11
	b	.LBB20_136
.LBB20_133:
	mov	x29, x2
	mov	x28, x3
	add	x0, sp, #80
	mov	x2, x8
	mov	w3, #2
	bl	_RNvNtNtNtCs00000000000_7pkcs1_c6proved8der_core5split14split_unlikely
	ldr	x27, [sp, #80]
	cbz	x27, .LBB20_236
	ldp	x11, x1, [sp, #88]
	mov	x3, x28
	ldr	x9, [sp, #104]
	mov	x2, x29
.LBB20_135:
	cbz	x11, .LBB20_234
.LBB20_136:
	ldrsb	w8, [x27]
	cbz	w8, .LBB20_138
	tbz	w8, #31, .LBB20_141
	b	.LBB20_27
.LBB20_138:
	subs	x11, x11, #1
	b.eq	.LBB20_140
	ldrsb	w8, [x27, #1]!
	tbz	w8, #31, .LBB20_43
	b	.LBB20_141
.LBB20_140:
	mov	w11, #1
.LBB20_141:
	subs	x8, x9, #2
	b.lo	.LBB20_157
	mov	x29, x1
	ldrb	w10, [x29], #2
	cmp	w10, #2
	b.ne	.LBB20_157
	ldrsb	w10, [x1, #1]
	tbnz	w10, #31, .LBB20_146
	and	x12, x10, #0xff
	subs	x8, x8, x12
	b.lo	.LBB20_157
	add	x1, x29, x12
	b	.LBB20_159
.LBB20_146:
	and	w10, w10, #0xff
	cmp	w10, #130
	b.ne	.LBB20_151
	cmp	x8, #1
	b.ls	.LBB20_157
	ldrb	w8, [x1, #2]
	cbz	x8, .LBB20_157
	ldrb	w10, [x1, #3]
	orr	x12, x10, x8, lsl #8
	sub	x8, x9, #4
	subs	x8, x8, x12
	b.lo	.LBB20_157
	add	x29, x1, #4
	b	.LBB20_156
.LBB20_151:
	cbz	x8, .LBB20_157
	cmp	w10, #129
	b.ne	.LBB20_157
	ldrsb	w8, [x29]
	tbz	w8, #31, .LBB20_157
	sub	x10, x9, #3
	and	x12, x8, #0xff
	subs	x8, x10, x12
	b.lo	.LBB20_157
	add	x29, x1, #3
.LBB20_156:
	add	x1, x29, x12
	b	.LBB20_160
.LBB20_157:
	stp	x11, x2, [sp, #64]
	mov	x28, x3
	add	x0, sp, #80
	mov	x2, x9
	mov	w3, #2
	bl	_RNvNtNtNtCs00000000000_7pkcs1_c6proved8der_core5split14split_unlikely
	ldr	x29, [sp, #80]
	cbz	x29, .LBB20_236
	ldp	x12, x1, [sp, #88]
	mov	x3, x28
	ldp	x11, x2, [sp, #64]
	ldr	x8, [sp, #104]
.LBB20_159:
	cbz	x12, .LBB20_234
.LBB20_160:
	ldrsb	w9, [x29]
	cbz	w9, .LBB20_162
	tbz	w9, #31, .LBB20_165
	b	.LBB20_27
.LBB20_162:
	subs	x12, x12, #1
	b.eq	.LBB20_164
	ldrsb	w9, [x29, #1]!
	tbz	w9, #31, .LBB20_43
	b	.LBB20_165
.LBB20_164:
	mov	w12, #1
.LBB20_165:
	subs	x9, x8, #2
	b.lo	.LBB20_181
	mov	x13, x1
	ldrb	w10, [x13], #2
	cmp	w10, #2
	b.ne	.LBB20_181
	ldrsb	w10, [x1, #1]
	tbnz	w10, #31, .LBB20_170
	and	x14, x10, #0xff
	subs	x9, x9, x14
	b.lo	.LBB20_181
	add	x1, x13, x14
	b	.LBB20_183
.LBB20_170:
	and	w10, w10, #0xff
	cmp	w10, #130
	b.ne	.LBB20_175
	cmp	x9, #1
	b.ls	.LBB20_181
	ldrb	w9, [x1, #2]
	cbz	x9, .LBB20_181
	ldrb	w10, [x1, #3]
	orr	x14, x10, x9, lsl #8
	sub	x9, x8, #4
	subs	x9, x9, x14
	b.lo	.LBB20_181
	add	x13, x1, #4
	b	.LBB20_180
.LBB20_175:
	cbz	x9, .LBB20_181
	cmp	w10, #129
	b.ne	.LBB20_181
	ldrsb	w9, [x13]
	tbz	w9, #31, .LBB20_181
	sub	x10, x8, #3
	and	x14, x9, #0xff
	subs	x9, x10, x14
	b.lo	.LBB20_181
	add	x13, x1, #3
.LBB20_180:
	add	x1, x13, x14
	b	.LBB20_184
.LBB20_181:
	str	x2, [sp, #72]
	mov	x28, x3
	add	x0, sp, #80
	mov	x2, x8
	mov	w3, #2
	stp	x12, x11, [sp, #56]
	bl	_RNvNtNtNtCs00000000000_7pkcs1_c6proved8der_core5split14split_unlikely
	ldr	x13, [sp, #80]
	cbz	x13, .LBB20_236
	ldp	x14, x1, [sp, #88]
	mov	x3, x28
	ldp	x11, x2, [sp, #64]
	ldr	x9, [sp, #104]
	ldr	x12, [sp, #56]
.LBB20_183:
	cbz	x14, .LBB20_234
.LBB20_184:
	ldrsb	w8, [x13]
	cbz	w8, .LBB20_186
	tbz	w8, #31, .LBB20_189
	b	.LBB20_27
.LBB20_186:
	subs	x14, x14, #1
	b.eq	.LBB20_188
	ldrsb	w8, [x13, #1]!
	tbz	w8, #31, .LBB20_43
	b	.LBB20_189
.LBB20_188:
	mov	w14, #1
.LBB20_189:
	subs	x8, x9, #2
	b.lo	.LBB20_205
	mov	x15, x1
	ldrb	w10, [x15], #2
	cmp	w10, #2
	b.ne	.LBB20_205
	ldrsb	w10, [x1, #1]
	tbnz	w10, #31, .LBB20_194
	and	x10, x10, #0xff
	subs	x8, x8, x10
	b.lo	.LBB20_205
	add	x1, x15, x10
	b	.LBB20_207
.LBB20_194:
	and	w10, w10, #0xff
	cmp	w10, #130
	b.ne	.LBB20_199
	cmp	x8, #1
	b.ls	.LBB20_205
	ldrb	w8, [x1, #2]
	cbz	x8, .LBB20_205
	ldrb	w10, [x1, #3]
	orr	x10, x10, x8, lsl #8
	sub	x8, x9, #4
	subs	x8, x8, x10
	b.lo	.LBB20_205
	add	x15, x1, #4
	b	.LBB20_204
.LBB20_199:
	cbz	x8, .LBB20_205
	cmp	w10, #129
	b.ne	.LBB20_205
	ldrsb	w8, [x15]
	tbz	w8, #31, .LBB20_205
	sub	x10, x9, #3
	and	x15, x8, #0xff
	subs	x8, x10, x15
	b.lo	.LBB20_205
	mov	x10, x15
	add	x15, x1, #3
.LBB20_204:
	add	x1, x15, x10
	b	.LBB20_208
.LBB20_205:
	str	x2, [sp, #72]
	mov	x28, x3
	add	x0, sp, #80
	mov	x2, x9
	mov	w3, #2
	stp	x14, x13, [sp, #32]
	stp	x12, x11, [sp, #56]
	bl	_RNvNtNtNtCs00000000000_7pkcs1_c6proved8der_core5split14split_unlikely
	ldr	x8, [sp, #80]
	cbz	x8, .LBB20_236
	ldp	x10, x1, [sp, #88]
	mov	x15, x8
	ldp	x11, x2, [sp, #64]
	mov	x3, x28
	ldp	x14, x13, [sp, #32]
	ldr	x8, [sp, #104]
	ldr	x12, [sp, #56]
.LBB20_207:
	cbz	x10, .LBB20_234
.LBB20_208:
	ldrsb	w9, [x15]
	cbz	w9, .LBB20_210
	str	x10, [sp, #48]
	str	x15, [sp, #24]
	tbz	w9, #31, .LBB20_213
	b	.LBB20_27
.LBB20_210:
	subs	x10, x10, #1
	str	x10, [sp, #48]
	b.eq	.LBB20_212
	ldrsb	w9, [x15, #1]!
	str	x15, [sp, #24]
	tbz	w9, #31, .LBB20_43
	b	.LBB20_213
.LBB20_212:
	mov	w9, #1
	str	x15, [sp, #24]
	str	x9, [sp, #48]
.LBB20_213:
	subs	x9, x8, #2
	str	x3, [sp, #16]
	stp	x11, x2, [sp, #64]
	str	x12, [sp, #56]
	stp	x14, x13, [sp, #32]
	b.lo	.LBB20_229
	mov	x15, x1
	ldrb	w10, [x15], #2
	cmp	w10, #2
	b.ne	.LBB20_229
	ldrsb	w10, [x1, #1]
	tbnz	w10, #31, .LBB20_218
	and	x16, x10, #0xff
	subs	x9, x9, x16
	b.lo	.LBB20_229
	add	x1, x15, x16
	b	.LBB20_231
.LBB20_218:
	and	w10, w10, #0xff
	cmp	w10, #130
	b.ne	.LBB20_223
	cmp	x9, #1
	b.ls	.LBB20_229
	ldrb	w9, [x1, #2]
	cbz	x9, .LBB20_229
	ldrb	w10, [x1, #3]
	orr	x16, x10, x9, lsl #8
	sub	x9, x8, #4
	subs	x9, x9, x16
	b.lo	.LBB20_229
	add	x15, x1, #4
	b	.LBB20_228
.LBB20_223:
	cbz	x9, .LBB20_229
	cmp	w10, #129
	b.ne	.LBB20_229
	ldrsb	w9, [x15]
	tbz	w9, #31, .LBB20_229
	sub	x10, x8, #3
	and	x16, x9, #0xff
	subs	x9, x10, x16
	b.lo	.LBB20_229
	add	x15, x1, #3
.LBB20_228:
	add	x1, x15, x16
	b	.LBB20_232
.LBB20_229:
	add	x0, sp, #80
	mov	x2, x8
	mov	w3, #2
	bl	_RNvNtNtNtCs00000000000_7pkcs1_c6proved8der_core5split14split_unlikely
	ldr	x8, [sp, #80]
	cbz	x8, .LBB20_236
	ldp	x16, x1, [sp, #88]
	mov	x15, x8
	ldr	x9, [sp, #104]
.LBB20_231:
	cbz	x16, .LBB20_234
.LBB20_232:
	ldrsb	w8, [x15]
	mov	x28, x15
	cbz	w8, .LBB20_244
	str	x16, [sp, #8]
	tbz	w8, #31, .LBB20_247
	b	.LBB20_27
.LBB20_234:
	mov	w0, #4
.LBB20_235:
	ldp	x20, x19, [sp, #192]
	ldp	x22, x21, [sp, #176]
	ldp	x24, x23, [sp, #160]
	ldp	x26, x25, [sp, #144]
	ldp	x28, x27, [sp, #128]
	ldp	x29, x30, [sp, #112]
	add	sp, sp, #208
	.cfi_def_cfa_offset 0
	.cfi_restore w19
	.cfi_restore w20
	.cfi_restore w21
	.cfi_restore w22
	.cfi_restore w23
	.cfi_restore w24
	.cfi_restore w25
	.cfi_restore w26
	.cfi_restore w27
	.cfi_restore w28
	.cfi_restore w30
	.cfi_restore w29
	ret
.LBB20_236:
	.cfi_restore_state
	ldrb	w8, [sp, #90]
	ldrh	w9, [sp, #88]
.LBB20_237:
	orr	w8, w9, w8, lsl #16
	sub	w9, w8, #17
	and	w10, w9, #0xff
	and	x9, x9, #0xff
	cmp	w10, #3
	csinc	x9, xzr, x9, hs
	cmp	x9, #1
	b.gt	.LBB20_240
	cbnz	x9, .LBB20_242
	and	w8, w8, #0xff
	add	w0, w8, #1
	b	.LBB20_235
.LBB20_240:
	cmp	x9, #2
	b.ne	.LBB20_243
	mov	w0, #19
	b	.LBB20_235
.LBB20_242:
	mov	w0, #18
	b	.LBB20_235
.LBB20_243:
	mov	w0, #20
	b	.LBB20_235
.LBB20_244:
	subs	x16, x16, #1
	str	x16, [sp, #8]
	b.eq	.LBB20_246
	ldrsb	w8, [x28, #1]!
	tbz	w8, #31, .LBB20_43
	b	.LBB20_247
.LBB20_246:
	mov	w8, #1
	str	x8, [sp, #8]
.LBB20_247:
	cbz	x9, .LBB20_249
	add	x0, sp, #80
	mov	x2, x9
	mov	w3, w19
	b	.LBB20_251
.LBB20_249:
	cbz	w19, .LBB20_254
	add	x0, sp, #80
	mov	x2, xzr
	mov	w3, #1
.LBB20_251:
	bl	_RNvNtNtNtCs00000000000_7pkcs1_c6proved5pkcs110viewed_key9read_list
	ldrb	w8, [sp, #80]
	tbz	w8, #0, .LBB20_253
	ldrb	w8, [sp, #83]
	ldurh	w9, [sp, #81]
	b	.LBB20_237
.LBB20_253:
	ldr	x8, [sp, #88]
	b	.LBB20_255
.LBB20_254:
	mov	x8, xzr
.LBB20_255:
	cbz	x20, .LBB20_257
	mov	w0, #13
	b	.LBB20_235
.LBB20_257:
	ldp	x10, x9, [sp, #64]
	cmp	x8, #0
	mov	w0, wzr
	stp	x27, x10, [x9, #48]
	ldp	x11, x10, [sp, #48]
	stp	x21, x22, [x9]
	stp	x23, x24, [x9, #16]
	stp	x29, x10, [x9, #64]
	ldr	x10, [sp, #40]
	stp	x25, x26, [x9, #32]
	str	x10, [x9, #80]
	ldr	x10, [sp, #32]
	str	x10, [x9, #88]
	ldr	x10, [sp, #24]
	stp	x10, x11, [x9, #96]
	ldr	x10, [sp, #104]
	ldr	x11, [sp, #8]
	csel	x10, xzr, x10, eq
	stp	x28, x11, [x9, #112]
	ldr	x11, [sp, #96]
	str	x10, [x9, #128]
	adrp	x9, _RNvNtCs00000000000_7pkcs1_c10rattle_std8AN_OCTET
	add	x9, x9, :lo12:_RNvNtCs00000000000_7pkcs1_c10rattle_std8AN_OCTET
	ldr	x10, [sp, #16]
	csel	x8, x9, x8, eq
	csel	x9, xzr, x11, eq
	stp	x8, x9, [x10]
	b	.LBB20_235
.Lfunc_end20:
	.size	pkcs1_c_private_key_decode, .Lfunc_end20-pkcs1_c_private_key_decode
	.cfi_endproc

	.section	.text.pkcs1_c_other_primes,"ax",@progbits
	.globl	pkcs1_c_other_primes
	.p2align	2
	.type	pkcs1_c_other_primes,@function
pkcs1_c_other_primes:
	.cfi_startproc
	hint	#34
	lsr	x8, x1, #32
	cbnz	x8, .LBB21_89
	sub	sp, sp, #112
	.cfi_def_cfa_offset 112
	str	x30, [sp, #32]
	stp	x26, x25, [sp, #48]
	stp	x24, x23, [sp, #64]
	stp	x22, x21, [sp, #80]
	stp	x20, x19, [sp, #96]
	.cfi_offset w19, -8
	.cfi_offset w20, -16
	.cfi_offset w21, -24
	.cfi_offset w22, -32
	.cfi_offset w23, -40
	.cfi_offset w24, -48
	.cfi_offset w25, -56
	.cfi_offset w26, -64
	.cfi_offset w30, -80
	mov	x19, x3
	cbz	x3, .LBB21_88
	mov	x21, x1
	mov	x20, x0
	add	x22, x2, #24
.LBB21_3:
	subs	x8, x21, #2
	b.lo	.LBB21_28
	mov	x1, x20
	ldrb	w9, [x1], #2
	cmp	w9, #48
	b.ne	.LBB21_28
	ldrsb	w9, [x20, #1]
	tbnz	w9, #31, .LBB21_9
	and	x2, x9, #0xff
	subs	x8, x8, x2
	b.lo	.LBB21_28
	add	x20, x1, x2
	mov	x21, x8
	cmp	x2, #2
	b.lo	.LBB21_35
.LBB21_8:
	mov	x23, x1
	ldrb	w8, [x23], #2
	cmp	w8, #2
	b.eq	.LBB21_20
	b	.LBB21_35
.LBB21_9:
	and	w9, w9, #0xff
	cmp	w9, #130
	b.ne	.LBB21_14
	cmp	x8, #1
	b.ls	.LBB21_28
	ldrb	w8, [x20, #2]
	cbz	x8, .LBB21_28
	ldrb	w9, [x20, #3]
	orr	x2, x9, x8, lsl #8
	sub	x8, x21, #4
	subs	x8, x8, x2
	b.lo	.LBB21_28
	add	x1, x20, #4
	b	.LBB21_19
.LBB21_14:
	cbz	x8, .LBB21_28
	cmp	w9, #129
	b.ne	.LBB21_28
	ldrsb	w8, [x1]
	tbz	w8, #31, .LBB21_28
	sub	x9, x21, #3
	and	x2, x8, #0xff
	subs	x8, x9, x2
	b.lo	.LBB21_28
	add	x1, x20, #3
.LBB21_19:
	add	x20, x1, x2
	mov	x21, x8
	mov	x23, x1
	ldrb	w8, [x23], #2
	cmp	w8, #2
	b.ne	.LBB21_35
.LBB21_20:
	ldrsb	w9, [x1, #1]
	sub	x8, x2, #2
	tbnz	w9, #31, .LBB21_23
	and	x24, x9, #0xff
	subs	x8, x8, x24
	b.lo	.LBB21_35
	add	x1, x23, x24
	cbnz	x24, .LBB21_37
	b	.LBB21_88
.LBB21_23:
	and	w9, w9, #0xff
	cmp	w9, #130
	b.ne	.LBB21_30
	cmp	x8, #1
	b.ls	.LBB21_35
	ldrb	w8, [x1, #2]
	cbz	x8, .LBB21_35
	ldrb	w9, [x1, #3]
	orr	x24, x9, x8, lsl #8
	sub	x8, x2, #4
	subs	x8, x8, x24
	b.lo	.LBB21_35
	add	x23, x1, #4
	add	x1, x23, x24
	b	.LBB21_37
.LBB21_28:
	mov	x0, sp
	mov	x1, x20
	mov	x2, x21
	mov	w3, #48
	bl	_RNvNtNtNtCs00000000000_7pkcs1_c6proved8der_core5split14split_unlikely
	ldr	x1, [sp]
	cbz	x1, .LBB21_88
	ldp	x2, x20, [sp, #8]
	ldr	x21, [sp, #24]
	cmp	x2, #2
	b.hs	.LBB21_8
	b	.LBB21_35
.LBB21_30:
	cbz	x8, .LBB21_35
	cmp	w9, #129
	b.ne	.LBB21_35
	ldrsb	w8, [x23]
	tbz	w8, #31, .LBB21_35
	sub	x9, x2, #3
	and	x24, x8, #0xff
	subs	x8, x9, x24
	b.lo	.LBB21_35
	add	x23, x1, #3
	add	x1, x23, x24
	b	.LBB21_37
.LBB21_35:
	mov	x0, sp
	mov	w3, #2
	bl	_RNvNtNtNtCs00000000000_7pkcs1_c6proved8der_core5split14split_unlikely
	ldr	x23, [sp]
	cbz	x23, .LBB21_88
	ldp	x24, x1, [sp, #8]
	ldr	x8, [sp, #24]
	cbz	x24, .LBB21_88
.LBB21_37:
	ldrsb	w9, [x23]
	cbz	w9, .LBB21_44
	tbnz	w9, #31, .LBB21_88
.LBB21_39:
	subs	x9, x8, #2
	b.lo	.LBB21_57
.LBB21_40:
	mov	x25, x1
	ldrb	w10, [x25], #2
	cmp	w10, #2
	b.ne	.LBB21_57
	ldrsb	w10, [x1, #1]
	tbnz	w10, #31, .LBB21_46
	and	x26, x10, #0xff
	subs	x2, x9, x26
	b.lo	.LBB21_57
	add	x1, x25, x26
	cbnz	x26, .LBB21_59
	b	.LBB21_88
.LBB21_44:
	subs	x24, x24, #1
	b.eq	.LBB21_56
	ldrsb	w9, [x23, #1]!
	tbnz	w9, #31, .LBB21_39
	b	.LBB21_88
.LBB21_46:
	and	w10, w10, #0xff
	cmp	w10, #130
	b.ne	.LBB21_51
	cmp	x9, #1
	b.ls	.LBB21_57
	ldrb	w9, [x1, #2]
	cbz	x9, .LBB21_57
	ldrb	w10, [x1, #3]
	orr	x26, x10, x9, lsl #8
	sub	x9, x8, #4
	subs	x2, x9, x26
	b.lo	.LBB21_57
	add	x25, x1, #4
	add	x1, x25, x26
	b	.LBB21_59
.LBB21_51:
	cbz	x9, .LBB21_57
	cmp	w10, #129
	b.ne	.LBB21_57
	ldrsb	w9, [x25]
	tbz	w9, #31, .LBB21_57
	sub	x10, x8, #3
	and	x26, x9, #0xff
	subs	x2, x10, x26
	b.lo	.LBB21_57
	add	x25, x1, #3
	add	x1, x25, x26
	b	.LBB21_59
.LBB21_56:
	mov	w24, #1
	subs	x9, x8, #2
	b.hs	.LBB21_40
.LBB21_57:
	mov	x0, sp
	mov	x2, x8
	mov	w3, #2
	bl	_RNvNtNtNtCs00000000000_7pkcs1_c6proved8der_core5split14split_unlikely
	ldr	x25, [sp]
	cbz	x25, .LBB21_88
	ldp	x26, x1, [sp, #8]
	ldr	x2, [sp, #24]
	cbz	x26, .LBB21_88
.LBB21_59:
	ldrsb	w8, [x25]
	cbz	w8, .LBB21_66
	tbnz	w8, #31, .LBB21_88
.LBB21_61:
	subs	x10, x2, #2
	b.lo	.LBB21_79
.LBB21_62:
	mov	x8, x1
	ldrb	w9, [x8], #2
	cmp	w9, #2
	b.ne	.LBB21_79
	ldrsb	w9, [x1, #1]
	tbnz	w9, #31, .LBB21_68
	and	x9, x9, #0xff
	subs	x10, x10, x9
	b.lo	.LBB21_79
	cbnz	x9, .LBB21_81
	b	.LBB21_88
.LBB21_66:
	subs	x26, x26, #1
	b.eq	.LBB21_78
	ldrsb	w8, [x25, #1]!
	tbnz	w8, #31, .LBB21_61
	b	.LBB21_88
.LBB21_68:
	and	w9, w9, #0xff
	cmp	w9, #130
	b.ne	.LBB21_73
	cmp	x10, #1
	b.ls	.LBB21_79
	ldrb	w8, [x1, #2]
	cbz	x8, .LBB21_79
	ldrb	w9, [x1, #3]
	orr	x9, x9, x8, lsl #8
	sub	x8, x2, #4
	subs	x10, x8, x9
	b.lo	.LBB21_79
	add	x8, x1, #4
	b	.LBB21_81
.LBB21_73:
	cbz	x10, .LBB21_79
	cmp	w9, #129
	b.ne	.LBB21_79
	ldrsb	w8, [x8]
	tbz	w8, #31, .LBB21_79
	sub	x10, x2, #3
	and	x9, x8, #0xff
	subs	x10, x10, x9
	b.lo	.LBB21_79
	add	x8, x1, #3
	b	.LBB21_81
.LBB21_78:
	mov	w26, #1
	subs	x10, x2, #2
	b.hs	.LBB21_62
.LBB21_79:
	mov	x0, sp
	mov	w3, #2
	bl	_RNvNtNtNtCs00000000000_7pkcs1_c6proved8der_core5split14split_unlikely
	ldr	x8, [sp]
	cbz	x8, .LBB21_88
	ldr	x9, [sp, #8]
	ldr	x10, [sp, #24]
	cbz	x9, .LBB21_88
.LBB21_81:
	ldrsb	w11, [x8]
	cbz	w11, .LBB21_85
	tbnz	w11, #31, .LBB21_88
.LBB21_83:
	cbnz	x10, .LBB21_88
.LBB21_84:
	stp	x23, x24, [x22, #-24]
	subs	x19, x19, #1
	stp	x25, x26, [x22, #-8]
	stp	x8, x9, [x22, #8]
	add	x22, x22, #48
	b.ne	.LBB21_3
	b	.LBB21_88
.LBB21_85:
	subs	x9, x9, #1
	b.eq	.LBB21_87
	ldrsb	w11, [x8, #1]!
	tbnz	w11, #31, .LBB21_83
	b	.LBB21_88
.LBB21_87:
	mov	w9, #1
	cbz	x10, .LBB21_84
.LBB21_88:
	ldp	x20, x19, [sp, #96]
	ldr	x30, [sp, #32]
	ldp	x22, x21, [sp, #80]
	ldp	x24, x23, [sp, #64]
	ldp	x26, x25, [sp, #48]
	add	sp, sp, #112
	.cfi_def_cfa_offset 0
	.cfi_restore w19
	.cfi_restore w20
	.cfi_restore w21
	.cfi_restore w22
	.cfi_restore w23
	.cfi_restore w24
	.cfi_restore w25
	.cfi_restore w26
	.cfi_restore w30
.LBB21_89:
	ret
.Lfunc_end21:
	.size	pkcs1_c_other_primes, .Lfunc_end21-pkcs1_c_other_primes
	.cfi_endproc

	.section	.text.pkcs1_c_private_key_encode,"ax",@progbits
	.globl	pkcs1_c_private_key_encode
	.p2align	2
	.type	pkcs1_c_private_key_encode,@function
pkcs1_c_private_key_encode:
	.cfi_startproc
	hint	#34
	sub	sp, sp, #240
	.cfi_def_cfa_offset 240
	stp	x29, x30, [sp, #144]
	stp	x28, x27, [sp, #160]
	stp	x26, x25, [sp, #176]
	stp	x24, x23, [sp, #192]
	stp	x22, x21, [sp, #208]
	stp	x20, x19, [sp, #224]
	.cfi_offset w19, -8
	.cfi_offset w20, -16
	.cfi_offset w21, -24
	.cfi_offset w22, -32
	.cfi_offset w23, -40
	.cfi_offset w24, -48
	.cfi_offset w25, -56
	.cfi_offset w26, -64
	.cfi_offset w27, -72
	.cfi_offset w28, -80
	.cfi_offset w30, -88
	.cfi_offset w29, -96
	.cfi_remember_state
	ldr	x8, [x0, #128]
	cmp	x8, x2
	b.ne	.LBB22_7
	ldp	x19, x20, [x0]
	mov	x30, x2
	cmp	x20, #2
	b.lo	.LBB22_8
	add	x8, x19, x20
	sub	x8, x8, #1
.LBB22_3:
	ldrb	w9, [x19]
	cbnz	w9, .LBB22_10
	sub	x20, x20, #1
	add	x19, x19, #1
	cmp	x20, #1
	b.hi	.LBB22_3
	cbz	x8, .LBB22_100
	mov	w20, #1
	mov	x19, x8
	b	.LBB22_11
.LBB22_7:
	mov	w0, #21
	b	.LBB22_101
.LBB22_8:
	cbz	x20, .LBB22_99
	mov	w20, #1
	b	.LBB22_11
.LBB22_10:
	lsr	x8, x20, #32
	cbnz	x8, .LBB22_74
.LBB22_11:
	ldp	x21, x22, [x0, #16]
	cmp	x22, #2
	b.lo	.LBB22_17
	add	x8, x21, x22
	sub	x8, x8, #1
.LBB22_13:
	ldrb	w9, [x21]
	cbnz	w9, .LBB22_19
	sub	x22, x22, #1
	add	x21, x21, #1
	cmp	x22, #1
	b.hi	.LBB22_13
	cbz	x8, .LBB22_100
	mov	w22, #1
	mov	x21, x8
	b	.LBB22_20
.LBB22_17:
	cbz	x22, .LBB22_99
	mov	w22, #1
	b	.LBB22_20
.LBB22_19:
	lsr	x8, x22, #32
	cbnz	x8, .LBB22_74
.LBB22_20:
	ldp	x23, x24, [x0, #32]
	cmp	x24, #2
	b.lo	.LBB22_26
	add	x8, x23, x24
	sub	x8, x8, #1
.LBB22_22:
	ldrb	w9, [x23]
	cbnz	w9, .LBB22_28
	sub	x24, x24, #1
	add	x23, x23, #1
	cmp	x24, #1
	b.hi	.LBB22_22
	cbz	x8, .LBB22_100
	mov	w24, #1
	mov	x23, x8
	b	.LBB22_29
.LBB22_26:
	cbz	x24, .LBB22_99
	mov	w24, #1
	b	.LBB22_29
.LBB22_28:
	lsr	x8, x24, #32
	cbnz	x8, .LBB22_74
.LBB22_29:
	ldp	x28, x29, [x0, #48]
	cmp	x29, #2
	b.lo	.LBB22_35
	add	x8, x28, x29
	sub	x8, x8, #1
.LBB22_31:
	ldrb	w9, [x28]
	cbnz	w9, .LBB22_37
	sub	x29, x29, #1
	add	x28, x28, #1
	cmp	x29, #1
	b.hi	.LBB22_31
	cbz	x8, .LBB22_100
	mov	w29, #1
	mov	x28, x8
	b	.LBB22_38
.LBB22_35:
	cbz	x29, .LBB22_99
	mov	w29, #1
	b	.LBB22_38
.LBB22_37:
	lsr	x8, x29, #32
	cbnz	x8, .LBB22_74
.LBB22_38:
	ldp	x27, x6, [x0, #64]
	cmp	x6, #2
	b.lo	.LBB22_44
	add	x8, x27, x6
	sub	x8, x8, #1
.LBB22_40:
	ldrb	w9, [x27]
	cbnz	w9, .LBB22_46
	sub	x6, x6, #1
	add	x27, x27, #1
	cmp	x6, #1
	b.hi	.LBB22_40
	cbz	x8, .LBB22_100
	mov	w6, #1
	mov	x27, x8
	b	.LBB22_47
.LBB22_44:
	cbz	x6, .LBB22_99
	mov	w6, #1
	b	.LBB22_47
.LBB22_46:
	lsr	x8, x6, #32
	cbnz	x8, .LBB22_74
.LBB22_47:
	mov	x2, x1
	ldp	x1, x7, [x0, #80]
	cmp	x7, #2
	b.lo	.LBB22_53
	add	x8, x1, x7
	sub	x8, x8, #1
.LBB22_49:
	ldrb	w9, [x1]
	cbnz	w9, .LBB22_55
	sub	x7, x7, #1
	add	x1, x1, #1
	cmp	x7, #1
	b.hi	.LBB22_49
	cbz	x8, .LBB22_100
	mov	w7, #1
	mov	x1, x8
	b	.LBB22_56
.LBB22_53:
	cbz	x7, .LBB22_99
	mov	w7, #1
	b	.LBB22_56
.LBB22_55:
	lsr	x8, x7, #32
	cbnz	x8, .LBB22_74
.LBB22_56:
	ldp	x12, x25, [x0, #96]
	cmp	x25, #2
	b.lo	.LBB22_62
	add	x8, x12, x25
	sub	x8, x8, #1
.LBB22_58:
	ldrb	w9, [x12]
	cbnz	w9, .LBB22_64
	sub	x25, x25, #1
	add	x12, x12, #1
	cmp	x25, #1
	b.hi	.LBB22_58
	cbz	x8, .LBB22_100
	mov	w25, #1
	mov	x12, x8
	b	.LBB22_65
.LBB22_62:
	cbz	x25, .LBB22_99
	mov	w25, #1
	b	.LBB22_65
.LBB22_64:
	lsr	x8, x25, #32
	cbnz	x8, .LBB22_74
.LBB22_65:
	ldp	x0, x26, [x0, #112]
	cmp	x26, #2
	b.lo	.LBB22_71
	add	x8, x0, x26
	sub	x8, x8, #1
.LBB22_67:
	ldrb	w9, [x0]
	cbnz	w9, .LBB22_73
	sub	x26, x26, #1
	add	x0, x0, #1
	cmp	x26, #1
	b.hi	.LBB22_67
	cbz	x8, .LBB22_100
	mov	w26, #1
	mov	x0, x8
	b	.LBB22_75
.LBB22_71:
	cbz	x26, .LBB22_99
	mov	w26, #1
	b	.LBB22_75
.LBB22_73:
	lsr	x8, x26, #32
	cbz	x8, .LBB22_75
.LBB22_74:
	mov	w0, #8
	b	.LBB22_101
.LBB22_75:
	str	x12, [sp, #64]
	cbz	x30, .LBB22_102
	mov	w8, #48
	mov	x9, x2
	madd	x8, x30, x8, x2
	b	.LBB22_79
.LBB22_77:
	cbz	x10, .LBB22_99
.LBB22_78:
	add	x9, x9, #48
	cmp	x9, x8
	b.eq	.LBB22_116
.LBB22_79:
	ldr	x10, [x9, #8]
	cmp	x10, #2
	b.lo	.LBB22_84
	ldr	x11, [x9]
	add	x12, x11, x10
	sub	x12, x12, #1
.LBB22_81:
	ldrb	w13, [x11]
	cbnz	w13, .LBB22_85
	sub	x10, x10, #1
	add	x11, x11, #1
	cmp	x10, #1
	b.hi	.LBB22_81
	cbnz	x12, .LBB22_86
	b	.LBB22_100
.LBB22_84:
	cbnz	x10, .LBB22_86
	b	.LBB22_99
.LBB22_85:
	lsr	x10, x10, #32
	cbnz	x10, .LBB22_74
.LBB22_86:
	ldr	x10, [x9, #24]
	cmp	x10, #2
	b.lo	.LBB22_91
	ldr	x11, [x9, #16]
	add	x12, x11, x10
	sub	x12, x12, #1
.LBB22_88:
	ldrb	w13, [x11]
	cbnz	w13, .LBB22_92
	sub	x10, x10, #1
	add	x11, x11, #1
	cmp	x10, #1
	b.hi	.LBB22_88
	cbnz	x12, .LBB22_93
	b	.LBB22_100
.LBB22_91:
	cbnz	x10, .LBB22_93
	b	.LBB22_99
.LBB22_92:
	lsr	x10, x10, #32
	cbnz	x10, .LBB22_74
.LBB22_93:
	ldr	x10, [x9, #40]
	cmp	x10, #2
	b.lo	.LBB22_77
	ldr	x11, [x9, #32]
	add	x12, x11, x10
	sub	x12, x12, #1
.LBB22_95:
	ldrb	w13, [x11]
	cbnz	w13, .LBB22_98
	sub	x10, x10, #1
	add	x11, x11, #1
	cmp	x10, #1
	b.hi	.LBB22_95
	cbnz	x12, .LBB22_78
	b	.LBB22_100
.LBB22_98:
	lsr	x10, x10, #32
	cbz	x10, .LBB22_78
	b	.LBB22_74
.LBB22_99:
	mov	w0, #4
	b	.LBB22_101
.LBB22_100:
	mov	w0, #2
.LBB22_101:
	ldp	x20, x19, [sp, #224]
	ldp	x22, x21, [sp, #208]
	ldp	x24, x23, [sp, #192]
	ldp	x26, x25, [sp, #176]
	ldp	x28, x27, [sp, #160]
	ldp	x29, x30, [sp, #144]
	add	sp, sp, #240
	.cfi_def_cfa_offset 0
	.cfi_restore w19
	.cfi_restore w20
	.cfi_restore w21
	.cfi_restore w22
	.cfi_restore w23
	.cfi_restore w24
	.cfi_restore w25
	.cfi_restore w26
	.cfi_restore w27
	.cfi_restore w28
	.cfi_restore w30
	.cfi_restore w29
	ret
.LBB22_102:
	.cfi_restore_state
	mov	x2, xzr
	mov	x8, xzr
.LBB22_103:
	cmp	x30, #0
	ldrsb	w10, [x0]
	cset	w9, ne
	str	w9, [sp, #52]
	adds	x9, x8, x26
	csinv	x9, x9, xzr, lo
	adds	x11, x9, #1
	csinv	x11, x11, xzr, lo
	cmp	w10, #0
	csel	x9, x11, x9, lt
	subs	x9, x9, x8
	csel	x9, xzr, x9, lo
	cmp	x9, #128
	b.hs	.LBB22_105
	add	x9, x9, #2
	b	.LBB22_106
.LBB22_105:
	lsr	x10, x9, #24
	adds	x11, x9, #6
	add	x12, x9, #5
	csinv	x11, x11, xzr, lo
	cmp	x10, #0
	add	x10, x9, #4
	csel	x11, x12, x11, eq
	cmp	x9, #16, lsl #12
	add	x12, x9, #3
	csel	x10, x10, x11, lo
	cmp	x9, #256
	csel	x9, x12, x10, lo
	ldr	x12, [sp, #64]
.LBB22_106:
	adds	x8, x8, x9
	ldrsb	w10, [x12]
	csinv	x8, x8, xzr, lo
	adds	x9, x8, x25
	csinv	x9, x9, xzr, lo
	adds	x11, x9, #1
	csinv	x11, x11, xzr, lo
	cmp	w10, #0
	csel	x9, x11, x9, lt
	subs	x9, x9, x8
	csel	x9, xzr, x9, lo
	cmp	x9, #128
	b.hs	.LBB22_108
	add	x9, x9, #2
	b	.LBB22_109
.LBB22_108:
	lsr	x10, x9, #24
	adds	x11, x9, #6
	add	x12, x9, #5
	csinv	x11, x11, xzr, lo
	cmp	x10, #0
	add	x10, x9, #4
	csel	x11, x12, x11, eq
	cmp	x9, #16, lsl #12
	add	x12, x9, #3
	csel	x10, x10, x11, lo
	cmp	x9, #256
	csel	x9, x12, x10, lo
.LBB22_109:
	adds	x8, x8, x9
	ldrsb	w10, [x1]
	csinv	x8, x8, xzr, lo
	adds	x9, x8, x7
	csinv	x9, x9, xzr, lo
	adds	x11, x9, #1
	csinv	x11, x11, xzr, lo
	cmp	w10, #0
	csel	x9, x11, x9, lt
	subs	x9, x9, x8
	csel	x9, xzr, x9, lo
	cmp	x9, #128
	b.hs	.LBB22_111
	add	x9, x9, #2
	b	.LBB22_112
.LBB22_111:
	lsr	x10, x9, #24
	adds	x11, x9, #6
	add	x12, x9, #5
	csinv	x11, x11, xzr, lo
	cmp	x10, #0
	add	x10, x9, #4
	csel	x11, x12, x11, eq
	cmp	x9, #16, lsl #12
	add	x12, x9, #3
	csel	x10, x10, x11, lo
	cmp	x9, #256
	csel	x9, x12, x10, lo
.LBB22_112:
	adds	x8, x8, x9
	ldrsb	w10, [x27]
	mov	x12, x3
	csinv	x8, x8, xzr, lo
	adds	x9, x8, x6
	csinv	x9, x9, xzr, lo
	adds	x11, x9, #1
	csinv	x11, x11, xzr, lo
	cmp	w10, #0
	csel	x9, x11, x9, lt
	subs	x9, x9, x8
	csel	x9, xzr, x9, lo
	cmp	x9, #128
	b.hs	.LBB22_114
	mov	w10, #2
	b	.LBB22_161
.LBB22_114:
	cmp	x9, #256
	b.hs	.LBB22_160
	mov	w10, #3
	b	.LBB22_161
.LBB22_116:
	mov	x8, xzr
	mov	w9, #48
	mov	x10, x30
	b	.LBB22_120
.LBB22_117:
	add	x11, x11, #2
.LBB22_118:
	adds	x8, x8, x11
	csinv	x8, x8, xzr, lo
.LBB22_119:
	cbz	x10, .LBB22_158
.LBB22_120:
	sub	x10, x10, #1
	madd	x15, x10, x9, x2
	ldp	x11, x12, [x15]
	cmp	x12, #2
	b.lo	.LBB22_126
	add	x13, x11, x12
	sub	x13, x13, #1
.LBB22_122:
	ldrb	w14, [x11]
	cbnz	w14, .LBB22_128
	sub	x12, x12, #1
	add	x11, x11, #1
	cmp	x12, #1
	b.hi	.LBB22_122
	cbz	x13, .LBB22_119
	mov	x11, x13
	b	.LBB22_127
.LBB22_126:
	cbz	x12, .LBB22_119
.LBB22_127:
	mov	w12, #1
	b	.LBB22_129
.LBB22_128:
	lsr	x13, x12, #32
	cbnz	x13, .LBB22_119
.LBB22_129:
	ldp	x13, x14, [x15, #16]
	cmp	x14, #2
	b.lo	.LBB22_135
	add	x16, x13, x14
	sub	x16, x16, #1
.LBB22_131:
	ldrb	w17, [x13]
	cbnz	w17, .LBB22_137
	sub	x14, x14, #1
	add	x13, x13, #1
	cmp	x14, #1
	b.hi	.LBB22_131
	cbz	x16, .LBB22_119
	mov	w14, #1
	mov	x13, x16
	b	.LBB22_138
.LBB22_135:
	cbz	x14, .LBB22_119
	mov	w14, #1
	b	.LBB22_138
.LBB22_137:
	lsr	x16, x14, #32
	cbnz	x16, .LBB22_119
.LBB22_138:
	ldp	x15, x16, [x15, #32]
	cmp	x16, #2
	b.lo	.LBB22_144
	add	x17, x15, x16
	sub	x17, x17, #1
.LBB22_140:
	ldrb	w18, [x15]
	cbnz	w18, .LBB22_146
	sub	x16, x16, #1
	add	x15, x15, #1
	cmp	x16, #1
	b.hi	.LBB22_140
	cbz	x17, .LBB22_119
	mov	w16, #1
	mov	x15, x17
	b	.LBB22_147
.LBB22_144:
	cbz	x16, .LBB22_119
	mov	w16, #1
	b	.LBB22_147
.LBB22_146:
	lsr	x17, x16, #32
	cbnz	x17, .LBB22_119
.LBB22_147:
	adds	x16, x8, x16
	ldrsb	w15, [x15]
	csinv	x16, x16, xzr, lo
	adds	x17, x16, #1
	csinv	x17, x17, xzr, lo
	cmp	w15, #0
	csel	x15, x17, x16, lt
	subs	x15, x15, x8
	csel	x15, xzr, x15, lo
	cmp	x15, #128
	b.hs	.LBB22_149
	add	x15, x15, #2
	b	.LBB22_150
.LBB22_149:
	lsr	x16, x15, #24
	adds	x17, x15, #6
	add	x18, x15, #5
	csinv	x17, x17, xzr, lo
	cmp	x16, #0
	add	x16, x15, #4
	csel	x17, x18, x17, eq
	cmp	x15, #16, lsl #12
	add	x18, x15, #3
	csel	x16, x16, x17, lo
	cmp	x15, #256
	csel	x15, x18, x16, lo
.LBB22_150:
	adds	x15, x8, x15
	ldrsb	w13, [x13]
	csinv	x15, x15, xzr, lo
	adds	x14, x15, x14
	csinv	x14, x14, xzr, lo
	adds	x16, x14, #1
	csinv	x16, x16, xzr, lo
	cmp	w13, #0
	csel	x13, x16, x14, lt
	subs	x13, x13, x15
	csel	x13, xzr, x13, lo
	cmp	x13, #128
	b.hs	.LBB22_152
	add	x13, x13, #2
	b	.LBB22_153
.LBB22_152:
	lsr	x14, x13, #24
	adds	x16, x13, #6
	add	x17, x13, #5
	csinv	x16, x16, xzr, lo
	cmp	x14, #0
	add	x14, x13, #4
	csel	x16, x17, x16, eq
	cmp	x13, #16, lsl #12
	add	x17, x13, #3
	csel	x14, x14, x16, lo
	cmp	x13, #256
	csel	x13, x17, x14, lo
.LBB22_153:
	adds	x13, x15, x13
	ldrsb	w11, [x11]
	csinv	x13, x13, xzr, lo
	adds	x12, x13, x12
	csinv	x12, x12, xzr, lo
	adds	x14, x12, #1
	csinv	x14, x14, xzr, lo
	cmp	w11, #0
	csel	x11, x14, x12, lt
	subs	x11, x11, x13
	csel	x11, xzr, x11, lo
	cmp	x11, #128
	b.hs	.LBB22_155
	add	x11, x11, #2
	b	.LBB22_156
.LBB22_155:
	lsr	x12, x11, #24
	adds	x14, x11, #6
	add	x15, x11, #5
	csinv	x14, x14, xzr, lo
	cmp	x12, #0
	add	x12, x11, #4
	csel	x14, x15, x14, eq
	cmp	x11, #16, lsl #12
	add	x15, x11, #3
	csel	x12, x12, x14, lo
	cmp	x11, #256
	csel	x11, x15, x12, lo
.LBB22_156:
	adds	x11, x13, x11
	csinv	x11, x11, xzr, lo
	subs	x11, x11, x8
	csel	x11, xzr, x11, lo
	cmp	x11, #128
	b.lo	.LBB22_117
	lsr	x12, x11, #24
	adds	x13, x11, #6
	add	x14, x11, #5
	csinv	x13, x13, xzr, lo
	cmp	x12, #0
	add	x12, x11, #4
	csel	x13, x14, x13, eq
	cmp	x11, #16, lsl #12
	add	x14, x11, #3
	csel	x12, x12, x13, lo
	cmp	x11, #256
	csel	x11, x14, x12, lo
	b	.LBB22_118
.LBB22_158:
	ldr	x12, [sp, #64]
	cmp	x8, #128
	b.hs	.LBB22_192
	add	x8, x8, #2
	b	.LBB22_103
.LBB22_160:
	lsr	x10, x9, #24
	mov	w11, #4
	cmp	x10, #0
	mov	w10, #5
	cinc	x10, x10, ne
	cmp	x9, #16, lsl #12
	csel	x10, x11, x10, lo
.LBB22_161:
	add	x9, x10, x9
	ldrsb	w10, [x28]
	adds	x8, x8, x9
	csinv	x8, x8, xzr, lo
	adds	x9, x8, x29
	csinv	x9, x9, xzr, lo
	adds	x11, x9, #1
	csinv	x11, x11, xzr, lo
	cmp	w10, #0
	csel	x9, x11, x9, lt
	subs	x9, x9, x8
	csel	x9, xzr, x9, lo
	cmp	x9, #128
	b.hs	.LBB22_163
	mov	w10, #2
	b	.LBB22_166
.LBB22_163:
	cmp	x9, #256
	b.hs	.LBB22_165
	mov	w10, #3
	b	.LBB22_166
.LBB22_165:
	lsr	x10, x9, #24
	mov	w11, #4
	cmp	x10, #0
	mov	w10, #5
	cinc	x10, x10, ne
	cmp	x9, #16, lsl #12
	csel	x10, x11, x10, lo
.LBB22_166:
	add	x9, x10, x9
	ldrsb	w10, [x23]
	adds	x8, x8, x9
	csinv	x8, x8, xzr, lo
	adds	x9, x8, x24
	csinv	x9, x9, xzr, lo
	adds	x11, x9, #1
	csinv	x11, x11, xzr, lo
	cmp	w10, #0
	csel	x9, x11, x9, lt
	subs	x9, x9, x8
	csel	x9, xzr, x9, lo
	cmp	x9, #128
	b.hs	.LBB22_168
	mov	w10, #2
	b	.LBB22_171
.LBB22_168:
	cmp	x9, #256
	b.hs	.LBB22_170
	mov	w10, #3
	b	.LBB22_171
.LBB22_170:
	lsr	x10, x9, #24
	mov	w11, #4
	cmp	x10, #0
	mov	w10, #5
	cinc	x10, x10, ne
	cmp	x9, #16, lsl #12
	csel	x10, x11, x10, lo
.LBB22_171:
	add	x9, x10, x9
	ldrsb	w10, [x21]
	adds	x8, x8, x9
	csinv	x8, x8, xzr, lo
	adds	x9, x8, x22
	csinv	x9, x9, xzr, lo
	adds	x11, x9, #1
	csinv	x11, x11, xzr, lo
	cmp	w10, #0
	csel	x9, x11, x9, lt
	subs	x9, x9, x8
	csel	x9, xzr, x9, lo
	cmp	x9, #128
	b.hs	.LBB22_173
	mov	w10, #2
	b	.LBB22_176
.LBB22_173:
	cmp	x9, #256
	b.hs	.LBB22_175
	mov	w10, #3
	b	.LBB22_176
.LBB22_175:
	lsr	x10, x9, #24
	mov	w11, #4
	cmp	x10, #0
	mov	w10, #5
	cinc	x10, x10, ne
	cmp	x9, #16, lsl #12
	csel	x10, x11, x10, lo
.LBB22_176:
	add	x9, x10, x9
	ldrsb	w10, [x19]
	adds	x8, x8, x9
	csinv	x8, x8, xzr, lo
	adds	x9, x8, x20
	csinv	x9, x9, xzr, lo
	adds	x11, x9, #1
	csinv	x11, x11, xzr, lo
	cmp	w10, #0
	csel	x9, x11, x9, lt
	subs	x9, x9, x8
	csel	x9, xzr, x9, lo
	cmp	x9, #128
	b.hs	.LBB22_178
	mov	w10, #2
	b	.LBB22_181
.LBB22_178:
	cmp	x9, #256
	b.hs	.LBB22_180
	mov	w10, #3
	b	.LBB22_181
.LBB22_180:
	lsr	x10, x9, #24
	mov	w11, #4
	cmp	x10, #0
	mov	w10, #5
	cinc	x10, x10, ne
	cmp	x9, #16, lsl #12
	csel	x10, x11, x10, lo
.LBB22_181:
	add	x9, x10, x9
	adds	x8, x8, x9
	csinv	x8, x8, xzr, lo
	adds	x9, x8, #1
	csinv	x9, x9, xzr, lo
	subs	x9, x9, x8
	csel	x9, xzr, x9, lo
	cmp	x9, #128
	b.hs	.LBB22_183
	mov	w10, #2
	b	.LBB22_186
.LBB22_183:
	cmp	x9, #256
	b.hs	.LBB22_185
	mov	w10, #3
	b	.LBB22_186
.LBB22_185:
	lsr	x10, x9, #24
	mov	w11, #4
	cmp	x10, #0
	mov	w10, #5
	cinc	x10, x10, ne
	cmp	x9, #16, lsl #12
	csel	x10, x11, x10, lo
.LBB22_186:
	add	x9, x10, x9
	adds	x8, x8, x9
	csinv	x8, x8, xzr, lo
	cmp	x8, #128
	b.hs	.LBB22_188
	add	x14, x8, #2
	b	.LBB22_198
.LBB22_188:
	cmp	x8, #256
	b.hs	.LBB22_190
	add	x14, x8, #3
	b	.LBB22_198
.LBB22_190:
	cmp	x8, #16, lsl #12
	b.hs	.LBB22_194
	add	x14, x8, #4
	b	.LBB22_198
.LBB22_192:
	cmp	x8, #256
	b.hs	.LBB22_196
	add	x8, x8, #3
	b	.LBB22_103
.LBB22_194:
	lsr	x9, x8, #24
	cbnz	x9, .LBB22_197
	add	x14, x8, #5
	b	.LBB22_198
.LBB22_196:
	lsr	x9, x8, #24
	adds	x10, x8, #6
	add	x11, x8, #5
	csinv	x10, x10, xzr, lo
	cmp	x9, #0
	add	x9, x8, #4
	csel	x10, x11, x10, eq
	cmp	x8, #16, lsl #12
	csel	x8, x9, x10, lo
	b	.LBB22_103
.LBB22_197:
	adds	x8, x8, #6
	csinv	x14, x8, xzr, lo
	lsr	x8, x14, #32
	cbnz	x8, .LBB22_74
.LBB22_198:
	cmp	x14, x4
	str	x14, [x5]
	b.ls	.LBB22_200
	mov	w0, #15
	b	.LBB22_101
.LBB22_200:
	mov	x15, x14
	stp	x0, x25, [sp, #32]
	stp	x14, x12, [sp, #128]
	stp	x6, x1, [sp, #112]
	stp	x7, x26, [sp, #96]
	str	x27, [sp, #24]
	cbz	x30, .LBB22_353
	mov	w16, #48
	mov	x15, x14
	mov	x17, x14
	stp	x29, x28, [sp, #8]
	str	x2, [sp, #72]
	b	.LBB22_205
.LBB22_202:
	mov	x17, xzr
.LBB22_203:
	ldr	x2, [sp, #72]
	ldr	x26, [sp, #104]
.LBB22_204:
	cbz	x30, .LBB22_330
.LBB22_205:
	sub	x30, x30, #1
	madd	x8, x30, x16, x2
	ldp	x29, x27, [x8]
	cmp	x27, #2
	b.lo	.LBB22_211
	add	x9, x29, x27
	sub	x9, x9, #1
.LBB22_207:
	ldrb	w10, [x29]
	cbnz	w10, .LBB22_213
	sub	x27, x27, #1
	add	x29, x29, #1
	cmp	x27, #1
	b.hi	.LBB22_207
	cbz	x9, .LBB22_204
	mov	x29, x9
	b	.LBB22_212
.LBB22_211:
	cbz	x27, .LBB22_204
.LBB22_212:
	mov	w27, #1
	b	.LBB22_214
.LBB22_213:
	lsr	x9, x27, #32
	cbnz	x9, .LBB22_204
.LBB22_214:
	ldp	x28, x25, [x8, #16]
	cmp	x25, #2
	b.lo	.LBB22_220
	add	x9, x28, x25
	sub	x9, x9, #1
.LBB22_216:
	ldrb	w10, [x28]
	cbnz	w10, .LBB22_222
	sub	x25, x25, #1
	add	x28, x28, #1
	cmp	x25, #1
	b.hi	.LBB22_216
	cbz	x9, .LBB22_204
	mov	w25, #1
	mov	x28, x9
	b	.LBB22_223
.LBB22_220:
	cbz	x25, .LBB22_204
	mov	w25, #1
	b	.LBB22_223
.LBB22_222:
	lsr	x9, x25, #32
	cbnz	x9, .LBB22_204
.LBB22_223:
	ldp	x26, x2, [x8, #32]
	cmp	x2, #2
	b.lo	.LBB22_229
	add	x8, x26, x2
	sub	x8, x8, #1
.LBB22_225:
	ldrb	w9, [x26]
	cbnz	w9, .LBB22_231
	sub	x2, x2, #1
	add	x26, x26, #1
	cmp	x2, #1
	b.hi	.LBB22_225
	cbz	x8, .LBB22_203
	mov	w2, #1
	mov	x26, x8
	b	.LBB22_232
.LBB22_229:
	cbz	x2, .LBB22_203
	mov	w2, #1
	b	.LBB22_232
.LBB22_231:
	lsr	x8, x2, #32
	cbnz	x8, .LBB22_203
.LBB22_232:
	subs	x8, x17, x2
	mov	x10, x17
	stp	x17, x30, [sp, #80]
	b.lo	.LBB22_235
	cmp	x17, x14
	b.hi	.LBB22_615
	add	x0, x12, x8
	mov	x1, x26
	str	x8, [sp, #56]
	bl	memcpy
	ldp	x14, x12, [sp, #128]
	mov	w16, #48
	ldp	x6, x1, [sp, #112]
	ldr	x10, [sp, #56]
	ldp	x30, x7, [sp, #88]
	ldr	x17, [sp, #80]
.LBB22_235:
	ldrsb	w8, [x26]
	tbz	w8, #31, .LBB22_239
	cbz	x10, .LBB22_258
	cmp	x10, x14
	b.hi	.LBB22_615
	sub	x10, x10, #1
	strb	wzr, [x12, x10]
.LBB22_239:
	sub	x8, x17, x10
	cmp	w8, #128
	b.hs	.LBB22_243
	subs	x9, x10, #2
	b.lo	.LBB22_258
	cmp	x10, x14
	b.hi	.LBB22_615
	mov	w10, #2
	orr	w8, w10, w8, lsl #8
	mov	x10, x9
	strh	w8, [x12, x9]
	b	.LBB22_258
.LBB22_243:
	cmp	w8, #256
	b.hs	.LBB22_247
	subs	x9, x10, #3
	b.lo	.LBB22_258
	cmp	x10, x14
	b.hi	.LBB22_615
	add	x10, x12, x9
	mov	w11, #33026
	strh	w11, [x10]
	strb	w8, [x10, #2]
	mov	x10, x9
	b	.LBB22_258
.LBB22_247:
	cmp	w8, #16, lsl #12
	b.hs	.LBB22_251
	subs	x9, x10, #4
	b.lo	.LBB22_258
	cmp	x10, x14
	b.hi	.LBB22_615
	mov	w10, #42074112
	orr	w8, w8, w10
	mov	x10, x9
	rev	w8, w8
	str	w8, [x12, x9]
	b	.LBB22_258
.LBB22_251:
	lsr	w9, w8, #24
	cbnz	w9, .LBB22_255
	subs	x9, x10, #5
	b.lo	.LBB22_258
	cmp	x10, x14
	b.hi	.LBB22_615
	lsr	x10, x8, #16
	add	x11, x12, x9
	mov	x13, x12
	lsr	x12, x8, #8
	mov	w15, #33538
	strb	w8, [x11, #4]
	strb	w10, [x11, #2]
	mov	x10, x9
	strb	w12, [x11, #3]
	mov	x12, x13
	strh	w15, [x11]
	b	.LBB22_258
.LBB22_255:
	subs	x9, x10, #6
	b.lo	.LBB22_258
	cmp	x10, x14
	b.hi	.LBB22_615
	add	x11, x12, x9
	mov	w13, #33794
	lsr	x10, x8, #24
	mov	x15, x12
	lsr	x12, x8, #16
	strh	w13, [x11]
	lsr	x13, x8, #8
	strb	w10, [x11, #2]
	mov	x10, x9
	strb	w12, [x11, #3]
	mov	x12, x15
	strb	w13, [x11, #4]
	strb	w8, [x11, #5]
.LBB22_258:
	subs	x8, x10, x25
	mov	x26, x10
	b.lo	.LBB22_261
	cmp	x10, x14
	str	x10, [sp, #56]
	b.hi	.LBB22_615
	add	x0, x12, x8
	mov	x1, x28
	mov	x2, x25
	mov	x26, x8
	bl	memcpy
	ldp	x14, x12, [sp, #128]
	mov	w16, #48
	ldp	x6, x1, [sp, #112]
	ldr	x17, [sp, #80]
	ldp	x30, x7, [sp, #88]
	ldr	x10, [sp, #56]
.LBB22_261:
	ldrsb	w8, [x28]
	tbz	w8, #31, .LBB22_265
	cbz	x26, .LBB22_284
	cmp	x26, x14
	b.hi	.LBB22_615
	sub	x26, x26, #1
	strb	wzr, [x12, x26]
.LBB22_265:
	sub	x8, x10, x26
	cmp	w8, #128
	b.hs	.LBB22_269
	subs	x9, x26, #2
	b.lo	.LBB22_284
	cmp	x26, x14
	b.hi	.LBB22_615
	mov	w10, #2
	mov	x26, x9
	orr	w8, w10, w8, lsl #8
	strh	w8, [x12, x9]
	b	.LBB22_284
.LBB22_269:
	cmp	w8, #256
	b.hs	.LBB22_273
	subs	x9, x26, #3
	b.lo	.LBB22_284
	cmp	x26, x14
	b.hi	.LBB22_615
	add	x10, x12, x9
	mov	w11, #33026
	mov	x26, x9
	strh	w11, [x10]
	strb	w8, [x10, #2]
	b	.LBB22_284
.LBB22_273:
	cmp	w8, #16, lsl #12
	b.hs	.LBB22_277
	subs	x9, x26, #4
	b.lo	.LBB22_284
	cmp	x26, x14
	b.hi	.LBB22_615
	mov	w10, #42074112
	mov	x26, x9
	orr	w8, w8, w10
	rev	w8, w8
	str	w8, [x12, x9]
	b	.LBB22_284
.LBB22_277:
	lsr	w9, w8, #24
	cbnz	w9, .LBB22_281
	subs	x9, x26, #5
	b.lo	.LBB22_284
	cmp	x26, x14
	b.hi	.LBB22_615
	add	x11, x12, x9
	mov	x13, x12
	lsr	x12, x8, #8
	lsr	x10, x8, #16
	mov	w15, #33538
	mov	x26, x9
	strb	w12, [x11, #3]
	mov	x12, x13
	strh	w15, [x11]
	strb	w10, [x11, #2]
	strb	w8, [x11, #4]
	b	.LBB22_284
.LBB22_281:
	subs	x9, x26, #6
	b.lo	.LBB22_284
	cmp	x26, x14
	b.hi	.LBB22_615
	add	x11, x12, x9
	mov	w13, #33794
	lsr	x10, x8, #24
	mov	x15, x12
	lsr	x12, x8, #16
	strh	w13, [x11]
	lsr	x13, x8, #8
	strb	w10, [x11, #2]
	mov	x26, x9
	strb	w12, [x11, #3]
	mov	x12, x15
	strb	w13, [x11, #4]
	strb	w8, [x11, #5]
.LBB22_284:
	subs	x8, x26, x27
	mov	x15, x26
	b.lo	.LBB22_287
	cmp	x26, x14
	b.hi	.LBB22_615
	add	x0, x12, x8
	mov	x1, x29
	mov	x2, x27
	mov	x25, x17
	mov	x28, x30
	mov	x27, x8
	bl	memcpy
	ldp	x14, x12, [sp, #128]
	mov	x15, x27
	ldp	x6, x1, [sp, #112]
	mov	x30, x28
	ldr	x7, [sp, #96]
	mov	w16, #48
	mov	x17, x25
.LBB22_287:
	ldrsb	w8, [x29]
	tbz	w8, #31, .LBB22_291
	cbz	x15, .LBB22_202
	cmp	x15, x14
	b.hi	.LBB22_615
	sub	x15, x15, #1
	strb	wzr, [x12, x15]
.LBB22_291:
	sub	x8, x26, x15
	cmp	w8, #128
	b.hs	.LBB22_295
	ldr	x2, [sp, #72]
	ldr	x26, [sp, #104]
	subs	x9, x15, #2
	b.lo	.LBB22_310
	cmp	x15, x14
	b.hi	.LBB22_615
	mov	w10, #2
	mov	x15, x9
	orr	w8, w10, w8, lsl #8
	strh	w8, [x12, x9]
	b	.LBB22_310
.LBB22_295:
	ldr	x2, [sp, #72]
	ldr	x26, [sp, #104]
	cmp	w8, #256
	b.hs	.LBB22_299
	subs	x9, x15, #3
	b.lo	.LBB22_310
	cmp	x15, x14
	b.hi	.LBB22_615
	add	x10, x12, x9
	mov	w11, #33026
	mov	x15, x9
	strh	w11, [x10]
	strb	w8, [x10, #2]
	b	.LBB22_310
.LBB22_299:
	cmp	w8, #16, lsl #12
	b.hs	.LBB22_303
	subs	x9, x15, #4
	b.lo	.LBB22_310
	cmp	x15, x14
	b.hi	.LBB22_615
	mov	w10, #42074112
	mov	x15, x9
	orr	w8, w8, w10
	rev	w8, w8
	str	w8, [x12, x9]
	b	.LBB22_310
.LBB22_303:
	lsr	w9, w8, #24
	cbnz	w9, .LBB22_307
	subs	x9, x15, #5
	b.lo	.LBB22_310
	cmp	x15, x14
	b.hi	.LBB22_615
	add	x11, x12, x9
	mov	x13, x12
	lsr	x12, x8, #8
	lsr	x10, x8, #16
	mov	w15, #33538
	strb	w8, [x11, #4]
	strh	w15, [x11]
	mov	x15, x9
	strb	w12, [x11, #3]
	mov	x12, x13
	strb	w10, [x11, #2]
	b	.LBB22_310
.LBB22_307:
	subs	x9, x15, #6
	b.lo	.LBB22_310
	cmp	x15, x14
	b.hi	.LBB22_615
	add	x11, x12, x9
	mov	w13, #33794
	lsr	x10, x8, #24
	mov	x15, x12
	lsr	x12, x8, #16
	strh	w13, [x11]
	lsr	x13, x8, #8
	strb	w10, [x11, #2]
	strb	w12, [x11, #3]
	mov	x12, x15
	mov	x15, x9
	strb	w13, [x11, #4]
	strb	w8, [x11, #5]
.LBB22_310:
	sub	x8, x17, x15
	cmp	w8, #128
	b.hs	.LBB22_314
	subs	x17, x15, #2
	b.lo	.LBB22_327
	cmp	x15, x14
	b.hi	.LBB22_615
	orr	w8, w16, w8, lsl #8
	mov	x15, x17
	strh	w8, [x12, x17]
	b	.LBB22_204
.LBB22_314:
	cmp	w8, #256
	b.hs	.LBB22_318
	subs	x17, x15, #3
	b.lo	.LBB22_327
	cmp	x15, x14
	b.hi	.LBB22_615
	add	x9, x12, x17
	mov	w10, #33072
	mov	x15, x17
	strh	w10, [x9]
	strb	w8, [x9, #2]
	b	.LBB22_204
.LBB22_318:
	cmp	w8, #16, lsl #12
	b.hs	.LBB22_322
	subs	x17, x15, #4
	b.lo	.LBB22_327
	cmp	x15, x14
	b.hi	.LBB22_615
	mov	w9, #813826048
	mov	x15, x17
	orr	w8, w8, w9
	rev	w8, w8
	str	w8, [x12, x17]
	b	.LBB22_204
.LBB22_322:
	lsr	w9, w8, #24
	cbnz	w9, .LBB22_326
	subs	x17, x15, #5
	b.lo	.LBB22_327
	cmp	x15, x14
	b.hi	.LBB22_615
	lsr	x9, x8, #16
	lsr	x11, x8, #8
	add	x10, x12, x17
	mov	w13, #33584
	mov	x15, x17
	strb	w8, [x10, #4]
	strh	w13, [x10]
	strb	w9, [x10, #2]
	strb	w11, [x10, #3]
	b	.LBB22_204
.LBB22_326:
	subs	x17, x15, #6
	b.hs	.LBB22_328
.LBB22_327:
	mov	x17, x15
	b	.LBB22_204
.LBB22_328:
	cmp	x15, x14
	b.hi	.LBB22_615
	add	x10, x12, x17
	mov	w13, #33840
	lsr	x9, x8, #24
	lsr	x11, x8, #16
	strh	w13, [x10]
	mov	x13, x12
	lsr	x12, x8, #8
	strb	w9, [x10, #2]
	mov	x15, x17
	strb	w11, [x10, #3]
	strb	w12, [x10, #4]
	mov	x12, x13
	strb	w8, [x10, #5]
	b	.LBB22_204
.LBB22_330:
	sub	x8, x14, x15
	cmp	w8, #128
	b.hs	.LBB22_334
	ldp	x29, x28, [sp, #8]
	subs	x9, x15, #2
	b.lo	.LBB22_353
	cmp	x14, x15
	b.lo	.LBB22_615
	mov	w10, #48
	mov	x15, x9
	orr	w8, w10, w8, lsl #8
	strh	w8, [x12, x9]
	b	.LBB22_353
.LBB22_334:
	cmp	w8, #256
	b.hs	.LBB22_338
	ldp	x29, x28, [sp, #8]
	subs	x9, x15, #3
	b.lo	.LBB22_353
	cmp	x14, x15
	b.lo	.LBB22_615
	add	x10, x12, x9
	mov	w11, #33072
	mov	x15, x9
	strh	w11, [x10]
	strb	w8, [x10, #2]
	b	.LBB22_353
.LBB22_338:
	cmp	w8, #16, lsl #12
	b.hs	.LBB22_343
	subs	x9, x15, #4
	b.lo	.LBB22_342
	cmp	x14, x15
	b.lo	.LBB22_615
	mov	w10, #813826048
	mov	x15, x9
	orr	w8, w8, w10
	rev	w8, w8
	str	w8, [x12, x9]
.LBB22_342:
	ldp	x29, x28, [sp, #8]
	b	.LBB22_353
.LBB22_343:
	lsr	w9, w8, #24
	cbnz	w9, .LBB22_347
	subs	x9, x15, #5
	b.lo	.LBB22_348
	cmp	x14, x15
	b.lo	.LBB22_615
	ldr	x14, [sp, #136]
	lsr	x10, x8, #16
	mov	w12, #33584
	lsr	x13, x8, #8
	mov	x15, x9
	add	x11, x14, x9
	strh	w12, [x11]
	mov	x12, x14
	strb	w10, [x11, #2]
	strb	w13, [x11, #3]
	strb	w8, [x11, #4]
	b	.LBB22_351
.LBB22_347:
	subs	x9, x15, #6
	b.hs	.LBB22_349
.LBB22_348:
	ldp	x29, x28, [sp, #8]
	ldr	x12, [sp, #136]
	ldr	x6, [sp, #112]
	b	.LBB22_352
.LBB22_349:
	cmp	x14, x15
	b.lo	.LBB22_615
	ldr	x14, [sp, #136]
	mov	w12, #33840
	lsr	x10, x8, #24
	lsr	x13, x8, #16
	mov	x15, x9
	add	x11, x14, x9
	strh	w12, [x11]
	lsr	x12, x8, #8
	strb	w10, [x11, #2]
	strb	w13, [x11, #3]
	strb	w12, [x11, #4]
	mov	x12, x14
	strb	w8, [x11, #5]
.LBB22_351:
	ldp	x29, x28, [sp, #8]
	ldr	x6, [sp, #112]
	ldr	x14, [sp, #128]
.LBB22_352:
	ldp	x7, x26, [sp, #96]
	ldr	x1, [sp, #120]
.LBB22_353:
	subs	x26, x15, x26
	mov	x25, x15
	b.lo	.LBB22_356
	cmp	x15, x14
	str	x15, [sp, #88]
	b.hi	.LBB22_615
	ldr	x1, [sp, #32]
	ldr	x2, [sp, #104]
	add	x0, x12, x26
	bl	memcpy
	ldp	x14, x12, [sp, #128]
	mov	x25, x26
	ldp	x6, x1, [sp, #112]
	ldp	x15, x7, [sp, #88]
.LBB22_356:
	ldr	x8, [sp, #32]
	ldrsb	w8, [x8]
	tbnz	w8, #31, .LBB22_358
	ldr	x13, [sp, #40]
	b	.LBB22_361
.LBB22_358:
	ldr	x13, [sp, #40]
	cbz	x25, .LBB22_381
	cmp	x25, x14
	b.hi	.LBB22_615
	sub	x25, x25, #1
	strb	wzr, [x12, x25]
.LBB22_361:
	sub	x8, x15, x25
	cmp	w8, #128
	b.hs	.LBB22_365
	subs	x9, x25, #2
	b.lo	.LBB22_381
	cmp	x25, x14
	b.hi	.LBB22_615
	mov	w10, #2
	mov	x25, x9
	orr	w8, w10, w8, lsl #8
	strh	w8, [x12, x9]
	b	.LBB22_381
.LBB22_365:
	cmp	w8, #256
	b.hs	.LBB22_369
	subs	x9, x25, #3
	b.lo	.LBB22_381
	cmp	x25, x14
	b.hi	.LBB22_615
	add	x10, x12, x9
	mov	w11, #33026
	mov	x25, x9
	strh	w11, [x10]
	strb	w8, [x10, #2]
	b	.LBB22_381
.LBB22_369:
	cmp	w8, #16, lsl #12
	b.hs	.LBB22_373
	subs	x9, x25, #4
	b.lo	.LBB22_381
	cmp	x25, x14
	b.hi	.LBB22_615
	mov	w10, #42074112
	mov	x25, x9
	orr	w8, w8, w10
	rev	w8, w8
	str	w8, [x12, x9]
	b	.LBB22_381
.LBB22_373:
	lsr	w9, w8, #24
	cbnz	w9, .LBB22_377
	subs	x9, x25, #5
	b.lo	.LBB22_381
	cmp	x25, x14
	b.hi	.LBB22_615
	ldr	x14, [sp, #136]
	lsr	x10, x8, #16
	mov	w12, #33538
	lsr	x13, x8, #8
	mov	x25, x9
	add	x11, x14, x9
	strh	w12, [x11]
	mov	x12, x14
	strb	w10, [x11, #2]
	strb	w13, [x11, #3]
	strb	w8, [x11, #4]
	b	.LBB22_380
.LBB22_377:
	subs	x9, x25, #6
	b.lo	.LBB22_381
	cmp	x25, x14
	b.hi	.LBB22_615
	ldr	x14, [sp, #136]
	mov	w12, #33794
	lsr	x10, x8, #24
	lsr	x13, x8, #16
	mov	x25, x9
	add	x11, x14, x9
	strh	w12, [x11]
	lsr	x12, x8, #8
	strb	w10, [x11, #2]
	strb	w13, [x11, #3]
	strb	w12, [x11, #4]
	mov	x12, x14
	strb	w8, [x11, #5]
.LBB22_380:
	ldp	x6, x1, [sp, #112]
	ldr	x14, [sp, #128]
	ldr	x7, [sp, #96]
	ldr	x13, [sp, #40]
.LBB22_381:
	subs	x27, x25, x13
	mov	x26, x25
	b.lo	.LBB22_384
	cmp	x25, x14
	b.hi	.LBB22_615
	ldr	x1, [sp, #64]
	ldr	x2, [sp, #40]
	add	x0, x12, x27
	bl	memcpy
	ldp	x14, x12, [sp, #128]
	mov	x26, x27
	ldp	x6, x1, [sp, #112]
	ldr	x7, [sp, #96]
.LBB22_384:
	ldr	x8, [sp, #64]
	ldrsb	w8, [x8]
	tbz	w8, #31, .LBB22_388
	cbz	x26, .LBB22_408
	cmp	x26, x14
	b.hi	.LBB22_615
	sub	x26, x26, #1
	strb	wzr, [x12, x26]
.LBB22_388:
	sub	x8, x25, x26
	cmp	w8, #128
	b.hs	.LBB22_392
	subs	x9, x26, #2
	b.lo	.LBB22_408
	cmp	x26, x14
	b.hi	.LBB22_615
	mov	w10, #2
	mov	x26, x9
	orr	w8, w10, w8, lsl #8
	strh	w8, [x12, x9]
	b	.LBB22_408
.LBB22_392:
	cmp	w8, #256
	b.hs	.LBB22_396
	subs	x9, x26, #3
	b.lo	.LBB22_408
	cmp	x26, x14
	b.hi	.LBB22_615
	add	x10, x12, x9
	mov	w11, #33026
	mov	x26, x9
	strh	w11, [x10]
	strb	w8, [x10, #2]
	b	.LBB22_408
.LBB22_396:
	cmp	w8, #16, lsl #12
	b.hs	.LBB22_400
	subs	x9, x26, #4
	b.lo	.LBB22_408
	cmp	x26, x14
	b.hi	.LBB22_615
	mov	w10, #42074112
	mov	x26, x9
	orr	w8, w8, w10
	rev	w8, w8
	str	w8, [x12, x9]
	b	.LBB22_408
.LBB22_400:
	lsr	w9, w8, #24
	cbnz	w9, .LBB22_404
	subs	x9, x26, #5
	b.lo	.LBB22_408
	cmp	x26, x14
	b.hi	.LBB22_615
	ldr	x14, [sp, #136]
	lsr	x10, x8, #16
	mov	w12, #33538
	lsr	x13, x8, #8
	mov	x26, x9
	add	x11, x14, x9
	strh	w12, [x11]
	mov	x12, x14
	strb	w10, [x11, #2]
	strb	w13, [x11, #3]
	strb	w8, [x11, #4]
	b	.LBB22_407
.LBB22_404:
	subs	x9, x26, #6
	b.lo	.LBB22_408
	cmp	x26, x14
	b.hi	.LBB22_615
	ldr	x14, [sp, #136]
	mov	w12, #33794
	lsr	x10, x8, #24
	lsr	x13, x8, #16
	mov	x26, x9
	add	x11, x14, x9
	strh	w12, [x11]
	lsr	x12, x8, #8
	strb	w10, [x11, #2]
	strb	w13, [x11, #3]
	strb	w12, [x11, #4]
	mov	x12, x14
	strb	w8, [x11, #5]
.LBB22_407:
	ldp	x6, x1, [sp, #112]
	ldr	x14, [sp, #128]
	ldr	x7, [sp, #96]
.LBB22_408:
	subs	x27, x26, x7
	mov	x25, x26
	b.lo	.LBB22_411
	cmp	x26, x14
	b.hi	.LBB22_615
	ldr	x1, [sp, #120]
	add	x0, x12, x27
	mov	x2, x7
	bl	memcpy
	ldp	x6, x1, [sp, #112]
	mov	x25, x27
	ldp	x14, x12, [sp, #128]
.LBB22_411:
	ldrsb	w8, [x1]
	tbz	w8, #31, .LBB22_415
	cbz	x25, .LBB22_435
	cmp	x25, x14
	b.hi	.LBB22_615
	sub	x25, x25, #1
	strb	wzr, [x12, x25]
.LBB22_415:
	sub	x8, x26, x25
	cmp	w8, #128
	b.hs	.LBB22_419
	subs	x9, x25, #2
	b.lo	.LBB22_435
	cmp	x25, x14
	b.hi	.LBB22_615
	mov	w10, #2
	mov	x25, x9
	orr	w8, w10, w8, lsl #8
	strh	w8, [x12, x9]
	b	.LBB22_435
.LBB22_419:
	cmp	w8, #256
	b.hs	.LBB22_423
	subs	x9, x25, #3
	b.lo	.LBB22_435
	cmp	x25, x14
	b.hi	.LBB22_615
	add	x10, x12, x9
	mov	w11, #33026
	mov	x25, x9
	strh	w11, [x10]
	strb	w8, [x10, #2]
	b	.LBB22_435
.LBB22_423:
	cmp	w8, #16, lsl #12
	b.hs	.LBB22_427
	subs	x9, x25, #4
	b.lo	.LBB22_435
	cmp	x25, x14
	b.hi	.LBB22_615
	mov	w10, #42074112
	mov	x25, x9
	orr	w8, w8, w10
	rev	w8, w8
	str	w8, [x12, x9]
	b	.LBB22_435
.LBB22_427:
	lsr	w9, w8, #24
	cbnz	w9, .LBB22_431
	subs	x9, x25, #5
	b.lo	.LBB22_435
	cmp	x25, x14
	b.hi	.LBB22_615
	ldr	x14, [sp, #136]
	lsr	x10, x8, #16
	mov	w12, #33538
	lsr	x13, x8, #8
	mov	x25, x9
	add	x11, x14, x9
	strh	w12, [x11]
	mov	x12, x14
	strb	w10, [x11, #2]
	strb	w13, [x11, #3]
	strb	w8, [x11, #4]
	b	.LBB22_434
.LBB22_431:
	subs	x9, x25, #6
	b.lo	.LBB22_435
	cmp	x25, x14
	b.hi	.LBB22_615
	ldr	x14, [sp, #136]
	mov	w12, #33794
	lsr	x10, x8, #24
	lsr	x13, x8, #16
	mov	x25, x9
	add	x11, x14, x9
	strh	w12, [x11]
	lsr	x12, x8, #8
	strb	w10, [x11, #2]
	strb	w13, [x11, #3]
	strb	w12, [x11, #4]
	mov	x12, x14
	strb	w8, [x11, #5]
.LBB22_434:
	ldr	x6, [sp, #112]
	ldr	x14, [sp, #128]
.LBB22_435:
	subs	x27, x25, x6
	mov	x26, x25
	b.lo	.LBB22_438
	cmp	x25, x14
	b.hi	.LBB22_615
	ldr	x1, [sp, #24]
	add	x0, x12, x27
	mov	x2, x6
	bl	memcpy
	ldp	x14, x12, [sp, #128]
	mov	x26, x27
.LBB22_438:
	ldr	x8, [sp, #24]
	ldrsb	w8, [x8]
	tbz	w8, #31, .LBB22_442
	cbz	x26, .LBB22_462
	cmp	x26, x14
	b.hi	.LBB22_615
	sub	x26, x26, #1
	strb	wzr, [x12, x26]
.LBB22_442:
	sub	x8, x25, x26
	cmp	w8, #128
	b.hs	.LBB22_446
	subs	x9, x26, #2
	b.lo	.LBB22_462
	cmp	x26, x14
	b.hi	.LBB22_615
	mov	w10, #2
	mov	x26, x9
	orr	w8, w10, w8, lsl #8
	strh	w8, [x12, x9]
	b	.LBB22_462
.LBB22_446:
	cmp	w8, #256
	b.hs	.LBB22_450
	subs	x9, x26, #3
	b.lo	.LBB22_462
	cmp	x26, x14
	b.hi	.LBB22_615
	add	x10, x12, x9
	mov	w11, #33026
	mov	x26, x9
	strh	w11, [x10]
	strb	w8, [x10, #2]
	b	.LBB22_462
.LBB22_450:
	cmp	w8, #16, lsl #12
	b.hs	.LBB22_454
	subs	x9, x26, #4
	b.lo	.LBB22_462
	cmp	x26, x14
	b.hi	.LBB22_615
	mov	w10, #42074112
	mov	x26, x9
	orr	w8, w8, w10
	rev	w8, w8
	str	w8, [x12, x9]
	b	.LBB22_462
.LBB22_454:
	lsr	w9, w8, #24
	cbnz	w9, .LBB22_458
	subs	x9, x26, #5
	b.lo	.LBB22_462
	cmp	x26, x14
	b.hi	.LBB22_615
	ldr	x14, [sp, #136]
	lsr	x10, x8, #16
	mov	w12, #33538
	lsr	x13, x8, #8
	mov	x26, x9
	add	x11, x14, x9
	strh	w12, [x11]
	mov	x12, x14
	strb	w10, [x11, #2]
	strb	w13, [x11, #3]
	strb	w8, [x11, #4]
	b	.LBB22_461
.LBB22_458:
	subs	x9, x26, #6
	b.lo	.LBB22_462
	cmp	x26, x14
	b.hi	.LBB22_615
	ldr	x14, [sp, #136]
	mov	w12, #33794
	lsr	x10, x8, #24
	lsr	x13, x8, #16
	mov	x26, x9
	add	x11, x14, x9
	strh	w12, [x11]
	lsr	x12, x8, #8
	strb	w10, [x11, #2]
	strb	w13, [x11, #3]
	strb	w12, [x11, #4]
	mov	x12, x14
	strb	w8, [x11, #5]
.LBB22_461:
	ldr	x14, [sp, #128]
.LBB22_462:
	subs	x27, x26, x29
	mov	x25, x26
	b.lo	.LBB22_465
	cmp	x26, x14
	b.hi	.LBB22_615
	add	x0, x12, x27
	mov	x1, x28
	mov	x2, x29
	bl	memcpy
	ldp	x14, x12, [sp, #128]
	mov	x25, x27
.LBB22_465:
	ldrsb	w8, [x28]
	tbz	w8, #31, .LBB22_469
	cbz	x25, .LBB22_489
	cmp	x25, x14
	b.hi	.LBB22_615
	sub	x25, x25, #1
	strb	wzr, [x12, x25]
.LBB22_469:
	sub	x8, x26, x25
	cmp	w8, #128
	b.hs	.LBB22_473
	subs	x9, x25, #2
	b.lo	.LBB22_489
	cmp	x25, x14
	b.hi	.LBB22_615
	mov	w10, #2
	mov	x25, x9
	orr	w8, w10, w8, lsl #8
	strh	w8, [x12, x9]
	b	.LBB22_489
.LBB22_473:
	cmp	w8, #256
	b.hs	.LBB22_477
	subs	x9, x25, #3
	b.lo	.LBB22_489
	cmp	x25, x14
	b.hi	.LBB22_615
	add	x10, x12, x9
	mov	w11, #33026
	mov	x25, x9
	strh	w11, [x10]
	strb	w8, [x10, #2]
	b	.LBB22_489
.LBB22_477:
	cmp	w8, #16, lsl #12
	b.hs	.LBB22_481
	subs	x9, x25, #4
	b.lo	.LBB22_489
	cmp	x25, x14
	b.hi	.LBB22_615
	mov	w10, #42074112
	mov	x25, x9
	orr	w8, w8, w10
	rev	w8, w8
	str	w8, [x12, x9]
	b	.LBB22_489
.LBB22_481:
	lsr	w9, w8, #24
	cbnz	w9, .LBB22_485
	subs	x9, x25, #5
	b.lo	.LBB22_489
	cmp	x25, x14
	b.hi	.LBB22_615
	ldr	x14, [sp, #136]
	lsr	x10, x8, #16
	mov	w12, #33538
	lsr	x13, x8, #8
	mov	x25, x9
	add	x11, x14, x9
	strh	w12, [x11]
	mov	x12, x14
	strb	w10, [x11, #2]
	strb	w13, [x11, #3]
	strb	w8, [x11, #4]
	b	.LBB22_488
.LBB22_485:
	subs	x9, x25, #6
	b.lo	.LBB22_489
	cmp	x25, x14
	b.hi	.LBB22_615
	ldr	x14, [sp, #136]
	mov	w12, #33794
	lsr	x10, x8, #24
	lsr	x13, x8, #16
	mov	x25, x9
	add	x11, x14, x9
	strh	w12, [x11]
	lsr	x12, x8, #8
	strb	w10, [x11, #2]
	strb	w13, [x11, #3]
	strb	w12, [x11, #4]
	mov	x12, x14
	strb	w8, [x11, #5]
.LBB22_488:
	ldr	x14, [sp, #128]
.LBB22_489:
	subs	x27, x25, x24
	mov	x26, x25
	b.lo	.LBB22_492
	cmp	x25, x14
	b.hi	.LBB22_615
	add	x0, x12, x27
	mov	x1, x23
	mov	x2, x24
	bl	memcpy
	ldp	x14, x12, [sp, #128]
	mov	x26, x27
.LBB22_492:
	ldrsb	w8, [x23]
	tbz	w8, #31, .LBB22_496
	cbz	x26, .LBB22_516
	cmp	x26, x14
	b.hi	.LBB22_615
	sub	x26, x26, #1
	strb	wzr, [x12, x26]
.LBB22_496:
	sub	x8, x25, x26
	cmp	w8, #128
	b.hs	.LBB22_500
	subs	x9, x26, #2
	b.lo	.LBB22_516
	cmp	x26, x14
	b.hi	.LBB22_615
	mov	w10, #2
	mov	x26, x9
	orr	w8, w10, w8, lsl #8
	strh	w8, [x12, x9]
	b	.LBB22_516
.LBB22_500:
	cmp	w8, #256
	b.hs	.LBB22_504
	subs	x9, x26, #3
	b.lo	.LBB22_516
	cmp	x26, x14
	b.hi	.LBB22_615
	add	x10, x12, x9
	mov	w11, #33026
	mov	x26, x9
	strh	w11, [x10]
	strb	w8, [x10, #2]
	b	.LBB22_516
.LBB22_504:
	cmp	w8, #16, lsl #12
	b.hs	.LBB22_508
	subs	x9, x26, #4
	b.lo	.LBB22_516
	cmp	x26, x14
	b.hi	.LBB22_615
	mov	w10, #42074112
	mov	x26, x9
	orr	w8, w8, w10
	rev	w8, w8
	str	w8, [x12, x9]
	b	.LBB22_516
.LBB22_508:
	lsr	w9, w8, #24
	cbnz	w9, .LBB22_512
	subs	x9, x26, #5
	b.lo	.LBB22_516
	cmp	x26, x14
	b.hi	.LBB22_615
	ldr	x14, [sp, #136]
	lsr	x10, x8, #16
	mov	w12, #33538
	lsr	x13, x8, #8
	mov	x26, x9
	add	x11, x14, x9
	strh	w12, [x11]
	mov	x12, x14
	strb	w10, [x11, #2]
	strb	w13, [x11, #3]
	strb	w8, [x11, #4]
	b	.LBB22_515
.LBB22_512:
	subs	x9, x26, #6
	b.lo	.LBB22_516
	cmp	x26, x14
	b.hi	.LBB22_615
	ldr	x14, [sp, #136]
	mov	w12, #33794
	lsr	x10, x8, #24
	lsr	x13, x8, #16
	mov	x26, x9
	add	x11, x14, x9
	strh	w12, [x11]
	lsr	x12, x8, #8
	strb	w10, [x11, #2]
	strb	w13, [x11, #3]
	strb	w12, [x11, #4]
	mov	x12, x14
	strb	w8, [x11, #5]
.LBB22_515:
	ldr	x14, [sp, #128]
.LBB22_516:
	subs	x24, x26, x22
	mov	x23, x26
	b.lo	.LBB22_519
	cmp	x26, x14
	b.hi	.LBB22_615
	add	x0, x12, x24
	mov	x1, x21
	mov	x2, x22
	bl	memcpy
	ldp	x14, x12, [sp, #128]
	mov	x23, x24
.LBB22_519:
	ldrsb	w8, [x21]
	tbz	w8, #31, .LBB22_523
	cbz	x23, .LBB22_543
	cmp	x23, x14
	b.hi	.LBB22_615
	sub	x23, x23, #1
	strb	wzr, [x12, x23]
.LBB22_523:
	sub	x8, x26, x23
	cmp	w8, #128
	b.hs	.LBB22_527
	subs	x9, x23, #2
	b.lo	.LBB22_543
	cmp	x23, x14
	b.hi	.LBB22_615
	mov	w10, #2
	mov	x23, x9
	orr	w8, w10, w8, lsl #8
	strh	w8, [x12, x9]
	b	.LBB22_543
.LBB22_527:
	cmp	w8, #256
	b.hs	.LBB22_531
	subs	x9, x23, #3
	b.lo	.LBB22_543
	cmp	x23, x14
	b.hi	.LBB22_615
	add	x10, x12, x9
	mov	w11, #33026
	mov	x23, x9
	strh	w11, [x10]
	strb	w8, [x10, #2]
	b	.LBB22_543
.LBB22_531:
	cmp	w8, #16, lsl #12
	b.hs	.LBB22_535
	subs	x9, x23, #4
	b.lo	.LBB22_543
	cmp	x23, x14
	b.hi	.LBB22_615
	mov	w10, #42074112
	mov	x23, x9
	orr	w8, w8, w10
	rev	w8, w8
	str	w8, [x12, x9]
	b	.LBB22_543
.LBB22_535:
	lsr	w9, w8, #24
	cbnz	w9, .LBB22_539
	subs	x9, x23, #5
	b.lo	.LBB22_543
	cmp	x23, x14
	b.hi	.LBB22_615
	ldr	x14, [sp, #136]
	lsr	x10, x8, #16
	mov	w12, #33538
	lsr	x13, x8, #8
	mov	x23, x9
	add	x11, x14, x9
	strh	w12, [x11]
	mov	x12, x14
	strb	w10, [x11, #2]
	strb	w13, [x11, #3]
	strb	w8, [x11, #4]
	b	.LBB22_542
.LBB22_539:
	subs	x9, x23, #6
	b.lo	.LBB22_543
	cmp	x23, x14
	b.hi	.LBB22_615
	ldr	x14, [sp, #136]
	mov	w12, #33794
	lsr	x10, x8, #24
	lsr	x13, x8, #16
	mov	x23, x9
	add	x11, x14, x9
	strh	w12, [x11]
	lsr	x12, x8, #8
	strb	w10, [x11, #2]
	strb	w13, [x11, #3]
	strb	w12, [x11, #4]
	mov	x12, x14
	strb	w8, [x11, #5]
.LBB22_542:
	ldr	x14, [sp, #128]
.LBB22_543:
	subs	x21, x23, x20
	mov	x9, x23
	b.lo	.LBB22_546
	cmp	x23, x14
	b.hi	.LBB22_615
	add	x0, x12, x21
	mov	x1, x19
	mov	x2, x20
	bl	memcpy
	ldp	x14, x12, [sp, #128]
	mov	x9, x21
.LBB22_546:
	ldrsb	w8, [x19]
	tbz	w8, #31, .LBB22_550
	cbz	x9, .LBB22_573
	cmp	x9, x14
	b.hi	.LBB22_615
	sub	x9, x9, #1
	strb	wzr, [x12, x9]
.LBB22_550:
	sub	x8, x23, x9
	cmp	w8, #128
	b.hs	.LBB22_554
	subs	x10, x9, #2
	b.lo	.LBB22_570
	cmp	x9, x14
	b.hi	.LBB22_615
	mov	w9, #2
	orr	w8, w9, w8, lsl #8
	mov	x9, x10
	strh	w8, [x12, x10]
	b	.LBB22_570
.LBB22_554:
	cmp	w8, #256
	b.hs	.LBB22_558
	subs	x10, x9, #3
	b.lo	.LBB22_570
	cmp	x9, x14
	b.hi	.LBB22_615
	add	x9, x12, x10
	mov	w11, #33026
	strh	w11, [x9]
	strb	w8, [x9, #2]
	mov	x9, x10
	b	.LBB22_570
.LBB22_558:
	cmp	w8, #16, lsl #12
	b.hs	.LBB22_562
	subs	x10, x9, #4
	b.lo	.LBB22_570
	cmp	x9, x14
	b.hi	.LBB22_615
	mov	w9, #42074112
	orr	w8, w8, w9
	mov	x9, x10
	rev	w8, w8
	str	w8, [x12, x10]
	b	.LBB22_570
.LBB22_562:
	lsr	w10, w8, #24
	cbnz	w10, .LBB22_566
	subs	x10, x9, #5
	b.lo	.LBB22_570
	cmp	x9, x14
	b.hi	.LBB22_615
	ldr	x14, [sp, #136]
	lsr	x9, x8, #16
	mov	w12, #33538
	lsr	x13, x8, #8
	add	x11, x14, x10
	strh	w12, [x11]
	mov	x12, x14
	strb	w9, [x11, #2]
	mov	x9, x10
	strb	w13, [x11, #3]
	strb	w8, [x11, #4]
	b	.LBB22_569
.LBB22_566:
	subs	x10, x9, #6
	b.lo	.LBB22_570
	cmp	x9, x14
	b.hi	.LBB22_615
	ldr	x14, [sp, #136]
	mov	w12, #33794
	lsr	x9, x8, #24
	lsr	x13, x8, #16
	add	x11, x14, x10
	strh	w12, [x11]
	lsr	x12, x8, #8
	strb	w9, [x11, #2]
	mov	x9, x10
	strb	w13, [x11, #3]
	strb	w12, [x11, #4]
	mov	x12, x14
	strb	w8, [x11, #5]
.LBB22_569:
	ldr	x14, [sp, #128]
.LBB22_570:
	cbz	x9, .LBB22_573
	cmp	x9, x14
	b.hi	.LBB22_615
	sub	x8, x9, #1
	ldr	w10, [sp, #52]
	strb	w10, [x12, x8]
	b	.LBB22_574
.LBB22_573:
	mov	x8, xzr
.LBB22_574:
	sub	x9, x9, x8
	cmp	w9, #128
	b.hs	.LBB22_578
	subs	x10, x8, #2
	b.lo	.LBB22_594
	cmp	x8, x14
	b.hi	.LBB22_615
	mov	w8, #2
	orr	w8, w8, w9, lsl #8
	strh	w8, [x12, x10]
	mov	x8, x10
	b	.LBB22_594
.LBB22_578:
	cmp	w9, #256
	b.hs	.LBB22_582
	subs	x10, x8, #3
	b.lo	.LBB22_594
	cmp	x8, x14
	b.hi	.LBB22_615
	add	x8, x12, x10
	mov	w11, #33026
	strh	w11, [x8]
	strb	w9, [x8, #2]
	mov	x8, x10
	b	.LBB22_594
.LBB22_582:
	cmp	w9, #16, lsl #12
	b.hs	.LBB22_586
	subs	x10, x8, #4
	b.lo	.LBB22_594
	cmp	x8, x14
	b.hi	.LBB22_615
	mov	w8, #42074112
	orr	w8, w9, w8
	rev	w8, w8
	str	w8, [x12, x10]
	mov	x8, x10
	b	.LBB22_594
.LBB22_586:
	lsr	w10, w9, #24
	cbnz	w10, .LBB22_590
	subs	x10, x8, #5
	b.lo	.LBB22_594
	cmp	x8, x14
	b.hi	.LBB22_615
	ldr	x14, [sp, #136]
	lsr	x8, x9, #16
	mov	w12, #33538
	lsr	x13, x9, #8
	add	x11, x14, x10
	strh	w12, [x11]
	mov	x12, x14
	strb	w8, [x11, #2]
	mov	x8, x10
	strb	w13, [x11, #3]
	strb	w9, [x11, #4]
	b	.LBB22_593
.LBB22_590:
	subs	x10, x8, #6
	b.lo	.LBB22_594
	cmp	x8, x14
	b.hi	.LBB22_615
	ldr	x14, [sp, #136]
	mov	w12, #33794
	lsr	x8, x9, #24
	lsr	x13, x9, #16
	add	x11, x14, x10
	strh	w12, [x11]
	lsr	x12, x9, #8
	strb	w8, [x11, #2]
	mov	x8, x10
	strb	w13, [x11, #3]
	strb	w12, [x11, #4]
	mov	x12, x14
	strb	w9, [x11, #5]
.LBB22_593:
	ldr	x14, [sp, #128]
.LBB22_594:
	sub	x9, x14, x8
	cmp	w9, #128
	b.hs	.LBB22_598
	cmp	x8, #2
	b.lo	.LBB22_612
	cmp	x14, x8
	b.lo	.LBB22_615
	mov	w10, #48
	add	x8, x12, x8
	mov	w0, wzr
	orr	w9, w10, w9, lsl #8
	sturh	w9, [x8, #-2]
	b	.LBB22_101
.LBB22_598:
	cmp	w9, #256
	b.hs	.LBB22_603
	cmp	x8, #3
	b.lo	.LBB22_612
	cmp	x14, x8
	b.lo	.LBB22_615
	add	x8, x12, x8
	mov	w10, #33072
	mov	w0, wzr
	sturh	w10, [x8, #-3]
.LBB22_602:
	sturb	w9, [x8, #-1]
	b	.LBB22_101
.LBB22_603:
	cmp	w9, #16, lsl #12
	b.hs	.LBB22_607
	cmp	x8, #4
	b.lo	.LBB22_612
	cmp	x14, x8
	b.lo	.LBB22_615
	mov	w10, #813826048
	add	x8, x12, x8
	mov	w0, wzr
	orr	w9, w9, w10
	rev	w9, w9
	stur	w9, [x8, #-4]
	b	.LBB22_101
.LBB22_607:
	lsr	w10, w9, #24
	cbnz	w10, .LBB22_611
	cmp	x8, #5
	b.lo	.LBB22_612
	cmp	x14, x8
	b.lo	.LBB22_615
	ldr	x10, [sp, #136]
	lsr	x11, x9, #16
	lsr	x12, x9, #8
	mov	w0, wzr
	add	x8, x10, x8
	mov	w10, #33584
	sturh	w10, [x8, #-5]
	sturb	w11, [x8, #-3]
	sturb	w12, [x8, #-2]
	b	.LBB22_602
.LBB22_611:
	cmp	x8, #6
	b.hs	.LBB22_613
.LBB22_612:
	mov	w0, wzr
	b	.LBB22_101
.LBB22_613:
	cmp	x14, x8
	b.lo	.LBB22_615
	ldr	x10, [sp, #136]
	lsr	x11, x9, #24
	lsr	x12, x9, #16
	mov	w0, wzr
	add	x8, x10, x8
	mov	w10, #33840
	sturh	w10, [x8, #-6]
	lsr	x10, x9, #8
	sturb	w11, [x8, #-4]
	sturb	w12, [x8, #-3]
	sturb	w10, [x8, #-2]
	b	.LBB22_602
.LBB22_615:
	brk	#0x1
.Lfunc_end22:
	.size	pkcs1_c_private_key_encode, .Lfunc_end22-pkcs1_c_private_key_encode
	.cfi_endproc

	.section	.text._RNvNtNtNtCs00000000000_7pkcs1_c5calls7pkcs1_c3pss10from_c_pss,"ax",@progbits
	.p2align	2
	.type	_RNvNtNtNtCs00000000000_7pkcs1_c5calls7pkcs1_c3pss10from_c_pss,@function
_RNvNtNtNtCs00000000000_7pkcs1_c5calls7pkcs1_c3pss10from_c_pss:
	.cfi_startproc
	str	x30, [sp, #-16]!
	.cfi_def_cfa_offset 16
	.cfi_offset w30, -16
	.cfi_remember_state
	ldr	x8, [x1, #8]
	sub	x9, x8, #1
	cmp	x9, #38
	b.hi	.LBB23_40
	ldr	x12, [x1]
	ldrsb	w10, [x12, x9]
	tbnz	w10, #31, .LBB23_14
	movi	v0.8b, #128
	movi	v1.4h, #128
	mov	x11, x12
	b	.LBB23_4
.LBB23_3:
	add	x9, x13, x9
	add	x11, x11, x14
.LBB23_4:
	cmp	x9, #7
	b.ls	.LBB23_7
	ldr	d2, [x11]
	cmeq	v2.8b, v2.8b, v0.8b
	umaxv	b2, v2.8b
	fmov	w13, s2
	tbnz	w13, #0, .LBB23_13
	mov	x13, #-8
	mov	w14, #8
	b	.LBB23_3
.LBB23_7:
	cmp	x9, #3
	b.ls	.LBB23_10
	ldr	s2, [x11]
	ushll	v2.8h, v2.8b, #0
	cmeq	v2.4h, v2.4h, v1.4h
	umaxv	h2, v2.4h
	fmov	w13, s2
	tbnz	w13, #0, .LBB23_13
	mov	x13, #-4
	mov	w14, #4
	b	.LBB23_3
.LBB23_10:
	cbz	x9, .LBB23_17
	ldrb	w13, [x11]
	cmp	w13, #128
	b.eq	.LBB23_13
	mov	x13, #-1
	mov	w14, #1
	b	.LBB23_3
.LBB23_13:
	cbz	x8, .LBB23_17
.LBB23_14:
	ldrb	w9, [x12]
	cmp	w9, #128
	b.eq	.LBB23_40
	subs	x11, x8, #1
	b.ne	.LBB23_35
.LBB23_16:
	tbnz	w10, #31, .LBB23_40
.LBB23_17:
	ldrb	w9, [x1, #16]
	cmp	w9, #1
	b.ne	.LBB23_22
	ldrb	w13, [x1, #17]
	mov	w9, #31
	bics	wzr, w9, w13
	mov	w9, #11
	b.eq	.LBB23_41
	and	w10, w13, #0xffffffdf
	cbz	w10, .LBB23_41
	ldr	x14, [x1, #32]
	lsr	x9, x14, #32
	cbz	x9, .LBB23_69
	mov	w9, #7
	strb	wzr, [x0, #10]
	orr	w8, w9, w13, lsl #8
	strh	w8, [x0, #8]
	str	xzr, [x0]
	ldr	x30, [sp], #16
	.cfi_def_cfa_offset 0
	.cfi_restore w30
	ret
.LBB23_22:
	.cfi_restore_state
	.cfi_remember_state
	mov	x15, xzr
	ldr	x9, [x1, #48]
	sub	x10, x9, #1
	cmp	x10, #38
	b.hi	.LBB23_78
.LBB23_23:
	ldr	x18, [x1, #40]
	ldrsb	w11, [x18, x10]
	tbnz	w11, #31, .LBB23_43
	movi	v0.8b, #128
	movi	v1.4h, #128
	mov	x2, x18
	b	.LBB23_28
.LBB23_25:
	ldr	d2, [x2]
	cmeq	v2.8b, v2.8b, v0.8b
	umaxv	b2, v2.8b
	fmov	w3, s2
	tbnz	w3, #0, .LBB23_42
	mov	x3, #-8
	mov	w4, #8
.LBB23_27:
	add	x10, x3, x10
	add	x2, x2, x4
.LBB23_28:
	cmp	x10, #7
	b.hi	.LBB23_25
	cmp	x10, #3
	b.ls	.LBB23_32
	ldr	s2, [x2]
	ushll	v2.8h, v2.8b, #0
	cmeq	v2.4h, v2.4h, v1.4h
	umaxv	h2, v2.4h
	fmov	w3, s2
	tbnz	w3, #0, .LBB23_42
	mov	x3, #-4
	mov	w4, #4
	b	.LBB23_27
.LBB23_32:
	cbz	x10, .LBB23_46
	ldrb	w3, [x2]
	cmp	w3, #128
	b.eq	.LBB23_42
	mov	x3, #-1
	mov	w4, #1
	b	.LBB23_27
.LBB23_35:
	mov	x9, xzr
	add	x13, x12, #1
	b	.LBB23_37
.LBB23_36:
	add	x9, x9, #1
	add	x13, x13, #1
	cmp	x11, x9
	b.eq	.LBB23_16
.LBB23_37:
	ldrb	w14, [x13]
	cmp	w14, #128
	b.ne	.LBB23_36
	cmp	x9, x8
	b.hs	.LBB23_89
	ldursb	w14, [x13, #-1]
	tbnz	w14, #31, .LBB23_36
.LBB23_40:
	mov	w13, wzr
	mov	w9, #5
.LBB23_41:
	orr	w8, w9, w13, lsl #8
	strb	wzr, [x0, #10]
	strh	w8, [x0, #8]
	str	xzr, [x0]
	ldr	x30, [sp], #16
	.cfi_def_cfa_offset 0
	.cfi_restore w30
	ret
.LBB23_42:
	.cfi_restore_state
	.cfi_remember_state
	cbz	x9, .LBB23_46
.LBB23_43:
	ldrb	w10, [x18]
	cmp	w10, #128
	b.eq	.LBB23_78
	subs	x2, x9, #1
	b.ne	.LBB23_73
.LBB23_45:
	tbnz	w11, #31, .LBB23_78
.LBB23_46:
	ldrb	w10, [x1, #56]
	cmp	w10, #1
	b.ne	.LBB23_70
	ldr	x10, [x1, #72]
	sub	x11, x10, #1
	cmp	x11, #38
	b.hi	.LBB23_86
	ldr	x2, [x1, #64]
	ldrsb	w3, [x2, x11]
	tbnz	w3, #31, .LBB23_61
	movi	v0.8b, #128
	movi	v1.4h, #128
	mov	x4, x2
	b	.LBB23_52
.LBB23_50:
	mov	x5, #-1
	mov	w6, #1
.LBB23_51:
	add	x11, x5, x11
	add	x4, x4, x6
.LBB23_52:
	cmp	x11, #7
	b.ls	.LBB23_55
	ldr	d2, [x4]
	cmeq	v2.8b, v2.8b, v0.8b
	umaxv	b2, v2.8b
	fmov	w5, s2
	tbnz	w5, #0, .LBB23_60
	mov	x5, #-8
	mov	w6, #8
	b	.LBB23_51
.LBB23_55:
	cmp	x11, #3
	b.ls	.LBB23_58
	ldr	s2, [x4]
	ushll	v2.8h, v2.8b, #0
	cmeq	v2.4h, v2.4h, v1.4h
	umaxv	h2, v2.4h
	fmov	w5, s2
	tbnz	w5, #0, .LBB23_60
	mov	x5, #-4
	mov	w6, #4
	b	.LBB23_51
.LBB23_58:
	cbz	x11, .LBB23_64
	ldrb	w5, [x4]
	cmp	w5, #128
	b.ne	.LBB23_50
.LBB23_60:
	cbz	x10, .LBB23_64
.LBB23_61:
	ldrb	w11, [x2]
	cmp	w11, #128
	b.eq	.LBB23_86
	subs	x4, x10, #1
	b.ne	.LBB23_81
.LBB23_63:
	tbnz	w3, #31, .LBB23_86
.LBB23_64:
	ldrb	w11, [x1, #80]
	cmp	w11, #1
	b.ne	.LBB23_80
	ldrb	w11, [x1, #81]
	mov	w3, #31
	bics	wzr, w3, w11
	mov	w3, #11
	b.eq	.LBB23_87
	and	w4, w11, #0xffffffdf
	cbz	w4, .LBB23_87
	ldr	x3, [x1, #96]
	lsr	x4, x3, #32
	cbz	x4, .LBB23_88
	mov	w3, #7
	orr	w8, w3, w11, lsl #8
	strb	wzr, [x0, #10]
	strh	w8, [x0, #8]
	str	xzr, [x0]
	ldr	x30, [sp], #16
	.cfi_def_cfa_offset 0
	.cfi_restore w30
	ret
.LBB23_69:
	.cfi_restore_state
	.cfi_remember_state
	ldr	x15, [x1, #24]
	lsr	x17, x14, #8
	lsr	x16, x14, #24
	ldr	x9, [x1, #48]
	sub	x10, x9, #1
	cmp	x10, #38
	b.ls	.LBB23_23
	b	.LBB23_78
.LBB23_70:
	mov	x2, xzr
.LBB23_71:
	ldrb	w7, [x1, #105]
	cmp	w7, #1
	b.ne	.LBB23_79
	str	x12, [x0]
	lsr	w12, w8, #16
	strh	w8, [x0, #8]
	lsr	x8, x16, #32
	strh	w9, [x0, #48]
	strb	w8, [x0, #31]
	ubfx	x8, x9, #16, #16
	ldrb	w9, [x1, #104]
	strb	w12, [x0, #10]
	strb	w8, [x0, #50]
	lsr	w8, w10, #16
	strb	wzr, [x0, #15]
	strb	w8, [x0, #66]
	lsr	x8, x5, #32
	stur	wzr, [x0, #11]
	str	x15, [x0, #16]
	strb	w14, [x0, #24]
	sturh	w17, [x0, #25]
	stur	w16, [x0, #27]
	stp	x13, x18, [x0, #32]
	strb	wzr, [x0, #55]
	stur	wzr, [x0, #51]
	str	x2, [x0, #56]
	strh	w10, [x0, #64]
	strb	wzr, [x0, #71]
	stur	wzr, [x0, #67]
	str	x4, [x0, #72]
	strb	w3, [x0, #80]
	sturh	w6, [x0, #81]
	stur	w5, [x0, #83]
	strb	w8, [x0, #87]
	str	x11, [x0, #88]
	strb	w9, [x0, #96]
	ldr	x30, [sp], #16
	.cfi_def_cfa_offset 0
	.cfi_restore w30
	ret
.LBB23_73:
	.cfi_restore_state
	.cfi_remember_state
	mov	x10, xzr
	add	x3, x18, #1
	b	.LBB23_75
.LBB23_74:
	add	x10, x10, #1
	add	x3, x3, #1
	cmp	x2, x10
	b.eq	.LBB23_45
.LBB23_75:
	ldrb	w4, [x3]
	cmp	w4, #128
	b.ne	.LBB23_74
	cmp	x10, x9
	b.hs	.LBB23_90
	ldursb	w4, [x3, #-1]
	tbnz	w4, #31, .LBB23_74
.LBB23_78:
	mov	w8, #5
	strb	wzr, [x0, #10]
	strh	w8, [x0, #8]
	str	xzr, [x0]
	ldr	x30, [sp], #16
	.cfi_def_cfa_offset 0
	.cfi_restore w30
	ret
.LBB23_79:
	.cfi_restore_state
	.cfi_remember_state
	mov	w8, #525
	strh	w8, [x0, #8]
	str	xzr, [x0]
	ldr	x30, [sp], #16
	.cfi_def_cfa_offset 0
	.cfi_restore w30
	ret
.LBB23_80:
	.cfi_restore_state
	.cfi_remember_state
	mov	x4, xzr
	b	.LBB23_71
.LBB23_81:
	mov	x11, xzr
	add	x5, x2, #1
	b	.LBB23_83
.LBB23_82:
	add	x11, x11, #1
	add	x5, x5, #1
	cmp	x4, x11
	b.eq	.LBB23_63
.LBB23_83:
	ldrb	w6, [x5]
	cmp	w6, #128
	b.ne	.LBB23_82
	cmp	x11, x10
	b.hs	.LBB23_91
	ldursb	w6, [x5, #-1]
	tbnz	w6, #31, .LBB23_82
.LBB23_86:
	mov	w11, wzr
	mov	w3, #5
.LBB23_87:
	orr	w8, w3, w11, lsl #8
	strb	wzr, [x0, #10]
	strh	w8, [x0, #8]
	str	xzr, [x0]
	ldr	x30, [sp], #16
	.cfi_def_cfa_offset 0
	.cfi_restore w30
	ret
.LBB23_88:
	.cfi_restore_state
	ldr	x4, [x1, #88]
	lsr	x6, x3, #8
	lsr	x5, x3, #24
	b	.LBB23_71
.LBB23_89:
	mov	x0, x9
	mov	x1, x8
	brk	#0x1
.LBB23_90:
	mov	x0, x10
	mov	x1, x9
	brk	#0x1
.LBB23_91:
	mov	x0, x11
	mov	x1, x10
	brk	#0x1
.Lfunc_end23:
	.size	_RNvNtNtNtCs00000000000_7pkcs1_c5calls7pkcs1_c3pss10from_c_pss, .Lfunc_end23-_RNvNtNtNtCs00000000000_7pkcs1_c5calls7pkcs1_c3pss10from_c_pss
	.cfi_endproc

	.section	.text.pkcs1_c_pss_params_decode,"ax",@progbits
	.globl	pkcs1_c_pss_params_decode
	.p2align	2
	.type	pkcs1_c_pss_params_decode,@function
pkcs1_c_pss_params_decode:
	.cfi_startproc
	hint	#34
	lsr	x9, x1, #32
	cbz	x9, .LBB24_2
	mov	w0, #8
	ret
.LBB24_2:
	sub	sp, sp, #144
	.cfi_def_cfa_offset 144
	str	x30, [sp, #112]
	stp	x20, x19, [sp, #128]
	.cfi_offset w19, -8
	.cfi_offset w20, -16
	.cfi_offset w30, -32
	.cfi_remember_state
	mov	x8, x1
	subs	x10, x1, #2
	b.lo	.LBB24_17
	mov	x1, x0
	ldrb	w9, [x1], #2
	cmp	w9, #48
	b.ne	.LBB24_17
	ldrsb	w9, [x0, #1]
	tbnz	w9, #31, .LBB24_7
	and	x9, x9, #0xff
	subs	x20, x10, x9
	b.lo	.LBB24_17
	mov	x19, x2
	b	.LBB24_19
.LBB24_7:
	and	w9, w9, #0xff
	cmp	w9, #130
	b.ne	.LBB24_12
	cmp	x10, #1
	b.ls	.LBB24_17
	ldrb	w9, [x0, #2]
	cbz	x9, .LBB24_17
	ldrb	w10, [x0, #3]
	orr	x9, x10, x9, lsl #8
	sub	x10, x8, #4
	subs	x20, x10, x9
	b.lo	.LBB24_17
	mov	x19, x2
	add	x1, x0, #4
	b	.LBB24_19
.LBB24_12:
	cbz	x10, .LBB24_17
	cmp	w9, #129
	b.ne	.LBB24_17
	ldrsb	w9, [x1]
	tbz	w9, #31, .LBB24_17
	sub	x10, x8, #3
	and	x9, x9, #0xff
	subs	x20, x10, x9
	b.lo	.LBB24_17
	mov	x19, x2
	add	x1, x0, #3
	b	.LBB24_19
.LBB24_17:
	mov	x19, x2
	mov	x1, x0
	mov	x0, sp
	mov	x2, x8
	mov	w3, #48
	bl	_RNvNtNtNtCs00000000000_7pkcs1_c6proved8der_core5split14split_unlikely
	ldr	x1, [sp]
	cbz	x1, .LBB24_34
	ldr	x9, [sp, #8]
	ldr	x20, [sp, #24]
.LBB24_19:
	mov	x0, sp
	mov	x2, x9
	bl	_RNvNtNtNtCs00000000000_7pkcs1_c6proved12pkcs1_params6noting8note_pss
	ldrb	w9, [sp, #2]
	ldrh	w10, [sp]
	ldrb	w8, [sp, #104]
	orr	w9, w10, w9, lsl #16
	cmp	w8, #2
	b.ne	.LBB24_23
.LBB24_20:
	sub	w8, w9, #17
	and	w10, w8, #0xff
	and	x8, x8, #0xff
	cmp	w10, #3
	csinc	x8, xzr, x8, hs
	cmp	x8, #1
	b.gt	.LBB24_25
	cbnz	x8, .LBB24_32
	and	w8, w9, #0xff
	add	w0, w8, #1
	ldp	x20, x19, [sp, #128]
	ldr	x30, [sp, #112]
	add	sp, sp, #144
	.cfi_def_cfa_offset 0
	.cfi_restore w19
	.cfi_restore w20
	.cfi_restore w30
	ret
.LBB24_23:
	.cfi_restore_state
	.cfi_remember_state
	cbz	x20, .LBB24_27
	mov	w0, #13
	ldp	x20, x19, [sp, #128]
	ldr	x30, [sp, #112]
	add	sp, sp, #144
	.cfi_def_cfa_offset 0
	.cfi_restore w19
	.cfi_restore w20
	.cfi_restore w30
	ret
.LBB24_25:
	.cfi_restore_state
	.cfi_remember_state
	cmp	x8, #2
	b.ne	.LBB24_33
	mov	w0, #19
	ldp	x20, x19, [sp, #128]
	ldr	x30, [sp, #112]
	add	sp, sp, #144
	.cfi_def_cfa_offset 0
	.cfi_restore w19
	.cfi_restore w20
	.cfi_restore w30
	ret
.LBB24_27:
	.cfi_restore_state
	.cfi_remember_state
	ldur	w8, [sp, #3]
	ldrb	w10, [sp, #7]
	ldrh	w11, [sp, #8]
	lsl	x8, x8, #24
	orr	x8, x8, x10, lsl #56
	ldrb	w10, [sp, #10]
	bfxil	x8, x9, #0, #24
	orr	w9, w11, w10, lsl #16
	cbz	x8, .LBB24_35
	ldrb	w10, [sp, #15]
	ldur	w12, [sp, #11]
	ldr	x11, [sp, #16]
	ldr	x13, [sp, #56]
	orr	x15, x12, x10, lsl #32
	cbz	x11, .LBB24_36
	ldp	x10, x12, [sp, #24]
	mov	w14, #1
	ldp	x16, x17, [sp, #40]
	bfi	x9, x15, #24, #40
	ldrb	w15, [sp, #96]
	cbz	x13, .LBB24_37
.LBB24_30:
	ldp	x1, x3, [sp, #64]
	cbz	x3, .LBB24_38
	ldp	x18, x2, [sp, #80]
	mov	w4, #1
	mov	w5, #1
	b	.LBB24_39
.LBB24_32:
	mov	w0, #18
	ldp	x20, x19, [sp, #128]
	ldr	x30, [sp, #112]
	add	sp, sp, #144
	.cfi_def_cfa_offset 0
	.cfi_restore w19
	.cfi_restore w20
	.cfi_restore w30
	ret
.LBB24_33:
	.cfi_restore_state
	.cfi_remember_state
	mov	w0, #20
	ldp	x20, x19, [sp, #128]
	ldr	x30, [sp, #112]
	add	sp, sp, #144
	.cfi_def_cfa_offset 0
	.cfi_restore w19
	.cfi_restore w20
	.cfi_restore w30
	ret
.LBB24_34:
	.cfi_restore_state
	ldrb	w9, [sp, #8]
	b	.LBB24_20
.LBB24_35:
	b	.LBB24_20
.LBB24_36:
	mov	x10, xzr
	mov	w12, wzr
	mov	w14, wzr
	adrp	x11, _RNvNtCs00000000000_7pkcs1_c10rattle_std8AN_OCTET
	add	x11, x11, :lo12:_RNvNtCs00000000000_7pkcs1_c10rattle_std8AN_OCTET
	ldp	x16, x17, [sp, #40]
	bfi	x9, x15, #24, #40
	ldrb	w15, [sp, #96]
	cbnz	x13, .LBB24_30
.LBB24_37:
	adrp	x3, _RNvNtCs00000000000_7pkcs1_c10rattle_std8AN_OCTET
	add	x3, x3, :lo12:_RNvNtCs00000000000_7pkcs1_c10rattle_std8AN_OCTET
	mov	x18, xzr
	mov	w2, wzr
	mov	w4, wzr
	mov	x1, xzr
	mov	w5, wzr
	mov	x13, x3
	b	.LBB24_39
.LBB24_38:
	mov	x18, xzr
	mov	w2, wzr
	mov	w4, wzr
	mov	w5, #1
	adrp	x3, _RNvNtCs00000000000_7pkcs1_c10rattle_std8AN_OCTET
	add	x3, x3, :lo12:_RNvNtCs00000000000_7pkcs1_c10rattle_std8AN_OCTET
.LBB24_39:
	stp	x8, x9, [x19]
	mov	w8, #1
	mov	w0, wzr
	strb	w14, [x19, #16]
	strb	w12, [x19, #17]
	stp	x11, x10, [x19, #24]
	stp	x16, x17, [x19, #40]
	strb	w5, [x19, #56]
	stp	x13, x1, [x19, #64]
	strb	w4, [x19, #80]
	strb	w2, [x19, #81]
	stp	x3, x18, [x19, #88]
	strb	w15, [x19, #104]
	strb	w8, [x19, #105]
	ldp	x20, x19, [sp, #128]
	ldr	x30, [sp, #112]
	add	sp, sp, #144
	.cfi_def_cfa_offset 0
	.cfi_restore w19
	.cfi_restore w20
	.cfi_restore w30
	ret
.Lfunc_end24:
	.size	pkcs1_c_pss_params_decode, .Lfunc_end24-pkcs1_c_pss_params_decode
	.cfi_endproc

	.section	.text.pkcs1_c_pss_params_decode_strict,"ax",@progbits
	.globl	pkcs1_c_pss_params_decode_strict
	.p2align	2
	.type	pkcs1_c_pss_params_decode_strict,@function
pkcs1_c_pss_params_decode_strict:
	.cfi_startproc
	hint	#34
	lsr	x9, x1, #32
	cbz	x9, .LBB25_2
	mov	w0, #8
	ret
.LBB25_2:
	sub	sp, sp, #144
	.cfi_def_cfa_offset 144
	str	x30, [sp, #112]
	stp	x20, x19, [sp, #128]
	.cfi_offset w19, -8
	.cfi_offset w20, -16
	.cfi_offset w30, -32
	.cfi_remember_state
	mov	x8, x1
	subs	x10, x1, #2
	b.lo	.LBB25_17
	mov	x1, x0
	ldrb	w9, [x1], #2
	cmp	w9, #48
	b.ne	.LBB25_17
	ldrsb	w9, [x0, #1]
	tbnz	w9, #31, .LBB25_7
	and	x9, x9, #0xff
	subs	x20, x10, x9
	b.lo	.LBB25_17
	mov	x19, x2
	b	.LBB25_19
.LBB25_7:
	and	w9, w9, #0xff
	cmp	w9, #130
	b.ne	.LBB25_12
	cmp	x10, #1
	b.ls	.LBB25_17
	ldrb	w9, [x0, #2]
	cbz	x9, .LBB25_17
	ldrb	w10, [x0, #3]
	orr	x9, x10, x9, lsl #8
	sub	x10, x8, #4
	subs	x20, x10, x9
	b.lo	.LBB25_17
	mov	x19, x2
	add	x1, x0, #4
	b	.LBB25_19
.LBB25_12:
	cbz	x10, .LBB25_17
	cmp	w9, #129
	b.ne	.LBB25_17
	ldrsb	w9, [x1]
	tbz	w9, #31, .LBB25_17
	sub	x10, x8, #3
	and	x9, x9, #0xff
	subs	x20, x10, x9
	b.lo	.LBB25_17
	mov	x19, x2
	add	x1, x0, #3
	b	.LBB25_19
.LBB25_17:
	mov	x19, x2
	mov	x1, x0
	mov	x0, sp
	mov	x2, x8
	mov	w3, #48
	bl	_RNvNtNtNtCs00000000000_7pkcs1_c6proved8der_core5split14split_unlikely
	ldr	x1, [sp]
	cbz	x1, .LBB25_34
	ldr	x9, [sp, #8]
	ldr	x20, [sp, #24]
.LBB25_19:
	mov	x0, sp
	mov	x2, x9
	bl	_RNvNtNtNtCs00000000000_7pkcs1_c6proved12pkcs1_params6noting8note_pss
	ldrb	w9, [sp, #2]
	ldrh	w10, [sp]
	ldrb	w8, [sp, #104]
	orr	w9, w10, w9, lsl #16
	cmp	w8, #2
	b.ne	.LBB25_23
.LBB25_20:
	sub	w8, w9, #17
	and	w10, w8, #0xff
	and	x8, x8, #0xff
	cmp	w10, #3
	csinc	x8, xzr, x8, hs
	cmp	x8, #1
	b.gt	.LBB25_25
	cbnz	x8, .LBB25_29
	and	w8, w9, #0xff
	add	w0, w8, #1
	ldp	x20, x19, [sp, #128]
	ldr	x30, [sp, #112]
	add	sp, sp, #144
	.cfi_def_cfa_offset 0
	.cfi_restore w19
	.cfi_restore w20
	.cfi_restore w30
	ret
.LBB25_23:
	.cfi_restore_state
	.cfi_remember_state
	cbz	x20, .LBB25_27
	mov	w0, #13
	ldp	x20, x19, [sp, #128]
	ldr	x30, [sp, #112]
	add	sp, sp, #144
	.cfi_def_cfa_offset 0
	.cfi_restore w19
	.cfi_restore w20
	.cfi_restore w30
	ret
.LBB25_25:
	.cfi_restore_state
	.cfi_remember_state
	cmp	x8, #2
	b.ne	.LBB25_30
	mov	w0, #19
	ldp	x20, x19, [sp, #128]
	ldr	x30, [sp, #112]
	add	sp, sp, #144
	.cfi_def_cfa_offset 0
	.cfi_restore w19
	.cfi_restore w20
	.cfi_restore w30
	ret
.LBB25_27:
	.cfi_restore_state
	.cfi_remember_state
	tbz	w8, #0, .LBB25_31
	mov	w0, #5
	ldp	x20, x19, [sp, #128]
	ldr	x30, [sp, #112]
	add	sp, sp, #144
	.cfi_def_cfa_offset 0
	.cfi_restore w19
	.cfi_restore w20
	.cfi_restore w30
	ret
.LBB25_29:
	.cfi_restore_state
	.cfi_remember_state
	mov	w0, #18
	ldp	x20, x19, [sp, #128]
	ldr	x30, [sp, #112]
	add	sp, sp, #144
	.cfi_def_cfa_offset 0
	.cfi_restore w19
	.cfi_restore w20
	.cfi_restore w30
	ret
.LBB25_30:
	.cfi_restore_state
	.cfi_remember_state
	mov	w0, #20
	ldp	x20, x19, [sp, #128]
	ldr	x30, [sp, #112]
	add	sp, sp, #144
	.cfi_def_cfa_offset 0
	.cfi_restore w19
	.cfi_restore w20
	.cfi_restore w30
	ret
.LBB25_31:
	.cfi_restore_state
	ldur	w8, [sp, #3]
	ldrb	w10, [sp, #7]
	ldrh	w11, [sp, #8]
	lsl	x8, x8, #24
	orr	x8, x8, x10, lsl #56
	ldrb	w10, [sp, #10]
	bfxil	x8, x9, #0, #24
	orr	w9, w11, w10, lsl #16
	cbz	x8, .LBB25_35
	lsr	w10, w9, #8
	ldrb	w11, [sp, #15]
	ldur	w12, [sp, #11]
	and	w13, w9, #0xff
	and	w10, w10, #0xff00
	orr	x14, x12, x11, lsl #32
	ldr	x12, [sp, #56]
	bfxil	w10, w9, #8, #8
	ldr	x9, [sp, #16]
	orr	w17, w13, w10, lsl #8
	cbz	x9, .LBB25_36
	ldp	x10, x11, [sp, #24]
	mov	w13, #1
	b	.LBB25_37
.LBB25_34:
	ldrb	w9, [sp, #8]
	b	.LBB25_20
.LBB25_35:
	b	.LBB25_20
.LBB25_36:
	mov	x10, xzr
	mov	w11, wzr
	mov	w13, wzr
	adrp	x9, _RNvNtCs00000000000_7pkcs1_c10rattle_std8AN_OCTET
	add	x9, x9, :lo12:_RNvNtCs00000000000_7pkcs1_c10rattle_std8AN_OCTET
.LBB25_37:
	ldp	x15, x16, [sp, #40]
	orr	x18, x17, x14, lsl #24
	ldrb	w14, [sp, #96]
	cbz	x12, .LBB25_40
	ldp	x1, x3, [sp, #64]
	cbz	x3, .LBB25_41
	ldp	x17, x2, [sp, #80]
	mov	w4, #1
	mov	w5, #1
	b	.LBB25_42
.LBB25_40:
	adrp	x3, _RNvNtCs00000000000_7pkcs1_c10rattle_std8AN_OCTET
	add	x3, x3, :lo12:_RNvNtCs00000000000_7pkcs1_c10rattle_std8AN_OCTET
	mov	x17, xzr
	mov	w2, wzr
	mov	w4, wzr
	mov	x1, xzr
	mov	w5, wzr
	mov	x12, x3
	b	.LBB25_42
.LBB25_41:
	mov	x17, xzr
	mov	w2, wzr
	mov	w4, wzr
	mov	w5, #1
	adrp	x3, _RNvNtCs00000000000_7pkcs1_c10rattle_std8AN_OCTET
	add	x3, x3, :lo12:_RNvNtCs00000000000_7pkcs1_c10rattle_std8AN_OCTET
.LBB25_42:
	stp	x8, x18, [x19]
	mov	w8, #1
	mov	w0, wzr
	strb	w13, [x19, #16]
	strb	w11, [x19, #17]
	stp	x9, x10, [x19, #24]
	stp	x15, x16, [x19, #40]
	strb	w5, [x19, #56]
	stp	x12, x1, [x19, #64]
	strb	w4, [x19, #80]
	strb	w2, [x19, #81]
	stp	x3, x17, [x19, #88]
	strb	w14, [x19, #104]
	strb	w8, [x19, #105]
	ldp	x20, x19, [sp, #128]
	ldr	x30, [sp, #112]
	add	sp, sp, #144
	.cfi_def_cfa_offset 0
	.cfi_restore w19
	.cfi_restore w20
	.cfi_restore w30
	ret
.Lfunc_end25:
	.size	pkcs1_c_pss_params_decode_strict, .Lfunc_end25-pkcs1_c_pss_params_decode_strict
	.cfi_endproc

	.section	.text.pkcs1_c_pss_params_encode,"ax",@progbits
	.globl	pkcs1_c_pss_params_encode
	.p2align	2
	.type	pkcs1_c_pss_params_encode,@function
pkcs1_c_pss_params_encode:
	.cfi_startproc
	hint	#34
	sub	sp, sp, #320
	.cfi_def_cfa_offset 320
	stp	x29, x30, [sp, #240]
	stp	x26, x25, [sp, #256]
	stp	x24, x23, [sp, #272]
	stp	x22, x21, [sp, #288]
	stp	x20, x19, [sp, #304]
	.cfi_offset w19, -8
	.cfi_offset w20, -16
	.cfi_offset w21, -24
	.cfi_offset w22, -32
	.cfi_offset w23, -40
	.cfi_offset w24, -48
	.cfi_offset w25, -56
	.cfi_offset w26, -64
	.cfi_offset w30, -72
	.cfi_offset w29, -80
	.cfi_remember_state
	mov	x20, x1
	mov	x1, x0
	add	x0, sp, #8
	mov	x21, x3
	mov	x22, x2
	bl	_RNvNtNtNtCs00000000000_7pkcs1_c5calls7pkcs1_c3pss10from_c_pss
	ldr	x8, [sp, #8]
	cbz	x8, .LBB26_30
	ldur	q0, [sp, #72]
	ldur	q1, [sp, #88]
	add	x23, sp, #112
	ldur	q2, [sp, #40]
	ldr	x8, [sp, #104]
	stp	q0, q1, [x23, #64]
	ldur	q0, [sp, #56]
	ldur	q1, [sp, #24]
	and	w19, w8, #0xff
	str	x8, [sp, #208]
	stp	q2, q0, [x23, #32]
	ldur	q0, [sp, #8]
	stp	q0, q1, [sp, #112]
	ldr	x9, [sp, #128]
	cbz	x9, .LBB26_13
	ldr	x8, [sp, #120]
	cmp	x8, #5
	b.ne	.LBB26_13
	ldr	x8, [sp, #112]
	ldrb	w9, [x8]
	cmp	w9, #43
	b.ne	.LBB26_13
	ldrb	w9, [x8, #1]
	cmp	w9, #14
	b.ne	.LBB26_13
	ldrb	w9, [x8, #2]
	cmp	w9, #3
	b.ne	.LBB26_13
	ldrb	w9, [x8, #3]
	cmp	w9, #2
	b.ne	.LBB26_13
	ldrb	w8, [x8, #4]
	cmp	w8, #26
	b.ne	.LBB26_13
	ldr	x25, [sp, #136]
	ldrb	w26, [sp, #144]
	add	x0, x23, #40
	bl	_RNvXs_NtNtNtCs00000000000_7pkcs1_c6proved12pkcs1_params7holdersINtNtNtB8_9spki_core20algorithm_identifier21AlgorithmIdentifierOfNtNtB14_15identifier_view14IdentifierViewIB10_B22_NtNtB14_3any6AnyRefEENtB4_10MaskHolder10is_defaultBa_
	cmp	w19, #20
	str	xzr, [sp, #216]
	cset	w24, eq
	cmp	x26, #5
	b.ne	.LBB26_37
	cbnz	x25, .LBB26_37
	cmp	w19, #20
	cbz	w0, .LBB26_92
	b.ne	.LBB26_96
	mov	x9, xzr
	mov	w8, #1
	mov	w10, #2
	mov	w25, #1
	mov	w24, #1
	b	.LBB26_50
.LBB26_13:
	ldr	x8, [sp, #168]
	cbz	x8, .LBB26_28
	ldr	x9, [sp, #160]
	cmp	x9, #9
	b.ne	.LBB26_28
	ldr	x9, [sp, #152]
	mov	x11, #34346
	movk	x11, #34376, lsl #16
	ldr	x10, [x9]
	movk	x11, #3575, lsl #32
	movk	x11, #257, lsl #48
	cmp	x10, x11
	b.ne	.LBB26_28
	ldrb	w9, [x9, #8]
	cmp	w9, #8
	b.ne	.LBB26_28
	ldr	x9, [sp, #184]
	cbz	x9, .LBB26_28
	ldr	x9, [sp, #176]
	cmp	x9, #5
	b.ne	.LBB26_28
	ldrb	w9, [x8]
	cmp	w9, #43
	b.ne	.LBB26_28
	ldrb	w9, [x8, #1]
	cmp	w9, #14
	b.ne	.LBB26_28
	ldrb	w9, [x8, #2]
	cmp	w9, #3
	b.ne	.LBB26_28
	ldrb	w9, [x8, #3]
	cmp	w9, #2
	b.ne	.LBB26_28
	ldrb	w8, [x8, #4]
	cmp	w8, #26
	b.ne	.LBB26_28
	ldrb	w9, [sp, #200]
	cmp	w19, #20
	ldr	x8, [sp, #192]
	cset	w24, eq
	str	xzr, [sp, #216]
	cmp	x9, #5
	b.ne	.LBB26_38
	cbnz	x8, .LBB26_38
.LBB26_26:
	tbz	w24, #0, .LBB26_95
	mov	w25, #1
	mov	w24, #1
	b	.LBB26_41
.LBB26_28:
	cmp	w19, #20
	str	xzr, [sp, #216]
	b.ne	.LBB26_39
.LBB26_29:
	mov	w24, #1
	b	.LBB26_40
.LBB26_30:
	ldrb	w8, [sp, #16]
	sub	w9, w8, #17
	and	x10, x9, #0xff
	cmp	w9, #3
	csinc	x9, xzr, x10, hs
	cmp	x9, #1
	b.gt	.LBB26_33
	cbnz	x9, .LBB26_35
	add	w0, w8, #1
	b	.LBB26_89
.LBB26_33:
	cmp	x9, #2
	b.ne	.LBB26_36
	mov	w0, #19
	b	.LBB26_89
.LBB26_35:
	mov	w0, #18
	b	.LBB26_89
.LBB26_36:
	mov	w0, #20
	b	.LBB26_89
.LBB26_37:
	cbnz	w0, .LBB26_26
.LBB26_38:
	tbnz	w24, #0, .LBB26_29
.LBB26_39:
	add	x1, sp, #216
	mov	w0, w19
	bl	_RINvNtNtNtCs00000000000_7pkcs1_c6proved12pkcs1_params6fields13prepend_fieldhNtNtNtB6_8der_core7counter7CounterEB8_
	mov	w24, wzr
.LBB26_40:
	add	x0, x23, #40
	add	x1, sp, #216
	bl	_RINvNtNtNtCs00000000000_7pkcs1_c6proved12pkcs1_params6fields13prepend_fieldINtNtNtB6_9spki_core20algorithm_identifier21AlgorithmIdentifierOfNtNtB1g_15identifier_view14IdentifierViewIB1c_B2e_NtNtB1g_3any6AnyRefEENtNtNtB6_8der_core7counter7CounterEB8_
	mov	w25, wzr
.LBB26_41:
	add	x0, sp, #8
	add	x1, sp, #216
	bl	_RINvNtNtNtCs00000000000_7pkcs1_c6proved12pkcs1_params6fields13prepend_fieldINtNtNtB6_9spki_core20algorithm_identifier21AlgorithmIdentifierOfNtNtB1g_15identifier_view14IdentifierViewNtNtB1g_3any6AnyRefENtNtNtB6_8der_core7counter7CounterEB8_
	mov	w8, wzr
.LBB26_42:
	ldr	x9, [sp, #216]
	cmp	x9, #128
	b.hs	.LBB26_44
	mov	w10, #2
	b	.LBB26_50
.LBB26_44:
	cmp	x9, #256
	b.hs	.LBB26_46
	mov	w10, #3
	b	.LBB26_50
.LBB26_46:
	cmp	x9, #16, lsl #12
	b.hs	.LBB26_48
	mov	w10, #4
	b	.LBB26_50
.LBB26_48:
	lsr	x10, x9, #24
	cbnz	x10, .LBB26_81
	mov	w10, #5
.LBB26_50:
	add	x10, x10, x9
.LBB26_51:
	cmp	x10, x22
	str	x10, [x21]
	b.ls	.LBB26_53
	mov	w0, #15
	b	.LBB26_89
.LBB26_53:
	stp	x20, x10, [sp, #216]
	str	x10, [sp, #232]
	cbz	w8, .LBB26_57
	cbz	w25, .LBB26_60
	mov	x9, x10
	tbnz	w24, #0, .LBB26_68
	add	x1, sp, #216
	mov	w0, w19
	bl	_RINvNtNtNtCs00000000000_7pkcs1_c6proved12pkcs1_params6fields13prepend_fieldhNtNtNtB6_8der_core11back_writer10BackWriterEB8_
	b	.LBB26_67
.LBB26_57:
	cbz	w25, .LBB26_63
	tbnz	w24, #0, .LBB26_66
	add	x1, sp, #216
	mov	w0, w19
	bl	_RINvNtNtNtCs00000000000_7pkcs1_c6proved12pkcs1_params6fields13prepend_fieldhNtNtNtB6_8der_core11back_writer10BackWriterEB8_
	b	.LBB26_66
.LBB26_60:
	tbnz	w24, #0, .LBB26_62
	add	x1, sp, #216
	mov	w0, w19
	bl	_RINvNtNtNtCs00000000000_7pkcs1_c6proved12pkcs1_params6fields13prepend_fieldhNtNtNtB6_8der_core11back_writer10BackWriterEB8_
.LBB26_62:
	add	x0, x23, #40
	add	x1, sp, #216
	bl	_RINvNtNtNtCs00000000000_7pkcs1_c6proved12pkcs1_params6fields13prepend_fieldINtNtNtB6_9spki_core20algorithm_identifier21AlgorithmIdentifierOfNtNtB1g_15identifier_view14IdentifierViewIB1c_B2e_NtNtB1g_3any6AnyRefEENtNtNtB6_8der_core11back_writer10BackWriterEB8_
	b	.LBB26_67
.LBB26_63:
	tbnz	w24, #0, .LBB26_65
	add	x1, sp, #216
	mov	w0, w19
	bl	_RINvNtNtNtCs00000000000_7pkcs1_c6proved12pkcs1_params6fields13prepend_fieldhNtNtNtB6_8der_core11back_writer10BackWriterEB8_
.LBB26_65:
	add	x0, x23, #40
	add	x1, sp, #216
	bl	_RINvNtNtNtCs00000000000_7pkcs1_c6proved12pkcs1_params6fields13prepend_fieldINtNtNtB6_9spki_core20algorithm_identifier21AlgorithmIdentifierOfNtNtB1g_15identifier_view14IdentifierViewIB1c_B2e_NtNtB1g_3any6AnyRefEENtNtNtB6_8der_core11back_writer10BackWriterEB8_
.LBB26_66:
	add	x1, sp, #8
	add	x2, sp, #216
	mov	w0, wzr
	bl	_RINvNtNtNtCs00000000000_7pkcs1_c6proved12pkcs1_params6fields13prepend_fieldINtNtNtB6_9spki_core20algorithm_identifier21AlgorithmIdentifierOfNtNtB1g_15identifier_view14IdentifierViewNtNtB1g_3any6AnyRefENtNtNtB6_8der_core11back_writer10BackWriterEB8_
.LBB26_67:
	ldp	x10, x9, [sp, #224]
.LBB26_68:
	sub	x8, x10, x9
	cmp	w8, #128
	b.hs	.LBB26_72
	cmp	x9, #2
	b.lo	.LBB26_88
	cmp	x10, x9
	b.lo	.LBB26_97
	ldr	x10, [sp, #216]
	mov	w11, #48
	mov	w0, wzr
	orr	w8, w11, w8, lsl #8
	add	x9, x10, x9
	sturh	w8, [x9, #-2]
	b	.LBB26_89
.LBB26_72:
	cmp	w8, #256
	b.hs	.LBB26_77
	cmp	x9, #3
	b.lo	.LBB26_88
	cmp	x10, x9
	b.lo	.LBB26_97
	ldr	x10, [sp, #216]
	mov	w11, #33072
	add	x9, x10, x9
	sturh	w11, [x9, #-3]
.LBB26_76:
	sturb	w8, [x9, #-1]
	b	.LBB26_88
.LBB26_77:
	cmp	w8, #16, lsl #12
	b.hs	.LBB26_83
	cmp	x9, #4
	b.lo	.LBB26_88
	cmp	x10, x9
	b.lo	.LBB26_97
	ldr	x10, [sp, #216]
	mov	w11, #813826048
	mov	w0, wzr
	orr	w8, w8, w11
	add	x9, x10, x9
	rev	w8, w8
	stur	w8, [x9, #-4]
	b	.LBB26_89
.LBB26_81:
	adds	x9, x9, #6
	csinv	x10, x9, xzr, lo
	lsr	x9, x10, #32
	cbz	x9, .LBB26_51
	mov	w0, #8
	b	.LBB26_89
.LBB26_83:
	lsr	w11, w8, #24
	cbnz	w11, .LBB26_87
	cmp	x9, #5
	b.lo	.LBB26_88
	cmp	x10, x9
	b.lo	.LBB26_97
	ldr	x10, [sp, #216]
	lsr	x11, x8, #16
	mov	w12, #33584
	add	x9, x10, x9
	lsr	x10, x8, #8
	sturh	w12, [x9, #-5]
	sturb	w11, [x9, #-3]
	sturb	w10, [x9, #-2]
	b	.LBB26_76
.LBB26_87:
	cmp	x9, #6
	b.hs	.LBB26_90
.LBB26_88:
	mov	w0, wzr
.LBB26_89:
	ldp	x20, x19, [sp, #304]
	ldp	x22, x21, [sp, #288]
	ldp	x24, x23, [sp, #272]
	ldp	x26, x25, [sp, #256]
	ldp	x29, x30, [sp, #240]
	add	sp, sp, #320
	.cfi_def_cfa_offset 0
	.cfi_restore w19
	.cfi_restore w20
	.cfi_restore w21
	.cfi_restore w22
	.cfi_restore w23
	.cfi_restore w24
	.cfi_restore w25
	.cfi_restore w26
	.cfi_restore w30
	.cfi_restore w29
	ret
.LBB26_90:
	.cfi_restore_state
	cmp	x10, x9
	b.lo	.LBB26_97
	ldr	x10, [sp, #216]
	mov	w12, #33840
	lsr	x11, x8, #24
	add	x9, x10, x9
	lsr	x10, x8, #16
	sturh	w12, [x9, #-6]
	lsr	x12, x8, #8
	sturb	w11, [x9, #-4]
	sturb	w10, [x9, #-3]
	sturb	w12, [x9, #-2]
	b	.LBB26_76
.LBB26_92:
	b.eq	.LBB26_94
	add	x1, sp, #216
	mov	w0, w19
	bl	_RINvNtNtNtCs00000000000_7pkcs1_c6proved12pkcs1_params6fields13prepend_fieldhNtNtNtB6_8der_core7counter7CounterEB8_
.LBB26_94:
	add	x0, x23, #40
	add	x1, sp, #216
	bl	_RINvNtNtNtCs00000000000_7pkcs1_c6proved12pkcs1_params6fields13prepend_fieldINtNtNtB6_9spki_core20algorithm_identifier21AlgorithmIdentifierOfNtNtB1g_15identifier_view14IdentifierViewIB1c_B2e_NtNtB1g_3any6AnyRefEENtNtNtB6_8der_core7counter7CounterEB8_
	mov	w25, wzr
	mov	w8, #1
	b	.LBB26_42
.LBB26_95:
	add	x1, sp, #216
	mov	w0, w19
	bl	_RINvNtNtNtCs00000000000_7pkcs1_c6proved12pkcs1_params6fields13prepend_fieldhNtNtNtB6_8der_core7counter7CounterEB8_
	mov	w24, wzr
	mov	w25, #1
	b	.LBB26_41
.LBB26_96:
	add	x1, sp, #216
	mov	w0, w19
	bl	_RINvNtNtNtCs00000000000_7pkcs1_c6proved12pkcs1_params6fields13prepend_fieldhNtNtNtB6_8der_core7counter7CounterEB8_
	mov	w24, wzr
	mov	w25, #1
	mov	w8, #1
	b	.LBB26_42
.LBB26_97:
	brk	#0x1
.Lfunc_end26:
	.size	pkcs1_c_pss_params_encode, .Lfunc_end26-pkcs1_c_pss_params_encode
	.cfi_endproc

	.section	.text.pkcs1_c_pss_algorithm_decode,"ax",@progbits
	.globl	pkcs1_c_pss_algorithm_decode
	.p2align	2
	.type	pkcs1_c_pss_algorithm_decode,@function
pkcs1_c_pss_algorithm_decode:
	.cfi_startproc
	hint	#34
	sub	sp, sp, #160
	.cfi_def_cfa_offset 160
	stp	x30, x23, [sp, #112]
	stp	x22, x21, [sp, #128]
	stp	x20, x19, [sp, #144]
	.cfi_offset w19, -8
	.cfi_offset w20, -16
	.cfi_offset w21, -24
	.cfi_offset w22, -32
	.cfi_offset w23, -40
	.cfi_offset w30, -48
	.cfi_remember_state
	lsr	x9, x1, #32
	cbz	x9, .LBB27_3
	mov	w0, #8
.LBB27_2:
	ldp	x20, x19, [sp, #144]
	ldp	x22, x21, [sp, #128]
	ldp	x30, x23, [sp, #112]
	add	sp, sp, #160
	.cfi_def_cfa_offset 0
	.cfi_restore w19
	.cfi_restore w20
	.cfi_restore w21
	.cfi_restore w22
	.cfi_restore w23
	.cfi_restore w30
	ret
.LBB27_3:
	.cfi_restore_state
	.cfi_remember_state
	mov	x8, x1
	subs	x10, x1, #2
	b.lo	.LBB27_49
	mov	x1, x0
	ldrb	w9, [x1], #2
	cmp	w9, #48
	b.ne	.LBB27_49
	ldrsb	w9, [x0, #1]
	tbnz	w9, #31, .LBB27_34
	and	x9, x9, #0xff
	subs	x21, x10, x9
	b.lo	.LBB27_49
	cmp	x9, #2
	b.lo	.LBB27_81
.LBB27_8:
	mov	x22, x1
	ldrb	w8, [x22], #2
	cmp	w8, #6
	b.ne	.LBB27_81
	ldrsb	w10, [x1, #1]
	sub	x8, x9, #2
	tbnz	w10, #31, .LBB27_39
	and	x19, x10, #0xff
	subs	x8, x8, x19
	b.lo	.LBB27_81
	add	x1, x22, x19
	sub	x10, x19, #1
	cmp	x10, #38
	b.hi	.LBB27_83
.LBB27_12:
	ldrsb	w9, [x22, x10]
	tbnz	w9, #31, .LBB27_25
	movi	v0.8b, #128
	movi	v1.4h, #128
	mov	x11, x22
	b	.LBB27_16
.LBB27_14:
	mov	x12, #-1
	mov	w13, #1
.LBB27_15:
	add	x10, x12, x10
	add	x11, x11, x13
.LBB27_16:
	cmp	x10, #7
	b.ls	.LBB27_19
	ldr	d2, [x11]
	cmeq	v2.8b, v2.8b, v0.8b
	umaxv	b2, v2.8b
	fmov	w12, s2
	tbnz	w12, #0, .LBB27_24
	mov	x12, #-8
	mov	w13, #8
	b	.LBB27_15
.LBB27_19:
	cmp	x10, #3
	b.ls	.LBB27_22
	ldr	s2, [x11]
	ushll	v2.8h, v2.8b, #0
	cmeq	v2.4h, v2.4h, v1.4h
	umaxv	h2, v2.4h
	fmov	w12, s2
	tbnz	w12, #0, .LBB27_24
	mov	x12, #-4
	mov	w13, #4
	b	.LBB27_15
.LBB27_22:
	cbz	x10, .LBB27_28
	ldrb	w12, [x11]
	cmp	w12, #128
	b.ne	.LBB27_14
.LBB27_24:
	cbz	x19, .LBB27_28
.LBB27_25:
	ldrb	w10, [x22]
	cmp	w10, #128
	b.eq	.LBB27_83
	subs	x10, x19, #1
	b.ne	.LBB27_57
.LBB27_27:
	tbnz	w9, #31, .LBB27_83
.LBB27_28:
	cbz	x8, .LBB27_56
	ldrb	w20, [x1]
	mov	w9, #31
	mov	w0, #12
	bics	wzr, w9, w20
	b.eq	.LBB27_2
	and	w9, w20, #0xffffffdf
	tst	w9, #0xff
	b.eq	.LBB27_2
	cmp	x8, #1
	b.eq	.LBB27_72
	ldrsb	w10, [x1, #1]
	add	x9, x1, #2
	sub	x11, x8, #2
	tbnz	w10, #31, .LBB27_62
	and	x10, x10, #0xff
	subs	x11, x11, x10
	b.hs	.LBB27_74
	b	.LBB27_72
.LBB27_34:
	and	w9, w9, #0xff
	cmp	w9, #130
	b.ne	.LBB27_44
	cmp	x10, #1
	b.ls	.LBB27_49
	ldrb	w9, [x0, #2]
	cbz	x9, .LBB27_49
	ldrb	w10, [x0, #3]
	orr	x9, x10, x9, lsl #8
	sub	x10, x8, #4
	subs	x21, x10, x9
	b.lo	.LBB27_49
	add	x1, x0, #4
	b	.LBB27_8
.LBB27_39:
	and	w10, w10, #0xff
	cmp	w10, #130
	b.ne	.LBB27_51
	cmp	x8, #1
	b.ls	.LBB27_81
	ldrb	w8, [x1, #2]
	cbz	x8, .LBB27_81
	ldrb	w10, [x1, #3]
	orr	x19, x10, x8, lsl #8
	sub	x8, x9, #4
	subs	x8, x8, x19
	b.lo	.LBB27_81
	add	x22, x1, #4
	add	x1, x22, x19
	sub	x10, x19, #1
	cmp	x10, #38
	b.ls	.LBB27_12
	b	.LBB27_83
.LBB27_44:
	cbz	x10, .LBB27_49
	cmp	w9, #129
	b.ne	.LBB27_49
	ldrsb	w9, [x1]
	tbz	w9, #31, .LBB27_49
	sub	x10, x8, #3
	and	x9, x9, #0xff
	subs	x21, x10, x9
	b.lo	.LBB27_49
	add	x1, x0, #3
	b	.LBB27_8
.LBB27_49:
	mov	x19, x2
	mov	x1, x0
	mov	x0, sp
	mov	x2, x8
	mov	w3, #48
	bl	_RNvNtNtNtCs00000000000_7pkcs1_c6proved8der_core5split14split_unlikely
	ldr	x1, [sp]
	cbz	x1, .LBB27_84
	ldr	x9, [sp, #8]
	ldr	x21, [sp, #24]
	mov	x2, x19
	cmp	x9, #2
	b.hs	.LBB27_8
	b	.LBB27_81
.LBB27_51:
	cbz	x8, .LBB27_80
	cmp	w10, #129
	b.ne	.LBB27_81
	ldrsb	w8, [x22]
	tbz	w8, #31, .LBB27_81
	sub	x10, x9, #3
	and	x19, x8, #0xff
	subs	x8, x10, x19
	b.lo	.LBB27_81
	add	x22, x1, #3
	add	x1, x22, x19
	sub	x10, x19, #1
	cmp	x10, #38
	b.hi	.LBB27_83
	b	.LBB27_12
.LBB27_56:
	mov	x9, xzr
	mov	x10, xzr
	mov	x11, xzr
	cbnz	x21, .LBB27_76
	b	.LBB27_77
.LBB27_57:
	mov	x0, xzr
	add	x11, x22, #1
	b	.LBB27_59
.LBB27_58:
	add	x0, x0, #1
	add	x11, x11, #1
	cmp	x10, x0
	b.eq	.LBB27_27
.LBB27_59:
	ldrb	w12, [x11]
	cmp	w12, #128
	b.ne	.LBB27_58
	cmp	x0, x19
	b.hs	.LBB27_108
	ldursb	w12, [x11, #-1]
	tbnz	w12, #31, .LBB27_58
	b	.LBB27_83
.LBB27_62:
	and	w10, w10, #0xff
	cmp	w10, #130
	b.ne	.LBB27_67
	cmp	x11, #1
	b.ls	.LBB27_72
	ldrb	w9, [x1, #2]
	cbz	x9, .LBB27_72
	ldrb	w10, [x1, #3]
	orr	x10, x10, x9, lsl #8
	sub	x9, x8, #4
	subs	x11, x9, x10
	b.lo	.LBB27_72
	add	x9, x1, #4
	b	.LBB27_74
.LBB27_67:
	cbz	x11, .LBB27_72
	cmp	w10, #129
	b.ne	.LBB27_72
	ldrsb	w9, [x9]
	tbz	w9, #31, .LBB27_72
	sub	x11, x8, #3
	and	x10, x9, #0xff
	subs	x11, x11, x10
	b.lo	.LBB27_72
	add	x9, x1, #3
	b	.LBB27_74
.LBB27_72:
	mov	x23, x2
	mov	x0, sp
	mov	x2, x8
	mov	w3, w20
	bl	_RNvNtNtNtCs00000000000_7pkcs1_c6proved8der_core5split14split_unlikely
	ldr	x9, [sp]
	cbz	x9, .LBB27_84
	ldr	x10, [sp, #8]
	ldr	x11, [sp, #24]
	mov	x2, x23
.LBB27_74:
	cbnz	x11, .LBB27_76
	and	x8, x10, #0xffffffffff000000
	and	x11, x10, #0xffff00
	cbz	x21, .LBB27_77
.LBB27_76:
	mov	w0, #13
	ldp	x20, x19, [sp, #144]
	ldp	x22, x21, [sp, #128]
	ldp	x30, x23, [sp, #112]
	add	sp, sp, #160
	.cfi_def_cfa_offset 0
	.cfi_restore w19
	.cfi_restore w20
	.cfi_restore w21
	.cfi_restore w22
	.cfi_restore w23
	.cfi_restore w30
	ret
.LBB27_77:
	.cfi_restore_state
	.cfi_remember_state
	cmp	x19, #9
	b.ne	.LBB27_79
	mov	x14, #34346
	ldr	x12, [x22]
	ldrb	w13, [x22, #8]
	movk	x14, #34376, lsl #16
	movk	x14, #3575, lsl #32
	movk	x14, #257, lsl #48
	cmp	x12, x14
	ccmp	w13, #10, #0, eq
	b.eq	.LBB27_92
.LBB27_79:
	mov	w0, #7
	ldp	x20, x19, [sp, #144]
	ldp	x22, x21, [sp, #128]
	ldp	x30, x23, [sp, #112]
	add	sp, sp, #160
	.cfi_def_cfa_offset 0
	.cfi_restore w19
	.cfi_restore w20
	.cfi_restore w21
	.cfi_restore w22
	.cfi_restore w23
	.cfi_restore w30
	ret
.LBB27_80:
	.cfi_restore_state
	.cfi_remember_state
	mov	w9, #2
.LBB27_81:
	mov	x20, x2
	mov	x0, sp
	mov	x2, x9
	mov	w3, #6
	bl	_RNvNtNtNtCs00000000000_7pkcs1_c6proved8der_core5split14split_unlikely
	ldr	x22, [sp]
	cbz	x22, .LBB27_84
	ldp	x19, x1, [sp, #8]
	mov	x2, x20
	ldr	x8, [sp, #24]
	sub	x10, x19, #1
	cmp	x10, #38
	b.ls	.LBB27_12
.LBB27_83:
	mov	w0, #6
	ldp	x20, x19, [sp, #144]
	ldp	x22, x21, [sp, #128]
	ldp	x30, x23, [sp, #112]
	add	sp, sp, #160
	.cfi_def_cfa_offset 0
	.cfi_restore w19
	.cfi_restore w20
	.cfi_restore w21
	.cfi_restore w22
	.cfi_restore w23
	.cfi_restore w30
	ret
.LBB27_84:
	.cfi_restore_state
	.cfi_remember_state
	ldrb	w8, [sp, #8]
.LBB27_85:
	sub	w9, w8, #17
	and	w10, w9, #0xff
	and	x9, x9, #0xff
	cmp	w10, #3
	csinc	x9, xzr, x9, hs
	cmp	x9, #1
	b.gt	.LBB27_88
	cbnz	x9, .LBB27_90
	and	w8, w8, #0xff
	add	w0, w8, #1
	ldp	x20, x19, [sp, #144]
	ldp	x22, x21, [sp, #128]
	ldp	x30, x23, [sp, #112]
	add	sp, sp, #160
	.cfi_def_cfa_offset 0
	.cfi_restore w19
	.cfi_restore w20
	.cfi_restore w21
	.cfi_restore w22
	.cfi_restore w23
	.cfi_restore w30
	ret
.LBB27_88:
	.cfi_restore_state
	.cfi_remember_state
	cmp	x9, #2
	b.ne	.LBB27_91
	mov	w0, #19
	ldp	x20, x19, [sp, #144]
	ldp	x22, x21, [sp, #128]
	ldp	x30, x23, [sp, #112]
	add	sp, sp, #160
	.cfi_def_cfa_offset 0
	.cfi_restore w19
	.cfi_restore w20
	.cfi_restore w21
	.cfi_restore w22
	.cfi_restore w23
	.cfi_restore w30
	ret
.LBB27_90:
	.cfi_restore_state
	.cfi_remember_state
	mov	w0, #18
	ldp	x20, x19, [sp, #144]
	ldp	x22, x21, [sp, #128]
	ldp	x30, x23, [sp, #112]
	add	sp, sp, #160
	.cfi_def_cfa_offset 0
	.cfi_restore w19
	.cfi_restore w20
	.cfi_restore w21
	.cfi_restore w22
	.cfi_restore w23
	.cfi_restore w30
	ret
.LBB27_91:
	.cfi_restore_state
	.cfi_remember_state
	mov	w0, #20
	ldp	x20, x19, [sp, #144]
	ldp	x22, x21, [sp, #128]
	ldp	x30, x23, [sp, #112]
	add	sp, sp, #160
	.cfi_def_cfa_offset 0
	.cfi_restore w19
	.cfi_restore w20
	.cfi_restore w21
	.cfi_restore w22
	.cfi_restore w23
	.cfi_restore w30
	ret
.LBB27_92:
	.cfi_restore_state
	.cfi_remember_state
	cbz	x9, .LBB27_98
	and	w12, w20, #0xff
	cmp	w12, #48
	b.ne	.LBB27_99
	and	x10, x10, #0xff
	orr	x8, x11, x8
	mov	x19, x2
	mov	x0, sp
	orr	x2, x10, x8
	mov	x1, x9
	bl	_RNvNtNtNtCs00000000000_7pkcs1_c6proved12pkcs1_params6noting8note_pss
	ldrb	w9, [sp, #104]
	ldrb	w8, [sp]
	cmp	w9, #2
	b.eq	.LBB27_85
	ldrb	w9, [sp, #2]
	ldur	w10, [sp, #3]
	ldrb	w11, [sp, #1]
	ldrb	w12, [sp, #7]
	lsl	x10, x10, #24
	orr	x8, x8, x9, lsl #16
	ldrb	w9, [sp, #8]
	orr	x10, x10, x12, lsl #56
	orr	x8, x8, x11, lsl #8
	orr	x8, x8, x10
	cbz	x8, .LBB27_100
	ldrb	w10, [sp, #9]
	ldrb	w11, [sp, #10]
	ldrb	w12, [sp, #15]
	ldur	w13, [sp, #11]
	orr	x9, x9, x10, lsl #8
	ldr	x10, [sp, #16]
	orr	x15, x13, x12, lsl #32
	ldr	x12, [sp, #56]
	orr	x18, x9, x11, lsl #16
	cbz	x10, .LBB27_101
	ldp	x9, x11, [sp, #24]
	mov	w13, #1
	b	.LBB27_102
.LBB27_98:
	mov	w0, #10
	ldp	x20, x19, [sp, #144]
	ldp	x22, x21, [sp, #128]
	ldp	x30, x23, [sp, #112]
	add	sp, sp, #160
	.cfi_def_cfa_offset 0
	.cfi_restore w19
	.cfi_restore w20
	.cfi_restore w21
	.cfi_restore w22
	.cfi_restore w23
	.cfi_restore w30
	ret
.LBB27_99:
	.cfi_restore_state
	.cfi_remember_state
	mov	w0, #11
	ldp	x20, x19, [sp, #144]
	ldp	x22, x21, [sp, #128]
	ldp	x30, x23, [sp, #112]
	add	sp, sp, #160
	.cfi_def_cfa_offset 0
	.cfi_restore w19
	.cfi_restore w20
	.cfi_restore w21
	.cfi_restore w22
	.cfi_restore w23
	.cfi_restore w30
	ret
.LBB27_100:
	.cfi_restore_state
	.cfi_remember_state
	mov	w8, w9
	b	.LBB27_85
.LBB27_101:
	mov	x9, xzr
	mov	w11, wzr
	mov	w13, wzr
	adrp	x10, _RNvNtCs00000000000_7pkcs1_c10rattle_std8AN_OCTET
	add	x10, x10, :lo12:_RNvNtCs00000000000_7pkcs1_c10rattle_std8AN_OCTET
.LBB27_102:
	ldp	x16, x17, [sp, #40]
	orr	x1, x18, x15, lsl #24
	ldrb	w15, [sp, #96]
	mov	x14, x19
	cbz	x12, .LBB27_105
	ldp	x2, x4, [sp, #64]
	cbz	x4, .LBB27_106
	ldp	x18, x3, [sp, #80]
	mov	w5, #1
	mov	w6, #1
	b	.LBB27_107
.LBB27_105:
	adrp	x4, _RNvNtCs00000000000_7pkcs1_c10rattle_std8AN_OCTET
	add	x4, x4, :lo12:_RNvNtCs00000000000_7pkcs1_c10rattle_std8AN_OCTET
	mov	x18, xzr
	mov	w3, wzr
	mov	w5, wzr
	mov	x2, xzr
	mov	w6, wzr
	mov	x12, x4
	b	.LBB27_107
.LBB27_106:
	mov	x18, xzr
	mov	w3, wzr
	mov	w5, wzr
	mov	w6, #1
	adrp	x4, _RNvNtCs00000000000_7pkcs1_c10rattle_std8AN_OCTET
	add	x4, x4, :lo12:_RNvNtCs00000000000_7pkcs1_c10rattle_std8AN_OCTET
.LBB27_107:
	stp	x8, x1, [x14]
	mov	w8, #1
	mov	w0, wzr
	strb	w13, [x14, #16]
	strb	w11, [x14, #17]
	stp	x10, x9, [x14, #24]
	stp	x16, x17, [x14, #40]
	strb	w6, [x14, #56]
	stp	x12, x2, [x14, #64]
	strb	w5, [x14, #80]
	strb	w3, [x14, #81]
	stp	x4, x18, [x14, #88]
	strb	w15, [x14, #104]
	strb	w8, [x14, #105]
	ldp	x20, x19, [sp, #144]
	ldp	x22, x21, [sp, #128]
	ldp	x30, x23, [sp, #112]
	add	sp, sp, #160
	.cfi_def_cfa_offset 0
	.cfi_restore w19
	.cfi_restore w20
	.cfi_restore w21
	.cfi_restore w22
	.cfi_restore w23
	.cfi_restore w30
	ret
.LBB27_108:
	.cfi_restore_state
	mov	x1, x19
	brk	#0x1
.Lfunc_end27:
	.size	pkcs1_c_pss_algorithm_decode, .Lfunc_end27-pkcs1_c_pss_algorithm_decode
	.cfi_endproc

	.section	.text.pkcs1_c_pss_algorithm_decode_strict,"ax",@progbits
	.globl	pkcs1_c_pss_algorithm_decode_strict
	.p2align	2
	.type	pkcs1_c_pss_algorithm_decode_strict,@function
pkcs1_c_pss_algorithm_decode_strict:
	.cfi_startproc
	hint	#34
	sub	sp, sp, #160
	.cfi_def_cfa_offset 160
	stp	x30, x23, [sp, #112]
	stp	x22, x21, [sp, #128]
	stp	x20, x19, [sp, #144]
	.cfi_offset w19, -8
	.cfi_offset w20, -16
	.cfi_offset w21, -24
	.cfi_offset w22, -32
	.cfi_offset w23, -40
	.cfi_offset w30, -48
	.cfi_remember_state
	lsr	x9, x1, #32
	cbz	x9, .LBB28_3
	mov	w0, #8
.LBB28_2:
	ldp	x20, x19, [sp, #144]
	ldp	x22, x21, [sp, #128]
	ldp	x30, x23, [sp, #112]
	add	sp, sp, #160
	.cfi_def_cfa_offset 0
	.cfi_restore w19
	.cfi_restore w20
	.cfi_restore w21
	.cfi_restore w22
	.cfi_restore w23
	.cfi_restore w30
	ret
.LBB28_3:
	.cfi_restore_state
	.cfi_remember_state
	mov	x8, x1
	subs	x10, x1, #2
	b.lo	.LBB28_49
	mov	x1, x0
	ldrb	w9, [x1], #2
	cmp	w9, #48
	b.ne	.LBB28_49
	ldrsb	w9, [x0, #1]
	tbnz	w9, #31, .LBB28_34
	and	x9, x9, #0xff
	subs	x21, x10, x9
	b.lo	.LBB28_49
	cmp	x9, #2
	b.lo	.LBB28_81
.LBB28_8:
	mov	x22, x1
	ldrb	w8, [x22], #2
	cmp	w8, #6
	b.ne	.LBB28_81
	ldrsb	w10, [x1, #1]
	sub	x8, x9, #2
	tbnz	w10, #31, .LBB28_39
	and	x19, x10, #0xff
	subs	x8, x8, x19
	b.lo	.LBB28_81
	add	x1, x22, x19
	sub	x10, x19, #1
	cmp	x10, #38
	b.hi	.LBB28_83
.LBB28_12:
	ldrsb	w9, [x22, x10]
	tbnz	w9, #31, .LBB28_25
	movi	v0.8b, #128
	movi	v1.4h, #128
	mov	x11, x22
	b	.LBB28_16
.LBB28_14:
	mov	x12, #-1
	mov	w13, #1
.LBB28_15:
	add	x10, x12, x10
	add	x11, x11, x13
.LBB28_16:
	cmp	x10, #7
	b.ls	.LBB28_19
	ldr	d2, [x11]
	cmeq	v2.8b, v2.8b, v0.8b
	umaxv	b2, v2.8b
	fmov	w12, s2
	tbnz	w12, #0, .LBB28_24
	mov	x12, #-8
	mov	w13, #8
	b	.LBB28_15
.LBB28_19:
	cmp	x10, #3
	b.ls	.LBB28_22
	ldr	s2, [x11]
	ushll	v2.8h, v2.8b, #0
	cmeq	v2.4h, v2.4h, v1.4h
	umaxv	h2, v2.4h
	fmov	w12, s2
	tbnz	w12, #0, .LBB28_24
	mov	x12, #-4
	mov	w13, #4
	b	.LBB28_15
.LBB28_22:
	cbz	x10, .LBB28_28
	ldrb	w12, [x11]
	cmp	w12, #128
	b.ne	.LBB28_14
.LBB28_24:
	cbz	x19, .LBB28_28
.LBB28_25:
	ldrb	w10, [x22]
	cmp	w10, #128
	b.eq	.LBB28_83
	subs	x10, x19, #1
	b.ne	.LBB28_57
.LBB28_27:
	tbnz	w9, #31, .LBB28_83
.LBB28_28:
	cbz	x8, .LBB28_56
	ldrb	w20, [x1]
	mov	w9, #31
	mov	w0, #12
	bics	wzr, w9, w20
	b.eq	.LBB28_2
	and	w9, w20, #0xffffffdf
	tst	w9, #0xff
	b.eq	.LBB28_2
	cmp	x8, #1
	b.eq	.LBB28_72
	ldrsb	w10, [x1, #1]
	add	x9, x1, #2
	sub	x11, x8, #2
	tbnz	w10, #31, .LBB28_62
	and	x10, x10, #0xff
	subs	x11, x11, x10
	b.hs	.LBB28_74
	b	.LBB28_72
.LBB28_34:
	and	w9, w9, #0xff
	cmp	w9, #130
	b.ne	.LBB28_44
	cmp	x10, #1
	b.ls	.LBB28_49
	ldrb	w9, [x0, #2]
	cbz	x9, .LBB28_49
	ldrb	w10, [x0, #3]
	orr	x9, x10, x9, lsl #8
	sub	x10, x8, #4
	subs	x21, x10, x9
	b.lo	.LBB28_49
	add	x1, x0, #4
	b	.LBB28_8
.LBB28_39:
	and	w10, w10, #0xff
	cmp	w10, #130
	b.ne	.LBB28_51
	cmp	x8, #1
	b.ls	.LBB28_81
	ldrb	w8, [x1, #2]
	cbz	x8, .LBB28_81
	ldrb	w10, [x1, #3]
	orr	x19, x10, x8, lsl #8
	sub	x8, x9, #4
	subs	x8, x8, x19
	b.lo	.LBB28_81
	add	x22, x1, #4
	add	x1, x22, x19
	sub	x10, x19, #1
	cmp	x10, #38
	b.ls	.LBB28_12
	b	.LBB28_83
.LBB28_44:
	cbz	x10, .LBB28_49
	cmp	w9, #129
	b.ne	.LBB28_49
	ldrsb	w9, [x1]
	tbz	w9, #31, .LBB28_49
	sub	x10, x8, #3
	and	x9, x9, #0xff
	subs	x21, x10, x9
	b.lo	.LBB28_49
	add	x1, x0, #3
	b	.LBB28_8
.LBB28_49:
	mov	x19, x2
	mov	x1, x0
	mov	x0, sp
	mov	x2, x8
	mov	w3, #48
	bl	_RNvNtNtNtCs00000000000_7pkcs1_c6proved8der_core5split14split_unlikely
	ldr	x1, [sp]
	cbz	x1, .LBB28_84
	ldr	x9, [sp, #8]
	ldr	x21, [sp, #24]
	mov	x2, x19
	cmp	x9, #2
	b.hs	.LBB28_8
	b	.LBB28_81
.LBB28_51:
	cbz	x8, .LBB28_80
	cmp	w10, #129
	b.ne	.LBB28_81
	ldrsb	w8, [x22]
	tbz	w8, #31, .LBB28_81
	sub	x10, x9, #3
	and	x19, x8, #0xff
	subs	x8, x10, x19
	b.lo	.LBB28_81
	add	x22, x1, #3
	add	x1, x22, x19
	sub	x10, x19, #1
	cmp	x10, #38
	b.hi	.LBB28_83
	b	.LBB28_12
.LBB28_56:
	mov	x9, xzr
	mov	x10, xzr
	mov	x11, xzr
	cbnz	x21, .LBB28_76
	b	.LBB28_77
.LBB28_57:
	mov	x0, xzr
	add	x11, x22, #1
	b	.LBB28_59
.LBB28_58:
	add	x0, x0, #1
	add	x11, x11, #1
	cmp	x10, x0
	b.eq	.LBB28_27
.LBB28_59:
	ldrb	w12, [x11]
	cmp	w12, #128
	b.ne	.LBB28_58
	cmp	x0, x19
	b.hs	.LBB28_110
	ldursb	w12, [x11, #-1]
	tbnz	w12, #31, .LBB28_58
	b	.LBB28_83
.LBB28_62:
	and	w10, w10, #0xff
	cmp	w10, #130
	b.ne	.LBB28_67
	cmp	x11, #1
	b.ls	.LBB28_72
	ldrb	w9, [x1, #2]
	cbz	x9, .LBB28_72
	ldrb	w10, [x1, #3]
	orr	x10, x10, x9, lsl #8
	sub	x9, x8, #4
	subs	x11, x9, x10
	b.lo	.LBB28_72
	add	x9, x1, #4
	b	.LBB28_74
.LBB28_67:
	cbz	x11, .LBB28_72
	cmp	w10, #129
	b.ne	.LBB28_72
	ldrsb	w9, [x9]
	tbz	w9, #31, .LBB28_72
	sub	x11, x8, #3
	and	x10, x9, #0xff
	subs	x11, x11, x10
	b.lo	.LBB28_72
	add	x9, x1, #3
	b	.LBB28_74
.LBB28_72:
	mov	x23, x2
	mov	x0, sp
	mov	x2, x8
	mov	w3, w20
	bl	_RNvNtNtNtCs00000000000_7pkcs1_c6proved8der_core5split14split_unlikely
	ldr	x9, [sp]
	cbz	x9, .LBB28_84
	ldr	x10, [sp, #8]
	ldr	x11, [sp, #24]
	mov	x2, x23
.LBB28_74:
	cbnz	x11, .LBB28_76
	and	x8, x10, #0xffffffffff000000
	and	x11, x10, #0xffff00
	cbz	x21, .LBB28_77
.LBB28_76:
	mov	w0, #13
	ldp	x20, x19, [sp, #144]
	ldp	x22, x21, [sp, #128]
	ldp	x30, x23, [sp, #112]
	add	sp, sp, #160
	.cfi_def_cfa_offset 0
	.cfi_restore w19
	.cfi_restore w20
	.cfi_restore w21
	.cfi_restore w22
	.cfi_restore w23
	.cfi_restore w30
	ret
.LBB28_77:
	.cfi_restore_state
	.cfi_remember_state
	cmp	x19, #9
	b.ne	.LBB28_79
	mov	x14, #34346
	ldr	x12, [x22]
	ldrb	w13, [x22, #8]
	movk	x14, #34376, lsl #16
	movk	x14, #3575, lsl #32
	movk	x14, #257, lsl #48
	cmp	x12, x14
	ccmp	w13, #10, #0, eq
	b.eq	.LBB28_92
.LBB28_79:
	mov	w0, #7
	ldp	x20, x19, [sp, #144]
	ldp	x22, x21, [sp, #128]
	ldp	x30, x23, [sp, #112]
	add	sp, sp, #160
	.cfi_def_cfa_offset 0
	.cfi_restore w19
	.cfi_restore w20
	.cfi_restore w21
	.cfi_restore w22
	.cfi_restore w23
	.cfi_restore w30
	ret
.LBB28_80:
	.cfi_restore_state
	.cfi_remember_state
	mov	w9, #2
.LBB28_81:
	mov	x20, x2
	mov	x0, sp
	mov	x2, x9
	mov	w3, #6
	bl	_RNvNtNtNtCs00000000000_7pkcs1_c6proved8der_core5split14split_unlikely
	ldr	x22, [sp]
	cbz	x22, .LBB28_84
	ldp	x19, x1, [sp, #8]
	mov	x2, x20
	ldr	x8, [sp, #24]
	sub	x10, x19, #1
	cmp	x10, #38
	b.ls	.LBB28_12
.LBB28_83:
	mov	w0, #6
	ldp	x20, x19, [sp, #144]
	ldp	x22, x21, [sp, #128]
	ldp	x30, x23, [sp, #112]
	add	sp, sp, #160
	.cfi_def_cfa_offset 0
	.cfi_restore w19
	.cfi_restore w20
	.cfi_restore w21
	.cfi_restore w22
	.cfi_restore w23
	.cfi_restore w30
	ret
.LBB28_84:
	.cfi_restore_state
	.cfi_remember_state
	ldrb	w8, [sp, #8]
.LBB28_85:
	sub	w9, w8, #17
	and	w10, w9, #0xff
	and	x9, x9, #0xff
	cmp	w10, #3
	csinc	x9, xzr, x9, hs
	cmp	x9, #1
	b.gt	.LBB28_88
	cbnz	x9, .LBB28_90
	and	w8, w8, #0xff
	add	w0, w8, #1
	ldp	x20, x19, [sp, #144]
	ldp	x22, x21, [sp, #128]
	ldp	x30, x23, [sp, #112]
	add	sp, sp, #160
	.cfi_def_cfa_offset 0
	.cfi_restore w19
	.cfi_restore w20
	.cfi_restore w21
	.cfi_restore w22
	.cfi_restore w23
	.cfi_restore w30
	ret
.LBB28_88:
	.cfi_restore_state
	.cfi_remember_state
	cmp	x9, #2
	b.ne	.LBB28_91
	mov	w0, #19
	ldp	x20, x19, [sp, #144]
	ldp	x22, x21, [sp, #128]
	ldp	x30, x23, [sp, #112]
	add	sp, sp, #160
	.cfi_def_cfa_offset 0
	.cfi_restore w19
	.cfi_restore w20
	.cfi_restore w21
	.cfi_restore w22
	.cfi_restore w23
	.cfi_restore w30
	ret
.LBB28_90:
	.cfi_restore_state
	.cfi_remember_state
	mov	w0, #18
	ldp	x20, x19, [sp, #144]
	ldp	x22, x21, [sp, #128]
	ldp	x30, x23, [sp, #112]
	add	sp, sp, #160
	.cfi_def_cfa_offset 0
	.cfi_restore w19
	.cfi_restore w20
	.cfi_restore w21
	.cfi_restore w22
	.cfi_restore w23
	.cfi_restore w30
	ret
.LBB28_91:
	.cfi_restore_state
	.cfi_remember_state
	mov	w0, #20
	ldp	x20, x19, [sp, #144]
	ldp	x22, x21, [sp, #128]
	ldp	x30, x23, [sp, #112]
	add	sp, sp, #160
	.cfi_def_cfa_offset 0
	.cfi_restore w19
	.cfi_restore w20
	.cfi_restore w21
	.cfi_restore w22
	.cfi_restore w23
	.cfi_restore w30
	ret
.LBB28_92:
	.cfi_restore_state
	.cfi_remember_state
	cbz	x9, .LBB28_97
	and	w12, w20, #0xff
	cmp	w12, #48
	b.ne	.LBB28_98
	and	x10, x10, #0xff
	orr	x8, x11, x8
	mov	x19, x2
	mov	x0, sp
	orr	x2, x10, x8
	mov	x1, x9
	bl	_RNvNtNtNtCs00000000000_7pkcs1_c6proved12pkcs1_params6noting8note_pss
	ldrb	w9, [sp, #104]
	ldrb	w8, [sp]
	cmp	w9, #2
	b.eq	.LBB28_85
	tbz	w9, #0, .LBB28_99
	mov	w0, #5
	ldp	x20, x19, [sp, #144]
	ldp	x22, x21, [sp, #128]
	ldp	x30, x23, [sp, #112]
	add	sp, sp, #160
	.cfi_def_cfa_offset 0
	.cfi_restore w19
	.cfi_restore w20
	.cfi_restore w21
	.cfi_restore w22
	.cfi_restore w23
	.cfi_restore w30
	ret
.LBB28_97:
	.cfi_restore_state
	.cfi_remember_state
	mov	w0, #10
	ldp	x20, x19, [sp, #144]
	ldp	x22, x21, [sp, #128]
	ldp	x30, x23, [sp, #112]
	add	sp, sp, #160
	.cfi_def_cfa_offset 0
	.cfi_restore w19
	.cfi_restore w20
	.cfi_restore w21
	.cfi_restore w22
	.cfi_restore w23
	.cfi_restore w30
	ret
.LBB28_98:
	.cfi_restore_state
	.cfi_remember_state
	mov	w0, #11
	ldp	x20, x19, [sp, #144]
	ldp	x22, x21, [sp, #128]
	ldp	x30, x23, [sp, #112]
	add	sp, sp, #160
	.cfi_def_cfa_offset 0
	.cfi_restore w19
	.cfi_restore w20
	.cfi_restore w21
	.cfi_restore w22
	.cfi_restore w23
	.cfi_restore w30
	ret
.LBB28_99:
	.cfi_restore_state
	.cfi_remember_state
	ldrb	w9, [sp, #2]
	ldur	w10, [sp, #3]
	ldrb	w11, [sp, #1]
	ldrb	w12, [sp, #7]
	lsl	x10, x10, #24
	orr	x8, x8, x9, lsl #16
	ldrb	w9, [sp, #8]
	orr	x10, x10, x12, lsl #56
	orr	x8, x8, x11, lsl #8
	orr	x8, x8, x10
	cbz	x8, .LBB28_102
	ldrb	w10, [sp, #9]
	ldrb	w11, [sp, #10]
	ldrb	w12, [sp, #15]
	ldur	w13, [sp, #11]
	orr	x9, x9, x10, lsl #8
	ldr	x10, [sp, #16]
	orr	x14, x13, x12, lsl #32
	ldr	x12, [sp, #56]
	orr	x17, x9, x11, lsl #16
	cbz	x10, .LBB28_103
	ldp	x9, x11, [sp, #24]
	mov	w13, #1
	b	.LBB28_104
.LBB28_102:
	mov	w8, w9
	b	.LBB28_85
.LBB28_103:
	mov	x9, xzr
	mov	w11, wzr
	mov	w13, wzr
	adrp	x10, _RNvNtCs00000000000_7pkcs1_c10rattle_std8AN_OCTET
	add	x10, x10, :lo12:_RNvNtCs00000000000_7pkcs1_c10rattle_std8AN_OCTET
.LBB28_104:
	ldp	x15, x16, [sp, #40]
	orr	x18, x17, x14, lsl #24
	ldrb	w14, [sp, #96]
	cbz	x12, .LBB28_107
	ldp	x1, x3, [sp, #64]
	cbz	x3, .LBB28_108
	ldp	x17, x2, [sp, #80]
	mov	w4, #1
	mov	w5, #1
	b	.LBB28_109
.LBB28_107:
	adrp	x3, _RNvNtCs00000000000_7pkcs1_c10rattle_std8AN_OCTET
	add	x3, x3, :lo12:_RNvNtCs00000000000_7pkcs1_c10rattle_std8AN_OCTET
	mov	x17, xzr
	mov	w2, wzr
	mov	w4, wzr
	mov	x1, xzr
	mov	w5, wzr
	mov	x12, x3
	b	.LBB28_109
.LBB28_108:
	mov	x17, xzr
	mov	w2, wzr
	mov	w4, wzr
	mov	w5, #1
	adrp	x3, _RNvNtCs00000000000_7pkcs1_c10rattle_std8AN_OCTET
	add	x3, x3, :lo12:_RNvNtCs00000000000_7pkcs1_c10rattle_std8AN_OCTET
.LBB28_109:
	stp	x8, x18, [x19]
	mov	w8, #1
	mov	w0, wzr
	strb	w13, [x19, #16]
	strb	w11, [x19, #17]
	stp	x10, x9, [x19, #24]
	stp	x15, x16, [x19, #40]
	strb	w5, [x19, #56]
	stp	x12, x1, [x19, #64]
	strb	w4, [x19, #80]
	strb	w2, [x19, #81]
	stp	x3, x17, [x19, #88]
	strb	w14, [x19, #104]
	strb	w8, [x19, #105]
	ldp	x20, x19, [sp, #144]
	ldp	x22, x21, [sp, #128]
	ldp	x30, x23, [sp, #112]
	add	sp, sp, #160
	.cfi_def_cfa_offset 0
	.cfi_restore w19
	.cfi_restore w20
	.cfi_restore w21
	.cfi_restore w22
	.cfi_restore w23
	.cfi_restore w30
	ret
.LBB28_110:
	.cfi_restore_state
	mov	x1, x19
	brk	#0x1
.Lfunc_end28:
	.size	pkcs1_c_pss_algorithm_decode_strict, .Lfunc_end28-pkcs1_c_pss_algorithm_decode_strict
	.cfi_endproc

	.section	.text.pkcs1_c_pss_algorithm_encode,"ax",@progbits
	.globl	pkcs1_c_pss_algorithm_encode
	.p2align	2
	.type	pkcs1_c_pss_algorithm_encode,@function
pkcs1_c_pss_algorithm_encode:
	.cfi_startproc
	hint	#34
	sub	sp, sp, #320
	.cfi_def_cfa_offset 320
	stp	x29, x30, [sp, #240]
	stp	x26, x25, [sp, #256]
	stp	x24, x23, [sp, #272]
	stp	x22, x21, [sp, #288]
	stp	x20, x19, [sp, #304]
	.cfi_offset w19, -8
	.cfi_offset w20, -16
	.cfi_offset w21, -24
	.cfi_offset w22, -32
	.cfi_offset w23, -40
	.cfi_offset w24, -48
	.cfi_offset w25, -56
	.cfi_offset w26, -64
	.cfi_offset w30, -72
	.cfi_offset w29, -80
	.cfi_remember_state
	mov	x20, x1
	mov	x1, x0
	add	x0, sp, #8
	mov	x21, x3
	mov	x22, x2
	bl	_RNvNtNtNtCs00000000000_7pkcs1_c5calls7pkcs1_c3pss10from_c_pss
	ldr	x8, [sp, #8]
	cbz	x8, .LBB29_30
	ldur	q0, [sp, #72]
	ldur	q1, [sp, #88]
	add	x23, sp, #112
	ldur	q2, [sp, #40]
	ldr	x8, [sp, #104]
	stp	q0, q1, [x23, #64]
	ldur	q0, [sp, #56]
	ldur	q1, [sp, #24]
	and	w19, w8, #0xff
	str	x8, [sp, #208]
	stp	q2, q0, [x23, #32]
	ldur	q0, [sp, #8]
	stp	q0, q1, [sp, #112]
	ldr	x9, [sp, #128]
	cbz	x9, .LBB29_13
	ldr	x8, [sp, #120]
	cmp	x8, #5
	b.ne	.LBB29_13
	ldr	x8, [sp, #112]
	ldrb	w9, [x8]
	cmp	w9, #43
	b.ne	.LBB29_13
	ldrb	w9, [x8, #1]
	cmp	w9, #14
	b.ne	.LBB29_13
	ldrb	w9, [x8, #2]
	cmp	w9, #3
	b.ne	.LBB29_13
	ldrb	w9, [x8, #3]
	cmp	w9, #2
	b.ne	.LBB29_13
	ldrb	w8, [x8, #4]
	cmp	w8, #26
	b.ne	.LBB29_13
	ldr	x25, [sp, #136]
	ldrb	w26, [sp, #144]
	add	x0, x23, #40
	bl	_RNvXs_NtNtNtCs00000000000_7pkcs1_c6proved12pkcs1_params7holdersINtNtNtB8_9spki_core20algorithm_identifier21AlgorithmIdentifierOfNtNtB14_15identifier_view14IdentifierViewIB10_B22_NtNtB14_3any6AnyRefEENtB4_10MaskHolder10is_defaultBa_
	cmp	w19, #20
	str	xzr, [sp, #216]
	cset	w24, eq
	cmp	x26, #5
	b.ne	.LBB29_37
	cbnz	x25, .LBB29_37
	cmp	w19, #20
	cbz	w0, .LBB29_149
	b.ne	.LBB29_153
	mov	x8, xzr
	mov	w9, #1
	mov	w25, #1
	mov	w24, #1
	b	.LBB29_43
.LBB29_13:
	ldr	x8, [sp, #168]
	cbz	x8, .LBB29_28
	ldr	x9, [sp, #160]
	cmp	x9, #9
	b.ne	.LBB29_28
	ldr	x9, [sp, #152]
	mov	x11, #34346
	movk	x11, #34376, lsl #16
	ldr	x10, [x9]
	movk	x11, #3575, lsl #32
	movk	x11, #257, lsl #48
	cmp	x10, x11
	b.ne	.LBB29_28
	ldrb	w9, [x9, #8]
	cmp	w9, #8
	b.ne	.LBB29_28
	ldr	x9, [sp, #184]
	cbz	x9, .LBB29_28
	ldr	x9, [sp, #176]
	cmp	x9, #5
	b.ne	.LBB29_28
	ldrb	w9, [x8]
	cmp	w9, #43
	b.ne	.LBB29_28
	ldrb	w9, [x8, #1]
	cmp	w9, #14
	b.ne	.LBB29_28
	ldrb	w9, [x8, #2]
	cmp	w9, #3
	b.ne	.LBB29_28
	ldrb	w9, [x8, #3]
	cmp	w9, #2
	b.ne	.LBB29_28
	ldrb	w8, [x8, #4]
	cmp	w8, #26
	b.ne	.LBB29_28
	ldrb	w9, [sp, #200]
	cmp	w19, #20
	ldr	x8, [sp, #192]
	cset	w24, eq
	str	xzr, [sp, #216]
	cmp	x9, #5
	b.ne	.LBB29_38
	cbnz	x8, .LBB29_38
.LBB29_26:
	tbz	w24, #0, .LBB29_152
	mov	w25, #1
	mov	w24, #1
	b	.LBB29_41
.LBB29_28:
	cmp	w19, #20
	str	xzr, [sp, #216]
	b.ne	.LBB29_39
.LBB29_29:
	mov	w24, #1
	b	.LBB29_40
.LBB29_30:
	ldrb	w8, [sp, #16]
	sub	w9, w8, #17
	and	x10, x9, #0xff
	cmp	w9, #3
	csinc	x9, xzr, x10, hs
	cmp	x9, #1
	b.gt	.LBB29_33
	cbnz	x9, .LBB29_35
	add	w0, w8, #1
	b	.LBB29_148
.LBB29_33:
	cmp	x9, #2
	b.ne	.LBB29_36
	mov	w0, #19
	b	.LBB29_148
.LBB29_35:
	mov	w0, #18
	b	.LBB29_148
.LBB29_36:
	mov	w0, #20
	b	.LBB29_148
.LBB29_37:
	cbnz	w0, .LBB29_26
.LBB29_38:
	tbnz	w24, #0, .LBB29_29
.LBB29_39:
	add	x1, sp, #216
	mov	w0, w19
	bl	_RINvNtNtNtCs00000000000_7pkcs1_c6proved12pkcs1_params6fields13prepend_fieldhNtNtNtB6_8der_core7counter7CounterEB8_
	mov	w24, wzr
.LBB29_40:
	add	x0, x23, #40
	add	x1, sp, #216
	bl	_RINvNtNtNtCs00000000000_7pkcs1_c6proved12pkcs1_params6fields13prepend_fieldINtNtNtB6_9spki_core20algorithm_identifier21AlgorithmIdentifierOfNtNtB1g_15identifier_view14IdentifierViewIB1c_B2e_NtNtB1g_3any6AnyRefEENtNtNtB6_8der_core7counter7CounterEB8_
	mov	w25, wzr
.LBB29_41:
	add	x0, sp, #8
	add	x1, sp, #216
	bl	_RINvNtNtNtCs00000000000_7pkcs1_c6proved12pkcs1_params6fields13prepend_fieldINtNtNtB6_9spki_core20algorithm_identifier21AlgorithmIdentifierOfNtNtB1g_15identifier_view14IdentifierViewNtNtB1g_3any6AnyRefENtNtNtB6_8der_core7counter7CounterEB8_
	mov	w9, wzr
.LBB29_42:
	ldr	x8, [sp, #216]
	cmp	x8, #128
	b.hs	.LBB29_46
.LBB29_43:
	add	x8, x8, #2
	adds	x10, x8, #9
	csinv	x10, x10, xzr, lo
	subs	x10, x10, x8
	csel	x10, xzr, x10, lo
	cmp	x10, #128
	b.hs	.LBB29_48
.LBB29_44:
	add	x10, x10, #2
	adds	x8, x8, x10
	csinv	x8, x8, xzr, lo
	cmp	x8, #128
	b.hs	.LBB29_50
.LBB29_45:
	mov	w10, #2
	b	.LBB29_62
.LBB29_46:
	cmp	x8, #256
	b.hs	.LBB29_56
	add	x8, x8, #3
	adds	x10, x8, #9
	csinv	x10, x10, xzr, lo
	subs	x10, x10, x8
	csel	x10, xzr, x10, lo
	cmp	x10, #128
	b.lo	.LBB29_44
.LBB29_48:
	cmp	x10, #256
	b.hs	.LBB29_52
	add	x10, x10, #3
	adds	x8, x8, x10
	csinv	x8, x8, xzr, lo
	cmp	x8, #128
	b.lo	.LBB29_45
.LBB29_50:
	cmp	x8, #256
	b.hs	.LBB29_54
	mov	w10, #3
	b	.LBB29_62
.LBB29_52:
	cmp	x10, #16, lsl #12
	b.hs	.LBB29_58
	add	x10, x10, #4
	adds	x8, x8, x10
	csinv	x8, x8, xzr, lo
	cmp	x8, #128
	b.hs	.LBB29_50
	b	.LBB29_45
.LBB29_54:
	cmp	x8, #16, lsl #12
	b.hs	.LBB29_60
	mov	w10, #4
	b	.LBB29_62
.LBB29_56:
	cmp	x8, #16, lsl #12
	b.hs	.LBB29_72
	add	x8, x8, #4
	adds	x10, x8, #9
	csinv	x10, x10, xzr, lo
	subs	x10, x10, x8
	csel	x10, xzr, x10, lo
	cmp	x10, #128
	b.hs	.LBB29_48
	b	.LBB29_44
.LBB29_58:
	lsr	x11, x10, #24
	cbnz	x11, .LBB29_94
	add	x10, x10, #5
	adds	x8, x8, x10
	csinv	x8, x8, xzr, lo
	cmp	x8, #128
	b.hs	.LBB29_50
	b	.LBB29_45
.LBB29_60:
	lsr	x10, x8, #24
	cbnz	x10, .LBB29_95
	mov	w10, #5
.LBB29_62:
	add	x8, x10, x8
.LBB29_63:
	cmp	x8, x22
	str	x8, [x21]
	b.ls	.LBB29_65
	mov	w0, #15
	b	.LBB29_148
.LBB29_65:
	stp	x20, x8, [sp, #216]
	str	x8, [sp, #232]
	cbz	w9, .LBB29_69
	cbz	w25, .LBB29_74
	mov	x11, x8
	tbnz	w24, #0, .LBB29_82
	add	x1, sp, #216
	mov	w0, w19
	bl	_RINvNtNtNtCs00000000000_7pkcs1_c6proved12pkcs1_params6fields13prepend_fieldhNtNtNtB6_8der_core11back_writer10BackWriterEB8_
	b	.LBB29_81
.LBB29_69:
	cbz	w25, .LBB29_77
	tbnz	w24, #0, .LBB29_80
	add	x1, sp, #216
	mov	w0, w19
	bl	_RINvNtNtNtCs00000000000_7pkcs1_c6proved12pkcs1_params6fields13prepend_fieldhNtNtNtB6_8der_core11back_writer10BackWriterEB8_
	b	.LBB29_80
.LBB29_72:
	lsr	x10, x8, #24
	cbnz	x10, .LBB29_97
	add	x8, x8, #5
	adds	x10, x8, #9
	csinv	x10, x10, xzr, lo
	subs	x10, x10, x8
	csel	x10, xzr, x10, lo
	cmp	x10, #128
	b.lo	.LBB29_44
	b	.LBB29_48
.LBB29_74:
	tbnz	w24, #0, .LBB29_76
	add	x1, sp, #216
	mov	w0, w19
	bl	_RINvNtNtNtCs00000000000_7pkcs1_c6proved12pkcs1_params6fields13prepend_fieldhNtNtNtB6_8der_core11back_writer10BackWriterEB8_
.LBB29_76:
	add	x0, x23, #40
	add	x1, sp, #216
	bl	_RINvNtNtNtCs00000000000_7pkcs1_c6proved12pkcs1_params6fields13prepend_fieldINtNtNtB6_9spki_core20algorithm_identifier21AlgorithmIdentifierOfNtNtB1g_15identifier_view14IdentifierViewIB1c_B2e_NtNtB1g_3any6AnyRefEENtNtNtB6_8der_core11back_writer10BackWriterEB8_
	b	.LBB29_81
.LBB29_77:
	tbnz	w24, #0, .LBB29_79
	add	x1, sp, #216
	mov	w0, w19
	bl	_RINvNtNtNtCs00000000000_7pkcs1_c6proved12pkcs1_params6fields13prepend_fieldhNtNtNtB6_8der_core11back_writer10BackWriterEB8_
.LBB29_79:
	add	x0, x23, #40
	add	x1, sp, #216
	bl	_RINvNtNtNtCs00000000000_7pkcs1_c6proved12pkcs1_params6fields13prepend_fieldINtNtNtB6_9spki_core20algorithm_identifier21AlgorithmIdentifierOfNtNtB1g_15identifier_view14IdentifierViewIB1c_B2e_NtNtB1g_3any6AnyRefEENtNtNtB6_8der_core11back_writer10BackWriterEB8_
.LBB29_80:
	add	x1, sp, #8
	add	x2, sp, #216
	mov	w0, wzr
	bl	_RINvNtNtNtCs00000000000_7pkcs1_c6proved12pkcs1_params6fields13prepend_fieldINtNtNtB6_9spki_core20algorithm_identifier21AlgorithmIdentifierOfNtNtB1g_15identifier_view14IdentifierViewNtNtB1g_3any6AnyRefENtNtNtB6_8der_core11back_writer10BackWriterEB8_
.LBB29_81:
	ldp	x8, x11, [sp, #224]
.LBB29_82:
	sub	x10, x8, x11
	cmp	w10, #128
	b.hs	.LBB29_86
	ldr	x9, [sp, #216]
	subs	x12, x11, #2
	b.lo	.LBB29_106
	cmp	x8, x11
	b.lo	.LBB29_154
	mov	w11, #48
	orr	w10, w11, w10, lsl #8
	mov	x11, x12
	strh	w10, [x9, x12]
	b	.LBB29_105
.LBB29_86:
	cmp	w10, #256
	b.hs	.LBB29_90
	ldr	x9, [sp, #216]
	subs	x12, x11, #3
	b.lo	.LBB29_106
	cmp	x8, x11
	b.lo	.LBB29_154
	add	x11, x9, x12
	mov	w13, #33072
	strh	w13, [x11]
	strb	w10, [x11, #2]
	mov	x11, x12
	b	.LBB29_105
.LBB29_90:
	cmp	w10, #16, lsl #12
	b.hs	.LBB29_98
	ldr	x9, [sp, #216]
	subs	x12, x11, #4
	b.lo	.LBB29_106
	cmp	x8, x11
	b.lo	.LBB29_154
	mov	w11, #813826048
	orr	w10, w10, w11
	mov	x11, x12
	rev	w10, w10
	str	w10, [x9, x12]
	b	.LBB29_105
.LBB29_94:
	adds	x10, x10, #6
	csinv	x10, x10, xzr, lo
	adds	x8, x8, x10
	csinv	x8, x8, xzr, lo
	cmp	x8, #128
	b.lo	.LBB29_45
	b	.LBB29_50
.LBB29_95:
	adds	x8, x8, #6
	csinv	x8, x8, xzr, lo
	lsr	x10, x8, #32
	cbz	x10, .LBB29_63
	mov	w0, #8
	b	.LBB29_148
.LBB29_97:
	adds	x8, x8, #6
	csinv	x8, x8, xzr, lo
	adds	x10, x8, #9
	csinv	x10, x10, xzr, lo
	subs	x10, x10, x8
	csel	x10, xzr, x10, lo
	cmp	x10, #128
	b.hs	.LBB29_48
	b	.LBB29_44
.LBB29_98:
	lsr	w9, w10, #24
	cbnz	w9, .LBB29_102
	ldr	x9, [sp, #216]
	subs	x12, x11, #5
	b.lo	.LBB29_106
	cmp	x8, x11
	b.lo	.LBB29_154
	lsr	x11, x10, #16
	add	x13, x9, x12
	lsr	x15, x10, #8
	mov	w14, #33584
	strb	w10, [x13, #4]
	strb	w11, [x13, #2]
	mov	x11, x12
	strh	w14, [x13]
	strb	w15, [x13, #3]
	b	.LBB29_105
.LBB29_102:
	ldr	x9, [sp, #216]
	subs	x12, x11, #6
	b.lo	.LBB29_106
	cmp	x8, x11
	b.lo	.LBB29_154
	add	x13, x9, x12
	mov	w14, #33840
	lsr	x11, x10, #24
	lsr	x15, x10, #16
	strh	w14, [x13]
	lsr	x14, x10, #8
	strb	w11, [x13, #2]
	mov	x11, x12
	strb	w15, [x13, #3]
	strb	w14, [x13, #4]
	strb	w10, [x13, #5]
.LBB29_105:
	subs	x10, x11, #9
	b.hs	.LBB29_110
.LBB29_106:
	mov	x10, x11
	sub	x11, x11, x11
	cmp	w11, #128
	b.hs	.LBB29_112
.LBB29_107:
	subs	x12, x10, #2
	b.lo	.LBB29_127
	cmp	x10, x8
	b.hi	.LBB29_154
	mov	w10, #6
	orr	w10, w10, w11, lsl #8
	strh	w10, [x9, x12]
	mov	x10, x12
	b	.LBB29_127
.LBB29_110:
	cmp	x11, x8
	b.hi	.LBB29_154
	adrp	x12, .Lanon.2
	add	x12, x12, :lo12:.Lanon.2
	add	x13, x9, x10
	ldr	x12, [x12]
	mov	w14, #10
	strb	w14, [x13, #8]
	str	x12, [x13]
	sub	x11, x11, x10
	cmp	w11, #128
	b.lo	.LBB29_107
.LBB29_112:
	cmp	w11, #256
	b.hs	.LBB29_116
	subs	x12, x10, #3
	b.lo	.LBB29_127
	cmp	x10, x8
	b.hi	.LBB29_154
	add	x10, x9, x12
	mov	w13, #33030
	strh	w13, [x10]
	strb	w11, [x10, #2]
	mov	x10, x12
	b	.LBB29_127
.LBB29_116:
	cmp	w11, #16, lsl #12
	b.hs	.LBB29_120
	subs	x12, x10, #4
	b.lo	.LBB29_127
	cmp	x10, x8
	b.hi	.LBB29_154
	mov	w10, #109182976
	orr	w10, w11, w10
	rev	w10, w10
	str	w10, [x9, x12]
	mov	x10, x12
	b	.LBB29_127
.LBB29_120:
	lsr	w12, w11, #24
	cbnz	w12, .LBB29_124
	subs	x12, x10, #5
	b.lo	.LBB29_127
	cmp	x10, x8
	b.hi	.LBB29_154
	lsr	x10, x11, #16
	add	x13, x9, x12
	lsr	x15, x11, #8
	mov	w14, #33542
	strb	w11, [x13, #4]
	strb	w10, [x13, #2]
	mov	x10, x12
	strh	w14, [x13]
	strb	w15, [x13, #3]
	b	.LBB29_127
.LBB29_124:
	subs	x12, x10, #6
	b.lo	.LBB29_127
	cmp	x10, x8
	b.hi	.LBB29_154
	add	x13, x9, x12
	mov	w14, #33798
	lsr	x10, x11, #24
	lsr	x15, x11, #16
	strh	w14, [x13]
	lsr	x14, x11, #8
	strb	w10, [x13, #2]
	mov	x10, x12
	strb	w15, [x13, #3]
	strb	w14, [x13, #4]
	strb	w11, [x13, #5]
.LBB29_127:
	sub	x11, x8, x10
	cmp	w11, #128
	b.hs	.LBB29_131
	cmp	x10, #2
	b.lo	.LBB29_147
	cmp	x8, x10
	b.lo	.LBB29_154
	mov	w8, #48
	add	x9, x10, x9
	mov	w0, wzr
	orr	w8, w8, w11, lsl #8
	sturh	w8, [x9, #-2]
	b	.LBB29_148
.LBB29_131:
	cmp	w11, #256
	b.hs	.LBB29_135
	cmp	x10, #3
	b.lo	.LBB29_147
	cmp	x8, x10
	b.lo	.LBB29_154
	add	x8, x10, x9
	mov	w9, #33072
	mov	w0, wzr
	sturh	w9, [x8, #-3]
	sturb	w11, [x8, #-1]
	b	.LBB29_148
.LBB29_135:
	cmp	w11, #16, lsl #12
	b.hs	.LBB29_139
	cmp	x10, #4
	b.lo	.LBB29_147
	cmp	x8, x10
	b.lo	.LBB29_154
	mov	w8, #813826048
	add	x9, x10, x9
	mov	w0, wzr
	orr	w8, w11, w8
	rev	w8, w8
	stur	w8, [x9, #-4]
	b	.LBB29_148
.LBB29_139:
	lsr	w12, w11, #24
	cbnz	w12, .LBB29_143
	cmp	x10, #5
	b.lo	.LBB29_147
	cmp	x8, x10
	b.lo	.LBB29_154
	lsr	x8, x11, #16
	lsr	x12, x11, #8
	add	x9, x10, x9
	mov	w10, #33584
	sturh	w10, [x9, #-5]
	sturb	w8, [x9, #-3]
	sturb	w12, [x9, #-2]
	b	.LBB29_146
.LBB29_143:
	cmp	x10, #6
	b.lo	.LBB29_147
	cmp	x8, x10
	b.lo	.LBB29_154
	add	x9, x10, x9
	mov	w10, #33840
	lsr	x8, x11, #24
	lsr	x12, x11, #16
	sturh	w10, [x9, #-6]
	lsr	x10, x11, #8
	sturb	w8, [x9, #-4]
	sturb	w12, [x9, #-3]
	sturb	w10, [x9, #-2]
.LBB29_146:
	sturb	w11, [x9, #-1]
.LBB29_147:
	mov	w0, wzr
.LBB29_148:
	ldp	x20, x19, [sp, #304]
	ldp	x22, x21, [sp, #288]
	ldp	x24, x23, [sp, #272]
	ldp	x26, x25, [sp, #256]
	ldp	x29, x30, [sp, #240]
	add	sp, sp, #320
	.cfi_def_cfa_offset 0
	.cfi_restore w19
	.cfi_restore w20
	.cfi_restore w21
	.cfi_restore w22
	.cfi_restore w23
	.cfi_restore w24
	.cfi_restore w25
	.cfi_restore w26
	.cfi_restore w30
	.cfi_restore w29
	ret
.LBB29_149:
	.cfi_restore_state
	b.eq	.LBB29_151
	add	x1, sp, #216
	mov	w0, w19
	bl	_RINvNtNtNtCs00000000000_7pkcs1_c6proved12pkcs1_params6fields13prepend_fieldhNtNtNtB6_8der_core7counter7CounterEB8_
.LBB29_151:
	add	x0, x23, #40
	add	x1, sp, #216
	bl	_RINvNtNtNtCs00000000000_7pkcs1_c6proved12pkcs1_params6fields13prepend_fieldINtNtNtB6_9spki_core20algorithm_identifier21AlgorithmIdentifierOfNtNtB1g_15identifier_view14IdentifierViewIB1c_B2e_NtNtB1g_3any6AnyRefEENtNtNtB6_8der_core7counter7CounterEB8_
	mov	w25, wzr
	mov	w9, #1
	b	.LBB29_42
.LBB29_152:
	add	x1, sp, #216
	mov	w0, w19
	bl	_RINvNtNtNtCs00000000000_7pkcs1_c6proved12pkcs1_params6fields13prepend_fieldhNtNtNtB6_8der_core7counter7CounterEB8_
	mov	w24, wzr
	mov	w25, #1
	b	.LBB29_41
.LBB29_153:
	add	x1, sp, #216
	mov	w0, w19
	bl	_RINvNtNtNtCs00000000000_7pkcs1_c6proved12pkcs1_params6fields13prepend_fieldhNtNtNtB6_8der_core7counter7CounterEB8_
	mov	w24, wzr
	mov	w25, #1
	mov	w9, #1
	b	.LBB29_42
.LBB29_154:
	brk	#0x1
.Lfunc_end29:
	.size	pkcs1_c_pss_algorithm_encode, .Lfunc_end29-pkcs1_c_pss_algorithm_encode
	.cfi_endproc

	.section	.text.pkcs1_c_public_key_decode,"ax",@progbits
	.globl	pkcs1_c_public_key_decode
	.p2align	2
	.type	pkcs1_c_public_key_decode,@function
pkcs1_c_public_key_decode:
	.cfi_startproc
	hint	#34
	lsr	x8, x1, #32
	cbz	x8, .LBB30_2
	mov	w0, #8
	ret
.LBB30_2:
	sub	sp, sp, #80
	.cfi_def_cfa_offset 80
	str	x30, [sp, #32]
	stp	x22, x21, [sp, #48]
	stp	x20, x19, [sp, #64]
	.cfi_offset w19, -8
	.cfi_offset w20, -16
	.cfi_offset w21, -24
	.cfi_offset w22, -32
	.cfi_offset w30, -48
	.cfi_remember_state
	mov	x9, x1
	subs	x10, x1, #2
	b.lo	.LBB30_29
	mov	x1, x0
	ldrb	w8, [x1], #2
	cmp	w8, #48
	b.ne	.LBB30_29
	ldrsb	w8, [x0, #1]
	tbnz	w8, #31, .LBB30_14
	and	x8, x8, #0xff
	subs	x19, x10, x8
	b.lo	.LBB30_29
	cmp	x8, #2
	b.lo	.LBB30_69
.LBB30_7:
	mov	x20, x1
	ldrb	w9, [x20], #2
	cmp	w9, #2
	b.ne	.LBB30_69
	ldrsb	w10, [x1, #1]
	sub	x9, x8, #2
	tbnz	w10, #31, .LBB30_19
	and	x21, x10, #0xff
	subs	x9, x9, x21
	b.lo	.LBB30_69
	add	x1, x20, x21
	cbz	x21, .LBB30_71
.LBB30_11:
	ldrsb	w8, [x20]
	cbz	w8, .LBB30_36
.LBB30_12:
	tbz	w8, #31, .LBB30_40
	mov	w0, #14
	ldp	x20, x19, [sp, #64]
	ldr	x30, [sp, #32]
	ldp	x22, x21, [sp, #48]
	add	sp, sp, #80
	.cfi_def_cfa_offset 0
	.cfi_restore w19
	.cfi_restore w20
	.cfi_restore w21
	.cfi_restore w22
	.cfi_restore w30
	ret
.LBB30_14:
	.cfi_restore_state
	.cfi_remember_state
	and	w8, w8, #0xff
	cmp	w8, #130
	b.ne	.LBB30_24
	cmp	x10, #1
	b.ls	.LBB30_29
	ldrb	w8, [x0, #2]
	cbz	x8, .LBB30_29
	ldrb	w10, [x0, #3]
	orr	x8, x10, x8, lsl #8
	sub	x10, x9, #4
	subs	x19, x10, x8
	b.lo	.LBB30_29
	add	x1, x0, #4
	b	.LBB30_7
.LBB30_19:
	and	w10, w10, #0xff
	cmp	w10, #130
	b.ne	.LBB30_31
	cmp	x9, #1
	b.ls	.LBB30_69
	ldrb	w9, [x1, #2]
	cbz	x9, .LBB30_69
	ldrb	w10, [x1, #3]
	orr	x21, x10, x9, lsl #8
	sub	x9, x8, #4
	subs	x9, x9, x21
	b.lo	.LBB30_69
	add	x20, x1, #4
	add	x1, x20, x21
	ldrsb	w8, [x20]
	cbnz	w8, .LBB30_12
	b	.LBB30_36
.LBB30_24:
	cbz	x10, .LBB30_29
	cmp	w8, #129
	b.ne	.LBB30_29
	ldrsb	w8, [x1]
	tbz	w8, #31, .LBB30_29
	sub	x10, x9, #3
	and	x8, x8, #0xff
	subs	x19, x10, x8
	b.lo	.LBB30_29
	add	x1, x0, #3
	b	.LBB30_7
.LBB30_29:
	mov	x20, x2
	mov	x1, x0
	mov	x0, sp
	mov	x2, x9
	mov	w3, #48
	bl	_RNvNtNtNtCs00000000000_7pkcs1_c6proved8der_core5split14split_unlikely
	ldr	x1, [sp]
	cbz	x1, .LBB30_72
	ldr	x8, [sp, #8]
	ldr	x19, [sp, #24]
	mov	x2, x20
	cmp	x8, #2
	b.hs	.LBB30_7
	b	.LBB30_69
.LBB30_31:
	cbz	x9, .LBB30_68
	cmp	w10, #129
	b.ne	.LBB30_69
	ldrsb	w9, [x20]
	tbz	w9, #31, .LBB30_69
	sub	x10, x8, #3
	and	x21, x9, #0xff
	subs	x9, x10, x21
	b.lo	.LBB30_69
	add	x20, x1, #3
	add	x1, x20, x21
	ldrsb	w8, [x20]
	cbnz	w8, .LBB30_12
.LBB30_36:
	subs	x21, x21, #1
	b.eq	.LBB30_39
	ldrsb	w8, [x20, #1]!
	tbnz	w8, #31, .LBB30_40
	mov	w0, #5
	ldp	x20, x19, [sp, #64]
	ldr	x30, [sp, #32]
	ldp	x22, x21, [sp, #48]
	add	sp, sp, #80
	.cfi_def_cfa_offset 0
	.cfi_restore w19
	.cfi_restore w20
	.cfi_restore w21
	.cfi_restore w22
	.cfi_restore w30
	ret
.LBB30_39:
	.cfi_restore_state
	.cfi_remember_state
	mov	w21, #1
.LBB30_40:
	subs	x11, x9, #2
	b.lo	.LBB30_56
	mov	x8, x1
	ldrb	w10, [x8], #2
	cmp	w10, #2
	b.ne	.LBB30_56
	ldrsb	w10, [x1, #1]
	tbnz	w10, #31, .LBB30_46
	and	x10, x10, #0xff
	subs	x11, x11, x10
	b.lo	.LBB30_56
	cbnz	x10, .LBB30_58
.LBB30_45:
	mov	w0, #4
	ldp	x20, x19, [sp, #64]
	ldr	x30, [sp, #32]
	ldp	x22, x21, [sp, #48]
	add	sp, sp, #80
	.cfi_def_cfa_offset 0
	.cfi_restore w19
	.cfi_restore w20
	.cfi_restore w21
	.cfi_restore w22
	.cfi_restore w30
	ret
.LBB30_46:
	.cfi_restore_state
	.cfi_remember_state
	and	w10, w10, #0xff
	cmp	w10, #130
	b.ne	.LBB30_51
	cmp	x11, #1
	b.ls	.LBB30_56
	ldrb	w8, [x1, #2]
	cbz	x8, .LBB30_56
	ldrb	w10, [x1, #3]
	orr	x10, x10, x8, lsl #8
	sub	x8, x9, #4
	subs	x11, x8, x10
	b.lo	.LBB30_56
	add	x8, x1, #4
	b	.LBB30_58
.LBB30_51:
	cbz	x11, .LBB30_56
	cmp	w10, #129
	b.ne	.LBB30_56
	ldrsb	w8, [x8]
	tbz	w8, #31, .LBB30_56
	sub	x11, x9, #3
	and	x10, x8, #0xff
	subs	x11, x11, x10
	b.lo	.LBB30_56
	add	x8, x1, #3
	b	.LBB30_58
.LBB30_56:
	mov	x22, x2
	mov	x0, sp
	mov	x2, x9
	mov	w3, #2
	bl	_RNvNtNtNtCs00000000000_7pkcs1_c6proved8der_core5split14split_unlikely
	ldr	x8, [sp]
	cbz	x8, .LBB30_72
	ldr	x10, [sp, #8]
	ldr	x11, [sp, #24]
	mov	x2, x22
	cbz	x10, .LBB30_45
.LBB30_58:
	ldrsb	w9, [x8]
	cbz	w9, .LBB30_61
	tbz	w9, #31, .LBB30_65
	mov	w0, #14
	ldp	x20, x19, [sp, #64]
	ldr	x30, [sp, #32]
	ldp	x22, x21, [sp, #48]
	add	sp, sp, #80
	.cfi_def_cfa_offset 0
	.cfi_restore w19
	.cfi_restore w20
	.cfi_restore w21
	.cfi_restore w22
	.cfi_restore w30
	ret
.LBB30_61:
	.cfi_restore_state
	.cfi_remember_state
	subs	x10, x10, #1
	b.eq	.LBB30_64
	ldrsb	w9, [x8, #1]!
	tbnz	w9, #31, .LBB30_65
	mov	w0, #5
	ldp	x20, x19, [sp, #64]
	ldr	x30, [sp, #32]
	ldp	x22, x21, [sp, #48]
	add	sp, sp, #80
	.cfi_def_cfa_offset 0
	.cfi_restore w19
	.cfi_restore w20
	.cfi_restore w21
	.cfi_restore w22
	.cfi_restore w30
	ret
.LBB30_64:
	.cfi_restore_state
	.cfi_remember_state
	mov	w10, #1
.LBB30_65:
	orr	x9, x11, x19
	cbnz	x9, .LBB30_67
	mov	w0, wzr
	stp	x20, x21, [x2]
	stp	x8, x10, [x2, #16]
	ldp	x20, x19, [sp, #64]
	ldr	x30, [sp, #32]
	ldp	x22, x21, [sp, #48]
	add	sp, sp, #80
	.cfi_def_cfa_offset 0
	.cfi_restore w19
	.cfi_restore w20
	.cfi_restore w21
	.cfi_restore w22
	.cfi_restore w30
	ret
.LBB30_67:
	.cfi_restore_state
	.cfi_remember_state
	mov	w0, #13
	ldp	x20, x19, [sp, #64]
	ldr	x30, [sp, #32]
	ldp	x22, x21, [sp, #48]
	add	sp, sp, #80
	.cfi_def_cfa_offset 0
	.cfi_restore w19
	.cfi_restore w20
	.cfi_restore w21
	.cfi_restore w22
	.cfi_restore w30
	ret
.LBB30_68:
	.cfi_restore_state
	.cfi_remember_state
	mov	w8, #2
.LBB30_69:
	mov	x22, x2
	mov	x0, sp
	mov	x2, x8
	mov	w3, #2
	bl	_RNvNtNtNtCs00000000000_7pkcs1_c6proved8der_core5split14split_unlikely
	ldr	x20, [sp]
	cbz	x20, .LBB30_72
	ldp	x21, x1, [sp, #8]
	mov	x2, x22
	ldr	x9, [sp, #24]
	cbnz	x21, .LBB30_11
.LBB30_71:
	mov	w0, #4
	ldp	x20, x19, [sp, #64]
	ldr	x30, [sp, #32]
	ldp	x22, x21, [sp, #48]
	add	sp, sp, #80
	.cfi_def_cfa_offset 0
	.cfi_restore w19
	.cfi_restore w20
	.cfi_restore w21
	.cfi_restore w22
	.cfi_restore w30
	ret
.LBB30_72:
	.cfi_restore_state
	.cfi_remember_state
	ldrb	w8, [sp, #10]
	ldrh	w9, [sp, #8]
	orr	w8, w9, w8, lsl #16
	sub	w9, w8, #17
	and	w10, w9, #0xff
	and	x9, x9, #0xff
	cmp	w10, #3
	csinc	x9, xzr, x9, hs
	cmp	x9, #1
	b.gt	.LBB30_75
	cbnz	x9, .LBB30_77
	and	w8, w8, #0xff
	add	w0, w8, #1
	ldp	x20, x19, [sp, #64]
	ldr	x30, [sp, #32]
	ldp	x22, x21, [sp, #48]
	add	sp, sp, #80
	.cfi_def_cfa_offset 0
	.cfi_restore w19
	.cfi_restore w20
	.cfi_restore w21
	.cfi_restore w22
	.cfi_restore w30
	ret
.LBB30_75:
	.cfi_restore_state
	.cfi_remember_state
	cmp	x9, #2
	b.ne	.LBB30_78
	mov	w0, #19
	ldp	x20, x19, [sp, #64]
	ldr	x30, [sp, #32]
	ldp	x22, x21, [sp, #48]
	add	sp, sp, #80
	.cfi_def_cfa_offset 0
	.cfi_restore w19
	.cfi_restore w20
	.cfi_restore w21
	.cfi_restore w22
	.cfi_restore w30
	ret
.LBB30_77:
	.cfi_restore_state
	.cfi_remember_state
	mov	w0, #18
	ldp	x20, x19, [sp, #64]
	ldr	x30, [sp, #32]
	ldp	x22, x21, [sp, #48]
	add	sp, sp, #80
	.cfi_def_cfa_offset 0
	.cfi_restore w19
	.cfi_restore w20
	.cfi_restore w21
	.cfi_restore w22
	.cfi_restore w30
	ret
.LBB30_78:
	.cfi_restore_state
	mov	w0, #20
	ldp	x20, x19, [sp, #64]
	ldr	x30, [sp, #32]
	ldp	x22, x21, [sp, #48]
	add	sp, sp, #80
	.cfi_def_cfa_offset 0
	.cfi_restore w19
	.cfi_restore w20
	.cfi_restore w21
	.cfi_restore w22
	.cfi_restore w30
	ret
.Lfunc_end30:
	.size	pkcs1_c_public_key_decode, .Lfunc_end30-pkcs1_c_public_key_decode
	.cfi_endproc

	.section	.text.pkcs1_c_public_key_encode,"ax",@progbits
	.globl	pkcs1_c_public_key_encode
	.p2align	2
	.type	pkcs1_c_public_key_encode,@function
pkcs1_c_public_key_encode:
	.cfi_startproc
	hint	#34
	stp	x30, x25, [sp, #-64]!
	.cfi_def_cfa_offset 64
	stp	x24, x23, [sp, #16]
	stp	x22, x21, [sp, #32]
	stp	x20, x19, [sp, #48]
	.cfi_offset w19, -8
	.cfi_offset w20, -16
	.cfi_offset w21, -24
	.cfi_offset w22, -32
	.cfi_offset w23, -40
	.cfi_offset w24, -48
	.cfi_offset w25, -56
	.cfi_offset w30, -64
	.cfi_remember_state
	ldp	x20, x19, [x0]
	cmp	x19, #2
	b.lo	.LBB31_6
	add	x8, x20, x19
	sub	x8, x8, #1
.LBB31_2:
	ldrb	w9, [x20]
	cbnz	w9, .LBB31_8
	sub	x19, x19, #1
	add	x20, x20, #1
	cmp	x19, #1
	b.hi	.LBB31_2
	cbz	x8, .LBB31_14
	mov	w19, #1
	mov	x20, x8
	b	.LBB31_9
.LBB31_6:
	cbz	x19, .LBB31_17
	mov	w19, #1
	b	.LBB31_9
.LBB31_8:
	lsr	x8, x19, #32
	cbnz	x8, .LBB31_19
.LBB31_9:
	ldp	x8, x9, [x0, #16]
	cmp	x9, #2
	b.lo	.LBB31_15
	add	x10, x8, x9
	sub	x10, x10, #1
.LBB31_11:
	ldrb	w23, [x8]
	cbnz	w23, .LBB31_18
	sub	x9, x9, #1
	add	x8, x8, #1
	cmp	x9, #1
	b.hi	.LBB31_11
	mov	x8, x10
	cbnz	x10, .LBB31_16
.LBB31_14:
	mov	w0, #2
	ldp	x20, x19, [sp, #48]
	ldp	x22, x21, [sp, #32]
	ldp	x24, x23, [sp, #16]
	ldp	x30, x25, [sp], #64
	.cfi_def_cfa_offset 0
	.cfi_restore w19
	.cfi_restore w20
	.cfi_restore w21
	.cfi_restore w22
	.cfi_restore w23
	.cfi_restore w24
	.cfi_restore w25
	.cfi_restore w30
	ret
.LBB31_15:
	.cfi_restore_state
	.cfi_remember_state
	cbz	x9, .LBB31_17
.LBB31_16:
	ldrb	w23, [x8]
	mov	w9, #1
	b	.LBB31_20
.LBB31_17:
	mov	w0, #4
	ldp	x20, x19, [sp, #48]
	ldp	x22, x21, [sp, #32]
	ldp	x24, x23, [sp, #16]
	ldp	x30, x25, [sp], #64
	.cfi_def_cfa_offset 0
	.cfi_restore w19
	.cfi_restore w20
	.cfi_restore w21
	.cfi_restore w22
	.cfi_restore w23
	.cfi_restore w24
	.cfi_restore w25
	.cfi_restore w30
	ret
.LBB31_18:
	.cfi_restore_state
	.cfi_remember_state
	lsr	x10, x9, #32
	cbz	x10, .LBB31_20
.LBB31_19:
	mov	w0, #8
	ldp	x20, x19, [sp, #48]
	ldp	x22, x21, [sp, #32]
	ldp	x24, x23, [sp, #16]
	ldp	x30, x25, [sp], #64
	.cfi_def_cfa_offset 0
	.cfi_restore w19
	.cfi_restore w20
	.cfi_restore w21
	.cfi_restore w22
	.cfi_restore w23
	.cfi_restore w24
	.cfi_restore w25
	.cfi_restore w30
	ret
.LBB31_20:
	.cfi_restore_state
	.cfi_remember_state
	lsr	w10, w23, #7
	add	x10, x9, x10
	cmp	x10, #128
	b.hs	.LBB31_22
	mov	w11, #2
	b	.LBB31_27
.LBB31_22:
	cmp	x10, #256
	b.hs	.LBB31_24
	mov	w11, #3
	b	.LBB31_27
.LBB31_24:
	cmp	x10, #16, lsl #12
	b.hs	.LBB31_26
	mov	w11, #4
	b	.LBB31_27
.LBB31_26:
	lsr	x11, x10, #24
	cmp	x11, #0
	mov	w11, #5
	cinc	x11, x11, ne
.LBB31_27:
	add	x10, x10, x11
	ldrb	w22, [x20]
	add	x11, x10, x19
	add	x11, x11, x22, lsr #7
	subs	x11, x11, x10
	csel	x11, xzr, x11, lo
	cmp	x11, #128
	b.hs	.LBB31_31
	add	x11, x11, #2
	adds	x10, x10, x11
	csinv	x10, x10, xzr, lo
	cmp	x10, #128
	b.lo	.LBB31_32
.LBB31_29:
	cmp	x10, #256
	b.hs	.LBB31_42
	add	x21, x10, #3
	b	.LBB31_33
.LBB31_31:
	lsr	x12, x11, #24
	adds	x13, x11, #6
	add	x14, x11, #5
	csinv	x13, x13, xzr, lo
	cmp	x12, #0
	add	x12, x11, #4
	csel	x13, x14, x13, eq
	cmp	x11, #16, lsl #12
	add	x14, x11, #3
	csel	x12, x12, x13, lo
	cmp	x11, #256
	csel	x11, x14, x12, lo
	adds	x10, x10, x11
	csinv	x10, x10, xzr, lo
	cmp	x10, #128
	b.hs	.LBB31_29
.LBB31_32:
	add	x21, x10, #2
.LBB31_33:
	cmp	x21, x2
	str	x21, [x3]
	b.ls	.LBB31_35
	mov	w0, #15
	ldp	x20, x19, [sp, #48]
	ldp	x22, x21, [sp, #32]
	ldp	x24, x23, [sp, #16]
	ldp	x30, x25, [sp], #64
	.cfi_def_cfa_offset 0
	.cfi_restore w19
	.cfi_restore w20
	.cfi_restore w21
	.cfi_restore w22
	.cfi_restore w23
	.cfi_restore w24
	.cfi_restore w25
	.cfi_restore w30
	ret
.LBB31_35:
	.cfi_restore_state
	.cfi_remember_state
	subs	x25, x21, x9
	mov	x24, x21
	b.lo	.LBB31_37
	add	x0, x1, x25
	mov	x24, x1
	mov	x1, x8
	mov	x2, x9
	bl	memcpy
	mov	x1, x24
	mov	x24, x25
.LBB31_37:
	tbnz	w23, #7, .LBB31_44
	sub	x8, x21, x24
	cmp	w8, #128
	b.hs	.LBB31_47
.LBB31_39:
	subs	x9, x24, #2
	b.lo	.LBB31_66
	cmp	x21, x24
	b.lo	.LBB31_116
	mov	w10, #2
	mov	x24, x9
	orr	w8, w10, w8, lsl #8
	strh	w8, [x1, x9]
	b	.LBB31_66
.LBB31_42:
	cmp	x10, #16, lsl #12
	b.hs	.LBB31_51
	add	x21, x10, #4
	b	.LBB31_33
.LBB31_44:
	cbz	x24, .LBB31_57
	cmp	x24, x21
	b.hi	.LBB31_116
	sub	x24, x24, #1
	strb	wzr, [x1, x24]
	sub	x8, x21, x24
	cmp	w8, #128
	b.lo	.LBB31_39
.LBB31_47:
	cmp	w8, #256
	b.hs	.LBB31_53
	subs	x9, x24, #3
	b.lo	.LBB31_66
	cmp	x21, x24
	b.lo	.LBB31_116
	add	x10, x1, x9
	mov	w11, #33026
	mov	x24, x9
	strh	w11, [x10]
	strb	w8, [x10, #2]
	b	.LBB31_66
.LBB31_51:
	lsr	x11, x10, #24
	cbnz	x11, .LBB31_58
	add	x21, x10, #5
	b	.LBB31_33
.LBB31_53:
	cmp	w8, #16, lsl #12
	b.hs	.LBB31_59
	subs	x9, x24, #4
	b.lo	.LBB31_66
	cmp	x21, x24
	b.lo	.LBB31_116
	mov	w10, #42074112
	mov	x24, x9
	orr	w8, w8, w10
	rev	w8, w8
	str	w8, [x1, x9]
	b	.LBB31_66
.LBB31_57:
	mov	x8, xzr
	b	.LBB31_73
.LBB31_58:
	adds	x10, x10, #6
	csinv	x21, x10, xzr, lo
	lsr	x10, x21, #32
	cbz	x10, .LBB31_33
	b	.LBB31_19
.LBB31_59:
	lsr	w9, w8, #24
	cbnz	w9, .LBB31_63
	subs	x9, x24, #5
	b.lo	.LBB31_66
	cmp	x21, x24
	b.lo	.LBB31_116
	lsr	x10, x8, #16
	lsr	x13, x8, #8
	add	x11, x1, x9
	mov	w12, #33538
	mov	x24, x9
	strb	w8, [x11, #4]
	strh	w12, [x11]
	strb	w10, [x11, #2]
	strb	w13, [x11, #3]
	b	.LBB31_66
.LBB31_63:
	subs	x9, x24, #6
	b.lo	.LBB31_66
	cmp	x21, x24
	b.lo	.LBB31_116
	add	x11, x1, x9
	mov	w12, #33794
	lsr	x10, x8, #24
	lsr	x13, x8, #16
	strh	w12, [x11]
	lsr	x12, x8, #8
	strb	w10, [x11, #2]
	mov	x24, x9
	strb	w13, [x11, #3]
	strb	w12, [x11, #4]
	strb	w8, [x11, #5]
.LBB31_66:
	subs	x23, x24, x19
	mov	x8, x24
	b.lo	.LBB31_69
	cmp	x24, x21
	b.hi	.LBB31_116
	add	x0, x1, x23
	mov	x25, x1
	mov	x1, x20
	mov	x2, x19
	bl	memcpy
	mov	x1, x25
	mov	x8, x23
.LBB31_69:
	sxtb	w9, w22
	tbz	w9, #31, .LBB31_73
	cbz	x8, .LBB31_73
	cmp	x8, x21
	b.hi	.LBB31_116
	sub	x8, x8, #1
	strb	wzr, [x1, x8]
.LBB31_73:
	sub	x9, x24, x8
	cmp	w9, #128
	b.hs	.LBB31_77
	subs	x10, x8, #2
	b.lo	.LBB31_92
	cmp	x8, x21
	b.hi	.LBB31_116
	mov	w8, #2
	orr	w8, w8, w9, lsl #8
	strh	w8, [x1, x10]
	mov	x8, x10
	b	.LBB31_92
.LBB31_77:
	cmp	w9, #256
	b.hs	.LBB31_81
	subs	x10, x8, #3
	b.lo	.LBB31_92
	cmp	x8, x21
	b.hi	.LBB31_116
	add	x8, x1, x10
	mov	w11, #33026
	strh	w11, [x8]
	strb	w9, [x8, #2]
	mov	x8, x10
	b	.LBB31_92
.LBB31_81:
	cmp	w9, #16, lsl #12
	b.hs	.LBB31_85
	subs	x10, x8, #4
	b.lo	.LBB31_92
	cmp	x8, x21
	b.hi	.LBB31_116
	mov	w8, #42074112
	orr	w8, w9, w8
	rev	w8, w8
	str	w8, [x1, x10]
	mov	x8, x10
	b	.LBB31_92
.LBB31_85:
	lsr	w10, w9, #24
	cbnz	w10, .LBB31_89
	subs	x10, x8, #5
	b.lo	.LBB31_92
	cmp	x8, x21
	b.hi	.LBB31_116
	lsr	x8, x9, #16
	add	x11, x1, x10
	lsr	x13, x9, #8
	mov	w12, #33538
	strb	w9, [x11, #4]
	strb	w8, [x11, #2]
	mov	x8, x10
	strh	w12, [x11]
	strb	w13, [x11, #3]
	b	.LBB31_92
.LBB31_89:
	subs	x10, x8, #6
	b.lo	.LBB31_92
	cmp	x8, x21
	b.hi	.LBB31_116
	add	x11, x1, x10
	mov	w12, #33794
	lsr	x8, x9, #24
	lsr	x13, x9, #16
	strh	w12, [x11]
	lsr	x12, x9, #8
	strb	w8, [x11, #2]
	mov	x8, x10
	strb	w13, [x11, #3]
	strb	w12, [x11, #4]
	strb	w9, [x11, #5]
.LBB31_92:
	sub	x9, x21, x8
	cmp	w9, #128
	b.hs	.LBB31_95
	cmp	x8, #2
	b.hs	.LBB31_98
	mov	w0, wzr
	ldp	x20, x19, [sp, #48]
	ldp	x22, x21, [sp, #32]
	ldp	x24, x23, [sp, #16]
	ldp	x30, x25, [sp], #64
	.cfi_def_cfa_offset 0
	.cfi_restore w19
	.cfi_restore w20
	.cfi_restore w21
	.cfi_restore w22
	.cfi_restore w23
	.cfi_restore w24
	.cfi_restore w25
	.cfi_restore w30
	ret
.LBB31_95:
	.cfi_restore_state
	.cfi_remember_state
	cmp	w9, #256
	b.hs	.LBB31_100
	cmp	x8, #3
	b.hs	.LBB31_103
	mov	w0, wzr
	ldp	x20, x19, [sp, #48]
	ldp	x22, x21, [sp, #32]
	ldp	x24, x23, [sp, #16]
	ldp	x30, x25, [sp], #64
	.cfi_def_cfa_offset 0
	.cfi_restore w19
	.cfi_restore w20
	.cfi_restore w21
	.cfi_restore w22
	.cfi_restore w23
	.cfi_restore w24
	.cfi_restore w25
	.cfi_restore w30
	ret
.LBB31_98:
	.cfi_restore_state
	.cfi_remember_state
	cmp	x21, x8
	b.lo	.LBB31_116
	mov	w10, #48
	add	x8, x1, x8
	mov	w0, wzr
	orr	w9, w10, w9, lsl #8
	sturh	w9, [x8, #-2]
	ldp	x20, x19, [sp, #48]
	ldp	x22, x21, [sp, #32]
	ldp	x24, x23, [sp, #16]
	ldp	x30, x25, [sp], #64
	.cfi_def_cfa_offset 0
	.cfi_restore w19
	.cfi_restore w20
	.cfi_restore w21
	.cfi_restore w22
	.cfi_restore w23
	.cfi_restore w24
	.cfi_restore w25
	.cfi_restore w30
	ret
.LBB31_100:
	.cfi_restore_state
	.cfi_remember_state
	cmp	w9, #16, lsl #12
	b.hs	.LBB31_105
	cmp	x8, #4
	b.hs	.LBB31_108
	mov	w0, wzr
	ldp	x20, x19, [sp, #48]
	ldp	x22, x21, [sp, #32]
	ldp	x24, x23, [sp, #16]
	ldp	x30, x25, [sp], #64
	.cfi_def_cfa_offset 0
	.cfi_restore w19
	.cfi_restore w20
	.cfi_restore w21
	.cfi_restore w22
	.cfi_restore w23
	.cfi_restore w24
	.cfi_restore w25
	.cfi_restore w30
	ret
.LBB31_103:
	.cfi_restore_state
	.cfi_remember_state
	cmp	x21, x8
	b.lo	.LBB31_116
	add	x8, x1, x8
	mov	w10, #33072
	mov	w0, wzr
	sturh	w10, [x8, #-3]
	sturb	w9, [x8, #-1]
	ldp	x20, x19, [sp, #48]
	ldp	x22, x21, [sp, #32]
	ldp	x24, x23, [sp, #16]
	ldp	x30, x25, [sp], #64
	.cfi_def_cfa_offset 0
	.cfi_restore w19
	.cfi_restore w20
	.cfi_restore w21
	.cfi_restore w22
	.cfi_restore w23
	.cfi_restore w24
	.cfi_restore w25
	.cfi_restore w30
	ret
.LBB31_105:
	.cfi_restore_state
	.cfi_remember_state
	lsr	w10, w9, #24
	cbnz	w10, .LBB31_110
	cmp	x8, #5
	b.hs	.LBB31_112
	mov	w0, wzr
	ldp	x20, x19, [sp, #48]
	ldp	x22, x21, [sp, #32]
	ldp	x24, x23, [sp, #16]
	ldp	x30, x25, [sp], #64
	.cfi_def_cfa_offset 0
	.cfi_restore w19
	.cfi_restore w20
	.cfi_restore w21
	.cfi_restore w22
	.cfi_restore w23
	.cfi_restore w24
	.cfi_restore w25
	.cfi_restore w30
	ret
.LBB31_108:
	.cfi_restore_state
	.cfi_remember_state
	cmp	x21, x8
	b.lo	.LBB31_116
	mov	w10, #813826048
	add	x8, x1, x8
	mov	w0, wzr
	orr	w9, w9, w10
	rev	w9, w9
	stur	w9, [x8, #-4]
	ldp	x20, x19, [sp, #48]
	ldp	x22, x21, [sp, #32]
	ldp	x24, x23, [sp, #16]
	ldp	x30, x25, [sp], #64
	.cfi_def_cfa_offset 0
	.cfi_restore w19
	.cfi_restore w20
	.cfi_restore w21
	.cfi_restore w22
	.cfi_restore w23
	.cfi_restore w24
	.cfi_restore w25
	.cfi_restore w30
	ret
.LBB31_110:
	.cfi_restore_state
	.cfi_remember_state
	cmp	x8, #6
	b.hs	.LBB31_114
	mov	w0, wzr
	ldp	x20, x19, [sp, #48]
	ldp	x22, x21, [sp, #32]
	ldp	x24, x23, [sp, #16]
	ldp	x30, x25, [sp], #64
	.cfi_def_cfa_offset 0
	.cfi_restore w19
	.cfi_restore w20
	.cfi_restore w21
	.cfi_restore w22
	.cfi_restore w23
	.cfi_restore w24
	.cfi_restore w25
	.cfi_restore w30
	ret
.LBB31_112:
	.cfi_restore_state
	.cfi_remember_state
	cmp	x21, x8
	b.lo	.LBB31_116
	lsr	x10, x9, #16
	lsr	x12, x9, #8
	mov	w0, wzr
	add	x8, x1, x8
	mov	w11, #33584
	sturh	w11, [x8, #-5]
	sturb	w10, [x8, #-3]
	sturb	w12, [x8, #-2]
	sturb	w9, [x8, #-1]
	ldp	x20, x19, [sp, #48]
	ldp	x22, x21, [sp, #32]
	ldp	x24, x23, [sp, #16]
	ldp	x30, x25, [sp], #64
	.cfi_def_cfa_offset 0
	.cfi_restore w19
	.cfi_restore w20
	.cfi_restore w21
	.cfi_restore w22
	.cfi_restore w23
	.cfi_restore w24
	.cfi_restore w25
	.cfi_restore w30
	ret
.LBB31_114:
	.cfi_restore_state
	.cfi_remember_state
	cmp	x21, x8
	b.lo	.LBB31_116
	add	x8, x1, x8
	mov	w11, #33840
	lsr	x10, x9, #24
	lsr	x12, x9, #16
	sturh	w11, [x8, #-6]
	lsr	x11, x9, #8
	mov	w0, wzr
	sturb	w10, [x8, #-4]
	sturb	w12, [x8, #-3]
	sturb	w11, [x8, #-2]
	sturb	w9, [x8, #-1]
	ldp	x20, x19, [sp, #48]
	ldp	x22, x21, [sp, #32]
	ldp	x24, x23, [sp, #16]
	ldp	x30, x25, [sp], #64
	.cfi_def_cfa_offset 0
	.cfi_restore w19
	.cfi_restore w20
	.cfi_restore w21
	.cfi_restore w22
	.cfi_restore w23
	.cfi_restore w24
	.cfi_restore w25
	.cfi_restore w30
	ret
.LBB31_116:
	.cfi_restore_state
	brk	#0x1
.Lfunc_end31:
	.size	pkcs1_c_public_key_encode, .Lfunc_end31-pkcs1_c_public_key_encode
	.cfi_endproc

	.section	.text.pkcs1_c_status_text,"ax",@progbits
	.globl	pkcs1_c_status_text
	.p2align	2
	.type	pkcs1_c_status_text,@function
pkcs1_c_status_text:
	.cfi_startproc
	hint	#34
	cmp	w0, #21
	b.hi	.LBB32_2
	adrp	x8, .Lswitch.table.pkcs1_c_status_text
	add	x8, x8, :lo12:.Lswitch.table.pkcs1_c_status_text
	adrp	x9, .Lswitch.table.pkcs1_c_status_text.20
	add	x9, x9, :lo12:.Lswitch.table.pkcs1_c_status_text.20
	ldr	x8, [x8, w0, uxtw #3]
	ldr	x9, [x9, w0, uxtw #3]
	stp	x9, x8, [x1]
	ret
.LBB32_2:
	adrp	x9, .Lanon.3
	add	x9, x9, :lo12:.Lanon.3
	mov	w8, #14
	stp	x9, x8, [x1]
	ret
.Lfunc_end32:
	.size	pkcs1_c_status_text, .Lfunc_end32-pkcs1_c_status_text
	.cfi_endproc

	.section	.text.pkcs1_c_version,"ax",@progbits
	.globl	pkcs1_c_version
	.p2align	2
	.type	pkcs1_c_version,@function
pkcs1_c_version:
	.cfi_startproc
	hint	#34
	adrp	x8, .Lanon.4
	add	x8, x8, :lo12:.Lanon.4
	mov	w9, #6
	stp	x8, x9, [x0]
	ret
.Lfunc_end33:
	.size	pkcs1_c_version, .Lfunc_end33-pkcs1_c_version
	.cfi_endproc

	.section	.text._RNvNtNtNtNtCs00000000000_7pkcs1_c6proved8der_core7integer5small5small,"ax",@progbits
	.p2align	2
	.type	_RNvNtNtNtNtCs00000000000_7pkcs1_c6proved8der_core7integer5small5small,@function
_RNvNtNtNtNtCs00000000000_7pkcs1_c6proved8der_core7integer5small5small:
	.cfi_startproc
	cbz	x1, .LBB34_4
	ldrsb	w8, [x0]
	cbz	w8, .LBB34_5
	tbz	w8, #31, .LBB34_8
	mov	w0, #13
	mov	w8, #2
	bfi	w0, w8, #8, #8
	ret
.LBB34_4:
	mov	w0, #3
	mov	w8, #2
	bfi	w0, w8, #8, #8
	ret
.LBB34_5:
	ldrsb	w8, [x0, #1]
	tbnz	w8, #31, .LBB34_7
	mov	w0, #4
	mov	w8, #2
	bfi	w0, w8, #8, #8
	ret
.LBB34_7:
	sub	x1, x1, #1
.LBB34_8:
	cmp	x1, #1
	mov	w9, #2
	mov	w10, #17
	mov	w11, #13
	csel	w8, w9, w8, hi
	csel	w0, w11, w10, hi
	bfi	w0, w8, #8, #8
	ret
.Lfunc_end34:
	.size	_RNvNtNtNtNtCs00000000000_7pkcs1_c6proved8der_core7integer5small5small, .Lfunc_end34-_RNvNtNtNtNtCs00000000000_7pkcs1_c6proved8der_core7integer5small5small
	.cfi_endproc

	.section	.text.unlikely._RNvNtNtNtCs00000000000_7pkcs1_c6proved8der_core5split14split_unlikely,"ax",@progbits
	.p2align	2
	.type	_RNvNtNtNtCs00000000000_7pkcs1_c6proved8der_core5split14split_unlikely,@function
_RNvNtNtNtCs00000000000_7pkcs1_c6proved8der_core5split14split_unlikely:
	.cfi_startproc
	lsr	x8, x2, #32
	cbz	x8, .LBB35_2
	mov	w8, #7
	strb	w8, [x0, #8]
	str	xzr, [x0]
	ret
.LBB35_2:
	cbz	x2, .LBB35_6
	ldrb	w8, [x1]
	mov	w9, #31
	bics	wzr, w9, w8
	b.eq	.LBB35_7
	and	w9, w8, #0xffffffdf
	cbz	w9, .LBB35_7
	cmp	x2, #1
	b.ne	.LBB35_8
.LBB35_6:
	mov	w8, #1
	strb	wzr, [x0, #10]
	strh	w8, [x0, #8]
	str	xzr, [x0]
	ret
.LBB35_7:
	mov	w9, #11
	orr	w8, w9, w8, lsl #8
	strb	wzr, [x0, #10]
	strh	w8, [x0, #8]
	str	xzr, [x0]
	ret
.LBB35_8:
	ldrsb	w12, [x1, #1]
	add	x10, x1, #2
	sub	x9, x2, #2
	and	x11, x12, #0xff
	tbnz	w12, #31, .LBB35_12
	and	w12, w3, #0xff
	cmp	w8, w12
	b.ne	.LBB35_32
.LBB35_10:
	subs	x8, x9, x11
	b.hs	.LBB35_16
	mov	w8, #1
	strb	w8, [x0, #8]
	str	xzr, [x0]
	ret
.LBB35_12:
	and	w12, w12, #0xff
	cmp	w12, #128
	b.ne	.LBB35_14
	mov	w8, #2
	strb	wzr, [x0, #10]
	strh	w8, [x0, #8]
	str	xzr, [x0]
	ret
.LBB35_14:
	cmp	w12, #132
	b.ls	.LBB35_17
	mov	w8, #7
	strb	wzr, [x0, #10]
	strh	w8, [x0, #8]
	str	xzr, [x0]
	ret
.LBB35_16:
	add	x9, x10, x11
	stp	x10, x11, [x0]
	stp	x9, x8, [x0, #16]
	ret
.LBB35_17:
	and	x11, x11, #0x7f
	subs	x9, x9, x11
	b.lo	.LBB35_6
	cbz	w11, .LBB35_26
	cmp	w11, #1
	add	x12, x10, x11
	b.ne	.LBB35_22
	ldrsb	w10, [x10]
	tbz	w10, #31, .LBB35_26
	and	x11, x10, #0xff
	b	.LBB35_31
.LBB35_22:
	ldrb	w10, [x10]
	cbz	x10, .LBB35_26
	cmp	w11, #2
	b.eq	.LBB35_27
	cmp	w11, #3
	b.ne	.LBB35_28
	lsl	x10, x10, #16
	ldrb	w11, [x1, #3]
	orr	x10, x10, x11, lsl #8
	ldrb	w11, [x1, #4]
	b	.LBB35_30
.LBB35_26:
	mov	w8, #8
	strb	wzr, [x0, #10]
	strh	w8, [x0, #8]
	str	xzr, [x0]
	ret
.LBB35_27:
	ldrb	w11, [x1, #3]
	orr	x11, x11, x10, lsl #8
	b	.LBB35_31
.LBB35_28:
	cmp	w11, #4
	b.ne	.LBB35_33
	lsl	x10, x10, #24
	ldrb	w11, [x1, #3]
	orr	x10, x10, x11, lsl #16
	ldrb	w11, [x1, #4]
	orr	x10, x10, x11, lsl #8
	ldrb	w11, [x1, #5]
.LBB35_30:
	orr	x11, x10, x11
.LBB35_31:
	mov	x10, x12
	and	w12, w3, #0xff
	cmp	w8, w12
	b.eq	.LBB35_10
.LBB35_32:
	mov	w9, #10
	strb	w12, [x0, #9]
	strb	w9, [x0, #8]
	strb	w8, [x0, #10]
	str	xzr, [x0]
	ret
.LBB35_33:
	str	x30, [sp, #-16]!
	.cfi_def_cfa_offset 16
	.cfi_offset w30, -16
	brk	#0x1
.Lfunc_end35:
	.size	_RNvNtNtNtCs00000000000_7pkcs1_c6proved8der_core5split14split_unlikely, .Lfunc_end35-_RNvNtNtNtCs00000000000_7pkcs1_c6proved8der_core5split14split_unlikely
	.cfi_endproc

	.section	.text._RINvNtNtNtCs00000000000_7pkcs1_c6proved12pkcs1_params6fields13prepend_fieldINtNtNtB6_9spki_core20algorithm_identifier21AlgorithmIdentifierOfNtNtB1g_15identifier_view14IdentifierViewIB1c_B2e_NtNtB1g_3any6AnyRefEENtNtNtB6_8der_core11back_writer10BackWriterEB8_,"ax",@progbits
	.p2align	2
	.type	_RINvNtNtNtCs00000000000_7pkcs1_c6proved12pkcs1_params6fields13prepend_fieldINtNtNtB6_9spki_core20algorithm_identifier21AlgorithmIdentifierOfNtNtB1g_15identifier_view14IdentifierViewIB1c_B2e_NtNtB1g_3any6AnyRefEENtNtNtB6_8der_core11back_writer10BackWriterEB8_,@function
_RINvNtNtNtCs00000000000_7pkcs1_c6proved12pkcs1_params6fields13prepend_fieldINtNtNtB6_9spki_core20algorithm_identifier21AlgorithmIdentifierOfNtNtB1g_15identifier_view14IdentifierViewIB1c_B2e_NtNtB1g_3any6AnyRefEENtNtNtB6_8der_core11back_writer10BackWriterEB8_:
	.cfi_startproc
	stp	x29, x30, [sp, #-96]!
	.cfi_def_cfa_offset 96
	stp	x28, x27, [sp, #16]
	stp	x26, x25, [sp, #32]
	stp	x24, x23, [sp, #48]
	stp	x22, x21, [sp, #64]
	stp	x20, x19, [sp, #80]
	.cfi_offset w19, -8
	.cfi_offset w20, -16
	.cfi_offset w21, -24
	.cfi_offset w22, -32
	.cfi_offset w23, -40
	.cfi_offset w24, -48
	.cfi_offset w25, -56
	.cfi_offset w26, -64
	.cfi_offset w27, -72
	.cfi_offset w28, -80
	.cfi_offset w30, -88
	.cfi_offset w29, -96
	.cfi_remember_state
	ldp	x25, x26, [x1, #8]
	mov	x19, x1
	ldp	x21, x22, [x0, #8]
	ldr	x20, [x0]
	ldr	x24, [x1]
	mov	x27, x26
	cbz	x22, .LBB36_67
	ldp	x23, x1, [x0, #24]
	cbz	x1, .LBB36_25
	ldr	x2, [x0, #40]
	subs	x28, x26, x2
	b.lo	.LBB36_5
	cmp	x26, x25
	b.hi	.LBB36_128
	mov	x29, x0
	add	x0, x24, x28
	bl	memcpy
	mov	x27, x28
	mov	x0, x29
.LBB36_5:
	sub	x8, x26, x27
	ldr	x9, [x0, #48]
	str	x27, [x19, #16]
	cmp	w8, #128
	b.hs	.LBB36_9
	subs	x10, x27, #2
	b.lo	.LBB36_24
	cmp	x27, x25
	b.hi	.LBB36_128
	bfi	w9, w8, #8, #24
	mov	x27, x10
	strh	w9, [x24, x10]
	b	.LBB36_24
.LBB36_9:
	cmp	w8, #256
	b.hs	.LBB36_13
	subs	x10, x27, #3
	b.lo	.LBB36_24
	cmp	x27, x25
	b.hi	.LBB36_128
	add	x11, x24, x10
	mov	w12, #129
	mov	x27, x10
	strb	w9, [x11]
	strb	w12, [x11, #1]
	strb	w8, [x11, #2]
	b	.LBB36_24
.LBB36_13:
	cmp	w8, #16, lsl #12
	b.hs	.LBB36_17
	subs	x10, x27, #4
	b.lo	.LBB36_24
	cmp	x27, x25
	b.hi	.LBB36_128
	mov	w11, #8519680
	and	w9, w9, #0xff
	mov	x27, x10
	orr	w8, w8, w11
	rev	w8, w8
	orr	w8, w8, w9
	str	w8, [x24, x10]
	b	.LBB36_24
.LBB36_17:
	lsr	w10, w8, #24
	cbnz	w10, .LBB36_21
	subs	x10, x27, #5
	b.lo	.LBB36_24
	cmp	x27, x25
	b.hi	.LBB36_128
	add	x11, x24, x10
	lsr	x12, x8, #16
	mov	w13, #131
	strb	w9, [x11]
	lsr	x9, x8, #8
	mov	x27, x10
	strb	w13, [x11, #1]
	strb	w12, [x11, #2]
	strb	w9, [x11, #3]
	strb	w8, [x11, #4]
	b	.LBB36_24
.LBB36_21:
	subs	x10, x27, #6
	b.lo	.LBB36_24
	cmp	x27, x25
	b.hi	.LBB36_128
	add	x11, x24, x10
	mov	w13, #132
	lsr	x12, x8, #24
	strb	w9, [x11]
	lsr	x9, x8, #16
	mov	x27, x10
	strb	w13, [x11, #1]
	lsr	x13, x8, #8
	strb	w12, [x11, #2]
	strb	w9, [x11, #3]
	strb	w13, [x11, #4]
	strb	w8, [x11, #5]
.LBB36_24:
	str	x27, [x19, #16]
.LBB36_25:
	subs	x28, x27, x23
	mov	x8, x27
	b.lo	.LBB36_28
	cmp	x27, x25
	b.hi	.LBB36_128
	add	x0, x24, x28
	mov	x1, x22
	mov	x2, x23
	bl	memcpy
	mov	x8, x28
.LBB36_28:
	add	x9, x25, x8
	str	x8, [x19, #16]
	sub	x9, x27, x9
	add	x9, x9, x25
	cmp	w9, #128
	b.hs	.LBB36_32
	subs	x10, x8, #2
	b.lo	.LBB36_47
	cmp	x8, x25
	b.hi	.LBB36_128
	mov	w8, #6
	orr	w8, w8, w9, lsl #8
	strh	w8, [x24, x10]
	mov	x8, x10
	b	.LBB36_47
.LBB36_32:
	cmp	w9, #256
	b.hs	.LBB36_36
	subs	x10, x8, #3
	b.lo	.LBB36_47
	cmp	x8, x25
	b.hi	.LBB36_128
	add	x8, x24, x10
	mov	w11, #33030
	strh	w11, [x8]
	strb	w9, [x8, #2]
	mov	x8, x10
	b	.LBB36_47
.LBB36_36:
	cmp	w9, #16, lsl #12
	b.hs	.LBB36_40
	subs	x10, x8, #4
	b.lo	.LBB36_47
	cmp	x8, x25
	b.hi	.LBB36_128
	mov	w8, #109182976
	orr	w8, w9, w8
	rev	w8, w8
	str	w8, [x24, x10]
	mov	x8, x10
	b	.LBB36_47
.LBB36_40:
	lsr	w10, w9, #24
	cbnz	w10, .LBB36_44
	subs	x10, x8, #5
	b.lo	.LBB36_47
	cmp	x8, x25
	b.hi	.LBB36_128
	lsr	x8, x9, #16
	add	x11, x24, x10
	lsr	x13, x9, #8
	mov	w12, #33542
	strb	w9, [x11, #4]
	strb	w8, [x11, #2]
	mov	x8, x10
	strh	w12, [x11]
	strb	w13, [x11, #3]
	b	.LBB36_47
.LBB36_44:
	subs	x10, x8, #6
	b.lo	.LBB36_47
	cmp	x8, x25
	b.hi	.LBB36_128
	add	x11, x24, x10
	mov	w12, #33798
	lsr	x8, x9, #24
	lsr	x13, x9, #16
	strh	w12, [x11]
	lsr	x12, x9, #8
	strb	w8, [x11, #2]
	mov	x8, x10
	strb	w13, [x11, #3]
	strb	w12, [x11, #4]
	strb	w9, [x11, #5]
.LBB36_47:
	sub	x9, x26, x8
	str	x8, [x19, #16]
	cmp	w9, #128
	b.hs	.LBB36_51
	subs	x10, x8, #2
	b.lo	.LBB36_66
	cmp	x8, x25
	b.hi	.LBB36_128
	mov	w8, #48
	orr	w8, w8, w9, lsl #8
	strh	w8, [x24, x10]
	mov	x8, x10
	b	.LBB36_66
.LBB36_51:
	cmp	w9, #256
	b.hs	.LBB36_55
	subs	x10, x8, #3
	b.lo	.LBB36_66
	cmp	x8, x25
	b.hi	.LBB36_128
	add	x8, x24, x10
	mov	w11, #33072
	strh	w11, [x8]
	strb	w9, [x8, #2]
	mov	x8, x10
	b	.LBB36_66
.LBB36_55:
	cmp	w9, #16, lsl #12
	b.hs	.LBB36_59
	subs	x10, x8, #4
	b.lo	.LBB36_66
	cmp	x8, x25
	b.hi	.LBB36_128
	mov	w8, #813826048
	orr	w8, w9, w8
	rev	w8, w8
	str	w8, [x24, x10]
	mov	x8, x10
	b	.LBB36_66
.LBB36_59:
	lsr	w10, w9, #24
	cbnz	w10, .LBB36_63
	subs	x10, x8, #5
	b.lo	.LBB36_66
	cmp	x8, x25
	b.hi	.LBB36_128
	lsr	x8, x9, #16
	add	x11, x24, x10
	lsr	x13, x9, #8
	mov	w12, #33584
	strb	w9, [x11, #4]
	strb	w8, [x11, #2]
	mov	x8, x10
	strh	w12, [x11]
	strb	w13, [x11, #3]
	b	.LBB36_66
.LBB36_63:
	subs	x10, x8, #6
	b.lo	.LBB36_66
	cmp	x8, x25
	b.hi	.LBB36_128
	add	x11, x24, x10
	mov	w12, #33840
	lsr	x8, x9, #24
	lsr	x13, x9, #16
	strh	w12, [x11]
	lsr	x12, x9, #8
	strb	w8, [x11, #2]
	mov	x8, x10
	strb	w13, [x11, #3]
	strb	w12, [x11, #4]
	strb	w9, [x11, #5]
.LBB36_66:
	mov	x27, x8
	str	x8, [x19, #16]
.LBB36_67:
	subs	x22, x27, x21
	mov	x8, x27
	b.lo	.LBB36_70
	cmp	x27, x25
	b.hi	.LBB36_128
	add	x0, x24, x22
	mov	x1, x20
	mov	x2, x21
	bl	memcpy
	mov	x8, x22
.LBB36_70:
	add	x9, x25, x8
	sub	x9, x27, x9
	add	x9, x9, x25
	cmp	w9, #128
	b.hs	.LBB36_74
	subs	x10, x8, #2
	b.lo	.LBB36_89
	cmp	x8, x25
	b.hi	.LBB36_128
	mov	w8, #6
	orr	w8, w8, w9, lsl #8
	strh	w8, [x24, x10]
	mov	x8, x10
	b	.LBB36_89
.LBB36_74:
	cmp	w9, #256
	b.hs	.LBB36_78
	subs	x10, x8, #3
	b.lo	.LBB36_89
	cmp	x8, x25
	b.hi	.LBB36_128
	add	x8, x24, x10
	mov	w11, #33030
	strh	w11, [x8]
	strb	w9, [x8, #2]
	mov	x8, x10
	b	.LBB36_89
.LBB36_78:
	cmp	w9, #16, lsl #12
	b.hs	.LBB36_82
	subs	x10, x8, #4
	b.lo	.LBB36_89
	cmp	x8, x25
	b.hi	.LBB36_128
	mov	w8, #109182976
	orr	w8, w9, w8
	rev	w8, w8
	str	w8, [x24, x10]
	mov	x8, x10
	b	.LBB36_89
.LBB36_82:
	lsr	w10, w9, #24
	cbnz	w10, .LBB36_86
	subs	x10, x8, #5
	b.lo	.LBB36_89
	cmp	x8, x25
	b.hi	.LBB36_128
	lsr	x8, x9, #16
	add	x11, x24, x10
	lsr	x13, x9, #8
	mov	w12, #33542
	strb	w9, [x11, #4]
	strb	w8, [x11, #2]
	mov	x8, x10
	strh	w12, [x11]
	strb	w13, [x11, #3]
	b	.LBB36_89
.LBB36_86:
	subs	x10, x8, #6
	b.lo	.LBB36_89
	cmp	x8, x25
	b.hi	.LBB36_128
	add	x11, x24, x10
	mov	w12, #33798
	lsr	x8, x9, #24
	lsr	x13, x9, #16
	strh	w12, [x11]
	lsr	x12, x9, #8
	strb	w8, [x11, #2]
	mov	x8, x10
	strb	w13, [x11, #3]
	strb	w12, [x11, #4]
	strb	w9, [x11, #5]
.LBB36_89:
	sub	x9, x26, x8
	str	x8, [x19, #16]
	cmp	w9, #128
	b.hs	.LBB36_93
	subs	x10, x8, #2
	b.lo	.LBB36_108
	cmp	x8, x25
	b.hi	.LBB36_128
	mov	w8, #48
	orr	w8, w8, w9, lsl #8
	strh	w8, [x24, x10]
	mov	x8, x10
	b	.LBB36_108
.LBB36_93:
	cmp	w9, #256
	b.hs	.LBB36_97
	subs	x10, x8, #3
	b.lo	.LBB36_108
	cmp	x8, x25
	b.hi	.LBB36_128
	add	x8, x24, x10
	mov	w11, #33072
	strh	w11, [x8]
	strb	w9, [x8, #2]
	mov	x8, x10
	b	.LBB36_108
.LBB36_97:
	cmp	w9, #16, lsl #12
	b.hs	.LBB36_101
	subs	x10, x8, #4
	b.lo	.LBB36_108
	cmp	x8, x25
	b.hi	.LBB36_128
	mov	w8, #813826048
	orr	w8, w9, w8
	rev	w8, w8
	str	w8, [x24, x10]
	mov	x8, x10
	b	.LBB36_108
.LBB36_101:
	lsr	w10, w9, #24
	cbnz	w10, .LBB36_105
	subs	x10, x8, #5
	b.lo	.LBB36_108
	cmp	x8, x25
	b.hi	.LBB36_128
	lsr	x8, x9, #16
	add	x11, x24, x10
	lsr	x13, x9, #8
	mov	w12, #33584
	strb	w9, [x11, #4]
	strb	w8, [x11, #2]
	mov	x8, x10
	strh	w12, [x11]
	strb	w13, [x11, #3]
	b	.LBB36_108
.LBB36_105:
	subs	x10, x8, #6
	b.lo	.LBB36_108
	cmp	x8, x25
	b.hi	.LBB36_128
	add	x11, x24, x10
	mov	w12, #33840
	lsr	x8, x9, #24
	lsr	x13, x9, #16
	strh	w12, [x11]
	lsr	x12, x9, #8
	strb	w8, [x11, #2]
	mov	x8, x10
	strb	w13, [x11, #3]
	strb	w12, [x11, #4]
	strb	w9, [x11, #5]
.LBB36_108:
	sub	x9, x26, x8
	cmp	w9, #128
	b.hs	.LBB36_112
	subs	x10, x8, #2
	b.lo	.LBB36_127
	cmp	x8, x25
	b.hi	.LBB36_128
	mov	w8, #161
	orr	w8, w8, w9, lsl #8
	strh	w8, [x24, x10]
	mov	x8, x10
	b	.LBB36_127
.LBB36_112:
	cmp	w9, #256
	b.hs	.LBB36_116
	subs	x10, x8, #3
	b.lo	.LBB36_127
	cmp	x8, x25
	b.hi	.LBB36_128
	add	x8, x24, x10
	mov	w11, #33185
	strh	w11, [x8]
	strb	w9, [x8, #2]
	mov	x8, x10
	b	.LBB36_127
.LBB36_116:
	cmp	w9, #16, lsl #12
	b.hs	.LBB36_120
	subs	x10, x8, #4
	b.lo	.LBB36_127
	cmp	x8, x25
	b.hi	.LBB36_128
	mov	w8, #-1585315840
	orr	w8, w9, w8
	rev	w8, w8
	str	w8, [x24, x10]
	mov	x8, x10
	b	.LBB36_127
.LBB36_120:
	lsr	w10, w9, #24
	cbnz	w10, .LBB36_124
	subs	x10, x8, #5
	b.lo	.LBB36_127
	cmp	x8, x25
	b.hi	.LBB36_128
	lsr	x8, x9, #16
	add	x11, x24, x10
	lsr	x13, x9, #8
	mov	w12, #33697
	strb	w9, [x11, #4]
	strb	w8, [x11, #2]
	mov	x8, x10
	strh	w12, [x11]
	strb	w13, [x11, #3]
	b	.LBB36_127
.LBB36_124:
	subs	x10, x8, #6
	b.lo	.LBB36_127
	cmp	x8, x25
	b.hi	.LBB36_128
	add	x11, x24, x10
	mov	w12, #33953
	lsr	x8, x9, #24
	lsr	x13, x9, #16
	strh	w12, [x11]
	lsr	x12, x9, #8
	strb	w8, [x11, #2]
	mov	x8, x10
	strb	w13, [x11, #3]
	strb	w12, [x11, #4]
	strb	w9, [x11, #5]
.LBB36_127:
	str	x8, [x19, #16]
	ldp	x20, x19, [sp, #80]
	ldp	x22, x21, [sp, #64]
	ldp	x24, x23, [sp, #48]
	ldp	x26, x25, [sp, #32]
	ldp	x28, x27, [sp, #16]
	ldp	x29, x30, [sp], #96
	.cfi_def_cfa_offset 0
	.cfi_restore w19
	.cfi_restore w20
	.cfi_restore w21
	.cfi_restore w22
	.cfi_restore w23
	.cfi_restore w24
	.cfi_restore w25
	.cfi_restore w26
	.cfi_restore w27
	.cfi_restore w28
	.cfi_restore w30
	.cfi_restore w29
	ret
.LBB36_128:
	.cfi_restore_state
	brk	#0x1
.Lfunc_end36:
	.size	_RINvNtNtNtCs00000000000_7pkcs1_c6proved12pkcs1_params6fields13prepend_fieldINtNtNtB6_9spki_core20algorithm_identifier21AlgorithmIdentifierOfNtNtB1g_15identifier_view14IdentifierViewIB1c_B2e_NtNtB1g_3any6AnyRefEENtNtNtB6_8der_core11back_writer10BackWriterEB8_, .Lfunc_end36-_RINvNtNtNtCs00000000000_7pkcs1_c6proved12pkcs1_params6fields13prepend_fieldINtNtNtB6_9spki_core20algorithm_identifier21AlgorithmIdentifierOfNtNtB1g_15identifier_view14IdentifierViewIB1c_B2e_NtNtB1g_3any6AnyRefEENtNtNtB6_8der_core11back_writer10BackWriterEB8_
	.cfi_endproc

	.section	.text._RINvNtNtNtCs00000000000_7pkcs1_c6proved12pkcs1_params6fields13prepend_fieldINtNtNtB6_9spki_core20algorithm_identifier21AlgorithmIdentifierOfNtNtB1g_15identifier_view14IdentifierViewIB1c_B2e_NtNtB1g_3any6AnyRefEENtNtNtB6_8der_core7counter7CounterEB8_,"ax",@progbits
	.p2align	2
	.type	_RINvNtNtNtCs00000000000_7pkcs1_c6proved12pkcs1_params6fields13prepend_fieldINtNtNtB6_9spki_core20algorithm_identifier21AlgorithmIdentifierOfNtNtB1g_15identifier_view14IdentifierViewIB1c_B2e_NtNtB1g_3any6AnyRefEENtNtNtB6_8der_core7counter7CounterEB8_,@function
_RINvNtNtNtCs00000000000_7pkcs1_c6proved12pkcs1_params6fields13prepend_fieldINtNtNtB6_9spki_core20algorithm_identifier21AlgorithmIdentifierOfNtNtB1g_15identifier_view14IdentifierViewIB1c_B2e_NtNtB1g_3any6AnyRefEENtNtNtB6_8der_core7counter7CounterEB8_:
	.cfi_startproc
	ldr	x8, [x1]
	ldp	x9, x11, [x0, #8]
	mov	x10, x8
	cbz	x11, .LBB37_12
	ldp	x11, x12, [x0, #24]
	cbz	x12, .LBB37_6
	ldr	x10, [x0, #40]
	adds	x10, x8, x10
	csinv	x10, x10, xzr, lo
	subs	x10, x10, x8
	csel	x10, xzr, x10, lo
	cmp	x10, #128
	b.hs	.LBB37_4
	add	x10, x10, #2
	b	.LBB37_5
.LBB37_4:
	lsr	x12, x10, #24
	adds	x13, x10, #6
	add	x14, x10, #5
	csinv	x13, x13, xzr, lo
	cmp	x12, #0
	add	x12, x10, #4
	csel	x13, x14, x13, eq
	cmp	x10, #16, lsl #12
	add	x14, x10, #3
	csel	x12, x12, x13, lo
	cmp	x10, #256
	csel	x10, x14, x12, lo
.LBB37_5:
	adds	x10, x8, x10
	csinv	x10, x10, xzr, lo
.LBB37_6:
	adds	x11, x10, x11
	csinv	x11, x11, xzr, lo
	subs	x11, x11, x10
	csel	x11, xzr, x11, lo
	cmp	x11, #128
	b.hs	.LBB37_9
	add	x11, x11, #2
	adds	x10, x10, x11
	csinv	x10, x10, xzr, lo
	subs	x10, x10, x8
	csel	x10, xzr, x10, lo
	cmp	x10, #128
	b.lo	.LBB37_10
.LBB37_8:
	lsr	x11, x10, #24
	adds	x12, x10, #6
	add	x13, x10, #5
	csinv	x12, x12, xzr, lo
	cmp	x11, #0
	add	x11, x10, #4
	csel	x12, x13, x12, eq
	cmp	x10, #16, lsl #12
	add	x13, x10, #3
	csel	x11, x11, x12, lo
	cmp	x10, #256
	csel	x10, x13, x11, lo
	b	.LBB37_11
.LBB37_9:
	lsr	x12, x11, #24
	adds	x13, x11, #6
	add	x14, x11, #5
	csinv	x13, x13, xzr, lo
	cmp	x12, #0
	add	x12, x11, #4
	csel	x13, x14, x13, eq
	cmp	x11, #16, lsl #12
	add	x14, x11, #3
	csel	x12, x12, x13, lo
	cmp	x11, #256
	csel	x11, x14, x12, lo
	adds	x10, x10, x11
	csinv	x10, x10, xzr, lo
	subs	x10, x10, x8
	csel	x10, xzr, x10, lo
	cmp	x10, #128
	b.hs	.LBB37_8
.LBB37_10:
	add	x10, x10, #2
.LBB37_11:
	adds	x10, x8, x10
	csinv	x10, x10, xzr, lo
.LBB37_12:
	adds	x9, x10, x9
	csinv	x9, x9, xzr, lo
	subs	x9, x9, x10
	csel	x9, xzr, x9, lo
	cmp	x9, #128
	b.hs	.LBB37_16
	add	x9, x9, #2
	adds	x9, x10, x9
	csinv	x9, x9, xzr, lo
	subs	x9, x9, x8
	csel	x9, xzr, x9, lo
	cmp	x9, #128
	b.lo	.LBB37_17
.LBB37_14:
	lsr	x10, x9, #24
	adds	x11, x9, #6
	add	x12, x9, #5
	csinv	x11, x11, xzr, lo
	cmp	x10, #0
	add	x10, x9, #4
	csel	x11, x12, x11, eq
	cmp	x9, #16, lsl #12
	add	x12, x9, #3
	csel	x10, x10, x11, lo
	cmp	x9, #256
	csel	x9, x12, x10, lo
	adds	x9, x8, x9
	csinv	x9, x9, xzr, lo
	subs	x9, x9, x8
	csel	x9, xzr, x9, lo
	cmp	x9, #128
	b.lo	.LBB37_18
.LBB37_15:
	lsr	x10, x9, #24
	adds	x11, x9, #6
	add	x12, x9, #5
	csinv	x11, x11, xzr, lo
	cmp	x10, #0
	add	x10, x9, #4
	csel	x11, x12, x11, eq
	cmp	x9, #16, lsl #12
	add	x12, x9, #3
	csel	x10, x10, x11, lo
	cmp	x9, #256
	csel	x9, x12, x10, lo
	adds	x8, x8, x9
	csinv	x8, x8, xzr, lo
	str	x8, [x1]
	ret
.LBB37_16:
	lsr	x11, x9, #24
	adds	x12, x9, #6
	add	x13, x9, #5
	csinv	x12, x12, xzr, lo
	cmp	x11, #0
	add	x11, x9, #4
	csel	x12, x13, x12, eq
	cmp	x9, #16, lsl #12
	add	x13, x9, #3
	csel	x11, x11, x12, lo
	cmp	x9, #256
	csel	x9, x13, x11, lo
	adds	x9, x10, x9
	csinv	x9, x9, xzr, lo
	subs	x9, x9, x8
	csel	x9, xzr, x9, lo
	cmp	x9, #128
	b.hs	.LBB37_14
.LBB37_17:
	add	x9, x9, #2
	adds	x9, x8, x9
	csinv	x9, x9, xzr, lo
	subs	x9, x9, x8
	csel	x9, xzr, x9, lo
	cmp	x9, #128
	b.hs	.LBB37_15
.LBB37_18:
	add	x9, x9, #2
	adds	x8, x8, x9
	csinv	x8, x8, xzr, lo
	str	x8, [x1]
	ret
.Lfunc_end37:
	.size	_RINvNtNtNtCs00000000000_7pkcs1_c6proved12pkcs1_params6fields13prepend_fieldINtNtNtB6_9spki_core20algorithm_identifier21AlgorithmIdentifierOfNtNtB1g_15identifier_view14IdentifierViewIB1c_B2e_NtNtB1g_3any6AnyRefEENtNtNtB6_8der_core7counter7CounterEB8_, .Lfunc_end37-_RINvNtNtNtCs00000000000_7pkcs1_c6proved12pkcs1_params6fields13prepend_fieldINtNtNtB6_9spki_core20algorithm_identifier21AlgorithmIdentifierOfNtNtB1g_15identifier_view14IdentifierViewIB1c_B2e_NtNtB1g_3any6AnyRefEENtNtNtB6_8der_core7counter7CounterEB8_
	.cfi_endproc

	.section	.text._RINvNtNtNtCs00000000000_7pkcs1_c6proved12pkcs1_params6fields13prepend_fieldINtNtNtB6_9spki_core20algorithm_identifier21AlgorithmIdentifierOfNtNtB1g_15identifier_view14IdentifierViewNtNtB1g_3any6AnyRefENtNtNtB6_8der_core11back_writer10BackWriterEB8_,"ax",@progbits
	.p2align	2
	.type	_RINvNtNtNtCs00000000000_7pkcs1_c6proved12pkcs1_params6fields13prepend_fieldINtNtNtB6_9spki_core20algorithm_identifier21AlgorithmIdentifierOfNtNtB1g_15identifier_view14IdentifierViewNtNtB1g_3any6AnyRefENtNtNtB6_8der_core11back_writer10BackWriterEB8_,@function
_RINvNtNtNtCs00000000000_7pkcs1_c6proved12pkcs1_params6fields13prepend_fieldINtNtNtB6_9spki_core20algorithm_identifier21AlgorithmIdentifierOfNtNtB1g_15identifier_view14IdentifierViewNtNtB1g_3any6AnyRefENtNtNtB6_8der_core11back_writer10BackWriterEB8_:
	.cfi_startproc
	stp	x30, x27, [sp, #-80]!
	.cfi_def_cfa_offset 80
	stp	x26, x25, [sp, #16]
	stp	x24, x23, [sp, #32]
	stp	x22, x21, [sp, #48]
	stp	x20, x19, [sp, #64]
	.cfi_offset w19, -8
	.cfi_offset w20, -16
	.cfi_offset w21, -24
	.cfi_offset w22, -32
	.cfi_offset w23, -40
	.cfi_offset w24, -48
	.cfi_offset w25, -56
	.cfi_offset w26, -64
	.cfi_offset w27, -72
	.cfi_offset w30, -80
	.cfi_remember_state
	ldp	x24, x25, [x2, #8]
	mov	x19, x2
	ldp	x22, x8, [x1, #8]
	mov	w20, w0
	ldr	x21, [x1]
	ldr	x23, [x2]
	mov	x26, x25
	cbz	x8, .LBB38_24
	ldr	x2, [x1, #24]
	subs	x27, x25, x2
	b.lo	.LBB38_4
	cmp	x25, x24
	b.hi	.LBB38_85
	add	x0, x23, x27
	mov	x26, x1
	mov	x1, x8
	bl	memcpy
	mov	x1, x26
	mov	x26, x27
.LBB38_4:
	sub	x8, x25, x26
	ldr	x9, [x1, #32]
	str	x26, [x19, #16]
	cmp	w8, #128
	b.hs	.LBB38_8
	subs	x10, x26, #2
	b.lo	.LBB38_23
	cmp	x26, x24
	b.hi	.LBB38_85
	bfi	w9, w8, #8, #24
	mov	x26, x10
	strh	w9, [x23, x10]
	b	.LBB38_23
.LBB38_8:
	cmp	w8, #256
	b.hs	.LBB38_12
	subs	x10, x26, #3
	b.lo	.LBB38_23
	cmp	x26, x24
	b.hi	.LBB38_85
	add	x11, x23, x10
	mov	w12, #129
	mov	x26, x10
	strb	w9, [x11]
	strb	w12, [x11, #1]
	strb	w8, [x11, #2]
	b	.LBB38_23
.LBB38_12:
	cmp	w8, #16, lsl #12
	b.hs	.LBB38_16
	subs	x10, x26, #4
	b.lo	.LBB38_23
	cmp	x26, x24
	b.hi	.LBB38_85
	mov	w11, #8519680
	and	w9, w9, #0xff
	mov	x26, x10
	orr	w8, w8, w11
	rev	w8, w8
	orr	w8, w8, w9
	str	w8, [x23, x10]
	b	.LBB38_23
.LBB38_16:
	lsr	w10, w8, #24
	cbnz	w10, .LBB38_20
	subs	x10, x26, #5
	b.lo	.LBB38_23
	cmp	x26, x24
	b.hi	.LBB38_85
	add	x11, x23, x10
	lsr	x12, x8, #16
	mov	w13, #131
	strb	w9, [x11]
	lsr	x9, x8, #8
	mov	x26, x10
	strb	w13, [x11, #1]
	strb	w12, [x11, #2]
	strb	w9, [x11, #3]
	strb	w8, [x11, #4]
	b	.LBB38_23
.LBB38_20:
	subs	x10, x26, #6
	b.lo	.LBB38_23
	cmp	x26, x24
	b.hi	.LBB38_85
	add	x11, x23, x10
	mov	w13, #132
	lsr	x12, x8, #24
	strb	w9, [x11]
	lsr	x9, x8, #16
	mov	x26, x10
	strb	w13, [x11, #1]
	lsr	x13, x8, #8
	strb	w12, [x11, #2]
	strb	w9, [x11, #3]
	strb	w13, [x11, #4]
	strb	w8, [x11, #5]
.LBB38_23:
	str	x26, [x19, #16]
.LBB38_24:
	subs	x27, x26, x22
	mov	x8, x26
	b.lo	.LBB38_27
	cmp	x26, x24
	b.hi	.LBB38_85
	add	x0, x23, x27
	mov	x1, x21
	mov	x2, x22
	bl	memcpy
	mov	x8, x27
.LBB38_27:
	add	x9, x24, x8
	sub	x9, x26, x9
	add	x9, x9, x24
	cmp	w9, #128
	b.hs	.LBB38_31
	subs	x10, x8, #2
	b.lo	.LBB38_46
	cmp	x8, x24
	b.hi	.LBB38_85
	mov	w8, #6
	orr	w8, w8, w9, lsl #8
	strh	w8, [x23, x10]
	mov	x8, x10
	b	.LBB38_46
.LBB38_31:
	cmp	w9, #256
	b.hs	.LBB38_35
	subs	x10, x8, #3
	b.lo	.LBB38_46
	cmp	x8, x24
	b.hi	.LBB38_85
	add	x8, x23, x10
	mov	w11, #33030
	strh	w11, [x8]
	strb	w9, [x8, #2]
	mov	x8, x10
	b	.LBB38_46
.LBB38_35:
	cmp	w9, #16, lsl #12
	b.hs	.LBB38_39
	subs	x10, x8, #4
	b.lo	.LBB38_46
	cmp	x8, x24
	b.hi	.LBB38_85
	mov	w8, #109182976
	orr	w8, w9, w8
	rev	w8, w8
	str	w8, [x23, x10]
	mov	x8, x10
	b	.LBB38_46
.LBB38_39:
	lsr	w10, w9, #24
	cbnz	w10, .LBB38_43
	subs	x10, x8, #5
	b.lo	.LBB38_46
	cmp	x8, x24
	b.hi	.LBB38_85
	lsr	x8, x9, #16
	add	x11, x23, x10
	lsr	x13, x9, #8
	mov	w12, #33542
	strb	w9, [x11, #4]
	strb	w8, [x11, #2]
	mov	x8, x10
	strh	w12, [x11]
	strb	w13, [x11, #3]
	b	.LBB38_46
.LBB38_43:
	subs	x10, x8, #6
	b.lo	.LBB38_46
	cmp	x8, x24
	b.hi	.LBB38_85
	add	x11, x23, x10
	mov	w12, #33798
	lsr	x8, x9, #24
	lsr	x13, x9, #16
	strh	w12, [x11]
	lsr	x12, x9, #8
	strb	w8, [x11, #2]
	mov	x8, x10
	strb	w13, [x11, #3]
	strb	w12, [x11, #4]
	strb	w9, [x11, #5]
.LBB38_46:
	sub	x9, x25, x8
	str	x8, [x19, #16]
	cmp	w9, #128
	b.hs	.LBB38_50
	subs	x10, x8, #2
	b.lo	.LBB38_65
	cmp	x8, x24
	b.hi	.LBB38_85
	mov	w8, #48
	orr	w8, w8, w9, lsl #8
	strh	w8, [x23, x10]
	mov	x8, x10
	b	.LBB38_65
.LBB38_50:
	cmp	w9, #256
	b.hs	.LBB38_54
	subs	x10, x8, #3
	b.lo	.LBB38_65
	cmp	x8, x24
	b.hi	.LBB38_85
	add	x8, x23, x10
	mov	w11, #33072
	strh	w11, [x8]
	strb	w9, [x8, #2]
	mov	x8, x10
	b	.LBB38_65
.LBB38_54:
	cmp	w9, #16, lsl #12
	b.hs	.LBB38_58
	subs	x10, x8, #4
	b.lo	.LBB38_65
	cmp	x8, x24
	b.hi	.LBB38_85
	mov	w8, #813826048
	orr	w8, w9, w8
	rev	w8, w8
	str	w8, [x23, x10]
	mov	x8, x10
	b	.LBB38_65
.LBB38_58:
	lsr	w10, w9, #24
	cbnz	w10, .LBB38_62
	subs	x10, x8, #5
	b.lo	.LBB38_65
	cmp	x8, x24
	b.hi	.LBB38_85
	lsr	x8, x9, #16
	add	x11, x23, x10
	lsr	x13, x9, #8
	mov	w12, #33584
	strb	w9, [x11, #4]
	strb	w8, [x11, #2]
	mov	x8, x10
	strh	w12, [x11]
	strb	w13, [x11, #3]
	b	.LBB38_65
.LBB38_62:
	subs	x10, x8, #6
	b.lo	.LBB38_65
	cmp	x8, x24
	b.hi	.LBB38_85
	add	x11, x23, x10
	mov	w12, #33840
	lsr	x8, x9, #24
	lsr	x13, x9, #16
	strh	w12, [x11]
	lsr	x12, x9, #8
	strb	w8, [x11, #2]
	mov	x8, x10
	strb	w13, [x11, #3]
	strb	w12, [x11, #4]
	strb	w9, [x11, #5]
.LBB38_65:
	sub	x9, x25, x8
	sub	w10, w20, #96
	cmp	w9, #128
	b.hs	.LBB38_69
	subs	x11, x8, #2
	b.lo	.LBB38_84
	cmp	x8, x24
	b.hi	.LBB38_85
	bfi	w10, w9, #8, #24
	mov	x8, x11
	strh	w10, [x23, x11]
	b	.LBB38_84
.LBB38_69:
	cmp	w9, #256
	b.hs	.LBB38_73
	subs	x11, x8, #3
	b.lo	.LBB38_84
	cmp	x8, x24
	b.hi	.LBB38_85
	add	x12, x23, x11
	mov	w8, #129
	strb	w10, [x12]
	strb	w8, [x12, #1]
	mov	x8, x11
	strb	w9, [x12, #2]
	b	.LBB38_84
.LBB38_73:
	cmp	w9, #16, lsl #12
	b.hs	.LBB38_77
	subs	x11, x8, #4
	b.lo	.LBB38_84
	cmp	x8, x24
	b.hi	.LBB38_85
	mov	w8, #8519680
	orr	w8, w9, w8
	and	w9, w10, #0xff
	rev	w8, w8
	orr	w8, w8, w9
	str	w8, [x23, x11]
	mov	x8, x11
	b	.LBB38_84
.LBB38_77:
	lsr	w11, w9, #24
	cbnz	w11, .LBB38_81
	subs	x11, x8, #5
	b.lo	.LBB38_84
	cmp	x8, x24
	b.hi	.LBB38_85
	add	x12, x23, x11
	lsr	x8, x9, #16
	mov	w13, #131
	strb	w10, [x12]
	lsr	x10, x9, #8
	strb	w8, [x12, #2]
	mov	x8, x11
	strb	w13, [x12, #1]
	strb	w10, [x12, #3]
	strb	w9, [x12, #4]
	b	.LBB38_84
.LBB38_81:
	subs	x11, x8, #6
	b.lo	.LBB38_84
	cmp	x8, x24
	b.hi	.LBB38_85
	add	x12, x23, x11
	mov	w13, #132
	lsr	x8, x9, #24
	strb	w10, [x12]
	lsr	x10, x9, #16
	strb	w13, [x12, #1]
	lsr	x13, x9, #8
	strb	w8, [x12, #2]
	mov	x8, x11
	strb	w10, [x12, #3]
	strb	w13, [x12, #4]
	strb	w9, [x12, #5]
.LBB38_84:
	str	x8, [x19, #16]
	ldp	x20, x19, [sp, #64]
	ldp	x22, x21, [sp, #48]
	ldp	x24, x23, [sp, #32]
	ldp	x26, x25, [sp, #16]
	ldp	x30, x27, [sp], #80
	.cfi_def_cfa_offset 0
	.cfi_restore w19
	.cfi_restore w20
	.cfi_restore w21
	.cfi_restore w22
	.cfi_restore w23
	.cfi_restore w24
	.cfi_restore w25
	.cfi_restore w26
	.cfi_restore w27
	.cfi_restore w30
	ret
.LBB38_85:
	.cfi_restore_state
	brk	#0x1
.Lfunc_end38:
	.size	_RINvNtNtNtCs00000000000_7pkcs1_c6proved12pkcs1_params6fields13prepend_fieldINtNtNtB6_9spki_core20algorithm_identifier21AlgorithmIdentifierOfNtNtB1g_15identifier_view14IdentifierViewNtNtB1g_3any6AnyRefENtNtNtB6_8der_core11back_writer10BackWriterEB8_, .Lfunc_end38-_RINvNtNtNtCs00000000000_7pkcs1_c6proved12pkcs1_params6fields13prepend_fieldINtNtNtB6_9spki_core20algorithm_identifier21AlgorithmIdentifierOfNtNtB1g_15identifier_view14IdentifierViewNtNtB1g_3any6AnyRefENtNtNtB6_8der_core11back_writer10BackWriterEB8_
	.cfi_endproc

	.section	.text._RINvNtNtNtCs00000000000_7pkcs1_c6proved12pkcs1_params6fields13prepend_fieldINtNtNtB6_9spki_core20algorithm_identifier21AlgorithmIdentifierOfNtNtB1g_15identifier_view14IdentifierViewNtNtB1g_3any6AnyRefENtNtNtB6_8der_core7counter7CounterEB8_,"ax",@progbits
	.p2align	2
	.type	_RINvNtNtNtCs00000000000_7pkcs1_c6proved12pkcs1_params6fields13prepend_fieldINtNtNtB6_9spki_core20algorithm_identifier21AlgorithmIdentifierOfNtNtB1g_15identifier_view14IdentifierViewNtNtB1g_3any6AnyRefENtNtNtB6_8der_core7counter7CounterEB8_,@function
_RINvNtNtNtCs00000000000_7pkcs1_c6proved12pkcs1_params6fields13prepend_fieldINtNtNtB6_9spki_core20algorithm_identifier21AlgorithmIdentifierOfNtNtB1g_15identifier_view14IdentifierViewNtNtB1g_3any6AnyRefENtNtNtB6_8der_core7counter7CounterEB8_:
	.cfi_startproc
	ldp	x9, x10, [x0, #8]
	ldr	x8, [x1]
	cbz	x10, .LBB39_3
	ldr	x10, [x0, #24]
	adds	x10, x8, x10
	csinv	x10, x10, xzr, lo
	subs	x10, x10, x8
	csel	x10, xzr, x10, lo
	cmp	x10, #128
	b.hs	.LBB39_7
	add	x10, x10, #2
	b	.LBB39_8
.LBB39_3:
	mov	x10, x8
	adds	x9, x8, x9
	csinv	x9, x9, xzr, lo
	subs	x9, x9, x8
	csel	x9, xzr, x9, lo
	cmp	x9, #128
	b.lo	.LBB39_9
.LBB39_4:
	lsr	x11, x9, #24
	adds	x12, x9, #6
	add	x13, x9, #5
	csinv	x12, x12, xzr, lo
	cmp	x11, #0
	add	x11, x9, #4
	csel	x12, x13, x12, eq
	cmp	x9, #16, lsl #12
	add	x13, x9, #3
	csel	x11, x11, x12, lo
	cmp	x9, #256
	csel	x9, x13, x11, lo
	adds	x9, x10, x9
	csinv	x9, x9, xzr, lo
	subs	x9, x9, x8
	csel	x9, xzr, x9, lo
	cmp	x9, #128
	b.lo	.LBB39_10
.LBB39_5:
	lsr	x10, x9, #24
	adds	x11, x9, #6
	add	x12, x9, #5
	csinv	x11, x11, xzr, lo
	cmp	x10, #0
	add	x10, x9, #4
	csel	x11, x12, x11, eq
	cmp	x9, #16, lsl #12
	add	x12, x9, #3
	csel	x10, x10, x11, lo
	cmp	x9, #256
	csel	x9, x12, x10, lo
	adds	x9, x8, x9
	csinv	x9, x9, xzr, lo
	subs	x9, x9, x8
	csel	x9, xzr, x9, lo
	cmp	x9, #128
	b.lo	.LBB39_11
.LBB39_6:
	lsr	x10, x9, #24
	adds	x11, x9, #6
	add	x12, x9, #5
	csinv	x11, x11, xzr, lo
	cmp	x10, #0
	add	x10, x9, #4
	csel	x11, x12, x11, eq
	cmp	x9, #16, lsl #12
	add	x12, x9, #3
	csel	x10, x10, x11, lo
	cmp	x9, #256
	csel	x9, x12, x10, lo
	adds	x8, x8, x9
	csinv	x8, x8, xzr, lo
	str	x8, [x1]
	ret
.LBB39_7:
	lsr	x11, x10, #24
	adds	x12, x10, #6
	add	x13, x10, #5
	csinv	x12, x12, xzr, lo
	cmp	x11, #0
	add	x11, x10, #4
	csel	x12, x13, x12, eq
	cmp	x10, #16, lsl #12
	add	x13, x10, #3
	csel	x11, x11, x12, lo
	cmp	x10, #256
	csel	x10, x13, x11, lo
.LBB39_8:
	adds	x10, x8, x10
	csinv	x10, x10, xzr, lo
	adds	x9, x10, x9
	csinv	x9, x9, xzr, lo
	subs	x9, x9, x10
	csel	x9, xzr, x9, lo
	cmp	x9, #128
	b.hs	.LBB39_4
.LBB39_9:
	add	x9, x9, #2
	adds	x9, x10, x9
	csinv	x9, x9, xzr, lo
	subs	x9, x9, x8
	csel	x9, xzr, x9, lo
	cmp	x9, #128
	b.hs	.LBB39_5
.LBB39_10:
	add	x9, x9, #2
	adds	x9, x8, x9
	csinv	x9, x9, xzr, lo
	subs	x9, x9, x8
	csel	x9, xzr, x9, lo
	cmp	x9, #128
	b.hs	.LBB39_6
.LBB39_11:
	add	x9, x9, #2
	adds	x8, x8, x9
	csinv	x8, x8, xzr, lo
	str	x8, [x1]
	ret
.Lfunc_end39:
	.size	_RINvNtNtNtCs00000000000_7pkcs1_c6proved12pkcs1_params6fields13prepend_fieldINtNtNtB6_9spki_core20algorithm_identifier21AlgorithmIdentifierOfNtNtB1g_15identifier_view14IdentifierViewNtNtB1g_3any6AnyRefENtNtNtB6_8der_core7counter7CounterEB8_, .Lfunc_end39-_RINvNtNtNtCs00000000000_7pkcs1_c6proved12pkcs1_params6fields13prepend_fieldINtNtNtB6_9spki_core20algorithm_identifier21AlgorithmIdentifierOfNtNtB1g_15identifier_view14IdentifierViewNtNtB1g_3any6AnyRefENtNtNtB6_8der_core7counter7CounterEB8_
	.cfi_endproc

	.section	.text._RINvNtNtNtCs00000000000_7pkcs1_c6proved12pkcs1_params6fields13prepend_fieldhNtNtNtB6_8der_core11back_writer10BackWriterEB8_,"ax",@progbits
	.p2align	2
	.type	_RINvNtNtNtCs00000000000_7pkcs1_c6proved12pkcs1_params6fields13prepend_fieldhNtNtNtB6_8der_core11back_writer10BackWriterEB8_,@function
_RINvNtNtNtCs00000000000_7pkcs1_c6proved12pkcs1_params6fields13prepend_fieldhNtNtNtB6_8der_core11back_writer10BackWriterEB8_:
	.cfi_startproc
	str	x30, [sp, #-16]!
	.cfi_def_cfa_offset 16
	.cfi_offset w30, -16
	.cfi_remember_state
	ldp	x9, x10, [x1, #8]
	ldr	x8, [x1]
	cbz	x10, .LBB40_7
	cmp	x10, x9
	b.hi	.LBB40_46
	sub	x11, x10, #1
	strb	w0, [x8, x11]
	tbnz	w0, #7, .LBB40_9
	sub	x12, x10, x11
	cmp	w12, #128
	b.hs	.LBB40_12
.LBB40_4:
	subs	x13, x11, #2
	b.lo	.LBB40_27
	cmp	x11, x9
	b.hi	.LBB40_46
	mov	w11, #2
	orr	w11, w11, w12, lsl #8
	strh	w11, [x8, x13]
	mov	x11, x13
	b	.LBB40_27
.LBB40_7:
	mov	x11, xzr
	tbnz	w0, #7, .LBB40_11
.LBB40_8:
	str	x11, [x1, #16]
	ldr	x30, [sp], #16
	.cfi_def_cfa_offset 0
	.cfi_restore w30
	ret
.LBB40_9:
	.cfi_restore_state
	.cfi_remember_state
	cbz	x11, .LBB40_11
	sub	x11, x10, #2
	strb	wzr, [x8, x11]
.LBB40_11:
	str	x11, [x1, #16]
	sub	x12, x10, x11
	cmp	w12, #128
	b.lo	.LBB40_4
.LBB40_12:
	cmp	w12, #256
	b.hs	.LBB40_16
	subs	x13, x11, #3
	b.lo	.LBB40_27
	cmp	x11, x9
	b.hi	.LBB40_46
	add	x11, x8, x13
	mov	w14, #33026
	strh	w14, [x11]
	strb	w12, [x11, #2]
	mov	x11, x13
	b	.LBB40_27
.LBB40_16:
	cmp	w12, #16, lsl #12
	b.hs	.LBB40_20
	subs	x13, x11, #4
	b.lo	.LBB40_27
	cmp	x11, x9
	b.hi	.LBB40_46
	mov	w11, #42074112
	orr	w11, w12, w11
	rev	w11, w11
	str	w11, [x8, x13]
	mov	x11, x13
	b	.LBB40_27
.LBB40_20:
	lsr	w13, w12, #24
	cbnz	w13, .LBB40_24
	subs	x13, x11, #5
	b.lo	.LBB40_27
	cmp	x11, x9
	b.hi	.LBB40_46
	lsr	x11, x12, #16
	add	x14, x8, x13
	lsr	x16, x12, #8
	mov	w15, #33538
	strb	w12, [x14, #4]
	strb	w11, [x14, #2]
	mov	x11, x13
	strh	w15, [x14]
	strb	w16, [x14, #3]
	b	.LBB40_27
.LBB40_24:
	subs	x13, x11, #6
	b.lo	.LBB40_27
	cmp	x11, x9
	b.hi	.LBB40_46
	add	x14, x8, x13
	mov	w15, #33794
	lsr	x11, x12, #24
	lsr	x16, x12, #16
	strh	w15, [x14]
	lsr	x15, x12, #8
	strb	w11, [x14, #2]
	mov	x11, x13
	strb	w16, [x14, #3]
	strb	w15, [x14, #4]
	strb	w12, [x14, #5]
.LBB40_27:
	sub	x10, x10, x11
	cmp	w10, #128
	b.hs	.LBB40_31
	subs	x12, x11, #2
	b.lo	.LBB40_8
	cmp	x11, x9
	b.hi	.LBB40_46
	mov	w9, #162
	orr	w9, w9, w10, lsl #8
	strh	w9, [x8, x12]
	str	x12, [x1, #16]
	ldr	x30, [sp], #16
	.cfi_def_cfa_offset 0
	.cfi_restore w30
	ret
.LBB40_31:
	.cfi_restore_state
	.cfi_remember_state
	cmp	w10, #256
	b.hs	.LBB40_35
	subs	x12, x11, #3
	b.lo	.LBB40_8
	cmp	x11, x9
	b.hi	.LBB40_46
	add	x8, x8, x12
	mov	w9, #33186
	strh	w9, [x8]
	strb	w10, [x8, #2]
	str	x12, [x1, #16]
	ldr	x30, [sp], #16
	.cfi_def_cfa_offset 0
	.cfi_restore w30
	ret
.LBB40_35:
	.cfi_restore_state
	.cfi_remember_state
	cmp	w10, #16, lsl #12
	b.hs	.LBB40_39
	subs	x12, x11, #4
	b.lo	.LBB40_8
	cmp	x11, x9
	b.hi	.LBB40_46
	mov	w9, #-1568538624
	orr	w9, w10, w9
	rev	w9, w9
	str	w9, [x8, x12]
	str	x12, [x1, #16]
	ldr	x30, [sp], #16
	.cfi_def_cfa_offset 0
	.cfi_restore w30
	ret
.LBB40_39:
	.cfi_restore_state
	.cfi_remember_state
	lsr	w12, w10, #24
	cbnz	w12, .LBB40_43
	subs	x12, x11, #5
	b.lo	.LBB40_8
	cmp	x11, x9
	b.hi	.LBB40_46
	lsr	x9, x10, #16
	add	x8, x8, x12
	mov	w11, #33698
	lsr	x13, x10, #8
	strh	w11, [x8]
	strb	w9, [x8, #2]
	strb	w13, [x8, #3]
	strb	w10, [x8, #4]
	str	x12, [x1, #16]
	ldr	x30, [sp], #16
	.cfi_def_cfa_offset 0
	.cfi_restore w30
	ret
.LBB40_43:
	.cfi_restore_state
	.cfi_remember_state
	subs	x12, x11, #6
	b.lo	.LBB40_8
	cmp	x11, x9
	b.hi	.LBB40_46
	add	x8, x8, x12
	mov	w11, #33954
	lsr	x9, x10, #24
	lsr	x13, x10, #16
	strh	w11, [x8]
	lsr	x11, x10, #8
	strb	w9, [x8, #2]
	strb	w13, [x8, #3]
	strb	w11, [x8, #4]
	strb	w10, [x8, #5]
	str	x12, [x1, #16]
	ldr	x30, [sp], #16
	.cfi_def_cfa_offset 0
	.cfi_restore w30
	ret
.LBB40_46:
	.cfi_restore_state
	brk	#0x1
.Lfunc_end40:
	.size	_RINvNtNtNtCs00000000000_7pkcs1_c6proved12pkcs1_params6fields13prepend_fieldhNtNtNtB6_8der_core11back_writer10BackWriterEB8_, .Lfunc_end40-_RINvNtNtNtCs00000000000_7pkcs1_c6proved12pkcs1_params6fields13prepend_fieldhNtNtNtB6_8der_core11back_writer10BackWriterEB8_
	.cfi_endproc

	.section	.text._RINvNtNtNtCs00000000000_7pkcs1_c6proved12pkcs1_params6fields13prepend_fieldhNtNtNtB6_8der_core7counter7CounterEB8_,"ax",@progbits
	.p2align	2
	.type	_RINvNtNtNtCs00000000000_7pkcs1_c6proved12pkcs1_params6fields13prepend_fieldhNtNtNtB6_8der_core7counter7CounterEB8_,@function
_RINvNtNtNtCs00000000000_7pkcs1_c6proved12pkcs1_params6fields13prepend_fieldhNtNtNtB6_8der_core7counter7CounterEB8_:
	.cfi_startproc
	ldr	x8, [x1]
	sxtb	w9, w0
	adds	x10, x8, #1
	csinv	x10, x10, xzr, lo
	adds	x11, x8, #2
	csinv	x11, x11, xzr, lo
	cmp	w9, #0
	csel	x9, x11, x10, lt
	subs	x9, x9, x8
	csel	x9, xzr, x9, lo
	cmp	x9, #128
	b.hs	.LBB41_3
	add	x9, x9, #2
	adds	x9, x8, x9
	csinv	x9, x9, xzr, lo
	subs	x9, x9, x8
	csel	x9, xzr, x9, lo
	cmp	x9, #128
	b.lo	.LBB41_4
.LBB41_2:
	lsr	x10, x9, #24
	adds	x11, x9, #6
	add	x12, x9, #5
	csinv	x11, x11, xzr, lo
	cmp	x10, #0
	add	x10, x9, #4
	csel	x11, x12, x11, eq
	cmp	x9, #16, lsl #12
	add	x12, x9, #3
	csel	x10, x10, x11, lo
	cmp	x9, #256
	csel	x9, x12, x10, lo
	adds	x8, x8, x9
	csinv	x8, x8, xzr, lo
	str	x8, [x1]
	ret
.LBB41_3:
	lsr	x10, x9, #24
	adds	x11, x9, #6
	add	x12, x9, #5
	csinv	x11, x11, xzr, lo
	cmp	x10, #0
	add	x10, x9, #4
	csel	x11, x12, x11, eq
	cmp	x9, #16, lsl #12
	add	x12, x9, #3
	csel	x10, x10, x11, lo
	cmp	x9, #256
	csel	x9, x12, x10, lo
	adds	x9, x8, x9
	csinv	x9, x9, xzr, lo
	subs	x9, x9, x8
	csel	x9, xzr, x9, lo
	cmp	x9, #128
	b.hs	.LBB41_2
.LBB41_4:
	add	x9, x9, #2
	adds	x8, x8, x9
	csinv	x8, x8, xzr, lo
	str	x8, [x1]
	ret
.Lfunc_end41:
	.size	_RINvNtNtNtCs00000000000_7pkcs1_c6proved12pkcs1_params6fields13prepend_fieldhNtNtNtB6_8der_core7counter7CounterEB8_, .Lfunc_end41-_RINvNtNtNtCs00000000000_7pkcs1_c6proved12pkcs1_params6fields13prepend_fieldhNtNtNtB6_8der_core7counter7CounterEB8_
	.cfi_endproc

	.section	.text._RNvXs_NtNtNtCs00000000000_7pkcs1_c6proved12pkcs1_params7holdersINtNtNtB8_9spki_core20algorithm_identifier21AlgorithmIdentifierOfNtNtB14_15identifier_view14IdentifierViewIB10_B22_NtNtB14_3any6AnyRefEENtB4_10MaskHolder10is_defaultBa_,"ax",@progbits
	.p2align	2
	.type	_RNvXs_NtNtNtCs00000000000_7pkcs1_c6proved12pkcs1_params7holdersINtNtNtB8_9spki_core20algorithm_identifier21AlgorithmIdentifierOfNtNtB14_15identifier_view14IdentifierViewIB10_B22_NtNtB14_3any6AnyRefEENtB4_10MaskHolder10is_defaultBa_,@function
_RNvXs_NtNtNtCs00000000000_7pkcs1_c6proved12pkcs1_params7holdersINtNtNtB8_9spki_core20algorithm_identifier21AlgorithmIdentifierOfNtNtB14_15identifier_view14IdentifierViewIB10_B22_NtNtB14_3any6AnyRefEENtB4_10MaskHolder10is_defaultBa_:
	.cfi_startproc
	ldr	x9, [x0, #16]
	cbz	x9, .LBB42_12
	ldr	x8, [x0, #8]
	cmp	x8, #9
	b.ne	.LBB42_12
	ldr	x8, [x0]
	mov	x11, #34346
	movk	x11, #34376, lsl #16
	ldr	x10, [x8]
	movk	x11, #3575, lsl #32
	movk	x11, #257, lsl #48
	cmp	x10, x11
	b.ne	.LBB42_12
	ldrb	w8, [x8, #8]
	cmp	w8, #8
	b.ne	.LBB42_12
	ldr	x10, [x0, #32]
	mov	w8, wzr
	cbz	x10, .LBB42_13
	ldr	x10, [x0, #24]
	cmp	x10, #5
	b.ne	.LBB42_13
	ldrb	w8, [x9]
	cmp	w8, #43
	b.ne	.LBB42_12
	ldrb	w8, [x9, #1]
	cmp	w8, #14
	b.ne	.LBB42_12
	ldrb	w8, [x9, #2]
	cmp	w8, #3
	b.ne	.LBB42_12
	ldrb	w8, [x9, #3]
	cmp	w8, #2
	b.ne	.LBB42_12
	ldrb	w8, [x9, #4]
	cmp	w8, #26
	b.ne	.LBB42_12
	ldrb	w8, [x0, #48]
	ldr	x9, [x0, #40]
	cmp	x8, #5
	ccmp	x9, #0, #0, eq
	cset	w0, eq
	ret
.LBB42_12:
	mov	w8, wzr
.LBB42_13:
	mov	w0, w8
	ret
.Lfunc_end42:
	.size	_RNvXs_NtNtNtCs00000000000_7pkcs1_c6proved12pkcs1_params7holdersINtNtNtB8_9spki_core20algorithm_identifier21AlgorithmIdentifierOfNtNtB14_15identifier_view14IdentifierViewIB10_B22_NtNtB14_3any6AnyRefEENtB4_10MaskHolder10is_defaultBa_, .Lfunc_end42-_RNvXs_NtNtNtCs00000000000_7pkcs1_c6proved12pkcs1_params7holdersINtNtNtB8_9spki_core20algorithm_identifier21AlgorithmIdentifierOfNtNtB14_15identifier_view14IdentifierViewIB10_B22_NtNtB14_3any6AnyRefEENtB4_10MaskHolder10is_defaultBa_
	.cfi_endproc

	.section	.text._RNvNtNtNtCs00000000000_7pkcs1_c6proved12pkcs1_params6noting8note_pss,"ax",@progbits
	.p2align	2
	.type	_RNvNtNtNtCs00000000000_7pkcs1_c6proved12pkcs1_params6noting8note_pss,@function
_RNvNtNtNtCs00000000000_7pkcs1_c6proved12pkcs1_params6noting8note_pss:
	.cfi_startproc
	sub	sp, sp, #208
	.cfi_def_cfa_offset 208
	stp	x29, x30, [sp, #112]
	stp	x28, x27, [sp, #128]
	stp	x26, x25, [sp, #144]
	stp	x24, x23, [sp, #160]
	stp	x22, x21, [sp, #176]
	stp	x20, x19, [sp, #192]
	.cfi_offset w19, -8
	.cfi_offset w20, -16
	.cfi_offset w21, -24
	.cfi_offset w22, -32
	.cfi_offset w23, -40
	.cfi_offset w24, -48
	.cfi_offset w25, -56
	.cfi_offset w26, -64
	.cfi_offset w27, -72
	.cfi_offset w28, -80
	.cfi_offset w30, -88
	.cfi_offset w29, -96
	.cfi_remember_state
	mov	x19, x0
	cbz	x2, .LBB43_6
	ldrb	w8, [x1]
	cmp	w8, #160
	b.ne	.LBB43_7
	cmp	x2, #1
	b.eq	.LBB43_105
	ldrsb	w10, [x1, #1]
	add	x8, x1, #2
	sub	x9, x2, #2
	tbnz	w10, #31, .LBB43_76
	and	x11, x10, #0xff
	subs	x27, x9, x11
	b.lo	.LBB43_105
	add	x28, x8, x11
	cmp	x11, #2
	b.hs	.LBB43_107
	b	.LBB43_152
.LBB43_6:
	mov	x27, xzr
	mov	w16, #5
	adrp	x29, .Lanon.5
	add	x29, x29, :lo12:.Lanon.5
	adrp	x13, _RNvNtCs00000000000_7pkcs1_c10rattle_std8AN_OCTET
	add	x13, x13, :lo12:_RNvNtCs00000000000_7pkcs1_c10rattle_std8AN_OCTET
	str	xzr, [sp, #72]
	b	.LBB43_8
.LBB43_7:
	str	xzr, [sp, #72]
	adrp	x29, .Lanon.5
	add	x29, x29, :lo12:.Lanon.5
	adrp	x13, _RNvNtCs00000000000_7pkcs1_c10rattle_std8AN_OCTET
	add	x13, x13, :lo12:_RNvNtCs00000000000_7pkcs1_c10rattle_std8AN_OCTET
	mov	w16, #5
	mov	x27, x2
.LBB43_8:
	mov	x28, x1
.LBB43_9:
	ldrb	w8, [x29]
	cmp	w8, #43
	b.ne	.LBB43_15
	ldrb	w8, [x29, #1]
	cmp	w8, #14
	b.ne	.LBB43_15
	ldrb	w8, [x29, #2]
	cmp	w8, #3
	b.ne	.LBB43_15
	ldrb	w8, [x29, #3]
	cmp	w8, #2
	b.ne	.LBB43_15
	ldrb	w8, [x29, #4]
	cmp	w8, #26
	b.ne	.LBB43_15
	ldr	x8, [sp, #72]
	cmp	x16, #5
	ccmp	x8, #0, #0, eq
	cset	w8, eq
	b	.LBB43_16
.LBB43_15:
	mov	w8, wzr
.LBB43_16:
	mov	w24, #5
.LBB43_17:
	cbz	x2, .LBB43_24
	ldrb	w9, [x1]
	cmp	w9, #160
	csel	w21, wzr, w8, ne
	cbz	x27, .LBB43_25
.LBB43_19:
	ldrb	w8, [x28]
	cmp	w8, #161
	b.ne	.LBB43_26
	cmp	x27, #1
	b.eq	.LBB43_170
	ldrsb	w10, [x28, #1]
	add	x8, x28, #2
	sub	x9, x27, #2
	tbnz	w10, #31, .LBB43_81
	and	x2, x10, #0xff
	subs	x26, x9, x2
	b.lo	.LBB43_170
	add	x15, x8, x2
	cmp	x2, #2
	b.hs	.LBB43_172
	b	.LBB43_216
.LBB43_24:
	mov	w21, wzr
	cbnz	x27, .LBB43_19
.LBB43_25:
	mov	x12, xzr
	mov	x26, xzr
	adrp	x25, .Lanon.6
	add	x25, x25, :lo12:.Lanon.6
	adrp	x8, .Lanon.5
	add	x8, x8, :lo12:.Lanon.5
	adrp	x20, _RNvNtCs00000000000_7pkcs1_c10rattle_std8AN_OCTET
	add	x20, x20, :lo12:_RNvNtCs00000000000_7pkcs1_c10rattle_std8AN_OCTET
	mov	w22, #5
	mov	w14, #5
	str	x8, [sp, #64]
	b	.LBB43_27
.LBB43_26:
	adrp	x8, .Lanon.5
	add	x8, x8, :lo12:.Lanon.5
	mov	x12, xzr
	adrp	x25, .Lanon.6
	add	x25, x25, :lo12:.Lanon.6
	str	x8, [sp, #64]
	adrp	x20, _RNvNtCs00000000000_7pkcs1_c10rattle_std8AN_OCTET
	add	x20, x20, :lo12:_RNvNtCs00000000000_7pkcs1_c10rattle_std8AN_OCTET
	mov	w22, #5
	mov	w14, #5
	mov	x26, x27
.LBB43_27:
	mov	x15, x28
.LBB43_28:
	mov	x9, #34346
	ldr	x8, [x25]
	movk	x9, #34376, lsl #16
	movk	x9, #3575, lsl #32
	movk	x9, #257, lsl #48
	cmp	x8, x9
	b.ne	.LBB43_38
	ldrb	w8, [x25, #8]
	cmp	w8, #8
	b.ne	.LBB43_38
	mov	w8, wzr
	mov	w23, #9
	cbz	x20, .LBB43_39
	cmp	x14, #5
	b.ne	.LBB43_39
	ldr	x8, [sp, #64]
	ldrb	w8, [x8]
	cmp	w8, #43
	b.ne	.LBB43_87
	ldr	x8, [sp, #64]
	ldrb	w8, [x8, #1]
	cmp	w8, #14
	b.ne	.LBB43_87
	ldr	x8, [sp, #64]
	ldrb	w8, [x8, #2]
	cmp	w8, #3
	b.ne	.LBB43_87
	ldr	x8, [sp, #64]
	ldrb	w8, [x8, #3]
	cmp	w8, #2
	b.ne	.LBB43_87
	ldr	x8, [sp, #64]
	ldrb	w8, [x8, #4]
	cmp	w8, #26
	b.ne	.LBB43_87
	and	x8, x22, #0xff
	cmp	x8, #5
	ccmp	x12, #0, #0, eq
	cset	w8, eq
	b	.LBB43_88
.LBB43_38:
	mov	w8, wzr
	mov	w23, #9
.LBB43_39:
	tbz	w21, #0, .LBB43_47
	cbz	x26, .LBB43_55
	ldrb	w8, [x15]
	cmp	w8, #162
	b.ne	.LBB43_55
	cmp	x26, #1
	b.eq	.LBB43_291
	ldrsb	w9, [x15, #1]
	add	x1, x15, #2
	sub	x8, x26, #2
	tbnz	w9, #31, .LBB43_237
	and	x2, x9, #0xff
	subs	x8, x8, x2
	b.lo	.LBB43_291
	add	x15, x1, x2
	mov	x26, x8
	cmp	x2, #2
	b.lo	.LBB43_298
.LBB43_46:
	mov	x8, x1
	ldrb	w9, [x8], #2
	cmp	w9, #2
	b.eq	.LBB43_283
	b	.LBB43_298
.LBB43_47:
	cbz	x27, .LBB43_70
	ldrb	w9, [x28]
	cmp	w9, #161
	csel	w8, wzr, w8, ne
	tbz	w8, #0, .LBB43_70
	cbz	x26, .LBB43_232
	ldrb	w8, [x15]
	cmp	w8, #162
	b.ne	.LBB43_247
	cmp	x26, #1
	stp	x22, x12, [sp, #48]
	b.eq	.LBB43_467
	ldrsb	w9, [x15, #1]
	add	x1, x15, #2
	sub	x8, x26, #2
	tbnz	w9, #31, .LBB43_359
	and	x2, x9, #0xff
	subs	x8, x8, x2
	b.lo	.LBB43_467
	add	x15, x1, x2
	mov	x26, x8
	cmp	x2, #2
	b.hs	.LBB43_469
	b	.LBB43_486
.LBB43_55:
	mov	w27, wzr
	mov	w21, #20
.LBB43_56:
	cbz	x26, .LBB43_233
	ldrb	w8, [x15]
	cmp	w8, #163
	b.ne	.LBB43_526
.LBB43_58:
	cmp	x26, #1
	b.eq	.LBB43_313
	ldrsb	w9, [x15, #1]
	add	x1, x15, #2
	sub	x8, x26, #2
	tbnz	w9, #31, .LBB43_242
	and	x2, x9, #0xff
	subs	x17, x8, x2
	b.lo	.LBB43_313
	cmp	x2, #2
	b.lo	.LBB43_325
.LBB43_62:
	mov	x8, x1
	ldrb	w9, [x8], #2
	cmp	w9, #2
	b.ne	.LBB43_325
	ldrsb	w9, [x1, #1]
	sub	x10, x2, #2
	tbnz	w9, #31, .LBB43_250
	and	x9, x9, #0xff
	subs	x10, x10, x9
	b.lo	.LBB43_325
	cbz	x9, .LBB43_327
.LBB43_66:
	cmp	x9, #1
	b.ne	.LBB43_320
	ldrsb	w8, [x8]
	tbnz	w8, #31, .LBB43_388
	cmp	w8, #1
	b.ne	.LBB43_605
	cbnz	x10, .LBB43_427
	b	.LBB43_396
.LBB43_70:
	cbz	x26, .LBB43_86
	ldrb	w8, [x15]
	cmp	w8, #162
	b.ne	.LBB43_94
	cmp	x26, #1
	b.eq	.LBB43_349
	ldrsb	w9, [x15, #1]
	add	x1, x15, #2
	sub	x8, x26, #2
	tbnz	w9, #31, .LBB43_263
	and	x2, x9, #0xff
	subs	x8, x8, x2
	b.lo	.LBB43_349
	add	x18, x1, x2
	mov	x26, x8
	cmp	x2, #2
	b.hs	.LBB43_351
	b	.LBB43_369
.LBB43_76:
	and	w10, w10, #0xff
	cmp	w10, #130
	b.ne	.LBB43_89
	cmp	x9, #1
	b.ls	.LBB43_105
	ldrb	w8, [x1, #2]
	cbz	x8, .LBB43_105
	ldrb	w9, [x1, #3]
	orr	x11, x9, x8, lsl #8
	sub	x8, x2, #4
	subs	x27, x8, x11
	b.lo	.LBB43_105
	add	x8, x1, #4
	add	x28, x8, x11
	b	.LBB43_107
.LBB43_81:
	and	w10, w10, #0xff
	cmp	w10, #130
	b.ne	.LBB43_165
	cmp	x9, #1
	b.ls	.LBB43_170
	ldrb	w8, [x28, #2]
	cbz	x8, .LBB43_170
	ldrb	w9, [x28, #3]
	orr	x2, x9, x8, lsl #8
	sub	x8, x27, #4
	subs	x26, x8, x2
	b.lo	.LBB43_170
	add	x8, x28, #4
	add	x15, x8, x2
	b	.LBB43_172
.LBB43_86:
	mov	w8, wzr
	mov	w21, #20
	mov	w27, #2
	b	.LBB43_235
.LBB43_87:
	mov	w8, wzr
.LBB43_88:
	mov	w23, #9
	mov	w14, #5
	b	.LBB43_39
.LBB43_89:
	cbz	x9, .LBB43_105
	cmp	w10, #129
	b.ne	.LBB43_105
	ldrsb	w8, [x8]
	tbz	w8, #31, .LBB43_105
	sub	x9, x2, #3
	and	x11, x8, #0xff
	subs	x27, x9, x11
	b.lo	.LBB43_105
	add	x8, x1, #3
	add	x28, x8, x11
	b	.LBB43_107
.LBB43_94:
	mov	w21, #20
	cmp	w8, #163
	b.ne	.LBB43_526
.LBB43_95:
	cmp	x26, #1
	str	x12, [sp, #56]
	b.eq	.LBB43_414
	ldrsb	w9, [x15, #1]
	add	x1, x15, #2
	sub	x8, x26, #2
	tbnz	w9, #31, .LBB43_328
	and	x2, x9, #0xff
	subs	x17, x8, x2
	b.lo	.LBB43_414
	cmp	x2, #2
	b.lo	.LBB43_421
.LBB43_99:
	mov	x0, x1
	ldrb	w8, [x0], #2
	cmp	w8, #2
	b.ne	.LBB43_421
	ldrsb	w8, [x1, #1]
	sub	x9, x2, #2
	tbnz	w8, #31, .LBB43_344
	and	x8, x8, #0xff
	subs	x9, x9, x8
	b.lo	.LBB43_421
	cmp	x8, #1
	str	x22, [sp, #48]
	b.ne	.LBB43_423
.LBB43_103:
	ldrsb	w8, [x0]
	tbnz	w8, #31, .LBB43_523
	and	w8, w8, #0xff
	b	.LBB43_425
.LBB43_105:
	add	x0, sp, #80
	mov	w3, #160
	mov	x20, x1
	mov	x21, x2
	bl	_RNvNtNtNtCs00000000000_7pkcs1_c6proved8der_core5split14split_unlikely
	ldr	x8, [sp, #80]
	cbz	x8, .LBB43_262
	ldp	x11, x28, [sp, #88]
	mov	x1, x20
	ldr	x27, [sp, #104]
	mov	x2, x21
	cmp	x11, #2
	b.lo	.LBB43_152
.LBB43_107:
	mov	x9, x8
	ldrb	w10, [x9], #2
	cmp	w10, #48
	b.ne	.LBB43_152
	ldrsb	w10, [x8, #1]
	sub	x12, x11, #2
	tbnz	w10, #31, .LBB43_127
	and	x10, x10, #0xff
	subs	x21, x12, x10
	b.lo	.LBB43_152
	cmp	x10, #2
	b.lo	.LBB43_159
.LBB43_111:
	mov	x29, x9
	ldrb	w8, [x29], #2
	cmp	w8, #6
	b.ne	.LBB43_159
	ldrsb	w11, [x9, #1]
	sub	x8, x10, #2
	tbnz	w11, #31, .LBB43_132
	and	x24, x11, #0xff
	subs	x8, x8, x24
	b.lo	.LBB43_159
	add	x9, x29, x24
	sub	x11, x24, #1
	cmp	x11, #38
	b.hi	.LBB43_161
.LBB43_115:
	ldrsb	w10, [x29, x11]
	tbnz	w10, #31, .LBB43_138
	movi	v0.8b, #128
	movi	v1.4h, #128
	mov	x12, x29
	b	.LBB43_118
.LBB43_117:
	add	x11, x13, x11
	add	x12, x12, x14
.LBB43_118:
	cmp	x11, #7
	b.ls	.LBB43_121
	ldr	d2, [x12]
	cmeq	v2.8b, v2.8b, v0.8b
	umaxv	b2, v2.8b
	fmov	w13, s2
	tbnz	w13, #0, .LBB43_137
	mov	x13, #-8
	mov	w14, #8
	b	.LBB43_117
.LBB43_121:
	cmp	x11, #3
	b.ls	.LBB43_124
	ldr	s2, [x12]
	ushll	v2.8h, v2.8b, #0
	cmeq	v2.4h, v2.4h, v1.4h
	umaxv	h2, v2.4h
	fmov	w13, s2
	tbnz	w13, #0, .LBB43_137
	mov	x13, #-4
	mov	w14, #4
	b	.LBB43_117
.LBB43_124:
	cbz	x11, .LBB43_141
	ldrb	w13, [x12]
	cmp	w13, #128
	b.eq	.LBB43_137
	mov	x13, #-1
	mov	w14, #1
	b	.LBB43_117
.LBB43_127:
	and	w10, w10, #0xff
	cmp	w10, #130
	b.ne	.LBB43_147
	cmp	x12, #1
	b.ls	.LBB43_152
	ldrb	w9, [x8, #2]
	cbz	x9, .LBB43_152
	ldrb	w10, [x8, #3]
	orr	x10, x10, x9, lsl #8
	sub	x9, x11, #4
	subs	x21, x9, x10
	b.lo	.LBB43_152
	add	x9, x8, #4
	b	.LBB43_111
.LBB43_132:
	and	w11, w11, #0xff
	cmp	w11, #130
	b.ne	.LBB43_154
	cmp	x8, #1
	b.ls	.LBB43_159
	ldrb	w8, [x9, #2]
	cbz	x8, .LBB43_159
	ldrb	w11, [x9, #3]
	orr	x24, x11, x8, lsl #8
	sub	x8, x10, #4
	subs	x8, x8, x24
	b.lo	.LBB43_159
	add	x29, x9, #4
	add	x9, x29, x24
	sub	x11, x24, #1
	cmp	x11, #38
	b.ls	.LBB43_115
	b	.LBB43_161
.LBB43_137:
	cbz	x24, .LBB43_141
.LBB43_138:
	ldrb	w11, [x29]
	cmp	w11, #128
	b.eq	.LBB43_161
	subs	x12, x24, #1
	b.ne	.LBB43_255
.LBB43_140:
	tbnz	w10, #31, .LBB43_161
.LBB43_141:
	cbz	x8, .LBB43_248
	ldrb	w16, [x9]
	mov	w11, #31
	mov	x10, xzr
	bics	wzr, w11, w16
	mov	w11, #11
	b.eq	.LBB43_550
	and	w12, w16, #0xffffffdf
	tst	w12, #0xff
	b.eq	.LBB43_550
	cmp	x8, #1
	b.eq	.LBB43_517
	ldrsb	w11, [x9, #1]
	add	x13, x9, #2
	sub	x10, x8, #2
	tbnz	w11, #31, .LBB43_380
	and	x11, x11, #0xff
	subs	x10, x10, x11
	str	x11, [sp, #72]
	b.hs	.LBB43_519
	b	.LBB43_517
.LBB43_147:
	cbz	x12, .LBB43_152
	cmp	w10, #129
	b.ne	.LBB43_152
	ldrsb	w9, [x9]
	tbz	w9, #31, .LBB43_152
	sub	x12, x11, #3
	and	x10, x9, #0xff
	subs	x21, x12, x10
	b.lo	.LBB43_152
	add	x9, x8, #3
	b	.LBB43_111
.LBB43_152:
	mov	x20, x2
	mov	x22, x1
	add	x0, sp, #80
	mov	x1, x8
	mov	x2, x11
	mov	w3, #48
	bl	_RNvNtNtNtCs00000000000_7pkcs1_c6proved8der_core5split14split_unlikely
	ldr	x9, [sp, #80]
	cbz	x9, .LBB43_260
	ldr	x10, [sp, #88]
	ldr	x21, [sp, #104]
	mov	x1, x22
	mov	x2, x20
	cmp	x10, #2
	b.hs	.LBB43_111
	b	.LBB43_159
.LBB43_154:
	cbz	x8, .LBB43_159
	cmp	w11, #129
	b.ne	.LBB43_159
	ldrsb	w8, [x29]
	tbz	w8, #31, .LBB43_159
	sub	x11, x10, #3
	and	x24, x8, #0xff
	subs	x8, x11, x24
	b.lo	.LBB43_159
	add	x29, x9, #3
	add	x9, x29, x24
	sub	x11, x24, #1
	cmp	x11, #38
	b.hi	.LBB43_161
	b	.LBB43_115
.LBB43_159:
	mov	x22, x2
	mov	x23, x1
	add	x0, sp, #80
	mov	x1, x9
	mov	x2, x10
	mov	w3, #6
	bl	_RNvNtNtNtCs00000000000_7pkcs1_c6proved8der_core5split14split_unlikely
	ldr	x29, [sp, #80]
	cbz	x29, .LBB43_261
	ldp	x24, x9, [sp, #88]
	mov	x1, x23
	ldr	x8, [sp, #104]
	mov	x2, x22
	sub	x11, x24, #1
	cmp	x11, #38
	b.ls	.LBB43_115
.LBB43_161:
	mov	w11, #5
.LBB43_162:
	lsr	x8, x11, #8
.LBB43_163:
	bfi	w11, w8, #8, #24
.LBB43_164:
	lsr	w8, w11, #16
	strh	w11, [x19]
	b	.LBB43_229
.LBB43_165:
	cbz	x9, .LBB43_170
	cmp	w10, #129
	b.ne	.LBB43_170
	ldrsb	w8, [x8]
	tbz	w8, #31, .LBB43_170
	sub	x9, x27, #3
	and	x2, x8, #0xff
	subs	x26, x9, x2
	b.lo	.LBB43_170
	add	x8, x28, #3
	add	x15, x8, x2
	b	.LBB43_172
.LBB43_170:
	add	x0, sp, #80
	mov	x1, x28
	mov	x2, x27
	mov	w3, #161
	mov	x23, x13
	mov	x22, x16
	bl	_RNvNtNtNtCs00000000000_7pkcs1_c6proved8der_core5split14split_unlikely
	ldr	x8, [sp, #80]
	cbz	x8, .LBB43_290
	ldp	x2, x15, [sp, #88]
	mov	x16, x22
	ldr	x26, [sp, #104]
	mov	x13, x23
	cmp	x2, #2
	b.lo	.LBB43_216
.LBB43_172:
	mov	x1, x8
	ldrb	w9, [x1], #2
	cmp	w9, #48
	b.ne	.LBB43_216
	ldrsb	w9, [x8, #1]
	sub	x10, x2, #2
	tbnz	w9, #31, .LBB43_201
	and	x9, x9, #0xff
	subs	x17, x10, x9
	b.lo	.LBB43_216
	cmp	x9, #2
	b.lo	.LBB43_223
.LBB43_176:
	mov	x25, x1
	ldrb	w8, [x25], #2
	cmp	w8, #6
	b.ne	.LBB43_223
	ldrsb	w10, [x1, #1]
	sub	x8, x9, #2
	tbnz	w10, #31, .LBB43_206
	and	x23, x10, #0xff
	subs	x2, x8, x23
	b.lo	.LBB43_223
	add	x1, x25, x23
	sub	x9, x23, #1
	cmp	x9, #38
	b.hi	.LBB43_225
.LBB43_180:
	ldrsb	w8, [x25, x9]
	tbnz	w8, #31, .LBB43_193
	movi	v0.8b, #128
	movi	v1.4h, #128
	mov	x10, x25
	b	.LBB43_184
.LBB43_182:
	mov	x11, #-1
	mov	w12, #1
.LBB43_183:
	add	x9, x11, x9
	add	x10, x10, x12
.LBB43_184:
	cmp	x9, #7
	b.ls	.LBB43_187
	ldr	d2, [x10]
	cmeq	v2.8b, v2.8b, v0.8b
	umaxv	b2, v2.8b
	fmov	w11, s2
	tbnz	w11, #0, .LBB43_192
	mov	x11, #-8
	mov	w12, #8
	b	.LBB43_183
.LBB43_187:
	cmp	x9, #3
	b.ls	.LBB43_190
	ldr	s2, [x10]
	ushll	v2.8h, v2.8b, #0
	cmeq	v2.4h, v2.4h, v1.4h
	umaxv	h2, v2.4h
	fmov	w11, s2
	tbnz	w11, #0, .LBB43_192
	mov	x11, #-4
	mov	w12, #4
	b	.LBB43_183
.LBB43_190:
	cbz	x9, .LBB43_196
	ldrb	w11, [x10]
	cmp	w11, #128
	b.ne	.LBB43_182
.LBB43_192:
	cbz	x23, .LBB43_196
.LBB43_193:
	ldrb	w9, [x25]
	cmp	w9, #128
	b.eq	.LBB43_225
	subs	x10, x23, #1
	b.ne	.LBB43_270
.LBB43_195:
	tbnz	w8, #31, .LBB43_225
.LBB43_196:
	cbz	x2, .LBB43_268
	cmp	x2, #1
	b.eq	.LBB43_402
	mov	x8, x1
	ldrb	w9, [x8], #2
	cmp	w9, #48
	b.ne	.LBB43_402
	ldrsb	w9, [x1, #1]
	sub	x10, x2, #2
	tbnz	w9, #31, .LBB43_339
	and	x9, x9, #0xff
	subs	x18, x10, x9
	b.hs	.LBB43_404
	b	.LBB43_402
.LBB43_201:
	and	w9, w9, #0xff
	cmp	w9, #130
	b.ne	.LBB43_211
	cmp	x10, #1
	b.ls	.LBB43_216
	ldrb	w9, [x8, #2]
	cbz	x9, .LBB43_216
	ldrb	w10, [x8, #3]
	orr	x9, x10, x9, lsl #8
	sub	x10, x2, #4
	subs	x17, x10, x9
	b.lo	.LBB43_216
	add	x1, x8, #4
	b	.LBB43_176
.LBB43_206:
	and	w10, w10, #0xff
	cmp	w10, #130
	b.ne	.LBB43_218
	cmp	x8, #1
	b.ls	.LBB43_223
	ldrb	w8, [x1, #2]
	cbz	x8, .LBB43_223
	ldrb	w10, [x1, #3]
	orr	x23, x10, x8, lsl #8
	sub	x8, x9, #4
	subs	x2, x8, x23
	b.lo	.LBB43_223
	add	x25, x1, #4
	add	x1, x25, x23
	sub	x9, x23, #1
	cmp	x9, #38
	b.ls	.LBB43_180
	b	.LBB43_225
.LBB43_211:
	cbz	x10, .LBB43_216
	cmp	w9, #129
	b.ne	.LBB43_216
	ldrsb	w9, [x1]
	tbz	w9, #31, .LBB43_216
	sub	x10, x2, #3
	and	x9, x9, #0xff
	subs	x17, x10, x9
	b.lo	.LBB43_216
	add	x1, x8, #3
	b	.LBB43_176
.LBB43_216:
	add	x0, sp, #80
	mov	x1, x8
	mov	w3, #48
	mov	x20, x15
	mov	x23, x13
	mov	x22, x16
	bl	_RNvNtNtNtCs00000000000_7pkcs1_c6proved8der_core5split14split_unlikely
	ldr	x1, [sp, #80]
	cbz	x1, .LBB43_275
	ldr	x9, [sp, #88]
	ldr	x17, [sp, #104]
	mov	x16, x22
	mov	x13, x23
	mov	x15, x20
	cmp	x9, #2
	b.hs	.LBB43_176
	b	.LBB43_223
.LBB43_218:
	cbz	x8, .LBB43_223
	cmp	w10, #129
	b.ne	.LBB43_223
	ldrsb	w8, [x25]
	tbz	w8, #31, .LBB43_223
	sub	x10, x9, #3
	and	x23, x8, #0xff
	subs	x2, x10, x23
	b.lo	.LBB43_223
	add	x25, x1, #3
	add	x1, x25, x23
	sub	x9, x23, #1
	cmp	x9, #38
	b.hi	.LBB43_225
	b	.LBB43_180
.LBB43_223:
	add	x0, sp, #80
	mov	x2, x9
	mov	w3, #6
	mov	x25, x17
	mov	x20, x15
	mov	x22, x13
	mov	x23, x16
	bl	_RNvNtNtNtCs00000000000_7pkcs1_c6proved8der_core5split14split_unlikely
	ldr	x8, [sp, #80]
	cbz	x8, .LBB43_276
	mov	x9, x8
	ldp	x8, x1, [sp, #88]
	ldr	x2, [sp, #104]
	mov	x16, x23
	mov	x13, x22
	mov	x15, x20
	mov	x17, x25
	mov	x25, x9
	mov	x23, x8
	sub	x9, x8, #1
	cmp	x9, #38
	b.ls	.LBB43_180
.LBB43_225:
	mov	w9, #5
.LBB43_226:
	lsr	x8, x9, #8
.LBB43_227:
	bfi	w9, w8, #8, #24
.LBB43_228:
	lsr	w8, w9, #16
	strh	w9, [x19]
.LBB43_229:
	mov	w9, #2
	strb	w8, [x19, #2]
.LBB43_230:
	strb	w9, [x19, #104]
.LBB43_231:
	ldp	x20, x19, [sp, #192]
	ldp	x22, x21, [sp, #176]
	ldp	x24, x23, [sp, #160]
	ldp	x26, x25, [sp, #144]
	ldp	x28, x27, [sp, #128]
	ldp	x29, x30, [sp, #112]
	add	sp, sp, #208
	.cfi_def_cfa_offset 0
	.cfi_restore w19
	.cfi_restore w20
	.cfi_restore w21
	.cfi_restore w22
	.cfi_restore w23
	.cfi_restore w24
	.cfi_restore w25
	.cfi_restore w26
	.cfi_restore w27
	.cfi_restore w28
	.cfi_restore w30
	.cfi_restore w29
	ret
.LBB43_232:
	.cfi_restore_state
	mov	w27, #1
	mov	w21, #20
.LBB43_233:
	cbz	x15, .LBB43_236
	mov	w8, #1
.LBB43_235:
	lsr	w9, w24, #16
	str	x29, [x19]
	strh	w24, [x19, #8]
	strb	w9, [x19, #10]
	ldr	x9, [sp, #72]
	strb	wzr, [x19, #15]
	stp	x13, x9, [x19, #16]
	lsr	w9, w23, #16
	stur	wzr, [x19, #11]
	strb	w9, [x19, #50]
	ldr	x9, [sp, #64]
	stp	x16, x25, [x19, #32]
	strh	w23, [x19, #48]
	strb	wzr, [x19, #55]
	stur	wzr, [x19, #51]
	stp	x9, x14, [x19, #56]
	stp	x20, x12, [x19, #72]
	str	x22, [x19, #88]
	strb	w21, [x19, #96]
	strb	w8, [x19, #104]
	strb	w27, [x19, #105]
	b	.LBB43_231
.LBB43_236:
	mov	x8, xzr
	b	.LBB43_607
.LBB43_237:
	and	w9, w9, #0xff
	cmp	w9, #130
	b.ne	.LBB43_277
	cmp	x8, #1
	b.ls	.LBB43_291
	ldrb	w8, [x15, #2]
	cbz	x8, .LBB43_291
	ldrb	w9, [x15, #3]
	orr	x2, x9, x8, lsl #8
	sub	x8, x26, #4
	subs	x8, x8, x2
	b.lo	.LBB43_291
	add	x1, x15, #4
	b	.LBB43_282
.LBB43_242:
	and	w9, w9, #0xff
	cmp	w9, #130
	b.ne	.LBB43_308
	cmp	x8, #1
	b.ls	.LBB43_313
	ldrb	w8, [x15, #2]
	cbz	x8, .LBB43_313
	ldrb	w9, [x15, #3]
	orr	x2, x9, x8, lsl #8
	sub	x8, x26, #4
	subs	x17, x8, x2
	b.lo	.LBB43_313
	add	x1, x15, #4
	b	.LBB43_62
.LBB43_247:
	mov	w27, #1
	mov	w21, #20
	cmp	w8, #163
	b.eq	.LBB43_58
	b	.LBB43_526
.LBB43_248:
	cbnz	x21, .LBB43_522
	mov	x13, xzr
	mov	w8, wzr
	b	.LBB43_17
.LBB43_250:
	and	w9, w9, #0xff
	cmp	w9, #130
	b.ne	.LBB43_315
	cmp	x10, #1
	b.ls	.LBB43_325
	ldrb	w8, [x8]
	cbz	x8, .LBB43_325
	ldrb	w9, [x1, #3]
	orr	x9, x9, x8, lsl #8
	sub	x8, x2, #4
	cmp	x9, x8
	b.hi	.LBB43_325
	add	x8, x1, #4
	b	.LBB43_320
.LBB43_255:
	mov	x0, xzr
	add	x13, x29, #1
	mov	w11, #5
	b	.LBB43_257
.LBB43_256:
	add	x0, x0, #1
	add	x13, x13, #1
	cmp	x12, x0
	b.eq	.LBB43_140
.LBB43_257:
	ldrb	w14, [x13]
	cmp	w14, #128
	b.ne	.LBB43_256
	cmp	x0, x24
	b.hs	.LBB43_611
	ldursb	w14, [x13, #-1]
	tbnz	w14, #31, .LBB43_256
	b	.LBB43_162
.LBB43_260:
	ldrb	w8, [sp, #90]
	ldrh	w9, [sp, #88]
	orr	w11, w9, w8, lsl #16
	lsr	w8, w11, #8
	b	.LBB43_163
.LBB43_261:
	ldrb	w8, [sp, #90]
	ldrh	w9, [sp, #88]
	orr	x11, x9, x8, lsl #16
	b	.LBB43_162
.LBB43_262:
	ldrb	w8, [sp, #90]
	ldrh	w9, [sp, #88]
	orr	w11, w9, w8, lsl #16
	b	.LBB43_164
.LBB43_263:
	and	w9, w9, #0xff
	cmp	w9, #130
	b.ne	.LBB43_333
	cmp	x8, #1
	b.ls	.LBB43_349
	ldrb	w8, [x15, #2]
	cbz	x8, .LBB43_349
	ldrb	w9, [x15, #3]
	orr	x2, x9, x8, lsl #8
	sub	x8, x26, #4
	subs	x8, x8, x2
	b.lo	.LBB43_349
	add	x1, x15, #4
	b	.LBB43_338
.LBB43_268:
	cbz	x17, .LBB43_385
.LBB43_269:
	mov	w9, #12
	b	.LBB43_227
.LBB43_270:
	mov	x0, xzr
	add	x11, x25, #1
	mov	w9, #5
	b	.LBB43_272
.LBB43_271:
	add	x0, x0, #1
	add	x11, x11, #1
	cmp	x10, x0
	b.eq	.LBB43_195
.LBB43_272:
	ldrb	w12, [x11]
	cmp	w12, #128
	b.ne	.LBB43_271
	cmp	x0, x23
	b.hs	.LBB43_612
	ldursb	w12, [x11, #-1]
	tbnz	w12, #31, .LBB43_271
	b	.LBB43_226
.LBB43_275:
	ldrb	w8, [sp, #90]
	ldrh	w9, [sp, #88]
	orr	w9, w9, w8, lsl #16
	lsr	w8, w9, #8
	b	.LBB43_227
.LBB43_276:
	ldrb	w8, [sp, #90]
	ldrh	w9, [sp, #88]
	orr	x9, x9, x8, lsl #16
	b	.LBB43_226
.LBB43_277:
	cbz	x8, .LBB43_291
	cmp	w9, #129
	b.ne	.LBB43_291
	ldrsb	w8, [x1]
	tbz	w8, #31, .LBB43_291
	sub	x9, x26, #3
	and	x2, x8, #0xff
	subs	x8, x9, x2
	b.lo	.LBB43_291
	add	x1, x15, #3
.LBB43_282:
	add	x15, x1, x2
	mov	x26, x8
	mov	x8, x1
	ldrb	w9, [x8], #2
	cmp	w9, #2
	b.ne	.LBB43_298
.LBB43_283:
	ldrsb	w10, [x1, #1]
	sub	x9, x2, #2
	tbnz	w10, #31, .LBB43_285
	and	x10, x10, #0xff
	subs	x9, x9, x10
	b.hs	.LBB43_300
	b	.LBB43_298
.LBB43_285:
	and	w10, w10, #0xff
	cmp	w10, #130
	b.ne	.LBB43_293
	cmp	x9, #1
	b.ls	.LBB43_298
	ldrb	w8, [x1, #2]
	cbz	x8, .LBB43_298
	ldrb	w9, [x1, #3]
	orr	x10, x9, x8, lsl #8
	sub	x8, x2, #4
	subs	x9, x8, x10
	b.lo	.LBB43_298
	add	x8, x1, #4
	b	.LBB43_300
.LBB43_290:
	ldrb	w8, [sp, #90]
	ldrh	w9, [sp, #88]
	orr	w9, w9, w8, lsl #16
	b	.LBB43_228
.LBB43_291:
	add	x0, sp, #80
	mov	x1, x15
	mov	x2, x26
	mov	w3, #162
	stp	x22, x12, [sp, #48]
	mov	x28, x14
	mov	x22, x13
	mov	x21, x16
	bl	_RNvNtNtNtCs00000000000_7pkcs1_c6proved8der_core5split14split_unlikely
	ldr	x1, [sp, #80]
	cbz	x1, .LBB43_475
	ldp	x2, x15, [sp, #88]
	mov	x13, x22
	ldp	x22, x12, [sp, #48]
	mov	x16, x21
	ldr	x26, [sp, #104]
	mov	x14, x28
	cmp	x2, #2
	b.hs	.LBB43_46
	b	.LBB43_298
.LBB43_293:
	cbz	x9, .LBB43_298
	cmp	w10, #129
	b.ne	.LBB43_298
	ldrsb	w8, [x8]
	tbz	w8, #31, .LBB43_298
	sub	x9, x2, #3
	and	x10, x8, #0xff
	subs	x9, x9, x10
	b.lo	.LBB43_298
	add	x8, x1, #3
	b	.LBB43_300
.LBB43_298:
	add	x0, sp, #80
	mov	w3, #2
	stp	x22, x12, [sp, #48]
	str	x20, [sp, #40]
	mov	x20, x15
	mov	x22, x14
	mov	x28, x13
	mov	x27, x16
	bl	_RNvNtNtNtCs00000000000_7pkcs1_c6proved8der_core5split14split_unlikely
	ldr	x8, [sp, #80]
	cbz	x8, .LBB43_386
	mov	x14, x22
	mov	x15, x20
	ldr	x10, [sp, #88]
	ldp	x20, x22, [sp, #40]
	ldr	x9, [sp, #104]
	ldr	x12, [sp, #56]
	mov	x16, x27
	mov	x13, x28
.LBB43_300:
	cbz	x10, .LBB43_376
	cmp	x10, #1
	b.ne	.LBB43_305
	ldrsb	w8, [x8]
	tbnz	w8, #31, .LBB43_532
.LBB43_303:
	and	w21, w8, #0xff
	cbnz	x9, .LBB43_375
	mov	w27, wzr
	b	.LBB43_56
.LBB43_305:
	ldrb	w11, [x8]
	cbnz	w11, .LBB43_532
	ldrsb	w8, [x8, #1]
	tbz	w8, #31, .LBB43_379
	sub	x10, x10, #3
	cmn	x10, #2
	b.hs	.LBB43_303
	b	.LBB43_532
.LBB43_308:
	cbz	x8, .LBB43_313
	cmp	w9, #129
	b.ne	.LBB43_313
	ldrsb	w8, [x1]
	tbz	w8, #31, .LBB43_313
	sub	x9, x26, #3
	and	x2, x8, #0xff
	subs	x17, x9, x2
	b.lo	.LBB43_313
	add	x1, x15, #3
	b	.LBB43_62
.LBB43_313:
	add	x0, sp, #80
	mov	x1, x15
	mov	x2, x26
	mov	w3, #163
	stp	x22, x12, [sp, #48]
	mov	x22, x13
	str	x14, [sp, #32]
	mov	x28, x16
	bl	_RNvNtNtNtCs00000000000_7pkcs1_c6proved8der_core5split14split_unlikely
	ldr	x1, [sp, #80]
	cbz	x1, .LBB43_589
	mov	x13, x22
	ldp	x22, x12, [sp, #48]
	ldr	x2, [sp, #88]
	ldr	x17, [sp, #104]
	mov	x16, x28
	ldr	x14, [sp, #32]
	cmp	x2, #2
	b.hs	.LBB43_62
	b	.LBB43_325
.LBB43_315:
	cbz	x10, .LBB43_325
	cmp	w9, #129
	b.ne	.LBB43_325
	ldrsb	w8, [x1, #2]
	tbz	w8, #31, .LBB43_325
	sub	x10, x2, #3
	and	x9, x8, #0xff
	cmp	x10, x9
	b.lo	.LBB43_325
	add	x8, x1, #3
.LBB43_320:
	ldrsb	w11, [x8]
	cbz	w11, .LBB43_323
	mov	w10, #2
	tbnz	w11, #31, .LBB43_395
	cmp	x9, #1
	csel	w10, w10, w11, hi
	mov	w8, #13
	bfi	x8, x10, #8, #8
	and	x9, x8, #0xff
	cmp	x9, #17
	b.eq	.LBB43_396
	b	.LBB43_543
.LBB43_323:
	ldrsb	w8, [x8, #1]
	mov	w10, #2
	tbnz	w8, #31, .LBB43_394
	mov	w8, #4
	bfi	x8, x10, #8, #8
	and	x9, x8, #0xff
	cmp	x9, #17
	b.eq	.LBB43_396
	b	.LBB43_543
.LBB43_325:
	add	x0, sp, #80
	mov	w3, #2
	stp	x17, x20, [sp, #32]
	stp	x22, x12, [sp, #48]
	mov	x22, x14
	mov	x26, x13
	mov	x20, x16
	bl	_RNvNtNtNtCs00000000000_7pkcs1_c6proved8der_core5split14split_unlikely
	ldr	x8, [sp, #80]
	cbz	x8, .LBB43_428
	mov	x16, x20
	mov	x14, x22
	ldr	x9, [sp, #88]
	ldp	x20, x22, [sp, #40]
	ldr	x10, [sp, #104]
	ldr	x12, [sp, #56]
	ldr	x17, [sp, #32]
	mov	x13, x26
	cbnz	x9, .LBB43_66
.LBB43_327:
	mov	w10, #2
	mov	w8, #3
	bfi	x8, x10, #8, #8
	and	x9, x8, #0xff
	cmp	x9, #17
	b.eq	.LBB43_396
	b	.LBB43_543
.LBB43_328:
	and	w9, w9, #0xff
	cmp	w9, #130
	b.ne	.LBB43_389
	cmp	x8, #1
	b.ls	.LBB43_414
	ldrb	w8, [x15, #2]
	cbz	x8, .LBB43_414
	ldrb	w9, [x15, #3]
	orr	x2, x9, x8, lsl #8
	sub	x8, x26, #4
	subs	x17, x8, x2
	b.lo	.LBB43_414
	add	x1, x15, #4
	b	.LBB43_99
.LBB43_333:
	cbz	x8, .LBB43_349
	cmp	w9, #129
	b.ne	.LBB43_349
	ldrsb	w8, [x1]
	tbz	w8, #31, .LBB43_349
	sub	x9, x26, #3
	and	x2, x8, #0xff
	subs	x8, x9, x2
	b.lo	.LBB43_349
	add	x1, x15, #3
.LBB43_338:
	add	x18, x1, x2
	mov	x26, x8
	b	.LBB43_351
.LBB43_339:
	and	w9, w9, #0xff
	cmp	w9, #130
	b.ne	.LBB43_397
	cmp	x10, #1
	b.ls	.LBB43_402
	ldrb	w8, [x1, #2]
	cbz	x8, .LBB43_402
	ldrb	w9, [x1, #3]
	orr	x9, x9, x8, lsl #8
	sub	x8, x2, #4
	subs	x18, x8, x9
	b.lo	.LBB43_402
	add	x8, x1, #4
	b	.LBB43_405
.LBB43_344:
	and	w8, w8, #0xff
	cmp	w8, #130
	b.ne	.LBB43_416
	cmp	x9, #1
	b.ls	.LBB43_421
	ldrb	w8, [x1, #2]
	cbz	x8, .LBB43_421
	ldrb	w9, [x1, #3]
	orr	x8, x9, x8, lsl #8
	sub	x9, x2, #4
	subs	x9, x9, x8
	b.lo	.LBB43_421
	stp	x9, x17, [sp, #24]
	mov	x26, x14
	mov	x28, x13
	str	x22, [sp, #48]
	mov	x22, x15
	mov	x27, x16
	add	x0, x1, #4
	b	.LBB43_424
.LBB43_349:
	add	x0, sp, #80
	mov	x1, x15
	mov	x2, x26
	mov	w3, #162
	stp	x22, x12, [sp, #48]
	mov	x28, x14
	str	x20, [sp, #40]
	mov	x22, x13
	mov	x21, x16
	mov	x20, x15
	bl	_RNvNtNtNtCs00000000000_7pkcs1_c6proved8der_core5split14split_unlikely
	ldr	x1, [sp, #80]
	cbz	x1, .LBB43_475
	ldp	x2, x18, [sp, #88]
	mov	x13, x22
	mov	x15, x20
	ldp	x20, x22, [sp, #40]
	ldr	x26, [sp, #104]
	ldr	x12, [sp, #56]
	mov	x16, x21
	mov	x14, x28
	cmp	x2, #2
	b.lo	.LBB43_369
.LBB43_351:
	mov	x8, x1
	ldrb	w9, [x8], #2
	cmp	w9, #2
	b.ne	.LBB43_369
	ldrsb	w10, [x1, #1]
	sub	x9, x2, #2
	tbnz	w10, #31, .LBB43_354
	and	x10, x10, #0xff
	subs	x9, x9, x10
	b.hs	.LBB43_371
	b	.LBB43_369
.LBB43_354:
	and	w10, w10, #0xff
	cmp	w10, #130
	b.ne	.LBB43_364
	cmp	x9, #1
	b.ls	.LBB43_369
	ldrb	w8, [x1, #2]
	cbz	x8, .LBB43_369
	ldrb	w9, [x1, #3]
	orr	x10, x9, x8, lsl #8
	sub	x8, x2, #4
	subs	x9, x8, x10
	b.lo	.LBB43_369
	add	x8, x1, #4
	b	.LBB43_371
.LBB43_359:
	and	w9, w9, #0xff
	cmp	w9, #130
	b.ne	.LBB43_461
	cmp	x8, #1
	b.ls	.LBB43_467
	ldrb	w8, [x15, #2]
	cbz	x8, .LBB43_467
	ldrb	w9, [x15, #3]
	orr	x2, x9, x8, lsl #8
	sub	x8, x26, #4
	subs	x8, x8, x2
	b.lo	.LBB43_467
	add	x1, x15, #4
	b	.LBB43_466
.LBB43_364:
	cbz	x9, .LBB43_369
	cmp	w10, #129
	b.ne	.LBB43_369
	ldrsb	w8, [x8]
	tbz	w8, #31, .LBB43_369
	sub	x9, x2, #3
	and	x10, x8, #0xff
	subs	x9, x9, x10
	b.lo	.LBB43_369
	add	x8, x1, #3
	b	.LBB43_371
.LBB43_369:
	add	x0, sp, #80
	mov	w3, #2
	stp	x18, x20, [sp, #32]
	stp	x22, x12, [sp, #48]
	mov	x20, x15
	mov	x22, x14
	mov	x27, x13
	mov	x28, x16
	bl	_RNvNtNtNtCs00000000000_7pkcs1_c6proved8der_core5split14split_unlikely
	ldr	x8, [sp, #80]
	cbz	x8, .LBB43_496
	mov	x14, x22
	mov	x15, x20
	ldr	x10, [sp, #88]
	ldp	x20, x22, [sp, #40]
	ldr	x9, [sp, #104]
	ldr	x12, [sp, #56]
	ldr	x18, [sp, #32]
	mov	x16, x28
	mov	x13, x27
.LBB43_371:
	cbz	x10, .LBB43_376
	cmp	x10, #1
	b.ne	.LBB43_377
	ldrsb	w8, [x8]
	tbnz	w8, #31, .LBB43_532
.LBB43_374:
	and	w21, w8, #0xff
	cbz	x9, .LBB43_498
.LBB43_375:
	mov	w8, #12
	b	.LBB43_534
.LBB43_376:
	mov	w9, wzr
	mov	w8, #3
	b	.LBB43_533
.LBB43_377:
	ldrb	w11, [x8]
	cbnz	w11, .LBB43_532
	ldrsb	w8, [x8, #1]
	tbnz	w8, #31, .LBB43_531
.LBB43_379:
	mov	w9, wzr
	mov	w8, #4
	b	.LBB43_533
.LBB43_380:
	and	w11, w11, #0xff
	cmp	w11, #130
	b.ne	.LBB43_512
	cmp	x10, #1
	b.ls	.LBB43_517
	ldrb	w10, [x9, #2]
	cbz	x10, .LBB43_517
	ldrb	w11, [x9, #3]
	orr	x11, x11, x10, lsl #8
	sub	x10, x8, #4
	subs	x10, x10, x11
	str	x11, [sp, #72]
	b.lo	.LBB43_517
	add	x13, x9, #4
	b	.LBB43_519
.LBB43_385:
	str	xzr, [sp, #64]
	mov	w8, wzr
	b	.LBB43_39
.LBB43_386:
	ldrh	w10, [sp, #88]
	ldrb	w9, [sp, #90]
	mov	w8, w10
	lsr	w21, w10, #8
	bfi	w8, w9, #16, #8
	and	w8, w8, #0xff
	cmp	w8, #17
	b.ne	.LBB43_548
	mov	x16, x27
	mov	x13, x28
	mov	x14, x22
	mov	w27, wzr
	b	.LBB43_547
.LBB43_388:
	mov	w10, #2
	mov	w8, #13
	bfi	x8, x10, #8, #8
	and	x9, x8, #0xff
	cmp	x9, #17
	b.eq	.LBB43_396
	b	.LBB43_543
.LBB43_389:
	cbz	x8, .LBB43_414
	cmp	w9, #129
	b.ne	.LBB43_414
	ldrsb	w8, [x1]
	tbz	w8, #31, .LBB43_414
	sub	x9, x26, #3
	and	x2, x8, #0xff
	subs	x17, x9, x2
	b.lo	.LBB43_414
	add	x1, x15, #3
	b	.LBB43_99
.LBB43_394:
	sub	x9, x9, #3
	cmn	x9, #2
	csel	w10, w10, w8, lo
	b.hs	.LBB43_605
.LBB43_395:
	mov	w8, #13
	bfi	x8, x10, #8, #8
	and	x9, x8, #0xff
	cmp	x9, #17
	b.ne	.LBB43_543
.LBB43_396:
	mov	w8, #1
	cbnz	x17, .LBB43_526
	b	.LBB43_235
.LBB43_397:
	cbz	x10, .LBB43_402
	cmp	w9, #129
	b.ne	.LBB43_402
	ldrsb	w8, [x8]
	tbz	w8, #31, .LBB43_402
	sub	x10, x2, #3
	and	x9, x8, #0xff
	subs	x18, x10, x9
	b.lo	.LBB43_402
	add	x8, x1, #3
	b	.LBB43_405
.LBB43_402:
	add	x0, sp, #80
	mov	w3, #48
	stp	x25, x23, [sp, #48]
	mov	x25, x17
	mov	x20, x15
	mov	x22, x13
	mov	x23, x16
	bl	_RNvNtNtNtCs00000000000_7pkcs1_c6proved8der_core5split14split_unlikely
	ldr	x8, [sp, #80]
	cbz	x8, .LBB43_535
	mov	x16, x23
	mov	x17, x25
	ldr	x9, [sp, #88]
	ldp	x25, x23, [sp, #48]
	ldr	x18, [sp, #104]
	mov	x13, x22
	mov	x15, x20
.LBB43_404:
	cmp	x9, #2
	b.lo	.LBB43_434
.LBB43_405:
	mov	x11, x8
	ldrb	w10, [x11], #2
	str	x11, [sp, #64]
	cmp	w10, #6
	b.ne	.LBB43_434
	ldrsb	w11, [x8, #1]
	sub	x10, x9, #2
	tbnz	w11, #31, .LBB43_409
	and	x14, x11, #0xff
	subs	x2, x10, x14
	b.lo	.LBB43_434
	ldr	x8, [sp, #64]
	add	x1, x8, x14
	sub	x9, x14, #1
	cmp	x9, #38
	b.hi	.LBB43_458
	b	.LBB43_436
.LBB43_409:
	and	w11, w11, #0xff
	cmp	w11, #130
	b.ne	.LBB43_429
	cmp	x10, #1
	b.ls	.LBB43_434
	ldrb	w10, [x8, #2]
	cbz	x10, .LBB43_434
	ldrb	w11, [x8, #3]
	orr	x14, x11, x10, lsl #8
	sub	x10, x9, #4
	subs	x2, x10, x14
	b.lo	.LBB43_434
	add	x8, x8, #4
	str	x8, [sp, #64]
	add	x1, x8, x14
	sub	x9, x14, #1
	cmp	x9, #38
	b.hi	.LBB43_458
	b	.LBB43_436
.LBB43_414:
	add	x0, sp, #80
	mov	x1, x15
	mov	x2, x26
	mov	w3, #163
	stp	x14, x20, [sp, #32]
	mov	x28, x22
	mov	x22, x13
	mov	x27, x16
	mov	x20, x15
	bl	_RNvNtNtNtCs00000000000_7pkcs1_c6proved8der_core5split14split_unlikely
	ldr	x1, [sp, #80]
	cbz	x1, .LBB43_589
	mov	x15, x20
	ldp	x14, x20, [sp, #32]
	ldr	x2, [sp, #88]
	ldr	x17, [sp, #104]
	mov	x16, x27
	ldr	x12, [sp, #56]
	mov	x13, x22
	mov	x22, x28
	cmp	x2, #2
	b.hs	.LBB43_99
	b	.LBB43_421
.LBB43_416:
	cbz	x9, .LBB43_421
	cmp	w8, #129
	b.ne	.LBB43_421
	ldrsb	w8, [x0]
	tbz	w8, #31, .LBB43_421
	sub	x9, x2, #3
	and	x8, x8, #0xff
	subs	x9, x9, x8
	b.lo	.LBB43_421
	str	x22, [sp, #48]
	mov	x22, x15
	mov	x26, x14
	mov	x28, x13
	mov	x27, x16
	add	x0, x1, #3
	stp	x9, x17, [sp, #24]
	b	.LBB43_424
.LBB43_421:
	add	x0, sp, #80
	mov	w3, #2
	stp	x17, x20, [sp, #32]
	mov	x26, x22
	mov	x20, x15
	mov	x22, x14
	mov	x28, x13
	mov	x27, x16
	bl	_RNvNtNtNtCs00000000000_7pkcs1_c6proved8der_core5split14split_unlikely
	ldr	x0, [sp, #80]
	cbz	x0, .LBB43_542
	mov	x15, x20
	ldp	x17, x20, [sp, #32]
	ldr	x8, [sp, #88]
	ldr	x9, [sp, #104]
	mov	x16, x27
	ldr	x12, [sp, #56]
	mov	x13, x28
	mov	x14, x22
	cmp	x8, #1
	str	x26, [sp, #48]
	b.eq	.LBB43_103
.LBB43_423:
	stp	x9, x17, [sp, #24]
	mov	x22, x15
	mov	x26, x14
	mov	x28, x13
	mov	x27, x16
.LBB43_424:
	mov	x1, x8
	bl	_RNvNtNtNtNtCs00000000000_7pkcs1_c6proved8der_core7integer5small5small
	and	w9, w0, #0xff
	ubfx	w8, w0, #8, #8
	ldr	x12, [sp, #56]
	cmp	w9, #17
	ldp	x9, x17, [sp, #24]
	mov	x16, x27
	mov	x13, x28
	mov	x14, x26
	mov	x15, x22
	b.ne	.LBB43_524
.LBB43_425:
	cmp	w8, #1
	b.ne	.LBB43_605
	ldr	x22, [sp, #48]
	cbz	x9, .LBB43_525
.LBB43_427:
	mov	x9, xzr
	mov	w8, #12
	b	.LBB43_606
.LBB43_428:
	ldrb	w8, [sp, #90]
	ldrh	w9, [sp, #88]
	mov	x16, x20
	mov	x14, x22
	ldp	x20, x22, [sp, #40]
	orr	x8, x9, x8, lsl #16
	ldr	x12, [sp, #56]
	ldr	x17, [sp, #32]
	mov	x13, x26
	and	x9, x8, #0xff
	cmp	x9, #17
	b.eq	.LBB43_396
	b	.LBB43_543
.LBB43_429:
	cbz	x10, .LBB43_434
	cmp	w11, #129
	b.ne	.LBB43_434
	ldr	x10, [sp, #64]
	ldrsb	w10, [x10]
	tbz	w10, #31, .LBB43_434
	sub	x11, x9, #3
	and	x14, x10, #0xff
	subs	x2, x11, x14
	b.lo	.LBB43_434
	add	x8, x8, #3
	str	x8, [sp, #64]
	add	x1, x8, x14
	sub	x9, x14, #1
	cmp	x9, #38
	b.hi	.LBB43_458
	b	.LBB43_436
.LBB43_434:
	add	x0, sp, #80
	mov	x1, x8
	mov	x2, x9
	mov	w3, #6
	stp	x18, x25, [sp, #40]
	mov	x25, x17
	mov	x20, x15
	str	x23, [sp, #56]
	mov	x22, x13
	str	x16, [sp, #8]
	bl	_RNvNtNtNtCs00000000000_7pkcs1_c6proved8der_core5split14split_unlikely
	ldr	x8, [sp, #80]
	str	x8, [sp, #64]
	cbz	x8, .LBB43_544
	ldp	x14, x1, [sp, #88]
	mov	x17, x25
	ldp	x25, x23, [sp, #48]
	mov	x13, x22
	ldr	x2, [sp, #104]
	ldr	x16, [sp, #8]
	mov	x15, x20
	ldr	x18, [sp, #40]
	sub	x9, x14, #1
	cmp	x9, #38
	b.hi	.LBB43_458
.LBB43_436:
	ldr	x8, [sp, #64]
	ldrsb	w8, [x8, x9]
	tbnz	w8, #31, .LBB43_449
	movi	v0.8b, #128
	movi	v1.4h, #128
	ldr	x10, [sp, #64]
	b	.LBB43_440
.LBB43_438:
	mov	x11, #-1
	mov	w12, #1
.LBB43_439:
	add	x9, x11, x9
	add	x10, x10, x12
.LBB43_440:
	cmp	x9, #7
	b.ls	.LBB43_443
	ldr	d2, [x10]
	cmeq	v2.8b, v2.8b, v0.8b
	umaxv	b2, v2.8b
	fmov	w11, s2
	tbnz	w11, #0, .LBB43_448
	mov	x11, #-8
	mov	w12, #8
	b	.LBB43_439
.LBB43_443:
	cmp	x9, #3
	b.ls	.LBB43_446
	ldr	s2, [x10]
	ushll	v2.8h, v2.8b, #0
	cmeq	v2.4h, v2.4h, v1.4h
	umaxv	h2, v2.4h
	fmov	w11, s2
	tbnz	w11, #0, .LBB43_448
	mov	x11, #-4
	mov	w12, #4
	b	.LBB43_439
.LBB43_446:
	cbz	x9, .LBB43_452
	ldrb	w11, [x10]
	cmp	w11, #128
	b.ne	.LBB43_438
.LBB43_448:
	cbz	x14, .LBB43_452
.LBB43_449:
	ldr	x9, [sp, #64]
	ldrb	w9, [x9]
	cmp	w9, #128
	b.eq	.LBB43_458
	subs	x10, x14, #1
	b.ne	.LBB43_537
.LBB43_451:
	tbnz	w8, #31, .LBB43_458
.LBB43_452:
	cbz	x2, .LBB43_536
	ldrb	w22, [x1]
	mov	w9, #31
	mov	x8, xzr
	bics	wzr, w9, w22
	mov	w9, #11
	b.eq	.LBB43_596
	and	w10, w22, #0xffffffdf
	tst	w10, #0xff
	b.eq	.LBB43_596
	cmp	x2, #1
	b.eq	.LBB43_573
	ldrsb	w9, [x1, #1]
	add	x20, x1, #2
	sub	x8, x2, #2
	tbnz	w9, #31, .LBB43_553
	and	x12, x9, #0xff
	subs	x8, x8, x12
	b.hs	.LBB43_575
	b	.LBB43_573
.LBB43_458:
	mov	w9, #5
.LBB43_459:
	lsr	x8, x9, #8
.LBB43_460:
	and	x9, x9, #0xff
	orr	x9, x9, x8, lsl #8
	b	.LBB43_226
.LBB43_461:
	cbz	x8, .LBB43_467
	cmp	w9, #129
	b.ne	.LBB43_467
	ldrsb	w8, [x1]
	tbz	w8, #31, .LBB43_467
	sub	x9, x26, #3
	and	x2, x8, #0xff
	subs	x8, x9, x2
	b.lo	.LBB43_467
	add	x1, x15, #3
.LBB43_466:
	add	x15, x1, x2
	mov	x26, x8
	b	.LBB43_469
.LBB43_467:
	add	x0, sp, #80
	mov	x1, x15
	mov	x2, x26
	mov	w3, #162
	mov	x28, x14
	mov	x22, x13
	mov	x21, x16
	bl	_RNvNtNtNtCs00000000000_7pkcs1_c6proved8der_core5split14split_unlikely
	ldr	x1, [sp, #80]
	cbz	x1, .LBB43_475
	ldp	x2, x15, [sp, #88]
	mov	x13, x22
	ldp	x22, x12, [sp, #48]
	mov	x16, x21
	ldr	x26, [sp, #104]
	mov	x14, x28
	cmp	x2, #2
	b.lo	.LBB43_486
.LBB43_469:
	mov	x0, x1
	ldrb	w8, [x0], #2
	cmp	w8, #2
	b.ne	.LBB43_486
	ldrsb	w8, [x1, #1]
	sub	x9, x2, #2
	tbnz	w8, #31, .LBB43_476
	and	x8, x8, #0xff
	subs	x9, x9, x8
	b.lo	.LBB43_486
	cmp	x8, #1
	b.ne	.LBB43_488
.LBB43_473:
	ldrsb	w8, [x0]
	tbnz	w8, #31, .LBB43_532
	and	w21, w8, #0xff
	b	.LBB43_492
.LBB43_475:
	ldrh	w8, [sp, #88]
	ldrb	w9, [sp, #90]
	mov	w10, w8
	lsr	w21, w8, #8
	bfi	w10, w9, #16, #8
	uxth	w9, w9
	and	w8, w10, #0xff
	b	.LBB43_534
.LBB43_476:
	and	w8, w8, #0xff
	cmp	w8, #130
	b.ne	.LBB43_481
	cmp	x9, #1
	b.ls	.LBB43_486
	ldrb	w8, [x1, #2]
	cbz	x8, .LBB43_486
	ldrb	w9, [x1, #3]
	orr	x8, x9, x8, lsl #8
	sub	x9, x2, #4
	subs	x9, x9, x8
	b.lo	.LBB43_486
	stp	x9, x15, [sp, #16]
	mov	x27, x14
	mov	x28, x16
	str	x13, [sp, #32]
	add	x0, x1, #4
	b	.LBB43_490
.LBB43_481:
	cbz	x9, .LBB43_486
	cmp	w8, #129
	b.ne	.LBB43_486
	ldrsb	w8, [x0]
	tbz	w8, #31, .LBB43_486
	sub	x9, x2, #3
	and	x8, x8, #0xff
	subs	x9, x9, x8
	b.lo	.LBB43_486
	mov	x27, x14
	mov	x28, x16
	add	x0, x1, #3
	stp	x9, x15, [sp, #16]
	b	.LBB43_489
.LBB43_486:
	add	x0, sp, #80
	mov	w3, #2
	str	x20, [sp, #40]
	mov	x20, x15
	mov	x22, x14
	mov	x27, x13
	mov	x28, x16
	bl	_RNvNtNtNtCs00000000000_7pkcs1_c6proved8der_core5split14split_unlikely
	ldr	x0, [sp, #80]
	cbz	x0, .LBB43_545
	mov	x14, x22
	mov	x15, x20
	ldr	x8, [sp, #88]
	ldp	x20, x22, [sp, #40]
	ldr	x9, [sp, #104]
	ldr	x12, [sp, #56]
	mov	x16, x28
	mov	x13, x27
	cmp	x8, #1
	b.eq	.LBB43_473
.LBB43_488:
	stp	x9, x15, [sp, #16]
	mov	x27, x14
	mov	x28, x16
.LBB43_489:
	str	x13, [sp, #32]
.LBB43_490:
	mov	x1, x8
	bl	_RNvNtNtNtNtCs00000000000_7pkcs1_c6proved8der_core7integer5small5small
	and	w8, w0, #0xff
	ubfx	w21, w0, #8, #8
	cmp	w8, #17
	b.ne	.LBB43_494
	ldp	x15, x13, [sp, #24]
	mov	x16, x28
	ldp	x22, x12, [sp, #48]
	mov	x14, x27
	ldr	x9, [sp, #16]
.LBB43_492:
	cbz	x9, .LBB43_495
	mov	w21, wzr
	mov	w8, #12
	b	.LBB43_534
.LBB43_494:
	mov	w9, wzr
	b	.LBB43_534
.LBB43_495:
	mov	w27, #1
	b	.LBB43_56
.LBB43_496:
	ldrh	w10, [sp, #88]
	ldrb	w9, [sp, #90]
	mov	w8, w10
	lsr	w21, w10, #8
	bfi	w8, w9, #16, #8
	and	w8, w8, #0xff
	cmp	w8, #17
	b.ne	.LBB43_548
	mov	x14, x22
	mov	x15, x20
	ldr	x12, [sp, #56]
	ldp	x20, x22, [sp, #40]
	ldr	x18, [sp, #32]
	mov	x16, x28
	mov	x13, x27
.LBB43_498:
	ldrb	w8, [x15]
	cmp	w8, #162
	b.ne	.LBB43_527
	cmp	w21, #20
	b.ne	.LBB43_527
	cbz	x26, .LBB43_552
	ldrb	w8, [x18]
	cmp	w8, #163
	b.ne	.LBB43_526
	cmp	x26, #1
	b.eq	.LBB43_587
	ldrsb	w9, [x18, #1]
	add	x1, x18, #2
	sub	x8, x26, #2
	tbnz	w9, #31, .LBB43_558
	and	x2, x9, #0xff
	subs	x17, x8, x2
	b.lo	.LBB43_587
	cmp	x2, #2
	b.lo	.LBB43_599
.LBB43_506:
	mov	x0, x1
	ldrb	w8, [x0], #2
	cmp	w8, #2
	b.ne	.LBB43_599
	ldrsb	w8, [x1, #1]
	sub	x9, x2, #2
	tbnz	w8, #31, .LBB43_568
	and	x8, x8, #0xff
	subs	x9, x9, x8
	str	x9, [sp, #24]
	b.lo	.LBB43_599
	cmp	x8, #1
	b.ne	.LBB43_601
.LBB43_510:
	ldrsb	w8, [x0]
	tbnz	w8, #31, .LBB43_597
	and	w8, w8, #0xff
	b	.LBB43_603
.LBB43_512:
	cbz	x10, .LBB43_517
	cmp	w11, #129
	b.ne	.LBB43_517
	ldrsb	w10, [x13]
	tbz	w10, #31, .LBB43_517
	sub	x11, x8, #3
	and	x10, x10, #0xff
	str	x10, [sp, #72]
	subs	x10, x11, x10
	b.lo	.LBB43_517
	add	x13, x9, #3
	b	.LBB43_519
.LBB43_517:
	mov	x22, x2
	mov	x23, x1
	add	x0, sp, #80
	mov	x1, x9
	mov	x2, x8
	mov	x3, x16
	mov	x20, x16
	bl	_RNvNtNtNtCs00000000000_7pkcs1_c6proved8der_core5split14split_unlikely
	ldr	x13, [sp, #80]
	cbz	x13, .LBB43_549
	ldr	x8, [sp, #88]
	ldr	x10, [sp, #104]
	mov	x1, x23
	mov	x2, x22
	mov	x16, x20
	str	x8, [sp, #72]
.LBB43_519:
	cbz	x10, .LBB43_521
	mov	w11, #12
	b	.LBB43_162
.LBB43_521:
	cbz	x21, .LBB43_529
.LBB43_522:
	mov	w11, #12
	b	.LBB43_163
.LBB43_523:
	mov	w0, #13
	mov	w8, #2
.LBB43_524:
	mov	w8, w8
	and	x9, x0, #0xff
	ldr	x22, [sp, #48]
	orr	x8, x9, x8, lsl #8
	and	x9, x8, #0xff
	cmp	x9, #17
	b.ne	.LBB43_543
.LBB43_525:
	ldrb	w8, [x15]
	mov	w27, #3
	cmp	w8, #163
	cset	w8, eq
	cbz	x17, .LBB43_235
.LBB43_526:
	mov	w8, #12
	mov	w9, #2
	strb	w8, [x19]
	b	.LBB43_230
.LBB43_527:
	cbz	x26, .LBB43_551
	ldrb	w8, [x18]
	mov	x15, x18
	cmp	w8, #163
	b.eq	.LBB43_95
	b	.LBB43_526
.LBB43_529:
	cmp	x24, #5
	b.eq	.LBB43_9
	mov	w8, wzr
	b	.LBB43_17
.LBB43_531:
	sub	x10, x10, #3
	cmn	x10, #2
	b.hs	.LBB43_374
.LBB43_532:
	mov	w9, wzr
	mov	w8, #13
.LBB43_533:
	mov	w21, #2
.LBB43_534:
	orr	w9, w21, w9, lsl #8
	strb	w8, [x19]
	mov	w8, #2
	strb	w8, [x19, #104]
	sturh	w9, [x19, #1]
	b	.LBB43_231
.LBB43_535:
	ldrb	w8, [sp, #90]
	ldrh	w9, [sp, #88]
	orr	x9, x9, x8, lsl #16
	ubfx	x8, x9, #8, #24
	mov	w8, w8
	b	.LBB43_460
.LBB43_536:
	mov	x20, xzr
	b	.LBB43_577
.LBB43_537:
	ldr	x9, [sp, #64]
	mov	x0, xzr
	add	x11, x9, #1
	mov	w9, #5
	b	.LBB43_539
.LBB43_538:
	add	x0, x0, #1
	add	x11, x11, #1
	cmp	x10, x0
	b.eq	.LBB43_451
.LBB43_539:
	ldrb	w12, [x11]
	cmp	w12, #128
	b.ne	.LBB43_538
	cmp	x0, x14
	b.hs	.LBB43_613
	ldursb	w12, [x11, #-1]
	tbnz	w12, #31, .LBB43_538
	b	.LBB43_459
.LBB43_542:
	ldrb	w8, [sp, #90]
	ldrh	w9, [sp, #88]
	mov	x15, x20
	ldp	x17, x20, [sp, #32]
	mov	x16, x27
	orr	x8, x9, x8, lsl #16
	ldr	x12, [sp, #56]
	mov	x13, x28
	mov	x14, x22
	mov	x22, x26
	and	x9, x8, #0xff
	cmp	x9, #17
	b.eq	.LBB43_525
.LBB43_543:
	and	x9, x8, #0xffff00
	b	.LBB43_606
.LBB43_544:
	ldrb	w8, [sp, #90]
	ldrh	w9, [sp, #88]
	orr	x9, x9, x8, lsl #16
	b	.LBB43_459
.LBB43_545:
	ldrh	w10, [sp, #88]
	ldrb	w9, [sp, #90]
	mov	w8, w10
	lsr	w21, w10, #8
	bfi	w8, w9, #16, #8
	and	w8, w8, #0xff
	cmp	w8, #17
	b.ne	.LBB43_548
	mov	x16, x28
	mov	x13, x27
	mov	x14, x22
	mov	w27, #1
.LBB43_547:
	mov	x15, x20
	ldp	x20, x22, [sp, #40]
	ldr	x12, [sp, #56]
	b	.LBB43_56
.LBB43_548:
	uxth	w9, w9
	b	.LBB43_534
.LBB43_549:
	ldrb	w8, [sp, #90]
	ldrh	w9, [sp, #88]
	orr	w8, w9, w8, lsl #16
	lsr	w16, w8, #8
	and	w11, w8, #0xff
	and	w10, w16, #0xff00
.LBB43_550:
	mov	w8, w16
	and	x8, x8, #0xff
	orr	x8, x10, x8
	orr	x11, x11, x8, lsl #8
	b	.LBB43_162
.LBB43_551:
	mov	w8, wzr
	mov	w27, #2
	b	.LBB43_235
.LBB43_552:
	mov	w21, #20
	mov	w8, #1
	mov	w27, #2
	b	.LBB43_235
.LBB43_553:
	and	w9, w9, #0xff
	cmp	w9, #130
	b.ne	.LBB43_563
	cmp	x8, #1
	b.ls	.LBB43_573
	ldrb	w8, [x1, #2]
	cbz	x8, .LBB43_573
	ldrb	w9, [x1, #3]
	orr	x12, x9, x8, lsl #8
	sub	x8, x2, #4
	subs	x8, x8, x12
	b.lo	.LBB43_573
	add	x20, x1, #4
	b	.LBB43_575
.LBB43_558:
	and	w9, w9, #0xff
	cmp	w9, #130
	b.ne	.LBB43_582
	cmp	x8, #1
	b.ls	.LBB43_587
	ldrb	w8, [x18, #2]
	cbz	x8, .LBB43_587
	ldrb	w9, [x18, #3]
	orr	x2, x9, x8, lsl #8
	sub	x8, x26, #4
	subs	x17, x8, x2
	b.lo	.LBB43_587
	add	x1, x18, #4
	b	.LBB43_506
.LBB43_563:
	cbz	x8, .LBB43_573
	cmp	w9, #129
	b.ne	.LBB43_573
	ldrsb	w8, [x20]
	tbz	w8, #31, .LBB43_573
	sub	x9, x2, #3
	and	x12, x8, #0xff
	subs	x8, x9, x12
	b.lo	.LBB43_573
	add	x20, x1, #3
	b	.LBB43_575
.LBB43_568:
	and	w8, w8, #0xff
	str	x20, [sp, #40]
	cmp	w8, #130
	str	x12, [sp, #56]
	b.ne	.LBB43_590
	cmp	x9, #1
	b.ls	.LBB43_599
	ldrb	w8, [x1, #2]
	cbz	x8, .LBB43_598
	ldrb	w9, [x1, #3]
	orr	x8, x9, x8, lsl #8
	sub	x9, x2, #4
	subs	x9, x9, x8
	b.lo	.LBB43_598
	str	x9, [sp, #24]
	mov	x21, x17
	mov	x28, x14
	mov	x26, x13
	mov	x20, x16
	add	x0, x1, #4
	b	.LBB43_602
.LBB43_573:
	mov	x3, x22
	add	x0, sp, #80
	stp	x18, x25, [sp, #40]
	mov	x25, x17
	stp	x15, x14, [sp, #24]
	mov	x22, x13
	str	x23, [sp, #56]
	mov	x20, x3
	str	x16, [sp, #8]
	bl	_RNvNtNtNtCs00000000000_7pkcs1_c6proved8der_core5split14split_unlikely
	ldr	x8, [sp, #80]
	cbz	x8, .LBB43_595
	ldp	x15, x14, [sp, #24]
	mov	x17, x25
	ldp	x25, x23, [sp, #48]
	mov	x9, x8
	ldr	x12, [sp, #88]
	ldr	x8, [sp, #104]
	mov	x13, x22
	ldr	x16, [sp, #8]
	ldr	x18, [sp, #40]
	mov	x22, x20
	mov	x20, x9
.LBB43_575:
	cbz	x8, .LBB43_577
	mov	w9, #12
	b	.LBB43_459
.LBB43_577:
	cbz	x18, .LBB43_579
	mov	w9, #12
	b	.LBB43_226
.LBB43_579:
	cbnz	x17, .LBB43_269
	cmp	x23, #9
	b.eq	.LBB43_28
	mov	w8, wzr
	b	.LBB43_39
.LBB43_582:
	cbz	x8, .LBB43_587
	cmp	w9, #129
	b.ne	.LBB43_587
	ldrsb	w8, [x1]
	tbz	w8, #31, .LBB43_587
	sub	x9, x26, #3
	and	x2, x8, #0xff
	subs	x17, x9, x2
	b.lo	.LBB43_587
	add	x1, x18, #3
	b	.LBB43_506
.LBB43_587:
	add	x0, sp, #80
	mov	x1, x18
	mov	x2, x26
	mov	w3, #163
	str	x22, [sp, #48]
	mov	x27, x12
	mov	x28, x14
	mov	x22, x13
	mov	x21, x16
	bl	_RNvNtNtNtCs00000000000_7pkcs1_c6proved8der_core5split14split_unlikely
	ldr	x1, [sp, #80]
	cbz	x1, .LBB43_589
	ldr	x2, [sp, #88]
	ldr	x17, [sp, #104]
	mov	x13, x22
	ldr	x22, [sp, #48]
	mov	x16, x21
	mov	x14, x28
	mov	x12, x27
	cmp	x2, #2
	b.hs	.LBB43_506
	b	.LBB43_599
.LBB43_589:
	ldrb	w8, [sp, #90]
	ldrh	w9, [sp, #88]
	orr	x8, x9, x8, lsl #16
	b	.LBB43_607
.LBB43_590:
	cbz	x9, .LBB43_599
	cmp	w8, #129
	b.ne	.LBB43_599
	ldrsb	w8, [x0]
	tbz	w8, #31, .LBB43_598
	sub	x9, x2, #3
	and	x8, x8, #0xff
	subs	x9, x9, x8
	str	x9, [sp, #24]
	b.lo	.LBB43_598
	mov	x21, x17
	mov	x28, x14
	mov	x26, x13
	mov	x20, x16
	add	x0, x1, #3
	b	.LBB43_602
.LBB43_595:
	ldrb	w8, [sp, #90]
	ldrh	w9, [sp, #88]
	orr	w9, w9, w8, lsl #16
	lsr	w22, w9, #8
	and	w9, w9, #0xff
	and	w8, w22, #0xff00
.LBB43_596:
	mov	w10, w22
	and	x10, x10, #0xff
	orr	x8, x8, x10
	orr	x9, x9, x8, lsl #8
	b	.LBB43_459
.LBB43_597:
	mov	w0, #13
	mov	w8, #2
	b	.LBB43_608
.LBB43_598:
	ldr	x20, [sp, #40]
	ldr	x12, [sp, #56]
.LBB43_599:
	add	x0, sp, #80
	mov	w3, #2
	str	x17, [sp, #32]
	str	x12, [sp, #56]
	mov	x21, x20
	mov	x28, x22
	mov	x22, x14
	mov	x26, x13
	mov	x20, x16
	bl	_RNvNtNtNtCs00000000000_7pkcs1_c6proved8der_core5split14split_unlikely
	ldr	x0, [sp, #80]
	cbz	x0, .LBB43_610
	ldr	x8, [sp, #88]
	ldr	x9, [sp, #104]
	mov	x16, x20
	ldr	x12, [sp, #56]
	ldr	x17, [sp, #32]
	mov	x13, x26
	mov	x14, x22
	mov	x22, x28
	mov	x20, x21
	str	x9, [sp, #24]
	cmp	x8, #1
	b.eq	.LBB43_510
.LBB43_601:
	mov	x21, x17
	str	x12, [sp, #56]
	mov	x28, x14
	str	x20, [sp, #40]
	mov	x26, x13
	mov	x20, x16
.LBB43_602:
	mov	x1, x8
	bl	_RNvNtNtNtNtCs00000000000_7pkcs1_c6proved8der_core7integer5small5small
	and	w9, w0, #0xff
	ubfx	w8, w0, #8, #8
	mov	x16, x20
	ldr	x20, [sp, #40]
	ldr	x12, [sp, #56]
	cmp	w9, #17
	mov	x13, x26
	mov	x14, x28
	mov	x17, x21
	b.ne	.LBB43_608
.LBB43_603:
	cmp	w8, #1
	b.ne	.LBB43_605
	ldr	x8, [sp, #24]
	cbnz	x8, .LBB43_427
	b	.LBB43_609
.LBB43_605:
	mov	w9, #512
	mov	w8, #525
.LBB43_606:
	and	x8, x8, #0xff
	orr	x8, x9, x8
.LBB43_607:
	ubfx	x9, x8, #16, #16
	strh	w8, [x19]
	mov	w8, #2
	strb	w8, [x19, #104]
	strb	w9, [x19, #2]
	b	.LBB43_231
.LBB43_608:
	mov	w8, w8
	and	x9, x0, #0xff
	orr	x8, x9, x8, lsl #8
	and	x9, x8, #0xff
	cmp	x9, #17
	b.ne	.LBB43_543
.LBB43_609:
	mov	w21, #20
	mov	w8, #1
	mov	w27, #2
	cbnz	x17, .LBB43_526
	b	.LBB43_235
.LBB43_610:
	ldrb	w8, [sp, #90]
	ldrh	w9, [sp, #88]
	mov	x16, x20
	ldr	x12, [sp, #56]
	ldr	x17, [sp, #32]
	mov	x13, x26
	orr	x8, x9, x8, lsl #16
	mov	x14, x22
	mov	x22, x28
	mov	x20, x21
	and	x9, x8, #0xff
	cmp	x9, #17
	b.ne	.LBB43_543
	b	.LBB43_609
.LBB43_611:
	mov	x1, x24
	brk	#0x1
.LBB43_612:
	mov	x1, x23
	brk	#0x1
.LBB43_613:
	mov	x1, x14
	brk	#0x1
.Lfunc_end43:
	.size	_RNvNtNtNtCs00000000000_7pkcs1_c6proved12pkcs1_params6noting8note_pss, .Lfunc_end43-_RNvNtNtNtCs00000000000_7pkcs1_c6proved12pkcs1_params6noting8note_pss
	.cfi_endproc

	.section	.text._RNvNtNtNtCs00000000000_7pkcs1_c6proved12pkcs1_params6noting9note_oaep,"ax",@progbits
	.p2align	2
	.type	_RNvNtNtNtCs00000000000_7pkcs1_c6proved12pkcs1_params6noting9note_oaep,@function
_RNvNtNtNtCs00000000000_7pkcs1_c6proved12pkcs1_params6noting9note_oaep:
	.cfi_startproc
	sub	sp, sp, #240
	.cfi_def_cfa_offset 240
	stp	x29, x30, [sp, #144]
	stp	x28, x27, [sp, #160]
	stp	x26, x25, [sp, #176]
	stp	x24, x23, [sp, #192]
	stp	x22, x21, [sp, #208]
	stp	x20, x19, [sp, #224]
	.cfi_offset w19, -8
	.cfi_offset w20, -16
	.cfi_offset w21, -24
	.cfi_offset w22, -32
	.cfi_offset w23, -40
	.cfi_offset w24, -48
	.cfi_offset w25, -56
	.cfi_offset w26, -64
	.cfi_offset w27, -72
	.cfi_offset w28, -80
	.cfi_offset w30, -88
	.cfi_offset w29, -96
	.cfi_remember_state
	mov	x19, x0
	cbz	x2, .LBB44_6
	ldrb	w8, [x1]
	cmp	w8, #160
	b.ne	.LBB44_7
	cmp	x2, #1
	b.eq	.LBB44_101
	ldrsb	w10, [x1, #1]
	add	x8, x1, #2
	sub	x9, x2, #2
	tbnz	w10, #31, .LBB44_79
	and	x11, x10, #0xff
	subs	x22, x9, x11
	b.lo	.LBB44_101
	add	x23, x8, x11
	cmp	x11, #2
	b.hs	.LBB44_103
	b	.LBB44_148
.LBB44_6:
	mov	x14, xzr
	mov	x22, xzr
	mov	w30, #5
	adrp	x29, .Lanon.5
	add	x29, x29, :lo12:.Lanon.5
	adrp	x13, _RNvNtCs00000000000_7pkcs1_c10rattle_std8AN_OCTET
	add	x13, x13, :lo12:_RNvNtCs00000000000_7pkcs1_c10rattle_std8AN_OCTET
	b	.LBB44_8
.LBB44_7:
	mov	x14, xzr
	adrp	x29, .Lanon.5
	add	x29, x29, :lo12:.Lanon.5
	adrp	x13, _RNvNtCs00000000000_7pkcs1_c10rattle_std8AN_OCTET
	add	x13, x13, :lo12:_RNvNtCs00000000000_7pkcs1_c10rattle_std8AN_OCTET
	mov	w30, #5
	mov	x22, x2
.LBB44_8:
	mov	x23, x1
.LBB44_9:
	ldrb	w8, [x29]
	cmp	w8, #43
	b.ne	.LBB44_15
	ldrb	w8, [x29, #1]
	cmp	w8, #14
	b.ne	.LBB44_15
	ldrb	w8, [x29, #2]
	cmp	w8, #3
	b.ne	.LBB44_15
	ldrb	w8, [x29, #3]
	cmp	w8, #2
	b.ne	.LBB44_15
	ldrb	w8, [x29, #4]
	cmp	w8, #26
	b.ne	.LBB44_15
	cmp	x30, #5
	ccmp	x14, #0, #0, eq
	cset	w8, eq
	b	.LBB44_16
.LBB44_15:
	mov	w8, wzr
.LBB44_16:
	mov	w15, #5
.LBB44_17:
	cbz	x2, .LBB44_24
	ldrb	w9, [x1]
	cmp	w9, #160
	csel	w16, wzr, w8, ne
	mov	x17, #34346
	movk	x17, #34376, lsl #16
	movk	x17, #3575, lsl #32
	movk	x17, #257, lsl #48
	cbz	x22, .LBB44_25
.LBB44_19:
	ldrb	w8, [x23]
	cmp	w8, #161
	b.ne	.LBB44_26
	cmp	x22, #1
	b.eq	.LBB44_176
	ldrsb	w10, [x23, #1]
	add	x8, x23, #2
	sub	x9, x22, #2
	tbnz	w10, #31, .LBB44_84
	and	x2, x10, #0xff
	subs	x18, x9, x2
	b.lo	.LBB44_176
	add	x4, x8, x2
	cmp	x2, #2
	b.hs	.LBB44_178
	b	.LBB44_222
.LBB44_24:
	mov	w16, wzr
	mov	x17, #34346
	movk	x17, #34376, lsl #16
	movk	x17, #3575, lsl #32
	movk	x17, #257, lsl #48
	cbnz	x22, .LBB44_19
.LBB44_25:
	mov	x25, xzr
	mov	x18, xzr
	adrp	x28, .Lanon.6
	add	x28, x28, :lo12:.Lanon.6
	adrp	x6, .Lanon.5
	add	x6, x6, :lo12:.Lanon.5
	adrp	x21, _RNvNtCs00000000000_7pkcs1_c10rattle_std8AN_OCTET
	add	x21, x21, :lo12:_RNvNtCs00000000000_7pkcs1_c10rattle_std8AN_OCTET
	mov	w3, #5
	mov	w7, #5
	b	.LBB44_27
.LBB44_26:
	mov	x25, xzr
	adrp	x28, .Lanon.6
	add	x28, x28, :lo12:.Lanon.6
	adrp	x6, .Lanon.5
	add	x6, x6, :lo12:.Lanon.5
	adrp	x21, _RNvNtCs00000000000_7pkcs1_c10rattle_std8AN_OCTET
	add	x21, x21, :lo12:_RNvNtCs00000000000_7pkcs1_c10rattle_std8AN_OCTET
	mov	w3, #5
	mov	w7, #5
	mov	x18, x22
.LBB44_27:
	mov	x4, x23
.LBB44_28:
	ldr	x8, [x28]
	cmp	x8, x17
	b.ne	.LBB44_38
	ldrb	w8, [x28, #8]
	cmp	w8, #8
	b.ne	.LBB44_38
	mov	w8, wzr
	mov	w5, #9
	cbz	x21, .LBB44_39
	cmp	x7, #5
	b.ne	.LBB44_39
	ldrb	w8, [x6]
	cmp	w8, #43
	b.ne	.LBB44_89
	ldrb	w8, [x6, #1]
	cmp	w8, #14
	b.ne	.LBB44_89
	ldrb	w8, [x6, #2]
	cmp	w8, #3
	b.ne	.LBB44_89
	ldrb	w8, [x6, #3]
	cmp	w8, #2
	b.ne	.LBB44_89
	ldrb	w8, [x6, #4]
	cmp	w8, #26
	b.ne	.LBB44_89
	and	x8, x3, #0xff
	cmp	x8, #5
	ccmp	x25, #0, #0, eq
	cset	w8, eq
	b	.LBB44_90
.LBB44_38:
	mov	w8, wzr
	mov	w5, #9
.LBB44_39:
	cmp	x22, #0
	csinc	w9, w16, wzr, ne
	tbz	w9, #0, .LBB44_66
	mov	w26, wzr
	cbz	x18, .LBB44_67
.LBB44_41:
	ldrb	w8, [x4]
	cmp	w8, #162
	b.ne	.LBB44_68
	cmp	x18, #1
	b.eq	.LBB44_246
	ldrsb	w10, [x4, #1]
	add	x9, x4, #2
	sub	x8, x18, #2
	tbnz	w10, #31, .LBB44_96
	and	x2, x10, #0xff
	subs	x24, x8, x2
	b.lo	.LBB44_246
	cmp	x2, #2
	b.lo	.LBB44_253
.LBB44_46:
	mov	x1, x9
	ldrb	w8, [x1], #2
	cmp	w8, #48
	b.ne	.LBB44_253
	ldrsb	w8, [x9, #1]
	sub	x10, x2, #2
	tbnz	w8, #31, .LBB44_150
	and	x8, x8, #0xff
	subs	x27, x10, x8
	b.lo	.LBB44_253
	cmp	x8, #2
	b.lo	.LBB44_263
.LBB44_50:
	mov	x20, x1
	ldrb	w9, [x20], #2
	cmp	w9, #6
	b.ne	.LBB44_263
	ldrsb	w10, [x1, #1]
	sub	x9, x8, #2
	tbnz	w10, #31, .LBB44_166
	and	x22, x10, #0xff
	subs	x2, x9, x22
	b.lo	.LBB44_263
	add	x1, x20, x22
	sub	x9, x22, #1
	cmp	x9, #38
	b.hi	.LBB44_265
.LBB44_54:
	ldrsb	w8, [x20, x9]
	tbnz	w8, #31, .LBB44_232
	movi	v0.8b, #128
	movi	v1.4h, #128
	mov	x10, x20
	b	.LBB44_57
.LBB44_56:
	add	x9, x11, x9
	add	x10, x10, x12
.LBB44_57:
	cmp	x9, #7
	b.ls	.LBB44_60
	ldr	d2, [x10]
	cmeq	v2.8b, v2.8b, v0.8b
	umaxv	b2, v2.8b
	fmov	w11, s2
	tbnz	w11, #0, .LBB44_231
	mov	x11, #-8
	mov	w12, #8
	b	.LBB44_56
.LBB44_60:
	cmp	x9, #3
	b.ls	.LBB44_63
	ldr	s2, [x10]
	ushll	v2.8h, v2.8b, #0
	cmeq	v2.4h, v2.4h, v1.4h
	umaxv	h2, v2.4h
	fmov	w11, s2
	tbnz	w11, #0, .LBB44_231
	mov	x11, #-4
	mov	w12, #4
	b	.LBB44_56
.LBB44_63:
	cbz	x9, .LBB44_235
	ldrb	w11, [x10]
	cmp	w11, #128
	b.eq	.LBB44_231
	mov	x11, #-1
	mov	w12, #1
	b	.LBB44_56
.LBB44_66:
	ldrb	w9, [x23]
	mov	w26, #1
	cmp	w9, #161
	csel	w16, wzr, w8, ne
	cbnz	x18, .LBB44_41
.LBB44_67:
	mov	x9, xzr
	mov	x24, xzr
	mov	w23, #4
	adrp	x20, .Lanon.7
	add	x20, x20, :lo12:.Lanon.7
	adrp	x8, _RNvNtCs00000000000_7pkcs1_c10rattle_std8AN_OCTET
	add	x8, x8, :lo12:_RNvNtCs00000000000_7pkcs1_c10rattle_std8AN_OCTET
	b	.LBB44_69
.LBB44_68:
	mov	x9, xzr
	adrp	x20, .Lanon.7
	add	x20, x20, :lo12:.Lanon.7
	adrp	x8, _RNvNtCs00000000000_7pkcs1_c10rattle_std8AN_OCTET
	add	x8, x8, :lo12:_RNvNtCs00000000000_7pkcs1_c10rattle_std8AN_OCTET
	mov	w23, #4
	mov	x24, x18
.LBB44_69:
	ldr	x10, [x20]
	cmp	x10, x17
	b.ne	.LBB44_72
	ldrb	w10, [x20, #8]
	cmp	w10, #9
	b.ne	.LBB44_72
	cmp	x23, #4
	ccmp	x9, #0, #0, eq
	cset	w10, eq
	b	.LBB44_73
.LBB44_72:
	mov	w10, wzr
.LBB44_73:
	mov	w22, #9
.LBB44_74:
	cmp	x18, #0
	csinc	w11, w16, wzr, ne
	tbnz	w11, #0, .LBB44_76
	ldrb	w11, [x4]
	mov	w26, #2
	cmp	w11, #162
	csel	w16, wzr, w10, ne
.LBB44_76:
	cbz	x24, .LBB44_78
	mov	w8, #12
	mov	w9, #2
	strb	w8, [x19]
	b	.LBB44_270
.LBB44_78:
	lsr	w10, w15, #16
	str	x29, [x19]
	strh	w15, [x19, #8]
	strb	w10, [x19, #10]
	lsr	w10, w5, #16
	strb	wzr, [x19, #15]
	strb	w10, [x19, #50]
	lsr	w10, w22, #16
	stur	wzr, [x19, #11]
	stp	x13, x14, [x19, #16]
	stp	x30, x28, [x19, #32]
	strh	w5, [x19, #48]
	strb	wzr, [x19, #55]
	stur	wzr, [x19, #51]
	stp	x6, x7, [x19, #56]
	stp	x21, x25, [x19, #72]
	stp	x3, x20, [x19, #88]
	strh	w22, [x19, #104]
	strb	w10, [x19, #106]
	strb	wzr, [x19, #111]
	stur	wzr, [x19, #107]
	stp	x8, x9, [x19, #112]
	str	x23, [x19, #128]
	strb	w16, [x19, #136]
	strb	w26, [x19, #137]
	b	.LBB44_271
.LBB44_79:
	and	w10, w10, #0xff
	cmp	w10, #130
	b.ne	.LBB44_91
	cmp	x9, #1
	b.ls	.LBB44_101
	ldrb	w8, [x1, #2]
	cbz	x8, .LBB44_101
	ldrb	w9, [x1, #3]
	orr	x11, x9, x8, lsl #8
	sub	x8, x2, #4
	subs	x22, x8, x11
	b.lo	.LBB44_101
	add	x8, x1, #4
	add	x23, x8, x11
	b	.LBB44_103
.LBB44_84:
	and	w10, w10, #0xff
	cmp	w10, #130
	b.ne	.LBB44_171
	cmp	x9, #1
	b.ls	.LBB44_176
	ldrb	w8, [x23, #2]
	cbz	x8, .LBB44_176
	ldrb	w9, [x23, #3]
	orr	x2, x9, x8, lsl #8
	sub	x8, x22, #4
	subs	x18, x8, x2
	b.lo	.LBB44_176
	add	x8, x23, #4
	add	x4, x8, x2
	b	.LBB44_178
.LBB44_89:
	mov	w8, wzr
.LBB44_90:
	mov	w5, #9
	mov	w7, #5
	b	.LBB44_39
.LBB44_91:
	cbz	x9, .LBB44_101
	cmp	w10, #129
	b.ne	.LBB44_101
	ldrsb	w8, [x8]
	tbz	w8, #31, .LBB44_101
	sub	x9, x2, #3
	and	x11, x8, #0xff
	subs	x22, x9, x11
	b.lo	.LBB44_101
	add	x8, x1, #3
	add	x23, x8, x11
	b	.LBB44_103
.LBB44_96:
	and	w10, w10, #0xff
	cmp	w10, #130
	b.ne	.LBB44_241
	cmp	x8, #1
	b.ls	.LBB44_246
	ldrb	w8, [x4, #2]
	cbz	x8, .LBB44_246
	ldrb	w9, [x4, #3]
	orr	x2, x9, x8, lsl #8
	sub	x8, x18, #4
	subs	x24, x8, x2
	b.lo	.LBB44_246
	add	x9, x4, #4
	b	.LBB44_46
.LBB44_101:
	add	x0, sp, #112
	mov	w3, #160
	mov	x20, x1
	mov	x21, x2
	bl	_RNvNtNtNtCs00000000000_7pkcs1_c6proved8der_core5split14split_unlikely
	ldr	x8, [sp, #112]
	cbz	x8, .LBB44_281
	ldp	x11, x23, [sp, #120]
	mov	x1, x20
	ldr	x22, [sp, #136]
	mov	x2, x21
	cmp	x11, #2
	b.lo	.LBB44_148
.LBB44_103:
	mov	x9, x8
	ldrb	w10, [x9], #2
	cmp	w10, #48
	b.ne	.LBB44_148
	ldrsb	w10, [x8, #1]
	sub	x12, x11, #2
	tbnz	w10, #31, .LBB44_123
	and	x10, x10, #0xff
	subs	x21, x12, x10
	b.lo	.LBB44_148
	cmp	x10, #2
	b.lo	.LBB44_160
.LBB44_107:
	mov	x29, x9
	ldrb	w8, [x29], #2
	cmp	w8, #6
	b.ne	.LBB44_160
	ldrsb	w11, [x9, #1]
	sub	x8, x10, #2
	tbnz	w11, #31, .LBB44_128
	and	x15, x11, #0xff
	subs	x8, x8, x15
	b.lo	.LBB44_160
	add	x9, x29, x15
	sub	x11, x15, #1
	cmp	x11, #38
	b.hi	.LBB44_162
.LBB44_111:
	ldrsb	w10, [x29, x11]
	tbnz	w10, #31, .LBB44_134
	movi	v0.8b, #128
	movi	v1.4h, #128
	mov	x12, x29
	b	.LBB44_114
.LBB44_113:
	add	x11, x13, x11
	add	x12, x12, x14
.LBB44_114:
	cmp	x11, #7
	b.ls	.LBB44_117
	ldr	d2, [x12]
	cmeq	v2.8b, v2.8b, v0.8b
	umaxv	b2, v2.8b
	fmov	w13, s2
	tbnz	w13, #0, .LBB44_133
	mov	x13, #-8
	mov	w14, #8
	b	.LBB44_113
.LBB44_117:
	cmp	x11, #3
	b.ls	.LBB44_120
	ldr	s2, [x12]
	ushll	v2.8h, v2.8b, #0
	cmeq	v2.4h, v2.4h, v1.4h
	umaxv	h2, v2.4h
	fmov	w13, s2
	tbnz	w13, #0, .LBB44_133
	mov	x13, #-4
	mov	w14, #4
	b	.LBB44_113
.LBB44_120:
	cbz	x11, .LBB44_137
	ldrb	w13, [x12]
	cmp	w13, #128
	b.eq	.LBB44_133
	mov	x13, #-1
	mov	w14, #1
	b	.LBB44_113
.LBB44_123:
	and	w10, w10, #0xff
	cmp	w10, #130
	b.ne	.LBB44_143
	cmp	x12, #1
	b.ls	.LBB44_148
	ldrb	w9, [x8, #2]
	cbz	x9, .LBB44_148
	ldrb	w10, [x8, #3]
	orr	x10, x10, x9, lsl #8
	sub	x9, x11, #4
	subs	x21, x9, x10
	b.lo	.LBB44_148
	add	x9, x8, #4
	b	.LBB44_107
.LBB44_128:
	and	w11, w11, #0xff
	cmp	w11, #130
	b.ne	.LBB44_155
	cmp	x8, #1
	b.ls	.LBB44_160
	ldrb	w8, [x9, #2]
	cbz	x8, .LBB44_160
	ldrb	w11, [x9, #3]
	orr	x15, x11, x8, lsl #8
	sub	x8, x10, #4
	subs	x8, x8, x15
	b.lo	.LBB44_160
	add	x29, x9, #4
	add	x9, x29, x15
	sub	x11, x15, #1
	cmp	x11, #38
	b.ls	.LBB44_111
	b	.LBB44_162
.LBB44_133:
	cbz	x15, .LBB44_137
.LBB44_134:
	ldrb	w11, [x29]
	cmp	w11, #128
	b.eq	.LBB44_162
	subs	x12, x15, #1
	b.ne	.LBB44_274
.LBB44_136:
	tbnz	w10, #31, .LBB44_162
.LBB44_137:
	cbz	x8, .LBB44_256
	ldrb	w30, [x9]
	mov	w11, #31
	mov	x10, xzr
	bics	wzr, w11, w30
	mov	w11, #11
	b.eq	.LBB44_393
	and	w12, w30, #0xffffffdf
	tst	w12, #0xff
	b.eq	.LBB44_393
	cmp	x8, #1
	b.eq	.LBB44_365
	ldrsb	w11, [x9, #1]
	add	x13, x9, #2
	sub	x10, x8, #2
	tbnz	w11, #31, .LBB44_301
	and	x14, x11, #0xff
	subs	x10, x10, x14
	b.hs	.LBB44_367
	b	.LBB44_365
.LBB44_143:
	cbz	x12, .LBB44_148
	cmp	w10, #129
	b.ne	.LBB44_148
	ldrsb	w9, [x9]
	tbz	w9, #31, .LBB44_148
	sub	x12, x11, #3
	and	x10, x9, #0xff
	subs	x21, x12, x10
	b.lo	.LBB44_148
	add	x9, x8, #3
	b	.LBB44_107
.LBB44_148:
	mov	x20, x2
	mov	x24, x1
	add	x0, sp, #112
	mov	x1, x8
	mov	x2, x11
	mov	w3, #48
	bl	_RNvNtNtNtCs00000000000_7pkcs1_c6proved8der_core5split14split_unlikely
	ldr	x9, [sp, #112]
	cbz	x9, .LBB44_279
	ldr	x10, [sp, #120]
	ldr	x21, [sp, #136]
	mov	x1, x24
	mov	x2, x20
	cmp	x10, #2
	b.hs	.LBB44_107
	b	.LBB44_160
.LBB44_150:
	and	w8, w8, #0xff
	cmp	w8, #130
	b.ne	.LBB44_248
	cmp	x10, #1
	b.ls	.LBB44_253
	ldrb	w8, [x9, #2]
	cbz	x8, .LBB44_253
	ldrb	w10, [x9, #3]
	orr	x8, x10, x8, lsl #8
	sub	x10, x2, #4
	subs	x27, x10, x8
	b.lo	.LBB44_253
	add	x1, x9, #4
	b	.LBB44_50
.LBB44_155:
	cbz	x8, .LBB44_160
	cmp	w11, #129
	b.ne	.LBB44_160
	ldrsb	w8, [x29]
	tbz	w8, #31, .LBB44_160
	sub	x11, x10, #3
	and	x15, x8, #0xff
	subs	x8, x11, x15
	b.lo	.LBB44_160
	add	x29, x9, #3
	add	x9, x29, x15
	sub	x11, x15, #1
	cmp	x11, #38
	b.hi	.LBB44_162
	b	.LBB44_111
.LBB44_160:
	mov	x20, x2
	mov	x24, x1
	add	x0, sp, #112
	mov	x1, x9
	mov	x2, x10
	mov	w3, #6
	bl	_RNvNtNtNtCs00000000000_7pkcs1_c6proved8der_core5split14split_unlikely
	ldr	x29, [sp, #112]
	cbz	x29, .LBB44_280
	ldp	x15, x9, [sp, #120]
	mov	x1, x24
	ldr	x8, [sp, #136]
	mov	x2, x20
	sub	x11, x15, #1
	cmp	x11, #38
	b.ls	.LBB44_111
.LBB44_162:
	mov	w11, #5
.LBB44_163:
	lsr	x8, x11, #8
.LBB44_164:
	bfi	w11, w8, #8, #24
.LBB44_165:
	lsr	w8, w11, #16
	strh	w11, [x19]
	b	.LBB44_269
.LBB44_166:
	and	w10, w10, #0xff
	cmp	w10, #130
	b.ne	.LBB44_258
	cmp	x9, #1
	b.ls	.LBB44_263
	ldrb	w9, [x1, #2]
	cbz	x9, .LBB44_263
	ldrb	w10, [x1, #3]
	orr	x22, x10, x9, lsl #8
	sub	x9, x8, #4
	subs	x2, x9, x22
	b.lo	.LBB44_263
	add	x20, x1, #4
	add	x1, x20, x22
	sub	x9, x22, #1
	cmp	x9, #38
	b.hi	.LBB44_265
	b	.LBB44_54
.LBB44_171:
	cbz	x9, .LBB44_176
	cmp	w10, #129
	b.ne	.LBB44_176
	ldrsb	w8, [x8]
	tbz	w8, #31, .LBB44_176
	sub	x9, x22, #3
	and	x2, x8, #0xff
	subs	x18, x9, x2
	b.lo	.LBB44_176
	add	x8, x23, #3
	add	x4, x8, x2
	b	.LBB44_178
.LBB44_176:
	add	x0, sp, #112
	mov	x1, x23
	mov	x2, x22
	mov	w3, #161
	mov	x27, x17
	mov	w25, w16
	mov	x21, x14
	mov	x26, x13
	mov	x24, x30
	mov	x20, x15
	bl	_RNvNtNtNtCs00000000000_7pkcs1_c6proved8der_core5split14split_unlikely
	ldr	x8, [sp, #112]
	cbz	x8, .LBB44_273
	ldp	x2, x4, [sp, #120]
	mov	x15, x20
	ldr	x18, [sp, #136]
	mov	x30, x24
	mov	x13, x26
	mov	x14, x21
	mov	w16, w25
	mov	x17, x27
	cmp	x2, #2
	b.lo	.LBB44_222
.LBB44_178:
	mov	x1, x8
	ldrb	w9, [x1], #2
	cmp	w9, #48
	b.ne	.LBB44_222
	ldrsb	w9, [x8, #1]
	sub	x10, x2, #2
	tbnz	w9, #31, .LBB44_207
	and	x9, x9, #0xff
	subs	x3, x10, x9
	b.lo	.LBB44_222
	cmp	x9, #2
	b.lo	.LBB44_229
.LBB44_182:
	mov	x28, x1
	ldrb	w8, [x28], #2
	cmp	w8, #6
	b.ne	.LBB44_229
	ldrsb	w10, [x1, #1]
	sub	x8, x9, #2
	tbnz	w10, #31, .LBB44_212
	and	x5, x10, #0xff
	subs	x2, x8, x5
	b.lo	.LBB44_229
	add	x1, x28, x5
	sub	x9, x5, #1
	cmp	x9, #38
	b.hi	.LBB44_265
.LBB44_186:
	ldrsb	w8, [x28, x9]
	tbnz	w8, #31, .LBB44_199
	movi	v0.8b, #128
	movi	v1.4h, #128
	mov	x10, x28
	b	.LBB44_190
.LBB44_188:
	mov	x11, #-1
	mov	w12, #1
.LBB44_189:
	add	x9, x11, x9
	add	x10, x10, x12
.LBB44_190:
	cmp	x9, #7
	b.ls	.LBB44_193
	ldr	d2, [x10]
	cmeq	v2.8b, v2.8b, v0.8b
	umaxv	b2, v2.8b
	fmov	w11, s2
	tbnz	w11, #0, .LBB44_198
	mov	x11, #-8
	mov	w12, #8
	b	.LBB44_189
.LBB44_193:
	cmp	x9, #3
	b.ls	.LBB44_196
	ldr	s2, [x10]
	ushll	v2.8h, v2.8b, #0
	cmeq	v2.4h, v2.4h, v1.4h
	umaxv	h2, v2.4h
	fmov	w11, s2
	tbnz	w11, #0, .LBB44_198
	mov	x11, #-4
	mov	w12, #4
	b	.LBB44_189
.LBB44_196:
	cbz	x9, .LBB44_202
	ldrb	w11, [x10]
	cmp	w11, #128
	b.ne	.LBB44_188
.LBB44_198:
	cbz	x5, .LBB44_202
.LBB44_199:
	ldrb	w9, [x28]
	cmp	w9, #128
	b.eq	.LBB44_265
	subs	x10, x5, #1
	b.ne	.LBB44_284
.LBB44_201:
	tbnz	w8, #31, .LBB44_265
.LBB44_202:
	cbz	x2, .LBB44_282
	cmp	x2, #1
	b.eq	.LBB44_311
	mov	x8, x1
	ldrb	w9, [x8], #2
	cmp	w9, #48
	b.ne	.LBB44_311
	ldrsb	w9, [x1, #1]
	sub	x10, x2, #2
	tbnz	w9, #31, .LBB44_296
	and	x9, x9, #0xff
	subs	x24, x10, x9
	b.hs	.LBB44_313
	b	.LBB44_311
.LBB44_207:
	and	w9, w9, #0xff
	cmp	w9, #130
	b.ne	.LBB44_217
	cmp	x10, #1
	b.ls	.LBB44_222
	ldrb	w9, [x8, #2]
	cbz	x9, .LBB44_222
	ldrb	w10, [x8, #3]
	orr	x9, x10, x9, lsl #8
	sub	x10, x2, #4
	subs	x3, x10, x9
	b.lo	.LBB44_222
	add	x1, x8, #4
	b	.LBB44_182
.LBB44_212:
	and	w10, w10, #0xff
	cmp	w10, #130
	b.ne	.LBB44_224
	cmp	x8, #1
	b.ls	.LBB44_229
	ldrb	w8, [x1, #2]
	cbz	x8, .LBB44_229
	ldrb	w10, [x1, #3]
	orr	x5, x10, x8, lsl #8
	sub	x8, x9, #4
	subs	x2, x8, x5
	b.lo	.LBB44_229
	add	x28, x1, #4
	add	x1, x28, x5
	sub	x9, x5, #1
	cmp	x9, #38
	b.ls	.LBB44_186
	b	.LBB44_265
.LBB44_217:
	cbz	x10, .LBB44_222
	cmp	w9, #129
	b.ne	.LBB44_222
	ldrsb	w9, [x1]
	tbz	w9, #31, .LBB44_222
	sub	x10, x2, #3
	and	x9, x9, #0xff
	subs	x3, x10, x9
	b.lo	.LBB44_222
	add	x1, x8, #3
	b	.LBB44_182
.LBB44_222:
	add	x0, sp, #112
	mov	x1, x8
	mov	w3, #48
	str	x22, [sp, #72]
	mov	x22, x23
	mov	x23, x4
	mov	x28, x18
	mov	x27, x17
	mov	w25, w16
	mov	x21, x14
	mov	x26, x13
	mov	x24, x30
	mov	x20, x15
	bl	_RNvNtNtNtCs00000000000_7pkcs1_c6proved8der_core5split14split_unlikely
	ldr	x1, [sp, #112]
	cbz	x1, .LBB44_255
	ldr	x9, [sp, #120]
	ldr	x3, [sp, #136]
	mov	x4, x23
	mov	x23, x22
	ldr	x22, [sp, #72]
	mov	x15, x20
	mov	x30, x24
	mov	x13, x26
	mov	x14, x21
	mov	w16, w25
	mov	x17, x27
	mov	x18, x28
	cmp	x9, #2
	b.hs	.LBB44_182
	b	.LBB44_229
.LBB44_224:
	cbz	x8, .LBB44_229
	cmp	w10, #129
	b.ne	.LBB44_229
	ldrsb	w8, [x28]
	tbz	w8, #31, .LBB44_229
	sub	x10, x9, #3
	and	x5, x8, #0xff
	subs	x2, x10, x5
	b.lo	.LBB44_229
	add	x28, x1, #3
	add	x1, x28, x5
	sub	x9, x5, #1
	cmp	x9, #38
	b.hi	.LBB44_265
	b	.LBB44_186
.LBB44_229:
	str	x3, [sp, #80]
	add	x0, sp, #112
	mov	x2, x9
	mov	w3, #6
	stp	x4, x18, [sp, #40]
	mov	x26, x17
	mov	w25, w16
	mov	x21, x14
	mov	x27, x13
	mov	x24, x30
	mov	x20, x15
	bl	_RNvNtNtNtCs00000000000_7pkcs1_c6proved8der_core5split14split_unlikely
	ldr	x28, [sp, #112]
	cbz	x28, .LBB44_272
	ldp	x5, x1, [sp, #120]
	mov	x15, x20
	ldp	x4, x18, [sp, #40]
	mov	x30, x24
	ldr	x2, [sp, #136]
	ldr	x3, [sp, #80]
	mov	x13, x27
	mov	x14, x21
	mov	w16, w25
	mov	x17, x26
	sub	x9, x5, #1
	cmp	x9, #38
	b.ls	.LBB44_186
	b	.LBB44_265
.LBB44_231:
	cbz	x22, .LBB44_235
.LBB44_232:
	ldrb	w9, [x20]
	cmp	w9, #128
	b.eq	.LBB44_265
	subs	x10, x22, #1
	b.ne	.LBB44_291
.LBB44_234:
	tbnz	w8, #31, .LBB44_265
.LBB44_235:
	cbz	x2, .LBB44_289
	ldrb	w23, [x1]
	mov	w9, #31
	mov	x8, xzr
	bics	wzr, w9, w23
	mov	w9, #11
	b.eq	.LBB44_400
	and	w10, w23, #0xffffffdf
	tst	w10, #0xff
	b.eq	.LBB44_400
	cmp	x2, #1
	b.eq	.LBB44_386
	ldrsb	w9, [x1, #1]
	add	x8, x1, #2
	sub	x10, x2, #2
	tbnz	w9, #31, .LBB44_360
	and	x9, x9, #0xff
	subs	x10, x10, x9
	b.hs	.LBB44_388
	b	.LBB44_386
.LBB44_241:
	cbz	x8, .LBB44_246
	cmp	w10, #129
	b.ne	.LBB44_246
	ldrsb	w8, [x9]
	tbz	w8, #31, .LBB44_246
	sub	x9, x18, #3
	and	x2, x8, #0xff
	subs	x24, x9, x2
	b.lo	.LBB44_246
	add	x9, x4, #3
	b	.LBB44_46
.LBB44_246:
	stp	x3, x7, [sp, #80]
	add	x0, sp, #112
	mov	x1, x4
	mov	x2, x18
	mov	w3, #162
	str	w26, [sp, #56]
	stp	x25, x21, [sp, #64]
	mov	w25, w16
	mov	x21, x14
	stp	x6, x5, [sp, #96]
	mov	x23, x13
	mov	x22, x30
	mov	x20, x15
	mov	x26, x4
	mov	x27, x18
	bl	_RNvNtNtNtCs00000000000_7pkcs1_c6proved8der_core5split14split_unlikely
	ldr	x9, [sp, #112]
	cbz	x9, .LBB44_273
	mov	x17, #34346
	mov	x14, x21
	mov	w16, w25
	movk	x17, #34376, lsl #16
	ldp	x6, x5, [sp, #96]
	ldp	x3, x7, [sp, #80]
	ldr	x2, [sp, #120]
	ldp	x25, x21, [sp, #64]
	ldr	x24, [sp, #136]
	movk	x17, #3575, lsl #32
	mov	x4, x26
	ldr	w26, [sp, #56]
	mov	x15, x20
	mov	x30, x22
	mov	x13, x23
	movk	x17, #257, lsl #48
	mov	x18, x27
	cmp	x2, #2
	b.hs	.LBB44_46
	b	.LBB44_253
.LBB44_248:
	cbz	x10, .LBB44_253
	cmp	w8, #129
	b.ne	.LBB44_253
	ldrsb	w8, [x1]
	tbz	w8, #31, .LBB44_253
	sub	x10, x2, #3
	and	x8, x8, #0xff
	subs	x27, x10, x8
	b.lo	.LBB44_253
	add	x1, x9, #3
	b	.LBB44_50
.LBB44_253:
	stp	x3, x7, [sp, #80]
	add	x0, sp, #112
	mov	x1, x9
	mov	w3, #48
	str	w26, [sp, #56]
	mov	x27, x18
	stp	x25, x21, [sp, #64]
	mov	x26, x17
	mov	w25, w16
	stp	x6, x5, [sp, #96]
	mov	x21, x14
	mov	x23, x13
	str	x4, [sp, #40]
	mov	x22, x30
	mov	x20, x15
	bl	_RNvNtNtNtCs00000000000_7pkcs1_c6proved8der_core5split14split_unlikely
	ldr	x1, [sp, #112]
	cbz	x1, .LBB44_255
	ldr	x9, [sp, #136]
	mov	x14, x21
	mov	w16, w25
	ldp	x6, x5, [sp, #96]
	ldr	x8, [sp, #120]
	ldp	x3, x7, [sp, #80]
	mov	x17, x26
	ldp	x25, x21, [sp, #64]
	mov	x15, x20
	ldr	x4, [sp, #40]
	ldr	w26, [sp, #56]
	mov	x30, x22
	mov	x13, x23
	mov	x18, x27
	mov	x27, x9
	cmp	x8, #2
	b.hs	.LBB44_50
	b	.LBB44_263
.LBB44_255:
	ldrb	w8, [sp, #122]
	ldrh	w9, [sp, #120]
	orr	w9, w9, w8, lsl #16
	lsr	w8, w9, #8
	b	.LBB44_267
.LBB44_256:
	cbnz	x21, .LBB44_370
	mov	x13, xzr
	mov	w8, wzr
	b	.LBB44_17
.LBB44_258:
	cbz	x9, .LBB44_263
	cmp	w10, #129
	b.ne	.LBB44_263
	ldrsb	w9, [x20]
	tbz	w9, #31, .LBB44_263
	sub	x10, x8, #3
	and	x22, x9, #0xff
	subs	x2, x10, x22
	b.lo	.LBB44_263
	add	x20, x1, #3
	add	x1, x20, x22
	sub	x9, x22, #1
	cmp	x9, #38
	b.hi	.LBB44_265
	b	.LBB44_54
.LBB44_263:
	stp	x3, x7, [sp, #80]
	add	x0, sp, #112
	mov	x2, x8
	mov	w3, #6
	stp	x27, x13, [sp, #16]
	mov	x27, x4
	str	w26, [sp, #56]
	mov	x26, x17
	mov	x23, x15
	stp	x25, x21, [sp, #64]
	mov	w25, w16
	mov	x21, x14
	stp	x6, x5, [sp, #96]
	str	x18, [sp, #48]
	str	x30, [sp, #32]
	bl	_RNvNtNtNtCs00000000000_7pkcs1_c6proved8der_core5split14split_unlikely
	ldr	x20, [sp, #112]
	cbz	x20, .LBB44_272
	ldp	x22, x1, [sp, #120]
	mov	x14, x21
	ldp	x13, x30, [sp, #24]
	mov	w16, w25
	ldp	x6, x5, [sp, #96]
	mov	x17, x26
	ldp	x3, x7, [sp, #80]
	mov	x4, x27
	ldp	x25, x21, [sp, #64]
	mov	x15, x23
	ldr	x2, [sp, #136]
	ldr	x18, [sp, #48]
	ldr	w26, [sp, #56]
	ldr	x27, [sp, #16]
	sub	x9, x22, #1
	cmp	x9, #38
	b.ls	.LBB44_54
.LBB44_265:
	mov	w9, #5
.LBB44_266:
	lsr	x8, x9, #8
.LBB44_267:
	bfi	w9, w8, #8, #24
.LBB44_268:
	lsr	w8, w9, #16
	strh	w9, [x19]
.LBB44_269:
	mov	w9, #2
	strb	w8, [x19, #2]
.LBB44_270:
	strb	w9, [x19, #136]
.LBB44_271:
	ldp	x20, x19, [sp, #224]
	ldp	x22, x21, [sp, #208]
	ldp	x24, x23, [sp, #192]
	ldp	x26, x25, [sp, #176]
	ldp	x28, x27, [sp, #160]
	ldp	x29, x30, [sp, #144]
	add	sp, sp, #240
	.cfi_def_cfa_offset 0
	.cfi_restore w19
	.cfi_restore w20
	.cfi_restore w21
	.cfi_restore w22
	.cfi_restore w23
	.cfi_restore w24
	.cfi_restore w25
	.cfi_restore w26
	.cfi_restore w27
	.cfi_restore w28
	.cfi_restore w30
	.cfi_restore w29
	ret
.LBB44_272:
	.cfi_restore_state
	ldrb	w8, [sp, #122]
	ldrh	w9, [sp, #120]
	orr	x9, x9, x8, lsl #16
	b	.LBB44_266
.LBB44_273:
	ldrb	w8, [sp, #122]
	ldrh	w9, [sp, #120]
	orr	w9, w9, w8, lsl #16
	b	.LBB44_268
.LBB44_274:
	mov	x0, xzr
	add	x13, x29, #1
	mov	w11, #5
	b	.LBB44_276
.LBB44_275:
	add	x0, x0, #1
	add	x13, x13, #1
	cmp	x12, x0
	b.eq	.LBB44_136
.LBB44_276:
	ldrb	w14, [x13]
	cmp	w14, #128
	b.ne	.LBB44_275
	cmp	x0, x15
	b.hs	.LBB44_419
	ldursb	w14, [x13, #-1]
	tbnz	w14, #31, .LBB44_275
	b	.LBB44_163
.LBB44_279:
	ldrb	w8, [sp, #122]
	ldrh	w9, [sp, #120]
	orr	w11, w9, w8, lsl #16
	lsr	w8, w11, #8
	b	.LBB44_164
.LBB44_280:
	ldrb	w8, [sp, #122]
	ldrh	w9, [sp, #120]
	orr	x11, x9, x8, lsl #16
	b	.LBB44_163
.LBB44_281:
	ldrb	w8, [sp, #122]
	ldrh	w9, [sp, #120]
	orr	w11, w9, w8, lsl #16
	b	.LBB44_165
.LBB44_282:
	cbnz	x3, .LBB44_414
	mov	x6, xzr
	mov	w8, wzr
	b	.LBB44_39
.LBB44_284:
	mov	x0, xzr
	add	x11, x28, #1
	mov	w9, #5
	b	.LBB44_286
.LBB44_285:
	add	x0, x0, #1
	add	x11, x11, #1
	cmp	x10, x0
	b.eq	.LBB44_201
.LBB44_286:
	ldrb	w12, [x11]
	cmp	w12, #128
	b.ne	.LBB44_285
	cmp	x0, x5
	b.hs	.LBB44_420
	ldursb	w12, [x11, #-1]
	tbnz	w12, #31, .LBB44_285
	b	.LBB44_266
.LBB44_289:
	cbnz	x27, .LBB44_414
	mov	x8, xzr
	mov	w10, wzr
	b	.LBB44_74
.LBB44_291:
	mov	x0, xzr
	add	x11, x20, #1
	mov	w9, #5
	b	.LBB44_293
.LBB44_292:
	add	x0, x0, #1
	add	x11, x11, #1
	cmp	x10, x0
	b.eq	.LBB44_234
.LBB44_293:
	ldrb	w12, [x11]
	cmp	w12, #128
	b.ne	.LBB44_292
	cmp	x0, x22
	b.hs	.LBB44_421
	ldursb	w12, [x11, #-1]
	tbnz	w12, #31, .LBB44_292
	b	.LBB44_266
.LBB44_296:
	and	w9, w9, #0xff
	cmp	w9, #130
	b.ne	.LBB44_306
	cmp	x10, #1
	b.ls	.LBB44_311
	ldrb	w8, [x1, #2]
	cbz	x8, .LBB44_311
	ldrb	w9, [x1, #3]
	orr	x9, x9, x8, lsl #8
	sub	x8, x2, #4
	subs	x24, x8, x9
	b.lo	.LBB44_311
	add	x8, x1, #4
	b	.LBB44_314
.LBB44_301:
	and	w11, w11, #0xff
	cmp	w11, #130
	b.ne	.LBB44_355
	cmp	x10, #1
	b.ls	.LBB44_365
	ldrb	w10, [x9, #2]
	cbz	x10, .LBB44_365
	ldrb	w11, [x9, #3]
	orr	x14, x11, x10, lsl #8
	sub	x10, x8, #4
	subs	x10, x10, x14
	b.lo	.LBB44_365
	add	x13, x9, #4
	b	.LBB44_367
.LBB44_306:
	cbz	x10, .LBB44_311
	cmp	w9, #129
	b.ne	.LBB44_311
	ldrsb	w8, [x8]
	tbz	w8, #31, .LBB44_311
	sub	x10, x2, #3
	and	x9, x8, #0xff
	subs	x24, x10, x9
	b.lo	.LBB44_311
	add	x8, x1, #3
	b	.LBB44_314
.LBB44_311:
	stp	x22, x3, [sp, #72]
	add	x0, sp, #112
	mov	w3, #48
	str	x5, [sp, #104]
	mov	x22, x23
	mov	x23, x4
	str	x18, [sp, #48]
	mov	x26, x17
	mov	w25, w16
	mov	x21, x14
	mov	x20, x13
	mov	x27, x30
	mov	x24, x15
	bl	_RNvNtNtNtCs00000000000_7pkcs1_c6proved8der_core5split14split_unlikely
	ldr	x8, [sp, #112]
	cbz	x8, .LBB44_373
	ldr	x10, [sp, #136]
	mov	x4, x23
	mov	x23, x22
	ldp	x22, x3, [sp, #72]
	ldr	x9, [sp, #120]
	ldr	x18, [sp, #48]
	ldr	x5, [sp, #104]
	mov	x15, x24
	mov	x24, x10
	mov	x30, x27
	mov	x13, x20
	mov	x14, x21
	mov	w16, w25
	mov	x17, x26
.LBB44_313:
	cmp	x9, #2
	b.lo	.LBB44_350
.LBB44_314:
	mov	x6, x8
	ldrb	w10, [x6], #2
	cmp	w10, #6
	b.ne	.LBB44_350
	ldrsb	w11, [x8, #1]
	sub	x10, x9, #2
	tbnz	w11, #31, .LBB44_317
	and	x7, x11, #0xff
	subs	x2, x10, x7
	b.hs	.LBB44_327
	b	.LBB44_350
.LBB44_317:
	and	w11, w11, #0xff
	cmp	w11, #130
	b.ne	.LBB44_322
	cmp	x10, #1
	b.ls	.LBB44_350
	ldrb	w10, [x8, #2]
	cbz	x10, .LBB44_350
	ldrb	w11, [x8, #3]
	orr	x7, x11, x10, lsl #8
	sub	x10, x9, #4
	subs	x2, x10, x7
	b.lo	.LBB44_350
	add	x6, x8, #4
	add	x1, x6, x7
	sub	x9, x7, #1
	cmp	x9, #38
	b.ls	.LBB44_328
	b	.LBB44_352
.LBB44_322:
	cbz	x10, .LBB44_350
	cmp	w11, #129
	b.ne	.LBB44_350
	ldrsb	w10, [x6]
	tbz	w10, #31, .LBB44_350
	sub	x11, x9, #3
	and	x7, x10, #0xff
	subs	x2, x11, x7
	b.lo	.LBB44_350
	add	x6, x8, #3
.LBB44_327:
	add	x1, x6, x7
	sub	x9, x7, #1
	cmp	x9, #38
	b.hi	.LBB44_352
.LBB44_328:
	ldrsb	w8, [x6, x9]
	tbnz	w8, #31, .LBB44_341
	movi	v0.8b, #128
	movi	v1.4h, #128
	mov	x10, x6
	b	.LBB44_332
.LBB44_330:
	mov	x11, #-1
	mov	w12, #1
.LBB44_331:
	add	x9, x11, x9
	add	x10, x10, x12
.LBB44_332:
	cmp	x9, #7
	b.ls	.LBB44_335
	ldr	d2, [x10]
	cmeq	v2.8b, v2.8b, v0.8b
	umaxv	b2, v2.8b
	fmov	w11, s2
	tbnz	w11, #0, .LBB44_340
	mov	x11, #-8
	mov	w12, #8
	b	.LBB44_331
.LBB44_335:
	cmp	x9, #3
	b.ls	.LBB44_338
	ldr	s2, [x10]
	ushll	v2.8h, v2.8b, #0
	cmeq	v2.4h, v2.4h, v1.4h
	umaxv	h2, v2.4h
	fmov	w11, s2
	tbnz	w11, #0, .LBB44_340
	mov	x11, #-4
	mov	w12, #4
	b	.LBB44_331
.LBB44_338:
	cbz	x9, .LBB44_344
	ldrb	w11, [x10]
	cmp	w11, #128
	b.ne	.LBB44_330
.LBB44_340:
	cbz	x7, .LBB44_344
.LBB44_341:
	ldrb	w9, [x6]
	cmp	w9, #128
	b.eq	.LBB44_352
	subs	x10, x7, #1
	b.ne	.LBB44_375
.LBB44_343:
	tbnz	w8, #31, .LBB44_352
.LBB44_344:
	mov	x20, x3
	cbz	x2, .LBB44_374
	ldrb	w3, [x1]
	mov	w9, #31
	mov	x8, xzr
	bics	wzr, w9, w3
	mov	w9, #11
	b.eq	.LBB44_418
	and	w10, w3, #0xffffffdf
	tst	w10, #0xff
	b.eq	.LBB44_418
	cmp	x2, #1
	b.eq	.LBB44_407
	ldrsb	w9, [x1, #1]
	add	x21, x1, #2
	sub	x8, x2, #2
	tbnz	w9, #31, .LBB44_394
	and	x25, x9, #0xff
	subs	x8, x8, x25
	b.hs	.LBB44_409
	b	.LBB44_407
.LBB44_350:
	str	x3, [sp, #80]
	add	x0, sp, #112
	mov	x1, x8
	mov	x2, x9
	mov	w3, #6
	str	x24, [sp, #64]
	str	x5, [sp, #104]
	mov	x26, x17
	mov	w25, w16
	stp	x4, x18, [sp, #40]
	mov	x21, x14
	mov	x20, x13
	mov	x27, x30
	mov	x24, x15
	bl	_RNvNtNtNtCs00000000000_7pkcs1_c6proved8der_core5split14split_unlikely
	ldr	x6, [sp, #112]
	cbz	x6, .LBB44_380
	ldp	x7, x1, [sp, #120]
	mov	x15, x24
	ldp	x4, x18, [sp, #40]
	mov	x30, x27
	ldr	x2, [sp, #136]
	ldr	x5, [sp, #104]
	mov	x13, x20
	ldr	x3, [sp, #80]
	ldr	x24, [sp, #64]
	mov	x14, x21
	mov	w16, w25
	mov	x17, x26
	sub	x9, x7, #1
	cmp	x9, #38
	b.ls	.LBB44_328
.LBB44_352:
	mov	w9, #5
.LBB44_353:
	lsr	x8, x9, #8
.LBB44_354:
	and	x9, x9, #0xff
	b	.LBB44_401
.LBB44_355:
	cbz	x10, .LBB44_365
	cmp	w11, #129
	b.ne	.LBB44_365
	ldrsb	w10, [x13]
	tbz	w10, #31, .LBB44_365
	sub	x11, x8, #3
	and	x14, x10, #0xff
	subs	x10, x11, x14
	b.lo	.LBB44_365
	add	x13, x9, #3
	b	.LBB44_367
.LBB44_360:
	and	w9, w9, #0xff
	cmp	w9, #130
	b.ne	.LBB44_381
	cmp	x10, #1
	b.ls	.LBB44_386
	ldrb	w8, [x1, #2]
	cbz	x8, .LBB44_386
	ldrb	w9, [x1, #3]
	orr	x9, x9, x8, lsl #8
	sub	x8, x2, #4
	subs	x10, x8, x9
	b.lo	.LBB44_386
	add	x8, x1, #4
	b	.LBB44_388
.LBB44_365:
	mov	x20, x2
	mov	x24, x1
	add	x0, sp, #112
	mov	x1, x9
	mov	x2, x8
	mov	x3, x30
	mov	x25, x15
	mov	x26, x30
	bl	_RNvNtNtNtCs00000000000_7pkcs1_c6proved8der_core5split14split_unlikely
	ldr	x13, [sp, #112]
	cbz	x13, .LBB44_392
	ldr	x14, [sp, #120]
	ldr	x10, [sp, #136]
	mov	x1, x24
	mov	x2, x20
	mov	x15, x25
	mov	x30, x26
.LBB44_367:
	cbz	x10, .LBB44_369
	mov	w11, #12
	b	.LBB44_163
.LBB44_369:
	cbz	x21, .LBB44_371
.LBB44_370:
	mov	w11, #12
	b	.LBB44_164
.LBB44_371:
	cmp	x15, #5
	b.eq	.LBB44_9
	mov	w8, wzr
	b	.LBB44_17
.LBB44_373:
	ldrb	w8, [sp, #122]
	ldrh	w9, [sp, #120]
	orr	x9, x9, x8, lsl #16
	ubfx	x8, x9, #8, #24
	mov	w8, w8
	b	.LBB44_354
.LBB44_374:
	mov	x21, xzr
	b	.LBB44_411
.LBB44_375:
	mov	x0, xzr
	add	x11, x6, #1
	mov	w9, #5
	b	.LBB44_377
.LBB44_376:
	add	x0, x0, #1
	add	x11, x11, #1
	cmp	x10, x0
	b.eq	.LBB44_343
.LBB44_377:
	ldrb	w12, [x11]
	cmp	w12, #128
	b.ne	.LBB44_376
	cmp	x0, x7
	b.hs	.LBB44_422
	ldursb	w12, [x11, #-1]
	tbnz	w12, #31, .LBB44_376
	b	.LBB44_353
.LBB44_380:
	ldrb	w8, [sp, #122]
	ldrh	w9, [sp, #120]
	orr	x9, x9, x8, lsl #16
	b	.LBB44_353
.LBB44_381:
	cbz	x10, .LBB44_386
	cmp	w9, #129
	b.ne	.LBB44_386
	ldrsb	w8, [x8]
	tbz	w8, #31, .LBB44_386
	sub	x10, x2, #3
	and	x9, x8, #0xff
	subs	x10, x10, x9
	b.lo	.LBB44_386
	add	x8, x1, #3
	b	.LBB44_388
.LBB44_386:
	stp	x3, x7, [sp, #80]
	add	x0, sp, #112
	mov	w3, w23
	stp	x27, x13, [sp, #16]
	mov	x27, x18
	str	w26, [sp, #56]
	mov	x26, x17
	stp	x25, x21, [sp, #64]
	mov	w25, w16
	mov	x21, x14
	stp	x6, x5, [sp, #96]
	stp	x30, x4, [sp, #32]
	str	x15, [sp, #8]
	bl	_RNvNtNtNtCs00000000000_7pkcs1_c6proved8der_core5split14split_unlikely
	ldr	x8, [sp, #112]
	cbz	x8, .LBB44_399
	ldp	x13, x30, [sp, #24]
	mov	x14, x21
	mov	w16, w25
	mov	x18, x27
	ldr	x9, [sp, #120]
	ldp	x6, x5, [sp, #96]
	ldr	x10, [sp, #136]
	ldp	x3, x7, [sp, #80]
	mov	x17, x26
	ldp	x25, x21, [sp, #64]
	ldr	x4, [sp, #40]
	ldp	x15, x27, [sp, #8]
	ldr	w26, [sp, #56]
.LBB44_388:
	cbnz	x10, .LBB44_412
	cbnz	x27, .LBB44_414
	cmp	x22, #9
	b.eq	.LBB44_69
	mov	w10, wzr
	b	.LBB44_74
.LBB44_392:
	ldrb	w8, [sp, #122]
	ldrh	w9, [sp, #120]
	orr	w8, w9, w8, lsl #16
	lsr	w30, w8, #8
	and	w11, w8, #0xff
	and	w10, w30, #0xff00
.LBB44_393:
	mov	w8, w30
	and	x8, x8, #0xff
	orr	x8, x10, x8
	orr	x11, x11, x8, lsl #8
	b	.LBB44_163
.LBB44_394:
	and	w9, w9, #0xff
	cmp	w9, #130
	b.ne	.LBB44_402
	cmp	x8, #1
	b.ls	.LBB44_407
	ldrb	w8, [x1, #2]
	cbz	x8, .LBB44_407
	ldrb	w9, [x1, #3]
	orr	x25, x9, x8, lsl #8
	sub	x8, x2, #4
	subs	x8, x8, x25
	b.lo	.LBB44_407
	add	x21, x1, #4
	b	.LBB44_409
.LBB44_399:
	ldrb	w8, [sp, #122]
	ldrh	w9, [sp, #120]
	orr	w9, w9, w8, lsl #16
	lsr	w23, w9, #8
	and	w9, w9, #0xff
	and	w8, w23, #0xff00
.LBB44_400:
	and	x10, x23, #0xff
	orr	x8, x8, x10
.LBB44_401:
	orr	x9, x9, x8, lsl #8
	b	.LBB44_266
.LBB44_402:
	cbz	x8, .LBB44_407
	cmp	w9, #129
	b.ne	.LBB44_407
	ldrsb	w8, [x21]
	tbz	w8, #31, .LBB44_407
	sub	x9, x2, #3
	and	x25, x8, #0xff
	subs	x8, x9, x25
	b.lo	.LBB44_407
	add	x21, x1, #3
	b	.LBB44_409
.LBB44_407:
	add	x0, sp, #112
	stp	x24, x22, [sp, #64]
	mov	x22, x17
	stp	x7, x6, [sp, #88]
	mov	w25, w16
	mov	x21, x14
	str	x5, [sp, #104]
	mov	x27, x30
	mov	x24, x15
	stp	x18, x23, [sp, #48]
	mov	x23, x13
	mov	x26, x3
	str	x4, [sp, #40]
	bl	_RNvNtNtNtCs00000000000_7pkcs1_c6proved8der_core5split14split_unlikely
	ldr	x8, [sp, #112]
	cbz	x8, .LBB44_417
	ldr	x10, [sp, #120]
	mov	x15, x24
	mov	x13, x23
	ldp	x4, x18, [sp, #40]
	mov	x9, x8
	ldp	x23, x24, [sp, #56]
	ldr	x8, [sp, #136]
	ldp	x6, x5, [sp, #96]
	mov	x17, x22
	ldr	x22, [sp, #72]
	ldr	x7, [sp, #88]
	mov	x30, x27
	mov	x14, x21
	mov	w16, w25
	mov	x25, x10
	mov	x3, x26
	mov	x21, x9
.LBB44_409:
	cbz	x8, .LBB44_411
	mov	w9, #12
	b	.LBB44_353
.LBB44_411:
	cbz	x24, .LBB44_413
.LBB44_412:
	mov	w9, #12
	b	.LBB44_266
.LBB44_413:
	cbz	x20, .LBB44_415
.LBB44_414:
	mov	w9, #12
	b	.LBB44_267
.LBB44_415:
	cmp	x5, #9
	b.eq	.LBB44_28
	mov	w8, wzr
	b	.LBB44_39
.LBB44_417:
	ldrb	w8, [sp, #122]
	ldrh	w9, [sp, #120]
	orr	w9, w9, w8, lsl #16
	lsr	w3, w9, #8
	and	w9, w9, #0xff
	and	w8, w3, #0xff00
.LBB44_418:
	mov	w10, w3
	and	x10, x10, #0xff
	orr	x8, x8, x10
	orr	x9, x9, x8, lsl #8
	b	.LBB44_353
.LBB44_419:
	mov	x1, x15
	brk	#0x1
.LBB44_420:
	mov	x1, x5
	brk	#0x1
.LBB44_421:
	mov	x1, x22
	brk	#0x1
.LBB44_422:
	mov	x1, x7
	brk	#0x1
.Lfunc_end44:
	.size	_RNvNtNtNtCs00000000000_7pkcs1_c6proved12pkcs1_params6noting9note_oaep, .Lfunc_end44-_RNvNtNtNtCs00000000000_7pkcs1_c6proved12pkcs1_params6noting9note_oaep
	.cfi_endproc

	.section	.text._RNvNtNtNtCs00000000000_7pkcs1_c6proved5pkcs110viewed_key9read_list,"ax",@progbits
	.p2align	2
	.type	_RNvNtNtNtCs00000000000_7pkcs1_c6proved5pkcs110viewed_key9read_list,@function
_RNvNtNtNtCs00000000000_7pkcs1_c6proved5pkcs110viewed_key9read_list:
	.cfi_startproc
	sub	sp, sp, #144
	.cfi_def_cfa_offset 144
	stp	x29, x30, [sp, #48]
	stp	x28, x27, [sp, #64]
	stp	x26, x25, [sp, #80]
	stp	x24, x23, [sp, #96]
	stp	x22, x21, [sp, #112]
	stp	x20, x19, [sp, #128]
	.cfi_offset w19, -8
	.cfi_offset w20, -16
	.cfi_offset w21, -24
	.cfi_offset w22, -32
	.cfi_offset w23, -40
	.cfi_offset w24, -48
	.cfi_offset w25, -56
	.cfi_offset w26, -64
	.cfi_offset w27, -72
	.cfi_offset w28, -80
	.cfi_offset w30, -88
	.cfi_offset w29, -96
	.cfi_remember_state
	mov	w20, w3
	mov	x19, x0
	cbz	x2, .LBB45_7
	ldrb	w8, [x1]
	cmp	w8, #48
	b.ne	.LBB45_9
	cmp	x2, #1
	b.eq	.LBB45_23
	ldrsb	w9, [x1, #1]
	add	x23, x1, #2
	sub	x8, x2, #2
	tbnz	w9, #31, .LBB45_13
	and	x24, x9, #0xff
	subs	x8, x8, x24
	b.lo	.LBB45_23
	cbnz	x24, .LBB45_25
.LBB45_6:
	cmp	w20, #0
	mov	w8, #2
	mov	w9, #48
	csel	w9, w9, w8, ne
	mov	w8, #13
	b	.LBB45_10
.LBB45_7:
	cmp	w20, #0
	mov	w8, #17
	mov	w9, #13
	csel	w8, w9, w8, ne
	tbz	w20, #0, .LBB45_11
.LBB45_8:
	mov	w9, #2
	b	.LBB45_10
.LBB45_9:
	cmp	w20, #0
	mov	w8, #12
	mov	w9, #2
	cinc	w8, w8, ne
.LBB45_10:
	strb	w8, [x19, #1]
	mov	w8, #1
	strh	w9, [x19, #2]
	b	.LBB45_131
.LBB45_11:
	mov	x23, xzr
.LBB45_12:
	mov	w8, wzr
	stp	x23, x24, [x19, #8]
	str	x27, [x19, #24]
	b	.LBB45_131
.LBB45_13:
	and	w9, w9, #0xff
	cmp	w9, #130
	b.ne	.LBB45_18
	cmp	x8, #1
	b.ls	.LBB45_23
	ldrb	w8, [x1, #2]
	cbz	x8, .LBB45_23
	ldrb	w9, [x1, #3]
	orr	x24, x9, x8, lsl #8
	sub	x8, x2, #4
	subs	x8, x8, x24
	b.lo	.LBB45_23
	add	x23, x1, #4
	b	.LBB45_25
.LBB45_18:
	cbz	x8, .LBB45_23
	cmp	w9, #129
	b.ne	.LBB45_23
	ldrsb	w8, [x23]
	tbz	w8, #31, .LBB45_23
	sub	x9, x2, #3
	and	x24, x8, #0xff
	subs	x8, x9, x24
	b.lo	.LBB45_23
	add	x23, x1, #3
	b	.LBB45_25
.LBB45_23:
	add	x0, sp, #16
	mov	w3, #48
	bl	_RNvNtNtNtCs00000000000_7pkcs1_c6proved8der_core5split14split_unlikely
	ldr	x23, [sp, #16]
	cbz	x23, .LBB45_118
	ldr	x24, [sp, #24]
	ldr	x8, [sp, #40]
	cbz	x24, .LBB45_6
.LBB45_25:
	mov	x27, xzr
	mov	x21, x23
	mov	x22, x24
	str	x8, [sp, #8]
.LBB45_26:
	cmp	x22, #1
	b.eq	.LBB45_53
	mov	x1, x21
	ldrb	w8, [x1], #2
	cmp	w8, #48
	b.ne	.LBB45_53
	ldrsb	w9, [x21, #1]
	sub	x8, x22, #2
	tbnz	w9, #31, .LBB45_32
	and	x2, x9, #0xff
	subs	x8, x8, x2
	b.lo	.LBB45_53
	add	x21, x1, x2
	mov	x22, x8
	cmp	x2, #2
	b.lo	.LBB45_110
.LBB45_31:
	mov	x9, x1
	ldrb	w8, [x9], #2
	cmp	w8, #2
	b.eq	.LBB45_43
	b	.LBB45_110
.LBB45_32:
	and	w9, w9, #0xff
	cmp	w9, #130
	b.ne	.LBB45_37
	cmp	x8, #1
	b.ls	.LBB45_53
	ldrb	w8, [x21, #2]
	cbz	x8, .LBB45_53
	ldrb	w9, [x21, #3]
	orr	x2, x9, x8, lsl #8
	sub	x8, x22, #4
	subs	x8, x8, x2
	b.lo	.LBB45_53
	add	x1, x21, #4
	b	.LBB45_42
.LBB45_37:
	cbz	x8, .LBB45_53
	cmp	w9, #129
	b.ne	.LBB45_53
	ldrsb	w8, [x1]
	tbz	w8, #31, .LBB45_53
	sub	x9, x22, #3
	and	x2, x8, #0xff
	subs	x8, x9, x2
	b.lo	.LBB45_53
	add	x1, x21, #3
.LBB45_42:
	add	x21, x1, x2
	mov	x22, x8
	mov	x9, x1
	ldrb	w8, [x9], #2
	cmp	w8, #2
	b.ne	.LBB45_110
.LBB45_43:
	ldrsb	w10, [x1, #1]
	sub	x8, x2, #2
	tbnz	w10, #31, .LBB45_48
	and	x29, x10, #0xff
	subs	x8, x8, x29
	b.lo	.LBB45_110
	add	x1, x9, x29
	cbz	x29, .LBB45_112
.LBB45_46:
	ldrsb	w10, [x9]
	cbz	w10, .LBB45_60
.LBB45_47:
	tbz	w10, #31, .LBB45_62
	b	.LBB45_121
.LBB45_48:
	and	w10, w10, #0xff
	cmp	w10, #130
	b.ne	.LBB45_55
	cmp	x8, #1
	b.ls	.LBB45_110
	ldrb	w8, [x1, #2]
	cbz	x8, .LBB45_110
	ldrb	w9, [x1, #3]
	orr	x29, x9, x8, lsl #8
	sub	x8, x2, #4
	subs	x8, x8, x29
	b.lo	.LBB45_110
	add	x9, x1, #4
	add	x1, x9, x29
	ldrsb	w10, [x9]
	cbnz	w10, .LBB45_47
	b	.LBB45_60
.LBB45_53:
	add	x0, sp, #16
	mov	x1, x21
	mov	x2, x22
	mov	w3, #48
	bl	_RNvNtNtNtCs00000000000_7pkcs1_c6proved8der_core5split14split_unlikely
	ldr	x1, [sp, #16]
	cbz	x1, .LBB45_118
	ldp	x2, x21, [sp, #24]
	ldr	x22, [sp, #40]
	cmp	x2, #2
	b.hs	.LBB45_31
	b	.LBB45_110
.LBB45_55:
	cbz	x8, .LBB45_109
	cmp	w10, #129
	b.ne	.LBB45_110
	ldrsb	w8, [x9]
	tbz	w8, #31, .LBB45_110
	sub	x9, x2, #3
	and	x29, x8, #0xff
	subs	x8, x9, x29
	b.lo	.LBB45_110
	add	x9, x1, #3
	add	x1, x9, x29
	ldrsb	w10, [x9]
	cbnz	w10, .LBB45_47
.LBB45_60:
	subs	x29, x29, #1
	b.eq	.LBB45_96
	ldrsb	w9, [x9, #1]
	tbz	w9, #31, .LBB45_126
.LBB45_62:
	subs	x10, x8, #2
	b.lo	.LBB45_97
.LBB45_63:
	mov	x9, x1
	ldrb	w11, [x9], #2
	cmp	w11, #2
	b.ne	.LBB45_97
	ldrsb	w11, [x1, #1]
	tbnz	w11, #31, .LBB45_69
	and	x26, x11, #0xff
	subs	x2, x10, x26
	b.lo	.LBB45_97
	add	x1, x9, x26
	cbz	x26, .LBB45_119
.LBB45_67:
	ldrsb	w8, [x9]
	cbz	w8, .LBB45_79
.LBB45_68:
	tbz	w8, #31, .LBB45_81
	b	.LBB45_122
.LBB45_69:
	and	w11, w11, #0xff
	cmp	w11, #130
	b.ne	.LBB45_74
	cmp	x10, #1
	b.ls	.LBB45_97
	ldrb	w9, [x1, #2]
	cbz	x9, .LBB45_97
	ldrb	w10, [x1, #3]
	orr	x26, x10, x9, lsl #8
	sub	x9, x8, #4
	subs	x2, x9, x26
	b.lo	.LBB45_97
	add	x9, x1, #4
	add	x1, x9, x26
	ldrsb	w8, [x9]
	cbnz	w8, .LBB45_68
	b	.LBB45_79
.LBB45_74:
	cbz	x10, .LBB45_97
	cmp	w11, #129
	b.ne	.LBB45_97
	ldrsb	w9, [x9]
	tbz	w9, #31, .LBB45_97
	sub	x10, x8, #3
	and	x26, x9, #0xff
	subs	x2, x10, x26
	b.lo	.LBB45_97
	add	x9, x1, #3
	add	x1, x9, x26
	ldrsb	w8, [x9]
	cbnz	w8, .LBB45_68
.LBB45_79:
	subs	x26, x26, #1
	b.eq	.LBB45_99
	ldrsb	w8, [x9, #1]
	tbz	w8, #31, .LBB45_128
.LBB45_81:
	subs	x10, x2, #2
	b.lo	.LBB45_100
.LBB45_82:
	mov	x9, x1
	ldrb	w8, [x9], #2
	cmp	w8, #2
	b.ne	.LBB45_100
	ldrsb	w8, [x1, #1]
	tbnz	w8, #31, .LBB45_86
	and	x8, x8, #0xff
	subs	x10, x10, x8
	b.lo	.LBB45_100
	cbnz	x8, .LBB45_102
	b	.LBB45_120
.LBB45_86:
	and	w8, w8, #0xff
	cmp	w8, #130
	b.ne	.LBB45_91
	cmp	x10, #1
	b.ls	.LBB45_100
	ldrb	w8, [x1, #2]
	cbz	x8, .LBB45_100
	ldrb	w9, [x1, #3]
	orr	x8, x9, x8, lsl #8
	sub	x9, x2, #4
	subs	x10, x9, x8
	b.lo	.LBB45_100
	add	x9, x1, #4
	b	.LBB45_102
.LBB45_91:
	cbz	x10, .LBB45_100
	cmp	w8, #129
	b.ne	.LBB45_100
	ldrsb	w8, [x9]
	tbz	w8, #31, .LBB45_100
	sub	x9, x2, #3
	and	x8, x8, #0xff
	subs	x10, x9, x8
	b.lo	.LBB45_100
	add	x9, x1, #3
	b	.LBB45_102
.LBB45_96:
	mov	w29, #1
	subs	x10, x8, #2
	b.hs	.LBB45_63
.LBB45_97:
	add	x0, sp, #16
	mov	x2, x8
	mov	w3, #2
	bl	_RNvNtNtNtCs00000000000_7pkcs1_c6proved8der_core5split14split_unlikely
	ldr	x9, [sp, #16]
	cbz	x9, .LBB45_125
	ldp	x26, x1, [sp, #24]
	ldr	x2, [sp, #40]
	cbnz	x26, .LBB45_67
	b	.LBB45_119
.LBB45_99:
	mov	w26, #1
	subs	x10, x2, #2
	b.hs	.LBB45_82
.LBB45_100:
	add	x0, sp, #16
	mov	w3, #2
	bl	_RNvNtNtNtCs00000000000_7pkcs1_c6proved8der_core5split14split_unlikely
	ldr	x9, [sp, #16]
	cbz	x9, .LBB45_133
	ldr	x8, [sp, #24]
	ldr	x10, [sp, #40]
	cbz	x8, .LBB45_120
.LBB45_102:
	ldrsb	w11, [x9]
	cbz	w11, .LBB45_104
	tbz	w11, #31, .LBB45_106
	b	.LBB45_123
.LBB45_104:
	subs	x8, x8, #1
	b.eq	.LBB45_108
	ldrsb	w9, [x9, #1]
	tbz	w9, #31, .LBB45_132
.LBB45_106:
	cbnz	x10, .LBB45_113
.LBB45_107:
	add	x27, x27, #1
	mov	x25, x8
	mov	x28, x26
	mov	x26, x29
	cbnz	x22, .LBB45_26
	b	.LBB45_114
.LBB45_108:
	mov	w8, #1
	cbz	x10, .LBB45_107
	b	.LBB45_113
.LBB45_109:
	mov	w2, #2
.LBB45_110:
	add	x0, sp, #16
	mov	w3, #2
	bl	_RNvNtNtNtCs00000000000_7pkcs1_c6proved8der_core5split14split_unlikely
	ldr	x9, [sp, #16]
	cbz	x9, .LBB45_125
	ldp	x29, x1, [sp, #24]
	ldr	x8, [sp, #40]
	cbnz	x29, .LBB45_46
.LBB45_112:
	mov	x8, #515
	b	.LBB45_127
.LBB45_113:
	mov	w25, #12
	b	.LBB45_130
.LBB45_114:
	tbz	w20, #0, .LBB45_124
	cbz	x27, .LBB45_134
	ldr	x8, [sp, #8]
	cbz	x8, .LBB45_12
	mov	w8, #12
	b	.LBB45_10
.LBB45_118:
	ldrb	w8, [sp, #26]
	ldrh	w9, [sp, #24]
	orr	w25, w9, w8, lsl #16
	b	.LBB45_130
.LBB45_119:
	mov	x8, #515
	b	.LBB45_129
.LBB45_120:
	mov	x8, #515
	bfxil	x25, x8, #0, #16
	b	.LBB45_130
.LBB45_121:
	mov	x8, #525
	b	.LBB45_127
.LBB45_122:
	mov	x8, #525
	b	.LBB45_129
.LBB45_123:
	mov	x8, #525
	bfxil	x25, x8, #0, #16
	b	.LBB45_130
.LBB45_124:
	mov	w8, #13
	b	.LBB45_8
.LBB45_125:
	ldrb	w8, [sp, #26]
	ldrh	w9, [sp, #24]
	orr	x25, x9, x8, lsl #16
	b	.LBB45_130
.LBB45_126:
	mov	x8, #516
.LBB45_127:
	bfxil	x26, x8, #0, #16
	mov	w25, w26
	b	.LBB45_130
.LBB45_128:
	mov	x8, #516
.LBB45_129:
	bfxil	x28, x8, #0, #16
	mov	w25, w28
.LBB45_130:
	lsr	w8, w25, #16
	sturh	w25, [x19, #1]
	strb	w8, [x19, #3]
	mov	w8, #1
.LBB45_131:
	strb	w8, [x19]
	ldp	x20, x19, [sp, #128]
	ldp	x22, x21, [sp, #112]
	ldp	x24, x23, [sp, #96]
	ldp	x26, x25, [sp, #80]
	ldp	x28, x27, [sp, #64]
	ldp	x29, x30, [sp, #48]
	add	sp, sp, #144
	.cfi_def_cfa_offset 0
	.cfi_restore w19
	.cfi_restore w20
	.cfi_restore w21
	.cfi_restore w22
	.cfi_restore w23
	.cfi_restore w24
	.cfi_restore w25
	.cfi_restore w26
	.cfi_restore w27
	.cfi_restore w28
	.cfi_restore w30
	.cfi_restore w29
	ret
.LBB45_132:
	.cfi_restore_state
	mov	x8, #516
	bfxil	x25, x8, #0, #16
	b	.LBB45_130
.LBB45_133:
	ldrb	w8, [sp, #26]
	ldrh	w9, [sp, #24]
	orr	x25, x9, x8, lsl #16
	b	.LBB45_130
.LBB45_134:
	mov	w8, #13
	mov	w9, #48
	b	.LBB45_10
.Lfunc_end45:
	.size	_RNvNtNtNtCs00000000000_7pkcs1_c6proved5pkcs110viewed_key9read_list, .Lfunc_end45-_RNvNtNtNtCs00000000000_7pkcs1_c6proved5pkcs110viewed_key9read_list
	.cfi_endproc

	.type	.Lanon.0,@object
	.section	.rodata..Lanon.0,"a",@progbits
.Lanon.0:
	.ascii	"*\206H\206\367\r\001\001\001"
	.size	.Lanon.0, 9

	.type	.Lanon.1,@object
	.section	.rodata..Lanon.1,"a",@progbits
.Lanon.1:
	.ascii	"*\206H\206\367\r\001\001\007"
	.size	.Lanon.1, 9

	.type	.Lanon.10,@object
	.section	.rodata..Lanon.10,"a",@progbits
.Lanon.10:
	.asciz	"the input ends too early: it is empty or cut off, or a field is missing"
	.size	.Lanon.10, 72

	.type	.Lanon.11,@object
	.section	.rodata..Lanon.11,"a",@progbits
.Lanon.11:
	.asciz	"the length is indefinite: this is BER, not DER"
	.size	.Lanon.11, 47

	.type	.Lanon.12,@object
	.section	.rodata..Lanon.12,"a",@progbits
.Lanon.12:
	.asciz	"the contents have a wrong length: a number has no octets"
	.size	.Lanon.12, 57

	.type	.Lanon.13,@object
	.section	.rodata..Lanon.13,"a",@progbits
.Lanon.13:
	.asciz	"the contents are not in shortest form: needless zeros in front, or (strict) a default written out"
	.size	.Lanon.13, 98

	.type	.Lanon.14,@object
	.section	.rodata..Lanon.14,"a",@progbits
.Lanon.14:
	.asciz	"the object identifier is malformed: empty, cut off, not in shortest form, or over 39 octets"
	.size	.Lanon.14, 92

	.type	.Lanon.15,@object
	.section	.rodata..Lanon.15,"a",@progbits
.Lanon.15:
	.asciz	"the object identifier is another one: another algorithm, or PKCS #8 with no RSA key or an RSA-PSS key"
	.size	.Lanon.15, 102

	.type	.Lanon.16,@object
	.section	.rodata..Lanon.16,"a",@progbits
.Lanon.16:
	.asciz	"a length passes the limit of 4294967295 octets, or stands in more than four octets"
	.size	.Lanon.16, 83

	.type	.Lanon.17,@object
	.section	.rodata..Lanon.17,"a",@progbits
.Lanon.17:
	.asciz	"the length is not in shortest form: this is not DER"
	.size	.Lanon.17, 52

	.type	.Lanon.18,@object
	.section	.rodata..Lanon.18,"a",@progbits
.Lanon.18:
	.asciz	"the algorithm parameters are missing: rsaEncryption needs NULL, RSASSA-PSS and RSAES-OAEP a SEQUENCE"
	.size	.Lanon.18, 101

	.type	.Lanon.19,@object
	.section	.rodata..Lanon.19,"a",@progbits
.Lanon.19:
	.asciz	"another tag was expected: the input may be PEM, PKCS #1, PKCS #8, SubjectPublicKeyInfo or an encrypted key"
	.size	.Lanon.19, 107

	.type	.Lanon.2,@object
	.section	.rodata..Lanon.2,"a",@progbits
.Lanon.2:
	.ascii	"*\206H\206\367\r\001\001\n"
	.size	.Lanon.2, 9

	.type	.Lanon.20,@object
	.section	.rodata..Lanon.20,"a",@progbits
.Lanon.20:
	.asciz	"the tag octet is not known: this is not DER of a key or of parameters"
	.size	.Lanon.20, 70

	.type	.Lanon.21,@object
	.section	.rodata..Lanon.21,"a",@progbits
.Lanon.21:
	.asciz	"bytes follow the value, or a field that it does not have: a private key read as a public one, perhaps"
	.size	.Lanon.21, 102

	.type	.Lanon.22,@object
	.section	.rodata..Lanon.22,"a",@progbits
.Lanon.22:
	.asciz	"the value is not allowed: negative, salt over 255, another version, trailer or NULL; a public key, perhaps"
	.size	.Lanon.22, 107

	.type	.Lanon.23,@object
	.section	.rodata..Lanon.23,"a",@progbits
.Lanon.23:
	.asciz	"there is too little room for the encoding"
	.size	.Lanon.23, 42

	.type	.Lanon.24,@object
	.section	.rodata..Lanon.24,"a",@progbits
.Lanon.24:
	.asciz	"a read or a write failed"
	.size	.Lanon.24, 25

	.type	.Lanon.25,@object
	.section	.rodata..Lanon.25,"a",@progbits
.Lanon.25:
	.asciz	"no memory was found"
	.size	.Lanon.25, 20

	.type	.Lanon.26,@object
	.section	.rodata..Lanon.26,"a",@progbits
.Lanon.26:
	.asciz	"the other primes are not as many as the key says"
	.size	.Lanon.26, 49

	.type	.Lanon.3,@object
	.section	.rodata..Lanon.3,"a",@progbits
.Lanon.3:
	.asciz	"another error"
	.size	.Lanon.3, 14

	.type	.Lanon.4,@object
	.section	.rodata..Lanon.4,"a",@progbits
.Lanon.4:
	.asciz	"0.8.1"
	.size	.Lanon.4, 6

	.type	.Lanon.5,@object
	.section	.rodata..Lanon.5,"a",@progbits
.Lanon.5:
	.ascii	"+\016\003\002\032"
	.size	.Lanon.5, 5

	.type	.Lanon.6,@object
	.section	.rodata..Lanon.6,"a",@progbits
.Lanon.6:
	.ascii	"*\206H\206\367\r\001\001\b"
	.size	.Lanon.6, 9

	.type	.Lanon.7,@object
	.section	.rodata..Lanon.7,"a",@progbits
.Lanon.7:
	.ascii	"*\206H\206\367\r\001\001\t"
	.size	.Lanon.7, 9

	.type	.Lanon.8,@object
	.section	.rodata..Lanon.8,"a",@progbits
.Lanon.8:
	.asciz	"no error"
	.size	.Lanon.8, 9

	.type	.Lanon.9,@object
	.section	.rodata..Lanon.9,"a",@progbits
.Lanon.9:
	.asciz	"an earlier read failed"
	.size	.Lanon.9, 23

	.type	.Lswitch.table.pkcs1_c_status_text,@object
	.section	.rodata..Lswitch.table.pkcs1_c_status_text,"a",@progbits
	.p2align	3, 0x0
.Lswitch.table.pkcs1_c_status_text:
	.xword	9
	.xword	23
	.xword	72
	.xword	47
	.xword	57
	.xword	98
	.xword	92
	.xword	102
	.xword	83
	.xword	52
	.xword	101
	.xword	107
	.xword	70
	.xword	102
	.xword	107
	.xword	42
	.xword	25
	.xword	20
	.xword	14
	.xword	14
	.xword	14
	.xword	49
	.size	.Lswitch.table.pkcs1_c_status_text, 176

	.type	.Lswitch.table.pkcs1_c_status_text.20,@object
	.section	.data.rel.ro..Lswitch.table.pkcs1_c_status_text.20,"aw",@progbits
	.p2align	3, 0x0
.Lswitch.table.pkcs1_c_status_text.20:
	.xword	.Lanon.8
	.xword	.Lanon.9
	.xword	.Lanon.10
	.xword	.Lanon.11
	.xword	.Lanon.12
	.xword	.Lanon.13
	.xword	.Lanon.14
	.xword	.Lanon.15
	.xword	.Lanon.16
	.xword	.Lanon.17
	.xword	.Lanon.18
	.xword	.Lanon.19
	.xword	.Lanon.20
	.xword	.Lanon.21
	.xword	.Lanon.22
	.xword	.Lanon.23
	.xword	.Lanon.24
	.xword	.Lanon.25
	.xword	.Lanon.3
	.xword	.Lanon.3
	.xword	.Lanon.3
	.xword	.Lanon.26
	.size	.Lswitch.table.pkcs1_c_status_text.20, 176

	.type	_RNvNtCs00000000000_7pkcs1_c10rattle_std8AN_OCTET,@object
	.section	.rodata._RNvNtCs00000000000_7pkcs1_c10rattle_std8AN_OCTET,"a",@progbits
_RNvNtCs00000000000_7pkcs1_c10rattle_std8AN_OCTET:
	.zero	1
	.size	_RNvNtCs00000000000_7pkcs1_c10rattle_std8AN_OCTET, 1

	.section	".note.GNU-stack","",@progbits
	.section	".note.gnu.property","a",@note
	.p2align	3
	.long	4
	.long	16
	.long	5
	.asciz	"GNU"
	.long	3221225472
	.long	4
	.long	1
	.long	0
