	.text
	.section	.text.unlikely._RINvNtCs00000000000_5alloc7raw_vec11finish_growNtNtB4_5alloc6GlobalECs00000000001_10pkcs1_tool,"ax",@progbits
	.p2align	2
	.type	_RINvNtCs00000000000_5alloc7raw_vec11finish_growNtNtB4_5alloc6GlobalECs00000000001_10pkcs1_tool,@function
_RINvNtCs00000000000_5alloc7raw_vec11finish_growNtNtB4_5alloc6GlobalECs00000000001_10pkcs1_tool:
	.cfi_startproc
	hint	#38
	stp	x30, x21, [sp, #-32]!
	.cfi_def_cfa_offset 32
	stp	x20, x19, [sp, #16]
	.cfi_offset w19, -8
	.cfi_offset w20, -16
	.cfi_offset w21, -24
	.cfi_offset w30, -32
	ldr	x8, [x3, #8]
	mov	x21, x2
	mov	x19, x1
	mov	x20, x0
	cbz	x8, .LBB0_3
	ldr	x8, [x3, #16]
	cbz	x8, .LBB0_3
	ldr	x0, [x3]
	mov	x1, x21
	bl	realloc
	b	.LBB0_6
.LBB0_3:
	cbz	x21, .LBB0_5
	adrp	x8, __rust_no_alloc_shim_is_unstable
	mov	x0, x21
	ldrb	wzr, [x8, :lo12:__rust_no_alloc_shim_is_unstable]
	bl	malloc
	b	.LBB0_6
.LBB0_5:
	mov	x0, x19
.LBB0_6:
	cmp	x0, #0
	csel	x8, x19, x0, eq
	cset	w9, eq
	stp	x8, x21, [x20, #8]
	str	x9, [x20]
	ldp	x20, x19, [sp, #16]
	ldp	x30, x21, [sp], #32
	.cfi_def_cfa_offset 0
	.cfi_restore w19
	.cfi_restore w20
	.cfi_restore w21
	.cfi_restore w30
	ret
.Lfunc_end0:
	.size	_RINvNtCs00000000000_5alloc7raw_vec11finish_growNtNtB4_5alloc6GlobalECs00000000001_10pkcs1_tool, .Lfunc_end0-_RINvNtCs00000000000_5alloc7raw_vec11finish_growNtNtB4_5alloc6GlobalECs00000000001_10pkcs1_tool
	.cfi_endproc

	.section	.text._RINvNtCs00000000002_4core3ptr13drop_in_placeNtNtNtCs00000000001_10pkcs1_tool10rattle_std4text6StringEBM_,"ax",@progbits
	.p2align	2
	.type	_RINvNtCs00000000002_4core3ptr13drop_in_placeNtNtNtCs00000000001_10pkcs1_tool10rattle_std4text6StringEBM_,@function
_RINvNtCs00000000002_4core3ptr13drop_in_placeNtNtNtCs00000000001_10pkcs1_tool10rattle_std4text6StringEBM_:
	.cfi_startproc
	hint	#38
	ldr	x8, [x0]
	cbz	x8, .LBB1_2
	ldr	x0, [x0, #8]
	b	free
.LBB1_2:
	ret
.Lfunc_end1:
	.size	_RINvNtCs00000000002_4core3ptr13drop_in_placeNtNtNtCs00000000001_10pkcs1_tool10rattle_std4text6StringEBM_, .Lfunc_end1-_RINvNtCs00000000002_4core3ptr13drop_in_placeNtNtNtCs00000000001_10pkcs1_tool10rattle_std4text6StringEBM_
	.cfi_endproc

	.section	.text.unlikely._RINvNvMs3_NtCs00000000000_5alloc7raw_vecINtB8_11RawVecInnerpE7reserve21do_reserve_and_handleNtNtBa_5alloc6GlobalECs00000000001_10pkcs1_tool,"ax",@progbits
	.p2align	2
	.type	_RINvNvMs3_NtCs00000000000_5alloc7raw_vecINtB8_11RawVecInnerpE7reserve21do_reserve_and_handleNtNtBa_5alloc6GlobalECs00000000001_10pkcs1_tool,@function
_RINvNvMs3_NtCs00000000000_5alloc7raw_vecINtB8_11RawVecInnerpE7reserve21do_reserve_and_handleNtNtBa_5alloc6GlobalECs00000000001_10pkcs1_tool:
	.cfi_startproc
	hint	#38
	sub	sp, sp, #80
	.cfi_def_cfa_offset 80
	str	x30, [sp, #48]
	stp	x20, x19, [sp, #64]
	.cfi_offset w19, -8
	.cfi_offset w20, -16
	.cfi_offset w30, -32
	.cfi_remember_state
	cmn	x1, x2
	b.hs	.LBB2_6
	ldr	x8, [x0]
	add	x10, x2, x1
	mov	x19, x0
	lsl	x9, x8, #1
	cmp	x9, x10
	csel	x9, x9, x10, hi
	mov	w10, #8
	cmp	x9, #8
	csel	x20, x9, x10, hi
	tbnz	x20, #63, .LBB2_6
	cbz	x8, .LBB2_4
	ldr	x9, [x19, #8]
	str	x8, [sp, #40]
	mov	w8, #1
	str	x9, [sp, #24]
.LBB2_4:
	mov	x0, sp
	add	x3, sp, #24
	mov	w1, #1
	mov	x2, x20
	str	x8, [sp, #32]
	bl	_RINvNtCs00000000000_5alloc7raw_vec11finish_growNtNtB4_5alloc6GlobalECs00000000001_10pkcs1_tool
	ldr	w8, [sp]
	cmp	w8, #1
	b.eq	.LBB2_7
	ldr	x8, [sp, #8]
	ldr	x30, [sp, #48]
	stp	x20, x8, [x19]
	ldp	x20, x19, [sp, #64]
	add	sp, sp, #80
	.cfi_def_cfa_offset 0
	.cfi_restore w19
	.cfi_restore w20
	.cfi_restore w30
	ret
.LBB2_6:
	.cfi_restore_state
	mov	x0, xzr
	brk	#0x1
.LBB2_7:
	ldp	x0, x1, [sp, #8]
	brk	#0x1
.Lfunc_end2:
	.size	_RINvNvMs3_NtCs00000000000_5alloc7raw_vecINtB8_11RawVecInnerpE7reserve21do_reserve_and_handleNtNtBa_5alloc6GlobalECs00000000001_10pkcs1_tool, .Lfunc_end2-_RINvNvMs3_NtCs00000000000_5alloc7raw_vecINtB8_11RawVecInnerpE7reserve21do_reserve_and_handleNtNtBa_5alloc6GlobalECs00000000001_10pkcs1_tool
	.cfi_endproc

	.section	.text._RNvMs1_NtCs00000000000_5alloc7raw_vecINtB5_6RawVecINtNtNtNtCs00000000001_10pkcs1_tool10rattle_std7library3vec3VechEE8grow_oneBV_,"ax",@progbits
	.p2align	2
	.type	_RNvMs1_NtCs00000000000_5alloc7raw_vecINtB5_6RawVecINtNtNtNtCs00000000001_10pkcs1_tool10rattle_std7library3vec3VechEE8grow_oneBV_,@function
_RNvMs1_NtCs00000000000_5alloc7raw_vecINtB5_6RawVecINtNtNtNtCs00000000001_10pkcs1_tool10rattle_std7library3vec3VechEE8grow_oneBV_:
	.cfi_startproc
	hint	#38
	sub	sp, sp, #80
	.cfi_def_cfa_offset 80
	str	x30, [sp, #48]
	stp	x20, x19, [sp, #64]
	.cfi_offset w19, -8
	.cfi_offset w20, -16
	.cfi_offset w30, -32
	.cfi_remember_state
	ldr	x8, [x0]
	cmn	x8, #1
	b.eq	.LBB3_7
	lsl	x9, x8, #1
	add	x10, x8, #1
	mov	x19, x0
	mov	x0, xzr
	cmp	x9, x10
	mov	w10, #4
	csinc	x9, x9, x8, hi
	cmp	x9, #4
	csel	x20, x9, x10, hi
	mov	w9, #24
	umulh	x9, x20, x9
	cmp	xzr, x9
	b.ne	.LBB3_8
	add	x9, x20, x20, lsl #1
	lsl	x2, x9, #3
	mov	x9, #9223372036854775800
	cmp	x2, x9
	b.hi	.LBB3_10
	cbz	x8, .LBB3_5
	add	x8, x8, x8, lsl #1
	ldr	x9, [x19, #8]
	lsl	x8, x8, #3
	str	x9, [sp, #24]
	str	x8, [sp, #40]
	mov	w8, #8
.LBB3_5:
	mov	x0, sp
	add	x3, sp, #24
	mov	w1, #8
	str	x8, [sp, #32]
	bl	_RINvNtCs00000000000_5alloc7raw_vec11finish_growNtNtB4_5alloc6GlobalECs00000000001_10pkcs1_tool
	ldr	w8, [sp]
	cmp	w8, #1
	b.eq	.LBB3_9
	ldr	x8, [sp, #8]
	ldr	x30, [sp, #48]
	stp	x20, x8, [x19]
	ldp	x20, x19, [sp, #64]
	add	sp, sp, #80
	.cfi_def_cfa_offset 0
	.cfi_restore w19
	.cfi_restore w20
	.cfi_restore w30
	ret
.LBB3_7:
	.cfi_restore_state
	mov	x0, xzr
.LBB3_8:
	brk	#0x1
.LBB3_9:
	ldp	x0, x1, [sp, #8]
.LBB3_10:
	brk	#0x1
.Lfunc_end3:
	.size	_RNvMs1_NtCs00000000000_5alloc7raw_vecINtB5_6RawVecINtNtNtNtCs00000000001_10pkcs1_tool10rattle_std7library3vec3VechEE8grow_oneBV_, .Lfunc_end3-_RNvMs1_NtCs00000000000_5alloc7raw_vecINtB5_6RawVecINtNtNtNtCs00000000001_10pkcs1_tool10rattle_std7library3vec3VechEE8grow_oneBV_
	.cfi_endproc

	.section	.text._RNvXs1c_NtCs00000000002_4core3fmtReNtB6_7Display3fmtCs00000000001_10pkcs1_tool,"ax",@progbits
	.p2align	2
	.type	_RNvXs1c_NtCs00000000002_4core3fmtReNtB6_7Display3fmtCs00000000001_10pkcs1_tool,@function
_RNvXs1c_NtCs00000000002_4core3fmtReNtB6_7Display3fmtCs00000000001_10pkcs1_tool:
	.cfi_startproc
	hint	#38
	stp	x30, x25, [sp, #-64]!
	.cfi_def_cfa_offset 64
	stp	x24, x23, [sp, #16]
	stp	x22, x21, [sp, #32]
	stp	x20, x19, [sp, #48]
	.cfi_offset w19, -8
	.cfi_offset w20, -16
	.cfi_offset w21, -24
	.cfi_offset w22, -32
	.cfi_offset w23, -40
	.cfi_offset w24, -48
	.cfi_offset w25, -56
	.cfi_offset w30, -64
	.cfi_remember_state
	ldr	x8, [x1]
	ldr	x9, [x1, #16]
	ldp	x20, x19, [x0]
	orr	x10, x8, x9
	cbz	x10, .LBB4_68
	tbz	w9, #0, .LBB4_23
	ldr	x11, [x1, #24]
	add	x10, x20, x19
	mov	x9, xzr
	cbz	x11, .LBB4_12
	mov	x12, xzr
	mov	x13, x20
	b	.LBB4_6
.LBB4_4:
	add	x14, x13, #2
.LBB4_5:
	add	x12, x12, #1
	sub	x13, x14, x13
	cmp	x11, x12
	add	x9, x13, x9
	mov	x13, x14
	b.eq	.LBB4_13
.LBB4_6:
	cmp	x13, x10
	b.eq	.LBB4_23
	mov	x14, x13
	ldrsb	w15, [x14], #1
	tbz	w15, #31, .LBB4_5
	and	w14, w15, #0xff
	cmp	w14, #224
	b.lo	.LBB4_4
	cmp	w14, #240
	b.lo	.LBB4_11
	add	x14, x13, #4
	b	.LBB4_5
.LBB4_11:
	add	x14, x13, #3
	b	.LBB4_5
.LBB4_12:
	mov	x14, x20
.LBB4_13:
	cmp	x14, x10
	b.eq	.LBB4_23
	ldrsb	w10, [x14]
	tbz	w10, #31, .LBB4_16
	and	w10, w10, #0xff
	cmp	w10, #224
.LBB4_16:
	cbz	x9, .LBB4_19
	cmp	x9, x19
	b.hs	.LBB4_20
	ldrsb	w10, [x20, x9]
	cmn	w10, #65
	cset	w10, gt
	b	.LBB4_21
.LBB4_19:
	mov	x10, x20
	b	.LBB4_22
.LBB4_20:
	cset	w10, eq
.LBB4_21:
	cmp	w10, #0
	csel	x10, x20, xzr, ne
.LBB4_22:
	cmp	x10, #0
	csel	x19, x19, x9, eq
	csel	x20, x20, x10, eq
.LBB4_23:
	tbz	w8, #0, .LBB4_68
	ldr	x8, [x1, #8]
	cmp	x19, #32
	b.hs	.LBB4_28
	cbz	x19, .LBB4_39
	cmp	x19, #8
	b.hs	.LBB4_58
	mov	x10, xzr
	mov	x9, xzr
	b	.LBB4_62
.LBB4_28:
	add	x9, x20, #7
	and	x15, x9, #0xfffffffffffffff8
	mov	x9, xzr
	sub	x10, x20, x15
	cmp	x15, x20
	add	x12, x19, x10
	and	x11, x12, #0x7
	b.eq	.LBB4_31
	mov	x13, x20
.LBB4_30:
	ldrsb	w14, [x13], #1
	cmn	w14, #65
	cinc	x9, x9, gt
	adds	x10, x10, #1
	b.lo	.LBB4_30
.LBB4_31:
	lsr	x10, x12, #3
	cbz	x11, .LBB4_40
	and	x12, x12, #0xfffffffffffffff8
	add	x13, x15, x12
	ldrsb	w12, [x13]
	cmn	w12, #65
	cset	w12, gt
	cmp	x11, #1
	b.eq	.LBB4_41
	ldrsb	w14, [x13, #1]
	cmn	w14, #65
	cinc	x12, x12, gt
	cmp	x11, #2
	b.eq	.LBB4_41
	ldrsb	w14, [x13, #2]
	cmn	w14, #65
	cinc	x12, x12, gt
	cmp	x11, #3
	b.eq	.LBB4_41
	ldrsb	w14, [x13, #3]
	cmn	w14, #65
	cinc	x12, x12, gt
	cmp	x11, #4
	b.eq	.LBB4_41
	ldrsb	w14, [x13, #4]
	cmn	w14, #65
	cinc	x12, x12, gt
	cmp	x11, #5
	b.eq	.LBB4_41
	ldrsb	w14, [x13, #5]
	cmn	w14, #65
	cinc	x12, x12, gt
	cmp	x11, #6
	b.eq	.LBB4_41
	ldrsb	w11, [x13, #6]
	cmn	w11, #65
	cinc	x12, x12, gt
	b	.LBB4_41
.LBB4_39:
	mov	x9, xzr
	b	.LBB4_64
.LBB4_40:
	mov	x12, xzr
.LBB4_41:
	movi	v0.16b, #1
	add	x9, x12, x9
	mov	w11, #192
	mov	x12, #281479271743489
	b	.LBB4_44
.LBB4_42:
	mov	x16, xzr
.LBB4_43:
	lsr	x15, x16, #8
	and	x16, x16, #0xff00ff00ff00ff
	sub	x10, x10, x14
	and	x15, x15, #0xff00ff00ff00ff
	add	x15, x15, x16
	and	x16, x14, #0x3
	mul	x17, x15, x12
	add	x15, x13, x14, lsl #3
	add	x9, x9, x17, lsr #48
	cbnz	x16, .LBB4_54
.LBB4_44:
	cbz	x10, .LBB4_64
	cmp	x10, #192
	mov	x13, x15
	csel	x14, x10, x11, lo
	cmp	x10, #4
	b.lo	.LBB4_42
	lsr	x15, x14, #2
	sub	x16, x15, #1
	and	x16, x16, #0x7ffffffffffffff
	cmp	x16, #3
	b.hs	.LBB4_48
	mov	x16, xzr
	mov	x17, x13
	b	.LBB4_52
.LBB4_48:
	add	x16, x16, #1
	movi	v1.2d, #0000000000000000
	movi	v2.2d, #0000000000000000
	and	x18, x16, #0xffffffffffffffc
	add	x0, x13, #64
	lsl	x17, x18, #5
	mov	x2, x18
.LBB4_49:
	sub	x3, x0, #64
	ld4	{ v16.2d, v17.2d, v18.2d, v19.2d }, [x0]
	subs	x2, x2, #4
	add	x0, x0, #128
	ld4	{ v3.2d, v4.2d, v5.2d, v6.2d }, [x3]
	mvn	v7.16b, v16.16b
	mvn	v21.16b, v17.16b
	mvn	v26.16b, v18.16b
	mvn	v22.16b, v3.16b
	mvn	v23.16b, v4.16b
	mvn	v24.16b, v5.16b
	ushr	v20.2d, v16.2d, #6
	ushr	v25.2d, v17.2d, #6
	ushr	v27.2d, v18.2d, #6
	ushr	v28.2d, v3.2d, #6
	ushr	v29.2d, v4.2d, #6
	ushr	v30.2d, v5.2d, #6
	ushr	v22.2d, v22.2d, #7
	ushr	v23.2d, v23.2d, #7
	ushr	v24.2d, v24.2d, #7
	ushr	v7.2d, v7.2d, #7
	ushr	v21.2d, v21.2d, #7
	ushr	v26.2d, v26.2d, #7
	mvn	v31.16b, v19.16b
	ushr	v16.2d, v19.2d, #6
	mvn	v17.16b, v6.16b
	orr	v18.16b, v22.16b, v28.16b
	orr	v19.16b, v23.16b, v29.16b
	orr	v22.16b, v24.16b, v30.16b
	orr	v7.16b, v7.16b, v20.16b
	orr	v20.16b, v21.16b, v25.16b
	orr	v21.16b, v26.16b, v27.16b
	ushr	v3.2d, v6.2d, #6
	ushr	v4.2d, v31.2d, #7
	ushr	v5.2d, v17.2d, #7
	and	v6.16b, v18.16b, v0.16b
	and	v17.16b, v19.16b, v0.16b
	and	v18.16b, v22.16b, v0.16b
	and	v7.16b, v7.16b, v0.16b
	and	v19.16b, v20.16b, v0.16b
	and	v20.16b, v21.16b, v0.16b
	orr	v4.16b, v4.16b, v16.16b
	orr	v3.16b, v5.16b, v3.16b
	add	v1.2d, v6.2d, v1.2d
	add	v6.2d, v17.2d, v18.2d
	add	v2.2d, v7.2d, v2.2d
	add	v5.2d, v19.2d, v20.2d
	and	v3.16b, v3.16b, v0.16b
	and	v4.16b, v4.16b, v0.16b
	add	v1.2d, v1.2d, v6.2d
	add	v2.2d, v2.2d, v5.2d
	add	v1.2d, v1.2d, v3.2d
	add	v2.2d, v2.2d, v4.2d
	b.ne	.LBB4_49
	add	v1.2d, v2.2d, v1.2d
	cmp	x16, x18
	addp	d1, v1.2d
	fmov	x16, d1
	b.eq	.LBB4_43
	add	x17, x13, x17
.LBB4_52:
	add	x15, x13, x15, lsl #5
.LBB4_53:
	ldp	q2, q1, [x17], #32
	cmp	x17, x15
	mvn	v3.16b, v1.16b
	mvn	v4.16b, v2.16b
	ushr	v1.2d, v1.2d, #6
	ushr	v2.2d, v2.2d, #6
	ushr	v3.2d, v3.2d, #7
	ushr	v4.2d, v4.2d, #7
	orr	v2.16b, v4.16b, v2.16b
	orr	v1.16b, v3.16b, v1.16b
	and	v1.16b, v1.16b, v0.16b
	and	v2.16b, v2.16b, v0.16b
	add	v1.2d, v2.2d, v1.2d
	addp	d1, v1.2d
	fmov	x18, d1
	add	x16, x18, x16
	b.ne	.LBB4_53
	b	.LBB4_43
.LBB4_54:
	and	x10, x14, #0xfc
	cmp	x16, #1
	add	x11, x13, x10, lsl #3
	ldr	x10, [x11]
	mvn	x12, x10
	lsr	x12, x12, #7
	orr	x10, x12, x10, lsr #6
	and	x10, x10, #0x101010101010101
	b.eq	.LBB4_57
	ldr	x12, [x11, #8]
	cmp	x16, #2
	mvn	x13, x12
	lsr	x13, x13, #7
	orr	x12, x13, x12, lsr #6
	and	x12, x12, #0x101010101010101
	add	x10, x12, x10
	b.eq	.LBB4_57
	ldr	x11, [x11, #16]
	mvn	x12, x11
	lsr	x12, x12, #7
	orr	x11, x12, x11, lsr #6
	and	x11, x11, #0x101010101010101
	add	x10, x11, x10
.LBB4_57:
	lsr	x11, x10, #8
	and	x10, x10, #0xff00ff00ff00ff
	and	x11, x11, #0xff00ff00ff00ff
	add	x10, x11, x10
	mov	x11, #281479271743489
	mul	x10, x10, x11
	add	x9, x9, x10, lsr #48
	b	.LBB4_64
.LBB4_58:
	movi	v4.8b, #191
	ldr	d0, [x20]
	mov	w9, #1
	dup	v3.2d, x9
	and	x10, x19, #0x18
	cmp	x10, #8
	cmgt	v0.8b, v0.8b, v4.8b
	ushll	v0.8h, v0.8b, #0
	ushll2	v1.4s, v0.8h, #0
	ushll	v0.4s, v0.4h, #0
	ushll2	v2.2d, v1.4s, #0
	ushll	v1.2d, v1.2s, #0
	ushll2	v5.2d, v0.4s, #0
	ushll	v6.2d, v0.2s, #0
	and	v0.16b, v2.16b, v3.16b
	and	v2.16b, v1.16b, v3.16b
	and	v1.16b, v5.16b, v3.16b
	and	v3.16b, v6.16b, v3.16b
	b.eq	.LBB4_61
	ldr	d5, [x20, #8]
	mov	w9, #1
	cmp	x10, #16
	dup	v6.2d, x9
	cmgt	v4.8b, v5.8b, v4.8b
	ushll	v4.8h, v4.8b, #0
	ushll2	v5.4s, v4.8h, #0
	ushll	v4.4s, v4.4h, #0
	ushll2	v7.2d, v5.4s, #0
	ushll	v16.2d, v4.2s, #0
	ushll2	v4.2d, v4.4s, #0
	ushll	v5.2d, v5.2s, #0
	and	v7.16b, v7.16b, v6.16b
	and	v16.16b, v16.16b, v6.16b
	and	v4.16b, v4.16b, v6.16b
	and	v5.16b, v5.16b, v6.16b
	add	v0.2d, v0.2d, v7.2d
	add	v1.2d, v1.2d, v4.2d
	add	v3.2d, v3.2d, v16.2d
	add	v2.2d, v2.2d, v5.2d
	b.eq	.LBB4_61
	movi	v4.8b, #191
	ldr	d5, [x20, #16]
	mov	w9, #1
	dup	v6.2d, x9
	cmgt	v4.8b, v5.8b, v4.8b
	ushll	v4.8h, v4.8b, #0
	ushll2	v5.4s, v4.8h, #0
	ushll	v4.4s, v4.4h, #0
	ushll2	v7.2d, v5.4s, #0
	ushll	v16.2d, v4.2s, #0
	ushll2	v4.2d, v4.4s, #0
	ushll	v5.2d, v5.2s, #0
	and	v7.16b, v7.16b, v6.16b
	and	v16.16b, v16.16b, v6.16b
	and	v4.16b, v4.16b, v6.16b
	and	v5.16b, v5.16b, v6.16b
	add	v0.2d, v0.2d, v7.2d
	add	v1.2d, v1.2d, v4.2d
	add	v3.2d, v3.2d, v16.2d
	add	v2.2d, v2.2d, v5.2d
.LBB4_61:
	add	v2.2d, v3.2d, v2.2d
	add	v0.2d, v1.2d, v0.2d
	cmp	x19, x10
	add	v0.2d, v2.2d, v0.2d
	addp	d0, v0.2d
	fmov	x9, d0
	b.eq	.LBB4_64
.LBB4_62:
	sub	x11, x19, x10
	add	x10, x20, x10
.LBB4_63:
	ldrsb	w12, [x10], #1
	cmn	w12, #65
	cinc	x9, x9, gt
	subs	x11, x11, #1
	b.ne	.LBB4_63
.LBB4_64:
	subs	x23, x8, x9
	b.ls	.LBB4_68
	ldrb	w8, [x1, #40]
	cmp	w8, #3
	csel	w8, wzr, w8, eq
	cbz	w8, .LBB4_70
	cmp	w8, #1
	b.ne	.LBB4_69
	mov	x8, x23
	mov	x23, xzr
	b	.LBB4_70
.LBB4_68:
	ldp	x0, x8, [x1, #48]
	mov	x1, x20
	mov	x2, x19
	ldp	x20, x19, [sp, #48]
	ldp	x22, x21, [sp, #32]
	ldp	x24, x23, [sp, #16]
	ldr	x3, [x8, #24]
	ldp	x30, x25, [sp], #64
	.cfi_def_cfa_offset 0
	.cfi_restore w19
	.cfi_restore w20
	.cfi_restore w21
	.cfi_restore w22
	.cfi_restore w23
	.cfi_restore w24
	.cfi_restore w25
	.cfi_restore w30
	br	x3
.LBB4_69:
	.cfi_restore_state
	.cfi_remember_state
	add	x9, x23, #1
	lsr	x8, x23, #1
	lsr	x23, x9, #1
.LBB4_70:
	ldp	x21, x24, [x1, #48]
	add	x25, x8, #1
	ldr	w22, [x1, #32]
.LBB4_71:
	subs	x25, x25, #1
	b.eq	.LBB4_74
	ldr	x8, [x24, #32]
	mov	x0, x21
	mov	w1, w22
	blr	x8
	tbz	w0, #0, .LBB4_71
	mov	w0, #1
	ldp	x20, x19, [sp, #48]
	ldp	x22, x21, [sp, #32]
	ldp	x24, x23, [sp, #16]
	ldp	x30, x25, [sp], #64
	.cfi_def_cfa_offset 0
	.cfi_restore w19
	.cfi_restore w20
	.cfi_restore w21
	.cfi_restore w22
	.cfi_restore w23
	.cfi_restore w24
	.cfi_restore w25
	.cfi_restore w30
	ret
.LBB4_74:
	.cfi_restore_state
	.cfi_remember_state
	ldr	x8, [x24, #24]
	mov	x0, x21
	mov	x1, x20
	mov	x2, x19
	blr	x8
	tbz	w0, #0, .LBB4_76
	mov	w0, #1
	ldp	x20, x19, [sp, #48]
	ldp	x22, x21, [sp, #32]
	ldp	x24, x23, [sp, #16]
	ldp	x30, x25, [sp], #64
	.cfi_def_cfa_offset 0
	.cfi_restore w19
	.cfi_restore w20
	.cfi_restore w21
	.cfi_restore w22
	.cfi_restore w23
	.cfi_restore w24
	.cfi_restore w25
	.cfi_restore w30
	ret
.LBB4_76:
	.cfi_restore_state
	mov	x19, xzr
.LBB4_77:
	cmp	x23, x19
	b.eq	.LBB4_80
	ldr	x8, [x24, #32]
	mov	x0, x21
	mov	w1, w22
	add	x19, x19, #1
	blr	x8
	cbz	w0, .LBB4_77
	sub	x8, x19, #1
	b	.LBB4_81
.LBB4_80:
	mov	x8, x23
.LBB4_81:
	cmp	x8, x23
	cset	w0, lo
	ldp	x20, x19, [sp, #48]
	ldp	x22, x21, [sp, #32]
	ldp	x24, x23, [sp, #16]
	ldp	x30, x25, [sp], #64
	.cfi_def_cfa_offset 0
	.cfi_restore w19
	.cfi_restore w20
	.cfi_restore w21
	.cfi_restore w22
	.cfi_restore w23
	.cfi_restore w24
	.cfi_restore w25
	.cfi_restore w30
	ret
.Lfunc_end4:
	.size	_RNvXs1c_NtCs00000000002_4core3fmtReNtB6_7Display3fmtCs00000000001_10pkcs1_tool, .Lfunc_end4-_RNvXs1c_NtCs00000000002_4core3fmtReNtB6_7Display3fmtCs00000000001_10pkcs1_tool
	.cfi_endproc

	.section	.text._RNvYINtNtNtCs00000000001_10pkcs1_tool10rattle_std2io4TextINtB5_8StandardKl2_EENtNtCs00000000002_4core3fmt5Write10write_charB9_,"ax",@progbits
	.p2align	2
	.type	_RNvYINtNtNtCs00000000001_10pkcs1_tool10rattle_std2io4TextINtB5_8StandardKl2_EENtNtCs00000000002_4core3fmt5Write10write_charB9_,@function
_RNvYINtNtNtCs00000000001_10pkcs1_tool10rattle_std2io4TextINtB5_8StandardKl2_EENtNtCs00000000002_4core3fmt5Write10write_charB9_:
	.cfi_startproc
	hint	#38
	sub	sp, sp, #48
	.cfi_def_cfa_offset 48
	stp	x30, x21, [sp, #16]
	stp	x20, x19, [sp, #32]
	.cfi_offset w19, -8
	.cfi_offset w20, -16
	.cfi_offset w21, -24
	.cfi_offset w30, -32
	.cfi_remember_state
	mov	x19, x0
	cmp	w1, #128
	str	wzr, [sp, #12]
	b.hs	.LBB5_2
	mov	w20, #1
	strb	w1, [sp, #12]
	b	.LBB5_7
.LBB5_2:
	cmp	w1, #2048
	b.hs	.LBB5_4
	lsr	w8, w1, #6
	mov	w9, #128
	mov	w20, #2
	bfxil	w9, w1, #0, #6
	orr	w8, w8, #0xc0
	strb	w8, [sp, #12]
	strb	w9, [sp, #13]
	b	.LBB5_7
.LBB5_4:
	cmp	w1, #16, lsl #12
	b.hs	.LBB5_6
	lsr	w8, w1, #12
	mov	w9, #128
	mov	w10, #128
	bfxil	w9, w1, #6, #6
	bfxil	w10, w1, #0, #6
	mov	w20, #3
	orr	w8, w8, #0xe0
	strb	w8, [sp, #12]
	strb	w9, [sp, #13]
	strb	w10, [sp, #14]
	b	.LBB5_7
.LBB5_6:
	lsr	w8, w1, #18
	mov	w9, #128
	mov	w10, #128
	mov	w11, #128
	bfxil	w9, w1, #12, #6
	bfxil	w10, w1, #6, #6
	bfxil	w11, w1, #0, #6
	orr	w8, w8, #0xf0
	mov	w20, #4
	strb	w8, [sp, #12]
	strb	w9, [sp, #13]
	strb	w10, [sp, #14]
	strb	w11, [sp, #15]
.LBB5_7:
	add	x21, sp, #12
.LBB5_8:
	mov	w0, #2
	mov	x1, x21
	mov	x2, x20
	bl	pkcs1_os_write
	mov	x8, x0
	tbnz	x0, #63, .LBB5_12
	sub	x9, x8, #1
	cmp	x9, x20
	cset	w0, hs
	b.hs	.LBB5_13
	subs	x20, x20, x8
	add	x21, x21, x8
	b.ne	.LBB5_8
	mov	w8, #5
	strb	w8, [x19, #8]
	ldp	x20, x19, [sp, #32]
	ldp	x30, x21, [sp, #16]
	add	sp, sp, #48
	.cfi_def_cfa_offset 0
	.cfi_restore w19
	.cfi_restore w20
	.cfi_restore w21
	.cfi_restore w30
	ret
.LBB5_12:
	.cfi_restore_state
	.cfi_remember_state
	add	x8, x8, #4
	mov	w11, #2
	mov	w9, #1
	mov	w10, #4
	sub	w11, w11, w8
	mov	w12, #1
	cmp	x8, #3
	csel	w8, w11, w10, lo
	csel	w0, w12, w9, lo
	strb	w8, [x19, #8]
	ldp	x20, x19, [sp, #32]
	ldp	x30, x21, [sp, #16]
	add	sp, sp, #48
	.cfi_def_cfa_offset 0
	.cfi_restore w19
	.cfi_restore w20
	.cfi_restore w21
	.cfi_restore w30
	ret
.LBB5_13:
	.cfi_restore_state
	mov	w8, #4
	strb	w8, [x19, #8]
	ldp	x20, x19, [sp, #32]
	ldp	x30, x21, [sp, #16]
	add	sp, sp, #48
	.cfi_def_cfa_offset 0
	.cfi_restore w19
	.cfi_restore w20
	.cfi_restore w21
	.cfi_restore w30
	ret
.Lfunc_end5:
	.size	_RNvYINtNtNtCs00000000001_10pkcs1_tool10rattle_std2io4TextINtB5_8StandardKl2_EENtNtCs00000000002_4core3fmt5Write10write_charB9_, .Lfunc_end5-_RNvYINtNtNtCs00000000001_10pkcs1_tool10rattle_std2io4TextINtB5_8StandardKl2_EENtNtCs00000000002_4core3fmt5Write10write_charB9_
	.cfi_endproc

	.section	.text._RNvYINtNtNtCs00000000001_10pkcs1_tool10rattle_std2io4TextINtB5_8StandardKl2_EENtNtCs00000000002_4core3fmt5Write9write_fmtB9_,"ax",@progbits
	.p2align	2
	.type	_RNvYINtNtNtCs00000000001_10pkcs1_tool10rattle_std2io4TextINtB5_8StandardKl2_EENtNtCs00000000002_4core3fmt5Write9write_fmtB9_,@function
_RNvYINtNtNtCs00000000001_10pkcs1_tool10rattle_std2io4TextINtB5_8StandardKl2_EENtNtCs00000000002_4core3fmt5Write9write_fmtB9_:
	.cfi_startproc
	hint	#38
	mov	x2, x1
	adrp	x1, .Lanon.0
	add	x1, x1, :lo12:.Lanon.0
	b	_ZN4core3fmt5write17h0000000000000000E
.Lfunc_end6:
	.size	_RNvYINtNtNtCs00000000001_10pkcs1_tool10rattle_std2io4TextINtB5_8StandardKl2_EENtNtCs00000000002_4core3fmt5Write9write_fmtB9_, .Lfunc_end6-_RNvYINtNtNtCs00000000001_10pkcs1_tool10rattle_std2io4TextINtB5_8StandardKl2_EENtNtCs00000000002_4core3fmt5Write9write_fmtB9_
	.cfi_endproc

	.section	.text._RNvYNtNtNtCs00000000001_10pkcs1_tool10rattle_std4text6StringNtNtCs00000000002_4core3fmt5Write10write_charB8_,"ax",@progbits
	.p2align	2
	.type	_RNvYNtNtNtCs00000000001_10pkcs1_tool10rattle_std4text6StringNtNtCs00000000002_4core3fmt5Write10write_charB8_,@function
_RNvYNtNtNtCs00000000001_10pkcs1_tool10rattle_std4text6StringNtNtCs00000000002_4core3fmt5Write10write_charB8_:
	.cfi_startproc
	hint	#38
	sub	sp, sp, #96
	.cfi_def_cfa_offset 96
	str	x30, [sp, #48]
	stp	x22, x21, [sp, #64]
	stp	x20, x19, [sp, #80]
	.cfi_offset w19, -8
	.cfi_offset w20, -16
	.cfi_offset w21, -24
	.cfi_offset w22, -32
	.cfi_offset w30, -48
	.cfi_remember_state
	cmp	w1, #128
	str	wzr, [sp, #60]
	b.hs	.LBB7_2
	mov	w19, #1
	strb	w1, [sp, #60]
	ldr	x21, [x0, #16]
	ldr	x8, [x0]
	sub	x9, x8, x21
	cmp	x9, x19
	b.lo	.LBB7_7
	b	.LBB7_14
.LBB7_2:
	cmp	w1, #2048
	b.hs	.LBB7_4
	lsr	w8, w1, #6
	mov	w9, #128
	mov	w19, #2
	bfxil	w9, w1, #0, #6
	orr	w8, w8, #0xc0
	strb	w8, [sp, #60]
	strb	w9, [sp, #61]
	ldr	x21, [x0, #16]
	ldr	x8, [x0]
	sub	x9, x8, x21
	cmp	x9, x19
	b.lo	.LBB7_7
	b	.LBB7_14
.LBB7_4:
	cmp	w1, #16, lsl #12
	b.hs	.LBB7_6
	lsr	w8, w1, #12
	mov	w9, #128
	mov	w10, #128
	bfxil	w9, w1, #6, #6
	bfxil	w10, w1, #0, #6
	mov	w19, #3
	orr	w8, w8, #0xe0
	strb	w8, [sp, #60]
	strb	w9, [sp, #61]
	strb	w10, [sp, #62]
	ldr	x21, [x0, #16]
	ldr	x8, [x0]
	sub	x9, x8, x21
	cmp	x9, x19
	b.lo	.LBB7_7
	b	.LBB7_14
.LBB7_6:
	lsr	w8, w1, #18
	mov	w9, #128
	mov	w10, #128
	mov	w11, #128
	bfxil	w9, w1, #12, #6
	bfxil	w10, w1, #6, #6
	bfxil	w11, w1, #0, #6
	orr	w8, w8, #0xf0
	mov	w19, #4
	strb	w8, [sp, #60]
	strb	w9, [sp, #61]
	strb	w10, [sp, #62]
	strb	w11, [sp, #63]
	ldr	x21, [x0, #16]
	ldr	x8, [x0]
	sub	x9, x8, x21
	cmp	x9, x19
	b.hs	.LBB7_14
.LBB7_7:
	cmn	x21, x19
	b.hs	.LBB7_9
	lsl	x9, x8, #1
	add	x10, x21, x19
	cmp	x9, x10
	csel	x9, x9, x10, hi
	mov	w10, #8
	cmp	x9, #8
	csel	x20, x9, x10, hi
	tbz	x20, #63, .LBB7_10
.LBB7_9:
	mov	w0, #1
	ldp	x20, x19, [sp, #80]
	ldr	x30, [sp, #48]
	ldp	x22, x21, [sp, #64]
	add	sp, sp, #96
	.cfi_def_cfa_offset 0
	.cfi_restore w19
	.cfi_restore w20
	.cfi_restore w21
	.cfi_restore w22
	.cfi_restore w30
	ret
.LBB7_10:
	.cfi_restore_state
	mov	x22, x0
	cbz	x8, .LBB7_12
	ldr	x9, [x0, #8]
	str	x8, [sp, #40]
	mov	w8, #1
	str	x9, [sp, #24]
.LBB7_12:
	mov	x0, sp
	add	x2, sp, #24
	mov	x1, x20
	str	x8, [sp, #32]
	bl	_ZN5alloc7raw_vec11finish_grow17h0000000000000001E.llvm.1
	ldr	w8, [sp]
	cmp	w8, #1
	b.eq	.LBB7_9
	ldr	x8, [sp, #8]
	mov	x0, x22
	stp	x20, x8, [x22]
.LBB7_14:
	ldr	x8, [x0, #8]
	mov	x20, x0
	add	x1, sp, #60
	mov	x2, x19
	add	x0, x8, x21
	bl	memcpy
	mov	w0, wzr
	add	x8, x21, x19
	str	x8, [x20, #16]
	ldp	x20, x19, [sp, #80]
	ldr	x30, [sp, #48]
	ldp	x22, x21, [sp, #64]
	add	sp, sp, #96
	.cfi_def_cfa_offset 0
	.cfi_restore w19
	.cfi_restore w20
	.cfi_restore w21
	.cfi_restore w22
	.cfi_restore w30
	ret
.Lfunc_end7:
	.size	_RNvYNtNtNtCs00000000001_10pkcs1_tool10rattle_std4text6StringNtNtCs00000000002_4core3fmt5Write10write_charB8_, .Lfunc_end7-_RNvYNtNtNtCs00000000001_10pkcs1_tool10rattle_std4text6StringNtNtCs00000000002_4core3fmt5Write10write_charB8_
	.cfi_endproc

	.section	.text._RNvYNtNtNtCs00000000001_10pkcs1_tool10rattle_std4text6StringNtNtCs00000000002_4core3fmt5Write9write_fmtB8_,"ax",@progbits
	.p2align	2
	.type	_RNvYNtNtNtCs00000000001_10pkcs1_tool10rattle_std4text6StringNtNtCs00000000002_4core3fmt5Write9write_fmtB8_,@function
_RNvYNtNtNtCs00000000001_10pkcs1_tool10rattle_std4text6StringNtNtCs00000000002_4core3fmt5Write9write_fmtB8_:
	.cfi_startproc
	hint	#38
	mov	x2, x1
	adrp	x1, .Lanon.1
	add	x1, x1, :lo12:.Lanon.1
	b	_ZN4core3fmt5write17h0000000000000000E
.Lfunc_end8:
	.size	_RNvYNtNtNtCs00000000001_10pkcs1_tool10rattle_std4text6StringNtNtCs00000000002_4core3fmt5Write9write_fmtB8_, .Lfunc_end8-_RNvYNtNtNtCs00000000001_10pkcs1_tool10rattle_std4text6StringNtNtCs00000000002_4core3fmt5Write9write_fmtB8_
	.cfi_endproc

	.section	.text._RNvXs0_NtNtCs00000000001_10pkcs1_tool10rattle_std2ioINtB5_4TextINtB5_8StandardKl2_EENtNtCs00000000002_4core3fmt5Write9write_strB9_,"ax",@progbits
	.p2align	2
	.type	_RNvXs0_NtNtCs00000000001_10pkcs1_tool10rattle_std2ioINtB5_4TextINtB5_8StandardKl2_EENtNtCs00000000002_4core3fmt5Write9write_strB9_,@function
_RNvXs0_NtNtCs00000000001_10pkcs1_tool10rattle_std2ioINtB5_4TextINtB5_8StandardKl2_EENtNtCs00000000002_4core3fmt5Write9write_strB9_:
	.cfi_startproc
	hint	#38
	stp	x30, x21, [sp, #-32]!
	.cfi_def_cfa_offset 32
	stp	x20, x19, [sp, #16]
	.cfi_offset w19, -8
	.cfi_offset w20, -16
	.cfi_offset w21, -24
	.cfi_offset w30, -32
	.cfi_remember_state
	mov	x19, x0
	cbz	x2, .LBB9_5
	mov	x20, x2
	mov	x21, x1
.LBB9_2:
	mov	w0, #2
	mov	x1, x21
	mov	x2, x20
	bl	pkcs1_os_write
	mov	x8, x0
	tbnz	x0, #63, .LBB9_7
	sub	x9, x8, #1
	cmp	x9, x20
	cset	w0, hs
	b.hs	.LBB9_8
	subs	x20, x20, x8
	add	x21, x21, x8
	b.ne	.LBB9_2
	b	.LBB9_6
.LBB9_5:
	mov	w0, wzr
.LBB9_6:
	mov	w8, #5
	strb	w8, [x19, #8]
	ldp	x20, x19, [sp, #16]
	ldp	x30, x21, [sp], #32
	.cfi_def_cfa_offset 0
	.cfi_restore w19
	.cfi_restore w20
	.cfi_restore w21
	.cfi_restore w30
	ret
.LBB9_7:
	.cfi_restore_state
	.cfi_remember_state
	add	x8, x8, #4
	mov	w11, #2
	mov	w9, #1
	mov	w10, #4
	sub	w11, w11, w8
	mov	w12, #1
	cmp	x8, #3
	csel	w8, w11, w10, lo
	csel	w0, w12, w9, lo
	strb	w8, [x19, #8]
	ldp	x20, x19, [sp, #16]
	ldp	x30, x21, [sp], #32
	.cfi_def_cfa_offset 0
	.cfi_restore w19
	.cfi_restore w20
	.cfi_restore w21
	.cfi_restore w30
	ret
.LBB9_8:
	.cfi_restore_state
	mov	w8, #4
	strb	w8, [x19, #8]
	ldp	x20, x19, [sp, #16]
	ldp	x30, x21, [sp], #32
	.cfi_def_cfa_offset 0
	.cfi_restore w19
	.cfi_restore w20
	.cfi_restore w21
	.cfi_restore w30
	ret
.Lfunc_end9:
	.size	_RNvXs0_NtNtCs00000000001_10pkcs1_tool10rattle_std2ioINtB5_4TextINtB5_8StandardKl2_EENtNtCs00000000002_4core3fmt5Write9write_strB9_, .Lfunc_end9-_RNvXs0_NtNtCs00000000001_10pkcs1_tool10rattle_std2ioINtB5_4TextINtB5_8StandardKl2_EENtNtCs00000000002_4core3fmt5Write9write_strB9_
	.cfi_endproc

	.section	.text._RNvNtNtCs00000000001_10pkcs1_tool10rattle_std6system4look,"ax",@progbits
	.p2align	2
	.type	_RNvNtNtCs00000000001_10pkcs1_tool10rattle_std6system4look,@function
_RNvNtNtCs00000000001_10pkcs1_tool10rattle_std6system4look:
	.cfi_startproc
	hint	#38
	str	x29, [sp, #-64]!
	.cfi_def_cfa_offset 64
	stp	x30, x23, [sp, #16]
	stp	x22, x21, [sp, #32]
	stp	x20, x19, [sp, #48]
	.cfi_offset w19, -8
	.cfi_offset w20, -16
	.cfi_offset w21, -24
	.cfi_offset w22, -32
	.cfi_offset w23, -40
	.cfi_offset w30, -48
	.cfi_offset w29, -64
	sub	sp, sp, #1, lsl #12
	.cfi_def_cfa_offset 4160
	str	xzr, [sp]
	sub	sp, sp, #1, lsl #12
	.cfi_def_cfa_offset 8256
	str	xzr, [sp], #-80
	.cfi_def_cfa_offset 8336
	.cfi_remember_state
	mov	x19, x0
	add	x0, sp, #1, lsl #12
	mov	x21, x2
	mov	x22, x1
	add	x0, x0, #80
	mov	w1, wzr
	mov	w2, #4096
	add	x23, sp, #1, lsl #12
	mov	w20, w3
	add	x23, x23, #80
	bl	memset
	cmp	x21, #1, lsl #12
	b.hi	.LBB10_19
	add	x0, sp, #1, lsl #12
	mov	x1, x22
	mov	x2, x21
	add	x0, x0, #80
	bl	memcpy
	add	x8, x23, #7
	and	x8, x8, #0xfffffffffffffff8
	subs	x8, x8, x23
	b.eq	.LBB10_5
	add	x11, sp, #1, lsl #12
	mov	x9, xzr
	mov	w10, #1
	add	x11, x11, #80
.LBB10_3:
	ldrb	w12, [x11, x9]
	cbz	w12, .LBB10_15
	add	x9, x9, #1
	cmp	x8, x9
	b.ne	.LBB10_3
.LBB10_5:
	mov	x9, #72340172838076673
	mov	x10, #-9187201950435737472
	movk	x9, #256
	dup	v0.2d, x9
	add	x9, sp, #1, lsl #12
	add	x9, x9, #80
.LBB10_6:
	ldr	q1, [x9, x8]
	sub	v2.2d, v0.2d, v1.2d
	orr	v1.16b, v2.16b, v1.16b
	mov	x11, v1.d[1]
	fmov	x12, d1
	and	x11, x12, x11
	bics	xzr, x10, x11
	b.ne	.LBB10_10
	add	x11, x8, #16
	cmp	x8, #4064
	mov	x8, x11
	b.ls	.LBB10_6
	cmp	x11, #1, lsl #12
	b.eq	.LBB10_14
	add	x8, sp, #1, lsl #12
	mov	w10, #4096
	add	x8, x8, #80
	sub	x10, x10, x11
	add	x9, x8, x11
	mov	x8, x11
	b	.LBB10_11
.LBB10_10:
	add	x9, sp, #1, lsl #12
	mov	w10, #4096
	add	x9, x9, #80
	sub	x10, x10, x8
	add	x9, x9, x8
.LBB10_11:
	mov	x11, xzr
.LBB10_12:
	ldrb	w12, [x9, x11]
	cbz	w12, .LBB10_16
	add	x11, x11, #1
	cmp	x10, x11
	b.ne	.LBB10_12
.LBB10_14:
	mov	x10, xzr
.LBB10_15:
	add	x8, sp, #1, lsl #12
	cmp	x10, #0
	add	x8, x8, #80
	csel	x0, xzr, x8, eq
	cbnz	x10, .LBB10_17
	b	.LBB10_19
.LBB10_16:
	add	x9, x11, x8
	mov	w10, #1
	add	x8, sp, #1, lsl #12
	cmp	x10, #0
	add	x8, x8, #80
	csel	x0, xzr, x8, eq
	cbz	x10, .LBB10_19
.LBB10_17:
	cmp	x9, x21
	b.ne	.LBB10_19
	mov	x1, x22
	mov	x2, x21
	bl	memcmp
	cbz	w0, .LBB10_21
.LBB10_19:
	mov	w8, #1027
	strh	w8, [x19]
.LBB10_20:
	add	sp, sp, #2, lsl #12
	.cfi_def_cfa_offset 144
	add	sp, sp, #80
	.cfi_def_cfa_offset 64
	ldp	x20, x19, [sp, #48]
	ldp	x22, x21, [sp, #32]
	ldp	x30, x23, [sp, #16]
	ldr	x29, [sp], #64
	.cfi_def_cfa_offset 0
	.cfi_restore w19
	.cfi_restore w20
	.cfi_restore w21
	.cfi_restore w22
	.cfi_restore w23
	.cfi_restore w30
	.cfi_restore w29
	ret
.LBB10_21:
	.cfi_restore_state
	add	x21, sp, #1, lsl #12
	add	x23, sp, #1, lsl #12
	add	x0, sp, #40
	add	x21, x21, #40
	add	x23, x23, #80
	mov	w2, #4095
	ldrb	w22, [x21, #40]
	orr	x1, x23, #0x1
	bl	memcpy
	orr	x0, x23, #0x1
	add	x1, sp, #40
	mov	w2, #4095
	strb	w22, [x21, #40]
	bl	memcpy
	add	x0, sp, #1, lsl #12
	add	x2, sp, #8
	mov	w1, w20
	add	x0, x0, #80
	stp	xzr, xzr, [sp, #8]
	str	wzr, [sp, #32]
	str	xzr, [sp, #24]
	bl	pkcs1_os_look
	tbnz	x0, #63, .LBB10_23
	ldur	q0, [sp, #8]
	ldur	q1, [sp, #24]
	cmp	x0, #1
	mov	w8, #1
	add	x9, sp, #3881
	stur	q0, [x21, #7]
	cinc	w8, w8, ne
	cmp	x0, #0
	stur	q1, [x21, #23]
	csel	w8, wzr, w8, eq
	ldur	q0, [x9, #255]
	add	x9, sp, #3897
	strb	w8, [x19]
	ldur	q1, [x9, #255]
	ldur	x8, [x21, #31]
	stur	q0, [x19, #1]
	stur	q1, [x19, #17]
	str	x8, [x19, #32]
	b	.LBB10_20
.LBB10_23:
	add	x8, x0, #4
	mov	w9, #2
	mov	w10, #4
	sub	w9, w9, w8
	cmp	x8, #3
	csel	w8, w9, w10, lo
	mov	w9, #3
	strb	w8, [x19, #1]
	strb	w9, [x19]
	b	.LBB10_20
.Lfunc_end10:
	.size	_RNvNtNtCs00000000001_10pkcs1_tool10rattle_std6system4look, .Lfunc_end10-_RNvNtNtCs00000000001_10pkcs1_tool10rattle_std6system4look
	.cfi_endproc

	.section	.text._RNvXs0_NtNtCs00000000001_10pkcs1_tool10rattle_std4textNtB5_6StringNtNtCs00000000002_4core3fmt5Write9write_str,"ax",@progbits
	.p2align	2
	.type	_RNvXs0_NtNtCs00000000001_10pkcs1_tool10rattle_std4textNtB5_6StringNtNtCs00000000002_4core3fmt5Write9write_str,@function
_RNvXs0_NtNtCs00000000001_10pkcs1_tool10rattle_std4textNtB5_6StringNtNtCs00000000002_4core3fmt5Write9write_str:
	.cfi_startproc
	hint	#38
	sub	sp, sp, #96
	.cfi_def_cfa_offset 96
	stp	x30, x23, [sp, #48]
	stp	x22, x21, [sp, #64]
	stp	x20, x19, [sp, #80]
	.cfi_offset w19, -8
	.cfi_offset w20, -16
	.cfi_offset w21, -24
	.cfi_offset w22, -32
	.cfi_offset w23, -40
	.cfi_offset w30, -48
	.cfi_remember_state
	ldr	x20, [x0, #16]
	ldr	x8, [x0]
	sub	x9, x8, x20
	cmp	x9, x2
	b.hs	.LBB11_9
	cmn	x20, x2
	b.hs	.LBB11_3
	lsl	x9, x8, #1
	add	x10, x20, x2
	cmp	x9, x10
	csel	x9, x9, x10, hi
	mov	w10, #8
	cmp	x9, #8
	csel	x19, x9, x10, hi
	tbz	x19, #63, .LBB11_4
.LBB11_3:
	mov	w0, #1
	ldp	x20, x19, [sp, #80]
	ldp	x22, x21, [sp, #64]
	ldp	x30, x23, [sp, #48]
	add	sp, sp, #96
	.cfi_def_cfa_offset 0
	.cfi_restore w19
	.cfi_restore w20
	.cfi_restore w21
	.cfi_restore w22
	.cfi_restore w23
	.cfi_restore w30
	ret
.LBB11_4:
	.cfi_restore_state
	cbnz	x8, .LBB11_6
	mov	x21, x1
	mov	x23, x0
	mov	x22, x2
	b	.LBB11_7
.LBB11_6:
	ldr	x9, [x0, #8]
	mov	x21, x1
	mov	x22, x2
	mov	x23, x0
	str	x8, [sp, #40]
	mov	w8, #1
	str	x9, [sp, #24]
.LBB11_7:
	mov	x0, sp
	add	x2, sp, #24
	mov	x1, x19
	str	x8, [sp, #32]
	bl	_ZN5alloc7raw_vec11finish_grow17h0000000000000001E.llvm.1
	ldr	w8, [sp]
	cmp	w8, #1
	b.eq	.LBB11_3
	ldr	x8, [sp, #8]
	mov	x0, x23
	mov	x2, x22
	mov	x1, x21
	stp	x19, x8, [x23]
.LBB11_9:
	ldr	x8, [x0, #8]
	mov	x21, x0
	mov	x19, x2
	add	x0, x8, x20
	bl	memcpy
	mov	w0, wzr
	add	x8, x20, x19
	str	x8, [x21, #16]
	ldp	x20, x19, [sp, #80]
	ldp	x22, x21, [sp, #64]
	ldp	x30, x23, [sp, #48]
	add	sp, sp, #96
	.cfi_def_cfa_offset 0
	.cfi_restore w19
	.cfi_restore w20
	.cfi_restore w21
	.cfi_restore w22
	.cfi_restore w23
	.cfi_restore w30
	ret
.Lfunc_end11:
	.size	_RNvXs0_NtNtCs00000000001_10pkcs1_tool10rattle_std4textNtB5_6StringNtNtCs00000000002_4core3fmt5Write9write_str, .Lfunc_end11-_RNvXs0_NtNtCs00000000001_10pkcs1_tool10rattle_std4textNtB5_6StringNtNtCs00000000002_4core3fmt5Write9write_str
	.cfi_endproc

	.section	.text._RNvMs_NtNtCs00000000001_10pkcs1_tool10rattle_std3vecINtNtNtB6_7library3vec3VechE6resizeB8_,"ax",@progbits
	.p2align	2
	.type	_RNvMs_NtNtCs00000000001_10pkcs1_tool10rattle_std3vecINtNtNtB6_7library3vec3VechE6resizeB8_,@function
_RNvMs_NtNtCs00000000001_10pkcs1_tool10rattle_std3vecINtNtNtB6_7library3vec3VechE6resizeB8_:
	.cfi_startproc
	hint	#38
	sub	sp, sp, #96
	.cfi_def_cfa_offset 96
	str	x30, [sp, #48]
	stp	x22, x21, [sp, #64]
	stp	x20, x19, [sp, #80]
	.cfi_offset w19, -8
	.cfi_offset w20, -16
	.cfi_offset w21, -24
	.cfi_offset w22, -32
	.cfi_offset w30, -48
	.cfi_remember_state
	ldr	x19, [x0, #16]
	ldr	x8, [x0]
	subs	x9, x1, x19
	sub	x10, x8, x19
	csel	x9, xzr, x9, lo
	cmp	x10, x9
	b.hs	.LBB12_5
	cmn	x19, x9
	b.hs	.LBB12_16
	lsl	x10, x8, #1
	add	x9, x9, x19
	cmp	x10, x9
	csel	x9, x10, x9, hi
	mov	w10, #8
	cmp	x9, #8
	csel	x20, x9, x10, hi
	tbz	x20, #63, .LBB12_11
	mov	w8, #1
.LBB12_4:
	ldp	x20, x19, [sp, #80]
	mov	w0, w8
	ldp	x22, x21, [sp, #64]
	ldr	x30, [sp, #48]
	add	sp, sp, #96
	.cfi_def_cfa_offset 0
	.cfi_restore w19
	.cfi_restore w20
	.cfi_restore w21
	.cfi_restore w22
	.cfi_restore w30
	ret
.LBB12_5:
	.cfi_restore_state
	.cfi_remember_state
	mov	x20, x8
	subs	x9, x1, x19
	b.ls	.LBB12_10
.LBB12_6:
	sub	x8, x20, x19
	cmp	x8, x9
	b.lo	.LBB12_17
	ldr	x21, [x0, #8]
	cmp	x9, #2
	add	x8, x21, x19
	b.lo	.LBB12_9
.LBB12_8:
	sub	x20, x9, #1
	mov	x22, x0
	mov	x0, x8
	mov	w1, wzr
	mov	x2, x20
	bl	memset
	add	x19, x19, x20
	mov	x0, x22
	add	x8, x21, x19
.LBB12_9:
	add	x1, x19, #1
	strb	wzr, [x8]
.LBB12_10:
	mov	w8, wzr
	str	x1, [x0, #16]
	ldp	x20, x19, [sp, #80]
	mov	w0, w8
	ldp	x22, x21, [sp, #64]
	ldr	x30, [sp, #48]
	add	sp, sp, #96
	.cfi_def_cfa_offset 0
	.cfi_restore w19
	.cfi_restore w20
	.cfi_restore w21
	.cfi_restore w22
	.cfi_restore w30
	ret
.LBB12_11:
	.cfi_restore_state
	.cfi_remember_state
	cbnz	x8, .LBB12_13
	mov	x21, x1
	mov	x22, x0
	b	.LBB12_14
.LBB12_13:
	ldr	x9, [x0, #8]
	mov	x21, x1
	mov	x22, x0
	str	x8, [sp, #40]
	mov	w8, #1
	str	x9, [sp, #24]
.LBB12_14:
	mov	x0, sp
	add	x3, sp, #24
	mov	w1, #1
	mov	x2, x20
	str	x8, [sp, #32]
	bl	_RINvNtCs00000000000_5alloc7raw_vec11finish_growNtNtB4_5alloc6GlobalECs00000000001_10pkcs1_tool
	ldr	w8, [sp]
	cmp	w8, #1
	b.eq	.LBB12_4
	ldr	x8, [sp, #8]
	mov	x0, x22
	mov	x1, x21
	stp	x20, x8, [x22]
	subs	x9, x21, x19
	b.hi	.LBB12_6
	b	.LBB12_10
.LBB12_16:
	mov	w8, #1
	ldp	x20, x19, [sp, #80]
	mov	w0, w8
	ldp	x22, x21, [sp, #64]
	ldr	x30, [sp, #48]
	add	sp, sp, #96
	.cfi_def_cfa_offset 0
	.cfi_restore w19
	.cfi_restore w20
	.cfi_restore w21
	.cfi_restore w22
	.cfi_restore w30
	ret
.LBB12_17:
	.cfi_restore_state
	mov	x1, x19
	mov	x2, x9
	mov	x20, x0
	mov	x19, x9
	bl	_RINvNvMs3_NtCs00000000000_5alloc7raw_vecINtB8_11RawVecInnerpE7reserve21do_reserve_and_handleNtNtBa_5alloc6GlobalECs00000000001_10pkcs1_tool
	mov	x9, x19
	ldr	x19, [x20, #16]
	mov	x0, x20
	ldr	x21, [x20, #8]
	cmp	x9, #2
	add	x8, x21, x19
	b.hs	.LBB12_8
	b	.LBB12_9
.Lfunc_end12:
	.size	_RNvMs_NtNtCs00000000001_10pkcs1_tool10rattle_std3vecINtNtNtB6_7library3vec3VechE6resizeB8_, .Lfunc_end12-_RNvMs_NtNtCs00000000001_10pkcs1_tool10rattle_std3vecINtNtNtB6_7library3vec3VechE6resizeB8_
	.cfi_endproc

	.section	.text.pkcs1_tool_main,"ax",@progbits
	.globl	pkcs1_tool_main
	.p2align	2
	.type	pkcs1_tool_main,@function
pkcs1_tool_main:
	.cfi_startproc
	hint	#38
	str	x30, [sp, #-16]!
	.cfi_def_cfa_offset 16
	.cfi_offset w30, -16
	bic	w0, w0, w0, asr #31
	bl	_RNvNtNtCs00000000001_10pkcs1_tool4tool10pkcs1_tool4main
	and	w0, w0, #0xff
	ldr	x30, [sp], #16
	.cfi_def_cfa_offset 0
	.cfi_restore w30
	ret
.Lfunc_end13:
	.size	pkcs1_tool_main, .Lfunc_end13-pkcs1_tool_main
	.cfi_endproc

	.section	.text._RNvXNtNtNtCs00000000001_10pkcs1_tool6proved8der_core5errorNtB2_9ErrorKindNtNtCs00000000002_4core3fmt7Display3fmt,"ax",@progbits
	.p2align	2
	.type	_RNvXNtNtNtCs00000000001_10pkcs1_tool6proved8der_core5errorNtB2_9ErrorKindNtNtCs00000000002_4core3fmt7Display3fmt,@function
_RNvXNtNtNtCs00000000001_10pkcs1_tool6proved8der_core5errorNtB2_9ErrorKindNtNtCs00000000002_4core3fmt7Display3fmt:
	.cfi_startproc
	hint	#38
	sub	sp, sp, #96
	.cfi_def_cfa_offset 96
	str	x30, [sp, #80]
	.cfi_offset w30, -16
	.cfi_remember_state
	ldrb	w9, [x0]
	adrp	x10, .LJTI14_0
	add	x10, x10, :lo12:.LJTI14_0
	mov	w2, #22
	adrp	x8, .Lanon.2
	add	x8, x8, :lo12:.Lanon.2
	adr	x11, .LBB14_1
	ldrb	w12, [x10, x9]
	add	x11, x11, x12, lsl #2
	br	x11
.LBB14_1:
	hint	#36
	adrp	x8, .Lanon.3
	add	x8, x8, :lo12:.Lanon.3
	mov	w2, #24
.LBB14_2:
	hint	#36
	ldp	x0, x9, [x1, #48]
	mov	x1, x8
	ldr	x30, [sp, #80]
	ldr	x3, [x9, #24]
	add	sp, sp, #96
	.cfi_def_cfa_offset 0
	.cfi_restore w30
	br	x3
.LBB14_3:
	hint	#36
	.cfi_restore_state
	.cfi_remember_state
	adrp	x8, .Lanon.4
	add	x8, x8, :lo12:.Lanon.4
	mov	w2, #19
	ldp	x0, x9, [x1, #48]
	mov	x1, x8
	ldr	x30, [sp, #80]
	ldr	x3, [x9, #24]
	add	sp, sp, #96
	.cfi_def_cfa_offset 0
	.cfi_restore w30
	br	x3
.LBB14_4:
	hint	#36
	.cfi_restore_state
	.cfi_remember_state
	adrp	x8, .Lanon.5
	add	x8, x8, :lo12:.Lanon.5
	mov	w2, #21
	ldp	x0, x9, [x1, #48]
	mov	x1, x8
	ldr	x30, [sp, #80]
	ldr	x3, [x9, #24]
	add	sp, sp, #96
	.cfi_def_cfa_offset 0
	.cfi_restore w30
	br	x3
.LBB14_5:
	hint	#36
	.cfi_restore_state
	.cfi_remember_state
	ldrb	w8, [x0, #1]
	add	x9, sp, #92
	adrp	x10, _RNvXs1_NtNtNtCs00000000001_10pkcs1_tool6proved8der_core3tagNtB5_12PrintedOctetNtNtCs00000000002_4core3fmt7Display3fmt
	add	x10, x10, :lo12:_RNvXs1_NtNtNtCs00000000001_10pkcs1_tool6proved8der_core3tagNtB5_12PrintedOctetNtNtCs00000000002_4core3fmt7Display3fmt
	stp	x9, x10, [sp]
	adrp	x9, .Lanon.6
	add	x9, x9, :lo12:.Lanon.6
	b	.LBB14_16
.LBB14_6:
	hint	#36
	ldrb	w8, [x0, #1]
	add	x9, sp, #92
	adrp	x10, _RNvXs0_NtNtNtCs00000000001_10pkcs1_tool6proved8der_core3tagNtB5_3TagNtNtCs00000000002_4core3fmt7Display3fmt
	add	x10, x10, :lo12:_RNvXs0_NtNtNtCs00000000001_10pkcs1_tool6proved8der_core3tagNtB5_3TagNtNtCs00000000002_4core3fmt7Display3fmt
	stp	x9, x10, [sp]
	adrp	x9, .Lanon.7
	add	x9, x9, :lo12:.Lanon.7
	b	.LBB14_16
.LBB14_7:
	hint	#36
	adrp	x8, .Lanon.8
	add	x8, x8, :lo12:.Lanon.8
	mov	w2, #22
	ldp	x0, x9, [x1, #48]
	mov	x1, x8
	ldr	x30, [sp, #80]
	ldr	x3, [x9, #24]
	add	sp, sp, #96
	.cfi_def_cfa_offset 0
	.cfi_restore w30
	br	x3
.LBB14_8:
	hint	#36
	.cfi_restore_state
	.cfi_remember_state
	adrp	x8, .Lanon.9
	add	x8, x8, :lo12:.Lanon.9
	b	.LBB14_18
.LBB14_9:
	hint	#36
	adrp	x8, .Lanon.10
	add	x8, x8, :lo12:.Lanon.10
	b	.LBB14_11
.LBB14_10:
	hint	#36
	adrp	x8, .Lanon.11
	add	x8, x8, :lo12:.Lanon.11
.LBB14_11:
	mov	w2, #24
	ldp	x0, x9, [x1, #48]
	mov	x1, x8
	ldr	x30, [sp, #80]
	ldr	x3, [x9, #24]
	add	sp, sp, #96
	.cfi_def_cfa_offset 0
	.cfi_restore w30
	br	x3
.LBB14_12:
	hint	#36
	.cfi_restore_state
	.cfi_remember_state
	ldrb	w8, [x0, #1]
	add	x9, sp, #92
	adrp	x10, _RNvXs0_NtNtNtCs00000000001_10pkcs1_tool6proved8der_core3tagNtB5_3TagNtNtCs00000000002_4core3fmt7Display3fmt
	add	x10, x10, :lo12:_RNvXs0_NtNtNtCs00000000001_10pkcs1_tool6proved8der_core3tagNtB5_3TagNtNtCs00000000002_4core3fmt7Display3fmt
	stp	x9, x10, [sp]
	adrp	x9, .Lanon.12
	add	x9, x9, :lo12:.Lanon.12
	b	.LBB14_16
.LBB14_13:
	hint	#36
	adrp	x8, .Lanon.13
	add	x8, x8, :lo12:.Lanon.13
	mov	w2, #25
	ldp	x0, x9, [x1, #48]
	mov	x1, x8
	ldr	x30, [sp, #80]
	ldr	x3, [x9, #24]
	add	sp, sp, #96
	.cfi_def_cfa_offset 0
	.cfi_restore w30
	br	x3
.LBB14_14:
	hint	#36
	.cfi_restore_state
	.cfi_remember_state
	adrp	x8, .Lanon.14
	add	x8, x8, :lo12:.Lanon.14
	b	.LBB14_21
.LBB14_15:
	hint	#36
	ldrb	w8, [x0, #1]
	add	x9, sp, #92
	adrp	x10, _RNvXs0_NtNtNtCs00000000001_10pkcs1_tool6proved8der_core3tagNtB5_3TagNtNtCs00000000002_4core3fmt7Display3fmt
	add	x10, x10, :lo12:_RNvXs0_NtNtNtCs00000000001_10pkcs1_tool6proved8der_core3tagNtB5_3TagNtNtCs00000000002_4core3fmt7Display3fmt
	stp	x9, x10, [sp]
	adrp	x9, .Lanon.15
	add	x9, x9, :lo12:.Lanon.15
.LBB14_16:
	ldp	x0, x1, [x1, #48]
	strb	w8, [sp, #92]
	mov	w8, #2
	str	xzr, [sp, #64]
	stp	x9, x8, [sp, #32]
	mov	x8, sp
	mov	w9, #1
	stp	x8, x9, [sp, #48]
	add	x2, sp, #32
	bl	_ZN4core3fmt5write17h0000000000000000E
	ldr	x30, [sp, #80]
	add	sp, sp, #96
	.cfi_def_cfa_offset 0
	.cfi_restore w30
	ret
.LBB14_17:
	hint	#36
	.cfi_restore_state
	.cfi_remember_state
	adrp	x8, .Lanon.16
	add	x8, x8, :lo12:.Lanon.16
.LBB14_18:
	mov	w2, #36
	ldp	x0, x9, [x1, #48]
	mov	x1, x8
	ldr	x30, [sp, #80]
	ldr	x3, [x9, #24]
	add	sp, sp, #96
	.cfi_def_cfa_offset 0
	.cfi_restore w30
	br	x3
.LBB14_19:
	hint	#36
	.cfi_restore_state
	.cfi_remember_state
	ldrb	w8, [x0, #1]
	ldrb	w9, [x0, #2]
	ldp	x0, x1, [x1, #48]
	strb	w8, [sp, #88]
	add	x8, sp, #88
	strb	w9, [sp, #92]
	adrp	x9, _RNvXs0_NtNtNtCs00000000001_10pkcs1_tool6proved8der_core3tagNtB5_3TagNtNtCs00000000002_4core3fmt7Display3fmt
	add	x9, x9, :lo12:_RNvXs0_NtNtNtCs00000000001_10pkcs1_tool6proved8der_core3tagNtB5_3TagNtNtCs00000000002_4core3fmt7Display3fmt
	stp	x8, x9, [sp]
	add	x8, sp, #92
	stp	x8, x9, [sp, #16]
	adrp	x8, .Lanon.17
	add	x8, x8, :lo12:.Lanon.17
	mov	w9, #3
	stp	x8, x9, [sp, #32]
	mov	x8, sp
	mov	w9, #2
	str	x8, [sp, #48]
	stp	x9, xzr, [sp, #56]
	add	x2, sp, #32
	bl	_ZN4core3fmt5write17h0000000000000000E
	ldr	x30, [sp, #80]
	add	sp, sp, #96
	.cfi_def_cfa_offset 0
	.cfi_restore w30
	ret
.LBB14_20:
	hint	#36
	.cfi_restore_state
	adrp	x8, .Lanon.18
	add	x8, x8, :lo12:.Lanon.18
.LBB14_21:
	mov	w2, #34
	ldp	x0, x9, [x1, #48]
	mov	x1, x8
	ldr	x30, [sp, #80]
	ldr	x3, [x9, #24]
	add	sp, sp, #96
	.cfi_def_cfa_offset 0
	.cfi_restore w30
	br	x3
.Lfunc_end14:
	.size	_RNvXNtNtNtCs00000000001_10pkcs1_tool6proved8der_core5errorNtB2_9ErrorKindNtNtCs00000000002_4core3fmt7Display3fmt, .Lfunc_end14-_RNvXNtNtNtCs00000000001_10pkcs1_tool6proved8der_core5errorNtB2_9ErrorKindNtNtCs00000000002_4core3fmt7Display3fmt
	.cfi_endproc
	.section	.rodata._RNvXNtNtNtCs00000000001_10pkcs1_tool6proved8der_core5errorNtB2_9ErrorKindNtNtCs00000000002_4core3fmt7Display3fmt,"a",@progbits
.LJTI14_0:
	.byte	(.LBB14_2-.LBB14_1)>>2
	.byte	(.LBB14_1-.LBB14_1)>>2
	.byte	(.LBB14_9-.LBB14_1)>>2
	.byte	(.LBB14_12-.LBB14_1)>>2
	.byte	(.LBB14_6-.LBB14_1)>>2
	.byte	(.LBB14_14-.LBB14_1)>>2
	.byte	(.LBB14_17-.LBB14_1)>>2
	.byte	(.LBB14_13-.LBB14_1)>>2
	.byte	(.LBB14_20-.LBB14_1)>>2
	.byte	(.LBB14_8-.LBB14_1)>>2
	.byte	(.LBB14_19-.LBB14_1)>>2
	.byte	(.LBB14_5-.LBB14_1)>>2
	.byte	(.LBB14_7-.LBB14_1)>>2
	.byte	(.LBB14_15-.LBB14_1)>>2
	.byte	(.LBB14_4-.LBB14_1)>>2
	.byte	(.LBB14_10-.LBB14_1)>>2
	.byte	(.LBB14_3-.LBB14_1)>>2

	.section	.text._RNvXs2_NtNtNtCs00000000001_10pkcs1_tool6proved8der_core5errorNtB5_5ErrorNtNtCs00000000002_4core3fmt7Display3fmt,"ax",@progbits
	.p2align	2
	.type	_RNvXs2_NtNtNtCs00000000001_10pkcs1_tool6proved8der_core5errorNtB5_5ErrorNtNtCs00000000002_4core3fmt7Display3fmt,@function
_RNvXs2_NtNtNtCs00000000001_10pkcs1_tool6proved8der_core5errorNtB5_5ErrorNtNtCs00000000002_4core3fmt7Display3fmt:
	.cfi_startproc
	hint	#38
	sub	sp, sp, #80
	.cfi_def_cfa_offset 80
	.cfi_offset w30, -16
	adrp	x9, _RNvXNtNtNtCs00000000001_10pkcs1_tool6proved8der_core5errorNtB2_9ErrorKindNtNtCs00000000002_4core3fmt7Display3fmt
	add	x9, x9, :lo12:_RNvXNtNtNtCs00000000001_10pkcs1_tool6proved8der_core5errorNtB2_9ErrorKindNtNtCs00000000002_4core3fmt7Display3fmt
	str	x0, [sp, #48]
	ldp	x0, x1, [x1, #48]
	mov	w8, #1
	stp	x9, x30, [sp, #56]
	adrp	x9, .Lanon.19
	add	x9, x9, :lo12:.Lanon.19
	stp	x9, x8, [sp]
	add	x9, sp, #48
	mov	x2, sp
	stp	x8, xzr, [sp, #24]
	str	x9, [sp, #16]
	bl	_ZN4core3fmt5write17h0000000000000000E
	ldr	x30, [sp, #64]
	add	sp, sp, #80
	.cfi_def_cfa_offset 0
	.cfi_restore w30
	ret
.Lfunc_end15:
	.size	_RNvXs2_NtNtNtCs00000000001_10pkcs1_tool6proved8der_core5errorNtB5_5ErrorNtNtCs00000000002_4core3fmt7Display3fmt, .Lfunc_end15-_RNvXs2_NtNtNtCs00000000001_10pkcs1_tool6proved8der_core5errorNtB5_5ErrorNtNtCs00000000002_4core3fmt7Display3fmt
	.cfi_endproc

	.section	.text._RNvXNtNtNtCs00000000001_10pkcs1_tool6proved8der_core11file_systemRNtNtB8_10rattle_std11HostRuntimeNtB2_10FileSystem4openB8_,"ax",@progbits
	.p2align	2
	.type	_RNvXNtNtNtCs00000000001_10pkcs1_tool6proved8der_core11file_systemRNtNtB8_10rattle_std11HostRuntimeNtB2_10FileSystem4openB8_,@function
_RNvXNtNtNtCs00000000001_10pkcs1_tool6proved8der_core11file_systemRNtNtB8_10rattle_std11HostRuntimeNtB2_10FileSystem4openB8_:
	.cfi_startproc
	hint	#38
	stp	x29, x30, [sp, #-48]!
	.cfi_def_cfa_offset 48
	stp	x22, x21, [sp, #16]
	stp	x20, x19, [sp, #32]
	.cfi_offset w19, -8
	.cfi_offset w20, -16
	.cfi_offset w21, -24
	.cfi_offset w22, -32
	.cfi_offset w30, -40
	.cfi_offset w29, -48
	sub	sp, sp, #1, lsl #12
	.cfi_def_cfa_offset 4144
	str	xzr, [sp]
	sub	sp, sp, #1, lsl #12
	.cfi_def_cfa_offset 8240
	str	xzr, [sp]
	sub	sp, sp, #1, lsl #12
	.cfi_def_cfa_offset 12336
	.cfi_remember_state
	mov	x20, x2
	mov	x21, x1
	mov	x19, x0
	add	x0, sp, #2, lsl #12
	mov	w1, wzr
	mov	w2, #4096
	str	xzr, [sp]
	add	x22, sp, #2, lsl #12
	bl	memset
	cmp	x20, #1, lsl #12
	b.hi	.LBB16_19
	add	x0, sp, #2, lsl #12
	mov	x1, x21
	mov	x2, x20
	bl	memcpy
	add	x8, x22, #7
	and	x8, x8, #0xfffffffffffffff8
	subs	x8, x8, x22
	b.eq	.LBB16_5
	mov	x9, xzr
	add	x11, sp, #2, lsl #12
	mov	w10, #1
.LBB16_3:
	ldrb	w12, [x11, x9]
	cbz	w12, .LBB16_15
	add	x9, x9, #1
	cmp	x8, x9
	b.ne	.LBB16_3
.LBB16_5:
	mov	x9, #72340172838076673
	mov	x10, #-9187201950435737472
	movk	x9, #256
	dup	v0.2d, x9
	add	x9, sp, #2, lsl #12
.LBB16_6:
	ldr	q1, [x9, x8]
	sub	v2.2d, v0.2d, v1.2d
	orr	v1.16b, v2.16b, v1.16b
	mov	x11, v1.d[1]
	fmov	x12, d1
	and	x11, x12, x11
	bics	xzr, x10, x11
	b.ne	.LBB16_10
	add	x11, x8, #16
	cmp	x8, #4064
	mov	x8, x11
	b.ls	.LBB16_6
	cmp	x11, #1, lsl #12
	b.eq	.LBB16_14
	add	x8, sp, #2, lsl #12
	mov	w10, #4096
	add	x9, x8, x11
	sub	x10, x10, x11
	mov	x8, x11
	b	.LBB16_11
.LBB16_10:
	add	x9, sp, #2, lsl #12
	mov	w10, #4096
	add	x9, x9, x8
	sub	x10, x10, x8
.LBB16_11:
	mov	x11, xzr
.LBB16_12:
	ldrb	w12, [x9, x11]
	cbz	w12, .LBB16_16
	add	x11, x11, #1
	cmp	x10, x11
	b.ne	.LBB16_12
.LBB16_14:
	mov	x10, xzr
.LBB16_15:
	cmp	x10, #0
	add	x8, sp, #2, lsl #12
	csel	x0, xzr, x8, eq
	cbnz	x10, .LBB16_17
	b	.LBB16_19
.LBB16_16:
	add	x9, x11, x8
	mov	w10, #1
	cmp	x10, #0
	add	x8, sp, #2, lsl #12
	csel	x0, xzr, x8, eq
	cbz	x10, .LBB16_19
.LBB16_17:
	cmp	x9, x20
	b.ne	.LBB16_19
	mov	x1, x21
	mov	x2, x20
	bl	memcmp
	cbz	w0, .LBB16_21
.LBB16_19:
	mov	w8, #1024
	mov	w9, #1
	orr	x10, x8, xzr
	orr	w8, w10, w9
	tbz	w8, #0, .LBB16_23
.LBB16_20:
	mov	w8, #15
	strb	w8, [x19, #1]
	mov	w8, #1
	strb	w8, [x19]
	add	sp, sp, #3, lsl #12
	.cfi_def_cfa_offset 48
	ldp	x20, x19, [sp, #32]
	ldp	x22, x21, [sp, #16]
	ldp	x29, x30, [sp], #48
	.cfi_def_cfa_offset 0
	.cfi_restore w19
	.cfi_restore w20
	.cfi_restore w21
	.cfi_restore w22
	.cfi_restore w30
	.cfi_restore w29
	ret
.LBB16_21:
	.cfi_restore_state
	.cfi_remember_state
	add	x8, sp, #1, lsl #12
	add	x0, sp, #1, lsl #12
	mov	w2, #4095
	add	x8, x8, #1
	ldrb	w20, [x8, #4095]
	add	x8, sp, #2, lsl #12
	orr	x1, x8, #0x1
	bl	memcpy
	mov	x8, sp
	add	x1, sp, #1, lsl #12
	mov	w2, #4095
	orr	x0, x8, #0x1
	strb	w20, [sp]
	bl	memcpy
	mov	x0, sp
	mov	w1, wzr
	mov	w2, wzr
	bl	pkcs1_os_open
	tbnz	x0, #63, .LBB16_24
	lsr	x8, x0, #31
	lsl	x10, x0, #32
	cmp	x8, #0
	mov	w8, #1024
	cset	w9, ne
	csel	x10, xzr, x10, ne
	orr	x10, x8, x10
	orr	w8, w10, w9
	tbnz	w8, #0, .LBB16_20
.LBB16_23:
	lsr	x9, x10, #32
	str	xzr, [x19, #8]
	str	w9, [x19, #16]
	strb	wzr, [x19]
	add	sp, sp, #3, lsl #12
	.cfi_def_cfa_offset 48
	ldp	x20, x19, [sp, #32]
	ldp	x22, x21, [sp, #16]
	ldp	x29, x30, [sp], #48
	.cfi_def_cfa_offset 0
	.cfi_restore w19
	.cfi_restore w20
	.cfi_restore w21
	.cfi_restore w22
	.cfi_restore w30
	.cfi_restore w29
	ret
.LBB16_24:
	.cfi_restore_state
	add	x8, x0, #4
	cmp	x8, #3
	b.hs	.LBB16_19
	mov	w9, #512
	sub	x8, x9, x8, lsl #8
	mov	w9, #1
	orr	x10, x8, xzr
	orr	w8, w10, w9
	tbnz	w8, #0, .LBB16_20
	b	.LBB16_23
.Lfunc_end16:
	.size	_RNvXNtNtNtCs00000000001_10pkcs1_tool6proved8der_core11file_systemRNtNtB8_10rattle_std11HostRuntimeNtB2_10FileSystem4openB8_, .Lfunc_end16-_RNvXNtNtNtCs00000000001_10pkcs1_tool6proved8der_core11file_systemRNtNtB8_10rattle_std11HostRuntimeNtB2_10FileSystem4openB8_
	.cfi_endproc

	.section	.text._RNvNtNtNtNtCs00000000001_10pkcs1_tool6proved8der_core7integer5small5small,"ax",@progbits
	.p2align	2
	.type	_RNvNtNtNtNtCs00000000001_10pkcs1_tool6proved8der_core7integer5small5small,@function
_RNvNtNtNtNtCs00000000001_10pkcs1_tool6proved8der_core7integer5small5small:
	.cfi_startproc
	hint	#38
	cbz	x1, .LBB17_4
	ldrsb	w8, [x0]
	cbz	w8, .LBB17_5
	tbz	w8, #31, .LBB17_8
	mov	w0, #13
	mov	w8, #2
	bfi	w0, w8, #8, #8
	ret
.LBB17_4:
	mov	w0, #3
	mov	w8, #2
	bfi	w0, w8, #8, #8
	ret
.LBB17_5:
	ldrsb	w8, [x0, #1]
	tbnz	w8, #31, .LBB17_7
	mov	w0, #4
	mov	w8, #2
	bfi	w0, w8, #8, #8
	ret
.LBB17_7:
	sub	x1, x1, #1
.LBB17_8:
	cmp	x1, #1
	mov	w9, #2
	mov	w10, #17
	mov	w11, #13
	csel	w8, w9, w8, hi
	csel	w0, w11, w10, hi
	bfi	w0, w8, #8, #8
	ret
.Lfunc_end17:
	.size	_RNvNtNtNtNtCs00000000001_10pkcs1_tool6proved8der_core7integer5small5small, .Lfunc_end17-_RNvNtNtNtNtCs00000000001_10pkcs1_tool6proved8der_core7integer5small5small
	.cfi_endproc

	.section	.text.unlikely._RNvNtNtNtCs00000000001_10pkcs1_tool6proved8der_core5split14split_unlikely,"ax",@progbits
	.p2align	2
	.type	_RNvNtNtNtCs00000000001_10pkcs1_tool6proved8der_core5split14split_unlikely,@function
_RNvNtNtNtCs00000000001_10pkcs1_tool6proved8der_core5split14split_unlikely:
	.cfi_startproc
	hint	#38
	lsr	x8, x2, #32
	cbz	x8, .LBB18_2
	mov	w8, #7
	strb	w8, [x0, #8]
	str	xzr, [x0]
	ret
.LBB18_2:
	cbz	x2, .LBB18_6
	ldrb	w8, [x1]
	mov	w9, #31
	bics	wzr, w9, w8
	b.eq	.LBB18_7
	and	w9, w8, #0xffffffdf
	cbz	w9, .LBB18_7
	cmp	x2, #1
	b.ne	.LBB18_8
.LBB18_6:
	mov	w8, #1
	strb	wzr, [x0, #10]
	strh	w8, [x0, #8]
	str	xzr, [x0]
	ret
.LBB18_7:
	mov	w9, #11
	orr	w8, w9, w8, lsl #8
	strb	wzr, [x0, #10]
	strh	w8, [x0, #8]
	str	xzr, [x0]
	ret
.LBB18_8:
	ldrsb	w12, [x1, #1]
	add	x10, x1, #2
	sub	x9, x2, #2
	and	x11, x12, #0xff
	tbnz	w12, #31, .LBB18_12
	and	w12, w3, #0xff
	cmp	w8, w12
	b.ne	.LBB18_32
.LBB18_10:
	subs	x8, x9, x11
	b.hs	.LBB18_16
	mov	w8, #1
	strb	w8, [x0, #8]
	str	xzr, [x0]
	ret
.LBB18_12:
	and	w12, w12, #0xff
	cmp	w12, #128
	b.ne	.LBB18_14
	mov	w8, #2
	strb	wzr, [x0, #10]
	strh	w8, [x0, #8]
	str	xzr, [x0]
	ret
.LBB18_14:
	cmp	w12, #132
	b.ls	.LBB18_17
	mov	w8, #7
	strb	wzr, [x0, #10]
	strh	w8, [x0, #8]
	str	xzr, [x0]
	ret
.LBB18_16:
	add	x9, x10, x11
	stp	x10, x11, [x0]
	stp	x9, x8, [x0, #16]
	ret
.LBB18_17:
	and	x11, x11, #0x7f
	subs	x9, x9, x11
	b.lo	.LBB18_6
	cbz	w11, .LBB18_26
	cmp	w11, #1
	add	x12, x10, x11
	b.ne	.LBB18_22
	ldrsb	w10, [x10]
	tbz	w10, #31, .LBB18_26
	and	x11, x10, #0xff
	b	.LBB18_31
.LBB18_22:
	ldrb	w10, [x10]
	cbz	x10, .LBB18_26
	cmp	w11, #2
	b.eq	.LBB18_27
	cmp	w11, #3
	b.ne	.LBB18_28
	lsl	x10, x10, #16
	ldrb	w11, [x1, #3]
	orr	x10, x10, x11, lsl #8
	ldrb	w11, [x1, #4]
	b	.LBB18_30
.LBB18_26:
	mov	w8, #8
	strb	wzr, [x0, #10]
	strh	w8, [x0, #8]
	str	xzr, [x0]
	ret
.LBB18_27:
	ldrb	w11, [x1, #3]
	orr	x11, x11, x10, lsl #8
	b	.LBB18_31
.LBB18_28:
	cmp	w11, #4
	b.ne	.LBB18_33
	lsl	x10, x10, #24
	ldrb	w11, [x1, #3]
	orr	x10, x10, x11, lsl #16
	ldrb	w11, [x1, #4]
	orr	x10, x10, x11, lsl #8
	ldrb	w11, [x1, #5]
.LBB18_30:
	orr	x11, x10, x11
.LBB18_31:
	mov	x10, x12
	and	w12, w3, #0xff
	cmp	w8, w12
	b.eq	.LBB18_10
.LBB18_32:
	mov	w9, #10
	strb	w12, [x0, #9]
	strb	w9, [x0, #8]
	strb	w8, [x0, #10]
	str	xzr, [x0]
	ret
.LBB18_33:
	str	x30, [sp, #-16]!
	.cfi_def_cfa_offset 16
	.cfi_offset w30, -16
	brk	#0x1
.Lfunc_end18:
	.size	_RNvNtNtNtCs00000000001_10pkcs1_tool6proved8der_core5split14split_unlikely, .Lfunc_end18-_RNvNtNtNtCs00000000001_10pkcs1_tool6proved8der_core5split14split_unlikely
	.cfi_endproc

	.section	.text._RNvXs0_NtNtNtCs00000000001_10pkcs1_tool6proved8der_core3tagNtB5_3TagNtNtCs00000000002_4core3fmt7Display3fmt,"ax",@progbits
	.p2align	2
	.type	_RNvXs0_NtNtNtCs00000000001_10pkcs1_tool6proved8der_core3tagNtB5_3TagNtNtCs00000000002_4core3fmt7Display3fmt,@function
_RNvXs0_NtNtNtCs00000000001_10pkcs1_tool6proved8der_core3tagNtB5_3TagNtNtCs00000000002_4core3fmt7Display3fmt:
	.cfi_startproc
	hint	#38
	sub	sp, sp, #80
	.cfi_def_cfa_offset 80
	.cfi_offset w30, -16
	add	x8, sp, #76
	adrp	x9, _RNvXs1_NtNtNtCs00000000001_10pkcs1_tool6proved8der_core3tagNtB5_12PrintedOctetNtNtCs00000000002_4core3fmt7Display3fmt
	add	x9, x9, :lo12:_RNvXs1_NtNtNtCs00000000001_10pkcs1_tool6proved8der_core3tagNtB5_12PrintedOctetNtNtCs00000000002_4core3fmt7Display3fmt
	ldrb	w10, [x0]
	ldp	x0, x1, [x1, #48]
	str	x8, [sp, #48]
	adrp	x8, .Lanon.19
	add	x8, x8, :lo12:.Lanon.19
	stp	x9, x30, [sp, #56]
	mov	w9, #1
	mov	x2, sp
	stp	x8, x9, [sp]
	add	x8, sp, #48
	strb	w10, [sp, #76]
	stp	x9, xzr, [sp, #24]
	str	x8, [sp, #16]
	bl	_ZN4core3fmt5write17h0000000000000000E
	ldr	x30, [sp, #64]
	add	sp, sp, #80
	.cfi_def_cfa_offset 0
	.cfi_restore w30
	ret
.Lfunc_end19:
	.size	_RNvXs0_NtNtNtCs00000000001_10pkcs1_tool6proved8der_core3tagNtB5_3TagNtNtCs00000000002_4core3fmt7Display3fmt, .Lfunc_end19-_RNvXs0_NtNtNtCs00000000001_10pkcs1_tool6proved8der_core3tagNtB5_3TagNtNtCs00000000002_4core3fmt7Display3fmt
	.cfi_endproc

	.section	.rodata.cst16,"aM",@progbits,16
	.p2align	4, 0x0
.LCPI20_0:
	.xword	0
	.xword	2
	.section	.rodata.cst8,"aM",@progbits,8
	.p2align	3, 0x0
.LCPI20_1:
	.word	32
	.word	8
	.section	.text._RNvXs1_NtNtNtCs00000000001_10pkcs1_tool6proved8der_core3tagNtB5_12PrintedOctetNtNtCs00000000002_4core3fmt7Display3fmt,"ax",@progbits
	.p2align	2
	.type	_RNvXs1_NtNtNtCs00000000001_10pkcs1_tool6proved8der_core3tagNtB5_12PrintedOctetNtNtCs00000000002_4core3fmt7Display3fmt,@function
_RNvXs1_NtNtNtCs00000000001_10pkcs1_tool6proved8der_core3tagNtB5_12PrintedOctetNtNtCs00000000002_4core3fmt7Display3fmt:
	.cfi_startproc
	hint	#38
	sub	sp, sp, #144
	.cfi_def_cfa_offset 144
	str	x30, [sp, #128]
	.cfi_offset w30, -16
	add	x8, sp, #140
	adrp	x9, _ZN4core3fmt3num52_$LT$impl$u20$core..fmt..LowerHex$u20$for$u20$i8$GT$3fmt17h0000000000000002E
	add	x9, x9, :lo12:_ZN4core3fmt3num52_$LT$impl$u20$core..fmt..LowerHex$u20$for$u20$i8$GT$3fmt17h0000000000000002E
	stp	x8, x9, [sp, #56]
	adrp	x8, .LCPI20_0
	mov	w9, #2
	ldr	q0, [x8, :lo12:.LCPI20_0]
	adrp	x8, .LCPI20_1
	ldrb	w10, [x0]
	str	x9, [sp, #72]
	mov	w9, #1
	add	x2, sp, #8
	stur	q0, [sp, #88]
	ldr	d0, [x8, :lo12:.LCPI20_1]
	mov	w8, #3
	strb	w8, [sp, #120]
	adrp	x8, .Lanon.20
	add	x8, x8, :lo12:.Lanon.20
	ldp	x0, x1, [x1, #48]
	stp	x8, x9, [sp, #8]
	add	x8, sp, #72
	strb	w10, [sp, #140]
	stp	x8, x9, [sp, #40]
	add	x8, sp, #56
	str	xzr, [sp, #104]
	str	d0, [sp, #112]
	stp	x8, x9, [sp, #24]
	bl	_ZN4core3fmt5write17h0000000000000000E
	ldr	x30, [sp, #128]
	add	sp, sp, #144
	.cfi_def_cfa_offset 0
	.cfi_restore w30
	ret
.Lfunc_end20:
	.size	_RNvXs1_NtNtNtCs00000000001_10pkcs1_tool6proved8der_core3tagNtB5_12PrintedOctetNtNtCs00000000002_4core3fmt7Display3fmt, .Lfunc_end20-_RNvXs1_NtNtNtCs00000000001_10pkcs1_tool6proved8der_core3tagNtB5_12PrintedOctetNtNtCs00000000002_4core3fmt7Display3fmt
	.cfi_endproc

	.section	.text._RNvXs_NtNtNtCs00000000001_10pkcs1_tool6proved12pkcs1_params5errorNtB4_5ErrorNtNtCs00000000002_4core3fmt7Display3fmt,"ax",@progbits
	.p2align	2
	.type	_RNvXs_NtNtNtCs00000000001_10pkcs1_tool6proved12pkcs1_params5errorNtB4_5ErrorNtNtCs00000000002_4core3fmt7Display3fmt,@function
_RNvXs_NtNtNtCs00000000001_10pkcs1_tool6proved12pkcs1_params5errorNtB4_5ErrorNtNtCs00000000002_4core3fmt7Display3fmt:
	.cfi_startproc
	hint	#38
	ldrb	w8, [x0]
	sub	w9, w8, #17
	sub	x8, x8, #16
	cmp	w9, #3
	csel	x8, x8, xzr, lo
	cmp	x8, #1
	b.gt	.LBB21_3
	cbnz	x8, .LBB21_5
	sub	sp, sp, #80
	.cfi_def_cfa_offset 80
	.cfi_offset w30, -16
	ldrh	w8, [x0]
	ldrb	w9, [x0, #2]
	mov	x2, sp
	ldp	x0, x1, [x1, #48]
	strh	w8, [sp, #76]
	add	x8, sp, #76
	strb	w9, [sp, #78]
	adrp	x9, _RNvXs2_NtNtNtCs00000000001_10pkcs1_tool6proved8der_core5errorNtB5_5ErrorNtNtCs00000000002_4core3fmt7Display3fmt
	add	x9, x9, :lo12:_RNvXs2_NtNtNtCs00000000001_10pkcs1_tool6proved8der_core5errorNtB5_5ErrorNtNtCs00000000002_4core3fmt7Display3fmt
	str	x8, [sp, #48]
	adrp	x8, .Lanon.21
	add	x8, x8, :lo12:.Lanon.21
	stp	x9, x30, [sp, #56]
	mov	w9, #1
	stp	x8, x9, [sp]
	add	x8, sp, #48
	stp	x9, xzr, [sp, #24]
	str	x8, [sp, #16]
	bl	_ZN4core3fmt5write17h0000000000000000E
	ldr	x30, [sp, #64]
	add	sp, sp, #80
	.cfi_def_cfa_offset 0
	.cfi_restore w30
	ret
.LBB21_3:
	cmp	x8, #2
	b.ne	.LBB21_6
	ldp	x0, x8, [x1, #48]
	adrp	x1, .Lanon.22
	add	x1, x1, :lo12:.Lanon.22
	mov	w2, #39
	ldr	x3, [x8, #24]
	br	x3
.LBB21_5:
	ldp	x0, x8, [x1, #48]
	adrp	x1, .Lanon.23
	add	x1, x1, :lo12:.Lanon.23
	mov	w2, #26
	ldr	x3, [x8, #24]
	br	x3
.LBB21_6:
	ldp	x0, x8, [x1, #48]
	adrp	x1, .Lanon.24
	add	x1, x1, :lo12:.Lanon.24
	mov	w2, #20
	ldr	x3, [x8, #24]
	br	x3
.Lfunc_end21:
	.size	_RNvXs_NtNtNtCs00000000001_10pkcs1_tool6proved12pkcs1_params5errorNtB4_5ErrorNtNtCs00000000002_4core3fmt7Display3fmt, .Lfunc_end21-_RNvXs_NtNtNtCs00000000001_10pkcs1_tool6proved12pkcs1_params5errorNtB4_5ErrorNtNtCs00000000002_4core3fmt7Display3fmt
	.cfi_endproc

	.section	.text._RINvNtNtNtCs00000000001_10pkcs1_tool6proved12pkcs1_params6fields13prepend_fieldINtNtNtB6_9spki_core20algorithm_identifier21AlgorithmIdentifierOfNtNtB1k_17object_identifier16ObjectIdentifierIB1g_B2i_NtNtB1k_3any6AnyRefEENtNtNtB6_8der_core11back_writer10BackWriterEB8_,"ax",@progbits
	.p2align	2
	.type	_RINvNtNtNtCs00000000001_10pkcs1_tool6proved12pkcs1_params6fields13prepend_fieldINtNtNtB6_9spki_core20algorithm_identifier21AlgorithmIdentifierOfNtNtB1k_17object_identifier16ObjectIdentifierIB1g_B2i_NtNtB1k_3any6AnyRefEENtNtNtB6_8der_core11back_writer10BackWriterEB8_,@function
_RINvNtNtNtCs00000000001_10pkcs1_tool6proved12pkcs1_params6fields13prepend_fieldINtNtNtB6_9spki_core20algorithm_identifier21AlgorithmIdentifierOfNtNtB1k_17object_identifier16ObjectIdentifierIB1g_B2i_NtNtB1k_3any6AnyRefEENtNtNtB6_8der_core11back_writer10BackWriterEB8_:
	.cfi_startproc
	hint	#38
	str	x30, [sp, #-96]!
	.cfi_def_cfa_offset 96
	stp	x28, x27, [sp, #16]
	stp	x26, x25, [sp, #32]
	stp	x24, x23, [sp, #48]
	stp	x22, x21, [sp, #64]
	stp	x20, x19, [sp, #80]
	.cfi_offset w19, -8
	.cfi_offset w20, -16
	.cfi_offset w21, -24
	.cfi_offset w22, -32
	.cfi_offset w23, -40
	.cfi_offset w24, -48
	.cfi_offset w25, -56
	.cfi_offset w26, -64
	.cfi_offset w27, -72
	.cfi_offset w28, -80
	.cfi_offset w30, -96
	.cfi_remember_state
	ldrb	w20, [x0, #111]
	cmp	x20, #40
	b.hs	.LBB22_131
	ldp	x24, x25, [x1, #8]
	mov	x21, x0
	ldr	w8, [x0]
	mov	x19, x1
	tbz	w8, #0, .LBB22_11
	ldrb	w22, [x21, #47]
	cmp	x22, #40
	b.hs	.LBB22_132
	ldr	x1, [x21, #48]
	ldr	x23, [x19]
	cbz	x1, .LBB22_16
	ldr	x2, [x21, #56]
	mov	x27, x25
	subs	x26, x25, x2
	b.lo	.LBB22_7
	cmp	x25, x24
	b.hi	.LBB22_130
	add	x0, x23, x26
	bl	memcpy
	mov	x27, x26
.LBB22_7:
	sub	x8, x25, x27
	ldr	x9, [x21, #64]
	str	x27, [x19, #16]
	cmp	w8, #128
	b.hs	.LBB22_21
	subs	x10, x27, #2
	b.lo	.LBB22_36
	cmp	x27, x24
	b.hi	.LBB22_130
	bfi	w9, w8, #8, #24
	mov	x27, x10
	strh	w9, [x23, x10]
	b	.LBB22_36
.LBB22_11:
	ldr	x23, [x19]
	mov	x26, x25
	subs	x22, x25, x20
	mov	x8, x26
	b.hs	.LBB22_74
.LBB22_12:
	add	x9, x24, x8
	sub	x9, x26, x9
	add	x9, x9, x24
	cmp	w9, #128
	b.hs	.LBB22_76
.LBB22_13:
	subs	x10, x8, #2
	b.lo	.LBB22_91
	cmp	x8, x24
	b.hi	.LBB22_130
	mov	w8, #6
	orr	w8, w8, w9, lsl #8
	strh	w8, [x23, x10]
	mov	x8, x10
	b	.LBB22_91
.LBB22_16:
	mov	x27, x25
	subs	x28, x25, x22
	mov	x26, x27
	b.hs	.LBB22_37
.LBB22_17:
	add	x8, x24, x26
	str	x26, [x19, #16]
	sub	x8, x27, x8
	add	x8, x8, x24
	cmp	w8, #128
	b.hs	.LBB22_39
.LBB22_18:
	subs	x9, x26, #2
	b.lo	.LBB22_54
	cmp	x26, x24
	b.hi	.LBB22_130
	mov	w10, #6
	mov	x26, x9
	orr	w8, w10, w8, lsl #8
	strh	w8, [x23, x9]
	b	.LBB22_54
.LBB22_21:
	cmp	w8, #256
	b.hs	.LBB22_25
	subs	x10, x27, #3
	b.lo	.LBB22_36
	cmp	x27, x24
	b.hi	.LBB22_130
	add	x11, x23, x10
	mov	w12, #129
	mov	x27, x10
	strb	w9, [x11]
	strb	w12, [x11, #1]
	strb	w8, [x11, #2]
	b	.LBB22_36
.LBB22_25:
	cmp	w8, #16, lsl #12
	b.hs	.LBB22_29
	subs	x10, x27, #4
	b.lo	.LBB22_36
	cmp	x27, x24
	b.hi	.LBB22_130
	mov	w11, #8519680
	and	w9, w9, #0xff
	mov	x27, x10
	orr	w8, w8, w11
	rev	w8, w8
	orr	w8, w8, w9
	str	w8, [x23, x10]
	b	.LBB22_36
.LBB22_29:
	lsr	w10, w8, #24
	cbnz	w10, .LBB22_33
	subs	x10, x27, #5
	b.lo	.LBB22_36
	cmp	x27, x24
	b.hi	.LBB22_130
	add	x11, x23, x10
	lsr	x12, x8, #16
	mov	w13, #131
	strb	w9, [x11]
	lsr	x9, x8, #8
	mov	x27, x10
	strb	w13, [x11, #1]
	strb	w12, [x11, #2]
	strb	w9, [x11, #3]
	strb	w8, [x11, #4]
	b	.LBB22_36
.LBB22_33:
	subs	x10, x27, #6
	b.lo	.LBB22_36
	cmp	x27, x24
	b.hi	.LBB22_130
	add	x11, x23, x10
	mov	w13, #132
	lsr	x12, x8, #24
	strb	w9, [x11]
	lsr	x9, x8, #16
	mov	x27, x10
	strb	w13, [x11, #1]
	lsr	x13, x8, #8
	strb	w12, [x11, #2]
	strb	w9, [x11, #3]
	strb	w13, [x11, #4]
	strb	w8, [x11, #5]
.LBB22_36:
	str	x27, [x19, #16]
	subs	x28, x27, x22
	mov	x26, x27
	b.lo	.LBB22_17
.LBB22_37:
	cmp	x27, x24
	b.hi	.LBB22_130
	add	x0, x23, x28
	add	x1, x21, #8
	mov	x2, x22
	bl	memcpy
	mov	x26, x28
	add	x8, x24, x28
	str	x28, [x19, #16]
	sub	x8, x27, x8
	add	x8, x8, x24
	cmp	w8, #128
	b.lo	.LBB22_18
.LBB22_39:
	cmp	w8, #256
	b.hs	.LBB22_43
	subs	x9, x26, #3
	b.lo	.LBB22_54
	cmp	x26, x24
	b.hi	.LBB22_130
	add	x10, x23, x9
	mov	w11, #33030
	mov	x26, x9
	strh	w11, [x10]
	strb	w8, [x10, #2]
	b	.LBB22_54
.LBB22_43:
	cmp	w8, #16, lsl #12
	b.hs	.LBB22_47
	subs	x9, x26, #4
	b.lo	.LBB22_54
	cmp	x26, x24
	b.hi	.LBB22_130
	mov	w10, #109182976
	mov	x26, x9
	orr	w8, w8, w10
	rev	w8, w8
	str	w8, [x23, x9]
	b	.LBB22_54
.LBB22_47:
	lsr	w9, w8, #24
	cbnz	w9, .LBB22_51
	subs	x9, x26, #5
	b.lo	.LBB22_54
	cmp	x26, x24
	b.hi	.LBB22_130
	lsr	x10, x8, #16
	lsr	x13, x8, #8
	add	x11, x23, x9
	mov	w12, #33542
	mov	x26, x9
	strb	w8, [x11, #4]
	strh	w12, [x11]
	strb	w10, [x11, #2]
	strb	w13, [x11, #3]
	b	.LBB22_54
.LBB22_51:
	subs	x9, x26, #6
	b.lo	.LBB22_54
	cmp	x26, x24
	b.hi	.LBB22_130
	add	x11, x23, x9
	mov	w12, #33798
	lsr	x10, x8, #24
	lsr	x13, x8, #16
	strh	w12, [x11]
	lsr	x12, x8, #8
	strb	w10, [x11, #2]
	mov	x26, x9
	strb	w13, [x11, #3]
	strb	w12, [x11, #4]
	strb	w8, [x11, #5]
.LBB22_54:
	sub	x8, x25, x26
	str	x26, [x19, #16]
	cmp	w8, #128
	b.hs	.LBB22_58
	subs	x9, x26, #2
	b.lo	.LBB22_73
	cmp	x26, x24
	b.hi	.LBB22_130
	mov	w10, #48
	mov	x26, x9
	orr	w8, w10, w8, lsl #8
	strh	w8, [x23, x9]
	b	.LBB22_73
.LBB22_58:
	cmp	w8, #256
	b.hs	.LBB22_62
	subs	x9, x26, #3
	b.lo	.LBB22_73
	cmp	x26, x24
	b.hi	.LBB22_130
	add	x10, x23, x9
	mov	w11, #33072
	mov	x26, x9
	strh	w11, [x10]
	strb	w8, [x10, #2]
	b	.LBB22_73
.LBB22_62:
	cmp	w8, #16, lsl #12
	b.hs	.LBB22_66
	subs	x9, x26, #4
	b.lo	.LBB22_73
	cmp	x26, x24
	b.hi	.LBB22_130
	mov	w10, #813826048
	mov	x26, x9
	orr	w8, w8, w10
	rev	w8, w8
	str	w8, [x23, x9]
	b	.LBB22_73
.LBB22_66:
	lsr	w9, w8, #24
	cbnz	w9, .LBB22_70
	subs	x9, x26, #5
	b.lo	.LBB22_73
	cmp	x26, x24
	b.hi	.LBB22_130
	lsr	x10, x8, #16
	lsr	x13, x8, #8
	add	x11, x23, x9
	mov	w12, #33584
	mov	x26, x9
	strb	w8, [x11, #4]
	strh	w12, [x11]
	strb	w10, [x11, #2]
	strb	w13, [x11, #3]
	b	.LBB22_73
.LBB22_70:
	subs	x9, x26, #6
	b.lo	.LBB22_73
	cmp	x26, x24
	b.hi	.LBB22_130
	add	x11, x23, x9
	mov	w12, #33840
	lsr	x10, x8, #24
	lsr	x13, x8, #16
	strh	w12, [x11]
	lsr	x12, x8, #8
	strb	w10, [x11, #2]
	mov	x26, x9
	strb	w13, [x11, #3]
	strb	w12, [x11, #4]
	strb	w8, [x11, #5]
.LBB22_73:
	str	x26, [x19, #16]
	subs	x22, x26, x20
	mov	x8, x26
	b.lo	.LBB22_12
.LBB22_74:
	cmp	x26, x24
	b.hi	.LBB22_130
	add	x0, x23, x22
	add	x1, x21, #72
	mov	x2, x20
	bl	memcpy
	mov	x8, x22
	add	x9, x24, x22
	sub	x9, x26, x9
	add	x9, x9, x24
	cmp	w9, #128
	b.lo	.LBB22_13
.LBB22_76:
	cmp	w9, #256
	b.hs	.LBB22_80
	subs	x10, x8, #3
	b.lo	.LBB22_91
	cmp	x8, x24
	b.hi	.LBB22_130
	add	x8, x23, x10
	mov	w11, #33030
	strh	w11, [x8]
	strb	w9, [x8, #2]
	mov	x8, x10
	b	.LBB22_91
.LBB22_80:
	cmp	w9, #16, lsl #12
	b.hs	.LBB22_84
	subs	x10, x8, #4
	b.lo	.LBB22_91
	cmp	x8, x24
	b.hi	.LBB22_130
	mov	w8, #109182976
	orr	w8, w9, w8
	rev	w8, w8
	str	w8, [x23, x10]
	mov	x8, x10
	b	.LBB22_91
.LBB22_84:
	lsr	w10, w9, #24
	cbnz	w10, .LBB22_88
	subs	x10, x8, #5
	b.lo	.LBB22_91
	cmp	x8, x24
	b.hi	.LBB22_130
	lsr	x8, x9, #16
	add	x11, x23, x10
	lsr	x13, x9, #8
	mov	w12, #33542
	strb	w9, [x11, #4]
	strb	w8, [x11, #2]
	mov	x8, x10
	strh	w12, [x11]
	strb	w13, [x11, #3]
	b	.LBB22_91
.LBB22_88:
	subs	x10, x8, #6
	b.lo	.LBB22_91
	cmp	x8, x24
	b.hi	.LBB22_130
	add	x11, x23, x10
	mov	w12, #33798
	lsr	x8, x9, #24
	lsr	x13, x9, #16
	strh	w12, [x11]
	lsr	x12, x9, #8
	strb	w8, [x11, #2]
	mov	x8, x10
	strb	w13, [x11, #3]
	strb	w12, [x11, #4]
	strb	w9, [x11, #5]
.LBB22_91:
	sub	x9, x25, x8
	str	x8, [x19, #16]
	cmp	w9, #128
	b.hs	.LBB22_95
	subs	x10, x8, #2
	b.lo	.LBB22_110
	cmp	x8, x24
	b.hi	.LBB22_130
	mov	w8, #48
	orr	w8, w8, w9, lsl #8
	strh	w8, [x23, x10]
	mov	x8, x10
	b	.LBB22_110
.LBB22_95:
	cmp	w9, #256
	b.hs	.LBB22_99
	subs	x10, x8, #3
	b.lo	.LBB22_110
	cmp	x8, x24
	b.hi	.LBB22_130
	add	x8, x23, x10
	mov	w11, #33072
	strh	w11, [x8]
	strb	w9, [x8, #2]
	mov	x8, x10
	b	.LBB22_110
.LBB22_99:
	cmp	w9, #16, lsl #12
	b.hs	.LBB22_103
	subs	x10, x8, #4
	b.lo	.LBB22_110
	cmp	x8, x24
	b.hi	.LBB22_130
	mov	w8, #813826048
	orr	w8, w9, w8
	rev	w8, w8
	str	w8, [x23, x10]
	mov	x8, x10
	b	.LBB22_110
.LBB22_103:
	lsr	w10, w9, #24
	cbnz	w10, .LBB22_107
	subs	x10, x8, #5
	b.lo	.LBB22_110
	cmp	x8, x24
	b.hi	.LBB22_130
	lsr	x8, x9, #16
	add	x11, x23, x10
	lsr	x13, x9, #8
	mov	w12, #33584
	strb	w9, [x11, #4]
	strb	w8, [x11, #2]
	mov	x8, x10
	strh	w12, [x11]
	strb	w13, [x11, #3]
	b	.LBB22_110
.LBB22_107:
	subs	x10, x8, #6
	b.lo	.LBB22_110
	cmp	x8, x24
	b.hi	.LBB22_130
	add	x11, x23, x10
	mov	w12, #33840
	lsr	x8, x9, #24
	lsr	x13, x9, #16
	strh	w12, [x11]
	lsr	x12, x9, #8
	strb	w8, [x11, #2]
	mov	x8, x10
	strb	w13, [x11, #3]
	strb	w12, [x11, #4]
	strb	w9, [x11, #5]
.LBB22_110:
	sub	x9, x25, x8
	cmp	w9, #128
	b.hs	.LBB22_114
	subs	x10, x8, #2
	b.lo	.LBB22_129
	cmp	x8, x24
	b.hi	.LBB22_130
	mov	w8, #161
	orr	w8, w8, w9, lsl #8
	strh	w8, [x23, x10]
	mov	x8, x10
	b	.LBB22_129
.LBB22_114:
	cmp	w9, #256
	b.hs	.LBB22_118
	subs	x10, x8, #3
	b.lo	.LBB22_129
	cmp	x8, x24
	b.hi	.LBB22_130
	add	x8, x23, x10
	mov	w11, #33185
	strh	w11, [x8]
	strb	w9, [x8, #2]
	mov	x8, x10
	b	.LBB22_129
.LBB22_118:
	cmp	w9, #16, lsl #12
	b.hs	.LBB22_122
	subs	x10, x8, #4
	b.lo	.LBB22_129
	cmp	x8, x24
	b.hi	.LBB22_130
	mov	w8, #-1585315840
	orr	w8, w9, w8
	rev	w8, w8
	str	w8, [x23, x10]
	mov	x8, x10
	b	.LBB22_129
.LBB22_122:
	lsr	w10, w9, #24
	cbnz	w10, .LBB22_126
	subs	x10, x8, #5
	b.lo	.LBB22_129
	cmp	x8, x24
	b.hi	.LBB22_130
	lsr	x8, x9, #16
	add	x11, x23, x10
	lsr	x13, x9, #8
	mov	w12, #33697
	strb	w9, [x11, #4]
	strb	w8, [x11, #2]
	mov	x8, x10
	strh	w12, [x11]
	strb	w13, [x11, #3]
	b	.LBB22_129
.LBB22_126:
	subs	x10, x8, #6
	b.lo	.LBB22_129
	cmp	x8, x24
	b.hi	.LBB22_130
	add	x11, x23, x10
	mov	w12, #33953
	lsr	x8, x9, #24
	lsr	x13, x9, #16
	strh	w12, [x11]
	lsr	x12, x9, #8
	strb	w8, [x11, #2]
	mov	x8, x10
	strb	w13, [x11, #3]
	strb	w12, [x11, #4]
	strb	w9, [x11, #5]
.LBB22_129:
	str	x8, [x19, #16]
	ldp	x20, x19, [sp, #80]
	ldp	x22, x21, [sp, #64]
	ldp	x24, x23, [sp, #48]
	ldp	x26, x25, [sp, #32]
	ldp	x28, x27, [sp, #16]
	ldr	x30, [sp], #96
	.cfi_def_cfa_offset 0
	.cfi_restore w19
	.cfi_restore w20
	.cfi_restore w21
	.cfi_restore w22
	.cfi_restore w23
	.cfi_restore w24
	.cfi_restore w25
	.cfi_restore w26
	.cfi_restore w27
	.cfi_restore w28
	.cfi_restore w30
	ret
.LBB22_130:
	.cfi_restore_state
	brk	#0x1
.LBB22_131:
	mov	x0, x20
	mov	w1, #39
	brk	#0x1
.LBB22_132:
	mov	x0, x22
	mov	w1, #39
	brk	#0x1
.Lfunc_end22:
	.size	_RINvNtNtNtCs00000000001_10pkcs1_tool6proved12pkcs1_params6fields13prepend_fieldINtNtNtB6_9spki_core20algorithm_identifier21AlgorithmIdentifierOfNtNtB1k_17object_identifier16ObjectIdentifierIB1g_B2i_NtNtB1k_3any6AnyRefEENtNtNtB6_8der_core11back_writer10BackWriterEB8_, .Lfunc_end22-_RINvNtNtNtCs00000000001_10pkcs1_tool6proved12pkcs1_params6fields13prepend_fieldINtNtNtB6_9spki_core20algorithm_identifier21AlgorithmIdentifierOfNtNtB1k_17object_identifier16ObjectIdentifierIB1g_B2i_NtNtB1k_3any6AnyRefEENtNtNtB6_8der_core11back_writer10BackWriterEB8_
	.cfi_endproc

	.section	.text._RINvNtNtNtCs00000000001_10pkcs1_tool6proved12pkcs1_params6fields13prepend_fieldINtNtNtB6_9spki_core20algorithm_identifier21AlgorithmIdentifierOfNtNtB1k_17object_identifier16ObjectIdentifierIB1g_B2i_NtNtB1k_3any6AnyRefEENtNtNtB6_8der_core7counter7CounterEB8_,"ax",@progbits
	.p2align	2
	.type	_RINvNtNtNtCs00000000001_10pkcs1_tool6proved12pkcs1_params6fields13prepend_fieldINtNtNtB6_9spki_core20algorithm_identifier21AlgorithmIdentifierOfNtNtB1k_17object_identifier16ObjectIdentifierIB1g_B2i_NtNtB1k_3any6AnyRefEENtNtNtB6_8der_core7counter7CounterEB8_,@function
_RINvNtNtNtCs00000000001_10pkcs1_tool6proved12pkcs1_params6fields13prepend_fieldINtNtNtB6_9spki_core20algorithm_identifier21AlgorithmIdentifierOfNtNtB1k_17object_identifier16ObjectIdentifierIB1g_B2i_NtNtB1k_3any6AnyRefEENtNtNtB6_8der_core7counter7CounterEB8_:
	.cfi_startproc
	hint	#38
	str	x30, [sp, #-16]!
	.cfi_def_cfa_offset 16
	.cfi_offset w30, -16
	.cfi_remember_state
	mov	x9, x0
	ldrb	w0, [x0, #111]
	cmp	x0, #40
	b.hs	.LBB23_21
	ldr	w8, [x9]
	ldr	x10, [x1]
	cmp	w8, #1
	b.ne	.LBB23_6
	ldrb	w8, [x9, #47]
	cmp	x8, #40
	b.hs	.LBB23_22
	ldr	x12, [x9, #48]
	mov	x11, x10
	cbz	x12, .LBB23_12
	ldr	x9, [x9, #56]
	adds	x9, x10, x9
	csinv	x9, x9, xzr, lo
	subs	x9, x9, x10
	csel	x9, xzr, x9, lo
	cmp	x9, #128
	b.hs	.LBB23_10
	add	x9, x9, #2
	b	.LBB23_11
.LBB23_6:
	mov	x8, x10
	adds	x9, x10, x0
	csinv	x9, x9, xzr, lo
	subs	x9, x9, x10
	csel	x9, xzr, x9, lo
	cmp	x9, #128
	b.hs	.LBB23_18
.LBB23_7:
	add	x9, x9, #2
	adds	x8, x8, x9
	csinv	x8, x8, xzr, lo
	subs	x8, x8, x10
	csel	x8, xzr, x8, lo
	cmp	x8, #128
	b.lo	.LBB23_19
.LBB23_8:
	lsr	x9, x8, #24
	adds	x11, x8, #6
	add	x12, x8, #5
	csinv	x11, x11, xzr, lo
	cmp	x9, #0
	add	x9, x8, #4
	csel	x11, x12, x11, eq
	cmp	x8, #16, lsl #12
	add	x12, x8, #3
	csel	x9, x9, x11, lo
	cmp	x8, #256
	csel	x8, x12, x9, lo
	adds	x8, x10, x8
	csinv	x8, x8, xzr, lo
	subs	x8, x8, x10
	csel	x8, xzr, x8, lo
	cmp	x8, #128
	b.lo	.LBB23_20
.LBB23_9:
	lsr	x9, x8, #24
	adds	x11, x8, #6
	add	x12, x8, #5
	csinv	x11, x11, xzr, lo
	cmp	x9, #0
	add	x9, x8, #4
	csel	x11, x12, x11, eq
	cmp	x8, #16, lsl #12
	add	x12, x8, #3
	csel	x9, x9, x11, lo
	cmp	x8, #256
	csel	x8, x12, x9, lo
	adds	x8, x10, x8
	csinv	x8, x8, xzr, lo
	str	x8, [x1]
	ldr	x30, [sp], #16
	.cfi_def_cfa_offset 0
	.cfi_restore w30
	ret
.LBB23_10:
	.cfi_restore_state
	.cfi_remember_state
	lsr	x11, x9, #24
	adds	x12, x9, #6
	add	x13, x9, #5
	csinv	x12, x12, xzr, lo
	cmp	x11, #0
	add	x11, x9, #4
	csel	x12, x13, x12, eq
	cmp	x9, #16, lsl #12
	add	x13, x9, #3
	csel	x11, x11, x12, lo
	cmp	x9, #256
	csel	x9, x13, x11, lo
.LBB23_11:
	adds	x9, x10, x9
	csinv	x11, x9, xzr, lo
.LBB23_12:
	adds	x8, x11, x8
	csinv	x8, x8, xzr, lo
	subs	x8, x8, x11
	csel	x8, xzr, x8, lo
	cmp	x8, #128
	b.hs	.LBB23_15
	add	x8, x8, #2
	adds	x8, x11, x8
	csinv	x8, x8, xzr, lo
	subs	x8, x8, x10
	csel	x8, xzr, x8, lo
	cmp	x8, #128
	b.lo	.LBB23_16
.LBB23_14:
	lsr	x9, x8, #24
	adds	x11, x8, #6
	add	x12, x8, #5
	csinv	x11, x11, xzr, lo
	cmp	x9, #0
	add	x9, x8, #4
	csel	x11, x12, x11, eq
	cmp	x8, #16, lsl #12
	add	x12, x8, #3
	csel	x9, x9, x11, lo
	cmp	x8, #256
	csel	x8, x12, x9, lo
	b	.LBB23_17
.LBB23_15:
	lsr	x9, x8, #24
	adds	x12, x8, #6
	add	x13, x8, #5
	csinv	x12, x12, xzr, lo
	cmp	x9, #0
	add	x9, x8, #4
	csel	x12, x13, x12, eq
	cmp	x8, #16, lsl #12
	add	x13, x8, #3
	csel	x9, x9, x12, lo
	cmp	x8, #256
	csel	x8, x13, x9, lo
	adds	x8, x11, x8
	csinv	x8, x8, xzr, lo
	subs	x8, x8, x10
	csel	x8, xzr, x8, lo
	cmp	x8, #128
	b.hs	.LBB23_14
.LBB23_16:
	add	x8, x8, #2
.LBB23_17:
	adds	x8, x10, x8
	csinv	x8, x8, xzr, lo
	adds	x9, x8, x0
	csinv	x9, x9, xzr, lo
	subs	x9, x9, x8
	csel	x9, xzr, x9, lo
	cmp	x9, #128
	b.lo	.LBB23_7
.LBB23_18:
	lsr	x11, x9, #24
	adds	x12, x9, #6
	add	x13, x9, #5
	csinv	x12, x12, xzr, lo
	cmp	x11, #0
	add	x11, x9, #4
	csel	x12, x13, x12, eq
	cmp	x9, #16, lsl #12
	add	x13, x9, #3
	csel	x11, x11, x12, lo
	cmp	x9, #256
	csel	x9, x13, x11, lo
	adds	x8, x8, x9
	csinv	x8, x8, xzr, lo
	subs	x8, x8, x10
	csel	x8, xzr, x8, lo
	cmp	x8, #128
	b.hs	.LBB23_8
.LBB23_19:
	add	x8, x8, #2
	adds	x8, x10, x8
	csinv	x8, x8, xzr, lo
	subs	x8, x8, x10
	csel	x8, xzr, x8, lo
	cmp	x8, #128
	b.hs	.LBB23_9
.LBB23_20:
	add	x8, x8, #2
	adds	x8, x10, x8
	csinv	x8, x8, xzr, lo
	str	x8, [x1]
	ldr	x30, [sp], #16
	.cfi_def_cfa_offset 0
	.cfi_restore w30
	ret
.LBB23_21:
	.cfi_restore_state
	mov	w1, #39
	brk	#0x1
.LBB23_22:
	mov	x0, x8
	mov	w1, #39
	brk	#0x1
.Lfunc_end23:
	.size	_RINvNtNtNtCs00000000001_10pkcs1_tool6proved12pkcs1_params6fields13prepend_fieldINtNtNtB6_9spki_core20algorithm_identifier21AlgorithmIdentifierOfNtNtB1k_17object_identifier16ObjectIdentifierIB1g_B2i_NtNtB1k_3any6AnyRefEENtNtNtB6_8der_core7counter7CounterEB8_, .Lfunc_end23-_RINvNtNtNtCs00000000001_10pkcs1_tool6proved12pkcs1_params6fields13prepend_fieldINtNtNtB6_9spki_core20algorithm_identifier21AlgorithmIdentifierOfNtNtB1k_17object_identifier16ObjectIdentifierIB1g_B2i_NtNtB1k_3any6AnyRefEENtNtNtB6_8der_core7counter7CounterEB8_
	.cfi_endproc

	.section	.text._RINvNtNtNtCs00000000001_10pkcs1_tool6proved12pkcs1_params6fields13prepend_fieldINtNtNtB6_9spki_core20algorithm_identifier21AlgorithmIdentifierOfNtNtB1k_17object_identifier16ObjectIdentifierNtNtB1k_3any6AnyRefENtNtNtB6_8der_core11back_writer10BackWriterEB8_,"ax",@progbits
	.p2align	2
	.type	_RINvNtNtNtCs00000000001_10pkcs1_tool6proved12pkcs1_params6fields13prepend_fieldINtNtNtB6_9spki_core20algorithm_identifier21AlgorithmIdentifierOfNtNtB1k_17object_identifier16ObjectIdentifierNtNtB1k_3any6AnyRefENtNtNtB6_8der_core11back_writer10BackWriterEB8_,@function
_RINvNtNtNtCs00000000001_10pkcs1_tool6proved12pkcs1_params6fields13prepend_fieldINtNtNtB6_9spki_core20algorithm_identifier21AlgorithmIdentifierOfNtNtB1k_17object_identifier16ObjectIdentifierNtNtB1k_3any6AnyRefENtNtNtB6_8der_core11back_writer10BackWriterEB8_:
	.cfi_startproc
	hint	#38
	str	x30, [sp, #-80]!
	.cfi_def_cfa_offset 80
	stp	x26, x25, [sp, #16]
	stp	x24, x23, [sp, #32]
	stp	x22, x21, [sp, #48]
	stp	x20, x19, [sp, #64]
	.cfi_offset w19, -8
	.cfi_offset w20, -16
	.cfi_offset w21, -24
	.cfi_offset w22, -32
	.cfi_offset w23, -40
	.cfi_offset w24, -48
	.cfi_offset w25, -56
	.cfi_offset w26, -64
	.cfi_offset w30, -80
	.cfi_remember_state
	ldrb	w21, [x1, #39]
	cmp	x21, #40
	b.hs	.LBB24_87
	ldp	x23, x24, [x2, #8]
	mov	x19, x2
	ldr	x8, [x1, #40]
	ldr	x22, [x2]
	mov	w20, w0
	cbz	x8, .LBB24_9
	ldr	x2, [x1, #48]
	mov	x25, x24
	subs	x26, x24, x2
	b.lo	.LBB24_5
	cmp	x24, x23
	b.hi	.LBB24_86
	add	x0, x22, x26
	mov	x25, x1
	mov	x1, x8
	bl	memcpy
	mov	x1, x25
	mov	x25, x26
.LBB24_5:
	sub	x8, x24, x25
	ldr	x9, [x1, #56]
	str	x25, [x19, #16]
	cmp	w8, #128
	b.hs	.LBB24_14
	subs	x10, x25, #2
	b.lo	.LBB24_29
	cmp	x25, x23
	b.hi	.LBB24_86
	bfi	w9, w8, #8, #24
	mov	x25, x10
	strh	w9, [x22, x10]
	b	.LBB24_29
.LBB24_9:
	mov	x25, x24
	subs	x26, x24, x21
	mov	x8, x25
	b.hs	.LBB24_30
.LBB24_10:
	add	x9, x23, x8
	sub	x9, x25, x9
	add	x9, x9, x23
	cmp	w9, #128
	b.hs	.LBB24_32
.LBB24_11:
	subs	x10, x8, #2
	b.lo	.LBB24_47
	cmp	x8, x23
	b.hi	.LBB24_86
	mov	w8, #6
	orr	w8, w8, w9, lsl #8
	strh	w8, [x22, x10]
	mov	x8, x10
	b	.LBB24_47
.LBB24_14:
	cmp	w8, #256
	b.hs	.LBB24_18
	subs	x10, x25, #3
	b.lo	.LBB24_29
	cmp	x25, x23
	b.hi	.LBB24_86
	add	x11, x22, x10
	mov	w12, #129
	mov	x25, x10
	strb	w9, [x11]
	strb	w12, [x11, #1]
	strb	w8, [x11, #2]
	b	.LBB24_29
.LBB24_18:
	cmp	w8, #16, lsl #12
	b.hs	.LBB24_22
	subs	x10, x25, #4
	b.lo	.LBB24_29
	cmp	x25, x23
	b.hi	.LBB24_86
	mov	w11, #8519680
	and	w9, w9, #0xff
	mov	x25, x10
	orr	w8, w8, w11
	rev	w8, w8
	orr	w8, w8, w9
	str	w8, [x22, x10]
	b	.LBB24_29
.LBB24_22:
	lsr	w10, w8, #24
	cbnz	w10, .LBB24_26
	subs	x10, x25, #5
	b.lo	.LBB24_29
	cmp	x25, x23
	b.hi	.LBB24_86
	add	x11, x22, x10
	lsr	x12, x8, #16
	mov	w13, #131
	strb	w9, [x11]
	lsr	x9, x8, #8
	mov	x25, x10
	strb	w13, [x11, #1]
	strb	w12, [x11, #2]
	strb	w9, [x11, #3]
	strb	w8, [x11, #4]
	b	.LBB24_29
.LBB24_26:
	subs	x10, x25, #6
	b.lo	.LBB24_29
	cmp	x25, x23
	b.hi	.LBB24_86
	add	x11, x22, x10
	mov	w13, #132
	lsr	x12, x8, #24
	strb	w9, [x11]
	lsr	x9, x8, #16
	mov	x25, x10
	strb	w13, [x11, #1]
	lsr	x13, x8, #8
	strb	w12, [x11, #2]
	strb	w9, [x11, #3]
	strb	w13, [x11, #4]
	strb	w8, [x11, #5]
.LBB24_29:
	str	x25, [x19, #16]
	subs	x26, x25, x21
	mov	x8, x25
	b.lo	.LBB24_10
.LBB24_30:
	cmp	x25, x23
	b.hi	.LBB24_86
	add	x0, x22, x26
	mov	x2, x21
	bl	memcpy
	mov	x8, x26
	add	x9, x23, x26
	sub	x9, x25, x9
	add	x9, x9, x23
	cmp	w9, #128
	b.lo	.LBB24_11
.LBB24_32:
	cmp	w9, #256
	b.hs	.LBB24_36
	subs	x10, x8, #3
	b.lo	.LBB24_47
	cmp	x8, x23
	b.hi	.LBB24_86
	add	x8, x22, x10
	mov	w11, #33030
	strh	w11, [x8]
	strb	w9, [x8, #2]
	mov	x8, x10
	b	.LBB24_47
.LBB24_36:
	cmp	w9, #16, lsl #12
	b.hs	.LBB24_40
	subs	x10, x8, #4
	b.lo	.LBB24_47
	cmp	x8, x23
	b.hi	.LBB24_86
	mov	w8, #109182976
	orr	w8, w9, w8
	rev	w8, w8
	str	w8, [x22, x10]
	mov	x8, x10
	b	.LBB24_47
.LBB24_40:
	lsr	w10, w9, #24
	cbnz	w10, .LBB24_44
	subs	x10, x8, #5
	b.lo	.LBB24_47
	cmp	x8, x23
	b.hi	.LBB24_86
	lsr	x8, x9, #16
	add	x11, x22, x10
	lsr	x13, x9, #8
	mov	w12, #33542
	strb	w9, [x11, #4]
	strb	w8, [x11, #2]
	mov	x8, x10
	strh	w12, [x11]
	strb	w13, [x11, #3]
	b	.LBB24_47
.LBB24_44:
	subs	x10, x8, #6
	b.lo	.LBB24_47
	cmp	x8, x23
	b.hi	.LBB24_86
	add	x11, x22, x10
	mov	w12, #33798
	lsr	x8, x9, #24
	lsr	x13, x9, #16
	strh	w12, [x11]
	lsr	x12, x9, #8
	strb	w8, [x11, #2]
	mov	x8, x10
	strb	w13, [x11, #3]
	strb	w12, [x11, #4]
	strb	w9, [x11, #5]
.LBB24_47:
	sub	x9, x24, x8
	str	x8, [x19, #16]
	cmp	w9, #128
	b.hs	.LBB24_51
	subs	x10, x8, #2
	b.lo	.LBB24_66
	cmp	x8, x23
	b.hi	.LBB24_86
	mov	w8, #48
	orr	w8, w8, w9, lsl #8
	strh	w8, [x22, x10]
	mov	x8, x10
	b	.LBB24_66
.LBB24_51:
	cmp	w9, #256
	b.hs	.LBB24_55
	subs	x10, x8, #3
	b.lo	.LBB24_66
	cmp	x8, x23
	b.hi	.LBB24_86
	add	x8, x22, x10
	mov	w11, #33072
	strh	w11, [x8]
	strb	w9, [x8, #2]
	mov	x8, x10
	b	.LBB24_66
.LBB24_55:
	cmp	w9, #16, lsl #12
	b.hs	.LBB24_59
	subs	x10, x8, #4
	b.lo	.LBB24_66
	cmp	x8, x23
	b.hi	.LBB24_86
	mov	w8, #813826048
	orr	w8, w9, w8
	rev	w8, w8
	str	w8, [x22, x10]
	mov	x8, x10
	b	.LBB24_66
.LBB24_59:
	lsr	w10, w9, #24
	cbnz	w10, .LBB24_63
	subs	x10, x8, #5
	b.lo	.LBB24_66
	cmp	x8, x23
	b.hi	.LBB24_86
	lsr	x8, x9, #16
	add	x11, x22, x10
	lsr	x13, x9, #8
	mov	w12, #33584
	strb	w9, [x11, #4]
	strb	w8, [x11, #2]
	mov	x8, x10
	strh	w12, [x11]
	strb	w13, [x11, #3]
	b	.LBB24_66
.LBB24_63:
	subs	x10, x8, #6
	b.lo	.LBB24_66
	cmp	x8, x23
	b.hi	.LBB24_86
	add	x11, x22, x10
	mov	w12, #33840
	lsr	x8, x9, #24
	lsr	x13, x9, #16
	strh	w12, [x11]
	lsr	x12, x9, #8
	strb	w8, [x11, #2]
	mov	x8, x10
	strb	w13, [x11, #3]
	strb	w12, [x11, #4]
	strb	w9, [x11, #5]
.LBB24_66:
	sub	x9, x24, x8
	sub	w10, w20, #96
	cmp	w9, #128
	b.hs	.LBB24_70
	subs	x11, x8, #2
	b.lo	.LBB24_85
	cmp	x8, x23
	b.hi	.LBB24_86
	bfi	w10, w9, #8, #24
	mov	x8, x11
	strh	w10, [x22, x11]
	b	.LBB24_85
.LBB24_70:
	cmp	w9, #256
	b.hs	.LBB24_74
	subs	x11, x8, #3
	b.lo	.LBB24_85
	cmp	x8, x23
	b.hi	.LBB24_86
	add	x12, x22, x11
	mov	w8, #129
	strb	w10, [x12]
	strb	w8, [x12, #1]
	mov	x8, x11
	strb	w9, [x12, #2]
	b	.LBB24_85
.LBB24_74:
	cmp	w9, #16, lsl #12
	b.hs	.LBB24_78
	subs	x11, x8, #4
	b.lo	.LBB24_85
	cmp	x8, x23
	b.hi	.LBB24_86
	mov	w8, #8519680
	orr	w8, w9, w8
	and	w9, w10, #0xff
	rev	w8, w8
	orr	w8, w8, w9
	str	w8, [x22, x11]
	mov	x8, x11
	b	.LBB24_85
.LBB24_78:
	lsr	w11, w9, #24
	cbnz	w11, .LBB24_82
	subs	x11, x8, #5
	b.lo	.LBB24_85
	cmp	x8, x23
	b.hi	.LBB24_86
	add	x12, x22, x11
	lsr	x8, x9, #16
	mov	w13, #131
	strb	w10, [x12]
	lsr	x10, x9, #8
	strb	w8, [x12, #2]
	mov	x8, x11
	strb	w13, [x12, #1]
	strb	w10, [x12, #3]
	strb	w9, [x12, #4]
	b	.LBB24_85
.LBB24_82:
	subs	x11, x8, #6
	b.lo	.LBB24_85
	cmp	x8, x23
	b.hi	.LBB24_86
	add	x12, x22, x11
	mov	w13, #132
	lsr	x8, x9, #24
	strb	w10, [x12]
	lsr	x10, x9, #16
	strb	w13, [x12, #1]
	lsr	x13, x9, #8
	strb	w8, [x12, #2]
	mov	x8, x11
	strb	w10, [x12, #3]
	strb	w13, [x12, #4]
	strb	w9, [x12, #5]
.LBB24_85:
	str	x8, [x19, #16]
	ldp	x20, x19, [sp, #64]
	ldp	x22, x21, [sp, #48]
	ldp	x24, x23, [sp, #32]
	ldp	x26, x25, [sp, #16]
	ldr	x30, [sp], #80
	.cfi_def_cfa_offset 0
	.cfi_restore w19
	.cfi_restore w20
	.cfi_restore w21
	.cfi_restore w22
	.cfi_restore w23
	.cfi_restore w24
	.cfi_restore w25
	.cfi_restore w26
	.cfi_restore w30
	ret
.LBB24_86:
	.cfi_restore_state
	brk	#0x1
.LBB24_87:
	mov	x0, x21
	mov	w1, #39
	brk	#0x1
.Lfunc_end24:
	.size	_RINvNtNtNtCs00000000001_10pkcs1_tool6proved12pkcs1_params6fields13prepend_fieldINtNtNtB6_9spki_core20algorithm_identifier21AlgorithmIdentifierOfNtNtB1k_17object_identifier16ObjectIdentifierNtNtB1k_3any6AnyRefENtNtNtB6_8der_core11back_writer10BackWriterEB8_, .Lfunc_end24-_RINvNtNtNtCs00000000001_10pkcs1_tool6proved12pkcs1_params6fields13prepend_fieldINtNtNtB6_9spki_core20algorithm_identifier21AlgorithmIdentifierOfNtNtB1k_17object_identifier16ObjectIdentifierNtNtB1k_3any6AnyRefENtNtNtB6_8der_core11back_writer10BackWriterEB8_
	.cfi_endproc

	.section	.text._RINvNtNtNtCs00000000001_10pkcs1_tool6proved12pkcs1_params6fields13prepend_fieldINtNtNtB6_9spki_core20algorithm_identifier21AlgorithmIdentifierOfNtNtB1k_17object_identifier16ObjectIdentifierNtNtB1k_3any6AnyRefENtNtNtB6_8der_core7counter7CounterEB8_,"ax",@progbits
	.p2align	2
	.type	_RINvNtNtNtCs00000000001_10pkcs1_tool6proved12pkcs1_params6fields13prepend_fieldINtNtNtB6_9spki_core20algorithm_identifier21AlgorithmIdentifierOfNtNtB1k_17object_identifier16ObjectIdentifierNtNtB1k_3any6AnyRefENtNtNtB6_8der_core7counter7CounterEB8_,@function
_RINvNtNtNtCs00000000001_10pkcs1_tool6proved12pkcs1_params6fields13prepend_fieldINtNtNtB6_9spki_core20algorithm_identifier21AlgorithmIdentifierOfNtNtB1k_17object_identifier16ObjectIdentifierNtNtB1k_3any6AnyRefENtNtNtB6_8der_core7counter7CounterEB8_:
	.cfi_startproc
	hint	#38
	mov	x8, x0
	ldrb	w0, [x0, #39]
	cmp	x0, #40
	b.hs	.LBB25_13
	ldr	x10, [x8, #40]
	ldr	x9, [x1]
	cbz	x10, .LBB25_4
	ldr	x8, [x8, #48]
	adds	x8, x9, x8
	csinv	x8, x8, xzr, lo
	subs	x8, x8, x9
	csel	x8, xzr, x8, lo
	cmp	x8, #128
	b.hs	.LBB25_8
	add	x8, x8, #2
	b	.LBB25_9
.LBB25_4:
	mov	x8, x9
	adds	x10, x9, x0
	csinv	x10, x10, xzr, lo
	subs	x10, x10, x9
	csel	x10, xzr, x10, lo
	cmp	x10, #128
	b.lo	.LBB25_10
.LBB25_5:
	lsr	x11, x10, #24
	adds	x12, x10, #6
	add	x13, x10, #5
	csinv	x12, x12, xzr, lo
	cmp	x11, #0
	add	x11, x10, #4
	csel	x12, x13, x12, eq
	cmp	x10, #16, lsl #12
	add	x13, x10, #3
	csel	x11, x11, x12, lo
	cmp	x10, #256
	csel	x10, x13, x11, lo
	adds	x8, x8, x10
	csinv	x8, x8, xzr, lo
	subs	x8, x8, x9
	csel	x8, xzr, x8, lo
	cmp	x8, #128
	b.lo	.LBB25_11
.LBB25_6:
	lsr	x10, x8, #24
	adds	x11, x8, #6
	add	x12, x8, #5
	csinv	x11, x11, xzr, lo
	cmp	x10, #0
	add	x10, x8, #4
	csel	x11, x12, x11, eq
	cmp	x8, #16, lsl #12
	add	x12, x8, #3
	csel	x10, x10, x11, lo
	cmp	x8, #256
	csel	x8, x12, x10, lo
	adds	x8, x9, x8
	csinv	x8, x8, xzr, lo
	subs	x8, x8, x9
	csel	x8, xzr, x8, lo
	cmp	x8, #128
	b.lo	.LBB25_12
.LBB25_7:
	lsr	x10, x8, #24
	adds	x11, x8, #6
	add	x12, x8, #5
	csinv	x11, x11, xzr, lo
	cmp	x10, #0
	add	x10, x8, #4
	csel	x11, x12, x11, eq
	cmp	x8, #16, lsl #12
	add	x12, x8, #3
	csel	x10, x10, x11, lo
	cmp	x8, #256
	csel	x8, x12, x10, lo
	adds	x8, x9, x8
	csinv	x8, x8, xzr, lo
	str	x8, [x1]
	ret
.LBB25_8:
	lsr	x10, x8, #24
	adds	x11, x8, #6
	add	x12, x8, #5
	csinv	x11, x11, xzr, lo
	cmp	x10, #0
	add	x10, x8, #4
	csel	x11, x12, x11, eq
	cmp	x8, #16, lsl #12
	add	x12, x8, #3
	csel	x10, x10, x11, lo
	cmp	x8, #256
	csel	x8, x12, x10, lo
.LBB25_9:
	adds	x8, x9, x8
	csinv	x8, x8, xzr, lo
	adds	x10, x8, x0
	csinv	x10, x10, xzr, lo
	subs	x10, x10, x8
	csel	x10, xzr, x10, lo
	cmp	x10, #128
	b.hs	.LBB25_5
.LBB25_10:
	add	x10, x10, #2
	adds	x8, x8, x10
	csinv	x8, x8, xzr, lo
	subs	x8, x8, x9
	csel	x8, xzr, x8, lo
	cmp	x8, #128
	b.hs	.LBB25_6
.LBB25_11:
	add	x8, x8, #2
	adds	x8, x9, x8
	csinv	x8, x8, xzr, lo
	subs	x8, x8, x9
	csel	x8, xzr, x8, lo
	cmp	x8, #128
	b.hs	.LBB25_7
.LBB25_12:
	add	x8, x8, #2
	adds	x8, x9, x8
	csinv	x8, x8, xzr, lo
	str	x8, [x1]
	ret
.LBB25_13:
	str	x30, [sp, #-16]!
	.cfi_def_cfa_offset 16
	.cfi_offset w30, -16
	mov	w1, #39
	brk	#0x1
.Lfunc_end25:
	.size	_RINvNtNtNtCs00000000001_10pkcs1_tool6proved12pkcs1_params6fields13prepend_fieldINtNtNtB6_9spki_core20algorithm_identifier21AlgorithmIdentifierOfNtNtB1k_17object_identifier16ObjectIdentifierNtNtB1k_3any6AnyRefENtNtNtB6_8der_core7counter7CounterEB8_, .Lfunc_end25-_RINvNtNtNtCs00000000001_10pkcs1_tool6proved12pkcs1_params6fields13prepend_fieldINtNtNtB6_9spki_core20algorithm_identifier21AlgorithmIdentifierOfNtNtB1k_17object_identifier16ObjectIdentifierNtNtB1k_3any6AnyRefENtNtNtB6_8der_core7counter7CounterEB8_
	.cfi_endproc

	.section	.text._RINvNtNtNtCs00000000001_10pkcs1_tool6proved12pkcs1_params6fields13prepend_fieldNtNtB4_13trailer_field12TrailerFieldNtNtNtB6_8der_core11back_writer10BackWriterEB8_,"ax",@progbits
	.p2align	2
	.type	_RINvNtNtNtCs00000000001_10pkcs1_tool6proved12pkcs1_params6fields13prepend_fieldNtNtB4_13trailer_field12TrailerFieldNtNtNtB6_8der_core11back_writer10BackWriterEB8_,@function
_RINvNtNtNtCs00000000001_10pkcs1_tool6proved12pkcs1_params6fields13prepend_fieldNtNtB4_13trailer_field12TrailerFieldNtNtNtB6_8der_core11back_writer10BackWriterEB8_:
	.cfi_startproc
	hint	#38
	str	x30, [sp, #-16]!
	.cfi_def_cfa_offset 16
	.cfi_offset w30, -16
	.cfi_remember_state
	ldr	x8, [x0, #16]
	cbz	x8, .LBB26_9
	ldr	x11, [x0, #8]
	cmp	x8, x11
	b.hi	.LBB26_25
	ldr	x9, [x0]
	sub	x10, x8, #1
	subs	x12, x8, #3
	mov	w13, #1
	strb	w13, [x9, x10]
	b.lo	.LBB26_4
	mov	w10, #258
	strh	w10, [x9, x12]
	mov	x10, x12
.LBB26_4:
	sub	x8, x8, x10
	cmp	w8, #128
	b.hs	.LBB26_10
	subs	x12, x10, #2
	b.lo	.LBB26_8
	cmp	x10, x11
	b.hi	.LBB26_25
	mov	w10, #163
	orr	w8, w10, w8, lsl #8
	mov	x10, x12
	strh	w8, [x9, x12]
.LBB26_8:
	str	x10, [x0, #16]
	ldr	x30, [sp], #16
	.cfi_def_cfa_offset 0
	.cfi_restore w30
	ret
.LBB26_9:
	.cfi_restore_state
	.cfi_remember_state
	str	xzr, [x0, #16]
	ldr	x30, [sp], #16
	.cfi_def_cfa_offset 0
	.cfi_restore w30
	ret
.LBB26_10:
	.cfi_restore_state
	.cfi_remember_state
	cmp	w8, #256
	b.hs	.LBB26_14
	subs	x12, x10, #3
	b.lo	.LBB26_8
	cmp	x10, x11
	b.hi	.LBB26_25
	add	x9, x9, x12
	mov	w10, #33187
	strh	w10, [x9]
	strb	w8, [x9, #2]
	str	x12, [x0, #16]
	ldr	x30, [sp], #16
	.cfi_def_cfa_offset 0
	.cfi_restore w30
	ret
.LBB26_14:
	.cfi_restore_state
	.cfi_remember_state
	cmp	w8, #16, lsl #12
	b.hs	.LBB26_18
	subs	x12, x10, #4
	b.lo	.LBB26_8
	cmp	x10, x11
	b.hi	.LBB26_25
	mov	w10, #-1551761408
	orr	w8, w8, w10
	rev	w8, w8
	str	w8, [x9, x12]
	str	x12, [x0, #16]
	ldr	x30, [sp], #16
	.cfi_def_cfa_offset 0
	.cfi_restore w30
	ret
.LBB26_18:
	.cfi_restore_state
	.cfi_remember_state
	lsr	w12, w8, #24
	cbnz	w12, .LBB26_22
	subs	x12, x10, #5
	b.lo	.LBB26_8
	cmp	x10, x11
	b.hi	.LBB26_25
	lsr	x10, x8, #16
	add	x9, x9, x12
	lsr	x13, x8, #8
	mov	w11, #33699
	strb	w8, [x9, #4]
	strb	w10, [x9, #2]
	strh	w11, [x9]
	strb	w13, [x9, #3]
	str	x12, [x0, #16]
	ldr	x30, [sp], #16
	.cfi_def_cfa_offset 0
	.cfi_restore w30
	ret
.LBB26_22:
	.cfi_restore_state
	.cfi_remember_state
	subs	x12, x10, #6
	b.lo	.LBB26_8
	cmp	x10, x11
	b.hi	.LBB26_25
	add	x9, x9, x12
	mov	w11, #33955
	lsr	x10, x8, #24
	lsr	x13, x8, #16
	strh	w11, [x9]
	lsr	x11, x8, #8
	strb	w10, [x9, #2]
	strb	w13, [x9, #3]
	strb	w11, [x9, #4]
	strb	w8, [x9, #5]
	str	x12, [x0, #16]
	ldr	x30, [sp], #16
	.cfi_def_cfa_offset 0
	.cfi_restore w30
	ret
.LBB26_25:
	.cfi_restore_state
	brk	#0x1
.Lfunc_end26:
	.size	_RINvNtNtNtCs00000000001_10pkcs1_tool6proved12pkcs1_params6fields13prepend_fieldNtNtB4_13trailer_field12TrailerFieldNtNtNtB6_8der_core11back_writer10BackWriterEB8_, .Lfunc_end26-_RINvNtNtNtCs00000000001_10pkcs1_tool6proved12pkcs1_params6fields13prepend_fieldNtNtB4_13trailer_field12TrailerFieldNtNtNtB6_8der_core11back_writer10BackWriterEB8_
	.cfi_endproc

	.section	.text._RINvNtNtNtCs00000000001_10pkcs1_tool6proved12pkcs1_params6fields13prepend_fieldNtNtB4_13trailer_field12TrailerFieldNtNtNtB6_8der_core7counter7CounterEB8_,"ax",@progbits
	.p2align	2
	.type	_RINvNtNtNtCs00000000001_10pkcs1_tool6proved12pkcs1_params6fields13prepend_fieldNtNtB4_13trailer_field12TrailerFieldNtNtNtB6_8der_core7counter7CounterEB8_,@function
_RINvNtNtNtCs00000000001_10pkcs1_tool6proved12pkcs1_params6fields13prepend_fieldNtNtB4_13trailer_field12TrailerFieldNtNtNtB6_8der_core7counter7CounterEB8_:
	.cfi_startproc
	hint	#38
	ldr	x8, [x0]
	adds	x9, x8, #1
	csinv	x9, x9, xzr, lo
	subs	x9, x9, x8
	csel	x9, xzr, x9, lo
	cmp	x9, #128
	b.hs	.LBB27_3
	add	x9, x9, #2
	adds	x9, x8, x9
	csinv	x9, x9, xzr, lo
	subs	x9, x9, x8
	csel	x9, xzr, x9, lo
	cmp	x9, #128
	b.lo	.LBB27_4
.LBB27_2:
	lsr	x10, x9, #24
	adds	x11, x9, #6
	add	x12, x9, #5
	csinv	x11, x11, xzr, lo
	cmp	x10, #0
	add	x10, x9, #4
	csel	x11, x12, x11, eq
	cmp	x9, #16, lsl #12
	add	x12, x9, #3
	csel	x10, x10, x11, lo
	cmp	x9, #256
	csel	x9, x12, x10, lo
	adds	x8, x8, x9
	csinv	x8, x8, xzr, lo
	str	x8, [x0]
	ret
.LBB27_3:
	lsr	x10, x9, #24
	adds	x11, x9, #6
	add	x12, x9, #5
	csinv	x11, x11, xzr, lo
	cmp	x10, #0
	add	x10, x9, #4
	csel	x11, x12, x11, eq
	cmp	x9, #16, lsl #12
	add	x12, x9, #3
	csel	x10, x10, x11, lo
	cmp	x9, #256
	csel	x9, x12, x10, lo
	adds	x9, x8, x9
	csinv	x9, x9, xzr, lo
	subs	x9, x9, x8
	csel	x9, xzr, x9, lo
	cmp	x9, #128
	b.hs	.LBB27_2
.LBB27_4:
	add	x9, x9, #2
	adds	x8, x8, x9
	csinv	x8, x8, xzr, lo
	str	x8, [x0]
	ret
.Lfunc_end27:
	.size	_RINvNtNtNtCs00000000001_10pkcs1_tool6proved12pkcs1_params6fields13prepend_fieldNtNtB4_13trailer_field12TrailerFieldNtNtNtB6_8der_core7counter7CounterEB8_, .Lfunc_end27-_RINvNtNtNtCs00000000001_10pkcs1_tool6proved12pkcs1_params6fields13prepend_fieldNtNtB4_13trailer_field12TrailerFieldNtNtNtB6_8der_core7counter7CounterEB8_
	.cfi_endproc

	.section	.text._RINvNtNtNtCs00000000001_10pkcs1_tool6proved12pkcs1_params6fields13prepend_fieldhNtNtNtB6_8der_core11back_writer10BackWriterEB8_,"ax",@progbits
	.p2align	2
	.type	_RINvNtNtNtCs00000000001_10pkcs1_tool6proved12pkcs1_params6fields13prepend_fieldhNtNtNtB6_8der_core11back_writer10BackWriterEB8_,@function
_RINvNtNtNtCs00000000001_10pkcs1_tool6proved12pkcs1_params6fields13prepend_fieldhNtNtNtB6_8der_core11back_writer10BackWriterEB8_:
	.cfi_startproc
	hint	#38
	str	x30, [sp, #-16]!
	.cfi_def_cfa_offset 16
	.cfi_offset w30, -16
	.cfi_remember_state
	ldp	x9, x10, [x1, #8]
	ldr	x8, [x1]
	cbz	x10, .LBB28_7
	cmp	x10, x9
	b.hi	.LBB28_46
	sub	x11, x10, #1
	strb	w0, [x8, x11]
	tbnz	w0, #7, .LBB28_9
	sub	x12, x10, x11
	cmp	w12, #128
	b.hs	.LBB28_12
.LBB28_4:
	subs	x13, x11, #2
	b.lo	.LBB28_27
	cmp	x11, x9
	b.hi	.LBB28_46
	mov	w11, #2
	orr	w11, w11, w12, lsl #8
	strh	w11, [x8, x13]
	mov	x11, x13
	b	.LBB28_27
.LBB28_7:
	mov	x11, xzr
	tbnz	w0, #7, .LBB28_11
.LBB28_8:
	str	x11, [x1, #16]
	ldr	x30, [sp], #16
	.cfi_def_cfa_offset 0
	.cfi_restore w30
	ret
.LBB28_9:
	.cfi_restore_state
	.cfi_remember_state
	cbz	x11, .LBB28_11
	sub	x11, x10, #2
	strb	wzr, [x8, x11]
.LBB28_11:
	str	x11, [x1, #16]
	sub	x12, x10, x11
	cmp	w12, #128
	b.lo	.LBB28_4
.LBB28_12:
	cmp	w12, #256
	b.hs	.LBB28_16
	subs	x13, x11, #3
	b.lo	.LBB28_27
	cmp	x11, x9
	b.hi	.LBB28_46
	add	x11, x8, x13
	mov	w14, #33026
	strh	w14, [x11]
	strb	w12, [x11, #2]
	mov	x11, x13
	b	.LBB28_27
.LBB28_16:
	cmp	w12, #16, lsl #12
	b.hs	.LBB28_20
	subs	x13, x11, #4
	b.lo	.LBB28_27
	cmp	x11, x9
	b.hi	.LBB28_46
	mov	w11, #42074112
	orr	w11, w12, w11
	rev	w11, w11
	str	w11, [x8, x13]
	mov	x11, x13
	b	.LBB28_27
.LBB28_20:
	lsr	w13, w12, #24
	cbnz	w13, .LBB28_24
	subs	x13, x11, #5
	b.lo	.LBB28_27
	cmp	x11, x9
	b.hi	.LBB28_46
	lsr	x11, x12, #16
	add	x14, x8, x13
	lsr	x16, x12, #8
	mov	w15, #33538
	strb	w12, [x14, #4]
	strb	w11, [x14, #2]
	mov	x11, x13
	strh	w15, [x14]
	strb	w16, [x14, #3]
	b	.LBB28_27
.LBB28_24:
	subs	x13, x11, #6
	b.lo	.LBB28_27
	cmp	x11, x9
	b.hi	.LBB28_46
	add	x14, x8, x13
	mov	w15, #33794
	lsr	x11, x12, #24
	lsr	x16, x12, #16
	strh	w15, [x14]
	lsr	x15, x12, #8
	strb	w11, [x14, #2]
	mov	x11, x13
	strb	w16, [x14, #3]
	strb	w15, [x14, #4]
	strb	w12, [x14, #5]
.LBB28_27:
	sub	x10, x10, x11
	cmp	w10, #128
	b.hs	.LBB28_31
	subs	x12, x11, #2
	b.lo	.LBB28_8
	cmp	x11, x9
	b.hi	.LBB28_46
	mov	w9, #162
	orr	w9, w9, w10, lsl #8
	strh	w9, [x8, x12]
	str	x12, [x1, #16]
	ldr	x30, [sp], #16
	.cfi_def_cfa_offset 0
	.cfi_restore w30
	ret
.LBB28_31:
	.cfi_restore_state
	.cfi_remember_state
	cmp	w10, #256
	b.hs	.LBB28_35
	subs	x12, x11, #3
	b.lo	.LBB28_8
	cmp	x11, x9
	b.hi	.LBB28_46
	add	x8, x8, x12
	mov	w9, #33186
	strh	w9, [x8]
	strb	w10, [x8, #2]
	str	x12, [x1, #16]
	ldr	x30, [sp], #16
	.cfi_def_cfa_offset 0
	.cfi_restore w30
	ret
.LBB28_35:
	.cfi_restore_state
	.cfi_remember_state
	cmp	w10, #16, lsl #12
	b.hs	.LBB28_39
	subs	x12, x11, #4
	b.lo	.LBB28_8
	cmp	x11, x9
	b.hi	.LBB28_46
	mov	w9, #-1568538624
	orr	w9, w10, w9
	rev	w9, w9
	str	w9, [x8, x12]
	str	x12, [x1, #16]
	ldr	x30, [sp], #16
	.cfi_def_cfa_offset 0
	.cfi_restore w30
	ret
.LBB28_39:
	.cfi_restore_state
	.cfi_remember_state
	lsr	w12, w10, #24
	cbnz	w12, .LBB28_43
	subs	x12, x11, #5
	b.lo	.LBB28_8
	cmp	x11, x9
	b.hi	.LBB28_46
	lsr	x9, x10, #16
	add	x8, x8, x12
	mov	w11, #33698
	lsr	x13, x10, #8
	strh	w11, [x8]
	strb	w9, [x8, #2]
	strb	w13, [x8, #3]
	strb	w10, [x8, #4]
	str	x12, [x1, #16]
	ldr	x30, [sp], #16
	.cfi_def_cfa_offset 0
	.cfi_restore w30
	ret
.LBB28_43:
	.cfi_restore_state
	.cfi_remember_state
	subs	x12, x11, #6
	b.lo	.LBB28_8
	cmp	x11, x9
	b.hi	.LBB28_46
	add	x8, x8, x12
	mov	w11, #33954
	lsr	x9, x10, #24
	lsr	x13, x10, #16
	strh	w11, [x8]
	lsr	x11, x10, #8
	strb	w9, [x8, #2]
	strb	w13, [x8, #3]
	strb	w11, [x8, #4]
	strb	w10, [x8, #5]
	str	x12, [x1, #16]
	ldr	x30, [sp], #16
	.cfi_def_cfa_offset 0
	.cfi_restore w30
	ret
.LBB28_46:
	.cfi_restore_state
	brk	#0x1
.Lfunc_end28:
	.size	_RINvNtNtNtCs00000000001_10pkcs1_tool6proved12pkcs1_params6fields13prepend_fieldhNtNtNtB6_8der_core11back_writer10BackWriterEB8_, .Lfunc_end28-_RINvNtNtNtCs00000000001_10pkcs1_tool6proved12pkcs1_params6fields13prepend_fieldhNtNtNtB6_8der_core11back_writer10BackWriterEB8_
	.cfi_endproc

	.section	.text._RINvNtNtNtCs00000000001_10pkcs1_tool6proved12pkcs1_params6fields13prepend_fieldhNtNtNtB6_8der_core7counter7CounterEB8_,"ax",@progbits
	.p2align	2
	.type	_RINvNtNtNtCs00000000001_10pkcs1_tool6proved12pkcs1_params6fields13prepend_fieldhNtNtNtB6_8der_core7counter7CounterEB8_,@function
_RINvNtNtNtCs00000000001_10pkcs1_tool6proved12pkcs1_params6fields13prepend_fieldhNtNtNtB6_8der_core7counter7CounterEB8_:
	.cfi_startproc
	hint	#38
	ldr	x8, [x1]
	sxtb	w9, w0
	adds	x10, x8, #1
	csinv	x10, x10, xzr, lo
	adds	x11, x8, #2
	csinv	x11, x11, xzr, lo
	cmp	w9, #0
	csel	x9, x11, x10, lt
	subs	x9, x9, x8
	csel	x9, xzr, x9, lo
	cmp	x9, #128
	b.hs	.LBB29_3
	add	x9, x9, #2
	adds	x9, x8, x9
	csinv	x9, x9, xzr, lo
	subs	x9, x9, x8
	csel	x9, xzr, x9, lo
	cmp	x9, #128
	b.lo	.LBB29_4
.LBB29_2:
	lsr	x10, x9, #24
	adds	x11, x9, #6
	add	x12, x9, #5
	csinv	x11, x11, xzr, lo
	cmp	x10, #0
	add	x10, x9, #4
	csel	x11, x12, x11, eq
	cmp	x9, #16, lsl #12
	add	x12, x9, #3
	csel	x10, x10, x11, lo
	cmp	x9, #256
	csel	x9, x12, x10, lo
	adds	x8, x8, x9
	csinv	x8, x8, xzr, lo
	str	x8, [x1]
	ret
.LBB29_3:
	lsr	x10, x9, #24
	adds	x11, x9, #6
	add	x12, x9, #5
	csinv	x11, x11, xzr, lo
	cmp	x10, #0
	add	x10, x9, #4
	csel	x11, x12, x11, eq
	cmp	x9, #16, lsl #12
	add	x12, x9, #3
	csel	x10, x10, x11, lo
	cmp	x9, #256
	csel	x9, x12, x10, lo
	adds	x9, x8, x9
	csinv	x9, x9, xzr, lo
	subs	x9, x9, x8
	csel	x9, xzr, x9, lo
	cmp	x9, #128
	b.hs	.LBB29_2
.LBB29_4:
	add	x9, x9, #2
	adds	x8, x8, x9
	csinv	x8, x8, xzr, lo
	str	x8, [x1]
	ret
.Lfunc_end29:
	.size	_RINvNtNtNtCs00000000001_10pkcs1_tool6proved12pkcs1_params6fields13prepend_fieldhNtNtNtB6_8der_core7counter7CounterEB8_, .Lfunc_end29-_RINvNtNtNtCs00000000001_10pkcs1_tool6proved12pkcs1_params6fields13prepend_fieldhNtNtNtB6_8der_core7counter7CounterEB8_
	.cfi_endproc

	.section	.text._RNvXs_NtNtNtCs00000000001_10pkcs1_tool6proved12pkcs1_params7holdersINtNtNtB8_9spki_core20algorithm_identifier21AlgorithmIdentifierOfNtNtB18_17object_identifier16ObjectIdentifierIB14_B26_NtNtB18_3any6AnyRefEENtB4_10MaskHolder10is_defaultBa_,"ax",@progbits
	.p2align	2
	.type	_RNvXs_NtNtNtCs00000000001_10pkcs1_tool6proved12pkcs1_params7holdersINtNtNtB8_9spki_core20algorithm_identifier21AlgorithmIdentifierOfNtNtB18_17object_identifier16ObjectIdentifierIB14_B26_NtNtB18_3any6AnyRefEENtB4_10MaskHolder10is_defaultBa_,@function
_RNvXs_NtNtNtCs00000000001_10pkcs1_tool6proved12pkcs1_params7holdersINtNtNtB8_9spki_core20algorithm_identifier21AlgorithmIdentifierOfNtNtB18_17object_identifier16ObjectIdentifierIB14_B26_NtNtB18_3any6AnyRefEENtB4_10MaskHolder10is_defaultBa_:
	.cfi_startproc
	hint	#38
	str	x30, [sp, #-16]!
	.cfi_def_cfa_offset 16
	.cfi_offset w30, -16
	.cfi_remember_state
	ldr	w8, [x0]
	cmp	w8, #1
	b.ne	.LBB30_12
	ldrb	w8, [x0, #111]
	cmp	w8, #40
	b.hs	.LBB30_13
	cmp	w8, #9
	b.ne	.LBB30_12
	ldr	d0, [x0, #72]
	mov	x9, #34346
	movk	x9, #34376, lsl #16
	fmov	x8, d0
	movk	x9, #3575, lsl #32
	movk	x9, #257, lsl #48
	cmp	x8, x9
	mov	w8, wzr
	b.ne	.LBB30_11
	ldrb	w9, [x0, #80]
	cmp	w9, #8
	b.ne	.LBB30_11
	ldr	x8, [x0, #48]
	cbz	x8, .LBB30_11
	ldrb	w8, [x0, #47]
	cmp	w8, #40
	b.hs	.LBB30_13
	cmp	w8, #5
	mov	w8, wzr
	b.ne	.LBB30_11
	ldr	s0, [x0, #8]
	mov	w10, #3627
	movk	w10, #515, lsl #16
	ushll	v0.8h, v0.8b, #0
	uzp1	v0.8b, v0.8b, v0.8b
	fmov	w9, s0
	cmp	w9, w10
	b.ne	.LBB30_11
	ldrb	w9, [x0, #12]
	cmp	w9, #26
	b.ne	.LBB30_11
	ldrb	w8, [x0, #64]
	ldr	x9, [x0, #56]
	cmp	x8, #5
	ccmp	x9, #0, #0, eq
	cset	w8, eq
.LBB30_11:
	mov	w0, w8
	ldr	x30, [sp], #16
	.cfi_def_cfa_offset 0
	.cfi_restore w30
	ret
.LBB30_12:
	.cfi_restore_state
	.cfi_remember_state
	mov	w8, wzr
	mov	w0, w8
	ldr	x30, [sp], #16
	.cfi_def_cfa_offset 0
	.cfi_restore w30
	ret
.LBB30_13:
	.cfi_restore_state
	mov	x0, x8
	mov	w1, #39
	brk	#0x1
.Lfunc_end30:
	.size	_RNvXs_NtNtNtCs00000000001_10pkcs1_tool6proved12pkcs1_params7holdersINtNtNtB8_9spki_core20algorithm_identifier21AlgorithmIdentifierOfNtNtB18_17object_identifier16ObjectIdentifierIB14_B26_NtNtB18_3any6AnyRefEENtB4_10MaskHolder10is_defaultBa_, .Lfunc_end30-_RNvXs_NtNtNtCs00000000001_10pkcs1_tool6proved12pkcs1_params7holdersINtNtNtB8_9spki_core20algorithm_identifier21AlgorithmIdentifierOfNtNtB18_17object_identifier16ObjectIdentifierIB14_B26_NtNtB18_3any6AnyRefEENtB4_10MaskHolder10is_defaultBa_
	.cfi_endproc

	.section	.text._RNvNtNtNtCs00000000001_10pkcs1_tool6proved12pkcs1_params6noting8note_pss,"ax",@progbits
	.p2align	2
	.type	_RNvNtNtNtCs00000000001_10pkcs1_tool6proved12pkcs1_params6noting8note_pss,@function
_RNvNtNtNtCs00000000001_10pkcs1_tool6proved12pkcs1_params6noting8note_pss:
	.cfi_startproc
	hint	#38
	sub	sp, sp, #208
	.cfi_def_cfa_offset 208
	stp	x29, x30, [sp, #112]
	stp	x28, x27, [sp, #128]
	stp	x26, x25, [sp, #144]
	stp	x24, x23, [sp, #160]
	stp	x22, x21, [sp, #176]
	stp	x20, x19, [sp, #192]
	.cfi_offset w19, -8
	.cfi_offset w20, -16
	.cfi_offset w21, -24
	.cfi_offset w22, -32
	.cfi_offset w23, -40
	.cfi_offset w24, -48
	.cfi_offset w25, -56
	.cfi_offset w26, -64
	.cfi_offset w27, -72
	.cfi_offset w28, -80
	.cfi_offset w30, -88
	.cfi_offset w29, -96
	.cfi_remember_state
	mov	x19, x0
	cbz	x2, .LBB31_6
	ldrb	w8, [x1]
	cmp	w8, #160
	b.ne	.LBB31_7
	cmp	x2, #1
	b.eq	.LBB31_105
	ldrsb	w10, [x1, #1]
	add	x8, x1, #2
	sub	x9, x2, #2
	tbnz	w10, #31, .LBB31_76
	and	x11, x10, #0xff
	subs	x27, x9, x11
	b.lo	.LBB31_105
	add	x28, x8, x11
	cmp	x11, #2
	b.hs	.LBB31_107
	b	.LBB31_152
.LBB31_6:
	mov	x27, xzr
	mov	w16, #5
	adrp	x29, .Lanon.25
	add	x29, x29, :lo12:.Lanon.25
	adrp	x13, _RNvNtNtCs00000000001_10pkcs1_tool10rattle_std7library8AN_OCTET
	add	x13, x13, :lo12:_RNvNtNtCs00000000001_10pkcs1_tool10rattle_std7library8AN_OCTET
	str	xzr, [sp, #72]
	b	.LBB31_8
.LBB31_7:
	str	xzr, [sp, #72]
	adrp	x29, .Lanon.25
	add	x29, x29, :lo12:.Lanon.25
	adrp	x13, _RNvNtNtCs00000000001_10pkcs1_tool10rattle_std7library8AN_OCTET
	add	x13, x13, :lo12:_RNvNtNtCs00000000001_10pkcs1_tool10rattle_std7library8AN_OCTET
	mov	w16, #5
	mov	x27, x2
.LBB31_8:
	mov	x28, x1
.LBB31_9:
	ldrb	w8, [x29]
	cmp	w8, #43
	b.ne	.LBB31_15
	ldrb	w8, [x29, #1]
	cmp	w8, #14
	b.ne	.LBB31_15
	ldrb	w8, [x29, #2]
	cmp	w8, #3
	b.ne	.LBB31_15
	ldrb	w8, [x29, #3]
	cmp	w8, #2
	b.ne	.LBB31_15
	ldrb	w8, [x29, #4]
	cmp	w8, #26
	b.ne	.LBB31_15
	ldr	x8, [sp, #72]
	cmp	x16, #5
	ccmp	x8, #0, #0, eq
	cset	w8, eq
	b	.LBB31_16
.LBB31_15:
	mov	w8, wzr
.LBB31_16:
	mov	w24, #5
.LBB31_17:
	cbz	x2, .LBB31_24
	ldrb	w9, [x1]
	cmp	w9, #160
	csel	w21, wzr, w8, ne
	cbz	x27, .LBB31_25
.LBB31_19:
	ldrb	w8, [x28]
	cmp	w8, #161
	b.ne	.LBB31_26
	cmp	x27, #1
	b.eq	.LBB31_170
	ldrsb	w10, [x28, #1]
	add	x8, x28, #2
	sub	x9, x27, #2
	tbnz	w10, #31, .LBB31_81
	and	x2, x10, #0xff
	subs	x26, x9, x2
	b.lo	.LBB31_170
	add	x15, x8, x2
	cmp	x2, #2
	b.hs	.LBB31_172
	b	.LBB31_216
.LBB31_24:
	mov	w21, wzr
	cbnz	x27, .LBB31_19
.LBB31_25:
	mov	x12, xzr
	mov	x26, xzr
	adrp	x25, .Lanon.26
	add	x25, x25, :lo12:.Lanon.26
	adrp	x8, .Lanon.25
	add	x8, x8, :lo12:.Lanon.25
	adrp	x20, _RNvNtNtCs00000000001_10pkcs1_tool10rattle_std7library8AN_OCTET
	add	x20, x20, :lo12:_RNvNtNtCs00000000001_10pkcs1_tool10rattle_std7library8AN_OCTET
	mov	w22, #5
	mov	w14, #5
	str	x8, [sp, #64]
	b	.LBB31_27
.LBB31_26:
	adrp	x8, .Lanon.25
	add	x8, x8, :lo12:.Lanon.25
	mov	x12, xzr
	adrp	x25, .Lanon.26
	add	x25, x25, :lo12:.Lanon.26
	str	x8, [sp, #64]
	adrp	x20, _RNvNtNtCs00000000001_10pkcs1_tool10rattle_std7library8AN_OCTET
	add	x20, x20, :lo12:_RNvNtNtCs00000000001_10pkcs1_tool10rattle_std7library8AN_OCTET
	mov	w22, #5
	mov	w14, #5
	mov	x26, x27
.LBB31_27:
	mov	x15, x28
.LBB31_28:
	mov	x9, #34346
	ldr	x8, [x25]
	movk	x9, #34376, lsl #16
	movk	x9, #3575, lsl #32
	movk	x9, #257, lsl #48
	cmp	x8, x9
	b.ne	.LBB31_38
	ldrb	w8, [x25, #8]
	cmp	w8, #8
	b.ne	.LBB31_38
	mov	w8, wzr
	mov	w23, #9
	cbz	x20, .LBB31_39
	cmp	x14, #5
	b.ne	.LBB31_39
	ldr	x8, [sp, #64]
	ldrb	w8, [x8]
	cmp	w8, #43
	b.ne	.LBB31_87
	ldr	x8, [sp, #64]
	ldrb	w8, [x8, #1]
	cmp	w8, #14
	b.ne	.LBB31_87
	ldr	x8, [sp, #64]
	ldrb	w8, [x8, #2]
	cmp	w8, #3
	b.ne	.LBB31_87
	ldr	x8, [sp, #64]
	ldrb	w8, [x8, #3]
	cmp	w8, #2
	b.ne	.LBB31_87
	ldr	x8, [sp, #64]
	ldrb	w8, [x8, #4]
	cmp	w8, #26
	b.ne	.LBB31_87
	and	x8, x22, #0xff
	cmp	x8, #5
	ccmp	x12, #0, #0, eq
	cset	w8, eq
	b	.LBB31_88
.LBB31_38:
	mov	w8, wzr
	mov	w23, #9
.LBB31_39:
	tbz	w21, #0, .LBB31_47
	cbz	x26, .LBB31_55
	ldrb	w8, [x15]
	cmp	w8, #162
	b.ne	.LBB31_55
	cmp	x26, #1
	b.eq	.LBB31_291
	ldrsb	w9, [x15, #1]
	add	x1, x15, #2
	sub	x8, x26, #2
	tbnz	w9, #31, .LBB31_237
	and	x2, x9, #0xff
	subs	x8, x8, x2
	b.lo	.LBB31_291
	add	x15, x1, x2
	mov	x26, x8
	cmp	x2, #2
	b.lo	.LBB31_298
.LBB31_46:
	mov	x8, x1
	ldrb	w9, [x8], #2
	cmp	w9, #2
	b.eq	.LBB31_283
	b	.LBB31_298
.LBB31_47:
	cbz	x27, .LBB31_70
	ldrb	w9, [x28]
	cmp	w9, #161
	csel	w8, wzr, w8, ne
	tbz	w8, #0, .LBB31_70
	cbz	x26, .LBB31_232
	ldrb	w8, [x15]
	cmp	w8, #162
	b.ne	.LBB31_247
	cmp	x26, #1
	stp	x22, x12, [sp, #48]
	b.eq	.LBB31_467
	ldrsb	w9, [x15, #1]
	add	x1, x15, #2
	sub	x8, x26, #2
	tbnz	w9, #31, .LBB31_359
	and	x2, x9, #0xff
	subs	x8, x8, x2
	b.lo	.LBB31_467
	add	x15, x1, x2
	mov	x26, x8
	cmp	x2, #2
	b.hs	.LBB31_469
	b	.LBB31_486
.LBB31_55:
	mov	w27, wzr
	mov	w21, #20
.LBB31_56:
	cbz	x26, .LBB31_233
	ldrb	w8, [x15]
	cmp	w8, #163
	b.ne	.LBB31_526
.LBB31_58:
	cmp	x26, #1
	b.eq	.LBB31_313
	ldrsb	w9, [x15, #1]
	add	x1, x15, #2
	sub	x8, x26, #2
	tbnz	w9, #31, .LBB31_242
	and	x2, x9, #0xff
	subs	x17, x8, x2
	b.lo	.LBB31_313
	cmp	x2, #2
	b.lo	.LBB31_325
.LBB31_62:
	mov	x8, x1
	ldrb	w9, [x8], #2
	cmp	w9, #2
	b.ne	.LBB31_325
	ldrsb	w9, [x1, #1]
	sub	x10, x2, #2
	tbnz	w9, #31, .LBB31_250
	and	x9, x9, #0xff
	subs	x10, x10, x9
	b.lo	.LBB31_325
	cbz	x9, .LBB31_327
.LBB31_66:
	cmp	x9, #1
	b.ne	.LBB31_320
	ldrsb	w8, [x8]
	tbnz	w8, #31, .LBB31_388
	cmp	w8, #1
	b.ne	.LBB31_605
	cbnz	x10, .LBB31_427
	b	.LBB31_396
.LBB31_70:
	cbz	x26, .LBB31_86
	ldrb	w8, [x15]
	cmp	w8, #162
	b.ne	.LBB31_94
	cmp	x26, #1
	b.eq	.LBB31_349
	ldrsb	w9, [x15, #1]
	add	x1, x15, #2
	sub	x8, x26, #2
	tbnz	w9, #31, .LBB31_263
	and	x2, x9, #0xff
	subs	x8, x8, x2
	b.lo	.LBB31_349
	add	x18, x1, x2
	mov	x26, x8
	cmp	x2, #2
	b.hs	.LBB31_351
	b	.LBB31_369
.LBB31_76:
	and	w10, w10, #0xff
	cmp	w10, #130
	b.ne	.LBB31_89
	cmp	x9, #1
	b.ls	.LBB31_105
	ldrb	w8, [x1, #2]
	cbz	x8, .LBB31_105
	ldrb	w9, [x1, #3]
	orr	x11, x9, x8, lsl #8
	sub	x8, x2, #4
	subs	x27, x8, x11
	b.lo	.LBB31_105
	add	x8, x1, #4
	add	x28, x8, x11
	b	.LBB31_107
.LBB31_81:
	and	w10, w10, #0xff
	cmp	w10, #130
	b.ne	.LBB31_165
	cmp	x9, #1
	b.ls	.LBB31_170
	ldrb	w8, [x28, #2]
	cbz	x8, .LBB31_170
	ldrb	w9, [x28, #3]
	orr	x2, x9, x8, lsl #8
	sub	x8, x27, #4
	subs	x26, x8, x2
	b.lo	.LBB31_170
	add	x8, x28, #4
	add	x15, x8, x2
	b	.LBB31_172
.LBB31_86:
	mov	w8, wzr
	mov	w21, #20
	mov	w27, #2
	b	.LBB31_235
.LBB31_87:
	mov	w8, wzr
.LBB31_88:
	mov	w23, #9
	mov	w14, #5
	b	.LBB31_39
.LBB31_89:
	cbz	x9, .LBB31_105
	cmp	w10, #129
	b.ne	.LBB31_105
	ldrsb	w8, [x8]
	tbz	w8, #31, .LBB31_105
	sub	x9, x2, #3
	and	x11, x8, #0xff
	subs	x27, x9, x11
	b.lo	.LBB31_105
	add	x8, x1, #3
	add	x28, x8, x11
	b	.LBB31_107
.LBB31_94:
	mov	w21, #20
	cmp	w8, #163
	b.ne	.LBB31_526
.LBB31_95:
	cmp	x26, #1
	str	x12, [sp, #56]
	b.eq	.LBB31_414
	ldrsb	w9, [x15, #1]
	add	x1, x15, #2
	sub	x8, x26, #2
	tbnz	w9, #31, .LBB31_328
	and	x2, x9, #0xff
	subs	x17, x8, x2
	b.lo	.LBB31_414
	cmp	x2, #2
	b.lo	.LBB31_421
.LBB31_99:
	mov	x0, x1
	ldrb	w8, [x0], #2
	cmp	w8, #2
	b.ne	.LBB31_421
	ldrsb	w8, [x1, #1]
	sub	x9, x2, #2
	tbnz	w8, #31, .LBB31_344
	and	x8, x8, #0xff
	subs	x9, x9, x8
	b.lo	.LBB31_421
	cmp	x8, #1
	str	x22, [sp, #48]
	b.ne	.LBB31_423
.LBB31_103:
	ldrsb	w8, [x0]
	tbnz	w8, #31, .LBB31_523
	and	w8, w8, #0xff
	b	.LBB31_425
.LBB31_105:
	add	x0, sp, #80
	mov	w3, #160
	mov	x20, x1
	mov	x21, x2
	bl	_RNvNtNtNtCs00000000001_10pkcs1_tool6proved8der_core5split14split_unlikely
	ldr	x8, [sp, #80]
	cbz	x8, .LBB31_262
	ldp	x11, x28, [sp, #88]
	mov	x1, x20
	ldr	x27, [sp, #104]
	mov	x2, x21
	cmp	x11, #2
	b.lo	.LBB31_152
.LBB31_107:
	mov	x9, x8
	ldrb	w10, [x9], #2
	cmp	w10, #48
	b.ne	.LBB31_152
	ldrsb	w10, [x8, #1]
	sub	x12, x11, #2
	tbnz	w10, #31, .LBB31_127
	and	x10, x10, #0xff
	subs	x21, x12, x10
	b.lo	.LBB31_152
	cmp	x10, #2
	b.lo	.LBB31_159
.LBB31_111:
	mov	x29, x9
	ldrb	w8, [x29], #2
	cmp	w8, #6
	b.ne	.LBB31_159
	ldrsb	w11, [x9, #1]
	sub	x8, x10, #2
	tbnz	w11, #31, .LBB31_132
	and	x24, x11, #0xff
	subs	x8, x8, x24
	b.lo	.LBB31_159
	add	x9, x29, x24
	sub	x11, x24, #1
	cmp	x11, #38
	b.hi	.LBB31_161
.LBB31_115:
	ldrsb	w10, [x29, x11]
	tbnz	w10, #31, .LBB31_138
	movi	v0.8b, #128
	movi	v1.4h, #128
	mov	x12, x29
	b	.LBB31_118
.LBB31_117:
	add	x11, x13, x11
	add	x12, x12, x14
.LBB31_118:
	cmp	x11, #7
	b.ls	.LBB31_121
	ldr	d2, [x12]
	cmeq	v2.8b, v2.8b, v0.8b
	umaxv	b2, v2.8b
	fmov	w13, s2
	tbnz	w13, #0, .LBB31_137
	mov	x13, #-8
	mov	w14, #8
	b	.LBB31_117
.LBB31_121:
	cmp	x11, #3
	b.ls	.LBB31_124
	ldr	s2, [x12]
	ushll	v2.8h, v2.8b, #0
	cmeq	v2.4h, v2.4h, v1.4h
	umaxv	h2, v2.4h
	fmov	w13, s2
	tbnz	w13, #0, .LBB31_137
	mov	x13, #-4
	mov	w14, #4
	b	.LBB31_117
.LBB31_124:
	cbz	x11, .LBB31_141
	ldrb	w13, [x12]
	cmp	w13, #128
	b.eq	.LBB31_137
	mov	x13, #-1
	mov	w14, #1
	b	.LBB31_117
.LBB31_127:
	and	w10, w10, #0xff
	cmp	w10, #130
	b.ne	.LBB31_147
	cmp	x12, #1
	b.ls	.LBB31_152
	ldrb	w9, [x8, #2]
	cbz	x9, .LBB31_152
	ldrb	w10, [x8, #3]
	orr	x10, x10, x9, lsl #8
	sub	x9, x11, #4
	subs	x21, x9, x10
	b.lo	.LBB31_152
	add	x9, x8, #4
	b	.LBB31_111
.LBB31_132:
	and	w11, w11, #0xff
	cmp	w11, #130
	b.ne	.LBB31_154
	cmp	x8, #1
	b.ls	.LBB31_159
	ldrb	w8, [x9, #2]
	cbz	x8, .LBB31_159
	ldrb	w11, [x9, #3]
	orr	x24, x11, x8, lsl #8
	sub	x8, x10, #4
	subs	x8, x8, x24
	b.lo	.LBB31_159
	add	x29, x9, #4
	add	x9, x29, x24
	sub	x11, x24, #1
	cmp	x11, #38
	b.ls	.LBB31_115
	b	.LBB31_161
.LBB31_137:
	cbz	x24, .LBB31_141
.LBB31_138:
	ldrb	w11, [x29]
	cmp	w11, #128
	b.eq	.LBB31_161
	subs	x12, x24, #1
	b.ne	.LBB31_255
.LBB31_140:
	tbnz	w10, #31, .LBB31_161
.LBB31_141:
	cbz	x8, .LBB31_248
	ldrb	w16, [x9]
	mov	w11, #31
	mov	x10, xzr
	bics	wzr, w11, w16
	mov	w11, #11
	b.eq	.LBB31_550
	and	w12, w16, #0xffffffdf
	tst	w12, #0xff
	b.eq	.LBB31_550
	cmp	x8, #1
	b.eq	.LBB31_517
	ldrsb	w11, [x9, #1]
	add	x13, x9, #2
	sub	x10, x8, #2
	tbnz	w11, #31, .LBB31_380
	and	x11, x11, #0xff
	subs	x10, x10, x11
	str	x11, [sp, #72]
	b.hs	.LBB31_519
	b	.LBB31_517
.LBB31_147:
	cbz	x12, .LBB31_152
	cmp	w10, #129
	b.ne	.LBB31_152
	ldrsb	w9, [x9]
	tbz	w9, #31, .LBB31_152
	sub	x12, x11, #3
	and	x10, x9, #0xff
	subs	x21, x12, x10
	b.lo	.LBB31_152
	add	x9, x8, #3
	b	.LBB31_111
.LBB31_152:
	mov	x20, x2
	mov	x22, x1
	add	x0, sp, #80
	mov	x1, x8
	mov	x2, x11
	mov	w3, #48
	bl	_RNvNtNtNtCs00000000001_10pkcs1_tool6proved8der_core5split14split_unlikely
	ldr	x9, [sp, #80]
	cbz	x9, .LBB31_260
	ldr	x10, [sp, #88]
	ldr	x21, [sp, #104]
	mov	x1, x22
	mov	x2, x20
	cmp	x10, #2
	b.hs	.LBB31_111
	b	.LBB31_159
.LBB31_154:
	cbz	x8, .LBB31_159
	cmp	w11, #129
	b.ne	.LBB31_159
	ldrsb	w8, [x29]
	tbz	w8, #31, .LBB31_159
	sub	x11, x10, #3
	and	x24, x8, #0xff
	subs	x8, x11, x24
	b.lo	.LBB31_159
	add	x29, x9, #3
	add	x9, x29, x24
	sub	x11, x24, #1
	cmp	x11, #38
	b.hi	.LBB31_161
	b	.LBB31_115
.LBB31_159:
	mov	x22, x2
	mov	x23, x1
	add	x0, sp, #80
	mov	x1, x9
	mov	x2, x10
	mov	w3, #6
	bl	_RNvNtNtNtCs00000000001_10pkcs1_tool6proved8der_core5split14split_unlikely
	ldr	x29, [sp, #80]
	cbz	x29, .LBB31_261
	ldp	x24, x9, [sp, #88]
	mov	x1, x23
	ldr	x8, [sp, #104]
	mov	x2, x22
	sub	x11, x24, #1
	cmp	x11, #38
	b.ls	.LBB31_115
.LBB31_161:
	mov	w11, #5
.LBB31_162:
	lsr	x8, x11, #8
.LBB31_163:
	bfi	w11, w8, #8, #24
.LBB31_164:
	lsr	w8, w11, #16
	strh	w11, [x19]
	b	.LBB31_229
.LBB31_165:
	cbz	x9, .LBB31_170
	cmp	w10, #129
	b.ne	.LBB31_170
	ldrsb	w8, [x8]
	tbz	w8, #31, .LBB31_170
	sub	x9, x27, #3
	and	x2, x8, #0xff
	subs	x26, x9, x2
	b.lo	.LBB31_170
	add	x8, x28, #3
	add	x15, x8, x2
	b	.LBB31_172
.LBB31_170:
	add	x0, sp, #80
	mov	x1, x28
	mov	x2, x27
	mov	w3, #161
	mov	x23, x13
	mov	x22, x16
	bl	_RNvNtNtNtCs00000000001_10pkcs1_tool6proved8der_core5split14split_unlikely
	ldr	x8, [sp, #80]
	cbz	x8, .LBB31_290
	ldp	x2, x15, [sp, #88]
	mov	x16, x22
	ldr	x26, [sp, #104]
	mov	x13, x23
	cmp	x2, #2
	b.lo	.LBB31_216
.LBB31_172:
	mov	x1, x8
	ldrb	w9, [x1], #2
	cmp	w9, #48
	b.ne	.LBB31_216
	ldrsb	w9, [x8, #1]
	sub	x10, x2, #2
	tbnz	w9, #31, .LBB31_201
	and	x9, x9, #0xff
	subs	x17, x10, x9
	b.lo	.LBB31_216
	cmp	x9, #2
	b.lo	.LBB31_223
.LBB31_176:
	mov	x25, x1
	ldrb	w8, [x25], #2
	cmp	w8, #6
	b.ne	.LBB31_223
	ldrsb	w10, [x1, #1]
	sub	x8, x9, #2
	tbnz	w10, #31, .LBB31_206
	and	x23, x10, #0xff
	subs	x2, x8, x23
	b.lo	.LBB31_223
	add	x1, x25, x23
	sub	x9, x23, #1
	cmp	x9, #38
	b.hi	.LBB31_225
.LBB31_180:
	ldrsb	w8, [x25, x9]
	tbnz	w8, #31, .LBB31_193
	movi	v0.8b, #128
	movi	v1.4h, #128
	mov	x10, x25
	b	.LBB31_184
.LBB31_182:
	mov	x11, #-1
	mov	w12, #1
.LBB31_183:
	add	x9, x11, x9
	add	x10, x10, x12
.LBB31_184:
	cmp	x9, #7
	b.ls	.LBB31_187
	ldr	d2, [x10]
	cmeq	v2.8b, v2.8b, v0.8b
	umaxv	b2, v2.8b
	fmov	w11, s2
	tbnz	w11, #0, .LBB31_192
	mov	x11, #-8
	mov	w12, #8
	b	.LBB31_183
.LBB31_187:
	cmp	x9, #3
	b.ls	.LBB31_190
	ldr	s2, [x10]
	ushll	v2.8h, v2.8b, #0
	cmeq	v2.4h, v2.4h, v1.4h
	umaxv	h2, v2.4h
	fmov	w11, s2
	tbnz	w11, #0, .LBB31_192
	mov	x11, #-4
	mov	w12, #4
	b	.LBB31_183
.LBB31_190:
	cbz	x9, .LBB31_196
	ldrb	w11, [x10]
	cmp	w11, #128
	b.ne	.LBB31_182
.LBB31_192:
	cbz	x23, .LBB31_196
.LBB31_193:
	ldrb	w9, [x25]
	cmp	w9, #128
	b.eq	.LBB31_225
	subs	x10, x23, #1
	b.ne	.LBB31_270
.LBB31_195:
	tbnz	w8, #31, .LBB31_225
.LBB31_196:
	cbz	x2, .LBB31_268
	cmp	x2, #1
	b.eq	.LBB31_402
	mov	x8, x1
	ldrb	w9, [x8], #2
	cmp	w9, #48
	b.ne	.LBB31_402
	ldrsb	w9, [x1, #1]
	sub	x10, x2, #2
	tbnz	w9, #31, .LBB31_339
	and	x9, x9, #0xff
	subs	x18, x10, x9
	b.hs	.LBB31_404
	b	.LBB31_402
.LBB31_201:
	and	w9, w9, #0xff
	cmp	w9, #130
	b.ne	.LBB31_211
	cmp	x10, #1
	b.ls	.LBB31_216
	ldrb	w9, [x8, #2]
	cbz	x9, .LBB31_216
	ldrb	w10, [x8, #3]
	orr	x9, x10, x9, lsl #8
	sub	x10, x2, #4
	subs	x17, x10, x9
	b.lo	.LBB31_216
	add	x1, x8, #4
	b	.LBB31_176
.LBB31_206:
	and	w10, w10, #0xff
	cmp	w10, #130
	b.ne	.LBB31_218
	cmp	x8, #1
	b.ls	.LBB31_223
	ldrb	w8, [x1, #2]
	cbz	x8, .LBB31_223
	ldrb	w10, [x1, #3]
	orr	x23, x10, x8, lsl #8
	sub	x8, x9, #4
	subs	x2, x8, x23
	b.lo	.LBB31_223
	add	x25, x1, #4
	add	x1, x25, x23
	sub	x9, x23, #1
	cmp	x9, #38
	b.ls	.LBB31_180
	b	.LBB31_225
.LBB31_211:
	cbz	x10, .LBB31_216
	cmp	w9, #129
	b.ne	.LBB31_216
	ldrsb	w9, [x1]
	tbz	w9, #31, .LBB31_216
	sub	x10, x2, #3
	and	x9, x9, #0xff
	subs	x17, x10, x9
	b.lo	.LBB31_216
	add	x1, x8, #3
	b	.LBB31_176
.LBB31_216:
	add	x0, sp, #80
	mov	x1, x8
	mov	w3, #48
	mov	x20, x15
	mov	x23, x13
	mov	x22, x16
	bl	_RNvNtNtNtCs00000000001_10pkcs1_tool6proved8der_core5split14split_unlikely
	ldr	x1, [sp, #80]
	cbz	x1, .LBB31_275
	ldr	x9, [sp, #88]
	ldr	x17, [sp, #104]
	mov	x16, x22
	mov	x13, x23
	mov	x15, x20
	cmp	x9, #2
	b.hs	.LBB31_176
	b	.LBB31_223
.LBB31_218:
	cbz	x8, .LBB31_223
	cmp	w10, #129
	b.ne	.LBB31_223
	ldrsb	w8, [x25]
	tbz	w8, #31, .LBB31_223
	sub	x10, x9, #3
	and	x23, x8, #0xff
	subs	x2, x10, x23
	b.lo	.LBB31_223
	add	x25, x1, #3
	add	x1, x25, x23
	sub	x9, x23, #1
	cmp	x9, #38
	b.hi	.LBB31_225
	b	.LBB31_180
.LBB31_223:
	add	x0, sp, #80
	mov	x2, x9
	mov	w3, #6
	mov	x25, x17
	mov	x20, x15
	mov	x22, x13
	mov	x23, x16
	bl	_RNvNtNtNtCs00000000001_10pkcs1_tool6proved8der_core5split14split_unlikely
	ldr	x8, [sp, #80]
	cbz	x8, .LBB31_276
	mov	x9, x8
	ldp	x8, x1, [sp, #88]
	ldr	x2, [sp, #104]
	mov	x16, x23
	mov	x13, x22
	mov	x15, x20
	mov	x17, x25
	mov	x25, x9
	mov	x23, x8
	sub	x9, x8, #1
	cmp	x9, #38
	b.ls	.LBB31_180
.LBB31_225:
	mov	w9, #5
.LBB31_226:
	lsr	x8, x9, #8
.LBB31_227:
	bfi	w9, w8, #8, #24
.LBB31_228:
	lsr	w8, w9, #16
	strh	w9, [x19]
.LBB31_229:
	mov	w9, #2
	strb	w8, [x19, #2]
.LBB31_230:
	strb	w9, [x19, #104]
.LBB31_231:
	ldp	x20, x19, [sp, #192]
	ldp	x22, x21, [sp, #176]
	ldp	x24, x23, [sp, #160]
	ldp	x26, x25, [sp, #144]
	ldp	x28, x27, [sp, #128]
	ldp	x29, x30, [sp, #112]
	add	sp, sp, #208
	.cfi_def_cfa_offset 0
	.cfi_restore w19
	.cfi_restore w20
	.cfi_restore w21
	.cfi_restore w22
	.cfi_restore w23
	.cfi_restore w24
	.cfi_restore w25
	.cfi_restore w26
	.cfi_restore w27
	.cfi_restore w28
	.cfi_restore w30
	.cfi_restore w29
	ret
.LBB31_232:
	.cfi_restore_state
	mov	w27, #1
	mov	w21, #20
.LBB31_233:
	cbz	x15, .LBB31_236
	mov	w8, #1
.LBB31_235:
	lsr	w9, w24, #16
	str	x29, [x19]
	strh	w24, [x19, #8]
	strb	w9, [x19, #10]
	ldr	x9, [sp, #72]
	strb	wzr, [x19, #15]
	stp	x13, x9, [x19, #16]
	lsr	w9, w23, #16
	stur	wzr, [x19, #11]
	strb	w9, [x19, #50]
	ldr	x9, [sp, #64]
	stp	x16, x25, [x19, #32]
	strh	w23, [x19, #48]
	strb	wzr, [x19, #55]
	stur	wzr, [x19, #51]
	stp	x9, x14, [x19, #56]
	stp	x20, x12, [x19, #72]
	str	x22, [x19, #88]
	strb	w21, [x19, #96]
	strb	w8, [x19, #104]
	strb	w27, [x19, #105]
	b	.LBB31_231
.LBB31_236:
	mov	x8, xzr
	b	.LBB31_607
.LBB31_237:
	and	w9, w9, #0xff
	cmp	w9, #130
	b.ne	.LBB31_277
	cmp	x8, #1
	b.ls	.LBB31_291
	ldrb	w8, [x15, #2]
	cbz	x8, .LBB31_291
	ldrb	w9, [x15, #3]
	orr	x2, x9, x8, lsl #8
	sub	x8, x26, #4
	subs	x8, x8, x2
	b.lo	.LBB31_291
	add	x1, x15, #4
	b	.LBB31_282
.LBB31_242:
	and	w9, w9, #0xff
	cmp	w9, #130
	b.ne	.LBB31_308
	cmp	x8, #1
	b.ls	.LBB31_313
	ldrb	w8, [x15, #2]
	cbz	x8, .LBB31_313
	ldrb	w9, [x15, #3]
	orr	x2, x9, x8, lsl #8
	sub	x8, x26, #4
	subs	x17, x8, x2
	b.lo	.LBB31_313
	add	x1, x15, #4
	b	.LBB31_62
.LBB31_247:
	mov	w27, #1
	mov	w21, #20
	cmp	w8, #163
	b.eq	.LBB31_58
	b	.LBB31_526
.LBB31_248:
	cbnz	x21, .LBB31_522
	mov	x13, xzr
	mov	w8, wzr
	b	.LBB31_17
.LBB31_250:
	and	w9, w9, #0xff
	cmp	w9, #130
	b.ne	.LBB31_315
	cmp	x10, #1
	b.ls	.LBB31_325
	ldrb	w8, [x8]
	cbz	x8, .LBB31_325
	ldrb	w9, [x1, #3]
	orr	x9, x9, x8, lsl #8
	sub	x8, x2, #4
	cmp	x9, x8
	b.hi	.LBB31_325
	add	x8, x1, #4
	b	.LBB31_320
.LBB31_255:
	mov	x0, xzr
	add	x13, x29, #1
	mov	w11, #5
	b	.LBB31_257
.LBB31_256:
	add	x0, x0, #1
	add	x13, x13, #1
	cmp	x12, x0
	b.eq	.LBB31_140
.LBB31_257:
	ldrb	w14, [x13]
	cmp	w14, #128
	b.ne	.LBB31_256
	cmp	x0, x24
	b.hs	.LBB31_611
	ldursb	w14, [x13, #-1]
	tbnz	w14, #31, .LBB31_256
	b	.LBB31_162
.LBB31_260:
	ldrb	w8, [sp, #90]
	ldrh	w9, [sp, #88]
	orr	w11, w9, w8, lsl #16
	lsr	w8, w11, #8
	b	.LBB31_163
.LBB31_261:
	ldrb	w8, [sp, #90]
	ldrh	w9, [sp, #88]
	orr	x11, x9, x8, lsl #16
	b	.LBB31_162
.LBB31_262:
	ldrb	w8, [sp, #90]
	ldrh	w9, [sp, #88]
	orr	w11, w9, w8, lsl #16
	b	.LBB31_164
.LBB31_263:
	and	w9, w9, #0xff
	cmp	w9, #130
	b.ne	.LBB31_333
	cmp	x8, #1
	b.ls	.LBB31_349
	ldrb	w8, [x15, #2]
	cbz	x8, .LBB31_349
	ldrb	w9, [x15, #3]
	orr	x2, x9, x8, lsl #8
	sub	x8, x26, #4
	subs	x8, x8, x2
	b.lo	.LBB31_349
	add	x1, x15, #4
	b	.LBB31_338
.LBB31_268:
	cbz	x17, .LBB31_385
.LBB31_269:
	mov	w9, #12
	b	.LBB31_227
.LBB31_270:
	mov	x0, xzr
	add	x11, x25, #1
	mov	w9, #5
	b	.LBB31_272
.LBB31_271:
	add	x0, x0, #1
	add	x11, x11, #1
	cmp	x10, x0
	b.eq	.LBB31_195
.LBB31_272:
	ldrb	w12, [x11]
	cmp	w12, #128
	b.ne	.LBB31_271
	cmp	x0, x23
	b.hs	.LBB31_612
	ldursb	w12, [x11, #-1]
	tbnz	w12, #31, .LBB31_271
	b	.LBB31_226
.LBB31_275:
	ldrb	w8, [sp, #90]
	ldrh	w9, [sp, #88]
	orr	w9, w9, w8, lsl #16
	lsr	w8, w9, #8
	b	.LBB31_227
.LBB31_276:
	ldrb	w8, [sp, #90]
	ldrh	w9, [sp, #88]
	orr	x9, x9, x8, lsl #16
	b	.LBB31_226
.LBB31_277:
	cbz	x8, .LBB31_291
	cmp	w9, #129
	b.ne	.LBB31_291
	ldrsb	w8, [x1]
	tbz	w8, #31, .LBB31_291
	sub	x9, x26, #3
	and	x2, x8, #0xff
	subs	x8, x9, x2
	b.lo	.LBB31_291
	add	x1, x15, #3
.LBB31_282:
	add	x15, x1, x2
	mov	x26, x8
	mov	x8, x1
	ldrb	w9, [x8], #2
	cmp	w9, #2
	b.ne	.LBB31_298
.LBB31_283:
	ldrsb	w10, [x1, #1]
	sub	x9, x2, #2
	tbnz	w10, #31, .LBB31_285
	and	x10, x10, #0xff
	subs	x9, x9, x10
	b.hs	.LBB31_300
	b	.LBB31_298
.LBB31_285:
	and	w10, w10, #0xff
	cmp	w10, #130
	b.ne	.LBB31_293
	cmp	x9, #1
	b.ls	.LBB31_298
	ldrb	w8, [x1, #2]
	cbz	x8, .LBB31_298
	ldrb	w9, [x1, #3]
	orr	x10, x9, x8, lsl #8
	sub	x8, x2, #4
	subs	x9, x8, x10
	b.lo	.LBB31_298
	add	x8, x1, #4
	b	.LBB31_300
.LBB31_290:
	ldrb	w8, [sp, #90]
	ldrh	w9, [sp, #88]
	orr	w9, w9, w8, lsl #16
	b	.LBB31_228
.LBB31_291:
	add	x0, sp, #80
	mov	x1, x15
	mov	x2, x26
	mov	w3, #162
	stp	x22, x12, [sp, #48]
	mov	x28, x14
	mov	x22, x13
	mov	x21, x16
	bl	_RNvNtNtNtCs00000000001_10pkcs1_tool6proved8der_core5split14split_unlikely
	ldr	x1, [sp, #80]
	cbz	x1, .LBB31_475
	ldp	x2, x15, [sp, #88]
	mov	x13, x22
	ldp	x22, x12, [sp, #48]
	mov	x16, x21
	ldr	x26, [sp, #104]
	mov	x14, x28
	cmp	x2, #2
	b.hs	.LBB31_46
	b	.LBB31_298
.LBB31_293:
	cbz	x9, .LBB31_298
	cmp	w10, #129
	b.ne	.LBB31_298
	ldrsb	w8, [x8]
	tbz	w8, #31, .LBB31_298
	sub	x9, x2, #3
	and	x10, x8, #0xff
	subs	x9, x9, x10
	b.lo	.LBB31_298
	add	x8, x1, #3
	b	.LBB31_300
.LBB31_298:
	add	x0, sp, #80
	mov	w3, #2
	stp	x22, x12, [sp, #48]
	str	x20, [sp, #40]
	mov	x20, x15
	mov	x22, x14
	mov	x28, x13
	mov	x27, x16
	bl	_RNvNtNtNtCs00000000001_10pkcs1_tool6proved8der_core5split14split_unlikely
	ldr	x8, [sp, #80]
	cbz	x8, .LBB31_386
	mov	x14, x22
	mov	x15, x20
	ldr	x10, [sp, #88]
	ldp	x20, x22, [sp, #40]
	ldr	x9, [sp, #104]
	ldr	x12, [sp, #56]
	mov	x16, x27
	mov	x13, x28
.LBB31_300:
	cbz	x10, .LBB31_376
	cmp	x10, #1
	b.ne	.LBB31_305
	ldrsb	w8, [x8]
	tbnz	w8, #31, .LBB31_532
.LBB31_303:
	and	w21, w8, #0xff
	cbnz	x9, .LBB31_375
	mov	w27, wzr
	b	.LBB31_56
.LBB31_305:
	ldrb	w11, [x8]
	cbnz	w11, .LBB31_532
	ldrsb	w8, [x8, #1]
	tbz	w8, #31, .LBB31_379
	sub	x10, x10, #3
	cmn	x10, #2
	b.hs	.LBB31_303
	b	.LBB31_532
.LBB31_308:
	cbz	x8, .LBB31_313
	cmp	w9, #129
	b.ne	.LBB31_313
	ldrsb	w8, [x1]
	tbz	w8, #31, .LBB31_313
	sub	x9, x26, #3
	and	x2, x8, #0xff
	subs	x17, x9, x2
	b.lo	.LBB31_313
	add	x1, x15, #3
	b	.LBB31_62
.LBB31_313:
	add	x0, sp, #80
	mov	x1, x15
	mov	x2, x26
	mov	w3, #163
	stp	x22, x12, [sp, #48]
	mov	x22, x13
	str	x14, [sp, #32]
	mov	x28, x16
	bl	_RNvNtNtNtCs00000000001_10pkcs1_tool6proved8der_core5split14split_unlikely
	ldr	x1, [sp, #80]
	cbz	x1, .LBB31_589
	mov	x13, x22
	ldp	x22, x12, [sp, #48]
	ldr	x2, [sp, #88]
	ldr	x17, [sp, #104]
	mov	x16, x28
	ldr	x14, [sp, #32]
	cmp	x2, #2
	b.hs	.LBB31_62
	b	.LBB31_325
.LBB31_315:
	cbz	x10, .LBB31_325
	cmp	w9, #129
	b.ne	.LBB31_325
	ldrsb	w8, [x1, #2]
	tbz	w8, #31, .LBB31_325
	sub	x10, x2, #3
	and	x9, x8, #0xff
	cmp	x10, x9
	b.lo	.LBB31_325
	add	x8, x1, #3
.LBB31_320:
	ldrsb	w11, [x8]
	cbz	w11, .LBB31_323
	mov	w10, #2
	tbnz	w11, #31, .LBB31_395
	cmp	x9, #1
	csel	w10, w10, w11, hi
	mov	w8, #13
	bfi	x8, x10, #8, #8
	and	x9, x8, #0xff
	cmp	x9, #17
	b.eq	.LBB31_396
	b	.LBB31_543
.LBB31_323:
	ldrsb	w8, [x8, #1]
	mov	w10, #2
	tbnz	w8, #31, .LBB31_394
	mov	w8, #4
	bfi	x8, x10, #8, #8
	and	x9, x8, #0xff
	cmp	x9, #17
	b.eq	.LBB31_396
	b	.LBB31_543
.LBB31_325:
	add	x0, sp, #80
	mov	w3, #2
	stp	x17, x20, [sp, #32]
	stp	x22, x12, [sp, #48]
	mov	x22, x14
	mov	x26, x13
	mov	x20, x16
	bl	_RNvNtNtNtCs00000000001_10pkcs1_tool6proved8der_core5split14split_unlikely
	ldr	x8, [sp, #80]
	cbz	x8, .LBB31_428
	mov	x16, x20
	mov	x14, x22
	ldr	x9, [sp, #88]
	ldp	x20, x22, [sp, #40]
	ldr	x10, [sp, #104]
	ldr	x12, [sp, #56]
	ldr	x17, [sp, #32]
	mov	x13, x26
	cbnz	x9, .LBB31_66
.LBB31_327:
	mov	w10, #2
	mov	w8, #3
	bfi	x8, x10, #8, #8
	and	x9, x8, #0xff
	cmp	x9, #17
	b.eq	.LBB31_396
	b	.LBB31_543
.LBB31_328:
	and	w9, w9, #0xff
	cmp	w9, #130
	b.ne	.LBB31_389
	cmp	x8, #1
	b.ls	.LBB31_414
	ldrb	w8, [x15, #2]
	cbz	x8, .LBB31_414
	ldrb	w9, [x15, #3]
	orr	x2, x9, x8, lsl #8
	sub	x8, x26, #4
	subs	x17, x8, x2
	b.lo	.LBB31_414
	add	x1, x15, #4
	b	.LBB31_99
.LBB31_333:
	cbz	x8, .LBB31_349
	cmp	w9, #129
	b.ne	.LBB31_349
	ldrsb	w8, [x1]
	tbz	w8, #31, .LBB31_349
	sub	x9, x26, #3
	and	x2, x8, #0xff
	subs	x8, x9, x2
	b.lo	.LBB31_349
	add	x1, x15, #3
.LBB31_338:
	add	x18, x1, x2
	mov	x26, x8
	b	.LBB31_351
.LBB31_339:
	and	w9, w9, #0xff
	cmp	w9, #130
	b.ne	.LBB31_397
	cmp	x10, #1
	b.ls	.LBB31_402
	ldrb	w8, [x1, #2]
	cbz	x8, .LBB31_402
	ldrb	w9, [x1, #3]
	orr	x9, x9, x8, lsl #8
	sub	x8, x2, #4
	subs	x18, x8, x9
	b.lo	.LBB31_402
	add	x8, x1, #4
	b	.LBB31_405
.LBB31_344:
	and	w8, w8, #0xff
	cmp	w8, #130
	b.ne	.LBB31_416
	cmp	x9, #1
	b.ls	.LBB31_421
	ldrb	w8, [x1, #2]
	cbz	x8, .LBB31_421
	ldrb	w9, [x1, #3]
	orr	x8, x9, x8, lsl #8
	sub	x9, x2, #4
	subs	x9, x9, x8
	b.lo	.LBB31_421
	stp	x9, x17, [sp, #24]
	mov	x26, x14
	mov	x28, x13
	str	x22, [sp, #48]
	mov	x22, x15
	mov	x27, x16
	add	x0, x1, #4
	b	.LBB31_424
.LBB31_349:
	add	x0, sp, #80
	mov	x1, x15
	mov	x2, x26
	mov	w3, #162
	stp	x22, x12, [sp, #48]
	mov	x28, x14
	str	x20, [sp, #40]
	mov	x22, x13
	mov	x21, x16
	mov	x20, x15
	bl	_RNvNtNtNtCs00000000001_10pkcs1_tool6proved8der_core5split14split_unlikely
	ldr	x1, [sp, #80]
	cbz	x1, .LBB31_475
	ldp	x2, x18, [sp, #88]
	mov	x13, x22
	mov	x15, x20
	ldp	x20, x22, [sp, #40]
	ldr	x26, [sp, #104]
	ldr	x12, [sp, #56]
	mov	x16, x21
	mov	x14, x28
	cmp	x2, #2
	b.lo	.LBB31_369
.LBB31_351:
	mov	x8, x1
	ldrb	w9, [x8], #2
	cmp	w9, #2
	b.ne	.LBB31_369
	ldrsb	w10, [x1, #1]
	sub	x9, x2, #2
	tbnz	w10, #31, .LBB31_354
	and	x10, x10, #0xff
	subs	x9, x9, x10
	b.hs	.LBB31_371
	b	.LBB31_369
.LBB31_354:
	and	w10, w10, #0xff
	cmp	w10, #130
	b.ne	.LBB31_364
	cmp	x9, #1
	b.ls	.LBB31_369
	ldrb	w8, [x1, #2]
	cbz	x8, .LBB31_369
	ldrb	w9, [x1, #3]
	orr	x10, x9, x8, lsl #8
	sub	x8, x2, #4
	subs	x9, x8, x10
	b.lo	.LBB31_369
	add	x8, x1, #4
	b	.LBB31_371
.LBB31_359:
	and	w9, w9, #0xff
	cmp	w9, #130
	b.ne	.LBB31_461
	cmp	x8, #1
	b.ls	.LBB31_467
	ldrb	w8, [x15, #2]
	cbz	x8, .LBB31_467
	ldrb	w9, [x15, #3]
	orr	x2, x9, x8, lsl #8
	sub	x8, x26, #4
	subs	x8, x8, x2
	b.lo	.LBB31_467
	add	x1, x15, #4
	b	.LBB31_466
.LBB31_364:
	cbz	x9, .LBB31_369
	cmp	w10, #129
	b.ne	.LBB31_369
	ldrsb	w8, [x8]
	tbz	w8, #31, .LBB31_369
	sub	x9, x2, #3
	and	x10, x8, #0xff
	subs	x9, x9, x10
	b.lo	.LBB31_369
	add	x8, x1, #3
	b	.LBB31_371
.LBB31_369:
	add	x0, sp, #80
	mov	w3, #2
	stp	x18, x20, [sp, #32]
	stp	x22, x12, [sp, #48]
	mov	x20, x15
	mov	x22, x14
	mov	x27, x13
	mov	x28, x16
	bl	_RNvNtNtNtCs00000000001_10pkcs1_tool6proved8der_core5split14split_unlikely
	ldr	x8, [sp, #80]
	cbz	x8, .LBB31_496
	mov	x14, x22
	mov	x15, x20
	ldr	x10, [sp, #88]
	ldp	x20, x22, [sp, #40]
	ldr	x9, [sp, #104]
	ldr	x12, [sp, #56]
	ldr	x18, [sp, #32]
	mov	x16, x28
	mov	x13, x27
.LBB31_371:
	cbz	x10, .LBB31_376
	cmp	x10, #1
	b.ne	.LBB31_377
	ldrsb	w8, [x8]
	tbnz	w8, #31, .LBB31_532
.LBB31_374:
	and	w21, w8, #0xff
	cbz	x9, .LBB31_498
.LBB31_375:
	mov	w8, #12
	b	.LBB31_534
.LBB31_376:
	mov	w9, wzr
	mov	w8, #3
	b	.LBB31_533
.LBB31_377:
	ldrb	w11, [x8]
	cbnz	w11, .LBB31_532
	ldrsb	w8, [x8, #1]
	tbnz	w8, #31, .LBB31_531
.LBB31_379:
	mov	w9, wzr
	mov	w8, #4
	b	.LBB31_533
.LBB31_380:
	and	w11, w11, #0xff
	cmp	w11, #130
	b.ne	.LBB31_512
	cmp	x10, #1
	b.ls	.LBB31_517
	ldrb	w10, [x9, #2]
	cbz	x10, .LBB31_517
	ldrb	w11, [x9, #3]
	orr	x11, x11, x10, lsl #8
	sub	x10, x8, #4
	subs	x10, x10, x11
	str	x11, [sp, #72]
	b.lo	.LBB31_517
	add	x13, x9, #4
	b	.LBB31_519
.LBB31_385:
	str	xzr, [sp, #64]
	mov	w8, wzr
	b	.LBB31_39
.LBB31_386:
	ldrh	w10, [sp, #88]
	ldrb	w9, [sp, #90]
	mov	w8, w10
	lsr	w21, w10, #8
	bfi	w8, w9, #16, #8
	and	w8, w8, #0xff
	cmp	w8, #17
	b.ne	.LBB31_548
	mov	x16, x27
	mov	x13, x28
	mov	x14, x22
	mov	w27, wzr
	b	.LBB31_547
.LBB31_388:
	mov	w10, #2
	mov	w8, #13
	bfi	x8, x10, #8, #8
	and	x9, x8, #0xff
	cmp	x9, #17
	b.eq	.LBB31_396
	b	.LBB31_543
.LBB31_389:
	cbz	x8, .LBB31_414
	cmp	w9, #129
	b.ne	.LBB31_414
	ldrsb	w8, [x1]
	tbz	w8, #31, .LBB31_414
	sub	x9, x26, #3
	and	x2, x8, #0xff
	subs	x17, x9, x2
	b.lo	.LBB31_414
	add	x1, x15, #3
	b	.LBB31_99
.LBB31_394:
	sub	x9, x9, #3
	cmn	x9, #2
	csel	w10, w10, w8, lo
	b.hs	.LBB31_605
.LBB31_395:
	mov	w8, #13
	bfi	x8, x10, #8, #8
	and	x9, x8, #0xff
	cmp	x9, #17
	b.ne	.LBB31_543
.LBB31_396:
	mov	w8, #1
	cbnz	x17, .LBB31_526
	b	.LBB31_235
.LBB31_397:
	cbz	x10, .LBB31_402
	cmp	w9, #129
	b.ne	.LBB31_402
	ldrsb	w8, [x8]
	tbz	w8, #31, .LBB31_402
	sub	x10, x2, #3
	and	x9, x8, #0xff
	subs	x18, x10, x9
	b.lo	.LBB31_402
	add	x8, x1, #3
	b	.LBB31_405
.LBB31_402:
	add	x0, sp, #80
	mov	w3, #48
	stp	x25, x23, [sp, #48]
	mov	x25, x17
	mov	x20, x15
	mov	x22, x13
	mov	x23, x16
	bl	_RNvNtNtNtCs00000000001_10pkcs1_tool6proved8der_core5split14split_unlikely
	ldr	x8, [sp, #80]
	cbz	x8, .LBB31_535
	mov	x16, x23
	mov	x17, x25
	ldr	x9, [sp, #88]
	ldp	x25, x23, [sp, #48]
	ldr	x18, [sp, #104]
	mov	x13, x22
	mov	x15, x20
.LBB31_404:
	cmp	x9, #2
	b.lo	.LBB31_434
.LBB31_405:
	mov	x11, x8
	ldrb	w10, [x11], #2
	str	x11, [sp, #64]
	cmp	w10, #6
	b.ne	.LBB31_434
	ldrsb	w11, [x8, #1]
	sub	x10, x9, #2
	tbnz	w11, #31, .LBB31_409
	and	x14, x11, #0xff
	subs	x2, x10, x14
	b.lo	.LBB31_434
	ldr	x8, [sp, #64]
	add	x1, x8, x14
	sub	x9, x14, #1
	cmp	x9, #38
	b.hi	.LBB31_458
	b	.LBB31_436
.LBB31_409:
	and	w11, w11, #0xff
	cmp	w11, #130
	b.ne	.LBB31_429
	cmp	x10, #1
	b.ls	.LBB31_434
	ldrb	w10, [x8, #2]
	cbz	x10, .LBB31_434
	ldrb	w11, [x8, #3]
	orr	x14, x11, x10, lsl #8
	sub	x10, x9, #4
	subs	x2, x10, x14
	b.lo	.LBB31_434
	add	x8, x8, #4
	str	x8, [sp, #64]
	add	x1, x8, x14
	sub	x9, x14, #1
	cmp	x9, #38
	b.hi	.LBB31_458
	b	.LBB31_436
.LBB31_414:
	add	x0, sp, #80
	mov	x1, x15
	mov	x2, x26
	mov	w3, #163
	stp	x14, x20, [sp, #32]
	mov	x28, x22
	mov	x22, x13
	mov	x27, x16
	mov	x20, x15
	bl	_RNvNtNtNtCs00000000001_10pkcs1_tool6proved8der_core5split14split_unlikely
	ldr	x1, [sp, #80]
	cbz	x1, .LBB31_589
	mov	x15, x20
	ldp	x14, x20, [sp, #32]
	ldr	x2, [sp, #88]
	ldr	x17, [sp, #104]
	mov	x16, x27
	ldr	x12, [sp, #56]
	mov	x13, x22
	mov	x22, x28
	cmp	x2, #2
	b.hs	.LBB31_99
	b	.LBB31_421
.LBB31_416:
	cbz	x9, .LBB31_421
	cmp	w8, #129
	b.ne	.LBB31_421
	ldrsb	w8, [x0]
	tbz	w8, #31, .LBB31_421
	sub	x9, x2, #3
	and	x8, x8, #0xff
	subs	x9, x9, x8
	b.lo	.LBB31_421
	str	x22, [sp, #48]
	mov	x22, x15
	mov	x26, x14
	mov	x28, x13
	mov	x27, x16
	add	x0, x1, #3
	stp	x9, x17, [sp, #24]
	b	.LBB31_424
.LBB31_421:
	add	x0, sp, #80
	mov	w3, #2
	stp	x17, x20, [sp, #32]
	mov	x26, x22
	mov	x20, x15
	mov	x22, x14
	mov	x28, x13
	mov	x27, x16
	bl	_RNvNtNtNtCs00000000001_10pkcs1_tool6proved8der_core5split14split_unlikely
	ldr	x0, [sp, #80]
	cbz	x0, .LBB31_542
	mov	x15, x20
	ldp	x17, x20, [sp, #32]
	ldr	x8, [sp, #88]
	ldr	x9, [sp, #104]
	mov	x16, x27
	ldr	x12, [sp, #56]
	mov	x13, x28
	mov	x14, x22
	cmp	x8, #1
	str	x26, [sp, #48]
	b.eq	.LBB31_103
.LBB31_423:
	stp	x9, x17, [sp, #24]
	mov	x22, x15
	mov	x26, x14
	mov	x28, x13
	mov	x27, x16
.LBB31_424:
	mov	x1, x8
	bl	_RNvNtNtNtNtCs00000000001_10pkcs1_tool6proved8der_core7integer5small5small
	and	w9, w0, #0xff
	ubfx	w8, w0, #8, #8
	ldr	x12, [sp, #56]
	cmp	w9, #17
	ldp	x9, x17, [sp, #24]
	mov	x16, x27
	mov	x13, x28
	mov	x14, x26
	mov	x15, x22
	b.ne	.LBB31_524
.LBB31_425:
	cmp	w8, #1
	b.ne	.LBB31_605
	ldr	x22, [sp, #48]
	cbz	x9, .LBB31_525
.LBB31_427:
	mov	x9, xzr
	mov	w8, #12
	b	.LBB31_606
.LBB31_428:
	ldrb	w8, [sp, #90]
	ldrh	w9, [sp, #88]
	mov	x16, x20
	mov	x14, x22
	ldp	x20, x22, [sp, #40]
	orr	x8, x9, x8, lsl #16
	ldr	x12, [sp, #56]
	ldr	x17, [sp, #32]
	mov	x13, x26
	and	x9, x8, #0xff
	cmp	x9, #17
	b.eq	.LBB31_396
	b	.LBB31_543
.LBB31_429:
	cbz	x10, .LBB31_434
	cmp	w11, #129
	b.ne	.LBB31_434
	ldr	x10, [sp, #64]
	ldrsb	w10, [x10]
	tbz	w10, #31, .LBB31_434
	sub	x11, x9, #3
	and	x14, x10, #0xff
	subs	x2, x11, x14
	b.lo	.LBB31_434
	add	x8, x8, #3
	str	x8, [sp, #64]
	add	x1, x8, x14
	sub	x9, x14, #1
	cmp	x9, #38
	b.hi	.LBB31_458
	b	.LBB31_436
.LBB31_434:
	add	x0, sp, #80
	mov	x1, x8
	mov	x2, x9
	mov	w3, #6
	stp	x18, x25, [sp, #40]
	mov	x25, x17
	mov	x20, x15
	str	x23, [sp, #56]
	mov	x22, x13
	str	x16, [sp, #8]
	bl	_RNvNtNtNtCs00000000001_10pkcs1_tool6proved8der_core5split14split_unlikely
	ldr	x8, [sp, #80]
	str	x8, [sp, #64]
	cbz	x8, .LBB31_544
	ldp	x14, x1, [sp, #88]
	mov	x17, x25
	ldp	x25, x23, [sp, #48]
	mov	x13, x22
	ldr	x2, [sp, #104]
	ldr	x16, [sp, #8]
	mov	x15, x20
	ldr	x18, [sp, #40]
	sub	x9, x14, #1
	cmp	x9, #38
	b.hi	.LBB31_458
.LBB31_436:
	ldr	x8, [sp, #64]
	ldrsb	w8, [x8, x9]
	tbnz	w8, #31, .LBB31_449
	movi	v0.8b, #128
	movi	v1.4h, #128
	ldr	x10, [sp, #64]
	b	.LBB31_440
.LBB31_438:
	mov	x11, #-1
	mov	w12, #1
.LBB31_439:
	add	x9, x11, x9
	add	x10, x10, x12
.LBB31_440:
	cmp	x9, #7
	b.ls	.LBB31_443
	ldr	d2, [x10]
	cmeq	v2.8b, v2.8b, v0.8b
	umaxv	b2, v2.8b
	fmov	w11, s2
	tbnz	w11, #0, .LBB31_448
	mov	x11, #-8
	mov	w12, #8
	b	.LBB31_439
.LBB31_443:
	cmp	x9, #3
	b.ls	.LBB31_446
	ldr	s2, [x10]
	ushll	v2.8h, v2.8b, #0
	cmeq	v2.4h, v2.4h, v1.4h
	umaxv	h2, v2.4h
	fmov	w11, s2
	tbnz	w11, #0, .LBB31_448
	mov	x11, #-4
	mov	w12, #4
	b	.LBB31_439
.LBB31_446:
	cbz	x9, .LBB31_452
	ldrb	w11, [x10]
	cmp	w11, #128
	b.ne	.LBB31_438
.LBB31_448:
	cbz	x14, .LBB31_452
.LBB31_449:
	ldr	x9, [sp, #64]
	ldrb	w9, [x9]
	cmp	w9, #128
	b.eq	.LBB31_458
	subs	x10, x14, #1
	b.ne	.LBB31_537
.LBB31_451:
	tbnz	w8, #31, .LBB31_458
.LBB31_452:
	cbz	x2, .LBB31_536
	ldrb	w22, [x1]
	mov	w9, #31
	mov	x8, xzr
	bics	wzr, w9, w22
	mov	w9, #11
	b.eq	.LBB31_596
	and	w10, w22, #0xffffffdf
	tst	w10, #0xff
	b.eq	.LBB31_596
	cmp	x2, #1
	b.eq	.LBB31_573
	ldrsb	w9, [x1, #1]
	add	x20, x1, #2
	sub	x8, x2, #2
	tbnz	w9, #31, .LBB31_553
	and	x12, x9, #0xff
	subs	x8, x8, x12
	b.hs	.LBB31_575
	b	.LBB31_573
.LBB31_458:
	mov	w9, #5
.LBB31_459:
	lsr	x8, x9, #8
.LBB31_460:
	and	x9, x9, #0xff
	orr	x9, x9, x8, lsl #8
	b	.LBB31_226
.LBB31_461:
	cbz	x8, .LBB31_467
	cmp	w9, #129
	b.ne	.LBB31_467
	ldrsb	w8, [x1]
	tbz	w8, #31, .LBB31_467
	sub	x9, x26, #3
	and	x2, x8, #0xff
	subs	x8, x9, x2
	b.lo	.LBB31_467
	add	x1, x15, #3
.LBB31_466:
	add	x15, x1, x2
	mov	x26, x8
	b	.LBB31_469
.LBB31_467:
	add	x0, sp, #80
	mov	x1, x15
	mov	x2, x26
	mov	w3, #162
	mov	x28, x14
	mov	x22, x13
	mov	x21, x16
	bl	_RNvNtNtNtCs00000000001_10pkcs1_tool6proved8der_core5split14split_unlikely
	ldr	x1, [sp, #80]
	cbz	x1, .LBB31_475
	ldp	x2, x15, [sp, #88]
	mov	x13, x22
	ldp	x22, x12, [sp, #48]
	mov	x16, x21
	ldr	x26, [sp, #104]
	mov	x14, x28
	cmp	x2, #2
	b.lo	.LBB31_486
.LBB31_469:
	mov	x0, x1
	ldrb	w8, [x0], #2
	cmp	w8, #2
	b.ne	.LBB31_486
	ldrsb	w8, [x1, #1]
	sub	x9, x2, #2
	tbnz	w8, #31, .LBB31_476
	and	x8, x8, #0xff
	subs	x9, x9, x8
	b.lo	.LBB31_486
	cmp	x8, #1
	b.ne	.LBB31_488
.LBB31_473:
	ldrsb	w8, [x0]
	tbnz	w8, #31, .LBB31_532
	and	w21, w8, #0xff
	b	.LBB31_492
.LBB31_475:
	ldrh	w8, [sp, #88]
	ldrb	w9, [sp, #90]
	mov	w10, w8
	lsr	w21, w8, #8
	bfi	w10, w9, #16, #8
	uxth	w9, w9
	and	w8, w10, #0xff
	b	.LBB31_534
.LBB31_476:
	and	w8, w8, #0xff
	cmp	w8, #130
	b.ne	.LBB31_481
	cmp	x9, #1
	b.ls	.LBB31_486
	ldrb	w8, [x1, #2]
	cbz	x8, .LBB31_486
	ldrb	w9, [x1, #3]
	orr	x8, x9, x8, lsl #8
	sub	x9, x2, #4
	subs	x9, x9, x8
	b.lo	.LBB31_486
	stp	x9, x15, [sp, #16]
	mov	x27, x14
	mov	x28, x16
	str	x13, [sp, #32]
	add	x0, x1, #4
	b	.LBB31_490
.LBB31_481:
	cbz	x9, .LBB31_486
	cmp	w8, #129
	b.ne	.LBB31_486
	ldrsb	w8, [x0]
	tbz	w8, #31, .LBB31_486
	sub	x9, x2, #3
	and	x8, x8, #0xff
	subs	x9, x9, x8
	b.lo	.LBB31_486
	mov	x27, x14
	mov	x28, x16
	add	x0, x1, #3
	stp	x9, x15, [sp, #16]
	b	.LBB31_489
.LBB31_486:
	add	x0, sp, #80
	mov	w3, #2
	str	x20, [sp, #40]
	mov	x20, x15
	mov	x22, x14
	mov	x27, x13
	mov	x28, x16
	bl	_RNvNtNtNtCs00000000001_10pkcs1_tool6proved8der_core5split14split_unlikely
	ldr	x0, [sp, #80]
	cbz	x0, .LBB31_545
	mov	x14, x22
	mov	x15, x20
	ldr	x8, [sp, #88]
	ldp	x20, x22, [sp, #40]
	ldr	x9, [sp, #104]
	ldr	x12, [sp, #56]
	mov	x16, x28
	mov	x13, x27
	cmp	x8, #1
	b.eq	.LBB31_473
.LBB31_488:
	stp	x9, x15, [sp, #16]
	mov	x27, x14
	mov	x28, x16
.LBB31_489:
	str	x13, [sp, #32]
.LBB31_490:
	mov	x1, x8
	bl	_RNvNtNtNtNtCs00000000001_10pkcs1_tool6proved8der_core7integer5small5small
	and	w8, w0, #0xff
	ubfx	w21, w0, #8, #8
	cmp	w8, #17
	b.ne	.LBB31_494
	ldp	x15, x13, [sp, #24]
	mov	x16, x28
	ldp	x22, x12, [sp, #48]
	mov	x14, x27
	ldr	x9, [sp, #16]
.LBB31_492:
	cbz	x9, .LBB31_495
	mov	w21, wzr
	mov	w8, #12
	b	.LBB31_534
.LBB31_494:
	mov	w9, wzr
	b	.LBB31_534
.LBB31_495:
	mov	w27, #1
	b	.LBB31_56
.LBB31_496:
	ldrh	w10, [sp, #88]
	ldrb	w9, [sp, #90]
	mov	w8, w10
	lsr	w21, w10, #8
	bfi	w8, w9, #16, #8
	and	w8, w8, #0xff
	cmp	w8, #17
	b.ne	.LBB31_548
	mov	x14, x22
	mov	x15, x20
	ldr	x12, [sp, #56]
	ldp	x20, x22, [sp, #40]
	ldr	x18, [sp, #32]
	mov	x16, x28
	mov	x13, x27
.LBB31_498:
	ldrb	w8, [x15]
	cmp	w8, #162
	b.ne	.LBB31_527
	cmp	w21, #20
	b.ne	.LBB31_527
	cbz	x26, .LBB31_552
	ldrb	w8, [x18]
	cmp	w8, #163
	b.ne	.LBB31_526
	cmp	x26, #1
	b.eq	.LBB31_587
	ldrsb	w9, [x18, #1]
	add	x1, x18, #2
	sub	x8, x26, #2
	tbnz	w9, #31, .LBB31_558
	and	x2, x9, #0xff
	subs	x17, x8, x2
	b.lo	.LBB31_587
	cmp	x2, #2
	b.lo	.LBB31_599
.LBB31_506:
	mov	x0, x1
	ldrb	w8, [x0], #2
	cmp	w8, #2
	b.ne	.LBB31_599
	ldrsb	w8, [x1, #1]
	sub	x9, x2, #2
	tbnz	w8, #31, .LBB31_568
	and	x8, x8, #0xff
	subs	x9, x9, x8
	str	x9, [sp, #24]
	b.lo	.LBB31_599
	cmp	x8, #1
	b.ne	.LBB31_601
.LBB31_510:
	ldrsb	w8, [x0]
	tbnz	w8, #31, .LBB31_597
	and	w8, w8, #0xff
	b	.LBB31_603
.LBB31_512:
	cbz	x10, .LBB31_517
	cmp	w11, #129
	b.ne	.LBB31_517
	ldrsb	w10, [x13]
	tbz	w10, #31, .LBB31_517
	sub	x11, x8, #3
	and	x10, x10, #0xff
	str	x10, [sp, #72]
	subs	x10, x11, x10
	b.lo	.LBB31_517
	add	x13, x9, #3
	b	.LBB31_519
.LBB31_517:
	mov	x22, x2
	mov	x23, x1
	add	x0, sp, #80
	mov	x1, x9
	mov	x2, x8
	mov	x3, x16
	mov	x20, x16
	bl	_RNvNtNtNtCs00000000001_10pkcs1_tool6proved8der_core5split14split_unlikely
	ldr	x13, [sp, #80]
	cbz	x13, .LBB31_549
	ldr	x8, [sp, #88]
	ldr	x10, [sp, #104]
	mov	x1, x23
	mov	x2, x22
	mov	x16, x20
	str	x8, [sp, #72]
.LBB31_519:
	cbz	x10, .LBB31_521
	mov	w11, #12
	b	.LBB31_162
.LBB31_521:
	cbz	x21, .LBB31_529
.LBB31_522:
	mov	w11, #12
	b	.LBB31_163
.LBB31_523:
	mov	w0, #13
	mov	w8, #2
.LBB31_524:
	mov	w8, w8
	and	x9, x0, #0xff
	ldr	x22, [sp, #48]
	orr	x8, x9, x8, lsl #8
	and	x9, x8, #0xff
	cmp	x9, #17
	b.ne	.LBB31_543
.LBB31_525:
	ldrb	w8, [x15]
	mov	w27, #3
	cmp	w8, #163
	cset	w8, eq
	cbz	x17, .LBB31_235
.LBB31_526:
	mov	w8, #12
	mov	w9, #2
	strb	w8, [x19]
	b	.LBB31_230
.LBB31_527:
	cbz	x26, .LBB31_551
	ldrb	w8, [x18]
	mov	x15, x18
	cmp	w8, #163
	b.eq	.LBB31_95
	b	.LBB31_526
.LBB31_529:
	cmp	x24, #5
	b.eq	.LBB31_9
	mov	w8, wzr
	b	.LBB31_17
.LBB31_531:
	sub	x10, x10, #3
	cmn	x10, #2
	b.hs	.LBB31_374
.LBB31_532:
	mov	w9, wzr
	mov	w8, #13
.LBB31_533:
	mov	w21, #2
.LBB31_534:
	orr	w9, w21, w9, lsl #8
	strb	w8, [x19]
	mov	w8, #2
	strb	w8, [x19, #104]
	sturh	w9, [x19, #1]
	b	.LBB31_231
.LBB31_535:
	ldrb	w8, [sp, #90]
	ldrh	w9, [sp, #88]
	orr	x9, x9, x8, lsl #16
	ubfx	x8, x9, #8, #24
	mov	w8, w8
	b	.LBB31_460
.LBB31_536:
	mov	x20, xzr
	b	.LBB31_577
.LBB31_537:
	ldr	x9, [sp, #64]
	mov	x0, xzr
	add	x11, x9, #1
	mov	w9, #5
	b	.LBB31_539
.LBB31_538:
	add	x0, x0, #1
	add	x11, x11, #1
	cmp	x10, x0
	b.eq	.LBB31_451
.LBB31_539:
	ldrb	w12, [x11]
	cmp	w12, #128
	b.ne	.LBB31_538
	cmp	x0, x14
	b.hs	.LBB31_613
	ldursb	w12, [x11, #-1]
	tbnz	w12, #31, .LBB31_538
	b	.LBB31_459
.LBB31_542:
	ldrb	w8, [sp, #90]
	ldrh	w9, [sp, #88]
	mov	x15, x20
	ldp	x17, x20, [sp, #32]
	mov	x16, x27
	orr	x8, x9, x8, lsl #16
	ldr	x12, [sp, #56]
	mov	x13, x28
	mov	x14, x22
	mov	x22, x26
	and	x9, x8, #0xff
	cmp	x9, #17
	b.eq	.LBB31_525
.LBB31_543:
	and	x9, x8, #0xffff00
	b	.LBB31_606
.LBB31_544:
	ldrb	w8, [sp, #90]
	ldrh	w9, [sp, #88]
	orr	x9, x9, x8, lsl #16
	b	.LBB31_459
.LBB31_545:
	ldrh	w10, [sp, #88]
	ldrb	w9, [sp, #90]
	mov	w8, w10
	lsr	w21, w10, #8
	bfi	w8, w9, #16, #8
	and	w8, w8, #0xff
	cmp	w8, #17
	b.ne	.LBB31_548
	mov	x16, x28
	mov	x13, x27
	mov	x14, x22
	mov	w27, #1
.LBB31_547:
	mov	x15, x20
	ldp	x20, x22, [sp, #40]
	ldr	x12, [sp, #56]
	b	.LBB31_56
.LBB31_548:
	uxth	w9, w9
	b	.LBB31_534
.LBB31_549:
	ldrb	w8, [sp, #90]
	ldrh	w9, [sp, #88]
	orr	w8, w9, w8, lsl #16
	lsr	w16, w8, #8
	and	w11, w8, #0xff
	and	w10, w16, #0xff00
.LBB31_550:
	mov	w8, w16
	and	x8, x8, #0xff
	orr	x8, x10, x8
	orr	x11, x11, x8, lsl #8
	b	.LBB31_162
.LBB31_551:
	mov	w8, wzr
	mov	w27, #2
	b	.LBB31_235
.LBB31_552:
	mov	w21, #20
	mov	w8, #1
	mov	w27, #2
	b	.LBB31_235
.LBB31_553:
	and	w9, w9, #0xff
	cmp	w9, #130
	b.ne	.LBB31_563
	cmp	x8, #1
	b.ls	.LBB31_573
	ldrb	w8, [x1, #2]
	cbz	x8, .LBB31_573
	ldrb	w9, [x1, #3]
	orr	x12, x9, x8, lsl #8
	sub	x8, x2, #4
	subs	x8, x8, x12
	b.lo	.LBB31_573
	add	x20, x1, #4
	b	.LBB31_575
.LBB31_558:
	and	w9, w9, #0xff
	cmp	w9, #130
	b.ne	.LBB31_582
	cmp	x8, #1
	b.ls	.LBB31_587
	ldrb	w8, [x18, #2]
	cbz	x8, .LBB31_587
	ldrb	w9, [x18, #3]
	orr	x2, x9, x8, lsl #8
	sub	x8, x26, #4
	subs	x17, x8, x2
	b.lo	.LBB31_587
	add	x1, x18, #4
	b	.LBB31_506
.LBB31_563:
	cbz	x8, .LBB31_573
	cmp	w9, #129
	b.ne	.LBB31_573
	ldrsb	w8, [x20]
	tbz	w8, #31, .LBB31_573
	sub	x9, x2, #3
	and	x12, x8, #0xff
	subs	x8, x9, x12
	b.lo	.LBB31_573
	add	x20, x1, #3
	b	.LBB31_575
.LBB31_568:
	and	w8, w8, #0xff
	str	x20, [sp, #40]
	cmp	w8, #130
	str	x12, [sp, #56]
	b.ne	.LBB31_590
	cmp	x9, #1
	b.ls	.LBB31_599
	ldrb	w8, [x1, #2]
	cbz	x8, .LBB31_598
	ldrb	w9, [x1, #3]
	orr	x8, x9, x8, lsl #8
	sub	x9, x2, #4
	subs	x9, x9, x8
	b.lo	.LBB31_598
	str	x9, [sp, #24]
	mov	x21, x17
	mov	x28, x14
	mov	x26, x13
	mov	x20, x16
	add	x0, x1, #4
	b	.LBB31_602
.LBB31_573:
	mov	x3, x22
	add	x0, sp, #80
	stp	x18, x25, [sp, #40]
	mov	x25, x17
	stp	x15, x14, [sp, #24]
	mov	x22, x13
	str	x23, [sp, #56]
	mov	x20, x3
	str	x16, [sp, #8]
	bl	_RNvNtNtNtCs00000000001_10pkcs1_tool6proved8der_core5split14split_unlikely
	ldr	x8, [sp, #80]
	cbz	x8, .LBB31_595
	ldp	x15, x14, [sp, #24]
	mov	x17, x25
	ldp	x25, x23, [sp, #48]
	mov	x9, x8
	ldr	x12, [sp, #88]
	ldr	x8, [sp, #104]
	mov	x13, x22
	ldr	x16, [sp, #8]
	ldr	x18, [sp, #40]
	mov	x22, x20
	mov	x20, x9
.LBB31_575:
	cbz	x8, .LBB31_577
	mov	w9, #12
	b	.LBB31_459
.LBB31_577:
	cbz	x18, .LBB31_579
	mov	w9, #12
	b	.LBB31_226
.LBB31_579:
	cbnz	x17, .LBB31_269
	cmp	x23, #9
	b.eq	.LBB31_28
	mov	w8, wzr
	b	.LBB31_39
.LBB31_582:
	cbz	x8, .LBB31_587
	cmp	w9, #129
	b.ne	.LBB31_587
	ldrsb	w8, [x1]
	tbz	w8, #31, .LBB31_587
	sub	x9, x26, #3
	and	x2, x8, #0xff
	subs	x17, x9, x2
	b.lo	.LBB31_587
	add	x1, x18, #3
	b	.LBB31_506
.LBB31_587:
	add	x0, sp, #80
	mov	x1, x18
	mov	x2, x26
	mov	w3, #163
	str	x22, [sp, #48]
	mov	x27, x12
	mov	x28, x14
	mov	x22, x13
	mov	x21, x16
	bl	_RNvNtNtNtCs00000000001_10pkcs1_tool6proved8der_core5split14split_unlikely
	ldr	x1, [sp, #80]
	cbz	x1, .LBB31_589
	ldr	x2, [sp, #88]
	ldr	x17, [sp, #104]
	mov	x13, x22
	ldr	x22, [sp, #48]
	mov	x16, x21
	mov	x14, x28
	mov	x12, x27
	cmp	x2, #2
	b.hs	.LBB31_506
	b	.LBB31_599
.LBB31_589:
	ldrb	w8, [sp, #90]
	ldrh	w9, [sp, #88]
	orr	x8, x9, x8, lsl #16
	b	.LBB31_607
.LBB31_590:
	cbz	x9, .LBB31_599
	cmp	w8, #129
	b.ne	.LBB31_599
	ldrsb	w8, [x0]
	tbz	w8, #31, .LBB31_598
	sub	x9, x2, #3
	and	x8, x8, #0xff
	subs	x9, x9, x8
	str	x9, [sp, #24]
	b.lo	.LBB31_598
	mov	x21, x17
	mov	x28, x14
	mov	x26, x13
	mov	x20, x16
	add	x0, x1, #3
	b	.LBB31_602
.LBB31_595:
	ldrb	w8, [sp, #90]
	ldrh	w9, [sp, #88]
	orr	w9, w9, w8, lsl #16
	lsr	w22, w9, #8
	and	w9, w9, #0xff
	and	w8, w22, #0xff00
.LBB31_596:
	mov	w10, w22
	and	x10, x10, #0xff
	orr	x8, x8, x10
	orr	x9, x9, x8, lsl #8
	b	.LBB31_459
.LBB31_597:
	mov	w0, #13
	mov	w8, #2
	b	.LBB31_608
.LBB31_598:
	ldr	x20, [sp, #40]
	ldr	x12, [sp, #56]
.LBB31_599:
	add	x0, sp, #80
	mov	w3, #2
	str	x17, [sp, #32]
	str	x12, [sp, #56]
	mov	x21, x20
	mov	x28, x22
	mov	x22, x14
	mov	x26, x13
	mov	x20, x16
	bl	_RNvNtNtNtCs00000000001_10pkcs1_tool6proved8der_core5split14split_unlikely
	ldr	x0, [sp, #80]
	cbz	x0, .LBB31_610
	ldr	x8, [sp, #88]
	ldr	x9, [sp, #104]
	mov	x16, x20
	ldr	x12, [sp, #56]
	ldr	x17, [sp, #32]
	mov	x13, x26
	mov	x14, x22
	mov	x22, x28
	mov	x20, x21
	str	x9, [sp, #24]
	cmp	x8, #1
	b.eq	.LBB31_510
.LBB31_601:
	mov	x21, x17
	str	x12, [sp, #56]
	mov	x28, x14
	str	x20, [sp, #40]
	mov	x26, x13
	mov	x20, x16
.LBB31_602:
	mov	x1, x8
	bl	_RNvNtNtNtNtCs00000000001_10pkcs1_tool6proved8der_core7integer5small5small
	and	w9, w0, #0xff
	ubfx	w8, w0, #8, #8
	mov	x16, x20
	ldr	x20, [sp, #40]
	ldr	x12, [sp, #56]
	cmp	w9, #17
	mov	x13, x26
	mov	x14, x28
	mov	x17, x21
	b.ne	.LBB31_608
.LBB31_603:
	cmp	w8, #1
	b.ne	.LBB31_605
	ldr	x8, [sp, #24]
	cbnz	x8, .LBB31_427
	b	.LBB31_609
.LBB31_605:
	mov	w9, #512
	mov	w8, #525
.LBB31_606:
	and	x8, x8, #0xff
	orr	x8, x9, x8
.LBB31_607:
	ubfx	x9, x8, #16, #16
	strh	w8, [x19]
	mov	w8, #2
	strb	w8, [x19, #104]
	strb	w9, [x19, #2]
	b	.LBB31_231
.LBB31_608:
	mov	w8, w8
	and	x9, x0, #0xff
	orr	x8, x9, x8, lsl #8
	and	x9, x8, #0xff
	cmp	x9, #17
	b.ne	.LBB31_543
.LBB31_609:
	mov	w21, #20
	mov	w8, #1
	mov	w27, #2
	cbnz	x17, .LBB31_526
	b	.LBB31_235
.LBB31_610:
	ldrb	w8, [sp, #90]
	ldrh	w9, [sp, #88]
	mov	x16, x20
	ldr	x12, [sp, #56]
	ldr	x17, [sp, #32]
	mov	x13, x26
	orr	x8, x9, x8, lsl #16
	mov	x14, x22
	mov	x22, x28
	mov	x20, x21
	and	x9, x8, #0xff
	cmp	x9, #17
	b.ne	.LBB31_543
	b	.LBB31_609
.LBB31_611:
	mov	x1, x24
	brk	#0x1
.LBB31_612:
	mov	x1, x23
	brk	#0x1
.LBB31_613:
	mov	x1, x14
	brk	#0x1
.Lfunc_end31:
	.size	_RNvNtNtNtCs00000000001_10pkcs1_tool6proved12pkcs1_params6noting8note_pss, .Lfunc_end31-_RNvNtNtNtCs00000000001_10pkcs1_tool6proved12pkcs1_params6noting8note_pss
	.cfi_endproc

	.section	.text._RNvNtNtNtCs00000000001_10pkcs1_tool6proved12pkcs1_params6noting9note_oaep,"ax",@progbits
	.p2align	2
	.type	_RNvNtNtNtCs00000000001_10pkcs1_tool6proved12pkcs1_params6noting9note_oaep,@function
_RNvNtNtNtCs00000000001_10pkcs1_tool6proved12pkcs1_params6noting9note_oaep:
	.cfi_startproc
	hint	#38
	sub	sp, sp, #240
	.cfi_def_cfa_offset 240
	stp	x29, x30, [sp, #144]
	stp	x28, x27, [sp, #160]
	stp	x26, x25, [sp, #176]
	stp	x24, x23, [sp, #192]
	stp	x22, x21, [sp, #208]
	stp	x20, x19, [sp, #224]
	.cfi_offset w19, -8
	.cfi_offset w20, -16
	.cfi_offset w21, -24
	.cfi_offset w22, -32
	.cfi_offset w23, -40
	.cfi_offset w24, -48
	.cfi_offset w25, -56
	.cfi_offset w26, -64
	.cfi_offset w27, -72
	.cfi_offset w28, -80
	.cfi_offset w30, -88
	.cfi_offset w29, -96
	.cfi_remember_state
	mov	x19, x0
	cbz	x2, .LBB32_6
	ldrb	w8, [x1]
	cmp	w8, #160
	b.ne	.LBB32_7
	cmp	x2, #1
	b.eq	.LBB32_101
	ldrsb	w10, [x1, #1]
	add	x8, x1, #2
	sub	x9, x2, #2
	tbnz	w10, #31, .LBB32_79
	and	x11, x10, #0xff
	subs	x22, x9, x11
	b.lo	.LBB32_101
	add	x23, x8, x11
	cmp	x11, #2
	b.hs	.LBB32_103
	b	.LBB32_148
.LBB32_6:
	mov	x14, xzr
	mov	x22, xzr
	mov	w30, #5
	adrp	x29, .Lanon.25
	add	x29, x29, :lo12:.Lanon.25
	adrp	x13, _RNvNtNtCs00000000001_10pkcs1_tool10rattle_std7library8AN_OCTET
	add	x13, x13, :lo12:_RNvNtNtCs00000000001_10pkcs1_tool10rattle_std7library8AN_OCTET
	b	.LBB32_8
.LBB32_7:
	mov	x14, xzr
	adrp	x29, .Lanon.25
	add	x29, x29, :lo12:.Lanon.25
	adrp	x13, _RNvNtNtCs00000000001_10pkcs1_tool10rattle_std7library8AN_OCTET
	add	x13, x13, :lo12:_RNvNtNtCs00000000001_10pkcs1_tool10rattle_std7library8AN_OCTET
	mov	w30, #5
	mov	x22, x2
.LBB32_8:
	mov	x23, x1
.LBB32_9:
	ldrb	w8, [x29]
	cmp	w8, #43
	b.ne	.LBB32_15
	ldrb	w8, [x29, #1]
	cmp	w8, #14
	b.ne	.LBB32_15
	ldrb	w8, [x29, #2]
	cmp	w8, #3
	b.ne	.LBB32_15
	ldrb	w8, [x29, #3]
	cmp	w8, #2
	b.ne	.LBB32_15
	ldrb	w8, [x29, #4]
	cmp	w8, #26
	b.ne	.LBB32_15
	cmp	x30, #5
	ccmp	x14, #0, #0, eq
	cset	w8, eq
	b	.LBB32_16
.LBB32_15:
	mov	w8, wzr
.LBB32_16:
	mov	w15, #5
.LBB32_17:
	cbz	x2, .LBB32_24
	ldrb	w9, [x1]
	cmp	w9, #160
	csel	w16, wzr, w8, ne
	mov	x17, #34346
	movk	x17, #34376, lsl #16
	movk	x17, #3575, lsl #32
	movk	x17, #257, lsl #48
	cbz	x22, .LBB32_25
.LBB32_19:
	ldrb	w8, [x23]
	cmp	w8, #161
	b.ne	.LBB32_26
	cmp	x22, #1
	b.eq	.LBB32_176
	ldrsb	w10, [x23, #1]
	add	x8, x23, #2
	sub	x9, x22, #2
	tbnz	w10, #31, .LBB32_84
	and	x2, x10, #0xff
	subs	x18, x9, x2
	b.lo	.LBB32_176
	add	x4, x8, x2
	cmp	x2, #2
	b.hs	.LBB32_178
	b	.LBB32_222
.LBB32_24:
	mov	w16, wzr
	mov	x17, #34346
	movk	x17, #34376, lsl #16
	movk	x17, #3575, lsl #32
	movk	x17, #257, lsl #48
	cbnz	x22, .LBB32_19
.LBB32_25:
	mov	x25, xzr
	mov	x18, xzr
	adrp	x28, .Lanon.26
	add	x28, x28, :lo12:.Lanon.26
	adrp	x6, .Lanon.25
	add	x6, x6, :lo12:.Lanon.25
	adrp	x21, _RNvNtNtCs00000000001_10pkcs1_tool10rattle_std7library8AN_OCTET
	add	x21, x21, :lo12:_RNvNtNtCs00000000001_10pkcs1_tool10rattle_std7library8AN_OCTET
	mov	w3, #5
	mov	w7, #5
	b	.LBB32_27
.LBB32_26:
	mov	x25, xzr
	adrp	x28, .Lanon.26
	add	x28, x28, :lo12:.Lanon.26
	adrp	x6, .Lanon.25
	add	x6, x6, :lo12:.Lanon.25
	adrp	x21, _RNvNtNtCs00000000001_10pkcs1_tool10rattle_std7library8AN_OCTET
	add	x21, x21, :lo12:_RNvNtNtCs00000000001_10pkcs1_tool10rattle_std7library8AN_OCTET
	mov	w3, #5
	mov	w7, #5
	mov	x18, x22
.LBB32_27:
	mov	x4, x23
.LBB32_28:
	ldr	x8, [x28]
	cmp	x8, x17
	b.ne	.LBB32_38
	ldrb	w8, [x28, #8]
	cmp	w8, #8
	b.ne	.LBB32_38
	mov	w8, wzr
	mov	w5, #9
	cbz	x21, .LBB32_39
	cmp	x7, #5
	b.ne	.LBB32_39
	ldrb	w8, [x6]
	cmp	w8, #43
	b.ne	.LBB32_89
	ldrb	w8, [x6, #1]
	cmp	w8, #14
	b.ne	.LBB32_89
	ldrb	w8, [x6, #2]
	cmp	w8, #3
	b.ne	.LBB32_89
	ldrb	w8, [x6, #3]
	cmp	w8, #2
	b.ne	.LBB32_89
	ldrb	w8, [x6, #4]
	cmp	w8, #26
	b.ne	.LBB32_89
	and	x8, x3, #0xff
	cmp	x8, #5
	ccmp	x25, #0, #0, eq
	cset	w8, eq
	b	.LBB32_90
.LBB32_38:
	mov	w8, wzr
	mov	w5, #9
.LBB32_39:
	cmp	x22, #0
	csinc	w9, w16, wzr, ne
	tbz	w9, #0, .LBB32_66
	mov	w26, wzr
	cbz	x18, .LBB32_67
.LBB32_41:
	ldrb	w8, [x4]
	cmp	w8, #162
	b.ne	.LBB32_68
	cmp	x18, #1
	b.eq	.LBB32_246
	ldrsb	w10, [x4, #1]
	add	x9, x4, #2
	sub	x8, x18, #2
	tbnz	w10, #31, .LBB32_96
	and	x2, x10, #0xff
	subs	x24, x8, x2
	b.lo	.LBB32_246
	cmp	x2, #2
	b.lo	.LBB32_253
.LBB32_46:
	mov	x1, x9
	ldrb	w8, [x1], #2
	cmp	w8, #48
	b.ne	.LBB32_253
	ldrsb	w8, [x9, #1]
	sub	x10, x2, #2
	tbnz	w8, #31, .LBB32_150
	and	x8, x8, #0xff
	subs	x27, x10, x8
	b.lo	.LBB32_253
	cmp	x8, #2
	b.lo	.LBB32_263
.LBB32_50:
	mov	x20, x1
	ldrb	w9, [x20], #2
	cmp	w9, #6
	b.ne	.LBB32_263
	ldrsb	w10, [x1, #1]
	sub	x9, x8, #2
	tbnz	w10, #31, .LBB32_166
	and	x22, x10, #0xff
	subs	x2, x9, x22
	b.lo	.LBB32_263
	add	x1, x20, x22
	sub	x9, x22, #1
	cmp	x9, #38
	b.hi	.LBB32_265
.LBB32_54:
	ldrsb	w8, [x20, x9]
	tbnz	w8, #31, .LBB32_232
	movi	v0.8b, #128
	movi	v1.4h, #128
	mov	x10, x20
	b	.LBB32_57
.LBB32_56:
	add	x9, x11, x9
	add	x10, x10, x12
.LBB32_57:
	cmp	x9, #7
	b.ls	.LBB32_60
	ldr	d2, [x10]
	cmeq	v2.8b, v2.8b, v0.8b
	umaxv	b2, v2.8b
	fmov	w11, s2
	tbnz	w11, #0, .LBB32_231
	mov	x11, #-8
	mov	w12, #8
	b	.LBB32_56
.LBB32_60:
	cmp	x9, #3
	b.ls	.LBB32_63
	ldr	s2, [x10]
	ushll	v2.8h, v2.8b, #0
	cmeq	v2.4h, v2.4h, v1.4h
	umaxv	h2, v2.4h
	fmov	w11, s2
	tbnz	w11, #0, .LBB32_231
	mov	x11, #-4
	mov	w12, #4
	b	.LBB32_56
.LBB32_63:
	cbz	x9, .LBB32_235
	ldrb	w11, [x10]
	cmp	w11, #128
	b.eq	.LBB32_231
	mov	x11, #-1
	mov	w12, #1
	b	.LBB32_56
.LBB32_66:
	ldrb	w9, [x23]
	mov	w26, #1
	cmp	w9, #161
	csel	w16, wzr, w8, ne
	cbnz	x18, .LBB32_41
.LBB32_67:
	mov	x9, xzr
	mov	x24, xzr
	mov	w23, #4
	adrp	x20, .Lanon.27
	add	x20, x20, :lo12:.Lanon.27
	adrp	x8, _RNvNtNtCs00000000001_10pkcs1_tool10rattle_std7library8AN_OCTET
	add	x8, x8, :lo12:_RNvNtNtCs00000000001_10pkcs1_tool10rattle_std7library8AN_OCTET
	b	.LBB32_69
.LBB32_68:
	mov	x9, xzr
	adrp	x20, .Lanon.27
	add	x20, x20, :lo12:.Lanon.27
	adrp	x8, _RNvNtNtCs00000000001_10pkcs1_tool10rattle_std7library8AN_OCTET
	add	x8, x8, :lo12:_RNvNtNtCs00000000001_10pkcs1_tool10rattle_std7library8AN_OCTET
	mov	w23, #4
	mov	x24, x18
.LBB32_69:
	ldr	x10, [x20]
	cmp	x10, x17
	b.ne	.LBB32_72
	ldrb	w10, [x20, #8]
	cmp	w10, #9
	b.ne	.LBB32_72
	cmp	x23, #4
	ccmp	x9, #0, #0, eq
	cset	w10, eq
	b	.LBB32_73
.LBB32_72:
	mov	w10, wzr
.LBB32_73:
	mov	w22, #9
.LBB32_74:
	cmp	x18, #0
	csinc	w11, w16, wzr, ne
	tbnz	w11, #0, .LBB32_76
	ldrb	w11, [x4]
	mov	w26, #2
	cmp	w11, #162
	csel	w16, wzr, w10, ne
.LBB32_76:
	cbz	x24, .LBB32_78
	mov	w8, #12
	mov	w9, #2
	strb	w8, [x19]
	b	.LBB32_270
.LBB32_78:
	lsr	w10, w15, #16
	str	x29, [x19]
	strh	w15, [x19, #8]
	strb	w10, [x19, #10]
	lsr	w10, w5, #16
	strb	wzr, [x19, #15]
	strb	w10, [x19, #50]
	lsr	w10, w22, #16
	stur	wzr, [x19, #11]
	stp	x13, x14, [x19, #16]
	stp	x30, x28, [x19, #32]
	strh	w5, [x19, #48]
	strb	wzr, [x19, #55]
	stur	wzr, [x19, #51]
	stp	x6, x7, [x19, #56]
	stp	x21, x25, [x19, #72]
	stp	x3, x20, [x19, #88]
	strh	w22, [x19, #104]
	strb	w10, [x19, #106]
	strb	wzr, [x19, #111]
	stur	wzr, [x19, #107]
	stp	x8, x9, [x19, #112]
	str	x23, [x19, #128]
	strb	w16, [x19, #136]
	strb	w26, [x19, #137]
	b	.LBB32_271
.LBB32_79:
	and	w10, w10, #0xff
	cmp	w10, #130
	b.ne	.LBB32_91
	cmp	x9, #1
	b.ls	.LBB32_101
	ldrb	w8, [x1, #2]
	cbz	x8, .LBB32_101
	ldrb	w9, [x1, #3]
	orr	x11, x9, x8, lsl #8
	sub	x8, x2, #4
	subs	x22, x8, x11
	b.lo	.LBB32_101
	add	x8, x1, #4
	add	x23, x8, x11
	b	.LBB32_103
.LBB32_84:
	and	w10, w10, #0xff
	cmp	w10, #130
	b.ne	.LBB32_171
	cmp	x9, #1
	b.ls	.LBB32_176
	ldrb	w8, [x23, #2]
	cbz	x8, .LBB32_176
	ldrb	w9, [x23, #3]
	orr	x2, x9, x8, lsl #8
	sub	x8, x22, #4
	subs	x18, x8, x2
	b.lo	.LBB32_176
	add	x8, x23, #4
	add	x4, x8, x2
	b	.LBB32_178
.LBB32_89:
	mov	w8, wzr
.LBB32_90:
	mov	w5, #9
	mov	w7, #5
	b	.LBB32_39
.LBB32_91:
	cbz	x9, .LBB32_101
	cmp	w10, #129
	b.ne	.LBB32_101
	ldrsb	w8, [x8]
	tbz	w8, #31, .LBB32_101
	sub	x9, x2, #3
	and	x11, x8, #0xff
	subs	x22, x9, x11
	b.lo	.LBB32_101
	add	x8, x1, #3
	add	x23, x8, x11
	b	.LBB32_103
.LBB32_96:
	and	w10, w10, #0xff
	cmp	w10, #130
	b.ne	.LBB32_241
	cmp	x8, #1
	b.ls	.LBB32_246
	ldrb	w8, [x4, #2]
	cbz	x8, .LBB32_246
	ldrb	w9, [x4, #3]
	orr	x2, x9, x8, lsl #8
	sub	x8, x18, #4
	subs	x24, x8, x2
	b.lo	.LBB32_246
	add	x9, x4, #4
	b	.LBB32_46
.LBB32_101:
	add	x0, sp, #112
	mov	w3, #160
	mov	x20, x1
	mov	x21, x2
	bl	_RNvNtNtNtCs00000000001_10pkcs1_tool6proved8der_core5split14split_unlikely
	ldr	x8, [sp, #112]
	cbz	x8, .LBB32_281
	ldp	x11, x23, [sp, #120]
	mov	x1, x20
	ldr	x22, [sp, #136]
	mov	x2, x21
	cmp	x11, #2
	b.lo	.LBB32_148
.LBB32_103:
	mov	x9, x8
	ldrb	w10, [x9], #2
	cmp	w10, #48
	b.ne	.LBB32_148
	ldrsb	w10, [x8, #1]
	sub	x12, x11, #2
	tbnz	w10, #31, .LBB32_123
	and	x10, x10, #0xff
	subs	x21, x12, x10
	b.lo	.LBB32_148
	cmp	x10, #2
	b.lo	.LBB32_160
.LBB32_107:
	mov	x29, x9
	ldrb	w8, [x29], #2
	cmp	w8, #6
	b.ne	.LBB32_160
	ldrsb	w11, [x9, #1]
	sub	x8, x10, #2
	tbnz	w11, #31, .LBB32_128
	and	x15, x11, #0xff
	subs	x8, x8, x15
	b.lo	.LBB32_160
	add	x9, x29, x15
	sub	x11, x15, #1
	cmp	x11, #38
	b.hi	.LBB32_162
.LBB32_111:
	ldrsb	w10, [x29, x11]
	tbnz	w10, #31, .LBB32_134
	movi	v0.8b, #128
	movi	v1.4h, #128
	mov	x12, x29
	b	.LBB32_114
.LBB32_113:
	add	x11, x13, x11
	add	x12, x12, x14
.LBB32_114:
	cmp	x11, #7
	b.ls	.LBB32_117
	ldr	d2, [x12]
	cmeq	v2.8b, v2.8b, v0.8b
	umaxv	b2, v2.8b
	fmov	w13, s2
	tbnz	w13, #0, .LBB32_133
	mov	x13, #-8
	mov	w14, #8
	b	.LBB32_113
.LBB32_117:
	cmp	x11, #3
	b.ls	.LBB32_120
	ldr	s2, [x12]
	ushll	v2.8h, v2.8b, #0
	cmeq	v2.4h, v2.4h, v1.4h
	umaxv	h2, v2.4h
	fmov	w13, s2
	tbnz	w13, #0, .LBB32_133
	mov	x13, #-4
	mov	w14, #4
	b	.LBB32_113
.LBB32_120:
	cbz	x11, .LBB32_137
	ldrb	w13, [x12]
	cmp	w13, #128
	b.eq	.LBB32_133
	mov	x13, #-1
	mov	w14, #1
	b	.LBB32_113
.LBB32_123:
	and	w10, w10, #0xff
	cmp	w10, #130
	b.ne	.LBB32_143
	cmp	x12, #1
	b.ls	.LBB32_148
	ldrb	w9, [x8, #2]
	cbz	x9, .LBB32_148
	ldrb	w10, [x8, #3]
	orr	x10, x10, x9, lsl #8
	sub	x9, x11, #4
	subs	x21, x9, x10
	b.lo	.LBB32_148
	add	x9, x8, #4
	b	.LBB32_107
.LBB32_128:
	and	w11, w11, #0xff
	cmp	w11, #130
	b.ne	.LBB32_155
	cmp	x8, #1
	b.ls	.LBB32_160
	ldrb	w8, [x9, #2]
	cbz	x8, .LBB32_160
	ldrb	w11, [x9, #3]
	orr	x15, x11, x8, lsl #8
	sub	x8, x10, #4
	subs	x8, x8, x15
	b.lo	.LBB32_160
	add	x29, x9, #4
	add	x9, x29, x15
	sub	x11, x15, #1
	cmp	x11, #38
	b.ls	.LBB32_111
	b	.LBB32_162
.LBB32_133:
	cbz	x15, .LBB32_137
.LBB32_134:
	ldrb	w11, [x29]
	cmp	w11, #128
	b.eq	.LBB32_162
	subs	x12, x15, #1
	b.ne	.LBB32_274
.LBB32_136:
	tbnz	w10, #31, .LBB32_162
.LBB32_137:
	cbz	x8, .LBB32_256
	ldrb	w30, [x9]
	mov	w11, #31
	mov	x10, xzr
	bics	wzr, w11, w30
	mov	w11, #11
	b.eq	.LBB32_393
	and	w12, w30, #0xffffffdf
	tst	w12, #0xff
	b.eq	.LBB32_393
	cmp	x8, #1
	b.eq	.LBB32_365
	ldrsb	w11, [x9, #1]
	add	x13, x9, #2
	sub	x10, x8, #2
	tbnz	w11, #31, .LBB32_301
	and	x14, x11, #0xff
	subs	x10, x10, x14
	b.hs	.LBB32_367
	b	.LBB32_365
.LBB32_143:
	cbz	x12, .LBB32_148
	cmp	w10, #129
	b.ne	.LBB32_148
	ldrsb	w9, [x9]
	tbz	w9, #31, .LBB32_148
	sub	x12, x11, #3
	and	x10, x9, #0xff
	subs	x21, x12, x10
	b.lo	.LBB32_148
	add	x9, x8, #3
	b	.LBB32_107
.LBB32_148:
	mov	x20, x2
	mov	x24, x1
	add	x0, sp, #112
	mov	x1, x8
	mov	x2, x11
	mov	w3, #48
	bl	_RNvNtNtNtCs00000000001_10pkcs1_tool6proved8der_core5split14split_unlikely
	ldr	x9, [sp, #112]
	cbz	x9, .LBB32_279
	ldr	x10, [sp, #120]
	ldr	x21, [sp, #136]
	mov	x1, x24
	mov	x2, x20
	cmp	x10, #2
	b.hs	.LBB32_107
	b	.LBB32_160
.LBB32_150:
	and	w8, w8, #0xff
	cmp	w8, #130
	b.ne	.LBB32_248
	cmp	x10, #1
	b.ls	.LBB32_253
	ldrb	w8, [x9, #2]
	cbz	x8, .LBB32_253
	ldrb	w10, [x9, #3]
	orr	x8, x10, x8, lsl #8
	sub	x10, x2, #4
	subs	x27, x10, x8
	b.lo	.LBB32_253
	add	x1, x9, #4
	b	.LBB32_50
.LBB32_155:
	cbz	x8, .LBB32_160
	cmp	w11, #129
	b.ne	.LBB32_160
	ldrsb	w8, [x29]
	tbz	w8, #31, .LBB32_160
	sub	x11, x10, #3
	and	x15, x8, #0xff
	subs	x8, x11, x15
	b.lo	.LBB32_160
	add	x29, x9, #3
	add	x9, x29, x15
	sub	x11, x15, #1
	cmp	x11, #38
	b.hi	.LBB32_162
	b	.LBB32_111
.LBB32_160:
	mov	x20, x2
	mov	x24, x1
	add	x0, sp, #112
	mov	x1, x9
	mov	x2, x10
	mov	w3, #6
	bl	_RNvNtNtNtCs00000000001_10pkcs1_tool6proved8der_core5split14split_unlikely
	ldr	x29, [sp, #112]
	cbz	x29, .LBB32_280
	ldp	x15, x9, [sp, #120]
	mov	x1, x24
	ldr	x8, [sp, #136]
	mov	x2, x20
	sub	x11, x15, #1
	cmp	x11, #38
	b.ls	.LBB32_111
.LBB32_162:
	mov	w11, #5
.LBB32_163:
	lsr	x8, x11, #8
.LBB32_164:
	bfi	w11, w8, #8, #24
.LBB32_165:
	lsr	w8, w11, #16
	strh	w11, [x19]
	b	.LBB32_269
.LBB32_166:
	and	w10, w10, #0xff
	cmp	w10, #130
	b.ne	.LBB32_258
	cmp	x9, #1
	b.ls	.LBB32_263
	ldrb	w9, [x1, #2]
	cbz	x9, .LBB32_263
	ldrb	w10, [x1, #3]
	orr	x22, x10, x9, lsl #8
	sub	x9, x8, #4
	subs	x2, x9, x22
	b.lo	.LBB32_263
	add	x20, x1, #4
	add	x1, x20, x22
	sub	x9, x22, #1
	cmp	x9, #38
	b.hi	.LBB32_265
	b	.LBB32_54
.LBB32_171:
	cbz	x9, .LBB32_176
	cmp	w10, #129
	b.ne	.LBB32_176
	ldrsb	w8, [x8]
	tbz	w8, #31, .LBB32_176
	sub	x9, x22, #3
	and	x2, x8, #0xff
	subs	x18, x9, x2
	b.lo	.LBB32_176
	add	x8, x23, #3
	add	x4, x8, x2
	b	.LBB32_178
.LBB32_176:
	add	x0, sp, #112
	mov	x1, x23
	mov	x2, x22
	mov	w3, #161
	mov	x27, x17
	mov	w25, w16
	mov	x21, x14
	mov	x26, x13
	mov	x24, x30
	mov	x20, x15
	bl	_RNvNtNtNtCs00000000001_10pkcs1_tool6proved8der_core5split14split_unlikely
	ldr	x8, [sp, #112]
	cbz	x8, .LBB32_273
	ldp	x2, x4, [sp, #120]
	mov	x15, x20
	ldr	x18, [sp, #136]
	mov	x30, x24
	mov	x13, x26
	mov	x14, x21
	mov	w16, w25
	mov	x17, x27
	cmp	x2, #2
	b.lo	.LBB32_222
.LBB32_178:
	mov	x1, x8
	ldrb	w9, [x1], #2
	cmp	w9, #48
	b.ne	.LBB32_222
	ldrsb	w9, [x8, #1]
	sub	x10, x2, #2
	tbnz	w9, #31, .LBB32_207
	and	x9, x9, #0xff
	subs	x3, x10, x9
	b.lo	.LBB32_222
	cmp	x9, #2
	b.lo	.LBB32_229
.LBB32_182:
	mov	x28, x1
	ldrb	w8, [x28], #2
	cmp	w8, #6
	b.ne	.LBB32_229
	ldrsb	w10, [x1, #1]
	sub	x8, x9, #2
	tbnz	w10, #31, .LBB32_212
	and	x5, x10, #0xff
	subs	x2, x8, x5
	b.lo	.LBB32_229
	add	x1, x28, x5
	sub	x9, x5, #1
	cmp	x9, #38
	b.hi	.LBB32_265
.LBB32_186:
	ldrsb	w8, [x28, x9]
	tbnz	w8, #31, .LBB32_199
	movi	v0.8b, #128
	movi	v1.4h, #128
	mov	x10, x28
	b	.LBB32_190
.LBB32_188:
	mov	x11, #-1
	mov	w12, #1
.LBB32_189:
	add	x9, x11, x9
	add	x10, x10, x12
.LBB32_190:
	cmp	x9, #7
	b.ls	.LBB32_193
	ldr	d2, [x10]
	cmeq	v2.8b, v2.8b, v0.8b
	umaxv	b2, v2.8b
	fmov	w11, s2
	tbnz	w11, #0, .LBB32_198
	mov	x11, #-8
	mov	w12, #8
	b	.LBB32_189
.LBB32_193:
	cmp	x9, #3
	b.ls	.LBB32_196
	ldr	s2, [x10]
	ushll	v2.8h, v2.8b, #0
	cmeq	v2.4h, v2.4h, v1.4h
	umaxv	h2, v2.4h
	fmov	w11, s2
	tbnz	w11, #0, .LBB32_198
	mov	x11, #-4
	mov	w12, #4
	b	.LBB32_189
.LBB32_196:
	cbz	x9, .LBB32_202
	ldrb	w11, [x10]
	cmp	w11, #128
	b.ne	.LBB32_188
.LBB32_198:
	cbz	x5, .LBB32_202
.LBB32_199:
	ldrb	w9, [x28]
	cmp	w9, #128
	b.eq	.LBB32_265
	subs	x10, x5, #1
	b.ne	.LBB32_284
.LBB32_201:
	tbnz	w8, #31, .LBB32_265
.LBB32_202:
	cbz	x2, .LBB32_282
	cmp	x2, #1
	b.eq	.LBB32_311
	mov	x8, x1
	ldrb	w9, [x8], #2
	cmp	w9, #48
	b.ne	.LBB32_311
	ldrsb	w9, [x1, #1]
	sub	x10, x2, #2
	tbnz	w9, #31, .LBB32_296
	and	x9, x9, #0xff
	subs	x24, x10, x9
	b.hs	.LBB32_313
	b	.LBB32_311
.LBB32_207:
	and	w9, w9, #0xff
	cmp	w9, #130
	b.ne	.LBB32_217
	cmp	x10, #1
	b.ls	.LBB32_222
	ldrb	w9, [x8, #2]
	cbz	x9, .LBB32_222
	ldrb	w10, [x8, #3]
	orr	x9, x10, x9, lsl #8
	sub	x10, x2, #4
	subs	x3, x10, x9
	b.lo	.LBB32_222
	add	x1, x8, #4
	b	.LBB32_182
.LBB32_212:
	and	w10, w10, #0xff
	cmp	w10, #130
	b.ne	.LBB32_224
	cmp	x8, #1
	b.ls	.LBB32_229
	ldrb	w8, [x1, #2]
	cbz	x8, .LBB32_229
	ldrb	w10, [x1, #3]
	orr	x5, x10, x8, lsl #8
	sub	x8, x9, #4
	subs	x2, x8, x5
	b.lo	.LBB32_229
	add	x28, x1, #4
	add	x1, x28, x5
	sub	x9, x5, #1
	cmp	x9, #38
	b.ls	.LBB32_186
	b	.LBB32_265
.LBB32_217:
	cbz	x10, .LBB32_222
	cmp	w9, #129
	b.ne	.LBB32_222
	ldrsb	w9, [x1]
	tbz	w9, #31, .LBB32_222
	sub	x10, x2, #3
	and	x9, x9, #0xff
	subs	x3, x10, x9
	b.lo	.LBB32_222
	add	x1, x8, #3
	b	.LBB32_182
.LBB32_222:
	add	x0, sp, #112
	mov	x1, x8
	mov	w3, #48
	str	x22, [sp, #72]
	mov	x22, x23
	mov	x23, x4
	mov	x28, x18
	mov	x27, x17
	mov	w25, w16
	mov	x21, x14
	mov	x26, x13
	mov	x24, x30
	mov	x20, x15
	bl	_RNvNtNtNtCs00000000001_10pkcs1_tool6proved8der_core5split14split_unlikely
	ldr	x1, [sp, #112]
	cbz	x1, .LBB32_255
	ldr	x9, [sp, #120]
	ldr	x3, [sp, #136]
	mov	x4, x23
	mov	x23, x22
	ldr	x22, [sp, #72]
	mov	x15, x20
	mov	x30, x24
	mov	x13, x26
	mov	x14, x21
	mov	w16, w25
	mov	x17, x27
	mov	x18, x28
	cmp	x9, #2
	b.hs	.LBB32_182
	b	.LBB32_229
.LBB32_224:
	cbz	x8, .LBB32_229
	cmp	w10, #129
	b.ne	.LBB32_229
	ldrsb	w8, [x28]
	tbz	w8, #31, .LBB32_229
	sub	x10, x9, #3
	and	x5, x8, #0xff
	subs	x2, x10, x5
	b.lo	.LBB32_229
	add	x28, x1, #3
	add	x1, x28, x5
	sub	x9, x5, #1
	cmp	x9, #38
	b.hi	.LBB32_265
	b	.LBB32_186
.LBB32_229:
	str	x3, [sp, #80]
	add	x0, sp, #112
	mov	x2, x9
	mov	w3, #6
	stp	x4, x18, [sp, #40]
	mov	x26, x17
	mov	w25, w16
	mov	x21, x14
	mov	x27, x13
	mov	x24, x30
	mov	x20, x15
	bl	_RNvNtNtNtCs00000000001_10pkcs1_tool6proved8der_core5split14split_unlikely
	ldr	x28, [sp, #112]
	cbz	x28, .LBB32_272
	ldp	x5, x1, [sp, #120]
	mov	x15, x20
	ldp	x4, x18, [sp, #40]
	mov	x30, x24
	ldr	x2, [sp, #136]
	ldr	x3, [sp, #80]
	mov	x13, x27
	mov	x14, x21
	mov	w16, w25
	mov	x17, x26
	sub	x9, x5, #1
	cmp	x9, #38
	b.ls	.LBB32_186
	b	.LBB32_265
.LBB32_231:
	cbz	x22, .LBB32_235
.LBB32_232:
	ldrb	w9, [x20]
	cmp	w9, #128
	b.eq	.LBB32_265
	subs	x10, x22, #1
	b.ne	.LBB32_291
.LBB32_234:
	tbnz	w8, #31, .LBB32_265
.LBB32_235:
	cbz	x2, .LBB32_289
	ldrb	w23, [x1]
	mov	w9, #31
	mov	x8, xzr
	bics	wzr, w9, w23
	mov	w9, #11
	b.eq	.LBB32_400
	and	w10, w23, #0xffffffdf
	tst	w10, #0xff
	b.eq	.LBB32_400
	cmp	x2, #1
	b.eq	.LBB32_386
	ldrsb	w9, [x1, #1]
	add	x8, x1, #2
	sub	x10, x2, #2
	tbnz	w9, #31, .LBB32_360
	and	x9, x9, #0xff
	subs	x10, x10, x9
	b.hs	.LBB32_388
	b	.LBB32_386
.LBB32_241:
	cbz	x8, .LBB32_246
	cmp	w10, #129
	b.ne	.LBB32_246
	ldrsb	w8, [x9]
	tbz	w8, #31, .LBB32_246
	sub	x9, x18, #3
	and	x2, x8, #0xff
	subs	x24, x9, x2
	b.lo	.LBB32_246
	add	x9, x4, #3
	b	.LBB32_46
.LBB32_246:
	stp	x3, x7, [sp, #80]
	add	x0, sp, #112
	mov	x1, x4
	mov	x2, x18
	mov	w3, #162
	str	w26, [sp, #56]
	stp	x25, x21, [sp, #64]
	mov	w25, w16
	mov	x21, x14
	stp	x6, x5, [sp, #96]
	mov	x23, x13
	mov	x22, x30
	mov	x20, x15
	mov	x26, x4
	mov	x27, x18
	bl	_RNvNtNtNtCs00000000001_10pkcs1_tool6proved8der_core5split14split_unlikely
	ldr	x9, [sp, #112]
	cbz	x9, .LBB32_273
	mov	x17, #34346
	mov	x14, x21
	mov	w16, w25
	movk	x17, #34376, lsl #16
	ldp	x6, x5, [sp, #96]
	ldp	x3, x7, [sp, #80]
	ldr	x2, [sp, #120]
	ldp	x25, x21, [sp, #64]
	ldr	x24, [sp, #136]
	movk	x17, #3575, lsl #32
	mov	x4, x26
	ldr	w26, [sp, #56]
	mov	x15, x20
	mov	x30, x22
	mov	x13, x23
	movk	x17, #257, lsl #48
	mov	x18, x27
	cmp	x2, #2
	b.hs	.LBB32_46
	b	.LBB32_253
.LBB32_248:
	cbz	x10, .LBB32_253
	cmp	w8, #129
	b.ne	.LBB32_253
	ldrsb	w8, [x1]
	tbz	w8, #31, .LBB32_253
	sub	x10, x2, #3
	and	x8, x8, #0xff
	subs	x27, x10, x8
	b.lo	.LBB32_253
	add	x1, x9, #3
	b	.LBB32_50
.LBB32_253:
	stp	x3, x7, [sp, #80]
	add	x0, sp, #112
	mov	x1, x9
	mov	w3, #48
	str	w26, [sp, #56]
	mov	x27, x18
	stp	x25, x21, [sp, #64]
	mov	x26, x17
	mov	w25, w16
	stp	x6, x5, [sp, #96]
	mov	x21, x14
	mov	x23, x13
	str	x4, [sp, #40]
	mov	x22, x30
	mov	x20, x15
	bl	_RNvNtNtNtCs00000000001_10pkcs1_tool6proved8der_core5split14split_unlikely
	ldr	x1, [sp, #112]
	cbz	x1, .LBB32_255
	ldr	x9, [sp, #136]
	mov	x14, x21
	mov	w16, w25
	ldp	x6, x5, [sp, #96]
	ldr	x8, [sp, #120]
	ldp	x3, x7, [sp, #80]
	mov	x17, x26
	ldp	x25, x21, [sp, #64]
	mov	x15, x20
	ldr	x4, [sp, #40]
	ldr	w26, [sp, #56]
	mov	x30, x22
	mov	x13, x23
	mov	x18, x27
	mov	x27, x9
	cmp	x8, #2
	b.hs	.LBB32_50
	b	.LBB32_263
.LBB32_255:
	ldrb	w8, [sp, #122]
	ldrh	w9, [sp, #120]
	orr	w9, w9, w8, lsl #16
	lsr	w8, w9, #8
	b	.LBB32_267
.LBB32_256:
	cbnz	x21, .LBB32_370
	mov	x13, xzr
	mov	w8, wzr
	b	.LBB32_17
.LBB32_258:
	cbz	x9, .LBB32_263
	cmp	w10, #129
	b.ne	.LBB32_263
	ldrsb	w9, [x20]
	tbz	w9, #31, .LBB32_263
	sub	x10, x8, #3
	and	x22, x9, #0xff
	subs	x2, x10, x22
	b.lo	.LBB32_263
	add	x20, x1, #3
	add	x1, x20, x22
	sub	x9, x22, #1
	cmp	x9, #38
	b.hi	.LBB32_265
	b	.LBB32_54
.LBB32_263:
	stp	x3, x7, [sp, #80]
	add	x0, sp, #112
	mov	x2, x8
	mov	w3, #6
	stp	x27, x13, [sp, #16]
	mov	x27, x4
	str	w26, [sp, #56]
	mov	x26, x17
	mov	x23, x15
	stp	x25, x21, [sp, #64]
	mov	w25, w16
	mov	x21, x14
	stp	x6, x5, [sp, #96]
	str	x18, [sp, #48]
	str	x30, [sp, #32]
	bl	_RNvNtNtNtCs00000000001_10pkcs1_tool6proved8der_core5split14split_unlikely
	ldr	x20, [sp, #112]
	cbz	x20, .LBB32_272
	ldp	x22, x1, [sp, #120]
	mov	x14, x21
	ldp	x13, x30, [sp, #24]
	mov	w16, w25
	ldp	x6, x5, [sp, #96]
	mov	x17, x26
	ldp	x3, x7, [sp, #80]
	mov	x4, x27
	ldp	x25, x21, [sp, #64]
	mov	x15, x23
	ldr	x2, [sp, #136]
	ldr	x18, [sp, #48]
	ldr	w26, [sp, #56]
	ldr	x27, [sp, #16]
	sub	x9, x22, #1
	cmp	x9, #38
	b.ls	.LBB32_54
.LBB32_265:
	mov	w9, #5
.LBB32_266:
	lsr	x8, x9, #8
.LBB32_267:
	bfi	w9, w8, #8, #24
.LBB32_268:
	lsr	w8, w9, #16
	strh	w9, [x19]
.LBB32_269:
	mov	w9, #2
	strb	w8, [x19, #2]
.LBB32_270:
	strb	w9, [x19, #136]
.LBB32_271:
	ldp	x20, x19, [sp, #224]
	ldp	x22, x21, [sp, #208]
	ldp	x24, x23, [sp, #192]
	ldp	x26, x25, [sp, #176]
	ldp	x28, x27, [sp, #160]
	ldp	x29, x30, [sp, #144]
	add	sp, sp, #240
	.cfi_def_cfa_offset 0
	.cfi_restore w19
	.cfi_restore w20
	.cfi_restore w21
	.cfi_restore w22
	.cfi_restore w23
	.cfi_restore w24
	.cfi_restore w25
	.cfi_restore w26
	.cfi_restore w27
	.cfi_restore w28
	.cfi_restore w30
	.cfi_restore w29
	ret
.LBB32_272:
	.cfi_restore_state
	ldrb	w8, [sp, #122]
	ldrh	w9, [sp, #120]
	orr	x9, x9, x8, lsl #16
	b	.LBB32_266
.LBB32_273:
	ldrb	w8, [sp, #122]
	ldrh	w9, [sp, #120]
	orr	w9, w9, w8, lsl #16
	b	.LBB32_268
.LBB32_274:
	mov	x0, xzr
	add	x13, x29, #1
	mov	w11, #5
	b	.LBB32_276
.LBB32_275:
	add	x0, x0, #1
	add	x13, x13, #1
	cmp	x12, x0
	b.eq	.LBB32_136
.LBB32_276:
	ldrb	w14, [x13]
	cmp	w14, #128
	b.ne	.LBB32_275
	cmp	x0, x15
	b.hs	.LBB32_419
	ldursb	w14, [x13, #-1]
	tbnz	w14, #31, .LBB32_275
	b	.LBB32_163
.LBB32_279:
	ldrb	w8, [sp, #122]
	ldrh	w9, [sp, #120]
	orr	w11, w9, w8, lsl #16
	lsr	w8, w11, #8
	b	.LBB32_164
.LBB32_280:
	ldrb	w8, [sp, #122]
	ldrh	w9, [sp, #120]
	orr	x11, x9, x8, lsl #16
	b	.LBB32_163
.LBB32_281:
	ldrb	w8, [sp, #122]
	ldrh	w9, [sp, #120]
	orr	w11, w9, w8, lsl #16
	b	.LBB32_165
.LBB32_282:
	cbnz	x3, .LBB32_414
	mov	x6, xzr
	mov	w8, wzr
	b	.LBB32_39
.LBB32_284:
	mov	x0, xzr
	add	x11, x28, #1
	mov	w9, #5
	b	.LBB32_286
.LBB32_285:
	add	x0, x0, #1
	add	x11, x11, #1
	cmp	x10, x0
	b.eq	.LBB32_201
.LBB32_286:
	ldrb	w12, [x11]
	cmp	w12, #128
	b.ne	.LBB32_285
	cmp	x0, x5
	b.hs	.LBB32_420
	ldursb	w12, [x11, #-1]
	tbnz	w12, #31, .LBB32_285
	b	.LBB32_266
.LBB32_289:
	cbnz	x27, .LBB32_414
	mov	x8, xzr
	mov	w10, wzr
	b	.LBB32_74
.LBB32_291:
	mov	x0, xzr
	add	x11, x20, #1
	mov	w9, #5
	b	.LBB32_293
.LBB32_292:
	add	x0, x0, #1
	add	x11, x11, #1
	cmp	x10, x0
	b.eq	.LBB32_234
.LBB32_293:
	ldrb	w12, [x11]
	cmp	w12, #128
	b.ne	.LBB32_292
	cmp	x0, x22
	b.hs	.LBB32_421
	ldursb	w12, [x11, #-1]
	tbnz	w12, #31, .LBB32_292
	b	.LBB32_266
.LBB32_296:
	and	w9, w9, #0xff
	cmp	w9, #130
	b.ne	.LBB32_306
	cmp	x10, #1
	b.ls	.LBB32_311
	ldrb	w8, [x1, #2]
	cbz	x8, .LBB32_311
	ldrb	w9, [x1, #3]
	orr	x9, x9, x8, lsl #8
	sub	x8, x2, #4
	subs	x24, x8, x9
	b.lo	.LBB32_311
	add	x8, x1, #4
	b	.LBB32_314
.LBB32_301:
	and	w11, w11, #0xff
	cmp	w11, #130
	b.ne	.LBB32_355
	cmp	x10, #1
	b.ls	.LBB32_365
	ldrb	w10, [x9, #2]
	cbz	x10, .LBB32_365
	ldrb	w11, [x9, #3]
	orr	x14, x11, x10, lsl #8
	sub	x10, x8, #4
	subs	x10, x10, x14
	b.lo	.LBB32_365
	add	x13, x9, #4
	b	.LBB32_367
.LBB32_306:
	cbz	x10, .LBB32_311
	cmp	w9, #129
	b.ne	.LBB32_311
	ldrsb	w8, [x8]
	tbz	w8, #31, .LBB32_311
	sub	x10, x2, #3
	and	x9, x8, #0xff
	subs	x24, x10, x9
	b.lo	.LBB32_311
	add	x8, x1, #3
	b	.LBB32_314
.LBB32_311:
	stp	x22, x3, [sp, #72]
	add	x0, sp, #112
	mov	w3, #48
	str	x5, [sp, #104]
	mov	x22, x23
	mov	x23, x4
	str	x18, [sp, #48]
	mov	x26, x17
	mov	w25, w16
	mov	x21, x14
	mov	x20, x13
	mov	x27, x30
	mov	x24, x15
	bl	_RNvNtNtNtCs00000000001_10pkcs1_tool6proved8der_core5split14split_unlikely
	ldr	x8, [sp, #112]
	cbz	x8, .LBB32_373
	ldr	x10, [sp, #136]
	mov	x4, x23
	mov	x23, x22
	ldp	x22, x3, [sp, #72]
	ldr	x9, [sp, #120]
	ldr	x18, [sp, #48]
	ldr	x5, [sp, #104]
	mov	x15, x24
	mov	x24, x10
	mov	x30, x27
	mov	x13, x20
	mov	x14, x21
	mov	w16, w25
	mov	x17, x26
.LBB32_313:
	cmp	x9, #2
	b.lo	.LBB32_350
.LBB32_314:
	mov	x6, x8
	ldrb	w10, [x6], #2
	cmp	w10, #6
	b.ne	.LBB32_350
	ldrsb	w11, [x8, #1]
	sub	x10, x9, #2
	tbnz	w11, #31, .LBB32_317
	and	x7, x11, #0xff
	subs	x2, x10, x7
	b.hs	.LBB32_327
	b	.LBB32_350
.LBB32_317:
	and	w11, w11, #0xff
	cmp	w11, #130
	b.ne	.LBB32_322
	cmp	x10, #1
	b.ls	.LBB32_350
	ldrb	w10, [x8, #2]
	cbz	x10, .LBB32_350
	ldrb	w11, [x8, #3]
	orr	x7, x11, x10, lsl #8
	sub	x10, x9, #4
	subs	x2, x10, x7
	b.lo	.LBB32_350
	add	x6, x8, #4
	add	x1, x6, x7
	sub	x9, x7, #1
	cmp	x9, #38
	b.ls	.LBB32_328
	b	.LBB32_352
.LBB32_322:
	cbz	x10, .LBB32_350
	cmp	w11, #129
	b.ne	.LBB32_350
	ldrsb	w10, [x6]
	tbz	w10, #31, .LBB32_350
	sub	x11, x9, #3
	and	x7, x10, #0xff
	subs	x2, x11, x7
	b.lo	.LBB32_350
	add	x6, x8, #3
.LBB32_327:
	add	x1, x6, x7
	sub	x9, x7, #1
	cmp	x9, #38
	b.hi	.LBB32_352
.LBB32_328:
	ldrsb	w8, [x6, x9]
	tbnz	w8, #31, .LBB32_341
	movi	v0.8b, #128
	movi	v1.4h, #128
	mov	x10, x6
	b	.LBB32_332
.LBB32_330:
	mov	x11, #-1
	mov	w12, #1
.LBB32_331:
	add	x9, x11, x9
	add	x10, x10, x12
.LBB32_332:
	cmp	x9, #7
	b.ls	.LBB32_335
	ldr	d2, [x10]
	cmeq	v2.8b, v2.8b, v0.8b
	umaxv	b2, v2.8b
	fmov	w11, s2
	tbnz	w11, #0, .LBB32_340
	mov	x11, #-8
	mov	w12, #8
	b	.LBB32_331
.LBB32_335:
	cmp	x9, #3
	b.ls	.LBB32_338
	ldr	s2, [x10]
	ushll	v2.8h, v2.8b, #0
	cmeq	v2.4h, v2.4h, v1.4h
	umaxv	h2, v2.4h
	fmov	w11, s2
	tbnz	w11, #0, .LBB32_340
	mov	x11, #-4
	mov	w12, #4
	b	.LBB32_331
.LBB32_338:
	cbz	x9, .LBB32_344
	ldrb	w11, [x10]
	cmp	w11, #128
	b.ne	.LBB32_330
.LBB32_340:
	cbz	x7, .LBB32_344
.LBB32_341:
	ldrb	w9, [x6]
	cmp	w9, #128
	b.eq	.LBB32_352
	subs	x10, x7, #1
	b.ne	.LBB32_375
.LBB32_343:
	tbnz	w8, #31, .LBB32_352
.LBB32_344:
	mov	x20, x3
	cbz	x2, .LBB32_374
	ldrb	w3, [x1]
	mov	w9, #31
	mov	x8, xzr
	bics	wzr, w9, w3
	mov	w9, #11
	b.eq	.LBB32_418
	and	w10, w3, #0xffffffdf
	tst	w10, #0xff
	b.eq	.LBB32_418
	cmp	x2, #1
	b.eq	.LBB32_407
	ldrsb	w9, [x1, #1]
	add	x21, x1, #2
	sub	x8, x2, #2
	tbnz	w9, #31, .LBB32_394
	and	x25, x9, #0xff
	subs	x8, x8, x25
	b.hs	.LBB32_409
	b	.LBB32_407
.LBB32_350:
	str	x3, [sp, #80]
	add	x0, sp, #112
	mov	x1, x8
	mov	x2, x9
	mov	w3, #6
	str	x24, [sp, #64]
	str	x5, [sp, #104]
	mov	x26, x17
	mov	w25, w16
	stp	x4, x18, [sp, #40]
	mov	x21, x14
	mov	x20, x13
	mov	x27, x30
	mov	x24, x15
	bl	_RNvNtNtNtCs00000000001_10pkcs1_tool6proved8der_core5split14split_unlikely
	ldr	x6, [sp, #112]
	cbz	x6, .LBB32_380
	ldp	x7, x1, [sp, #120]
	mov	x15, x24
	ldp	x4, x18, [sp, #40]
	mov	x30, x27
	ldr	x2, [sp, #136]
	ldr	x5, [sp, #104]
	mov	x13, x20
	ldr	x3, [sp, #80]
	ldr	x24, [sp, #64]
	mov	x14, x21
	mov	w16, w25
	mov	x17, x26
	sub	x9, x7, #1
	cmp	x9, #38
	b.ls	.LBB32_328
.LBB32_352:
	mov	w9, #5
.LBB32_353:
	lsr	x8, x9, #8
.LBB32_354:
	and	x9, x9, #0xff
	b	.LBB32_401
.LBB32_355:
	cbz	x10, .LBB32_365
	cmp	w11, #129
	b.ne	.LBB32_365
	ldrsb	w10, [x13]
	tbz	w10, #31, .LBB32_365
	sub	x11, x8, #3
	and	x14, x10, #0xff
	subs	x10, x11, x14
	b.lo	.LBB32_365
	add	x13, x9, #3
	b	.LBB32_367
.LBB32_360:
	and	w9, w9, #0xff
	cmp	w9, #130
	b.ne	.LBB32_381
	cmp	x10, #1
	b.ls	.LBB32_386
	ldrb	w8, [x1, #2]
	cbz	x8, .LBB32_386
	ldrb	w9, [x1, #3]
	orr	x9, x9, x8, lsl #8
	sub	x8, x2, #4
	subs	x10, x8, x9
	b.lo	.LBB32_386
	add	x8, x1, #4
	b	.LBB32_388
.LBB32_365:
	mov	x20, x2
	mov	x24, x1
	add	x0, sp, #112
	mov	x1, x9
	mov	x2, x8
	mov	x3, x30
	mov	x25, x15
	mov	x26, x30
	bl	_RNvNtNtNtCs00000000001_10pkcs1_tool6proved8der_core5split14split_unlikely
	ldr	x13, [sp, #112]
	cbz	x13, .LBB32_392
	ldr	x14, [sp, #120]
	ldr	x10, [sp, #136]
	mov	x1, x24
	mov	x2, x20
	mov	x15, x25
	mov	x30, x26
.LBB32_367:
	cbz	x10, .LBB32_369
	mov	w11, #12
	b	.LBB32_163
.LBB32_369:
	cbz	x21, .LBB32_371
.LBB32_370:
	mov	w11, #12
	b	.LBB32_164
.LBB32_371:
	cmp	x15, #5
	b.eq	.LBB32_9
	mov	w8, wzr
	b	.LBB32_17
.LBB32_373:
	ldrb	w8, [sp, #122]
	ldrh	w9, [sp, #120]
	orr	x9, x9, x8, lsl #16
	ubfx	x8, x9, #8, #24
	mov	w8, w8
	b	.LBB32_354
.LBB32_374:
	mov	x21, xzr
	b	.LBB32_411
.LBB32_375:
	mov	x0, xzr
	add	x11, x6, #1
	mov	w9, #5
	b	.LBB32_377
.LBB32_376:
	add	x0, x0, #1
	add	x11, x11, #1
	cmp	x10, x0
	b.eq	.LBB32_343
.LBB32_377:
	ldrb	w12, [x11]
	cmp	w12, #128
	b.ne	.LBB32_376
	cmp	x0, x7
	b.hs	.LBB32_422
	ldursb	w12, [x11, #-1]
	tbnz	w12, #31, .LBB32_376
	b	.LBB32_353
.LBB32_380:
	ldrb	w8, [sp, #122]
	ldrh	w9, [sp, #120]
	orr	x9, x9, x8, lsl #16
	b	.LBB32_353
.LBB32_381:
	cbz	x10, .LBB32_386
	cmp	w9, #129
	b.ne	.LBB32_386
	ldrsb	w8, [x8]
	tbz	w8, #31, .LBB32_386
	sub	x10, x2, #3
	and	x9, x8, #0xff
	subs	x10, x10, x9
	b.lo	.LBB32_386
	add	x8, x1, #3
	b	.LBB32_388
.LBB32_386:
	stp	x3, x7, [sp, #80]
	add	x0, sp, #112
	mov	w3, w23
	stp	x27, x13, [sp, #16]
	mov	x27, x18
	str	w26, [sp, #56]
	mov	x26, x17
	stp	x25, x21, [sp, #64]
	mov	w25, w16
	mov	x21, x14
	stp	x6, x5, [sp, #96]
	stp	x30, x4, [sp, #32]
	str	x15, [sp, #8]
	bl	_RNvNtNtNtCs00000000001_10pkcs1_tool6proved8der_core5split14split_unlikely
	ldr	x8, [sp, #112]
	cbz	x8, .LBB32_399
	ldp	x13, x30, [sp, #24]
	mov	x14, x21
	mov	w16, w25
	mov	x18, x27
	ldr	x9, [sp, #120]
	ldp	x6, x5, [sp, #96]
	ldr	x10, [sp, #136]
	ldp	x3, x7, [sp, #80]
	mov	x17, x26
	ldp	x25, x21, [sp, #64]
	ldr	x4, [sp, #40]
	ldp	x15, x27, [sp, #8]
	ldr	w26, [sp, #56]
.LBB32_388:
	cbnz	x10, .LBB32_412
	cbnz	x27, .LBB32_414
	cmp	x22, #9
	b.eq	.LBB32_69
	mov	w10, wzr
	b	.LBB32_74
.LBB32_392:
	ldrb	w8, [sp, #122]
	ldrh	w9, [sp, #120]
	orr	w8, w9, w8, lsl #16
	lsr	w30, w8, #8
	and	w11, w8, #0xff
	and	w10, w30, #0xff00
.LBB32_393:
	mov	w8, w30
	and	x8, x8, #0xff
	orr	x8, x10, x8
	orr	x11, x11, x8, lsl #8
	b	.LBB32_163
.LBB32_394:
	and	w9, w9, #0xff
	cmp	w9, #130
	b.ne	.LBB32_402
	cmp	x8, #1
	b.ls	.LBB32_407
	ldrb	w8, [x1, #2]
	cbz	x8, .LBB32_407
	ldrb	w9, [x1, #3]
	orr	x25, x9, x8, lsl #8
	sub	x8, x2, #4
	subs	x8, x8, x25
	b.lo	.LBB32_407
	add	x21, x1, #4
	b	.LBB32_409
.LBB32_399:
	ldrb	w8, [sp, #122]
	ldrh	w9, [sp, #120]
	orr	w9, w9, w8, lsl #16
	lsr	w23, w9, #8
	and	w9, w9, #0xff
	and	w8, w23, #0xff00
.LBB32_400:
	and	x10, x23, #0xff
	orr	x8, x8, x10
.LBB32_401:
	orr	x9, x9, x8, lsl #8
	b	.LBB32_266
.LBB32_402:
	cbz	x8, .LBB32_407
	cmp	w9, #129
	b.ne	.LBB32_407
	ldrsb	w8, [x21]
	tbz	w8, #31, .LBB32_407
	sub	x9, x2, #3
	and	x25, x8, #0xff
	subs	x8, x9, x25
	b.lo	.LBB32_407
	add	x21, x1, #3
	b	.LBB32_409
.LBB32_407:
	add	x0, sp, #112
	stp	x24, x22, [sp, #64]
	mov	x22, x17
	stp	x7, x6, [sp, #88]
	mov	w25, w16
	mov	x21, x14
	str	x5, [sp, #104]
	mov	x27, x30
	mov	x24, x15
	stp	x18, x23, [sp, #48]
	mov	x23, x13
	mov	x26, x3
	str	x4, [sp, #40]
	bl	_RNvNtNtNtCs00000000001_10pkcs1_tool6proved8der_core5split14split_unlikely
	ldr	x8, [sp, #112]
	cbz	x8, .LBB32_417
	ldr	x10, [sp, #120]
	mov	x15, x24
	mov	x13, x23
	ldp	x4, x18, [sp, #40]
	mov	x9, x8
	ldp	x23, x24, [sp, #56]
	ldr	x8, [sp, #136]
	ldp	x6, x5, [sp, #96]
	mov	x17, x22
	ldr	x22, [sp, #72]
	ldr	x7, [sp, #88]
	mov	x30, x27
	mov	x14, x21
	mov	w16, w25
	mov	x25, x10
	mov	x3, x26
	mov	x21, x9
.LBB32_409:
	cbz	x8, .LBB32_411
	mov	w9, #12
	b	.LBB32_353
.LBB32_411:
	cbz	x24, .LBB32_413
.LBB32_412:
	mov	w9, #12
	b	.LBB32_266
.LBB32_413:
	cbz	x20, .LBB32_415
.LBB32_414:
	mov	w9, #12
	b	.LBB32_267
.LBB32_415:
	cmp	x5, #9
	b.eq	.LBB32_28
	mov	w8, wzr
	b	.LBB32_39
.LBB32_417:
	ldrb	w8, [sp, #122]
	ldrh	w9, [sp, #120]
	orr	w9, w9, w8, lsl #16
	lsr	w3, w9, #8
	and	w9, w9, #0xff
	and	w8, w3, #0xff00
.LBB32_418:
	mov	w10, w3
	and	x10, x10, #0xff
	orr	x8, x8, x10
	orr	x9, x9, x8, lsl #8
	b	.LBB32_353
.LBB32_419:
	mov	x1, x15
	brk	#0x1
.LBB32_420:
	mov	x1, x5
	brk	#0x1
.LBB32_421:
	mov	x1, x22
	brk	#0x1
.LBB32_422:
	mov	x1, x7
	brk	#0x1
.Lfunc_end32:
	.size	_RNvNtNtNtCs00000000001_10pkcs1_tool6proved12pkcs1_params6noting9note_oaep, .Lfunc_end32-_RNvNtNtNtCs00000000001_10pkcs1_tool6proved12pkcs1_params6noting9note_oaep
	.cfi_endproc

	.section	.text._RNvMs1_NtNtNtCs00000000001_10pkcs1_tool6proved12pkcs1_params8spellingINtB5_8SpellingRINtNtB7_3pss11PssParamsOfNtNtNtB9_9spki_core17object_identifier16ObjectIdentifierNtNtB1O_3any6AnyRefEE3lenBb_,"ax",@progbits
	.p2align	2
	.type	_RNvMs1_NtNtNtCs00000000001_10pkcs1_tool6proved12pkcs1_params8spellingINtB5_8SpellingRINtNtB7_3pss11PssParamsOfNtNtNtB9_9spki_core17object_identifier16ObjectIdentifierNtNtB1O_3any6AnyRefEE3lenBb_,@function
_RNvMs1_NtNtNtCs00000000001_10pkcs1_tool6proved12pkcs1_params8spellingINtB5_8SpellingRINtNtB7_3pss11PssParamsOfNtNtNtB9_9spki_core17object_identifier16ObjectIdentifierNtNtB1O_3any6AnyRefEE3lenBb_:
	.cfi_startproc
	hint	#38
	str	x30, [sp, #-48]!
	.cfi_def_cfa_offset 48
	stp	x22, x21, [sp, #16]
	stp	x20, x19, [sp, #32]
	.cfi_offset w19, -8
	.cfi_offset w20, -16
	.cfi_offset w21, -24
	.cfi_offset w22, -32
	.cfi_offset w30, -48
	.cfi_remember_state
	ldr	x20, [x1]
	ldrb	w8, [x1, #8]
	mov	x19, x0
	ldrb	w22, [x1, #9]
	str	xzr, [sp, #8]
	ldrb	w21, [x20, #176]
	tbnz	w8, #0, .LBB33_9
	tbnz	w8, #1, .LBB33_15
	tbnz	w8, #2, .LBB33_23
	orr	w8, w22, w8
	tbnz	w8, #3, .LBB33_35
	tbnz	w22, #2, .LBB33_36
.LBB33_5:
	tbnz	w22, #1, .LBB33_37
.LBB33_6:
	tbnz	w22, #0, .LBB33_38
.LBB33_7:
	ldr	x8, [sp, #8]
	cmp	x8, #128
	b.hs	.LBB33_39
.LBB33_8:
	mov	w9, #2
	add	x8, x8, x9
	b	.LBB33_47
.LBB33_9:
	tbnz	w8, #1, .LBB33_19
	tbnz	w8, #2, .LBB33_25
	and	w8, w8, #0x8
	and	w9, w22, #0x4
	orr	w8, w9, w8
	cbz	w8, .LBB33_13
	add	x0, sp, #8
	bl	_RINvNtNtNtCs00000000001_10pkcs1_tool6proved12pkcs1_params6fields13prepend_fieldNtNtB4_13trailer_field12TrailerFieldNtNtNtB6_8der_core7counter7CounterEB8_
.LBB33_13:
	tbnz	w22, #1, .LBB33_27
	tbnz	w22, #0, .LBB33_34
	b	.LBB33_38
.LBB33_15:
	tbnz	w8, #2, .LBB33_28
	and	w8, w8, #0x8
	and	w9, w22, #0x4
	orr	w8, w9, w8
	cbz	w8, .LBB33_18
	add	x0, sp, #8
	bl	_RINvNtNtNtCs00000000001_10pkcs1_tool6proved12pkcs1_params6fields13prepend_fieldNtNtB4_13trailer_field12TrailerFieldNtNtNtB6_8der_core7counter7CounterEB8_
.LBB33_18:
	tbnz	w22, #1, .LBB33_30
	b	.LBB33_37
.LBB33_19:
	tbnz	w8, #2, .LBB33_31
	and	w8, w8, #0x8
	and	w9, w22, #0x2
	orr	w8, w9, w8
	cbz	w8, .LBB33_22
	add	x0, sp, #8
	bl	_RINvNtNtNtCs00000000001_10pkcs1_tool6proved12pkcs1_params6fields13prepend_fieldNtNtB4_13trailer_field12TrailerFieldNtNtNtB6_8der_core7counter7CounterEB8_
.LBB33_22:
	tbnz	w22, #0, .LBB33_33
	b	.LBB33_34
.LBB33_23:
	and	w8, w8, #0x8
	and	w9, w22, #0x4
	orr	w8, w9, w8
	cbz	w8, .LBB33_36
	add	x0, sp, #8
	bl	_RINvNtNtNtCs00000000001_10pkcs1_tool6proved12pkcs1_params6fields13prepend_fieldNtNtB4_13trailer_field12TrailerFieldNtNtNtB6_8der_core7counter7CounterEB8_
	b	.LBB33_36
.LBB33_25:
	and	w8, w8, #0x8
	and	w9, w22, #0x2
	orr	w8, w9, w8
	cbz	w8, .LBB33_27
	add	x0, sp, #8
	bl	_RINvNtNtNtCs00000000001_10pkcs1_tool6proved12pkcs1_params6fields13prepend_fieldNtNtB4_13trailer_field12TrailerFieldNtNtNtB6_8der_core7counter7CounterEB8_
.LBB33_27:
	add	x1, sp, #8
	mov	w0, w21
	bl	_RINvNtNtNtCs00000000001_10pkcs1_tool6proved12pkcs1_params6fields13prepend_fieldhNtNtNtB6_8der_core7counter7CounterEB8_
	tbnz	w22, #0, .LBB33_34
	b	.LBB33_38
.LBB33_28:
	and	w8, w8, #0x8
	and	w9, w22, #0x2
	orr	w8, w9, w8
	cbz	w8, .LBB33_30
	add	x0, sp, #8
	bl	_RINvNtNtNtCs00000000001_10pkcs1_tool6proved12pkcs1_params6fields13prepend_fieldNtNtB4_13trailer_field12TrailerFieldNtNtNtB6_8der_core7counter7CounterEB8_
.LBB33_30:
	add	x1, sp, #8
	mov	w0, w21
	bl	_RINvNtNtNtCs00000000001_10pkcs1_tool6proved12pkcs1_params6fields13prepend_fieldhNtNtNtB6_8der_core7counter7CounterEB8_
	b	.LBB33_37
.LBB33_31:
	and	w8, w8, #0x8
	bfxil	w8, w22, #0, #1
	cbz	w8, .LBB33_33
	add	x0, sp, #8
	bl	_RINvNtNtNtCs00000000001_10pkcs1_tool6proved12pkcs1_params6fields13prepend_fieldNtNtB4_13trailer_field12TrailerFieldNtNtNtB6_8der_core7counter7CounterEB8_
.LBB33_33:
	add	x1, sp, #8
	mov	w0, w21
	bl	_RINvNtNtNtCs00000000001_10pkcs1_tool6proved12pkcs1_params6fields13prepend_fieldhNtNtNtB6_8der_core7counter7CounterEB8_
.LBB33_34:
	add	x1, sp, #8
	mov	x0, x20
	bl	_RINvNtNtNtCs00000000001_10pkcs1_tool6proved12pkcs1_params6fields13prepend_fieldINtNtNtB6_9spki_core20algorithm_identifier21AlgorithmIdentifierOfNtNtB1k_17object_identifier16ObjectIdentifierIB1g_B2i_NtNtB1k_3any6AnyRefEENtNtNtB6_8der_core7counter7CounterEB8_
	b	.LBB33_38
.LBB33_35:
	add	x0, sp, #8
	bl	_RINvNtNtNtCs00000000001_10pkcs1_tool6proved12pkcs1_params6fields13prepend_fieldNtNtB4_13trailer_field12TrailerFieldNtNtNtB6_8der_core7counter7CounterEB8_
	tbz	w22, #2, .LBB33_5
.LBB33_36:
	add	x1, sp, #8
	mov	w0, w21
	bl	_RINvNtNtNtCs00000000001_10pkcs1_tool6proved12pkcs1_params6fields13prepend_fieldhNtNtNtB6_8der_core7counter7CounterEB8_
	tbz	w22, #1, .LBB33_6
.LBB33_37:
	add	x1, sp, #8
	mov	x0, x20
	bl	_RINvNtNtNtCs00000000001_10pkcs1_tool6proved12pkcs1_params6fields13prepend_fieldINtNtNtB6_9spki_core20algorithm_identifier21AlgorithmIdentifierOfNtNtB1k_17object_identifier16ObjectIdentifierIB1g_B2i_NtNtB1k_3any6AnyRefEENtNtNtB6_8der_core7counter7CounterEB8_
	tbz	w22, #0, .LBB33_7
.LBB33_38:
	add	x0, x20, #112
	add	x1, sp, #8
	bl	_RINvNtNtNtCs00000000001_10pkcs1_tool6proved12pkcs1_params6fields13prepend_fieldINtNtNtB6_9spki_core20algorithm_identifier21AlgorithmIdentifierOfNtNtB1k_17object_identifier16ObjectIdentifierNtNtB1k_3any6AnyRefENtNtNtB6_8der_core7counter7CounterEB8_
	ldr	x8, [sp, #8]
	cmp	x8, #128
	b.lo	.LBB33_8
.LBB33_39:
	cmp	x8, #256
	b.hs	.LBB33_41
	mov	w9, #3
	add	x8, x8, x9
	b	.LBB33_47
.LBB33_41:
	cmp	x8, #16, lsl #12
	b.hs	.LBB33_43
	mov	w9, #4
	add	x8, x8, x9
	b	.LBB33_47
.LBB33_43:
	lsr	x9, x8, #24
	cbnz	x9, .LBB33_45
	mov	w9, #5
	add	x8, x8, x9
	b	.LBB33_47
.LBB33_45:
	adds	x8, x8, #6
	csinv	x8, x8, xzr, lo
	lsr	x9, x8, #32
	cbz	x9, .LBB33_47
	mov	w8, #7
	mov	w9, #1
	strb	wzr, [x19, #3]
	sturh	w8, [x19, #1]
	strb	w9, [x19]
	ldp	x20, x19, [sp, #32]
	ldp	x22, x21, [sp, #16]
	ldr	x30, [sp], #48
	.cfi_def_cfa_offset 0
	.cfi_restore w19
	.cfi_restore w20
	.cfi_restore w21
	.cfi_restore w22
	.cfi_restore w30
	ret
.LBB33_47:
	.cfi_restore_state
	str	x8, [x19, #8]
	strb	wzr, [x19]
	ldp	x20, x19, [sp, #32]
	ldp	x22, x21, [sp, #16]
	ldr	x30, [sp], #48
	.cfi_def_cfa_offset 0
	.cfi_restore w19
	.cfi_restore w20
	.cfi_restore w21
	.cfi_restore w22
	.cfi_restore w30
	ret
.Lfunc_end33:
	.size	_RNvMs1_NtNtNtCs00000000001_10pkcs1_tool6proved12pkcs1_params8spellingINtB5_8SpellingRINtNtB7_3pss11PssParamsOfNtNtNtB9_9spki_core17object_identifier16ObjectIdentifierNtNtB1O_3any6AnyRefEE3lenBb_, .Lfunc_end33-_RNvMs1_NtNtNtCs00000000001_10pkcs1_tool6proved12pkcs1_params8spellingINtB5_8SpellingRINtNtB7_3pss11PssParamsOfNtNtNtB9_9spki_core17object_identifier16ObjectIdentifierNtNtB1O_3any6AnyRefEE3lenBb_
	.cfi_endproc

	.section	.text._RNvMs1_NtNtNtCs00000000001_10pkcs1_tool6proved12pkcs1_params8spellingINtB5_8SpellingRINtNtB7_4oaep12OaepParamsOfNtNtNtB9_9spki_core17object_identifier16ObjectIdentifierNtNtB1Q_3any6AnyRefEE3lenBb_,"ax",@progbits
	.p2align	2
	.type	_RNvMs1_NtNtNtCs00000000001_10pkcs1_tool6proved12pkcs1_params8spellingINtB5_8SpellingRINtNtB7_4oaep12OaepParamsOfNtNtNtB9_9spki_core17object_identifier16ObjectIdentifierNtNtB1Q_3any6AnyRefEE3lenBb_,@function
_RNvMs1_NtNtNtCs00000000001_10pkcs1_tool6proved12pkcs1_params8spellingINtB5_8SpellingRINtNtB7_4oaep12OaepParamsOfNtNtNtB9_9spki_core17object_identifier16ObjectIdentifierNtNtB1Q_3any6AnyRefEE3lenBb_:
	.cfi_startproc
	hint	#38
	sub	sp, sp, #48
	.cfi_def_cfa_offset 48
	stp	x30, x21, [sp, #16]
	stp	x20, x19, [sp, #32]
	.cfi_offset w19, -8
	.cfi_offset w20, -16
	.cfi_offset w21, -24
	.cfi_offset w30, -32
	.cfi_remember_state
	ldrb	w8, [x1, #8]
	ldr	x20, [x1]
	mov	x19, x0
	ldrb	w21, [x1, #9]
	str	xzr, [sp, #8]
	tbnz	w8, #0, .LBB34_7
	tbnz	w8, #1, .LBB34_11
	orr	w8, w21, w8
	tbnz	w8, #2, .LBB34_16
	tbnz	w21, #1, .LBB34_17
.LBB34_4:
	tbnz	w21, #0, .LBB34_18
.LBB34_5:
	ldr	x8, [sp, #8]
	cmp	x8, #128
	b.hs	.LBB34_19
.LBB34_6:
	mov	w9, #2
	add	x8, x8, x9
	b	.LBB34_27
.LBB34_7:
	tbnz	w8, #1, .LBB34_13
	and	w8, w8, #0x4
	and	w9, w21, #0x2
	orr	w8, w9, w8
	cbz	w8, .LBB34_10
	add	x0, x20, #176
	add	x1, sp, #8
	bl	_RINvNtNtNtCs00000000001_10pkcs1_tool6proved12pkcs1_params6fields13prepend_fieldINtNtNtB6_9spki_core20algorithm_identifier21AlgorithmIdentifierOfNtNtB1k_17object_identifier16ObjectIdentifierNtNtB1k_3any6AnyRefENtNtNtB6_8der_core7counter7CounterEB8_
.LBB34_10:
	tbnz	w21, #0, .LBB34_15
	b	.LBB34_18
.LBB34_11:
	and	w8, w8, #0x4
	and	w9, w21, #0x2
	orr	w8, w9, w8
	cbz	w8, .LBB34_17
	add	x0, x20, #176
	add	x1, sp, #8
	bl	_RINvNtNtNtCs00000000001_10pkcs1_tool6proved12pkcs1_params6fields13prepend_fieldINtNtNtB6_9spki_core20algorithm_identifier21AlgorithmIdentifierOfNtNtB1k_17object_identifier16ObjectIdentifierNtNtB1k_3any6AnyRefENtNtNtB6_8der_core7counter7CounterEB8_
	b	.LBB34_17
.LBB34_13:
	and	w8, w8, #0x4
	bfxil	w8, w21, #0, #1
	cbz	w8, .LBB34_15
	add	x0, x20, #176
	add	x1, sp, #8
	bl	_RINvNtNtNtCs00000000001_10pkcs1_tool6proved12pkcs1_params6fields13prepend_fieldINtNtNtB6_9spki_core20algorithm_identifier21AlgorithmIdentifierOfNtNtB1k_17object_identifier16ObjectIdentifierNtNtB1k_3any6AnyRefENtNtNtB6_8der_core7counter7CounterEB8_
.LBB34_15:
	add	x1, sp, #8
	mov	x0, x20
	bl	_RINvNtNtNtCs00000000001_10pkcs1_tool6proved12pkcs1_params6fields13prepend_fieldINtNtNtB6_9spki_core20algorithm_identifier21AlgorithmIdentifierOfNtNtB1k_17object_identifier16ObjectIdentifierIB1g_B2i_NtNtB1k_3any6AnyRefEENtNtNtB6_8der_core7counter7CounterEB8_
	b	.LBB34_18
.LBB34_16:
	add	x0, x20, #176
	add	x1, sp, #8
	bl	_RINvNtNtNtCs00000000001_10pkcs1_tool6proved12pkcs1_params6fields13prepend_fieldINtNtNtB6_9spki_core20algorithm_identifier21AlgorithmIdentifierOfNtNtB1k_17object_identifier16ObjectIdentifierNtNtB1k_3any6AnyRefENtNtNtB6_8der_core7counter7CounterEB8_
	tbz	w21, #1, .LBB34_4
.LBB34_17:
	add	x1, sp, #8
	mov	x0, x20
	bl	_RINvNtNtNtCs00000000001_10pkcs1_tool6proved12pkcs1_params6fields13prepend_fieldINtNtNtB6_9spki_core20algorithm_identifier21AlgorithmIdentifierOfNtNtB1k_17object_identifier16ObjectIdentifierIB1g_B2i_NtNtB1k_3any6AnyRefEENtNtNtB6_8der_core7counter7CounterEB8_
	tbz	w21, #0, .LBB34_5
.LBB34_18:
	add	x0, x20, #112
	add	x1, sp, #8
	bl	_RINvNtNtNtCs00000000001_10pkcs1_tool6proved12pkcs1_params6fields13prepend_fieldINtNtNtB6_9spki_core20algorithm_identifier21AlgorithmIdentifierOfNtNtB1k_17object_identifier16ObjectIdentifierNtNtB1k_3any6AnyRefENtNtNtB6_8der_core7counter7CounterEB8_
	ldr	x8, [sp, #8]
	cmp	x8, #128
	b.lo	.LBB34_6
.LBB34_19:
	cmp	x8, #256
	b.hs	.LBB34_21
	mov	w9, #3
	add	x8, x8, x9
	b	.LBB34_27
.LBB34_21:
	cmp	x8, #16, lsl #12
	b.hs	.LBB34_23
	mov	w9, #4
	add	x8, x8, x9
	b	.LBB34_27
.LBB34_23:
	lsr	x9, x8, #24
	cbnz	x9, .LBB34_25
	mov	w9, #5
	add	x8, x8, x9
	b	.LBB34_27
.LBB34_25:
	adds	x8, x8, #6
	csinv	x8, x8, xzr, lo
	lsr	x9, x8, #32
	cbz	x9, .LBB34_27
	mov	w8, #7
	mov	w9, #1
	strb	wzr, [x19, #3]
	sturh	w8, [x19, #1]
	strb	w9, [x19]
	ldp	x20, x19, [sp, #32]
	ldp	x30, x21, [sp, #16]
	add	sp, sp, #48
	.cfi_def_cfa_offset 0
	.cfi_restore w19
	.cfi_restore w20
	.cfi_restore w21
	.cfi_restore w30
	ret
.LBB34_27:
	.cfi_restore_state
	str	x8, [x19, #8]
	strb	wzr, [x19]
	ldp	x20, x19, [sp, #32]
	ldp	x30, x21, [sp, #16]
	add	sp, sp, #48
	.cfi_def_cfa_offset 0
	.cfi_restore w19
	.cfi_restore w20
	.cfi_restore w21
	.cfi_restore w30
	ret
.Lfunc_end34:
	.size	_RNvMs1_NtNtNtCs00000000001_10pkcs1_tool6proved12pkcs1_params8spellingINtB5_8SpellingRINtNtB7_4oaep12OaepParamsOfNtNtNtB9_9spki_core17object_identifier16ObjectIdentifierNtNtB1Q_3any6AnyRefEE3lenBb_, .Lfunc_end34-_RNvMs1_NtNtNtCs00000000001_10pkcs1_tool6proved12pkcs1_params8spellingINtB5_8SpellingRINtNtB7_4oaep12OaepParamsOfNtNtNtB9_9spki_core17object_identifier16ObjectIdentifierNtNtB1Q_3any6AnyRefEE3lenBb_
	.cfi_endproc

	.section	.text._RNvXs4_NtNtNtCs00000000001_10pkcs1_tool6proved5pkcs110public_keyINtB5_12RsaPublicKeyNtNtNtNtB9_8der_core7integer4uint7UintRefEINtNtCs00000000002_4core7convert7TryFromRShE8try_from,"ax",@progbits
	.p2align	2
	.type	_RNvXs4_NtNtNtCs00000000001_10pkcs1_tool6proved5pkcs110public_keyINtB5_12RsaPublicKeyNtNtNtNtB9_8der_core7integer4uint7UintRefEINtNtCs00000000002_4core7convert7TryFromRShE8try_from,@function
_RNvXs4_NtNtNtCs00000000001_10pkcs1_tool6proved5pkcs110public_keyINtB5_12RsaPublicKeyNtNtNtNtB9_8der_core7integer4uint7UintRefEINtNtCs00000000002_4core7convert7TryFromRShE8try_from:
	.cfi_startproc
	hint	#38
	sub	sp, sp, #80
	.cfi_def_cfa_offset 80
	str	x30, [sp, #32]
	stp	x22, x21, [sp, #48]
	stp	x20, x19, [sp, #64]
	.cfi_offset w19, -8
	.cfi_offset w20, -16
	.cfi_offset w21, -24
	.cfi_offset w22, -32
	.cfi_offset w30, -48
	.cfi_remember_state
	lsr	x10, x2, #32
	cbz	x10, .LBB35_4
	mov	w8, #7
.LBB35_2:
.LBB35_3:
	strb	w8, [x0, #8]
	sturh	w9, [x0, #9]
	str	xzr, [x0]
	ldp	x20, x19, [sp, #64]
	ldr	x30, [sp, #32]
	ldp	x22, x21, [sp, #48]
	add	sp, sp, #80
	.cfi_def_cfa_offset 0
	.cfi_restore w19
	.cfi_restore w20
	.cfi_restore w21
	.cfi_restore w22
	.cfi_restore w30
	ret
.LBB35_4:
	.cfi_restore_state
	mov	x9, x2
	mov	x8, x1
	subs	x10, x2, #2
	b.lo	.LBB35_34
	mov	x1, x8
	ldrb	w11, [x1], #2
	cmp	w11, #48
	b.ne	.LBB35_34
	ldrsb	w11, [x8, #1]
	tbnz	w11, #31, .LBB35_16
	and	x2, x11, #0xff
	subs	x19, x10, x2
	b.lo	.LBB35_34
	cmp	x2, #2
	b.lo	.LBB35_41
.LBB35_9:
	mov	x20, x1
	ldrb	w8, [x20], #2
	cmp	w8, #2
	b.ne	.LBB35_41
	ldrsb	w9, [x1, #1]
	sub	x8, x2, #2
	tbnz	w9, #31, .LBB35_21
	and	x21, x9, #0xff
	subs	x8, x8, x21
	b.lo	.LBB35_41
	add	x1, x20, x21
	cbz	x21, .LBB35_43
.LBB35_13:
	ldrsb	w9, [x20]
	cbz	w9, .LBB35_26
.LBB35_14:
	tbz	w9, #31, .LBB35_45
	mov	w8, #525
	lsr	x9, x8, #8
	b	.LBB35_3
.LBB35_16:
	and	w11, w11, #0xff
	cmp	w11, #130
	b.ne	.LBB35_29
	cmp	x10, #1
	b.ls	.LBB35_34
	ldrb	w10, [x8, #2]
	cbz	x10, .LBB35_34
	ldrb	w11, [x8, #3]
	orr	x2, x11, x10, lsl #8
	sub	x10, x9, #4
	subs	x19, x10, x2
	b.lo	.LBB35_34
	add	x1, x8, #4
	b	.LBB35_9
.LBB35_21:
	and	w9, w9, #0xff
	cmp	w9, #130
	b.ne	.LBB35_36
	cmp	x8, #1
	b.ls	.LBB35_41
	ldrb	w8, [x1, #2]
	cbz	x8, .LBB35_41
	ldrb	w9, [x1, #3]
	orr	x21, x9, x8, lsl #8
	sub	x8, x2, #4
	subs	x8, x8, x21
	b.lo	.LBB35_41
	add	x20, x1, #4
	add	x1, x20, x21
	ldrsb	w9, [x20]
	cbnz	w9, .LBB35_14
.LBB35_26:
	subs	x21, x21, #1
	b.eq	.LBB35_44
	ldrsb	w9, [x20, #1]!
	tbnz	w9, #31, .LBB35_45
	mov	w8, #516
	lsr	x9, x8, #8
	b	.LBB35_3
.LBB35_29:
	cbz	x10, .LBB35_34
	cmp	w11, #129
	b.ne	.LBB35_34
	ldrsb	w10, [x1]
	tbz	w10, #31, .LBB35_34
	sub	x11, x9, #3
	and	x2, x10, #0xff
	subs	x19, x11, x2
	b.lo	.LBB35_34
	add	x1, x8, #3
	b	.LBB35_9
.LBB35_34:
	mov	x20, x0
	mov	x0, sp
	mov	x1, x8
	mov	x2, x9
	mov	w3, #48
	bl	_RNvNtNtNtCs00000000001_10pkcs1_tool6proved8der_core5split14split_unlikely
	ldr	x1, [sp]
	cbz	x1, .LBB35_56
	ldr	x2, [sp, #8]
	ldr	x19, [sp, #24]
	mov	x0, x20
	cmp	x2, #2
	b.hs	.LBB35_9
	b	.LBB35_41
.LBB35_36:
	cbz	x8, .LBB35_41
	cmp	w9, #129
	b.ne	.LBB35_41
	ldrsb	w8, [x20]
	tbz	w8, #31, .LBB35_41
	sub	x9, x2, #3
	and	x21, x8, #0xff
	subs	x8, x9, x21
	b.lo	.LBB35_41
	add	x20, x1, #3
	add	x1, x20, x21
	ldrsb	w9, [x20]
	cbnz	w9, .LBB35_14
	b	.LBB35_26
.LBB35_41:
	mov	x22, x0
	mov	x0, sp
	mov	w3, #2
	bl	_RNvNtNtNtCs00000000001_10pkcs1_tool6proved8der_core5split14split_unlikely
	ldr	x20, [sp]
	cbz	x20, .LBB35_57
	ldp	x21, x1, [sp, #8]
	mov	x0, x22
	ldr	x8, [sp, #24]
	cbnz	x21, .LBB35_13
.LBB35_43:
	mov	w8, #515
	lsr	x9, x8, #8
	b	.LBB35_3
.LBB35_44:
	mov	w21, #1
.LBB35_45:
	subs	x11, x8, #2
	b.lo	.LBB35_63
	mov	x9, x1
	ldrb	w10, [x9], #2
	cmp	w10, #2
	b.ne	.LBB35_63
	ldrsb	w10, [x1, #1]
	tbnz	w10, #31, .LBB35_51
	and	x10, x10, #0xff
	subs	x11, x11, x10
	b.lo	.LBB35_63
	cbnz	x10, .LBB35_65
.LBB35_50:
	mov	w8, #515
	lsr	x9, x8, #8
	b	.LBB35_3
.LBB35_51:
	and	w10, w10, #0xff
	cmp	w10, #130
	b.ne	.LBB35_58
	cmp	x11, #1
	b.ls	.LBB35_63
	ldrb	w9, [x1, #2]
	cbz	x9, .LBB35_63
	ldrb	w10, [x1, #3]
	orr	x10, x10, x9, lsl #8
	sub	x9, x8, #4
	subs	x11, x9, x10
	b.lo	.LBB35_63
	add	x9, x1, #4
	b	.LBB35_65
.LBB35_56:
	ldrb	w8, [sp, #10]
	ldrh	w9, [sp, #8]
	mov	x0, x20
	orr	w8, w9, w8, lsl #16
	lsr	w9, w8, #8
	b	.LBB35_3
.LBB35_57:
	ldrb	w8, [sp, #10]
	ldrh	w9, [sp, #8]
	mov	x0, x22
	orr	x8, x9, x8, lsl #16
	lsr	x9, x8, #8
	b	.LBB35_3
.LBB35_58:
	cbz	x11, .LBB35_63
	cmp	w10, #129
	b.ne	.LBB35_63
	ldrsb	w9, [x9]
	tbz	w9, #31, .LBB35_63
	sub	x11, x8, #3
	and	x10, x9, #0xff
	subs	x11, x11, x10
	b.lo	.LBB35_63
	add	x9, x1, #3
	b	.LBB35_65
.LBB35_63:
	mov	x22, x0
	mov	x0, sp
	mov	x2, x8
	mov	w3, #2
	bl	_RNvNtNtNtCs00000000001_10pkcs1_tool6proved8der_core5split14split_unlikely
	ldr	x9, [sp]
	cbz	x9, .LBB35_76
	ldr	x10, [sp, #8]
	ldr	x11, [sp, #24]
	mov	x0, x22
	cbz	x10, .LBB35_50
.LBB35_65:
	ldrsb	w8, [x9]
	cbz	w8, .LBB35_68
	tbz	w8, #31, .LBB35_72
	mov	w8, #525
	lsr	x9, x8, #8
	b	.LBB35_3
.LBB35_68:
	subs	x10, x10, #1
	b.eq	.LBB35_71
	ldrsb	w8, [x9, #1]!
	tbnz	w8, #31, .LBB35_72
	mov	w8, #516
	lsr	x9, x8, #8
	b	.LBB35_3
.LBB35_71:
	mov	w10, #1
.LBB35_72:
	cbz	x11, .LBB35_74
	mov	w8, #12
	lsr	x9, x8, #8
	b	.LBB35_3
.LBB35_74:
	cbz	x19, .LBB35_77
	mov	w8, #12
	b	.LBB35_2
.LBB35_76:
	ldrb	w8, [sp, #10]
	ldrh	w9, [sp, #8]
	mov	x0, x22
	orr	x8, x9, x8, lsl #16
	lsr	x9, x8, #8
	b	.LBB35_3
.LBB35_77:
	lsr	x8, x21, #8
	lsr	x11, x21, #56
	lsr	x12, x21, #24
	str	x20, [x0]
	strb	w21, [x0, #8]
	sturh	w8, [x0, #9]
	strb	w11, [x0, #15]
	stur	w12, [x0, #11]
	stp	x9, x10, [x0, #16]
	ldp	x20, x19, [sp, #64]
	ldr	x30, [sp, #32]
	ldp	x22, x21, [sp, #48]
	add	sp, sp, #80
	.cfi_def_cfa_offset 0
	.cfi_restore w19
	.cfi_restore w20
	.cfi_restore w21
	.cfi_restore w22
	.cfi_restore w30
	ret
.Lfunc_end35:
	.size	_RNvXs4_NtNtNtCs00000000001_10pkcs1_tool6proved5pkcs110public_keyINtB5_12RsaPublicKeyNtNtNtNtB9_8der_core7integer4uint7UintRefEINtNtCs00000000002_4core7convert7TryFromRShE8try_from, .Lfunc_end35-_RNvXs4_NtNtNtCs00000000001_10pkcs1_tool6proved5pkcs110public_keyINtB5_12RsaPublicKeyNtNtNtNtB9_8der_core7integer4uint7UintRefEINtNtCs00000000002_4core7convert7TryFromRShE8try_from
	.cfi_endproc

	.section	.text._RNvNtNtNtCs00000000001_10pkcs1_tool6proved5pkcs110viewed_key9read_list,"ax",@progbits
	.p2align	2
	.type	_RNvNtNtNtCs00000000001_10pkcs1_tool6proved5pkcs110viewed_key9read_list,@function
_RNvNtNtNtCs00000000001_10pkcs1_tool6proved5pkcs110viewed_key9read_list:
	.cfi_startproc
	hint	#38
	sub	sp, sp, #144
	.cfi_def_cfa_offset 144
	stp	x29, x30, [sp, #48]
	stp	x28, x27, [sp, #64]
	stp	x26, x25, [sp, #80]
	stp	x24, x23, [sp, #96]
	stp	x22, x21, [sp, #112]
	stp	x20, x19, [sp, #128]
	.cfi_offset w19, -8
	.cfi_offset w20, -16
	.cfi_offset w21, -24
	.cfi_offset w22, -32
	.cfi_offset w23, -40
	.cfi_offset w24, -48
	.cfi_offset w25, -56
	.cfi_offset w26, -64
	.cfi_offset w27, -72
	.cfi_offset w28, -80
	.cfi_offset w30, -88
	.cfi_offset w29, -96
	.cfi_remember_state
	mov	w20, w3
	mov	x19, x0
	cbz	x2, .LBB36_7
	ldrb	w8, [x1]
	cmp	w8, #48
	b.ne	.LBB36_9
	cmp	x2, #1
	b.eq	.LBB36_23
	ldrsb	w9, [x1, #1]
	add	x23, x1, #2
	sub	x8, x2, #2
	tbnz	w9, #31, .LBB36_13
	and	x24, x9, #0xff
	subs	x8, x8, x24
	b.lo	.LBB36_23
	cbnz	x24, .LBB36_25
.LBB36_6:
	cmp	w20, #0
	mov	w8, #2
	mov	w9, #48
	csel	w9, w9, w8, ne
	mov	w8, #13
	b	.LBB36_10
.LBB36_7:
	cmp	w20, #0
	mov	w8, #17
	mov	w9, #13
	csel	w8, w9, w8, ne
	tbz	w20, #0, .LBB36_11
.LBB36_8:
	mov	w9, #2
	b	.LBB36_10
.LBB36_9:
	cmp	w20, #0
	mov	w8, #12
	mov	w9, #2
	cinc	w8, w8, ne
.LBB36_10:
	strb	w8, [x19, #1]
	mov	w8, #1
	strh	w9, [x19, #2]
	b	.LBB36_131
.LBB36_11:
	mov	x23, xzr
.LBB36_12:
	mov	w8, wzr
	stp	x23, x24, [x19, #8]
	str	x27, [x19, #24]
	b	.LBB36_131
.LBB36_13:
	and	w9, w9, #0xff
	cmp	w9, #130
	b.ne	.LBB36_18
	cmp	x8, #1
	b.ls	.LBB36_23
	ldrb	w8, [x1, #2]
	cbz	x8, .LBB36_23
	ldrb	w9, [x1, #3]
	orr	x24, x9, x8, lsl #8
	sub	x8, x2, #4
	subs	x8, x8, x24
	b.lo	.LBB36_23
	add	x23, x1, #4
	b	.LBB36_25
.LBB36_18:
	cbz	x8, .LBB36_23
	cmp	w9, #129
	b.ne	.LBB36_23
	ldrsb	w8, [x23]
	tbz	w8, #31, .LBB36_23
	sub	x9, x2, #3
	and	x24, x8, #0xff
	subs	x8, x9, x24
	b.lo	.LBB36_23
	add	x23, x1, #3
	b	.LBB36_25
.LBB36_23:
	add	x0, sp, #16
	mov	w3, #48
	bl	_RNvNtNtNtCs00000000001_10pkcs1_tool6proved8der_core5split14split_unlikely
	ldr	x23, [sp, #16]
	cbz	x23, .LBB36_118
	ldr	x24, [sp, #24]
	ldr	x8, [sp, #40]
	cbz	x24, .LBB36_6
.LBB36_25:
	mov	x27, xzr
	mov	x21, x23
	mov	x22, x24
	str	x8, [sp, #8]
.LBB36_26:
	cmp	x22, #1
	b.eq	.LBB36_53
	mov	x1, x21
	ldrb	w8, [x1], #2
	cmp	w8, #48
	b.ne	.LBB36_53
	ldrsb	w9, [x21, #1]
	sub	x8, x22, #2
	tbnz	w9, #31, .LBB36_32
	and	x2, x9, #0xff
	subs	x8, x8, x2
	b.lo	.LBB36_53
	add	x21, x1, x2
	mov	x22, x8
	cmp	x2, #2
	b.lo	.LBB36_110
.LBB36_31:
	mov	x9, x1
	ldrb	w8, [x9], #2
	cmp	w8, #2
	b.eq	.LBB36_43
	b	.LBB36_110
.LBB36_32:
	and	w9, w9, #0xff
	cmp	w9, #130
	b.ne	.LBB36_37
	cmp	x8, #1
	b.ls	.LBB36_53
	ldrb	w8, [x21, #2]
	cbz	x8, .LBB36_53
	ldrb	w9, [x21, #3]
	orr	x2, x9, x8, lsl #8
	sub	x8, x22, #4
	subs	x8, x8, x2
	b.lo	.LBB36_53
	add	x1, x21, #4
	b	.LBB36_42
.LBB36_37:
	cbz	x8, .LBB36_53
	cmp	w9, #129
	b.ne	.LBB36_53
	ldrsb	w8, [x1]
	tbz	w8, #31, .LBB36_53
	sub	x9, x22, #3
	and	x2, x8, #0xff
	subs	x8, x9, x2
	b.lo	.LBB36_53
	add	x1, x21, #3
.LBB36_42:
	add	x21, x1, x2
	mov	x22, x8
	mov	x9, x1
	ldrb	w8, [x9], #2
	cmp	w8, #2
	b.ne	.LBB36_110
.LBB36_43:
	ldrsb	w10, [x1, #1]
	sub	x8, x2, #2
	tbnz	w10, #31, .LBB36_48
	and	x29, x10, #0xff
	subs	x8, x8, x29
	b.lo	.LBB36_110
	add	x1, x9, x29
	cbz	x29, .LBB36_112
.LBB36_46:
	ldrsb	w10, [x9]
	cbz	w10, .LBB36_60
.LBB36_47:
	tbz	w10, #31, .LBB36_62
	b	.LBB36_121
.LBB36_48:
	and	w10, w10, #0xff
	cmp	w10, #130
	b.ne	.LBB36_55
	cmp	x8, #1
	b.ls	.LBB36_110
	ldrb	w8, [x1, #2]
	cbz	x8, .LBB36_110
	ldrb	w9, [x1, #3]
	orr	x29, x9, x8, lsl #8
	sub	x8, x2, #4
	subs	x8, x8, x29
	b.lo	.LBB36_110
	add	x9, x1, #4
	add	x1, x9, x29
	ldrsb	w10, [x9]
	cbnz	w10, .LBB36_47
	b	.LBB36_60
.LBB36_53:
	add	x0, sp, #16
	mov	x1, x21
	mov	x2, x22
	mov	w3, #48
	bl	_RNvNtNtNtCs00000000001_10pkcs1_tool6proved8der_core5split14split_unlikely
	ldr	x1, [sp, #16]
	cbz	x1, .LBB36_118
	ldp	x2, x21, [sp, #24]
	ldr	x22, [sp, #40]
	cmp	x2, #2
	b.hs	.LBB36_31
	b	.LBB36_110
.LBB36_55:
	cbz	x8, .LBB36_109
	cmp	w10, #129
	b.ne	.LBB36_110
	ldrsb	w8, [x9]
	tbz	w8, #31, .LBB36_110
	sub	x9, x2, #3
	and	x29, x8, #0xff
	subs	x8, x9, x29
	b.lo	.LBB36_110
	add	x9, x1, #3
	add	x1, x9, x29
	ldrsb	w10, [x9]
	cbnz	w10, .LBB36_47
.LBB36_60:
	subs	x29, x29, #1
	b.eq	.LBB36_96
	ldrsb	w9, [x9, #1]
	tbz	w9, #31, .LBB36_126
.LBB36_62:
	subs	x10, x8, #2
	b.lo	.LBB36_97
.LBB36_63:
	mov	x9, x1
	ldrb	w11, [x9], #2
	cmp	w11, #2
	b.ne	.LBB36_97
	ldrsb	w11, [x1, #1]
	tbnz	w11, #31, .LBB36_69
	and	x26, x11, #0xff
	subs	x2, x10, x26
	b.lo	.LBB36_97
	add	x1, x9, x26
	cbz	x26, .LBB36_119
.LBB36_67:
	ldrsb	w8, [x9]
	cbz	w8, .LBB36_79
.LBB36_68:
	tbz	w8, #31, .LBB36_81
	b	.LBB36_122
.LBB36_69:
	and	w11, w11, #0xff
	cmp	w11, #130
	b.ne	.LBB36_74
	cmp	x10, #1
	b.ls	.LBB36_97
	ldrb	w9, [x1, #2]
	cbz	x9, .LBB36_97
	ldrb	w10, [x1, #3]
	orr	x26, x10, x9, lsl #8
	sub	x9, x8, #4
	subs	x2, x9, x26
	b.lo	.LBB36_97
	add	x9, x1, #4
	add	x1, x9, x26
	ldrsb	w8, [x9]
	cbnz	w8, .LBB36_68
	b	.LBB36_79
.LBB36_74:
	cbz	x10, .LBB36_97
	cmp	w11, #129
	b.ne	.LBB36_97
	ldrsb	w9, [x9]
	tbz	w9, #31, .LBB36_97
	sub	x10, x8, #3
	and	x26, x9, #0xff
	subs	x2, x10, x26
	b.lo	.LBB36_97
	add	x9, x1, #3
	add	x1, x9, x26
	ldrsb	w8, [x9]
	cbnz	w8, .LBB36_68
.LBB36_79:
	subs	x26, x26, #1
	b.eq	.LBB36_99
	ldrsb	w8, [x9, #1]
	tbz	w8, #31, .LBB36_128
.LBB36_81:
	subs	x10, x2, #2
	b.lo	.LBB36_100
.LBB36_82:
	mov	x9, x1
	ldrb	w8, [x9], #2
	cmp	w8, #2
	b.ne	.LBB36_100
	ldrsb	w8, [x1, #1]
	tbnz	w8, #31, .LBB36_86
	and	x8, x8, #0xff
	subs	x10, x10, x8
	b.lo	.LBB36_100
	cbnz	x8, .LBB36_102
	b	.LBB36_120
.LBB36_86:
	and	w8, w8, #0xff
	cmp	w8, #130
	b.ne	.LBB36_91
	cmp	x10, #1
	b.ls	.LBB36_100
	ldrb	w8, [x1, #2]
	cbz	x8, .LBB36_100
	ldrb	w9, [x1, #3]
	orr	x8, x9, x8, lsl #8
	sub	x9, x2, #4
	subs	x10, x9, x8
	b.lo	.LBB36_100
	add	x9, x1, #4
	b	.LBB36_102
.LBB36_91:
	cbz	x10, .LBB36_100
	cmp	w8, #129
	b.ne	.LBB36_100
	ldrsb	w8, [x9]
	tbz	w8, #31, .LBB36_100
	sub	x9, x2, #3
	and	x8, x8, #0xff
	subs	x10, x9, x8
	b.lo	.LBB36_100
	add	x9, x1, #3
	b	.LBB36_102
.LBB36_96:
	mov	w29, #1
	subs	x10, x8, #2
	b.hs	.LBB36_63
.LBB36_97:
	add	x0, sp, #16
	mov	x2, x8
	mov	w3, #2
	bl	_RNvNtNtNtCs00000000001_10pkcs1_tool6proved8der_core5split14split_unlikely
	ldr	x9, [sp, #16]
	cbz	x9, .LBB36_125
	ldp	x26, x1, [sp, #24]
	ldr	x2, [sp, #40]
	cbnz	x26, .LBB36_67
	b	.LBB36_119
.LBB36_99:
	mov	w26, #1
	subs	x10, x2, #2
	b.hs	.LBB36_82
.LBB36_100:
	add	x0, sp, #16
	mov	w3, #2
	bl	_RNvNtNtNtCs00000000001_10pkcs1_tool6proved8der_core5split14split_unlikely
	ldr	x9, [sp, #16]
	cbz	x9, .LBB36_133
	ldr	x8, [sp, #24]
	ldr	x10, [sp, #40]
	cbz	x8, .LBB36_120
.LBB36_102:
	ldrsb	w11, [x9]
	cbz	w11, .LBB36_104
	tbz	w11, #31, .LBB36_106
	b	.LBB36_123
.LBB36_104:
	subs	x8, x8, #1
	b.eq	.LBB36_108
	ldrsb	w9, [x9, #1]
	tbz	w9, #31, .LBB36_132
.LBB36_106:
	cbnz	x10, .LBB36_113
.LBB36_107:
	add	x27, x27, #1
	mov	x25, x8
	mov	x28, x26
	mov	x26, x29
	cbnz	x22, .LBB36_26
	b	.LBB36_114
.LBB36_108:
	mov	w8, #1
	cbz	x10, .LBB36_107
	b	.LBB36_113
.LBB36_109:
	mov	w2, #2
.LBB36_110:
	add	x0, sp, #16
	mov	w3, #2
	bl	_RNvNtNtNtCs00000000001_10pkcs1_tool6proved8der_core5split14split_unlikely
	ldr	x9, [sp, #16]
	cbz	x9, .LBB36_125
	ldp	x29, x1, [sp, #24]
	ldr	x8, [sp, #40]
	cbnz	x29, .LBB36_46
.LBB36_112:
	mov	x8, #515
	b	.LBB36_127
.LBB36_113:
	mov	w25, #12
	b	.LBB36_130
.LBB36_114:
	tbz	w20, #0, .LBB36_124
	cbz	x27, .LBB36_134
	ldr	x8, [sp, #8]
	cbz	x8, .LBB36_12
	mov	w8, #12
	b	.LBB36_10
.LBB36_118:
	ldrb	w8, [sp, #26]
	ldrh	w9, [sp, #24]
	orr	w25, w9, w8, lsl #16
	b	.LBB36_130
.LBB36_119:
	mov	x8, #515
	b	.LBB36_129
.LBB36_120:
	mov	x8, #515
	bfxil	x25, x8, #0, #16
	b	.LBB36_130
.LBB36_121:
	mov	x8, #525
	b	.LBB36_127
.LBB36_122:
	mov	x8, #525
	b	.LBB36_129
.LBB36_123:
	mov	x8, #525
	bfxil	x25, x8, #0, #16
	b	.LBB36_130
.LBB36_124:
	mov	w8, #13
	b	.LBB36_8
.LBB36_125:
	ldrb	w8, [sp, #26]
	ldrh	w9, [sp, #24]
	orr	x25, x9, x8, lsl #16
	b	.LBB36_130
.LBB36_126:
	mov	x8, #516
.LBB36_127:
	bfxil	x26, x8, #0, #16
	mov	w25, w26
	b	.LBB36_130
.LBB36_128:
	mov	x8, #516
.LBB36_129:
	bfxil	x28, x8, #0, #16
	mov	w25, w28
.LBB36_130:
	lsr	w8, w25, #16
	sturh	w25, [x19, #1]
	strb	w8, [x19, #3]
	mov	w8, #1
.LBB36_131:
	strb	w8, [x19]
	ldp	x20, x19, [sp, #128]
	ldp	x22, x21, [sp, #112]
	ldp	x24, x23, [sp, #96]
	ldp	x26, x25, [sp, #80]
	ldp	x28, x27, [sp, #64]
	ldp	x29, x30, [sp, #48]
	add	sp, sp, #144
	.cfi_def_cfa_offset 0
	.cfi_restore w19
	.cfi_restore w20
	.cfi_restore w21
	.cfi_restore w22
	.cfi_restore w23
	.cfi_restore w24
	.cfi_restore w25
	.cfi_restore w26
	.cfi_restore w27
	.cfi_restore w28
	.cfi_restore w30
	.cfi_restore w29
	ret
.LBB36_132:
	.cfi_restore_state
	mov	x8, #516
	bfxil	x25, x8, #0, #16
	b	.LBB36_130
.LBB36_133:
	ldrb	w8, [sp, #26]
	ldrh	w9, [sp, #24]
	orr	x25, x9, x8, lsl #16
	b	.LBB36_130
.LBB36_134:
	mov	w8, #13
	mov	w9, #48
	b	.LBB36_10
.Lfunc_end36:
	.size	_RNvNtNtNtCs00000000001_10pkcs1_tool6proved5pkcs110viewed_key9read_list, .Lfunc_end36-_RNvNtNtNtCs00000000001_10pkcs1_tool6proved5pkcs110viewed_key9read_list
	.cfi_endproc

	.section	.text._RNvXse_NtNtNtCs00000000001_10pkcs1_tool6proved9spki_core20algorithm_identifierINtB5_21AlgorithmIdentifierOfNtNtB7_17object_identifier16ObjectIdentifierIB1f_B1H_NtNtB7_3any6AnyRefEENtNtCs00000000002_4core3cmp9PartialEq2eqBb_,"ax",@progbits
	.p2align	2
	.type	_RNvXse_NtNtNtCs00000000001_10pkcs1_tool6proved9spki_core20algorithm_identifierINtB5_21AlgorithmIdentifierOfNtNtB7_17object_identifier16ObjectIdentifierIB1f_B1H_NtNtB7_3any6AnyRefEENtNtCs00000000002_4core3cmp9PartialEq2eqBb_,@function
_RNvXse_NtNtNtCs00000000001_10pkcs1_tool6proved9spki_core20algorithm_identifierINtB5_21AlgorithmIdentifierOfNtNtB7_17object_identifier16ObjectIdentifierIB1f_B1H_NtNtB7_3any6AnyRefEENtNtCs00000000002_4core3cmp9PartialEq2eqBb_:
	.cfi_startproc
	hint	#38
	str	x30, [sp, #-32]!
	.cfi_def_cfa_offset 32
	stp	x20, x19, [sp, #16]
	.cfi_offset w19, -8
	.cfi_offset w20, -16
	.cfi_offset w30, -32
	.cfi_remember_state
	ldrb	w2, [x0, #111]
	cmp	w2, #40
	b.hs	.LBB37_18
	ldrb	w8, [x1, #111]
	cmp	w8, #40
	b.hs	.LBB37_19
	cmp	w2, w8
	b.ne	.LBB37_4
	mov	x19, x0
	add	x0, x0, #72
	mov	x20, x1
	add	x1, x1, #72
	bl	memcmp
	cbz	w0, .LBB37_6
.LBB37_4:
	mov	w8, wzr
.LBB37_5:
	ldp	x20, x19, [sp, #16]
	and	w0, w8, #0x1
	ldr	x30, [sp], #32
	.cfi_def_cfa_offset 0
	.cfi_restore w19
	.cfi_restore w20
	.cfi_restore w30
	ret
.LBB37_6:
	.cfi_restore_state
	.cfi_remember_state
	ldr	w11, [x19]
	ldr	w10, [x20]
	tbz	w11, #0, .LBB37_17
	tbz	w10, #0, .LBB37_4
	ldrb	w2, [x19, #47]
	mov	x8, x19
	cmp	w2, #40
	b.hs	.LBB37_18
	ldrb	w0, [x20, #47]
	mov	x9, x20
	cmp	w0, #40
	b.hs	.LBB37_20
	cmp	w2, w0
	b.ne	.LBB37_4
	add	x0, x8, #8
	add	x1, x9, #8
	bl	memcmp
	cbnz	w0, .LBB37_4
	ldr	x0, [x19, #48]
	ldr	x1, [x20, #48]
	orr	x8, x0, x1
	cmp	x8, #0
	cset	w8, eq
	cbz	x0, .LBB37_5
	cbz	x1, .LBB37_5
	ldr	x8, [x19, #64]
	ldr	x9, [x20, #64]
	cmp	x8, x9
	b.ne	.LBB37_4
	ldr	x2, [x19, #56]
	ldr	x8, [x20, #56]
	cmp	x2, x8
	b.ne	.LBB37_4
	bl	memcmp
	cmp	w0, #0
	cset	w8, eq
	ldp	x20, x19, [sp, #16]
	and	w0, w8, #0x1
	ldr	x30, [sp], #32
	.cfi_def_cfa_offset 0
	.cfi_restore w19
	.cfi_restore w20
	.cfi_restore w30
	ret
.LBB37_17:
	.cfi_restore_state
	.cfi_remember_state
	eor	w8, w10, #0x1
	ldp	x20, x19, [sp, #16]
	and	w0, w8, #0x1
	ldr	x30, [sp], #32
	.cfi_def_cfa_offset 0
	.cfi_restore w19
	.cfi_restore w20
	.cfi_restore w30
	ret
.LBB37_18:
	.cfi_restore_state
	mov	x0, x2
	mov	w1, #39
	brk	#0x1
.LBB37_19:
	mov	x0, x8
.LBB37_20:
	mov	w1, #39
	brk	#0x1
.Lfunc_end37:
	.size	_RNvXse_NtNtNtCs00000000001_10pkcs1_tool6proved9spki_core20algorithm_identifierINtB5_21AlgorithmIdentifierOfNtNtB7_17object_identifier16ObjectIdentifierIB1f_B1H_NtNtB7_3any6AnyRefEENtNtCs00000000002_4core3cmp9PartialEq2eqBb_, .Lfunc_end37-_RNvXse_NtNtNtCs00000000001_10pkcs1_tool6proved9spki_core20algorithm_identifierINtB5_21AlgorithmIdentifierOfNtNtB7_17object_identifier16ObjectIdentifierIB1f_B1H_NtNtB7_3any6AnyRefEENtNtCs00000000002_4core3cmp9PartialEq2eqBb_
	.cfi_endproc

	.section	.text._RNvNtNtNtCs00000000001_10pkcs1_tool4tool13pkcs1_program6answer11answer_word,"ax",@progbits
	.p2align	2
	.type	_RNvNtNtNtCs00000000001_10pkcs1_tool4tool13pkcs1_program6answer11answer_word,@function
_RNvNtNtNtCs00000000001_10pkcs1_tool4tool13pkcs1_program6answer11answer_word:
	.cfi_startproc
	hint	#38
	stp	x29, x30, [sp, #-96]!
	.cfi_def_cfa_offset 96
	stp	x28, x27, [sp, #16]
	stp	x26, x25, [sp, #32]
	stp	x24, x23, [sp, #48]
	stp	x22, x21, [sp, #64]
	stp	x20, x19, [sp, #80]
	.cfi_offset w19, -8
	.cfi_offset w20, -16
	.cfi_offset w21, -24
	.cfi_offset w22, -32
	.cfi_offset w23, -40
	.cfi_offset w24, -48
	.cfi_offset w25, -56
	.cfi_offset w26, -64
	.cfi_offset w27, -72
	.cfi_offset w28, -80
	.cfi_offset w30, -88
	.cfi_offset w29, -96
	sub	sp, sp, #784
	.cfi_def_cfa_offset 880
	.cfi_remember_state
	and	w8, w0, #0xff
	mov	x29, x4
	add	x28, sp, #512
	cmp	w8, #3
	add	x19, sp, #472
	add	x22, sp, #208
	b.le	.LBB38_10
	cmp	w8, #5
	b.le	.LBB38_31
	add	x0, sp, #512
	cmp	w8, #6
	b.eq	.LBB38_48
	mov	x19, x1
	mov	x20, x2
	cmp	w8, #7
	b.ne	.LBB38_75
	bl	_RNvXNtNtNtCs00000000001_10pkcs1_tool4tool13pkcs1_program14parameter_textINtNtNtNtB8_6proved12pkcs1_params3pss11PssParamsOfNtNtNtB1f_9spki_core17object_identifier16ObjectIdentifierNtNtB20_3any6AnyRefENtB2_10Parameters4read
	ldr	x8, [sp, #512]
	cmp	x8, #2
	b.eq	.LBB38_76
	lsr	x8, x20, #32
	cbnz	x8, .LBB38_460
	mov	x2, x20
	subs	x10, x20, #2
	mov	x8, x19
	b.lo	.LBB38_457
	mov	x1, x8
	ldrb	w9, [x1], #2
	cmp	w9, #48
	b.ne	.LBB38_457
	ldrsb	w9, [x8, #1]
	tbnz	w9, #31, .LBB38_411
	and	x9, x9, #0xff
	subs	x19, x10, x9
	b.hs	.LBB38_459
	b	.LBB38_457
.LBB38_10:
	cmp	w8, #1
	b.gt	.LBB38_18
	cbnz	w8, .LBB38_55
	add	x0, sp, #512
	mov	x23, x1
	mov	x24, x2
	bl	_RNvXs4_NtNtNtCs00000000001_10pkcs1_tool6proved5pkcs110public_keyINtB5_12RsaPublicKeyNtNtNtNtB9_8der_core7integer4uint7UintRefEINtNtCs00000000002_4core7convert7TryFromRShE8try_from
	ldr	x0, [sp, #512]
	cbz	x0, .LBB38_76
	ldr	x26, [x29, #16]
	ldr	x8, [x29]
	ldr	x1, [sp, #520]
	ldr	x20, [sp, #528]
	ldr	x21, [sp, #536]
	sub	x9, x8, x26
	cmp	x9, #3
	b.hs	.LBB38_101
	cmn	x26, #4
	b.hi	.LBB38_547
	lsl	x9, x8, #1
	add	x25, x26, #3
	mov	w10, #8
	cmp	x9, x25
	csel	x9, x9, x25, hi
	cmp	x9, #8
	csel	x22, x9, x10, hi
	tbnz	x22, #63, .LBB38_547
	cbnz	x8, .LBB38_788
	mov	x19, x1
	mov	x27, x0
	b	.LBB38_789
.LBB38_18:
	mov	x20, x3
	add	x0, sp, #208
	mov	x21, x2
	cmp	w8, #2
	b.ne	.LBB38_67
	bl	_RNvXNtNtNtCs00000000001_10pkcs1_tool4tool13pkcs1_program14parameter_textINtNtNtNtB8_6proved12pkcs1_params3pss11PssParamsOfNtNtNtB1f_9spki_core17object_identifier16ObjectIdentifierNtNtB20_3any6AnyRefENtB2_10Parameters4read
	ldr	x23, [sp, #208]
	cmp	x23, #2
	b.eq	.LBB38_544
	ldp	q0, q1, [x22, #128]
	mov	x0, x20
	ldr	x8, [sp, #384]
	mov	x1, x21
	stur	q0, [x19, #168]
	ldr	q0, [x22, #160]
	stur	q1, [x19, #184]
	stur	q0, [x19, #200]
	ldp	q1, q0, [x22, #64]
	str	x8, [sp, #688]
	stur	q1, [x19, #104]
	stur	q0, [x19, #120]
	ldp	q1, q0, [x22, #96]
	stur	q1, [x19, #136]
	stur	q0, [x19, #152]
	ldp	q1, q0, [sp, #208]
	stur	q1, [x19, #40]
	stur	q0, [x19, #56]
	ldp	q1, q0, [sp, #240]
	stur	q1, [x19, #72]
	stur	q0, [x19, #88]
	bl	_RNvMs_NtNtCs00000000001_10pkcs1_tool10rattle_std3vecINtNtNtB6_7library3vec3VechE6resizeB8_
	tbnz	w0, #0, .LBB38_547
	mov	x8, x20
	ldr	x26, [sp, #664]
	ldr	x20, [x20, #8]
	ldr	x27, [x8, #16]
	ldrb	w21, [sp, #688]
	mov	w25, #3627
	movk	w25, #515, lsl #16
	add	x24, sp, #512
	str	xzr, [sp, #752]
	cbz	x26, .LBB38_145
	ldrb	w0, [sp, #663]
	cmp	w0, #40
	b.hs	.LBB38_892
	cmp	w0, #5
	b.ne	.LBB38_145
	ldr	s0, [sp, #624]
	ushll	v0.8h, v0.8b, #0
	uzp1	v0.8b, v0.8b, v0.8b
	fmov	w8, s0
	cmp	w8, w25
	b.ne	.LBB38_145
	ldrb	w8, [sp, #628]
	cmp	w8, #26
	b.ne	.LBB38_145
	ldr	x19, [sp, #672]
	ldrb	w22, [sp, #680]
	add	x0, sp, #208
	bl	_RNvXs_NtNtNtCs00000000001_10pkcs1_tool6proved12pkcs1_params7holdersINtNtNtB8_9spki_core20algorithm_identifier21AlgorithmIdentifierOfNtNtB18_17object_identifier16ObjectIdentifierIB14_B26_NtNtB18_3any6AnyRefEENtB4_10MaskHolder10is_defaultBa_
	cmp	w21, #20
	cset	w28, eq
	cmp	x22, #5
	b.ne	.LBB38_498
	cbnz	x19, .LBB38_498
	cmp	w21, #20
	cbz	w0, .LBB38_524
	b.ne	.LBB38_771
	mov	w28, #1
	b	.LBB38_503
.LBB38_31:
	cmp	w8, #4
	b.ne	.LBB38_82
	lsr	x8, x2, #32
	cbnz	x8, .LBB38_83
	subs	x10, x2, #2
	b.lo	.LBB38_426
	mov	x8, x1
	ldrb	w9, [x8], #2
	cmp	w9, #48
	b.ne	.LBB38_426
	ldrsb	w9, [x1, #1]
	tbnz	w9, #31, .LBB38_153
	and	x9, x9, #0xff
	subs	x23, x10, x9
	b.lo	.LBB38_426
	cmp	x9, #2
	b.lo	.LBB38_869
.LBB38_38:
	mov	x12, x8
	ldrb	w10, [x12], #2
	cmp	w10, #2
	b.ne	.LBB38_869
	ldrsb	w11, [x8, #1]
	sub	x10, x9, #2
	tbnz	w11, #31, .LBB38_172
	and	x13, x11, #0xff
	subs	x10, x10, x13
	b.lo	.LBB38_869
	add	x11, x12, x13
	cmp	x13, #1
	b.ne	.LBB38_83
.LBB38_42:
	ldrb	w8, [x12]
	cbnz	w8, .LBB38_83
	subs	x12, x10, #2
	b.lo	.LBB38_777
	mov	x8, x11
	ldrb	w9, [x8], #2
	cmp	w9, #48
	b.ne	.LBB38_777
	ldrsb	w9, [x11, #1]
	tbnz	w9, #31, .LBB38_556
	and	x9, x9, #0xff
	subs	x20, x12, x9
	b.lo	.LBB38_777
	add	x21, x8, x9
	b	.LBB38_779
.LBB38_48:
	bl	_RNvXs_NtNtNtCs00000000001_10pkcs1_tool4tool13pkcs1_program14parameter_textINtNtNtNtBa_6proved12pkcs1_params4oaep12OaepParamsOfNtNtNtB1h_9spki_core17object_identifier16ObjectIdentifierNtNtB24_3any6AnyRefENtB4_10Parameters4read
	ldr	x8, [sp, #512]
	cmp	x8, #2
	b.eq	.LBB38_83
	ldp	q0, q1, [x28, #192]
	mov	w10, #3627
	ldr	q2, [x28, #224]
	movk	w10, #515, lsl #16
	stp	q0, q1, [x22, #192]
	ldp	q0, q1, [x28, #128]
	str	q2, [x22, #224]
	stp	q0, q1, [x22, #128]
	ldp	q0, q2, [x28, #160]
	stp	q0, q2, [x22, #160]
	ldp	q1, q0, [x28, #64]
	ldr	x13, [sp, #360]
	stp	q1, q0, [x22, #64]
	ldp	q0, q2, [x28, #96]
	stp	q0, q2, [x22, #96]
	ldp	q1, q0, [x28]
	stp	q1, q0, [sp, #208]
	ldp	q0, q2, [x28, #32]
	stp	q0, q2, [sp, #240]
	cbz	x13, .LBB38_107
	ldrb	w0, [sp, #359]
	cmp	w0, #40
	b.hs	.LBB38_892
	cmp	w0, #5
	mov	w8, wzr
	b.ne	.LBB38_108
	ldr	s0, [sp, #320]
	ushll	v0.8h, v0.8b, #0
	uzp1	v0.8b, v0.8b, v0.8b
	fmov	w9, s0
	cmp	w9, w10
	b.ne	.LBB38_108
	ldrb	w9, [sp, #324]
	cmp	w9, #26
	b.ne	.LBB38_108
	ldrb	w8, [sp, #376]
	ldr	x9, [sp, #368]
	cmp	x8, #5
	ccmp	x9, #0, #0, eq
	cset	w8, eq
	b	.LBB38_108
.LBB38_55:
	lsr	x8, x2, #32
	cbnz	x8, .LBB38_83
	subs	x9, x2, #2
	b.lo	.LBB38_409
	mov	x8, x1
	ldrb	w10, [x8], #2
	cmp	w10, #48
	b.ne	.LBB38_409
	ldrsb	w10, [x1, #1]
	tbnz	w10, #31, .LBB38_148
	and	x10, x10, #0xff
	subs	x23, x9, x10
	b.lo	.LBB38_409
	cmp	x10, #2
	b.lo	.LBB38_866
.LBB38_61:
	mov	x11, x8
	ldrb	w9, [x11], #2
	cmp	w9, #2
	b.ne	.LBB38_866
	ldrsb	w12, [x8, #1]
	sub	x9, x10, #2
	tbnz	w12, #31, .LBB38_167
	and	x12, x12, #0xff
	subs	x9, x9, x12
	b.lo	.LBB38_866
	add	x10, x11, x12
	cbz	x12, .LBB38_83
.LBB38_65:
	cmp	x12, #1
	b.ne	.LBB38_176
	ldrsb	w8, [x11]
	tbz	w8, #31, .LBB38_179
	b	.LBB38_83
.LBB38_67:
	bl	_RNvXs_NtNtNtCs00000000001_10pkcs1_tool4tool13pkcs1_program14parameter_textINtNtNtNtBa_6proved12pkcs1_params4oaep12OaepParamsOfNtNtNtB1h_9spki_core17object_identifier16ObjectIdentifierNtNtB24_3any6AnyRefENtB4_10Parameters4read
	ldr	x23, [sp, #208]
	cmp	x23, #2
	b.eq	.LBB38_544
	ldp	q0, q1, [x22, #176]
	mov	x0, x20
	mov	x1, x21
	stur	q0, [x19, #216]
	stur	q1, [x19, #232]
	ldp	q0, q1, [x22, #208]
	str	q1, [x28, #224]
	ldp	q1, q2, [x22, #144]
	stur	q0, [x19, #248]
	ldr	q0, [x22, #128]
	stp	q0, q1, [x28, #128]
	ldp	q0, q1, [x22, #64]
	str	q2, [x28, #160]
	stp	q0, q1, [x28, #64]
	ldp	q0, q2, [x22, #96]
	stp	q0, q2, [x28, #96]
	ldp	q1, q0, [sp, #208]
	stp	q1, q0, [x28]
	ldp	q0, q2, [sp, #240]
	stp	q0, q2, [x28, #32]
	bl	_RNvMs_NtNtCs00000000001_10pkcs1_tool10rattle_std3vecINtNtNtB6_7library3vec3VechE6resizeB8_
	tbnz	w0, #0, .LBB38_547
	mov	x8, x20
	ldr	x25, [sp, #664]
	ldr	x20, [x20, #8]
	ldr	x27, [x8, #16]
	mov	w24, #3627
	str	xzr, [sp, #752]
	movk	w24, #515, lsl #16
	cbz	x25, .LBB38_363
	ldrb	w0, [sp, #663]
	cmp	w0, #40
	b.hs	.LBB38_892
	cmp	w0, #5
	mov	w8, wzr
	b.ne	.LBB38_364
	ldr	s0, [sp, #624]
	ushll	v0.8h, v0.8b, #0
	uzp1	v0.8b, v0.8b, v0.8b
	fmov	w9, s0
	cmp	w9, w24
	b.ne	.LBB38_364
	ldrb	w9, [sp, #628]
	cmp	w9, #26
	b.ne	.LBB38_364
	ldrb	w8, [sp, #680]
	ldr	x9, [sp, #672]
	cmp	x8, #5
	ccmp	x9, #0, #0, eq
	cset	w8, eq
	b	.LBB38_364
.LBB38_75:
	bl	_RNvXs_NtNtNtCs00000000001_10pkcs1_tool4tool13pkcs1_program14parameter_textINtNtNtNtBa_6proved12pkcs1_params4oaep12OaepParamsOfNtNtNtB1h_9spki_core17object_identifier16ObjectIdentifierNtNtB24_3any6AnyRefENtB4_10Parameters4read
	ldr	x8, [sp, #512]
	cmp	x8, #2
	b.ne	.LBB38_90
.LBB38_76:
	ldr	x21, [x29, #16]
	ldr	x8, [x29]
	sub	x9, x8, x21
	cmp	x9, #7
	b.hs	.LBB38_548
	cmn	x21, #8
	b.hi	.LBB38_547
	lsl	x9, x8, #1
	add	x22, x21, #7
	mov	w10, #8
	cmp	x9, x22
	csel	x9, x9, x22, hi
	cmp	x9, #8
	csel	x20, x9, x10, hi
	tbnz	x20, #63, .LBB38_547
	cbz	x8, .LBB38_81
	ldr	x9, [x29, #8]
	str	x8, [sp, #224]
	mov	w8, #1
	str	x9, [sp, #208]
.LBB38_81:
	add	x0, sp, #752
	add	x3, sp, #208
	mov	w1, #1
	mov	x2, x20
	str	x8, [sp, #216]
	bl	_RINvNtCs00000000000_5alloc7raw_vec11finish_growNtNtB4_5alloc6GlobalECs00000000001_10pkcs1_tool
	ldr	w8, [sp, #752]
	cmp	w8, #1
	b.eq	.LBB38_547
	b	.LBB38_554
.LBB38_82:
	add	x0, sp, #512
	bl	_RNvXNtNtNtCs00000000001_10pkcs1_tool4tool13pkcs1_program14parameter_textINtNtNtNtB8_6proved12pkcs1_params3pss11PssParamsOfNtNtNtB1f_9spki_core17object_identifier16ObjectIdentifierNtNtB20_3any6AnyRefENtB2_10Parameters4read
	ldr	x8, [sp, #512]
	cmp	x8, #2
	b.ne	.LBB38_95
.LBB38_83:
	ldr	x21, [x29, #16]
	ldr	x8, [x29]
	sub	x9, x8, x21
	cmp	x9, #7
	b.hs	.LBB38_548
	cmn	x21, #8
	b.hi	.LBB38_547
	lsl	x9, x8, #1
	add	x22, x21, #7
	mov	w10, #8
	cmp	x9, x22
	csel	x9, x9, x22, hi
	cmp	x9, #8
	csel	x20, x9, x10, hi
	tbnz	x20, #63, .LBB38_547
	cbz	x8, .LBB38_88
	ldr	x9, [x29, #8]
	str	x8, [sp, #528]
	mov	w8, #1
	str	x9, [sp, #512]
.LBB38_88:
	add	x0, sp, #208
	add	x3, sp, #512
	mov	w1, #1
	mov	x2, x20
	str	x8, [sp, #520]
	bl	_RINvNtCs00000000000_5alloc7raw_vec11finish_growNtNtB4_5alloc6GlobalECs00000000001_10pkcs1_tool
	ldr	w8, [sp, #208]
	cmp	w8, #1
	b.eq	.LBB38_547
	ldr	x8, [sp, #216]
	b	.LBB38_555
.LBB38_90:
	lsr	x8, x20, #32
	cbnz	x8, .LBB38_477
	mov	x2, x20
	subs	x10, x20, #2
	mov	x8, x19
	b.lo	.LBB38_474
	mov	x1, x8
	ldrb	w9, [x1], #2
	cmp	w9, #48
	b.ne	.LBB38_474
	ldrsb	w9, [x8, #1]
	tbnz	w9, #31, .LBB38_416
	and	x9, x9, #0xff
	subs	x19, x10, x9
	b.hs	.LBB38_476
	b	.LBB38_474
.LBB38_95:
	ldp	q0, q1, [x28, #128]
	mov	w9, #3627
	ldr	q2, [x28, #160]
	ldr	x8, [sp, #688]
	movk	w9, #515, lsl #16
	stp	q0, q1, [x22, #128]
	ldp	q0, q1, [x28, #64]
	str	q2, [x22, #160]
	and	x16, x8, #0xff
	ldr	x13, [sp, #360]
	str	x8, [sp, #384]
	stp	q0, q1, [x22, #64]
	ldp	q2, q0, [x28, #96]
	stp	q2, q0, [x22, #96]
	ldp	q1, q0, [x28]
	stp	q1, q0, [sp, #208]
	ldp	q2, q0, [x28, #32]
	stp	q2, q0, [sp, #240]
	cbz	x13, .LBB38_126
	ldrb	w0, [sp, #359]
	cmp	w0, #40
	b.hs	.LBB38_892
	cmp	w0, #5
	mov	w8, wzr
	b.ne	.LBB38_127
	ldr	s0, [sp, #320]
	ushll	v0.8h, v0.8b, #0
	uzp1	v0.8b, v0.8b, v0.8b
	fmov	w10, s0
	cmp	w10, w9
	b.ne	.LBB38_127
	ldrb	w10, [sp, #324]
	cmp	w10, #26
	b.ne	.LBB38_127
	ldrb	w8, [sp, #376]
	ldr	x10, [sp, #368]
	cmp	x8, #5
	ccmp	x10, #0, #0, eq
	cset	w8, eq
	b	.LBB38_127
.LBB38_101:
	ldr	x9, [x29, #8]
	add	x25, x26, #3
.LBB38_102:
	sub	x13, x8, x25
	add	x10, x9, x26
	mov	w11, #98
	mov	w12, #30064
	cmp	x13, #3
	strb	w11, [x10, #2]
	strh	w12, [x10]
	str	x25, [x29, #16]
	b.hs	.LBB38_158
	cmn	x25, #4
	b.hi	.LBB38_547
	lsl	x10, x8, #1
	add	x26, x25, #3
	mov	w11, #8
	cmp	x10, x26
	csel	x10, x10, x26, hi
	cmp	x10, #8
	csel	x22, x10, x11, hi
	tbnz	x22, #63, .LBB38_547
	mov	x19, x1
	mov	x27, x0
	cbnz	x8, .LBB38_862
	mov	x9, xzr
	b	.LBB38_863
.LBB38_107:
	mov	w8, wzr
.LBB38_108:
	mov	x9, #34346
	ldr	w14, [sp, #208]
	movk	x9, #34376, lsl #16
	movk	x9, #3575, lsl #32
	cmp	w14, #1
	movk	x9, #257, lsl #48
	b.ne	.LBB38_119
	ldrb	w0, [sp, #319]
	cmp	w0, #40
	b.hs	.LBB38_892
	cmp	w0, #9
	b.ne	.LBB38_182
	ldr	d0, [sp, #280]
	fmov	x11, d0
	cmp	x11, x9
	mov	w11, wzr
	b.ne	.LBB38_120
	ldrb	w12, [sp, #288]
	cmp	w12, #8
	b.ne	.LBB38_120
	ldr	x11, [sp, #256]
	cbz	x11, .LBB38_120
	ldrb	w0, [sp, #255]
	cmp	w0, #40
	b.hs	.LBB38_892
	cmp	w0, #5
	mov	w11, wzr
	b.ne	.LBB38_120
	ldr	s0, [sp, #216]
	ushll	v0.8h, v0.8b, #0
	uzp1	v0.8b, v0.8b, v0.8b
	fmov	w12, s0
	cmp	w12, w10
	b.ne	.LBB38_120
	ldrb	w12, [sp, #220]
	cmp	w12, #26
	b.ne	.LBB38_120
	ldrb	w11, [sp, #272]
	ldr	x12, [sp, #264]
	cmp	x11, #5
	ccmp	x12, #0, #0, eq
	cset	w11, eq
	ldr	x15, [sp, #424]
	cbnz	x15, .LBB38_121
	b	.LBB38_183
.LBB38_119:
	mov	w11, wzr
.LBB38_120:
	ldr	x15, [sp, #424]
	cbz	x15, .LBB38_183
.LBB38_121:
	ldrb	w0, [sp, #423]
	cmp	w0, #40
	b.hs	.LBB38_892
	cmp	w0, #9
	b.ne	.LBB38_183
	ldr	d0, [sp, #384]
	fmov	x12, d0
	cmp	x12, x9
	mov	w12, wzr
	b.ne	.LBB38_184
	ldrb	w16, [sp, #392]
	cmp	w16, #9
	b.ne	.LBB38_184
	ldrb	w12, [sp, #440]
	ldr	x16, [sp, #432]
	cmp	x12, #4
	ccmp	x16, #0, #0, eq
	cset	w12, eq
	b	.LBB38_184
.LBB38_126:
	mov	w8, wzr
.LBB38_127:
	ldr	w14, [sp, #208]
	cmp	w14, #1
	b.ne	.LBB38_138
	ldrb	w0, [sp, #319]
	cmp	w0, #40
	b.hs	.LBB38_892
	cmp	w0, #9
	b.ne	.LBB38_203
	ldr	d0, [sp, #280]
	mov	x11, #34346
	movk	x11, #34376, lsl #16
	fmov	x10, d0
	movk	x11, #3575, lsl #32
	movk	x11, #257, lsl #48
	cmp	x10, x11
	mov	w10, wzr
	b.ne	.LBB38_139
	ldrb	w11, [sp, #288]
	cmp	w11, #8
	b.ne	.LBB38_139
	ldr	x10, [sp, #256]
	cbz	x10, .LBB38_139
	ldrb	w0, [sp, #255]
	cmp	w0, #40
	b.hs	.LBB38_892
	cmp	w0, #5
	mov	w10, wzr
	b.ne	.LBB38_139
	ldr	s0, [sp, #216]
	ushll	v0.8h, v0.8b, #0
	uzp1	v0.8b, v0.8b, v0.8b
	fmov	w11, s0
	cmp	w11, w9
	b.ne	.LBB38_139
	ldrb	w11, [sp, #220]
	cmp	w11, #26
	b.ne	.LBB38_139
	ldrb	w10, [sp, #272]
	ldr	x11, [sp, #264]
	cmp	x10, #5
	ccmp	x11, #0, #0, eq
	cset	w10, eq
	cmp	w16, #20
	mov	w11, #1
	cinc	w12, w11, eq
	cbnz	x13, .LBB38_140
	b	.LBB38_204
.LBB38_138:
	mov	w10, wzr
.LBB38_139:
	cmp	w16, #20
	mov	w11, #1
	cinc	w12, w11, eq
	cbz	x13, .LBB38_204
.LBB38_140:
	ldrb	w0, [sp, #359]
	cmp	w0, #40
	b.hs	.LBB38_892
	cmp	w0, #5
	mov	w15, wzr
	b.ne	.LBB38_205
	ldr	s0, [sp, #320]
	ushll	v0.8h, v0.8b, #0
	uzp1	v0.8b, v0.8b, v0.8b
	fmov	w13, s0
	cmp	w13, w9
	b.ne	.LBB38_205
	ldrb	w13, [sp, #324]
	cmp	w13, #26
	b.ne	.LBB38_205
	ldrb	w13, [sp, #376]
	ldr	x15, [sp, #368]
	cmp	x13, #5
	ccmp	x15, #0, #0, eq
	cset	w15, eq
	b	.LBB38_205
.LBB38_145:
	add	x0, sp, #208
	bl	_RNvXs_NtNtNtCs00000000001_10pkcs1_tool6proved12pkcs1_params7holdersINtNtNtB8_9spki_core20algorithm_identifier21AlgorithmIdentifierOfNtNtB18_17object_identifier16ObjectIdentifierIB14_B26_NtNtB18_3any6AnyRefEENtB4_10MaskHolder10is_defaultBa_
	cmp	w21, #20
	cset	w28, eq
	tbz	w0, #0, .LBB38_499
.LBB38_146:
	tbz	w28, #0, .LBB38_451
	mov	w28, #1
	b	.LBB38_502
.LBB38_148:
	and	w10, w10, #0xff
	cmp	w10, #130
	b.ne	.LBB38_404
	cmp	x9, #1
	b.ls	.LBB38_409
	ldrb	w8, [x1, #2]
	cbz	x8, .LBB38_409
	ldrb	w9, [x1, #3]
	orr	x10, x9, x8, lsl #8
	sub	x8, x2, #4
	subs	x23, x8, x10
	b.lo	.LBB38_409
	add	x8, x1, #4
	b	.LBB38_61
.LBB38_153:
	and	w9, w9, #0xff
	cmp	w9, #130
	b.ne	.LBB38_421
	cmp	x10, #1
	b.ls	.LBB38_426
	ldrb	w8, [x1, #2]
	cbz	x8, .LBB38_426
	ldrb	w9, [x1, #3]
	orr	x9, x9, x8, lsl #8
	sub	x8, x2, #4
	subs	x23, x8, x9
	b.lo	.LBB38_426
	add	x8, x1, #4
	b	.LBB38_38
.LBB38_158:
	add	x26, x25, #3
.LBB38_159:
	add	x8, x9, x25
	mov	w9, #61
	mov	w10, #28192
	mov	x2, x29
	strb	w9, [x8, #2]
	strh	w10, [x8]
	str	x26, [x29, #16]
	bl	_RNvNtNtNtCs00000000001_10pkcs1_tool4tool13pkcs1_program6digits7put_hex
	tbnz	w0, #0, .LBB38_547
	ldr	x25, [x29, #16]
	ldr	x8, [x29]
	sub	x9, x8, x25
	cmp	x9, #3
	b.hs	.LBB38_489
	cmn	x25, #4
	b.hi	.LBB38_547
	lsl	x9, x8, #1
	add	x26, x25, #3
	mov	w10, #8
	cmp	x9, x26
	csel	x9, x9, x26, hi
	cmp	x9, #8
	csel	x22, x9, x10, hi
	tbnz	x22, #63, .LBB38_547
	cbz	x8, .LBB38_165
	ldr	x9, [x29, #8]
	str	x8, [sp, #224]
	mov	w8, #1
	str	x9, [sp, #208]
.LBB38_165:
	add	x0, sp, #752
	add	x3, sp, #208
	mov	w1, #1
	mov	x2, x22
	str	x8, [sp, #216]
	bl	_RINvNtCs00000000000_5alloc7raw_vec11finish_growNtNtB4_5alloc6GlobalECs00000000001_10pkcs1_tool
	ldr	w8, [sp, #752]
	tbnz	w8, #0, .LBB38_547
	ldr	x8, [sp, #760]
	stp	x22, x8, [x29]
	b	.LBB38_490
.LBB38_167:
	and	w12, w12, #0xff
	cmp	w12, #130
	b.ne	.LBB38_428
	cmp	x9, #1
	b.ls	.LBB38_866
	ldrb	w9, [x8, #2]
	cbz	x9, .LBB38_866
	ldrb	w11, [x8, #3]
	orr	x12, x11, x9, lsl #8
	sub	x9, x10, #4
	subs	x9, x9, x12
	b.lo	.LBB38_866
	add	x11, x8, #4
	add	x10, x11, x12
	cbnz	x12, .LBB38_65
	b	.LBB38_83
.LBB38_172:
	and	w11, w11, #0xff
	cmp	w11, #130
	b.ne	.LBB38_433
	cmp	x10, #1
	b.ls	.LBB38_869
	ldrb	w10, [x12]
	cbz	x10, .LBB38_869
	ldrb	w11, [x8, #3]
	orr	x10, x11, x10, lsl #8
	sub	x11, x9, #4
	cmp	x10, x11
	b.ls	.LBB38_83
	b	.LBB38_869
.LBB38_176:
	ldrb	w8, [x11]
	cbnz	w8, .LBB38_83
	sub	x8, x12, #3
	cmn	x8, #2
	b.lo	.LBB38_83
	ldrsb	w8, [x11, #1]
	tbz	w8, #31, .LBB38_83
.LBB38_179:
	cmp	w8, #1
	b.eq	.LBB38_509
	and	w8, w8, #0xff
	cbnz	w8, .LBB38_83
	mov	w20, wzr
	b	.LBB38_510
.LBB38_182:
	mov	w11, wzr
	ldr	x15, [sp, #424]
	cbnz	x15, .LBB38_121
.LBB38_183:
	mov	w12, wzr
.LBB38_184:
	cbz	x13, .LBB38_190
	ldrb	w0, [sp, #359]
	cmp	w0, #40
	b.hs	.LBB38_892
	cmp	w0, #5
	mov	w21, wzr
	b.ne	.LBB38_191
	ldr	s0, [sp, #320]
	ushll	v0.8h, v0.8b, #0
	uzp1	v0.8b, v0.8b, v0.8b
	fmov	w13, s0
	cmp	w13, w10
	b.ne	.LBB38_191
	ldrb	w13, [sp, #324]
	cmp	w13, #26
	b.ne	.LBB38_191
	ldrb	w13, [sp, #376]
	ldr	x16, [sp, #368]
	cmp	x13, #5
	ccmp	x16, #0, #0, eq
	cset	w21, eq
	b	.LBB38_191
.LBB38_190:
	mov	w21, wzr
.LBB38_191:
	tbz	w14, #0, .LBB38_202
	ldrb	w0, [sp, #319]
	cmp	w0, #40
	b.hs	.LBB38_892
	cmp	w0, #9
	b.ne	.LBB38_297
	ldr	d0, [sp, #280]
	mov	w22, wzr
	fmov	x13, d0
	cmp	x13, x9
	b.ne	.LBB38_298
	ldrb	w13, [sp, #288]
	cmp	w13, #8
	b.ne	.LBB38_298
	ldr	x13, [sp, #256]
	cbz	x13, .LBB38_202
	ldrb	w0, [sp, #255]
	cmp	w0, #40
	b.hs	.LBB38_892
	cmp	w0, #5
	mov	w22, wzr
	b.ne	.LBB38_298
	ldr	s0, [sp, #216]
	ushll	v0.8h, v0.8b, #0
	uzp1	v0.8b, v0.8b, v0.8b
	fmov	w13, s0
	cmp	w13, w10
	b.ne	.LBB38_298
	ldrb	w10, [sp, #220]
	cmp	w10, #26
	b.ne	.LBB38_298
	ldrb	w10, [sp, #272]
	ldr	x13, [sp, #264]
	cmp	x10, #5
	ccmp	x13, #0, #0, eq
	cset	w22, eq
	cbnz	x15, .LBB38_299
	b	.LBB38_304
.LBB38_202:
	mov	w22, wzr
	cbnz	x15, .LBB38_299
	b	.LBB38_304
.LBB38_203:
	mov	w10, wzr
	cmp	w16, #20
	mov	w11, #1
	cinc	w12, w11, eq
	cbnz	x13, .LBB38_140
.LBB38_204:
	mov	w15, wzr
.LBB38_205:
	str	x29, [sp, #128]
	tbz	w14, #0, .LBB38_216
	ldrb	w0, [sp, #319]
	cmp	w0, #40
	b.hs	.LBB38_892
	cmp	w0, #9
	b.ne	.LBB38_216
	ldr	d0, [sp, #280]
	mov	x14, #34346
	mov	w27, wzr
	movk	x14, #34376, lsl #16
	fmov	x13, d0
	movk	x14, #3575, lsl #32
	movk	x14, #257, lsl #48
	cmp	x13, x14
	b.ne	.LBB38_217
	ldrb	w13, [sp, #288]
	cmp	w13, #8
	b.ne	.LBB38_217
	ldr	x13, [sp, #256]
	cbz	x13, .LBB38_216
	ldrb	w0, [sp, #255]
	cmp	w0, #40
	b.hs	.LBB38_892
	cmp	w0, #5
	mov	w27, wzr
	b.ne	.LBB38_217
	ldr	s0, [sp, #216]
	ushll	v0.8h, v0.8b, #0
	uzp1	v0.8b, v0.8b, v0.8b
	fmov	w13, s0
	cmp	w13, w9
	b.ne	.LBB38_217
	ldrb	w9, [sp, #220]
	cmp	w9, #26
	b.ne	.LBB38_217
	ldrb	w9, [sp, #272]
	ldr	x13, [sp, #264]
	cmp	x9, #5
	ccmp	x13, #0, #0, eq
	cset	w27, eq
	b	.LBB38_217
.LBB38_216:
	mov	w27, wzr
.LBB38_217:
	eor	w9, w27, #0x1
	cmp	w16, #20
	add	w8, w8, w10
	lsl	w9, w9, #1
	cset	w10, ne
	add	w8, w12, w8
	lsl	w19, w11, w8
	add	x23, sp, #208
	add	x0, sp, #512
	orr	w9, w9, w10, lsl #2
	eor	w10, w15, #0x1
	add	x1, sp, #456
	sub	w8, w19, #1
	str	w16, [sp, #120]
	mov	w22, w15
	orr	w29, w9, w10
	str	x23, [sp, #456]
	strb	w29, [sp, #464]
	strb	w8, [sp, #465]
	bl	_RNvMs1_NtNtNtCs00000000001_10pkcs1_tool6proved12pkcs1_params8spellingINtB5_8SpellingRINtNtB7_3pss11PssParamsOfNtNtNtB9_9spki_core17object_identifier16ObjectIdentifierNtNtB1O_3any6AnyRefEE3lenBb_
	ldrb	w8, [sp, #512]
	tbz	w8, #0, .LBB38_220
	ldrb	w21, [sp, #513]
.LBB38_219:
	ldr	x23, [sp, #128]
	b	.LBB38_530
.LBB38_220:
	mov	w8, #8
	mov	x21, xzr
	mov	x25, xzr
	mov	x28, xzr
	stp	xzr, x8, [sp, #472]
	and	x8, x19, #0xff
	mov	w20, #8
	str	xzr, [sp, #488]
	str	x8, [sp, #112]
	str	w22, [sp, #104]
	b	.LBB38_222
.LBB38_221:
	lsr	w9, w23, #16
	lsr	x10, x23, #56
	lsr	x11, x23, #24
	mov	x20, x8
	add	x8, x8, x25
	add	x25, x25, #24
	str	x22, [x8]
	add	x21, x21, #2
	mov	x28, x24
	strh	w23, [x8, #8]
	mov	w27, w19
	add	x23, sp, #208
	strb	w9, [x8, #10]
	strb	w10, [x8, #15]
	stur	w11, [x8, #11]
	str	x26, [x8, #16]
	ldr	x8, [sp, #112]
	str	x24, [sp, #488]
	cmp	x8, x24
	b.eq	.LBB38_764
.LBB38_222:
	add	x0, sp, #512
	add	x1, sp, #496
	str	x23, [sp, #496]
	strb	w29, [sp, #504]
	strb	w28, [sp, #505]
	bl	_RNvMs1_NtNtNtCs00000000001_10pkcs1_tool6proved12pkcs1_params8spellingINtB5_8SpellingRINtNtB7_3pss11PssParamsOfNtNtNtB9_9spki_core17object_identifier16ObjectIdentifierNtNtB1O_3any6AnyRefEE3lenBb_
	ldrb	w8, [sp, #512]
	tbnz	w8, #0, .LBB38_527
	ldr	x26, [sp, #520]
	cbz	x26, .LBB38_233
	cmp	x26, #8
	mov	w8, #8
	ldr	w19, [sp, #120]
	csel	x22, x26, x8, hi
	tbnz	x22, #63, .LBB38_392
	add	x0, sp, #752
	add	x3, sp, #512
	mov	w1, #1
	mov	x2, x22
	str	xzr, [sp, #520]
	bl	_RINvNtCs00000000000_5alloc7raw_vec11finish_growNtNtB4_5alloc6GlobalECs00000000001_10pkcs1_tool
	ldr	w8, [sp, #752]
	cmp	w8, #1
	b.eq	.LBB38_392
	ldr	x23, [sp, #760]
	subs	x24, x26, #1
	mov	x8, x23
	b.eq	.LBB38_228
	mov	x0, x23
	mov	w1, wzr
	mov	x2, x24
	bl	memset
	add	x8, x23, x24
.LBB38_228:
	strb	wzr, [x8]
	ldr	w8, [sp, #104]
	and	w24, w28, #0xff
	str	x23, [sp, #512]
	str	x26, [sp, #520]
	str	x26, [sp, #528]
	cbz	w8, .LBB38_234
.LBB38_229:
	cmp	w19, #20
	cbz	w27, .LBB38_238
	b.ne	.LBB38_246
	tbnz	w24, #3, .LBB38_256
	tbnz	w24, #2, .LBB38_259
	b	.LBB38_257
.LBB38_233:
	ldr	w19, [sp, #120]
	mov	x22, xzr
	mov	w23, #1
	ldr	w8, [sp, #104]
	and	w24, w28, #0xff
	str	x23, [sp, #512]
	str	x26, [sp, #520]
	str	x26, [sp, #528]
	cbnz	w8, .LBB38_229
.LBB38_234:
	cmp	w19, #20
	cbz	w27, .LBB38_242
	b.ne	.LBB38_248
	tbnz	w24, #2, .LBB38_265
	tbnz	w24, #1, .LBB38_278
	b	.LBB38_266
.LBB38_238:
	b.ne	.LBB38_250
	tbz	w24, #2, .LBB38_241
	add	x0, sp, #512
	bl	_RINvNtNtNtCs00000000001_10pkcs1_tool6proved12pkcs1_params6fields13prepend_fieldNtNtB4_13trailer_field12TrailerFieldNtNtNtB6_8der_core11back_writer10BackWriterEB8_
.LBB38_241:
	tbnz	w24, #1, .LBB38_252
	b	.LBB38_260
.LBB38_242:
	b.ne	.LBB38_253
	tbz	w24, #1, .LBB38_245
	add	x0, sp, #512
	bl	_RINvNtNtNtCs00000000001_10pkcs1_tool6proved12pkcs1_params6fields13prepend_fieldNtNtB4_13trailer_field12TrailerFieldNtNtNtB6_8der_core11back_writer10BackWriterEB8_
.LBB38_245:
	tbnz	w24, #0, .LBB38_255
	b	.LBB38_267
.LBB38_246:
	tbz	w24, #2, .LBB38_259
	add	x0, sp, #512
	bl	_RINvNtNtNtCs00000000001_10pkcs1_tool6proved12pkcs1_params6fields13prepend_fieldNtNtB4_13trailer_field12TrailerFieldNtNtNtB6_8der_core11back_writer10BackWriterEB8_
	b	.LBB38_259
.LBB38_248:
	tbz	w24, #1, .LBB38_278
	add	x0, sp, #512
	bl	_RINvNtNtNtCs00000000001_10pkcs1_tool6proved12pkcs1_params6fields13prepend_fieldNtNtB4_13trailer_field12TrailerFieldNtNtNtB6_8der_core11back_writer10BackWriterEB8_
	b	.LBB38_278
.LBB38_250:
	tbz	w24, #1, .LBB38_252
	add	x0, sp, #512
	bl	_RINvNtNtNtCs00000000001_10pkcs1_tool6proved12pkcs1_params6fields13prepend_fieldNtNtB4_13trailer_field12TrailerFieldNtNtNtB6_8der_core11back_writer10BackWriterEB8_
.LBB38_252:
	add	x1, sp, #512
	mov	w0, w19
	bl	_RINvNtNtNtCs00000000001_10pkcs1_tool6proved12pkcs1_params6fields13prepend_fieldhNtNtNtB6_8der_core11back_writer10BackWriterEB8_
	b	.LBB38_260
.LBB38_253:
	tbz	w24, #0, .LBB38_255
	add	x0, sp, #512
	bl	_RINvNtNtNtCs00000000001_10pkcs1_tool6proved12pkcs1_params6fields13prepend_fieldNtNtB4_13trailer_field12TrailerFieldNtNtNtB6_8der_core11back_writer10BackWriterEB8_
.LBB38_255:
	add	x1, sp, #512
	mov	w0, w19
	bl	_RINvNtNtNtCs00000000001_10pkcs1_tool6proved12pkcs1_params6fields13prepend_fieldhNtNtNtB6_8der_core11back_writer10BackWriterEB8_
	b	.LBB38_267
.LBB38_256:
	add	x0, sp, #512
	bl	_RINvNtNtNtCs00000000001_10pkcs1_tool6proved12pkcs1_params6fields13prepend_fieldNtNtB4_13trailer_field12TrailerFieldNtNtNtB6_8der_core11back_writer10BackWriterEB8_
	tbnz	w24, #2, .LBB38_259
.LBB38_257:
	tbnz	w24, #1, .LBB38_260
.LBB38_258:
	tbnz	w24, #0, .LBB38_268
	b	.LBB38_261
.LBB38_259:
	add	x1, sp, #512
	mov	w0, w19
	bl	_RINvNtNtNtCs00000000001_10pkcs1_tool6proved12pkcs1_params6fields13prepend_fieldhNtNtNtB6_8der_core11back_writer10BackWriterEB8_
	tbz	w24, #1, .LBB38_258
.LBB38_260:
	add	x0, sp, #208
	add	x1, sp, #512
	bl	_RINvNtNtNtCs00000000001_10pkcs1_tool6proved12pkcs1_params6fields13prepend_fieldINtNtNtB6_9spki_core20algorithm_identifier21AlgorithmIdentifierOfNtNtB1k_17object_identifier16ObjectIdentifierIB1g_B2i_NtNtB1k_3any6AnyRefEENtNtNtB6_8der_core11back_writer10BackWriterEB8_
	tbnz	w24, #0, .LBB38_268
.LBB38_261:
	ldr	x10, [sp, #520]
	ldr	x9, [sp, #528]
	sub	x8, x10, x9
	cmp	w8, #128
	b.hs	.LBB38_269
.LBB38_262:
	cmp	x9, #2
	b.lo	.LBB38_284
	cmp	x10, x9
	b.lo	.LBB38_1018
	ldr	x10, [sp, #512]
	mov	w11, #48
	orr	w8, w11, w8, lsl #8
	add	x9, x10, x9
	sturh	w8, [x9, #-2]
	b	.LBB38_284
.LBB38_265:
	add	x0, sp, #512
	bl	_RINvNtNtNtCs00000000001_10pkcs1_tool6proved12pkcs1_params6fields13prepend_fieldNtNtB4_13trailer_field12TrailerFieldNtNtNtB6_8der_core11back_writer10BackWriterEB8_
	tbnz	w24, #1, .LBB38_278
.LBB38_266:
	tbz	w24, #0, .LBB38_268
.LBB38_267:
	add	x0, sp, #208
	add	x1, sp, #512
	bl	_RINvNtNtNtCs00000000001_10pkcs1_tool6proved12pkcs1_params6fields13prepend_fieldINtNtNtB6_9spki_core20algorithm_identifier21AlgorithmIdentifierOfNtNtB1k_17object_identifier16ObjectIdentifierIB1g_B2i_NtNtB1k_3any6AnyRefEENtNtNtB6_8der_core11back_writer10BackWriterEB8_
.LBB38_268:
	add	x8, sp, #208
	add	x2, sp, #512
	mov	w0, wzr
	add	x1, x8, #112
	bl	_RINvNtNtNtCs00000000001_10pkcs1_tool6proved12pkcs1_params6fields13prepend_fieldINtNtNtB6_9spki_core20algorithm_identifier21AlgorithmIdentifierOfNtNtB1k_17object_identifier16ObjectIdentifierNtNtB1k_3any6AnyRefENtNtNtB6_8der_core11back_writer10BackWriterEB8_
	ldr	x10, [sp, #520]
	ldr	x9, [sp, #528]
	sub	x8, x10, x9
	cmp	w8, #128
	b.lo	.LBB38_262
.LBB38_269:
	cmp	w8, #256
	b.hs	.LBB38_274
	cmp	x9, #3
	b.lo	.LBB38_284
	cmp	x10, x9
	b.lo	.LBB38_1018
	ldr	x10, [sp, #512]
	add	x9, x10, x9
	mov	w10, #33072
	sturh	w10, [x9, #-3]
.LBB38_273:
	sturb	w8, [x9, #-1]
	b	.LBB38_284
.LBB38_274:
	cmp	w8, #16, lsl #12
	b.hs	.LBB38_279
	cmp	x9, #4
	b.lo	.LBB38_284
	cmp	x10, x9
	b.lo	.LBB38_1018
	ldr	x10, [sp, #512]
	mov	w11, #813826048
	orr	w8, w8, w11
	add	x9, x10, x9
	rev	w8, w8
	stur	w8, [x9, #-4]
	b	.LBB38_284
.LBB38_278:
	add	x1, sp, #512
	mov	w0, w19
	bl	_RINvNtNtNtCs00000000001_10pkcs1_tool6proved12pkcs1_params6fields13prepend_fieldhNtNtNtB6_8der_core11back_writer10BackWriterEB8_
	tbz	w24, #0, .LBB38_268
	b	.LBB38_267
.LBB38_279:
	lsr	w11, w8, #24
	cbnz	w11, .LBB38_283
	cmp	x9, #5
	b.lo	.LBB38_284
	cmp	x10, x9
	b.lo	.LBB38_1018
	ldr	x10, [sp, #512]
	lsr	x11, x8, #16
	mov	w12, #33584
	add	x9, x10, x9
	lsr	x10, x8, #8
	sturh	w12, [x9, #-5]
	sturb	w11, [x9, #-3]
	sturb	w10, [x9, #-2]
	b	.LBB38_273
.LBB38_283:
	cmp	x9, #6
	b.hs	.LBB38_295
.LBB38_284:
	mov	w19, w27
	ldr	x27, [sp, #472]
	add	x24, x28, #1
	cmp	x28, x27
	b.ne	.LBB38_289
	cmp	x21, x24
	mov	w9, #4
	csel	x8, x21, x24, hi
	cmp	x8, #4
	csel	x27, x8, x9, hi
	mov	w8, #24
	umulh	x8, x27, x8
	cmp	xzr, x8
	b.ne	.LBB38_390
	add	x8, x27, x27, lsl #1
	lsl	x2, x8, #3
	mov	x8, #9223372036854775800
	cmp	x2, x8
	b.hi	.LBB38_390
	cbnz	x25, .LBB38_290
	mov	x8, xzr
	b	.LBB38_291
.LBB38_289:
	mov	x8, x20
	b	.LBB38_293
.LBB38_290:
	mov	w8, #8
	str	x20, [sp, #512]
	str	x25, [sp, #528]
.LBB38_291:
	add	x0, sp, #752
	add	x3, sp, #512
	mov	w1, #8
	str	x8, [sp, #520]
	bl	_RINvNtCs00000000000_5alloc7raw_vec11finish_growNtNtB4_5alloc6GlobalECs00000000001_10pkcs1_tool
	ldr	w8, [sp, #752]
	cmp	w8, #1
	b.eq	.LBB38_390
	ldr	x8, [sp, #760]
	stp	x27, x8, [sp, #472]
.LBB38_293:
	cmp	x28, x27
	b.ne	.LBB38_221
	add	x0, sp, #472
	bl	_RNvMs1_NtCs00000000000_5alloc7raw_vecINtB5_6RawVecINtNtNtNtCs00000000001_10pkcs1_tool10rattle_std7library3vec3VechEE8grow_oneBV_
	ldr	x8, [sp, #480]
	b	.LBB38_221
.LBB38_295:
	cmp	x10, x9
	b.lo	.LBB38_1018
	ldr	x10, [sp, #512]
	mov	w12, #33840
	lsr	x11, x8, #24
	add	x9, x10, x9
	lsr	x10, x8, #16
	sturh	w12, [x9, #-6]
	lsr	x12, x8, #8
	sturb	w11, [x9, #-4]
	sturb	w10, [x9, #-3]
	sturb	w12, [x9, #-2]
	b	.LBB38_273
.LBB38_297:
	mov	w22, wzr
.LBB38_298:
	cbz	x15, .LBB38_304
.LBB38_299:
	ldrb	w0, [sp, #423]
	cmp	w0, #40
	b.hs	.LBB38_892
	cmp	w0, #9
	b.ne	.LBB38_304
	ldr	d0, [sp, #384]
	fmov	x10, d0
	cmp	x10, x9
	mov	w9, #2
	b.ne	.LBB38_305
	ldrb	w10, [sp, #392]
	cmp	w10, #9
	b.ne	.LBB38_305
	ldp	x9, x10, [sp, #432]
	and	x10, x10, #0xff
	cmp	x9, #0
	mov	w9, #2
	ccmp	x10, #4, #0, eq
	csel	w9, wzr, w9, eq
	b	.LBB38_305
.LBB38_304:
	mov	w9, #2
.LBB38_305:
	add	w8, w11, w8
	eor	w10, w22, #0x1
	mov	w11, #1
	add	w8, w8, w12
	eor	w25, w21, #0x1
	orr	w19, w9, w10
	lsl	w20, w11, w8
	bfi	w25, w19, #1, #2
	add	x23, sp, #208
	add	x0, sp, #512
	add	x1, sp, #456
	str	x23, [sp, #456]
	sub	w8, w20, #1
	strb	w25, [sp, #464]
	strb	w8, [sp, #465]
	bl	_RNvMs1_NtNtNtCs00000000001_10pkcs1_tool6proved12pkcs1_params8spellingINtB5_8SpellingRINtNtB7_4oaep12OaepParamsOfNtNtNtB9_9spki_core17object_identifier16ObjectIdentifierNtNtB1Q_3any6AnyRefEE3lenBb_
	ldrb	w8, [sp, #512]
	tbz	w8, #0, .LBB38_307
	ldrb	w21, [sp, #513]
	cmp	w21, #16
	b.ne	.LBB38_544
	b	.LBB38_547
.LBB38_307:
	lsl	w8, w19, #1
	str	x29, [sp, #128]
	mov	x29, xzr
	mov	x28, xzr
	mov	x27, xzr
	mov	w9, #8
	str	w8, [sp, #96]
	and	w8, w8, #0x4
	mov	w26, #8
	str	w22, [sp, #112]
	str	w21, [sp, #120]
	str	xzr, [sp, #472]
	stp	x9, xzr, [sp, #480]
	str	w8, [sp, #104]
	b	.LBB38_309
.LBB38_308:
	lsr	w9, w22, #16
	lsr	x10, x22, #56
	lsr	x11, x22, #24
	add	x8, x26, x28
	add	x28, x28, #24
	cmp	x20, x23
	str	x21, [x8]
	add	x29, x29, #2
	mov	x27, x23
	strh	w22, [x8, #8]
	strb	w9, [x8, #10]
	strb	w10, [x8, #15]
	stur	w11, [x8, #11]
	str	x24, [x8, #16]
	str	x23, [sp, #488]
	add	x23, sp, #208
	b.eq	.LBB38_766
.LBB38_309:
	add	x0, sp, #512
	add	x1, sp, #496
	str	x23, [sp, #496]
	strb	w25, [sp, #504]
	strb	w27, [sp, #505]
	bl	_RNvMs1_NtNtNtCs00000000001_10pkcs1_tool6proved12pkcs1_params8spellingINtB5_8SpellingRINtNtB7_4oaep12OaepParamsOfNtNtNtB9_9spki_core17object_identifier16ObjectIdentifierNtNtB1Q_3any6AnyRefEE3lenBb_
	ldrb	w8, [sp, #512]
	tbnz	w8, #0, .LBB38_540
	ldr	x24, [sp, #520]
	cbz	x24, .LBB38_319
	cmp	x24, #8
	mov	w8, #8
	csel	x21, x24, x8, hi
	tbnz	x21, #63, .LBB38_399
	add	x0, sp, #752
	add	x3, sp, #512
	mov	w1, #1
	mov	x2, x21
	str	xzr, [sp, #520]
	bl	_RINvNtCs00000000000_5alloc7raw_vec11finish_growNtNtB4_5alloc6GlobalECs00000000001_10pkcs1_tool
	ldr	w8, [sp, #752]
	cmp	w8, #1
	b.eq	.LBB38_399
	ldr	x22, [sp, #760]
	subs	x23, x24, #1
	mov	x8, x22
	b.eq	.LBB38_315
	mov	x0, x22
	mov	w1, wzr
	mov	x2, x23
	bl	memset
	add	x8, x22, x23
.LBB38_315:
	strb	wzr, [x8]
	ldr	w8, [sp, #120]
	and	w19, w27, #0x1
	str	x22, [sp, #512]
	str	x24, [sp, #520]
	str	x24, [sp, #528]
	cbz	w8, .LBB38_320
.LBB38_316:
	ldr	w8, [sp, #112]
	and	w23, w27, #0x2
	cbz	w8, .LBB38_324
	ldr	w8, [sp, #96]
	orr	w8, w8, w27
	tbnz	w8, #2, .LBB38_329
	cbnz	w23, .LBB38_335
	b	.LBB38_330
.LBB38_319:
	mov	x21, xzr
	mov	w22, #1
	ldr	w8, [sp, #120]
	and	w19, w27, #0x1
	str	x22, [sp, #512]
	str	x24, [sp, #520]
	str	x24, [sp, #528]
	cbnz	w8, .LBB38_316
.LBB38_320:
	ldr	w8, [sp, #112]
	cbz	w8, .LBB38_326
	ldr	w9, [sp, #104]
	and	w8, w27, #0x2
	orr	w8, w8, w9
	cbz	w8, .LBB38_323
	add	x8, sp, #208
	add	x2, sp, #512
	mov	w0, #2
	add	x1, x8, #176
	bl	_RINvNtNtNtCs00000000001_10pkcs1_tool6proved12pkcs1_params6fields13prepend_fieldINtNtNtB6_9spki_core20algorithm_identifier21AlgorithmIdentifierOfNtNtB1k_17object_identifier16ObjectIdentifierNtNtB1k_3any6AnyRefENtNtNtB6_8der_core11back_writer10BackWriterEB8_
.LBB38_323:
	cbnz	w19, .LBB38_328
	b	.LBB38_336
.LBB38_324:
	ldr	w8, [sp, #104]
	orr	w8, w23, w8
	cbz	w8, .LBB38_335
	add	x8, sp, #208
	add	x2, sp, #512
	mov	w0, #2
	add	x1, x8, #176
	bl	_RINvNtNtNtCs00000000001_10pkcs1_tool6proved12pkcs1_params6fields13prepend_fieldINtNtNtB6_9spki_core20algorithm_identifier21AlgorithmIdentifierOfNtNtB1k_17object_identifier16ObjectIdentifierNtNtB1k_3any6AnyRefENtNtNtB6_8der_core11back_writer10BackWriterEB8_
	b	.LBB38_335
.LBB38_326:
	ldr	w8, [sp, #104]
	orr	w8, w19, w8
	cbz	w8, .LBB38_328
	add	x8, sp, #208
	add	x2, sp, #512
	mov	w0, #2
	add	x1, x8, #176
	bl	_RINvNtNtNtCs00000000001_10pkcs1_tool6proved12pkcs1_params6fields13prepend_fieldINtNtNtB6_9spki_core20algorithm_identifier21AlgorithmIdentifierOfNtNtB1k_17object_identifier16ObjectIdentifierNtNtB1k_3any6AnyRefENtNtNtB6_8der_core11back_writer10BackWriterEB8_
.LBB38_328:
	add	x0, sp, #208
	add	x1, sp, #512
	bl	_RINvNtNtNtCs00000000001_10pkcs1_tool6proved12pkcs1_params6fields13prepend_fieldINtNtNtB6_9spki_core20algorithm_identifier21AlgorithmIdentifierOfNtNtB1k_17object_identifier16ObjectIdentifierIB1g_B2i_NtNtB1k_3any6AnyRefEENtNtNtB6_8der_core11back_writer10BackWriterEB8_
	b	.LBB38_336
.LBB38_329:
	add	x8, sp, #208
	add	x2, sp, #512
	mov	w0, #2
	add	x1, x8, #176
	bl	_RINvNtNtNtCs00000000001_10pkcs1_tool6proved12pkcs1_params6fields13prepend_fieldINtNtNtB6_9spki_core20algorithm_identifier21AlgorithmIdentifierOfNtNtB1k_17object_identifier16ObjectIdentifierNtNtB1k_3any6AnyRefENtNtNtB6_8der_core11back_writer10BackWriterEB8_
	cbnz	w23, .LBB38_335
.LBB38_330:
	cbnz	w19, .LBB38_336
.LBB38_331:
	ldr	x10, [sp, #520]
	ldr	x9, [sp, #528]
	sub	x8, x10, x9
	cmp	w8, #128
	b.hs	.LBB38_337
.LBB38_332:
	cmp	x9, #2
	b.lo	.LBB38_351
	cmp	x10, x9
	b.lo	.LBB38_1018
	ldr	x10, [sp, #512]
	mov	w11, #48
	orr	w8, w11, w8, lsl #8
	add	x9, x10, x9
	sturh	w8, [x9, #-2]
	b	.LBB38_351
.LBB38_335:
	add	x0, sp, #208
	add	x1, sp, #512
	bl	_RINvNtNtNtCs00000000001_10pkcs1_tool6proved12pkcs1_params6fields13prepend_fieldINtNtNtB6_9spki_core20algorithm_identifier21AlgorithmIdentifierOfNtNtB1k_17object_identifier16ObjectIdentifierIB1g_B2i_NtNtB1k_3any6AnyRefEENtNtNtB6_8der_core11back_writer10BackWriterEB8_
	cbz	w19, .LBB38_331
.LBB38_336:
	add	x8, sp, #208
	add	x2, sp, #512
	mov	w0, wzr
	add	x1, x8, #112
	bl	_RINvNtNtNtCs00000000001_10pkcs1_tool6proved12pkcs1_params6fields13prepend_fieldINtNtNtB6_9spki_core20algorithm_identifier21AlgorithmIdentifierOfNtNtB1k_17object_identifier16ObjectIdentifierNtNtB1k_3any6AnyRefENtNtNtB6_8der_core11back_writer10BackWriterEB8_
	ldr	x10, [sp, #520]
	ldr	x9, [sp, #528]
	sub	x8, x10, x9
	cmp	w8, #128
	b.lo	.LBB38_332
.LBB38_337:
	cmp	w8, #256
	b.hs	.LBB38_342
	cmp	x9, #3
	b.lo	.LBB38_351
	cmp	x10, x9
	b.lo	.LBB38_1018
	ldr	x10, [sp, #512]
	add	x9, x10, x9
	mov	w10, #33072
	sturh	w10, [x9, #-3]
.LBB38_341:
	sturb	w8, [x9, #-1]
	b	.LBB38_351
.LBB38_342:
	cmp	w8, #16, lsl #12
	b.hs	.LBB38_346
	cmp	x9, #4
	b.lo	.LBB38_351
	cmp	x10, x9
	b.lo	.LBB38_1018
	ldr	x10, [sp, #512]
	mov	w11, #813826048
	orr	w8, w8, w11
	add	x9, x10, x9
	rev	w8, w8
	stur	w8, [x9, #-4]
	b	.LBB38_351
.LBB38_346:
	lsr	w11, w8, #24
	cbnz	w11, .LBB38_350
	cmp	x9, #5
	b.lo	.LBB38_351
	cmp	x10, x9
	b.lo	.LBB38_1018
	ldr	x10, [sp, #512]
	lsr	x11, x8, #16
	mov	w12, #33584
	add	x9, x10, x9
	lsr	x10, x8, #8
	sturh	w12, [x9, #-5]
	sturb	w11, [x9, #-3]
	sturb	w10, [x9, #-2]
	b	.LBB38_341
.LBB38_350:
	cmp	x9, #6
	b.hs	.LBB38_361
.LBB38_351:
	ldr	x19, [sp, #472]
	add	x23, x27, #1
	cmp	x27, x19
	b.ne	.LBB38_359
	cmp	x29, x23
	mov	w9, #4
	csel	x8, x29, x23, hi
	cmp	x8, #4
	csel	x19, x8, x9, hi
	mov	w8, #24
	umulh	x8, x19, x8
	cmp	xzr, x8
	b.ne	.LBB38_397
	add	x8, x19, x19, lsl #1
	lsl	x2, x8, #3
	mov	x8, #9223372036854775800
	cmp	x2, x8
	b.hi	.LBB38_397
	cbnz	x28, .LBB38_356
	mov	x8, xzr
	b	.LBB38_357
.LBB38_356:
	mov	w8, #8
	str	x26, [sp, #512]
	str	x28, [sp, #528]
.LBB38_357:
	add	x0, sp, #752
	add	x3, sp, #512
	mov	w1, #8
	str	x8, [sp, #520]
	bl	_RINvNtCs00000000000_5alloc7raw_vec11finish_growNtNtB4_5alloc6GlobalECs00000000001_10pkcs1_tool
	ldr	w8, [sp, #752]
	cmp	w8, #1
	b.eq	.LBB38_397
	ldr	x26, [sp, #760]
	stp	x19, x26, [sp, #472]
.LBB38_359:
	cmp	x27, x19
	b.ne	.LBB38_308
	add	x0, sp, #472
	bl	_RNvMs1_NtCs00000000000_5alloc7raw_vecINtB5_6RawVecINtNtNtNtCs00000000001_10pkcs1_tool10rattle_std7library3vec3VechEE8grow_oneBV_
	ldr	x26, [sp, #480]
	b	.LBB38_308
.LBB38_361:
	cmp	x10, x9
	b.lo	.LBB38_1018
	ldr	x10, [sp, #512]
	mov	w12, #33840
	lsr	x11, x8, #24
	add	x9, x10, x9
	lsr	x10, x8, #16
	sturh	w12, [x9, #-6]
	lsr	x12, x8, #8
	sturb	w11, [x9, #-4]
	sturb	w10, [x9, #-3]
	sturb	w12, [x9, #-2]
	b	.LBB38_341
.LBB38_363:
	mov	w8, wzr
.LBB38_364:
	mov	x22, #34346
	movk	x22, #34376, lsl #16
	movk	x22, #3575, lsl #32
	movk	x22, #257, lsl #48
	tbz	w23, #0, .LBB38_375
	ldrb	w0, [sp, #319]
	cmp	w0, #40
	b.hs	.LBB38_892
	cmp	w0, #9
	b.ne	.LBB38_375
	ldr	d0, [sp, #280]
	fmov	x9, d0
	cmp	x9, x22
	mov	w9, wzr
	b.ne	.LBB38_376
	ldrb	w10, [sp, #288]
	cmp	w10, #8
	b.ne	.LBB38_376
	ldr	x9, [sp, #256]
	cbz	x9, .LBB38_376
	ldrb	w0, [sp, #255]
	cmp	w0, #40
	b.hs	.LBB38_892
	cmp	w0, #5
	mov	w9, wzr
	b.ne	.LBB38_376
	ldr	s0, [sp, #216]
	ushll	v0.8h, v0.8b, #0
	uzp1	v0.8b, v0.8b, v0.8b
	fmov	w10, s0
	cmp	w10, w24
	b.ne	.LBB38_376
	ldrb	w10, [sp, #220]
	cmp	w10, #26
	b.ne	.LBB38_376
	ldrb	w9, [sp, #272]
	ldr	x10, [sp, #264]
	cmp	x9, #5
	ccmp	x10, #0, #0, eq
	cset	w9, eq
	b	.LBB38_376
.LBB38_375:
	mov	w9, wzr
.LBB38_376:
	ldr	x26, [sp, #728]
	cbz	x26, .LBB38_382
	ldrb	w0, [sp, #727]
	cmp	w0, #40
	b.hs	.LBB38_892
	cmp	w0, #9
	b.ne	.LBB38_382
	ldr	d0, [sp, #688]
	fmov	x10, d0
	cmp	x10, x22
	mov	w10, wzr
	b.ne	.LBB38_383
	ldrb	w11, [sp, #696]
	cmp	w11, #9
	b.ne	.LBB38_383
	ldrb	w10, [sp, #744]
	ldr	x11, [sp, #736]
	cmp	x10, #4
	ccmp	x11, #0, #0, eq
	cset	w10, eq
	b	.LBB38_383
.LBB38_382:
	mov	w10, wzr
.LBB38_383:
	add	x23, sp, #512
	cbz	w8, .LBB38_387
	cbz	w9, .LBB38_437
	tbnz	w10, #0, .LBB38_445
	add	x0, x23, #176
	b	.LBB38_444
.LBB38_387:
	cbz	w9, .LBB38_440
	tbnz	w10, #0, .LBB38_443
	add	x0, x23, #176
	add	x1, sp, #752
	bl	_RINvNtNtNtCs00000000001_10pkcs1_tool6proved12pkcs1_params6fields13prepend_fieldINtNtNtB6_9spki_core20algorithm_identifier21AlgorithmIdentifierOfNtNtB1k_17object_identifier16ObjectIdentifierNtNtB1k_3any6AnyRefENtNtNtB6_8der_core7counter7CounterEB8_
	b	.LBB38_443
.LBB38_390:
	cbz	x22, .LBB38_392
	mov	x0, x23
	bl	free
.LBB38_392:
	mov	w21, #16
	ldr	x23, [sp, #128]
	ldr	x20, [sp, #480]
	cbz	x28, .LBB38_528
.LBB38_393:
	add	x19, x20, #8
	b	.LBB38_395
.LBB38_394:
	subs	x28, x28, #1
	add	x19, x19, #24
	b.eq	.LBB38_528
.LBB38_395:
	ldur	x8, [x19, #-8]
	cbz	x8, .LBB38_394
	ldr	x0, [x19]
	bl	free
	b	.LBB38_394
.LBB38_397:
	cbz	x21, .LBB38_399
	mov	x0, x22
	bl	free
.LBB38_399:
	mov	w21, #16
	ldr	x29, [sp, #128]
	ldr	x20, [sp, #480]
	cbz	x27, .LBB38_541
.LBB38_400:
	add	x19, x20, #8
	b	.LBB38_402
.LBB38_401:
	subs	x27, x27, #1
	add	x19, x19, #24
	b.eq	.LBB38_541
.LBB38_402:
	ldur	x8, [x19, #-8]
	cbz	x8, .LBB38_401
	ldr	x0, [x19]
	bl	free
	b	.LBB38_401
.LBB38_404:
	cbz	x9, .LBB38_409
	cmp	w10, #129
	b.ne	.LBB38_409
	ldrsb	w8, [x8]
	tbz	w8, #31, .LBB38_409
	sub	x9, x2, #3
	and	x10, x8, #0xff
	subs	x23, x9, x10
	b.lo	.LBB38_409
	add	x8, x1, #3
	b	.LBB38_61
.LBB38_409:
	add	x0, sp, #512
	mov	w3, #48
	mov	x19, x1
	mov	x20, x2
	bl	_RNvNtNtNtCs00000000001_10pkcs1_tool6proved8der_core5split14split_unlikely
	ldr	x8, [sp, #512]
	cbz	x8, .LBB38_83
	ldr	x10, [sp, #520]
	ldr	x23, [sp, #536]
	mov	x2, x20
	mov	x1, x19
	cmp	x10, #2
	b.hs	.LBB38_61
	b	.LBB38_866
.LBB38_411:
	and	w9, w9, #0xff
	cmp	w9, #130
	b.ne	.LBB38_452
	cmp	x10, #1
	b.ls	.LBB38_457
	ldrb	w9, [x8, #2]
	cbz	x9, .LBB38_457
	ldrb	w10, [x8, #3]
	orr	x9, x10, x9, lsl #8
	sub	x10, x2, #4
	subs	x19, x10, x9
	b.lo	.LBB38_457
	add	x1, x8, #4
	b	.LBB38_459
.LBB38_416:
	and	w9, w9, #0xff
	cmp	w9, #130
	b.ne	.LBB38_469
	cmp	x10, #1
	b.ls	.LBB38_474
	ldrb	w9, [x8, #2]
	cbz	x9, .LBB38_474
	ldrb	w10, [x8, #3]
	orr	x9, x10, x9, lsl #8
	sub	x10, x2, #4
	subs	x19, x10, x9
	b.lo	.LBB38_474
	add	x1, x8, #4
	b	.LBB38_476
.LBB38_421:
	cbz	x10, .LBB38_426
	cmp	w9, #129
	b.ne	.LBB38_426
	ldrsb	w8, [x8]
	tbz	w8, #31, .LBB38_426
	sub	x10, x2, #3
	and	x9, x8, #0xff
	subs	x23, x10, x9
	b.lo	.LBB38_426
	add	x8, x1, #3
	b	.LBB38_38
.LBB38_426:
	add	x0, sp, #512
	mov	w3, #48
	mov	x19, x1
	mov	x20, x2
	bl	_RNvNtNtNtCs00000000001_10pkcs1_tool6proved8der_core5split14split_unlikely
	ldr	x8, [sp, #512]
	cbz	x8, .LBB38_83
	ldr	x9, [sp, #520]
	ldr	x23, [sp, #536]
	mov	x2, x20
	mov	x1, x19
	cmp	x9, #2
	b.hs	.LBB38_38
	b	.LBB38_869
.LBB38_428:
	cbz	x9, .LBB38_865
	cmp	w12, #129
	b.ne	.LBB38_866
	ldrsb	w9, [x11]
	tbz	w9, #31, .LBB38_866
	sub	x11, x10, #3
	and	x12, x9, #0xff
	subs	x9, x11, x12
	b.lo	.LBB38_866
	add	x11, x8, #3
	add	x10, x11, x12
	cbnz	x12, .LBB38_65
	b	.LBB38_83
.LBB38_433:
	cbz	x10, .LBB38_868
	cmp	w11, #129
	b.ne	.LBB38_869
	ldrsb	w10, [x12]
	tbz	w10, #31, .LBB38_869
	sub	x11, x9, #3
	and	x10, x10, #0xff
	cmp	x11, x10
	b.hs	.LBB38_83
	b	.LBB38_869
.LBB38_437:
	tbnz	w10, #0, .LBB38_439
	add	x0, x23, #176
	add	x1, sp, #752
	bl	_RINvNtNtNtCs00000000001_10pkcs1_tool6proved12pkcs1_params6fields13prepend_fieldINtNtNtB6_9spki_core20algorithm_identifier21AlgorithmIdentifierOfNtNtB1k_17object_identifier16ObjectIdentifierNtNtB1k_3any6AnyRefENtNtNtB6_8der_core7counter7CounterEB8_
.LBB38_439:
	add	x0, sp, #512
	add	x1, sp, #752
	bl	_RINvNtNtNtCs00000000001_10pkcs1_tool6proved12pkcs1_params6fields13prepend_fieldINtNtNtB6_9spki_core20algorithm_identifier21AlgorithmIdentifierOfNtNtB1k_17object_identifier16ObjectIdentifierIB1g_B2i_NtNtB1k_3any6AnyRefEENtNtNtB6_8der_core7counter7CounterEB8_
	b	.LBB38_445
.LBB38_440:
	tbnz	w10, #0, .LBB38_442
	add	x0, x23, #176
	add	x1, sp, #752
	bl	_RINvNtNtNtCs00000000001_10pkcs1_tool6proved12pkcs1_params6fields13prepend_fieldINtNtNtB6_9spki_core20algorithm_identifier21AlgorithmIdentifierOfNtNtB1k_17object_identifier16ObjectIdentifierNtNtB1k_3any6AnyRefENtNtNtB6_8der_core7counter7CounterEB8_
.LBB38_442:
	add	x0, sp, #512
	add	x1, sp, #752
	bl	_RINvNtNtNtCs00000000001_10pkcs1_tool6proved12pkcs1_params6fields13prepend_fieldINtNtNtB6_9spki_core20algorithm_identifier21AlgorithmIdentifierOfNtNtB1k_17object_identifier16ObjectIdentifierIB1g_B2i_NtNtB1k_3any6AnyRefEENtNtNtB6_8der_core7counter7CounterEB8_
.LBB38_443:
	add	x0, x23, #112
.LBB38_444:
	add	x1, sp, #752
	bl	_RINvNtNtNtCs00000000001_10pkcs1_tool6proved12pkcs1_params6fields13prepend_fieldINtNtNtB6_9spki_core20algorithm_identifier21AlgorithmIdentifierOfNtNtB1k_17object_identifier16ObjectIdentifierNtNtB1k_3any6AnyRefENtNtNtB6_8der_core7counter7CounterEB8_
.LBB38_445:
	ldr	x8, [sp, #752]
	cmp	x8, #128
	b.hs	.LBB38_447
	mov	w9, #2
	add	x21, x9, x8
	b	.LBB38_646
.LBB38_447:
	cmp	x8, #256
	b.hs	.LBB38_449
	mov	w9, #3
	add	x21, x9, x8
	b	.LBB38_646
.LBB38_449:
	cmp	x8, #16, lsl #12
	b.hs	.LBB38_517
	mov	w9, #4
	add	x21, x9, x8
	b	.LBB38_646
.LBB38_451:
	add	x1, sp, #752
	mov	w0, w21
	bl	_RINvNtNtNtCs00000000001_10pkcs1_tool6proved12pkcs1_params6fields13prepend_fieldhNtNtNtB6_8der_core7counter7CounterEB8_
	mov	w28, wzr
	b	.LBB38_502
.LBB38_452:
	cbz	x10, .LBB38_457
	cmp	w9, #129
	b.ne	.LBB38_457
	ldrsb	w9, [x1]
	tbz	w9, #31, .LBB38_457
	sub	x10, x2, #3
	and	x9, x9, #0xff
	subs	x19, x10, x9
	b.lo	.LBB38_457
	add	x1, x8, #3
	b	.LBB38_459
.LBB38_457:
	add	x0, sp, #208
	mov	x1, x8
	mov	w3, #48
	bl	_RNvNtNtNtCs00000000001_10pkcs1_tool6proved8der_core5split14split_unlikely
	ldr	x1, [sp, #208]
	cbz	x1, .LBB38_460
	ldr	x9, [sp, #216]
	ldr	x19, [sp, #232]
.LBB38_459:
	add	x0, sp, #208
	mov	x2, x9
	bl	_RNvNtNtNtCs00000000001_10pkcs1_tool6proved12pkcs1_params6noting8note_pss
	ldrb	w8, [sp, #312]
	cmp	w8, #2
	b.ne	.LBB38_462
.LBB38_460:
	mov	w2, wzr
.LBB38_461:
	adrp	x0, .Lanon.28
	add	x0, x0, :lo12:.Lanon.28
	mov	w1, #10
	b	.LBB38_479
.LBB38_462:
	mov	w2, wzr
	cbnz	x19, .LBB38_461
	tbnz	w8, #0, .LBB38_461
	ldr	x8, [sp, #208]
	cbz	x8, .LBB38_461
	ldrb	w8, [sp, #218]
	ldrh	w9, [sp, #216]
	ldrb	w10, [sp, #223]
	ldur	w11, [sp, #219]
	orr	w8, w9, w8, lsl #16
	orr	x10, x11, x10, lsl #32
	lsr	w9, w8, #8
	and	w9, w9, #0xff00
	bfxil	w9, w8, #8, #8
	and	w8, w8, #0xff
	orr	w8, w8, w9, lsl #8
	orr	x0, x8, x10, lsl #24
	cmp	x0, #40
	b.hs	.LBB38_892
	ldr	x0, [sp, #256]
	cmp	x0, #40
	b.hs	.LBB38_892
	ldr	x8, [sp, #264]
	mov	w2, #1
	cbz	x8, .LBB38_461
	ldr	x0, [sp, #272]
	cmp	x0, #40
	b.lo	.LBB38_461
	b	.LBB38_892
.LBB38_469:
	cbz	x10, .LBB38_474
	cmp	w9, #129
	b.ne	.LBB38_474
	ldrsb	w9, [x1]
	tbz	w9, #31, .LBB38_474
	sub	x10, x2, #3
	and	x9, x9, #0xff
	subs	x19, x10, x9
	b.lo	.LBB38_474
	add	x1, x8, #3
	b	.LBB38_476
.LBB38_474:
	add	x0, sp, #208
	mov	x1, x8
	mov	w3, #48
	bl	_RNvNtNtNtCs00000000001_10pkcs1_tool6proved8der_core5split14split_unlikely
	ldr	x1, [sp, #208]
	cbz	x1, .LBB38_477
	ldr	x9, [sp, #216]
	ldr	x19, [sp, #232]
.LBB38_476:
	add	x0, sp, #208
	mov	x2, x9
	bl	_RNvNtNtNtCs00000000001_10pkcs1_tool6proved12pkcs1_params6noting9note_oaep
	ldrb	w8, [sp, #344]
	cmp	w8, #2
	b.ne	.LBB38_480
.LBB38_477:
	mov	w2, wzr
.LBB38_478:
	adrp	x0, .Lanon.29
	add	x0, x0, :lo12:.Lanon.29
	mov	w1, #11
.LBB38_479:
	mov	x3, x29
	bl	_RNvNtNtNtCs00000000001_10pkcs1_tool4tool13pkcs1_program7verdict11put_verdict
	b	.LBB38_550
.LBB38_480:
	mov	w2, wzr
	cbnz	x19, .LBB38_478
	tbnz	w8, #0, .LBB38_478
	ldr	x8, [sp, #208]
	cbz	x8, .LBB38_478
	ldrb	w8, [sp, #218]
	ldrh	w9, [sp, #216]
	ldrb	w10, [sp, #223]
	ldur	w11, [sp, #219]
	orr	w8, w9, w8, lsl #16
	orr	x10, x11, x10, lsl #32
	lsr	w9, w8, #8
	and	w9, w9, #0xff00
	bfxil	w9, w8, #8, #8
	and	w8, w8, #0xff
	orr	w8, w8, w9, lsl #8
	orr	x0, x8, x10, lsl #24
	cmp	x0, #40
	b.hs	.LBB38_892
	ldr	x0, [sp, #256]
	cmp	x0, #40
	b.hs	.LBB38_892
	ldr	x8, [sp, #264]
	ldr	x0, [sp, #312]
	cbz	x8, .LBB38_487
	ldr	x8, [sp, #272]
	cmp	x8, #40
	b.hs	.LBB38_1116
.LBB38_487:
	cmp	x0, #40
	b.hs	.LBB38_892
	mov	w2, #1
	b	.LBB38_478
.LBB38_489:
	ldr	x8, [x29, #8]
	add	x26, x25, #3
.LBB38_490:
	add	x8, x8, x25
	mov	w9, #61
	mov	w10, #25888
	mov	x0, x20
	mov	x1, x21
	mov	x2, x29
	strb	w9, [x8, #2]
	strh	w10, [x8]
	str	x26, [x29, #16]
	bl	_RNvNtNtNtCs00000000001_10pkcs1_tool4tool13pkcs1_program6digits7put_hex
	tbnz	w0, #0, .LBB38_547
	ldr	x21, [x29, #16]
	ldr	x8, [x29]
	sub	x9, x8, x21
	cmp	x9, #7
	b.hs	.LBB38_768
	cmn	x21, #8
	b.hi	.LBB38_547
	lsl	x9, x8, #1
	add	x22, x21, #7
	mov	w10, #8
	cmp	x9, x22
	csel	x9, x9, x22, hi
	cmp	x9, #8
	csel	x20, x9, x10, hi
	tbnz	x20, #63, .LBB38_547
	cbz	x8, .LBB38_496
	ldr	x9, [x29, #8]
	str	x8, [sp, #224]
	mov	w8, #1
	str	x9, [sp, #208]
.LBB38_496:
	add	x0, sp, #752
	add	x3, sp, #208
	mov	w1, #1
	mov	x2, x20
	str	x8, [sp, #216]
	bl	_RINvNtCs00000000000_5alloc7raw_vec11finish_growNtNtB4_5alloc6GlobalECs00000000001_10pkcs1_tool
	ldr	w8, [sp, #752]
	cmp	w8, #1
	b.eq	.LBB38_547
	ldr	x8, [sp, #760]
	stp	x20, x8, [x29]
	b	.LBB38_769
.LBB38_498:
	cbnz	w0, .LBB38_146
.LBB38_499:
	tbnz	w28, #0, .LBB38_501
	add	x1, sp, #752
	mov	w0, w21
	bl	_RINvNtNtNtCs00000000001_10pkcs1_tool6proved12pkcs1_params6fields13prepend_fieldhNtNtNtB6_8der_core7counter7CounterEB8_
.LBB38_501:
	add	x0, sp, #208
	add	x1, sp, #752
	bl	_RINvNtNtNtCs00000000001_10pkcs1_tool6proved12pkcs1_params6fields13prepend_fieldINtNtNtB6_9spki_core20algorithm_identifier21AlgorithmIdentifierOfNtNtB1k_17object_identifier16ObjectIdentifierIB1g_B2i_NtNtB1k_3any6AnyRefEENtNtNtB6_8der_core7counter7CounterEB8_
.LBB38_502:
	add	x0, x24, #112
	add	x1, sp, #752
	bl	_RINvNtNtNtCs00000000001_10pkcs1_tool6proved12pkcs1_params6fields13prepend_fieldINtNtNtB6_9spki_core20algorithm_identifier21AlgorithmIdentifierOfNtNtB1k_17object_identifier16ObjectIdentifierNtNtB1k_3any6AnyRefENtNtNtB6_8der_core7counter7CounterEB8_
.LBB38_503:
	ldr	x8, [sp, #752]
	cmp	x8, #128
	b.hs	.LBB38_505
	mov	w9, #2
	add	x22, x9, x8
	b	.LBB38_562
.LBB38_505:
	cmp	x8, #256
	b.hs	.LBB38_507
	mov	w9, #3
	add	x22, x9, x8
	b	.LBB38_562
.LBB38_507:
	cmp	x8, #16, lsl #12
	b.hs	.LBB38_515
	mov	w9, #4
	add	x22, x9, x8
	b	.LBB38_562
.LBB38_509:
	mov	w20, #1
.LBB38_510:
	subs	x8, x9, #2
	b.lo	.LBB38_757
	mov	x24, x10
	ldrb	w11, [x24], #2
	cmp	w11, #2
	b.ne	.LBB38_757
	ldrsb	w11, [x10, #1]
	tbnz	w11, #31, .LBB38_519
	and	x26, x11, #0xff
	subs	x8, x8, x26
	b.lo	.LBB38_757
	add	x10, x24, x26
	b	.LBB38_759
.LBB38_515:
	lsr	x9, x8, #24
	cbnz	x9, .LBB38_561
	mov	w9, #5
	add	x22, x9, x8
	b	.LBB38_562
.LBB38_517:
	lsr	x9, x8, #24
	cbnz	x9, .LBB38_645
	mov	w9, #5
	add	x21, x9, x8
	b	.LBB38_646
.LBB38_519:
	and	w11, w11, #0xff
	cmp	w11, #130
	b.ne	.LBB38_752
	cmp	x8, #1
	b.ls	.LBB38_757
	ldrb	w8, [x10, #2]
	cbz	x8, .LBB38_757
	ldrb	w11, [x10, #3]
	orr	x26, x11, x8, lsl #8
	sub	x8, x9, #4
	subs	x8, x8, x26
	b.lo	.LBB38_757
	add	x24, x10, #4
	add	x10, x24, x26
	b	.LBB38_760
.LBB38_524:
	b.eq	.LBB38_526
	add	x1, sp, #752
	mov	w0, w21
	bl	_RINvNtNtNtCs00000000001_10pkcs1_tool6proved12pkcs1_params6fields13prepend_fieldhNtNtNtB6_8der_core7counter7CounterEB8_
.LBB38_526:
	add	x0, sp, #208
	add	x1, sp, #752
	bl	_RINvNtNtNtCs00000000001_10pkcs1_tool6proved12pkcs1_params6fields13prepend_fieldINtNtNtB6_9spki_core20algorithm_identifier21AlgorithmIdentifierOfNtNtB1k_17object_identifier16ObjectIdentifierIB1g_B2i_NtNtB1k_3any6AnyRefEENtNtNtB6_8der_core7counter7CounterEB8_
	b	.LBB38_503
.LBB38_527:
	ldrb	w21, [sp, #513]
	ldr	x23, [sp, #128]
	ldr	x20, [sp, #480]
	cbnz	x28, .LBB38_393
.LBB38_528:
	ldr	x8, [sp, #472]
	cbz	x8, .LBB38_530
	mov	x0, x20
	bl	free
.LBB38_530:
	cmp	w21, #16
	b.eq	.LBB38_547
	ldr	x21, [x23, #16]
	ldr	x8, [x23]
	sub	x9, x8, x21
	cmp	x9, #7
	b.hs	.LBB38_538
	cmn	x21, #8
	b.hi	.LBB38_547
	lsl	x9, x8, #1
	add	x22, x21, #7
	mov	w10, #8
	cmp	x9, x22
	csel	x9, x9, x22, hi
	cmp	x9, #8
	csel	x20, x9, x10, hi
	tbnz	x20, #63, .LBB38_547
	cbz	x8, .LBB38_536
	ldr	x9, [x23, #8]
	str	x8, [sp, #528]
	mov	w8, #1
	str	x9, [sp, #512]
.LBB38_536:
	add	x0, sp, #752
	add	x3, sp, #512
	mov	w1, #1
	mov	x2, x20
	str	x8, [sp, #520]
	bl	_RINvNtCs00000000000_5alloc7raw_vec11finish_growNtNtB4_5alloc6GlobalECs00000000001_10pkcs1_tool
	ldr	w8, [sp, #752]
	cmp	w8, #1
	b.eq	.LBB38_547
	ldr	x8, [sp, #760]
	stp	x20, x8, [x23]
	b	.LBB38_539
.LBB38_538:
	ldr	x8, [x23, #8]
	add	x22, x21, #7
.LBB38_539:
	mov	w9, #29557
	mov	w10, #25970
	add	x8, x8, x21
	movk	w9, #25701, lsl #16
	movk	w10, #30054, lsl #16
	mov	w0, wzr
	stur	w9, [x8, #3]
	str	w10, [x8]
	str	x22, [x23, #16]
	b	.LBB38_550
.LBB38_540:
	ldrb	w21, [sp, #513]
	ldr	x29, [sp, #128]
	ldr	x20, [sp, #480]
	cbnz	x27, .LBB38_400
.LBB38_541:
	ldr	x8, [sp, #472]
	cbz	x8, .LBB38_543
	mov	x0, x20
	bl	free
.LBB38_543:
	cmp	w21, #16
	b.eq	.LBB38_547
.LBB38_544:
	ldr	x21, [x29, #16]
	ldr	x8, [x29]
	sub	x9, x8, x21
	cmp	x9, #7
	b.hs	.LBB38_548
	cmn	x21, #8
	b.hi	.LBB38_547
	lsl	x9, x8, #1
	add	x22, x21, #7
	mov	w10, #8
	cmp	x9, x22
	csel	x9, x9, x22, hi
	cmp	x9, #8
	csel	x20, x9, x10, hi
	tbz	x20, #63, .LBB38_551
.LBB38_547:
	mov	w0, #1
	b	.LBB38_550
.LBB38_548:
	ldr	x8, [x29, #8]
	add	x22, x21, #7
.LBB38_549:
	mov	w9, #29557
	mov	w10, #25970
	add	x8, x8, x21
	movk	w9, #25701, lsl #16
	movk	w10, #30054, lsl #16
	mov	w0, wzr
	stur	w9, [x8, #3]
	str	w10, [x8]
	str	x22, [x29, #16]
.LBB38_550:
	add	sp, sp, #784
	.cfi_def_cfa_offset 96
	ldp	x20, x19, [sp, #80]
	ldp	x22, x21, [sp, #64]
	ldp	x24, x23, [sp, #48]
	ldp	x26, x25, [sp, #32]
	ldp	x28, x27, [sp, #16]
	ldp	x29, x30, [sp], #96
	.cfi_def_cfa_offset 0
	.cfi_restore w19
	.cfi_restore w20
	.cfi_restore w21
	.cfi_restore w22
	.cfi_restore w23
	.cfi_restore w24
	.cfi_restore w25
	.cfi_restore w26
	.cfi_restore w27
	.cfi_restore w28
	.cfi_restore w30
	.cfi_restore w29
	ret
.LBB38_551:
	.cfi_restore_state
	cbz	x8, .LBB38_553
	ldr	x9, [x29, #8]
	str	x8, [sp, #528]
	mov	w8, #1
	str	x9, [sp, #512]
.LBB38_553:
	add	x0, sp, #752
	add	x3, sp, #512
	mov	w1, #1
	mov	x2, x20
	str	x8, [sp, #520]
	bl	_RINvNtCs00000000000_5alloc7raw_vec11finish_growNtNtB4_5alloc6GlobalECs00000000001_10pkcs1_tool
	ldr	w8, [sp, #752]
	cmp	w8, #1
	b.eq	.LBB38_547
.LBB38_554:
	ldr	x8, [sp, #760]
.LBB38_555:
	stp	x20, x8, [x29]
	b	.LBB38_549
.LBB38_556:
	and	w9, w9, #0xff
	cmp	w9, #130
	b.ne	.LBB38_772
	cmp	x12, #1
	b.ls	.LBB38_777
	ldrb	w8, [x11, #2]
	cbz	x8, .LBB38_777
	ldrb	w9, [x11, #3]
	orr	x9, x9, x8, lsl #8
	sub	x8, x10, #4
	subs	x20, x8, x9
	b.lo	.LBB38_777
	add	x8, x11, #4
	add	x21, x8, x9
	b	.LBB38_780
.LBB38_561:
	adds	x8, x8, #6
	csinv	x22, x8, xzr, lo
	lsr	x8, x22, #32
	cbnz	x8, .LBB38_1214
.LBB38_562:
	cmp	x22, x27
	b.hi	.LBB38_1214
	str	x20, [sp, #752]
	str	x22, [sp, #760]
	str	x22, [sp, #768]
	cbz	x26, .LBB38_573
	ldrb	w0, [sp, #663]
	cmp	w0, #40
	b.hs	.LBB38_892
	cmp	w0, #5
	b.ne	.LBB38_573
	ldr	s0, [sp, #624]
	ushll	v0.8h, v0.8b, #0
	uzp1	v0.8b, v0.8b, v0.8b
	fmov	w8, s0
	cmp	w8, w25
	b.ne	.LBB38_573
	ldrb	w8, [sp, #628]
	cmp	w8, #26
	b.ne	.LBB38_573
	ldr	x19, [sp, #672]
	ldrb	w27, [sp, #680]
	add	x0, sp, #208
	bl	_RNvXs_NtNtNtCs00000000001_10pkcs1_tool6proved12pkcs1_params7holdersINtNtNtB8_9spki_core20algorithm_identifier21AlgorithmIdentifierOfNtNtB18_17object_identifier16ObjectIdentifierIB14_B26_NtNtB18_3any6AnyRefEENtB4_10MaskHolder10is_defaultBa_
	cmp	x27, #5
	b.ne	.LBB38_576
	cbnz	x19, .LBB38_576
	cbz	w0, .LBB38_585
	tbnz	w28, #0, .LBB38_581
	add	x1, sp, #752
	mov	w0, w21
	bl	_RINvNtNtNtCs00000000001_10pkcs1_tool6proved12pkcs1_params6fields13prepend_fieldhNtNtNtB6_8der_core11back_writer10BackWriterEB8_
	ldr	x10, [sp, #760]
	ldr	x9, [sp, #768]
	sub	x8, x10, x9
	cmp	w8, #128
	b.lo	.LBB38_582
	b	.LBB38_588
.LBB38_573:
	add	x0, sp, #208
	bl	_RNvXs_NtNtNtCs00000000001_10pkcs1_tool6proved12pkcs1_params7holdersINtNtNtB8_9spki_core20algorithm_identifier21AlgorithmIdentifierOfNtNtB18_17object_identifier16ObjectIdentifierIB14_B26_NtNtB18_3any6AnyRefEENtB4_10MaskHolder10is_defaultBa_
	tbz	w0, #0, .LBB38_577
.LBB38_574:
	tbnz	w28, #0, .LBB38_580
	add	x1, sp, #752
	mov	w0, w21
	bl	_RINvNtNtNtCs00000000001_10pkcs1_tool6proved12pkcs1_params6fields13prepend_fieldhNtNtNtB6_8der_core11back_writer10BackWriterEB8_
	b	.LBB38_580
.LBB38_576:
	cbnz	w0, .LBB38_574
.LBB38_577:
	tbnz	w28, #0, .LBB38_579
	add	x1, sp, #752
	mov	w0, w21
	bl	_RINvNtNtNtCs00000000001_10pkcs1_tool6proved12pkcs1_params6fields13prepend_fieldhNtNtNtB6_8der_core11back_writer10BackWriterEB8_
.LBB38_579:
	add	x0, sp, #208
	add	x1, sp, #752
	bl	_RINvNtNtNtCs00000000001_10pkcs1_tool6proved12pkcs1_params6fields13prepend_fieldINtNtNtB6_9spki_core20algorithm_identifier21AlgorithmIdentifierOfNtNtB1k_17object_identifier16ObjectIdentifierIB1g_B2i_NtNtB1k_3any6AnyRefEENtNtNtB6_8der_core11back_writer10BackWriterEB8_
.LBB38_580:
	add	x1, x24, #112
	add	x2, sp, #752
	mov	w0, wzr
	bl	_RINvNtNtNtCs00000000001_10pkcs1_tool6proved12pkcs1_params6fields13prepend_fieldINtNtNtB6_9spki_core20algorithm_identifier21AlgorithmIdentifierOfNtNtB1k_17object_identifier16ObjectIdentifierNtNtB1k_3any6AnyRefENtNtNtB6_8der_core11back_writer10BackWriterEB8_
.LBB38_581:
	ldr	x10, [sp, #760]
	ldr	x9, [sp, #768]
	sub	x8, x10, x9
	cmp	w8, #128
	b.hs	.LBB38_588
.LBB38_582:
	cmp	x9, #2
	b.lo	.LBB38_602
	cmp	x10, x9
	b.lo	.LBB38_1018
	ldr	x10, [sp, #752]
	mov	w11, #48
	orr	w8, w11, w8, lsl #8
	add	x9, x10, x9
	sturh	w8, [x9, #-2]
	b	.LBB38_602
.LBB38_585:
	tbnz	w28, #0, .LBB38_587
	add	x1, sp, #752
	mov	w0, w21
	bl	_RINvNtNtNtCs00000000001_10pkcs1_tool6proved12pkcs1_params6fields13prepend_fieldhNtNtNtB6_8der_core11back_writer10BackWriterEB8_
.LBB38_587:
	add	x0, sp, #208
	add	x1, sp, #752
	bl	_RINvNtNtNtCs00000000001_10pkcs1_tool6proved12pkcs1_params6fields13prepend_fieldINtNtNtB6_9spki_core20algorithm_identifier21AlgorithmIdentifierOfNtNtB1k_17object_identifier16ObjectIdentifierIB1g_B2i_NtNtB1k_3any6AnyRefEENtNtNtB6_8der_core11back_writer10BackWriterEB8_
	ldr	x10, [sp, #760]
	ldr	x9, [sp, #768]
	sub	x8, x10, x9
	cmp	w8, #128
	b.lo	.LBB38_582
.LBB38_588:
	cmp	w8, #256
	b.hs	.LBB38_593
	cmp	x9, #3
	b.lo	.LBB38_602
	cmp	x10, x9
	b.lo	.LBB38_1018
	ldr	x10, [sp, #752]
	mov	w11, #33072
	add	x9, x10, x9
	sturh	w11, [x9, #-3]
.LBB38_592:
	sturb	w8, [x9, #-1]
	b	.LBB38_602
.LBB38_593:
	cmp	w8, #16, lsl #12
	b.hs	.LBB38_597
	cmp	x9, #4
	b.lo	.LBB38_602
	cmp	x10, x9
	b.lo	.LBB38_1018
	ldr	x10, [sp, #752]
	mov	w11, #813826048
	orr	w8, w8, w11
	add	x9, x10, x9
	rev	w8, w8
	stur	w8, [x9, #-4]
	b	.LBB38_602
.LBB38_597:
	lsr	w11, w8, #24
	cbnz	w11, .LBB38_601
	cmp	x9, #5
	b.lo	.LBB38_602
	cmp	x10, x9
	b.lo	.LBB38_1018
	ldr	x10, [sp, #752]
	lsr	x11, x8, #16
	mov	w12, #33584
	add	x9, x10, x9
	lsr	x10, x8, #8
	sturh	w12, [x9, #-5]
	sturb	w11, [x9, #-3]
	sturb	w10, [x9, #-2]
	b	.LBB38_592
.LBB38_601:
	cmp	x9, #6
	b.hs	.LBB38_825
.LBB38_602:
	cbz	x26, .LBB38_608
	ldrb	w0, [sp, #663]
	cmp	w0, #40
	b.hs	.LBB38_892
	cmp	w0, #5
	mov	w26, wzr
	b.ne	.LBB38_608
	ldr	s0, [sp, #624]
	ushll	v0.8h, v0.8b, #0
	uzp1	v0.8b, v0.8b, v0.8b
	fmov	w8, s0
	cmp	w8, w25
	b.ne	.LBB38_608
	ldrb	w8, [sp, #628]
	cmp	w8, #26
	b.ne	.LBB38_608
	ldrb	w8, [sp, #680]
	ldr	x9, [sp, #672]
	cmp	x8, #5
	ccmp	x9, #0, #0, eq
	cset	w26, eq
.LBB38_608:
	tbz	w23, #0, .LBB38_619
	ldrb	w0, [sp, #319]
	cmp	w0, #40
	b.hs	.LBB38_892
	cmp	w0, #9
	b.ne	.LBB38_619
	ldr	d0, [sp, #280]
	mov	x9, #34346
	mov	w27, wzr
	movk	x9, #34376, lsl #16
	fmov	x8, d0
	movk	x9, #3575, lsl #32
	movk	x9, #257, lsl #48
	cmp	x8, x9
	b.ne	.LBB38_620
	ldrb	w8, [sp, #288]
	cmp	w8, #8
	b.ne	.LBB38_620
	ldr	x8, [sp, #256]
	cbz	x8, .LBB38_619
	ldrb	w0, [sp, #255]
	cmp	w0, #40
	b.hs	.LBB38_892
	cmp	w0, #5
	mov	w27, wzr
	b.ne	.LBB38_620
	ldr	s0, [sp, #216]
	ushll	v0.8h, v0.8b, #0
	uzp1	v0.8b, v0.8b, v0.8b
	fmov	w8, s0
	cmp	w8, w25
	b.ne	.LBB38_620
	ldrb	w8, [sp, #220]
	cmp	w8, #26
	b.ne	.LBB38_620
	ldrb	w8, [sp, #272]
	ldr	x9, [sp, #264]
	cmp	x8, #5
	ccmp	x9, #0, #0, eq
	cset	w27, eq
	b	.LBB38_620
.LBB38_619:
	mov	w27, wzr
.LBB38_620:
	ldr	x28, [x29, #16]
	ldr	x8, [x29]
	cmp	w21, #20
	mov	w9, #1
	sub	x10, x8, x28
	cinc	w25, w9, eq
	cmp	x10, #3
	b.hs	.LBB38_627
	cmn	x28, #4
	b.hi	.LBB38_547
	lsl	x9, x8, #1
	mov	x19, x29
	add	x29, x28, #3
	mov	w10, #8
	cmp	x9, x29
	csel	x9, x9, x29, hi
	cmp	x9, #8
	csel	x23, x9, x10, hi
	tbnz	x23, #63, .LBB38_547
	cbz	x8, .LBB38_625
	ldr	x9, [x19, #8]
	str	x8, [sp, #768]
	mov	w8, #1
	str	x9, [sp, #752]
.LBB38_625:
	add	x0, sp, #472
	add	x3, sp, #752
	mov	w1, #1
	mov	x2, x23
	str	x8, [sp, #760]
	bl	_RINvNtCs00000000000_5alloc7raw_vec11finish_growNtNtB4_5alloc6GlobalECs00000000001_10pkcs1_tool
	ldr	w8, [sp, #472]
	cmp	w8, #1
	b.eq	.LBB38_547
	ldr	x8, [sp, #480]
	stp	x23, x8, [x19]
	b	.LBB38_628
.LBB38_627:
	ldr	x8, [x29, #8]
	mov	x19, x29
	add	x29, x28, #3
.LBB38_628:
	add	x8, x8, x28
	mov	w9, #115
	mov	w10, #29552
	add	x0, x24, #112
	add	x1, sp, #208
	mov	x2, x19
	strb	w9, [x8, #2]
	strh	w10, [x8]
	str	x29, [x19, #16]
	bl	_RNvNtNtNtCs00000000001_10pkcs1_tool4tool13pkcs1_program14parameter_text15put_hash_fields
	tbnz	w0, #0, .LBB38_547
	ldr	x24, [x19, #16]
	ldr	x8, [x19]
	mov	x29, x19
	sub	x9, x8, x24
	cmp	x9, #6
	b.hs	.LBB38_636
	cmn	x24, #7
	b.hi	.LBB38_547
	lsl	x9, x8, #1
	add	x28, x24, #6
	mov	w10, #8
	cmp	x9, x28
	csel	x9, x9, x28, hi
	cmp	x9, #8
	csel	x23, x9, x10, hi
	tbnz	x23, #63, .LBB38_547
	cbz	x8, .LBB38_634
	ldr	x9, [x29, #8]
	str	x8, [sp, #768]
	mov	w8, #1
	str	x9, [sp, #752]
.LBB38_634:
	add	x0, sp, #472
	add	x3, sp, #752
	mov	w1, #1
	mov	x2, x23
	str	x8, [sp, #760]
	bl	_RINvNtCs00000000000_5alloc7raw_vec11finish_growNtNtB4_5alloc6GlobalECs00000000001_10pkcs1_tool
	ldr	w8, [sp, #472]
	cmp	w8, #1
	b.eq	.LBB38_547
	ldr	x8, [sp, #480]
	stp	x23, x8, [x29]
	b	.LBB38_637
.LBB38_636:
	ldr	x8, [x29, #8]
	add	x28, x24, #6
.LBB38_637:
	mov	w10, #29472
	add	x8, x8, x24
	mov	w9, #15732
	movk	w10, #27745, lsl #16
	mov	x0, x21
	mov	x1, x29
	strh	w9, [x8, #4]
	str	w10, [x8]
	str	x28, [x29, #16]
	bl	_RNvNtNtNtCs00000000001_10pkcs1_tool4tool13pkcs1_program6digits11put_decimal
	tbnz	w0, #0, .LBB38_547
	ldr	x24, [x29, #16]
	ldr	x8, [x29]
	sub	x9, x8, x24
	cmp	x9, #9
	b.hs	.LBB38_819
	cmn	x24, #10
	b.hi	.LBB38_547
	lsl	x9, x8, #1
	add	x23, x24, #9
	cmp	x9, x23
	csel	x21, x9, x23, hi
	tbnz	x21, #63, .LBB38_547
	cbz	x8, .LBB38_643
	ldr	x9, [x29, #8]
	str	x8, [sp, #768]
	mov	w8, #1
	str	x9, [sp, #752]
.LBB38_643:
	add	x0, sp, #472
	add	x3, sp, #752
	mov	w1, #1
	mov	x2, x21
	str	x8, [sp, #760]
	bl	_RINvNtCs00000000000_5alloc7raw_vec11finish_growNtNtB4_5alloc6GlobalECs00000000001_10pkcs1_tool
	ldr	w8, [sp, #472]
	cmp	w8, #1
	b.eq	.LBB38_547
	ldr	x8, [sp, #480]
	stp	x21, x8, [x29]
	b	.LBB38_820
.LBB38_645:
	adds	x8, x8, #6
	csinv	x21, x8, xzr, lo
	lsr	x8, x21, #32
	cbnz	x8, .LBB38_1214
.LBB38_646:
	cmp	x21, x27
	b.hi	.LBB38_1214
	str	x20, [sp, #752]
	str	x21, [sp, #760]
	str	x21, [sp, #768]
	cbz	x25, .LBB38_653
	ldrb	w0, [sp, #663]
	cmp	w0, #40
	b.hs	.LBB38_892
	cmp	w0, #5
	mov	w8, wzr
	b.ne	.LBB38_654
	ldr	s0, [sp, #624]
	ushll	v0.8h, v0.8b, #0
	uzp1	v0.8b, v0.8b, v0.8b
	fmov	w9, s0
	cmp	w9, w24
	b.ne	.LBB38_654
	ldrb	w9, [sp, #628]
	cmp	w9, #26
	b.ne	.LBB38_654
	ldrb	w8, [sp, #680]
	ldr	x9, [sp, #672]
	cmp	x8, #5
	ccmp	x9, #0, #0, eq
	cset	w8, eq
	b	.LBB38_654
.LBB38_653:
	mov	w8, wzr
.LBB38_654:
	ldr	w9, [sp, #512]
	cmp	w9, #1
	b.ne	.LBB38_665
	ldrb	w0, [sp, #623]
	cmp	w0, #40
	b.hs	.LBB38_892
	cmp	w0, #9
	b.ne	.LBB38_665
	ldr	d0, [sp, #584]
	fmov	x9, d0
	cmp	x9, x22
	mov	w9, wzr
	b.ne	.LBB38_666
	ldrb	w10, [sp, #592]
	cmp	w10, #8
	b.ne	.LBB38_666
	ldr	x9, [sp, #560]
	cbz	x9, .LBB38_666
	ldrb	w0, [sp, #559]
	cmp	w0, #40
	b.hs	.LBB38_892
	cmp	w0, #5
	mov	w9, wzr
	b.ne	.LBB38_666
	ldr	s0, [sp, #520]
	ushll	v0.8h, v0.8b, #0
	uzp1	v0.8b, v0.8b, v0.8b
	fmov	w10, s0
	cmp	w10, w24
	b.ne	.LBB38_666
	ldrb	w10, [sp, #524]
	cmp	w10, #26
	b.ne	.LBB38_666
	ldrb	w9, [sp, #576]
	ldr	x10, [sp, #568]
	cmp	x9, #5
	ccmp	x10, #0, #0, eq
	cset	w9, eq
	b	.LBB38_666
.LBB38_665:
	mov	w9, wzr
.LBB38_666:
	cbz	x26, .LBB38_672
	ldrb	w0, [sp, #727]
	cmp	w0, #40
	b.hs	.LBB38_892
	cmp	w0, #9
	b.ne	.LBB38_672
	ldr	d0, [sp, #688]
	fmov	x10, d0
	cmp	x10, x22
	mov	w10, wzr
	b.ne	.LBB38_673
	ldrb	w11, [sp, #696]
	cmp	w11, #9
	b.ne	.LBB38_673
	ldrb	w10, [sp, #744]
	ldr	x11, [sp, #736]
	cmp	x10, #4
	ccmp	x11, #0, #0, eq
	cset	w10, eq
	b	.LBB38_673
.LBB38_672:
	mov	w10, wzr
.LBB38_673:
	cbz	w8, .LBB38_677
	cbz	w9, .LBB38_680
	tbnz	w10, #0, .LBB38_688
	add	x1, x23, #176
	add	x2, sp, #752
	mov	w0, #2
	b	.LBB38_687
.LBB38_677:
	cbz	w9, .LBB38_683
	tbnz	w10, #0, .LBB38_686
	add	x1, x23, #176
	add	x2, sp, #752
	mov	w0, #2
	bl	_RINvNtNtNtCs00000000001_10pkcs1_tool6proved12pkcs1_params6fields13prepend_fieldINtNtNtB6_9spki_core20algorithm_identifier21AlgorithmIdentifierOfNtNtB1k_17object_identifier16ObjectIdentifierNtNtB1k_3any6AnyRefENtNtNtB6_8der_core11back_writer10BackWriterEB8_
	b	.LBB38_686
.LBB38_680:
	tbnz	w10, #0, .LBB38_682
	add	x1, x23, #176
	add	x2, sp, #752
	mov	w0, #2
	bl	_RINvNtNtNtCs00000000001_10pkcs1_tool6proved12pkcs1_params6fields13prepend_fieldINtNtNtB6_9spki_core20algorithm_identifier21AlgorithmIdentifierOfNtNtB1k_17object_identifier16ObjectIdentifierNtNtB1k_3any6AnyRefENtNtNtB6_8der_core11back_writer10BackWriterEB8_
.LBB38_682:
	add	x0, sp, #512
	add	x1, sp, #752
	bl	_RINvNtNtNtCs00000000001_10pkcs1_tool6proved12pkcs1_params6fields13prepend_fieldINtNtNtB6_9spki_core20algorithm_identifier21AlgorithmIdentifierOfNtNtB1k_17object_identifier16ObjectIdentifierIB1g_B2i_NtNtB1k_3any6AnyRefEENtNtNtB6_8der_core11back_writer10BackWriterEB8_
	b	.LBB38_688
.LBB38_683:
	tbnz	w10, #0, .LBB38_685
	add	x1, x23, #176
	add	x2, sp, #752
	mov	w0, #2
	bl	_RINvNtNtNtCs00000000001_10pkcs1_tool6proved12pkcs1_params6fields13prepend_fieldINtNtNtB6_9spki_core20algorithm_identifier21AlgorithmIdentifierOfNtNtB1k_17object_identifier16ObjectIdentifierNtNtB1k_3any6AnyRefENtNtNtB6_8der_core11back_writer10BackWriterEB8_
.LBB38_685:
	add	x0, sp, #512
	add	x1, sp, #752
	bl	_RINvNtNtNtCs00000000001_10pkcs1_tool6proved12pkcs1_params6fields13prepend_fieldINtNtNtB6_9spki_core20algorithm_identifier21AlgorithmIdentifierOfNtNtB1k_17object_identifier16ObjectIdentifierIB1g_B2i_NtNtB1k_3any6AnyRefEENtNtNtB6_8der_core11back_writer10BackWriterEB8_
.LBB38_686:
	add	x1, x23, #112
	add	x2, sp, #752
	mov	w0, wzr
.LBB38_687:
	bl	_RINvNtNtNtCs00000000001_10pkcs1_tool6proved12pkcs1_params6fields13prepend_fieldINtNtNtB6_9spki_core20algorithm_identifier21AlgorithmIdentifierOfNtNtB1k_17object_identifier16ObjectIdentifierNtNtB1k_3any6AnyRefENtNtNtB6_8der_core11back_writer10BackWriterEB8_
.LBB38_688:
	ldr	x10, [sp, #760]
	ldr	x9, [sp, #768]
	sub	x8, x10, x9
	cmp	w8, #128
	b.hs	.LBB38_692
	cmp	x9, #2
	b.lo	.LBB38_706
	cmp	x10, x9
	b.lo	.LBB38_1018
	ldr	x10, [sp, #752]
	mov	w11, #48
	orr	w8, w11, w8, lsl #8
	add	x9, x10, x9
	sturh	w8, [x9, #-2]
	b	.LBB38_706
.LBB38_692:
	cmp	w8, #256
	b.hs	.LBB38_697
	cmp	x9, #3
	b.lo	.LBB38_706
	cmp	x10, x9
	b.lo	.LBB38_1018
	ldr	x10, [sp, #752]
	mov	w11, #33072
	add	x9, x10, x9
	sturh	w11, [x9, #-3]
.LBB38_696:
	sturb	w8, [x9, #-1]
	b	.LBB38_706
.LBB38_697:
	cmp	w8, #16, lsl #12
	b.hs	.LBB38_701
	cmp	x9, #4
	b.lo	.LBB38_706
	cmp	x10, x9
	b.lo	.LBB38_1018
	ldr	x10, [sp, #752]
	mov	w11, #813826048
	orr	w8, w8, w11
	add	x9, x10, x9
	rev	w8, w8
	stur	w8, [x9, #-4]
	b	.LBB38_706
.LBB38_701:
	lsr	w11, w8, #24
	cbnz	w11, .LBB38_705
	cmp	x9, #5
	b.lo	.LBB38_706
	cmp	x10, x9
	b.lo	.LBB38_1018
	ldr	x10, [sp, #752]
	lsr	x11, x8, #16
	mov	w12, #33584
	add	x9, x10, x9
	lsr	x10, x8, #8
	sturh	w12, [x9, #-5]
	sturb	w11, [x9, #-3]
	sturb	w10, [x9, #-2]
	b	.LBB38_696
.LBB38_705:
	cmp	x9, #6
	b.hs	.LBB38_827
.LBB38_706:
	ldr	x8, [sp, #664]
	cbz	x8, .LBB38_712
	ldrb	w0, [sp, #663]
	cmp	w0, #40
	b.hs	.LBB38_892
	cmp	w0, #5
	mov	w25, wzr
	b.ne	.LBB38_713
	ldr	s0, [sp, #624]
	ushll	v0.8h, v0.8b, #0
	uzp1	v0.8b, v0.8b, v0.8b
	fmov	w8, s0
	cmp	w8, w24
	b.ne	.LBB38_713
	ldrb	w8, [sp, #628]
	cmp	w8, #26
	b.ne	.LBB38_713
	ldrb	w8, [sp, #680]
	ldr	x9, [sp, #672]
	cmp	x8, #5
	ccmp	x9, #0, #0, eq
	cset	w25, eq
	b	.LBB38_713
.LBB38_712:
	mov	w25, wzr
.LBB38_713:
	ldr	w8, [sp, #512]
	cmp	w8, #1
	b.ne	.LBB38_724
	ldrb	w0, [sp, #623]
	cmp	w0, #40
	b.hs	.LBB38_892
	cmp	w0, #9
	b.ne	.LBB38_725
	ldr	d0, [sp, #584]
	mov	w26, wzr
	fmov	x8, d0
	cmp	x8, x22
	b.ne	.LBB38_726
	ldrb	w8, [sp, #592]
	cmp	w8, #8
	b.ne	.LBB38_726
	ldr	x8, [sp, #560]
	cbz	x8, .LBB38_724
	ldrb	w0, [sp, #559]
	cmp	w0, #40
	b.hs	.LBB38_892
	cmp	w0, #5
	mov	w26, wzr
	b.ne	.LBB38_726
	ldr	s0, [sp, #520]
	ushll	v0.8h, v0.8b, #0
	uzp1	v0.8b, v0.8b, v0.8b
	fmov	w8, s0
	cmp	w8, w24
	b.ne	.LBB38_726
	ldrb	w8, [sp, #524]
	cmp	w8, #26
	b.ne	.LBB38_726
	ldrb	w8, [sp, #576]
	ldr	x9, [sp, #568]
	cmp	x8, #5
	ccmp	x9, #0, #0, eq
	cset	w26, eq
	ldr	x8, [sp, #728]
	cbnz	x8, .LBB38_727
	b	.LBB38_732
.LBB38_724:
	mov	w26, wzr
	ldr	x8, [sp, #728]
	cbnz	x8, .LBB38_727
	b	.LBB38_732
.LBB38_725:
	mov	w26, wzr
.LBB38_726:
	ldr	x8, [sp, #728]
	cbz	x8, .LBB38_732
.LBB38_727:
	ldrb	w0, [sp, #727]
	cmp	w0, #40
	b.hs	.LBB38_892
	cmp	w0, #9
	b.ne	.LBB38_732
	ldr	d0, [sp, #688]
	mov	w24, wzr
	fmov	x8, d0
	cmp	x8, x22
	b.ne	.LBB38_733
	ldrb	w8, [sp, #696]
	cmp	w8, #9
	b.ne	.LBB38_733
	ldrb	w8, [sp, #744]
	ldr	x9, [sp, #736]
	cmp	x8, #4
	ccmp	x9, #0, #0, eq
	cset	w24, eq
	b	.LBB38_733
.LBB38_732:
	mov	w24, wzr
.LBB38_733:
	ldr	x27, [x29, #16]
	ldr	x8, [x29]
	sub	x9, x8, x27
	cmp	x9, #4
	b.hs	.LBB38_740
	cmn	x27, #5
	b.hi	.LBB38_547
	lsl	x9, x8, #1
	add	x28, x27, #4
	mov	w10, #8
	cmp	x9, x28
	csel	x9, x9, x28, hi
	cmp	x9, #8
	csel	x22, x9, x10, hi
	tbnz	x22, #63, .LBB38_547
	cbz	x8, .LBB38_738
	ldr	x9, [x29, #8]
	str	x8, [sp, #768]
	mov	w8, #1
	str	x9, [sp, #752]
.LBB38_738:
	add	x0, sp, #472
	add	x3, sp, #752
	mov	w1, #1
	mov	x2, x22
	str	x8, [sp, #760]
	bl	_RINvNtCs00000000000_5alloc7raw_vec11finish_growNtNtB4_5alloc6GlobalECs00000000001_10pkcs1_tool
	ldr	w8, [sp, #472]
	cmp	w8, #1
	b.eq	.LBB38_547
	ldr	x8, [sp, #480]
	stp	x22, x8, [x29]
	b	.LBB38_741
.LBB38_740:
	ldr	x8, [x29, #8]
	add	x28, x27, #4
.LBB38_741:
	mov	w9, #24943
	add	x0, x23, #112
	add	x1, sp, #512
	mov	x2, x29
	movk	w9, #28773, lsl #16
	str	w9, [x8, x27]
	str	x28, [x29, #16]
	bl	_RNvNtNtNtCs00000000001_10pkcs1_tool4tool13pkcs1_program14parameter_text15put_hash_fields
	tbnz	w0, #0, .LBB38_547
	ldr	x27, [x29, #16]
	ldr	x8, [x29]
	sub	x9, x8, x27
	cmp	x9, #8
	b.hs	.LBB38_749
	cmn	x27, #9
	b.hi	.LBB38_547
	lsl	x9, x8, #1
	add	x19, x27, #8
	cmp	x9, x19
	csel	x22, x9, x19, hi
	tbnz	x22, #63, .LBB38_547
	cbz	x8, .LBB38_747
	ldr	x9, [x29, #8]
	str	x8, [sp, #768]
	mov	w8, #1
	str	x9, [sp, #752]
.LBB38_747:
	add	x0, sp, #472
	add	x3, sp, #752
	mov	w1, #1
	mov	x2, x22
	str	x8, [sp, #760]
	bl	_RINvNtCs00000000000_5alloc7raw_vec11finish_growNtNtB4_5alloc6GlobalECs00000000001_10pkcs1_tool
	ldr	w8, [sp, #472]
	cmp	w8, #1
	b.eq	.LBB38_547
	ldr	x8, [sp, #480]
	stp	x22, x8, [x29]
	b	.LBB38_750
.LBB38_749:
	ldr	x8, [x29, #8]
	add	x19, x27, #8
.LBB38_750:
	mov	x9, #29472
	add	x0, x23, #176
	mov	x1, x29
	movk	x9, #30063, lsl #16
	movk	x9, #25458, lsl #32
	movk	x9, #15717, lsl #48
	str	x9, [x8, x27]
	str	x19, [x29, #16]
	bl	_RNvNtNtNtCs00000000001_10pkcs1_tool4tool13pkcs1_program14parameter_text9put_plain
	tbnz	w0, #0, .LBB38_547
	add	w8, w26, w25
	mov	x1, x20
	mov	x2, x21
	add	w0, w8, w24
	b	.LBB38_1057
.LBB38_752:
	cbz	x8, .LBB38_757
	cmp	w11, #129
	b.ne	.LBB38_757
	ldrsb	w8, [x24]
	tbz	w8, #31, .LBB38_757
	sub	x11, x9, #3
	and	x26, x8, #0xff
	subs	x8, x11, x26
	b.lo	.LBB38_757
	add	x24, x10, #3
	add	x10, x24, x26
	b	.LBB38_760
.LBB38_757:
	mov	x19, x1
	mov	x21, x2
	add	x0, sp, #512
	mov	x1, x10
	mov	x2, x9
	mov	w3, #2
	bl	_RNvNtNtNtCs00000000001_10pkcs1_tool6proved8der_core5split14split_unlikely
	ldr	x24, [sp, #512]
	cbz	x24, .LBB38_83
	ldr	x26, [sp, #520]
	ldr	x10, [sp, #528]
	mov	x2, x21
	ldr	x8, [sp, #536]
	mov	x1, x19
.LBB38_759:
	cbz	x26, .LBB38_83
.LBB38_760:
	ldrsb	w9, [x24]
	cbz	w9, .LBB38_762
	tbz	w9, #31, .LBB38_830
	b	.LBB38_83
.LBB38_762:
	subs	x26, x26, #1
	b.eq	.LBB38_829
	ldrsb	w9, [x24, #1]!
	tbz	w9, #31, .LBB38_83
	b	.LBB38_830
.LBB38_764:
	ldrb	w8, [sp, #482]
	ldrh	w9, [sp, #480]
	mov	x10, #-9223372036854775808
	ldr	x19, [sp, #472]
	orr	w8, w9, w8, lsl #16
	cmp	x19, x10
	b.ne	.LBB38_840
	and	w21, w8, #0xff
	b	.LBB38_219
.LBB38_766:
	ldrb	w8, [sp, #482]
	ldrh	w9, [sp, #480]
	mov	x10, #-9223372036854775808
	ldr	x19, [sp, #472]
	orr	w8, w9, w8, lsl #16
	cmp	x19, x10
	b.ne	.LBB38_845
	ldr	x29, [sp, #128]
	and	w21, w8, #0xff
	cmp	w21, #16
	b.ne	.LBB38_544
	b	.LBB38_547
.LBB38_768:
	ldr	x8, [x29, #8]
	add	x22, x21, #7
.LBB38_769:
	mov	w9, #26977
	mov	w10, #24864
	mov	x1, x24
	mov	x0, x23
	add	x8, x8, x21
.LBB38_770:
	movk	w9, #15726, lsl #16
	movk	w10, #24935, lsl #16
	stur	w9, [x8, #3]
	str	w10, [x8]
	str	x22, [x29, #16]
	mov	x2, x29
	bl	_RNvNtNtNtCs00000000001_10pkcs1_tool4tool13pkcs1_program6digits7put_hex
	b	.LBB38_550
.LBB38_771:
	add	x1, sp, #752
	mov	w0, w21
	bl	_RINvNtNtNtCs00000000001_10pkcs1_tool6proved12pkcs1_params6fields13prepend_fieldhNtNtNtB6_8der_core7counter7CounterEB8_
	mov	w28, wzr
	b	.LBB38_503
.LBB38_772:
	cbz	x12, .LBB38_777
	cmp	w9, #129
	b.ne	.LBB38_777
	ldrsb	w8, [x8]
	tbz	w8, #31, .LBB38_777
	sub	x12, x10, #3
	and	x9, x8, #0xff
	subs	x20, x12, x9
	b.lo	.LBB38_777
	add	x8, x11, #3
	add	x21, x8, x9
	b	.LBB38_780
.LBB38_777:
	mov	x19, x1
	mov	x22, x2
	add	x0, sp, #512
	mov	x1, x11
	mov	x2, x10
	mov	w3, #48
	bl	_RNvNtNtNtCs00000000001_10pkcs1_tool6proved8der_core5split14split_unlikely
	ldr	x8, [sp, #512]
	cbz	x8, .LBB38_83
	ldr	x9, [sp, #520]
	ldr	x21, [sp, #528]
	mov	x2, x22
	ldr	x20, [sp, #536]
	mov	x1, x19
.LBB38_779:
	cmp	x9, #2
	b.lo	.LBB38_1004
.LBB38_780:
	mov	x26, x8
	ldrb	w10, [x26], #2
	cmp	w10, #6
	b.ne	.LBB38_1004
	ldrsb	w11, [x8, #1]
	sub	x10, x9, #2
	tbnz	w11, #31, .LBB38_783
	and	x25, x11, #0xff
	subs	x24, x10, x25
	b.hs	.LBB38_796
	b	.LBB38_1004
.LBB38_783:
	and	w11, w11, #0xff
	cmp	w11, #130
	b.ne	.LBB38_791
	cmp	x10, #1
	b.ls	.LBB38_1004
	ldrb	w10, [x8, #2]
	cbz	x10, .LBB38_1004
	ldrb	w11, [x8, #3]
	orr	x25, x11, x10, lsl #8
	sub	x10, x9, #4
	subs	x24, x10, x25
	b.lo	.LBB38_1004
	add	x26, x8, #4
	add	x8, x26, x25
	sub	x10, x25, #1
	cmp	x10, #38
	b.hi	.LBB38_83
	b	.LBB38_797
.LBB38_788:
	ldr	x9, [x29, #8]
	mov	x19, x1
	mov	x27, x0
	str	x8, [sp, #224]
	mov	w8, #1
	str	x9, [sp, #208]
.LBB38_789:
	add	x0, sp, #752
	add	x3, sp, #208
	mov	w1, #1
	mov	x2, x22
	str	x8, [sp, #216]
	bl	_RINvNtCs00000000000_5alloc7raw_vec11finish_growNtNtB4_5alloc6GlobalECs00000000001_10pkcs1_tool
	ldr	w8, [sp, #752]
	cmp	w8, #1
	b.eq	.LBB38_547
	ldr	x9, [sp, #760]
	mov	x8, x22
	mov	x0, x27
	mov	x1, x19
	stp	x22, x9, [x29]
	b	.LBB38_102
.LBB38_791:
	cbz	x10, .LBB38_1003
	cmp	w11, #129
	b.ne	.LBB38_1004
	ldrsb	w10, [x26]
	tbz	w10, #31, .LBB38_1004
	sub	x11, x9, #3
	and	x25, x10, #0xff
	subs	x24, x11, x25
	b.lo	.LBB38_1004
	add	x26, x8, #3
.LBB38_796:
	add	x8, x26, x25
	sub	x10, x25, #1
	cmp	x10, #38
	b.hi	.LBB38_83
.LBB38_797:
	ldrsb	w9, [x26, x10]
	tbnz	w9, #31, .LBB38_810
	movi	v0.8b, #128
	movi	v1.4h, #128
	mov	x11, x26
	b	.LBB38_801
.LBB38_799:
	mov	x12, #-1
	mov	w13, #1
.LBB38_800:
	add	x10, x12, x10
	add	x11, x11, x13
.LBB38_801:
	cmp	x10, #7
	b.ls	.LBB38_804
	ldr	d2, [x11]
	cmeq	v2.8b, v2.8b, v0.8b
	umaxv	b2, v2.8b
	fmov	w12, s2
	tbnz	w12, #0, .LBB38_809
	mov	x12, #-8
	mov	w13, #8
	b	.LBB38_800
.LBB38_804:
	cmp	x10, #3
	b.ls	.LBB38_807
	ldr	s2, [x11]
	ushll	v2.8h, v2.8b, #0
	cmeq	v2.4h, v2.4h, v1.4h
	umaxv	h2, v2.4h
	fmov	w12, s2
	tbnz	w12, #0, .LBB38_809
	mov	x12, #-4
	mov	w13, #4
	b	.LBB38_800
.LBB38_807:
	cbz	x10, .LBB38_813
	ldrb	w12, [x11]
	cmp	w12, #128
	b.ne	.LBB38_799
.LBB38_809:
	cbz	x25, .LBB38_813
.LBB38_810:
	ldrb	w10, [x26]
	cmp	w10, #128
	b.eq	.LBB38_83
	subs	x10, x25, #1
	b.ne	.LBB38_872
.LBB38_812:
	tbnz	w9, #31, .LBB38_83
.LBB38_813:
	cbz	x24, .LBB38_871
	ldrb	w27, [x8]
	mov	w9, #31
	bics	wzr, w9, w27
	b.eq	.LBB38_83
	and	w9, w27, #0xffffffdf
	tst	w9, #0xff
	b.eq	.LBB38_83
	cmp	x24, #1
	b.eq	.LBB38_984
	ldrsb	w10, [x8, #1]
	sub	x9, x24, #2
	tbnz	w10, #31, .LBB38_905
	and	x10, x10, #0xff
	b	.LBB38_909
.LBB38_819:
	ldr	x8, [x29, #8]
	add	x23, x24, #9
.LBB38_820:
	adrp	x9, .Lanon.30
	add	x9, x9, :lo12:.Lanon.30
	add	x8, x8, x24
	ldr	x9, [x9]
	mov	w10, #61
	strb	w10, [x8, #8]
	str	x9, [x8]
	ldr	x21, [x29]
	str	x23, [x29, #16]
	cmp	x21, x23
	b.ne	.LBB38_1054
	cmn	x23, #1
	b.eq	.LBB38_547
	lsl	x8, x23, #1
	add	x9, x23, #1
	cmp	x8, x9
	mov	w9, #8
	csinc	x8, x8, x23, hi
	cmp	x8, #8
	csel	x21, x8, x9, hi
	tbnz	x21, #63, .LBB38_547
	cbnz	x23, .LBB38_1051
	mov	x8, xzr
	b	.LBB38_1052
.LBB38_825:
	cmp	x10, x9
	b.lo	.LBB38_1018
	ldr	x10, [sp, #752]
	mov	w12, #33840
	lsr	x11, x8, #24
	add	x9, x10, x9
	lsr	x10, x8, #16
	sturh	w12, [x9, #-6]
	lsr	x12, x8, #8
	sturb	w11, [x9, #-4]
	sturb	w10, [x9, #-3]
	sturb	w12, [x9, #-2]
	b	.LBB38_592
.LBB38_827:
	cmp	x10, x9
	b.lo	.LBB38_1018
	ldr	x10, [sp, #752]
	mov	w12, #33840
	lsr	x11, x8, #24
	add	x9, x10, x9
	lsr	x10, x8, #16
	sturh	w12, [x9, #-6]
	lsr	x12, x8, #8
	sturb	w11, [x9, #-4]
	sturb	w10, [x9, #-3]
	sturb	w12, [x9, #-2]
	b	.LBB38_696
.LBB38_829:
	mov	w26, #1
.LBB38_830:
	subs	x9, x8, #2
	b.lo	.LBB38_855
	mov	x27, x10
	ldrb	w11, [x27], #2
	cmp	w11, #2
	b.ne	.LBB38_855
	ldrsb	w11, [x10, #1]
	tbnz	w11, #31, .LBB38_835
	and	x22, x11, #0xff
	subs	x9, x9, x22
	b.lo	.LBB38_855
	add	x10, x27, x22
	b	.LBB38_857
.LBB38_835:
	and	w11, w11, #0xff
	cmp	w11, #130
	b.ne	.LBB38_850
	cmp	x9, #1
	b.ls	.LBB38_855
	ldrb	w9, [x10, #2]
	cbz	x9, .LBB38_855
	ldrb	w11, [x10, #3]
	orr	x22, x11, x9, lsl #8
	sub	x9, x8, #4
	subs	x9, x9, x22
	b.lo	.LBB38_855
	add	x27, x10, #4
	add	x10, x27, x22
	b	.LBB38_858
.LBB38_840:
	mov	x9, #-9223372036854775807
	ldr	x4, [sp, #128]
	cmp	x19, x9
	b.eq	.LBB38_547
	add	x10, sp, #472
	ldrb	w9, [sp, #487]
	ldr	x3, [sp, #112]
	ldur	w10, [x10, #11]
	adrp	x0, .Lanon.31
	add	x0, x0, :lo12:.Lanon.31
	mov	w1, #9
	orr	x9, x10, x9, lsl #32
	orr	x20, x8, x9, lsl #24
	mov	x2, x20
	bl	_RNvNtNtNtCs00000000001_10pkcs1_tool4tool13pkcs1_program17parameter_answers13put_spellings
	add	x22, x20, #8
	mov	w21, w0
	b	.LBB38_843
.LBB38_842:
	ldr	x8, [sp, #112]
	add	x22, x22, #24
	subs	x8, x8, #1
	str	x8, [sp, #112]
	b.eq	.LBB38_888
.LBB38_843:
	ldur	x8, [x22, #-8]
	cbz	x8, .LBB38_842
	ldr	x0, [x22]
	bl	free
	mov	w0, w21
	b	.LBB38_842
.LBB38_845:
	mov	x9, #-9223372036854775807
	ldr	x4, [sp, #128]
	cmp	x19, x9
	b.eq	.LBB38_547
	add	x10, sp, #472
	ldrb	w9, [sp, #487]
	adrp	x0, .Lanon.32
	add	x0, x0, :lo12:.Lanon.32
	ldur	w10, [x10, #11]
	mov	w1, #10
	mov	x3, x20
	orr	x9, x10, x9, lsl #32
	orr	x21, x8, x9, lsl #24
	mov	x2, x21
	bl	_RNvNtNtNtCs00000000001_10pkcs1_tool4tool13pkcs1_program17parameter_answers13put_spellings
	add	x23, x21, #8
	mov	w22, w0
	b	.LBB38_848
.LBB38_847:
	subs	x20, x20, #1
	add	x23, x23, #24
	b.eq	.LBB38_890
.LBB38_848:
	ldur	x8, [x23, #-8]
	cbz	x8, .LBB38_847
	ldr	x0, [x23]
	bl	free
	mov	w0, w22
	b	.LBB38_847
.LBB38_850:
	cbz	x9, .LBB38_855
	cmp	w11, #129
	b.ne	.LBB38_855
	ldrsb	w9, [x27]
	tbz	w9, #31, .LBB38_855
	sub	x11, x8, #3
	and	x22, x9, #0xff
	subs	x9, x11, x22
	b.lo	.LBB38_855
	add	x27, x10, #3
	add	x10, x27, x22
	b	.LBB38_858
.LBB38_855:
	mov	x19, x1
	mov	x21, x2
	add	x0, sp, #512
	mov	x1, x10
	mov	x2, x8
	mov	w3, #2
	bl	_RNvNtNtNtCs00000000001_10pkcs1_tool6proved8der_core5split14split_unlikely
	ldr	x27, [sp, #512]
	cbz	x27, .LBB38_83
	ldr	x22, [sp, #520]
	ldr	x10, [sp, #528]
	mov	x2, x21
	ldr	x9, [sp, #536]
	mov	x1, x19
.LBB38_857:
	cbz	x22, .LBB38_83
.LBB38_858:
	ldrsb	w8, [x27]
	cbz	w8, .LBB38_860
	tbz	w8, #31, .LBB38_878
	b	.LBB38_83
.LBB38_860:
	subs	x22, x22, #1
	b.eq	.LBB38_877
	ldrsb	w8, [x27, #1]!
	tbz	w8, #31, .LBB38_83
	b	.LBB38_878
.LBB38_862:
	str	x9, [sp, #208]
	mov	w9, #1
	str	x8, [sp, #224]
.LBB38_863:
	add	x0, sp, #752
	add	x3, sp, #208
	mov	w1, #1
	mov	x2, x22
	str	x9, [sp, #216]
	bl	_RINvNtCs00000000000_5alloc7raw_vec11finish_growNtNtB4_5alloc6GlobalECs00000000001_10pkcs1_tool
	ldr	w8, [sp, #752]
	cmp	w8, #1
	b.eq	.LBB38_547
	ldr	x9, [sp, #760]
	mov	x0, x27
	mov	x1, x19
	stp	x22, x9, [x29]
	b	.LBB38_159
.LBB38_865:
	mov	w10, #2
.LBB38_866:
	mov	x19, x1
	mov	x20, x2
	add	x0, sp, #512
	mov	x1, x8
	mov	x2, x10
	mov	w3, #2
	bl	_RNvNtNtNtCs00000000001_10pkcs1_tool6proved8der_core5split14split_unlikely
	ldr	x11, [sp, #512]
	cbz	x11, .LBB38_83
	ldr	x12, [sp, #520]
	ldr	x10, [sp, #528]
	mov	x2, x20
	ldr	x9, [sp, #536]
	mov	x1, x19
	cbnz	x12, .LBB38_65
	b	.LBB38_83
.LBB38_868:
	mov	w9, #2
.LBB38_869:
	mov	x19, x1
	mov	x20, x2
	add	x0, sp, #512
	mov	x1, x8
	mov	x2, x9
	mov	w3, #2
	bl	_RNvNtNtNtCs00000000001_10pkcs1_tool6proved8der_core5split14split_unlikely
	ldr	x12, [sp, #512]
	cbz	x12, .LBB38_83
	ldr	x13, [sp, #520]
	ldr	x11, [sp, #528]
	mov	x2, x20
	ldr	x10, [sp, #536]
	mov	x1, x19
	cmp	x13, #1
	b.eq	.LBB38_42
	b	.LBB38_83
.LBB38_871:
	str	xzr, [sp, #120]
	mov	x13, xzr
	mov	x12, xzr
	b	.LBB38_912
.LBB38_872:
	mov	x0, xzr
	add	x11, x26, #1
	b	.LBB38_874
.LBB38_873:
	add	x0, x0, #1
	add	x11, x11, #1
	cmp	x10, x0
	b.eq	.LBB38_812
.LBB38_874:
	ldrb	w12, [x11]
	cmp	w12, #128
	b.ne	.LBB38_873
	cmp	x0, x25
	b.hs	.LBB38_1288
	ldursb	w12, [x11, #-1]
	tbnz	w12, #31, .LBB38_873
	b	.LBB38_83
.LBB38_877:
	mov	w22, #1
.LBB38_878:
	subs	x8, x9, #2
	b.lo	.LBB38_898
	mov	x21, x10
	ldrb	w11, [x21], #2
	cmp	w11, #2
	b.ne	.LBB38_898
	ldrsb	w11, [x10, #1]
	tbnz	w11, #31, .LBB38_883
	and	x12, x11, #0xff
	subs	x8, x8, x12
	b.lo	.LBB38_898
	add	x10, x21, x12
	b	.LBB38_900
.LBB38_883:
	and	w11, w11, #0xff
	cmp	w11, #130
	b.ne	.LBB38_893
	cmp	x8, #1
	b.ls	.LBB38_898
	ldrb	w8, [x10, #2]
	cbz	x8, .LBB38_898
	ldrb	w11, [x10, #3]
	orr	x12, x11, x8, lsl #8
	sub	x8, x9, #4
	subs	x8, x8, x12
	b.lo	.LBB38_898
	add	x21, x10, #4
	add	x10, x21, x12
	b	.LBB38_901
.LBB38_888:
	cbz	x19, .LBB38_550
	mov	x0, x20
	bl	free
	mov	w0, w21
	b	.LBB38_550
.LBB38_890:
	cbz	x19, .LBB38_550
	mov	x0, x21
	bl	free
	mov	w0, w22
	b	.LBB38_550
.LBB38_892:
	mov	w1, #39
	brk	#0x1
.LBB38_893:
	cbz	x8, .LBB38_898
	cmp	w11, #129
	b.ne	.LBB38_898
	ldrsb	w8, [x21]
	tbz	w8, #31, .LBB38_898
	sub	x11, x9, #3
	and	x12, x8, #0xff
	subs	x8, x11, x12
	b.lo	.LBB38_898
	add	x21, x10, #3
	add	x10, x21, x12
	b	.LBB38_901
.LBB38_898:
	mov	x19, x1
	mov	x25, x2
	add	x0, sp, #512
	mov	x1, x10
	mov	x2, x9
	mov	w3, #2
	bl	_RNvNtNtNtCs00000000001_10pkcs1_tool6proved8der_core5split14split_unlikely
	ldr	x21, [sp, #512]
	cbz	x21, .LBB38_83
	ldr	x12, [sp, #520]
	ldr	x10, [sp, #528]
	mov	x2, x25
	ldr	x8, [sp, #536]
	mov	x1, x19
.LBB38_900:
	cbz	x12, .LBB38_83
.LBB38_901:
	ldrsb	w9, [x21]
	cbz	w9, .LBB38_903
	tbz	w9, #31, .LBB38_951
	b	.LBB38_83
.LBB38_903:
	subs	x12, x12, #1
	b.eq	.LBB38_950
	ldrsb	w9, [x21, #1]!
	tbz	w9, #31, .LBB38_83
	b	.LBB38_951
.LBB38_905:
	and	w10, w10, #0xff
	cmp	w10, #130
	b.ne	.LBB38_980
	cmp	x9, #1
	b.ls	.LBB38_984
	ldrb	w9, [x8, #2]
	cbz	x9, .LBB38_984
	ldrb	w10, [x8, #3]
	orr	x10, x10, x9, lsl #8
	sub	x9, x24, #4
.LBB38_909:
	subs	x9, x9, x10
	str	x10, [sp, #120]
	b.lo	.LBB38_984
.LBB38_910:
	cbnz	x9, .LBB38_83
.LBB38_911:
	ldr	x8, [sp, #120]
	and	x12, x8, #0xffffffffff000000
	and	x13, x8, #0xffff00
.LBB38_912:
	subs	x8, x20, #2
	stp	x13, x12, [sp, #104]
	b.lo	.LBB38_966
	mov	x10, x21
	ldrb	w9, [x10], #2
	cmp	w9, #4
	b.ne	.LBB38_966
	ldrsb	w9, [x21, #1]
	tbnz	w9, #31, .LBB38_916
	and	x9, x9, #0xff
	subs	x8, x8, x9
	b.hs	.LBB38_921
	b	.LBB38_966
.LBB38_916:
	and	w9, w9, #0xff
	cmp	w9, #130
	b.ne	.LBB38_961
	cmp	x8, #1
	b.ls	.LBB38_966
	ldrb	w8, [x21, #2]
	cbz	x8, .LBB38_966
	ldrb	w9, [x21, #3]
	orr	x9, x9, x8, lsl #8
	sub	x8, x20, #4
	subs	x8, x8, x9
	b.lo	.LBB38_966
	add	x10, x21, #4
.LBB38_921:
	mov	x20, x9
	add	x9, x10, x9
.LBB38_922:
	mov	x22, x10
	cbz	x8, .LBB38_928
	ldrb	w10, [x9]
	cmp	w10, #160
	b.ne	.LBB38_83
	cmp	x8, #1
	b.eq	.LBB38_1025
	ldrsb	w11, [x9, #1]
	add	x10, x9, #2
	str	x10, [sp, #96]
	sub	x10, x8, #2
	tbnz	w11, #31, .LBB38_986
	and	x21, x11, #0xff
	subs	x10, x10, x21
	b.lo	.LBB38_1025
	cbnz	x10, .LBB38_83
	b	.LBB38_929
.LBB38_928:
	str	xzr, [sp, #96]
.LBB38_929:
	cbnz	x23, .LBB38_83
	movi	v0.2d, #0000000000000000
	cmp	x25, #40
	stp	x1, x2, [sp, #72]
	stur	xzr, [x28, #31]
	stp	q0, q0, [x28]
	b.hs	.LBB38_1215
	add	x0, sp, #512
	mov	x1, x26
	mov	x2, x25
	bl	memcpy
	cmp	x25, #4
	b.lo	.LBB38_83
	ldrb	w8, [sp, #512]
	cmp	w8, #42
	b.ne	.LBB38_83
	ldrb	w8, [sp, #513]
	cmp	w8, #134
	b.ne	.LBB38_83
	ldrb	w8, [sp, #514]
	cmp	w8, #72
	b.ne	.LBB38_83
	cmp	x25, #9
	b.ne	.LBB38_83
	ldrb	w8, [sp, #515]
	cmp	w8, #134
	b.ne	.LBB38_83
	ldrb	w8, [sp, #516]
	cmp	w8, #247
	b.ne	.LBB38_83
	ldrb	w8, [sp, #517]
	cmp	w8, #13
	b.ne	.LBB38_83
	cbz	x24, .LBB38_83
	ldrb	w8, [sp, #518]
	cmp	w8, #1
	b.ne	.LBB38_83
	ldrb	w8, [sp, #519]
	cmp	w8, #1
	b.ne	.LBB38_83
	ldrb	w8, [sp, #520]
	cmp	w8, #1
	b.ne	.LBB38_83
	and	x8, x27, #0xff
	cmp	x8, #5
	b.ne	.LBB38_83
	ldp	x9, x8, [sp, #112]
	ldr	x10, [sp, #104]
	and	x8, x8, #0xff
	orr	x9, x10, x9
	orr	x8, x8, x9
	cbnz	x8, .LBB38_83
	lsr	x8, x20, #32
	cbnz	x8, .LBB38_83
	subs	x8, x20, #2
	b.lo	.LBB38_1131
	mov	x1, x22
	ldrb	w9, [x1], #2
	cmp	w9, #48
	b.ne	.LBB38_1131
	ldrsb	w9, [x22, #1]
	tbnz	w9, #31, .LBB38_1105
	and	x2, x9, #0xff
	subs	x25, x8, x2
	b.hs	.LBB38_1133
	b	.LBB38_1131
.LBB38_950:
	mov	w12, #1
.LBB38_951:
	subs	x9, x8, #2
	b.lo	.LBB38_973
	mov	x13, x10
	ldrb	w11, [x13], #2
	cmp	w11, #2
	b.ne	.LBB38_973
	ldrsb	w11, [x10, #1]
	tbnz	w11, #31, .LBB38_956
	and	x14, x11, #0xff
	subs	x9, x9, x14
	b.lo	.LBB38_973
	add	x10, x13, x14
	b	.LBB38_975
.LBB38_956:
	and	w11, w11, #0xff
	cmp	w11, #130
	b.ne	.LBB38_968
	cmp	x9, #1
	b.ls	.LBB38_973
	ldrb	w9, [x10, #2]
	cbz	x9, .LBB38_973
	ldrb	w11, [x10, #3]
	orr	x14, x11, x9, lsl #8
	sub	x9, x8, #4
	subs	x9, x9, x14
	b.lo	.LBB38_973
	add	x13, x10, #4
	add	x10, x13, x14
	b	.LBB38_976
.LBB38_961:
	cbz	x8, .LBB38_966
	cmp	w9, #129
	b.ne	.LBB38_966
	ldrsb	w8, [x10]
	tbz	w8, #31, .LBB38_966
	sub	x9, x20, #3
	and	x11, x8, #0xff
	subs	x8, x9, x11
	b.lo	.LBB38_966
	add	x10, x21, #3
	mov	x20, x11
	add	x9, x10, x11
	b	.LBB38_922
.LBB38_966:
	mov	x19, x1
	mov	x22, x2
	add	x0, sp, #512
	mov	x1, x21
	mov	x2, x20
	mov	w3, #4
	bl	_RNvNtNtNtCs00000000001_10pkcs1_tool6proved8der_core5split14split_unlikely
	ldr	x10, [sp, #512]
	cbz	x10, .LBB38_83
	ldr	x20, [sp, #520]
	ldr	x9, [sp, #528]
	mov	x2, x22
	ldr	x8, [sp, #536]
	mov	x1, x19
	b	.LBB38_922
.LBB38_968:
	cbz	x9, .LBB38_973
	cmp	w11, #129
	b.ne	.LBB38_973
	ldrsb	w9, [x13]
	tbz	w9, #31, .LBB38_973
	sub	x11, x8, #3
	and	x14, x9, #0xff
	subs	x9, x11, x14
	b.lo	.LBB38_973
	add	x13, x10, #3
	add	x10, x13, x14
	b	.LBB38_976
.LBB38_973:
	mov	x19, x1
	mov	x25, x2
	add	x0, sp, #512
	mov	x1, x10
	mov	x2, x8
	mov	w3, #2
	str	x12, [sp, #120]
	bl	_RNvNtNtNtCs00000000001_10pkcs1_tool6proved8der_core5split14split_unlikely
	ldr	x13, [sp, #512]
	cbz	x13, .LBB38_83
	ldr	x14, [sp, #520]
	ldr	x10, [sp, #528]
	mov	x2, x25
	ldr	x9, [sp, #536]
	ldr	x12, [sp, #120]
	mov	x1, x19
.LBB38_975:
	cbz	x14, .LBB38_83
.LBB38_976:
	ldrsb	w8, [x13]
	cbz	w8, .LBB38_978
	tbz	w8, #31, .LBB38_993
	b	.LBB38_83
.LBB38_978:
	subs	x14, x14, #1
	b.eq	.LBB38_992
	ldrsb	w8, [x13, #1]!
	tbz	w8, #31, .LBB38_83
	b	.LBB38_993
.LBB38_980:
	cbz	x9, .LBB38_984
	cmp	w10, #129
	b.ne	.LBB38_984
	ldrsb	w9, [x8, #2]
	tbz	w9, #31, .LBB38_984
	sub	x10, x24, #3
	and	x9, x9, #0xff
	str	x9, [sp, #120]
	subs	x9, x10, x9
	b.hs	.LBB38_910
.LBB38_984:
	mov	x19, x1
	mov	x22, x2
	add	x0, sp, #512
	mov	x1, x8
	mov	x2, x24
	mov	w3, w27
	bl	_RNvNtNtNtCs00000000001_10pkcs1_tool6proved8der_core5split14split_unlikely
	ldr	x8, [sp, #512]
	cbz	x8, .LBB38_83
	ldr	x8, [sp, #520]
	ldr	x9, [sp, #536]
	mov	x2, x22
	mov	x1, x19
	str	x8, [sp, #120]
	cbnz	x9, .LBB38_83
	b	.LBB38_911
.LBB38_986:
	and	w11, w11, #0xff
	cmp	w11, #130
	b.ne	.LBB38_1019
	cmp	x10, #1
	b.ls	.LBB38_1025
	ldrb	w10, [x9, #2]
	cbz	x10, .LBB38_1025
	ldrb	w11, [x9, #3]
	orr	x21, x11, x10, lsl #8
	sub	x10, x8, #4
	subs	x10, x10, x21
	b.lo	.LBB38_1025
	cbnz	x10, .LBB38_83
	add	x8, x9, #4
	str	x8, [sp, #96]
	b	.LBB38_929
.LBB38_992:
	mov	w14, #1
.LBB38_993:
	subs	x8, x9, #2
	b.lo	.LBB38_1011
	mov	x15, x10
	ldrb	w11, [x15], #2
	cmp	w11, #2
	b.ne	.LBB38_1011
	ldrsb	w11, [x10, #1]
	tbnz	w11, #31, .LBB38_998
	and	x11, x11, #0xff
	subs	x8, x8, x11
	b.lo	.LBB38_1011
	add	x10, x15, x11
	b	.LBB38_1013
.LBB38_998:
	and	w11, w11, #0xff
	cmp	w11, #130
	b.ne	.LBB38_1006
	cmp	x8, #1
	b.ls	.LBB38_1011
	ldrb	w8, [x10, #2]
	cbz	x8, .LBB38_1011
	ldrb	w11, [x10, #3]
	orr	x11, x11, x8, lsl #8
	sub	x8, x9, #4
	subs	x8, x8, x11
	b.lo	.LBB38_1011
	add	x15, x10, #4
	str	x11, [sp, #112]
	add	x10, x15, x11
	b	.LBB38_1014
.LBB38_1003:
	mov	w9, #2
.LBB38_1004:
	mov	x19, x1
	mov	x22, x2
	add	x0, sp, #512
	mov	x1, x8
	mov	x2, x9
	mov	w3, #6
	bl	_RNvNtNtNtCs00000000001_10pkcs1_tool6proved8der_core5split14split_unlikely
	ldr	x26, [sp, #512]
	cbz	x26, .LBB38_83
	ldr	x25, [sp, #520]
	ldr	x8, [sp, #528]
	mov	x2, x22
	ldr	x24, [sp, #536]
	mov	x1, x19
	sub	x10, x25, #1
	cmp	x10, #38
	b.hi	.LBB38_83
	b	.LBB38_797
.LBB38_1006:
	cbz	x8, .LBB38_1011
	cmp	w11, #129
	b.ne	.LBB38_1011
	ldrsb	w8, [x15]
	tbz	w8, #31, .LBB38_1011
	sub	x11, x9, #3
	and	x16, x8, #0xff
	subs	x8, x11, x16
	b.lo	.LBB38_1011
	add	x15, x10, #3
	str	x16, [sp, #112]
	add	x10, x15, x16
	b	.LBB38_1014
.LBB38_1011:
	mov	x19, x1
	mov	x25, x2
	add	x0, sp, #512
	mov	x1, x10
	mov	x2, x9
	mov	w3, #2
	stp	x14, x13, [sp, #88]
	str	x12, [sp, #120]
	bl	_RNvNtNtNtCs00000000001_10pkcs1_tool6proved8der_core5split14split_unlikely
	ldr	x8, [sp, #512]
	cbz	x8, .LBB38_83
	ldp	x14, x13, [sp, #88]
	mov	x15, x8
	ldr	x11, [sp, #520]
	ldr	x10, [sp, #528]
	mov	x2, x25
	ldr	x8, [sp, #536]
	ldr	x12, [sp, #120]
	mov	x1, x19
.LBB38_1013:
	str	x11, [sp, #112]
	cbz	x11, .LBB38_83
.LBB38_1014:
	ldrsb	w9, [x15]
	cbz	w9, .LBB38_1016
	tbz	w9, #31, .LBB38_1029
	b	.LBB38_83
.LBB38_1016:
	ldr	x9, [sp, #112]
	subs	x9, x9, #1
	str	x9, [sp, #112]
	b.eq	.LBB38_1028
	ldrsb	w9, [x15, #1]!
	tbz	w9, #31, .LBB38_83
	b	.LBB38_1029
.LBB38_1018:
	brk	#0x1
.LBB38_1019:
	cbz	x10, .LBB38_1025
	cmp	w11, #129
	b.ne	.LBB38_1025
	ldr	x10, [sp, #96]
	ldrsb	w10, [x10]
	tbz	w10, #31, .LBB38_1025
	sub	x11, x8, #3
	and	x21, x10, #0xff
	subs	x10, x11, x21
	b.lo	.LBB38_1025
	cbnz	x10, .LBB38_83
	add	x8, x9, #3
	str	x8, [sp, #96]
	b	.LBB38_929
.LBB38_1025:
	mov	x19, x1
	mov	x21, x2
	add	x0, sp, #512
	mov	x1, x9
	mov	x2, x8
	mov	w3, #160
	bl	_RNvNtNtNtCs00000000001_10pkcs1_tool6proved8der_core5split14split_unlikely
	ldr	x8, [sp, #512]
	str	x8, [sp, #96]
	cbz	x8, .LBB38_83
	ldr	x8, [sp, #536]
	cbnz	x8, .LBB38_83
	mov	x2, x21
	ldr	x21, [sp, #520]
	mov	x1, x19
	b	.LBB38_929
.LBB38_1028:
	mov	w9, #1
	str	x9, [sp, #112]
.LBB38_1029:
	subs	x9, x8, #2
	str	x15, [sp, #56]
	b.lo	.LBB38_1044
	mov	x15, x10
	ldrb	w11, [x15], #2
	str	x15, [sp, #104]
	cmp	w11, #2
	b.ne	.LBB38_1044
	ldrsb	w11, [x10, #1]
	tbnz	w11, #31, .LBB38_1034
	and	x11, x11, #0xff
	subs	x9, x9, x11
	b.lo	.LBB38_1044
	ldr	x8, [sp, #104]
	add	x8, x8, x11
	b	.LBB38_1046
.LBB38_1034:
	and	w11, w11, #0xff
	cmp	w11, #130
	b.ne	.LBB38_1039
	cmp	x9, #1
	b.ls	.LBB38_1044
	ldrb	w9, [x10, #2]
	cbz	x9, .LBB38_1044
	ldrb	w11, [x10, #3]
	orr	x11, x11, x9, lsl #8
	sub	x9, x8, #4
	subs	x9, x9, x11
	b.lo	.LBB38_1044
	add	x8, x10, #4
	str	x11, [sp, #64]
	str	x8, [sp, #104]
	add	x8, x8, x11
	b	.LBB38_1047
.LBB38_1039:
	cbz	x9, .LBB38_1044
	cmp	w11, #129
	b.ne	.LBB38_1044
	ldr	x9, [sp, #104]
	ldrsb	w9, [x9]
	tbz	w9, #31, .LBB38_1044
	sub	x11, x8, #3
	and	x15, x9, #0xff
	subs	x9, x11, x15
	b.lo	.LBB38_1044
	add	x8, x10, #3
	str	x15, [sp, #64]
	str	x8, [sp, #104]
	add	x8, x8, x15
	b	.LBB38_1047
.LBB38_1044:
	mov	x19, x1
	mov	x25, x2
	add	x0, sp, #512
	mov	x1, x10
	mov	x2, x8
	mov	w3, #2
	stp	x14, x13, [sp, #88]
	str	x12, [sp, #120]
	bl	_RNvNtNtNtCs00000000001_10pkcs1_tool6proved8der_core5split14split_unlikely
	ldr	x8, [sp, #512]
	str	x8, [sp, #104]
	cbz	x8, .LBB38_83
	ldp	x14, x13, [sp, #88]
	mov	x2, x25
	ldr	x11, [sp, #520]
	ldr	x8, [sp, #528]
	mov	x1, x19
	ldr	x9, [sp, #536]
	ldr	x12, [sp, #120]
.LBB38_1046:
	str	x11, [sp, #64]
	cbz	x11, .LBB38_83
.LBB38_1047:
	ldr	x10, [sp, #104]
	str	x12, [sp, #120]
	stp	x14, x13, [sp, #88]
	ldrsb	w10, [x10]
	stp	x1, x2, [sp, #72]
	cbz	w10, .LBB38_1049
	tbz	w10, #31, .LBB38_1059
	b	.LBB38_83
.LBB38_1049:
	ldr	x10, [sp, #64]
	subs	x10, x10, #1
	str	x10, [sp, #64]
	b.eq	.LBB38_1058
	ldr	x11, [sp, #104]
	ldrsb	w10, [x11, #1]!
	str	x11, [sp, #104]
	tbz	w10, #31, .LBB38_83
	b	.LBB38_1059
.LBB38_1051:
	ldr	x8, [x29, #8]
	str	x23, [sp, #768]
	str	x8, [sp, #752]
	mov	w8, #1
.LBB38_1052:
	add	x0, sp, #472
	add	x3, sp, #752
	mov	w1, #1
	mov	x2, x21
	str	x8, [sp, #760]
	bl	_RINvNtCs00000000000_5alloc7raw_vec11finish_growNtNtB4_5alloc6GlobalECs00000000001_10pkcs1_tool
	ldr	w8, [sp, #472]
	cmp	w8, #1
	b.eq	.LBB38_547
	ldr	x8, [sp, #480]
	stp	x21, x8, [x29]
.LBB38_1054:
	cmp	x23, x21
	add	w19, w26, w27
	b.ne	.LBB38_1056
	mov	x0, x29
	bl	_ZN5alloc7raw_vec19RawVec$LT$T$C$A$GT$8grow_one17h0000000000000003E
.LBB38_1056:
	ldr	x8, [x29, #8]
	add	x10, x23, #1
	mov	w9, #49
	add	w0, w25, w19
	mov	x1, x20
	mov	x2, x22
	strb	w9, [x8, x23]
	str	x10, [x29, #16]
.LBB38_1057:
	mov	x3, x29
	bl	_RNvNtNtNtCs00000000001_10pkcs1_tool4tool13pkcs1_program14parameter_text12put_spelling
	b	.LBB38_550
.LBB38_1058:
	mov	w10, #1
	str	x10, [sp, #64]
.LBB38_1059:
	subs	x10, x9, #2
	b.lo	.LBB38_1074
	mov	x25, x8
	ldrb	w11, [x25], #2
	cmp	w11, #2
	b.ne	.LBB38_1074
	ldrsb	w11, [x8, #1]
	tbnz	w11, #31, .LBB38_1064
	and	x11, x11, #0xff
	subs	x2, x10, x11
	b.lo	.LBB38_1074
	mov	x19, x11
	add	x1, x25, x11
	b	.LBB38_1076
.LBB38_1064:
	and	w11, w11, #0xff
	cmp	w11, #130
	b.ne	.LBB38_1069
	cmp	x10, #1
	b.ls	.LBB38_1074
	ldrb	w10, [x8, #2]
	cbz	x10, .LBB38_1074
	ldrb	w11, [x8, #3]
	orr	x11, x11, x10, lsl #8
	sub	x10, x9, #4
	subs	x2, x10, x11
	b.lo	.LBB38_1074
	add	x25, x8, #4
	mov	x19, x11
	add	x1, x25, x11
	b	.LBB38_1077
.LBB38_1069:
	cbz	x10, .LBB38_1074
	cmp	w11, #129
	b.ne	.LBB38_1074
	ldrsb	w10, [x25]
	tbz	w10, #31, .LBB38_1074
	sub	x11, x9, #3
	and	x10, x10, #0xff
	subs	x2, x11, x10
	b.lo	.LBB38_1074
	add	x25, x8, #3
	mov	x19, x10
	add	x1, x25, x10
	b	.LBB38_1077
.LBB38_1074:
	add	x0, sp, #512
	mov	x1, x8
	mov	x2, x9
	mov	w3, #2
	bl	_RNvNtNtNtCs00000000001_10pkcs1_tool6proved8der_core5split14split_unlikely
	ldr	x25, [sp, #512]
	cbz	x25, .LBB38_83
	ldr	x19, [sp, #520]
	ldr	x1, [sp, #528]
	ldr	x2, [sp, #536]
.LBB38_1076:
	cbz	x19, .LBB38_83
.LBB38_1077:
	ldrsb	w8, [x25]
	cbz	w8, .LBB38_1079
	tbz	w8, #31, .LBB38_1082
	b	.LBB38_83
.LBB38_1079:
	subs	x19, x19, #1
	b.eq	.LBB38_1081
	ldrsb	w8, [x25, #1]!
	tbz	w8, #31, .LBB38_83
	b	.LBB38_1082
.LBB38_1081:
	mov	w19, #1
.LBB38_1082:
	subs	x8, x2, #2
	b.lo	.LBB38_1098
	mov	x10, x1
	ldrb	w9, [x10], #2
	str	x10, [sp, #48]
	cmp	w9, #2
	b.ne	.LBB38_1098
	ldrsb	w9, [x1, #1]
	tbnz	w9, #31, .LBB38_1087
	and	x9, x9, #0xff
	subs	x8, x8, x9
	str	x9, [sp, #40]
	b.lo	.LBB38_1098
	ldp	x10, x9, [sp, #40]
	add	x1, x9, x10
	b	.LBB38_1100
.LBB38_1087:
	and	w9, w9, #0xff
	cmp	w9, #130
	b.ne	.LBB38_1092
	cmp	x8, #1
	b.ls	.LBB38_1098
	ldrb	w8, [x1, #2]
	cbz	x8, .LBB38_1098
	ldrb	w9, [x1, #3]
	orr	x9, x9, x8, lsl #8
	sub	x8, x2, #4
	subs	x8, x8, x9
	str	x9, [sp, #40]
	b.lo	.LBB38_1098
	add	x9, x1, #4
	b	.LBB38_1097
.LBB38_1092:
	cbz	x8, .LBB38_1098
	cmp	w9, #129
	b.ne	.LBB38_1098
	ldr	x8, [sp, #48]
	ldrsb	w8, [x8]
	tbz	w8, #31, .LBB38_1098
	sub	x9, x2, #3
	and	x8, x8, #0xff
	str	x8, [sp, #40]
	subs	x8, x9, x8
	b.lo	.LBB38_1098
	add	x9, x1, #3
.LBB38_1097:
	ldr	x10, [sp, #40]
	str	x9, [sp, #48]
	add	x1, x9, x10
	b	.LBB38_1101
.LBB38_1098:
	add	x0, sp, #512
	mov	w3, #2
	bl	_RNvNtNtNtCs00000000001_10pkcs1_tool6proved8der_core5split14split_unlikely
	ldr	x8, [sp, #512]
	str	x8, [sp, #48]
	cbz	x8, .LBB38_83
	ldr	x8, [sp, #520]
	ldr	x1, [sp, #528]
	str	x8, [sp, #40]
	ldr	x8, [sp, #536]
.LBB38_1100:
	ldr	x9, [sp, #40]
	cbz	x9, .LBB38_83
.LBB38_1101:
	ldr	x9, [sp, #48]
	ldrsb	w9, [x9]
	cbz	w9, .LBB38_1103
	tbz	w9, #31, .LBB38_1111
	b	.LBB38_83
.LBB38_1103:
	ldr	x9, [sp, #40]
	subs	x9, x9, #1
	str	x9, [sp, #40]
	b.eq	.LBB38_1110
	ldr	x10, [sp, #48]
	ldrsb	w9, [x10, #1]!
	str	x10, [sp, #48]
	tbz	w9, #31, .LBB38_83
	b	.LBB38_1111
.LBB38_1105:
	and	w9, w9, #0xff
	cmp	w9, #130
	b.ne	.LBB38_1126
	cmp	x8, #1
	b.ls	.LBB38_1131
	ldrb	w8, [x22, #2]
	cbz	x8, .LBB38_1131
	ldrb	w9, [x22, #3]
	orr	x2, x9, x8, lsl #8
	sub	x8, x20, #4
	subs	x25, x8, x2
	b.lo	.LBB38_1131
	add	x1, x22, #4
	b	.LBB38_1134
.LBB38_1110:
	mov	w9, #1
	str	x9, [sp, #40]
.LBB38_1111:
	cbz	x8, .LBB38_1113
	add	x0, sp, #512
	mov	x2, x8
	mov	w3, w20
	b	.LBB38_1115
.LBB38_1113:
	cbz	w20, .LBB38_1117
	add	x0, sp, #512
	mov	x2, xzr
	mov	w3, #1
.LBB38_1115:
	bl	_RNvNtNtNtCs00000000001_10pkcs1_tool6proved5pkcs110viewed_key9read_list
	ldrb	w8, [sp, #512]
	cmp	w8, #1
	b.eq	.LBB38_83
	b	.LBB38_1118
.LBB38_1116:
	mov	x0, x8
	mov	w1, #39
	brk	#0x1
.LBB38_1117:
	str	xzr, [sp, #520]
.LBB38_1118:
	add	x8, sp, #472
	ldur	q0, [x8, #48]
	ldr	x8, [sp, #536]
	stur	q0, [sp, #212]
	stur	x8, [sp, #228]
	str	q0, [x28, #240]
	str	x8, [sp, #768]
	cbnz	x23, .LBB38_83
	ldr	x8, [sp, #768]
	add	x11, sp, #472
	ldr	q0, [x28, #240]
	lsr	x10, x26, #24
	str	x21, [sp, #560]
	ldr	x21, [x29, #16]
	str	x8, [sp, #672]
	ldp	x9, x8, [sp, #72]
	stur	q0, [x11, #184]
	stur	w10, [x11, #67]
	str	x8, [sp, #520]
	lsr	x8, x26, #8
	str	x9, [sp, #512]
	lsr	x9, x26, #56
	sturh	w8, [x11, #65]
	ldr	x8, [sp, #120]
	strb	w9, [sp, #543]
	str	x8, [sp, #568]
	ldp	x8, x11, [sp, #88]
	str	x24, [sp, #528]
	strb	w26, [sp, #536]
	str	x8, [sp, #584]
	ldr	x8, [sp, #56]
	str	x11, [sp, #576]
	str	x8, [sp, #592]
	ldp	x8, x11, [sp, #104]
	str	x27, [sp, #544]
	str	x22, [sp, #552]
	str	x8, [sp, #608]
	ldr	x8, [sp, #64]
	str	x11, [sp, #600]
	str	x8, [sp, #616]
	ldr	x8, [x29]
	str	x25, [sp, #624]
	sub	x9, x8, x21
	str	x19, [sp, #632]
	cmp	x9, #4
	ldp	x9, x11, [sp, #40]
	str	x11, [sp, #640]
	str	x9, [sp, #648]
	b.hs	.LBB38_1156
	cmn	x21, #5
	b.hi	.LBB38_547
	lsl	x9, x8, #1
	add	x22, x21, #4
	mov	w10, #8
	cmp	x9, x22
	csel	x9, x9, x22, hi
	cmp	x9, #8
	csel	x20, x9, x10, hi
	tbnz	x20, #63, .LBB38_547
	cbz	x8, .LBB38_1124
	ldr	x9, [x29, #8]
	str	x8, [sp, #224]
	mov	w8, #1
	str	x9, [sp, #208]
.LBB38_1124:
	add	x0, sp, #752
	add	x3, sp, #208
	mov	w1, #1
	mov	x2, x20
	str	x8, [sp, #216]
	bl	_RINvNtCs00000000000_5alloc7raw_vec11finish_growNtNtB4_5alloc6GlobalECs00000000001_10pkcs1_tool
	ldr	w8, [sp, #752]
	cmp	w8, #1
	b.eq	.LBB38_547
	ldr	x8, [sp, #760]
	stp	x20, x8, [x29]
	b	.LBB38_1157
.LBB38_1126:
	cbz	x8, .LBB38_1131
	cmp	w9, #129
	b.ne	.LBB38_1131
	ldrsb	w8, [x1]
	tbz	w8, #31, .LBB38_1131
	sub	x9, x20, #3
	and	x2, x8, #0xff
	subs	x25, x9, x2
	b.lo	.LBB38_1131
	add	x1, x22, #3
	b	.LBB38_1134
.LBB38_1131:
	add	x0, sp, #512
	mov	x1, x22
	mov	x2, x20
	mov	w3, #48
	bl	_RNvNtNtNtCs00000000001_10pkcs1_tool6proved8der_core5split14split_unlikely
	ldr	x1, [sp, #512]
	cbz	x1, .LBB38_83
	ldr	x2, [sp, #520]
	ldr	x25, [sp, #536]
.LBB38_1133:
	cmp	x2, #2
	b.lo	.LBB38_1212
.LBB38_1134:
	mov	x9, x1
	ldrb	w8, [x9], #2
	cmp	w8, #2
	b.ne	.LBB38_1212
	ldrsb	w10, [x1, #1]
	sub	x8, x2, #2
	tbnz	w10, #31, .LBB38_1137
	and	x10, x10, #0xff
	subs	x8, x8, x10
	b.hs	.LBB38_1147
	b	.LBB38_1212
.LBB38_1137:
	and	w10, w10, #0xff
	cmp	w10, #130
	b.ne	.LBB38_1142
	cmp	x8, #1
	b.ls	.LBB38_1212
	ldrb	w8, [x1, #2]
	cbz	x8, .LBB38_1212
	ldrb	w9, [x1, #3]
	orr	x10, x9, x8, lsl #8
	sub	x8, x2, #4
	subs	x8, x8, x10
	b.lo	.LBB38_1212
	add	x9, x1, #4
	add	x1, x9, x10
	cbnz	x10, .LBB38_1148
	b	.LBB38_83
.LBB38_1142:
	cbz	x8, .LBB38_1211
	cmp	w10, #129
	b.ne	.LBB38_1212
	ldrsb	w8, [x9]
	tbz	w8, #31, .LBB38_1212
	sub	x9, x2, #3
	and	x10, x8, #0xff
	subs	x8, x9, x10
	b.lo	.LBB38_1212
	add	x9, x1, #3
.LBB38_1147:
	add	x1, x9, x10
	cbz	x10, .LBB38_83
.LBB38_1148:
	cmp	x10, #1
	b.ne	.LBB38_1150
	ldrsb	w9, [x9]
	tbz	w9, #31, .LBB38_1153
	b	.LBB38_83
.LBB38_1150:
	ldrb	w11, [x9]
	cbnz	w11, .LBB38_83
	sub	x10, x10, #3
	cmn	x10, #2
	b.lo	.LBB38_83
	ldrsb	w9, [x9, #1]
	tbz	w9, #31, .LBB38_83
.LBB38_1153:
	cbz	w9, .LBB38_1165
	and	w9, w9, #0xff
	cmp	w9, #1
	b.ne	.LBB38_83
	str	w9, [sp, #120]
	b	.LBB38_1166
.LBB38_1156:
	ldr	x8, [x29, #8]
	add	x22, x21, #4
.LBB38_1157:
	mov	w9, #29296
	mov	x1, x29
	add	x0, sp, #512
	movk	w9, #30313, lsl #16
	str	w9, [x8, x21]
	str	x22, [x29, #16]
	bl	_RNvNtNtNtCs00000000001_10pkcs1_tool4tool13pkcs1_program4keys7put_key
	tbnz	w0, #0, .LBB38_547
	ldr	x21, [x29, #16]
	ldr	x8, [x29]
	sub	x9, x8, x21
	cmp	x9, #7
	b.hs	.LBB38_1399
.LBB38_1159:
	cmn	x21, #8
	b.hi	.LBB38_547
	lsl	x9, x8, #1
	add	x22, x21, #7
	mov	w10, #8
	cmp	x9, x22
	csel	x9, x9, x22, hi
	cmp	x9, #8
	csel	x20, x9, x10, hi
	tbnz	x20, #63, .LBB38_547
	cbz	x8, .LBB38_1163
	ldr	x9, [x29, #8]
	str	x8, [sp, #224]
	mov	w8, #1
	str	x9, [sp, #208]
.LBB38_1163:
	add	x0, sp, #752
	add	x3, sp, #208
	mov	w1, #1
	mov	x2, x20
	str	x8, [sp, #216]
	bl	_RINvNtCs00000000000_5alloc7raw_vec11finish_growNtNtB4_5alloc6GlobalECs00000000001_10pkcs1_tool
	ldr	w8, [sp, #752]
	cmp	w8, #1
	b.eq	.LBB38_547
	ldr	x8, [sp, #760]
	stp	x20, x8, [x29]
	b	.LBB38_1400
.LBB38_1165:
	str	wzr, [sp, #120]
.LBB38_1166:
	subs	x9, x8, #2
	b.lo	.LBB38_1181
	mov	x26, x1
	ldrb	w10, [x26], #2
	cmp	w10, #2
	b.ne	.LBB38_1181
	ldrsb	w10, [x1, #1]
	tbnz	w10, #31, .LBB38_1171
	and	x27, x10, #0xff
	subs	x2, x9, x27
	b.lo	.LBB38_1181
	add	x1, x26, x27
	b	.LBB38_1183
.LBB38_1171:
	and	w10, w10, #0xff
	cmp	w10, #130
	b.ne	.LBB38_1176
	cmp	x9, #1
	b.ls	.LBB38_1181
	ldrb	w9, [x1, #2]
	cbz	x9, .LBB38_1181
	ldrb	w10, [x1, #3]
	orr	x27, x10, x9, lsl #8
	sub	x9, x8, #4
	subs	x2, x9, x27
	b.lo	.LBB38_1181
	add	x26, x1, #4
	add	x1, x26, x27
	b	.LBB38_1184
.LBB38_1176:
	cbz	x9, .LBB38_1181
	cmp	w10, #129
	b.ne	.LBB38_1181
	ldrsb	w9, [x26]
	tbz	w9, #31, .LBB38_1181
	sub	x10, x8, #3
	and	x27, x9, #0xff
	subs	x2, x10, x27
	b.lo	.LBB38_1181
	add	x26, x1, #3
	add	x1, x26, x27
	b	.LBB38_1184
.LBB38_1181:
	add	x0, sp, #512
	mov	x2, x8
	mov	w3, #2
	bl	_RNvNtNtNtCs00000000001_10pkcs1_tool6proved8der_core5split14split_unlikely
	ldr	x26, [sp, #512]
	cbz	x26, .LBB38_83
	ldr	x27, [sp, #520]
	ldr	x1, [sp, #528]
	ldr	x2, [sp, #536]
.LBB38_1183:
	cbz	x27, .LBB38_83
.LBB38_1184:
	ldrsb	w8, [x26]
	cbz	w8, .LBB38_1186
	tbz	w8, #31, .LBB38_1189
	b	.LBB38_83
.LBB38_1186:
	subs	x27, x27, #1
	b.eq	.LBB38_1188
	ldrsb	w8, [x26, #1]!
	tbz	w8, #31, .LBB38_83
	b	.LBB38_1189
.LBB38_1188:
	mov	w27, #1
.LBB38_1189:
	subs	x8, x2, #2
	b.lo	.LBB38_1204
	mov	x19, x1
	ldrb	w9, [x19], #2
	cmp	w9, #2
	b.ne	.LBB38_1204
	ldrsb	w9, [x1, #1]
	tbnz	w9, #31, .LBB38_1194
	and	x24, x9, #0xff
	subs	x8, x8, x24
	b.lo	.LBB38_1204
	add	x1, x19, x24
	b	.LBB38_1206
.LBB38_1194:
	and	w9, w9, #0xff
	cmp	w9, #130
	b.ne	.LBB38_1199
	cmp	x8, #1
	b.ls	.LBB38_1204
	ldrb	w8, [x1, #2]
	cbz	x8, .LBB38_1204
	ldrb	w9, [x1, #3]
	orr	x24, x9, x8, lsl #8
	sub	x8, x2, #4
	subs	x8, x8, x24
	b.lo	.LBB38_1204
	add	x19, x1, #4
	add	x1, x19, x24
	b	.LBB38_1207
.LBB38_1199:
	cbz	x8, .LBB38_1204
	cmp	w9, #129
	b.ne	.LBB38_1204
	ldrsb	w8, [x19]
	tbz	w8, #31, .LBB38_1204
	sub	x9, x2, #3
	and	x24, x8, #0xff
	subs	x8, x9, x24
	b.lo	.LBB38_1204
	add	x19, x1, #3
	add	x1, x19, x24
	b	.LBB38_1207
.LBB38_1204:
	add	x0, sp, #512
	mov	w3, #2
	bl	_RNvNtNtNtCs00000000001_10pkcs1_tool6proved8der_core5split14split_unlikely
	ldr	x19, [sp, #512]
	cbz	x19, .LBB38_83
	ldr	x24, [sp, #520]
	ldr	x1, [sp, #528]
	ldr	x8, [sp, #536]
.LBB38_1206:
	cbz	x24, .LBB38_83
.LBB38_1207:
	ldrsb	w9, [x19]
	cbz	w9, .LBB38_1209
	tbz	w9, #31, .LBB38_1217
	b	.LBB38_83
.LBB38_1209:
	subs	x24, x24, #1
	b.eq	.LBB38_1216
	ldrsb	w9, [x19, #1]!
	tbz	w9, #31, .LBB38_83
	b	.LBB38_1217
.LBB38_1211:
	mov	w2, #2
.LBB38_1212:
	add	x0, sp, #512
	mov	w3, #2
	bl	_RNvNtNtNtCs00000000001_10pkcs1_tool6proved8der_core5split14split_unlikely
	ldr	x9, [sp, #512]
	cbz	x9, .LBB38_83
	ldr	x10, [sp, #520]
	ldr	x1, [sp, #528]
	ldr	x8, [sp, #536]
	cbnz	x10, .LBB38_1148
	b	.LBB38_83
.LBB38_1214:
	brk	#0x1
.LBB38_1215:
	mov	x0, x25
	mov	w1, #39
	brk	#0x1
.LBB38_1216:
	mov	w24, #1
.LBB38_1217:
	subs	x9, x8, #2
	b.lo	.LBB38_1233
	mov	x23, x1
	ldrb	w10, [x23], #2
	cmp	w10, #2
	b.ne	.LBB38_1233
	ldrsb	w10, [x1, #1]
	tbnz	w10, #31, .LBB38_1222
	and	x10, x10, #0xff
	subs	x2, x9, x10
	str	x10, [sp, #112]
	b.lo	.LBB38_1233
	ldr	x8, [sp, #112]
	add	x1, x23, x8
	b	.LBB38_1235
.LBB38_1222:
	and	w10, w10, #0xff
	cmp	w10, #130
	b.ne	.LBB38_1227
	cmp	x9, #1
	b.ls	.LBB38_1233
	ldrb	w9, [x1, #2]
	cbz	x9, .LBB38_1233
	ldrb	w10, [x1, #3]
	orr	x10, x10, x9, lsl #8
	sub	x9, x8, #4
	subs	x2, x9, x10
	str	x10, [sp, #112]
	b.lo	.LBB38_1233
	add	x8, x1, #4
	b	.LBB38_1232
.LBB38_1227:
	cbz	x9, .LBB38_1233
	cmp	w10, #129
	b.ne	.LBB38_1233
	ldrsb	w9, [x23]
	tbz	w9, #31, .LBB38_1233
	sub	x10, x8, #3
	and	x9, x9, #0xff
	subs	x2, x10, x9
	str	x9, [sp, #112]
	b.lo	.LBB38_1233
	add	x8, x1, #3
.LBB38_1232:
	ldr	x9, [sp, #112]
	mov	x23, x8
	add	x1, x8, x9
	b	.LBB38_1236
.LBB38_1233:
	add	x0, sp, #512
	mov	x2, x8
	mov	w3, #2
	bl	_RNvNtNtNtCs00000000001_10pkcs1_tool6proved8der_core5split14split_unlikely
	ldr	x8, [sp, #512]
	cbz	x8, .LBB38_83
	mov	x23, x8
	ldr	x8, [sp, #520]
	ldr	x1, [sp, #528]
	ldr	x2, [sp, #536]
	str	x8, [sp, #112]
.LBB38_1235:
	ldr	x8, [sp, #112]
	cbz	x8, .LBB38_83
.LBB38_1236:
	ldrsb	w8, [x23]
	cbz	w8, .LBB38_1238
	tbz	w8, #31, .LBB38_1241
	b	.LBB38_83
.LBB38_1238:
	ldr	x8, [sp, #112]
	subs	x8, x8, #1
	str	x8, [sp, #112]
	b.eq	.LBB38_1240
	ldrsb	w8, [x23, #1]!
	tbz	w8, #31, .LBB38_83
	b	.LBB38_1241
.LBB38_1240:
	mov	w8, #1
	str	x8, [sp, #112]
.LBB38_1241:
	subs	x8, x2, #2
	b.lo	.LBB38_1257
	mov	x10, x1
	ldrb	w9, [x10], #2
	str	x10, [sp, #104]
	cmp	w9, #2
	b.ne	.LBB38_1257
	ldrsb	w9, [x1, #1]
	tbnz	w9, #31, .LBB38_1246
	and	x9, x9, #0xff
	subs	x8, x8, x9
	str	x9, [sp, #88]
	b.lo	.LBB38_1257
	ldr	x9, [sp, #104]
	ldr	x10, [sp, #88]
	add	x1, x9, x10
	b	.LBB38_1259
.LBB38_1246:
	and	w9, w9, #0xff
	cmp	w9, #130
	b.ne	.LBB38_1251
	cmp	x8, #1
	b.ls	.LBB38_1257
	ldrb	w8, [x1, #2]
	cbz	x8, .LBB38_1257
	ldrb	w9, [x1, #3]
	orr	x9, x9, x8, lsl #8
	sub	x8, x2, #4
	subs	x8, x8, x9
	str	x9, [sp, #88]
	b.lo	.LBB38_1257
	add	x9, x1, #4
	b	.LBB38_1256
.LBB38_1251:
	cbz	x8, .LBB38_1257
	cmp	w9, #129
	b.ne	.LBB38_1257
	ldr	x8, [sp, #104]
	ldrsb	w8, [x8]
	tbz	w8, #31, .LBB38_1257
	sub	x9, x2, #3
	and	x8, x8, #0xff
	str	x8, [sp, #88]
	subs	x8, x9, x8
	b.lo	.LBB38_1257
	add	x9, x1, #3
.LBB38_1256:
	ldr	x10, [sp, #88]
	str	x9, [sp, #104]
	add	x1, x9, x10
	b	.LBB38_1260
.LBB38_1257:
	add	x0, sp, #512
	mov	w3, #2
	bl	_RNvNtNtNtCs00000000001_10pkcs1_tool6proved8der_core5split14split_unlikely
	ldr	x8, [sp, #512]
	str	x8, [sp, #104]
	cbz	x8, .LBB38_83
	ldr	x8, [sp, #520]
	ldr	x1, [sp, #528]
	str	x8, [sp, #88]
	ldr	x8, [sp, #536]
.LBB38_1259:
	ldr	x9, [sp, #88]
	cbz	x9, .LBB38_83
.LBB38_1260:
	ldr	x9, [sp, #104]
	ldrsb	w9, [x9]
	cbz	w9, .LBB38_1262
	tbz	w9, #31, .LBB38_1265
	b	.LBB38_83
.LBB38_1262:
	ldr	x9, [sp, #88]
	subs	x9, x9, #1
	str	x9, [sp, #88]
	b.eq	.LBB38_1264
	ldr	x10, [sp, #104]
	ldrsb	w9, [x10, #1]!
	str	x10, [sp, #104]
	tbz	w9, #31, .LBB38_83
	b	.LBB38_1265
.LBB38_1264:
	mov	w9, #1
	str	x9, [sp, #88]
.LBB38_1265:
	subs	x9, x8, #2
	b.lo	.LBB38_1281
	mov	x11, x1
	ldrb	w10, [x11], #2
	str	x11, [sp, #64]
	cmp	w10, #2
	b.ne	.LBB38_1281
	ldrsb	w10, [x1, #1]
	tbnz	w10, #31, .LBB38_1270
	and	x10, x10, #0xff
	subs	x2, x9, x10
	str	x10, [sp, #56]
	b.lo	.LBB38_1281
	ldp	x9, x8, [sp, #56]
	add	x1, x8, x9
	b	.LBB38_1283
.LBB38_1270:
	and	w10, w10, #0xff
	cmp	w10, #130
	b.ne	.LBB38_1275
	cmp	x9, #1
	b.ls	.LBB38_1281
	ldrb	w9, [x1, #2]
	cbz	x9, .LBB38_1281
	ldrb	w10, [x1, #3]
	orr	x10, x10, x9, lsl #8
	sub	x9, x8, #4
	subs	x2, x9, x10
	str	x10, [sp, #56]
	b.lo	.LBB38_1281
	add	x8, x1, #4
	b	.LBB38_1280
.LBB38_1275:
	cbz	x9, .LBB38_1281
	cmp	w10, #129
	b.ne	.LBB38_1281
	ldr	x9, [sp, #64]
	ldrsb	w9, [x9]
	tbz	w9, #31, .LBB38_1281
	sub	x10, x8, #3
	and	x9, x9, #0xff
	subs	x2, x10, x9
	str	x9, [sp, #56]
	b.lo	.LBB38_1281
	add	x8, x1, #3
.LBB38_1280:
	ldr	x9, [sp, #56]
	str	x8, [sp, #64]
	add	x1, x8, x9
	b	.LBB38_1284
.LBB38_1281:
	add	x0, sp, #512
	mov	x2, x8
	mov	w3, #2
	bl	_RNvNtNtNtCs00000000001_10pkcs1_tool6proved8der_core5split14split_unlikely
	ldr	x8, [sp, #512]
	str	x8, [sp, #64]
	cbz	x8, .LBB38_83
	ldr	x8, [sp, #520]
	ldr	x1, [sp, #528]
	ldr	x2, [sp, #536]
	str	x8, [sp, #56]
.LBB38_1283:
	ldr	x8, [sp, #56]
	cbz	x8, .LBB38_83
.LBB38_1284:
	ldr	x8, [sp, #64]
	ldrsb	w8, [x8]
	cbz	w8, .LBB38_1286
	tbz	w8, #31, .LBB38_1290
	b	.LBB38_83
.LBB38_1286:
	ldr	x8, [sp, #56]
	subs	x8, x8, #1
	str	x8, [sp, #56]
	b.eq	.LBB38_1289
	ldr	x9, [sp, #64]
	ldrsb	w8, [x9, #1]!
	str	x9, [sp, #64]
	tbz	w8, #31, .LBB38_83
	b	.LBB38_1290
.LBB38_1288:
	mov	x1, x25
	brk	#0x1
.LBB38_1289:
	mov	w8, #1
	str	x8, [sp, #56]
.LBB38_1290:
	subs	x8, x2, #2
	b.lo	.LBB38_1306
	mov	x10, x1
	ldrb	w9, [x10], #2
	str	x10, [sp, #48]
	cmp	w9, #2
	b.ne	.LBB38_1306
	ldrsb	w9, [x1, #1]
	tbnz	w9, #31, .LBB38_1295
	and	x9, x9, #0xff
	subs	x8, x8, x9
	str	x9, [sp, #40]
	b.lo	.LBB38_1306
	ldp	x10, x9, [sp, #40]
	add	x1, x9, x10
	b	.LBB38_1308
.LBB38_1295:
	and	w9, w9, #0xff
	cmp	w9, #130
	b.ne	.LBB38_1300
	cmp	x8, #1
	b.ls	.LBB38_1306
	ldrb	w8, [x1, #2]
	cbz	x8, .LBB38_1306
	ldrb	w9, [x1, #3]
	orr	x9, x9, x8, lsl #8
	sub	x8, x2, #4
	subs	x8, x8, x9
	str	x9, [sp, #40]
	b.lo	.LBB38_1306
	add	x9, x1, #4
	b	.LBB38_1305
.LBB38_1300:
	cbz	x8, .LBB38_1306
	cmp	w9, #129
	b.ne	.LBB38_1306
	ldr	x8, [sp, #48]
	ldrsb	w8, [x8]
	tbz	w8, #31, .LBB38_1306
	sub	x9, x2, #3
	and	x8, x8, #0xff
	str	x8, [sp, #40]
	subs	x8, x9, x8
	b.lo	.LBB38_1306
	add	x9, x1, #3
.LBB38_1305:
	ldr	x10, [sp, #40]
	str	x9, [sp, #48]
	add	x1, x9, x10
	b	.LBB38_1309
.LBB38_1306:
	add	x0, sp, #512
	mov	w3, #2
	bl	_RNvNtNtNtCs00000000001_10pkcs1_tool6proved8der_core5split14split_unlikely
	ldr	x8, [sp, #512]
	str	x8, [sp, #48]
	cbz	x8, .LBB38_83
	ldr	x8, [sp, #520]
	ldr	x1, [sp, #528]
	str	x8, [sp, #40]
	ldr	x8, [sp, #536]
.LBB38_1308:
	ldr	x9, [sp, #40]
	cbz	x9, .LBB38_83
.LBB38_1309:
	ldr	x9, [sp, #48]
	ldrsb	w9, [x9]
	cbz	w9, .LBB38_1311
	tbz	w9, #31, .LBB38_1314
	b	.LBB38_83
.LBB38_1311:
	ldr	x9, [sp, #40]
	subs	x9, x9, #1
	str	x9, [sp, #40]
	b.eq	.LBB38_1313
	ldr	x10, [sp, #48]
	ldrsb	w9, [x10, #1]!
	str	x10, [sp, #48]
	tbz	w9, #31, .LBB38_83
	b	.LBB38_1314
.LBB38_1313:
	mov	w9, #1
	str	x9, [sp, #40]
.LBB38_1314:
	subs	x9, x8, #2
	b.lo	.LBB38_1330
	mov	x11, x1
	ldrb	w10, [x11], #2
	str	x11, [sp, #32]
	cmp	w10, #2
	b.ne	.LBB38_1330
	ldrsb	w10, [x1, #1]
	tbnz	w10, #31, .LBB38_1319
	and	x10, x10, #0xff
	subs	x2, x9, x10
	str	x10, [sp, #24]
	b.lo	.LBB38_1330
	ldp	x9, x8, [sp, #24]
	add	x1, x8, x9
	b	.LBB38_1332
.LBB38_1319:
	and	w10, w10, #0xff
	cmp	w10, #130
	b.ne	.LBB38_1324
	cmp	x9, #1
	b.ls	.LBB38_1330
	ldrb	w9, [x1, #2]
	cbz	x9, .LBB38_1330
	ldrb	w10, [x1, #3]
	orr	x10, x10, x9, lsl #8
	sub	x9, x8, #4
	subs	x2, x9, x10
	str	x10, [sp, #24]
	b.lo	.LBB38_1330
	add	x8, x1, #4
	b	.LBB38_1329
.LBB38_1324:
	cbz	x9, .LBB38_1330
	cmp	w10, #129
	b.ne	.LBB38_1330
	ldr	x9, [sp, #32]
	ldrsb	w9, [x9]
	tbz	w9, #31, .LBB38_1330
	sub	x10, x8, #3
	and	x9, x9, #0xff
	subs	x2, x10, x9
	str	x9, [sp, #24]
	b.lo	.LBB38_1330
	add	x8, x1, #3
.LBB38_1329:
	ldr	x9, [sp, #24]
	str	x8, [sp, #32]
	add	x1, x8, x9
	b	.LBB38_1333
.LBB38_1330:
	add	x0, sp, #512
	mov	x2, x8
	mov	w3, #2
	bl	_RNvNtNtNtCs00000000001_10pkcs1_tool6proved8der_core5split14split_unlikely
	ldr	x8, [sp, #512]
	str	x8, [sp, #32]
	cbz	x8, .LBB38_83
	ldr	x8, [sp, #520]
	ldr	x1, [sp, #528]
	ldr	x2, [sp, #536]
	str	x8, [sp, #24]
.LBB38_1332:
	ldr	x8, [sp, #24]
	cbz	x8, .LBB38_83
.LBB38_1333:
	ldr	x8, [sp, #32]
	ldrsb	w8, [x8]
	cbz	w8, .LBB38_1335
	tbz	w8, #31, .LBB38_1338
	b	.LBB38_83
.LBB38_1335:
	ldr	x8, [sp, #24]
	subs	x8, x8, #1
	str	x8, [sp, #24]
	b.eq	.LBB38_1337
	ldr	x9, [sp, #32]
	ldrsb	w8, [x9, #1]!
	str	x9, [sp, #32]
	tbz	w8, #31, .LBB38_83
	b	.LBB38_1338
.LBB38_1337:
	mov	w8, #1
	str	x8, [sp, #24]
.LBB38_1338:
	subs	x8, x2, #2
	b.lo	.LBB38_1354
	mov	x10, x1
	ldrb	w9, [x10], #2
	str	x10, [sp, #16]
	cmp	w9, #2
	b.ne	.LBB38_1354
	ldrsb	w9, [x1, #1]
	tbnz	w9, #31, .LBB38_1343
	and	x9, x9, #0xff
	subs	x8, x8, x9
	str	x9, [sp, #8]
	b.lo	.LBB38_1354
	ldp	x10, x9, [sp, #8]
	add	x1, x9, x10
	b	.LBB38_1356
.LBB38_1343:
	and	w9, w9, #0xff
	cmp	w9, #130
	b.ne	.LBB38_1348
	cmp	x8, #1
	b.ls	.LBB38_1354
	ldrb	w8, [x1, #2]
	cbz	x8, .LBB38_1354
	ldrb	w9, [x1, #3]
	orr	x9, x9, x8, lsl #8
	sub	x8, x2, #4
	subs	x8, x8, x9
	str	x9, [sp, #8]
	b.lo	.LBB38_1354
	add	x9, x1, #4
	b	.LBB38_1353
.LBB38_1348:
	cbz	x8, .LBB38_1354
	cmp	w9, #129
	b.ne	.LBB38_1354
	ldr	x8, [sp, #16]
	ldrsb	w8, [x8]
	tbz	w8, #31, .LBB38_1354
	sub	x9, x2, #3
	and	x8, x8, #0xff
	str	x8, [sp, #8]
	subs	x8, x9, x8
	b.lo	.LBB38_1354
	add	x9, x1, #3
.LBB38_1353:
	ldr	x10, [sp, #8]
	str	x9, [sp, #16]
	add	x1, x9, x10
	b	.LBB38_1357
.LBB38_1354:
	add	x0, sp, #512
	mov	w3, #2
	bl	_RNvNtNtNtCs00000000001_10pkcs1_tool6proved8der_core5split14split_unlikely
	ldr	x8, [sp, #512]
	str	x8, [sp, #16]
	cbz	x8, .LBB38_83
	ldr	x8, [sp, #520]
	ldr	x1, [sp, #528]
	str	x8, [sp, #8]
	ldr	x8, [sp, #536]
.LBB38_1356:
	ldr	x9, [sp, #8]
	cbz	x9, .LBB38_83
.LBB38_1357:
	ldr	x9, [sp, #16]
	ldrsb	w9, [x9]
	cbz	w9, .LBB38_1359
	tbz	w9, #31, .LBB38_1362
	b	.LBB38_83
.LBB38_1359:
	ldr	x9, [sp, #8]
	subs	x9, x9, #1
	str	x9, [sp, #8]
	b.eq	.LBB38_1361
	ldr	x10, [sp, #16]
	ldrsb	w9, [x10, #1]!
	str	x10, [sp, #16]
	tbz	w9, #31, .LBB38_83
	b	.LBB38_1362
.LBB38_1361:
	mov	w9, #1
	str	x9, [sp, #8]
.LBB38_1362:
	cbz	x8, .LBB38_1364
	ldr	w3, [sp, #120]
	add	x0, sp, #512
	mov	x2, x8
	b	.LBB38_1366
.LBB38_1364:
	ldr	w8, [sp, #120]
	cbz	w8, .LBB38_1367
	add	x0, sp, #512
	mov	x2, xzr
	mov	w3, #1
.LBB38_1366:
	bl	_RNvNtNtNtCs00000000001_10pkcs1_tool6proved5pkcs110viewed_key9read_list
	ldrb	w8, [sp, #512]
	cmp	w8, #1
	b.eq	.LBB38_83
	b	.LBB38_1368
.LBB38_1367:
	str	xzr, [sp, #520]
.LBB38_1368:
	ldur	q0, [x28, #8]
	ldr	x8, [sp, #536]
	stur	q0, [sp, #212]
	stur	x8, [sp, #228]
	str	q0, [x28, #240]
	str	x8, [sp, #768]
	cbnz	x25, .LBB38_83
	ldr	x8, [sp, #768]
	lsr	x9, x27, #56
	str	x24, [sp, #552]
	ldr	x24, [x29, #16]
	ldr	q0, [x28, #240]
	lsr	x10, x27, #24
	str	x8, [sp, #672]
	lsr	x8, x27, #8
	strb	w9, [sp, #543]
	sturh	w8, [x28, #25]
	ldp	x8, x11, [sp, #104]
	str	q0, [x28, #144]
	str	x22, [sp, #512]
	str	x8, [sp, #576]
	ldr	x8, [sp, #88]
	str	x11, [sp, #568]
	str	x8, [sp, #584]
	ldp	x8, x11, [sp, #56]
	str	x20, [sp, #520]
	str	x26, [sp, #528]
	str	x11, [sp, #592]
	str	x8, [sp, #600]
	ldp	x8, x11, [sp, #40]
	strb	w27, [sp, #536]
	stur	w10, [x28, #27]
	str	x11, [sp, #608]
	ldp	x9, x11, [sp, #24]
	str	x8, [sp, #616]
	ldr	x8, [x29]
	str	x19, [sp, #544]
	str	x9, [sp, #632]
	sub	x9, x8, x24
	str	x11, [sp, #624]
	cmp	x9, #2
	ldp	x9, x11, [sp, #8]
	str	x23, [sp, #560]
	str	x11, [sp, #640]
	str	x9, [sp, #648]
	b.hs	.LBB38_1376
	cmn	x24, #3
	b.hi	.LBB38_547
	lsl	x9, x8, #1
	add	x23, x24, #2
	mov	w10, #8
	cmp	x9, x23
	csel	x9, x9, x23, hi
	cmp	x9, #8
	csel	x22, x9, x10, hi
	tbnz	x22, #63, .LBB38_547
	cbz	x8, .LBB38_1374
	ldr	x9, [x29, #8]
	str	x8, [sp, #224]
	mov	w8, #1
	str	x9, [sp, #208]
.LBB38_1374:
	add	x0, sp, #752
	add	x3, sp, #208
	mov	w1, #1
	mov	x2, x22
	str	x8, [sp, #216]
	bl	_RINvNtCs00000000000_5alloc7raw_vec11finish_growNtNtB4_5alloc6GlobalECs00000000001_10pkcs1_tool
	ldr	w8, [sp, #752]
	cmp	w8, #1
	b.eq	.LBB38_547
	ldr	x8, [sp, #760]
	stp	x22, x8, [x29]
	b	.LBB38_1377
.LBB38_1376:
	ldr	x8, [x29, #8]
	add	x23, x24, #2
.LBB38_1377:
	mov	x1, x29
	add	x0, sp, #512
	mov	w9, #14448
	strh	w9, [x8, x24]
	str	x23, [x29, #16]
	bl	_RNvNtNtNtCs00000000001_10pkcs1_tool4tool13pkcs1_program4keys7put_key
	tbnz	w0, #0, .LBB38_547
	ldr	x8, [sp, #96]
	cbz	x8, .LBB38_1386
	ldr	x23, [x29, #16]
	ldr	x8, [x29]
	sub	x9, x8, x23
	cmp	x9, #12
	b.hs	.LBB38_1393
	cmn	x23, #13
	b.hi	.LBB38_547
	lsl	x9, x8, #1
	add	x24, x23, #12
	cmp	x9, x24
	csel	x22, x9, x24, hi
	tbnz	x22, #63, .LBB38_547
	cbz	x8, .LBB38_1384
	ldr	x9, [x29, #8]
	str	x8, [sp, #224]
	mov	w8, #1
	str	x9, [sp, #208]
.LBB38_1384:
	add	x0, sp, #752
	add	x3, sp, #208
	mov	w1, #1
	mov	x2, x22
	str	x8, [sp, #216]
	bl	_RINvNtCs00000000000_5alloc7raw_vec11finish_growNtNtB4_5alloc6GlobalECs00000000001_10pkcs1_tool
	ldr	w8, [sp, #752]
	cmp	w8, #1
	b.eq	.LBB38_547
	ldr	x8, [sp, #760]
	stp	x22, x8, [x29]
	b	.LBB38_1394
.LBB38_1386:
	ldr	x22, [x29, #16]
	ldr	x8, [x29]
	sub	x9, x8, x22
	cmp	x9, #13
	b.hs	.LBB38_1396
	cmn	x22, #14
	b.hi	.LBB38_547
	lsl	x9, x8, #1
	add	x21, x22, #13
	cmp	x9, x21
	csel	x20, x9, x21, hi
	tbnz	x20, #63, .LBB38_547
	cbz	x8, .LBB38_1391
	ldr	x9, [x29, #8]
	str	x8, [sp, #224]
	mov	w8, #1
	str	x9, [sp, #208]
.LBB38_1391:
	add	x0, sp, #752
	add	x3, sp, #208
	mov	w1, #1
	mov	x2, x20
	str	x8, [sp, #216]
	bl	_RINvNtCs00000000000_5alloc7raw_vec11finish_growNtNtB4_5alloc6GlobalECs00000000001_10pkcs1_tool
	ldr	w8, [sp, #752]
	cmp	w8, #1
	b.eq	.LBB38_547
	ldr	x9, [sp, #760]
	mov	x8, x20
	stp	x20, x9, [x29]
	b	.LBB38_1397
.LBB38_1393:
	ldr	x8, [x29, #8]
	add	x24, x23, #12
.LBB38_1394:
	adrp	x9, .Lanon.33
	add	x9, x9, :lo12:.Lanon.33
	mov	w10, #25972
	ldr	x9, [x9]
	ldr	x0, [sp, #96]
	add	x8, x8, x23
	movk	w10, #15731, lsl #16
	mov	x2, x29
	mov	x1, x21
	str	w10, [x8, #8]
	str	x9, [x8]
	str	x24, [x29, #16]
	bl	_RNvNtNtNtCs00000000001_10pkcs1_tool4tool13pkcs1_program6digits7put_hex
	tbnz	w0, #0, .LBB38_547
	ldr	x21, [x29, #16]
	ldr	x8, [x29]
	b	.LBB38_1398
.LBB38_1396:
	ldr	x9, [x29, #8]
	add	x21, x22, #13
.LBB38_1397:
	adrp	x10, .Lanon.34
	add	x10, x10, :lo12:.Lanon.34
	add	x9, x9, x22
	ldr	x11, [x10]
	ldur	x10, [x10, #5]
	str	x11, [x9]
	stur	x10, [x9, #5]
	str	x21, [x29, #16]
.LBB38_1398:
	sub	x9, x8, x21
	cmp	x9, #7
	b.lo	.LBB38_1159
.LBB38_1399:
	ldr	x8, [x29, #8]
	add	x22, x21, #7
.LBB38_1400:
	mov	w9, #26977
	mov	w10, #24864
	add	x8, x8, x21
	ldp	x0, x1, [sp, #72]
	b	.LBB38_770
.Lfunc_end38:
	.size	_RNvNtNtNtCs00000000001_10pkcs1_tool4tool13pkcs1_program6answer11answer_word, .Lfunc_end38-_RNvNtNtNtCs00000000001_10pkcs1_tool4tool13pkcs1_program6answer11answer_word
	.cfi_endproc

	.section	.text._RNvXNtNtNtCs00000000001_10pkcs1_tool4tool13pkcs1_program10copy_errorNtB2_10WriteErrorNtNtCs00000000002_4core3fmt7Display3fmt,"ax",@progbits
	.p2align	2
	.type	_RNvXNtNtNtCs00000000001_10pkcs1_tool4tool13pkcs1_program10copy_errorNtB2_10WriteErrorNtNtCs00000000002_4core3fmt7Display3fmt,@function
_RNvXNtNtNtCs00000000001_10pkcs1_tool4tool13pkcs1_program10copy_errorNtB2_10WriteErrorNtNtCs00000000002_4core3fmt7Display3fmt:
	.cfi_startproc
	hint	#38
	ldrb	w8, [x0]
	ldp	x0, x9, [x1, #48]
	cmp	w8, #2
	ldr	x3, [x9, #24]
	b.le	.LBB39_4
	cmp	w8, #4
	b.gt	.LBB39_7
	cmp	w8, #3
	b.ne	.LBB39_11
	adrp	x1, .Lanon.35
	add	x1, x1, :lo12:.Lanon.35
	mov	w2, #32
	br	x3
.LBB39_4:
	cbz	w8, .LBB39_9
	cmp	w8, #1
	b.ne	.LBB39_10
	adrp	x1, .Lanon.36
	add	x1, x1, :lo12:.Lanon.36
	mov	w2, #18
	br	x3
.LBB39_7:
	cmp	w8, #5
	b.ne	.LBB39_12
	adrp	x1, .Lanon.37
	add	x1, x1, :lo12:.Lanon.37
	mov	w2, #35
	br	x3
.LBB39_9:
	adrp	x1, .Lanon.4
	add	x1, x1, :lo12:.Lanon.4
	mov	w2, #19
	br	x3
.LBB39_10:
	adrp	x1, .Lanon.38
	add	x1, x1, :lo12:.Lanon.38
	mov	w2, #23
	br	x3
.LBB39_11:
	adrp	x1, .Lanon.39
	add	x1, x1, :lo12:.Lanon.39
	mov	w2, #14
	br	x3
.LBB39_12:
	adrp	x1, .Lanon.40
	add	x1, x1, :lo12:.Lanon.40
	mov	w2, #46
	br	x3
.Lfunc_end39:
	.size	_RNvXNtNtNtCs00000000001_10pkcs1_tool4tool13pkcs1_program10copy_errorNtB2_10WriteErrorNtNtCs00000000002_4core3fmt7Display3fmt, .Lfunc_end39-_RNvXNtNtNtCs00000000001_10pkcs1_tool4tool13pkcs1_program10copy_errorNtB2_10WriteErrorNtNtCs00000000002_4core3fmt7Display3fmt
	.cfi_endproc

	.section	.text._RNvXs0_NtNtNtCs00000000001_10pkcs1_tool4tool13pkcs1_program10copy_errorNtB5_9FileErrorNtNtCs00000000002_4core3fmt7Display3fmt,"ax",@progbits
	.p2align	2
	.type	_RNvXs0_NtNtNtCs00000000001_10pkcs1_tool4tool13pkcs1_program10copy_errorNtB5_9FileErrorNtNtCs00000000002_4core3fmt7Display3fmt,@function
_RNvXs0_NtNtNtCs00000000001_10pkcs1_tool4tool13pkcs1_program10copy_errorNtB5_9FileErrorNtNtCs00000000002_4core3fmt7Display3fmt:
	.cfi_startproc
	hint	#38
	sub	sp, sp, #144
	.cfi_def_cfa_offset 144
	stp	x30, x21, [sp, #112]
	stp	x20, x19, [sp, #128]
	.cfi_offset w19, -8
	.cfi_offset w20, -16
	.cfi_offset w21, -24
	.cfi_offset w30, -32
	.cfi_remember_state
	ldp	x8, x2, [x0, #24]
	mov	x19, x0
	mov	x21, x1
	add	x0, sp, #48
	mov	x1, x8
	bl	_ZN4core3str8converts9from_utf817h0000000000000004E
	ldr	w9, [sp, #48]
	ldp	x10, x11, [sp, #56]
	mov	x8, x19
	ldrb	w12, [x8, #40]!
	cmp	w9, #0
	csinc	x9, x10, xzr, eq
	csel	x10, xzr, x11, ne
	cmp	w12, #20
	stp	x9, x10, [sp]
	b.ne	.LBB40_2
	ldrb	w8, [x19, #41]
	mov	x9, sp
	adrp	x10, _RNvXs1c_NtCs00000000002_4core3fmtReNtB6_7Display3fmtCs00000000001_10pkcs1_tool
	add	x10, x10, :lo12:_RNvXs1c_NtCs00000000002_4core3fmtReNtB6_7Display3fmtCs00000000001_10pkcs1_tool
	stp	x9, x10, [sp, #16]
	add	x9, sp, #96
	strb	w8, [sp, #96]
	adrp	x8, _RNvXNtNtNtCs00000000001_10pkcs1_tool4tool13pkcs1_program10copy_errorNtB2_10WriteErrorNtNtCs00000000002_4core3fmt7Display3fmt
	add	x8, x8, :lo12:_RNvXNtNtNtCs00000000001_10pkcs1_tool4tool13pkcs1_program10copy_errorNtB2_10WriteErrorNtNtCs00000000002_4core3fmt7Display3fmt
	stp	x9, x8, [sp, #32]
	adrp	x8, .Lanon.41
	add	x8, x8, :lo12:.Lanon.41
	b	.LBB40_3
.LBB40_2:
	ldrh	w9, [x8]
	ldrb	w8, [x8, #2]
	strh	w9, [sp, #96]
	mov	x9, sp
	strb	w8, [sp, #98]
	adrp	x8, _RNvXs1c_NtCs00000000002_4core3fmtReNtB6_7Display3fmtCs00000000001_10pkcs1_tool
	add	x8, x8, :lo12:_RNvXs1c_NtCs00000000002_4core3fmtReNtB6_7Display3fmtCs00000000001_10pkcs1_tool
	stp	x9, x8, [sp, #16]
	add	x8, sp, #96
	adrp	x9, _RNvXs_NtNtNtCs00000000001_10pkcs1_tool6proved12pkcs1_params5errorNtB4_5ErrorNtNtCs00000000002_4core3fmt7Display3fmt
	add	x9, x9, :lo12:_RNvXs_NtNtNtCs00000000001_10pkcs1_tool6proved12pkcs1_params5errorNtB4_5ErrorNtNtCs00000000002_4core3fmt7Display3fmt
	stp	x8, x9, [sp, #32]
	adrp	x8, .Lanon.42
	add	x8, x8, :lo12:.Lanon.42
.LBB40_3:
	ldp	x20, x21, [x21, #48]
	mov	w9, #2
	stp	x8, x9, [sp, #48]
	add	x8, sp, #16
	add	x2, sp, #48
	stp	x9, xzr, [sp, #72]
	mov	x0, x20
	mov	x1, x21
	str	x8, [sp, #64]
	bl	_ZN4core3fmt5write17h0000000000000000E
	tbz	w0, #0, .LBB40_5
	mov	w0, #1
	ldp	x20, x19, [sp, #128]
	ldp	x30, x21, [sp, #112]
	add	sp, sp, #144
	.cfi_def_cfa_offset 0
	.cfi_restore w19
	.cfi_restore w20
	.cfi_restore w21
	.cfi_restore w30
	ret
.LBB40_5:
	.cfi_restore_state
	.cfi_remember_state
	ldr	x8, [x19]
	mov	x9, #-9223372036854775808
	cmp	x8, x9
	b.ne	.LBB40_7
	mov	w0, wzr
	ldp	x20, x19, [sp, #128]
	ldp	x30, x21, [sp, #112]
	add	sp, sp, #144
	.cfi_def_cfa_offset 0
	.cfi_restore w19
	.cfi_restore w20
	.cfi_restore w21
	.cfi_restore w30
	ret
.LBB40_7:
	.cfi_restore_state
	ldp	x1, x2, [x19, #8]
	add	x0, sp, #48
	bl	_ZN4core3str8converts9from_utf817h0000000000000004E
	ldr	w8, [sp, #48]
	ldp	x9, x10, [sp, #56]
	add	x11, sp, #16
	add	x2, sp, #48
	mov	x0, x20
	cmp	w8, #0
	adrp	x8, _RNvXs1c_NtCs00000000002_4core3fmtReNtB6_7Display3fmtCs00000000001_10pkcs1_tool
	add	x8, x8, :lo12:_RNvXs1c_NtCs00000000002_4core3fmtReNtB6_7Display3fmtCs00000000001_10pkcs1_tool
	stp	x11, x8, [sp, #96]
	csinc	x8, x9, xzr, eq
	csel	x9, xzr, x10, ne
	stp	x8, x9, [sp, #16]
	adrp	x8, .Lanon.43
	add	x8, x8, :lo12:.Lanon.43
	mov	w9, #2
	mov	x1, x21
	stp	x8, x9, [sp, #48]
	add	x8, sp, #96
	mov	w9, #1
	str	x8, [sp, #64]
	stp	x9, xzr, [sp, #72]
	bl	_ZN4core3fmt5write17h0000000000000000E
	ldp	x20, x19, [sp, #128]
	ldp	x30, x21, [sp, #112]
	add	sp, sp, #144
	.cfi_def_cfa_offset 0
	.cfi_restore w19
	.cfi_restore w20
	.cfi_restore w21
	.cfi_restore w30
	ret
.Lfunc_end40:
	.size	_RNvXs0_NtNtNtCs00000000001_10pkcs1_tool4tool13pkcs1_program10copy_errorNtB5_9FileErrorNtNtCs00000000002_4core3fmt7Display3fmt, .Lfunc_end40-_RNvXs0_NtNtNtCs00000000001_10pkcs1_tool4tool13pkcs1_program10copy_errorNtB5_9FileErrorNtNtCs00000000002_4core3fmt7Display3fmt
	.cfi_endproc

	.section	.text._RNvNtNtNtCs00000000001_10pkcs1_tool4tool13pkcs1_program6digits7put_hex,"ax",@progbits
	.p2align	2
	.type	_RNvNtNtNtCs00000000001_10pkcs1_tool4tool13pkcs1_program6digits7put_hex,@function
_RNvNtNtNtCs00000000001_10pkcs1_tool4tool13pkcs1_program6digits7put_hex:
	.cfi_startproc
	hint	#38
	stp	x30, x23, [sp, #-48]!
	.cfi_def_cfa_offset 48
	stp	x22, x21, [sp, #16]
	stp	x20, x19, [sp, #32]
	.cfi_offset w19, -8
	.cfi_offset w20, -16
	.cfi_offset w21, -24
	.cfi_offset w22, -32
	.cfi_offset w23, -40
	.cfi_offset w30, -48
	.cfi_remember_state
	tbnz	x1, #63, .LBB41_3
	ldr	x21, [x2, #16]
	lsl	x23, x1, #1
	mov	x22, x2
	mov	x19, x1
	cmn	x21, x23
	b.hs	.LBB41_3
	mov	x20, x0
	add	x1, x21, x23
	mov	x0, x22
	bl	_RNvMs_NtNtCs00000000001_10pkcs1_tool10rattle_std3vecINtNtNtB6_7library3vec3VechE6resizeB8_
	tbz	w0, #0, .LBB41_4
.LBB41_3:
	mov	w0, #1
	ldp	x20, x19, [sp, #32]
	ldp	x22, x21, [sp, #16]
	ldp	x30, x23, [sp], #48
	.cfi_def_cfa_offset 0
	.cfi_restore w19
	.cfi_restore w20
	.cfi_restore w21
	.cfi_restore w22
	.cfi_restore w23
	.cfi_restore w30
	ret
.LBB41_4:
	.cfi_restore_state
	.cfi_remember_state
	ldr	x1, [x22, #16]
	subs	x8, x1, x21
	b.lo	.LBB41_21
	cmp	x23, x8
	b.ne	.LBB41_22
	cbz	x19, .LBB41_20
	ldr	x8, [x22, #8]
	cmp	x19, #8
	b.hs	.LBB41_9
	mov	x9, xzr
	b	.LBB41_18
.LBB41_9:
	cmp	x19, #32
	b.hs	.LBB41_11
	mov	x9, xzr
	b	.LBB41_15
.LBB41_11:
	movi	v0.16b, #15
	movi	v1.16b, #48
	and	x9, x19, #0x7fffffffffffffe0
	movi	v2.16b, #9
	movi	v3.16b, #39
	add	x10, x21, x8
	movi	v4.16b, #159
	add	x10, x10, #32
	add	x11, x20, #16
	mov	x12, x9
.LBB41_12:
	ldp	q5, q6, [x11, #-16]
	sub	x13, x10, #32
	subs	x12, x12, #32
	add	x11, x11, #32
	and	v7.16b, v5.16b, v0.16b
	cmhi	v16.16b, v5.16b, v4.16b
	and	v18.16b, v6.16b, v0.16b
	cmhi	v19.16b, v6.16b, v4.16b
	cmhi	v17.16b, v7.16b, v2.16b
	and	v16.16b, v16.16b, v3.16b
	add	v7.16b, v7.16b, v1.16b
	cmhi	v20.16b, v18.16b, v2.16b
	and	v17.16b, v17.16b, v3.16b
	usra	v16.16b, v5.16b, #4
	and	v5.16b, v19.16b, v3.16b
	add	v22.16b, v17.16b, v7.16b
	add	v7.16b, v18.16b, v1.16b
	and	v17.16b, v20.16b, v3.16b
	usra	v5.16b, v6.16b, #4
	add	v21.16b, v16.16b, v1.16b
	add	v7.16b, v17.16b, v7.16b
	add	v6.16b, v5.16b, v1.16b
	st2	{ v21.16b, v22.16b }, [x13]
	st2	{ v6.16b, v7.16b }, [x10]
	add	x10, x10, #64
	b.ne	.LBB41_12
	cmp	x9, x19
	b.eq	.LBB41_20
	tst	x19, #0x18
	b.eq	.LBB41_18
.LBB41_15:
	movi	v0.8b, #15
	movi	v1.8b, #48
	add	x11, x21, x9, lsl #1
	movi	v2.8b, #9
	movi	v3.8b, #39
	mov	x12, x9
	movi	v4.8b, #159
	and	x9, x19, #0x7ffffffffffffff8
	add	x11, x8, x11
	sub	x10, x12, x9
	add	x12, x20, x12
.LBB41_16:
	ldr	d5, [x12], #8
	adds	x10, x10, #8
	and	v6.8b, v5.8b, v0.8b
	cmhi	v7.8b, v5.8b, v4.8b
	cmhi	v16.8b, v6.8b, v2.8b
	and	v7.8b, v7.8b, v3.8b
	add	v6.8b, v6.8b, v1.8b
	and	v16.8b, v16.8b, v3.8b
	usra	v7.8b, v5.8b, #4
	add	v6.8b, v16.8b, v6.8b
	add	v5.8b, v7.8b, v1.8b
	st2	{ v5.8b, v6.8b }, [x11], #16
	b.ne	.LBB41_16
	cmp	x9, x19
	b.eq	.LBB41_20
.LBB41_18:
	add	x10, x21, x9, lsl #1
	mov	w11, #39
	add	x8, x10, x8
	add	x10, x20, x9
	sub	x9, x19, x9
	add	x8, x8, #1
.LBB41_19:
	ldrb	w12, [x10], #1
	and	w13, w12, #0xf
	cmp	w13, #9
	csel	w14, w11, wzr, hi
	cmp	w12, #159
	csel	w15, w11, wzr, hi
	add	w13, w14, w13
	subs	x9, x9, #1
	add	w12, w15, w12, lsr #4
	add	w13, w13, #48
	add	w12, w12, #48
	sturb	w12, [x8, #-1]
	strb	w13, [x8], #2
	b.ne	.LBB41_19
.LBB41_20:
	mov	w0, wzr
	ldp	x20, x19, [sp, #32]
	ldp	x22, x21, [sp, #16]
	ldp	x30, x23, [sp], #48
	.cfi_def_cfa_offset 0
	.cfi_restore w19
	.cfi_restore w20
	.cfi_restore w21
	.cfi_restore w22
	.cfi_restore w23
	.cfi_restore w30
	ret
.LBB41_21:
	.cfi_restore_state
	mov	x0, x21
	brk	#0x1
.LBB41_22:
	brk	#0x1
.Lfunc_end41:
	.size	_RNvNtNtNtCs00000000001_10pkcs1_tool4tool13pkcs1_program6digits7put_hex, .Lfunc_end41-_RNvNtNtNtCs00000000001_10pkcs1_tool4tool13pkcs1_program6digits7put_hex
	.cfi_endproc

	.section	.text._RNvNtNtNtCs00000000001_10pkcs1_tool4tool13pkcs1_program6digits11put_decimal,"ax",@progbits
	.p2align	2
	.type	_RNvNtNtNtCs00000000001_10pkcs1_tool4tool13pkcs1_program6digits11put_decimal,@function
_RNvNtNtNtCs00000000001_10pkcs1_tool4tool13pkcs1_program6digits11put_decimal:
	.cfi_startproc
	hint	#38
	sub	sp, sp, #96
	.cfi_def_cfa_offset 96
	str	x30, [sp, #48]
	stp	x22, x21, [sp, #64]
	stp	x20, x19, [sp, #80]
	.cfi_offset w19, -8
	.cfi_offset w20, -16
	.cfi_offset w21, -24
	.cfi_offset w22, -32
	.cfi_offset w30, -48
	.cfi_remember_state
	mov	x20, x0
	cmp	x0, #9
	mov	x19, x1
	b.ls	.LBB42_2
	mov	x8, #-3689348814741910324
	mov	x1, x19
	movk	x8, #52429
	umulh	x8, x20, x8
	lsr	x0, x8, #3
	bl	_RNvNtNtNtCs00000000001_10pkcs1_tool4tool13pkcs1_program6digits11put_decimal
	cbnz	w0, .LBB42_5
.LBB42_2:
	ldr	x22, [x19, #16]
	ldr	x21, [x19]
	cmp	x21, x22
	b.ne	.LBB42_11
	cmn	x22, #1
	b.eq	.LBB42_5
	lsl	x8, x22, #1
	add	x9, x22, #1
	cmp	x8, x9
	mov	w9, #8
	csinc	x8, x8, x22, hi
	cmp	x8, #8
	csel	x21, x8, x9, hi
	tbz	x21, #63, .LBB42_6
.LBB42_5:
	mov	w0, #1
	ldp	x20, x19, [sp, #80]
	ldr	x30, [sp, #48]
	ldp	x22, x21, [sp, #64]
	add	sp, sp, #96
	.cfi_def_cfa_offset 0
	.cfi_restore w19
	.cfi_restore w20
	.cfi_restore w21
	.cfi_restore w22
	.cfi_restore w30
	ret
.LBB42_6:
	.cfi_restore_state
	cbnz	x22, .LBB42_8
	mov	x8, xzr
	b	.LBB42_9
.LBB42_8:
	ldr	x8, [x19, #8]
	str	x22, [sp, #40]
	str	x8, [sp, #24]
	mov	w8, #1
.LBB42_9:
	mov	x0, sp
	add	x3, sp, #24
	mov	w1, #1
	mov	x2, x21
	str	x8, [sp, #32]
	bl	_RINvNtCs00000000000_5alloc7raw_vec11finish_growNtNtB4_5alloc6GlobalECs00000000001_10pkcs1_tool
	ldr	w8, [sp]
	cmp	w8, #1
	b.eq	.LBB42_5
	ldr	x8, [sp, #8]
	stp	x21, x8, [x19]
.LBB42_11:
	mov	x8, #-3689348814741910324
	mov	w9, #10
	cmp	x22, x21
	movk	x8, #52429
	umulh	x8, x20, x8
	ubfx	x8, x8, #3, #29
	msub	w8, w8, w9, w20
	orr	w20, w8, #0x30
	b.ne	.LBB42_13
	mov	x0, x19
	bl	_ZN5alloc7raw_vec19RawVec$LT$T$C$A$GT$8grow_one17h0000000000000003E
.LBB42_13:
	ldr	x8, [x19, #8]
	add	x9, x22, #1
	mov	w0, wzr
	str	x9, [x19, #16]
	strb	w20, [x8, x22]
	ldp	x20, x19, [sp, #80]
	ldr	x30, [sp, #48]
	ldp	x22, x21, [sp, #64]
	add	sp, sp, #96
	.cfi_def_cfa_offset 0
	.cfi_restore w19
	.cfi_restore w20
	.cfi_restore w21
	.cfi_restore w22
	.cfi_restore w30
	ret
.Lfunc_end42:
	.size	_RNvNtNtNtCs00000000001_10pkcs1_tool4tool13pkcs1_program6digits11put_decimal, .Lfunc_end42-_RNvNtNtNtCs00000000001_10pkcs1_tool4tool13pkcs1_program6digits11put_decimal
	.cfi_endproc

	.section	.text._RNvXNtNtNtCs00000000001_10pkcs1_tool4tool13pkcs1_program5faultNtB2_5FaultNtNtCs00000000002_4core3fmt7Display3fmt,"ax",@progbits
	.p2align	2
	.type	_RNvXNtNtNtCs00000000001_10pkcs1_tool4tool13pkcs1_program5faultNtB2_5FaultNtNtCs00000000002_4core3fmt7Display3fmt,@function
_RNvXNtNtNtCs00000000001_10pkcs1_tool4tool13pkcs1_program5faultNtB2_5FaultNtNtCs00000000002_4core3fmt7Display3fmt:
	.cfi_startproc
	hint	#38
	ldrb	w8, [x0]
	ldp	x0, x9, [x1, #48]
	ldr	x3, [x9, #24]
	cbz	w8, .LBB43_3
	cmp	w8, #1
	b.ne	.LBB43_4
	adrp	x1, .Lanon.44
	add	x1, x1, :lo12:.Lanon.44
	mov	w2, #12
	br	x3
.LBB43_3:
	adrp	x1, .Lanon.45
	add	x1, x1, :lo12:.Lanon.45
	mov	w2, #11
	br	x3
.LBB43_4:
	adrp	x1, .Lanon.46
	add	x1, x1, :lo12:.Lanon.46
	mov	w2, #13
	br	x3
.Lfunc_end43:
	.size	_RNvXNtNtNtCs00000000001_10pkcs1_tool4tool13pkcs1_program5faultNtB2_5FaultNtNtCs00000000002_4core3fmt7Display3fmt, .Lfunc_end43-_RNvXNtNtNtCs00000000001_10pkcs1_tool4tool13pkcs1_program5faultNtB2_5FaultNtNtCs00000000002_4core3fmt7Display3fmt
	.cfi_endproc

	.section	.text._RNvNtNtNtCs00000000001_10pkcs1_tool4tool13pkcs1_program4keys7put_key,"ax",@progbits
	.p2align	2
	.type	_RNvNtNtNtCs00000000001_10pkcs1_tool4tool13pkcs1_program4keys7put_key,@function
_RNvNtNtNtCs00000000001_10pkcs1_tool4tool13pkcs1_program4keys7put_key:
	.cfi_startproc
	hint	#38
	sub	sp, sp, #432
	.cfi_def_cfa_offset 432
	stp	x29, x30, [sp, #336]
	stp	x28, x27, [sp, #352]
	stp	x26, x25, [sp, #368]
	stp	x24, x23, [sp, #384]
	stp	x22, x21, [sp, #400]
	stp	x20, x19, [sp, #416]
	.cfi_offset w19, -8
	.cfi_offset w20, -16
	.cfi_offset w21, -24
	.cfi_offset w22, -32
	.cfi_offset w23, -40
	.cfi_offset w24, -48
	.cfi_offset w25, -56
	.cfi_offset w26, -64
	.cfi_offset w27, -72
	.cfi_offset w28, -80
	.cfi_offset w30, -88
	.cfi_offset w29, -96
	.cfi_remember_state
	ldr	x24, [x0, #144]
	mov	x20, x0
	mov	x19, x1
	cbz	x24, .LBB44_8
	ldr	x23, [x19, #16]
	ldr	x8, [x19]
	sub	x9, x8, x23
	cmp	x9, #10
	b.hs	.LBB44_13
	cmn	x23, #11
	b.hi	.LBB44_11
	lsl	x9, x8, #1
	add	x22, x23, #10
	cmp	x9, x22
	csel	x21, x9, x22, hi
	tbnz	x21, #63, .LBB44_11
	cbz	x8, .LBB44_6
	ldr	x9, [x19, #8]
	str	x8, [sp, #48]
	mov	w8, #1
	str	x9, [sp, #32]
.LBB44_6:
	add	x0, sp, #312
	add	x3, sp, #32
	mov	w1, #1
	mov	x2, x21
	str	x8, [sp, #40]
	bl	_RINvNtCs00000000000_5alloc7raw_vec11finish_growNtNtB4_5alloc6GlobalECs00000000001_10pkcs1_tool
	ldr	w8, [sp, #312]
	cmp	w8, #1
	b.eq	.LBB44_11
	ldr	x8, [sp, #320]
	str	x24, [sp, #24]
	stp	x21, x8, [x19]
	b	.LBB44_14
.LBB44_8:
	ldr	x23, [x19, #16]
	ldr	x8, [x19]
	sub	x9, x8, x23
	cmp	x9, #10
	b.hs	.LBB44_15
	cmn	x23, #11
	b.hi	.LBB44_11
	lsl	x9, x8, #1
	add	x22, x23, #10
	cmp	x9, x22
	csel	x21, x9, x22, hi
	tbz	x21, #63, .LBB44_147
.LBB44_11:
	mov	w0, #1
.LBB44_12:
	ldp	x20, x19, [sp, #416]
	ldp	x22, x21, [sp, #400]
	ldp	x24, x23, [sp, #384]
	ldp	x26, x25, [sp, #368]
	ldp	x28, x27, [sp, #352]
	ldp	x29, x30, [sp, #336]
	add	sp, sp, #432
	.cfi_def_cfa_offset 0
	.cfi_restore w19
	.cfi_restore w20
	.cfi_restore w21
	.cfi_restore w22
	.cfi_restore w23
	.cfi_restore w24
	.cfi_restore w25
	.cfi_restore w26
	.cfi_restore w27
	.cfi_restore w28
	.cfi_restore w30
	.cfi_restore w29
	ret
.LBB44_13:
	.cfi_restore_state
	ldr	x8, [x19, #8]
	str	x24, [sp, #24]
	add	x22, x23, #10
.LBB44_14:
	adrp	x9, .Lanon.47
	add	x9, x9, :lo12:.Lanon.47
	add	x8, x8, x23
	ldr	x9, [x9]
	mov	w10, #12605
	b	.LBB44_17
.LBB44_15:
	ldr	x8, [x19, #8]
	str	x24, [sp, #24]
	add	x22, x23, #10
.LBB44_16:
	adrp	x9, .Lanon.48
	add	x9, x9, :lo12:.Lanon.48
	add	x8, x8, x23
	ldr	x9, [x9]
	mov	w10, #12349
.LBB44_17:
	str	x9, [x8]
	mov	w9, #3
	mov	x27, xzr
	strh	w10, [x8, #8]
	adrp	x8, .Lanon.49
	add	x8, x8, :lo12:.Lanon.49
	stp	x8, x9, [sp, #32]
	ldp	x8, x10, [x20, #16]
	add	x28, sp, #32
	str	x22, [x19, #16]
	stp	x8, x10, [sp, #48]
	adrp	x8, .Lanon.50
	add	x8, x8, :lo12:.Lanon.50
	stp	x8, x9, [sp, #64]
	ldp	x8, x10, [x20, #32]
	stp	x8, x10, [sp, #80]
	adrp	x8, .Lanon.51
	add	x8, x8, :lo12:.Lanon.51
	stp	x8, x9, [sp, #96]
	ldp	x8, x10, [x20, #48]
	stp	x8, x10, [sp, #112]
	adrp	x8, .Lanon.52
	add	x8, x8, :lo12:.Lanon.52
	stp	x8, x9, [sp, #128]
	ldp	x8, x10, [x20, #64]
	stp	x8, x10, [sp, #144]
	adrp	x8, .Lanon.53
	add	x8, x8, :lo12:.Lanon.53
	stp	x8, x9, [sp, #160]
	ldp	x8, x10, [x20, #80]
	mov	w9, #4
	stp	x8, x10, [sp, #176]
	adrp	x8, .Lanon.54
	add	x8, x8, :lo12:.Lanon.54
	stp	x8, x9, [sp, #192]
	ldp	x8, x10, [x20, #96]
	stp	x8, x10, [sp, #208]
	adrp	x8, .Lanon.55
	add	x8, x8, :lo12:.Lanon.55
	stp	x8, x9, [sp, #224]
	ldp	x8, x10, [x20, #112]
	stp	x8, x10, [sp, #240]
	adrp	x8, .Lanon.56
	add	x8, x8, :lo12:.Lanon.56
	stp	x8, x9, [sp, #256]
	ldp	x8, x10, [x20, #128]
	stp	x8, x10, [sp, #272]
	b	.LBB44_20
.LBB44_18:
	ldr	x8, [x19, #8]
	add	x29, x26, x23
.LBB44_19:
	add	x0, x8, x26
	mov	x1, x24
	mov	x2, x23
	bl	memcpy
	mov	x0, x21
	mov	x1, x22
	mov	x2, x19
	str	x29, [x19, #16]
	bl	_RNvNtNtNtCs00000000001_10pkcs1_tool4tool13pkcs1_program6digits7put_hex
	add	x27, x27, #32
	cbnz	w0, .LBB44_11
.LBB44_20:
	cmp	x27, #256
	b.eq	.LBB44_28
	add	x9, x28, x27
	ldr	x26, [x19, #16]
	ldr	x8, [x19]
	ldp	x24, x23, [x9]
	ldp	x21, x22, [x9, #16]
	sub	x10, x8, x26
	cmp	x10, x23
	b.hs	.LBB44_18
	cmn	x26, x23
	b.hs	.LBB44_11
	lsl	x9, x8, #1
	add	x29, x26, x23
	mov	w10, #8
	cmp	x9, x29
	csel	x9, x9, x29, hi
	cmp	x9, #8
	csel	x25, x9, x10, hi
	tbnz	x25, #63, .LBB44_11
	cbz	x8, .LBB44_26
	ldr	x9, [x19, #8]
	str	x8, [sp, #328]
	mov	w8, #1
	str	x9, [sp, #312]
.LBB44_26:
	add	x0, sp, #288
	add	x3, sp, #312
	mov	w1, #1
	mov	x2, x25
	str	x8, [sp, #320]
	bl	_RINvNtCs00000000000_5alloc7raw_vec11finish_growNtNtB4_5alloc6GlobalECs00000000001_10pkcs1_tool
	ldr	w8, [sp, #288]
	cmp	w8, #1
	b.eq	.LBB44_11
	ldr	x8, [sp, #296]
	stp	x25, x8, [x19]
	b	.LBB44_19
.LBB44_28:
	ldp	x8, x9, [x20, #152]
	adrp	x10, _RNvNtNtCs00000000001_10pkcs1_tool10rattle_std7library8AN_OCTET
	add	x10, x10, :lo12:_RNvNtNtCs00000000001_10pkcs1_tool10rattle_std7library8AN_OCTET
	ldr	x11, [sp, #24]
	mov	w28, #8
	cmp	x11, #0
	csel	x9, xzr, x9, eq
	csel	x29, x10, x11, eq
	csel	x11, xzr, x8, eq
	add	x21, x9, #1
.LBB44_29:
	subs	x21, x21, #1
	b.eq	.LBB44_146
	subs	x8, x11, #2
	b.lo	.LBB44_46
	mov	x1, x29
	ldrb	w9, [x1], #2
	cmp	w9, #48
	b.ne	.LBB44_46
	ldrsb	w9, [x29, #1]
	tbnz	w9, #31, .LBB44_35
	and	x2, x9, #0xff
	subs	x8, x8, x2
	b.lo	.LBB44_46
	add	x20, x1, x2
	mov	x29, x8
	cmp	x2, #2
	b.hs	.LBB44_48
	b	.LBB44_67
.LBB44_35:
	and	w9, w9, #0xff
	cmp	w9, #130
	b.ne	.LBB44_40
	cmp	x8, #1
	b.ls	.LBB44_46
	ldrb	w8, [x29, #2]
	cbz	x8, .LBB44_46
	ldrb	w9, [x29, #3]
	orr	x2, x9, x8, lsl #8
	sub	x8, x11, #4
	subs	x8, x8, x2
	b.lo	.LBB44_46
	add	x1, x29, #4
	b	.LBB44_45
.LBB44_40:
	cbz	x8, .LBB44_46
	cmp	w9, #129
	b.ne	.LBB44_46
	ldrsb	w8, [x1]
	tbz	w8, #31, .LBB44_46
	sub	x9, x11, #3
	and	x2, x8, #0xff
	subs	x8, x9, x2
	b.lo	.LBB44_46
	add	x1, x29, #3
.LBB44_45:
	add	x20, x1, x2
	mov	x29, x8
	mov	x22, x1
	ldrb	w8, [x22], #2
	cmp	w8, #2
	b.eq	.LBB44_49
	b	.LBB44_67
.LBB44_46:
	add	x0, sp, #32
	mov	x1, x29
	mov	x2, x11
	mov	w3, #48
	bl	_RNvNtNtNtCs00000000001_10pkcs1_tool6proved8der_core5split14split_unlikely
	ldr	x1, [sp, #32]
	cbz	x1, .LBB44_146
	ldp	x2, x20, [sp, #40]
	ldr	x29, [sp, #56]
	cmp	x2, #2
	b.lo	.LBB44_67
.LBB44_48:
	mov	x22, x1
	ldrb	w8, [x22], #2
	cmp	w8, #2
	b.ne	.LBB44_67
.LBB44_49:
	ldrsb	w9, [x1, #1]
	sub	x8, x2, #2
	tbnz	w9, #31, .LBB44_52
	and	x23, x9, #0xff
	subs	x8, x8, x23
	b.lo	.LBB44_67
	add	x1, x22, x23
	cbnz	x23, .LBB44_69
	b	.LBB44_146
.LBB44_52:
	and	w9, w9, #0xff
	cmp	w9, #130
	b.ne	.LBB44_57
	cmp	x8, #1
	b.ls	.LBB44_67
	ldrb	w8, [x1, #2]
	cbz	x8, .LBB44_67
	ldrb	w9, [x1, #3]
	orr	x23, x9, x8, lsl #8
	sub	x8, x2, #4
	subs	x8, x8, x23
	b.lo	.LBB44_67
	add	x22, x1, #4
	b	.LBB44_62
.LBB44_57:
	cbz	x8, .LBB44_66
	cmp	w9, #129
	b.ne	.LBB44_67
	ldrsb	w8, [x22]
	tbz	w8, #31, .LBB44_67
	sub	x9, x2, #3
	and	x23, x8, #0xff
	subs	x8, x9, x23
	b.lo	.LBB44_67
	add	x22, x1, #3
.LBB44_62:
	add	x1, x22, x23
	ldrsb	w9, [x22]
	cbnz	w9, .LBB44_70
.LBB44_63:
	subs	x23, x23, #1
	b.eq	.LBB44_65
	ldrsb	w9, [x22, #1]!
	tbnz	w9, #31, .LBB44_71
	b	.LBB44_146
.LBB44_65:
	mov	w23, #1
	b	.LBB44_71
.LBB44_66:
	mov	w2, #2
.LBB44_67:
	add	x0, sp, #32
	mov	w3, #2
	bl	_RNvNtNtNtCs00000000001_10pkcs1_tool6proved8der_core5split14split_unlikely
	ldr	x22, [sp, #32]
	cbz	x22, .LBB44_146
	ldp	x23, x1, [sp, #40]
	ldr	x8, [sp, #56]
	cbz	x23, .LBB44_146
.LBB44_69:
	ldrsb	w9, [x22]
	cbz	w9, .LBB44_63
.LBB44_70:
	tbnz	w9, #31, .LBB44_146
.LBB44_71:
	subs	x9, x8, #2
	b.lo	.LBB44_89
	mov	x24, x1
	ldrb	w10, [x24], #2
	cmp	w10, #2
	b.ne	.LBB44_89
	ldrsb	w10, [x1, #1]
	tbnz	w10, #31, .LBB44_76
	and	x25, x10, #0xff
	subs	x2, x9, x25
	b.lo	.LBB44_89
	add	x1, x24, x25
	cbnz	x25, .LBB44_91
	b	.LBB44_146
.LBB44_76:
	and	w10, w10, #0xff
	cmp	w10, #130
	b.ne	.LBB44_81
	cmp	x9, #1
	b.ls	.LBB44_89
	ldrb	w9, [x1, #2]
	cbz	x9, .LBB44_89
	ldrb	w10, [x1, #3]
	orr	x25, x10, x9, lsl #8
	sub	x9, x8, #4
	subs	x2, x9, x25
	b.lo	.LBB44_89
	add	x24, x1, #4
	b	.LBB44_86
.LBB44_81:
	cbz	x9, .LBB44_89
	cmp	w10, #129
	b.ne	.LBB44_89
	ldrsb	w9, [x24]
	tbz	w9, #31, .LBB44_89
	sub	x10, x8, #3
	and	x25, x9, #0xff
	subs	x2, x10, x25
	b.lo	.LBB44_89
	add	x24, x1, #3
.LBB44_86:
	add	x1, x24, x25
	ldrsb	w8, [x24]
	cbnz	w8, .LBB44_92
.LBB44_87:
	subs	x25, x25, #1
	b.eq	.LBB44_108
	ldrsb	w8, [x24, #1]!
	tbnz	w8, #31, .LBB44_93
	b	.LBB44_146
.LBB44_89:
	add	x0, sp, #32
	mov	x2, x8
	mov	w3, #2
	bl	_RNvNtNtNtCs00000000001_10pkcs1_tool6proved8der_core5split14split_unlikely
	ldr	x24, [sp, #32]
	cbz	x24, .LBB44_146
	ldp	x25, x1, [sp, #40]
	ldr	x2, [sp, #56]
	cbz	x25, .LBB44_146
.LBB44_91:
	ldrsb	w8, [x24]
	cbz	w8, .LBB44_87
.LBB44_92:
	tbnz	w8, #31, .LBB44_146
.LBB44_93:
	subs	x8, x2, #2
	b.lo	.LBB44_109
.LBB44_94:
	mov	x26, x1
	ldrb	w9, [x26], #2
	cmp	w9, #2
	b.ne	.LBB44_109
	ldrsb	w9, [x1, #1]
	tbnz	w9, #31, .LBB44_98
	and	x27, x9, #0xff
	subs	x8, x8, x27
	b.lo	.LBB44_109
	cbnz	x27, .LBB44_111
	b	.LBB44_146
.LBB44_98:
	and	w9, w9, #0xff
	cmp	w9, #130
	b.ne	.LBB44_103
	cmp	x8, #1
	b.ls	.LBB44_109
	ldrb	w8, [x1, #2]
	cbz	x8, .LBB44_109
	ldrb	w9, [x1, #3]
	orr	x27, x9, x8, lsl #8
	sub	x8, x2, #4
	subs	x8, x8, x27
	b.lo	.LBB44_109
	add	x26, x1, #4
	b	.LBB44_111
.LBB44_103:
	cbz	x8, .LBB44_109
	cmp	w9, #129
	b.ne	.LBB44_109
	ldrsb	w8, [x26]
	tbz	w8, #31, .LBB44_109
	sub	x9, x2, #3
	and	x27, x8, #0xff
	subs	x8, x9, x27
	b.lo	.LBB44_109
	add	x26, x1, #3
	b	.LBB44_111
.LBB44_108:
	mov	w25, #1
	subs	x8, x2, #2
	b.hs	.LBB44_94
.LBB44_109:
	add	x0, sp, #32
	mov	w3, #2
	bl	_RNvNtNtNtCs00000000001_10pkcs1_tool6proved8der_core5split14split_unlikely
	ldr	x26, [sp, #32]
	cbz	x26, .LBB44_146
	ldr	x27, [sp, #40]
	ldr	x8, [sp, #56]
	cbz	x27, .LBB44_146
.LBB44_111:
	ldrsb	w9, [x26]
	cbz	w9, .LBB44_128
	tbnz	w9, #31, .LBB44_146
.LBB44_113:
	cbnz	x8, .LBB44_146
.LBB44_114:
	stp	x29, x21, [sp, #16]
	ldr	x21, [x19, #16]
	ldr	x8, [x19]
	sub	x9, x8, x21
	cmp	x9, #7
	b.hs	.LBB44_121
	cmn	x21, #8
	b.hi	.LBB44_11
	lsl	x9, x8, #1
	mov	x29, x20
	add	x20, x21, #7
	mov	w10, #8
	cmp	x9, x20
	csel	x9, x9, x20, hi
	cmp	x9, #8
	csel	x28, x9, x10, hi
	tbnz	x28, #63, .LBB44_11
	cbz	x8, .LBB44_119
	ldr	x9, [x19, #8]
	str	x8, [sp, #48]
	mov	w8, #1
	str	x9, [sp, #32]
.LBB44_119:
	add	x0, sp, #312
	add	x3, sp, #32
	mov	w1, #1
	mov	x2, x28
	str	x8, [sp, #40]
	bl	_RINvNtCs00000000000_5alloc7raw_vec11finish_growNtNtB4_5alloc6GlobalECs00000000001_10pkcs1_tool
	ldr	w8, [sp, #312]
	cmp	w8, #1
	b.eq	.LBB44_11
	ldr	x8, [sp, #320]
	stp	x28, x8, [x19]
	mov	w28, #8
	b	.LBB44_122
.LBB44_121:
	ldr	x8, [x19, #8]
	mov	x29, x20
	add	x20, x21, #7
.LBB44_122:
	mov	w9, #25960
	add	x8, x8, x21
	mov	x0, x22
	movk	w9, #15730, lsl #16
	mov	x1, x23
	mov	x2, x19
	stur	w9, [x8, #3]
	mov	w9, #28448
	movk	w9, #26740, lsl #16
	str	x20, [x19, #16]
	str	w9, [x8]
	bl	_RNvNtNtNtCs00000000001_10pkcs1_tool4tool13pkcs1_program6digits7put_hex
	tbnz	w0, #0, .LBB44_11
	ldr	x21, [x19, #16]
	ldr	x8, [x19]
	cmp	x8, x21
	b.ne	.LBB44_130
	cmn	x21, #1
	b.eq	.LBB44_11
	lsl	x8, x21, #1
	add	x20, x21, #1
	cmp	x8, x20
	csinc	x8, x8, x21, hi
	cmp	x8, #8
	csel	x22, x8, x28, hi
	tbnz	x22, #63, .LBB44_11
	cbnz	x21, .LBB44_132
	mov	x8, xzr
	b	.LBB44_133
.LBB44_128:
	subs	x27, x27, #1
	b.eq	.LBB44_131
	ldrsb	w9, [x26, #1]!
	tbnz	w9, #31, .LBB44_113
	b	.LBB44_146
.LBB44_130:
	ldr	x8, [x19, #8]
	add	x20, x21, #1
	b	.LBB44_135
.LBB44_131:
	mov	w27, #1
	cbz	x8, .LBB44_114
	b	.LBB44_146
.LBB44_132:
	ldr	x8, [x19, #8]
	str	x21, [sp, #48]
	str	x8, [sp, #32]
	mov	w8, #1
.LBB44_133:
	add	x0, sp, #312
	add	x3, sp, #32
	mov	w1, #1
	mov	x2, x22
	str	x8, [sp, #40]
	bl	_RINvNtCs00000000000_5alloc7raw_vec11finish_growNtNtB4_5alloc6GlobalECs00000000001_10pkcs1_tool
	ldr	w8, [sp, #312]
	tbnz	w8, #0, .LBB44_11
	ldr	x8, [sp, #320]
	mov	w28, #8
	stp	x22, x8, [x19]
.LBB44_135:
	mov	x0, x24
	mov	x1, x25
	mov	x2, x19
	mov	w9, #44
	strb	w9, [x8, x21]
	str	x20, [x19, #16]
	bl	_RNvNtNtNtCs00000000001_10pkcs1_tool4tool13pkcs1_program6digits7put_hex
	tbnz	w0, #0, .LBB44_11
	ldr	x23, [x19, #16]
	ldr	x8, [x19]
	cmp	x8, x23
	b.ne	.LBB44_141
	cmn	x23, #1
	b.eq	.LBB44_11
	lsl	x8, x23, #1
	add	x20, x23, #1
	cmp	x8, x20
	csinc	x8, x8, x23, hi
	cmp	x8, #8
	csel	x22, x8, x28, hi
	tbnz	x22, #63, .LBB44_11
	cbnz	x23, .LBB44_142
	mov	x8, xzr
	b	.LBB44_143
.LBB44_141:
	ldr	x8, [x19, #8]
	add	x20, x23, #1
	b	.LBB44_145
.LBB44_142:
	ldr	x8, [x19, #8]
	str	x23, [sp, #48]
	str	x8, [sp, #32]
	mov	w8, #1
.LBB44_143:
	add	x0, sp, #312
	add	x3, sp, #32
	mov	w1, #1
	mov	x2, x22
	str	x8, [sp, #40]
	bl	_RINvNtCs00000000000_5alloc7raw_vec11finish_growNtNtB4_5alloc6GlobalECs00000000001_10pkcs1_tool
	ldr	w8, [sp, #312]
	tbnz	w8, #0, .LBB44_11
	ldr	x8, [sp, #320]
	mov	w28, #8
	stp	x22, x8, [x19]
.LBB44_145:
	mov	x0, x26
	mov	x1, x27
	mov	x2, x19
	mov	w9, #44
	strb	w9, [x8, x23]
	str	x20, [x19, #16]
	bl	_RNvNtNtNtCs00000000001_10pkcs1_tool4tool13pkcs1_program6digits7put_hex
	ldp	x11, x21, [sp, #16]
	mov	w8, w0
	mov	w0, #1
	cbz	w8, .LBB44_29
	b	.LBB44_12
.LBB44_146:
	mov	w0, wzr
	b	.LBB44_12
.LBB44_147:
	cbz	x8, .LBB44_149
	ldr	x9, [x19, #8]
	str	x8, [sp, #48]
	mov	w8, #1
	str	x9, [sp, #32]
.LBB44_149:
	add	x0, sp, #312
	add	x3, sp, #32
	mov	w1, #1
	mov	x2, x21
	str	x8, [sp, #40]
	bl	_RINvNtCs00000000000_5alloc7raw_vec11finish_growNtNtB4_5alloc6GlobalECs00000000001_10pkcs1_tool
	ldr	w8, [sp, #312]
	cmp	w8, #1
	b.eq	.LBB44_11
	ldr	x8, [sp, #320]
	str	x24, [sp, #24]
	stp	x21, x8, [x19]
	b	.LBB44_16
.Lfunc_end44:
	.size	_RNvNtNtNtCs00000000001_10pkcs1_tool4tool13pkcs1_program4keys7put_key, .Lfunc_end44-_RNvNtNtNtCs00000000001_10pkcs1_tool4tool13pkcs1_program4keys7put_key
	.cfi_endproc

	.section	.rodata.cst16,"aM",@progbits,16
	.p2align	4, 0x0
.LCPI45_0:
	.byte	1
	.byte	2
	.byte	4
	.byte	8
	.byte	16
	.byte	32
	.byte	64
	.byte	128
	.byte	1
	.byte	2
	.byte	4
	.byte	8
	.byte	16
	.byte	32
	.byte	64
	.byte	128
	.section	.text._RNvNtNtNtCs00000000001_10pkcs1_tool4tool13pkcs1_program5lines8place_of,"ax",@progbits
	.p2align	2
	.type	_RNvNtNtNtCs00000000001_10pkcs1_tool4tool13pkcs1_program5lines8place_of,@function
_RNvNtNtNtCs00000000001_10pkcs1_tool4tool13pkcs1_program5lines8place_of:
	.cfi_startproc
	hint	#38
	str	x30, [sp, #-16]!
	.cfi_def_cfa_offset 16
	.cfi_offset w30, -16
	.cfi_remember_state
	dup	v0.16b, w0
	adrp	x8, .LCPI45_0
	mov	w12, #32
	ldr	q1, [x8, :lo12:.LCPI45_0]
	mov	x11, x2
.LBB45_1:
	mov	x10, x11
	subs	x11, x11, #32
	mov	x9, x1
	mov	x8, x12
	b.lo	.LBB45_5
	cbz	x8, .LBB45_11
	cmp	x8, x2
	b.hi	.LBB45_12
	ldp	q2, q3, [x9]
	add	x1, x9, #32
	cmeq	v3.16b, v3.16b, v0.16b
	cmeq	v2.16b, v2.16b, v0.16b
	and	v3.16b, v3.16b, v1.16b
	and	v2.16b, v2.16b, v1.16b
	ext	v4.16b, v3.16b, v3.16b, #8
	ext	v5.16b, v2.16b, v2.16b, #8
	zip1	v3.16b, v3.16b, v4.16b
	zip1	v2.16b, v2.16b, v5.16b
	addv	h3, v3.8h
	addv	h2, v2.8h
	fmov	w12, s3
	fmov	w13, s2
	orr	w12, w13, w12
	tst	w12, #0xffff
	add	x12, x8, #32
	b.eq	.LBB45_1
.LBB45_5:
	sub	x8, x8, #32
	cmp	x8, x2
	b.eq	.LBB45_9
	mov	x11, xzr
	neg	x10, x10
.LBB45_7:
	ldrb	w12, [x9, x11]
	cmp	w12, w0, uxtb
	b.eq	.LBB45_10
	add	x12, x10, x11
	add	x11, x11, #1
	cmn	x12, #1
	b.ne	.LBB45_7
.LBB45_9:
	mov	x0, xzr
	ldr	x30, [sp], #16
	.cfi_def_cfa_offset 0
	.cfi_restore w30
	ret
.LBB45_10:
	.cfi_restore_state
	.cfi_remember_state
	add	x1, x11, x8
	mov	w0, #1
	ldr	x30, [sp], #16
	.cfi_def_cfa_offset 0
	.cfi_restore w30
	ret
.LBB45_11:
	.cfi_restore_state
	brk	#0x1
.LBB45_12:
	mov	x0, x8
	mov	x1, x2
	brk	#0x1
.Lfunc_end45:
	.size	_RNvNtNtNtCs00000000001_10pkcs1_tool4tool13pkcs1_program5lines8place_of, .Lfunc_end45-_RNvNtNtNtCs00000000001_10pkcs1_tool4tool13pkcs1_program5lines8place_of
	.cfi_endproc

	.section	.text._RINvNtNtNtCs00000000001_10pkcs1_tool4tool13pkcs1_program11output_file14write_in_placeRNtNtB8_10rattle_std11HostRuntimeEB8_,"ax",@progbits
	.p2align	2
	.type	_RINvNtNtNtCs00000000001_10pkcs1_tool4tool13pkcs1_program11output_file14write_in_placeRNtNtB8_10rattle_std11HostRuntimeEB8_,@function
_RINvNtNtNtCs00000000001_10pkcs1_tool4tool13pkcs1_program11output_file14write_in_placeRNtNtB8_10rattle_std11HostRuntimeEB8_:
	.cfi_startproc
	hint	#38
	str	x29, [sp, #-64]!
	.cfi_def_cfa_offset 64
	stp	x30, x23, [sp, #16]
	stp	x22, x21, [sp, #32]
	stp	x20, x19, [sp, #48]
	.cfi_offset w19, -8
	.cfi_offset w20, -16
	.cfi_offset w21, -24
	.cfi_offset w22, -32
	.cfi_offset w23, -40
	.cfi_offset w30, -48
	.cfi_offset w29, -64
	sub	sp, sp, #1, lsl #12
	.cfi_def_cfa_offset 4160
	str	xzr, [sp]
	sub	sp, sp, #1, lsl #12
	.cfi_def_cfa_offset 8256
	str	xzr, [sp]
	sub	sp, sp, #1, lsl #12
	.cfi_def_cfa_offset 12352
	.cfi_remember_state
	mov	x20, x2
	mov	x21, x1
	mov	x22, x0
	add	x0, sp, #2, lsl #12
	mov	w1, wzr
	mov	w2, #4096
	str	xzr, [sp]
	mov	x19, x3
	add	x23, sp, #2, lsl #12
	bl	memset
	cmp	x21, #1, lsl #12
	b.hi	.LBB46_19
	add	x0, sp, #2, lsl #12
	mov	x1, x22
	mov	x2, x21
	bl	memcpy
	add	x8, x23, #7
	and	x8, x8, #0xfffffffffffffff8
	subs	x8, x8, x23
	b.eq	.LBB46_5
	mov	x9, xzr
	add	x11, sp, #2, lsl #12
	mov	w10, #1
.LBB46_3:
	ldrb	w12, [x11, x9]
	cbz	w12, .LBB46_15
	add	x9, x9, #1
	cmp	x8, x9
	b.ne	.LBB46_3
.LBB46_5:
	mov	x9, #72340172838076673
	mov	x10, #-9187201950435737472
	movk	x9, #256
	dup	v0.2d, x9
	add	x9, sp, #2, lsl #12
.LBB46_6:
	ldr	q1, [x9, x8]
	sub	v2.2d, v0.2d, v1.2d
	orr	v1.16b, v2.16b, v1.16b
	mov	x11, v1.d[1]
	fmov	x12, d1
	and	x11, x12, x11
	bics	xzr, x10, x11
	b.ne	.LBB46_10
	add	x11, x8, #16
	cmp	x8, #4064
	mov	x8, x11
	b.ls	.LBB46_6
	cmp	x11, #1, lsl #12
	b.eq	.LBB46_14
	add	x8, sp, #2, lsl #12
	mov	w10, #4096
	add	x9, x8, x11
	sub	x10, x10, x11
	mov	x8, x11
	b	.LBB46_11
.LBB46_10:
	add	x9, sp, #2, lsl #12
	mov	w10, #4096
	add	x9, x9, x8
	sub	x10, x10, x8
.LBB46_11:
	mov	x11, xzr
.LBB46_12:
	ldrb	w12, [x9, x11]
	cbz	w12, .LBB46_16
	add	x11, x11, #1
	cmp	x10, x11
	b.ne	.LBB46_12
.LBB46_14:
	mov	x10, xzr
.LBB46_15:
	cmp	x10, #0
	add	x8, sp, #2, lsl #12
	csel	x0, xzr, x8, eq
	cbnz	x10, .LBB46_17
	b	.LBB46_19
.LBB46_16:
	add	x9, x11, x8
	mov	w10, #1
	cmp	x10, #0
	add	x8, sp, #2, lsl #12
	csel	x0, xzr, x8, eq
	cbz	x10, .LBB46_19
.LBB46_17:
	cmp	x9, x21
	b.ne	.LBB46_19
	mov	x1, x22
	mov	x2, x21
	bl	memcmp
	cbz	w0, .LBB46_21
.LBB46_19:
	mov	w8, #1024
	mov	x22, xzr
	mov	w9, #1
	orr	x8, x8, xzr
	orr	w9, w8, w9
	tbz	w9, #0, .LBB46_25
.LBB46_20:
	mov	w0, #1
	add	sp, sp, #3, lsl #12
	.cfi_def_cfa_offset 64
	ldp	x20, x19, [sp, #48]
	ldp	x22, x21, [sp, #32]
	ldp	x30, x23, [sp, #16]
	ldr	x29, [sp], #64
	.cfi_def_cfa_offset 0
	.cfi_restore w19
	.cfi_restore w20
	.cfi_restore w21
	.cfi_restore w22
	.cfi_restore w23
	.cfi_restore w30
	.cfi_restore w29
	ret
.LBB46_21:
	.cfi_restore_state
	add	x8, sp, #1, lsl #12
	add	x0, sp, #1, lsl #12
	mov	w2, #4095
	add	x8, x8, #1
	ldrb	w21, [x8, #4095]
	add	x8, sp, #2, lsl #12
	orr	x1, x8, #0x1
	bl	memcpy
	mov	x8, sp
	add	x1, sp, #1, lsl #12
	mov	w2, #4095
	orr	x0, x8, #0x1
	strb	w21, [sp]
	bl	memcpy
	mov	x0, sp
	mov	w1, #1
	mov	w2, #438
	bl	pkcs1_os_open
	tbnz	x0, #63, .LBB46_23
	lsr	x8, x0, #31
	lsl	x10, x0, #32
	cmp	x8, #0
	mov	w8, #1024
	cset	w9, ne
	csel	x22, xzr, x10, ne
	orr	x8, x8, x22
	orr	w9, w8, w9
	tbnz	w9, #0, .LBB46_20
	b	.LBB46_25
.LBB46_23:
	add	x8, x0, #4
	cmp	x8, #3
	b.hs	.LBB46_19
	mov	w9, #512
	sub	x8, x9, x8, lsl #8
	mov	x22, xzr
	mov	w9, #1
	orr	x8, x8, xzr
	orr	w9, w8, w9
	tbnz	w9, #0, .LBB46_20
.LBB46_25:
	lsr	x21, x8, #32
	add	x1, sp, #2, lsl #12
	str	xzr, [sp, #8200]
	str	xzr, [sp, #8192]
	mov	w0, w21
	str	wzr, [sp, #8216]
	str	xzr, [sp, #8208]
	bl	pkcs1_os_look_at
	tbnz	x0, #63, .LBB46_28
	cbz	x0, .LBB46_29
	mov	x8, xzr
	and	x22, x22, #0x7fffffff00000000
	orr	w8, w22, w8
	tbnz	w8, #0, .LBB46_20
	b	.LBB46_30
.LBB46_28:
	add	x8, x0, #4
	mov	w9, #512
	sub	x9, x9, x8, lsl #8
	cmp	x8, #3
	mov	w8, #1024
	csel	x22, x9, x8, lo
	mov	w0, w21
	bl	pkcs1_os_close
	mov	w8, #1
	orr	w8, w22, w8
	tbnz	w8, #0, .LBB46_20
	b	.LBB46_30
.LBB46_29:
	mov	w22, #256
	mov	w0, w21
	bl	pkcs1_os_close
	mov	w8, #1
	orr	w8, w22, w8
	tbnz	w8, #0, .LBB46_20
.LBB46_30:
	lsr	x21, x22, #32
	cbz	x19, .LBB46_34
	mov	x22, xzr
.LBB46_32:
	sub	x2, x19, x22
	add	x1, x20, x22
	mov	w0, w21
	bl	pkcs1_os_write
	cmp	x0, #0
	b.le	.LBB46_35
	add	x22, x0, x22
	cmp	x22, x19
	b.lo	.LBB46_32
.LBB46_34:
	mov	w19, #7
	b	.LBB46_36
.LBB46_35:
	mov	w19, #4
.LBB46_36:
	mov	w0, w21
	bl	pkcs1_os_close
	mov	w0, w19
	add	sp, sp, #3, lsl #12
	.cfi_def_cfa_offset 64
	ldp	x20, x19, [sp, #48]
	ldp	x22, x21, [sp, #32]
	ldp	x30, x23, [sp, #16]
	ldr	x29, [sp], #64
	.cfi_def_cfa_offset 0
	.cfi_restore w19
	.cfi_restore w20
	.cfi_restore w21
	.cfi_restore w22
	.cfi_restore w23
	.cfi_restore w30
	.cfi_restore w29
	ret
.Lfunc_end46:
	.size	_RINvNtNtNtCs00000000001_10pkcs1_tool4tool13pkcs1_program11output_file14write_in_placeRNtNtB8_10rattle_std11HostRuntimeEB8_, .Lfunc_end46-_RINvNtNtNtCs00000000001_10pkcs1_tool4tool13pkcs1_program11output_file14write_in_placeRNtNtB8_10rattle_std11HostRuntimeEB8_
	.cfi_endproc

	.section	.text._RNvNtNtNtCs00000000001_10pkcs1_tool4tool13pkcs1_program17parameter_answers13put_spellings,"ax",@progbits
	.p2align	2
	.type	_RNvNtNtNtCs00000000001_10pkcs1_tool4tool13pkcs1_program17parameter_answers13put_spellings,@function
_RNvNtNtNtCs00000000001_10pkcs1_tool4tool13pkcs1_program17parameter_answers13put_spellings:
	.cfi_startproc
	hint	#38
	sub	sp, sp, #144
	.cfi_def_cfa_offset 144
	stp	x29, x30, [sp, #48]
	stp	x28, x27, [sp, #64]
	stp	x26, x25, [sp, #80]
	stp	x24, x23, [sp, #96]
	stp	x22, x21, [sp, #112]
	stp	x20, x19, [sp, #128]
	.cfi_offset w19, -8
	.cfi_offset w20, -16
	.cfi_offset w21, -24
	.cfi_offset w22, -32
	.cfi_offset w23, -40
	.cfi_offset w24, -48
	.cfi_offset w25, -56
	.cfi_offset w26, -64
	.cfi_offset w27, -72
	.cfi_offset w28, -80
	.cfi_offset w30, -88
	.cfi_offset w29, -96
	.cfi_remember_state
	ldr	x26, [x4, #16]
	ldr	x28, [x4]
	mov	x19, x4
	mov	x21, x3
	mov	x20, x2
	mov	x22, x1
	sub	x8, x28, x26
	mov	x23, x0
	cmp	x8, x1
	b.hs	.LBB47_5
	cmn	x26, x22
	b.hs	.LBB47_13
	lsl	x8, x28, #1
	add	x25, x26, x22
	mov	w9, #8
	cmp	x8, x25
	csel	x8, x8, x25, hi
	cmp	x8, #8
	csel	x24, x8, x9, hi
	tbnz	x24, #63, .LBB47_13
	cbnz	x28, .LBB47_27
	mov	x8, xzr
	b	.LBB47_28
.LBB47_5:
	ldr	x27, [x19, #8]
	add	x25, x26, x22
.LBB47_6:
	add	x0, x27, x26
	mov	x1, x23
	mov	x2, x22
	bl	memcpy
	cmp	x28, x25
	str	x25, [x19, #16]
	b.ne	.LBB47_11
	cmn	x25, #1
	b.eq	.LBB47_13
	lsl	x8, x25, #1
	add	x23, x25, #1
	mov	w9, #8
	cmp	x8, x23
	csinc	x8, x8, x25, hi
	cmp	x8, #8
	csel	x22, x8, x9, hi
	tbnz	x22, #63, .LBB47_13
	cbnz	x25, .LBB47_30
	mov	x8, xzr
	b	.LBB47_31
.LBB47_11:
	add	x23, x25, #1
.LBB47_12:
	mov	x0, x21
	mov	x1, x19
	mov	w26, #32
	strb	w26, [x27, x25]
	str	x23, [x19, #16]
	bl	_RNvNtNtNtCs00000000001_10pkcs1_tool4tool13pkcs1_program6digits11put_decimal
	tbz	w0, #0, .LBB47_15
.LBB47_13:
	mov	w21, #1
.LBB47_14:
	mov	w0, w21
	ldp	x20, x19, [sp, #128]
	ldp	x22, x21, [sp, #112]
	ldp	x24, x23, [sp, #96]
	ldp	x26, x25, [sp, #80]
	ldp	x28, x27, [sp, #64]
	ldp	x29, x30, [sp, #48]
	add	sp, sp, #144
	.cfi_def_cfa_offset 0
	.cfi_restore w19
	.cfi_restore w20
	.cfi_restore w21
	.cfi_restore w22
	.cfi_restore w23
	.cfi_restore w24
	.cfi_restore w25
	.cfi_restore w26
	.cfi_restore w27
	.cfi_restore w28
	.cfi_restore w30
	.cfi_restore w29
	ret
.LBB47_15:
	.cfi_restore_state
	add	x8, x21, x21, lsl #1
	mov	w27, #8
	lsl	x25, x8, #3
	b	.LBB47_18
.LBB47_16:
	ldr	x8, [x19, #8]
	add	x29, x28, #1
.LBB47_17:
	mov	x0, x22
	mov	x1, x23
	mov	x2, x19
	strb	w26, [x8, x28]
	add	x20, x20, #24
	str	x29, [x19, #16]
	bl	_RNvNtNtNtCs00000000001_10pkcs1_tool4tool13pkcs1_program6digits7put_hex
	sub	x25, x25, #24
	cbnz	w0, .LBB47_14
.LBB47_18:
	cmp	x25, #0
	cset	w21, ne
	cbz	x25, .LBB47_14
	ldr	x28, [x19, #16]
	ldr	x8, [x19]
	ldp	x22, x23, [x20, #8]
	cmp	x8, x28
	b.ne	.LBB47_16
	cmn	x28, #1
	b.eq	.LBB47_14
	lsl	x8, x28, #1
	add	x29, x28, #1
	cmp	x8, x29
	csinc	x8, x8, x28, hi
	cmp	x8, #8
	csel	x24, x8, x27, hi
	tbnz	x24, #63, .LBB47_14
	cbnz	x28, .LBB47_24
	mov	x8, xzr
	b	.LBB47_25
.LBB47_24:
	ldr	x8, [x19, #8]
	str	x28, [sp, #40]
	str	x8, [sp, #24]
	mov	w8, #1
.LBB47_25:
	mov	x0, sp
	add	x3, sp, #24
	mov	w1, #1
	mov	x2, x24
	str	x8, [sp, #32]
	bl	_RINvNtCs00000000000_5alloc7raw_vec11finish_growNtNtB4_5alloc6GlobalECs00000000001_10pkcs1_tool
	ldr	w8, [sp]
	cmp	w8, #1
	b.eq	.LBB47_13
	ldr	x8, [sp, #8]
	stp	x24, x8, [x19]
	b	.LBB47_17
.LBB47_27:
	ldr	x8, [x19, #8]
	str	x28, [sp, #40]
	str	x8, [sp, #24]
	mov	w8, #1
.LBB47_28:
	mov	x0, sp
	add	x3, sp, #24
	mov	w1, #1
	mov	x2, x24
	str	x8, [sp, #32]
	bl	_RINvNtCs00000000000_5alloc7raw_vec11finish_growNtNtB4_5alloc6GlobalECs00000000001_10pkcs1_tool
	ldr	w8, [sp]
	cmp	w8, #1
	b.eq	.LBB47_13
	ldr	x27, [sp, #8]
	mov	x28, x24
	stp	x24, x27, [x19]
	b	.LBB47_6
.LBB47_30:
	mov	w8, #1
	str	x27, [sp, #24]
	str	x25, [sp, #40]
.LBB47_31:
	mov	x0, sp
	add	x3, sp, #24
	mov	w1, #1
	mov	x2, x22
	str	x8, [sp, #32]
	bl	_RINvNtCs00000000000_5alloc7raw_vec11finish_growNtNtB4_5alloc6GlobalECs00000000001_10pkcs1_tool
	ldr	w8, [sp]
	cmp	w8, #1
	b.eq	.LBB47_13
	ldr	x27, [sp, #8]
	stp	x22, x27, [x19]
	b	.LBB47_12
.Lfunc_end47:
	.size	_RNvNtNtNtCs00000000001_10pkcs1_tool4tool13pkcs1_program17parameter_answers13put_spellings, .Lfunc_end47-_RNvNtNtNtCs00000000001_10pkcs1_tool4tool13pkcs1_program17parameter_answers13put_spellings
	.cfi_endproc

	.section	.text._RNvNtNtNtCs00000000001_10pkcs1_tool4tool13pkcs1_program14parameter_text14put_identifier,"ax",@progbits
	.p2align	2
	.type	_RNvNtNtNtCs00000000001_10pkcs1_tool4tool13pkcs1_program14parameter_text14put_identifier,@function
_RNvNtNtNtCs00000000001_10pkcs1_tool4tool13pkcs1_program14parameter_text14put_identifier:
	.cfi_startproc
	hint	#38
	sub	sp, sp, #96
	.cfi_def_cfa_offset 96
	str	x30, [sp, #48]
	stp	x22, x21, [sp, #64]
	stp	x20, x19, [sp, #80]
	.cfi_offset w19, -8
	.cfi_offset w20, -16
	.cfi_offset w21, -24
	.cfi_offset w22, -32
	.cfi_offset w30, -48
	.cfi_remember_state
	ldrb	w8, [x0, #39]
	cmp	x8, #40
	b.hs	.LBB48_13
	mov	x19, x1
	mov	x1, x8
	mov	x2, x19
	bl	_RNvNtNtNtCs00000000001_10pkcs1_tool4tool13pkcs1_program6digits7put_hex
	tbnz	w0, #0, .LBB48_5
	ldr	x21, [x19, #16]
	ldr	x8, [x19]
	cmp	x8, x21
	b.ne	.LBB48_6
	cmn	x21, #1
	b.eq	.LBB48_5
	lsl	x8, x21, #1
	add	x22, x21, #1
	mov	w9, #8
	cmp	x8, x22
	csinc	x8, x8, x21, hi
	cmp	x8, #8
	csel	x20, x8, x9, hi
	tbz	x20, #63, .LBB48_8
.LBB48_5:
	mov	w0, #1
	ldp	x20, x19, [sp, #80]
	ldr	x30, [sp, #48]
	ldp	x22, x21, [sp, #64]
	add	sp, sp, #96
	.cfi_def_cfa_offset 0
	.cfi_restore w19
	.cfi_restore w20
	.cfi_restore w21
	.cfi_restore w22
	.cfi_restore w30
	ret
.LBB48_6:
	.cfi_restore_state
	.cfi_remember_state
	ldr	x8, [x19, #8]
	add	x22, x21, #1
.LBB48_7:
	mov	w0, wzr
	mov	w9, #47
	strb	w9, [x8, x21]
	str	x22, [x19, #16]
	ldp	x20, x19, [sp, #80]
	ldr	x30, [sp, #48]
	ldp	x22, x21, [sp, #64]
	add	sp, sp, #96
	.cfi_def_cfa_offset 0
	.cfi_restore w19
	.cfi_restore w20
	.cfi_restore w21
	.cfi_restore w22
	.cfi_restore w30
	ret
.LBB48_8:
	.cfi_restore_state
	cbnz	x21, .LBB48_10
	mov	x8, xzr
	b	.LBB48_11
.LBB48_10:
	ldr	x8, [x19, #8]
	str	x21, [sp, #40]
	str	x8, [sp, #24]
	mov	w8, #1
.LBB48_11:
	mov	x0, sp
	add	x3, sp, #24
	mov	w1, #1
	mov	x2, x20
	str	x8, [sp, #32]
	bl	_RINvNtCs00000000000_5alloc7raw_vec11finish_growNtNtB4_5alloc6GlobalECs00000000001_10pkcs1_tool
	ldr	w8, [sp]
	cmp	w8, #1
	b.eq	.LBB48_5
	ldr	x8, [sp, #8]
	stp	x20, x8, [x19]
	b	.LBB48_7
.LBB48_13:
	mov	x0, x8
	mov	w1, #39
	brk	#0x1
.Lfunc_end48:
	.size	_RNvNtNtNtCs00000000001_10pkcs1_tool4tool13pkcs1_program14parameter_text14put_identifier, .Lfunc_end48-_RNvNtNtNtCs00000000001_10pkcs1_tool4tool13pkcs1_program14parameter_text14put_identifier
	.cfi_endproc

	.section	.text._RNvNtNtNtCs00000000001_10pkcs1_tool4tool13pkcs1_program14parameter_text9put_plain,"ax",@progbits
	.p2align	2
	.type	_RNvNtNtNtCs00000000001_10pkcs1_tool4tool13pkcs1_program14parameter_text9put_plain,@function
_RNvNtNtNtCs00000000001_10pkcs1_tool4tool13pkcs1_program14parameter_text9put_plain:
	.cfi_startproc
	hint	#38
	sub	sp, sp, #112
	.cfi_def_cfa_offset 112
	str	x30, [sp, #48]
	stp	x24, x23, [sp, #64]
	stp	x22, x21, [sp, #80]
	stp	x20, x19, [sp, #96]
	.cfi_offset w19, -8
	.cfi_offset w20, -16
	.cfi_offset w21, -24
	.cfi_offset w22, -32
	.cfi_offset w23, -40
	.cfi_offset w24, -48
	.cfi_offset w30, -64
	.cfi_remember_state
	mov	x19, x1
	mov	x22, x0
	bl	_RNvNtNtNtCs00000000001_10pkcs1_tool4tool13pkcs1_program14parameter_text14put_identifier
	tbnz	w0, #0, .LBB49_14
	ldr	x20, [x22, #40]
	cbz	x20, .LBB49_11
	ldr	x23, [x19, #16]
	cmn	x23, #3
	b.hi	.LBB49_14
	ldrb	w24, [x22, #56]
	add	x1, x23, #2
	mov	x0, x19
	bl	_RNvMs_NtNtCs00000000001_10pkcs1_tool10rattle_std3vecINtNtNtB6_7library3vec3VechE6resizeB8_
	tbnz	w0, #0, .LBB49_14
	ldr	x21, [x19, #16]
	subs	x8, x21, x23
	b.lo	.LBB49_24
	cmp	x8, #2
	b.ne	.LBB49_25
	and	w9, w24, #0xf
	mov	w8, #39
	ldr	x1, [x22, #48]
	cmp	w9, #9
	csel	w10, w8, wzr, hi
	cmp	w24, #159
	csel	w8, w8, wzr, hi
	add	w9, w10, w9
	add	w11, w8, w24, lsr #4
	ldp	x12, x8, [x19]
	add	w9, w9, #48
	add	w10, w11, #48
	add	x13, x8, x23
	cmp	x12, x21
	strb	w10, [x13]
	strb	w9, [x13, #1]
	b.ne	.LBB49_17
	cmn	x21, #1
	b.eq	.LBB49_14
	lsl	x9, x21, #1
	add	x23, x21, #1
	mov	w10, #8
	cmp	x9, x23
	csinc	x9, x9, x21, hi
	cmp	x9, #8
	csel	x22, x9, x10, hi
	tbnz	x22, #63, .LBB49_14
	mov	x24, x1
	mov	w9, #1
	mov	x0, sp
	add	x3, sp, #24
	mov	w1, #1
	mov	x2, x22
	str	x8, [sp, #24]
	stp	x9, x21, [sp, #32]
	bl	_RINvNtCs00000000000_5alloc7raw_vec11finish_growNtNtB4_5alloc6GlobalECs00000000001_10pkcs1_tool
	ldr	w8, [sp]
	cmp	w8, #1
	b.eq	.LBB49_14
	ldr	x8, [sp, #8]
	mov	x1, x24
	stp	x22, x8, [x19]
	b	.LBB49_18
.LBB49_11:
	ldr	x21, [x19, #16]
	ldr	x8, [x19]
	cmp	x8, x21
	b.ne	.LBB49_15
	cmn	x21, #1
	b.eq	.LBB49_14
	lsl	x8, x21, #1
	add	x22, x21, #1
	mov	w9, #8
	cmp	x8, x22
	csinc	x8, x8, x21, hi
	cmp	x8, #8
	csel	x20, x8, x9, hi
	tbz	x20, #63, .LBB49_19
.LBB49_14:
	mov	w0, #1
	ldp	x20, x19, [sp, #96]
	ldr	x30, [sp, #48]
	ldp	x22, x21, [sp, #80]
	ldp	x24, x23, [sp, #64]
	add	sp, sp, #112
	.cfi_def_cfa_offset 0
	.cfi_restore w19
	.cfi_restore w20
	.cfi_restore w21
	.cfi_restore w22
	.cfi_restore w23
	.cfi_restore w24
	.cfi_restore w30
	ret
.LBB49_15:
	.cfi_restore_state
	.cfi_remember_state
	ldr	x8, [x19, #8]
	add	x22, x21, #1
.LBB49_16:
	mov	w0, wzr
	mov	w9, #45
	strb	w9, [x8, x21]
	str	x22, [x19, #16]
	ldp	x20, x19, [sp, #96]
	ldr	x30, [sp, #48]
	ldp	x22, x21, [sp, #80]
	ldp	x24, x23, [sp, #64]
	add	sp, sp, #112
	.cfi_def_cfa_offset 0
	.cfi_restore w19
	.cfi_restore w20
	.cfi_restore w21
	.cfi_restore w22
	.cfi_restore w23
	.cfi_restore w24
	.cfi_restore w30
	ret
.LBB49_17:
	.cfi_restore_state
	.cfi_remember_state
	add	x23, x21, #1
.LBB49_18:
	mov	w9, #58
	strb	w9, [x8, x21]
	mov	x0, x20
	mov	x2, x19
	str	x23, [x19, #16]
	ldr	x30, [sp, #48]
	ldp	x20, x19, [sp, #96]
	ldp	x22, x21, [sp, #80]
	ldp	x24, x23, [sp, #64]
	add	sp, sp, #112
	.cfi_def_cfa_offset 0
	.cfi_restore w19
	.cfi_restore w20
	.cfi_restore w21
	.cfi_restore w22
	.cfi_restore w23
	.cfi_restore w24
	.cfi_restore w30
	b	_RNvNtNtNtCs00000000001_10pkcs1_tool4tool13pkcs1_program6digits7put_hex
.LBB49_19:
	.cfi_restore_state
	cbnz	x21, .LBB49_21
	mov	x8, xzr
	b	.LBB49_22
.LBB49_21:
	ldr	x8, [x19, #8]
	str	x21, [sp, #40]
	str	x8, [sp, #24]
	mov	w8, #1
.LBB49_22:
	mov	x0, sp
	add	x3, sp, #24
	mov	w1, #1
	mov	x2, x20
	str	x8, [sp, #32]
	bl	_RINvNtCs00000000000_5alloc7raw_vec11finish_growNtNtB4_5alloc6GlobalECs00000000001_10pkcs1_tool
	ldr	w8, [sp]
	cmp	w8, #1
	b.eq	.LBB49_14
	ldr	x8, [sp, #8]
	stp	x20, x8, [x19]
	b	.LBB49_16
.LBB49_24:
	mov	x0, x23
	mov	x1, x21
	brk	#0x1
.LBB49_25:
	brk	#0x1
.Lfunc_end49:
	.size	_RNvNtNtNtCs00000000001_10pkcs1_tool4tool13pkcs1_program14parameter_text9put_plain, .Lfunc_end49-_RNvNtNtNtCs00000000001_10pkcs1_tool4tool13pkcs1_program14parameter_text9put_plain
	.cfi_endproc

	.section	.text._RNvNtNtNtCs00000000001_10pkcs1_tool4tool13pkcs1_program14parameter_text15put_hash_fields,"ax",@progbits
	.p2align	2
	.type	_RNvNtNtNtCs00000000001_10pkcs1_tool4tool13pkcs1_program14parameter_text15put_hash_fields,@function
_RNvNtNtNtCs00000000001_10pkcs1_tool4tool13pkcs1_program14parameter_text15put_hash_fields:
	.cfi_startproc
	hint	#38
	sub	sp, sp, #112
	.cfi_def_cfa_offset 112
	str	x30, [sp, #48]
	stp	x24, x23, [sp, #64]
	stp	x22, x21, [sp, #80]
	stp	x20, x19, [sp, #96]
	.cfi_offset w19, -8
	.cfi_offset w20, -16
	.cfi_offset w21, -24
	.cfi_offset w22, -32
	.cfi_offset w23, -40
	.cfi_offset w24, -48
	.cfi_offset w30, -64
	.cfi_remember_state
	ldr	x22, [x2, #16]
	ldr	x8, [x2]
	mov	x19, x2
	mov	x20, x1
	sub	x9, x8, x22
	cmp	x9, #6
	b.hs	.LBB50_5
	cmn	x22, #7
	b.hi	.LBB50_16
	lsl	x9, x8, #1
	add	x23, x22, #6
	mov	w10, #8
	cmp	x9, x23
	csel	x9, x9, x23, hi
	cmp	x9, #8
	csel	x21, x9, x10, hi
	tbnz	x21, #63, .LBB50_16
	cbnz	x8, .LBB50_37
	mov	x24, x0
	b	.LBB50_38
.LBB50_5:
	ldr	x8, [x19, #8]
	add	x23, x22, #6
.LBB50_6:
	mov	w10, #26656
	add	x8, x8, x22
	mov	w9, #15720
	movk	w10, #29537, lsl #16
	mov	x1, x19
	strh	w9, [x8, #4]
	str	w10, [x8]
	str	x23, [x19, #16]
	bl	_RNvNtNtNtCs00000000001_10pkcs1_tool4tool13pkcs1_program14parameter_text9put_plain
	tbnz	w0, #0, .LBB50_16
	ldr	x22, [x19, #16]
	ldr	x8, [x19]
	sub	x9, x8, x22
	cmp	x9, #6
	b.hs	.LBB50_14
	cmn	x22, #7
	b.hi	.LBB50_16
	lsl	x9, x8, #1
	add	x23, x22, #6
	mov	w10, #8
	cmp	x9, x23
	csel	x9, x9, x23, hi
	cmp	x9, #8
	csel	x21, x9, x10, hi
	tbnz	x21, #63, .LBB50_16
	cbz	x8, .LBB50_12
	ldr	x9, [x19, #8]
	str	x8, [sp, #40]
	mov	w8, #1
	str	x9, [sp, #24]
.LBB50_12:
	mov	x0, sp
	add	x3, sp, #24
	mov	w1, #1
	mov	x2, x21
	str	x8, [sp, #32]
	bl	_RINvNtCs00000000000_5alloc7raw_vec11finish_growNtNtB4_5alloc6GlobalECs00000000001_10pkcs1_tool
	ldr	w8, [sp]
	cmp	w8, #1
	b.eq	.LBB50_16
	ldr	x8, [sp, #8]
	stp	x21, x8, [x19]
	b	.LBB50_15
.LBB50_14:
	ldr	x8, [x19, #8]
	add	x23, x22, #6
.LBB50_15:
	mov	w10, #27936
	add	x8, x8, x22
	mov	w9, #15723
	movk	w10, #29537, lsl #16
	add	x0, x20, #72
	mov	x1, x19
	strh	w9, [x8, #4]
	str	w10, [x8]
	str	x23, [x19, #16]
	bl	_RNvNtNtNtCs00000000001_10pkcs1_tool4tool13pkcs1_program14parameter_text14put_identifier
	tbz	w0, #0, .LBB50_17
.LBB50_16:
	mov	w0, #1
	ldp	x20, x19, [sp, #96]
	ldr	x30, [sp, #48]
	ldp	x22, x21, [sp, #80]
	ldp	x24, x23, [sp, #64]
	add	sp, sp, #112
	.cfi_def_cfa_offset 0
	.cfi_restore w19
	.cfi_restore w20
	.cfi_restore w21
	.cfi_restore w22
	.cfi_restore w23
	.cfi_restore w24
	.cfi_restore w30
	ret
.LBB50_17:
	.cfi_restore_state
	.cfi_remember_state
	ldr	w8, [x20]
	tbz	w8, #0, .LBB50_23
	ldr	x22, [x19, #16]
	ldr	x8, [x19]
	cmp	x8, x22
	b.ne	.LBB50_28
	cmn	x22, #1
	b.eq	.LBB50_16
	lsl	x8, x22, #1
	add	x23, x22, #1
	mov	w9, #8
	cmp	x8, x23
	csinc	x8, x8, x22, hi
	cmp	x8, #8
	csel	x21, x8, x9, hi
	tbnz	x21, #63, .LBB50_16
	cbnz	x22, .LBB50_43
	mov	x8, xzr
	b	.LBB50_44
.LBB50_23:
	ldr	x21, [x19, #16]
	ldr	x8, [x19]
	cmp	x8, x21
	b.ne	.LBB50_35
	cmn	x21, #1
	b.eq	.LBB50_16
	lsl	x8, x21, #1
	add	x22, x21, #1
	mov	w9, #8
	cmp	x8, x22
	csinc	x8, x8, x21, hi
	cmp	x8, #8
	csel	x20, x8, x9, hi
	tbnz	x20, #63, .LBB50_16
	cbnz	x21, .LBB50_46
	mov	x8, xzr
	b	.LBB50_47
.LBB50_28:
	ldr	x8, [x19, #8]
	add	x23, x22, #1
.LBB50_29:
	add	x0, x20, #8
	mov	x1, x19
	mov	w9, #91
	strb	w9, [x8, x22]
	str	x23, [x19, #16]
	bl	_RNvNtNtNtCs00000000001_10pkcs1_tool4tool13pkcs1_program14parameter_text9put_plain
	tbnz	w0, #0, .LBB50_16
	ldr	x21, [x19, #16]
	ldr	x8, [x19]
	cmp	x8, x21
	b.ne	.LBB50_40
	cmn	x21, #1
	b.eq	.LBB50_16
	lsl	x8, x21, #1
	add	x22, x21, #1
	mov	w9, #8
	cmp	x8, x22
	csinc	x8, x8, x21, hi
	cmp	x8, #8
	csel	x20, x8, x9, hi
	tbnz	x20, #63, .LBB50_16
	cbnz	x21, .LBB50_49
	mov	x8, xzr
	b	.LBB50_50
.LBB50_35:
	ldr	x8, [x19, #8]
	add	x22, x21, #1
.LBB50_36:
	mov	w0, wzr
	mov	w9, #45
	b	.LBB50_42
.LBB50_37:
	ldr	x9, [x19, #8]
	mov	x24, x0
	str	x8, [sp, #40]
	mov	w8, #1
	str	x9, [sp, #24]
.LBB50_38:
	mov	x0, sp
	add	x3, sp, #24
	mov	w1, #1
	mov	x2, x21
	str	x8, [sp, #32]
	bl	_RINvNtCs00000000000_5alloc7raw_vec11finish_growNtNtB4_5alloc6GlobalECs00000000001_10pkcs1_tool
	ldr	w8, [sp]
	cmp	w8, #1
	b.eq	.LBB50_16
	ldr	x8, [sp, #8]
	mov	x0, x24
	stp	x21, x8, [x19]
	b	.LBB50_6
.LBB50_40:
	ldr	x8, [x19, #8]
	add	x22, x21, #1
.LBB50_41:
	mov	w0, wzr
	mov	w9, #93
.LBB50_42:
	strb	w9, [x8, x21]
	str	x22, [x19, #16]
	ldp	x20, x19, [sp, #96]
	ldr	x30, [sp, #48]
	ldp	x22, x21, [sp, #80]
	ldp	x24, x23, [sp, #64]
	add	sp, sp, #112
	.cfi_def_cfa_offset 0
	.cfi_restore w19
	.cfi_restore w20
	.cfi_restore w21
	.cfi_restore w22
	.cfi_restore w23
	.cfi_restore w24
	.cfi_restore w30
	ret
.LBB50_43:
	.cfi_restore_state
	ldr	x8, [x19, #8]
	str	x22, [sp, #40]
	str	x8, [sp, #24]
	mov	w8, #1
.LBB50_44:
	mov	x0, sp
	add	x3, sp, #24
	mov	w1, #1
	mov	x2, x21
	str	x8, [sp, #32]
	bl	_RINvNtCs00000000000_5alloc7raw_vec11finish_growNtNtB4_5alloc6GlobalECs00000000001_10pkcs1_tool
	ldr	w8, [sp]
	cmp	w8, #1
	b.eq	.LBB50_16
	ldr	x8, [sp, #8]
	stp	x21, x8, [x19]
	b	.LBB50_29
.LBB50_46:
	ldr	x8, [x19, #8]
	str	x21, [sp, #40]
	str	x8, [sp, #24]
	mov	w8, #1
.LBB50_47:
	mov	x0, sp
	add	x3, sp, #24
	mov	w1, #1
	mov	x2, x20
	str	x8, [sp, #32]
	bl	_RINvNtCs00000000000_5alloc7raw_vec11finish_growNtNtB4_5alloc6GlobalECs00000000001_10pkcs1_tool
	ldr	w8, [sp]
	cmp	w8, #1
	b.eq	.LBB50_16
	ldr	x8, [sp, #8]
	stp	x20, x8, [x19]
	b	.LBB50_36
.LBB50_49:
	ldr	x8, [x19, #8]
	str	x21, [sp, #40]
	str	x8, [sp, #24]
	mov	w8, #1
.LBB50_50:
	mov	x0, sp
	add	x3, sp, #24
	mov	w1, #1
	mov	x2, x20
	str	x8, [sp, #32]
	bl	_RINvNtCs00000000000_5alloc7raw_vec11finish_growNtNtB4_5alloc6GlobalECs00000000001_10pkcs1_tool
	ldr	w8, [sp]
	cmp	w8, #1
	b.eq	.LBB50_16
	ldr	x8, [sp, #8]
	stp	x20, x8, [x19]
	b	.LBB50_41
.Lfunc_end50:
	.size	_RNvNtNtNtCs00000000001_10pkcs1_tool4tool13pkcs1_program14parameter_text15put_hash_fields, .Lfunc_end50-_RNvNtNtNtCs00000000001_10pkcs1_tool4tool13pkcs1_program14parameter_text15put_hash_fields
	.cfi_endproc

	.section	.text._RNvNtNtNtCs00000000001_10pkcs1_tool4tool13pkcs1_program14parameter_text12put_spelling,"ax",@progbits
	.p2align	2
	.type	_RNvNtNtNtCs00000000001_10pkcs1_tool4tool13pkcs1_program14parameter_text12put_spelling,@function
_RNvNtNtNtCs00000000001_10pkcs1_tool4tool13pkcs1_program14parameter_text12put_spelling:
	.cfi_startproc
	hint	#38
	sub	sp, sp, #112
	.cfi_def_cfa_offset 112
	stp	x30, x25, [sp, #48]
	stp	x24, x23, [sp, #64]
	stp	x22, x21, [sp, #80]
	stp	x20, x19, [sp, #96]
	.cfi_offset w19, -8
	.cfi_offset w20, -16
	.cfi_offset w21, -24
	.cfi_offset w22, -32
	.cfi_offset w23, -40
	.cfi_offset w24, -48
	.cfi_offset w25, -56
	.cfi_offset w30, -64
	.cfi_remember_state
	ldr	x24, [x3, #16]
	ldr	x8, [x3]
	mov	x19, x3
	mov	x20, x2
	mov	x21, x1
	mov	w22, w0
	sub	x9, x8, x24
	cmp	x9, #10
	b.hs	.LBB51_7
	cmn	x24, #11
	b.hi	.LBB51_12
	lsl	x9, x8, #1
	add	x25, x24, #10
	cmp	x9, x25
	csel	x23, x9, x25, hi
	tbnz	x23, #63, .LBB51_12
	cbz	x8, .LBB51_5
	ldr	x9, [x19, #8]
	str	x8, [sp, #40]
	mov	w8, #1
	str	x9, [sp, #24]
.LBB51_5:
	mov	x0, sp
	add	x3, sp, #24
	mov	w1, #1
	mov	x2, x23
	str	x8, [sp, #32]
	bl	_RINvNtCs00000000000_5alloc7raw_vec11finish_growNtNtB4_5alloc6GlobalECs00000000001_10pkcs1_tool
	ldr	w8, [sp]
	cmp	w8, #1
	b.eq	.LBB51_12
	ldr	x8, [sp, #8]
	stp	x23, x8, [x19]
	b	.LBB51_8
.LBB51_7:
	ldr	x8, [x19, #8]
	add	x25, x24, #10
.LBB51_8:
	adrp	x9, .Lanon.57
	add	x9, x9, :lo12:.Lanon.57
	add	x8, x8, x24
	ldr	x9, [x9]
	mov	w10, #15731
	and	x0, x22, #0xff
	mov	x1, x19
	strh	w10, [x8, #8]
	str	x9, [x8]
	str	x25, [x19, #16]
	bl	_RNvNtNtNtCs00000000001_10pkcs1_tool4tool13pkcs1_program6digits11put_decimal
	tbnz	w0, #0, .LBB51_12
	ldr	x23, [x19, #16]
	ldr	x8, [x19]
	sub	x9, x8, x23
	cmp	x9, #7
	b.hs	.LBB51_13
	cmn	x23, #8
	b.hi	.LBB51_12
	lsl	x9, x8, #1
	add	x24, x23, #7
	mov	w10, #8
	cmp	x9, x24
	csel	x9, x9, x24, hi
	cmp	x9, #8
	csel	x22, x9, x10, hi
	tbz	x22, #63, .LBB51_15
.LBB51_12:
	ldp	x20, x19, [sp, #96]
	mov	w0, #1
	ldp	x22, x21, [sp, #80]
	ldp	x24, x23, [sp, #64]
	ldp	x30, x25, [sp, #48]
	add	sp, sp, #112
	.cfi_def_cfa_offset 0
	.cfi_restore w19
	.cfi_restore w20
	.cfi_restore w21
	.cfi_restore w22
	.cfi_restore w23
	.cfi_restore w24
	.cfi_restore w25
	.cfi_restore w30
	ret
.LBB51_13:
	.cfi_restore_state
	.cfi_remember_state
	ldr	x8, [x19, #8]
	add	x24, x23, #7
.LBB51_14:
	add	x8, x8, x23
	mov	w9, #26977
	mov	w10, #24864
	mov	x0, x21
	mov	x1, x20
	mov	x2, x19
	str	x24, [x19, #16]
	ldp	x20, x19, [sp, #96]
	ldp	x22, x21, [sp, #80]
	movk	w9, #15726, lsl #16
	ldp	x24, x23, [sp, #64]
	movk	w10, #24935, lsl #16
	ldp	x30, x25, [sp, #48]
	stur	w9, [x8, #3]
	str	w10, [x8]
	add	sp, sp, #112
	.cfi_def_cfa_offset 0
	.cfi_restore w19
	.cfi_restore w20
	.cfi_restore w21
	.cfi_restore w22
	.cfi_restore w23
	.cfi_restore w24
	.cfi_restore w25
	.cfi_restore w30
	b	_RNvNtNtNtCs00000000001_10pkcs1_tool4tool13pkcs1_program6digits7put_hex
.LBB51_15:
	.cfi_restore_state
	cbz	x8, .LBB51_17
	ldr	x9, [x19, #8]
	str	x8, [sp, #40]
	mov	w8, #1
	str	x9, [sp, #24]
.LBB51_17:
	mov	x0, sp
	add	x3, sp, #24
	mov	w1, #1
	mov	x2, x22
	str	x8, [sp, #32]
	bl	_RINvNtCs00000000000_5alloc7raw_vec11finish_growNtNtB4_5alloc6GlobalECs00000000001_10pkcs1_tool
	ldr	w8, [sp]
	cmp	w8, #1
	b.eq	.LBB51_12
	ldr	x8, [sp, #8]
	stp	x22, x8, [x19]
	b	.LBB51_14
.Lfunc_end51:
	.size	_RNvNtNtNtCs00000000001_10pkcs1_tool4tool13pkcs1_program14parameter_text12put_spelling, .Lfunc_end51-_RNvNtNtNtCs00000000001_10pkcs1_tool4tool13pkcs1_program14parameter_text12put_spelling
	.cfi_endproc

	.section	.text._RNvXNtNtNtCs00000000001_10pkcs1_tool4tool13pkcs1_program14parameter_textINtNtNtNtB8_6proved12pkcs1_params3pss11PssParamsOfNtNtNtB1f_9spki_core17object_identifier16ObjectIdentifierNtNtB20_3any6AnyRefENtB2_10Parameters4read,"ax",@progbits
	.p2align	2
	.type	_RNvXNtNtNtCs00000000001_10pkcs1_tool4tool13pkcs1_program14parameter_textINtNtNtNtB8_6proved12pkcs1_params3pss11PssParamsOfNtNtNtB1f_9spki_core17object_identifier16ObjectIdentifierNtNtB20_3any6AnyRefENtB2_10Parameters4read,@function
_RNvXNtNtNtCs00000000001_10pkcs1_tool4tool13pkcs1_program14parameter_textINtNtNtNtB8_6proved12pkcs1_params3pss11PssParamsOfNtNtNtB1f_9spki_core17object_identifier16ObjectIdentifierNtNtB20_3any6AnyRefENtB2_10Parameters4read:
	.cfi_startproc
	hint	#38
	sub	sp, sp, #496
	.cfi_def_cfa_offset 496
	stp	x29, x30, [sp, #416]
	stp	x26, x25, [sp, #432]
	stp	x24, x23, [sp, #448]
	stp	x22, x21, [sp, #464]
	stp	x20, x19, [sp, #480]
	.cfi_offset w19, -8
	.cfi_offset w20, -16
	.cfi_offset w21, -24
	.cfi_offset w22, -32
	.cfi_offset w23, -40
	.cfi_offset w24, -48
	.cfi_offset w25, -56
	.cfi_offset w26, -64
	.cfi_offset w30, -72
	.cfi_offset w29, -80
	.cfi_remember_state
	lsr	x8, x2, #32
	mov	x19, x0
	cbnz	x8, .LBB52_19
	subs	x10, x2, #2
	b.lo	.LBB52_15
	mov	x8, x1
	ldrb	w9, [x8], #2
	cmp	w9, #48
	b.ne	.LBB52_15
	ldrsb	w9, [x1, #1]
	tbnz	w9, #31, .LBB52_5
	and	x9, x9, #0xff
	subs	x25, x10, x9
	b.hs	.LBB52_17
	b	.LBB52_15
.LBB52_5:
	and	w9, w9, #0xff
	cmp	w9, #130
	b.ne	.LBB52_10
	cmp	x10, #1
	b.ls	.LBB52_15
	ldrb	w8, [x1, #2]
	cbz	x8, .LBB52_15
	ldrb	w9, [x1, #3]
	orr	x9, x9, x8, lsl #8
	sub	x8, x2, #4
	subs	x25, x8, x9
	b.lo	.LBB52_15
	add	x8, x1, #4
	b	.LBB52_17
.LBB52_10:
	cbz	x10, .LBB52_15
	cmp	w9, #129
	b.ne	.LBB52_15
	ldrsb	w8, [x8]
	tbz	w8, #31, .LBB52_15
	sub	x10, x2, #3
	and	x9, x8, #0xff
	subs	x25, x10, x9
	b.lo	.LBB52_15
	add	x8, x1, #3
	b	.LBB52_17
.LBB52_15:
	add	x0, sp, #304
	mov	w3, #48
	bl	_RNvNtNtNtCs00000000001_10pkcs1_tool6proved8der_core5split14split_unlikely
	ldr	x8, [sp, #304]
	cbz	x8, .LBB52_19
	ldr	x9, [sp, #312]
	ldr	x25, [sp, #328]
.LBB52_17:
	add	x0, sp, #304
	mov	x1, x8
	mov	x2, x9
	bl	_RNvNtNtNtCs00000000001_10pkcs1_tool6proved12pkcs1_params6noting8note_pss
	ldrb	w8, [sp, #408]
	cmp	w8, #2
	b.eq	.LBB52_19
	ldp	x12, x23, [sp, #336]
	add	x24, sp, #144
	ldr	q0, [sp, #320]
	ldp	x22, x21, [sp, #360]
	ldrb	w8, [sp, #314]
	ldrh	w9, [sp, #312]
	ldrb	w10, [sp, #319]
	ldur	w11, [x24, #171]
	ldr	x1, [sp, #304]
	str	q0, [sp, #144]
	ldur	q0, [x24, #232]
	str	x12, [sp, #160]
	ldr	x12, [sp, #392]
	ldr	x20, [sp, #352]
	str	q0, [sp, #96]
	str	x12, [sp, #112]
	cbz	x25, .LBB52_21
.LBB52_19:
	mov	w8, #2
	str	x8, [x19]
.LBB52_20:
	ldp	x20, x19, [sp, #480]
	ldp	x22, x21, [sp, #464]
	ldp	x24, x23, [sp, #448]
	ldp	x26, x25, [sp, #432]
	ldp	x29, x30, [sp, #416]
	add	sp, sp, #496
	.cfi_def_cfa_offset 0
	.cfi_restore w19
	.cfi_restore w20
	.cfi_restore w21
	.cfi_restore w22
	.cfi_restore w23
	.cfi_restore w24
	.cfi_restore w25
	.cfi_restore w26
	.cfi_restore w30
	.cfi_restore w29
	ret
.LBB52_21:
	.cfi_restore_state
	ldr	q0, [sp, #144]
	ldr	x12, [sp, #160]
	ldr	q1, [sp, #96]
	ldr	x13, [sp, #112]
	ldrb	w25, [sp, #400]
	str	q0, [sp, #64]
	str	x12, [sp, #80]
	str	q1, [sp, #32]
	str	x13, [sp, #48]
	cbz	x1, .LBB52_19
	ldr	q0, [sp, #64]
	orr	w26, w9, w8, lsl #16
	orr	x8, x11, x10, lsl #32
	ldr	x9, [sp, #80]
	ldr	x10, [sp, #48]
	stur	xzr, [x24, #191]
	str	q0, [sp, #272]
	ldr	q0, [sp, #32]
	mov	x2, x26
	bfi	x2, x8, #24, #40
	str	x9, [sp, #288]
	str	q0, [sp]
	movi	v0.2d, #0000000000000000
	cmp	x2, #40
	str	x10, [sp, #16]
	stp	q0, q0, [sp, #304]
	b.hs	.LBB52_29
	add	x0, sp, #304
	bl	memcpy
	ldp	q0, q1, [sp, #304]
	cmp	x20, #40
	ldur	x8, [x24, #191]
	stur	xzr, [x24, #191]
	stp	q0, q1, [sp, #96]
	movi	v0.2d, #0000000000000000
	stur	x8, [sp, #127]
	stp	q0, q0, [sp, #304]
	b.hs	.LBB52_30
	add	x0, sp, #304
	mov	x1, x23
	mov	x2, x20
	bl	memcpy
	ldp	q0, q1, [sp, #304]
	ldur	x8, [x24, #191]
	stp	q0, q1, [sp, #144]
	stur	x8, [x24, #31]
	cbz	x22, .LBB52_27
	movi	v0.2d, #0000000000000000
	cmp	x21, #40
	stur	xzr, [x24, #191]
	stp	q0, q0, [sp, #304]
	b.hs	.LBB52_31
	add	x0, sp, #304
	mov	x1, x22
	mov	x2, x21
	bl	memcpy
	ldur	q0, [x24, #163]
	ldur	q1, [x24, #179]
	ldrb	w8, [sp, #306]
	ldrh	w10, [sp, #304]
	ldur	w9, [x24, #195]
	ldr	x11, [sp, #16]
	stp	q0, q1, [sp, #224]
	ldr	q0, [sp]
	orr	w8, w10, w8, lsl #16
	str	w9, [sp, #256]
	mov	w9, #1
	str	q0, [sp, #192]
	str	x11, [sp, #208]
	b	.LBB52_28
.LBB52_27:
	mov	x9, xzr
.LBB52_28:
	ldp	q0, q1, [sp, #144]
	ldur	x10, [x24, #31]
	strh	w8, [x19, #8]
	ldur	x11, [sp, #127]
	str	x9, [x19]
	stur	q0, [x19, #72]
	ldp	q0, q2, [sp, #96]
	stur	q1, [x19, #88]
	ldr	q1, [sp, #272]
	stur	x10, [x19, #103]
	ldr	x10, [sp, #288]
	stp	q0, q2, [x19, #112]
	stur	q1, [x19, #152]
	ldp	q0, q1, [sp, #224]
	str	x10, [x19, #168]
	lsr	w10, w8, #16
	ldr	w8, [sp, #256]
	stur	x11, [x19, #143]
	stur	q0, [x19, #11]
	ldr	q0, [sp, #192]
	stur	w8, [x19, #43]
	ldr	x8, [sp, #208]
	strb	w10, [x19, #10]
	stur	q1, [x19, #27]
	strb	w21, [x19, #47]
	str	q0, [x19, #48]
	str	x8, [x19, #64]
	strb	w20, [x19, #111]
	strb	w26, [x19, #151]
	strb	w25, [x19, #176]
	b	.LBB52_20
.LBB52_29:
	mov	x0, x2
	mov	w1, #39
	brk	#0x1
.LBB52_30:
	mov	x0, x20
	mov	w1, #39
	brk	#0x1
.LBB52_31:
	mov	x0, x21
	mov	w1, #39
	brk	#0x1
.Lfunc_end52:
	.size	_RNvXNtNtNtCs00000000001_10pkcs1_tool4tool13pkcs1_program14parameter_textINtNtNtNtB8_6proved12pkcs1_params3pss11PssParamsOfNtNtNtB1f_9spki_core17object_identifier16ObjectIdentifierNtNtB20_3any6AnyRefENtB2_10Parameters4read, .Lfunc_end52-_RNvXNtNtNtCs00000000001_10pkcs1_tool4tool13pkcs1_program14parameter_textINtNtNtNtB8_6proved12pkcs1_params3pss11PssParamsOfNtNtNtB1f_9spki_core17object_identifier16ObjectIdentifierNtNtB20_3any6AnyRefENtB2_10Parameters4read
	.cfi_endproc

	.section	.text._RNvXs_NtNtNtCs00000000001_10pkcs1_tool4tool13pkcs1_program14parameter_textINtNtNtNtBa_6proved12pkcs1_params4oaep12OaepParamsOfNtNtNtB1h_9spki_core17object_identifier16ObjectIdentifierNtNtB24_3any6AnyRefENtB4_10Parameters4read,"ax",@progbits
	.p2align	2
	.type	_RNvXs_NtNtNtCs00000000001_10pkcs1_tool4tool13pkcs1_program14parameter_textINtNtNtNtBa_6proved12pkcs1_params4oaep12OaepParamsOfNtNtNtB1h_9spki_core17object_identifier16ObjectIdentifierNtNtB24_3any6AnyRefENtB4_10Parameters4read,@function
_RNvXs_NtNtNtCs00000000001_10pkcs1_tool4tool13pkcs1_program14parameter_textINtNtNtNtBa_6proved12pkcs1_params4oaep12OaepParamsOfNtNtNtB1h_9spki_core17object_identifier16ObjectIdentifierNtNtB24_3any6AnyRefENtB4_10Parameters4read:
	.cfi_startproc
	hint	#38
	stp	x29, x30, [sp, #-96]!
	.cfi_def_cfa_offset 96
	stp	x28, x27, [sp, #16]
	stp	x26, x25, [sp, #32]
	stp	x24, x23, [sp, #48]
	stp	x22, x21, [sp, #64]
	stp	x20, x19, [sp, #80]
	.cfi_offset w19, -8
	.cfi_offset w20, -16
	.cfi_offset w21, -24
	.cfi_offset w22, -32
	.cfi_offset w23, -40
	.cfi_offset w24, -48
	.cfi_offset w25, -56
	.cfi_offset w26, -64
	.cfi_offset w27, -72
	.cfi_offset w28, -80
	.cfi_offset w30, -88
	.cfi_offset w29, -96
	sub	sp, sp, #560
	.cfi_def_cfa_offset 656
	.cfi_remember_state
	lsr	x8, x2, #32
	mov	x19, x0
	cbnz	x8, .LBB53_19
	subs	x10, x2, #2
	b.lo	.LBB53_15
	mov	x8, x1
	ldrb	w9, [x8], #2
	cmp	w9, #48
	b.ne	.LBB53_15
	ldrsb	w9, [x1, #1]
	tbnz	w9, #31, .LBB53_5
	and	x9, x9, #0xff
	subs	x27, x10, x9
	b.hs	.LBB53_17
	b	.LBB53_15
.LBB53_5:
	and	w9, w9, #0xff
	cmp	w9, #130
	b.ne	.LBB53_10
	cmp	x10, #1
	b.ls	.LBB53_15
	ldrb	w8, [x1, #2]
	cbz	x8, .LBB53_15
	ldrb	w9, [x1, #3]
	orr	x9, x9, x8, lsl #8
	sub	x8, x2, #4
	subs	x27, x8, x9
	b.lo	.LBB53_15
	add	x8, x1, #4
	b	.LBB53_17
.LBB53_10:
	cbz	x10, .LBB53_15
	cmp	w9, #129
	b.ne	.LBB53_15
	ldrsb	w8, [x8]
	tbz	w8, #31, .LBB53_15
	sub	x10, x2, #3
	and	x9, x8, #0xff
	subs	x27, x10, x9
	b.lo	.LBB53_15
	add	x8, x1, #3
	b	.LBB53_17
.LBB53_15:
	add	x0, sp, #416
	mov	w3, #48
	bl	_RNvNtNtNtCs00000000001_10pkcs1_tool6proved8der_core5split14split_unlikely
	ldr	x8, [sp, #416]
	cbz	x8, .LBB53_19
	ldr	x9, [sp, #424]
	ldr	x27, [sp, #440]
.LBB53_17:
	add	x0, sp, #416
	mov	x1, x8
	mov	x2, x9
	bl	_RNvNtNtNtCs00000000001_10pkcs1_tool6proved12pkcs1_params6noting9note_oaep
	ldrb	w8, [sp, #552]
	cmp	w8, #2
	b.eq	.LBB53_19
	ldp	x12, x25, [sp, #448]
	add	x26, sp, #416
	ldr	q0, [sp, #432]
	ldp	x24, x20, [sp, #472]
	ldrb	w8, [sp, #426]
	ldrh	w9, [sp, #424]
	ldrb	w10, [sp, #431]
	str	x12, [sp, #272]
	ldur	w11, [x26, #11]
	ldr	x1, [sp, #416]
	str	q0, [sp, #256]
	ldur	q0, [x26, #72]
	ldr	x21, [sp, #464]
	ldr	x22, [sp, #520]
	ldp	x12, x23, [sp, #504]
	str	q0, [sp, #208]
	ldr	q0, [sp, #528]
	str	x12, [sp, #224]
	ldr	x12, [sp, #544]
	str	q0, [sp, #160]
	str	x12, [sp, #176]
	cbz	x27, .LBB53_21
.LBB53_19:
	mov	w8, #2
	str	x8, [x19]
.LBB53_20:
	add	sp, sp, #560
	.cfi_def_cfa_offset 96
	ldp	x20, x19, [sp, #80]
	ldp	x22, x21, [sp, #64]
	ldp	x24, x23, [sp, #48]
	ldp	x26, x25, [sp, #32]
	ldp	x28, x27, [sp, #16]
	ldp	x29, x30, [sp], #96
	.cfi_def_cfa_offset 0
	.cfi_restore w19
	.cfi_restore w20
	.cfi_restore w21
	.cfi_restore w22
	.cfi_restore w23
	.cfi_restore w24
	.cfi_restore w25
	.cfi_restore w26
	.cfi_restore w27
	.cfi_restore w28
	.cfi_restore w30
	.cfi_restore w29
	ret
.LBB53_21:
	.cfi_restore_state
	ldr	q0, [sp, #256]
	ldr	x12, [sp, #272]
	ldr	q1, [sp, #208]
	ldr	x13, [sp, #224]
	str	q0, [sp, #128]
	ldr	q0, [sp, #160]
	str	x12, [sp, #144]
	ldr	x12, [sp, #176]
	str	q1, [sp, #96]
	str	x13, [sp, #112]
	str	q0, [sp, #64]
	str	x12, [sp, #80]
	cbz	x1, .LBB53_19
	ldr	q0, [sp, #128]
	orr	w27, w9, w8, lsl #16
	orr	x9, x11, x10, lsl #32
	ldr	x8, [sp, #144]
	ldr	q1, [sp, #96]
	ldr	x10, [sp, #112]
	str	q0, [sp, #384]
	ldr	q0, [sp, #64]
	mov	x2, x27
	bfi	x2, x9, #24, #40
	str	x8, [sp, #400]
	ldr	x8, [sp, #80]
	str	q0, [sp]
	movi	v0.2d, #0000000000000000
	cmp	x2, #40
	str	q1, [sp, #32]
	str	x10, [sp, #48]
	str	x8, [sp, #16]
	stur	xzr, [x26, #31]
	stp	q0, q0, [sp, #416]
	b.hs	.LBB53_30
	add	x0, sp, #416
	add	x28, sp, #160
	bl	memcpy
	ldp	q0, q1, [sp, #416]
	cmp	x21, #40
	ldur	x8, [x26, #31]
	stur	xzr, [x26, #31]
	stp	q0, q1, [sp, #160]
	movi	v0.2d, #0000000000000000
	stur	x8, [x28, #31]
	stp	q0, q0, [sp, #416]
	b.hs	.LBB53_31
	add	x0, sp, #416
	mov	x1, x25
	mov	x2, x21
	bl	memcpy
	ldp	q0, q1, [sp, #416]
	ldur	x8, [x26, #31]
	stp	q0, q1, [sp, #256]
	stur	x8, [x28, #127]
	cbz	x24, .LBB53_27
	movi	v0.2d, #0000000000000000
	cmp	x20, #40
	stur	xzr, [x26, #31]
	stp	q0, q0, [sp, #416]
	b.hs	.LBB53_33
	add	x0, sp, #416
	mov	x1, x24
	mov	x2, x20
	bl	memcpy
	ldur	q0, [x26, #3]
	ldur	q1, [x26, #19]
	mov	w25, #1
	ldrb	w8, [sp, #418]
	ldur	w9, [x26, #35]
	ldrh	w10, [sp, #416]
	stp	q0, q1, [sp, #336]
	ldr	q0, [sp, #32]
	str	w9, [sp, #368]
	orr	w24, w10, w8, lsl #16
	ldr	x9, [sp, #48]
	str	q0, [sp, #304]
	str	x9, [sp, #320]
	b	.LBB53_28
.LBB53_27:
	mov	x25, xzr
.LBB53_28:
	movi	v2.2d, #0000000000000000
	ldp	q0, q1, [sp, #256]
	ldur	x8, [x28, #127]
	cmp	x22, #40
	stur	xzr, [x26, #31]
	stp	q0, q1, [sp, #208]
	stur	x8, [x28, #79]
	stp	q2, q2, [sp, #416]
	b.hs	.LBB53_32
	add	x0, sp, #416
	mov	x1, x23
	mov	x2, x22
	bl	memcpy
	ldp	q0, q1, [sp, #416]
	ldur	x8, [x26, #31]
	ldr	x9, [sp, #16]
	ldr	q2, [sp]
	str	x25, [x19]
	strh	w24, [x19, #8]
	stp	q0, q1, [x19, #176]
	ldp	q0, q1, [sp, #160]
	stur	x8, [x19, #207]
	ldur	x8, [x28, #31]
	str	x9, [x19, #232]
	ldr	x9, [sp, #400]
	stp	q0, q1, [x19, #112]
	ldp	q0, q1, [sp, #336]
	stur	x8, [x19, #143]
	ldr	w8, [sp, #368]
	stur	q2, [x19, #216]
	ldr	q2, [sp, #384]
	stp	q0, q1, [sp, #416]
	ldp	q0, q1, [sp, #208]
	str	x9, [x19, #168]
	ldr	x9, [sp, #320]
	str	w8, [sp, #448]
	ldur	x8, [x28, #79]
	stur	q0, [x19, #72]
	stur	q1, [x19, #88]
	ldp	q0, q1, [sp, #416]
	stur	q2, [x19, #152]
	ldr	q2, [sp, #304]
	str	x9, [x19, #64]
	lsr	w9, w24, #16
	stur	x8, [x19, #103]
	ldr	w8, [sp, #448]
	str	q2, [x19, #48]
	stur	q0, [x19, #11]
	strb	w9, [x19, #10]
	stur	q1, [x19, #27]
	stur	w8, [x19, #43]
	strb	w20, [x19, #47]
	strb	w21, [x19, #111]
	strb	w27, [x19, #151]
	strb	w22, [x19, #215]
	b	.LBB53_20
.LBB53_30:
	mov	x0, x2
	mov	w1, #39
	brk	#0x1
.LBB53_31:
	mov	x0, x21
	mov	w1, #39
	brk	#0x1
.LBB53_32:
	mov	x0, x22
	mov	w1, #39
	brk	#0x1
.LBB53_33:
	mov	x0, x20
	mov	w1, #39
	brk	#0x1
.Lfunc_end53:
	.size	_RNvXs_NtNtNtCs00000000001_10pkcs1_tool4tool13pkcs1_program14parameter_textINtNtNtNtBa_6proved12pkcs1_params4oaep12OaepParamsOfNtNtNtB1h_9spki_core17object_identifier16ObjectIdentifierNtNtB24_3any6AnyRefENtB4_10Parameters4read, .Lfunc_end53-_RNvXs_NtNtNtCs00000000001_10pkcs1_tool4tool13pkcs1_program14parameter_textINtNtNtNtBa_6proved12pkcs1_params4oaep12OaepParamsOfNtNtNtB1h_9spki_core17object_identifier16ObjectIdentifierNtNtB24_3any6AnyRefENtB4_10Parameters4read
	.cfi_endproc

	.section	.rodata.cst16,"aM",@progbits,16
	.p2align	4, 0x0
.LCPI54_0:
	.xword	0
	.xword	16
	.section	.rodata.cst8,"aM",@progbits,8
	.p2align	3, 0x0
.LCPI54_1:
	.word	32
	.word	8
	.section	.text._RNvXs_NtNtNtCs00000000001_10pkcs1_tool4tool13pkcs1_program11replace_stdRNtNtBa_10rattle_std11HostRuntimeNtNtB6_7replace12ReplaceFiles6targetBa_,"ax",@progbits
	.p2align	2
	.type	_RNvXs_NtNtNtCs00000000001_10pkcs1_tool4tool13pkcs1_program11replace_stdRNtNtBa_10rattle_std11HostRuntimeNtNtB6_7replace12ReplaceFiles6targetBa_,@function
_RNvXs_NtNtNtCs00000000001_10pkcs1_tool4tool13pkcs1_program11replace_stdRNtNtBa_10rattle_std11HostRuntimeNtNtB6_7replace12ReplaceFiles6targetBa_:
	.cfi_startproc
	hint	#38
	stp	x29, x30, [sp, #-96]!
	.cfi_def_cfa_offset 96
	stp	x28, x27, [sp, #16]
	stp	x26, x25, [sp, #32]
	stp	x24, x23, [sp, #48]
	stp	x22, x21, [sp, #64]
	stp	x20, x19, [sp, #80]
	.cfi_offset w19, -8
	.cfi_offset w20, -16
	.cfi_offset w21, -24
	.cfi_offset w22, -32
	.cfi_offset w23, -40
	.cfi_offset w24, -48
	.cfi_offset w25, -56
	.cfi_offset w26, -64
	.cfi_offset w27, -72
	.cfi_offset w28, -80
	.cfi_offset w30, -88
	.cfi_offset w29, -96
	sub	sp, sp, #1, lsl #12
	.cfi_def_cfa_offset 4192
	str	xzr, [sp]
	sub	sp, sp, #1, lsl #12
	.cfi_def_cfa_offset 8288
	str	xzr, [sp]
	sub	sp, sp, #1, lsl #12
	.cfi_def_cfa_offset 12384
	str	xzr, [sp], #-96
	.cfi_def_cfa_offset 12480
	.cfi_remember_state
	mov	x19, x0
	add	x0, sp, #2, lsl #12
	mov	w3, #1
	add	x0, x0, #40
	mov	x20, x2
	mov	x23, x1
	add	x24, sp, #2, lsl #12
	bl	_RNvNtNtCs00000000001_10pkcs1_tool10rattle_std6system4look
	ldrb	w8, [x24, #40]!
	cmp	w8, #3
	b.ne	.LBB54_8
	ldrb	w8, [x24, #1]
	cmp	w8, #2
	b.ne	.LBB54_31
	add	x0, sp, #2, lsl #12
	mov	x1, x23
	mov	x2, x20
	add	x0, x0, #40
	mov	w3, wzr
	bl	_RNvNtNtCs00000000001_10pkcs1_tool10rattle_std6system4look
	ldrb	w8, [x24]
	cmp	w8, #3
	b.ne	.LBB54_20
	ldrb	w8, [x24, #1]
	cmp	w8, #2
	b.ne	.LBB54_31
	cbz	x20, .LBB54_34
	cmp	x20, #8
	mov	w8, #8
	csel	x21, x20, x8, hi
	tbnz	x21, #63, .LBB54_43
	add	x3, sp, #2, lsl #12
	add	x0, sp, #40
	mov	w1, #1
	add	x3, x3, #40
	mov	x2, x21
	str	xzr, [sp, #8240]
	bl	_RINvNtCs00000000000_5alloc7raw_vec11finish_growNtNtB4_5alloc6GlobalECs00000000001_10pkcs1_tool
	ldr	w8, [sp, #40]
	cmp	w8, #1
	b.eq	.LBB54_43
	ldr	x22, [sp, #48]
	b	.LBB54_35
.LBB54_8:
	cbz	w8, .LBB54_10
	mov	x8, #2
	movk	x8, #32768, lsl #48
	b	.LBB54_32
.LBB54_10:
	add	x0, sp, #2, lsl #12
	ldr	x26, [sp, #8240]
	ldr	x25, [sp, #8248]
	ldr	w28, [sp, #8264]
	add	x0, x0, #40
	mov	w1, wzr
	mov	w2, #4096
	add	x21, sp, #2, lsl #12
	add	x21, x21, #40
	bl	memset
	cmp	x20, #1, lsl #12
	b.hi	.LBB54_30
	add	x0, sp, #2, lsl #12
	mov	x1, x23
	mov	x2, x20
	add	x0, x0, #40
	bl	memcpy
	add	x8, x21, #7
	and	x8, x8, #0xfffffffffffffff8
	subs	x8, x8, x21
	b.eq	.LBB54_15
	add	x11, sp, #2, lsl #12
	mov	x9, xzr
	mov	w10, #1
	add	x11, x11, #40
.LBB54_13:
	ldrb	w12, [x11, x9]
	cbz	w12, .LBB54_26
	add	x9, x9, #1
	cmp	x8, x9
	b.ne	.LBB54_13
.LBB54_15:
	mov	x9, #72340172838076673
	mov	x10, #-9187201950435737472
	movk	x9, #256
	dup	v0.2d, x9
	add	x9, sp, #2, lsl #12
	add	x9, x9, #40
.LBB54_16:
	ldr	q1, [x9, x8]
	sub	v2.2d, v0.2d, v1.2d
	orr	v1.16b, v2.16b, v1.16b
	mov	x11, v1.d[1]
	fmov	x12, d1
	and	x11, x12, x11
	bics	xzr, x10, x11
	b.ne	.LBB54_21
	add	x11, x8, #16
	cmp	x8, #4064
	mov	x8, x11
	b.ls	.LBB54_16
	cmp	x11, #1, lsl #12
	b.eq	.LBB54_25
	add	x8, sp, #2, lsl #12
	mov	w10, #4096
	add	x8, x8, #40
	sub	x10, x10, x11
	add	x9, x8, x11
	mov	x8, x11
	b	.LBB54_22
.LBB54_20:
	mov	x8, #-9223372036854775807
	b	.LBB54_32
.LBB54_21:
	add	x9, sp, #2, lsl #12
	mov	w10, #4096
	add	x9, x9, #40
	sub	x10, x10, x8
	add	x9, x9, x8
.LBB54_22:
	mov	x11, xzr
.LBB54_23:
	ldrb	w12, [x9, x11]
	cbz	w12, .LBB54_27
	add	x11, x11, #1
	cmp	x10, x11
	b.ne	.LBB54_23
.LBB54_25:
	mov	x10, xzr
.LBB54_26:
	add	x8, sp, #2, lsl #12
	cmp	x10, #0
	add	x8, x8, #40
	csel	x0, xzr, x8, eq
	cbnz	x10, .LBB54_28
	b	.LBB54_30
.LBB54_27:
	add	x9, x11, x8
	mov	w10, #1
	add	x8, sp, #2, lsl #12
	cmp	x10, #0
	add	x8, x8, #40
	csel	x0, xzr, x8, eq
	cbz	x10, .LBB54_30
.LBB54_28:
	cmp	x9, x20
	b.ne	.LBB54_30
	mov	x1, x23
	mov	x2, x20
	bl	memcmp
	cbz	w0, .LBB54_36
.LBB54_30:
	mov	x8, xzr
	mov	w9, #1
	and	x10, xzr, #0xff
	orr	x9, x9, x10
	cbz	x9, .LBB54_39
.LBB54_31:
	mov	x8, #-9223372036854775808
.LBB54_32:
	str	x8, [x19]
.LBB54_33:
	add	sp, sp, #3, lsl #12
	.cfi_def_cfa_offset 192
	add	sp, sp, #96
	.cfi_def_cfa_offset 96
	ldp	x20, x19, [sp, #80]
	ldp	x22, x21, [sp, #64]
	ldp	x24, x23, [sp, #48]
	ldp	x26, x25, [sp, #32]
	ldp	x28, x27, [sp, #16]
	ldp	x29, x30, [sp], #96
	.cfi_def_cfa_offset 0
	.cfi_restore w19
	.cfi_restore w20
	.cfi_restore w21
	.cfi_restore w22
	.cfi_restore w23
	.cfi_restore w24
	.cfi_restore w25
	.cfi_restore w26
	.cfi_restore w27
	.cfi_restore w28
	.cfi_restore w30
	.cfi_restore w29
	ret
.LBB54_34:
	.cfi_restore_state
	mov	x21, xzr
	mov	w22, #1
.LBB54_35:
	mov	x0, x22
	mov	x1, x23
	mov	x2, x20
	bl	memcpy
	mov	w29, wzr
	b	.LBB54_57
.LBB54_36:
	add	x8, sp, #2, lsl #12
	add	x0, sp, #1, lsl #12
	ldrb	w21, [x24]
	add	x8, x8, #40
	add	x0, x0, #40
	mov	w2, #4095
	orr	x1, x8, #0x1
	bl	memcpy
	add	x8, sp, #40
	add	x1, sp, #1, lsl #12
	mov	w2, #4095
	orr	x0, x8, #0x1
	add	x1, x1, #40
	strb	w21, [sp, #40]
	bl	memcpy
	add	x0, sp, #40
	mov	w1, #1
	mov	w2, #438
	bl	pkcs1_os_open
	tbnz	x0, #63, .LBB54_38
	lsr	x8, x0, #31
	lsl	x10, x0, #32
	cmp	x8, #0
	cset	w9, ne
	csel	x8, xzr, x10, ne
	and	x10, x8, #0xff
	orr	x9, x9, x10
	cbnz	x9, .LBB54_31
	b	.LBB54_39
.LBB54_38:
	add	x8, x0, #4
	cmp	x8, #3
	mov	x8, xzr
	mov	w9, #1
	and	x10, xzr, #0xff
	orr	x9, x9, x10
	cbnz	x9, .LBB54_31
.LBB54_39:
	lsr	x0, x8, #32
	bl	pkcs1_os_close
	add	x0, sp, #2, lsl #12
	mov	x1, x23
	mov	x2, x20
	add	x0, x0, #40
	mov	w3, wzr
	bl	_RNvNtNtCs00000000001_10pkcs1_tool10rattle_std6system4look
	ldrb	w8, [x24]
	cmp	w8, #1
	b.eq	.LBB54_44
	cmp	w8, #3
	b.eq	.LBB54_31
	cbz	x20, .LBB54_54
	cmp	x20, #8
	mov	w8, #8
	csel	x21, x20, x8, hi
	tbz	x21, #63, .LBB54_92
.LBB54_43:
	mov	x8, #-9223372036854775805
	b	.LBB54_32
.LBB54_44:
	add	x0, sp, #2, lsl #12
	mov	x1, x23
	mov	x2, x20
	add	x0, x0, #40
	bl	_ZN4core3str8converts9from_utf817h0000000000000004E
	ldr	w8, [sp, #8232]
	ldr	x9, [sp, #8240]
	add	x0, sp, #2, lsl #12
	ldr	x10, [sp, #8248]
	add	x0, x0, #40
	mov	w1, wzr
	cmp	w8, #0
	mov	w2, #4096
	csel	x20, xzr, x10, ne
	csinc	x21, x9, xzr, eq
	bl	memset
	cmp	x20, #1, lsl #12
	b.hi	.LBB54_31
	add	x0, sp, #2, lsl #12
	mov	x1, x21
	mov	x2, x20
	add	x0, x0, #40
	bl	memcpy
	add	x0, sp, #2, lsl #12
	add	x0, x0, #40
	bl	_ZN4core3ffi5c_str4CStr20from_bytes_until_nul17h0000000000000005E
	cbz	x0, .LBB54_31
	sub	x8, x1, #1
	cmp	x8, x20
	b.ne	.LBB54_31
	mov	x1, x21
	mov	x2, x20
	bl	memcmp
	cbnz	w0, .LBB54_31
	add	x8, sp, #2, lsl #12
	add	x0, sp, #1, lsl #12
	ldrb	w20, [x24]
	add	x8, x8, #40
	add	x0, x0, #40
	mov	w2, #4095
	orr	x1, x8, #0x1
	bl	memcpy
	add	x0, sp, #2, lsl #12
	mov	w1, wzr
	mov	w2, #4096
	add	x0, x0, #40
	bl	memset
	add	x8, sp, #40
	add	x1, sp, #1, lsl #12
	mov	w2, #4095
	orr	x0, x8, #0x1
	add	x1, x1, #40
	strb	w20, [sp, #40]
	bl	memcpy
	add	x1, sp, #2, lsl #12
	add	x0, sp, #40
	add	x1, x1, #40
	bl	pkcs1_os_real_path
	tbnz	x0, #63, .LBB54_94
	add	x0, sp, #2, lsl #12
	add	x0, x0, #40
	bl	_ZN4core3ffi5c_str4CStr20from_bytes_until_nul17h0000000000000005E
	cbz	x0, .LBB54_31
	subs	x20, x1, #1
	b.eq	.LBB54_95
	cmp	x20, #8
	mov	w8, #8
	csel	x21, x20, x8, hi
	tbnz	x21, #63, .LBB54_43
	mov	x23, x0
	add	x0, sp, #3, lsl #12
	add	x3, sp, #3, lsl #12
	add	x0, x0, #40
	add	x3, x3, #64
	mov	w1, #1
	mov	x2, x21
	str	xzr, [sp, #12360]
	bl	_RINvNtCs00000000000_5alloc7raw_vec11finish_growNtNtB4_5alloc6GlobalECs00000000001_10pkcs1_tool
	ldr	w8, [sp, #12328]
	cmp	w8, #1
	b.eq	.LBB54_43
	ldr	x22, [sp, #12336]
	b	.LBB54_96
.LBB54_54:
	mov	x21, xzr
	mov	w22, #1
.LBB54_55:
	mov	x0, x22
	mov	x1, x23
	mov	x2, x20
	bl	memcpy
.LBB54_56:
	mov	w29, #1
.LBB54_57:
	add	x0, sp, #3, lsl #12
	mov	w1, #8
	str	xzr, [sp, #12376]
	add	x0, x0, #88
	bl	pkcs1_os_random
	add	x9, sp, #3, lsl #12
	ldr	x8, [sp, #12376]
	adrp	x10, _ZN4core3fmt3num53_$LT$impl$u20$core..fmt..LowerHex$u20$for$u20$i64$GT$3fmt17h0000000000000006E
	add	x10, x10, :lo12:_ZN4core3fmt3num53_$LT$impl$u20$core..fmt..LowerHex$u20$for$u20$i64$GT$3fmt17h0000000000000006E
	add	x9, x9, #40
	add	x0, sp, #1, lsl #12
	str	x9, [sp, #12352]
	mov	w9, #2
	rev	x8, x8
	str	x10, [sp, #12360]
	adrp	x10, .LCPI54_0
	adrp	x1, .Lanon.1
	add	x1, x1, :lo12:.Lanon.1
	str	x9, [sp, #8232]
	ldr	q0, [x10, :lo12:.LCPI54_0]
	add	x9, sp, #1, lsl #12
	str	x8, [sp, #12328]
	adrp	x8, .LCPI54_1
	add	x9, x9, #3897
	add	x0, x0, #40
	add	x2, sp, #40
	stur	q0, [x9, #255]
	ldr	d0, [x8, :lo12:.LCPI54_1]
	mov	w8, #3
	strb	w8, [x24, #48]
	adrp	x8, .Lanon.58
	add	x8, x8, :lo12:.Lanon.58
	mov	w9, #1
	str	xzr, [sp, #8264]
	stp	x8, x9, [sp, #40]
	add	x8, sp, #2, lsl #12
	add	x8, x8, #40
	str	d0, [sp, #8272]
	stp	x8, x9, [sp, #72]
	add	x8, sp, #3, lsl #12
	add	x8, x8, #64
	str	xzr, [sp, #4136]
	stp	x8, x9, [sp, #56]
	str	x9, [sp, #4144]
	str	xzr, [sp, #4152]
	bl	_ZN4core3fmt5write17h0000000000000000E
	cbz	w0, .LBB54_60
	ldr	x8, [sp, #4136]
	cbz	x8, .LBB54_89
	ldr	x0, [sp, #4144]
	bl	free
	b	.LBB54_89
.LBB54_60:
	ldr	x23, [sp, #4136]
	mov	x8, #-9223372036854775808
	cmp	x23, x8
	b.eq	.LBB54_89
	ldr	x8, [sp, #4144]
	ldr	x24, [sp, #4152]
	sub	x9, x22, #1
	mov	x11, x20
	str	x8, [sp, #32]
.LBB54_62:
	mov	x8, x11
	subs	x10, x11, #1
	b.ls	.LBB54_65
	ldrb	w11, [x9, x8]
	cmp	w11, #46
	b.ne	.LBB54_66
	sub	x11, x8, #2
	ldrb	w12, [x22, x11]
	cmp	w12, #47
	b.ne	.LBB54_66
	b	.LBB54_67
.LBB54_65:
	cbz	x8, .LBB54_68
.LBB54_66:
	ldrb	w11, [x22, x10]
	cmp	w11, #47
	mov	x11, x10
	b.ne	.LBB54_68
.LBB54_67:
	cbnz	x11, .LBB54_62
.LBB54_68:
	mov	w26, #1
	mov	x9, x8
	str	w29, [sp, #28]
.LBB54_69:
	mov	x27, x9
	cbz	x9, .LBB54_76
	add	x9, x22, x27
	ldurb	w9, [x9, #-1]
	cmp	w9, #47
	sub	x9, x27, #1
	b.ne	.LBB54_69
	cmp	x27, x8
	b.hi	.LBB54_106
	cbz	x27, .LBB54_77
	cmp	x27, #8
	mov	w8, #8
	csel	x25, x27, x8, hi
	tbnz	x25, #63, .LBB54_83
	add	x3, sp, #2, lsl #12
	add	x0, sp, #40
	mov	w1, #1
	add	x3, x3, #40
	mov	x2, x25
	str	xzr, [sp, #8240]
	bl	_RINvNtCs00000000000_5alloc7raw_vec11finish_growNtNtB4_5alloc6GlobalECs00000000001_10pkcs1_tool
	ldr	w8, [sp, #40]
	cmp	w8, #1
	b.eq	.LBB54_83
	ldr	x26, [sp, #48]
	b	.LBB54_78
.LBB54_76:
	mov	x25, xzr
	b	.LBB54_78
.LBB54_77:
	mov	x25, xzr
	mov	w26, #1
.LBB54_78:
	mov	x0, x26
	mov	x1, x22
	mov	x2, x27
	bl	memcpy
	sub	x8, x25, x27
	cmp	x8, x24
	b.hs	.LBB54_84
	cmn	x27, x24
	b.hs	.LBB54_81
	lsl	x8, x25, #1
	add	x29, x27, x24
	mov	w9, #8
	cmp	x8, x29
	csel	x8, x8, x29, hi
	cmp	x8, #8
	csel	x2, x8, x9, hi
	tbz	x2, #63, .LBB54_99
.LBB54_81:
	cbz	x25, .LBB54_83
	mov	x0, x26
	bl	free
.LBB54_83:
	mov	x25, #-9223372036854775808
	b	.LBB54_86
.LBB54_84:
	add	x29, x27, x24
.LBB54_85:
	ldr	x1, [sp, #32]
	add	x0, x26, x27
	mov	x2, x24
	bl	memcpy
.LBB54_86:
	cbz	x23, .LBB54_88
	ldr	x0, [sp, #32]
	bl	free
.LBB54_88:
	mov	x8, #-9223372036854775808
	cmp	x25, x8
	b.ne	.LBB54_91
.LBB54_89:
	mov	x8, #-9223372036854775805
	str	x8, [x19]
	cbz	x21, .LBB54_33
	mov	x0, x22
	bl	free
	b	.LBB54_33
.LBB54_91:
	ldr	w8, [sp, #28]
	stp	x21, x22, [x19]
	stp	x20, x25, [x19, #16]
	stp	x26, x29, [x19, #32]
	stp	w8, w28, [x19, #48]
	b	.LBB54_33
.LBB54_92:
	add	x3, sp, #2, lsl #12
	add	x0, sp, #40
	mov	w1, #1
	add	x3, x3, #40
	mov	x2, x21
	str	xzr, [sp, #8240]
	bl	_RINvNtCs00000000000_5alloc7raw_vec11finish_growNtNtB4_5alloc6GlobalECs00000000001_10pkcs1_tool
	ldr	w8, [sp, #40]
	cmp	w8, #1
	b.eq	.LBB54_43
	ldr	x22, [sp, #48]
	b	.LBB54_55
.LBB54_94:
	cmn	x0, #2
	b.ne	.LBB54_31
	b	.LBB54_43
.LBB54_95:
	mov	x23, x0
	mov	x21, xzr
	mov	w22, #1
.LBB54_96:
	mov	x0, x22
	mov	x1, x23
	mov	x2, x20
	bl	memcpy
	add	x0, sp, #2, lsl #12
	mov	x1, x22
	mov	x2, x20
	add	x0, x0, #40
	mov	w3, #1
	bl	_RNvNtNtCs00000000001_10pkcs1_tool10rattle_std6system4look
	ldrb	w8, [x24]
	cmp	w8, #3
	b.ne	.LBB54_101
.LBB54_97:
	cbz	x21, .LBB54_31
	mov	x0, x22
	bl	free
	b	.LBB54_31
.LBB54_99:
	cbnz	x25, .LBB54_103
	mov	x8, xzr
	b	.LBB54_104
.LBB54_101:
	ldr	x8, [sp, #8240]
	cmp	x8, x26
	b.ne	.LBB54_97
	ldr	x8, [sp, #8248]
	cmp	x8, x25
	b.eq	.LBB54_56
	b	.LBB54_97
.LBB54_103:
	mov	w8, #1
	str	x26, [sp, #8232]
	str	x25, [sp, #8248]
.LBB54_104:
	add	x3, sp, #2, lsl #12
	add	x0, sp, #40
	mov	w1, #1
	add	x3, x3, #40
	str	x8, [sp, #8240]
	str	x2, [sp, #16]
	bl	_RINvNtCs00000000000_5alloc7raw_vec11finish_growNtNtB4_5alloc6GlobalECs00000000001_10pkcs1_tool
	ldr	w8, [sp, #40]
	cmp	w8, #1
	b.eq	.LBB54_81
	ldr	x26, [sp, #48]
	ldr	x25, [sp, #16]
	b	.LBB54_85
.LBB54_106:
	brk	#0x1
.Lfunc_end54:
	.size	_RNvXs_NtNtNtCs00000000001_10pkcs1_tool4tool13pkcs1_program11replace_stdRNtNtBa_10rattle_std11HostRuntimeNtNtB6_7replace12ReplaceFiles6targetBa_, .Lfunc_end54-_RNvXs_NtNtNtCs00000000001_10pkcs1_tool4tool13pkcs1_program11replace_stdRNtNtBa_10rattle_std11HostRuntimeNtNtB6_7replace12ReplaceFiles6targetBa_
	.cfi_endproc

	.section	.text._RNvXs_NtNtNtCs00000000001_10pkcs1_tool4tool13pkcs1_program11replace_stdRNtNtBa_10rattle_std11HostRuntimeNtNtB6_7replace12ReplaceFiles10create_newBa_,"ax",@progbits
	.p2align	2
	.type	_RNvXs_NtNtNtCs00000000001_10pkcs1_tool4tool13pkcs1_program11replace_stdRNtNtBa_10rattle_std11HostRuntimeNtNtB6_7replace12ReplaceFiles10create_newBa_,@function
_RNvXs_NtNtNtCs00000000001_10pkcs1_tool4tool13pkcs1_program11replace_stdRNtNtBa_10rattle_std11HostRuntimeNtNtB6_7replace12ReplaceFiles10create_newBa_:
	.cfi_startproc
	hint	#38
	stp	x29, x30, [sp, #-64]!
	.cfi_def_cfa_offset 64
	stp	x24, x23, [sp, #16]
	stp	x22, x21, [sp, #32]
	stp	x20, x19, [sp, #48]
	.cfi_offset w19, -8
	.cfi_offset w20, -16
	.cfi_offset w21, -24
	.cfi_offset w22, -32
	.cfi_offset w23, -40
	.cfi_offset w24, -48
	.cfi_offset w30, -56
	.cfi_offset w29, -64
	sub	sp, sp, #1, lsl #12
	.cfi_def_cfa_offset 4160
	str	xzr, [sp]
	sub	sp, sp, #1, lsl #12
	.cfi_def_cfa_offset 8256
	str	xzr, [sp]
	sub	sp, sp, #1, lsl #12
	.cfi_def_cfa_offset 12352
	.cfi_remember_state
	mov	x22, x2
	mov	x23, x1
	mov	x19, x0
	add	x0, sp, #2, lsl #12
	mov	w1, wzr
	mov	w2, #4096
	str	xzr, [sp]
	mov	w21, w4
	mov	w20, w3
	add	x24, sp, #2, lsl #12
	bl	memset
	cmp	x22, #1, lsl #12
	b.hi	.LBB55_19
	add	x0, sp, #2, lsl #12
	mov	x1, x23
	mov	x2, x22
	bl	memcpy
	add	x8, x24, #7
	and	x8, x8, #0xfffffffffffffff8
	subs	x8, x8, x24
	b.eq	.LBB55_5
	mov	x9, xzr
	add	x11, sp, #2, lsl #12
	mov	w10, #1
.LBB55_3:
	ldrb	w12, [x11, x9]
	cbz	w12, .LBB55_15
	add	x9, x9, #1
	cmp	x8, x9
	b.ne	.LBB55_3
.LBB55_5:
	mov	x9, #72340172838076673
	mov	x10, #-9187201950435737472
	movk	x9, #256
	dup	v0.2d, x9
	add	x9, sp, #2, lsl #12
.LBB55_6:
	ldr	q1, [x9, x8]
	sub	v2.2d, v0.2d, v1.2d
	orr	v1.16b, v2.16b, v1.16b
	mov	x11, v1.d[1]
	fmov	x12, d1
	and	x11, x12, x11
	bics	xzr, x10, x11
	b.ne	.LBB55_10
	add	x11, x8, #16
	cmp	x8, #4064
	mov	x8, x11
	b.ls	.LBB55_6
	cmp	x11, #1, lsl #12
	b.eq	.LBB55_14
	add	x8, sp, #2, lsl #12
	mov	w10, #4096
	add	x9, x8, x11
	sub	x10, x10, x11
	mov	x8, x11
	b	.LBB55_11
.LBB55_10:
	add	x9, sp, #2, lsl #12
	mov	w10, #4096
	add	x9, x9, x8
	sub	x10, x10, x8
.LBB55_11:
	mov	x11, xzr
.LBB55_12:
	ldrb	w12, [x9, x11]
	cbz	w12, .LBB55_16
	add	x11, x11, #1
	cmp	x10, x11
	b.ne	.LBB55_12
.LBB55_14:
	mov	x10, xzr
.LBB55_15:
	cmp	x10, #0
	add	x8, sp, #2, lsl #12
	csel	x0, xzr, x8, eq
	cbnz	x10, .LBB55_17
	b	.LBB55_19
.LBB55_16:
	add	x9, x11, x8
	mov	w10, #1
	cmp	x10, #0
	add	x8, sp, #2, lsl #12
	csel	x0, xzr, x8, eq
	cbz	x10, .LBB55_19
.LBB55_17:
	cmp	x9, x22
	b.ne	.LBB55_19
	mov	x1, x23
	mov	x2, x22
	bl	memcmp
	cbz	w0, .LBB55_21
.LBB55_19:
	mov	w8, #1024
	mov	x22, xzr
	mov	w9, #1
	orr	x8, x8, xzr
	orr	w9, w8, w9
	tbz	w9, #0, .LBB55_23
.LBB55_20:
	mov	w8, #15
	strb	w8, [x19, #1]
	mov	w8, #1
	b	.LBB55_26
.LBB55_21:
	add	x8, sp, #1, lsl #12
	add	x0, sp, #1, lsl #12
	mov	w2, #4095
	add	x8, x8, #1
	ldrb	w22, [x8, #4095]
	add	x8, sp, #2, lsl #12
	orr	x1, x8, #0x1
	bl	memcpy
	mov	x8, sp
	add	x1, sp, #1, lsl #12
	mov	w2, #4095
	orr	x0, x8, #0x1
	strb	w22, [sp]
	bl	memcpy
	mov	x0, sp
	mov	w1, #2
	mov	w2, w20
	bl	pkcs1_os_open
	tbnz	x0, #63, .LBB55_27
	lsr	x8, x0, #31
	lsl	x10, x0, #32
	cmp	x8, #0
	mov	w8, #1024
	cset	w9, ne
	csel	x22, xzr, x10, ne
	orr	x8, x8, x22
	orr	w9, w8, w9
	tbnz	w9, #0, .LBB55_20
.LBB55_23:
	tbnz	w21, #0, .LBB55_25
	lsr	x0, x8, #32
	mov	w1, w20
	bl	pkcs1_os_set_mode
.LBB55_25:
	lsr	x9, x22, #32
	mov	w8, wzr
	str	xzr, [x19, #8]
	str	w9, [x19, #16]
.LBB55_26:
	strb	w8, [x19]
	add	sp, sp, #3, lsl #12
	.cfi_def_cfa_offset 64
	ldp	x20, x19, [sp, #48]
	ldp	x22, x21, [sp, #32]
	ldp	x24, x23, [sp, #16]
	ldp	x29, x30, [sp], #64
	.cfi_def_cfa_offset 0
	.cfi_restore w19
	.cfi_restore w20
	.cfi_restore w21
	.cfi_restore w22
	.cfi_restore w23
	.cfi_restore w24
	.cfi_restore w30
	.cfi_restore w29
	ret
.LBB55_27:
	.cfi_restore_state
	add	x8, x0, #4
	cmp	x8, #3
	b.hs	.LBB55_19
	mov	w9, #512
	sub	x8, x9, x8, lsl #8
	mov	x22, xzr
	mov	w9, #1
	orr	x8, x8, xzr
	orr	w9, w8, w9
	tbnz	w9, #0, .LBB55_20
	b	.LBB55_23
.Lfunc_end55:
	.size	_RNvXs_NtNtNtCs00000000001_10pkcs1_tool4tool13pkcs1_program11replace_stdRNtNtBa_10rattle_std11HostRuntimeNtNtB6_7replace12ReplaceFiles10create_newBa_, .Lfunc_end55-_RNvXs_NtNtNtCs00000000001_10pkcs1_tool4tool13pkcs1_program11replace_stdRNtNtBa_10rattle_std11HostRuntimeNtNtB6_7replace12ReplaceFiles10create_newBa_
	.cfi_endproc

	.section	.text._RNvXs_NtNtNtCs00000000001_10pkcs1_tool4tool13pkcs1_program11replace_stdRNtNtBa_10rattle_std11HostRuntimeNtNtB6_7replace12ReplaceFiles6renameBa_,"ax",@progbits
	.p2align	2
	.type	_RNvXs_NtNtNtCs00000000001_10pkcs1_tool4tool13pkcs1_program11replace_stdRNtNtBa_10rattle_std11HostRuntimeNtNtB6_7replace12ReplaceFiles6renameBa_,@function
_RNvXs_NtNtNtCs00000000001_10pkcs1_tool4tool13pkcs1_program11replace_stdRNtNtBa_10rattle_std11HostRuntimeNtNtB6_7replace12ReplaceFiles6renameBa_:
	.cfi_startproc
	hint	#38
	str	x29, [sp, #-64]!
	.cfi_def_cfa_offset 64
	stp	x30, x23, [sp, #16]
	stp	x22, x21, [sp, #32]
	stp	x20, x19, [sp, #48]
	.cfi_offset w19, -8
	.cfi_offset w20, -16
	.cfi_offset w21, -24
	.cfi_offset w22, -32
	.cfi_offset w23, -40
	.cfi_offset w30, -48
	.cfi_offset w29, -64
	sub	sp, sp, #1, lsl #12
	.cfi_def_cfa_offset 4160
	str	xzr, [sp]
	sub	sp, sp, #1, lsl #12
	.cfi_def_cfa_offset 8256
	str	xzr, [sp]
	sub	sp, sp, #1, lsl #12
	.cfi_def_cfa_offset 12352
	str	xzr, [sp]
	sub	sp, sp, #1, lsl #12
	.cfi_def_cfa_offset 16448
	.cfi_remember_state
	mov	x20, x2
	mov	x21, x1
	mov	x22, x0
	add	x0, sp, #3, lsl #12
	mov	w1, wzr
	mov	w2, #4096
	str	xzr, [sp]
	mov	x19, x3
	add	x23, sp, #3, lsl #12
	bl	memset
	cmp	x21, #1, lsl #12
	b.hi	.LBB56_38
	add	x0, sp, #3, lsl #12
	mov	x1, x22
	mov	x2, x21
	bl	memcpy
	add	x8, x23, #7
	and	x8, x8, #0xfffffffffffffff8
	subs	x8, x8, x23
	b.eq	.LBB56_5
	mov	x9, xzr
	add	x11, sp, #3, lsl #12
	mov	w10, #1
.LBB56_3:
	ldrb	w12, [x11, x9]
	cbz	w12, .LBB56_15
	add	x9, x9, #1
	cmp	x8, x9
	b.ne	.LBB56_3
.LBB56_5:
	mov	x9, #72340172838076673
	mov	x10, #-9187201950435737472
	movk	x9, #256
	dup	v0.2d, x9
	add	x9, sp, #3, lsl #12
.LBB56_6:
	ldr	q1, [x9, x8]
	sub	v2.2d, v0.2d, v1.2d
	orr	v1.16b, v2.16b, v1.16b
	mov	x11, v1.d[1]
	fmov	x12, d1
	and	x11, x12, x11
	bics	xzr, x10, x11
	b.ne	.LBB56_10
	add	x11, x8, #16
	cmp	x8, #4064
	mov	x8, x11
	b.ls	.LBB56_6
	cmp	x11, #1, lsl #12
	b.eq	.LBB56_14
	add	x8, sp, #3, lsl #12
	mov	w10, #4096
	add	x9, x8, x11
	sub	x10, x10, x11
	mov	x8, x11
	b	.LBB56_11
.LBB56_10:
	add	x9, sp, #3, lsl #12
	mov	w10, #4096
	add	x9, x9, x8
	sub	x10, x10, x8
.LBB56_11:
	mov	x11, xzr
.LBB56_12:
	ldrb	w12, [x9, x11]
	cbz	w12, .LBB56_16
	add	x11, x11, #1
	cmp	x10, x11
	b.ne	.LBB56_12
.LBB56_14:
	mov	x10, xzr
.LBB56_15:
	cmp	x10, #0
	add	x8, sp, #3, lsl #12
	csel	x0, xzr, x8, eq
	cbnz	x10, .LBB56_17
	b	.LBB56_38
.LBB56_16:
	add	x9, x11, x8
	mov	w10, #1
	cmp	x10, #0
	add	x8, sp, #3, lsl #12
	csel	x0, xzr, x8, eq
	cbz	x10, .LBB56_38
.LBB56_17:
	cmp	x9, x21
	b.ne	.LBB56_38
	mov	x1, x22
	mov	x2, x21
	bl	memcmp
	cbnz	w0, .LBB56_38
	add	x21, sp, #3, lsl #12
	add	x8, sp, #3, lsl #12
	add	x0, sp, #1, lsl #12
	ldrb	w22, [x21]
	orr	x1, x8, #0x1
	mov	w2, #4095
	bl	memcpy
	add	x0, sp, #3, lsl #12
	mov	w1, wzr
	mov	w2, #4096
	add	x23, sp, #3, lsl #12
	bl	memset
	cmp	x19, #1, lsl #12
	b.hi	.LBB56_38
	add	x0, sp, #3, lsl #12
	mov	x1, x20
	mov	x2, x19
	bl	memcpy
	add	x8, x23, #7
	and	x8, x8, #0xfffffffffffffff8
	subs	x8, x8, x23
	b.eq	.LBB56_24
	mov	x9, xzr
	add	x11, sp, #3, lsl #12
	mov	w10, #1
.LBB56_22:
	ldrb	w12, [x11, x9]
	cbz	w12, .LBB56_35
	add	x9, x9, #1
	cmp	x8, x9
	b.ne	.LBB56_22
.LBB56_24:
	mov	x9, #72340172838076673
	mov	x10, #-9187201950435737472
	movk	x9, #256
	dup	v0.2d, x9
	add	x9, sp, #3, lsl #12
.LBB56_25:
	ldr	q1, [x9, x8]
	sub	v2.2d, v0.2d, v1.2d
	orr	v1.16b, v2.16b, v1.16b
	mov	x11, v1.d[1]
	fmov	x12, d1
	and	x11, x12, x11
	bics	xzr, x10, x11
	b.ne	.LBB56_29
	add	x11, x8, #16
	cmp	x8, #4064
	mov	x8, x11
	b.ls	.LBB56_25
	cmp	x11, #1, lsl #12
	b.eq	.LBB56_33
	add	x8, sp, #3, lsl #12
	mov	w10, #4096
	add	x9, x8, x11
	sub	x10, x10, x11
	mov	x8, x11
	b	.LBB56_30
.LBB56_29:
	add	x9, sp, #3, lsl #12
	mov	w10, #4096
	add	x9, x9, x8
	sub	x10, x10, x8
.LBB56_30:
	mov	x11, xzr
.LBB56_31:
	ldrb	w12, [x9, x11]
	cbz	w12, .LBB56_34
	add	x11, x11, #1
	cmp	x10, x11
	b.ne	.LBB56_31
.LBB56_33:
	mov	x10, xzr
	b	.LBB56_35
.LBB56_34:
	add	x9, x11, x8
	mov	w10, #1
.LBB56_35:
	cmp	x10, #0
	add	x8, sp, #3, lsl #12
	csel	x0, xzr, x8, eq
	cbz	x10, .LBB56_38
	cmp	x9, x19
	b.ne	.LBB56_38
	mov	x1, x20
	mov	x2, x19
	bl	memcmp
	cbz	w0, .LBB56_39
.LBB56_38:
	mov	w0, #4
	add	sp, sp, #4, lsl #12
	.cfi_def_cfa_offset 64
	ldp	x20, x19, [sp, #48]
	ldp	x22, x21, [sp, #32]
	ldp	x30, x23, [sp, #16]
	ldr	x29, [sp], #64
	.cfi_def_cfa_offset 0
	.cfi_restore w19
	.cfi_restore w20
	.cfi_restore w21
	.cfi_restore w22
	.cfi_restore w23
	.cfi_restore w30
	.cfi_restore w29
	ret
.LBB56_39:
	.cfi_restore_state
	.cfi_remember_state
	add	x20, sp, #3, lsl #12
	ldrb	w19, [x21]
	add	x0, sp, #2, lsl #12
	orr	x1, x20, #0x1
	mov	w2, #4095
	bl	memcpy
	mov	x8, sp
	add	x1, sp, #1, lsl #12
	mov	w2, #4095
	orr	x0, x8, #0x1
	strb	w22, [sp]
	bl	memcpy
	orr	x0, x20, #0x1
	add	x1, sp, #2, lsl #12
	mov	w2, #4095
	strb	w19, [x21]
	bl	memcpy
	mov	x0, sp
	add	x1, sp, #3, lsl #12
	bl	pkcs1_os_rename
	tbnz	x0, #63, .LBB56_41
	mov	w0, #5
	add	sp, sp, #4, lsl #12
	.cfi_def_cfa_offset 64
	ldp	x20, x19, [sp, #48]
	ldp	x22, x21, [sp, #32]
	ldp	x30, x23, [sp, #16]
	ldr	x29, [sp], #64
	.cfi_def_cfa_offset 0
	.cfi_restore w19
	.cfi_restore w20
	.cfi_restore w21
	.cfi_restore w22
	.cfi_restore w23
	.cfi_restore w30
	.cfi_restore w29
	ret
.LBB56_41:
	.cfi_restore_state
	add	x8, x0, #4
	cmp	x8, #2
	b.hi	.LBB56_38
	mov	w9, #2
	sub	w0, w9, w8
	add	sp, sp, #4, lsl #12
	.cfi_def_cfa_offset 64
	ldp	x20, x19, [sp, #48]
	ldp	x22, x21, [sp, #32]
	ldp	x30, x23, [sp, #16]
	ldr	x29, [sp], #64
	.cfi_def_cfa_offset 0
	.cfi_restore w19
	.cfi_restore w20
	.cfi_restore w21
	.cfi_restore w22
	.cfi_restore w23
	.cfi_restore w30
	.cfi_restore w29
	ret
.Lfunc_end56:
	.size	_RNvXs_NtNtNtCs00000000001_10pkcs1_tool4tool13pkcs1_program11replace_stdRNtNtBa_10rattle_std11HostRuntimeNtNtB6_7replace12ReplaceFiles6renameBa_, .Lfunc_end56-_RNvXs_NtNtNtCs00000000001_10pkcs1_tool4tool13pkcs1_program11replace_stdRNtNtBa_10rattle_std11HostRuntimeNtNtB6_7replace12ReplaceFiles6renameBa_
	.cfi_endproc

	.section	.text._RNvXs_NtNtNtCs00000000001_10pkcs1_tool4tool13pkcs1_program11replace_stdRNtNtBa_10rattle_std11HostRuntimeNtNtB6_7replace12ReplaceFiles9sync_nameBa_,"ax",@progbits
	.p2align	2
	.type	_RNvXs_NtNtNtCs00000000001_10pkcs1_tool4tool13pkcs1_program11replace_stdRNtNtBa_10rattle_std11HostRuntimeNtNtB6_7replace12ReplaceFiles9sync_nameBa_,@function
_RNvXs_NtNtNtCs00000000001_10pkcs1_tool4tool13pkcs1_program11replace_stdRNtNtBa_10rattle_std11HostRuntimeNtNtB6_7replace12ReplaceFiles9sync_nameBa_:
	.cfi_startproc
	hint	#38
	str	x29, [sp, #-48]!
	.cfi_def_cfa_offset 48
	stp	x30, x21, [sp, #16]
	stp	x20, x19, [sp, #32]
	.cfi_offset w19, -8
	.cfi_offset w20, -16
	.cfi_offset w21, -24
	.cfi_offset w30, -32
	.cfi_offset w29, -48
	sub	sp, sp, #1, lsl #12
	.cfi_def_cfa_offset 4144
	str	xzr, [sp]
	sub	sp, sp, #1, lsl #12
	.cfi_def_cfa_offset 8240
	str	xzr, [sp]
	sub	sp, sp, #1, lsl #12
	.cfi_def_cfa_offset 12336
	.cfi_remember_state
	mov	x20, x0
	sub	x9, x0, #1
	str	xzr, [sp]
.LBB57_1:
	mov	x8, x1
	subs	x10, x1, #1
	b.ls	.LBB57_4
	ldrb	w11, [x9, x8]
	cmp	w11, #46
	b.ne	.LBB57_5
	sub	x1, x8, #2
	ldrb	w11, [x20, x1]
	cmp	w11, #47
	b.ne	.LBB57_5
	b	.LBB57_6
.LBB57_4:
	cbz	x8, .LBB57_7
.LBB57_5:
	ldrb	w11, [x20, x10]
	mov	x1, x10
	cmp	w11, #47
	b.ne	.LBB57_7
.LBB57_6:
	cbnz	x1, .LBB57_1
.LBB57_7:
	mov	x9, x8
.LBB57_8:
	mov	x19, x9
	cbz	x9, .LBB57_11
	add	x9, x20, x19
	ldurb	w9, [x9, #-1]
	cmp	w9, #47
	sub	x9, x19, #1
	b.ne	.LBB57_8
	cmp	x19, x8
	b.hi	.LBB57_42
.LBB57_11:
	add	x0, sp, #2, lsl #12
	mov	x1, x20
	mov	x2, x19
	bl	_ZN4core3str8converts9from_utf817h0000000000000004E
	ldr	x8, [sp, #8208]
	ldr	w9, [sp, #8192]
	add	x0, sp, #2, lsl #12
	mov	w1, wzr
	mov	w2, #4096
	add	x21, sp, #2, lsl #12
	cmp	x8, #0
	cset	w8, eq
	orr	w8, w9, w8
	cmp	w8, #0
	adrp	x8, .Lanon.59
	add	x8, x8, :lo12:.Lanon.59
	csinc	x19, x19, xzr, eq
	csel	x20, x8, x20, ne
	bl	memset
	cmp	x19, #1, lsl #12
	b.hi	.LBB57_30
	add	x0, sp, #2, lsl #12
	mov	x1, x20
	mov	x2, x19
	bl	memcpy
	add	x8, x21, #7
	and	x8, x8, #0xfffffffffffffff8
	subs	x8, x8, x21
	b.eq	.LBB57_16
	mov	x9, xzr
	add	x11, sp, #2, lsl #12
	mov	w10, #1
.LBB57_14:
	ldrb	w12, [x11, x9]
	cbz	w12, .LBB57_26
	add	x9, x9, #1
	cmp	x8, x9
	b.ne	.LBB57_14
.LBB57_16:
	mov	x9, #72340172838076673
	mov	x10, #-9187201950435737472
	movk	x9, #256
	dup	v0.2d, x9
	add	x9, sp, #2, lsl #12
.LBB57_17:
	ldr	q1, [x9, x8]
	sub	v2.2d, v0.2d, v1.2d
	orr	v1.16b, v2.16b, v1.16b
	mov	x11, v1.d[1]
	fmov	x12, d1
	and	x11, x12, x11
	bics	xzr, x10, x11
	b.ne	.LBB57_21
	add	x11, x8, #16
	cmp	x8, #4064
	mov	x8, x11
	b.ls	.LBB57_17
	cmp	x11, #1, lsl #12
	b.eq	.LBB57_25
	add	x8, sp, #2, lsl #12
	mov	w10, #4096
	add	x9, x8, x11
	sub	x10, x10, x11
	mov	x8, x11
	b	.LBB57_22
.LBB57_21:
	add	x9, sp, #2, lsl #12
	mov	w10, #4096
	add	x9, x9, x8
	sub	x10, x10, x8
.LBB57_22:
	mov	x11, xzr
.LBB57_23:
	ldrb	w12, [x9, x11]
	cbz	w12, .LBB57_27
	add	x11, x11, #1
	cmp	x10, x11
	b.ne	.LBB57_23
.LBB57_25:
	mov	x10, xzr
.LBB57_26:
	cmp	x10, #0
	add	x8, sp, #2, lsl #12
	csel	x0, xzr, x8, eq
	cbnz	x10, .LBB57_28
	b	.LBB57_30
.LBB57_27:
	add	x9, x11, x8
	mov	w10, #1
	cmp	x10, #0
	add	x8, sp, #2, lsl #12
	csel	x0, xzr, x8, eq
	cbz	x10, .LBB57_30
.LBB57_28:
	cmp	x9, x19
	b.ne	.LBB57_30
	mov	x1, x20
	mov	x2, x19
	bl	memcmp
	cbz	w0, .LBB57_32
.LBB57_30:
	mov	w8, #1024
	mov	w9, #1
	orr	x8, x8, xzr
	orr	w9, w8, w9
	tbz	w9, #0, .LBB57_34
.LBB57_31:
	lsr	x9, x8, #8
	and	x8, x8, #0xff00
	cmp	x8, #768
	mov	w8, #5
	csel	w20, w8, w9, eq
	mov	w0, w20
	add	sp, sp, #3, lsl #12
	.cfi_def_cfa_offset 48
	ldp	x20, x19, [sp, #32]
	ldp	x30, x21, [sp, #16]
	ldr	x29, [sp], #48
	.cfi_def_cfa_offset 0
	.cfi_restore w19
	.cfi_restore w20
	.cfi_restore w21
	.cfi_restore w30
	.cfi_restore w29
	ret
.LBB57_32:
	.cfi_restore_state
	.cfi_remember_state
	add	x8, sp, #1, lsl #12
	add	x0, sp, #1, lsl #12
	mov	w2, #4095
	add	x8, x8, #1
	ldrb	w19, [x8, #4095]
	add	x8, sp, #2, lsl #12
	orr	x1, x8, #0x1
	bl	memcpy
	mov	x8, sp
	add	x1, sp, #1, lsl #12
	mov	w2, #4095
	orr	x0, x8, #0x1
	strb	w19, [sp]
	bl	memcpy
	mov	x0, sp
	mov	w1, wzr
	mov	w2, wzr
	bl	pkcs1_os_open
	tbnz	x0, #63, .LBB57_40
	lsr	x8, x0, #31
	lsl	x10, x0, #32
	cmp	x8, #0
	mov	w8, #1024
	cset	w9, ne
	csel	x10, xzr, x10, ne
	orr	x8, x8, x10
	orr	w9, w8, w9
	tbnz	w9, #0, .LBB57_31
.LBB57_34:
	lsr	x19, x8, #32
	mov	w0, w19
	bl	pkcs1_os_sync
	tbnz	x0, #63, .LBB57_36
	mov	w20, #5
	b	.LBB57_39
.LBB57_36:
	add	x8, x0, #4
	cmp	x8, #2
	b.hi	.LBB57_38
	mov	w9, #2
	sub	w20, w9, w8
	b	.LBB57_39
.LBB57_38:
	mov	w20, #4
.LBB57_39:
	mov	w0, w19
	bl	pkcs1_os_close
	mov	w0, w20
	add	sp, sp, #3, lsl #12
	.cfi_def_cfa_offset 48
	ldp	x20, x19, [sp, #32]
	ldp	x30, x21, [sp, #16]
	ldr	x29, [sp], #48
	.cfi_def_cfa_offset 0
	.cfi_restore w19
	.cfi_restore w20
	.cfi_restore w21
	.cfi_restore w30
	.cfi_restore w29
	ret
.LBB57_40:
	.cfi_restore_state
	add	x8, x0, #4
	cmp	x8, #3
	b.hs	.LBB57_30
	mov	w9, #512
	sub	x8, x9, x8, lsl #8
	mov	w9, #1
	orr	x8, x8, xzr
	orr	w9, w8, w9
	tbnz	w9, #0, .LBB57_31
	b	.LBB57_34
.LBB57_42:
	brk	#0x1
.Lfunc_end57:
	.size	_RNvXs_NtNtNtCs00000000001_10pkcs1_tool4tool13pkcs1_program11replace_stdRNtNtBa_10rattle_std11HostRuntimeNtNtB6_7replace12ReplaceFiles9sync_nameBa_, .Lfunc_end57-_RNvXs_NtNtNtCs00000000001_10pkcs1_tool4tool13pkcs1_program11replace_stdRNtNtBa_10rattle_std11HostRuntimeNtNtB6_7replace12ReplaceFiles9sync_nameBa_
	.cfi_endproc

	.section	.text._RINvNtNtNtCs00000000001_10pkcs1_tool4tool13pkcs1_program8sequence13read_sequenceINtNtNtNtB8_6proved8der_core6std_io8FromReadNtNtNtB8_10rattle_std6system4FileEEB8_,"ax",@progbits
	.p2align	2
	.type	_RINvNtNtNtCs00000000001_10pkcs1_tool4tool13pkcs1_program8sequence13read_sequenceINtNtNtNtB8_6proved8der_core6std_io8FromReadNtNtNtB8_10rattle_std6system4FileEEB8_,@function
_RINvNtNtNtCs00000000001_10pkcs1_tool4tool13pkcs1_program8sequence13read_sequenceINtNtNtNtB8_6proved8der_core6std_io8FromReadNtNtNtB8_10rattle_std6system4FileEEB8_:
	.cfi_startproc
	hint	#38
	stp	x29, x30, [sp, #-96]!
	.cfi_def_cfa_offset 96
	stp	x28, x27, [sp, #16]
	stp	x26, x25, [sp, #32]
	stp	x24, x23, [sp, #48]
	stp	x22, x21, [sp, #64]
	stp	x20, x19, [sp, #80]
	.cfi_offset w19, -8
	.cfi_offset w20, -16
	.cfi_offset w21, -24
	.cfi_offset w22, -32
	.cfi_offset w23, -40
	.cfi_offset w24, -48
	.cfi_offset w25, -56
	.cfi_offset w26, -64
	.cfi_offset w27, -72
	.cfi_offset w28, -80
	.cfi_offset w30, -88
	.cfi_offset w29, -96
	sub	x9, sp, #16, lsl #12
	.cfi_def_cfa w9, 65632
.LBB58_1:
	sub	sp, sp, #1, lsl #12
	cmp	sp, x9
	str	xzr, [sp]
	b.ne	.LBB58_1
	.cfi_def_cfa_register wsp
	sub	sp, sp, #64
	.cfi_def_cfa_offset 65696
	.cfi_remember_state
	mov	x21, x1
	mov	x19, x0
	add	x26, sp, #16, lsl #12
	add	x0, sp, #8
	mov	w1, wzr
	mov	w2, #65536
	add	x26, x26, #8
	bl	memset
	mov	x29, xzr
	mov	x25, xzr
	mov	w20, #1
	mov	w27, #-1
	mov	w28, #8
	mov	x24, #-4294967296
.LBB58_3:
	ldr	w0, [x21, #8]
	add	x1, sp, #8
	mov	w2, #65536
	mov	x22, x29
	bl	pkcs1_os_read
	tbnz	x0, #63, .LBB58_67
	mov	x23, x0
	cbz	x0, .LBB58_68
	sub	x8, x27, x22
	cmp	x23, x8
	b.hi	.LBB58_69
	cmp	x23, #16, lsl #12
	b.hi	.LBB58_71
	sub	x8, x25, x22
	cmp	x8, x23
	b.hs	.LBB58_12
	cmn	x22, x23
	b.hs	.LBB58_64
	lsl	x8, x25, #1
	add	x29, x23, x22
	cmp	x8, x29
	csel	x8, x8, x29, hi
	cmp	x8, #8
	csel	x24, x8, x28, hi
	tbnz	x24, #63, .LBB58_64
	cbnz	x25, .LBB58_13
	mov	x8, xzr
	b	.LBB58_14
.LBB58_12:
	add	x29, x23, x22
	b	.LBB58_16
.LBB58_13:
	mov	w8, #1
	str	x20, [x26]
	str	x25, [x26, #16]
.LBB58_14:
	add	x0, sp, #16, lsl #12
	add	x3, sp, #16, lsl #12
	mov	w1, #1
	add	x0, x0, #40
	add	x3, x3, #8
	mov	x2, x24
	str	x8, [x26, #8]
	bl	_RINvNtCs00000000000_5alloc7raw_vec11finish_growNtNtB4_5alloc6GlobalECs00000000001_10pkcs1_tool
	ldr	w8, [x26, #32]
	cmp	w8, #1
	b.eq	.LBB58_64
	ldr	x20, [x26, #40]
	mov	x25, x24
	mov	x24, #-4294967296
.LBB58_16:
	add	x0, x20, x22
	add	x1, sp, #8
	mov	x2, x23
	bl	memcpy
	add	x8, x29, x24
	mov	x9, #-4294967295
	cmp	x8, x9
	b.lo	.LBB58_70
	ldrb	w9, [x20]
	cmp	x29, #1
	b.eq	.LBB58_25
	and	w8, w9, #0x1f
	cmp	w8, #31
	b.eq	.LBB58_25
	and	w8, w9, #0xffffffdf
	cbz	w8, .LBB58_25
	ldrsb	w13, [x20, #1]
	sub	x8, x29, #2
	mov	x11, x8
	and	x12, x13, #0xff
	and	w10, w13, #0xff
	tbnz	w13, #31, .LBB58_32
.LBB58_21:
	cmp	w9, #48
	b.ne	.LBB58_26
	cmp	x11, x12
	b.ls	.LBB58_48
	tbnz	w10, #7, .LBB58_28
.LBB58_24:
	mov	w9, w10
	subs	x8, x8, x9
	b.hs	.LBB58_43
	b	.LBB58_50
.LBB58_25:
	subs	x8, x29, #2
	b.lo	.LBB58_50
.LBB58_26:
	cmp	w9, #48
	b.ne	.LBB58_50
	ldrb	w10, [x20, #1]
	tbz	w10, #7, .LBB58_24
.LBB58_28:
	cmp	w10, #130
	b.ne	.LBB58_39
	cmp	x8, #1
	b.ls	.LBB58_50
	ldrb	w8, [x20, #2]
	cbz	x8, .LBB58_50
	ldrb	w9, [x20, #3]
	orr	x8, x9, x8, lsl #8
	sub	x9, x29, #4
	subs	x8, x9, x8
	b.hs	.LBB58_43
	b	.LBB58_50
.LBB58_32:
	cmp	w10, #128
	b.eq	.LBB58_26
	cmp	w10, #132
	b.hi	.LBB58_26
	and	x12, x12, #0x7f
	subs	x11, x8, x12
	b.lo	.LBB58_26
	cbz	w12, .LBB58_26
	cmp	w12, #1
	b.ne	.LBB58_55
	ldrsb	w12, [x20, #2]
	tbz	w12, #31, .LBB58_26
	and	x12, x12, #0xff
	b	.LBB58_21
.LBB58_39:
	cbz	x8, .LBB58_50
	cmp	w10, #129
	b.ne	.LBB58_50
	ldrsb	w8, [x20, #2]
	tbz	w8, #31, .LBB58_50
	sub	x9, x29, #3
	and	x8, x8, #0xff
	subs	x8, x9, x8
	b.lo	.LBB58_50
.LBB58_43:
	cbnz	x8, .LBB58_62
.LBB58_44:
	cmp	x29, #8
	add	x0, sp, #16, lsl #12
	add	x3, sp, #16, lsl #12
	csel	x2, x29, x28, hi
	add	x0, x0, #40
	add	x3, x3, #8
	mov	w1, #1
	str	xzr, [x26, #8]
	bl	_RINvNtCs00000000000_5alloc7raw_vec11finish_growNtNtB4_5alloc6GlobalECs00000000001_10pkcs1_tool
	ldr	w8, [x26, #32]
	cmp	w8, #1
	b.ne	.LBB58_47
	mov	w8, wzr
.LBB58_46:
	mov	w9, #17
	b	.LBB58_49
.LBB58_47:
	ldr	x0, [x26, #40]
	bl	free
.LBB58_48:
	mov	w9, #17
.LBB58_49:
	cmp	w9, #17
	b.eq	.LBB58_3
	b	.LBB58_63
.LBB58_50:
	add	x0, sp, #16, lsl #12
	mov	x1, x20
	mov	x2, x29
	add	x0, x0, #8
	mov	w3, #48
	bl	_RNvNtNtNtCs00000000001_10pkcs1_tool6proved8der_core5split14split_unlikely
	ldr	x8, [x26]
	cbz	x8, .LBB58_52
	ldr	x8, [x26, #24]
	cbz	x8, .LBB58_44
	b	.LBB58_62
.LBB58_52:
	ldrb	w8, [x26, #10]
	ldrh	w9, [x26, #8]
	orr	w8, w9, w8, lsl #16
	and	w9, w8, #0xff
	lsr	w8, w8, #8
	cmp	w9, #1
	b.eq	.LBB58_46
	cmp	w9, #16
	b.eq	.LBB58_46
	cmp	w9, #17
	b.ne	.LBB58_49
	b	.LBB58_44
.LBB58_55:
	ldrb	w13, [x20, #2]
	cbz	x13, .LBB58_26
	cmp	w12, #2
	b.eq	.LBB58_59
	cmp	w12, #3
	b.ne	.LBB58_60
	lsl	x12, x13, #16
	ldrb	w13, [x20, #3]
	orr	x12, x12, x13, lsl #8
	ldrb	w13, [x20, #4]
	orr	x12, x12, x13
	b	.LBB58_21
.LBB58_59:
	ldrb	w12, [x20, #3]
	orr	x12, x12, x13, lsl #8
	b	.LBB58_21
.LBB58_60:
	cmp	w12, #4
	b.ne	.LBB58_72
	lsl	x12, x13, #24
	ldrb	w13, [x20, #3]
	orr	x12, x12, x13, lsl #16
	ldrb	w13, [x20, #4]
	orr	x12, x12, x13, lsl #8
	ldrb	w13, [x20, #5]
	orr	x12, x12, x13
	b	.LBB58_21
.LBB58_62:
	mov	w8, wzr
	mov	w9, #12
.LBB58_63:
	strb	w9, [x19, #8]
	sturh	w8, [x19, #9]
	mov	x8, #-9223372036854775808
	str	x8, [x19]
	cbnz	x25, .LBB58_65
	b	.LBB58_66
.LBB58_64:
	mov	w8, #16
	strb	w8, [x19, #8]
	mov	x8, #-9223372036854775808
	str	x8, [x19]
	cbz	x25, .LBB58_66
.LBB58_65:
	mov	x0, x20
	bl	free
.LBB58_66:
	add	sp, sp, #16, lsl #12
	.cfi_def_cfa_offset 160
	add	sp, sp, #64
	.cfi_def_cfa_offset 96
	ldp	x20, x19, [sp, #80]
	ldp	x22, x21, [sp, #64]
	ldp	x24, x23, [sp, #48]
	ldp	x26, x25, [sp, #32]
	ldp	x28, x27, [sp, #16]
	ldp	x29, x30, [sp], #96
	.cfi_def_cfa_offset 0
	.cfi_restore w19
	.cfi_restore w20
	.cfi_restore w21
	.cfi_restore w22
	.cfi_restore w23
	.cfi_restore w24
	.cfi_restore w25
	.cfi_restore w26
	.cfi_restore w27
	.cfi_restore w28
	.cfi_restore w30
	.cfi_restore w29
	ret
.LBB58_67:
	.cfi_restore_state
	ldr	x8, [x21]
	mov	w9, #15
	strb	w9, [x19, #8]
	adds	x8, x8, #1
	csinv	x8, x8, xzr, lo
	str	x8, [x21]
	mov	x8, #-9223372036854775808
	str	x8, [x19]
	cbnz	x25, .LBB58_65
	b	.LBB58_66
.LBB58_68:
	stp	x25, x20, [x19]
	str	x22, [x19, #16]
	b	.LBB58_66
.LBB58_69:
	mov	w8, #7
	strb	w8, [x19, #8]
	mov	x8, #-9223372036854775808
	str	x8, [x19]
	cbnz	x25, .LBB58_65
	b	.LBB58_66
.LBB58_70:
	mov	w8, wzr
	mov	w9, #7
	b	.LBB58_63
.LBB58_71:
	mov	x0, x23
	mov	w1, #65536
	brk	#0x1
.LBB58_72:
	brk	#0x1
.Lfunc_end58:
	.size	_RINvNtNtNtCs00000000001_10pkcs1_tool4tool13pkcs1_program8sequence13read_sequenceINtNtNtNtB8_6proved8der_core6std_io8FromReadNtNtNtB8_10rattle_std6system4FileEEB8_, .Lfunc_end58-_RINvNtNtNtCs00000000001_10pkcs1_tool4tool13pkcs1_program8sequence13read_sequenceINtNtNtNtB8_6proved8der_core6std_io8FromReadNtNtNtB8_10rattle_std6system4FileEEB8_
	.cfi_endproc

	.section	.text._RNvNtNtNtCs00000000001_10pkcs1_tool4tool13pkcs1_program7verdict11put_verdict,"ax",@progbits
	.p2align	2
	.type	_RNvNtNtNtCs00000000001_10pkcs1_tool4tool13pkcs1_program7verdict11put_verdict,@function
_RNvNtNtNtCs00000000001_10pkcs1_tool4tool13pkcs1_program7verdict11put_verdict:
	.cfi_startproc
	hint	#38
	sub	sp, sp, #128
	.cfi_def_cfa_offset 128
	stp	x30, x27, [sp, #48]
	stp	x26, x25, [sp, #64]
	stp	x24, x23, [sp, #80]
	stp	x22, x21, [sp, #96]
	stp	x20, x19, [sp, #112]
	.cfi_offset w19, -8
	.cfi_offset w20, -16
	.cfi_offset w21, -24
	.cfi_offset w22, -32
	.cfi_offset w23, -40
	.cfi_offset w24, -48
	.cfi_offset w25, -56
	.cfi_offset w26, -64
	.cfi_offset w27, -72
	.cfi_offset w30, -80
	.cfi_remember_state
	ldr	x27, [x3, #16]
	ldr	x26, [x3]
	mov	x19, x3
	mov	w20, w2
	mov	x21, x1
	mov	x22, x0
	sub	x8, x26, x27
	cmp	x8, x1
	b.hs	.LBB59_5
	cmn	x27, x21
	b.hs	.LBB59_15
	lsl	x8, x26, #1
	add	x24, x27, x21
	mov	w9, #8
	cmp	x8, x24
	csel	x8, x8, x24, hi
	cmp	x8, #8
	csel	x23, x8, x9, hi
	tbnz	x23, #63, .LBB59_15
	cbnz	x26, .LBB59_22
	mov	x8, xzr
	b	.LBB59_23
.LBB59_5:
	ldr	x25, [x19, #8]
	add	x24, x27, x21
.LBB59_6:
	add	x0, x25, x27
	mov	x1, x22
	mov	x2, x21
	bl	memcpy
	sub	x8, x26, x24
	str	x24, [x19, #16]
	tbz	w20, #0, .LBB59_12
	cmp	x8, #4
	b.hs	.LBB59_16
	cmn	x24, #5
	b.hi	.LBB59_15
	lsl	x8, x26, #1
	add	x21, x24, #4
	mov	w9, #8
	cmp	x8, x21
	csel	x8, x8, x21, hi
	cmp	x8, #8
	csel	x20, x8, x9, hi
	tbnz	x20, #63, .LBB59_15
	cbnz	x26, .LBB59_27
	mov	x8, xzr
	b	.LBB59_28
.LBB59_12:
	cmp	x8, #3
	b.hs	.LBB59_18
	cmn	x24, #4
	b.hi	.LBB59_15
	lsl	x8, x26, #1
	add	x21, x24, #3
	mov	w9, #8
	cmp	x8, x21
	csel	x8, x8, x21, hi
	cmp	x8, #8
	csel	x20, x8, x9, hi
	tbz	x20, #63, .LBB59_25
.LBB59_15:
	mov	w0, #1
	b	.LBB59_21
.LBB59_16:
	add	x21, x24, #4
.LBB59_17:
	mov	w0, wzr
	mov	w8, #31008
	movk	w8, #29541, lsl #16
	str	w8, [x25, x24]
	b	.LBB59_20
.LBB59_18:
	add	x21, x24, #3
.LBB59_19:
	add	x8, x25, x24
	mov	w9, #111
	mov	w10, #28192
	mov	w0, wzr
	strb	w9, [x8, #2]
	strh	w10, [x8]
.LBB59_20:
	str	x21, [x19, #16]
.LBB59_21:
	ldp	x20, x19, [sp, #112]
	ldp	x22, x21, [sp, #96]
	ldp	x24, x23, [sp, #80]
	ldp	x26, x25, [sp, #64]
	ldp	x30, x27, [sp, #48]
	add	sp, sp, #128
	.cfi_def_cfa_offset 0
	.cfi_restore w19
	.cfi_restore w20
	.cfi_restore w21
	.cfi_restore w22
	.cfi_restore w23
	.cfi_restore w24
	.cfi_restore w25
	.cfi_restore w26
	.cfi_restore w27
	.cfi_restore w30
	ret
.LBB59_22:
	.cfi_restore_state
	ldr	x8, [x19, #8]
	str	x26, [sp, #40]
	str	x8, [sp, #24]
	mov	w8, #1
.LBB59_23:
	mov	x0, sp
	add	x3, sp, #24
	mov	w1, #1
	mov	x2, x23
	str	x8, [sp, #32]
	bl	_RINvNtCs00000000000_5alloc7raw_vec11finish_growNtNtB4_5alloc6GlobalECs00000000001_10pkcs1_tool
	ldr	w8, [sp]
	cmp	w8, #1
	b.eq	.LBB59_15
	ldr	x25, [sp, #8]
	mov	x26, x23
	stp	x23, x25, [x19]
	b	.LBB59_6
.LBB59_25:
	cbnz	x26, .LBB59_30
	mov	x8, xzr
	b	.LBB59_31
.LBB59_27:
	mov	w8, #1
	str	x25, [sp, #24]
	str	x26, [sp, #40]
.LBB59_28:
	mov	x0, sp
	add	x3, sp, #24
	mov	w1, #1
	mov	x2, x20
	str	x8, [sp, #32]
	bl	_RINvNtCs00000000000_5alloc7raw_vec11finish_growNtNtB4_5alloc6GlobalECs00000000001_10pkcs1_tool
	ldr	w8, [sp]
	cmp	w8, #1
	b.eq	.LBB59_15
	ldr	x25, [sp, #8]
	stp	x20, x25, [x19]
	b	.LBB59_17
.LBB59_30:
	mov	w8, #1
	str	x25, [sp, #24]
	str	x26, [sp, #40]
.LBB59_31:
	mov	x0, sp
	add	x3, sp, #24
	mov	w1, #1
	mov	x2, x20
	str	x8, [sp, #32]
	bl	_RINvNtCs00000000000_5alloc7raw_vec11finish_growNtNtB4_5alloc6GlobalECs00000000001_10pkcs1_tool
	ldr	w8, [sp]
	cmp	w8, #1
	b.eq	.LBB59_15
	ldr	x25, [sp, #8]
	stp	x20, x25, [x19]
	b	.LBB59_19
.Lfunc_end59:
	.size	_RNvNtNtNtCs00000000001_10pkcs1_tool4tool13pkcs1_program7verdict11put_verdict, .Lfunc_end59-_RNvNtNtNtCs00000000001_10pkcs1_tool4tool13pkcs1_program7verdict11put_verdict
	.cfi_endproc

	.section	.text._RNvNtNtCs00000000001_10pkcs1_tool4tool10pkcs1_tool4main,"ax",@progbits
	.p2align	2
	.type	_RNvNtNtCs00000000001_10pkcs1_tool4tool10pkcs1_tool4main,@function
_RNvNtNtCs00000000001_10pkcs1_tool4tool10pkcs1_tool4main:
	.cfi_startproc
	hint	#38
	stp	d13, d12, [sp, #-144]!
	.cfi_def_cfa_offset 144
	stp	d11, d10, [sp, #16]
	stp	d9, d8, [sp, #32]
	stp	x29, x30, [sp, #48]
	stp	x28, x27, [sp, #64]
	stp	x26, x25, [sp, #80]
	stp	x24, x23, [sp, #96]
	stp	x22, x21, [sp, #112]
	stp	x20, x19, [sp, #128]
	.cfi_offset w19, -8
	.cfi_offset w20, -16
	.cfi_offset w21, -24
	.cfi_offset w22, -32
	.cfi_offset w23, -40
	.cfi_offset w24, -48
	.cfi_offset w25, -56
	.cfi_offset w26, -64
	.cfi_offset w27, -72
	.cfi_offset w28, -80
	.cfi_offset w30, -88
	.cfi_offset w29, -96
	.cfi_offset b8, -104
	.cfi_offset b9, -112
	.cfi_offset b10, -120
	.cfi_offset b11, -128
	.cfi_offset b12, -136
	.cfi_offset b13, -144
	sub	x9, sp, #18, lsl #12
	.cfi_def_cfa w9, 73872
.LBB60_1:
	sub	sp, sp, #1, lsl #12
	cmp	sp, x9
	str	xzr, [sp]
	b.ne	.LBB60_1
	.cfi_def_cfa_register wsp
	sub	sp, sp, #432
	.cfi_def_cfa_offset 74304
	.cfi_remember_state
	add	x24, sp, #16, lsl #12
	add	x29, sp, #16, lsl #12
	add	x25, sp, #17, lsl #12
	add	x24, x24, #120
	mov	w8, #8
	add	x29, x29, #192
	add	x25, x25, #432
	str	x1, [sp, #72]
	stp	xzr, x8, [x24, #72]
	str	xzr, [x24, #88]
	str	xzr, [x29, #4336]
	str	x8, [x29, #4344]
	str	xzr, [x29, #4352]
	cbz	x0, .LBB60_74
	mov	x19, x0
	mov	x25, xzr
	mov	x23, xzr
	mov	w28, #8
	mov	w20, #1
	b	.LBB60_5
.LBB60_4:
	add	x8, x28, x25
	add	x23, x23, #1
	add	x25, x25, #24
	str	x21, [x8]
	cmp	x19, x23
	ldr	q0, [sp, #96]
	stur	q0, [x8, #8]
	str	x23, [x29, #4352]
	b.eq	.LBB60_37
.LBB60_5:
	ldr	x8, [sp, #72]
	ldr	x22, [x8, x23, lsl #3]
	cbz	x22, .LBB60_38
	mov	x0, x22
	bl	strlen
	mov	x2, x0
	add	x0, sp, #120
	mov	x1, x22
	bl	_ZN4core3str8converts9from_utf817h0000000000000004E
	ldr	w8, [sp, #120]
	tbnz	w8, #0, .LBB60_19
	ldr	x26, [x29, #4336]
	ldp	x22, x27, [sp, #128]
	cmp	x26, x23
	b.ne	.LBB60_15
	lsl	x8, x26, #1
	add	x9, x23, #1
	add	x24, sp, #16, lsl #12
	add	x24, x24, #192
	mov	w29, wzr
	cmp	x8, x9
	mov	w9, #4
	csinc	x8, x8, x23, hi
	cmp	x8, #4
	csel	x21, x8, x9, hi
	mov	w8, #24
	umulh	x8, x21, x8
	cmp	xzr, x8
	b.ne	.LBB60_24
	add	x8, x21, x21, lsl #1
	lsl	x2, x8, #3
	mov	x8, #9223372036854775800
	cmp	x2, x8
	b.hi	.LBB60_24
	cbnz	x26, .LBB60_12
	mov	x8, xzr
	b	.LBB60_13
.LBB60_12:
	add	x8, x26, x26, lsl #1
	str	x28, [sp, #120]
	lsl	x8, x8, #3
	str	x8, [sp, #136]
	mov	w8, #8
.LBB60_13:
	add	x0, sp, #16, lsl #12
	add	x29, sp, #16, lsl #12
	add	x24, sp, #16, lsl #12
	add	x0, x0, #432
	add	x3, sp, #120
	mov	w1, #8
	add	x29, x29, #192
	add	x24, x24, #120
	str	x8, [sp, #128]
	bl	_RINvNtCs00000000000_5alloc7raw_vec11finish_growNtNtB4_5alloc6GlobalECs00000000001_10pkcs1_tool
	ldr	w8, [x29, #240]
	cmp	w8, #1
	b.eq	.LBB60_22
	ldr	x28, [x29, #248]
	mov	x26, x21
	str	x21, [x29, #4336]
	str	x28, [x29, #4344]
.LBB60_15:
	add	x8, sp, #16, lsl #12
	add	x0, sp, #16, lsl #12
	add	x2, sp, #120
	add	x8, x8, #168
	add	x0, x0, #432
	adrp	x1, .Lanon.1
	add	x1, x1, :lo12:.Lanon.1
	str	x8, [x24]
	adrp	x8, _RNvXs1c_NtCs00000000002_4core3fmtReNtB6_7Display3fmtCs00000000001_10pkcs1_tool
	add	x8, x8, :lo12:_RNvXs1c_NtCs00000000002_4core3fmtReNtB6_7Display3fmtCs00000000001_10pkcs1_tool
	stp	x22, x27, [x24, #48]
	str	x8, [x24, #8]
	adrp	x8, .Lanon.19
	add	x8, x8, :lo12:.Lanon.19
	stp	x8, x20, [sp, #120]
	stp	x20, xzr, [sp, #144]
	str	x24, [sp, #136]
	stp	xzr, x20, [x29, #240]
	str	xzr, [x29, #256]
	bl	_ZN4core3fmt5write17h0000000000000000E
	cbnz	w0, .LBB60_20
	add	x8, sp, #16, lsl #12
	ldr	x21, [x29, #240]
	add	x8, x8, #432
	ldur	q0, [x8, #8]
	mov	x8, #-9223372036854775808
	cmp	x21, x8
	str	q0, [sp, #80]
	b.eq	.LBB60_22
	ldr	q0, [sp, #80]
	cmp	x23, x26
	str	q0, [sp, #96]
	b.ne	.LBB60_4
	add	x0, sp, #17, lsl #12
	add	x0, x0, #432
	bl	_RNvMs1_NtCs00000000000_5alloc7raw_vecINtB5_6RawVecINtNtNtNtCs00000000001_10pkcs1_tool10rattle_std7library3vec3VechEE8grow_oneBV_
	ldr	x28, [x29, #4344]
	b	.LBB60_4
.LBB60_19:
	add	x24, sp, #16, lsl #12
	mov	w29, #4
	b	.LBB60_23
.LBB60_20:
	ldr	x8, [x29, #240]
	cbz	x8, .LBB60_22
	ldr	x0, [x29, #248]
	bl	free
.LBB60_22:
	add	x24, sp, #16, lsl #12
	mov	w29, wzr
.LBB60_23:
	add	x24, x24, #192
.LBB60_24:
	ldr	x19, [x24, #4344]
	add	x25, sp, #17, lsl #12
	add	x25, x25, #432
	cbz	x23, .LBB60_29
	add	x20, x19, #8
	b	.LBB60_27
.LBB60_26:
	subs	x23, x23, #1
	add	x20, x20, #24
	b.eq	.LBB60_29
.LBB60_27:
	ldur	x8, [x20, #-8]
	cbz	x8, .LBB60_26
	ldr	x0, [x20]
	bl	free
	b	.LBB60_26
.LBB60_29:
	ldr	x8, [x24, #4336]
	cbz	x8, .LBB60_31
	mov	x0, x19
	bl	free
.LBB60_31:
	add	x24, sp, #16, lsl #12
	add	x24, x24, #120
.LBB60_32:
	ldp	x19, x22, [x24, #80]
	cbz	x22, .LBB60_64
.LBB60_33:
	add	x20, x19, #8
	b	.LBB60_35
.LBB60_34:
	subs	x22, x22, #1
	add	x20, x20, #24
	b.eq	.LBB60_64
.LBB60_35:
	ldur	x8, [x20, #-8]
	cbz	x8, .LBB60_34
	ldr	x0, [x20]
	bl	free
	b	.LBB60_34
.LBB60_37:
	mov	x23, x19
.LBB60_38:
	add	x25, sp, #17, lsl #12
	ldr	x21, [x29, #4336]
	mov	x8, #-9223372036854775808
	add	x25, x25, #432
	ldrb	w29, [x25, #8]
	cmp	x21, x8
	b.eq	.LBB60_32
	ldrb	w8, [x25, #15]
	ldurh	w9, [x25, #13]
	orr	w8, w9, w8, lsl #16
	ldur	w9, [x25, #9]
	orr	x8, x9, x8, lsl #32
	mov	w9, #24
	orr	x28, x29, x8, lsl #8
	madd	x24, x23, x9, x28
	cbz	x23, .LBB60_66
	add	x19, x28, #24
	mov	w27, #24
	b	.LBB60_42
.LBB60_41:
	add	x11, sp, #16, lsl #12
	add	x9, x23, #24
	add	x10, x22, #1
	add	x11, x11, #120
	cmp	x9, x24
	add	x19, x23, #48
	ldr	x8, [x11, #80]
	madd	x8, x22, x27, x8
	stp	x29, x20, [x8]
	str	x26, [x8, #16]
	str	x10, [x11, #88]
	b.eq	.LBB60_72
.LBB60_42:
	mov	x23, x19
	mov	x8, #-9223372036854775808
	ldr	x29, [x23, #-24]!
	cmp	x29, x8
	b.eq	.LBB60_67
	add	x8, sp, #16, lsl #12
	ldp	x20, x26, [x23, #8]
	add	x8, x8, #120
	add	x10, sp, #16, lsl #12
	ldr	x22, [x8, #88]
	ldr	x25, [x8, #72]
	add	x10, x10, #120
	cmp	x25, x22
	b.ne	.LBB60_52
	cmn	x22, #1
	b.eq	.LBB60_54
	lsl	x8, x22, #1
	add	x9, x22, #1
	cmp	x8, x9
	mov	w9, #4
	csinc	x8, x8, x22, hi
	cmp	x8, #4
	csel	x25, x8, x9, hi
	umulh	x8, x25, x27
	cmp	xzr, x8
	b.ne	.LBB60_54
	add	x8, x25, x25, lsl #1
	lsl	x2, x8, #3
	mov	x8, #9223372036854775800
	cmp	x2, x8
	b.hi	.LBB60_54
	cbnz	x22, .LBB60_49
	mov	x8, xzr
	b	.LBB60_50
.LBB60_49:
	add	x8, x22, x22, lsl #1
	ldr	x9, [x10, #80]
	lsl	x8, x8, #3
	str	x9, [sp, #120]
	str	x8, [sp, #136]
	mov	w8, #8
.LBB60_50:
	add	x0, sp, #16, lsl #12
	add	x3, sp, #120
	mov	w1, #8
	add	x0, x0, #432
	str	x8, [sp, #128]
	bl	_RINvNtCs00000000000_5alloc7raw_vec11finish_growNtNtB4_5alloc6GlobalECs00000000001_10pkcs1_tool
	add	x9, sp, #16, lsl #12
	add	x9, x9, #192
	ldr	w8, [x9, #240]
	cmp	w8, #1
	b.eq	.LBB60_54
	ldr	x8, [x9, #248]
	add	x9, sp, #16, lsl #12
	add	x9, x9, #120
	stp	x25, x8, [x9, #72]
.LBB60_52:
	cmp	x22, x25
	b.ne	.LBB60_41
	add	x0, sp, #16, lsl #12
	add	x0, x0, #192
	bl	_RNvMs1_NtCs00000000000_5alloc7raw_vecINtB5_6RawVecINtNtNtNtCs00000000001_10pkcs1_tool10rattle_std7library3vec3VechEE8grow_oneBV_
	b	.LBB60_41
.LBB60_54:
	cbz	x29, .LBB60_56
	mov	x0, x20
	bl	free
.LBB60_56:
	subs	x8, x24, x19
	add	x25, sp, #17, lsl #12
	add	x24, sp, #16, lsl #12
	add	x25, x25, #432
	add	x24, x24, #120
	b.eq	.LBB60_61
	mov	x9, #-6148914691236517206
	add	x19, x19, #8
	movk	x9, #43691
	umulh	x8, x8, x9
	lsr	x20, x8, #4
	b	.LBB60_59
.LBB60_58:
	subs	x20, x20, #1
	add	x19, x19, #24
	b.eq	.LBB60_61
.LBB60_59:
	ldur	x8, [x19, #-8]
	cbz	x8, .LBB60_58
	ldr	x0, [x19]
	bl	free
	b	.LBB60_58
.LBB60_61:
	cbz	x21, .LBB60_63
	mov	x0, x28
	bl	free
.LBB60_63:
	mov	w29, wzr
	ldr	x19, [x24, #80]
	cbnz	x22, .LBB60_33
.LBB60_64:
	ldr	x8, [x24, #72]
	cbz	x8, .LBB60_75
	mov	x0, x19
	bl	free
	b	.LBB60_75
.LBB60_66:
	mov	x19, x28
.LBB60_67:
	subs	x8, x24, x19
	b.eq	.LBB60_72
	mov	x9, #-6148914691236517206
	add	x19, x19, #8
	movk	x9, #43691
	umulh	x8, x8, x9
	lsr	x20, x8, #4
	b	.LBB60_70
.LBB60_69:
	subs	x20, x20, #1
	add	x19, x19, #24
	b.eq	.LBB60_72
.LBB60_70:
	ldur	x8, [x19, #-8]
	cbz	x8, .LBB60_69
	ldr	x0, [x19]
	bl	free
	b	.LBB60_69
.LBB60_72:
	add	x25, sp, #17, lsl #12
	add	x24, sp, #16, lsl #12
	add	x25, x25, #432
	add	x24, x24, #120
	cbz	x21, .LBB60_74
	mov	x0, x28
	bl	free
.LBB60_74:
	ldr	x22, [x24, #72]
	mov	x8, #-9223372036854775808
	ldrb	w29, [x24, #80]
	cmp	x22, x8
	b.ne	.LBB60_80
.LBB60_75:
	cbz	w29, .LBB60_77
	adrp	x8, .Lanon.60
	add	x8, x8, :lo12:.Lanon.60
	mov	w9, #40
	stp	x8, x9, [x24, #48]
	add	x8, sp, #16, lsl #12
	add	x11, sp, #16, lsl #12
	add	x8, x8, #168
	add	x11, x11, #192
	adrp	x9, .Lanon.19
	add	x9, x9, :lo12:.Lanon.19
	str	x8, [x24]
	adrp	x8, _RNvXs1c_NtCs00000000002_4core3fmtReNtB6_7Display3fmtCs00000000001_10pkcs1_tool
	add	x8, x8, :lo12:_RNvXs1c_NtCs00000000002_4core3fmtReNtB6_7Display3fmtCs00000000001_10pkcs1_tool
	adrp	x10, _ZN59_$LT$core..fmt..Arguments$u20$as$u20$core..fmt..Display$GT$3fmt17h0000000000000007E
	add	x10, x10, :lo12:_ZN59_$LT$core..fmt..Arguments$u20$as$u20$core..fmt..Display$GT$3fmt17h0000000000000007E
	str	x8, [x24, #8]
	mov	w8, #1
	mov	w20, #2
	stp	x9, x8, [x11, #240]
	add	x9, sp, #16, lsl #12
	add	x9, x9, #120
	stp	x8, xzr, [x11, #264]
	str	x9, [x11, #256]
	add	x9, sp, #16, lsl #12
	add	x9, x9, #432
	stp	x8, xzr, [sp, #144]
	stp	x9, x10, [x11]
	adrp	x9, .Lanon.61
	add	x9, x9, :lo12:.Lanon.61
	stp	x9, x20, [sp, #120]
	add	x9, sp, #16, lsl #12
	add	x9, x9, #192
	str	x9, [sp, #136]
	b	.LBB60_78
.LBB60_77:
	add	x9, sp, #16, lsl #12
	adrp	x10, _RNvXNtNtNtCs00000000001_10pkcs1_tool4tool13pkcs1_program5faultNtB2_5FaultNtNtCs00000000002_4core3fmt7Display3fmt
	add	x10, x10, :lo12:_RNvXNtNtNtCs00000000001_10pkcs1_tool4tool13pkcs1_program5faultNtB2_5FaultNtNtCs00000000002_4core3fmt7Display3fmt
	add	x9, x9, #168
	add	x11, sp, #16, lsl #12
	mov	w20, #1
	stp	x9, x10, [x24]
	add	x11, x11, #192
	adrp	x9, .Lanon.19
	add	x9, x9, :lo12:.Lanon.19
	adrp	x10, _ZN59_$LT$core..fmt..Arguments$u20$as$u20$core..fmt..Display$GT$3fmt17h0000000000000007E
	add	x10, x10, :lo12:_ZN59_$LT$core..fmt..Arguments$u20$as$u20$core..fmt..Display$GT$3fmt17h0000000000000007E
	stp	x9, x20, [x11, #240]
	add	x9, sp, #16, lsl #12
	mov	w8, #2
	add	x9, x9, #120
	strb	w8, [x24, #48]
	str	x9, [x11, #256]
	add	x9, sp, #16, lsl #12
	add	x9, x9, #432
	stp	x20, xzr, [x11, #264]
	stp	x9, x10, [x11]
	adrp	x9, .Lanon.61
	add	x9, x9, :lo12:.Lanon.61
	stp	x9, x8, [sp, #120]
	add	x8, sp, #16, lsl #12
	add	x8, x8, #192
	stp	x20, xzr, [sp, #144]
	str	x8, [sp, #136]
.LBB60_78:
	add	x8, sp, #80
	add	x0, sp, #17, lsl #12
	adrp	x1, .Lanon.0
	add	x1, x1, :lo12:.Lanon.0
	str	x8, [x25]
	mov	w8, #5
	add	x0, x0, #432
	add	x2, sp, #120
	strb	w8, [x25, #8]
	bl	_ZN4core3fmt5write17h0000000000000000E
.LBB60_79:
	mov	w0, w20
	add	sp, sp, #18, lsl #12
	.cfi_def_cfa_offset 576
	add	sp, sp, #432
	.cfi_def_cfa_offset 144
	ldp	x20, x19, [sp, #128]
	ldp	x22, x21, [sp, #112]
	ldp	x24, x23, [sp, #96]
	ldp	x26, x25, [sp, #80]
	ldp	x28, x27, [sp, #64]
	ldp	x29, x30, [sp, #48]
	ldp	d9, d8, [sp, #32]
	ldp	d11, d10, [sp, #16]
	ldp	d13, d12, [sp], #144
	.cfi_def_cfa_offset 0
	.cfi_restore w19
	.cfi_restore w20
	.cfi_restore w21
	.cfi_restore w22
	.cfi_restore w23
	.cfi_restore w24
	.cfi_restore w25
	.cfi_restore w26
	.cfi_restore w27
	.cfi_restore w28
	.cfi_restore w30
	.cfi_restore w29
	.cfi_restore b8
	.cfi_restore b9
	.cfi_restore b10
	.cfi_restore b11
	.cfi_restore b12
	.cfi_restore b13
	ret
.LBB60_80:
	.cfi_restore_state
	ldrb	w8, [x24, #87]
	ldurh	w9, [x24, #85]
	ldr	x19, [x24, #88]
	orr	w8, w9, w8, lsl #16
	ldur	w9, [x24, #81]
	cmp	x19, #0
	orr	x8, x9, x8, lsl #32
	mov	w9, #8
	orr	x29, x29, x8, lsl #8
	add	x8, x29, #24
	csel	x8, x9, x8, eq
	subs	x9, x19, #1
	csel	x9, xzr, x9, lo
	cbz	x9, .LBB60_85
	add	x28, sp, #16, lsl #12
	cmp	x9, #4
	add	x28, x28, #192
	b.ne	.LBB60_84
	ldr	x9, [x8, #16]
	cmp	x9, #4
	b.ne	.LBB60_84
	ldr	x9, [x8, #8]
	mov	w10, #28515
	movk	w10, #31088, lsl #16
	ldr	w9, [x9]
	cmp	w9, w10
	b.eq	.LBB60_110
.LBB60_84:
	adrp	x8, .Lanon.60
	add	x8, x8, :lo12:.Lanon.60
	mov	w9, #40
	stp	x8, x9, [x24, #48]
	add	x8, sp, #16, lsl #12
	adrp	x9, .Lanon.19
	add	x9, x9, :lo12:.Lanon.19
	add	x8, x8, #168
	adrp	x10, _ZN59_$LT$core..fmt..Arguments$u20$as$u20$core..fmt..Display$GT$3fmt17h0000000000000007E
	add	x10, x10, :lo12:_ZN59_$LT$core..fmt..Arguments$u20$as$u20$core..fmt..Display$GT$3fmt17h0000000000000007E
	str	x8, [x24]
	adrp	x8, _RNvXs1c_NtCs00000000002_4core3fmtReNtB6_7Display3fmtCs00000000001_10pkcs1_tool
	add	x8, x8, :lo12:_RNvXs1c_NtCs00000000002_4core3fmtReNtB6_7Display3fmtCs00000000001_10pkcs1_tool
	mov	w20, #2
	add	x0, sp, #17, lsl #12
	str	x8, [x24, #8]
	mov	w8, #1
	adrp	x1, .Lanon.0
	add	x1, x1, :lo12:.Lanon.0
	stp	x9, x8, [x28, #240]
	add	x9, sp, #16, lsl #12
	add	x9, x9, #120
	stp	x8, xzr, [x28, #264]
	add	x0, x0, #432
	str	x9, [x28, #256]
	add	x9, sp, #16, lsl #12
	add	x2, sp, #120
	add	x9, x9, #432
	stp	x8, xzr, [sp, #144]
	add	x8, sp, #80
	stp	x9, x10, [x28]
	adrp	x9, .Lanon.61
	add	x9, x9, :lo12:.Lanon.61
	stp	x9, x20, [sp, #120]
	add	x9, sp, #16, lsl #12
	add	x9, x9, #192
	str	x8, [x25]
	mov	w8, #5
	str	x9, [sp, #136]
	strb	w8, [x25, #8]
	bl	_ZN4core3fmt5write17h0000000000000000E
	cbnz	x19, .LBB60_106
	b	.LBB60_731
.LBB60_85:
	add	x0, sp, #120
	mov	w1, wzr
	mov	w2, #65536
	stp	x22, x29, [sp, #64]
	bl	memset
	add	x28, sp, #16, lsl #12
	mov	x22, xzr
	mov	x20, xzr
	mov	w23, #1
	mov	w24, #15
	mov	w25, #16777216
	mov	w26, #8
	add	x28, x28, #192
	b	.LBB60_88
.LBB60_86:
	add	x27, x21, x22
.LBB60_87:
	add	x0, x23, x22
	add	x1, sp, #120
	mov	x2, x21
	bl	memcpy
	mov	x22, x27
.LBB60_88:
	add	x1, sp, #120
	mov	w0, wzr
	mov	w2, #65536
	bl	pkcs1_os_read
	tbnz	x0, #63, .LBB60_101
	mov	x21, x0
	cbz	x0, .LBB60_115
	sub	x8, x25, x22
	cmp	x21, x8
	b.hi	.LBB60_303
	cmp	x21, #16, lsl #12
	b.hi	.LBB60_380
	sub	x8, x20, x22
	cmp	x8, x21
	b.hs	.LBB60_86
	mov	x29, x23
	cmn	x22, x21
	b.hs	.LBB60_100
	lsl	x8, x20, #1
	add	x27, x21, x22
	cmp	x8, x27
	csel	x8, x8, x27, hi
	cmp	x8, #8
	csel	x23, x8, x26, hi
	tbnz	x23, #63, .LBB60_100
	cbnz	x20, .LBB60_97
	mov	x8, xzr
	b	.LBB60_98
.LBB60_97:
	mov	w8, #1
	str	x29, [x28, #240]
	str	x20, [x28, #256]
.LBB60_98:
	add	x0, sp, #17, lsl #12
	add	x3, sp, #16, lsl #12
	mov	w1, #1
	add	x0, x0, #432
	add	x3, x3, #432
	mov	x2, x23
	str	x8, [x28, #248]
	bl	_RINvNtCs00000000000_5alloc7raw_vec11finish_growNtNtB4_5alloc6GlobalECs00000000001_10pkcs1_tool
	add	x9, sp, #17, lsl #12
	add	x9, x9, #432
	ldr	w8, [x9]
	cmp	w8, #1
	b.eq	.LBB60_100
	ldr	x8, [x9, #8]
	mov	x20, x23
	mov	x23, x8
	b	.LBB60_87
.LBB60_100:
	mov	w24, #16
	mov	x23, x29
.LBB60_101:
	cbz	x20, .LBB60_103
.LBB60_102:
	mov	x0, x23
	bl	free
.LBB60_103:
	mov	x23, x24
.LBB60_104:
	and	x8, x23, #0xff
	add	x24, sp, #17, lsl #12
	cmp	x8, #16
	add	x24, x24, #432
	cset	w8, eq
	lsl	w22, w8, #1
.LBB60_105:
	add	x10, sp, #16, lsl #12
	add	x8, sp, #16, lsl #12
	adrp	x9, _RNvXNtNtNtCs00000000001_10pkcs1_tool4tool13pkcs1_program5faultNtB2_5FaultNtNtCs00000000002_4core3fmt7Display3fmt
	add	x9, x9, :lo12:_RNvXNtNtNtCs00000000001_10pkcs1_tool4tool13pkcs1_program5faultNtB2_5FaultNtNtCs00000000002_4core3fmt7Display3fmt
	add	x8, x8, #168
	stp	x8, x9, [x10, #120]!
	mov	w20, #1
	adrp	x8, .Lanon.19
	add	x8, x8, :lo12:.Lanon.19
	adrp	x9, _ZN59_$LT$core..fmt..Arguments$u20$as$u20$core..fmt..Display$GT$3fmt17h0000000000000007E
	add	x9, x9, :lo12:_ZN59_$LT$core..fmt..Arguments$u20$as$u20$core..fmt..Display$GT$3fmt17h0000000000000007E
	stp	x8, x20, [x28, #240]
	add	x8, sp, #16, lsl #12
	add	x0, sp, #17, lsl #12
	add	x8, x8, #120
	adrp	x1, .Lanon.0
	add	x1, x1, :lo12:.Lanon.0
	str	x8, [x28, #256]
	add	x8, sp, #16, lsl #12
	add	x0, x0, #432
	add	x8, x8, #432
	add	x2, sp, #120
	strb	w22, [x10, #48]
	stp	x8, x9, [x28]
	adrp	x8, .Lanon.61
	add	x8, x8, :lo12:.Lanon.61
	mov	w9, #2
	stp	x20, xzr, [x28, #264]
	stp	x8, x9, [sp, #120]
	add	x8, sp, #16, lsl #12
	add	x8, x8, #192
	stp	x20, xzr, [sp, #144]
	str	x8, [sp, #136]
	add	x8, sp, #80
	str	x8, [x24]
	mov	w8, #5
	strb	w8, [x24, #8]
	bl	_ZN4core3fmt5write17h0000000000000000E
	ldp	x22, x29, [sp, #64]
	cbz	x19, .LBB60_731
.LBB60_106:
	add	x21, x29, #8
	b	.LBB60_108
.LBB60_107:
	subs	x19, x19, #1
	add	x21, x21, #24
	b.eq	.LBB60_731
.LBB60_108:
	ldur	x8, [x21, #-8]
	cbz	x8, .LBB60_107
	ldr	x0, [x21]
	bl	free
	b	.LBB60_107
.LBB60_110:
	ldp	x9, x10, [x8, #32]
	ldp	x23, x20, [x8, #56]
	ldp	x27, x21, [x8, #80]
	cmp	x10, #4
	b.eq	.LBB60_304
	cmp	x10, #3
	b.ne	.LBB60_84
	ldrh	w8, [x9]
	ldrb	w9, [x9, #2]
	mov	w10, #30064
	cmp	w8, w10
	mov	w8, #98
	ccmp	w9, w8, #0, eq
	b.ne	.LBB60_84
	add	x0, sp, #120
	mov	x1, x23
	mov	x2, x20
	bl	_RNvXNtNtNtCs00000000001_10pkcs1_tool6proved8der_core11file_systemRNtNtB8_10rattle_std11HostRuntimeNtB2_10FileSystem4openB8_
	ldrb	w8, [sp, #120]
	tbz	w8, #0, .LBB60_318
	ldrb	w8, [sp, #123]
	ldurh	w27, [sp, #121]
	mov	x21, x29
	mov	x29, x22
	bfi	w27, w8, #16, #8
	uxth	w8, w8
	lsr	w26, w27, #8
	b	.LBB60_350
.LBB60_115:
	mov	x8, #-9223372036854775808
	cmp	x20, x8
	b.eq	.LBB60_104
	add	x24, sp, #17, lsl #12
	mov	w29, #1
	add	x8, sp, #16, lsl #12
	add	x24, x24, #432
	mov	x21, xzr
	stp	xzr, x29, [x8, #120]!
	stp	xzr, xzr, [x8, #16]
	stp	x29, xzr, [x8, #32]
	stp	xzr, x29, [x8, #48]
	str	xzr, [x8, #64]
	cbz	x22, .LBB60_307
	movi	v8.8b, #208
	movi	v9.8b, #32
	mov	w29, #1
	movi	v10.8b, #10
	movi	v11.8b, #159
	mov	x25, x23
	movi	v12.8b, #6
	movi	v13.8b, #169
	stp	xzr, xzr, [sp, #48]
	str	x23, [sp, #40]
.LBB60_118:
	mov	w0, #10
	mov	x1, x25
	mov	x2, x22
	bl	_RNvNtNtNtCs00000000001_10pkcs1_tool4tool13pkcs1_program5lines8place_of
	cbz	x0, .LBB60_122
	mov	x26, x1
	cmp	x1, x22
	b.hi	.LBB60_541
	add	x0, x26, #1
	add	x9, sp, #16, lsl #12
	subs	x8, x22, x0
	add	x9, x9, #120
	b.lo	.LBB60_542
	add	x10, x25, x0
	mov	x22, x8
	str	x10, [sp, #32]
	b	.LBB60_123
.LBB60_122:
	mov	w8, #1
	add	x9, sp, #16, lsl #12
	mov	x26, x22
	str	x8, [sp, #32]
	mov	x22, xzr
	add	x9, x9, #120
.LBB60_123:
	add	x27, sp, #16, lsl #12
	mov	w0, #32
	mov	x1, x25
	mov	x2, x26
	add	x27, x27, #120
	str	xzr, [x9, #64]
	bl	_RNvNtNtNtCs00000000001_10pkcs1_tool4tool13pkcs1_program5lines8place_of
	cbz	x0, .LBB60_241
	cmp	x1, x26
	b.hi	.LBB60_543
	add	x0, x1, #1
	subs	x23, x26, x0
	b.lo	.LBB60_544
	cmp	x1, #7
	b.le	.LBB60_133
	cmp	x1, #9
	b.gt	.LBB60_139
	cmp	x1, #8
	b.eq	.LBB60_145
	cmp	x1, #9
	b.ne	.LBB60_241
	mov	x10, #28787
	ldr	x8, [x25]
	ldrb	w9, [x25, #8]
	movk	x10, #27749, lsl #16
	movk	x10, #11628, lsl #32
	movk	x10, #29552, lsl #48
	cmp	x8, x10
	mov	w8, #115
	ccmp	w9, w8, #0, eq
	b.eq	.LBB60_162
	mov	x10, #24947
	ldr	x8, [x25]
	ldrb	w9, [x25, #8]
	movk	x10, #25965, lsl #16
	movk	x10, #28461, lsl #32
	movk	x10, #25953, lsl #48
	cmp	x8, x10
	mov	w8, #112
	ccmp	w9, w8, #0, eq
	b.ne	.LBB60_241
	mov	x24, x1
	adrp	x8, .Lanon.62+24
	add	x8, x8, :lo12:.Lanon.62+24
	b	.LBB60_147
.LBB60_133:
	cmp	x1, #2
	b.eq	.LBB60_143
	cmp	x1, #3
	b.eq	.LBB60_158
	cmp	x1, #4
	b.ne	.LBB60_241
	ldr	w8, [x25]
	mov	w9, #29296
	movk	w9, #30313, lsl #16
	cmp	w8, w9
	b.eq	.LBB60_163
	ldr	w8, [x25]
	mov	w9, #24943
	movk	w9, #28773, lsl #16
	cmp	w8, w9
	b.ne	.LBB60_241
	mov	x24, x1
	adrp	x8, .Lanon.63+72
	add	x8, x8, :lo12:.Lanon.63+72
	b	.LBB60_165
.LBB60_139:
	cmp	x1, #10
	b.eq	.LBB60_155
	cmp	x1, #11
	b.ne	.LBB60_241
	mov	x10, #29811
	ldr	x8, [x25]
	ldur	x9, [x25, #3]
	movk	x10, #26994, lsl #16
	movk	x10, #29795, lsl #32
	movk	x10, #28461, lsl #48
	cmp	x8, x10
	mov	x8, #25449
	movk	x8, #11636, lsl #16
	movk	x8, #24943, lsl #32
	movk	x8, #28773, lsl #48
	ccmp	x9, x8, #0, eq
	b.ne	.LBB60_241
	mov	x24, x1
	adrp	x8, .Lanon.63+192
	add	x8, x8, :lo12:.Lanon.63+192
	b	.LBB60_165
.LBB60_143:
	ldrh	w8, [x25]
	mov	w9, #14448
	cmp	w8, w9
	b.ne	.LBB60_241
	mov	x24, x1
	adrp	x8, .Lanon.63+96
	add	x8, x8, :lo12:.Lanon.63+96
	b	.LBB60_165
.LBB60_145:
	mov	x9, #24947
	ldr	x8, [x25]
	movk	x9, #25965, lsl #16
	movk	x9, #28717, lsl #32
	movk	x9, #29555, lsl #48
	cmp	x8, x9
	b.ne	.LBB60_241
	mov	x24, x1
	adrp	x8, .Lanon.62
	add	x8, x8, :lo12:.Lanon.62
.LBB60_147:
	ldrb	w27, [x8, #16]
	add	x1, x25, x0
	mov	w0, #32
	mov	x2, x23
	bl	_RNvNtNtNtCs00000000001_10pkcs1_tool4tool13pkcs1_program5lines8place_of
	cbz	x0, .LBB60_241
	mov	x26, x1
	cmp	x1, x23
	b.hi	.LBB60_676
	add	x0, x26, #1
	str	x24, [sp, #24]
	subs	x24, x23, x0
	b.lo	.LBB60_677
	lsr	x23, x26, #1
	add	x0, sp, #16, lsl #12
	add	x0, x0, #120
	mov	x1, x23
	bl	_RNvMs_NtNtCs00000000001_10pkcs1_tool10rattle_std3vecINtNtNtB6_7library3vec3VechE6resizeB8_
	add	x9, sp, #16, lsl #12
	add	x9, x9, #120
	tbnz	w0, #0, .LBB60_323
	ldr	x8, [x9, #16]
	tst	x26, #0x1
	ccmp	x23, x8, #0, eq
	cset	w8, eq
	cmp	x26, #2
	b.lo	.LBB60_173
	cbz	w8, .LBB60_173
	ldr	x8, [x9, #8]
	cmp	x26, #16
	b.hs	.LBB60_178
	ldr	x11, [sp, #24]
	mov	w10, wzr
	mov	x9, xzr
	b	.LBB60_197
.LBB60_155:
	mov	x10, #28787
	ldr	x8, [x25]
	ldrh	w9, [x25, #8]
	movk	x10, #27749, lsl #16
	movk	x10, #11628, lsl #32
	movk	x10, #24943, lsl #48
	cmp	x8, x10
	mov	w8, #28773
	ccmp	w9, w8, #0, eq
	b.eq	.LBB60_161
	mov	x10, #29811
	ldr	x8, [x25]
	ldrh	w9, [x25, #8]
	movk	x10, #26994, lsl #16
	movk	x10, #29795, lsl #32
	movk	x10, #28717, lsl #48
	cmp	x8, x10
	mov	w8, #29555
	ccmp	w9, w8, #0, eq
	b.ne	.LBB60_241
	mov	x24, x1
	adrp	x8, .Lanon.63+168
	add	x8, x8, :lo12:.Lanon.63+168
	b	.LBB60_165
.LBB60_158:
	ldrh	w8, [x25]
	ldrb	w9, [x25, #2]
	mov	w10, #30064
	cmp	w8, w10
	mov	w8, #98
	ccmp	w9, w8, #0, eq
	b.eq	.LBB60_164
	ldrh	w8, [x25]
	ldrb	w9, [x25, #2]
	mov	w10, #29552
	cmp	w8, w10
	mov	w8, #115
	ccmp	w9, w8, #0, eq
	b.ne	.LBB60_241
	mov	x24, x1
	adrp	x8, .Lanon.63+48
	add	x8, x8, :lo12:.Lanon.63+48
	b	.LBB60_165
.LBB60_161:
	mov	x24, x1
	adrp	x8, .Lanon.63+144
	add	x8, x8, :lo12:.Lanon.63+144
	b	.LBB60_165
.LBB60_162:
	mov	x24, x1
	adrp	x8, .Lanon.63+120
	add	x8, x8, :lo12:.Lanon.63+120
	b	.LBB60_165
.LBB60_163:
	mov	x24, x1
	adrp	x8, .Lanon.63+24
	add	x8, x8, :lo12:.Lanon.63+24
	b	.LBB60_165
.LBB60_164:
	mov	x24, x1
	adrp	x8, .Lanon.63
	add	x8, x8, :lo12:.Lanon.63
.LBB60_165:
	lsr	x26, x23, #1
	ldrb	w8, [x8, #16]
	add	x0, sp, #16, lsl #12
	add	x0, x0, #120
	mov	x1, x26
	str	w8, [sp, #24]
	bl	_RNvMs_NtNtCs00000000001_10pkcs1_tool10rattle_std3vecINtNtNtB6_7library3vec3VechE6resizeB8_
	tbnz	w0, #0, .LBB60_323
	tbnz	w23, #0, .LBB60_241
	ldr	x8, [x27, #16]
	cmp	x26, x8
	b.ne	.LBB60_241
	ldr	x1, [x27, #8]
	cmp	x23, #2
	b.lo	.LBB60_187
	mov	x9, x24
	cmp	x23, #16
	b.hs	.LBB60_171
	mov	w11, wzr
	mov	x8, xzr
	b	.LBB60_184
.LBB60_171:
	cmp	x23, #64
	b.hs	.LBB60_174
	mov	w11, wzr
	mov	x8, xzr
	b	.LBB60_181
.LBB60_173:
	cbnz	w8, .LBB60_200
	b	.LBB60_241
.LBB60_174:
	movi	v0.2d, #0000000000000000
	movi	v1.2d, #0000000000000000
	and	x8, x26, #0x7fffffffffffffe0
	movi	v24.16b, #208
	movi	v25.16b, #32
	add	x11, x25, x9
	movi	v26.16b, #10
	movi	v27.16b, #159
	mov	x10, x9
	movi	v28.16b, #6
	movi	v29.16b, #169
	add	x9, x1, #16
	add	x11, x11, #33
	mov	x12, x8
.LBB60_175:
	sub	x13, x11, #32
	ld2	{ v4.16b, v5.16b }, [x11]
	subs	x12, x12, #32
	add	x11, x11, #64
	ld2	{ v2.16b, v3.16b }, [x13]
	orr	v7.16b, v4.16b, v25.16b
	orr	v18.16b, v5.16b, v25.16b
	add	v22.16b, v4.16b, v24.16b
	orr	v6.16b, v2.16b, v25.16b
	orr	v16.16b, v3.16b, v25.16b
	add	v23.16b, v2.16b, v24.16b
	add	v4.16b, v5.16b, v24.16b
	add	v2.16b, v3.16b, v24.16b
	add	v19.16b, v7.16b, v27.16b
	add	v7.16b, v7.16b, v29.16b
	add	v21.16b, v18.16b, v27.16b
	add	v17.16b, v6.16b, v27.16b
	add	v6.16b, v6.16b, v29.16b
	add	v20.16b, v16.16b, v27.16b
	add	v16.16b, v16.16b, v29.16b
	add	v18.16b, v18.16b, v29.16b
	cmhi	v5.16b, v26.16b, v23.16b
	cmhi	v19.16b, v28.16b, v19.16b
	cmhi	v21.16b, v28.16b, v21.16b
	cmhi	v17.16b, v28.16b, v17.16b
	cmhi	v20.16b, v28.16b, v20.16b
	and	v7.16b, v7.16b, v19.16b
	and	v6.16b, v6.16b, v17.16b
	orn	v7.16b, v7.16b, v19.16b
	orn	v3.16b, v6.16b, v17.16b
	and	v6.16b, v16.16b, v20.16b
	cmhi	v16.16b, v26.16b, v22.16b
	and	v17.16b, v18.16b, v21.16b
	cmhi	v18.16b, v26.16b, v2.16b
	orn	v6.16b, v6.16b, v20.16b
	bit	v3.16b, v23.16b, v5.16b
	cmhi	v5.16b, v26.16b, v4.16b
	orn	v17.16b, v17.16b, v21.16b
	bit	v7.16b, v22.16b, v16.16b
	bif	v2.16b, v6.16b, v18.16b
	bif	v4.16b, v17.16b, v5.16b
	shl	v5.16b, v3.16b, #4
	orr	v0.16b, v3.16b, v0.16b
	shl	v6.16b, v7.16b, #4
	orr	v1.16b, v7.16b, v1.16b
	orr	v3.16b, v5.16b, v2.16b
	orr	v0.16b, v0.16b, v2.16b
	orr	v5.16b, v6.16b, v4.16b
	orr	v1.16b, v1.16b, v4.16b
	stp	q3, q5, [x9, #-16]
	add	x9, x9, #32
	b.ne	.LBB60_175
	orr	v0.16b, v1.16b, v0.16b
	cmp	x26, x8
	ext	v1.16b, v0.16b, v0.16b, #8
	orr	v0.8b, v0.8b, v1.8b
	fmov	x9, d0
	orr	x9, x9, x9, lsr #32
	orr	x9, x9, x9, lsr #16
	lsr	x11, x9, #8
	orr	w11, w9, w11
	b.ne	.LBB60_180
	add	x28, sp, #16, lsl #12
	add	x28, x28, #192
	b	.LBB60_186
.LBB60_178:
	cmp	x26, #64
	b.hs	.LBB60_190
	ldr	x11, [sp, #24]
	mov	w10, wzr
	mov	x9, xzr
	b	.LBB60_194
.LBB60_180:
	add	x28, sp, #16, lsl #12
	tst	x23, #0x30
	mov	x9, x10
	add	x28, x28, #192
	b.eq	.LBB60_184
.LBB60_181:
	movi	v0.2d, #0000000000000000
	add	x10, x9, x8, lsl #1
	mov	x12, x8
	and	x8, x26, #0x7ffffffffffffff8
	add	x13, x25, x10
	sub	x10, x12, x8
	mov	v0.b[0], w11
	add	x11, x1, x12
	add	x12, x13, #1
.LBB60_182:
	ld2	{ v1.8b, v2.8b }, [x12], #16
	adds	x10, x10, #8
	orr	v3.8b, v1.8b, v9.8b
	orr	v5.8b, v2.8b, v9.8b
	add	v7.8b, v1.8b, v8.8b
	add	v1.8b, v2.8b, v8.8b
	add	v4.8b, v3.8b, v11.8b
	add	v3.8b, v3.8b, v13.8b
	add	v6.8b, v5.8b, v11.8b
	add	v5.8b, v5.8b, v13.8b
	cmhi	v2.8b, v10.8b, v7.8b
	cmhi	v4.8b, v12.8b, v4.8b
	cmhi	v6.8b, v12.8b, v6.8b
	and	v3.8b, v3.8b, v4.8b
	orn	v3.8b, v3.8b, v4.8b
	and	v4.8b, v5.8b, v6.8b
	bsl	v2.8b, v7.8b, v3.8b
	cmhi	v3.8b, v10.8b, v1.8b
	orn	v4.8b, v4.8b, v6.8b
	bif	v1.8b, v4.8b, v3.8b
	shl	v3.8b, v2.8b, #4
	orr	v0.8b, v2.8b, v0.8b
	orr	v2.8b, v3.8b, v1.8b
	orr	v0.8b, v0.8b, v1.8b
	str	d2, [x11], #8
	b.ne	.LBB60_182
	fmov	x10, d0
	cmp	x26, x8
	orr	x10, x10, x10, lsr #32
	orr	x10, x10, x10, lsr #16
	lsr	x11, x10, #8
	orr	w11, w10, w11
	b.eq	.LBB60_186
.LBB60_184:
	add	x9, x9, x8, lsl #1
	add	x10, x25, x9
	add	x9, x1, x8
	sub	x8, x26, x8
	add	x10, x10, #2
.LBB60_185:
	ldurb	w12, [x10, #-1]
	ldrb	w14, [x10], #2
	orr	w13, w12, #0x20
	sub	w12, w12, #48
	orr	w16, w14, #0x20
	sub	w15, w13, #97
	sub	w13, w13, #87
	sub	w14, w14, #48
	and	w15, w15, #0xff
	cmp	w15, #6
	sub	w15, w16, #97
	csinv	w13, w13, wzr, lo
	cmp	w12, #10
	csel	w12, w12, w13, lo
	and	w13, w15, #0xff
	sub	w15, w16, #87
	cmp	w13, #6
	orr	w11, w12, w11
	csinv	w13, w15, wzr, lo
	cmp	w14, #10
	csel	w13, w14, w13, lo
	subs	x8, x8, #1
	orr	w12, w13, w12, lsl #4
	orr	w11, w11, w13
	strb	w12, [x9], #1
	b.ne	.LBB60_185
.LBB60_186:
	and	w8, w11, #0xff
	cmp	w8, #16
	b.hs	.LBB60_241
.LBB60_187:
	add	x8, sp, #16, lsl #12
	add	x4, sp, #16, lsl #12
	ldr	w0, [sp, #24]
	add	x8, x8, #120
	add	x4, x4, #168
	mov	x2, x26
	add	x3, x8, #24
	bl	_RNvNtNtNtCs00000000001_10pkcs1_tool4tool13pkcs1_program6answer11answer_word
	tbnz	w0, #0, .LBB60_323
.LBB60_188:
	add	x8, sp, #16, lsl #12
	add	x8, x8, #120
	ldr	x23, [x8, #64]
	ldr	x25, [x8, #48]
	add	x10, sp, #16, lsl #12
	add	x10, x10, #120
	cmp	x25, x23
	b.ne	.LBB60_250
.LBB60_189:
	add	x24, sp, #17, lsl #12
	cmn	x23, #1
	add	x24, x24, #432
	b.ne	.LBB60_244
	b	.LBB60_545
.LBB60_190:
	movi	v0.2d, #0000000000000000
	movi	v1.2d, #0000000000000000
	ldr	x10, [sp, #24]
	movi	v24.16b, #208
	movi	v25.16b, #32
	and	x9, x23, #0x7fffffffffffffe0
	movi	v26.16b, #10
	movi	v27.16b, #159
	add	x11, x25, x10
	movi	v28.16b, #6
	movi	v29.16b, #169
	add	x10, x8, #16
	add	x11, x11, #33
	mov	x12, x9
.LBB60_191:
	sub	x13, x11, #32
	ld2	{ v4.16b, v5.16b }, [x11]
	subs	x12, x12, #32
	add	x11, x11, #64
	ld2	{ v2.16b, v3.16b }, [x13]
	orr	v7.16b, v4.16b, v25.16b
	orr	v18.16b, v5.16b, v25.16b
	add	v22.16b, v4.16b, v24.16b
	orr	v6.16b, v2.16b, v25.16b
	orr	v16.16b, v3.16b, v25.16b
	add	v23.16b, v2.16b, v24.16b
	add	v4.16b, v5.16b, v24.16b
	add	v2.16b, v3.16b, v24.16b
	add	v19.16b, v7.16b, v27.16b
	add	v7.16b, v7.16b, v29.16b
	add	v21.16b, v18.16b, v27.16b
	add	v17.16b, v6.16b, v27.16b
	add	v6.16b, v6.16b, v29.16b
	add	v20.16b, v16.16b, v27.16b
	add	v16.16b, v16.16b, v29.16b
	add	v18.16b, v18.16b, v29.16b
	cmhi	v5.16b, v26.16b, v23.16b
	cmhi	v19.16b, v28.16b, v19.16b
	cmhi	v21.16b, v28.16b, v21.16b
	cmhi	v17.16b, v28.16b, v17.16b
	cmhi	v20.16b, v28.16b, v20.16b
	and	v7.16b, v7.16b, v19.16b
	and	v6.16b, v6.16b, v17.16b
	orn	v7.16b, v7.16b, v19.16b
	orn	v3.16b, v6.16b, v17.16b
	and	v6.16b, v16.16b, v20.16b
	cmhi	v16.16b, v26.16b, v22.16b
	and	v17.16b, v18.16b, v21.16b
	cmhi	v18.16b, v26.16b, v2.16b
	orn	v6.16b, v6.16b, v20.16b
	bit	v3.16b, v23.16b, v5.16b
	cmhi	v5.16b, v26.16b, v4.16b
	orn	v17.16b, v17.16b, v21.16b
	bit	v7.16b, v22.16b, v16.16b
	bif	v2.16b, v6.16b, v18.16b
	bif	v4.16b, v17.16b, v5.16b
	shl	v5.16b, v3.16b, #4
	orr	v0.16b, v3.16b, v0.16b
	shl	v6.16b, v7.16b, #4
	orr	v1.16b, v7.16b, v1.16b
	orr	v3.16b, v5.16b, v2.16b
	orr	v0.16b, v0.16b, v2.16b
	orr	v5.16b, v6.16b, v4.16b
	orr	v1.16b, v1.16b, v4.16b
	stp	q3, q5, [x10, #-16]
	add	x10, x10, #32
	b.ne	.LBB60_191
	orr	v0.16b, v1.16b, v0.16b
	cmp	x23, x9
	ext	v1.16b, v0.16b, v0.16b, #8
	orr	v0.8b, v0.8b, v1.8b
	fmov	x10, d0
	orr	x10, x10, x10, lsr #32
	orr	x10, x10, x10, lsr #16
	lsr	x11, x10, #8
	orr	w10, w10, w11
	b.eq	.LBB60_199
	ldr	x11, [sp, #24]
	tst	x26, #0x30
	b.eq	.LBB60_197
.LBB60_194:
	movi	v0.2d, #0000000000000000
	mov	x12, x9
	mov	v0.b[0], w10
	add	x10, x11, x9, lsl #1
	and	x9, x23, #0x7ffffffffffffff8
	add	x11, x8, x12
	add	x13, x25, x10
	sub	x10, x12, x9
	add	x12, x13, #1
.LBB60_195:
	ld2	{ v1.8b, v2.8b }, [x12], #16
	adds	x10, x10, #8
	orr	v3.8b, v1.8b, v9.8b
	orr	v5.8b, v2.8b, v9.8b
	add	v7.8b, v1.8b, v8.8b
	add	v1.8b, v2.8b, v8.8b
	add	v4.8b, v3.8b, v11.8b
	add	v3.8b, v3.8b, v13.8b
	add	v6.8b, v5.8b, v11.8b
	add	v5.8b, v5.8b, v13.8b
	cmhi	v2.8b, v10.8b, v7.8b
	cmhi	v4.8b, v12.8b, v4.8b
	cmhi	v6.8b, v12.8b, v6.8b
	and	v3.8b, v3.8b, v4.8b
	orn	v3.8b, v3.8b, v4.8b
	and	v4.8b, v5.8b, v6.8b
	bsl	v2.8b, v7.8b, v3.8b
	cmhi	v3.8b, v10.8b, v1.8b
	orn	v4.8b, v4.8b, v6.8b
	bif	v1.8b, v4.8b, v3.8b
	shl	v3.8b, v2.8b, #4
	orr	v0.8b, v2.8b, v0.8b
	orr	v2.8b, v3.8b, v1.8b
	orr	v0.8b, v0.8b, v1.8b
	str	d2, [x11], #8
	b.ne	.LBB60_195
	fmov	x10, d0
	cmp	x23, x9
	orr	x10, x10, x10, lsr #32
	orr	x10, x10, x10, lsr #16
	lsr	x11, x10, #8
	orr	w10, w10, w11
	ldr	x11, [sp, #24]
	b.eq	.LBB60_199
.LBB60_197:
	add	x11, x11, x9, lsl #1
	add	x8, x8, x9
	sub	x9, x23, x9
	add	x11, x25, x11
	add	x11, x11, #2
.LBB60_198:
	ldurb	w12, [x11, #-1]
	ldrb	w14, [x11], #2
	orr	w13, w12, #0x20
	sub	w12, w12, #48
	orr	w16, w14, #0x20
	sub	w15, w13, #97
	sub	w13, w13, #87
	sub	w14, w14, #48
	and	w15, w15, #0xff
	cmp	w15, #6
	sub	w15, w16, #97
	csinv	w13, w13, wzr, lo
	cmp	w12, #10
	csel	w12, w12, w13, lo
	and	w13, w15, #0xff
	sub	w15, w16, #87
	cmp	w13, #6
	orr	w10, w12, w10
	csinv	w13, w15, wzr, lo
	cmp	w14, #10
	csel	w13, w14, w13, lo
	subs	x9, x9, #1
	orr	w12, w13, w12, lsl #4
	orr	w10, w10, w13
	strb	w12, [x8], #1
	b.ne	.LBB60_198
.LBB60_199:
	and	w8, w10, #0xff
	add	x28, sp, #16, lsl #12
	cmp	w8, #16
	add	x28, x28, #192
	b.hs	.LBB60_241
.LBB60_200:
	lsr	x23, x24, #1
	add	x8, sp, #16, lsl #12
	add	x8, x8, #120
	add	x0, x8, #24
	mov	x1, x23
	bl	_RNvMs_NtNtCs00000000001_10pkcs1_tool10rattle_std3vecINtNtNtB6_7library3vec3VechE6resizeB8_
	tbnz	w0, #0, .LBB60_514
	add	x9, sp, #16, lsl #12
	tst	x24, #0x1
	add	x9, x9, #120
	ldp	x9, x10, [x9, #32]
	ccmp	x23, x10, #0, eq
	stp	x10, x9, [sp, #8]
	cset	w9, eq
	cmp	x24, #2
	b.lo	.LBB60_205
	cbz	w9, .LBB60_205
	mov	x8, x23
	cmp	x24, #16
	b.hs	.LBB60_224
	mov	w10, wzr
	mov	x9, xzr
	b	.LBB60_238
.LBB60_205:
	add	x28, sp, #16, lsl #12
	add	x28, x28, #192
	cbz	w9, .LBB60_241
.LBB60_206:
	add	x8, sp, #16, lsl #12
	add	x23, sp, #16, lsl #12
	add	x24, sp, #16, lsl #12
	add	x8, x8, #120
	add	x0, sp, #16, lsl #12
	add	x23, x23, #192
	ldp	x1, x2, [x8, #8]
	add	x24, x24, #120
	add	x0, x0, #432
	tbz	w27, #0, .LBB60_215
	bl	_RNvXs_NtNtNtCs00000000001_10pkcs1_tool4tool13pkcs1_program14parameter_textINtNtNtNtBa_6proved12pkcs1_params4oaep12OaepParamsOfNtNtNtB1h_9spki_core17object_identifier16ObjectIdentifierNtNtB24_3any6AnyRefENtB4_10Parameters4read
	ldp	x2, x1, [sp, #8]
	add	x0, sp, #120
	bl	_RNvXs_NtNtNtCs00000000001_10pkcs1_tool4tool13pkcs1_program14parameter_textINtNtNtNtBa_6proved12pkcs1_params4oaep12OaepParamsOfNtNtNtB1h_9spki_core17object_identifier16ObjectIdentifierNtNtB24_3any6AnyRefENtB4_10Parameters4read
	add	x10, sp, #16, lsl #12
	add	x9, sp, #17, lsl #12
	add	x11, sp, #120
	add	x10, x10, #432
	add	x9, x9, #432
	add	x23, sp, #16, lsl #12
	ldur	q0, [x10, #200]
	ldur	q1, [x10, #216]
	ldur	q2, [x10, #184]
	ldur	x8, [x10, #232]
	add	x23, x23, #192
	stp	q0, q1, [x9, #192]
	ldur	q0, [x10, #136]
	ldur	q1, [x10, #152]
	str	x8, [x9, #224]
	ldur	x8, [x11, #232]
	stp	q0, q1, [x9, #128]
	ldur	q0, [x10, #168]
	ldur	q1, [x10, #72]
	stp	q0, q2, [x9, #160]
	ldur	q0, [x10, #88]
	ldur	q2, [x10, #120]
	stp	q1, q0, [x9, #64]
	ldur	q0, [x10, #104]
	ldur	q1, [x10, #8]
	stp	q0, q2, [x9, #96]
	ldur	q0, [x10, #24]
	ldur	q2, [x10, #56]
	stp	q1, q0, [x9]
	ldur	q0, [x10, #40]
	ldur	q1, [x11, #184]
	add	x10, sp, #16, lsl #12
	stp	q0, q2, [x9, #32]
	ldur	q0, [x11, #200]
	add	x10, x10, #192
	stur	q1, [x24, #248]
	ldur	q1, [x11, #216]
	ldur	q2, [x11, #168]
	str	x8, [x10, #224]
	ldr	x8, [x10, #240]
	ldr	x9, [sp, #120]
	stp	q0, q1, [x10, #192]
	ldur	q0, [x11, #136]
	ldur	q1, [x11, #152]
	str	q2, [x10, #160]
	ldur	q2, [x11, #120]
	cmp	x8, #2
	stp	q0, q1, [x10, #128]
	ldur	q0, [x11, #72]
	ldur	q1, [x11, #88]
	stp	q0, q1, [x10, #64]
	ldur	q0, [x11, #104]
	ldur	q1, [x11, #8]
	stp	q0, q2, [x10, #96]
	ldur	q0, [x11, #24]
	ldur	q2, [x11, #56]
	stp	q1, q0, [x10]
	ldur	q0, [x11, #40]
	stp	q0, q2, [x10, #32]
	b.eq	.LBB60_226
	cmp	x9, #2
	b.eq	.LBB60_226
	add	x10, sp, #17, lsl #12
	add	x12, sp, #16, lsl #12
	add	x11, sp, #16, lsl #12
	add	x10, x10, #432
	add	x12, x12, #432
	add	x11, x11, #192
	ldp	q0, q1, [x10, #176]
	ldr	q2, [x10, #208]
	add	x13, sp, #120
	add	x24, sp, #16, lsl #12
	str	x8, [x11, #240]
	stur	q2, [x12, #216]
	ldr	x8, [x11, #224]
	add	x23, sp, #16, lsl #12
	stur	q0, [x12, #184]
	add	x24, x24, #432
	add	x23, x23, #192
	stur	q1, [x12, #200]
	ldp	q0, q1, [x10, #112]
	add	x25, sp, #120
	str	x9, [sp, #120]
	stur	x8, [x13, #232]
	stur	q0, [x12, #120]
	ldp	q0, q3, [x10, #144]
	stur	q1, [x12, #136]
	stur	q0, [x12, #152]
	ldp	q0, q1, [x10, #48]
	stur	q3, [x12, #168]
	stur	q0, [x12, #56]
	ldp	q0, q2, [x10, #80]
	stur	q1, [x12, #72]
	ldp	q1, q3, [x10, #16]
	stur	q0, [x12, #88]
	ldr	q0, [x10]
	ldr	x10, [x10, #224]
	stur	q1, [x12, #24]
	stur	q0, [x12, #8]
	ldp	q0, q1, [x11, #176]
	stur	q2, [x12, #104]
	stur	q3, [x12, #40]
	stur	q0, [x13, #184]
	ldr	q0, [x11, #208]
	stur	q1, [x13, #200]
	stur	q0, [x13, #216]
	ldp	q1, q0, [x11, #112]
	stur	x10, [x12, #232]
	ldrb	w2, [x11, #391]
	stur	q1, [x13, #120]
	ldp	q1, q2, [x11, #144]
	stur	q0, [x13, #136]
	cmp	w2, #40
	stur	q1, [x13, #152]
	ldp	q0, q1, [x11, #48]
	stur	q2, [x13, #168]
	stur	q0, [x13, #56]
	ldp	q0, q3, [x11, #80]
	stur	q1, [x13, #72]
	ldp	q1, q2, [x11, #16]
	stur	q0, [x13, #88]
	ldr	q0, [x11]
	stur	q3, [x13, #104]
	stur	q0, [x13, #8]
	stur	q1, [x13, #24]
	stur	q2, [x13, #40]
	b.hs	.LBB60_741
	ldrb	w0, [sp, #271]
	cmp	w0, #40
	b.hs	.LBB60_742
	cmp	w2, w0
	b.ne	.LBB60_213
	add	x0, x24, #112
	add	x1, x25, #112
	bl	memcmp
	cbz	w0, .LBB60_272
.LBB60_213:
	mov	w2, wzr
.LBB60_214:
	add	x3, sp, #16, lsl #12
	adrp	x0, .Lanon.64
	add	x0, x0, :lo12:.Lanon.64
	add	x3, x3, #168
	mov	w1, #9
	b	.LBB60_223
.LBB60_215:
	bl	_RNvXNtNtNtCs00000000001_10pkcs1_tool4tool13pkcs1_program14parameter_textINtNtNtNtB8_6proved12pkcs1_params3pss11PssParamsOfNtNtNtB1f_9spki_core17object_identifier16ObjectIdentifierNtNtB20_3any6AnyRefENtB2_10Parameters4read
	ldp	x2, x1, [sp, #8]
	add	x0, sp, #120
	bl	_RNvXNtNtNtCs00000000001_10pkcs1_tool4tool13pkcs1_program14parameter_textINtNtNtNtB8_6proved12pkcs1_params3pss11PssParamsOfNtNtNtB1f_9spki_core17object_identifier16ObjectIdentifierNtNtB20_3any6AnyRefENtB2_10Parameters4read
	add	x9, sp, #16, lsl #12
	add	x8, sp, #17, lsl #12
	add	x11, sp, #16, lsl #12
	add	x9, x9, #432
	add	x8, x8, #432
	add	x11, x11, #120
	ldur	q0, [x9, #136]
	ldur	q1, [x9, #152]
	ldur	q2, [x9, #168]
	add	x10, sp, #16, lsl #12
	stp	q0, q1, [x8, #128]
	ldur	q0, [x9, #72]
	ldur	q1, [x9, #88]
	str	q2, [x8, #160]
	ldur	q2, [x9, #120]
	add	x10, x10, #120
	stp	q0, q1, [x8, #64]
	ldur	q0, [x9, #104]
	ldur	q1, [x9, #8]
	stp	q0, q2, [x8, #96]
	ldur	q0, [x9, #24]
	ldur	q2, [x9, #56]
	stp	q1, q0, [x8]
	ldur	q0, [x9, #40]
	add	x9, sp, #120
	ldur	q1, [x9, #120]
	stp	q0, q2, [x8, #32]
	ldur	q0, [x9, #136]
	ldr	x8, [x23, #240]
	stur	q1, [x11, #184]
	ldur	q1, [x9, #152]
	stur	q0, [x11, #200]
	ldur	q0, [x9, #168]
	cmp	x8, #2
	stur	q1, [x11, #216]
	ldur	q1, [x9, #56]
	stur	q0, [x11, #232]
	ldur	q0, [x9, #72]
	stur	q1, [x11, #120]
	ldur	q1, [x9, #88]
	stur	q0, [x11, #136]
	ldur	q0, [x9, #104]
	stur	q1, [x11, #152]
	ldur	q1, [x9, #8]
	stur	q0, [x11, #168]
	ldur	q0, [x9, #24]
	stur	q1, [x11, #72]
	ldur	q1, [x9, #40]
	ldr	x9, [sp, #120]
	stur	q0, [x11, #88]
	stur	q1, [x11, #104]
	b.eq	.LBB60_228
	cmp	x9, #2
	b.eq	.LBB60_228
	add	x10, sp, #17, lsl #12
	add	x13, sp, #16, lsl #12
	add	x11, sp, #16, lsl #12
	add	x10, x10, #432
	add	x13, x13, #432
	add	x11, x11, #120
	ldp	q0, q1, [x10, #112]
	add	x12, sp, #16, lsl #12
	add	x23, sp, #16, lsl #12
	add	x12, x12, #432
	str	x9, [sp, #120]
	add	x23, x23, #192
	stur	q0, [x13, #120]
	ldp	q2, q0, [x10, #144]
	stur	q1, [x13, #136]
	stur	q0, [x13, #168]
	ldp	q1, q0, [x10, #48]
	stur	q2, [x13, #152]
	stur	q1, [x13, #56]
	ldp	q1, q3, [x10, #80]
	stur	q0, [x13, #72]
	ldr	q0, [x10]
	stur	q1, [x13, #88]
	ldp	q1, q2, [x10, #16]
	stur	q0, [x13, #8]
	ldur	q0, [x11, #184]
	add	x10, sp, #16, lsl #12
	stur	q3, [x13, #104]
	add	x10, x10, #192
	stur	q1, [x13, #24]
	ldur	q1, [x11, #200]
	ldrb	w2, [x10, #391]
	stur	q2, [x13, #40]
	add	x13, sp, #120
	stur	q0, [x13, #120]
	ldur	q0, [x11, #216]
	cmp	w2, #40
	stur	q1, [x13, #136]
	ldur	q1, [x11, #232]
	stur	q0, [x13, #152]
	ldur	q0, [x11, #120]
	stur	q1, [x13, #168]
	ldur	q1, [x11, #136]
	stur	q0, [x13, #56]
	ldur	q0, [x11, #152]
	stur	q1, [x13, #72]
	ldur	q1, [x11, #168]
	stur	q0, [x13, #88]
	ldur	q0, [x11, #72]
	str	x8, [x10, #240]
	add	x8, sp, #120
	stur	q0, [x13, #8]
	ldur	q0, [x11, #88]
	stur	q1, [x13, #104]
	stur	q0, [x13, #24]
	ldur	q0, [x11, #104]
	stur	q0, [x13, #40]
	b.hs	.LBB60_741
	ldrb	w0, [sp, #271]
	cmp	w0, #40
	b.hs	.LBB60_742
	cmp	w2, w0
	b.ne	.LBB60_221
	add	x0, x12, #112
	add	x1, x8, #112
	bl	memcmp
	cbz	w0, .LBB60_277
.LBB60_221:
	mov	w2, wzr
.LBB60_222:
	add	x3, sp, #16, lsl #12
	adrp	x0, .Lanon.65
	add	x0, x0, :lo12:.Lanon.65
	add	x3, x3, #168
	mov	w1, #8
.LBB60_223:
	bl	_RNvNtNtNtCs00000000001_10pkcs1_tool4tool13pkcs1_program7verdict11put_verdict
	add	x28, sp, #16, lsl #12
	add	x28, x28, #192
	tbz	w0, #0, .LBB60_188
	b	.LBB60_323
.LBB60_224:
	cmp	x24, #64
	b.hs	.LBB60_231
	mov	w10, wzr
	mov	x9, xzr
	b	.LBB60_235
.LBB60_226:
	ldr	x8, [x24, #48]
	cmp	x8, #7
	b.lo	.LBB60_296
	ldr	x8, [x24, #56]
	b	.LBB60_230
.LBB60_228:
	ldr	x8, [x10, #48]
	cmp	x8, #7
	b.lo	.LBB60_298
	ldr	x8, [x10, #56]
.LBB60_230:
	mov	w9, #29557
	add	x28, sp, #16, lsl #12
	mov	w23, #7
	movk	w9, #25701, lsl #16
	add	x28, x28, #192
	stur	w9, [x8, #3]
	mov	w9, #25970
	movk	w9, #30054, lsl #16
	str	w9, [x8]
	add	x8, sp, #16, lsl #12
	mov	w9, #7
	add	x8, x8, #120
	str	x9, [x8, #64]
	ldr	x25, [x8, #48]
	add	x10, sp, #16, lsl #12
	add	x10, x10, #120
	cmp	x25, x23
	b.eq	.LBB60_189
	b	.LBB60_250
.LBB60_231:
	ldp	x11, x9, [sp, #16]
	movi	v0.2d, #0000000000000000
	movi	v1.2d, #0000000000000000
	movi	v24.16b, #208
	movi	v25.16b, #32
	movi	v26.16b, #10
	movi	v27.16b, #159
	movi	v28.16b, #6
	movi	v29.16b, #169
	add	x10, x26, x9
	and	x9, x8, #0x7fffffffffffffe0
	add	x10, x25, x10
	add	x11, x11, #16
	mov	x12, x9
	add	x10, x10, #34
.LBB60_232:
	sub	x13, x10, #32
	ld2	{ v4.16b, v5.16b }, [x10]
	subs	x12, x12, #32
	add	x10, x10, #64
	ld2	{ v2.16b, v3.16b }, [x13]
	orr	v7.16b, v4.16b, v25.16b
	orr	v18.16b, v5.16b, v25.16b
	add	v22.16b, v4.16b, v24.16b
	orr	v6.16b, v2.16b, v25.16b
	orr	v16.16b, v3.16b, v25.16b
	add	v23.16b, v2.16b, v24.16b
	add	v4.16b, v5.16b, v24.16b
	add	v2.16b, v3.16b, v24.16b
	add	v19.16b, v7.16b, v27.16b
	add	v7.16b, v7.16b, v29.16b
	add	v21.16b, v18.16b, v27.16b
	add	v17.16b, v6.16b, v27.16b
	add	v6.16b, v6.16b, v29.16b
	add	v20.16b, v16.16b, v27.16b
	add	v16.16b, v16.16b, v29.16b
	add	v18.16b, v18.16b, v29.16b
	cmhi	v5.16b, v26.16b, v23.16b
	cmhi	v19.16b, v28.16b, v19.16b
	cmhi	v21.16b, v28.16b, v21.16b
	cmhi	v17.16b, v28.16b, v17.16b
	cmhi	v20.16b, v28.16b, v20.16b
	and	v7.16b, v7.16b, v19.16b
	and	v6.16b, v6.16b, v17.16b
	orn	v7.16b, v7.16b, v19.16b
	orn	v3.16b, v6.16b, v17.16b
	and	v6.16b, v16.16b, v20.16b
	cmhi	v16.16b, v26.16b, v22.16b
	and	v17.16b, v18.16b, v21.16b
	cmhi	v18.16b, v26.16b, v2.16b
	orn	v6.16b, v6.16b, v20.16b
	bit	v3.16b, v23.16b, v5.16b
	cmhi	v5.16b, v26.16b, v4.16b
	orn	v17.16b, v17.16b, v21.16b
	bit	v7.16b, v22.16b, v16.16b
	bif	v2.16b, v6.16b, v18.16b
	bif	v4.16b, v17.16b, v5.16b
	shl	v5.16b, v3.16b, #4
	orr	v0.16b, v3.16b, v0.16b
	shl	v6.16b, v7.16b, #4
	orr	v1.16b, v7.16b, v1.16b
	orr	v3.16b, v5.16b, v2.16b
	orr	v0.16b, v0.16b, v2.16b
	orr	v5.16b, v6.16b, v4.16b
	orr	v1.16b, v1.16b, v4.16b
	stp	q3, q5, [x11, #-16]
	add	x11, x11, #32
	b.ne	.LBB60_232
	orr	v0.16b, v1.16b, v0.16b
	cmp	x8, x9
	ext	v1.16b, v0.16b, v0.16b, #8
	orr	v0.8b, v0.8b, v1.8b
	fmov	x10, d0
	orr	x10, x10, x10, lsr #32
	orr	x10, x10, x10, lsr #16
	lsr	x11, x10, #8
	orr	w10, w10, w11
	b.eq	.LBB60_240
	tst	x24, #0x30
	b.eq	.LBB60_238
.LBB60_235:
	movi	v0.2d, #0000000000000000
	mov	x11, x9
	ldp	x13, x9, [sp, #16]
	add	x9, x26, x9
	mov	v0.b[0], w10
	add	x10, x9, x11, lsl #1
	and	x9, x8, #0x7ffffffffffffff8
	add	x12, x25, x10
	sub	x10, x11, x9
	add	x11, x13, x11
	add	x12, x12, #2
.LBB60_236:
	ld2	{ v1.8b, v2.8b }, [x12], #16
	adds	x10, x10, #8
	orr	v3.8b, v1.8b, v9.8b
	orr	v5.8b, v2.8b, v9.8b
	add	v7.8b, v1.8b, v8.8b
	add	v1.8b, v2.8b, v8.8b
	add	v4.8b, v3.8b, v11.8b
	add	v3.8b, v3.8b, v13.8b
	add	v6.8b, v5.8b, v11.8b
	add	v5.8b, v5.8b, v13.8b
	cmhi	v2.8b, v10.8b, v7.8b
	cmhi	v4.8b, v12.8b, v4.8b
	cmhi	v6.8b, v12.8b, v6.8b
	and	v3.8b, v3.8b, v4.8b
	orn	v3.8b, v3.8b, v4.8b
	and	v4.8b, v5.8b, v6.8b
	bsl	v2.8b, v7.8b, v3.8b
	cmhi	v3.8b, v10.8b, v1.8b
	orn	v4.8b, v4.8b, v6.8b
	bif	v1.8b, v4.8b, v3.8b
	shl	v3.8b, v2.8b, #4
	orr	v0.8b, v2.8b, v0.8b
	orr	v2.8b, v3.8b, v1.8b
	orr	v0.8b, v0.8b, v1.8b
	str	d2, [x11], #8
	b.ne	.LBB60_236
	fmov	x10, d0
	cmp	x8, x9
	orr	x10, x10, x10, lsr #32
	orr	x10, x10, x10, lsr #16
	lsr	x11, x10, #8
	orr	w10, w10, w11
	b.eq	.LBB60_240
.LBB60_238:
	ldr	x11, [sp, #24]
	sub	x8, x8, x9
	add	x11, x26, x11
	add	x11, x11, x9, lsl #1
	add	x12, x25, x11
	ldr	x11, [sp, #16]
	add	x11, x11, x9
	add	x9, x12, #3
.LBB60_239:
	ldurb	w12, [x9, #-1]
	ldrb	w14, [x9], #2
	orr	w13, w12, #0x20
	sub	w12, w12, #48
	orr	w16, w14, #0x20
	sub	w15, w13, #97
	sub	w13, w13, #87
	sub	w14, w14, #48
	and	w15, w15, #0xff
	cmp	w15, #6
	sub	w15, w16, #97
	csinv	w13, w13, wzr, lo
	cmp	w12, #10
	csel	w12, w12, w13, lo
	and	w13, w15, #0xff
	sub	w15, w16, #87
	cmp	w13, #6
	orr	w10, w12, w10
	csinv	w13, w15, wzr, lo
	cmp	w14, #10
	csel	w13, w14, w13, lo
	subs	x8, x8, #1
	orr	w12, w13, w12, lsl #4
	orr	w10, w10, w13
	strb	w12, [x11], #1
	b.ne	.LBB60_239
.LBB60_240:
	and	w8, w10, #0xff
	add	x28, sp, #16, lsl #12
	cmp	w8, #16
	add	x28, x28, #192
	b.lo	.LBB60_206
.LBB60_241:
	add	x10, sp, #16, lsl #12
	add	x10, x10, #120
	ldr	x8, [x10, #48]
	cmp	x8, #8
	b.lo	.LBB60_268
	ldr	x8, [x10, #56]
	add	x9, sp, #16, lsl #12
	add	x24, sp, #17, lsl #12
	add	x9, x9, #120
	add	x24, x24, #432
.LBB60_243:
	mov	x10, #24930
	mov	w23, #8
	movk	x10, #8292, lsl #16
	movk	x10, #26988, lsl #32
	movk	x10, #25966, lsl #48
	str	x10, [x8]
	add	x10, sp, #16, lsl #12
	mov	w8, #8
	ldr	x25, [x9, #48]
	add	x10, x10, #120
	str	x8, [x9, #64]
	cmp	x25, #8
	b.ne	.LBB60_250
.LBB60_244:
	lsl	x8, x23, #1
	add	x9, x23, #1
	cmp	x8, x9
	mov	w9, #8
	csinc	x8, x8, x23, hi
	cmp	x8, #8
	csel	x25, x8, x9, hi
	tbnz	x25, #63, .LBB60_317
	cbnz	x23, .LBB60_247
	mov	x8, xzr
	b	.LBB60_248
.LBB60_247:
	ldr	x8, [x10, #56]
	str	x23, [sp, #136]
	str	x8, [sp, #120]
	mov	w8, #1
.LBB60_248:
	add	x0, sp, #16, lsl #12
	add	x3, sp, #120
	mov	w1, #1
	add	x0, x0, #432
	mov	x2, x25
	str	x8, [sp, #128]
	bl	_RINvNtCs00000000000_5alloc7raw_vec11finish_growNtNtB4_5alloc6GlobalECs00000000001_10pkcs1_tool
	ldr	w8, [x28, #240]
	cmp	w8, #1
	b.eq	.LBB60_317
	ldr	x8, [x28, #248]
	add	x9, sp, #16, lsl #12
	add	x9, x9, #120
	stp	x25, x8, [x9, #48]
.LBB60_250:
	cmp	x23, x25
	b.ne	.LBB60_252
	add	x0, sp, #16, lsl #12
	add	x0, x0, #168
	bl	_ZN5alloc7raw_vec19RawVec$LT$T$C$A$GT$8grow_one17h0000000000000003E
.LBB60_252:
	add	x9, sp, #16, lsl #12
	mov	w10, #10
	add	x25, x23, #1
	add	x9, x9, #120
	add	x27, sp, #16, lsl #12
	ldr	x8, [x9, #56]
	add	x27, x27, #120
	strb	w10, [x8, x23]
	ldr	x10, [sp, #48]
	ldr	x26, [x9, #56]
	str	x25, [x9, #64]
	sub	x8, x10, x21
	cmp	x8, x25
	b.hs	.LBB60_257
	cmn	x21, x25
	b.hs	.LBB60_323
	lsl	x8, x10, #1
	add	x24, x25, x21
	mov	w9, #8
	cmp	x8, x24
	csel	x8, x8, x24, hi
	cmp	x8, #8
	csel	x23, x8, x9, hi
	tbnz	x23, #63, .LBB60_323
	cbnz	x10, .LBB60_258
	mov	x8, xzr
	b	.LBB60_259
.LBB60_257:
	add	x24, x25, x21
	b	.LBB60_261
.LBB60_258:
	mov	w8, #1
	str	x29, [sp, #120]
	str	x10, [sp, #136]
.LBB60_259:
	add	x0, sp, #16, lsl #12
	add	x3, sp, #120
	mov	w1, #1
	add	x0, x0, #432
	mov	x2, x23
	str	x8, [sp, #128]
	bl	_RINvNtCs00000000000_5alloc7raw_vec11finish_growNtNtB4_5alloc6GlobalECs00000000001_10pkcs1_tool
	ldr	w8, [x28, #240]
	cmp	w8, #1
	b.eq	.LBB60_323
	ldr	x29, [x28, #248]
	stp	x23, x23, [sp, #48]
.LBB60_261:
	add	x0, x29, x21
	mov	x1, x26
	mov	x2, x25
	bl	memcpy
	cmp	x24, #16, lsl #12
	b.hs	.LBB60_263
	mov	x21, x24
	b	.LBB60_267
.LBB60_263:
	mov	x21, xzr
.LBB60_264:
	sub	x2, x24, x21
	add	x1, x29, x21
	mov	w0, #1
	mov	w23, #1
	bl	pkcs1_os_write
	cmp	x0, #0
	b.le	.LBB60_322
	add	x21, x0, x21
	cmp	x21, x24
	b.lo	.LBB60_264
	mov	x21, xzr
.LBB60_267:
	ldp	x25, x23, [sp, #32]
	add	x24, sp, #17, lsl #12
	add	x24, x24, #432
	cbnz	x22, .LBB60_118
	b	.LBB60_378
.LBB60_268:
	lsl	x9, x8, #1
	mov	w11, #8
	cmp	x9, #8
	csel	x25, x9, x11, hi
	cbz	x8, .LBB60_270
	ldr	x9, [x10, #56]
	str	x8, [sp, #136]
	mov	w8, #1
	str	x9, [sp, #120]
.LBB60_270:
	add	x0, sp, #16, lsl #12
	add	x3, sp, #120
	mov	w1, #1
	add	x0, x0, #432
	mov	x2, x25
	str	x8, [sp, #128]
	bl	_RINvNtCs00000000000_5alloc7raw_vec11finish_growNtNtB4_5alloc6GlobalECs00000000001_10pkcs1_tool
	ldr	w8, [x28, #240]
	add	x24, sp, #17, lsl #12
	add	x24, x24, #432
	cmp	w8, #1
	b.eq	.LBB60_317
	ldr	x8, [x28, #248]
	add	x9, sp, #16, lsl #12
	add	x9, x9, #120
	stp	x25, x8, [x9, #48]
	b	.LBB60_243
.LBB60_272:
	ldr	x0, [x23, #392]
	ldr	x1, [sp, #272]
	cbz	x0, .LBB60_282
	cbz	x1, .LBB60_282
	ldr	x8, [x23, #408]
	ldr	x9, [sp, #288]
	cmp	x8, x9
	b.ne	.LBB60_213
	ldr	x2, [x23, #400]
	ldr	x8, [sp, #280]
	cmp	x2, x8
	b.ne	.LBB60_213
	bl	memcmp
	cbnz	w0, .LBB60_213
	b	.LBB60_283
.LBB60_277:
	ldr	x0, [x23, #392]
	ldr	x1, [sp, #272]
	cbz	x0, .LBB60_293
	cbz	x1, .LBB60_293
	ldr	x8, [x23, #408]
	ldr	x9, [sp, #288]
	cmp	x8, x9
	b.ne	.LBB60_221
	ldr	x2, [x23, #400]
	ldr	x8, [sp, #280]
	cmp	x2, x8
	b.ne	.LBB60_221
	bl	memcmp
	cbnz	w0, .LBB60_221
	b	.LBB60_294
.LBB60_282:
	orr	x8, x0, x1
	cbnz	x8, .LBB60_213
.LBB60_283:
	add	x0, sp, #16, lsl #12
	add	x1, sp, #120
	add	x0, x0, #432
	bl	_RNvXse_NtNtNtCs00000000001_10pkcs1_tool6proved9spki_core20algorithm_identifierINtB5_21AlgorithmIdentifierOfNtNtB7_17object_identifier16ObjectIdentifierIB1f_B1H_NtNtB7_3any6AnyRefEENtNtCs00000000002_4core3cmp9PartialEq2eqBb_
	cbz	w0, .LBB60_213
	ldrb	w2, [x23, #455]
	cmp	w2, #40
	b.hs	.LBB60_741
	ldrb	w0, [sp, #335]
	cmp	w0, #40
	b.hs	.LBB60_742
	cmp	w2, w0
	b.ne	.LBB60_213
	add	x0, x24, #176
	add	x1, x25, #176
	bl	memcmp
	cbnz	w0, .LBB60_213
	ldr	x0, [x23, #456]
	ldr	x1, [sp, #336]
	orr	x8, x0, x1
	cmp	x8, #0
	cset	w2, eq
	cbz	x0, .LBB60_214
	cbz	x1, .LBB60_214
	ldr	x8, [x23, #472]
	ldr	x9, [sp, #352]
	cmp	x8, x9
	b.ne	.LBB60_213
	ldr	x2, [x23, #464]
	ldr	x8, [sp, #344]
	cmp	x2, x8
	b.ne	.LBB60_213
	bl	memcmp
	cmp	w0, #0
	cset	w2, eq
	b	.LBB60_214
.LBB60_293:
	orr	x8, x0, x1
	cbnz	x8, .LBB60_221
.LBB60_294:
	add	x0, sp, #16, lsl #12
	add	x1, sp, #120
	add	x0, x0, #432
	bl	_RNvXse_NtNtNtCs00000000001_10pkcs1_tool6proved9spki_core20algorithm_identifierINtB5_21AlgorithmIdentifierOfNtNtB7_17object_identifier16ObjectIdentifierIB1f_B1H_NtNtB7_3any6AnyRefEENtNtCs00000000002_4core3cmp9PartialEq2eqBb_
	cbz	w0, .LBB60_221
	ldrb	w8, [x23, #416]
	ldrb	w9, [sp, #296]
	cmp	w8, w9
	cset	w2, eq
	b	.LBB60_222
.LBB60_296:
	lsl	x9, x8, #1
	mov	w10, #8
	cmp	x9, #8
	csel	x25, x9, x10, hi
	cbz	x8, .LBB60_301
	ldr	x9, [x24, #56]
	b	.LBB60_300
.LBB60_298:
	lsl	x9, x8, #1
	mov	w11, #8
	cmp	x9, #8
	csel	x25, x9, x11, hi
	cbz	x8, .LBB60_301
	ldr	x9, [x10, #56]
.LBB60_300:
	str	x8, [sp, #136]
	mov	w8, #1
	str	x9, [sp, #120]
.LBB60_301:
	add	x0, sp, #16, lsl #12
	add	x3, sp, #120
	mov	w1, #1
	add	x0, x0, #432
	mov	x2, x25
	str	x8, [sp, #128]
	bl	_RINvNtCs00000000000_5alloc7raw_vec11finish_growNtNtB4_5alloc6GlobalECs00000000001_10pkcs1_tool
	ldr	w8, [x23, #240]
	cmp	w8, #1
	b.eq	.LBB60_514
	ldr	x8, [x23, #248]
	add	x9, sp, #16, lsl #12
	add	x9, x9, #120
	stp	x25, x8, [x9, #48]
	b	.LBB60_230
.LBB60_303:
	mov	w24, #7
	cbnz	x20, .LBB60_102
	b	.LBB60_103
.LBB60_304:
	ldr	w8, [x9]
	mov	w9, #29296
	movk	w9, #30313, lsl #16
	cmp	w8, w9
	b.ne	.LBB60_84
	add	x0, sp, #120
	mov	x1, x23
	mov	x2, x20
	bl	_RNvXNtNtNtCs00000000001_10pkcs1_tool6proved8der_core11file_systemRNtNtB8_10rattle_std11HostRuntimeNtB2_10FileSystem4openB8_
	ldrb	w8, [sp, #120]
	tbz	w8, #0, .LBB60_320
	ldrb	w8, [sp, #123]
	ldurh	w24, [sp, #121]
	mov	x25, x22
	bfi	w24, w8, #16, #8
	uxth	w8, w8
	lsr	w26, w24, #8
	b	.LBB60_725
.LBB60_307:
	str	xzr, [sp, #56]
.LBB60_308:
	add	x22, sp, #16, lsl #12
	ldr	x8, [x22, #120]!
	cbz	x8, .LBB60_310
	ldr	x0, [x22, #8]
	bl	free
.LBB60_310:
	ldr	x8, [x22, #24]
	cbz	x8, .LBB60_312
	ldr	x0, [x22, #32]
	bl	free
.LBB60_312:
	cbz	x21, .LBB60_338
	mov	x25, x23
	mov	x23, xzr
.LBB60_314:
	sub	x2, x21, x23
	add	x1, x29, x23
	mov	w0, #1
	mov	w22, #1
	bl	pkcs1_os_write
	cmp	x0, #0
	b.le	.LBB60_339
	add	x23, x0, x23
	cmp	x23, x21
	b.lo	.LBB60_314
	mov	w22, #3
	mov	x23, x25
	b	.LBB60_340
.LBB60_317:
	mov	w23, #2
	add	x22, sp, #16, lsl #12
	add	x22, x22, #120
	ldr	x8, [x22, #48]
	cbnz	x8, .LBB60_325
	b	.LBB60_326
.LBB60_318:
	ldr	x8, [sp, #128]
	ldr	w0, [sp, #136]
	add	x1, sp, #120
	stp	xzr, xzr, [sp, #120]
	str	x8, [x28, #240]
	str	w0, [x28, #248]
	str	wzr, [sp, #144]
	str	xzr, [sp, #136]
	bl	pkcs1_os_look_at
	tbnz	x0, #63, .LBB60_346
	ldr	w24, [sp, #144]
	b	.LBB60_347
.LBB60_320:
	ldr	x8, [sp, #128]
	ldr	w0, [sp, #136]
	add	x1, sp, #120
	stp	xzr, xzr, [sp, #120]
	str	x8, [x28, #240]
	str	w0, [x28, #248]
	str	wzr, [sp, #144]
	str	xzr, [sp, #136]
	bl	pkcs1_os_look_at
	tbnz	x0, #63, .LBB60_364
	ldr	w24, [sp, #144]
	b	.LBB60_365
.LBB60_322:
	mov	x21, x24
	b	.LBB60_324
.LBB60_323:
	mov	w23, #2
.LBB60_324:
	add	x24, sp, #17, lsl #12
	add	x24, x24, #432
	add	x22, sp, #16, lsl #12
	add	x22, x22, #120
	ldr	x8, [x22, #48]
	cbz	x8, .LBB60_326
.LBB60_325:
	ldr	x0, [x22, #56]
	bl	free
.LBB60_326:
	ldr	x8, [x22]
	cbz	x8, .LBB60_328
	ldr	x0, [x22, #8]
	bl	free
.LBB60_328:
	ldr	x8, [x22, #24]
	cbz	x8, .LBB60_330
	ldr	x0, [x22, #32]
	bl	free
.LBB60_330:
	cmp	w23, #2
	b.ne	.LBB60_336
	ldr	x23, [sp, #40]
	cbz	x21, .LBB60_335
	mov	x22, xzr
.LBB60_333:
	sub	x2, x21, x22
	add	x1, x29, x22
	mov	w0, #1
	bl	pkcs1_os_write
	cmp	x0, #0
	b.le	.LBB60_337
	add	x22, x0, x22
	cmp	x22, x21
	b.lo	.LBB60_333
.LBB60_335:
	mov	w22, #2
	b	.LBB60_340
.LBB60_336:
	ldr	x23, [sp, #40]
.LBB60_337:
	mov	w22, #1
	b	.LBB60_340
.LBB60_338:
	mov	w22, #3
	b	.LBB60_340
.LBB60_339:
	mov	x23, x25
.LBB60_340:
	ldr	x8, [sp, #56]
	cbz	x8, .LBB60_342
	mov	x0, x29
	bl	free
.LBB60_342:
	cbz	x20, .LBB60_344
	mov	x0, x23
	bl	free
.LBB60_344:
	cmp	w22, #3
	b.ne	.LBB60_105
	mov	w20, wzr
	ldp	x22, x29, [sp, #64]
	cbnz	x19, .LBB60_106
	b	.LBB60_731
.LBB60_346:
	mov	w24, #384
.LBB60_347:
	add	x1, sp, #16, lsl #12
	add	x0, sp, #120
	add	x1, x1, #432
	bl	_RINvNtNtNtCs00000000001_10pkcs1_tool4tool13pkcs1_program8sequence13read_sequenceINtNtNtNtB8_6proved8der_core6std_io8FromReadNtNtNtB8_10rattle_std6system4FileEEB8_
	ldrb	w8, [sp, #130]
	ldrh	w9, [sp, #128]
	mov	x10, #-9223372036854775808
	ldr	x25, [sp, #120]
	orr	w8, w9, w8, lsl #16
	cmp	x25, x10
	b.ne	.LBB60_355
	mov	x21, x29
	mov	x29, x22
	and	x27, x8, #0xffffff
.LBB60_349:
	ldr	w0, [x28, #248]
	bl	pkcs1_os_close
	add	x25, sp, #17, lsl #12
	add	x24, sp, #16, lsl #12
	lsr	x26, x27, #8
	lsr	x8, x27, #16
	add	x25, x25, #432
	add	x24, x24, #120
.LBB60_350:
	mov	x22, #-9223372036854775808
.LBB60_351:
	strb	w8, [x25, #42]
	ldr	w8, [sp, #96]
	bfi	w27, w26, #8, #24
	stp	x9, x23, [x25, #16]
	ldrb	w9, [sp, #100]
	add	x0, sp, #16, lsl #12
	stur	w8, [x25, #43]
	add	x8, sp, #17, lsl #12
	adrp	x1, .Lanon.0
	add	x1, x1, :lo12:.Lanon.0
	strb	w9, [x25, #47]
	add	x8, x8, #432
	adrp	x9, _RNvXs0_NtNtNtCs00000000001_10pkcs1_tool4tool13pkcs1_program10copy_errorNtB5_9FileErrorNtNtCs00000000002_4core3fmt7Display3fmt
	add	x9, x9, :lo12:_RNvXs0_NtNtNtCs00000000001_10pkcs1_tool4tool13pkcs1_program10copy_errorNtB5_9FileErrorNtNtCs00000000002_4core3fmt7Display3fmt
	stp	x22, x10, [x25]
	stp	x8, x9, [x24, #48]
	mov	w8, #1
	adrp	x9, .Lanon.19
	add	x9, x9, :lo12:.Lanon.19
	adrp	x10, _ZN59_$LT$core..fmt..Arguments$u20$as$u20$core..fmt..Display$GT$3fmt17h0000000000000007E
	add	x10, x10, :lo12:_ZN59_$LT$core..fmt..Arguments$u20$as$u20$core..fmt..Display$GT$3fmt17h0000000000000007E
	stp	x9, x8, [x28, #240]
	add	x9, sp, #16, lsl #12
	add	x0, x0, #192
	add	x9, x9, #168
	stp	x8, xzr, [x28, #264]
	add	x2, sp, #120
	str	x9, [x28, #256]
	add	x9, sp, #16, lsl #12
	add	x9, x9, #432
	stp	x8, xzr, [sp, #144]
	add	x8, sp, #80
	stp	x9, x10, [x24]
	adrp	x9, .Lanon.61
	add	x9, x9, :lo12:.Lanon.61
	mov	w10, #2
	str	x8, [x28]
	mov	w8, #5
	stp	x9, x10, [sp, #120]
	add	x9, sp, #16, lsl #12
	add	x9, x9, #120
	str	x20, [x25, #32]
	strh	w27, [x25, #40]
	str	x9, [sp, #136]
	strb	w8, [x28, #8]
	bl	_ZN4core3fmt5write17h0000000000000000E
	ldr	x8, [x25]
	mov	x9, #-9223372036854775808
	orr	x8, x8, #0x8000000000000000
	cmp	x8, x9
	b.eq	.LBB60_353
	ldr	x0, [x25, #8]
	bl	free
.LBB60_353:
	mov	w8, wzr
.LBB60_354:
	mov	x22, x29
	mov	x29, x21
	b	.LBB60_730
.LBB60_355:
	ldur	w9, [sp, #131]
	ldrb	w10, [sp, #135]
	add	x0, sp, #120
	ldr	x26, [sp, #136]
	str	x27, [sp, #72]
	lsl	x9, x9, #24
	mov	x2, x26
	orr	x1, x9, x10, lsl #56
	bfxil	x1, x8, #0, #24
	str	x1, [sp, #56]
	bl	_RNvXs4_NtNtNtCs00000000001_10pkcs1_tool6proved5pkcs110public_keyINtB5_12RsaPublicKeyNtNtNtNtB9_8der_core7integer4uint7UintRefEINtNtCs00000000002_4core7convert7TryFromRShE8try_from
	ldr	x8, [sp, #120]
	cbnz	x8, .LBB60_357
	ldrb	w8, [sp, #130]
	ldrh	w9, [sp, #128]
	orr	w27, w9, w8, lsl #16
	and	w8, w27, #0xff
	cmp	w8, #20
	b.ne	.LBB60_384
.LBB60_357:
	ldr	w0, [x28, #248]
	bl	pkcs1_os_close
	ldr	x20, [sp, #72]
	add	x0, sp, #16, lsl #12
	mov	x2, x21
	add	x0, x0, #192
	str	x21, [sp, #64]
	mov	x1, x20
	bl	_RNvXs_NtNtNtCs00000000001_10pkcs1_tool4tool13pkcs1_program11replace_stdRNtNtBa_10rattle_std11HostRuntimeNtNtB6_7replace12ReplaceFiles6targetBa_
	ldr	x23, [x28]
	mov	x8, #-9223372036854775805
	cmp	x23, x8
	b.ne	.LBB60_374
	mov	x27, x25
	mov	x21, x29
	mov	x29, x22
	mov	w26, wzr
.LBB60_359:
	add	x25, sp, #17, lsl #12
	add	x24, sp, #16, lsl #12
	mov	x22, #-9223372036854775808
	add	x25, x25, #432
	add	x24, x24, #120
.LBB60_360:
	cbz	x27, .LBB60_362
	ldr	x0, [sp, #56]
	mov	x23, x9
	mov	x27, x10
	bl	free
	mov	x10, x27
	mov	x9, x23
.LBB60_362:
	mov	x8, #-9223372036854775807
	cmp	x22, x8
	b.ne	.LBB60_377
	mov	w8, #1
	b	.LBB60_354
.LBB60_364:
	mov	w24, #384
.LBB60_365:
	add	x1, sp, #16, lsl #12
	add	x0, sp, #120
	add	x1, x1, #432
	bl	_RINvNtNtNtCs00000000001_10pkcs1_tool4tool13pkcs1_program8sequence13read_sequenceINtNtNtNtB8_6proved8der_core6std_io8FromReadNtNtNtB8_10rattle_std6system4FileEEB8_
	ldrb	w8, [sp, #130]
	ldrh	w9, [sp, #128]
	mov	x10, #-9223372036854775808
	ldr	x11, [sp, #120]
	mov	x25, x22
	orr	w8, w9, w8, lsl #16
	cmp	x11, x10
	b.ne	.LBB60_367
	and	x24, x8, #0xffffff
	b	.LBB60_724
.LBB60_367:
	ldur	w9, [sp, #131]
	ldrb	w10, [sp, #135]
	ldr	x12, [sp, #136]
	lsl	x9, x9, #24
	orr	x0, x9, x10, lsl #56
	lsr	x9, x12, #32
	bfxil	x0, x8, #0, #24
	cbz	x9, .LBB60_369
	mov	w8, #7
	mov	w24, w8
	bfi	x24, xzr, #8, #16
	cbnz	x11, .LBB60_723
	b	.LBB60_724
.LBB60_369:
	subs	x8, x12, #2
	stp	x0, x21, [sp, #56]
	str	x27, [sp, #72]
	str	w24, [sp, #48]
	b.lo	.LBB60_401
	mov	x1, x0
	ldrb	w9, [x1], #2
	cmp	w9, #48
	b.ne	.LBB60_401
	ldrsb	w9, [x0, #1]
	tbnz	w9, #31, .LBB60_386
	and	x2, x9, #0xff
	subs	x22, x8, x2
	b.lo	.LBB60_401
	mov	x26, x12
	mov	x24, x11
	b	.LBB60_403
.LBB60_374:
	eor	x8, x23, #0x8000000000000000
	mov	w9, #3
	mov	x21, x29
	cmp	x8, #3
	mov	x27, x25
	mov	x29, x22
	csel	x8, x8, x9, lo
	cmp	x8, #1
	b.gt	.LBB60_381
	cbnz	x8, .LBB60_391
	mov	w26, #1
	b	.LBB60_359
.LBB60_377:
	mov	x23, x20
	ldr	x20, [sp, #64]
	mov	w27, #20
	b	.LBB60_351
.LBB60_378:
	ldr	x8, [x27, #48]
	cbz	x8, .LBB60_308
	ldr	x0, [x27, #56]
	bl	free
	b	.LBB60_308
.LBB60_380:
	mov	x0, x21
	mov	w1, #65536
	brk	#0x1
.LBB60_381:
	cmp	x8, #2
	b.ne	.LBB60_392
	ldp	x1, x0, [sp, #64]
	mov	x3, x26
	ldr	x2, [sp, #56]
	bl	_RINvNtNtNtCs00000000001_10pkcs1_tool4tool13pkcs1_program11output_file14write_in_placeRNtNtB8_10rattle_std11HostRuntimeEB8_
	and	w26, w0, #0xff
	cmp	w26, #7
	b.ne	.LBB60_444
	mov	x22, #-9223372036854775807
	b	.LBB60_445
.LBB60_384:
	mov	x21, x29
	mov	x29, x22
	cbz	x25, .LBB60_349
	ldr	x0, [sp, #56]
	bl	free
	b	.LBB60_349
.LBB60_386:
	and	w9, w9, #0xff
	cmp	w9, #130
	b.ne	.LBB60_396
	cmp	x8, #1
	b.ls	.LBB60_401
	ldrb	w8, [x0, #2]
	cbz	x8, .LBB60_401
	ldrb	w9, [x0, #3]
	orr	x2, x9, x8, lsl #8
	sub	x8, x12, #4
	subs	x22, x8, x2
	b.lo	.LBB60_401
	mov	x26, x12
	mov	x24, x11
	add	x1, x0, #4
	b	.LBB60_404
.LBB60_391:
	mov	w26, #2
	b	.LBB60_359
.LBB60_392:
	add	x10, sp, #16, lsl #12
	add	x25, sp, #16, lsl #12
	add	x0, sp, #120
	add	x10, x10, #192
	add	x25, x25, #192
	ldp	x11, x9, [x10, #8]
	ldr	x2, [x10, #40]
	ldp	x22, x1, [x10, #24]
	stp	x9, x11, [sp, #24]
	ldp	w8, w9, [x10, #48]
	stp	x1, x2, [sp, #40]
	tst	w8, #0x1
	csel	w9, w9, w24, ne
	cmp	w8, #0
	cset	w4, eq
	and	w3, w9, #0x1ff
	bl	_RNvXs_NtNtNtCs00000000001_10pkcs1_tool4tool13pkcs1_program11replace_stdRNtNtBa_10rattle_std11HostRuntimeNtNtB6_7replace12ReplaceFiles10create_newBa_
	ldrb	w8, [sp, #120]
	tbz	w8, #0, .LBB60_446
	cbz	x22, .LBB60_395
	ldr	x0, [sp, #40]
	bl	free
.LBB60_395:
	mov	w26, #3
	mov	x22, #-9223372036854775808
	b	.LBB60_505
.LBB60_396:
	cbz	x8, .LBB60_401
	cmp	w9, #129
	b.ne	.LBB60_401
	ldrsb	w8, [x1]
	tbz	w8, #31, .LBB60_401
	sub	x9, x12, #3
	and	x2, x8, #0xff
	subs	x22, x9, x2
	b.lo	.LBB60_401
	mov	x26, x12
	mov	x24, x11
	add	x1, x0, #3
	b	.LBB60_404
.LBB60_401:
	mov	x1, x0
	add	x0, sp, #120
	mov	x2, x12
	mov	w3, #48
	mov	x24, x11
	mov	x26, x12
	bl	_RNvNtNtNtCs00000000001_10pkcs1_tool6proved8der_core5split14split_unlikely
	ldr	x1, [sp, #120]
	cbz	x1, .LBB60_455
	ldr	x2, [sp, #128]
	ldr	x22, [sp, #144]
.LBB60_403:
	cmp	x2, #2
	b.lo	.LBB60_533
.LBB60_404:
	mov	x10, x1
	ldrb	w8, [x10], #2
	cmp	w8, #2
	b.ne	.LBB60_533
	ldrsb	w9, [x1, #1]
	sub	x8, x2, #2
	tbnz	w9, #31, .LBB60_407
	and	x9, x9, #0xff
	subs	x8, x8, x9
	b.hs	.LBB60_418
	b	.LBB60_533
.LBB60_407:
	and	w9, w9, #0xff
	cmp	w9, #130
	b.ne	.LBB60_413
	cmp	x8, #1
	b.ls	.LBB60_533
	ldrb	w8, [x1, #2]
	cbz	x8, .LBB60_533
	ldrb	w9, [x1, #3]
	orr	x9, x9, x8, lsl #8
	sub	x8, x2, #4
	subs	x8, x8, x9
	b.lo	.LBB60_533
	add	x10, x1, #4
	add	x1, x10, x9
	cbnz	x9, .LBB60_419
.LBB60_412:
	mov	w8, #512
	mov	w10, #3
	b	.LBB60_426
.LBB60_413:
	cbz	x8, .LBB60_532
	cmp	w9, #129
	b.ne	.LBB60_533
	ldrsb	w8, [x10]
	tbz	w8, #31, .LBB60_533
	sub	x10, x2, #3
	and	x9, x8, #0xff
	subs	x8, x10, x9
	b.lo	.LBB60_533
	add	x10, x1, #3
.LBB60_418:
	add	x1, x10, x9
	cbz	x9, .LBB60_412
.LBB60_419:
	cmp	x9, #1
	b.ne	.LBB60_424
	ldrsb	w10, [x10]
	tbnz	w10, #31, .LBB60_425
.LBB60_421:
	cbz	w10, .LBB60_456
	and	w9, w10, #0xff
	cmp	w9, #1
	b.ne	.LBB60_425
	mov	w21, #1
	b	.LBB60_457
.LBB60_424:
	ldrb	w11, [x10]
	cbz	w11, .LBB60_442
.LBB60_425:
	mov	x9, xzr
	mov	w8, #512
	mov	w10, #13
.LBB60_426:
	add	x28, sp, #16, lsl #12
	ldr	x0, [sp, #56]
	orr	x8, x8, x10
	add	x28, x28, #192
	mov	x11, x24
	orr	x8, x8, x9
	lsr	x9, x8, #8
	and	w8, w8, #0xff
	cmp	w8, #20
	b.ne	.LBB60_722
.LBB60_427:
	ldr	w0, [x28, #248]
	mov	x21, x11
	bl	pkcs1_os_close
	ldp	x2, x1, [sp, #64]
	add	x0, sp, #16, lsl #12
	add	x0, x0, #192
	bl	_RNvXs_NtNtNtCs00000000001_10pkcs1_tool4tool13pkcs1_program11replace_stdRNtNtBa_10rattle_std11HostRuntimeNtNtB6_7replace12ReplaceFiles6targetBa_
	ldr	x23, [x28]
	mov	x8, #-9223372036854775805
	cmp	x23, x8
	b.ne	.LBB60_435
	mov	w26, wzr
.LBB60_429:
	mov	x22, #-9223372036854775808
.LBB60_430:
.LBB60_431:
	cbz	x21, .LBB60_433
	ldr	x0, [sp, #56]
	bl	free
.LBB60_433:
	mov	x8, #-9223372036854775807
	cmp	x22, x8
	b.ne	.LBB60_438
	mov	w8, #1
	b	.LBB60_729
.LBB60_435:
	eor	x8, x23, #0x8000000000000000
	mov	w9, #3
	cmp	x8, #3
	csel	x8, x8, x9, lo
	cmp	x8, #1
	b.gt	.LBB60_439
	cbnz	x8, .LBB60_462
	mov	w26, #1
	b	.LBB60_429
.LBB60_438:
	ldp	x20, x23, [sp, #64]
	add	x28, sp, #16, lsl #12
	ldr	x10, [sp, #40]
	mov	w24, #20
	add	x28, x28, #192
	b	.LBB60_726
.LBB60_439:
	cmp	x8, #2
	b.ne	.LBB60_463
	ldp	x1, x0, [sp, #64]
	mov	x3, x26
	ldr	x2, [sp, #56]
	bl	_RINvNtNtNtCs00000000001_10pkcs1_tool4tool13pkcs1_program11output_file14write_in_placeRNtNtB8_10rattle_std11HostRuntimeEB8_
	and	w26, w0, #0xff
	cmp	w26, #7
	b.ne	.LBB60_429
	mov	x22, #-9223372036854775807
	b	.LBB60_430
.LBB60_442:
	ldrsb	w10, [x10, #1]
	tbnz	w10, #31, .LBB60_481
	mov	x9, xzr
	mov	w8, #512
	mov	w10, #4
	b	.LBB60_426
.LBB60_444:
	mov	x22, #-9223372036854775808
.LBB60_445:
	add	x25, sp, #17, lsl #12
	add	x28, sp, #16, lsl #12
	add	x24, sp, #16, lsl #12
	ldr	x20, [sp, #72]
	add	x25, x25, #432
	add	x28, x28, #192
	add	x24, x24, #120
	b	.LBB60_360
.LBB60_446:
	ldr	w20, [sp, #136]
	ldr	x28, [sp, #56]
	cbz	x26, .LBB60_450
	mov	x24, xzr
.LBB60_448:
	sub	x2, x26, x24
	add	x1, x28, x24
	mov	w0, w20
	bl	pkcs1_os_write
	cmp	x0, #0
	b.le	.LBB60_471
	add	x24, x0, x24
	cmp	x24, x26
	b.lo	.LBB60_448
.LBB60_450:
	mov	w0, w20
	bl	pkcs1_os_sync
	tbnz	x0, #63, .LBB60_471
	mov	w0, w20
	bl	pkcs1_os_close
	ldp	x0, x1, [sp, #40]
	ldp	x3, x2, [sp, #24]
	bl	_RNvXs_NtNtNtCs00000000001_10pkcs1_tool4tool13pkcs1_program11replace_stdRNtNtBa_10rattle_std11HostRuntimeNtNtB6_7replace12ReplaceFiles6renameBa_
	and	w8, w0, #0xff
	cmp	w8, #5
	b.ne	.LBB60_500
	ldp	x1, x0, [sp, #24]
	bl	_RNvXs_NtNtNtCs00000000001_10pkcs1_tool4tool13pkcs1_program11replace_stdRNtNtBa_10rattle_std11HostRuntimeNtNtB6_7replace12ReplaceFiles9sync_nameBa_
	and	w9, w0, #0xff
	mov	x8, #-9223372036854775808
	cmp	w9, #5
	cinc	x20, x8, eq
	cbz	x22, .LBB60_454
	ldr	x0, [sp, #40]
	bl	free
.LBB60_454:
	mov	w26, #6
	mov	x22, x20
	cbnz	x23, .LBB60_506
	b	.LBB60_507
.LBB60_455:
	ldrb	w8, [sp, #130]
	ldrh	w9, [sp, #128]
	add	x28, sp, #16, lsl #12
	ldr	x0, [sp, #56]
	add	x28, x28, #192
	mov	x11, x24
	orr	w8, w9, w8, lsl #16
	lsr	w9, w8, #8
	and	w8, w8, #0xff
	cmp	w8, #20
	b.ne	.LBB60_722
	b	.LBB60_427
.LBB60_456:
	mov	w21, wzr
.LBB60_457:
	subs	x11, x8, #2
	b.lo	.LBB60_488
	mov	x9, x1
	ldrb	w10, [x9], #2
	cmp	w10, #2
	b.ne	.LBB60_488
	ldrsb	w10, [x1, #1]
	tbnz	w10, #31, .LBB60_476
	and	x10, x10, #0xff
	subs	x2, x11, x10
	b.lo	.LBB60_488
	add	x1, x9, x10
	b	.LBB60_490
.LBB60_462:
	mov	w26, #2
	b	.LBB60_429
.LBB60_463:
	add	x8, sp, #16, lsl #12
	add	x28, sp, #16, lsl #12
	add	x0, sp, #120
	add	x8, x8, #192
	mov	w1, wzr
	mov	w2, #4096
	ldp	x10, x9, [x8, #8]
	ldr	x20, [x8, #40]
	add	x28, x28, #192
	stp	x9, x10, [sp, #24]
	ldp	x22, x9, [x8, #24]
	str	x9, [sp, #40]
	bl	memset
	mov	x27, x20
	cmp	x20, #1, lsl #12
	b.hi	.LBB60_467
	ldr	x1, [sp, #40]
	add	x0, sp, #120
	mov	x2, x27
	bl	memcpy
	add	x0, sp, #120
	bl	_ZN4core3ffi5c_str4CStr20from_bytes_until_nul17h0000000000000005E
	cbz	x0, .LBB60_467
	sub	x8, x1, #1
	cmp	x8, x27
	b.ne	.LBB60_467
	ldr	x1, [sp, #40]
	mov	x2, x27
	bl	memcmp
	cbz	w0, .LBB60_568
.LBB60_467:
	mov	w8, #1024
	mov	x9, xzr
	mov	w10, #1
	orr	w8, w8, w10
	orr	w8, w8, w9
	tbz	w8, #0, .LBB60_570
.LBB60_468:
	cbz	x22, .LBB60_470
	ldr	x0, [sp, #40]
	bl	free
.LBB60_470:
	mov	w26, #3
	mov	x22, #-9223372036854775808
	b	.LBB60_589
.LBB60_471:
	mov	w0, w20
	bl	pkcs1_os_close
	add	x0, sp, #120
	mov	w1, wzr
	mov	w2, #4096
	bl	memset
	ldr	x8, [sp, #48]
	cmp	x8, #1, lsl #12
	b.hi	.LBB60_475
	ldp	x1, x2, [sp, #40]
	add	x0, sp, #120
	bl	memcpy
	add	x0, sp, #120
	bl	_ZN4core3ffi5c_str4CStr20from_bytes_until_nul17h0000000000000005E
	cbz	x0, .LBB60_475
	ldr	x9, [sp, #48]
	sub	x8, x1, #1
	cmp	x8, x9
	b.ne	.LBB60_475
	ldp	x1, x2, [sp, #40]
	bl	memcmp
	cbz	w0, .LBB60_593
.LBB60_475:
	mov	w26, #4
	b	.LBB60_505
.LBB60_476:
	and	w10, w10, #0xff
	cmp	w10, #130
	b.ne	.LBB60_482
	cmp	x11, #1
	b.ls	.LBB60_488
	ldrb	w9, [x1, #2]
	cbz	x9, .LBB60_488
	ldrb	w10, [x1, #3]
	orr	x10, x10, x9, lsl #8
	sub	x9, x8, #4
	subs	x2, x9, x10
	b.lo	.LBB60_488
	add	x9, x1, #4
	b	.LBB60_487
.LBB60_481:
	sub	x9, x9, #3
	cmn	x9, #2
	b.hs	.LBB60_421
	b	.LBB60_425
.LBB60_482:
	cbz	x11, .LBB60_488
	cmp	w10, #129
	b.ne	.LBB60_488
	ldrsb	w9, [x9]
	tbz	w9, #31, .LBB60_488
	sub	x11, x8, #3
	and	x10, x9, #0xff
	subs	x2, x11, x10
	b.lo	.LBB60_488
	add	x9, x1, #3
.LBB60_487:
	add	x1, x9, x10
	b	.LBB60_491
.LBB60_488:
	add	x0, sp, #120
	mov	x2, x8
	mov	w3, #2
	bl	_RNvNtNtNtCs00000000001_10pkcs1_tool6proved8der_core5split14split_unlikely
	ldr	x9, [sp, #120]
	cbz	x9, .LBB60_717
	ldp	x10, x1, [sp, #128]
	ldr	x2, [sp, #144]
.LBB60_490:
	cbz	x10, .LBB60_716
.LBB60_491:
	ldrsb	w8, [x9]
	cbz	w8, .LBB60_493
	tbz	w8, #31, .LBB60_495
	b	.LBB60_715
.LBB60_493:
	cmp	x10, #1
	b.eq	.LBB60_495
	ldrsb	w8, [x9, #1]
	tbz	w8, #31, .LBB60_720
.LBB60_495:
	subs	x8, x2, #2
	b.lo	.LBB60_520
	mov	x9, x1
	ldrb	w10, [x9], #2
	cmp	w10, #2
	b.ne	.LBB60_520
	ldrsb	w10, [x1, #1]
	tbnz	w10, #31, .LBB60_509
	and	x10, x10, #0xff
	subs	x8, x8, x10
	b.lo	.LBB60_520
	add	x1, x9, x10
	b	.LBB60_522
.LBB60_500:
	add	x0, sp, #120
	mov	w1, wzr
	mov	w2, #4096
	bl	memset
	ldr	x8, [sp, #48]
	cmp	x8, #1, lsl #12
	b.hi	.LBB60_504
	ldp	x1, x2, [sp, #40]
	add	x0, sp, #120
	bl	memcpy
	add	x0, sp, #120
	bl	_ZN4core3ffi5c_str4CStr20from_bytes_until_nul17h0000000000000005E
	cbz	x0, .LBB60_504
	ldr	x9, [sp, #48]
	sub	x8, x1, #1
	cmp	x8, x9
	b.ne	.LBB60_504
	ldp	x1, x2, [sp, #40]
	bl	memcmp
	cbz	w0, .LBB60_622
.LBB60_504:
	mov	w26, #5
.LBB60_505:
	cbz	x23, .LBB60_507
.LBB60_506:
	ldr	x0, [sp, #32]
	bl	free
.LBB60_507:
	ldp	x10, x9, [sp, #40]
	mov	x8, #-9223372036854775807
	add	x25, sp, #17, lsl #12
	add	x28, sp, #16, lsl #12
	add	x24, sp, #16, lsl #12
	ldr	x20, [sp, #72]
	cmp	x22, x8
	add	x25, x25, #432
	add	x28, x28, #192
	add	x24, x24, #120
	b.ne	.LBB60_360
	mov	x22, #-9223372036854775807
	b	.LBB60_360
.LBB60_509:
	and	w10, w10, #0xff
	cmp	w10, #130
	b.ne	.LBB60_515
	cmp	x8, #1
	b.ls	.LBB60_520
	ldrb	w8, [x1, #2]
	cbz	x8, .LBB60_520
	ldrb	w9, [x1, #3]
	orr	x10, x9, x8, lsl #8
	sub	x8, x2, #4
	subs	x8, x8, x10
	b.lo	.LBB60_520
	add	x9, x1, #4
	add	x1, x9, x10
	b	.LBB60_523
.LBB60_514:
	add	x24, sp, #17, lsl #12
	add	x28, sp, #16, lsl #12
	mov	w23, #2
	add	x24, x24, #432
	add	x28, x28, #192
	add	x22, sp, #16, lsl #12
	add	x22, x22, #120
	ldr	x8, [x22, #48]
	cbnz	x8, .LBB60_325
	b	.LBB60_326
.LBB60_515:
	cbz	x8, .LBB60_520
	cmp	w10, #129
	b.ne	.LBB60_520
	ldrsb	w8, [x9]
	tbz	w8, #31, .LBB60_520
	sub	x9, x2, #3
	and	x10, x8, #0xff
	subs	x8, x9, x10
	b.lo	.LBB60_520
	add	x9, x1, #3
	add	x1, x9, x10
	b	.LBB60_523
.LBB60_520:
	add	x0, sp, #120
	mov	w3, #2
	bl	_RNvNtNtNtCs00000000001_10pkcs1_tool6proved8der_core5split14split_unlikely
	ldr	x9, [sp, #120]
	cbz	x9, .LBB60_717
	ldp	x10, x1, [sp, #128]
	ldr	x8, [sp, #144]
.LBB60_522:
	cbz	x10, .LBB60_716
.LBB60_523:
	ldrsb	w11, [x9]
	cbz	w11, .LBB60_525
	tbz	w11, #31, .LBB60_527
	b	.LBB60_715
.LBB60_525:
	cmp	x10, #1
	b.eq	.LBB60_527
	ldrsb	w9, [x9, #1]
	tbz	w9, #31, .LBB60_720
.LBB60_527:
	subs	x11, x8, #2
	b.lo	.LBB60_551
	mov	x9, x1
	ldrb	w10, [x9], #2
	cmp	w10, #2
	b.ne	.LBB60_551
	ldrsb	w10, [x1, #1]
	tbnz	w10, #31, .LBB60_536
	and	x10, x10, #0xff
	subs	x2, x11, x10
	b.lo	.LBB60_551
	add	x1, x9, x10
	b	.LBB60_553
.LBB60_532:
	mov	w2, #2
.LBB60_533:
	add	x0, sp, #120
	mov	w3, #2
	bl	_RNvNtNtNtCs00000000001_10pkcs1_tool6proved8der_core5split14split_unlikely
	ldr	x10, [sp, #120]
	cbz	x10, .LBB60_535
	ldp	x9, x1, [sp, #128]
	ldr	x8, [sp, #144]
	cbnz	x9, .LBB60_419
	b	.LBB60_412
.LBB60_535:
	ldrb	w8, [sp, #130]
	ldrh	w9, [sp, #128]
	orr	w10, w9, w8, lsl #16
	and	w9, w10, #0xff0000
	and	w8, w10, #0xff00
	and	w10, w10, #0xff
	b	.LBB60_426
.LBB60_536:
	and	w10, w10, #0xff
	cmp	w10, #130
	b.ne	.LBB60_546
	cmp	x11, #1
	b.ls	.LBB60_551
	ldrb	w9, [x1, #2]
	cbz	x9, .LBB60_551
	ldrb	w10, [x1, #3]
	orr	x10, x10, x9, lsl #8
	sub	x9, x8, #4
	subs	x2, x9, x10
	b.lo	.LBB60_551
	add	x9, x1, #4
	add	x1, x9, x10
	b	.LBB60_554
.LBB60_541:
	mov	x0, x26
.LBB60_542:
	mov	x1, x22
	brk	#0x1
.LBB60_543:
	mov	x0, x1
.LBB60_544:
	mov	x1, x26
	brk	#0x1
.LBB60_545:
	add	x22, sp, #16, lsl #12
	mov	w23, #2
	add	x22, x22, #120
	b	.LBB60_325
.LBB60_546:
	cbz	x11, .LBB60_551
	cmp	w10, #129
	b.ne	.LBB60_551
	ldrsb	w9, [x9]
	tbz	w9, #31, .LBB60_551
	sub	x11, x8, #3
	and	x10, x9, #0xff
	subs	x2, x11, x10
	b.lo	.LBB60_551
	add	x9, x1, #3
	add	x1, x9, x10
	b	.LBB60_554
.LBB60_551:
	add	x0, sp, #120
	mov	x2, x8
	mov	w3, #2
	bl	_RNvNtNtNtCs00000000001_10pkcs1_tool6proved8der_core5split14split_unlikely
	ldr	x9, [sp, #120]
	cbz	x9, .LBB60_717
	ldp	x10, x1, [sp, #128]
	ldr	x2, [sp, #144]
.LBB60_553:
	cbz	x10, .LBB60_716
.LBB60_554:
	ldrsb	w8, [x9]
	cbz	w8, .LBB60_556
	tbz	w8, #31, .LBB60_558
	b	.LBB60_715
.LBB60_556:
	cmp	x10, #1
	b.eq	.LBB60_558
	ldrsb	w8, [x9, #1]
	tbz	w8, #31, .LBB60_720
.LBB60_558:
	subs	x8, x2, #2
	b.lo	.LBB60_603
	mov	x9, x1
	ldrb	w10, [x9], #2
	cmp	w10, #2
	b.ne	.LBB60_603
	ldrsb	w10, [x1, #1]
	tbnz	w10, #31, .LBB60_563
	and	x10, x10, #0xff
	subs	x8, x8, x10
	b.lo	.LBB60_603
	add	x1, x9, x10
	b	.LBB60_605
.LBB60_563:
	and	w10, w10, #0xff
	cmp	w10, #130
	b.ne	.LBB60_598
	cmp	x8, #1
	b.ls	.LBB60_603
	ldrb	w8, [x1, #2]
	cbz	x8, .LBB60_603
	ldrb	w9, [x1, #3]
	orr	x10, x9, x8, lsl #8
	sub	x8, x2, #4
	subs	x8, x8, x10
	b.lo	.LBB60_603
	add	x9, x1, #4
	add	x1, x9, x10
	b	.LBB60_606
.LBB60_568:
	add	x8, sp, #120
	add	x0, sp, #17, lsl #12
	ldrb	w20, [sp, #120]
	add	x0, x0, #432
	orr	x1, x8, #0x1
	mov	w2, #4095
	bl	memcpy
	add	x8, sp, #16, lsl #12
	add	x1, sp, #17, lsl #12
	mov	w2, #4095
	add	x8, x8, #432
	add	x1, x1, #432
	strb	w20, [x28, #240]
	orr	x0, x8, #0x1
	bl	memcpy
	ldr	w8, [sp, #48]
	add	x0, sp, #16, lsl #12
	mov	w1, #2
	add	x0, x0, #432
	and	w2, w8, #0x1c0
	bl	pkcs1_os_open
	tbnz	x0, #63, .LBB60_620
	lsr	x8, x0, #31
	lsl	x9, x0, #32
	cmp	x8, #0
	mov	w8, #1024
	cset	w10, ne
	csel	x9, xzr, x9, ne
	orr	w8, w8, w10
	orr	w8, w8, w9
	tbnz	w8, #0, .LBB60_468
.LBB60_570:
	lsr	x20, x9, #32
	cbz	x26, .LBB60_574
	mov	x24, xzr
.LBB60_572:
	ldr	x8, [sp, #56]
	sub	x2, x26, x24
	mov	w0, w20
	add	x1, x8, x24
	bl	pkcs1_os_write
	cmp	x0, #0
	b.le	.LBB60_579
	add	x24, x0, x24
	cmp	x24, x26
	b.lo	.LBB60_572
.LBB60_574:
	mov	w0, w20
	bl	pkcs1_os_sync
	tbnz	x0, #63, .LBB60_579
	mov	w0, w20
	bl	pkcs1_os_close
	ldp	x2, x0, [sp, #32]
	mov	x1, x27
	ldr	x3, [sp, #24]
	bl	_RNvXs_NtNtNtCs00000000001_10pkcs1_tool4tool13pkcs1_program11replace_stdRNtNtBa_10rattle_std11HostRuntimeNtNtB6_7replace12ReplaceFiles6renameBa_
	and	w8, w0, #0xff
	cmp	w8, #5
	b.ne	.LBB60_584
	ldp	x1, x0, [sp, #24]
	bl	_RNvXs_NtNtNtCs00000000001_10pkcs1_tool4tool13pkcs1_program11replace_stdRNtNtBa_10rattle_std11HostRuntimeNtNtB6_7replace12ReplaceFiles9sync_nameBa_
	and	w9, w0, #0xff
	mov	x8, #-9223372036854775808
	cmp	w9, #5
	cinc	x20, x8, eq
	cbz	x22, .LBB60_578
	ldr	x0, [sp, #40]
	bl	free
.LBB60_578:
	mov	w26, #6
	mov	x22, x20
	cbnz	x23, .LBB60_590
	b	.LBB60_591
.LBB60_579:
	mov	w0, w20
	bl	pkcs1_os_close
	add	x0, sp, #120
	mov	w1, wzr
	mov	w2, #4096
	bl	memset
	cmp	x27, #1, lsl #12
	b.hi	.LBB60_583
	ldr	x1, [sp, #40]
	add	x0, sp, #120
	mov	x2, x27
	bl	memcpy
	add	x0, sp, #120
	bl	_ZN4core3ffi5c_str4CStr20from_bytes_until_nul17h0000000000000005E
	cbz	x0, .LBB60_583
	sub	x8, x1, #1
	cmp	x8, x27
	b.ne	.LBB60_583
	ldr	x1, [sp, #40]
	mov	x2, x27
	bl	memcmp
	cbz	w0, .LBB60_627
.LBB60_583:
	mov	w26, #4
	b	.LBB60_589
.LBB60_584:
	add	x0, sp, #120
	mov	w1, wzr
	mov	w2, #4096
	bl	memset
	cmp	x27, #1, lsl #12
	b.hi	.LBB60_588
	ldr	x1, [sp, #40]
	add	x0, sp, #120
	mov	x2, x27
	bl	memcpy
	add	x0, sp, #120
	bl	_ZN4core3ffi5c_str4CStr20from_bytes_until_nul17h0000000000000005E
	cbz	x0, .LBB60_588
	sub	x8, x1, #1
	cmp	x8, x27
	b.ne	.LBB60_588
	ldr	x1, [sp, #40]
	mov	x2, x27
	bl	memcmp
	cbz	w0, .LBB60_654
.LBB60_588:
	mov	w26, #5
.LBB60_589:
	cbz	x23, .LBB60_591
.LBB60_590:
	ldr	x0, [sp, #32]
	bl	free
.LBB60_591:
	mov	x8, #-9223372036854775807
	cmp	x22, x8
	b.ne	.LBB60_431
	mov	x22, #-9223372036854775807
	b	.LBB60_431
.LBB60_593:
	add	x8, sp, #120
	add	x0, sp, #17, lsl #12
	ldrb	w20, [sp, #120]
	add	x0, x0, #432
	orr	x1, x8, #0x1
	mov	w2, #4095
	bl	memcpy
	add	x8, sp, #16, lsl #12
	add	x1, sp, #17, lsl #12
	mov	w2, #4095
	add	x8, x8, #432
	add	x1, x1, #432
	strb	w20, [x25, #240]
	orr	x0, x8, #0x1
	bl	memcpy
	add	x0, sp, #16, lsl #12
	add	x0, x0, #432
	bl	pkcs1_os_remove
	tbz	x0, #63, .LBB60_595
	cmn	x0, #4
	b.ne	.LBB60_475
.LBB60_595:
	cbz	x22, .LBB60_597
	ldr	x0, [sp, #40]
	bl	free
.LBB60_597:
	mov	w26, #4
	mov	x22, #-9223372036854775808
	b	.LBB60_505
.LBB60_598:
	cbz	x8, .LBB60_603
	cmp	w10, #129
	b.ne	.LBB60_603
	ldrsb	w8, [x9]
	tbz	w8, #31, .LBB60_603
	sub	x9, x2, #3
	and	x10, x8, #0xff
	subs	x8, x9, x10
	b.lo	.LBB60_603
	add	x9, x1, #3
	add	x1, x9, x10
	b	.LBB60_606
.LBB60_603:
	add	x0, sp, #120
	mov	w3, #2
	bl	_RNvNtNtNtCs00000000001_10pkcs1_tool6proved8der_core5split14split_unlikely
	ldr	x9, [sp, #120]
	cbz	x9, .LBB60_717
	ldp	x10, x1, [sp, #128]
	ldr	x8, [sp, #144]
.LBB60_605:
	cbz	x10, .LBB60_716
.LBB60_606:
	ldrsb	w11, [x9]
	cbz	w11, .LBB60_608
	tbz	w11, #31, .LBB60_610
	b	.LBB60_715
.LBB60_608:
	cmp	x10, #1
	b.eq	.LBB60_610
	ldrsb	w9, [x9, #1]
	tbz	w9, #31, .LBB60_720
.LBB60_610:
	subs	x11, x8, #2
	b.lo	.LBB60_637
	mov	x9, x1
	ldrb	w10, [x9], #2
	cmp	w10, #2
	b.ne	.LBB60_637
	ldrsb	w10, [x1, #1]
	tbnz	w10, #31, .LBB60_615
	and	x10, x10, #0xff
	subs	x2, x11, x10
	b.lo	.LBB60_637
	add	x1, x9, x10
	b	.LBB60_639
.LBB60_615:
	and	w10, w10, #0xff
	cmp	w10, #130
	b.ne	.LBB60_632
	cmp	x11, #1
	b.ls	.LBB60_637
	ldrb	w9, [x1, #2]
	cbz	x9, .LBB60_637
	ldrb	w10, [x1, #3]
	orr	x10, x10, x9, lsl #8
	sub	x9, x8, #4
	subs	x2, x9, x10
	b.lo	.LBB60_637
	add	x9, x1, #4
	add	x1, x9, x10
	b	.LBB60_640
.LBB60_620:
	add	x8, x0, #4
	cmp	x8, #3
	b.hs	.LBB60_467
	mov	w9, #512
	sub	x8, x9, x8, lsl #8
	mov	x9, xzr
	mov	w10, #1
	orr	w8, w8, w10
	orr	w8, w8, w9
	tbnz	w8, #0, .LBB60_468
	b	.LBB60_570
.LBB60_622:
	add	x8, sp, #120
	add	x0, sp, #17, lsl #12
	ldrb	w20, [sp, #120]
	add	x0, x0, #432
	orr	x1, x8, #0x1
	mov	w2, #4095
	bl	memcpy
	add	x8, sp, #16, lsl #12
	add	x1, sp, #17, lsl #12
	mov	w2, #4095
	add	x8, x8, #432
	add	x1, x1, #432
	strb	w20, [x25, #240]
	orr	x0, x8, #0x1
	bl	memcpy
	add	x0, sp, #16, lsl #12
	add	x0, x0, #432
	bl	pkcs1_os_remove
	tbz	x0, #63, .LBB60_624
	cmn	x0, #4
	b.ne	.LBB60_504
.LBB60_624:
	cbz	x22, .LBB60_626
	ldr	x0, [sp, #40]
	bl	free
.LBB60_626:
	mov	w26, #5
	mov	x22, #-9223372036854775808
	b	.LBB60_505
.LBB60_627:
	add	x8, sp, #120
	add	x0, sp, #17, lsl #12
	ldrb	w20, [sp, #120]
	add	x0, x0, #432
	orr	x1, x8, #0x1
	mov	w2, #4095
	bl	memcpy
	add	x8, sp, #16, lsl #12
	add	x1, sp, #17, lsl #12
	mov	w2, #4095
	add	x8, x8, #432
	add	x1, x1, #432
	strb	w20, [x28, #240]
	orr	x0, x8, #0x1
	bl	memcpy
	add	x0, sp, #16, lsl #12
	add	x0, x0, #432
	bl	pkcs1_os_remove
	tbz	x0, #63, .LBB60_629
	cmn	x0, #4
	b.ne	.LBB60_583
.LBB60_629:
	cbz	x22, .LBB60_631
	ldr	x0, [sp, #40]
	bl	free
.LBB60_631:
	mov	w26, #4
	mov	x22, #-9223372036854775808
	b	.LBB60_589
.LBB60_632:
	cbz	x11, .LBB60_637
	cmp	w10, #129
	b.ne	.LBB60_637
	ldrsb	w9, [x9]
	tbz	w9, #31, .LBB60_637
	sub	x11, x8, #3
	and	x10, x9, #0xff
	subs	x2, x11, x10
	b.lo	.LBB60_637
	add	x9, x1, #3
	add	x1, x9, x10
	b	.LBB60_640
.LBB60_637:
	add	x0, sp, #120
	mov	x2, x8
	mov	w3, #2
	bl	_RNvNtNtNtCs00000000001_10pkcs1_tool6proved8der_core5split14split_unlikely
	ldr	x9, [sp, #120]
	cbz	x9, .LBB60_717
	ldp	x10, x1, [sp, #128]
	ldr	x2, [sp, #144]
.LBB60_639:
	cbz	x10, .LBB60_716
.LBB60_640:
	ldrsb	w8, [x9]
	cbz	w8, .LBB60_642
	tbz	w8, #31, .LBB60_644
	b	.LBB60_715
.LBB60_642:
	cmp	x10, #1
	b.eq	.LBB60_644
	ldrsb	w8, [x9, #1]
	tbz	w8, #31, .LBB60_720
.LBB60_644:
	subs	x8, x2, #2
	b.lo	.LBB60_664
	mov	x9, x1
	ldrb	w10, [x9], #2
	cmp	w10, #2
	b.ne	.LBB60_664
	ldrsb	w10, [x1, #1]
	tbnz	w10, #31, .LBB60_649
	and	x10, x10, #0xff
	subs	x8, x8, x10
	b.lo	.LBB60_664
	add	x1, x9, x10
	b	.LBB60_666
.LBB60_649:
	and	w10, w10, #0xff
	cmp	w10, #130
	b.ne	.LBB60_659
	cmp	x8, #1
	b.ls	.LBB60_664
	ldrb	w8, [x1, #2]
	cbz	x8, .LBB60_664
	ldrb	w9, [x1, #3]
	orr	x10, x9, x8, lsl #8
	sub	x8, x2, #4
	subs	x8, x8, x10
	b.lo	.LBB60_664
	add	x9, x1, #4
	add	x1, x9, x10
	b	.LBB60_667
.LBB60_654:
	add	x8, sp, #120
	add	x0, sp, #17, lsl #12
	ldrb	w20, [sp, #120]
	add	x0, x0, #432
	orr	x1, x8, #0x1
	mov	w2, #4095
	bl	memcpy
	add	x8, sp, #16, lsl #12
	add	x1, sp, #17, lsl #12
	mov	w2, #4095
	add	x8, x8, #432
	add	x1, x1, #432
	strb	w20, [x28, #240]
	orr	x0, x8, #0x1
	bl	memcpy
	add	x0, sp, #16, lsl #12
	add	x0, x0, #432
	bl	pkcs1_os_remove
	tbz	x0, #63, .LBB60_656
	cmn	x0, #4
	b.ne	.LBB60_588
.LBB60_656:
	cbz	x22, .LBB60_658
	ldr	x0, [sp, #40]
	bl	free
.LBB60_658:
	mov	w26, #5
	mov	x22, #-9223372036854775808
	b	.LBB60_589
.LBB60_659:
	cbz	x8, .LBB60_664
	cmp	w10, #129
	b.ne	.LBB60_664
	ldrsb	w8, [x9]
	tbz	w8, #31, .LBB60_664
	sub	x9, x2, #3
	and	x10, x8, #0xff
	subs	x8, x9, x10
	b.lo	.LBB60_664
	add	x9, x1, #3
	add	x1, x9, x10
	b	.LBB60_667
.LBB60_664:
	add	x0, sp, #120
	mov	w3, #2
	bl	_RNvNtNtNtCs00000000001_10pkcs1_tool6proved8der_core5split14split_unlikely
	ldr	x9, [sp, #120]
	cbz	x9, .LBB60_717
	ldp	x10, x1, [sp, #128]
	ldr	x8, [sp, #144]
.LBB60_666:
	cbz	x10, .LBB60_716
.LBB60_667:
	ldrsb	w11, [x9]
	cbz	w11, .LBB60_669
	tbz	w11, #31, .LBB60_671
	b	.LBB60_715
.LBB60_669:
	cmp	x10, #1
	b.eq	.LBB60_671
	ldrsb	w9, [x9, #1]
	tbz	w9, #31, .LBB60_720
.LBB60_671:
	subs	x11, x8, #2
	b.lo	.LBB60_688
	mov	x9, x1
	ldrb	w10, [x9], #2
	cmp	w10, #2
	b.ne	.LBB60_688
	ldrsb	w10, [x1, #1]
	tbnz	w10, #31, .LBB60_678
	and	x10, x10, #0xff
	subs	x2, x11, x10
	b.lo	.LBB60_688
	add	x1, x9, x10
	b	.LBB60_690
.LBB60_676:
	mov	x0, x26
.LBB60_677:
	mov	x1, x23
	brk	#0x1
.LBB60_678:
	and	w10, w10, #0xff
	cmp	w10, #130
	b.ne	.LBB60_683
	cmp	x11, #1
	b.ls	.LBB60_688
	ldrb	w9, [x1, #2]
	cbz	x9, .LBB60_688
	ldrb	w10, [x1, #3]
	orr	x10, x10, x9, lsl #8
	sub	x9, x8, #4
	subs	x2, x9, x10
	b.lo	.LBB60_688
	add	x9, x1, #4
	add	x1, x9, x10
	b	.LBB60_691
.LBB60_683:
	cbz	x11, .LBB60_688
	cmp	w10, #129
	b.ne	.LBB60_688
	ldrsb	w9, [x9]
	tbz	w9, #31, .LBB60_688
	sub	x11, x8, #3
	and	x10, x9, #0xff
	subs	x2, x11, x10
	b.lo	.LBB60_688
	add	x9, x1, #3
	add	x1, x9, x10
	b	.LBB60_691
.LBB60_688:
	add	x0, sp, #120
	mov	x2, x8
	mov	w3, #2
	bl	_RNvNtNtNtCs00000000001_10pkcs1_tool6proved8der_core5split14split_unlikely
	ldr	x9, [sp, #120]
	cbz	x9, .LBB60_717
	ldp	x10, x1, [sp, #128]
	ldr	x2, [sp, #144]
.LBB60_690:
	cbz	x10, .LBB60_716
.LBB60_691:
	ldrsb	w8, [x9]
	cbz	w8, .LBB60_693
	tbz	w8, #31, .LBB60_695
	b	.LBB60_715
.LBB60_693:
	cmp	x10, #1
	b.eq	.LBB60_695
	ldrsb	w8, [x9, #1]
	tbz	w8, #31, .LBB60_720
.LBB60_695:
	subs	x8, x2, #2
	b.lo	.LBB60_710
	mov	x9, x1
	ldrb	w10, [x9], #2
	cmp	w10, #2
	b.ne	.LBB60_710
	ldrsb	w10, [x1, #1]
	tbnz	w10, #31, .LBB60_700
	and	x10, x10, #0xff
	subs	x8, x8, x10
	b.lo	.LBB60_710
	add	x1, x9, x10
	b	.LBB60_712
.LBB60_700:
	and	w10, w10, #0xff
	cmp	w10, #130
	b.ne	.LBB60_705
	cmp	x8, #1
	b.ls	.LBB60_710
	ldrb	w8, [x1, #2]
	cbz	x8, .LBB60_710
	ldrb	w9, [x1, #3]
	orr	x10, x9, x8, lsl #8
	sub	x8, x2, #4
	subs	x8, x8, x10
	b.lo	.LBB60_710
	add	x9, x1, #4
	add	x1, x9, x10
	b	.LBB60_713
.LBB60_705:
	cbz	x8, .LBB60_710
	cmp	w10, #129
	b.ne	.LBB60_710
	ldrsb	w8, [x9]
	tbz	w8, #31, .LBB60_710
	sub	x9, x2, #3
	and	x10, x8, #0xff
	subs	x8, x9, x10
	b.lo	.LBB60_710
	add	x9, x1, #3
	add	x1, x9, x10
	b	.LBB60_713
.LBB60_710:
	add	x0, sp, #120
	mov	w3, #2
	bl	_RNvNtNtNtCs00000000001_10pkcs1_tool6proved8der_core5split14split_unlikely
	ldr	x9, [sp, #120]
	cbz	x9, .LBB60_717
	ldp	x10, x1, [sp, #128]
	ldr	x8, [sp, #144]
.LBB60_712:
	cbz	x10, .LBB60_716
.LBB60_713:
	ldrsb	w11, [x9]
	cbz	w11, .LBB60_718
	tbz	w11, #31, .LBB60_733
.LBB60_715:
	mov	w8, #525
	b	.LBB60_721
.LBB60_716:
	mov	w8, #515
	b	.LBB60_721
.LBB60_717:
	ldrb	w8, [sp, #130]
	ldrh	w9, [sp, #128]
	orr	x8, x9, x8, lsl #16
	b	.LBB60_721
.LBB60_718:
	cmp	x10, #1
	b.eq	.LBB60_733
	ldrsb	w9, [x9, #1]
	tbnz	w9, #31, .LBB60_733
.LBB60_720:
	mov	w8, #516
.LBB60_721:
	add	x28, sp, #16, lsl #12
	ldr	x0, [sp, #56]
	mov	x11, x24
	add	x28, x28, #192
	lsr	x9, x8, #8
	and	w8, w8, #0xff
	cmp	w8, #20
	b.eq	.LBB60_427
.LBB60_722:
	mov	w24, w8
	bfi	x24, x9, #8, #16
	cbz	x11, .LBB60_724
.LBB60_723:
	bl	free
.LBB60_724:
	ldr	w0, [x28, #248]
	bl	pkcs1_os_close
	lsr	x26, x24, #8
	lsr	x8, x24, #16
.LBB60_725:
	mov	x22, #-9223372036854775808
.LBB60_726:
	add	x9, sp, #17, lsl #12
	bfi	w24, w26, #8, #24
	add	x11, sp, #16, lsl #12
	stp	x22, x10, [x9, #432]!
	add	x11, x11, #120
	str	x20, [x9, #32]
	add	x20, sp, #17, lsl #12
	adrp	x10, _ZN59_$LT$core..fmt..Arguments$u20$as$u20$core..fmt..Display$GT$3fmt17h0000000000000007E
	add	x10, x10, :lo12:_ZN59_$LT$core..fmt..Arguments$u20$as$u20$core..fmt..Display$GT$3fmt17h0000000000000007E
	strb	w8, [x9, #42]
	ldr	w8, [sp, #96]
	stp	x27, x23, [x9, #16]
	add	x20, x20, #432
	add	x0, sp, #16, lsl #12
	strh	w24, [x9, #40]
	ldrb	w9, [sp, #100]
	adrp	x1, .Lanon.0
	add	x1, x1, :lo12:.Lanon.0
	stur	w8, [x20, #43]
	add	x8, sp, #17, lsl #12
	strb	w9, [x20, #47]
	add	x8, x8, #432
	adrp	x9, _RNvXs0_NtNtNtCs00000000001_10pkcs1_tool4tool13pkcs1_program10copy_errorNtB5_9FileErrorNtNtCs00000000002_4core3fmt7Display3fmt
	add	x9, x9, :lo12:_RNvXs0_NtNtNtCs00000000001_10pkcs1_tool4tool13pkcs1_program10copy_errorNtB5_9FileErrorNtNtCs00000000002_4core3fmt7Display3fmt
	add	x0, x0, #192
	add	x2, sp, #120
	stp	x8, x9, [x11, #48]
	mov	w8, #1
	adrp	x9, .Lanon.19
	add	x9, x9, :lo12:.Lanon.19
	stp	x8, xzr, [x28, #264]
	stp	x9, x8, [x28, #240]
	add	x9, sp, #16, lsl #12
	add	x9, x9, #168
	stp	x8, xzr, [sp, #144]
	add	x8, sp, #80
	str	x9, [x28, #256]
	add	x9, sp, #16, lsl #12
	add	x9, x9, #432
	str	x8, [x28]
	mov	w8, #5
	stp	x9, x10, [x11]
	adrp	x9, .Lanon.61
	add	x9, x9, :lo12:.Lanon.61
	mov	w10, #2
	strb	w8, [x28, #8]
	stp	x9, x10, [sp, #120]
	add	x9, sp, #16, lsl #12
	add	x9, x9, #120
	str	x9, [sp, #136]
	bl	_ZN4core3fmt5write17h0000000000000000E
	ldr	x8, [x20]
	mov	x9, #-9223372036854775808
	orr	x8, x8, #0x8000000000000000
	cmp	x8, x9
	b.eq	.LBB60_728
	ldr	x0, [x20, #8]
	bl	free
.LBB60_728:
	mov	w8, wzr
.LBB60_729:
	mov	x22, x25
.LBB60_730:
	eor	w20, w8, #0x1
	cbnz	x19, .LBB60_106
.LBB60_731:
	cbz	x22, .LBB60_79
	mov	x0, x29
	bl	free
	b	.LBB60_79
.LBB60_733:
	cbz	x8, .LBB60_735
	add	x0, sp, #120
	mov	x2, x8
	mov	w3, w21
	b	.LBB60_737
.LBB60_735:
	cbz	w21, .LBB60_739
	add	x0, sp, #120
	mov	x2, xzr
	mov	w3, #1
.LBB60_737:
	bl	_RNvNtNtNtCs00000000001_10pkcs1_tool6proved5pkcs110viewed_key9read_list
	ldrb	w8, [sp, #120]
	cmp	w8, #1
	b.ne	.LBB60_739
	ldrb	w8, [sp, #123]
	ldurh	w9, [sp, #121]
	orr	x8, x9, x8, lsl #16
	b	.LBB60_721
.LBB60_739:
	add	x28, sp, #16, lsl #12
	ldr	x0, [sp, #56]
	mov	x11, x24
	add	x28, x28, #192
	cbz	x22, .LBB60_427
	mov	w8, #12
	mov	w24, w8
	bfi	x24, xzr, #8, #16
	cbnz	x11, .LBB60_723
	b	.LBB60_724
.LBB60_741:
	mov	x0, x2
.LBB60_742:
	mov	w1, #39
	brk	#0x1
.Lfunc_end60:
	.size	_RNvNtNtCs00000000001_10pkcs1_tool4tool10pkcs1_tool4main, .Lfunc_end60-_RNvNtNtCs00000000001_10pkcs1_tool4tool10pkcs1_tool4main
	.cfi_endproc

	.section	.text._ZN4core3ffi5c_str4CStr20from_bytes_until_nul17h0000000000000005E,"ax",@progbits
	.p2align	2
	.type	_ZN4core3ffi5c_str4CStr20from_bytes_until_nul17h0000000000000005E,@function
_ZN4core3ffi5c_str4CStr20from_bytes_until_nul17h0000000000000005E:
	.cfi_startproc
	hint	#38
	add	x8, x0, #7
	and	x8, x8, #0xfffffffffffffff8
	subs	x8, x8, x0
	b.eq	.LBB61_4
	mov	x9, xzr
	mov	w10, #1
.LBB61_2:
	ldrb	w11, [x0, x9]
	cbz	w11, .LBB61_9
	add	x9, x9, #1
	cmp	x8, x9
	b.ne	.LBB61_2
.LBB61_4:
	mov	x9, #72340172838076673
	movk	x9, #256
	dup	v0.2d, x9
	mov	x9, #-9187201950435737472
.LBB61_5:
	ldr	q1, [x0, x8]
	sub	v2.2d, v0.2d, v1.2d
	orr	v1.16b, v2.16b, v1.16b
	mov	x10, v1.d[1]
	fmov	x11, d1
	and	x10, x11, x10
	bics	xzr, x9, x10
	b.ne	.LBB61_10
	add	x11, x8, #16
	cmp	x8, #4064
	mov	x8, x11
	b.ls	.LBB61_5
	cmp	x11, #1, lsl #12
	b.ne	.LBB61_11
	mov	x10, xzr
.LBB61_9:
	cmp	x10, #0
	add	x1, x9, #1
	csel	x0, xzr, x0, eq
	ret
.LBB61_10:
	mov	w10, #4096
	add	x9, x0, x8
	sub	x10, x10, x8
	b	.LBB61_12
.LBB61_11:
	mov	w8, #4096
	add	x9, x0, x11
	sub	x10, x8, x11
	mov	x8, x11
.LBB61_12:
	stp	x29, x30, [sp, #-16]!
	.cfi_def_cfa_offset 16
	mov	x29, sp
	.cfi_def_cfa w29, 16
	.cfi_offset w30, -8
	.cfi_offset w29, -16
	.cfi_remember_state
	mov	x11, xzr
.LBB61_13:
	ldrb	w12, [x9, x11]
	cbz	w12, .LBB61_16
	add	x11, x11, #1
	cmp	x10, x11
	b.ne	.LBB61_13
	mov	x10, xzr
	.cfi_def_cfa wsp, 16
	ldp	x29, x30, [sp], #16
	.cfi_def_cfa_offset 0
	.cfi_restore w30
	.cfi_restore w29
	cmp	x10, #0
	add	x1, x9, #1
	csel	x0, xzr, x0, eq
	ret
.LBB61_16:
	.cfi_restore_state
	add	x9, x11, x8
	mov	w10, #1
	.cfi_def_cfa wsp, 16
	ldp	x29, x30, [sp], #16
	.cfi_def_cfa_offset 0
	.cfi_restore w30
	.cfi_restore w29
	cmp	x10, #0
	add	x1, x9, #1
	csel	x0, xzr, x0, eq
	ret
.Lfunc_end61:
	.size	_ZN4core3ffi5c_str4CStr20from_bytes_until_nul17h0000000000000005E, .Lfunc_end61-_ZN4core3ffi5c_str4CStr20from_bytes_until_nul17h0000000000000005E
	.cfi_endproc

	.section	.text.unlikely._ZN5alloc7raw_vec11finish_grow17h0000000000000001E.llvm.1,"ax",@progbits
	.p2align	2
	.type	_ZN5alloc7raw_vec11finish_grow17h0000000000000001E.llvm.1,@function
_ZN5alloc7raw_vec11finish_grow17h0000000000000001E.llvm.1:
	.cfi_startproc
	hint	#38
	stp	x29, x30, [sp, #-32]!
	.cfi_def_cfa_offset 32
	stp	x20, x19, [sp, #16]
	mov	x29, sp
	.cfi_def_cfa w29, 32
	.cfi_offset w19, -8
	.cfi_offset w20, -16
	.cfi_offset w30, -24
	.cfi_offset w29, -32
	ldr	x8, [x2, #8]
	mov	x20, x1
	mov	x19, x0
	cbz	x8, .LBB62_3
	ldr	x8, [x2, #16]
	cbz	x8, .LBB62_3
	ldr	x0, [x2]
	mov	x1, x20
	bl	realloc
	b	.LBB62_4
.LBB62_3:
	adrp	x8, __rust_no_alloc_shim_is_unstable
	mov	x0, x20
	ldrb	wzr, [x8, :lo12:__rust_no_alloc_shim_is_unstable]
	bl	malloc
.LBB62_4:
	cmp	x0, #0
	csinc	x8, x0, xzr, ne
	cset	w9, eq
	stp	x8, x20, [x19, #8]
	str	x9, [x19]
	.cfi_def_cfa wsp, 32
	ldp	x20, x19, [sp, #16]
	ldp	x29, x30, [sp], #32
	.cfi_def_cfa_offset 0
	.cfi_restore w19
	.cfi_restore w20
	.cfi_restore w30
	.cfi_restore w29
	ret
.Lfunc_end62:
	.size	_ZN5alloc7raw_vec11finish_grow17h0000000000000001E.llvm.1, .Lfunc_end62-_ZN5alloc7raw_vec11finish_grow17h0000000000000001E.llvm.1
	.cfi_endproc

	.section	".text._ZN4core3fmt3num52_$LT$impl$u20$core..fmt..LowerHex$u20$for$u20$i8$GT$3fmt17h0000000000000002E","ax",@progbits
	.p2align	2
	.type	_ZN4core3fmt3num52_$LT$impl$u20$core..fmt..LowerHex$u20$for$u20$i8$GT$3fmt17h0000000000000002E,@function
_ZN4core3fmt3num52_$LT$impl$u20$core..fmt..LowerHex$u20$for$u20$i8$GT$3fmt17h0000000000000002E:
	.cfi_startproc
	hint	#38
	sub	sp, sp, #144
	.cfi_def_cfa_offset 144
	stp	x29, x30, [sp, #128]
	add	x29, sp, #128
	.cfi_def_cfa w29, 16
	.cfi_offset w30, -8
	.cfi_offset w29, -16
	ldrb	w11, [x0]
	mov	x8, x1
	mov	w9, #127
	mov	x10, sp
.LBB63_1:
	mov	w12, #48
	and	w13, w11, #0xf
	lsr	w14, w11, #4
	bfxil	w12, w11, #0, #4
	add	w15, w13, #87
	cmp	w13, #10
	csel	w13, w12, w15, lo
	cmp	w11, #15
	mov	x12, x9
	strb	w13, [x10, x9]
	sub	x9, x9, #1
	mov	w11, w14
	b.hi	.LBB63_1
	add	x9, x12, #1
	mov	w10, #129
	mov	x11, sp
	sub	x4, x10, x9
	adrp	x1, .Lanon.66
	add	x1, x1, :lo12:.Lanon.66
	add	x3, x11, x12
	mov	x0, x8
	mov	w2, #2
	bl	_ZN4core3fmt9Formatter12pad_integral17h0000000000000008E
	.cfi_def_cfa wsp, 144
	ldp	x29, x30, [sp, #128]
	add	sp, sp, #144
	.cfi_def_cfa_offset 0
	.cfi_restore w30
	.cfi_restore w29
	ret
.Lfunc_end63:
	.size	_ZN4core3fmt3num52_$LT$impl$u20$core..fmt..LowerHex$u20$for$u20$i8$GT$3fmt17h0000000000000002E, .Lfunc_end63-_ZN4core3fmt3num52_$LT$impl$u20$core..fmt..LowerHex$u20$for$u20$i8$GT$3fmt17h0000000000000002E
	.cfi_endproc

	.section	".text._ZN4core3fmt3num53_$LT$impl$u20$core..fmt..LowerHex$u20$for$u20$i64$GT$3fmt17h0000000000000006E","ax",@progbits
	.p2align	2
	.type	_ZN4core3fmt3num53_$LT$impl$u20$core..fmt..LowerHex$u20$for$u20$i64$GT$3fmt17h0000000000000006E,@function
_ZN4core3fmt3num53_$LT$impl$u20$core..fmt..LowerHex$u20$for$u20$i64$GT$3fmt17h0000000000000006E:
	.cfi_startproc
	hint	#38
	sub	sp, sp, #144
	.cfi_def_cfa_offset 144
	stp	x29, x30, [sp, #128]
	add	x29, sp, #128
	.cfi_def_cfa w29, 16
	.cfi_offset w30, -8
	.cfi_offset w29, -16
	ldr	x11, [x0]
	mov	x8, x1
	mov	w9, #127
	mov	x10, sp
.LBB64_1:
	mov	w12, #48
	and	w13, w11, #0xf
	lsr	x14, x11, #4
	bfxil	w12, w11, #0, #4
	add	w15, w13, #87
	cmp	w13, #10
	csel	w13, w12, w15, lo
	cmp	x11, #15
	mov	x12, x9
	strb	w13, [x10, x9]
	sub	x9, x9, #1
	mov	x11, x14
	b.hi	.LBB64_1
	add	x9, x12, #1
	mov	w10, #129
	mov	x11, sp
	sub	x4, x10, x9
	adrp	x1, .Lanon.66
	add	x1, x1, :lo12:.Lanon.66
	add	x3, x11, x12
	mov	x0, x8
	mov	w2, #2
	bl	_ZN4core3fmt9Formatter12pad_integral17h0000000000000008E
	.cfi_def_cfa wsp, 144
	ldp	x29, x30, [sp, #128]
	add	sp, sp, #144
	.cfi_def_cfa_offset 0
	.cfi_restore w30
	.cfi_restore w29
	ret
.Lfunc_end64:
	.size	_ZN4core3fmt3num53_$LT$impl$u20$core..fmt..LowerHex$u20$for$u20$i64$GT$3fmt17h0000000000000006E, .Lfunc_end64-_ZN4core3fmt3num53_$LT$impl$u20$core..fmt..LowerHex$u20$for$u20$i64$GT$3fmt17h0000000000000006E
	.cfi_endproc

	.section	.rodata.cst8,"aM",@progbits,8
	.p2align	3, 0x0
.LCPI65_0:
	.word	32
	.word	0
	.section	.text._ZN4core3fmt5write17h0000000000000000E,"ax",@progbits
	.p2align	2
	.type	_ZN4core3fmt5write17h0000000000000000E,@function
_ZN4core3fmt5write17h0000000000000000E:
	.cfi_startproc
	hint	#38
	sub	sp, sp, #128
	.cfi_def_cfa_offset 128
	stp	x29, x30, [sp, #64]
	stp	x24, x23, [sp, #80]
	stp	x22, x21, [sp, #96]
	stp	x20, x19, [sp, #112]
	add	x29, sp, #64
	.cfi_def_cfa w29, 64
	.cfi_offset w19, -8
	.cfi_offset w20, -16
	.cfi_offset w21, -24
	.cfi_offset w22, -32
	.cfi_offset w23, -40
	.cfi_offset w24, -48
	.cfi_offset w30, -56
	.cfi_offset w29, -64
	.cfi_remember_state
	adrp	x8, .LCPI65_0
	mov	x19, x2
	str	xzr, [sp]
	ldr	d0, [x8, :lo12:.LCPI65_0]
	mov	w8, #3
	str	xzr, [sp, #16]
	strb	w8, [sp, #40]
	ldr	x8, [x2, #32]
	str	d0, [sp, #32]
	stp	x0, x1, [sp, #48]
	cbz	x8, .LBB65_18
	ldr	x9, [x19, #40]
	cbz	x9, .LBB65_25
	lsl	x10, x9, #6
	ldr	x11, [x19]
	sub	x12, x9, #1
	ldr	x21, [x19, #16]
	and	x12, x12, #0x1fffffffffffffff
	add	x24, x8, #24
	sub	x22, x10, x9, lsl #3
	add	x20, x12, #1
	add	x23, x11, #8
.LBB65_3:
	ldr	x2, [x23]
	cbz	x2, .LBB65_5
	ldp	x0, x8, [sp, #48]
	ldur	x1, [x23, #-8]
	ldr	x8, [x8, #24]
	blr	x8
	tbnz	w0, #0, .LBB65_27
.LBB65_5:
	ldrb	w8, [x24, #24]
	ldp	w10, w11, [x24, #16]
	strb	w8, [sp, #40]
	ldp	x9, x8, [x24, #-8]
	stp	w10, w11, [sp, #32]
	cbz	x9, .LBB65_10
	cmp	x9, #1
	b.ne	.LBB65_8
	add	x8, x21, x8, lsl #4
	ldr	x9, [x8]
	cbz	x9, .LBB65_9
.LBB65_8:
	ldur	x10, [x24, #-24]
	stp	xzr, x8, [sp]
	cmp	x10, #2
	b.ne	.LBB65_11
	b	.LBB65_13
.LBB65_9:
	ldr	x8, [x8, #8]
.LBB65_10:
	mov	w9, #1
	ldur	x10, [x24, #-24]
	stp	x9, x8, [sp]
	cmp	x10, #2
	b.eq	.LBB65_13
.LBB65_11:
	ldur	x8, [x24, #-16]
	cmp	x10, #1
	b.ne	.LBB65_15
	add	x8, x21, x8, lsl #4
	ldr	x9, [x8]
	cbz	x9, .LBB65_14
.LBB65_13:
	mov	x9, xzr
	b	.LBB65_16
.LBB65_14:
	ldr	x8, [x8, #8]
.LBB65_15:
	mov	w9, #1
.LBB65_16:
	ldr	x10, [x24, #8]
	mov	x1, sp
	stp	x9, x8, [sp, #16]
	add	x10, x21, x10, lsl #4
	ldp	x0, x10, [x10]
	blr	x10
	tbnz	w0, #0, .LBB65_27
	subs	x22, x22, #56
	add	x23, x23, #16
	add	x24, x24, #56
	b.ne	.LBB65_3
	b	.LBB65_24
.LBB65_18:
	ldr	x8, [x19, #24]
	cbz	x8, .LBB65_25
	ldr	x21, [x19, #16]
	ldr	x9, [x19]
	sub	x10, x8, #1
	add	x22, x21, x8, lsl #4
	and	x8, x10, #0xfffffffffffffff
	add	x23, x9, #8
	add	x20, x8, #1
.LBB65_20:
	ldr	x2, [x23]
	cbz	x2, .LBB65_22
	ldp	x0, x8, [sp, #48]
	ldur	x1, [x23, #-8]
	ldr	x8, [x8, #24]
	blr	x8
	tbnz	w0, #0, .LBB65_27
.LBB65_22:
	ldp	x0, x8, [x21]
	mov	x1, sp
	blr	x8
	tbnz	w0, #0, .LBB65_27
	add	x21, x21, #16
	add	x23, x23, #16
	cmp	x21, x22
	b.ne	.LBB65_20
.LBB65_24:
	ldr	x8, [x19, #8]
	cmp	x20, x8
	b.lo	.LBB65_26
	b	.LBB65_28
.LBB65_25:
	mov	x20, xzr
	ldr	x8, [x19, #8]
	cmp	xzr, x8
	b.hs	.LBB65_28
.LBB65_26:
	ldr	x8, [x19]
	ldp	x0, x9, [sp, #48]
	add	x8, x8, x20, lsl #4
	ldp	x1, x2, [x8]
	ldr	x8, [x9, #24]
	blr	x8
	tbz	w0, #0, .LBB65_28
.LBB65_27:
	mov	w0, #1
	.cfi_def_cfa wsp, 128
	ldp	x20, x19, [sp, #112]
	ldp	x22, x21, [sp, #96]
	ldp	x24, x23, [sp, #80]
	ldp	x29, x30, [sp, #64]
	add	sp, sp, #128
	.cfi_def_cfa_offset 0
	.cfi_restore w19
	.cfi_restore w20
	.cfi_restore w21
	.cfi_restore w22
	.cfi_restore w23
	.cfi_restore w24
	.cfi_restore w30
	.cfi_restore w29
	ret
.LBB65_28:
	.cfi_restore_state
	mov	w0, wzr
	.cfi_def_cfa wsp, 128
	ldp	x20, x19, [sp, #112]
	ldp	x22, x21, [sp, #96]
	ldp	x24, x23, [sp, #80]
	ldp	x29, x30, [sp, #64]
	add	sp, sp, #128
	.cfi_def_cfa_offset 0
	.cfi_restore w19
	.cfi_restore w20
	.cfi_restore w21
	.cfi_restore w22
	.cfi_restore w23
	.cfi_restore w24
	.cfi_restore w30
	.cfi_restore w29
	ret
.Lfunc_end65:
	.size	_ZN4core3fmt5write17h0000000000000000E, .Lfunc_end65-_ZN4core3fmt5write17h0000000000000000E
	.cfi_endproc

	.section	.text._ZN4core3fmt9Formatter12pad_integral17h0000000000000008E,"ax",@progbits
	.p2align	2
	.type	_ZN4core3fmt9Formatter12pad_integral17h0000000000000008E,@function
_ZN4core3fmt9Formatter12pad_integral17h0000000000000008E:
	.cfi_startproc
	hint	#38
	sub	sp, sp, #112
	.cfi_def_cfa_offset 112
	stp	x29, x30, [sp, #16]
	stp	x28, x27, [sp, #32]
	stp	x26, x25, [sp, #48]
	stp	x24, x23, [sp, #64]
	stp	x22, x21, [sp, #80]
	stp	x20, x19, [sp, #96]
	add	x29, sp, #16
	.cfi_def_cfa w29, 96
	.cfi_offset w19, -8
	.cfi_offset w20, -16
	.cfi_offset w21, -24
	.cfi_offset w22, -32
	.cfi_offset w23, -40
	.cfi_offset w24, -48
	.cfi_offset w25, -56
	.cfi_offset w26, -64
	.cfi_offset w27, -72
	.cfi_offset w28, -80
	.cfi_offset w30, -88
	.cfi_offset w29, -96
	.cfi_remember_state
	ldr	w8, [x0, #36]
	mov	w9, #43
	mov	w11, #1114112
	mov	x19, x4
	mov	x20, x3
	mov	x21, x2
	and	x10, x8, #0x1
	cmp	w10, #0
	csel	w23, w11, w9, eq
	add	x9, x10, x4
	tbnz	w8, #2, .LBB66_2
	mov	x22, xzr
	ldr	w10, [x0]
	tbnz	w10, #0, .LBB66_6
	b	.LBB66_11
.LBB66_2:
	mov	x22, x1
	mov	x10, xzr
	cbz	x21, .LBB66_5
	mov	x11, x22
	mov	x12, x21
.LBB66_4:
	ldrsb	w13, [x11], #1
	cmn	w13, #65
	cinc	x10, x10, gt
	subs	x12, x12, #1
	b.ne	.LBB66_4
.LBB66_5:
	add	x9, x10, x9
	ldr	w10, [x0]
	tbz	w10, #0, .LBB66_11
.LBB66_6:
	ldr	x10, [x0, #8]
	subs	x27, x10, x9
	b.ls	.LBB66_11
	tbnz	w8, #3, .LBB66_15
	ldrb	w8, [x0, #40]
	cmp	w8, #3
	csinc	w8, w8, wzr, ne
	cbz	w8, .LBB66_20
	cmp	w8, #1
	b.ne	.LBB66_19
	mov	x8, x27
	mov	x27, xzr
	b	.LBB66_20
.LBB66_11:
	ldp	x24, x25, [x0, #48]
	mov	w2, w23
	mov	x3, x22
	mov	x4, x21
	mov	x0, x24
	mov	x1, x25
	bl	_ZN4core3fmt9Formatter12pad_integral12write_prefix17h0000000000000009E
	tbz	w0, #0, .LBB66_14
.LBB66_12:
	mov	w0, #1
.LBB66_13:
	.cfi_def_cfa wsp, 112
	ldp	x20, x19, [sp, #96]
	ldp	x22, x21, [sp, #80]
	ldp	x24, x23, [sp, #64]
	ldp	x26, x25, [sp, #48]
	ldp	x28, x27, [sp, #32]
	ldp	x29, x30, [sp, #16]
	add	sp, sp, #112
	.cfi_def_cfa_offset 0
	.cfi_restore w19
	.cfi_restore w20
	.cfi_restore w21
	.cfi_restore w22
	.cfi_restore w23
	.cfi_restore w24
	.cfi_restore w25
	.cfi_restore w26
	.cfi_restore w27
	.cfi_restore w28
	.cfi_restore w30
	.cfi_restore w29
	ret
.LBB66_14:
	.cfi_restore_state
	.cfi_remember_state
	ldr	x3, [x25, #24]
	mov	x0, x24
	mov	x1, x20
	mov	x2, x19
	.cfi_def_cfa wsp, 112
	ldp	x20, x19, [sp, #96]
	ldp	x22, x21, [sp, #80]
	ldp	x24, x23, [sp, #64]
	ldp	x26, x25, [sp, #48]
	ldp	x28, x27, [sp, #32]
	ldp	x29, x30, [sp, #16]
	add	sp, sp, #112
	.cfi_def_cfa_offset 0
	.cfi_restore w19
	.cfi_restore w20
	.cfi_restore w21
	.cfi_restore w22
	.cfi_restore w23
	.cfi_restore w24
	.cfi_restore w25
	.cfi_restore w26
	.cfi_restore w27
	.cfi_restore w28
	.cfi_restore w30
	.cfi_restore w29
	br	x3
.LBB66_15:
	.cfi_restore_state
	ldr	w8, [x0, #32]
	ldp	x24, x25, [x0, #48]
	mov	w9, #1
	ldrb	w28, [x0, #40]
	mov	x26, x0
	stur	w8, [x29, #-4]
	mov	w8, #48
	mov	w2, w23
	str	w8, [x0, #32]
	mov	x1, x25
	mov	x3, x22
	strb	w9, [x0, #40]
	mov	x0, x24
	mov	x4, x21
	bl	_ZN4core3fmt9Formatter12pad_integral12write_prefix17h0000000000000009E
	mov	w8, w0
	mov	w0, #1
	tbnz	w8, #0, .LBB66_13
	add	x21, x27, #1
.LBB66_17:
	subs	x21, x21, #1
	b.eq	.LBB66_29
	ldr	x8, [x25, #32]
	mov	x0, x24
	mov	w1, #48
	blr	x8
	tbz	w0, #0, .LBB66_17
	b	.LBB66_12
.LBB66_19:
	add	x9, x27, #1
	lsr	x8, x27, #1
	lsr	x27, x9, #1
.LBB66_20:
	ldp	x24, x25, [x0, #48]
	add	x28, x8, #1
	ldr	w26, [x0, #32]
.LBB66_21:
	subs	x28, x28, #1
	b.eq	.LBB66_23
	ldr	x8, [x25, #32]
	mov	x0, x24
	mov	w1, w26
	blr	x8
	tbz	w0, #0, .LBB66_21
	b	.LBB66_12
.LBB66_23:
	mov	x0, x24
	mov	x1, x25
	mov	w2, w23
	mov	x3, x22
	mov	x4, x21
	bl	_ZN4core3fmt9Formatter12pad_integral12write_prefix17h0000000000000009E
	tbnz	w0, #0, .LBB66_12
	ldr	x8, [x25, #24]
	mov	x0, x24
	mov	x1, x20
	mov	x2, x19
	blr	x8
	tbnz	w0, #0, .LBB66_12
	mov	x19, xzr
.LBB66_26:
	cmp	x27, x19
	b.eq	.LBB66_31
	ldr	x8, [x25, #32]
	mov	x0, x24
	mov	w1, w26
	add	x19, x19, #1
	blr	x8
	cbz	w0, .LBB66_26
	sub	x8, x19, #1
	b	.LBB66_32
.LBB66_29:
	ldr	x8, [x25, #24]
	mov	x0, x24
	mov	x1, x20
	mov	x2, x19
	blr	x8
	tbnz	w0, #0, .LBB66_12
	ldur	w8, [x29, #-4]
	mov	w0, wzr
	strb	w28, [x26, #40]
	str	w8, [x26, #32]
	b	.LBB66_13
.LBB66_31:
	mov	x8, x27
.LBB66_32:
	cmp	x8, x27
	cset	w0, lo
	b	.LBB66_13
.Lfunc_end66:
	.size	_ZN4core3fmt9Formatter12pad_integral17h0000000000000008E, .Lfunc_end66-_ZN4core3fmt9Formatter12pad_integral17h0000000000000008E
	.cfi_endproc

	.section	.text._ZN4core3fmt9Formatter12pad_integral12write_prefix17h0000000000000009E,"ax",@progbits
	.p2align	2
	.type	_ZN4core3fmt9Formatter12pad_integral12write_prefix17h0000000000000009E,@function
_ZN4core3fmt9Formatter12pad_integral12write_prefix17h0000000000000009E:
	.cfi_startproc
	hint	#38
	stp	x29, x30, [sp, #-48]!
	.cfi_def_cfa_offset 48
	stp	x22, x21, [sp, #16]
	stp	x20, x19, [sp, #32]
	mov	x29, sp
	.cfi_def_cfa w29, 48
	.cfi_offset w19, -8
	.cfi_offset w20, -16
	.cfi_offset w21, -24
	.cfi_offset w22, -32
	.cfi_offset w30, -40
	.cfi_offset w29, -48
	.cfi_remember_state
	mov	x19, x4
	mov	x20, x3
	mov	x21, x1
	cmp	w2, #272, lsl #12
	b.eq	.LBB67_3
	ldr	x8, [x21, #32]
	mov	w1, w2
	mov	x22, x0
	blr	x8
	mov	w8, w0
	mov	x0, x22
	tbz	w8, #0, .LBB67_3
	mov	w0, #1
	.cfi_def_cfa wsp, 48
	ldp	x20, x19, [sp, #32]
	ldp	x22, x21, [sp, #16]
	ldp	x29, x30, [sp], #48
	.cfi_def_cfa_offset 0
	.cfi_restore w19
	.cfi_restore w20
	.cfi_restore w21
	.cfi_restore w22
	.cfi_restore w30
	.cfi_restore w29
	ret
.LBB67_3:
	.cfi_restore_state
	.cfi_remember_state
	cbz	x20, .LBB67_5
	ldr	x3, [x21, #24]
	mov	x1, x20
	mov	x2, x19
	.cfi_def_cfa wsp, 48
	ldp	x20, x19, [sp, #32]
	ldp	x22, x21, [sp, #16]
	ldp	x29, x30, [sp], #48
	.cfi_def_cfa_offset 0
	.cfi_restore w19
	.cfi_restore w20
	.cfi_restore w21
	.cfi_restore w22
	.cfi_restore w30
	.cfi_restore w29
	br	x3
.LBB67_5:
	.cfi_restore_state
	mov	w0, wzr
	.cfi_def_cfa wsp, 48
	ldp	x20, x19, [sp, #32]
	ldp	x22, x21, [sp, #16]
	ldp	x29, x30, [sp], #48
	.cfi_def_cfa_offset 0
	.cfi_restore w19
	.cfi_restore w20
	.cfi_restore w21
	.cfi_restore w22
	.cfi_restore w30
	.cfi_restore w29
	ret
.Lfunc_end67:
	.size	_ZN4core3fmt9Formatter12pad_integral12write_prefix17h0000000000000009E, .Lfunc_end67-_ZN4core3fmt9Formatter12pad_integral12write_prefix17h0000000000000009E
	.cfi_endproc

	.section	.text._ZN4core3str8converts9from_utf817h0000000000000004E,"ax",@progbits
	.p2align	2
	.type	_ZN4core3str8converts9from_utf817h0000000000000004E,@function
_ZN4core3str8converts9from_utf817h0000000000000004E:
	.cfi_startproc
	hint	#38
	stp	x29, x30, [sp, #-16]!
	.cfi_def_cfa_offset 16
	mov	x29, sp
	.cfi_def_cfa w29, 16
	.cfi_offset w30, -8
	.cfi_offset w29, -16
	.cfi_remember_state
	subs	x8, x2, #15
	csel	x9, xzr, x8, lo
	cbz	x2, .LBB68_41
	add	x10, x1, #7
	mov	x8, xzr
	adrp	x11, .Lanon.67
	add	x11, x11, :lo12:.Lanon.67
	and	x10, x10, #0xfffffffffffffff8
	sub	x10, x10, x1
	b	.LBB68_4
.LBB68_2:
	add	x8, x12, #1
.LBB68_3:
	cmp	x8, x2
	b.hs	.LBB68_41
.LBB68_4:
	ldrsb	w12, [x1, x8]
	tbnz	w12, #31, .LBB68_13
	sub	w12, w10, w8
	tst	x12, #0x7
	b.eq	.LBB68_8
	add	x8, x8, #1
	b	.LBB68_3
.LBB68_7:
	add	x8, x8, #16
.LBB68_8:
	cmp	x8, x9
	b.hs	.LBB68_10
	add	x12, x1, x8
	ldp	x13, x12, [x12]
	orr	x12, x12, x13
	tst	x12, #0x8080808080808080
	b.eq	.LBB68_7
.LBB68_10:
	cmp	x8, x2
	b.hs	.LBB68_3
.LBB68_11:
	ldrsb	w12, [x1, x8]
	tbnz	w12, #31, .LBB68_3
	add	x8, x8, #1
	cmp	x2, x8
	b.ne	.LBB68_11
	b	.LBB68_41
.LBB68_13:
	and	x13, x12, #0xff
	and	w12, w12, #0xff
	ldrb	w13, [x11, x13]
	cmp	w13, #4
	b.eq	.LBB68_22
	cmp	w13, #3
	b.eq	.LBB68_18
	cmp	w13, #2
	b.ne	.LBB68_43
	add	x12, x8, #1
	cmp	x12, x2
	b.hs	.LBB68_42
	ldrsb	w13, [x1, x12]
	cmn	w13, #65
	b.le	.LBB68_2
	b	.LBB68_43
.LBB68_18:
	add	x13, x8, #1
	cmp	x13, x2
	b.hs	.LBB68_42
	ldrb	w13, [x1, x13]
	cmp	w12, #224
	b.eq	.LBB68_26
	sxtb	w13, w13
	cmp	w12, #237
	b.ne	.LBB68_28
	cmn	w13, #97
	b.le	.LBB68_38
	b	.LBB68_43
.LBB68_22:
	add	x13, x8, #1
	cmp	x13, x2
	b.hs	.LBB68_42
	ldrb	w13, [x1, x13]
	cmp	w12, #240
	b.eq	.LBB68_27
	sxtb	w13, w13
	cmp	w12, #244
	b.ne	.LBB68_30
	cmn	w13, #113
	b.le	.LBB68_32
	b	.LBB68_43
.LBB68_26:
	and	w12, w13, #0xe0
	cmp	w12, #160
	b.eq	.LBB68_38
	b	.LBB68_43
.LBB68_27:
	sub	w12, w13, #144
	cmp	w12, #48
	b.lo	.LBB68_32
	b	.LBB68_43
.LBB68_28:
	sub	w14, w12, #225
	cmp	w14, #12
	b.hs	.LBB68_36
	cmn	w13, #64
	b.lt	.LBB68_38
	b	.LBB68_43
.LBB68_30:
	sub	w12, w12, #241
	cmp	w12, #2
	mov	w12, #1
	b.hi	.LBB68_44
	cmn	w13, #64
	mov	w13, #1
	b.ge	.LBB68_45
.LBB68_32:
	add	x12, x8, #2
	cmp	x12, x2
	b.hs	.LBB68_42
	ldrsb	w12, [x1, x12]
	cmn	w12, #65
	b.gt	.LBB68_40
	add	x12, x8, #3
	cmp	x12, x2
	b.hs	.LBB68_42
	ldrsb	w13, [x1, x12]
	cmn	w13, #65
	b.le	.LBB68_2
	b	.LBB68_46
.LBB68_36:
	and	w12, w12, #0xfe
	cmp	w12, #238
	mov	w12, #1
	b.ne	.LBB68_44
	cmn	w13, #64
	mov	w13, #1
	b.ge	.LBB68_45
.LBB68_38:
	add	x12, x8, #2
	cmp	x12, x2
	b.hs	.LBB68_42
	ldrsb	w13, [x1, x12]
	cmn	w13, #65
	b.le	.LBB68_2
.LBB68_40:
	mov	w13, #1
	mov	w12, #2
	b	.LBB68_45
.LBB68_41:
	stp	x1, x2, [x0, #8]
	str	xzr, [x0]
	.cfi_def_cfa wsp, 16
	ldp	x29, x30, [sp], #16
	.cfi_def_cfa_offset 0
	.cfi_restore w30
	.cfi_restore w29
	ret
.LBB68_42:
	.cfi_restore_state
	.cfi_remember_state
	mov	w13, wzr
	b	.LBB68_45
.LBB68_43:
	mov	w12, #1
.LBB68_44:
	mov	w13, #1
.LBB68_45:
	str	x8, [x0, #8]
	mov	w8, #1
	strb	w13, [x0, #16]
	strb	w12, [x0, #17]
	str	x8, [x0]
	.cfi_def_cfa wsp, 16
	ldp	x29, x30, [sp], #16
	.cfi_def_cfa_offset 0
	.cfi_restore w30
	.cfi_restore w29
	ret
.LBB68_46:
	.cfi_restore_state
	mov	w13, #1
	mov	w12, #3
	b	.LBB68_45
.Lfunc_end68:
	.size	_ZN4core3str8converts9from_utf817h0000000000000004E, .Lfunc_end68-_ZN4core3str8converts9from_utf817h0000000000000004E
	.cfi_endproc

	.section	".text._ZN59_$LT$core..fmt..Arguments$u20$as$u20$core..fmt..Display$GT$3fmt17h0000000000000007E","ax",@progbits
	.p2align	2
	.type	_ZN59_$LT$core..fmt..Arguments$u20$as$u20$core..fmt..Display$GT$3fmt17h0000000000000007E,@function
_ZN59_$LT$core..fmt..Arguments$u20$as$u20$core..fmt..Display$GT$3fmt17h0000000000000007E:
	.cfi_startproc
	hint	#38
	stp	x29, x30, [sp, #-16]!
	.cfi_def_cfa_offset 16
	mov	x29, sp
	.cfi_def_cfa w29, 16
	.cfi_offset w30, -8
	.cfi_offset w29, -16
	ldp	x8, x1, [x1, #48]
	mov	x2, x0
	mov	x0, x8
	.cfi_def_cfa wsp, 16
	ldp	x29, x30, [sp], #16
	.cfi_def_cfa_offset 0
	.cfi_restore w30
	.cfi_restore w29
	b	_ZN4core3fmt5write17h0000000000000000E
.Lfunc_end69:
	.size	_ZN59_$LT$core..fmt..Arguments$u20$as$u20$core..fmt..Display$GT$3fmt17h0000000000000007E, .Lfunc_end69-_ZN59_$LT$core..fmt..Arguments$u20$as$u20$core..fmt..Display$GT$3fmt17h0000000000000007E
	.cfi_endproc

	.section	".text._ZN5alloc7raw_vec19RawVec$LT$T$C$A$GT$8grow_one17h0000000000000003E","ax",@progbits
	.p2align	2
	.type	_ZN5alloc7raw_vec19RawVec$LT$T$C$A$GT$8grow_one17h0000000000000003E,@function
_ZN5alloc7raw_vec19RawVec$LT$T$C$A$GT$8grow_one17h0000000000000003E:
	.cfi_startproc
	hint	#38
	sub	sp, sp, #80
	.cfi_def_cfa_offset 80
	stp	x29, x30, [sp, #48]
	stp	x20, x19, [sp, #64]
	add	x29, sp, #48
	.cfi_def_cfa w29, 32
	.cfi_offset w19, -8
	.cfi_offset w20, -16
	.cfi_offset w30, -24
	.cfi_offset w29, -32
	.cfi_remember_state
	ldr	x8, [x0]
	cmn	x8, #1
	b.eq	.LBB70_6
	lsl	x9, x8, #1
	add	x10, x8, #1
	cmp	x9, x10
	mov	w10, #8
	csinc	x9, x9, x8, hi
	cmp	x9, #8
	csel	x20, x9, x10, hi
	tbnz	x20, #63, .LBB70_6
	mov	x19, x0
	cbz	x8, .LBB70_4
	ldr	x9, [x19, #8]
	str	x8, [sp, #40]
	mov	w8, #1
	str	x9, [sp, #24]
.LBB70_4:
	mov	x0, sp
	add	x2, sp, #24
	mov	x1, x20
	str	x8, [sp, #32]
	bl	_ZN5alloc7raw_vec11finish_grow17h0000000000000001E.llvm.1
	ldr	w8, [sp]
	cmp	w8, #1
	b.eq	.LBB70_7
	ldr	x8, [sp, #8]
	stp	x20, x8, [x19]
	.cfi_def_cfa wsp, 80
	ldp	x20, x19, [sp, #64]
	ldp	x29, x30, [sp, #48]
	add	sp, sp, #80
	.cfi_def_cfa_offset 0
	.cfi_restore w19
	.cfi_restore w20
	.cfi_restore w30
	.cfi_restore w29
	ret
.LBB70_6:
	.cfi_restore_state
	mov	x0, xzr
	brk	#0x1
.LBB70_7:
	ldp	x0, x1, [sp, #8]
	brk	#0x1
.Lfunc_end70:
	.size	_ZN5alloc7raw_vec19RawVec$LT$T$C$A$GT$8grow_one17h0000000000000003E, .Lfunc_end70-_ZN5alloc7raw_vec19RawVec$LT$T$C$A$GT$8grow_one17h0000000000000003E
	.cfi_endproc

	.type	.Lanon.0,@object
	.section	.data.rel.ro..Lanon.0,"aw",@progbits
	.p2align	3, 0x0
.Lanon.0:
	.asciz	"\000\000\000\000\000\000\000\000\020\000\000\000\000\000\000\000\b\000\000\000\000\000\000"
	.xword	_RNvXs0_NtNtCs00000000001_10pkcs1_tool10rattle_std2ioINtB5_4TextINtB5_8StandardKl2_EENtNtCs00000000002_4core3fmt5Write9write_strB9_
	.xword	_RNvYINtNtNtCs00000000001_10pkcs1_tool10rattle_std2io4TextINtB5_8StandardKl2_EENtNtCs00000000002_4core3fmt5Write10write_charB9_
	.xword	_RNvYINtNtNtCs00000000001_10pkcs1_tool10rattle_std2io4TextINtB5_8StandardKl2_EENtNtCs00000000002_4core3fmt5Write9write_fmtB9_
	.size	.Lanon.0, 48

	.type	.Lanon.1,@object
	.section	.data.rel.ro..Lanon.1,"aw",@progbits
	.p2align	3, 0x0
.Lanon.1:
	.xword	_RINvNtCs00000000002_4core3ptr13drop_in_placeNtNtNtCs00000000001_10pkcs1_tool10rattle_std4text6StringEBM_
	.asciz	"\030\000\000\000\000\000\000\000\b\000\000\000\000\000\000"
	.xword	_RNvXs0_NtNtCs00000000001_10pkcs1_tool10rattle_std4textNtB5_6StringNtNtCs00000000002_4core3fmt5Write9write_str
	.xword	_RNvYNtNtNtCs00000000001_10pkcs1_tool10rattle_std4text6StringNtNtCs00000000002_4core3fmt5Write10write_charB8_
	.xword	_RNvYNtNtNtCs00000000001_10pkcs1_tool10rattle_std4text6StringNtNtCs00000000002_4core3fmt5Write9write_fmtB8_
	.size	.Lanon.1, 48

	.type	.Lanon.10,@object
	.section	.rodata..Lanon.10,"a",@progbits
.Lanon.10:
	.ascii	"the length is indefinite"
	.size	.Lanon.10, 24

	.type	.Lanon.11,@object
	.section	.rodata..Lanon.11,"a",@progbits
.Lanon.11:
	.ascii	"a read or a write failed"
	.size	.Lanon.11, 24

	.type	.Lanon.12,@object
	.section	.data.rel.ro..Lanon.12,"aw",@progbits
	.p2align	3, 0x0
.Lanon.12:
	.xword	.Lanon.69
	.asciz	"\024\000\000\000\000\000\000"
	.xword	.Lanon.70
	.asciz	"\024\000\000\000\000\000\000"
	.size	.Lanon.12, 32

	.type	.Lanon.13,@object
	.section	.rodata..Lanon.13,"a",@progbits
.Lanon.13:
	.ascii	"a length passes the limit"
	.size	.Lanon.13, 25

	.type	.Lanon.14,@object
	.section	.rodata..Lanon.14,"a",@progbits
.Lanon.14:
	.ascii	"the object identifier is malformed"
	.size	.Lanon.14, 34

	.type	.Lanon.15,@object
	.section	.data.rel.ro..Lanon.15,"aw",@progbits
	.p2align	3, 0x0
.Lanon.15:
	.xword	.Lanon.77
	.asciz	"\021\000\000\000\000\000\000"
	.xword	.Lanon.78
	.asciz	"\017\000\000\000\000\000\000"
	.size	.Lanon.15, 32

	.type	.Lanon.16,@object
	.section	.rodata..Lanon.16,"a",@progbits
.Lanon.16:
	.ascii	"the object identifier is another one"
	.size	.Lanon.16, 36

	.type	.Lanon.17,@object
	.section	.data.rel.ro..Lanon.17,"aw",@progbits
	.p2align	3, 0x0
.Lanon.17:
	.xword	.Lanon.72
	.asciz	"\004\000\000\000\000\000\000"
	.xword	.Lanon.73
	.asciz	"\017\000\000\000\000\000\000"
	.xword	.Lanon.74
	.asciz	"\n\000\000\000\000\000\000"
	.size	.Lanon.17, 48

	.type	.Lanon.18,@object
	.section	.rodata..Lanon.18,"a",@progbits
.Lanon.18:
	.ascii	"the length is not in shortest form"
	.size	.Lanon.18, 34

	.type	.Lanon.19,@object
	.section	.rodata.cst16,"aM",@progbits,16
	.p2align	3, 0x0
.Lanon.19:
	.xword	1
	.zero	8
	.size	.Lanon.19, 16

	.type	.Lanon.2,@object
	.section	.rodata..Lanon.2,"a",@progbits
.Lanon.2:
	.ascii	"an earlier read failed"
	.size	.Lanon.2, 22

	.type	.Lanon.20,@object
	.section	.data.rel.ro..Lanon.20,"aw",@progbits
	.p2align	3, 0x0
.Lanon.20:
	.xword	.Lanon.66
	.asciz	"\002\000\000\000\000\000\000"
	.size	.Lanon.20, 16

	.type	.Lanon.21,@object
	.section	.data.rel.ro..Lanon.21,"aw",@progbits
	.p2align	3, 0x0
.Lanon.21:
	.xword	.Lanon.79
	.asciz	"\024\000\000\000\000\000\000"
	.size	.Lanon.21, 16

	.type	.Lanon.22,@object
	.section	.rodata..Lanon.22,"a",@progbits
.Lanon.22:
	.ascii	"PKCS#1 cryptographic key data malformed"
	.size	.Lanon.22, 39

	.type	.Lanon.23,@object
	.section	.rodata..Lanon.23,"a",@progbits
.Lanon.23:
	.ascii	"PKCS#1 cryptographic error"
	.size	.Lanon.23, 26

	.type	.Lanon.24,@object
	.section	.rodata..Lanon.24,"a",@progbits
.Lanon.24:
	.ascii	"PKCS#1 version error"
	.size	.Lanon.24, 20

	.type	.Lanon.25,@object
	.section	.rodata..Lanon.25,"a",@progbits
.Lanon.25:
	.ascii	"+\016\003\002\032"
	.size	.Lanon.25, 5

	.type	.Lanon.26,@object
	.section	.rodata..Lanon.26,"a",@progbits
.Lanon.26:
	.ascii	"*\206H\206\367\r\001\001\b"
	.size	.Lanon.26, 9

	.type	.Lanon.27,@object
	.section	.rodata..Lanon.27,"a",@progbits
.Lanon.27:
	.ascii	"*\206H\206\367\r\001\001\t"
	.size	.Lanon.27, 9

	.type	.Lanon.28,@object
	.section	.rodata..Lanon.28,"a",@progbits
.Lanon.28:
	.ascii	"strict-pss"
	.size	.Lanon.28, 10

	.type	.Lanon.29,@object
	.section	.rodata..Lanon.29,"a",@progbits
.Lanon.29:
	.ascii	"strict-oaep"
	.size	.Lanon.29, 11

	.type	.Lanon.3,@object
	.section	.rodata..Lanon.3,"a",@progbits
.Lanon.3:
	.ascii	"the input ends too early"
	.size	.Lanon.3, 24

	.type	.Lanon.30,@object
	.section	.rodata..Lanon.30,"a",@progbits
.Lanon.30:
	.ascii	" trailer="
	.size	.Lanon.30, 9

	.type	.Lanon.31,@object
	.section	.rodata..Lanon.31,"a",@progbits
.Lanon.31:
	.ascii	"spell-pss"
	.size	.Lanon.31, 9

	.type	.Lanon.32,@object
	.section	.rodata..Lanon.32,"a",@progbits
.Lanon.32:
	.ascii	"spell-oaep"
	.size	.Lanon.32, 10

	.type	.Lanon.33,@object
	.section	.rodata..Lanon.33,"a",@progbits
.Lanon.33:
	.ascii	" attributes="
	.size	.Lanon.33, 12

	.type	.Lanon.34,@object
	.section	.rodata..Lanon.34,"a",@progbits
.Lanon.34:
	.ascii	" attributes=-"
	.size	.Lanon.34, 13

	.type	.Lanon.35,@object
	.section	.rodata.cst32,"aM",@progbits,32
.Lanon.35:
	.ascii	"no file can be created beside it"
	.size	.Lanon.35, 32

	.type	.Lanon.36,@object
	.section	.rodata..Lanon.36,"a",@progbits
.Lanon.36:
	.ascii	"it can't be opened"
	.size	.Lanon.36, 18

	.type	.Lanon.37,@object
	.section	.rodata..Lanon.37,"a",@progbits
.Lanon.37:
	.ascii	"the new file can't be renamed to it"
	.size	.Lanon.37, 35

	.type	.Lanon.38,@object
	.section	.rodata..Lanon.38,"a",@progbits
.Lanon.38:
	.ascii	"it is a link to nothing"
	.size	.Lanon.38, 23

	.type	.Lanon.39,@object
	.section	.rodata..Lanon.39,"a",@progbits
.Lanon.39:
	.ascii	"a write failed"
	.size	.Lanon.39, 14

	.type	.Lanon.4,@object
	.section	.rodata..Lanon.4,"a",@progbits
.Lanon.4:
	.ascii	"no memory was found"
	.size	.Lanon.4, 19

	.type	.Lanon.40,@object
	.section	.rodata..Lanon.40,"a",@progbits
.Lanon.40:
	.ascii	"it is replaced, but its folder can't be synced"
	.size	.Lanon.40, 46

	.type	.Lanon.41,@object
	.section	.data.rel.ro..Lanon.41,"aw",@progbits
	.p2align	3, 0x0
.Lanon.41:
	.xword	.Lanon.82
	.asciz	"\b\000\000\000\000\000\000"
	.xword	.Lanon.81
	.asciz	"\002\000\000\000\000\000\000"
	.size	.Lanon.41, 32

	.type	.Lanon.42,@object
	.section	.data.rel.ro..Lanon.42,"aw",@progbits
	.p2align	3, 0x0
.Lanon.42:
	.xword	.Lanon.80
	.asciz	"\b\000\000\000\000\000\000"
	.xword	.Lanon.81
	.asciz	"\002\000\000\000\000\000\000"
	.size	.Lanon.42, 32

	.type	.Lanon.43,@object
	.section	.data.rel.ro..Lanon.43,"aw",@progbits
	.p2align	3, 0x0
.Lanon.43:
	.xword	.Lanon.83
	.asciz	"\006\000\000\000\000\000\000"
	.xword	.Lanon.84
	.asciz	"\021\000\000\000\000\000\000"
	.size	.Lanon.43, 32

	.type	.Lanon.44,@object
	.section	.rodata..Lanon.44,"a",@progbits
.Lanon.44:
	.ascii	"fault: write"
	.size	.Lanon.44, 12

	.type	.Lanon.45,@object
	.section	.rodata..Lanon.45,"a",@progbits
.Lanon.45:
	.ascii	"fault: read"
	.size	.Lanon.45, 11

	.type	.Lanon.46,@object
	.section	.rodata..Lanon.46,"a",@progbits
.Lanon.46:
	.ascii	"fault: memory"
	.size	.Lanon.46, 13

	.type	.Lanon.47,@object
	.section	.rodata..Lanon.47,"a",@progbits
.Lanon.47:
	.ascii	" version=1"
	.size	.Lanon.47, 10

	.type	.Lanon.48,@object
	.section	.rodata..Lanon.48,"a",@progbits
.Lanon.48:
	.ascii	" version=0"
	.size	.Lanon.48, 10

	.type	.Lanon.49,@object
	.section	.rodata..Lanon.49,"a",@progbits
.Lanon.49:
	.ascii	" n="
	.size	.Lanon.49, 3

	.type	.Lanon.5,@object
	.section	.rodata..Lanon.5,"a",@progbits
.Lanon.5:
	.ascii	"the slice has no room"
	.size	.Lanon.5, 21

	.type	.Lanon.50,@object
	.section	.rodata..Lanon.50,"a",@progbits
.Lanon.50:
	.ascii	" e="
	.size	.Lanon.50, 3

	.type	.Lanon.51,@object
	.section	.rodata..Lanon.51,"a",@progbits
.Lanon.51:
	.ascii	" d="
	.size	.Lanon.51, 3

	.type	.Lanon.52,@object
	.section	.rodata..Lanon.52,"a",@progbits
.Lanon.52:
	.ascii	" p="
	.size	.Lanon.52, 3

	.type	.Lanon.53,@object
	.section	.rodata..Lanon.53,"a",@progbits
.Lanon.53:
	.ascii	" q="
	.size	.Lanon.53, 3

	.type	.Lanon.54,@object
	.section	.rodata.cst4,"aM",@progbits,4
.Lanon.54:
	.ascii	" dp="
	.size	.Lanon.54, 4

	.type	.Lanon.55,@object
.Lanon.55:
	.ascii	" dq="
	.size	.Lanon.55, 4

	.type	.Lanon.56,@object
.Lanon.56:
	.ascii	" qi="
	.size	.Lanon.56, 4

	.type	.Lanon.57,@object
	.section	.rodata..Lanon.57,"a",@progbits
.Lanon.57:
	.ascii	" defaults="
	.size	.Lanon.57, 10

	.type	.Lanon.58,@object
	.section	.data.rel.ro..Lanon.58,"aw",@progbits
	.p2align	3, 0x0
.Lanon.58:
	.xword	.Lanon.96
	.asciz	"\f\000\000\000\000\000\000"
	.size	.Lanon.58, 16

	.type	.Lanon.59,@object
	.section	.rodata..Lanon.59,"a",@progbits
.Lanon.59:
	.byte	46
	.size	.Lanon.59, 1

	.type	.Lanon.6,@object
	.section	.data.rel.ro..Lanon.6,"aw",@progbits
	.p2align	3, 0x0
.Lanon.6:
	.xword	.Lanon.75
	.asciz	"\016\000\000\000\000\000\000"
	.xword	.Lanon.76
	.asciz	"\r\000\000\000\000\000\000"
	.size	.Lanon.6, 32

	.type	.Lanon.60,@object
	.section	.rodata..Lanon.60,"a",@progbits
.Lanon.60:
	.ascii	"usage: pkcs1_tool [copy pub|priv IN OUT]"
	.size	.Lanon.60, 40

	.type	.Lanon.61,@object
	.section	.data.rel.ro..Lanon.61,"aw",@progbits
	.p2align	3, 0x0
.Lanon.61:
	.xword	1
	.zero	8
	.xword	.Lanon.68
	.asciz	"\001\000\000\000\000\000\000"
	.size	.Lanon.61, 32

	.type	.Lanon.62,@object
	.section	.data.rel.ro..Lanon.62,"aw",@progbits
	.p2align	3, 0x0
.Lanon.62:
	.xword	.Lanon.65
	.asciz	"\b\000\000\000\000\000\000\000"
	.zero	7
	.xword	.Lanon.64
	.ascii	"\t\000\000\000\000\000\000\000\001"
	.zero	7
	.size	.Lanon.62, 48

	.type	.Lanon.63,@object
	.section	.data.rel.ro..Lanon.63,"aw",@progbits
	.p2align	3, 0x0
.Lanon.63:
	.xword	.Lanon.85
	.asciz	"\003\000\000\000\000\000\000\000"
	.zero	7
	.xword	.Lanon.88
	.ascii	"\004\000\000\000\000\000\000\000\001"
	.zero	7
	.xword	.Lanon.92
	.ascii	"\003\000\000\000\000\000\000\000\002"
	.zero	7
	.xword	.Lanon.94
	.ascii	"\004\000\000\000\000\000\000\000\003"
	.zero	7
	.xword	.Lanon.89
	.ascii	"\002\000\000\000\000\000\000\000\004"
	.zero	7
	.xword	.Lanon.31
	.ascii	"\t\000\000\000\000\000\000\000\005"
	.zero	7
	.xword	.Lanon.32
	.ascii	"\n\000\000\000\000\000\000\000\006"
	.zero	7
	.xword	.Lanon.28
	.ascii	"\n\000\000\000\000\000\000\000\007"
	.zero	7
	.xword	.Lanon.29
	.ascii	"\013\000\000\000\000\000\000\000\b"
	.zero	7
	.size	.Lanon.63, 216

	.type	.Lanon.64,@object
	.section	.rodata..Lanon.64,"a",@progbits
.Lanon.64:
	.ascii	"same-oaep"
	.size	.Lanon.64, 9

	.type	.Lanon.65,@object
	.section	.rodata.cst8,"aM",@progbits,8
.Lanon.65:
	.ascii	"same-pss"
	.size	.Lanon.65, 8

	.type	.Lanon.66,@object
	.section	.rodata..Lanon.66,"a",@progbits
.Lanon.66:
	.ascii	"0x"
	.size	.Lanon.66, 2

	.type	.Lanon.67,@object
	.section	.rodata..Lanon.67,"a",@progbits
.Lanon.67:
	.asciz	"\001\001\001\001\001\001\001\001\001\001\001\001\001\001\001\001\001\001\001\001\001\001\001\001\001\001\001\001\001\001\001\001\001\001\001\001\001\001\001\001\001\001\001\001\001\001\001\001\001\001\001\001\001\001\001\001\001\001\001\001\001\001\001\001\001\001\001\001\001\001\001\001\001\001\001\001\001\001\001\001\001\001\001\001\001\001\001\001\001\001\001\001\001\001\001\001\001\001\001\001\001\001\001\001\001\001\001\001\001\001\001\001\001\001\001\001\001\001\001\001\001\001\001\001\001\001\001\001\000\000\000\000\000\000\000\000\000\000\000\000\000\000\000\000\000\000\000\000\000\000\000\000\000\000\000\000\000\000\000\000\000\000\000\000\000\000\000\000\000\000\000\000\000\000\000\000\000\000\000\000\000\000\000\000\000\000\000\000\000\000\000\000\000\000\002\002\002\002\002\002\002\002\002\002\002\002\002\002\002\002\002\002\002\002\002\002\002\002\002\002\002\002\002\002\003\003\003\003\003\003\003\003\003\003\003\003\003\003\003\003\004\004\004\004\004\000\000\000\000\000\000\000\000\000\000"
	.size	.Lanon.67, 256

	.type	.Lanon.68,@object
	.section	.rodata..Lanon.68,"a",@progbits
.Lanon.68:
	.byte	10
	.size	.Lanon.68, 1

	.type	.Lanon.69,@object
	.section	.rodata..Lanon.69,"a",@progbits
.Lanon.69:
	.ascii	"the contents of tag "
	.size	.Lanon.69, 20

	.type	.Lanon.7,@object
	.section	.data.rel.ro..Lanon.7,"aw",@progbits
	.p2align	3, 0x0
.Lanon.7:
	.xword	.Lanon.69
	.asciz	"\024\000\000\000\000\000\000"
	.xword	.Lanon.71
	.asciz	"\031\000\000\000\000\000\000"
	.size	.Lanon.7, 32

	.type	.Lanon.70,@object
	.section	.rodata..Lanon.70,"a",@progbits
.Lanon.70:
	.ascii	" have a wrong length"
	.size	.Lanon.70, 20

	.type	.Lanon.71,@object
	.section	.rodata..Lanon.71,"a",@progbits
.Lanon.71:
	.ascii	" are not in shortest form"
	.size	.Lanon.71, 25

	.type	.Lanon.72,@object
	.section	.rodata.cst4,"aM",@progbits,4
.Lanon.72:
	.ascii	"tag "
	.size	.Lanon.72, 4

	.type	.Lanon.73,@object
	.section	.rodata..Lanon.73,"a",@progbits
.Lanon.73:
	.ascii	" was expected, "
	.size	.Lanon.73, 15

	.type	.Lanon.74,@object
	.section	.rodata..Lanon.74,"a",@progbits
.Lanon.74:
	.ascii	" was found"
	.size	.Lanon.74, 10

	.type	.Lanon.75,@object
	.section	.rodata..Lanon.75,"a",@progbits
.Lanon.75:
	.ascii	"the tag octet "
	.size	.Lanon.75, 14

	.type	.Lanon.76,@object
	.section	.rodata..Lanon.76,"a",@progbits
.Lanon.76:
	.ascii	" is not known"
	.size	.Lanon.76, 13

	.type	.Lanon.77,@object
	.section	.rodata..Lanon.77,"a",@progbits
.Lanon.77:
	.ascii	"the value of tag "
	.size	.Lanon.77, 17

	.type	.Lanon.78,@object
	.section	.rodata..Lanon.78,"a",@progbits
.Lanon.78:
	.ascii	" is not allowed"
	.size	.Lanon.78, 15

	.type	.Lanon.79,@object
	.section	.rodata..Lanon.79,"a",@progbits
.Lanon.79:
	.ascii	"PKCS#1 ASN.1 error: "
	.size	.Lanon.79, 20

	.type	.Lanon.8,@object
	.section	.rodata..Lanon.8,"a",@progbits
.Lanon.8:
	.ascii	"bytes follow the value"
	.size	.Lanon.8, 22

	.type	.Lanon.80,@object
	.section	.rodata.cst8,"aM",@progbits,8
.Lanon.80:
	.ascii	"reading "
	.size	.Lanon.80, 8

	.type	.Lanon.81,@object
	.section	.rodata..Lanon.81,"a",@progbits
.Lanon.81:
	.ascii	": "
	.size	.Lanon.81, 2

	.type	.Lanon.82,@object
	.section	.rodata.cst8,"aM",@progbits,8
.Lanon.82:
	.ascii	"writing "
	.size	.Lanon.82, 8

	.type	.Lanon.83,@object
	.section	.rodata..Lanon.83,"a",@progbits
.Lanon.83:
	.ascii	", and "
	.size	.Lanon.83, 6

	.type	.Lanon.84,@object
	.section	.rodata..Lanon.84,"a",@progbits
.Lanon.84:
	.ascii	" can't be removed"
	.size	.Lanon.84, 17

	.type	.Lanon.85,@object
	.section	.rodata..Lanon.85,"a",@progbits
.Lanon.85:
	.ascii	"pub"
	.size	.Lanon.85, 3

	.type	.Lanon.86,@object
	.section	.rodata..Lanon.86,"a",@progbits
.Lanon.86:
	.ascii	" again="
	.size	.Lanon.86, 7

	.type	.Lanon.87,@object
	.section	.rodata..Lanon.87,"a",@progbits
.Lanon.87:
	.ascii	" other="
	.size	.Lanon.87, 7

	.type	.Lanon.88,@object
	.section	.rodata.cst4,"aM",@progbits,4
.Lanon.88:
	.ascii	"priv"
	.size	.Lanon.88, 4

	.type	.Lanon.89,@object
	.section	.rodata..Lanon.89,"a",@progbits
.Lanon.89:
	.ascii	"p8"
	.size	.Lanon.89, 2

	.type	.Lanon.9,@object
	.section	.rodata..Lanon.9,"a",@progbits
.Lanon.9:
	.ascii	"the algorithm parameters are missing"
	.size	.Lanon.9, 36

	.type	.Lanon.90,@object
	.section	.rodata..Lanon.90,"a",@progbits
.Lanon.90:
	.ascii	" hash="
	.size	.Lanon.90, 6

	.type	.Lanon.91,@object
	.section	.rodata..Lanon.91,"a",@progbits
.Lanon.91:
	.ascii	" mask="
	.size	.Lanon.91, 6

	.type	.Lanon.92,@object
	.section	.rodata..Lanon.92,"a",@progbits
.Lanon.92:
	.ascii	"pss"
	.size	.Lanon.92, 3

	.type	.Lanon.93,@object
	.section	.rodata..Lanon.93,"a",@progbits
.Lanon.93:
	.ascii	" salt="
	.size	.Lanon.93, 6

	.type	.Lanon.94,@object
	.section	.rodata.cst4,"aM",@progbits,4
.Lanon.94:
	.ascii	"oaep"
	.size	.Lanon.94, 4

	.type	.Lanon.95,@object
.Lanon.95:
	.ascii	"copy"
	.size	.Lanon.95, 4

	.type	.Lanon.96,@object
	.section	.rodata..Lanon.96,"a",@progbits
.Lanon.96:
	.ascii	".pkcs1_tool."
	.size	.Lanon.96, 12

	.type	.Lanon.97,@object
	.section	.rodata..Lanon.97,"a",@progbits
.Lanon.97:
	.ascii	"refused"
	.size	.Lanon.97, 7

	.type	.Lanon.98,@object
	.section	.rodata..Lanon.98,"a",@progbits
.Lanon.98:
	.ascii	" no"
	.size	.Lanon.98, 3

	.type	_RNvNtNtCs00000000001_10pkcs1_tool10rattle_std7library8AN_OCTET,@object
	.section	.rodata._RNvNtNtCs00000000001_10pkcs1_tool10rattle_std7library8AN_OCTET,"a",@progbits
_RNvNtNtCs00000000001_10pkcs1_tool10rattle_std7library8AN_OCTET:
	.zero	1
	.size	_RNvNtNtCs00000000001_10pkcs1_tool10rattle_std7library8AN_OCTET, 1

	.type	__rust_no_alloc_shim_is_unstable,@object
	.section	.bss.__rust_no_alloc_shim_is_unstable,"aw",@nobits
	.p2align	2, 0x0
__rust_no_alloc_shim_is_unstable:
	.byte	0
	.size	__rust_no_alloc_shim_is_unstable, 1

	.section	".note.GNU-stack","",@progbits
	.section	".note.gnu.property","a",@note
	.p2align	3
	.long	4
	.long	16
	.long	5
	.asciz	"GNU"
	.long	3221225472
	.long	4
	.long	1
	.long	0
