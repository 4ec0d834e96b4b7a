	.text
	.section	.text._RINvNtCs00000000000_4core3ptr13drop_in_placeNtNtNtCs00000000001_10pkcs1_tool10rattle_std4text6StringEBM_,"ax",@progbits
	.p2align	4, 0x90
	.type	_RINvNtCs00000000000_4core3ptr13drop_in_placeNtNtNtCs00000000001_10pkcs1_tool10rattle_std4text6StringEBM_,@function
_RINvNtCs00000000000_4core3ptr13drop_in_placeNtNtNtCs00000000001_10pkcs1_tool10rattle_std4text6StringEBM_:
	.cfi_startproc
	endbr64
	cmpq	$0, (%rdi)
	je	.LBB0_1
	movq	8(%rdi), %rdi
	jmp	free
.LBB0_1:
	retq
.Lfunc_end0:
	.size	_RINvNtCs00000000000_4core3ptr13drop_in_placeNtNtNtCs00000000001_10pkcs1_tool10rattle_std4text6StringEBM_, .Lfunc_end0-_RINvNtCs00000000000_4core3ptr13drop_in_placeNtNtNtCs00000000001_10pkcs1_tool10rattle_std4text6StringEBM_
	.cfi_endproc

	.section	.text.unlikely._RINvNtCs00000000002_5alloc7raw_vec11finish_growNtNtB4_5alloc6GlobalECs00000000001_10pkcs1_tool,"ax",@progbits
	.p2align	4, 0x90
	.type	_RINvNtCs00000000002_5alloc7raw_vec11finish_growNtNtB4_5alloc6GlobalECs00000000001_10pkcs1_tool,@function
_RINvNtCs00000000002_5alloc7raw_vec11finish_growNtNtB4_5alloc6GlobalECs00000000001_10pkcs1_tool:
	.cfi_startproc
	endbr64
	pushq	%r15
	.cfi_def_cfa_offset 16
	pushq	%r14
	.cfi_def_cfa_offset 24
	pushq	%rbx
	.cfi_def_cfa_offset 32
	.cfi_offset %rbx, -32
	.cfi_offset %r14, -24
	.cfi_offset %r15, -16
	movq	%rdx, %rbx
	movq	%rsi, %r15
	movq	%rdi, %r14
	cmpq	$0, 8(%rcx)
	je	.LBB1_3
	cmpq	$0, 16(%rcx)
	je	.LBB1_3
	movq	(%rcx), %rdi
	movq	%rbx, %rsi
	callq	realloc
	jmp	.LBB1_7
.LBB1_3:
	testq	%rbx, %rbx
	je	.LBB1_4
	movzbl	__rust_no_alloc_shim_is_unstable(%rip), %eax
	movq	%rbx, %rdi
	callq	malloc
	jmp	.LBB1_7
.LBB1_4:
	movq	%r15, %rax
.LBB1_7:
	xorl	%ecx, %ecx
	testq	%rax, %rax
	cmovneq	%rax, %r15
	sete	%cl
	movq	%r15, 8(%r14)
	movq	%rbx, 16(%r14)
	movq	%rcx, (%r14)
	popq	%rbx
	.cfi_def_cfa_offset 24
	popq	%r14
	.cfi_def_cfa_offset 16
	popq	%r15
	.cfi_def_cfa_offset 8
	retq
.Lfunc_end1:
	.size	_RINvNtCs00000000002_5alloc7raw_vec11finish_growNtNtB4_5alloc6GlobalECs00000000001_10pkcs1_tool, .Lfunc_end1-_RINvNtCs00000000002_5alloc7raw_vec11finish_growNtNtB4_5alloc6GlobalECs00000000001_10pkcs1_tool
	.cfi_endproc

	.section	.text.unlikely._RINvNvMs3_NtCs00000000002_5alloc7raw_vecINtB8_11RawVecInnerpE7reserve21do_reserve_and_handleNtNtBa_5alloc6GlobalECs00000000001_10pkcs1_tool,"ax",@progbits
	.p2align	4, 0x90
	.type	_RINvNvMs3_NtCs00000000002_5alloc7raw_vecINtB8_11RawVecInnerpE7reserve21do_reserve_and_handleNtNtBa_5alloc6GlobalECs00000000001_10pkcs1_tool,@function
_RINvNvMs3_NtCs00000000002_5alloc7raw_vecINtB8_11RawVecInnerpE7reserve21do_reserve_and_handleNtNtBa_5alloc6GlobalECs00000000001_10pkcs1_tool:
	.cfi_startproc
	endbr64
	pushq	%r14
	.cfi_def_cfa_offset 16
	pushq	%rbx
	.cfi_def_cfa_offset 24
	subq	$56, %rsp
	.cfi_def_cfa_offset 80
	.cfi_offset %rbx, -24
	.cfi_offset %r14, -16
	addq	%rdx, %rsi
	jb	.LBB2_1
	movq	%rdi, %rbx
	movq	(%rdi), %rax
	leaq	(%rax,%rax), %rcx
	cmpq	%rsi, %rcx
	cmovaq	%rcx, %rsi
	cmpq	$9, %rsi
	movl	$8, %r14d
	cmovaeq	%rsi, %r14
	testq	%r14, %r14
	js	.LBB2_1
	testq	%rax, %rax
	jne	.LBB2_5
	xorl	%eax, %eax
	jmp	.LBB2_6
.LBB2_5:
	movq	8(%rbx), %rcx
	movq	%rcx, 32(%rsp)
	movq	%rax, 48(%rsp)
	movl	$1, %eax
.LBB2_6:
	movq	%rax, 40(%rsp)
	leaq	8(%rsp), %rdi
	leaq	32(%rsp), %rcx
	movl	$1, %esi
	movq	%r14, %rdx
	callq	_RINvNtCs00000000002_5alloc7raw_vec11finish_growNtNtB4_5alloc6GlobalECs00000000001_10pkcs1_tool
	cmpl	$1, 8(%rsp)
	je	.LBB2_7
	movq	16(%rsp), %rax
	movq	%rax, 8(%rbx)
	movq	%r14, (%rbx)
	addq	$56, %rsp
	.cfi_def_cfa_offset 24
	popq	%rbx
	.cfi_def_cfa_offset 16
	popq	%r14
	.cfi_def_cfa_offset 8
	retq
.LBB2_1:
	.cfi_def_cfa_offset 80
	xorl	%edi, %edi
	ud2
.LBB2_7:
	movq	16(%rsp), %rdi
	movq	24(%rsp), %rsi
	ud2
.Lfunc_end2:
	.size	_RINvNvMs3_NtCs00000000002_5alloc7raw_vecINtB8_11RawVecInnerpE7reserve21do_reserve_and_handleNtNtBa_5alloc6GlobalECs00000000001_10pkcs1_tool, .Lfunc_end2-_RINvNvMs3_NtCs00000000002_5alloc7raw_vecINtB8_11RawVecInnerpE7reserve21do_reserve_and_handleNtNtBa_5alloc6GlobalECs00000000001_10pkcs1_tool
	.cfi_endproc

	.section	.text._RNvMs1_NtCs00000000002_5alloc7raw_vecINtB5_6RawVecINtNtNtNtCs00000000001_10pkcs1_tool10rattle_std7library3vec3VechEE8grow_oneBV_,"ax",@progbits
	.p2align	4, 0x90
	.type	_RNvMs1_NtCs00000000002_5alloc7raw_vecINtB5_6RawVecINtNtNtNtCs00000000001_10pkcs1_tool10rattle_std7library3vec3VechEE8grow_oneBV_,@function
_RNvMs1_NtCs00000000002_5alloc7raw_vecINtB5_6RawVecINtNtNtNtCs00000000001_10pkcs1_tool10rattle_std7library3vec3VechEE8grow_oneBV_:
	.cfi_startproc
	endbr64
	pushq	%r14
	.cfi_def_cfa_offset 16
	pushq	%rbx
	.cfi_def_cfa_offset 24
	subq	$56, %rsp
	.cfi_def_cfa_offset 80
	.cfi_offset %rbx, -24
	.cfi_offset %r14, -16
	movq	(%rdi), %rcx
	cmpq	$-1, %rcx
	je	.LBB3_8
	movq	%rdi, %rbx
	leaq	1(%rcx), %rax
	leaq	(%rcx,%rcx), %rdx
	cmpq	%rax, %rdx
	cmovaq	%rdx, %rax
	cmpq	$5, %rax
	movl	$4, %r14d
	cmovaeq	%rax, %r14
	xorl	%edi, %edi
	movl	$24, %edx
	movq	%r14, %rax
	mulq	%rdx
	jo	.LBB3_9
	movabsq	$9223372036854775800, %rdx
	cmpq	%rdx, %rax
	ja	.LBB3_11
	testq	%rcx, %rcx
	jne	.LBB3_5
	xorl	%ecx, %ecx
	jmp	.LBB3_6
.LBB3_5:
	movq	8(%rbx), %rdx
	shlq	$3, %rcx
	leaq	(%rcx,%rcx,2), %rcx
	movq	%rdx, 32(%rsp)
	movq	%rcx, 48(%rsp)
	movl	$8, %ecx
.LBB3_6:
	movq	%rcx, 40(%rsp)
	leaq	8(%rsp), %rdi
	leaq	32(%rsp), %rcx
	movl	$8, %esi
	movq	%rax, %rdx
	callq	_RINvNtCs00000000002_5alloc7raw_vec11finish_growNtNtB4_5alloc6GlobalECs00000000001_10pkcs1_tool
	cmpl	$1, 8(%rsp)
	je	.LBB3_10
	movq	16(%rsp), %rax
	movq	%rax, 8(%rbx)
	movq	%r14, (%rbx)
	addq	$56, %rsp
	.cfi_def_cfa_offset 24
	popq	%rbx
	.cfi_def_cfa_offset 16
	popq	%r14
	.cfi_def_cfa_offset 8
	retq
.LBB3_8:
	.cfi_def_cfa_offset 80
	xorl	%edi, %edi
.LBB3_9:
	ud2
.LBB3_10:
	movq	16(%rsp), %rdi
	movq	24(%rsp), %rsi
.LBB3_11:
	ud2
.Lfunc_end3:
	.size	_RNvMs1_NtCs00000000002_5alloc7raw_vecINtB5_6RawVecINtNtNtNtCs00000000001_10pkcs1_tool10rattle_std7library3vec3VechEE8grow_oneBV_, .Lfunc_end3-_RNvMs1_NtCs00000000002_5alloc7raw_vecINtB5_6RawVecINtNtNtNtCs00000000001_10pkcs1_tool10rattle_std7library3vec3VechEE8grow_oneBV_
	.cfi_endproc

	.section	.rodata.cst16,"aM",@progbits,16
	.p2align	4, 0x0
.LCPI4_0:
	.byte	191
	.byte	191
	.zero	1
	.zero	1
	.zero	1
	.zero	1
	.zero	1
	.zero	1
	.zero	1
	.zero	1
	.zero	1
	.zero	1
	.zero	1
	.zero	1
	.zero	1
	.zero	1
.LCPI4_1:
	.quad	1
	.quad	1
.LCPI4_2:
	.zero	16,1
	.section	.text._RNvXs1c_NtCs00000000000_4core3fmtReNtB6_7Display3fmtCs00000000001_10pkcs1_tool,"ax",@progbits
	.p2align	4, 0x90
	.type	_RNvXs1c_NtCs00000000000_4core3fmtReNtB6_7Display3fmtCs00000000001_10pkcs1_tool,@function
_RNvXs1c_NtCs00000000000_4core3fmtReNtB6_7Display3fmtCs00000000001_10pkcs1_tool:
	.cfi_startproc
	endbr64
	pushq	%rbp
	.cfi_def_cfa_offset 16
	pushq	%r15
	.cfi_def_cfa_offset 24
	pushq	%r14
	.cfi_def_cfa_offset 32
	pushq	%r13
	.cfi_def_cfa_offset 40
	pushq	%r12
	.cfi_def_cfa_offset 48
	pushq	%rbx
	.cfi_def_cfa_offset 56
	pushq	%rax
	.cfi_def_cfa_offset 64
	.cfi_offset %rbx, -56
	.cfi_offset %r12, -48
	.cfi_offset %r13, -40
	.cfi_offset %r14, -32
	.cfi_offset %r15, -24
	.cfi_offset %rbp, -16
	movq	(%rdi), %r14
	movq	8(%rdi), %rbx
	movq	(%rsi), %rax
	movq	16(%rsi), %rcx
	movq	%rax, %rdx
	orq	%rcx, %rdx
	je	.LBB4_83
	testb	$1, %cl
	je	.LBB4_23
	movq	24(%rsi), %rdi
	leaq	(%r14,%rbx), %rdx
	xorl	%ecx, %ecx
	testq	%rdi, %rdi
	je	.LBB4_3
	xorl	%r8d, %r8d
	movq	%r14, %r9
	jmp	.LBB4_5
	.p2align	4, 0x90
.LBB4_7:
	leaq	1(%r9), %r10
.LBB4_13:
	incq	%r8
	movq	%r10, %r11
	subq	%r9, %r11
	addq	%r11, %rcx
	movq	%r10, %r9
	cmpq	%r8, %rdi
	je	.LBB4_14
.LBB4_5:
	cmpq	%rdx, %r9
	je	.LBB4_23
	movzbl	(%r9), %r10d
	testb	%r10b, %r10b
	jns	.LBB4_7
	cmpb	$-32, %r10b
	jb	.LBB4_9
	cmpb	$-16, %r10b
	jb	.LBB4_11
	leaq	4(%r9), %r10
	jmp	.LBB4_13
.LBB4_9:
	leaq	2(%r9), %r10
	jmp	.LBB4_13
.LBB4_11:
	leaq	3(%r9), %r10
	jmp	.LBB4_13
.LBB4_3:
	movq	%r14, %r10
.LBB4_14:
	cmpq	%rdx, %r10
	je	.LBB4_23
	movzbl	(%r10), %edx
	testb	%dl, %dl
	jns	.LBB4_17
	cmpb	$-32, %dl
.LBB4_17:
	movq	%r14, %rdx
	testq	%rcx, %rcx
	je	.LBB4_22
	cmpq	%rbx, %rcx
	jae	.LBB4_19
	cmpb	$-64, (%r14,%rcx)
	setge	%dil
	jmp	.LBB4_21
.LBB4_19:
	sete	%dil
.LBB4_21:
	xorl	%edx, %edx
	testb	%dil, %dil
	cmovneq	%r14, %rdx
.LBB4_22:
	testq	%rdx, %rdx
	cmovneq	%rcx, %rbx
	cmovneq	%rdx, %r14
.LBB4_23:
	testq	%rax, %rax
	je	.LBB4_83
	movq	8(%rsi), %r8
	cmpq	$32, %rbx
	jae	.LBB4_25
	testq	%rbx, %rbx
	je	.LBB4_60
	cmpq	$4, %rbx
	jae	.LBB4_64
	xorl	%eax, %eax
	xorl	%ecx, %ecx
	jmp	.LBB4_63
.LBB4_25:
	movq	%r8, (%rsp)
	leaq	7(%r14), %r15
	andq	$-8, %r15
	movq	%r15, %rcx
	subq	%r14, %rcx
	movq	%rbx, %rax
	subq	%rcx, %rax
	movl	%eax, %ecx
	andl	$7, %ecx
	movq	%r15, %rdi
	subq	%r14, %rdi
	jne	.LBB4_27
	xorl	%edx, %edx
	jmp	.LBB4_31
.LBB4_27:
	cmpq	$4, %rdi
	jae	.LBB4_29
	xorl	%r8d, %r8d
	xorl	%edx, %edx
	jmp	.LBB4_30
.LBB4_60:
	xorl	%ecx, %ecx
	jmp	.LBB4_73
.LBB4_64:
	movl	%ebx, %eax
	andl	$28, %eax
	movzwl	(%r14), %ecx
	movd	%ecx, %xmm0
	movzwl	2(%r14), %ecx
	movd	%ecx, %xmm1
	movdqa	.LCPI4_0(%rip), %xmm2
	pcmpgtb	%xmm2, %xmm0
	punpcklbw	%xmm0, %xmm0
	pshuflw	$212, %xmm0, %xmm0
	pshufd	$212, %xmm0, %xmm0
	movdqa	.LCPI4_1(%rip), %xmm3
	pand	%xmm3, %xmm0
	pcmpgtb	%xmm2, %xmm1
	punpcklbw	%xmm1, %xmm1
	pshuflw	$212, %xmm1, %xmm1
	pshufd	$212, %xmm1, %xmm1
	pand	%xmm3, %xmm1
	cmpq	$4, %rax
	je	.LBB4_71
	movzwl	4(%r14), %ecx
	movd	%ecx, %xmm4
	movzwl	6(%r14), %ecx
	movd	%ecx, %xmm5
	pcmpgtb	%xmm2, %xmm4
	punpcklbw	%xmm4, %xmm4
	pshuflw	$212, %xmm4, %xmm4
	pshufd	$212, %xmm4, %xmm4
	pand	%xmm3, %xmm4
	pcmpgtb	%xmm2, %xmm5
	punpcklbw	%xmm5, %xmm5
	pshuflw	$212, %xmm5, %xmm5
	pshufd	$212, %xmm5, %xmm5
	pand	%xmm3, %xmm5
	paddq	%xmm4, %xmm0
	paddq	%xmm5, %xmm1
	cmpl	$8, %eax
	je	.LBB4_71
	movzwl	8(%r14), %ecx
	movd	%ecx, %xmm4
	movzwl	10(%r14), %ecx
	movd	%ecx, %xmm5
	pcmpgtb	%xmm2, %xmm4
	punpcklbw	%xmm4, %xmm4
	pshuflw	$212, %xmm4, %xmm4
	pshufd	$212, %xmm4, %xmm4
	pand	%xmm3, %xmm4
	pcmpgtb	%xmm2, %xmm5
	punpcklbw	%xmm5, %xmm5
	pshuflw	$212, %xmm5, %xmm5
	pshufd	$212, %xmm5, %xmm5
	pand	%xmm3, %xmm5
	paddq	%xmm4, %xmm0
	paddq	%xmm5, %xmm1
	cmpl	$12, %eax
	je	.LBB4_71
	movzwl	12(%r14), %ecx
	movd	%ecx, %xmm4
	movzwl	14(%r14), %ecx
	movd	%ecx, %xmm5
	pcmpgtb	%xmm2, %xmm4
	punpcklbw	%xmm4, %xmm4
	pshuflw	$212, %xmm4, %xmm4
	pshufd	$212, %xmm4, %xmm4
	pand	%xmm3, %xmm4
	pcmpgtb	%xmm2, %xmm5
	punpcklbw	%xmm5, %xmm5
	pshuflw	$212, %xmm5, %xmm5
	pshufd	$212, %xmm5, %xmm5
	pand	%xmm3, %xmm5
	paddq	%xmm4, %xmm0
	paddq	%xmm5, %xmm1
	cmpl	$16, %eax
	je	.LBB4_71
	movzwl	16(%r14), %ecx
	movd	%ecx, %xmm4
	movzwl	18(%r14), %ecx
	movd	%ecx, %xmm5
	pcmpgtb	%xmm2, %xmm4
	punpcklbw	%xmm4, %xmm4
	pshuflw	$212, %xmm4, %xmm4
	pshufd	$212, %xmm4, %xmm4
	pand	%xmm3, %xmm4
	pcmpgtb	%xmm2, %xmm5
	punpcklbw	%xmm5, %xmm5
	pshuflw	$212, %xmm5, %xmm5
	pshufd	$212, %xmm5, %xmm5
	pand	%xmm3, %xmm5
	paddq	%xmm4, %xmm0
	paddq	%xmm5, %xmm1
	cmpl	$20, %eax
	je	.LBB4_71
	movzwl	20(%r14), %ecx
	movd	%ecx, %xmm4
	movzwl	22(%r14), %ecx
	movd	%ecx, %xmm5
	pcmpgtb	%xmm2, %xmm4
	punpcklbw	%xmm4, %xmm4
	pshuflw	$212, %xmm4, %xmm4
	pshufd	$212, %xmm4, %xmm4
	pand	%xmm3, %xmm4
	pcmpgtb	%xmm2, %xmm5
	punpcklbw	%xmm5, %xmm5
	pshuflw	$212, %xmm5, %xmm5
	pshufd	$212, %xmm5, %xmm5
	pand	%xmm3, %xmm5
	paddq	%xmm4, %xmm0
	paddq	%xmm5, %xmm1
	cmpl	$24, %eax
	je	.LBB4_71
	movzwl	24(%r14), %ecx
	movd	%ecx, %xmm4
	movzwl	26(%r14), %ecx
	movd	%ecx, %xmm5
	pcmpgtb	%xmm2, %xmm4
	punpcklbw	%xmm4, %xmm4
	pshuflw	$212, %xmm4, %xmm4
	pshufd	$212, %xmm4, %xmm4
	pand	%xmm3, %xmm4
	pcmpgtb	%xmm2, %xmm5
	punpcklbw	%xmm5, %xmm5
	pshuflw	$212, %xmm5, %xmm2
	pshufd	$212, %xmm2, %xmm2
	pand	%xmm3, %xmm2
	paddq	%xmm4, %xmm0
	paddq	%xmm2, %xmm1
.LBB4_71:
	paddq	%xmm1, %xmm0
	pshufd	$238, %xmm0, %xmm1
	paddq	%xmm0, %xmm1
	movq	%xmm1, %rcx
	jmp	.LBB4_72
.LBB4_29:
	movzwl	2(%r14), %edx
	movd	%edx, %xmm0
	movdqa	.LCPI4_0(%rip), %xmm1
	pcmpgtb	%xmm1, %xmm0
	punpcklbw	%xmm0, %xmm0
	pshuflw	$212, %xmm0, %xmm0
	pshufd	$212, %xmm0, %xmm0
	movdqa	.LCPI4_1(%rip), %xmm2
	pand	%xmm2, %xmm0
	movzwl	(%r14), %edx
	movd	%edx, %xmm3
	pcmpgtb	%xmm1, %xmm3
	punpcklbw	%xmm3, %xmm3
	pshuflw	$212, %xmm3, %xmm1
	pshufd	$212, %xmm1, %xmm1
	pand	%xmm2, %xmm1
	paddq	%xmm0, %xmm1
	pshufd	$238, %xmm1, %xmm0
	paddq	%xmm1, %xmm0
	movq	%xmm0, %rdx
	movl	$4, %r8d
	je	.LBB4_31
	.p2align	4, 0x90
.LBB4_30:
	xorl	%r9d, %r9d
	cmpb	$-64, (%r14,%r8)
	setge	%r9b
	addq	%r9, %rdx
	incq	%r8
	cmpq	%r8, %rdi
	jne	.LBB4_30
.LBB4_31:
	testq	%rcx, %rcx
	je	.LBB4_32
	movq	%rax, %rdi
	andq	$-8, %rdi
	xorl	%r11d, %r11d
	cmpb	$-64, (%r15,%rdi)
	setge	%r11b
	cmpl	$1, %ecx
	je	.LBB4_40
	xorl	%r8d, %r8d
	cmpb	$-64, 1(%r15,%rdi)
	setge	%r8b
	addq	%r8, %r11
	cmpl	$2, %ecx
	je	.LBB4_40
	xorl	%r8d, %r8d
	cmpb	$-64, 2(%r15,%rdi)
	setge	%r8b
	addq	%r8, %r11
	cmpl	$3, %ecx
	je	.LBB4_40
	xorl	%r8d, %r8d
	cmpb	$-64, 3(%r15,%rdi)
	setge	%r8b
	addq	%r8, %r11
	cmpl	$4, %ecx
	je	.LBB4_40
	xorl	%r8d, %r8d
	cmpb	$-64, 4(%r15,%rdi)
	setge	%r8b
	addq	%r8, %r11
	cmpl	$5, %ecx
	je	.LBB4_40
	xorl	%r8d, %r8d
	cmpb	$-64, 5(%r15,%rdi)
	setge	%r8b
	addq	%r8, %r11
	cmpl	$6, %ecx
	je	.LBB4_40
	xorl	%ecx, %ecx
	cmpb	$-64, 6(%r15,%rdi)
	setge	%cl
	addq	%rcx, %r11
	jmp	.LBB4_40
.LBB4_32:
	xorl	%r11d, %r11d
.LBB4_40:
	addq	%rdx, %r11
	shrq	$3, %rax
	movabsq	$71777214294589695, %rdi
	movabsq	$281479271743489, %rbp
	pcmpeqd	%xmm0, %xmm0
	movdqa	.LCPI4_2(%rip), %xmm1
	jmp	.LBB4_41
	.p2align	4, 0x90
.LBB4_44:
	xorl	%r11d, %r11d
.LBB4_54:
	movl	%r9d, %edx
	leaq	(%r8,%rdx,8), %r15
	subq	%r9, %rax
	movl	%r9d, %edx
	andl	$3, %edx
	movq	%r11, %r12
	andq	%rdi, %r12
	shrq	$8, %r11
	andq	%rdi, %r11
	addq	%r12, %r11
	imulq	%rbp, %r11
	shrq	$48, %r11
	addq	%rcx, %r11
	testq	%rdx, %rdx
	jne	.LBB4_55
.LBB4_41:
	movq	%r11, %rcx
	testq	%rax, %rax
	je	.LBB4_42
	movq	%r15, %r8
	cmpq	$192, %rax
	movl	$192, %r9d
	cmovbq	%rax, %r9
	cmpq	$4, %rax
	jb	.LBB4_44
	movq	%rbp, %r10
	movl	%r9d, %r15d
	shrl	$2, %r15d
	movabsq	$576460752303423487, %rdx
	leaq	(%r15,%rdx), %rbp
	andq	%rdx, %rbp
	cmpq	$3, %rbp
	jae	.LBB4_47
	xorl	%r11d, %r11d
	movq	%r8, %r13
	jmp	.LBB4_52
	.p2align	4, 0x90
.LBB4_47:
	incq	%rbp
	movq	%rbp, %rdx
	andq	$-4, %rdx
	movq	%rdx, %r13
	shlq	$5, %r13
	leaq	64(%r8), %r11
	pxor	%xmm4, %xmm4
	movq	%rdx, %r12
	pxor	%xmm5, %xmm5
	.p2align	4, 0x90
.LBB4_48:
	movdqu	-64(%r11), %xmm2
	movdqu	-32(%r11), %xmm6
	movdqa	%xmm2, %xmm3
	punpcklqdq	%xmm6, %xmm3
	movdqa	%xmm3, %xmm7
	pxor	%xmm0, %xmm7
	psrlq	$7, %xmm7
	psrlq	$6, %xmm3
	por	%xmm7, %xmm3
	pand	%xmm1, %xmm3
	paddq	%xmm4, %xmm3
	movdqu	-48(%r11), %xmm4
	movdqu	-16(%r11), %xmm10
	movdqu	48(%r11), %xmm11
	movdqu	32(%r11), %xmm7
	movdqu	(%r11), %xmm9
	movdqa	%xmm9, %xmm8
	punpcklqdq	%xmm7, %xmm8
	movdqa	%xmm8, %xmm12
	pxor	%xmm0, %xmm12
	psrlq	$7, %xmm12
	psrlq	$6, %xmm8
	por	%xmm12, %xmm8
	pand	%xmm1, %xmm8
	paddq	%xmm5, %xmm8
	movdqu	16(%r11), %xmm5
	punpckhqdq	%xmm6, %xmm2
	punpckhqdq	%xmm7, %xmm9
	movdqa	%xmm4, %xmm7
	punpcklqdq	%xmm10, %xmm7
	movdqa	%xmm5, %xmm6
	punpcklqdq	%xmm11, %xmm6
	punpckhqdq	%xmm10, %xmm4
	punpckhqdq	%xmm11, %xmm5
	movdqa	%xmm2, %xmm10
	pxor	%xmm0, %xmm10
	movdqa	%xmm9, %xmm11
	pxor	%xmm0, %xmm11
	psrlq	$7, %xmm10
	psrlq	$7, %xmm11
	psrlq	$6, %xmm2
	por	%xmm10, %xmm2
	psrlq	$6, %xmm9
	por	%xmm11, %xmm9
	pand	%xmm1, %xmm2
	pand	%xmm1, %xmm9
	movdqa	%xmm7, %xmm10
	pxor	%xmm0, %xmm10
	movdqa	%xmm6, %xmm11
	pxor	%xmm0, %xmm11
	psrlq	$7, %xmm10
	psrlq	$7, %xmm11
	psrlq	$6, %xmm7
	por	%xmm10, %xmm7
	psrlq	$6, %xmm6
	por	%xmm11, %xmm6
	pand	%xmm1, %xmm7
	paddq	%xmm2, %xmm7
	paddq	%xmm3, %xmm7
	pand	%xmm1, %xmm6
	paddq	%xmm9, %xmm6
	paddq	%xmm8, %xmm6
	movdqa	%xmm4, %xmm2
	pxor	%xmm0, %xmm2
	movdqa	%xmm5, %xmm3
	pxor	%xmm0, %xmm3
	psrlq	$7, %xmm2
	psrlq	$7, %xmm3
	psrlq	$6, %xmm4
	por	%xmm2, %xmm4
	psrlq	$6, %xmm5
	por	%xmm3, %xmm5
	pand	%xmm1, %xmm4
	paddq	%xmm7, %xmm4
	pand	%xmm1, %xmm5
	paddq	%xmm6, %xmm5
	subq	$-128, %r11
	addq	$-4, %r12
	jne	.LBB4_48
	paddq	%xmm4, %xmm5
	pshufd	$238, %xmm5, %xmm2
	paddq	%xmm5, %xmm2
	movq	%xmm2, %r11
	cmpq	%rdx, %rbp
	jne	.LBB4_51
	movq	%r10, %rbp
	jmp	.LBB4_54
.LBB4_51:
	addq	%r8, %r13
.LBB4_52:
	movq	%r10, %rbp
	shll	$5, %r15d
	addq	%r8, %r15
	.p2align	4, 0x90
.LBB4_53:
	movdqu	(%r13), %xmm2
	movdqu	16(%r13), %xmm3
	movdqa	%xmm2, %xmm4
	pxor	%xmm0, %xmm4
	movdqa	%xmm3, %xmm5
	pxor	%xmm0, %xmm5
	psrlq	$7, %xmm5
	psrlq	$7, %xmm4
	psrlq	$6, %xmm3
	por	%xmm5, %xmm3
	psrlq	$6, %xmm2
	por	%xmm4, %xmm2
	pand	%xmm1, %xmm3
	pand	%xmm1, %xmm2
	paddq	%xmm3, %xmm2
	pshufd	$238, %xmm2, %xmm3
	paddq	%xmm2, %xmm3
	movq	%xmm3, %rdx
	addq	%rdx, %r11
	addq	$32, %r13
	cmpq	%r15, %r13
	jne	.LBB4_53
	jmp	.LBB4_54
.LBB4_42:
	movq	(%rsp), %r8
	jmp	.LBB4_73
.LBB4_55:
	movabsq	$72340172838076673, %rax
	andl	$252, %r9d
	movl	%r9d, %ecx
	movq	(%r8,%rcx,8), %rcx
	movq	%rcx, %r10
	notq	%r10
	shrq	$7, %r10
	shrq	$6, %rcx
	orq	%r10, %rcx
	andq	%rax, %rcx
	cmpl	$1, %edx
	je	.LBB4_56
	movq	8(%r8,%r9,8), %r10
	movq	%r10, %r15
	notq	%r15
	shrq	$7, %r15
	shrq	$6, %r10
	orq	%r15, %r10
	andq	%rax, %r10
	addq	%r10, %rcx
	cmpl	$2, %edx
	je	.LBB4_56
	movq	16(%r8,%r9,8), %rdx
	movq	%rdx, %r8
	notq	%r8
	shrq	$7, %r8
	shrq	$6, %rdx
	orq	%r8, %rdx
	andq	%rax, %rdx
	addq	%rdx, %rcx
.LBB4_56:
	movq	(%rsp), %r8
	movq	%rcx, %rax
	andq	%rdi, %rax
	shrq	$8, %rcx
	andq	%rdi, %rcx
	addq	%rax, %rcx
	imulq	%rbp, %rcx
	shrq	$48, %rcx
	addq	%r11, %rcx
	jmp	.LBB4_73
.LBB4_63:
	xorl	%edx, %edx
	cmpb	$-64, (%r14,%rax)
	setge	%dl
	addq	%rdx, %rcx
	incq	%rax
.LBB4_72:
	cmpq	%rax, %rbx
	jne	.LBB4_63
.LBB4_73:
	subq	%rcx, %r8
	jbe	.LBB4_83
	movl	40(%rsi), %eax
	xorl	%ecx, %ecx
	cmpb	$3, %al
	cmovnel	%eax, %ecx
	movzbl	%cl, %r13d
	testb	%r13b, %r13b
	je	.LBB4_78
	cmpl	$1, %r13d
	jne	.LBB4_77
	movq	%r8, %r13
	movq	$0, (%rsp)
	jmp	.LBB4_79
.LBB4_83:
	movq	48(%rsi), %rdi
	movq	56(%rsi), %rax
	movq	24(%rax), %rax
	movq	%r14, %rsi
	movq	%rbx, %rdx
	addq	$8, %rsp
	.cfi_def_cfa_offset 56
	popq	%rbx
	.cfi_def_cfa_offset 48
	popq	%r12
	.cfi_def_cfa_offset 40
	popq	%r13
	.cfi_def_cfa_offset 32
	popq	%r14
	.cfi_def_cfa_offset 24
	popq	%r15
	.cfi_def_cfa_offset 16
	popq	%rbp
	.cfi_def_cfa_offset 8
	jmpq	*%rax
.LBB4_77:
	.cfi_def_cfa_offset 64
	movq	%r8, %r13
	shrq	%r13
	incq	%r8
	shrq	%r8
.LBB4_78:
	movq	%r8, (%rsp)
.LBB4_79:
	movq	48(%rsi), %r15
	movq	56(%rsi), %r12
	movl	32(%rsi), %ebp
	incq	%r13
	.p2align	4, 0x90
.LBB4_80:
	movq	%r15, %rdi
	decq	%r13
	je	.LBB4_84
	movl	%ebp, %esi
	callq	*32(%r12)
	testb	%al, %al
	je	.LBB4_80
	movb	$1, %al
	jmp	.LBB4_90
.LBB4_84:
	movq	%r14, %rsi
	movq	%rbx, %rdx
	callq	*24(%r12)
	movl	%eax, %ecx
	movb	$1, %al
	testb	%cl, %cl
	jne	.LBB4_90
	movq	(%rsp), %r14
	negq	%r14
	movq	$-1, %rbx
	.p2align	4, 0x90
.LBB4_86:
	leaq	(%r14,%rbx), %rax
	cmpq	$-1, %rax
	je	.LBB4_87
	movq	%r15, %rdi
	movl	%ebp, %esi
	callq	*32(%r12)
	incq	%rbx
	testb	%al, %al
	je	.LBB4_86
	jmp	.LBB4_89
.LBB4_87:
	movq	(%rsp), %rbx
.LBB4_89:
	cmpq	(%rsp), %rbx
	setb	%al
.LBB4_90:
	addq	$8, %rsp
	.cfi_def_cfa_offset 56
	popq	%rbx
	.cfi_def_cfa_offset 48
	popq	%r12
	.cfi_def_cfa_offset 40
	popq	%r13
	.cfi_def_cfa_offset 32
	popq	%r14
	.cfi_def_cfa_offset 24
	popq	%r15
	.cfi_def_cfa_offset 16
	popq	%rbp
	.cfi_def_cfa_offset 8
	retq
.Lfunc_end4:
	.size	_RNvXs1c_NtCs00000000000_4core3fmtReNtB6_7Display3fmtCs00000000001_10pkcs1_tool, .Lfunc_end4-_RNvXs1c_NtCs00000000000_4core3fmtReNtB6_7Display3fmtCs00000000001_10pkcs1_tool
	.cfi_endproc

	.section	.text._RNvYINtNtNtCs00000000001_10pkcs1_tool10rattle_std2io4TextINtB5_8StandardKl2_EENtNtCs00000000000_4core3fmt5Write10write_charB9_,"ax",@progbits
	.p2align	4, 0x90
	.type	_RNvYINtNtNtCs00000000001_10pkcs1_tool10rattle_std2io4TextINtB5_8StandardKl2_EENtNtCs00000000000_4core3fmt5Write10write_charB9_,@function
_RNvYINtNtNtCs00000000001_10pkcs1_tool10rattle_std2io4TextINtB5_8StandardKl2_EENtNtCs00000000000_4core3fmt5Write10write_charB9_:
	.cfi_startproc
	endbr64
	pushq	%r15
	.cfi_def_cfa_offset 16
	pushq	%r14
	.cfi_def_cfa_offset 24
	pushq	%r12
	.cfi_def_cfa_offset 32
	pushq	%rbx
	.cfi_def_cfa_offset 40
	pushq	%rax
	.cfi_def_cfa_offset 48
	.cfi_offset %rbx, -40
	.cfi_offset %r12, -32
	.cfi_offset %r14, -24
	.cfi_offset %r15, -16
	movq	%rdi, %rbx
	movl	$0, 4(%rsp)
	cmpl	$128, %esi
	jae	.LBB5_1
	movb	%sil, 4(%rsp)
	movl	$1, %r14d
	jmp	.LBB5_7
.LBB5_1:
	movl	%esi, %eax
	cmpl	$2048, %esi
	jae	.LBB5_2
	shrl	$6, %eax
	orb	$-64, %al
	movb	%al, 4(%rsp)
	andb	$63, %sil
	orb	$-128, %sil
	movb	%sil, 5(%rsp)
	movl	$2, %r14d
	jmp	.LBB5_7
.LBB5_2:
	cmpl	$65536, %esi
	jae	.LBB5_3
	shrl	$12, %eax
	orb	$-32, %al
	movb	%al, 4(%rsp)
	movl	%esi, %eax
	shrl	$6, %eax
	andb	$63, %al
	orb	$-128, %al
	movb	%al, 5(%rsp)
	andb	$63, %sil
	orb	$-128, %sil
	movb	%sil, 6(%rsp)
	movl	$3, %r14d
	jmp	.LBB5_7
.LBB5_3:
	shrl	$18, %eax
	orb	$-16, %al
	movb	%al, 4(%rsp)
	movl	%esi, %eax
	shrl	$12, %eax
	andb	$63, %al
	orb	$-128, %al
	movb	%al, 5(%rsp)
	movl	%esi, %eax
	shrl	$6, %eax
	andb	$63, %al
	orb	$-128, %al
	movb	%al, 6(%rsp)
	andb	$63, %sil
	orb	$-128, %sil
	movb	%sil, 7(%rsp)
	movl	$4, %r14d
.LBB5_7:
	leaq	4(%rsp), %r15
	movq	pkcs1_os_write@GOTPCREL(%rip), %r12
	.p2align	4, 0x90
.LBB5_8:
	movl	$2, %edi
	movq	%r15, %rsi
	movq	%r14, %rdx
	callq	*%r12
	movq	%rax, %rcx
	testq	%rax, %rax
	js	.LBB5_9
	leaq	-1(%rcx), %rax
	cmpq	%r14, %rax
	setae	%al
	jae	.LBB5_12
	addq	%rcx, %r15
	subq	%rcx, %r14
	jne	.LBB5_8
	movb	$5, %dl
	jmp	.LBB5_15
.LBB5_9:
	addq	$4, %rcx
	movb	$4, %dl
	movb	$1, %al
	cmpq	$3, %rcx
	jae	.LBB5_15
	movb	$2, %dl
	subb	%cl, %dl
	jmp	.LBB5_15
.LBB5_12:
	movb	$4, %dl
.LBB5_15:
	movb	%dl, 8(%rbx)
	addq	$8, %rsp
	.cfi_def_cfa_offset 40
	popq	%rbx
	.cfi_def_cfa_offset 32
	popq	%r12
	.cfi_def_cfa_offset 24
	popq	%r14
	.cfi_def_cfa_offset 16
	popq	%r15
	.cfi_def_cfa_offset 8
	retq
.Lfunc_end5:
	.size	_RNvYINtNtNtCs00000000001_10pkcs1_tool10rattle_std2io4TextINtB5_8StandardKl2_EENtNtCs00000000000_4core3fmt5Write10write_charB9_, .Lfunc_end5-_RNvYINtNtNtCs00000000001_10pkcs1_tool10rattle_std2io4TextINtB5_8StandardKl2_EENtNtCs00000000000_4core3fmt5Write10write_charB9_
	.cfi_endproc

	.section	.text._RNvYINtNtNtCs00000000001_10pkcs1_tool10rattle_std2io4TextINtB5_8StandardKl2_EENtNtCs00000000000_4core3fmt5Write9write_fmtB9_,"ax",@progbits
	.p2align	4, 0x90
	.type	_RNvYINtNtNtCs00000000001_10pkcs1_tool10rattle_std2io4TextINtB5_8StandardKl2_EENtNtCs00000000000_4core3fmt5Write9write_fmtB9_,@function
_RNvYINtNtNtCs00000000001_10pkcs1_tool10rattle_std2io4TextINtB5_8StandardKl2_EENtNtCs00000000000_4core3fmt5Write9write_fmtB9_:
	.cfi_startproc
	endbr64
	movq	%rsi, %rdx
	leaq	.Lanon.0(%rip), %rsi
	jmp	_ZN4core3fmt5write17h0000000000000000E
.Lfunc_end6:
	.size	_RNvYINtNtNtCs00000000001_10pkcs1_tool10rattle_std2io4TextINtB5_8StandardKl2_EENtNtCs00000000000_4core3fmt5Write9write_fmtB9_, .Lfunc_end6-_RNvYINtNtNtCs00000000001_10pkcs1_tool10rattle_std2io4TextINtB5_8StandardKl2_EENtNtCs00000000000_4core3fmt5Write9write_fmtB9_
	.cfi_endproc

	.section	.text._RNvYNtNtNtCs00000000001_10pkcs1_tool10rattle_std4text6StringNtNtCs00000000000_4core3fmt5Write10write_charB8_,"ax",@progbits
	.p2align	4, 0x90
	.type	_RNvYNtNtNtCs00000000001_10pkcs1_tool10rattle_std4text6StringNtNtCs00000000000_4core3fmt5Write10write_charB8_,@function
_RNvYNtNtNtCs00000000001_10pkcs1_tool10rattle_std4text6StringNtNtCs00000000000_4core3fmt5Write10write_charB8_:
	.cfi_startproc
	endbr64
	pushq	%rbp
	.cfi_def_cfa_offset 16
	pushq	%r15
	.cfi_def_cfa_offset 24
	pushq	%r14
	.cfi_def_cfa_offset 32
	pushq	%r12
	.cfi_def_cfa_offset 40
	pushq	%rbx
	.cfi_def_cfa_offset 48
	subq	$64, %rsp
	.cfi_def_cfa_offset 112
	.cfi_offset %rbx, -48
	.cfi_offset %r12, -40
	.cfi_offset %r14, -32
	.cfi_offset %r15, -24
	.cfi_offset %rbp, -16
	movl	$0, 12(%rsp)
	cmpl	$128, %esi
	jae	.LBB7_1
	movb	%sil, 12(%rsp)
	movl	$1, %ebx
	jmp	.LBB7_7
.LBB7_1:
	movl	%esi, %eax
	cmpl	$2048, %esi
	jae	.LBB7_2
	shrl	$6, %eax
	orb	$-64, %al
	movb	%al, 12(%rsp)
	andb	$63, %sil
	orb	$-128, %sil
	movb	%sil, 13(%rsp)
	movl	$2, %ebx
	jmp	.LBB7_7
.LBB7_2:
	cmpl	$65536, %esi
	jae	.LBB7_3
	shrl	$12, %eax
	orb	$-32, %al
	movb	%al, 12(%rsp)
	movl	%esi, %eax
	shrl	$6, %eax
	andb	$63, %al
	orb	$-128, %al
	movb	%al, 13(%rsp)
	andb	$63, %sil
	orb	$-128, %sil
	movb	%sil, 14(%rsp)
	movl	$3, %ebx
	jmp	.LBB7_7
.LBB7_3:
	shrl	$18, %eax
	orb	$-16, %al
	movb	%al, 12(%rsp)
	movl	%esi, %eax
	shrl	$12, %eax
	andb	$63, %al
	orb	$-128, %al
	movb	%al, 13(%rsp)
	movl	%esi, %eax
	shrl	$6, %eax
	andb	$63, %al
	orb	$-128, %al
	movb	%al, 14(%rsp)
	andb	$63, %sil
	orb	$-128, %sil
	movb	%sil, 15(%rsp)
	movl	$4, %ebx
.LBB7_7:
	movq	(%rdi), %rax
	movq	16(%rdi), %r15
	movq	%rax, %rcx
	subq	%r15, %rcx
	cmpq	%rbx, %rcx
	jae	.LBB7_15
	movq	%r15, %rcx
	movb	$1, %bpl
	addq	%rbx, %rcx
	jb	.LBB7_16
	leaq	(%rax,%rax), %rdx
	cmpq	%rcx, %rdx
	cmovaq	%rdx, %rcx
	cmpq	$9, %rcx
	movl	$8, %r14d
	cmovaeq	%rcx, %r14
	testq	%r14, %r14
	js	.LBB7_16
	testq	%rax, %rax
	jne	.LBB7_12
	movq	%rdi, %r12
	xorl	%eax, %eax
	jmp	.LBB7_13
.LBB7_12:
	movq	%rdi, %r12
	movq	8(%rdi), %rcx
	movq	%rcx, 16(%rsp)
	movq	%rax, 32(%rsp)
	movl	$1, %eax
.LBB7_13:
	movq	%rax, 24(%rsp)
	leaq	40(%rsp), %rdi
	leaq	16(%rsp), %rdx
	movq	%r14, %rsi
	callq	_ZN5alloc7raw_vec11finish_grow17h0000000000000001E.llvm.1
	cmpl	$1, 40(%rsp)
	je	.LBB7_16
	movq	48(%rsp), %rax
	movq	%r12, %rdi
	movq	%rax, 8(%r12)
	movq	%r14, (%r12)
.LBB7_15:
	movq	8(%rdi), %rax
	addq	%r15, %rax
	leaq	12(%rsp), %rsi
	movq	%rdi, %r14
	movq	%rax, %rdi
	movq	%rbx, %rdx
	callq	memcpy
	addq	%rbx, %r15
	movq	%r15, 16(%r14)
	xorl	%ebp, %ebp
.LBB7_16:
	movl	%ebp, %eax
	addq	$64, %rsp
	.cfi_def_cfa_offset 48
	popq	%rbx
	.cfi_def_cfa_offset 40
	popq	%r12
	.cfi_def_cfa_offset 32
	popq	%r14
	.cfi_def_cfa_offset 24
	popq	%r15
	.cfi_def_cfa_offset 16
	popq	%rbp
	.cfi_def_cfa_offset 8
	retq
.Lfunc_end7:
	.size	_RNvYNtNtNtCs00000000001_10pkcs1_tool10rattle_std4text6StringNtNtCs00000000000_4core3fmt5Write10write_charB8_, .Lfunc_end7-_RNvYNtNtNtCs00000000001_10pkcs1_tool10rattle_std4text6StringNtNtCs00000000000_4core3fmt5Write10write_charB8_
	.cfi_endproc

	.section	.text._RNvYNtNtNtCs00000000001_10pkcs1_tool10rattle_std4text6StringNtNtCs00000000000_4core3fmt5Write9write_fmtB8_,"ax",@progbits
	.p2align	4, 0x90
	.type	_RNvYNtNtNtCs00000000001_10pkcs1_tool10rattle_std4text6StringNtNtCs00000000000_4core3fmt5Write9write_fmtB8_,@function
_RNvYNtNtNtCs00000000001_10pkcs1_tool10rattle_std4text6StringNtNtCs00000000000_4core3fmt5Write9write_fmtB8_:
	.cfi_startproc
	endbr64
	movq	%rsi, %rdx
	leaq	.Lanon.1(%rip), %rsi
	jmp	_ZN4core3fmt5write17h0000000000000000E
.Lfunc_end8:
	.size	_RNvYNtNtNtCs00000000001_10pkcs1_tool10rattle_std4text6StringNtNtCs00000000000_4core3fmt5Write9write_fmtB8_, .Lfunc_end8-_RNvYNtNtNtCs00000000001_10pkcs1_tool10rattle_std4text6StringNtNtCs00000000000_4core3fmt5Write9write_fmtB8_
	.cfi_endproc

	.section	.text._RNvXs0_NtNtCs00000000001_10pkcs1_tool10rattle_std2ioINtB5_4TextINtB5_8StandardKl2_EENtNtCs00000000000_4core3fmt5Write9write_strB9_,"ax",@progbits
	.p2align	4, 0x90
	.type	_RNvXs0_NtNtCs00000000001_10pkcs1_tool10rattle_std2ioINtB5_4TextINtB5_8StandardKl2_EENtNtCs00000000000_4core3fmt5Write9write_strB9_,@function
_RNvXs0_NtNtCs00000000001_10pkcs1_tool10rattle_std2ioINtB5_4TextINtB5_8StandardKl2_EENtNtCs00000000000_4core3fmt5Write9write_strB9_:
	.cfi_startproc
	endbr64
	pushq	%rbp
	.cfi_def_cfa_offset 16
	pushq	%r15
	.cfi_def_cfa_offset 24
	pushq	%r14
	.cfi_def_cfa_offset 32
	pushq	%r12
	.cfi_def_cfa_offset 40
	pushq	%rbx
	.cfi_def_cfa_offset 48
	.cfi_offset %rbx, -48
	.cfi_offset %r12, -40
	.cfi_offset %r14, -32
	.cfi_offset %r15, -24
	.cfi_offset %rbp, -16
	movq	%rdi, %rbx
	movb	$5, %bpl
	testq	%rdx, %rdx
	je	.LBB9_1
	movq	%rdx, %r14
	movq	%rsi, %r15
	movq	pkcs1_os_write@GOTPCREL(%rip), %r12
	.p2align	4, 0x90
.LBB9_3:
	movl	$2, %edi
	movq	%r15, %rsi
	movq	%r14, %rdx
	callq	*%r12
	movq	%rax, %rcx
	testq	%rax, %rax
	js	.LBB9_4
	leaq	-1(%rcx), %rax
	cmpq	%r14, %rax
	setae	%al
	jae	.LBB9_7
	addq	%rcx, %r15
	subq	%rcx, %r14
	jne	.LBB9_3
	jmp	.LBB9_9
.LBB9_1:
	xorl	%eax, %eax
	jmp	.LBB9_9
.LBB9_4:
	addq	$4, %rcx
	movb	$4, %bpl
	movb	$1, %al
	cmpq	$3, %rcx
	jae	.LBB9_9
	movb	$2, %bpl
	subb	%cl, %bpl
	jmp	.LBB9_9
.LBB9_7:
	movb	$4, %bpl
.LBB9_9:
	movb	%bpl, 8(%rbx)
	popq	%rbx
	.cfi_def_cfa_offset 40
	popq	%r12
	.cfi_def_cfa_offset 32
	popq	%r14
	.cfi_def_cfa_offset 24
	popq	%r15
	.cfi_def_cfa_offset 16
	popq	%rbp
	.cfi_def_cfa_offset 8
	retq
.Lfunc_end9:
	.size	_RNvXs0_NtNtCs00000000001_10pkcs1_tool10rattle_std2ioINtB5_4TextINtB5_8StandardKl2_EENtNtCs00000000000_4core3fmt5Write9write_strB9_, .Lfunc_end9-_RNvXs0_NtNtCs00000000001_10pkcs1_tool10rattle_std2ioINtB5_4TextINtB5_8StandardKl2_EENtNtCs00000000000_4core3fmt5Write9write_strB9_
	.cfi_endproc

	.section	.text._RNvNtNtCs00000000001_10pkcs1_tool10rattle_std6system4look,"ax",@progbits
	.p2align	4, 0x90
	.type	_RNvNtNtCs00000000001_10pkcs1_tool10rattle_std6system4look,@function
_RNvNtNtCs00000000001_10pkcs1_tool10rattle_std6system4look:
	.cfi_startproc
	endbr64
	pushq	%rbp
	.cfi_def_cfa_offset 16
	pushq	%r15
	.cfi_def_cfa_offset 24
	pushq	%r14
	.cfi_def_cfa_offset 32
	pushq	%r12
	.cfi_def_cfa_offset 40
	pushq	%rbx
	.cfi_def_cfa_offset 48
	subq	$4096, %rsp
	.cfi_adjust_cfa_offset 4096
	movq	$0, (%rsp)
	subq	$4096, %rsp
	.cfi_adjust_cfa_offset 4096
	movq	$0, (%rsp)
	subq	$32, %rsp
	.cfi_def_cfa_offset 8272
	.cfi_offset %rbx, -48
	.cfi_offset %r12, -40
	.cfi_offset %r14, -32
	.cfi_offset %r15, -24
	.cfi_offset %rbp, -16
	movl	%ecx, %ebp
	movq	%rdx, %r14
	movq	%rsi, %r15
	movq	%rdi, %rbx
	leaq	32(%rsp), %r12
	movl	$4096, %edx
	movq	%r12, %rdi
	xorl	%esi, %esi
	callq	memset
	cmpq	$4096, %r14
	ja	.LBB10_22
	movq	%r12, %rdi
	movq	%r15, %rsi
	movq	%r14, %rdx
	callq	memcpy
	leaq	39(%rsp), %rax
	andq	$-8, %rax
	subq	%r12, %rax
	jne	.LBB10_13
	xorl	%eax, %eax
	jmp	.LBB10_3
.LBB10_13:
	xorl	%ecx, %ecx
	.p2align	4, 0x90
.LBB10_14:
	cmpb	$0, 32(%rsp,%rcx)
	je	.LBB10_15
	incq	%rcx
	cmpq	%rcx, %rax
	jne	.LBB10_14
.LBB10_3:
	movabsq	$-9187201950435737472, %rcx
	movabsq	$72340172838076672, %rdx
	.p2align	4, 0x90
.LBB10_4:
	movq	32(%rsp,%rax), %rsi
	movq	40(%rsp,%rax), %rdi
	movq	%rdx, %r8
	subq	%rsi, %r8
	orq	%rsi, %r8
	movq	%rdx, %rsi
	subq	%rdi, %rsi
	orq	%rdi, %rsi
	andq	%rcx, %r8
	andq	%rsi, %r8
	cmpq	%rcx, %r8
	jne	.LBB10_5
	leaq	16(%rax), %r8
	cmpq	$4064, %rax
	movq	%r8, %rax
	jbe	.LBB10_4
	movq	%r8, %rsi
	subq	$4096, %rsi
	jne	.LBB10_8
	xorl	%edx, %edx
	testq	%rdx, %rdx
	cmoveq	%rdx, %r12
	jne	.LBB10_20
	jmp	.LBB10_22
.LBB10_5:
	leaq	(%rsp,%rax), %rdi
	addq	$32, %rdi
	movl	$4096, %esi
	subq	%rax, %rsi
	jmp	.LBB10_9
.LBB10_15:
	movl	$1, %edx
	testq	%rdx, %rdx
	cmoveq	%rdx, %r12
	jne	.LBB10_20
	jmp	.LBB10_22
.LBB10_8:
	negq	%rsi
	leaq	(%rsp,%r8), %rdi
	addq	$32, %rdi
	movq	%r8, %rax
.LBB10_9:
	xorl	%edx, %edx
	xorl	%ecx, %ecx
	.p2align	4, 0x90
.LBB10_10:
	cmpb	$0, (%rdi,%rcx)
	je	.LBB10_12
	incq	%rcx
	cmpq	%rcx, %rsi
	jne	.LBB10_10
	testq	%rdx, %rdx
	cmoveq	%rdx, %r12
	jne	.LBB10_20
	jmp	.LBB10_22
.LBB10_12:
	addq	%rax, %rcx
	movl	$1, %edx
	testq	%rdx, %rdx
	cmoveq	%rdx, %r12
	je	.LBB10_22
.LBB10_20:
	cmpq	%r14, %rcx
	jne	.LBB10_22
	movq	%r12, %rdi
	movq	%r15, %rsi
	movq	%r14, %rdx
	callq	memcmp
	testl	%eax, %eax
	je	.LBB10_23
.LBB10_22:
	movw	$1027, (%rbx)
.LBB10_26:
	addq	$8224, %rsp
	.cfi_def_cfa_offset 48
	popq	%rbx
	.cfi_def_cfa_offset 40
	popq	%r12
	.cfi_def_cfa_offset 32
	popq	%r14
	.cfi_def_cfa_offset 24
	popq	%r15
	.cfi_def_cfa_offset 16
	popq	%rbp
	.cfi_def_cfa_offset 8
	retq
.LBB10_23:
	.cfi_def_cfa_offset 8272
	movzbl	32(%rsp), %r14d
	leaq	33(%rsp), %rsi
	leaq	4129(%rsp), %rdi
	movl	$4095, %edx
	callq	memcpy
	movb	%r14b, 4128(%rsp)
	xorps	%xmm0, %xmm0
	movups	%xmm0, 12(%rsp)
	movaps	%xmm0, (%rsp)
	movzbl	%bpl, %esi
	leaq	4128(%rsp), %rdi
	movq	%rsp, %rdx
	callq	pkcs1_os_look
	testq	%rax, %rax
	js	.LBB10_24
	cmpq	$1, %rax
	sete	%cl
	movb	$2, %dl
	subb	%cl, %dl
	xorl	%ecx, %ecx
	testq	%rax, %rax
	movzbl	%dl, %eax
	cmovel	%ecx, %eax
	movaps	(%rsp), %xmm0
	movaps	16(%rsp), %xmm1
	movups	%xmm1, 55(%rsp)
	movups	%xmm0, 39(%rsp)
	movb	%al, (%rbx)
	movups	32(%rsp), %xmm0
	movups	48(%rsp), %xmm1
	movups	%xmm0, 1(%rbx)
	movups	%xmm1, 17(%rbx)
	movq	63(%rsp), %rax
	movq	%rax, 32(%rbx)
	jmp	.LBB10_26
.LBB10_24:
	addq	$4, %rax
	movb	$2, %cl
	subb	%al, %cl
	cmpq	$3, %rax
	movzbl	%cl, %eax
	movl	$4, %ecx
	cmovbl	%eax, %ecx
	movb	%cl, 1(%rbx)
	movb	$3, (%rbx)
	jmp	.LBB10_26
.Lfunc_end10:
	.size	_RNvNtNtCs00000000001_10pkcs1_tool10rattle_std6system4look, .Lfunc_end10-_RNvNtNtCs00000000001_10pkcs1_tool10rattle_std6system4look
	.cfi_endproc

	.section	.text._RNvXs0_NtNtCs00000000001_10pkcs1_tool10rattle_std4textNtB5_6StringNtNtCs00000000000_4core3fmt5Write9write_str,"ax",@progbits
	.p2align	4, 0x90
	.type	_RNvXs0_NtNtCs00000000001_10pkcs1_tool10rattle_std4textNtB5_6StringNtNtCs00000000000_4core3fmt5Write9write_str,@function
_RNvXs0_NtNtCs00000000001_10pkcs1_tool10rattle_std4textNtB5_6StringNtNtCs00000000000_4core3fmt5Write9write_str:
	.cfi_startproc
	endbr64
	pushq	%rbp
	.cfi_def_cfa_offset 16
	pushq	%r15
	.cfi_def_cfa_offset 24
	pushq	%r14
	.cfi_def_cfa_offset 32
	pushq	%r13
	.cfi_def_cfa_offset 40
	pushq	%r12
	.cfi_def_cfa_offset 48
	pushq	%rbx
	.cfi_def_cfa_offset 56
	subq	$56, %rsp
	.cfi_def_cfa_offset 112
	.cfi_offset %rbx, -56
	.cfi_offset %r12, -48
	.cfi_offset %r13, -40
	.cfi_offset %r14, -32
	.cfi_offset %r15, -24
	.cfi_offset %rbp, -16
	movq	(%rdi), %rax
	movq	16(%rdi), %r15
	movq	%rax, %rcx
	subq	%r15, %rcx
	cmpq	%rdx, %rcx
	jae	.LBB11_8
	movq	%r15, %rcx
	movb	$1, %bl
	addq	%rdx, %rcx
	jb	.LBB11_9
	leaq	(%rax,%rax), %r8
	cmpq	%rcx, %r8
	cmovaq	%r8, %rcx
	cmpq	$9, %rcx
	movl	$8, %r14d
	cmovaeq	%rcx, %r14
	testq	%r14, %r14
	js	.LBB11_9
	movq	%rsi, %r12
	testq	%rax, %rax
	jne	.LBB11_5
	movq	%rdi, %rbp
	movq	%rdx, %r13
	xorl	%eax, %eax
	jmp	.LBB11_6
.LBB11_5:
	movq	%rdx, %r13
	movq	%rdi, %rbp
	movq	8(%rdi), %rcx
	movq	%rcx, 8(%rsp)
	movq	%rax, 24(%rsp)
	movl	$1, %eax
.LBB11_6:
	movq	%rax, 16(%rsp)
	leaq	32(%rsp), %rdi
	leaq	8(%rsp), %rdx
	movq	%r14, %rsi
	callq	_ZN5alloc7raw_vec11finish_grow17h0000000000000001E.llvm.1
	cmpl	$1, 32(%rsp)
	je	.LBB11_9
	movq	40(%rsp), %rax
	movq	%rbp, %rdi
	movq	%rax, 8(%rbp)
	movq	%r14, (%rbp)
	movq	%r13, %rdx
	movq	%r12, %rsi
.LBB11_8:
	movq	8(%rdi), %rax
	addq	%r15, %rax
	movq	%rdi, %r14
	movq	%rax, %rdi
	movq	%rdx, %rbx
	callq	memcpy
	addq	%rbx, %r15
	movq	%r15, 16(%r14)
	xorl	%ebx, %ebx
.LBB11_9:
	movl	%ebx, %eax
	addq	$56, %rsp
	.cfi_def_cfa_offset 56
	popq	%rbx
	.cfi_def_cfa_offset 48
	popq	%r12
	.cfi_def_cfa_offset 40
	popq	%r13
	.cfi_def_cfa_offset 32
	popq	%r14
	.cfi_def_cfa_offset 24
	popq	%r15
	.cfi_def_cfa_offset 16
	popq	%rbp
	.cfi_def_cfa_offset 8
	retq
.Lfunc_end11:
	.size	_RNvXs0_NtNtCs00000000001_10pkcs1_tool10rattle_std4textNtB5_6StringNtNtCs00000000000_4core3fmt5Write9write_str, .Lfunc_end11-_RNvXs0_NtNtCs00000000001_10pkcs1_tool10rattle_std4textNtB5_6StringNtNtCs00000000000_4core3fmt5Write9write_str
	.cfi_endproc

	.section	.text._RNvMs_NtNtCs00000000001_10pkcs1_tool10rattle_std3vecINtNtNtB6_7library3vec3VechE6resizeB8_,"ax",@progbits
	.p2align	4, 0x90
	.type	_RNvMs_NtNtCs00000000001_10pkcs1_tool10rattle_std3vecINtNtNtB6_7library3vec3VechE6resizeB8_,@function
_RNvMs_NtNtCs00000000001_10pkcs1_tool10rattle_std3vecINtNtNtB6_7library3vec3VechE6resizeB8_:
	.cfi_startproc
	endbr64
	pushq	%rbp
	.cfi_def_cfa_offset 16
	pushq	%r15
	.cfi_def_cfa_offset 24
	pushq	%r14
	.cfi_def_cfa_offset 32
	pushq	%r12
	.cfi_def_cfa_offset 40
	pushq	%rbx
	.cfi_def_cfa_offset 48
	subq	$48, %rsp
	.cfi_def_cfa_offset 96
	.cfi_offset %rbx, -48
	.cfi_offset %r12, -40
	.cfi_offset %r14, -32
	.cfi_offset %r15, -24
	.cfi_offset %rbp, -16
	movq	16(%rdi), %rbx
	xorl	%ecx, %ecx
	movq	%rsi, %rax
	subq	%rbx, %rax
	cmovaeq	%rax, %rcx
	movq	(%rdi), %rax
	movq	%rax, %rdx
	subq	%rbx, %rdx
	cmpq	%rcx, %rdx
	jae	.LBB12_1
	movb	$1, %bpl
	addq	%rbx, %rcx
	jb	.LBB12_16
	leaq	(%rax,%rax), %rdx
	cmpq	%rcx, %rdx
	cmovaq	%rdx, %rcx
	cmpq	$9, %rcx
	movl	$8, %r14d
	cmovaeq	%rcx, %r14
	testq	%r14, %r14
	js	.LBB12_16
	movq	%rsi, %r15
	testq	%rax, %rax
	jne	.LBB12_6
	movq	%rdi, %r12
	xorl	%eax, %eax
	jmp	.LBB12_7
.LBB12_1:
	movq	%rax, %r14
	movq	%rsi, %r15
	subq	%rbx, %r15
	jbe	.LBB12_15
.LBB12_10:
	subq	%rbx, %r14
	cmpq	%r15, %r14
	jb	.LBB12_11
	movq	8(%rdi), %r14
	leaq	(%r14,%rbx), %rax
	cmpq	$2, %r15
	jb	.LBB12_14
.LBB12_13:
	leaq	-1(%r15), %rdx
	movq	%rdi, %r12
	movq	%rax, %rdi
	xorl	%esi, %esi
	callq	memset
	movq	%r12, %rdi
	addq	%r15, %rbx
	decq	%rbx
	addq	%rbx, %r14
	movq	%r14, %rax
.LBB12_14:
	movb	$0, (%rax)
	incq	%rbx
	movq	%rbx, %rsi
.LBB12_15:
	movq	%rsi, 16(%rdi)
	xorl	%ebp, %ebp
.LBB12_16:
	movl	%ebp, %eax
	addq	$48, %rsp
	.cfi_def_cfa_offset 48
	popq	%rbx
	.cfi_def_cfa_offset 40
	popq	%r12
	.cfi_def_cfa_offset 32
	popq	%r14
	.cfi_def_cfa_offset 24
	popq	%r15
	.cfi_def_cfa_offset 16
	popq	%rbp
	.cfi_def_cfa_offset 8
	retq
.LBB12_6:
	.cfi_def_cfa_offset 96
	movq	%rdi, %r12
	movq	8(%rdi), %rcx
	movq	%rcx, (%rsp)
	movq	%rax, 16(%rsp)
	movl	$1, %eax
.LBB12_7:
	movq	%rax, 8(%rsp)
	leaq	24(%rsp), %rdi
	movq	%rsp, %rcx
	movl	$1, %esi
	movq	%r14, %rdx
	callq	_RINvNtCs00000000002_5alloc7raw_vec11finish_growNtNtB4_5alloc6GlobalECs00000000001_10pkcs1_tool
	cmpl	$1, 24(%rsp)
	je	.LBB12_16
	movq	32(%rsp), %rax
	movq	%r12, %rdi
	movq	%rax, 8(%r12)
	movq	%r14, (%r12)
	movq	%r15, %rsi
	movq	%rsi, %r15
	subq	%rbx, %r15
	ja	.LBB12_10
	jmp	.LBB12_15
.LBB12_11:
	movq	%rdi, %r14
	movq	%rbx, %rsi
	movq	%r15, %rdx
	callq	_RINvNvMs3_NtCs00000000002_5alloc7raw_vecINtB8_11RawVecInnerpE7reserve21do_reserve_and_handleNtNtBa_5alloc6GlobalECs00000000001_10pkcs1_tool
	movq	%r14, %rdi
	movq	16(%r14), %rbx
	movq	8(%rdi), %r14
	leaq	(%r14,%rbx), %rax
	cmpq	$2, %r15
	jae	.LBB12_13
	jmp	.LBB12_14
.Lfunc_end12:
	.size	_RNvMs_NtNtCs00000000001_10pkcs1_tool10rattle_std3vecINtNtNtB6_7library3vec3VechE6resizeB8_, .Lfunc_end12-_RNvMs_NtNtCs00000000001_10pkcs1_tool10rattle_std3vecINtNtNtB6_7library3vec3VechE6resizeB8_
	.cfi_endproc

	.section	.text.pkcs1_tool_main,"ax",@progbits
	.globl	pkcs1_tool_main
	.p2align	4, 0x90
	.type	pkcs1_tool_main,@function
pkcs1_tool_main:
	.cfi_startproc
	endbr64
	pushq	%rax
	.cfi_def_cfa_offset 16
	xorl	%eax, %eax
	testl	%edi, %edi
	cmovlel	%eax, %edi
	callq	_RNvNtNtCs00000000001_10pkcs1_tool4tool10pkcs1_tool4main
	movzbl	%al, %eax
	popq	%rcx
	.cfi_def_cfa_offset 8
	retq
.Lfunc_end13:
	.size	pkcs1_tool_main, .Lfunc_end13-pkcs1_tool_main
	.cfi_endproc

	.section	.text._RNvXNtNtNtCs00000000001_10pkcs1_tool6proved8der_core5errorNtB2_9ErrorKindNtNtCs00000000000_4core3fmt7Display3fmt,"ax",@progbits
	.p2align	4, 0x90
	.type	_RNvXNtNtNtCs00000000001_10pkcs1_tool6proved8der_core5errorNtB2_9ErrorKindNtNtCs00000000000_4core3fmt7Display3fmt,@function
_RNvXNtNtNtCs00000000001_10pkcs1_tool6proved8der_core5errorNtB2_9ErrorKindNtNtCs00000000000_4core3fmt7Display3fmt:
	.cfi_startproc
	endbr64
	subq	$88, %rsp
	.cfi_def_cfa_offset 96
	movzbl	(%rdi), %eax
	movl	$22, %edx
	leaq	.LJTI14_0(%rip), %rcx
	movslq	(%rcx,%rax,4), %rax
	addq	%rcx, %rax
	notrack	jmpq	*%rax
.LBB14_1:
	leaq	.Lanon.2(%rip), %rax
	jmp	.LBB14_21
.LBB14_2:
	leaq	.Lanon.3(%rip), %rax
	movl	$19, %edx
	jmp	.LBB14_21
.LBB14_3:
	leaq	.Lanon.4(%rip), %rax
	movl	$21, %edx
	jmp	.LBB14_21
.LBB14_4:
	movzbl	1(%rdi), %eax
	movb	%al, 6(%rsp)
	leaq	6(%rsp), %rax
	movq	%rax, 56(%rsp)
	leaq	_RNvXs1_NtNtNtCs00000000001_10pkcs1_tool6proved8der_core3tagNtB5_12PrintedOctetNtNtCs00000000000_4core3fmt7Display3fmt(%rip), %rax
	movq	%rax, 64(%rsp)
	leaq	.Lanon.5(%rip), %rax
	jmp	.LBB14_15
.LBB14_5:
	movzbl	1(%rdi), %eax
	movb	%al, 6(%rsp)
	leaq	6(%rsp), %rax
	movq	%rax, 56(%rsp)
	leaq	_RNvXs0_NtNtNtCs00000000001_10pkcs1_tool6proved8der_core3tagNtB5_3TagNtNtCs00000000000_4core3fmt7Display3fmt(%rip), %rax
	movq	%rax, 64(%rsp)
	leaq	.Lanon.6(%rip), %rax
	jmp	.LBB14_15
.LBB14_6:
	leaq	.Lanon.7(%rip), %rax
	jmp	.LBB14_21
.LBB14_7:
	leaq	.Lanon.8(%rip), %rax
	movl	$36, %edx
	jmp	.LBB14_21
.LBB14_8:
	leaq	.Lanon.9(%rip), %rax
	movl	$24, %edx
	jmp	.LBB14_21
.LBB14_9:
	leaq	.Lanon.10(%rip), %rax
	movl	$24, %edx
	jmp	.LBB14_21
.LBB14_10:
	movzbl	1(%rdi), %eax
	movb	%al, 6(%rsp)
	leaq	6(%rsp), %rax
	movq	%rax, 56(%rsp)
	leaq	_RNvXs0_NtNtNtCs00000000001_10pkcs1_tool6proved8der_core3tagNtB5_3TagNtNtCs00000000000_4core3fmt7Display3fmt(%rip), %rax
	movq	%rax, 64(%rsp)
	leaq	.Lanon.11(%rip), %rax
	jmp	.LBB14_15
.LBB14_11:
	leaq	.Lanon.12(%rip), %rax
	movl	$25, %edx
	jmp	.LBB14_21
.LBB14_12:
	leaq	.Lanon.13(%rip), %rax
	movl	$24, %edx
	jmp	.LBB14_21
.LBB14_13:
	leaq	.Lanon.14(%rip), %rax
	jmp	.LBB14_20
.LBB14_14:
	movzbl	1(%rdi), %eax
	movb	%al, 6(%rsp)
	leaq	6(%rsp), %rax
	movq	%rax, 56(%rsp)
	leaq	_RNvXs0_NtNtNtCs00000000001_10pkcs1_tool6proved8der_core3tagNtB5_3TagNtNtCs00000000000_4core3fmt7Display3fmt(%rip), %rax
	movq	%rax, 64(%rsp)
	leaq	.Lanon.15(%rip), %rax
.LBB14_15:
	movq	%rax, 8(%rsp)
	movq	$2, 16(%rsp)
	movq	$0, 40(%rsp)
	leaq	56(%rsp), %rax
	movq	%rax, 24(%rsp)
	movq	$1, 32(%rsp)
.LBB14_16:
	movq	48(%rsi), %rdi
	movq	56(%rsi), %rsi
	leaq	8(%rsp), %rdx
	callq	_ZN4core3fmt5write17h0000000000000000E
	addq	$88, %rsp
	.cfi_def_cfa_offset 8
	retq
.LBB14_17:
	.cfi_def_cfa_offset 96
	leaq	.Lanon.16(%rip), %rax
	movl	$36, %edx
	jmp	.LBB14_21
.LBB14_18:
	movzbl	1(%rdi), %eax
	movb	%al, 7(%rsp)
	movzbl	2(%rdi), %eax
	movb	%al, 6(%rsp)
	leaq	7(%rsp), %rax
	movq	%rax, 56(%rsp)
	leaq	_RNvXs0_NtNtNtCs00000000001_10pkcs1_tool6proved8der_core3tagNtB5_3TagNtNtCs00000000000_4core3fmt7Display3fmt(%rip), %rax
	movq	%rax, 64(%rsp)
	leaq	6(%rsp), %rcx
	movq	%rcx, 72(%rsp)
	movq	%rax, 80(%rsp)
	leaq	.Lanon.17(%rip), %rax
	movq	%rax, 8(%rsp)
	movq	$3, 16(%rsp)
	movq	$0, 40(%rsp)
	leaq	56(%rsp), %rax
	movq	%rax, 24(%rsp)
	movq	$2, 32(%rsp)
	jmp	.LBB14_16
.LBB14_19:
	leaq	.Lanon.18(%rip), %rax
.LBB14_20:
	movl	$34, %edx
.LBB14_21:
	movq	48(%rsi), %rdi
	movq	56(%rsi), %rcx
	movq	24(%rcx), %rcx
	movq	%rax, %rsi
	addq	$88, %rsp
	.cfi_def_cfa_offset 8
	jmpq	*%rcx
.Lfunc_end14:
	.size	_RNvXNtNtNtCs00000000001_10pkcs1_tool6proved8der_core5errorNtB2_9ErrorKindNtNtCs00000000000_4core3fmt7Display3fmt, .Lfunc_end14-_RNvXNtNtNtCs00000000001_10pkcs1_tool6proved8der_core5errorNtB2_9ErrorKindNtNtCs00000000000_4core3fmt7Display3fmt
	.cfi_endproc
	.section	.rodata._RNvXNtNtNtCs00000000001_10pkcs1_tool6proved8der_core5errorNtB2_9ErrorKindNtNtCs00000000000_4core3fmt7Display3fmt,"a",@progbits
	.p2align	2, 0x0
.LJTI14_0:
	.long	.LBB14_1-.LJTI14_0
	.long	.LBB14_12-.LJTI14_0
	.long	.LBB14_8-.LJTI14_0
	.long	.LBB14_10-.LJTI14_0
	.long	.LBB14_5-.LJTI14_0
	.long	.LBB14_13-.LJTI14_0
	.long	.LBB14_17-.LJTI14_0
	.long	.LBB14_11-.LJTI14_0
	.long	.LBB14_19-.LJTI14_0
	.long	.LBB14_7-.LJTI14_0
	.long	.LBB14_18-.LJTI14_0
	.long	.LBB14_4-.LJTI14_0
	.long	.LBB14_6-.LJTI14_0
	.long	.LBB14_14-.LJTI14_0
	.long	.LBB14_3-.LJTI14_0
	.long	.LBB14_9-.LJTI14_0
	.long	.LBB14_2-.LJTI14_0

	.section	.text._RNvXs2_NtNtNtCs00000000001_10pkcs1_tool6proved8der_core5errorNtB5_5ErrorNtNtCs00000000000_4core3fmt7Display3fmt,"ax",@progbits
	.p2align	4, 0x90
	.type	_RNvXs2_NtNtNtCs00000000001_10pkcs1_tool6proved8der_core5errorNtB5_5ErrorNtNtCs00000000000_4core3fmt7Display3fmt,@function
_RNvXs2_NtNtNtCs00000000001_10pkcs1_tool6proved8der_core5errorNtB5_5ErrorNtNtCs00000000000_4core3fmt7Display3fmt:
	.cfi_startproc
	endbr64
	subq	$72, %rsp
	.cfi_def_cfa_offset 80
	movq	%rdi, 8(%rsp)
	leaq	_RNvXNtNtNtCs00000000001_10pkcs1_tool6proved8der_core5errorNtB2_9ErrorKindNtNtCs00000000000_4core3fmt7Display3fmt(%rip), %rax
	movq	%rax, 16(%rsp)
	leaq	.Lanon.19(%rip), %rax
	movq	%rax, 24(%rsp)
	movq	$1, 32(%rsp)
	movq	$0, 56(%rsp)
	leaq	8(%rsp), %rax
	movq	%rax, 40(%rsp)
	movq	$1, 48(%rsp)
	movq	48(%rsi), %rdi
	movq	56(%rsi), %rsi
	leaq	24(%rsp), %rdx
	callq	_ZN4core3fmt5write17h0000000000000000E
	addq	$72, %rsp
	.cfi_def_cfa_offset 8
	retq
.Lfunc_end15:
	.size	_RNvXs2_NtNtNtCs00000000001_10pkcs1_tool6proved8der_core5errorNtB5_5ErrorNtNtCs00000000000_4core3fmt7Display3fmt, .Lfunc_end15-_RNvXs2_NtNtNtCs00000000001_10pkcs1_tool6proved8der_core5errorNtB5_5ErrorNtNtCs00000000000_4core3fmt7Display3fmt
	.cfi_endproc

	.section	.text._RNvXNtNtNtCs00000000001_10pkcs1_tool6proved8der_core11file_systemRNtNtB8_10rattle_std11HostRuntimeNtB2_10FileSystem4openB8_,"ax",@progbits
	.p2align	4, 0x90
	.type	_RNvXNtNtNtCs00000000001_10pkcs1_tool6proved8der_core11file_systemRNtNtB8_10rattle_std11HostRuntimeNtB2_10FileSystem4openB8_,@function
_RNvXNtNtNtCs00000000001_10pkcs1_tool6proved8der_core11file_systemRNtNtB8_10rattle_std11HostRuntimeNtB2_10FileSystem4openB8_:
	.cfi_startproc
	endbr64
	pushq	%rbp
	.cfi_def_cfa_offset 16
	pushq	%r15
	.cfi_def_cfa_offset 24
	pushq	%r14
	.cfi_def_cfa_offset 32
	pushq	%r12
	.cfi_def_cfa_offset 40
	pushq	%rbx
	.cfi_def_cfa_offset 48
	subq	$4096, %rsp
	.cfi_adjust_cfa_offset 4096
	movq	$0, (%rsp)
	subq	$4096, %rsp
	.cfi_def_cfa_offset 8240
	.cfi_offset %rbx, -48
	.cfi_offset %r12, -40
	.cfi_offset %r14, -32
	.cfi_offset %r15, -24
	.cfi_offset %rbp, -16
	movq	%rdx, %r14
	movq	%rsi, %r15
	movq	%rdi, %rbx
	movq	%rsp, %r12
	movl	$4096, %edx
	movq	%r12, %rdi
	xorl	%esi, %esi
	callq	memset
	cmpq	$4096, %r14
	ja	.LBB16_22
	movq	%r12, %rdi
	movq	%r15, %rsi
	movq	%r14, %rdx
	callq	memcpy
	leaq	7(%rsp), %rax
	andq	$-8, %rax
	subq	%r12, %rax
	jne	.LBB16_13
	xorl	%eax, %eax
	jmp	.LBB16_3
.LBB16_13:
	xorl	%ecx, %ecx
	.p2align	4, 0x90
.LBB16_14:
	cmpb	$0, (%rsp,%rcx)
	je	.LBB16_15
	incq	%rcx
	cmpq	%rcx, %rax
	jne	.LBB16_14
.LBB16_3:
	movabsq	$-9187201950435737472, %rcx
	movabsq	$72340172838076672, %rdx
	.p2align	4, 0x90
.LBB16_4:
	movq	(%rsp,%rax), %rsi
	movq	8(%rsp,%rax), %rdi
	movq	%rdx, %r8
	subq	%rsi, %r8
	orq	%rsi, %r8
	movq	%rdx, %rsi
	subq	%rdi, %rsi
	orq	%rdi, %rsi
	andq	%rcx, %r8
	andq	%rsi, %r8
	cmpq	%rcx, %r8
	jne	.LBB16_5
	leaq	16(%rax), %r8
	cmpq	$4064, %rax
	movq	%r8, %rax
	jbe	.LBB16_4
	movq	%r8, %rsi
	subq	$4096, %rsi
	jne	.LBB16_8
	xorl	%edx, %edx
	testq	%rdx, %rdx
	cmoveq	%rdx, %r12
	jne	.LBB16_20
	jmp	.LBB16_22
.LBB16_5:
	leaq	(%rsp,%rax), %rdi
	movl	$4096, %esi
	subq	%rax, %rsi
	jmp	.LBB16_9
.LBB16_15:
	movl	$1, %edx
	testq	%rdx, %rdx
	cmoveq	%rdx, %r12
	jne	.LBB16_20
	jmp	.LBB16_22
.LBB16_8:
	negq	%rsi
	leaq	(%rsp,%r8), %rdi
	movq	%r8, %rax
.LBB16_9:
	xorl	%edx, %edx
	xorl	%ecx, %ecx
	.p2align	4, 0x90
.LBB16_10:
	cmpb	$0, (%rdi,%rcx)
	je	.LBB16_12
	incq	%rcx
	cmpq	%rcx, %rsi
	jne	.LBB16_10
	testq	%rdx, %rdx
	cmoveq	%rdx, %r12
	jne	.LBB16_20
	jmp	.LBB16_22
.LBB16_12:
	addq	%rax, %rcx
	movl	$1, %edx
	testq	%rdx, %rdx
	cmoveq	%rdx, %r12
	je	.LBB16_22
.LBB16_20:
	cmpq	%r14, %rcx
	jne	.LBB16_22
	movq	%r12, %rdi
	movq	%r15, %rsi
	movq	%r14, %rdx
	callq	memcmp
	testl	%eax, %eax
	je	.LBB16_23
.LBB16_22:
	movl	$1024, %edx
.LBB16_26:
	movl	$1, %esi
	xorl	%ecx, %ecx
	orq	%rdx, %rcx
	orl	%ecx, %esi
	testb	$1, %sil
	je	.LBB16_28
.LBB16_30:
	movb	$15, 1(%rbx)
	movb	$1, %al
	jmp	.LBB16_29
.LBB16_23:
	movzbl	(%rsp), %ebp
	leaq	1(%rsp), %rsi
	leaq	4097(%rsp), %rdi
	movl	$4095, %edx
	callq	memcpy
	movb	%bpl, 4096(%rsp)
	leaq	4096(%rsp), %rdi
	xorl	%esi, %esi
	xorl	%edx, %edx
	callq	pkcs1_os_open
	testq	%rax, %rax
	js	.LBB16_24
	movq	%rax, %rdx
	shlq	$32, %rdx
	xorl	%ecx, %ecx
	xorl	%esi, %esi
	cmpq	$2147483647, %rax
	seta	%sil
	cmovbeq	%rdx, %rcx
	movl	$1024, %edx
	orq	%rdx, %rcx
	orl	%ecx, %esi
	testb	$1, %sil
	jne	.LBB16_30
.LBB16_28:
	shrq	$32, %rcx
	movq	$0, 8(%rbx)
	movl	%ecx, 16(%rbx)
	xorl	%eax, %eax
.LBB16_29:
	movb	%al, (%rbx)
	addq	$8192, %rsp
	.cfi_def_cfa_offset 48
	popq	%rbx
	.cfi_def_cfa_offset 40
	popq	%r12
	.cfi_def_cfa_offset 32
	popq	%r14
	.cfi_def_cfa_offset 24
	popq	%r15
	.cfi_def_cfa_offset 16
	popq	%rbp
	.cfi_def_cfa_offset 8
	retq
.LBB16_24:
	.cfi_def_cfa_offset 8240
	addq	$4, %rax
	movl	$1024, %edx
	cmpq	$3, %rax
	jae	.LBB16_26
	shlq	$8, %rax
	movl	$512, %edx
	subq	%rax, %rdx
	jmp	.LBB16_26
.Lfunc_end16:
	.size	_RNvXNtNtNtCs00000000001_10pkcs1_tool6proved8der_core11file_systemRNtNtB8_10rattle_std11HostRuntimeNtB2_10FileSystem4openB8_, .Lfunc_end16-_RNvXNtNtNtCs00000000001_10pkcs1_tool6proved8der_core11file_systemRNtNtB8_10rattle_std11HostRuntimeNtB2_10FileSystem4openB8_
	.cfi_endproc

	.section	.text._RNvNtNtNtNtCs00000000001_10pkcs1_tool6proved8der_core7integer5small5small,"ax",@progbits
	.p2align	4, 0x90
	.type	_RNvNtNtNtNtCs00000000001_10pkcs1_tool6proved8der_core7integer5small5small,@function
_RNvNtNtNtNtCs00000000001_10pkcs1_tool6proved8der_core7integer5small5small:
	.cfi_startproc
	endbr64
	movb	$2, %al
	testq	%rsi, %rsi
	je	.LBB17_1
	movzbl	(%rdi), %edx
	testb	%dl, %dl
	je	.LBB17_5
	jns	.LBB17_7
	movb	$13, %cl
	jmp	.LBB17_8
.LBB17_1:
	movb	$3, %cl
	jmp	.LBB17_8
.LBB17_5:
	movzbl	1(%rdi), %edx
	movb	$4, %cl
	testb	%dl, %dl
	jns	.LBB17_8
	decq	%rsi
.LBB17_7:
	cmpq	$2, %rsi
	setb	%cl
	movzbl	%dl, %edx
	movl	$2, %eax
	cmovbl	%edx, %eax
	shlb	$2, %cl
	addb	$13, %cl
.LBB17_8:
	movzbl	%al, %edx
	shll	$8, %edx
	movzbl	%cl, %eax
	orl	%edx, %eax
	retq
.Lfunc_end17:
	.size	_RNvNtNtNtNtCs00000000001_10pkcs1_tool6proved8der_core7integer5small5small, .Lfunc_end17-_RNvNtNtNtNtCs00000000001_10pkcs1_tool6proved8der_core7integer5small5small
	.cfi_endproc

	.section	.text.unlikely._RNvNtNtNtCs00000000001_10pkcs1_tool6proved8der_core5split14split_unlikely,"ax",@progbits
	.p2align	4, 0x90
	.type	_RNvNtNtNtCs00000000001_10pkcs1_tool6proved8der_core5split14split_unlikely,@function
_RNvNtNtNtCs00000000001_10pkcs1_tool6proved8der_core5split14split_unlikely:
	.cfi_startproc
	endbr64
	movq	%rdx, %rax
	shrq	$32, %rax
	je	.LBB18_1
	movb	$7, 8(%rdi)
	movq	$0, (%rdi)
	retq
.LBB18_1:
	testq	%rdx, %rdx
	je	.LBB18_2
	movzbl	(%rsi), %eax
	movl	%eax, %r8d
	notb	%r8b
	testb	$31, %r8b
	setne	%r8b
	testb	$-33, %al
	setne	%r9b
	testb	%r9b, %r8b
	jne	.LBB18_6
	movzbl	%al, %r10d
	shll	$8, %r10d
	orl	$11, %r10d
.LBB18_5:
	movw	%r10w, 8(%rdi)
	movb	$0, 10(%rdi)
	movq	$0, (%rdi)
	retq
.LBB18_2:
	movl	$1, %r10d
	movw	%r10w, 8(%rdi)
	movb	$0, 10(%rdi)
	movq	$0, (%rdi)
	retq
.LBB18_6:
	movl	$1, %r10d
	cmpq	$1, %rdx
	je	.LBB18_5
	leaq	2(%rsi), %r11
	addq	$-2, %rdx
	movsbq	1(%rsi), %r8
	testq	%r8, %r8
	js	.LBB18_9
	movq	%r11, %r9
.LBB18_24:
	cmpb	%cl, %al
	jne	.LBB18_29
	subq	%r8, %rdx
	jae	.LBB18_27
	movb	$1, 8(%rdi)
	movq	$0, (%rdi)
	retq
.LBB18_9:
	movl	$2, %r10d
	movl	%r8d, %r9d
	negb	%r9b
	jo	.LBB18_5
	movl	$7, %r10d
	cmpb	$-124, %r8b
	ja	.LBB18_5
	andl	$127, %r8d
	movl	$1, %r10d
	subq	%r8, %rdx
	jb	.LBB18_5
	movl	$8, %r10d
	testq	%r8, %r8
	je	.LBB18_5
	leaq	(%r11,%r8), %r9
	cmpl	$1, %r8d
	jne	.LBB18_14
	movzbl	(%r11), %r8d
	testb	%r8b, %r8b
	jns	.LBB18_5
	jmp	.LBB18_24
.LBB18_29:
	movb	$10, 8(%rdi)
	movb	%cl, 9(%rdi)
	movb	%al, 10(%rdi)
	movq	$0, (%rdi)
	retq
.LBB18_27:
	movq	%r9, (%rdi)
	addq	%r8, %r9
	movq	%r8, 8(%rdi)
	movq	%r9, 16(%rdi)
	movq	%rdx, 24(%rdi)
	retq
.LBB18_14:
	movzbl	(%r11), %r11d
	testq	%r11, %r11
	je	.LBB18_5
	cmpq	$2, %r8
	je	.LBB18_19
	cmpl	$3, %r8d
	jne	.LBB18_17
	shll	$16, %r11d
	movzbl	3(%rsi), %r10d
	shll	$8, %r10d
	orl	%r11d, %r10d
	movzbl	4(%rsi), %r8d
	orq	%r10, %r8
	jmp	.LBB18_24
.LBB18_19:
	shll	$8, %r11d
	movzbl	3(%rsi), %r8d
	orq	%r11, %r8
	jmp	.LBB18_24
.LBB18_17:
	cmpl	$4, %r8d
	jne	.LBB18_21
	shll	$24, %r11d
	movzbl	3(%rsi), %r8d
	shll	$16, %r8d
	orl	%r11d, %r8d
	movzbl	4(%rsi), %r10d
	shll	$8, %r10d
	orl	%r8d, %r10d
	movzbl	5(%rsi), %r8d
	orq	%r10, %r8
	jmp	.LBB18_24
.LBB18_21:
	pushq	%rax
	.cfi_def_cfa_offset 16
	ud2
.Lfunc_end18:
	.size	_RNvNtNtNtCs00000000001_10pkcs1_tool6proved8der_core5split14split_unlikely, .Lfunc_end18-_RNvNtNtNtCs00000000001_10pkcs1_tool6proved8der_core5split14split_unlikely
	.cfi_endproc

	.section	.text._RNvXs0_NtNtNtCs00000000001_10pkcs1_tool6proved8der_core3tagNtB5_3TagNtNtCs00000000000_4core3fmt7Display3fmt,"ax",@progbits
	.p2align	4, 0x90
	.type	_RNvXs0_NtNtNtCs00000000001_10pkcs1_tool6proved8der_core3tagNtB5_3TagNtNtCs00000000000_4core3fmt7Display3fmt,@function
_RNvXs0_NtNtNtCs00000000001_10pkcs1_tool6proved8der_core3tagNtB5_3TagNtNtCs00000000000_4core3fmt7Display3fmt:
	.cfi_startproc
	endbr64
	subq	$72, %rsp
	.cfi_def_cfa_offset 80
	movzbl	(%rdi), %eax
	movb	%al, 7(%rsp)
	leaq	7(%rsp), %rax
	movq	%rax, 8(%rsp)
	leaq	_RNvXs1_NtNtNtCs00000000001_10pkcs1_tool6proved8der_core3tagNtB5_12PrintedOctetNtNtCs00000000000_4core3fmt7Display3fmt(%rip), %rax
	movq	%rax, 16(%rsp)
	leaq	.Lanon.19(%rip), %rax
	movq	%rax, 24(%rsp)
	movq	$1, 32(%rsp)
	movq	$0, 56(%rsp)
	leaq	8(%rsp), %rax
	movq	%rax, 40(%rsp)
	movq	$1, 48(%rsp)
	movq	48(%rsi), %rdi
	movq	56(%rsi), %rsi
	leaq	24(%rsp), %rdx
	callq	_ZN4core3fmt5write17h0000000000000000E
	addq	$72, %rsp
	.cfi_def_cfa_offset 8
	retq
.Lfunc_end19:
	.size	_RNvXs0_NtNtNtCs00000000001_10pkcs1_tool6proved8der_core3tagNtB5_3TagNtNtCs00000000000_4core3fmt7Display3fmt, .Lfunc_end19-_RNvXs0_NtNtNtCs00000000001_10pkcs1_tool6proved8der_core3tagNtB5_3TagNtNtCs00000000000_4core3fmt7Display3fmt
	.cfi_endproc

	.section	.text._RNvXs1_NtNtNtCs00000000001_10pkcs1_tool6proved8der_core3tagNtB5_12PrintedOctetNtNtCs00000000000_4core3fmt7Display3fmt,"ax",@progbits
	.p2align	4, 0x90
	.type	_RNvXs1_NtNtNtCs00000000001_10pkcs1_tool6proved8der_core3tagNtB5_12PrintedOctetNtNtCs00000000000_4core3fmt7Display3fmt,@function
_RNvXs1_NtNtNtCs00000000001_10pkcs1_tool6proved8der_core3tagNtB5_12PrintedOctetNtNtCs00000000000_4core3fmt7Display3fmt:
	.cfi_startproc
	endbr64
	subq	$136, %rsp
	.cfi_def_cfa_offset 144
	movzbl	(%rdi), %eax
	movb	%al, 15(%rsp)
	leaq	15(%rsp), %rax
	movq	%rax, 16(%rsp)
	leaq	_ZN4core3fmt3num52_$LT$impl$u20$core..fmt..LowerHex$u20$for$u20$i8$GT$3fmt17h0000000000000002E(%rip), %rax
	movq	%rax, 24(%rsp)
	movq	$2, 80(%rsp)
	movq	$0, 96(%rsp)
	movq	$2, 104(%rsp)
	movq	$0, 112(%rsp)
	movabsq	$34359738400, %rax
	movq	%rax, 120(%rsp)
	movb	$3, 128(%rsp)
	leaq	.Lanon.20(%rip), %rax
	movq	%rax, 32(%rsp)
	movq	$1, 40(%rsp)
	leaq	80(%rsp), %rax
	movq	%rax, 64(%rsp)
	movq	$1, 72(%rsp)
	leaq	16(%rsp), %rax
	movq	%rax, 48(%rsp)
	movq	$1, 56(%rsp)
	movq	48(%rsi), %rdi
	movq	56(%rsi), %rsi
	leaq	32(%rsp), %rdx
	callq	_ZN4core3fmt5write17h0000000000000000E
	addq	$136, %rsp
	.cfi_def_cfa_offset 8
	retq
.Lfunc_end20:
	.size	_RNvXs1_NtNtNtCs00000000001_10pkcs1_tool6proved8der_core3tagNtB5_12PrintedOctetNtNtCs00000000000_4core3fmt7Display3fmt, .Lfunc_end20-_RNvXs1_NtNtNtCs00000000001_10pkcs1_tool6proved8der_core3tagNtB5_12PrintedOctetNtNtCs00000000000_4core3fmt7Display3fmt
	.cfi_endproc

	.section	.text._RNvXs_NtNtNtCs00000000001_10pkcs1_tool6proved12pkcs1_params5errorNtB4_5ErrorNtNtCs00000000000_4core3fmt7Display3fmt,"ax",@progbits
	.p2align	4, 0x90
	.type	_RNvXs_NtNtNtCs00000000001_10pkcs1_tool6proved12pkcs1_params5errorNtB4_5ErrorNtNtCs00000000000_4core3fmt7Display3fmt,@function
_RNvXs_NtNtNtCs00000000001_10pkcs1_tool6proved12pkcs1_params5errorNtB4_5ErrorNtNtCs00000000000_4core3fmt7Display3fmt:
	.cfi_startproc
	endbr64
	movzbl	(%rdi), %eax
	leal	-17(%rax), %ecx
	addq	$-16, %rax
	xorl	%edx, %edx
	cmpb	$3, %cl
	cmovbq	%rax, %rdx
	leaq	.LJTI21_0(%rip), %rax
	movslq	(%rax,%rdx,4), %rcx
	addq	%rax, %rcx
	notrack	jmpq	*%rcx
.LBB21_1:
	subq	$72, %rsp
	.cfi_def_cfa_offset 80
	movzbl	2(%rdi), %eax
	movb	%al, 6(%rsp)
	movzwl	(%rdi), %eax
	movw	%ax, 4(%rsp)
	leaq	4(%rsp), %rax
	movq	%rax, 8(%rsp)
	leaq	_RNvXs2_NtNtNtCs00000000001_10pkcs1_tool6proved8der_core5errorNtB5_5ErrorNtNtCs00000000000_4core3fmt7Display3fmt(%rip), %rax
	movq	%rax, 16(%rsp)
	leaq	.Lanon.21(%rip), %rax
	movq	%rax, 24(%rsp)
	movq	$1, 32(%rsp)
	movq	$0, 56(%rsp)
	leaq	8(%rsp), %rax
	movq	%rax, 40(%rsp)
	movq	$1, 48(%rsp)
	movq	48(%rsi), %rdi
	movq	56(%rsi), %rsi
	leaq	24(%rsp), %rdx
	callq	_ZN4core3fmt5write17h0000000000000000E
	addq	$72, %rsp
	.cfi_def_cfa_offset 8
	retq
.LBB21_3:
	movq	48(%rsi), %rdi
	movq	56(%rsi), %rax
	movq	24(%rax), %rax
	leaq	.Lanon.22(%rip), %rsi
	movl	$39, %edx
	jmpq	*%rax
.LBB21_4:
	movq	48(%rsi), %rdi
	movq	56(%rsi), %rax
	movq	24(%rax), %rax
	leaq	.Lanon.23(%rip), %rsi
	movl	$20, %edx
	jmpq	*%rax
.LBB21_2:
	movq	48(%rsi), %rdi
	movq	56(%rsi), %rax
	movq	24(%rax), %rax
	leaq	.Lanon.24(%rip), %rsi
	movl	$26, %edx
	jmpq	*%rax
.Lfunc_end21:
	.size	_RNvXs_NtNtNtCs00000000001_10pkcs1_tool6proved12pkcs1_params5errorNtB4_5ErrorNtNtCs00000000000_4core3fmt7Display3fmt, .Lfunc_end21-_RNvXs_NtNtNtCs00000000001_10pkcs1_tool6proved12pkcs1_params5errorNtB4_5ErrorNtNtCs00000000000_4core3fmt7Display3fmt
	.cfi_endproc
	.section	.rodata._RNvXs_NtNtNtCs00000000001_10pkcs1_tool6proved12pkcs1_params5errorNtB4_5ErrorNtNtCs00000000000_4core3fmt7Display3fmt,"a",@progbits
	.p2align	2, 0x0
.LJTI21_0:
	.long	.LBB21_1-.LJTI21_0
	.long	.LBB21_2-.LJTI21_0
	.long	.LBB21_3-.LJTI21_0
	.long	.LBB21_4-.LJTI21_0

	.section	.text._RINvNtNtNtCs00000000001_10pkcs1_tool6proved12pkcs1_params6fields13prepend_fieldINtNtNtB6_9spki_core20algorithm_identifier21AlgorithmIdentifierOfNtNtB1k_17object_identifier16ObjectIdentifierIB1g_B2i_NtNtB1k_3any6AnyRefEENtNtNtB6_8der_core11back_writer10BackWriterEB8_,"ax",@progbits
	.p2align	4, 0x90
	.type	_RINvNtNtNtCs00000000001_10pkcs1_tool6proved12pkcs1_params6fields13prepend_fieldINtNtNtB6_9spki_core20algorithm_identifier21AlgorithmIdentifierOfNtNtB1k_17object_identifier16ObjectIdentifierIB1g_B2i_NtNtB1k_3any6AnyRefEENtNtNtB6_8der_core11back_writer10BackWriterEB8_,@function
_RINvNtNtNtCs00000000001_10pkcs1_tool6proved12pkcs1_params6fields13prepend_fieldINtNtNtB6_9spki_core20algorithm_identifier21AlgorithmIdentifierOfNtNtB1k_17object_identifier16ObjectIdentifierIB1g_B2i_NtNtB1k_3any6AnyRefEENtNtNtB6_8der_core11back_writer10BackWriterEB8_:
	.cfi_startproc
	endbr64
	pushq	%rbp
	.cfi_def_cfa_offset 16
	pushq	%r15
	.cfi_def_cfa_offset 24
	pushq	%r14
	.cfi_def_cfa_offset 32
	pushq	%r13
	.cfi_def_cfa_offset 40
	pushq	%r12
	.cfi_def_cfa_offset 48
	pushq	%rbx
	.cfi_def_cfa_offset 56
	subq	$24, %rsp
	.cfi_def_cfa_offset 80
	.cfi_offset %rbx, -56
	.cfi_offset %r12, -48
	.cfi_offset %r13, -40
	.cfi_offset %r14, -32
	.cfi_offset %r15, -24
	.cfi_offset %rbp, -16
	movzbl	111(%rdi), %eax
	movq	%rax, 16(%rsp)
	cmpq	$40, %rax
	jae	.LBB22_131
	movq	%rsi, %rbx
	movq	%rdi, %r15
	movq	8(%rsi), %r9
	movq	16(%rsi), %rbp
	testb	$1, (%rdi)
	je	.LBB22_2
	movzbl	47(%r15), %r11d
	cmpq	$40, %r11
	jae	.LBB22_132
	movq	48(%r15), %rsi
	movq	(%rbx), %r8
	movq	%rbp, %r12
	testq	%rsi, %rsi
	je	.LBB22_28
	movq	56(%r15), %rdx
	movq	%rbp, %r14
	movq	%rbp, %r12
	subq	%rdx, %r14
	jb	.LBB22_8
	movq	%r11, 8(%rsp)
	cmpq	%r9, %rbp
	ja	.LBB22_133
	movq	%r9, %r13
	leaq	(%r8,%r14), %rdi
	movq	%r8, %r12
	callq	memcpy
	movq	%r12, %r8
	movq	%r14, %r12
	movq	%r13, %r9
	movq	8(%rsp), %r11
.LBB22_8:
	movq	%r12, 16(%rbx)
	movq	64(%r15), %rcx
	movq	%rbp, %rax
	subq	%r12, %rax
	cmpl	$128, %eax
	jae	.LBB22_9
	cmpq	$2, %r12
	jb	.LBB22_27
	cmpq	%r9, %r12
	ja	.LBB22_133
	shll	$8, %eax
	movzbl	%cl, %ecx
	orl	%eax, %ecx
	movw	%cx, -2(%r8,%r12)
	addq	$-2, %r12
	jmp	.LBB22_27
.LBB22_2:
	movq	(%rbx), %r8
	movq	%rbp, %r13
	movq	%r13, %r14
	movq	%r13, %rax
	subq	16(%rsp), %r14
	jae	.LBB22_71
	jmp	.LBB22_73
.LBB22_9:
	cmpl	$256, %eax
	jae	.LBB22_10
	cmpq	$3, %r12
	jb	.LBB22_27
	cmpq	%r9, %r12
	ja	.LBB22_133
	movb	%cl, -3(%r8,%r12)
	movb	$-127, -2(%r8,%r12)
	movb	%al, -1(%r8,%r12)
	addq	$-3, %r12
	jmp	.LBB22_27
.LBB22_10:
	cmpl	$65536, %eax
	jae	.LBB22_11
	cmpq	$4, %r12
	jb	.LBB22_27
	cmpq	%r9, %r12
	ja	.LBB22_133
	orl	$8519680, %eax
	bswapl	%eax
	movzbl	%cl, %ecx
	orl	%eax, %ecx
	movl	%ecx, -4(%r8,%r12)
	addq	$-4, %r12
	jmp	.LBB22_27
.LBB22_11:
	cmpl	$16777216, %eax
	jae	.LBB22_12
	cmpq	$5, %r12
	jb	.LBB22_27
	cmpq	%r9, %r12
	ja	.LBB22_133
	movl	%eax, %edx
	shrl	$16, %edx
	movl	%eax, %esi
	shrl	$8, %esi
	movb	%cl, -5(%r8,%r12)
	movb	$-125, -4(%r8,%r12)
	movb	%dl, -3(%r8,%r12)
	movb	%sil, -2(%r8,%r12)
	movb	%al, -1(%r8,%r12)
	addq	$-5, %r12
	jmp	.LBB22_27
.LBB22_12:
	cmpq	$6, %r12
	jb	.LBB22_27
	cmpq	%r9, %r12
	ja	.LBB22_133
	movl	%eax, %edx
	shrl	$24, %edx
	movl	%eax, %esi
	shrl	$16, %esi
	movl	%eax, %edi
	shrl	$8, %edi
	movb	%cl, -6(%r8,%r12)
	movb	$-124, -5(%r8,%r12)
	movb	%dl, -4(%r8,%r12)
	movb	%sil, -3(%r8,%r12)
	movb	%dil, -2(%r8,%r12)
	movb	%al, -1(%r8,%r12)
	addq	$-6, %r12
.LBB22_27:
	movq	%r12, 16(%rbx)
.LBB22_28:
	movq	%r12, %r14
	movq	%r12, %r13
	subq	%r11, %r14
	jb	.LBB22_31
	cmpq	%r9, %r12
	ja	.LBB22_133
	leaq	8(%r15), %rsi
	leaq	(%r8,%r14), %rdi
	movq	%r11, %rdx
	movq	%r8, %r13
	movq	%rbp, 8(%rsp)
	movq	%rbx, %rbp
	movq	%r9, %rbx
	callq	memcpy
	movq	%rbx, %r9
	movq	%rbp, %rbx
	movq	8(%rsp), %rbp
	movq	%r13, %r8
	movq	%r14, %r13
.LBB22_31:
	movq	%r13, 16(%rbx)
	subq	%r9, %r12
	subq	%r13, %r12
	addq	%r9, %r12
	cmpl	$128, %r12d
	jae	.LBB22_32
	cmpq	$2, %r13
	jb	.LBB22_50
	cmpq	%r9, %r13
	ja	.LBB22_133
	shll	$8, %r12d
	orl	$6, %r12d
	movw	%r12w, -2(%r8,%r13)
	addq	$-2, %r13
	jmp	.LBB22_50
.LBB22_32:
	cmpl	$256, %r12d
	jae	.LBB22_33
	cmpq	$3, %r13
	jb	.LBB22_50
	cmpq	%r9, %r13
	ja	.LBB22_133
	movw	$-32506, -3(%r8,%r13)
	movb	%r12b, -1(%r8,%r13)
	addq	$-3, %r13
	jmp	.LBB22_50
.LBB22_33:
	cmpl	$65536, %r12d
	jae	.LBB22_34
	cmpq	$4, %r13
	jb	.LBB22_50
	cmpq	%r9, %r13
	ja	.LBB22_133
	orl	$109182976, %r12d
	bswapl	%r12d
	movl	%r12d, -4(%r8,%r13)
	addq	$-4, %r13
	jmp	.LBB22_50
.LBB22_34:
	cmpl	$16777216, %r12d
	jae	.LBB22_35
	cmpq	$5, %r13
	jb	.LBB22_50
	cmpq	%r9, %r13
	ja	.LBB22_133
	movl	%r12d, %eax
	shrl	$16, %eax
	movl	%r12d, %ecx
	shrl	$8, %ecx
	movw	$-31994, -5(%r8,%r13)
	movb	%al, -3(%r8,%r13)
	movb	%cl, -2(%r8,%r13)
	movb	%r12b, -1(%r8,%r13)
	addq	$-5, %r13
	jmp	.LBB22_50
.LBB22_35:
	cmpq	$6, %r13
	jb	.LBB22_50
	cmpq	%r9, %r13
	ja	.LBB22_133
	movl	%r12d, %eax
	shrl	$24, %eax
	movl	%r12d, %ecx
	shrl	$16, %ecx
	movl	%r12d, %edx
	shrl	$8, %edx
	movw	$-31738, -6(%r8,%r13)
	movb	%al, -4(%r8,%r13)
	movb	%cl, -3(%r8,%r13)
	movb	%dl, -2(%r8,%r13)
	movb	%r12b, -1(%r8,%r13)
	addq	$-6, %r13
.LBB22_50:
	movq	%r13, 16(%rbx)
	movq	%rbp, %rax
	subq	%r13, %rax
	cmpl	$128, %eax
	jae	.LBB22_51
	cmpq	$2, %r13
	jb	.LBB22_69
	cmpq	%r9, %r13
	ja	.LBB22_133
	shll	$8, %eax
	orl	$48, %eax
	movw	%ax, -2(%r8,%r13)
	addq	$-2, %r13
	jmp	.LBB22_69
.LBB22_51:
	cmpl	$256, %eax
	jae	.LBB22_52
	cmpq	$3, %r13
	jb	.LBB22_69
	cmpq	%r9, %r13
	ja	.LBB22_133
	movw	$-32464, -3(%r8,%r13)
	movb	%al, -1(%r8,%r13)
	addq	$-3, %r13
	jmp	.LBB22_69
.LBB22_52:
	cmpl	$65536, %eax
	jae	.LBB22_53
	cmpq	$4, %r13
	jb	.LBB22_69
	cmpq	%r9, %r13
	ja	.LBB22_133
	orl	$813826048, %eax
	bswapl	%eax
	movl	%eax, -4(%r8,%r13)
	addq	$-4, %r13
	jmp	.LBB22_69
.LBB22_53:
	cmpl	$16777216, %eax
	jae	.LBB22_54
	cmpq	$5, %r13
	jb	.LBB22_69
	cmpq	%r9, %r13
	ja	.LBB22_133
	movl	%eax, %ecx
	shrl	$16, %ecx
	movl	%eax, %edx
	shrl	$8, %edx
	movw	$-31952, -5(%r8,%r13)
	movb	%cl, -3(%r8,%r13)
	movb	%dl, -2(%r8,%r13)
	movb	%al, -1(%r8,%r13)
	addq	$-5, %r13
	jmp	.LBB22_69
.LBB22_54:
	cmpq	$6, %r13
	jb	.LBB22_69
	cmpq	%r9, %r13
	ja	.LBB22_133
	movl	%eax, %ecx
	shrl	$24, %ecx
	movl	%eax, %edx
	shrl	$16, %edx
	movl	%eax, %esi
	shrl	$8, %esi
	movw	$-31696, -6(%r8,%r13)
	movb	%cl, -4(%r8,%r13)
	movb	%dl, -3(%r8,%r13)
	movb	%sil, -2(%r8,%r13)
	movb	%al, -1(%r8,%r13)
	addq	$-6, %r13
.LBB22_69:
	movq	%r13, 16(%rbx)
	movq	%r13, %r14
	movq	%r13, %rax
	subq	16(%rsp), %r14
	jb	.LBB22_73
.LBB22_71:
	cmpq	%r9, %r13
	ja	.LBB22_133
	addq	$72, %r15
	leaq	(%r8,%r14), %rdi
	movq	%r15, %rsi
	movq	16(%rsp), %rdx
	movq	%r8, %r15
	movq	%rbx, %r12
	movq	%r9, %rbx
	callq	memcpy
	movq	%rbx, %r9
	movq	%r12, %rbx
	movq	%r15, %r8
	movq	%r14, %rax
.LBB22_73:
	subq	%r9, %r13
	subq	%rax, %r13
	addq	%r9, %r13
	cmpl	$128, %r13d
	jae	.LBB22_74
	cmpq	$2, %rax
	jb	.LBB22_92
	cmpq	%r9, %rax
	ja	.LBB22_133
	shll	$8, %r13d
	orl	$6, %r13d
	movw	%r13w, -2(%r8,%rax)
	addq	$-2, %rax
	jmp	.LBB22_92
.LBB22_74:
	cmpl	$256, %r13d
	jae	.LBB22_75
	cmpq	$3, %rax
	jb	.LBB22_92
	cmpq	%r9, %rax
	ja	.LBB22_133
	movw	$-32506, -3(%r8,%rax)
	movb	%r13b, -1(%r8,%rax)
	addq	$-3, %rax
	jmp	.LBB22_92
.LBB22_75:
	cmpl	$65536, %r13d
	jae	.LBB22_76
	cmpq	$4, %rax
	jb	.LBB22_92
	cmpq	%r9, %rax
	ja	.LBB22_133
	orl	$109182976, %r13d
	bswapl	%r13d
	movl	%r13d, -4(%r8,%rax)
	addq	$-4, %rax
	jmp	.LBB22_92
.LBB22_76:
	cmpl	$16777216, %r13d
	jae	.LBB22_77
	cmpq	$5, %rax
	jb	.LBB22_92
	cmpq	%r9, %rax
	ja	.LBB22_133
	movl	%r13d, %ecx
	shrl	$16, %ecx
	movl	%r13d, %edx
	shrl	$8, %edx
	movw	$-31994, -5(%r8,%rax)
	movb	%cl, -3(%r8,%rax)
	movb	%dl, -2(%r8,%rax)
	movb	%r13b, -1(%r8,%rax)
	addq	$-5, %rax
	jmp	.LBB22_92
.LBB22_77:
	cmpq	$6, %rax
	jb	.LBB22_92
	cmpq	%r9, %rax
	ja	.LBB22_133
	movl	%r13d, %ecx
	shrl	$24, %ecx
	movl	%r13d, %edx
	shrl	$16, %edx
	movl	%r13d, %esi
	shrl	$8, %esi
	movw	$-31738, -6(%r8,%rax)
	movb	%cl, -4(%r8,%rax)
	movb	%dl, -3(%r8,%rax)
	movb	%sil, -2(%r8,%rax)
	movb	%r13b, -1(%r8,%rax)
	addq	$-6, %rax
.LBB22_92:
	movq	%rax, 16(%rbx)
	movq	%rbp, %rcx
	subq	%rax, %rcx
	cmpl	$128, %ecx
	jae	.LBB22_93
	cmpq	$2, %rax
	jb	.LBB22_111
	cmpq	%r9, %rax
	ja	.LBB22_133
	shll	$8, %ecx
	orl	$48, %ecx
	movw	%cx, -2(%r8,%rax)
	addq	$-2, %rax
	jmp	.LBB22_111
.LBB22_93:
	cmpl	$256, %ecx
	jae	.LBB22_94
	cmpq	$3, %rax
	jb	.LBB22_111
	cmpq	%r9, %rax
	ja	.LBB22_133
	movw	$-32464, -3(%r8,%rax)
	movb	%cl, -1(%r8,%rax)
	addq	$-3, %rax
	jmp	.LBB22_111
.LBB22_94:
	cmpl	$65536, %ecx
	jae	.LBB22_95
	cmpq	$4, %rax
	jb	.LBB22_111
	cmpq	%r9, %rax
	ja	.LBB22_133
	orl	$813826048, %ecx
	bswapl	%ecx
	movl	%ecx, -4(%r8,%rax)
	addq	$-4, %rax
	jmp	.LBB22_111
.LBB22_95:
	cmpl	$16777216, %ecx
	jae	.LBB22_96
	cmpq	$5, %rax
	jb	.LBB22_111
	cmpq	%r9, %rax
	ja	.LBB22_133
	movl	%ecx, %edx
	shrl	$16, %edx
	movl	%ecx, %esi
	shrl	$8, %esi
	movw	$-31952, -5(%r8,%rax)
	movb	%dl, -3(%r8,%rax)
	movb	%sil, -2(%r8,%rax)
	movb	%cl, -1(%r8,%rax)
	addq	$-5, %rax
	jmp	.LBB22_111
.LBB22_96:
	cmpq	$6, %rax
	jb	.LBB22_111
	cmpq	%r9, %rax
	ja	.LBB22_133
	movl	%ecx, %edx
	shrl	$24, %edx
	movl	%ecx, %esi
	shrl	$16, %esi
	movl	%ecx, %edi
	shrl	$8, %edi
	movw	$-31696, -6(%r8,%rax)
	movb	%dl, -4(%r8,%rax)
	movb	%sil, -3(%r8,%rax)
	movb	%dil, -2(%r8,%rax)
	movb	%cl, -1(%r8,%rax)
	addq	$-6, %rax
.LBB22_111:
	subq	%rax, %rbp
	cmpl	$128, %ebp
	jae	.LBB22_112
	cmpq	$2, %rax
	jb	.LBB22_130
	cmpq	%r9, %rax
	ja	.LBB22_133
	shll	$8, %ebp
	orl	$161, %ebp
	movw	%bp, -2(%r8,%rax)
	addq	$-2, %rax
	jmp	.LBB22_130
.LBB22_112:
	cmpl	$256, %ebp
	jae	.LBB22_113
	cmpq	$3, %rax
	jb	.LBB22_130
	cmpq	%r9, %rax
	ja	.LBB22_133
	movw	$-32351, -3(%r8,%rax)
	movb	%bpl, -1(%r8,%rax)
	addq	$-3, %rax
	jmp	.LBB22_130
.LBB22_113:
	cmpl	$65536, %ebp
	jae	.LBB22_114
	cmpq	$4, %rax
	jb	.LBB22_130
	cmpq	%r9, %rax
	ja	.LBB22_133
	orl	$-1585315840, %ebp
	bswapl	%ebp
	movl	%ebp, -4(%r8,%rax)
	addq	$-4, %rax
	jmp	.LBB22_130
.LBB22_114:
	cmpl	$16777216, %ebp
	jae	.LBB22_115
	cmpq	$5, %rax
	jb	.LBB22_130
	cmpq	%r9, %rax
	ja	.LBB22_133
	movl	%ebp, %ecx
	shrl	$16, %ecx
	movl	%ebp, %edx
	shrl	$8, %edx
	movw	$-31839, -5(%r8,%rax)
	movb	%cl, -3(%r8,%rax)
	movb	%dl, -2(%r8,%rax)
	movb	%bpl, -1(%r8,%rax)
	addq	$-5, %rax
	jmp	.LBB22_130
.LBB22_115:
	cmpq	$6, %rax
	jb	.LBB22_130
	cmpq	%r9, %rax
	ja	.LBB22_133
	movl	%ebp, %ecx
	shrl	$24, %ecx
	movl	%ebp, %edx
	shrl	$16, %edx
	movl	%ebp, %esi
	shrl	$8, %esi
	movw	$-31583, -6(%r8,%rax)
	movb	%cl, -4(%r8,%rax)
	movb	%dl, -3(%r8,%rax)
	movb	%sil, -2(%r8,%rax)
	movb	%bpl, -1(%r8,%rax)
	addq	$-6, %rax
.LBB22_130:
	movq	%rax, 16(%rbx)
	addq	$24, %rsp
	.cfi_def_cfa_offset 56
	popq	%rbx
	.cfi_def_cfa_offset 48
	popq	%r12
	.cfi_def_cfa_offset 40
	popq	%r13
	.cfi_def_cfa_offset 32
	popq	%r14
	.cfi_def_cfa_offset 24
	popq	%r15
	.cfi_def_cfa_offset 16
	popq	%rbp
	.cfi_def_cfa_offset 8
	retq
.LBB22_133:
	.cfi_def_cfa_offset 80
	ud2
.LBB22_131:
	movl	$39, %esi
	movq	16(%rsp), %rdi
	ud2
.LBB22_132:
	movl	$39, %esi
	movq	%r11, %rdi
	ud2
.Lfunc_end22:
	.size	_RINvNtNtNtCs00000000001_10pkcs1_tool6proved12pkcs1_params6fields13prepend_fieldINtNtNtB6_9spki_core20algorithm_identifier21AlgorithmIdentifierOfNtNtB1k_17object_identifier16ObjectIdentifierIB1g_B2i_NtNtB1k_3any6AnyRefEENtNtNtB6_8der_core11back_writer10BackWriterEB8_, .Lfunc_end22-_RINvNtNtNtCs00000000001_10pkcs1_tool6proved12pkcs1_params6fields13prepend_fieldINtNtNtB6_9spki_core20algorithm_identifier21AlgorithmIdentifierOfNtNtB1k_17object_identifier16ObjectIdentifierIB1g_B2i_NtNtB1k_3any6AnyRefEENtNtNtB6_8der_core11back_writer10BackWriterEB8_
	.cfi_endproc

	.section	.text._RINvNtNtNtCs00000000001_10pkcs1_tool6proved12pkcs1_params6fields13prepend_fieldINtNtNtB6_9spki_core20algorithm_identifier21AlgorithmIdentifierOfNtNtB1k_17object_identifier16ObjectIdentifierIB1g_B2i_NtNtB1k_3any6AnyRefEENtNtNtB6_8der_core7counter7CounterEB8_,"ax",@progbits
	.p2align	4, 0x90
	.type	_RINvNtNtNtCs00000000001_10pkcs1_tool6proved12pkcs1_params6fields13prepend_fieldINtNtNtB6_9spki_core20algorithm_identifier21AlgorithmIdentifierOfNtNtB1k_17object_identifier16ObjectIdentifierIB1g_B2i_NtNtB1k_3any6AnyRefEENtNtNtB6_8der_core7counter7CounterEB8_,@function
_RINvNtNtNtCs00000000001_10pkcs1_tool6proved12pkcs1_params6fields13prepend_fieldINtNtNtB6_9spki_core20algorithm_identifier21AlgorithmIdentifierOfNtNtB1k_17object_identifier16ObjectIdentifierIB1g_B2i_NtNtB1k_3any6AnyRefEENtNtNtB6_8der_core7counter7CounterEB8_:
	.cfi_startproc
	endbr64
	pushq	%rax
	.cfi_def_cfa_offset 16
	movq	%rdi, %rcx
	movzbl	111(%rdi), %edi
	cmpq	$40, %rdi
	jae	.LBB23_43
	movq	(%rsi), %rdx
	cmpl	$1, (%rcx)
	movq	%rdx, %rax
	jne	.LBB23_24
	movzbl	47(%rcx), %eax
	cmpq	$40, %rax
	jae	.LBB23_44
	cmpq	$0, 48(%rcx)
	movq	%rdx, %r8
	je	.LBB23_11
	movq	56(%rcx), %rcx
	addq	%rdx, %rcx
	movq	$-1, %r8
	cmovaeq	%rcx, %r8
	xorl	%ecx, %ecx
	subq	%rdx, %r8
	cmovaeq	%r8, %rcx
	cmpq	$128, %rcx
	jae	.LBB23_5
	addq	$2, %rcx
	jmp	.LBB23_10
.LBB23_5:
	cmpq	$256, %rcx
	jae	.LBB23_6
	addq	$3, %rcx
	jmp	.LBB23_10
.LBB23_6:
	cmpq	$65536, %rcx
	jae	.LBB23_7
	addq	$4, %rcx
	jmp	.LBB23_10
.LBB23_7:
	cmpq	$16777216, %rcx
	jae	.LBB23_8
	addq	$5, %rcx
	jmp	.LBB23_10
.LBB23_8:
	addq	$6, %rcx
	movq	$-1, %r8
	cmovbq	%r8, %rcx
.LBB23_10:
	addq	%rdx, %rcx
	movq	$-1, %r8
	cmovaeq	%rcx, %r8
.LBB23_11:
	addq	%r8, %rax
	movq	$-1, %rcx
	cmovaeq	%rax, %rcx
	xorl	%eax, %eax
	subq	%r8, %rcx
	cmovaeq	%rcx, %rax
	cmpq	$128, %rax
	jae	.LBB23_12
	addq	$2, %rax
	jmp	.LBB23_17
.LBB23_12:
	cmpq	$256, %rax
	jae	.LBB23_13
	addq	$3, %rax
	jmp	.LBB23_17
.LBB23_13:
	cmpq	$65536, %rax
	jae	.LBB23_14
	addq	$4, %rax
	jmp	.LBB23_17
.LBB23_14:
	cmpq	$16777216, %rax
	jae	.LBB23_15
	addq	$5, %rax
	jmp	.LBB23_17
.LBB23_15:
	addq	$6, %rax
	movq	$-1, %rcx
	cmovbq	%rcx, %rax
.LBB23_17:
	addq	%rax, %r8
	movq	$-1, %rax
	cmovaeq	%r8, %rax
	xorl	%ecx, %ecx
	subq	%rdx, %rax
	cmovaeq	%rax, %rcx
	cmpq	$128, %rcx
	jae	.LBB23_18
	addq	$2, %rcx
	jmp	.LBB23_23
.LBB23_18:
	cmpq	$256, %rcx
	jae	.LBB23_19
	addq	$3, %rcx
	jmp	.LBB23_23
.LBB23_19:
	cmpq	$65536, %rcx
	jae	.LBB23_20
	addq	$4, %rcx
	jmp	.LBB23_23
.LBB23_20:
	cmpq	$16777216, %rcx
	jae	.LBB23_21
	addq	$5, %rcx
	jmp	.LBB23_23
.LBB23_21:
	addq	$6, %rcx
	movq	$-1, %rax
	cmovbq	%rax, %rcx
.LBB23_23:
	addq	%rdx, %rcx
	movq	$-1, %rax
	cmovaeq	%rcx, %rax
.LBB23_24:
	addq	%rax, %rdi
	movq	$-1, %r8
	cmovaeq	%rdi, %r8
	xorl	%ecx, %ecx
	subq	%rax, %r8
	cmovaeq	%r8, %rcx
	cmpq	$128, %rcx
	jae	.LBB23_25
	addq	$2, %rcx
	jmp	.LBB23_30
.LBB23_25:
	cmpq	$256, %rcx
	jae	.LBB23_26
	addq	$3, %rcx
	jmp	.LBB23_30
.LBB23_26:
	cmpq	$65536, %rcx
	jae	.LBB23_27
	addq	$4, %rcx
	jmp	.LBB23_30
.LBB23_27:
	cmpq	$16777216, %rcx
	jae	.LBB23_28
	addq	$5, %rcx
	jmp	.LBB23_30
.LBB23_28:
	addq	$6, %rcx
	movq	$-1, %rdi
	cmovbq	%rdi, %rcx
.LBB23_30:
	addq	%rcx, %rax
	movq	$-1, %rcx
	cmovaeq	%rax, %rcx
	xorl	%eax, %eax
	subq	%rdx, %rcx
	cmovaeq	%rcx, %rax
	cmpq	$128, %rax
	jae	.LBB23_31
	addq	$2, %rax
	jmp	.LBB23_36
.LBB23_31:
	cmpq	$256, %rax
	jae	.LBB23_32
	addq	$3, %rax
	jmp	.LBB23_36
.LBB23_32:
	cmpq	$65536, %rax
	jae	.LBB23_33
	addq	$4, %rax
	jmp	.LBB23_36
.LBB23_33:
	cmpq	$16777216, %rax
	jae	.LBB23_34
	addq	$5, %rax
	jmp	.LBB23_36
.LBB23_34:
	addq	$6, %rax
	movq	$-1, %rcx
	cmovbq	%rcx, %rax
.LBB23_36:
	addq	%rdx, %rax
	movq	$-1, %rcx
	cmovaeq	%rax, %rcx
	xorl	%eax, %eax
	subq	%rdx, %rcx
	cmovaeq	%rcx, %rax
	cmpq	$128, %rax
	jae	.LBB23_37
	addq	$2, %rax
	jmp	.LBB23_42
.LBB23_37:
	cmpq	$256, %rax
	jae	.LBB23_38
	addq	$3, %rax
	jmp	.LBB23_42
.LBB23_38:
	cmpq	$65536, %rax
	jae	.LBB23_39
	addq	$4, %rax
	jmp	.LBB23_42
.LBB23_39:
	cmpq	$16777216, %rax
	jae	.LBB23_40
	addq	$5, %rax
	jmp	.LBB23_42
.LBB23_40:
	addq	$6, %rax
	movq	$-1, %rcx
	cmovbq	%rcx, %rax
.LBB23_42:
	addq	%rax, %rdx
	movq	$-1, %rax
	cmovaeq	%rdx, %rax
	movq	%rax, (%rsi)
	popq	%rax
	.cfi_def_cfa_offset 8
	retq
.LBB23_43:
	.cfi_def_cfa_offset 16
	movl	$39, %esi
	ud2
.LBB23_44:
	movl	$39, %esi
	movq	%rax, %rdi
	ud2
.Lfunc_end23:
	.size	_RINvNtNtNtCs00000000001_10pkcs1_tool6proved12pkcs1_params6fields13prepend_fieldINtNtNtB6_9spki_core20algorithm_identifier21AlgorithmIdentifierOfNtNtB1k_17object_identifier16ObjectIdentifierIB1g_B2i_NtNtB1k_3any6AnyRefEENtNtNtB6_8der_core7counter7CounterEB8_, .Lfunc_end23-_RINvNtNtNtCs00000000001_10pkcs1_tool6proved12pkcs1_params6fields13prepend_fieldINtNtNtB6_9spki_core20algorithm_identifier21AlgorithmIdentifierOfNtNtB1k_17object_identifier16ObjectIdentifierIB1g_B2i_NtNtB1k_3any6AnyRefEENtNtNtB6_8der_core7counter7CounterEB8_
	.cfi_endproc

	.section	.text._RINvNtNtNtCs00000000001_10pkcs1_tool6proved12pkcs1_params6fields13prepend_fieldINtNtNtB6_9spki_core20algorithm_identifier21AlgorithmIdentifierOfNtNtB1k_17object_identifier16ObjectIdentifierNtNtB1k_3any6AnyRefENtNtNtB6_8der_core11back_writer10BackWriterEB8_,"ax",@progbits
	.p2align	4, 0x90
	.type	_RINvNtNtNtCs00000000001_10pkcs1_tool6proved12pkcs1_params6fields13prepend_fieldINtNtNtB6_9spki_core20algorithm_identifier21AlgorithmIdentifierOfNtNtB1k_17object_identifier16ObjectIdentifierNtNtB1k_3any6AnyRefENtNtNtB6_8der_core11back_writer10BackWriterEB8_,@function
_RINvNtNtNtCs00000000001_10pkcs1_tool6proved12pkcs1_params6fields13prepend_fieldINtNtNtB6_9spki_core20algorithm_identifier21AlgorithmIdentifierOfNtNtB1k_17object_identifier16ObjectIdentifierNtNtB1k_3any6AnyRefENtNtNtB6_8der_core11back_writer10BackWriterEB8_:
	.cfi_startproc
	endbr64
	pushq	%rbp
	.cfi_def_cfa_offset 16
	pushq	%r15
	.cfi_def_cfa_offset 24
	pushq	%r14
	.cfi_def_cfa_offset 32
	pushq	%r13
	.cfi_def_cfa_offset 40
	pushq	%r12
	.cfi_def_cfa_offset 48
	pushq	%rbx
	.cfi_def_cfa_offset 56
	subq	$24, %rsp
	.cfi_def_cfa_offset 80
	.cfi_offset %rbx, -56
	.cfi_offset %r12, -48
	.cfi_offset %r13, -40
	.cfi_offset %r14, -32
	.cfi_offset %r15, -24
	.cfi_offset %rbp, -16
	movl	%edi, 12(%rsp)
	movzbl	39(%rsi), %r14d
	cmpq	$40, %r14
	jae	.LBB24_86
	movq	%rdx, %rbx
	movq	8(%rdx), %r12
	movq	16(%rdx), %r11
	movq	40(%rsi), %rax
	movq	(%rdx), %r13
	movq	%r11, %r15
	testq	%rax, %rax
	je	.LBB24_25
	movq	48(%rsi), %rdx
	movq	%r11, %rbp
	movq	%r11, %r15
	subq	%rdx, %rbp
	jb	.LBB24_5
	cmpq	%r12, %r11
	ja	.LBB24_87
	movq	%r13, %rdi
	addq	%rbp, %rdi
	movq	%rsi, %r15
	movq	%rax, %rsi
	movq	%rbx, 16(%rsp)
	movq	%r14, %rbx
	movq	%r11, %r14
	callq	memcpy
	movq	%r14, %r11
	movq	%rbx, %r14
	movq	16(%rsp), %rbx
	movq	%r15, %rsi
	movq	%rbp, %r15
.LBB24_5:
	movq	%r15, 16(%rbx)
	movq	56(%rsi), %rcx
	movq	%r11, %rax
	subq	%r15, %rax
	cmpl	$128, %eax
	jae	.LBB24_6
	cmpq	$2, %r15
	jb	.LBB24_24
	cmpq	%r12, %r15
	ja	.LBB24_87
	shll	$8, %eax
	movzbl	%cl, %ecx
	orl	%eax, %ecx
	movw	%cx, -2(%r13,%r15)
	addq	$-2, %r15
	jmp	.LBB24_24
.LBB24_6:
	cmpl	$256, %eax
	jae	.LBB24_7
	cmpq	$3, %r15
	jb	.LBB24_24
	cmpq	%r12, %r15
	ja	.LBB24_87
	movb	%cl, -3(%r13,%r15)
	movb	$-127, -2(%r13,%r15)
	movb	%al, -1(%r13,%r15)
	addq	$-3, %r15
	jmp	.LBB24_24
.LBB24_7:
	cmpl	$65536, %eax
	jae	.LBB24_8
	cmpq	$4, %r15
	jb	.LBB24_24
	cmpq	%r12, %r15
	ja	.LBB24_87
	orl	$8519680, %eax
	bswapl	%eax
	movzbl	%cl, %ecx
	orl	%eax, %ecx
	movl	%ecx, -4(%r13,%r15)
	addq	$-4, %r15
	jmp	.LBB24_24
.LBB24_8:
	cmpl	$16777216, %eax
	jae	.LBB24_9
	cmpq	$5, %r15
	jb	.LBB24_24
	cmpq	%r12, %r15
	ja	.LBB24_87
	movl	%eax, %edx
	shrl	$16, %edx
	movl	%eax, %edi
	shrl	$8, %edi
	movb	%cl, -5(%r13,%r15)
	movb	$-125, -4(%r13,%r15)
	movb	%dl, -3(%r13,%r15)
	movb	%dil, -2(%r13,%r15)
	movb	%al, -1(%r13,%r15)
	addq	$-5, %r15
	jmp	.LBB24_24
.LBB24_9:
	cmpq	$6, %r15
	jb	.LBB24_24
	cmpq	%r12, %r15
	ja	.LBB24_87
	movl	%eax, %edx
	shrl	$24, %edx
	movl	%eax, %edi
	shrl	$16, %edi
	movl	%eax, %r8d
	shrl	$8, %r8d
	movb	%cl, -6(%r13,%r15)
	movb	$-124, -5(%r13,%r15)
	movb	%dl, -4(%r13,%r15)
	movb	%dil, -3(%r13,%r15)
	movb	%r8b, -2(%r13,%r15)
	movb	%al, -1(%r13,%r15)
	addq	$-6, %r15
.LBB24_24:
	movq	%r15, 16(%rbx)
.LBB24_25:
	movq	%r15, %rbp
	movq	%r15, %rax
	subq	%r14, %rbp
	jb	.LBB24_28
	cmpq	%r12, %r15
	ja	.LBB24_87
	movq	%r13, %rdi
	addq	%rbp, %rdi
	movq	%r14, %rdx
	movq	%r13, %r14
	movq	%r11, %r13
	callq	memcpy
	movq	%r13, %r11
	movq	%r14, %r13
	movq	%rbp, %rax
.LBB24_28:
	subq	%r12, %r15
	subq	%rax, %r15
	addq	%r12, %r15
	cmpl	$128, %r15d
	jae	.LBB24_29
	cmpq	$2, %rax
	jb	.LBB24_47
	cmpq	%r12, %rax
	ja	.LBB24_87
	shll	$8, %r15d
	orl	$6, %r15d
	movw	%r15w, -2(%r13,%rax)
	addq	$-2, %rax
	jmp	.LBB24_47
.LBB24_29:
	cmpl	$256, %r15d
	jae	.LBB24_30
	cmpq	$3, %rax
	jb	.LBB24_47
	cmpq	%r12, %rax
	ja	.LBB24_87
	movw	$-32506, -3(%r13,%rax)
	movb	%r15b, -1(%r13,%rax)
	addq	$-3, %rax
	jmp	.LBB24_47
.LBB24_30:
	cmpl	$65536, %r15d
	jae	.LBB24_31
	cmpq	$4, %rax
	jb	.LBB24_47
	cmpq	%r12, %rax
	ja	.LBB24_87
	orl	$109182976, %r15d
	bswapl	%r15d
	movl	%r15d, -4(%r13,%rax)
	addq	$-4, %rax
	jmp	.LBB24_47
.LBB24_31:
	cmpl	$16777216, %r15d
	jae	.LBB24_32
	cmpq	$5, %rax
	jb	.LBB24_47
	cmpq	%r12, %rax
	ja	.LBB24_87
	movl	%r15d, %ecx
	shrl	$16, %ecx
	movl	%r15d, %edx
	shrl	$8, %edx
	movw	$-31994, -5(%r13,%rax)
	movb	%cl, -3(%r13,%rax)
	movb	%dl, -2(%r13,%rax)
	movb	%r15b, -1(%r13,%rax)
	addq	$-5, %rax
	jmp	.LBB24_47
.LBB24_32:
	cmpq	$6, %rax
	jb	.LBB24_47
	cmpq	%r12, %rax
	ja	.LBB24_87
	movl	%r15d, %ecx
	shrl	$24, %ecx
	movl	%r15d, %edx
	shrl	$16, %edx
	movl	%r15d, %esi
	shrl	$8, %esi
	movw	$-31738, -6(%r13,%rax)
	movb	%cl, -4(%r13,%rax)
	movb	%dl, -3(%r13,%rax)
	movb	%sil, -2(%r13,%rax)
	movb	%r15b, -1(%r13,%rax)
	addq	$-6, %rax
.LBB24_47:
	movq	%rax, 16(%rbx)
	movq	%r11, %rcx
	subq	%rax, %rcx
	cmpl	$128, %ecx
	jae	.LBB24_48
	cmpq	$2, %rax
	jb	.LBB24_66
	cmpq	%r12, %rax
	ja	.LBB24_87
	shll	$8, %ecx
	orl	$48, %ecx
	movw	%cx, -2(%r13,%rax)
	addq	$-2, %rax
	jmp	.LBB24_66
.LBB24_48:
	cmpl	$256, %ecx
	jae	.LBB24_49
	cmpq	$3, %rax
	jb	.LBB24_66
	cmpq	%r12, %rax
	ja	.LBB24_87
	movw	$-32464, -3(%r13,%rax)
	movb	%cl, -1(%r13,%rax)
	addq	$-3, %rax
	jmp	.LBB24_66
.LBB24_49:
	cmpl	$65536, %ecx
	jae	.LBB24_50
	cmpq	$4, %rax
	jb	.LBB24_66
	cmpq	%r12, %rax
	ja	.LBB24_87
	orl	$813826048, %ecx
	bswapl	%ecx
	movl	%ecx, -4(%r13,%rax)
	addq	$-4, %rax
	jmp	.LBB24_66
.LBB24_50:
	cmpl	$16777216, %ecx
	jae	.LBB24_51
	cmpq	$5, %rax
	jb	.LBB24_66
	cmpq	%r12, %rax
	ja	.LBB24_87
	movl	%ecx, %edx
	shrl	$16, %edx
	movl	%ecx, %esi
	shrl	$8, %esi
	movw	$-31952, -5(%r13,%rax)
	movb	%dl, -3(%r13,%rax)
	movb	%sil, -2(%r13,%rax)
	movb	%cl, -1(%r13,%rax)
	addq	$-5, %rax
	jmp	.LBB24_66
.LBB24_51:
	cmpq	$6, %rax
	jb	.LBB24_66
	cmpq	%r12, %rax
	ja	.LBB24_87
	movl	%ecx, %edx
	shrl	$24, %edx
	movl	%ecx, %esi
	shrl	$16, %esi
	movl	%ecx, %edi
	shrl	$8, %edi
	movw	$-31696, -6(%r13,%rax)
	movb	%dl, -4(%r13,%rax)
	movb	%sil, -3(%r13,%rax)
	movb	%dil, -2(%r13,%rax)
	movb	%cl, -1(%r13,%rax)
	addq	$-6, %rax
.LBB24_66:
	movl	12(%rsp), %ecx
	addb	$-96, %cl
	movl	%ecx, 12(%rsp)
	subq	%rax, %r11
	cmpl	$128, %r11d
	jae	.LBB24_67
	cmpq	$2, %rax
	jb	.LBB24_85
	cmpq	%r12, %rax
	ja	.LBB24_87
	shll	$8, %r11d
	movzbl	12(%rsp), %ecx
	orl	%r11d, %ecx
	movw	%cx, -2(%r13,%rax)
	addq	$-2, %rax
	jmp	.LBB24_85
.LBB24_67:
	cmpl	$256, %r11d
	jae	.LBB24_68
	cmpq	$3, %rax
	jb	.LBB24_85
	cmpq	%r12, %rax
	ja	.LBB24_87
	movl	12(%rsp), %ecx
	movb	%cl, -3(%r13,%rax)
	movb	$-127, -2(%r13,%rax)
	movb	%r11b, -1(%r13,%rax)
	addq	$-3, %rax
	jmp	.LBB24_85
.LBB24_68:
	cmpl	$65536, %r11d
	jae	.LBB24_69
	cmpq	$4, %rax
	jb	.LBB24_85
	cmpq	%r12, %rax
	ja	.LBB24_87
	orl	$8519680, %r11d
	bswapl	%r11d
	movzbl	12(%rsp), %ecx
	orl	%r11d, %ecx
	movl	%ecx, -4(%r13,%rax)
	addq	$-4, %rax
	jmp	.LBB24_85
.LBB24_69:
	cmpl	$16777216, %r11d
	jae	.LBB24_70
	cmpq	$5, %rax
	jb	.LBB24_85
	cmpq	%r12, %rax
	ja	.LBB24_87
	movl	%r11d, %ecx
	shrl	$16, %ecx
	movl	%r11d, %edx
	shrl	$8, %edx
	movl	12(%rsp), %esi
	movb	%sil, -5(%r13,%rax)
	movb	$-125, -4(%r13,%rax)
	movb	%cl, -3(%r13,%rax)
	movb	%dl, -2(%r13,%rax)
	movb	%r11b, -1(%r13,%rax)
	addq	$-5, %rax
	jmp	.LBB24_85
.LBB24_70:
	cmpq	$6, %rax
	jb	.LBB24_85
	cmpq	%r12, %rax
	ja	.LBB24_87
	movl	%r11d, %ecx
	shrl	$24, %ecx
	movl	%r11d, %edx
	shrl	$16, %edx
	movl	%r11d, %esi
	shrl	$8, %esi
	movl	12(%rsp), %edi
	movb	%dil, -6(%r13,%rax)
	movb	$-124, -5(%r13,%rax)
	movb	%cl, -4(%r13,%rax)
	movb	%dl, -3(%r13,%rax)
	movb	%sil, -2(%r13,%rax)
	movb	%r11b, -1(%r13,%rax)
	addq	$-6, %rax
.LBB24_85:
	movq	%rax, 16(%rbx)
	addq	$24, %rsp
	.cfi_def_cfa_offset 56
	popq	%rbx
	.cfi_def_cfa_offset 48
	popq	%r12
	.cfi_def_cfa_offset 40
	popq	%r13
	.cfi_def_cfa_offset 32
	popq	%r14
	.cfi_def_cfa_offset 24
	popq	%r15
	.cfi_def_cfa_offset 16
	popq	%rbp
	.cfi_def_cfa_offset 8
	retq
.LBB24_87:
	.cfi_def_cfa_offset 80
	ud2
.LBB24_86:
	movl	$39, %esi
	movq	%r14, %rdi
	ud2
.Lfunc_end24:
	.size	_RINvNtNtNtCs00000000001_10pkcs1_tool6proved12pkcs1_params6fields13prepend_fieldINtNtNtB6_9spki_core20algorithm_identifier21AlgorithmIdentifierOfNtNtB1k_17object_identifier16ObjectIdentifierNtNtB1k_3any6AnyRefENtNtNtB6_8der_core11back_writer10BackWriterEB8_, .Lfunc_end24-_RINvNtNtNtCs00000000001_10pkcs1_tool6proved12pkcs1_params6fields13prepend_fieldINtNtNtB6_9spki_core20algorithm_identifier21AlgorithmIdentifierOfNtNtB1k_17object_identifier16ObjectIdentifierNtNtB1k_3any6AnyRefENtNtNtB6_8der_core11back_writer10BackWriterEB8_
	.cfi_endproc

	.section	.text._RINvNtNtNtCs00000000001_10pkcs1_tool6proved12pkcs1_params6fields13prepend_fieldINtNtNtB6_9spki_core20algorithm_identifier21AlgorithmIdentifierOfNtNtB1k_17object_identifier16ObjectIdentifierNtNtB1k_3any6AnyRefENtNtNtB6_8der_core7counter7CounterEB8_,"ax",@progbits
	.p2align	4, 0x90
	.type	_RINvNtNtNtCs00000000001_10pkcs1_tool6proved12pkcs1_params6fields13prepend_fieldINtNtNtB6_9spki_core20algorithm_identifier21AlgorithmIdentifierOfNtNtB1k_17object_identifier16ObjectIdentifierNtNtB1k_3any6AnyRefENtNtNtB6_8der_core7counter7CounterEB8_,@function
_RINvNtNtNtCs00000000001_10pkcs1_tool6proved12pkcs1_params6fields13prepend_fieldINtNtNtB6_9spki_core20algorithm_identifier21AlgorithmIdentifierOfNtNtB1k_17object_identifier16ObjectIdentifierNtNtB1k_3any6AnyRefENtNtNtB6_8der_core7counter7CounterEB8_:
	.cfi_startproc
	endbr64
	movq	%rdi, %rax
	movzbl	39(%rdi), %edi
	cmpq	$40, %rdi
	jae	.LBB25_28
	movq	(%rsi), %rcx
	cmpq	$0, 40(%rax)
	movq	%rcx, %rdx
	je	.LBB25_9
	movq	48(%rax), %rax
	addq	%rcx, %rax
	movq	$-1, %rdx
	cmovaeq	%rax, %rdx
	xorl	%eax, %eax
	subq	%rcx, %rdx
	cmovaeq	%rdx, %rax
	cmpq	$128, %rax
	jae	.LBB25_3
	addq	$2, %rax
	jmp	.LBB25_8
.LBB25_3:
	cmpq	$256, %rax
	jae	.LBB25_4
	addq	$3, %rax
	jmp	.LBB25_8
.LBB25_4:
	cmpq	$65536, %rax
	jae	.LBB25_5
	addq	$4, %rax
	jmp	.LBB25_8
.LBB25_5:
	cmpq	$16777216, %rax
	jae	.LBB25_6
	addq	$5, %rax
	jmp	.LBB25_8
.LBB25_6:
	addq	$6, %rax
	movq	$-1, %rdx
	cmovbq	%rdx, %rax
.LBB25_8:
	addq	%rcx, %rax
	movq	$-1, %rdx
	cmovaeq	%rax, %rdx
.LBB25_9:
	addq	%rdx, %rdi
	movq	$-1, %r8
	cmovaeq	%rdi, %r8
	xorl	%eax, %eax
	subq	%rdx, %r8
	cmovaeq	%r8, %rax
	cmpq	$128, %rax
	jae	.LBB25_10
	addq	$2, %rax
	jmp	.LBB25_15
.LBB25_10:
	cmpq	$256, %rax
	jae	.LBB25_11
	addq	$3, %rax
	jmp	.LBB25_15
.LBB25_11:
	cmpq	$65536, %rax
	jae	.LBB25_12
	addq	$4, %rax
	jmp	.LBB25_15
.LBB25_12:
	cmpq	$16777216, %rax
	jae	.LBB25_13
	addq	$5, %rax
	jmp	.LBB25_15
.LBB25_13:
	addq	$6, %rax
	movq	$-1, %rdi
	cmovbq	%rdi, %rax
.LBB25_15:
	addq	%rax, %rdx
	movq	$-1, %rdi
	cmovaeq	%rdx, %rdi
	xorl	%eax, %eax
	subq	%rcx, %rdi
	cmovaeq	%rdi, %rax
	cmpq	$128, %rax
	jae	.LBB25_16
	addq	$2, %rax
	jmp	.LBB25_21
.LBB25_16:
	cmpq	$256, %rax
	jae	.LBB25_17
	addq	$3, %rax
	jmp	.LBB25_21
.LBB25_17:
	cmpq	$65536, %rax
	jae	.LBB25_18
	addq	$4, %rax
	jmp	.LBB25_21
.LBB25_18:
	cmpq	$16777216, %rax
	jae	.LBB25_19
	addq	$5, %rax
	jmp	.LBB25_21
.LBB25_19:
	addq	$6, %rax
	movq	$-1, %rdx
	cmovbq	%rdx, %rax
.LBB25_21:
	addq	%rcx, %rax
	movq	$-1, %rdx
	cmovaeq	%rax, %rdx
	xorl	%eax, %eax
	subq	%rcx, %rdx
	cmovaeq	%rdx, %rax
	cmpq	$128, %rax
	jae	.LBB25_22
	addq	$2, %rax
	jmp	.LBB25_27
.LBB25_22:
	cmpq	$256, %rax
	jae	.LBB25_23
	addq	$3, %rax
	jmp	.LBB25_27
.LBB25_23:
	cmpq	$65536, %rax
	jae	.LBB25_24
	addq	$4, %rax
	jmp	.LBB25_27
.LBB25_24:
	cmpq	$16777216, %rax
	jae	.LBB25_25
	addq	$5, %rax
	jmp	.LBB25_27
.LBB25_25:
	addq	$6, %rax
	movq	$-1, %rdx
	cmovbq	%rdx, %rax
.LBB25_27:
	addq	%rax, %rcx
	movq	$-1, %rax
	cmovaeq	%rcx, %rax
	movq	%rax, (%rsi)
	retq
.LBB25_28:
	pushq	%rax
	.cfi_def_cfa_offset 16
	movl	$39, %esi
	ud2
.Lfunc_end25:
	.size	_RINvNtNtNtCs00000000001_10pkcs1_tool6proved12pkcs1_params6fields13prepend_fieldINtNtNtB6_9spki_core20algorithm_identifier21AlgorithmIdentifierOfNtNtB1k_17object_identifier16ObjectIdentifierNtNtB1k_3any6AnyRefENtNtNtB6_8der_core7counter7CounterEB8_, .Lfunc_end25-_RINvNtNtNtCs00000000001_10pkcs1_tool6proved12pkcs1_params6fields13prepend_fieldINtNtNtB6_9spki_core20algorithm_identifier21AlgorithmIdentifierOfNtNtB1k_17object_identifier16ObjectIdentifierNtNtB1k_3any6AnyRefENtNtNtB6_8der_core7counter7CounterEB8_
	.cfi_endproc

	.section	.text._RINvNtNtNtCs00000000001_10pkcs1_tool6proved12pkcs1_params6fields13prepend_fieldNtNtB4_13trailer_field12TrailerFieldNtNtNtB6_8der_core11back_writer10BackWriterEB8_,"ax",@progbits
	.p2align	4, 0x90
	.type	_RINvNtNtNtCs00000000001_10pkcs1_tool6proved12pkcs1_params6fields13prepend_fieldNtNtB4_13trailer_field12TrailerFieldNtNtNtB6_8der_core11back_writer10BackWriterEB8_,@function
_RINvNtNtNtCs00000000001_10pkcs1_tool6proved12pkcs1_params6fields13prepend_fieldNtNtB4_13trailer_field12TrailerFieldNtNtNtB6_8der_core11back_writer10BackWriterEB8_:
	.cfi_startproc
	endbr64
	pushq	%rax
	.cfi_def_cfa_offset 16
	movq	16(%rdi), %rcx
	testq	%rcx, %rcx
	je	.LBB26_1
	movq	8(%rdi), %rsi
	cmpq	%rsi, %rcx
	ja	.LBB26_26
	movq	(%rdi), %rdx
	movb	$1, -1(%rdx,%rcx)
	cmpq	$3, %rcx
	jae	.LBB26_5
	leaq	-1(%rcx), %rax
	subq	%rax, %rcx
	cmpl	$128, %ecx
	jb	.LBB26_13
.LBB26_7:
	cmpl	$256, %ecx
	jae	.LBB26_8
	cmpq	$3, %rax
	jb	.LBB26_25
	cmpq	%rsi, %rax
	ja	.LBB26_26
	movw	$-32349, -3(%rdx,%rax)
	movb	%cl, -1(%rdx,%rax)
	addq	$-3, %rax
.LBB26_25:
	movq	%rax, 16(%rdi)
	popq	%rax
	.cfi_def_cfa_offset 8
	retq
.LBB26_1:
	.cfi_def_cfa_offset 16
	xorl	%eax, %eax
	movq	%rax, 16(%rdi)
	popq	%rax
	.cfi_def_cfa_offset 8
	retq
.LBB26_5:
	.cfi_def_cfa_offset 16
	leaq	-3(%rcx), %rax
	movw	$258, -3(%rdx,%rcx)
	subq	%rax, %rcx
	cmpl	$128, %ecx
	jae	.LBB26_7
.LBB26_13:
	cmpq	$2, %rax
	jb	.LBB26_25
	cmpq	%rsi, %rax
	ja	.LBB26_26
	shll	$8, %ecx
	orl	$163, %ecx
	movw	%cx, -2(%rdx,%rax)
	addq	$-2, %rax
	movq	%rax, 16(%rdi)
	popq	%rax
	.cfi_def_cfa_offset 8
	retq
.LBB26_8:
	.cfi_def_cfa_offset 16
	cmpl	$65536, %ecx
	jae	.LBB26_9
	cmpq	$4, %rax
	jb	.LBB26_25
	cmpq	%rsi, %rax
	ja	.LBB26_26
	orl	$-1551761408, %ecx
	bswapl	%ecx
	movl	%ecx, -4(%rdx,%rax)
	addq	$-4, %rax
	movq	%rax, 16(%rdi)
	popq	%rax
	.cfi_def_cfa_offset 8
	retq
.LBB26_9:
	.cfi_def_cfa_offset 16
	cmpl	$16777216, %ecx
	jae	.LBB26_10
	cmpq	$5, %rax
	jb	.LBB26_25
	cmpq	%rsi, %rax
	ja	.LBB26_26
	movl	%ecx, %esi
	shrl	$16, %esi
	movl	%ecx, %r8d
	shrl	$8, %r8d
	movw	$-31837, -5(%rdx,%rax)
	movb	%sil, -3(%rdx,%rax)
	movb	%r8b, -2(%rdx,%rax)
	movb	%cl, -1(%rdx,%rax)
	addq	$-5, %rax
	movq	%rax, 16(%rdi)
	popq	%rax
	.cfi_def_cfa_offset 8
	retq
.LBB26_10:
	.cfi_def_cfa_offset 16
	cmpq	$6, %rax
	jb	.LBB26_25
	cmpq	%rsi, %rax
	ja	.LBB26_26
	movl	%ecx, %esi
	shrl	$24, %esi
	movl	%ecx, %r8d
	shrl	$16, %r8d
	movl	%ecx, %r9d
	shrl	$8, %r9d
	movw	$-31581, -6(%rdx,%rax)
	movb	%sil, -4(%rdx,%rax)
	movb	%r8b, -3(%rdx,%rax)
	movb	%r9b, -2(%rdx,%rax)
	movb	%cl, -1(%rdx,%rax)
	addq	$-6, %rax
	movq	%rax, 16(%rdi)
	popq	%rax
	.cfi_def_cfa_offset 8
	retq
.LBB26_26:
	.cfi_def_cfa_offset 16
	ud2
.Lfunc_end26:
	.size	_RINvNtNtNtCs00000000001_10pkcs1_tool6proved12pkcs1_params6fields13prepend_fieldNtNtB4_13trailer_field12TrailerFieldNtNtNtB6_8der_core11back_writer10BackWriterEB8_, .Lfunc_end26-_RINvNtNtNtCs00000000001_10pkcs1_tool6proved12pkcs1_params6fields13prepend_fieldNtNtB4_13trailer_field12TrailerFieldNtNtNtB6_8der_core11back_writer10BackWriterEB8_
	.cfi_endproc

	.section	.text._RINvNtNtNtCs00000000001_10pkcs1_tool6proved12pkcs1_params6fields13prepend_fieldNtNtB4_13trailer_field12TrailerFieldNtNtNtB6_8der_core7counter7CounterEB8_,"ax",@progbits
	.p2align	4, 0x90
	.type	_RINvNtNtNtCs00000000001_10pkcs1_tool6proved12pkcs1_params6fields13prepend_fieldNtNtB4_13trailer_field12TrailerFieldNtNtNtB6_8der_core7counter7CounterEB8_,@function
_RINvNtNtNtCs00000000001_10pkcs1_tool6proved12pkcs1_params6fields13prepend_fieldNtNtB4_13trailer_field12TrailerFieldNtNtNtB6_8der_core7counter7CounterEB8_:
	.cfi_startproc
	endbr64
	movq	(%rdi), %rax
	movq	%rax, %rcx
	incq	%rcx
	movq	$-1, %rdx
	cmovneq	%rcx, %rdx
	xorl	%ecx, %ecx
	subq	%rax, %rdx
	cmovaeq	%rdx, %rcx
	cmpq	$128, %rcx
	jae	.LBB27_1
	addq	$2, %rcx
	jmp	.LBB27_6
.LBB27_1:
	cmpq	$256, %rcx
	jae	.LBB27_2
	addq	$3, %rcx
	jmp	.LBB27_6
.LBB27_2:
	cmpq	$65536, %rcx
	jae	.LBB27_3
	addq	$4, %rcx
	jmp	.LBB27_6
.LBB27_3:
	cmpq	$16777216, %rcx
	jae	.LBB27_4
	addq	$5, %rcx
	jmp	.LBB27_6
.LBB27_4:
	addq	$6, %rcx
	movq	$-1, %rdx
	cmovbq	%rdx, %rcx
.LBB27_6:
	addq	%rax, %rcx
	movq	$-1, %rdx
	cmovaeq	%rcx, %rdx
	xorl	%ecx, %ecx
	subq	%rax, %rdx
	cmovaeq	%rdx, %rcx
	cmpq	$128, %rcx
	jae	.LBB27_7
	addq	$2, %rcx
	jmp	.LBB27_12
.LBB27_7:
	cmpq	$256, %rcx
	jae	.LBB27_8
	addq	$3, %rcx
	jmp	.LBB27_12
.LBB27_8:
	cmpq	$65536, %rcx
	jae	.LBB27_9
	addq	$4, %rcx
	jmp	.LBB27_12
.LBB27_9:
	cmpq	$16777216, %rcx
	jae	.LBB27_10
	addq	$5, %rcx
	jmp	.LBB27_12
.LBB27_10:
	addq	$6, %rcx
	movq	$-1, %rdx
	cmovbq	%rdx, %rcx
.LBB27_12:
	addq	%rcx, %rax
	movq	$-1, %rcx
	cmovaeq	%rax, %rcx
	movq	%rcx, (%rdi)
	retq
.Lfunc_end27:
	.size	_RINvNtNtNtCs00000000001_10pkcs1_tool6proved12pkcs1_params6fields13prepend_fieldNtNtB4_13trailer_field12TrailerFieldNtNtNtB6_8der_core7counter7CounterEB8_, .Lfunc_end27-_RINvNtNtNtCs00000000001_10pkcs1_tool6proved12pkcs1_params6fields13prepend_fieldNtNtB4_13trailer_field12TrailerFieldNtNtNtB6_8der_core7counter7CounterEB8_
	.cfi_endproc

	.section	.text._RINvNtNtNtCs00000000001_10pkcs1_tool6proved12pkcs1_params6fields13prepend_fieldhNtNtNtB6_8der_core11back_writer10BackWriterEB8_,"ax",@progbits
	.p2align	4, 0x90
	.type	_RINvNtNtNtCs00000000001_10pkcs1_tool6proved12pkcs1_params6fields13prepend_fieldhNtNtNtB6_8der_core11back_writer10BackWriterEB8_,@function
_RINvNtNtNtCs00000000001_10pkcs1_tool6proved12pkcs1_params6fields13prepend_fieldhNtNtNtB6_8der_core11back_writer10BackWriterEB8_:
	.cfi_startproc
	endbr64
	pushq	%rax
	.cfi_def_cfa_offset 16
	movq	(%rsi), %rcx
	movq	8(%rsi), %r8
	movq	16(%rsi), %rdx
	testq	%rdx, %rdx
	je	.LBB28_47
	cmpq	%r8, %rdx
	ja	.LBB28_46
	leaq	-1(%rdx), %rax
	movb	%dil, -1(%rcx,%rdx)
	testb	%dil, %dil
	js	.LBB28_3
	movq	%rdx, %rdi
	subq	%rax, %rdi
	cmpl	$128, %edi
	jae	.LBB28_8
.LBB28_14:
	cmpq	$2, %rax
	jb	.LBB28_26
	cmpq	%r8, %rax
	ja	.LBB28_46
	shll	$8, %edi
	orl	$2, %edi
	movw	%di, -2(%rcx,%rax)
	addq	$-2, %rax
	jmp	.LBB28_26
.LBB28_47:
	xorl	%eax, %eax
	testb	%dil, %dil
	js	.LBB28_6
.LBB28_45:
	movq	%rax, 16(%rsi)
	popq	%rax
	.cfi_def_cfa_offset 8
	retq
.LBB28_3:
	.cfi_def_cfa_offset 16
	testq	%rax, %rax
	je	.LBB28_4
	leaq	-2(%rdx), %rax
	movb	$0, -2(%rcx,%rdx)
	jmp	.LBB28_6
.LBB28_4:
	xorl	%eax, %eax
.LBB28_6:
	movq	%rax, 16(%rsi)
	movq	%rdx, %rdi
	subq	%rax, %rdi
	cmpl	$128, %edi
	jb	.LBB28_14
.LBB28_8:
	cmpl	$256, %edi
	jae	.LBB28_9
	cmpq	$3, %rax
	jb	.LBB28_26
	cmpq	%r8, %rax
	ja	.LBB28_46
	movw	$-32510, -3(%rcx,%rax)
	movb	%dil, -1(%rcx,%rax)
	addq	$-3, %rax
	jmp	.LBB28_26
.LBB28_9:
	cmpl	$65536, %edi
	jae	.LBB28_10
	cmpq	$4, %rax
	jb	.LBB28_26
	cmpq	%r8, %rax
	ja	.LBB28_46
	orl	$42074112, %edi
	bswapl	%edi
	movl	%edi, -4(%rcx,%rax)
	addq	$-4, %rax
	jmp	.LBB28_26
.LBB28_10:
	cmpl	$16777216, %edi
	jae	.LBB28_11
	cmpq	$5, %rax
	jb	.LBB28_26
	cmpq	%r8, %rax
	ja	.LBB28_46
	movl	%edi, %r9d
	shrl	$16, %r9d
	movl	%edi, %r10d
	shrl	$8, %r10d
	movw	$-31998, -5(%rcx,%rax)
	movb	%r9b, -3(%rcx,%rax)
	movb	%r10b, -2(%rcx,%rax)
	movb	%dil, -1(%rcx,%rax)
	addq	$-5, %rax
	jmp	.LBB28_26
.LBB28_11:
	cmpq	$6, %rax
	jb	.LBB28_26
	cmpq	%r8, %rax
	ja	.LBB28_46
	movl	%edi, %r9d
	shrl	$24, %r9d
	movl	%edi, %r10d
	shrl	$16, %r10d
	movl	%edi, %r11d
	shrl	$8, %r11d
	movw	$-31742, -6(%rcx,%rax)
	movb	%r9b, -4(%rcx,%rax)
	movb	%r10b, -3(%rcx,%rax)
	movb	%r11b, -2(%rcx,%rax)
	movb	%dil, -1(%rcx,%rax)
	addq	$-6, %rax
.LBB28_26:
	subq	%rax, %rdx
	cmpl	$128, %edx
	jae	.LBB28_27
	cmpq	$2, %rax
	jb	.LBB28_45
	cmpq	%r8, %rax
	ja	.LBB28_46
	shll	$8, %edx
	orl	$162, %edx
	movw	%dx, -2(%rcx,%rax)
	addq	$-2, %rax
	movq	%rax, 16(%rsi)
	popq	%rax
	.cfi_def_cfa_offset 8
	retq
.LBB28_27:
	.cfi_def_cfa_offset 16
	cmpl	$256, %edx
	jae	.LBB28_28
	cmpq	$3, %rax
	jb	.LBB28_45
	cmpq	%r8, %rax
	ja	.LBB28_46
	movw	$-32350, -3(%rcx,%rax)
	movb	%dl, -1(%rcx,%rax)
	addq	$-3, %rax
	movq	%rax, 16(%rsi)
	popq	%rax
	.cfi_def_cfa_offset 8
	retq
.LBB28_28:
	.cfi_def_cfa_offset 16
	cmpl	$65536, %edx
	jae	.LBB28_29
	cmpq	$4, %rax
	jb	.LBB28_45
	cmpq	%r8, %rax
	ja	.LBB28_46
	orl	$-1568538624, %edx
	bswapl	%edx
	movl	%edx, -4(%rcx,%rax)
	addq	$-4, %rax
	movq	%rax, 16(%rsi)
	popq	%rax
	.cfi_def_cfa_offset 8
	retq
.LBB28_29:
	.cfi_def_cfa_offset 16
	cmpl	$16777216, %edx
	jae	.LBB28_30
	cmpq	$5, %rax
	jb	.LBB28_45
	cmpq	%r8, %rax
	ja	.LBB28_46
	movl	%edx, %edi
	shrl	$16, %edi
	movl	%edx, %r8d
	shrl	$8, %r8d
	movw	$-31838, -5(%rcx,%rax)
	movb	%dil, -3(%rcx,%rax)
	movb	%r8b, -2(%rcx,%rax)
	movb	%dl, -1(%rcx,%rax)
	addq	$-5, %rax
	movq	%rax, 16(%rsi)
	popq	%rax
	.cfi_def_cfa_offset 8
	retq
.LBB28_30:
	.cfi_def_cfa_offset 16
	cmpq	$6, %rax
	jb	.LBB28_45
	cmpq	%r8, %rax
	ja	.LBB28_46
	movl	%edx, %edi
	shrl	$24, %edi
	movl	%edx, %r8d
	shrl	$16, %r8d
	movl	%edx, %r9d
	shrl	$8, %r9d
	movw	$-31582, -6(%rcx,%rax)
	movb	%dil, -4(%rcx,%rax)
	movb	%r8b, -3(%rcx,%rax)
	movb	%r9b, -2(%rcx,%rax)
	movb	%dl, -1(%rcx,%rax)
	addq	$-6, %rax
	movq	%rax, 16(%rsi)
	popq	%rax
	.cfi_def_cfa_offset 8
	retq
.LBB28_46:
	.cfi_def_cfa_offset 16
	ud2
.Lfunc_end28:
	.size	_RINvNtNtNtCs00000000001_10pkcs1_tool6proved12pkcs1_params6fields13prepend_fieldhNtNtNtB6_8der_core11back_writer10BackWriterEB8_, .Lfunc_end28-_RINvNtNtNtCs00000000001_10pkcs1_tool6proved12pkcs1_params6fields13prepend_fieldhNtNtNtB6_8der_core11back_writer10BackWriterEB8_
	.cfi_endproc

	.section	.text._RINvNtNtNtCs00000000001_10pkcs1_tool6proved12pkcs1_params6fields13prepend_fieldhNtNtNtB6_8der_core7counter7CounterEB8_,"ax",@progbits
	.p2align	4, 0x90
	.type	_RINvNtNtNtCs00000000001_10pkcs1_tool6proved12pkcs1_params6fields13prepend_fieldhNtNtNtB6_8der_core7counter7CounterEB8_,@function
_RINvNtNtNtCs00000000001_10pkcs1_tool6proved12pkcs1_params6fields13prepend_fieldhNtNtNtB6_8der_core7counter7CounterEB8_:
	.cfi_startproc
	endbr64
	movq	(%rsi), %rax
	shrb	$7, %dil
	movzbl	%dil, %ecx
	incq	%rcx
	addq	%rax, %rcx
	movq	$-1, %rdx
	cmovaeq	%rcx, %rdx
	xorl	%ecx, %ecx
	subq	%rax, %rdx
	cmovaeq	%rdx, %rcx
	cmpq	$128, %rcx
	jae	.LBB29_1
	addq	$2, %rcx
	jmp	.LBB29_6
.LBB29_1:
	cmpq	$256, %rcx
	jae	.LBB29_2
	addq	$3, %rcx
	jmp	.LBB29_6
.LBB29_2:
	cmpq	$65536, %rcx
	jae	.LBB29_3
	addq	$4, %rcx
	jmp	.LBB29_6
.LBB29_3:
	cmpq	$16777216, %rcx
	jae	.LBB29_4
	addq	$5, %rcx
	jmp	.LBB29_6
.LBB29_4:
	addq	$6, %rcx
	movq	$-1, %rdx
	cmovbq	%rdx, %rcx
.LBB29_6:
	addq	%rax, %rcx
	movq	$-1, %rdx
	cmovaeq	%rcx, %rdx
	xorl	%ecx, %ecx
	subq	%rax, %rdx
	cmovaeq	%rdx, %rcx
	cmpq	$128, %rcx
	jae	.LBB29_7
	addq	$2, %rcx
	jmp	.LBB29_12
.LBB29_7:
	cmpq	$256, %rcx
	jae	.LBB29_8
	addq	$3, %rcx
	jmp	.LBB29_12
.LBB29_8:
	cmpq	$65536, %rcx
	jae	.LBB29_9
	addq	$4, %rcx
	jmp	.LBB29_12
.LBB29_9:
	cmpq	$16777216, %rcx
	jae	.LBB29_10
	addq	$5, %rcx
	jmp	.LBB29_12
.LBB29_10:
	addq	$6, %rcx
	movq	$-1, %rdx
	cmovbq	%rdx, %rcx
.LBB29_12:
	addq	%rcx, %rax
	movq	$-1, %rcx
	cmovaeq	%rax, %rcx
	movq	%rcx, (%rsi)
	retq
.Lfunc_end29:
	.size	_RINvNtNtNtCs00000000001_10pkcs1_tool6proved12pkcs1_params6fields13prepend_fieldhNtNtNtB6_8der_core7counter7CounterEB8_, .Lfunc_end29-_RINvNtNtNtCs00000000001_10pkcs1_tool6proved12pkcs1_params6fields13prepend_fieldhNtNtNtB6_8der_core7counter7CounterEB8_
	.cfi_endproc

	.section	.text._RNvXs_NtNtNtCs00000000001_10pkcs1_tool6proved12pkcs1_params7holdersINtNtNtB8_9spki_core20algorithm_identifier21AlgorithmIdentifierOfNtNtB18_17object_identifier16ObjectIdentifierIB14_B26_NtNtB18_3any6AnyRefEENtB4_10MaskHolder10is_defaultBa_,"ax",@progbits
	.p2align	4, 0x90
	.type	_RNvXs_NtNtNtCs00000000001_10pkcs1_tool6proved12pkcs1_params7holdersINtNtNtB8_9spki_core20algorithm_identifier21AlgorithmIdentifierOfNtNtB18_17object_identifier16ObjectIdentifierIB14_B26_NtNtB18_3any6AnyRefEENtB4_10MaskHolder10is_defaultBa_,@function
_RNvXs_NtNtNtCs00000000001_10pkcs1_tool6proved12pkcs1_params7holdersINtNtNtB8_9spki_core20algorithm_identifier21AlgorithmIdentifierOfNtNtB18_17object_identifier16ObjectIdentifierIB14_B26_NtNtB18_3any6AnyRefEENtB4_10MaskHolder10is_defaultBa_:
	.cfi_startproc
	endbr64
	pushq	%rax
	.cfi_def_cfa_offset 16
	cmpl	$1, (%rdi)
	jne	.LBB30_12
	movzbl	111(%rdi), %eax
	cmpq	$40, %rax
	jae	.LBB30_15
	cmpl	$9, %eax
	jne	.LBB30_12
	xorl	%eax, %eax
	movabsq	$72354425775621674, %rcx
	cmpq	%rcx, 72(%rdi)
	jne	.LBB30_11
	cmpb	$8, 80(%rdi)
	jne	.LBB30_11
	cmpq	$0, 48(%rdi)
	je	.LBB30_12
	movzbl	47(%rdi), %ecx
	cmpq	$40, %rcx
	jae	.LBB30_16
	xorl	%eax, %eax
	cmpl	$5, %ecx
	jne	.LBB30_11
	movq	8(%rdi), %rcx
	cmpl	$33754667, %ecx
	jne	.LBB30_11
	cmpb	$26, 12(%rdi)
	jne	.LBB30_11
	movzbl	64(%rdi), %eax
	xorq	$5, %rax
	orq	56(%rdi), %rax
	sete	%al
.LBB30_11:
	popq	%rcx
	.cfi_def_cfa_offset 8
	retq
.LBB30_12:
	.cfi_def_cfa_offset 16
	xorl	%eax, %eax
	popq	%rcx
	.cfi_def_cfa_offset 8
	retq
.LBB30_15:
	.cfi_def_cfa_offset 16
	movl	$39, %esi
	movq	%rax, %rdi
	ud2
.LBB30_16:
	movl	$39, %esi
	movq	%rcx, %rdi
	ud2
.Lfunc_end30:
	.size	_RNvXs_NtNtNtCs00000000001_10pkcs1_tool6proved12pkcs1_params7holdersINtNtNtB8_9spki_core20algorithm_identifier21AlgorithmIdentifierOfNtNtB18_17object_identifier16ObjectIdentifierIB14_B26_NtNtB18_3any6AnyRefEENtB4_10MaskHolder10is_defaultBa_, .Lfunc_end30-_RNvXs_NtNtNtCs00000000001_10pkcs1_tool6proved12pkcs1_params7holdersINtNtNtB8_9spki_core20algorithm_identifier21AlgorithmIdentifierOfNtNtB18_17object_identifier16ObjectIdentifierIB14_B26_NtNtB18_3any6AnyRefEENtB4_10MaskHolder10is_defaultBa_
	.cfi_endproc

	.section	.rodata.cst16,"aM",@progbits,16
	.p2align	4, 0x0
.LCPI31_0:
	.zero	16,128
.LCPI31_1:
	.byte	128
	.byte	128
	.byte	128
	.byte	128
	.byte	128
	.byte	128
	.byte	128
	.byte	128
	.zero	1
	.zero	1
	.zero	1
	.zero	1
	.zero	1
	.zero	1
	.zero	1
	.zero	1
	.section	.text._RNvNtNtNtCs00000000001_10pkcs1_tool6proved12pkcs1_params6noting8note_pss,"ax",@progbits
	.p2align	4, 0x90
	.type	_RNvNtNtNtCs00000000001_10pkcs1_tool6proved12pkcs1_params6noting8note_pss,@function
_RNvNtNtNtCs00000000001_10pkcs1_tool6proved12pkcs1_params6noting8note_pss:
	.cfi_startproc
	endbr64
	pushq	%rbp
	.cfi_def_cfa_offset 16
	pushq	%r15
	.cfi_def_cfa_offset 24
	pushq	%r14
	.cfi_def_cfa_offset 32
	pushq	%r13
	.cfi_def_cfa_offset 40
	pushq	%r12
	.cfi_def_cfa_offset 48
	pushq	%rbx
	.cfi_def_cfa_offset 56
	subq	$152, %rsp
	.cfi_def_cfa_offset 208
	.cfi_offset %rbx, -56
	.cfi_offset %r12, -48
	.cfi_offset %r13, -40
	.cfi_offset %r14, -32
	.cfi_offset %r15, -24
	.cfi_offset %rbp, -16
	movq	%rdi, %rbx
	leaq	.Lanon.25(%rip), %r10
	leaq	_RNvNtNtCs00000000001_10pkcs1_tool10rattle_std7library8AN_OCTET(%rip), %r9
	movl	$5, %r14d
	testq	%rdx, %rdx
	je	.LBB31_6
	cmpb	$-96, (%rsi)
	jne	.LBB31_7
	cmpq	$1, %rdx
	je	.LBB31_23
	leaq	2(%rsi), %r9
	leaq	-2(%rdx), %rbp
	movsbq	1(%rsi), %rax
	testq	%rax, %rax
	js	.LBB31_13
	subq	%rax, %rbp
	jb	.LBB31_23
	leaq	(%r9,%rax), %rcx
	cmpq	$2, %rax
	jae	.LBB31_25
	jmp	.LBB31_56
.LBB31_6:
	xorl	%r8d, %r8d
	xorl	%ebp, %ebp
	movq	%rsi, %rcx
	movl	$5, %r11d
	cmpb	$43, (%r10)
	je	.LBB31_8
	jmp	.LBB31_116
.LBB31_7:
	xorl	%r8d, %r8d
	movq	%rdx, %rbp
	movq	%rsi, %rcx
	movl	$5, %r11d
	cmpb	$43, (%r10)
	jne	.LBB31_116
.LBB31_8:
	cmpb	$14, 1(%r10)
	jne	.LBB31_116
	cmpb	$3, 2(%r10)
	jne	.LBB31_116
	cmpb	$2, 3(%r10)
	jne	.LBB31_116
	cmpb	$26, 4(%r10)
	jne	.LBB31_116
	movq	%r14, %rax
	xorq	$5, %rax
	orq	%r8, %rax
	sete	%r13b
	testq	%rdx, %rdx
	jne	.LBB31_117
.LBB31_119:
	xorl	%r13d, %r13d
	jmp	.LBB31_120
.LBB31_13:
	cmpb	$-126, %al
	jne	.LBB31_18
	cmpq	$1, %rbp
	jbe	.LBB31_23
	movzbl	2(%rsi), %ecx
	testq	%rcx, %rcx
	je	.LBB31_23
	leaq	-4(%rdx), %rbp
	shll	$8, %ecx
	movzbl	3(%rsi), %eax
	orq	%rcx, %rax
	subq	%rax, %rbp
	jb	.LBB31_23
	leaq	4(%rsi), %r9
	leaq	(%r9,%rax), %rcx
	jmp	.LBB31_25
.LBB31_18:
	testq	%rbp, %rbp
	je	.LBB31_23
	cmpb	$-127, %al
	jne	.LBB31_23
	movzbl	(%r9), %eax
	testb	%al, %al
	jns	.LBB31_23
	leaq	-3(%rdx), %rbp
	subq	%rax, %rbp
	jb	.LBB31_23
	leaq	3(%rsi), %r9
	leaq	(%r9,%rax), %rcx
	jmp	.LBB31_25
.LBB31_23:
	leaq	32(%rsp), %rdi
	movq	%rsi, %r14
	movq	%rdx, %r12
	movl	$160, %ecx
	callq	_RNvNtNtNtCs00000000001_10pkcs1_tool6proved8der_core5split14split_unlikely
	movq	32(%rsp), %r9
	testq	%r9, %r9
	je	.LBB31_94
	movq	40(%rsp), %rax
	movq	48(%rsp), %rcx
	movq	56(%rsp), %rbp
	movq	%r14, %rsi
	movq	%r12, %rdx
	cmpq	$2, %rax
	jb	.LBB31_56
.LBB31_25:
	cmpb	$48, (%r9)
	jne	.LBB31_56
	movq	%rcx, 16(%rsp)
	leaq	2(%r9), %r8
	leaq	-2(%rax), %r12
	movsbq	1(%r9), %rcx
	testq	%rcx, %rcx
	js	.LBB31_30
	subq	%rcx, %r12
	jb	.LBB31_55
	cmpq	$2, %rcx
	jb	.LBB31_58
.LBB31_29:
	cmpb	$6, (%r8)
	je	.LBB31_41
	jmp	.LBB31_58
.LBB31_30:
	cmpb	$-126, %cl
	jne	.LBB31_35
	cmpq	$1, %r12
	jbe	.LBB31_55
	movzbl	2(%r9), %edi
	testq	%rdi, %rdi
	je	.LBB31_55
	leaq	-4(%rax), %r12
	shll	$8, %edi
	movzbl	3(%r9), %ecx
	orq	%rdi, %rcx
	subq	%rcx, %r12
	jb	.LBB31_55
	addq	$4, %r9
	jmp	.LBB31_40
.LBB31_35:
	testq	%r12, %r12
	je	.LBB31_55
	cmpb	$-127, %cl
	jne	.LBB31_55
	movzbl	(%r8), %ecx
	testb	%cl, %cl
	jns	.LBB31_55
	leaq	-3(%rax), %r12
	subq	%rcx, %r12
	jb	.LBB31_55
	addq	$3, %r9
.LBB31_40:
	movq	%r9, %r8
	cmpb	$6, (%r8)
	jne	.LBB31_58
.LBB31_41:
	leaq	2(%r8), %r9
	leaq	-2(%rcx), %rax
	movsbq	1(%r8), %r10
	testq	%r10, %r10
	js	.LBB31_44
	subq	%r10, %rax
	jb	.LBB31_58
	leaq	(%r9,%r10), %rcx
	leaq	-1(%r10), %rdi
	movl	$5, %r8d
	cmpq	$38, %rdi
	jbe	.LBB31_60
	jmp	.LBB31_108
.LBB31_44:
	cmpb	$-126, %r10b
	jne	.LBB31_49
	cmpq	$1, %rax
	jbe	.LBB31_58
	movzbl	2(%r8), %edi
	testq	%rdi, %rdi
	je	.LBB31_58
	leaq	-4(%rcx), %rax
	shll	$8, %edi
	movzbl	3(%r8), %r10d
	orq	%rdi, %r10
	subq	%r10, %rax
	jb	.LBB31_58
	addq	$4, %r8
	jmp	.LBB31_54
.LBB31_49:
	testq	%rax, %rax
	je	.LBB31_58
	cmpb	$-127, %r10b
	jne	.LBB31_58
	movzbl	(%r9), %r10d
	testb	%r10b, %r10b
	jns	.LBB31_58
	leaq	-3(%rcx), %rax
	subq	%r10, %rax
	jb	.LBB31_58
	addq	$3, %r8
.LBB31_54:
	leaq	(%r8,%r10), %rcx
	movq	%r8, %r9
	leaq	-1(%r10), %rdi
	movl	$5, %r8d
	cmpq	$38, %rdi
	jbe	.LBB31_60
	jmp	.LBB31_108
.LBB31_55:
	movq	16(%rsp), %rcx
.LBB31_56:
	movq	%rcx, 16(%rsp)
	movq	%rdx, %r14
	movq	%rsi, %r13
	leaq	32(%rsp), %rdi
	movq	%r9, %rsi
	movq	%rax, %rdx
	movl	$48, %ecx
	callq	_RNvNtNtNtCs00000000001_10pkcs1_tool6proved8der_core5split14split_unlikely
	movq	32(%rsp), %r8
	testq	%r8, %r8
	je	.LBB31_87
	movq	40(%rsp), %rcx
	movq	56(%rsp), %r12
	movq	%r13, %rsi
	movq	%r14, %rdx
	cmpq	$2, %rcx
	jae	.LBB31_29
.LBB31_58:
	movq	%rdx, %r13
	movq	%rsi, %r14
	leaq	32(%rsp), %rdi
	movq	%r8, %rsi
	movq	%rcx, %rdx
	movl	$6, %ecx
	callq	_RNvNtNtNtCs00000000001_10pkcs1_tool6proved8der_core5split14split_unlikely
	movq	32(%rsp), %r9
	testq	%r9, %r9
	je	.LBB31_88
	movq	40(%rsp), %r10
	movq	48(%rsp), %rcx
	movq	56(%rsp), %rax
	movq	%r14, %rsi
	movq	%r13, %rdx
	leaq	-1(%r10), %rdi
	movl	$5, %r8d
	cmpq	$38, %rdi
	ja	.LBB31_108
.LBB31_60:
	movq	%r10, 112(%rsp)
	movq	%r9, %r15
	movzbl	(%r9,%rdi), %r9d
	testb	%r9b, %r9b
	js	.LBB31_73
	movdqa	.LCPI31_1(%rip), %xmm0
	movdqa	.LCPI31_0(%rip), %xmm1
	xorl	%r10d, %r10d
	movq	%r15, %r11
	jmp	.LBB31_63
	.p2align	4, 0x90
.LBB31_62:
	addq	%r13, %rdi
	addq	%r14, %r11
.LBB31_63:
	cmpq	$7, %rdi
	jbe	.LBB31_66
	movq	(%r11), %xmm2
	pcmpeqb	%xmm0, %xmm2
	pmovmskb	%xmm2, %r14d
	testb	%r14b, %r14b
	jne	.LBB31_72
	movl	$8, %r14d
	movq	$-8, %r13
	jmp	.LBB31_62
	.p2align	4, 0x90
.LBB31_66:
	cmpq	$3, %rdi
	jbe	.LBB31_69
	movd	(%r11), %xmm2
	punpcklbw	%xmm2, %xmm2
	punpcklwd	%xmm2, %xmm2
	pcmpeqb	%xmm1, %xmm2
	movmskps	%xmm2, %r14d
	testl	%r14d, %r14d
	jne	.LBB31_72
	movl	$4, %r14d
	movq	$-4, %r13
	jmp	.LBB31_62
	.p2align	4, 0x90
.LBB31_69:
	testq	%rdi, %rdi
	je	.LBB31_76
	cmpb	(%r11), %r10b
	jo	.LBB31_72
	movl	$1, %r14d
	movq	$-1, %r13
	jmp	.LBB31_62
.LBB31_72:
	cmpq	$0, 112(%rsp)
	je	.LBB31_76
.LBB31_73:
	xorl	%edi, %edi
	cmpb	(%r15), %dil
	jo	.LBB31_108
	movq	112(%rsp), %r14
	cmpq	$1, %r14
	jne	.LBB31_82
.LBB31_75:
	testb	%r9b, %r9b
	js	.LBB31_108
.LBB31_76:
	testq	%rax, %rax
	je	.LBB31_80
	movzbl	(%rcx), %edi
	movl	%edi, %r8d
	notb	%r8b
	testb	$31, %r8b
	sete	%r8b
	testb	$-33, %dil
	sete	%r9b
	orb	%r8b, %r9b
	je	.LBB31_90
	movl	$11, %eax
	xorl	%r8d, %r8d
.LBB31_79:
	movzbl	%dil, %ecx
	orl	%ecx, %r8d
	shll	$8, %r8d
	jmp	.LBB31_89
.LBB31_80:
	testq	%r12, %r12
	movq	16(%rsp), %rcx
	jne	.LBB31_113
	xorl	%r9d, %r9d
	xorl	%r13d, %r13d
	movq	%r15, %r10
	movq	112(%rsp), %r11
	testq	%rdx, %rdx
	jne	.LBB31_117
	jmp	.LBB31_119
.LBB31_82:
	leaq	-1(%r14), %r10
	xorl	%r11d, %r11d
	xorl	%edi, %edi
	jmp	.LBB31_84
	.p2align	4, 0x90
.LBB31_83:
	incq	%rdi
	cmpq	%rdi, %r10
	je	.LBB31_75
.LBB31_84:
	cmpb	1(%r15,%rdi), %r11b
	jno	.LBB31_83
	cmpq	%r14, %rdi
	jae	.LBB31_640
	cmpb	$0, (%r15,%rdi)
	js	.LBB31_83
	jmp	.LBB31_108
.LBB31_87:
	movzbl	42(%rsp), %eax
	shll	$16, %eax
	movzwl	40(%rsp), %r8d
	orl	%r8d, %eax
	jmp	.LBB31_109
.LBB31_88:
	movzwl	40(%rsp), %eax
	movzbl	42(%rsp), %r8d
	shll	$16, %r8d
.LBB31_89:
	orq	%rax, %r8
	jmp	.LBB31_108
.LBB31_90:
	movzbl	%dil, %r14d
	cmpq	$1, %rax
	je	.LBB31_105
	leaq	2(%rcx), %r9
	leaq	-2(%rax), %rdi
	movsbq	1(%rcx), %r8
	testq	%r8, %r8
	js	.LBB31_95
	subq	%r8, %rdi
	jb	.LBB31_105
	movq	%r8, %rax
	jmp	.LBB31_107
.LBB31_94:
	movzbl	42(%rsp), %eax
	shll	$16, %eax
	movzwl	40(%rsp), %ecx
	jmp	.LBB31_111
.LBB31_95:
	cmpb	$-126, %r8b
	jne	.LBB31_100
	cmpq	$1, %rdi
	jbe	.LBB31_105
	movzbl	2(%rcx), %r8d
	testq	%r8, %r8
	je	.LBB31_105
	leaq	-4(%rax), %rdi
	shll	$8, %r8d
	movzbl	3(%rcx), %r9d
	orq	%r8, %r9
	subq	%r9, %rdi
	jb	.LBB31_105
	movq	%r9, %rax
	addq	$4, %rcx
	movq	%rcx, %r9
	jmp	.LBB31_107
.LBB31_100:
	testq	%rdi, %rdi
	je	.LBB31_105
	cmpb	$-127, %r8b
	jne	.LBB31_105
	movzbl	(%r9), %r8d
	testb	%r8b, %r8b
	jns	.LBB31_105
	leaq	-3(%rax), %rdi
	subq	%r8, %rdi
	jb	.LBB31_105
	movq	%r8, %rax
	addq	$3, %rcx
	movq	%rcx, %r9
	jmp	.LBB31_107
.LBB31_105:
	movq	%r14, %r8
	movq	%rdx, 128(%rsp)
	movq	%rsi, %r13
	leaq	32(%rsp), %rdi
	movq	%rcx, %rsi
	movq	%rax, %rdx
	movl	%r8d, %ecx
	callq	_RNvNtNtNtCs00000000001_10pkcs1_tool6proved8der_core5split14split_unlikely
	movq	32(%rsp), %r9
	testq	%r9, %r9
	je	.LBB31_559
	movq	40(%rsp), %rax
	movq	56(%rsp), %rdi
	movq	%r13, %rsi
	movq	128(%rsp), %rdx
.LBB31_107:
	movl	$12, %r8d
	testq	%rdi, %rdi
	je	.LBB31_112
.LBB31_108:
	movl	%r8d, %eax
.LBB31_109:
	shrl	$8, %eax
.LBB31_110:
	shll	$8, %eax
	movzbl	%r8b, %ecx
.LBB31_111:
	orl	%eax, %ecx
	movw	%cx, (%rbx)
	shrl	$16, %ecx
	movb	%cl, 2(%rbx)
	jmp	.LBB31_634
.LBB31_112:
	testq	%r12, %r12
	je	.LBB31_114
.LBB31_113:
	movb	$12, %r8b
	jmp	.LBB31_110
.LBB31_114:
	movq	112(%rsp), %r11
	cmpq	$5, %r11
	jne	.LBB31_118
	movq	%r15, %r10
	movq	%rax, %r8
	movq	16(%rsp), %rcx
	movl	$5, %r11d
	cmpb	$43, (%r10)
	je	.LBB31_8
.LBB31_116:
	xorl	%r13d, %r13d
	testq	%rdx, %rdx
	je	.LBB31_119
.LBB31_117:
	cmpb	$-96, (%rsi)
	sete	%al
	andb	%al, %r13b
.LBB31_120:
	leaq	.Lanon.26(%rip), %rdi
	leaq	.Lanon.25(%rip), %rdx
	leaq	_RNvNtNtCs00000000001_10pkcs1_tool10rattle_std7library8AN_OCTET(%rip), %r15
	testq	%rbp, %rbp
	movq	%rcx, 16(%rsp)
	je	.LBB31_126
	cmpb	$-95, (%rcx)
	jne	.LBB31_127
	cmpq	$1, %rbp
	movq	%rbx, 24(%rsp)
	movq	%r8, 80(%rsp)
	movq	%r9, 64(%rsp)
	je	.LBB31_204
	leaq	2(%rcx), %rsi
	leaq	-2(%rbp), %r12
	movsbq	1(%rcx), %rdx
	testq	%rdx, %rdx
	js	.LBB31_166
	subq	%rdx, %r12
	jb	.LBB31_204
	leaq	(%rsi,%rdx), %rcx
	cmpq	$2, %rdx
	jae	.LBB31_206
	jmp	.LBB31_265
.LBB31_126:
	movl	$5, %eax
	movq	%rax, 144(%rsp)
	movq	$0, 120(%rsp)
	movl	$5, %esi
	xorl	%r12d, %r12d
	jmp	.LBB31_128
.LBB31_127:
	movl	$5, %eax
	movq	%rax, 144(%rsp)
	movq	$0, 120(%rsp)
	movl	$5, %esi
	movq	%rbp, %r12
.LBB31_128:
	movl	$9, %eax
	movq	%rax, 128(%rsp)
	movabsq	$72354425775621674, %rax
	cmpq	%rax, (%rdi)
	jne	.LBB31_138
	cmpb	$8, 8(%rdi)
	jne	.LBB31_138
	xorl	%eax, %eax
	testq	%r15, %r15
	je	.LBB31_139
	cmpq	$5, %rsi
	jne	.LBB31_139
	movl	$5, %esi
	cmpb	$43, (%rdx)
	jne	.LBB31_138
	cmpb	$14, 1(%rdx)
	jne	.LBB31_138
	cmpb	$3, 2(%rdx)
	jne	.LBB31_138
	cmpb	$2, 3(%rdx)
	jne	.LBB31_138
	cmpb	$26, 4(%rdx)
	jne	.LBB31_138
	movzbl	144(%rsp), %eax
	xorq	$5, %rax
	orq	120(%rsp), %rax
	sete	%al
	jmp	.LBB31_139
.LBB31_138:
	xorl	%eax, %eax
.LBB31_139:
	testb	%r13b, %r13b
	movq	%r15, 136(%rsp)
	je	.LBB31_149
	movb	$20, %r15b
	testq	%r12, %r12
	je	.LBB31_165
	cmpb	$-94, (%rcx)
	jne	.LBB31_171
	movq	%rsi, %r15
	movq	%rdx, %r13
	cmpq	$1, %r12
	movq	%r8, 80(%rsp)
	movq	%r9, 64(%rsp)
	movq	%rdi, 88(%rsp)
	je	.LBB31_325
	leaq	2(%rcx), %rsi
	leaq	-2(%r12), %rbp
	movsbq	1(%rcx), %rdx
	testq	%rdx, %rdx
	js	.LBB31_240
	subq	%rdx, %rbp
	jb	.LBB31_325
	leaq	(%rsi,%rdx), %rcx
	cmpq	$2, %rdx
	jb	.LBB31_147
.LBB31_146:
	cmpb	$2, (%rsi)
	je	.LBB31_316
	jmp	.LBB31_147
.LBB31_149:
	testq	%rbp, %rbp
	je	.LBB31_157
	movq	16(%rsp), %r13
	cmpb	$-95, (%r13)
	movq	%r14, %r13
	movq	%rcx, %r14
	sete	%cl
	testb	%cl, %al
	movq	%r14, %rcx
	movq	%r13, %r14
	je	.LBB31_157
	testq	%r12, %r12
	je	.LBB31_236
	movzbl	(%rcx), %eax
	cmpb	$-94, %al
	jne	.LBB31_250
	movq	%rsi, 16(%rsp)
	movq	%rdx, 72(%rsp)
	cmpq	$1, %r12
	movq	%rdi, 88(%rsp)
	je	.LBB31_482
	leaq	2(%rcx), %rsi
	leaq	-2(%r12), %rbp
	movsbq	1(%rcx), %rdx
	testq	%rdx, %rdx
	js	.LBB31_387
	subq	%rdx, %rbp
	jb	.LBB31_482
	leaq	(%rsi,%rdx), %rcx
	cmpq	$2, %rdx
	jae	.LBB31_484
	jmp	.LBB31_569
.LBB31_157:
	movb	$2, %r13b
	testq	%r12, %r12
	je	.LBB31_187
	movzbl	(%rcx), %eax
	movb	$20, %r15b
	cmpb	$-94, %al
	jne	.LBB31_188
	movq	%rsi, 16(%rsp)
	movq	%rdx, 72(%rsp)
	cmpq	$1, %r12
	movq	%r8, 80(%rsp)
	movq	%r9, 64(%rsp)
	movq	%rdi, 88(%rsp)
	je	.LBB31_376
	leaq	2(%rcx), %rsi
	leaq	-2(%r12), %rbp
	movsbq	1(%rcx), %rdx
	testq	%rdx, %rdx
	js	.LBB31_259
	subq	%rdx, %rbp
	jb	.LBB31_376
	leaq	(%rsi,%rdx), %rax
	movq	%rax, 104(%rsp)
	cmpq	$2, %rdx
	jae	.LBB31_378
	jmp	.LBB31_163
.LBB31_165:
	xorl	%r13d, %r13d
	xorl	%r12d, %r12d
	jmp	.LBB31_172
.LBB31_166:
	cmpb	$-126, %dl
	jne	.LBB31_199
	cmpq	$1, %r12
	jbe	.LBB31_204
	movzbl	2(%rcx), %eax
	testq	%rax, %rax
	je	.LBB31_204
	leaq	-4(%rbp), %r12
	shll	$8, %eax
	movzbl	3(%rcx), %edx
	orq	%rax, %rdx
	subq	%rdx, %r12
	jb	.LBB31_204
	leaq	4(%rcx), %rsi
	leaq	(%rsi,%rdx), %rcx
	jmp	.LBB31_206
.LBB31_171:
	xorl	%r13d, %r13d
.LBB31_172:
	testq	%r12, %r12
	je	.LBB31_237
	movzbl	(%rcx), %eax
	cmpb	$-93, %al
	jne	.LBB31_543
.LBB31_174:
	movq	%rsi, 16(%rsp)
	movq	%rdx, 72(%rsp)
	cmpq	$1, %r12
	je	.LBB31_346
	leaq	2(%rcx), %rsi
	leaq	-2(%r12), %rax
	movsbq	1(%rcx), %rdx
	testq	%rdx, %rdx
	js	.LBB31_245
	subq	%rdx, %rax
	jb	.LBB31_346
	cmpq	$2, %rdx
	jb	.LBB31_519
.LBB31_178:
	cmpb	$2, (%rsi)
	jne	.LBB31_519
	movq	%rax, 8(%rsp)
	movq	%rdi, %rbp
	leaq	2(%rsi), %rcx
	leaq	-2(%rdx), %rdi
	movsbq	1(%rsi), %rax
	testq	%rax, %rax
	js	.LBB31_251
	subq	%rax, %rdi
	jb	.LBB31_517
	movq	16(%rsp), %rsi
	movb	$2, %dl
	testq	%rax, %rax
	je	.LBB31_521
.LBB31_182:
	cmpq	$1, %rax
	jne	.LBB31_256
	movzbl	(%rcx), %eax
	testb	%al, %al
	js	.LBB31_415
	cmpb	$1, %al
	jne	.LBB31_423
	testq	%rdi, %rdi
	je	.LBB31_557
	movl	$12, %ecx
	xorl	%edx, %edx
	jmp	.LBB31_526
.LBB31_187:
	movb	$20, %r15b
	xorl	%eax, %eax
	jmp	.LBB31_238
.LBB31_188:
	movq	%rcx, %r13
	movq	%r12, %rbp
	cmpb	$-93, %al
	jne	.LBB31_543
.LBB31_189:
	movq	%rsi, 16(%rsp)
	movq	%rdx, 72(%rsp)
	cmpq	$1, %rbp
	movq	%r9, 64(%rsp)
	movq	%rdi, 88(%rsp)
	je	.LBB31_439
	leaq	2(%r13), %rsi
	leaq	-2(%rbp), %rax
	movsbq	1(%r13), %rdx
	testq	%rdx, %rdx
	js	.LBB31_355
	subq	%rdx, %rax
	jb	.LBB31_439
	cmpq	$2, %rdx
	jb	.LBB31_532
.LBB31_193:
	cmpb	$2, (%rsi)
	jne	.LBB31_532
	movq	%rax, 8(%rsp)
	leaq	2(%rsi), %rdi
	leaq	-2(%rdx), %r12
	movsbq	1(%rsi), %rax
	testq	%rax, %rax
	js	.LBB31_371
	subq	%rax, %r12
	jb	.LBB31_531
	movq	72(%rsp), %rdx
	movq	16(%rsp), %rsi
	cmpq	$1, %rax
	jne	.LBB31_534
.LBB31_197:
	movzbl	(%rdi), %ecx
	testb	%cl, %cl
	js	.LBB31_539
	movq	88(%rsp), %rdi
	jmp	.LBB31_536
.LBB31_199:
	testq	%r12, %r12
	je	.LBB31_204
	cmpb	$-127, %dl
	jne	.LBB31_204
	movzbl	(%rsi), %edx
	testb	%dl, %dl
	jns	.LBB31_204
	leaq	-3(%rbp), %r12
	subq	%rdx, %r12
	jb	.LBB31_204
	leaq	3(%rcx), %rsi
	leaq	(%rsi,%rdx), %rcx
	jmp	.LBB31_206
.LBB31_204:
	movq	%r14, 96(%rsp)
	movq	%r11, %r15
	movq	%r10, %r14
	leaq	32(%rsp), %rdi
	movq	%rcx, %rsi
	movq	%rbp, %rdx
	movl	$161, %ecx
	callq	_RNvNtNtNtCs00000000001_10pkcs1_tool6proved8der_core5split14split_unlikely
	movq	32(%rsp), %rsi
	testq	%rsi, %rsi
	je	.LBB31_324
	movq	40(%rsp), %rdx
	movq	48(%rsp), %rcx
	movq	56(%rsp), %r12
	movq	%r14, %r10
	movq	%r15, %r11
	movq	96(%rsp), %r14
	cmpq	$2, %rdx
	jb	.LBB31_265
.LBB31_206:
	cmpb	$48, (%rsi)
	jne	.LBB31_265
	movq	%rcx, 8(%rsp)
	leaq	2(%rsi), %rax
	leaq	-2(%rdx), %r15
	movsbq	1(%rsi), %rcx
	testq	%rcx, %rcx
	js	.LBB31_211
	subq	%rcx, %r15
	jb	.LBB31_264
	cmpq	$2, %rcx
	jb	.LBB31_267
.LBB31_210:
	cmpb	$6, (%rax)
	je	.LBB31_222
	jmp	.LBB31_267
.LBB31_211:
	cmpb	$-126, %cl
	jne	.LBB31_216
	cmpq	$1, %r15
	movq	8(%rsp), %rcx
	jbe	.LBB31_265
	movzbl	2(%rsi), %eax
	testq	%rax, %rax
	je	.LBB31_265
	leaq	-4(%rdx), %r15
	shll	$8, %eax
	movzbl	3(%rsi), %ecx
	orq	%rax, %rcx
	subq	%rcx, %r15
	jb	.LBB31_264
	addq	$4, %rsi
	jmp	.LBB31_221
.LBB31_216:
	testq	%r15, %r15
	je	.LBB31_264
	cmpb	$-127, %cl
	jne	.LBB31_264
	movzbl	(%rax), %ecx
	testb	%cl, %cl
	jns	.LBB31_264
	leaq	-3(%rdx), %r15
	subq	%rcx, %r15
	jb	.LBB31_264
	addq	$3, %rsi
.LBB31_221:
	movq	%rsi, %rax
	cmpb	$6, (%rax)
	jne	.LBB31_267
.LBB31_222:
	leaq	2(%rax), %rsi
	leaq	-2(%rcx), %rdx
	movsbq	1(%rax), %rdi
	testq	%rdi, %rdi
	js	.LBB31_225
	subq	%rdi, %rdx
	jb	.LBB31_267
	movq	%r15, 120(%rsp)
	movq	%rsi, %r15
	addq	%rdi, %rsi
	jmp	.LBB31_269
.LBB31_225:
	cmpb	$-126, %dil
	jne	.LBB31_230
	cmpq	$1, %rdx
	jbe	.LBB31_267
	movzbl	2(%rax), %esi
	testq	%rsi, %rsi
	je	.LBB31_267
	leaq	-4(%rcx), %rdx
	shll	$8, %esi
	movzbl	3(%rax), %edi
	orq	%rsi, %rdi
	subq	%rdi, %rdx
	jb	.LBB31_267
	movq	%r15, 120(%rsp)
	addq	$4, %rax
	jmp	.LBB31_235
.LBB31_230:
	testq	%rdx, %rdx
	je	.LBB31_267
	cmpb	$-127, %dil
	jne	.LBB31_267
	movzbl	(%rsi), %edi
	testb	%dil, %dil
	jns	.LBB31_267
	leaq	-3(%rcx), %rdx
	subq	%rdi, %rdx
	jb	.LBB31_267
	movq	%r15, 120(%rsp)
	addq	$3, %rax
.LBB31_235:
	leaq	(%rax,%rdi), %rsi
	movq	%rax, %r15
	jmp	.LBB31_269
.LBB31_236:
	movb	$1, %r13b
	movb	$20, %r15b
.LBB31_237:
	movb	$1, %al
	testq	%rcx, %rcx
	je	.LBB31_239
.LBB31_238:
	movq	%r10, (%rbx)
	movw	%r11w, 8(%rbx)
	shrl	$16, %r11d
	movb	%r11b, 10(%rbx)
	movb	$0, 15(%rbx)
	movl	$0, 11(%rbx)
	movq	%r9, 16(%rbx)
	movq	%r8, 24(%rbx)
	movq	%r14, 32(%rbx)
	movq	%rdi, 40(%rbx)
	movq	128(%rsp), %rcx
	movw	%cx, 48(%rbx)
	shrl	$16, %ecx
	movb	%cl, 50(%rbx)
	movb	$0, 55(%rbx)
	movl	$0, 51(%rbx)
	movq	%rdx, 56(%rbx)
	movq	%rsi, 64(%rbx)
	movq	136(%rsp), %rcx
	movq	%rcx, 72(%rbx)
	movq	120(%rsp), %rcx
	movq	%rcx, 80(%rbx)
	movq	144(%rsp), %rcx
	movq	%rcx, 88(%rbx)
	movb	%r15b, 96(%rbx)
	movb	%al, 104(%rbx)
	movb	%r13b, 105(%rbx)
	jmp	.LBB31_635
.LBB31_239:
	xorl	%eax, %eax
	jmp	.LBB31_633
.LBB31_240:
	cmpb	$-126, %dl
	jne	.LBB31_310
	cmpq	$1, %rbp
	jbe	.LBB31_325
	movzbl	2(%rcx), %eax
	testq	%rax, %rax
	je	.LBB31_325
	leaq	-4(%r12), %rbp
	shll	$8, %eax
	movzbl	3(%rcx), %edx
	orq	%rax, %rdx
	subq	%rdx, %rbp
	jb	.LBB31_325
	addq	$4, %rcx
	jmp	.LBB31_315
.LBB31_245:
	cmpb	$-126, %dl
	jne	.LBB31_341
	cmpq	$1, %rax
	jbe	.LBB31_346
	movzbl	2(%rcx), %eax
	testq	%rax, %rax
	je	.LBB31_346
	leaq	-4(%r12), %rsi
	shll	$8, %eax
	movzbl	3(%rcx), %edx
	orq	%rax, %rdx
	movq	%rsi, %rax
	subq	%rdx, %rax
	jb	.LBB31_346
	addq	$4, %rcx
	movq	%rcx, %rsi
	jmp	.LBB31_178
.LBB31_250:
	movb	$1, %r13b
	movb	$20, %r15b
	cmpb	$-93, %al
	je	.LBB31_174
	jmp	.LBB31_543
.LBB31_251:
	cmpb	$-126, %al
	jne	.LBB31_348
	cmpq	$1, %rdi
	movq	8(%rsp), %rax
	jbe	.LBB31_567
	movzbl	(%rcx), %ecx
	testq	%rcx, %rcx
	je	.LBB31_567
	leaq	-4(%rdx), %rdi
	shll	$8, %ecx
	movzbl	3(%rsi), %eax
	orq	%rcx, %rax
	cmpq	%rdi, %rax
	ja	.LBB31_517
	addq	$4, %rsi
	movq	%rsi, %rcx
.LBB31_256:
	movq	%rbp, %rdi
	movzbl	(%rcx), %edx
	testb	%dl, %dl
	je	.LBB31_353
.LBB31_257:
	movl	$13, %esi
	js	.LBB31_409
	cmpq	$2, %rax
	movzbl	%dl, %eax
	movl	$2, %edx
	cmovbl	%eax, %edx
	jmp	.LBB31_523
.LBB31_259:
	cmpb	$-126, %dl
	jne	.LBB31_360
	cmpq	$1, %rbp
	jbe	.LBB31_376
	movzbl	2(%rcx), %eax
	testq	%rax, %rax
	je	.LBB31_376
	leaq	-4(%r12), %rbp
	shll	$8, %eax
	movzbl	3(%rcx), %edx
	orq	%rax, %rdx
	subq	%rdx, %rbp
	jb	.LBB31_376
	leaq	4(%rcx), %rsi
	jmp	.LBB31_365
.LBB31_264:
	movq	8(%rsp), %rcx
.LBB31_265:
	movq	%rcx, 8(%rsp)
	movq	%r14, %rbx
	movq	%r11, %r15
	movq	%r10, %r14
	leaq	32(%rsp), %rdi
	movl	$48, %ecx
	callq	_RNvNtNtNtCs00000000001_10pkcs1_tool6proved8der_core5split14split_unlikely
	movq	32(%rsp), %rax
	testq	%rax, %rax
	je	.LBB31_306
	movq	40(%rsp), %rcx
	movq	56(%rsp), %rdx
	movq	%r14, %r10
	movq	%r15, %r11
	movq	%rdx, %r15
	movq	%rbx, %r14
	cmpq	$2, %rcx
	jae	.LBB31_210
.LBB31_267:
	movq	%r15, 120(%rsp)
	movq	%r14, 96(%rsp)
	movq	%r11, %rbx
	movq	%r10, %r14
	leaq	32(%rsp), %rdi
	movq	%rax, %rsi
	movq	%rcx, %rdx
	movl	$6, %ecx
	callq	_RNvNtNtNtCs00000000001_10pkcs1_tool6proved8der_core5split14split_unlikely
	movq	32(%rsp), %r15
	testq	%r15, %r15
	je	.LBB31_308
	movq	40(%rsp), %rdi
	movq	48(%rsp), %rsi
	movq	56(%rsp), %rdx
	movq	%r14, %r10
	movq	%rbx, %r11
	movq	96(%rsp), %r14
.LBB31_269:
	movq	%rdi, 128(%rsp)
	decq	%rdi
	movl	$5, %eax
	cmpq	$38, %rdi
	ja	.LBB31_305
	movq	%r14, 96(%rsp)
	movq	%r11, 112(%rsp)
	movq	%r10, 72(%rsp)
	movzbl	(%r15,%rdi), %ecx
	testb	%cl, %cl
	js	.LBB31_283
	movdqa	.LCPI31_1(%rip), %xmm0
	movdqa	.LCPI31_0(%rip), %xmm1
	xorl	%r8d, %r8d
	movq	%r15, %r9
	jmp	.LBB31_275
	.p2align	4, 0x90
.LBB31_272:
	movd	(%r9), %xmm2
	punpcklbw	%xmm2, %xmm2
	punpcklwd	%xmm2, %xmm2
	pcmpeqb	%xmm1, %xmm2
	movmskps	%xmm2, %r10d
	testl	%r10d, %r10d
	jne	.LBB31_282
	movl	$4, %r10d
	movq	$-4, %r11
.LBB31_274:
	addq	%r11, %rdi
	addq	%r10, %r9
.LBB31_275:
	cmpq	$7, %rdi
	jbe	.LBB31_278
	movq	(%r9), %xmm2
	pcmpeqb	%xmm0, %xmm2
	pmovmskb	%xmm2, %r10d
	testb	%r10b, %r10b
	jne	.LBB31_282
	movl	$8, %r10d
	movq	$-8, %r11
	jmp	.LBB31_274
	.p2align	4, 0x90
.LBB31_278:
	cmpq	$3, %rdi
	ja	.LBB31_272
	testq	%rdi, %rdi
	je	.LBB31_286
	cmpb	(%r9), %r8b
	jo	.LBB31_282
	movl	$1, %r10d
	movq	$-1, %r11
	jmp	.LBB31_274
.LBB31_282:
	cmpq	$0, 128(%rsp)
	je	.LBB31_286
.LBB31_283:
	xorl	%edi, %edi
	cmpb	(%r15), %dil
	jo	.LBB31_305
	cmpq	$1, 128(%rsp)
	jne	.LBB31_300
.LBB31_285:
	testb	%cl, %cl
	js	.LBB31_305
.LBB31_286:
	testq	%rdx, %rdx
	je	.LBB31_296
	cmpq	$1, %rdx
	je	.LBB31_291
	cmpb	$48, (%rsi)
	jne	.LBB31_291
	leaq	2(%rsi), %rcx
	leaq	-2(%rdx), %r8
	movsbq	1(%rsi), %rax
	testq	%rax, %rax
	js	.LBB31_366
	subq	%rax, %r8
	jae	.LBB31_293
	jmp	.LBB31_291
.LBB31_296:
	cmpq	$0, 120(%rsp)
	movq	72(%rsp), %r10
	movq	80(%rsp), %r8
	movq	64(%rsp), %r9
	movq	8(%rsp), %rcx
	je	.LBB31_410
.LBB31_297:
	movb	$12, %al
	jmp	.LBB31_298
.LBB31_300:
	movq	128(%rsp), %rdi
	leaq	-1(%rdi), %r8
	xorl	%r9d, %r9d
	xorl	%edi, %edi
	jmp	.LBB31_302
	.p2align	4, 0x90
.LBB31_301:
	incq	%rdi
	cmpq	%rdi, %r8
	je	.LBB31_285
.LBB31_302:
	cmpb	1(%r15,%rdi), %r9b
	jno	.LBB31_301
	cmpq	128(%rsp), %rdi
	jae	.LBB31_641
	cmpb	$0, (%r15,%rdi)
	js	.LBB31_301
	jmp	.LBB31_305
.LBB31_306:
	movzbl	42(%rsp), %ecx
	shll	$16, %ecx
	movzwl	40(%rsp), %eax
	orl	%eax, %ecx
	jmp	.LBB31_307
.LBB31_308:
	movzwl	40(%rsp), %ecx
	movzbl	42(%rsp), %eax
	shll	$16, %eax
	jmp	.LBB31_309
.LBB31_310:
	testq	%rbp, %rbp
	je	.LBB31_325
	cmpb	$-127, %dl
	jne	.LBB31_325
	movzbl	(%rsi), %edx
	testb	%dl, %dl
	jns	.LBB31_325
	leaq	-3(%r12), %rbp
	subq	%rdx, %rbp
	jb	.LBB31_325
	addq	$3, %rcx
.LBB31_315:
	movq	%rcx, %rsi
	addq	%rdx, %rcx
	cmpb	$2, (%rsi)
	jne	.LBB31_147
.LBB31_316:
	leaq	2(%rsi), %r9
	leaq	-2(%rdx), %rdi
	movsbq	1(%rsi), %r8
	testq	%r8, %r8
	js	.LBB31_319
	subq	%r8, %rdi
	jb	.LBB31_147
	movq	%rcx, 8(%rsp)
	jmp	.LBB31_333
.LBB31_319:
	cmpb	$-126, %r8b
	jne	.LBB31_327
	cmpq	$1, %rdi
	jbe	.LBB31_147
	movzbl	2(%rsi), %eax
	testq	%rax, %rax
	je	.LBB31_147
	leaq	-4(%rdx), %rdi
	shll	$8, %eax
	movzbl	3(%rsi), %r8d
	orq	%rax, %r8
	subq	%r8, %rdi
	jb	.LBB31_147
	movq	%rcx, 8(%rsp)
	addq	$4, %rsi
	jmp	.LBB31_332
.LBB31_324:
	movzbl	42(%rsp), %ecx
	shll	$16, %ecx
	movzwl	40(%rsp), %eax
	orl	%ecx, %eax
	jmp	.LBB31_299
.LBB31_325:
	movq	%rbx, 24(%rsp)
	movq	%r14, 96(%rsp)
	movq	%r11, %rbx
	movq	%r10, %r14
	leaq	32(%rsp), %rdi
	movq	%rcx, %rsi
	movq	%r12, %rdx
	movl	$162, %ecx
	callq	_RNvNtNtNtCs00000000001_10pkcs1_tool6proved8der_core5split14split_unlikely
	movq	32(%rsp), %rsi
	testq	%rsi, %rsi
	je	.LBB31_408
	movq	40(%rsp), %rdx
	movq	48(%rsp), %rcx
	movq	56(%rsp), %rbp
	movq	%r14, %r10
	movq	%rbx, %r11
	movq	96(%rsp), %r14
	movq	24(%rsp), %rbx
	cmpq	$2, %rdx
	jae	.LBB31_146
	jmp	.LBB31_147
.LBB31_327:
	testq	%rdi, %rdi
	je	.LBB31_147
	cmpb	$-127, %r8b
	jne	.LBB31_147
	movzbl	(%r9), %r8d
	testb	%r8b, %r8b
	jns	.LBB31_147
	leaq	-3(%rdx), %rdi
	subq	%r8, %rdi
	jb	.LBB31_147
	movq	%rcx, 8(%rsp)
	addq	$3, %rsi
.LBB31_332:
	movq	%rsi, %r9
	jmp	.LBB31_333
.LBB31_147:
	movq	%rcx, 8(%rsp)
	movq	%r14, 96(%rsp)
	movq	%r11, 112(%rsp)
	movq	%r10, %r12
	leaq	32(%rsp), %rdi
	movl	$2, %ecx
	callq	_RNvNtNtNtCs00000000001_10pkcs1_tool6proved8der_core5split14split_unlikely
	movq	32(%rsp), %r9
	testq	%r9, %r9
	je	.LBB31_412
	movq	40(%rsp), %r8
	movq	56(%rsp), %rdi
	movq	%r12, %r10
	movq	112(%rsp), %r11
	movq	96(%rsp), %r14
.LBB31_333:
	movq	%r13, %rdx
	movq	%r15, %rsi
	movb	$2, %cl
	testq	%r8, %r8
	je	.LBB31_576
	cmpq	$1, %r8
	jne	.LBB31_338
	movzbl	(%r9), %r15d
	testb	%r15b, %r15b
	js	.LBB31_407
.LBB31_336:
	xorl	%r13d, %r13d
	testq	%rdi, %rdi
	je	.LBB31_411
	movb	$12, %al
	jmp	.LBB31_403
.LBB31_338:
	movb	$13, %al
	cmpb	$0, (%r9)
	jne	.LBB31_577
	movzbl	1(%r9), %r15d
	testb	%r15b, %r15b
	jns	.LBB31_406
	addq	$-3, %r8
	cmpq	$-2, %r8
	jae	.LBB31_336
	jmp	.LBB31_577
.LBB31_341:
	testq	%rax, %rax
	je	.LBB31_346
	cmpb	$-127, %dl
	jne	.LBB31_346
	movzbl	(%rsi), %edx
	testb	%dl, %dl
	jns	.LBB31_346
	leaq	-3(%r12), %rax
	subq	%rdx, %rax
	jb	.LBB31_346
	addq	$3, %rcx
	movq	%rcx, %rsi
	jmp	.LBB31_178
.LBB31_346:
	movq	%rdi, 88(%rsp)
	movq	%r9, 64(%rsp)
	movq	%r8, 80(%rsp)
	movq	%rbx, 24(%rsp)
	movq	%r14, %rbx
	movq	%r11, %rbp
	movq	%r10, %r14
	leaq	32(%rsp), %rdi
	movq	%rcx, %rsi
	movq	%r12, %rdx
	movl	$163, %ecx
	callq	_RNvNtNtNtCs00000000001_10pkcs1_tool6proved8der_core5split14split_unlikely
	movq	32(%rsp), %rsi
	testq	%rsi, %rsi
	je	.LBB31_441
	movq	40(%rsp), %rdx
	movq	56(%rsp), %rax
	movq	%r14, %r10
	movq	%rbp, %r11
	movq	%rbx, %r14
	movq	24(%rsp), %rbx
	movq	80(%rsp), %r8
	movq	64(%rsp), %r9
	movq	88(%rsp), %rdi
	cmpq	$2, %rdx
	jae	.LBB31_178
	jmp	.LBB31_519
.LBB31_348:
	testq	%rdi, %rdi
	je	.LBB31_517
	cmpb	$-127, %al
	movq	%rbp, %rdi
	jne	.LBB31_518
	movzbl	2(%rsi), %eax
	testb	%al, %al
	jns	.LBB31_518
	leaq	-3(%rdx), %rcx
	cmpq	%rax, %rcx
	jb	.LBB31_518
	addq	$3, %rsi
	movq	%rsi, %rcx
	movzbl	(%rcx), %edx
	testb	%dl, %dl
	jne	.LBB31_257
.LBB31_353:
	movzbl	1(%rcx), %ecx
	testb	%cl, %cl
	js	.LBB31_421
	movl	$4, %esi
	movb	$2, %dl
	jmp	.LBB31_523
.LBB31_355:
	cmpb	$-126, %dl
	jne	.LBB31_416
	cmpq	$1, %rax
	jbe	.LBB31_439
	movzbl	2(%r13), %eax
	testq	%rax, %rax
	je	.LBB31_439
	leaq	-4(%rbp), %rcx
	shll	$8, %eax
	movzbl	3(%r13), %edx
	orq	%rax, %rdx
	movq	%rcx, %rax
	subq	%rdx, %rax
	jb	.LBB31_439
	leaq	4(%r13), %rsi
	jmp	.LBB31_193
.LBB31_360:
	testq	%rbp, %rbp
	je	.LBB31_376
	cmpb	$-127, %dl
	jne	.LBB31_376
	movzbl	(%rsi), %edx
	testb	%dl, %dl
	jns	.LBB31_376
	leaq	-3(%r12), %rbp
	subq	%rdx, %rbp
	jb	.LBB31_376
	leaq	3(%rcx), %rsi
.LBB31_365:
	leaq	(%rsi,%rdx), %rax
	movq	%rax, 104(%rsp)
	jmp	.LBB31_378
.LBB31_366:
	cmpb	$-126, %al
	jne	.LBB31_424
	cmpq	$1, %r8
	jbe	.LBB31_291
	movzbl	2(%rsi), %ecx
	testq	%rcx, %rcx
	je	.LBB31_291
	leaq	-4(%rdx), %r8
	shll	$8, %ecx
	movzbl	3(%rsi), %eax
	orq	%rcx, %rax
	subq	%rax, %r8
	jb	.LBB31_291
	addq	$4, %rsi
	jmp	.LBB31_429
.LBB31_371:
	cmpb	$-126, %al
	jne	.LBB31_442
	cmpq	$1, %r12
	movq	8(%rsp), %rax
	jbe	.LBB31_532
	movzbl	2(%rsi), %ecx
	testq	%rcx, %rcx
	je	.LBB31_532
	leaq	-4(%rdx), %r12
	shll	$8, %ecx
	movzbl	3(%rsi), %eax
	orq	%rcx, %rax
	subq	%rax, %r12
	jb	.LBB31_531
	movq	%r13, 104(%rsp)
	movq	%r8, %rbp
	movq	%rbx, 24(%rsp)
	movq	%r14, %rbx
	movq	%r11, %r13
	movq	%r10, %r14
	addq	$4, %rsi
	movq	%rsi, %rdi
	jmp	.LBB31_535
.LBB31_376:
	movq	%rbx, 24(%rsp)
	movq	%r14, 96(%rsp)
	movq	%r11, %rbx
	movq	%r10, %r14
	leaq	32(%rsp), %rdi
	movq	%rcx, %r15
	movq	%rcx, %rsi
	movq	%r12, %rdx
	movl	$162, %ecx
	callq	_RNvNtNtNtCs00000000001_10pkcs1_tool6proved8der_core5split14split_unlikely
	movq	32(%rsp), %rsi
	testq	%rsi, %rsi
	je	.LBB31_408
	movq	40(%rsp), %rdx
	movq	48(%rsp), %rax
	movq	%rax, 104(%rsp)
	movq	56(%rsp), %rbp
	movq	%r14, %r10
	movq	%rbx, %r11
	movq	96(%rsp), %r14
	movq	24(%rsp), %rbx
	movq	%r15, %rcx
	cmpq	$2, %rdx
	jb	.LBB31_163
.LBB31_378:
	cmpb	$2, (%rsi)
	jne	.LBB31_163
	leaq	2(%rsi), %r9
	leaq	-2(%rdx), %rdi
	movsbq	1(%rsi), %r8
	testq	%r8, %r8
	js	.LBB31_382
	subq	%r8, %rdi
	jb	.LBB31_163
	movq	%rcx, %r12
	jmp	.LBB31_398
.LBB31_382:
	cmpb	$-126, %r8b
	jne	.LBB31_392
	cmpq	$1, %rdi
	jbe	.LBB31_163
	movzbl	2(%rsi), %eax
	testq	%rax, %rax
	je	.LBB31_163
	leaq	-4(%rdx), %rdi
	shll	$8, %eax
	movzbl	3(%rsi), %r8d
	orq	%rax, %r8
	subq	%r8, %rdi
	jb	.LBB31_163
	movq	%rcx, %r12
	addq	$4, %rsi
	jmp	.LBB31_397
.LBB31_387:
	cmpb	$-126, %dl
	jne	.LBB31_474
	cmpq	$1, %rbp
	jbe	.LBB31_482
	movzbl	2(%rcx), %eax
	testq	%rax, %rax
	je	.LBB31_482
	leaq	-4(%r12), %rbp
	shll	$8, %eax
	movzbl	3(%rcx), %edx
	orq	%rax, %rdx
	subq	%rdx, %rbp
	jb	.LBB31_482
	addq	$4, %rcx
	jmp	.LBB31_479
.LBB31_392:
	testq	%rdi, %rdi
	je	.LBB31_163
	cmpb	$-127, %r8b
	jne	.LBB31_163
	movzbl	(%r9), %r8d
	testb	%r8b, %r8b
	jns	.LBB31_163
	leaq	-3(%rdx), %rdi
	subq	%r8, %rdi
	jb	.LBB31_163
	movq	%rcx, %r12
	addq	$3, %rsi
.LBB31_397:
	movq	%rsi, %r9
	jmp	.LBB31_398
.LBB31_163:
	movq	%rcx, %r12
	movq	%r14, 96(%rsp)
	movq	%rbx, 24(%rsp)
	movq	%r11, %rbx
	movq	%r10, %r15
	leaq	32(%rsp), %rdi
	movl	$2, %ecx
	callq	_RNvNtNtNtCs00000000001_10pkcs1_tool6proved8der_core5split14split_unlikely
	movq	32(%rsp), %r9
	testq	%r9, %r9
	je	.LBB31_501
	movq	40(%rsp), %r8
	movq	56(%rsp), %rdi
	movq	%r15, %r10
	movq	%rbx, %r11
	movq	96(%rsp), %r14
	movq	24(%rsp), %rbx
.LBB31_398:
	movq	72(%rsp), %rdx
	movq	16(%rsp), %rsi
	movb	$2, %cl
	testq	%r8, %r8
	je	.LBB31_576
	cmpq	$1, %r8
	jne	.LBB31_404
	movzbl	(%r9), %r15d
	testb	%r15b, %r15b
	js	.LBB31_407
.LBB31_401:
	testq	%rdi, %rdi
	je	.LBB31_481
	movb	$12, %al
	xorl	%r13d, %r13d
.LBB31_403:
	movl	%r15d, %ecx
	jmp	.LBB31_578
.LBB31_576:
	movb	$3, %al
	jmp	.LBB31_577
.LBB31_404:
	movb	$13, %al
	cmpb	$0, (%r9)
	jne	.LBB31_577
	movzbl	1(%r9), %r15d
	testb	%r15b, %r15b
	js	.LBB31_530
.LBB31_406:
	movb	$4, %al
	jmp	.LBB31_577
.LBB31_407:
	movb	$13, %al
	jmp	.LBB31_577
.LBB31_408:
	movzbl	42(%rsp), %r13d
	movzwl	40(%rsp), %eax
	movl	%eax, %ecx
	shrl	$8, %ecx
	movq	24(%rsp), %rbx
	jmp	.LBB31_578
.LBB31_409:
	movb	$2, %dl
	jmp	.LBB31_523
.LBB31_410:
	movq	%r15, %rdi
	xorl	%edx, %edx
	xorl	%eax, %eax
	movq	112(%rsp), %r11
	movq	96(%rsp), %r14
	movq	24(%rsp), %rbx
	jmp	.LBB31_139
.LBB31_411:
	movq	%rbp, %r12
	jmp	.LBB31_414
.LBB31_412:
	movzwl	40(%rsp), %eax
	movl	%eax, %ecx
	shrl	$8, %ecx
	cmpb	$17, %al
	jne	.LBB31_582
	movq	%r12, %r10
	movq	%r13, %rdx
	movq	%r15, %rsi
	xorl	%r13d, %r13d
	movl	%ecx, %r15d
	movq	%rbp, %r12
	movq	112(%rsp), %r11
	movq	96(%rsp), %r14
.LBB31_414:
	movq	80(%rsp), %r8
	movq	64(%rsp), %r9
	movq	88(%rsp), %rdi
	movq	8(%rsp), %rcx
	jmp	.LBB31_172
.LBB31_415:
	movl	$13, %esi
	jmp	.LBB31_522
.LBB31_416:
	testq	%rax, %rax
	je	.LBB31_439
	cmpb	$-127, %dl
	jne	.LBB31_439
	movzbl	(%rsi), %edx
	testb	%dl, %dl
	jns	.LBB31_439
	leaq	-3(%rbp), %rax
	subq	%rdx, %rax
	jb	.LBB31_439
	leaq	3(%r13), %rsi
	jmp	.LBB31_193
.LBB31_421:
	addq	$-3, %rax
	movzbl	%cl, %ecx
	movl	$2, %edx
	cmpq	$-2, %rax
	cmovael	%ecx, %edx
	jae	.LBB31_423
	movl	$13, %esi
	jmp	.LBB31_523
.LBB31_423:
	movl	$512, %edx
	movl	$525, %ecx
	jmp	.LBB31_526
.LBB31_424:
	testq	%r8, %r8
	je	.LBB31_291
	cmpb	$-127, %al
	jne	.LBB31_291
	movzbl	(%rcx), %eax
	testb	%al, %al
	jns	.LBB31_291
	leaq	-3(%rdx), %r8
	subq	%rax, %r8
	jb	.LBB31_291
	addq	$3, %rsi
.LBB31_429:
	movq	%rsi, %rcx
	jmp	.LBB31_430
.LBB31_291:
	leaq	32(%rsp), %rdi
	movl	$48, %ecx
	callq	_RNvNtNtNtCs00000000001_10pkcs1_tool6proved8der_core5split14split_unlikely
	movq	32(%rsp), %rcx
	testq	%rcx, %rcx
	je	.LBB31_480
	movq	40(%rsp), %rax
	movq	56(%rsp), %r8
.LBB31_293:
	cmpq	$2, %rax
	jb	.LBB31_294
.LBB31_430:
	cmpb	$6, (%rcx)
	jne	.LBB31_294
	leaq	2(%rcx), %rbx
	leaq	-2(%rax), %rdx
	movsbq	1(%rcx), %rsi
	testq	%rsi, %rsi
	js	.LBB31_434
	subq	%rsi, %rdx
	jb	.LBB31_294
	movq	%rsi, %rax
	addq	%rbx, %rsi
	jmp	.LBB31_453
.LBB31_434:
	cmpb	$-126, %sil
	jne	.LBB31_447
	cmpq	$1, %rdx
	jbe	.LBB31_294
	movzbl	2(%rcx), %esi
	testq	%rsi, %rsi
	je	.LBB31_294
	leaq	-4(%rax), %rdx
	shll	$8, %esi
	movzbl	3(%rcx), %edi
	orq	%rsi, %rdi
	subq	%rdi, %rdx
	jb	.LBB31_294
	movq	%rdi, %rsi
	addq	$4, %rcx
	jmp	.LBB31_452
.LBB31_439:
	movq	%r8, 80(%rsp)
	movq	%r13, %rsi
	movq	%rbx, 24(%rsp)
	movq	%r14, %rbx
	movq	%r11, %r12
	movq	%r10, %r14
	leaq	32(%rsp), %rdi
	movq	%rbp, %rdx
	movl	$163, %ecx
	callq	_RNvNtNtNtCs00000000001_10pkcs1_tool6proved8der_core5split14split_unlikely
	movq	32(%rsp), %rsi
	testq	%rsi, %rsi
	je	.LBB31_441
	movq	40(%rsp), %rdx
	movq	56(%rsp), %rax
	movq	%r14, %r10
	movq	%r12, %r11
	movq	%rbx, %r14
	movq	24(%rsp), %rbx
	movq	80(%rsp), %r8
	movq	64(%rsp), %r9
	cmpq	$2, %rdx
	jae	.LBB31_193
	jmp	.LBB31_532
.LBB31_441:
	movzwl	40(%rsp), %ecx
	movzbl	42(%rsp), %eax
	shll	$16, %eax
	orq	%rcx, %rax
	movq	24(%rsp), %rbx
	jmp	.LBB31_633
.LBB31_442:
	testq	%r12, %r12
	je	.LBB31_531
	cmpb	$-127, %al
	jne	.LBB31_531
	movzbl	(%rdi), %eax
	testb	%al, %al
	jns	.LBB31_531
	leaq	-3(%rdx), %r12
	subq	%rax, %r12
	jb	.LBB31_531
	movq	%r13, 104(%rsp)
	movq	%r8, %rbp
	movq	%rbx, 24(%rsp)
	movq	%r14, %rbx
	movq	%r11, %r13
	movq	%r10, %r14
	addq	$3, %rsi
	movq	%rsi, %rdi
	jmp	.LBB31_535
.LBB31_447:
	testq	%rdx, %rdx
	je	.LBB31_294
	cmpb	$-127, %sil
	jne	.LBB31_294
	movzbl	(%rbx), %esi
	testb	%sil, %sil
	jns	.LBB31_294
	leaq	-3(%rax), %rdx
	subq	%rsi, %rdx
	jb	.LBB31_294
	addq	$3, %rcx
.LBB31_452:
	movq	%rsi, %rax
	addq	%rcx, %rsi
	movq	%rcx, %rbx
	jmp	.LBB31_453
.LBB31_294:
	movq	%r8, %r14
	leaq	32(%rsp), %rdi
	movq	%rcx, %rsi
	movq	%rax, %rdx
	movl	$6, %ecx
	callq	_RNvNtNtNtCs00000000001_10pkcs1_tool6proved8der_core5split14split_unlikely
	movq	32(%rsp), %rbx
	testq	%rbx, %rbx
	je	.LBB31_480
	movq	40(%rsp), %rax
	movq	48(%rsp), %rsi
	movq	56(%rsp), %rdx
	movq	%r14, %r8
.LBB31_453:
	movq	%rax, %r14
	leaq	-1(%rax), %rdi
	movl	$5, %eax
	cmpq	$38, %rdi
	ja	.LBB31_595
	movq	%r8, 88(%rsp)
	movzbl	(%rbx,%rdi), %ecx
	testb	%cl, %cl
	js	.LBB31_467
	movdqa	.LCPI31_1(%rip), %xmm0
	movdqa	.LCPI31_0(%rip), %xmm1
	xorl	%r8d, %r8d
	movq	%rbx, %r9
	jmp	.LBB31_458
.LBB31_456:
	movl	$1, %r10d
	movq	$-1, %r11
.LBB31_457:
	addq	%r11, %rdi
	addq	%r10, %r9
.LBB31_458:
	cmpq	$7, %rdi
	jbe	.LBB31_461
	movq	(%r9), %xmm2
	pcmpeqb	%xmm0, %xmm2
	pmovmskb	%xmm2, %r10d
	testb	%r10b, %r10b
	jne	.LBB31_466
	movl	$8, %r10d
	movq	$-8, %r11
	jmp	.LBB31_457
.LBB31_461:
	cmpq	$3, %rdi
	jbe	.LBB31_464
	movd	(%r9), %xmm2
	punpcklbw	%xmm2, %xmm2
	punpcklwd	%xmm2, %xmm2
	pcmpeqb	%xmm1, %xmm2
	movmskps	%xmm2, %r10d
	testl	%r10d, %r10d
	jne	.LBB31_466
	movl	$4, %r10d
	movq	$-4, %r11
	jmp	.LBB31_457
.LBB31_464:
	testq	%rdi, %rdi
	je	.LBB31_470
	cmpb	(%r9), %r8b
	jno	.LBB31_456
.LBB31_466:
	testq	%r14, %r14
	je	.LBB31_470
.LBB31_467:
	xorl	%edi, %edi
	cmpb	(%rbx), %dil
	jo	.LBB31_595
	cmpq	$1, %r14
	jne	.LBB31_544
.LBB31_469:
	testb	%cl, %cl
	js	.LBB31_595
.LBB31_470:
	testq	%rdx, %rdx
	je	.LBB31_601
	movzbl	(%rsi), %ecx
	movl	%ecx, %eax
	notb	%al
	testb	$31, %al
	sete	%al
	testb	$-33, %cl
	sete	%dil
	orb	%al, %dil
	je	.LBB31_552
	movl	$11, %edx
	xorl	%eax, %eax
.LBB31_473:
	movzbl	%cl, %ecx
	orl	%ecx, %eax
	shll	$8, %eax
	orq	%rdx, %rax
	jmp	.LBB31_595
.LBB31_474:
	testq	%rbp, %rbp
	je	.LBB31_482
	cmpb	$-127, %dl
	jne	.LBB31_482
	movzbl	(%rsi), %edx
	testb	%dl, %dl
	jns	.LBB31_482
	leaq	-3(%r12), %rbp
	subq	%rdx, %rbp
	jb	.LBB31_482
	addq	$3, %rcx
.LBB31_479:
	movq	%rcx, %rsi
	addq	%rdx, %rcx
	jmp	.LBB31_484
.LBB31_480:
	movzwl	40(%rsp), %ecx
	movzbl	42(%rsp), %eax
	shll	$16, %eax
	orq	%rcx, %rax
	jmp	.LBB31_595
.LBB31_481:
	movq	80(%rsp), %r8
	movq	64(%rsp), %r9
	movq	88(%rsp), %rdi
	jmp	.LBB31_503
.LBB31_482:
	movq	%r9, 64(%rsp)
	movq	%r8, %r13
	movq	%rbx, %rbp
	movq	%r14, %rbx
	movq	%r11, %r15
	movq	%r10, %r14
	leaq	32(%rsp), %rdi
	movq	%rcx, %rsi
	movq	%r12, %rdx
	movl	$162, %ecx
	callq	_RNvNtNtNtCs00000000001_10pkcs1_tool6proved8der_core5split14split_unlikely
	movq	32(%rsp), %rsi
	testq	%rsi, %rsi
	je	.LBB31_558
	movq	40(%rsp), %rdx
	movq	48(%rsp), %rcx
	movq	56(%rsp), %rax
	movq	%r14, %r10
	movq	%r15, %r11
	movq	%rbx, %r14
	movq	%rbp, %rbx
	movq	%rax, %rbp
	movq	%r13, %r8
	movq	64(%rsp), %r9
	cmpq	$2, %rdx
	jb	.LBB31_569
.LBB31_484:
	cmpb	$2, (%rsi)
	jne	.LBB31_569
	leaq	2(%rsi), %rdi
	leaq	-2(%rdx), %r12
	movsbq	1(%rsi), %rax
	testq	%rax, %rax
	js	.LBB31_490
	subq	%rax, %r12
	jb	.LBB31_569
	cmpq	$1, %rax
	jne	.LBB31_571
.LBB31_488:
	movzbl	(%rdi), %r15d
	testb	%r15b, %r15b
	movq	72(%rsp), %rdx
	movq	16(%rsp), %rsi
	jns	.LBB31_574
	movb	$13, %al
	movb	$2, %cl
	jmp	.LBB31_577
.LBB31_490:
	cmpb	$-126, %al
	jne	.LBB31_495
	cmpq	$1, %r12
	jbe	.LBB31_569
	movq	%rcx, 8(%rsp)
	movzbl	2(%rsi), %ecx
	testq	%rcx, %rcx
	je	.LBB31_568
	leaq	-4(%rdx), %r12
	shll	$8, %ecx
	movzbl	3(%rsi), %eax
	orq	%rcx, %rax
	subq	%rax, %r12
	jb	.LBB31_568
	movq	%rbp, 104(%rsp)
	movq	%r9, 64(%rsp)
	movq	%r8, 80(%rsp)
	movq	%r14, %rbp
	movq	%r11, %r13
	movq	%r10, %r14
	addq	$4, %rsi
	jmp	.LBB31_500
.LBB31_495:
	testq	%r12, %r12
	je	.LBB31_569
	cmpb	$-127, %al
	jne	.LBB31_569
	movzbl	(%rdi), %eax
	testb	%al, %al
	jns	.LBB31_569
	leaq	-3(%rdx), %r12
	subq	%rax, %r12
	jb	.LBB31_569
	movq	%rbp, 104(%rsp)
	movq	%rcx, 8(%rsp)
	movq	%r9, 64(%rsp)
	movq	%r8, 80(%rsp)
	movq	%r14, %rbp
	movq	%r11, %r13
	movq	%r10, %r14
	addq	$3, %rsi
.LBB31_500:
	movq	%rsi, %rdi
	jmp	.LBB31_572
.LBB31_501:
	movzwl	40(%rsp), %eax
	movl	%eax, %ecx
	shrl	$8, %ecx
	cmpb	$17, %al
	movq	80(%rsp), %r8
	movq	64(%rsp), %r9
	movq	88(%rsp), %rdi
	movq	72(%rsp), %rdx
	movq	16(%rsp), %rsi
	jne	.LBB31_551
	movq	%r15, %r10
	movl	%ecx, %r15d
	movq	%rbx, %r11
	movq	96(%rsp), %r14
	movq	24(%rsp), %rbx
.LBB31_503:
	cmpb	$-94, (%r12)
	jne	.LBB31_528
	cmpb	$20, %r15b
	jne	.LBB31_528
	testq	%rbp, %rbp
	je	.LBB31_561
	movq	104(%rsp), %r15
	cmpb	$-93, (%r15)
	jne	.LBB31_543
	cmpq	$1, %rbp
	je	.LBB31_612
	leaq	2(%r15), %rsi
	leaq	-2(%rbp), %rax
	movsbq	1(%r15), %rdx
	testq	%rdx, %rdx
	js	.LBB31_583
	subq	%rdx, %rax
	jb	.LBB31_612
	cmpq	$2, %rdx
	jb	.LBB31_625
.LBB31_511:
	movq	%rax, 8(%rsp)
	cmpb	$2, (%rsi)
	jne	.LBB31_624
	leaq	2(%rsi), %rdi
	leaq	-2(%rdx), %r15
	movsbq	1(%rsi), %rax
	testq	%rax, %rax
	js	.LBB31_596
	subq	%rax, %r15
	jb	.LBB31_624
	cmpq	$1, %rax
	jne	.LBB31_627
.LBB31_515:
	movzbl	(%rdi), %ecx
	testb	%cl, %cl
	movq	72(%rsp), %rdx
	movq	16(%rsp), %rsi
	js	.LBB31_636
	movq	88(%rsp), %rdi
	jmp	.LBB31_629
.LBB31_539:
	movb	$13, %al
	movb	$2, %cl
	movq	88(%rsp), %rdi
	jmp	.LBB31_540
.LBB31_517:
	movq	%rbp, %rdi
.LBB31_518:
	movq	8(%rsp), %rax
	jmp	.LBB31_519
.LBB31_528:
	testq	%rbp, %rbp
	je	.LBB31_560
	movq	104(%rsp), %r13
	movzbl	(%r13), %eax
	cmpb	$-93, %al
	je	.LBB31_189
	jmp	.LBB31_543
.LBB31_530:
	addq	$-3, %r8
	cmpq	$-2, %r8
	jae	.LBB31_401
	jmp	.LBB31_577
.LBB31_601:
	movq	$0, 136(%rsp)
	jmp	.LBB31_602
.LBB31_531:
	movq	8(%rsp), %rax
.LBB31_532:
	movq	%r13, 104(%rsp)
	movq	%rax, 8(%rsp)
	movq	%r8, 80(%rsp)
	movq	%rbx, %rbp
	movq	%r14, %rbx
	movq	%r11, %r13
	movq	%r10, %r14
	leaq	32(%rsp), %rdi
	movl	$2, %ecx
	callq	_RNvNtNtNtCs00000000001_10pkcs1_tool6proved8der_core5split14split_unlikely
	movq	32(%rsp), %rdi
	testq	%rdi, %rdi
	je	.LBB31_549
	movq	40(%rsp), %rax
	movq	56(%rsp), %r12
	movq	%r14, %r10
	movq	%r13, %r11
	movq	%rbx, %r14
	movq	%rbp, %rbx
	movq	80(%rsp), %r8
	movq	64(%rsp), %r9
	movq	72(%rsp), %rdx
	movq	16(%rsp), %rsi
	movq	104(%rsp), %r13
	cmpq	$1, %rax
	je	.LBB31_197
.LBB31_534:
	movq	%r13, 104(%rsp)
	movq	%r8, %rbp
	movq	%rbx, 24(%rsp)
	movq	%r14, %rbx
	movq	%r11, %r13
	movq	%r10, %r14
.LBB31_535:
	movq	%rax, %rsi
	callq	_RNvNtNtNtNtCs00000000001_10pkcs1_tool6proved8der_core7integer5small5small
	movl	%eax, %ecx
	shrl	$8, %ecx
	cmpb	$17, %al
	movq	%r14, %r10
	movq	%r13, %r11
	movq	%rbx, %r14
	movq	24(%rsp), %rbx
	movq	%rbp, %r8
	movq	64(%rsp), %r9
	movq	88(%rsp), %rdi
	movq	72(%rsp), %rdx
	movq	16(%rsp), %rsi
	movq	104(%rsp), %r13
	jne	.LBB31_540
.LBB31_536:
	cmpb	$1, %cl
	jne	.LBB31_631
	testq	%r12, %r12
	je	.LBB31_541
.LBB31_538:
	movl	$12, %eax
	xorl	%ecx, %ecx
	jmp	.LBB31_632
.LBB31_540:
	movzbl	%cl, %ecx
	shll	$8, %ecx
	movzbl	%al, %eax
	orq	%rcx, %rax
	cmpb	$17, %al
	jne	.LBB31_550
.LBB31_541:
	cmpb	$-93, (%r13)
	sete	%al
	movb	$3, %r13b
	cmpq	$0, 8(%rsp)
	jne	.LBB31_543
	jmp	.LBB31_238
.LBB31_544:
	leaq	-1(%r14), %r8
	xorl	%r9d, %r9d
	xorl	%edi, %edi
	jmp	.LBB31_546
.LBB31_545:
	incq	%rdi
	cmpq	%rdi, %r8
	je	.LBB31_469
.LBB31_546:
	cmpb	1(%rbx,%rdi), %r9b
	jno	.LBB31_545
	cmpq	%r14, %rdi
	jae	.LBB31_640
	cmpb	$0, (%rbx,%rdi)
	js	.LBB31_545
	jmp	.LBB31_595
.LBB31_549:
	movzwl	40(%rsp), %ecx
	movzbl	42(%rsp), %eax
	shll	$16, %eax
	orq	%rcx, %rax
	movq	%r14, %r10
	movq	%r13, %r11
	movq	%rbx, %r14
	movq	%rbp, %rbx
	movq	80(%rsp), %r8
	movq	64(%rsp), %r9
	movq	88(%rsp), %rdi
	movq	72(%rsp), %rdx
	movq	16(%rsp), %rsi
	movq	104(%rsp), %r13
	cmpb	$17, %al
	je	.LBB31_541
.LBB31_550:
	movl	%eax, %ecx
	andl	$16776960, %ecx
	jmp	.LBB31_632
.LBB31_551:
	movzbl	42(%rsp), %r13d
	movq	24(%rsp), %rbx
	jmp	.LBB31_578
.LBB31_552:
	movzbl	%cl, %eax
	movq	%rax, 144(%rsp)
	cmpq	$1, %rdx
	je	.LBB31_555
	leaq	2(%rsi), %rax
	movq	%rax, 136(%rsp)
	leaq	-2(%rdx), %rcx
	movsbq	1(%rsi), %rdi
	testq	%rdi, %rdi
	js	.LBB31_562
	subq	%rdi, %rcx
	jae	.LBB31_594
	jmp	.LBB31_555
.LBB31_557:
	movb	$1, %al
	movq	%rbp, %rdi
	movq	72(%rsp), %rdx
	cmpq	$0, 8(%rsp)
	jne	.LBB31_543
	jmp	.LBB31_238
.LBB31_558:
	movzbl	42(%rsp), %r13d
	movzwl	40(%rsp), %eax
	movl	%eax, %ecx
	shrl	$8, %ecx
	movq	%rbp, %rbx
	jmp	.LBB31_578
.LBB31_118:
	xorl	%r13d, %r13d
	movq	%r15, %r10
	movq	%rax, %r8
	movq	16(%rsp), %rcx
	testq	%rdx, %rdx
	jne	.LBB31_117
	jmp	.LBB31_119
.LBB31_567:
	movq	%rbp, %rdi
.LBB31_519:
	movq	%rax, 8(%rsp)
	movq	%rbx, 24(%rsp)
	movq	%rdi, %rbp
	movq	%r9, 64(%rsp)
	movq	%r8, 80(%rsp)
	movq	%r14, %rbx
	movq	%r11, %r12
	movq	%r10, %r14
	leaq	32(%rsp), %rdi
	movl	$2, %ecx
	callq	_RNvNtNtNtCs00000000001_10pkcs1_tool6proved8der_core5split14split_unlikely
	movq	32(%rsp), %rcx
	testq	%rcx, %rcx
	je	.LBB31_527
	movq	40(%rsp), %rax
	movq	56(%rsp), %rdi
	movq	%r14, %r10
	movq	%r12, %r11
	movq	%rbx, %r14
	movq	24(%rsp), %rbx
	movq	80(%rsp), %r8
	movq	64(%rsp), %r9
	movq	16(%rsp), %rsi
	movb	$2, %dl
	testq	%rax, %rax
	jne	.LBB31_182
.LBB31_521:
	movl	$3, %esi
.LBB31_522:
	movq	%rbp, %rdi
.LBB31_523:
	movzbl	%dl, %ecx
	shll	$8, %ecx
	orq	%rsi, %rcx
.LBB31_524:
	movq	72(%rsp), %rdx
	movq	16(%rsp), %rsi
	movb	$1, %al
	cmpb	$17, %cl
	jne	.LBB31_525
	cmpq	$0, 8(%rsp)
	je	.LBB31_238
.LBB31_543:
	movb	$12, (%rbx)
	jmp	.LBB31_634
.LBB31_525:
	movl	%ecx, %edx
	andl	$16776960, %edx
.LBB31_526:
	movzbl	%cl, %eax
	orq	%rdx, %rax
	jmp	.LBB31_633
.LBB31_527:
	movzwl	40(%rsp), %eax
	movzbl	42(%rsp), %ecx
	shll	$16, %ecx
	orq	%rax, %rcx
	movq	%r14, %r10
	movq	%r12, %r11
	movq	%rbx, %r14
	movq	24(%rsp), %rbx
	movq	80(%rsp), %r8
	movq	64(%rsp), %r9
	movq	%rbp, %rdi
	jmp	.LBB31_524
.LBB31_559:
	movzbl	42(%rsp), %eax
	shll	$16, %eax
	movzwl	40(%rsp), %edi
	orl	%eax, %edi
	movzbl	%dil, %eax
	shrl	$8, %edi
	movl	%edi, %r8d
	andl	$65280, %r8d
	jmp	.LBB31_79
.LBB31_560:
	xorl	%eax, %eax
	jmp	.LBB31_238
.LBB31_561:
	movb	$1, %al
	movb	$20, %r15b
	jmp	.LBB31_238
.LBB31_562:
	cmpb	$-126, %dil
	jne	.LBB31_588
	cmpq	$1, %rcx
	jbe	.LBB31_555
	movzbl	2(%rsi), %eax
	testq	%rax, %rax
	je	.LBB31_555
	leaq	-4(%rdx), %rcx
	shll	$8, %eax
	movzbl	3(%rsi), %edi
	orq	%rax, %rdi
	subq	%rdi, %rcx
	jb	.LBB31_555
	addq	$4, %rsi
	jmp	.LBB31_593
.LBB31_568:
	movq	8(%rsp), %rcx
.LBB31_569:
	movq	%rbp, 104(%rsp)
	movq	%rcx, 8(%rsp)
	movq	%r14, 96(%rsp)
	movq	%r9, %rbp
	movq	%r8, %r15
	movq	%r11, 112(%rsp)
	movq	%r10, %r14
	leaq	32(%rsp), %rdi
	movl	$2, %ecx
	callq	_RNvNtNtNtCs00000000001_10pkcs1_tool6proved8der_core5split14split_unlikely
	movq	32(%rsp), %rdi
	testq	%rdi, %rdi
	je	.LBB31_580
	movq	40(%rsp), %rax
	movq	56(%rsp), %r12
	movq	%r14, %r10
	movq	112(%rsp), %r11
	movq	96(%rsp), %r14
	movq	%r15, %r8
	movq	%rbp, %r9
	movq	8(%rsp), %rcx
	movq	104(%rsp), %rbp
	cmpq	$1, %rax
	je	.LBB31_488
.LBB31_571:
	movq	%rbp, 104(%rsp)
	movq	%rcx, 8(%rsp)
	movq	%r9, 64(%rsp)
	movq	%r8, 80(%rsp)
	movq	%r14, %rbp
	movq	%r11, %r13
	movq	%r10, %r14
.LBB31_572:
	movq	%rax, %rsi
	callq	_RNvNtNtNtNtCs00000000001_10pkcs1_tool6proved8der_core7integer5small5small
	movl	%eax, %ecx
	shrl	$8, %ecx
	cmpb	$17, %al
	jne	.LBB31_577
	movl	%ecx, %r15d
	movq	%r14, %r10
	movq	%r13, %r11
	movq	%rbp, %r14
	movq	80(%rsp), %r8
	movq	64(%rsp), %r9
	movq	72(%rsp), %rdx
	movq	16(%rsp), %rsi
	movq	8(%rsp), %rcx
	movq	104(%rsp), %rbp
.LBB31_574:
	testq	%r12, %r12
	je	.LBB31_579
	movb	$12, %al
	xorl	%r13d, %r13d
	jmp	.LBB31_578
.LBB31_577:
	xorl	%r13d, %r13d
.LBB31_578:
	movzwl	%r13w, %edx
	shll	$8, %edx
	movzbl	%cl, %ecx
	orl	%edx, %ecx
	movb	%al, (%rbx)
	movw	%cx, 1(%rbx)
	jmp	.LBB31_634
.LBB31_579:
	movb	$1, %r13b
	movq	%rbp, %r12
	movq	88(%rsp), %rdi
	jmp	.LBB31_172
.LBB31_580:
	movzwl	40(%rsp), %eax
	movl	%eax, %ecx
	shrl	$8, %ecx
	movb	$1, %r13b
	cmpb	$17, %al
	movq	88(%rsp), %rdi
	movq	72(%rsp), %rdx
	movq	16(%rsp), %rsi
	jne	.LBB31_582
	movq	%r14, %r10
	movq	%r15, %r8
	movq	%rbp, %r9
	movl	%ecx, %r15d
	movq	104(%rsp), %r12
	movq	112(%rsp), %r11
	movq	96(%rsp), %r14
	movq	8(%rsp), %rcx
	jmp	.LBB31_172
.LBB31_582:
	movzbl	42(%rsp), %r13d
	jmp	.LBB31_578
.LBB31_583:
	cmpb	$-126, %dl
	jne	.LBB31_607
	cmpq	$1, %rax
	jbe	.LBB31_612
	movzbl	2(%r15), %eax
	testq	%rax, %rax
	je	.LBB31_612
	leaq	-4(%rbp), %rcx
	shll	$8, %eax
	movzbl	3(%r15), %edx
	orq	%rax, %rdx
	movq	%rcx, %rax
	subq	%rdx, %rax
	jb	.LBB31_612
	addq	$4, %r15
	movq	%r15, %rsi
	jmp	.LBB31_511
.LBB31_588:
	testq	%rcx, %rcx
	je	.LBB31_555
	cmpb	$-127, %dil
	jne	.LBB31_555
	movq	136(%rsp), %rax
	movzbl	(%rax), %edi
	testb	%dil, %dil
	jns	.LBB31_555
	leaq	-3(%rdx), %rcx
	subq	%rdi, %rcx
	jb	.LBB31_555
	addq	$3, %rsi
.LBB31_593:
	movq	%rsi, 136(%rsp)
	jmp	.LBB31_594
.LBB31_596:
	cmpb	$-126, %al
	movq	%rbx, 24(%rsp)
	jne	.LBB31_614
	cmpq	$1, %r15
	jbe	.LBB31_624
	movzbl	2(%rsi), %ecx
	testq	%rcx, %rcx
	je	.LBB31_623
	movq	%r14, %rbx
	movq	%r11, %r12
	leaq	-4(%rdx), %r15
	shll	$8, %ecx
	movzbl	3(%rsi), %eax
	orq	%rcx, %rax
	subq	%rax, %r15
	jb	.LBB31_622
	movq	%r9, %r13
	movq	%r8, %rbp
	movq	%r10, %r14
	addq	$4, %rsi
	jmp	.LBB31_619
.LBB31_555:
	leaq	32(%rsp), %rdi
	movq	144(%rsp), %rcx
	callq	_RNvNtNtNtCs00000000001_10pkcs1_tool6proved8der_core5split14split_unlikely
	movq	32(%rsp), %rcx
	movq	%rcx, 136(%rsp)
	testq	%rcx, %rcx
	je	.LBB31_620
	movq	40(%rsp), %rdi
	movq	56(%rsp), %rcx
.LBB31_594:
	movl	$12, %eax
	testq	%rcx, %rcx
	je	.LBB31_602
.LBB31_595:
	movl	%eax, %ecx
	shrl	$8, %ecx
	movzwl	%cx, %ecx
	shll	$8, %ecx
	movzbl	%al, %eax
.LBB31_309:
	orq	%rcx, %rax
.LBB31_305:
	movl	%eax, %ecx
.LBB31_307:
	shrl	$8, %ecx
.LBB31_298:
	shll	$8, %ecx
	movzbl	%al, %eax
	orl	%ecx, %eax
	movq	24(%rsp), %rbx
.LBB31_299:
	movw	%ax, (%rbx)
	shrl	$16, %eax
	movb	%al, 2(%rbx)
	jmp	.LBB31_634
.LBB31_602:
	movq	88(%rsp), %rcx
	movl	$12, %eax
	testq	%rcx, %rcx
	jne	.LBB31_305
	cmpq	$0, 120(%rsp)
	jne	.LBB31_297
	movq	%rbx, %rdx
	movq	%r14, %rsi
	movq	%rdi, 120(%rsp)
	cmpq	$9, 128(%rsp)
	jne	.LBB31_606
	movq	72(%rsp), %r10
	movq	112(%rsp), %r11
	movq	96(%rsp), %r14
	movq	24(%rsp), %rbx
	movq	80(%rsp), %r8
	movq	64(%rsp), %r9
	movq	%r15, %rdi
	movq	136(%rsp), %r15
	movq	8(%rsp), %rcx
	jmp	.LBB31_128
.LBB31_606:
	xorl	%eax, %eax
	movq	72(%rsp), %r10
	movq	112(%rsp), %r11
	movq	96(%rsp), %r14
	movq	24(%rsp), %rbx
	movq	80(%rsp), %r8
	movq	64(%rsp), %r9
	movq	%r15, %rdi
	movq	136(%rsp), %r15
	movq	8(%rsp), %rcx
	jmp	.LBB31_139
.LBB31_607:
	testq	%rax, %rax
	je	.LBB31_612
	cmpb	$-127, %dl
	jne	.LBB31_612
	movzbl	(%rsi), %edx
	testb	%dl, %dl
	jns	.LBB31_612
	leaq	-3(%rbp), %rax
	subq	%rdx, %rax
	jb	.LBB31_612
	addq	$3, %r15
	movq	%r15, %rsi
	jmp	.LBB31_511
.LBB31_612:
	movq	%r15, %rsi
	movq	%r8, %r13
	movq	%rbx, %r12
	movq	%r14, %rbx
	movq	%r11, %r15
	movq	%r10, %r14
	leaq	32(%rsp), %rdi
	movq	%rbp, %rdx
	movl	$163, %ecx
	callq	_RNvNtNtNtCs00000000001_10pkcs1_tool6proved8der_core5split14split_unlikely
	movq	32(%rsp), %rsi
	testq	%rsi, %rsi
	je	.LBB31_621
	movq	40(%rsp), %rdx
	movq	56(%rsp), %rax
	movq	%r14, %r10
	movq	%r15, %r11
	movq	%rbx, %r14
	movq	%r12, %rbx
	movq	%r13, %r8
	movq	64(%rsp), %r9
	cmpq	$2, %rdx
	jae	.LBB31_511
	jmp	.LBB31_625
.LBB31_614:
	testq	%r15, %r15
	je	.LBB31_624
	cmpb	$-127, %al
	jne	.LBB31_624
	movzbl	(%rdi), %eax
	testb	%al, %al
	jns	.LBB31_623
	movq	%r14, %rbx
	movq	%r11, %r12
	leaq	-3(%rdx), %r15
	subq	%rax, %r15
	jb	.LBB31_622
	movq	%r9, %r13
	movq	%r8, %rbp
	movq	%r10, %r14
	addq	$3, %rsi
.LBB31_619:
	movq	%rsi, %rdi
	jmp	.LBB31_628
.LBB31_620:
	movzbl	42(%rsp), %eax
	shll	$16, %eax
	movzwl	40(%rsp), %ecx
	orl	%eax, %ecx
	movzbl	%cl, %edx
	shrl	$8, %ecx
	movl	%ecx, %eax
	andl	$65280, %eax
	jmp	.LBB31_473
.LBB31_636:
	movb	$13, %al
	movb	$2, %cl
	movq	88(%rsp), %rdi
	jmp	.LBB31_637
.LBB31_621:
	movzwl	40(%rsp), %ecx
	movzbl	42(%rsp), %eax
	shll	$16, %eax
	orq	%rcx, %rax
	movq	%r12, %rbx
	jmp	.LBB31_633
.LBB31_622:
	movq	%r12, %r11
	movq	%rbx, %r14
.LBB31_623:
	movq	24(%rsp), %rbx
.LBB31_624:
	movq	8(%rsp), %rax
.LBB31_625:
	movq	%rax, 8(%rsp)
	movq	%r8, %rbp
	movq	%rbx, %r13
	movq	%r14, %rbx
	movq	%r11, %r12
	movq	%r10, %r14
	leaq	32(%rsp), %rdi
	movl	$2, %ecx
	callq	_RNvNtNtNtCs00000000001_10pkcs1_tool6proved8der_core5split14split_unlikely
	movq	32(%rsp), %rdi
	testq	%rdi, %rdi
	je	.LBB31_639
	movq	40(%rsp), %rax
	movq	56(%rsp), %r15
	movq	%r14, %r10
	movq	%r12, %r11
	movq	%rbx, %r14
	movq	%r13, %rbx
	movq	%rbp, %r8
	movq	64(%rsp), %r9
	cmpq	$1, %rax
	je	.LBB31_515
.LBB31_627:
	movq	%r9, %r13
	movq	%r8, %rbp
	movq	%rbx, 24(%rsp)
	movq	%r14, %rbx
	movq	%r11, %r12
	movq	%r10, %r14
.LBB31_628:
	movq	%rax, %rsi
	callq	_RNvNtNtNtNtCs00000000001_10pkcs1_tool6proved8der_core7integer5small5small
	movl	%eax, %ecx
	shrl	$8, %ecx
	cmpb	$17, %al
	movq	%r14, %r10
	movq	%r12, %r11
	movq	%rbx, %r14
	movq	24(%rsp), %rbx
	movq	%rbp, %r8
	movq	%r13, %r9
	movq	88(%rsp), %rdi
	movq	72(%rsp), %rdx
	movq	16(%rsp), %rsi
	jne	.LBB31_637
.LBB31_629:
	cmpb	$1, %cl
	jne	.LBB31_631
	testq	%r15, %r15
	jne	.LBB31_538
	jmp	.LBB31_638
.LBB31_631:
	movl	$512, %ecx
	movl	$525, %eax
.LBB31_632:
	movzbl	%al, %eax
	orq	%rcx, %rax
.LBB31_633:
	movw	%ax, (%rbx)
	shrl	$16, %eax
	movb	%al, 2(%rbx)
.LBB31_634:
	movb	$2, 104(%rbx)
.LBB31_635:
	addq	$152, %rsp
	.cfi_def_cfa_offset 56
	popq	%rbx
	.cfi_def_cfa_offset 48
	popq	%r12
	.cfi_def_cfa_offset 40
	popq	%r13
	.cfi_def_cfa_offset 32
	popq	%r14
	.cfi_def_cfa_offset 24
	popq	%r15
	.cfi_def_cfa_offset 16
	popq	%rbp
	.cfi_def_cfa_offset 8
	retq
.LBB31_637:
	.cfi_def_cfa_offset 208
	movzbl	%cl, %ecx
	shll	$8, %ecx
	movzbl	%al, %eax
	orq	%rcx, %rax
	cmpb	$17, %al
	jne	.LBB31_550
.LBB31_638:
	movb	$20, %r15b
	movb	$1, %al
	movb	$2, %r13b
	cmpq	$0, 8(%rsp)
	jne	.LBB31_543
	jmp	.LBB31_238
.LBB31_639:
	movzwl	40(%rsp), %ecx
	movzbl	42(%rsp), %eax
	shll	$16, %eax
	orq	%rcx, %rax
	movq	%r14, %r10
	movq	%r12, %r11
	movq	%rbx, %r14
	movq	%r13, %rbx
	movq	%rbp, %r8
	movq	64(%rsp), %r9
	movq	88(%rsp), %rdi
	movq	72(%rsp), %rdx
	movq	16(%rsp), %rsi
	cmpb	$17, %al
	jne	.LBB31_550
	jmp	.LBB31_638
.LBB31_640:
	movq	%r14, %rsi
	ud2
.LBB31_641:
	movq	128(%rsp), %rsi
	ud2
.Lfunc_end31:
	.size	_RNvNtNtNtCs00000000001_10pkcs1_tool6proved12pkcs1_params6noting8note_pss, .Lfunc_end31-_RNvNtNtNtCs00000000001_10pkcs1_tool6proved12pkcs1_params6noting8note_pss
	.cfi_endproc

	.section	.rodata.cst16,"aM",@progbits,16
	.p2align	4, 0x0
.LCPI32_0:
	.zero	16,128
.LCPI32_1:
	.byte	128
	.byte	128
	.byte	128
	.byte	128
	.byte	128
	.byte	128
	.byte	128
	.byte	128
	.zero	1
	.zero	1
	.zero	1
	.zero	1
	.zero	1
	.zero	1
	.zero	1
	.zero	1
	.section	.text._RNvNtNtNtCs00000000001_10pkcs1_tool6proved12pkcs1_params6noting9note_oaep,"ax",@progbits
	.p2align	4, 0x90
	.type	_RNvNtNtNtCs00000000001_10pkcs1_tool6proved12pkcs1_params6noting9note_oaep,@function
_RNvNtNtNtCs00000000001_10pkcs1_tool6proved12pkcs1_params6noting9note_oaep:
	.cfi_startproc
	endbr64
	pushq	%rbp
	.cfi_def_cfa_offset 16
	pushq	%r15
	.cfi_def_cfa_offset 24
	pushq	%r14
	.cfi_def_cfa_offset 32
	pushq	%r13
	.cfi_def_cfa_offset 40
	pushq	%r12
	.cfi_def_cfa_offset 48
	pushq	%rbx
	.cfi_def_cfa_offset 56
	subq	$168, %rsp
	.cfi_def_cfa_offset 224
	.cfi_offset %rbx, -56
	.cfi_offset %r12, -48
	.cfi_offset %r13, -40
	.cfi_offset %r14, -32
	.cfi_offset %r15, -24
	.cfi_offset %rbp, -16
	movq	%rdi, %rbx
	leaq	.Lanon.25(%rip), %r14
	leaq	_RNvNtNtCs00000000001_10pkcs1_tool10rattle_std7library8AN_OCTET(%rip), %r11
	movl	$5, %ecx
	testq	%rdx, %rdx
	je	.LBB32_8
	cmpb	$-96, (%rsi)
	jne	.LBB32_9
	cmpq	$1, %rdx
	je	.LBB32_25
	leaq	2(%rsi), %r9
	leaq	-2(%rdx), %r12
	movsbq	1(%rsi), %rax
	testq	%rax, %rax
	js	.LBB32_15
	subq	%rax, %r12
	jb	.LBB32_25
	leaq	(%r9,%rax), %rbp
	cmpq	$2, %rax
	jae	.LBB32_27
	jmp	.LBB32_6
.LBB32_8:
	xorl	%edi, %edi
	xorl	%r12d, %r12d
	movq	%rsi, %rbp
	cmpb	$43, (%r14)
	je	.LBB32_10
	jmp	.LBB32_109
.LBB32_9:
	xorl	%edi, %edi
	movq	%rdx, %r12
	movq	%rsi, %rbp
	cmpb	$43, (%r14)
	jne	.LBB32_109
.LBB32_10:
	cmpb	$14, 1(%r14)
	jne	.LBB32_109
	cmpb	$3, 2(%r14)
	jne	.LBB32_109
	cmpb	$2, 3(%r14)
	jne	.LBB32_109
	movl	$5, %eax
	movq	%rax, 80(%rsp)
	cmpb	$26, 4(%r14)
	jne	.LBB32_86
	movq	%rcx, %rax
	xorq	$5, %rax
	orq	%rdi, %rax
	sete	%r8b
	testq	%rdx, %rdx
	jne	.LBB32_110
.LBB32_112:
	xorl	%r8d, %r8d
	jmp	.LBB32_113
.LBB32_15:
	cmpb	$-126, %al
	jne	.LBB32_20
	cmpq	$1, %r12
	jbe	.LBB32_25
	movzbl	2(%rsi), %ecx
	testq	%rcx, %rcx
	je	.LBB32_25
	leaq	-4(%rdx), %r12
	shll	$8, %ecx
	movzbl	3(%rsi), %eax
	orq	%rcx, %rax
	subq	%rax, %r12
	jb	.LBB32_25
	leaq	4(%rsi), %r9
	leaq	(%r9,%rax), %rbp
	jmp	.LBB32_27
.LBB32_20:
	testq	%r12, %r12
	je	.LBB32_25
	cmpb	$-127, %al
	jne	.LBB32_25
	movzbl	(%r9), %eax
	testb	%al, %al
	jns	.LBB32_25
	leaq	-3(%rdx), %r12
	subq	%rax, %r12
	jb	.LBB32_25
	leaq	3(%rsi), %r9
	leaq	(%r9,%rax), %rbp
	jmp	.LBB32_27
.LBB32_25:
	movq	%rsp, %rdi
	movq	%rsi, %r14
	movq	%rdx, %r15
	movl	$160, %ecx
	callq	_RNvNtNtNtCs00000000001_10pkcs1_tool6proved8der_core5split14split_unlikely
	movq	(%rsp), %r9
	testq	%r9, %r9
	je	.LBB32_245
	movq	8(%rsp), %rax
	movq	16(%rsp), %rbp
	movq	24(%rsp), %r12
	movq	%r14, %rsi
	movq	%r15, %rdx
	cmpq	$2, %rax
	jb	.LBB32_6
.LBB32_27:
	cmpb	$48, (%r9)
	jne	.LBB32_6
	leaq	2(%r9), %r8
	leaq	-2(%rax), %r15
	movsbq	1(%r9), %rcx
	testq	%rcx, %rcx
	js	.LBB32_34
	subq	%rcx, %r15
	jb	.LBB32_6
	cmpq	$2, %rcx
	jb	.LBB32_32
.LBB32_31:
	cmpb	$6, (%r8)
	je	.LBB32_45
	jmp	.LBB32_32
.LBB32_34:
	cmpb	$-126, %cl
	jne	.LBB32_39
	cmpq	$1, %r15
	jbe	.LBB32_6
	movzbl	2(%r9), %edi
	testq	%rdi, %rdi
	je	.LBB32_6
	leaq	-4(%rax), %r15
	shll	$8, %edi
	movzbl	3(%r9), %ecx
	orq	%rdi, %rcx
	subq	%rcx, %r15
	jb	.LBB32_6
	addq	$4, %r9
	jmp	.LBB32_44
.LBB32_39:
	testq	%r15, %r15
	je	.LBB32_6
	cmpb	$-127, %cl
	jne	.LBB32_6
	movzbl	(%r8), %ecx
	testb	%cl, %cl
	jns	.LBB32_6
	leaq	-3(%rax), %r15
	subq	%rcx, %r15
	jb	.LBB32_6
	addq	$3, %r9
.LBB32_44:
	movq	%r9, %r8
	cmpb	$6, (%r8)
	jne	.LBB32_32
.LBB32_45:
	leaq	2(%r8), %r14
	leaq	-2(%rcx), %rax
	movsbq	1(%r8), %r9
	testq	%r9, %r9
	js	.LBB32_48
	subq	%r9, %rax
	jb	.LBB32_32
	leaq	(%r14,%r9), %rcx
	leaq	-1(%r9), %rdi
	movl	$5, %r8d
	cmpq	$38, %rdi
	jbe	.LBB32_59
	jmp	.LBB32_380
.LBB32_48:
	cmpb	$-126, %r9b
	jne	.LBB32_53
	cmpq	$1, %rax
	jbe	.LBB32_32
	movzbl	2(%r8), %edi
	testq	%rdi, %rdi
	je	.LBB32_32
	leaq	-4(%rcx), %rax
	shll	$8, %edi
	movzbl	3(%r8), %r9d
	orq	%rdi, %r9
	subq	%r9, %rax
	jb	.LBB32_32
	addq	$4, %r8
	jmp	.LBB32_58
.LBB32_6:
	movq	%rdx, %r14
	movq	%rsi, %r13
	movq	%rsp, %rdi
	movq	%r9, %rsi
	movq	%rax, %rdx
	movl	$48, %ecx
	callq	_RNvNtNtNtCs00000000001_10pkcs1_tool6proved8der_core5split14split_unlikely
	movq	(%rsp), %r8
	testq	%r8, %r8
	je	.LBB32_260
	movq	8(%rsp), %rcx
	movq	24(%rsp), %r15
	movq	%r13, %rsi
	movq	%r14, %rdx
	cmpq	$2, %rcx
	jae	.LBB32_31
	jmp	.LBB32_32
.LBB32_53:
	testq	%rax, %rax
	je	.LBB32_32
	cmpb	$-127, %r9b
	jne	.LBB32_32
	movzbl	(%r14), %r9d
	testb	%r9b, %r9b
	jns	.LBB32_32
	leaq	-3(%rcx), %rax
	subq	%r9, %rax
	jb	.LBB32_32
	addq	$3, %r8
.LBB32_58:
	leaq	(%r8,%r9), %rcx
	movq	%r8, %r14
	leaq	-1(%r9), %rdi
	movl	$5, %r8d
	cmpq	$38, %rdi
	ja	.LBB32_380
	jmp	.LBB32_59
.LBB32_32:
	movq	%rbp, %r14
	movq	%rdx, %rbp
	movq	%rsi, %r13
	movq	%rsp, %rdi
	movq	%r8, %rsi
	movq	%rcx, %rdx
	movl	$6, %ecx
	callq	_RNvNtNtNtCs00000000001_10pkcs1_tool6proved8der_core5split14split_unlikely
	movq	(%rsp), %rax
	testq	%rax, %rax
	je	.LBB32_87
	movq	%rax, %rcx
	movq	8(%rsp), %r9
	movq	16(%rsp), %rdi
	movq	24(%rsp), %rax
	movq	%r13, %rsi
	movq	%rbp, %rdx
	movq	%r14, %rbp
	movq	%rcx, %r14
	movq	%rdi, %rcx
	leaq	-1(%r9), %rdi
	movl	$5, %r8d
	cmpq	$38, %rdi
	ja	.LBB32_380
.LBB32_59:
	movq	%rbp, 72(%rsp)
	movq	%r9, 80(%rsp)
	movzbl	(%r14,%rdi), %r9d
	testb	%r9b, %r9b
	js	.LBB32_72
	movdqa	.LCPI32_1(%rip), %xmm0
	movdqa	.LCPI32_0(%rip), %xmm1
	xorl	%r10d, %r10d
	movq	%r14, %r11
	jmp	.LBB32_62
	.p2align	4, 0x90
.LBB32_61:
	addq	%rbp, %rdi
	addq	%r13, %r11
.LBB32_62:
	cmpq	$7, %rdi
	jbe	.LBB32_65
	movq	(%r11), %xmm2
	pcmpeqb	%xmm0, %xmm2
	pmovmskb	%xmm2, %ebp
	testb	%bpl, %bpl
	jne	.LBB32_71
	movl	$8, %r13d
	movq	$-8, %rbp
	jmp	.LBB32_61
	.p2align	4, 0x90
.LBB32_65:
	cmpq	$3, %rdi
	jbe	.LBB32_68
	movd	(%r11), %xmm2
	punpcklbw	%xmm2, %xmm2
	punpcklwd	%xmm2, %xmm2
	pcmpeqb	%xmm1, %xmm2
	movmskps	%xmm2, %ebp
	testl	%ebp, %ebp
	jne	.LBB32_71
	movl	$4, %r13d
	movq	$-4, %rbp
	jmp	.LBB32_61
	.p2align	4, 0x90
.LBB32_68:
	testq	%rdi, %rdi
	je	.LBB32_75
	cmpb	(%r11), %r10b
	jo	.LBB32_71
	movl	$1, %r13d
	movq	$-1, %rbp
	jmp	.LBB32_61
.LBB32_71:
	cmpq	$0, 80(%rsp)
	je	.LBB32_75
.LBB32_72:
	xorl	%edi, %edi
	cmpb	(%r14), %dil
	jo	.LBB32_380
	movq	80(%rsp), %r13
	cmpq	$1, %r13
	jne	.LBB32_81
.LBB32_74:
	testb	%r9b, %r9b
	js	.LBB32_380
.LBB32_75:
	testq	%rax, %rax
	je	.LBB32_79
	movzbl	(%rcx), %edi
	movl	%edi, %r8d
	notb	%r8b
	testb	$31, %r8b
	sete	%r8b
	testb	$-33, %dil
	sete	%r9b
	orb	%r8b, %r9b
	je	.LBB32_89
	movl	$11, %eax
	xorl	%r8d, %r8d
.LBB32_78:
	movzbl	%dil, %ecx
	orl	%ecx, %r8d
	shll	$8, %r8d
	jmp	.LBB32_88
.LBB32_79:
	testq	%r15, %r15
	movq	72(%rsp), %rbp
	jne	.LBB32_385
	xorl	%r11d, %r11d
	xorl	%r8d, %r8d
	testq	%rdx, %rdx
	jne	.LBB32_110
	jmp	.LBB32_112
.LBB32_81:
	leaq	-1(%r13), %r10
	xorl	%r11d, %r11d
	xorl	%edi, %edi
	jmp	.LBB32_83
	.p2align	4, 0x90
.LBB32_82:
	incq	%rdi
	cmpq	%rdi, %r10
	je	.LBB32_74
.LBB32_83:
	cmpb	1(%r14,%rdi), %r11b
	jno	.LBB32_82
	cmpq	%r13, %rdi
	jae	.LBB32_424
	cmpb	$0, (%r14,%rdi)
	js	.LBB32_82
	jmp	.LBB32_380
.LBB32_86:
	xorl	%r8d, %r8d
	testq	%rdx, %rdx
	jne	.LBB32_110
	jmp	.LBB32_112
.LBB32_87:
	movzwl	8(%rsp), %eax
	movzbl	10(%rsp), %r8d
	shll	$16, %r8d
.LBB32_88:
	orq	%rax, %r8
	jmp	.LBB32_380
.LBB32_89:
	movq	%rcx, %r13
	movzbl	%dil, %ecx
	cmpq	$1, %rax
	je	.LBB32_103
	leaq	2(%r13), %r11
	leaq	-2(%rax), %rdi
	movsbq	1(%r13), %r10
	testq	%r10, %r10
	js	.LBB32_93
	subq	%r10, %rdi
	jb	.LBB32_103
	movq	%r10, %r9
	jmp	.LBB32_105
.LBB32_93:
	cmpb	$-126, %r10b
	jne	.LBB32_98
	cmpq	$1, %rdi
	jbe	.LBB32_103
	movzbl	2(%r13), %r8d
	testq	%r8, %r8
	je	.LBB32_103
	leaq	-4(%rax), %rdi
	shll	$8, %r8d
	movzbl	3(%r13), %r10d
	orq	%r8, %r10
	subq	%r10, %rdi
	jb	.LBB32_103
	movq	%r10, %r9
	addq	$4, %r13
	movq	%r13, %r11
	jmp	.LBB32_105
.LBB32_98:
	testq	%rdi, %rdi
	je	.LBB32_103
	movq	%r10, %r8
	cmpb	$-127, %r8b
	jne	.LBB32_103
	movzbl	(%r11), %edi
	testb	%dil, %dil
	jns	.LBB32_103
	movq	%rdi, %r9
	leaq	-3(%rax), %rdi
	subq	%r9, %rdi
	jb	.LBB32_103
	addq	$3, %r13
	movq	%r13, %r11
	jmp	.LBB32_105
.LBB32_103:
	movq	%rdx, 40(%rsp)
	movq	%rsi, %rbp
	movq	%rsp, %rdi
	movq	%r13, %rsi
	movq	%rax, %rdx
	movq	%rcx, %r13
	callq	_RNvNtNtNtCs00000000001_10pkcs1_tool6proved8der_core5split14split_unlikely
	movq	(%rsp), %r11
	testq	%r11, %r11
	je	.LBB32_393
	movq	8(%rsp), %r9
	movq	24(%rsp), %rdi
	movq	%rbp, %rsi
	movq	40(%rsp), %rdx
	movq	%r13, %rcx
.LBB32_105:
	movl	$12, %r8d
	testq	%rdi, %rdi
	jne	.LBB32_380
	testq	%r15, %r15
	jne	.LBB32_385
	movq	80(%rsp), %rax
	cmpq	$5, %rax
	jne	.LBB32_111
	movq	%r9, %rdi
	movq	72(%rsp), %rbp
	cmpb	$43, (%r14)
	je	.LBB32_10
.LBB32_109:
	movl	$5, %eax
	movq	%rax, 80(%rsp)
	xorl	%r8d, %r8d
	testq	%rdx, %rdx
	je	.LBB32_112
.LBB32_110:
	cmpb	$-96, (%rsi)
	sete	%al
	andb	%al, %r8b
.LBB32_113:
	movabsq	$72354425775621674, %rsi
	leaq	.Lanon.26(%rip), %r13
	leaq	.Lanon.25(%rip), %r15
	leaq	_RNvNtNtCs00000000001_10pkcs1_tool10rattle_std7library8AN_OCTET(%rip), %rdx
	testq	%r12, %r12
	je	.LBB32_122
	cmpb	$-95, (%rbp)
	jne	.LBB32_123
	cmpq	$1, %r12
	movq	%r8, 104(%rsp)
	je	.LBB32_188
	leaq	2(%rbp), %rsi
	leaq	-2(%r12), %r9
	movsbq	1(%rbp), %rdx
	testq	%rdx, %rdx
	js	.LBB32_156
	subq	%rdx, %r9
	jb	.LBB32_188
	leaq	(%rsi,%rdx), %rax
	movq	%rax, 40(%rsp)
	cmpq	$2, %rdx
	jb	.LBB32_120
.LBB32_119:
	cmpb	$48, (%rsi)
	je	.LBB32_177
	jmp	.LBB32_120
.LBB32_122:
	movl	$5, %eax
	movq	%rax, 120(%rsp)
	movq	$0, 136(%rsp)
	movl	$5, %r9d
	xorl	%r10d, %r10d
	jmp	.LBB32_124
.LBB32_123:
	movl	$5, %eax
	movq	%rax, 120(%rsp)
	movq	$0, 136(%rsp)
	movl	$5, %r9d
	movq	%r12, %r10
.LBB32_124:
	movq	%rbp, 40(%rsp)
.LBB32_125:
	movl	$9, %eax
	movq	%rax, 88(%rsp)
	cmpq	%rsi, (%r13)
	movq	%rdx, 152(%rsp)
	jne	.LBB32_135
	cmpb	$8, 8(%r13)
	jne	.LBB32_135
	xorl	%eax, %eax
	testq	%rdx, %rdx
	je	.LBB32_136
	cmpq	$5, %r9
	jne	.LBB32_136
	movl	$5, %r9d
	cmpb	$43, (%r15)
	jne	.LBB32_135
	cmpb	$14, 1(%r15)
	jne	.LBB32_135
	cmpb	$3, 2(%r15)
	jne	.LBB32_135
	cmpb	$2, 3(%r15)
	jne	.LBB32_135
	cmpb	$26, 4(%r15)
	jne	.LBB32_135
	movzbl	120(%rsp), %eax
	xorq	$5, %rax
	orq	136(%rsp), %rax
	sete	%al
	jmp	.LBB32_136
.LBB32_135:
	xorl	%eax, %eax
.LBB32_136:
	testq	%r12, %r12
	sete	%dl
	orb	%r8b, %dl
	movq	%r13, 112(%rsp)
	movq	%r15, 160(%rsp)
	movq	%r9, 64(%rsp)
	je	.LBB32_138
	movl	$0, 72(%rsp)
	jmp	.LBB32_139
.LBB32_138:
	cmpb	$-95, (%rbp)
	sete	%dl
	andb	%dl, %al
	movb	$1, %dl
	movl	%edx, 72(%rsp)
	movl	%eax, %r8d
.LBB32_139:
	leaq	.Lanon.27(%rip), %r15
	leaq	_RNvNtNtCs00000000001_10pkcs1_tool10rattle_std7library8AN_OCTET(%rip), %r9
	movl	$4, %r13d
	testq	%r10, %r10
	je	.LBB32_152
	movq	40(%rsp), %rax
	cmpb	$-94, (%rax)
	jne	.LBB32_153
	cmpq	$1, %r10
	movq	%r8, 104(%rsp)
	je	.LBB32_241
	movq	40(%rsp), %rax
	leaq	2(%rax), %rsi
	leaq	-2(%r10), %rbp
	movsbq	1(%rax), %rdx
	testq	%rdx, %rdx
	js	.LBB32_161
	subq	%rdx, %rbp
	jb	.LBB32_241
	cmpq	$2, %rdx
	jb	.LBB32_243
.LBB32_145:
	cmpb	$48, (%rsi)
	jne	.LBB32_243
	leaq	2(%rsi), %rax
	leaq	-2(%rdx), %r9
	movsbq	1(%rsi), %r8
	testq	%r8, %r8
	js	.LBB32_166
	subq	%r8, %r9
	jb	.LBB32_243
	cmpq	$2, %r8
	jb	.LBB32_150
.LBB32_149:
	cmpb	$6, (%rax)
	je	.LBB32_252
	jmp	.LBB32_150
.LBB32_152:
	xorl	%eax, %eax
	xorl	%ebp, %ebp
	movl	$9, %r12d
	cmpq	%rsi, (%r15)
	je	.LBB32_154
	jmp	.LBB32_388
.LBB32_153:
	xorl	%eax, %eax
	movq	%r10, %rbp
	movl	$9, %r12d
	cmpq	%rsi, (%r15)
	jne	.LBB32_388
.LBB32_154:
	cmpb	$9, 8(%r15)
	jne	.LBB32_388
	movq	%r13, %rdx
	xorq	$4, %rdx
	orq	%rax, %rdx
	sete	%dl
	testq	%r10, %r10
	sete	%sil
	orb	%r8b, %sil
	je	.LBB32_389
	jmp	.LBB32_390
.LBB32_156:
	cmpb	$-126, %dl
	jne	.LBB32_171
	cmpq	$1, %r9
	jbe	.LBB32_188
	movzbl	2(%rbp), %eax
	testq	%rax, %rax
	je	.LBB32_188
	leaq	-4(%r12), %r9
	shll	$8, %eax
	movzbl	3(%rbp), %edx
	orq	%rax, %rdx
	subq	%rdx, %r9
	jb	.LBB32_188
	leaq	4(%rbp), %rsi
	jmp	.LBB32_176
.LBB32_161:
	cmpb	$-126, %dl
	jne	.LBB32_236
	cmpq	$1, %rbp
	jbe	.LBB32_241
	movq	40(%rsp), %rax
	movzbl	2(%rax), %eax
	testq	%rax, %rax
	je	.LBB32_241
	leaq	-4(%r10), %rbp
	shll	$8, %eax
	movq	40(%rsp), %rdx
	movzbl	3(%rdx), %edx
	orq	%rax, %rdx
	subq	%rdx, %rbp
	jb	.LBB32_241
	movq	40(%rsp), %rax
	leaq	4(%rax), %rsi
	jmp	.LBB32_145
.LBB32_166:
	cmpb	$-126, %r8b
	jne	.LBB32_246
	cmpq	$1, %r9
	jbe	.LBB32_243
	movzbl	2(%rsi), %eax
	testq	%rax, %rax
	je	.LBB32_243
	leaq	-4(%rdx), %r9
	shll	$8, %eax
	movzbl	3(%rsi), %r8d
	orq	%rax, %r8
	subq	%r8, %r9
	jb	.LBB32_243
	addq	$4, %rsi
	jmp	.LBB32_251
.LBB32_171:
	testq	%r9, %r9
	je	.LBB32_188
	cmpb	$-127, %dl
	jne	.LBB32_188
	movzbl	(%rsi), %edx
	testb	%dl, %dl
	jns	.LBB32_188
	leaq	-3(%r12), %r9
	subq	%rdx, %r9
	jb	.LBB32_188
	leaq	3(%rbp), %rsi
.LBB32_176:
	leaq	(%rsi,%rdx), %rax
	movq	%rax, 40(%rsp)
	cmpb	$48, (%rsi)
	jne	.LBB32_120
.LBB32_177:
	leaq	2(%rsi), %rax
	leaq	-2(%rdx), %r13
	movsbq	1(%rsi), %r8
	testq	%r8, %r8
	js	.LBB32_183
	subq	%r8, %r13
	jb	.LBB32_120
	cmpq	$2, %r8
	jb	.LBB32_181
.LBB32_180:
	cmpb	$6, (%rax)
	je	.LBB32_196
	jmp	.LBB32_181
.LBB32_183:
	cmpb	$-126, %r8b
	jne	.LBB32_190
	cmpq	$1, %r13
	jbe	.LBB32_120
	movzbl	2(%rsi), %eax
	testq	%rax, %rax
	je	.LBB32_120
	leaq	-4(%rdx), %r13
	shll	$8, %eax
	movzbl	3(%rsi), %r8d
	orq	%rax, %r8
	subq	%r8, %r13
	jb	.LBB32_120
	addq	$4, %rsi
	jmp	.LBB32_195
.LBB32_188:
	movq	%r14, 144(%rsp)
	movq	%rbp, %rsi
	movq	%r11, %rbp
	movq	%rdi, %r13
	movq	%rcx, %r15
	movq	%rsp, %rdi
	movq	%rsi, %r14
	movq	%r12, %rdx
	movl	$161, %ecx
	callq	_RNvNtNtNtCs00000000001_10pkcs1_tool6proved8der_core5split14split_unlikely
	movq	(%rsp), %rsi
	testq	%rsi, %rsi
	je	.LBB32_296
	movq	8(%rsp), %rdx
	movq	16(%rsp), %rax
	movq	%rax, 40(%rsp)
	movq	24(%rsp), %r9
	movq	%r15, %rcx
	movq	%r13, %rdi
	movq	%rbp, %r11
	movq	%r14, %rbp
	movq	144(%rsp), %r14
	cmpq	$2, %rdx
	jae	.LBB32_119
	jmp	.LBB32_120
.LBB32_190:
	testq	%r13, %r13
	je	.LBB32_120
	cmpb	$-127, %r8b
	jne	.LBB32_120
	movzbl	(%rax), %r8d
	testb	%r8b, %r8b
	jns	.LBB32_120
	leaq	-3(%rdx), %r13
	subq	%r8, %r13
	jb	.LBB32_120
	addq	$3, %rsi
.LBB32_195:
	movq	%rsi, %rax
	cmpb	$6, (%rax)
	jne	.LBB32_181
.LBB32_196:
	leaq	2(%rax), %r10
	leaq	-2(%r8), %rdx
	movsbq	1(%rax), %r15
	testq	%r15, %r15
	js	.LBB32_199
	subq	%r15, %rdx
	jb	.LBB32_181
	movq	%rdi, 48(%rsp)
	leaq	(%r10,%r15), %rsi
	leaq	-1(%r15), %rdi
	movl	$5, %eax
	cmpq	$38, %rdi
	jbe	.LBB32_210
	jmp	.LBB32_411
.LBB32_199:
	cmpb	$-126, %r15b
	jne	.LBB32_204
	cmpq	$1, %rdx
	jbe	.LBB32_181
	movzbl	2(%rax), %esi
	testq	%rsi, %rsi
	je	.LBB32_181
	leaq	-4(%r8), %rdx
	shll	$8, %esi
	movzbl	3(%rax), %r15d
	orq	%rsi, %r15
	subq	%r15, %rdx
	jb	.LBB32_181
	movq	%rdi, 48(%rsp)
	addq	$4, %rax
	jmp	.LBB32_209
.LBB32_120:
	movq	%r9, 32(%rsp)
	movq	%r14, 144(%rsp)
	movq	%rbp, %r14
	movq	%r11, %rbp
	movq	%rdi, %r13
	movq	%rcx, %r15
	movq	%rsp, %rdi
	movl	$48, %ecx
	callq	_RNvNtNtNtCs00000000001_10pkcs1_tool6proved8der_core5split14split_unlikely
	movq	(%rsp), %rax
	testq	%rax, %rax
	je	.LBB32_294
	movq	8(%rsp), %r8
	movq	24(%rsp), %rdx
	movq	%r15, %rcx
	movq	%r13, %rdi
	movq	%rdx, %r13
	movq	%rbp, %r11
	movq	%r14, %rbp
	movq	144(%rsp), %r14
	movq	32(%rsp), %r9
	cmpq	$2, %r8
	jae	.LBB32_180
	jmp	.LBB32_181
.LBB32_204:
	testq	%rdx, %rdx
	je	.LBB32_181
	cmpb	$-127, %r15b
	jne	.LBB32_181
	movzbl	(%r10), %r15d
	testb	%r15b, %r15b
	jns	.LBB32_181
	leaq	-3(%r8), %rdx
	subq	%r15, %rdx
	jb	.LBB32_181
	movq	%rdi, 48(%rsp)
	addq	$3, %rax
.LBB32_209:
	leaq	(%rax,%r15), %rsi
	movq	%rax, %r10
	leaq	-1(%r15), %rdi
	movl	$5, %eax
	cmpq	$38, %rdi
	ja	.LBB32_411
	jmp	.LBB32_210
.LBB32_181:
	movq	%r13, 112(%rsp)
	movq	%r9, 32(%rsp)
	movq	%rdi, 48(%rsp)
	movq	%r11, %r13
	movq	%rcx, %r15
	movq	%rsp, %rdi
	movq	%rax, %rsi
	movq	%r8, %rdx
	movl	$6, %ecx
	callq	_RNvNtNtNtCs00000000001_10pkcs1_tool6proved8der_core5split14split_unlikely
	movq	(%rsp), %rax
	testq	%rax, %rax
	je	.LBB32_295
	movq	%rax, %r10
	movq	8(%rsp), %rax
	movq	16(%rsp), %rsi
	movq	24(%rsp), %rdx
	movq	%r15, %rcx
	movq	%r13, %r11
	movq	%rax, %r15
	movq	32(%rsp), %r9
	movq	112(%rsp), %r13
	leaq	-1(%r15), %rdi
	movl	$5, %eax
	cmpq	$38, %rdi
	ja	.LBB32_411
.LBB32_210:
	movq	%r13, 112(%rsp)
	movq	%r15, 88(%rsp)
	movq	%r9, 32(%rsp)
	movq	%r11, 56(%rsp)
	movq	%rcx, 96(%rsp)
	movq	%r10, %r13
	movzbl	(%r10,%rdi), %ecx
	testb	%cl, %cl
	js	.LBB32_223
	movdqa	.LCPI32_1(%rip), %xmm0
	movdqa	.LCPI32_0(%rip), %xmm1
	xorl	%r8d, %r8d
	movq	%r13, %r9
	jmp	.LBB32_214
	.p2align	4, 0x90
.LBB32_212:
	movl	$1, %r10d
	movq	$-1, %r11
.LBB32_213:
	addq	%r11, %rdi
	addq	%r10, %r9
.LBB32_214:
	cmpq	$7, %rdi
	jbe	.LBB32_217
	movq	(%r9), %xmm2
	pcmpeqb	%xmm0, %xmm2
	pmovmskb	%xmm2, %r10d
	testb	%r10b, %r10b
	jne	.LBB32_222
	movl	$8, %r10d
	movq	$-8, %r11
	jmp	.LBB32_213
	.p2align	4, 0x90
.LBB32_217:
	cmpq	$3, %rdi
	jbe	.LBB32_220
	movd	(%r9), %xmm2
	punpcklbw	%xmm2, %xmm2
	punpcklwd	%xmm2, %xmm2
	pcmpeqb	%xmm1, %xmm2
	movmskps	%xmm2, %r10d
	testl	%r10d, %r10d
	jne	.LBB32_222
	movl	$4, %r10d
	movq	$-4, %r11
	jmp	.LBB32_213
	.p2align	4, 0x90
.LBB32_220:
	testq	%rdi, %rdi
	je	.LBB32_226
	cmpb	(%r9), %r8b
	jno	.LBB32_212
.LBB32_222:
	cmpq	$0, 88(%rsp)
	je	.LBB32_226
.LBB32_223:
	xorl	%edi, %edi
	cmpb	(%r13), %dil
	jo	.LBB32_411
	cmpq	$1, 88(%rsp)
	jne	.LBB32_289
.LBB32_225:
	testb	%cl, %cl
	js	.LBB32_411
.LBB32_226:
	testq	%rdx, %rdx
	je	.LBB32_287
	movq	%rbp, 72(%rsp)
	cmpq	$1, %rdx
	je	.LBB32_231
	cmpb	$48, (%rsi)
	jne	.LBB32_231
	leaq	2(%rsi), %rcx
	leaq	-2(%rdx), %rbp
	movsbq	1(%rsi), %rax
	testq	%rax, %rax
	js	.LBB32_310
	subq	%rax, %rbp
	jae	.LBB32_233
	jmp	.LBB32_231
.LBB32_236:
	testq	%rbp, %rbp
	je	.LBB32_241
	cmpb	$-127, %dl
	jne	.LBB32_241
	movzbl	(%rsi), %edx
	testb	%dl, %dl
	jns	.LBB32_241
	leaq	-3(%r10), %rbp
	subq	%rdx, %rbp
	jb	.LBB32_241
	movq	40(%rsp), %rax
	leaq	3(%rax), %rsi
	jmp	.LBB32_145
.LBB32_241:
	movq	%r11, 56(%rsp)
	movq	%rdi, %r12
	movq	%rcx, %r15
	movq	%rsp, %rdi
	movq	40(%rsp), %rsi
	movq	%r10, %r13
	movq	%r10, %rdx
	movl	$162, %ecx
	callq	_RNvNtNtNtCs00000000001_10pkcs1_tool6proved8der_core5split14split_unlikely
	movq	(%rsp), %rsi
	testq	%rsi, %rsi
	je	.LBB32_245
	movq	8(%rsp), %rdx
	movq	24(%rsp), %rbp
	movq	%r15, %rcx
	movq	%r12, %rdi
	movq	56(%rsp), %r11
	movq	%r13, %r10
	cmpq	$2, %rdx
	jae	.LBB32_145
	jmp	.LBB32_243
.LBB32_245:
	movzbl	10(%rsp), %eax
	shll	$16, %eax
	movzwl	8(%rsp), %ecx
	jmp	.LBB32_383
.LBB32_246:
	testq	%r9, %r9
	je	.LBB32_243
	cmpb	$-127, %r8b
	jne	.LBB32_243
	movzbl	(%rax), %r8d
	testb	%r8b, %r8b
	jns	.LBB32_243
	leaq	-3(%rdx), %r9
	subq	%r8, %r9
	jb	.LBB32_243
	addq	$3, %rsi
.LBB32_251:
	movq	%rsi, %rax
	cmpb	$6, (%rax)
	jne	.LBB32_150
.LBB32_252:
	leaq	2(%rax), %r15
	leaq	-2(%r8), %rdx
	movsbq	1(%rax), %r12
	testq	%r12, %r12
	js	.LBB32_255
	subq	%r12, %rdx
	jb	.LBB32_150
	leaq	(%r15,%r12), %rsi
	leaq	-1(%r12), %r13
	movl	$5, %r8d
	cmpq	$38, %r13
	jbe	.LBB32_267
	jmp	.LBB32_380
.LBB32_255:
	cmpb	$-126, %r12b
	jne	.LBB32_261
	cmpq	$1, %rdx
	jbe	.LBB32_150
	movzbl	2(%rax), %esi
	testq	%rsi, %rsi
	je	.LBB32_150
	leaq	-4(%r8), %rdx
	shll	$8, %esi
	movzbl	3(%rax), %r12d
	orq	%rsi, %r12
	subq	%r12, %rdx
	jb	.LBB32_150
	addq	$4, %rax
	jmp	.LBB32_266
.LBB32_243:
	movq	%r10, 32(%rsp)
	movq	%r11, %r13
	movq	%rdi, %r12
	movq	%rcx, %r15
	movq	%rsp, %rdi
	movl	$48, %ecx
	callq	_RNvNtNtNtCs00000000001_10pkcs1_tool6proved8der_core5split14split_unlikely
	movq	(%rsp), %rax
	testq	%rax, %rax
	je	.LBB32_260
	movq	8(%rsp), %r8
	movq	24(%rsp), %r9
	movq	%r15, %rcx
	movq	%r12, %rdi
	movq	%r13, %r11
	movq	32(%rsp), %r10
	cmpq	$2, %r8
	jae	.LBB32_149
	jmp	.LBB32_150
.LBB32_260:
	movzbl	10(%rsp), %eax
	shll	$16, %eax
	movzwl	8(%rsp), %r8d
	orl	%r8d, %eax
	jmp	.LBB32_381
.LBB32_261:
	testq	%rdx, %rdx
	je	.LBB32_150
	cmpb	$-127, %r12b
	jne	.LBB32_150
	movzbl	(%r15), %r12d
	testb	%r12b, %r12b
	jns	.LBB32_150
	leaq	-3(%r8), %rdx
	subq	%r12, %rdx
	jb	.LBB32_150
	addq	$3, %rax
.LBB32_266:
	leaq	(%rax,%r12), %rsi
	movq	%rax, %r15
	leaq	-1(%r12), %r13
	movl	$5, %r8d
	cmpq	$38, %r13
	ja	.LBB32_380
	jmp	.LBB32_267
.LBB32_150:
	movq	%r9, 128(%rsp)
	movq	%r10, 32(%rsp)
	movq	%r11, 56(%rsp)
	movq	%rdi, 48(%rsp)
	movq	%rcx, %r13
	movq	%rsp, %rdi
	movq	%rax, %rsi
	movq	%r8, %rdx
	movl	$6, %ecx
	callq	_RNvNtNtNtCs00000000001_10pkcs1_tool6proved8der_core5split14split_unlikely
	movq	(%rsp), %r15
	testq	%r15, %r15
	je	.LBB32_304
	movq	8(%rsp), %r12
	movq	16(%rsp), %rsi
	movq	24(%rsp), %rdx
	movq	%r13, %rcx
	movq	48(%rsp), %rdi
	movq	56(%rsp), %r11
	movq	32(%rsp), %r10
	movq	128(%rsp), %r9
	leaq	-1(%r12), %r13
	movl	$5, %r8d
	cmpq	$38, %r13
	ja	.LBB32_380
.LBB32_267:
	movq	%r9, 128(%rsp)
	movq	%r10, 32(%rsp)
	movq	%r11, 56(%rsp)
	movq	%rdi, 48(%rsp)
	movq	%rcx, 96(%rsp)
	movzbl	(%r15,%r13), %eax
	testb	%al, %al
	js	.LBB32_280
	movdqa	.LCPI32_1(%rip), %xmm0
	movdqa	.LCPI32_0(%rip), %xmm1
	xorl	%edi, %edi
	movq	%r15, %r9
	jmp	.LBB32_272
	.p2align	4, 0x90
.LBB32_269:
	movd	(%r9), %xmm2
	punpcklbw	%xmm2, %xmm2
	punpcklwd	%xmm2, %xmm2
	pcmpeqb	%xmm1, %xmm2
	movmskps	%xmm2, %r10d
	testl	%r10d, %r10d
	jne	.LBB32_279
	movl	$4, %r10d
	movq	$-4, %r11
.LBB32_271:
	addq	%r11, %r13
	addq	%r10, %r9
.LBB32_272:
	cmpq	$7, %r13
	jbe	.LBB32_275
	movq	(%r9), %xmm2
	pcmpeqb	%xmm0, %xmm2
	pmovmskb	%xmm2, %r10d
	testb	%r10b, %r10b
	jne	.LBB32_279
	movl	$8, %r10d
	movq	$-8, %r11
	jmp	.LBB32_271
	.p2align	4, 0x90
.LBB32_275:
	cmpq	$3, %r13
	ja	.LBB32_269
	testq	%r13, %r13
	je	.LBB32_283
	cmpb	(%r9), %dil
	jo	.LBB32_279
	movl	$1, %r10d
	movq	$-1, %r11
	jmp	.LBB32_271
.LBB32_279:
	testq	%r12, %r12
	je	.LBB32_283
.LBB32_280:
	xorl	%ecx, %ecx
	cmpb	(%r15), %cl
	jo	.LBB32_380
	cmpq	$1, %r12
	jne	.LBB32_299
.LBB32_282:
	testb	%al, %al
	js	.LBB32_380
.LBB32_283:
	testq	%rdx, %rdx
	je	.LBB32_297
	movzbl	(%rsi), %eax
	movl	%eax, %ecx
	notb	%cl
	testb	$31, %cl
	sete	%cl
	testb	$-33, %al
	sete	%dil
	orb	%cl, %dil
	je	.LBB32_305
	movl	$11, %ecx
	xorl	%r8d, %r8d
.LBB32_286:
	movzbl	%al, %eax
	orl	%eax, %r8d
	shll	$8, %r8d
	orq	%rcx, %r8
	jmp	.LBB32_380
.LBB32_287:
	cmpq	$0, 112(%rsp)
	movq	56(%rsp), %r11
	movq	104(%rsp), %r8
	movq	32(%rsp), %r10
	je	.LBB32_315
.LBB32_288:
	movb	$12, %al
	jmp	.LBB32_413
.LBB32_289:
	movq	88(%rsp), %rdi
	leaq	-1(%rdi), %r8
	xorl	%r9d, %r9d
	xorl	%edi, %edi
	jmp	.LBB32_291
	.p2align	4, 0x90
.LBB32_290:
	incq	%rdi
	cmpq	%rdi, %r8
	je	.LBB32_225
.LBB32_291:
	cmpb	1(%r13,%rdi), %r9b
	jno	.LBB32_290
	cmpq	88(%rsp), %rdi
	jae	.LBB32_425
	cmpb	$0, (%r13,%rdi)
	js	.LBB32_290
	jmp	.LBB32_411
.LBB32_294:
	movzbl	10(%rsp), %ecx
	shll	$16, %ecx
	movzwl	8(%rsp), %eax
	orl	%eax, %ecx
	jmp	.LBB32_412
.LBB32_295:
	movzwl	8(%rsp), %ecx
	movzbl	10(%rsp), %eax
	shll	$16, %eax
	jmp	.LBB32_410
.LBB32_296:
	movzbl	10(%rsp), %ecx
	shll	$16, %ecx
	movzwl	8(%rsp), %eax
	jmp	.LBB32_414
.LBB32_297:
	cmpq	$0, 128(%rsp)
	movq	96(%rsp), %rcx
	movq	56(%rsp), %r11
	movq	104(%rsp), %r8
	movq	32(%rsp), %r10
	jne	.LBB32_385
	xorl	%r9d, %r9d
	xorl	%edx, %edx
	movq	48(%rsp), %rdi
	testq	%r10, %r10
	sete	%sil
	orb	%r8b, %sil
	je	.LBB32_389
	jmp	.LBB32_390
.LBB32_299:
	leaq	-1(%r12), %rcx
	xorl	%r9d, %r9d
	xorl	%edi, %edi
	jmp	.LBB32_301
	.p2align	4, 0x90
.LBB32_300:
	incq	%rdi
	cmpq	%rdi, %rcx
	je	.LBB32_282
.LBB32_301:
	cmpb	1(%r15,%rdi), %r9b
	jno	.LBB32_300
	cmpq	%r12, %rdi
	jae	.LBB32_426
	cmpb	$0, (%r15,%rdi)
	js	.LBB32_300
	jmp	.LBB32_380
.LBB32_304:
	movzwl	8(%rsp), %eax
	movzbl	10(%rsp), %r8d
	shll	$16, %r8d
	orq	%rax, %r8
	jmp	.LBB32_380
.LBB32_305:
	movzbl	%al, %r13d
	cmpq	$1, %rdx
	je	.LBB32_308
	leaq	2(%rsi), %r9
	leaq	-2(%rdx), %rdi
	movsbq	1(%rsi), %rax
	testq	%rax, %rax
	js	.LBB32_359
	subq	%rax, %rdi
	jae	.LBB32_379
	jmp	.LBB32_308
.LBB32_310:
	cmpb	$-126, %al
	jne	.LBB32_316
	cmpq	$1, %rbp
	jbe	.LBB32_231
	movzbl	2(%rsi), %ecx
	testq	%rcx, %rcx
	je	.LBB32_231
	leaq	-4(%rdx), %rbp
	shll	$8, %ecx
	movzbl	3(%rsi), %eax
	orq	%rcx, %rax
	subq	%rax, %rbp
	jb	.LBB32_231
	addq	$4, %rsi
	jmp	.LBB32_321
.LBB32_315:
	xorl	%r15d, %r15d
	xorl	%eax, %eax
	movq	96(%rsp), %rcx
	movq	48(%rsp), %rdi
	movabsq	$72354425775621674, %rsi
	jmp	.LBB32_136
.LBB32_316:
	testq	%rbp, %rbp
	je	.LBB32_231
	cmpb	$-127, %al
	jne	.LBB32_231
	movzbl	(%rcx), %eax
	testb	%al, %al
	jns	.LBB32_231
	leaq	-3(%rdx), %rbp
	subq	%rax, %rbp
	jb	.LBB32_231
	addq	$3, %rsi
.LBB32_321:
	movq	%rsi, %rcx
	jmp	.LBB32_322
.LBB32_231:
	movq	%rsp, %rdi
	movl	$48, %ecx
	callq	_RNvNtNtNtCs00000000001_10pkcs1_tool6proved8der_core5split14split_unlikely
	movq	(%rsp), %rcx
	testq	%rcx, %rcx
	je	.LBB32_358
	movq	8(%rsp), %rax
	movq	24(%rsp), %rbp
.LBB32_233:
	cmpq	$2, %rax
	jb	.LBB32_234
.LBB32_322:
	cmpb	$6, (%rcx)
	jne	.LBB32_234
	leaq	2(%rcx), %r8
	leaq	-2(%rax), %rdx
	movsbq	1(%rcx), %r9
	testq	%r9, %r9
	js	.LBB32_326
	subq	%r9, %rdx
	jb	.LBB32_234
	leaq	(%r8,%r9), %rsi
	jmp	.LBB32_337
.LBB32_326:
	cmpb	$-126, %r9b
	jne	.LBB32_331
	cmpq	$1, %rdx
	jbe	.LBB32_234
	movzbl	2(%rcx), %esi
	testq	%rsi, %rsi
	je	.LBB32_234
	leaq	-4(%rax), %rdx
	shll	$8, %esi
	movzbl	3(%rcx), %r9d
	orq	%rsi, %r9
	subq	%r9, %rdx
	jb	.LBB32_234
	addq	$4, %rcx
	jmp	.LBB32_336
.LBB32_331:
	testq	%rdx, %rdx
	je	.LBB32_234
	cmpb	$-127, %r9b
	jne	.LBB32_234
	movzbl	(%r8), %r9d
	testb	%r9b, %r9b
	jns	.LBB32_234
	leaq	-3(%rax), %rdx
	subq	%r9, %rdx
	jb	.LBB32_234
	addq	$3, %rcx
.LBB32_336:
	leaq	(%rcx,%r9), %rsi
	movq	%rcx, %r8
	jmp	.LBB32_337
.LBB32_234:
	movq	%rsp, %rdi
	movq	%rcx, %rsi
	movq	%rax, %rdx
	movl	$6, %ecx
	callq	_RNvNtNtNtCs00000000001_10pkcs1_tool6proved8der_core5split14split_unlikely
	movq	(%rsp), %r8
	testq	%r8, %r8
	je	.LBB32_358
	movq	8(%rsp), %r9
	movq	16(%rsp), %rsi
	movq	24(%rsp), %rdx
.LBB32_337:
	leaq	-1(%r9), %rdi
	movl	$5, %eax
	cmpq	$38, %rdi
	ja	.LBB32_409
	movq	%r9, 64(%rsp)
	movq	%r8, %r15
	movzbl	(%r8,%rdi), %ecx
	testb	%cl, %cl
	js	.LBB32_351
	movdqa	.LCPI32_1(%rip), %xmm0
	movdqa	.LCPI32_0(%rip), %xmm1
	xorl	%r8d, %r8d
	movq	%r15, %r9
	jmp	.LBB32_341
.LBB32_340:
	addq	%r11, %rdi
	addq	%r10, %r9
.LBB32_341:
	cmpq	$7, %rdi
	jbe	.LBB32_344
	movq	(%r9), %xmm2
	pcmpeqb	%xmm0, %xmm2
	pmovmskb	%xmm2, %r10d
	testb	%r10b, %r10b
	jne	.LBB32_350
	movl	$8, %r10d
	movq	$-8, %r11
	jmp	.LBB32_340
.LBB32_344:
	cmpq	$3, %rdi
	jbe	.LBB32_347
	movd	(%r9), %xmm2
	punpcklbw	%xmm2, %xmm2
	punpcklwd	%xmm2, %xmm2
	pcmpeqb	%xmm1, %xmm2
	movmskps	%xmm2, %r10d
	testl	%r10d, %r10d
	jne	.LBB32_350
	movl	$4, %r10d
	movq	$-4, %r11
	jmp	.LBB32_340
.LBB32_347:
	testq	%rdi, %rdi
	je	.LBB32_354
	cmpb	(%r9), %r8b
	jo	.LBB32_350
	movl	$1, %r10d
	movq	$-1, %r11
	jmp	.LBB32_340
.LBB32_350:
	cmpq	$0, 64(%rsp)
	je	.LBB32_354
.LBB32_351:
	xorl	%edi, %edi
	cmpb	(%r15), %dil
	jo	.LBB32_409
	cmpq	$1, 64(%rsp)
	jne	.LBB32_364
.LBB32_353:
	testb	%cl, %cl
	js	.LBB32_409
.LBB32_354:
	testq	%rdx, %rdx
	je	.LBB32_417
	movzbl	(%rsi), %ecx
	movl	%ecx, %eax
	notb	%al
	testb	$31, %al
	sete	%al
	testb	$-33, %cl
	sete	%dil
	orb	%al, %dil
	je	.LBB32_369
	movl	$11, %edx
	xorl	%eax, %eax
.LBB32_357:
	movzbl	%cl, %ecx
	orl	%ecx, %eax
	shll	$8, %eax
	orq	%rdx, %rax
	jmp	.LBB32_409
.LBB32_358:
	movzwl	8(%rsp), %ecx
	movzbl	10(%rsp), %eax
	shll	$16, %eax
	orq	%rcx, %rax
	jmp	.LBB32_409
.LBB32_359:
	cmpb	$-126, %al
	jne	.LBB32_373
	cmpq	$1, %rdi
	jbe	.LBB32_308
	movzbl	2(%rsi), %ecx
	testq	%rcx, %rcx
	je	.LBB32_308
	leaq	-4(%rdx), %rdi
	shll	$8, %ecx
	movzbl	3(%rsi), %eax
	orq	%rcx, %rax
	subq	%rax, %rdi
	jb	.LBB32_308
	addq	$4, %rsi
	jmp	.LBB32_378
.LBB32_417:
	xorl	%edx, %edx
	jmp	.LBB32_418
.LBB32_364:
	movq	64(%rsp), %rdi
	leaq	-1(%rdi), %r8
	xorl	%r9d, %r9d
	xorl	%edi, %edi
	jmp	.LBB32_366
.LBB32_365:
	incq	%rdi
	cmpq	%rdi, %r8
	je	.LBB32_353
.LBB32_366:
	cmpb	1(%r15,%rdi), %r9b
	jno	.LBB32_365
	cmpq	64(%rsp), %rdi
	jae	.LBB32_427
	cmpb	$0, (%r15,%rdi)
	js	.LBB32_365
	jmp	.LBB32_409
.LBB32_369:
	movzbl	%cl, %eax
	movq	%rax, 120(%rsp)
	cmpq	$1, %rdx
	je	.LBB32_406
	leaq	2(%rsi), %rax
	leaq	-2(%rdx), %rcx
	movsbq	1(%rsi), %rdi
	testq	%rdi, %rdi
	js	.LBB32_394
	subq	%rdi, %rcx
	jb	.LBB32_406
	movq	%rax, %rdx
	jmp	.LBB32_408
.LBB32_373:
	testq	%rdi, %rdi
	je	.LBB32_308
	cmpb	$-127, %al
	jne	.LBB32_308
	movzbl	(%r9), %eax
	testb	%al, %al
	jns	.LBB32_308
	leaq	-3(%rdx), %rdi
	subq	%rax, %rdi
	jb	.LBB32_308
	addq	$3, %rsi
.LBB32_378:
	movq	%rsi, %r9
	jmp	.LBB32_379
.LBB32_308:
	movq	%rsp, %rdi
	movl	%r13d, %ecx
	callq	_RNvNtNtNtCs00000000001_10pkcs1_tool6proved8der_core5split14split_unlikely
	movq	(%rsp), %r9
	testq	%r9, %r9
	je	.LBB32_400
	movq	8(%rsp), %rax
	movq	24(%rsp), %rdi
.LBB32_379:
	movl	$12, %r8d
	testq	%rdi, %rdi
	je	.LBB32_384
.LBB32_380:
	movl	%r8d, %eax
.LBB32_381:
	shrl	$8, %eax
.LBB32_382:
	shll	$8, %eax
	movzbl	%r8b, %ecx
.LBB32_383:
	orl	%eax, %ecx
	movw	%cx, (%rbx)
	shrl	$16, %ecx
	movb	%cl, 2(%rbx)
	jmp	.LBB32_415
.LBB32_384:
	cmpq	$0, 128(%rsp)
	je	.LBB32_386
.LBB32_385:
	movb	$12, %r8b
	jmp	.LBB32_382
.LBB32_111:
	xorl	%r8d, %r8d
	movq	%r9, %rdi
	movq	72(%rsp), %rbp
	testq	%rdx, %rdx
	jne	.LBB32_110
	jmp	.LBB32_112
.LBB32_386:
	cmpq	$9, %r12
	jne	.LBB32_399
	movq	96(%rsp), %rcx
	movq	48(%rsp), %rdi
	movq	56(%rsp), %r11
	movq	104(%rsp), %r8
	movq	32(%rsp), %r10
	movabsq	$72354425775621674, %rsi
	movl	$9, %r12d
	cmpq	%rsi, (%r15)
	je	.LBB32_154
.LBB32_388:
	xorl	%edx, %edx
	testq	%r10, %r10
	sete	%sil
	orb	%r8b, %sil
	jne	.LBB32_390
.LBB32_389:
	movq	40(%rsp), %rsi
	cmpb	$-94, (%rsi)
	sete	%sil
	andb	%sil, %dl
	movb	$2, %sil
	movl	%esi, 72(%rsp)
	movl	%edx, %r8d
.LBB32_390:
	testq	%rbp, %rbp
	je	.LBB32_392
	movb	$12, (%rbx)
	jmp	.LBB32_415
.LBB32_392:
	movq	%r14, (%rbx)
	movq	80(%rsp), %rdx
	movw	%dx, 8(%rbx)
	shrl	$16, %edx
	movb	%dl, 10(%rbx)
	movb	$0, 15(%rbx)
	movl	$0, 11(%rbx)
	movq	%r11, 16(%rbx)
	movq	%rdi, 24(%rbx)
	movq	%rcx, 32(%rbx)
	movq	112(%rsp), %rcx
	movq	%rcx, 40(%rbx)
	movq	88(%rsp), %rcx
	movw	%cx, 48(%rbx)
	shrl	$16, %ecx
	movb	%cl, 50(%rbx)
	movb	$0, 55(%rbx)
	movl	$0, 51(%rbx)
	movq	160(%rsp), %rcx
	movq	%rcx, 56(%rbx)
	movq	64(%rsp), %rcx
	movq	%rcx, 64(%rbx)
	movq	152(%rsp), %rcx
	movq	%rcx, 72(%rbx)
	movq	136(%rsp), %rcx
	movq	%rcx, 80(%rbx)
	movq	120(%rsp), %rcx
	movq	%rcx, 88(%rbx)
	movq	%r15, 96(%rbx)
	movw	%r12w, 104(%rbx)
	shrl	$16, %r12d
	movb	%r12b, 106(%rbx)
	movb	$0, 111(%rbx)
	movl	$0, 107(%rbx)
	movq	%r9, 112(%rbx)
	movq	%rax, 120(%rbx)
	movq	%r13, 128(%rbx)
	movb	%r8b, 136(%rbx)
	movl	72(%rsp), %eax
	movb	%al, 137(%rbx)
	jmp	.LBB32_416
.LBB32_393:
	movzbl	10(%rsp), %eax
	shll	$16, %eax
	movzwl	8(%rsp), %edi
	orl	%eax, %edi
	movzbl	%dil, %eax
	shrl	$8, %edi
	movl	%edi, %r8d
	andl	$65280, %r8d
	jmp	.LBB32_78
.LBB32_394:
	cmpb	$-126, %dil
	jne	.LBB32_401
	cmpq	$1, %rcx
	jbe	.LBB32_406
	movzbl	2(%rsi), %eax
	testq	%rax, %rax
	je	.LBB32_406
	leaq	-4(%rdx), %rcx
	shll	$8, %eax
	movzbl	3(%rsi), %edi
	orq	%rax, %rdi
	subq	%rdi, %rcx
	jb	.LBB32_406
	addq	$4, %rsi
	movq	%rsi, %rdx
	jmp	.LBB32_408
.LBB32_399:
	xorl	%edx, %edx
	movq	96(%rsp), %rcx
	movq	48(%rsp), %rdi
	movq	56(%rsp), %r11
	movq	104(%rsp), %r8
	movq	32(%rsp), %r10
	testq	%r10, %r10
	sete	%sil
	orb	%r8b, %sil
	je	.LBB32_389
	jmp	.LBB32_390
.LBB32_400:
	movzbl	10(%rsp), %eax
	shll	$16, %eax
	movzwl	8(%rsp), %edx
	orl	%eax, %edx
	movzbl	%dl, %ecx
	movl	%edx, %eax
	shrl	$8, %eax
	movl	%eax, %r8d
	andl	$65280, %r8d
	jmp	.LBB32_286
.LBB32_401:
	testq	%rcx, %rcx
	je	.LBB32_406
	cmpb	$-127, %dil
	jne	.LBB32_406
	movzbl	(%rax), %edi
	testb	%dil, %dil
	jns	.LBB32_406
	leaq	-3(%rdx), %rcx
	subq	%rdi, %rcx
	jb	.LBB32_406
	addq	$3, %rsi
	movq	%rsi, %rdx
	jmp	.LBB32_408
.LBB32_406:
	movq	%rsp, %rdi
	movq	120(%rsp), %rcx
	callq	_RNvNtNtNtCs00000000001_10pkcs1_tool6proved8der_core5split14split_unlikely
	movq	(%rsp), %rdx
	testq	%rdx, %rdx
	je	.LBB32_423
	movq	8(%rsp), %rdi
	movq	24(%rsp), %rcx
.LBB32_408:
	movl	$12, %eax
	testq	%rcx, %rcx
	je	.LBB32_418
.LBB32_409:
	movl	%eax, %ecx
	shrl	$8, %ecx
	movzwl	%cx, %ecx
	shll	$8, %ecx
	movzbl	%al, %eax
.LBB32_410:
	orq	%rcx, %rax
.LBB32_411:
	movl	%eax, %ecx
.LBB32_412:
	shrl	$8, %ecx
.LBB32_413:
	shll	$8, %ecx
	movzbl	%al, %eax
.LBB32_414:
	orl	%ecx, %eax
	movw	%ax, (%rbx)
	shrl	$16, %eax
	movb	%al, 2(%rbx)
.LBB32_415:
	movb	$2, 136(%rbx)
.LBB32_416:
	addq	$168, %rsp
	.cfi_def_cfa_offset 56
	popq	%rbx
	.cfi_def_cfa_offset 48
	popq	%r12
	.cfi_def_cfa_offset 40
	popq	%r13
	.cfi_def_cfa_offset 32
	popq	%r14
	.cfi_def_cfa_offset 24
	popq	%r15
	.cfi_def_cfa_offset 16
	popq	%rbp
	.cfi_def_cfa_offset 8
	retq
.LBB32_418:
	.cfi_def_cfa_offset 224
	movl	$12, %eax
	testq	%rbp, %rbp
	movq	72(%rsp), %rbp
	jne	.LBB32_411
	cmpq	$0, 112(%rsp)
	jne	.LBB32_288
	movq	%rdi, 136(%rsp)
	cmpq	$9, 88(%rsp)
	jne	.LBB32_422
	movq	96(%rsp), %rcx
	movq	48(%rsp), %rdi
	movq	56(%rsp), %r11
	movq	104(%rsp), %r8
	movq	32(%rsp), %r10
	movabsq	$72354425775621674, %rsi
	movq	64(%rsp), %r9
	jmp	.LBB32_125
.LBB32_422:
	movq	%rdx, 152(%rsp)
	xorl	%eax, %eax
	movq	96(%rsp), %rcx
	movq	48(%rsp), %rdi
	movq	56(%rsp), %r11
	movq	104(%rsp), %r8
	movq	32(%rsp), %r10
	movabsq	$72354425775621674, %rsi
	movq	64(%rsp), %r9
	jmp	.LBB32_136
.LBB32_423:
	movzbl	10(%rsp), %eax
	shll	$16, %eax
	movzwl	8(%rsp), %ecx
	orl	%eax, %ecx
	movzbl	%cl, %edx
	shrl	$8, %ecx
	movl	%ecx, %eax
	andl	$65280, %eax
	jmp	.LBB32_357
.LBB32_424:
	movq	%r13, %rsi
	ud2
.LBB32_425:
	movq	88(%rsp), %rsi
	ud2
.LBB32_426:
	movq	%r12, %rsi
	ud2
.LBB32_427:
	movq	64(%rsp), %rsi
	ud2
.Lfunc_end32:
	.size	_RNvNtNtNtCs00000000001_10pkcs1_tool6proved12pkcs1_params6noting9note_oaep, .Lfunc_end32-_RNvNtNtNtCs00000000001_10pkcs1_tool6proved12pkcs1_params6noting9note_oaep
	.cfi_endproc

	.section	.text._RNvMs1_NtNtNtCs00000000001_10pkcs1_tool6proved12pkcs1_params8spellingINtB5_8SpellingRINtNtB7_3pss11PssParamsOfNtNtNtB9_9spki_core17object_identifier16ObjectIdentifierNtNtB1O_3any6AnyRefEE3lenBb_,"ax",@progbits
	.p2align	4, 0x90
	.type	_RNvMs1_NtNtNtCs00000000001_10pkcs1_tool6proved12pkcs1_params8spellingINtB5_8SpellingRINtNtB7_3pss11PssParamsOfNtNtNtB9_9spki_core17object_identifier16ObjectIdentifierNtNtB1O_3any6AnyRefEE3lenBb_,@function
_RNvMs1_NtNtNtCs00000000001_10pkcs1_tool6proved12pkcs1_params8spellingINtB5_8SpellingRINtNtB7_3pss11PssParamsOfNtNtNtB9_9spki_core17object_identifier16ObjectIdentifierNtNtB1O_3any6AnyRefEE3lenBb_:
	.cfi_startproc
	endbr64
	pushq	%rbp
	.cfi_def_cfa_offset 16
	pushq	%r15
	.cfi_def_cfa_offset 24
	pushq	%r14
	.cfi_def_cfa_offset 32
	pushq	%rbx
	.cfi_def_cfa_offset 40
	pushq	%rax
	.cfi_def_cfa_offset 48
	.cfi_offset %rbx, -40
	.cfi_offset %r14, -32
	.cfi_offset %r15, -24
	.cfi_offset %rbp, -16
	movq	%rdi, %rbx
	movq	$0, (%rsp)
	movq	(%rsi), %r14
	movzbl	8(%rsi), %eax
	movzbl	9(%rsi), %ebp
	movzbl	176(%r14), %r15d
	testb	$1, %al
	jne	.LBB33_19
	testb	$2, %al
	jne	.LBB33_10
	testb	$4, %al
	jne	.LBB33_6
	orb	%bpl, %al
	testb	$8, %al
	jne	.LBB33_4
	testb	$4, %bpl
	jne	.LBB33_8
.LBB33_9:
	testb	$2, %bpl
	jne	.LBB33_17
.LBB33_18:
	testb	$1, %bpl
	jne	.LBB33_36
.LBB33_37:
	movq	(%rsp), %rax
	movl	$2, %ecx
	cmpq	$128, %rax
	jae	.LBB33_38
	jmp	.LBB33_41
.LBB33_19:
	testb	$2, %al
	jne	.LBB33_28
	testb	$4, %al
	jne	.LBB33_24
	andb	$8, %al
	movl	%ebp, %ecx
	andb	$4, %cl
	orb	%al, %cl
	je	.LBB33_23
	movq	%rsp, %rdi
	callq	_RINvNtNtNtCs00000000001_10pkcs1_tool6proved12pkcs1_params6fields13prepend_fieldNtNtB4_13trailer_field12TrailerFieldNtNtNtB6_8der_core7counter7CounterEB8_
.LBB33_23:
	testb	$2, %bpl
	jne	.LBB33_26
	testb	$1, %bpl
	jne	.LBB33_35
	jmp	.LBB33_36
.LBB33_10:
	testb	$4, %al
	jne	.LBB33_14
	andb	$8, %al
	movl	%ebp, %ecx
	andb	$4, %cl
	orb	%al, %cl
	je	.LBB33_13
	movq	%rsp, %rdi
	callq	_RINvNtNtNtCs00000000001_10pkcs1_tool6proved12pkcs1_params6fields13prepend_fieldNtNtB4_13trailer_field12TrailerFieldNtNtNtB6_8der_core7counter7CounterEB8_
.LBB33_13:
	testb	$2, %bpl
	jne	.LBB33_16
	jmp	.LBB33_17
.LBB33_28:
	testb	$4, %al
	jne	.LBB33_32
	andb	$8, %al
	movl	%ebp, %ecx
	andb	$2, %cl
	orb	%al, %cl
	je	.LBB33_31
	movq	%rsp, %rdi
	callq	_RINvNtNtNtCs00000000001_10pkcs1_tool6proved12pkcs1_params6fields13prepend_fieldNtNtB4_13trailer_field12TrailerFieldNtNtNtB6_8der_core7counter7CounterEB8_
.LBB33_31:
	testb	$1, %bpl
	jne	.LBB33_34
	jmp	.LBB33_35
.LBB33_6:
	andb	$8, %al
	movl	%ebp, %ecx
	andb	$4, %cl
	orb	%al, %cl
	je	.LBB33_8
	movq	%rsp, %rdi
	callq	_RINvNtNtNtCs00000000001_10pkcs1_tool6proved12pkcs1_params6fields13prepend_fieldNtNtB4_13trailer_field12TrailerFieldNtNtNtB6_8der_core7counter7CounterEB8_
	jmp	.LBB33_8
.LBB33_24:
	andb	$8, %al
	movl	%ebp, %ecx
	andb	$2, %cl
	orb	%al, %cl
	je	.LBB33_26
	movq	%rsp, %rdi
	callq	_RINvNtNtNtCs00000000001_10pkcs1_tool6proved12pkcs1_params6fields13prepend_fieldNtNtB4_13trailer_field12TrailerFieldNtNtNtB6_8der_core7counter7CounterEB8_
.LBB33_26:
	movzbl	%r15b, %edi
	movq	%rsp, %rsi
	callq	_RINvNtNtNtCs00000000001_10pkcs1_tool6proved12pkcs1_params6fields13prepend_fieldhNtNtNtB6_8der_core7counter7CounterEB8_
	testb	$1, %bpl
	jne	.LBB33_35
	jmp	.LBB33_36
.LBB33_14:
	andb	$8, %al
	movl	%ebp, %ecx
	andb	$2, %cl
	orb	%al, %cl
	je	.LBB33_16
	movq	%rsp, %rdi
	callq	_RINvNtNtNtCs00000000001_10pkcs1_tool6proved12pkcs1_params6fields13prepend_fieldNtNtB4_13trailer_field12TrailerFieldNtNtNtB6_8der_core7counter7CounterEB8_
.LBB33_16:
	movzbl	%r15b, %edi
	movq	%rsp, %rsi
	callq	_RINvNtNtNtCs00000000001_10pkcs1_tool6proved12pkcs1_params6fields13prepend_fieldhNtNtNtB6_8der_core7counter7CounterEB8_
	jmp	.LBB33_17
.LBB33_32:
	andb	$8, %al
	andb	$1, %bpl
	orb	%al, %bpl
	je	.LBB33_34
	movq	%rsp, %rdi
	callq	_RINvNtNtNtCs00000000001_10pkcs1_tool6proved12pkcs1_params6fields13prepend_fieldNtNtB4_13trailer_field12TrailerFieldNtNtNtB6_8der_core7counter7CounterEB8_
.LBB33_34:
	movzbl	%r15b, %edi
	movq	%rsp, %rsi
	callq	_RINvNtNtNtCs00000000001_10pkcs1_tool6proved12pkcs1_params6fields13prepend_fieldhNtNtNtB6_8der_core7counter7CounterEB8_
.LBB33_35:
	movq	%rsp, %rsi
	movq	%r14, %rdi
	callq	_RINvNtNtNtCs00000000001_10pkcs1_tool6proved12pkcs1_params6fields13prepend_fieldINtNtNtB6_9spki_core20algorithm_identifier21AlgorithmIdentifierOfNtNtB1k_17object_identifier16ObjectIdentifierIB1g_B2i_NtNtB1k_3any6AnyRefEENtNtNtB6_8der_core7counter7CounterEB8_
	jmp	.LBB33_36
.LBB33_4:
	movq	%rsp, %rdi
	callq	_RINvNtNtNtCs00000000001_10pkcs1_tool6proved12pkcs1_params6fields13prepend_fieldNtNtB4_13trailer_field12TrailerFieldNtNtNtB6_8der_core7counter7CounterEB8_
	testb	$4, %bpl
	je	.LBB33_9
.LBB33_8:
	movzbl	%r15b, %edi
	movq	%rsp, %rsi
	callq	_RINvNtNtNtCs00000000001_10pkcs1_tool6proved12pkcs1_params6fields13prepend_fieldhNtNtNtB6_8der_core7counter7CounterEB8_
	testb	$2, %bpl
	je	.LBB33_18
.LBB33_17:
	movq	%rsp, %rsi
	movq	%r14, %rdi
	callq	_RINvNtNtNtCs00000000001_10pkcs1_tool6proved12pkcs1_params6fields13prepend_fieldINtNtNtB6_9spki_core20algorithm_identifier21AlgorithmIdentifierOfNtNtB1k_17object_identifier16ObjectIdentifierIB1g_B2i_NtNtB1k_3any6AnyRefEENtNtNtB6_8der_core7counter7CounterEB8_
	testb	$1, %bpl
	je	.LBB33_37
.LBB33_36:
	addq	$112, %r14
	movq	%rsp, %rsi
	movq	%r14, %rdi
	callq	_RINvNtNtNtCs00000000001_10pkcs1_tool6proved12pkcs1_params6fields13prepend_fieldINtNtNtB6_9spki_core20algorithm_identifier21AlgorithmIdentifierOfNtNtB1k_17object_identifier16ObjectIdentifierNtNtB1k_3any6AnyRefENtNtNtB6_8der_core7counter7CounterEB8_
	movq	(%rsp), %rax
	movl	$2, %ecx
	cmpq	$128, %rax
	jb	.LBB33_41
.LBB33_38:
	movl	$3, %ecx
	cmpq	$256, %rax
	jb	.LBB33_41
	movl	$4, %ecx
	cmpq	$65536, %rax
	jb	.LBB33_41
	movl	$5, %ecx
	cmpq	$16777215, %rax
	ja	.LBB33_42
.LBB33_41:
	addq	%rcx, %rax
.LBB33_43:
	movq	%rax, 8(%rbx)
	xorl	%eax, %eax
.LBB33_45:
	movb	%al, (%rbx)
	addq	$8, %rsp
	.cfi_def_cfa_offset 40
	popq	%rbx
	.cfi_def_cfa_offset 32
	popq	%r14
	.cfi_def_cfa_offset 24
	popq	%r15
	.cfi_def_cfa_offset 16
	popq	%rbp
	.cfi_def_cfa_offset 8
	retq
.LBB33_42:
	.cfi_def_cfa_offset 48
	addq	$6, %rax
	movq	$-1, %rcx
	cmovbq	%rcx, %rax
	movq	%rax, %rcx
	shrq	$32, %rcx
	je	.LBB33_43
	movb	$0, 3(%rbx)
	movw	$7, 1(%rbx)
	movb	$1, %al
	jmp	.LBB33_45
.Lfunc_end33:
	.size	_RNvMs1_NtNtNtCs00000000001_10pkcs1_tool6proved12pkcs1_params8spellingINtB5_8SpellingRINtNtB7_3pss11PssParamsOfNtNtNtB9_9spki_core17object_identifier16ObjectIdentifierNtNtB1O_3any6AnyRefEE3lenBb_, .Lfunc_end33-_RNvMs1_NtNtNtCs00000000001_10pkcs1_tool6proved12pkcs1_params8spellingINtB5_8SpellingRINtNtB7_3pss11PssParamsOfNtNtNtB9_9spki_core17object_identifier16ObjectIdentifierNtNtB1O_3any6AnyRefEE3lenBb_
	.cfi_endproc

	.section	.text._RNvMs1_NtNtNtCs00000000001_10pkcs1_tool6proved12pkcs1_params8spellingINtB5_8SpellingRINtNtB7_4oaep12OaepParamsOfNtNtNtB9_9spki_core17object_identifier16ObjectIdentifierNtNtB1Q_3any6AnyRefEE3lenBb_,"ax",@progbits
	.p2align	4, 0x90
	.type	_RNvMs1_NtNtNtCs00000000001_10pkcs1_tool6proved12pkcs1_params8spellingINtB5_8SpellingRINtNtB7_4oaep12OaepParamsOfNtNtNtB9_9spki_core17object_identifier16ObjectIdentifierNtNtB1Q_3any6AnyRefEE3lenBb_,@function
_RNvMs1_NtNtNtCs00000000001_10pkcs1_tool6proved12pkcs1_params8spellingINtB5_8SpellingRINtNtB7_4oaep12OaepParamsOfNtNtNtB9_9spki_core17object_identifier16ObjectIdentifierNtNtB1Q_3any6AnyRefEE3lenBb_:
	.cfi_startproc
	endbr64
	pushq	%rbp
	.cfi_def_cfa_offset 16
	pushq	%r14
	.cfi_def_cfa_offset 24
	pushq	%rbx
	.cfi_def_cfa_offset 32
	subq	$16, %rsp
	.cfi_def_cfa_offset 48
	.cfi_offset %rbx, -32
	.cfi_offset %r14, -24
	.cfi_offset %rbp, -16
	movq	%rdi, %rbx
	movq	$0, 8(%rsp)
	movq	(%rsi), %r14
	movzbl	8(%rsi), %eax
	movzbl	9(%rsi), %ebp
	leaq	176(%r14), %rdi
	testb	$1, %al
	jne	.LBB34_9
	testb	$2, %al
	jne	.LBB34_5
	orb	%bpl, %al
	testb	$4, %al
	jne	.LBB34_3
	testb	$2, %bpl
	jne	.LBB34_7
.LBB34_8:
	testb	$1, %bpl
	jne	.LBB34_16
.LBB34_17:
	movq	8(%rsp), %rax
	movl	$2, %ecx
	cmpq	$128, %rax
	jae	.LBB34_18
	jmp	.LBB34_21
.LBB34_9:
	testb	$2, %al
	jne	.LBB34_13
	andb	$4, %al
	movl	%ebp, %ecx
	andb	$2, %cl
	orb	%al, %cl
	je	.LBB34_12
	leaq	8(%rsp), %rsi
	callq	_RINvNtNtNtCs00000000001_10pkcs1_tool6proved12pkcs1_params6fields13prepend_fieldINtNtNtB6_9spki_core20algorithm_identifier21AlgorithmIdentifierOfNtNtB1k_17object_identifier16ObjectIdentifierNtNtB1k_3any6AnyRefENtNtNtB6_8der_core7counter7CounterEB8_
.LBB34_12:
	testb	$1, %bpl
	jne	.LBB34_15
	jmp	.LBB34_16
.LBB34_5:
	andb	$4, %al
	movl	%ebp, %ecx
	andb	$2, %cl
	orb	%al, %cl
	je	.LBB34_7
	leaq	8(%rsp), %rsi
	callq	_RINvNtNtNtCs00000000001_10pkcs1_tool6proved12pkcs1_params6fields13prepend_fieldINtNtNtB6_9spki_core20algorithm_identifier21AlgorithmIdentifierOfNtNtB1k_17object_identifier16ObjectIdentifierNtNtB1k_3any6AnyRefENtNtNtB6_8der_core7counter7CounterEB8_
	jmp	.LBB34_7
.LBB34_13:
	andb	$4, %al
	andb	$1, %bpl
	orb	%al, %bpl
	je	.LBB34_15
	leaq	8(%rsp), %rsi
	callq	_RINvNtNtNtCs00000000001_10pkcs1_tool6proved12pkcs1_params6fields13prepend_fieldINtNtNtB6_9spki_core20algorithm_identifier21AlgorithmIdentifierOfNtNtB1k_17object_identifier16ObjectIdentifierNtNtB1k_3any6AnyRefENtNtNtB6_8der_core7counter7CounterEB8_
.LBB34_15:
	leaq	8(%rsp), %rsi
	movq	%r14, %rdi
	callq	_RINvNtNtNtCs00000000001_10pkcs1_tool6proved12pkcs1_params6fields13prepend_fieldINtNtNtB6_9spki_core20algorithm_identifier21AlgorithmIdentifierOfNtNtB1k_17object_identifier16ObjectIdentifierIB1g_B2i_NtNtB1k_3any6AnyRefEENtNtNtB6_8der_core7counter7CounterEB8_
	jmp	.LBB34_16
.LBB34_3:
	leaq	8(%rsp), %rsi
	callq	_RINvNtNtNtCs00000000001_10pkcs1_tool6proved12pkcs1_params6fields13prepend_fieldINtNtNtB6_9spki_core20algorithm_identifier21AlgorithmIdentifierOfNtNtB1k_17object_identifier16ObjectIdentifierNtNtB1k_3any6AnyRefENtNtNtB6_8der_core7counter7CounterEB8_
	testb	$2, %bpl
	je	.LBB34_8
.LBB34_7:
	leaq	8(%rsp), %rsi
	movq	%r14, %rdi
	callq	_RINvNtNtNtCs00000000001_10pkcs1_tool6proved12pkcs1_params6fields13prepend_fieldINtNtNtB6_9spki_core20algorithm_identifier21AlgorithmIdentifierOfNtNtB1k_17object_identifier16ObjectIdentifierIB1g_B2i_NtNtB1k_3any6AnyRefEENtNtNtB6_8der_core7counter7CounterEB8_
	testb	$1, %bpl
	je	.LBB34_17
.LBB34_16:
	addq	$112, %r14
	leaq	8(%rsp), %rsi
	movq	%r14, %rdi
	callq	_RINvNtNtNtCs00000000001_10pkcs1_tool6proved12pkcs1_params6fields13prepend_fieldINtNtNtB6_9spki_core20algorithm_identifier21AlgorithmIdentifierOfNtNtB1k_17object_identifier16ObjectIdentifierNtNtB1k_3any6AnyRefENtNtNtB6_8der_core7counter7CounterEB8_
	movq	8(%rsp), %rax
	movl	$2, %ecx
	cmpq	$128, %rax
	jb	.LBB34_21
.LBB34_18:
	movl	$3, %ecx
	cmpq	$256, %rax
	jb	.LBB34_21
	movl	$4, %ecx
	cmpq	$65536, %rax
	jb	.LBB34_21
	movl	$5, %ecx
	cmpq	$16777215, %rax
	ja	.LBB34_22
.LBB34_21:
	addq	%rcx, %rax
.LBB34_23:
	movq	%rax, 8(%rbx)
	xorl	%eax, %eax
.LBB34_25:
	movb	%al, (%rbx)
	addq	$16, %rsp
	.cfi_def_cfa_offset 32
	popq	%rbx
	.cfi_def_cfa_offset 24
	popq	%r14
	.cfi_def_cfa_offset 16
	popq	%rbp
	.cfi_def_cfa_offset 8
	retq
.LBB34_22:
	.cfi_def_cfa_offset 48
	addq	$6, %rax
	movq	$-1, %rcx
	cmovbq	%rcx, %rax
	movq	%rax, %rcx
	shrq	$32, %rcx
	je	.LBB34_23
	movb	$0, 3(%rbx)
	movw	$7, 1(%rbx)
	movb	$1, %al
	jmp	.LBB34_25
.Lfunc_end34:
	.size	_RNvMs1_NtNtNtCs00000000001_10pkcs1_tool6proved12pkcs1_params8spellingINtB5_8SpellingRINtNtB7_4oaep12OaepParamsOfNtNtNtB9_9spki_core17object_identifier16ObjectIdentifierNtNtB1Q_3any6AnyRefEE3lenBb_, .Lfunc_end34-_RNvMs1_NtNtNtCs00000000001_10pkcs1_tool6proved12pkcs1_params8spellingINtB5_8SpellingRINtNtB7_4oaep12OaepParamsOfNtNtNtB9_9spki_core17object_identifier16ObjectIdentifierNtNtB1Q_3any6AnyRefEE3lenBb_
	.cfi_endproc

	.section	.text._RNvXs4_NtNtNtCs00000000001_10pkcs1_tool6proved5pkcs110public_keyINtB5_12RsaPublicKeyNtNtNtNtB9_8der_core7integer4uint7UintRefEINtNtCs00000000000_4core7convert7TryFromRShE8try_from,"ax",@progbits
	.p2align	4, 0x90
	.type	_RNvXs4_NtNtNtCs00000000001_10pkcs1_tool6proved5pkcs110public_keyINtB5_12RsaPublicKeyNtNtNtNtB9_8der_core7integer4uint7UintRefEINtNtCs00000000000_4core7convert7TryFromRShE8try_from,@function
_RNvXs4_NtNtNtCs00000000001_10pkcs1_tool6proved5pkcs110public_keyINtB5_12RsaPublicKeyNtNtNtNtB9_8der_core7integer4uint7UintRefEINtNtCs00000000000_4core7convert7TryFromRShE8try_from:
	.cfi_startproc
	endbr64
	pushq	%r15
	.cfi_def_cfa_offset 16
	pushq	%r14
	.cfi_def_cfa_offset 24
	pushq	%r12
	.cfi_def_cfa_offset 32
	pushq	%rbx
	.cfi_def_cfa_offset 40
	subq	$40, %rsp
	.cfi_def_cfa_offset 80
	.cfi_offset %rbx, -40
	.cfi_offset %r12, -32
	.cfi_offset %r14, -24
	.cfi_offset %r15, -16
	movq	%rdx, %rax
	shrq	$32, %rax
	je	.LBB35_2
	movb	$7, %r9b
	jmp	.LBB35_74
.LBB35_2:
	movq	%rsi, %rcx
	cmpq	$2, %rdx
	jb	.LBB35_29
	cmpb	$48, (%rcx)
	jne	.LBB35_29
	leaq	2(%rcx), %rsi
	leaq	-2(%rdx), %rbx
	movsbq	1(%rcx), %rax
	testq	%rax, %rax
	js	.LBB35_14
	subq	%rax, %rbx
	jb	.LBB35_29
	cmpq	$2, %rax
	jb	.LBB35_40
.LBB35_7:
	cmpb	$2, (%rsi)
	jne	.LBB35_40
	leaq	2(%rsi), %r15
	leaq	-2(%rax), %rdx
	movsbq	1(%rsi), %r14
	testq	%r14, %r14
	js	.LBB35_19
	subq	%r14, %rdx
	jb	.LBB35_40
	leaq	(%r15,%r14), %rax
	testq	%r14, %r14
	je	.LBB35_42
.LBB35_11:
	cmpb	$0, (%r15)
	je	.LBB35_37
.LBB35_12:
	jns	.LBB35_44
	jmp	.LBB35_13
.LBB35_14:
	cmpb	$-126, %al
	jne	.LBB35_24
	cmpq	$1, %rbx
	jbe	.LBB35_29
	movzbl	2(%rcx), %esi
	testq	%rsi, %rsi
	je	.LBB35_29
	leaq	-4(%rdx), %rbx
	shll	$8, %esi
	movzbl	3(%rcx), %eax
	orq	%rsi, %rax
	subq	%rax, %rbx
	jb	.LBB35_29
	addq	$4, %rcx
	movq	%rcx, %rsi
	jmp	.LBB35_7
.LBB35_19:
	cmpb	$-126, %r14b
	jne	.LBB35_31
	cmpq	$1, %rdx
	jbe	.LBB35_40
	movzbl	2(%rsi), %ecx
	testq	%rcx, %rcx
	je	.LBB35_40
	leaq	-4(%rax), %rdx
	shll	$8, %ecx
	movzbl	3(%rsi), %r14d
	orq	%rcx, %r14
	subq	%r14, %rdx
	jb	.LBB35_40
	addq	$4, %rsi
	leaq	(%rsi,%r14), %rax
	movq	%rsi, %r15
	cmpb	$0, (%r15)
	jne	.LBB35_12
	jmp	.LBB35_37
.LBB35_24:
	testq	%rbx, %rbx
	je	.LBB35_29
	cmpb	$-127, %al
	jne	.LBB35_29
	movzbl	(%rsi), %eax
	testb	%al, %al
	jns	.LBB35_29
	leaq	-3(%rdx), %rbx
	subq	%rax, %rbx
	jb	.LBB35_29
	addq	$3, %rcx
	movq	%rcx, %rsi
	jmp	.LBB35_7
.LBB35_29:
	movq	%rdi, %r14
	leaq	8(%rsp), %rdi
	movq	%rcx, %rsi
	movl	$48, %ecx
	callq	_RNvNtNtNtCs00000000001_10pkcs1_tool6proved8der_core5split14split_unlikely
	movq	8(%rsp), %rsi
	testq	%rsi, %rsi
	je	.LBB35_55
	movq	16(%rsp), %rax
	movq	32(%rsp), %rbx
	movq	%r14, %rdi
	cmpq	$2, %rax
	jae	.LBB35_7
	jmp	.LBB35_40
.LBB35_31:
	testq	%rdx, %rdx
	je	.LBB35_40
	cmpb	$-127, %r14b
	jne	.LBB35_40
	movzbl	(%r15), %r14d
	testb	%r14b, %r14b
	jns	.LBB35_40
	leaq	-3(%rax), %rdx
	subq	%r14, %rdx
	jb	.LBB35_40
	addq	$3, %rsi
	leaq	(%rsi,%r14), %rax
	movq	%rsi, %r15
	cmpb	$0, (%r15)
	jne	.LBB35_12
.LBB35_37:
	decq	%r14
	je	.LBB35_43
	movl	$516, %r9d
	cmpb	$0, 1(%r15)
	jns	.LBB35_73
	incq	%r15
	jmp	.LBB35_44
.LBB35_40:
	movq	%rdi, %r12
	leaq	8(%rsp), %rdi
	movq	%rax, %rdx
	movl	$2, %ecx
	callq	_RNvNtNtNtCs00000000001_10pkcs1_tool6proved8der_core5split14split_unlikely
	movq	8(%rsp), %r15
	testq	%r15, %r15
	je	.LBB35_70
	movq	16(%rsp), %r14
	movq	24(%rsp), %rax
	movq	32(%rsp), %rdx
	movq	%r12, %rdi
	testq	%r14, %r14
	jne	.LBB35_11
	jmp	.LBB35_42
.LBB35_43:
	movl	$1, %r14d
.LBB35_44:
	cmpq	$2, %rdx
	jb	.LBB35_62
	cmpb	$2, (%rax)
	jne	.LBB35_62
	leaq	2(%rax), %rsi
	leaq	-2(%rdx), %r8
	movsbq	1(%rax), %rcx
	testq	%rcx, %rcx
	js	.LBB35_50
	subq	%rcx, %r8
	jb	.LBB35_62
	testq	%rcx, %rcx
	jne	.LBB35_64
.LBB35_42:
	movl	$515, %r9d
	jmp	.LBB35_73
.LBB35_50:
	cmpb	$-126, %cl
	jne	.LBB35_56
	cmpq	$1, %r8
	jbe	.LBB35_62
	movzbl	2(%rax), %esi
	testq	%rsi, %rsi
	je	.LBB35_62
	leaq	-4(%rdx), %r8
	shll	$8, %esi
	movzbl	3(%rax), %ecx
	orq	%rsi, %rcx
	subq	%rcx, %r8
	jb	.LBB35_62
	addq	$4, %rax
	jmp	.LBB35_61
.LBB35_55:
	movzbl	18(%rsp), %eax
	shll	$16, %eax
	movzwl	16(%rsp), %r9d
	orl	%r9d, %eax
	shrl	$8, %eax
	movq	%r14, %rdi
	jmp	.LBB35_74
.LBB35_56:
	testq	%r8, %r8
	je	.LBB35_62
	cmpb	$-127, %cl
	jne	.LBB35_62
	movzbl	(%rsi), %ecx
	testb	%cl, %cl
	jns	.LBB35_62
	leaq	-3(%rdx), %r8
	subq	%rcx, %r8
	jb	.LBB35_62
	addq	$3, %rax
.LBB35_61:
	movq	%rax, %rsi
	jmp	.LBB35_64
.LBB35_62:
	movq	%rdi, %r12
	leaq	8(%rsp), %rdi
	movq	%rax, %rsi
	movl	$2, %ecx
	callq	_RNvNtNtNtCs00000000001_10pkcs1_tool6proved8der_core5split14split_unlikely
	movq	8(%rsp), %rsi
	testq	%rsi, %rsi
	je	.LBB35_70
	movq	16(%rsp), %rcx
	movq	32(%rsp), %r8
	movq	%r12, %rdi
	testq	%rcx, %rcx
	je	.LBB35_42
.LBB35_64:
	cmpb	$0, (%rsi)
	je	.LBB35_67
	jns	.LBB35_72
.LBB35_13:
	movl	$525, %r9d
	jmp	.LBB35_73
.LBB35_67:
	decq	%rcx
	je	.LBB35_71
	movl	$516, %r9d
	cmpb	$0, 1(%rsi)
	jns	.LBB35_73
	incq	%rsi
	jmp	.LBB35_72
.LBB35_70:
	movzwl	16(%rsp), %eax
	movzbl	18(%rsp), %r9d
	shll	$16, %r9d
	orq	%rax, %r9
	movq	%r12, %rdi
	jmp	.LBB35_73
.LBB35_71:
	movl	$1, %ecx
.LBB35_72:
	movl	$12, %r9d
	testq	%r8, %r8
	je	.LBB35_76
.LBB35_73:
	movl	%r9d, %eax
	shrl	$8, %eax
.LBB35_74:
	movb	%r9b, 8(%rdi)
	movw	%ax, 9(%rdi)
	movq	$0, (%rdi)
.LBB35_75:
	addq	$40, %rsp
	.cfi_def_cfa_offset 40
	popq	%rbx
	.cfi_def_cfa_offset 32
	popq	%r12
	.cfi_def_cfa_offset 24
	popq	%r14
	.cfi_def_cfa_offset 16
	popq	%r15
	.cfi_def_cfa_offset 8
	retq
.LBB35_76:
	.cfi_def_cfa_offset 80
	testq	%rbx, %rbx
	je	.LBB35_78
	movb	$12, %r9b
	jmp	.LBB35_74
.LBB35_78:
	movl	%r14d, %eax
	shrl	$8, %eax
	movq	%r14, %rdx
	shrq	$24, %rdx
	movq	%r15, (%rdi)
	movb	%r14b, 8(%rdi)
	movw	%ax, 9(%rdi)
	shrq	$56, %r14
	movb	%r14b, 15(%rdi)
	movl	%edx, 11(%rdi)
	movq	%rsi, 16(%rdi)
	movq	%rcx, 24(%rdi)
	jmp	.LBB35_75
.Lfunc_end35:
	.size	_RNvXs4_NtNtNtCs00000000001_10pkcs1_tool6proved5pkcs110public_keyINtB5_12RsaPublicKeyNtNtNtNtB9_8der_core7integer4uint7UintRefEINtNtCs00000000000_4core7convert7TryFromRShE8try_from, .Lfunc_end35-_RNvXs4_NtNtNtCs00000000001_10pkcs1_tool6proved5pkcs110public_keyINtB5_12RsaPublicKeyNtNtNtNtB9_8der_core7integer4uint7UintRefEINtNtCs00000000000_4core7convert7TryFromRShE8try_from
	.cfi_endproc

	.section	.text._RNvNtNtNtCs00000000001_10pkcs1_tool6proved5pkcs110viewed_key9read_list,"ax",@progbits
	.p2align	4, 0x90
	.type	_RNvNtNtNtCs00000000001_10pkcs1_tool6proved5pkcs110viewed_key9read_list,@function
_RNvNtNtNtCs00000000001_10pkcs1_tool6proved5pkcs110viewed_key9read_list:
	.cfi_startproc
	endbr64
	pushq	%rbp
	.cfi_def_cfa_offset 16
	pushq	%r15
	.cfi_def_cfa_offset 24
	pushq	%r14
	.cfi_def_cfa_offset 32
	pushq	%r13
	.cfi_def_cfa_offset 40
	pushq	%r12
	.cfi_def_cfa_offset 48
	pushq	%rbx
	.cfi_def_cfa_offset 56
	subq	$88, %rsp
	.cfi_def_cfa_offset 144
	.cfi_offset %rbx, -56
	.cfi_offset %r12, -48
	.cfi_offset %r13, -40
	.cfi_offset %r14, -32
	.cfi_offset %r15, -24
	.cfi_offset %rbp, -16
	testq	%rdx, %rdx
	je	.LBB36_7
	cmpb	$48, (%rsi)
	jne	.LBB36_9
	cmpq	$1, %rdx
	movq	%rdi, (%rsp)
	je	.LBB36_24
	leaq	2(%rsi), %r15
	leaq	-2(%rdx), %r8
	movsbq	1(%rsi), %rbp
	testq	%rbp, %rbp
	js	.LBB36_14
	subq	%rbp, %r8
	jb	.LBB36_24
	testq	%rbp, %rbp
	jne	.LBB36_26
.LBB36_6:
	testb	%cl, %cl
	movl	$48, %ecx
	movl	$2, %eax
	cmovnel	%ecx, %eax
	movb	$13, %cl
	movq	(%rsp), %rdi
	jmp	.LBB36_11
.LBB36_7:
	testb	%cl, %cl
	je	.LBB36_12
	xorb	$1, %cl
	shlb	$2, %cl
	addb	$13, %cl
	jmp	.LBB36_10
.LBB36_9:
	orb	$12, %cl
.LBB36_10:
	movw	$2, %ax
.LBB36_11:
	movb	%cl, 1(%rdi)
	movw	%ax, 2(%rdi)
	jmp	.LBB36_135
.LBB36_12:
	xorl	%ecx, %ecx
.LBB36_13:
	movq	%rcx, 8(%rdi)
	movq	%rax, 16(%rdi)
	movq	%r14, 24(%rdi)
	xorl	%eax, %eax
	jmp	.LBB36_136
.LBB36_14:
	cmpb	$-126, %bpl
	jne	.LBB36_19
	cmpq	$1, %r8
	jbe	.LBB36_24
	movzbl	2(%rsi), %eax
	testq	%rax, %rax
	je	.LBB36_24
	leaq	-4(%rdx), %r8
	shll	$8, %eax
	movzbl	3(%rsi), %ebp
	orq	%rax, %rbp
	subq	%rbp, %r8
	jb	.LBB36_24
	addq	$4, %rsi
	movq	%rsi, %r15
	jmp	.LBB36_26
.LBB36_19:
	testq	%r8, %r8
	je	.LBB36_24
	cmpb	$-127, %bpl
	jne	.LBB36_24
	movzbl	(%r15), %ebp
	testb	%bpl, %bpl
	jns	.LBB36_24
	leaq	-3(%rdx), %r8
	subq	%rbp, %r8
	jb	.LBB36_24
	addq	$3, %rsi
	movq	%rsi, %r15
	jmp	.LBB36_26
.LBB36_24:
	movl	%ecx, %ebx
	movq	%rdi, %r14
	leaq	8(%rsp), %rdi
	movl	$48, %ecx
	callq	_RNvNtNtNtCs00000000001_10pkcs1_tool6proved8der_core5split14split_unlikely
	movq	8(%rsp), %r15
	testq	%r15, %r15
	je	.LBB36_124
	movq	16(%rsp), %rbp
	movq	32(%rsp), %r8
	movl	%ebx, %ecx
	testq	%rbp, %rbp
	je	.LBB36_6
.LBB36_26:
	movq	%r8, 64(%rsp)
	movl	%ecx, 60(%rsp)
	xorl	%r14d, %r14d
	movq	%r15, 72(%rsp)
	movq	%rbp, 80(%rsp)
.LBB36_27:
	cmpq	$1, %rbp
	je	.LBB36_54
	cmpb	$48, (%r15)
	jne	.LBB36_54
	leaq	2(%r15), %rsi
	leaq	-2(%rbp), %r12
	movsbq	1(%r15), %rdx
	testq	%rdx, %rdx
	js	.LBB36_33
	subq	%rdx, %r12
	jb	.LBB36_54
	leaq	(%rsi,%rdx), %r15
	cmpq	$2, %rdx
	jae	.LBB36_32
	jmp	.LBB36_113
	.p2align	4, 0x90
.LBB36_33:
	cmpb	$-126, %dl
	jne	.LBB36_38
	cmpq	$1, %r12
	jbe	.LBB36_54
	movzbl	2(%r15), %eax
	testq	%rax, %rax
	je	.LBB36_54
	leaq	-4(%rbp), %r12
	shll	$8, %eax
	movzbl	3(%r15), %edx
	orq	%rax, %rdx
	subq	%rdx, %r12
	jb	.LBB36_54
	addq	$4, %r15
	movq	%r15, %rsi
	addq	%rdx, %r15
	cmpb	$2, (%rsi)
	je	.LBB36_44
	jmp	.LBB36_113
.LBB36_38:
	testq	%r12, %r12
	je	.LBB36_54
	cmpb	$-127, %dl
	jne	.LBB36_54
	movzbl	(%rsi), %edx
	testb	%dl, %dl
	jns	.LBB36_54
	leaq	-3(%rbp), %r12
	subq	%rdx, %r12
	jb	.LBB36_54
	addq	$3, %r15
	movq	%r15, %rsi
	addq	%rdx, %r15
	cmpb	$2, (%rsi)
	je	.LBB36_44
	jmp	.LBB36_113
	.p2align	4, 0x90
.LBB36_54:
	leaq	8(%rsp), %rdi
	movq	%r15, %rsi
	movq	%rbp, %rdx
	movl	$48, %ecx
	callq	_RNvNtNtNtCs00000000001_10pkcs1_tool6proved8der_core5split14split_unlikely
	movq	8(%rsp), %rsi
	testq	%rsi, %rsi
	je	.LBB36_130
	movq	16(%rsp), %rdx
	movq	24(%rsp), %r15
	movq	32(%rsp), %r12
	cmpq	$2, %rdx
	jb	.LBB36_113
.LBB36_32:
	cmpb	$2, (%rsi)
	jne	.LBB36_113
.LBB36_44:
	leaq	2(%rsi), %rdi
	leaq	-2(%rdx), %rax
	movsbq	1(%rsi), %r13
	testq	%r13, %r13
	js	.LBB36_49
	subq	%r13, %rax
	jb	.LBB36_113
	leaq	(%rdi,%r13), %rcx
	movq	%r12, %rbp
	testq	%r13, %r13
	jne	.LBB36_47
	jmp	.LBB36_115
	.p2align	4, 0x90
.LBB36_49:
	cmpb	$-126, %r13b
	jne	.LBB36_56
	cmpq	$1, %rax
	jbe	.LBB36_113
	movzbl	2(%rsi), %ecx
	testq	%rcx, %rcx
	je	.LBB36_113
	leaq	-4(%rdx), %rax
	shll	$8, %ecx
	movzbl	3(%rsi), %r13d
	orq	%rcx, %r13
	subq	%r13, %rax
	jb	.LBB36_113
	addq	$4, %rsi
	jmp	.LBB36_61
.LBB36_56:
	testq	%rax, %rax
	je	.LBB36_112
	cmpb	$-127, %r13b
	jne	.LBB36_113
	movzbl	(%rdi), %r13d
	testb	%r13b, %r13b
	jns	.LBB36_113
	leaq	-3(%rdx), %rax
	subq	%r13, %rax
	jb	.LBB36_113
	addq	$3, %rsi
.LBB36_61:
	leaq	(%rsi,%r13), %rcx
	movq	%rsi, %rdi
	movq	%r12, %rbp
	cmpb	$0, (%rdi)
	jne	.LBB36_48
.LBB36_62:
	decq	%r13
	je	.LBB36_105
	cmpb	$0, 1(%rdi)
	js	.LBB36_64
	jmp	.LBB36_128
.LBB36_105:
	movl	$1, %r13d
	cmpq	$2, %rax
	jae	.LBB36_65
	jmp	.LBB36_106
.LBB36_112:
	movl	$2, %edx
.LBB36_113:
	leaq	8(%rsp), %rdi
	movl	$2, %ecx
	callq	_RNvNtNtNtCs00000000001_10pkcs1_tool6proved8der_core5split14split_unlikely
	movq	8(%rsp), %rdi
	testq	%rdi, %rdi
	je	.LBB36_132
	movq	16(%rsp), %r13
	movq	24(%rsp), %rcx
	movq	32(%rsp), %rax
	movq	%r12, %rbp
	testq	%r13, %r13
	je	.LBB36_115
	.p2align	4, 0x90
.LBB36_47:
	cmpb	$0, (%rdi)
	je	.LBB36_62
.LBB36_48:
	js	.LBB36_123
.LBB36_64:
	cmpq	$2, %rax
	jb	.LBB36_106
.LBB36_65:
	cmpb	$2, (%rcx)
	jne	.LBB36_106
	leaq	2(%rcx), %rdi
	leaq	-2(%rax), %rdx
	movsbq	1(%rcx), %rbx
	testq	%rbx, %rbx
	js	.LBB36_71
	subq	%rbx, %rdx
	jb	.LBB36_106
	leaq	(%rdi,%rbx), %rsi
	testq	%rbx, %rbx
	jne	.LBB36_69
	jmp	.LBB36_121
	.p2align	4, 0x90
.LBB36_71:
	cmpb	$-126, %bl
	jne	.LBB36_76
	cmpq	$1, %rdx
	jbe	.LBB36_106
	movzbl	2(%rcx), %esi
	testq	%rsi, %rsi
	je	.LBB36_106
	leaq	-4(%rax), %rdx
	shll	$8, %esi
	movzbl	3(%rcx), %ebx
	orq	%rsi, %rbx
	subq	%rbx, %rdx
	jb	.LBB36_106
	addq	$4, %rcx
	leaq	(%rcx,%rbx), %rsi
	movq	%rcx, %rdi
	cmpb	$0, (%rdi)
	jne	.LBB36_70
	.p2align	4, 0x90
.LBB36_82:
	decq	%rbx
	je	.LBB36_108
	cmpb	$0, 1(%rdi)
	js	.LBB36_84
	jmp	.LBB36_129
.LBB36_76:
	testq	%rdx, %rdx
	je	.LBB36_106
	cmpb	$-127, %bl
	jne	.LBB36_106
	movzbl	(%rdi), %ebx
	testb	%bl, %bl
	jns	.LBB36_106
	leaq	-3(%rax), %rdx
	subq	%rbx, %rdx
	jb	.LBB36_106
	addq	$3, %rcx
	leaq	(%rcx,%rbx), %rsi
	movq	%rcx, %rdi
	cmpb	$0, (%rdi)
	jne	.LBB36_70
	jmp	.LBB36_82
.LBB36_106:
	leaq	8(%rsp), %rdi
	movq	%rcx, %rsi
	movq	%rax, %rdx
	movl	$2, %ecx
	callq	_RNvNtNtNtCs00000000001_10pkcs1_tool6proved8der_core5split14split_unlikely
	movq	8(%rsp), %rdi
	testq	%rdi, %rdi
	je	.LBB36_132
	movq	16(%rsp), %rbx
	movq	24(%rsp), %rsi
	movq	32(%rsp), %rdx
	testq	%rbx, %rbx
	je	.LBB36_121
.LBB36_69:
	cmpb	$0, (%rdi)
	je	.LBB36_82
.LBB36_70:
	js	.LBB36_125
.LBB36_84:
	cmpq	$2, %rdx
	jb	.LBB36_109
.LBB36_85:
	cmpb	$2, (%rsi)
	jne	.LBB36_109
	leaq	2(%rsi), %rdi
	leaq	-2(%rdx), %rcx
	movsbq	1(%rsi), %rax
	testq	%rax, %rax
	js	.LBB36_91
	subq	%rax, %rcx
	jb	.LBB36_109
	testq	%rax, %rax
	jne	.LBB36_89
	jmp	.LBB36_122
	.p2align	4, 0x90
.LBB36_91:
	cmpb	$-126, %al
	jne	.LBB36_96
	cmpq	$1, %rcx
	jbe	.LBB36_109
	movzbl	2(%rsi), %edi
	testq	%rdi, %rdi
	je	.LBB36_109
	leaq	-4(%rdx), %rcx
	shll	$8, %edi
	movzbl	3(%rsi), %eax
	orq	%rdi, %rax
	subq	%rax, %rcx
	jb	.LBB36_109
	addq	$4, %rsi
	movq	%rsi, %rdi
	cmpb	$0, (%rdi)
	jne	.LBB36_90
	.p2align	4, 0x90
.LBB36_101:
	decq	%rax
	je	.LBB36_111
	cmpb	$0, 1(%rdi)
	js	.LBB36_103
	jmp	.LBB36_131
.LBB36_96:
	testq	%rcx, %rcx
	je	.LBB36_109
	cmpb	$-127, %al
	jne	.LBB36_109
	movzbl	(%rdi), %eax
	testb	%al, %al
	jns	.LBB36_109
	leaq	-3(%rdx), %rcx
	subq	%rax, %rcx
	jb	.LBB36_109
	addq	$3, %rsi
	movq	%rsi, %rdi
	cmpb	$0, (%rdi)
	jne	.LBB36_90
	jmp	.LBB36_101
.LBB36_108:
	movl	$1, %ebx
	cmpq	$2, %rdx
	jae	.LBB36_85
.LBB36_109:
	leaq	8(%rsp), %rdi
	movl	$2, %ecx
	callq	_RNvNtNtNtCs00000000001_10pkcs1_tool6proved8der_core5split14split_unlikely
	movq	8(%rsp), %rdi
	testq	%rdi, %rdi
	je	.LBB36_132
	movq	16(%rsp), %rax
	movq	32(%rsp), %rcx
	testq	%rax, %rax
	je	.LBB36_122
.LBB36_89:
	cmpb	$0, (%rdi)
	je	.LBB36_101
.LBB36_90:
	js	.LBB36_126
.LBB36_103:
	testq	%rcx, %rcx
	jne	.LBB36_116
.LBB36_104:
	incq	%r14
	movq	%rax, 40(%rsp)
	movq	%rbx, 48(%rsp)
	movq	%r13, %rbx
	testq	%rbp, %rbp
	jne	.LBB36_27
	jmp	.LBB36_117
.LBB36_111:
	movl	$1, %eax
	testq	%rcx, %rcx
	je	.LBB36_104
.LBB36_116:
	movl	$12, %ebx
	jmp	.LBB36_133
.LBB36_117:
	movb	$13, %cl
	movw	$2, %ax
	cmpb	$0, 60(%rsp)
	movq	(%rsp), %rdi
	je	.LBB36_11
	testq	%r14, %r14
	je	.LBB36_137
	cmpq	$0, 64(%rsp)
	movq	80(%rsp), %rax
	movq	72(%rsp), %rcx
	je	.LBB36_13
	movb	$12, %cl
	jmp	.LBB36_11
.LBB36_115:
	andq	$-65536, %rbx
	orq	$515, %rbx
	jmp	.LBB36_133
.LBB36_121:
	movq	48(%rsp), %rbx
	andq	$-65536, %rbx
	orq	$515, %rbx
	jmp	.LBB36_133
.LBB36_122:
	movq	40(%rsp), %rbx
	andq	$-65536, %rbx
	orq	$515, %rbx
	jmp	.LBB36_133
.LBB36_123:
	andq	$-65536, %rbx
	orq	$525, %rbx
	jmp	.LBB36_133
.LBB36_124:
	movzbl	18(%rsp), %eax
	shll	$16, %eax
	movzwl	16(%rsp), %ebx
	orl	%eax, %ebx
	movq	%r14, %rdi
	jmp	.LBB36_134
.LBB36_132:
	movzwl	16(%rsp), %eax
	movzbl	18(%rsp), %ebx
	shll	$16, %ebx
	orq	%rax, %rbx
	jmp	.LBB36_133
.LBB36_125:
	movq	48(%rsp), %rbx
	andq	$-65536, %rbx
	orq	$525, %rbx
	jmp	.LBB36_133
.LBB36_126:
	movq	40(%rsp), %rbx
	andq	$-65536, %rbx
	orq	$525, %rbx
	jmp	.LBB36_133
.LBB36_128:
	andq	$-65536, %rbx
	orq	$516, %rbx
	jmp	.LBB36_133
.LBB36_129:
	movq	48(%rsp), %rbx
	andq	$-65536, %rbx
	orq	$516, %rbx
	jmp	.LBB36_133
.LBB36_130:
	movzbl	18(%rsp), %eax
	shll	$16, %eax
	movzwl	16(%rsp), %ebx
	orl	%eax, %ebx
	jmp	.LBB36_133
.LBB36_131:
	movq	40(%rsp), %rbx
	andq	$-65536, %rbx
	orq	$516, %rbx
.LBB36_133:
	movq	(%rsp), %rdi
.LBB36_134:
	movw	%bx, 1(%rdi)
	shrl	$16, %ebx
	movb	%bl, 3(%rdi)
.LBB36_135:
	movb	$1, %al
.LBB36_136:
	movb	%al, (%rdi)
	addq	$88, %rsp
	.cfi_def_cfa_offset 56
	popq	%rbx
	.cfi_def_cfa_offset 48
	popq	%r12
	.cfi_def_cfa_offset 40
	popq	%r13
	.cfi_def_cfa_offset 32
	popq	%r14
	.cfi_def_cfa_offset 24
	popq	%r15
	.cfi_def_cfa_offset 16
	popq	%rbp
	.cfi_def_cfa_offset 8
	retq
.LBB36_137:
	.cfi_def_cfa_offset 144
	movw	$48, %ax
	jmp	.LBB36_11
.Lfunc_end36:
	.size	_RNvNtNtNtCs00000000001_10pkcs1_tool6proved5pkcs110viewed_key9read_list, .Lfunc_end36-_RNvNtNtNtCs00000000001_10pkcs1_tool6proved5pkcs110viewed_key9read_list
	.cfi_endproc

	.section	.text._RNvXse_NtNtNtCs00000000001_10pkcs1_tool6proved9spki_core20algorithm_identifierINtB5_21AlgorithmIdentifierOfNtNtB7_17object_identifier16ObjectIdentifierIB1f_B1H_NtNtB7_3any6AnyRefEENtNtCs00000000000_4core3cmp9PartialEq2eqBb_,"ax",@progbits
	.p2align	4, 0x90
	.type	_RNvXse_NtNtNtCs00000000001_10pkcs1_tool6proved9spki_core20algorithm_identifierINtB5_21AlgorithmIdentifierOfNtNtB7_17object_identifier16ObjectIdentifierIB1f_B1H_NtNtB7_3any6AnyRefEENtNtCs00000000000_4core3cmp9PartialEq2eqBb_,@function
_RNvXse_NtNtNtCs00000000001_10pkcs1_tool6proved9spki_core20algorithm_identifierINtB5_21AlgorithmIdentifierOfNtNtB7_17object_identifier16ObjectIdentifierIB1f_B1H_NtNtB7_3any6AnyRefEENtNtCs00000000000_4core3cmp9PartialEq2eqBb_:
	.cfi_startproc
	endbr64
	pushq	%r14
	.cfi_def_cfa_offset 16
	pushq	%rbx
	.cfi_def_cfa_offset 24
	pushq	%rax
	.cfi_def_cfa_offset 32
	.cfi_offset %rbx, -24
	.cfi_offset %r14, -16
	movzbl	111(%rdi), %edx
	cmpq	$40, %rdx
	jae	.LBB37_17
	movzbl	111(%rsi), %eax
	cmpq	$40, %rax
	jae	.LBB37_18
	cmpb	%al, %dl
	jne	.LBB37_4
	movq	%rdi, %r14
	addq	$72, %rdi
	movq	%rsi, %rbx
	addq	$72, %rsi
	callq	memcmp
	testl	%eax, %eax
	je	.LBB37_6
.LBB37_4:
	xorl	%eax, %eax
.LBB37_5:
	andb	$1, %al
	addq	$8, %rsp
	.cfi_def_cfa_offset 24
	popq	%rbx
	.cfi_def_cfa_offset 16
	popq	%r14
	.cfi_def_cfa_offset 8
	retq
.LBB37_6:
	.cfi_def_cfa_offset 32
	movzbl	(%rbx), %eax
	testb	$1, (%r14)
	je	.LBB37_7
	testb	$1, %al
	je	.LBB37_4
	movq	%r14, %rsi
	movzbl	47(%r14), %edx
	cmpq	$40, %rdx
	jae	.LBB37_17
	movq	%rbx, %rcx
	movzbl	47(%rbx), %edi
	cmpq	$40, %rdi
	jae	.LBB37_19
	cmpb	%dil, %dl
	jne	.LBB37_4
	leaq	8(%rsi), %rdi
	leaq	8(%rcx), %rsi
	callq	memcmp
	testl	%eax, %eax
	jne	.LBB37_4
	movq	48(%r14), %rdi
	testq	%rdi, %rdi
	sete	%al
	movq	48(%rbx), %rsi
	testq	%rsi, %rsi
	sete	%cl
	orb	%al, %cl
	movq	%rdi, %rax
	orq	%rsi, %rax
	sete	%al
	testb	%cl, %cl
	jne	.LBB37_5
	movq	64(%r14), %rax
	cmpq	64(%rbx), %rax
	jne	.LBB37_4
	movq	56(%r14), %rdx
	cmpq	56(%rbx), %rdx
	jne	.LBB37_4
	callq	memcmp
	testl	%eax, %eax
	sete	%al
	jmp	.LBB37_5
.LBB37_7:
	xorb	$1, %al
	jmp	.LBB37_5
.LBB37_17:
	movl	$39, %esi
	movq	%rdx, %rdi
	ud2
.LBB37_18:
	movl	$39, %esi
	movq	%rax, %rdi
	ud2
.LBB37_19:
	movl	$39, %esi
	ud2
.Lfunc_end37:
	.size	_RNvXse_NtNtNtCs00000000001_10pkcs1_tool6proved9spki_core20algorithm_identifierINtB5_21AlgorithmIdentifierOfNtNtB7_17object_identifier16ObjectIdentifierIB1f_B1H_NtNtB7_3any6AnyRefEENtNtCs00000000000_4core3cmp9PartialEq2eqBb_, .Lfunc_end37-_RNvXse_NtNtNtCs00000000001_10pkcs1_tool6proved9spki_core20algorithm_identifierINtB5_21AlgorithmIdentifierOfNtNtB7_17object_identifier16ObjectIdentifierIB1f_B1H_NtNtB7_3any6AnyRefEENtNtCs00000000000_4core3cmp9PartialEq2eqBb_
	.cfi_endproc

	.section	.rodata.cst16,"aM",@progbits,16
	.p2align	4, 0x0
.LCPI38_0:
	.zero	16,128
.LCPI38_1:
	.byte	128
	.byte	128
	.byte	128
	.byte	128
	.byte	128
	.byte	128
	.byte	128
	.byte	128
	.zero	1
	.zero	1
	.zero	1
	.zero	1
	.zero	1
	.zero	1
	.zero	1
	.zero	1
	.section	.text._RNvNtNtNtCs00000000001_10pkcs1_tool4tool13pkcs1_program6answer11answer_word,"ax",@progbits
	.p2align	4, 0x90
	.type	_RNvNtNtNtCs00000000001_10pkcs1_tool4tool13pkcs1_program6answer11answer_word,@function
_RNvNtNtNtCs00000000001_10pkcs1_tool4tool13pkcs1_program6answer11answer_word:
	.cfi_startproc
	endbr64
	pushq	%rbp
	.cfi_def_cfa_offset 16
	pushq	%r15
	.cfi_def_cfa_offset 24
	pushq	%r14
	.cfi_def_cfa_offset 32
	pushq	%r13
	.cfi_def_cfa_offset 40
	pushq	%r12
	.cfi_def_cfa_offset 48
	pushq	%rbx
	.cfi_def_cfa_offset 56
	subq	$712, %rsp
	.cfi_def_cfa_offset 768
	.cfi_offset %rbx, -56
	.cfi_offset %r12, -48
	.cfi_offset %r13, -40
	.cfi_offset %r14, -32
	.cfi_offset %r15, -24
	.cfi_offset %rbp, -16
	movq	%r8, %r13
	movzbl	%dil, %eax
	leaq	.LJTI38_0(%rip), %rdi
	movslq	(%rdi,%rax,4), %rax
	addq	%rdi, %rax
	notrack	jmpq	*%rax
.LBB38_1:
	leaq	176(%rsp), %rdi
	movq	%rsi, 48(%rsp)
	movq	%rdx, %rbp
	callq	_RNvXs4_NtNtNtCs00000000001_10pkcs1_tool6proved5pkcs110public_keyINtB5_12RsaPublicKeyNtNtNtNtB9_8der_core7integer4uint7UintRefEINtNtCs00000000000_4core7convert7TryFromRShE8try_from
	movq	176(%rsp), %rdi
	testq	%rdi, %rdi
	je	.LBB38_32
	movq	184(%rsp), %rsi
	movq	192(%rsp), %r8
	movq	200(%rsp), %r9
	movq	(%r13), %rax
	movq	16(%r13), %r15
	movq	%rax, %rcx
	subq	%r15, %rcx
	cmpq	$3, %rcx
	jae	.LBB38_99
	movb	$1, %bl
	cmpq	$-4, %r15
	ja	.LBB38_847
	leaq	3(%r15), %r14
	leaq	(%rax,%rax), %rcx
	cmpq	%r14, %rcx
	cmovbeq	%r14, %rcx
	cmpq	$9, %rcx
	movl	$8, %r12d
	cmovaeq	%rcx, %r12
	testq	%r12, %r12
	js	.LBB38_847
	testq	%rax, %rax
	movq	%rsi, 56(%rsp)
	movq	%rdi, 40(%rsp)
	movq	%r8, 24(%rsp)
	movq	%r9, 32(%rsp)
	jne	.LBB38_742
	xorl	%eax, %eax
	jmp	.LBB38_743
.LBB38_7:
	movq	%rdx, %rax
	shrq	$32, %rax
	jne	.LBB38_56
	cmpq	$2, %rdx
	jb	.LBB38_300
	cmpb	$48, (%rsi)
	jne	.LBB38_300
	leaq	2(%rsi), %rcx
	leaq	-2(%rdx), %rbp
	movsbq	1(%rsi), %rax
	testq	%rax, %rax
	js	.LBB38_249
	subq	%rax, %rbp
	jb	.LBB38_300
	cmpq	$2, %rax
	jb	.LBB38_777
.LBB38_13:
	cmpb	$2, (%rcx)
	jne	.LBB38_777
	leaq	2(%rcx), %rdi
	leaq	-2(%rax), %r8
	movsbq	1(%rcx), %r10
	testq	%r10, %r10
	js	.LBB38_266
	subq	%r10, %r8
	jb	.LBB38_777
	leaq	(%rdi,%r10), %r9
	cmpq	$1, %r10
	jne	.LBB38_56
.LBB38_17:
	cmpb	$0, (%rdi)
	jne	.LBB38_56
	cmpq	$2, %r8
	jb	.LBB38_730
	cmpb	$48, (%r9)
	jne	.LBB38_730
	leaq	2(%r9), %rcx
	leaq	-2(%r8), %r10
	movsbq	1(%r9), %rax
	testq	%rax, %rax
	js	.LBB38_531
	subq	%rax, %r10
	jb	.LBB38_730
	leaq	(%rcx,%rax), %rdi
	movq	%rdi, 56(%rsp)
	jmp	.LBB38_732
.LBB38_23:
	movq	%rcx, %r14
	leaq	432(%rsp), %rdi
	movq	%rdx, %r15
	callq	_RNvXNtNtNtCs00000000001_10pkcs1_tool4tool13pkcs1_program14parameter_textINtNtNtNtB8_6proved12pkcs1_params3pss11PssParamsOfNtNtNtB1f_9spki_core17object_identifier16ObjectIdentifierNtNtB20_3any6AnyRefENtB2_10Parameters4read
	movq	432(%rsp), %rbp
	cmpq	$2, %rbp
	je	.LBB38_24
	leaq	176(%rsp), %rdi
	leaq	432(%rsp), %rsi
	movl	$184, %edx
	callq	memcpy
	movq	%r14, %rdi
	movq	%r15, %rsi
	callq	_RNvMs_NtNtCs00000000001_10pkcs1_tool10rattle_std3vecINtNtNtB6_7library3vec3VechE6resizeB8_
	testb	%al, %al
	jne	.LBB38_846
	movq	%r13, 48(%rsp)
	movq	8(%r14), %r15
	movq	16(%r14), %r13
	movq	$0, (%rsp)
	movzbl	352(%rsp), %ebx
	movq	328(%rsp), %rax
	movq	%rax, 24(%rsp)
	testq	%rax, %rax
	je	.LBB38_246
	movzbl	327(%rsp), %edi
	cmpq	$40, %rdi
	jae	.LBB38_818
	cmpl	$5, %edi
	jne	.LBB38_246
	movq	288(%rsp), %rax
	cmpl	$33754667, %eax
	jne	.LBB38_246
	cmpb	$26, 292(%rsp)
	jne	.LBB38_246
	movq	%rbx, %r14
	movq	%r15, %rbx
	movq	336(%rsp), %r12
	movzbl	344(%rsp), %r15d
	leaq	432(%rsp), %rdi
	callq	_RNvXs_NtNtNtCs00000000001_10pkcs1_tool6proved12pkcs1_params7holdersINtNtNtB8_9spki_core20algorithm_identifier21AlgorithmIdentifierOfNtNtB18_17object_identifier16ObjectIdentifierIB14_B26_NtNtB18_3any6AnyRefEENtB4_10MaskHolder10is_defaultBa_
	movq	%r14, %rcx
	cmpl	$20, %r14d
	sete	%r14b
	cmpb	$5, %r15b
	jne	.LBB38_365
	testq	%r12, %r12
	jne	.LBB38_365
	testb	%al, %al
	movq	%rbx, %r15
	je	.LBB38_463
	movb	$1, %r14b
	movq	%rcx, %rbx
	cmpl	$20, %ebx
	je	.LBB38_370
	movq	%rsp, %rsi
	movl	%ebx, %edi
	callq	_RINvNtNtNtCs00000000001_10pkcs1_tool6proved12pkcs1_params6fields13prepend_fieldhNtNtNtB6_8der_core7counter7CounterEB8_
	xorl	%r14d, %r14d
	movq	(%rsp), %rax
	movl	$2, %r12d
	cmpq	$128, %rax
	jae	.LBB38_371
	jmp	.LBB38_466
.LBB38_29:
	movq	%rcx, %r14
	leaq	432(%rsp), %rdi
	movq	%rdx, %r15
	callq	_RNvXs_NtNtNtCs00000000001_10pkcs1_tool4tool13pkcs1_program14parameter_textINtNtNtNtBa_6proved12pkcs1_params4oaep12OaepParamsOfNtNtNtB1h_9spki_core17object_identifier16ObjectIdentifierNtNtB24_3any6AnyRefENtB4_10Parameters4read
	movq	432(%rsp), %r12
	cmpq	$2, %r12
	je	.LBB38_24
	leaq	176(%rsp), %rdi
	leaq	432(%rsp), %rsi
	movl	$240, %edx
	callq	memcpy
	movq	%r14, %rdi
	movq	%r15, %rsi
	callq	_RNvMs_NtNtCs00000000001_10pkcs1_tool10rattle_std3vecINtNtNtB6_7library3vec3VechE6resizeB8_
	testb	%al, %al
	jne	.LBB38_846
	movq	%r13, 48(%rsp)
	movq	8(%r14), %rax
	movq	%rax, 24(%rsp)
	movq	16(%r14), %r13
	movq	$0, (%rsp)
	movq	328(%rsp), %rbx
	testq	%rbx, %rbx
	je	.LBB38_274
	movzbl	327(%rsp), %edi
	cmpq	$40, %rdi
	jae	.LBB38_818
	xorl	%eax, %eax
	cmpl	$5, %edi
	jne	.LBB38_275
	movq	288(%rsp), %rcx
	cmpl	$33754667, %ecx
	jne	.LBB38_275
	cmpb	$26, 292(%rsp)
	jne	.LBB38_275
	movzbl	344(%rsp), %eax
	xorq	$5, %rax
	orq	336(%rsp), %rax
	sete	%al
	jmp	.LBB38_275
.LBB38_31:
	leaq	176(%rsp), %rdi
	movq	%rsi, %rbx
	movq	%rdx, %r14
	callq	_RNvXNtNtNtCs00000000001_10pkcs1_tool4tool13pkcs1_program14parameter_textINtNtNtNtB8_6proved12pkcs1_params3pss11PssParamsOfNtNtNtB1f_9spki_core17object_identifier16ObjectIdentifierNtNtB20_3any6AnyRefENtB2_10Parameters4read
	cmpl	$2, 176(%rsp)
	je	.LBB38_32
	movq	%r14, %rax
	shrq	$32, %rax
	je	.LBB38_105
.LBB38_80:
	xorl	%eax, %eax
	jmp	.LBB38_340
.LBB38_38:
	movq	%rdx, %rax
	shrq	$32, %rax
	jne	.LBB38_56
	cmpq	$2, %rdx
	jb	.LBB38_312
	cmpb	$48, (%rsi)
	jne	.LBB38_312
	leaq	2(%rsi), %rcx
	leaq	-2(%rdx), %r12
	movsbq	1(%rsi), %rax
	testq	%rax, %rax
	js	.LBB38_254
	subq	%rax, %r12
	jb	.LBB38_312
	cmpq	$2, %rax
	jb	.LBB38_780
.LBB38_44:
	cmpb	$2, (%rcx)
	jne	.LBB38_780
	leaq	2(%rcx), %rdi
	leaq	-2(%rax), %r8
	movsbq	1(%rcx), %r9
	testq	%r9, %r9
	js	.LBB38_270
	subq	%r9, %r8
	jb	.LBB38_780
	leaq	(%rdi,%r9), %rcx
	cmpq	$1, %r9
	jne	.LBB38_56
.LBB38_48:
	movzbl	(%rdi), %eax
	testb	%al, %al
	js	.LBB38_56
	movzbl	%al, %edi
	movl	$2, %ebp
	cmpb	$2, %al
	cmovbl	%edi, %ebp
	jae	.LBB38_56
	cmpq	$2, %r8
	jb	.LBB38_763
	cmpb	$2, (%rcx)
	jne	.LBB38_763
	leaq	2(%rcx), %r10
	leaq	-2(%r8), %rax
	movsbq	1(%rcx), %r14
	testq	%r14, %r14
	js	.LBB38_577
	subq	%r14, %rax
	jb	.LBB38_763
	leaq	(%r10,%r14), %r8
	jmp	.LBB38_765
.LBB38_55:
	leaq	176(%rsp), %rdi
	callq	_RNvXNtNtNtCs00000000001_10pkcs1_tool4tool13pkcs1_program14parameter_textINtNtNtNtB8_6proved12pkcs1_params3pss11PssParamsOfNtNtNtB1f_9spki_core17object_identifier16ObjectIdentifierNtNtB20_3any6AnyRefENtB2_10Parameters4read
	cmpl	$2, 176(%rsp)
	je	.LBB38_56
	leaq	432(%rsp), %rbp
	leaq	176(%rsp), %rsi
	movl	$184, %edx
	movq	%rbp, %rdi
	callq	memcpy
	movzbl	608(%rsp), %r14d
	movq	584(%rsp), %rax
	testq	%rax, %rax
	je	.LBB38_117
	movzbl	583(%rsp), %edi
	cmpq	$40, %rdi
	jae	.LBB38_818
	xorl	%ecx, %ecx
	cmpl	$5, %edi
	jne	.LBB38_118
	movq	544(%rsp), %rdx
	cmpl	$33754667, %edx
	jne	.LBB38_118
	cmpb	$26, 548(%rsp)
	jne	.LBB38_118
	movzbl	600(%rsp), %ecx
	xorq	$5, %rcx
	orq	592(%rsp), %rcx
	sete	%cl
	jmp	.LBB38_118
.LBB38_57:
	leaq	176(%rsp), %rdi
	callq	_RNvXs_NtNtNtCs00000000001_10pkcs1_tool4tool13pkcs1_program14parameter_textINtNtNtNtBa_6proved12pkcs1_params4oaep12OaepParamsOfNtNtNtB1h_9spki_core17object_identifier16ObjectIdentifierNtNtB24_3any6AnyRefENtB4_10Parameters4read
	cmpl	$2, 176(%rsp)
	jne	.LBB38_87
.LBB38_56:
	movq	(%r13), %rax
	movq	16(%r13), %r15
	movq	%rax, %rcx
	subq	%r15, %rcx
	cmpq	$7, %rcx
	jae	.LBB38_96
	movb	$1, %bl
	cmpq	$-8, %r15
	ja	.LBB38_847
	leaq	7(%r15), %r12
	leaq	(%rax,%rax), %rcx
	cmpq	%r12, %rcx
	cmovbeq	%r12, %rcx
	cmpq	$9, %rcx
	movl	$8, %r14d
	cmovaeq	%rcx, %r14
	testq	%r14, %r14
	js	.LBB38_847
	testq	%rax, %rax
	jne	.LBB38_978
	xorl	%eax, %eax
	jmp	.LBB38_979
.LBB38_59:
	leaq	176(%rsp), %rdi
	movq	%rsi, %rbx
	movq	%rdx, %r14
	callq	_RNvXs_NtNtNtCs00000000001_10pkcs1_tool4tool13pkcs1_program14parameter_textINtNtNtNtBa_6proved12pkcs1_params4oaep12OaepParamsOfNtNtNtB1h_9spki_core17object_identifier16ObjectIdentifierNtNtB24_3any6AnyRefENtB4_10Parameters4read
	cmpl	$2, 176(%rsp)
	jne	.LBB38_93
.LBB38_32:
	movq	(%r13), %rax
	movq	16(%r13), %r15
	movq	%rax, %rcx
	subq	%r15, %rcx
	cmpq	$7, %rcx
	jae	.LBB38_96
	movb	$1, %bl
	cmpq	$-8, %r15
	ja	.LBB38_847
	leaq	7(%r15), %r12
	leaq	(%rax,%rax), %rcx
	cmpq	%r12, %rcx
	cmovbeq	%r12, %rcx
	cmpq	$9, %rcx
	movl	$8, %r14d
	cmovaeq	%rcx, %r14
	testq	%r14, %r14
	js	.LBB38_847
	testq	%rax, %rax
	jne	.LBB38_36
	xorl	%eax, %eax
	jmp	.LBB38_37
.LBB38_87:
	leaq	432(%rsp), %r14
	leaq	176(%rsp), %rsi
	movl	$240, %edx
	movq	%r14, %rdi
	callq	memcpy
	movq	584(%rsp), %rdx
	testq	%rdx, %rdx
	je	.LBB38_136
	movzbl	583(%rsp), %edi
	cmpq	$40, %rdi
	jae	.LBB38_818
	xorl	%r9d, %r9d
	cmpl	$5, %edi
	jne	.LBB38_137
	movq	544(%rsp), %rax
	cmpl	$33754667, %eax
	jne	.LBB38_137
	cmpb	$26, 548(%rsp)
	jne	.LBB38_137
	movzbl	600(%rsp), %eax
	xorq	$5, %rax
	orq	592(%rsp), %rax
	sete	%r9b
	jmp	.LBB38_137
.LBB38_93:
	movq	%r14, %rax
	shrq	$32, %rax
	je	.LBB38_111
.LBB38_94:
	xorl	%eax, %eax
	jmp	.LBB38_355
.LBB38_99:
	movq	%r13, %rdx
	movq	8(%r13), %rcx
	leaq	3(%r15), %r14
.LBB38_100:
	movb	$98, 2(%rcx,%r15)
	movw	$30064, (%rcx,%r15)
	movq	%r14, 16(%rdx)
	movq	%rax, %rdx
	subq	%r14, %rdx
	cmpq	$3, %rdx
	jae	.LBB38_259
	movb	$1, %bl
	cmpq	$-4, %r14
	ja	.LBB38_847
	leaq	3(%r14), %r15
	leaq	(%rax,%rax), %rdx
	cmpq	%r15, %rdx
	cmovbeq	%r15, %rdx
	cmpq	$9, %rdx
	movl	$8, %r12d
	cmovaeq	%rdx, %r12
	testq	%r12, %r12
	js	.LBB38_847
	testq	%rax, %rax
	movq	%rsi, 56(%rsp)
	movq	%r8, 24(%rsp)
	movq	%r9, 32(%rsp)
	movq	%rdi, %rbx
	jne	.LBB38_773
	xorl	%eax, %eax
	jmp	.LBB38_774
.LBB38_105:
	movq	%r14, %rdx
	cmpq	$2, %r14
	movq	%rbx, %rsi
	jb	.LBB38_109
	cmpb	$48, (%rsi)
	jne	.LBB38_109
	leaq	2(%rsi), %rcx
	leaq	-2(%rdx), %rbx
	movsbq	1(%rsi), %rax
	testq	%rax, %rax
	js	.LBB38_302
	subq	%rax, %rbx
	jae	.LBB38_333
	jmp	.LBB38_109
.LBB38_111:
	movq	%r14, %rdx
	cmpq	$2, %r14
	movq	%rbx, %rsi
	jb	.LBB38_115
	cmpb	$48, (%rsi)
	jne	.LBB38_115
	leaq	2(%rsi), %rcx
	leaq	-2(%rdx), %rbx
	movsbq	1(%rsi), %rax
	testq	%rax, %rax
	js	.LBB38_314
	subq	%rax, %rbx
	jae	.LBB38_347
	jmp	.LBB38_115
.LBB38_117:
	xorl	%ecx, %ecx
.LBB38_118:
	movq	432(%rsp), %rdx
	cmpq	$1, %rdx
	jne	.LBB38_129
	movzbl	543(%rsp), %edi
	cmpq	$40, %rdi
	jae	.LBB38_818
	xorl	%esi, %esi
	cmpl	$9, %edi
	jne	.LBB38_130
	movabsq	$72354425775621674, %rdi
	cmpq	%rdi, 504(%rsp)
	jne	.LBB38_130
	cmpb	$8, 512(%rsp)
	jne	.LBB38_130
	cmpq	$0, 480(%rsp)
	je	.LBB38_129
	movzbl	479(%rsp), %edi
	cmpq	$40, %rdi
	jae	.LBB38_818
	xorl	%esi, %esi
	cmpl	$5, %edi
	jne	.LBB38_130
	movq	440(%rsp), %rdi
	cmpl	$33754667, %edi
	jne	.LBB38_130
	cmpb	$26, 444(%rsp)
	jne	.LBB38_130
	movzbl	496(%rsp), %esi
	xorq	$5, %rsi
	orq	488(%rsp), %rsi
	sete	%sil
	jmp	.LBB38_130
.LBB38_129:
	xorl	%esi, %esi
.LBB38_130:
	cmpb	$20, %r14b
	sete	%dil
	addb	%sil, %cl
	addb	%dil, %cl
	incb	%cl
	movb	$1, %bl
	shlb	%cl, %bl
	testq	%rax, %rax
	je	.LBB38_155
	movzbl	583(%rsp), %edi
	cmpq	$40, %rdi
	jae	.LBB38_818
	xorl	%r15d, %r15d
	cmpl	$5, %edi
	jne	.LBB38_156
	movq	544(%rsp), %rax
	cmpl	$33754667, %eax
	jne	.LBB38_156
	cmpb	$26, 548(%rsp)
	jne	.LBB38_156
	movzbl	600(%rsp), %eax
	xorq	$5, %rax
	orq	592(%rsp), %rax
	sete	%r15b
	jmp	.LBB38_156
.LBB38_136:
	xorl	%r9d, %r9d
.LBB38_137:
	movabsq	$72354425775621674, %rax
	movq	432(%rsp), %r8
	cmpq	$1, %r8
	jne	.LBB38_148
	movzbl	543(%rsp), %edi
	cmpq	$40, %rdi
	jae	.LBB38_818
	xorl	%ecx, %ecx
	cmpl	$9, %edi
	jne	.LBB38_149
	cmpq	%rax, 504(%rsp)
	jne	.LBB38_149
	cmpb	$8, 512(%rsp)
	jne	.LBB38_149
	cmpq	$0, 480(%rsp)
	je	.LBB38_375
	movzbl	479(%rsp), %edi
	cmpq	$40, %rdi
	jae	.LBB38_818
	xorl	%ecx, %ecx
	cmpl	$5, %edi
	jne	.LBB38_149
	movq	440(%rsp), %rsi
	cmpl	$33754667, %esi
	jne	.LBB38_149
	cmpb	$26, 444(%rsp)
	jne	.LBB38_149
	movzbl	496(%rsp), %ecx
	xorq	$5, %rcx
	orq	488(%rsp), %rcx
	sete	%cl
	movq	648(%rsp), %rsi
	testq	%rsi, %rsi
	jne	.LBB38_150
	jmp	.LBB38_376
.LBB38_148:
	xorl	%ecx, %ecx
.LBB38_149:
	movq	648(%rsp), %rsi
	testq	%rsi, %rsi
	je	.LBB38_376
.LBB38_150:
	movzbl	647(%rsp), %edi
	cmpq	$40, %rdi
	jae	.LBB38_818
	cmpl	$9, %edi
	jne	.LBB38_376
	xorl	%edi, %edi
	cmpq	%rax, 608(%rsp)
	jne	.LBB38_377
	cmpb	$9, 616(%rsp)
	jne	.LBB38_377
	movzbl	664(%rsp), %edi
	xorq	$4, %rdi
	orq	656(%rsp), %rdi
	sete	%dil
	jmp	.LBB38_377
.LBB38_155:
	xorl	%r15d, %r15d
.LBB38_156:
	testb	%dl, %dl
	je	.LBB38_167
	movzbl	543(%rsp), %edi
	cmpq	$40, %rdi
	jae	.LBB38_818
	xorl	%r12d, %r12d
	cmpl	$9, %edi
	jne	.LBB38_168
	movabsq	$72354425775621674, %rax
	cmpq	%rax, 504(%rsp)
	jne	.LBB38_168
	cmpb	$8, 512(%rsp)
	jne	.LBB38_168
	cmpq	$0, 480(%rsp)
	je	.LBB38_167
	movzbl	479(%rsp), %edi
	cmpq	$40, %rdi
	jae	.LBB38_818
	xorl	%r12d, %r12d
	cmpl	$5, %edi
	jne	.LBB38_168
	movq	440(%rsp), %rax
	cmpl	$33754667, %eax
	jne	.LBB38_168
	cmpb	$26, 444(%rsp)
	jne	.LBB38_168
	movzbl	496(%rsp), %eax
	xorq	$5, %rax
	orq	488(%rsp), %rax
	sete	%r12b
	jmp	.LBB38_168
.LBB38_167:
	xorl	%r12d, %r12d
.LBB38_168:
	movl	%r15d, %eax
	xorb	$1, %al
	cmpb	$20, %r14b
	setne	%dl
	movl	%r12d, %ecx
	xorb	$1, %cl
	addb	%cl, %cl
	shlb	$2, %dl
	orb	%cl, %dl
	orb	%al, %dl
	leal	-1(%rbx), %eax
	movq	%rbp, 696(%rsp)
	movb	%dl, 32(%rsp)
	movb	%dl, 704(%rsp)
	movb	%al, 705(%rsp)
	leaq	176(%rsp), %rdi
	leaq	696(%rsp), %rsi
	callq	_RNvMs1_NtNtNtCs00000000001_10pkcs1_tool6proved12pkcs1_params8spellingINtB5_8SpellingRINtNtB7_3pss11PssParamsOfNtNtNtB9_9spki_core17object_identifier16ObjectIdentifierNtNtB1O_3any6AnyRefEE3lenBb_
	cmpb	$0, 176(%rsp)
	je	.LBB38_170
	movzbl	177(%rsp), %ebp
	jmp	.LBB38_514
.LBB38_170:
	movl	%r12d, 168(%rsp)
	movl	%r15d, 80(%rsp)
	movq	%r13, 48(%rsp)
	movq	$0, 128(%rsp)
	movq	$8, 136(%rsp)
	movq	$0, 144(%rsp)
	movzbl	%bl, %eax
	movq	%rax, 120(%rsp)
	movl	$8, %edx
	movq	$0, 88(%rsp)
	leaq	176(%rsp), %rax
	leaq	680(%rsp), %rsi
	movb	%r14b, 96(%rsp)
	movzbl	%r14b, %ecx
	movl	%ecx, 72(%rsp)
	movq	%rax, %r14
	xorl	%ebx, %ebx
	xorl	%r13d, %r13d
	jmp	.LBB38_172
.LBB38_171:
	movq	56(%rsp), %rcx
	movq	%rcx, %rax
	shrq	$24, %rax
	movq	%r15, (%rdx,%rbx)
	movw	%cx, 8(%rdx,%rbx)
	shrl	$16, %ecx
	movb	%cl, 10(%rdx,%rbx)
	movl	%eax, 11(%rdx,%rbx)
	shrq	$32, %rax
	movb	%al, 15(%rdx,%rbx)
	movq	24(%rsp), %rax
	movq	%rax, 16(%rdx,%rbx)
	movq	%r12, 144(%rsp)
	addq	$24, %rbx
	addq	$2, 88(%rsp)
	movq	%r12, %r13
	cmpb	%r12b, 120(%rsp)
	leaq	176(%rsp), %r14
	leaq	680(%rsp), %rsi
	je	.LBB38_582
.LBB38_172:
	movq	%rdx, 40(%rsp)
	movq	%rbp, 680(%rsp)
	movzbl	32(%rsp), %eax
	movb	%al, 688(%rsp)
	movb	%r13b, 689(%rsp)
	movq	%r14, %rdi
	callq	_RNvMs1_NtNtNtCs00000000001_10pkcs1_tool6proved12pkcs1_params8spellingINtB5_8SpellingRINtNtB7_3pss11PssParamsOfNtNtNtB9_9spki_core17object_identifier16ObjectIdentifierNtNtB1O_3any6AnyRefEE3lenBb_
	cmpb	$0, 176(%rsp)
	jne	.LBB38_505
	movq	184(%rsp), %rcx
	testq	%rcx, %rcx
	movl	80(%rsp), %r12d
	movq	%rcx, 24(%rsp)
	je	.LBB38_179
	movq	%rbp, %r14
	cmpq	$9, %rcx
	movl	$8, %r15d
	cmovaeq	%rcx, %r15
	movb	$16, %bpl
	testq	%r15, %r15
	js	.LBB38_506
	movq	$0, 184(%rsp)
	movl	$1, %esi
	movq	%rsp, %rdi
	movq	%r15, %rdx
	leaq	176(%rsp), %rcx
	callq	_RINvNtCs00000000002_5alloc7raw_vec11finish_growNtNtB4_5alloc6GlobalECs00000000001_10pkcs1_tool
	cmpl	$1, (%rsp)
	je	.LBB38_506
	movq	8(%rsp), %rdx
	movq	%rdx, %rax
	movq	24(%rsp), %rcx
	cmpq	$1, %rcx
	je	.LBB38_178
	movq	%rdx, %rbp
	leaq	-1(%rcx), %rdx
	movq	%rbp, %rdi
	xorl	%esi, %esi
	callq	memset
	movq	%rbp, %rdx
	movq	24(%rsp), %rcx
	leaq	(%rcx,%rbp), %rax
	decq	%rax
.LBB38_178:
	movb	$0, (%rax)
	movq	%r14, %rbp
	movzbl	96(%rsp), %eax
	leaq	176(%rsp), %r14
	jmp	.LBB38_180
.LBB38_179:
	movl	$1, %edx
	xorl	%r15d, %r15d
	movzbl	96(%rsp), %eax
.LBB38_180:
	movq	%rdx, 176(%rsp)
	movq	%rcx, 184(%rsp)
	movq	%rcx, 192(%rsp)
	testb	%r12b, %r12b
	movq	%rdx, 56(%rsp)
	je	.LBB38_187
	cmpb	$0, 168(%rsp)
	je	.LBB38_192
	cmpb	$20, %al
	jne	.LBB38_200
	testb	$8, %r13b
	jne	.LBB38_210
	testb	$4, %r13b
	jne	.LBB38_211
	jmp	.LBB38_185
.LBB38_187:
	cmpb	$0, 168(%rsp)
	je	.LBB38_196
	cmpb	$20, %al
	jne	.LBB38_202
	testb	$4, %r13b
	jne	.LBB38_213
	testb	$2, %r13b
	jne	.LBB38_214
	jmp	.LBB38_191
.LBB38_192:
	cmpb	$20, %al
	jne	.LBB38_204
	testb	$4, %r13b
	je	.LBB38_195
	movq	%r14, %rdi
	callq	_RINvNtNtNtCs00000000001_10pkcs1_tool6proved12pkcs1_params6fields13prepend_fieldNtNtB4_13trailer_field12TrailerFieldNtNtNtB6_8der_core11back_writer10BackWriterEB8_
.LBB38_195:
	testb	$2, %r13b
	jne	.LBB38_206
	jmp	.LBB38_212
.LBB38_196:
	cmpb	$20, %al
	jne	.LBB38_207
	testb	$2, %r13b
	je	.LBB38_199
	movq	%r14, %rdi
	callq	_RINvNtNtNtCs00000000001_10pkcs1_tool6proved12pkcs1_params6fields13prepend_fieldNtNtB4_13trailer_field12TrailerFieldNtNtNtB6_8der_core11back_writer10BackWriterEB8_
.LBB38_199:
	testb	$1, %r13b
	jne	.LBB38_209
	jmp	.LBB38_215
.LBB38_200:
	testb	$4, %r13b
	je	.LBB38_211
	movq	%r14, %rdi
	callq	_RINvNtNtNtCs00000000001_10pkcs1_tool6proved12pkcs1_params6fields13prepend_fieldNtNtB4_13trailer_field12TrailerFieldNtNtNtB6_8der_core11back_writer10BackWriterEB8_
	jmp	.LBB38_211
.LBB38_202:
	testb	$2, %r13b
	je	.LBB38_214
	movq	%r14, %rdi
	callq	_RINvNtNtNtCs00000000001_10pkcs1_tool6proved12pkcs1_params6fields13prepend_fieldNtNtB4_13trailer_field12TrailerFieldNtNtNtB6_8der_core11back_writer10BackWriterEB8_
	jmp	.LBB38_214
.LBB38_204:
	testb	$2, %r13b
	je	.LBB38_206
	movq	%r14, %rdi
	callq	_RINvNtNtNtCs00000000001_10pkcs1_tool6proved12pkcs1_params6fields13prepend_fieldNtNtB4_13trailer_field12TrailerFieldNtNtNtB6_8der_core11back_writer10BackWriterEB8_
.LBB38_206:
	movl	72(%rsp), %edi
	movq	%r14, %rsi
	callq	_RINvNtNtNtCs00000000001_10pkcs1_tool6proved12pkcs1_params6fields13prepend_fieldhNtNtNtB6_8der_core11back_writer10BackWriterEB8_
	jmp	.LBB38_212
.LBB38_207:
	testb	$1, %r13b
	je	.LBB38_209
	movq	%r14, %rdi
	callq	_RINvNtNtNtCs00000000001_10pkcs1_tool6proved12pkcs1_params6fields13prepend_fieldNtNtB4_13trailer_field12TrailerFieldNtNtNtB6_8der_core11back_writer10BackWriterEB8_
.LBB38_209:
	movl	72(%rsp), %edi
	movq	%r14, %rsi
	callq	_RINvNtNtNtCs00000000001_10pkcs1_tool6proved12pkcs1_params6fields13prepend_fieldhNtNtNtB6_8der_core11back_writer10BackWriterEB8_
	jmp	.LBB38_215
.LBB38_210:
	movq	%r14, %rdi
	callq	_RINvNtNtNtCs00000000001_10pkcs1_tool6proved12pkcs1_params6fields13prepend_fieldNtNtB4_13trailer_field12TrailerFieldNtNtNtB6_8der_core11back_writer10BackWriterEB8_
	testb	$4, %r13b
	jne	.LBB38_211
.LBB38_185:
	testb	$2, %r13b
	jne	.LBB38_212
.LBB38_186:
	testb	$1, %r13b
	jne	.LBB38_216
	jmp	.LBB38_217
.LBB38_211:
	movl	72(%rsp), %edi
	movq	%r14, %rsi
	callq	_RINvNtNtNtCs00000000001_10pkcs1_tool6proved12pkcs1_params6fields13prepend_fieldhNtNtNtB6_8der_core11back_writer10BackWriterEB8_
	testb	$2, %r13b
	je	.LBB38_186
.LBB38_212:
	movq	%rbp, %rdi
	movq	%r14, %rsi
	callq	_RINvNtNtNtCs00000000001_10pkcs1_tool6proved12pkcs1_params6fields13prepend_fieldINtNtNtB6_9spki_core20algorithm_identifier21AlgorithmIdentifierOfNtNtB1k_17object_identifier16ObjectIdentifierIB1g_B2i_NtNtB1k_3any6AnyRefEENtNtNtB6_8der_core11back_writer10BackWriterEB8_
	testb	$1, %r13b
	jne	.LBB38_216
	jmp	.LBB38_217
.LBB38_213:
	movq	%r14, %rdi
	callq	_RINvNtNtNtCs00000000001_10pkcs1_tool6proved12pkcs1_params6fields13prepend_fieldNtNtB4_13trailer_field12TrailerFieldNtNtNtB6_8der_core11back_writer10BackWriterEB8_
	testb	$2, %r13b
	jne	.LBB38_214
.LBB38_191:
	testb	$1, %r13b
	je	.LBB38_216
.LBB38_215:
	movq	%rbp, %rdi
	movq	%r14, %rsi
	callq	_RINvNtNtNtCs00000000001_10pkcs1_tool6proved12pkcs1_params6fields13prepend_fieldINtNtNtB6_9spki_core20algorithm_identifier21AlgorithmIdentifierOfNtNtB1k_17object_identifier16ObjectIdentifierIB1g_B2i_NtNtB1k_3any6AnyRefEENtNtNtB6_8der_core11back_writer10BackWriterEB8_
.LBB38_216:
	xorl	%edi, %edi
	leaq	544(%rsp), %rsi
	movq	%r14, %rdx
	callq	_RINvNtNtNtCs00000000001_10pkcs1_tool6proved12pkcs1_params6fields13prepend_fieldINtNtNtB6_9spki_core20algorithm_identifier21AlgorithmIdentifierOfNtNtB1k_17object_identifier16ObjectIdentifierNtNtB1k_3any6AnyRefENtNtNtB6_8der_core11back_writer10BackWriterEB8_
.LBB38_217:
	movq	184(%rsp), %rdx
	movq	192(%rsp), %rax
	movq	%rdx, %rcx
	subq	%rax, %rcx
	cmpl	$128, %ecx
	jae	.LBB38_221
	cmpq	$2, %rax
	jb	.LBB38_236
	cmpq	%rax, %rdx
	jb	.LBB38_953
	movq	176(%rsp), %rdx
	shll	$8, %ecx
	orl	$48, %ecx
	movw	%cx, -2(%rdx,%rax)
	jmp	.LBB38_236
.LBB38_221:
	cmpl	$256, %ecx
	jae	.LBB38_225
	cmpq	$3, %rax
	jb	.LBB38_236
	cmpq	%rax, %rdx
	jb	.LBB38_953
	movq	176(%rsp), %rdx
	movw	$-32464, -3(%rdx,%rax)
	movb	%cl, -1(%rdx,%rax)
	jmp	.LBB38_236
.LBB38_225:
	cmpl	$65536, %ecx
	jae	.LBB38_229
	cmpq	$4, %rax
	jb	.LBB38_236
	cmpq	%rax, %rdx
	jb	.LBB38_953
	movq	176(%rsp), %rdx
	orl	$813826048, %ecx
	bswapl	%ecx
	movl	%ecx, -4(%rdx,%rax)
	jmp	.LBB38_236
.LBB38_214:
	movl	72(%rsp), %edi
	movq	%r14, %rsi
	callq	_RINvNtNtNtCs00000000001_10pkcs1_tool6proved12pkcs1_params6fields13prepend_fieldhNtNtNtB6_8der_core11back_writer10BackWriterEB8_
	testb	$1, %r13b
	je	.LBB38_216
	jmp	.LBB38_215
.LBB38_229:
	cmpl	$16777216, %ecx
	jae	.LBB38_233
	cmpq	$5, %rax
	jb	.LBB38_236
	cmpq	%rax, %rdx
	jb	.LBB38_953
	movl	%ecx, %edx
	shrl	$16, %edx
	movl	%ecx, %esi
	shrl	$8, %esi
	movq	176(%rsp), %rdi
	movw	$-31952, -5(%rdi,%rax)
	movb	%dl, -3(%rdi,%rax)
	movb	%sil, -2(%rdi,%rax)
	movb	%cl, -1(%rdi,%rax)
	jmp	.LBB38_236
.LBB38_233:
	cmpq	$6, %rax
	jb	.LBB38_236
	cmpq	%rax, %rdx
	jb	.LBB38_953
	movl	%ecx, %edx
	shrl	$24, %edx
	movl	%ecx, %esi
	shrl	$16, %esi
	movl	%ecx, %edi
	shrl	$8, %edi
	movq	176(%rsp), %r8
	movw	$-31696, -6(%r8,%rax)
	movb	%dl, -4(%r8,%rax)
	movb	%sil, -3(%r8,%rax)
	movb	%dil, -2(%r8,%rax)
	movb	%cl, -1(%r8,%rax)
.LBB38_236:
	leaq	1(%r13), %r12
	movq	128(%rsp), %r14
	cmpq	%r14, %r13
	jne	.LBB38_240
	movq	88(%rsp), %rax
	cmpq	%r12, %rax
	movq	%r12, %r14
	cmovaq	%rax, %r14
	cmpq	$5, %r14
	movl	$4, %eax
	cmovbq	%rax, %r14
	movq	%r14, %rax
	movl	$24, %ecx
	mulq	%rcx
	seto	%cl
	movabsq	$9223372036854775800, %rdx
	cmpq	%rdx, %rax
	seta	%dl
	orb	%cl, %dl
	jne	.LBB38_293
	testq	%rbx, %rbx
	jne	.LBB38_241
	xorl	%ecx, %ecx
	jmp	.LBB38_242
.LBB38_240:
	movq	40(%rsp), %rdx
	jmp	.LBB38_244
.LBB38_241:
	movq	40(%rsp), %rcx
	movq	%rcx, 176(%rsp)
	movq	%rbx, 192(%rsp)
	movl	$8, %ecx
.LBB38_242:
	movq	%rcx, 184(%rsp)
	movl	$8, %esi
	movq	%rsp, %rdi
	movq	%rax, %rdx
	leaq	176(%rsp), %rcx
	callq	_RINvNtCs00000000002_5alloc7raw_vec11finish_growNtNtB4_5alloc6GlobalECs00000000001_10pkcs1_tool
	cmpl	$1, (%rsp)
	je	.LBB38_293
	movq	8(%rsp), %rdx
	movq	%rdx, 136(%rsp)
	movq	%r14, 128(%rsp)
.LBB38_244:
	cmpq	%r14, %r13
	jne	.LBB38_171
	leaq	128(%rsp), %rdi
	callq	_RNvMs1_NtCs00000000002_5alloc7raw_vecINtB5_6RawVecINtNtNtNtCs00000000001_10pkcs1_tool10rattle_std7library3vec3VechEE8grow_oneBV_
	movq	136(%rsp), %rdx
	jmp	.LBB38_171
.LBB38_246:
	leaq	432(%rsp), %rdi
	callq	_RNvXs_NtNtNtCs00000000001_10pkcs1_tool6proved12pkcs1_params7holdersINtNtNtB8_9spki_core20algorithm_identifier21AlgorithmIdentifierOfNtNtB18_17object_identifier16ObjectIdentifierIB14_B26_NtNtB18_3any6AnyRefEENtB4_10MaskHolder10is_defaultBa_
	cmpl	$20, %ebx
	sete	%r14b
	testb	%al, %al
	je	.LBB38_366
.LBB38_247:
	testb	%r14b, %r14b
	movb	$1, %r14b
	jne	.LBB38_369
	movq	%rsp, %rsi
	movl	%ebx, %edi
	callq	_RINvNtNtNtCs00000000001_10pkcs1_tool6proved12pkcs1_params6fields13prepend_fieldhNtNtNtB6_8der_core7counter7CounterEB8_
	xorl	%r14d, %r14d
	jmp	.LBB38_369
.LBB38_249:
	cmpb	$-126, %al
	jne	.LBB38_295
	cmpq	$1, %rbp
	jbe	.LBB38_300
	movzbl	2(%rsi), %ecx
	testq	%rcx, %rcx
	je	.LBB38_300
	leaq	-4(%rdx), %rbp
	shll	$8, %ecx
	movzbl	3(%rsi), %eax
	orq	%rcx, %rax
	subq	%rax, %rbp
	jb	.LBB38_300
	leaq	4(%rsi), %rcx
	jmp	.LBB38_13
.LBB38_254:
	cmpb	$-126, %al
	jne	.LBB38_307
	cmpq	$1, %r12
	jbe	.LBB38_312
	movzbl	2(%rsi), %ecx
	testq	%rcx, %rcx
	je	.LBB38_312
	leaq	-4(%rdx), %r12
	shll	$8, %ecx
	movzbl	3(%rsi), %eax
	orq	%rcx, %rax
	subq	%rax, %r12
	jb	.LBB38_312
	leaq	4(%rsi), %rcx
	jmp	.LBB38_44
.LBB38_259:
	movq	%r9, 32(%rsp)
	movq	%r8, 24(%rsp)
	leaq	3(%r14), %r15
.LBB38_260:
	movb	$61, 2(%rcx,%r14)
	movw	$28192, (%rcx,%r14)
	movq	%r13, %r12
	movq	%r15, 16(%r13)
	movq	%r13, %rdx
	callq	_RNvNtNtNtCs00000000001_10pkcs1_tool4tool13pkcs1_program6digits7put_hex
	movb	$1, %bl
	testb	%al, %al
	jne	.LBB38_847
	movq	(%r12), %rax
	movq	16(%r12), %r14
	movq	%rax, %rcx
	subq	%r14, %rcx
	cmpq	$3, %rcx
	jae	.LBB38_358
	cmpq	$-4, %r14
	movq	24(%rsp), %rdx
	movq	32(%rsp), %rsi
	ja	.LBB38_847
	leaq	3(%r14), %rdi
	leaq	(%rax,%rax), %rcx
	cmpq	%rdi, %rcx
	cmovbeq	%rdi, %rcx
	cmpq	$9, %rcx
	movl	$8, %r15d
	cmovaeq	%rcx, %r15
	testq	%r15, %r15
	js	.LBB38_847
	testq	%rax, %rax
	movq	%rdx, 24(%rsp)
	movq	%rsi, 32(%rsp)
	movq	%rdi, 56(%rsp)
	jne	.LBB38_844
	xorl	%eax, %eax
	jmp	.LBB38_845
.LBB38_266:
	cmpb	$-126, %r10b
	jne	.LBB38_319
	cmpq	$1, %r8
	jbe	.LBB38_777
	movzbl	(%rdi), %edi
	testq	%rdi, %rdi
	je	.LBB38_777
	leaq	-4(%rax), %r8
	shll	$8, %edi
	movzbl	3(%rcx), %r9d
	orq	%rdi, %r9
	cmpq	%r8, %r9
	jbe	.LBB38_56
	jmp	.LBB38_777
.LBB38_270:
	cmpb	$-126, %r9b
	jne	.LBB38_323
	cmpq	$1, %r8
	jbe	.LBB38_780
	movzbl	(%rdi), %edi
	testq	%rdi, %rdi
	je	.LBB38_780
	leaq	-4(%rax), %r8
	shll	$8, %edi
	movzbl	3(%rcx), %r9d
	orq	%rdi, %r9
	cmpq	%r8, %r9
	jbe	.LBB38_56
	jmp	.LBB38_780
.LBB38_274:
	xorl	%eax, %eax
.LBB38_275:
	movabsq	$72354425775621674, %r15
	testb	$1, %r12b
	je	.LBB38_286
	movzbl	543(%rsp), %edi
	cmpq	$40, %rdi
	jae	.LBB38_818
	xorl	%ecx, %ecx
	cmpl	$9, %edi
	jne	.LBB38_287
	cmpq	%r15, 504(%rsp)
	jne	.LBB38_287
	cmpb	$8, 512(%rsp)
	jne	.LBB38_287
	cmpq	$0, 480(%rsp)
	je	.LBB38_594
	movzbl	479(%rsp), %edi
	cmpq	$40, %rdi
	jae	.LBB38_818
	xorl	%ecx, %ecx
	cmpl	$5, %edi
	jne	.LBB38_287
	movq	440(%rsp), %rdx
	cmpl	$33754667, %edx
	jne	.LBB38_287
	cmpb	$26, 444(%rsp)
	jne	.LBB38_287
	movzbl	496(%rsp), %ecx
	xorq	$5, %rcx
	orq	488(%rsp), %rcx
	sete	%cl
	movq	392(%rsp), %rbp
	testq	%rbp, %rbp
	jne	.LBB38_288
	jmp	.LBB38_595
.LBB38_286:
	xorl	%ecx, %ecx
.LBB38_287:
	movq	392(%rsp), %rbp
	testq	%rbp, %rbp
	je	.LBB38_595
.LBB38_288:
	movzbl	391(%rsp), %edi
	cmpq	$40, %rdi
	jae	.LBB38_818
	xorl	%edx, %edx
	cmpl	$9, %edi
	jne	.LBB38_596
	cmpq	%r15, 352(%rsp)
	jne	.LBB38_596
	cmpb	$9, 360(%rsp)
	jne	.LBB38_596
	movzbl	408(%rsp), %edx
	xorq	$4, %rdx
	orq	400(%rsp), %rdx
	sete	%dl
	jmp	.LBB38_596
.LBB38_293:
	movb	$16, %bpl
	testq	%r15, %r15
	movq	56(%rsp), %rdi
	je	.LBB38_506
	callq	free
	jmp	.LBB38_506
.LBB38_295:
	testq	%rbp, %rbp
	je	.LBB38_300
	cmpb	$-127, %al
	jne	.LBB38_300
	movzbl	(%rcx), %eax
	testb	%al, %al
	jns	.LBB38_300
	leaq	-3(%rdx), %rbp
	subq	%rax, %rbp
	jb	.LBB38_300
	leaq	3(%rsi), %rcx
	jmp	.LBB38_13
.LBB38_300:
	leaq	176(%rsp), %rdi
	movq	%rsi, %rbx
	movq	%rdx, %r14
	movl	$48, %ecx
	callq	_RNvNtNtNtCs00000000001_10pkcs1_tool6proved8der_core5split14split_unlikely
	movq	176(%rsp), %rcx
	testq	%rcx, %rcx
	je	.LBB38_56
	movq	184(%rsp), %rax
	movq	200(%rsp), %rbp
	movq	%r14, %rdx
	movq	%rbx, %rsi
	cmpq	$2, %rax
	jae	.LBB38_13
	jmp	.LBB38_777
.LBB38_302:
	cmpb	$-126, %al
	jne	.LBB38_327
	cmpq	$1, %rbx
	jbe	.LBB38_109
	movzbl	2(%rsi), %ecx
	testq	%rcx, %rcx
	je	.LBB38_109
	leaq	-4(%rdx), %rbx
	shll	$8, %ecx
	movzbl	3(%rsi), %eax
	orq	%rcx, %rax
	subq	%rax, %rbx
	jb	.LBB38_109
	addq	$4, %rsi
	jmp	.LBB38_332
.LBB38_307:
	testq	%r12, %r12
	je	.LBB38_312
	cmpb	$-127, %al
	jne	.LBB38_312
	movzbl	(%rcx), %eax
	testb	%al, %al
	jns	.LBB38_312
	leaq	-3(%rdx), %r12
	subq	%rax, %r12
	jb	.LBB38_312
	leaq	3(%rsi), %rcx
	jmp	.LBB38_44
.LBB38_312:
	leaq	176(%rsp), %rdi
	movq	%rsi, %rbx
	movq	%rdx, %r14
	movl	$48, %ecx
	callq	_RNvNtNtNtCs00000000001_10pkcs1_tool6proved8der_core5split14split_unlikely
	movq	176(%rsp), %rcx
	testq	%rcx, %rcx
	je	.LBB38_56
	movq	184(%rsp), %rax
	movq	200(%rsp), %r12
	movq	%r14, %rdx
	movq	%rbx, %rsi
	cmpq	$2, %rax
	jae	.LBB38_44
	jmp	.LBB38_780
.LBB38_314:
	cmpb	$-126, %al
	jne	.LBB38_341
	cmpq	$1, %rbx
	jbe	.LBB38_115
	movzbl	2(%rsi), %ecx
	testq	%rcx, %rcx
	je	.LBB38_115
	leaq	-4(%rdx), %rbx
	shll	$8, %ecx
	movzbl	3(%rsi), %eax
	orq	%rcx, %rax
	subq	%rax, %rbx
	jb	.LBB38_115
	addq	$4, %rsi
	jmp	.LBB38_346
.LBB38_319:
	testq	%r8, %r8
	je	.LBB38_776
	cmpb	$-127, %r10b
	jne	.LBB38_777
	movzbl	(%rdi), %edi
	testb	%dil, %dil
	jns	.LBB38_777
	leaq	-3(%rax), %r8
	cmpq	%rdi, %r8
	jae	.LBB38_56
	jmp	.LBB38_777
.LBB38_323:
	testq	%r8, %r8
	je	.LBB38_779
	cmpb	$-127, %r9b
	jne	.LBB38_780
	movzbl	(%rdi), %edi
	testb	%dil, %dil
	jns	.LBB38_780
	leaq	-3(%rax), %r8
	cmpq	%rdi, %r8
	jae	.LBB38_56
	jmp	.LBB38_780
.LBB38_978:
	movq	8(%r13), %rcx
	movq	%rcx, 176(%rsp)
	movq	%rax, 192(%rsp)
	movl	$1, %eax
.LBB38_979:
	movq	%rax, 184(%rsp)
	leaq	432(%rsp), %rdi
	leaq	176(%rsp), %rcx
	movl	$1, %esi
	movq	%r14, %rdx
	callq	_RINvNtCs00000000002_5alloc7raw_vec11finish_growNtNtB4_5alloc6GlobalECs00000000001_10pkcs1_tool
	cmpl	$1, 432(%rsp)
	je	.LBB38_847
	movq	440(%rsp), %rax
	jmp	.LBB38_530
.LBB38_327:
	testq	%rbx, %rbx
	je	.LBB38_109
	cmpb	$-127, %al
	jne	.LBB38_109
	movzbl	(%rcx), %eax
	testb	%al, %al
	jns	.LBB38_109
	leaq	-3(%rdx), %rbx
	subq	%rax, %rbx
	jb	.LBB38_109
	addq	$3, %rsi
.LBB38_332:
	movq	%rsi, %rcx
	jmp	.LBB38_333
.LBB38_109:
	leaq	432(%rsp), %rdi
	movl	$48, %ecx
	callq	_RNvNtNtNtCs00000000001_10pkcs1_tool6proved8der_core5split14split_unlikely
	movq	432(%rsp), %rcx
	testq	%rcx, %rcx
	je	.LBB38_80
	movq	440(%rsp), %rax
	movq	456(%rsp), %rbx
.LBB38_333:
	leaq	432(%rsp), %rdi
	movq	%rcx, %rsi
	movq	%rax, %rdx
	callq	_RNvNtNtNtCs00000000001_10pkcs1_tool6proved12pkcs1_params6noting8note_pss
	movzbl	536(%rsp), %ecx
	xorl	%eax, %eax
	cmpb	$2, %cl
	je	.LBB38_340
	testq	%rbx, %rbx
	jne	.LBB38_340
	testb	$1, %cl
	jne	.LBB38_340
	cmpq	$0, 432(%rsp)
	je	.LBB38_340
	movzbl	442(%rsp), %eax
	shll	$16, %eax
	movzwl	440(%rsp), %ecx
	orl	%eax, %ecx
	movl	443(%rsp), %eax
	movzbl	447(%rsp), %edi
	shlq	$32, %rdi
	orq	%rax, %rdi
	andl	$16777215, %ecx
	shlq	$24, %rdi
	orq	%rcx, %rdi
	cmpq	$40, %rdi
	jae	.LBB38_818
	movq	480(%rsp), %rdi
	cmpq	$40, %rdi
	jae	.LBB38_818
	movq	496(%rsp), %rdi
	cmpq	$0, 488(%rsp)
	setne	%al
	cmpq	$40, %rdi
	setae	%cl
	andb	%al, %cl
	movb	$1, %al
	cmpb	$1, %cl
	je	.LBB38_818
.LBB38_340:
	movzbl	%al, %edx
	leaq	.Lanon.28(%rip), %rdi
	movl	$10, %esi
	jmp	.LBB38_356
.LBB38_341:
	testq	%rbx, %rbx
	je	.LBB38_115
	cmpb	$-127, %al
	jne	.LBB38_115
	movzbl	(%rcx), %eax
	testb	%al, %al
	jns	.LBB38_115
	leaq	-3(%rdx), %rbx
	subq	%rax, %rbx
	jb	.LBB38_115
	addq	$3, %rsi
.LBB38_346:
	movq	%rsi, %rcx
	jmp	.LBB38_347
.LBB38_115:
	leaq	432(%rsp), %rdi
	movl	$48, %ecx
	callq	_RNvNtNtNtCs00000000001_10pkcs1_tool6proved8der_core5split14split_unlikely
	movq	432(%rsp), %rcx
	testq	%rcx, %rcx
	je	.LBB38_94
	movq	440(%rsp), %rax
	movq	456(%rsp), %rbx
.LBB38_347:
	leaq	432(%rsp), %rdi
	movq	%rcx, %rsi
	movq	%rax, %rdx
	callq	_RNvNtNtNtCs00000000001_10pkcs1_tool6proved12pkcs1_params6noting9note_oaep
	movzbl	568(%rsp), %ecx
	xorl	%eax, %eax
	cmpb	$2, %cl
	je	.LBB38_355
	testq	%rbx, %rbx
	jne	.LBB38_355
	testb	$1, %cl
	jne	.LBB38_355
	cmpq	$0, 432(%rsp)
	je	.LBB38_355
	movzbl	442(%rsp), %eax
	shll	$16, %eax
	movzwl	440(%rsp), %ecx
	orl	%eax, %ecx
	movl	443(%rsp), %eax
	movzbl	447(%rsp), %edi
	shlq	$32, %rdi
	orq	%rax, %rdi
	andl	$16777215, %ecx
	shlq	$24, %rdi
	orq	%rcx, %rdi
	cmpq	$40, %rdi
	jae	.LBB38_818
	movq	480(%rsp), %rdi
	cmpq	$40, %rdi
	jae	.LBB38_818
	movq	496(%rsp), %rdi
	cmpq	$0, 488(%rsp)
	setne	%al
	cmpq	$40, %rdi
	setae	%cl
	andb	%al, %cl
	cmpb	$1, %cl
	je	.LBB38_818
	movq	536(%rsp), %rdi
	movb	$1, %al
	cmpq	$40, %rdi
	jae	.LBB38_818
.LBB38_355:
	movzbl	%al, %edx
	leaq	.Lanon.29(%rip), %rdi
	movl	$11, %esi
.LBB38_356:
	movq	%r13, %rcx
	callq	_RNvNtNtNtCs00000000001_10pkcs1_tool4tool13pkcs1_program7verdict11put_verdict
.LBB38_357:
	movl	%eax, %ebx
	jmp	.LBB38_847
.LBB38_358:
	movq	8(%r12), %rax
	leaq	3(%r14), %rcx
	movq	24(%rsp), %rdi
	movq	32(%rsp), %rsi
.LBB38_359:
	movb	$61, 2(%rax,%r14)
	movw	$25888, (%rax,%r14)
	movq	%rcx, 16(%r12)
	movq	%r12, %rdx
	callq	_RNvNtNtNtCs00000000001_10pkcs1_tool4tool13pkcs1_program6digits7put_hex
	testb	%al, %al
	jne	.LBB38_847
	movq	(%r12), %rax
	movq	16(%r12), %r15
	movq	%rax, %rcx
	subq	%r15, %rcx
	cmpq	$7, %rcx
	jae	.LBB38_722
	cmpq	$-8, %r15
	ja	.LBB38_847
	leaq	7(%r15), %rdx
	leaq	(%rax,%rax), %rcx
	cmpq	%rdx, %rcx
	cmovbeq	%rdx, %rcx
	cmpq	$9, %rcx
	movl	$8, %r14d
	cmovaeq	%rcx, %r14
	testq	%r14, %r14
	js	.LBB38_847
	movq	%rdx, 24(%rsp)
	testq	%rax, %rax
	jne	.LBB38_965
	xorl	%eax, %eax
	jmp	.LBB38_966
.LBB38_365:
	testb	%al, %al
	movq	%rbx, %r15
	movq	%rcx, %rbx
	jne	.LBB38_247
.LBB38_366:
	testb	%r14b, %r14b
	jne	.LBB38_368
	movq	%rsp, %rsi
	movl	%ebx, %edi
	callq	_RINvNtNtNtCs00000000001_10pkcs1_tool6proved12pkcs1_params6fields13prepend_fieldhNtNtNtB6_8der_core7counter7CounterEB8_
.LBB38_368:
	leaq	432(%rsp), %rdi
	movq	%rsp, %rsi
	callq	_RINvNtNtNtCs00000000001_10pkcs1_tool6proved12pkcs1_params6fields13prepend_fieldINtNtNtB6_9spki_core20algorithm_identifier21AlgorithmIdentifierOfNtNtB1k_17object_identifier16ObjectIdentifierIB1g_B2i_NtNtB1k_3any6AnyRefEENtNtNtB6_8der_core7counter7CounterEB8_
.LBB38_369:
	movq	%rsp, %rsi
	leaq	288(%rsp), %rdi
	callq	_RINvNtNtNtCs00000000001_10pkcs1_tool6proved12pkcs1_params6fields13prepend_fieldINtNtNtB6_9spki_core20algorithm_identifier21AlgorithmIdentifierOfNtNtB1k_17object_identifier16ObjectIdentifierNtNtB1k_3any6AnyRefENtNtNtB6_8der_core7counter7CounterEB8_
.LBB38_370:
	movq	(%rsp), %rax
	movl	$2, %r12d
	cmpq	$128, %rax
	jb	.LBB38_466
.LBB38_371:
	movl	$3, %r12d
	cmpq	$256, %rax
	jb	.LBB38_466
	movl	$4, %r12d
	cmpq	$65536, %rax
	jb	.LBB38_466
	movl	$5, %r12d
	cmpq	$16777215, %rax
	jbe	.LBB38_466
	addq	$6, %rax
	movq	$-1, %r12
	cmovaeq	%rax, %r12
	movq	%r12, %rax
	shrq	$32, %rax
	je	.LBB38_467
	jmp	.LBB38_643
.LBB38_375:
	xorl	%ecx, %ecx
	movq	648(%rsp), %rsi
	testq	%rsi, %rsi
	jne	.LBB38_150
.LBB38_376:
	xorl	%edi, %edi
.LBB38_377:
	addb	%r9b, %cl
	addb	%dil, %cl
	movb	$1, %bl
	shlb	%cl, %bl
	testq	%rdx, %rdx
	je	.LBB38_383
	movzbl	583(%rsp), %edi
	cmpq	$40, %rdi
	jae	.LBB38_818
	xorl	%ebp, %ebp
	cmpl	$5, %edi
	jne	.LBB38_384
	movq	544(%rsp), %rcx
	cmpl	$33754667, %ecx
	jne	.LBB38_384
	cmpb	$26, 548(%rsp)
	jne	.LBB38_384
	movzbl	600(%rsp), %ecx
	xorq	$5, %rcx
	orq	592(%rsp), %rcx
	sete	%bpl
	jmp	.LBB38_384
.LBB38_383:
	xorl	%ebp, %ebp
.LBB38_384:
	testb	%r8b, %r8b
	je	.LBB38_395
	movzbl	543(%rsp), %edi
	cmpq	$40, %rdi
	jae	.LBB38_818
	xorl	%r15d, %r15d
	cmpl	$9, %edi
	jne	.LBB38_396
	cmpq	%rax, 504(%rsp)
	jne	.LBB38_396
	cmpb	$8, 512(%rsp)
	jne	.LBB38_396
	cmpq	$0, 480(%rsp)
	je	.LBB38_462
	movzbl	479(%rsp), %edi
	cmpq	$40, %rdi
	jae	.LBB38_818
	xorl	%r15d, %r15d
	cmpl	$5, %edi
	jne	.LBB38_396
	movq	440(%rsp), %rcx
	cmpl	$33754667, %ecx
	jne	.LBB38_396
	cmpb	$26, 444(%rsp)
	jne	.LBB38_396
	movzbl	496(%rsp), %ecx
	xorq	$5, %rcx
	orq	488(%rsp), %rcx
	sete	%r15b
	movb	$2, %cl
	testq	%rsi, %rsi
	jne	.LBB38_397
	jmp	.LBB38_402
.LBB38_395:
	xorl	%r15d, %r15d
.LBB38_396:
	movb	$2, %cl
	testq	%rsi, %rsi
	je	.LBB38_402
.LBB38_397:
	movzbl	647(%rsp), %edi
	cmpq	$40, %rdi
	jae	.LBB38_818
	cmpl	$9, %edi
	jne	.LBB38_402
	cmpq	%rax, 608(%rsp)
	jne	.LBB38_402
	cmpb	$9, 616(%rsp)
	jne	.LBB38_402
	movq	664(%rsp), %rax
	movzbl	%al, %eax
	xorq	$4, %rax
	orq	656(%rsp), %rax
	setne	%cl
	addb	%cl, %cl
.LBB38_402:
	movq	%r13, 48(%rsp)
	movl	%ebp, %edx
	xorb	$1, %dl
	movl	%r15d, %r12d
	xorb	$1, %r12b
	orb	%cl, %r12b
	addb	%r12b, %r12b
	orb	%r12b, %dl
	leal	-1(%rbx), %eax
	movq	%r14, 696(%rsp)
	movb	%dl, 32(%rsp)
	movb	%dl, 704(%rsp)
	movb	%al, 705(%rsp)
	leaq	176(%rsp), %rdi
	leaq	696(%rsp), %rsi
	callq	_RNvMs1_NtNtNtCs00000000001_10pkcs1_tool6proved12pkcs1_params8spellingINtB5_8SpellingRINtNtB7_4oaep12OaepParamsOfNtNtNtB9_9spki_core17object_identifier16ObjectIdentifierNtNtB1Q_3any6AnyRefEE3lenBb_
	cmpb	$0, 176(%rsp)
	je	.LBB38_404
	movzbl	177(%rsp), %ebp
	jmp	.LBB38_524
.LBB38_404:
	movl	%r15d, 80(%rsp)
	movl	%ebp, 88(%rsp)
	movq	$0, 128(%rsp)
	movq	$8, 136(%rsp)
	movq	$0, 144(%rsp)
	movb	%r12b, 120(%rsp)
	andb	$4, %r12b
	movb	%r12b, 168(%rsp)
	movzbl	%bl, %eax
	movq	%rax, 96(%rsp)
	movl	$8, %ecx
	xorl	%ebp, %ebp
	leaq	176(%rsp), %rdi
	leaq	680(%rsp), %rsi
	xorl	%ebx, %ebx
	xorl	%r12d, %r12d
	jmp	.LBB38_406
.LBB38_405:
	movq	40(%rsp), %rdx
	movq	%rdx, %rax
	shrq	$24, %rax
	movq	%r15, (%rcx,%rbx)
	movw	%dx, 8(%rcx,%rbx)
	shrl	$16, %edx
	movb	%dl, 10(%rcx,%rbx)
	movl	%eax, 11(%rcx,%rbx)
	shrq	$32, %rax
	movb	%al, 15(%rcx,%rbx)
	movq	24(%rsp), %rax
	movq	%rax, 16(%rcx,%rbx)
	movq	%r13, 144(%rsp)
	addq	$24, %rbx
	addq	$2, %rbp
	movq	%r13, %r12
	cmpb	%r13b, 96(%rsp)
	leaq	432(%rsp), %r14
	leaq	176(%rsp), %rdi
	leaq	680(%rsp), %rsi
	je	.LBB38_588
.LBB38_406:
	movq	%rcx, 56(%rsp)
	movq	%r14, 680(%rsp)
	movzbl	32(%rsp), %eax
	movb	%al, 688(%rsp)
	movb	%r12b, 689(%rsp)
	callq	_RNvMs1_NtNtNtCs00000000001_10pkcs1_tool6proved12pkcs1_params8spellingINtB5_8SpellingRINtNtB7_4oaep12OaepParamsOfNtNtNtB9_9spki_core17object_identifier16ObjectIdentifierNtNtB1Q_3any6AnyRefEE3lenBb_
	cmpb	$0, 176(%rsp)
	jne	.LBB38_516
	movq	184(%rsp), %rcx
	testq	%rcx, %rcx
	movq	%rcx, 24(%rsp)
	movq	%rbp, %r13
	je	.LBB38_413
	cmpq	$9, %rcx
	movl	$8, %r15d
	cmovaeq	%rcx, %r15
	movb	$16, %bpl
	testq	%r15, %r15
	js	.LBB38_517
	movq	$0, 184(%rsp)
	movl	$1, %esi
	movq	%rsp, %rdi
	movq	%r15, %rdx
	leaq	176(%rsp), %rcx
	callq	_RINvNtCs00000000002_5alloc7raw_vec11finish_growNtNtB4_5alloc6GlobalECs00000000001_10pkcs1_tool
	cmpl	$1, (%rsp)
	je	.LBB38_517
	movq	8(%rsp), %rbp
	movq	%rbp, %rax
	movq	24(%rsp), %rcx
	cmpq	$1, %rcx
	je	.LBB38_412
	leaq	-1(%rcx), %rdx
	movq	%rbp, %rdi
	xorl	%esi, %esi
	callq	memset
	movq	24(%rsp), %rcx
	leaq	(%rcx,%rbp), %rax
	decq	%rax
.LBB38_412:
	movb	$0, (%rax)
	jmp	.LBB38_414
.LBB38_413:
	movl	$1, %ebp
	xorl	%r15d, %r15d
.LBB38_414:
	movq	%rbp, 40(%rsp)
	movq	%rbp, 176(%rsp)
	movq	%rcx, 184(%rsp)
	movq	%rcx, 192(%rsp)
	movl	%r12d, %ebp
	andb	$1, %bpl
	cmpb	$0, 88(%rsp)
	je	.LBB38_419
	movl	%r12d, %r14d
	andb	$2, %r14b
	cmpb	$0, 80(%rsp)
	je	.LBB38_423
	movzbl	120(%rsp), %eax
	orb	%r12b, %al
	testb	$4, %al
	jne	.LBB38_428
	testb	%r14b, %r14b
	leaq	432(%rsp), %r14
	jne	.LBB38_429
	jmp	.LBB38_418
.LBB38_419:
	cmpb	$0, 80(%rsp)
	je	.LBB38_425
	movl	%r12d, %eax
	andb	$2, %al
	orb	168(%rsp), %al
	je	.LBB38_422
	movl	$2, %edi
	leaq	608(%rsp), %rsi
	leaq	176(%rsp), %rdx
	callq	_RINvNtNtNtCs00000000001_10pkcs1_tool6proved12pkcs1_params6fields13prepend_fieldINtNtNtB6_9spki_core20algorithm_identifier21AlgorithmIdentifierOfNtNtB1k_17object_identifier16ObjectIdentifierNtNtB1k_3any6AnyRefENtNtNtB6_8der_core11back_writer10BackWriterEB8_
.LBB38_422:
	testb	%bpl, %bpl
	jne	.LBB38_427
	jmp	.LBB38_430
.LBB38_423:
	orb	168(%rsp), %r14b
	leaq	432(%rsp), %r14
	je	.LBB38_429
	movl	$2, %edi
	leaq	608(%rsp), %rsi
	leaq	176(%rsp), %rdx
	callq	_RINvNtNtNtCs00000000001_10pkcs1_tool6proved12pkcs1_params6fields13prepend_fieldINtNtNtB6_9spki_core20algorithm_identifier21AlgorithmIdentifierOfNtNtB1k_17object_identifier16ObjectIdentifierNtNtB1k_3any6AnyRefENtNtNtB6_8der_core11back_writer10BackWriterEB8_
	jmp	.LBB38_429
.LBB38_425:
	orb	168(%rsp), %bpl
	je	.LBB38_427
	movl	$2, %edi
	leaq	608(%rsp), %rsi
	leaq	176(%rsp), %rdx
	callq	_RINvNtNtNtCs00000000001_10pkcs1_tool6proved12pkcs1_params6fields13prepend_fieldINtNtNtB6_9spki_core20algorithm_identifier21AlgorithmIdentifierOfNtNtB1k_17object_identifier16ObjectIdentifierNtNtB1k_3any6AnyRefENtNtNtB6_8der_core11back_writer10BackWriterEB8_
.LBB38_427:
	movq	%r14, %rdi
	leaq	176(%rsp), %rsi
	callq	_RINvNtNtNtCs00000000001_10pkcs1_tool6proved12pkcs1_params6fields13prepend_fieldINtNtNtB6_9spki_core20algorithm_identifier21AlgorithmIdentifierOfNtNtB1k_17object_identifier16ObjectIdentifierIB1g_B2i_NtNtB1k_3any6AnyRefEENtNtNtB6_8der_core11back_writer10BackWriterEB8_
	jmp	.LBB38_430
.LBB38_428:
	movl	$2, %edi
	leaq	608(%rsp), %rsi
	leaq	176(%rsp), %rdx
	callq	_RINvNtNtNtCs00000000001_10pkcs1_tool6proved12pkcs1_params6fields13prepend_fieldINtNtNtB6_9spki_core20algorithm_identifier21AlgorithmIdentifierOfNtNtB1k_17object_identifier16ObjectIdentifierNtNtB1k_3any6AnyRefENtNtNtB6_8der_core11back_writer10BackWriterEB8_
	testb	%r14b, %r14b
	leaq	432(%rsp), %r14
	jne	.LBB38_429
.LBB38_418:
	testb	%bpl, %bpl
	je	.LBB38_431
.LBB38_430:
	xorl	%edi, %edi
	leaq	544(%rsp), %rsi
	leaq	176(%rsp), %rdx
	callq	_RINvNtNtNtCs00000000001_10pkcs1_tool6proved12pkcs1_params6fields13prepend_fieldINtNtNtB6_9spki_core20algorithm_identifier21AlgorithmIdentifierOfNtNtB1k_17object_identifier16ObjectIdentifierNtNtB1k_3any6AnyRefENtNtNtB6_8der_core11back_writer10BackWriterEB8_
.LBB38_431:
	movq	184(%rsp), %rdx
	movq	192(%rsp), %rax
	movq	%rdx, %rcx
	subq	%rax, %rcx
	cmpl	$128, %ecx
	movq	%r13, %rbp
	jae	.LBB38_435
	cmpq	$2, %rax
	jb	.LBB38_450
	cmpq	%rax, %rdx
	jb	.LBB38_953
	movq	176(%rsp), %rdx
	shll	$8, %ecx
	orl	$48, %ecx
	movw	%cx, -2(%rdx,%rax)
	jmp	.LBB38_450
.LBB38_435:
	cmpl	$256, %ecx
	jae	.LBB38_439
	cmpq	$3, %rax
	jb	.LBB38_450
	cmpq	%rax, %rdx
	jb	.LBB38_953
	movq	176(%rsp), %rdx
	movw	$-32464, -3(%rdx,%rax)
	movb	%cl, -1(%rdx,%rax)
	jmp	.LBB38_450
.LBB38_429:
	movq	%r14, %rdi
	leaq	176(%rsp), %rsi
	callq	_RINvNtNtNtCs00000000001_10pkcs1_tool6proved12pkcs1_params6fields13prepend_fieldINtNtNtB6_9spki_core20algorithm_identifier21AlgorithmIdentifierOfNtNtB1k_17object_identifier16ObjectIdentifierIB1g_B2i_NtNtB1k_3any6AnyRefEENtNtNtB6_8der_core11back_writer10BackWriterEB8_
	testb	%bpl, %bpl
	je	.LBB38_431
	jmp	.LBB38_430
.LBB38_439:
	cmpl	$65536, %ecx
	jae	.LBB38_443
	cmpq	$4, %rax
	jb	.LBB38_450
	cmpq	%rax, %rdx
	jb	.LBB38_953
	movq	176(%rsp), %rdx
	orl	$813826048, %ecx
	bswapl	%ecx
	movl	%ecx, -4(%rdx,%rax)
	jmp	.LBB38_450
.LBB38_443:
	cmpl	$16777216, %ecx
	jae	.LBB38_447
	cmpq	$5, %rax
	jb	.LBB38_450
	cmpq	%rax, %rdx
	jb	.LBB38_953
	movl	%ecx, %edx
	shrl	$16, %edx
	movl	%ecx, %esi
	shrl	$8, %esi
	movq	176(%rsp), %rdi
	movw	$-31952, -5(%rdi,%rax)
	movb	%dl, -3(%rdi,%rax)
	movb	%sil, -2(%rdi,%rax)
	movb	%cl, -1(%rdi,%rax)
	jmp	.LBB38_450
.LBB38_447:
	cmpq	$6, %rax
	jb	.LBB38_450
	cmpq	%rax, %rdx
	jb	.LBB38_953
	movl	%ecx, %edx
	shrl	$24, %edx
	movl	%ecx, %esi
	shrl	$16, %esi
	movl	%ecx, %edi
	shrl	$8, %edi
	movq	176(%rsp), %r8
	movw	$-31696, -6(%r8,%rax)
	movb	%dl, -4(%r8,%rax)
	movb	%sil, -3(%r8,%rax)
	movb	%dil, -2(%r8,%rax)
	movb	%cl, -1(%r8,%rax)
.LBB38_450:
	leaq	1(%r12), %r13
	movq	128(%rsp), %r14
	cmpq	%r14, %r12
	jne	.LBB38_454
	cmpq	%r13, %rbp
	movq	%r13, %r14
	cmovaq	%rbp, %r14
	cmpq	$5, %r14
	movl	$4, %eax
	cmovbq	%rax, %r14
	movq	%r14, %rax
	movl	$24, %ecx
	mulq	%rcx
	seto	%cl
	movabsq	$9223372036854775800, %rdx
	cmpq	%rdx, %rax
	seta	%dl
	orb	%cl, %dl
	jne	.LBB38_460
	testq	%rbx, %rbx
	jne	.LBB38_455
	xorl	%ecx, %ecx
	jmp	.LBB38_456
.LBB38_454:
	movq	56(%rsp), %rcx
	jmp	.LBB38_458
.LBB38_455:
	movq	56(%rsp), %rcx
	movq	%rcx, 176(%rsp)
	movq	%rbx, 192(%rsp)
	movl	$8, %ecx
.LBB38_456:
	movq	%rcx, 184(%rsp)
	movl	$8, %esi
	movq	%rsp, %rdi
	movq	%rax, %rdx
	leaq	176(%rsp), %rcx
	callq	_RINvNtCs00000000002_5alloc7raw_vec11finish_growNtNtB4_5alloc6GlobalECs00000000001_10pkcs1_tool
	cmpl	$1, (%rsp)
	je	.LBB38_460
	movq	8(%rsp), %rcx
	movq	%rcx, 136(%rsp)
	movq	%r14, 128(%rsp)
.LBB38_458:
	cmpq	%r14, %r12
	jne	.LBB38_405
	leaq	128(%rsp), %rdi
	callq	_RNvMs1_NtCs00000000002_5alloc7raw_vecINtB5_6RawVecINtNtNtNtCs00000000001_10pkcs1_tool10rattle_std7library3vec3VechEE8grow_oneBV_
	movq	136(%rsp), %rcx
	jmp	.LBB38_405
.LBB38_460:
	movb	$16, %bpl
	testq	%r15, %r15
	je	.LBB38_517
	movq	40(%rsp), %rdi
	callq	free
	jmp	.LBB38_517
.LBB38_462:
	xorl	%r15d, %r15d
	movb	$2, %cl
	testq	%rsi, %rsi
	jne	.LBB38_397
	jmp	.LBB38_402
.LBB38_36:
	movq	8(%r13), %rcx
	movq	%rcx, 432(%rsp)
	movq	%rax, 448(%rsp)
	movl	$1, %eax
.LBB38_37:
	movq	%rax, 440(%rsp)
	movq	%rsp, %rdi
	leaq	432(%rsp), %rcx
	jmp	.LBB38_528
.LBB38_463:
	movq	%rcx, %rbx
	cmpl	$20, %ebx
	je	.LBB38_465
	movq	%rsp, %rsi
	movl	%ebx, %edi
	callq	_RINvNtNtNtCs00000000001_10pkcs1_tool6proved12pkcs1_params6fields13prepend_fieldhNtNtNtB6_8der_core7counter7CounterEB8_
.LBB38_465:
	leaq	432(%rsp), %rdi
	movq	%rsp, %rsi
	callq	_RINvNtNtNtCs00000000001_10pkcs1_tool6proved12pkcs1_params6fields13prepend_fieldINtNtNtB6_9spki_core20algorithm_identifier21AlgorithmIdentifierOfNtNtB1k_17object_identifier16ObjectIdentifierIB1g_B2i_NtNtB1k_3any6AnyRefEENtNtNtB6_8der_core7counter7CounterEB8_
	movq	(%rsp), %rax
	movl	$2, %r12d
	cmpq	$128, %rax
	jae	.LBB38_371
.LBB38_466:
	addq	%rax, %r12
.LBB38_467:
	cmpq	%r13, %r12
	ja	.LBB38_643
	movq	%r15, 32(%rsp)
	movq	%r15, (%rsp)
	movq	%r12, 8(%rsp)
	movq	%r12, 16(%rsp)
	movq	24(%rsp), %r13
	testq	%r13, %r13
	movq	48(%rsp), %r15
	je	.LBB38_478
	movzbl	327(%rsp), %edi
	cmpq	$40, %rdi
	jae	.LBB38_818
	cmpl	$5, %edi
	jne	.LBB38_478
	movq	288(%rsp), %rax
	cmpl	$33754667, %eax
	jne	.LBB38_478
	cmpb	$26, 292(%rsp)
	jne	.LBB38_478
	movq	336(%rsp), %r13
	movzbl	344(%rsp), %r15d
	leaq	432(%rsp), %rdi
	callq	_RNvXs_NtNtNtCs00000000001_10pkcs1_tool6proved12pkcs1_params7holdersINtNtNtB8_9spki_core20algorithm_identifier21AlgorithmIdentifierOfNtNtB18_17object_identifier16ObjectIdentifierIB14_B26_NtNtB18_3any6AnyRefEENtB4_10MaskHolder10is_defaultBa_
	cmpb	$5, %r15b
	jne	.LBB38_481
	testq	%r13, %r13
	jne	.LBB38_481
	testb	%al, %al
	je	.LBB38_502
	testb	%r14b, %r14b
	movq	48(%rsp), %r15
	movq	24(%rsp), %r13
	jne	.LBB38_486
	movq	%rsp, %rsi
	movl	%ebx, %edi
	callq	_RINvNtNtNtCs00000000001_10pkcs1_tool6proved12pkcs1_params6fields13prepend_fieldhNtNtNtB6_8der_core11back_writer10BackWriterEB8_
	jmp	.LBB38_486
.LBB38_478:
	leaq	432(%rsp), %rdi
	callq	_RNvXs_NtNtNtCs00000000001_10pkcs1_tool6proved12pkcs1_params7holdersINtNtNtB8_9spki_core20algorithm_identifier21AlgorithmIdentifierOfNtNtB18_17object_identifier16ObjectIdentifierIB14_B26_NtNtB18_3any6AnyRefEENtB4_10MaskHolder10is_defaultBa_
	testb	%al, %al
	je	.LBB38_482
.LBB38_479:
	testb	%r14b, %r14b
	jne	.LBB38_485
	movq	%rsp, %rsi
	movl	%ebx, %edi
	callq	_RINvNtNtNtCs00000000001_10pkcs1_tool6proved12pkcs1_params6fields13prepend_fieldhNtNtNtB6_8der_core11back_writer10BackWriterEB8_
	jmp	.LBB38_485
.LBB38_481:
	testb	%al, %al
	movq	48(%rsp), %r15
	movq	24(%rsp), %r13
	jne	.LBB38_479
.LBB38_482:
	testb	%r14b, %r14b
	jne	.LBB38_484
	movq	%rsp, %rsi
	movl	%ebx, %edi
	callq	_RINvNtNtNtCs00000000001_10pkcs1_tool6proved12pkcs1_params6fields13prepend_fieldhNtNtNtB6_8der_core11back_writer10BackWriterEB8_
.LBB38_484:
	leaq	432(%rsp), %rdi
	movq	%rsp, %rsi
	callq	_RINvNtNtNtCs00000000001_10pkcs1_tool6proved12pkcs1_params6fields13prepend_fieldINtNtNtB6_9spki_core20algorithm_identifier21AlgorithmIdentifierOfNtNtB1k_17object_identifier16ObjectIdentifierIB1g_B2i_NtNtB1k_3any6AnyRefEENtNtNtB6_8der_core11back_writer10BackWriterEB8_
.LBB38_485:
	movq	%rsp, %rdx
	xorl	%edi, %edi
	leaq	288(%rsp), %rsi
	callq	_RINvNtNtNtCs00000000001_10pkcs1_tool6proved12pkcs1_params6fields13prepend_fieldINtNtNtB6_9spki_core20algorithm_identifier21AlgorithmIdentifierOfNtNtB1k_17object_identifier16ObjectIdentifierNtNtB1k_3any6AnyRefENtNtNtB6_8der_core11back_writer10BackWriterEB8_
.LBB38_486:
	movq	8(%rsp), %rdx
	movq	16(%rsp), %rax
	movq	%rdx, %rcx
	subq	%rax, %rcx
	cmpl	$128, %ecx
	jae	.LBB38_490
	cmpq	$2, %rax
	jb	.LBB38_539
	cmpq	%rax, %rdx
	jb	.LBB38_953
	movq	(%rsp), %rdx
	shll	$8, %ecx
	orl	$48, %ecx
	movw	%cx, -2(%rdx,%rax)
	jmp	.LBB38_539
.LBB38_490:
	cmpl	$256, %ecx
	jae	.LBB38_494
	cmpq	$3, %rax
	jb	.LBB38_539
	cmpq	%rax, %rdx
	jb	.LBB38_953
	movq	(%rsp), %rdx
	movw	$-32464, -3(%rdx,%rax)
	movb	%cl, -1(%rdx,%rax)
	jmp	.LBB38_539
.LBB38_494:
	cmpl	$65536, %ecx
	jae	.LBB38_498
	cmpq	$4, %rax
	jb	.LBB38_539
	cmpq	%rax, %rdx
	jb	.LBB38_953
	movq	(%rsp), %rdx
	orl	$813826048, %ecx
	bswapl	%ecx
	movl	%ecx, -4(%rdx,%rax)
	jmp	.LBB38_539
.LBB38_498:
	cmpl	$16777216, %ecx
	jae	.LBB38_536
	cmpq	$5, %rax
	jb	.LBB38_539
	cmpq	%rax, %rdx
	jb	.LBB38_953
	movl	%ecx, %edx
	shrl	$16, %edx
	movl	%ecx, %esi
	shrl	$8, %esi
	movq	(%rsp), %rdi
	movw	$-31952, -5(%rdi,%rax)
	movb	%dl, -3(%rdi,%rax)
	movb	%sil, -2(%rdi,%rax)
	movb	%cl, -1(%rdi,%rax)
	jmp	.LBB38_539
.LBB38_502:
	testb	%r14b, %r14b
	movq	48(%rsp), %r15
	movq	24(%rsp), %r13
	jne	.LBB38_504
	movq	%rsp, %rsi
	movl	%ebx, %edi
	callq	_RINvNtNtNtCs00000000001_10pkcs1_tool6proved12pkcs1_params6fields13prepend_fieldhNtNtNtB6_8der_core11back_writer10BackWriterEB8_
.LBB38_504:
	leaq	432(%rsp), %rdi
	movq	%rsp, %rsi
	callq	_RINvNtNtNtCs00000000001_10pkcs1_tool6proved12pkcs1_params6fields13prepend_fieldINtNtNtB6_9spki_core20algorithm_identifier21AlgorithmIdentifierOfNtNtB1k_17object_identifier16ObjectIdentifierIB1g_B2i_NtNtB1k_3any6AnyRefEENtNtNtB6_8der_core11back_writer10BackWriterEB8_
	jmp	.LBB38_486
.LBB38_505:
	movzbl	177(%rsp), %ebp
.LBB38_506:
	movq	136(%rsp), %r14
	testq	%r13, %r13
	je	.LBB38_511
	shlq	$3, %r13
	leaq	(,%r13,2), %rbx
	addq	%r13, %rbx
	xorl	%r15d, %r15d
	movq	free@GOTPCREL(%rip), %r12
	jmp	.LBB38_509
	.p2align	4, 0x90
.LBB38_508:
	addq	$24, %r15
	cmpq	%r15, %rbx
	je	.LBB38_511
.LBB38_509:
	cmpq	$0, (%r14,%r15)
	je	.LBB38_508
	movq	8(%r14,%r15), %rdi
	callq	*%r12
	jmp	.LBB38_508
.LBB38_511:
	cmpq	$0, 128(%rsp)
	je	.LBB38_513
	movq	%r14, %rdi
	callq	free
.LBB38_513:
	movq	48(%rsp), %r13
.LBB38_514:
	cmpb	$16, %bpl
	jne	.LBB38_24
	jmp	.LBB38_846
.LBB38_516:
	movzbl	177(%rsp), %ebp
.LBB38_517:
	movq	136(%rsp), %r14
	testq	%r12, %r12
	je	.LBB38_522
	shlq	$3, %r12
	leaq	(%r12,%r12,2), %rbx
	xorl	%r15d, %r15d
	movq	free@GOTPCREL(%rip), %r12
	jmp	.LBB38_520
	.p2align	4, 0x90
.LBB38_519:
	addq	$24, %r15
	cmpq	%r15, %rbx
	je	.LBB38_522
.LBB38_520:
	cmpq	$0, (%r14,%r15)
	je	.LBB38_519
	movq	8(%r14,%r15), %rdi
	callq	*%r12
	jmp	.LBB38_519
.LBB38_522:
	cmpq	$0, 128(%rsp)
	je	.LBB38_524
	movq	%r14, %rdi
	callq	free
.LBB38_524:
	cmpb	$16, %bpl
	jne	.LBB38_525
.LBB38_846:
	movb	$1, %bl
	jmp	.LBB38_847
.LBB38_525:
	movq	48(%rsp), %r13
.LBB38_24:
	movq	(%r13), %rax
	movq	16(%r13), %r15
	movq	%rax, %rcx
	subq	%r15, %rcx
	cmpq	$7, %rcx
	jae	.LBB38_96
	movb	$1, %bl
	cmpq	$-8, %r15
	ja	.LBB38_847
	leaq	7(%r15), %r12
	leaq	(%rax,%rax), %rcx
	cmpq	%r12, %rcx
	cmovbeq	%r12, %rcx
	cmpq	$9, %rcx
	movl	$8, %r14d
	cmovaeq	%rcx, %r14
	testq	%r14, %r14
	js	.LBB38_847
	testq	%rax, %rax
	jne	.LBB38_526
	xorl	%eax, %eax
	jmp	.LBB38_527
.LBB38_96:
	movq	8(%r13), %rax
	leaq	7(%r15), %r12
.LBB38_97:
	movl	$1684370293, 3(%rax,%r15)
	movl	$1969644914, (%rax,%r15)
	movq	%r12, 16(%r13)
	xorl	%ebx, %ebx
.LBB38_847:
	movl	%ebx, %eax
	addq	$712, %rsp
	.cfi_def_cfa_offset 56
	popq	%rbx
	.cfi_def_cfa_offset 48
	popq	%r12
	.cfi_def_cfa_offset 40
	popq	%r13
	.cfi_def_cfa_offset 32
	popq	%r14
	.cfi_def_cfa_offset 24
	popq	%r15
	.cfi_def_cfa_offset 16
	popq	%rbp
	.cfi_def_cfa_offset 8
	retq
.LBB38_526:
	.cfi_def_cfa_offset 768
	movq	8(%r13), %rcx
	movq	%rcx, 176(%rsp)
	movq	%rax, 192(%rsp)
	movl	$1, %eax
.LBB38_527:
	movq	%rax, 184(%rsp)
	movq	%rsp, %rdi
	leaq	176(%rsp), %rcx
.LBB38_528:
	movl	$1, %esi
	movq	%r14, %rdx
	callq	_RINvNtCs00000000002_5alloc7raw_vec11finish_growNtNtB4_5alloc6GlobalECs00000000001_10pkcs1_tool
	cmpl	$1, (%rsp)
	je	.LBB38_847
	movq	8(%rsp), %rax
.LBB38_530:
	movq	%rax, 8(%r13)
	movq	%r14, (%r13)
	jmp	.LBB38_97
.LBB38_531:
	cmpb	$-126, %al
	jne	.LBB38_724
	cmpq	$1, %r10
	jbe	.LBB38_730
	movzbl	2(%r9), %ecx
	testq	%rcx, %rcx
	je	.LBB38_730
	leaq	-4(%r8), %r10
	shll	$8, %ecx
	movzbl	3(%r9), %eax
	orq	%rcx, %rax
	subq	%rax, %r10
	jb	.LBB38_730
	addq	$4, %r9
	jmp	.LBB38_729
.LBB38_536:
	cmpq	$6, %rax
	jb	.LBB38_539
	cmpq	%rax, %rdx
	jb	.LBB38_953
	movl	%ecx, %edx
	shrl	$24, %edx
	movl	%ecx, %esi
	shrl	$16, %esi
	movl	%ecx, %edi
	shrl	$8, %edi
	movq	(%rsp), %r8
	movw	$-31696, -6(%r8,%rax)
	movb	%dl, -4(%r8,%rax)
	movb	%sil, -3(%r8,%rax)
	movb	%dil, -2(%r8,%rax)
	movb	%cl, -1(%r8,%rax)
.LBB38_539:
	testq	%r13, %r13
	je	.LBB38_545
	movzbl	327(%rsp), %edi
	cmpq	$40, %rdi
	jae	.LBB38_818
	xorl	%edx, %edx
	cmpl	$5, %edi
	jne	.LBB38_546
	movq	288(%rsp), %rax
	cmpl	$33754667, %eax
	jne	.LBB38_546
	cmpb	$26, 292(%rsp)
	jne	.LBB38_546
	movzbl	344(%rsp), %eax
	xorq	$5, %rax
	orq	336(%rsp), %rax
	sete	%dl
	jmp	.LBB38_546
.LBB38_545:
	xorl	%edx, %edx
.LBB38_546:
	testb	$1, %bpl
	je	.LBB38_557
	movzbl	543(%rsp), %edi
	cmpq	$40, %rdi
	jae	.LBB38_818
	xorl	%esi, %esi
	cmpl	$9, %edi
	jne	.LBB38_558
	movabsq	$72354425775621674, %rax
	cmpq	%rax, 504(%rsp)
	jne	.LBB38_558
	cmpb	$8, 512(%rsp)
	jne	.LBB38_558
	cmpq	$0, 480(%rsp)
	je	.LBB38_557
	movzbl	479(%rsp), %edi
	cmpq	$40, %rdi
	jae	.LBB38_818
	xorl	%esi, %esi
	cmpl	$5, %edi
	jne	.LBB38_558
	movq	440(%rsp), %rax
	cmpl	$33754667, %eax
	jne	.LBB38_558
	cmpb	$26, 444(%rsp)
	jne	.LBB38_558
	movzbl	496(%rsp), %eax
	xorq	$5, %rax
	orq	488(%rsp), %rax
	sete	%sil
	jmp	.LBB38_558
.LBB38_557:
	xorl	%esi, %esi
.LBB38_558:
	movq	%rbx, 24(%rsp)
	cmpl	$20, %ebx
	sete	%dil
	movq	(%r15), %rax
	movq	16(%r15), %r13
	movq	%rax, %rcx
	subq	%r13, %rcx
	cmpq	$3, %rcx
	jae	.LBB38_563
	movb	$1, %bl
	cmpq	$-4, %r13
	ja	.LBB38_847
	leaq	3(%r13), %rbp
	leaq	(%rax,%rax), %rcx
	cmpq	%rbp, %rcx
	cmovbeq	%rbp, %rcx
	cmpq	$9, %rcx
	movl	$8, %r14d
	cmovaeq	%rcx, %r14
	testq	%r14, %r14
	js	.LBB38_847
	testq	%rax, %rax
	movl	%edx, 88(%rsp)
	movl	%esi, 40(%rsp)
	movb	%dil, 56(%rsp)
	jne	.LBB38_798
	xorl	%eax, %eax
	jmp	.LBB38_799
.LBB38_563:
	movb	%dil, 56(%rsp)
	movl	%esi, 40(%rsp)
	movl	%edx, 88(%rsp)
	movq	8(%r15), %rax
	leaq	3(%r13), %rbp
.LBB38_564:
	movb	$115, 2(%rax,%r13)
	movw	$29552, (%rax,%r13)
	movq	%rbp, 16(%r15)
	leaq	432(%rsp), %rsi
	leaq	288(%rsp), %rdi
	movq	%r15, %rdx
	callq	_RNvNtNtNtCs00000000001_10pkcs1_tool4tool13pkcs1_program14parameter_text15put_hash_fields
	movb	$1, %bl
	testb	%al, %al
	jne	.LBB38_847
	movq	(%r15), %rax
	movq	16(%r15), %r13
	movq	%rax, %rcx
	subq	%r13, %rcx
	cmpq	$6, %rcx
	jae	.LBB38_570
	cmpq	$-7, %r13
	ja	.LBB38_847
	leaq	6(%r13), %rbp
	leaq	(%rax,%rax), %rcx
	cmpq	%rbp, %rcx
	cmovbeq	%rbp, %rcx
	cmpq	$9, %rcx
	movl	$8, %r14d
	cmovaeq	%rcx, %r14
	testq	%r14, %r14
	js	.LBB38_847
	testq	%rax, %rax
	jne	.LBB38_849
	xorl	%eax, %eax
	jmp	.LBB38_850
.LBB38_570:
	movq	8(%r15), %rax
	leaq	6(%r13), %rbp
.LBB38_571:
	movw	$15732, 4(%rax,%r13)
	movl	$1818325792, (%rax,%r13)
	movq	%rbp, 16(%r15)
	movq	24(%rsp), %rdi
	movq	%r15, %rsi
	callq	_RNvNtNtNtCs00000000001_10pkcs1_tool4tool13pkcs1_program6digits11put_decimal
	testb	%al, %al
	jne	.LBB38_847
	movq	(%r15), %rax
	movq	16(%r15), %r13
	movq	%rax, %rcx
	subq	%r13, %rcx
	cmpq	$9, %rcx
	jae	.LBB38_751
	cmpq	$-10, %r13
	movl	40(%rsp), %ebp
	movzbl	56(%rsp), %ecx
	ja	.LBB38_847
	leaq	9(%r13), %r14
	leaq	(%rax,%rax), %r15
	cmpq	%r14, %r15
	cmovbeq	%r14, %r15
	testq	%r15, %r15
	js	.LBB38_847
	movb	%cl, 56(%rsp)
	testq	%rax, %rax
	jne	.LBB38_1004
	xorl	%eax, %eax
	jmp	.LBB38_1005
.LBB38_577:
	cmpb	$-126, %r14b
	jne	.LBB38_757
	cmpq	$1, %rax
	jbe	.LBB38_763
	movzbl	2(%rcx), %edi
	testq	%rdi, %rdi
	je	.LBB38_763
	leaq	-4(%r8), %rax
	shll	$8, %edi
	movzbl	3(%rcx), %r14d
	orq	%rdi, %r14
	subq	%r14, %rax
	jb	.LBB38_763
	addq	$4, %rcx
	jmp	.LBB38_762
.LBB38_582:
	movq	128(%rsp), %r15
	movzwl	136(%rsp), %ebp
	movabsq	$9223372036854775800, %rcx
	leaq	8(%rcx), %rax
	cmpq	%rax, %r15
	movq	48(%rsp), %r13
	je	.LBB38_514
	addq	$9, %rcx
	cmpq	%rcx, %r15
	je	.LBB38_846
	movzbl	138(%rsp), %eax
	shll	$16, %eax
	orl	%eax, %ebp
	movl	139(%rsp), %eax
	movq	%r13, %r8
	movzbl	143(%rsp), %r13d
	shlq	$32, %r13
	orq	%rax, %r13
	andl	$16777215, %ebp
	shlq	$24, %r13
	movq	%r13, %r14
	addq	%rbp, %r14
	leaq	.Lanon.30(%rip), %rdi
	movl	$9, %esi
	movq	%r14, %rdx
	movq	%r12, %rcx
	callq	_RNvNtNtNtCs00000000001_10pkcs1_tool4tool13pkcs1_program17parameter_answers13put_spellings
	movl	%eax, %ebx
	addq	%rbp, %r13
	addq	$8, %r13
	movq	free@GOTPCREL(%rip), %rbp
	jmp	.LBB38_586
.LBB38_585:
	addq	$24, %r13
	decq	%r12
	je	.LBB38_771
.LBB38_586:
	cmpq	$0, -8(%r13)
	je	.LBB38_585
	movq	(%r13), %rdi
	callq	*%rbp
	jmp	.LBB38_585
.LBB38_588:
	movq	128(%rsp), %r15
	movzwl	136(%rsp), %ebp
	movabsq	$9223372036854775800, %rcx
	leaq	8(%rcx), %rax
	cmpq	%rax, %r15
	je	.LBB38_524
	addq	$9, %rcx
	cmpq	%rcx, %r15
	je	.LBB38_846
	movzbl	138(%rsp), %eax
	shll	$16, %eax
	orl	%eax, %ebp
	movl	139(%rsp), %eax
	movzbl	143(%rsp), %r12d
	shlq	$32, %r12
	orq	%rax, %r12
	andl	$16777215, %ebp
	shlq	$24, %r12
	leaq	(%r12,%rbp), %r14
	leaq	.Lanon.31(%rip), %rdi
	movl	$10, %esi
	movq	%r14, %rdx
	movq	%r13, %rcx
	movq	48(%rsp), %r8
	callq	_RNvNtNtNtCs00000000001_10pkcs1_tool4tool13pkcs1_program17parameter_answers13put_spellings
	movl	%eax, %ebx
	addq	%rbp, %r12
	addq	$8, %r12
	movq	free@GOTPCREL(%rip), %rbp
	jmp	.LBB38_592
.LBB38_591:
	addq	$24, %r12
	decq	%r13
	je	.LBB38_771
.LBB38_592:
	cmpq	$0, -8(%r12)
	je	.LBB38_591
	movq	(%r12), %rdi
	callq	*%rbp
	jmp	.LBB38_591
.LBB38_594:
	xorl	%ecx, %ecx
	movq	392(%rsp), %rbp
	testq	%rbp, %rbp
	jne	.LBB38_288
.LBB38_595:
	xorl	%edx, %edx
.LBB38_596:
	leaq	288(%rsp), %r12
	leaq	352(%rsp), %r14
	testb	%al, %al
	je	.LBB38_600
	testb	%cl, %cl
	je	.LBB38_603
	testb	%dl, %dl
	jne	.LBB38_611
	movq	%rsp, %rsi
	movq	%r14, %rdi
	jmp	.LBB38_610
.LBB38_600:
	testb	%cl, %cl
	je	.LBB38_606
	testb	%dl, %dl
	jne	.LBB38_609
	movq	%rsp, %rsi
	movq	%r14, %rdi
	callq	_RINvNtNtNtCs00000000001_10pkcs1_tool6proved12pkcs1_params6fields13prepend_fieldINtNtNtB6_9spki_core20algorithm_identifier21AlgorithmIdentifierOfNtNtB1k_17object_identifier16ObjectIdentifierNtNtB1k_3any6AnyRefENtNtNtB6_8der_core7counter7CounterEB8_
	jmp	.LBB38_609
.LBB38_603:
	testb	%dl, %dl
	jne	.LBB38_605
	movq	%rsp, %rsi
	movq	%r14, %rdi
	callq	_RINvNtNtNtCs00000000001_10pkcs1_tool6proved12pkcs1_params6fields13prepend_fieldINtNtNtB6_9spki_core20algorithm_identifier21AlgorithmIdentifierOfNtNtB1k_17object_identifier16ObjectIdentifierNtNtB1k_3any6AnyRefENtNtNtB6_8der_core7counter7CounterEB8_
.LBB38_605:
	leaq	176(%rsp), %rdi
	movq	%rsp, %rsi
	callq	_RINvNtNtNtCs00000000001_10pkcs1_tool6proved12pkcs1_params6fields13prepend_fieldINtNtNtB6_9spki_core20algorithm_identifier21AlgorithmIdentifierOfNtNtB1k_17object_identifier16ObjectIdentifierIB1g_B2i_NtNtB1k_3any6AnyRefEENtNtNtB6_8der_core7counter7CounterEB8_
	jmp	.LBB38_611
.LBB38_606:
	testb	%dl, %dl
	jne	.LBB38_608
	movq	%rsp, %rsi
	movq	%r14, %rdi
	callq	_RINvNtNtNtCs00000000001_10pkcs1_tool6proved12pkcs1_params6fields13prepend_fieldINtNtNtB6_9spki_core20algorithm_identifier21AlgorithmIdentifierOfNtNtB1k_17object_identifier16ObjectIdentifierNtNtB1k_3any6AnyRefENtNtNtB6_8der_core7counter7CounterEB8_
.LBB38_608:
	leaq	176(%rsp), %rdi
	movq	%rsp, %rsi
	callq	_RINvNtNtNtCs00000000001_10pkcs1_tool6proved12pkcs1_params6fields13prepend_fieldINtNtNtB6_9spki_core20algorithm_identifier21AlgorithmIdentifierOfNtNtB1k_17object_identifier16ObjectIdentifierIB1g_B2i_NtNtB1k_3any6AnyRefEENtNtNtB6_8der_core7counter7CounterEB8_
.LBB38_609:
	movq	%rsp, %rsi
	movq	%r12, %rdi
.LBB38_610:
	callq	_RINvNtNtNtCs00000000001_10pkcs1_tool6proved12pkcs1_params6fields13prepend_fieldINtNtNtB6_9spki_core20algorithm_identifier21AlgorithmIdentifierOfNtNtB1k_17object_identifier16ObjectIdentifierNtNtB1k_3any6AnyRefENtNtNtB6_8der_core7counter7CounterEB8_
.LBB38_611:
	movq	(%rsp), %rax
	movl	$2, %r12d
	cmpq	$128, %rax
	jb	.LBB38_615
	movl	$3, %r12d
	cmpq	$256, %rax
	jb	.LBB38_615
	movl	$4, %r12d
	cmpq	$65536, %rax
	jb	.LBB38_615
	movl	$5, %r12d
	cmpq	$16777215, %rax
	ja	.LBB38_642
.LBB38_615:
	addq	%rax, %r12
.LBB38_616:
	cmpq	%r13, %r12
	ja	.LBB38_643
	movq	24(%rsp), %rax
	movq	%rax, (%rsp)
	movq	%r12, 8(%rsp)
	movq	%r12, 16(%rsp)
	testq	%rbx, %rbx
	je	.LBB38_623
	movzbl	327(%rsp), %edi
	cmpq	$40, %rdi
	movq	48(%rsp), %r13
	jae	.LBB38_818
	xorl	%eax, %eax
	cmpl	$5, %edi
	jne	.LBB38_624
	movq	288(%rsp), %rcx
	cmpl	$33754667, %ecx
	jne	.LBB38_624
	cmpb	$26, 292(%rsp)
	jne	.LBB38_624
	movzbl	344(%rsp), %eax
	xorq	$5, %rax
	orq	336(%rsp), %rax
	sete	%al
	jmp	.LBB38_624
.LBB38_623:
	xorl	%eax, %eax
	movq	48(%rsp), %r13
.LBB38_624:
	cmpl	$1, 176(%rsp)
	jne	.LBB38_635
	movzbl	287(%rsp), %edi
	cmpq	$40, %rdi
	jae	.LBB38_818
	xorl	%ecx, %ecx
	cmpl	$9, %edi
	jne	.LBB38_636
	cmpq	%r15, 248(%rsp)
	jne	.LBB38_636
	cmpb	$8, 256(%rsp)
	jne	.LBB38_636
	cmpq	$0, 224(%rsp)
	je	.LBB38_644
	movzbl	223(%rsp), %edi
	cmpq	$40, %rdi
	jae	.LBB38_818
	xorl	%ecx, %ecx
	cmpl	$5, %edi
	jne	.LBB38_636
	movq	184(%rsp), %rdx
	cmpl	$33754667, %edx
	jne	.LBB38_636
	cmpb	$26, 188(%rsp)
	jne	.LBB38_636
	movzbl	240(%rsp), %ecx
	xorq	$5, %rcx
	orq	232(%rsp), %rcx
	sete	%cl
	testq	%rbp, %rbp
	jne	.LBB38_637
	jmp	.LBB38_645
.LBB38_635:
	xorl	%ecx, %ecx
.LBB38_636:
	testq	%rbp, %rbp
	je	.LBB38_645
.LBB38_637:
	movzbl	391(%rsp), %edi
	cmpq	$40, %rdi
	jae	.LBB38_818
	xorl	%edx, %edx
	cmpl	$9, %edi
	jne	.LBB38_646
	cmpq	%r15, 352(%rsp)
	jne	.LBB38_646
	cmpb	$9, 360(%rsp)
	jne	.LBB38_646
	movzbl	408(%rsp), %edx
	xorq	$4, %rdx
	orq	400(%rsp), %rdx
	sete	%dl
	jmp	.LBB38_646
.LBB38_642:
	addq	$6, %rax
	movq	$-1, %r12
	cmovaeq	%rax, %r12
	movq	%r12, %rax
	shrq	$32, %rax
	je	.LBB38_616
.LBB38_643:
	ud2
.LBB38_644:
	xorl	%ecx, %ecx
	testq	%rbp, %rbp
	jne	.LBB38_637
.LBB38_645:
	xorl	%edx, %edx
.LBB38_646:
	testb	%al, %al
	je	.LBB38_650
	testb	%cl, %cl
	je	.LBB38_653
	testb	%dl, %dl
	jne	.LBB38_661
	movq	%rsp, %rdx
	movl	$2, %edi
	movq	%r14, %rsi
	jmp	.LBB38_660
.LBB38_650:
	testb	%cl, %cl
	je	.LBB38_656
	testb	%dl, %dl
	jne	.LBB38_659
	movq	%rsp, %rdx
	movl	$2, %edi
	movq	%r14, %rsi
	callq	_RINvNtNtNtCs00000000001_10pkcs1_tool6proved12pkcs1_params6fields13prepend_fieldINtNtNtB6_9spki_core20algorithm_identifier21AlgorithmIdentifierOfNtNtB1k_17object_identifier16ObjectIdentifierNtNtB1k_3any6AnyRefENtNtNtB6_8der_core11back_writer10BackWriterEB8_
	jmp	.LBB38_659
.LBB38_653:
	testb	%dl, %dl
	jne	.LBB38_655
	movq	%rsp, %rdx
	movl	$2, %edi
	movq	%r14, %rsi
	callq	_RINvNtNtNtCs00000000001_10pkcs1_tool6proved12pkcs1_params6fields13prepend_fieldINtNtNtB6_9spki_core20algorithm_identifier21AlgorithmIdentifierOfNtNtB1k_17object_identifier16ObjectIdentifierNtNtB1k_3any6AnyRefENtNtNtB6_8der_core11back_writer10BackWriterEB8_
.LBB38_655:
	leaq	176(%rsp), %rdi
	movq	%rsp, %rsi
	callq	_RINvNtNtNtCs00000000001_10pkcs1_tool6proved12pkcs1_params6fields13prepend_fieldINtNtNtB6_9spki_core20algorithm_identifier21AlgorithmIdentifierOfNtNtB1k_17object_identifier16ObjectIdentifierIB1g_B2i_NtNtB1k_3any6AnyRefEENtNtNtB6_8der_core11back_writer10BackWriterEB8_
	jmp	.LBB38_661
.LBB38_656:
	testb	%dl, %dl
	jne	.LBB38_658
	movq	%rsp, %rdx
	movl	$2, %edi
	movq	%r14, %rsi
	callq	_RINvNtNtNtCs00000000001_10pkcs1_tool6proved12pkcs1_params6fields13prepend_fieldINtNtNtB6_9spki_core20algorithm_identifier21AlgorithmIdentifierOfNtNtB1k_17object_identifier16ObjectIdentifierNtNtB1k_3any6AnyRefENtNtNtB6_8der_core11back_writer10BackWriterEB8_
.LBB38_658:
	leaq	176(%rsp), %rdi
	movq	%rsp, %rsi
	callq	_RINvNtNtNtCs00000000001_10pkcs1_tool6proved12pkcs1_params6fields13prepend_fieldINtNtNtB6_9spki_core20algorithm_identifier21AlgorithmIdentifierOfNtNtB1k_17object_identifier16ObjectIdentifierIB1g_B2i_NtNtB1k_3any6AnyRefEENtNtNtB6_8der_core11back_writer10BackWriterEB8_
.LBB38_659:
	movq	%rsp, %rdx
	xorl	%edi, %edi
	leaq	288(%rsp), %rsi
.LBB38_660:
	callq	_RINvNtNtNtCs00000000001_10pkcs1_tool6proved12pkcs1_params6fields13prepend_fieldINtNtNtB6_9spki_core20algorithm_identifier21AlgorithmIdentifierOfNtNtB1k_17object_identifier16ObjectIdentifierNtNtB1k_3any6AnyRefENtNtNtB6_8der_core11back_writer10BackWriterEB8_
.LBB38_661:
	movq	8(%rsp), %rdx
	movq	16(%rsp), %rax
	movq	%rdx, %rcx
	subq	%rax, %rcx
	cmpl	$128, %ecx
	jae	.LBB38_665
	cmpq	$2, %rax
	jb	.LBB38_680
	cmpq	%rax, %rdx
	jb	.LBB38_953
	movq	(%rsp), %rdx
	shll	$8, %ecx
	orl	$48, %ecx
	movw	%cx, -2(%rdx,%rax)
	jmp	.LBB38_680
.LBB38_665:
	cmpl	$256, %ecx
	jae	.LBB38_669
	cmpq	$3, %rax
	jb	.LBB38_680
	cmpq	%rax, %rdx
	jb	.LBB38_953
	movq	(%rsp), %rdx
	movw	$-32464, -3(%rdx,%rax)
	movb	%cl, -1(%rdx,%rax)
	jmp	.LBB38_680
.LBB38_669:
	cmpl	$65536, %ecx
	jae	.LBB38_673
	cmpq	$4, %rax
	jb	.LBB38_680
	cmpq	%rax, %rdx
	jb	.LBB38_953
	movq	(%rsp), %rdx
	orl	$813826048, %ecx
	bswapl	%ecx
	movl	%ecx, -4(%rdx,%rax)
	jmp	.LBB38_680
.LBB38_673:
	cmpl	$16777216, %ecx
	jae	.LBB38_677
	cmpq	$5, %rax
	jb	.LBB38_680
	cmpq	%rax, %rdx
	jb	.LBB38_953
	movl	%ecx, %edx
	shrl	$16, %edx
	movl	%ecx, %esi
	shrl	$8, %esi
	movq	(%rsp), %rdi
	movw	$-31952, -5(%rdi,%rax)
	movb	%dl, -3(%rdi,%rax)
	movb	%sil, -2(%rdi,%rax)
	movb	%cl, -1(%rdi,%rax)
	jmp	.LBB38_680
.LBB38_677:
	cmpq	$6, %rax
	jb	.LBB38_680
	cmpq	%rax, %rdx
	jb	.LBB38_953
	movl	%ecx, %edx
	shrl	$24, %edx
	movl	%ecx, %esi
	shrl	$16, %esi
	movl	%ecx, %edi
	shrl	$8, %edi
	movq	(%rsp), %r8
	movw	$-31696, -6(%r8,%rax)
	movb	%dl, -4(%r8,%rax)
	movb	%sil, -3(%r8,%rax)
	movb	%dil, -2(%r8,%rax)
	movb	%cl, -1(%r8,%rax)
.LBB38_680:
	cmpq	$0, 328(%rsp)
	je	.LBB38_686
	movzbl	327(%rsp), %edi
	cmpq	$40, %rdi
	jae	.LBB38_818
	xorl	%edx, %edx
	cmpl	$5, %edi
	jne	.LBB38_687
	movq	288(%rsp), %rax
	cmpl	$33754667, %eax
	jne	.LBB38_687
	cmpb	$26, 292(%rsp)
	jne	.LBB38_687
	movzbl	344(%rsp), %eax
	xorq	$5, %rax
	orq	336(%rsp), %rax
	sete	%dl
	jmp	.LBB38_687
.LBB38_686:
	xorl	%edx, %edx
.LBB38_687:
	cmpl	$1, 176(%rsp)
	jne	.LBB38_698
	movzbl	287(%rsp), %edi
	cmpq	$40, %rdi
	jae	.LBB38_818
	xorl	%esi, %esi
	cmpl	$9, %edi
	jne	.LBB38_699
	cmpq	%r15, 248(%rsp)
	jne	.LBB38_699
	cmpb	$8, 256(%rsp)
	jne	.LBB38_699
	cmpq	$0, 224(%rsp)
	je	.LBB38_705
	movzbl	223(%rsp), %edi
	cmpq	$40, %rdi
	jae	.LBB38_818
	xorl	%esi, %esi
	cmpl	$5, %edi
	jne	.LBB38_699
	movq	184(%rsp), %rax
	cmpl	$33754667, %eax
	jne	.LBB38_699
	cmpb	$26, 188(%rsp)
	jne	.LBB38_699
	movzbl	240(%rsp), %eax
	xorq	$5, %rax
	orq	232(%rsp), %rax
	sete	%sil
	cmpq	$0, 392(%rsp)
	jne	.LBB38_700
	jmp	.LBB38_706
.LBB38_698:
	xorl	%esi, %esi
.LBB38_699:
	cmpq	$0, 392(%rsp)
	je	.LBB38_706
.LBB38_700:
	movzbl	391(%rsp), %edi
	cmpq	$40, %rdi
	jae	.LBB38_818
	cmpl	$9, %edi
	jne	.LBB38_706
	xorl	%edi, %edi
	cmpq	%r15, 352(%rsp)
	jne	.LBB38_707
	cmpb	$9, 360(%rsp)
	jne	.LBB38_707
	movzbl	408(%rsp), %eax
	xorq	$4, %rax
	orq	400(%rsp), %rax
	sete	%dil
	jmp	.LBB38_707
.LBB38_705:
	xorl	%esi, %esi
	cmpq	$0, 392(%rsp)
	jne	.LBB38_700
.LBB38_706:
	xorl	%edi, %edi
.LBB38_707:
	movq	(%r13), %rax
	movq	16(%r13), %r14
	movq	%rax, %rcx
	subq	%r14, %rcx
	cmpq	$4, %rcx
	jae	.LBB38_712
	movb	$1, %bl
	cmpq	$-5, %r14
	ja	.LBB38_847
	leaq	4(%r14), %rbp
	leaq	(%rax,%rax), %rcx
	cmpq	%rbp, %rcx
	cmovbeq	%rbp, %rcx
	cmpq	$9, %rcx
	movl	$8, %r15d
	cmovaeq	%rcx, %r15
	testq	%r15, %r15
	js	.LBB38_847
	testq	%rax, %rax
	movl	%edx, 32(%rsp)
	movl	%esi, 56(%rsp)
	movl	%edi, 40(%rsp)
	jne	.LBB38_801
	xorl	%eax, %eax
	jmp	.LBB38_802
.LBB38_712:
	movl	%edi, 40(%rsp)
	movl	%esi, 56(%rsp)
	movl	%edx, 32(%rsp)
	movq	8(%r13), %rax
	leaq	4(%r14), %rbp
.LBB38_713:
	movl	$1885692271, (%rax,%r14)
	movq	%rbp, 16(%r13)
	leaq	176(%rsp), %rsi
	leaq	288(%rsp), %rdi
	movq	%r13, %rdx
	callq	_RNvNtNtNtCs00000000001_10pkcs1_tool4tool13pkcs1_program14parameter_text15put_hash_fields
	movb	$1, %bl
	testb	%al, %al
	jne	.LBB38_847
	movq	(%r13), %rax
	movq	16(%r13), %r15
	movq	%rax, %rcx
	subq	%r15, %rcx
	cmpq	$8, %rcx
	jae	.LBB38_719
	cmpq	$-9, %r15
	leaq	352(%rsp), %r14
	ja	.LBB38_847
	leaq	8(%r15), %rbp
	leaq	(%rax,%rax), %r13
	cmpq	%rbp, %r13
	cmovbeq	%rbp, %r13
	testq	%r13, %r13
	js	.LBB38_847
	testq	%rax, %rax
	jne	.LBB38_852
	xorl	%eax, %eax
	jmp	.LBB38_853
.LBB38_719:
	movq	8(%r13), %rax
	leaq	8(%r15), %rbp
	leaq	352(%rsp), %rdi
.LBB38_720:
	movabsq	$4424051552209040160, %rcx
	movq	%rcx, (%rax,%r15)
	movq	%rbp, 16(%r13)
	movq	%r13, %rsi
	callq	_RNvNtNtNtCs00000000001_10pkcs1_tool4tool13pkcs1_program14parameter_text9put_plain
	testb	%al, %al
	jne	.LBB38_847
	movl	32(%rsp), %eax
	addb	56(%rsp), %al
	addb	40(%rsp), %al
	movzbl	%al, %edi
	movq	24(%rsp), %rsi
	jmp	.LBB38_1037
.LBB38_722:
	movq	8(%r12), %rax
	leaq	7(%r15), %rcx
	movq	48(%rsp), %rdi
.LBB38_723:
	movl	$1030646113, 3(%rax,%r15)
	movl	$1634165024, (%rax,%r15)
	movq	%rcx, 16(%r12)
	movq	%rbp, %rsi
	movq	%r12, %rdx
	callq	_RNvNtNtNtCs00000000001_10pkcs1_tool4tool13pkcs1_program6digits7put_hex
	jmp	.LBB38_357
.LBB38_724:
	testq	%r10, %r10
	je	.LBB38_730
	cmpb	$-127, %al
	jne	.LBB38_730
	movzbl	(%rcx), %eax
	testb	%al, %al
	jns	.LBB38_730
	leaq	-3(%r8), %r10
	subq	%rax, %r10
	jb	.LBB38_730
	addq	$3, %r9
.LBB38_729:
	leaq	(%r9,%rax), %rcx
	movq	%rcx, 56(%rsp)
	movq	%r9, %rcx
	jmp	.LBB38_733
.LBB38_730:
	movq	%rsi, %rbx
	movq	%rdx, %r14
	leaq	176(%rsp), %rdi
	movq	%r9, %rsi
	movq	%r8, %rdx
	movl	$48, %ecx
	callq	_RNvNtNtNtCs00000000001_10pkcs1_tool6proved8der_core5split14split_unlikely
	movq	176(%rsp), %rcx
	testq	%rcx, %rcx
	je	.LBB38_56
	movq	184(%rsp), %rax
	movq	192(%rsp), %rdx
	movq	%rdx, 56(%rsp)
	movq	200(%rsp), %r10
	movq	%r14, %rdx
	movq	%rbx, %rsi
.LBB38_732:
	cmpq	$2, %rax
	jb	.LBB38_881
.LBB38_733:
	cmpb	$6, (%rcx)
	jne	.LBB38_881
	leaq	2(%rcx), %r14
	leaq	-2(%rax), %rdi
	movsbq	1(%rcx), %r12
	testq	%r12, %r12
	movq	%r10, 24(%rsp)
	js	.LBB38_737
	subq	%r12, %rdi
	jb	.LBB38_881
	movq	%rdi, 32(%rsp)
	leaq	(%r14,%r12), %rax
	jmp	.LBB38_883
.LBB38_737:
	cmpb	$-126, %r12b
	jne	.LBB38_745
	cmpq	$1, %rdi
	jbe	.LBB38_881
	movzbl	2(%rcx), %edi
	testq	%rdi, %rdi
	je	.LBB38_881
	leaq	-4(%rax), %r8
	shll	$8, %edi
	movzbl	3(%rcx), %r12d
	orq	%rdi, %r12
	subq	%r12, %r8
	jb	.LBB38_880
	movq	%r8, 32(%rsp)
	addq	$4, %rcx
	jmp	.LBB38_750
.LBB38_742:
	movq	8(%r13), %rcx
	movq	%rcx, 432(%rsp)
	movq	%rax, 448(%rsp)
	movl	$1, %eax
.LBB38_743:
	movq	%rax, 440(%rsp)
	movq	%rsp, %rdi
	leaq	432(%rsp), %rcx
	movl	$1, %esi
	movq	%r12, %rdx
	callq	_RINvNtCs00000000002_5alloc7raw_vec11finish_growNtNtB4_5alloc6GlobalECs00000000001_10pkcs1_tool
	cmpl	$1, (%rsp)
	je	.LBB38_847
	movq	8(%rsp), %rcx
	movq	%r13, %rdx
	movq	%rcx, 8(%r13)
	movq	%r12, (%r13)
	movq	%r12, %rax
	movq	40(%rsp), %rdi
	movq	56(%rsp), %rsi
	movq	24(%rsp), %r8
	movq	32(%rsp), %r9
	jmp	.LBB38_100
.LBB38_745:
	testq	%rdi, %rdi
	je	.LBB38_879
	cmpb	$-127, %r12b
	jne	.LBB38_881
	movzbl	(%r14), %r12d
	testb	%r12b, %r12b
	jns	.LBB38_880
	leaq	-3(%rax), %rdi
	subq	%r12, %rdi
	jb	.LBB38_880
	movq	%rdi, 32(%rsp)
	addq	$3, %rcx
.LBB38_750:
	leaq	(%rcx,%r12), %rax
	movq	%rcx, %r14
	jmp	.LBB38_883
.LBB38_751:
	movq	%r15, %rdx
	movq	8(%r15), %rax
	leaq	9(%r13), %r14
	movl	40(%rsp), %ebp
.LBB38_752:
	movzbl	56(%rsp), %esi
	movabsq	$8243113892833817632, %rcx
	movq	%rcx, (%rax,%r13)
	movb	$61, 8(%rax,%r13)
	movq	%r14, 16(%rdx)
	movq	(%rdx), %r15
	cmpq	%r14, %r15
	movq	%rdx, %r13
	jne	.LBB38_1034
	cmpq	$-1, %r14
	je	.LBB38_847
	leaq	1(%r14), %rax
	leaq	(%r14,%r14), %rcx
	cmpq	%rax, %rcx
	cmovaq	%rcx, %rax
	cmpq	$9, %rax
	movl	$8, %r15d
	cmovaeq	%rax, %r15
	testq	%r15, %r15
	js	.LBB38_847
	movb	%sil, 56(%rsp)
	testq	%r14, %r14
	jne	.LBB38_1031
	xorl	%eax, %eax
	jmp	.LBB38_1032
.LBB38_757:
	testq	%rax, %rax
	je	.LBB38_763
	cmpb	$-127, %r14b
	jne	.LBB38_763
	movzbl	(%r10), %r14d
	testb	%r14b, %r14b
	jns	.LBB38_763
	leaq	-3(%r8), %rax
	subq	%r14, %rax
	jb	.LBB38_763
	addq	$3, %rcx
.LBB38_762:
	leaq	(%rcx,%r14), %r8
	movq	%rcx, %r10
	jmp	.LBB38_766
.LBB38_763:
	movq	%rsi, %rbx
	movq	%rdx, %r15
	leaq	176(%rsp), %rdi
	movq	%rcx, %rsi
	movq	%r8, %rdx
	movl	$2, %ecx
	callq	_RNvNtNtNtCs00000000001_10pkcs1_tool6proved8der_core5split14split_unlikely
	movq	176(%rsp), %r10
	testq	%r10, %r10
	je	.LBB38_56
	movq	184(%rsp), %r14
	movq	192(%rsp), %r8
	movq	200(%rsp), %rax
	movq	%r15, %rdx
	movq	%rbx, %rsi
.LBB38_765:
	testq	%r14, %r14
	je	.LBB38_56
.LBB38_766:
	cmpb	$0, (%r10)
	je	.LBB38_768
	jns	.LBB38_788
	jmp	.LBB38_56
.LBB38_768:
	decq	%r14
	je	.LBB38_787
	cmpb	$0, 1(%r10)
	jns	.LBB38_56
	incq	%r10
	jmp	.LBB38_788
.LBB38_771:
	testq	%r15, %r15
	je	.LBB38_847
	movq	%r14, %rdi
	callq	free
	jmp	.LBB38_847
.LBB38_773:
	movq	%rcx, 432(%rsp)
	movq	%rax, 448(%rsp)
	movl	$1, %eax
.LBB38_774:
	movq	%rax, 440(%rsp)
	movq	%rsp, %rdi
	leaq	432(%rsp), %rcx
	movl	$1, %esi
	movq	%r12, %rdx
	callq	_RINvNtCs00000000002_5alloc7raw_vec11finish_growNtNtB4_5alloc6GlobalECs00000000001_10pkcs1_tool
	cmpl	$1, (%rsp)
	je	.LBB38_846
	movq	8(%rsp), %rcx
	movq	%rcx, 8(%r13)
	movq	%r12, (%r13)
	movq	%rbx, %rdi
	movq	56(%rsp), %rsi
	jmp	.LBB38_260
.LBB38_776:
	movl	$2, %eax
.LBB38_777:
	movq	%rsi, %rbx
	movq	%rdx, %r14
	leaq	176(%rsp), %rdi
	movq	%rcx, %rsi
	movq	%rax, %rdx
	movl	$2, %ecx
	callq	_RNvNtNtNtCs00000000001_10pkcs1_tool6proved8der_core5split14split_unlikely
	movq	176(%rsp), %rdi
	testq	%rdi, %rdi
	je	.LBB38_56
	movq	184(%rsp), %r10
	movq	192(%rsp), %r9
	movq	200(%rsp), %r8
	movq	%r14, %rdx
	movq	%rbx, %rsi
	cmpq	$1, %r10
	je	.LBB38_17
	jmp	.LBB38_56
.LBB38_779:
	movl	$2, %eax
.LBB38_780:
	movq	%rsi, %rbx
	movq	%rdx, %r14
	leaq	176(%rsp), %rdi
	movq	%rcx, %rsi
	movq	%rax, %rdx
	movl	$2, %ecx
	callq	_RNvNtNtNtCs00000000001_10pkcs1_tool6proved8der_core5split14split_unlikely
	movq	176(%rsp), %rdi
	testq	%rdi, %rdi
	je	.LBB38_56
	movq	184(%rsp), %r9
	movq	192(%rsp), %rcx
	movq	200(%rsp), %r8
	movq	%r14, %rdx
	movq	%rbx, %rsi
	cmpq	$1, %r9
	je	.LBB38_48
	jmp	.LBB38_56
.LBB38_787:
	movl	$1, %r14d
.LBB38_788:
	cmpq	$2, %rax
	jb	.LBB38_810
	cmpb	$2, (%r8)
	jne	.LBB38_810
	leaq	2(%r8), %rdi
	leaq	-2(%rax), %rcx
	movsbq	1(%r8), %r11
	testq	%r11, %r11
	js	.LBB38_793
	subq	%r11, %rcx
	jb	.LBB38_810
	leaq	(%rdi,%r11), %r9
	jmp	.LBB38_812
.LBB38_793:
	cmpb	$-126, %r11b
	jne	.LBB38_804
	cmpq	$1, %rcx
	jbe	.LBB38_810
	movzbl	2(%r8), %edi
	testq	%rdi, %rdi
	je	.LBB38_810
	leaq	-4(%rax), %rcx
	shll	$8, %edi
	movzbl	3(%r8), %r11d
	orq	%rdi, %r11
	subq	%r11, %rcx
	jb	.LBB38_810
	addq	$4, %r8
	jmp	.LBB38_809
.LBB38_798:
	movq	48(%rsp), %rcx
	movq	8(%rcx), %rcx
	movq	%rcx, (%rsp)
	movq	%rax, 16(%rsp)
	movl	$1, %eax
.LBB38_799:
	movq	%rax, 8(%rsp)
	leaq	128(%rsp), %rdi
	movq	%rsp, %rcx
	movl	$1, %esi
	movq	%r14, %rdx
	callq	_RINvNtCs00000000002_5alloc7raw_vec11finish_growNtNtB4_5alloc6GlobalECs00000000001_10pkcs1_tool
	cmpl	$1, 128(%rsp)
	je	.LBB38_847
	movq	136(%rsp), %rax
	movq	48(%rsp), %r15
	movq	%rax, 8(%r15)
	movq	%r14, (%r15)
	jmp	.LBB38_564
.LBB38_801:
	movq	48(%rsp), %rcx
	movq	8(%rcx), %rcx
	movq	%rcx, (%rsp)
	movq	%rax, 16(%rsp)
	movl	$1, %eax
.LBB38_802:
	movq	%rax, 8(%rsp)
	leaq	128(%rsp), %rdi
	movq	%rsp, %rcx
	movl	$1, %esi
	movq	%r15, %rdx
	callq	_RINvNtCs00000000002_5alloc7raw_vec11finish_growNtNtB4_5alloc6GlobalECs00000000001_10pkcs1_tool
	cmpl	$1, 128(%rsp)
	je	.LBB38_847
	movq	136(%rsp), %rax
	movq	48(%rsp), %r13
	movq	%rax, 8(%r13)
	movq	%r15, (%r13)
	jmp	.LBB38_713
.LBB38_804:
	testq	%rcx, %rcx
	je	.LBB38_810
	cmpb	$-127, %r11b
	jne	.LBB38_810
	movzbl	(%rdi), %r11d
	testb	%r11b, %r11b
	jns	.LBB38_810
	leaq	-3(%rax), %rcx
	subq	%r11, %rcx
	jb	.LBB38_810
	addq	$3, %r8
.LBB38_809:
	leaq	(%r8,%r11), %r9
	movq	%r8, %rdi
	jmp	.LBB38_813
.LBB38_810:
	movq	%r10, 32(%rsp)
	movq	%rsi, %rbx
	movq	%rdx, %r15
	leaq	176(%rsp), %rdi
	movq	%r8, %rsi
	movq	%rax, %rdx
	movl	$2, %ecx
	callq	_RNvNtNtNtCs00000000001_10pkcs1_tool6proved8der_core5split14split_unlikely
	movq	176(%rsp), %rdi
	testq	%rdi, %rdi
	je	.LBB38_56
	movq	184(%rsp), %r11
	movq	192(%rsp), %r9
	movq	200(%rsp), %rcx
	movq	%r15, %rdx
	movq	%rbx, %rsi
	movq	32(%rsp), %r10
.LBB38_812:
	testq	%r11, %r11
	je	.LBB38_56
.LBB38_813:
	cmpb	$0, (%rdi)
	je	.LBB38_815
	jns	.LBB38_820
	jmp	.LBB38_56
.LBB38_815:
	decq	%r11
	je	.LBB38_819
	cmpb	$0, 1(%rdi)
	jns	.LBB38_56
	incq	%rdi
	jmp	.LBB38_820
.LBB38_818:
	movl	$39, %esi
	ud2
.LBB38_819:
	movl	$1, %r11d
.LBB38_820:
	movq	%rdi, 56(%rsp)
	cmpq	$2, %rcx
	jb	.LBB38_836
	cmpb	$2, (%r9)
	jne	.LBB38_836
	leaq	2(%r9), %r8
	leaq	-2(%rcx), %rax
	movsbq	1(%r9), %rdi
	testq	%rdi, %rdi
	js	.LBB38_825
	subq	%rdi, %rax
	jb	.LBB38_836
	movq	%r8, 24(%rsp)
	addq	%rdi, %r8
	jmp	.LBB38_838
.LBB38_825:
	cmpb	$-126, %dil
	jne	.LBB38_830
	cmpq	$1, %rax
	jbe	.LBB38_836
	movzbl	2(%r9), %edi
	testq	%rdi, %rdi
	je	.LBB38_836
	leaq	-4(%rcx), %rax
	shll	$8, %edi
	movzbl	3(%r9), %r8d
	orq	%rdi, %r8
	subq	%r8, %rax
	jb	.LBB38_836
	movq	%r8, %rdi
	addq	$4, %r9
	jmp	.LBB38_835
.LBB38_830:
	testq	%rax, %rax
	je	.LBB38_836
	cmpb	$-127, %dil
	jne	.LBB38_836
	movzbl	(%r8), %edi
	testb	%dil, %dil
	jns	.LBB38_836
	leaq	-3(%rcx), %rax
	subq	%rdi, %rax
	jb	.LBB38_836
	addq	$3, %r9
.LBB38_835:
	leaq	(%r9,%rdi), %r8
	movq	%r9, 24(%rsp)
	jmp	.LBB38_839
.LBB38_836:
	movq	%r11, 88(%rsp)
	movq	%r10, 32(%rsp)
	movq	%rsi, %rbx
	movq	%rdx, %r15
	leaq	176(%rsp), %rdi
	movq	%r9, %rsi
	movq	%rcx, %rdx
	movl	$2, %ecx
	callq	_RNvNtNtNtCs00000000001_10pkcs1_tool6proved8der_core5split14split_unlikely
	movq	176(%rsp), %rax
	movq	%rax, 24(%rsp)
	testq	%rax, %rax
	je	.LBB38_56
	movq	184(%rsp), %rdi
	movq	192(%rsp), %r8
	movq	200(%rsp), %rax
	movq	%r15, %rdx
	movq	%rbx, %rsi
	movq	32(%rsp), %r10
	movq	88(%rsp), %r11
.LBB38_838:
	testq	%rdi, %rdi
	je	.LBB38_56
.LBB38_839:
	movq	24(%rsp), %rcx
	cmpb	$0, (%rcx)
	je	.LBB38_841
	jns	.LBB38_856
	jmp	.LBB38_56
.LBB38_841:
	decq	%rdi
	je	.LBB38_855
	cmpb	$0, 1(%rcx)
	jns	.LBB38_56
	incq	24(%rsp)
	jmp	.LBB38_856
.LBB38_880:
	movq	24(%rsp), %r10
	jmp	.LBB38_881
.LBB38_844:
	movq	8(%r13), %rcx
	movq	%rcx, 432(%rsp)
	movq	%rax, 448(%rsp)
	movl	$1, %eax
.LBB38_845:
	movq	%rax, 440(%rsp)
	movq	%rsp, %rdi
	leaq	432(%rsp), %rcx
	movl	$1, %esi
	movq	%r15, %rdx
	callq	_RINvNtCs00000000002_5alloc7raw_vec11finish_growNtNtB4_5alloc6GlobalECs00000000001_10pkcs1_tool
	testb	$1, (%rsp)
	jne	.LBB38_846
	movq	8(%rsp), %rax
	movq	%r13, %r12
	movq	%rax, 8(%r13)
	movq	%r15, (%r13)
	movq	24(%rsp), %rdi
	movq	32(%rsp), %rsi
	movq	56(%rsp), %rcx
	jmp	.LBB38_359
.LBB38_849:
	movq	48(%rsp), %rcx
	movq	8(%rcx), %rcx
	movq	%rcx, (%rsp)
	movq	%rax, 16(%rsp)
	movl	$1, %eax
.LBB38_850:
	movq	%rax, 8(%rsp)
	leaq	128(%rsp), %rdi
	movq	%rsp, %rcx
	movl	$1, %esi
	movq	%r14, %rdx
	callq	_RINvNtCs00000000002_5alloc7raw_vec11finish_growNtNtB4_5alloc6GlobalECs00000000001_10pkcs1_tool
	cmpl	$1, 128(%rsp)
	je	.LBB38_847
	movq	136(%rsp), %rax
	movq	48(%rsp), %r15
	movq	%rax, 8(%r15)
	movq	%r14, (%r15)
	jmp	.LBB38_571
.LBB38_852:
	movq	48(%rsp), %rcx
	movq	8(%rcx), %rcx
	movq	%rcx, (%rsp)
	movq	%rax, 16(%rsp)
	movl	$1, %eax
.LBB38_853:
	movq	%rax, 8(%rsp)
	leaq	128(%rsp), %rdi
	movq	%rsp, %rcx
	movl	$1, %esi
	movq	%r13, %rdx
	callq	_RINvNtCs00000000002_5alloc7raw_vec11finish_growNtNtB4_5alloc6GlobalECs00000000001_10pkcs1_tool
	cmpl	$1, 128(%rsp)
	je	.LBB38_847
	movq	136(%rsp), %rax
	movq	48(%rsp), %rcx
	movq	%rax, 8(%rcx)
	movq	%r13, (%rcx)
	movq	%rcx, %r13
	movq	%r14, %rdi
	jmp	.LBB38_720
.LBB38_855:
	movl	$1, %edi
.LBB38_856:
	movq	%rdi, 168(%rsp)
	cmpq	$2, %rax
	jb	.LBB38_871
	cmpb	$2, (%r8)
	jne	.LBB38_871
	leaq	2(%r8), %r9
	leaq	-2(%rax), %rcx
	movsbq	1(%r8), %rdi
	testq	%rdi, %rdi
	js	.LBB38_861
	subq	%rdi, %rcx
	jb	.LBB38_871
	movq	%r9, 40(%rsp)
	addq	%rdi, %r9
	jmp	.LBB38_873
.LBB38_861:
	cmpb	$-126, %dil
	jne	.LBB38_866
	cmpq	$1, %rcx
	jbe	.LBB38_871
	movzbl	2(%r8), %edi
	testq	%rdi, %rdi
	je	.LBB38_871
	leaq	-4(%rax), %rcx
	shll	$8, %edi
	movzbl	3(%r8), %r9d
	orq	%rdi, %r9
	subq	%r9, %rcx
	jb	.LBB38_871
	addq	$4, %r8
	movq	%r9, 80(%rsp)
	addq	%r8, %r9
	movq	%r8, 40(%rsp)
	jmp	.LBB38_874
.LBB38_866:
	testq	%rcx, %rcx
	je	.LBB38_871
	cmpb	$-127, %dil
	jne	.LBB38_871
	movzbl	(%r9), %edi
	testb	%dil, %dil
	jns	.LBB38_871
	leaq	-3(%rax), %rcx
	subq	%rdi, %rcx
	jb	.LBB38_871
	addq	$3, %r8
	movq	%rdi, 80(%rsp)
	leaq	(%r8,%rdi), %r9
	movq	%r8, 40(%rsp)
	jmp	.LBB38_874
.LBB38_871:
	movq	%r11, 88(%rsp)
	movq	%r10, 32(%rsp)
	movq	%rsi, %rbx
	movq	%rdx, %r15
	leaq	176(%rsp), %rdi
	movq	%r8, %rsi
	movq	%rax, %rdx
	movl	$2, %ecx
	callq	_RNvNtNtNtCs00000000001_10pkcs1_tool6proved8der_core5split14split_unlikely
	movq	176(%rsp), %rax
	movq	%rax, 40(%rsp)
	testq	%rax, %rax
	je	.LBB38_56
	movq	184(%rsp), %rdi
	movq	192(%rsp), %r9
	movq	200(%rsp), %rcx
	movq	%r15, %rdx
	movq	%rbx, %rsi
	movq	32(%rsp), %r10
	movq	88(%rsp), %r11
.LBB38_873:
	movq	%rdi, 80(%rsp)
	testq	%rdi, %rdi
	je	.LBB38_56
.LBB38_874:
	movq	40(%rsp), %rax
	cmpb	$0, (%rax)
	je	.LBB38_876
	jns	.LBB38_955
	jmp	.LBB38_56
.LBB38_876:
	decq	80(%rsp)
	je	.LBB38_954
	movq	40(%rsp), %rax
	cmpb	$0, 1(%rax)
	jns	.LBB38_56
	incq	40(%rsp)
	jmp	.LBB38_955
.LBB38_879:
	movl	$2, %eax
.LBB38_881:
	movq	%r10, 24(%rsp)
	movq	%rsi, %rbx
	movq	%rdx, %r15
	leaq	176(%rsp), %rdi
	movq	%rcx, %rsi
	movq	%rax, %rdx
	movl	$6, %ecx
	callq	_RNvNtNtNtCs00000000001_10pkcs1_tool6proved8der_core5split14split_unlikely
	movq	176(%rsp), %r14
	testq	%r14, %r14
	je	.LBB38_56
	movq	184(%rsp), %r12
	movq	192(%rsp), %rax
	movq	200(%rsp), %rcx
	movq	%rcx, 32(%rsp)
	movq	%r15, %rdx
	movq	%rbx, %rsi
.LBB38_883:
	leaq	-1(%r12), %rdi
	cmpq	$38, %rdi
	ja	.LBB38_56
	movzbl	(%r14,%rdi), %ecx
	testb	%cl, %cl
	js	.LBB38_897
	movdqa	.LCPI38_1(%rip), %xmm0
	movdqa	.LCPI38_0(%rip), %xmm1
	xorl	%r8d, %r8d
	movq	%r14, %r9
	jmp	.LBB38_887
.LBB38_886:
	addq	%r11, %rdi
	addq	%r10, %r9
.LBB38_887:
	cmpq	$7, %rdi
	jbe	.LBB38_890
	movq	(%r9), %xmm2
	pcmpeqb	%xmm0, %xmm2
	pmovmskb	%xmm2, %r10d
	testb	%r10b, %r10b
	jne	.LBB38_896
	movl	$8, %r10d
	movq	$-8, %r11
	jmp	.LBB38_886
.LBB38_890:
	cmpq	$3, %rdi
	jbe	.LBB38_893
	movd	(%r9), %xmm2
	punpcklbw	%xmm2, %xmm2
	punpcklwd	%xmm2, %xmm2
	pcmpeqb	%xmm1, %xmm2
	movmskps	%xmm2, %r10d
	testl	%r10d, %r10d
	jne	.LBB38_896
	movl	$4, %r10d
	movq	$-4, %r11
	jmp	.LBB38_886
.LBB38_893:
	testq	%rdi, %rdi
	je	.LBB38_900
	cmpb	(%r9), %r8b
	jo	.LBB38_896
	movl	$1, %r10d
	movq	$-1, %r11
	jmp	.LBB38_886
.LBB38_896:
	testq	%r12, %r12
	je	.LBB38_900
.LBB38_897:
	xorl	%edi, %edi
	cmpb	(%r14), %dil
	jo	.LBB38_56
	cmpq	$1, %r12
	jne	.LBB38_909
.LBB38_899:
	testb	%cl, %cl
	js	.LBB38_56
.LBB38_900:
	cmpq	$0, 32(%rsp)
	je	.LBB38_908
	movzbl	(%rax), %edi
	movl	%edi, %ecx
	notb	%cl
	testb	$31, %cl
	sete	%cl
	movq	%rdi, 40(%rsp)
	testb	$-33, %dil
	sete	%dil
	orb	%cl, %dil
	jne	.LBB38_56
	movq	32(%rsp), %r8
	cmpq	$1, %r8
	je	.LBB38_946
	leaq	-2(%r8), %rcx
	movsbq	1(%rax), %rbx
	testq	%rbx, %rbx
	jns	.LBB38_918
	cmpb	$-126, %bl
	jne	.LBB38_914
	cmpq	$1, %rcx
	jbe	.LBB38_946
	movzbl	2(%rax), %edi
	testq	%rdi, %rdi
	je	.LBB38_946
	leaq	-4(%r8), %rcx
	shll	$8, %edi
	movzbl	3(%rax), %ebx
	orq	%rdi, %rbx
	jmp	.LBB38_918
.LBB38_908:
	xorl	%ebx, %ebx
	movq	$0, 88(%rsp)
	movq	$0, 80(%rsp)
	jmp	.LBB38_921
.LBB38_909:
	leaq	-1(%r12), %r8
	xorl	%r9d, %r9d
	xorl	%edi, %edi
	jmp	.LBB38_911
.LBB38_910:
	incq	%rdi
	cmpq	%rdi, %r8
	je	.LBB38_899
.LBB38_911:
	cmpb	1(%r14,%rdi), %r9b
	jno	.LBB38_910
	cmpq	%r12, %rdi
	jae	.LBB38_1279
	cmpb	$0, (%r14,%rdi)
	js	.LBB38_910
	jmp	.LBB38_56
.LBB38_914:
	testq	%rcx, %rcx
	je	.LBB38_946
	cmpb	$-127, %bl
	jne	.LBB38_946
	movzbl	2(%rax), %ebx
	testb	%bl, %bl
	jns	.LBB38_946
	leaq	-3(%r8), %rcx
.LBB38_918:
	subq	%rbx, %rcx
	jb	.LBB38_946
	testq	%rcx, %rcx
	jne	.LBB38_56
.LBB38_920:
	movq	%rbx, %rax
	andq	$-16777216, %rax
	movq	%rax, 80(%rsp)
	movl	%ebx, %eax
	andl	$16776960, %eax
	movq	%rax, 88(%rsp)
.LBB38_921:
	movq	24(%rsp), %r9
	cmpq	$2, %r9
	movq	56(%rsp), %r10
	jb	.LBB38_937
	cmpb	$4, (%r10)
	jne	.LBB38_937
	leaq	2(%r10), %r8
	leaq	-2(%r9), %rax
	movsbq	1(%r10), %rdi
	testq	%rdi, %rdi
	js	.LBB38_926
	subq	%rdi, %rax
	jb	.LBB38_937
	leaq	(%r8,%rdi), %rcx
	jmp	.LBB38_939
.LBB38_926:
	cmpb	$-126, %dil
	jne	.LBB38_931
	cmpq	$1, %rax
	jbe	.LBB38_937
	movzbl	2(%r10), %ecx
	testq	%rcx, %rcx
	je	.LBB38_937
	leaq	-4(%r9), %rax
	shll	$8, %ecx
	movzbl	3(%r10), %edi
	orq	%rcx, %rdi
	subq	%rdi, %rax
	jb	.LBB38_937
	addq	$4, %r10
	jmp	.LBB38_936
.LBB38_931:
	testq	%rax, %rax
	je	.LBB38_937
	cmpb	$-127, %dil
	jne	.LBB38_937
	movzbl	(%r8), %edi
	testb	%dil, %dil
	jns	.LBB38_937
	leaq	-3(%r9), %rax
	subq	%rdi, %rax
	jb	.LBB38_937
	addq	$3, %r10
.LBB38_936:
	leaq	(%r10,%rdi), %rcx
	movq	%r10, %r8
	jmp	.LBB38_939
.LBB38_937:
	movq	%rsi, 48(%rsp)
	movq	%rdx, %r15
	leaq	176(%rsp), %rdi
	movq	%r10, %rsi
	movq	%r9, %rdx
	movl	$4, %ecx
	callq	_RNvNtNtNtCs00000000001_10pkcs1_tool6proved8der_core5split14split_unlikely
	movq	176(%rsp), %r8
	testq	%r8, %r8
	je	.LBB38_56
	movq	184(%rsp), %rdi
	movq	192(%rsp), %rcx
	movq	200(%rsp), %rax
	movq	%r15, %rdx
	movq	48(%rsp), %rsi
.LBB38_939:
	movq	%r8, 56(%rsp)
	movq	%rdi, 24(%rsp)
	testq	%rax, %rax
	je	.LBB38_945
	cmpb	$-96, (%rcx)
	jne	.LBB38_56
	cmpq	$1, %rax
	je	.LBB38_973
	leaq	2(%rcx), %r9
	leaq	-2(%rax), %rdi
	movsbq	1(%rcx), %r8
	testq	%r8, %r8
	js	.LBB38_948
	subq	%r8, %rdi
	jb	.LBB38_973
	movq	%r9, 96(%rsp)
	movq	%r8, 168(%rsp)
	jmp	.LBB38_975
.LBB38_945:
	movq	$0, 96(%rsp)
	jmp	.LBB38_976
.LBB38_946:
	movq	%rsi, 48(%rsp)
	movq	%rdx, %r15
	leaq	176(%rsp), %rdi
	movq	%rax, %rsi
	movq	%r8, %rdx
	movq	40(%rsp), %rcx
	callq	_RNvNtNtNtCs00000000001_10pkcs1_tool6proved8der_core5split14split_unlikely
	cmpq	$0, 176(%rsp)
	je	.LBB38_56
	movq	184(%rsp), %rbx
	movq	200(%rsp), %rcx
	movq	%r15, %rdx
	movq	48(%rsp), %rsi
	testq	%rcx, %rcx
	jne	.LBB38_56
	jmp	.LBB38_920
.LBB38_948:
	cmpb	$-126, %r8b
	jne	.LBB38_968
	cmpq	$1, %rdi
	jbe	.LBB38_973
	movzbl	2(%rcx), %r8d
	testq	%r8, %r8
	je	.LBB38_973
	leaq	-4(%rax), %rdi
	shll	$8, %r8d
	movzbl	3(%rcx), %r9d
	orq	%r8, %r9
	subq	%r9, %rdi
	jb	.LBB38_973
	movq	%r9, 168(%rsp)
	addq	$4, %rcx
	movq	%rcx, 96(%rsp)
	jmp	.LBB38_975
.LBB38_953:
	ud2
.LBB38_954:
	movl	$1, %eax
	movq	%rax, 80(%rsp)
.LBB38_955:
	cmpq	$2, %rcx
	jb	.LBB38_1012
	cmpb	$2, (%r9)
	jne	.LBB38_1012
	leaq	2(%r9), %rax
	movq	%rax, 96(%rsp)
	leaq	-2(%rcx), %rax
	movsbq	1(%r9), %rdi
	testq	%rdi, %rdi
	js	.LBB38_960
	subq	%rdi, %rax
	jb	.LBB38_1012
	movq	96(%rsp), %rcx
	addq	%rdi, %rcx
	jmp	.LBB38_1014
.LBB38_960:
	cmpb	$-126, %dil
	jne	.LBB38_1007
	cmpq	$1, %rax
	jbe	.LBB38_1012
	movzbl	2(%r9), %edi
	testq	%rdi, %rdi
	je	.LBB38_1012
	leaq	-4(%rcx), %rax
	shll	$8, %edi
	movzbl	3(%r9), %r8d
	orq	%rdi, %r8
	subq	%r8, %rax
	jb	.LBB38_1012
	addq	$4, %r9
	movq	%r8, 120(%rsp)
	leaq	(%r9,%r8), %rcx
	movq	%r9, 96(%rsp)
	jmp	.LBB38_1015
.LBB38_965:
	movq	8(%r13), %rcx
	movq	%rcx, 432(%rsp)
	movq	%rax, 448(%rsp)
	movl	$1, %eax
.LBB38_966:
	movq	%rax, 440(%rsp)
	movq	%rsp, %rdi
	leaq	432(%rsp), %rcx
	movl	$1, %esi
	movq	%r14, %rdx
	callq	_RINvNtCs00000000002_5alloc7raw_vec11finish_growNtNtB4_5alloc6GlobalECs00000000001_10pkcs1_tool
	cmpl	$1, (%rsp)
	je	.LBB38_847
	movq	8(%rsp), %rax
	movq	%r13, %r12
	movq	%rax, 8(%r13)
	movq	%r14, (%r13)
	movq	48(%rsp), %rdi
	movq	24(%rsp), %rcx
	jmp	.LBB38_723
.LBB38_968:
	testq	%rdi, %rdi
	je	.LBB38_973
	movq	%r9, %r10
	movq	%r8, %r9
	cmpb	$-127, %r9b
	jne	.LBB38_973
	movzbl	(%r10), %r8d
	testb	%r8b, %r8b
	jns	.LBB38_973
	leaq	-3(%rax), %rdi
	subq	%r8, %rdi
	jb	.LBB38_973
	movq	%r8, 168(%rsp)
	addq	$3, %rcx
	movq	%rcx, 96(%rsp)
	jmp	.LBB38_975
.LBB38_973:
	movq	%rsi, 48(%rsp)
	movq	%rdx, %r15
	leaq	176(%rsp), %rdi
	movq	%rcx, %rsi
	movq	%rax, %rdx
	movl	$160, %ecx
	callq	_RNvNtNtNtCs00000000001_10pkcs1_tool6proved8der_core5split14split_unlikely
	movq	176(%rsp), %rcx
	movq	%rcx, 96(%rsp)
	testq	%rcx, %rcx
	je	.LBB38_56
	movq	184(%rsp), %rax
	movq	%rax, 168(%rsp)
	movq	200(%rsp), %rdi
	movq	%r15, %rdx
	movq	48(%rsp), %rsi
.LBB38_975:
	testq	%rdi, %rdi
	jne	.LBB38_56
.LBB38_976:
	testq	%rbp, %rbp
	jne	.LBB38_56
	movq	%rsi, 48(%rsp)
	movq	%rdx, 672(%rsp)
	pxor	%xmm0, %xmm0
	movdqa	%xmm0, 192(%rsp)
	movdqa	%xmm0, 176(%rsp)
	movq	$0, 207(%rsp)
	cmpq	$40, %r12
	jae	.LBB38_1200
	leaq	176(%rsp), %rdi
	movq	%r14, %rsi
	movq	%r12, %rdx
	callq	memcpy
	cmpq	$4, %r12
	jb	.LBB38_56
	cmpb	$42, 176(%rsp)
	jne	.LBB38_56
	cmpb	$-122, 177(%rsp)
	jne	.LBB38_56
	cmpb	$72, 178(%rsp)
	jne	.LBB38_56
	cmpq	$9, %r12
	jne	.LBB38_56
	cmpb	$-122, 179(%rsp)
	jne	.LBB38_56
	cmpb	$-9, 180(%rsp)
	jne	.LBB38_56
	cmpb	$13, 181(%rsp)
	jne	.LBB38_56
	cmpq	$0, 32(%rsp)
	je	.LBB38_56
	cmpb	$1, 182(%rsp)
	jne	.LBB38_56
	cmpb	$1, 183(%rsp)
	jne	.LBB38_56
	cmpb	$1, 184(%rsp)
	jne	.LBB38_56
	cmpb	$5, 40(%rsp)
	jne	.LBB38_56
	movzbl	%bl, %eax
	movq	88(%rsp), %rcx
	orq	80(%rsp), %rcx
	orq	%rax, %rcx
	jne	.LBB38_56
	movq	24(%rsp), %rax
	shrq	$32, %rax
	jne	.LBB38_56
	cmpq	$2, 24(%rsp)
	jb	.LBB38_1001
	movq	56(%rsp), %rax
	cmpb	$48, (%rax)
	jne	.LBB38_1001
	movq	56(%rsp), %rcx
	leaq	2(%rcx), %rsi
	movq	24(%rsp), %rax
	leaq	-2(%rax), %r14
	movsbq	1(%rcx), %rdx
	testq	%rdx, %rdx
	js	.LBB38_1088
	subq	%rdx, %r14
	jae	.LBB38_1003
	jmp	.LBB38_1001
.LBB38_1004:
	movq	48(%rsp), %rcx
	movq	8(%rcx), %rcx
	movq	%rcx, (%rsp)
	movq	%rax, 16(%rsp)
	movl	$1, %eax
.LBB38_1005:
	movq	%rax, 8(%rsp)
	leaq	128(%rsp), %rdi
	movq	%rsp, %rcx
	movl	$1, %esi
	movq	%r15, %rdx
	callq	_RINvNtCs00000000002_5alloc7raw_vec11finish_growNtNtB4_5alloc6GlobalECs00000000001_10pkcs1_tool
	cmpl	$1, 128(%rsp)
	je	.LBB38_847
	movq	136(%rsp), %rax
	movq	48(%rsp), %rdx
	movq	%rax, 8(%rdx)
	movq	%r15, (%rdx)
	jmp	.LBB38_752
.LBB38_1007:
	testq	%rax, %rax
	je	.LBB38_1012
	movq	%rdi, %r8
	cmpb	$-127, %r8b
	jne	.LBB38_1012
	movq	96(%rsp), %rax
	movzbl	(%rax), %edi
	testb	%dil, %dil
	jns	.LBB38_1012
	leaq	-3(%rcx), %rax
	subq	%rdi, %rax
	jb	.LBB38_1012
	addq	$3, %r9
	movq	%rdi, 120(%rsp)
	leaq	(%r9,%rdi), %rcx
	movq	%r9, 96(%rsp)
	jmp	.LBB38_1015
.LBB38_1012:
	movq	%r11, 88(%rsp)
	movq	%r10, 32(%rsp)
	movq	%rsi, %rbx
	movq	%rdx, %r15
	leaq	176(%rsp), %rdi
	movq	%r9, %rsi
	movq	%rcx, %rdx
	movl	$2, %ecx
	callq	_RNvNtNtNtCs00000000001_10pkcs1_tool6proved8der_core5split14split_unlikely
	movq	176(%rsp), %rax
	movq	%rax, 96(%rsp)
	testq	%rax, %rax
	je	.LBB38_56
	movq	184(%rsp), %rdi
	movq	192(%rsp), %rcx
	movq	200(%rsp), %rax
	movq	%r15, %rdx
	movq	%rbx, %rsi
	movq	32(%rsp), %r10
	movq	88(%rsp), %r11
.LBB38_1014:
	movq	%rdi, 120(%rsp)
	testq	%rdi, %rdi
	je	.LBB38_56
.LBB38_1015:
	movq	96(%rsp), %rdi
	cmpb	$0, (%rdi)
	je	.LBB38_1017
	jns	.LBB38_1021
	jmp	.LBB38_56
.LBB38_1017:
	decq	120(%rsp)
	je	.LBB38_1020
	movq	96(%rsp), %rdi
	cmpb	$0, 1(%rdi)
	jns	.LBB38_56
	incq	96(%rsp)
	jmp	.LBB38_1021
.LBB38_1020:
	movl	$1, %edi
	movq	%rdi, 120(%rsp)
.LBB38_1021:
	movq	%r10, 32(%rsp)
	movq	%r11, 88(%rsp)
	movq	%rsi, 48(%rsp)
	movq	%rdx, 672(%rsp)
	cmpq	$2, %rax
	jb	.LBB38_1044
	cmpb	$2, (%rcx)
	jne	.LBB38_1044
	leaq	2(%rcx), %rdx
	movq	%rdx, 72(%rsp)
	leaq	-2(%rax), %rdx
	movsbq	1(%rcx), %rsi
	movq	%rsi, %r15
	testq	%rsi, %rsi
	js	.LBB38_1026
	subq	%r15, %rdx
	jb	.LBB38_1044
	movq	72(%rsp), %rax
	leaq	(%rax,%r15), %rsi
	jmp	.LBB38_1046
.LBB38_1026:
	cmpb	$-126, %r15b
	jne	.LBB38_1038
	cmpq	$1, %rdx
	jbe	.LBB38_1044
	movzbl	2(%rcx), %esi
	testq	%rsi, %rsi
	je	.LBB38_1044
	leaq	-4(%rax), %rdx
	shll	$8, %esi
	movzbl	3(%rcx), %edi
	orq	%rsi, %rdi
	subq	%rdi, %rdx
	jb	.LBB38_1044
	movq	%rdi, %r15
	addq	$4, %rcx
	jmp	.LBB38_1043
.LBB38_1031:
	movq	48(%rsp), %rax
	movq	8(%rax), %rax
	movq	%rax, (%rsp)
	movq	%r14, 16(%rsp)
	movl	$1, %eax
.LBB38_1032:
	movq	%rax, 8(%rsp)
	leaq	128(%rsp), %rdi
	movq	%rsp, %rcx
	movl	$1, %esi
	movq	%r15, %rdx
	callq	_RINvNtCs00000000002_5alloc7raw_vec11finish_growNtNtB4_5alloc6GlobalECs00000000001_10pkcs1_tool
	cmpl	$1, 128(%rsp)
	je	.LBB38_847
	movq	136(%rsp), %rax
	movq	48(%rsp), %r13
	movq	%rax, 8(%r13)
	movq	%r15, (%r13)
	movzbl	56(%rsp), %esi
.LBB38_1034:
	movl	88(%rsp), %eax
	addb	%bpl, %al
	addb	%al, %sil
	incb	%sil
	cmpq	%r15, %r14
	jne	.LBB38_1036
	movl	%esi, %ebx
	movq	%r13, %rdi
	callq	_ZN5alloc7raw_vec19RawVec$LT$T$C$A$GT$8grow_one17h0000000000000003E
	movl	%ebx, %esi
.LBB38_1036:
	movq	8(%r13), %rax
	movb	$49, (%rax,%r14)
	incq	%r14
	movq	%r14, 16(%r13)
	movzbl	%sil, %edi
	movq	32(%rsp), %rsi
.LBB38_1037:
	movq	%r12, %rdx
	movq	%r13, %rcx
	callq	_RNvNtNtNtCs00000000001_10pkcs1_tool4tool13pkcs1_program14parameter_text12put_spelling
	jmp	.LBB38_357
.LBB38_1038:
	testq	%rdx, %rdx
	je	.LBB38_1044
	cmpb	$-127, %r15b
	jne	.LBB38_1044
	movq	72(%rsp), %rdx
	movzbl	(%rdx), %edx
	testb	%dl, %dl
	jns	.LBB38_1044
	movq	%rdx, %r15
	leaq	-3(%rax), %rdx
	subq	%r15, %rdx
	jb	.LBB38_1044
	addq	$3, %rcx
.LBB38_1043:
	leaq	(%rcx,%r15), %rsi
	movq	%rcx, 72(%rsp)
	jmp	.LBB38_1047
.LBB38_1044:
	leaq	176(%rsp), %rdi
	movq	%rcx, %rsi
	movq	%rax, %rdx
	movl	$2, %ecx
	callq	_RNvNtNtNtCs00000000001_10pkcs1_tool6proved8der_core5split14split_unlikely
	movq	176(%rsp), %rax
	movq	%rax, 72(%rsp)
	testq	%rax, %rax
	je	.LBB38_56
	movq	184(%rsp), %r15
	movq	192(%rsp), %rsi
	movq	200(%rsp), %rdx
.LBB38_1046:
	testq	%r15, %r15
	je	.LBB38_56
.LBB38_1047:
	movq	72(%rsp), %rax
	cmpb	$0, (%rax)
	je	.LBB38_1049
	jns	.LBB38_1053
	jmp	.LBB38_56
.LBB38_1049:
	decq	%r15
	je	.LBB38_1052
	movq	72(%rsp), %rax
	cmpb	$0, 1(%rax)
	jns	.LBB38_56
	incq	72(%rsp)
	jmp	.LBB38_1053
.LBB38_1052:
	movl	$1, %r15d
.LBB38_1053:
	cmpq	$2, %rdx
	jb	.LBB38_1069
	cmpb	$2, (%rsi)
	jne	.LBB38_1069
	leaq	2(%rsi), %rax
	movq	%rax, 112(%rsp)
	leaq	-2(%rdx), %rax
	movsbq	1(%rsi), %rbx
	testq	%rbx, %rbx
	js	.LBB38_1058
	subq	%rbx, %rax
	jb	.LBB38_1069
	movq	112(%rsp), %rcx
	addq	%rbx, %rcx
	jmp	.LBB38_1071
.LBB38_1058:
	cmpb	$-126, %bl
	jne	.LBB38_1063
	cmpq	$1, %rax
	jbe	.LBB38_1069
	movzbl	2(%rsi), %ecx
	testq	%rcx, %rcx
	je	.LBB38_1069
	leaq	-4(%rdx), %rax
	shll	$8, %ecx
	movzbl	3(%rsi), %ebx
	orq	%rcx, %rbx
	subq	%rbx, %rax
	jb	.LBB38_1069
	addq	$4, %rsi
	jmp	.LBB38_1068
.LBB38_1063:
	testq	%rax, %rax
	je	.LBB38_1069
	cmpb	$-127, %bl
	jne	.LBB38_1069
	movq	112(%rsp), %rax
	movzbl	(%rax), %ebx
	testb	%bl, %bl
	jns	.LBB38_1069
	leaq	-3(%rdx), %rax
	subq	%rbx, %rax
	jb	.LBB38_1069
	addq	$3, %rsi
.LBB38_1068:
	leaq	(%rsi,%rbx), %rcx
	movq	%rsi, 112(%rsp)
	jmp	.LBB38_1072
.LBB38_1069:
	leaq	176(%rsp), %rdi
	movl	$2, %ecx
	callq	_RNvNtNtNtCs00000000001_10pkcs1_tool6proved8der_core5split14split_unlikely
	movq	176(%rsp), %rax
	movq	%rax, 112(%rsp)
	testq	%rax, %rax
	je	.LBB38_56
	movq	184(%rsp), %rbx
	movq	192(%rsp), %rcx
	movq	200(%rsp), %rax
.LBB38_1071:
	testq	%rbx, %rbx
	je	.LBB38_56
.LBB38_1072:
	movq	112(%rsp), %rdx
	cmpb	$0, (%rdx)
	je	.LBB38_1074
	jns	.LBB38_1078
	jmp	.LBB38_56
.LBB38_1074:
	decq	%rbx
	je	.LBB38_1077
	movq	112(%rsp), %rdx
	cmpb	$0, 1(%rdx)
	jns	.LBB38_56
	incq	112(%rsp)
	jmp	.LBB38_1078
.LBB38_1077:
	movl	$1, %ebx
.LBB38_1078:
	cmpq	$2, %rax
	jb	.LBB38_1099
	cmpb	$2, (%rcx)
	jne	.LBB38_1099
	leaq	2(%rcx), %rdx
	movq	%rdx, 104(%rsp)
	leaq	-2(%rax), %rdx
	movsbq	1(%rcx), %rdi
	movq	%rdi, 64(%rsp)
	testq	%rdi, %rdi
	js	.LBB38_1083
	subq	64(%rsp), %rdx
	jb	.LBB38_1099
	movq	64(%rsp), %rax
	movq	104(%rsp), %rcx
	leaq	(%rcx,%rax), %rsi
	jmp	.LBB38_1101
.LBB38_1083:
	cmpb	$-126, 64(%rsp)
	jne	.LBB38_1093
	cmpq	$1, %rdx
	jbe	.LBB38_1099
	movzbl	2(%rcx), %esi
	testq	%rsi, %rsi
	je	.LBB38_1099
	leaq	-4(%rax), %rdx
	shll	$8, %esi
	movzbl	3(%rcx), %edi
	orq	%rsi, %rdi
	movq	%rdi, 64(%rsp)
	subq	%rdi, %rdx
	jb	.LBB38_1099
	addq	$4, %rcx
	jmp	.LBB38_1098
.LBB38_1088:
	cmpb	$-126, %dl
	jne	.LBB38_1113
	cmpq	$1, %r14
	jbe	.LBB38_1001
	movq	56(%rsp), %rax
	movzbl	2(%rax), %eax
	testq	%rax, %rax
	je	.LBB38_1001
	movq	24(%rsp), %rcx
	leaq	-4(%rcx), %r14
	shll	$8, %eax
	movq	56(%rsp), %rcx
	movzbl	3(%rcx), %edx
	orq	%rax, %rdx
	subq	%rdx, %r14
	jb	.LBB38_1001
	movq	56(%rsp), %rax
	leaq	4(%rax), %rsi
	jmp	.LBB38_1118
.LBB38_1093:
	testq	%rdx, %rdx
	je	.LBB38_1099
	cmpb	$-127, 64(%rsp)
	jne	.LBB38_1099
	movq	104(%rsp), %rdx
	movzbl	(%rdx), %esi
	movq	%rsi, 64(%rsp)
	testb	%sil, %sil
	jns	.LBB38_1099
	leaq	-3(%rax), %rdx
	subq	64(%rsp), %rdx
	jb	.LBB38_1099
	addq	$3, %rcx
.LBB38_1098:
	movq	64(%rsp), %rax
	leaq	(%rcx,%rax), %rsi
	movq	%rcx, 104(%rsp)
	jmp	.LBB38_1102
.LBB38_1099:
	leaq	176(%rsp), %rdi
	movq	%rcx, %rsi
	movq	%rax, %rdx
	movl	$2, %ecx
	callq	_RNvNtNtNtCs00000000001_10pkcs1_tool6proved8der_core5split14split_unlikely
	movq	176(%rsp), %rax
	movq	%rax, 104(%rsp)
	testq	%rax, %rax
	je	.LBB38_56
	movq	184(%rsp), %rax
	movq	%rax, 64(%rsp)
	movq	192(%rsp), %rsi
	movq	200(%rsp), %rdx
.LBB38_1101:
	cmpq	$0, 64(%rsp)
	je	.LBB38_56
.LBB38_1102:
	movq	104(%rsp), %rax
	cmpb	$0, (%rax)
	je	.LBB38_1104
	jns	.LBB38_1108
	jmp	.LBB38_56
.LBB38_1104:
	decq	64(%rsp)
	je	.LBB38_1107
	movq	104(%rsp), %rax
	cmpb	$0, 1(%rax)
	jns	.LBB38_56
	incq	104(%rsp)
	jmp	.LBB38_1108
.LBB38_1107:
	movl	$1, %eax
	movq	%rax, 64(%rsp)
.LBB38_1108:
	testq	%rdx, %rdx
	je	.LBB38_1110
	movzbl	%bpl, %ecx
	andl	$1, %ecx
	leaq	176(%rsp), %rdi
	jmp	.LBB38_1112
.LBB38_1110:
	testb	$1, %bpl
	je	.LBB38_1136
	leaq	176(%rsp), %rdi
	xorl	%edx, %edx
	movl	$1, %ecx
.LBB38_1112:
	callq	_RNvNtNtNtCs00000000001_10pkcs1_tool6proved5pkcs110viewed_key9read_list
	cmpb	$1, 176(%rsp)
	je	.LBB38_56
	jmp	.LBB38_1137
.LBB38_1113:
	testq	%r14, %r14
	je	.LBB38_1001
	cmpb	$-127, %dl
	jne	.LBB38_1001
	movzbl	(%rsi), %edx
	testb	%dl, %dl
	jns	.LBB38_1001
	movq	24(%rsp), %rax
	leaq	-3(%rax), %r14
	subq	%rdx, %r14
	jb	.LBB38_1001
	movq	56(%rsp), %rax
	leaq	3(%rax), %rsi
	jmp	.LBB38_1118
.LBB38_1001:
	leaq	176(%rsp), %rdi
	movq	56(%rsp), %rsi
	movq	24(%rsp), %rdx
	movl	$48, %ecx
	callq	_RNvNtNtNtCs00000000001_10pkcs1_tool6proved8der_core5split14split_unlikely
	movq	176(%rsp), %rsi
	testq	%rsi, %rsi
	je	.LBB38_56
	movq	184(%rsp), %rdx
	movq	200(%rsp), %r14
.LBB38_1003:
	cmpq	$2, %rdx
	jb	.LBB38_1198
.LBB38_1118:
	cmpb	$2, (%rsi)
	jne	.LBB38_1198
	leaq	2(%rsi), %rdi
	leaq	-2(%rdx), %rax
	movsbq	1(%rsi), %r8
	testq	%r8, %r8
	js	.LBB38_1128
	subq	%r8, %rax
	jb	.LBB38_1198
	leaq	(%rdi,%r8), %rcx
	cmpq	$1, %r8
	jne	.LBB38_56
.LBB38_1122:
	movzbl	(%rdi), %ebp
	cmpb	$2, %bpl
	jae	.LBB38_56
	cmpq	$2, %rax
	jb	.LBB38_1161
	cmpb	$2, (%rcx)
	jne	.LBB38_1161
	leaq	2(%rcx), %r12
	leaq	-2(%rax), %rdx
	movsbq	1(%rcx), %r15
	testq	%r15, %r15
	js	.LBB38_1150
	subq	%r15, %rdx
	jb	.LBB38_1161
	leaq	(%r12,%r15), %rsi
	jmp	.LBB38_1163
.LBB38_1128:
	cmpb	$-126, %r8b
	jne	.LBB38_1132
	cmpq	$1, %rax
	jbe	.LBB38_1198
	movzbl	(%rdi), %eax
	testq	%rax, %rax
	je	.LBB38_1198
	leaq	-4(%rdx), %rcx
	shll	$8, %eax
	movzbl	3(%rsi), %edi
	orq	%rax, %rdi
	cmpq	%rcx, %rdi
	jbe	.LBB38_56
	jmp	.LBB38_1198
.LBB38_1132:
	testq	%rax, %rax
	je	.LBB38_1197
	cmpb	$-127, %r8b
	jne	.LBB38_1198
	movzbl	(%rdi), %eax
	testb	%al, %al
	jns	.LBB38_1198
	leaq	-3(%rdx), %rcx
	cmpq	%rax, %rcx
	jae	.LBB38_56
	jmp	.LBB38_1198
.LBB38_1136:
	movq	$0, 184(%rsp)
.LBB38_1137:
	movq	200(%rsp), %rax
	movq	%rax, 452(%rsp)
	movdqu	184(%rsp), %xmm0
	movdqu	%xmm0, 436(%rsp)
	movq	%rax, 16(%rsp)
	movdqa	%xmm0, (%rsp)
	testq	%r12, %r12
	jne	.LBB38_56
	movq	16(%rsp), %rax
	movq	%rax, 336(%rsp)
	movdqa	(%rsp), %xmm0
	movdqu	%xmm0, 320(%rsp)
	movq	48(%rsp), %rax
	movq	%rax, 176(%rsp)
	movq	672(%rsp), %rax
	movq	%rax, 184(%rsp)
	movq	32(%rsp), %rax
	movq	%rax, 192(%rsp)
	movl	%r14d, %eax
	shrl	$8, %eax
	movb	%r14b, 200(%rsp)
	movw	%ax, 201(%rsp)
	movq	%r14, %rax
	shrq	$56, %r14
	movb	%r14b, 207(%rsp)
	shrq	$24, %rax
	movl	%eax, 203(%rsp)
	movq	56(%rsp), %rax
	movq	%rax, 208(%rsp)
	movq	88(%rsp), %rax
	movq	%rax, 216(%rsp)
	movq	24(%rsp), %rax
	movq	%rax, 224(%rsp)
	movq	168(%rsp), %rax
	movq	%rax, 232(%rsp)
	movq	40(%rsp), %rax
	movq	%rax, 240(%rsp)
	movq	80(%rsp), %rax
	movq	%rax, 248(%rsp)
	movq	96(%rsp), %rax
	movq	%rax, 256(%rsp)
	movq	120(%rsp), %rax
	movq	%rax, 264(%rsp)
	movq	72(%rsp), %rax
	movq	%rax, 272(%rsp)
	movq	%r15, 280(%rsp)
	movq	112(%rsp), %rax
	movq	%rax, 288(%rsp)
	movq	%rbx, 296(%rsp)
	movq	104(%rsp), %rax
	movq	%rax, 304(%rsp)
	movq	64(%rsp), %rax
	movq	%rax, 312(%rsp)
	movq	(%r13), %rax
	movq	16(%r13), %r14
	movq	%rax, %rcx
	subq	%r14, %rcx
	cmpq	$4, %rcx
	jae	.LBB38_1143
	movb	$1, %bl
	cmpq	$-5, %r14
	ja	.LBB38_847
	leaq	4(%r14), %r15
	leaq	(%rax,%rax), %rcx
	cmpq	%r15, %rcx
	cmovbeq	%r15, %rcx
	cmpq	$9, %rcx
	movl	$8, %r12d
	cmovaeq	%rcx, %r12
	testq	%r12, %r12
	js	.LBB38_847
	testq	%rax, %rax
	jne	.LBB38_1237
	xorl	%eax, %eax
	jmp	.LBB38_1238
.LBB38_1143:
	movq	8(%r13), %rax
	leaq	4(%r14), %r15
.LBB38_1144:
	movl	$1986622064, (%rax,%r14)
	movq	%r13, %rsi
	movq	%r15, 16(%r13)
	leaq	176(%rsp), %rdi
	callq	_RNvNtNtNtCs00000000001_10pkcs1_tool4tool13pkcs1_program4keys7put_key
	movb	$1, %bl
	testb	%al, %al
	jne	.LBB38_847
	movq	(%r13), %rax
	movq	16(%r13), %r14
	movq	%rax, %rcx
	subq	%r14, %rcx
	cmpq	$7, %rcx
	jae	.LBB38_1169
	cmpq	$-8, %r14
	ja	.LBB38_847
	leaq	7(%r14), %r15
	leaq	(%rax,%rax), %rcx
	cmpq	%r15, %rcx
	cmovbeq	%r15, %rcx
	cmpq	$9, %rcx
	movl	$8, %r12d
	cmovaeq	%rcx, %r12
	testq	%r12, %r12
	js	.LBB38_847
	testq	%rax, %rax
	jne	.LBB38_1280
	xorl	%eax, %eax
	jmp	.LBB38_1281
.LBB38_1150:
	cmpb	$-126, %r15b
	jne	.LBB38_1155
	cmpq	$1, %rdx
	jbe	.LBB38_1161
	movzbl	2(%rcx), %esi
	testq	%rsi, %rsi
	je	.LBB38_1161
	leaq	-4(%rax), %rdx
	shll	$8, %esi
	movzbl	3(%rcx), %r15d
	orq	%rsi, %r15
	subq	%r15, %rdx
	jb	.LBB38_1161
	addq	$4, %rcx
	jmp	.LBB38_1160
.LBB38_1155:
	testq	%rdx, %rdx
	je	.LBB38_1161
	cmpb	$-127, %r15b
	jne	.LBB38_1161
	movzbl	(%r12), %r15d
	testb	%r15b, %r15b
	jns	.LBB38_1161
	leaq	-3(%rax), %rdx
	subq	%r15, %rdx
	jb	.LBB38_1161
	addq	$3, %rcx
.LBB38_1160:
	leaq	(%rcx,%r15), %rsi
	movq	%rcx, %r12
	jmp	.LBB38_1164
.LBB38_1161:
	leaq	176(%rsp), %rdi
	movq	%rcx, %rsi
	movq	%rax, %rdx
	movl	$2, %ecx
	callq	_RNvNtNtNtCs00000000001_10pkcs1_tool6proved8der_core5split14split_unlikely
	movq	176(%rsp), %r12
	testq	%r12, %r12
	je	.LBB38_56
	movq	184(%rsp), %r15
	movq	192(%rsp), %rsi
	movq	200(%rsp), %rdx
.LBB38_1163:
	testq	%r15, %r15
	je	.LBB38_56
.LBB38_1164:
	cmpb	$0, (%r12)
	je	.LBB38_1166
	jns	.LBB38_1173
	jmp	.LBB38_56
.LBB38_1166:
	decq	%r15
	je	.LBB38_1172
	cmpb	$0, 1(%r12)
	jns	.LBB38_56
	incq	%r12
	jmp	.LBB38_1173
.LBB38_1169:
	movq	8(%r13), %rax
	leaq	7(%r14), %r15
.LBB38_1170:
	movl	$1030646113, 3(%rax,%r14)
	movl	$1634165024, (%rax,%r14)
	movq	%r15, 16(%r13)
.LBB38_1171:
	movq	48(%rsp), %rdi
	movq	672(%rsp), %rsi
	movq	%r13, %rdx
	callq	_RNvNtNtNtCs00000000001_10pkcs1_tool4tool13pkcs1_program6digits7put_hex
	jmp	.LBB38_357
.LBB38_1172:
	movl	$1, %r15d
.LBB38_1173:
	cmpq	$2, %rdx
	jb	.LBB38_1189
	cmpb	$2, (%rsi)
	jne	.LBB38_1189
	leaq	2(%rsi), %rax
	movq	%rax, 32(%rsp)
	leaq	-2(%rdx), %rax
	movsbq	1(%rsi), %rcx
	movq	%rcx, %rbx
	testq	%rcx, %rcx
	js	.LBB38_1178
	subq	%rbx, %rax
	jb	.LBB38_1189
	movq	32(%rsp), %rcx
	addq	%rbx, %rcx
	jmp	.LBB38_1191
.LBB38_1178:
	cmpb	$-126, %bl
	jne	.LBB38_1183
	cmpq	$1, %rax
	jbe	.LBB38_1189
	movzbl	2(%rsi), %ecx
	testq	%rcx, %rcx
	je	.LBB38_1189
	leaq	-4(%rdx), %rax
	shll	$8, %ecx
	movzbl	3(%rsi), %edi
	orq	%rcx, %rdi
	subq	%rdi, %rax
	jb	.LBB38_1189
	movq	%rdi, %rbx
	addq	$4, %rsi
	jmp	.LBB38_1188
.LBB38_1183:
	testq	%rax, %rax
	je	.LBB38_1189
	cmpb	$-127, %bl
	jne	.LBB38_1189
	movq	32(%rsp), %rax
	movzbl	(%rax), %eax
	testb	%al, %al
	jns	.LBB38_1189
	movq	%rax, %rbx
	leaq	-3(%rdx), %rax
	subq	%rbx, %rax
	jb	.LBB38_1189
	addq	$3, %rsi
.LBB38_1188:
	leaq	(%rsi,%rbx), %rcx
	movq	%rsi, 32(%rsp)
	jmp	.LBB38_1192
.LBB38_1189:
	leaq	176(%rsp), %rdi
	movl	$2, %ecx
	callq	_RNvNtNtNtCs00000000001_10pkcs1_tool6proved8der_core5split14split_unlikely
	movq	176(%rsp), %rax
	movq	%rax, 32(%rsp)
	testq	%rax, %rax
	je	.LBB38_56
	movq	184(%rsp), %rbx
	movq	192(%rsp), %rcx
	movq	200(%rsp), %rax
.LBB38_1191:
	testq	%rbx, %rbx
	je	.LBB38_56
.LBB38_1192:
	movq	32(%rsp), %rdx
	cmpb	$0, (%rdx)
	je	.LBB38_1194
	jns	.LBB38_1202
	jmp	.LBB38_56
.LBB38_1194:
	decq	%rbx
	je	.LBB38_1201
	movq	32(%rsp), %rdx
	cmpb	$0, 1(%rdx)
	jns	.LBB38_56
	incq	32(%rsp)
	jmp	.LBB38_1202
.LBB38_1197:
	movl	$2, %edx
.LBB38_1198:
	leaq	176(%rsp), %rdi
	movl	$2, %ecx
	callq	_RNvNtNtNtCs00000000001_10pkcs1_tool6proved8der_core5split14split_unlikely
	movq	176(%rsp), %rdi
	testq	%rdi, %rdi
	je	.LBB38_56
	movq	184(%rsp), %r8
	movq	192(%rsp), %rcx
	movq	200(%rsp), %rax
	cmpq	$1, %r8
	jne	.LBB38_56
	jmp	.LBB38_1122
.LBB38_1200:
	movl	$39, %esi
	movq	%r12, %rdi
	ud2
.LBB38_1201:
	movl	$1, %ebx
.LBB38_1202:
	cmpq	$2, %rax
	jb	.LBB38_1218
	cmpb	$2, (%rcx)
	jne	.LBB38_1218
	leaq	2(%rcx), %rdx
	movq	%rdx, 88(%rsp)
	leaq	-2(%rax), %rdx
	movsbq	1(%rcx), %rdi
	movq	%rdi, 40(%rsp)
	testq	%rdi, %rdi
	js	.LBB38_1207
	subq	40(%rsp), %rdx
	jb	.LBB38_1218
	movq	40(%rsp), %rax
	movq	88(%rsp), %rcx
	leaq	(%rcx,%rax), %rsi
	jmp	.LBB38_1220
.LBB38_1207:
	cmpb	$-126, 40(%rsp)
	jne	.LBB38_1212
	cmpq	$1, %rdx
	jbe	.LBB38_1218
	movzbl	2(%rcx), %esi
	testq	%rsi, %rsi
	je	.LBB38_1218
	leaq	-4(%rax), %rdx
	shll	$8, %esi
	movzbl	3(%rcx), %edi
	orq	%rsi, %rdi
	movq	%rdi, 40(%rsp)
	subq	%rdi, %rdx
	jb	.LBB38_1218
	addq	$4, %rcx
	jmp	.LBB38_1217
.LBB38_1212:
	testq	%rdx, %rdx
	je	.LBB38_1218
	cmpb	$-127, 40(%rsp)
	jne	.LBB38_1218
	movq	88(%rsp), %rdx
	movzbl	(%rdx), %esi
	movq	%rsi, 40(%rsp)
	testb	%sil, %sil
	jns	.LBB38_1218
	leaq	-3(%rax), %rdx
	subq	40(%rsp), %rdx
	jb	.LBB38_1218
	addq	$3, %rcx
.LBB38_1217:
	movq	40(%rsp), %rax
	leaq	(%rcx,%rax), %rsi
	movq	%rcx, 88(%rsp)
	jmp	.LBB38_1221
.LBB38_1218:
	leaq	176(%rsp), %rdi
	movq	%rcx, %rsi
	movq	%rax, %rdx
	movl	$2, %ecx
	callq	_RNvNtNtNtCs00000000001_10pkcs1_tool6proved8der_core5split14split_unlikely
	movq	176(%rsp), %rax
	movq	%rax, 88(%rsp)
	testq	%rax, %rax
	je	.LBB38_56
	movq	184(%rsp), %rax
	movq	%rax, 40(%rsp)
	movq	192(%rsp), %rsi
	movq	200(%rsp), %rdx
.LBB38_1220:
	cmpq	$0, 40(%rsp)
	je	.LBB38_56
.LBB38_1221:
	movq	88(%rsp), %rax
	cmpb	$0, (%rax)
	je	.LBB38_1223
	jns	.LBB38_1227
	jmp	.LBB38_56
.LBB38_1223:
	decq	40(%rsp)
	je	.LBB38_1226
	movq	88(%rsp), %rax
	cmpb	$0, 1(%rax)
	jns	.LBB38_56
	incq	88(%rsp)
	jmp	.LBB38_1227
.LBB38_1226:
	movl	$1, %eax
	movq	%rax, 40(%rsp)
.LBB38_1227:
	cmpq	$2, %rdx
	jb	.LBB38_1246
	cmpb	$2, (%rsi)
	jne	.LBB38_1246
	leaq	2(%rsi), %rax
	movq	%rax, 120(%rsp)
	leaq	-2(%rdx), %rax
	movsbq	1(%rsi), %rdi
	movq	%rdi, 80(%rsp)
	testq	%rdi, %rdi
	js	.LBB38_1232
	subq	80(%rsp), %rax
	jb	.LBB38_1246
	movq	80(%rsp), %rcx
	movq	120(%rsp), %rdx
	addq	%rdx, %rcx
	jmp	.LBB38_1248
.LBB38_1232:
	cmpb	$-126, 80(%rsp)
	jne	.LBB38_1240
	cmpq	$1, %rax
	jbe	.LBB38_1246
	movzbl	2(%rsi), %ecx
	testq	%rcx, %rcx
	je	.LBB38_1246
	leaq	-4(%rdx), %rax
	shll	$8, %ecx
	movzbl	3(%rsi), %edi
	orq	%rcx, %rdi
	movq	%rdi, 80(%rsp)
	subq	%rdi, %rax
	jb	.LBB38_1246
	addq	$4, %rsi
	jmp	.LBB38_1245
.LBB38_1237:
	movq	8(%r13), %rcx
	movq	%rcx, 432(%rsp)
	movq	%rax, 448(%rsp)
	movl	$1, %eax
.LBB38_1238:
	movq	%rax, 440(%rsp)
	movq	%rsp, %rdi
	leaq	432(%rsp), %rcx
	movl	$1, %esi
	movq	%r12, %rdx
	callq	_RINvNtCs00000000002_5alloc7raw_vec11finish_growNtNtB4_5alloc6GlobalECs00000000001_10pkcs1_tool
	cmpl	$1, (%rsp)
	je	.LBB38_847
	movq	8(%rsp), %rax
	movq	%rax, 8(%r13)
	movq	%r12, (%r13)
	jmp	.LBB38_1144
.LBB38_1240:
	testq	%rax, %rax
	je	.LBB38_1246
	cmpb	$-127, 80(%rsp)
	jne	.LBB38_1246
	movq	120(%rsp), %rax
	movzbl	(%rax), %ecx
	movq	%rcx, 80(%rsp)
	testb	%cl, %cl
	jns	.LBB38_1246
	leaq	-3(%rdx), %rax
	subq	80(%rsp), %rax
	jb	.LBB38_1246
	addq	$3, %rsi
.LBB38_1245:
	movq	80(%rsp), %rcx
	addq	%rsi, %rcx
	movq	%rsi, 120(%rsp)
	jmp	.LBB38_1249
.LBB38_1246:
	leaq	176(%rsp), %rdi
	movl	$2, %ecx
	callq	_RNvNtNtNtCs00000000001_10pkcs1_tool6proved8der_core5split14split_unlikely
	movq	176(%rsp), %rax
	movq	%rax, 120(%rsp)
	testq	%rax, %rax
	je	.LBB38_56
	movq	184(%rsp), %rax
	movq	%rax, 80(%rsp)
	movq	192(%rsp), %rcx
	movq	200(%rsp), %rax
.LBB38_1248:
	cmpq	$0, 80(%rsp)
	je	.LBB38_56
.LBB38_1249:
	movq	120(%rsp), %rdx
	cmpb	$0, (%rdx)
	je	.LBB38_1251
	jns	.LBB38_1255
	jmp	.LBB38_56
.LBB38_1251:
	decq	80(%rsp)
	je	.LBB38_1254
	movq	120(%rsp), %rdx
	cmpb	$0, 1(%rdx)
	jns	.LBB38_56
	incq	120(%rsp)
	jmp	.LBB38_1255
.LBB38_1254:
	movl	$1, %edx
	movq	%rdx, 80(%rsp)
.LBB38_1255:
	cmpq	$2, %rax
	jb	.LBB38_1271
	cmpb	$2, (%rcx)
	jne	.LBB38_1271
	leaq	2(%rcx), %rdx
	movq	%rdx, 112(%rsp)
	leaq	-2(%rax), %rdx
	movsbq	1(%rcx), %rdi
	movq	%rdi, 72(%rsp)
	testq	%rdi, %rdi
	js	.LBB38_1260
	subq	72(%rsp), %rdx
	jb	.LBB38_1271
	movq	72(%rsp), %rax
	movq	112(%rsp), %rcx
	leaq	(%rcx,%rax), %rsi
	jmp	.LBB38_1273
.LBB38_1260:
	cmpb	$-126, 72(%rsp)
	jne	.LBB38_1265
	cmpq	$1, %rdx
	jbe	.LBB38_1271
	movzbl	2(%rcx), %esi
	testq	%rsi, %rsi
	je	.LBB38_1271
	leaq	-4(%rax), %rdx
	shll	$8, %esi
	movzbl	3(%rcx), %edi
	orq	%rsi, %rdi
	movq	%rdi, 72(%rsp)
	subq	%rdi, %rdx
	jb	.LBB38_1271
	addq	$4, %rcx
	jmp	.LBB38_1270
.LBB38_1265:
	testq	%rdx, %rdx
	je	.LBB38_1271
	cmpb	$-127, 72(%rsp)
	jne	.LBB38_1271
	movq	112(%rsp), %rdx
	movzbl	(%rdx), %esi
	movq	%rsi, 72(%rsp)
	testb	%sil, %sil
	jns	.LBB38_1271
	leaq	-3(%rax), %rdx
	subq	72(%rsp), %rdx
	jb	.LBB38_1271
	addq	$3, %rcx
.LBB38_1270:
	movq	72(%rsp), %rax
	leaq	(%rcx,%rax), %rsi
	movq	%rcx, 112(%rsp)
	jmp	.LBB38_1274
.LBB38_1271:
	leaq	176(%rsp), %rdi
	movq	%rcx, %rsi
	movq	%rax, %rdx
	movl	$2, %ecx
	callq	_RNvNtNtNtCs00000000001_10pkcs1_tool6proved8der_core5split14split_unlikely
	movq	176(%rsp), %rax
	movq	%rax, 112(%rsp)
	testq	%rax, %rax
	je	.LBB38_56
	movq	184(%rsp), %rax
	movq	%rax, 72(%rsp)
	movq	192(%rsp), %rsi
	movq	200(%rsp), %rdx
.LBB38_1273:
	cmpq	$0, 72(%rsp)
	je	.LBB38_56
.LBB38_1274:
	movq	112(%rsp), %rax
	cmpb	$0, (%rax)
	je	.LBB38_1276
	jns	.LBB38_1284
	jmp	.LBB38_56
.LBB38_1276:
	decq	72(%rsp)
	je	.LBB38_1283
	movq	112(%rsp), %rax
	cmpb	$0, 1(%rax)
	jns	.LBB38_56
	incq	112(%rsp)
	jmp	.LBB38_1284
.LBB38_1279:
	movq	%r12, %rsi
	ud2
.LBB38_1280:
	movq	8(%r13), %rcx
	movq	%rcx, 432(%rsp)
	movq	%rax, 448(%rsp)
	movl	$1, %eax
.LBB38_1281:
	movq	%rax, 440(%rsp)
	movq	%rsp, %rdi
	leaq	432(%rsp), %rcx
	movl	$1, %esi
	movq	%r12, %rdx
	callq	_RINvNtCs00000000002_5alloc7raw_vec11finish_growNtNtB4_5alloc6GlobalECs00000000001_10pkcs1_tool
	cmpl	$1, (%rsp)
	je	.LBB38_847
	movq	8(%rsp), %rax
	movq	%rax, 8(%r13)
	movq	%r12, (%r13)
	jmp	.LBB38_1170
.LBB38_1283:
	movl	$1, %eax
	movq	%rax, 72(%rsp)
.LBB38_1284:
	cmpq	$2, %rdx
	jb	.LBB38_1300
	cmpb	$2, (%rsi)
	jne	.LBB38_1300
	leaq	2(%rsi), %rax
	movq	%rax, 104(%rsp)
	leaq	-2(%rdx), %rax
	movsbq	1(%rsi), %rdi
	movq	%rdi, 64(%rsp)
	testq	%rdi, %rdi
	js	.LBB38_1289
	subq	64(%rsp), %rax
	jb	.LBB38_1300
	movq	64(%rsp), %rcx
	movq	104(%rsp), %rdx
	addq	%rdx, %rcx
	jmp	.LBB38_1302
.LBB38_1289:
	cmpb	$-126, 64(%rsp)
	jne	.LBB38_1294
	cmpq	$1, %rax
	jbe	.LBB38_1300
	movzbl	2(%rsi), %ecx
	testq	%rcx, %rcx
	je	.LBB38_1300
	leaq	-4(%rdx), %rax
	shll	$8, %ecx
	movzbl	3(%rsi), %edi
	orq	%rcx, %rdi
	movq	%rdi, 64(%rsp)
	subq	%rdi, %rax
	jb	.LBB38_1300
	addq	$4, %rsi
	jmp	.LBB38_1299
.LBB38_1294:
	testq	%rax, %rax
	je	.LBB38_1300
	cmpb	$-127, 64(%rsp)
	jne	.LBB38_1300
	movq	104(%rsp), %rax
	movzbl	(%rax), %ecx
	movq	%rcx, 64(%rsp)
	testb	%cl, %cl
	jns	.LBB38_1300
	leaq	-3(%rdx), %rax
	subq	64(%rsp), %rax
	jb	.LBB38_1300
	addq	$3, %rsi
.LBB38_1299:
	movq	64(%rsp), %rcx
	addq	%rsi, %rcx
	movq	%rsi, 104(%rsp)
	jmp	.LBB38_1303
.LBB38_1300:
	leaq	176(%rsp), %rdi
	movl	$2, %ecx
	callq	_RNvNtNtNtCs00000000001_10pkcs1_tool6proved8der_core5split14split_unlikely
	movq	176(%rsp), %rax
	movq	%rax, 104(%rsp)
	testq	%rax, %rax
	je	.LBB38_56
	movq	184(%rsp), %rax
	movq	%rax, 64(%rsp)
	movq	192(%rsp), %rcx
	movq	200(%rsp), %rax
.LBB38_1302:
	cmpq	$0, 64(%rsp)
	je	.LBB38_56
.LBB38_1303:
	movq	104(%rsp), %rdx
	cmpb	$0, (%rdx)
	je	.LBB38_1305
	jns	.LBB38_1309
	jmp	.LBB38_56
.LBB38_1305:
	decq	64(%rsp)
	je	.LBB38_1308
	movq	104(%rsp), %rdx
	cmpb	$0, 1(%rdx)
	jns	.LBB38_56
	incq	104(%rsp)
	jmp	.LBB38_1309
.LBB38_1308:
	movl	$1, %edx
	movq	%rdx, 64(%rsp)
.LBB38_1309:
	cmpq	$2, %rax
	jb	.LBB38_1325
	cmpb	$2, (%rcx)
	jne	.LBB38_1325
	leaq	2(%rcx), %rdx
	movq	%rdx, 424(%rsp)
	leaq	-2(%rax), %rdx
	movsbq	1(%rcx), %rdi
	movq	%rdi, 160(%rsp)
	testq	%rdi, %rdi
	js	.LBB38_1314
	subq	160(%rsp), %rdx
	jb	.LBB38_1325
	movq	160(%rsp), %rax
	movq	424(%rsp), %rcx
	leaq	(%rcx,%rax), %rsi
	jmp	.LBB38_1327
.LBB38_1314:
	cmpb	$-126, 160(%rsp)
	jne	.LBB38_1319
	cmpq	$1, %rdx
	jbe	.LBB38_1325
	movzbl	2(%rcx), %esi
	testq	%rsi, %rsi
	je	.LBB38_1325
	leaq	-4(%rax), %rdx
	shll	$8, %esi
	movzbl	3(%rcx), %edi
	orq	%rsi, %rdi
	movq	%rdi, 160(%rsp)
	subq	%rdi, %rdx
	jb	.LBB38_1325
	addq	$4, %rcx
	jmp	.LBB38_1324
.LBB38_1319:
	testq	%rdx, %rdx
	je	.LBB38_1325
	cmpb	$-127, 160(%rsp)
	jne	.LBB38_1325
	movq	424(%rsp), %rdx
	movzbl	(%rdx), %esi
	movq	%rsi, 160(%rsp)
	testb	%sil, %sil
	jns	.LBB38_1325
	leaq	-3(%rax), %rdx
	subq	160(%rsp), %rdx
	jb	.LBB38_1325
	addq	$3, %rcx
.LBB38_1324:
	movq	160(%rsp), %rax
	leaq	(%rcx,%rax), %rsi
	movq	%rcx, 424(%rsp)
	jmp	.LBB38_1328
.LBB38_1325:
	leaq	176(%rsp), %rdi
	movq	%rcx, %rsi
	movq	%rax, %rdx
	movl	$2, %ecx
	callq	_RNvNtNtNtCs00000000001_10pkcs1_tool6proved8der_core5split14split_unlikely
	movq	176(%rsp), %rax
	movq	%rax, 424(%rsp)
	testq	%rax, %rax
	je	.LBB38_56
	movq	184(%rsp), %rax
	movq	%rax, 160(%rsp)
	movq	192(%rsp), %rsi
	movq	200(%rsp), %rdx
.LBB38_1327:
	cmpq	$0, 160(%rsp)
	je	.LBB38_56
.LBB38_1328:
	movq	424(%rsp), %rax
	cmpb	$0, (%rax)
	je	.LBB38_1330
	jns	.LBB38_1334
	jmp	.LBB38_56
.LBB38_1330:
	decq	160(%rsp)
	je	.LBB38_1333
	movq	424(%rsp), %rax
	cmpb	$0, 1(%rax)
	jns	.LBB38_56
	incq	424(%rsp)
	jmp	.LBB38_1334
.LBB38_1333:
	movl	$1, %eax
	movq	%rax, 160(%rsp)
.LBB38_1334:
	cmpq	$2, %rdx
	jb	.LBB38_1350
	cmpb	$2, (%rsi)
	jne	.LBB38_1350
	leaq	2(%rsi), %rax
	movq	%rax, 416(%rsp)
	leaq	-2(%rdx), %rax
	movsbq	1(%rsi), %rdi
	movq	%rdi, 152(%rsp)
	testq	%rdi, %rdi
	js	.LBB38_1339
	subq	152(%rsp), %rax
	jb	.LBB38_1350
	movq	152(%rsp), %rcx
	movq	416(%rsp), %rdx
	addq	%rcx, %rdx
	jmp	.LBB38_1352
.LBB38_1339:
	cmpb	$-126, 152(%rsp)
	jne	.LBB38_1344
	cmpq	$1, %rax
	jbe	.LBB38_1350
	movzbl	2(%rsi), %ecx
	testq	%rcx, %rcx
	je	.LBB38_1350
	leaq	-4(%rdx), %rax
	shll	$8, %ecx
	movzbl	3(%rsi), %edi
	orq	%rcx, %rdi
	movq	%rdi, 152(%rsp)
	subq	%rdi, %rax
	jb	.LBB38_1350
	addq	$4, %rsi
	jmp	.LBB38_1349
.LBB38_1344:
	testq	%rax, %rax
	je	.LBB38_1350
	cmpb	$-127, 152(%rsp)
	jne	.LBB38_1350
	movq	416(%rsp), %rax
	movzbl	(%rax), %ecx
	movq	%rcx, 152(%rsp)
	testb	%cl, %cl
	jns	.LBB38_1350
	leaq	-3(%rdx), %rax
	subq	152(%rsp), %rax
	jb	.LBB38_1350
	addq	$3, %rsi
.LBB38_1349:
	movq	152(%rsp), %rcx
	leaq	(%rsi,%rcx), %rdx
	movq	%rsi, 416(%rsp)
	jmp	.LBB38_1353
.LBB38_1350:
	leaq	176(%rsp), %rdi
	movl	$2, %ecx
	callq	_RNvNtNtNtCs00000000001_10pkcs1_tool6proved8der_core5split14split_unlikely
	movq	176(%rsp), %rax
	movq	%rax, 416(%rsp)
	testq	%rax, %rax
	je	.LBB38_56
	movq	184(%rsp), %rax
	movq	%rax, 152(%rsp)
	movq	192(%rsp), %rdx
	movq	200(%rsp), %rax
.LBB38_1352:
	cmpq	$0, 152(%rsp)
	je	.LBB38_56
.LBB38_1353:
	movq	416(%rsp), %rcx
	cmpb	$0, (%rcx)
	je	.LBB38_1355
	jns	.LBB38_1359
	jmp	.LBB38_56
.LBB38_1355:
	decq	152(%rsp)
	je	.LBB38_1358
	movq	416(%rsp), %rcx
	cmpb	$0, 1(%rcx)
	jns	.LBB38_56
	incq	416(%rsp)
	jmp	.LBB38_1359
.LBB38_1358:
	movl	$1, %ecx
	movq	%rcx, 152(%rsp)
.LBB38_1359:
	testq	%rax, %rax
	je	.LBB38_1361
	movzbl	%bpl, %ecx
	andl	$1, %ecx
	leaq	176(%rsp), %rdi
	movq	%rdx, %rsi
	movq	%rax, %rdx
	jmp	.LBB38_1363
.LBB38_1361:
	testb	$1, %bpl
	je	.LBB38_1364
	leaq	176(%rsp), %rdi
	movq	%rdx, %rsi
	xorl	%edx, %edx
	movl	$1, %ecx
.LBB38_1363:
	callq	_RNvNtNtNtCs00000000001_10pkcs1_tool6proved5pkcs110viewed_key9read_list
	cmpb	$1, 176(%rsp)
	je	.LBB38_56
	jmp	.LBB38_1365
.LBB38_1364:
	movq	$0, 184(%rsp)
.LBB38_1365:
	movq	200(%rsp), %rax
	movq	%rax, 452(%rsp)
	movups	184(%rsp), %xmm0
	movups	%xmm0, 436(%rsp)
	movq	%rax, 16(%rsp)
	movaps	%xmm0, (%rsp)
	testq	%r14, %r14
	jne	.LBB38_56
	movq	16(%rsp), %rax
	movq	%rax, 336(%rsp)
	movaps	(%rsp), %xmm0
	movups	%xmm0, 320(%rsp)
	movq	56(%rsp), %rax
	movq	%rax, 176(%rsp)
	movq	24(%rsp), %rax
	movq	%rax, 184(%rsp)
	movq	%r12, 192(%rsp)
	movl	%r15d, %eax
	shrl	$8, %eax
	movb	%r15b, 200(%rsp)
	movw	%ax, 201(%rsp)
	movq	%r15, %rax
	shrq	$56, %r15
	movb	%r15b, 207(%rsp)
	shrq	$24, %rax
	movl	%eax, 203(%rsp)
	movq	32(%rsp), %rax
	movq	%rax, 208(%rsp)
	movq	%rbx, 216(%rsp)
	movq	88(%rsp), %rax
	movq	%rax, 224(%rsp)
	movq	40(%rsp), %rax
	movq	%rax, 232(%rsp)
	movq	120(%rsp), %rax
	movq	%rax, 240(%rsp)
	movq	80(%rsp), %rax
	movq	%rax, 248(%rsp)
	movq	112(%rsp), %rax
	movq	%rax, 256(%rsp)
	movq	72(%rsp), %rax
	movq	%rax, 264(%rsp)
	movq	104(%rsp), %rax
	movq	%rax, 272(%rsp)
	movq	64(%rsp), %rax
	movq	%rax, 280(%rsp)
	movq	424(%rsp), %rax
	movq	%rax, 288(%rsp)
	movq	160(%rsp), %rax
	movq	%rax, 296(%rsp)
	movq	416(%rsp), %rax
	movq	%rax, 304(%rsp)
	movq	152(%rsp), %rax
	movq	%rax, 312(%rsp)
	movq	(%r13), %rax
	movq	16(%r13), %r15
	movq	%rax, %rcx
	subq	%r15, %rcx
	cmpq	$2, %rcx
	jae	.LBB38_1371
	movb	$1, %bl
	cmpq	$-3, %r15
	ja	.LBB38_847
	leaq	2(%r15), %r12
	leaq	(%rax,%rax), %rcx
	cmpq	%r12, %rcx
	cmovbeq	%r12, %rcx
	cmpq	$9, %rcx
	movl	$8, %r14d
	cmovaeq	%rcx, %r14
	testq	%r14, %r14
	js	.LBB38_847
	testq	%rax, %rax
	jne	.LBB38_1396
	xorl	%eax, %eax
	jmp	.LBB38_1397
.LBB38_1371:
	movq	8(%r13), %rax
	leaq	2(%r15), %r12
.LBB38_1372:
	movw	$14448, (%rax,%r15)
	movq	%r13, %rsi
	movq	%r12, 16(%r13)
	leaq	176(%rsp), %rdi
	callq	_RNvNtNtNtCs00000000001_10pkcs1_tool4tool13pkcs1_program4keys7put_key
	movb	$1, %bl
	testb	%al, %al
	jne	.LBB38_847
	cmpq	$0, 96(%rsp)
	je	.LBB38_1379
	movq	(%r13), %rax
	movq	16(%r13), %r15
	movq	%rax, %rcx
	subq	%r15, %rcx
	cmpq	$12, %rcx
	jae	.LBB38_1384
	cmpq	$-13, %r15
	ja	.LBB38_847
	leaq	12(%r15), %r12
	leaq	(%rax,%rax), %r14
	cmpq	%r12, %r14
	cmovbeq	%r12, %r14
	testq	%r14, %r14
	js	.LBB38_847
	testq	%rax, %rax
	jne	.LBB38_1399
	xorl	%eax, %eax
	jmp	.LBB38_1400
.LBB38_1379:
	movq	(%r13), %rax
	movq	16(%r13), %r12
	movq	%rax, %rcx
	subq	%r12, %rcx
	cmpq	$13, %rcx
	jae	.LBB38_1387
	cmpq	$-14, %r12
	ja	.LBB38_847
	leaq	13(%r12), %r15
	leaq	(%rax,%rax), %r14
	cmpq	%r15, %r14
	cmovbeq	%r15, %r14
	testq	%r14, %r14
	js	.LBB38_847
	testq	%rax, %rax
	jne	.LBB38_1402
	xorl	%eax, %eax
	jmp	.LBB38_1403
.LBB38_1384:
	movq	8(%r13), %rax
	leaq	12(%r15), %r12
.LBB38_1385:
	movabsq	$8458438990456185120, %rcx
	movq	%rcx, (%rax,%r15)
	movl	$1030972788, 8(%rax,%r15)
	movq	%r13, %rdx
	movq	%r12, 16(%r13)
	movq	96(%rsp), %rdi
	movq	168(%rsp), %rsi
	callq	_RNvNtNtNtCs00000000001_10pkcs1_tool4tool13pkcs1_program6digits7put_hex
	testb	%al, %al
	jne	.LBB38_847
	movq	(%r13), %rax
	movq	16(%r13), %r15
	jmp	.LBB38_1389
.LBB38_1387:
	movq	8(%r13), %rcx
	leaq	13(%r12), %r15
.LBB38_1388:
	movabsq	$3259888584868848233, %rdx
	movq	%rdx, 5(%rcx,%r12)
	movabsq	$8458438990456185120, %rdx
	movq	%rdx, (%rcx,%r12)
	movq	%r15, 16(%r13)
.LBB38_1389:
	movq	%rax, %rcx
	subq	%r15, %rcx
	cmpq	$7, %rcx
	jae	.LBB38_1394
	cmpq	$-8, %r15
	ja	.LBB38_847
	leaq	7(%r15), %r12
	leaq	(%rax,%rax), %rcx
	cmpq	%r12, %rcx
	cmovbeq	%r12, %rcx
	cmpq	$9, %rcx
	movl	$8, %r14d
	cmovaeq	%rcx, %r14
	testq	%r14, %r14
	js	.LBB38_847
	testq	%rax, %rax
	jne	.LBB38_1405
	xorl	%eax, %eax
	jmp	.LBB38_1406
.LBB38_1394:
	movq	8(%r13), %rax
	leaq	7(%r15), %r12
.LBB38_1395:
	movl	$1030646113, 3(%rax,%r15)
	movl	$1634165024, (%rax,%r15)
	movq	%r12, 16(%r13)
	jmp	.LBB38_1171
.LBB38_1396:
	movq	8(%r13), %rcx
	movq	%rcx, 432(%rsp)
	movq	%rax, 448(%rsp)
	movl	$1, %eax
.LBB38_1397:
	movq	%rax, 440(%rsp)
	movq	%rsp, %rdi
	leaq	432(%rsp), %rcx
	movl	$1, %esi
	movq	%r14, %rdx
	callq	_RINvNtCs00000000002_5alloc7raw_vec11finish_growNtNtB4_5alloc6GlobalECs00000000001_10pkcs1_tool
	cmpl	$1, (%rsp)
	je	.LBB38_847
	movq	8(%rsp), %rax
	movq	%rax, 8(%r13)
	movq	%r14, (%r13)
	jmp	.LBB38_1372
.LBB38_1399:
	movq	8(%r13), %rcx
	movq	%rcx, 432(%rsp)
	movq	%rax, 448(%rsp)
	movl	$1, %eax
.LBB38_1400:
	movq	%rax, 440(%rsp)
	movq	%rsp, %rdi
	leaq	432(%rsp), %rcx
	movl	$1, %esi
	movq	%r14, %rdx
	callq	_RINvNtCs00000000002_5alloc7raw_vec11finish_growNtNtB4_5alloc6GlobalECs00000000001_10pkcs1_tool
	cmpl	$1, (%rsp)
	je	.LBB38_847
	movq	8(%rsp), %rax
	movq	%rax, 8(%r13)
	movq	%r14, (%r13)
	jmp	.LBB38_1385
.LBB38_1402:
	movq	8(%r13), %rcx
	movq	%rcx, 432(%rsp)
	movq	%rax, 448(%rsp)
	movl	$1, %eax
.LBB38_1403:
	movq	%rax, 440(%rsp)
	movq	%rsp, %rdi
	leaq	432(%rsp), %rcx
	movl	$1, %esi
	movq	%r14, %rdx
	callq	_RINvNtCs00000000002_5alloc7raw_vec11finish_growNtNtB4_5alloc6GlobalECs00000000001_10pkcs1_tool
	cmpl	$1, (%rsp)
	je	.LBB38_847
	movq	8(%rsp), %rcx
	movq	%rcx, 8(%r13)
	movq	%r14, (%r13)
	movq	%r14, %rax
	jmp	.LBB38_1388
.LBB38_1405:
	movq	8(%r13), %rcx
	movq	%rcx, 432(%rsp)
	movq	%rax, 448(%rsp)
	movl	$1, %eax
.LBB38_1406:
	movq	%rax, 440(%rsp)
	movq	%rsp, %rdi
	leaq	432(%rsp), %rcx
	movl	$1, %esi
	movq	%r14, %rdx
	callq	_RINvNtCs00000000002_5alloc7raw_vec11finish_growNtNtB4_5alloc6GlobalECs00000000001_10pkcs1_tool
	cmpl	$1, (%rsp)
	je	.LBB38_847
	movq	8(%rsp), %rax
	movq	%rax, 8(%r13)
	movq	%r14, (%r13)
	jmp	.LBB38_1395
.Lfunc_end38:
	.size	_RNvNtNtNtCs00000000001_10pkcs1_tool4tool13pkcs1_program6answer11answer_word, .Lfunc_end38-_RNvNtNtNtCs00000000001_10pkcs1_tool4tool13pkcs1_program6answer11answer_word
	.cfi_endproc
	.section	.rodata._RNvNtNtNtCs00000000001_10pkcs1_tool4tool13pkcs1_program6answer11answer_word,"a",@progbits
	.p2align	2, 0x0
.LJTI38_0:
	.long	.LBB38_1-.LJTI38_0
	.long	.LBB38_38-.LJTI38_0
	.long	.LBB38_23-.LJTI38_0
	.long	.LBB38_29-.LJTI38_0
	.long	.LBB38_7-.LJTI38_0
	.long	.LBB38_55-.LJTI38_0
	.long	.LBB38_57-.LJTI38_0
	.long	.LBB38_31-.LJTI38_0
	.long	.LBB38_59-.LJTI38_0

	.section	.text._RNvXNtNtNtCs00000000001_10pkcs1_tool4tool13pkcs1_program10copy_errorNtB2_10WriteErrorNtNtCs00000000000_4core3fmt7Display3fmt,"ax",@progbits
	.p2align	4, 0x90
	.type	_RNvXNtNtNtCs00000000001_10pkcs1_tool4tool13pkcs1_program10copy_errorNtB2_10WriteErrorNtNtCs00000000000_4core3fmt7Display3fmt,@function
_RNvXNtNtNtCs00000000001_10pkcs1_tool4tool13pkcs1_program10copy_errorNtB2_10WriteErrorNtNtCs00000000000_4core3fmt7Display3fmt:
	.cfi_startproc
	endbr64
	movzbl	(%rdi), %ecx
	movq	48(%rsi), %rdi
	movq	56(%rsi), %rax
	movq	24(%rax), %rax
	leaq	.LJTI39_0(%rip), %rdx
	movslq	(%rdx,%rcx,4), %rcx
	addq	%rdx, %rcx
	notrack	jmpq	*%rcx
.LBB39_1:
	leaq	.Lanon.3(%rip), %rsi
	movl	$19, %edx
	jmpq	*%rax
.LBB39_5:
	leaq	.Lanon.32(%rip), %rsi
	movl	$14, %edx
	jmpq	*%rax
.LBB39_3:
	leaq	.Lanon.33(%rip), %rsi
	movl	$23, %edx
	jmpq	*%rax
.LBB39_4:
	leaq	.Lanon.34(%rip), %rsi
	movl	$32, %edx
	jmpq	*%rax
.LBB39_2:
	leaq	.Lanon.35(%rip), %rsi
	movl	$18, %edx
	jmpq	*%rax
.LBB39_6:
	leaq	.Lanon.36(%rip), %rsi
	movl	$35, %edx
	jmpq	*%rax
.LBB39_7:
	leaq	.Lanon.37(%rip), %rsi
	movl	$46, %edx
	jmpq	*%rax
.Lfunc_end39:
	.size	_RNvXNtNtNtCs00000000001_10pkcs1_tool4tool13pkcs1_program10copy_errorNtB2_10WriteErrorNtNtCs00000000000_4core3fmt7Display3fmt, .Lfunc_end39-_RNvXNtNtNtCs00000000001_10pkcs1_tool4tool13pkcs1_program10copy_errorNtB2_10WriteErrorNtNtCs00000000000_4core3fmt7Display3fmt
	.cfi_endproc
	.section	.rodata._RNvXNtNtNtCs00000000001_10pkcs1_tool4tool13pkcs1_program10copy_errorNtB2_10WriteErrorNtNtCs00000000000_4core3fmt7Display3fmt,"a",@progbits
	.p2align	2, 0x0
.LJTI39_0:
	.long	.LBB39_1-.LJTI39_0
	.long	.LBB39_2-.LJTI39_0
	.long	.LBB39_3-.LJTI39_0
	.long	.LBB39_4-.LJTI39_0
	.long	.LBB39_5-.LJTI39_0
	.long	.LBB39_6-.LJTI39_0
	.long	.LBB39_7-.LJTI39_0

	.section	.text._RNvXs0_NtNtNtCs00000000001_10pkcs1_tool4tool13pkcs1_program10copy_errorNtB5_9FileErrorNtNtCs00000000000_4core3fmt7Display3fmt,"ax",@progbits
	.p2align	4, 0x90
	.type	_RNvXs0_NtNtNtCs00000000001_10pkcs1_tool4tool13pkcs1_program10copy_errorNtB5_9FileErrorNtNtCs00000000000_4core3fmt7Display3fmt,@function
_RNvXs0_NtNtNtCs00000000001_10pkcs1_tool4tool13pkcs1_program10copy_errorNtB5_9FileErrorNtNtCs00000000000_4core3fmt7Display3fmt:
	.cfi_startproc
	endbr64
	pushq	%r15
	.cfi_def_cfa_offset 16
	pushq	%r14
	.cfi_def_cfa_offset 24
	pushq	%rbx
	.cfi_def_cfa_offset 32
	subq	$112, %rsp
	.cfi_def_cfa_offset 144
	.cfi_offset %rbx, -32
	.cfi_offset %r14, -24
	.cfi_offset %r15, -16
	movq	%rsi, %r15
	movq	%rdi, %rbx
	movq	24(%rdi), %rsi
	movq	32(%rdi), %rdx
	movq	%rsp, %rdi
	callq	_ZN4core3str8converts9from_utf817h0000000000000004E
	xorl	%eax, %eax
	cmpb	$0, (%rsp)
	cmoveq	16(%rsp), %rax
	movl	$1, %ecx
	cmoveq	8(%rsp), %rcx
	movq	%rcx, 96(%rsp)
	movq	%rax, 104(%rsp)
	cmpb	$20, 40(%rbx)
	jne	.LBB40_1
	movzbl	41(%rbx), %eax
	movb	%al, 48(%rsp)
	leaq	96(%rsp), %rax
	movq	%rax, 64(%rsp)
	leaq	_RNvXs1c_NtCs00000000000_4core3fmtReNtB6_7Display3fmtCs00000000001_10pkcs1_tool(%rip), %rax
	movq	%rax, 72(%rsp)
	leaq	48(%rsp), %rax
	movq	%rax, 80(%rsp)
	leaq	_RNvXNtNtNtCs00000000001_10pkcs1_tool4tool13pkcs1_program10copy_errorNtB2_10WriteErrorNtNtCs00000000000_4core3fmt7Display3fmt(%rip), %rax
	movq	%rax, 88(%rsp)
	leaq	.Lanon.38(%rip), %rax
	jmp	.LBB40_3
.LBB40_1:
	leaq	40(%rbx), %rax
	movzbl	2(%rax), %ecx
	movb	%cl, 50(%rsp)
	movzwl	(%rax), %eax
	movw	%ax, 48(%rsp)
	leaq	96(%rsp), %rax
	movq	%rax, 64(%rsp)
	leaq	_RNvXs1c_NtCs00000000000_4core3fmtReNtB6_7Display3fmtCs00000000001_10pkcs1_tool(%rip), %rax
	movq	%rax, 72(%rsp)
	leaq	48(%rsp), %rax
	movq	%rax, 80(%rsp)
	leaq	_RNvXs_NtNtNtCs00000000001_10pkcs1_tool6proved12pkcs1_params5errorNtB4_5ErrorNtNtCs00000000000_4core3fmt7Display3fmt(%rip), %rax
	movq	%rax, 88(%rsp)
	leaq	.Lanon.39(%rip), %rax
.LBB40_3:
	movq	%rax, (%rsp)
	movq	$2, 8(%rsp)
	movq	$0, 32(%rsp)
	leaq	64(%rsp), %rax
	movq	%rax, 16(%rsp)
	movq	$2, 24(%rsp)
	movq	48(%r15), %r14
	movq	56(%r15), %r15
	movq	%rsp, %rdx
	movq	%r14, %rdi
	movq	%r15, %rsi
	callq	_ZN4core3fmt5write17h0000000000000000E
	testb	%al, %al
	je	.LBB40_4
	movb	$1, %al
	jmp	.LBB40_6
.LBB40_4:
	xorl	%eax, %eax
	cmpq	(%rbx), %rax
	jo	.LBB40_6
	movq	8(%rbx), %rsi
	movq	16(%rbx), %rdx
	movq	%rsp, %rdi
	callq	_ZN4core3str8converts9from_utf817h0000000000000004E
	xorl	%eax, %eax
	cmpb	$0, (%rsp)
	cmoveq	16(%rsp), %rax
	movl	$1, %ecx
	cmoveq	8(%rsp), %rcx
	movq	%rcx, 64(%rsp)
	movq	%rax, 72(%rsp)
	leaq	64(%rsp), %rax
	movq	%rax, 48(%rsp)
	leaq	_RNvXs1c_NtCs00000000000_4core3fmtReNtB6_7Display3fmtCs00000000001_10pkcs1_tool(%rip), %rax
	movq	%rax, 56(%rsp)
	leaq	.Lanon.40(%rip), %rax
	movq	%rax, (%rsp)
	movq	$2, 8(%rsp)
	movq	$0, 32(%rsp)
	leaq	48(%rsp), %rax
	movq	%rax, 16(%rsp)
	movq	$1, 24(%rsp)
	movq	%rsp, %rdx
	movq	%r14, %rdi
	movq	%r15, %rsi
	callq	_ZN4core3fmt5write17h0000000000000000E
.LBB40_6:
	addq	$112, %rsp
	.cfi_def_cfa_offset 32
	popq	%rbx
	.cfi_def_cfa_offset 24
	popq	%r14
	.cfi_def_cfa_offset 16
	popq	%r15
	.cfi_def_cfa_offset 8
	retq
.Lfunc_end40:
	.size	_RNvXs0_NtNtNtCs00000000001_10pkcs1_tool4tool13pkcs1_program10copy_errorNtB5_9FileErrorNtNtCs00000000000_4core3fmt7Display3fmt, .Lfunc_end40-_RNvXs0_NtNtNtCs00000000001_10pkcs1_tool4tool13pkcs1_program10copy_errorNtB5_9FileErrorNtNtCs00000000000_4core3fmt7Display3fmt
	.cfi_endproc

	.section	.rodata.cst16,"aM",@progbits,16
	.p2align	4, 0x0
.LCPI41_0:
	.byte	15
	.byte	15
	.byte	15
	.byte	15
	.byte	15
	.byte	15
	.byte	15
	.byte	15
	.zero	1
	.zero	1
	.zero	1
	.zero	1
	.zero	1
	.zero	1
	.zero	1
	.zero	1
.LCPI41_1:
	.byte	9
	.byte	9
	.byte	9
	.byte	9
	.byte	9
	.byte	9
	.byte	9
	.byte	9
	.zero	1
	.zero	1
	.zero	1
	.zero	1
	.zero	1
	.zero	1
	.zero	1
	.zero	1
.LCPI41_2:
	.byte	39
	.byte	39
	.byte	39
	.byte	39
	.byte	39
	.byte	39
	.byte	39
	.byte	39
	.zero	1
	.zero	1
	.zero	1
	.zero	1
	.zero	1
	.zero	1
	.zero	1
	.zero	1
.LCPI41_3:
	.zero	16,15
.LCPI41_4:
	.byte	159
	.byte	159
	.byte	159
	.byte	159
	.byte	159
	.byte	159
	.byte	159
	.byte	159
	.zero	1
	.zero	1
	.zero	1
	.zero	1
	.zero	1
	.zero	1
	.zero	1
	.zero	1
.LCPI41_5:
	.zero	16,48
	.section	.text._RNvNtNtNtCs00000000001_10pkcs1_tool4tool13pkcs1_program6digits7put_hex,"ax",@progbits
	.p2align	4, 0x90
	.type	_RNvNtNtNtCs00000000001_10pkcs1_tool4tool13pkcs1_program6digits7put_hex,@function
_RNvNtNtNtCs00000000001_10pkcs1_tool4tool13pkcs1_program6digits7put_hex:
	.cfi_startproc
	endbr64
	pushq	%rbp
	.cfi_def_cfa_offset 16
	pushq	%r15
	.cfi_def_cfa_offset 24
	pushq	%r14
	.cfi_def_cfa_offset 32
	pushq	%r13
	.cfi_def_cfa_offset 40
	pushq	%r12
	.cfi_def_cfa_offset 48
	pushq	%rbx
	.cfi_def_cfa_offset 56
	pushq	%rax
	.cfi_def_cfa_offset 64
	.cfi_offset %rbx, -56
	.cfi_offset %r12, -48
	.cfi_offset %r13, -40
	.cfi_offset %r14, -32
	.cfi_offset %r15, -24
	.cfi_offset %rbp, -16
	movb	$1, %bpl
	testq	%rsi, %rsi
	js	.LBB41_7
	movq	%rdx, %r12
	movq	%rsi, %rbx
	movq	16(%rdx), %r15
	leaq	(%rsi,%rsi), %r13
	movq	%r15, %rsi
	addq	%r13, %rsi
	jb	.LBB41_7
	movq	%rdi, %r14
	movq	%r12, %rdi
	callq	_RNvMs_NtNtCs00000000001_10pkcs1_tool10rattle_std3vecINtNtNtB6_7library3vec3VechE6resizeB8_
	testb	%al, %al
	jne	.LBB41_7
	movq	16(%r12), %rsi
	movq	%rsi, %rax
	subq	%r15, %rax
	jb	.LBB41_19
	cmpq	%rax, %r13
	jne	.LBB41_20
	testq	%rbx, %rbx
	je	.LBB41_6
	movq	8(%r12), %rcx
	cmpq	$8, %rbx
	jae	.LBB41_16
	xorl	%eax, %eax
	jmp	.LBB41_10
.LBB41_16:
	leaq	(%rcx,%r15), %rdx
	movabsq	$9223372036854775800, %rax
	andq	%rbx, %rax
	xorl	%esi, %esi
	movdqa	.LCPI41_0(%rip), %xmm0
	movdqa	.LCPI41_1(%rip), %xmm1
	movdqa	.LCPI41_2(%rip), %xmm2
	movdqa	.LCPI41_3(%rip), %xmm3
	movdqa	.LCPI41_4(%rip), %xmm4
	movdqa	.LCPI41_5(%rip), %xmm5
	.p2align	4, 0x90
.LBB41_17:
	movq	(%r14,%rsi), %xmm6
	movdqa	%xmm6, %xmm7
	movdqa	%xmm6, %xmm8
	pminub	%xmm4, %xmm8
	pcmpeqb	%xmm6, %xmm8
	pand	%xmm0, %xmm6
	movdqa	%xmm6, %xmm9
	pcmpgtb	%xmm1, %xmm9
	pand	%xmm2, %xmm9
	paddb	%xmm6, %xmm9
	psrlw	$4, %xmm7
	pand	%xmm3, %xmm7
	pandn	%xmm2, %xmm8
	paddb	%xmm7, %xmm8
	punpcklbw	%xmm9, %xmm8
	paddb	%xmm5, %xmm8
	movdqu	%xmm8, (%rdx,%rsi,2)
	addq	$8, %rsi
	cmpq	%rsi, %rax
	jne	.LBB41_17
	cmpq	%rbx, %rax
	jne	.LBB41_10
.LBB41_6:
	xorl	%ebp, %ebp
.LBB41_7:
	movl	%ebp, %eax
	addq	$8, %rsp
	.cfi_def_cfa_offset 56
	popq	%rbx
	.cfi_def_cfa_offset 48
	popq	%r12
	.cfi_def_cfa_offset 40
	popq	%r13
	.cfi_def_cfa_offset 32
	popq	%r14
	.cfi_def_cfa_offset 24
	popq	%r15
	.cfi_def_cfa_offset 16
	popq	%rbp
	.cfi_def_cfa_offset 8
	retq
.LBB41_10:
	.cfi_def_cfa_offset 64
	addq	%r15, %rcx
	incq	%rcx
	xorl	%ebp, %ebp
	jmp	.LBB41_11
	.p2align	4, 0x90
.LBB41_15:
	addb	%r8b, %sil
	addb	$48, %sil
	shrb	$4, %dl
	addb	%dl, %dil
	addb	$48, %dil
	movb	%dil, -1(%rcx,%rax,2)
	movb	%sil, (%rcx,%rax,2)
	leaq	1(%rax), %rdx
	movq	%rdx, %rax
	cmpq	%rdx, %rbx
	je	.LBB41_7
.LBB41_11:
	movzbl	(%r14,%rax), %edx
	movl	%edx, %r8d
	andb	$15, %r8b
	movl	$39, %edi
	movl	$39, %esi
	cmpb	$10, %r8b
	jae	.LBB41_13
	xorl	%esi, %esi
.LBB41_13:
	cmpb	$-96, %dl
	jae	.LBB41_15
	xorl	%edi, %edi
	jmp	.LBB41_15
.LBB41_19:
	movq	%r15, %rdi
	ud2
.LBB41_20:
	ud2
.Lfunc_end41:
	.size	_RNvNtNtNtCs00000000001_10pkcs1_tool4tool13pkcs1_program6digits7put_hex, .Lfunc_end41-_RNvNtNtNtCs00000000001_10pkcs1_tool4tool13pkcs1_program6digits7put_hex
	.cfi_endproc

	.section	.text._RNvNtNtNtCs00000000001_10pkcs1_tool4tool13pkcs1_program6digits11put_decimal,"ax",@progbits
	.p2align	4, 0x90
	.type	_RNvNtNtNtCs00000000001_10pkcs1_tool4tool13pkcs1_program6digits11put_decimal,@function
_RNvNtNtNtCs00000000001_10pkcs1_tool4tool13pkcs1_program6digits11put_decimal:
	.cfi_startproc
	endbr64
	pushq	%rbp
	.cfi_def_cfa_offset 16
	pushq	%r15
	.cfi_def_cfa_offset 24
	pushq	%r14
	.cfi_def_cfa_offset 32
	pushq	%r13
	.cfi_def_cfa_offset 40
	pushq	%r12
	.cfi_def_cfa_offset 48
	pushq	%rbx
	.cfi_def_cfa_offset 56
	subq	$56, %rsp
	.cfi_def_cfa_offset 112
	.cfi_offset %rbx, -56
	.cfi_offset %r12, -48
	.cfi_offset %r13, -40
	.cfi_offset %r14, -32
	.cfi_offset %r15, -24
	.cfi_offset %rbp, -16
	movq	%rsi, %rbx
	movq	%rdi, %r14
	movabsq	$-3689348814741910323, %r15
	cmpq	$9, %rdi
	jbe	.LBB42_1
	movq	%r14, %rax
	mulq	%r15
	movq	%rdx, %rdi
	shrq	$3, %rdi
	movq	%rbx, %rsi
	callq	_RNvNtNtNtCs00000000001_10pkcs1_tool4tool13pkcs1_program6digits11put_decimal
	movb	$1, %bpl
	testb	%al, %al
	jne	.LBB42_13
.LBB42_1:
	movq	%r14, %rax
	mulq	%r15
	movq	(%rbx), %r15
	movq	16(%rbx), %r12
	cmpq	%r12, %r15
	jne	.LBB42_9
	movb	$1, %bpl
	cmpq	$-1, %r12
	je	.LBB42_13
	leaq	1(%r12), %rax
	leaq	(%r12,%r12), %rcx
	cmpq	%rax, %rcx
	cmovaq	%rcx, %rax
	cmpq	$9, %rax
	movl	$8, %r15d
	cmovaeq	%rax, %r15
	testq	%r15, %r15
	js	.LBB42_13
	movq	%rdx, %r13
	testq	%r12, %r12
	jne	.LBB42_6
	xorl	%eax, %eax
	jmp	.LBB42_7
.LBB42_6:
	movq	8(%rbx), %rax
	movq	%rax, 8(%rsp)
	movq	%r12, 24(%rsp)
	movl	$1, %eax
.LBB42_7:
	movq	%rax, 16(%rsp)
	leaq	32(%rsp), %rdi
	leaq	8(%rsp), %rcx
	movl	$1, %esi
	movq	%r15, %rdx
	callq	_RINvNtCs00000000002_5alloc7raw_vec11finish_growNtNtB4_5alloc6GlobalECs00000000001_10pkcs1_tool
	cmpl	$1, 32(%rsp)
	je	.LBB42_13
	movq	40(%rsp), %rax
	movq	%rax, 8(%rbx)
	movq	%r15, (%rbx)
	movq	%r13, %rdx
.LBB42_9:
	shrl	$2, %edx
	andl	$-2, %edx
	leal	(%rdx,%rdx,4), %eax
	subl	%eax, %r14d
	orb	$48, %r14b
	cmpq	%r15, %r12
	jne	.LBB42_11
	movq	%rbx, %rdi
	callq	_ZN5alloc7raw_vec19RawVec$LT$T$C$A$GT$8grow_one17h0000000000000003E
.LBB42_11:
	movq	8(%rbx), %rax
	movb	%r14b, (%rax,%r12)
	incq	%r12
	movq	%r12, 16(%rbx)
	xorl	%ebp, %ebp
.LBB42_13:
	movl	%ebp, %eax
	addq	$56, %rsp
	.cfi_def_cfa_offset 56
	popq	%rbx
	.cfi_def_cfa_offset 48
	popq	%r12
	.cfi_def_cfa_offset 40
	popq	%r13
	.cfi_def_cfa_offset 32
	popq	%r14
	.cfi_def_cfa_offset 24
	popq	%r15
	.cfi_def_cfa_offset 16
	popq	%rbp
	.cfi_def_cfa_offset 8
	retq
.Lfunc_end42:
	.size	_RNvNtNtNtCs00000000001_10pkcs1_tool4tool13pkcs1_program6digits11put_decimal, .Lfunc_end42-_RNvNtNtNtCs00000000001_10pkcs1_tool4tool13pkcs1_program6digits11put_decimal
	.cfi_endproc

	.section	.text._RNvXNtNtNtCs00000000001_10pkcs1_tool4tool13pkcs1_program5faultNtB2_5FaultNtNtCs00000000000_4core3fmt7Display3fmt,"ax",@progbits
	.p2align	4, 0x90
	.type	_RNvXNtNtNtCs00000000001_10pkcs1_tool4tool13pkcs1_program5faultNtB2_5FaultNtNtCs00000000000_4core3fmt7Display3fmt,@function
_RNvXNtNtNtCs00000000001_10pkcs1_tool4tool13pkcs1_program5faultNtB2_5FaultNtNtCs00000000000_4core3fmt7Display3fmt:
	.cfi_startproc
	endbr64
	movzbl	(%rdi), %ecx
	movq	48(%rsi), %rdi
	movq	56(%rsi), %rax
	movq	24(%rax), %rax
	testl	%ecx, %ecx
	je	.LBB43_3
	cmpl	$1, %ecx
	jne	.LBB43_2
	leaq	.Lanon.41(%rip), %rsi
	movl	$12, %edx
	jmpq	*%rax
.LBB43_3:
	leaq	.Lanon.42(%rip), %rsi
	movl	$11, %edx
	jmpq	*%rax
.LBB43_2:
	leaq	.Lanon.43(%rip), %rsi
	movl	$13, %edx
	jmpq	*%rax
.Lfunc_end43:
	.size	_RNvXNtNtNtCs00000000001_10pkcs1_tool4tool13pkcs1_program5faultNtB2_5FaultNtNtCs00000000000_4core3fmt7Display3fmt, .Lfunc_end43-_RNvXNtNtNtCs00000000001_10pkcs1_tool4tool13pkcs1_program5faultNtB2_5FaultNtNtCs00000000000_4core3fmt7Display3fmt
	.cfi_endproc

	.section	.rodata.cst16,"aM",@progbits,16
	.p2align	4, 0x0
.LCPI44_0:
	.byte	15
	.byte	15
	.byte	15
	.byte	15
	.byte	15
	.byte	15
	.byte	15
	.byte	15
	.zero	1
	.zero	1
	.zero	1
	.zero	1
	.zero	1
	.zero	1
	.zero	1
	.zero	1
.LCPI44_1:
	.byte	9
	.byte	9
	.byte	9
	.byte	9
	.byte	9
	.byte	9
	.byte	9
	.byte	9
	.zero	1
	.zero	1
	.zero	1
	.zero	1
	.zero	1
	.zero	1
	.zero	1
	.zero	1
.LCPI44_2:
	.byte	39
	.byte	39
	.byte	39
	.byte	39
	.byte	39
	.byte	39
	.byte	39
	.byte	39
	.zero	1
	.zero	1
	.zero	1
	.zero	1
	.zero	1
	.zero	1
	.zero	1
	.zero	1
.LCPI44_3:
	.zero	16,15
.LCPI44_4:
	.byte	159
	.byte	159
	.byte	159
	.byte	159
	.byte	159
	.byte	159
	.byte	159
	.byte	159
	.zero	1
	.zero	1
	.zero	1
	.zero	1
	.zero	1
	.zero	1
	.zero	1
	.zero	1
.LCPI44_5:
	.zero	16,48
	.section	.text._RNvNtNtNtCs00000000001_10pkcs1_tool4tool13pkcs1_program4keys7put_key,"ax",@progbits
	.p2align	4, 0x90
	.type	_RNvNtNtNtCs00000000001_10pkcs1_tool4tool13pkcs1_program4keys7put_key,@function
_RNvNtNtNtCs00000000001_10pkcs1_tool4tool13pkcs1_program4keys7put_key:
	.cfi_startproc
	endbr64
	pushq	%rbp
	.cfi_def_cfa_offset 16
	pushq	%r15
	.cfi_def_cfa_offset 24
	pushq	%r14
	.cfi_def_cfa_offset 32
	pushq	%r13
	.cfi_def_cfa_offset 40
	pushq	%r12
	.cfi_def_cfa_offset 48
	pushq	%rbx
	.cfi_def_cfa_offset 56
	subq	$376, %rsp
	.cfi_def_cfa_offset 432
	.cfi_offset %rbx, -56
	.cfi_offset %r12, -48
	.cfi_offset %r13, -40
	.cfi_offset %r14, -32
	.cfi_offset %r15, -24
	.cfi_offset %rbp, -16
	movq	%rsi, %r9
	movq	144(%rdi), %r12
	testq	%r12, %r12
	movq	%rsi, 16(%rsp)
	je	.LBB44_6
	movq	(%r9), %rax
	movq	16(%r9), %r14
	movq	%rax, %rcx
	subq	%r14, %rcx
	cmpq	$10, %rcx
	jae	.LBB44_11
	movb	$1, %bpl
	cmpq	$-11, %r14
	ja	.LBB44_215
	leaq	10(%r14), %rbx
	leaq	(%rax,%rax), %r15
	cmpq	%rbx, %r15
	cmovbeq	%rbx, %r15
	testq	%r15, %r15
	js	.LBB44_215
	movq	%rdi, %r13
	testq	%rax, %rax
	jne	.LBB44_216
	xorl	%eax, %eax
	jmp	.LBB44_217
.LBB44_6:
	movq	(%r9), %rax
	movq	16(%r9), %r14
	movq	%rax, %rcx
	subq	%r14, %rcx
	cmpq	$10, %rcx
	jae	.LBB44_13
	movb	$1, %bpl
	cmpq	$-11, %r14
	ja	.LBB44_215
	leaq	10(%r14), %rbx
	leaq	(%rax,%rax), %r15
	cmpq	%rbx, %r15
	cmovbeq	%rbx, %r15
	testq	%r15, %r15
	js	.LBB44_215
	movq	%rdi, %r13
	testq	%rax, %rax
	jne	.LBB44_219
	xorl	%eax, %eax
	jmp	.LBB44_220
.LBB44_11:
	movq	%r12, 24(%rsp)
	movq	8(%r9), %rax
	leaq	10(%r14), %rbx
.LBB44_12:
	movabsq	$7957695011148363296, %rcx
	movq	%rcx, (%rax,%r14)
	movw	$12605, 8(%rax,%r14)
	jmp	.LBB44_15
.LBB44_13:
	movq	%r12, 24(%rsp)
	movq	8(%r9), %rax
	leaq	10(%r14), %rbx
.LBB44_14:
	movabsq	$7957695011148363296, %rcx
	movq	%rcx, (%rax,%r14)
	movw	$12349, 8(%rax,%r14)
.LBB44_15:
	movq	%rbx, 16(%r9)
	movdqu	16(%rdi), %xmm0
	movdqu	32(%rdi), %xmm1
	movdqu	48(%rdi), %xmm2
	movdqu	64(%rdi), %xmm3
	movdqu	80(%rdi), %xmm4
	movdqu	96(%rdi), %xmm5
	movdqu	112(%rdi), %xmm6
	movq	%rdi, 72(%rsp)
	movdqu	128(%rdi), %xmm7
	leaq	.Lanon.44(%rip), %rax
	movq	%rax, 80(%rsp)
	movq	$3, 88(%rsp)
	movdqu	%xmm0, 96(%rsp)
	leaq	.Lanon.45(%rip), %rax
	movq	%rax, 112(%rsp)
	movq	$3, 120(%rsp)
	movdqu	%xmm1, 128(%rsp)
	leaq	.Lanon.46(%rip), %rax
	movq	%rax, 144(%rsp)
	movq	$3, 152(%rsp)
	movdqu	%xmm2, 160(%rsp)
	leaq	.Lanon.47(%rip), %rax
	movq	%rax, 176(%rsp)
	movq	$3, 184(%rsp)
	movdqu	%xmm3, 192(%rsp)
	leaq	.Lanon.48(%rip), %rax
	movq	%rax, 208(%rsp)
	movq	$3, 216(%rsp)
	movdqu	%xmm4, 224(%rsp)
	leaq	.Lanon.49(%rip), %rax
	movq	%rax, 240(%rsp)
	movq	$4, 248(%rsp)
	movdqu	%xmm5, 256(%rsp)
	leaq	.Lanon.50(%rip), %rax
	movq	%rax, 272(%rsp)
	movq	$4, 280(%rsp)
	movdqu	%xmm6, 288(%rsp)
	leaq	.Lanon.51(%rip), %rax
	movq	%rax, 304(%rsp)
	movq	$4, 312(%rsp)
	movdqu	%xmm7, 320(%rsp)
	xorl	%r15d, %r15d
.LBB44_16:
	cmpq	$256, %r15
	je	.LBB44_43
	movq	80(%rsp,%r15), %rsi
	movq	88(%rsp,%r15), %rdx
	movq	96(%rsp,%r15), %r14
	movq	104(%rsp,%r15), %rbp
	movq	(%r9), %rax
	movq	16(%r9), %rbx
	movq	%rax, %rcx
	subq	%rbx, %rcx
	cmpq	%rdx, %rcx
	jae	.LBB44_22
	movq	%rbx, %r13
	addq	%rdx, %r13
	jb	.LBB44_214
	leaq	(%rax,%rax), %r12
	cmpq	%r13, %r12
	cmovbeq	%r13, %r12
	cmpq	$9, %r12
	movl	$8, %ecx
	cmovbq	%rcx, %r12
	testq	%r12, %r12
	js	.LBB44_214
	testq	%rax, %rax
	movq	%rsi, 56(%rsp)
	movq	%rdx, 64(%rsp)
	jne	.LBB44_23
	xorl	%eax, %eax
	jmp	.LBB44_24
	.p2align	4, 0x90
.LBB44_22:
	movq	%r15, 8(%rsp)
	movq	8(%r9), %rdi
	leaq	(%rbx,%rdx), %r13
	movq	%r9, %r15
	jmp	.LBB44_26
.LBB44_23:
	movq	8(%r9), %rcx
	movq	%rcx, 32(%rsp)
	movq	%rax, 48(%rsp)
	movl	$1, %eax
.LBB44_24:
	movq	%rax, 40(%rsp)
	movl	$1, %esi
	leaq	352(%rsp), %rdi
	movq	%r12, %rdx
	leaq	32(%rsp), %rcx
	callq	_RINvNtCs00000000002_5alloc7raw_vec11finish_growNtNtB4_5alloc6GlobalECs00000000001_10pkcs1_tool
	cmpl	$1, 352(%rsp)
	je	.LBB44_214
	movq	%r15, 8(%rsp)
	movq	360(%rsp), %rdi
	movq	16(%rsp), %r15
	movq	%rdi, 8(%r15)
	movq	%r12, (%r15)
	movq	56(%rsp), %rsi
	movq	64(%rsp), %rdx
.LBB44_26:
	addq	%rbx, %rdi
	callq	memcpy
	movq	%r13, 16(%r15)
	testq	%rbp, %rbp
	movq	%r15, %rdi
	movq	8(%rsp), %r15
	js	.LBB44_214
	leaq	(,%rbp,2), %rbx
	movq	%r13, %rsi
	addq	%rbx, %rsi
	jb	.LBB44_214
	callq	_RNvMs_NtNtCs00000000001_10pkcs1_tool10rattle_std3vecINtNtNtB6_7library3vec3VechE6resizeB8_
	movq	16(%rsp), %r9
	testb	%al, %al
	jne	.LBB44_214
	movq	16(%r9), %rsi
	movq	%rsi, %rax
	subq	%r13, %rax
	jb	.LBB44_230
	cmpq	%rax, %rbx
	jne	.LBB44_233
	addq	$32, %r15
	testq	%rbp, %rbp
	movdqa	.LCPI44_0(%rip), %xmm4
	movdqa	.LCPI44_1(%rip), %xmm5
	movdqa	.LCPI44_2(%rip), %xmm6
	movdqa	.LCPI44_3(%rip), %xmm7
	movdqa	.LCPI44_4(%rip), %xmm8
	movdqa	.LCPI44_5(%rip), %xmm9
	je	.LBB44_16
	movq	8(%r9), %rcx
	cmpq	$8, %rbp
	jae	.LBB44_34
	xorl	%eax, %eax
	jmp	.LBB44_37
	.p2align	4, 0x90
.LBB44_34:
	leaq	(%rcx,%r13), %rdx
	movq	%rbp, %rax
	movabsq	$9223372036854775800, %rsi
	andq	%rsi, %rax
	xorl	%esi, %esi
	.p2align	4, 0x90
.LBB44_35:
	movq	(%r14,%rsi), %xmm0
	movdqa	%xmm0, %xmm1
	movdqa	%xmm0, %xmm2
	pminub	%xmm8, %xmm2
	pcmpeqb	%xmm0, %xmm2
	pand	%xmm4, %xmm0
	movdqa	%xmm0, %xmm3
	pcmpgtb	%xmm5, %xmm3
	pand	%xmm6, %xmm3
	paddb	%xmm0, %xmm3
	psrlw	$4, %xmm1
	pand	%xmm7, %xmm1
	pandn	%xmm6, %xmm2
	paddb	%xmm1, %xmm2
	punpcklbw	%xmm3, %xmm2
	paddb	%xmm9, %xmm2
	movdqu	%xmm2, (%rdx,%rsi,2)
	addq	$8, %rsi
	cmpq	%rsi, %rax
	jne	.LBB44_35
	cmpq	%rbp, %rax
	je	.LBB44_16
.LBB44_37:
	addq	%r13, %rcx
	incq	%rcx
	jmp	.LBB44_39
	.p2align	4, 0x90
.LBB44_38:
	addb	%r8b, %sil
	addb	$48, %sil
	shrb	$4, %dl
	addb	%dl, %dil
	addb	$48, %dil
	movb	%dil, -1(%rcx,%rax,2)
	movb	%sil, (%rcx,%rax,2)
	leaq	1(%rax), %rdx
	movq	%rdx, %rax
	cmpq	%rdx, %rbp
	je	.LBB44_16
.LBB44_39:
	movzbl	(%r14,%rax), %edx
	movl	%edx, %r8d
	andb	$15, %r8b
	movl	$39, %edi
	movl	$39, %esi
	cmpb	$10, %r8b
	jae	.LBB44_41
	xorl	%esi, %esi
.LBB44_41:
	cmpb	$-96, %dl
	jae	.LBB44_38
	xorl	%edi, %edi
	jmp	.LBB44_38
.LBB44_43:
	movq	24(%rsp), %r10
	testq	%r10, %r10
	movq	72(%rsp), %rax
	movq	152(%rax), %rbx
	cmoveq	%r10, %rbx
	leaq	_RNvNtNtCs00000000001_10pkcs1_tool10rattle_std7library8AN_OCTET(%rip), %r11
	cmovneq	%r10, %r11
	cmovneq	160(%rax), %r10
.LBB44_44:
	testq	%r10, %r10
	je	.LBB44_224
	cmpq	$2, %rbx
	movq	%r10, 24(%rsp)
	jb	.LBB44_72
	cmpb	$48, (%r11)
	jne	.LBB44_72
	leaq	2(%r11), %rsi
	leaq	-2(%rbx), %r14
	movsbq	1(%r11), %rdx
	testq	%rdx, %rdx
	js	.LBB44_51
	subq	%rdx, %r14
	jb	.LBB44_72
	leaq	(%rsi,%rdx), %rbx
	cmpq	$2, %rdx
	jae	.LBB44_50
	jmp	.LBB44_211
.LBB44_51:
	cmpb	$-126, %dl
	jne	.LBB44_56
	cmpq	$1, %r14
	jbe	.LBB44_72
	movzbl	2(%r11), %eax
	testq	%rax, %rax
	je	.LBB44_72
	leaq	-4(%rbx), %r14
	shll	$8, %eax
	movzbl	3(%r11), %edx
	orq	%rax, %rdx
	subq	%rdx, %r14
	jb	.LBB44_72
	addq	$4, %r11
	jmp	.LBB44_61
.LBB44_56:
	testq	%r14, %r14
	je	.LBB44_72
	cmpb	$-127, %dl
	jne	.LBB44_72
	movzbl	(%rsi), %edx
	testb	%dl, %dl
	jns	.LBB44_72
	leaq	-3(%rbx), %r14
	subq	%rdx, %r14
	jb	.LBB44_72
	addq	$3, %r11
.LBB44_61:
	movq	%r11, %rsi
	leaq	(%r11,%rdx), %rbx
	cmpb	$2, (%rsi)
	je	.LBB44_62
	jmp	.LBB44_211
.LBB44_72:
	leaq	80(%rsp), %rdi
	movq	%r11, %rsi
	movq	%rbx, %rdx
	movl	$48, %ecx
	callq	_RNvNtNtNtCs00000000001_10pkcs1_tool6proved8der_core5split14split_unlikely
	movq	80(%rsp), %rsi
	testq	%rsi, %rsi
	je	.LBB44_224
	movq	88(%rsp), %rdx
	movq	96(%rsp), %rbx
	movq	104(%rsp), %r14
	movq	16(%rsp), %r9
	cmpq	$2, %rdx
	jb	.LBB44_211
.LBB44_50:
	cmpb	$2, (%rsi)
	jne	.LBB44_211
.LBB44_62:
	leaq	2(%rsi), %r13
	leaq	-2(%rdx), %rax
	movsbq	1(%rsi), %r12
	testq	%r12, %r12
	js	.LBB44_67
	subq	%r12, %rax
	jb	.LBB44_211
	leaq	(%r12,%r13), %rcx
	testq	%r12, %r12
	jne	.LBB44_65
	jmp	.LBB44_224
.LBB44_67:
	cmpb	$-126, %r12b
	jne	.LBB44_74
	cmpq	$1, %rax
	jbe	.LBB44_211
	movzbl	2(%rsi), %ecx
	testq	%rcx, %rcx
	je	.LBB44_211
	leaq	-4(%rdx), %rax
	shll	$8, %ecx
	movzbl	3(%rsi), %r12d
	orq	%rcx, %r12
	subq	%r12, %rax
	jb	.LBB44_211
	addq	$4, %rsi
	jmp	.LBB44_79
.LBB44_74:
	testq	%rax, %rax
	je	.LBB44_210
	cmpb	$-127, %r12b
	jne	.LBB44_211
	movzbl	(%r13), %r12d
	testb	%r12b, %r12b
	jns	.LBB44_211
	leaq	-3(%rdx), %rax
	subq	%r12, %rax
	jb	.LBB44_211
	addq	$3, %rsi
.LBB44_79:
	leaq	(%rsi,%r12), %rcx
	movq	%rsi, %r13
	movzbl	(%r13), %edx
	testb	%dl, %dl
	jne	.LBB44_66
.LBB44_80:
	decq	%r12
	je	.LBB44_83
	cmpb	$0, 1(%r13)
	jns	.LBB44_224
	incq	%r13
	jmp	.LBB44_84
.LBB44_83:
	movl	$1, %r12d
	jmp	.LBB44_84
.LBB44_210:
	movl	$2, %edx
.LBB44_211:
	leaq	80(%rsp), %rdi
	movl	$2, %ecx
	callq	_RNvNtNtNtCs00000000001_10pkcs1_tool6proved8der_core5split14split_unlikely
	movq	80(%rsp), %r13
	testq	%r13, %r13
	je	.LBB44_224
	movq	88(%rsp), %r12
	movq	96(%rsp), %rcx
	movq	104(%rsp), %rax
	movq	16(%rsp), %r9
	testq	%r12, %r12
	je	.LBB44_224
.LBB44_65:
	movzbl	(%r13), %edx
	testb	%dl, %dl
	je	.LBB44_80
.LBB44_66:
	js	.LBB44_224
.LBB44_84:
	cmpq	$2, %rax
	jb	.LBB44_105
	cmpb	$2, (%rcx)
	jne	.LBB44_105
	leaq	2(%rcx), %rdx
	movq	%rdx, 8(%rsp)
	leaq	-2(%rax), %rdx
	movsbq	1(%rcx), %rdi
	testq	%rdi, %rdi
	js	.LBB44_91
	subq	%rdi, %rdx
	jb	.LBB44_105
	movq	8(%rsp), %rax
	leaq	(%rax,%rdi), %rsi
	testq	%rdi, %rdi
	jne	.LBB44_89
	jmp	.LBB44_224
.LBB44_91:
	cmpb	$-126, %dil
	jne	.LBB44_96
	cmpq	$1, %rdx
	jbe	.LBB44_105
	movzbl	2(%rcx), %esi
	testq	%rsi, %rsi
	je	.LBB44_105
	leaq	-4(%rax), %rdx
	shll	$8, %esi
	movzbl	3(%rcx), %edi
	orq	%rsi, %rdi
	subq	%rdi, %rdx
	jb	.LBB44_105
	addq	$4, %rcx
	jmp	.LBB44_101
.LBB44_96:
	testq	%rdx, %rdx
	je	.LBB44_105
	cmpb	$-127, %dil
	jne	.LBB44_105
	movq	8(%rsp), %rdx
	movzbl	(%rdx), %edi
	testb	%dil, %dil
	jns	.LBB44_105
	leaq	-3(%rax), %rdx
	subq	%rdi, %rdx
	jb	.LBB44_105
	addq	$3, %rcx
.LBB44_101:
	leaq	(%rcx,%rdi), %rsi
	movq	%rcx, 8(%rsp)
	movq	8(%rsp), %rax
	movzbl	(%rax), %eax
	testb	%al, %al
	jne	.LBB44_90
.LBB44_102:
	decq	%rdi
	je	.LBB44_107
	movq	8(%rsp), %rax
	cmpb	$0, 1(%rax)
	jns	.LBB44_224
	incq	%rax
	movq	%rax, 8(%rsp)
	movq	%rdi, 56(%rsp)
	cmpq	$2, %rdx
	jae	.LBB44_109
	jmp	.LBB44_129
.LBB44_105:
	leaq	80(%rsp), %rdi
	movq	%rcx, %rsi
	movq	%rax, %rdx
	movl	$2, %ecx
	callq	_RNvNtNtNtCs00000000001_10pkcs1_tool6proved8der_core5split14split_unlikely
	movq	80(%rsp), %rax
	movq	%rax, 8(%rsp)
	testq	%rax, %rax
	je	.LBB44_224
	movq	88(%rsp), %rdi
	movq	96(%rsp), %rsi
	movq	104(%rsp), %rdx
	movq	16(%rsp), %r9
	testq	%rdi, %rdi
	je	.LBB44_224
.LBB44_89:
	movq	8(%rsp), %rax
	movzbl	(%rax), %eax
	testb	%al, %al
	je	.LBB44_102
.LBB44_90:
	js	.LBB44_224
	movq	%rdi, 56(%rsp)
	cmpq	$2, %rdx
	jb	.LBB44_129
.LBB44_109:
	cmpb	$2, (%rsi)
	jne	.LBB44_129
	leaq	2(%rsi), %r8
	leaq	-2(%rdx), %rax
	movsbq	1(%rsi), %rdi
	testq	%rdi, %rdi
	js	.LBB44_115
	subq	%rdi, %rax
	jb	.LBB44_129
	testq	%rdi, %rdi
	jne	.LBB44_113
	jmp	.LBB44_224
.LBB44_115:
	cmpb	$-126, %dil
	jne	.LBB44_120
	cmpq	$1, %rax
	jbe	.LBB44_129
	movzbl	2(%rsi), %ecx
	testq	%rcx, %rcx
	je	.LBB44_129
	leaq	-4(%rdx), %rax
	shll	$8, %ecx
	movzbl	3(%rsi), %edi
	orq	%rcx, %rdi
	subq	%rdi, %rax
	jb	.LBB44_129
	addq	$4, %rsi
	jmp	.LBB44_125
.LBB44_120:
	testq	%rax, %rax
	je	.LBB44_129
	cmpb	$-127, %dil
	jne	.LBB44_129
	movzbl	(%r8), %edi
	testb	%dil, %dil
	jns	.LBB44_129
	leaq	-3(%rdx), %rax
	subq	%rdi, %rax
	jb	.LBB44_129
	addq	$3, %rsi
.LBB44_125:
	movq	%rsi, %r8
	movzbl	(%r8), %ecx
	testb	%cl, %cl
	jne	.LBB44_114
.LBB44_126:
	decq	%rdi
	je	.LBB44_131
	cmpb	$0, 1(%r8)
	jns	.LBB44_224
	incq	%r8
	testq	%rax, %rax
	je	.LBB44_133
	jmp	.LBB44_224
.LBB44_107:
	movl	$1, %edi
	movq	%rdi, 56(%rsp)
	cmpq	$2, %rdx
	jae	.LBB44_109
.LBB44_129:
	leaq	80(%rsp), %rdi
	movl	$2, %ecx
	callq	_RNvNtNtNtCs00000000001_10pkcs1_tool6proved8der_core5split14split_unlikely
	movq	80(%rsp), %r8
	testq	%r8, %r8
	je	.LBB44_224
	movq	88(%rsp), %rdi
	movq	104(%rsp), %rax
	movq	16(%rsp), %r9
	testq	%rdi, %rdi
	je	.LBB44_224
.LBB44_113:
	movzbl	(%r8), %ecx
	testb	%cl, %cl
	je	.LBB44_126
.LBB44_114:
	js	.LBB44_224
	testq	%rax, %rax
	jne	.LBB44_224
.LBB44_133:
	movq	%rbx, 336(%rsp)
	movq	(%r9), %rax
	movq	16(%r9), %rbx
	movq	%rax, %rcx
	subq	%rbx, %rcx
	cmpq	$7, %rcx
	movq	%rdi, 64(%rsp)
	movq	%r14, 72(%rsp)
	movq	%r8, 344(%rsp)
	jae	.LBB44_138
	movb	$1, %bpl
	cmpq	$-8, %rbx
	ja	.LBB44_215
	leaq	7(%rbx), %r14
	leaq	(%rax,%rax), %r15
	cmpq	%r14, %r15
	cmovbeq	%r14, %r15
	cmpq	$9, %r15
	movl	$8, %ecx
	cmovbq	%rcx, %r15
	testq	%r15, %r15
	js	.LBB44_215
	testq	%rax, %rax
	jne	.LBB44_139
	xorl	%eax, %eax
	jmp	.LBB44_140
.LBB44_138:
	movq	8(%r9), %rax
	leaq	7(%rbx), %r14
	jmp	.LBB44_142
.LBB44_139:
	movq	8(%r9), %rcx
	movq	%rcx, 80(%rsp)
	movq	%rax, 96(%rsp)
	movl	$1, %eax
.LBB44_140:
	movq	%rax, 88(%rsp)
	movl	$1, %esi
	leaq	32(%rsp), %rdi
	movq	%r15, %rdx
	leaq	80(%rsp), %rcx
	callq	_RINvNtCs00000000002_5alloc7raw_vec11finish_growNtNtB4_5alloc6GlobalECs00000000001_10pkcs1_tool
	cmpl	$1, 32(%rsp)
	je	.LBB44_214
	movq	40(%rsp), %rax
	movq	16(%rsp), %r9
	movq	%rax, 8(%r9)
	movq	%r15, (%r9)
.LBB44_142:
	movl	$1030907240, 3(%rax,%rbx)
	movl	$1752461088, (%rax,%rbx)
	movq	%r14, 16(%r9)
	movb	$1, %bpl
	testq	%r12, %r12
	js	.LBB44_215
	leaq	(%r12,%r12), %rbx
	movq	%r14, %rsi
	addq	%rbx, %rsi
	jb	.LBB44_215
	movq	%r9, %rdi
	movq	%r9, %r15
	callq	_RNvMs_NtNtCs00000000001_10pkcs1_tool10rattle_std3vecINtNtNtB6_7library3vec3VechE6resizeB8_
	testb	%al, %al
	jne	.LBB44_215
	movq	16(%r15), %rax
	movq	%rax, %rsi
	subq	%r14, %rax
	jb	.LBB44_231
	cmpq	%rax, %rbx
	movdqa	.LCPI44_0(%rip), %xmm4
	movdqa	.LCPI44_1(%rip), %xmm5
	movdqa	.LCPI44_2(%rip), %xmm6
	movdqa	.LCPI44_3(%rip), %xmm7
	movdqa	.LCPI44_4(%rip), %xmm8
	movdqa	.LCPI44_5(%rip), %xmm9
	movq	56(%rsp), %r11
	jne	.LBB44_233
	movq	8(%r15), %rax
	cmpq	$8, %r12
	movq	%rsi, %rbx
	jae	.LBB44_149
	xorl	%ecx, %ecx
	jmp	.LBB44_157
.LBB44_149:
	leaq	(%rax,%r14), %rdx
	movq	%r12, %rcx
	movabsq	$9223372036854775800, %rsi
	andq	%rsi, %rcx
	xorl	%esi, %esi
	.p2align	4, 0x90
.LBB44_150:
	movq	(%r13,%rsi), %xmm0
	movdqa	%xmm0, %xmm1
	movdqa	%xmm0, %xmm2
	pminub	%xmm8, %xmm2
	pcmpeqb	%xmm0, %xmm2
	pand	%xmm4, %xmm0
	movdqa	%xmm0, %xmm3
	pcmpgtb	%xmm5, %xmm3
	pand	%xmm6, %xmm3
	paddb	%xmm0, %xmm3
	psrlw	$4, %xmm1
	pand	%xmm7, %xmm1
	pandn	%xmm6, %xmm2
	paddb	%xmm1, %xmm2
	punpcklbw	%xmm3, %xmm2
	paddb	%xmm9, %xmm2
	movdqu	%xmm2, (%rdx,%rsi,2)
	addq	$8, %rsi
	cmpq	%rsi, %rcx
	jne	.LBB44_150
	cmpq	%r12, %rcx
	jne	.LBB44_157
.LBB44_152:
	cmpq	%rbx, (%r15)
	jne	.LBB44_163
	cmpq	$-1, %rbx
	je	.LBB44_215
	leaq	1(%rbx), %r14
	leaq	(%rbx,%rbx), %r12
	cmpq	%r14, %r12
	cmovbeq	%r14, %r12
	cmpq	$9, %r12
	movl	$8, %ecx
	cmovbq	%rcx, %r12
	testq	%r12, %r12
	js	.LBB44_215
	testq	%rbx, %rbx
	jne	.LBB44_164
	xorl	%eax, %eax
	jmp	.LBB44_165
.LBB44_157:
	leaq	(%rax,%r14), %rdx
	incq	%rdx
	jmp	.LBB44_159
	.p2align	4, 0x90
.LBB44_158:
	addb	%r9b, %r10b
	addb	$48, %r10b
	shrb	$4, %sil
	addb	%sil, %r8b
	addb	$48, %r8b
	movb	%r8b, -1(%rdx,%rcx,2)
	movb	%r10b, (%rdx,%rcx,2)
	leaq	1(%rcx), %rsi
	movq	%rsi, %rcx
	cmpq	%rsi, %r12
	je	.LBB44_152
.LBB44_159:
	movzbl	(%r13,%rcx), %esi
	movl	%esi, %r9d
	andb	$15, %r9b
	movl	$39, %r8d
	movl	$39, %r10d
	cmpb	$10, %r9b
	jae	.LBB44_161
	xorl	%r10d, %r10d
.LBB44_161:
	cmpb	$-96, %sil
	jae	.LBB44_158
	xorl	%r8d, %r8d
	jmp	.LBB44_158
.LBB44_163:
	leaq	1(%rbx), %r14
	jmp	.LBB44_167
.LBB44_131:
	movl	$1, %edi
	testq	%rax, %rax
	je	.LBB44_133
	jmp	.LBB44_224
.LBB44_164:
	movq	%rax, 80(%rsp)
	movq	%rbx, 96(%rsp)
	movl	$1, %eax
.LBB44_165:
	movq	%rax, 88(%rsp)
	movl	$1, %esi
	leaq	32(%rsp), %rdi
	movq	%r12, %rdx
	leaq	80(%rsp), %rcx
	callq	_RINvNtCs00000000002_5alloc7raw_vec11finish_growNtNtB4_5alloc6GlobalECs00000000001_10pkcs1_tool
	testb	$1, 32(%rsp)
	jne	.LBB44_214
	movq	40(%rsp), %rax
	movq	16(%rsp), %r15
	movq	%rax, 8(%r15)
	movq	%r12, (%r15)
	movq	56(%rsp), %r11
.LBB44_167:
	movb	$44, (%rax,%rbx)
	movq	%r14, 16(%r15)
	testq	%r11, %r11
	js	.LBB44_215
	leaq	(%r11,%r11), %rbx
	movq	%r14, %rsi
	addq	%rbx, %rsi
	jb	.LBB44_215
	movq	%r15, %rdi
	movq	%r15, %r12
	callq	_RNvMs_NtNtCs00000000001_10pkcs1_tool10rattle_std3vecINtNtNtB6_7library3vec3VechE6resizeB8_
	testb	%al, %al
	jne	.LBB44_215
	movq	16(%r12), %r15
	movq	%r15, %rax
	subq	%r14, %rax
	jb	.LBB44_232
	cmpq	%rax, %rbx
	movdqa	.LCPI44_0(%rip), %xmm4
	movdqa	.LCPI44_1(%rip), %xmm5
	movdqa	.LCPI44_2(%rip), %xmm6
	movdqa	.LCPI44_3(%rip), %xmm7
	movdqa	.LCPI44_4(%rip), %xmm8
	movdqa	.LCPI44_5(%rip), %xmm9
	movq	56(%rsp), %r11
	jne	.LBB44_233
	movq	%r12, %rdi
	movq	8(%r12), %rax
	testq	%r11, %r11
	movq	8(%rsp), %rbx
	je	.LBB44_178
	cmpq	$8, %r11
	jae	.LBB44_175
	xorl	%ecx, %ecx
	jmp	.LBB44_184
.LBB44_175:
	leaq	(%rax,%r14), %rdx
	movq	%r11, %rcx
	movabsq	$9223372036854775800, %rsi
	andq	%rsi, %rcx
	xorl	%esi, %esi
	.p2align	4, 0x90
.LBB44_176:
	movq	(%rbx,%rsi), %xmm0
	movdqa	%xmm0, %xmm1
	movdqa	%xmm0, %xmm2
	pminub	%xmm8, %xmm2
	pcmpeqb	%xmm0, %xmm2
	pand	%xmm4, %xmm0
	movdqa	%xmm0, %xmm3
	pcmpgtb	%xmm5, %xmm3
	pand	%xmm6, %xmm3
	paddb	%xmm0, %xmm3
	psrlw	$4, %xmm1
	pand	%xmm7, %xmm1
	pandn	%xmm6, %xmm2
	paddb	%xmm1, %xmm2
	punpcklbw	%xmm3, %xmm2
	paddb	%xmm9, %xmm2
	movdqu	%xmm2, (%rdx,%rsi,2)
	addq	$8, %rsi
	cmpq	%rsi, %rcx
	jne	.LBB44_176
	cmpq	%r11, %rcx
	jne	.LBB44_184
.LBB44_178:
	cmpq	%r15, (%rdi)
	jne	.LBB44_183
	cmpq	$-1, %r15
	je	.LBB44_215
	leaq	1(%r15), %r14
	leaq	(%r15,%r15), %r12
	cmpq	%r14, %r12
	cmovbeq	%r14, %r12
	cmpq	$9, %r12
	movl	$8, %ecx
	cmovbq	%rcx, %r12
	testq	%r12, %r12
	js	.LBB44_215
	testq	%r15, %r15
	jne	.LBB44_190
	xorl	%eax, %eax
	jmp	.LBB44_191
.LBB44_183:
	leaq	1(%r15), %r14
	jmp	.LBB44_193
.LBB44_184:
	leaq	(%rax,%r14), %rdx
	incq	%rdx
	jmp	.LBB44_186
	.p2align	4, 0x90
.LBB44_185:
	addb	%r9b, %r10b
	addb	$48, %r10b
	shrb	$4, %sil
	addb	%sil, %r8b
	addb	$48, %r8b
	movb	%r8b, -1(%rdx,%rcx,2)
	movb	%r10b, (%rdx,%rcx,2)
	leaq	1(%rcx), %rsi
	movq	%rsi, %rcx
	cmpq	%rsi, %r11
	je	.LBB44_178
.LBB44_186:
	movzbl	(%rbx,%rcx), %esi
	movl	%esi, %r9d
	andb	$15, %r9b
	movl	$39, %r8d
	movl	$39, %r10d
	cmpb	$10, %r9b
	jae	.LBB44_188
	xorl	%r10d, %r10d
.LBB44_188:
	cmpb	$-96, %sil
	jae	.LBB44_185
	xorl	%r8d, %r8d
	jmp	.LBB44_185
.LBB44_190:
	movq	%rax, 80(%rsp)
	movq	%r15, 96(%rsp)
	movl	$1, %eax
.LBB44_191:
	movq	%rax, 88(%rsp)
	movl	$1, %esi
	leaq	32(%rsp), %rdi
	movq	%r12, %rdx
	leaq	80(%rsp), %rcx
	callq	_RINvNtCs00000000002_5alloc7raw_vec11finish_growNtNtB4_5alloc6GlobalECs00000000001_10pkcs1_tool
	testb	$1, 32(%rsp)
	jne	.LBB44_214
	movq	40(%rsp), %rax
	movq	16(%rsp), %rdi
	movq	%rax, 8(%rdi)
	movq	%r12, (%rdi)
.LBB44_193:
	movb	$44, (%rax,%r15)
	movq	%r14, 16(%rdi)
	movq	64(%rsp), %rax
	testq	%rax, %rax
	js	.LBB44_215
	leaq	(%rax,%rax), %rbx
	movq	%r14, %rsi
	addq	%rbx, %rsi
	jb	.LBB44_215
	callq	_RNvMs_NtNtCs00000000001_10pkcs1_tool10rattle_std3vecINtNtNtB6_7library3vec3VechE6resizeB8_
	movq	16(%rsp), %r9
	testb	%al, %al
	movdqa	.LCPI44_0(%rip), %xmm4
	movdqa	.LCPI44_1(%rip), %xmm5
	movdqa	.LCPI44_2(%rip), %xmm6
	movdqa	.LCPI44_3(%rip), %xmm7
	movdqa	.LCPI44_4(%rip), %xmm8
	movdqa	.LCPI44_5(%rip), %xmm9
	jne	.LBB44_215
	movq	16(%r9), %rsi
	movq	%rsi, %rax
	subq	%r14, %rax
	jb	.LBB44_231
	cmpq	%rax, %rbx
	movq	24(%rsp), %r10
	movq	72(%rsp), %rbx
	movq	64(%rsp), %r15
	movq	344(%rsp), %r12
	jne	.LBB44_233
	decq	%r10
	testq	%r15, %r15
	movq	336(%rsp), %r11
	je	.LBB44_44
	movq	8(%r9), %rcx
	cmpq	$8, %r15
	jae	.LBB44_201
	xorl	%eax, %eax
	jmp	.LBB44_204
.LBB44_201:
	leaq	(%rcx,%r14), %rdx
	movq	%r15, %rax
	movabsq	$9223372036854775800, %rsi
	andq	%rsi, %rax
	xorl	%esi, %esi
	.p2align	4, 0x90
.LBB44_202:
	movq	(%r12,%rsi), %xmm0
	movdqa	%xmm0, %xmm1
	movdqa	%xmm0, %xmm2
	pminub	%xmm8, %xmm2
	pcmpeqb	%xmm0, %xmm2
	pand	%xmm4, %xmm0
	movdqa	%xmm0, %xmm3
	pcmpgtb	%xmm5, %xmm3
	pand	%xmm6, %xmm3
	paddb	%xmm0, %xmm3
	psrlw	$4, %xmm1
	pand	%xmm7, %xmm1
	pandn	%xmm6, %xmm2
	paddb	%xmm1, %xmm2
	punpcklbw	%xmm3, %xmm2
	paddb	%xmm9, %xmm2
	movdqu	%xmm2, (%rdx,%rsi,2)
	addq	$8, %rsi
	cmpq	%rsi, %rax
	jne	.LBB44_202
	cmpq	%r15, %rax
	je	.LBB44_44
.LBB44_204:
	addq	%r14, %rcx
	incq	%rcx
	jmp	.LBB44_206
	.p2align	4, 0x90
.LBB44_205:
	addb	%r8b, %sil
	addb	$48, %sil
	shrb	$4, %dl
	addb	%dl, %dil
	addb	$48, %dil
	movb	%dil, -1(%rcx,%rax,2)
	movb	%sil, (%rcx,%rax,2)
	leaq	1(%rax), %rdx
	movq	%rdx, %rax
	cmpq	%rdx, %r15
	je	.LBB44_44
.LBB44_206:
	movzbl	(%r12,%rax), %edx
	movl	%edx, %r8d
	andb	$15, %r8b
	movl	$39, %edi
	movl	$39, %esi
	cmpb	$10, %r8b
	jae	.LBB44_208
	xorl	%esi, %esi
.LBB44_208:
	cmpb	$-96, %dl
	jae	.LBB44_205
	xorl	%edi, %edi
	jmp	.LBB44_205
.LBB44_214:
	movb	$1, %bpl
.LBB44_215:
	movl	%ebp, %eax
	addq	$376, %rsp
	.cfi_def_cfa_offset 56
	popq	%rbx
	.cfi_def_cfa_offset 48
	popq	%r12
	.cfi_def_cfa_offset 40
	popq	%r13
	.cfi_def_cfa_offset 32
	popq	%r14
	.cfi_def_cfa_offset 24
	popq	%r15
	.cfi_def_cfa_offset 16
	popq	%rbp
	.cfi_def_cfa_offset 8
	retq
.LBB44_224:
	.cfi_def_cfa_offset 432
	xorl	%ebp, %ebp
	jmp	.LBB44_215
.LBB44_216:
	movq	8(%r9), %rcx
	movq	%rcx, 80(%rsp)
	movq	%rax, 96(%rsp)
	movl	$1, %eax
.LBB44_217:
	movq	%rax, 88(%rsp)
	leaq	32(%rsp), %rdi
	leaq	80(%rsp), %rcx
	movl	$1, %esi
	movq	%r15, %rdx
	callq	_RINvNtCs00000000002_5alloc7raw_vec11finish_growNtNtB4_5alloc6GlobalECs00000000001_10pkcs1_tool
	cmpl	$1, 32(%rsp)
	je	.LBB44_215
	movq	%r12, 24(%rsp)
	movq	40(%rsp), %rax
	movq	16(%rsp), %r9
	movq	%rax, 8(%r9)
	movq	%r15, (%r9)
	movq	%r13, %rdi
	jmp	.LBB44_12
.LBB44_219:
	movq	8(%r9), %rcx
	movq	%rcx, 80(%rsp)
	movq	%rax, 96(%rsp)
	movl	$1, %eax
.LBB44_220:
	movq	%rax, 88(%rsp)
	leaq	32(%rsp), %rdi
	leaq	80(%rsp), %rcx
	movl	$1, %esi
	movq	%r15, %rdx
	callq	_RINvNtCs00000000002_5alloc7raw_vec11finish_growNtNtB4_5alloc6GlobalECs00000000001_10pkcs1_tool
	cmpl	$1, 32(%rsp)
	je	.LBB44_215
	movq	%r12, 24(%rsp)
	movq	40(%rsp), %rax
	movq	16(%rsp), %r9
	movq	%rax, 8(%r9)
	movq	%r15, (%r9)
	movq	%r13, %rdi
	jmp	.LBB44_14
.LBB44_230:
	movq	%r13, %rdi
	ud2
.LBB44_231:
	movq	%r14, %rdi
	ud2
.LBB44_232:
	movq	%r14, %rdi
	movq	%r15, %rsi
	ud2
.LBB44_233:
	ud2
.Lfunc_end44:
	.size	_RNvNtNtNtCs00000000001_10pkcs1_tool4tool13pkcs1_program4keys7put_key, .Lfunc_end44-_RNvNtNtNtCs00000000001_10pkcs1_tool4tool13pkcs1_program4keys7put_key
	.cfi_endproc

	.section	.text._RNvNtNtNtCs00000000001_10pkcs1_tool4tool13pkcs1_program5lines8place_of,"ax",@progbits
	.p2align	4, 0x90
	.type	_RNvNtNtNtCs00000000001_10pkcs1_tool4tool13pkcs1_program5lines8place_of,@function
_RNvNtNtNtCs00000000001_10pkcs1_tool4tool13pkcs1_program5lines8place_of:
	.cfi_startproc
	endbr64
	pushq	%rax
	.cfi_def_cfa_offset 16
	movd	%edi, %xmm0
	punpcklbw	%xmm0, %xmm0
	pshuflw	$0, %xmm0, %xmm0
	pshufd	$0, %xmm0, %xmm0
	movl	$32, %eax
	movq	%rdx, %r10
	.p2align	4, 0x90
.LBB45_1:
	movq	%rsi, %r8
	movq	%r10, %r9
	movq	%rax, %rcx
	cmpq	$32, %r10
	jb	.LBB45_5
	testq	%rcx, %rcx
	je	.LBB45_13
	cmpq	%rdx, %rcx
	ja	.LBB45_14
	movdqu	(%r8), %xmm1
	movdqu	16(%r8), %xmm2
	pcmpeqb	%xmm0, %xmm2
	pcmpeqb	%xmm0, %xmm1
	por	%xmm2, %xmm1
	pmovmskb	%xmm1, %r11d
	leaq	32(%r8), %rsi
	leaq	-32(%r9), %r10
	leaq	32(%rcx), %rax
	testl	%r11d, %r11d
	je	.LBB45_1
.LBB45_5:
	addq	$-32, %rcx
	cmpq	%rdx, %rcx
	jne	.LBB45_7
	xorl	%eax, %eax
	popq	%rcx
	.cfi_def_cfa_offset 8
	retq
.LBB45_7:
	.cfi_def_cfa_offset 16
	negq	%r9
	xorl	%eax, %eax
	xorl	%edx, %edx
	.p2align	4, 0x90
.LBB45_8:
	cmpb	%dil, (%r8,%rdx)
	je	.LBB45_11
	leaq	(%r9,%rdx), %rsi
	incq	%rdx
	cmpq	$-1, %rsi
	jne	.LBB45_8
	popq	%rcx
	.cfi_def_cfa_offset 8
	retq
.LBB45_11:
	.cfi_def_cfa_offset 16
	addq	%rcx, %rdx
	movl	$1, %eax
	popq	%rcx
	.cfi_def_cfa_offset 8
	retq
.LBB45_13:
	.cfi_def_cfa_offset 16
	ud2
.LBB45_14:
	movq	%rcx, %rdi
	movq	%rdx, %rsi
	ud2
.Lfunc_end45:
	.size	_RNvNtNtNtCs00000000001_10pkcs1_tool4tool13pkcs1_program5lines8place_of, .Lfunc_end45-_RNvNtNtNtCs00000000001_10pkcs1_tool4tool13pkcs1_program5lines8place_of
	.cfi_endproc

	.section	.text._RINvNtNtNtCs00000000001_10pkcs1_tool4tool13pkcs1_program11output_file14write_in_placeRNtNtB8_10rattle_std11HostRuntimeEB8_,"ax",@progbits
	.p2align	4, 0x90
	.type	_RINvNtNtNtCs00000000001_10pkcs1_tool4tool13pkcs1_program11output_file14write_in_placeRNtNtB8_10rattle_std11HostRuntimeEB8_,@function
_RINvNtNtNtCs00000000001_10pkcs1_tool4tool13pkcs1_program11output_file14write_in_placeRNtNtB8_10rattle_std11HostRuntimeEB8_:
	.cfi_startproc
	endbr64
	pushq	%rbp
	.cfi_def_cfa_offset 16
	pushq	%r15
	.cfi_def_cfa_offset 24
	pushq	%r14
	.cfi_def_cfa_offset 32
	pushq	%r13
	.cfi_def_cfa_offset 40
	pushq	%r12
	.cfi_def_cfa_offset 48
	pushq	%rbx
	.cfi_def_cfa_offset 56
	subq	$4096, %rsp
	.cfi_adjust_cfa_offset 4096
	movq	$0, (%rsp)
	subq	$4096, %rsp
	.cfi_adjust_cfa_offset 4096
	movq	$0, (%rsp)
	pushq	%rax
	.cfi_def_cfa_offset 8256
	.cfi_offset %rbx, -56
	.cfi_offset %r12, -48
	.cfi_offset %r13, -40
	.cfi_offset %r14, -32
	.cfi_offset %r15, -24
	.cfi_offset %rbp, -16
	movq	%rcx, %rbx
	movq	%rdx, %r14
	movq	%rsi, %r15
	movq	%rdi, %r12
	movq	%rsp, %r13
	movl	$4096, %edx
	movq	%r13, %rdi
	xorl	%esi, %esi
	callq	memset
	cmpq	$4096, %r15
	ja	.LBB46_22
	movq	%r13, %rdi
	movq	%r12, %rsi
	movq	%r15, %rdx
	callq	memcpy
	leaq	7(%rsp), %rax
	andq	$-8, %rax
	subq	%r13, %rax
	jne	.LBB46_13
	xorl	%eax, %eax
	jmp	.LBB46_3
.LBB46_13:
	xorl	%ecx, %ecx
	.p2align	4, 0x90
.LBB46_14:
	cmpb	$0, (%rsp,%rcx)
	je	.LBB46_15
	incq	%rcx
	cmpq	%rcx, %rax
	jne	.LBB46_14
.LBB46_3:
	movabsq	$-9187201950435737472, %rcx
	movabsq	$72340172838076672, %rdx
	.p2align	4, 0x90
.LBB46_4:
	movq	(%rsp,%rax), %rsi
	movq	8(%rsp,%rax), %rdi
	movq	%rdx, %r8
	subq	%rsi, %r8
	orq	%rsi, %r8
	movq	%rdx, %rsi
	subq	%rdi, %rsi
	orq	%rdi, %rsi
	andq	%rcx, %r8
	andq	%rsi, %r8
	cmpq	%rcx, %r8
	jne	.LBB46_5
	leaq	16(%rax), %r8
	cmpq	$4064, %rax
	movq	%r8, %rax
	jbe	.LBB46_4
	movq	%r8, %rsi
	subq	$4096, %rsi
	jne	.LBB46_8
	xorl	%edx, %edx
	testq	%rdx, %rdx
	cmoveq	%rdx, %r13
	jne	.LBB46_20
	jmp	.LBB46_22
.LBB46_5:
	leaq	(%rsp,%rax), %rdi
	movl	$4096, %esi
	subq	%rax, %rsi
	jmp	.LBB46_9
.LBB46_15:
	movl	$1, %edx
	testq	%rdx, %rdx
	cmoveq	%rdx, %r13
	jne	.LBB46_20
	jmp	.LBB46_22
.LBB46_8:
	negq	%rsi
	leaq	(%rsp,%r8), %rdi
	movq	%r8, %rax
.LBB46_9:
	xorl	%edx, %edx
	xorl	%ecx, %ecx
	.p2align	4, 0x90
.LBB46_10:
	cmpb	$0, (%rdi,%rcx)
	je	.LBB46_12
	incq	%rcx
	cmpq	%rcx, %rsi
	jne	.LBB46_10
	testq	%rdx, %rdx
	cmoveq	%rdx, %r13
	jne	.LBB46_20
	jmp	.LBB46_22
.LBB46_12:
	addq	%rax, %rcx
	movl	$1, %edx
	testq	%rdx, %rdx
	cmoveq	%rdx, %r13
	je	.LBB46_22
.LBB46_20:
	cmpq	%r15, %rcx
	jne	.LBB46_22
	movq	%r13, %rdi
	movq	%r12, %rsi
	movq	%r15, %rdx
	callq	memcmp
	testl	%eax, %eax
	je	.LBB46_23
.LBB46_22:
	movl	$1024, %r12d
.LBB46_26:
	movl	$1, %ecx
	xorl	%r15d, %r15d
.LBB46_27:
	orq	%r15, %r12
	orl	%r12d, %ecx
	movb	$1, %bpl
	testb	$1, %cl
	jne	.LBB46_40
	shrq	$32, %r12
	xorps	%xmm0, %xmm0
	movups	%xmm0, 12(%rsp)
	movaps	%xmm0, (%rsp)
	movq	%rsp, %rsi
	movl	%r12d, %edi
	callq	pkcs1_os_look_at
	testq	%rax, %rax
	js	.LBB46_29
	je	.LBB46_31
	movabsq	$9223372032559808512, %rax
	andq	%rax, %r15
	xorl	%eax, %eax
	orl	%r15d, %eax
	testb	$1, %al
	je	.LBB46_34
	jmp	.LBB46_40
.LBB46_29:
	addq	$4, %rax
	movq	%rax, %rcx
	shlq	$8, %rcx
	movl	$512, %edx
	subq	%rcx, %rdx
	cmpq	$3, %rax
	movl	$1024, %r15d
	cmovbq	%rdx, %r15
	jmp	.LBB46_32
.LBB46_31:
	movl	$256, %r15d
.LBB46_32:
	movl	%r12d, %edi
	callq	pkcs1_os_close
	movl	$1, %eax
	orl	%r15d, %eax
	testb	$1, %al
	jne	.LBB46_40
.LBB46_34:
	shrq	$32, %r15
	movb	$7, %bpl
	testq	%rbx, %rbx
	je	.LBB46_39
	xorl	%r12d, %r12d
	movq	pkcs1_os_write@GOTPCREL(%rip), %r13
	.p2align	4, 0x90
.LBB46_37:
	movq	%rbx, %rdx
	subq	%r12, %rdx
	leaq	(%r14,%r12), %rsi
	movl	%r15d, %edi
	callq	*%r13
	testq	%rax, %rax
	jle	.LBB46_38
	addq	%rax, %r12
	cmpq	%rbx, %r12
	jb	.LBB46_37
	jmp	.LBB46_39
.LBB46_38:
	movb	$4, %bpl
.LBB46_39:
	movl	%r15d, %edi
	callq	pkcs1_os_close
.LBB46_40:
	movl	%ebp, %eax
	addq	$8200, %rsp
	.cfi_def_cfa_offset 56
	popq	%rbx
	.cfi_def_cfa_offset 48
	popq	%r12
	.cfi_def_cfa_offset 40
	popq	%r13
	.cfi_def_cfa_offset 32
	popq	%r14
	.cfi_def_cfa_offset 24
	popq	%r15
	.cfi_def_cfa_offset 16
	popq	%rbp
	.cfi_def_cfa_offset 8
	retq
.LBB46_23:
	.cfi_def_cfa_offset 8256
	movzbl	(%rsp), %ebp
	leaq	1(%rsp), %rsi
	leaq	4105(%rsp), %rdi
	movl	$4095, %edx
	callq	memcpy
	movb	%bpl, 4104(%rsp)
	leaq	4104(%rsp), %rdi
	movl	$1, %esi
	movl	$438, %edx
	callq	pkcs1_os_open
	testq	%rax, %rax
	js	.LBB46_24
	movq	%rax, %rdx
	shlq	$32, %rdx
	xorl	%r15d, %r15d
	xorl	%ecx, %ecx
	cmpq	$2147483647, %rax
	seta	%cl
	cmovbeq	%rdx, %r15
	movl	$1024, %r12d
	jmp	.LBB46_27
.LBB46_24:
	addq	$4, %rax
	movl	$1024, %r12d
	cmpq	$3, %rax
	jae	.LBB46_26
	shlq	$8, %rax
	movl	$512, %r12d
	subq	%rax, %r12
	jmp	.LBB46_26
.Lfunc_end46:
	.size	_RINvNtNtNtCs00000000001_10pkcs1_tool4tool13pkcs1_program11output_file14write_in_placeRNtNtB8_10rattle_std11HostRuntimeEB8_, .Lfunc_end46-_RINvNtNtNtCs00000000001_10pkcs1_tool4tool13pkcs1_program11output_file14write_in_placeRNtNtB8_10rattle_std11HostRuntimeEB8_
	.cfi_endproc

	.section	.rodata.cst16,"aM",@progbits,16
	.p2align	4, 0x0
.LCPI47_0:
	.byte	15
	.byte	15
	.byte	15
	.byte	15
	.byte	15
	.byte	15
	.byte	15
	.byte	15
	.zero	1
	.zero	1
	.zero	1
	.zero	1
	.zero	1
	.zero	1
	.zero	1
	.zero	1
.LCPI47_1:
	.byte	9
	.byte	9
	.byte	9
	.byte	9
	.byte	9
	.byte	9
	.byte	9
	.byte	9
	.zero	1
	.zero	1
	.zero	1
	.zero	1
	.zero	1
	.zero	1
	.zero	1
	.zero	1
.LCPI47_2:
	.byte	39
	.byte	39
	.byte	39
	.byte	39
	.byte	39
	.byte	39
	.byte	39
	.byte	39
	.zero	1
	.zero	1
	.zero	1
	.zero	1
	.zero	1
	.zero	1
	.zero	1
	.zero	1
.LCPI47_3:
	.zero	16,15
.LCPI47_4:
	.byte	159
	.byte	159
	.byte	159
	.byte	159
	.byte	159
	.byte	159
	.byte	159
	.byte	159
	.zero	1
	.zero	1
	.zero	1
	.zero	1
	.zero	1
	.zero	1
	.zero	1
	.zero	1
.LCPI47_5:
	.zero	16,48
	.section	.text._RNvNtNtNtCs00000000001_10pkcs1_tool4tool13pkcs1_program17parameter_answers13put_spellings,"ax",@progbits
	.p2align	4, 0x90
	.type	_RNvNtNtNtCs00000000001_10pkcs1_tool4tool13pkcs1_program17parameter_answers13put_spellings,@function
_RNvNtNtNtCs00000000001_10pkcs1_tool4tool13pkcs1_program17parameter_answers13put_spellings:
	.cfi_startproc
	endbr64
	pushq	%rbp
	.cfi_def_cfa_offset 16
	pushq	%r15
	.cfi_def_cfa_offset 24
	pushq	%r14
	.cfi_def_cfa_offset 32
	pushq	%r13
	.cfi_def_cfa_offset 40
	pushq	%r12
	.cfi_def_cfa_offset 48
	pushq	%rbx
	.cfi_def_cfa_offset 56
	subq	$88, %rsp
	.cfi_def_cfa_offset 144
	.cfi_offset %rbx, -56
	.cfi_offset %r12, -48
	.cfi_offset %r13, -40
	.cfi_offset %r14, -32
	.cfi_offset %r15, -24
	.cfi_offset %rbp, -16
	movq	%r8, %rbx
	movq	%rcx, %r14
	movq	%rsi, %r12
	movq	%rdi, %rsi
	movq	(%r8), %rbp
	movq	16(%r8), %r15
	movq	%rbp, %rax
	subq	%r15, %rax
	cmpq	%r12, %rax
	jae	.LBB47_5
	movq	%r15, %r13
	movb	$1, %cl
	addq	%r12, %r13
	jb	.LBB47_48
	movq	%r14, 8(%rsp)
	leaq	(,%rbp,2), %rax
	cmpq	%r13, %rax
	cmovbeq	%r13, %rax
	cmpq	$9, %rax
	movl	$8, %r14d
	cmovaeq	%rax, %r14
	testq	%r14, %r14
	js	.LBB47_48
	testq	%rbp, %rbp
	movq	%rdx, 16(%rsp)
	movq	%rsi, 24(%rsp)
	jne	.LBB47_42
	xorl	%eax, %eax
	jmp	.LBB47_43
.LBB47_5:
	movq	%rdx, 16(%rsp)
	movq	8(%rbx), %rax
	leaq	(%r15,%r12), %r13
.LBB47_6:
	movq	%rax, 8(%rsp)
	addq	%rax, %r15
	movq	%r15, %rdi
	movq	%r12, %rdx
	callq	memcpy
	movq	%r13, 16(%rbx)
	cmpq	%r13, %rbp
	jne	.LBB47_11
	movb	$1, %cl
	cmpq	$-1, %r13
	je	.LBB47_48
	movq	%r14, %r12
	leaq	1(%r13), %r15
	leaq	(,%r13,2), %rax
	cmpq	%r15, %rax
	cmovbeq	%r15, %rax
	cmpq	$9, %rax
	movl	$8, %r14d
	cmovaeq	%rax, %r14
	testq	%r14, %r14
	js	.LBB47_48
	testq	%r13, %r13
	jne	.LBB47_45
	xorl	%eax, %eax
	jmp	.LBB47_46
.LBB47_11:
	leaq	1(%r13), %r15
	movq	8(%rsp), %rax
.LBB47_12:
	movb	$32, (%rax,%r13)
	movq	%r15, 16(%rbx)
	movq	%r14, %rdi
	movq	%rbx, %rsi
	callq	_RNvNtNtNtCs00000000001_10pkcs1_tool4tool13pkcs1_program6digits11put_decimal
	movb	$1, %cl
	testb	%al, %al
	jne	.LBB47_48
	leaq	(%r14,%r14,2), %rax
	movq	16(%rsp), %r9
	leaq	(%r9,%rax,8), %rax
	movq	%rax, 24(%rsp)
.LBB47_14:
	cmpq	24(%rsp), %r9
	setne	8(%rsp)
	je	.LBB47_41
	movq	8(%r9), %r12
	movq	16(%r9), %r15
	movq	16(%rbx), %rbp
	cmpq	%rbp, (%rbx)
	jne	.LBB47_20
	cmpq	$-1, %rbp
	je	.LBB47_41
	leaq	1(%rbp), %rcx
	leaq	(,%rbp,2), %r14
	cmpq	%rcx, %r14
	cmovbeq	%rcx, %r14
	cmpq	$9, %r14
	movl	$8, %eax
	cmovbq	%rax, %r14
	testq	%r14, %r14
	js	.LBB47_41
	testq	%rbp, %rbp
	movq	%r9, 16(%rsp)
	movq	%rcx, 80(%rsp)
	jne	.LBB47_21
	xorl	%eax, %eax
	jmp	.LBB47_22
	.p2align	4, 0x90
.LBB47_20:
	movq	8(%rbx), %rax
	leaq	1(%rbp), %r13
	movb	$32, (%rax,%rbp)
	movq	%r13, 16(%rbx)
	testq	%r15, %r15
	jns	.LBB47_24
	jmp	.LBB47_41
.LBB47_21:
	movq	8(%rbx), %rax
	movq	%rax, 32(%rsp)
	movq	%rbp, 48(%rsp)
	movl	$1, %eax
.LBB47_22:
	movq	%rax, 40(%rsp)
	movl	$1, %esi
	leaq	56(%rsp), %rdi
	movq	%r14, %rdx
	leaq	32(%rsp), %rcx
	callq	_RINvNtCs00000000002_5alloc7raw_vec11finish_growNtNtB4_5alloc6GlobalECs00000000001_10pkcs1_tool
	cmpl	$1, 56(%rsp)
	je	.LBB47_47
	movq	64(%rsp), %rax
	movq	%rax, 8(%rbx)
	movq	%r14, (%rbx)
	movq	16(%rsp), %r9
	movq	80(%rsp), %r13
	movb	$32, (%rax,%rbp)
	movq	%r13, 16(%rbx)
	testq	%r15, %r15
	js	.LBB47_41
.LBB47_24:
	leaq	(%r15,%r15), %r14
	movq	%r13, %rsi
	addq	%r14, %rsi
	jb	.LBB47_41
	movq	%r9, %rbp
	movq	%rbx, %rdi
	callq	_RNvMs_NtNtCs00000000001_10pkcs1_tool10rattle_std3vecINtNtNtB6_7library3vec3VechE6resizeB8_
	testb	%al, %al
	movzbl	8(%rsp), %ecx
	jne	.LBB47_48
	movq	16(%rbx), %rsi
	movq	%rsi, %rax
	subq	%r13, %rax
	jb	.LBB47_52
	cmpq	%rax, %r14
	jne	.LBB47_54
	movq	%rbp, %r9
	addq	$24, %r9
	testq	%r15, %r15
	movdqa	.LCPI47_0(%rip), %xmm4
	movdqa	.LCPI47_1(%rip), %xmm5
	movdqa	.LCPI47_2(%rip), %xmm6
	movdqa	.LCPI47_3(%rip), %xmm7
	movdqa	.LCPI47_4(%rip), %xmm8
	movdqa	.LCPI47_5(%rip), %xmm9
	je	.LBB47_14
	movq	8(%rbx), %rcx
	cmpq	$8, %r15
	jae	.LBB47_31
	xorl	%eax, %eax
	jmp	.LBB47_34
.LBB47_31:
	leaq	(%rcx,%r13), %rdx
	movq	%r15, %rax
	movabsq	$9223372036854775800, %rsi
	andq	%rsi, %rax
	xorl	%esi, %esi
	.p2align	4, 0x90
.LBB47_32:
	movq	(%r12,%rsi), %xmm0
	movdqa	%xmm0, %xmm1
	movdqa	%xmm0, %xmm2
	pminub	%xmm8, %xmm2
	pcmpeqb	%xmm0, %xmm2
	pand	%xmm4, %xmm0
	movdqa	%xmm0, %xmm3
	pcmpgtb	%xmm5, %xmm3
	pand	%xmm6, %xmm3
	paddb	%xmm0, %xmm3
	psrlw	$4, %xmm1
	pand	%xmm7, %xmm1
	pandn	%xmm6, %xmm2
	paddb	%xmm1, %xmm2
	punpcklbw	%xmm3, %xmm2
	paddb	%xmm9, %xmm2
	movdqu	%xmm2, (%rdx,%rsi,2)
	addq	$8, %rsi
	cmpq	%rsi, %rax
	jne	.LBB47_32
	cmpq	%r15, %rax
	je	.LBB47_14
.LBB47_34:
	addq	%r13, %rcx
	incq	%rcx
	jmp	.LBB47_36
	.p2align	4, 0x90
.LBB47_35:
	addb	%r8b, %sil
	addb	$48, %sil
	shrb	$4, %dl
	addb	%dl, %dil
	addb	$48, %dil
	movb	%dil, -1(%rcx,%rax,2)
	movb	%sil, (%rcx,%rax,2)
	leaq	1(%rax), %rdx
	movq	%rdx, %rax
	cmpq	%rdx, %r15
	je	.LBB47_14
.LBB47_36:
	movzbl	(%r12,%rax), %edx
	movl	%edx, %r8d
	andb	$15, %r8b
	movl	$39, %edi
	movl	$39, %esi
	cmpb	$10, %r8b
	jae	.LBB47_38
	xorl	%esi, %esi
.LBB47_38:
	cmpb	$-96, %dl
	jae	.LBB47_35
	xorl	%edi, %edi
	jmp	.LBB47_35
.LBB47_41:
	movzbl	8(%rsp), %ecx
.LBB47_48:
	movl	%ecx, %eax
	addq	$88, %rsp
	.cfi_def_cfa_offset 56
	popq	%rbx
	.cfi_def_cfa_offset 48
	popq	%r12
	.cfi_def_cfa_offset 40
	popq	%r13
	.cfi_def_cfa_offset 32
	popq	%r14
	.cfi_def_cfa_offset 24
	popq	%r15
	.cfi_def_cfa_offset 16
	popq	%rbp
	.cfi_def_cfa_offset 8
	retq
.LBB47_42:
	.cfi_def_cfa_offset 144
	movq	8(%rbx), %rax
	movq	%rax, 32(%rsp)
	movq	%rbp, 48(%rsp)
	movl	$1, %eax
.LBB47_43:
	movq	%rax, 40(%rsp)
	leaq	56(%rsp), %rdi
	leaq	32(%rsp), %rcx
	movl	$1, %esi
	movq	%r14, %rdx
	callq	_RINvNtCs00000000002_5alloc7raw_vec11finish_growNtNtB4_5alloc6GlobalECs00000000001_10pkcs1_tool
	cmpl	$1, 56(%rsp)
	je	.LBB47_47
	movq	64(%rsp), %rax
	movq	%rax, 8(%rbx)
	movq	%r14, (%rbx)
	movq	%r14, %rbp
	movq	8(%rsp), %r14
	movq	24(%rsp), %rsi
	jmp	.LBB47_6
.LBB47_45:
	movq	8(%rsp), %rax
	movq	%rax, 32(%rsp)
	movq	%r13, 48(%rsp)
	movl	$1, %eax
.LBB47_46:
	movq	%rax, 40(%rsp)
	leaq	56(%rsp), %rdi
	leaq	32(%rsp), %rcx
	movl	$1, %esi
	movq	%r14, %rdx
	callq	_RINvNtCs00000000002_5alloc7raw_vec11finish_growNtNtB4_5alloc6GlobalECs00000000001_10pkcs1_tool
	cmpl	$1, 56(%rsp)
	jne	.LBB47_49
.LBB47_47:
	movb	$1, %cl
	jmp	.LBB47_48
.LBB47_49:
	movq	64(%rsp), %rax
	movq	%rax, 8(%rbx)
	movq	%r14, (%rbx)
	movq	%r12, %r14
	jmp	.LBB47_12
.LBB47_52:
	movq	%r13, %rdi
	ud2
.LBB47_54:
	ud2
.Lfunc_end47:
	.size	_RNvNtNtNtCs00000000001_10pkcs1_tool4tool13pkcs1_program17parameter_answers13put_spellings, .Lfunc_end47-_RNvNtNtNtCs00000000001_10pkcs1_tool4tool13pkcs1_program17parameter_answers13put_spellings
	.cfi_endproc

	.section	.rodata.cst16,"aM",@progbits,16
	.p2align	4, 0x0
.LCPI48_0:
	.byte	15
	.byte	15
	.byte	15
	.byte	15
	.byte	15
	.byte	15
	.byte	15
	.byte	15
	.zero	1
	.zero	1
	.zero	1
	.zero	1
	.zero	1
	.zero	1
	.zero	1
	.zero	1
.LCPI48_1:
	.byte	9
	.byte	9
	.byte	9
	.byte	9
	.byte	9
	.byte	9
	.byte	9
	.byte	9
	.zero	1
	.zero	1
	.zero	1
	.zero	1
	.zero	1
	.zero	1
	.zero	1
	.zero	1
.LCPI48_2:
	.byte	39
	.byte	39
	.byte	39
	.byte	39
	.byte	39
	.byte	39
	.byte	39
	.byte	39
	.zero	1
	.zero	1
	.zero	1
	.zero	1
	.zero	1
	.zero	1
	.zero	1
	.zero	1
.LCPI48_3:
	.zero	16,15
.LCPI48_4:
	.byte	159
	.byte	159
	.byte	159
	.byte	159
	.byte	159
	.byte	159
	.byte	159
	.byte	159
	.zero	1
	.zero	1
	.zero	1
	.zero	1
	.zero	1
	.zero	1
	.zero	1
	.zero	1
.LCPI48_5:
	.zero	16,48
	.section	.text._RNvNtNtNtCs00000000001_10pkcs1_tool4tool13pkcs1_program14parameter_text14put_identifier,"ax",@progbits
	.p2align	4, 0x90
	.type	_RNvNtNtNtCs00000000001_10pkcs1_tool4tool13pkcs1_program14parameter_text14put_identifier,@function
_RNvNtNtNtCs00000000001_10pkcs1_tool4tool13pkcs1_program14parameter_text14put_identifier:
	.cfi_startproc
	endbr64
	pushq	%rbp
	.cfi_def_cfa_offset 16
	pushq	%r15
	.cfi_def_cfa_offset 24
	pushq	%r14
	.cfi_def_cfa_offset 32
	pushq	%r13
	.cfi_def_cfa_offset 40
	pushq	%r12
	.cfi_def_cfa_offset 48
	pushq	%rbx
	.cfi_def_cfa_offset 56
	subq	$56, %rsp
	.cfi_def_cfa_offset 112
	.cfi_offset %rbx, -56
	.cfi_offset %r12, -48
	.cfi_offset %r13, -40
	.cfi_offset %r14, -32
	.cfi_offset %r15, -24
	.cfi_offset %rbp, -16
	movzbl	39(%rdi), %r15d
	cmpq	$40, %r15
	jae	.LBB48_32
	movq	%rsi, %rbx
	movq	16(%rsi), %r13
	leal	(%r15,%r15), %ebp
	movq	%r13, %rsi
	movb	$1, %r14b
	addq	%rbp, %rsi
	jb	.LBB48_19
	movq	%rdi, %r12
	movq	%rbx, %rdi
	callq	_RNvMs_NtNtCs00000000001_10pkcs1_tool10rattle_std3vecINtNtNtB6_7library3vec3VechE6resizeB8_
	testb	%al, %al
	jne	.LBB48_19
	movq	16(%rbx), %r14
	movq	%r14, %rax
	subq	%r13, %rax
	jb	.LBB48_33
	cmpq	%rax, %rbp
	jne	.LBB48_35
	movq	8(%rbx), %rax
	testq	%r15, %r15
	je	.LBB48_13
	cmpb	$8, %r15b
	jae	.LBB48_8
	xorl	%ecx, %ecx
	jmp	.LBB48_20
.LBB48_8:
	movl	%r15d, %ecx
	andl	$56, %ecx
	movq	(%r12), %xmm1
	movdqa	.LCPI48_0(%rip), %xmm2
	pand	%xmm1, %xmm2
	movdqa	%xmm2, %xmm3
	pcmpgtb	.LCPI48_1(%rip), %xmm3
	movdqa	.LCPI48_2(%rip), %xmm0
	pand	%xmm0, %xmm3
	movdqa	.LCPI48_4(%rip), %xmm4
	pminub	%xmm1, %xmm4
	pcmpeqb	%xmm1, %xmm4
	psrlw	$4, %xmm1
	pand	.LCPI48_3(%rip), %xmm1
	paddb	%xmm2, %xmm3
	pandn	%xmm0, %xmm4
	paddb	%xmm1, %xmm4
	punpcklbw	%xmm3, %xmm4
	paddb	.LCPI48_5(%rip), %xmm4
	movdqu	%xmm4, (%rax,%r13)
	cmpq	$8, %rcx
	je	.LBB48_12
	movq	8(%r12), %xmm1
	movdqa	.LCPI48_0(%rip), %xmm2
	pand	%xmm1, %xmm2
	movdqa	%xmm2, %xmm3
	pcmpgtb	.LCPI48_1(%rip), %xmm3
	pand	%xmm0, %xmm3
	movdqa	.LCPI48_4(%rip), %xmm4
	pminub	%xmm1, %xmm4
	pcmpeqb	%xmm1, %xmm4
	psrlw	$4, %xmm1
	pand	.LCPI48_3(%rip), %xmm1
	paddb	%xmm2, %xmm3
	pandn	%xmm0, %xmm4
	paddb	%xmm1, %xmm4
	punpcklbw	%xmm3, %xmm4
	paddb	.LCPI48_5(%rip), %xmm4
	movdqu	%xmm4, 16(%rax,%r13)
	cmpl	$16, %ecx
	je	.LBB48_12
	movq	16(%r12), %xmm1
	movdqa	.LCPI48_0(%rip), %xmm2
	pand	%xmm1, %xmm2
	movdqa	%xmm2, %xmm3
	pcmpgtb	.LCPI48_1(%rip), %xmm3
	pand	%xmm0, %xmm3
	movdqa	.LCPI48_4(%rip), %xmm4
	pminub	%xmm1, %xmm4
	pcmpeqb	%xmm1, %xmm4
	psrlw	$4, %xmm1
	pand	.LCPI48_3(%rip), %xmm1
	paddb	%xmm2, %xmm3
	pandn	%xmm0, %xmm4
	paddb	%xmm1, %xmm4
	punpcklbw	%xmm3, %xmm4
	paddb	.LCPI48_5(%rip), %xmm4
	movdqu	%xmm4, 32(%rax,%r13)
	cmpl	$24, %ecx
	je	.LBB48_12
	movq	24(%r12), %xmm1
	movdqa	.LCPI48_0(%rip), %xmm2
	pand	%xmm1, %xmm2
	movdqa	%xmm2, %xmm3
	pcmpgtb	.LCPI48_1(%rip), %xmm3
	pand	%xmm0, %xmm3
	paddb	%xmm2, %xmm3
	movdqa	.LCPI48_4(%rip), %xmm2
	pminub	%xmm1, %xmm2
	pcmpeqb	%xmm1, %xmm2
	psrlw	$4, %xmm1
	pand	.LCPI48_3(%rip), %xmm1
	pandn	%xmm0, %xmm2
	paddb	%xmm1, %xmm2
	punpcklbw	%xmm3, %xmm2
	paddb	.LCPI48_5(%rip), %xmm2
	movdqu	%xmm2, 48(%rax,%r13)
.LBB48_12:
	cmpl	%r15d, %ecx
	jne	.LBB48_20
.LBB48_13:
	cmpq	%r14, (%rbx)
	jne	.LBB48_17
	cmpq	$-1, %r14
	je	.LBB48_34
	leaq	1(%r14), %r12
	leaq	(%r14,%r14), %rcx
	cmpq	%r12, %rcx
	cmovbeq	%r12, %rcx
	cmpq	$9, %rcx
	movl	$8, %r15d
	cmovaeq	%rcx, %r15
	testq	%r15, %r15
	jns	.LBB48_26
.LBB48_34:
	movb	$1, %r14b
	jmp	.LBB48_19
.LBB48_17:
	leaq	1(%r14), %r12
.LBB48_18:
	movb	$47, (%rax,%r14)
	movq	%r12, 16(%rbx)
	xorl	%r14d, %r14d
.LBB48_19:
	movl	%r14d, %eax
	addq	$56, %rsp
	.cfi_def_cfa_offset 56
	popq	%rbx
	.cfi_def_cfa_offset 48
	popq	%r12
	.cfi_def_cfa_offset 40
	popq	%r13
	.cfi_def_cfa_offset 32
	popq	%r14
	.cfi_def_cfa_offset 24
	popq	%r15
	.cfi_def_cfa_offset 16
	popq	%rbp
	.cfi_def_cfa_offset 8
	retq
.LBB48_20:
	.cfi_def_cfa_offset 112
	leaq	(%rax,%r13), %rdx
	incq	%rdx
	jmp	.LBB48_22
	.p2align	4, 0x90
.LBB48_21:
	addb	%r9b, %dil
	addb	$48, %dil
	shrb	$4, %sil
	addb	%sil, %r8b
	addb	$48, %r8b
	movb	%r8b, -1(%rdx,%rcx,2)
	movb	%dil, (%rdx,%rcx,2)
	leaq	1(%rcx), %rsi
	movq	%rsi, %rcx
	cmpq	%rsi, %r15
	je	.LBB48_13
.LBB48_22:
	movzbl	(%r12,%rcx), %esi
	movl	%esi, %r9d
	andb	$15, %r9b
	movl	$39, %r8d
	movl	$39, %edi
	cmpb	$10, %r9b
	jae	.LBB48_24
	xorl	%edi, %edi
.LBB48_24:
	cmpb	$-96, %sil
	jae	.LBB48_21
	xorl	%r8d, %r8d
	jmp	.LBB48_21
.LBB48_26:
	testq	%r14, %r14
	jne	.LBB48_28
	xorl	%eax, %eax
	jmp	.LBB48_29
.LBB48_28:
	movq	%rax, 8(%rsp)
	movq	%r14, 24(%rsp)
	movl	$1, %eax
.LBB48_29:
	movq	%rax, 16(%rsp)
	leaq	32(%rsp), %rdi
	leaq	8(%rsp), %rcx
	movl	$1, %esi
	movq	%r15, %rdx
	callq	_RINvNtCs00000000002_5alloc7raw_vec11finish_growNtNtB4_5alloc6GlobalECs00000000001_10pkcs1_tool
	cmpl	$1, 32(%rsp)
	je	.LBB48_34
	movq	40(%rsp), %rax
	movq	%rax, 8(%rbx)
	movq	%r15, (%rbx)
	jmp	.LBB48_18
.LBB48_32:
	movl	$39, %esi
	movq	%r15, %rdi
	ud2
.LBB48_33:
	movq	%r13, %rdi
	movq	%r14, %rsi
	ud2
.LBB48_35:
	ud2
.Lfunc_end48:
	.size	_RNvNtNtNtCs00000000001_10pkcs1_tool4tool13pkcs1_program14parameter_text14put_identifier, .Lfunc_end48-_RNvNtNtNtCs00000000001_10pkcs1_tool4tool13pkcs1_program14parameter_text14put_identifier
	.cfi_endproc

	.section	.rodata.cst16,"aM",@progbits,16
	.p2align	4, 0x0
.LCPI49_0:
	.byte	15
	.byte	15
	.byte	15
	.byte	15
	.byte	15
	.byte	15
	.byte	15
	.byte	15
	.zero	1
	.zero	1
	.zero	1
	.zero	1
	.zero	1
	.zero	1
	.zero	1
	.zero	1
.LCPI49_1:
	.byte	9
	.byte	9
	.byte	9
	.byte	9
	.byte	9
	.byte	9
	.byte	9
	.byte	9
	.zero	1
	.zero	1
	.zero	1
	.zero	1
	.zero	1
	.zero	1
	.zero	1
	.zero	1
.LCPI49_2:
	.byte	39
	.byte	39
	.byte	39
	.byte	39
	.byte	39
	.byte	39
	.byte	39
	.byte	39
	.zero	1
	.zero	1
	.zero	1
	.zero	1
	.zero	1
	.zero	1
	.zero	1
	.zero	1
.LCPI49_3:
	.zero	16,15
.LCPI49_4:
	.byte	159
	.byte	159
	.byte	159
	.byte	159
	.byte	159
	.byte	159
	.byte	159
	.byte	159
	.zero	1
	.zero	1
	.zero	1
	.zero	1
	.zero	1
	.zero	1
	.zero	1
	.zero	1
.LCPI49_5:
	.zero	16,48
	.section	.text._RNvNtNtNtCs00000000001_10pkcs1_tool4tool13pkcs1_program14parameter_text9put_plain,"ax",@progbits
	.p2align	4, 0x90
	.type	_RNvNtNtNtCs00000000001_10pkcs1_tool4tool13pkcs1_program14parameter_text9put_plain,@function
_RNvNtNtNtCs00000000001_10pkcs1_tool4tool13pkcs1_program14parameter_text9put_plain:
	.cfi_startproc
	endbr64
	pushq	%rbp
	.cfi_def_cfa_offset 16
	pushq	%r15
	.cfi_def_cfa_offset 24
	pushq	%r14
	.cfi_def_cfa_offset 32
	pushq	%r13
	.cfi_def_cfa_offset 40
	pushq	%r12
	.cfi_def_cfa_offset 48
	pushq	%rbx
	.cfi_def_cfa_offset 56
	subq	$56, %rsp
	.cfi_def_cfa_offset 112
	.cfi_offset %rbx, -56
	.cfi_offset %r12, -48
	.cfi_offset %r13, -40
	.cfi_offset %r14, -32
	.cfi_offset %r15, -24
	.cfi_offset %rbp, -16
	movq	%rsi, %r14
	movq	%rdi, %r15
	callq	_RNvNtNtNtCs00000000001_10pkcs1_tool4tool13pkcs1_program14parameter_text14put_identifier
	movb	$1, %bl
	testb	%al, %al
	jne	.LBB49_13
	movq	40(%r15), %rax
	testq	%rax, %rax
	je	.LBB49_2
	movq	16(%r14), %r13
	cmpq	$-3, %r13
	ja	.LBB49_13
	movq	%rax, 24(%rsp)
	movzbl	56(%r15), %ebp
	leaq	2(%r13), %rsi
	movq	%r14, %rdi
	callq	_RNvMs_NtNtCs00000000001_10pkcs1_tool10rattle_std3vecINtNtNtB6_7library3vec3VechE6resizeB8_
	testb	%al, %al
	jne	.LBB49_13
	movq	16(%r14), %r12
	movq	%r12, %rax
	subq	%r13, %rax
	jb	.LBB49_20
	cmpq	$2, %rax
	jne	.LBB49_43
	movl	%ebp, %eax
	andb	$15, %al
	xorl	%ecx, %ecx
	cmpb	$10, %al
	movl	$39, %edx
	movl	$0, %esi
	cmovael	%edx, %esi
	addb	%al, %sil
	addb	$48, %sil
	movl	%ebp, %edi
	shrb	$4, %dil
	cmpb	$-96, %bpl
	cmovael	%edx, %ecx
	movq	8(%r14), %rax
	addb	%dil, %cl
	addb	$48, %cl
	movb	%cl, (%rax,%r13)
	movb	%sil, 1(%rax,%r13)
	movq	48(%r15), %r15
	cmpq	%r12, (%r14)
	jne	.LBB49_19
	cmpq	$-1, %r12
	je	.LBB49_13
	leaq	1(%r12), %rbp
	leaq	(%r12,%r12), %rcx
	cmpq	%rbp, %rcx
	cmovbeq	%rbp, %rcx
	cmpq	$9, %rcx
	movl	$8, %r13d
	cmovaeq	%rcx, %r13
	testq	%r13, %r13
	js	.LBB49_13
	movq	%rax, (%rsp)
	movq	%r12, 16(%rsp)
	movq	$1, 8(%rsp)
	leaq	32(%rsp), %rdi
	movq	%rsp, %rcx
	movl	$1, %esi
	movq	%r13, %rdx
	callq	_RINvNtCs00000000002_5alloc7raw_vec11finish_growNtNtB4_5alloc6GlobalECs00000000001_10pkcs1_tool
	cmpl	$1, 32(%rsp)
	je	.LBB49_13
	movq	40(%rsp), %rax
	movq	%rax, 8(%r14)
	movq	%r13, (%r14)
	jmp	.LBB49_25
.LBB49_2:
	movq	16(%r14), %r12
	cmpq	%r12, (%r14)
	jne	.LBB49_3
	cmpq	$-1, %r12
	je	.LBB49_13
	leaq	1(%r12), %r13
	leaq	(%r12,%r12), %rax
	cmpq	%r13, %rax
	cmovbeq	%r13, %rax
	cmpq	$9, %rax
	movl	$8, %r15d
	cmovaeq	%rax, %r15
	testq	%r15, %r15
	js	.LBB49_13
	testq	%r12, %r12
	jne	.LBB49_8
	xorl	%eax, %eax
	jmp	.LBB49_9
.LBB49_3:
	movq	8(%r14), %rax
	leaq	1(%r12), %r13
.LBB49_11:
	movb	$45, (%rax,%r12)
	movq	%r13, 16(%r14)
.LBB49_12:
	xorl	%ebx, %ebx
	jmp	.LBB49_13
.LBB49_19:
	leaq	1(%r12), %rbp
.LBB49_25:
	movb	$58, (%rax,%r12)
	movq	%rbp, 16(%r14)
	testq	%r15, %r15
	js	.LBB49_13
	leaq	(%r15,%r15), %r12
	movq	%rbp, %rsi
	addq	%r12, %rsi
	jb	.LBB49_13
	movq	%r14, %rdi
	callq	_RNvMs_NtNtCs00000000001_10pkcs1_tool10rattle_std3vecINtNtNtB6_7library3vec3VechE6resizeB8_
	testb	%al, %al
	movq	24(%rsp), %r9
	je	.LBB49_28
.LBB49_13:
	movl	%ebx, %eax
	addq	$56, %rsp
	.cfi_def_cfa_offset 56
	popq	%rbx
	.cfi_def_cfa_offset 48
	popq	%r12
	.cfi_def_cfa_offset 40
	popq	%r13
	.cfi_def_cfa_offset 32
	popq	%r14
	.cfi_def_cfa_offset 24
	popq	%r15
	.cfi_def_cfa_offset 16
	popq	%rbp
	.cfi_def_cfa_offset 8
	retq
.LBB49_28:
	.cfi_def_cfa_offset 112
	movq	16(%r14), %rsi
	movq	%rsi, %rax
	subq	%rbp, %rax
	jb	.LBB49_42
	cmpq	%rax, %r12
	jne	.LBB49_43
	testq	%r15, %r15
	je	.LBB49_12
	movq	8(%r14), %rcx
	cmpq	$8, %r15
	jae	.LBB49_39
	xorl	%eax, %eax
	jmp	.LBB49_33
.LBB49_39:
	leaq	(%rcx,%rbp), %rdx
	movabsq	$9223372036854775800, %rax
	andq	%r15, %rax
	xorl	%esi, %esi
	movdqa	.LCPI49_0(%rip), %xmm0
	movdqa	.LCPI49_1(%rip), %xmm1
	movdqa	.LCPI49_2(%rip), %xmm2
	movdqa	.LCPI49_3(%rip), %xmm3
	movdqa	.LCPI49_4(%rip), %xmm4
	movdqa	.LCPI49_5(%rip), %xmm5
	.p2align	4, 0x90
.LBB49_40:
	movq	(%r9,%rsi), %xmm6
	movdqa	%xmm6, %xmm7
	movdqa	%xmm6, %xmm8
	pminub	%xmm4, %xmm8
	pcmpeqb	%xmm6, %xmm8
	pand	%xmm0, %xmm6
	movdqa	%xmm6, %xmm9
	pcmpgtb	%xmm1, %xmm9
	pand	%xmm2, %xmm9
	paddb	%xmm6, %xmm9
	psrlw	$4, %xmm7
	pand	%xmm3, %xmm7
	pandn	%xmm2, %xmm8
	paddb	%xmm7, %xmm8
	punpcklbw	%xmm9, %xmm8
	paddb	%xmm5, %xmm8
	movdqu	%xmm8, (%rdx,%rsi,2)
	addq	$8, %rsi
	cmpq	%rsi, %rax
	jne	.LBB49_40
	cmpq	%r15, %rax
	je	.LBB49_12
.LBB49_33:
	addq	%rbp, %rcx
	incq	%rcx
	xorl	%ebx, %ebx
	jmp	.LBB49_34
	.p2align	4, 0x90
.LBB49_38:
	addb	%r8b, %sil
	addb	$48, %sil
	shrb	$4, %dl
	addb	%dl, %dil
	addb	$48, %dil
	movb	%dil, -1(%rcx,%rax,2)
	movb	%sil, (%rcx,%rax,2)
	leaq	1(%rax), %rdx
	movq	%rdx, %rax
	cmpq	%rdx, %r15
	je	.LBB49_13
.LBB49_34:
	movzbl	(%r9,%rax), %edx
	movl	%edx, %r8d
	andb	$15, %r8b
	movl	$39, %edi
	movl	$39, %esi
	cmpb	$10, %r8b
	jae	.LBB49_36
	xorl	%esi, %esi
.LBB49_36:
	cmpb	$-96, %dl
	jae	.LBB49_38
	xorl	%edi, %edi
	jmp	.LBB49_38
.LBB49_8:
	movq	8(%r14), %rax
	movq	%rax, (%rsp)
	movq	%r12, 16(%rsp)
	movl	$1, %eax
.LBB49_9:
	movq	%rax, 8(%rsp)
	leaq	32(%rsp), %rdi
	movq	%rsp, %rcx
	movl	$1, %esi
	movq	%r15, %rdx
	callq	_RINvNtCs00000000002_5alloc7raw_vec11finish_growNtNtB4_5alloc6GlobalECs00000000001_10pkcs1_tool
	cmpl	$1, 32(%rsp)
	je	.LBB49_13
	movq	40(%rsp), %rax
	movq	%rax, 8(%r14)
	movq	%r15, (%r14)
	jmp	.LBB49_11
.LBB49_20:
	movq	%r13, %rdi
	movq	%r12, %rsi
	ud2
.LBB49_42:
	movq	%rbp, %rdi
	ud2
.LBB49_43:
	ud2
.Lfunc_end49:
	.size	_RNvNtNtNtCs00000000001_10pkcs1_tool4tool13pkcs1_program14parameter_text9put_plain, .Lfunc_end49-_RNvNtNtNtCs00000000001_10pkcs1_tool4tool13pkcs1_program14parameter_text9put_plain
	.cfi_endproc

	.section	.text._RNvNtNtNtCs00000000001_10pkcs1_tool4tool13pkcs1_program14parameter_text15put_hash_fields,"ax",@progbits
	.p2align	4, 0x90
	.type	_RNvNtNtNtCs00000000001_10pkcs1_tool4tool13pkcs1_program14parameter_text15put_hash_fields,@function
_RNvNtNtNtCs00000000001_10pkcs1_tool4tool13pkcs1_program14parameter_text15put_hash_fields:
	.cfi_startproc
	endbr64
	pushq	%rbp
	.cfi_def_cfa_offset 16
	pushq	%r15
	.cfi_def_cfa_offset 24
	pushq	%r14
	.cfi_def_cfa_offset 32
	pushq	%r13
	.cfi_def_cfa_offset 40
	pushq	%r12
	.cfi_def_cfa_offset 48
	pushq	%rbx
	.cfi_def_cfa_offset 56
	subq	$56, %rsp
	.cfi_def_cfa_offset 112
	.cfi_offset %rbx, -56
	.cfi_offset %r12, -48
	.cfi_offset %r13, -40
	.cfi_offset %r14, -32
	.cfi_offset %r15, -24
	.cfi_offset %rbp, -16
	movq	%rdx, %rbx
	movq	%rsi, %r14
	movq	(%rdx), %rax
	movq	16(%rdx), %r12
	movq	%rax, %rcx
	subq	%r12, %rcx
	cmpq	$6, %rcx
	jae	.LBB50_1
	movb	$1, %bpl
	cmpq	$-7, %r12
	ja	.LBB50_52
	leaq	6(%r12), %r13
	leaq	(%rax,%rax), %rcx
	cmpq	%r13, %rcx
	cmovbeq	%r13, %rcx
	cmpq	$9, %rcx
	movl	$8, %r15d
	cmovaeq	%rcx, %r15
	testq	%r15, %r15
	js	.LBB50_52
	testq	%rax, %rax
	movq	%rdi, 48(%rsp)
	jne	.LBB50_6
	xorl	%eax, %eax
	jmp	.LBB50_7
.LBB50_1:
	movq	8(%rbx), %rax
	leaq	6(%r12), %r13
.LBB50_9:
	movw	$15720, 4(%rax,%r12)
	movl	$1935763488, (%rax,%r12)
	movq	%r13, 16(%rbx)
	movq	%rbx, %rsi
	callq	_RNvNtNtNtCs00000000001_10pkcs1_tool4tool13pkcs1_program14parameter_text9put_plain
	movb	$1, %bpl
	testb	%al, %al
	jne	.LBB50_52
	movq	(%rbx), %rax
	movq	16(%rbx), %r12
	movq	%rax, %rcx
	subq	%r12, %rcx
	cmpq	$6, %rcx
	jae	.LBB50_11
	cmpq	$-7, %r12
	ja	.LBB50_52
	leaq	6(%r12), %r13
	leaq	(%rax,%rax), %rcx
	cmpq	%r13, %rcx
	cmovbeq	%r13, %rcx
	cmpq	$9, %rcx
	movl	$8, %r15d
	cmovaeq	%rcx, %r15
	testq	%r15, %r15
	js	.LBB50_52
	testq	%rax, %rax
	jne	.LBB50_16
	xorl	%eax, %eax
	jmp	.LBB50_17
.LBB50_11:
	movq	8(%rbx), %rax
	leaq	6(%r12), %r13
.LBB50_19:
	movw	$15723, 4(%rax,%r12)
	movl	$1935764768, (%rax,%r12)
	movq	%r13, 16(%rbx)
	leaq	72(%r14), %rdi
	movq	%rbx, %rsi
	callq	_RNvNtNtNtCs00000000001_10pkcs1_tool4tool13pkcs1_program14parameter_text14put_identifier
	testb	%al, %al
	jne	.LBB50_52
	testb	$1, (%r14)
	je	.LBB50_21
	movq	16(%rbx), %r12
	cmpq	%r12, (%rbx)
	jne	.LBB50_32
	cmpq	$-1, %r12
	je	.LBB50_52
	leaq	1(%r12), %r13
	leaq	(%r12,%r12), %rax
	cmpq	%r13, %rax
	cmovbeq	%r13, %rax
	cmpq	$9, %rax
	movl	$8, %r15d
	cmovaeq	%rax, %r15
	testq	%r15, %r15
	js	.LBB50_52
	testq	%r12, %r12
	jne	.LBB50_37
	xorl	%eax, %eax
	jmp	.LBB50_38
.LBB50_21:
	movq	16(%rbx), %r15
	cmpq	%r15, (%rbx)
	jne	.LBB50_22
	cmpq	$-1, %r15
	je	.LBB50_52
	leaq	1(%r15), %r12
	leaq	(%r15,%r15), %rax
	cmpq	%r12, %rax
	cmovbeq	%r12, %rax
	cmpq	$9, %rax
	movl	$8, %r14d
	cmovaeq	%rax, %r14
	testq	%r14, %r14
	js	.LBB50_52
	testq	%r15, %r15
	jne	.LBB50_27
	xorl	%eax, %eax
	jmp	.LBB50_28
.LBB50_32:
	movq	8(%rbx), %rax
	leaq	1(%r12), %r13
.LBB50_40:
	addq	$8, %r14
	movb	$91, (%rax,%r12)
	movq	%r13, 16(%rbx)
	movq	%r14, %rdi
	movq	%rbx, %rsi
	callq	_RNvNtNtNtCs00000000001_10pkcs1_tool4tool13pkcs1_program14parameter_text9put_plain
	testb	%al, %al
	jne	.LBB50_52
	movq	16(%rbx), %r15
	cmpq	%r15, (%rbx)
	jne	.LBB50_42
	cmpq	$-1, %r15
	je	.LBB50_52
	leaq	1(%r15), %r12
	leaq	(%r15,%r15), %rax
	cmpq	%r12, %rax
	cmovbeq	%r12, %rax
	cmpq	$9, %rax
	movl	$8, %r14d
	cmovaeq	%rax, %r14
	testq	%r14, %r14
	js	.LBB50_52
	testq	%r15, %r15
	jne	.LBB50_47
	xorl	%eax, %eax
	jmp	.LBB50_48
.LBB50_22:
	movq	8(%rbx), %rax
	leaq	1(%r15), %r12
	movb	$45, (%rax,%r15)
	jmp	.LBB50_51
.LBB50_6:
	movq	8(%rbx), %rcx
	movq	%rcx, (%rsp)
	movq	%rax, 16(%rsp)
	movl	$1, %eax
.LBB50_7:
	movq	%rax, 8(%rsp)
	leaq	24(%rsp), %rdi
	movq	%rsp, %rcx
	movl	$1, %esi
	movq	%r15, %rdx
	callq	_RINvNtCs00000000002_5alloc7raw_vec11finish_growNtNtB4_5alloc6GlobalECs00000000001_10pkcs1_tool
	cmpl	$1, 24(%rsp)
	je	.LBB50_52
	movq	32(%rsp), %rax
	movq	%rax, 8(%rbx)
	movq	%r15, (%rbx)
	movq	48(%rsp), %rdi
	jmp	.LBB50_9
.LBB50_42:
	movq	8(%rbx), %rax
	leaq	1(%r15), %r12
.LBB50_50:
	movb	$93, (%rax,%r15)
.LBB50_51:
	movq	%r12, 16(%rbx)
	xorl	%ebp, %ebp
.LBB50_52:
	movl	%ebp, %eax
	addq	$56, %rsp
	.cfi_def_cfa_offset 56
	popq	%rbx
	.cfi_def_cfa_offset 48
	popq	%r12
	.cfi_def_cfa_offset 40
	popq	%r13
	.cfi_def_cfa_offset 32
	popq	%r14
	.cfi_def_cfa_offset 24
	popq	%r15
	.cfi_def_cfa_offset 16
	popq	%rbp
	.cfi_def_cfa_offset 8
	retq
.LBB50_16:
	.cfi_def_cfa_offset 112
	movq	8(%rbx), %rcx
	movq	%rcx, (%rsp)
	movq	%rax, 16(%rsp)
	movl	$1, %eax
.LBB50_17:
	movq	%rax, 8(%rsp)
	leaq	24(%rsp), %rdi
	movq	%rsp, %rcx
	movl	$1, %esi
	movq	%r15, %rdx
	callq	_RINvNtCs00000000002_5alloc7raw_vec11finish_growNtNtB4_5alloc6GlobalECs00000000001_10pkcs1_tool
	cmpl	$1, 24(%rsp)
	je	.LBB50_52
	movq	32(%rsp), %rax
	movq	%rax, 8(%rbx)
	movq	%r15, (%rbx)
	jmp	.LBB50_19
.LBB50_37:
	movq	8(%rbx), %rax
	movq	%rax, (%rsp)
	movq	%r12, 16(%rsp)
	movl	$1, %eax
.LBB50_38:
	movq	%rax, 8(%rsp)
	leaq	24(%rsp), %rdi
	movq	%rsp, %rcx
	movl	$1, %esi
	movq	%r15, %rdx
	callq	_RINvNtCs00000000002_5alloc7raw_vec11finish_growNtNtB4_5alloc6GlobalECs00000000001_10pkcs1_tool
	cmpl	$1, 24(%rsp)
	je	.LBB50_52
	movq	32(%rsp), %rax
	movq	%rax, 8(%rbx)
	movq	%r15, (%rbx)
	jmp	.LBB50_40
.LBB50_27:
	movq	8(%rbx), %rax
	movq	%rax, (%rsp)
	movq	%r15, 16(%rsp)
	movl	$1, %eax
.LBB50_28:
	movq	%rax, 8(%rsp)
	leaq	24(%rsp), %rdi
	movq	%rsp, %rcx
	movl	$1, %esi
	movq	%r14, %rdx
	callq	_RINvNtCs00000000002_5alloc7raw_vec11finish_growNtNtB4_5alloc6GlobalECs00000000001_10pkcs1_tool
	cmpl	$1, 24(%rsp)
	je	.LBB50_52
	movq	32(%rsp), %rax
	movq	%rax, 8(%rbx)
	movq	%r14, (%rbx)
	movb	$45, (%rax,%r15)
	jmp	.LBB50_51
.LBB50_47:
	movq	8(%rbx), %rax
	movq	%rax, (%rsp)
	movq	%r15, 16(%rsp)
	movl	$1, %eax
.LBB50_48:
	movq	%rax, 8(%rsp)
	leaq	24(%rsp), %rdi
	movq	%rsp, %rcx
	movl	$1, %esi
	movq	%r14, %rdx
	callq	_RINvNtCs00000000002_5alloc7raw_vec11finish_growNtNtB4_5alloc6GlobalECs00000000001_10pkcs1_tool
	cmpl	$1, 24(%rsp)
	je	.LBB50_52
	movq	32(%rsp), %rax
	movq	%rax, 8(%rbx)
	movq	%r14, (%rbx)
	jmp	.LBB50_50
.Lfunc_end50:
	.size	_RNvNtNtNtCs00000000001_10pkcs1_tool4tool13pkcs1_program14parameter_text15put_hash_fields, .Lfunc_end50-_RNvNtNtNtCs00000000001_10pkcs1_tool4tool13pkcs1_program14parameter_text15put_hash_fields
	.cfi_endproc

	.section	.rodata.cst16,"aM",@progbits,16
	.p2align	4, 0x0
.LCPI51_0:
	.byte	15
	.byte	15
	.byte	15
	.byte	15
	.byte	15
	.byte	15
	.byte	15
	.byte	15
	.zero	1
	.zero	1
	.zero	1
	.zero	1
	.zero	1
	.zero	1
	.zero	1
	.zero	1
.LCPI51_1:
	.byte	9
	.byte	9
	.byte	9
	.byte	9
	.byte	9
	.byte	9
	.byte	9
	.byte	9
	.zero	1
	.zero	1
	.zero	1
	.zero	1
	.zero	1
	.zero	1
	.zero	1
	.zero	1
.LCPI51_2:
	.byte	39
	.byte	39
	.byte	39
	.byte	39
	.byte	39
	.byte	39
	.byte	39
	.byte	39
	.zero	1
	.zero	1
	.zero	1
	.zero	1
	.zero	1
	.zero	1
	.zero	1
	.zero	1
.LCPI51_3:
	.zero	16,15
.LCPI51_4:
	.byte	159
	.byte	159
	.byte	159
	.byte	159
	.byte	159
	.byte	159
	.byte	159
	.byte	159
	.zero	1
	.zero	1
	.zero	1
	.zero	1
	.zero	1
	.zero	1
	.zero	1
	.zero	1
.LCPI51_5:
	.zero	16,48
	.section	.text._RNvNtNtNtCs00000000001_10pkcs1_tool4tool13pkcs1_program14parameter_text12put_spelling,"ax",@progbits
	.p2align	4, 0x90
	.type	_RNvNtNtNtCs00000000001_10pkcs1_tool4tool13pkcs1_program14parameter_text12put_spelling,@function
_RNvNtNtNtCs00000000001_10pkcs1_tool4tool13pkcs1_program14parameter_text12put_spelling:
	.cfi_startproc
	endbr64
	pushq	%rbp
	.cfi_def_cfa_offset 16
	pushq	%r15
	.cfi_def_cfa_offset 24
	pushq	%r14
	.cfi_def_cfa_offset 32
	pushq	%r13
	.cfi_def_cfa_offset 40
	pushq	%r12
	.cfi_def_cfa_offset 48
	pushq	%rbx
	.cfi_def_cfa_offset 56
	subq	$72, %rsp
	.cfi_def_cfa_offset 128
	.cfi_offset %rbx, -56
	.cfi_offset %r12, -48
	.cfi_offset %r13, -40
	.cfi_offset %r14, -32
	.cfi_offset %r15, -24
	.cfi_offset %rbp, -16
	movq	%rcx, %r14
	movq	%rdx, %rbx
	movq	(%rcx), %rax
	movq	16(%rcx), %r12
	movq	%rax, %rcx
	subq	%r12, %rcx
	cmpq	$10, %rcx
	jae	.LBB51_5
	movb	$1, %bpl
	cmpq	$-11, %r12
	ja	.LBB51_37
	leaq	10(%r12), %r13
	leaq	(%rax,%rax), %r15
	cmpq	%r13, %r15
	cmovbeq	%r13, %r15
	testq	%r15, %r15
	js	.LBB51_37
	testq	%rax, %rax
	movq	%rsi, 16(%rsp)
	movl	%edi, 12(%rsp)
	jne	.LBB51_32
	xorl	%eax, %eax
	jmp	.LBB51_33
.LBB51_5:
	movq	%rsi, 16(%rsp)
	movq	8(%r14), %rax
	leaq	10(%r12), %r13
.LBB51_6:
	movzbl	%dil, %edi
	movabsq	$8389209267074589728, %rcx
	movq	%rcx, (%rax,%r12)
	movw	$15731, 8(%rax,%r12)
	movq	%r13, 16(%r14)
	movq	%r14, %rsi
	callq	_RNvNtNtNtCs00000000001_10pkcs1_tool4tool13pkcs1_program6digits11put_decimal
	movb	$1, %bpl
	testb	%al, %al
	jne	.LBB51_37
	movq	(%r14), %rax
	movq	16(%r14), %r13
	movq	%rax, %rcx
	subq	%r13, %rcx
	cmpq	$7, %rcx
	jae	.LBB51_12
	cmpq	$-8, %r13
	ja	.LBB51_37
	leaq	7(%r13), %r15
	leaq	(%rax,%rax), %rcx
	cmpq	%r15, %rcx
	cmovbeq	%r15, %rcx
	cmpq	$9, %rcx
	movl	$8, %r12d
	cmovaeq	%rcx, %r12
	testq	%r12, %r12
	js	.LBB51_37
	testq	%rax, %rax
	jne	.LBB51_35
	xorl	%eax, %eax
	jmp	.LBB51_36
.LBB51_12:
	movq	8(%r14), %rax
	leaq	7(%r13), %r15
.LBB51_13:
	movl	$1030646113, 3(%rax,%r13)
	movl	$1634165024, (%rax,%r13)
	movq	%r15, 16(%r14)
	testq	%rbx, %rbx
	js	.LBB51_37
	leaq	(%rbx,%rbx), %r12
	movq	%r15, %rsi
	addq	%r12, %rsi
	jb	.LBB51_37
	movq	%r14, %rdi
	callq	_RNvMs_NtNtCs00000000001_10pkcs1_tool10rattle_std3vecINtNtNtB6_7library3vec3VechE6resizeB8_
	testb	%al, %al
	movq	16(%rsp), %r13
	jne	.LBB51_37
	movq	16(%r14), %rsi
	movq	%rsi, %rax
	subq	%r15, %rax
	jb	.LBB51_39
	cmpq	%rax, %r12
	jne	.LBB51_40
	testq	%rbx, %rbx
	je	.LBB51_21
	movq	8(%r14), %rcx
	cmpq	$8, %rbx
	jae	.LBB51_22
	xorl	%eax, %eax
	jmp	.LBB51_26
.LBB51_22:
	leaq	(%rcx,%r15), %rdx
	movabsq	$9223372036854775800, %rax
	andq	%rbx, %rax
	xorl	%esi, %esi
	movdqa	.LCPI51_0(%rip), %xmm0
	movdqa	.LCPI51_1(%rip), %xmm1
	movdqa	.LCPI51_2(%rip), %xmm2
	movdqa	.LCPI51_3(%rip), %xmm3
	movdqa	.LCPI51_4(%rip), %xmm4
	movdqa	.LCPI51_5(%rip), %xmm5
	.p2align	4, 0x90
.LBB51_23:
	movq	(%r13,%rsi), %xmm6
	movdqa	%xmm6, %xmm7
	movdqa	%xmm6, %xmm8
	pminub	%xmm4, %xmm8
	pcmpeqb	%xmm6, %xmm8
	pand	%xmm0, %xmm6
	movdqa	%xmm6, %xmm9
	pcmpgtb	%xmm1, %xmm9
	pand	%xmm2, %xmm9
	paddb	%xmm6, %xmm9
	psrlw	$4, %xmm7
	pand	%xmm3, %xmm7
	pandn	%xmm2, %xmm8
	paddb	%xmm7, %xmm8
	punpcklbw	%xmm9, %xmm8
	paddb	%xmm5, %xmm8
	movdqu	%xmm8, (%rdx,%rsi,2)
	addq	$8, %rsi
	cmpq	%rsi, %rax
	jne	.LBB51_23
	cmpq	%rbx, %rax
	jne	.LBB51_26
.LBB51_21:
	xorl	%ebp, %ebp
	jmp	.LBB51_37
.LBB51_26:
	addq	%r15, %rcx
	incq	%rcx
	xorl	%ebp, %ebp
	jmp	.LBB51_28
	.p2align	4, 0x90
.LBB51_27:
	addb	%r8b, %sil
	addb	$48, %sil
	shrb	$4, %dl
	addb	%dl, %dil
	addb	$48, %dil
	movb	%dil, -1(%rcx,%rax,2)
	movb	%sil, (%rcx,%rax,2)
	leaq	1(%rax), %rdx
	movq	%rdx, %rax
	cmpq	%rdx, %rbx
	je	.LBB51_37
.LBB51_28:
	movzbl	(%r13,%rax), %edx
	movl	%edx, %r8d
	andb	$15, %r8b
	movl	$39, %edi
	movl	$39, %esi
	cmpb	$10, %r8b
	jae	.LBB51_30
	xorl	%esi, %esi
.LBB51_30:
	cmpb	$-96, %dl
	jae	.LBB51_27
	xorl	%edi, %edi
	jmp	.LBB51_27
.LBB51_32:
	movq	8(%r14), %rcx
	movq	%rcx, 24(%rsp)
	movq	%rax, 40(%rsp)
	movl	$1, %eax
.LBB51_33:
	movq	%rax, 32(%rsp)
	leaq	48(%rsp), %rdi
	leaq	24(%rsp), %rcx
	movl	$1, %esi
	movq	%r15, %rdx
	callq	_RINvNtCs00000000002_5alloc7raw_vec11finish_growNtNtB4_5alloc6GlobalECs00000000001_10pkcs1_tool
	cmpl	$1, 48(%rsp)
	je	.LBB51_37
	movq	56(%rsp), %rax
	movq	%rax, 8(%r14)
	movq	%r15, (%r14)
	movl	12(%rsp), %edi
	jmp	.LBB51_6
.LBB51_35:
	movq	8(%r14), %rcx
	movq	%rcx, 24(%rsp)
	movq	%rax, 40(%rsp)
	movl	$1, %eax
.LBB51_36:
	movq	%rax, 32(%rsp)
	leaq	48(%rsp), %rdi
	leaq	24(%rsp), %rcx
	movl	$1, %esi
	movq	%r12, %rdx
	callq	_RINvNtCs00000000002_5alloc7raw_vec11finish_growNtNtB4_5alloc6GlobalECs00000000001_10pkcs1_tool
	cmpl	$1, 48(%rsp)
	jne	.LBB51_38
.LBB51_37:
	movl	%ebp, %eax
	addq	$72, %rsp
	.cfi_def_cfa_offset 56
	popq	%rbx
	.cfi_def_cfa_offset 48
	popq	%r12
	.cfi_def_cfa_offset 40
	popq	%r13
	.cfi_def_cfa_offset 32
	popq	%r14
	.cfi_def_cfa_offset 24
	popq	%r15
	.cfi_def_cfa_offset 16
	popq	%rbp
	.cfi_def_cfa_offset 8
	retq
.LBB51_38:
	.cfi_def_cfa_offset 128
	movq	56(%rsp), %rax
	movq	%rax, 8(%r14)
	movq	%r12, (%r14)
	jmp	.LBB51_13
.LBB51_39:
	movq	%r15, %rdi
	ud2
.LBB51_40:
	ud2
.Lfunc_end51:
	.size	_RNvNtNtNtCs00000000001_10pkcs1_tool4tool13pkcs1_program14parameter_text12put_spelling, .Lfunc_end51-_RNvNtNtNtCs00000000001_10pkcs1_tool4tool13pkcs1_program14parameter_text12put_spelling
	.cfi_endproc

	.section	.text._RNvXNtNtNtCs00000000001_10pkcs1_tool4tool13pkcs1_program14parameter_textINtNtNtNtB8_6proved12pkcs1_params3pss11PssParamsOfNtNtNtB1f_9spki_core17object_identifier16ObjectIdentifierNtNtB20_3any6AnyRefENtB2_10Parameters4read,"ax",@progbits
	.p2align	4, 0x90
	.type	_RNvXNtNtNtCs00000000001_10pkcs1_tool4tool13pkcs1_program14parameter_textINtNtNtNtB8_6proved12pkcs1_params3pss11PssParamsOfNtNtNtB1f_9spki_core17object_identifier16ObjectIdentifierNtNtB20_3any6AnyRefENtB2_10Parameters4read,@function
_RNvXNtNtNtCs00000000001_10pkcs1_tool4tool13pkcs1_program14parameter_textINtNtNtNtB8_6proved12pkcs1_params3pss11PssParamsOfNtNtNtB1f_9spki_core17object_identifier16ObjectIdentifierNtNtB20_3any6AnyRefENtB2_10Parameters4read:
	.cfi_startproc
	endbr64
	pushq	%rbp
	.cfi_def_cfa_offset 16
	pushq	%r15
	.cfi_def_cfa_offset 24
	pushq	%r14
	.cfi_def_cfa_offset 32
	pushq	%r13
	.cfi_def_cfa_offset 40
	pushq	%r12
	.cfi_def_cfa_offset 48
	pushq	%rbx
	.cfi_def_cfa_offset 56
	subq	$424, %rsp
	.cfi_def_cfa_offset 480
	.cfi_offset %rbx, -56
	.cfi_offset %r12, -48
	.cfi_offset %r13, -40
	.cfi_offset %r14, -32
	.cfi_offset %r15, -24
	.cfi_offset %rbp, -16
	movq	%rdi, %rbx
	movq	%rdx, %rax
	shrq	$32, %rax
	jne	.LBB52_27
	cmpq	$2, %rdx
	jb	.LBB52_15
	cmpb	$48, (%rsi)
	jne	.LBB52_15
	leaq	2(%rsi), %rcx
	leaq	-2(%rdx), %r15
	movsbq	1(%rsi), %rax
	testq	%rax, %rax
	js	.LBB52_4
	subq	%rax, %r15
	jae	.LBB52_17
	jmp	.LBB52_15
.LBB52_4:
	cmpb	$-126, %al
	jne	.LBB52_9
	cmpq	$1, %r15
	jbe	.LBB52_15
	movzbl	2(%rsi), %ecx
	testq	%rcx, %rcx
	je	.LBB52_15
	leaq	-4(%rdx), %r15
	shll	$8, %ecx
	movzbl	3(%rsi), %eax
	orq	%rcx, %rax
	subq	%rax, %r15
	jb	.LBB52_15
	addq	$4, %rsi
	movq	%rsi, %rcx
	jmp	.LBB52_17
.LBB52_9:
	testq	%r15, %r15
	je	.LBB52_15
	cmpb	$-127, %al
	jne	.LBB52_15
	movzbl	(%rcx), %eax
	testb	%al, %al
	jns	.LBB52_15
	leaq	-3(%rdx), %r15
	subq	%rax, %r15
	jb	.LBB52_15
	addq	$3, %rsi
	movq	%rsi, %rcx
	jmp	.LBB52_17
.LBB52_15:
	leaq	16(%rsp), %rdi
	movl	$48, %ecx
	callq	_RNvNtNtNtCs00000000001_10pkcs1_tool6proved8der_core5split14split_unlikely
	movq	16(%rsp), %rcx
	testq	%rcx, %rcx
	je	.LBB52_27
	movq	24(%rsp), %rax
	movq	40(%rsp), %r15
.LBB52_17:
	leaq	16(%rsp), %rdi
	movq	%rcx, %rsi
	movq	%rax, %rdx
	callq	_RNvNtNtNtCs00000000001_10pkcs1_tool6proved12pkcs1_params6noting8note_pss
	cmpb	$2, 120(%rsp)
	je	.LBB52_27
	movzbl	26(%rsp), %ecx
	movzwl	24(%rsp), %ebp
	movl	27(%rsp), %eax
	movzbl	31(%rsp), %edx
	movq	16(%rsp), %rsi
	movq	48(%rsp), %rdi
	movq	%rdi, 192(%rsp)
	movups	32(%rsp), %xmm0
	movaps	%xmm0, 176(%rsp)
	movq	56(%rsp), %r13
	movq	64(%rsp), %r14
	movq	72(%rsp), %r12
	movq	80(%rsp), %r8
	movq	104(%rsp), %rdi
	movq	%rdi, 144(%rsp)
	movups	88(%rsp), %xmm0
	movaps	%xmm0, 128(%rsp)
	testq	%r15, %r15
	je	.LBB52_19
.LBB52_27:
	movq	$2, (%rbx)
.LBB52_28:
	addq	$424, %rsp
	.cfi_def_cfa_offset 56
	popq	%rbx
	.cfi_def_cfa_offset 48
	popq	%r12
	.cfi_def_cfa_offset 40
	popq	%r13
	.cfi_def_cfa_offset 32
	popq	%r14
	.cfi_def_cfa_offset 24
	popq	%r15
	.cfi_def_cfa_offset 16
	popq	%rbp
	.cfi_def_cfa_offset 8
	retq
.LBB52_19:
	.cfi_def_cfa_offset 480
	movzbl	112(%rsp), %r9d
	movq	192(%rsp), %rdi
	movq	%rdi, 304(%rsp)
	movaps	176(%rsp), %xmm0
	movaps	%xmm0, 288(%rsp)
	movaps	128(%rsp), %xmm0
	movaps	%xmm0, 256(%rsp)
	movq	144(%rsp), %rdi
	movq	%rdi, 272(%rsp)
	testq	%rsi, %rsi
	je	.LBB52_27
	movb	%r9b, 15(%rsp)
	shll	$16, %ecx
	orl	%ecx, %ebp
	shlq	$32, %rdx
	orq	%rax, %rdx
	movq	304(%rsp), %rax
	movq	%rax, 416(%rsp)
	movaps	288(%rsp), %xmm0
	movaps	%xmm0, 400(%rsp)
	movaps	256(%rsp), %xmm0
	movaps	%xmm0, 224(%rsp)
	movq	272(%rsp), %rax
	movq	%rax, 240(%rsp)
	movl	%ebp, %eax
	andl	$16777215, %eax
	shlq	$24, %rdx
	orq	%rax, %rdx
	xorps	%xmm0, %xmm0
	movaps	%xmm0, 32(%rsp)
	movaps	%xmm0, 16(%rsp)
	movq	$0, 47(%rsp)
	cmpq	$40, %rdx
	jae	.LBB52_29
	movq	%r8, %r15
	leaq	16(%rsp), %rdi
	callq	memcpy
	movaps	16(%rsp), %xmm0
	movaps	32(%rsp), %xmm1
	movaps	%xmm0, 128(%rsp)
	movaps	%xmm1, 144(%rsp)
	movq	47(%rsp), %rax
	movq	%rax, 159(%rsp)
	xorps	%xmm0, %xmm0
	movaps	%xmm0, 32(%rsp)
	movaps	%xmm0, 16(%rsp)
	movq	$0, 47(%rsp)
	cmpq	$40, %r14
	jae	.LBB52_30
	leaq	16(%rsp), %rdi
	movq	%r13, %rsi
	movq	%r14, %rdx
	callq	memcpy
	movaps	16(%rsp), %xmm0
	movaps	32(%rsp), %xmm1
	movaps	%xmm0, 176(%rsp)
	movaps	%xmm1, 192(%rsp)
	movq	47(%rsp), %rax
	movq	%rax, 207(%rsp)
	testq	%r12, %r12
	je	.LBB52_23
	xorps	%xmm0, %xmm0
	movaps	%xmm0, 32(%rsp)
	movaps	%xmm0, 16(%rsp)
	movq	$0, 47(%rsp)
	movq	%r15, %rdx
	cmpq	$40, %r15
	jae	.LBB52_29
	leaq	16(%rsp), %rdi
	movq	%r12, %rsi
	callq	memcpy
	movzbl	18(%rsp), %ecx
	shll	$16, %ecx
	movzwl	16(%rsp), %eax
	orl	%ecx, %eax
	movups	19(%rsp), %xmm0
	movups	35(%rsp), %xmm1
	movaps	%xmm0, 352(%rsp)
	movaps	%xmm1, 368(%rsp)
	movl	51(%rsp), %ecx
	movl	%ecx, 384(%rsp)
	movaps	224(%rsp), %xmm0
	movaps	%xmm0, 320(%rsp)
	movq	240(%rsp), %rcx
	movq	%rcx, 336(%rsp)
	movl	$1, %ecx
	jmp	.LBB52_26
.LBB52_23:
	xorl	%ecx, %ecx
.LBB52_26:
	movq	207(%rsp), %rdx
	movq	%rdx, 103(%rbx)
	movaps	176(%rsp), %xmm0
	movaps	192(%rsp), %xmm1
	movups	%xmm1, 88(%rbx)
	movups	%xmm0, 72(%rbx)
	movq	159(%rsp), %rdx
	movq	%rdx, 143(%rbx)
	movaps	128(%rsp), %xmm0
	movaps	144(%rsp), %xmm1
	movups	%xmm1, 128(%rbx)
	movups	%xmm0, 112(%rbx)
	movaps	400(%rsp), %xmm0
	movups	%xmm0, 152(%rbx)
	movq	416(%rsp), %rdx
	movq	%rdx, 168(%rbx)
	movq	%rcx, (%rbx)
	movl	%eax, %ecx
	shrl	$16, %ecx
	movb	%cl, 10(%rbx)
	movw	%ax, 8(%rbx)
	movaps	352(%rsp), %xmm0
	movaps	368(%rsp), %xmm1
	movups	%xmm0, 11(%rbx)
	movups	%xmm1, 27(%rbx)
	movl	384(%rsp), %eax
	movl	%eax, 43(%rbx)
	movb	%r15b, 47(%rbx)
	movaps	320(%rsp), %xmm0
	movups	%xmm0, 48(%rbx)
	movq	336(%rsp), %rax
	movq	%rax, 64(%rbx)
	movb	%r14b, 111(%rbx)
	movb	%bpl, 151(%rbx)
	movzbl	15(%rsp), %eax
	movb	%al, 176(%rbx)
	jmp	.LBB52_28
.LBB52_29:
	movl	$39, %esi
	movq	%rdx, %rdi
	ud2
.LBB52_30:
	movl	$39, %esi
	movq	%r14, %rdi
	ud2
.Lfunc_end52:
	.size	_RNvXNtNtNtCs00000000001_10pkcs1_tool4tool13pkcs1_program14parameter_textINtNtNtNtB8_6proved12pkcs1_params3pss11PssParamsOfNtNtNtB1f_9spki_core17object_identifier16ObjectIdentifierNtNtB20_3any6AnyRefENtB2_10Parameters4read, .Lfunc_end52-_RNvXNtNtNtCs00000000001_10pkcs1_tool4tool13pkcs1_program14parameter_textINtNtNtNtB8_6proved12pkcs1_params3pss11PssParamsOfNtNtNtB1f_9spki_core17object_identifier16ObjectIdentifierNtNtB20_3any6AnyRefENtB2_10Parameters4read
	.cfi_endproc

	.section	.text._RNvXs_NtNtNtCs00000000001_10pkcs1_tool4tool13pkcs1_program14parameter_textINtNtNtNtBa_6proved12pkcs1_params4oaep12OaepParamsOfNtNtNtB1h_9spki_core17object_identifier16ObjectIdentifierNtNtB24_3any6AnyRefENtB4_10Parameters4read,"ax",@progbits
	.p2align	4, 0x90
	.type	_RNvXs_NtNtNtCs00000000001_10pkcs1_tool4tool13pkcs1_program14parameter_textINtNtNtNtBa_6proved12pkcs1_params4oaep12OaepParamsOfNtNtNtB1h_9spki_core17object_identifier16ObjectIdentifierNtNtB24_3any6AnyRefENtB4_10Parameters4read,@function
_RNvXs_NtNtNtCs00000000001_10pkcs1_tool4tool13pkcs1_program14parameter_textINtNtNtNtBa_6proved12pkcs1_params4oaep12OaepParamsOfNtNtNtB1h_9spki_core17object_identifier16ObjectIdentifierNtNtB24_3any6AnyRefENtB4_10Parameters4read:
	.cfi_startproc
	endbr64
	pushq	%rbp
	.cfi_def_cfa_offset 16
	pushq	%r15
	.cfi_def_cfa_offset 24
	pushq	%r14
	.cfi_def_cfa_offset 32
	pushq	%r13
	.cfi_def_cfa_offset 40
	pushq	%r12
	.cfi_def_cfa_offset 48
	pushq	%rbx
	.cfi_def_cfa_offset 56
	subq	$568, %rsp
	.cfi_def_cfa_offset 624
	.cfi_offset %rbx, -56
	.cfi_offset %r12, -48
	.cfi_offset %r13, -40
	.cfi_offset %r14, -32
	.cfi_offset %r15, -24
	.cfi_offset %rbp, -16
	movq	%rdi, %rbx
	movq	%rdx, %rax
	shrq	$32, %rax
	jne	.LBB53_28
	cmpq	$2, %rdx
	jb	.LBB53_15
	cmpb	$48, (%rsi)
	jne	.LBB53_15
	leaq	2(%rsi), %rcx
	leaq	-2(%rdx), %r14
	movsbq	1(%rsi), %rax
	testq	%rax, %rax
	js	.LBB53_4
	subq	%rax, %r14
	jae	.LBB53_17
	jmp	.LBB53_15
.LBB53_4:
	cmpb	$-126, %al
	jne	.LBB53_9
	cmpq	$1, %r14
	jbe	.LBB53_15
	movzbl	2(%rsi), %ecx
	testq	%rcx, %rcx
	je	.LBB53_15
	leaq	-4(%rdx), %r14
	shll	$8, %ecx
	movzbl	3(%rsi), %eax
	orq	%rcx, %rax
	subq	%rax, %r14
	jb	.LBB53_15
	addq	$4, %rsi
	movq	%rsi, %rcx
	jmp	.LBB53_17
.LBB53_9:
	testq	%r14, %r14
	je	.LBB53_15
	cmpb	$-127, %al
	jne	.LBB53_15
	movzbl	(%rcx), %eax
	testb	%al, %al
	jns	.LBB53_15
	leaq	-3(%rdx), %r14
	subq	%rax, %r14
	jb	.LBB53_15
	addq	$3, %rsi
	movq	%rsi, %rcx
	jmp	.LBB53_17
.LBB53_15:
	leaq	16(%rsp), %rdi
	movl	$48, %ecx
	callq	_RNvNtNtNtCs00000000001_10pkcs1_tool6proved8der_core5split14split_unlikely
	movq	16(%rsp), %rcx
	testq	%rcx, %rcx
	je	.LBB53_28
	movq	24(%rsp), %rax
	movq	40(%rsp), %r14
.LBB53_17:
	leaq	16(%rsp), %rdi
	movq	%rcx, %rsi
	movq	%rax, %rdx
	callq	_RNvNtNtNtCs00000000001_10pkcs1_tool6proved12pkcs1_params6noting9note_oaep
	cmpb	$2, 152(%rsp)
	je	.LBB53_28
	movzbl	26(%rsp), %ecx
	movzwl	24(%rsp), %r13d
	movl	27(%rsp), %eax
	movzbl	31(%rsp), %edx
	movq	16(%rsp), %rsi
	movq	48(%rsp), %rdi
	movq	%rdi, 272(%rsp)
	movups	32(%rsp), %xmm0
	movaps	%xmm0, 256(%rsp)
	movq	56(%rsp), %r12
	movq	64(%rsp), %r8
	movq	72(%rsp), %rbp
	movq	80(%rsp), %r9
	movq	104(%rsp), %rdi
	movq	%rdi, 224(%rsp)
	movups	88(%rsp), %xmm0
	movaps	%xmm0, 208(%rsp)
	movq	112(%rsp), %r10
	movq	120(%rsp), %r15
	movq	144(%rsp), %rdi
	movq	%rdi, 176(%rsp)
	movups	128(%rsp), %xmm0
	movaps	%xmm0, 160(%rsp)
	testq	%r14, %r14
	je	.LBB53_19
.LBB53_28:
	movq	$2, (%rbx)
.LBB53_29:
	addq	$568, %rsp
	.cfi_def_cfa_offset 56
	popq	%rbx
	.cfi_def_cfa_offset 48
	popq	%r12
	.cfi_def_cfa_offset 40
	popq	%r13
	.cfi_def_cfa_offset 32
	popq	%r14
	.cfi_def_cfa_offset 24
	popq	%r15
	.cfi_def_cfa_offset 16
	popq	%rbp
	.cfi_def_cfa_offset 8
	retq
.LBB53_19:
	.cfi_def_cfa_offset 624
	movq	272(%rsp), %rdi
	movq	%rdi, 448(%rsp)
	movaps	256(%rsp), %xmm0
	movaps	%xmm0, 432(%rsp)
	movaps	208(%rsp), %xmm0
	movaps	%xmm0, 400(%rsp)
	movq	224(%rsp), %rdi
	movq	%rdi, 416(%rsp)
	movaps	160(%rsp), %xmm0
	movaps	%xmm0, 368(%rsp)
	movq	176(%rsp), %rdi
	movq	%rdi, 384(%rsp)
	testq	%rsi, %rsi
	je	.LBB53_28
	movq	%r10, 296(%rsp)
	movq	%r9, (%rsp)
	movq	%r8, 8(%rsp)
	shll	$16, %ecx
	orl	%ecx, %r13d
	shlq	$32, %rdx
	orq	%rax, %rdx
	movq	448(%rsp), %rax
	movq	%rax, 560(%rsp)
	movaps	432(%rsp), %xmm0
	movaps	%xmm0, 544(%rsp)
	movaps	400(%rsp), %xmm0
	movaps	%xmm0, 336(%rsp)
	movq	416(%rsp), %rax
	movq	%rax, 352(%rsp)
	movaps	368(%rsp), %xmm0
	movaps	%xmm0, 304(%rsp)
	movq	384(%rsp), %rax
	movq	%rax, 320(%rsp)
	movl	%r13d, %eax
	andl	$16777215, %eax
	shlq	$24, %rdx
	orq	%rax, %rdx
	xorps	%xmm0, %xmm0
	movaps	%xmm0, 32(%rsp)
	movaps	%xmm0, 16(%rsp)
	movq	$0, 47(%rsp)
	cmpq	$40, %rdx
	jae	.LBB53_30
	leaq	16(%rsp), %rdi
	callq	memcpy
	movaps	16(%rsp), %xmm0
	movaps	32(%rsp), %xmm1
	movaps	%xmm0, 160(%rsp)
	movaps	%xmm1, 176(%rsp)
	movq	47(%rsp), %rax
	movq	%rax, 191(%rsp)
	xorps	%xmm0, %xmm0
	movaps	%xmm0, 32(%rsp)
	movaps	%xmm0, 16(%rsp)
	movq	$0, 47(%rsp)
	movq	8(%rsp), %rdx
	cmpq	$40, %rdx
	jae	.LBB53_30
	leaq	16(%rsp), %rdi
	movq	%r12, %rsi
	callq	memcpy
	movaps	16(%rsp), %xmm0
	movaps	32(%rsp), %xmm1
	movaps	%xmm0, 256(%rsp)
	movaps	%xmm1, 272(%rsp)
	movq	47(%rsp), %rax
	movq	%rax, 287(%rsp)
	testq	%rbp, %rbp
	je	.LBB53_23
	xorps	%xmm0, %xmm0
	movaps	%xmm0, 32(%rsp)
	movaps	%xmm0, 16(%rsp)
	movq	$0, 47(%rsp)
	movq	(%rsp), %rdx
	cmpq	$40, %rdx
	jae	.LBB53_30
	leaq	16(%rsp), %rdi
	movq	%rbp, %rsi
	callq	memcpy
	movzbl	18(%rsp), %eax
	shll	$16, %eax
	movzwl	16(%rsp), %ebp
	orl	%eax, %ebp
	movups	19(%rsp), %xmm0
	movups	35(%rsp), %xmm1
	movaps	%xmm0, 496(%rsp)
	movaps	%xmm1, 512(%rsp)
	movl	51(%rsp), %eax
	movl	%eax, 528(%rsp)
	movaps	336(%rsp), %xmm0
	movaps	%xmm0, 464(%rsp)
	movq	352(%rsp), %rax
	movq	%rax, 480(%rsp)
	movl	$1, %r14d
	jmp	.LBB53_26
.LBB53_23:
	xorl	%r14d, %r14d
	movq	%rax, (%rsp)
.LBB53_26:
	movq	287(%rsp), %rax
	movq	%rax, 239(%rsp)
	movaps	256(%rsp), %xmm0
	movaps	272(%rsp), %xmm1
	movaps	%xmm1, 224(%rsp)
	movaps	%xmm0, 208(%rsp)
	xorps	%xmm0, %xmm0
	movaps	%xmm0, 32(%rsp)
	movaps	%xmm0, 16(%rsp)
	movq	$0, 47(%rsp)
	cmpq	$40, %r15
	movq	296(%rsp), %rsi
	jae	.LBB53_31
	leaq	16(%rsp), %rdi
	movq	%r15, %rdx
	callq	memcpy
	movq	47(%rsp), %rax
	movq	%rax, 207(%rbx)
	movaps	16(%rsp), %xmm0
	movaps	32(%rsp), %xmm1
	movups	%xmm1, 192(%rbx)
	movups	%xmm0, 176(%rbx)
	movq	320(%rsp), %rax
	movq	%rax, 232(%rbx)
	movaps	304(%rsp), %xmm0
	movups	%xmm0, 216(%rbx)
	movq	191(%rsp), %rax
	movq	%rax, 143(%rbx)
	movaps	160(%rsp), %xmm0
	movaps	176(%rsp), %xmm1
	movups	%xmm1, 128(%rbx)
	movups	%xmm0, 112(%rbx)
	movq	560(%rsp), %rax
	movq	%rax, 168(%rbx)
	movaps	544(%rsp), %xmm0
	movups	%xmm0, 152(%rbx)
	movaps	496(%rsp), %xmm0
	movaps	512(%rsp), %xmm1
	movups	%xmm0, 11(%rbx)
	movups	%xmm1, 27(%rbx)
	movl	528(%rsp), %eax
	movl	%eax, 43(%rbx)
	movaps	464(%rsp), %xmm0
	movups	%xmm0, 48(%rbx)
	movq	480(%rsp), %rax
	movq	%rax, 64(%rbx)
	movq	239(%rsp), %rax
	movq	%rax, 103(%rbx)
	movaps	208(%rsp), %xmm0
	movaps	224(%rsp), %xmm1
	movups	%xmm1, 88(%rbx)
	movups	%xmm0, 72(%rbx)
	movq	%r14, (%rbx)
	movl	%ebp, %eax
	shrl	$16, %eax
	movb	%al, 10(%rbx)
	movw	%bp, 8(%rbx)
	movq	(%rsp), %rax
	movb	%al, 47(%rbx)
	movq	8(%rsp), %rax
	movb	%al, 111(%rbx)
	movb	%r13b, 151(%rbx)
	movb	%r15b, 215(%rbx)
	jmp	.LBB53_29
.LBB53_30:
	movl	$39, %esi
	movq	%rdx, %rdi
	ud2
.LBB53_31:
	movl	$39, %esi
	movq	%r15, %rdi
	ud2
.Lfunc_end53:
	.size	_RNvXs_NtNtNtCs00000000001_10pkcs1_tool4tool13pkcs1_program14parameter_textINtNtNtNtBa_6proved12pkcs1_params4oaep12OaepParamsOfNtNtNtB1h_9spki_core17object_identifier16ObjectIdentifierNtNtB24_3any6AnyRefENtB4_10Parameters4read, .Lfunc_end53-_RNvXs_NtNtNtCs00000000001_10pkcs1_tool4tool13pkcs1_program14parameter_textINtNtNtNtBa_6proved12pkcs1_params4oaep12OaepParamsOfNtNtNtB1h_9spki_core17object_identifier16ObjectIdentifierNtNtB24_3any6AnyRefENtB4_10Parameters4read
	.cfi_endproc

	.section	.text._RNvXs_NtNtNtCs00000000001_10pkcs1_tool4tool13pkcs1_program11replace_stdRNtNtBa_10rattle_std11HostRuntimeNtNtB6_7replace12ReplaceFiles6targetBa_,"ax",@progbits
	.p2align	4, 0x90
	.type	_RNvXs_NtNtNtCs00000000001_10pkcs1_tool4tool13pkcs1_program11replace_stdRNtNtBa_10rattle_std11HostRuntimeNtNtB6_7replace12ReplaceFiles6targetBa_,@function
_RNvXs_NtNtNtCs00000000001_10pkcs1_tool4tool13pkcs1_program11replace_stdRNtNtBa_10rattle_std11HostRuntimeNtNtB6_7replace12ReplaceFiles6targetBa_:
	.cfi_startproc
	endbr64
	pushq	%rbp
	.cfi_def_cfa_offset 16
	pushq	%r15
	.cfi_def_cfa_offset 24
	pushq	%r14
	.cfi_def_cfa_offset 32
	pushq	%r13
	.cfi_def_cfa_offset 40
	pushq	%r12
	.cfi_def_cfa_offset 48
	pushq	%rbx
	.cfi_def_cfa_offset 56
	subq	$4096, %rsp
	.cfi_adjust_cfa_offset 4096
	movq	$0, (%rsp)
	subq	$4096, %rsp
	.cfi_adjust_cfa_offset 4096
	movq	$0, (%rsp)
	subq	$136, %rsp
	.cfi_def_cfa_offset 8384
	.cfi_offset %rbx, -56
	.cfi_offset %r12, -48
	.cfi_offset %r13, -40
	.cfi_offset %r14, -32
	.cfi_offset %r15, -24
	.cfi_offset %rbp, -16
	movq	%rdx, %r14
	movq	%rsi, %rbp
	movq	%rdi, %rbx
	leaq	136(%rsp), %r15
	movq	%r15, %rdi
	movl	$1, %ecx
	callq	_RNvNtNtCs00000000001_10pkcs1_tool10rattle_std6system4look
	movzbl	136(%rsp), %eax
	cmpb	$3, %al
	jne	.LBB54_8
	cmpb	$2, 137(%rsp)
	jne	.LBB54_35
	leaq	136(%rsp), %rdi
	movq	%rbp, %rsi
	movq	%r14, %rdx
	xorl	%ecx, %ecx
	callq	_RNvNtNtCs00000000001_10pkcs1_tool10rattle_std6system4look
	cmpb	$3, 136(%rsp)
	jne	.LBB54_13
	cmpb	$2, 137(%rsp)
	jne	.LBB54_35
	testq	%r14, %r14
	je	.LBB54_24
	cmpq	$9, %r14
	movl	$8, %r12d
	cmovaeq	%r14, %r12
	testq	%r12, %r12
	js	.LBB54_44
	movq	$0, 144(%rsp)
	leaq	4232(%rsp), %rdi
	leaq	136(%rsp), %rcx
	movl	$1, %esi
	movq	%r12, %rdx
	callq	_RINvNtCs00000000002_5alloc7raw_vec11finish_growNtNtB4_5alloc6GlobalECs00000000001_10pkcs1_tool
	cmpl	$1, 4232(%rsp)
	je	.LBB54_44
	movq	$0, 32(%rsp)
	movq	4240(%rsp), %r13
	jmp	.LBB54_25
.LBB54_8:
	testb	%al, %al
	je	.LBB54_10
	movabsq	$-9223372036854775808, %rax
	orq	$2, %rax
	jmp	.LBB54_36
.LBB54_10:
	movq	144(%rsp), %rax
	movq	%rax, (%rsp)
	movq	152(%rsp), %rax
	movq	%rax, 40(%rsp)
	movl	168(%rsp), %r13d
	leaq	136(%rsp), %r12
	movl	$4096, %edx
	movq	%r12, %rdi
	xorl	%esi, %esi
	callq	memset
	cmpq	$4096, %r14
	ja	.LBB54_34
	movq	%r12, %rdi
	movq	%rbp, %rsi
	movq	%r14, %rdx
	callq	memcpy
	leaq	143(%rsp), %rax
	andq	$-8, %rax
	subq	%r12, %rax
	jne	.LBB54_14
	xorl	%eax, %eax
	jmp	.LBB54_17
.LBB54_13:
	movabsq	$-9223372036854775808, %rax
	incq	%rax
	jmp	.LBB54_36
.LBB54_14:
	xorl	%ecx, %ecx
	.p2align	4, 0x90
.LBB54_15:
	cmpb	$0, 136(%rsp,%rcx)
	je	.LBB54_23
	incq	%rcx
	cmpq	%rcx, %rax
	jne	.LBB54_15
.LBB54_17:
	movabsq	$-9187201950435737472, %rcx
	movabsq	$72340172838076672, %rdx
	.p2align	4, 0x90
.LBB54_18:
	movq	136(%rsp,%rax), %rsi
	movq	144(%rsp,%rax), %rdi
	movq	%rdx, %r8
	subq	%rsi, %r8
	orq	%rsi, %r8
	movq	%rdx, %rsi
	subq	%rdi, %rsi
	orq	%rdi, %rsi
	andq	%rcx, %r8
	andq	%rsi, %r8
	cmpq	%rcx, %r8
	jne	.LBB54_22
	leaq	16(%rax), %r8
	cmpq	$4064, %rax
	movq	%r8, %rax
	jbe	.LBB54_18
	movq	%r8, %rsi
	subq	$4096, %rsi
	jne	.LBB54_26
	xorl	%edx, %edx
	testq	%rdx, %rdx
	cmoveq	%rdx, %r12
	jne	.LBB54_32
	jmp	.LBB54_34
.LBB54_22:
	leaq	(%rsp,%rax), %rdi
	addq	$136, %rdi
	movl	$4096, %esi
	subq	%rax, %rsi
	jmp	.LBB54_27
.LBB54_23:
	movl	$1, %edx
	testq	%rdx, %rdx
	cmoveq	%rdx, %r12
	jne	.LBB54_32
	jmp	.LBB54_34
.LBB54_24:
	movq	$0, 32(%rsp)
	movl	$1, %r13d
	xorl	%r12d, %r12d
.LBB54_25:
	movq	%r13, %rdi
	movq	%rbp, %rsi
	movq	%r14, %rdx
	callq	memcpy
	jmp	.LBB54_57
.LBB54_26:
	negq	%rsi
	leaq	(%rsp,%r8), %rdi
	addq	$136, %rdi
	movq	%r8, %rax
.LBB54_27:
	xorl	%edx, %edx
	xorl	%ecx, %ecx
	.p2align	4, 0x90
.LBB54_28:
	cmpb	$0, (%rdi,%rcx)
	je	.LBB54_31
	incq	%rcx
	cmpq	%rcx, %rsi
	jne	.LBB54_28
	testq	%rdx, %rdx
	cmoveq	%rdx, %r12
	jne	.LBB54_32
	jmp	.LBB54_34
.LBB54_31:
	addq	%rax, %rcx
	movl	$1, %edx
	testq	%rdx, %rdx
	cmoveq	%rdx, %r12
	je	.LBB54_34
.LBB54_32:
	cmpq	%r14, %rcx
	jne	.LBB54_34
	movq	%r12, %rdi
	movq	%rbp, %rsi
	movq	%r14, %rdx
	callq	memcmp
	testl	%eax, %eax
	je	.LBB54_38
.LBB54_34:
	movl	$1, %ecx
	xorl	%edi, %edi
	movzbl	%dil, %eax
	orq	%rcx, %rax
	je	.LBB54_40
.LBB54_35:
	movabsq	$-9223372036854775808, %rax
.LBB54_36:
	movq	%rax, (%rbx)
.LBB54_37:
	addq	$8328, %rsp
	.cfi_def_cfa_offset 56
	popq	%rbx
	.cfi_def_cfa_offset 48
	popq	%r12
	.cfi_def_cfa_offset 40
	popq	%r13
	.cfi_def_cfa_offset 32
	popq	%r14
	.cfi_def_cfa_offset 24
	popq	%r15
	.cfi_def_cfa_offset 16
	popq	%rbp
	.cfi_def_cfa_offset 8
	retq
.LBB54_38:
	.cfi_def_cfa_offset 8384
	movzbl	136(%rsp), %r12d
	leaq	137(%rsp), %rsi
	leaq	4233(%rsp), %rdi
	movl	$4095, %edx
	callq	memcpy
	movb	%r12b, 4232(%rsp)
	leaq	4232(%rsp), %rdi
	movl	$1, %esi
	movl	$438, %edx
	callq	pkcs1_os_open
	testq	%rax, %rax
	js	.LBB54_70
	movq	%rax, %rdx
	shlq	$32, %rdx
	xorl	%edi, %edi
	xorl	%ecx, %ecx
	cmpq	$2147483647, %rax
	seta	%cl
	cmovbeq	%rdx, %rdi
	movzbl	%dil, %eax
	orq	%rcx, %rax
	jne	.LBB54_35
.LBB54_40:
	shrq	$32, %rdi
	callq	pkcs1_os_close
	leaq	136(%rsp), %rdi
	movq	%rbp, %rsi
	movq	%r14, %rdx
	xorl	%ecx, %ecx
	callq	_RNvNtNtCs00000000001_10pkcs1_tool10rattle_std6system4look
	movzbl	136(%rsp), %eax
	cmpl	$1, %eax
	je	.LBB54_45
	cmpl	$3, %eax
	je	.LBB54_35
	testq	%r14, %r14
	je	.LBB54_55
	cmpq	$9, %r14
	movl	$8, %r12d
	cmovaeq	%r14, %r12
	testq	%r12, %r12
	jns	.LBB54_96
.LBB54_44:
	movabsq	$-9223372036854775808, %rax
	orq	$3, %rax
	jmp	.LBB54_36
.LBB54_45:
	leaq	136(%rsp), %rdi
	movq	%rbp, %rsi
	movq	%r14, %rdx
	callq	_ZN4core3str8converts9from_utf817h0000000000000004E
	xorl	%r14d, %r14d
	cmpb	$0, 136(%rsp)
	cmoveq	152(%rsp), %r14
	movl	$1, %r12d
	cmoveq	144(%rsp), %r12
	leaq	136(%rsp), %rdi
	movl	$4096, %edx
	xorl	%esi, %esi
	callq	memset
	cmpq	$4096, %r14
	ja	.LBB54_35
	movl	%r13d, 12(%rsp)
	leaq	136(%rsp), %r13
	movq	%r13, %rdi
	movq	%r12, %rsi
	movq	%r14, %rdx
	callq	memcpy
	movq	%r13, %rdi
	callq	_ZN4core3ffi5c_str4CStr20from_bytes_until_nul17h0000000000000005E
	testq	%rax, %rax
	je	.LBB54_35
	decq	%rdx
	cmpq	%r14, %rdx
	jne	.LBB54_35
	movq	%rax, %rdi
	movq	%r12, %rsi
	movq	%r14, %rdx
	callq	memcmp
	testl	%eax, %eax
	jne	.LBB54_35
	movzbl	136(%rsp), %ebp
	leaq	137(%rsp), %rsi
	leaq	4233(%rsp), %rdi
	movl	$4095, %edx
	callq	memcpy
	leaq	136(%rsp), %r14
	movl	$4096, %edx
	movq	%r14, %rdi
	xorl	%esi, %esi
	callq	memset
	movb	%bpl, 4232(%rsp)
	leaq	4232(%rsp), %rdi
	movq	%r14, %rsi
	callq	pkcs1_os_real_path
	testq	%rax, %rax
	js	.LBB54_98
	leaq	136(%rsp), %rdi
	callq	_ZN4core3ffi5c_str4CStr20from_bytes_until_nul17h0000000000000005E
	testq	%rax, %rax
	je	.LBB54_35
	movq	%rdx, %r14
	decq	%r14
	je	.LBB54_99
	cmpq	$9, %r14
	movl	$8, %r12d
	cmovaeq	%r14, %r12
	testq	%r12, %r12
	js	.LBB54_44
	movq	%rax, %rbp
	movq	$0, 56(%rsp)
	leaq	104(%rsp), %rdi
	leaq	48(%rsp), %rcx
	movl	$1, %esi
	movq	%r12, %rdx
	callq	_RINvNtCs00000000002_5alloc7raw_vec11finish_growNtNtB4_5alloc6GlobalECs00000000001_10pkcs1_tool
	cmpl	$1, 104(%rsp)
	je	.LBB54_44
	movq	112(%rsp), %r13
	movq	%rbp, %rax
	jmp	.LBB54_100
.LBB54_55:
	movl	%r13d, 12(%rsp)
	movl	$1, %r13d
	xorl	%r12d, %r12d
.LBB54_56:
	movq	%r13, %rdi
	movq	%rbp, %rsi
	movq	%r14, %rdx
	callq	memcpy
	movl	$1, %eax
	movq	%rax, 32(%rsp)
.LBB54_57:
	movabsq	$-9223372036854775808, %rbp
	movq	$0, 88(%rsp)
	leaq	88(%rsp), %rdi
	movl	$8, %esi
	callq	pkcs1_os_random
	movq	88(%rsp), %rax
	bswapq	%rax
	movq	%rax, 128(%rsp)
	leaq	128(%rsp), %rax
	movq	%rax, 104(%rsp)
	leaq	_ZN4core3fmt3num53_$LT$impl$u20$core..fmt..LowerHex$u20$for$u20$i64$GT$3fmt17h0000000000000006E(%rip), %rax
	movq	%rax, 112(%rsp)
	movq	$2, 136(%rsp)
	movq	$0, 152(%rsp)
	movq	$16, 160(%rsp)
	movq	$0, 168(%rsp)
	movabsq	$34359738400, %rax
	movq	%rax, 176(%rsp)
	movb	$3, 184(%rsp)
	leaq	.Lanon.52(%rip), %rax
	movq	%rax, 4232(%rsp)
	movq	$1, 4240(%rsp)
	movq	%r15, 4264(%rsp)
	movq	$1, 4272(%rsp)
	leaq	104(%rsp), %rax
	movq	%rax, 4248(%rsp)
	movq	$1, 4256(%rsp)
	movq	$0, 48(%rsp)
	movq	$1, 56(%rsp)
	movq	$0, 64(%rsp)
	leaq	.Lanon.1(%rip), %rsi
	leaq	48(%rsp), %rdi
	leaq	4232(%rsp), %rdx
	callq	_ZN4core3fmt5write17h0000000000000000E
	testb	%al, %al
	je	.LBB54_60
	cmpq	$0, 48(%rsp)
	je	.LBB54_93
	movq	56(%rsp), %rdi
	callq	free
	jmp	.LBB54_93
.LBB54_60:
	movq	48(%rsp), %rdi
	cmpq	%rbp, %rdi
	je	.LBB54_93
	movq	56(%rsp), %rax
	movq	%rax, 40(%rsp)
	movq	64(%rsp), %rsi
	movq	%r14, %rcx
.LBB54_62:
	movq	%rcx, %rax
	cmpq	$1, %rcx
	jbe	.LBB54_66
	cmpb	$46, -1(%r13,%rax)
	jne	.LBB54_67
	cmpb	$47, -2(%r13,%rax)
	jne	.LBB54_67
	leaq	-2(%rax), %rcx
	jmp	.LBB54_69
.LBB54_66:
	testq	%rax, %rax
	je	.LBB54_71
.LBB54_67:
	cmpb	$47, -1(%r13,%rax)
	jne	.LBB54_72
	leaq	-1(%rax), %rcx
.LBB54_69:
	testq	%rcx, %rcx
	jne	.LBB54_62
	jmp	.LBB54_72
.LBB54_70:
	addq	$4, %rax
	cmpq	$3, %rax
	jmp	.LBB54_34
.LBB54_71:
	xorl	%eax, %eax
.LBB54_72:
	xorl	%edx, %edx
	movq	%rax, %rcx
	movl	$1, %r15d
.LBB54_73:
	testq	%rcx, %rcx
	je	.LBB54_79
	movq	%rcx, %rbp
	decq	%rcx
	cmpb	$47, -1(%r13,%rbp)
	jne	.LBB54_73
	cmpq	%rax, %rbp
	ja	.LBB54_114
	testq	%rbp, %rbp
	je	.LBB54_80
	cmpq	$9, %rbp
	movl	$8, %edx
	cmovaeq	%rbp, %rdx
	testq	%rdx, %rdx
	jns	.LBB54_105
	movabsq	$-9223372036854775808, %rbp
	movq	%rbp, %rax
	jmp	.LBB54_90
.LBB54_79:
	movq	%rsi, 24(%rsp)
	movq	%rdi, 16(%rsp)
	jmp	.LBB54_81
.LBB54_80:
	movq	%rsi, 24(%rsp)
	movq	%rdi, 16(%rsp)
	xorl	%edx, %edx
.LBB54_81:
	xorl	%ebp, %ebp
.LBB54_82:
	movq	%rdx, 80(%rsp)
	movq	%r15, %rdi
	movq	%r13, %rsi
	callq	memcpy
	movq	80(%rsp), %rdi
	movq	%rbp, %rax
	subq	%rdi, %rax
	movq	24(%rsp), %rdx
	cmpq	%rdx, %rax
	movq	%rbp, %rcx
	movabsq	$-9223372036854775808, %rbp
	jae	.LBB54_88
	addq	%rdx, %rdi
	jb	.LBB54_85
	leaq	(%rcx,%rcx), %rax
	cmpq	%rdi, %rax
	cmovbeq	%rdi, %rax
	cmpq	$9, %rax
	movl	$8, %r8d
	cmovaeq	%rax, %r8
	testq	%r8, %r8
	jns	.LBB54_103
.LBB54_85:
	testq	%rcx, %rcx
	je	.LBB54_87
.LBB54_86:
	movq	%r15, %rdi
	callq	free
.LBB54_87:
	movq	%rbp, %rax
	movq	16(%rsp), %rdi
	jmp	.LBB54_90
.LBB54_88:
	movq	%rcx, (%rsp)
	leaq	(%rdi,%rdx), %rax
	movq	%rax, 72(%rsp)
.LBB54_89:
	addq	%r15, %rdi
	movq	40(%rsp), %rsi
	callq	memcpy
	movq	16(%rsp), %rdi
	movq	(%rsp), %rax
.LBB54_90:
	testq	%rdi, %rdi
	je	.LBB54_92
	movq	40(%rsp), %rdi
	movq	%rax, (%rsp)
	callq	free
	movq	(%rsp), %rax
.LBB54_92:
	cmpq	%rbp, %rax
	jne	.LBB54_95
.LBB54_93:
	addq	$3, %rbp
	movq	%rbp, (%rbx)
	testq	%r12, %r12
	je	.LBB54_37
	movq	%r13, %rdi
	callq	free
	jmp	.LBB54_37
.LBB54_95:
	movq	%r12, (%rbx)
	movq	%r13, 8(%rbx)
	movq	%r14, 16(%rbx)
	movq	%rax, 24(%rbx)
	movq	%r15, 32(%rbx)
	movq	72(%rsp), %rax
	movq	%rax, 40(%rbx)
	movq	32(%rsp), %rax
	movl	%eax, 48(%rbx)
	movl	12(%rsp), %eax
	movl	%eax, 52(%rbx)
	jmp	.LBB54_37
.LBB54_96:
	movq	$0, 144(%rsp)
	leaq	4232(%rsp), %rdi
	leaq	136(%rsp), %rcx
	movl	$1, %esi
	movq	%r12, %rdx
	callq	_RINvNtCs00000000002_5alloc7raw_vec11finish_growNtNtB4_5alloc6GlobalECs00000000001_10pkcs1_tool
	cmpl	$1, 4232(%rsp)
	je	.LBB54_44
	movl	%r13d, 12(%rsp)
	movq	4240(%rsp), %r13
	jmp	.LBB54_56
.LBB54_98:
	cmpq	$-2, %rax
	jne	.LBB54_35
	jmp	.LBB54_44
.LBB54_99:
	xorl	%r12d, %r12d
	movl	$1, %r13d
.LBB54_100:
	movq	%r13, %rdi
	movq	%rax, %rsi
	movq	%r14, %rdx
	callq	memcpy
	leaq	136(%rsp), %rdi
	movl	$1, %eax
	movq	%rax, 32(%rsp)
	movq	%r13, %rsi
	movq	%r14, %rdx
	movl	$1, %ecx
	callq	_RNvNtNtCs00000000001_10pkcs1_tool10rattle_std6system4look
	cmpb	$3, 136(%rsp)
	jne	.LBB54_107
.LBB54_101:
	testq	%r12, %r12
	je	.LBB54_35
	movq	%r13, %rdi
	callq	free
	jmp	.LBB54_35
.LBB54_103:
	testq	%rcx, %rcx
	movq	%rdx, 24(%rsp)
	movq	%rcx, (%rsp)
	movq	%rdi, 72(%rsp)
	jne	.LBB54_109
	xorl	%eax, %eax
	jmp	.LBB54_110
.LBB54_105:
	movq	%rsi, 24(%rsp)
	movq	%rdi, 16(%rsp)
	movq	$0, 144(%rsp)
	leaq	4232(%rsp), %rdi
	leaq	136(%rsp), %rcx
	movl	$1, %esi
	movq	%rdx, (%rsp)
	callq	_RINvNtCs00000000002_5alloc7raw_vec11finish_growNtNtB4_5alloc6GlobalECs00000000001_10pkcs1_tool
	cmpl	$1, 4232(%rsp)
	jne	.LBB54_113
	movabsq	$-9223372036854775808, %rbp
	jmp	.LBB54_87
.LBB54_107:
	movq	(%rsp), %rax
	cmpq	%rax, 144(%rsp)
	jne	.LBB54_101
	movq	40(%rsp), %rax
	cmpq	%rax, 152(%rsp)
	je	.LBB54_57
	jmp	.LBB54_101
.LBB54_109:
	movq	%r15, 136(%rsp)
	movq	%rcx, 152(%rsp)
	movl	$1, %eax
.LBB54_110:
	movq	%rax, 144(%rsp)
	leaq	4232(%rsp), %rdi
	leaq	136(%rsp), %rcx
	movl	$1, %esi
	movq	%r8, %rdx
	movq	%r8, 96(%rsp)
	callq	_RINvNtCs00000000002_5alloc7raw_vec11finish_growNtNtB4_5alloc6GlobalECs00000000001_10pkcs1_tool
	cmpl	$1, 4232(%rsp)
	jne	.LBB54_112
	movq	(%rsp), %rcx
	testq	%rcx, %rcx
	jne	.LBB54_86
	jmp	.LBB54_87
.LBB54_112:
	movq	4240(%rsp), %r15
	movq	96(%rsp), %rax
	movq	%rax, (%rsp)
	movq	24(%rsp), %rdx
	movq	80(%rsp), %rdi
	jmp	.LBB54_89
.LBB54_113:
	movq	4240(%rsp), %r15
	movq	%rbp, %rdx
	movq	(%rsp), %rbp
	jmp	.LBB54_82
.LBB54_114:
	ud2
.Lfunc_end54:
	.size	_RNvXs_NtNtNtCs00000000001_10pkcs1_tool4tool13pkcs1_program11replace_stdRNtNtBa_10rattle_std11HostRuntimeNtNtB6_7replace12ReplaceFiles6targetBa_, .Lfunc_end54-_RNvXs_NtNtNtCs00000000001_10pkcs1_tool4tool13pkcs1_program11replace_stdRNtNtBa_10rattle_std11HostRuntimeNtNtB6_7replace12ReplaceFiles6targetBa_
	.cfi_endproc

	.section	.text._RNvXs_NtNtNtCs00000000001_10pkcs1_tool4tool13pkcs1_program11replace_stdRNtNtBa_10rattle_std11HostRuntimeNtNtB6_7replace12ReplaceFiles10create_newBa_,"ax",@progbits
	.p2align	4, 0x90
	.type	_RNvXs_NtNtNtCs00000000001_10pkcs1_tool4tool13pkcs1_program11replace_stdRNtNtBa_10rattle_std11HostRuntimeNtNtB6_7replace12ReplaceFiles10create_newBa_,@function
_RNvXs_NtNtNtCs00000000001_10pkcs1_tool4tool13pkcs1_program11replace_stdRNtNtBa_10rattle_std11HostRuntimeNtNtB6_7replace12ReplaceFiles10create_newBa_:
	.cfi_startproc
	endbr64
	pushq	%rbp
	.cfi_def_cfa_offset 16
	pushq	%r15
	.cfi_def_cfa_offset 24
	pushq	%r14
	.cfi_def_cfa_offset 32
	pushq	%r13
	.cfi_def_cfa_offset 40
	pushq	%r12
	.cfi_def_cfa_offset 48
	pushq	%rbx
	.cfi_def_cfa_offset 56
	subq	$4096, %rsp
	.cfi_adjust_cfa_offset 4096
	movq	$0, (%rsp)
	subq	$4096, %rsp
	.cfi_adjust_cfa_offset 4096
	movq	$0, (%rsp)
	pushq	%rax
	.cfi_def_cfa_offset 8256
	.cfi_offset %rbx, -56
	.cfi_offset %r12, -48
	.cfi_offset %r13, -40
	.cfi_offset %r14, -32
	.cfi_offset %r15, -24
	.cfi_offset %rbp, -16
	movl	%r8d, %r14d
	movl	%ecx, %ebp
	movq	%rdx, %r15
	movq	%rsi, %r12
	movq	%rdi, %rbx
	leaq	8(%rsp), %r13
	movl	$4096, %edx
	movq	%r13, %rdi
	xorl	%esi, %esi
	callq	memset
	cmpq	$4096, %r15
	ja	.LBB55_22
	movq	%r13, %rdi
	movq	%r12, %rsi
	movq	%r15, %rdx
	callq	memcpy
	leaq	15(%rsp), %rax
	andq	$-8, %rax
	subq	%r13, %rax
	jne	.LBB55_13
	xorl	%eax, %eax
	jmp	.LBB55_3
.LBB55_13:
	xorl	%ecx, %ecx
	.p2align	4, 0x90
.LBB55_14:
	cmpb	$0, 8(%rsp,%rcx)
	je	.LBB55_15
	incq	%rcx
	cmpq	%rcx, %rax
	jne	.LBB55_14
.LBB55_3:
	movabsq	$-9187201950435737472, %rcx
	movabsq	$72340172838076672, %rdx
	.p2align	4, 0x90
.LBB55_4:
	movq	8(%rsp,%rax), %rsi
	movq	16(%rsp,%rax), %rdi
	movq	%rdx, %r8
	subq	%rsi, %r8
	orq	%rsi, %r8
	movq	%rdx, %rsi
	subq	%rdi, %rsi
	orq	%rdi, %rsi
	andq	%rcx, %r8
	andq	%rsi, %r8
	cmpq	%rcx, %r8
	jne	.LBB55_5
	leaq	16(%rax), %r8
	cmpq	$4064, %rax
	movq	%r8, %rax
	jbe	.LBB55_4
	movq	%r8, %rsi
	subq	$4096, %rsi
	jne	.LBB55_8
	xorl	%edx, %edx
	testq	%rdx, %rdx
	cmoveq	%rdx, %r13
	jne	.LBB55_20
	jmp	.LBB55_22
.LBB55_5:
	leaq	(%rsp,%rax), %rdi
	addq	$8, %rdi
	movl	$4096, %esi
	subq	%rax, %rsi
	jmp	.LBB55_9
.LBB55_15:
	movl	$1, %edx
	testq	%rdx, %rdx
	cmoveq	%rdx, %r13
	jne	.LBB55_20
	jmp	.LBB55_22
.LBB55_8:
	negq	%rsi
	leaq	(%rsp,%r8), %rdi
	addq	$8, %rdi
	movq	%r8, %rax
.LBB55_9:
	xorl	%edx, %edx
	xorl	%ecx, %ecx
	.p2align	4, 0x90
.LBB55_10:
	cmpb	$0, (%rdi,%rcx)
	je	.LBB55_12
	incq	%rcx
	cmpq	%rcx, %rsi
	jne	.LBB55_10
	testq	%rdx, %rdx
	cmoveq	%rdx, %r13
	jne	.LBB55_20
	jmp	.LBB55_22
.LBB55_12:
	addq	%rax, %rcx
	movl	$1, %edx
	testq	%rdx, %rdx
	cmoveq	%rdx, %r13
	je	.LBB55_22
.LBB55_20:
	cmpq	%r15, %rcx
	jne	.LBB55_22
	movq	%r13, %rdi
	movq	%r12, %rsi
	movq	%r15, %rdx
	callq	memcmp
	testl	%eax, %eax
	je	.LBB55_23
.LBB55_22:
	movl	$1024, %edi
.LBB55_26:
	movl	$1, %ecx
	xorl	%r15d, %r15d
	orq	%r15, %rdi
	orl	%edi, %ecx
	testb	$1, %cl
	je	.LBB55_28
.LBB55_32:
	movb	$15, 1(%rbx)
	movb	$1, %al
	jmp	.LBB55_31
.LBB55_23:
	movzbl	8(%rsp), %r15d
	leaq	9(%rsp), %rsi
	leaq	4105(%rsp), %rdi
	movl	$4095, %edx
	callq	memcpy
	movb	%r15b, 4104(%rsp)
	leaq	4104(%rsp), %rdi
	movl	$2, %esi
	movl	%ebp, %edx
	callq	pkcs1_os_open
	testq	%rax, %rax
	js	.LBB55_24
	movq	%rax, %rdx
	shlq	$32, %rdx
	xorl	%r15d, %r15d
	xorl	%ecx, %ecx
	cmpq	$2147483647, %rax
	seta	%cl
	cmovbeq	%rdx, %r15
	movl	$1024, %edi
	orq	%r15, %rdi
	orl	%edi, %ecx
	testb	$1, %cl
	jne	.LBB55_32
.LBB55_28:
	testb	%r14b, %r14b
	jne	.LBB55_30
	shrq	$32, %rdi
	movl	%ebp, %esi
	callq	pkcs1_os_set_mode
.LBB55_30:
	shrq	$32, %r15
	movq	$0, 8(%rbx)
	movl	%r15d, 16(%rbx)
	xorl	%eax, %eax
.LBB55_31:
	movb	%al, (%rbx)
	addq	$8200, %rsp
	.cfi_def_cfa_offset 56
	popq	%rbx
	.cfi_def_cfa_offset 48
	popq	%r12
	.cfi_def_cfa_offset 40
	popq	%r13
	.cfi_def_cfa_offset 32
	popq	%r14
	.cfi_def_cfa_offset 24
	popq	%r15
	.cfi_def_cfa_offset 16
	popq	%rbp
	.cfi_def_cfa_offset 8
	retq
.LBB55_24:
	.cfi_def_cfa_offset 8256
	addq	$4, %rax
	movl	$1024, %edi
	cmpq	$3, %rax
	jae	.LBB55_26
	shlq	$8, %rax
	movl	$512, %edi
	subq	%rax, %rdi
	jmp	.LBB55_26
.Lfunc_end55:
	.size	_RNvXs_NtNtNtCs00000000001_10pkcs1_tool4tool13pkcs1_program11replace_stdRNtNtBa_10rattle_std11HostRuntimeNtNtB6_7replace12ReplaceFiles10create_newBa_, .Lfunc_end55-_RNvXs_NtNtNtCs00000000001_10pkcs1_tool4tool13pkcs1_program11replace_stdRNtNtBa_10rattle_std11HostRuntimeNtNtB6_7replace12ReplaceFiles10create_newBa_
	.cfi_endproc

	.section	.text._RNvXs_NtNtNtCs00000000001_10pkcs1_tool4tool13pkcs1_program11replace_stdRNtNtBa_10rattle_std11HostRuntimeNtNtB6_7replace12ReplaceFiles6renameBa_,"ax",@progbits
	.p2align	4, 0x90
	.type	_RNvXs_NtNtNtCs00000000001_10pkcs1_tool4tool13pkcs1_program11replace_stdRNtNtBa_10rattle_std11HostRuntimeNtNtB6_7replace12ReplaceFiles6renameBa_,@function
_RNvXs_NtNtNtCs00000000001_10pkcs1_tool4tool13pkcs1_program11replace_stdRNtNtBa_10rattle_std11HostRuntimeNtNtB6_7replace12ReplaceFiles6renameBa_:
	.cfi_startproc
	endbr64
	pushq	%rbp
	.cfi_def_cfa_offset 16
	pushq	%r15
	.cfi_def_cfa_offset 24
	pushq	%r14
	.cfi_def_cfa_offset 32
	pushq	%r13
	.cfi_def_cfa_offset 40
	pushq	%r12
	.cfi_def_cfa_offset 48
	pushq	%rbx
	.cfi_def_cfa_offset 56
	subq	$4096, %rsp
	.cfi_adjust_cfa_offset 4096
	movq	$0, (%rsp)
	subq	$4096, %rsp
	.cfi_adjust_cfa_offset 4096
	movq	$0, (%rsp)
	subq	$4096, %rsp
	.cfi_adjust_cfa_offset 4096
	movq	$0, (%rsp)
	pushq	%rax
	.cfi_def_cfa_offset 12352
	.cfi_offset %rbx, -56
	.cfi_offset %r12, -48
	.cfi_offset %r13, -40
	.cfi_offset %r14, -32
	.cfi_offset %r15, -24
	.cfi_offset %rbp, -16
	movq	%rcx, %rbx
	movq	%rdx, %r14
	movq	%rsi, %r15
	movq	%rdi, %r12
	leaq	9(%rsp), %r13
	movl	$4096, %edx
	movq	%r13, %rdi
	xorl	%esi, %esi
	callq	memset
	cmpq	$4096, %r15
	ja	.LBB56_21
	movq	%r13, %rdi
	movq	%r12, %rsi
	movq	%r15, %rdx
	callq	memcpy
	leaq	16(%rsp), %rbp
	andq	$-8, %rbp
	movq	%rbp, %rax
	subq	%r13, %rax
	jne	.LBB56_3
	xorl	%eax, %eax
	jmp	.LBB56_6
.LBB56_3:
	xorl	%ecx, %ecx
	.p2align	4, 0x90
.LBB56_4:
	cmpb	$0, 9(%rsp,%rcx)
	je	.LBB56_12
	incq	%rcx
	cmpq	%rcx, %rax
	jne	.LBB56_4
.LBB56_6:
	movabsq	$-9187201950435737472, %rcx
	movabsq	$72340172838076672, %rdx
	.p2align	4, 0x90
.LBB56_7:
	movq	9(%rsp,%rax), %rsi
	movq	17(%rsp,%rax), %rdi
	movq	%rdx, %r8
	subq	%rsi, %r8
	orq	%rsi, %r8
	movq	%rdx, %rsi
	subq	%rdi, %rsi
	orq	%rdi, %rsi
	andq	%rcx, %r8
	andq	%rsi, %r8
	cmpq	%rcx, %r8
	jne	.LBB56_11
	leaq	16(%rax), %r8
	cmpq	$4064, %rax
	movq	%r8, %rax
	jbe	.LBB56_7
	movq	%r8, %rsi
	subq	$4096, %rsi
	jne	.LBB56_13
	xorl	%edx, %edx
	testq	%rdx, %rdx
	cmoveq	%rdx, %r13
	jne	.LBB56_19
	jmp	.LBB56_21
.LBB56_11:
	leaq	(%rsp,%rax), %rdi
	addq	$9, %rdi
	movl	$4096, %esi
	subq	%rax, %rsi
	jmp	.LBB56_14
.LBB56_12:
	movl	$1, %edx
	testq	%rdx, %rdx
	cmoveq	%rdx, %r13
	jne	.LBB56_19
	jmp	.LBB56_21
.LBB56_13:
	negq	%rsi
	leaq	(%rsp,%r8), %rdi
	addq	$9, %rdi
	movq	%r8, %rax
.LBB56_14:
	xorl	%edx, %edx
	xorl	%ecx, %ecx
	.p2align	4, 0x90
.LBB56_15:
	cmpb	$0, (%rdi,%rcx)
	je	.LBB56_18
	incq	%rcx
	cmpq	%rcx, %rsi
	jne	.LBB56_15
	testq	%rdx, %rdx
	cmoveq	%rdx, %r13
	jne	.LBB56_19
	jmp	.LBB56_21
.LBB56_18:
	addq	%rax, %rcx
	movl	$1, %edx
	testq	%rdx, %rdx
	cmoveq	%rdx, %r13
	je	.LBB56_21
.LBB56_19:
	cmpq	%r15, %rcx
	jne	.LBB56_21
	movq	%r13, %rdi
	movq	%r12, %rsi
	movq	%r15, %rdx
	callq	memcmp
	testl	%eax, %eax
	jne	.LBB56_21
	movzbl	9(%rsp), %r12d
	leaq	10(%rsp), %rsi
	leaq	8201(%rsp), %rdi
	movl	$4095, %edx
	callq	memcpy
	leaq	9(%rsp), %r15
	movl	$4096, %edx
	movq	%r15, %rdi
	xorl	%esi, %esi
	callq	memset
	cmpq	$4096, %rbx
	ja	.LBB56_21
	movq	%r15, %rdi
	movq	%r14, %rsi
	movq	%rbx, %rdx
	callq	memcpy
	subq	%r15, %rbp
	jne	.LBB56_26
	xorl	%ebp, %ebp
	jmp	.LBB56_29
.LBB56_26:
	xorl	%eax, %eax
	.p2align	4, 0x90
.LBB56_27:
	cmpb	$0, 9(%rsp,%rax)
	je	.LBB56_42
	incq	%rax
	cmpq	%rax, %rbp
	jne	.LBB56_27
.LBB56_29:
	movabsq	$-9187201950435737472, %rax
	movabsq	$72340172838076672, %rcx
	.p2align	4, 0x90
.LBB56_30:
	movq	9(%rsp,%rbp), %rdx
	movq	17(%rsp,%rbp), %rsi
	movq	%rcx, %rdi
	subq	%rdx, %rdi
	orq	%rdx, %rdi
	movq	%rcx, %rdx
	subq	%rsi, %rdx
	orq	%rsi, %rdx
	andq	%rax, %rdi
	andq	%rdx, %rdi
	cmpq	%rax, %rdi
	jne	.LBB56_34
	leaq	16(%rbp), %rdi
	cmpq	$4064, %rbp
	movq	%rdi, %rbp
	jbe	.LBB56_30
	movq	%rdi, %rdx
	subq	$4096, %rdx
	jne	.LBB56_36
	xorl	%ecx, %ecx
	jmp	.LBB56_40
.LBB56_34:
	leaq	(%rsp,%rbp), %rsi
	addq	$9, %rsi
	movl	$4096, %edx
	subq	%rbp, %rdx
	jmp	.LBB56_37
.LBB56_36:
	negq	%rdx
	leaq	(%rsp,%rdi), %rsi
	addq	$9, %rsi
	movq	%rdi, %rbp
.LBB56_37:
	xorl	%ecx, %ecx
	xorl	%eax, %eax
	.p2align	4, 0x90
.LBB56_38:
	cmpb	$0, (%rsi,%rax)
	je	.LBB56_41
	incq	%rax
	cmpq	%rax, %rdx
	jne	.LBB56_38
.LBB56_40:
	jmp	.LBB56_43
.LBB56_41:
	addq	%rbp, %rax
.LBB56_42:
	movl	$1, %ecx
.LBB56_43:
	testq	%rcx, %rcx
	cmoveq	%rcx, %r15
	je	.LBB56_21
	cmpq	%rbx, %rax
	jne	.LBB56_21
	movq	%r15, %rdi
	movq	%r14, %rsi
	movq	%rbx, %rdx
	callq	memcmp
	testl	%eax, %eax
	je	.LBB56_47
.LBB56_21:
	movb	$4, %al
.LBB56_22:
	addq	$12296, %rsp
	.cfi_def_cfa_offset 56
	popq	%rbx
	.cfi_def_cfa_offset 48
	popq	%r12
	.cfi_def_cfa_offset 40
	popq	%r13
	.cfi_def_cfa_offset 32
	popq	%r14
	.cfi_def_cfa_offset 24
	popq	%r15
	.cfi_def_cfa_offset 16
	popq	%rbp
	.cfi_def_cfa_offset 8
	retq
.LBB56_47:
	.cfi_def_cfa_offset 12352
	movzbl	9(%rsp), %ebx
	leaq	10(%rsp), %rsi
	leaq	4106(%rsp), %rdi
	movq	memcpy@GOTPCREL(%rip), %r14
	movl	$4095, %edx
	callq	*%r14
	movb	%r12b, 9(%rsp)
	leaq	10(%rsp), %rdi
	leaq	8201(%rsp), %rsi
	movl	$4095, %edx
	callq	*%r14
	movb	%bl, 4105(%rsp)
	leaq	9(%rsp), %rdi
	leaq	4105(%rsp), %rsi
	callq	pkcs1_os_rename
	movq	%rax, %rcx
	movb	$5, %al
	testq	%rcx, %rcx
	jns	.LBB56_22
	addq	$4, %rcx
	movb	$4, %al
	cmpq	$2, %rcx
	ja	.LBB56_22
	movb	$2, %al
	subb	%cl, %al
	jmp	.LBB56_22
.Lfunc_end56:
	.size	_RNvXs_NtNtNtCs00000000001_10pkcs1_tool4tool13pkcs1_program11replace_stdRNtNtBa_10rattle_std11HostRuntimeNtNtB6_7replace12ReplaceFiles6renameBa_, .Lfunc_end56-_RNvXs_NtNtNtCs00000000001_10pkcs1_tool4tool13pkcs1_program11replace_stdRNtNtBa_10rattle_std11HostRuntimeNtNtB6_7replace12ReplaceFiles6renameBa_
	.cfi_endproc

	.section	.text._RNvXs_NtNtNtCs00000000001_10pkcs1_tool4tool13pkcs1_program11replace_stdRNtNtBa_10rattle_std11HostRuntimeNtNtB6_7replace12ReplaceFiles9sync_nameBa_,"ax",@progbits
	.p2align	4, 0x90
	.type	_RNvXs_NtNtNtCs00000000001_10pkcs1_tool4tool13pkcs1_program11replace_stdRNtNtBa_10rattle_std11HostRuntimeNtNtB6_7replace12ReplaceFiles9sync_nameBa_,@function
_RNvXs_NtNtNtCs00000000001_10pkcs1_tool4tool13pkcs1_program11replace_stdRNtNtBa_10rattle_std11HostRuntimeNtNtB6_7replace12ReplaceFiles9sync_nameBa_:
	.cfi_startproc
	endbr64
	pushq	%rbp
	.cfi_def_cfa_offset 16
	pushq	%r15
	.cfi_def_cfa_offset 24
	pushq	%r14
	.cfi_def_cfa_offset 32
	pushq	%rbx
	.cfi_def_cfa_offset 40
	subq	$4096, %rsp
	.cfi_adjust_cfa_offset 4096
	movq	$0, (%rsp)
	subq	$4096, %rsp
	.cfi_adjust_cfa_offset 4096
	movq	$0, (%rsp)
	pushq	%rax
	.cfi_def_cfa_offset 8240
	.cfi_offset %rbx, -40
	.cfi_offset %r14, -32
	.cfi_offset %r15, -24
	.cfi_offset %rbp, -16
	movq	%rdi, %r15
	.p2align	4, 0x90
.LBB57_1:
	movq	%rsi, %rax
	cmpq	$1, %rsi
	jbe	.LBB57_2
	cmpb	$46, -1(%r15,%rax)
	jne	.LBB57_20
	cmpb	$47, -2(%r15,%rax)
	jne	.LBB57_20
	leaq	-2(%rax), %rsi
	testq	%rsi, %rsi
	jne	.LBB57_1
	jmp	.LBB57_8
	.p2align	4, 0x90
.LBB57_2:
	testq	%rax, %rax
	je	.LBB57_3
.LBB57_20:
	cmpb	$47, -1(%r15,%rax)
	jne	.LBB57_8
	leaq	-1(%rax), %rsi
	testq	%rsi, %rsi
	jne	.LBB57_1
	jmp	.LBB57_8
.LBB57_3:
	xorl	%eax, %eax
.LBB57_8:
	movq	%rax, %rcx
	.p2align	4, 0x90
.LBB57_9:
	testq	%rcx, %rcx
	je	.LBB57_10
	movq	%rcx, %r14
	decq	%rcx
	cmpb	$47, -1(%r15,%r14)
	jne	.LBB57_9
	cmpq	%rax, %r14
	jbe	.LBB57_11
	ud2
.LBB57_10:
	xorl	%r14d, %r14d
.LBB57_11:
	leaq	8(%rsp), %rdi
	movq	%r15, %rsi
	movq	%r14, %rdx
	callq	_ZN4core3str8converts9from_utf817h0000000000000004E
	cmpq	$0, 24(%rsp)
	sete	%al
	orb	8(%rsp), %al
	movl	$1, %ebx
	cmoveq	%r14, %rbx
	leaq	.Lanon.53(%rip), %r14
	cmoveq	%r15, %r14
	leaq	8(%rsp), %r15
	movl	$4096, %edx
	movq	%r15, %rdi
	xorl	%esi, %esi
	callq	memset
	cmpq	$4096, %rbx
	ja	.LBB57_38
	movq	%r15, %rdi
	movq	%r14, %rsi
	movq	%rbx, %rdx
	callq	memcpy
	leaq	15(%rsp), %rax
	andq	$-8, %rax
	subq	%r15, %rax
	jne	.LBB57_29
	xorl	%eax, %eax
	jmp	.LBB57_14
.LBB57_29:
	xorl	%ecx, %ecx
	.p2align	4, 0x90
.LBB57_30:
	cmpb	$0, 8(%rsp,%rcx)
	je	.LBB57_31
	incq	%rcx
	cmpq	%rcx, %rax
	jne	.LBB57_30
.LBB57_14:
	movabsq	$-9187201950435737472, %rcx
	movabsq	$72340172838076672, %rdx
	.p2align	4, 0x90
.LBB57_15:
	movq	8(%rsp,%rax), %rsi
	movq	16(%rsp,%rax), %rdi
	movq	%rdx, %r8
	subq	%rsi, %r8
	orq	%rsi, %r8
	movq	%rdx, %rsi
	subq	%rdi, %rsi
	orq	%rdi, %rsi
	andq	%rcx, %r8
	andq	%rsi, %r8
	cmpq	%rcx, %r8
	jne	.LBB57_16
	leaq	16(%rax), %r8
	cmpq	$4064, %rax
	movq	%r8, %rax
	jbe	.LBB57_15
	movq	%r8, %rsi
	subq	$4096, %rsi
	jne	.LBB57_24
	xorl	%edx, %edx
	testq	%rdx, %rdx
	cmoveq	%rdx, %r15
	jne	.LBB57_36
	jmp	.LBB57_38
.LBB57_16:
	leaq	(%rsp,%rax), %rdi
	addq	$8, %rdi
	movl	$4096, %esi
	subq	%rax, %rsi
	jmp	.LBB57_25
.LBB57_31:
	movl	$1, %edx
	testq	%rdx, %rdx
	cmoveq	%rdx, %r15
	jne	.LBB57_36
	jmp	.LBB57_38
.LBB57_24:
	negq	%rsi
	leaq	(%rsp,%r8), %rdi
	addq	$8, %rdi
	movq	%r8, %rax
.LBB57_25:
	xorl	%edx, %edx
	xorl	%ecx, %ecx
	.p2align	4, 0x90
.LBB57_26:
	cmpb	$0, (%rdi,%rcx)
	je	.LBB57_28
	incq	%rcx
	cmpq	%rcx, %rsi
	jne	.LBB57_26
	testq	%rdx, %rdx
	cmoveq	%rdx, %r15
	jne	.LBB57_36
	jmp	.LBB57_38
.LBB57_28:
	addq	%rax, %rcx
	movl	$1, %edx
	testq	%rdx, %rdx
	cmoveq	%rdx, %r15
	je	.LBB57_38
.LBB57_36:
	cmpq	%rbx, %rcx
	jne	.LBB57_38
	movq	%r15, %rdi
	movq	%r14, %rsi
	movq	%rbx, %rdx
	callq	memcmp
	testl	%eax, %eax
	je	.LBB57_39
.LBB57_38:
	movl	$1024, %ecx
.LBB57_42:
	movl	$1, %edx
	xorl	%ebx, %ebx
	orq	%rcx, %rbx
	orl	%ebx, %edx
	testb	$1, %dl
	je	.LBB57_44
.LBB57_48:
	movl	%ebx, %eax
	shrl	$8, %eax
	andl	$65280, %ebx
	cmpl	$768, %ebx
	movl	$5, %ebp
	cmovnel	%eax, %ebp
	jmp	.LBB57_49
.LBB57_39:
	movzbl	8(%rsp), %ebx
	leaq	9(%rsp), %rsi
	leaq	4105(%rsp), %rdi
	movl	$4095, %edx
	callq	memcpy
	movb	%bl, 4104(%rsp)
	leaq	4104(%rsp), %rdi
	xorl	%esi, %esi
	xorl	%edx, %edx
	callq	pkcs1_os_open
	testq	%rax, %rax
	js	.LBB57_40
	movq	%rax, %rcx
	shlq	$32, %rcx
	xorl	%ebx, %ebx
	xorl	%edx, %edx
	cmpq	$2147483647, %rax
	seta	%dl
	cmovbeq	%rcx, %rbx
	movl	$1024, %ecx
	orq	%rcx, %rbx
	orl	%ebx, %edx
	testb	$1, %dl
	jne	.LBB57_48
.LBB57_44:
	shrq	$32, %rbx
	movl	%ebx, %edi
	callq	pkcs1_os_sync
	movb	$5, %bpl
	testq	%rax, %rax
	jns	.LBB57_47
	addq	$4, %rax
	movb	$4, %bpl
	cmpq	$2, %rax
	ja	.LBB57_47
	movb	$2, %bpl
	subb	%al, %bpl
.LBB57_47:
	movl	%ebx, %edi
	callq	pkcs1_os_close
.LBB57_49:
	movl	%ebp, %eax
	addq	$8200, %rsp
	.cfi_def_cfa_offset 40
	popq	%rbx
	.cfi_def_cfa_offset 32
	popq	%r14
	.cfi_def_cfa_offset 24
	popq	%r15
	.cfi_def_cfa_offset 16
	popq	%rbp
	.cfi_def_cfa_offset 8
	retq
.LBB57_40:
	.cfi_def_cfa_offset 8240
	addq	$4, %rax
	movl	$1024, %ecx
	cmpq	$3, %rax
	jae	.LBB57_42
	shlq	$8, %rax
	movl	$512, %ecx
	subq	%rax, %rcx
	jmp	.LBB57_42
.Lfunc_end57:
	.size	_RNvXs_NtNtNtCs00000000001_10pkcs1_tool4tool13pkcs1_program11replace_stdRNtNtBa_10rattle_std11HostRuntimeNtNtB6_7replace12ReplaceFiles9sync_nameBa_, .Lfunc_end57-_RNvXs_NtNtNtCs00000000001_10pkcs1_tool4tool13pkcs1_program11replace_stdRNtNtBa_10rattle_std11HostRuntimeNtNtB6_7replace12ReplaceFiles9sync_nameBa_
	.cfi_endproc

	.section	.text._RINvNtNtNtCs00000000001_10pkcs1_tool4tool13pkcs1_program8sequence13read_sequenceINtNtNtNtB8_6proved8der_core6std_io8FromReadNtNtNtB8_10rattle_std6system4FileEEB8_,"ax",@progbits
	.p2align	4, 0x90
	.type	_RINvNtNtNtCs00000000001_10pkcs1_tool4tool13pkcs1_program8sequence13read_sequenceINtNtNtNtB8_6proved8der_core6std_io8FromReadNtNtNtB8_10rattle_std6system4FileEEB8_,@function
_RINvNtNtNtCs00000000001_10pkcs1_tool4tool13pkcs1_program8sequence13read_sequenceINtNtNtNtB8_6proved8der_core6std_io8FromReadNtNtNtB8_10rattle_std6system4FileEEB8_:
	.cfi_startproc
	endbr64
	pushq	%rbp
	.cfi_def_cfa_offset 16
	pushq	%r15
	.cfi_def_cfa_offset 24
	pushq	%r14
	.cfi_def_cfa_offset 32
	pushq	%r13
	.cfi_def_cfa_offset 40
	pushq	%r12
	.cfi_def_cfa_offset 48
	pushq	%rbx
	.cfi_def_cfa_offset 56
	movq	%rsp, %r11
	subq	$65536, %r11
	.cfi_def_cfa_register %r11
	.cfi_adjust_cfa_offset 65536
.LBB58_1:
	subq	$4096, %rsp
	movq	$0, (%rsp)
	cmpq	%r11, %rsp
	jne	.LBB58_1
	subq	$104, %rsp
	.cfi_def_cfa_register %rsp
	.cfi_def_cfa_offset 65696
	.cfi_offset %rbx, -56
	.cfi_offset %r12, -48
	.cfi_offset %r13, -40
	.cfi_offset %r14, -32
	.cfi_offset %r15, -24
	.cfi_offset %rbp, -16
	movq	%rsi, %r15
	movq	%rdi, 8(%rsp)
	movabsq	$-4294967296, %r13
	leaq	104(%rsp), %rbp
	xorl	%r12d, %r12d
	movl	$65536, %edx
	movq	%rbp, %rdi
	xorl	%esi, %esi
	callq	memset
	movl	$1, %r14d
	movq	pkcs1_os_read@GOTPCREL(%rip), %rax
	leaq	1(%r13), %rcx
	movq	%rcx, 72(%rsp)
	movq	$0, 16(%rsp)
.LBB58_3:
	movq	%r12, %r13
	movl	8(%r15), %edi
	movl	$65536, %edx
	movq	%rbp, %rbx
	movq	%rbp, %rsi
	callq	*%rax
	testq	%rax, %rax
	js	.LBB58_79
	movq	16(%rsp), %rcx
	je	.LBB58_5
	movq	%rax, %rbp
	movl	$4294967295, %eax
	subq	%r13, %rax
	cmpq	%rax, %rbp
	ja	.LBB58_21
	cmpq	$65537, %rbp
	jae	.LBB58_80
	movq	%rcx, %rax
	subq	%r13, %rax
	cmpq	%rbp, %rax
	jae	.LBB58_10
	movq	%r14, 24(%rsp)
	movq	%r15, 64(%rsp)
	movq	8(%rsp), %r14
	movq	%rbp, %r12
	addq	%r13, %r12
	jb	.LBB58_20
	leaq	(%rcx,%rcx), %r15
	cmpq	%r12, %r15
	cmovbeq	%r12, %r15
	cmpq	$9, %r15
	jae	.LBB58_14
	movl	$8, %r15d
.LBB58_14:
	testq	%r15, %r15
	js	.LBB58_20
	testq	%rcx, %rcx
	jne	.LBB58_17
	xorl	%eax, %eax
	jmp	.LBB58_18
	.p2align	4, 0x90
.LBB58_10:
	movq	%rbp, %r12
	addq	%r13, %r12
	jmp	.LBB58_23
.LBB58_17:
	movq	24(%rsp), %rax
	movq	%rax, 32(%rsp)
	movq	%rcx, 48(%rsp)
	movl	$1, %eax
.LBB58_18:
	movq	%rax, 40(%rsp)
	movl	$1, %esi
	leaq	80(%rsp), %rdi
	movq	%r15, %rdx
	leaq	32(%rsp), %rcx
	callq	_RINvNtCs00000000002_5alloc7raw_vec11finish_growNtNtB4_5alloc6GlobalECs00000000001_10pkcs1_tool
	cmpl	$1, 80(%rsp)
	je	.LBB58_19
	movq	88(%rsp), %r14
	movq	%r15, 16(%rsp)
	movq	64(%rsp), %r15
.LBB58_23:
	addq	%r14, %r13
	movq	%r13, %rdi
	movq	%rbx, %rsi
	movq	%rbp, %rdx
	callq	memcpy
	movabsq	$-4294967296, %rax
	addq	%r12, %rax
	cmpq	72(%rsp), %rax
	jb	.LBB58_73
	movzbl	(%r14), %edx
	cmpq	$1, %r12
	je	.LBB58_44
	movl	%edx, %eax
	andb	$31, %al
	cmpb	$31, %al
	je	.LBB58_44
	movl	%edx, %eax
	andb	$-33, %al
	je	.LBB58_44
	leaq	-2(%r12), %rax
	movzbl	1(%r14), %ecx
	movzbl	%cl, %edi
	testb	%dil, %dil
	movq	%rbx, %rbp
	js	.LBB58_29
	movq	%rax, %rsi
.LBB58_41:
	cmpb	$48, %dl
	jne	.LBB58_46
	movb	$17, %dl
	cmpq	%rdi, %rsi
	jbe	.LBB58_72
	.p2align	4, 0x90
	testb	%cl, %cl
	js	.LBB58_49
.LBB58_57:
	movzbl	%cl, %ecx
	subq	%rcx, %rax
	jb	.LBB58_59
.LBB58_61:
	testq	%rax, %rax
	jne	.LBB58_62
.LBB58_66:
	movq	%r12, %rdx
	cmpq	$9, %r12
	jae	.LBB58_68
	movl	$8, %edx
.LBB58_68:
	movq	$0, 40(%rsp)
	movl	$1, %esi
	leaq	80(%rsp), %rdi
	leaq	32(%rsp), %rcx
	callq	_RINvNtCs00000000002_5alloc7raw_vec11finish_growNtNtB4_5alloc6GlobalECs00000000001_10pkcs1_tool
	cmpl	$1, 80(%rsp)
	jne	.LBB58_70
	movb	$17, %dl
	xorl	%r8d, %r8d
	jmp	.LBB58_72
	.p2align	4, 0x90
.LBB58_44:
	cmpq	$2, %r12
	movq	%rbx, %rbp
	jb	.LBB58_59
	leaq	-2(%r12), %rax
.LBB58_46:
	cmpb	$48, %dl
	jne	.LBB58_59
	movzbl	1(%r14), %ecx
	testb	%cl, %cl
	jns	.LBB58_57
.LBB58_49:
	cmpb	$-126, %cl
	jne	.LBB58_53
	cmpq	$1, %rax
	jbe	.LBB58_59
	movzbl	2(%r14), %ecx
	testq	%rcx, %rcx
	je	.LBB58_59
	leaq	-4(%r12), %rax
	shll	$8, %ecx
	movzbl	3(%r14), %edx
	orq	%rcx, %rdx
	subq	%rdx, %rax
	jae	.LBB58_61
	jmp	.LBB58_59
	.p2align	4, 0x90
.LBB58_70:
	movq	88(%rsp), %rdi
	callq	free
	movb	$17, %dl
.LBB58_72:
	cmpb	$17, %dl
	movq	pkcs1_os_read@GOTPCREL(%rip), %rax
	je	.LBB58_3
	jmp	.LBB58_75
.LBB58_29:
	cmpb	$-128, %cl
	sete	%sil
	cmpb	$-123, %cl
	setae	%r8b
	orb	%sil, %r8b
	jne	.LBB58_46
	andl	$127, %edi
	movq	%rax, %rsi
	subq	%rdi, %rsi
	jb	.LBB58_46
	testb	%dil, %dil
	je	.LBB58_46
	movzbl	%dil, %r9d
	cmpl	$1, %r9d
	jne	.LBB58_33
	movzbl	2(%r14), %edi
	testb	%dil, %dil
	jns	.LBB58_46
	jmp	.LBB58_41
.LBB58_53:
	testq	%rax, %rax
	je	.LBB58_59
	cmpb	$-127, %cl
	jne	.LBB58_59
	movzbl	2(%r14), %ecx
	testb	%cl, %cl
	jns	.LBB58_59
	leaq	-3(%r12), %rax
	subq	%rcx, %rax
	jae	.LBB58_61
.LBB58_59:
	leaq	32(%rsp), %rdi
	movq	%r14, %rsi
	movq	%r12, %rdx
	movl	$48, %ecx
	callq	_RNvNtNtNtCs00000000001_10pkcs1_tool6proved8der_core5split14split_unlikely
	cmpq	$0, 32(%rsp)
	je	.LBB58_63
	movq	56(%rsp), %rax
	testq	%rax, %rax
	je	.LBB58_66
	jmp	.LBB58_62
.LBB58_63:
	movzbl	42(%rsp), %eax
	shll	$16, %eax
	movzwl	40(%rsp), %edx
	orl	%edx, %eax
	movl	%eax, %r8d
	shrl	$8, %r8d
	cmpb	$1, %dl
	je	.LBB58_71
	movzbl	%al, %eax
	cmpl	$16, %eax
	je	.LBB58_71
	cmpl	$17, %eax
	jne	.LBB58_72
	jmp	.LBB58_66
.LBB58_71:
	movb	$17, %dl
	jmp	.LBB58_72
.LBB58_33:
	movzbl	2(%r14), %r8d
	testq	%r8, %r8
	je	.LBB58_46
	cmpb	$2, %dil
	je	.LBB58_39
	cmpl	$3, %r9d
	jne	.LBB58_36
	shll	$16, %r8d
	movzbl	3(%r14), %r9d
	shll	$8, %r9d
	orl	%r8d, %r9d
	movzbl	4(%r14), %edi
	orq	%r9, %rdi
	jmp	.LBB58_41
.LBB58_39:
	shll	$8, %r8d
	movzbl	3(%r14), %edi
	jmp	.LBB58_40
.LBB58_36:
	cmpl	$4, %r9d
	jne	.LBB58_38
	shll	$24, %r8d
	movzbl	3(%r14), %edi
	shll	$16, %edi
	orl	%r8d, %edi
	movzbl	4(%r14), %r8d
	shll	$8, %r8d
	orl	%edi, %r8d
	movzbl	5(%r14), %edi
.LBB58_40:
	orq	%r8, %rdi
	jmp	.LBB58_41
.LBB58_62:
	movb	$12, %dl
.LBB58_74:
	xorl	%r8d, %r8d
.LBB58_75:
	movq	8(%rsp), %rsi
	movb	%dl, 8(%rsi)
	movw	%r8w, 9(%rsi)
.LBB58_76:
	movq	16(%rsp), %rcx
	jmp	.LBB58_77
.LBB58_79:
	movq	(%r15), %rax
	incq	%rax
	movq	$-1, %rcx
	cmovneq	%rax, %rcx
	movq	%rcx, (%r15)
	movq	8(%rsp), %rsi
	movb	$15, 8(%rsi)
	jmp	.LBB58_76
.LBB58_5:
	movq	8(%rsp), %rax
	movq	%rcx, (%rax)
	movq	%r14, 8(%rax)
	movq	%r13, 16(%rax)
	jmp	.LBB58_6
.LBB58_21:
	movq	8(%rsp), %rsi
	movb	$7, 8(%rsi)
	jmp	.LBB58_77
.LBB58_73:
	movb	$7, %dl
	jmp	.LBB58_74
.LBB58_19:
	movq	16(%rsp), %rcx
.LBB58_20:
	movq	%r14, %rsi
	movb	$16, 8(%r14)
	movq	24(%rsp), %r14
.LBB58_77:
	movabsq	$-9223372036854775808, %rax
	movq	%rax, (%rsi)
	testq	%rcx, %rcx
	je	.LBB58_6
	movq	%r14, %rdi
	callq	free
.LBB58_6:
	addq	$65640, %rsp
	.cfi_def_cfa_offset 56
	popq	%rbx
	.cfi_def_cfa_offset 48
	popq	%r12
	.cfi_def_cfa_offset 40
	popq	%r13
	.cfi_def_cfa_offset 32
	popq	%r14
	.cfi_def_cfa_offset 24
	popq	%r15
	.cfi_def_cfa_offset 16
	popq	%rbp
	.cfi_def_cfa_offset 8
	retq
.LBB58_80:
	.cfi_def_cfa_offset 65696
	movl	$65536, %esi
	movq	%rbp, %rdi
	ud2
.LBB58_38:
	ud2
.Lfunc_end58:
	.size	_RINvNtNtNtCs00000000001_10pkcs1_tool4tool13pkcs1_program8sequence13read_sequenceINtNtNtNtB8_6proved8der_core6std_io8FromReadNtNtNtB8_10rattle_std6system4FileEEB8_, .Lfunc_end58-_RINvNtNtNtCs00000000001_10pkcs1_tool4tool13pkcs1_program8sequence13read_sequenceINtNtNtNtB8_6proved8der_core6std_io8FromReadNtNtNtB8_10rattle_std6system4FileEEB8_
	.cfi_endproc

	.section	.text._RNvNtNtNtCs00000000001_10pkcs1_tool4tool13pkcs1_program7verdict11put_verdict,"ax",@progbits
	.p2align	4, 0x90
	.type	_RNvNtNtNtCs00000000001_10pkcs1_tool4tool13pkcs1_program7verdict11put_verdict,@function
_RNvNtNtNtCs00000000001_10pkcs1_tool4tool13pkcs1_program7verdict11put_verdict:
	.cfi_startproc
	endbr64
	pushq	%rbp
	.cfi_def_cfa_offset 16
	pushq	%r15
	.cfi_def_cfa_offset 24
	pushq	%r14
	.cfi_def_cfa_offset 32
	pushq	%r13
	.cfi_def_cfa_offset 40
	pushq	%r12
	.cfi_def_cfa_offset 48
	pushq	%rbx
	.cfi_def_cfa_offset 56
	subq	$72, %rsp
	.cfi_def_cfa_offset 128
	.cfi_offset %rbx, -56
	.cfi_offset %r12, -48
	.cfi_offset %r13, -40
	.cfi_offset %r14, -32
	.cfi_offset %r15, -24
	.cfi_offset %rbp, -16
	movq	%rcx, %rbx
	movq	%rsi, %r15
	movq	%rdi, %r12
	movq	(%rcx), %r14
	movq	16(%rcx), %rdi
	movq	%r14, %rax
	subq	%rdi, %rax
	cmpq	%rsi, %rax
	jae	.LBB59_5
	movq	%rdi, %rbp
	movb	$1, %al
	addq	%r15, %rbp
	jb	.LBB59_22
	leaq	(%r14,%r14), %rcx
	cmpq	%rbp, %rcx
	cmovbeq	%rbp, %rcx
	cmpq	$9, %rcx
	movl	$8, %r13d
	cmovaeq	%rcx, %r13
	testq	%r13, %r13
	js	.LBB59_22
	testq	%r14, %r14
	movq	%rdi, 64(%rsp)
	movl	%edx, 12(%rsp)
	jne	.LBB59_23
	xorl	%eax, %eax
	jmp	.LBB59_24
.LBB59_5:
	movl	%edx, 12(%rsp)
	movq	8(%rbx), %r13
	leaq	(%rdi,%r15), %rbp
.LBB59_6:
	addq	%r13, %rdi
	movq	%r12, %rsi
	movq	%r15, %rdx
	callq	memcpy
	movq	%rbp, 16(%rbx)
	movq	%r14, %rax
	subq	%rbp, %rax
	cmpb	$0, 12(%rsp)
	je	.LBB59_12
	cmpq	$4, %rax
	jae	.LBB59_17
	movb	$1, %al
	cmpq	$-5, %rbp
	ja	.LBB59_22
	leaq	4(%rbp), %r12
	leaq	(%r14,%r14), %rcx
	cmpq	%r12, %rcx
	cmovbeq	%r12, %rcx
	cmpq	$9, %rcx
	movl	$8, %r15d
	cmovaeq	%rcx, %r15
	testq	%r15, %r15
	js	.LBB59_22
	testq	%r14, %r14
	jne	.LBB59_27
	xorl	%eax, %eax
	jmp	.LBB59_28
.LBB59_12:
	cmpq	$3, %rax
	jae	.LBB59_19
	movb	$1, %al
	cmpq	$-4, %rbp
	ja	.LBB59_22
	leaq	3(%rbp), %r12
	leaq	(%r14,%r14), %rcx
	cmpq	%r12, %rcx
	cmovbeq	%r12, %rcx
	cmpq	$9, %rcx
	movl	$8, %r15d
	cmovaeq	%rcx, %r15
	testq	%r15, %r15
	js	.LBB59_22
	testq	%r14, %r14
	jne	.LBB59_30
	xorl	%eax, %eax
	jmp	.LBB59_31
.LBB59_17:
	leaq	4(%rbp), %r12
.LBB59_18:
	movl	$1936029984, (%r13,%rbp)
	jmp	.LBB59_21
.LBB59_19:
	leaq	3(%rbp), %r12
.LBB59_20:
	movb	$111, 2(%r13,%rbp)
	movw	$28192, (%r13,%rbp)
.LBB59_21:
	movq	%r12, 16(%rbx)
	xorl	%eax, %eax
.LBB59_22:
	addq	$72, %rsp
	.cfi_def_cfa_offset 56
	popq	%rbx
	.cfi_def_cfa_offset 48
	popq	%r12
	.cfi_def_cfa_offset 40
	popq	%r13
	.cfi_def_cfa_offset 32
	popq	%r14
	.cfi_def_cfa_offset 24
	popq	%r15
	.cfi_def_cfa_offset 16
	popq	%rbp
	.cfi_def_cfa_offset 8
	retq
.LBB59_23:
	.cfi_def_cfa_offset 128
	movq	8(%rbx), %rax
	movq	%rax, 16(%rsp)
	movq	%r14, 32(%rsp)
	movl	$1, %eax
.LBB59_24:
	movq	%rax, 24(%rsp)
	leaq	40(%rsp), %rdi
	leaq	16(%rsp), %rcx
	movl	$1, %esi
	movq	%r13, %rdx
	callq	_RINvNtCs00000000002_5alloc7raw_vec11finish_growNtNtB4_5alloc6GlobalECs00000000001_10pkcs1_tool
	cmpl	$1, 40(%rsp)
	je	.LBB59_25
	movq	48(%rsp), %rax
	movq	%rax, 8(%rbx)
	movq	%r13, (%rbx)
	movq	%r13, %r14
	movq	%rax, %r13
	movq	64(%rsp), %rdi
	jmp	.LBB59_6
.LBB59_27:
	movq	%r13, 16(%rsp)
	movq	%r14, 32(%rsp)
	movl	$1, %eax
.LBB59_28:
	movq	%rax, 24(%rsp)
	leaq	40(%rsp), %rdi
	leaq	16(%rsp), %rcx
	movl	$1, %esi
	movq	%r15, %rdx
	callq	_RINvNtCs00000000002_5alloc7raw_vec11finish_growNtNtB4_5alloc6GlobalECs00000000001_10pkcs1_tool
	cmpl	$1, 40(%rsp)
	je	.LBB59_25
	movq	48(%rsp), %r13
	movq	%r13, 8(%rbx)
	movq	%r15, (%rbx)
	jmp	.LBB59_18
.LBB59_30:
	movq	%r13, 16(%rsp)
	movq	%r14, 32(%rsp)
	movl	$1, %eax
.LBB59_31:
	movq	%rax, 24(%rsp)
	leaq	40(%rsp), %rdi
	leaq	16(%rsp), %rcx
	movl	$1, %esi
	movq	%r15, %rdx
	callq	_RINvNtCs00000000002_5alloc7raw_vec11finish_growNtNtB4_5alloc6GlobalECs00000000001_10pkcs1_tool
	cmpl	$1, 40(%rsp)
	jne	.LBB59_34
.LBB59_25:
	movb	$1, %al
	jmp	.LBB59_22
.LBB59_34:
	movq	48(%rsp), %r13
	movq	%r13, 8(%rbx)
	movq	%r15, (%rbx)
	jmp	.LBB59_20
.Lfunc_end59:
	.size	_RNvNtNtNtCs00000000001_10pkcs1_tool4tool13pkcs1_program7verdict11put_verdict, .Lfunc_end59-_RNvNtNtNtCs00000000001_10pkcs1_tool4tool13pkcs1_program7verdict11put_verdict
	.cfi_endproc

	.section	.rodata.cst16,"aM",@progbits,16
	.p2align	4, 0x0
.LCPI60_0:
	.short	255
	.short	255
	.short	255
	.short	255
	.short	255
	.short	255
	.short	255
	.short	255
.LCPI60_1:
	.zero	16,208
.LCPI60_2:
	.zero	16,32
.LCPI60_3:
	.zero	16,9
.LCPI60_4:
	.zero	16,159
.LCPI60_5:
	.zero	16,6
.LCPI60_6:
	.zero	16,169
.LCPI60_7:
	.zero	16,240
.LCPI60_8:
	.byte	208
	.byte	208
	.byte	208
	.byte	208
	.byte	208
	.byte	208
	.byte	208
	.byte	208
	.zero	1
	.zero	1
	.zero	1
	.zero	1
	.zero	1
	.zero	1
	.zero	1
	.zero	1
.LCPI60_9:
	.byte	32
	.byte	32
	.byte	32
	.byte	32
	.byte	32
	.byte	32
	.byte	32
	.byte	32
	.zero	1
	.zero	1
	.zero	1
	.zero	1
	.zero	1
	.zero	1
	.zero	1
	.zero	1
.LCPI60_10:
	.byte	10
	.byte	10
	.byte	10
	.byte	10
	.byte	10
	.byte	10
	.byte	10
	.byte	10
	.zero	1
	.zero	1
	.zero	1
	.zero	1
	.zero	1
	.zero	1
	.zero	1
	.zero	1
.LCPI60_11:
	.byte	159
	.byte	159
	.byte	159
	.byte	159
	.byte	159
	.byte	159
	.byte	159
	.byte	159
	.zero	1
	.zero	1
	.zero	1
	.zero	1
	.zero	1
	.zero	1
	.zero	1
	.zero	1
.LCPI60_12:
	.byte	6
	.byte	6
	.byte	6
	.byte	6
	.byte	6
	.byte	6
	.byte	6
	.byte	6
	.zero	1
	.zero	1
	.zero	1
	.zero	1
	.zero	1
	.zero	1
	.zero	1
	.zero	1
.LCPI60_13:
	.byte	169
	.byte	169
	.byte	169
	.byte	169
	.byte	169
	.byte	169
	.byte	169
	.byte	169
	.zero	1
	.zero	1
	.zero	1
	.zero	1
	.zero	1
	.zero	1
	.zero	1
	.zero	1
	.section	.text._RNvNtNtCs00000000001_10pkcs1_tool4tool10pkcs1_tool4main,"ax",@progbits
	.p2align	4, 0x90
	.type	_RNvNtNtCs00000000001_10pkcs1_tool4tool10pkcs1_tool4main,@function
_RNvNtNtCs00000000001_10pkcs1_tool4tool10pkcs1_tool4main:
	.cfi_startproc
	endbr64
	pushq	%rbp
	.cfi_def_cfa_offset 16
	pushq	%r15
	.cfi_def_cfa_offset 24
	pushq	%r14
	.cfi_def_cfa_offset 32
	pushq	%r13
	.cfi_def_cfa_offset 40
	pushq	%r12
	.cfi_def_cfa_offset 48
	pushq	%rbx
	.cfi_def_cfa_offset 56
	movq	%rsp, %r11
	subq	$69632, %r11
	.cfi_def_cfa_register %r11
	.cfi_adjust_cfa_offset 69632
.LBB60_1:
	subq	$4096, %rsp
	movq	$0, (%rsp)
	cmpq	%r11, %rsp
	jne	.LBB60_1
	subq	$712, %rsp
	.cfi_def_cfa_register %rsp
	.cfi_def_cfa_offset 70400
	.cfi_offset %rbx, -56
	.cfi_offset %r12, -48
	.cfi_offset %r13, -40
	.cfi_offset %r14, -32
	.cfi_offset %r15, -24
	.cfi_offset %rbp, -16
	movq	%rsi, 16(%rsp)
	movabsq	$-9223372036854775808, %r13
	movq	$0, 472(%rsp)
	movq	$8, 480(%rsp)
	movq	$0, 488(%rsp)
	movq	$0, 240(%rsp)
	movq	$8, 248(%rsp)
	movq	$0, 256(%rsp)
	movq	%rdi, 48(%rsp)
	testq	%rdi, %rdi
	movq	%r13, 24(%rsp)
	je	.LBB60_57
	movl	$8, %r15d
	movl	$1, %r12d
	xorl	%ebx, %ebx
	leaq	-8(%r13), %rax
	movq	%rax, 128(%rsp)
	jmp	.LBB60_5
	.p2align	4, 0x90
.LBB60_4:
	movq	%r14, -8(%r15,%r12,8)
	movdqa	224(%rsp), %xmm0
	movdqu	%xmm0, (%r15,%r12,8)
	incq	%rbx
	movq	%rbx, 256(%rsp)
	addq	$3, %r12
	cmpq	%rbx, 48(%rsp)
	je	.LBB60_34
.LBB60_5:
	movq	16(%rsp), %rax
	movq	(%rax,%rbx,8), %rbp
	testq	%rbp, %rbp
	je	.LBB60_35
	movq	%rbp, %rdi
	callq	strlen
	leaq	4800(%rsp), %rdi
	movq	%rbp, %rsi
	movq	%rax, %rdx
	callq	_ZN4core3str8converts9from_utf817h0000000000000004E
	testb	$1, 4800(%rsp)
	jne	.LBB60_26
	movq	4808(%rsp), %r14
	movq	4816(%rsp), %r13
	movq	240(%rsp), %rcx
	cmpq	%rbx, %rcx
	jne	.LBB60_11
	leaq	1(%rbx), %rbp
	leaq	(%rcx,%rcx), %rax
	cmpq	%rbp, %rax
	cmovaq	%rax, %rbp
	cmpq	$5, %rbp
	movl	$4, %eax
	cmovbq	%rax, %rbp
	movq	%rbp, %rax
	movl	$24, %edx
	mulq	%rdx
	seto	%dl
	cmpq	128(%rsp), %rax
	seta	%sil
	orb	%dl, %sil
	jne	.LBB60_21
	testq	%rcx, %rcx
	jne	.LBB60_12
	xorl	%ecx, %ecx
	jmp	.LBB60_13
	.p2align	4, 0x90
.LBB60_11:
	movq	%rcx, %rbp
	jmp	.LBB60_15
.LBB60_12:
	shlq	$3, %rcx
	leaq	(%rcx,%rcx,2), %rcx
	movq	%r15, 4800(%rsp)
	movq	%rcx, 4816(%rsp)
	movl	$8, %ecx
.LBB60_13:
	movq	%rcx, 4808(%rsp)
	movl	$8, %esi
	leaq	704(%rsp), %rdi
	movq	%rax, %rdx
	leaq	4800(%rsp), %rcx
	callq	_RINvNtCs00000000002_5alloc7raw_vec11finish_growNtNtB4_5alloc6GlobalECs00000000001_10pkcs1_tool
	cmpl	$1, 704(%rsp)
	je	.LBB60_21
	movq	712(%rsp), %r15
	movq	%r15, 248(%rsp)
	movq	%rbp, 240(%rsp)
.LBB60_15:
	movq	%r14, 80(%rsp)
	movq	%r13, 88(%rsp)
	leaq	80(%rsp), %rax
	movq	%rax, 152(%rsp)
	leaq	_RNvXs1c_NtCs00000000000_4core3fmtReNtB6_7Display3fmtCs00000000001_10pkcs1_tool(%rip), %rax
	movq	%rax, 160(%rsp)
	leaq	.Lanon.19(%rip), %rax
	movq	%rax, 4800(%rsp)
	movq	$1, 4808(%rsp)
	movq	$0, 4832(%rsp)
	leaq	152(%rsp), %rax
	movq	%rax, 4816(%rsp)
	movq	$1, 4824(%rsp)
	movq	$0, 704(%rsp)
	movq	$1, 712(%rsp)
	movq	$0, 720(%rsp)
	leaq	704(%rsp), %rdi
	leaq	.Lanon.1(%rip), %rsi
	leaq	4800(%rsp), %rdx
	callq	_ZN4core3fmt5write17h0000000000000000E
	testb	%al, %al
	jne	.LBB60_19
	movq	704(%rsp), %r14
	leaq	712(%rsp), %rax
	movups	(%rax), %xmm0
	movaps	%xmm0, 208(%rsp)
	movabsq	$-9223372036854775808, %r13
	cmpq	%r13, %r14
	je	.LBB60_21
	movaps	208(%rsp), %xmm0
	movaps	%xmm0, 224(%rsp)
	cmpq	%rbp, %rbx
	jne	.LBB60_4
	leaq	240(%rsp), %rdi
	callq	_RNvMs1_NtCs00000000002_5alloc7raw_vecINtB5_6RawVecINtNtNtNtCs00000000001_10pkcs1_tool10rattle_std7library3vec3VechEE8grow_oneBV_
	movq	248(%rsp), %r15
	jmp	.LBB60_4
.LBB60_26:
	movb	$4, %bpl
	movq	248(%rsp), %r14
	testq	%rbx, %rbx
	jne	.LBB60_22
	jmp	.LBB60_27
.LBB60_19:
	cmpq	$0, 704(%rsp)
	je	.LBB60_21
	movq	712(%rsp), %rdi
	callq	free
.LBB60_21:
	xorl	%ebp, %ebp
	movq	248(%rsp), %r14
	testq	%rbx, %rbx
	je	.LBB60_27
.LBB60_22:
	leaq	8(%r14), %r15
	movq	free@GOTPCREL(%rip), %r12
	jmp	.LBB60_24
	.p2align	4, 0x90
.LBB60_23:
	addq	$24, %r15
	decq	%rbx
	je	.LBB60_27
.LBB60_24:
	cmpq	$0, -8(%r15)
	je	.LBB60_23
	movq	(%r15), %rdi
	callq	*%r12
	jmp	.LBB60_23
.LBB60_27:
	cmpq	$0, 240(%rsp)
	je	.LBB60_29
	movq	%r14, %rdi
	callq	free
.LBB60_29:
	movq	488(%rsp), %r12
	movq	480(%rsp), %rbx
	testq	%r12, %r12
	je	.LBB60_375
.LBB60_30:
	leaq	8(%rbx), %r14
	movq	free@GOTPCREL(%rip), %r15
	jmp	.LBB60_32
	.p2align	4, 0x90
.LBB60_31:
	addq	$24, %r14
	decq	%r12
	je	.LBB60_375
.LBB60_32:
	cmpq	$0, -8(%r14)
	je	.LBB60_31
	movq	(%r14), %rdi
	callq	*%r15
	jmp	.LBB60_31
.LBB60_34:
	movq	48(%rsp), %rbx
.LBB60_35:
	movq	240(%rsp), %rax
	movzbl	248(%rsp), %ebp
	cmpq	%r13, %rax
	je	.LBB60_29
	movq	%rax, 48(%rsp)
	movzbl	%bpl, %eax
	movzbl	255(%rsp), %ecx
	shll	$16, %ecx
	movzwl	253(%rsp), %edx
	orl	%ecx, %edx
	shlq	$32, %rdx
	movl	249(%rsp), %r15d
	orq	%rdx, %r15
	shlq	$8, %r15
	orq	%rax, %r15
	leaq	(%rbx,%rbx,2), %rax
	leaq	(%r15,%rax,8), %rax
	movq	%rax, 16(%rsp)
	testq	%rbx, %rbx
	movq	%r15, 40(%rsp)
	je	.LBB60_50
	addq	$24, %r15
	jmp	.LBB60_39
.LBB60_38:
	leaq	-24(%r15), %rax
	movq	480(%rsp), %rcx
	leaq	(%r12,%r12,2), %rdx
	movq	%rbx, (%rcx,%rdx,8)
	movq	%r13, 8(%rcx,%rdx,8)
	movq	%r14, 16(%rcx,%rdx,8)
	incq	%r12
	movq	%r12, 488(%rsp)
	addq	$24, %r15
	addq	$24, %rax
	cmpq	16(%rsp), %rax
	movabsq	$-9223372036854775808, %r13
	je	.LBB60_55
.LBB60_39:
	movq	-24(%r15), %rbx
	cmpq	%r13, %rbx
	je	.LBB60_50
	movq	-16(%r15), %r13
	movq	-8(%r15), %r14
	movq	472(%rsp), %rbp
	movq	488(%rsp), %r12
	cmpq	%r12, %rbp
	jne	.LBB60_48
	cmpq	$-1, %r12
	je	.LBB60_364
	leaq	1(%r12), %rbp
	leaq	(%r12,%r12), %rax
	cmpq	%rbp, %rax
	cmovaq	%rax, %rbp
	cmpq	$5, %rbp
	movl	$4, %eax
	cmovbq	%rax, %rbp
	movq	%rbp, %rax
	movl	$24, %ecx
	mulq	%rcx
	seto	%cl
	cmpq	128(%rsp), %rax
	seta	%dl
	orb	%cl, %dl
	jne	.LBB60_365
	testq	%r12, %r12
	jne	.LBB60_45
	xorl	%ecx, %ecx
	jmp	.LBB60_46
.LBB60_45:
	movq	480(%rsp), %rcx
	leaq	(,%r12,8), %rdx
	leaq	(%rdx,%rdx,2), %rdx
	movq	%rcx, 4800(%rsp)
	movq	%rdx, 4816(%rsp)
	movl	$8, %ecx
.LBB60_46:
	movq	%rcx, 4808(%rsp)
	movl	$8, %esi
	leaq	704(%rsp), %rdi
	movq	%rax, %rdx
	leaq	4800(%rsp), %rcx
	callq	_RINvNtCs00000000002_5alloc7raw_vec11finish_growNtNtB4_5alloc6GlobalECs00000000001_10pkcs1_tool
	cmpl	$1, 704(%rsp)
	je	.LBB60_365
	movq	712(%rsp), %rax
	movq	%rax, 480(%rsp)
	movq	%rbp, 472(%rsp)
.LBB60_48:
	cmpq	%rbp, %r12
	jne	.LBB60_38
	leaq	472(%rsp), %rdi
	callq	_RNvMs1_NtCs00000000002_5alloc7raw_vecINtB5_6RawVecINtNtNtNtCs00000000001_10pkcs1_tool10rattle_std7library3vec3VechEE8grow_oneBV_
	jmp	.LBB60_38
.LBB60_50:
	movq	16(%rsp), %rsi
	movq	%rsi, %rax
	subq	%r15, %rax
	movabsq	$-6148914691236517205, %rcx
	mulq	%rcx
	cmpq	%r15, %rsi
	je	.LBB60_55
	movq	%rdx, %r14
	shrq	$4, %r14
	addq	$8, %r15
	movq	free@GOTPCREL(%rip), %rbx
	jmp	.LBB60_53
	.p2align	4, 0x90
.LBB60_52:
	addq	$24, %r15
	decq	%r14
	je	.LBB60_55
.LBB60_53:
	cmpq	$0, -8(%r15)
	je	.LBB60_52
	movq	(%r15), %rdi
	callq	*%rbx
	jmp	.LBB60_52
.LBB60_55:
	cmpq	$0, 48(%rsp)
	je	.LBB60_57
	movq	40(%rsp), %rdi
	callq	free
.LBB60_57:
	movq	472(%rsp), %r12
	movzbl	480(%rsp), %ebp
	cmpq	%r13, %r12
	je	.LBB60_377
	movzbl	%bpl, %r15d
	movzbl	487(%rsp), %eax
	shll	$16, %eax
	movzwl	485(%rsp), %ecx
	orl	%eax, %ecx
	shlq	$32, %rcx
	movl	481(%rsp), %eax
	orq	%rcx, %rax
	movq	488(%rsp), %rbx
	shlq	$8, %rax
	testq	%rbx, %rbx
	movq	%rax, 48(%rsp)
	leaq	24(%rax,%r15), %rcx
	movl	$8, %eax
	cmovneq	%rcx, %rax
	xorl	%ecx, %ecx
	movq	%rbx, %rdx
	subq	$1, %rdx
	cmovaeq	%rdx, %rcx
	testq	%rcx, %rcx
	je	.LBB60_64
	cmpq	$4, %rcx
	jne	.LBB60_62
	cmpq	$4, 16(%rax)
	jne	.LBB60_62
	movq	8(%rax), %rcx
	cmpl	$2037411683, (%rcx)
	je	.LBB60_91
.LBB60_62:
	leaq	.Lanon.54(%rip), %rax
	movq	%rax, 80(%rsp)
	movq	$40, 88(%rsp)
	leaq	80(%rsp), %rax
	movq	%rax, 152(%rsp)
	leaq	_RNvXs1c_NtCs00000000000_4core3fmtReNtB6_7Display3fmtCs00000000001_10pkcs1_tool(%rip), %rax
	movq	%rax, 160(%rsp)
	leaq	.Lanon.19(%rip), %rax
	movq	%rax, 704(%rsp)
	movq	$1, 712(%rsp)
	movq	$0, 736(%rsp)
	leaq	152(%rsp), %rax
	movq	%rax, 720(%rsp)
	movq	$1, 728(%rsp)
	leaq	704(%rsp), %rax
	movq	%rax, 472(%rsp)
	leaq	_ZN59_$LT$core..fmt..Arguments$u20$as$u20$core..fmt..Display$GT$3fmt17h0000000000000007E(%rip), %rax
	movq	%rax, 480(%rsp)
	leaq	.Lanon.55(%rip), %rax
	movq	%rax, 4800(%rsp)
	movq	$2, 4808(%rsp)
	movq	$0, 4832(%rsp)
	leaq	472(%rsp), %rax
	movq	%rax, 4816(%rsp)
	movq	$1, 4824(%rsp)
	leaq	208(%rsp), %rax
	movq	%rax, 240(%rsp)
	movb	$5, 248(%rsp)
	leaq	.Lanon.0(%rip), %rsi
	leaq	240(%rsp), %rdi
	leaq	4800(%rsp), %rdx
	callq	_ZN4core3fmt5write17h0000000000000000E
	movb	$2, %bpl
.LBB60_63:
	movq	48(%rsp), %r13
	orq	%r15, %r13
	testq	%rbx, %rbx
	jne	.LBB60_87
	jmp	.LBB60_311
.LBB60_64:
	movq	%r15, 40(%rsp)
	movq	%rbx, 32(%rsp)
	movq	%r12, 56(%rsp)
	leaq	4800(%rsp), %rbp
	xorl	%r15d, %r15d
	movl	$65536, %edx
	movq	%rbp, %rdi
	xorl	%esi, %esi
	callq	memset
	movl	$1, %ebx
	movq	memcpy@GOTPCREL(%rip), %r12
	movq	$0, 16(%rsp)
	jmp	.LBB60_67
.LBB60_65:
	movq	%r13, %r14
	addq	%r15, %r14
.LBB60_66:
	addq	%rbx, %r15
	movq	%r15, %rdi
	movq	%rbp, %rsi
	movq	%r13, %rdx
	callq	*%r12
	movq	%r14, %r15
.LBB60_67:
	movl	$65536, %edx
	xorl	%edi, %edi
	movq	%rbp, %rsi
	callq	pkcs1_os_read
	testq	%rax, %rax
	js	.LBB60_96
	movq	16(%rsp), %rcx
	je	.LBB60_97
	movq	%rax, %r13
	movl	$16777216, %eax
	subq	%r15, %rax
	cmpq	%rax, %r13
	ja	.LBB60_99
	cmpq	$65537, %r13
	jae	.LBB60_344
	movq	%rcx, %rax
	subq	%r15, %rax
	cmpq	%r13, %rax
	jae	.LBB60_65
	movq	%rbx, 128(%rsp)
	movq	40(%rsp), %r12
	movq	%r13, %r14
	movl	$16, %eax
	addq	%r15, %r14
	jb	.LBB60_81
	movq	%rbp, %rbx
	movq	%r15, %rbp
	leaq	(%rcx,%rcx), %r15
	cmpq	%r14, %r15
	cmovbeq	%r14, %r15
	cmpq	$9, %r15
	jae	.LBB60_75
	movl	$8, %r15d
.LBB60_75:
	testq	%r15, %r15
	js	.LBB60_81
	testq	%rcx, %rcx
	jne	.LBB60_78
	xorl	%eax, %eax
	jmp	.LBB60_79
.LBB60_78:
	movq	128(%rsp), %rax
	movq	%rax, 704(%rsp)
	movq	%rcx, 720(%rsp)
	movl	$1, %eax
.LBB60_79:
	movq	%rax, 712(%rsp)
	movl	$1, %esi
	leaq	240(%rsp), %rdi
	movq	%r15, %rdx
	leaq	704(%rsp), %rcx
	callq	_RINvNtCs00000000002_5alloc7raw_vec11finish_growNtNtB4_5alloc6GlobalECs00000000001_10pkcs1_tool
	cmpl	$1, 240(%rsp)
	je	.LBB60_272
	movq	248(%rsp), %rax
	movq	%r15, 16(%rsp)
	movq	%rbp, %r15
	movq	memcpy@GOTPCREL(%rip), %r12
	movq	%rbx, %rbp
	movq	%rax, %rbx
	jmp	.LBB60_66
.LBB60_81:
	movq	%r12, %r15
.LBB60_82:
	testq	%rcx, %rcx
	movq	56(%rsp), %r12
	movq	48(%rsp), %r13
	je	.LBB60_84
	movq	128(%rsp), %rdi
	movq	%rax, %rbx
	callq	free
	jmp	.LBB60_85
.LBB60_84:
	movq	%rax, %rbx
.LBB60_85:
	cmpb	$16, %bl
	sete	%bpl
	addb	%bpl, %bpl
	movq	32(%rsp), %rbx
.LBB60_86:
	movb	%bpl, 80(%rsp)
	leaq	80(%rsp), %rax
	movq	%rax, 152(%rsp)
	leaq	_RNvXNtNtNtCs00000000001_10pkcs1_tool4tool13pkcs1_program5faultNtB2_5FaultNtNtCs00000000000_4core3fmt7Display3fmt(%rip), %rax
	movq	%rax, 160(%rsp)
	leaq	.Lanon.19(%rip), %rax
	movq	%rax, 704(%rsp)
	movq	$1, 712(%rsp)
	movq	$0, 736(%rsp)
	leaq	152(%rsp), %rax
	movq	%rax, 720(%rsp)
	movq	$1, 728(%rsp)
	leaq	704(%rsp), %rax
	movq	%rax, 472(%rsp)
	leaq	_ZN59_$LT$core..fmt..Arguments$u20$as$u20$core..fmt..Display$GT$3fmt17h0000000000000007E(%rip), %rax
	movq	%rax, 480(%rsp)
	leaq	.Lanon.55(%rip), %rax
	movq	%rax, 4800(%rsp)
	movq	$2, 4808(%rsp)
	movq	$0, 4832(%rsp)
	leaq	472(%rsp), %rax
	movq	%rax, 4816(%rsp)
	movq	$1, 4824(%rsp)
	leaq	208(%rsp), %rax
	movq	%rax, 240(%rsp)
	movb	$5, 248(%rsp)
	leaq	.Lanon.0(%rip), %rsi
	leaq	240(%rsp), %rdi
	leaq	4800(%rsp), %rdx
	callq	_ZN4core3fmt5write17h0000000000000000E
	movb	$1, %bpl
	orq	%r15, %r13
	testq	%rbx, %rbx
	je	.LBB60_311
.LBB60_87:
	leaq	8(%r13), %r14
	movq	free@GOTPCREL(%rip), %r15
	jmp	.LBB60_89
	.p2align	4, 0x90
.LBB60_88:
	addq	$24, %r14
	decq	%rbx
	je	.LBB60_311
.LBB60_89:
	cmpq	$0, -8(%r14)
	je	.LBB60_88
	movq	(%r14), %rdi
	callq	*%r15
	jmp	.LBB60_88
.LBB60_91:
	movq	56(%rax), %r13
	movq	64(%rax), %rbp
	movq	80(%rax), %rdx
	movq	88(%rax), %r14
	movq	32(%rax), %rcx
	movq	40(%rax), %rax
	cmpq	$4, %rax
	je	.LBB60_100
	cmpq	$3, %rax
	jne	.LBB60_62
	movzwl	(%rcx), %eax
	xorl	$30064, %eax
	movzbl	2(%rcx), %ecx
	xorl	$98, %ecx
	orw	%ax, %cx
	jne	.LBB60_62
	movq	%rdx, 16(%rsp)
	leaq	4800(%rsp), %rdi
	movq	%r13, %rsi
	movq	%rbp, %rdx
	callq	_RNvXNtNtNtCs00000000001_10pkcs1_tool6proved8der_core11file_systemRNtNtB8_10rattle_std11HostRuntimeNtB2_10FileSystem4openB8_
	cmpb	$0, 4800(%rsp)
	movq	%r12, 56(%rsp)
	je	.LBB60_281
	movzbl	4803(%rsp), %eax
	movzwl	4801(%rsp), %r12d
	movl	%r12d, %r14d
	shrl	$8, %r14d
	jmp	.LBB60_327
.LBB60_96:
	movq	%rbx, 128(%rsp)
	movl	$15, %eax
	movq	16(%rsp), %rcx
	movq	40(%rsp), %r15
	jmp	.LBB60_82
.LBB60_97:
	movabsq	$-9223372036854775808, %rax
	cmpq	%rax, %rcx
	jne	.LBB60_103
	movq	56(%rsp), %r12
	movq	48(%rsp), %r13
	movq	40(%rsp), %r15
	jmp	.LBB60_85
.LBB60_99:
	movq	%rbx, 128(%rsp)
	movl	$7, %eax
	movq	40(%rsp), %r15
	jmp	.LBB60_82
.LBB60_100:
	cmpl	$1986622064, (%rcx)
	jne	.LBB60_62
	movq	%rdx, 16(%rsp)
	leaq	4800(%rsp), %rdi
	movq	%r13, %rsi
	movq	%rbp, %rdx
	callq	_RNvXNtNtNtCs00000000001_10pkcs1_tool6proved8der_core11file_systemRNtNtB8_10rattle_std11HostRuntimeNtB2_10FileSystem4openB8_
	cmpb	$0, 4800(%rsp)
	movq	%r15, 40(%rsp)
	je	.LBB60_283
	movq	%r12, %r14
	movzbl	4803(%rsp), %eax
	movzwl	4801(%rsp), %r15d
	movl	%r15d, %r12d
	shrl	$8, %r12d
	jmp	.LBB60_715
.LBB60_103:
	movq	$0, 152(%rsp)
	movq	$1, 160(%rsp)
	pxor	%xmm0, %xmm0
	movdqu	%xmm0, 168(%rsp)
	movq	$1, 184(%rsp)
	movq	$0, 192(%rsp)
	movq	$0, 80(%rsp)
	movq	$1, 88(%rsp)
	movq	$0, 96(%rsp)
	testq	%r15, %r15
	movq	56(%rsp), %r12
	movq	48(%rsp), %r13
	movq	%rbx, 128(%rsp)
	movl	$1, %ebp
	je	.LBB60_273
	xorl	%eax, %eax
	movq	$0, 64(%rsp)
	movq	%rbx, %rsi
	movq	$0, 112(%rsp)
.LBB60_105:
	movq	%rax, 120(%rsp)
	movl	$10, %edi
	movq	%rsi, 8(%rsp)
	movq	%r15, %rdx
	callq	_RNvNtNtNtCs00000000001_10pkcs1_tool4tool13pkcs1_program5lines8place_of
	testq	%rax, %rax
	movq	%rbp, 24(%rsp)
	je	.LBB60_109
	movq	%rdx, %r14
	cmpq	%r15, %rdx
	ja	.LBB60_538
	leaq	1(%r14), %rdi
	movq	%r15, %rax
	subq	%rdi, %rax
	movq	8(%rsp), %rsi
	jb	.LBB60_539
	addq	%rsi, %rdi
	movq	%rdi, 104(%rsp)
	movq	%rax, 72(%rsp)
	jmp	.LBB60_110
.LBB60_109:
	movq	%r15, %r14
	movl	$1, %eax
	movq	%rax, 104(%rsp)
	movq	$0, 72(%rsp)
	movq	8(%rsp), %rsi
.LBB60_110:
	movq	$0, 96(%rsp)
	movl	$32, %edi
	movq	%r14, %rdx
	callq	_RNvNtNtNtCs00000000001_10pkcs1_tool4tool13pkcs1_program5lines8place_of
	movq	8(%rsp), %rdi
	testq	%rax, %rax
	je	.LBB60_194
	cmpq	%r14, %rdx
	ja	.LBB60_540
	leaq	1(%rdx), %rsi
	movq	%r14, %r12
	subq	%rsi, %r12
	jb	.LBB60_541
	leaq	-2(%rdx), %rax
	cmpq	$9, %rax
	ja	.LBB60_194
	addq	%rdi, %rsi
	leaq	.LJTI60_2(%rip), %rcx
	movslq	(%rcx,%rax,4), %rax
	addq	%rcx, %rax
	notrack	jmpq	*%rax
.LBB60_193:
	cmpw	$14448, (%rdi)
	leaq	.Lanon.56+96(%rip), %rax
	jne	.LBB60_194
	jmp	.LBB60_134
.LBB60_115:
	movq	(%rdi), %rax
	movabsq	$7020880287792197747, %rcx
	xorq	%rcx, %rax
	movzwl	8(%rdi), %ecx
	xorq	$28773, %rcx
	orq	%rax, %rcx
	leaq	.Lanon.56+144(%rip), %rax
	je	.LBB60_134
	movq	(%rdi), %rax
	movabsq	$8083244876519601267, %rcx
	xorq	%rcx, %rax
	movzwl	8(%rdi), %ecx
	xorq	$29555, %rcx
	orq	%rax, %rcx
	leaq	.Lanon.56+168(%rip), %rax
	jne	.LBB60_194
	jmp	.LBB60_134
.LBB60_117:
	movzwl	(%rdi), %eax
	xorl	$30064, %eax
	movzbl	2(%rdi), %ecx
	xorl	$98, %ecx
	orw	%ax, %cx
	leaq	.Lanon.56(%rip), %rax
	je	.LBB60_134
	movzwl	(%rdi), %eax
	xorl	$29552, %eax
	movzbl	2(%rdi), %ecx
	xorl	$115, %ecx
	orw	%ax, %cx
	leaq	.Lanon.56+48(%rip), %rax
	jne	.LBB60_194
	jmp	.LBB60_134
.LBB60_133:
	movq	(%rdi), %rax
	movabsq	$8011187282481673331, %rcx
	xorq	%rcx, %rax
	movq	3(%rdi), %rcx
	movq	%rdx, %rdi
	movabsq	$8098986635027571561, %rdx
	xorq	%rdx, %rcx
	movq	%rdi, %rdx
	orq	%rax, %rcx
	leaq	.Lanon.56+192(%rip), %rax
	jne	.LBB60_194
	jmp	.LBB60_134
.LBB60_119:
	cmpl	$1986622064, (%rdi)
	leaq	.Lanon.56+24(%rip), %rax
	je	.LBB60_134
	cmpl	$1885692271, (%rdi)
	leaq	.Lanon.56+72(%rip), %rax
	jne	.LBB60_194
	jmp	.LBB60_134
.LBB60_121:
	leaq	.Lanon.57(%rip), %rax
	movabsq	$8319116276960944499, %rcx
	cmpq	%rcx, (%rdi)
	jne	.LBB60_194
	jmp	.LBB60_124
.LBB60_122:
	movq	(%rdi), %rax
	movabsq	$8318198455451611251, %rcx
	xorq	%rcx, %rax
	movzbl	8(%rdi), %ecx
	xorq	$115, %rcx
	orq	%rax, %rcx
	leaq	.Lanon.56+120(%rip), %rax
	je	.LBB60_134
	movq	(%rdi), %rax
	movabsq	$7305242311337533811, %rcx
	xorq	%rcx, %rax
	movzbl	8(%rdi), %ecx
	xorq	$112, %rcx
	orq	%rax, %rcx
	leaq	.Lanon.57+24(%rip), %rax
	jne	.LBB60_194
.LBB60_124:
	movzbl	16(%rax), %eax
	movb	%al, 200(%rsp)
	movl	$32, %edi
	movq	%rdx, 144(%rsp)
	movq	%r12, %rdx
	movq	%rsi, %r15
	callq	_RNvNtNtNtCs00000000001_10pkcs1_tool4tool13pkcs1_program5lines8place_of
	testq	%rax, %rax
	je	.LBB60_194
	cmpq	%r12, %rdx
	ja	.LBB60_655
	leaq	1(%rdx), %rax
	movq	%r12, %r13
	movq	%rax, %r14
	subq	%rax, %r13
	jb	.LBB60_656
	movq	%rdx, %r12
	shrq	%r12
	leaq	152(%rsp), %rdi
	movq	%r12, %rsi
	movq	%rdx, %rbp
	callq	_RNvMs_NtNtCs00000000001_10pkcs1_tool10rattle_std3vecINtNtNtB6_7library3vec3VechE6resizeB8_
	testb	%al, %al
	jne	.LBB60_245
	testb	$1, %bpl
	jne	.LBB60_194
	cmpq	168(%rsp), %r12
	jne	.LBB60_194
	cmpq	$2, %rbp
	jb	.LBB60_170
	movq	160(%rsp), %rax
	movq	%rbp, 136(%rsp)
	cmpq	$16, %rbp
	jae	.LBB60_158
	xorl	%edx, %edx
	xorl	%ecx, %ecx
	movl	$255, %r11d
	jmp	.LBB60_167
.LBB60_134:
	movq	%rsi, %r14
	movq	%rdx, %r15
	movzbl	16(%rax), %ebp
	movq	%r12, %r13
	shrq	%r13
	leaq	152(%rsp), %rdi
	movq	%r13, %rsi
	callq	_RNvMs_NtNtCs00000000001_10pkcs1_tool10rattle_std3vecINtNtNtB6_7library3vec3VechE6resizeB8_
	testb	%al, %al
	jne	.LBB60_245
	testb	$1, %r12b
	movdqa	.LCPI60_0(%rip), %xmm11
	movdqa	.LCPI60_12(%rip), %xmm12
	movdqa	.LCPI60_13(%rip), %xmm13
	movq	8(%rsp), %rdi
	jne	.LBB60_194
	cmpq	168(%rsp), %r13
	jne	.LBB60_194
	movq	160(%rsp), %rsi
	cmpq	$2, %r12
	jb	.LBB60_152
	movq	%r15, %r8
	cmpq	$16, %r12
	jae	.LBB60_140
	xorl	%ecx, %ecx
	xorl	%eax, %eax
	movl	$255, %r11d
	jmp	.LBB60_149
.LBB60_140:
	cmpq	$64, %r12
	jae	.LBB60_142
	movq	%r14, %r9
	xorl	%ecx, %ecx
	xorl	%eax, %eax
	movl	$255, %r11d
	jmp	.LBB60_146
.LBB60_142:
	movabsq	$-9223372036854775808, %rax
	addq	$-32, %rax
	andq	%r13, %rax
	leaq	(%rdi,%r8), %rcx
	addq	$33, %rcx
	pxor	%xmm0, %xmm0
	xorl	%edx, %edx
	pxor	%xmm1, %xmm1
	movdqa	.LCPI60_4(%rip), %xmm10
.LBB60_143:
	movdqu	-32(%rcx,%rdx,2), %xmm3
	movdqu	-16(%rcx,%rdx,2), %xmm6
	movdqu	(%rcx,%rdx,2), %xmm2
	movdqu	16(%rcx,%rdx,2), %xmm7
	movdqa	%xmm6, %xmm5
	movdqa	.LCPI60_0(%rip), %xmm9
	pand	%xmm9, %xmm5
	movdqa	%xmm3, %xmm4
	pand	%xmm9, %xmm4
	packuswb	%xmm5, %xmm4
	movdqa	%xmm7, %xmm8
	pand	%xmm9, %xmm8
	movdqa	%xmm2, %xmm5
	pand	%xmm9, %xmm5
	packuswb	%xmm8, %xmm5
	psrlw	$8, %xmm6
	psrlw	$8, %xmm3
	packuswb	%xmm6, %xmm3
	psrlw	$8, %xmm7
	psrlw	$8, %xmm2
	packuswb	%xmm7, %xmm2
	movdqa	%xmm4, %xmm7
	movdqa	.LCPI60_1(%rip), %xmm14
	paddb	%xmm14, %xmm7
	movdqa	%xmm5, %xmm6
	paddb	%xmm14, %xmm6
	movdqa	.LCPI60_2(%rip), %xmm15
	por	%xmm15, %xmm4
	por	%xmm15, %xmm5
	movdqa	%xmm4, %xmm8
	paddb	%xmm10, %xmm8
	movdqa	%xmm8, %xmm9
	movdqa	.LCPI60_5(%rip), %xmm11
	pmaxub	%xmm11, %xmm9
	pcmpeqb	%xmm8, %xmm9
	movdqa	%xmm5, %xmm8
	paddb	%xmm10, %xmm8
	movdqa	.LCPI60_6(%rip), %xmm13
	paddb	%xmm13, %xmm4
	por	%xmm4, %xmm9
	movdqa	%xmm8, %xmm10
	pmaxub	%xmm11, %xmm10
	pcmpeqb	%xmm8, %xmm10
	movdqa	%xmm7, %xmm4
	movdqa	.LCPI60_3(%rip), %xmm12
	pminub	%xmm12, %xmm4
	pcmpeqb	%xmm7, %xmm4
	paddb	%xmm13, %xmm5
	por	%xmm5, %xmm10
	movdqa	%xmm6, %xmm5
	pminub	%xmm12, %xmm5
	pcmpeqb	%xmm6, %xmm5
	pand	%xmm4, %xmm7
	pandn	%xmm9, %xmm4
	por	%xmm7, %xmm4
	pand	%xmm5, %xmm6
	pandn	%xmm10, %xmm5
	movdqa	.LCPI60_4(%rip), %xmm10
	por	%xmm6, %xmm5
	movdqa	%xmm3, %xmm7
	movdqa	%xmm2, %xmm6
	por	%xmm15, %xmm3
	por	%xmm15, %xmm2
	movdqa	%xmm3, %xmm8
	paddb	%xmm10, %xmm8
	movdqa	%xmm8, %xmm9
	pmaxub	%xmm11, %xmm9
	pcmpeqb	%xmm8, %xmm9
	movdqa	%xmm2, %xmm8
	paddb	%xmm10, %xmm8
	paddb	%xmm13, %xmm3
	por	%xmm3, %xmm9
	movdqa	%xmm8, %xmm3
	pmaxub	%xmm11, %xmm3
	pcmpeqb	%xmm8, %xmm3
	paddb	%xmm14, %xmm7
	paddb	%xmm13, %xmm2
	por	%xmm2, %xmm3
	movdqa	%xmm7, %xmm2
	pminub	%xmm12, %xmm2
	pcmpeqb	%xmm7, %xmm2
	pand	%xmm2, %xmm7
	pandn	%xmm9, %xmm2
	paddb	%xmm14, %xmm6
	por	%xmm7, %xmm2
	movdqa	%xmm6, %xmm7
	pminub	%xmm12, %xmm7
	pcmpeqb	%xmm6, %xmm7
	pand	%xmm7, %xmm6
	pandn	%xmm3, %xmm7
	por	%xmm6, %xmm7
	por	%xmm4, %xmm0
	por	%xmm2, %xmm0
	psllw	$4, %xmm4
	movdqa	.LCPI60_7(%rip), %xmm3
	pand	%xmm3, %xmm4
	por	%xmm2, %xmm4
	por	%xmm5, %xmm1
	por	%xmm7, %xmm1
	psllw	$4, %xmm5
	pand	%xmm3, %xmm5
	por	%xmm7, %xmm5
	movdqu	%xmm4, (%rsi,%rdx)
	movdqu	%xmm5, 16(%rsi,%rdx)
	addq	$32, %rdx
	cmpq	%rdx, %rax
	jne	.LBB60_143
	movdqa	.LCPI60_0(%rip), %xmm11
	por	%xmm0, %xmm1
	pshufd	$238, %xmm1, %xmm0
	por	%xmm1, %xmm0
	pshufd	$85, %xmm0, %xmm1
	por	%xmm0, %xmm1
	movdqa	%xmm1, %xmm0
	psrld	$16, %xmm0
	por	%xmm1, %xmm0
	movdqa	%xmm0, %xmm1
	psrlw	$8, %xmm1
	por	%xmm0, %xmm1
	movd	%xmm1, %ecx
	cmpq	%rax, %r13
	je	.LBB60_151
	testb	$48, %r12b
	movdqa	.LCPI60_12(%rip), %xmm12
	movdqa	.LCPI60_13(%rip), %xmm13
	movl	$255, %r11d
	movq	8(%rsp), %rdi
	movq	%r15, %r8
	movq	%r14, %r9
	je	.LBB60_149
.LBB60_146:
	movq	%rax, %rdx
	movabsq	$-9223372036854775808, %rax
	addq	$-8, %rax
	andq	%r13, %rax
	movzbl	%cl, %ecx
	movd	%ecx, %xmm0
	movdqa	.LCPI60_8(%rip), %xmm7
	movdqa	.LCPI60_9(%rip), %xmm8
	movdqa	.LCPI60_10(%rip), %xmm9
	movdqa	.LCPI60_11(%rip), %xmm10
	movdqa	.LCPI60_7(%rip), %xmm14
.LBB60_147:
	movdqu	(%r9,%rdx,2), %xmm2
	movdqa	%xmm2, %xmm3
	pand	%xmm11, %xmm3
	packuswb	%xmm3, %xmm3
	psrlw	$8, %xmm2
	packuswb	%xmm2, %xmm2
	movdqa	%xmm3, %xmm4
	paddb	%xmm7, %xmm4
	por	%xmm8, %xmm3
	movdqa	%xmm4, %xmm1
	pmaxub	%xmm9, %xmm1
	pcmpeqb	%xmm4, %xmm1
	movdqa	%xmm3, %xmm5
	paddb	%xmm10, %xmm5
	paddb	%xmm13, %xmm3
	movdqa	%xmm5, %xmm6
	pmaxub	%xmm12, %xmm6
	pcmpeqb	%xmm5, %xmm6
	por	%xmm3, %xmm6
	pand	%xmm1, %xmm6
	pandn	%xmm4, %xmm1
	por	%xmm6, %xmm1
	movdqa	%xmm2, %xmm3
	paddb	%xmm7, %xmm3
	por	%xmm8, %xmm2
	movdqa	%xmm3, %xmm4
	pmaxub	%xmm9, %xmm4
	pcmpeqb	%xmm3, %xmm4
	movdqa	%xmm2, %xmm5
	paddb	%xmm10, %xmm5
	paddb	%xmm13, %xmm2
	movdqa	%xmm5, %xmm6
	pmaxub	%xmm12, %xmm6
	pcmpeqb	%xmm5, %xmm6
	por	%xmm2, %xmm6
	pand	%xmm4, %xmm6
	pandn	%xmm3, %xmm4
	por	%xmm6, %xmm4
	por	%xmm1, %xmm0
	por	%xmm4, %xmm0
	psllw	$4, %xmm1
	pand	%xmm14, %xmm1
	por	%xmm4, %xmm1
	movq	%xmm1, (%rsi,%rdx)
	addq	$8, %rdx
	cmpq	%rdx, %rax
	jne	.LBB60_147
	pshufd	$85, %xmm0, %xmm1
	por	%xmm0, %xmm1
	movdqa	%xmm1, %xmm0
	psrld	$16, %xmm0
	por	%xmm1, %xmm0
	movdqa	%xmm0, %xmm1
	psrlw	$8, %xmm1
	por	%xmm0, %xmm1
	movd	%xmm1, %ecx
	cmpq	%rax, %r13
	je	.LBB60_151
.LBB60_149:
	leaq	(%rdi,%r8), %rdx
	addq	$2, %rdx
.LBB60_150:
	movzbl	-1(%rdx,%rax,2), %r8d
	movzbl	(%rdx,%rax,2), %edi
	leal	-48(%r8), %r9d
	orb	$32, %r8b
	leal	-97(%r8), %r10d
	addb	$-87, %r8b
	cmpb	$6, %r10b
	movzbl	%r8b, %r10d
	cmovael	%r11d, %r10d
	cmpb	$10, %r9b
	movzbl	%r9b, %r8d
	cmovael	%r10d, %r8d
	leal	-48(%rdi), %r9d
	orb	$32, %dil
	leal	-97(%rdi), %r10d
	addb	$-87, %dil
	cmpb	$6, %r10b
	movzbl	%dil, %edi
	cmovael	%r11d, %edi
	cmpb	$10, %r9b
	movzbl	%r9b, %r9d
	cmovael	%edi, %r9d
	orb	%r8b, %cl
	shlb	$4, %r8b
	orb	%r9b, %r8b
	movb	%r8b, (%rsi,%rax)
	leaq	1(%rax), %rdi
	orb	%r9b, %cl
	movq	%rdi, %rax
	cmpq	%rdi, %r13
	jne	.LBB60_150
.LBB60_151:
	cmpb	$16, %cl
	jae	.LBB60_194
.LBB60_152:
	movzbl	%bpl, %edi
	movq	%r13, %rdx
	leaq	176(%rsp), %rcx
	leaq	80(%rsp), %r8
	callq	_RNvNtNtNtCs00000000001_10pkcs1_tool4tool13pkcs1_program6answer11answer_word
	testb	%al, %al
	jne	.LBB60_245
.LBB60_153:
	movq	96(%rsp), %r12
.LBB60_154:
	movq	48(%rsp), %r13
	movq	16(%rsp), %rcx
	movq	120(%rsp), %rdi
	movq	80(%rsp), %r14
	cmpq	%r12, %r14
	jne	.LBB60_157
	cmpq	$-1, %r12
	movq	24(%rsp), %rbp
	movq	72(%rsp), %r15
	jne	.LBB60_197
	jmp	.LBB60_156
.LBB60_157:
	movq	24(%rsp), %rbp
	movq	72(%rsp), %r15
	jmp	.LBB60_203
.LBB60_158:
	cmpq	$64, 136(%rsp)
	jae	.LBB60_160
	xorl	%edx, %edx
	xorl	%ecx, %ecx
	jmp	.LBB60_164
.LBB60_160:
	movabsq	$-9223372036854775808, %rcx
	addq	$-32, %rcx
	andq	%r12, %rcx
	movq	8(%rsp), %rdx
	movq	144(%rsp), %rsi
	addq	%rsi, %rdx
	addq	$33, %rdx
	pxor	%xmm0, %xmm0
	xorl	%esi, %esi
	pxor	%xmm1, %xmm1
	movdqa	.LCPI60_1(%rip), %xmm13
	movdqa	.LCPI60_2(%rip), %xmm14
	movdqa	.LCPI60_3(%rip), %xmm15
	movdqa	.LCPI60_4(%rip), %xmm10
	movdqa	.LCPI60_5(%rip), %xmm12
	movdqa	.LCPI60_6(%rip), %xmm11
.LBB60_161:
	movdqu	-32(%rdx,%rsi,2), %xmm3
	movdqu	-16(%rdx,%rsi,2), %xmm6
	movdqu	(%rdx,%rsi,2), %xmm2
	movdqu	16(%rdx,%rsi,2), %xmm7
	movdqa	%xmm6, %xmm5
	movdqa	.LCPI60_0(%rip), %xmm9
	pand	%xmm9, %xmm5
	movdqa	%xmm3, %xmm4
	pand	%xmm9, %xmm4
	packuswb	%xmm5, %xmm4
	movdqa	%xmm7, %xmm8
	pand	%xmm9, %xmm8
	movdqa	%xmm2, %xmm5
	pand	%xmm9, %xmm5
	packuswb	%xmm8, %xmm5
	psrlw	$8, %xmm6
	psrlw	$8, %xmm3
	packuswb	%xmm6, %xmm3
	psrlw	$8, %xmm7
	psrlw	$8, %xmm2
	packuswb	%xmm7, %xmm2
	movdqa	%xmm4, %xmm7
	paddb	%xmm13, %xmm7
	movdqa	%xmm5, %xmm6
	paddb	%xmm13, %xmm6
	por	%xmm14, %xmm4
	por	%xmm14, %xmm5
	movdqa	%xmm4, %xmm8
	paddb	%xmm10, %xmm8
	movdqa	%xmm8, %xmm9
	pmaxub	%xmm12, %xmm9
	pcmpeqb	%xmm8, %xmm9
	movdqa	%xmm5, %xmm8
	paddb	%xmm10, %xmm8
	paddb	%xmm11, %xmm4
	por	%xmm4, %xmm9
	movdqa	%xmm8, %xmm10
	pmaxub	%xmm12, %xmm10
	pcmpeqb	%xmm8, %xmm10
	movdqa	%xmm7, %xmm4
	pminub	%xmm15, %xmm4
	pcmpeqb	%xmm7, %xmm4
	paddb	%xmm11, %xmm5
	por	%xmm5, %xmm10
	movdqa	%xmm6, %xmm5
	pminub	%xmm15, %xmm5
	pcmpeqb	%xmm6, %xmm5
	pand	%xmm4, %xmm7
	pandn	%xmm9, %xmm4
	por	%xmm7, %xmm4
	pand	%xmm5, %xmm6
	pandn	%xmm10, %xmm5
	movdqa	.LCPI60_4(%rip), %xmm10
	por	%xmm6, %xmm5
	movdqa	%xmm3, %xmm7
	movdqa	%xmm2, %xmm6
	por	%xmm14, %xmm3
	por	%xmm14, %xmm2
	movdqa	%xmm3, %xmm8
	paddb	%xmm10, %xmm8
	movdqa	%xmm8, %xmm9
	pmaxub	%xmm12, %xmm9
	pcmpeqb	%xmm8, %xmm9
	movdqa	%xmm2, %xmm8
	paddb	%xmm10, %xmm8
	paddb	%xmm11, %xmm3
	por	%xmm3, %xmm9
	movdqa	%xmm8, %xmm3
	pmaxub	%xmm12, %xmm3
	pcmpeqb	%xmm8, %xmm3
	paddb	%xmm13, %xmm7
	paddb	%xmm11, %xmm2
	por	%xmm2, %xmm3
	movdqa	%xmm7, %xmm2
	pminub	%xmm15, %xmm2
	pcmpeqb	%xmm7, %xmm2
	pand	%xmm2, %xmm7
	pandn	%xmm9, %xmm2
	paddb	%xmm13, %xmm6
	por	%xmm7, %xmm2
	movdqa	%xmm6, %xmm7
	pminub	%xmm15, %xmm7
	pcmpeqb	%xmm6, %xmm7
	pand	%xmm7, %xmm6
	pandn	%xmm3, %xmm7
	por	%xmm6, %xmm7
	por	%xmm4, %xmm0
	por	%xmm2, %xmm0
	psllw	$4, %xmm4
	movdqa	.LCPI60_7(%rip), %xmm3
	pand	%xmm3, %xmm4
	por	%xmm2, %xmm4
	por	%xmm5, %xmm1
	por	%xmm7, %xmm1
	psllw	$4, %xmm5
	pand	%xmm3, %xmm5
	por	%xmm7, %xmm5
	movdqu	%xmm4, (%rax,%rsi)
	movdqu	%xmm5, 16(%rax,%rsi)
	addq	$32, %rsi
	cmpq	%rsi, %rcx
	jne	.LBB60_161
	por	%xmm0, %xmm1
	pshufd	$238, %xmm1, %xmm0
	por	%xmm1, %xmm0
	pshufd	$85, %xmm0, %xmm1
	por	%xmm0, %xmm1
	movdqa	%xmm1, %xmm0
	psrld	$16, %xmm0
	por	%xmm1, %xmm0
	movdqa	%xmm0, %xmm1
	psrlw	$8, %xmm1
	por	%xmm0, %xmm1
	movd	%xmm1, %edx
	cmpq	%rcx, %r12
	je	.LBB60_169
	testb	$48, 136(%rsp)
	movl	$255, %r11d
	je	.LBB60_167
.LBB60_164:
	movq	%rcx, %rsi
	movabsq	$-9223372036854775808, %rcx
	addq	$-8, %rcx
	andq	%r12, %rcx
	movzbl	%dl, %edx
	movd	%edx, %xmm0
	movdqa	.LCPI60_0(%rip), %xmm7
	movdqa	.LCPI60_8(%rip), %xmm8
	movdqa	.LCPI60_9(%rip), %xmm9
	movdqa	.LCPI60_10(%rip), %xmm10
	movdqa	.LCPI60_11(%rip), %xmm11
	movdqa	.LCPI60_12(%rip), %xmm12
	movdqa	.LCPI60_13(%rip), %xmm13
	movdqa	.LCPI60_7(%rip), %xmm14
	movq	%r15, %rdx
.LBB60_165:
	movdqu	(%rdx,%rsi,2), %xmm2
	movdqa	%xmm2, %xmm3
	pand	%xmm7, %xmm3
	packuswb	%xmm3, %xmm3
	psrlw	$8, %xmm2
	packuswb	%xmm2, %xmm2
	movdqa	%xmm3, %xmm4
	paddb	%xmm8, %xmm4
	por	%xmm9, %xmm3
	movdqa	%xmm4, %xmm1
	pmaxub	%xmm10, %xmm1
	pcmpeqb	%xmm4, %xmm1
	movdqa	%xmm3, %xmm5
	paddb	%xmm11, %xmm5
	paddb	%xmm13, %xmm3
	movdqa	%xmm5, %xmm6
	pmaxub	%xmm12, %xmm6
	pcmpeqb	%xmm5, %xmm6
	por	%xmm3, %xmm6
	pand	%xmm1, %xmm6
	pandn	%xmm4, %xmm1
	por	%xmm6, %xmm1
	movdqa	%xmm2, %xmm3
	paddb	%xmm8, %xmm3
	por	%xmm9, %xmm2
	movdqa	%xmm3, %xmm4
	pmaxub	%xmm10, %xmm4
	pcmpeqb	%xmm3, %xmm4
	movdqa	%xmm2, %xmm5
	paddb	%xmm11, %xmm5
	paddb	%xmm13, %xmm2
	movdqa	%xmm5, %xmm6
	pmaxub	%xmm12, %xmm6
	pcmpeqb	%xmm5, %xmm6
	por	%xmm2, %xmm6
	pand	%xmm4, %xmm6
	pandn	%xmm3, %xmm4
	por	%xmm6, %xmm4
	por	%xmm1, %xmm0
	por	%xmm4, %xmm0
	psllw	$4, %xmm1
	pand	%xmm14, %xmm1
	por	%xmm4, %xmm1
	movq	%xmm1, (%rax,%rsi)
	addq	$8, %rsi
	cmpq	%rsi, %rcx
	jne	.LBB60_165
	pshufd	$85, %xmm0, %xmm1
	por	%xmm0, %xmm1
	movdqa	%xmm1, %xmm0
	psrld	$16, %xmm0
	por	%xmm1, %xmm0
	movdqa	%xmm0, %xmm1
	psrlw	$8, %xmm1
	por	%xmm0, %xmm1
	movd	%xmm1, %edx
	cmpq	%rcx, %r12
	movl	$255, %r11d
	je	.LBB60_169
.LBB60_167:
	movq	8(%rsp), %rsi
	movq	144(%rsp), %rdi
	addq	%rdi, %rsi
	addq	$2, %rsi
.LBB60_168:
	movzbl	-1(%rsi,%rcx,2), %r8d
	movzbl	(%rsi,%rcx,2), %edi
	leal	-48(%r8), %r9d
	orb	$32, %r8b
	leal	-97(%r8), %r10d
	addb	$-87, %r8b
	cmpb	$6, %r10b
	movzbl	%r8b, %r10d
	cmovael	%r11d, %r10d
	cmpb	$10, %r9b
	movzbl	%r9b, %r8d
	cmovael	%r10d, %r8d
	leal	-48(%rdi), %r9d
	orb	$32, %dil
	leal	-97(%rdi), %r10d
	addb	$-87, %dil
	cmpb	$6, %r10b
	movzbl	%dil, %edi
	cmovael	%r11d, %edi
	cmpb	$10, %r9b
	movzbl	%r9b, %r9d
	cmovael	%edi, %r9d
	orb	%r8b, %dl
	shlb	$4, %r8b
	orb	%r9b, %r8b
	movb	%r8b, (%rax,%rcx)
	leaq	1(%rcx), %rdi
	orb	%r9b, %dl
	movq	%rdi, %rcx
	cmpq	%rdi, %r12
	jne	.LBB60_168
.LBB60_169:
	cmpb	$15, %dl
	movq	136(%rsp), %rbp
	ja	.LBB60_194
.LBB60_170:
	movq	%rbp, %r12
	movq	%r13, %rbp
	shrq	%rbp
	leaq	176(%rsp), %rdi
	movq	%rbp, %rsi
	callq	_RNvMs_NtNtCs00000000001_10pkcs1_tool10rattle_std3vecINtNtNtB6_7library3vec3VechE6resizeB8_
	testb	%al, %al
	jne	.LBB60_245
	testb	$1, %r13b
	jne	.LBB60_194
	cmpq	192(%rsp), %rbp
	jne	.LBB60_194
	movq	184(%rsp), %rax
	movq	%rax, 136(%rsp)
	cmpq	$2, %r13
	jb	.LBB60_188
	cmpq	$16, %r13
	jae	.LBB60_176
	xorl	%ecx, %ecx
	xorl	%eax, %eax
	movl	$255, %r10d
	movq	136(%rsp), %r11
	jmp	.LBB60_185
.LBB60_176:
	cmpq	$64, %r13
	jae	.LBB60_178
	xorl	%ecx, %ecx
	xorl	%eax, %eax
	movq	136(%rsp), %r11
	jmp	.LBB60_182
.LBB60_178:
	movabsq	$-9223372036854775808, %rax
	addq	$-32, %rax
	andq	%rbp, %rax
	movq	144(%rsp), %rcx
	addq	%r12, %rcx
	movq	8(%rsp), %rdx
	addq	%rdx, %rcx
	addq	$34, %rcx
	pxor	%xmm0, %xmm0
	xorl	%edx, %edx
	pxor	%xmm1, %xmm1
	movdqa	.LCPI60_1(%rip), %xmm13
	movdqa	.LCPI60_2(%rip), %xmm14
	movdqa	.LCPI60_3(%rip), %xmm15
	movdqa	.LCPI60_4(%rip), %xmm10
	movdqa	.LCPI60_5(%rip), %xmm12
	movdqa	.LCPI60_6(%rip), %xmm11
	movq	136(%rsp), %rsi
.LBB60_179:
	movdqu	-32(%rcx,%rdx,2), %xmm3
	movdqu	-16(%rcx,%rdx,2), %xmm6
	movdqu	(%rcx,%rdx,2), %xmm2
	movdqu	16(%rcx,%rdx,2), %xmm7
	movdqa	%xmm6, %xmm5
	movdqa	.LCPI60_0(%rip), %xmm9
	pand	%xmm9, %xmm5
	movdqa	%xmm3, %xmm4
	pand	%xmm9, %xmm4
	packuswb	%xmm5, %xmm4
	movdqa	%xmm7, %xmm8
	pand	%xmm9, %xmm8
	movdqa	%xmm2, %xmm5
	pand	%xmm9, %xmm5
	packuswb	%xmm8, %xmm5
	psrlw	$8, %xmm6
	psrlw	$8, %xmm3
	packuswb	%xmm6, %xmm3
	psrlw	$8, %xmm7
	psrlw	$8, %xmm2
	packuswb	%xmm7, %xmm2
	movdqa	%xmm4, %xmm7
	paddb	%xmm13, %xmm7
	movdqa	%xmm5, %xmm6
	paddb	%xmm13, %xmm6
	por	%xmm14, %xmm4
	por	%xmm14, %xmm5
	movdqa	%xmm4, %xmm8
	paddb	%xmm10, %xmm8
	movdqa	%xmm8, %xmm9
	pmaxub	%xmm12, %xmm9
	pcmpeqb	%xmm8, %xmm9
	movdqa	%xmm5, %xmm8
	paddb	%xmm10, %xmm8
	paddb	%xmm11, %xmm4
	por	%xmm4, %xmm9
	movdqa	%xmm8, %xmm10
	pmaxub	%xmm12, %xmm10
	pcmpeqb	%xmm8, %xmm10
	movdqa	%xmm7, %xmm4
	pminub	%xmm15, %xmm4
	pcmpeqb	%xmm7, %xmm4
	paddb	%xmm11, %xmm5
	por	%xmm5, %xmm10
	movdqa	%xmm6, %xmm5
	pminub	%xmm15, %xmm5
	pcmpeqb	%xmm6, %xmm5
	pand	%xmm4, %xmm7
	pandn	%xmm9, %xmm4
	por	%xmm7, %xmm4
	pand	%xmm5, %xmm6
	pandn	%xmm10, %xmm5
	movdqa	.LCPI60_4(%rip), %xmm10
	por	%xmm6, %xmm5
	movdqa	%xmm3, %xmm7
	movdqa	%xmm2, %xmm6
	por	%xmm14, %xmm3
	por	%xmm14, %xmm2
	movdqa	%xmm3, %xmm8
	paddb	%xmm10, %xmm8
	movdqa	%xmm8, %xmm9
	pmaxub	%xmm12, %xmm9
	pcmpeqb	%xmm8, %xmm9
	movdqa	%xmm2, %xmm8
	paddb	%xmm10, %xmm8
	paddb	%xmm11, %xmm3
	por	%xmm3, %xmm9
	movdqa	%xmm8, %xmm3
	pmaxub	%xmm12, %xmm3
	pcmpeqb	%xmm8, %xmm3
	paddb	%xmm13, %xmm7
	paddb	%xmm11, %xmm2
	por	%xmm2, %xmm3
	movdqa	%xmm7, %xmm2
	pminub	%xmm15, %xmm2
	pcmpeqb	%xmm7, %xmm2
	pand	%xmm2, %xmm7
	pandn	%xmm9, %xmm2
	paddb	%xmm13, %xmm6
	por	%xmm7, %xmm2
	movdqa	%xmm6, %xmm7
	pminub	%xmm15, %xmm7
	pcmpeqb	%xmm6, %xmm7
	pand	%xmm7, %xmm6
	pandn	%xmm3, %xmm7
	por	%xmm6, %xmm7
	por	%xmm4, %xmm0
	por	%xmm2, %xmm0
	psllw	$4, %xmm4
	movdqa	.LCPI60_7(%rip), %xmm3
	pand	%xmm3, %xmm4
	por	%xmm2, %xmm4
	por	%xmm5, %xmm1
	por	%xmm7, %xmm1
	psllw	$4, %xmm5
	pand	%xmm3, %xmm5
	por	%xmm7, %xmm5
	movdqu	%xmm4, (%rsi,%rdx)
	movdqu	%xmm5, 16(%rsi,%rdx)
	addq	$32, %rdx
	cmpq	%rdx, %rax
	jne	.LBB60_179
	por	%xmm0, %xmm1
	pshufd	$238, %xmm1, %xmm0
	por	%xmm1, %xmm0
	pshufd	$85, %xmm0, %xmm1
	por	%xmm0, %xmm1
	movdqa	%xmm1, %xmm0
	psrld	$16, %xmm0
	por	%xmm1, %xmm0
	movdqa	%xmm0, %xmm1
	psrlw	$8, %xmm1
	por	%xmm0, %xmm1
	movd	%xmm1, %ecx
	cmpq	%rax, %rbp
	je	.LBB60_187
	testb	$48, %r13b
	movl	$255, %r10d
	movq	136(%rsp), %r11
	je	.LBB60_185
.LBB60_182:
	movq	%rax, %rdx
	addq	%r14, %r15
	movabsq	$-9223372036854775808, %rax
	addq	$-8, %rax
	andq	%rbp, %rax
	movzbl	%cl, %ecx
	movd	%ecx, %xmm0
	movdqa	.LCPI60_0(%rip), %xmm7
	movdqa	.LCPI60_8(%rip), %xmm8
	movdqa	.LCPI60_9(%rip), %xmm9
	movdqa	.LCPI60_10(%rip), %xmm10
	movdqa	.LCPI60_11(%rip), %xmm11
	movdqa	.LCPI60_12(%rip), %xmm12
	movdqa	.LCPI60_13(%rip), %xmm13
	movdqa	.LCPI60_7(%rip), %xmm14
.LBB60_183:
	movdqu	(%r15,%rdx,2), %xmm2
	movdqa	%xmm2, %xmm3
	pand	%xmm7, %xmm3
	packuswb	%xmm3, %xmm3
	psrlw	$8, %xmm2
	packuswb	%xmm2, %xmm2
	movdqa	%xmm3, %xmm4
	paddb	%xmm8, %xmm4
	por	%xmm9, %xmm3
	movdqa	%xmm4, %xmm1
	pmaxub	%xmm10, %xmm1
	pcmpeqb	%xmm4, %xmm1
	movdqa	%xmm3, %xmm5
	paddb	%xmm11, %xmm5
	paddb	%xmm13, %xmm3
	movdqa	%xmm5, %xmm6
	pmaxub	%xmm12, %xmm6
	pcmpeqb	%xmm5, %xmm6
	por	%xmm3, %xmm6
	pand	%xmm1, %xmm6
	pandn	%xmm4, %xmm1
	por	%xmm6, %xmm1
	movdqa	%xmm2, %xmm3
	paddb	%xmm8, %xmm3
	por	%xmm9, %xmm2
	movdqa	%xmm3, %xmm4
	pmaxub	%xmm10, %xmm4
	pcmpeqb	%xmm3, %xmm4
	movdqa	%xmm2, %xmm5
	paddb	%xmm11, %xmm5
	paddb	%xmm13, %xmm2
	movdqa	%xmm5, %xmm6
	pmaxub	%xmm12, %xmm6
	pcmpeqb	%xmm5, %xmm6
	por	%xmm2, %xmm6
	pand	%xmm4, %xmm6
	pandn	%xmm3, %xmm4
	por	%xmm6, %xmm4
	por	%xmm1, %xmm0
	por	%xmm4, %xmm0
	psllw	$4, %xmm1
	pand	%xmm14, %xmm1
	por	%xmm4, %xmm1
	movq	%xmm1, (%r11,%rdx)
	addq	$8, %rdx
	cmpq	%rdx, %rax
	jne	.LBB60_183
	pshufd	$85, %xmm0, %xmm1
	por	%xmm0, %xmm1
	movdqa	%xmm1, %xmm0
	psrld	$16, %xmm0
	por	%xmm1, %xmm0
	movdqa	%xmm0, %xmm1
	psrlw	$8, %xmm1
	por	%xmm0, %xmm1
	movd	%xmm1, %ecx
	cmpq	%rax, %rbp
	movl	$255, %r10d
	je	.LBB60_187
.LBB60_185:
	movq	144(%rsp), %rdx
	addq	%r12, %rdx
	movq	8(%rsp), %rsi
	addq	%rsi, %rdx
	addq	$3, %rdx
.LBB60_186:
	movzbl	-1(%rdx,%rax,2), %edi
	movzbl	(%rdx,%rax,2), %esi
	leal	-48(%rdi), %r8d
	orb	$32, %dil
	leal	-97(%rdi), %r9d
	addb	$-87, %dil
	cmpb	$6, %r9b
	movzbl	%dil, %r9d
	cmovael	%r10d, %r9d
	cmpb	$10, %r8b
	movzbl	%r8b, %edi
	cmovael	%r9d, %edi
	leal	-48(%rsi), %r8d
	orb	$32, %sil
	leal	-97(%rsi), %r9d
	addb	$-87, %sil
	cmpb	$6, %r9b
	movzbl	%sil, %esi
	cmovael	%r10d, %esi
	cmpb	$10, %r8b
	movzbl	%r8b, %r8d
	cmovael	%esi, %r8d
	orb	%dil, %cl
	shlb	$4, %dil
	orb	%r8b, %dil
	movb	%dil, (%r11,%rax)
	leaq	1(%rax), %rsi
	orb	%r8b, %cl
	movq	%rsi, %rax
	cmpq	%rsi, %rbp
	jne	.LBB60_186
.LBB60_187:
	cmpb	$16, %cl
	jae	.LBB60_194
.LBB60_188:
	movq	160(%rsp), %rsi
	movq	168(%rsp), %rdx
	cmpb	$0, 200(%rsp)
	je	.LBB60_229
	leaq	704(%rsp), %rdi
	callq	_RNvXs_NtNtNtCs00000000001_10pkcs1_tool4tool13pkcs1_program14parameter_textINtNtNtNtBa_6proved12pkcs1_params4oaep12OaepParamsOfNtNtNtB1h_9spki_core17object_identifier16ObjectIdentifierNtNtB24_3any6AnyRefENtB4_10Parameters4read
	leaq	4800(%rsp), %rdi
	movq	136(%rsp), %rsi
	movq	%rbp, %rdx
	callq	_RNvXs_NtNtNtCs00000000001_10pkcs1_tool4tool13pkcs1_program14parameter_textINtNtNtNtBa_6proved12pkcs1_params4oaep12OaepParamsOfNtNtNtB1h_9spki_core17object_identifier16ObjectIdentifierNtNtB24_3any6AnyRefENtB4_10Parameters4read
	movq	704(%rsp), %r14
	movl	$232, %edx
	leaq	240(%rsp), %rdi
	leaq	712(%rsp), %rsi
	movq	memcpy@GOTPCREL(%rip), %r13
	callq	*%r13
	movq	4800(%rsp), %r12
	movl	$232, %edx
	leaq	472(%rsp), %rdi
	leaq	4808(%rsp), %rsi
	callq	*%r13
	cmpq	$2, %r14
	sete	%al
	cmpq	$2, %r12
	sete	%cl
	orb	%al, %cl
	cmpb	$1, %cl
	jne	.LBB60_233
	movq	80(%rsp), %rax
	cmpq	$7, %rax
	jae	.LBB60_231
.LBB60_191:
	leaq	(%rax,%rax), %r14
	cmpq	$9, %r14
	movl	$8, %ecx
	cmovbq	%rcx, %r14
	testq	%rax, %rax
	jne	.LBB60_192
	xorl	%eax, %eax
	jmp	.LBB60_270
.LBB60_194:
	movq	80(%rsp), %rax
	cmpq	$8, %rax
	jb	.LBB60_224
	movq	88(%rsp), %rax
	movq	48(%rsp), %r13
.LBB60_196:
	movq	16(%rsp), %rcx
	movq	24(%rsp), %rbp
	movq	120(%rsp), %rdi
	movq	72(%rsp), %r15
	movabsq	$7308895158389727586, %rdx
	movq	%rdx, (%rax)
	movq	$8, 96(%rsp)
	movq	80(%rsp), %r14
	movl	$8, %r12d
	cmpq	$8, %r14
	jne	.LBB60_203
.LBB60_197:
	leaq	1(%r12), %r14
	leaq	(%r12,%r12), %rax
	cmpq	%r14, %rax
	cmovaq	%rax, %r14
	cmpq	$9, %r14
	movl	$8, %eax
	cmovbq	%rax, %r14
	testq	%r14, %r14
	js	.LBB60_286
	testq	%r12, %r12
	jne	.LBB60_200
	xorl	%eax, %eax
	jmp	.LBB60_201
.LBB60_200:
	movq	88(%rsp), %rax
	movq	%rax, 4800(%rsp)
	movq	%r12, 4816(%rsp)
	movl	$1, %eax
.LBB60_201:
	movq	%rax, 4808(%rsp)
	movl	$1, %esi
	leaq	704(%rsp), %rdi
	movq	%r14, %rdx
	leaq	4800(%rsp), %rcx
	callq	_RINvNtCs00000000002_5alloc7raw_vec11finish_growNtNtB4_5alloc6GlobalECs00000000001_10pkcs1_tool
	cmpl	$1, 704(%rsp)
	je	.LBB60_352
	movq	712(%rsp), %rax
	movq	%rax, 88(%rsp)
	movq	%r14, 80(%rsp)
	movq	16(%rsp), %rcx
	movq	120(%rsp), %rdi
.LBB60_203:
	cmpq	%r14, %r12
	jne	.LBB60_205
	leaq	80(%rsp), %rdi
	callq	_ZN5alloc7raw_vec19RawVec$LT$T$C$A$GT$8grow_one17h0000000000000003E
	movq	120(%rsp), %rdi
	movq	16(%rsp), %rcx
.LBB60_205:
	movq	88(%rsp), %rax
	movb	$10, (%rax,%r12)
	incq	%r12
	movq	%r12, 96(%rsp)
	movq	88(%rsp), %rsi
	movq	112(%rsp), %rax
	subq	%rdi, %rax
	cmpq	%r12, %rax
	jae	.LBB60_210
	movq	%rbp, %r14
	movq	40(%rsp), %rbp
	movq	%rdi, %r13
	addq	%r12, %r13
	jb	.LBB60_289
	movq	112(%rsp), %rdx
	leaq	(%rdx,%rdx), %r15
	cmpq	%r13, %r15
	cmovbeq	%r13, %r15
	cmpq	$9, %r15
	movl	$8, %eax
	cmovbq	%rax, %r15
	testq	%r15, %r15
	js	.LBB60_289
	testq	%rdx, %rdx
	movq	%rsi, 8(%rsp)
	jne	.LBB60_211
	xorl	%eax, %eax
	jmp	.LBB60_212
.LBB60_210:
	leaq	(%r12,%rdi), %r13
	jmp	.LBB60_214
.LBB60_211:
	movq	%r14, 4800(%rsp)
	movq	%rdx, 4816(%rsp)
	movl	$1, %eax
.LBB60_212:
	movq	%rax, 4808(%rsp)
	movl	$1, %esi
	leaq	704(%rsp), %rdi
	movq	%r15, %rdx
	leaq	4800(%rsp), %rcx
	callq	_RINvNtCs00000000002_5alloc7raw_vec11finish_growNtNtB4_5alloc6GlobalECs00000000001_10pkcs1_tool
	cmpl	$1, 704(%rsp)
	je	.LBB60_363
	movq	712(%rsp), %rbp
	movq	%r15, 64(%rsp)
	movq	%r15, 112(%rsp)
	movq	120(%rsp), %rdi
	movq	72(%rsp), %r15
	movq	8(%rsp), %rsi
.LBB60_214:
	addq	%rbp, %rdi
	movq	%r12, %rdx
	callq	memcpy
	cmpq	$65536, %r13
	jae	.LBB60_216
	movq	%r13, %rax
	movq	56(%rsp), %r12
	jmp	.LBB60_220
.LBB60_216:
	xorl	%r14d, %r14d
	movq	56(%rsp), %r12
.LBB60_217:
	movq	%r13, %rdx
	subq	%r14, %rdx
	leaq	(%r14,%rbp), %rsi
	movl	$1, %edi
	callq	pkcs1_os_write
	testq	%rax, %rax
	jle	.LBB60_285
	addq	%rax, %r14
	cmpq	%r13, %r14
	jb	.LBB60_217
	xorl	%eax, %eax
.LBB60_220:
	movq	104(%rsp), %rsi
	testq	%r15, %r15
	movq	48(%rsp), %r13
	jne	.LBB60_105
	jmp	.LBB60_221
.LBB60_224:
	leaq	(%rax,%rax), %r14
	cmpq	$9, %r14
	movl	$8, %ecx
	cmovbq	%rcx, %r14
	testq	%rax, %rax
	jne	.LBB60_226
	xorl	%eax, %eax
	jmp	.LBB60_227
.LBB60_226:
	movq	88(%rsp), %rcx
	movq	%rcx, 4800(%rsp)
	movq	%rax, 4816(%rsp)
	movl	$1, %eax
.LBB60_227:
	movq	%rax, 4808(%rsp)
	movl	$1, %esi
	leaq	704(%rsp), %rdi
	movq	%r14, %rdx
	leaq	4800(%rsp), %rcx
	callq	_RINvNtCs00000000002_5alloc7raw_vec11finish_growNtNtB4_5alloc6GlobalECs00000000001_10pkcs1_tool
	cmpl	$1, 704(%rsp)
	movq	48(%rsp), %r13
	je	.LBB60_416
	movq	712(%rsp), %rax
	movq	%rax, 88(%rsp)
	movq	%r14, 80(%rsp)
	jmp	.LBB60_196
.LBB60_229:
	leaq	704(%rsp), %rdi
	callq	_RNvXNtNtNtCs00000000001_10pkcs1_tool4tool13pkcs1_program14parameter_textINtNtNtNtB8_6proved12pkcs1_params3pss11PssParamsOfNtNtNtB1f_9spki_core17object_identifier16ObjectIdentifierNtNtB20_3any6AnyRefENtB2_10Parameters4read
	leaq	4800(%rsp), %rdi
	movq	136(%rsp), %rsi
	movq	%rbp, %rdx
	callq	_RNvXNtNtNtCs00000000001_10pkcs1_tool4tool13pkcs1_program14parameter_textINtNtNtNtB8_6proved12pkcs1_params3pss11PssParamsOfNtNtNtB1f_9spki_core17object_identifier16ObjectIdentifierNtNtB20_3any6AnyRefENtB2_10Parameters4read
	movq	704(%rsp), %r14
	movl	$176, %edx
	leaq	240(%rsp), %rdi
	leaq	712(%rsp), %rsi
	movq	memcpy@GOTPCREL(%rip), %r13
	callq	*%r13
	movq	4800(%rsp), %r12
	movl	$176, %edx
	leaq	472(%rsp), %rdi
	leaq	4808(%rsp), %rsi
	callq	*%r13
	cmpq	$2, %r14
	sete	%al
	cmpq	$2, %r12
	sete	%cl
	orb	%al, %cl
	cmpb	$1, %cl
	jne	.LBB60_238
	movq	80(%rsp), %rax
	cmpq	$7, %rax
	jb	.LBB60_191
.LBB60_231:
	movq	88(%rsp), %rax
.LBB60_232:
	movl	$1684370293, 3(%rax)
	movl	$1969644914, (%rax)
	movq	$7, 96(%rsp)
	movl	$7, %r12d
	jmp	.LBB60_154
.LBB60_233:
	movq	%r14, 704(%rsp)
	movl	$232, %edx
	leaq	712(%rsp), %rdi
	leaq	240(%rsp), %rsi
	movq	memcpy@GOTPCREL(%rip), %r14
	callq	*%r14
	movq	%r12, 4800(%rsp)
	movl	$232, %edx
	leaq	4808(%rsp), %rdi
	leaq	472(%rsp), %rsi
	callq	*%r14
	movzbl	855(%rsp), %edx
	cmpq	$40, %rdx
	jae	.LBB60_721
	movzbl	4951(%rsp), %edi
	cmpq	$40, %rdi
	jae	.LBB60_722
	cmpb	%dil, %dl
	jne	.LBB60_237
	leaq	816(%rsp), %rdi
	leaq	4912(%rsp), %rsi
	callq	memcmp
	testl	%eax, %eax
	je	.LBB60_246
.LBB60_237:
	xorl	%eax, %eax
.LBB60_257:
	movzbl	%al, %edx
	movl	$9, %esi
	leaq	.Lanon.58(%rip), %rdi
	jmp	.LBB60_244
.LBB60_238:
	movq	%r14, 704(%rsp)
	movl	$176, %edx
	leaq	712(%rsp), %rdi
	leaq	240(%rsp), %rsi
	movq	memcpy@GOTPCREL(%rip), %r14
	callq	*%r14
	movq	%r12, 4800(%rsp)
	movl	$176, %edx
	leaq	4808(%rsp), %rdi
	leaq	472(%rsp), %rsi
	callq	*%r14
	movzbl	855(%rsp), %edx
	cmpq	$40, %rdx
	jae	.LBB60_721
	movzbl	4951(%rsp), %edi
	cmpq	$40, %rdi
	jae	.LBB60_722
	cmpb	%dil, %dl
	jne	.LBB60_242
	leaq	816(%rsp), %rdi
	leaq	4912(%rsp), %rsi
	callq	memcmp
	testl	%eax, %eax
	je	.LBB60_258
.LBB60_242:
	xorl	%eax, %eax
.LBB60_243:
	movzbl	%al, %edx
	movl	$8, %esi
	leaq	.Lanon.59(%rip), %rdi
.LBB60_244:
	leaq	80(%rsp), %rcx
	callq	_RNvNtNtNtCs00000000001_10pkcs1_tool4tool13pkcs1_program7verdict11put_verdict
	testb	%al, %al
	je	.LBB60_153
	jmp	.LBB60_245
.LBB60_246:
	movq	856(%rsp), %rdi
	testq	%rdi, %rdi
	sete	%al
	movq	4952(%rsp), %rsi
	testq	%rsi, %rsi
	sete	%cl
	orb	%al, %cl
	je	.LBB60_262
	orq	%rsi, %rdi
	jne	.LBB60_237
.LBB60_248:
	leaq	704(%rsp), %rdi
	leaq	4800(%rsp), %rsi
	callq	_RNvXse_NtNtNtCs00000000001_10pkcs1_tool6proved9spki_core20algorithm_identifierINtB5_21AlgorithmIdentifierOfNtNtB7_17object_identifier16ObjectIdentifierIB1f_B1H_NtNtB7_3any6AnyRefEENtNtCs00000000000_4core3cmp9PartialEq2eqBb_
	testb	%al, %al
	je	.LBB60_237
	movzbl	919(%rsp), %edx
	cmpq	$40, %rdx
	jae	.LBB60_721
	movzbl	5015(%rsp), %edi
	cmpq	$40, %rdi
	jae	.LBB60_722
	cmpb	%dil, %dl
	jne	.LBB60_237
	leaq	880(%rsp), %rdi
	leaq	4976(%rsp), %rsi
	callq	memcmp
	testl	%eax, %eax
	jne	.LBB60_237
	movq	920(%rsp), %rdi
	testq	%rdi, %rdi
	sete	%al
	movq	5016(%rsp), %rsi
	testq	%rsi, %rsi
	sete	%cl
	orb	%al, %cl
	movq	%rdi, %rax
	orq	%rsi, %rax
	sete	%al
	testb	%cl, %cl
	jne	.LBB60_257
	movq	936(%rsp), %rax
	cmpq	5032(%rsp), %rax
	jne	.LBB60_237
	movq	928(%rsp), %rdx
	cmpq	5024(%rsp), %rdx
	jne	.LBB60_237
	callq	memcmp
	testl	%eax, %eax
	sete	%al
	jmp	.LBB60_257
.LBB60_258:
	movq	856(%rsp), %rdi
	testq	%rdi, %rdi
	sete	%al
	movq	4952(%rsp), %rsi
	testq	%rsi, %rsi
	sete	%cl
	orb	%al, %cl
	je	.LBB60_265
	orq	%rsi, %rdi
	jne	.LBB60_242
.LBB60_260:
	leaq	704(%rsp), %rdi
	leaq	4800(%rsp), %rsi
	callq	_RNvXse_NtNtNtCs00000000001_10pkcs1_tool6proved9spki_core20algorithm_identifierINtB5_21AlgorithmIdentifierOfNtNtB7_17object_identifier16ObjectIdentifierIB1f_B1H_NtNtB7_3any6AnyRefEENtNtCs00000000000_4core3cmp9PartialEq2eqBb_
	testb	%al, %al
	je	.LBB60_242
	movzbl	880(%rsp), %eax
	cmpb	4976(%rsp), %al
	sete	%al
	jmp	.LBB60_243
.LBB60_262:
	movq	872(%rsp), %rax
	cmpq	4968(%rsp), %rax
	jne	.LBB60_237
	movq	864(%rsp), %rdx
	cmpq	4960(%rsp), %rdx
	jne	.LBB60_237
	callq	memcmp
	testl	%eax, %eax
	jne	.LBB60_237
	jmp	.LBB60_248
.LBB60_265:
	movq	872(%rsp), %rax
	cmpq	4968(%rsp), %rax
	jne	.LBB60_242
	movq	864(%rsp), %rdx
	cmpq	4960(%rsp), %rdx
	jne	.LBB60_242
	callq	memcmp
	testl	%eax, %eax
	jne	.LBB60_242
	jmp	.LBB60_260
.LBB60_192:
	movq	88(%rsp), %rcx
	movq	%rcx, 4800(%rsp)
	movq	%rax, 4816(%rsp)
	movl	$1, %eax
.LBB60_270:
	movq	%rax, 4808(%rsp)
	movl	$1, %esi
	leaq	704(%rsp), %rdi
	movq	%r14, %rdx
	leaq	4800(%rsp), %rcx
	callq	_RINvNtCs00000000002_5alloc7raw_vec11finish_growNtNtB4_5alloc6GlobalECs00000000001_10pkcs1_tool
	cmpl	$1, 704(%rsp)
	je	.LBB60_245
	movq	712(%rsp), %rax
	movq	%rax, 88(%rsp)
	movq	%r14, 80(%rsp)
	jmp	.LBB60_232
.LBB60_272:
	movq	%r12, %r15
	movq	16(%rsp), %rcx
	movl	$16, %eax
	jmp	.LBB60_82
.LBB60_273:
	xorl	%esi, %esi
	movq	$0, 64(%rsp)
	cmpq	$0, 152(%rsp)
	je	.LBB60_275
.LBB60_274:
	movq	160(%rsp), %rdi
	movq	%rsi, %r14
	callq	free
	movq	%r14, %rsi
	movq	16(%rsp), %rcx
.LBB60_275:
	movq	%rbp, 24(%rsp)
	cmpq	$0, 176(%rsp)
	je	.LBB60_277
	movq	184(%rsp), %rdi
	movq	%rsi, %rbx
	callq	free
	movq	%rbx, %rsi
	movq	16(%rsp), %rcx
.LBB60_277:
	movb	$3, %bpl
	testq	%rsi, %rsi
	movq	32(%rsp), %rbx
	je	.LBB60_302
	xorl	%r14d, %r14d
.LBB60_279:
	movq	%rsi, %rdx
	subq	%r14, %rdx
	movq	24(%rsp), %rax
	movq	%rsi, %r15
	leaq	(%rax,%r14), %rsi
	movl	$1, %edi
	callq	pkcs1_os_write
	testq	%rax, %rax
	jle	.LBB60_303
	addq	%rax, %r14
	cmpq	%r15, %r14
	movq	%r15, %rsi
	jb	.LBB60_279
	jmp	.LBB60_304
.LBB60_281:
	movq	%r15, 40(%rsp)
	movq	4808(%rsp), %rax
	movl	4816(%rsp), %edi
	movq	%rax, 704(%rsp)
	movl	%edi, 712(%rsp)
	pxor	%xmm0, %xmm0
	movdqu	%xmm0, 4812(%rsp)
	movdqa	%xmm0, 4800(%rsp)
	leaq	4800(%rsp), %rsi
	callq	pkcs1_os_look_at
	testq	%rax, %rax
	js	.LBB60_314
	movl	4824(%rsp), %r15d
	jmp	.LBB60_315
.LBB60_283:
	movq	4808(%rsp), %rax
	movl	4816(%rsp), %edi
	movq	%rax, 704(%rsp)
	movl	%edi, 712(%rsp)
	pxor	%xmm0, %xmm0
	movdqu	%xmm0, 4812(%rsp)
	movdqa	%xmm0, 4800(%rsp)
	leaq	4800(%rsp), %rsi
	callq	pkcs1_os_look_at
	testq	%rax, %rax
	js	.LBB60_330
	movl	4824(%rsp), %eax
	movl	%eax, 120(%rsp)
	jmp	.LBB60_331
.LBB60_285:
	movb	$1, %r14b
	movq	%r13, 120(%rsp)
	movq	48(%rsp), %r13
	movq	16(%rsp), %rcx
	movq	40(%rsp), %r15
	cmpq	$0, 80(%rsp)
	jne	.LBB60_291
	jmp	.LBB60_292
.LBB60_286:
	movq	56(%rsp), %r12
.LBB60_287:
	movb	$2, %r14b
	movq	40(%rsp), %r15
	cmpq	$0, 80(%rsp)
	jne	.LBB60_291
	jmp	.LBB60_292
.LBB60_289:
	movq	56(%rsp), %r12
	movq	48(%rsp), %r13
	movq	%rbp, %r15
	movq	%r14, %rbp
	movb	$2, %r14b
	cmpq	$0, 80(%rsp)
	je	.LBB60_292
.LBB60_291:
	movq	88(%rsp), %rdi
	callq	free
	movq	16(%rsp), %rcx
.LBB60_292:
	cmpq	$0, 152(%rsp)
	je	.LBB60_294
	movq	160(%rsp), %rdi
	callq	free
	movq	16(%rsp), %rcx
.LBB60_294:
	movq	%rbp, 24(%rsp)
	cmpq	$0, 176(%rsp)
	je	.LBB60_296
	movq	184(%rsp), %rdi
	callq	free
	movq	16(%rsp), %rcx
.LBB60_296:
	movb	$1, %bpl
	cmpb	$2, %r14b
	movq	32(%rsp), %rbx
	jne	.LBB60_305
	movb	$2, %bpl
	movq	120(%rsp), %r15
	testq	%r15, %r15
	je	.LBB60_302
	xorl	%r14d, %r14d
.LBB60_299:
	movq	%r15, %rdx
	subq	%r14, %rdx
	movq	24(%rsp), %rax
	leaq	(%rax,%r14), %rsi
	movl	$1, %edi
	callq	pkcs1_os_write
	testq	%rax, %rax
	jle	.LBB60_313
	addq	%rax, %r14
	cmpq	%r15, %r14
	jb	.LBB60_299
	movq	16(%rsp), %rcx
.LBB60_302:
	movq	40(%rsp), %r15
	jmp	.LBB60_305
.LBB60_303:
	movb	$1, %bpl
.LBB60_304:
	movq	40(%rsp), %r15
	movq	16(%rsp), %rcx
.LBB60_305:
	cmpq	$0, 64(%rsp)
	je	.LBB60_307
.LBB60_306:
	movq	24(%rsp), %rdi
	callq	free
	movq	16(%rsp), %rcx
.LBB60_307:
	testq	%rcx, %rcx
	je	.LBB60_309
	movq	128(%rsp), %rdi
	callq	free
.LBB60_309:
	cmpb	$3, %bpl
	jne	.LBB60_86
	xorl	%ebp, %ebp
	orq	%r15, %r13
	testq	%rbx, %rbx
	jne	.LBB60_87
.LBB60_311:
	testq	%r12, %r12
	je	.LBB60_380
	movq	%r13, %rdi
	callq	free
	jmp	.LBB60_380
.LBB60_313:
	movb	$1, %bpl
	cmpq	$0, 64(%rsp)
	movq	16(%rsp), %rcx
	movq	40(%rsp), %r15
	jne	.LBB60_306
	jmp	.LBB60_307
.LBB60_314:
	movl	$384, %r15d
.LBB60_315:
	leaq	4800(%rsp), %rdi
	leaq	704(%rsp), %rsi
	callq	_RINvNtNtNtCs00000000001_10pkcs1_tool4tool13pkcs1_program8sequence13read_sequenceINtNtNtNtB8_6proved8der_core6std_io8FromReadNtNtNtB8_10rattle_std6system4FileEEB8_
	movq	4800(%rsp), %rcx
	movzbl	4810(%rsp), %eax
	shll	$16, %eax
	movzwl	4808(%rsp), %r12d
	orl	%eax, %r12d
	movabsq	$-9223372036854775808, %rax
	cmpq	%rax, %rcx
	jne	.LBB60_318
	andl	$16777215, %r12d
.LBB60_317:
	movl	712(%rsp), %edi
	callq	pkcs1_os_close
	movl	%r12d, %r14d
	shrl	$8, %r14d
	movl	%r12d, %eax
	shrl	$16, %eax
	movq	40(%rsp), %r15
	jmp	.LBB60_327
.LBB60_318:
	movq	%rcx, 8(%rsp)
	movq	%r14, 128(%rsp)
	movzbl	4815(%rsp), %esi
	movl	4811(%rsp), %eax
	movq	4816(%rsp), %r14
	andl	$16777215, %r12d
	shlq	$24, %rax
	shlq	$56, %rsi
	orq	%rax, %rsi
	orq	%r12, %rsi
	leaq	4800(%rsp), %rdi
	movq	%rsi, 120(%rsp)
	movq	%r14, %rdx
	callq	_RNvXs4_NtNtNtCs00000000001_10pkcs1_tool6proved5pkcs110public_keyINtB5_12RsaPublicKeyNtNtNtNtB9_8der_core7integer4uint7UintRefEINtNtCs00000000000_4core7convert7TryFromRShE8try_from
	cmpq	$0, 4800(%rsp)
	jne	.LBB60_320
	movzwl	4808(%rsp), %r12d
	cmpb	$20, %r12b
	jne	.LBB60_345
.LBB60_320:
	movl	712(%rsp), %edi
	callq	pkcs1_os_close
	leaq	240(%rsp), %rdi
	movq	16(%rsp), %rsi
	movq	128(%rsp), %rdx
	callq	_RNvXs_NtNtNtCs00000000001_10pkcs1_tool4tool13pkcs1_program11replace_stdRNtNtBa_10rattle_std11HostRuntimeNtNtB6_7replace12ReplaceFiles6targetBa_
	movq	240(%rsp), %r13
	movabsq	$-9223372036854775808, %rcx
	leaq	3(%rcx), %rax
	cmpq	%rax, %r13
	jne	.LBB60_342
	xorl	%r14d, %r14d
.LBB60_322:
	movq	56(%rsp), %r12
	movq	8(%rsp), %rdx
	movabsq	$-9223372036854775808, %r15
	movq	16(%rsp), %rcx
.LBB60_323:
	movq	%r15, %r13
	testq	%rdx, %rdx
	movq	40(%rsp), %r15
	je	.LBB60_325
.LBB60_324:
	movq	120(%rsp), %rdi
	movq	%rsi, %rbp
	callq	free
	movq	%rbp, %rsi
	movq	16(%rsp), %rcx
.LBB60_325:
	movabsq	$-9223372036854775808, %rax
	incq	%rax
	movb	$1, %bpl
	cmpq	%rax, %r13
	je	.LBB60_720
	movb	$20, %r12b
	movq	%r13, 24(%rsp)
	movq	%rcx, %r13
	movq	128(%rsp), %rbp
	movq	72(%rsp), %rdx
.LBB60_327:
	movq	24(%rsp), %rcx
	movq	%rcx, 240(%rsp)
	movq	%rsi, 248(%rsp)
	movq	%rdx, 256(%rsp)
	movq	%r13, 264(%rsp)
	movq	%rbp, 272(%rsp)
	movzbl	%al, %eax
	movb	%al, 282(%rsp)
	shll	$16, %eax
	movzbl	%r14b, %ecx
	shll	$8, %ecx
	orl	%eax, %ecx
	movzbl	%r12b, %eax
	orl	%ecx, %eax
	movw	%ax, 280(%rsp)
	movl	224(%rsp), %eax
	movl	%eax, 283(%rsp)
	movzbl	228(%rsp), %eax
	movb	%al, 287(%rsp)
	leaq	240(%rsp), %rax
	movq	%rax, 80(%rsp)
	leaq	_RNvXs0_NtNtNtCs00000000001_10pkcs1_tool4tool13pkcs1_program10copy_errorNtB5_9FileErrorNtNtCs00000000000_4core3fmt7Display3fmt(%rip), %rax
	movq	%rax, 88(%rsp)
	leaq	.Lanon.19(%rip), %rax
	movq	%rax, 704(%rsp)
	movq	$1, 712(%rsp)
	movq	$0, 736(%rsp)
	leaq	80(%rsp), %rax
	movq	%rax, 720(%rsp)
	movq	$1, 728(%rsp)
	leaq	704(%rsp), %rax
	movq	%rax, 152(%rsp)
	leaq	_ZN59_$LT$core..fmt..Arguments$u20$as$u20$core..fmt..Display$GT$3fmt17h0000000000000007E(%rip), %rax
	movq	%rax, 160(%rsp)
	leaq	.Lanon.55(%rip), %rax
	movq	%rax, 4800(%rsp)
	movq	$2, 4808(%rsp)
	movq	$0, 4832(%rsp)
	leaq	152(%rsp), %rax
	movq	%rax, 4816(%rsp)
	movq	$1, 4824(%rsp)
	leaq	208(%rsp), %rax
	movq	%rax, 472(%rsp)
	movb	$5, 480(%rsp)
	leaq	.Lanon.0(%rip), %rsi
	leaq	472(%rsp), %rdi
	leaq	4800(%rsp), %rdx
	callq	_ZN4core3fmt5write17h0000000000000000E
	movq	240(%rsp), %rax
	shlq	%rax
	testq	%rax, %rax
	je	.LBB60_329
	movq	248(%rsp), %rdi
	callq	free
.LBB60_329:
	xorl	%ebp, %ebp
	movq	56(%rsp), %r12
	jmp	.LBB60_720
.LBB60_330:
	movl	$384, 120(%rsp)
.LBB60_331:
	leaq	4800(%rsp), %rdi
	leaq	704(%rsp), %rsi
	callq	_RINvNtNtNtCs00000000001_10pkcs1_tool4tool13pkcs1_program8sequence13read_sequenceINtNtNtNtB8_6proved8der_core6std_io8FromReadNtNtNtB8_10rattle_std6system4FileEEB8_
	movq	4800(%rsp), %r8
	movzbl	4810(%rsp), %eax
	shll	$16, %eax
	movzwl	4808(%rsp), %r15d
	orl	%eax, %r15d
	movabsq	$-9223372036854775808, %rax
	cmpq	%rax, %r8
	jne	.LBB60_333
	movq	%r12, %r14
	andl	$16777215, %r15d
	jmp	.LBB60_714
.LBB60_333:
	movzbl	4815(%rsp), %r9d
	movl	4811(%rsp), %eax
	movq	4816(%rsp), %rcx
	andl	$16777215, %r15d
	shlq	$24, %rax
	shlq	$56, %r9
	orq	%rax, %r9
	orq	%r15, %r9
	movq	%rcx, %rax
	shrq	$32, %rax
	je	.LBB60_335
	movb	$7, %dil
.LBB60_711:
	xorl	%eax, %eax
	jmp	.LBB60_712
.LBB60_335:
	cmpq	$2, %rcx
	movq	%r9, 8(%rsp)
	movq	%r14, 128(%rsp)
	movq	%r8, 72(%rsp)
	movq	%rcx, 112(%rsp)
	jb	.LBB60_339
	cmpb	$48, (%r9)
	jne	.LBB60_339
	leaq	2(%r9), %rsi
	leaq	-2(%rcx), %r15
	movsbq	1(%r9), %rdx
	testq	%rdx, %rdx
	js	.LBB60_347
	subq	%rdx, %r15
	jae	.LBB60_341
	jmp	.LBB60_339
.LBB60_342:
	movq	%r13, %rax
	xorq	%rcx, %rax
	cmpq	$3, %rax
	movl	$3, %ecx
	cmovbq	%rax, %rcx
	leaq	.LJTI60_1(%rip), %rax
	movslq	(%rax,%rcx,4), %rcx
	addq	%rax, %rcx
	notrack	jmpq	*%rcx
.LBB60_343:
	movb	$1, %r14b
	jmp	.LBB60_322
.LBB60_221:
	movq	%rax, %r14
	cmpq	$0, 80(%rsp)
	je	.LBB60_223
	movq	88(%rsp), %rdi
	callq	free
.LBB60_223:
	movq	16(%rsp), %rcx
	movq	%r14, %rsi
	cmpq	$0, 152(%rsp)
	jne	.LBB60_274
	jmp	.LBB60_275
.LBB60_344:
	movl	$65536, %esi
	movq	%r13, %rdi
	ud2
.LBB60_345:
	movzbl	4810(%rsp), %eax
	shll	$16, %eax
	orl	%eax, %r12d
	andl	$16777215, %r12d
	cmpq	$0, 8(%rsp)
	je	.LBB60_317
	movq	120(%rsp), %rdi
	callq	free
	jmp	.LBB60_317
.LBB60_347:
	cmpb	$-126, %dl
	jne	.LBB60_381
	cmpq	$1, %r15
	jbe	.LBB60_339
	movzbl	2(%r9), %eax
	testq	%rax, %rax
	je	.LBB60_339
	leaq	-4(%rcx), %r15
	shll	$8, %eax
	movzbl	3(%r9), %edx
	orq	%rax, %rdx
	subq	%rdx, %r15
	jb	.LBB60_339
	leaq	4(%r9), %rsi
	jmp	.LBB60_386
.LBB60_245:
	movq	56(%rsp), %r12
	movq	48(%rsp), %r13
	movq	40(%rsp), %r15
	movq	16(%rsp), %rcx
	movq	24(%rsp), %rbp
	movb	$2, %r14b
	cmpq	$0, 80(%rsp)
	jne	.LBB60_291
	jmp	.LBB60_292
.LBB60_352:
	movq	56(%rsp), %r12
	movq	16(%rsp), %rcx
	jmp	.LBB60_287
.LBB60_353:
	movq	16(%rsp), %r15
	movq	%r15, %rdi
	movq	128(%rsp), %rsi
	movq	120(%rsp), %rdx
	movq	%r14, %rcx
	callq	_RINvNtNtNtCs00000000001_10pkcs1_tool4tool13pkcs1_program11output_file14write_in_placeRNtNtB8_10rattle_std11HostRuntimeEB8_
	movq	%r15, %rcx
	movl	%eax, %r14d
	movabsq	$-9223372036854775808, %r15
	cmpb	$7, %r14b
	movq	56(%rsp), %r12
	movq	8(%rsp), %rdx
	jne	.LBB60_323
	movabsq	$-9223372036854775808, %rax
	leaq	1(%rax), %r13
	jmp	.LBB60_426
.LBB60_355:
	movq	272(%rsp), %rax
	movq	%rax, 24(%rsp)
	movq	280(%rsp), %rax
	movq	%rax, 72(%rsp)
	movl	288(%rsp), %eax
	testb	$1, %al
	je	.LBB60_357
	movl	292(%rsp), %r15d
.LBB60_357:
	movq	248(%rsp), %rcx
	movq	%rcx, 64(%rsp)
	movq	256(%rsp), %rcx
	movq	%rcx, 104(%rsp)
	movq	264(%rsp), %rcx
	movq	%rcx, 112(%rsp)
	andl	$511, %r15d
	xorl	%r8d, %r8d
	testl	%eax, %eax
	sete	%r8b
	leaq	4800(%rsp), %rdi
	movq	24(%rsp), %rsi
	movq	72(%rsp), %rdx
	movl	%r15d, %ecx
	callq	_RNvXs_NtNtNtCs00000000001_10pkcs1_tool4tool13pkcs1_program11replace_stdRNtNtBa_10rattle_std11HostRuntimeNtNtB6_7replace12ReplaceFiles10create_newBa_
	cmpb	$0, 4800(%rsp)
	je	.LBB60_401
	movb	$3, %r14b
.LBB60_359:
	cmpq	$0, 112(%rsp)
	je	.LBB60_361
	movq	24(%rsp), %rdi
	callq	free
.LBB60_361:
	movabsq	$-9223372036854775808, %rax
	movq	%rax, 112(%rsp)
	jmp	.LBB60_422
.LBB60_362:
	movb	$2, %r14b
	jmp	.LBB60_322
.LBB60_363:
	movq	56(%rsp), %r12
	movq	48(%rsp), %r13
	movq	%rbp, %r15
	movq	16(%rsp), %rcx
	movq	%r14, %rbp
	movb	$2, %r14b
	cmpq	$0, 80(%rsp)
	jne	.LBB60_291
	jmp	.LBB60_292
.LBB60_364:
	movq	$-1, %r12
.LBB60_365:
	testq	%rbx, %rbx
	je	.LBB60_367
	movq	%r13, %rdi
	callq	free
.LBB60_367:
	movq	16(%rsp), %rsi
	movq	%rsi, %rax
	subq	%r15, %rax
	movabsq	$-6148914691236517205, %rcx
	mulq	%rcx
	cmpq	%r15, %rsi
	je	.LBB60_372
	movq	%rdx, %r14
	shrq	$4, %r14
	addq	$8, %r15
	movq	free@GOTPCREL(%rip), %rbx
	jmp	.LBB60_370
	.p2align	4, 0x90
.LBB60_369:
	addq	$24, %r15
	decq	%r14
	je	.LBB60_372
.LBB60_370:
	cmpq	$0, -8(%r15)
	je	.LBB60_369
	movq	(%r15), %rdi
	callq	*%rbx
	jmp	.LBB60_369
.LBB60_372:
	cmpq	$0, 48(%rsp)
	je	.LBB60_374
	movq	40(%rsp), %rdi
	callq	free
.LBB60_374:
	xorl	%ebp, %ebp
	movq	480(%rsp), %rbx
	testq	%r12, %r12
	jne	.LBB60_30
.LBB60_375:
	cmpq	$0, 472(%rsp)
	je	.LBB60_377
	movq	%rbx, %rdi
	callq	free
.LBB60_377:
	testb	%bpl, %bpl
	je	.LBB60_379
	leaq	.Lanon.54(%rip), %rax
	movq	%rax, 80(%rsp)
	movq	$40, 88(%rsp)
	leaq	80(%rsp), %rax
	movq	%rax, 152(%rsp)
	leaq	_RNvXs1c_NtCs00000000000_4core3fmtReNtB6_7Display3fmtCs00000000001_10pkcs1_tool(%rip), %rax
	movq	%rax, 160(%rsp)
	leaq	.Lanon.19(%rip), %rax
	movq	%rax, 704(%rsp)
	movq	$1, 712(%rsp)
	movq	$0, 736(%rsp)
	leaq	152(%rsp), %rax
	movq	%rax, 720(%rsp)
	movq	$1, 728(%rsp)
	leaq	704(%rsp), %rax
	movq	%rax, 472(%rsp)
	leaq	_ZN59_$LT$core..fmt..Arguments$u20$as$u20$core..fmt..Display$GT$3fmt17h0000000000000007E(%rip), %rax
	movq	%rax, 480(%rsp)
	leaq	.Lanon.55(%rip), %rax
	movq	%rax, 4800(%rsp)
	movq	$2, 4808(%rsp)
	movq	$0, 4832(%rsp)
	leaq	472(%rsp), %rax
	movq	%rax, 4816(%rsp)
	movq	$1, 4824(%rsp)
	leaq	208(%rsp), %rax
	movq	%rax, 240(%rsp)
	movb	$5, 248(%rsp)
	leaq	.Lanon.0(%rip), %rsi
	leaq	240(%rsp), %rdi
	leaq	4800(%rsp), %rdx
	callq	_ZN4core3fmt5write17h0000000000000000E
	movb	$2, %bpl
	jmp	.LBB60_380
.LBB60_379:
	movb	$2, 80(%rsp)
	leaq	80(%rsp), %rax
	movq	%rax, 152(%rsp)
	leaq	_RNvXNtNtNtCs00000000001_10pkcs1_tool4tool13pkcs1_program5faultNtB2_5FaultNtNtCs00000000000_4core3fmt7Display3fmt(%rip), %rax
	movq	%rax, 160(%rsp)
	leaq	.Lanon.19(%rip), %rax
	movq	%rax, 704(%rsp)
	movq	$1, 712(%rsp)
	movq	$0, 736(%rsp)
	leaq	152(%rsp), %rax
	movq	%rax, 720(%rsp)
	movq	$1, 728(%rsp)
	leaq	704(%rsp), %rax
	movq	%rax, 472(%rsp)
	leaq	_ZN59_$LT$core..fmt..Arguments$u20$as$u20$core..fmt..Display$GT$3fmt17h0000000000000007E(%rip), %rax
	movq	%rax, 480(%rsp)
	leaq	.Lanon.55(%rip), %rax
	movq	%rax, 4800(%rsp)
	movq	$2, 4808(%rsp)
	movq	$0, 4832(%rsp)
	leaq	472(%rsp), %rax
	movq	%rax, 4816(%rsp)
	movq	$1, 4824(%rsp)
	leaq	208(%rsp), %rax
	movq	%rax, 240(%rsp)
	movb	$5, 248(%rsp)
	leaq	.Lanon.0(%rip), %rsi
	leaq	240(%rsp), %rdi
	leaq	4800(%rsp), %rdx
	callq	_ZN4core3fmt5write17h0000000000000000E
	movb	$1, %bpl
.LBB60_380:
	movl	%ebp, %eax
	addq	$70344, %rsp
	.cfi_def_cfa_offset 56
	popq	%rbx
	.cfi_def_cfa_offset 48
	popq	%r12
	.cfi_def_cfa_offset 40
	popq	%r13
	.cfi_def_cfa_offset 32
	popq	%r14
	.cfi_def_cfa_offset 24
	popq	%r15
	.cfi_def_cfa_offset 16
	popq	%rbp
	.cfi_def_cfa_offset 8
	retq
.LBB60_381:
	.cfi_def_cfa_offset 70400
	testq	%r15, %r15
	je	.LBB60_339
	cmpb	$-127, %dl
	jne	.LBB60_339
	movzbl	(%rsi), %edx
	testb	%dl, %dl
	jns	.LBB60_339
	leaq	-3(%rcx), %r15
	subq	%rdx, %r15
	jb	.LBB60_339
	leaq	3(%r9), %rsi
	jmp	.LBB60_386
.LBB60_339:
	leaq	4800(%rsp), %rdi
	movq	%r9, %rsi
	movq	%rcx, %rdx
	movl	$48, %ecx
	callq	_RNvNtNtNtCs00000000001_10pkcs1_tool6proved8der_core5split14split_unlikely
	movq	4800(%rsp), %rsi
	testq	%rsi, %rsi
	je	.LBB60_410
	movq	4808(%rsp), %rdx
	movq	4824(%rsp), %r15
.LBB60_341:
	cmpq	$2, %rdx
	jb	.LBB60_428
.LBB60_386:
	cmpb	$2, (%rsi)
	jne	.LBB60_428
	leaq	2(%rsi), %rdi
	leaq	-2(%rdx), %rax
	movsbq	1(%rsi), %r8
	testq	%r8, %r8
	js	.LBB60_390
	subq	%r8, %rax
	jb	.LBB60_428
	leaq	(%rdi,%r8), %rcx
	jmp	.LBB60_430
.LBB60_390:
	cmpb	$-126, %r8b
	jne	.LBB60_395
	cmpq	$1, %rax
	jbe	.LBB60_428
	movzbl	2(%rsi), %ecx
	testq	%rcx, %rcx
	je	.LBB60_428
	leaq	-4(%rdx), %rax
	shll	$8, %ecx
	movzbl	3(%rsi), %r8d
	orq	%rcx, %r8
	subq	%r8, %rax
	jb	.LBB60_428
	addq	$4, %rsi
	jmp	.LBB60_400
.LBB60_395:
	testq	%rax, %rax
	je	.LBB60_427
	cmpb	$-127, %r8b
	jne	.LBB60_428
	movzbl	(%rdi), %r8d
	testb	%r8b, %r8b
	jns	.LBB60_428
	leaq	-3(%rdx), %rax
	subq	%r8, %rax
	jb	.LBB60_428
	addq	$3, %rsi
.LBB60_400:
	leaq	(%rsi,%r8), %rcx
	movq	%rsi, %rdi
	jmp	.LBB60_430
.LBB60_401:
	movl	4816(%rsp), %r15d
	testq	%r14, %r14
	je	.LBB60_405
	xorl	%r12d, %r12d
	movq	pkcs1_os_write@GOTPCREL(%rip), %rbp
.LBB60_403:
	movq	%r14, %rdx
	subq	%r12, %rdx
	movq	120(%rsp), %rax
	leaq	(%rax,%r12), %rsi
	movl	%r15d, %edi
	callq	*%rbp
	testq	%rax, %rax
	jle	.LBB60_411
	addq	%rax, %r12
	cmpq	%r14, %r12
	jb	.LBB60_403
.LBB60_405:
	movl	%r15d, %edi
	callq	pkcs1_os_sync
	testq	%rax, %rax
	js	.LBB60_411
	movl	%r15d, %edi
	callq	pkcs1_os_close
	movq	24(%rsp), %rdi
	movq	72(%rsp), %rsi
	movq	64(%rsp), %rdx
	movq	104(%rsp), %rcx
	callq	_RNvXs_NtNtNtCs00000000001_10pkcs1_tool4tool13pkcs1_program11replace_stdRNtNtBa_10rattle_std11HostRuntimeNtNtB6_7replace12ReplaceFiles6renameBa_
	cmpb	$5, %al
	jne	.LBB60_417
	movq	64(%rsp), %rdi
	movq	104(%rsp), %rsi
	callq	_RNvXs_NtNtNtCs00000000001_10pkcs1_tool4tool13pkcs1_program11replace_stdRNtNtBa_10rattle_std11HostRuntimeNtNtB6_7replace12ReplaceFiles9sync_nameBa_
	movabsq	$-9223372036854775808, %rcx
	leaq	1(%rcx), %r15
	cmpb	$5, %al
	cmovneq	%rcx, %r15
	cmpq	$0, 112(%rsp)
	je	.LBB60_409
	movq	24(%rsp), %rdi
	callq	free
.LBB60_409:
	movb	$6, %r14b
	jmp	.LBB60_423
.LBB60_410:
	movzbl	4810(%rsp), %eax
	shll	$16, %eax
	movzwl	4808(%rsp), %edi
	orl	%edi, %eax
	shrl	$8, %eax
	movq	8(%rsp), %r9
	jmp	.LBB60_445
.LBB60_411:
	movl	%r15d, %edi
	callq	pkcs1_os_close
	leaq	4800(%rsp), %rdi
	movl	$4096, %edx
	xorl	%esi, %esi
	callq	memset
	cmpq	$4096, 72(%rsp)
	ja	.LBB60_415
	leaq	4800(%rsp), %r14
	movq	%r14, %rdi
	movq	24(%rsp), %rsi
	movq	72(%rsp), %rdx
	callq	memcpy
	movq	%r14, %rdi
	callq	_ZN4core3ffi5c_str4CStr20from_bytes_until_nul17h0000000000000005E
	testq	%rax, %rax
	je	.LBB60_415
	decq	%rdx
	cmpq	72(%rsp), %rdx
	jne	.LBB60_415
	movq	%rax, %rdi
	movq	24(%rsp), %rsi
	movq	72(%rsp), %rdx
	callq	memcmp
	testl	%eax, %eax
	je	.LBB60_577
.LBB60_415:
	movb	$4, %r14b
	jmp	.LBB60_422
.LBB60_416:
	movb	$2, %r14b
	movq	56(%rsp), %r12
	movq	16(%rsp), %rcx
	movq	24(%rsp), %rbp
	movq	40(%rsp), %r15
	cmpq	$0, 80(%rsp)
	jne	.LBB60_291
	jmp	.LBB60_292
.LBB60_417:
	leaq	4800(%rsp), %rdi
	movl	$4096, %edx
	xorl	%esi, %esi
	callq	memset
	cmpq	$4096, 72(%rsp)
	ja	.LBB60_421
	leaq	4800(%rsp), %r14
	movq	%r14, %rdi
	movq	24(%rsp), %rsi
	movq	72(%rsp), %rdx
	callq	memcpy
	movq	%r14, %rdi
	callq	_ZN4core3ffi5c_str4CStr20from_bytes_until_nul17h0000000000000005E
	testq	%rax, %rax
	je	.LBB60_421
	decq	%rdx
	cmpq	72(%rsp), %rdx
	jne	.LBB60_421
	movq	%rax, %rdi
	movq	24(%rsp), %rsi
	movq	72(%rsp), %rdx
	callq	memcmp
	testl	%eax, %eax
	je	.LBB60_605
.LBB60_421:
	movb	$5, %r14b
.LBB60_422:
	movq	112(%rsp), %r15
.LBB60_423:
	testq	%r13, %r13
	je	.LBB60_425
	movq	64(%rsp), %rdi
	callq	free
.LBB60_425:
	movabsq	$-9223372036854775808, %rax
	leaq	1(%rax), %r13
	cmpq	%r13, %r15
	movq	56(%rsp), %r12
	movq	16(%rsp), %rcx
	movq	8(%rsp), %rdx
	movq	24(%rsp), %rsi
	jne	.LBB60_323
.LBB60_426:
	testq	%rdx, %rdx
	movq	40(%rsp), %r15
	jne	.LBB60_324
	jmp	.LBB60_325
.LBB60_427:
	movl	$2, %edx
.LBB60_428:
	leaq	4800(%rsp), %rdi
	movl	$2, %ecx
	callq	_RNvNtNtNtCs00000000001_10pkcs1_tool6proved8der_core5split14split_unlikely
	movq	4800(%rsp), %rdi
	testq	%rdi, %rdi
	je	.LBB60_442
	movq	4808(%rsp), %r8
	movq	4816(%rsp), %rcx
	movq	4824(%rsp), %rax
.LBB60_430:
	movl	$512, %edx
	testq	%r8, %r8
	je	.LBB60_438
	cmpq	$1, %r8
	jne	.LBB60_439
	movzbl	(%rdi), %esi
	cmpb	$2, %sil
	jae	.LBB60_440
	movl	%esi, %r14d
	cmpq	$2, %rax
	jb	.LBB60_490
	cmpb	$2, (%rcx)
	jne	.LBB60_490
	leaq	2(%rcx), %r8
	leaq	-2(%rax), %rdx
	movsbq	1(%rcx), %rdi
	testq	%rdi, %rdi
	js	.LBB60_470
	subq	%rdi, %rdx
	jb	.LBB60_490
	leaq	(%r8,%rdi), %rsi
	jmp	.LBB60_492
.LBB60_438:
	movl	$3, %edi
	jmp	.LBB60_443
.LBB60_439:
	cmpb	$0, (%rdi)
	je	.LBB60_441
.LBB60_440:
	movl	$13, %edi
	xorl	%r8d, %r8d
	jmp	.LBB60_443
.LBB60_441:
	movzbl	1(%rdi), %eax
	shrb	$7, %al
	movzbl	%al, %eax
	leaq	(%rax,%rax,8), %rdi
	addq	$4, %rdi
	xorl	%r8d, %r8d
	jmp	.LBB60_443
.LBB60_442:
	movzbl	4810(%rsp), %eax
	shll	$16, %eax
	movzwl	4808(%rsp), %ecx
	orl	%eax, %ecx
	movl	%ecx, %edx
	movzbl	%cl, %edi
	movl	%ecx, %r8d
	andl	$16711680, %r8d
	andl	$65280, %edx
.LBB60_443:
	movq	8(%rsp), %r9
	orq	%rdx, %rdi
	orq	%r8, %rdi
.LBB60_444:
	movq	%rdi, %rax
	shrq	$8, %rax
.LBB60_445:
	cmpb	$20, %dil
	movq	72(%rsp), %r8
	jne	.LBB60_712
.LBB60_446:
	movq	%rbx, 32(%rsp)
	movq	%r12, %r14
	movl	712(%rsp), %edi
	callq	pkcs1_os_close
	leaq	240(%rsp), %rdi
	movq	16(%rsp), %rsi
	movq	128(%rsp), %rdx
	callq	_RNvXs_NtNtNtCs00000000001_10pkcs1_tool4tool13pkcs1_program11replace_stdRNtNtBa_10rattle_std11HostRuntimeNtNtB6_7replace12ReplaceFiles6targetBa_
	movq	240(%rsp), %rbx
	movabsq	$-9223372036854775808, %r15
	leaq	3(%r15), %rax
	cmpq	%rax, %rbx
	jne	.LBB60_454
	xorl	%r12d, %r12d
.LBB60_448:
.LBB60_449:
	movq	%r15, %r13
	cmpq	$0, 72(%rsp)
	je	.LBB60_452
.LBB60_451:
	movq	8(%rsp), %rdi
	callq	free
.LBB60_452:
	movabsq	$-9223372036854775808, %rax
	incq	%rax
	movb	$1, %bpl
	cmpq	%rax, %r13
	movq	40(%rsp), %r15
	movq	32(%rsp), %rbx
	je	.LBB60_719
	movb	$20, %r15b
	movq	%r13, 24(%rsp)
	movq	16(%rsp), %r13
	movq	128(%rsp), %rbp
	movq	64(%rsp), %rdx
	movq	104(%rsp), %rsi
	jmp	.LBB60_716
.LBB60_712:
	movq	%r12, %r14
	movzbl	%dil, %ecx
	movzwl	%ax, %r15d
	shll	$8, %r15d
	orq	%rcx, %r15
	testq	%r8, %r8
	je	.LBB60_714
	movq	%r9, %rdi
	callq	free
.LBB60_714:
	movl	712(%rsp), %edi
	callq	pkcs1_os_close
	movl	%r15d, %r12d
	shrl	$8, %r12d
	movl	%r15d, %eax
	shrl	$16, %eax
.LBB60_715:
.LBB60_716:
	movq	24(%rsp), %rcx
	movq	%rcx, 240(%rsp)
	movq	%rsi, 248(%rsp)
	movq	%rdx, 256(%rsp)
	movq	%r13, 264(%rsp)
	movq	%rbp, 272(%rsp)
	movzbl	%al, %eax
	movb	%al, 282(%rsp)
	shll	$16, %eax
	movzbl	%r12b, %ecx
	shll	$8, %ecx
	orl	%eax, %ecx
	movzbl	%r15b, %eax
	orl	%ecx, %eax
	movw	%ax, 280(%rsp)
	movl	224(%rsp), %eax
	movl	%eax, 283(%rsp)
	movzbl	228(%rsp), %eax
	movb	%al, 287(%rsp)
	leaq	240(%rsp), %rax
	movq	%rax, 80(%rsp)
	leaq	_RNvXs0_NtNtNtCs00000000001_10pkcs1_tool4tool13pkcs1_program10copy_errorNtB5_9FileErrorNtNtCs00000000000_4core3fmt7Display3fmt(%rip), %rax
	movq	%rax, 88(%rsp)
	leaq	.Lanon.19(%rip), %rax
	movq	%rax, 704(%rsp)
	movq	$1, 712(%rsp)
	movq	$0, 736(%rsp)
	leaq	80(%rsp), %rax
	movq	%rax, 720(%rsp)
	movq	$1, 728(%rsp)
	leaq	704(%rsp), %rax
	movq	%rax, 152(%rsp)
	leaq	_ZN59_$LT$core..fmt..Arguments$u20$as$u20$core..fmt..Display$GT$3fmt17h0000000000000007E(%rip), %rax
	movq	%rax, 160(%rsp)
	leaq	.Lanon.55(%rip), %rax
	movq	%rax, 4800(%rsp)
	movq	$2, 4808(%rsp)
	movq	$0, 4832(%rsp)
	leaq	152(%rsp), %rax
	movq	%rax, 4816(%rsp)
	movq	$1, 4824(%rsp)
	leaq	208(%rsp), %rax
	movq	%rax, 472(%rsp)
	movb	$5, 480(%rsp)
	leaq	.Lanon.0(%rip), %rsi
	leaq	472(%rsp), %rdi
	leaq	4800(%rsp), %rdx
	callq	_ZN4core3fmt5write17h0000000000000000E
	movq	240(%rsp), %rax
	shlq	%rax
	testq	%rax, %rax
	je	.LBB60_718
	movq	248(%rsp), %rdi
	callq	free
.LBB60_718:
	xorl	%ebp, %ebp
	movq	40(%rsp), %r15
.LBB60_719:
	movq	%r14, %r12
.LBB60_720:
	xorb	$1, %bpl
	jmp	.LBB60_63
.LBB60_454:
	movq	%rbx, %rax
	xorq	%r15, %rax
	cmpq	$3, %rax
	movl	$3, %ecx
	cmovbq	%rax, %rcx
	leaq	.LJTI60_0(%rip), %rax
	movslq	(%rax,%rcx,4), %rcx
	addq	%rax, %rcx
	notrack	jmpq	*%rcx
.LBB60_455:
	movb	$1, %r12b
	jmp	.LBB60_448
.LBB60_456:
	movq	16(%rsp), %rdi
	movq	128(%rsp), %rsi
	movq	8(%rsp), %rdx
	movq	112(%rsp), %rcx
	callq	_RINvNtNtNtCs00000000001_10pkcs1_tool4tool13pkcs1_program11output_file14write_in_placeRNtNtB8_10rattle_std11HostRuntimeEB8_
	movl	%eax, %r12d
	movabsq	$-9223372036854775808, %r15
	cmpb	$7, %r12b
	jne	.LBB60_449
	movabsq	$-9223372036854775808, %rax
	leaq	1(%rax), %r13
	jmp	.LBB60_551
.LBB60_458:
	movq	248(%rsp), %rax
	movq	%rax, 144(%rsp)
	movq	256(%rsp), %rax
	movq	%rax, 200(%rsp)
	movq	264(%rsp), %rax
	movq	%rax, 24(%rsp)
	movq	272(%rsp), %rax
	movq	%rax, 104(%rsp)
	movq	280(%rsp), %r15
	leaq	4800(%rsp), %rdi
	movl	$4096, %edx
	xorl	%esi, %esi
	callq	memset
	movq	%r15, 64(%rsp)
	cmpq	$4096, %r15
	ja	.LBB60_462
	leaq	4800(%rsp), %r15
	movq	%r15, %rdi
	movq	104(%rsp), %rsi
	movq	64(%rsp), %rdx
	callq	memcpy
	movq	%r15, %rdi
	callq	_ZN4core3ffi5c_str4CStr20from_bytes_until_nul17h0000000000000005E
	testq	%rax, %rax
	je	.LBB60_462
	decq	%rdx
	cmpq	64(%rsp), %rdx
	jne	.LBB60_462
	movq	%rax, %rdi
	movq	104(%rsp), %rsi
	movq	64(%rsp), %rdx
	callq	memcmp
	testl	%eax, %eax
	je	.LBB60_575
.LBB60_462:
	movl	$1024, %ecx
.LBB60_463:
	movl	$1, %edx
	xorl	%r15d, %r15d
.LBB60_464:
	orl	%edx, %ecx
	movl	%r15d, %eax
	orl	%ecx, %eax
	testb	$1, %al
	je	.LBB60_475
	movb	$3, %r12b
.LBB60_466:
	cmpq	$0, 24(%rsp)
	je	.LBB60_468
	movq	104(%rsp), %rdi
	callq	free
.LBB60_468:
	movabsq	$-9223372036854775808, %rax
	movq	%rax, 24(%rsp)
	jmp	.LBB60_547
.LBB60_469:
	movb	$2, %r12b
	jmp	.LBB60_448
.LBB60_470:
	cmpb	$-126, %dil
	jne	.LBB60_484
	cmpq	$1, %rdx
	jbe	.LBB60_490
	movzbl	2(%rcx), %esi
	testq	%rsi, %rsi
	je	.LBB60_490
	leaq	-4(%rax), %rdx
	shll	$8, %esi
	movzbl	3(%rcx), %edi
	orq	%rsi, %rdi
	subq	%rdi, %rdx
	jb	.LBB60_490
	addq	$4, %rcx
	jmp	.LBB60_489
.LBB60_475:
	shrq	$32, %r15
	movq	112(%rsp), %rbp
	testq	%rbp, %rbp
	je	.LBB60_479
	xorl	%r12d, %r12d
	movq	pkcs1_os_write@GOTPCREL(%rip), %r13
.LBB60_477:
	movq	%rbp, %rdx
	subq	%r12, %rdx
	movq	8(%rsp), %rax
	leaq	(%rax,%r12), %rsi
	movl	%r15d, %edi
	callq	*%r13
	testq	%rax, %rax
	jle	.LBB60_509
	addq	%rax, %r12
	cmpq	%rbp, %r12
	jb	.LBB60_477
.LBB60_479:
	movl	%r15d, %edi
	callq	pkcs1_os_sync
	testq	%rax, %rax
	js	.LBB60_509
	movl	%r15d, %edi
	callq	pkcs1_os_close
	movq	104(%rsp), %rdi
	movq	64(%rsp), %rsi
	movq	144(%rsp), %rdx
	movq	200(%rsp), %rcx
	callq	_RNvXs_NtNtNtCs00000000001_10pkcs1_tool4tool13pkcs1_program11replace_stdRNtNtBa_10rattle_std11HostRuntimeNtNtB6_7replace12ReplaceFiles6renameBa_
	cmpb	$5, %al
	jne	.LBB60_542
	movq	144(%rsp), %rdi
	movq	200(%rsp), %rsi
	callq	_RNvXs_NtNtNtCs00000000001_10pkcs1_tool4tool13pkcs1_program11replace_stdRNtNtBa_10rattle_std11HostRuntimeNtNtB6_7replace12ReplaceFiles9sync_nameBa_
	movabsq	$-9223372036854775808, %rcx
	leaq	1(%rcx), %r15
	cmpb	$5, %al
	cmovneq	%rcx, %r15
	cmpq	$0, 24(%rsp)
	je	.LBB60_483
	movq	104(%rsp), %rdi
	callq	free
.LBB60_483:
	movb	$6, %r12b
	jmp	.LBB60_548
.LBB60_484:
	testq	%rdx, %rdx
	je	.LBB60_490
	cmpb	$-127, %dil
	jne	.LBB60_490
	movzbl	(%r8), %edi
	testb	%dil, %dil
	jns	.LBB60_490
	leaq	-3(%rax), %rdx
	subq	%rdi, %rdx
	jb	.LBB60_490
	addq	$3, %rcx
.LBB60_489:
	leaq	(%rcx,%rdi), %rsi
	movq	%rcx, %r8
	jmp	.LBB60_493
.LBB60_490:
	leaq	4800(%rsp), %rdi
	movq	%rcx, %rsi
	movq	%rax, %rdx
	movl	$2, %ecx
	callq	_RNvNtNtNtCs00000000001_10pkcs1_tool6proved8der_core5split14split_unlikely
	movq	4800(%rsp), %r8
	testq	%r8, %r8
	je	.LBB60_514
	movq	4808(%rsp), %rdi
	movq	4816(%rsp), %rsi
	movq	4824(%rsp), %rdx
.LBB60_492:
	testq	%rdi, %rdi
	je	.LBB60_503
.LBB60_493:
	cmpb	$0, (%r8)
	je	.LBB60_496
	movq	8(%rsp), %r9
	jns	.LBB60_498
	jmp	.LBB60_495
.LBB60_496:
	cmpq	$1, %rdi
	movq	8(%rsp), %r9
	je	.LBB60_498
	movl	$516, %edi
	cmpb	$0, 1(%r8)
	jns	.LBB60_444
.LBB60_498:
	movq	%rbx, 32(%rsp)
	cmpq	$2, %rdx
	jb	.LBB60_521
	cmpb	$2, (%rsi)
	jne	.LBB60_521
	leaq	2(%rsi), %r8
	leaq	-2(%rdx), %rax
	movsbq	1(%rsi), %rdi
	testq	%rdi, %rdi
	js	.LBB60_504
	subq	%rdi, %rax
	jb	.LBB60_521
	leaq	(%r8,%rdi), %rcx
	jmp	.LBB60_523
.LBB60_503:
	movl	$515, %edi
	jmp	.LBB60_700
.LBB60_504:
	cmpb	$-126, %dil
	jne	.LBB60_515
	cmpq	$1, %rax
	jbe	.LBB60_521
	movzbl	2(%rsi), %ecx
	testq	%rcx, %rcx
	je	.LBB60_521
	leaq	-4(%rdx), %rax
	shll	$8, %ecx
	movzbl	3(%rsi), %edi
	orq	%rcx, %rdi
	subq	%rdi, %rax
	jb	.LBB60_521
	addq	$4, %rsi
	jmp	.LBB60_520
.LBB60_509:
	movl	%r15d, %edi
	callq	pkcs1_os_close
	leaq	4800(%rsp), %rdi
	movl	$4096, %edx
	xorl	%esi, %esi
	callq	memset
	cmpq	$4096, 64(%rsp)
	ja	.LBB60_513
	leaq	4800(%rsp), %r15
	movq	%r15, %rdi
	movq	104(%rsp), %rsi
	movq	64(%rsp), %rdx
	callq	memcpy
	movq	%r15, %rdi
	callq	_ZN4core3ffi5c_str4CStr20from_bytes_until_nul17h0000000000000005E
	testq	%rax, %rax
	je	.LBB60_513
	decq	%rdx
	cmpq	64(%rsp), %rdx
	jne	.LBB60_513
	movq	%rax, %rdi
	movq	104(%rsp), %rsi
	movq	64(%rsp), %rdx
	callq	memcmp
	testl	%eax, %eax
	je	.LBB60_608
.LBB60_513:
	movb	$4, %r12b
	jmp	.LBB60_547
.LBB60_514:
	movzwl	4808(%rsp), %eax
	movzbl	4810(%rsp), %edi
	shll	$16, %edi
	orq	%rax, %rdi
	jmp	.LBB60_700
.LBB60_515:
	testq	%rax, %rax
	je	.LBB60_521
	cmpb	$-127, %dil
	jne	.LBB60_521
	movzbl	(%r8), %edi
	testb	%dil, %dil
	jns	.LBB60_521
	leaq	-3(%rdx), %rax
	subq	%rdi, %rax
	jb	.LBB60_521
	addq	$3, %rsi
.LBB60_520:
	leaq	(%rsi,%rdi), %rcx
	movq	%rsi, %r8
	jmp	.LBB60_524
.LBB60_521:
	leaq	4800(%rsp), %rdi
	movl	$2, %ecx
	callq	_RNvNtNtNtCs00000000001_10pkcs1_tool6proved8der_core5split14split_unlikely
	movq	4800(%rsp), %r8
	testq	%r8, %r8
	je	.LBB60_697
	movq	4808(%rsp), %rdi
	movq	4816(%rsp), %rcx
	movq	4824(%rsp), %rax
.LBB60_523:
	testq	%rdi, %rdi
	je	.LBB60_696
.LBB60_524:
	cmpb	$0, (%r8)
	je	.LBB60_526
	movq	32(%rsp), %rbx
	movq	8(%rsp), %r9
	jns	.LBB60_528
	jmp	.LBB60_495
.LBB60_526:
	cmpq	$1, %rdi
	movq	32(%rsp), %rbx
	movq	8(%rsp), %r9
	je	.LBB60_528
	movl	$516, %edi
	cmpb	$0, 1(%r8)
	jns	.LBB60_444
.LBB60_528:
	cmpq	$2, %rax
	jb	.LBB60_558
	cmpb	$2, (%rcx)
	jne	.LBB60_558
	leaq	2(%rcx), %r8
	leaq	-2(%rax), %rdx
	movsbq	1(%rcx), %rdi
	testq	%rdi, %rdi
	js	.LBB60_533
	subq	%rdi, %rdx
	jb	.LBB60_558
	leaq	(%r8,%rdi), %rsi
	jmp	.LBB60_560
.LBB60_533:
	cmpb	$-126, %dil
	jne	.LBB60_552
	cmpq	$1, %rdx
	jbe	.LBB60_558
	movzbl	2(%rcx), %esi
	testq	%rsi, %rsi
	je	.LBB60_558
	leaq	-4(%rax), %rdx
	shll	$8, %esi
	movzbl	3(%rcx), %edi
	orq	%rsi, %rdi
	subq	%rdi, %rdx
	jb	.LBB60_558
	addq	$4, %rcx
	jmp	.LBB60_557
.LBB60_538:
	movq	%r14, %rdi
.LBB60_539:
	movq	%r15, %rsi
	ud2
.LBB60_540:
	movq	%rdx, %rdi
	movq	%r14, %rsi
	ud2
.LBB60_541:
	movq	%rsi, %rdi
	movq	%r14, %rsi
	ud2
.LBB60_542:
	leaq	4800(%rsp), %rdi
	movl	$4096, %edx
	xorl	%esi, %esi
	callq	memset
	cmpq	$4096, 64(%rsp)
	ja	.LBB60_546
	leaq	4800(%rsp), %r15
	movq	%r15, %rdi
	movq	104(%rsp), %rsi
	movq	64(%rsp), %rdx
	callq	memcpy
	movq	%r15, %rdi
	callq	_ZN4core3ffi5c_str4CStr20from_bytes_until_nul17h0000000000000005E
	testq	%rax, %rax
	je	.LBB60_546
	decq	%rdx
	cmpq	64(%rsp), %rdx
	jne	.LBB60_546
	movq	%rax, %rdi
	movq	104(%rsp), %rsi
	movq	64(%rsp), %rdx
	callq	memcmp
	testl	%eax, %eax
	je	.LBB60_634
.LBB60_546:
	movb	$5, %r12b
.LBB60_547:
	movq	24(%rsp), %r15
.LBB60_548:
	testq	%rbx, %rbx
	je	.LBB60_550
	movq	144(%rsp), %rdi
	callq	free
.LBB60_550:
	movabsq	$-9223372036854775808, %rax
	leaq	1(%rax), %r13
	cmpq	%r13, %r15
	jne	.LBB60_449
.LBB60_551:
	cmpq	$0, 72(%rsp)
	jne	.LBB60_451
	jmp	.LBB60_452
.LBB60_156:
	movb	$2, %r14b
	movq	56(%rsp), %r12
	movq	40(%rsp), %r15
	jmp	.LBB60_291
.LBB60_552:
	testq	%rdx, %rdx
	je	.LBB60_558
	cmpb	$-127, %dil
	jne	.LBB60_558
	movzbl	(%r8), %edi
	testb	%dil, %dil
	jns	.LBB60_558
	leaq	-3(%rax), %rdx
	subq	%rdi, %rdx
	jb	.LBB60_558
	addq	$3, %rcx
.LBB60_557:
	leaq	(%rcx,%rdi), %rsi
	movq	%rcx, %r8
	jmp	.LBB60_561
.LBB60_558:
	leaq	4800(%rsp), %rdi
	movq	%rcx, %rsi
	movq	%rax, %rdx
	movl	$2, %ecx
	callq	_RNvNtNtNtCs00000000001_10pkcs1_tool6proved8der_core5split14split_unlikely
	movq	4800(%rsp), %r8
	testq	%r8, %r8
	je	.LBB60_697
	movq	4808(%rsp), %rdi
	movq	4816(%rsp), %rsi
	movq	4824(%rsp), %rdx
.LBB60_560:
	testq	%rdi, %rdi
	je	.LBB60_696
.LBB60_561:
	cmpb	$0, (%r8)
	je	.LBB60_563
	movq	32(%rsp), %rbx
	movq	8(%rsp), %r9
	jns	.LBB60_565
	jmp	.LBB60_495
.LBB60_563:
	cmpq	$1, %rdi
	movq	32(%rsp), %rbx
	movq	8(%rsp), %r9
	je	.LBB60_565
	movl	$516, %edi
	cmpb	$0, 1(%r8)
	jns	.LBB60_444
.LBB60_565:
	cmpq	$2, %rdx
	jb	.LBB60_586
	cmpb	$2, (%rsi)
	jne	.LBB60_586
	leaq	2(%rsi), %r8
	leaq	-2(%rdx), %rax
	movsbq	1(%rsi), %rdi
	testq	%rdi, %rdi
	js	.LBB60_570
	subq	%rdi, %rax
	jb	.LBB60_586
	leaq	(%r8,%rdi), %rcx
	jmp	.LBB60_588
.LBB60_570:
	cmpb	$-126, %dil
	jne	.LBB60_580
	cmpq	$1, %rax
	jbe	.LBB60_586
	movzbl	2(%rsi), %ecx
	testq	%rcx, %rcx
	je	.LBB60_586
	leaq	-4(%rdx), %rax
	shll	$8, %ecx
	movzbl	3(%rsi), %edi
	orq	%rcx, %rdi
	subq	%rdi, %rax
	jb	.LBB60_586
	addq	$4, %rsi
	jmp	.LBB60_585
.LBB60_575:
	movl	120(%rsp), %ebp
	andl	$448, %ebp
	movzbl	4800(%rsp), %r15d
	leaq	4801(%rsp), %rsi
	leaq	705(%rsp), %rdi
	movl	$4095, %edx
	callq	memcpy
	movb	%r15b, 704(%rsp)
	leaq	704(%rsp), %rdi
	movl	$2, %esi
	movl	%ebp, %edx
	callq	pkcs1_os_open
	testq	%rax, %rax
	js	.LBB60_603
	movq	%rax, %rcx
	shlq	$32, %rcx
	xorl	%r15d, %r15d
	xorl	%edx, %edx
	cmpq	$2147483647, %rax
	seta	%dl
	cmovbeq	%rcx, %r15
	movl	$1024, %ecx
	jmp	.LBB60_464
.LBB60_577:
	movzbl	4800(%rsp), %ebp
	leaq	4801(%rsp), %rsi
	leaq	705(%rsp), %rdi
	movl	$4095, %edx
	callq	memcpy
	movb	%bpl, 704(%rsp)
	leaq	704(%rsp), %rdi
	callq	pkcs1_os_remove
	testq	%rax, %rax
	jns	.LBB60_579
	movb	$4, %r14b
	cmpq	$-4, %rax
	jne	.LBB60_422
.LBB60_579:
	movb	$4, %r14b
	jmp	.LBB60_359
.LBB60_580:
	testq	%rax, %rax
	je	.LBB60_586
	cmpb	$-127, %dil
	jne	.LBB60_586
	movzbl	(%r8), %edi
	testb	%dil, %dil
	jns	.LBB60_586
	leaq	-3(%rdx), %rax
	subq	%rdi, %rax
	jb	.LBB60_586
	addq	$3, %rsi
.LBB60_585:
	leaq	(%rsi,%rdi), %rcx
	movq	%rsi, %r8
	jmp	.LBB60_589
.LBB60_586:
	leaq	4800(%rsp), %rdi
	movl	$2, %ecx
	callq	_RNvNtNtNtCs00000000001_10pkcs1_tool6proved8der_core5split14split_unlikely
	movq	4800(%rsp), %r8
	testq	%r8, %r8
	je	.LBB60_697
	movq	4808(%rsp), %rdi
	movq	4816(%rsp), %rcx
	movq	4824(%rsp), %rax
.LBB60_588:
	testq	%rdi, %rdi
	je	.LBB60_696
.LBB60_589:
	cmpb	$0, (%r8)
	je	.LBB60_591
	movq	32(%rsp), %rbx
	movq	8(%rsp), %r9
	jns	.LBB60_593
	jmp	.LBB60_495
.LBB60_591:
	cmpq	$1, %rdi
	movq	32(%rsp), %rbx
	movq	8(%rsp), %r9
	je	.LBB60_593
	movl	$516, %edi
	cmpb	$0, 1(%r8)
	jns	.LBB60_444
.LBB60_593:
	cmpq	$2, %rax
	jb	.LBB60_617
	cmpb	$2, (%rcx)
	jne	.LBB60_617
	leaq	2(%rcx), %r8
	leaq	-2(%rax), %rdx
	movsbq	1(%rcx), %rdi
	testq	%rdi, %rdi
	js	.LBB60_598
	subq	%rdi, %rdx
	jb	.LBB60_617
	leaq	(%r8,%rdi), %rsi
	jmp	.LBB60_619
.LBB60_598:
	cmpb	$-126, %dil
	jne	.LBB60_611
	cmpq	$1, %rdx
	jbe	.LBB60_617
	movzbl	2(%rcx), %esi
	testq	%rsi, %rsi
	je	.LBB60_617
	leaq	-4(%rax), %rdx
	shll	$8, %esi
	movzbl	3(%rcx), %edi
	orq	%rsi, %rdi
	subq	%rdi, %rdx
	jb	.LBB60_617
	addq	$4, %rcx
	jmp	.LBB60_616
.LBB60_603:
	addq	$4, %rax
	movl	$1024, %ecx
	cmpq	$3, %rax
	jae	.LBB60_463
	shlq	$8, %rax
	movl	$512, %ecx
	subq	%rax, %rcx
	jmp	.LBB60_463
.LBB60_605:
	movzbl	4800(%rsp), %ebp
	leaq	4801(%rsp), %rsi
	leaq	705(%rsp), %rdi
	movl	$4095, %edx
	callq	memcpy
	movb	%bpl, 704(%rsp)
	leaq	704(%rsp), %rdi
	callq	pkcs1_os_remove
	testq	%rax, %rax
	jns	.LBB60_607
	movb	$5, %r14b
	cmpq	$-4, %rax
	jne	.LBB60_422
.LBB60_607:
	movb	$5, %r14b
	jmp	.LBB60_359
.LBB60_608:
	movzbl	4800(%rsp), %r15d
	leaq	4801(%rsp), %rsi
	leaq	705(%rsp), %rdi
	movl	$4095, %edx
	callq	memcpy
	movb	%r15b, 704(%rsp)
	leaq	704(%rsp), %rdi
	callq	pkcs1_os_remove
	testq	%rax, %rax
	jns	.LBB60_610
	movb	$4, %r12b
	cmpq	$-4, %rax
	jne	.LBB60_547
.LBB60_610:
	movb	$4, %r12b
	jmp	.LBB60_466
.LBB60_611:
	testq	%rdx, %rdx
	je	.LBB60_617
	cmpb	$-127, %dil
	jne	.LBB60_617
	movzbl	(%r8), %edi
	testb	%dil, %dil
	jns	.LBB60_617
	leaq	-3(%rax), %rdx
	subq	%rdi, %rdx
	jb	.LBB60_617
	addq	$3, %rcx
.LBB60_616:
	leaq	(%rcx,%rdi), %rsi
	movq	%rcx, %r8
	jmp	.LBB60_620
.LBB60_617:
	leaq	4800(%rsp), %rdi
	movq	%rcx, %rsi
	movq	%rax, %rdx
	movl	$2, %ecx
	callq	_RNvNtNtNtCs00000000001_10pkcs1_tool6proved8der_core5split14split_unlikely
	movq	4800(%rsp), %r8
	testq	%r8, %r8
	je	.LBB60_697
	movq	4808(%rsp), %rdi
	movq	4816(%rsp), %rsi
	movq	4824(%rsp), %rdx
.LBB60_619:
	testq	%rdi, %rdi
	je	.LBB60_696
.LBB60_620:
	cmpb	$0, (%r8)
	je	.LBB60_622
	movq	32(%rsp), %rbx
	movq	8(%rsp), %r9
	jns	.LBB60_624
	jmp	.LBB60_495
.LBB60_622:
	cmpq	$1, %rdi
	movq	32(%rsp), %rbx
	movq	8(%rsp), %r9
	je	.LBB60_624
	movl	$516, %edi
	cmpb	$0, 1(%r8)
	jns	.LBB60_444
.LBB60_624:
	cmpq	$2, %rdx
	jb	.LBB60_643
	cmpb	$2, (%rsi)
	jne	.LBB60_643
	leaq	2(%rsi), %r8
	leaq	-2(%rdx), %rax
	movsbq	1(%rsi), %rdi
	testq	%rdi, %rdi
	js	.LBB60_629
	subq	%rdi, %rax
	jb	.LBB60_643
	leaq	(%r8,%rdi), %rcx
	jmp	.LBB60_645
.LBB60_629:
	cmpb	$-126, %dil
	jne	.LBB60_637
	cmpq	$1, %rax
	jbe	.LBB60_643
	movzbl	2(%rsi), %ecx
	testq	%rcx, %rcx
	je	.LBB60_643
	leaq	-4(%rdx), %rax
	shll	$8, %ecx
	movzbl	3(%rsi), %edi
	orq	%rcx, %rdi
	subq	%rdi, %rax
	jb	.LBB60_643
	addq	$4, %rsi
	jmp	.LBB60_642
.LBB60_634:
	movzbl	4800(%rsp), %r15d
	leaq	4801(%rsp), %rsi
	leaq	705(%rsp), %rdi
	movl	$4095, %edx
	callq	memcpy
	movb	%r15b, 704(%rsp)
	leaq	704(%rsp), %rdi
	callq	pkcs1_os_remove
	testq	%rax, %rax
	jns	.LBB60_636
	movb	$5, %r12b
	cmpq	$-4, %rax
	jne	.LBB60_547
.LBB60_636:
	movb	$5, %r12b
	jmp	.LBB60_466
.LBB60_637:
	testq	%rax, %rax
	je	.LBB60_643
	cmpb	$-127, %dil
	jne	.LBB60_643
	movzbl	(%r8), %edi
	testb	%dil, %dil
	jns	.LBB60_643
	leaq	-3(%rdx), %rax
	subq	%rdi, %rax
	jb	.LBB60_643
	addq	$3, %rsi
.LBB60_642:
	leaq	(%rsi,%rdi), %rcx
	movq	%rsi, %r8
	jmp	.LBB60_646
.LBB60_643:
	leaq	4800(%rsp), %rdi
	movl	$2, %ecx
	callq	_RNvNtNtNtCs00000000001_10pkcs1_tool6proved8der_core5split14split_unlikely
	movq	4800(%rsp), %r8
	testq	%r8, %r8
	je	.LBB60_697
	movq	4808(%rsp), %rdi
	movq	4816(%rsp), %rcx
	movq	4824(%rsp), %rax
.LBB60_645:
	testq	%rdi, %rdi
	je	.LBB60_696
.LBB60_646:
	cmpb	$0, (%r8)
	je	.LBB60_648
	movq	32(%rsp), %rbx
	movq	8(%rsp), %r9
	jns	.LBB60_650
	jmp	.LBB60_495
.LBB60_648:
	cmpq	$1, %rdi
	movq	32(%rsp), %rbx
	movq	8(%rsp), %r9
	je	.LBB60_650
	movl	$516, %edi
	cmpb	$0, 1(%r8)
	jns	.LBB60_444
.LBB60_650:
	cmpq	$2, %rax
	jb	.LBB60_668
	cmpb	$2, (%rcx)
	jne	.LBB60_668
	leaq	2(%rcx), %r8
	leaq	-2(%rax), %rdx
	movsbq	1(%rcx), %rdi
	testq	%rdi, %rdi
	js	.LBB60_657
	subq	%rdi, %rdx
	jb	.LBB60_668
	leaq	(%r8,%rdi), %rsi
	jmp	.LBB60_670
.LBB60_655:
	movq	%rdx, %rdi
	movq	%r12, %rsi
	ud2
.LBB60_656:
	movq	%r14, %rdi
	movq	%r12, %rsi
	ud2
.LBB60_657:
	cmpb	$-126, %dil
	jne	.LBB60_662
	cmpq	$1, %rdx
	jbe	.LBB60_668
	movzbl	2(%rcx), %esi
	testq	%rsi, %rsi
	je	.LBB60_668
	leaq	-4(%rax), %rdx
	shll	$8, %esi
	movzbl	3(%rcx), %edi
	orq	%rsi, %rdi
	subq	%rdi, %rdx
	jb	.LBB60_668
	addq	$4, %rcx
	jmp	.LBB60_667
.LBB60_662:
	testq	%rdx, %rdx
	je	.LBB60_668
	cmpb	$-127, %dil
	jne	.LBB60_668
	movzbl	(%r8), %edi
	testb	%dil, %dil
	jns	.LBB60_668
	leaq	-3(%rax), %rdx
	subq	%rdi, %rdx
	jb	.LBB60_668
	addq	$3, %rcx
.LBB60_667:
	leaq	(%rcx,%rdi), %rsi
	movq	%rcx, %r8
	jmp	.LBB60_671
.LBB60_668:
	leaq	4800(%rsp), %rdi
	movq	%rcx, %rsi
	movq	%rax, %rdx
	movl	$2, %ecx
	callq	_RNvNtNtNtCs00000000001_10pkcs1_tool6proved8der_core5split14split_unlikely
	movq	4800(%rsp), %r8
	testq	%r8, %r8
	je	.LBB60_697
	movq	4808(%rsp), %rdi
	movq	4816(%rsp), %rsi
	movq	4824(%rsp), %rdx
.LBB60_670:
	testq	%rdi, %rdi
	je	.LBB60_696
.LBB60_671:
	cmpb	$0, (%r8)
	je	.LBB60_673
	movq	32(%rsp), %rbx
	movq	8(%rsp), %r9
	jns	.LBB60_675
	jmp	.LBB60_495
.LBB60_673:
	cmpq	$1, %rdi
	movq	32(%rsp), %rbx
	movq	8(%rsp), %r9
	je	.LBB60_675
	movl	$516, %edi
	cmpb	$0, 1(%r8)
	jns	.LBB60_444
.LBB60_675:
	cmpq	$2, %rdx
	jb	.LBB60_691
	cmpb	$2, (%rsi)
	jne	.LBB60_691
	leaq	2(%rsi), %r8
	leaq	-2(%rdx), %rax
	movsbq	1(%rsi), %rcx
	testq	%rcx, %rcx
	js	.LBB60_680
	subq	%rcx, %rax
	jb	.LBB60_691
	leaq	(%r8,%rcx), %rdx
	jmp	.LBB60_693
.LBB60_680:
	cmpb	$-126, %cl
	jne	.LBB60_685
	cmpq	$1, %rax
	jbe	.LBB60_691
	movzbl	2(%rsi), %edi
	testq	%rdi, %rdi
	je	.LBB60_691
	leaq	-4(%rdx), %rax
	shll	$8, %edi
	movzbl	3(%rsi), %ecx
	orq	%rdi, %rcx
	subq	%rcx, %rax
	jb	.LBB60_691
	addq	$4, %rsi
	jmp	.LBB60_690
.LBB60_685:
	testq	%rax, %rax
	je	.LBB60_691
	cmpb	$-127, %cl
	jne	.LBB60_691
	movzbl	(%r8), %ecx
	testb	%cl, %cl
	jns	.LBB60_691
	leaq	-3(%rdx), %rax
	subq	%rcx, %rax
	jb	.LBB60_691
	addq	$3, %rsi
.LBB60_690:
	leaq	(%rsi,%rcx), %rdx
	movq	%rsi, %r8
	jmp	.LBB60_694
.LBB60_691:
	leaq	4800(%rsp), %rdi
	movl	$2, %ecx
	callq	_RNvNtNtNtCs00000000001_10pkcs1_tool6proved8der_core5split14split_unlikely
	movq	4800(%rsp), %r8
	testq	%r8, %r8
	je	.LBB60_697
	movq	4808(%rsp), %rcx
	movq	4816(%rsp), %rdx
	movq	4824(%rsp), %rax
.LBB60_693:
	testq	%rcx, %rcx
	je	.LBB60_696
.LBB60_694:
	cmpb	$0, (%r8)
	je	.LBB60_701
	movq	32(%rsp), %rbx
	movq	8(%rsp), %r9
	jns	.LBB60_703
.LBB60_495:
	movl	$525, %edi
	jmp	.LBB60_444
.LBB60_696:
	movl	$515, %edi
	jmp	.LBB60_699
.LBB60_697:
	movzwl	4808(%rsp), %eax
	movzbl	4810(%rsp), %edi
.LBB60_698:
	shll	$16, %edi
	orq	%rax, %rdi
.LBB60_699:
	movq	32(%rsp), %rbx
.LBB60_700:
	movq	8(%rsp), %r9
	jmp	.LBB60_444
.LBB60_701:
	cmpq	$1, %rcx
	movq	32(%rsp), %rbx
	movq	8(%rsp), %r9
	je	.LBB60_703
	movl	$516, %edi
	cmpb	$0, 1(%r8)
	jns	.LBB60_444
.LBB60_703:
	testq	%rax, %rax
	je	.LBB60_705
	movzbl	%r14b, %ecx
	andl	$1, %ecx
	leaq	4800(%rsp), %rdi
	movq	%rdx, %rsi
	movq	%rax, %rdx
	jmp	.LBB60_707
.LBB60_705:
	testb	$1, %r14b
	je	.LBB60_709
	leaq	4800(%rsp), %rdi
	movq	%rdx, %rsi
	xorl	%edx, %edx
	movl	$1, %ecx
.LBB60_707:
	callq	_RNvNtNtNtCs00000000001_10pkcs1_tool6proved5pkcs110viewed_key9read_list
	cmpb	$1, 4800(%rsp)
	jne	.LBB60_709
	movzwl	4801(%rsp), %eax
	movzbl	4803(%rsp), %edi
	jmp	.LBB60_698
.LBB60_709:
	testq	%r15, %r15
	movq	32(%rsp), %rbx
	movq	72(%rsp), %r8
	movq	8(%rsp), %r9
	je	.LBB60_446
	movb	$12, %dil
	jmp	.LBB60_711
.LBB60_721:
	movl	$39, %esi
	movq	%rdx, %rdi
	ud2
.LBB60_722:
	movl	$39, %esi
	ud2
.Lfunc_end60:
	.size	_RNvNtNtCs00000000001_10pkcs1_tool4tool10pkcs1_tool4main, .Lfunc_end60-_RNvNtNtCs00000000001_10pkcs1_tool4tool10pkcs1_tool4main
	.cfi_endproc
	.section	.rodata._RNvNtNtCs00000000001_10pkcs1_tool4tool10pkcs1_tool4main,"a",@progbits
	.p2align	2, 0x0
.LJTI60_0:
	.long	.LBB60_455-.LJTI60_0
	.long	.LBB60_469-.LJTI60_0
	.long	.LBB60_456-.LJTI60_0
	.long	.LBB60_458-.LJTI60_0
.LJTI60_1:
	.long	.LBB60_343-.LJTI60_1
	.long	.LBB60_362-.LJTI60_1
	.long	.LBB60_353-.LJTI60_1
	.long	.LBB60_355-.LJTI60_1
.LJTI60_2:
	.long	.LBB60_193-.LJTI60_2
	.long	.LBB60_117-.LJTI60_2
	.long	.LBB60_119-.LJTI60_2
	.long	.LBB60_194-.LJTI60_2
	.long	.LBB60_194-.LJTI60_2
	.long	.LBB60_194-.LJTI60_2
	.long	.LBB60_121-.LJTI60_2
	.long	.LBB60_122-.LJTI60_2
	.long	.LBB60_115-.LJTI60_2
	.long	.LBB60_133-.LJTI60_2

	.section	.text._ZN4core3ffi5c_str4CStr20from_bytes_until_nul17h0000000000000005E,"ax",@progbits
	.p2align	4, 0x90
	.type	_ZN4core3ffi5c_str4CStr20from_bytes_until_nul17h0000000000000005E,@function
_ZN4core3ffi5c_str4CStr20from_bytes_until_nul17h0000000000000005E:
	.cfi_startproc
	endbr64
	movq	%rdi, %rax
	leaq	7(%rdi), %rcx
	andq	$-8, %rcx
	subq	%rdi, %rcx
	jne	.LBB61_2
	xorl	%ecx, %ecx
	jmp	.LBB61_5
.LBB61_2:
	xorl	%edx, %edx
	.p2align	4, 0x90
.LBB61_3:
	cmpb	$0, (%rax,%rdx)
	je	.LBB61_11
	incq	%rdx
	cmpq	%rdx, %rcx
	jne	.LBB61_3
.LBB61_5:
	movabsq	$-9187201950435737472, %rdx
	movabsq	$72340172838076672, %rsi
	.p2align	4, 0x90
.LBB61_6:
	movq	(%rax,%rcx), %rdi
	movq	8(%rax,%rcx), %r8
	movq	%rsi, %r9
	subq	%rdi, %r9
	orq	%rdi, %r9
	movq	%rsi, %rdi
	subq	%r8, %rdi
	orq	%r8, %rdi
	andq	%rdx, %r9
	andq	%rdi, %r9
	cmpq	%rdx, %r9
	jne	.LBB61_10
	leaq	16(%rcx), %r9
	cmpq	$4064, %rcx
	movq	%r9, %rcx
	jbe	.LBB61_6
	movq	%r9, %rdi
	subq	$4096, %rdi
	jne	.LBB61_12
	xorl	%esi, %esi
	testq	%rsi, %rsi
	cmoveq	%rsi, %rax
	incq	%rdx
	retq
.LBB61_10:
	leaq	(%rax,%rcx), %r8
	movl	$4096, %edi
	subq	%rcx, %rdi
	jmp	.LBB61_13
.LBB61_11:
	movl	$1, %esi
	testq	%rsi, %rsi
	cmoveq	%rsi, %rax
	incq	%rdx
	retq
.LBB61_12:
	leaq	(%rax,%r9), %r8
	negq	%rdi
	movq	%r9, %rcx
.LBB61_13:
	pushq	%rbp
	.cfi_def_cfa_offset 16
	.cfi_offset %rbp, -16
	movq	%rsp, %rbp
	.cfi_def_cfa_register %rbp
	xorl	%esi, %esi
	xorl	%edx, %edx
	.p2align	4, 0x90
.LBB61_14:
	cmpb	$0, (%r8,%rdx)
	je	.LBB61_18
	incq	%rdx
	cmpq	%rdx, %rdi
	jne	.LBB61_14
	jmp	.LBB61_17
.LBB61_18:
	addq	%rcx, %rdx
	movl	$1, %esi
.LBB61_17:
	popq	%rbp
	.cfi_def_cfa %rsp, 8
	.cfi_restore %rbp
	testq	%rsi, %rsi
	cmoveq	%rsi, %rax
	incq	%rdx
	retq
.Lfunc_end61:
	.size	_ZN4core3ffi5c_str4CStr20from_bytes_until_nul17h0000000000000005E, .Lfunc_end61-_ZN4core3ffi5c_str4CStr20from_bytes_until_nul17h0000000000000005E
	.cfi_endproc

	.section	.text.unlikely._ZN5alloc7raw_vec11finish_grow17h0000000000000001E.llvm.1,"ax",@progbits
	.p2align	4, 0x90
	.type	_ZN5alloc7raw_vec11finish_grow17h0000000000000001E.llvm.1,@function
_ZN5alloc7raw_vec11finish_grow17h0000000000000001E.llvm.1:
	.cfi_startproc
	endbr64
	pushq	%rbp
	.cfi_def_cfa_offset 16
	.cfi_offset %rbp, -16
	movq	%rsp, %rbp
	.cfi_def_cfa_register %rbp
	pushq	%r14
	pushq	%rbx
	.cfi_offset %rbx, -32
	.cfi_offset %r14, -24
	movq	%rsi, %r14
	movq	%rdi, %rbx
	cmpq	$0, 8(%rdx)
	je	.LBB62_3
	cmpq	$0, 16(%rdx)
	je	.LBB62_3
	movq	(%rdx), %rdi
	movq	%r14, %rsi
	callq	realloc
	jmp	.LBB62_4
.LBB62_3:
	movzbl	__rust_no_alloc_shim_is_unstable(%rip), %eax
	movq	%r14, %rdi
	callq	malloc
.LBB62_4:
	xorl	%ecx, %ecx
	testq	%rax, %rax
	movl	$1, %edx
	cmovneq	%rax, %rdx
	sete	%cl
	movq	%rdx, 8(%rbx)
	movq	%r14, 16(%rbx)
	movq	%rcx, (%rbx)
	popq	%rbx
	popq	%r14
	popq	%rbp
	.cfi_def_cfa %rsp, 8
	retq
.Lfunc_end62:
	.size	_ZN5alloc7raw_vec11finish_grow17h0000000000000001E.llvm.1, .Lfunc_end62-_ZN5alloc7raw_vec11finish_grow17h0000000000000001E.llvm.1
	.cfi_endproc

	.section	".text._ZN4core3fmt3num52_$LT$impl$u20$core..fmt..LowerHex$u20$for$u20$i8$GT$3fmt17h0000000000000002E","ax",@progbits
	.p2align	4, 0x90
	.type	_ZN4core3fmt3num52_$LT$impl$u20$core..fmt..LowerHex$u20$for$u20$i8$GT$3fmt17h0000000000000002E,@function
_ZN4core3fmt3num52_$LT$impl$u20$core..fmt..LowerHex$u20$for$u20$i8$GT$3fmt17h0000000000000002E:
	.cfi_startproc
	endbr64
	pushq	%rbp
	.cfi_def_cfa_offset 16
	.cfi_offset %rbp, -16
	movq	%rsp, %rbp
	.cfi_def_cfa_register %rbp
	subq	$128, %rsp
	movq	%rsi, %rax
	movzbl	(%rdi), %ecx
	movl	$129, %edi
	movl	%ecx, %esi
	.p2align	4, 0x90
.LBB63_1:
	movq	%rdi, %rdx
	shrb	$4, %sil
	movl	%ecx, %edi
	andb	$15, %dil
	leal	48(%rdi), %r8d
	leal	87(%rdi), %r9d
	cmpb	$10, %dil
	movzbl	%r8b, %edi
	movzbl	%r9b, %r8d
	cmovbl	%edi, %r8d
	movb	%r8b, -130(%rbp,%rdx)
	leaq	-1(%rdx), %rdi
	cmpb	$15, %cl
	movl	%esi, %ecx
	ja	.LBB63_1
	addq	$-2, %rdx
	leaq	(%rdx,%rbp), %rcx
	addq	$-128, %rcx
	movl	$129, %r8d
	subq	%rdi, %r8
	leaq	.Lanon.60(%rip), %rsi
	movl	$2, %edx
	movq	%rax, %rdi
	callq	_ZN4core3fmt9Formatter12pad_integral17h0000000000000008E
	addq	$128, %rsp
	popq	%rbp
	.cfi_def_cfa %rsp, 8
	retq
.Lfunc_end63:
	.size	_ZN4core3fmt3num52_$LT$impl$u20$core..fmt..LowerHex$u20$for$u20$i8$GT$3fmt17h0000000000000002E, .Lfunc_end63-_ZN4core3fmt3num52_$LT$impl$u20$core..fmt..LowerHex$u20$for$u20$i8$GT$3fmt17h0000000000000002E
	.cfi_endproc

	.section	".text._ZN4core3fmt3num53_$LT$impl$u20$core..fmt..LowerHex$u20$for$u20$i64$GT$3fmt17h0000000000000006E","ax",@progbits
	.p2align	4, 0x90
	.type	_ZN4core3fmt3num53_$LT$impl$u20$core..fmt..LowerHex$u20$for$u20$i64$GT$3fmt17h0000000000000006E,@function
_ZN4core3fmt3num53_$LT$impl$u20$core..fmt..LowerHex$u20$for$u20$i64$GT$3fmt17h0000000000000006E:
	.cfi_startproc
	endbr64
	pushq	%rbp
	.cfi_def_cfa_offset 16
	.cfi_offset %rbp, -16
	movq	%rsp, %rbp
	.cfi_def_cfa_register %rbp
	subq	$128, %rsp
	movq	%rsi, %rax
	movq	(%rdi), %rcx
	movl	$129, %edi
	movq	%rcx, %rsi
	.p2align	4, 0x90
.LBB64_1:
	movq	%rdi, %rdx
	shrq	$4, %rsi
	movl	%ecx, %edi
	andb	$15, %dil
	leal	48(%rdi), %r8d
	leal	87(%rdi), %r9d
	cmpb	$10, %dil
	movzbl	%r8b, %edi
	movzbl	%r9b, %r8d
	cmovbl	%edi, %r8d
	movb	%r8b, -130(%rbp,%rdx)
	leaq	-1(%rdx), %rdi
	cmpq	$15, %rcx
	movq	%rsi, %rcx
	ja	.LBB64_1
	addq	$-2, %rdx
	leaq	(%rdx,%rbp), %rcx
	addq	$-128, %rcx
	movl	$129, %r8d
	subq	%rdi, %r8
	leaq	.Lanon.60(%rip), %rsi
	movl	$2, %edx
	movq	%rax, %rdi
	callq	_ZN4core3fmt9Formatter12pad_integral17h0000000000000008E
	addq	$128, %rsp
	popq	%rbp
	.cfi_def_cfa %rsp, 8
	retq
.Lfunc_end64:
	.size	_ZN4core3fmt3num53_$LT$impl$u20$core..fmt..LowerHex$u20$for$u20$i64$GT$3fmt17h0000000000000006E, .Lfunc_end64-_ZN4core3fmt3num53_$LT$impl$u20$core..fmt..LowerHex$u20$for$u20$i64$GT$3fmt17h0000000000000006E
	.cfi_endproc

	.section	.text._ZN4core3fmt5write17h0000000000000000E,"ax",@progbits
	.p2align	4, 0x90
	.type	_ZN4core3fmt5write17h0000000000000000E,@function
_ZN4core3fmt5write17h0000000000000000E:
	.cfi_startproc
	endbr64
	pushq	%rbp
	.cfi_def_cfa_offset 16
	.cfi_offset %rbp, -16
	movq	%rsp, %rbp
	.cfi_def_cfa_register %rbp
	pushq	%r15
	pushq	%r14
	pushq	%r13
	pushq	%r12
	pushq	%rbx
	subq	$88, %rsp
	.cfi_offset %rbx, -56
	.cfi_offset %r12, -48
	.cfi_offset %r13, -40
	.cfi_offset %r14, -32
	.cfi_offset %r15, -24
	movq	$0, -120(%rbp)
	movq	$0, -104(%rbp)
	movq	$32, -88(%rbp)
	movb	$3, -80(%rbp)
	movq	%rdi, -72(%rbp)
	movq	%rsi, -64(%rbp)
	movq	32(%rdx), %r12
	testq	%r12, %r12
	movq	%rdx, -56(%rbp)
	je	.LBB65_1
	movq	40(%rdx), %rax
	testq	%rax, %rax
	je	.LBB65_4
	movq	(%rdx), %r13
	movq	16(%rdx), %r14
	addq	$8, %r13
	imulq	$56, %rax, %rax
	movq	%rax, -48(%rbp)
	xorl	%ebx, %ebx
	xorl	%r15d, %r15d
	.p2align	4, 0x90
.LBB65_12:
	movq	(%r13), %rdx
	testq	%rdx, %rdx
	je	.LBB65_14
	movq	-72(%rbp), %rdi
	movq	-64(%rbp), %rax
	movq	-8(%r13), %rsi
	callq	*24(%rax)
	testb	%al, %al
	jne	.LBB65_10
.LBB65_14:
	movl	40(%r12,%rbx), %eax
	movl	%eax, -88(%rbp)
	movzbl	48(%r12,%rbx), %eax
	movb	%al, -80(%rbp)
	movl	44(%r12,%rbx), %eax
	movl	%eax, -84(%rbp)
	movq	16(%r12,%rbx), %rcx
	movq	24(%r12,%rbx), %rax
	testq	%rcx, %rcx
	je	.LBB65_19
	cmpl	$1, %ecx
	jne	.LBB65_16
	shlq	$4, %rax
	cmpq	$0, (%r14,%rax)
	je	.LBB65_18
.LBB65_16:
	xorl	%ecx, %ecx
	jmp	.LBB65_20
.LBB65_18:
	addq	%r14, %rax
	movq	8(%rax), %rax
.LBB65_19:
	movl	$1, %ecx
.LBB65_20:
	movq	%rcx, -120(%rbp)
	movq	%rax, -112(%rbp)
	movq	(%r12,%rbx), %rcx
	cmpq	$2, %rcx
	je	.LBB65_21
	movq	8(%r12,%rbx), %rax
	cmpl	$1, %ecx
	jne	.LBB65_25
	shlq	$4, %rax
	cmpq	$0, (%r14,%rax)
	je	.LBB65_24
.LBB65_21:
	xorl	%ecx, %ecx
	jmp	.LBB65_26
.LBB65_24:
	addq	%r14, %rax
	movq	8(%rax), %rax
.LBB65_25:
	movl	$1, %ecx
.LBB65_26:
	movq	%rcx, -104(%rbp)
	movq	%rax, -96(%rbp)
	movq	32(%r12,%rbx), %rax
	shlq	$4, %rax
	movq	(%r14,%rax), %rdi
	leaq	-120(%rbp), %rsi
	callq	*8(%r14,%rax)
	testb	%al, %al
	jne	.LBB65_10
	addq	$16, %r13
	addq	$56, %rbx
	incq	%r15
	cmpq	%rbx, -48(%rbp)
	jne	.LBB65_12
	jmp	.LBB65_28
.LBB65_1:
	movq	24(%rdx), %rbx
	testq	%rbx, %rbx
	je	.LBB65_2
	movq	16(%rdx), %rax
	shlq	$4, %rbx
	movq	%rax, -48(%rbp)
	addq	%rax, %rbx
	movq	(%rdx), %r13
	xorl	%r14d, %r14d
	xorl	%r15d, %r15d
	.p2align	4, 0x90
.LBB65_6:
	movq	8(%r13,%r14), %rdx
	testq	%rdx, %rdx
	je	.LBB65_8
	movq	-72(%rbp), %rdi
	movq	-64(%rbp), %rax
	movq	(%r13,%r14), %rsi
	callq	*24(%rax)
	testb	%al, %al
	jne	.LBB65_10
.LBB65_8:
	movq	-48(%rbp), %rax
	leaq	(%rax,%r14), %r12
	movq	(%r12), %rdi
	leaq	-120(%rbp), %rsi
	callq	*8(%r12)
	testb	%al, %al
	jne	.LBB65_10
	addq	$16, %r14
	addq	$16, %r12
	incq	%r15
	cmpq	%rbx, %r12
	jne	.LBB65_6
	jmp	.LBB65_28
.LBB65_4:
	xorl	%r15d, %r15d
.LBB65_28:
	movq	-56(%rbp), %rax
	cmpq	8(%rax), %r15
	jae	.LBB65_30
.LBB65_29:
	movq	-56(%rbp), %rax
	movq	(%rax), %rax
	shlq	$4, %r15
	movq	-72(%rbp), %rdi
	movq	-64(%rbp), %rcx
	movq	(%rax,%r15), %rsi
	movq	8(%rax,%r15), %rdx
	callq	*24(%rcx)
	testb	%al, %al
	je	.LBB65_30
.LBB65_10:
	movb	$1, %al
	jmp	.LBB65_31
.LBB65_2:
	xorl	%r15d, %r15d
	movq	-56(%rbp), %rax
	cmpq	8(%rax), %r15
	jb	.LBB65_29
.LBB65_30:
	xorl	%eax, %eax
.LBB65_31:
	addq	$88, %rsp
	popq	%rbx
	popq	%r12
	popq	%r13
	popq	%r14
	popq	%r15
	popq	%rbp
	.cfi_def_cfa %rsp, 8
	retq
.Lfunc_end65:
	.size	_ZN4core3fmt5write17h0000000000000000E, .Lfunc_end65-_ZN4core3fmt5write17h0000000000000000E
	.cfi_endproc

	.section	.text._ZN4core3fmt9Formatter12pad_integral17h0000000000000008E,"ax",@progbits
	.p2align	4, 0x90
	.type	_ZN4core3fmt9Formatter12pad_integral17h0000000000000008E,@function
_ZN4core3fmt9Formatter12pad_integral17h0000000000000008E:
	.cfi_startproc
	endbr64
	pushq	%rbp
	.cfi_def_cfa_offset 16
	.cfi_offset %rbp, -16
	movq	%rsp, %rbp
	.cfi_def_cfa_register %rbp
	pushq	%r15
	pushq	%r14
	pushq	%r13
	pushq	%r12
	pushq	%rbx
	subq	$56, %rsp
	.cfi_offset %rbx, -56
	.cfi_offset %r12, -48
	.cfi_offset %r13, -40
	.cfi_offset %r14, -32
	.cfi_offset %r15, -24
	movq	%r8, %r13
	movq	%rdx, %r15
	movl	36(%rdi), %eax
	movl	%eax, %r9d
	andl	$1, %r9d
	movl	$1114112, %edx
	movl	$43, %r10d
	cmovel	%edx, %r10d
	addq	%r8, %r9
	testb	$4, %al
	jne	.LBB66_2
	xorl	%r12d, %r12d
	testb	$1, (%rdi)
	movq	%rcx, -64(%rbp)
	jne	.LBB66_10
	jmp	.LBB66_8
.LBB66_2:
	movq	%rsi, %r12
	testq	%r15, %r15
	je	.LBB66_3
	xorl	%esi, %esi
	xorl	%edx, %edx
	.p2align	4, 0x90
.LBB66_5:
	xorl	%r8d, %r8d
	cmpb	$-64, (%r12,%rsi)
	setge	%r8b
	addq	%r8, %rdx
	incq	%rsi
	cmpq	%rsi, %r15
	jne	.LBB66_5
	jmp	.LBB66_6
.LBB66_3:
	xorl	%edx, %edx
.LBB66_6:
	addq	%rdx, %r9
	testb	$1, (%rdi)
	movq	%rcx, -64(%rbp)
	je	.LBB66_8
.LBB66_10:
	movq	8(%rdi), %r14
	subq	%r9, %r14
	jbe	.LBB66_8
	movq	%r13, -88(%rbp)
	testb	$8, %al
	jne	.LBB66_21
	movl	40(%rdi), %eax
	cmpb	$3, %al
	movl	$1, %edx
	cmovnel	%eax, %edx
	movzbl	%dl, %r13d
	testb	%r13b, %r13b
	movl	%r10d, -76(%rbp)
	je	.LBB66_16
	cmpl	$1, %r13d
	jne	.LBB66_15
	movq	%r14, %r13
	movq	$0, -56(%rbp)
	jmp	.LBB66_17
.LBB66_8:
	movl	%r10d, %edx
	movq	48(%rdi), %rbx
	movq	56(%rdi), %r14
	movq	%rbx, %rdi
	movq	%r14, %rsi
	movq	%r12, %rcx
	movq	%r15, %r8
	callq	_ZN4core3fmt9Formatter12pad_integral12write_prefix17h0000000000000009E
	movb	$1, %r15b
	testb	%al, %al
	je	.LBB66_9
.LBB66_34:
	movl	%r15d, %eax
	addq	$56, %rsp
	popq	%rbx
	popq	%r12
	popq	%r13
	popq	%r14
	popq	%r15
	popq	%rbp
	.cfi_def_cfa %rsp, 8
	retq
.LBB66_9:
	.cfi_def_cfa %rbp, 16
	movq	24(%r14), %rax
	movq	%rbx, %rdi
	movq	-64(%rbp), %rsi
	movq	%r13, %rdx
	addq	$56, %rsp
	popq	%rbx
	popq	%r12
	popq	%r13
	popq	%r14
	popq	%r15
	popq	%rbp
	.cfi_def_cfa %rsp, 8
	jmpq	*%rax
.LBB66_21:
	.cfi_def_cfa %rbp, 16
	movl	32(%rdi), %eax
	movl	%eax, -56(%rbp)
	movl	$48, 32(%rdi)
	movzbl	40(%rdi), %eax
	movb	%al, -41(%rbp)
	movb	$1, 40(%rdi)
	movq	48(%rdi), %r13
	movq	%rdi, -72(%rbp)
	movl	%r10d, %edx
	movq	56(%rdi), %rbx
	movq	%r13, %rdi
	movq	%rbx, %rsi
	movq	%r12, %rcx
	movq	%r15, %r8
	callq	_ZN4core3fmt9Formatter12pad_integral12write_prefix17h0000000000000009E
	movb	$1, %r15b
	testb	%al, %al
	jne	.LBB66_34
	incq	%r14
	.p2align	4, 0x90
.LBB66_23:
	decq	%r14
	je	.LBB66_32
	movq	%r13, %rdi
	movl	$48, %esi
	callq	*32(%rbx)
	testb	%al, %al
	je	.LBB66_23
	jmp	.LBB66_34
.LBB66_15:
	movq	%r14, %r13
	shrq	%r13
	incq	%r14
	shrq	%r14
.LBB66_16:
	movq	%r14, -56(%rbp)
.LBB66_17:
	movq	48(%rdi), %rbx
	movq	56(%rdi), %r14
	movl	32(%rdi), %eax
	movl	%eax, -72(%rbp)
	incq	%r13
	.p2align	4, 0x90
.LBB66_18:
	decq	%r13
	je	.LBB66_25
	movq	%rbx, %rdi
	movl	-72(%rbp), %esi
	callq	*32(%r14)
	testb	%al, %al
	je	.LBB66_18
	movb	$1, %r15b
	jmp	.LBB66_34
.LBB66_25:
	movq	%rbx, %r13
	movq	%rbx, %rdi
	movq	%r14, %rbx
	movq	%r14, %rsi
	movl	-76(%rbp), %edx
	movq	%r12, %rcx
	movq	%r15, %r8
	callq	_ZN4core3fmt9Formatter12pad_integral12write_prefix17h0000000000000009E
	movb	$1, %r15b
	testb	%al, %al
	jne	.LBB66_34
	movq	%r13, %rdi
	movq	-64(%rbp), %rsi
	movq	-88(%rbp), %rdx
	callq	*24(%rbx)
	testb	%al, %al
	jne	.LBB66_34
	movq	-56(%rbp), %r14
	movq	%r14, %r12
	negq	%r12
	movq	$-1, %r15
	.p2align	4, 0x90
.LBB66_28:
	leaq	(%r12,%r15), %rax
	cmpq	$-1, %rax
	je	.LBB66_29
	movq	%r13, %rdi
	movl	-72(%rbp), %esi
	callq	*32(%rbx)
	incq	%r15
	testb	%al, %al
	je	.LBB66_28
	jmp	.LBB66_31
.LBB66_32:
	movq	%r13, %rdi
	movq	-64(%rbp), %rsi
	movq	-88(%rbp), %rdx
	callq	*24(%rbx)
	testb	%al, %al
	jne	.LBB66_34
	movq	-72(%rbp), %rax
	movl	-56(%rbp), %ecx
	movl	%ecx, 32(%rax)
	movzbl	-41(%rbp), %ecx
	movb	%cl, 40(%rax)
	xorl	%r15d, %r15d
	jmp	.LBB66_34
.LBB66_29:
	movq	%r14, %r15
.LBB66_31:
	cmpq	%r14, %r15
	setb	%r15b
	jmp	.LBB66_34
.Lfunc_end66:
	.size	_ZN4core3fmt9Formatter12pad_integral17h0000000000000008E, .Lfunc_end66-_ZN4core3fmt9Formatter12pad_integral17h0000000000000008E
	.cfi_endproc

	.section	.text._ZN4core3fmt9Formatter12pad_integral12write_prefix17h0000000000000009E,"ax",@progbits
	.p2align	4, 0x90
	.type	_ZN4core3fmt9Formatter12pad_integral12write_prefix17h0000000000000009E,@function
_ZN4core3fmt9Formatter12pad_integral12write_prefix17h0000000000000009E:
	.cfi_startproc
	endbr64
	pushq	%rbp
	.cfi_def_cfa_offset 16
	.cfi_offset %rbp, -16
	movq	%rsp, %rbp
	.cfi_def_cfa_register %rbp
	pushq	%r15
	pushq	%r14
	pushq	%r12
	pushq	%rbx
	.cfi_offset %rbx, -48
	.cfi_offset %r12, -40
	.cfi_offset %r14, -32
	.cfi_offset %r15, -24
	movq	%r8, %rbx
	movq	%rcx, %r14
	movq	%rsi, %r15
	cmpl	$1114112, %edx
	je	.LBB67_2
	movq	%rdi, %r12
	movl	%edx, %esi
	callq	*32(%r15)
	movq	%r12, %rdi
	movl	%eax, %ecx
	movb	$1, %al
	testb	%cl, %cl
	jne	.LBB67_4
.LBB67_2:
	testq	%r14, %r14
	je	.LBB67_3
	movq	24(%r15), %rax
	movq	%r14, %rsi
	movq	%rbx, %rdx
	popq	%rbx
	popq	%r12
	popq	%r14
	popq	%r15
	popq	%rbp
	.cfi_def_cfa %rsp, 8
	jmpq	*%rax
.LBB67_3:
	.cfi_def_cfa %rbp, 16
	xorl	%eax, %eax
.LBB67_4:
	popq	%rbx
	popq	%r12
	popq	%r14
	popq	%r15
	popq	%rbp
	.cfi_def_cfa %rsp, 8
	retq
.Lfunc_end67:
	.size	_ZN4core3fmt9Formatter12pad_integral12write_prefix17h0000000000000009E, .Lfunc_end67-_ZN4core3fmt9Formatter12pad_integral12write_prefix17h0000000000000009E
	.cfi_endproc

	.section	.text._ZN4core3str8converts9from_utf817h0000000000000004E,"ax",@progbits
	.p2align	4, 0x90
	.type	_ZN4core3str8converts9from_utf817h0000000000000004E,@function
_ZN4core3str8converts9from_utf817h0000000000000004E:
	.cfi_startproc
	endbr64
	pushq	%rbp
	.cfi_def_cfa_offset 16
	.cfi_offset %rbp, -16
	movq	%rsp, %rbp
	.cfi_def_cfa_register %rbp
	pushq	%r15
	pushq	%r14
	pushq	%rbx
	.cfi_offset %rbx, -40
	.cfi_offset %r14, -32
	.cfi_offset %r15, -24
	xorl	%ecx, %ecx
	movq	%rdx, %rax
	subq	$15, %rax
	cmovaeq	%rax, %rcx
	testq	%rdx, %rdx
	je	.LBB68_13
	leaq	7(%rsi), %r8
	andq	$-8, %r8
	subq	%rsi, %r8
	xorl	%eax, %eax
	leaq	.Lanon.61(%rip), %r10
	movabsq	$-9187201950435737472, %r11
	jmp	.LBB68_4
	.p2align	4, 0x90
.LBB68_2:
	incq	%r14
	movq	%r14, %rax
.LBB68_3:
	cmpq	%rdx, %rax
	jae	.LBB68_13
.LBB68_4:
	movzbl	(%rsi,%rax), %ebx
	testb	%bl, %bl
	js	.LBB68_14
	movl	%r8d, %r9d
	subl	%eax, %r9d
	testb	$7, %r9b
	je	.LBB68_8
	incq	%rax
	jmp	.LBB68_3
	.p2align	4, 0x90
.LBB68_7:
	addq	$16, %rax
.LBB68_8:
	cmpq	%rcx, %rax
	jae	.LBB68_10
	movq	8(%rsi,%rax), %r9
	orq	(%rsi,%rax), %r9
	testq	%r11, %r9
	je	.LBB68_7
.LBB68_10:
	cmpq	%rdx, %rax
	jae	.LBB68_3
	.p2align	4, 0x90
.LBB68_11:
	cmpb	$0, (%rsi,%rax)
	js	.LBB68_3
	incq	%rax
	cmpq	%rax, %rdx
	jne	.LBB68_11
	jmp	.LBB68_13
	.p2align	4, 0x90
.LBB68_14:
	movzbl	(%rbx,%r10), %r14d
	movb	$1, %r9b
	cmpl	$4, %r14d
	je	.LBB68_23
	cmpl	$3, %r14d
	je	.LBB68_19
	cmpl	$2, %r14d
	jne	.LBB68_45
	leaq	1(%rax), %r14
	cmpq	%rdx, %r14
	jae	.LBB68_41
	cmpb	$-65, (%rsi,%r14)
	movb	$1, %bl
	jle	.LBB68_2
	jmp	.LBB68_42
.LBB68_19:
	leaq	1(%rax), %r14
	cmpq	%rdx, %r14
	jae	.LBB68_41
	movzbl	(%rsi,%r14), %r14d
	cmpl	$224, %ebx
	je	.LBB68_44
	cmpl	$237, %ebx
	jne	.LBB68_27
	cmpb	$-97, %r14b
	jle	.LBB68_38
	jmp	.LBB68_45
.LBB68_23:
	leaq	1(%rax), %r14
	cmpq	%rdx, %r14
	jae	.LBB68_41
	movzbl	(%rsi,%r14), %r14d
	cmpq	$240, %rbx
	je	.LBB68_46
	cmpl	$244, %ebx
	jne	.LBB68_29
	cmpb	$-113, %r14b
	jle	.LBB68_31
	jmp	.LBB68_45
.LBB68_44:
	andb	$-32, %r14b
	cmpb	$-96, %r14b
	je	.LBB68_38
	jmp	.LBB68_45
.LBB68_46:
	addb	$112, %r14b
	cmpb	$48, %r14b
	jb	.LBB68_31
	jmp	.LBB68_45
.LBB68_27:
	leal	31(%rbx), %r15d
	cmpb	$12, %r15b
	jb	.LBB68_37
	andb	$-2, %bl
	cmpb	$-18, %bl
	jne	.LBB68_45
.LBB68_37:
	cmpb	$-64, %r14b
	jge	.LBB68_45
.LBB68_38:
	leaq	2(%rax), %r14
	cmpq	%rdx, %r14
	jae	.LBB68_41
	cmpb	$-65, (%rsi,%r14)
	jle	.LBB68_2
	jmp	.LBB68_40
.LBB68_29:
	addl	$15, %ebx
	cmpb	$2, %bl
	ja	.LBB68_45
	cmpb	$-64, %r14b
	jge	.LBB68_45
.LBB68_31:
	leaq	2(%rax), %rbx
	cmpq	%rdx, %rbx
	jae	.LBB68_41
	cmpb	$-65, (%rsi,%rbx)
	jg	.LBB68_40
	leaq	3(%rax), %r14
	cmpq	%rdx, %r14
	jae	.LBB68_41
	cmpb	$-65, (%rsi,%r14)
	jle	.LBB68_2
	movb	$3, %bl
	jmp	.LBB68_42
.LBB68_13:
	movq	%rsi, 8(%rdi)
	movq	%rdx, 16(%rdi)
	xorl	%eax, %eax
	jmp	.LBB68_43
.LBB68_41:
	xorl	%r9d, %r9d
	jmp	.LBB68_42
.LBB68_45:
	movb	$1, %bl
	jmp	.LBB68_42
.LBB68_40:
	movb	$2, %bl
.LBB68_42:
	movq	%rax, 8(%rdi)
	movb	%r9b, 16(%rdi)
	movb	%bl, 17(%rdi)
	movl	$1, %eax
.LBB68_43:
	movq	%rax, (%rdi)
	popq	%rbx
	popq	%r14
	popq	%r15
	popq	%rbp
	.cfi_def_cfa %rsp, 8
	retq
.Lfunc_end68:
	.size	_ZN4core3str8converts9from_utf817h0000000000000004E, .Lfunc_end68-_ZN4core3str8converts9from_utf817h0000000000000004E
	.cfi_endproc

	.section	".text._ZN59_$LT$core..fmt..Arguments$u20$as$u20$core..fmt..Display$GT$3fmt17h0000000000000007E","ax",@progbits
	.p2align	4, 0x90
	.type	_ZN59_$LT$core..fmt..Arguments$u20$as$u20$core..fmt..Display$GT$3fmt17h0000000000000007E,@function
_ZN59_$LT$core..fmt..Arguments$u20$as$u20$core..fmt..Display$GT$3fmt17h0000000000000007E:
	.cfi_startproc
	endbr64
	pushq	%rbp
	.cfi_def_cfa_offset 16
	.cfi_offset %rbp, -16
	movq	%rsp, %rbp
	.cfi_def_cfa_register %rbp
	movq	%rdi, %rdx
	movq	48(%rsi), %rdi
	movq	56(%rsi), %rsi
	popq	%rbp
	.cfi_def_cfa %rsp, 8
	jmp	_ZN4core3fmt5write17h0000000000000000E
.Lfunc_end69:
	.size	_ZN59_$LT$core..fmt..Arguments$u20$as$u20$core..fmt..Display$GT$3fmt17h0000000000000007E, .Lfunc_end69-_ZN59_$LT$core..fmt..Arguments$u20$as$u20$core..fmt..Display$GT$3fmt17h0000000000000007E
	.cfi_endproc

	.section	".text._ZN5alloc7raw_vec19RawVec$LT$T$C$A$GT$8grow_one17h0000000000000003E","ax",@progbits
	.p2align	4, 0x90
	.type	_ZN5alloc7raw_vec19RawVec$LT$T$C$A$GT$8grow_one17h0000000000000003E,@function
_ZN5alloc7raw_vec19RawVec$LT$T$C$A$GT$8grow_one17h0000000000000003E:
	.cfi_startproc
	endbr64
	pushq	%rbp
	.cfi_def_cfa_offset 16
	.cfi_offset %rbp, -16
	movq	%rsp, %rbp
	.cfi_def_cfa_register %rbp
	pushq	%r14
	pushq	%rbx
	subq	$48, %rsp
	.cfi_offset %rbx, -32
	.cfi_offset %r14, -24
	movq	(%rdi), %rax
	cmpq	$-1, %rax
	je	.LBB70_1
	leaq	1(%rax), %rcx
	leaq	(%rax,%rax), %rdx
	cmpq	%rcx, %rdx
	cmovaq	%rdx, %rcx
	cmpq	$9, %rcx
	movl	$8, %r14d
	cmovaeq	%rcx, %r14
	testq	%r14, %r14
	js	.LBB70_1
	movq	%rdi, %rbx
	testq	%rax, %rax
	jne	.LBB70_5
	xorl	%eax, %eax
	jmp	.LBB70_6
.LBB70_5:
	movq	8(%rbx), %rcx
	movq	%rcx, -64(%rbp)
	movq	%rax, -48(%rbp)
	movl	$1, %eax
.LBB70_6:
	movq	%rax, -56(%rbp)
	leaq	-40(%rbp), %rdi
	leaq	-64(%rbp), %rdx
	movq	%r14, %rsi
	callq	_ZN5alloc7raw_vec11finish_grow17h0000000000000001E.llvm.1
	cmpl	$1, -40(%rbp)
	je	.LBB70_7
	movq	-32(%rbp), %rax
	movq	%rax, 8(%rbx)
	movq	%r14, (%rbx)
	addq	$48, %rsp
	popq	%rbx
	popq	%r14
	popq	%rbp
	.cfi_def_cfa %rsp, 8
	retq
.LBB70_1:
	.cfi_def_cfa %rbp, 16
	xorl	%edi, %edi
	ud2
.LBB70_7:
	movq	-32(%rbp), %rdi
	movq	-24(%rbp), %rsi
	ud2
.Lfunc_end70:
	.size	_ZN5alloc7raw_vec19RawVec$LT$T$C$A$GT$8grow_one17h0000000000000003E, .Lfunc_end70-_ZN5alloc7raw_vec19RawVec$LT$T$C$A$GT$8grow_one17h0000000000000003E
	.cfi_endproc

	.type	.Lanon.0,@object
	.section	.data.rel.ro..Lanon.0,"aw",@progbits
	.p2align	3, 0x0
.Lanon.0:
	.asciz	"\000\000\000\000\000\000\000\000\020\000\000\000\000\000\000\000\b\000\000\000\000\000\000"
	.quad	_RNvXs0_NtNtCs00000000001_10pkcs1_tool10rattle_std2ioINtB5_4TextINtB5_8StandardKl2_EENtNtCs00000000000_4core3fmt5Write9write_strB9_
	.quad	_RNvYINtNtNtCs00000000001_10pkcs1_tool10rattle_std2io4TextINtB5_8StandardKl2_EENtNtCs00000000000_4core3fmt5Write10write_charB9_
	.quad	_RNvYINtNtNtCs00000000001_10pkcs1_tool10rattle_std2io4TextINtB5_8StandardKl2_EENtNtCs00000000000_4core3fmt5Write9write_fmtB9_
	.size	.Lanon.0, 48

	.type	.Lanon.1,@object
	.section	.data.rel.ro..Lanon.1,"aw",@progbits
	.p2align	3, 0x0
.Lanon.1:
	.quad	_RINvNtCs00000000000_4core3ptr13drop_in_placeNtNtNtCs00000000001_10pkcs1_tool10rattle_std4text6StringEBM_
	.asciz	"\030\000\000\000\000\000\000\000\b\000\000\000\000\000\000"
	.quad	_RNvXs0_NtNtCs00000000001_10pkcs1_tool10rattle_std4textNtB5_6StringNtNtCs00000000000_4core3fmt5Write9write_str
	.quad	_RNvYNtNtNtCs00000000001_10pkcs1_tool10rattle_std4text6StringNtNtCs00000000000_4core3fmt5Write10write_charB8_
	.quad	_RNvYNtNtNtCs00000000001_10pkcs1_tool10rattle_std4text6StringNtNtCs00000000000_4core3fmt5Write9write_fmtB8_
	.size	.Lanon.1, 48

	.type	.Lanon.10,@object
	.section	.rodata..Lanon.10,"a",@progbits
.Lanon.10:
	.ascii	"a read or a write failed"
	.size	.Lanon.10, 24

	.type	.Lanon.11,@object
	.section	.data.rel.ro..Lanon.11,"aw",@progbits
	.p2align	3, 0x0
.Lanon.11:
	.quad	.Lanon.63
	.asciz	"\024\000\000\000\000\000\000"
	.quad	.Lanon.64
	.asciz	"\024\000\000\000\000\000\000"
	.size	.Lanon.11, 32

	.type	.Lanon.12,@object
	.section	.rodata..Lanon.12,"a",@progbits
.Lanon.12:
	.ascii	"a length passes the limit"
	.size	.Lanon.12, 25

	.type	.Lanon.13,@object
	.section	.rodata..Lanon.13,"a",@progbits
.Lanon.13:
	.ascii	"the input ends too early"
	.size	.Lanon.13, 24

	.type	.Lanon.14,@object
	.section	.rodata..Lanon.14,"a",@progbits
.Lanon.14:
	.ascii	"the object identifier is malformed"
	.size	.Lanon.14, 34

	.type	.Lanon.15,@object
	.section	.data.rel.ro..Lanon.15,"aw",@progbits
	.p2align	3, 0x0
.Lanon.15:
	.quad	.Lanon.71
	.asciz	"\021\000\000\000\000\000\000"
	.quad	.Lanon.72
	.asciz	"\017\000\000\000\000\000\000"
	.size	.Lanon.15, 32

	.type	.Lanon.16,@object
	.section	.rodata..Lanon.16,"a",@progbits
.Lanon.16:
	.ascii	"the object identifier is another one"
	.size	.Lanon.16, 36

	.type	.Lanon.17,@object
	.section	.data.rel.ro..Lanon.17,"aw",@progbits
	.p2align	3, 0x0
.Lanon.17:
	.quad	.Lanon.66
	.asciz	"\004\000\000\000\000\000\000"
	.quad	.Lanon.67
	.asciz	"\017\000\000\000\000\000\000"
	.quad	.Lanon.68
	.asciz	"\n\000\000\000\000\000\000"
	.size	.Lanon.17, 48

	.type	.Lanon.18,@object
	.section	.rodata..Lanon.18,"a",@progbits
.Lanon.18:
	.ascii	"the length is not in shortest form"
	.size	.Lanon.18, 34

	.type	.Lanon.19,@object
	.section	.rodata.cst16,"aM",@progbits,16
	.p2align	3, 0x0
.Lanon.19:
	.quad	1
	.zero	8
	.size	.Lanon.19, 16

	.type	.Lanon.2,@object
	.section	.rodata..Lanon.2,"a",@progbits
.Lanon.2:
	.ascii	"an earlier read failed"
	.size	.Lanon.2, 22

	.type	.Lanon.20,@object
	.section	.data.rel.ro..Lanon.20,"aw",@progbits
	.p2align	3, 0x0
.Lanon.20:
	.quad	.Lanon.60
	.asciz	"\002\000\000\000\000\000\000"
	.size	.Lanon.20, 16

	.type	.Lanon.21,@object
	.section	.data.rel.ro..Lanon.21,"aw",@progbits
	.p2align	3, 0x0
.Lanon.21:
	.quad	.Lanon.73
	.asciz	"\024\000\000\000\000\000\000"
	.size	.Lanon.21, 16

	.type	.Lanon.22,@object
	.section	.rodata..Lanon.22,"a",@progbits
.Lanon.22:
	.ascii	"PKCS#1 cryptographic key data malformed"
	.size	.Lanon.22, 39

	.type	.Lanon.23,@object
	.section	.rodata..Lanon.23,"a",@progbits
.Lanon.23:
	.ascii	"PKCS#1 version error"
	.size	.Lanon.23, 20

	.type	.Lanon.24,@object
	.section	.rodata..Lanon.24,"a",@progbits
.Lanon.24:
	.ascii	"PKCS#1 cryptographic error"
	.size	.Lanon.24, 26

	.type	.Lanon.25,@object
	.section	.rodata..Lanon.25,"a",@progbits
.Lanon.25:
	.ascii	"+\016\003\002\032"
	.size	.Lanon.25, 5

	.type	.Lanon.26,@object
	.section	.rodata..Lanon.26,"a",@progbits
.Lanon.26:
	.ascii	"*\206H\206\367\r\001\001\b"
	.size	.Lanon.26, 9

	.type	.Lanon.27,@object
	.section	.rodata..Lanon.27,"a",@progbits
.Lanon.27:
	.ascii	"*\206H\206\367\r\001\001\t"
	.size	.Lanon.27, 9

	.type	.Lanon.28,@object
	.section	.rodata..Lanon.28,"a",@progbits
.Lanon.28:
	.ascii	"strict-pss"
	.size	.Lanon.28, 10

	.type	.Lanon.29,@object
	.section	.rodata..Lanon.29,"a",@progbits
.Lanon.29:
	.ascii	"strict-oaep"
	.size	.Lanon.29, 11

	.type	.Lanon.3,@object
	.section	.rodata..Lanon.3,"a",@progbits
.Lanon.3:
	.ascii	"no memory was found"
	.size	.Lanon.3, 19

	.type	.Lanon.30,@object
	.section	.rodata..Lanon.30,"a",@progbits
.Lanon.30:
	.ascii	"spell-pss"
	.size	.Lanon.30, 9

	.type	.Lanon.31,@object
	.section	.rodata..Lanon.31,"a",@progbits
.Lanon.31:
	.ascii	"spell-oaep"
	.size	.Lanon.31, 10

	.type	.Lanon.32,@object
	.section	.rodata..Lanon.32,"a",@progbits
.Lanon.32:
	.ascii	"a write failed"
	.size	.Lanon.32, 14

	.type	.Lanon.33,@object
	.section	.rodata..Lanon.33,"a",@progbits
.Lanon.33:
	.ascii	"it is a link to nothing"
	.size	.Lanon.33, 23

	.type	.Lanon.34,@object
	.section	.rodata.cst32,"aM",@progbits,32
.Lanon.34:
	.ascii	"no file can be created beside it"
	.size	.Lanon.34, 32

	.type	.Lanon.35,@object
	.section	.rodata..Lanon.35,"a",@progbits
.Lanon.35:
	.ascii	"it can't be opened"
	.size	.Lanon.35, 18

	.type	.Lanon.36,@object
	.section	.rodata..Lanon.36,"a",@progbits
.Lanon.36:
	.ascii	"the new file can't be renamed to it"
	.size	.Lanon.36, 35

	.type	.Lanon.37,@object
	.section	.rodata..Lanon.37,"a",@progbits
.Lanon.37:
	.ascii	"it is replaced, but its folder can't be synced"
	.size	.Lanon.37, 46

	.type	.Lanon.38,@object
	.section	.data.rel.ro..Lanon.38,"aw",@progbits
	.p2align	3, 0x0
.Lanon.38:
	.quad	.Lanon.76
	.asciz	"\b\000\000\000\000\000\000"
	.quad	.Lanon.75
	.asciz	"\002\000\000\000\000\000\000"
	.size	.Lanon.38, 32

	.type	.Lanon.39,@object
	.section	.data.rel.ro..Lanon.39,"aw",@progbits
	.p2align	3, 0x0
.Lanon.39:
	.quad	.Lanon.74
	.asciz	"\b\000\000\000\000\000\000"
	.quad	.Lanon.75
	.asciz	"\002\000\000\000\000\000\000"
	.size	.Lanon.39, 32

	.type	.Lanon.4,@object
	.section	.rodata..Lanon.4,"a",@progbits
.Lanon.4:
	.ascii	"the slice has no room"
	.size	.Lanon.4, 21

	.type	.Lanon.40,@object
	.section	.data.rel.ro..Lanon.40,"aw",@progbits
	.p2align	3, 0x0
.Lanon.40:
	.quad	.Lanon.77
	.asciz	"\006\000\000\000\000\000\000"
	.quad	.Lanon.78
	.asciz	"\021\000\000\000\000\000\000"
	.size	.Lanon.40, 32

	.type	.Lanon.41,@object
	.section	.rodata..Lanon.41,"a",@progbits
.Lanon.41:
	.ascii	"fault: write"
	.size	.Lanon.41, 12

	.type	.Lanon.42,@object
	.section	.rodata..Lanon.42,"a",@progbits
.Lanon.42:
	.ascii	"fault: read"
	.size	.Lanon.42, 11

	.type	.Lanon.43,@object
	.section	.rodata..Lanon.43,"a",@progbits
.Lanon.43:
	.ascii	"fault: memory"
	.size	.Lanon.43, 13

	.type	.Lanon.44,@object
	.section	.rodata..Lanon.44,"a",@progbits
.Lanon.44:
	.ascii	" n="
	.size	.Lanon.44, 3

	.type	.Lanon.45,@object
	.section	.rodata..Lanon.45,"a",@progbits
.Lanon.45:
	.ascii	" e="
	.size	.Lanon.45, 3

	.type	.Lanon.46,@object
	.section	.rodata..Lanon.46,"a",@progbits
.Lanon.46:
	.ascii	" d="
	.size	.Lanon.46, 3

	.type	.Lanon.47,@object
	.section	.rodata..Lanon.47,"a",@progbits
.Lanon.47:
	.ascii	" p="
	.size	.Lanon.47, 3

	.type	.Lanon.48,@object
	.section	.rodata..Lanon.48,"a",@progbits
.Lanon.48:
	.ascii	" q="
	.size	.Lanon.48, 3

	.type	.Lanon.49,@object
	.section	.rodata.cst4,"aM",@progbits,4
.Lanon.49:
	.ascii	" dp="
	.size	.Lanon.49, 4

	.type	.Lanon.5,@object
	.section	.data.rel.ro..Lanon.5,"aw",@progbits
	.p2align	3, 0x0
.Lanon.5:
	.quad	.Lanon.69
	.asciz	"\016\000\000\000\000\000\000"
	.quad	.Lanon.70
	.asciz	"\r\000\000\000\000\000\000"
	.size	.Lanon.5, 32

	.type	.Lanon.50,@object
.Lanon.50:
	.ascii	" dq="
	.size	.Lanon.50, 4

	.type	.Lanon.51,@object
.Lanon.51:
	.ascii	" qi="
	.size	.Lanon.51, 4

	.type	.Lanon.52,@object
	.section	.data.rel.ro..Lanon.52,"aw",@progbits
	.p2align	3, 0x0
.Lanon.52:
	.quad	.Lanon.96
	.asciz	"\f\000\000\000\000\000\000"
	.size	.Lanon.52, 16

	.type	.Lanon.53,@object
	.section	.rodata..Lanon.53,"a",@progbits
.Lanon.53:
	.byte	46
	.size	.Lanon.53, 1

	.type	.Lanon.54,@object
	.section	.rodata..Lanon.54,"a",@progbits
.Lanon.54:
	.ascii	"usage: pkcs1_tool [copy pub|priv IN OUT]"
	.size	.Lanon.54, 40

	.type	.Lanon.55,@object
	.section	.data.rel.ro..Lanon.55,"aw",@progbits
	.p2align	3, 0x0
.Lanon.55:
	.quad	1
	.zero	8
	.quad	.Lanon.62
	.asciz	"\001\000\000\000\000\000\000"
	.size	.Lanon.55, 32

	.type	.Lanon.56,@object
	.section	.data.rel.ro..Lanon.56,"aw",@progbits
	.p2align	3, 0x0
.Lanon.56:
	.quad	.Lanon.79
	.asciz	"\003\000\000\000\000\000\000\000"
	.zero	7
	.quad	.Lanon.84
	.ascii	"\004\000\000\000\000\000\000\000\001"
	.zero	7
	.quad	.Lanon.91
	.ascii	"\003\000\000\000\000\000\000\000\002"
	.zero	7
	.quad	.Lanon.94
	.ascii	"\004\000\000\000\000\000\000\000\003"
	.zero	7
	.quad	.Lanon.87
	.ascii	"\002\000\000\000\000\000\000\000\004"
	.zero	7
	.quad	.Lanon.30
	.ascii	"\t\000\000\000\000\000\000\000\005"
	.zero	7
	.quad	.Lanon.31
	.ascii	"\n\000\000\000\000\000\000\000\006"
	.zero	7
	.quad	.Lanon.28
	.ascii	"\n\000\000\000\000\000\000\000\007"
	.zero	7
	.quad	.Lanon.29
	.ascii	"\013\000\000\000\000\000\000\000\b"
	.zero	7
	.size	.Lanon.56, 216

	.type	.Lanon.57,@object
	.section	.data.rel.ro..Lanon.57,"aw",@progbits
	.p2align	3, 0x0
.Lanon.57:
	.quad	.Lanon.59
	.asciz	"\b\000\000\000\000\000\000\000"
	.zero	7
	.quad	.Lanon.58
	.ascii	"\t\000\000\000\000\000\000\000\001"
	.zero	7
	.size	.Lanon.57, 48

	.type	.Lanon.58,@object
	.section	.rodata..Lanon.58,"a",@progbits
.Lanon.58:
	.ascii	"same-oaep"
	.size	.Lanon.58, 9

	.type	.Lanon.59,@object
	.section	.rodata.cst8,"aM",@progbits,8
.Lanon.59:
	.ascii	"same-pss"
	.size	.Lanon.59, 8

	.type	.Lanon.6,@object
	.section	.data.rel.ro..Lanon.6,"aw",@progbits
	.p2align	3, 0x0
.Lanon.6:
	.quad	.Lanon.63
	.asciz	"\024\000\000\000\000\000\000"
	.quad	.Lanon.65
	.asciz	"\031\000\000\000\000\000\000"
	.size	.Lanon.6, 32

	.type	.Lanon.60,@object
	.section	.rodata..Lanon.60,"a",@progbits
.Lanon.60:
	.ascii	"0x"
	.size	.Lanon.60, 2

	.type	.Lanon.61,@object
	.section	.rodata..Lanon.61,"a",@progbits
.Lanon.61:
	.asciz	"\001\001\001\001\001\001\001\001\001\001\001\001\001\001\001\001\001\001\001\001\001\001\001\001\001\001\001\001\001\001\001\001\001\001\001\001\001\001\001\001\001\001\001\001\001\001\001\001\001\001\001\001\001\001\001\001\001\001\001\001\001\001\001\001\001\001\001\001\001\001\001\001\001\001\001\001\001\001\001\001\001\001\001\001\001\001\001\001\001\001\001\001\001\001\001\001\001\001\001\001\001\001\001\001\001\001\001\001\001\001\001\001\001\001\001\001\001\001\001\001\001\001\001\001\001\001\001\001\000\000\000\000\000\000\000\000\000\000\000\000\000\000\000\000\000\000\000\000\000\000\000\000\000\000\000\000\000\000\000\000\000\000\000\000\000\000\000\000\000\000\000\000\000\000\000\000\000\000\000\000\000\000\000\000\000\000\000\000\000\000\000\000\000\000\002\002\002\002\002\002\002\002\002\002\002\002\002\002\002\002\002\002\002\002\002\002\002\002\002\002\002\002\002\002\003\003\003\003\003\003\003\003\003\003\003\003\003\003\003\003\004\004\004\004\004\000\000\000\000\000\000\000\000\000\000"
	.size	.Lanon.61, 256

	.type	.Lanon.62,@object
	.section	.rodata..Lanon.62,"a",@progbits
.Lanon.62:
	.byte	10
	.size	.Lanon.62, 1

	.type	.Lanon.63,@object
	.section	.rodata..Lanon.63,"a",@progbits
.Lanon.63:
	.ascii	"the contents of tag "
	.size	.Lanon.63, 20

	.type	.Lanon.64,@object
	.section	.rodata..Lanon.64,"a",@progbits
.Lanon.64:
	.ascii	" have a wrong length"
	.size	.Lanon.64, 20

	.type	.Lanon.65,@object
	.section	.rodata..Lanon.65,"a",@progbits
.Lanon.65:
	.ascii	" are not in shortest form"
	.size	.Lanon.65, 25

	.type	.Lanon.66,@object
	.section	.rodata.cst4,"aM",@progbits,4
.Lanon.66:
	.ascii	"tag "
	.size	.Lanon.66, 4

	.type	.Lanon.67,@object
	.section	.rodata..Lanon.67,"a",@progbits
.Lanon.67:
	.ascii	" was expected, "
	.size	.Lanon.67, 15

	.type	.Lanon.68,@object
	.section	.rodata..Lanon.68,"a",@progbits
.Lanon.68:
	.ascii	" was found"
	.size	.Lanon.68, 10

	.type	.Lanon.69,@object
	.section	.rodata..Lanon.69,"a",@progbits
.Lanon.69:
	.ascii	"the tag octet "
	.size	.Lanon.69, 14

	.type	.Lanon.7,@object
	.section	.rodata..Lanon.7,"a",@progbits
.Lanon.7:
	.ascii	"bytes follow the value"
	.size	.Lanon.7, 22

	.type	.Lanon.70,@object
	.section	.rodata..Lanon.70,"a",@progbits
.Lanon.70:
	.ascii	" is not known"
	.size	.Lanon.70, 13

	.type	.Lanon.71,@object
	.section	.rodata..Lanon.71,"a",@progbits
.Lanon.71:
	.ascii	"the value of tag "
	.size	.Lanon.71, 17

	.type	.Lanon.72,@object
	.section	.rodata..Lanon.72,"a",@progbits
.Lanon.72:
	.ascii	" is not allowed"
	.size	.Lanon.72, 15

	.type	.Lanon.73,@object
	.section	.rodata..Lanon.73,"a",@progbits
.Lanon.73:
	.ascii	"PKCS#1 ASN.1 error: "
	.size	.Lanon.73, 20

	.type	.Lanon.74,@object
	.section	.rodata.cst8,"aM",@progbits,8
.Lanon.74:
	.ascii	"reading "
	.size	.Lanon.74, 8

	.type	.Lanon.75,@object
	.section	.rodata..Lanon.75,"a",@progbits
.Lanon.75:
	.ascii	": "
	.size	.Lanon.75, 2

	.type	.Lanon.76,@object
	.section	.rodata.cst8,"aM",@progbits,8
.Lanon.76:
	.ascii	"writing "
	.size	.Lanon.76, 8

	.type	.Lanon.77,@object
	.section	.rodata..Lanon.77,"a",@progbits
.Lanon.77:
	.ascii	", and "
	.size	.Lanon.77, 6

	.type	.Lanon.78,@object
	.section	.rodata..Lanon.78,"a",@progbits
.Lanon.78:
	.ascii	" can't be removed"
	.size	.Lanon.78, 17

	.type	.Lanon.79,@object
	.section	.rodata..Lanon.79,"a",@progbits
.Lanon.79:
	.ascii	"pub"
	.size	.Lanon.79, 3

	.type	.Lanon.8,@object
	.section	.rodata..Lanon.8,"a",@progbits
.Lanon.8:
	.ascii	"the algorithm parameters are missing"
	.size	.Lanon.8, 36

	.type	.Lanon.80,@object
	.section	.rodata..Lanon.80,"a",@progbits
.Lanon.80:
	.ascii	" again="
	.size	.Lanon.80, 7

	.type	.Lanon.81,@object
	.section	.rodata..Lanon.81,"a",@progbits
.Lanon.81:
	.ascii	" version=1"
	.size	.Lanon.81, 10

	.type	.Lanon.82,@object
	.section	.rodata..Lanon.82,"a",@progbits
.Lanon.82:
	.ascii	" version=0"
	.size	.Lanon.82, 10

	.type	.Lanon.83,@object
	.section	.rodata..Lanon.83,"a",@progbits
.Lanon.83:
	.ascii	" other="
	.size	.Lanon.83, 7

	.type	.Lanon.84,@object
	.section	.rodata.cst4,"aM",@progbits,4
.Lanon.84:
	.ascii	"priv"
	.size	.Lanon.84, 4

	.type	.Lanon.85,@object
	.section	.rodata..Lanon.85,"a",@progbits
.Lanon.85:
	.ascii	" attributes=-"
	.size	.Lanon.85, 13

	.type	.Lanon.86,@object
	.section	.rodata..Lanon.86,"a",@progbits
.Lanon.86:
	.ascii	" attributes="
	.size	.Lanon.86, 12

	.type	.Lanon.87,@object
	.section	.rodata..Lanon.87,"a",@progbits
.Lanon.87:
	.ascii	"p8"
	.size	.Lanon.87, 2

	.type	.Lanon.88,@object
	.section	.rodata..Lanon.88,"a",@progbits
.Lanon.88:
	.ascii	" hash="
	.size	.Lanon.88, 6

	.type	.Lanon.89,@object
	.section	.rodata..Lanon.89,"a",@progbits
.Lanon.89:
	.ascii	" mask="
	.size	.Lanon.89, 6

	.type	.Lanon.9,@object
	.section	.rodata..Lanon.9,"a",@progbits
.Lanon.9:
	.ascii	"the length is indefinite"
	.size	.Lanon.9, 24

	.type	.Lanon.90,@object
	.section	.rodata..Lanon.90,"a",@progbits
.Lanon.90:
	.ascii	" defaults="
	.size	.Lanon.90, 10

	.type	.Lanon.91,@object
	.section	.rodata..Lanon.91,"a",@progbits
.Lanon.91:
	.ascii	"pss"
	.size	.Lanon.91, 3

	.type	.Lanon.92,@object
	.section	.rodata..Lanon.92,"a",@progbits
.Lanon.92:
	.ascii	" salt="
	.size	.Lanon.92, 6

	.type	.Lanon.93,@object
	.section	.rodata..Lanon.93,"a",@progbits
.Lanon.93:
	.ascii	" trailer="
	.size	.Lanon.93, 9

	.type	.Lanon.94,@object
	.section	.rodata.cst4,"aM",@progbits,4
.Lanon.94:
	.ascii	"oaep"
	.size	.Lanon.94, 4

	.type	.Lanon.95,@object
.Lanon.95:
	.ascii	"copy"
	.size	.Lanon.95, 4

	.type	.Lanon.96,@object
	.section	.rodata..Lanon.96,"a",@progbits
.Lanon.96:
	.ascii	".pkcs1_tool."
	.size	.Lanon.96, 12

	.type	.Lanon.97,@object
	.section	.rodata..Lanon.97,"a",@progbits
.Lanon.97:
	.ascii	"refused"
	.size	.Lanon.97, 7

	.type	.Lanon.98,@object
	.section	.rodata..Lanon.98,"a",@progbits
.Lanon.98:
	.ascii	" no"
	.size	.Lanon.98, 3

	.type	_RNvNtNtCs00000000001_10pkcs1_tool10rattle_std7library8AN_OCTET,@object
	.section	.rodata._RNvNtNtCs00000000001_10pkcs1_tool10rattle_std7library8AN_OCTET,"a",@progbits
_RNvNtNtCs00000000001_10pkcs1_tool10rattle_std7library8AN_OCTET:
	.zero	1
	.size	_RNvNtNtCs00000000001_10pkcs1_tool10rattle_std7library8AN_OCTET, 1

	.type	__rust_no_alloc_shim_is_unstable,@object
	.section	.bss.__rust_no_alloc_shim_is_unstable,"aw",@nobits
__rust_no_alloc_shim_is_unstable:
	.byte	0
	.size	__rust_no_alloc_shim_is_unstable, 1

	.section	".note.GNU-stack","",@progbits
	.section	".note.gnu.property","a",@note
	.p2align	3
	.long	4
	.long	16
	.long	5
	.asciz	"GNU"
	.long	3221225474
	.long	4
	.long	3
	.long	0
