	.text
	.section	.text._RNvNtNtNtCs00000000000_7pkcs1_c5calls7pkcs1_c9algorithm17is_same_otherwise,"ax",@progbits
	.p2align	4, 0x90
	.type	_RNvNtNtNtCs00000000000_7pkcs1_c5calls7pkcs1_c9algorithm17is_same_otherwise,@function
_RNvNtNtNtCs00000000000_7pkcs1_c5calls7pkcs1_c9algorithm17is_same_otherwise:
	.cfi_startproc
	cmpq	%rcx, %rsi
	jne	.LBB0_1
	pushq	%rax
	.cfi_def_cfa_offset 16
	movq	%rsi, %rax
	movq	%rdx, %rsi
	movq	%rax, %rdx
	callq	memcmp
	testl	%eax, %eax
	sete	%al
	addq	$8, %rsp
	.cfi_def_cfa_offset 8
	retq
.LBB0_1:
	xorl	%eax, %eax
	retq
.Lfunc_end0:
	.size	_RNvNtNtNtCs00000000000_7pkcs1_c5calls7pkcs1_c9algorithm17is_same_otherwise, .Lfunc_end0-_RNvNtNtNtCs00000000000_7pkcs1_c5calls7pkcs1_c9algorithm17is_same_otherwise
	.cfi_endproc

	.section	.text._RNvNtNtNtCs00000000000_7pkcs1_c5calls7pkcs1_c9algorithm17is_hash_otherwise,"ax",@progbits
	.p2align	4, 0x90
	.type	_RNvNtNtNtCs00000000000_7pkcs1_c5calls7pkcs1_c9algorithm17is_hash_otherwise,@function
_RNvNtNtNtCs00000000000_7pkcs1_c5calls7pkcs1_c9algorithm17is_hash_otherwise:
	.cfi_startproc
	movq	%rdx, %rcx
	movq	%rsi, %rdx
	cmpb	$1, 16(%rdi)
	jne	.LBB1_3
	xorl	%eax, %eax
	cmpb	$5, 17(%rdi)
	jne	.LBB1_11
	cmpq	$0, 32(%rdi)
	jne	.LBB1_11
.LBB1_3:
	cmpq	%rcx, 8(%rdi)
	jne	.LBB1_4
	movq	(%rdi), %rdi
	cmpq	$5, %rcx
	je	.LBB1_9
	cmpq	$9, %rcx
	jne	.LBB1_8
	movq	(%rdi), %rax
	movzbl	8(%rdi), %ecx
	cmpb	8(%rdx), %cl
	sete	%cl
	cmpq	(%rdx), %rax
	jmp	.LBB1_10
.LBB1_4:
	xorl	%eax, %eax
	retq
.LBB1_9:
	movl	(%rdi), %eax
	movzbl	4(%rdi), %ecx
	cmpb	4(%rdx), %cl
	sete	%cl
	cmpl	(%rdx), %eax
.LBB1_10:
	sete	%al
	andb	%cl, %al
.LBB1_11:
	retq
.LBB1_8:
	movq	%rcx, %rsi
	jmp	_RNvNtNtNtCs00000000000_7pkcs1_c5calls7pkcs1_c9algorithm17is_same_otherwise
.Lfunc_end1:
	.size	_RNvNtNtNtCs00000000000_7pkcs1_c5calls7pkcs1_c9algorithm17is_hash_otherwise, .Lfunc_end1-_RNvNtNtNtCs00000000000_7pkcs1_c5calls7pkcs1_c9algorithm17is_hash_otherwise
	.cfi_endproc

	.section	.text.pkcs1_c_algorithm_is,"ax",@progbits
	.globl	pkcs1_c_algorithm_is
	.p2align	4, 0x90
	.type	pkcs1_c_algorithm_is,@function
pkcs1_c_algorithm_is:
	.cfi_startproc
	endbr64
	movq	%rsi, %rax
	cmpq	$9, 8(%rdi)
	movq	(%rsi), %rsi
	movq	8(%rax), %rdx
	jne	_RNvNtNtNtCs00000000000_7pkcs1_c5calls7pkcs1_c9algorithm17is_hash_otherwise
	cmpb	$0, 16(%rdi)
	je	.LBB2_4
	xorl	%eax, %eax
	cmpb	$5, 17(%rdi)
	jne	.LBB2_7
	cmpq	$0, 32(%rdi)
	jne	.LBB2_7
.LBB2_4:
	cmpq	$9, %rdx
	jne	.LBB2_5
	movq	(%rdi), %rax
	movq	(%rax), %rcx
	movzbl	8(%rax), %eax
	cmpb	8(%rsi), %al
	sete	%dl
	cmpq	(%rsi), %rcx
	sete	%al
	andb	%dl, %al
.LBB2_7:
	retq
.LBB2_5:
	xorl	%eax, %eax
	retq
.Lfunc_end2:
	.size	pkcs1_c_algorithm_is, .Lfunc_end2-pkcs1_c_algorithm_is
	.cfi_endproc

	.section	.text._RNvNtNtNtCs00000000000_7pkcs1_c5calls7pkcs1_c9algorithm19uses_hash_otherwise,"ax",@progbits
	.p2align	4, 0x90
	.type	_RNvNtNtNtCs00000000000_7pkcs1_c5calls7pkcs1_c9algorithm19uses_hash_otherwise,@function
_RNvNtNtNtCs00000000000_7pkcs1_c5calls7pkcs1_c9algorithm19uses_hash_otherwise:
	.cfi_startproc
	pushq	%r15
	.cfi_def_cfa_offset 16
	pushq	%r14
	.cfi_def_cfa_offset 24
	pushq	%rbx
	.cfi_def_cfa_offset 32
	.cfi_offset %rbx, -32
	.cfi_offset %r14, -24
	.cfi_offset %r15, -16
	cmpb	$1, 16(%rsi)
	jne	.LBB3_12
	cmpq	$9, 8(%rsi)
	jne	.LBB3_12
	movq	(%rsi), %rax
	movabsq	$72354425775621674, %r8
	cmpq	%r8, (%rax)
	jne	.LBB3_12
	cmpb	$8, 8(%rax)
	jne	.LBB3_12
	cmpb	$1, 16(%rdi)
	jne	.LBB3_7
	xorl	%eax, %eax
	cmpb	$5, 17(%rdi)
	jne	.LBB3_13
	cmpq	$0, 32(%rdi)
	jne	.LBB3_13
.LBB3_7:
	cmpq	%rcx, 8(%rdi)
	jne	.LBB3_12
	movq	(%rdi), %rdi
	cmpq	$5, %rcx
	je	.LBB3_18
	movq	%rsi, %r15
	cmpq	$9, %rcx
	jne	.LBB3_20
	movq	(%rdi), %rsi
	xorl	%eax, %eax
	cmpq	(%rdx), %rsi
	jne	.LBB3_13
	movzbl	8(%rdx), %esi
	cmpb	%sil, 8(%rdi)
	movq	%r15, %rsi
	je	.LBB3_21
	jmp	.LBB3_13
.LBB3_18:
	movl	(%rdi), %r8d
	xorl	%eax, %eax
	cmpl	(%rdx), %r8d
	jne	.LBB3_13
	movzbl	4(%rdx), %r8d
	cmpb	%r8b, 4(%rdi)
	je	.LBB3_21
	jmp	.LBB3_13
.LBB3_20:
	movq	%rcx, %rsi
	movq	%rdx, %rbx
	movq	%rcx, %r14
	callq	_RNvNtNtNtCs00000000000_7pkcs1_c5calls7pkcs1_c9algorithm17is_same_otherwise
	movq	%r14, %rcx
	movq	%rbx, %rdx
	testb	%al, %al
	movq	%r15, %rsi
	je	.LBB3_12
.LBB3_21:
	cmpb	$1, 40(%rsi)
	jne	.LBB3_24
	xorl	%eax, %eax
	cmpb	$5, 41(%rsi)
	jne	.LBB3_13
	cmpq	$0, 56(%rsi)
	jne	.LBB3_13
.LBB3_24:
	cmpq	%rcx, 32(%rsi)
	jne	.LBB3_12
	movq	24(%rsi), %rdi
	cmpq	$5, %rcx
	je	.LBB3_30
	cmpq	$9, %rcx
	jne	.LBB3_32
	movq	(%rdi), %rax
	movzbl	8(%rdi), %ecx
	cmpb	8(%rdx), %cl
	sete	%cl
	cmpq	(%rdx), %rax
	jmp	.LBB3_31
.LBB3_12:
	xorl	%eax, %eax
.LBB3_13:
	popq	%rbx
	.cfi_def_cfa_offset 24
	popq	%r14
	.cfi_def_cfa_offset 16
	popq	%r15
	.cfi_def_cfa_offset 8
	retq
.LBB3_30:
	.cfi_def_cfa_offset 32
	movl	(%rdi), %eax
	movzbl	4(%rdi), %ecx
	cmpb	4(%rdx), %cl
	sete	%cl
	cmpl	(%rdx), %eax
.LBB3_31:
	sete	%al
	andb	%cl, %al
	popq	%rbx
	.cfi_def_cfa_offset 24
	popq	%r14
	.cfi_def_cfa_offset 16
	popq	%r15
	.cfi_def_cfa_offset 8
	retq
.LBB3_32:
	.cfi_def_cfa_offset 32
	movq	%rcx, %rsi
	popq	%rbx
	.cfi_def_cfa_offset 24
	popq	%r14
	.cfi_def_cfa_offset 16
	popq	%r15
	.cfi_def_cfa_offset 8
	jmp	_RNvNtNtNtCs00000000000_7pkcs1_c5calls7pkcs1_c9algorithm17is_same_otherwise
.Lfunc_end3:
	.size	_RNvNtNtNtCs00000000000_7pkcs1_c5calls7pkcs1_c9algorithm19uses_hash_otherwise, .Lfunc_end3-_RNvNtNtNtCs00000000000_7pkcs1_c5calls7pkcs1_c9algorithm19uses_hash_otherwise
	.cfi_endproc

	.section	.text.pkcs1_c_uses_hash,"ax",@progbits
	.globl	pkcs1_c_uses_hash
	.p2align	4, 0x90
	.type	pkcs1_c_uses_hash,@function
pkcs1_c_uses_hash:
	.cfi_startproc
	endbr64
	movq	%rdx, %rax
	cmpq	$9, 8(%rdi)
	movq	(%rdx), %rdx
	movq	8(%rax), %rcx
	jne	_RNvNtNtNtCs00000000000_7pkcs1_c5calls7pkcs1_c9algorithm19uses_hash_otherwise
	cmpb	$1, 16(%rsi)
	jne	.LBB4_16
	cmpq	$9, 8(%rsi)
	jne	.LBB4_16
	movq	(%rsi), %rax
	movabsq	$72354425775621674, %r8
	cmpq	%r8, (%rax)
	jne	.LBB4_16
	cmpb	$8, 8(%rax)
	jne	.LBB4_16
	cmpb	$1, 16(%rdi)
	jne	.LBB4_7
	cmpb	$5, 17(%rdi)
	sete	%al
	cmpq	$0, 32(%rdi)
	sete	%r8b
	andb	%al, %r8b
	cmpq	$9, %rcx
	sete	%al
	testb	%al, %r8b
	jne	.LBB4_8
	jmp	.LBB4_16
.LBB4_7:
	cmpq	$9, %rcx
	jne	.LBB4_16
.LBB4_8:
	movq	(%rdi), %rdi
	movq	(%rdx), %rcx
	xorl	%eax, %eax
	cmpq	(%rdi), %rcx
	jne	.LBB4_17
	movzbl	8(%rdi), %edi
	cmpb	8(%rdx), %dil
	jne	.LBB4_17
	cmpb	$1, 40(%rsi)
	jne	.LBB4_15
	xorl	%eax, %eax
	cmpb	$5, 41(%rsi)
	jne	.LBB4_17
	cmpq	$0, 56(%rsi)
	jne	.LBB4_17
	cmpq	$9, 32(%rsi)
	je	.LBB4_14
	jmp	.LBB4_17
.LBB4_15:
	cmpq	$9, 32(%rsi)
	jne	.LBB4_16
.LBB4_14:
	movq	24(%rsi), %rax
	cmpb	%dil, 8(%rax)
	sete	%dl
	cmpq	%rcx, (%rax)
	sete	%al
	andb	%dl, %al
	retq
.LBB4_16:
	xorl	%eax, %eax
.LBB4_17:
	retq
.Lfunc_end4:
	.size	pkcs1_c_uses_hash, .Lfunc_end4-pkcs1_c_uses_hash
	.cfi_endproc

	.section	.rodata.cst16,"aM",@progbits,16
	.p2align	4, 0x0
.LCPI5_0:
	.zero	16,128
.LCPI5_1:
	.byte	128
	.byte	128
	.byte	128
	.byte	128
	.byte	128
	.byte	128
	.byte	128
	.byte	128
	.zero	1
	.zero	1
	.zero	1
	.zero	1
	.zero	1
	.zero	1
	.zero	1
	.zero	1
	.section	.text.pkcs1_c_private_key_info_decode,"ax",@progbits
	.globl	pkcs1_c_private_key_info_decode
	.p2align	4, 0x90
	.type	pkcs1_c_private_key_info_decode,@function
pkcs1_c_private_key_info_decode:
	.cfi_startproc
	endbr64
	pushq	%rbp
	.cfi_def_cfa_offset 16
	pushq	%r15
	.cfi_def_cfa_offset 24
	pushq	%r14
	.cfi_def_cfa_offset 32
	pushq	%r13
	.cfi_def_cfa_offset 40
	pushq	%r12
	.cfi_def_cfa_offset 48
	pushq	%rbx
	.cfi_def_cfa_offset 56
	subq	$184, %rsp
	.cfi_def_cfa_offset 240
	.cfi_offset %rbx, -56
	.cfi_offset %r12, -48
	.cfi_offset %r13, -40
	.cfi_offset %r14, -32
	.cfi_offset %r15, -24
	.cfi_offset %rbp, -16
	movq	%rsi, %rax
	shrq	$32, %rax
	movl	$8, %eax
	jne	.LBB5_76
	movq	%rsi, %r9
	cmpq	$2, %rsi
	jb	.LBB5_25
	cmpb	$48, (%rdi)
	jne	.LBB5_25
	leaq	2(%rdi), %rsi
	leaq	-2(%r9), %rbx
	movsbq	1(%rdi), %rax
	testq	%rax, %rax
	js	.LBB5_10
	subq	%rax, %rbx
	jb	.LBB5_25
	cmpq	$2, %rax
	jb	.LBB5_73
.LBB5_6:
	cmpb	$2, (%rsi)
	jne	.LBB5_73
	leaq	2(%rsi), %r9
	leaq	-2(%rax), %r10
	movsbq	1(%rsi), %rdi
	testq	%rdi, %rdi
	js	.LBB5_15
	subq	%rdi, %r10
	jb	.LBB5_73
	leaq	(%r9,%rdi), %r11
	testq	%rdi, %rdi
	jne	.LBB5_33
	jmp	.LBB5_75
.LBB5_10:
	cmpb	$-126, %al
	jne	.LBB5_20
	cmpq	$1, %rbx
	jbe	.LBB5_25
	movzbl	2(%rdi), %esi
	testq	%rsi, %rsi
	je	.LBB5_25
	leaq	-4(%r9), %rbx
	shll	$8, %esi
	movzbl	3(%rdi), %eax
	orq	%rsi, %rax
	subq	%rax, %rbx
	jb	.LBB5_25
	addq	$4, %rdi
	movq	%rdi, %rsi
	jmp	.LBB5_6
.LBB5_15:
	cmpb	$-126, %dil
	jne	.LBB5_27
	cmpq	$1, %r10
	jbe	.LBB5_73
	movzbl	2(%rsi), %r9d
	testq	%r9, %r9
	je	.LBB5_73
	leaq	-4(%rax), %r10
	shll	$8, %r9d
	movzbl	3(%rsi), %edi
	orq	%r9, %rdi
	subq	%rdi, %r10
	jb	.LBB5_73
	addq	$4, %rsi
	leaq	(%rsi,%rdi), %r11
	movq	%rsi, %r9
	testq	%rdi, %rdi
	jne	.LBB5_33
	jmp	.LBB5_75
.LBB5_20:
	testq	%rbx, %rbx
	je	.LBB5_25
	cmpb	$-127, %al
	jne	.LBB5_25
	movzbl	(%rsi), %eax
	testb	%al, %al
	jns	.LBB5_25
	leaq	-3(%r9), %rbx
	subq	%rax, %rbx
	jb	.LBB5_25
	addq	$3, %rdi
	movq	%rdi, %rsi
	jmp	.LBB5_6
.LBB5_25:
	movq	%rdx, %r14
	movq	%rcx, %r15
	movq	%r8, %r12
	movq	%rsp, %rax
	movq	%rdi, %rsi
	movq	%rax, %rdi
	movq	%r9, %rdx
	movl	$48, %ecx
	callq	_RNvNtNtNtCs00000000000_7pkcs1_c6proved8der_core5split14split_unlikely
	movq	(%rsp), %rsi
	testq	%rsi, %rsi
	je	.LBB5_43
	movq	8(%rsp), %rax
	movq	24(%rsp), %rbx
	movq	%r12, %r8
	movq	%r15, %rcx
	movq	%r14, %rdx
	cmpq	$2, %rax
	jae	.LBB5_6
	jmp	.LBB5_73
.LBB5_27:
	testq	%r10, %r10
	je	.LBB5_72
	cmpb	$-127, %dil
	jne	.LBB5_73
	movzbl	(%r9), %edi
	testb	%dil, %dil
	jns	.LBB5_73
	leaq	-3(%rax), %r10
	subq	%rdi, %r10
	jb	.LBB5_73
	addq	$3, %rsi
	leaq	(%rsi,%rdi), %r11
	movq	%rsi, %r9
	testq	%rdi, %rdi
	jne	.LBB5_33
	jmp	.LBB5_75
.LBB5_43:
	movzbl	8(%rsp), %ecx
	leal	-17(%rcx), %eax
	movzbl	%al, %eax
	leaq	1(%rax), %rdx
	xorl	%esi, %esi
	cmpb	$3, %al
	cmovbq	%rdx, %rsi
	movl	$18, %eax
	leaq	.LJTI5_0(%rip), %rdx
	movslq	(%rdx,%rsi,4), %rsi
	addq	%rdx, %rsi
	notrack	jmpq	*%rsi
.LBB5_72:
	movl	$2, %eax
.LBB5_73:
	movq	%rdx, %r14
	movq	%rcx, %r15
	movq	%r8, %r12
	movq	%rsp, %rdi
	movq	%rax, %rdx
	movl	$2, %ecx
	callq	_RNvNtNtNtCs00000000000_7pkcs1_c6proved8der_core5split14split_unlikely
	movq	(%rsp), %r9
	testq	%r9, %r9
	je	.LBB5_77
	movq	8(%rsp), %rdi
	movq	16(%rsp), %r11
	movq	24(%rsp), %r10
	movq	%r12, %r8
	movq	%r15, %rcx
	movq	%r14, %rdx
	testq	%rdi, %rdi
	je	.LBB5_75
.LBB5_33:
	cmpq	$1, %rdi
	jne	.LBB5_36
	cmpb	$0, (%r9)
	je	.LBB5_38
.LBB5_35:
	movl	$14, %eax
	jmp	.LBB5_76
.LBB5_36:
	movl	$14, %eax
	cmpb	$0, (%r9)
	jne	.LBB5_76
	xorl	%eax, %eax
	cmpb	$0, 1(%r9)
	sets	%al
	leal	4(%rax,%rax,8), %ecx
	leal	-17(%rcx), %eax
	movzbl	%al, %eax
	leaq	1(%rax), %rdx
	xorl	%esi, %esi
	cmpb	$3, %al
	cmovbq	%rdx, %rsi
	movl	$18, %eax
	leaq	.LJTI5_0(%rip), %rdx
	movslq	(%rdx,%rsi,4), %rsi
	addq	%rdx, %rsi
	notrack	jmpq	*%rsi
.LBB5_38:
	cmpq	$2, %r10
	jb	.LBB5_55
	cmpb	$48, (%r11)
	jne	.LBB5_55
	leaq	2(%r11), %r9
	leaq	-2(%r10), %r13
	movsbq	1(%r11), %rax
	testq	%rax, %rax
	js	.LBB5_44
	subq	%rax, %r13
	jb	.LBB5_55
	leaq	(%r9,%rax), %rsi
	movq	%rsi, 80(%rsp)
	cmpq	$2, %rax
	jae	.LBB5_57
	jmp	.LBB5_81
.LBB5_77:
	movzbl	8(%rsp), %ecx
	leal	-17(%rcx), %eax
	movzbl	%al, %eax
	leaq	1(%rax), %rdx
	xorl	%esi, %esi
	cmpb	$3, %al
	cmovbq	%rdx, %rsi
	movl	$18, %eax
	leaq	.LJTI5_0(%rip), %rdx
	movslq	(%rdx,%rsi,4), %rsi
	addq	%rdx, %rsi
	notrack	jmpq	*%rsi
.LBB5_78:
	movzbl	%cl, %eax
	incl	%eax
	jmp	.LBB5_76
.LBB5_44:
	cmpb	$-126, %al
	jne	.LBB5_49
	cmpq	$1, %r13
	jbe	.LBB5_55
	movzbl	2(%r11), %esi
	testq	%rsi, %rsi
	je	.LBB5_55
	leaq	-4(%r10), %r13
	shll	$8, %esi
	movzbl	3(%r11), %eax
	orq	%rsi, %rax
	subq	%rax, %r13
	jb	.LBB5_55
	addq	$4, %r11
	jmp	.LBB5_54
.LBB5_49:
	testq	%r13, %r13
	je	.LBB5_55
	cmpb	$-127, %al
	jne	.LBB5_55
	movzbl	(%r9), %eax
	testb	%al, %al
	jns	.LBB5_55
	leaq	-3(%r10), %r13
	subq	%rax, %r13
	jb	.LBB5_55
	addq	$3, %r11
.LBB5_54:
	leaq	(%r11,%rax), %rsi
	movq	%rsi, 80(%rsp)
	movq	%r11, %r9
	jmp	.LBB5_57
.LBB5_55:
	movq	%rdx, %r14
	movq	%rcx, %r15
	movq	%r8, %r12
	movq	%rsp, %rdi
	movq	%r11, %rsi
	movq	%r10, %rdx
	movl	$48, %ecx
	callq	_RNvNtNtNtCs00000000000_7pkcs1_c6proved8der_core5split14split_unlikely
	movq	(%rsp), %r9
	testq	%r9, %r9
	je	.LBB5_79
	movq	8(%rsp), %rax
	movq	16(%rsp), %rcx
	movq	%rcx, 80(%rsp)
	movq	24(%rsp), %r13
	movq	%r12, %r8
	movq	%r15, %rcx
	movq	%r14, %rdx
	cmpq	$2, %rax
	jb	.LBB5_81
.LBB5_57:
	cmpb	$6, (%r9)
	jne	.LBB5_81
	leaq	2(%r9), %r14
	leaq	-2(%rax), %r10
	movsbq	1(%r9), %r12
	testq	%r12, %r12
	js	.LBB5_61
	subq	%r12, %r10
	jb	.LBB5_81
	leaq	(%r14,%r12), %rsi
	jmp	.LBB5_83
.LBB5_61:
	cmpb	$-126, %r12b
	jne	.LBB5_66
	cmpq	$1, %r10
	jbe	.LBB5_81
	movzbl	2(%r9), %esi
	testq	%rsi, %rsi
	je	.LBB5_81
	leaq	-4(%rax), %r10
	shll	$8, %esi
	movzbl	3(%r9), %r12d
	orq	%rsi, %r12
	subq	%r12, %r10
	jb	.LBB5_81
	addq	$4, %r9
	jmp	.LBB5_71
.LBB5_66:
	testq	%r10, %r10
	je	.LBB5_80
	cmpb	$-127, %r12b
	jne	.LBB5_81
	movzbl	(%r14), %r12d
	testb	%r12b, %r12b
	jns	.LBB5_81
	leaq	-3(%rax), %r10
	subq	%r12, %r10
	jb	.LBB5_81
	addq	$3, %r9
.LBB5_71:
	leaq	(%r9,%r12), %rsi
	movq	%r9, %r14
	jmp	.LBB5_83
.LBB5_79:
	movzbl	8(%rsp), %ecx
	leal	-17(%rcx), %eax
	movzbl	%al, %eax
	leaq	1(%rax), %rdx
	xorl	%esi, %esi
	cmpb	$3, %al
	cmovbq	%rdx, %rsi
	movl	$18, %eax
	leaq	.LJTI5_0(%rip), %rdx
	movslq	(%rdx,%rsi,4), %rsi
	addq	%rdx, %rsi
	notrack	jmpq	*%rsi
.LBB5_80:
	movl	$2, %eax
.LBB5_81:
	movq	%r13, 160(%rsp)
	movq	%rdx, %rbp
	movq	%rcx, %r15
	movq	%r8, %r13
	movq	%rsp, %rdi
	movq	%r9, %rsi
	movq	%rax, %rdx
	movl	$6, %ecx
	callq	_RNvNtNtNtCs00000000000_7pkcs1_c6proved8der_core5split14split_unlikely
	movq	(%rsp), %r14
	testq	%r14, %r14
	je	.LBB5_114
	movq	8(%rsp), %r12
	movq	16(%rsp), %rsi
	movq	24(%rsp), %r10
	movq	%r13, %r8
	movq	%r15, %rcx
	movq	%rbp, %rdx
	movq	160(%rsp), %r13
.LBB5_83:
	leaq	-1(%r12), %rdi
	movl	$6, %eax
	cmpq	$38, %rdi
	ja	.LBB5_76
	movq	%r13, %r15
	movq	%r10, %rbp
	movq	%rdx, 168(%rsp)
	movq	%rcx, 176(%rsp)
	movq	%r8, 160(%rsp)
	movzbl	(%r14,%rdi), %ecx
	testb	%cl, %cl
	js	.LBB5_97
	movdqa	.LCPI5_1(%rip), %xmm0
	movdqa	.LCPI5_0(%rip), %xmm1
	xorl	%edx, %edx
	movq	%r14, %r8
	jmp	.LBB5_89
.LBB5_86:
	movd	(%r8), %xmm2
	punpcklbw	%xmm2, %xmm2
	punpcklwd	%xmm2, %xmm2
	pcmpeqb	%xmm1, %xmm2
	movmskps	%xmm2, %r9d
	testl	%r9d, %r9d
	jne	.LBB5_96
	movl	$4, %r9d
	movq	$-4, %r10
.LBB5_88:
	addq	%r10, %rdi
	addq	%r9, %r8
.LBB5_89:
	cmpq	$7, %rdi
	jbe	.LBB5_92
	movq	(%r8), %xmm2
	pcmpeqb	%xmm0, %xmm2
	pmovmskb	%xmm2, %r9d
	testb	%r9b, %r9b
	jne	.LBB5_96
	movl	$8, %r9d
	movq	$-8, %r10
	jmp	.LBB5_88
.LBB5_92:
	cmpq	$3, %rdi
	ja	.LBB5_86
	testq	%rdi, %rdi
	je	.LBB5_100
	cmpb	(%r8), %dl
	jo	.LBB5_96
	movl	$1, %r9d
	movq	$-1, %r10
	jmp	.LBB5_88
.LBB5_96:
	testq	%r12, %r12
	je	.LBB5_100
.LBB5_97:
	xorl	%edx, %edx
	cmpb	(%r14), %dl
	jo	.LBB5_76
	cmpq	$1, %r12
	jne	.LBB5_109
.LBB5_99:
	testb	%cl, %cl
	js	.LBB5_76
.LBB5_100:
	testq	%rbp, %rbp
	je	.LBB5_108
	movzbl	(%rsi), %ecx
	movl	%ecx, %eax
	notb	%al
	testb	$31, %al
	sete	%al
	movq	%rcx, 88(%rsp)
	testb	$-33, %cl
	sete	%cl
	orb	%al, %cl
	movl	$12, %eax
	jne	.LBB5_76
	movq	%rbp, %rdx
	cmpq	$1, %rbp
	je	.LBB5_148
	leaq	-2(%rdx), %rcx
	movsbq	1(%rsi), %r10
	testq	%r10, %r10
	jns	.LBB5_120
	cmpb	$-126, %r10b
	jne	.LBB5_116
	cmpq	$1, %rcx
	jbe	.LBB5_148
	movzbl	2(%rsi), %eax
	testq	%rax, %rax
	je	.LBB5_148
	leaq	-4(%rdx), %rcx
	shll	$8, %eax
	movzbl	3(%rsi), %r10d
	orq	%rax, %r10
	jmp	.LBB5_120
.LBB5_108:
	xorl	%r10d, %r10d
	xorl	%r11d, %r11d
	xorl	%r13d, %r13d
	jmp	.LBB5_123
.LBB5_109:
	leaq	-1(%r12), %rdx
	xorl	%r8d, %r8d
	xorl	%edi, %edi
	jmp	.LBB5_111
.LBB5_110:
	incq	%rdi
	cmpq	%rdi, %rdx
	je	.LBB5_99
.LBB5_111:
	cmpb	1(%r14,%rdi), %r8b
	jno	.LBB5_110
	cmpq	%r12, %rdi
	jae	.LBB5_218
	cmpb	$0, (%r14,%rdi)
	js	.LBB5_110
	jmp	.LBB5_76
.LBB5_114:
	movzbl	8(%rsp), %ecx
	leal	-17(%rcx), %eax
	movzbl	%al, %eax
	leaq	1(%rax), %rdx
	xorl	%esi, %esi
	cmpb	$3, %al
	cmovbq	%rdx, %rsi
	movl	$18, %eax
	leaq	.LJTI5_0(%rip), %rdx
	movslq	(%rdx,%rsi,4), %rsi
	addq	%rdx, %rsi
	notrack	jmpq	*%rsi
.LBB5_115:
	movl	$19, %eax
	jmp	.LBB5_76
.LBB5_116:
	testq	%rcx, %rcx
	je	.LBB5_148
	cmpb	$-127, %r10b
	jne	.LBB5_148
	movzbl	2(%rsi), %r10d
	testb	%r10b, %r10b
	jns	.LBB5_148
	leaq	-3(%rdx), %rcx
.LBB5_120:
	subq	%r10, %rcx
	jb	.LBB5_148
	movl	$13, %eax
	testq	%rcx, %rcx
	jne	.LBB5_76
.LBB5_122:
	movq	%r10, %r13
	andq	$-16777216, %r13
	movl	%r10d, %r11d
	andl	$16776960, %r11d
.LBB5_123:
	movq	%r15, %rcx
	cmpq	$2, %r15
	movq	80(%rsp), %r9
	jb	.LBB5_139
	cmpb	$4, (%r9)
	jne	.LBB5_139
	leaq	2(%r9), %r8
	leaq	-2(%rcx), %rdx
	movsbq	1(%r9), %r15
	testq	%r15, %r15
	js	.LBB5_128
	subq	%r15, %rdx
	jb	.LBB5_139
	leaq	(%r8,%r15), %rsi
	jmp	.LBB5_141
.LBB5_128:
	cmpb	$-126, %r15b
	jne	.LBB5_133
	cmpq	$1, %rdx
	jbe	.LBB5_139
	movzbl	2(%r9), %eax
	testq	%rax, %rax
	je	.LBB5_139
	leaq	-4(%rcx), %rdx
	shll	$8, %eax
	movzbl	3(%r9), %r15d
	orq	%rax, %r15
	subq	%r15, %rdx
	jb	.LBB5_139
	addq	$4, %r9
	jmp	.LBB5_138
.LBB5_133:
	testq	%rdx, %rdx
	je	.LBB5_139
	cmpb	$-127, %r15b
	jne	.LBB5_139
	movzbl	(%r8), %r15d
	testb	%r15b, %r15b
	jns	.LBB5_139
	leaq	-3(%rcx), %rdx
	subq	%r15, %rdx
	jb	.LBB5_139
	addq	$3, %r9
.LBB5_138:
	leaq	(%r9,%r15), %rsi
	movq	%r9, %r8
	jmp	.LBB5_141
.LBB5_139:
	movq	%r13, 72(%rsp)
	movq	%r11, 32(%rsp)
	movq	%r10, %r13
	movq	%rsp, %rdi
	movq	%r9, %rsi
	movq	%rcx, %rdx
	movl	$4, %ecx
	callq	_RNvNtNtNtCs00000000000_7pkcs1_c6proved8der_core5split14split_unlikely
	movq	(%rsp), %r8
	testq	%r8, %r8
	je	.LBB5_155
	movq	8(%rsp), %r15
	movq	16(%rsp), %rsi
	movq	24(%rsp), %rdx
	movq	%r13, %r10
	movq	32(%rsp), %r11
	movq	72(%rsp), %r13
.LBB5_141:
	testq	%rdx, %rdx
	je	.LBB5_147
	movl	$13, %eax
	cmpb	$-96, (%rsi)
	jne	.LBB5_76
	cmpq	$1, %rdx
	movq	%r8, 80(%rsp)
	movq	%r11, 32(%rsp)
	movq	%r13, 72(%rsp)
	je	.LBB5_161
	leaq	2(%rsi), %rdi
	leaq	-2(%rdx), %rcx
	movsbq	1(%rsi), %r9
	testq	%r9, %r9
	js	.LBB5_150
	subq	%r9, %rcx
	jb	.LBB5_161
	movq	%r10, %r13
	movq	%r9, 152(%rsp)
	movq	%rdi, 144(%rsp)
	jmp	.LBB5_163
.LBB5_147:
	movq	%r13, 72(%rsp)
	movq	%r11, 32(%rsp)
	movq	%r10, %r13
	movq	%r8, 80(%rsp)
	movq	$0, 144(%rsp)
	jmp	.LBB5_164
.LBB5_148:
	movq	%rsp, %rdi
	movq	88(%rsp), %rcx
	callq	_RNvNtNtNtCs00000000000_7pkcs1_c6proved8der_core5split14split_unlikely
	cmpq	$0, (%rsp)
	je	.LBB5_184
	movq	8(%rsp), %r10
	movq	24(%rsp), %rcx
	movl	$13, %eax
	testq	%rcx, %rcx
	jne	.LBB5_76
	jmp	.LBB5_122
.LBB5_150:
	cmpb	$-126, %r9b
	jne	.LBB5_156
	cmpq	$1, %rcx
	jbe	.LBB5_161
	movzbl	2(%rsi), %edi
	testq	%rdi, %rdi
	je	.LBB5_161
	leaq	-4(%rdx), %rcx
	shll	$8, %edi
	movzbl	3(%rsi), %r9d
	orq	%rdi, %r9
	subq	%r9, %rcx
	jb	.LBB5_161
	movq	%r10, %r13
	movq	%r9, 152(%rsp)
	addq	$4, %rsi
	movq	%rsi, 144(%rsp)
	jmp	.LBB5_163
.LBB5_155:
	movzbl	8(%rsp), %ecx
	leal	-17(%rcx), %eax
	movzbl	%al, %eax
	leaq	1(%rax), %rdx
	xorl	%esi, %esi
	cmpb	$3, %al
	cmovbq	%rdx, %rsi
	movl	$18, %eax
	leaq	.LJTI5_0(%rip), %rdx
	movslq	(%rdx,%rsi,4), %rsi
	addq	%rdx, %rsi
	notrack	jmpq	*%rsi
.LBB5_156:
	testq	%rcx, %rcx
	je	.LBB5_161
	cmpb	$-127, %r9b
	jne	.LBB5_161
	movzbl	(%rdi), %edi
	testb	%dil, %dil
	jns	.LBB5_161
	leaq	-3(%rdx), %rcx
	subq	%rdi, %rcx
	jb	.LBB5_161
	movq	%r10, %r13
	movq	%rdi, 152(%rsp)
	addq	$3, %rsi
	movq	%rsi, 144(%rsp)
	jmp	.LBB5_163
.LBB5_161:
	movq	%r10, %r13
	movq	%rsp, %rdi
	movl	$160, %ecx
	callq	_RNvNtNtNtCs00000000000_7pkcs1_c6proved8der_core5split14split_unlikely
	movq	(%rsp), %rax
	testq	%rax, %rax
	je	.LBB5_185
	movq	%rax, 144(%rsp)
	movq	8(%rsp), %rax
	movq	%rax, 152(%rsp)
	movq	24(%rsp), %rcx
	movl	$13, %eax
.LBB5_163:
	testq	%rcx, %rcx
	jne	.LBB5_76
.LBB5_164:
	movl	$13, %eax
	testq	%rbx, %rbx
	jne	.LBB5_76
	movl	$7, %eax
	cmpq	$4, %r12
	jb	.LBB5_76
	cmpb	$42, (%r14)
	jne	.LBB5_76
	cmpb	$-122, 1(%r14)
	jne	.LBB5_76
	cmpb	$72, 2(%r14)
	jne	.LBB5_76
	cmpq	$9, %r12
	jne	.LBB5_76
	cmpb	$-122, 3(%r14)
	jne	.LBB5_76
	cmpb	$-9, 4(%r14)
	jne	.LBB5_76
	cmpb	$13, 5(%r14)
	jne	.LBB5_76
	cmpb	$1, 6(%r14)
	jne	.LBB5_76
	cmpb	$1, 7(%r14)
	jne	.LBB5_76
	movzbl	8(%r14), %edx
	xorl	%eax, %eax
	cmpb	$1, %dl
	sete	%cl
	testq	%rbp, %rbp
	je	.LBB5_187
	cmpb	$1, %dl
	jne	.LBB5_187
	cmpb	$5, 88(%rsp)
	jne	.LBB5_35
	movzbl	%r13b, %eax
	movq	32(%rsp), %rcx
	orq	72(%rsp), %rcx
	orq	%rax, %rcx
	jne	.LBB5_35
	movq	%r15, %rax
	shrq	$32, %rax
	movl	$8, %eax
	jne	.LBB5_76
	cmpq	$2, %r15
	jb	.LBB5_200
	movq	80(%rsp), %rax
	cmpb	$48, (%rax)
	jne	.LBB5_200
	movq	80(%rsp), %rax
	leaq	2(%rax), %rsi
	leaq	-2(%r15), %r14
	movsbq	1(%rax), %rdx
	testq	%rdx, %rdx
	js	.LBB5_190
	subq	%rdx, %r14
	jae	.LBB5_202
	jmp	.LBB5_200
.LBB5_184:
	movzbl	8(%rsp), %ecx
	leal	-17(%rcx), %eax
	movzbl	%al, %eax
	leaq	1(%rax), %rdx
	xorl	%esi, %esi
	cmpb	$3, %al
	cmovbq	%rdx, %rsi
	movl	$18, %eax
	leaq	.LJTI5_0(%rip), %rdx
	movslq	(%rdx,%rsi,4), %rsi
	addq	%rdx, %rsi
	notrack	jmpq	*%rsi
.LBB5_185:
	movzbl	8(%rsp), %ecx
	leal	-17(%rcx), %eax
	movzbl	%al, %eax
	leaq	1(%rax), %rdx
	xorl	%esi, %esi
	cmpb	$3, %al
	cmovbq	%rdx, %rsi
	movl	$18, %eax
	leaq	.LJTI5_0(%rip), %rdx
	movslq	(%rdx,%rsi,4), %rsi
	addq	%rdx, %rsi
	notrack	jmpq	*%rsi
.LBB5_186:
	movl	$20, %eax
	jmp	.LBB5_76
.LBB5_187:
	movb	%cl, %al
	leal	(%rax,%rax,2), %ecx
	addl	$6, %ecx
	leal	-17(%rcx), %eax
	movzbl	%al, %eax
	leaq	1(%rax), %rdx
	xorl	%esi, %esi
	cmpb	$3, %al
	cmovbq	%rdx, %rsi
	movl	$18, %eax
	leaq	.LJTI5_0(%rip), %rdx
	movslq	(%rdx,%rsi,4), %rsi
	addq	%rdx, %rsi
	notrack	jmpq	*%rsi
.LBB5_190:
	cmpb	$-126, %dl
	jne	.LBB5_195
	cmpq	$1, %r14
	jbe	.LBB5_200
	movq	80(%rsp), %rax
	movzbl	2(%rax), %eax
	testq	%rax, %rax
	je	.LBB5_200
	leaq	-4(%r15), %r14
	shll	$8, %eax
	movq	80(%rsp), %rcx
	movzbl	3(%rcx), %edx
	orq	%rax, %rdx
	subq	%rdx, %r14
	jb	.LBB5_200
	movq	80(%rsp), %rax
	leaq	4(%rax), %rsi
	jmp	.LBB5_203
.LBB5_195:
	testq	%r14, %r14
	je	.LBB5_200
	cmpb	$-127, %dl
	jne	.LBB5_200
	movzbl	(%rsi), %edx
	testb	%dl, %dl
	jns	.LBB5_200
	leaq	-3(%r15), %r14
	subq	%rdx, %r14
	jb	.LBB5_200
	movq	80(%rsp), %rax
	leaq	3(%rax), %rsi
	jmp	.LBB5_203
.LBB5_200:
	movq	%rsp, %rdi
	movq	80(%rsp), %rsi
	movq	%r15, %rdx
	movl	$48, %ecx
	callq	_RNvNtNtNtCs00000000000_7pkcs1_c6proved8der_core5split14split_unlikely
	movq	(%rsp), %rsi
	testq	%rsi, %rsi
	je	.LBB5_219
	movq	8(%rsp), %rdx
	movq	24(%rsp), %r14
.LBB5_202:
	cmpq	$2, %rdx
	jb	.LBB5_221
.LBB5_203:
	cmpb	$2, (%rsi)
	jne	.LBB5_221
	leaq	2(%rsi), %r8
	leaq	-2(%rdx), %rax
	movsbq	1(%rsi), %rdi
	testq	%rdi, %rdi
	js	.LBB5_207
	subq	%rdi, %rax
	jb	.LBB5_221
	leaq	(%r8,%rdi), %rcx
	jmp	.LBB5_223
.LBB5_207:
	cmpb	$-126, %dil
	jne	.LBB5_212
	cmpq	$1, %rax
	jbe	.LBB5_221
	movzbl	2(%rsi), %ecx
	testq	%rcx, %rcx
	je	.LBB5_221
	leaq	-4(%rdx), %rax
	shll	$8, %ecx
	movzbl	3(%rsi), %edi
	orq	%rcx, %rdi
	subq	%rdi, %rax
	jb	.LBB5_221
	addq	$4, %rsi
	jmp	.LBB5_217
.LBB5_212:
	testq	%rax, %rax
	je	.LBB5_220
	cmpb	$-127, %dil
	jne	.LBB5_221
	movzbl	(%r8), %edi
	testb	%dil, %dil
	jns	.LBB5_221
	leaq	-3(%rdx), %rax
	subq	%rdi, %rax
	jb	.LBB5_221
	addq	$3, %rsi
.LBB5_217:
	leaq	(%rsi,%rdi), %rcx
	movq	%rsi, %r8
	jmp	.LBB5_223
.LBB5_218:
	movq	%r12, %rsi
	ud2
.LBB5_219:
	movzbl	8(%rsp), %ecx
	leal	-17(%rcx), %eax
	movzbl	%al, %eax
	leaq	1(%rax), %rdx
	xorl	%esi, %esi
	cmpb	$3, %al
	cmovbq	%rdx, %rsi
	movl	$18, %eax
	leaq	.LJTI5_0(%rip), %rdx
	movslq	(%rdx,%rsi,4), %rsi
	addq	%rdx, %rsi
	notrack	jmpq	*%rsi
.LBB5_220:
	movl	$2, %edx
.LBB5_221:
	movq	%rsp, %rdi
	movl	$2, %ecx
	callq	_RNvNtNtNtCs00000000000_7pkcs1_c6proved8der_core5split14split_unlikely
	movq	(%rsp), %r8
	testq	%r8, %r8
	je	.LBB5_235
	movq	8(%rsp), %rdi
	movq	16(%rsp), %rcx
	movq	24(%rsp), %rax
.LBB5_223:
	testq	%rdi, %rdi
	je	.LBB5_75
	cmpq	$1, %rdi
	jne	.LBB5_232
	movzbl	(%r8), %r12d
	cmpb	$2, %r12b
	jae	.LBB5_35
	cmpq	$2, %rax
	jb	.LBB5_247
	cmpb	$2, (%rcx)
	jne	.LBB5_247
	leaq	2(%rcx), %rdx
	movq	%rdx, 88(%rsp)
	leaq	-2(%rax), %rdx
	movsbq	1(%rcx), %rbx
	testq	%rbx, %rbx
	js	.LBB5_236
	subq	%rbx, %rdx
	jb	.LBB5_247
	movq	88(%rsp), %rax
	leaq	(%rax,%rbx), %rsi
	jmp	.LBB5_249
.LBB5_232:
	cmpb	$0, (%r8)
	movl	$14, %eax
	jne	.LBB5_76
	xorl	%eax, %eax
	cmpb	$0, 1(%r8)
	sets	%al
	leal	4(%rax,%rax,8), %ecx
	leal	-17(%rcx), %eax
	movzbl	%al, %eax
	leaq	1(%rax), %rdx
	xorl	%esi, %esi
	cmpb	$3, %al
	cmovbq	%rdx, %rsi
	movl	$18, %eax
	leaq	.LJTI5_0(%rip), %rdx
	movslq	(%rdx,%rsi,4), %rsi
	addq	%rdx, %rsi
	notrack	jmpq	*%rsi
.LBB5_235:
	movzbl	8(%rsp), %ecx
	leal	-17(%rcx), %eax
	movzbl	%al, %eax
	leaq	1(%rax), %rdx
	xorl	%esi, %esi
	cmpb	$3, %al
	cmovbq	%rdx, %rsi
	movl	$18, %eax
	leaq	.LJTI5_0(%rip), %rdx
	movslq	(%rdx,%rsi,4), %rsi
	addq	%rdx, %rsi
	notrack	jmpq	*%rsi
.LBB5_236:
	cmpb	$-126, %bl
	jne	.LBB5_241
	cmpq	$1, %rdx
	jbe	.LBB5_247
	movzbl	2(%rcx), %esi
	testq	%rsi, %rsi
	je	.LBB5_247
	leaq	-4(%rax), %rdx
	shll	$8, %esi
	movzbl	3(%rcx), %ebx
	orq	%rsi, %rbx
	subq	%rbx, %rdx
	jb	.LBB5_247
	addq	$4, %rcx
	jmp	.LBB5_246
.LBB5_241:
	testq	%rdx, %rdx
	je	.LBB5_247
	cmpb	$-127, %bl
	jne	.LBB5_247
	movq	88(%rsp), %rdx
	movzbl	(%rdx), %ebx
	testb	%bl, %bl
	jns	.LBB5_247
	leaq	-3(%rax), %rdx
	subq	%rbx, %rdx
	jb	.LBB5_247
	addq	$3, %rcx
.LBB5_246:
	leaq	(%rcx,%rbx), %rsi
	movq	%rcx, 88(%rsp)
	jmp	.LBB5_250
.LBB5_247:
	movq	%rsp, %rdi
	movq	%rcx, %rsi
	movq	%rax, %rdx
	movl	$2, %ecx
	callq	_RNvNtNtNtCs00000000000_7pkcs1_c6proved8der_core5split14split_unlikely
	movq	(%rsp), %rax
	movq	%rax, 88(%rsp)
	testq	%rax, %rax
	je	.LBB5_268
	movq	8(%rsp), %rbx
	movq	16(%rsp), %rsi
	movq	24(%rsp), %rdx
.LBB5_249:
	testq	%rbx, %rbx
	je	.LBB5_75
.LBB5_250:
	movq	88(%rsp), %rax
	cmpb	$0, (%rax)
	je	.LBB5_253
	jns	.LBB5_258
	jmp	.LBB5_35
.LBB5_253:
	decq	%rbx
	je	.LBB5_257
	movl	$5, %eax
	movq	88(%rsp), %rcx
	cmpb	$0, 1(%rcx)
	jns	.LBB5_76
	incq	88(%rsp)
	jmp	.LBB5_258
.LBB5_257:
	movl	$1, %ebx
.LBB5_258:
	cmpq	$2, %rdx
	jb	.LBB5_275
	cmpb	$2, (%rsi)
	jne	.LBB5_275
	leaq	2(%rsi), %rax
	movq	%rax, 72(%rsp)
	leaq	-2(%rdx), %rcx
	movsbq	1(%rsi), %rdi
	movq	%rdi, 32(%rsp)
	testq	%rdi, %rdi
	js	.LBB5_263
	subq	32(%rsp), %rcx
	jb	.LBB5_275
	movq	32(%rsp), %rax
	movq	72(%rsp), %rdx
	leaq	(%rdx,%rax), %r8
	jmp	.LBB5_277
.LBB5_263:
	cmpb	$-126, 32(%rsp)
	jne	.LBB5_269
	cmpq	$1, %rcx
	jbe	.LBB5_275
	movzbl	2(%rsi), %eax
	testq	%rax, %rax
	je	.LBB5_275
	leaq	-4(%rdx), %rcx
	shll	$8, %eax
	movzbl	3(%rsi), %edi
	orq	%rax, %rdi
	movq	%rdi, 32(%rsp)
	subq	%rdi, %rcx
	jb	.LBB5_275
	addq	$4, %rsi
	jmp	.LBB5_274
.LBB5_268:
	movzbl	8(%rsp), %ecx
	leal	-17(%rcx), %eax
	movzbl	%al, %eax
	leaq	1(%rax), %rdx
	xorl	%esi, %esi
	cmpb	$3, %al
	cmovbq	%rdx, %rsi
	movl	$18, %eax
	leaq	.LJTI5_0(%rip), %rdx
	movslq	(%rdx,%rsi,4), %rsi
	addq	%rdx, %rsi
	notrack	jmpq	*%rsi
.LBB5_269:
	testq	%rcx, %rcx
	je	.LBB5_275
	cmpb	$-127, 32(%rsp)
	jne	.LBB5_275
	movq	72(%rsp), %rax
	movzbl	(%rax), %ecx
	movq	%rcx, 32(%rsp)
	testb	%cl, %cl
	jns	.LBB5_275
	leaq	-3(%rdx), %rcx
	subq	32(%rsp), %rcx
	jb	.LBB5_275
	addq	$3, %rsi
.LBB5_274:
	movq	32(%rsp), %rax
	leaq	(%rsi,%rax), %r8
	movq	%rsi, 72(%rsp)
	jmp	.LBB5_278
.LBB5_275:
	movq	%rsp, %rdi
	movl	$2, %ecx
	callq	_RNvNtNtNtCs00000000000_7pkcs1_c6proved8der_core5split14split_unlikely
	movq	(%rsp), %rax
	movq	%rax, 72(%rsp)
	testq	%rax, %rax
	je	.LBB5_296
	movq	8(%rsp), %rax
	movq	%rax, 32(%rsp)
	movq	16(%rsp), %r8
	movq	24(%rsp), %rcx
.LBB5_277:
	cmpq	$0, 32(%rsp)
	je	.LBB5_75
.LBB5_278:
	movq	72(%rsp), %rax
	cmpb	$0, (%rax)
	je	.LBB5_281
	jns	.LBB5_286
	jmp	.LBB5_35
.LBB5_281:
	decq	32(%rsp)
	je	.LBB5_285
	movl	$5, %eax
	movq	72(%rsp), %rdx
	cmpb	$0, 1(%rdx)
	jns	.LBB5_76
	incq	72(%rsp)
	jmp	.LBB5_286
.LBB5_285:
	movl	$1, %eax
	movq	%rax, 32(%rsp)
.LBB5_286:
	cmpq	$2, %rcx
	jb	.LBB5_303
	cmpb	$2, (%r8)
	jne	.LBB5_303
	leaq	2(%r8), %rax
	movq	%rax, 136(%rsp)
	leaq	-2(%rcx), %rdx
	movsbq	1(%r8), %rsi
	movq	%rsi, 64(%rsp)
	testq	%rsi, %rsi
	js	.LBB5_291
	subq	64(%rsp), %rdx
	jb	.LBB5_303
	movq	64(%rsp), %rax
	movq	136(%rsp), %rcx
	leaq	(%rcx,%rax), %rsi
	jmp	.LBB5_305
.LBB5_291:
	cmpb	$-126, 64(%rsp)
	jne	.LBB5_297
	cmpq	$1, %rdx
	jbe	.LBB5_303
	movzbl	2(%r8), %eax
	testq	%rax, %rax
	je	.LBB5_303
	leaq	-4(%rcx), %rdx
	shll	$8, %eax
	movzbl	3(%r8), %esi
	orq	%rax, %rsi
	movq	%rsi, 64(%rsp)
	subq	%rsi, %rdx
	jb	.LBB5_303
	addq	$4, %r8
	jmp	.LBB5_302
.LBB5_296:
	movzbl	8(%rsp), %ecx
	leal	-17(%rcx), %eax
	movzbl	%al, %eax
	leaq	1(%rax), %rdx
	xorl	%esi, %esi
	cmpb	$3, %al
	cmovbq	%rdx, %rsi
	movl	$18, %eax
	leaq	.LJTI5_0(%rip), %rdx
	movslq	(%rdx,%rsi,4), %rsi
	addq	%rdx, %rsi
	notrack	jmpq	*%rsi
.LBB5_297:
	testq	%rdx, %rdx
	je	.LBB5_303
	cmpb	$-127, 64(%rsp)
	jne	.LBB5_303
	movq	136(%rsp), %rax
	movzbl	(%rax), %edx
	movq	%rdx, 64(%rsp)
	testb	%dl, %dl
	jns	.LBB5_303
	leaq	-3(%rcx), %rdx
	subq	64(%rsp), %rdx
	jb	.LBB5_303
	addq	$3, %r8
.LBB5_302:
	movq	64(%rsp), %rax
	leaq	(%r8,%rax), %rsi
	movq	%r8, 136(%rsp)
	jmp	.LBB5_306
.LBB5_303:
	movq	%rsp, %rdi
	movq	%r8, %rsi
	movq	%rcx, %rdx
	movl	$2, %ecx
	callq	_RNvNtNtNtCs00000000000_7pkcs1_c6proved8der_core5split14split_unlikely
	movq	(%rsp), %rax
	movq	%rax, 136(%rsp)
	testq	%rax, %rax
	je	.LBB5_324
	movq	8(%rsp), %rax
	movq	%rax, 64(%rsp)
	movq	16(%rsp), %rsi
	movq	24(%rsp), %rdx
.LBB5_305:
	cmpq	$0, 64(%rsp)
	je	.LBB5_75
.LBB5_306:
	movq	136(%rsp), %rax
	cmpb	$0, (%rax)
	je	.LBB5_309
	jns	.LBB5_314
	jmp	.LBB5_35
.LBB5_309:
	decq	64(%rsp)
	je	.LBB5_313
	movl	$5, %eax
	movq	136(%rsp), %rcx
	cmpb	$0, 1(%rcx)
	jns	.LBB5_76
	incq	136(%rsp)
	jmp	.LBB5_314
.LBB5_313:
	movl	$1, %eax
	movq	%rax, 64(%rsp)
.LBB5_314:
	cmpq	$2, %rdx
	jb	.LBB5_331
	cmpb	$2, (%rsi)
	jne	.LBB5_331
	leaq	2(%rsi), %rax
	movq	%rax, 128(%rsp)
	leaq	-2(%rdx), %rcx
	movsbq	1(%rsi), %rdi
	movq	%rdi, 56(%rsp)
	testq	%rdi, %rdi
	js	.LBB5_319
	subq	56(%rsp), %rcx
	jb	.LBB5_331
	movq	56(%rsp), %rax
	movq	128(%rsp), %rdx
	leaq	(%rdx,%rax), %r8
	jmp	.LBB5_333
.LBB5_319:
	cmpb	$-126, 56(%rsp)
	jne	.LBB5_325
	cmpq	$1, %rcx
	jbe	.LBB5_331
	movzbl	2(%rsi), %eax
	testq	%rax, %rax
	je	.LBB5_331
	leaq	-4(%rdx), %rcx
	shll	$8, %eax
	movzbl	3(%rsi), %edi
	orq	%rax, %rdi
	movq	%rdi, 56(%rsp)
	subq	%rdi, %rcx
	jb	.LBB5_331
	addq	$4, %rsi
	jmp	.LBB5_330
.LBB5_324:
	movzbl	8(%rsp), %ecx
	leal	-17(%rcx), %eax
	movzbl	%al, %eax
	leaq	1(%rax), %rdx
	xorl	%esi, %esi
	cmpb	$3, %al
	cmovbq	%rdx, %rsi
	movl	$18, %eax
	leaq	.LJTI5_0(%rip), %rdx
	movslq	(%rdx,%rsi,4), %rsi
	addq	%rdx, %rsi
	notrack	jmpq	*%rsi
.LBB5_325:
	testq	%rcx, %rcx
	je	.LBB5_331
	cmpb	$-127, 56(%rsp)
	jne	.LBB5_331
	movq	128(%rsp), %rax
	movzbl	(%rax), %ecx
	movq	%rcx, 56(%rsp)
	testb	%cl, %cl
	jns	.LBB5_331
	leaq	-3(%rdx), %rcx
	subq	56(%rsp), %rcx
	jb	.LBB5_331
	addq	$3, %rsi
.LBB5_330:
	movq	56(%rsp), %rax
	leaq	(%rsi,%rax), %r8
	movq	%rsi, 128(%rsp)
	jmp	.LBB5_334
.LBB5_331:
	movq	%rsp, %rdi
	movl	$2, %ecx
	callq	_RNvNtNtNtCs00000000000_7pkcs1_c6proved8der_core5split14split_unlikely
	movq	(%rsp), %rax
	movq	%rax, 128(%rsp)
	testq	%rax, %rax
	je	.LBB5_352
	movq	8(%rsp), %rax
	movq	%rax, 56(%rsp)
	movq	16(%rsp), %r8
	movq	24(%rsp), %rcx
.LBB5_333:
	cmpq	$0, 56(%rsp)
	je	.LBB5_75
.LBB5_334:
	movq	128(%rsp), %rax
	cmpb	$0, (%rax)
	je	.LBB5_337
	jns	.LBB5_342
	jmp	.LBB5_35
.LBB5_337:
	decq	56(%rsp)
	je	.LBB5_341
	movl	$5, %eax
	movq	128(%rsp), %rdx
	cmpb	$0, 1(%rdx)
	jns	.LBB5_76
	incq	128(%rsp)
	jmp	.LBB5_342
.LBB5_341:
	movl	$1, %eax
	movq	%rax, 56(%rsp)
.LBB5_342:
	cmpq	$2, %rcx
	jb	.LBB5_359
	cmpb	$2, (%r8)
	jne	.LBB5_359
	leaq	2(%r8), %rax
	movq	%rax, 120(%rsp)
	leaq	-2(%rcx), %rdx
	movsbq	1(%r8), %rsi
	movq	%rsi, 48(%rsp)
	testq	%rsi, %rsi
	js	.LBB5_347
	subq	48(%rsp), %rdx
	jb	.LBB5_359
	movq	48(%rsp), %rax
	movq	120(%rsp), %rcx
	leaq	(%rcx,%rax), %rsi
	jmp	.LBB5_361
.LBB5_347:
	cmpb	$-126, 48(%rsp)
	jne	.LBB5_353
	cmpq	$1, %rdx
	jbe	.LBB5_359
	movzbl	2(%r8), %eax
	testq	%rax, %rax
	je	.LBB5_359
	leaq	-4(%rcx), %rdx
	shll	$8, %eax
	movzbl	3(%r8), %esi
	orq	%rax, %rsi
	movq	%rsi, 48(%rsp)
	subq	%rsi, %rdx
	jb	.LBB5_359
	addq	$4, %r8
	jmp	.LBB5_358
.LBB5_352:
	movzbl	8(%rsp), %ecx
	leal	-17(%rcx), %eax
	movzbl	%al, %eax
	leaq	1(%rax), %rdx
	xorl	%esi, %esi
	cmpb	$3, %al
	cmovbq	%rdx, %rsi
	movl	$18, %eax
	leaq	.LJTI5_0(%rip), %rdx
	movslq	(%rdx,%rsi,4), %rsi
	addq	%rdx, %rsi
	notrack	jmpq	*%rsi
.LBB5_353:
	testq	%rdx, %rdx
	je	.LBB5_359
	cmpb	$-127, 48(%rsp)
	jne	.LBB5_359
	movq	120(%rsp), %rax
	movzbl	(%rax), %edx
	movq	%rdx, 48(%rsp)
	testb	%dl, %dl
	jns	.LBB5_359
	leaq	-3(%rcx), %rdx
	subq	48(%rsp), %rdx
	jb	.LBB5_359
	addq	$3, %r8
.LBB5_358:
	movq	48(%rsp), %rax
	leaq	(%r8,%rax), %rsi
	movq	%r8, 120(%rsp)
	jmp	.LBB5_362
.LBB5_359:
	movq	%rsp, %rdi
	movq	%r8, %rsi
	movq	%rcx, %rdx
	movl	$2, %ecx
	callq	_RNvNtNtNtCs00000000000_7pkcs1_c6proved8der_core5split14split_unlikely
	movq	(%rsp), %rax
	movq	%rax, 120(%rsp)
	testq	%rax, %rax
	je	.LBB5_380
	movq	8(%rsp), %rax
	movq	%rax, 48(%rsp)
	movq	16(%rsp), %rsi
	movq	24(%rsp), %rdx
.LBB5_361:
	cmpq	$0, 48(%rsp)
	je	.LBB5_75
.LBB5_362:
	movq	120(%rsp), %rax
	cmpb	$0, (%rax)
	je	.LBB5_365
	jns	.LBB5_370
	jmp	.LBB5_35
.LBB5_365:
	decq	48(%rsp)
	je	.LBB5_369
	movl	$5, %eax
	movq	120(%rsp), %rcx
	cmpb	$0, 1(%rcx)
	jns	.LBB5_76
	incq	120(%rsp)
	jmp	.LBB5_370
.LBB5_369:
	movl	$1, %eax
	movq	%rax, 48(%rsp)
.LBB5_370:
	cmpq	$2, %rdx
	jb	.LBB5_387
	cmpb	$2, (%rsi)
	jne	.LBB5_387
	leaq	2(%rsi), %rax
	movq	%rax, 112(%rsp)
	leaq	-2(%rdx), %rcx
	movsbq	1(%rsi), %rbp
	testq	%rbp, %rbp
	js	.LBB5_375
	subq	%rbp, %rcx
	jb	.LBB5_387
	movq	112(%rsp), %rax
	leaq	(%rax,%rbp), %r8
	jmp	.LBB5_389
.LBB5_375:
	cmpb	$-126, %bpl
	jne	.LBB5_381
	cmpq	$1, %rcx
	jbe	.LBB5_387
	movzbl	2(%rsi), %eax
	testq	%rax, %rax
	je	.LBB5_387
	leaq	-4(%rdx), %rcx
	shll	$8, %eax
	movzbl	3(%rsi), %ebp
	orq	%rax, %rbp
	subq	%rbp, %rcx
	jb	.LBB5_387
	addq	$4, %rsi
	jmp	.LBB5_386
.LBB5_380:
	movzbl	8(%rsp), %ecx
	leal	-17(%rcx), %eax
	movzbl	%al, %eax
	leaq	1(%rax), %rdx
	xorl	%esi, %esi
	cmpb	$3, %al
	cmovbq	%rdx, %rsi
	movl	$18, %eax
	leaq	.LJTI5_0(%rip), %rdx
	movslq	(%rdx,%rsi,4), %rsi
	addq	%rdx, %rsi
	notrack	jmpq	*%rsi
.LBB5_381:
	testq	%rcx, %rcx
	je	.LBB5_387
	cmpb	$-127, %bpl
	jne	.LBB5_387
	movq	112(%rsp), %rax
	movzbl	(%rax), %ebp
	testb	%bpl, %bpl
	jns	.LBB5_387
	leaq	-3(%rdx), %rcx
	subq	%rbp, %rcx
	jb	.LBB5_387
	addq	$3, %rsi
.LBB5_386:
	leaq	(%rsi,%rbp), %r8
	movq	%rsi, 112(%rsp)
	jmp	.LBB5_390
.LBB5_387:
	movq	%rsp, %rdi
	movl	$2, %ecx
	callq	_RNvNtNtNtCs00000000000_7pkcs1_c6proved8der_core5split14split_unlikely
	movq	(%rsp), %rax
	movq	%rax, 112(%rsp)
	testq	%rax, %rax
	je	.LBB5_408
	movq	8(%rsp), %rbp
	movq	16(%rsp), %r8
	movq	24(%rsp), %rcx
.LBB5_389:
	testq	%rbp, %rbp
	je	.LBB5_75
.LBB5_390:
	movq	112(%rsp), %rax
	cmpb	$0, (%rax)
	je	.LBB5_393
	jns	.LBB5_398
	jmp	.LBB5_35
.LBB5_393:
	decq	%rbp
	je	.LBB5_397
	movl	$5, %eax
	movq	112(%rsp), %rdx
	cmpb	$0, 1(%rdx)
	jns	.LBB5_76
	incq	112(%rsp)
	jmp	.LBB5_398
.LBB5_397:
	movl	$1, %ebp
.LBB5_398:
	cmpq	$2, %rcx
	jb	.LBB5_415
	cmpb	$2, (%r8)
	jne	.LBB5_415
	leaq	2(%r8), %rax
	movq	%rax, 104(%rsp)
	leaq	-2(%rcx), %rdx
	movsbq	1(%r8), %r13
	testq	%r13, %r13
	js	.LBB5_403
	subq	%r13, %rdx
	jb	.LBB5_415
	movq	104(%rsp), %rax
	leaq	(%rax,%r13), %rsi
	jmp	.LBB5_417
.LBB5_403:
	cmpb	$-126, %r13b
	jne	.LBB5_409
	cmpq	$1, %rdx
	jbe	.LBB5_415
	movzbl	2(%r8), %eax
	testq	%rax, %rax
	je	.LBB5_415
	leaq	-4(%rcx), %rdx
	shll	$8, %eax
	movzbl	3(%r8), %r13d
	orq	%rax, %r13
	subq	%r13, %rdx
	jb	.LBB5_415
	addq	$4, %r8
	jmp	.LBB5_414
.LBB5_408:
	movzbl	8(%rsp), %ecx
	leal	-17(%rcx), %eax
	movzbl	%al, %eax
	leaq	1(%rax), %rdx
	xorl	%esi, %esi
	cmpb	$3, %al
	cmovbq	%rdx, %rsi
	movl	$18, %eax
	leaq	.LJTI5_0(%rip), %rdx
	movslq	(%rdx,%rsi,4), %rsi
	addq	%rdx, %rsi
	notrack	jmpq	*%rsi
.LBB5_409:
	testq	%rdx, %rdx
	je	.LBB5_415
	cmpb	$-127, %r13b
	jne	.LBB5_415
	movq	104(%rsp), %rax
	movzbl	(%rax), %r13d
	testb	%r13b, %r13b
	jns	.LBB5_415
	leaq	-3(%rcx), %rdx
	subq	%r13, %rdx
	jb	.LBB5_415
	addq	$3, %r8
.LBB5_414:
	leaq	(%r8,%r13), %rsi
	movq	%r8, 104(%rsp)
	jmp	.LBB5_418
.LBB5_415:
	movq	%rsp, %rdi
	movq	%r8, %rsi
	movq	%rcx, %rdx
	movl	$2, %ecx
	callq	_RNvNtNtNtCs00000000000_7pkcs1_c6proved8der_core5split14split_unlikely
	movq	(%rsp), %rax
	movq	%rax, 104(%rsp)
	testq	%rax, %rax
	je	.LBB5_436
	movq	8(%rsp), %r13
	movq	16(%rsp), %rsi
	movq	24(%rsp), %rdx
.LBB5_417:
	testq	%r13, %r13
	je	.LBB5_75
.LBB5_418:
	movq	104(%rsp), %rax
	cmpb	$0, (%rax)
	je	.LBB5_421
	jns	.LBB5_426
	jmp	.LBB5_35
.LBB5_75:
	movl	$4, %eax
.LBB5_76:
	addq	$184, %rsp
	.cfi_def_cfa_offset 56
	popq	%rbx
	.cfi_def_cfa_offset 48
	popq	%r12
	.cfi_def_cfa_offset 40
	popq	%r13
	.cfi_def_cfa_offset 32
	popq	%r14
	.cfi_def_cfa_offset 24
	popq	%r15
	.cfi_def_cfa_offset 16
	popq	%rbp
	.cfi_def_cfa_offset 8
	retq
.LBB5_421:
	.cfi_def_cfa_offset 240
	decq	%r13
	je	.LBB5_425
	movl	$5, %eax
	movq	104(%rsp), %rcx
	cmpb	$0, 1(%rcx)
	jns	.LBB5_76
	incq	104(%rsp)
	jmp	.LBB5_426
.LBB5_425:
	movl	$1, %r13d
.LBB5_426:
	cmpq	$2, %rdx
	jb	.LBB5_443
	cmpb	$2, (%rsi)
	jne	.LBB5_443
	leaq	2(%rsi), %rax
	movq	%rax, 96(%rsp)
	leaq	-2(%rdx), %r8
	movsbq	1(%rsi), %rcx
	movq	%rcx, 40(%rsp)
	testq	%rcx, %rcx
	js	.LBB5_431
	subq	40(%rsp), %r8
	jb	.LBB5_443
	movq	40(%rsp), %rax
	movq	96(%rsp), %rcx
	leaq	(%rcx,%rax), %rdx
	jmp	.LBB5_445
.LBB5_431:
	cmpb	$-126, 40(%rsp)
	jne	.LBB5_437
	cmpq	$1, %r8
	jbe	.LBB5_443
	movzbl	2(%rsi), %eax
	testq	%rax, %rax
	je	.LBB5_443
	leaq	-4(%rdx), %r8
	shll	$8, %eax
	movzbl	3(%rsi), %ecx
	orq	%rax, %rcx
	movq	%rcx, 40(%rsp)
	subq	%rcx, %r8
	jb	.LBB5_443
	addq	$4, %rsi
	jmp	.LBB5_442
.LBB5_436:
	movzbl	8(%rsp), %ecx
	leal	-17(%rcx), %eax
	movzbl	%al, %eax
	leaq	1(%rax), %rdx
	xorl	%esi, %esi
	cmpb	$3, %al
	cmovbq	%rdx, %rsi
	movl	$18, %eax
	leaq	.LJTI5_0(%rip), %rdx
	movslq	(%rdx,%rsi,4), %rsi
	addq	%rdx, %rsi
	notrack	jmpq	*%rsi
.LBB5_437:
	testq	%r8, %r8
	je	.LBB5_443
	cmpb	$-127, 40(%rsp)
	jne	.LBB5_443
	movq	96(%rsp), %rax
	movzbl	(%rax), %ecx
	movq	%rcx, 40(%rsp)
	testb	%cl, %cl
	jns	.LBB5_443
	leaq	-3(%rdx), %r8
	subq	40(%rsp), %r8
	jb	.LBB5_443
	addq	$3, %rsi
.LBB5_442:
	movq	40(%rsp), %rax
	leaq	(%rsi,%rax), %rdx
	movq	%rsi, 96(%rsp)
	jmp	.LBB5_446
.LBB5_443:
	movq	%rsp, %rdi
	movl	$2, %ecx
	callq	_RNvNtNtNtCs00000000000_7pkcs1_c6proved8der_core5split14split_unlikely
	movq	(%rsp), %rax
	movq	%rax, 96(%rsp)
	testq	%rax, %rax
	je	.LBB5_459
	movq	8(%rsp), %rax
	movq	%rax, 40(%rsp)
	movq	16(%rsp), %rdx
	movq	24(%rsp), %r8
.LBB5_445:
	movl	$4, %eax
	cmpq	$0, 40(%rsp)
	je	.LBB5_76
.LBB5_446:
	movq	96(%rsp), %rax
	cmpb	$0, (%rax)
	je	.LBB5_448
	movl	$14, %eax
	jns	.LBB5_452
	jmp	.LBB5_76
.LBB5_448:
	decq	40(%rsp)
	je	.LBB5_451
	movl	$5, %eax
	movq	96(%rsp), %rcx
	cmpb	$0, 1(%rcx)
	jns	.LBB5_76
	incq	96(%rsp)
	jmp	.LBB5_452
.LBB5_451:
	movl	$1, %eax
	movq	%rax, 40(%rsp)
.LBB5_452:
	testq	%r8, %r8
	je	.LBB5_454
	movzbl	%r12b, %ecx
	andl	$1, %ecx
	movq	%rsp, %rdi
	movq	%rdx, %rsi
	movq	%r8, %rdx
	jmp	.LBB5_456
.LBB5_454:
	testb	$1, %r12b
	je	.LBB5_460
	movq	%rsp, %rdi
	movq	%rdx, %rsi
	xorl	%edx, %edx
	movl	$1, %ecx
.LBB5_456:
	callq	_RNvNtNtNtCs00000000000_7pkcs1_c6proved5pkcs110viewed_key9read_list
	cmpb	$0, (%rsp)
	je	.LBB5_458
	movzbl	1(%rsp), %ecx
	leal	-17(%rcx), %eax
	movzbl	%al, %eax
	leaq	1(%rax), %rdx
	xorl	%esi, %esi
	cmpb	$3, %al
	cmovbq	%rdx, %rsi
	movl	$18, %eax
	leaq	.LJTI5_0(%rip), %rdx
	movslq	(%rdx,%rsi,4), %rsi
	addq	%rdx, %rsi
	notrack	jmpq	*%rsi
.LBB5_458:
	movq	8(%rsp), %rcx
	jmp	.LBB5_461
.LBB5_459:
	movzbl	8(%rsp), %ecx
	leal	-17(%rcx), %eax
	movzbl	%al, %eax
	leaq	1(%rax), %rdx
	xorl	%esi, %esi
	cmpb	$3, %al
	cmovbq	%rdx, %rsi
	movl	$18, %eax
	leaq	.LJTI5_0(%rip), %rdx
	movslq	(%rdx,%rsi,4), %rsi
	addq	%rdx, %rsi
	notrack	jmpq	*%rsi
.LBB5_460:
	xorl	%ecx, %ecx
.LBB5_461:
	movl	$13, %eax
	testq	%r14, %r14
	jne	.LBB5_76
	movq	144(%rsp), %rsi
	testq	%rsi, %rsi
	movq	152(%rsp), %rdi
	cmoveq	%rsi, %rdi
	movq	168(%rsp), %rdx
	movq	80(%rsp), %rax
	movq	%rax, (%rdx)
	leaq	_RNvNtCs00000000000_7pkcs1_c10rattle_std8AN_OCTET(%rip), %rax
	cmoveq	%rax, %rsi
	movq	%r15, 8(%rdx)
	setne	16(%rdx)
	movq	%rsi, 24(%rdx)
	movq	%rdi, 32(%rdx)
	movq	176(%rsp), %rdx
	movq	88(%rsp), %rsi
	movq	%rsi, (%rdx)
	movq	%rbx, 8(%rdx)
	movq	72(%rsp), %rsi
	movq	%rsi, 16(%rdx)
	movq	32(%rsp), %rsi
	movq	%rsi, 24(%rdx)
	movq	136(%rsp), %rsi
	movq	%rsi, 32(%rdx)
	movq	64(%rsp), %rsi
	movq	%rsi, 40(%rdx)
	movq	128(%rsp), %rsi
	movq	%rsi, 48(%rdx)
	movq	56(%rsp), %rsi
	movq	%rsi, 56(%rdx)
	movq	120(%rsp), %rsi
	movq	%rsi, 64(%rdx)
	movq	48(%rsp), %rsi
	movq	%rsi, 72(%rdx)
	movq	112(%rsp), %rsi
	movq	%rsi, 80(%rdx)
	movq	%rbp, 88(%rdx)
	movq	104(%rsp), %rsi
	movq	%rsi, 96(%rdx)
	movq	%r13, 104(%rdx)
	movq	96(%rsp), %rsi
	movq	%rsi, 112(%rdx)
	movq	16(%rsp), %rsi
	movq	40(%rsp), %rdi
	movq	%rdi, 120(%rdx)
	movq	24(%rsp), %rdi
	testq	%rcx, %rcx
	cmoveq	%rcx, %rdi
	cmoveq	%rcx, %rsi
	cmoveq	%rax, %rcx
	movq	%rdi, 128(%rdx)
	movq	160(%rsp), %rax
	movq	%rcx, (%rax)
	movq	%rsi, 8(%rax)
	xorl	%eax, %eax
	jmp	.LBB5_76
.Lfunc_end5:
	.size	pkcs1_c_private_key_info_decode, .Lfunc_end5-pkcs1_c_private_key_info_decode
	.cfi_endproc
	.section	.rodata.pkcs1_c_private_key_info_decode,"a",@progbits
	.p2align	2, 0x0
.LJTI5_0:
	.long	.LBB5_78-.LJTI5_0
	.long	.LBB5_76-.LJTI5_0
	.long	.LBB5_115-.LJTI5_0
	.long	.LBB5_186-.LJTI5_0

	.section	.text.pkcs1_c_private_key_info_encode,"ax",@progbits
	.globl	pkcs1_c_private_key_info_encode
	.p2align	4, 0x90
	.type	pkcs1_c_private_key_info_encode,@function
pkcs1_c_private_key_info_encode:
	.cfi_startproc
	endbr64
	pushq	%rbp
	.cfi_def_cfa_offset 16
	pushq	%r15
	.cfi_def_cfa_offset 24
	pushq	%r14
	.cfi_def_cfa_offset 32
	pushq	%r13
	.cfi_def_cfa_offset 40
	pushq	%r12
	.cfi_def_cfa_offset 48
	pushq	%rbx
	.cfi_def_cfa_offset 56
	subq	$120, %rsp
	.cfi_def_cfa_offset 176
	.cfi_offset %rbx, -56
	.cfi_offset %r12, -48
	.cfi_offset %r13, -40
	.cfi_offset %r14, -32
	.cfi_offset %r15, -24
	.cfi_offset %rbp, -16
	movq	8(%rdi), %rbx
	movq	%rbx, %rax
	shrq	$32, %rax
	movb	$7, %r11b
	jne	.LBB6_98
	movq	(%rdi), %rbp
	cmpq	$2, %rbx
	jb	.LBB6_25
	cmpb	$48, (%rbp)
	jne	.LBB6_25
	leaq	2(%rbp), %rax
	leaq	-2(%rbx), %r14
	movsbq	1(%rbp), %r8
	testq	%r8, %r8
	js	.LBB6_10
	subq	%r8, %r14
	jb	.LBB6_25
	cmpq	$2, %r8
	jb	.LBB6_95
.LBB6_6:
	cmpb	$2, (%rax)
	jne	.LBB6_95
	leaq	2(%rax), %r12
	leaq	-2(%r8), %r9
	movsbq	1(%rax), %r10
	testq	%r10, %r10
	js	.LBB6_15
	subq	%r10, %r9
	jb	.LBB6_95
	leaq	(%r12,%r10), %r8
	testq	%r10, %r10
	jne	.LBB6_33
	jmp	.LBB6_97
.LBB6_10:
	cmpb	$-126, %r8b
	jne	.LBB6_20
	cmpq	$1, %r14
	jbe	.LBB6_25
	movzbl	2(%rbp), %eax
	testq	%rax, %rax
	je	.LBB6_25
	leaq	-4(%rbx), %r14
	shll	$8, %eax
	movzbl	3(%rbp), %r8d
	orq	%rax, %r8
	subq	%r8, %r14
	jb	.LBB6_25
	leaq	4(%rbp), %rax
	jmp	.LBB6_6
.LBB6_15:
	cmpb	$-126, %r10b
	jne	.LBB6_27
	cmpq	$1, %r9
	jbe	.LBB6_95
	movzbl	2(%rax), %r11d
	testq	%r11, %r11
	je	.LBB6_95
	leaq	-4(%r8), %r9
	shll	$8, %r11d
	movzbl	3(%rax), %r10d
	orq	%r11, %r10
	subq	%r10, %r9
	jb	.LBB6_95
	addq	$4, %rax
	leaq	(%rax,%r10), %r8
	movq	%rax, %r12
	testq	%r10, %r10
	jne	.LBB6_33
	jmp	.LBB6_97
.LBB6_20:
	testq	%r14, %r14
	je	.LBB6_25
	cmpb	$-127, %r8b
	jne	.LBB6_25
	movzbl	(%rax), %r8d
	testb	%r8b, %r8b
	jns	.LBB6_25
	leaq	-3(%rbx), %r14
	subq	%r8, %r14
	jb	.LBB6_25
	leaq	3(%rbp), %rax
	jmp	.LBB6_6
.LBB6_25:
	movq	%rdi, %r14
	movq	%rcx, %r15
	movq	%rdx, %r12
	movq	%rsi, %r13
	leaq	32(%rsp), %rdi
	movq	%rbp, %rsi
	movq	%rbx, %rdx
	movl	$48, %ecx
	callq	_RNvNtNtNtCs00000000000_7pkcs1_c6proved8der_core5split14split_unlikely
	movq	32(%rsp), %rax
	testq	%rax, %rax
	je	.LBB6_43
	movq	40(%rsp), %r8
	movq	56(%rsp), %r9
	movq	%r13, %rsi
	movq	%r12, %rdx
	movq	%r15, %rcx
	movq	%r14, %rdi
	movq	%r9, %r14
	cmpq	$2, %r8
	jae	.LBB6_6
	jmp	.LBB6_95
.LBB6_27:
	testq	%r9, %r9
	je	.LBB6_94
	cmpb	$-127, %r10b
	jne	.LBB6_95
	movzbl	(%r12), %r10d
	testb	%r10b, %r10b
	jns	.LBB6_95
	leaq	-3(%r8), %r9
	subq	%r10, %r9
	jb	.LBB6_95
	addq	$3, %rax
	leaq	(%rax,%r10), %r8
	movq	%rax, %r12
	testq	%r10, %r10
	jne	.LBB6_33
	jmp	.LBB6_97
.LBB6_43:
	movzbl	40(%rsp), %r11d
	leal	-17(%r11), %eax
	movzbl	%al, %eax
	leaq	1(%rax), %rcx
	xorl	%edx, %edx
	cmpb	$3, %al
	cmovbq	%rcx, %rdx
	movl	$18, %eax
	leaq	.LJTI6_0(%rip), %rcx
	movslq	(%rcx,%rdx,4), %rdx
	addq	%rcx, %rdx
	notrack	jmpq	*%rdx
.LBB6_94:
	movl	$2, %r8d
.LBB6_95:
	movq	%r14, 24(%rsp)
	movq	%rbx, 16(%rsp)
	movq	%rbp, %rbx
	movq	%rdi, %r13
	movq	%rcx, %rbp
	movq	%rdx, %r14
	movq	%rsi, %r15
	leaq	32(%rsp), %rdi
	movq	%rax, %rsi
	movq	%r8, %rdx
	movl	$2, %ecx
	callq	_RNvNtNtNtCs00000000000_7pkcs1_c6proved8der_core5split14split_unlikely
	movq	32(%rsp), %r12
	testq	%r12, %r12
	je	.LBB6_100
	movq	40(%rsp), %r10
	movq	48(%rsp), %r8
	movq	56(%rsp), %r9
	movq	%r15, %rsi
	movq	%r14, %rdx
	movq	%rbp, %rcx
	movq	%r13, %rdi
	movq	%rbx, %rbp
	movq	16(%rsp), %rbx
	movq	24(%rsp), %r14
	testq	%r10, %r10
	je	.LBB6_97
.LBB6_33:
	cmpq	$1, %r10
	jne	.LBB6_40
	movzbl	(%r12), %r15d
	cmpb	$2, %r15b
	jae	.LBB6_42
	cmpq	$2, %r9
	jb	.LBB6_55
	cmpb	$2, (%r8)
	jne	.LBB6_55
	leaq	2(%r8), %r12
	leaq	-2(%r9), %rax
	movsbq	1(%r8), %r10
	testq	%r10, %r10
	js	.LBB6_44
	subq	%r10, %rax
	jb	.LBB6_55
	leaq	(%r12,%r10), %r9
	testq	%r10, %r10
	jne	.LBB6_57
	jmp	.LBB6_97
.LBB6_40:
	movb	$13, %r11b
	cmpb	$0, (%r12)
	jne	.LBB6_98
	xorl	%eax, %eax
	cmpb	$0, 1(%r12)
	sets	%al
	leal	4(%rax,%rax,8), %r11d
	leal	-17(%r11), %eax
	movzbl	%al, %eax
	leaq	1(%rax), %rcx
	xorl	%edx, %edx
	cmpb	$3, %al
	cmovbq	%rcx, %rdx
	movl	$18, %eax
	leaq	.LJTI6_0(%rip), %rcx
	movslq	(%rcx,%rdx,4), %rdx
	addq	%rcx, %rdx
	notrack	jmpq	*%rdx
.LBB6_100:
	movzbl	40(%rsp), %r11d
	leal	-17(%r11), %eax
	movzbl	%al, %eax
	leaq	1(%rax), %rcx
	xorl	%edx, %edx
	cmpb	$3, %al
	cmovbq	%rcx, %rdx
	movl	$18, %eax
	leaq	.LJTI6_0(%rip), %rcx
	movslq	(%rcx,%rdx,4), %rdx
	addq	%rcx, %rdx
	notrack	jmpq	*%rdx
.LBB6_101:
	movl	$19, %eax
	jmp	.LBB6_99
.LBB6_44:
	cmpb	$-126, %r10b
	jne	.LBB6_49
	cmpq	$1, %rax
	jbe	.LBB6_55
	movzbl	2(%r8), %r11d
	testq	%r11, %r11
	je	.LBB6_55
	leaq	-4(%r9), %rax
	shll	$8, %r11d
	movzbl	3(%r8), %r10d
	orq	%r11, %r10
	subq	%r10, %rax
	jb	.LBB6_55
	addq	$4, %r8
	jmp	.LBB6_54
.LBB6_49:
	testq	%rax, %rax
	je	.LBB6_55
	cmpb	$-127, %r10b
	jne	.LBB6_55
	movzbl	(%r12), %r10d
	testb	%r10b, %r10b
	jns	.LBB6_55
	leaq	-3(%r9), %rax
	subq	%r10, %rax
	jb	.LBB6_55
	addq	$3, %r8
.LBB6_54:
	leaq	(%r8,%r10), %r9
	movq	%r8, %r12
	jmp	.LBB6_57
.LBB6_55:
	movb	%r15b, 15(%rsp)
	movq	%r14, 24(%rsp)
	movq	%rbx, 16(%rsp)
	movq	%rbp, %rbx
	movq	%rdi, %r14
	movq	%rcx, %r15
	movq	%rdx, %r13
	movq	%rsi, %rbp
	leaq	32(%rsp), %rdi
	movq	%r8, %rsi
	movq	%r9, %rdx
	movl	$2, %ecx
	callq	_RNvNtNtNtCs00000000000_7pkcs1_c6proved8der_core5split14split_unlikely
	movq	32(%rsp), %r12
	testq	%r12, %r12
	je	.LBB6_73
	movq	40(%rsp), %r10
	movq	48(%rsp), %r9
	movq	56(%rsp), %rax
	movq	%rbp, %rsi
	movq	%r13, %rdx
	movq	%r15, %rcx
	movq	%r14, %rdi
	movq	%rbx, %rbp
	movq	16(%rsp), %rbx
	movq	24(%rsp), %r14
	movzbl	15(%rsp), %r15d
	testq	%r10, %r10
	je	.LBB6_97
.LBB6_57:
	cmpb	$0, (%r12)
	je	.LBB6_60
	jns	.LBB6_62
	jmp	.LBB6_42
.LBB6_60:
	cmpq	$1, %r10
	je	.LBB6_62
	movb	$4, %r11b
	cmpb	$0, 1(%r12)
	jns	.LBB6_98
.LBB6_62:
	cmpq	$2, %rax
	jb	.LBB6_80
	cmpb	$2, (%r9)
	jne	.LBB6_80
	leaq	2(%r9), %r12
	leaq	-2(%rax), %r8
	movsbq	1(%r9), %r11
	testq	%r11, %r11
	js	.LBB6_68
	subq	%r11, %r8
	jb	.LBB6_80
	leaq	(%r12,%r11), %r10
	jmp	.LBB6_82
.LBB6_68:
	cmpb	$-126, %r11b
	jne	.LBB6_74
	cmpq	$1, %r8
	jbe	.LBB6_80
	movzbl	2(%r9), %r10d
	testq	%r10, %r10
	je	.LBB6_80
	leaq	-4(%rax), %r8
	shll	$8, %r10d
	movzbl	3(%r9), %r11d
	orq	%r10, %r11
	subq	%r11, %r8
	jb	.LBB6_80
	addq	$4, %r9
	jmp	.LBB6_79
.LBB6_73:
	movzbl	40(%rsp), %r11d
	leal	-17(%r11), %eax
	movzbl	%al, %eax
	leaq	1(%rax), %rcx
	xorl	%edx, %edx
	cmpb	$3, %al
	cmovbq	%rcx, %rdx
	movl	$18, %eax
	leaq	.LJTI6_0(%rip), %rcx
	movslq	(%rcx,%rdx,4), %rdx
	addq	%rcx, %rdx
	notrack	jmpq	*%rdx
.LBB6_74:
	testq	%r8, %r8
	je	.LBB6_80
	cmpb	$-127, %r11b
	jne	.LBB6_80
	movzbl	(%r12), %r11d
	testb	%r11b, %r11b
	jns	.LBB6_80
	leaq	-3(%rax), %r8
	subq	%r11, %r8
	jb	.LBB6_80
	addq	$3, %r9
.LBB6_79:
	leaq	(%r9,%r11), %r10
	movq	%r9, %r12
	jmp	.LBB6_83
.LBB6_80:
	movb	%r15b, 15(%rsp)
	movq	%r14, 24(%rsp)
	movq	%rbx, 16(%rsp)
	movq	%rbp, %rbx
	movq	%rdi, %r14
	movq	%rcx, %r15
	movq	%rdx, %r13
	movq	%rsi, %rbp
	leaq	32(%rsp), %rdi
	movq	%r9, %rsi
	movq	%rax, %rdx
	movl	$2, %ecx
	callq	_RNvNtNtNtCs00000000000_7pkcs1_c6proved8der_core5split14split_unlikely
	movq	32(%rsp), %r12
	testq	%r12, %r12
	je	.LBB6_107
	movq	40(%rsp), %r11
	movq	48(%rsp), %r10
	movq	56(%rsp), %r8
	movq	%rbp, %rsi
	movq	%r13, %rdx
	movq	%r15, %rcx
	movq	%r14, %rdi
	movq	%rbx, %rbp
	movq	16(%rsp), %rbx
	movq	24(%rsp), %r14
	movzbl	15(%rsp), %r15d
.LBB6_82:
	testq	%r11, %r11
	je	.LBB6_97
.LBB6_83:
	cmpb	$0, (%r12)
	je	.LBB6_86
	jns	.LBB6_88
	jmp	.LBB6_42
.LBB6_86:
	cmpq	$1, %r11
	je	.LBB6_88
	movb	$4, %r11b
	cmpb	$0, 1(%r12)
	jns	.LBB6_98
.LBB6_88:
	cmpq	$2, %r8
	jb	.LBB6_114
	cmpb	$2, (%r10)
	jne	.LBB6_114
	leaq	2(%r10), %r12
	leaq	-2(%r8), %rax
	movsbq	1(%r10), %r11
	testq	%r11, %r11
	js	.LBB6_102
	subq	%r11, %rax
	jb	.LBB6_114
	leaq	(%r12,%r11), %r9
	jmp	.LBB6_116
.LBB6_102:
	cmpb	$-126, %r11b
	jne	.LBB6_108
	cmpq	$1, %rax
	jbe	.LBB6_114
	movzbl	2(%r10), %r9d
	testq	%r9, %r9
	je	.LBB6_114
	leaq	-4(%r8), %rax
	shll	$8, %r9d
	movzbl	3(%r10), %r11d
	orq	%r9, %r11
	subq	%r11, %rax
	jb	.LBB6_114
	addq	$4, %r10
	jmp	.LBB6_113
.LBB6_107:
	movzbl	40(%rsp), %r11d
	leal	-17(%r11), %eax
	movzbl	%al, %eax
	leaq	1(%rax), %rcx
	xorl	%edx, %edx
	cmpb	$3, %al
	cmovbq	%rcx, %rdx
	movl	$18, %eax
	leaq	.LJTI6_0(%rip), %rcx
	movslq	(%rcx,%rdx,4), %rdx
	addq	%rcx, %rdx
	notrack	jmpq	*%rdx
.LBB6_108:
	testq	%rax, %rax
	je	.LBB6_114
	cmpb	$-127, %r11b
	jne	.LBB6_114
	movzbl	(%r12), %r11d
	testb	%r11b, %r11b
	jns	.LBB6_114
	leaq	-3(%r8), %rax
	subq	%r11, %rax
	jb	.LBB6_114
	addq	$3, %r10
.LBB6_113:
	leaq	(%r10,%r11), %r9
	movq	%r10, %r12
	jmp	.LBB6_117
.LBB6_114:
	movb	%r15b, 15(%rsp)
	movq	%r14, 24(%rsp)
	movq	%rbx, 16(%rsp)
	movq	%rbp, %rbx
	movq	%rdi, %r14
	movq	%rcx, %r15
	movq	%rdx, %r13
	movq	%rsi, %rbp
	leaq	32(%rsp), %rdi
	movq	%r10, %rsi
	movq	%r8, %rdx
	movl	$2, %ecx
	callq	_RNvNtNtNtCs00000000000_7pkcs1_c6proved8der_core5split14split_unlikely
	movq	32(%rsp), %r12
	testq	%r12, %r12
	je	.LBB6_133
	movq	40(%rsp), %r11
	movq	48(%rsp), %r9
	movq	56(%rsp), %rax
	movq	%rbp, %rsi
	movq	%r13, %rdx
	movq	%r15, %rcx
	movq	%r14, %rdi
	movq	%rbx, %rbp
	movq	16(%rsp), %rbx
	movq	24(%rsp), %r14
	movzbl	15(%rsp), %r15d
.LBB6_116:
	testq	%r11, %r11
	je	.LBB6_97
.LBB6_117:
	cmpb	$0, (%r12)
	je	.LBB6_120
	jns	.LBB6_122
	jmp	.LBB6_42
.LBB6_120:
	cmpq	$1, %r11
	je	.LBB6_122
	movb	$4, %r11b
	cmpb	$0, 1(%r12)
	jns	.LBB6_98
.LBB6_122:
	cmpq	$2, %rax
	jb	.LBB6_140
	cmpb	$2, (%r9)
	jne	.LBB6_140
	leaq	2(%r9), %r12
	leaq	-2(%rax), %r8
	movsbq	1(%r9), %r11
	testq	%r11, %r11
	js	.LBB6_128
	subq	%r11, %r8
	jb	.LBB6_140
	leaq	(%r12,%r11), %r10
	jmp	.LBB6_142
.LBB6_128:
	cmpb	$-126, %r11b
	jne	.LBB6_134
	cmpq	$1, %r8
	jbe	.LBB6_140
	movzbl	2(%r9), %r10d
	testq	%r10, %r10
	je	.LBB6_140
	leaq	-4(%rax), %r8
	shll	$8, %r10d
	movzbl	3(%r9), %r11d
	orq	%r10, %r11
	subq	%r11, %r8
	jb	.LBB6_140
	addq	$4, %r9
	jmp	.LBB6_139
.LBB6_133:
	movzbl	40(%rsp), %r11d
	leal	-17(%r11), %eax
	movzbl	%al, %eax
	leaq	1(%rax), %rcx
	xorl	%edx, %edx
	cmpb	$3, %al
	cmovbq	%rcx, %rdx
	movl	$18, %eax
	leaq	.LJTI6_0(%rip), %rcx
	movslq	(%rcx,%rdx,4), %rdx
	addq	%rcx, %rdx
	notrack	jmpq	*%rdx
.LBB6_134:
	testq	%r8, %r8
	je	.LBB6_140
	cmpb	$-127, %r11b
	jne	.LBB6_140
	movzbl	(%r12), %r11d
	testb	%r11b, %r11b
	jns	.LBB6_140
	leaq	-3(%rax), %r8
	subq	%r11, %r8
	jb	.LBB6_140
	addq	$3, %r9
.LBB6_139:
	leaq	(%r9,%r11), %r10
	movq	%r9, %r12
	jmp	.LBB6_143
.LBB6_140:
	movb	%r15b, 15(%rsp)
	movq	%r14, 24(%rsp)
	movq	%rbx, 16(%rsp)
	movq	%rbp, %rbx
	movq	%rdi, %r14
	movq	%rcx, %r15
	movq	%rdx, %r13
	movq	%rsi, %rbp
	leaq	32(%rsp), %rdi
	movq	%r9, %rsi
	movq	%rax, %rdx
	movl	$2, %ecx
	callq	_RNvNtNtNtCs00000000000_7pkcs1_c6proved8der_core5split14split_unlikely
	movq	32(%rsp), %r12
	testq	%r12, %r12
	je	.LBB6_159
	movq	40(%rsp), %r11
	movq	48(%rsp), %r10
	movq	56(%rsp), %r8
	movq	%rbp, %rsi
	movq	%r13, %rdx
	movq	%r15, %rcx
	movq	%r14, %rdi
	movq	%rbx, %rbp
	movq	16(%rsp), %rbx
	movq	24(%rsp), %r14
	movzbl	15(%rsp), %r15d
.LBB6_142:
	testq	%r11, %r11
	je	.LBB6_97
.LBB6_143:
	cmpb	$0, (%r12)
	je	.LBB6_146
	jns	.LBB6_148
	jmp	.LBB6_42
.LBB6_146:
	cmpq	$1, %r11
	je	.LBB6_148
	movb	$4, %r11b
	cmpb	$0, 1(%r12)
	jns	.LBB6_98
.LBB6_148:
	cmpq	$2, %r8
	jb	.LBB6_166
	cmpb	$2, (%r10)
	jne	.LBB6_166
	leaq	2(%r10), %r12
	leaq	-2(%r8), %rax
	movsbq	1(%r10), %r11
	testq	%r11, %r11
	js	.LBB6_154
	subq	%r11, %rax
	jb	.LBB6_166
	leaq	(%r12,%r11), %r9
	jmp	.LBB6_168
.LBB6_154:
	cmpb	$-126, %r11b
	jne	.LBB6_160
	cmpq	$1, %rax
	jbe	.LBB6_166
	movzbl	2(%r10), %r9d
	testq	%r9, %r9
	je	.LBB6_166
	leaq	-4(%r8), %rax
	shll	$8, %r9d
	movzbl	3(%r10), %r11d
	orq	%r9, %r11
	subq	%r11, %rax
	jb	.LBB6_166
	addq	$4, %r10
	jmp	.LBB6_165
.LBB6_159:
	movzbl	40(%rsp), %r11d
	leal	-17(%r11), %eax
	movzbl	%al, %eax
	leaq	1(%rax), %rcx
	xorl	%edx, %edx
	cmpb	$3, %al
	cmovbq	%rcx, %rdx
	movl	$18, %eax
	leaq	.LJTI6_0(%rip), %rcx
	movslq	(%rcx,%rdx,4), %rdx
	addq	%rcx, %rdx
	notrack	jmpq	*%rdx
.LBB6_160:
	testq	%rax, %rax
	je	.LBB6_166
	cmpb	$-127, %r11b
	jne	.LBB6_166
	movzbl	(%r12), %r11d
	testb	%r11b, %r11b
	jns	.LBB6_166
	leaq	-3(%r8), %rax
	subq	%r11, %rax
	jb	.LBB6_166
	addq	$3, %r10
.LBB6_165:
	leaq	(%r10,%r11), %r9
	movq	%r10, %r12
	jmp	.LBB6_169
.LBB6_166:
	movb	%r15b, 15(%rsp)
	movq	%r14, 24(%rsp)
	movq	%rbx, 16(%rsp)
	movq	%rbp, %rbx
	movq	%rdi, %r14
	movq	%rcx, %r15
	movq	%rdx, %r13
	movq	%rsi, %rbp
	leaq	32(%rsp), %rdi
	movq	%r10, %rsi
	movq	%r8, %rdx
	movl	$2, %ecx
	callq	_RNvNtNtNtCs00000000000_7pkcs1_c6proved8der_core5split14split_unlikely
	movq	32(%rsp), %r12
	testq	%r12, %r12
	je	.LBB6_185
	movq	40(%rsp), %r11
	movq	48(%rsp), %r9
	movq	56(%rsp), %rax
	movq	%rbp, %rsi
	movq	%r13, %rdx
	movq	%r15, %rcx
	movq	%r14, %rdi
	movq	%rbx, %rbp
	movq	16(%rsp), %rbx
	movq	24(%rsp), %r14
	movzbl	15(%rsp), %r15d
.LBB6_168:
	testq	%r11, %r11
	je	.LBB6_97
.LBB6_169:
	cmpb	$0, (%r12)
	je	.LBB6_172
	jns	.LBB6_174
	jmp	.LBB6_42
.LBB6_172:
	cmpq	$1, %r11
	je	.LBB6_174
	movb	$4, %r11b
	cmpb	$0, 1(%r12)
	jns	.LBB6_98
.LBB6_174:
	cmpq	$2, %rax
	jb	.LBB6_192
	cmpb	$2, (%r9)
	jne	.LBB6_192
	leaq	2(%r9), %r12
	leaq	-2(%rax), %r8
	movsbq	1(%r9), %r11
	testq	%r11, %r11
	js	.LBB6_180
	subq	%r11, %r8
	jb	.LBB6_192
	leaq	(%r12,%r11), %r10
	jmp	.LBB6_194
.LBB6_180:
	cmpb	$-126, %r11b
	jne	.LBB6_186
	cmpq	$1, %r8
	jbe	.LBB6_192
	movzbl	2(%r9), %r10d
	testq	%r10, %r10
	je	.LBB6_192
	leaq	-4(%rax), %r8
	shll	$8, %r10d
	movzbl	3(%r9), %r11d
	orq	%r10, %r11
	subq	%r11, %r8
	jb	.LBB6_192
	addq	$4, %r9
	jmp	.LBB6_191
.LBB6_185:
	movzbl	40(%rsp), %r11d
	leal	-17(%r11), %eax
	movzbl	%al, %eax
	leaq	1(%rax), %rcx
	xorl	%edx, %edx
	cmpb	$3, %al
	cmovbq	%rcx, %rdx
	movl	$18, %eax
	leaq	.LJTI6_0(%rip), %rcx
	movslq	(%rcx,%rdx,4), %rdx
	addq	%rcx, %rdx
	notrack	jmpq	*%rdx
.LBB6_186:
	testq	%r8, %r8
	je	.LBB6_192
	cmpb	$-127, %r11b
	jne	.LBB6_192
	movzbl	(%r12), %r11d
	testb	%r11b, %r11b
	jns	.LBB6_192
	leaq	-3(%rax), %r8
	subq	%r11, %r8
	jb	.LBB6_192
	addq	$3, %r9
.LBB6_191:
	leaq	(%r9,%r11), %r10
	movq	%r9, %r12
	jmp	.LBB6_195
.LBB6_192:
	movb	%r15b, 15(%rsp)
	movq	%r14, 24(%rsp)
	movq	%rbx, 16(%rsp)
	movq	%rbp, %rbx
	movq	%rdi, %r14
	movq	%rcx, %r15
	movq	%rdx, %r13
	movq	%rsi, %rbp
	leaq	32(%rsp), %rdi
	movq	%r9, %rsi
	movq	%rax, %rdx
	movl	$2, %ecx
	callq	_RNvNtNtNtCs00000000000_7pkcs1_c6proved8der_core5split14split_unlikely
	movq	32(%rsp), %r12
	testq	%r12, %r12
	je	.LBB6_211
	movq	40(%rsp), %r11
	movq	48(%rsp), %r10
	movq	56(%rsp), %r8
	movq	%rbp, %rsi
	movq	%r13, %rdx
	movq	%r15, %rcx
	movq	%r14, %rdi
	movq	%rbx, %rbp
	movq	16(%rsp), %rbx
	movq	24(%rsp), %r14
	movzbl	15(%rsp), %r15d
.LBB6_194:
	testq	%r11, %r11
	je	.LBB6_97
.LBB6_195:
	cmpb	$0, (%r12)
	je	.LBB6_198
	jns	.LBB6_200
	jmp	.LBB6_42
.LBB6_198:
	cmpq	$1, %r11
	je	.LBB6_200
	movb	$4, %r11b
	cmpb	$0, 1(%r12)
	jns	.LBB6_98
.LBB6_200:
	cmpq	$2, %r8
	jb	.LBB6_218
	cmpb	$2, (%r10)
	jne	.LBB6_218
	leaq	2(%r10), %r12
	leaq	-2(%r8), %rax
	movsbq	1(%r10), %r9
	testq	%r9, %r9
	js	.LBB6_206
	subq	%r9, %rax
	jb	.LBB6_218
	leaq	(%r12,%r9), %r8
	jmp	.LBB6_220
.LBB6_206:
	cmpb	$-126, %r9b
	jne	.LBB6_212
	cmpq	$1, %rax
	jbe	.LBB6_218
	movzbl	2(%r10), %r11d
	testq	%r11, %r11
	je	.LBB6_218
	leaq	-4(%r8), %rax
	shll	$8, %r11d
	movzbl	3(%r10), %r9d
	orq	%r11, %r9
	subq	%r9, %rax
	jb	.LBB6_218
	addq	$4, %r10
	jmp	.LBB6_217
.LBB6_211:
	movzbl	40(%rsp), %r11d
	leal	-17(%r11), %eax
	movzbl	%al, %eax
	leaq	1(%rax), %rcx
	xorl	%edx, %edx
	cmpb	$3, %al
	cmovbq	%rcx, %rdx
	movl	$18, %eax
	leaq	.LJTI6_0(%rip), %rcx
	movslq	(%rcx,%rdx,4), %rdx
	addq	%rcx, %rdx
	notrack	jmpq	*%rdx
.LBB6_212:
	testq	%rax, %rax
	je	.LBB6_218
	cmpb	$-127, %r9b
	jne	.LBB6_218
	movzbl	(%r12), %r9d
	testb	%r9b, %r9b
	jns	.LBB6_218
	leaq	-3(%r8), %rax
	subq	%r9, %rax
	jb	.LBB6_218
	addq	$3, %r10
.LBB6_217:
	leaq	(%r10,%r9), %r8
	movq	%r10, %r12
	jmp	.LBB6_221
.LBB6_218:
	movb	%r15b, 15(%rsp)
	movq	%r14, 24(%rsp)
	movq	%rbx, 16(%rsp)
	movq	%rbp, %rbx
	movq	%rdi, %r14
	movq	%rcx, %r15
	movq	%rdx, %r13
	movq	%rsi, %rbp
	leaq	32(%rsp), %rdi
	movq	%r10, %rsi
	movq	%r8, %rdx
	movl	$2, %ecx
	callq	_RNvNtNtNtCs00000000000_7pkcs1_c6proved8der_core5split14split_unlikely
	movq	32(%rsp), %r12
	testq	%r12, %r12
	je	.LBB6_237
	movq	40(%rsp), %r9
	movq	48(%rsp), %r8
	movq	56(%rsp), %rax
	movq	%rbp, %rsi
	movq	%r13, %rdx
	movq	%r15, %rcx
	movq	%r14, %rdi
	movq	%rbx, %rbp
	movq	16(%rsp), %rbx
	movq	24(%rsp), %r14
	movzbl	15(%rsp), %r15d
.LBB6_220:
	testq	%r9, %r9
	je	.LBB6_97
.LBB6_221:
	cmpb	$0, (%r12)
	je	.LBB6_224
	jns	.LBB6_226
.LBB6_42:
	movb	$13, %r11b
	jmp	.LBB6_98
.LBB6_97:
	movb	$3, %r11b
.LBB6_98:
	movzbl	%r11b, %eax
	incl	%eax
.LBB6_99:
	addq	$120, %rsp
	.cfi_def_cfa_offset 56
	popq	%rbx
	.cfi_def_cfa_offset 48
	popq	%r12
	.cfi_def_cfa_offset 40
	popq	%r13
	.cfi_def_cfa_offset 32
	popq	%r14
	.cfi_def_cfa_offset 24
	popq	%r15
	.cfi_def_cfa_offset 16
	popq	%rbp
	.cfi_def_cfa_offset 8
	retq
.LBB6_224:
	.cfi_def_cfa_offset 176
	cmpq	$1, %r9
	je	.LBB6_226
	movb	$4, %r11b
	cmpb	$0, 1(%r12)
	jns	.LBB6_98
.LBB6_226:
	cmpq	$2, %rax
	jb	.LBB6_244
	cmpb	$2, (%r8)
	jne	.LBB6_244
	leaq	2(%r8), %r12
	leaq	-2(%rax), %r9
	movsbq	1(%r8), %r10
	testq	%r10, %r10
	js	.LBB6_232
	subq	%r10, %r9
	jb	.LBB6_244
	leaq	(%r12,%r10), %rax
	jmp	.LBB6_246
.LBB6_232:
	cmpb	$-126, %r10b
	jne	.LBB6_238
	cmpq	$1, %r9
	jbe	.LBB6_244
	movzbl	2(%r8), %r11d
	testq	%r11, %r11
	je	.LBB6_244
	leaq	-4(%rax), %r9
	shll	$8, %r11d
	movzbl	3(%r8), %r10d
	orq	%r11, %r10
	subq	%r10, %r9
	jb	.LBB6_244
	addq	$4, %r8
	jmp	.LBB6_243
.LBB6_237:
	movzbl	40(%rsp), %r11d
	leal	-17(%r11), %eax
	movzbl	%al, %eax
	leaq	1(%rax), %rcx
	xorl	%edx, %edx
	cmpb	$3, %al
	cmovbq	%rcx, %rdx
	movl	$18, %eax
	leaq	.LJTI6_0(%rip), %rcx
	movslq	(%rcx,%rdx,4), %rdx
	addq	%rcx, %rdx
	notrack	jmpq	*%rdx
.LBB6_238:
	testq	%r9, %r9
	je	.LBB6_244
	cmpb	$-127, %r10b
	jne	.LBB6_244
	movzbl	(%r12), %r10d
	testb	%r10b, %r10b
	jns	.LBB6_244
	leaq	-3(%rax), %r9
	subq	%r10, %r9
	jb	.LBB6_244
	addq	$3, %r8
.LBB6_243:
	leaq	(%r8,%r10), %rax
	movq	%r8, %r12
	jmp	.LBB6_247
.LBB6_244:
	movb	%r15b, 15(%rsp)
	movq	%r14, 24(%rsp)
	movq	%rbx, 16(%rsp)
	movq	%rbp, %rbx
	movq	%rdi, %r14
	movq	%rcx, %r15
	movq	%rdx, %r13
	movq	%rsi, %rbp
	leaq	32(%rsp), %rdi
	movq	%r8, %rsi
	movq	%rax, %rdx
	movl	$2, %ecx
	callq	_RNvNtNtNtCs00000000000_7pkcs1_c6proved8der_core5split14split_unlikely
	movq	32(%rsp), %r12
	testq	%r12, %r12
	je	.LBB6_261
	movq	40(%rsp), %r10
	movq	48(%rsp), %rax
	movq	56(%rsp), %r9
	movq	%rbp, %rsi
	movq	%r13, %rdx
	movq	%r15, %rcx
	movq	%r14, %rdi
	movq	%rbx, %rbp
	movq	16(%rsp), %rbx
	movq	24(%rsp), %r14
	movzbl	15(%rsp), %r15d
.LBB6_246:
	movb	$3, %r11b
	testq	%r10, %r10
	je	.LBB6_98
.LBB6_247:
	cmpb	$0, (%r12)
	je	.LBB6_249
	movb	$13, %r11b
	jns	.LBB6_251
	jmp	.LBB6_98
.LBB6_249:
	cmpq	$1, %r10
	je	.LBB6_251
	movb	$4, %r11b
	cmpb	$0, 1(%r12)
	jns	.LBB6_98
.LBB6_251:
	movq	%rdi, %r13
	movq	%rcx, %r12
	movq	%rdx, 24(%rsp)
	movq	%rsi, 16(%rsp)
	testq	%r9, %r9
	je	.LBB6_253
	movzbl	%r15b, %ecx
	andl	$1, %ecx
	leaq	32(%rsp), %rdi
	movq	%rax, %rsi
	movq	%r9, %rdx
	jmp	.LBB6_255
.LBB6_253:
	testb	$1, %r15b
	je	.LBB6_257
	leaq	32(%rsp), %rdi
	movq	%rax, %rsi
	xorl	%edx, %edx
	movl	$1, %ecx
.LBB6_255:
	callq	_RNvNtNtNtCs00000000000_7pkcs1_c6proved5pkcs110viewed_key9read_list
	cmpb	$1, 32(%rsp)
	jne	.LBB6_257
	movzbl	33(%rsp), %r11d
	leal	-17(%r11), %eax
	movzbl	%al, %eax
	leaq	1(%rax), %rcx
	xorl	%edx, %edx
	cmpb	$3, %al
	cmovbq	%rcx, %rdx
	movl	$18, %eax
	leaq	.LJTI6_0(%rip), %rcx
	movslq	(%rcx,%rdx,4), %rdx
	addq	%rcx, %rdx
	notrack	jmpq	*%rdx
.LBB6_257:
	movb	$12, %r11b
	testq	%r14, %r14
	jne	.LBB6_98
	movzbl	16(%r13), %ecx
	movq	24(%r13), %rsi
	movq	32(%r13), %rdx
	xorps	%xmm0, %xmm0
	movups	%xmm0, 103(%rsp)
	movups	%xmm0, 89(%rsp)
	movabsq	$72354425775621674, %rax
	movq	%rax, 80(%rsp)
	movb	$1, 88(%rsp)
	movq	111(%rsp), %rax
	movq	%rax, 63(%rsp)
	movups	96(%rsp), %xmm0
	movaps	%xmm0, 48(%rsp)
	movq	80(%rsp), %rax
	movq	%rax, 32(%rsp)
	movzbl	88(%rsp), %eax
	movb	%al, 40(%rsp)
	movl	89(%rsp), %eax
	movl	%eax, 41(%rsp)
	movzwl	93(%rsp), %eax
	movw	%ax, 45(%rsp)
	movzbl	95(%rsp), %eax
	movb	%al, 47(%rsp)
	cmpb	$1, %cl
	jne	.LBB6_263
	cmpq	$128, %rdx
	jae	.LBB6_268
	leaq	2(%rdx), %rax
	jmp	.LBB6_264
.LBB6_261:
	movzbl	40(%rsp), %r11d
	leal	-17(%r11), %eax
	movzbl	%al, %eax
	leaq	1(%rax), %rcx
	xorl	%edx, %edx
	cmpb	$3, %al
	cmovbq	%rcx, %rdx
	movl	$18, %eax
	leaq	.LJTI6_0(%rip), %rcx
	movslq	(%rcx,%rdx,4), %rdx
	addq	%rcx, %rdx
	notrack	jmpq	*%rdx
.LBB6_262:
	movl	$20, %eax
	jmp	.LBB6_99
.LBB6_263:
	xorl	%eax, %eax
.LBB6_264:
	movq	%rax, %rdi
	addq	%rbx, %rdi
	movq	$-1, %r8
	cmovaeq	%rdi, %r8
	xorl	%edi, %edi
	subq	%rax, %r8
	cmovaeq	%r8, %rdi
	cmpq	$128, %rdi
	jae	.LBB6_266
	addq	$2, %rdi
	jmp	.LBB6_279
.LBB6_266:
	cmpq	$256, %rdi
	jae	.LBB6_270
	addq	$3, %rdi
	jmp	.LBB6_279
.LBB6_268:
	cmpq	$256, %rdx
	jae	.LBB6_272
	leaq	3(%rdx), %rax
	jmp	.LBB6_264
.LBB6_270:
	cmpq	$65536, %rdi
	jae	.LBB6_274
	addq	$4, %rdi
	jmp	.LBB6_279
.LBB6_272:
	cmpq	$65536, %rdx
	jae	.LBB6_276
	leaq	4(%rdx), %rax
	jmp	.LBB6_264
.LBB6_274:
	cmpq	$16777216, %rdi
	jae	.LBB6_278
	addq	$5, %rdi
	jmp	.LBB6_279
.LBB6_276:
	cmpq	$16777216, %rdx
	jae	.LBB6_331
	leaq	5(%rdx), %rax
	jmp	.LBB6_264
.LBB6_278:
	addq	$6, %rdi
	movq	$-1, %r8
	cmovbq	%r8, %rdi
.LBB6_279:
	addq	%rdi, %rax
	movq	$-1, %r8
	cmovbq	%r8, %rax
	movq	%rax, %rdi
	addq	$2, %rdi
	cmovbq	%r8, %rdi
	movq	%rax, %r9
	addq	$11, %r9
	cmovbq	%r8, %r9
	xorl	%r8d, %r8d
	subq	%rdi, %r9
	cmovaeq	%r9, %r8
	cmpq	$128, %r8
	jae	.LBB6_281
	addq	$2, %r8
	jmp	.LBB6_288
.LBB6_281:
	cmpq	$256, %r8
	jae	.LBB6_283
	addq	$3, %r8
	jmp	.LBB6_288
.LBB6_283:
	cmpq	$65536, %r8
	jae	.LBB6_285
	addq	$4, %r8
	jmp	.LBB6_288
.LBB6_285:
	cmpq	$16777216, %r8
	jae	.LBB6_287
	addq	$5, %r8
	jmp	.LBB6_288
.LBB6_287:
	addq	$6, %r8
	movq	$-1, %r9
	cmovbq	%r9, %r8
.LBB6_288:
	addq	%r8, %rdi
	movq	$-1, %r8
	cmovaeq	%rdi, %r8
	xorl	%edi, %edi
	subq	%rax, %r8
	cmovaeq	%r8, %rdi
	cmpq	$128, %rdi
	jae	.LBB6_290
	addq	$2, %rdi
	jmp	.LBB6_297
.LBB6_290:
	cmpq	$256, %rdi
	jae	.LBB6_292
	addq	$3, %rdi
	jmp	.LBB6_297
.LBB6_292:
	cmpq	$65536, %rdi
	jae	.LBB6_294
	addq	$4, %rdi
	jmp	.LBB6_297
.LBB6_294:
	cmpq	$16777216, %rdi
	jae	.LBB6_296
	addq	$5, %rdi
	jmp	.LBB6_297
.LBB6_296:
	addq	$6, %rdi
	movq	$-1, %r8
	cmovbq	%r8, %rdi
.LBB6_297:
	addq	%rdi, %rax
	movq	$-1, %rdi
	cmovbq	%rdi, %rax
	movq	%rax, %r8
	incq	%r8
	cmoveq	%rdi, %r8
	xorl	%edi, %edi
	subq	%rax, %r8
	cmovaeq	%r8, %rdi
	cmpq	$128, %rdi
	jae	.LBB6_299
	addq	$2, %rdi
	jmp	.LBB6_306
.LBB6_299:
	cmpq	$256, %rdi
	jae	.LBB6_301
	addq	$3, %rdi
	jmp	.LBB6_306
.LBB6_301:
	cmpq	$65536, %rdi
	jae	.LBB6_303
	addq	$4, %rdi
	jmp	.LBB6_306
.LBB6_303:
	cmpq	$16777216, %rdi
	jae	.LBB6_305
	addq	$5, %rdi
	jmp	.LBB6_306
.LBB6_305:
	addq	$6, %rdi
	movq	$-1, %r8
	cmovbq	%r8, %rdi
.LBB6_306:
	addq	%rdi, %rax
	movq	$-1, %rdi
	cmovaeq	%rax, %rdi
	cmpq	$128, %rdi
	jae	.LBB6_308
	addq	$2, %rdi
	movq	%rdi, %r15
	jmp	.LBB6_315
.LBB6_308:
	cmpq	$256, %rdi
	jae	.LBB6_310
	addq	$3, %rdi
	movq	%rdi, %r15
	jmp	.LBB6_315
.LBB6_310:
	cmpq	$65536, %rdi
	jae	.LBB6_312
	addq	$4, %rdi
	movq	%rdi, %r15
	jmp	.LBB6_315
.LBB6_312:
	cmpq	$16777216, %rdi
	jae	.LBB6_314
	addq	$5, %rdi
	movq	%rdi, %r15
	jmp	.LBB6_315
.LBB6_314:
	addq	$6, %rdi
	movq	$-1, %r15
	cmovaeq	%rdi, %r15
	movq	%r15, %rax
	shrq	$32, %rax
	movl	$8, %eax
	jne	.LBB6_99
.LBB6_315:
	movq	%r15, (%r12)
	movl	$15, %eax
	cmpq	24(%rsp), %r15
	ja	.LBB6_99
	movq	%r15, %r12
	testb	%cl, %cl
	je	.LBB6_339
	movq	%r15, %r14
	movq	%r15, %r12
	subq	%rdx, %r14
	jb	.LBB6_319
	movq	16(%rsp), %rax
	leaq	(%rax,%r14), %rdi
	callq	memcpy
	movq	%r14, %r12
.LBB6_319:
	movq	%r15, %rax
	subq	%r12, %rax
	cmpl	$128, %eax
	jae	.LBB6_323
	cmpq	$2, %r12
	jb	.LBB6_339
	cmpq	%r12, %r15
	jb	.LBB6_429
	shll	$8, %eax
	orl	$160, %eax
	movq	16(%rsp), %rcx
	movw	%ax, -2(%rcx,%r12)
	addq	$-2, %r12
	jmp	.LBB6_339
.LBB6_323:
	cmpl	$256, %eax
	jae	.LBB6_327
	cmpq	$3, %r12
	jb	.LBB6_339
	cmpq	%r12, %r15
	jb	.LBB6_429
	movq	16(%rsp), %rcx
	movw	$-32352, -3(%rcx,%r12)
	movb	%al, -1(%rcx,%r12)
	addq	$-3, %r12
	jmp	.LBB6_339
.LBB6_327:
	cmpl	$65536, %eax
	jae	.LBB6_332
	cmpq	$4, %r12
	jb	.LBB6_339
	cmpq	%r12, %r15
	jb	.LBB6_429
	orl	$-1602093056, %eax
	bswapl	%eax
	movq	16(%rsp), %rcx
	movl	%eax, -4(%rcx,%r12)
	addq	$-4, %r12
	jmp	.LBB6_339
.LBB6_331:
	movq	%rdx, %rdi
	addq	$6, %rdi
	movq	$-1, %rax
	cmovaeq	%rdi, %rax
	jmp	.LBB6_264
.LBB6_332:
	cmpl	$16777216, %eax
	jae	.LBB6_336
	cmpq	$5, %r12
	jb	.LBB6_339
	cmpq	%r12, %r15
	jb	.LBB6_429
	movl	%eax, %ecx
	shrl	$16, %ecx
	movl	%eax, %edx
	shrl	$8, %edx
	movq	16(%rsp), %rsi
	movw	$-31840, -5(%rsi,%r12)
	movb	%cl, -3(%rsi,%r12)
	movb	%dl, -2(%rsi,%r12)
	movb	%al, -1(%rsi,%r12)
	addq	$-5, %r12
	jmp	.LBB6_339
.LBB6_336:
	cmpq	$6, %r12
	jb	.LBB6_339
	cmpq	%r12, %r15
	jb	.LBB6_429
	movl	%eax, %ecx
	shrl	$24, %ecx
	movl	%eax, %edx
	shrl	$16, %edx
	movl	%eax, %esi
	shrl	$8, %esi
	movq	16(%rsp), %rdi
	movw	$-31584, -6(%rdi,%r12)
	movb	%cl, -4(%rdi,%r12)
	movb	%dl, -3(%rdi,%r12)
	movb	%sil, -2(%rdi,%r12)
	movb	%al, -1(%rdi,%r12)
	addq	$-6, %r12
.LBB6_339:
	movq	%r12, %r14
	movq	%r12, %rax
	subq	%rbx, %r14
	jb	.LBB6_342
	cmpq	%r15, %r12
	ja	.LBB6_429
	movq	16(%rsp), %rax
	leaq	(%rax,%r14), %rdi
	movq	%rbp, %rsi
	movq	%rbx, %rdx
	callq	memcpy
	movq	%r14, %rax
.LBB6_342:
	subq	%rax, %r12
	cmpl	$128, %r12d
	jae	.LBB6_346
	cmpq	$2, %rax
	jb	.LBB6_361
	cmpq	%r15, %rax
	ja	.LBB6_429
	shll	$8, %r12d
	orl	$4, %r12d
	movq	16(%rsp), %rcx
	movw	%r12w, -2(%rcx,%rax)
	addq	$-2, %rax
	jmp	.LBB6_361
.LBB6_346:
	cmpl	$256, %r12d
	jae	.LBB6_350
	cmpq	$3, %rax
	jb	.LBB6_361
	cmpq	%r15, %rax
	ja	.LBB6_429
	movq	16(%rsp), %rcx
	movw	$-32508, -3(%rcx,%rax)
	movb	%r12b, -1(%rcx,%rax)
	addq	$-3, %rax
	jmp	.LBB6_361
.LBB6_350:
	cmpl	$65536, %r12d
	jae	.LBB6_354
	cmpq	$4, %rax
	jb	.LBB6_361
	cmpq	%r15, %rax
	ja	.LBB6_429
	orl	$75628544, %r12d
	bswapl	%r12d
	movq	16(%rsp), %rcx
	movl	%r12d, -4(%rcx,%rax)
	addq	$-4, %rax
	jmp	.LBB6_361
.LBB6_354:
	cmpl	$16777216, %r12d
	jae	.LBB6_358
	cmpq	$5, %rax
	jb	.LBB6_361
	cmpq	%r15, %rax
	ja	.LBB6_429
	movl	%r12d, %ecx
	shrl	$16, %ecx
	movl	%r12d, %edx
	shrl	$8, %edx
	movq	16(%rsp), %rsi
	movw	$-31996, -5(%rsi,%rax)
	movb	%cl, -3(%rsi,%rax)
	movb	%dl, -2(%rsi,%rax)
	movb	%r12b, -1(%rsi,%rax)
	addq	$-5, %rax
	jmp	.LBB6_361
.LBB6_358:
	cmpq	$6, %rax
	jb	.LBB6_361
	cmpq	%r15, %rax
	ja	.LBB6_429
	movl	%r12d, %ecx
	shrl	$24, %ecx
	movl	%r12d, %edx
	shrl	$16, %edx
	movl	%r12d, %esi
	shrl	$8, %esi
	movq	16(%rsp), %rdi
	movw	$-31740, -6(%rdi,%rax)
	movb	%cl, -4(%rdi,%rax)
	movb	%dl, -3(%rdi,%rax)
	movb	%sil, -2(%rdi,%rax)
	movb	%r12b, -1(%rdi,%rax)
	addq	$-6, %rax
.LBB6_361:
	cmpq	%r15, %rax
	ja	.LBB6_429
	movq	%rax, %rdx
	movq	%rax, %rcx
	cmpq	$2, %rax
	jb	.LBB6_367
	leaq	-2(%rax), %rdx
	movq	16(%rsp), %rcx
	movw	$5, -2(%rcx,%rax)
	cmpq	$9, %rdx
	jae	.LBB6_365
	movq	%rdx, %rcx
	jmp	.LBB6_367
.LBB6_365:
	cmpq	%r15, %rdx
	ja	.LBB6_429
	leaq	-11(%rax), %rcx
	movzbl	40(%rsp), %esi
	movq	16(%rsp), %rdi
	movb	%sil, -3(%rdi,%rax)
	movq	32(%rsp), %rsi
	movq	%rsi, -11(%rdi,%rax)
.LBB6_367:
	subq	%rcx, %rdx
	cmpl	$128, %edx
	jae	.LBB6_371
	cmpq	$2, %rcx
	jb	.LBB6_386
	cmpq	%r15, %rcx
	ja	.LBB6_429
	shll	$8, %edx
	orl	$6, %edx
	movq	16(%rsp), %rsi
	movw	%dx, -2(%rsi,%rcx)
	addq	$-2, %rcx
	jmp	.LBB6_386
.LBB6_371:
	cmpl	$256, %edx
	jae	.LBB6_375
	cmpq	$3, %rcx
	jb	.LBB6_386
	cmpq	%r15, %rcx
	ja	.LBB6_429
	movq	16(%rsp), %rsi
	movw	$-32506, -3(%rsi,%rcx)
	movb	%dl, -1(%rsi,%rcx)
	addq	$-3, %rcx
	jmp	.LBB6_386
.LBB6_375:
	cmpl	$65536, %edx
	jae	.LBB6_379
	cmpq	$4, %rcx
	jb	.LBB6_386
	cmpq	%r15, %rcx
	ja	.LBB6_429
	orl	$109182976, %edx
	bswapl	%edx
	movq	16(%rsp), %rsi
	movl	%edx, -4(%rsi,%rcx)
	addq	$-4, %rcx
	jmp	.LBB6_386
.LBB6_379:
	cmpl	$16777216, %edx
	jae	.LBB6_383
	cmpq	$5, %rcx
	jb	.LBB6_386
	cmpq	%r15, %rcx
	ja	.LBB6_429
	movl	%edx, %esi
	shrl	$16, %esi
	movl	%edx, %edi
	shrl	$8, %edi
	movq	16(%rsp), %r8
	movw	$-31994, -5(%r8,%rcx)
	movb	%sil, -3(%r8,%rcx)
	movb	%dil, -2(%r8,%rcx)
	movb	%dl, -1(%r8,%rcx)
	addq	$-5, %rcx
	jmp	.LBB6_386
.LBB6_383:
	cmpq	$6, %rcx
	jb	.LBB6_386
	cmpq	%r15, %rcx
	ja	.LBB6_429
	movl	%edx, %esi
	shrl	$24, %esi
	movl	%edx, %edi
	shrl	$16, %edi
	movl	%edx, %r8d
	shrl	$8, %r8d
	movq	16(%rsp), %r9
	movw	$-31738, -6(%r9,%rcx)
	movb	%sil, -4(%r9,%rcx)
	movb	%dil, -3(%r9,%rcx)
	movb	%r8b, -2(%r9,%rcx)
	movb	%dl, -1(%r9,%rcx)
	addq	$-6, %rcx
.LBB6_386:
	subq	%rcx, %rax
	cmpl	$128, %eax
	jae	.LBB6_390
	cmpq	$2, %rcx
	jb	.LBB6_405
	cmpq	%r15, %rcx
	ja	.LBB6_429
	shll	$8, %eax
	orl	$48, %eax
	movq	16(%rsp), %rdx
	movw	%ax, -2(%rdx,%rcx)
	addq	$-2, %rcx
	jmp	.LBB6_405
.LBB6_390:
	cmpl	$256, %eax
	jae	.LBB6_394
	cmpq	$3, %rcx
	jb	.LBB6_405
	cmpq	%r15, %rcx
	ja	.LBB6_429
	movq	16(%rsp), %rdx
	movw	$-32464, -3(%rdx,%rcx)
	movb	%al, -1(%rdx,%rcx)
	addq	$-3, %rcx
	jmp	.LBB6_405
.LBB6_394:
	cmpl	$65536, %eax
	jae	.LBB6_398
	cmpq	$4, %rcx
	jb	.LBB6_405
	cmpq	%r15, %rcx
	ja	.LBB6_429
	orl	$813826048, %eax
	bswapl	%eax
	movq	16(%rsp), %rdx
	movl	%eax, -4(%rdx,%rcx)
	addq	$-4, %rcx
	jmp	.LBB6_405
.LBB6_398:
	cmpl	$16777216, %eax
	jae	.LBB6_402
	cmpq	$5, %rcx
	jb	.LBB6_405
	cmpq	%r15, %rcx
	ja	.LBB6_429
	movl	%eax, %edx
	shrl	$16, %edx
	movl	%eax, %esi
	shrl	$8, %esi
	movq	16(%rsp), %rdi
	movw	$-31952, -5(%rdi,%rcx)
	movb	%dl, -3(%rdi,%rcx)
	movb	%sil, -2(%rdi,%rcx)
	movb	%al, -1(%rdi,%rcx)
	addq	$-5, %rcx
	jmp	.LBB6_405
.LBB6_402:
	cmpq	$6, %rcx
	jb	.LBB6_405
	cmpq	%r15, %rcx
	ja	.LBB6_429
	movl	%eax, %edx
	shrl	$24, %edx
	movl	%eax, %esi
	shrl	$16, %esi
	movl	%eax, %edi
	shrl	$8, %edi
	movq	16(%rsp), %r8
	movw	$-31696, -6(%r8,%rcx)
	movb	%dl, -4(%r8,%rcx)
	movb	%sil, -3(%r8,%rcx)
	movb	%dil, -2(%r8,%rcx)
	movb	%al, -1(%r8,%rcx)
	addq	$-6, %rcx
.LBB6_405:
	xorl	%eax, %eax
	testq	%rcx, %rcx
	je	.LBB6_99
	cmpq	%r15, %rcx
	ja	.LBB6_429
	leaq	-1(%rcx), %rdx
	movq	16(%rsp), %rsi
	movb	$0, -1(%rsi,%rcx)
	cmpq	$3, %rcx
	jb	.LBB6_410
	cmpq	%r15, %rdx
	ja	.LBB6_429
	movq	16(%rsp), %rdx
	movw	$258, -3(%rdx,%rcx)
	addq	$-3, %rcx
	movq	%rcx, %rdx
.LBB6_410:
	movq	%r15, %rcx
	subq	%rdx, %rcx
	cmpl	$128, %ecx
	jae	.LBB6_414
	cmpq	$2, %rdx
	jb	.LBB6_99
	cmpq	%rdx, %r15
	jb	.LBB6_429
	shll	$8, %ecx
	orl	$48, %ecx
	movq	16(%rsp), %rsi
	movw	%cx, -2(%rsi,%rdx)
	jmp	.LBB6_99
.LBB6_414:
	cmpl	$256, %ecx
	jae	.LBB6_418
	cmpq	$3, %rdx
	jb	.LBB6_99
	cmpq	%rdx, %r15
	jb	.LBB6_429
	movq	16(%rsp), %rsi
	movw	$-32464, -3(%rsi,%rdx)
	movb	%cl, -1(%rsi,%rdx)
	jmp	.LBB6_99
.LBB6_418:
	cmpl	$65536, %ecx
	jae	.LBB6_422
	cmpq	$4, %rdx
	jb	.LBB6_99
	cmpq	%rdx, %r15
	jb	.LBB6_429
	orl	$813826048, %ecx
	bswapl	%ecx
	movq	16(%rsp), %rsi
	movl	%ecx, -4(%rsi,%rdx)
	jmp	.LBB6_99
.LBB6_422:
	cmpl	$16777216, %ecx
	jae	.LBB6_426
	cmpq	$5, %rdx
	jb	.LBB6_99
	cmpq	%rdx, %r15
	jb	.LBB6_429
	movl	%ecx, %esi
	shrl	$16, %esi
	movl	%ecx, %edi
	shrl	$8, %edi
	movq	16(%rsp), %r8
	movw	$-31952, -5(%r8,%rdx)
	movb	%sil, -3(%r8,%rdx)
	movb	%dil, -2(%r8,%rdx)
	movb	%cl, -1(%r8,%rdx)
	jmp	.LBB6_99
.LBB6_426:
	cmpq	$6, %rdx
	jb	.LBB6_99
	cmpq	%rdx, %r15
	jb	.LBB6_429
	movl	%ecx, %esi
	shrl	$24, %esi
	movl	%ecx, %edi
	shrl	$16, %edi
	movl	%ecx, %r8d
	shrl	$8, %r8d
	movq	16(%rsp), %r9
	movw	$-31696, -6(%r9,%rdx)
	movb	%sil, -4(%r9,%rdx)
	movb	%dil, -3(%r9,%rdx)
	movb	%r8b, -2(%r9,%rdx)
	movb	%cl, -1(%r9,%rdx)
	jmp	.LBB6_99
.LBB6_429:
	ud2
.Lfunc_end6:
	.size	pkcs1_c_private_key_info_encode, .Lfunc_end6-pkcs1_c_private_key_info_encode
	.cfi_endproc
	.section	.rodata.pkcs1_c_private_key_info_encode,"a",@progbits
	.p2align	2, 0x0
.LJTI6_0:
	.long	.LBB6_98-.LJTI6_0
	.long	.LBB6_99-.LJTI6_0
	.long	.LBB6_101-.LJTI6_0
	.long	.LBB6_262-.LJTI6_0

	.section	.text._RNvNtNtNtCs00000000000_7pkcs1_c5calls7pkcs1_c8meanings12is_same_hash,"ax",@progbits
	.p2align	4, 0x90
	.type	_RNvNtNtNtCs00000000000_7pkcs1_c5calls7pkcs1_c8meanings12is_same_hash,@function
_RNvNtNtNtCs00000000000_7pkcs1_c5calls7pkcs1_c8meanings12is_same_hash:
	.cfi_startproc
	pushq	%r14
	.cfi_def_cfa_offset 16
	pushq	%rbx
	.cfi_def_cfa_offset 24
	pushq	%rax
	.cfi_def_cfa_offset 32
	.cfi_offset %rbx, -24
	.cfi_offset %r14, -16
	movzbl	16(%rdi), %eax
	cmpb	$1, %al
	jne	.LBB7_3
	cmpb	$5, 17(%rdi)
	jne	.LBB7_12
	cmpq	$0, 32(%rdi)
	jne	.LBB7_12
.LBB7_3:
	movzbl	16(%rsi), %ecx
	testb	%cl, %cl
	je	.LBB7_14
	cmpb	$5, 17(%rsi)
	jne	.LBB7_6
	cmpq	$0, 32(%rsi)
	je	.LBB7_14
.LBB7_6:
	testb	%al, %al
	je	.LBB7_13
	testb	$1, %cl
	je	.LBB7_13
.LBB7_8:
	movzbl	17(%rdi), %eax
	cmpb	17(%rsi), %al
	jne	.LBB7_23
	movq	32(%rdi), %rdx
	cmpq	32(%rsi), %rdx
	jne	.LBB7_23
	movq	24(%rsi), %rax
	movq	24(%rdi), %rcx
	movq	%rdi, %rbx
	movq	%rcx, %rdi
	movq	%rsi, %r14
	movq	%rax, %rsi
	callq	memcmp
	movq	%rbx, %rdi
	movq	%r14, %rsi
	testl	%eax, %eax
	jne	.LBB7_23
	jmp	.LBB7_14
.LBB7_12:
	movzbl	16(%rsi), %ecx
	testb	$1, %cl
	jne	.LBB7_8
.LBB7_13:
	cmpb	%cl, %al
	jne	.LBB7_23
.LBB7_14:
	movq	8(%rdi), %rcx
	cmpq	8(%rsi), %rcx
	jne	.LBB7_23
	movq	(%rdi), %rdi
	movq	(%rsi), %rdx
	cmpq	$5, %rcx
	je	.LBB7_20
	cmpq	$9, %rcx
	jne	.LBB7_22
	movq	(%rdi), %rax
	movzbl	8(%rdi), %ecx
	cmpb	8(%rdx), %cl
	sete	%cl
	cmpq	(%rdx), %rax
	jmp	.LBB7_21
.LBB7_23:
	xorl	%eax, %eax
	addq	$8, %rsp
	.cfi_def_cfa_offset 24
	popq	%rbx
	.cfi_def_cfa_offset 16
	popq	%r14
	.cfi_def_cfa_offset 8
	retq
.LBB7_20:
	.cfi_def_cfa_offset 32
	movl	(%rdi), %eax
	movzbl	4(%rdi), %ecx
	cmpb	4(%rdx), %cl
	sete	%cl
	cmpl	(%rdx), %eax
.LBB7_21:
	sete	%al
	andb	%cl, %al
	addq	$8, %rsp
	.cfi_def_cfa_offset 24
	popq	%rbx
	.cfi_def_cfa_offset 16
	popq	%r14
	.cfi_def_cfa_offset 8
	retq
.LBB7_22:
	.cfi_def_cfa_offset 32
	movq	%rcx, %rsi
	addq	$8, %rsp
	.cfi_def_cfa_offset 24
	popq	%rbx
	.cfi_def_cfa_offset 16
	popq	%r14
	.cfi_def_cfa_offset 8
	jmp	_RNvNtNtNtCs00000000000_7pkcs1_c5calls7pkcs1_c9algorithm17is_same_otherwise
.Lfunc_end7:
	.size	_RNvNtNtNtCs00000000000_7pkcs1_c5calls7pkcs1_c8meanings12is_same_hash, .Lfunc_end7-_RNvNtNtNtCs00000000000_7pkcs1_c5calls7pkcs1_c8meanings12is_same_hash
	.cfi_endproc

	.section	.text.pkcs1_c_algorithm_is_same_hash,"ax",@progbits
	.globl	pkcs1_c_algorithm_is_same_hash
	.p2align	4, 0x90
	.type	pkcs1_c_algorithm_is_same_hash,@function
pkcs1_c_algorithm_is_same_hash:
	.cfi_startproc
	endbr64
	jmp	_RNvNtNtNtCs00000000000_7pkcs1_c5calls7pkcs1_c8meanings12is_same_hash
.Lfunc_end8:
	.size	pkcs1_c_algorithm_is_same_hash, .Lfunc_end8-pkcs1_c_algorithm_is_same_hash
	.cfi_endproc

	.section	.text.pkcs1_c_pss_means_same,"ax",@progbits
	.globl	pkcs1_c_pss_means_same
	.p2align	4, 0x90
	.type	pkcs1_c_pss_means_same,@function
pkcs1_c_pss_means_same:
	.cfi_startproc
	endbr64
	pushq	%r14
	.cfi_def_cfa_offset 16
	pushq	%rbx
	.cfi_def_cfa_offset 24
	pushq	%rax
	.cfi_def_cfa_offset 32
	.cfi_offset %rbx, -24
	.cfi_offset %r14, -16
	movq	%rsi, %rbx
	movq	%rdi, %r14
	callq	_RNvNtNtNtCs00000000000_7pkcs1_c5calls7pkcs1_c8meanings12is_same_hash
	testb	%al, %al
	je	.LBB9_4
	movzbl	56(%r14), %eax
	movzbl	56(%rbx), %ecx
	cmpb	$1, %al
	jne	.LBB9_7
	testb	$1, %cl
	je	.LBB9_7
	leaq	64(%r14), %rdi
	leaq	64(%rbx), %rsi
	callq	_RNvNtNtNtCs00000000000_7pkcs1_c5calls7pkcs1_c8meanings12is_same_hash
	testb	%al, %al
	jne	.LBB9_8
	jmp	.LBB9_4
.LBB9_7:
	cmpb	%cl, %al
	jne	.LBB9_4
.LBB9_8:
	movq	48(%r14), %rcx
	cmpq	48(%rbx), %rcx
	jne	.LBB9_4
	movq	40(%r14), %rdi
	movq	40(%rbx), %rdx
	cmpq	$5, %rcx
	je	.LBB9_15
	cmpq	$9, %rcx
	jne	.LBB9_17
	movq	(%rdi), %rcx
	xorl	%eax, %eax
	cmpq	(%rdx), %rcx
	jne	.LBB9_5
	movzbl	8(%rdx), %ecx
	cmpb	%cl, 8(%rdi)
	je	.LBB9_18
	jmp	.LBB9_5
.LBB9_15:
	movl	(%rdi), %ecx
	xorl	%eax, %eax
	cmpl	(%rdx), %ecx
	jne	.LBB9_5
	movzbl	4(%rdx), %ecx
	cmpb	%cl, 4(%rdi)
	je	.LBB9_18
	jmp	.LBB9_5
.LBB9_17:
	movq	%rcx, %rsi
	callq	_RNvNtNtNtCs00000000000_7pkcs1_c5calls7pkcs1_c9algorithm17is_same_otherwise
	testb	%al, %al
	je	.LBB9_4
.LBB9_18:
	movzbl	104(%r14), %eax
	cmpb	104(%rbx), %al
	jne	.LBB9_4
	movzbl	105(%r14), %eax
	cmpb	105(%rbx), %al
	sete	%al
.LBB9_5:
	addq	$8, %rsp
	.cfi_def_cfa_offset 24
	popq	%rbx
	.cfi_def_cfa_offset 16
	popq	%r14
	.cfi_def_cfa_offset 8
	retq
.LBB9_4:
	.cfi_def_cfa_offset 32
	xorl	%eax, %eax
	addq	$8, %rsp
	.cfi_def_cfa_offset 24
	popq	%rbx
	.cfi_def_cfa_offset 16
	popq	%r14
	.cfi_def_cfa_offset 8
	retq
.Lfunc_end9:
	.size	pkcs1_c_pss_means_same, .Lfunc_end9-pkcs1_c_pss_means_same
	.cfi_endproc

	.section	.text.pkcs1_c_oaep_means_same,"ax",@progbits
	.globl	pkcs1_c_oaep_means_same
	.p2align	4, 0x90
	.type	pkcs1_c_oaep_means_same,@function
pkcs1_c_oaep_means_same:
	.cfi_startproc
	endbr64
	pushq	%r14
	.cfi_def_cfa_offset 16
	pushq	%rbx
	.cfi_def_cfa_offset 24
	pushq	%rax
	.cfi_def_cfa_offset 32
	.cfi_offset %rbx, -24
	.cfi_offset %r14, -16
	movq	%rsi, %r14
	movq	%rdi, %rbx
	callq	_RNvNtNtNtCs00000000000_7pkcs1_c5calls7pkcs1_c8meanings12is_same_hash
	testb	%al, %al
	je	.LBB10_4
	movzbl	56(%rbx), %eax
	movzbl	56(%r14), %ecx
	cmpb	$1, %al
	jne	.LBB10_7
	testb	$1, %cl
	je	.LBB10_7
	leaq	64(%rbx), %rdi
	leaq	64(%r14), %rsi
	callq	_RNvNtNtNtCs00000000000_7pkcs1_c5calls7pkcs1_c8meanings12is_same_hash
	testb	%al, %al
	jne	.LBB10_8
	jmp	.LBB10_4
.LBB10_7:
	cmpb	%cl, %al
	jne	.LBB10_4
.LBB10_8:
	movq	48(%rbx), %rcx
	cmpq	48(%r14), %rcx
	jne	.LBB10_4
	movq	40(%rbx), %rdi
	movq	40(%r14), %rdx
	cmpq	$5, %rcx
	je	.LBB10_15
	cmpq	$9, %rcx
	jne	.LBB10_17
	movq	(%rdi), %rcx
	xorl	%eax, %eax
	cmpq	(%rdx), %rcx
	jne	.LBB10_5
	movzbl	8(%rdx), %ecx
	cmpb	%cl, 8(%rdi)
	je	.LBB10_18
	jmp	.LBB10_5
.LBB10_15:
	movl	(%rdi), %ecx
	xorl	%eax, %eax
	cmpl	(%rdx), %ecx
	jne	.LBB10_5
	movzbl	4(%rdx), %ecx
	cmpb	%cl, 4(%rdi)
	je	.LBB10_18
	jmp	.LBB10_5
.LBB10_17:
	movq	%rcx, %rsi
	callq	_RNvNtNtNtCs00000000000_7pkcs1_c5calls7pkcs1_c9algorithm17is_same_otherwise
	testb	%al, %al
	je	.LBB10_4
.LBB10_18:
	movq	112(%rbx), %rcx
	cmpq	112(%r14), %rcx
	jne	.LBB10_4
	movq	104(%rbx), %rdi
	movq	104(%r14), %rdx
	cmpq	$5, %rcx
	je	.LBB10_25
	cmpq	$9, %rcx
	jne	.LBB10_27
	movq	(%rdi), %rcx
	xorl	%eax, %eax
	cmpq	(%rdx), %rcx
	jne	.LBB10_5
	movzbl	8(%rdx), %ecx
	cmpb	%cl, 8(%rdi)
	je	.LBB10_28
	jmp	.LBB10_5
.LBB10_25:
	movl	(%rdi), %ecx
	xorl	%eax, %eax
	cmpl	(%rdx), %ecx
	jne	.LBB10_5
	movzbl	4(%rdx), %ecx
	cmpb	%cl, 4(%rdi)
	je	.LBB10_28
	jmp	.LBB10_5
.LBB10_27:
	movq	%rcx, %rsi
	callq	_RNvNtNtNtCs00000000000_7pkcs1_c5calls7pkcs1_c9algorithm17is_same_otherwise
	testb	%al, %al
	je	.LBB10_4
.LBB10_28:
	movzbl	120(%rbx), %eax
	movzbl	120(%r14), %ecx
	testb	%al, %al
	je	.LBB10_33
	testb	$1, %cl
	je	.LBB10_33
	movzbl	121(%rbx), %eax
	cmpb	121(%r14), %al
	jne	.LBB10_4
	movq	136(%rbx), %rdx
	cmpq	136(%r14), %rdx
	jne	.LBB10_4
	movq	128(%r14), %rsi
	movq	128(%rbx), %rdi
	callq	memcmp
	testl	%eax, %eax
	jmp	.LBB10_34
.LBB10_4:
	xorl	%eax, %eax
.LBB10_5:
	addq	$8, %rsp
	.cfi_def_cfa_offset 24
	popq	%rbx
	.cfi_def_cfa_offset 16
	popq	%r14
	.cfi_def_cfa_offset 8
	retq
.LBB10_33:
	.cfi_def_cfa_offset 32
	cmpb	%cl, %al
.LBB10_34:
	sete	%al
	addq	$8, %rsp
	.cfi_def_cfa_offset 24
	popq	%rbx
	.cfi_def_cfa_offset 16
	popq	%r14
	.cfi_def_cfa_offset 8
	retq
.Lfunc_end10:
	.size	pkcs1_c_oaep_means_same, .Lfunc_end10-pkcs1_c_oaep_means_same
	.cfi_endproc

	.section	.text.pkcs1_c_bit_len,"ax",@progbits
	.globl	pkcs1_c_bit_len
	.p2align	4, 0x90
	.type	pkcs1_c_bit_len,@function
pkcs1_c_bit_len:
	.cfi_startproc
	endbr64
	cmpq	$2, %rsi
	jb	.LBB11_11
	leaq	(%rdi,%rsi), %rdx
	decq	%rdx
	movq	%rsi, %rax
	.p2align	4, 0x90
.LBB11_2:
	movzbl	(%rdi), %ecx
	testb	%cl, %cl
	jne	.LBB11_14
	decq	%rax
	incq	%rdi
	cmpq	$1, %rax
	ja	.LBB11_2
	movq	%rdx, %rdi
	jmp	.LBB11_5
.LBB11_11:
	testq	%rsi, %rsi
	je	.LBB11_12
.LBB11_5:
	testq	%rdi, %rdi
	je	.LBB11_12
	movzbl	(%rdi), %ecx
	movl	$1, %eax
	jmp	.LBB11_7
.LBB11_14:
	movq	%rax, %rdx
	shrq	$32, %rdx
	je	.LBB11_7
.LBB11_12:
	xorl	%eax, %eax
	negq	%rsi
	sbbq	%rax, %rax
	retq
.LBB11_7:
	shlq	$3, %rax
	testb	%cl, %cl
	je	.LBB11_8
	movzbl	%cl, %ecx
	bsrl	%ecx, %ecx
	xorl	$7, %ecx
	movzbl	%cl, %ecx
	subq	%rcx, %rax
	retq
.LBB11_8:
	movb	$8, %cl
	movzbl	%cl, %ecx
	subq	%rcx, %rax
	retq
.Lfunc_end11:
	.size	pkcs1_c_bit_len, .Lfunc_end11-pkcs1_c_bit_len
	.cfi_endproc

	.section	.rodata.cst16,"aM",@progbits,16
	.p2align	4, 0x0
.LCPI12_0:
	.zero	16,128
.LCPI12_1:
	.byte	128
	.byte	128
	.byte	128
	.byte	128
	.byte	128
	.byte	128
	.byte	128
	.byte	128
	.zero	1
	.zero	1
	.zero	1
	.zero	1
	.zero	1
	.zero	1
	.zero	1
	.zero	1
	.section	.text._RNvNtNtNtCs00000000000_7pkcs1_c5calls7pkcs1_c4oaep11from_c_oaep,"ax",@progbits
	.p2align	4, 0x90
	.type	_RNvNtNtNtCs00000000000_7pkcs1_c5calls7pkcs1_c4oaep11from_c_oaep,@function
_RNvNtNtNtCs00000000000_7pkcs1_c5calls7pkcs1_c4oaep11from_c_oaep:
	.cfi_startproc
	pushq	%rbp
	.cfi_def_cfa_offset 16
	pushq	%r15
	.cfi_def_cfa_offset 24
	pushq	%r14
	.cfi_def_cfa_offset 32
	pushq	%r13
	.cfi_def_cfa_offset 40
	pushq	%r12
	.cfi_def_cfa_offset 48
	pushq	%rbx
	.cfi_def_cfa_offset 56
	subq	$88, %rsp
	.cfi_def_cfa_offset 144
	.cfi_offset %rbx, -56
	.cfi_offset %r12, -48
	.cfi_offset %r13, -40
	.cfi_offset %r14, -32
	.cfi_offset %r15, -24
	.cfi_offset %rbp, -16
	movq	%rsi, %rax
	movq	8(%rsi), %rsi
	leaq	-1(%rsi), %rcx
	movb	$5, %dl
	cmpq	$38, %rcx
	ja	.LBB12_1
	movq	(%rax), %r10
	movzbl	(%r10,%rcx), %r8d
	testb	%r8b, %r8b
	js	.LBB12_10
	movdqa	.LCPI12_1(%rip), %xmm0
	movdqa	.LCPI12_0(%rip), %xmm1
	xorl	%r9d, %r9d
	movq	%r10, %r11
	jmp	.LBB12_5
	.p2align	4, 0x90
.LBB12_25:
	addq	%r14, %rcx
	addq	%rbx, %r11
.LBB12_5:
	cmpq	$7, %rcx
	jbe	.LBB12_6
	movq	(%r11), %xmm2
	pcmpeqb	%xmm0, %xmm2
	pmovmskb	%xmm2, %ebx
	testb	%bl, %bl
	jne	.LBB12_9
	movl	$8, %ebx
	movq	$-8, %r14
	jmp	.LBB12_25
	.p2align	4, 0x90
.LBB12_6:
	cmpq	$3, %rcx
	jbe	.LBB12_7
	movd	(%r11), %xmm2
	punpcklbw	%xmm2, %xmm2
	punpcklwd	%xmm2, %xmm2
	pcmpeqb	%xmm1, %xmm2
	movmskps	%xmm2, %ebx
	testl	%ebx, %ebx
	jne	.LBB12_9
	movl	$4, %ebx
	movq	$-4, %r14
	jmp	.LBB12_25
	.p2align	4, 0x90
.LBB12_7:
	testq	%rcx, %rcx
	je	.LBB12_18
	cmpb	(%r11), %r9b
	jo	.LBB12_9
	movl	$1, %ebx
	movq	$-1, %r14
	jmp	.LBB12_25
.LBB12_9:
	testq	%rsi, %rsi
	je	.LBB12_18
.LBB12_10:
	xorl	%ecx, %ecx
	cmpb	(%r10), %cl
	jo	.LBB12_2
	cmpq	$1, %rsi
	jne	.LBB12_12
.LBB12_17:
	testb	%r8b, %r8b
	js	.LBB12_1
.LBB12_18:
	cmpb	$1, 16(%rax)
	jne	.LBB12_19
	movzbl	17(%rax), %ecx
	movl	%ecx, %edx
	notb	%dl
	testb	$31, %dl
	sete	%dl
	testb	$-33, %cl
	sete	%r8b
	orb	%dl, %r8b
	movb	$11, %dl
	jne	.LBB12_2
	movq	32(%rax), %rbx
	movq	%rbx, %rdx
	shrq	$32, %rdx
	movb	$7, %dl
	jne	.LBB12_2
	movzbl	%cl, %ecx
	movq	%rcx, 80(%rsp)
	movq	24(%rax), %r15
	movl	%ebx, %ecx
	shrl	$8, %ecx
	movl	%ecx, 12(%rsp)
	movq	%rbx, %rcx
	shrq	$24, %rcx
	movq	%rcx, 72(%rsp)
	jmp	.LBB12_29
.LBB12_19:
	xorl	%r15d, %r15d
	movl	%ecx, 12(%rsp)
.LBB12_29:
	movq	48(%rax), %rcx
	leaq	-1(%rcx), %rdx
	movl	$5, %r8d
	cmpq	$38, %rdx
	ja	.LBB12_56
	movq	40(%rax), %r12
	movzbl	(%r12,%rdx), %r9d
	testb	%r9b, %r9b
	js	.LBB12_37
	movdqa	.LCPI12_1(%rip), %xmm0
	movdqa	.LCPI12_0(%rip), %xmm1
	xorl	%r11d, %r11d
	movq	%r12, %r13
	jmp	.LBB12_32
	.p2align	4, 0x90
.LBB12_51:
	movl	$1, %r14d
	movq	$-1, %rbp
.LBB12_52:
	addq	%rbp, %rdx
	addq	%r14, %r13
.LBB12_32:
	cmpq	$7, %rdx
	jbe	.LBB12_33
	movq	(%r13), %xmm2
	pcmpeqb	%xmm0, %xmm2
	pmovmskb	%xmm2, %ebp
	testb	%bpl, %bpl
	jne	.LBB12_36
	movl	$8, %r14d
	movq	$-8, %rbp
	jmp	.LBB12_52
	.p2align	4, 0x90
.LBB12_33:
	cmpq	$3, %rdx
	jbe	.LBB12_34
	movd	(%r13), %xmm2
	punpcklbw	%xmm2, %xmm2
	punpcklwd	%xmm2, %xmm2
	pcmpeqb	%xmm1, %xmm2
	movmskps	%xmm2, %ebp
	testl	%ebp, %ebp
	jne	.LBB12_36
	movl	$4, %r14d
	movq	$-4, %rbp
	jmp	.LBB12_52
	.p2align	4, 0x90
.LBB12_34:
	testq	%rdx, %rdx
	je	.LBB12_45
	cmpb	(%r13), %r11b
	jno	.LBB12_51
.LBB12_36:
	testq	%rcx, %rcx
	je	.LBB12_45
.LBB12_37:
	xorl	%edx, %edx
	cmpb	(%r12), %dl
	jo	.LBB12_56
	cmpq	$1, %rcx
	jne	.LBB12_39
.LBB12_44:
	testb	%r9b, %r9b
	js	.LBB12_56
.LBB12_45:
	cmpb	$1, 56(%rax)
	jne	.LBB12_46
	movq	72(%rax), %rdx
	leaq	-1(%rdx), %r8
	movb	$5, %r9b
	cmpq	$38, %r8
	ja	.LBB12_54
	movq	%rdx, 16(%rsp)
	movq	64(%rax), %r13
	movzbl	(%r13,%r8), %edx
	movb	%dl, 8(%rsp)
	testb	%dl, %dl
	js	.LBB12_64
	movdqa	.LCPI12_1(%rip), %xmm0
	movdqa	.LCPI12_0(%rip), %xmm1
	xorl	%ebp, %ebp
	movq	%r13, %rdx
	jmp	.LBB12_59
.LBB12_12:
	leaq	-1(%rsi), %r9
	xorl	%r11d, %r11d
	xorl	%ecx, %ecx
	jmp	.LBB12_13
	.p2align	4, 0x90
.LBB12_16:
	incq	%rcx
	cmpq	%rcx, %r9
	je	.LBB12_17
.LBB12_13:
	cmpb	1(%r10,%rcx), %r11b
	jno	.LBB12_16
	cmpq	%rsi, %rcx
	jae	.LBB12_120
	cmpb	$0, (%r10,%rcx)
	js	.LBB12_16
.LBB12_1:
	xorl	%ecx, %ecx
.LBB12_2:
	movzbl	%cl, %eax
	shll	$8, %eax
	movzbl	%dl, %ecx
.LBB12_86:
	orl	%eax, %ecx
	movw	%cx, 8(%rdi)
.LBB12_87:
	movb	$0, 10(%rdi)
	movq	$0, (%rdi)
.LBB12_119:
	addq	$88, %rsp
	.cfi_def_cfa_offset 56
	popq	%rbx
	.cfi_def_cfa_offset 48
	popq	%r12
	.cfi_def_cfa_offset 40
	popq	%r13
	.cfi_def_cfa_offset 32
	popq	%r14
	.cfi_def_cfa_offset 24
	popq	%r15
	.cfi_def_cfa_offset 16
	popq	%rbp
	.cfi_def_cfa_offset 8
	retq
.LBB12_78:
	.cfi_def_cfa_offset 144
	movl	$1, %r14d
	movq	$-1, %r11
.LBB12_79:
	addq	%r11, %r8
	addq	%r14, %rdx
.LBB12_59:
	cmpq	$7, %r8
	jbe	.LBB12_60
	movq	(%rdx), %xmm2
	pcmpeqb	%xmm0, %xmm2
	pmovmskb	%xmm2, %r11d
	testb	%r11b, %r11b
	jne	.LBB12_63
	movl	$8, %r14d
	movq	$-8, %r11
	jmp	.LBB12_79
.LBB12_60:
	cmpq	$3, %r8
	jbe	.LBB12_61
	movd	(%rdx), %xmm2
	punpcklbw	%xmm2, %xmm2
	punpcklwd	%xmm2, %xmm2
	pcmpeqb	%xmm1, %xmm2
	movmskps	%xmm2, %r11d
	testl	%r11d, %r11d
	jne	.LBB12_63
	movl	$4, %r14d
	movq	$-4, %r11
	jmp	.LBB12_79
.LBB12_61:
	testq	%r8, %r8
	je	.LBB12_72
	cmpb	(%rdx), %bpl
	jno	.LBB12_78
.LBB12_63:
	cmpq	$0, 16(%rsp)
	je	.LBB12_72
.LBB12_64:
	xorl	%edx, %edx
	cmpb	(%r13), %dl
	jo	.LBB12_55
	movq	16(%rsp), %r11
	cmpq	$1, %r11
	jne	.LBB12_66
.LBB12_71:
	cmpb	$0, 8(%rsp)
	js	.LBB12_54
.LBB12_72:
	cmpb	$1, 80(%rax)
	jne	.LBB12_73
	movzbl	81(%rax), %edx
	movl	%edx, %r8d
	notb	%r8b
	testb	$31, %r8b
	sete	%r8b
	testb	$-33, %dl
	sete	%r9b
	orb	%r8b, %r9b
	movb	$11, %r9b
	jne	.LBB12_55
	movq	96(%rax), %r11
	movq	%r11, %r8
	shrq	$32, %r8
	movb	$7, %r9b
	jne	.LBB12_55
	movzbl	%dl, %edx
	movq	%rdx, 56(%rsp)
	movq	88(%rax), %rdx
	movq	%rdx, 32(%rsp)
	movl	%r11d, %edx
	shrl	$8, %edx
	movl	%edx, 8(%rsp)
	movq	%r11, %rdx
	shrq	$24, %rdx
	movq	%rdx, 48(%rsp)
	jmp	.LBB12_83
.LBB12_46:
	xorl	%r13d, %r13d
	movl	%edx, 8(%rsp)
	movq	%rdx, 16(%rsp)
.LBB12_83:
	movq	112(%rax), %r8
	leaq	-1(%r8), %r9
	movb	$5, %bpl
	cmpq	$38, %r9
	ja	.LBB12_84
	movq	%r11, 64(%rsp)
	movq	%r13, 40(%rsp)
	movq	104(%rax), %r14
	movzbl	(%r14,%r9), %edx
	movb	%dl, 24(%rsp)
	testb	%dl, %dl
	js	.LBB12_95
	movdqa	.LCPI12_1(%rip), %xmm0
	movdqa	.LCPI12_0(%rip), %xmm1
	xorl	%edx, %edx
	movq	%r14, %r11
	jmp	.LBB12_90
.LBB12_105:
	movd	(%r11), %xmm2
	punpcklbw	%xmm2, %xmm2
	punpcklwd	%xmm2, %xmm2
	pcmpeqb	%xmm1, %xmm2
	movmskps	%xmm2, %ebp
	testl	%ebp, %ebp
	jne	.LBB12_94
	movl	$4, %ebp
	movq	$-4, %r13
.LBB12_108:
	addq	%r13, %r9
	addq	%rbp, %r11
.LBB12_90:
	cmpq	$7, %r9
	jbe	.LBB12_91
	movq	(%r11), %xmm2
	pcmpeqb	%xmm0, %xmm2
	pmovmskb	%xmm2, %ebp
	testb	%bpl, %bpl
	jne	.LBB12_94
	movl	$8, %ebp
	movq	$-8, %r13
	jmp	.LBB12_108
.LBB12_91:
	cmpq	$3, %r9
	ja	.LBB12_105
	testq	%r9, %r9
	je	.LBB12_111
	cmpb	(%r11), %dl
	jo	.LBB12_94
	movl	$1, %ebp
	movq	$-1, %r13
	jmp	.LBB12_108
.LBB12_39:
	leaq	-1(%rcx), %r11
	xorl	%r14d, %r14d
	xorl	%edx, %edx
	jmp	.LBB12_40
	.p2align	4, 0x90
.LBB12_43:
	incq	%rdx
	cmpq	%rdx, %r11
	je	.LBB12_44
.LBB12_40:
	cmpb	1(%r12,%rdx), %r14b
	jno	.LBB12_43
	cmpq	%rcx, %rdx
	jae	.LBB12_121
	cmpb	$0, (%r12,%rdx)
	js	.LBB12_43
	jmp	.LBB12_56
.LBB12_84:
	xorl	%edx, %edx
	jmp	.LBB12_85
.LBB12_94:
	testq	%r8, %r8
	je	.LBB12_111
.LBB12_95:
	xorl	%edx, %edx
	cmpb	(%r14), %dl
	jno	.LBB12_97
	movb	$5, %bpl
	jmp	.LBB12_85
.LBB12_97:
	cmpq	$1, %r8
	jne	.LBB12_98
.LBB12_110:
	cmpb	$0, 24(%rsp)
	js	.LBB12_102
.LBB12_111:
	cmpb	$1, 120(%rax)
	jne	.LBB12_112
	movzbl	121(%rax), %edx
	movl	%edx, %r9d
	notb	%r9b
	testb	$31, %r9b
	sete	%r9b
	testb	$-33, %dl
	sete	%r11b
	orb	%r9b, %r11b
	movq	40(%rsp), %r13
	je	.LBB12_115
	movb	$11, %bpl
	jmp	.LBB12_85
.LBB12_112:
	xorl	%ebp, %ebp
	movq	40(%rsp), %r13
.LBB12_118:
	movq	%r10, (%rdi)
	movw	%si, 8(%rdi)
	shrl	$16, %esi
	movb	%sil, 10(%rdi)
	movb	$0, 15(%rdi)
	movl	$0, 11(%rdi)
	movq	%r15, 16(%rdi)
	movb	%bl, 24(%rdi)
	movl	12(%rsp), %edx
	movw	%dx, 25(%rdi)
	movq	72(%rsp), %rdx
	movl	%edx, 27(%rdi)
	shrq	$32, %rdx
	movb	%dl, 31(%rdi)
	movq	80(%rsp), %rdx
	movq	%rdx, 32(%rdi)
	movq	%r12, 40(%rdi)
	movw	%cx, 48(%rdi)
	shrl	$16, %ecx
	movb	%cl, 50(%rdi)
	movb	$0, 55(%rdi)
	movl	$0, 51(%rdi)
	movq	%r13, 56(%rdi)
	movq	16(%rsp), %rcx
	movw	%cx, 64(%rdi)
	shrl	$16, %ecx
	movb	%cl, 66(%rdi)
	movb	$0, 71(%rdi)
	movl	$0, 67(%rdi)
	movq	32(%rsp), %rcx
	movq	%rcx, 72(%rdi)
	movq	64(%rsp), %rcx
	movb	%cl, 80(%rdi)
	movl	8(%rsp), %ecx
	movw	%cx, 81(%rdi)
	movq	48(%rsp), %rcx
	movl	%ecx, 83(%rdi)
	shrq	$32, %rcx
	movb	%cl, 87(%rdi)
	movq	56(%rsp), %rcx
	movq	%rcx, 88(%rdi)
	movq	%r14, 96(%rdi)
	movw	%r8w, 104(%rdi)
	shrl	$16, %r8d
	movb	%r8b, 106(%rdi)
	movb	$0, 111(%rdi)
	movl	$0, 107(%rdi)
	movq	%rbp, 112(%rdi)
	movb	%r9b, 120(%rdi)
	movw	%r11w, 121(%rdi)
	movl	%eax, 123(%rdi)
	shrq	$32, %rax
	movb	%al, 127(%rdi)
	movq	24(%rsp), %rax
	movq	%rax, 128(%rdi)
	jmp	.LBB12_119
.LBB12_73:
	movq	$0, 32(%rsp)
	movl	%edx, 8(%rsp)
	jmp	.LBB12_83
.LBB12_98:
	leaq	-1(%r8), %rdx
	xorl	%r11d, %r11d
	xorl	%r9d, %r9d
	jmp	.LBB12_99
.LBB12_109:
	incq	%r9
	cmpq	%r9, %rdx
	je	.LBB12_110
.LBB12_99:
	cmpb	1(%r14,%r9), %r11b
	jno	.LBB12_109
	cmpq	%r8, %r9
	jae	.LBB12_123
	cmpb	$0, (%r14,%r9)
	js	.LBB12_109
.LBB12_102:
	xorl	%edx, %edx
	movb	$5, %bpl
	jmp	.LBB12_85
.LBB12_66:
	leaq	-1(%r11), %rdx
	xorl	%r14d, %r14d
	xorl	%r8d, %r8d
	jmp	.LBB12_67
.LBB12_70:
	incq	%r8
	cmpq	%r8, %rdx
	je	.LBB12_71
.LBB12_67:
	cmpb	1(%r13,%r8), %r14b
	jno	.LBB12_70
	cmpq	%r11, %r8
	jae	.LBB12_122
	cmpb	$0, (%r13,%r8)
	js	.LBB12_70
.LBB12_54:
	xorl	%edx, %edx
.LBB12_55:
	movzbl	%dl, %eax
	shll	$8, %eax
	movzbl	%r9b, %r8d
	orl	%eax, %r8d
.LBB12_56:
	movw	%r8w, 8(%rdi)
	jmp	.LBB12_87
.LBB12_115:
	movq	136(%rax), %r9
	movq	%r9, %r11
	shrq	$32, %r11
	je	.LBB12_117
	movb	$7, %bpl
.LBB12_85:
	movzbl	%dl, %eax
	shll	$8, %eax
	movzbl	%bpl, %ecx
	jmp	.LBB12_86
.LBB12_117:
	movzbl	%dl, %edx
	movq	%rdx, 24(%rsp)
	movq	128(%rax), %rbp
	movl	%r9d, %r11d
	shrl	$8, %r11d
	movq	%r9, %rax
	shrq	$24, %rax
	jmp	.LBB12_118
.LBB12_120:
	movq	%rcx, %rdi
	ud2
.LBB12_121:
	movq	%rdx, %rdi
	movq	%rcx, %rsi
	ud2
.LBB12_123:
	movq	%r9, %rdi
	movq	%r8, %rsi
	ud2
.LBB12_122:
	movq	%r8, %rdi
	movq	%r11, %rsi
	ud2
.Lfunc_end12:
	.size	_RNvNtNtNtCs00000000000_7pkcs1_c5calls7pkcs1_c4oaep11from_c_oaep, .Lfunc_end12-_RNvNtNtNtCs00000000000_7pkcs1_c5calls7pkcs1_c4oaep11from_c_oaep
	.cfi_endproc

	.section	.text.pkcs1_c_oaep_params_decode,"ax",@progbits
	.globl	pkcs1_c_oaep_params_decode
	.p2align	4, 0x90
	.type	pkcs1_c_oaep_params_decode,@function
pkcs1_c_oaep_params_decode:
	.cfi_startproc
	endbr64
	pushq	%rbp
	.cfi_def_cfa_offset 16
	pushq	%r15
	.cfi_def_cfa_offset 24
	pushq	%r14
	.cfi_def_cfa_offset 32
	pushq	%r13
	.cfi_def_cfa_offset 40
	pushq	%r12
	.cfi_def_cfa_offset 48
	pushq	%rbx
	.cfi_def_cfa_offset 56
	subq	$216, %rsp
	.cfi_def_cfa_offset 272
	.cfi_offset %rbx, -56
	.cfi_offset %r12, -48
	.cfi_offset %r13, -40
	.cfi_offset %r14, -32
	.cfi_offset %r15, -24
	.cfi_offset %rbp, -16
	movq	%rsi, %rax
	shrq	$32, %rax
	movl	$8, %eax
	jne	.LBB13_39
	movq	%rsi, %rcx
	cmpq	$2, %rsi
	jb	.LBB13_16
	cmpb	$48, (%rdi)
	jne	.LBB13_16
	leaq	2(%rdi), %rsi
	leaq	-2(%rcx), %rbx
	movsbq	1(%rdi), %rax
	testq	%rax, %rax
	js	.LBB13_4
	subq	%rax, %rbx
	jb	.LBB13_16
	movq	%rdx, %r14
	jmp	.LBB13_18
.LBB13_4:
	cmpb	$-126, %al
	jne	.LBB13_9
	cmpq	$1, %rbx
	jbe	.LBB13_16
	movzbl	2(%rdi), %esi
	testq	%rsi, %rsi
	je	.LBB13_16
	leaq	-4(%rcx), %rbx
	shll	$8, %esi
	movzbl	3(%rdi), %eax
	orq	%rsi, %rax
	subq	%rax, %rbx
	jb	.LBB13_16
	movq	%rdx, %r14
	addq	$4, %rdi
	movq	%rdi, %rsi
	jmp	.LBB13_18
.LBB13_9:
	testq	%rbx, %rbx
	je	.LBB13_16
	cmpb	$-127, %al
	jne	.LBB13_16
	movzbl	(%rsi), %eax
	testb	%al, %al
	jns	.LBB13_16
	leaq	-3(%rcx), %rbx
	subq	%rax, %rbx
	jb	.LBB13_16
	movq	%rdx, %r14
	addq	$3, %rdi
	movq	%rdi, %rsi
	jmp	.LBB13_18
.LBB13_16:
	movq	%rdx, %r14
	leaq	72(%rsp), %rax
	movq	%rdi, %rsi
	movq	%rax, %rdi
	movq	%rcx, %rdx
	movl	$48, %ecx
	callq	_RNvNtNtNtCs00000000000_7pkcs1_c6proved8der_core5split14split_unlikely
	movq	72(%rsp), %rsi
	testq	%rsi, %rsi
	je	.LBB13_20
	movq	80(%rsp), %rax
	movq	96(%rsp), %rbx
.LBB13_18:
	leaq	72(%rsp), %rdi
	movq	%rax, %rdx
	callq	_RNvNtNtNtCs00000000000_7pkcs1_c6proved12pkcs1_params6noting9note_oaep
	movzbl	74(%rsp), %eax
	shll	$16, %eax
	movzwl	72(%rsp), %edi
	orl	%eax, %edi
	cmpb	$2, 208(%rsp)
	jne	.LBB13_21
	leal	-17(%rdi), %eax
	movzbl	%al, %eax
	leaq	1(%rax), %rcx
	xorl	%edx, %edx
	cmpb	$3, %al
	cmovbq	%rcx, %rdx
	movl	$18, %eax
	leaq	.LJTI13_0(%rip), %rcx
	movslq	(%rcx,%rdx,4), %rdx
	addq	%rcx, %rdx
	notrack	jmpq	*%rdx
.LBB13_38:
	movzbl	%dil, %eax
	incl	%eax
	jmp	.LBB13_39
.LBB13_21:
	movl	$13, %eax
	testq	%rbx, %rbx
	jne	.LBB13_39
	movzbl	79(%rsp), %edx
	movl	75(%rsp), %eax
	movzbl	82(%rsp), %r8d
	shll	$16, %r8d
	movzwl	80(%rsp), %esi
	orl	%r8d, %esi
	andl	$16777215, %edi
	shlq	$24, %rax
	shlq	$56, %rdx
	orq	%rax, %rdx
	orq	%rdi, %rdx
	testq	%rdx, %rdx
	je	.LBB13_35
	movq	%r14, %rcx
	movl	83(%rsp), %eax
	movzbl	87(%rsp), %r8d
	shlq	$32, %r8
	orq	%rax, %r8
	movq	88(%rsp), %r11
	movq	128(%rsp), %rax
	andl	$16777215, %esi
	leaq	_RNvNtCs00000000000_7pkcs1_c10rattle_std8AN_OCTET(%rip), %r9
	testq	%r11, %r11
	je	.LBB13_24
	movq	96(%rsp), %r10
	movq	104(%rsp), %rbx
	movb	$1, %r14b
	jmp	.LBB13_26
.LBB13_20:
	movzbl	80(%rsp), %edi
	leal	-17(%rdi), %eax
	movzbl	%al, %eax
	leaq	1(%rax), %rcx
	xorl	%edx, %edx
	cmpb	$3, %al
	cmovbq	%rcx, %rdx
	movl	$18, %eax
	leaq	.LJTI13_0(%rip), %rcx
	movslq	(%rcx,%rdx,4), %rdx
	addq	%rcx, %rdx
	notrack	jmpq	*%rdx
.LBB13_35:
	leal	-17(%rsi), %eax
	movzbl	%al, %eax
	leaq	1(%rax), %rcx
	xorl	%edx, %edx
	cmpb	$3, %al
	cmovbq	%rcx, %rdx
	movl	$18, %eax
	leaq	.LJTI13_0(%rip), %rcx
	movslq	(%rcx,%rdx,4), %rdx
	addq	%rcx, %rdx
	movl	%esi, %edi
	notrack	jmpq	*%rdx
.LBB13_36:
	movl	$19, %eax
	jmp	.LBB13_39
.LBB13_37:
	movl	$20, %eax
	jmp	.LBB13_39
.LBB13_24:
	xorl	%r10d, %r10d
	movq	%r9, %r11
	xorl	%ebx, %ebx
	xorl	%r14d, %r14d
.LBB13_26:
	shlq	$24, %r8
	movq	184(%rsp), %rdi
	testq	%rax, %rax
	movq	%r10, 64(%rsp)
	movq	%rbx, 56(%rsp)
	movq	%r14, 48(%rsp)
	je	.LBB13_27
	movq	136(%rsp), %r15
	movq	144(%rsp), %r13
	testq	%r13, %r13
	movq	%rax, 40(%rsp)
	movq	%r15, 32(%rsp)
	je	.LBB13_29
	movq	152(%rsp), %rax
	movq	%rax, 24(%rsp)
	movq	160(%rsp), %rax
	movq	%rax, 16(%rsp)
	movb	$1, %al
	movq	%rax, 8(%rsp)
	movb	$1, %al
	movq	%rax, (%rsp)
	jmp	.LBB13_30
.LBB13_27:
	movq	$0, 24(%rsp)
	movq	%r9, %r13
	movq	$0, 16(%rsp)
	movq	$0, 8(%rsp)
	movq	$0, 32(%rsp)
	movq	%r9, 40(%rsp)
	movq	$0, (%rsp)
	jmp	.LBB13_30
.LBB13_29:
	movb	$1, %al
	movq	%rax, (%rsp)
	movq	$0, 24(%rsp)
	movq	%r9, %r13
	movq	$0, 16(%rsp)
	movq	$0, 8(%rsp)
.LBB13_30:
	movq	112(%rsp), %rbp
	movq	120(%rsp), %rbx
	movq	168(%rsp), %r15
	movq	176(%rsp), %r12
	orq	%rsi, %r8
	xorl	%eax, %eax
	testq	%rdi, %rdi
	je	.LBB13_31
	movq	192(%rsp), %rsi
	movq	200(%rsp), %r14
	movb	$1, %r10b
	movq	%rdi, %r9
	jmp	.LBB13_34
.LBB13_31:
	xorl	%esi, %esi
	xorl	%r14d, %r14d
	xorl	%r10d, %r10d
.LBB13_34:
	movq	%rdx, (%rcx)
	movq	%r8, 8(%rcx)
	movq	48(%rsp), %rdx
	movb	%dl, 16(%rcx)
	movq	56(%rsp), %rdx
	movb	%dl, 17(%rcx)
	movq	%r11, 24(%rcx)
	movq	64(%rsp), %rdx
	movq	%rdx, 32(%rcx)
	movq	%rbp, 40(%rcx)
	movq	%rbx, 48(%rcx)
	movq	(%rsp), %rdx
	movb	%dl, 56(%rcx)
	movq	40(%rsp), %rdx
	movq	%rdx, 64(%rcx)
	movq	32(%rsp), %rdx
	movq	%rdx, 72(%rcx)
	movq	8(%rsp), %rdx
	movb	%dl, 80(%rcx)
	movq	16(%rsp), %rdx
	movb	%dl, 81(%rcx)
	movq	%r13, 88(%rcx)
	movq	24(%rsp), %rdx
	movq	%rdx, 96(%rcx)
	movq	%r15, 104(%rcx)
	movq	%r12, 112(%rcx)
	movb	%r10b, 120(%rcx)
	movb	%r14b, 121(%rcx)
	movq	%r9, 128(%rcx)
	movq	%rsi, 136(%rcx)
.LBB13_39:
	addq	$216, %rsp
	.cfi_def_cfa_offset 56
	popq	%rbx
	.cfi_def_cfa_offset 48
	popq	%r12
	.cfi_def_cfa_offset 40
	popq	%r13
	.cfi_def_cfa_offset 32
	popq	%r14
	.cfi_def_cfa_offset 24
	popq	%r15
	.cfi_def_cfa_offset 16
	popq	%rbp
	.cfi_def_cfa_offset 8
	retq
.Lfunc_end13:
	.size	pkcs1_c_oaep_params_decode, .Lfunc_end13-pkcs1_c_oaep_params_decode
	.cfi_endproc
	.section	.rodata.pkcs1_c_oaep_params_decode,"a",@progbits
	.p2align	2, 0x0
.LJTI13_0:
	.long	.LBB13_38-.LJTI13_0
	.long	.LBB13_39-.LJTI13_0
	.long	.LBB13_36-.LJTI13_0
	.long	.LBB13_37-.LJTI13_0

	.section	.text.pkcs1_c_oaep_params_decode_strict,"ax",@progbits
	.globl	pkcs1_c_oaep_params_decode_strict
	.p2align	4, 0x90
	.type	pkcs1_c_oaep_params_decode_strict,@function
pkcs1_c_oaep_params_decode_strict:
	.cfi_startproc
	endbr64
	pushq	%rbp
	.cfi_def_cfa_offset 16
	pushq	%r15
	.cfi_def_cfa_offset 24
	pushq	%r14
	.cfi_def_cfa_offset 32
	pushq	%r13
	.cfi_def_cfa_offset 40
	pushq	%r12
	.cfi_def_cfa_offset 48
	pushq	%rbx
	.cfi_def_cfa_offset 56
	subq	$216, %rsp
	.cfi_def_cfa_offset 272
	.cfi_offset %rbx, -56
	.cfi_offset %r12, -48
	.cfi_offset %r13, -40
	.cfi_offset %r14, -32
	.cfi_offset %r15, -24
	.cfi_offset %rbp, -16
	movq	%rsi, %rax
	shrq	$32, %rax
	movl	$8, %eax
	jne	.LBB14_40
	movq	%rsi, %rcx
	cmpq	$2, %rsi
	jb	.LBB14_16
	cmpb	$48, (%rdi)
	jne	.LBB14_16
	leaq	2(%rdi), %rsi
	leaq	-2(%rcx), %rbx
	movsbq	1(%rdi), %rax
	testq	%rax, %rax
	js	.LBB14_4
	subq	%rax, %rbx
	jb	.LBB14_16
	movq	%rdx, %r14
	jmp	.LBB14_18
.LBB14_4:
	cmpb	$-126, %al
	jne	.LBB14_9
	cmpq	$1, %rbx
	jbe	.LBB14_16
	movzbl	2(%rdi), %esi
	testq	%rsi, %rsi
	je	.LBB14_16
	leaq	-4(%rcx), %rbx
	shll	$8, %esi
	movzbl	3(%rdi), %eax
	orq	%rsi, %rax
	subq	%rax, %rbx
	jb	.LBB14_16
	movq	%rdx, %r14
	addq	$4, %rdi
	movq	%rdi, %rsi
	jmp	.LBB14_18
.LBB14_9:
	testq	%rbx, %rbx
	je	.LBB14_16
	cmpb	$-127, %al
	jne	.LBB14_16
	movzbl	(%rsi), %eax
	testb	%al, %al
	jns	.LBB14_16
	leaq	-3(%rcx), %rbx
	subq	%rax, %rbx
	jb	.LBB14_16
	movq	%rdx, %r14
	addq	$3, %rdi
	movq	%rdi, %rsi
	jmp	.LBB14_18
.LBB14_16:
	movq	%rdx, %r14
	leaq	72(%rsp), %rax
	movq	%rdi, %rsi
	movq	%rax, %rdi
	movq	%rcx, %rdx
	movl	$48, %ecx
	callq	_RNvNtNtNtCs00000000000_7pkcs1_c6proved8der_core5split14split_unlikely
	movq	72(%rsp), %rsi
	testq	%rsi, %rsi
	je	.LBB14_20
	movq	80(%rsp), %rax
	movq	96(%rsp), %rbx
.LBB14_18:
	leaq	72(%rsp), %rdi
	movq	%rax, %rdx
	callq	_RNvNtNtNtCs00000000000_7pkcs1_c6proved12pkcs1_params6noting9note_oaep
	movzbl	208(%rsp), %edx
	movzbl	74(%rsp), %eax
	shll	$16, %eax
	movzwl	72(%rsp), %edi
	orl	%eax, %edi
	cmpb	$2, %dl
	jne	.LBB14_21
	leal	-17(%rdi), %eax
	movzbl	%al, %eax
	leaq	1(%rax), %rcx
	xorl	%edx, %edx
	cmpb	$3, %al
	cmovbq	%rcx, %rdx
	movl	$18, %eax
	leaq	.LJTI14_0(%rip), %rcx
	movslq	(%rcx,%rdx,4), %rdx
	addq	%rcx, %rdx
	notrack	jmpq	*%rdx
.LBB14_39:
	movzbl	%dil, %eax
	incl	%eax
	jmp	.LBB14_40
.LBB14_21:
	movl	$13, %eax
	testq	%rbx, %rbx
	jne	.LBB14_40
	movl	$5, %eax
	testb	$1, %dl
	jne	.LBB14_40
	movzbl	79(%rsp), %edx
	movl	75(%rsp), %eax
	movzbl	82(%rsp), %r8d
	shll	$16, %r8d
	movzwl	80(%rsp), %esi
	orl	%r8d, %esi
	andl	$16777215, %edi
	shlq	$24, %rax
	shlq	$56, %rdx
	orq	%rax, %rdx
	orq	%rdi, %rdx
	testq	%rdx, %rdx
	je	.LBB14_36
	movq	%r14, %rcx
	movl	83(%rsp), %eax
	movzbl	87(%rsp), %r8d
	shlq	$32, %r8
	orq	%rax, %r8
	movq	88(%rsp), %r11
	movq	128(%rsp), %rax
	andl	$16777215, %esi
	leaq	_RNvNtCs00000000000_7pkcs1_c10rattle_std8AN_OCTET(%rip), %r9
	testq	%r11, %r11
	je	.LBB14_25
	movq	96(%rsp), %r10
	movq	104(%rsp), %rbx
	movb	$1, %r14b
	jmp	.LBB14_27
.LBB14_20:
	movzbl	80(%rsp), %edi
	leal	-17(%rdi), %eax
	movzbl	%al, %eax
	leaq	1(%rax), %rcx
	xorl	%edx, %edx
	cmpb	$3, %al
	cmovbq	%rcx, %rdx
	movl	$18, %eax
	leaq	.LJTI14_0(%rip), %rcx
	movslq	(%rcx,%rdx,4), %rdx
	addq	%rcx, %rdx
	notrack	jmpq	*%rdx
.LBB14_36:
	leal	-17(%rsi), %eax
	movzbl	%al, %eax
	leaq	1(%rax), %rcx
	xorl	%edx, %edx
	cmpb	$3, %al
	cmovbq	%rcx, %rdx
	movl	$18, %eax
	leaq	.LJTI14_0(%rip), %rcx
	movslq	(%rcx,%rdx,4), %rdx
	addq	%rcx, %rdx
	movl	%esi, %edi
	notrack	jmpq	*%rdx
.LBB14_37:
	movl	$19, %eax
	jmp	.LBB14_40
.LBB14_38:
	movl	$20, %eax
	jmp	.LBB14_40
.LBB14_25:
	xorl	%r10d, %r10d
	movq	%r9, %r11
	xorl	%ebx, %ebx
	xorl	%r14d, %r14d
.LBB14_27:
	shlq	$24, %r8
	movq	184(%rsp), %rdi
	testq	%rax, %rax
	movq	%r10, 64(%rsp)
	movq	%rbx, 56(%rsp)
	movq	%r14, 48(%rsp)
	je	.LBB14_28
	movq	136(%rsp), %r15
	movq	144(%rsp), %r13
	testq	%r13, %r13
	movq	%rax, 40(%rsp)
	movq	%r15, 32(%rsp)
	je	.LBB14_30
	movq	152(%rsp), %rax
	movq	%rax, 24(%rsp)
	movq	160(%rsp), %rax
	movq	%rax, 16(%rsp)
	movb	$1, %al
	movq	%rax, 8(%rsp)
	movb	$1, %al
	movq	%rax, (%rsp)
	jmp	.LBB14_31
.LBB14_28:
	movq	$0, 24(%rsp)
	movq	%r9, %r13
	movq	$0, 16(%rsp)
	movq	$0, 8(%rsp)
	movq	$0, 32(%rsp)
	movq	%r9, 40(%rsp)
	movq	$0, (%rsp)
	jmp	.LBB14_31
.LBB14_30:
	movb	$1, %al
	movq	%rax, (%rsp)
	movq	$0, 24(%rsp)
	movq	%r9, %r13
	movq	$0, 16(%rsp)
	movq	$0, 8(%rsp)
.LBB14_31:
	movq	112(%rsp), %rbp
	movq	120(%rsp), %rbx
	movq	168(%rsp), %r15
	movq	176(%rsp), %r12
	orq	%rsi, %r8
	xorl	%eax, %eax
	testq	%rdi, %rdi
	je	.LBB14_32
	movq	192(%rsp), %rsi
	movq	200(%rsp), %r14
	movb	$1, %r10b
	movq	%rdi, %r9
	jmp	.LBB14_35
.LBB14_32:
	xorl	%esi, %esi
	xorl	%r14d, %r14d
	xorl	%r10d, %r10d
.LBB14_35:
	movq	%rdx, (%rcx)
	movq	%r8, 8(%rcx)
	movq	48(%rsp), %rdx
	movb	%dl, 16(%rcx)
	movq	56(%rsp), %rdx
	movb	%dl, 17(%rcx)
	movq	%r11, 24(%rcx)
	movq	64(%rsp), %rdx
	movq	%rdx, 32(%rcx)
	movq	%rbp, 40(%rcx)
	movq	%rbx, 48(%rcx)
	movq	(%rsp), %rdx
	movb	%dl, 56(%rcx)
	movq	40(%rsp), %rdx
	movq	%rdx, 64(%rcx)
	movq	32(%rsp), %rdx
	movq	%rdx, 72(%rcx)
	movq	8(%rsp), %rdx
	movb	%dl, 80(%rcx)
	movq	16(%rsp), %rdx
	movb	%dl, 81(%rcx)
	movq	%r13, 88(%rcx)
	movq	24(%rsp), %rdx
	movq	%rdx, 96(%rcx)
	movq	%r15, 104(%rcx)
	movq	%r12, 112(%rcx)
	movb	%r10b, 120(%rcx)
	movb	%r14b, 121(%rcx)
	movq	%r9, 128(%rcx)
	movq	%rsi, 136(%rcx)
.LBB14_40:
	addq	$216, %rsp
	.cfi_def_cfa_offset 56
	popq	%rbx
	.cfi_def_cfa_offset 48
	popq	%r12
	.cfi_def_cfa_offset 40
	popq	%r13
	.cfi_def_cfa_offset 32
	popq	%r14
	.cfi_def_cfa_offset 24
	popq	%r15
	.cfi_def_cfa_offset 16
	popq	%rbp
	.cfi_def_cfa_offset 8
	retq
.Lfunc_end14:
	.size	pkcs1_c_oaep_params_decode_strict, .Lfunc_end14-pkcs1_c_oaep_params_decode_strict
	.cfi_endproc
	.section	.rodata.pkcs1_c_oaep_params_decode_strict,"a",@progbits
	.p2align	2, 0x0
.LJTI14_0:
	.long	.LBB14_39-.LJTI14_0
	.long	.LBB14_40-.LJTI14_0
	.long	.LBB14_37-.LJTI14_0
	.long	.LBB14_38-.LJTI14_0

	.section	.text.pkcs1_c_oaep_params_encode,"ax",@progbits
	.globl	pkcs1_c_oaep_params_encode
	.p2align	4, 0x90
	.type	pkcs1_c_oaep_params_encode,@function
pkcs1_c_oaep_params_encode:
	.cfi_startproc
	endbr64
	pushq	%rbp
	.cfi_def_cfa_offset 16
	pushq	%r15
	.cfi_def_cfa_offset 24
	pushq	%r14
	.cfi_def_cfa_offset 32
	pushq	%r13
	.cfi_def_cfa_offset 40
	pushq	%r12
	.cfi_def_cfa_offset 48
	pushq	%rbx
	.cfi_def_cfa_offset 56
	subq	$296, %rsp
	.cfi_def_cfa_offset 352
	.cfi_offset %rbx, -56
	.cfi_offset %r12, -48
	.cfi_offset %r13, -40
	.cfi_offset %r14, -32
	.cfi_offset %r15, -24
	.cfi_offset %rbp, -16
	movq	%rcx, %r15
	movq	%rdx, %r14
	movq	%rsi, %rbx
	movq	%rdi, %rsi
	leaq	160(%rsp), %rdi
	callq	_RNvNtNtNtCs00000000000_7pkcs1_c5calls7pkcs1_c4oaep11from_c_oaep
	cmpq	$0, 160(%rsp)
	je	.LBB15_9
	leaq	24(%rsp), %rdi
	leaq	160(%rsp), %rsi
	movl	$136, %edx
	callq	memcpy
	cmpq	$0, 40(%rsp)
	je	.LBB15_20
	cmpq	$5, 32(%rsp)
	jne	.LBB15_20
	movq	24(%rsp), %rax
	cmpb	$43, (%rax)
	jne	.LBB15_20
	cmpb	$14, 1(%rax)
	jne	.LBB15_20
	cmpb	$3, 2(%rax)
	jne	.LBB15_20
	cmpb	$2, 3(%rax)
	jne	.LBB15_20
	cmpb	$26, 4(%rax)
	jne	.LBB15_20
	movzbl	56(%rsp), %eax
	xorq	$5, %rax
	orq	48(%rsp), %rax
	sete	%bpl
	jmp	.LBB15_21
.LBB15_20:
	xorl	%ebp, %ebp
.LBB15_21:
	movq	80(%rsp), %rax
	testq	%rax, %rax
	je	.LBB15_36
	cmpq	$9, 72(%rsp)
	jne	.LBB15_36
	movq	64(%rsp), %rcx
	movabsq	$72354425775621674, %rdx
	cmpq	%rdx, (%rcx)
	jne	.LBB15_36
	cmpb	$8, 8(%rcx)
	jne	.LBB15_36
	xorl	%r12d, %r12d
	cmpq	$0, 96(%rsp)
	je	.LBB15_37
	cmpq	$5, 88(%rsp)
	jne	.LBB15_37
	cmpb	$43, (%rax)
	jne	.LBB15_36
	cmpb	$14, 1(%rax)
	jne	.LBB15_36
	cmpb	$3, 2(%rax)
	jne	.LBB15_36
	cmpb	$2, 3(%rax)
	jne	.LBB15_36
	cmpb	$26, 4(%rax)
	jne	.LBB15_36
	movzbl	112(%rsp), %eax
	xorq	$5, %rax
	orq	104(%rsp), %rax
	sete	%r12b
	jmp	.LBB15_37
.LBB15_36:
	xorl	%r12d, %r12d
.LBB15_37:
	cmpq	$0, 136(%rsp)
	je	.LBB15_44
	cmpq	$9, 128(%rsp)
	jne	.LBB15_44
	movq	120(%rsp), %rax
	movabsq	$72354425775621674, %rcx
	cmpq	%rcx, (%rax)
	jne	.LBB15_44
	cmpb	$9, 8(%rax)
	jne	.LBB15_44
	movzbl	152(%rsp), %eax
	xorq	$4, %rax
	orq	144(%rsp), %rax
	sete	%r13b
	movq	$0, (%rsp)
	testb	%bpl, %bpl
	jne	.LBB15_45
.LBB15_53:
	testb	%r12b, %r12b
	je	.LBB15_56
	testb	%r13b, %r13b
	jne	.LBB15_59
	movq	%rsp, %rsi
	leaq	120(%rsp), %rdi
	callq	_RINvNtNtNtCs00000000000_7pkcs1_c6proved12pkcs1_params6fields13prepend_fieldINtNtNtB6_9spki_core20algorithm_identifier21AlgorithmIdentifierOfNtNtB1g_15identifier_view14IdentifierViewNtNtB1g_3any6AnyRefENtNtNtB6_8der_core7counter7CounterEB8_
	jmp	.LBB15_59
.LBB15_44:
	xorl	%r13d, %r13d
	movq	$0, (%rsp)
	testb	%bpl, %bpl
	je	.LBB15_53
.LBB15_45:
	testb	%r12b, %r12b
	je	.LBB15_48
	testb	%r13b, %r13b
	je	.LBB15_51
	movl	$2, %eax
	xorl	%ecx, %ecx
	jmp	.LBB15_64
.LBB15_9:
	movzbl	168(%rsp), %eax
	leal	-17(%rax), %ecx
	movzbl	%cl, %ecx
	leaq	1(%rcx), %rdx
	xorl	%esi, %esi
	cmpb	$3, %cl
	cmovbq	%rdx, %rsi
	leaq	.LJTI15_0(%rip), %rcx
	movslq	(%rcx,%rsi,4), %rdx
	addq	%rcx, %rdx
	notrack	jmpq	*%rdx
.LBB15_10:
	incl	%eax
	jmp	.LBB15_101
.LBB15_56:
	testb	%r13b, %r13b
	jne	.LBB15_58
	movq	%rsp, %rsi
	leaq	120(%rsp), %rdi
	callq	_RINvNtNtNtCs00000000000_7pkcs1_c6proved12pkcs1_params6fields13prepend_fieldINtNtNtB6_9spki_core20algorithm_identifier21AlgorithmIdentifierOfNtNtB1g_15identifier_view14IdentifierViewNtNtB1g_3any6AnyRefENtNtNtB6_8der_core7counter7CounterEB8_
.LBB15_58:
	movq	%rsp, %rsi
	leaq	64(%rsp), %rdi
	callq	_RINvNtNtNtCs00000000000_7pkcs1_c6proved12pkcs1_params6fields13prepend_fieldINtNtNtB6_9spki_core20algorithm_identifier21AlgorithmIdentifierOfNtNtB1g_15identifier_view14IdentifierViewIB1c_B2e_NtNtB1g_3any6AnyRefEENtNtNtB6_8der_core7counter7CounterEB8_
.LBB15_59:
	leaq	160(%rsp), %rdi
	movq	%rsp, %rsi
.LBB15_60:
	callq	_RINvNtNtNtCs00000000000_7pkcs1_c6proved12pkcs1_params6fields13prepend_fieldINtNtNtB6_9spki_core20algorithm_identifier21AlgorithmIdentifierOfNtNtB1g_15identifier_view14IdentifierViewNtNtB1g_3any6AnyRefENtNtNtB6_8der_core7counter7CounterEB8_
	movq	(%rsp), %rcx
	movl	$2, %eax
	cmpq	$128, %rcx
	jb	.LBB15_64
	jmp	.LBB15_61
.LBB15_48:
	testb	%r13b, %r13b
	jne	.LBB15_50
	movq	%rsp, %rsi
	leaq	120(%rsp), %rdi
	callq	_RINvNtNtNtCs00000000000_7pkcs1_c6proved12pkcs1_params6fields13prepend_fieldINtNtNtB6_9spki_core20algorithm_identifier21AlgorithmIdentifierOfNtNtB1g_15identifier_view14IdentifierViewNtNtB1g_3any6AnyRefENtNtNtB6_8der_core7counter7CounterEB8_
.LBB15_50:
	movq	%rsp, %rsi
	leaq	64(%rsp), %rdi
	callq	_RINvNtNtNtCs00000000000_7pkcs1_c6proved12pkcs1_params6fields13prepend_fieldINtNtNtB6_9spki_core20algorithm_identifier21AlgorithmIdentifierOfNtNtB1g_15identifier_view14IdentifierViewIB1c_B2e_NtNtB1g_3any6AnyRefEENtNtNtB6_8der_core7counter7CounterEB8_
	movq	(%rsp), %rcx
	movl	$2, %eax
	cmpq	$128, %rcx
	jb	.LBB15_64
.LBB15_61:
	movl	$3, %eax
	cmpq	$256, %rcx
	jb	.LBB15_64
	movl	$4, %eax
	cmpq	$65536, %rcx
	jb	.LBB15_64
	movl	$5, %eax
	cmpq	$16777215, %rcx
	ja	.LBB15_98
.LBB15_64:
	addq	%rax, %rcx
.LBB15_65:
	movq	%rcx, (%r15)
	movl	$15, %eax
	cmpq	%r14, %rcx
	ja	.LBB15_101
	movq	%rbx, (%rsp)
	movq	%rcx, 8(%rsp)
	movq	%rcx, 16(%rsp)
	testb	%bpl, %bpl
	je	.LBB15_70
	testb	%r12b, %r12b
	je	.LBB15_73
	movq	%rcx, %rax
	testb	%r13b, %r13b
	jne	.LBB15_82
	movq	%rsp, %rdx
	movl	$2, %edi
	leaq	120(%rsp), %rsi
	jmp	.LBB15_80
.LBB15_70:
	testb	%r12b, %r12b
	je	.LBB15_76
	testb	%r13b, %r13b
	jne	.LBB15_79
	movq	%rsp, %rdx
	movl	$2, %edi
	leaq	120(%rsp), %rsi
	callq	_RINvNtNtNtCs00000000000_7pkcs1_c6proved12pkcs1_params6fields13prepend_fieldINtNtNtB6_9spki_core20algorithm_identifier21AlgorithmIdentifierOfNtNtB1g_15identifier_view14IdentifierViewNtNtB1g_3any6AnyRefENtNtNtB6_8der_core11back_writer10BackWriterEB8_
	jmp	.LBB15_79
.LBB15_14:
	movl	$19, %eax
	jmp	.LBB15_101
.LBB15_15:
	movl	$20, %eax
	jmp	.LBB15_101
.LBB15_16:
	movl	$18, %eax
	jmp	.LBB15_101
.LBB15_51:
	movq	%rsp, %rsi
	leaq	120(%rsp), %rdi
	jmp	.LBB15_60
.LBB15_73:
	testb	%r13b, %r13b
	jne	.LBB15_75
	movq	%rsp, %rdx
	movl	$2, %edi
	leaq	120(%rsp), %rsi
	callq	_RINvNtNtNtCs00000000000_7pkcs1_c6proved12pkcs1_params6fields13prepend_fieldINtNtNtB6_9spki_core20algorithm_identifier21AlgorithmIdentifierOfNtNtB1g_15identifier_view14IdentifierViewNtNtB1g_3any6AnyRefENtNtNtB6_8der_core11back_writer10BackWriterEB8_
.LBB15_75:
	movq	%rsp, %rsi
	leaq	64(%rsp), %rdi
	callq	_RINvNtNtNtCs00000000000_7pkcs1_c6proved12pkcs1_params6fields13prepend_fieldINtNtNtB6_9spki_core20algorithm_identifier21AlgorithmIdentifierOfNtNtB1g_15identifier_view14IdentifierViewIB1c_B2e_NtNtB1g_3any6AnyRefEENtNtNtB6_8der_core11back_writer10BackWriterEB8_
	jmp	.LBB15_81
.LBB15_76:
	testb	%r13b, %r13b
	jne	.LBB15_78
	movq	%rsp, %rdx
	movl	$2, %edi
	leaq	120(%rsp), %rsi
	callq	_RINvNtNtNtCs00000000000_7pkcs1_c6proved12pkcs1_params6fields13prepend_fieldINtNtNtB6_9spki_core20algorithm_identifier21AlgorithmIdentifierOfNtNtB1g_15identifier_view14IdentifierViewNtNtB1g_3any6AnyRefENtNtNtB6_8der_core11back_writer10BackWriterEB8_
.LBB15_78:
	movq	%rsp, %rsi
	leaq	64(%rsp), %rdi
	callq	_RINvNtNtNtCs00000000000_7pkcs1_c6proved12pkcs1_params6fields13prepend_fieldINtNtNtB6_9spki_core20algorithm_identifier21AlgorithmIdentifierOfNtNtB1g_15identifier_view14IdentifierViewIB1c_B2e_NtNtB1g_3any6AnyRefEENtNtNtB6_8der_core11back_writer10BackWriterEB8_
.LBB15_79:
	leaq	160(%rsp), %rsi
	movq	%rsp, %rdx
	xorl	%edi, %edi
.LBB15_80:
	callq	_RINvNtNtNtCs00000000000_7pkcs1_c6proved12pkcs1_params6fields13prepend_fieldINtNtNtB6_9spki_core20algorithm_identifier21AlgorithmIdentifierOfNtNtB1g_15identifier_view14IdentifierViewNtNtB1g_3any6AnyRefENtNtNtB6_8der_core11back_writer10BackWriterEB8_
.LBB15_81:
	movq	8(%rsp), %rcx
	movq	16(%rsp), %rax
.LBB15_82:
	movq	%rcx, %rdx
	subq	%rax, %rdx
	cmpl	$128, %edx
	jae	.LBB15_86
	cmpq	$2, %rax
	jb	.LBB15_100
	cmpq	%rax, %rcx
	jb	.LBB15_109
	movq	(%rsp), %rcx
	shll	$8, %edx
	orl	$48, %edx
	movw	%dx, -2(%rcx,%rax)
	jmp	.LBB15_100
.LBB15_86:
	cmpl	$256, %edx
	jae	.LBB15_90
	cmpq	$3, %rax
	jb	.LBB15_100
	cmpq	%rax, %rcx
	jb	.LBB15_109
	movq	(%rsp), %rcx
	movw	$-32464, -3(%rcx,%rax)
	movb	%dl, -1(%rcx,%rax)
	jmp	.LBB15_100
.LBB15_90:
	cmpl	$65536, %edx
	jae	.LBB15_94
	cmpq	$4, %rax
	jb	.LBB15_100
	cmpq	%rax, %rcx
	jb	.LBB15_109
	movq	(%rsp), %rcx
	orl	$813826048, %edx
	bswapl	%edx
	movl	%edx, -4(%rcx,%rax)
	jmp	.LBB15_100
.LBB15_94:
	cmpl	$16777216, %edx
	jae	.LBB15_99
	cmpq	$5, %rax
	jb	.LBB15_100
	cmpq	%rax, %rcx
	jb	.LBB15_109
	movl	%edx, %ecx
	shrl	$16, %ecx
	movl	%edx, %esi
	shrl	$8, %esi
	movq	(%rsp), %rdi
	movw	$-31952, -5(%rdi,%rax)
	movb	%cl, -3(%rdi,%rax)
	movb	%sil, -2(%rdi,%rax)
	movb	%dl, -1(%rdi,%rax)
	jmp	.LBB15_100
.LBB15_98:
	addq	$6, %rcx
	movq	$-1, %rax
	cmovbq	%rax, %rcx
	movq	%rcx, %rax
	shrq	$32, %rax
	movl	$8, %eax
	je	.LBB15_65
	jmp	.LBB15_101
.LBB15_99:
	cmpq	$6, %rax
	jb	.LBB15_100
	cmpq	%rax, %rcx
	jb	.LBB15_109
	movl	%edx, %ecx
	shrl	$24, %ecx
	movl	%edx, %esi
	shrl	$16, %esi
	movl	%edx, %edi
	shrl	$8, %edi
	movq	(%rsp), %r8
	movw	$-31696, -6(%r8,%rax)
	movb	%cl, -4(%r8,%rax)
	movb	%sil, -3(%r8,%rax)
	movb	%dil, -2(%r8,%rax)
	movb	%dl, -1(%r8,%rax)
.LBB15_100:
	xorl	%eax, %eax
.LBB15_101:
	addq	$296, %rsp
	.cfi_def_cfa_offset 56
	popq	%rbx
	.cfi_def_cfa_offset 48
	popq	%r12
	.cfi_def_cfa_offset 40
	popq	%r13
	.cfi_def_cfa_offset 32
	popq	%r14
	.cfi_def_cfa_offset 24
	popq	%r15
	.cfi_def_cfa_offset 16
	popq	%rbp
	.cfi_def_cfa_offset 8
	retq
.LBB15_109:
	.cfi_def_cfa_offset 352
	ud2
.Lfunc_end15:
	.size	pkcs1_c_oaep_params_encode, .Lfunc_end15-pkcs1_c_oaep_params_encode
	.cfi_endproc
	.section	.rodata.pkcs1_c_oaep_params_encode,"a",@progbits
	.p2align	2, 0x0
.LJTI15_0:
	.long	.LBB15_10-.LJTI15_0
	.long	.LBB15_16-.LJTI15_0
	.long	.LBB15_14-.LJTI15_0
	.long	.LBB15_15-.LJTI15_0

	.section	.text.pkcs1_c_oaep_label,"ax",@progbits
	.globl	pkcs1_c_oaep_label
	.p2align	4, 0x90
	.type	pkcs1_c_oaep_label,@function
pkcs1_c_oaep_label:
	.cfi_startproc
	endbr64
	xorl	%eax, %eax
	cmpb	$1, 16(%rdi)
	jne	.LBB16_4
	cmpb	$4, 17(%rdi)
	jne	.LBB16_4
	cmpq	$9, 8(%rdi)
	jne	.LBB16_3
	movq	(%rdi), %rax
	movabsq	$72354425775621674, %rcx
	cmpq	%rcx, (%rax)
	jne	.LBB16_3
	cmpb	$9, 8(%rax)
	jne	.LBB16_3
	movups	24(%rdi), %xmm0
	movups	%xmm0, (%rsi)
	movb	$1, %al
	retq
.LBB16_3:
	xorl	%eax, %eax
.LBB16_4:
	retq
.Lfunc_end16:
	.size	pkcs1_c_oaep_label, .Lfunc_end16-pkcs1_c_oaep_label
	.cfi_endproc

	.section	.rodata.cst16,"aM",@progbits,16
	.p2align	4, 0x0
.LCPI17_0:
	.zero	16,128
.LCPI17_1:
	.byte	128
	.byte	128
	.byte	128
	.byte	128
	.byte	128
	.byte	128
	.byte	128
	.byte	128
	.zero	1
	.zero	1
	.zero	1
	.zero	1
	.zero	1
	.zero	1
	.zero	1
	.zero	1
	.section	.text.pkcs1_c_oaep_algorithm_decode,"ax",@progbits
	.globl	pkcs1_c_oaep_algorithm_decode
	.p2align	4, 0x90
	.type	pkcs1_c_oaep_algorithm_decode,@function
pkcs1_c_oaep_algorithm_decode:
	.cfi_startproc
	endbr64
	pushq	%rbp
	.cfi_def_cfa_offset 16
	pushq	%r15
	.cfi_def_cfa_offset 24
	pushq	%r14
	.cfi_def_cfa_offset 32
	pushq	%r13
	.cfi_def_cfa_offset 40
	pushq	%r12
	.cfi_def_cfa_offset 48
	pushq	%rbx
	.cfi_def_cfa_offset 56
	subq	$216, %rsp
	.cfi_def_cfa_offset 272
	.cfi_offset %rbx, -56
	.cfi_offset %r12, -48
	.cfi_offset %r13, -40
	.cfi_offset %r14, -32
	.cfi_offset %r15, -24
	.cfi_offset %rbp, -16
	movq	%rsi, %rcx
	movq	%rsi, %rax
	shrq	$32, %rax
	movl	$8, %eax
	jne	.LBB17_104
	movq	%rdi, %rsi
	cmpq	$2, %rcx
	jb	.LBB17_15
	cmpb	$48, (%rsi)
	jne	.LBB17_15
	leaq	2(%rsi), %r8
	leaq	-2(%rcx), %r14
	movsbq	1(%rsi), %rax
	testq	%rax, %rax
	js	.LBB17_4
	subq	%rax, %r14
	jb	.LBB17_15
	cmpq	$2, %rax
	jb	.LBB17_38
.LBB17_18:
	cmpb	$6, (%r8)
	jne	.LBB17_38
	leaq	2(%r8), %r15
	leaq	-2(%rax), %r9
	movsbq	1(%r8), %rbx
	testq	%rbx, %rbx
	js	.LBB17_20
	subq	%rbx, %r9
	jb	.LBB17_38
	leaq	(%r15,%rbx), %rsi
	leaq	-1(%rbx), %rdi
	movl	$6, %eax
	cmpq	$38, %rdi
	jbe	.LBB17_29
	jmp	.LBB17_104
.LBB17_4:
	cmpb	$-126, %al
	jne	.LBB17_9
	cmpq	$1, %r14
	jbe	.LBB17_15
	movzbl	2(%rsi), %edi
	testq	%rdi, %rdi
	je	.LBB17_15
	leaq	-4(%rcx), %r14
	shll	$8, %edi
	movzbl	3(%rsi), %eax
	orq	%rdi, %rax
	subq	%rax, %r14
	jb	.LBB17_15
	addq	$4, %rsi
	movq	%rsi, %r8
	jmp	.LBB17_18
.LBB17_20:
	cmpb	$-126, %bl
	jne	.LBB17_36
	cmpq	$1, %r9
	jbe	.LBB17_38
	movzbl	2(%r8), %ecx
	testq	%rcx, %rcx
	je	.LBB17_38
	leaq	-4(%rax), %r9
	shll	$8, %ecx
	movzbl	3(%r8), %ebx
	orq	%rcx, %rbx
	subq	%rbx, %r9
	jb	.LBB17_38
	addq	$4, %r8
	jmp	.LBB17_25
.LBB17_9:
	testq	%r14, %r14
	je	.LBB17_15
	cmpb	$-127, %al
	jne	.LBB17_15
	movzbl	(%r8), %eax
	testb	%al, %al
	jns	.LBB17_15
	leaq	-3(%rcx), %r14
	subq	%rax, %r14
	jb	.LBB17_15
	addq	$3, %rsi
	movq	%rsi, %r8
	jmp	.LBB17_18
.LBB17_15:
	movq	%rdx, %rbx
	leaq	72(%rsp), %rdi
	movq	%rcx, %rdx
	movl	$48, %ecx
	callq	_RNvNtNtNtCs00000000000_7pkcs1_c6proved8der_core5split14split_unlikely
	movq	72(%rsp), %r8
	testq	%r8, %r8
	je	.LBB17_107
	movq	80(%rsp), %rax
	movq	96(%rsp), %r14
	movq	%rbx, %rdx
	cmpq	$2, %rax
	jae	.LBB17_18
	jmp	.LBB17_38
.LBB17_36:
	testq	%r9, %r9
	je	.LBB17_37
	cmpb	$-127, %bl
	jne	.LBB17_38
	movzbl	(%r15), %ebx
	testb	%bl, %bl
	jns	.LBB17_38
	leaq	-3(%rax), %r9
	subq	%rbx, %r9
	jb	.LBB17_38
	addq	$3, %r8
.LBB17_25:
	leaq	(%r8,%rbx), %rsi
	movq	%r8, %r15
	leaq	-1(%rbx), %rdi
	movl	$6, %eax
	cmpq	$38, %rdi
	jbe	.LBB17_29
	jmp	.LBB17_104
.LBB17_107:
	movzbl	80(%rsp), %edx
	leal	-17(%rdx), %eax
	movzbl	%al, %eax
	leaq	1(%rax), %rcx
	xorl	%esi, %esi
	cmpb	$3, %al
	cmovbq	%rcx, %rsi
	movl	$18, %eax
	leaq	.LJTI17_0(%rip), %rcx
	movslq	(%rcx,%rsi,4), %rsi
	addq	%rcx, %rsi
	notrack	jmpq	*%rsi
.LBB17_37:
	movl	$2, %eax
.LBB17_38:
	movq	%rdx, %r12
	leaq	72(%rsp), %rdi
	movq	%r8, %rsi
	movq	%rax, %rdx
	movl	$6, %ecx
	callq	_RNvNtNtNtCs00000000000_7pkcs1_c6proved8der_core5split14split_unlikely
	movq	72(%rsp), %r15
	testq	%r15, %r15
	je	.LBB17_60
	movq	80(%rsp), %rbx
	movq	88(%rsp), %rsi
	movq	96(%rsp), %r9
	movq	%r12, %rdx
	leaq	-1(%rbx), %rdi
	movl	$6, %eax
	cmpq	$38, %rdi
	ja	.LBB17_104
.LBB17_29:
	movzbl	(%r15,%rdi), %ecx
	testb	%cl, %cl
	js	.LBB17_45
	movdqa	.LCPI17_1(%rip), %xmm0
	movdqa	.LCPI17_0(%rip), %xmm1
	xorl	%r8d, %r8d
	movq	%r15, %r10
	jmp	.LBB17_31
	.p2align	4, 0x90
.LBB17_35:
	movl	$1, %r11d
	movq	$-1, %r12
.LBB17_59:
	addq	%r12, %rdi
	addq	%r11, %r10
.LBB17_31:
	cmpq	$7, %rdi
	jbe	.LBB17_32
	movq	(%r10), %xmm2
	pcmpeqb	%xmm0, %xmm2
	pmovmskb	%xmm2, %r11d
	testb	%r11b, %r11b
	jne	.LBB17_44
	movl	$8, %r11d
	movq	$-8, %r12
	jmp	.LBB17_59
	.p2align	4, 0x90
.LBB17_32:
	cmpq	$3, %rdi
	jbe	.LBB17_33
	movd	(%r10), %xmm2
	punpcklbw	%xmm2, %xmm2
	punpcklwd	%xmm2, %xmm2
	pcmpeqb	%xmm1, %xmm2
	movmskps	%xmm2, %r11d
	testl	%r11d, %r11d
	jne	.LBB17_44
	movl	$4, %r11d
	movq	$-4, %r12
	jmp	.LBB17_59
	.p2align	4, 0x90
.LBB17_33:
	testq	%rdi, %rdi
	je	.LBB17_53
	cmpb	(%r10), %r8b
	jno	.LBB17_35
.LBB17_44:
	testq	%rbx, %rbx
	je	.LBB17_53
.LBB17_45:
	xorl	%edi, %edi
	cmpb	(%r15), %dil
	jo	.LBB17_104
	cmpq	$1, %rbx
	jne	.LBB17_47
.LBB17_52:
	testb	%cl, %cl
	js	.LBB17_104
.LBB17_53:
	testq	%r9, %r9
	je	.LBB17_54
	movzbl	(%rsi), %ebp
	movl	%ebp, %eax
	notb	%al
	testb	$31, %al
	sete	%al
	testb	$-33, %bpl
	sete	%cl
	orb	%al, %cl
	movl	$12, %eax
	jne	.LBB17_104
	cmpq	$1, %r9
	je	.LBB17_75
	leaq	2(%rsi), %r8
	leaq	-2(%r9), %rcx
	movsbq	1(%rsi), %rdi
	testq	%rdi, %rdi
	js	.LBB17_64
	subq	%rdi, %rcx
	jae	.LBB17_77
	jmp	.LBB17_75
.LBB17_54:
	xorl	%r8d, %r8d
	xorl	%edi, %edi
	xorl	%ecx, %ecx
	xorl	%esi, %esi
	movl	$13, %eax
	testq	%r14, %r14
	jne	.LBB17_104
	jmp	.LBB17_80
.LBB17_47:
	leaq	-1(%rbx), %r8
	xorl	%r10d, %r10d
	xorl	%edi, %edi
	jmp	.LBB17_48
	.p2align	4, 0x90
.LBB17_51:
	incq	%rdi
	cmpq	%rdi, %r8
	je	.LBB17_52
.LBB17_48:
	cmpb	1(%r15,%rdi), %r10b
	jno	.LBB17_51
	cmpq	%rbx, %rdi
	jae	.LBB17_105
	cmpb	$0, (%r15,%rdi)
	js	.LBB17_51
	jmp	.LBB17_104
.LBB17_60:
	movzbl	80(%rsp), %edx
	leal	-17(%rdx), %eax
	movzbl	%al, %eax
	leaq	1(%rax), %rcx
	xorl	%esi, %esi
	cmpb	$3, %al
	cmovbq	%rcx, %rsi
	movl	$18, %eax
	leaq	.LJTI17_0(%rip), %rcx
	movslq	(%rcx,%rsi,4), %rsi
	addq	%rcx, %rsi
	notrack	jmpq	*%rsi
.LBB17_103:
	movzbl	%dl, %eax
	incl	%eax
	jmp	.LBB17_104
.LBB17_64:
	cmpb	$-126, %dil
	jne	.LBB17_69
	cmpq	$1, %rcx
	jbe	.LBB17_75
	movzbl	2(%rsi), %eax
	testq	%rax, %rax
	je	.LBB17_75
	leaq	-4(%r9), %rcx
	shll	$8, %eax
	movzbl	3(%rsi), %edi
	orq	%rax, %rdi
	subq	%rdi, %rcx
	jb	.LBB17_75
	addq	$4, %rsi
	movq	%rsi, %r8
	jmp	.LBB17_77
.LBB17_69:
	testq	%rcx, %rcx
	je	.LBB17_75
	cmpb	$-127, %dil
	jne	.LBB17_75
	movzbl	(%r8), %edi
	testb	%dil, %dil
	jns	.LBB17_75
	leaq	-3(%r9), %rcx
	subq	%rdi, %rcx
	jb	.LBB17_75
	addq	$3, %rsi
	movq	%rsi, %r8
	jmp	.LBB17_77
.LBB17_75:
	movq	%rdx, %r12
	movzbl	%bpl, %ecx
	leaq	72(%rsp), %rdi
	movq	%r9, %rdx
	callq	_RNvNtNtNtCs00000000000_7pkcs1_c6proved8der_core5split14split_unlikely
	movq	72(%rsp), %r8
	testq	%r8, %r8
	je	.LBB17_106
	movq	80(%rsp), %rdi
	movq	96(%rsp), %rcx
	movq	%r12, %rdx
.LBB17_77:
	movl	$13, %eax
	testq	%rcx, %rcx
	jne	.LBB17_104
	movq	%rdi, %rsi
	andq	$-16777216, %rsi
	movl	%edi, %ecx
	andl	$16776960, %ecx
	movl	$13, %eax
	testq	%r14, %r14
	jne	.LBB17_104
.LBB17_80:
	movl	$7, %eax
	cmpq	$9, %rbx
	jne	.LBB17_104
	movabsq	$72354425775621674, %r9
	xorq	(%r15), %r9
	movzbl	8(%r15), %r10d
	xorq	$7, %r10
	orq	%r9, %r10
	jne	.LBB17_104
	testq	%r8, %r8
	je	.LBB17_83
	movl	$11, %eax
	cmpb	$48, %bpl
	jne	.LBB17_104
	movq	%rdx, %r14
	movzbl	%dil, %eax
	orq	%rsi, %rcx
	orq	%rax, %rcx
	leaq	72(%rsp), %rdi
	movq	%r8, %rsi
	movq	%rcx, %rdx
	callq	_RNvNtNtNtCs00000000000_7pkcs1_c6proved12pkcs1_params6noting9note_oaep
	cmpb	$2, 208(%rsp)
	jne	.LBB17_87
	movzbl	72(%rsp), %edx
	leal	-17(%rdx), %eax
	movzbl	%al, %eax
	leaq	1(%rax), %rcx
	xorl	%esi, %esi
	cmpb	$3, %al
	cmovbq	%rcx, %rsi
	movl	$18, %eax
	leaq	.LJTI17_0(%rip), %rcx
	movslq	(%rcx,%rsi,4), %rsi
	addq	%rcx, %rsi
	notrack	jmpq	*%rsi
.LBB17_106:
	movzbl	80(%rsp), %edx
	leal	-17(%rdx), %eax
	movzbl	%al, %eax
	leaq	1(%rax), %rcx
	xorl	%esi, %esi
	cmpb	$3, %al
	cmovbq	%rcx, %rsi
	movl	$18, %eax
	leaq	.LJTI17_0(%rip), %rcx
	movslq	(%rcx,%rsi,4), %rsi
	addq	%rcx, %rsi
	notrack	jmpq	*%rsi
.LBB17_101:
	movl	$19, %eax
	jmp	.LBB17_104
.LBB17_83:
	movl	$10, %eax
	jmp	.LBB17_104
.LBB17_87:
	movzbl	80(%rsp), %edx
	movq	72(%rsp), %rcx
	testq	%rcx, %rcx
	je	.LBB17_100
	movzbl	%dl, %r10d
	movzwl	81(%rsp), %edx
	movl	83(%rsp), %esi
	movzbl	87(%rsp), %eax
	shlq	$32, %rax
	orq	%rsi, %rax
	movq	88(%rsp), %rdi
	movq	128(%rsp), %r8
	shll	$8, %edx
	leaq	_RNvNtCs00000000000_7pkcs1_c10rattle_std8AN_OCTET(%rip), %rsi
	testq	%rdi, %rdi
	je	.LBB17_89
	movq	%rdi, 64(%rsp)
	movq	96(%rsp), %rdi
	movq	%rdi, 56(%rsp)
	movq	104(%rsp), %rdi
	movq	%rdi, 48(%rsp)
	movb	$1, %dil
	movq	%rdi, 40(%rsp)
	jmp	.LBB17_91
.LBB17_100:
	leal	-17(%rdx), %eax
	movzbl	%al, %eax
	leaq	1(%rax), %rcx
	xorl	%esi, %esi
	cmpb	$3, %al
	cmovbq	%rcx, %rsi
	movl	$18, %eax
	leaq	.LJTI17_0(%rip), %rcx
	movslq	(%rcx,%rsi,4), %rsi
	addq	%rcx, %rsi
	notrack	jmpq	*%rsi
.LBB17_102:
	movl	$20, %eax
.LBB17_104:
	addq	$216, %rsp
	.cfi_def_cfa_offset 56
	popq	%rbx
	.cfi_def_cfa_offset 48
	popq	%r12
	.cfi_def_cfa_offset 40
	popq	%r13
	.cfi_def_cfa_offset 32
	popq	%r14
	.cfi_def_cfa_offset 24
	popq	%r15
	.cfi_def_cfa_offset 16
	popq	%rbp
	.cfi_def_cfa_offset 8
	retq
.LBB17_89:
	.cfi_def_cfa_offset 272
	movq	$0, 56(%rsp)
	movq	%rsi, 64(%rsp)
	movq	$0, 48(%rsp)
	movq	$0, 40(%rsp)
.LBB17_91:
	movq	%r14, %r9
	orq	%r10, %rdx
	shlq	$24, %rax
	movq	184(%rsp), %rbp
	testq	%r8, %r8
	je	.LBB17_92
	movq	136(%rsp), %rdi
	movq	%rdi, 32(%rsp)
	movq	144(%rsp), %r12
	testq	%r12, %r12
	je	.LBB17_94
	movq	152(%rsp), %rdi
	movq	%rdi, 24(%rsp)
	movq	160(%rsp), %rdi
	movq	%rdi, 16(%rsp)
	movb	$1, %dil
	movq	%rdi, 8(%rsp)
	movb	$1, %dil
	movq	%rdi, (%rsp)
	jmp	.LBB17_95
.LBB17_92:
	movq	$0, 24(%rsp)
	movq	%rsi, %r12
	movq	$0, 16(%rsp)
	movq	$0, 8(%rsp)
	movq	$0, 32(%rsp)
	movq	%rsi, %r8
	movq	$0, (%rsp)
	jmp	.LBB17_95
.LBB17_94:
	movb	$1, %dil
	movq	%rdi, (%rsp)
	movq	$0, 24(%rsp)
	movq	%rsi, %r12
	movq	$0, 16(%rsp)
	movq	$0, 8(%rsp)
.LBB17_95:
	movq	112(%rsp), %r13
	movq	120(%rsp), %r10
	movq	168(%rsp), %rbx
	movq	176(%rsp), %r14
	orq	%rax, %rdx
	xorl	%eax, %eax
	testq	%rbp, %rbp
	je	.LBB17_96
	movq	192(%rsp), %r15
	movq	200(%rsp), %r11
	movb	$1, %dil
	movq	%rbp, %rsi
	jmp	.LBB17_99
.LBB17_96:
	xorl	%r15d, %r15d
	xorl	%r11d, %r11d
	xorl	%edi, %edi
.LBB17_99:
	movq	%rcx, (%r9)
	movq	%rdx, 8(%r9)
	movq	40(%rsp), %rcx
	movb	%cl, 16(%r9)
	movq	48(%rsp), %rcx
	movb	%cl, 17(%r9)
	movq	64(%rsp), %rcx
	movq	%rcx, 24(%r9)
	movq	56(%rsp), %rcx
	movq	%rcx, 32(%r9)
	movq	%r13, 40(%r9)
	movq	%r10, 48(%r9)
	movq	(%rsp), %rcx
	movb	%cl, 56(%r9)
	movq	%r8, 64(%r9)
	movq	32(%rsp), %rcx
	movq	%rcx, 72(%r9)
	movq	8(%rsp), %rcx
	movb	%cl, 80(%r9)
	movq	16(%rsp), %rcx
	movb	%cl, 81(%r9)
	movq	%r12, 88(%r9)
	movq	24(%rsp), %rcx
	movq	%rcx, 96(%r9)
	movq	%rbx, 104(%r9)
	movq	%r14, 112(%r9)
	movb	%dil, 120(%r9)
	movb	%r11b, 121(%r9)
	movq	%rsi, 128(%r9)
	movq	%r15, 136(%r9)
	jmp	.LBB17_104
.LBB17_105:
	movq	%rbx, %rsi
	ud2
.Lfunc_end17:
	.size	pkcs1_c_oaep_algorithm_decode, .Lfunc_end17-pkcs1_c_oaep_algorithm_decode
	.cfi_endproc
	.section	.rodata.pkcs1_c_oaep_algorithm_decode,"a",@progbits
	.p2align	2, 0x0
.LJTI17_0:
	.long	.LBB17_103-.LJTI17_0
	.long	.LBB17_104-.LJTI17_0
	.long	.LBB17_101-.LJTI17_0
	.long	.LBB17_102-.LJTI17_0

	.section	.rodata.cst16,"aM",@progbits,16
	.p2align	4, 0x0
.LCPI18_0:
	.zero	16,128
.LCPI18_1:
	.byte	128
	.byte	128
	.byte	128
	.byte	128
	.byte	128
	.byte	128
	.byte	128
	.byte	128
	.zero	1
	.zero	1
	.zero	1
	.zero	1
	.zero	1
	.zero	1
	.zero	1
	.zero	1
	.section	.text.pkcs1_c_oaep_algorithm_decode_strict,"ax",@progbits
	.globl	pkcs1_c_oaep_algorithm_decode_strict
	.p2align	4, 0x90
	.type	pkcs1_c_oaep_algorithm_decode_strict,@function
pkcs1_c_oaep_algorithm_decode_strict:
	.cfi_startproc
	endbr64
	pushq	%rbp
	.cfi_def_cfa_offset 16
	pushq	%r15
	.cfi_def_cfa_offset 24
	pushq	%r14
	.cfi_def_cfa_offset 32
	pushq	%r13
	.cfi_def_cfa_offset 40
	pushq	%r12
	.cfi_def_cfa_offset 48
	pushq	%rbx
	.cfi_def_cfa_offset 56
	subq	$216, %rsp
	.cfi_def_cfa_offset 272
	.cfi_offset %rbx, -56
	.cfi_offset %r12, -48
	.cfi_offset %r13, -40
	.cfi_offset %r14, -32
	.cfi_offset %r15, -24
	.cfi_offset %rbp, -16
	movq	%rsi, %rcx
	movq	%rsi, %rax
	shrq	$32, %rax
	movl	$8, %eax
	jne	.LBB18_105
	movq	%rdi, %rsi
	cmpq	$2, %rcx
	jb	.LBB18_15
	cmpb	$48, (%rsi)
	jne	.LBB18_15
	leaq	2(%rsi), %r8
	leaq	-2(%rcx), %r14
	movsbq	1(%rsi), %rax
	testq	%rax, %rax
	js	.LBB18_4
	subq	%rax, %r14
	jb	.LBB18_15
	cmpq	$2, %rax
	jb	.LBB18_38
.LBB18_18:
	cmpb	$6, (%r8)
	jne	.LBB18_38
	leaq	2(%r8), %r15
	leaq	-2(%rax), %r9
	movsbq	1(%r8), %rbx
	testq	%rbx, %rbx
	js	.LBB18_20
	subq	%rbx, %r9
	jb	.LBB18_38
	leaq	(%r15,%rbx), %rsi
	leaq	-1(%rbx), %rdi
	movl	$6, %eax
	cmpq	$38, %rdi
	jbe	.LBB18_29
	jmp	.LBB18_105
.LBB18_4:
	cmpb	$-126, %al
	jne	.LBB18_9
	cmpq	$1, %r14
	jbe	.LBB18_15
	movzbl	2(%rsi), %edi
	testq	%rdi, %rdi
	je	.LBB18_15
	leaq	-4(%rcx), %r14
	shll	$8, %edi
	movzbl	3(%rsi), %eax
	orq	%rdi, %rax
	subq	%rax, %r14
	jb	.LBB18_15
	addq	$4, %rsi
	movq	%rsi, %r8
	jmp	.LBB18_18
.LBB18_20:
	cmpb	$-126, %bl
	jne	.LBB18_36
	cmpq	$1, %r9
	jbe	.LBB18_38
	movzbl	2(%r8), %ecx
	testq	%rcx, %rcx
	je	.LBB18_38
	leaq	-4(%rax), %r9
	shll	$8, %ecx
	movzbl	3(%r8), %ebx
	orq	%rcx, %rbx
	subq	%rbx, %r9
	jb	.LBB18_38
	addq	$4, %r8
	jmp	.LBB18_25
.LBB18_9:
	testq	%r14, %r14
	je	.LBB18_15
	cmpb	$-127, %al
	jne	.LBB18_15
	movzbl	(%r8), %eax
	testb	%al, %al
	jns	.LBB18_15
	leaq	-3(%rcx), %r14
	subq	%rax, %r14
	jb	.LBB18_15
	addq	$3, %rsi
	movq	%rsi, %r8
	jmp	.LBB18_18
.LBB18_15:
	movq	%rdx, %rbx
	leaq	64(%rsp), %rdi
	movq	%rcx, %rdx
	movl	$48, %ecx
	callq	_RNvNtNtNtCs00000000000_7pkcs1_c6proved8der_core5split14split_unlikely
	movq	64(%rsp), %r8
	testq	%r8, %r8
	je	.LBB18_108
	movq	72(%rsp), %rax
	movq	88(%rsp), %r14
	movq	%rbx, %rdx
	cmpq	$2, %rax
	jae	.LBB18_18
	jmp	.LBB18_38
.LBB18_36:
	testq	%r9, %r9
	je	.LBB18_37
	cmpb	$-127, %bl
	jne	.LBB18_38
	movzbl	(%r15), %ebx
	testb	%bl, %bl
	jns	.LBB18_38
	leaq	-3(%rax), %r9
	subq	%rbx, %r9
	jb	.LBB18_38
	addq	$3, %r8
.LBB18_25:
	leaq	(%r8,%rbx), %rsi
	movq	%r8, %r15
	leaq	-1(%rbx), %rdi
	movl	$6, %eax
	cmpq	$38, %rdi
	jbe	.LBB18_29
	jmp	.LBB18_105
.LBB18_108:
	movzbl	72(%rsp), %esi
	leal	-17(%rsi), %eax
	movzbl	%al, %eax
	leaq	1(%rax), %rcx
	xorl	%edx, %edx
	cmpb	$3, %al
	cmovbq	%rcx, %rdx
	movl	$18, %eax
	leaq	.LJTI18_0(%rip), %rcx
	movslq	(%rcx,%rdx,4), %rdx
	addq	%rcx, %rdx
	notrack	jmpq	*%rdx
.LBB18_37:
	movl	$2, %eax
.LBB18_38:
	movq	%rdx, %r12
	leaq	64(%rsp), %rdi
	movq	%r8, %rsi
	movq	%rax, %rdx
	movl	$6, %ecx
	callq	_RNvNtNtNtCs00000000000_7pkcs1_c6proved8der_core5split14split_unlikely
	movq	64(%rsp), %r15
	testq	%r15, %r15
	je	.LBB18_60
	movq	72(%rsp), %rbx
	movq	80(%rsp), %rsi
	movq	88(%rsp), %r9
	movq	%r12, %rdx
	leaq	-1(%rbx), %rdi
	movl	$6, %eax
	cmpq	$38, %rdi
	ja	.LBB18_105
.LBB18_29:
	movzbl	(%r15,%rdi), %ecx
	testb	%cl, %cl
	js	.LBB18_45
	movdqa	.LCPI18_1(%rip), %xmm0
	movdqa	.LCPI18_0(%rip), %xmm1
	xorl	%r8d, %r8d
	movq	%r15, %r10
	jmp	.LBB18_31
	.p2align	4, 0x90
.LBB18_35:
	movl	$1, %r11d
	movq	$-1, %r12
.LBB18_59:
	addq	%r12, %rdi
	addq	%r11, %r10
.LBB18_31:
	cmpq	$7, %rdi
	jbe	.LBB18_32
	movq	(%r10), %xmm2
	pcmpeqb	%xmm0, %xmm2
	pmovmskb	%xmm2, %r11d
	testb	%r11b, %r11b
	jne	.LBB18_44
	movl	$8, %r11d
	movq	$-8, %r12
	jmp	.LBB18_59
	.p2align	4, 0x90
.LBB18_32:
	cmpq	$3, %rdi
	jbe	.LBB18_33
	movd	(%r10), %xmm2
	punpcklbw	%xmm2, %xmm2
	punpcklwd	%xmm2, %xmm2
	pcmpeqb	%xmm1, %xmm2
	movmskps	%xmm2, %r11d
	testl	%r11d, %r11d
	jne	.LBB18_44
	movl	$4, %r11d
	movq	$-4, %r12
	jmp	.LBB18_59
	.p2align	4, 0x90
.LBB18_33:
	testq	%rdi, %rdi
	je	.LBB18_53
	cmpb	(%r10), %r8b
	jno	.LBB18_35
.LBB18_44:
	testq	%rbx, %rbx
	je	.LBB18_53
.LBB18_45:
	xorl	%edi, %edi
	cmpb	(%r15), %dil
	jo	.LBB18_105
	cmpq	$1, %rbx
	jne	.LBB18_47
.LBB18_52:
	testb	%cl, %cl
	js	.LBB18_105
.LBB18_53:
	testq	%r9, %r9
	je	.LBB18_54
	movzbl	(%rsi), %ebp
	movl	%ebp, %eax
	notb	%al
	testb	$31, %al
	sete	%al
	testb	$-33, %bpl
	sete	%cl
	orb	%al, %cl
	movl	$12, %eax
	jne	.LBB18_105
	cmpq	$1, %r9
	je	.LBB18_75
	leaq	2(%rsi), %r8
	leaq	-2(%r9), %rcx
	movsbq	1(%rsi), %rdi
	testq	%rdi, %rdi
	js	.LBB18_64
	subq	%rdi, %rcx
	jae	.LBB18_77
	jmp	.LBB18_75
.LBB18_54:
	xorl	%r8d, %r8d
	xorl	%edi, %edi
	xorl	%ecx, %ecx
	xorl	%esi, %esi
	movl	$13, %eax
	testq	%r14, %r14
	jne	.LBB18_105
	jmp	.LBB18_80
.LBB18_47:
	leaq	-1(%rbx), %r8
	xorl	%r10d, %r10d
	xorl	%edi, %edi
	jmp	.LBB18_48
	.p2align	4, 0x90
.LBB18_51:
	incq	%rdi
	cmpq	%rdi, %r8
	je	.LBB18_52
.LBB18_48:
	cmpb	1(%r15,%rdi), %r10b
	jno	.LBB18_51
	cmpq	%rbx, %rdi
	jae	.LBB18_106
	cmpb	$0, (%r15,%rdi)
	js	.LBB18_51
	jmp	.LBB18_105
.LBB18_60:
	movzbl	72(%rsp), %esi
	leal	-17(%rsi), %eax
	movzbl	%al, %eax
	leaq	1(%rax), %rcx
	xorl	%edx, %edx
	cmpb	$3, %al
	cmovbq	%rcx, %rdx
	movl	$18, %eax
	leaq	.LJTI18_0(%rip), %rcx
	movslq	(%rcx,%rdx,4), %rdx
	addq	%rcx, %rdx
	notrack	jmpq	*%rdx
.LBB18_104:
	movzbl	%sil, %eax
	incl	%eax
	jmp	.LBB18_105
.LBB18_64:
	cmpb	$-126, %dil
	jne	.LBB18_69
	cmpq	$1, %rcx
	jbe	.LBB18_75
	movzbl	2(%rsi), %eax
	testq	%rax, %rax
	je	.LBB18_75
	leaq	-4(%r9), %rcx
	shll	$8, %eax
	movzbl	3(%rsi), %edi
	orq	%rax, %rdi
	subq	%rdi, %rcx
	jb	.LBB18_75
	addq	$4, %rsi
	movq	%rsi, %r8
	jmp	.LBB18_77
.LBB18_69:
	testq	%rcx, %rcx
	je	.LBB18_75
	cmpb	$-127, %dil
	jne	.LBB18_75
	movzbl	(%r8), %edi
	testb	%dil, %dil
	jns	.LBB18_75
	leaq	-3(%r9), %rcx
	subq	%rdi, %rcx
	jb	.LBB18_75
	addq	$3, %rsi
	movq	%rsi, %r8
	jmp	.LBB18_77
.LBB18_75:
	movq	%rdx, %r12
	movzbl	%bpl, %ecx
	leaq	64(%rsp), %rdi
	movq	%r9, %rdx
	callq	_RNvNtNtNtCs00000000000_7pkcs1_c6proved8der_core5split14split_unlikely
	movq	64(%rsp), %r8
	testq	%r8, %r8
	je	.LBB18_107
	movq	72(%rsp), %rdi
	movq	88(%rsp), %rcx
	movq	%r12, %rdx
.LBB18_77:
	movl	$13, %eax
	testq	%rcx, %rcx
	jne	.LBB18_105
	movq	%rdi, %rsi
	andq	$-16777216, %rsi
	movl	%edi, %ecx
	andl	$16776960, %ecx
	movl	$13, %eax
	testq	%r14, %r14
	jne	.LBB18_105
.LBB18_80:
	movl	$7, %eax
	cmpq	$9, %rbx
	jne	.LBB18_105
	movabsq	$72354425775621674, %r9
	xorq	(%r15), %r9
	movzbl	8(%r15), %r10d
	xorq	$7, %r10
	orq	%r9, %r10
	jne	.LBB18_105
	testq	%r8, %r8
	je	.LBB18_83
	movl	$11, %eax
	cmpb	$48, %bpl
	jne	.LBB18_105
	movq	%rdx, %rbx
	movzbl	%dil, %eax
	orq	%rsi, %rcx
	orq	%rax, %rcx
	leaq	64(%rsp), %rdi
	movq	%r8, %rsi
	movq	%rcx, %rdx
	callq	_RNvNtNtNtCs00000000000_7pkcs1_c6proved12pkcs1_params6noting9note_oaep
	movzbl	200(%rsp), %ecx
	cmpb	$2, %cl
	jne	.LBB18_87
	movzbl	64(%rsp), %esi
	leal	-17(%rsi), %eax
	movzbl	%al, %eax
	leaq	1(%rax), %rcx
	xorl	%edx, %edx
	cmpb	$3, %al
	cmovbq	%rcx, %rdx
	movl	$18, %eax
	leaq	.LJTI18_0(%rip), %rcx
	movslq	(%rcx,%rdx,4), %rdx
	addq	%rcx, %rdx
	notrack	jmpq	*%rdx
.LBB18_107:
	movzbl	72(%rsp), %esi
	leal	-17(%rsi), %eax
	movzbl	%al, %eax
	leaq	1(%rax), %rcx
	xorl	%edx, %edx
	cmpb	$3, %al
	cmovbq	%rcx, %rdx
	movl	$18, %eax
	leaq	.LJTI18_0(%rip), %rcx
	movslq	(%rcx,%rdx,4), %rdx
	addq	%rcx, %rdx
	notrack	jmpq	*%rdx
.LBB18_102:
	movl	$19, %eax
	jmp	.LBB18_105
.LBB18_83:
	movl	$10, %eax
	jmp	.LBB18_105
.LBB18_87:
	movl	$5, %eax
	testb	$1, %cl
	jne	.LBB18_105
	movzbl	72(%rsp), %esi
	movq	64(%rsp), %rdx
	testq	%rdx, %rdx
	je	.LBB18_101
	movq	%rbx, %rcx
	movzbl	%sil, %r10d
	movzwl	73(%rsp), %esi
	shll	$8, %esi
	movl	75(%rsp), %edi
	movzbl	79(%rsp), %eax
	shlq	$32, %rax
	orq	%rdi, %rax
	movq	80(%rsp), %r8
	movq	120(%rsp), %r9
	leaq	_RNvNtCs00000000000_7pkcs1_c10rattle_std8AN_OCTET(%rip), %rdi
	testq	%r8, %r8
	je	.LBB18_90
	movq	88(%rsp), %r11
	movq	%r11, 56(%rsp)
	movq	96(%rsp), %r11
	movq	%r11, 48(%rsp)
	movb	$1, %r11b
	movq	%r11, 40(%rsp)
	jmp	.LBB18_92
.LBB18_101:
	leal	-17(%rsi), %eax
	movzbl	%al, %eax
	leaq	1(%rax), %rcx
	xorl	%edx, %edx
	cmpb	$3, %al
	cmovbq	%rcx, %rdx
	movl	$18, %eax
	leaq	.LJTI18_0(%rip), %rcx
	movslq	(%rcx,%rdx,4), %rdx
	addq	%rcx, %rdx
	notrack	jmpq	*%rdx
.LBB18_103:
	movl	$20, %eax
.LBB18_105:
	addq	$216, %rsp
	.cfi_def_cfa_offset 56
	popq	%rbx
	.cfi_def_cfa_offset 48
	popq	%r12
	.cfi_def_cfa_offset 40
	popq	%r13
	.cfi_def_cfa_offset 32
	popq	%r14
	.cfi_def_cfa_offset 24
	popq	%r15
	.cfi_def_cfa_offset 16
	popq	%rbp
	.cfi_def_cfa_offset 8
	retq
.LBB18_90:
	.cfi_def_cfa_offset 272
	movq	$0, 56(%rsp)
	movq	%rdi, %r8
	movq	$0, 48(%rsp)
	movq	$0, 40(%rsp)
.LBB18_92:
	orq	%r10, %rsi
	shlq	$24, %rax
	movq	176(%rsp), %rbp
	testq	%r9, %r9
	movq	%r8, 208(%rsp)
	je	.LBB18_93
	movq	128(%rsp), %r8
	movq	%r8, 32(%rsp)
	movq	136(%rsp), %r12
	testq	%r12, %r12
	je	.LBB18_95
	movq	144(%rsp), %r8
	movq	%r8, 24(%rsp)
	movq	152(%rsp), %r8
	movq	%r8, 16(%rsp)
	movb	$1, %r8b
	movq	%r8, 8(%rsp)
	movb	$1, %r8b
	movq	%r8, (%rsp)
	jmp	.LBB18_96
.LBB18_93:
	movq	$0, 24(%rsp)
	movq	%rdi, %r12
	movq	$0, 16(%rsp)
	movq	$0, 8(%rsp)
	movq	$0, 32(%rsp)
	movq	%rdi, %r9
	movq	$0, (%rsp)
	jmp	.LBB18_96
.LBB18_95:
	movb	$1, %r8b
	movq	%r8, (%rsp)
	movq	$0, 24(%rsp)
	movq	%rdi, %r12
	movq	$0, 16(%rsp)
	movq	$0, 8(%rsp)
.LBB18_96:
	movq	104(%rsp), %r13
	movq	112(%rsp), %r10
	movq	160(%rsp), %rbx
	movq	168(%rsp), %r14
	orq	%rax, %rsi
	xorl	%eax, %eax
	testq	%rbp, %rbp
	je	.LBB18_97
	movq	184(%rsp), %r15
	movq	192(%rsp), %r11
	movb	$1, %r8b
	movq	%rbp, %rdi
	jmp	.LBB18_100
.LBB18_97:
	xorl	%r15d, %r15d
	xorl	%r11d, %r11d
	xorl	%r8d, %r8d
.LBB18_100:
	movq	%rdx, (%rcx)
	movq	%rsi, 8(%rcx)
	movq	40(%rsp), %rdx
	movb	%dl, 16(%rcx)
	movq	48(%rsp), %rdx
	movb	%dl, 17(%rcx)
	movq	208(%rsp), %rdx
	movq	%rdx, 24(%rcx)
	movq	56(%rsp), %rdx
	movq	%rdx, 32(%rcx)
	movq	%r13, 40(%rcx)
	movq	%r10, 48(%rcx)
	movq	(%rsp), %rdx
	movb	%dl, 56(%rcx)
	movq	%r9, 64(%rcx)
	movq	32(%rsp), %rdx
	movq	%rdx, 72(%rcx)
	movq	8(%rsp), %rdx
	movb	%dl, 80(%rcx)
	movq	16(%rsp), %rdx
	movb	%dl, 81(%rcx)
	movq	%r12, 88(%rcx)
	movq	24(%rsp), %rdx
	movq	%rdx, 96(%rcx)
	movq	%rbx, 104(%rcx)
	movq	%r14, 112(%rcx)
	movb	%r8b, 120(%rcx)
	movb	%r11b, 121(%rcx)
	movq	%rdi, 128(%rcx)
	movq	%r15, 136(%rcx)
	jmp	.LBB18_105
.LBB18_106:
	movq	%rbx, %rsi
	ud2
.Lfunc_end18:
	.size	pkcs1_c_oaep_algorithm_decode_strict, .Lfunc_end18-pkcs1_c_oaep_algorithm_decode_strict
	.cfi_endproc
	.section	.rodata.pkcs1_c_oaep_algorithm_decode_strict,"a",@progbits
	.p2align	2, 0x0
.LJTI18_0:
	.long	.LBB18_104-.LJTI18_0
	.long	.LBB18_105-.LJTI18_0
	.long	.LBB18_102-.LJTI18_0
	.long	.LBB18_103-.LJTI18_0

	.section	.text.pkcs1_c_oaep_algorithm_encode,"ax",@progbits
	.globl	pkcs1_c_oaep_algorithm_encode
	.p2align	4, 0x90
	.type	pkcs1_c_oaep_algorithm_encode,@function
pkcs1_c_oaep_algorithm_encode:
	.cfi_startproc
	endbr64
	pushq	%rbp
	.cfi_def_cfa_offset 16
	pushq	%r15
	.cfi_def_cfa_offset 24
	pushq	%r14
	.cfi_def_cfa_offset 32
	pushq	%r13
	.cfi_def_cfa_offset 40
	pushq	%r12
	.cfi_def_cfa_offset 48
	pushq	%rbx
	.cfi_def_cfa_offset 56
	subq	$296, %rsp
	.cfi_def_cfa_offset 352
	.cfi_offset %rbx, -56
	.cfi_offset %r12, -48
	.cfi_offset %r13, -40
	.cfi_offset %r14, -32
	.cfi_offset %r15, -24
	.cfi_offset %rbp, -16
	movq	%rcx, %r15
	movq	%rdx, %r14
	movq	%rsi, %rbx
	movq	%rdi, %rsi
	leaq	160(%rsp), %rdi
	callq	_RNvNtNtNtCs00000000000_7pkcs1_c5calls7pkcs1_c4oaep11from_c_oaep
	cmpq	$0, 160(%rsp)
	je	.LBB19_9
	leaq	24(%rsp), %rdi
	leaq	160(%rsp), %rsi
	movl	$136, %edx
	callq	memcpy
	cmpq	$0, 40(%rsp)
	je	.LBB19_20
	cmpq	$5, 32(%rsp)
	jne	.LBB19_20
	movq	24(%rsp), %rax
	cmpb	$43, (%rax)
	jne	.LBB19_20
	cmpb	$14, 1(%rax)
	jne	.LBB19_20
	cmpb	$3, 2(%rax)
	jne	.LBB19_20
	cmpb	$2, 3(%rax)
	jne	.LBB19_20
	cmpb	$26, 4(%rax)
	jne	.LBB19_20
	movzbl	56(%rsp), %eax
	xorq	$5, %rax
	orq	48(%rsp), %rax
	sete	%bpl
	jmp	.LBB19_21
.LBB19_20:
	xorl	%ebp, %ebp
.LBB19_21:
	movq	80(%rsp), %rax
	testq	%rax, %rax
	je	.LBB19_36
	cmpq	$9, 72(%rsp)
	jne	.LBB19_36
	movq	64(%rsp), %rcx
	movabsq	$72354425775621674, %rdx
	cmpq	%rdx, (%rcx)
	jne	.LBB19_36
	cmpb	$8, 8(%rcx)
	jne	.LBB19_36
	xorl	%r12d, %r12d
	cmpq	$0, 96(%rsp)
	je	.LBB19_37
	cmpq	$5, 88(%rsp)
	jne	.LBB19_37
	cmpb	$43, (%rax)
	jne	.LBB19_36
	cmpb	$14, 1(%rax)
	jne	.LBB19_36
	cmpb	$3, 2(%rax)
	jne	.LBB19_36
	cmpb	$2, 3(%rax)
	jne	.LBB19_36
	cmpb	$26, 4(%rax)
	jne	.LBB19_36
	movzbl	112(%rsp), %eax
	xorq	$5, %rax
	orq	104(%rsp), %rax
	sete	%r12b
	jmp	.LBB19_37
.LBB19_36:
	xorl	%r12d, %r12d
.LBB19_37:
	cmpq	$0, 136(%rsp)
	je	.LBB19_44
	cmpq	$9, 128(%rsp)
	jne	.LBB19_44
	movq	120(%rsp), %rax
	movabsq	$72354425775621674, %rcx
	cmpq	%rcx, (%rax)
	jne	.LBB19_44
	cmpb	$9, 8(%rax)
	jne	.LBB19_44
	movzbl	152(%rsp), %eax
	xorq	$4, %rax
	orq	144(%rsp), %rax
	sete	%r13b
	movq	$0, (%rsp)
	testb	%bpl, %bpl
	jne	.LBB19_45
.LBB19_59:
	testb	%r12b, %r12b
	je	.LBB19_62
	testb	%r13b, %r13b
	jne	.LBB19_65
	movq	%rsp, %rsi
	leaq	120(%rsp), %rdi
	callq	_RINvNtNtNtCs00000000000_7pkcs1_c6proved12pkcs1_params6fields13prepend_fieldINtNtNtB6_9spki_core20algorithm_identifier21AlgorithmIdentifierOfNtNtB1g_15identifier_view14IdentifierViewNtNtB1g_3any6AnyRefENtNtNtB6_8der_core7counter7CounterEB8_
	jmp	.LBB19_65
.LBB19_44:
	xorl	%r13d, %r13d
	movq	$0, (%rsp)
	testb	%bpl, %bpl
	je	.LBB19_59
.LBB19_45:
	testb	%r12b, %r12b
	je	.LBB19_48
	testb	%r13b, %r13b
	je	.LBB19_55
	xorl	%eax, %eax
	jmp	.LBB19_67
.LBB19_9:
	movzbl	168(%rsp), %eax
	leal	-17(%rax), %ecx
	movzbl	%cl, %ecx
	leaq	1(%rcx), %rdx
	xorl	%esi, %esi
	cmpb	$3, %cl
	cmovbq	%rdx, %rsi
	leaq	.LJTI19_0(%rip), %rcx
	movslq	(%rcx,%rsi,4), %rdx
	addq	%rcx, %rdx
	notrack	jmpq	*%rdx
.LBB19_10:
	incl	%eax
	jmp	.LBB19_167
.LBB19_62:
	testb	%r13b, %r13b
	jne	.LBB19_64
	movq	%rsp, %rsi
	leaq	120(%rsp), %rdi
	callq	_RINvNtNtNtCs00000000000_7pkcs1_c6proved12pkcs1_params6fields13prepend_fieldINtNtNtB6_9spki_core20algorithm_identifier21AlgorithmIdentifierOfNtNtB1g_15identifier_view14IdentifierViewNtNtB1g_3any6AnyRefENtNtNtB6_8der_core7counter7CounterEB8_
.LBB19_64:
	movq	%rsp, %rsi
	leaq	64(%rsp), %rdi
	callq	_RINvNtNtNtCs00000000000_7pkcs1_c6proved12pkcs1_params6fields13prepend_fieldINtNtNtB6_9spki_core20algorithm_identifier21AlgorithmIdentifierOfNtNtB1g_15identifier_view14IdentifierViewIB1c_B2e_NtNtB1g_3any6AnyRefEENtNtNtB6_8der_core7counter7CounterEB8_
.LBB19_65:
	leaq	160(%rsp), %rdi
	movq	%rsp, %rsi
	callq	_RINvNtNtNtCs00000000000_7pkcs1_c6proved12pkcs1_params6fields13prepend_fieldINtNtNtB6_9spki_core20algorithm_identifier21AlgorithmIdentifierOfNtNtB1g_15identifier_view14IdentifierViewNtNtB1g_3any6AnyRefENtNtNtB6_8der_core7counter7CounterEB8_
	movq	(%rsp), %rax
	cmpq	$128, %rax
	jae	.LBB19_51
.LBB19_67:
	addq	$2, %rax
	jmp	.LBB19_68
.LBB19_48:
	testb	%r13b, %r13b
	jne	.LBB19_50
	movq	%rsp, %rsi
	leaq	120(%rsp), %rdi
	callq	_RINvNtNtNtCs00000000000_7pkcs1_c6proved12pkcs1_params6fields13prepend_fieldINtNtNtB6_9spki_core20algorithm_identifier21AlgorithmIdentifierOfNtNtB1g_15identifier_view14IdentifierViewNtNtB1g_3any6AnyRefENtNtNtB6_8der_core7counter7CounterEB8_
.LBB19_50:
	movq	%rsp, %rsi
	leaq	64(%rsp), %rdi
	callq	_RINvNtNtNtCs00000000000_7pkcs1_c6proved12pkcs1_params6fields13prepend_fieldINtNtNtB6_9spki_core20algorithm_identifier21AlgorithmIdentifierOfNtNtB1g_15identifier_view14IdentifierViewIB1c_B2e_NtNtB1g_3any6AnyRefEENtNtNtB6_8der_core7counter7CounterEB8_
	movq	(%rsp), %rax
	cmpq	$128, %rax
	jb	.LBB19_67
.LBB19_51:
	cmpq	$256, %rax
	jae	.LBB19_53
	addq	$3, %rax
	jmp	.LBB19_68
.LBB19_53:
	cmpq	$65536, %rax
	jae	.LBB19_56
	addq	$4, %rax
	jmp	.LBB19_68
.LBB19_14:
	movl	$19, %eax
	jmp	.LBB19_167
.LBB19_15:
	movl	$20, %eax
	jmp	.LBB19_167
.LBB19_16:
	movl	$18, %eax
	jmp	.LBB19_167
.LBB19_55:
	movq	%rsp, %rsi
	leaq	120(%rsp), %rdi
	callq	_RINvNtNtNtCs00000000000_7pkcs1_c6proved12pkcs1_params6fields13prepend_fieldINtNtNtB6_9spki_core20algorithm_identifier21AlgorithmIdentifierOfNtNtB1g_15identifier_view14IdentifierViewNtNtB1g_3any6AnyRefENtNtNtB6_8der_core7counter7CounterEB8_
	movq	(%rsp), %rax
	cmpq	$128, %rax
	jae	.LBB19_51
	jmp	.LBB19_67
.LBB19_56:
	cmpq	$16777216, %rax
	jae	.LBB19_116
	addq	$5, %rax
	jmp	.LBB19_68
.LBB19_116:
	addq	$6, %rax
	movq	$-1, %rcx
	cmovbq	%rcx, %rax
.LBB19_68:
	movq	%rax, %rcx
	addq	$9, %rcx
	movq	$-1, %rdx
	cmovaeq	%rcx, %rdx
	xorl	%ecx, %ecx
	subq	%rax, %rdx
	cmovaeq	%rdx, %rcx
	cmpq	$128, %rcx
	jae	.LBB19_70
	addq	$2, %rcx
	jmp	.LBB19_77
.LBB19_70:
	cmpq	$256, %rcx
	jae	.LBB19_72
	addq	$3, %rcx
	jmp	.LBB19_77
.LBB19_72:
	cmpq	$65536, %rcx
	jae	.LBB19_74
	addq	$4, %rcx
	jmp	.LBB19_77
.LBB19_74:
	cmpq	$16777216, %rcx
	jae	.LBB19_76
	addq	$5, %rcx
	jmp	.LBB19_77
.LBB19_76:
	addq	$6, %rcx
	movq	$-1, %rdx
	cmovbq	%rdx, %rcx
.LBB19_77:
	addq	%rcx, %rax
	movq	$-1, %rdx
	cmovaeq	%rax, %rdx
	movl	$2, %ecx
	cmpq	$128, %rdx
	jb	.LBB19_81
	movl	$3, %ecx
	cmpq	$256, %rdx
	jb	.LBB19_81
	movl	$4, %ecx
	cmpq	$65536, %rdx
	jb	.LBB19_81
	movl	$5, %ecx
	cmpq	$16777215, %rdx
	ja	.LBB19_110
.LBB19_81:
	addq	%rdx, %rcx
.LBB19_82:
	movq	%rcx, (%r15)
	movl	$15, %eax
	cmpq	%r14, %rcx
	ja	.LBB19_167
	movq	%rbx, (%rsp)
	movq	%rcx, 8(%rsp)
	movq	%rcx, 16(%rsp)
	testb	%bpl, %bpl
	je	.LBB19_87
	testb	%r12b, %r12b
	je	.LBB19_90
	movq	%rcx, %rdx
	testb	%r13b, %r13b
	jne	.LBB19_99
	movq	%rsp, %rdx
	movl	$2, %edi
	leaq	120(%rsp), %rsi
	jmp	.LBB19_97
.LBB19_87:
	testb	%r12b, %r12b
	je	.LBB19_93
	testb	%r13b, %r13b
	jne	.LBB19_96
	movq	%rsp, %rdx
	movl	$2, %edi
	leaq	120(%rsp), %rsi
	callq	_RINvNtNtNtCs00000000000_7pkcs1_c6proved12pkcs1_params6fields13prepend_fieldINtNtNtB6_9spki_core20algorithm_identifier21AlgorithmIdentifierOfNtNtB1g_15identifier_view14IdentifierViewNtNtB1g_3any6AnyRefENtNtNtB6_8der_core11back_writer10BackWriterEB8_
	jmp	.LBB19_96
.LBB19_90:
	testb	%r13b, %r13b
	jne	.LBB19_92
	movq	%rsp, %rdx
	movl	$2, %edi
	leaq	120(%rsp), %rsi
	callq	_RINvNtNtNtCs00000000000_7pkcs1_c6proved12pkcs1_params6fields13prepend_fieldINtNtNtB6_9spki_core20algorithm_identifier21AlgorithmIdentifierOfNtNtB1g_15identifier_view14IdentifierViewNtNtB1g_3any6AnyRefENtNtNtB6_8der_core11back_writer10BackWriterEB8_
.LBB19_92:
	movq	%rsp, %rsi
	leaq	64(%rsp), %rdi
	callq	_RINvNtNtNtCs00000000000_7pkcs1_c6proved12pkcs1_params6fields13prepend_fieldINtNtNtB6_9spki_core20algorithm_identifier21AlgorithmIdentifierOfNtNtB1g_15identifier_view14IdentifierViewIB1c_B2e_NtNtB1g_3any6AnyRefEENtNtNtB6_8der_core11back_writer10BackWriterEB8_
	jmp	.LBB19_98
.LBB19_93:
	testb	%r13b, %r13b
	jne	.LBB19_95
	movq	%rsp, %rdx
	movl	$2, %edi
	leaq	120(%rsp), %rsi
	callq	_RINvNtNtNtCs00000000000_7pkcs1_c6proved12pkcs1_params6fields13prepend_fieldINtNtNtB6_9spki_core20algorithm_identifier21AlgorithmIdentifierOfNtNtB1g_15identifier_view14IdentifierViewNtNtB1g_3any6AnyRefENtNtNtB6_8der_core11back_writer10BackWriterEB8_
.LBB19_95:
	movq	%rsp, %rsi
	leaq	64(%rsp), %rdi
	callq	_RINvNtNtNtCs00000000000_7pkcs1_c6proved12pkcs1_params6fields13prepend_fieldINtNtNtB6_9spki_core20algorithm_identifier21AlgorithmIdentifierOfNtNtB1g_15identifier_view14IdentifierViewIB1c_B2e_NtNtB1g_3any6AnyRefEENtNtNtB6_8der_core11back_writer10BackWriterEB8_
.LBB19_96:
	leaq	160(%rsp), %rsi
	movq	%rsp, %rdx
	xorl	%edi, %edi
.LBB19_97:
	callq	_RINvNtNtNtCs00000000000_7pkcs1_c6proved12pkcs1_params6fields13prepend_fieldINtNtNtB6_9spki_core20algorithm_identifier21AlgorithmIdentifierOfNtNtB1g_15identifier_view14IdentifierViewNtNtB1g_3any6AnyRefENtNtNtB6_8der_core11back_writer10BackWriterEB8_
.LBB19_98:
	movq	8(%rsp), %rcx
	movq	16(%rsp), %rdx
.LBB19_99:
	movq	%rcx, %rsi
	subq	%rdx, %rsi
	cmpl	$128, %esi
	jae	.LBB19_102
	movq	(%rsp), %rax
	cmpq	$2, %rdx
	jb	.LBB19_127
	cmpq	%rdx, %rcx
	jb	.LBB19_174
	shll	$8, %esi
	orl	$48, %esi
	movw	%si, -2(%rax,%rdx)
	addq	$-2, %rdx
	jmp	.LBB19_126
.LBB19_102:
	cmpl	$256, %esi
	jae	.LBB19_107
	movq	(%rsp), %rax
	cmpq	$3, %rdx
	jb	.LBB19_127
	cmpq	%rdx, %rcx
	jb	.LBB19_174
	movw	$-32464, -3(%rax,%rdx)
	movb	%sil, -1(%rax,%rdx)
	addq	$-3, %rdx
	jmp	.LBB19_126
.LBB19_107:
	cmpl	$65536, %esi
	jae	.LBB19_113
	movq	(%rsp), %rax
	cmpq	$4, %rdx
	jb	.LBB19_127
	cmpq	%rdx, %rcx
	jb	.LBB19_174
	orl	$813826048, %esi
	bswapl	%esi
	movl	%esi, -4(%rax,%rdx)
	addq	$-4, %rdx
	jmp	.LBB19_126
.LBB19_110:
	addq	$6, %rdx
	movq	$-1, %rcx
	cmovaeq	%rdx, %rcx
	movq	%rcx, %rax
	shrq	$32, %rax
	movl	$8, %eax
	je	.LBB19_82
	jmp	.LBB19_167
.LBB19_113:
	cmpl	$16777216, %esi
	jae	.LBB19_119
	movq	(%rsp), %rax
	cmpq	$5, %rdx
	jb	.LBB19_127
	cmpq	%rdx, %rcx
	jb	.LBB19_174
	movl	%esi, %edi
	shrl	$16, %edi
	movl	%esi, %r8d
	shrl	$8, %r8d
	movw	$-31952, -5(%rax,%rdx)
	movb	%dil, -3(%rax,%rdx)
	movb	%r8b, -2(%rax,%rdx)
	movb	%sil, -1(%rax,%rdx)
	addq	$-5, %rdx
	jmp	.LBB19_126
.LBB19_119:
	movq	(%rsp), %rax
	cmpq	$6, %rdx
	jb	.LBB19_127
	cmpq	%rdx, %rcx
	jb	.LBB19_174
	movl	%esi, %edi
	shrl	$24, %edi
	movl	%esi, %r8d
	shrl	$16, %r8d
	movl	%esi, %r9d
	shrl	$8, %r9d
	movw	$-31696, -6(%rax,%rdx)
	movb	%dil, -4(%rax,%rdx)
	movb	%r8b, -3(%rax,%rdx)
	movb	%r9b, -2(%rax,%rdx)
	movb	%sil, -1(%rax,%rdx)
	addq	$-6, %rdx
.LBB19_126:
	cmpq	$9, %rdx
	jae	.LBB19_131
.LBB19_127:
	movq	%rdx, %rsi
	subq	%rsi, %rdx
	cmpl	$128, %edx
	jae	.LBB19_133
.LBB19_128:
	cmpq	$2, %rsi
	jb	.LBB19_148
	cmpq	%rcx, %rsi
	ja	.LBB19_174
	shll	$8, %edx
	orl	$6, %edx
	movw	%dx, -2(%rax,%rsi)
	addq	$-2, %rsi
	jmp	.LBB19_148
.LBB19_131:
	cmpq	%rcx, %rdx
	ja	.LBB19_174
	leaq	-9(%rdx), %rsi
	movabsq	$72354425775621674, %rdi
	movq	%rdi, -9(%rax,%rdx)
	movb	$7, -1(%rax,%rdx)
	subq	%rsi, %rdx
	cmpl	$128, %edx
	jb	.LBB19_128
.LBB19_133:
	cmpl	$256, %edx
	jae	.LBB19_137
	cmpq	$3, %rsi
	jb	.LBB19_148
	cmpq	%rcx, %rsi
	ja	.LBB19_174
	movw	$-32506, -3(%rax,%rsi)
	movb	%dl, -1(%rax,%rsi)
	addq	$-3, %rsi
	jmp	.LBB19_148
.LBB19_137:
	cmpl	$65536, %edx
	jae	.LBB19_141
	cmpq	$4, %rsi
	jb	.LBB19_148
	cmpq	%rcx, %rsi
	ja	.LBB19_174
	orl	$109182976, %edx
	bswapl	%edx
	movl	%edx, -4(%rax,%rsi)
	addq	$-4, %rsi
	jmp	.LBB19_148
.LBB19_141:
	cmpl	$16777216, %edx
	jae	.LBB19_145
	cmpq	$5, %rsi
	jb	.LBB19_148
	cmpq	%rcx, %rsi
	ja	.LBB19_174
	movl	%edx, %edi
	shrl	$16, %edi
	movl	%edx, %r8d
	shrl	$8, %r8d
	movw	$-31994, -5(%rax,%rsi)
	movb	%dil, -3(%rax,%rsi)
	movb	%r8b, -2(%rax,%rsi)
	movb	%dl, -1(%rax,%rsi)
	addq	$-5, %rsi
	jmp	.LBB19_148
.LBB19_145:
	cmpq	$6, %rsi
	jb	.LBB19_148
	cmpq	%rcx, %rsi
	ja	.LBB19_174
	movl	%edx, %edi
	shrl	$24, %edi
	movl	%edx, %r8d
	shrl	$16, %r8d
	movl	%edx, %r9d
	shrl	$8, %r9d
	movw	$-31738, -6(%rax,%rsi)
	movb	%dil, -4(%rax,%rsi)
	movb	%r8b, -3(%rax,%rsi)
	movb	%r9b, -2(%rax,%rsi)
	movb	%dl, -1(%rax,%rsi)
	addq	$-6, %rsi
.LBB19_148:
	movq	%rcx, %rdx
	subq	%rsi, %rdx
	cmpl	$128, %edx
	jae	.LBB19_152
	cmpq	$2, %rsi
	jb	.LBB19_166
	cmpq	%rsi, %rcx
	jb	.LBB19_174
	shll	$8, %edx
	orl	$48, %edx
	movw	%dx, -2(%rsi,%rax)
	jmp	.LBB19_166
.LBB19_152:
	cmpl	$256, %edx
	jae	.LBB19_157
	cmpq	$3, %rsi
	jb	.LBB19_166
	cmpq	%rsi, %rcx
	jb	.LBB19_174
	movw	$-32464, -3(%rsi,%rax)
.LBB19_156:
	movb	%dl, -1(%rsi,%rax)
	jmp	.LBB19_166
.LBB19_157:
	cmpl	$65536, %edx
	jae	.LBB19_161
	cmpq	$4, %rsi
	jb	.LBB19_166
	cmpq	%rsi, %rcx
	jb	.LBB19_174
	orl	$813826048, %edx
	bswapl	%edx
	movl	%edx, -4(%rsi,%rax)
	jmp	.LBB19_166
.LBB19_161:
	cmpl	$16777216, %edx
	jae	.LBB19_165
	cmpq	$5, %rsi
	jb	.LBB19_166
	cmpq	%rsi, %rcx
	jb	.LBB19_174
	movl	%edx, %ecx
	shrl	$16, %ecx
	movl	%edx, %edi
	shrl	$8, %edi
	movw	$-31952, -5(%rsi,%rax)
	movb	%cl, -3(%rsi,%rax)
	movb	%dil, -2(%rsi,%rax)
	jmp	.LBB19_156
.LBB19_165:
	cmpq	$6, %rsi
	jae	.LBB19_168
.LBB19_166:
	xorl	%eax, %eax
.LBB19_167:
	addq	$296, %rsp
	.cfi_def_cfa_offset 56
	popq	%rbx
	.cfi_def_cfa_offset 48
	popq	%r12
	.cfi_def_cfa_offset 40
	popq	%r13
	.cfi_def_cfa_offset 32
	popq	%r14
	.cfi_def_cfa_offset 24
	popq	%r15
	.cfi_def_cfa_offset 16
	popq	%rbp
	.cfi_def_cfa_offset 8
	retq
.LBB19_168:
	.cfi_def_cfa_offset 352
	cmpq	%rsi, %rcx
	jb	.LBB19_174
	movl	%edx, %ecx
	shrl	$24, %ecx
	movl	%edx, %edi
	shrl	$16, %edi
	movl	%edx, %r8d
	shrl	$8, %r8d
	movw	$-31696, -6(%rsi,%rax)
	movb	%cl, -4(%rsi,%rax)
	movb	%dil, -3(%rsi,%rax)
	movb	%r8b, -2(%rsi,%rax)
	jmp	.LBB19_156
.LBB19_174:
	ud2
.Lfunc_end19:
	.size	pkcs1_c_oaep_algorithm_encode, .Lfunc_end19-pkcs1_c_oaep_algorithm_encode
	.cfi_endproc
	.section	.rodata.pkcs1_c_oaep_algorithm_encode,"a",@progbits
	.p2align	2, 0x0
.LJTI19_0:
	.long	.LBB19_10-.LJTI19_0
	.long	.LBB19_16-.LJTI19_0
	.long	.LBB19_14-.LJTI19_0
	.long	.LBB19_15-.LJTI19_0

	.section	.text.pkcs1_c_private_key_decode,"ax",@progbits
	.globl	pkcs1_c_private_key_decode
	.p2align	4, 0x90
	.type	pkcs1_c_private_key_decode,@function
pkcs1_c_private_key_decode:
	.cfi_startproc
	endbr64
	pushq	%rbp
	.cfi_def_cfa_offset 16
	pushq	%r15
	.cfi_def_cfa_offset 24
	pushq	%r14
	.cfi_def_cfa_offset 32
	pushq	%r13
	.cfi_def_cfa_offset 40
	pushq	%r12
	.cfi_def_cfa_offset 48
	pushq	%rbx
	.cfi_def_cfa_offset 56
	subq	$152, %rsp
	.cfi_def_cfa_offset 208
	.cfi_offset %rbx, -56
	.cfi_offset %r12, -48
	.cfi_offset %r13, -40
	.cfi_offset %r14, -32
	.cfi_offset %r15, -24
	.cfi_offset %rbp, -16
	movq	%rsi, %rax
	shrq	$32, %rax
	movl	$8, %eax
	jne	.LBB20_275
	movq	%rsi, %r8
	cmpq	$2, %rsi
	jb	.LBB20_25
	cmpb	$48, (%rdi)
	jne	.LBB20_25
	leaq	2(%rdi), %rsi
	leaq	-2(%r8), %rbx
	movsbq	1(%rdi), %rax
	testq	%rax, %rax
	js	.LBB20_10
	subq	%rax, %rbx
	jb	.LBB20_25
	cmpq	$2, %rax
	jb	.LBB20_43
.LBB20_6:
	cmpb	$2, (%rsi)
	jne	.LBB20_43
	leaq	2(%rsi), %r8
	leaq	-2(%rax), %r9
	movsbq	1(%rsi), %rdi
	testq	%rdi, %rdi
	js	.LBB20_15
	subq	%rdi, %r9
	jb	.LBB20_43
	leaq	(%r8,%rdi), %rax
	testq	%rdi, %rdi
	jne	.LBB20_33
	jmp	.LBB20_45
.LBB20_10:
	cmpb	$-126, %al
	jne	.LBB20_20
	cmpq	$1, %rbx
	jbe	.LBB20_25
	movzbl	2(%rdi), %esi
	testq	%rsi, %rsi
	je	.LBB20_25
	leaq	-4(%r8), %rbx
	shll	$8, %esi
	movzbl	3(%rdi), %eax
	orq	%rsi, %rax
	subq	%rax, %rbx
	jb	.LBB20_25
	addq	$4, %rdi
	movq	%rdi, %rsi
	jmp	.LBB20_6
.LBB20_15:
	cmpb	$-126, %dil
	jne	.LBB20_27
	cmpq	$1, %r9
	jbe	.LBB20_43
	movzbl	2(%rsi), %r8d
	testq	%r8, %r8
	je	.LBB20_43
	leaq	-4(%rax), %r9
	shll	$8, %r8d
	movzbl	3(%rsi), %edi
	orq	%r8, %rdi
	subq	%rdi, %r9
	jb	.LBB20_43
	addq	$4, %rsi
	leaq	(%rsi,%rdi), %rax
	movq	%rsi, %r8
	testq	%rdi, %rdi
	jne	.LBB20_33
	jmp	.LBB20_45
.LBB20_20:
	testq	%rbx, %rbx
	je	.LBB20_25
	cmpb	$-127, %al
	jne	.LBB20_25
	movzbl	(%rsi), %eax
	testb	%al, %al
	jns	.LBB20_25
	leaq	-3(%r8), %rbx
	subq	%rax, %rbx
	jb	.LBB20_25
	addq	$3, %rdi
	movq	%rdi, %rsi
	jmp	.LBB20_6
.LBB20_25:
	movq	%rdx, %r14
	movq	%rcx, %r15
	leaq	16(%rsp), %rax
	movq	%rdi, %rsi
	movq	%rax, %rdi
	movq	%r8, %rdx
	movl	$48, %ecx
	callq	_RNvNtNtNtCs00000000000_7pkcs1_c6proved8der_core5split14split_unlikely
	movq	16(%rsp), %rsi
	testq	%rsi, %rsi
	je	.LBB20_48
	movq	24(%rsp), %rax
	movq	40(%rsp), %rbx
	movq	%r15, %rcx
	movq	%r14, %rdx
	cmpq	$2, %rax
	jae	.LBB20_6
	jmp	.LBB20_43
.LBB20_27:
	testq	%r9, %r9
	je	.LBB20_43
	cmpb	$-127, %dil
	jne	.LBB20_43
	movzbl	(%r8), %edi
	testb	%dil, %dil
	jns	.LBB20_43
	leaq	-3(%rax), %r9
	subq	%rdi, %r9
	jb	.LBB20_43
	addq	$3, %rsi
	leaq	(%rsi,%rdi), %rax
	movq	%rsi, %r8
	testq	%rdi, %rdi
	jne	.LBB20_33
	jmp	.LBB20_45
.LBB20_43:
	movq	%rdx, %r14
	movq	%rcx, %r15
	leaq	16(%rsp), %rdi
	movq	%rax, %rdx
	movl	$2, %ecx
	callq	_RNvNtNtNtCs00000000000_7pkcs1_c6proved8der_core5split14split_unlikely
	movq	16(%rsp), %r8
	testq	%r8, %r8
	je	.LBB20_49
	movq	24(%rsp), %rdi
	movq	32(%rsp), %rax
	movq	40(%rsp), %r9
	movq	%r15, %rcx
	movq	%r14, %rdx
	testq	%rdi, %rdi
	je	.LBB20_45
.LBB20_33:
	cmpq	$1, %rdi
	jne	.LBB20_41
	movzbl	(%r8), %esi
	testb	%sil, %sil
	js	.LBB20_46
	movzbl	%sil, %edi
	movl	$2, %ebp
	cmpb	$2, %sil
	cmovbl	%edi, %ebp
	jae	.LBB20_46
	cmpq	$2, %r9
	jb	.LBB20_62
	cmpb	$2, (%rax)
	jne	.LBB20_62
	leaq	2(%rax), %r15
	leaq	-2(%r9), %r8
	movsbq	1(%rax), %r14
	testq	%r14, %r14
	js	.LBB20_51
	subq	%r14, %r8
	jb	.LBB20_62
	leaq	(%r15,%r14), %rsi
	testq	%r14, %r14
	jne	.LBB20_64
	jmp	.LBB20_45
.LBB20_41:
	movl	$14, %eax
	cmpb	$0, (%r8)
	jne	.LBB20_275
	movzbl	1(%r8), %eax
	shrb	$7, %al
	movzbl	%al, %eax
	leal	(%rax,%rax,8), %eax
	addl	$5, %eax
	jmp	.LBB20_275
.LBB20_48:
	movzbl	24(%rsp), %ecx
	leal	-17(%rcx), %eax
	movzbl	%al, %eax
	leaq	1(%rax), %rdx
	xorl	%esi, %esi
	cmpb	$3, %al
	cmovbq	%rdx, %rsi
	movl	$18, %eax
	leaq	.LJTI20_0(%rip), %rdx
	movslq	(%rdx,%rsi,4), %rsi
	addq	%rdx, %rsi
	notrack	jmpq	*%rsi
.LBB20_49:
	movzbl	24(%rsp), %ecx
	leal	-17(%rcx), %eax
	movzbl	%al, %eax
	leaq	1(%rax), %rdx
	xorl	%esi, %esi
	cmpb	$3, %al
	cmovbq	%rdx, %rsi
	movl	$18, %eax
	leaq	.LJTI20_0(%rip), %rdx
	movslq	(%rdx,%rsi,4), %rsi
	addq	%rdx, %rsi
	notrack	jmpq	*%rsi
.LBB20_50:
	movzbl	%cl, %eax
	incl	%eax
	jmp	.LBB20_275
.LBB20_51:
	cmpb	$-126, %r14b
	jne	.LBB20_56
	cmpq	$1, %r8
	jbe	.LBB20_62
	movzbl	2(%rax), %esi
	testq	%rsi, %rsi
	je	.LBB20_62
	leaq	-4(%r9), %r8
	shll	$8, %esi
	movzbl	3(%rax), %r14d
	orq	%rsi, %r14
	subq	%r14, %r8
	jb	.LBB20_62
	addq	$4, %rax
	jmp	.LBB20_61
.LBB20_56:
	testq	%r8, %r8
	je	.LBB20_62
	cmpb	$-127, %r14b
	jne	.LBB20_62
	movzbl	(%r15), %r14d
	testb	%r14b, %r14b
	jns	.LBB20_62
	leaq	-3(%r9), %r8
	subq	%r14, %r8
	jb	.LBB20_62
	addq	$3, %rax
.LBB20_61:
	leaq	(%rax,%r14), %rsi
	movq	%rax, %r15
	jmp	.LBB20_64
.LBB20_62:
	movq	%rdx, %r12
	movq	%rcx, %r13
	leaq	16(%rsp), %rdi
	movq	%rax, %rsi
	movq	%r9, %rdx
	movl	$2, %ecx
	callq	_RNvNtNtNtCs00000000000_7pkcs1_c6proved8der_core5split14split_unlikely
	movq	16(%rsp), %r15
	testq	%r15, %r15
	je	.LBB20_82
	movq	24(%rsp), %r14
	movq	32(%rsp), %rsi
	movq	40(%rsp), %r8
	movq	%r13, %rcx
	movq	%r12, %rdx
	testq	%r14, %r14
	je	.LBB20_45
.LBB20_64:
	cmpb	$0, (%r15)
	je	.LBB20_67
	jns	.LBB20_72
	jmp	.LBB20_46
.LBB20_67:
	decq	%r14
	je	.LBB20_71
	movl	$5, %eax
	cmpb	$0, 1(%r15)
	jns	.LBB20_275
	incq	%r15
	jmp	.LBB20_72
.LBB20_71:
	movl	$1, %r14d
.LBB20_72:
	cmpq	$2, %r8
	jb	.LBB20_89
	cmpb	$2, (%rsi)
	jne	.LBB20_89
	leaq	2(%rsi), %r11
	leaq	-2(%r8), %r9
	movsbq	1(%rsi), %rdi
	testq	%rdi, %rdi
	js	.LBB20_77
	subq	%rdi, %r9
	jb	.LBB20_89
	leaq	(%r11,%rdi), %r10
	jmp	.LBB20_91
.LBB20_77:
	cmpb	$-126, %dil
	jne	.LBB20_83
	cmpq	$1, %r9
	jbe	.LBB20_89
	movzbl	2(%rsi), %eax
	testq	%rax, %rax
	je	.LBB20_89
	leaq	-4(%r8), %r9
	shll	$8, %eax
	movzbl	3(%rsi), %edi
	orq	%rax, %rdi
	subq	%rdi, %r9
	jb	.LBB20_89
	addq	$4, %rsi
	jmp	.LBB20_88
.LBB20_82:
	movzbl	24(%rsp), %ecx
	leal	-17(%rcx), %eax
	movzbl	%al, %eax
	leaq	1(%rax), %rdx
	xorl	%esi, %esi
	cmpb	$3, %al
	cmovbq	%rdx, %rsi
	movl	$18, %eax
	leaq	.LJTI20_0(%rip), %rdx
	movslq	(%rdx,%rsi,4), %rsi
	addq	%rdx, %rsi
	notrack	jmpq	*%rsi
.LBB20_83:
	testq	%r9, %r9
	je	.LBB20_89
	cmpb	$-127, %dil
	jne	.LBB20_89
	movzbl	(%r11), %edi
	testb	%dil, %dil
	jns	.LBB20_89
	leaq	-3(%r8), %r9
	subq	%rdi, %r9
	jb	.LBB20_89
	addq	$3, %rsi
.LBB20_88:
	leaq	(%rsi,%rdi), %r10
	movq	%rsi, %r11
	jmp	.LBB20_92
.LBB20_89:
	movq	%rdx, %r13
	movq	%rcx, %r12
	leaq	16(%rsp), %rdi
	movq	%r8, %rdx
	movl	$2, %ecx
	callq	_RNvNtNtNtCs00000000000_7pkcs1_c6proved8der_core5split14split_unlikely
	movq	16(%rsp), %r11
	testq	%r11, %r11
	je	.LBB20_110
	movq	24(%rsp), %rdi
	movq	32(%rsp), %r10
	movq	40(%rsp), %r9
	movq	%r12, %rcx
	movq	%r13, %rdx
.LBB20_91:
	testq	%rdi, %rdi
	je	.LBB20_45
.LBB20_92:
	cmpb	$0, (%r11)
	je	.LBB20_95
	jns	.LBB20_100
	jmp	.LBB20_46
.LBB20_95:
	decq	%rdi
	je	.LBB20_99
	movl	$5, %eax
	cmpb	$0, 1(%r11)
	jns	.LBB20_275
	incq	%r11
	jmp	.LBB20_100
.LBB20_99:
	movl	$1, %edi
.LBB20_100:
	cmpq	$2, %r9
	jb	.LBB20_117
	cmpb	$2, (%r10)
	jne	.LBB20_117
	leaq	2(%r10), %r12
	leaq	-2(%r9), %r8
	movsbq	1(%r10), %rax
	testq	%rax, %rax
	js	.LBB20_105
	subq	%rax, %r8
	jb	.LBB20_117
	leaq	(%r12,%rax), %rsi
	jmp	.LBB20_119
.LBB20_105:
	cmpb	$-126, %al
	jne	.LBB20_111
	cmpq	$1, %r8
	jbe	.LBB20_117
	movzbl	2(%r10), %eax
	testq	%rax, %rax
	je	.LBB20_117
	leaq	-4(%r9), %r8
	shll	$8, %eax
	movzbl	3(%r10), %esi
	orq	%rax, %rsi
	subq	%rsi, %r8
	jb	.LBB20_117
	movq	%rsi, %rax
	addq	$4, %r10
	jmp	.LBB20_116
.LBB20_110:
	movzbl	24(%rsp), %ecx
	leal	-17(%rcx), %eax
	movzbl	%al, %eax
	leaq	1(%rax), %rdx
	xorl	%esi, %esi
	cmpb	$3, %al
	cmovbq	%rdx, %rsi
	movl	$18, %eax
	leaq	.LJTI20_0(%rip), %rdx
	movslq	(%rdx,%rsi,4), %rsi
	addq	%rdx, %rsi
	notrack	jmpq	*%rsi
.LBB20_111:
	testq	%r8, %r8
	je	.LBB20_117
	cmpb	$-127, %al
	jne	.LBB20_117
	movzbl	(%r12), %eax
	testb	%al, %al
	jns	.LBB20_117
	leaq	-3(%r9), %r8
	subq	%rax, %r8
	jb	.LBB20_117
	addq	$3, %r10
.LBB20_116:
	leaq	(%r10,%rax), %rsi
	movq	%r10, %r12
	jmp	.LBB20_120
.LBB20_117:
	movq	%r11, 56(%rsp)
	movq	%rdi, 8(%rsp)
	movq	%rdx, %r13
	movq	%rcx, %r12
	leaq	16(%rsp), %rdi
	movq	%r10, %rsi
	movq	%r9, %rdx
	movl	$2, %ecx
	callq	_RNvNtNtNtCs00000000000_7pkcs1_c6proved8der_core5split14split_unlikely
	movq	16(%rsp), %rax
	testq	%rax, %rax
	je	.LBB20_138
	movq	%rax, %r9
	movq	24(%rsp), %rax
	movq	32(%rsp), %rsi
	movq	40(%rsp), %r8
	movq	%r12, %rcx
	movq	%r13, %rdx
	movq	8(%rsp), %rdi
	movq	56(%rsp), %r11
	movq	%r9, %r12
.LBB20_119:
	testq	%rax, %rax
	je	.LBB20_45
.LBB20_120:
	cmpb	$0, (%r12)
	je	.LBB20_123
	jns	.LBB20_128
	jmp	.LBB20_46
.LBB20_123:
	decq	%rax
	je	.LBB20_127
	movq	%rax, %r9
	movl	$5, %eax
	cmpb	$0, 1(%r12)
	jns	.LBB20_275
	incq	%r12
	movq	%r9, %rax
	jmp	.LBB20_128
.LBB20_127:
	movl	$1, %eax
.LBB20_128:
	movq	%rax, 144(%rsp)
	cmpq	$2, %r8
	jb	.LBB20_145
	cmpb	$2, (%rsi)
	jne	.LBB20_145
	leaq	2(%rsi), %r13
	leaq	-2(%r8), %r9
	movsbq	1(%rsi), %rax
	testq	%rax, %rax
	js	.LBB20_133
	subq	%rax, %r9
	jb	.LBB20_145
	leaq	(%rax,%r13), %r10
	jmp	.LBB20_147
.LBB20_133:
	cmpb	$-126, %al
	jne	.LBB20_139
	cmpq	$1, %r9
	jbe	.LBB20_145
	movzbl	2(%rsi), %eax
	testq	%rax, %rax
	je	.LBB20_145
	leaq	-4(%r8), %r9
	shll	$8, %eax
	movzbl	3(%rsi), %r10d
	orq	%rax, %r10
	subq	%r10, %r9
	jb	.LBB20_145
	movq	%r10, %rax
	addq	$4, %rsi
	jmp	.LBB20_144
.LBB20_138:
	movzbl	24(%rsp), %ecx
	leal	-17(%rcx), %eax
	movzbl	%al, %eax
	leaq	1(%rax), %rdx
	xorl	%esi, %esi
	cmpb	$3, %al
	cmovbq	%rdx, %rsi
	movl	$18, %eax
	leaq	.LJTI20_0(%rip), %rdx
	movslq	(%rdx,%rsi,4), %rsi
	addq	%rdx, %rsi
	notrack	jmpq	*%rsi
.LBB20_139:
	testq	%r9, %r9
	je	.LBB20_145
	cmpb	$-127, %al
	jne	.LBB20_145
	movzbl	(%r13), %eax
	testb	%al, %al
	jns	.LBB20_145
	leaq	-3(%r8), %r9
	subq	%rax, %r9
	jb	.LBB20_145
	addq	$3, %rsi
.LBB20_144:
	leaq	(%rsi,%rax), %r10
	movq	%rsi, %r13
	jmp	.LBB20_148
.LBB20_145:
	movq	%r12, 72(%rsp)
	movq	%r11, 56(%rsp)
	movq	%rdi, 8(%rsp)
	movq	%rdx, %r13
	movq	%rcx, %r12
	leaq	16(%rsp), %rdi
	movq	%r8, %rdx
	movl	$2, %ecx
	callq	_RNvNtNtNtCs00000000000_7pkcs1_c6proved8der_core5split14split_unlikely
	movq	16(%rsp), %rax
	testq	%rax, %rax
	je	.LBB20_166
	movq	%rax, %rsi
	movq	24(%rsp), %rax
	movq	32(%rsp), %r10
	movq	40(%rsp), %r9
	movq	%r12, %rcx
	movq	%r13, %rdx
	movq	8(%rsp), %rdi
	movq	56(%rsp), %r11
	movq	72(%rsp), %r12
	movq	%rsi, %r13
.LBB20_147:
	testq	%rax, %rax
	je	.LBB20_45
.LBB20_148:
	cmpb	$0, (%r13)
	je	.LBB20_151
	jns	.LBB20_156
	jmp	.LBB20_46
.LBB20_151:
	decq	%rax
	je	.LBB20_155
	movq	%rax, %rsi
	movl	$5, %eax
	cmpb	$0, 1(%r13)
	jns	.LBB20_275
	incq	%r13
	movq	%rsi, %rax
	jmp	.LBB20_156
.LBB20_155:
	movl	$1, %eax
.LBB20_156:
	movq	%rax, 136(%rsp)
	cmpq	$2, %r9
	jb	.LBB20_173
	cmpb	$2, (%r10)
	jne	.LBB20_173
	leaq	2(%r10), %rsi
	leaq	-2(%r9), %r8
	movsbq	1(%r10), %rax
	testq	%rax, %rax
	js	.LBB20_161
	subq	%rax, %r8
	jb	.LBB20_173
	movq	%rsi, %r10
	addq	%rax, %rsi
	jmp	.LBB20_175
.LBB20_161:
	cmpb	$-126, %al
	jne	.LBB20_167
	cmpq	$1, %r8
	jbe	.LBB20_173
	movzbl	2(%r10), %eax
	testq	%rax, %rax
	je	.LBB20_173
	leaq	-4(%r9), %r8
	shll	$8, %eax
	movzbl	3(%r10), %esi
	orq	%rax, %rsi
	subq	%rsi, %r8
	jb	.LBB20_173
	movq	%rsi, %rax
	addq	$4, %r10
	jmp	.LBB20_172
.LBB20_166:
	movzbl	24(%rsp), %ecx
	leal	-17(%rcx), %eax
	movzbl	%al, %eax
	leaq	1(%rax), %rdx
	xorl	%esi, %esi
	cmpb	$3, %al
	cmovbq	%rdx, %rsi
	movl	$18, %eax
	leaq	.LJTI20_0(%rip), %rdx
	movslq	(%rdx,%rsi,4), %rsi
	addq	%rdx, %rsi
	notrack	jmpq	*%rsi
.LBB20_167:
	testq	%r8, %r8
	je	.LBB20_173
	cmpb	$-127, %al
	jne	.LBB20_173
	movzbl	(%rsi), %eax
	testb	%al, %al
	jns	.LBB20_173
	leaq	-3(%r9), %r8
	subq	%rax, %r8
	jb	.LBB20_173
	addq	$3, %r10
.LBB20_172:
	leaq	(%r10,%rax), %rsi
	jmp	.LBB20_176
.LBB20_173:
	movq	%r13, 80(%rsp)
	movq	%r12, 72(%rsp)
	movq	%r11, 56(%rsp)
	movq	%rdi, 8(%rsp)
	movq	%rdx, %r13
	movq	%rcx, %r12
	leaq	16(%rsp), %rdi
	movq	%r10, %rsi
	movq	%r9, %rdx
	movl	$2, %ecx
	callq	_RNvNtNtNtCs00000000000_7pkcs1_c6proved8der_core5split14split_unlikely
	movq	16(%rsp), %r10
	testq	%r10, %r10
	je	.LBB20_194
	movq	24(%rsp), %rax
	movq	32(%rsp), %rsi
	movq	40(%rsp), %r8
	movq	%r12, %rcx
	movq	%r13, %rdx
	movq	8(%rsp), %rdi
	movq	56(%rsp), %r11
	movq	72(%rsp), %r12
	movq	80(%rsp), %r13
.LBB20_175:
	testq	%rax, %rax
	je	.LBB20_45
.LBB20_176:
	cmpb	$0, (%r10)
	je	.LBB20_179
	movq	%rax, 104(%rsp)
	jns	.LBB20_184
	jmp	.LBB20_46
.LBB20_179:
	decq	%rax
	je	.LBB20_183
	movq	%rax, 104(%rsp)
	movl	$5, %eax
	cmpb	$0, 1(%r10)
	jns	.LBB20_275
	incq	%r10
	jmp	.LBB20_184
.LBB20_183:
	movl	$1, %eax
	movq	%rax, 104(%rsp)
.LBB20_184:
	cmpq	$2, %r8
	movq	%r10, 128(%rsp)
	jb	.LBB20_201
	cmpb	$2, (%rsi)
	jne	.LBB20_201
	leaq	2(%rsi), %rax
	movq	%rax, 88(%rsp)
	leaq	-2(%r8), %r9
	movsbq	1(%rsi), %rax
	testq	%rax, %rax
	js	.LBB20_189
	subq	%rax, %r9
	jb	.LBB20_201
	movq	88(%rsp), %rsi
	leaq	(%rsi,%rax), %r10
	jmp	.LBB20_203
.LBB20_189:
	cmpb	$-126, %al
	jne	.LBB20_195
	cmpq	$1, %r9
	jbe	.LBB20_201
	movzbl	2(%rsi), %eax
	testq	%rax, %rax
	je	.LBB20_201
	leaq	-4(%r8), %r9
	shll	$8, %eax
	movq	%rax, 8(%rsp)
	movzbl	3(%rsi), %eax
	addq	8(%rsp), %rax
	subq	%rax, %r9
	jb	.LBB20_201
	addq	$4, %rsi
	jmp	.LBB20_200
.LBB20_194:
	movzbl	24(%rsp), %ecx
	leal	-17(%rcx), %eax
	movzbl	%al, %eax
	leaq	1(%rax), %rdx
	xorl	%esi, %esi
	cmpb	$3, %al
	cmovbq	%rdx, %rsi
	movl	$18, %eax
	leaq	.LJTI20_0(%rip), %rdx
	movslq	(%rdx,%rsi,4), %rsi
	addq	%rdx, %rsi
	notrack	jmpq	*%rsi
.LBB20_195:
	testq	%r9, %r9
	je	.LBB20_201
	cmpb	$-127, %al
	jne	.LBB20_201
	movq	88(%rsp), %rax
	movzbl	(%rax), %eax
	testb	%al, %al
	jns	.LBB20_201
	leaq	-3(%r8), %r9
	subq	%rax, %r9
	jb	.LBB20_201
	addq	$3, %rsi
.LBB20_200:
	leaq	(%rsi,%rax), %r10
	jmp	.LBB20_204
.LBB20_201:
	movq	%r13, 80(%rsp)
	movq	%r12, 72(%rsp)
	movq	%r11, 56(%rsp)
	movq	%rdi, 8(%rsp)
	movq	%rdx, %r13
	movq	%rcx, %r12
	leaq	16(%rsp), %rdi
	movq	%r8, %rdx
	movl	$2, %ecx
	callq	_RNvNtNtNtCs00000000000_7pkcs1_c6proved8der_core5split14split_unlikely
	movq	16(%rsp), %rsi
	testq	%rsi, %rsi
	je	.LBB20_222
	movq	24(%rsp), %rax
	movq	32(%rsp), %r10
	movq	40(%rsp), %r9
	movq	%r12, %rcx
	movq	%r13, %rdx
	movq	8(%rsp), %rdi
	movq	56(%rsp), %r11
	movq	72(%rsp), %r12
	movq	80(%rsp), %r13
.LBB20_203:
	testq	%rax, %rax
	je	.LBB20_45
.LBB20_204:
	cmpb	$0, (%rsi)
	je	.LBB20_207
	movq	%rax, 96(%rsp)
	jns	.LBB20_212
	jmp	.LBB20_46
.LBB20_207:
	decq	%rax
	movq	%rax, 96(%rsp)
	je	.LBB20_211
	movl	$5, %eax
	cmpb	$0, 1(%rsi)
	jns	.LBB20_275
	incq	%rsi
	jmp	.LBB20_212
.LBB20_211:
	movl	$1, %eax
	movq	%rax, 96(%rsp)
.LBB20_212:
	movq	%r9, %r8
	cmpq	$2, %r9
	movq	%rsi, 88(%rsp)
	jb	.LBB20_229
	cmpb	$2, (%r10)
	jne	.LBB20_229
	leaq	2(%r10), %rax
	movq	%rax, 64(%rsp)
	leaq	-2(%r8), %rax
	movsbq	1(%r10), %r9
	testq	%r9, %r9
	js	.LBB20_217
	subq	%r9, %rax
	movq	%rax, 48(%rsp)
	jb	.LBB20_229
	movq	64(%rsp), %rax
	leaq	(%rax,%r9), %rsi
	jmp	.LBB20_231
.LBB20_217:
	movq	%r9, 56(%rsp)
	cmpb	$-126, %r9b
	jne	.LBB20_223
	cmpq	$1, %rax
	jbe	.LBB20_229
	movzbl	2(%r10), %eax
	testq	%rax, %rax
	je	.LBB20_229
	leaq	-4(%r8), %r9
	movq	%r9, 48(%rsp)
	shll	$8, %eax
	movzbl	3(%r10), %r9d
	orq	%rax, %r9
	subq	%r9, 48(%rsp)
	jb	.LBB20_229
	addq	$4, %r10
	jmp	.LBB20_228
.LBB20_222:
	movzbl	24(%rsp), %ecx
	leal	-17(%rcx), %eax
	movzbl	%al, %eax
	leaq	1(%rax), %rdx
	xorl	%esi, %esi
	cmpb	$3, %al
	cmovbq	%rdx, %rsi
	movl	$18, %eax
	leaq	.LJTI20_0(%rip), %rdx
	movslq	(%rdx,%rsi,4), %rsi
	addq	%rdx, %rsi
	notrack	jmpq	*%rsi
.LBB20_223:
	testq	%rax, %rax
	movq	56(%rsp), %rax
	je	.LBB20_229
	cmpb	$-127, %al
	jne	.LBB20_229
	movq	64(%rsp), %rax
	movzbl	(%rax), %r9d
	testb	%r9b, %r9b
	jns	.LBB20_229
	leaq	-3(%r8), %rax
	subq	%r9, %rax
	movq	%rax, 48(%rsp)
	jb	.LBB20_229
	addq	$3, %r10
.LBB20_228:
	leaq	(%r10,%r9), %rsi
	movq	%r10, 64(%rsp)
	jmp	.LBB20_232
.LBB20_229:
	movq	%r13, 80(%rsp)
	movq	%r12, 72(%rsp)
	movq	%r11, 56(%rsp)
	movq	%rdi, 8(%rsp)
	movq	%rdx, %r13
	movq	%rcx, %r12
	leaq	16(%rsp), %rdi
	movq	%r10, %rsi
	movq	%r8, %rdx
	movl	$2, %ecx
	callq	_RNvNtNtNtCs00000000000_7pkcs1_c6proved8der_core5split14split_unlikely
	movq	16(%rsp), %rax
	movq	%rax, 64(%rsp)
	testq	%rax, %rax
	je	.LBB20_250
	movq	24(%rsp), %r9
	movq	32(%rsp), %rsi
	movq	40(%rsp), %rax
	movq	%rax, 48(%rsp)
	movq	%r12, %rcx
	movq	%r13, %rdx
	movq	8(%rsp), %rdi
	movq	56(%rsp), %r11
	movq	72(%rsp), %r12
	movq	80(%rsp), %r13
.LBB20_231:
	testq	%r9, %r9
	je	.LBB20_45
.LBB20_232:
	movq	%r13, 80(%rsp)
	movq	%r12, 72(%rsp)
	movq	64(%rsp), %rax
	cmpb	$0, (%rax)
	movq	%rdx, 120(%rsp)
	movq	%rcx, 112(%rsp)
	movq	%r11, %r13
	movq	%rdi, %r12
	je	.LBB20_235
	jns	.LBB20_240
.LBB20_46:
	movl	$14, %eax
	jmp	.LBB20_275
.LBB20_45:
	movl	$4, %eax
.LBB20_275:
	addq	$152, %rsp
	.cfi_def_cfa_offset 56
	popq	%rbx
	.cfi_def_cfa_offset 48
	popq	%r12
	.cfi_def_cfa_offset 40
	popq	%r13
	.cfi_def_cfa_offset 32
	popq	%r14
	.cfi_def_cfa_offset 24
	popq	%r15
	.cfi_def_cfa_offset 16
	popq	%rbp
	.cfi_def_cfa_offset 8
	retq
.LBB20_235:
	.cfi_def_cfa_offset 208
	decq	%r9
	je	.LBB20_239
	movl	$5, %eax
	movq	64(%rsp), %rcx
	cmpb	$0, 1(%rcx)
	jns	.LBB20_275
	incq	64(%rsp)
	jmp	.LBB20_240
.LBB20_239:
	movl	$1, %r9d
.LBB20_240:
	movq	%r9, 56(%rsp)
	movq	48(%rsp), %r8
	cmpq	$2, %r8
	jb	.LBB20_256
	cmpb	$2, (%rsi)
	jne	.LBB20_256
	leaq	2(%rsi), %rax
	movq	%rax, 8(%rsp)
	leaq	-2(%r8), %rdx
	movsbq	1(%rsi), %rcx
	testq	%rcx, %rcx
	js	.LBB20_245
	subq	%rcx, %rdx
	jb	.LBB20_256
	movq	8(%rsp), %rax
	leaq	(%rax,%rcx), %r8
	jmp	.LBB20_258
.LBB20_245:
	cmpb	$-126, %cl
	jne	.LBB20_251
	cmpq	$1, %rdx
	movq	48(%rsp), %r8
	jbe	.LBB20_256
	movzbl	2(%rsi), %eax
	testq	%rax, %rax
	je	.LBB20_256
	leaq	-4(%r8), %rdx
	shll	$8, %eax
	movzbl	3(%rsi), %ecx
	orq	%rax, %rcx
	subq	%rcx, %rdx
	jb	.LBB20_256
	addq	$4, %rsi
	movq	%rcx, 48(%rsp)
	leaq	(%rsi,%rcx), %r8
	movq	%rsi, 8(%rsp)
	jmp	.LBB20_259
.LBB20_250:
	movzbl	24(%rsp), %ecx
	leal	-17(%rcx), %eax
	movzbl	%al, %eax
	leaq	1(%rax), %rdx
	xorl	%esi, %esi
	cmpb	$3, %al
	cmovbq	%rdx, %rsi
	movl	$18, %eax
	leaq	.LJTI20_0(%rip), %rdx
	movslq	(%rdx,%rsi,4), %rsi
	addq	%rdx, %rsi
	notrack	jmpq	*%rsi
.LBB20_251:
	testq	%rdx, %rdx
	movq	48(%rsp), %r8
	je	.LBB20_256
	movq	%rcx, %rax
	cmpb	$-127, %al
	jne	.LBB20_256
	movq	8(%rsp), %rax
	movzbl	(%rax), %eax
	testb	%al, %al
	jns	.LBB20_256
	leaq	-3(%r8), %rdx
	subq	%rax, %rdx
	jb	.LBB20_256
	addq	$3, %rsi
	movq	%rax, 48(%rsp)
	leaq	(%rsi,%rax), %r8
	movq	%rsi, 8(%rsp)
	jmp	.LBB20_259
.LBB20_256:
	leaq	16(%rsp), %rdi
	movq	%r8, %rdx
	movl	$2, %ecx
	callq	_RNvNtNtNtCs00000000000_7pkcs1_c6proved8der_core5split14split_unlikely
	movq	16(%rsp), %rax
	movq	%rax, 8(%rsp)
	testq	%rax, %rax
	je	.LBB20_272
	movq	24(%rsp), %rcx
	movq	32(%rsp), %r8
	movq	40(%rsp), %rdx
.LBB20_258:
	movl	$4, %eax
	movq	%rcx, 48(%rsp)
	testq	%rcx, %rcx
	je	.LBB20_275
.LBB20_259:
	movq	8(%rsp), %rax
	cmpb	$0, (%rax)
	je	.LBB20_261
	movl	$14, %eax
	jns	.LBB20_265
	jmp	.LBB20_275
.LBB20_261:
	decq	48(%rsp)
	je	.LBB20_264
	movl	$5, %eax
	movq	8(%rsp), %rcx
	cmpb	$0, 1(%rcx)
	jns	.LBB20_275
	incq	8(%rsp)
	jmp	.LBB20_265
.LBB20_264:
	movl	$1, %eax
	movq	%rax, 48(%rsp)
.LBB20_265:
	testq	%rdx, %rdx
	je	.LBB20_267
	movzbl	%bpl, %ecx
	andl	$1, %ecx
	leaq	16(%rsp), %rdi
	movq	%r8, %rsi
	jmp	.LBB20_269
.LBB20_267:
	testb	$1, %bpl
	je	.LBB20_276
	leaq	16(%rsp), %rdi
	movq	%r8, %rsi
	xorl	%edx, %edx
	movl	$1, %ecx
.LBB20_269:
	callq	_RNvNtNtNtCs00000000000_7pkcs1_c6proved5pkcs110viewed_key9read_list
	cmpb	$0, 16(%rsp)
	je	.LBB20_271
	movzbl	17(%rsp), %ecx
	leal	-17(%rcx), %eax
	movzbl	%al, %eax
	leaq	1(%rax), %rdx
	xorl	%esi, %esi
	cmpb	$3, %al
	cmovbq	%rdx, %rsi
	movl	$18, %eax
	leaq	.LJTI20_0(%rip), %rdx
	movslq	(%rdx,%rsi,4), %rsi
	addq	%rdx, %rsi
	notrack	jmpq	*%rsi
.LBB20_271:
	movq	24(%rsp), %rcx
	jmp	.LBB20_277
.LBB20_272:
	movzbl	24(%rsp), %ecx
	leal	-17(%rcx), %eax
	movzbl	%al, %eax
	leaq	1(%rax), %rdx
	xorl	%esi, %esi
	cmpb	$3, %al
	cmovbq	%rdx, %rsi
	movl	$18, %eax
	leaq	.LJTI20_0(%rip), %rdx
	movslq	(%rdx,%rsi,4), %rsi
	addq	%rdx, %rsi
	notrack	jmpq	*%rsi
.LBB20_273:
	movl	$19, %eax
	jmp	.LBB20_275
.LBB20_274:
	movl	$20, %eax
	jmp	.LBB20_275
.LBB20_276:
	xorl	%ecx, %ecx
.LBB20_277:
	movl	$13, %eax
	testq	%rbx, %rbx
	movq	112(%rsp), %rdx
	movq	120(%rsp), %rsi
	jne	.LBB20_275
	movq	%r15, (%rsi)
	movq	%r14, 8(%rsi)
	movq	%r13, 16(%rsi)
	movq	%r12, 24(%rsi)
	movq	72(%rsp), %rax
	movq	%rax, 32(%rsi)
	movq	144(%rsp), %rax
	movq	%rax, 40(%rsi)
	movq	80(%rsp), %rax
	movq	%rax, 48(%rsi)
	movq	136(%rsp), %rax
	movq	%rax, 56(%rsi)
	movq	128(%rsp), %rax
	movq	%rax, 64(%rsi)
	movq	104(%rsp), %rax
	movq	%rax, 72(%rsi)
	movq	88(%rsp), %rax
	movq	%rax, 80(%rsi)
	movq	96(%rsp), %rax
	movq	%rax, 88(%rsi)
	movq	64(%rsp), %rax
	movq	%rax, 96(%rsi)
	movq	56(%rsp), %rax
	movq	%rax, 104(%rsi)
	movq	32(%rsp), %rax
	testq	%rcx, %rcx
	movq	8(%rsp), %rdi
	movq	%rdi, 112(%rsi)
	movq	40(%rsp), %rdi
	cmoveq	%rcx, %rdi
	movq	48(%rsp), %r8
	movq	%r8, 120(%rsi)
	leaq	_RNvNtCs00000000000_7pkcs1_c10rattle_std8AN_OCTET(%rip), %r8
	cmovneq	%rcx, %r8
	cmoveq	%rcx, %rax
	movq	%rdi, 128(%rsi)
	movq	%r8, (%rdx)
	movq	%rax, 8(%rdx)
	xorl	%eax, %eax
	jmp	.LBB20_275
.Lfunc_end20:
	.size	pkcs1_c_private_key_decode, .Lfunc_end20-pkcs1_c_private_key_decode
	.cfi_endproc
	.section	.rodata.pkcs1_c_private_key_decode,"a",@progbits
	.p2align	2, 0x0
.LJTI20_0:
	.long	.LBB20_50-.LJTI20_0
	.long	.LBB20_275-.LJTI20_0
	.long	.LBB20_273-.LJTI20_0
	.long	.LBB20_274-.LJTI20_0

	.section	.text.pkcs1_c_other_primes,"ax",@progbits
	.globl	pkcs1_c_other_primes
	.p2align	4, 0x90
	.type	pkcs1_c_other_primes,@function
pkcs1_c_other_primes:
	.cfi_startproc
	endbr64
	pushq	%rbp
	.cfi_def_cfa_offset 16
	pushq	%r15
	.cfi_def_cfa_offset 24
	pushq	%r14
	.cfi_def_cfa_offset 32
	pushq	%r13
	.cfi_def_cfa_offset 40
	pushq	%r12
	.cfi_def_cfa_offset 48
	pushq	%rbx
	.cfi_def_cfa_offset 56
	subq	$56, %rsp
	.cfi_def_cfa_offset 112
	.cfi_offset %rbx, -56
	.cfi_offset %r12, -48
	.cfi_offset %r13, -40
	.cfi_offset %r14, -32
	.cfi_offset %r15, -24
	.cfi_offset %rbp, -16
	movq	%rdx, %rbp
	movq	%rsi, %rax
	shrq	$32, %rax
	setne	%al
	testq	%rcx, %rcx
	sete	%dl
	orb	%al, %dl
	jne	.LBB21_95
	movq	%rsi, %r10
	movq	%rdi, %r9
	addq	$40, %rbp
.LBB21_2:
	cmpq	$2, %r10
	jb	.LBB21_18
	cmpb	$48, (%r9)
	jne	.LBB21_18
	leaq	2(%r9), %rsi
	leaq	-2(%r10), %rbx
	movsbq	1(%r9), %rdx
	testq	%rdx, %rdx
	js	.LBB21_5
	subq	%rdx, %rbx
	jb	.LBB21_18
	leaq	(%rsi,%rdx), %r9
	cmpq	$2, %rdx
	jb	.LBB21_36
.LBB21_21:
	cmpb	$2, (%rsi)
	je	.LBB21_22
	jmp	.LBB21_36
	.p2align	4, 0x90
.LBB21_5:
	cmpb	$-126, %dl
	jne	.LBB21_11
	cmpq	$1, %rbx
	jbe	.LBB21_18
	movzbl	2(%r9), %eax
	testq	%rax, %rax
	je	.LBB21_18
	leaq	-4(%r10), %rbx
	shll	$8, %eax
	movzbl	3(%r9), %edx
	orq	%rax, %rdx
	subq	%rdx, %rbx
	jb	.LBB21_18
	addq	$4, %r9
	jmp	.LBB21_10
.LBB21_11:
	testq	%rbx, %rbx
	je	.LBB21_18
	cmpb	$-127, %dl
	jne	.LBB21_18
	movzbl	(%rsi), %edx
	testb	%dl, %dl
	jns	.LBB21_18
	leaq	-3(%r10), %rbx
	subq	%rdx, %rbx
	jb	.LBB21_18
	addq	$3, %r9
.LBB21_10:
	movq	%r9, %rsi
	addq	%rdx, %r9
	cmpb	$2, (%rsi)
	jne	.LBB21_36
.LBB21_22:
	leaq	2(%rsi), %r13
	leaq	-2(%rdx), %rax
	movsbq	1(%rsi), %r11
	testq	%r11, %r11
	js	.LBB21_23
	subq	%r11, %rax
	jb	.LBB21_36
	leaq	(%r11,%r13), %r8
	movq	%rbx, %r10
	testq	%r11, %r11
	je	.LBB21_95
.LBB21_39:
	cmpb	$0, (%r13)
	je	.LBB21_40
.LBB21_44:
	jns	.LBB21_45
	jmp	.LBB21_95
	.p2align	4, 0x90
.LBB21_23:
	cmpb	$-126, %r11b
	jne	.LBB21_31
	cmpq	$1, %rax
	jbe	.LBB21_36
	movzbl	2(%rsi), %edi
	testq	%rdi, %rdi
	je	.LBB21_36
	leaq	-4(%rdx), %rax
	shll	$8, %edi
	movzbl	3(%rsi), %r11d
	orq	%rdi, %r11
	subq	%r11, %rax
	jb	.LBB21_36
	addq	$4, %rsi
	jmp	.LBB21_28
	.p2align	4, 0x90
.LBB21_18:
	movq	%rcx, %r15
	leaq	8(%rsp), %rdi
	movq	%r9, %rsi
	movq	%r10, %rdx
	movl	$48, %ecx
	callq	_RNvNtNtNtCs00000000000_7pkcs1_c6proved8der_core5split14split_unlikely
	movq	8(%rsp), %rsi
	testq	%rsi, %rsi
	je	.LBB21_95
	movq	16(%rsp), %rdx
	movq	24(%rsp), %r9
	movq	32(%rsp), %rbx
	movq	%r15, %rcx
	cmpq	$2, %rdx
	jae	.LBB21_21
	jmp	.LBB21_36
.LBB21_31:
	testq	%rax, %rax
	je	.LBB21_36
	cmpb	$-127, %r11b
	jne	.LBB21_36
	movzbl	(%r13), %r11d
	testb	%r11b, %r11b
	jns	.LBB21_36
	leaq	-3(%rdx), %rax
	subq	%r11, %rax
	jb	.LBB21_36
	addq	$3, %rsi
.LBB21_28:
	leaq	(%rsi,%r11), %r8
	movq	%rsi, %r13
	movq	%rbx, %r10
	cmpb	$0, (%r13)
	jne	.LBB21_44
.LBB21_40:
	decq	%r11
	je	.LBB21_41
	cmpb	$0, 1(%r13)
	jns	.LBB21_95
	incq	%r13
.LBB21_45:
	cmpq	$2, %rax
	jb	.LBB21_61
.LBB21_46:
	cmpb	$2, (%r8)
	jne	.LBB21_61
	leaq	2(%r8), %r15
	leaq	-2(%rax), %rdx
	movsbq	1(%r8), %rbx
	testq	%rbx, %rbx
	js	.LBB21_48
	subq	%rbx, %rdx
	jb	.LBB21_61
	leaq	(%r15,%rbx), %rsi
	testq	%rbx, %rbx
	je	.LBB21_95
.LBB21_64:
	cmpb	$0, (%r15)
	je	.LBB21_65
.LBB21_69:
	jns	.LBB21_70
	jmp	.LBB21_95
	.p2align	4, 0x90
.LBB21_48:
	cmpb	$-126, %bl
	jne	.LBB21_54
	cmpq	$1, %rdx
	jbe	.LBB21_61
	movzbl	2(%r8), %esi
	testq	%rsi, %rsi
	je	.LBB21_61
	leaq	-4(%rax), %rdx
	shll	$8, %esi
	movzbl	3(%r8), %ebx
	orq	%rsi, %rbx
	subq	%rbx, %rdx
	jb	.LBB21_61
	addq	$4, %r8
	jmp	.LBB21_53
.LBB21_36:
	movq	%r9, %r15
	movq	%rcx, %r12
	leaq	8(%rsp), %rdi
	movl	$2, %ecx
	callq	_RNvNtNtNtCs00000000000_7pkcs1_c6proved8der_core5split14split_unlikely
	movq	8(%rsp), %r13
	testq	%r13, %r13
	je	.LBB21_95
	movq	16(%rsp), %r11
	movq	24(%rsp), %r8
	movq	32(%rsp), %rax
	movq	%r12, %rcx
	movq	%r15, %r9
	movq	%rbx, %r10
	testq	%r11, %r11
	jne	.LBB21_39
	jmp	.LBB21_95
.LBB21_54:
	testq	%rdx, %rdx
	je	.LBB21_61
	cmpb	$-127, %bl
	jne	.LBB21_61
	movzbl	(%r15), %ebx
	testb	%bl, %bl
	jns	.LBB21_61
	leaq	-3(%rax), %rdx
	subq	%rbx, %rdx
	jb	.LBB21_61
	addq	$3, %r8
.LBB21_53:
	leaq	(%r8,%rbx), %rsi
	movq	%r8, %r15
	cmpb	$0, (%r15)
	jne	.LBB21_69
.LBB21_65:
	decq	%rbx
	je	.LBB21_66
	cmpb	$0, 1(%r15)
	jns	.LBB21_95
	incq	%r15
.LBB21_70:
	cmpq	$2, %rdx
	jb	.LBB21_84
.LBB21_71:
	cmpb	$2, (%rsi)
	jne	.LBB21_84
	leaq	2(%rsi), %rdi
	leaq	-2(%rdx), %r8
	movsbq	1(%rsi), %rax
	testq	%rax, %rax
	js	.LBB21_73
	subq	%rax, %r8
	jb	.LBB21_84
	testq	%rax, %rax
	jne	.LBB21_87
	jmp	.LBB21_95
	.p2align	4, 0x90
.LBB21_73:
	cmpb	$-126, %al
	jne	.LBB21_78
	cmpq	$1, %r8
	jbe	.LBB21_84
	movzbl	2(%rsi), %edi
	testq	%rdi, %rdi
	je	.LBB21_84
	leaq	-4(%rdx), %r8
	shll	$8, %edi
	movzbl	3(%rsi), %eax
	orq	%rdi, %rax
	subq	%rax, %r8
	jb	.LBB21_84
	addq	$4, %rsi
	movq	%rsi, %rdi
	jmp	.LBB21_87
.LBB21_78:
	testq	%r8, %r8
	je	.LBB21_84
	cmpb	$-127, %al
	jne	.LBB21_84
	movzbl	(%rdi), %eax
	testb	%al, %al
	jns	.LBB21_84
	leaq	-3(%rdx), %r8
	subq	%rax, %r8
	jb	.LBB21_84
	addq	$3, %rsi
	movq	%rsi, %rdi
	jmp	.LBB21_87
.LBB21_41:
	movl	$1, %r11d
	cmpq	$2, %rax
	jae	.LBB21_46
.LBB21_61:
	movq	%r13, 40(%rsp)
	movq	%r11, %r12
	movq	%r10, %r14
	movq	%r9, %r13
	movq	%rcx, %r15
	leaq	8(%rsp), %rdi
	movq	%r8, %rsi
	movq	%rax, %rdx
	movl	$2, %ecx
	callq	_RNvNtNtNtCs00000000000_7pkcs1_c6proved8der_core5split14split_unlikely
	movq	8(%rsp), %rcx
	testq	%rcx, %rcx
	je	.LBB21_95
	movq	%rcx, %rax
	movq	16(%rsp), %rbx
	movq	24(%rsp), %rsi
	movq	32(%rsp), %rdx
	movq	%r15, %rcx
	movq	%r13, %r9
	movq	%r14, %r10
	movq	%r12, %r11
	movq	40(%rsp), %r13
	movq	%rax, %r15
	testq	%rbx, %rbx
	jne	.LBB21_64
	jmp	.LBB21_95
.LBB21_66:
	movl	$1, %ebx
	cmpq	$2, %rdx
	jae	.LBB21_71
.LBB21_84:
	movq	%r15, 48(%rsp)
	movq	%r13, 40(%rsp)
	movq	%r11, %r12
	movq	%r10, %r14
	movq	%r9, %r13
	movq	%rcx, %r15
	leaq	8(%rsp), %rdi
	movl	$2, %ecx
	callq	_RNvNtNtNtCs00000000000_7pkcs1_c6proved8der_core5split14split_unlikely
	movq	8(%rsp), %rdi
	testq	%rdi, %rdi
	je	.LBB21_95
	movq	16(%rsp), %rax
	movq	32(%rsp), %r8
	movq	%r15, %rcx
	movq	%r13, %r9
	movq	%r14, %r10
	movq	%r12, %r11
	movq	40(%rsp), %r13
	movq	48(%rsp), %r15
	testq	%rax, %rax
	je	.LBB21_95
.LBB21_87:
	cmpb	$0, (%rdi)
	je	.LBB21_88
	jns	.LBB21_93
	jmp	.LBB21_95
	.p2align	4, 0x90
.LBB21_88:
	decq	%rax
	je	.LBB21_89
	cmpb	$0, 1(%rdi)
	jns	.LBB21_95
	incq	%rdi
.LBB21_93:
	testq	%r8, %r8
	jne	.LBB21_95
.LBB21_94:
	movq	%r13, -40(%rbp)
	movq	%r11, -32(%rbp)
	movq	%r15, -24(%rbp)
	movq	%rbx, -16(%rbp)
	movq	%rdi, -8(%rbp)
	movq	%rax, (%rbp)
	addq	$48, %rbp
	decq	%rcx
	jne	.LBB21_2
	jmp	.LBB21_95
.LBB21_89:
	movl	$1, %eax
	testq	%r8, %r8
	je	.LBB21_94
.LBB21_95:
	addq	$56, %rsp
	.cfi_def_cfa_offset 56
	popq	%rbx
	.cfi_def_cfa_offset 48
	popq	%r12
	.cfi_def_cfa_offset 40
	popq	%r13
	.cfi_def_cfa_offset 32
	popq	%r14
	.cfi_def_cfa_offset 24
	popq	%r15
	.cfi_def_cfa_offset 16
	popq	%rbp
	.cfi_def_cfa_offset 8
	retq
.Lfunc_end21:
	.size	pkcs1_c_other_primes, .Lfunc_end21-pkcs1_c_other_primes
	.cfi_endproc

	.section	.text.pkcs1_c_private_key_encode,"ax",@progbits
	.globl	pkcs1_c_private_key_encode
	.p2align	4, 0x90
	.type	pkcs1_c_private_key_encode,@function
pkcs1_c_private_key_encode:
	.cfi_startproc
	endbr64
	pushq	%rbp
	.cfi_def_cfa_offset 16
	pushq	%r15
	.cfi_def_cfa_offset 24
	pushq	%r14
	.cfi_def_cfa_offset 32
	pushq	%r13
	.cfi_def_cfa_offset 40
	pushq	%r12
	.cfi_def_cfa_offset 48
	pushq	%rbx
	.cfi_def_cfa_offset 56
	subq	$184, %rsp
	.cfi_def_cfa_offset 240
	.cfi_offset %rbx, -56
	.cfi_offset %r12, -48
	.cfi_offset %r13, -40
	.cfi_offset %r14, -32
	.cfi_offset %r15, -24
	.cfi_offset %rbp, -16
	movq	%r9, 160(%rsp)
	movq	%r8, 80(%rsp)
	movq	%rsi, 88(%rsp)
	movl	$21, %eax
	cmpq	%rdx, 128(%rdi)
	jne	.LBB22_236
	movq	%rdx, %r9
	movq	(%rdi), %rbx
	movq	8(%rdi), %r14
	cmpq	$2, %r14
	jb	.LBB22_7
	leaq	(%rbx,%r14), %rax
	decq	%rax
	.p2align	4, 0x90
.LBB22_3:
	cmpb	$0, (%rbx)
	jne	.LBB22_9
	decq	%r14
	incq	%rbx
	cmpq	$1, %r14
	ja	.LBB22_3
	movl	$1, %r14d
	movq	%rax, %rbx
	testq	%rax, %rax
	jne	.LBB22_10
	jmp	.LBB22_6
.LBB22_7:
	testq	%r14, %r14
	movl	$1, %r14d
	jne	.LBB22_10
	jmp	.LBB22_8
.LBB22_9:
	movq	%r14, %rax
	shrq	$32, %rax
	movl	$8, %eax
	jne	.LBB22_236
.LBB22_10:
	movq	16(%rdi), %r15
	movq	24(%rdi), %r12
	cmpq	$2, %r12
	jb	.LBB22_16
	leaq	(%r15,%r12), %rax
	decq	%rax
	.p2align	4, 0x90
.LBB22_12:
	cmpb	$0, (%r15)
	jne	.LBB22_18
	decq	%r12
	incq	%r15
	cmpq	$1, %r12
	ja	.LBB22_12
	movl	$1, %r12d
	movq	%rax, %r15
	testq	%rax, %rax
	jne	.LBB22_19
	jmp	.LBB22_6
.LBB22_16:
	testq	%r12, %r12
	movl	$1, %r12d
	jne	.LBB22_19
	jmp	.LBB22_8
.LBB22_18:
	movq	%r12, %rax
	shrq	$32, %rax
	movl	$8, %eax
	jne	.LBB22_236
.LBB22_19:
	movq	32(%rdi), %rdx
	movq	40(%rdi), %r13
	cmpq	$2, %r13
	jb	.LBB22_25
	leaq	(%rdx,%r13), %rax
	decq	%rax
	.p2align	4, 0x90
.LBB22_21:
	cmpb	$0, (%rdx)
	jne	.LBB22_27
	decq	%r13
	incq	%rdx
	cmpq	$1, %r13
	ja	.LBB22_21
	movl	$1, %r13d
	movq	%rax, %rdx
	testq	%rax, %rax
	jne	.LBB22_28
	jmp	.LBB22_6
.LBB22_25:
	testq	%r13, %r13
	movl	$1, %r13d
	jne	.LBB22_28
	jmp	.LBB22_8
.LBB22_27:
	movq	%r13, %rax
	shrq	$32, %rax
	movl	$8, %eax
	jne	.LBB22_236
.LBB22_28:
	movq	48(%rdi), %rbp
	movq	56(%rdi), %r11
	cmpq	$2, %r11
	jb	.LBB22_34
	leaq	(%r11,%rbp), %rax
	decq	%rax
	.p2align	4, 0x90
.LBB22_30:
	cmpb	$0, (%rbp)
	jne	.LBB22_36
	decq	%r11
	incq	%rbp
	cmpq	$1, %r11
	ja	.LBB22_30
	movl	$1, %r11d
	movq	%rax, %rbp
	testq	%rax, %rax
	jne	.LBB22_37
	jmp	.LBB22_6
.LBB22_34:
	testq	%r11, %r11
	movl	$1, %r11d
	jne	.LBB22_37
	jmp	.LBB22_8
.LBB22_36:
	movq	%r11, %rax
	shrq	$32, %rax
	movl	$8, %eax
	jne	.LBB22_236
.LBB22_37:
	movq	64(%rdi), %rsi
	movq	72(%rdi), %r10
	cmpq	$2, %r10
	jb	.LBB22_43
	leaq	(%rsi,%r10), %rax
	decq	%rax
	.p2align	4, 0x90
.LBB22_39:
	cmpb	$0, (%rsi)
	jne	.LBB22_45
	decq	%r10
	incq	%rsi
	cmpq	$1, %r10
	ja	.LBB22_39
	movl	$1, %r10d
	movq	%rax, 144(%rsp)
	testq	%rax, %rax
	jne	.LBB22_46
	jmp	.LBB22_6
.LBB22_43:
	movq	%rsi, 144(%rsp)
	testq	%r10, %r10
	movl	$1, %r10d
	jne	.LBB22_46
	jmp	.LBB22_8
.LBB22_45:
	movq	%rsi, 144(%rsp)
	movq	%r10, %rax
	shrq	$32, %rax
	movl	$8, %eax
	jne	.LBB22_236
.LBB22_46:
	movq	80(%rdi), %rsi
	movq	88(%rdi), %rax
	cmpq	$2, %rax
	jb	.LBB22_52
	movq	%rax, 48(%rsp)
	leaq	(%rsi,%rax), %r8
	decq	%r8
	.p2align	4, 0x90
.LBB22_48:
	cmpb	$0, (%rsi)
	jne	.LBB22_54
	movq	48(%rsp), %rax
	decq	%rax
	incq	%rsi
	movq	%rax, 48(%rsp)
	cmpq	$1, %rax
	ja	.LBB22_48
	movl	$1, %esi
	movq	%rsi, 48(%rsp)
	movq	%r8, 136(%rsp)
	testq	%r8, %r8
	jne	.LBB22_55
	jmp	.LBB22_6
.LBB22_52:
	movq	%rsi, 136(%rsp)
	testq	%rax, %rax
	movl	$1, %eax
	movq	%rax, 48(%rsp)
	jne	.LBB22_55
	jmp	.LBB22_8
.LBB22_54:
	movq	%rsi, 136(%rsp)
	movq	48(%rsp), %rax
	shrq	$32, %rax
	movl	$8, %eax
	jne	.LBB22_236
.LBB22_55:
	movq	96(%rdi), %rsi
	movq	104(%rdi), %r8
	cmpq	$2, %r8
	jb	.LBB22_61
	leaq	(%rsi,%r8), %rax
	decq	%rax
.LBB22_57:
	cmpb	$0, (%rsi)
	jne	.LBB22_63
	decq	%r8
	incq	%rsi
	cmpq	$1, %r8
	ja	.LBB22_57
	movl	$1, %esi
	movq	%rsi, 128(%rsp)
	movq	%rax, 96(%rsp)
	testq	%rax, %rax
	jne	.LBB22_64
	jmp	.LBB22_6
.LBB22_61:
	movq	%rsi, 96(%rsp)
	testq	%r8, %r8
	movl	$1, %eax
	movq	%rax, 128(%rsp)
	jne	.LBB22_64
	jmp	.LBB22_8
.LBB22_63:
	movq	%rsi, 96(%rsp)
	movq	%r8, 128(%rsp)
	movq	%r8, %rax
	shrq	$32, %rax
	movl	$8, %eax
	jne	.LBB22_236
.LBB22_64:
	movq	112(%rdi), %rsi
	movq	120(%rdi), %rdi
	cmpq	$2, %rdi
	jb	.LBB22_70
	leaq	(%rsi,%rdi), %rax
	decq	%rax
.LBB22_66:
	cmpb	$0, (%rsi)
	jne	.LBB22_72
	decq	%rdi
	incq	%rsi
	cmpq	$1, %rdi
	ja	.LBB22_66
	movl	$1, %esi
	movq	%rsi, 120(%rsp)
	movq	%rax, 112(%rsp)
	testq	%rax, %rax
	jne	.LBB22_73
.LBB22_6:
	movl	$2, %eax
	jmp	.LBB22_236
.LBB22_70:
	movq	%rsi, 112(%rsp)
	testq	%rdi, %rdi
	movl	$1, %eax
	movq	%rax, 120(%rsp)
	jne	.LBB22_73
.LBB22_8:
	movl	$4, %eax
.LBB22_236:
	addq	$184, %rsp
	.cfi_def_cfa_offset 56
	popq	%rbx
	.cfi_def_cfa_offset 48
	popq	%r12
	.cfi_def_cfa_offset 40
	popq	%r13
	.cfi_def_cfa_offset 32
	popq	%r14
	.cfi_def_cfa_offset 24
	popq	%r15
	.cfi_def_cfa_offset 16
	popq	%rbp
	.cfi_def_cfa_offset 8
	retq
.LBB22_72:
	.cfi_def_cfa_offset 240
	movq	%rsi, 112(%rsp)
	movq	%rdi, 120(%rsp)
	movq	%rdi, %rax
	shrq	$32, %rax
	movl	$8, %eax
	jne	.LBB22_236
.LBB22_73:
	movq	%rdx, 40(%rsp)
	testq	%r9, %r9
	movq	%rcx, 8(%rsp)
	movq	%r13, 56(%rsp)
	movq	%rbp, 72(%rsp)
	movq	%r11, 24(%rsp)
	movq	%r10, 32(%rsp)
	je	.LBB22_98
	leaq	(%r9,%r9,2), %rax
	shlq	$4, %rax
	movq	88(%rsp), %rdx
	addq	%rdx, %rax
	jmp	.LBB22_77
.LBB22_75:
	testq	%rsi, %rsi
	je	.LBB22_8
.LBB22_76:
	addq	$48, %rdx
	cmpq	%rax, %rdx
	je	.LBB22_104
.LBB22_77:
	movq	8(%rdx), %rsi
	cmpq	$2, %rsi
	jb	.LBB22_82
	movq	(%rdx), %r10
	leaq	(%r10,%rsi), %rdi
	decq	%rdi
	.p2align	4, 0x90
.LBB22_79:
	cmpb	$0, (%r10)
	jne	.LBB22_83
	decq	%rsi
	incq	%r10
	cmpq	$1, %rsi
	ja	.LBB22_79
	testq	%rdi, %rdi
	jne	.LBB22_84
	jmp	.LBB22_6
.LBB22_82:
	testq	%rsi, %rsi
	jne	.LBB22_84
	jmp	.LBB22_8
.LBB22_83:
	shrq	$32, %rsi
	jne	.LBB22_176
.LBB22_84:
	movq	24(%rdx), %rsi
	cmpq	$2, %rsi
	jb	.LBB22_89
	movq	16(%rdx), %r10
	leaq	(%r10,%rsi), %rdi
	decq	%rdi
	.p2align	4, 0x90
.LBB22_86:
	cmpb	$0, (%r10)
	jne	.LBB22_90
	decq	%rsi
	incq	%r10
	cmpq	$1, %rsi
	ja	.LBB22_86
	testq	%rdi, %rdi
	jne	.LBB22_91
	jmp	.LBB22_6
.LBB22_89:
	testq	%rsi, %rsi
	jne	.LBB22_91
	jmp	.LBB22_8
.LBB22_90:
	shrq	$32, %rsi
	jne	.LBB22_176
.LBB22_91:
	movq	40(%rdx), %rsi
	cmpq	$2, %rsi
	jb	.LBB22_75
	movq	32(%rdx), %r10
	leaq	(%r10,%rsi), %rdi
	decq	%rdi
	.p2align	4, 0x90
.LBB22_93:
	cmpb	$0, (%r10)
	jne	.LBB22_96
	decq	%rsi
	incq	%r10
	cmpq	$1, %rsi
	ja	.LBB22_93
	testq	%rdi, %rdi
	jne	.LBB22_76
	jmp	.LBB22_6
.LBB22_96:
	shrq	$32, %rsi
	je	.LBB22_76
.LBB22_176:
	movl	$8, %eax
	jmp	.LBB22_236
.LBB22_98:
	movq	$0, 104(%rsp)
	movq	$0, 88(%rsp)
	xorl	%edi, %edi
.LBB22_99:
	movq	96(%rsp), %r8
.LBB22_100:
	movq	%rdi, %rax
	addq	120(%rsp), %rax
	movq	$-1, %rcx
	cmovbq	%rcx, %rax
	movq	%rax, %rsi
	incq	%rsi
	cmoveq	%rcx, %rsi
	movq	112(%rsp), %rcx
	cmpb	$0, (%rcx)
	cmovnsq	%rax, %rsi
	xorl	%edx, %edx
	movq	%rdi, %rcx
	subq	%rdi, %rsi
	cmovaeq	%rsi, %rdx
	cmpq	$128, %rdx
	jae	.LBB22_102
	addq	$2, %rdx
	jmp	.LBB22_184
.LBB22_102:
	cmpq	$256, %rdx
	jae	.LBB22_167
	addq	$3, %rdx
	jmp	.LBB22_184
.LBB22_104:
	movq	$0, 64(%rsp)
	movq	$-1, %rcx
	movq	%r9, %rsi
	jmp	.LBB22_107
.LBB22_105:
	movq	56(%rsp), %r13
	movq	72(%rsp), %rbp
.LBB22_106:
	movq	24(%rsp), %r11
	movq	32(%rsp), %r10
	testq	%rsi, %rsi
	je	.LBB22_165
.LBB22_107:
	decq	%rsi
	leaq	(%rsi,%rsi,2), %r11
	shlq	$4, %r11
	movq	88(%rsp), %rax
	movq	(%rax,%r11), %r10
	movq	8(%rax,%r11), %rdi
	cmpq	$2, %rdi
	jb	.LBB22_112
	leaq	(%r10,%rdi), %rdx
	decq	%rdx
	.p2align	4, 0x90
.LBB22_109:
	cmpb	$0, (%r10)
	jne	.LBB22_113
	decq	%rdi
	incq	%r10
	cmpq	$1, %rdi
	ja	.LBB22_109
	movl	$1, %edi
	movq	%rdx, %r10
	testq	%rdx, %rdx
	jne	.LBB22_114
	jmp	.LBB22_106
.LBB22_112:
	testq	%rdi, %rdi
	movl	$1, %edi
	jne	.LBB22_114
	jmp	.LBB22_106
.LBB22_113:
	movq	%rdi, %rdx
	shrq	$32, %rdx
	jne	.LBB22_106
.LBB22_114:
	addq	88(%rsp), %r11
	movq	16(%r11), %rbp
	movq	24(%r11), %r13
	cmpq	$2, %r13
	jb	.LBB22_119
	leaq	-1(,%r13), %rdx
	addq	%rbp, %rdx
.LBB22_116:
	cmpb	$0, (%rbp)
	jne	.LBB22_120
	decq	%r13
	incq	%rbp
	cmpq	$1, %r13
	ja	.LBB22_116
	movl	$1, %r13d
	movq	%rdx, %rbp
	testq	%rdx, %rdx
	jne	.LBB22_121
	jmp	.LBB22_105
.LBB22_119:
	testq	%r13, %r13
	movl	$1, %r13d
	jne	.LBB22_121
	jmp	.LBB22_105
.LBB22_120:
	movq	%r13, %rdx
	shrq	$32, %rdx
	jne	.LBB22_105
.LBB22_121:
	movq	32(%r11), %rdx
	movq	40(%r11), %rax
	cmpq	$2, %rax
	jb	.LBB22_126
	leaq	(%rdx,%rax), %r8
	decq	%r8
.LBB22_123:
	cmpb	$0, (%rdx)
	jne	.LBB22_127
	decq	%rax
	incq	%rdx
	cmpq	$1, %rax
	ja	.LBB22_123
	movl	$1, %eax
	movq	%r8, %rdx
	testq	%r8, %r8
	jne	.LBB22_128
	jmp	.LBB22_105
.LBB22_126:
	testq	%rax, %rax
	movl	$1, %eax
	jne	.LBB22_128
	jmp	.LBB22_105
.LBB22_127:
	movq	%rax, %r11
	shrq	$32, %r11
	jne	.LBB22_105
.LBB22_128:
	movq	64(%rsp), %r11
	addq	%r11, %rax
	cmovbq	%rcx, %rax
	movq	$-1, %r8
	movq	%rax, %rcx
	incq	%rcx
	cmoveq	%r8, %rcx
	cmpb	$0, (%rdx)
	cmovnsq	%rax, %rcx
	subq	%r11, %rcx
	movl	$0, %r11d
	cmovaeq	%rcx, %r11
	cmpq	$128, %r11
	jae	.LBB22_130
	addq	$2, %r11
	movq	$-1, %rcx
	jmp	.LBB22_137
.LBB22_130:
	cmpq	$256, %r11
	movq	$-1, %rcx
	jae	.LBB22_132
	addq	$3, %r11
	jmp	.LBB22_137
.LBB22_132:
	cmpq	$65536, %r11
	jae	.LBB22_134
	addq	$4, %r11
	jmp	.LBB22_137
.LBB22_134:
	cmpq	$16777216, %r11
	jae	.LBB22_136
	addq	$5, %r11
	jmp	.LBB22_137
.LBB22_136:
	addq	$6, %r11
	cmovbq	%rcx, %r11
.LBB22_137:
	addq	64(%rsp), %r11
	cmovbq	%rcx, %r11
	addq	%r11, %r13
	cmovbq	%rcx, %r13
	movq	%r13, %rax
	incq	%rax
	cmoveq	%rcx, %rax
	cmpb	$0, (%rbp)
	cmovnsq	%r13, %rax
	subq	%r11, %rax
	movl	$0, %edx
	cmovaeq	%rax, %rdx
	cmpq	$128, %rdx
	jae	.LBB22_139
	addq	$2, %rdx
	movq	56(%rsp), %r13
	movq	72(%rsp), %rbp
	jmp	.LBB22_146
.LBB22_139:
	cmpq	$256, %rdx
	movq	56(%rsp), %r13
	movq	72(%rsp), %rbp
	jae	.LBB22_141
	addq	$3, %rdx
	jmp	.LBB22_146
.LBB22_141:
	cmpq	$65536, %rdx
	jae	.LBB22_143
	addq	$4, %rdx
	jmp	.LBB22_146
.LBB22_143:
	cmpq	$16777216, %rdx
	jae	.LBB22_145
	addq	$5, %rdx
	jmp	.LBB22_146
.LBB22_145:
	addq	$6, %rdx
	cmovbq	%rcx, %rdx
.LBB22_146:
	addq	%rdx, %r11
	cmovbq	%rcx, %r11
	addq	%r11, %rdi
	cmovbq	%rcx, %rdi
	movq	%rdi, %rax
	incq	%rax
	cmoveq	%rcx, %rax
	cmpb	$0, (%r10)
	cmovnsq	%rdi, %rax
	subq	%r11, %rax
	movl	$0, %edx
	cmovaeq	%rax, %rdx
	cmpq	$128, %rdx
	jae	.LBB22_148
	addq	$2, %rdx
	movq	32(%rsp), %r10
	jmp	.LBB22_155
.LBB22_148:
	cmpq	$256, %rdx
	movq	32(%rsp), %r10
	jae	.LBB22_150
	addq	$3, %rdx
	jmp	.LBB22_155
.LBB22_150:
	cmpq	$65536, %rdx
	jae	.LBB22_152
	addq	$4, %rdx
	jmp	.LBB22_155
.LBB22_152:
	cmpq	$16777216, %rdx
	jae	.LBB22_154
	addq	$5, %rdx
	jmp	.LBB22_155
.LBB22_154:
	addq	$6, %rdx
	cmovbq	%rcx, %rdx
.LBB22_155:
	addq	%rdx, %r11
	cmovbq	%rcx, %r11
	subq	64(%rsp), %r11
	movl	$0, %edx
	cmovaeq	%r11, %rdx
	cmpq	$128, %rdx
	jae	.LBB22_157
	addq	$2, %rdx
	movq	24(%rsp), %r11
	jmp	.LBB22_164
.LBB22_157:
	cmpq	$256, %rdx
	movq	24(%rsp), %r11
	jae	.LBB22_159
	addq	$3, %rdx
	jmp	.LBB22_164
.LBB22_159:
	cmpq	$65536, %rdx
	jae	.LBB22_161
	addq	$4, %rdx
	jmp	.LBB22_164
.LBB22_161:
	cmpq	$16777216, %rdx
	jae	.LBB22_163
	addq	$5, %rdx
	jmp	.LBB22_164
.LBB22_163:
	addq	$6, %rdx
	cmovbq	%rcx, %rdx
.LBB22_164:
	movq	64(%rsp), %rax
	addq	%rdx, %rax
	cmovbq	%rcx, %rax
	movq	%rax, 64(%rsp)
	testq	%rsi, %rsi
	jne	.LBB22_107
.LBB22_165:
	movq	64(%rsp), %rdi
	cmpq	$128, %rdi
	jae	.LBB22_172
	addq	$2, %rdi
	movb	$1, %al
	movq	%rax, 104(%rsp)
	jmp	.LBB22_99
.LBB22_167:
	cmpq	$65536, %rdx
	jae	.LBB22_174
	addq	$4, %rdx
	jmp	.LBB22_184
.LBB22_172:
	cmpq	$256, %rdi
	movq	96(%rsp), %r8
	jae	.LBB22_181
	addq	$3, %rdi
	jmp	.LBB22_387
.LBB22_174:
	cmpq	$16777216, %rdx
	jae	.LBB22_183
	addq	$5, %rdx
	jmp	.LBB22_184
.LBB22_181:
	cmpq	$65536, %rdi
	jae	.LBB22_382
	addq	$4, %rdi
	jmp	.LBB22_387
.LBB22_183:
	addq	$6, %rdx
	movq	$-1, %rax
	cmovbq	%rax, %rdx
.LBB22_184:
	movq	%rcx, %rdi
	addq	%rdx, %rdi
	movq	$-1, %rax
	cmovbq	%rax, %rdi
	movq	%rdi, %rcx
	addq	128(%rsp), %rcx
	cmovbq	%rax, %rcx
	movq	%rcx, %rsi
	incq	%rsi
	cmoveq	%rax, %rsi
	cmpb	$0, (%r8)
	movq	%rdi, %r8
	cmovnsq	%rcx, %rsi
	xorl	%edx, %edx
	subq	%rdi, %rsi
	cmovaeq	%rsi, %rdx
	cmpq	$128, %rdx
	jae	.LBB22_186
	addq	$2, %rdx
	jmp	.LBB22_193
.LBB22_186:
	cmpq	$256, %rdx
	jae	.LBB22_188
	addq	$3, %rdx
	jmp	.LBB22_193
.LBB22_188:
	cmpq	$65536, %rdx
	jae	.LBB22_190
	addq	$4, %rdx
	jmp	.LBB22_193
.LBB22_190:
	cmpq	$16777216, %rdx
	jae	.LBB22_192
	addq	$5, %rdx
	jmp	.LBB22_193
.LBB22_192:
	addq	$6, %rdx
	cmovbq	%rax, %rdx
.LBB22_193:
	addq	%rdx, %r8
	cmovbq	%rax, %r8
	movq	%r8, %rcx
	addq	48(%rsp), %rcx
	cmovbq	%rax, %rcx
	movq	%rcx, %rsi
	incq	%rsi
	cmoveq	%rax, %rsi
	movq	136(%rsp), %rax
	cmpb	$0, (%rax)
	cmovnsq	%rcx, %rsi
	xorl	%edx, %edx
	subq	%r8, %rsi
	cmovaeq	%rsi, %rdx
	cmpq	$128, %rdx
	jae	.LBB22_195
	addq	$2, %rdx
	jmp	.LBB22_202
.LBB22_195:
	cmpq	$256, %rdx
	jae	.LBB22_197
	addq	$3, %rdx
	jmp	.LBB22_202
.LBB22_197:
	cmpq	$65536, %rdx
	jae	.LBB22_199
	addq	$4, %rdx
	jmp	.LBB22_202
.LBB22_199:
	cmpq	$16777216, %rdx
	jae	.LBB22_201
	addq	$5, %rdx
	jmp	.LBB22_202
.LBB22_201:
	addq	$6, %rdx
	movq	$-1, %rax
	cmovbq	%rax, %rdx
.LBB22_202:
	addq	%rdx, %r8
	movq	$-1, %rsi
	cmovbq	%rsi, %r8
	movq	%r8, %rax
	addq	%r10, %rax
	cmovbq	%rsi, %rax
	movq	%rax, %rcx
	incq	%rcx
	cmoveq	%rsi, %rcx
	movq	144(%rsp), %rdx
	cmpb	$0, (%rdx)
	cmovnsq	%rax, %rcx
	xorl	%edi, %edi
	subq	%r8, %rcx
	cmovaeq	%rcx, %rdi
	movl	$2, %edx
	movl	$2, %r10d
	cmpq	$128, %rdi
	jb	.LBB22_206
	movl	$3, %r10d
	cmpq	$256, %rdi
	jb	.LBB22_206
	movl	$4, %r10d
	cmpq	$65536, %rdi
	jb	.LBB22_206
	cmpq	$16777216, %rdi
	movl	$6, %r10d
	sbbq	$0, %r10
.LBB22_206:
	addq	%rdi, %r10
	addq	%r10, %r8
	cmovbq	%rsi, %r8
	movq	%r8, %rax
	addq	%r11, %rax
	cmovbq	%rsi, %rax
	movq	%rax, %rcx
	incq	%rcx
	cmoveq	%rsi, %rcx
	cmpb	$0, (%rbp)
	cmovnsq	%rax, %rcx
	xorl	%esi, %esi
	subq	%r8, %rcx
	cmovaeq	%rcx, %rsi
	cmpq	$128, %rsi
	jb	.LBB22_210
	movl	$3, %edx
	cmpq	$256, %rsi
	jb	.LBB22_210
	movl	$4, %edx
	cmpq	$65536, %rsi
	jb	.LBB22_210
	cmpq	$16777216, %rsi
	movl	$6, %edx
	sbbq	$0, %rdx
.LBB22_210:
	addq	%rsi, %rdx
	addq	%rdx, %r8
	movq	$-1, %rsi
	cmovbq	%rsi, %r8
	movq	%r8, %rax
	addq	%r13, %rax
	cmovbq	%rsi, %rax
	movq	%rax, %rcx
	incq	%rcx
	cmoveq	%rsi, %rcx
	movq	40(%rsp), %rdx
	cmpb	$0, (%rdx)
	cmovnsq	%rax, %rcx
	xorl	%edi, %edi
	subq	%r8, %rcx
	cmovaeq	%rcx, %rdi
	movl	$2, %edx
	movl	$2, %r10d
	cmpq	$128, %rdi
	jb	.LBB22_214
	movl	$3, %r10d
	cmpq	$256, %rdi
	jb	.LBB22_214
	movl	$4, %r10d
	cmpq	$65536, %rdi
	jb	.LBB22_214
	cmpq	$16777216, %rdi
	movl	$6, %r10d
	sbbq	$0, %r10
.LBB22_214:
	addq	%rdi, %r10
	addq	%r10, %r8
	cmovbq	%rsi, %r8
	movq	%r8, %rax
	addq	%r12, %rax
	cmovbq	%rsi, %rax
	movq	%rax, %rcx
	incq	%rcx
	cmoveq	%rsi, %rcx
	cmpb	$0, (%r15)
	cmovnsq	%rax, %rcx
	xorl	%esi, %esi
	subq	%r8, %rcx
	cmovaeq	%rcx, %rsi
	cmpq	$128, %rsi
	jb	.LBB22_218
	movl	$3, %edx
	cmpq	$256, %rsi
	jb	.LBB22_218
	movl	$4, %edx
	cmpq	$65536, %rsi
	jb	.LBB22_218
	cmpq	$16777216, %rsi
	movl	$6, %edx
	sbbq	$0, %rdx
.LBB22_218:
	addq	%rsi, %rdx
	addq	%rdx, %r8
	movq	$-1, %rsi
	cmovbq	%rsi, %r8
	movq	%r8, %rax
	addq	%r14, %rax
	cmovbq	%rsi, %rax
	movq	%rax, %rcx
	incq	%rcx
	cmoveq	%rsi, %rcx
	cmpb	$0, (%rbx)
	cmovnsq	%rax, %rcx
	xorl	%edi, %edi
	subq	%r8, %rcx
	cmovaeq	%rcx, %rdi
	movl	$2, %edx
	movl	$2, %r10d
	cmpq	$128, %rdi
	jb	.LBB22_222
	movl	$3, %r10d
	cmpq	$256, %rdi
	jb	.LBB22_222
	movl	$4, %r10d
	cmpq	$65536, %rdi
	jb	.LBB22_222
	cmpq	$16777216, %rdi
	movl	$6, %r10d
	sbbq	$0, %r10
.LBB22_222:
	addq	%rdi, %r10
	addq	%r10, %r8
	cmovbq	%rsi, %r8
	movq	%r8, %rax
	incq	%rax
	cmoveq	%rsi, %rax
	xorl	%esi, %esi
	subq	%r8, %rax
	cmovaeq	%rax, %rsi
	cmpq	$128, %rsi
	movq	8(%rsp), %rcx
	jb	.LBB22_226
	movl	$3, %edx
	cmpq	$256, %rsi
	jb	.LBB22_226
	movl	$4, %edx
	cmpq	$65536, %rsi
	jb	.LBB22_226
	cmpq	$16777216, %rsi
	movl	$6, %edx
	sbbq	$0, %rdx
.LBB22_226:
	addq	%rsi, %rdx
	addq	%rdx, %r8
	movq	$-1, %rdx
	cmovaeq	%r8, %rdx
	cmpq	$128, %rdx
	movq	32(%rsp), %rdi
	jae	.LBB22_228
	addq	$2, %rdx
	movq	%rdx, %r8
	jmp	.LBB22_235
.LBB22_228:
	cmpq	$256, %rdx
	jae	.LBB22_230
	addq	$3, %rdx
	movq	%rdx, %r8
	jmp	.LBB22_235
.LBB22_230:
	cmpq	$65536, %rdx
	jae	.LBB22_232
	addq	$4, %rdx
	movq	%rdx, %r8
	jmp	.LBB22_235
.LBB22_232:
	cmpq	$16777216, %rdx
	jae	.LBB22_234
	addq	$5, %rdx
	movq	%rdx, %r8
	jmp	.LBB22_235
.LBB22_234:
	addq	$6, %rdx
	movq	$-1, %r8
	cmovaeq	%rdx, %r8
	movq	%r8, %rax
	shrq	$32, %rax
	movl	$8, %eax
	jne	.LBB22_236
.LBB22_235:
	movq	160(%rsp), %rax
	movq	%r8, (%rax)
	movl	$15, %eax
	cmpq	80(%rsp), %r8
	ja	.LBB22_236
	movq	%r8, %r10
	testq	%r9, %r9
	movq	%r8, 16(%rsp)
	je	.LBB22_391
	movq	%r8, %r10
	movq	%r8, %rdi
	jmp	.LBB22_241
.LBB22_239:
	movq	%rax, %r10
	movq	%rax, %rdi
.LBB22_240:
	testq	%r9, %r9
	je	.LBB22_365
.LBB22_241:
	decq	%r9
	leaq	(%r9,%r9,2), %rax
	shlq	$4, %rax
	movq	88(%rsp), %rdx
	movq	(%rdx,%rax), %rbp
	movq	8(%rdx,%rax), %r13
	cmpq	$2, %r13
	jb	.LBB22_246
	leaq	-1(,%r13), %rdx
	addq	%rbp, %rdx
	.p2align	4, 0x90
.LBB22_243:
	cmpb	$0, (%rbp)
	jne	.LBB22_247
	decq	%r13
	incq	%rbp
	cmpq	$1, %r13
	ja	.LBB22_243
	movl	$1, %r13d
	movq	%rdx, %rbp
	testq	%rdx, %rdx
	jne	.LBB22_248
	jmp	.LBB22_240
.LBB22_246:
	testq	%r13, %r13
	movl	$1, %r13d
	jne	.LBB22_248
	jmp	.LBB22_240
.LBB22_247:
	movq	%rcx, %rdx
	movq	%r13, %rcx
	shrq	$32, %rcx
	movq	%rdx, %rcx
	jne	.LBB22_240
.LBB22_248:
	movq	%r13, 160(%rsp)
	addq	88(%rsp), %rax
	movq	16(%rax), %rsi
	movq	24(%rax), %r13
	cmpq	$2, %r13
	jb	.LBB22_253
	leaq	(%rsi,%r13), %rdx
	decq	%rdx
.LBB22_250:
	cmpb	$0, (%rsi)
	jne	.LBB22_254
	decq	%r13
	incq	%rsi
	cmpq	$1, %r13
	ja	.LBB22_250
	movl	$1, %r13d
	movq	%rdx, 80(%rsp)
	testq	%rdx, %rdx
	jne	.LBB22_255
	jmp	.LBB22_240
.LBB22_253:
	movq	%rsi, 80(%rsp)
	testq	%r13, %r13
	movl	$1, %r13d
	jne	.LBB22_255
	jmp	.LBB22_240
.LBB22_254:
	movq	%rsi, 80(%rsp)
	movq	%rcx, %rdx
	movq	%r13, %rcx
	shrq	$32, %rcx
	movq	%rdx, %rcx
	jne	.LBB22_240
.LBB22_255:
	movq	%rbp, 64(%rsp)
	movq	32(%rax), %rbp
	movq	40(%rax), %rdx
	cmpq	$2, %rdx
	jb	.LBB22_260
	leaq	(%rdx,%rbp), %rax
	decq	%rax
.LBB22_257:
	cmpb	$0, (%rbp)
	jne	.LBB22_261
	decq	%rdx
	incq	%rbp
	cmpq	$1, %rdx
	ja	.LBB22_257
	movl	$1, %edx
	movq	%rax, %rbp
	testq	%rax, %rax
	jne	.LBB22_262
	jmp	.LBB22_240
.LBB22_260:
	testq	%rdx, %rdx
	movl	$1, %edx
	jne	.LBB22_262
	jmp	.LBB22_240
.LBB22_261:
	movq	%rdx, %rax
	shrq	$32, %rax
	jne	.LBB22_240
.LBB22_262:
	movq	%rdi, %rsi
	movq	%rdi, %rax
	subq	%rdx, %rsi
	movq	%rdi, 152(%rsp)
	movq	%r9, 176(%rsp)
	jb	.LBB22_265
	cmpq	%r8, %rdi
	ja	.LBB22_664
	leaq	(%rcx,%rsi), %rdi
	movq	%rsi, 168(%rsp)
	movq	%rbp, %rsi
	callq	memcpy
	movq	8(%rsp), %rcx
	movq	168(%rsp), %rax
	movq	24(%rsp), %r11
	movq	16(%rsp), %r8
	movq	176(%rsp), %r9
	movq	152(%rsp), %rdi
.LBB22_265:
	cmpb	$0, (%rbp)
	js	.LBB22_267
	movq	%rax, %rdx
	jmp	.LBB22_270
.LBB22_267:
	testq	%rax, %rax
	je	.LBB22_282
	movq	%rax, %rdx
	cmpq	%r8, %rax
	ja	.LBB22_664
	movb	$0, -1(%rcx,%rdx)
	decq	%rdx
.LBB22_270:
	movq	%rdi, %rax
	subq	%rdx, %rax
	cmpl	$128, %eax
	jae	.LBB22_274
	cmpq	$2, %rdx
	jb	.LBB22_283
	cmpq	%r8, %rdx
	ja	.LBB22_664
	shll	$8, %eax
	orl	$2, %eax
	movw	%ax, -2(%rcx,%rdx)
	addq	$-2, %rdx
	jmp	.LBB22_283
.LBB22_274:
	cmpl	$256, %eax
	jae	.LBB22_278
	cmpq	$3, %rdx
	jb	.LBB22_283
	cmpq	%r8, %rdx
	ja	.LBB22_664
	movw	$-32510, -3(%rcx,%rdx)
	movb	%al, -1(%rcx,%rdx)
	addq	$-3, %rdx
	jmp	.LBB22_283
.LBB22_278:
	cmpl	$65536, %eax
	jae	.LBB22_324
	cmpq	$4, %rdx
	jb	.LBB22_283
	cmpq	%r8, %rdx
	ja	.LBB22_664
	orl	$42074112, %eax
	bswapl	%eax
	movl	%eax, -4(%rcx,%rdx)
	addq	$-4, %rdx
	jmp	.LBB22_283
.LBB22_282:
	xorl	%edx, %edx
.LBB22_283:
	movq	%rdx, %rbp
	movq	%rdx, %rax
	subq	%r13, %rbp
	jb	.LBB22_286
	movq	%rdx, 168(%rsp)
	cmpq	%r8, %rdx
	ja	.LBB22_664
	leaq	(%rcx,%rbp), %rdi
	movq	80(%rsp), %rsi
	movq	%r13, %rdx
	callq	memcpy
	movq	8(%rsp), %rcx
	movq	%rbp, %rax
	movq	24(%rsp), %r11
	movq	16(%rsp), %r8
	movq	176(%rsp), %r9
	movq	152(%rsp), %rdi
	movq	168(%rsp), %rdx
.LBB22_286:
	movq	80(%rsp), %rsi
	cmpb	$0, (%rsi)
	js	.LBB22_288
	movq	64(%rsp), %r10
	movq	%rax, %rbp
	jmp	.LBB22_291
.LBB22_288:
	testq	%rax, %rax
	movq	64(%rsp), %r10
	je	.LBB22_303
	movq	%rax, %rbp
	cmpq	%r8, %rax
	ja	.LBB22_664
	movb	$0, -1(%rcx,%rbp)
	decq	%rbp
.LBB22_291:
	subq	%rbp, %rdx
	cmpl	$128, %edx
	jae	.LBB22_295
	cmpq	$2, %rbp
	jb	.LBB22_304
	cmpq	%r8, %rbp
	ja	.LBB22_664
	shll	$8, %edx
	orl	$2, %edx
	movw	%dx, -2(%rcx,%rbp)
	addq	$-2, %rbp
	jmp	.LBB22_304
.LBB22_295:
	cmpl	$256, %edx
	jae	.LBB22_299
	cmpq	$3, %rbp
	jb	.LBB22_304
	cmpq	%r8, %rbp
	ja	.LBB22_664
	movw	$-32510, -3(%rcx,%rbp)
	movb	%dl, -1(%rcx,%rbp)
	addq	$-3, %rbp
	jmp	.LBB22_304
.LBB22_299:
	cmpl	$65536, %edx
	jae	.LBB22_328
	cmpq	$4, %rbp
	jb	.LBB22_304
	cmpq	%r8, %rbp
	ja	.LBB22_664
	orl	$42074112, %edx
	bswapl	%edx
	movl	%edx, -4(%rcx,%rbp)
	addq	$-4, %rbp
	jmp	.LBB22_304
.LBB22_303:
	xorl	%ebp, %ebp
.LBB22_304:
	movq	%rbp, %r13
	movq	%rbp, %rax
	subq	160(%rsp), %r13
	jb	.LBB22_307
	movq	%rbp, 80(%rsp)
	cmpq	%r8, %rbp
	ja	.LBB22_664
	movq	%r9, %rbp
	leaq	(%rcx,%r13), %rdi
	movq	64(%rsp), %rsi
	movq	160(%rsp), %rdx
	callq	memcpy
	movq	8(%rsp), %rcx
	movq	%r13, %rax
	movq	24(%rsp), %r11
	movq	16(%rsp), %r8
	movq	%rbp, %r9
	movq	64(%rsp), %r10
	movq	152(%rsp), %rdi
	movq	80(%rsp), %rbp
.LBB22_307:
	cmpb	$0, (%r10)
	jns	.LBB22_311
	testq	%rax, %rax
	je	.LBB22_323
	cmpq	%r8, %rax
	ja	.LBB22_664
	movb	$0, -1(%rcx,%rax)
	decq	%rax
.LBB22_311:
	subq	%rax, %rbp
	cmpl	$128, %ebp
	jae	.LBB22_315
	cmpq	$2, %rax
	jb	.LBB22_345
	cmpq	%r8, %rax
	ja	.LBB22_664
	shll	$8, %ebp
	orl	$2, %ebp
	movw	%bp, -2(%rcx,%rax)
	addq	$-2, %rax
	jmp	.LBB22_345
.LBB22_315:
	cmpl	$256, %ebp
	jae	.LBB22_319
	cmpq	$3, %rax
	jb	.LBB22_345
	cmpq	%r8, %rax
	ja	.LBB22_664
	movw	$-32510, -3(%rcx,%rax)
	movb	%bpl, -1(%rcx,%rax)
	addq	$-3, %rax
	jmp	.LBB22_345
.LBB22_319:
	cmpl	$65536, %ebp
	jae	.LBB22_332
	cmpq	$4, %rax
	jb	.LBB22_345
	cmpq	%r8, %rax
	ja	.LBB22_664
	orl	$42074112, %ebp
	bswapl	%ebp
	movl	%ebp, -4(%rcx,%rax)
	addq	$-4, %rax
	jmp	.LBB22_345
.LBB22_323:
	xorl	%r10d, %r10d
	xorl	%edi, %edi
	jmp	.LBB22_240
.LBB22_324:
	cmpl	$16777216, %eax
	jae	.LBB22_336
	cmpq	$5, %rdx
	jb	.LBB22_283
	cmpq	%r8, %rdx
	ja	.LBB22_664
	movq	%rcx, %rsi
	movq	%rdx, %r10
	movl	%eax, %ecx
	shrl	$16, %ecx
	movl	%eax, %edx
	shrl	$8, %edx
	movw	$-31998, -5(%rsi,%r10)
	movb	%cl, -3(%rsi,%r10)
	movq	%rsi, %rcx
	movb	%dl, -2(%rsi,%r10)
	movb	%al, -1(%rsi,%r10)
	leaq	-5(%r10), %rdx
	jmp	.LBB22_283
.LBB22_328:
	cmpl	$16777216, %edx
	jae	.LBB22_339
	cmpq	$5, %rbp
	jb	.LBB22_304
	cmpq	%r8, %rbp
	ja	.LBB22_664
	movq	%rdx, %rax
	movq	%rcx, %rdx
	movq	%rax, %r13
	shrl	$16, %eax
	movl	%r13d, %ecx
	shrl	$8, %ecx
	movw	$-31998, -5(%rdx,%rbp)
	movb	%al, -3(%rdx,%rbp)
	movb	%cl, -2(%rdx,%rbp)
	movq	%rdx, %rcx
	movb	%r13b, -1(%rdx,%rbp)
	addq	$-5, %rbp
	jmp	.LBB22_304
.LBB22_332:
	cmpl	$16777216, %ebp
	jae	.LBB22_342
	cmpq	$5, %rax
	jb	.LBB22_345
	cmpq	%r8, %rax
	ja	.LBB22_664
	movq	%rcx, %rdx
	movq	%rax, %r10
	movl	%ebp, %eax
	shrl	$16, %eax
	movl	%ebp, %ecx
	shrl	$8, %ecx
	movw	$-31998, -5(%rdx,%r10)
	movb	%al, -3(%rdx,%r10)
	movb	%cl, -2(%rdx,%r10)
	movq	%rdx, %rcx
	movb	%bpl, -1(%rdx,%r10)
	leaq	-5(%r10), %rax
	jmp	.LBB22_345
.LBB22_336:
	cmpq	$6, %rdx
	jb	.LBB22_283
	cmpq	%r8, %rdx
	ja	.LBB22_664
	movq	%rcx, %rdi
	movq	%rdx, %r10
	movl	%eax, %ecx
	shrl	$24, %ecx
	movl	%eax, %edx
	shrl	$16, %edx
	movl	%eax, %esi
	shrl	$8, %esi
	movw	$-31742, -6(%rdi,%r10)
	movb	%cl, -4(%rdi,%r10)
	movq	%rdi, %rcx
	movb	%dl, -3(%rdi,%r10)
	movb	%sil, -2(%rdi,%r10)
	movb	%al, -1(%rdi,%r10)
	leaq	-6(%r10), %rdx
	movq	152(%rsp), %rdi
	jmp	.LBB22_283
.LBB22_339:
	cmpq	$6, %rbp
	jb	.LBB22_304
	cmpq	%r8, %rbp
	ja	.LBB22_664
	movq	%rcx, %rsi
	movl	%edx, %eax
	shrl	$24, %eax
	movl	%edx, %ecx
	shrl	$16, %ecx
	movq	%rdx, %r13
	shrl	$8, %edx
	movw	$-31742, -6(%rsi,%rbp)
	movb	%al, -4(%rsi,%rbp)
	movb	%cl, -3(%rsi,%rbp)
	movq	%rsi, %rcx
	movb	%dl, -2(%rsi,%rbp)
	movb	%r13b, -1(%rsi,%rbp)
	addq	$-6, %rbp
	jmp	.LBB22_304
.LBB22_342:
	cmpq	$6, %rax
	jb	.LBB22_345
	cmpq	%r8, %rax
	ja	.LBB22_664
	movq	%rcx, %rsi
	movq	%rax, %r10
	movl	%ebp, %eax
	shrl	$24, %eax
	movl	%ebp, %ecx
	shrl	$16, %ecx
	movl	%ebp, %edx
	shrl	$8, %edx
	movw	$-31742, -6(%rsi,%r10)
	movb	%al, -4(%rsi,%r10)
	movb	%cl, -3(%rsi,%r10)
	movq	%rsi, %rcx
	movb	%dl, -2(%rsi,%r10)
	movb	%bpl, -1(%rsi,%r10)
	leaq	-6(%r10), %rax
.LBB22_345:
	subq	%rax, %rdi
	cmpl	$128, %edi
	jae	.LBB22_349
	cmpq	$2, %rax
	jb	.LBB22_239
	cmpq	%r8, %rax
	ja	.LBB22_664
	shll	$8, %edi
	orl	$48, %edi
	movw	%di, -2(%rcx,%rax)
	addq	$-2, %rax
	jmp	.LBB22_239
.LBB22_349:
	cmpl	$256, %edi
	jae	.LBB22_354
	cmpq	$3, %rax
	jb	.LBB22_239
	cmpq	%r8, %rax
	ja	.LBB22_664
	movw	$-32464, -3(%rcx,%rax)
	movb	%dil, -1(%rcx,%rax)
	leaq	-3(%rax), %r10
.LBB22_353:
	movq	%r10, %rdi
	jmp	.LBB22_240
.LBB22_354:
	cmpl	$65536, %edi
	jae	.LBB22_358
	cmpq	$4, %rax
	jb	.LBB22_239
	cmpq	%r8, %rax
	ja	.LBB22_664
	orl	$813826048, %edi
	bswapl	%edi
	movl	%edi, -4(%rcx,%rax)
	addq	$-4, %rax
	jmp	.LBB22_239
.LBB22_358:
	cmpl	$16777216, %edi
	jae	.LBB22_362
	cmpq	$5, %rax
	jb	.LBB22_239
	cmpq	%r8, %rax
	ja	.LBB22_664
	movq	%rcx, %rdx
	movq	%rax, %r10
	movl	%edi, %eax
	shrl	$16, %eax
	movl	%edi, %ecx
	shrl	$8, %ecx
	movw	$-31952, -5(%rdx,%r10)
	movb	%al, -3(%rdx,%r10)
	movb	%cl, -2(%rdx,%r10)
	movq	%rdx, %rcx
	movb	%dil, -1(%rdx,%r10)
	addq	$-5, %r10
	jmp	.LBB22_353
.LBB22_362:
	cmpq	$6, %rax
	jb	.LBB22_239
	cmpq	%r8, %rax
	ja	.LBB22_664
	movq	%rcx, %rsi
	movq	%rax, %r10
	movl	%edi, %eax
	shrl	$24, %eax
	movl	%edi, %ecx
	shrl	$16, %ecx
	movl	%edi, %edx
	shrl	$8, %edx
	movw	$-31696, -6(%rsi,%r10)
	movb	%al, -4(%rsi,%r10)
	movb	%cl, -3(%rsi,%r10)
	movq	%rsi, %rcx
	movb	%dl, -2(%rsi,%r10)
	movb	%dil, -1(%rsi,%r10)
	addq	$-6, %r10
	jmp	.LBB22_353
.LBB22_365:
	movq	%r8, %rax
	subq	%r10, %rax
	cmpl	$128, %eax
	jae	.LBB22_368
	movq	%r10, %rdx
	cmpq	$2, %r10
	movq	32(%rsp), %rdi
	jae	.LBB22_372
	movq	%rdx, %r10
	jmp	.LBB22_391
.LBB22_368:
	cmpl	$256, %eax
	movq	32(%rsp), %rdi
	jae	.LBB22_374
	cmpq	$3, %r10
	jb	.LBB22_391
	cmpq	%r10, %r8
	jb	.LBB22_664
	movw	$-32464, -3(%rcx,%r10)
	movb	%al, -1(%rcx,%r10)
	addq	$-3, %r10
	jmp	.LBB22_391
.LBB22_372:
	cmpq	%rdx, %r8
	jb	.LBB22_664
	shll	$8, %eax
	orl	$48, %eax
	movw	%ax, -2(%rcx,%rdx)
	addq	$-2, %rdx
	movq	%rdx, %r10
	jmp	.LBB22_391
.LBB22_374:
	cmpl	$65536, %eax
	jae	.LBB22_378
	cmpq	$4, %r10
	jb	.LBB22_391
	cmpq	%r10, %r8
	jb	.LBB22_664
	orl	$813826048, %eax
	bswapl	%eax
	movl	%eax, -4(%rcx,%r10)
	addq	$-4, %r10
	jmp	.LBB22_391
.LBB22_378:
	cmpl	$16777216, %eax
	jae	.LBB22_384
	cmpq	$5, %r10
	jb	.LBB22_385
	cmpq	%r10, %r8
	jb	.LBB22_664
	movl	%eax, %ecx
	shrl	$16, %ecx
	movl	%eax, %edx
	shrl	$8, %edx
	movq	8(%rsp), %rsi
	movw	$-31952, -5(%rsi,%r10)
	movb	%cl, -3(%rsi,%r10)
	movq	%rsi, %rcx
	movb	%dl, -2(%rsi,%r10)
	movb	%al, -1(%rsi,%r10)
	addq	$-5, %r10
	jmp	.LBB22_390
.LBB22_382:
	cmpq	$16777216, %rdi
	jae	.LBB22_386
	addq	$5, %rdi
	jmp	.LBB22_387
.LBB22_384:
	cmpq	$6, %r10
	jae	.LBB22_388
.LBB22_385:
	movq	8(%rsp), %rcx
	movq	24(%rsp), %r11
	movq	32(%rsp), %rdi
	jmp	.LBB22_391
.LBB22_386:
	addq	$6, %rdi
	movq	$-1, %rax
	cmovbq	%rax, %rdi
.LBB22_387:
	movb	$1, %al
	movq	%rax, 104(%rsp)
	jmp	.LBB22_100
.LBB22_388:
	cmpq	%r10, %r8
	jb	.LBB22_664
	movl	%eax, %ecx
	shrl	$24, %ecx
	movl	%eax, %edx
	shrl	$16, %edx
	movl	%eax, %esi
	shrl	$8, %esi
	movq	8(%rsp), %rdi
	movw	$-31696, -6(%rdi,%r10)
	movb	%cl, -4(%rdi,%r10)
	movq	%rdi, %rcx
	movb	%dl, -3(%rdi,%r10)
	movb	%sil, -2(%rdi,%r10)
	movb	%al, -1(%rdi,%r10)
	addq	$-6, %r10
.LBB22_390:
	movq	24(%rsp), %r11
	movq	32(%rsp), %rdi
	movq	16(%rsp), %r8
.LBB22_391:
	movq	%r10, %rbp
	movq	%r10, %r13
	movq	%r10, %r9
	subq	120(%rsp), %rbp
	jb	.LBB22_394
	cmpq	%r8, %r13
	ja	.LBB22_664
	leaq	(%rcx,%rbp), %rdi
	movq	112(%rsp), %rsi
	movq	120(%rsp), %rdx
	callq	memcpy
	movq	8(%rsp), %rcx
	movq	%rbp, %r9
	movq	24(%rsp), %r11
	movq	32(%rsp), %rdi
	movq	16(%rsp), %r8
.LBB22_394:
	movq	112(%rsp), %rax
	cmpb	$0, (%rax)
	js	.LBB22_396
	movq	48(%rsp), %rdx
	jmp	.LBB22_399
.LBB22_396:
	testq	%r9, %r9
	movq	48(%rsp), %rdx
	je	.LBB22_411
	cmpq	%r8, %r9
	ja	.LBB22_664
	movb	$0, -1(%rcx,%r9)
	decq	%r9
.LBB22_399:
	movq	%r13, %rax
	subq	%r9, %rax
	cmpl	$128, %eax
	jae	.LBB22_403
	cmpq	$2, %r9
	jb	.LBB22_420
	cmpq	%r8, %r9
	ja	.LBB22_664
	shll	$8, %eax
	orl	$2, %eax
	movw	%ax, -2(%rcx,%r9)
	addq	$-2, %r9
	jmp	.LBB22_420
.LBB22_403:
	cmpl	$256, %eax
	jae	.LBB22_407
	cmpq	$3, %r9
	jb	.LBB22_420
	cmpq	%r8, %r9
	ja	.LBB22_664
	movw	$-32510, -3(%rcx,%r9)
	movb	%al, -1(%rcx,%r9)
	addq	$-3, %r9
	movq	48(%rsp), %rdx
	jmp	.LBB22_420
.LBB22_407:
	cmpl	$65536, %eax
	jae	.LBB22_412
	cmpq	$4, %r9
	jb	.LBB22_420
	cmpq	%r8, %r9
	ja	.LBB22_664
	orl	$42074112, %eax
	bswapl	%eax
	movl	%eax, -4(%rcx,%r9)
	addq	$-4, %r9
	jmp	.LBB22_420
.LBB22_411:
	xorl	%r9d, %r9d
	jmp	.LBB22_420
.LBB22_412:
	cmpl	$16777216, %eax
	jae	.LBB22_416
	cmpq	$5, %r9
	jb	.LBB22_420
	cmpq	%r8, %r9
	ja	.LBB22_664
	movq	%rax, %rsi
	shrl	$16, %eax
	movl	%esi, %ecx
	shrl	$8, %ecx
	movq	8(%rsp), %rdx
	movw	$-31998, -5(%rdx,%r9)
	movb	%al, -3(%rdx,%r9)
	movb	%cl, -2(%rdx,%r9)
	movq	%rdx, %rcx
	movb	%sil, -1(%rdx,%r9)
	addq	$-5, %r9
	jmp	.LBB22_419
.LBB22_416:
	cmpq	$6, %r9
	jb	.LBB22_420
	cmpq	%r8, %r9
	ja	.LBB22_664
	movq	%rax, %rdi
	shrl	$24, %eax
	movl	%edi, %ecx
	shrl	$16, %ecx
	movl	%edi, %edx
	shrl	$8, %edx
	movq	8(%rsp), %rsi
	movw	$-31742, -6(%rsi,%r9)
	movb	%al, -4(%rsi,%r9)
	movb	%cl, -3(%rsi,%r9)
	movq	%rsi, %rcx
	movb	%dl, -2(%rsi,%r9)
	movb	%dil, -1(%rsi,%r9)
	addq	$-6, %r9
.LBB22_419:
	movq	24(%rsp), %r11
	movq	32(%rsp), %rdi
	movq	48(%rsp), %rdx
	movq	16(%rsp), %r8
.LBB22_420:
	movq	%r9, %r13
	movq	%r9, %r10
	subq	128(%rsp), %r13
	jb	.LBB22_423
	cmpq	%r8, %r9
	ja	.LBB22_664
	movq	%r9, %rbp
	leaq	(%rcx,%r13), %rdi
	movq	96(%rsp), %rsi
	movq	128(%rsp), %rdx
	callq	memcpy
	movq	8(%rsp), %rcx
	movq	%r13, %r10
	movq	24(%rsp), %r11
	movq	32(%rsp), %rdi
	movq	48(%rsp), %rdx
	movq	16(%rsp), %r8
	movq	%rbp, %r9
.LBB22_423:
	movq	96(%rsp), %rax
	cmpb	$0, (%rax)
	jns	.LBB22_427
	testq	%r10, %r10
	je	.LBB22_439
	cmpq	%r8, %r10
	ja	.LBB22_664
	movb	$0, -1(%rcx,%r10)
	decq	%r10
.LBB22_427:
	subq	%r10, %r9
	cmpl	$128, %r9d
	jae	.LBB22_431
	cmpq	$2, %r10
	jb	.LBB22_448
	cmpq	%r8, %r10
	ja	.LBB22_664
	shll	$8, %r9d
	orl	$2, %r9d
	movw	%r9w, -2(%rcx,%r10)
	addq	$-2, %r10
	jmp	.LBB22_448
.LBB22_431:
	cmpl	$256, %r9d
	jae	.LBB22_435
	cmpq	$3, %r10
	jb	.LBB22_448
	cmpq	%r8, %r10
	ja	.LBB22_664
	movw	$-32510, -3(%rcx,%r10)
	movb	%r9b, -1(%rcx,%r10)
	addq	$-3, %r10
	movq	48(%rsp), %rdx
	jmp	.LBB22_448
.LBB22_435:
	cmpl	$65536, %r9d
	jae	.LBB22_440
	cmpq	$4, %r10
	jb	.LBB22_448
	cmpq	%r8, %r10
	ja	.LBB22_664
	orl	$42074112, %r9d
	bswapl	%r9d
	movl	%r9d, -4(%rcx,%r10)
	addq	$-4, %r10
	jmp	.LBB22_448
.LBB22_439:
	xorl	%r10d, %r10d
	jmp	.LBB22_448
.LBB22_440:
	cmpl	$16777216, %r9d
	jae	.LBB22_444
	cmpq	$5, %r10
	jb	.LBB22_448
	cmpq	%r8, %r10
	ja	.LBB22_664
	movl	%r9d, %eax
	shrl	$16, %eax
	movl	%r9d, %ecx
	shrl	$8, %ecx
	movq	8(%rsp), %rdx
	movw	$-31998, -5(%rdx,%r10)
	movb	%al, -3(%rdx,%r10)
	movb	%cl, -2(%rdx,%r10)
	movq	%rdx, %rcx
	movb	%r9b, -1(%rdx,%r10)
	addq	$-5, %r10
	jmp	.LBB22_447
.LBB22_444:
	cmpq	$6, %r10
	jb	.LBB22_448
	cmpq	%r8, %r10
	ja	.LBB22_664
	movl	%r9d, %eax
	shrl	$24, %eax
	movl	%r9d, %ecx
	shrl	$16, %ecx
	movl	%r9d, %edx
	shrl	$8, %edx
	movq	8(%rsp), %rsi
	movw	$-31742, -6(%rsi,%r10)
	movb	%al, -4(%rsi,%r10)
	movb	%cl, -3(%rsi,%r10)
	movq	%rsi, %rcx
	movb	%dl, -2(%rsi,%r10)
	movb	%r9b, -1(%rsi,%r10)
	addq	$-6, %r10
.LBB22_447:
	movq	24(%rsp), %r11
	movq	32(%rsp), %rdi
	movq	48(%rsp), %rdx
	movq	16(%rsp), %r8
.LBB22_448:
	movq	%r10, %rbp
	movq	%r10, %r9
	subq	%rdx, %rbp
	jb	.LBB22_451
	cmpq	%r8, %r10
	ja	.LBB22_664
	movq	%r10, %r13
	leaq	(%rcx,%rbp), %rdi
	movq	136(%rsp), %rsi
	callq	memcpy
	movq	8(%rsp), %rcx
	movq	%rbp, %r9
	movq	24(%rsp), %r11
	movq	32(%rsp), %rdi
	movq	16(%rsp), %r8
	movq	%r13, %r10
.LBB22_451:
	movq	136(%rsp), %rax
	cmpb	$0, (%rax)
	jns	.LBB22_455
	testq	%r9, %r9
	je	.LBB22_467
	cmpq	%r8, %r9
	ja	.LBB22_664
	movb	$0, -1(%rcx,%r9)
	decq	%r9
.LBB22_455:
	subq	%r9, %r10
	cmpl	$128, %r10d
	jae	.LBB22_459
	cmpq	$2, %r9
	jb	.LBB22_476
	cmpq	%r8, %r9
	ja	.LBB22_664
	shll	$8, %r10d
	orl	$2, %r10d
	movw	%r10w, -2(%rcx,%r9)
	addq	$-2, %r9
	jmp	.LBB22_476
.LBB22_459:
	cmpl	$256, %r10d
	jae	.LBB22_463
	cmpq	$3, %r9
	jb	.LBB22_476
	cmpq	%r8, %r9
	ja	.LBB22_664
	movw	$-32510, -3(%rcx,%r9)
	movb	%r10b, -1(%rcx,%r9)
	addq	$-3, %r9
	jmp	.LBB22_476
.LBB22_463:
	cmpl	$65536, %r10d
	jae	.LBB22_468
	cmpq	$4, %r9
	jb	.LBB22_476
	cmpq	%r8, %r9
	ja	.LBB22_664
	orl	$42074112, %r10d
	bswapl	%r10d
	movl	%r10d, -4(%rcx,%r9)
	addq	$-4, %r9
	jmp	.LBB22_476
.LBB22_467:
	xorl	%r9d, %r9d
	jmp	.LBB22_476
.LBB22_468:
	cmpl	$16777216, %r10d
	jae	.LBB22_472
	cmpq	$5, %r9
	jb	.LBB22_476
	cmpq	%r8, %r9
	ja	.LBB22_664
	movl	%r10d, %eax
	shrl	$16, %eax
	movl	%r10d, %ecx
	shrl	$8, %ecx
	movq	8(%rsp), %rdx
	movw	$-31998, -5(%rdx,%r9)
	movb	%al, -3(%rdx,%r9)
	movb	%cl, -2(%rdx,%r9)
	movq	%rdx, %rcx
	movb	%r10b, -1(%rdx,%r9)
	addq	$-5, %r9
	jmp	.LBB22_475
.LBB22_472:
	cmpq	$6, %r9
	jb	.LBB22_476
	cmpq	%r8, %r9
	ja	.LBB22_664
	movl	%r10d, %eax
	shrl	$24, %eax
	movl	%r10d, %ecx
	shrl	$16, %ecx
	movl	%r10d, %edx
	shrl	$8, %edx
	movq	8(%rsp), %rsi
	movw	$-31742, -6(%rsi,%r9)
	movb	%al, -4(%rsi,%r9)
	movb	%cl, -3(%rsi,%r9)
	movq	%rsi, %rcx
	movb	%dl, -2(%rsi,%r9)
	movb	%r10b, -1(%rsi,%r9)
	addq	$-6, %r9
.LBB22_475:
	movq	24(%rsp), %r11
	movq	32(%rsp), %rdi
	movq	16(%rsp), %r8
.LBB22_476:
	movq	%r9, %r13
	movq	%r9, %r10
	subq	%rdi, %r13
	jb	.LBB22_479
	cmpq	%r8, %r9
	ja	.LBB22_664
	movq	%rdi, %rdx
	movq	%r9, %rbp
	leaq	(%rcx,%r13), %rdi
	movq	144(%rsp), %rsi
	callq	memcpy
	movq	8(%rsp), %rcx
	movq	%r13, %r10
	movq	24(%rsp), %r11
	movq	16(%rsp), %r8
	movq	%rbp, %r9
.LBB22_479:
	movq	144(%rsp), %rax
	cmpb	$0, (%rax)
	jns	.LBB22_483
	testq	%r10, %r10
	je	.LBB22_494
	cmpq	%r8, %r10
	ja	.LBB22_664
	movb	$0, -1(%rcx,%r10)
	decq	%r10
.LBB22_483:
	subq	%r10, %r9
	cmpl	$128, %r9d
	jae	.LBB22_486
	cmpq	$2, %r10
	jb	.LBB22_503
	cmpq	%r8, %r10
	ja	.LBB22_664
	shll	$8, %r9d
	orl	$2, %r9d
	movw	%r9w, -2(%rcx,%r10)
	addq	$-2, %r10
	movq	40(%rsp), %rsi
	movq	%r10, %rbp
	movq	%r10, %rdi
	subq	%r11, %rbp
	jb	.LBB22_512
	jmp	.LBB22_510
.LBB22_486:
	cmpl	$256, %r9d
	jae	.LBB22_491
	cmpq	$3, %r10
	jb	.LBB22_503
	cmpq	%r8, %r10
	ja	.LBB22_664
	movw	$-32510, -3(%rcx,%r10)
	movb	%r9b, -1(%rcx,%r10)
	addq	$-3, %r10
	movq	40(%rsp), %rsi
	movq	%r10, %rbp
	movq	%r10, %rdi
	subq	%r11, %rbp
	jb	.LBB22_512
	jmp	.LBB22_510
.LBB22_491:
	cmpl	$65536, %r9d
	jae	.LBB22_497
	cmpq	$4, %r10
	jb	.LBB22_503
	cmpq	%r8, %r10
	ja	.LBB22_664
	orl	$42074112, %r9d
	bswapl	%r9d
	movl	%r9d, -4(%rcx,%r10)
	addq	$-4, %r10
	movq	40(%rsp), %rsi
	movq	%r10, %rbp
	movq	%r10, %rdi
	subq	%r11, %rbp
	jb	.LBB22_512
	jmp	.LBB22_510
.LBB22_494:
	xorl	%r10d, %r10d
	movq	40(%rsp), %rsi
	movq	%r10, %rbp
	movq	%r10, %rdi
	subq	%r11, %rbp
	jb	.LBB22_512
	jmp	.LBB22_510
.LBB22_497:
	cmpl	$16777216, %r9d
	jae	.LBB22_502
	cmpq	$5, %r10
	jb	.LBB22_503
	cmpq	%r8, %r10
	ja	.LBB22_664
	movl	%r9d, %eax
	shrl	$16, %eax
	movl	%r9d, %ecx
	shrl	$8, %ecx
	movq	8(%rsp), %rdx
	movw	$-31998, -5(%rdx,%r10)
	movb	%al, -3(%rdx,%r10)
	movb	%cl, -2(%rdx,%r10)
	movq	%rdx, %rcx
	movb	%r9b, -1(%rdx,%r10)
	addq	$-5, %r10
	jmp	.LBB22_508
.LBB22_502:
	cmpq	$6, %r10
	jae	.LBB22_506
.LBB22_503:
	movq	40(%rsp), %rsi
	movq	%r10, %rbp
	movq	%r10, %rdi
	subq	%r11, %rbp
	jb	.LBB22_512
.LBB22_510:
	cmpq	%r8, %r10
	ja	.LBB22_664
	movq	%r10, %r13
	leaq	(%rcx,%rbp), %rdi
	movq	72(%rsp), %rsi
	movq	%r11, %rdx
	callq	memcpy
	movq	8(%rsp), %rcx
	movq	%rbp, %rdi
	movq	40(%rsp), %rsi
	movq	16(%rsp), %r8
	movq	%r13, %r10
.LBB22_512:
	movq	72(%rsp), %rax
	cmpb	$0, (%rax)
	js	.LBB22_514
	movq	56(%rsp), %rdx
	jmp	.LBB22_517
.LBB22_514:
	testq	%rdi, %rdi
	movq	56(%rsp), %rdx
	je	.LBB22_529
	cmpq	%r8, %rdi
	ja	.LBB22_664
	movb	$0, -1(%rcx,%rdi)
	decq	%rdi
.LBB22_517:
	subq	%rdi, %r10
	cmpl	$128, %r10d
	jae	.LBB22_521
	cmpq	$2, %rdi
	jb	.LBB22_538
	cmpq	%r8, %rdi
	ja	.LBB22_664
	shll	$8, %r10d
	orl	$2, %r10d
	movw	%r10w, -2(%rcx,%rdi)
	addq	$-2, %rdi
	jmp	.LBB22_538
.LBB22_521:
	cmpl	$256, %r10d
	jae	.LBB22_525
	cmpq	$3, %rdi
	jb	.LBB22_538
	cmpq	%r8, %rdi
	ja	.LBB22_664
	movw	$-32510, -3(%rcx,%rdi)
	movb	%r10b, -1(%rcx,%rdi)
	addq	$-3, %rdi
	jmp	.LBB22_538
.LBB22_525:
	cmpl	$65536, %r10d
	jae	.LBB22_530
	cmpq	$4, %rdi
	jb	.LBB22_538
	cmpq	%r8, %rdi
	ja	.LBB22_664
	orl	$42074112, %r10d
	bswapl	%r10d
	movl	%r10d, -4(%rcx,%rdi)
	addq	$-4, %rdi
	jmp	.LBB22_538
.LBB22_529:
	xorl	%edi, %edi
	jmp	.LBB22_538
.LBB22_530:
	cmpl	$16777216, %r10d
	jae	.LBB22_534
	cmpq	$5, %rdi
	jb	.LBB22_538
	cmpq	%r8, %rdi
	ja	.LBB22_664
	movl	%r10d, %eax
	shrl	$16, %eax
	movl	%r10d, %ecx
	shrl	$8, %ecx
	movq	8(%rsp), %rdx
	movw	$-31998, -5(%rdx,%rdi)
	movb	%al, -3(%rdx,%rdi)
	movb	%cl, -2(%rdx,%rdi)
	movq	%rdx, %rcx
	movb	%r10b, -1(%rdx,%rdi)
	addq	$-5, %rdi
	jmp	.LBB22_537
.LBB22_534:
	cmpq	$6, %rdi
	jb	.LBB22_538
	cmpq	%r8, %rdi
	ja	.LBB22_664
	movl	%r10d, %eax
	shrl	$24, %eax
	movl	%r10d, %ecx
	shrl	$16, %ecx
	movl	%r10d, %edx
	shrl	$8, %edx
	movq	8(%rsp), %rsi
	movw	$-31742, -6(%rsi,%rdi)
	movb	%al, -4(%rsi,%rdi)
	movb	%cl, -3(%rsi,%rdi)
	movq	%rsi, %rcx
	movb	%dl, -2(%rsi,%rdi)
	movb	%r10b, -1(%rsi,%rdi)
	addq	$-6, %rdi
.LBB22_537:
	movq	40(%rsp), %rsi
	movq	56(%rsp), %rdx
	movq	16(%rsp), %r8
.LBB22_538:
	movq	%rdi, %r13
	movq	%rdi, %rax
	subq	%rdx, %r13
	jb	.LBB22_541
	cmpq	%r8, %rdi
	ja	.LBB22_664
	movq	%rdi, %rbp
	leaq	(%rcx,%r13), %rdi
	movq	40(%rsp), %rsi
	callq	memcpy
	movq	40(%rsp), %rsi
	movq	8(%rsp), %rcx
	movq	%r13, %rax
	movq	16(%rsp), %r8
	movq	%rbp, %rdi
.LBB22_541:
	cmpb	$0, (%rsi)
	jns	.LBB22_545
	testq	%rax, %rax
	je	.LBB22_557
	cmpq	%r8, %rax
	ja	.LBB22_664
	movb	$0, -1(%rcx,%rax)
	decq	%rax
.LBB22_545:
	subq	%rax, %rdi
	cmpl	$128, %edi
	jae	.LBB22_549
	cmpq	$2, %rax
	jb	.LBB22_566
	cmpq	%r8, %rax
	ja	.LBB22_664
	shll	$8, %edi
	orl	$2, %edi
	movw	%di, -2(%rcx,%rax)
	addq	$-2, %rax
	jmp	.LBB22_566
.LBB22_549:
	cmpl	$256, %edi
	jae	.LBB22_553
	cmpq	$3, %rax
	jb	.LBB22_566
	cmpq	%r8, %rax
	ja	.LBB22_664
	movw	$-32510, -3(%rcx,%rax)
	movb	%dil, -1(%rcx,%rax)
	addq	$-3, %rax
	jmp	.LBB22_566
.LBB22_553:
	cmpl	$65536, %edi
	jae	.LBB22_558
	cmpq	$4, %rax
	jb	.LBB22_566
	cmpq	%r8, %rax
	ja	.LBB22_664
	orl	$42074112, %edi
	bswapl	%edi
	movl	%edi, -4(%rcx,%rax)
	addq	$-4, %rax
	jmp	.LBB22_566
.LBB22_557:
	xorl	%eax, %eax
	jmp	.LBB22_566
.LBB22_558:
	cmpl	$16777216, %edi
	jae	.LBB22_562
	cmpq	$5, %rax
	jb	.LBB22_566
	cmpq	%r8, %rax
	ja	.LBB22_664
	movq	%rax, %rsi
	movl	%edi, %eax
	shrl	$16, %eax
	movl	%edi, %ecx
	shrl	$8, %ecx
	movq	8(%rsp), %rdx
	movw	$-31998, -5(%rdx,%rsi)
	movb	%al, -3(%rdx,%rsi)
	movb	%cl, -2(%rdx,%rsi)
	movq	%rdx, %rcx
	movb	%dil, -1(%rdx,%rsi)
	leaq	-5(%rsi), %rax
	jmp	.LBB22_565
.LBB22_562:
	cmpq	$6, %rax
	jb	.LBB22_566
	cmpq	%r8, %rax
	ja	.LBB22_664
	movq	%rax, %r9
	movl	%edi, %eax
	shrl	$24, %eax
	movl	%edi, %ecx
	shrl	$16, %ecx
	movl	%edi, %edx
	shrl	$8, %edx
	movq	8(%rsp), %rsi
	movw	$-31742, -6(%rsi,%r9)
	movb	%al, -4(%rsi,%r9)
	movb	%cl, -3(%rsi,%r9)
	movq	%rsi, %rcx
	movb	%dl, -2(%rsi,%r9)
	movb	%dil, -1(%rsi,%r9)
	leaq	-6(%r9), %rax
.LBB22_565:
	movq	16(%rsp), %r8
.LBB22_566:
	movq	%rax, %rbp
	movq	%rax, %r13
	subq	%r12, %rbp
	jb	.LBB22_569
	movq	%rax, 88(%rsp)
	cmpq	%r8, %rax
	ja	.LBB22_664
	leaq	(%rcx,%rbp), %rdi
	movq	%r15, %rsi
	movq	%r12, %rdx
	callq	memcpy
	movq	8(%rsp), %rcx
	movq	%rbp, %r13
	movq	16(%rsp), %r8
	movq	88(%rsp), %rax
.LBB22_569:
	cmpb	$0, (%r15)
	jns	.LBB22_573
	testq	%r13, %r13
	je	.LBB22_585
	cmpq	%r8, %r13
	ja	.LBB22_664
	movb	$0, -1(%rcx,%r13)
	decq	%r13
.LBB22_573:
	subq	%r13, %rax
	cmpl	$128, %eax
	jae	.LBB22_577
	cmpq	$2, %r13
	jb	.LBB22_594
	cmpq	%r8, %r13
	ja	.LBB22_664
	shll	$8, %eax
	orl	$2, %eax
	movw	%ax, -2(%rcx,%r13)
	addq	$-2, %r13
	jmp	.LBB22_594
.LBB22_577:
	cmpl	$256, %eax
	jae	.LBB22_581
	cmpq	$3, %r13
	jb	.LBB22_594
	cmpq	%r8, %r13
	ja	.LBB22_664
	movw	$-32510, -3(%rcx,%r13)
	movb	%al, -1(%rcx,%r13)
	addq	$-3, %r13
	jmp	.LBB22_594
.LBB22_581:
	cmpl	$65536, %eax
	jae	.LBB22_586
	cmpq	$4, %r13
	jb	.LBB22_594
	cmpq	%r8, %r13
	ja	.LBB22_664
	orl	$42074112, %eax
	bswapl	%eax
	movl	%eax, -4(%rcx,%r13)
	addq	$-4, %r13
	jmp	.LBB22_594
.LBB22_585:
	xorl	%r13d, %r13d
	jmp	.LBB22_594
.LBB22_586:
	cmpl	$16777216, %eax
	jae	.LBB22_590
	cmpq	$5, %r13
	jb	.LBB22_594
	cmpq	%r8, %r13
	ja	.LBB22_664
	movq	%rax, %rsi
	shrl	$16, %eax
	movl	%esi, %ecx
	shrl	$8, %ecx
	movq	8(%rsp), %rdx
	movw	$-31998, -5(%rdx,%r13)
	movb	%al, -3(%rdx,%r13)
	movb	%cl, -2(%rdx,%r13)
	movq	%rdx, %rcx
	movb	%sil, -1(%rdx,%r13)
	addq	$-5, %r13
	jmp	.LBB22_593
.LBB22_590:
	cmpq	$6, %r13
	jb	.LBB22_594
	cmpq	%r8, %r13
	ja	.LBB22_664
	movq	%rax, %rdi
	shrl	$24, %eax
	movl	%edi, %ecx
	shrl	$16, %ecx
	movl	%edi, %edx
	shrl	$8, %edx
	movq	8(%rsp), %rsi
	movw	$-31742, -6(%rsi,%r13)
	movb	%al, -4(%rsi,%r13)
	movb	%cl, -3(%rsi,%r13)
	movq	%rsi, %rcx
	movb	%dl, -2(%rsi,%r13)
	movb	%dil, -1(%rsi,%r13)
	addq	$-6, %r13
.LBB22_593:
	movq	16(%rsp), %r8
.LBB22_594:
	movq	%r13, %r15
	movq	%r13, %rax
	subq	%r14, %r15
	jb	.LBB22_597
	cmpq	%r8, %r13
	ja	.LBB22_664
	leaq	(%rcx,%r15), %rdi
	movq	%rbx, %rsi
	movq	%r14, %rdx
	callq	memcpy
	movq	8(%rsp), %rcx
	movq	%r15, %rax
	movq	16(%rsp), %r8
.LBB22_597:
	cmpb	$0, (%rbx)
	jns	.LBB22_601
	testq	%rax, %rax
	je	.LBB22_624
	cmpq	%r8, %rax
	ja	.LBB22_664
	movb	$0, -1(%rcx,%rax)
	decq	%rax
.LBB22_601:
	subq	%rax, %r13
	cmpl	$128, %r13d
	jae	.LBB22_605
	cmpq	$2, %rax
	jb	.LBB22_621
	cmpq	%r8, %rax
	ja	.LBB22_664
	shll	$8, %r13d
	orl	$2, %r13d
	movw	%r13w, -2(%rcx,%rax)
	addq	$-2, %rax
	jmp	.LBB22_621
.LBB22_605:
	cmpl	$256, %r13d
	jae	.LBB22_609
	cmpq	$3, %rax
	jb	.LBB22_621
	cmpq	%r8, %rax
	ja	.LBB22_664
	movw	$-32510, -3(%rcx,%rax)
	movb	%r13b, -1(%rcx,%rax)
	addq	$-3, %rax
	jmp	.LBB22_621
.LBB22_609:
	cmpl	$65536, %r13d
	jae	.LBB22_613
	cmpq	$4, %rax
	jb	.LBB22_621
	cmpq	%r8, %rax
	ja	.LBB22_664
	orl	$42074112, %r13d
	bswapl	%r13d
	movl	%r13d, -4(%rcx,%rax)
	addq	$-4, %rax
	jmp	.LBB22_621
.LBB22_613:
	cmpl	$16777216, %r13d
	jae	.LBB22_617
	cmpq	$5, %rax
	jb	.LBB22_621
	cmpq	%r8, %rax
	ja	.LBB22_664
	movl	%r13d, %ecx
	shrl	$16, %ecx
	movl	%r13d, %edx
	shrl	$8, %edx
	movq	8(%rsp), %rsi
	movw	$-31998, -5(%rsi,%rax)
	movb	%cl, -3(%rsi,%rax)
	movq	%rsi, %rcx
	movb	%dl, -2(%rsi,%rax)
	movb	%r13b, -1(%rsi,%rax)
	addq	$-5, %rax
	jmp	.LBB22_620
.LBB22_617:
	cmpq	$6, %rax
	jb	.LBB22_621
	cmpq	%r8, %rax
	ja	.LBB22_664
	movl	%r13d, %ecx
	shrl	$24, %ecx
	movl	%r13d, %edx
	shrl	$16, %edx
	movl	%r13d, %esi
	shrl	$8, %esi
	movq	8(%rsp), %rdi
	movw	$-31742, -6(%rdi,%rax)
	movb	%cl, -4(%rdi,%rax)
	movq	%rdi, %rcx
	movb	%dl, -3(%rdi,%rax)
	movb	%sil, -2(%rdi,%rax)
	movb	%r13b, -1(%rdi,%rax)
	addq	$-6, %rax
.LBB22_620:
	movq	16(%rsp), %r8
.LBB22_621:
	testq	%rax, %rax
	je	.LBB22_624
	cmpq	%r8, %rax
	ja	.LBB22_664
	leaq	-1(%rax), %rdx
	movq	104(%rsp), %rsi
	movb	%sil, -1(%rcx,%rax)
	jmp	.LBB22_625
.LBB22_624:
	xorl	%eax, %eax
	xorl	%edx, %edx
.LBB22_625:
	subq	%rdx, %rax
	cmpl	$128, %eax
	jae	.LBB22_629
	cmpq	$2, %rdx
	jb	.LBB22_645
	cmpq	%r8, %rdx
	ja	.LBB22_664
	shll	$8, %eax
	orl	$2, %eax
	movw	%ax, -2(%rcx,%rdx)
	addq	$-2, %rdx
	jmp	.LBB22_645
.LBB22_629:
	cmpl	$256, %eax
	jae	.LBB22_633
	cmpq	$3, %rdx
	jb	.LBB22_645
	cmpq	%r8, %rdx
	ja	.LBB22_664
	movw	$-32510, -3(%rcx,%rdx)
	movb	%al, -1(%rcx,%rdx)
	addq	$-3, %rdx
	jmp	.LBB22_645
.LBB22_633:
	cmpl	$65536, %eax
	jae	.LBB22_637
	cmpq	$4, %rdx
	jb	.LBB22_645
	cmpq	%r8, %rdx
	ja	.LBB22_664
	orl	$42074112, %eax
	bswapl	%eax
	movl	%eax, -4(%rcx,%rdx)
	addq	$-4, %rdx
	jmp	.LBB22_645
.LBB22_637:
	cmpl	$16777216, %eax
	jae	.LBB22_641
	cmpq	$5, %rdx
	jb	.LBB22_645
	cmpq	%r8, %rdx
	ja	.LBB22_664
	movl	%eax, %ecx
	shrl	$16, %ecx
	movl	%eax, %esi
	shrl	$8, %esi
	movq	8(%rsp), %rdi
	movw	$-31998, -5(%rdi,%rdx)
	movb	%cl, -3(%rdi,%rdx)
	movq	%rdi, %rcx
	movb	%sil, -2(%rdi,%rdx)
	movb	%al, -1(%rdi,%rdx)
	addq	$-5, %rdx
	jmp	.LBB22_644
.LBB22_641:
	cmpq	$6, %rdx
	jb	.LBB22_645
	cmpq	%r8, %rdx
	ja	.LBB22_664
	movl	%eax, %ecx
	shrl	$24, %ecx
	movl	%eax, %esi
	shrl	$16, %esi
	movl	%eax, %edi
	shrl	$8, %edi
	movq	8(%rsp), %r8
	movw	$-31742, -6(%r8,%rdx)
	movb	%cl, -4(%r8,%rdx)
	movq	%r8, %rcx
	movb	%sil, -3(%r8,%rdx)
	movb	%dil, -2(%r8,%rdx)
	movb	%al, -1(%r8,%rdx)
	addq	$-6, %rdx
.LBB22_644:
	movq	16(%rsp), %r8
.LBB22_645:
	movq	%r8, %rsi
	subq	%rdx, %rsi
	xorl	%eax, %eax
	cmpl	$128, %esi
	jae	.LBB22_649
	cmpq	$2, %rdx
	jb	.LBB22_236
	cmpq	%rdx, %r8
	jb	.LBB22_664
	shll	$8, %esi
	orl	$48, %esi
	movw	%si, -2(%rcx,%rdx)
	jmp	.LBB22_236
.LBB22_649:
	cmpl	$256, %esi
	jae	.LBB22_653
	cmpq	$3, %rdx
	jb	.LBB22_236
	cmpq	%rdx, %r8
	jb	.LBB22_664
	movw	$-32464, -3(%rcx,%rdx)
	movb	%sil, -1(%rcx,%rdx)
	jmp	.LBB22_236
.LBB22_653:
	cmpl	$65536, %esi
	jae	.LBB22_657
	cmpq	$4, %rdx
	jb	.LBB22_236
	cmpq	%rdx, %r8
	jb	.LBB22_664
	orl	$813826048, %esi
	bswapl	%esi
	movl	%esi, -4(%rcx,%rdx)
	jmp	.LBB22_236
.LBB22_657:
	cmpl	$16777216, %esi
	jae	.LBB22_661
	cmpq	$5, %rdx
	jb	.LBB22_236
	cmpq	%rdx, %r8
	jb	.LBB22_664
	movl	%esi, %ecx
	shrl	$16, %ecx
	movl	%esi, %edi
	shrl	$8, %edi
	movq	8(%rsp), %r8
	movw	$-31952, -5(%r8,%rdx)
	movb	%cl, -3(%r8,%rdx)
	movb	%dil, -2(%r8,%rdx)
	movb	%sil, -1(%r8,%rdx)
	jmp	.LBB22_236
.LBB22_661:
	cmpq	$6, %rdx
	jb	.LBB22_236
	cmpq	%rdx, %r8
	jb	.LBB22_664
	movl	%esi, %ecx
	shrl	$24, %ecx
	movl	%esi, %edi
	shrl	$16, %edi
	movl	%esi, %r8d
	shrl	$8, %r8d
	movq	8(%rsp), %r9
	movw	$-31696, -6(%r9,%rdx)
	movb	%cl, -4(%r9,%rdx)
	movb	%dil, -3(%r9,%rdx)
	movb	%r8b, -2(%r9,%rdx)
	movb	%sil, -1(%r9,%rdx)
	jmp	.LBB22_236
.LBB22_506:
	cmpq	%r8, %r10
	ja	.LBB22_664
	movl	%r9d, %eax
	shrl	$24, %eax
	movl	%r9d, %ecx
	shrl	$16, %ecx
	movl	%r9d, %edx
	shrl	$8, %edx
	movq	8(%rsp), %rsi
	movw	$-31742, -6(%rsi,%r10)
	movb	%al, -4(%rsi,%r10)
	movb	%cl, -3(%rsi,%r10)
	movq	%rsi, %rcx
	movb	%dl, -2(%rsi,%r10)
	movb	%r9b, -1(%rsi,%r10)
	addq	$-6, %r10
.LBB22_508:
	movq	40(%rsp), %rsi
	movq	24(%rsp), %r11
	movq	16(%rsp), %r8
	movq	%r10, %rbp
	movq	%r10, %rdi
	subq	%r11, %rbp
	jb	.LBB22_512
	jmp	.LBB22_510
.LBB22_664:
	ud2
.Lfunc_end22:
	.size	pkcs1_c_private_key_encode, .Lfunc_end22-pkcs1_c_private_key_encode
	.cfi_endproc

	.section	.rodata.cst16,"aM",@progbits,16
	.p2align	4, 0x0
.LCPI23_0:
	.zero	16,128
.LCPI23_1:
	.byte	128
	.byte	128
	.byte	128
	.byte	128
	.byte	128
	.byte	128
	.byte	128
	.byte	128
	.zero	1
	.zero	1
	.zero	1
	.zero	1
	.zero	1
	.zero	1
	.zero	1
	.zero	1
	.section	.text._RNvNtNtNtCs00000000000_7pkcs1_c5calls7pkcs1_c3pss10from_c_pss,"ax",@progbits
	.p2align	4, 0x90
	.type	_RNvNtNtNtCs00000000000_7pkcs1_c5calls7pkcs1_c3pss10from_c_pss,@function
_RNvNtNtNtCs00000000000_7pkcs1_c5calls7pkcs1_c3pss10from_c_pss:
	.cfi_startproc
	pushq	%rbp
	.cfi_def_cfa_offset 16
	pushq	%r15
	.cfi_def_cfa_offset 24
	pushq	%r14
	.cfi_def_cfa_offset 32
	pushq	%r13
	.cfi_def_cfa_offset 40
	pushq	%r12
	.cfi_def_cfa_offset 48
	pushq	%rbx
	.cfi_def_cfa_offset 56
	subq	$24, %rsp
	.cfi_def_cfa_offset 80
	.cfi_offset %rbx, -56
	.cfi_offset %r12, -48
	.cfi_offset %r13, -40
	.cfi_offset %r14, -32
	.cfi_offset %r15, -24
	.cfi_offset %rbp, -16
	movq	8(%rsi), %rax
	leaq	-1(%rax), %rcx
	movb	$5, %dl
	cmpq	$38, %rcx
	ja	.LBB23_48
	movq	(%rsi), %r9
	movzbl	(%r9,%rcx), %r8d
	testb	%r8b, %r8b
	js	.LBB23_14
	movdqa	.LCPI23_1(%rip), %xmm0
	movdqa	.LCPI23_0(%rip), %xmm1
	xorl	%r10d, %r10d
	movq	%r9, %r11
	jmp	.LBB23_4
	.p2align	4, 0x90
.LBB23_3:
	addq	%r14, %rcx
	addq	%rbx, %r11
.LBB23_4:
	cmpq	$7, %rcx
	jbe	.LBB23_7
	movq	(%r11), %xmm2
	pcmpeqb	%xmm0, %xmm2
	pmovmskb	%xmm2, %ebx
	testb	%bl, %bl
	jne	.LBB23_13
	movl	$8, %ebx
	movq	$-8, %r14
	jmp	.LBB23_3
	.p2align	4, 0x90
.LBB23_7:
	cmpq	$3, %rcx
	jbe	.LBB23_10
	movd	(%r11), %xmm2
	punpcklbw	%xmm2, %xmm2
	punpcklwd	%xmm2, %xmm2
	pcmpeqb	%xmm1, %xmm2
	movmskps	%xmm2, %ebx
	testl	%ebx, %ebx
	jne	.LBB23_13
	movl	$4, %ebx
	movq	$-4, %r14
	jmp	.LBB23_3
	.p2align	4, 0x90
.LBB23_10:
	testq	%rcx, %rcx
	je	.LBB23_17
	cmpb	(%r11), %r10b
	jo	.LBB23_13
	movl	$1, %ebx
	movq	$-1, %r14
	jmp	.LBB23_3
.LBB23_13:
	testq	%rax, %rax
	je	.LBB23_17
.LBB23_14:
	xorl	%ecx, %ecx
	cmpb	(%r9), %cl
	jo	.LBB23_49
	cmpq	$1, %rax
	jne	.LBB23_43
.LBB23_16:
	testb	%r8b, %r8b
	js	.LBB23_48
.LBB23_17:
	cmpb	$1, 16(%rsi)
	jne	.LBB23_21
	movzbl	17(%rsi), %ecx
	movl	%ecx, %edx
	notb	%dl
	testb	$31, %dl
	sete	%dl
	testb	$-33, %cl
	sete	%r8b
	orb	%dl, %r8b
	movb	$11, %dl
	jne	.LBB23_49
	movq	32(%rsi), %r11
	movq	%r11, %rdx
	shrq	$32, %rdx
	movb	$7, %dl
	jne	.LBB23_49
	movzbl	%cl, %ecx
	movq	%rcx, 16(%rsp)
	movq	24(%rsi), %r14
	movl	%r11d, %ecx
	shrl	$8, %ecx
	movl	%ecx, 4(%rsp)
	movq	%r11, %rcx
	shrq	$24, %rcx
	movq	%rcx, 8(%rsp)
	jmp	.LBB23_22
.LBB23_21:
	xorl	%r14d, %r14d
	movl	%ecx, 4(%rsp)
.LBB23_22:
	movq	48(%rsi), %rcx
	leaq	-1(%rcx), %rdx
	movl	$5, %r8d
	cmpq	$38, %rdx
	ja	.LBB23_77
	movq	40(%rsi), %r15
	movzbl	(%r15,%rdx), %r12d
	testb	%r12b, %r12b
	js	.LBB23_36
	movdqa	.LCPI23_1(%rip), %xmm0
	movdqa	.LCPI23_0(%rip), %xmm1
	xorl	%r10d, %r10d
	movq	%r15, %r13
	jmp	.LBB23_27
	.p2align	4, 0x90
.LBB23_25:
	movl	$1, %ebp
	movq	$-1, %rbx
.LBB23_26:
	addq	%rbx, %rdx
	addq	%rbp, %r13
.LBB23_27:
	cmpq	$7, %rdx
	jbe	.LBB23_30
	movq	(%r13), %xmm2
	pcmpeqb	%xmm0, %xmm2
	pmovmskb	%xmm2, %ebx
	testb	%bl, %bl
	jne	.LBB23_35
	movl	$8, %ebp
	movq	$-8, %rbx
	jmp	.LBB23_26
	.p2align	4, 0x90
.LBB23_30:
	cmpq	$3, %rdx
	jbe	.LBB23_33
	movd	(%r13), %xmm2
	punpcklbw	%xmm2, %xmm2
	punpcklwd	%xmm2, %xmm2
	pcmpeqb	%xmm1, %xmm2
	movmskps	%xmm2, %ebx
	testl	%ebx, %ebx
	jne	.LBB23_35
	movl	$4, %ebp
	movq	$-4, %rbx
	jmp	.LBB23_26
	.p2align	4, 0x90
.LBB23_33:
	testq	%rdx, %rdx
	je	.LBB23_39
	cmpb	(%r13), %r10b
	jno	.LBB23_25
.LBB23_35:
	testq	%rcx, %rcx
	je	.LBB23_39
.LBB23_36:
	xorl	%edx, %edx
	cmpb	(%r15), %dl
	jo	.LBB23_77
	cmpq	$1, %rcx
	jne	.LBB23_69
.LBB23_38:
	testb	%r12b, %r12b
	js	.LBB23_77
.LBB23_39:
	cmpb	$1, 56(%rsi)
	jne	.LBB23_66
	movq	72(%rsi), %rdx
	leaq	-1(%rdx), %r8
	movb	$5, %bl
	cmpq	$38, %r8
	ja	.LBB23_75
	movq	64(%rsi), %r13
	movzbl	(%r13,%r8), %r10d
	movb	%r10b, 3(%rsp)
	testb	%r10b, %r10b
	js	.LBB23_64
	movdqa	.LCPI23_1(%rip), %xmm0
	movdqa	.LCPI23_0(%rip), %xmm1
	xorl	%r10d, %r10d
	movq	%r13, %r12
	jmp	.LBB23_55
.LBB23_43:
	leaq	-1(%rax), %r10
	xorl	%r11d, %r11d
	xorl	%ecx, %ecx
	jmp	.LBB23_45
	.p2align	4, 0x90
.LBB23_44:
	incq	%rcx
	cmpq	%rcx, %r10
	je	.LBB23_16
.LBB23_45:
	cmpb	1(%r9,%rcx), %r11b
	jno	.LBB23_44
	cmpq	%rax, %rcx
	jae	.LBB23_91
	cmpb	$0, (%r9,%rcx)
	js	.LBB23_44
.LBB23_48:
	xorl	%ecx, %ecx
.LBB23_49:
	movzbl	%cl, %eax
	shll	$8, %eax
	movzbl	%dl, %ecx
	orl	%eax, %ecx
	movw	%cx, 8(%rdi)
.LBB23_50:
	movb	$0, 10(%rdi)
.LBB23_51:
	movq	$0, (%rdi)
.LBB23_52:
	addq	$24, %rsp
	.cfi_def_cfa_offset 56
	popq	%rbx
	.cfi_def_cfa_offset 48
	popq	%r12
	.cfi_def_cfa_offset 40
	popq	%r13
	.cfi_def_cfa_offset 32
	popq	%r14
	.cfi_def_cfa_offset 24
	popq	%r15
	.cfi_def_cfa_offset 16
	popq	%rbp
	.cfi_def_cfa_offset 8
	retq
.LBB23_53:
	.cfi_def_cfa_offset 80
	movl	$1, %ebp
	movq	$-1, %rbx
.LBB23_54:
	addq	%rbx, %r8
	addq	%rbp, %r12
.LBB23_55:
	cmpq	$7, %r8
	jbe	.LBB23_58
	movq	(%r12), %xmm2
	pcmpeqb	%xmm0, %xmm2
	pmovmskb	%xmm2, %ebx
	testb	%bl, %bl
	jne	.LBB23_63
	movl	$8, %ebp
	movq	$-8, %rbx
	jmp	.LBB23_54
.LBB23_58:
	cmpq	$3, %r8
	jbe	.LBB23_61
	movd	(%r12), %xmm2
	punpcklbw	%xmm2, %xmm2
	punpcklwd	%xmm2, %xmm2
	pcmpeqb	%xmm1, %xmm2
	movmskps	%xmm2, %ebx
	testl	%ebx, %ebx
	jne	.LBB23_63
	movl	$4, %ebp
	movq	$-4, %rbx
	jmp	.LBB23_54
.LBB23_61:
	testq	%r8, %r8
	je	.LBB23_80
	cmpb	(%r12), %r10b
	jno	.LBB23_53
.LBB23_63:
	testq	%rdx, %rdx
	je	.LBB23_80
.LBB23_64:
	xorl	%r8d, %r8d
	cmpb	(%r13), %r8b
	jno	.LBB23_78
	movb	$5, %bl
	jmp	.LBB23_76
.LBB23_66:
	xorl	%r13d, %r13d
.LBB23_67:
	cmpb	$1, 105(%rsi)
	jne	.LBB23_74
	movq	%r9, (%rdi)
	movw	%ax, 8(%rdi)
	shrl	$16, %eax
	movb	%al, 10(%rdi)
	movb	$0, 15(%rdi)
	movl	$0, 11(%rdi)
	movq	%r14, 16(%rdi)
	movb	%r11b, 24(%rdi)
	movl	4(%rsp), %eax
	movw	%ax, 25(%rdi)
	movq	8(%rsp), %rax
	movl	%eax, 27(%rdi)
	shrq	$32, %rax
	movb	%al, 31(%rdi)
	movq	16(%rsp), %rax
	movq	%rax, 32(%rdi)
	movq	%r15, 40(%rdi)
	movw	%cx, 48(%rdi)
	shrl	$16, %ecx
	movb	%cl, 50(%rdi)
	movb	$0, 55(%rdi)
	movl	$0, 51(%rdi)
	movq	%r13, 56(%rdi)
	movw	%dx, 64(%rdi)
	shrl	$16, %edx
	movb	%dl, 66(%rdi)
	movb	$0, 71(%rdi)
	movl	$0, 67(%rdi)
	movq	%r12, 72(%rdi)
	movb	%r10b, 80(%rdi)
	movw	%bp, 81(%rdi)
	movl	%r8d, 83(%rdi)
	shrq	$32, %r8
	movb	%r8b, 87(%rdi)
	movq	%rbx, 88(%rdi)
	movzbl	104(%rsi), %eax
	movb	%al, 96(%rdi)
	jmp	.LBB23_52
.LBB23_69:
	leaq	-1(%rcx), %r10
	xorl	%r13d, %r13d
	xorl	%edx, %edx
	jmp	.LBB23_71
	.p2align	4, 0x90
.LBB23_70:
	incq	%rdx
	cmpq	%rdx, %r10
	je	.LBB23_38
.LBB23_71:
	cmpb	1(%r15,%rdx), %r13b
	jno	.LBB23_70
	cmpq	%rcx, %rdx
	jae	.LBB23_92
	cmpb	$0, (%r15,%rdx)
	js	.LBB23_70
	jmp	.LBB23_77
.LBB23_74:
	movw	$525, 8(%rdi)
	jmp	.LBB23_51
.LBB23_75:
	xorl	%r8d, %r8d
.LBB23_76:
	movzbl	%r8b, %eax
	shll	$8, %eax
	movzbl	%bl, %r8d
	orl	%eax, %r8d
.LBB23_77:
	movw	%r8w, 8(%rdi)
	jmp	.LBB23_50
.LBB23_78:
	cmpq	$1, %rdx
	jne	.LBB23_85
.LBB23_79:
	cmpb	$0, 3(%rsp)
	js	.LBB23_90
.LBB23_80:
	cmpb	$1, 80(%rsi)
	jne	.LBB23_84
	movzbl	81(%rsi), %r8d
	movl	%r8d, %r10d
	notb	%r10b
	testb	$31, %r10b
	sete	%r10b
	testb	$-33, %r8b
	sete	%bl
	orb	%r10b, %bl
	movb	$11, %bl
	jne	.LBB23_76
	movq	96(%rsi), %r10
	movq	%r10, %rbx
	shrq	$32, %rbx
	movb	$7, %bl
	jne	.LBB23_76
	movzbl	%r8b, %ebx
	movq	88(%rsi), %r12
	movl	%r10d, %ebp
	shrl	$8, %ebp
	movq	%r10, %r8
	shrq	$24, %r8
	jmp	.LBB23_67
.LBB23_84:
	xorl	%r12d, %r12d
	jmp	.LBB23_67
.LBB23_85:
	leaq	-1(%rdx), %r10
	xorl	%r12d, %r12d
	xorl	%r8d, %r8d
	jmp	.LBB23_87
.LBB23_86:
	incq	%r8
	cmpq	%r8, %r10
	je	.LBB23_79
.LBB23_87:
	cmpb	1(%r13,%r8), %r12b
	jno	.LBB23_86
	cmpq	%rdx, %r8
	jae	.LBB23_93
	cmpb	$0, (%r13,%r8)
	js	.LBB23_86
.LBB23_90:
	xorl	%r8d, %r8d
	movb	$5, %bl
	jmp	.LBB23_76
.LBB23_91:
	movq	%rcx, %rdi
	movq	%rax, %rsi
	ud2
.LBB23_92:
	movq	%rdx, %rdi
	movq	%rcx, %rsi
	ud2
.LBB23_93:
	movq	%r8, %rdi
	movq	%rdx, %rsi
	ud2
.Lfunc_end23:
	.size	_RNvNtNtNtCs00000000000_7pkcs1_c5calls7pkcs1_c3pss10from_c_pss, .Lfunc_end23-_RNvNtNtNtCs00000000000_7pkcs1_c5calls7pkcs1_c3pss10from_c_pss
	.cfi_endproc

	.section	.text.pkcs1_c_pss_params_decode,"ax",@progbits
	.globl	pkcs1_c_pss_params_decode
	.p2align	4, 0x90
	.type	pkcs1_c_pss_params_decode,@function
pkcs1_c_pss_params_decode:
	.cfi_startproc
	endbr64
	pushq	%rbp
	.cfi_def_cfa_offset 16
	pushq	%r15
	.cfi_def_cfa_offset 24
	pushq	%r14
	.cfi_def_cfa_offset 32
	pushq	%r13
	.cfi_def_cfa_offset 40
	pushq	%r12
	.cfi_def_cfa_offset 48
	pushq	%rbx
	.cfi_def_cfa_offset 56
	subq	$136, %rsp
	.cfi_def_cfa_offset 192
	.cfi_offset %rbx, -56
	.cfi_offset %r12, -48
	.cfi_offset %r13, -40
	.cfi_offset %r14, -32
	.cfi_offset %r15, -24
	.cfi_offset %rbp, -16
	movq	%rsi, %rax
	shrq	$32, %rax
	movl	$8, %eax
	jne	.LBB24_36
	movq	%rsi, %rcx
	cmpq	$2, %rsi
	jb	.LBB24_16
	cmpb	$48, (%rdi)
	jne	.LBB24_16
	leaq	2(%rdi), %rsi
	leaq	-2(%rcx), %rbx
	movsbq	1(%rdi), %rax
	testq	%rax, %rax
	js	.LBB24_4
	subq	%rax, %rbx
	jb	.LBB24_16
	movq	%rdx, %r14
	jmp	.LBB24_18
.LBB24_4:
	cmpb	$-126, %al
	jne	.LBB24_9
	cmpq	$1, %rbx
	jbe	.LBB24_16
	movzbl	2(%rdi), %esi
	testq	%rsi, %rsi
	je	.LBB24_16
	leaq	-4(%rcx), %rbx
	shll	$8, %esi
	movzbl	3(%rdi), %eax
	orq	%rsi, %rax
	subq	%rax, %rbx
	jb	.LBB24_16
	movq	%rdx, %r14
	addq	$4, %rdi
	movq	%rdi, %rsi
	jmp	.LBB24_18
.LBB24_9:
	testq	%rbx, %rbx
	je	.LBB24_16
	cmpb	$-127, %al
	jne	.LBB24_16
	movzbl	(%rsi), %eax
	testb	%al, %al
	jns	.LBB24_16
	leaq	-3(%rcx), %rbx
	subq	%rax, %rbx
	jb	.LBB24_16
	movq	%rdx, %r14
	addq	$3, %rdi
	movq	%rdi, %rsi
	jmp	.LBB24_18
.LBB24_16:
	movq	%rdx, %r14
	leaq	24(%rsp), %rax
	movq	%rdi, %rsi
	movq	%rax, %rdi
	movq	%rcx, %rdx
	movl	$48, %ecx
	callq	_RNvNtNtNtCs00000000000_7pkcs1_c6proved8der_core5split14split_unlikely
	movq	24(%rsp), %rsi
	testq	%rsi, %rsi
	je	.LBB24_20
	movq	32(%rsp), %rax
	movq	48(%rsp), %rbx
.LBB24_18:
	leaq	24(%rsp), %rdi
	movq	%rax, %rdx
	callq	_RNvNtNtNtCs00000000000_7pkcs1_c6proved12pkcs1_params6noting8note_pss
	movzbl	26(%rsp), %eax
	shll	$16, %eax
	movzwl	24(%rsp), %esi
	orl	%eax, %esi
	cmpb	$2, 128(%rsp)
	jne	.LBB24_21
	leal	-17(%rsi), %eax
	movzbl	%al, %eax
	leaq	1(%rax), %rcx
	xorl	%edx, %edx
	cmpb	$3, %al
	cmovbq	%rcx, %rdx
	movl	$18, %eax
	leaq	.LJTI24_0(%rip), %rcx
	movslq	(%rcx,%rdx,4), %rdx
	addq	%rcx, %rdx
	notrack	jmpq	*%rdx
.LBB24_35:
	movzbl	%sil, %eax
	incl	%eax
	jmp	.LBB24_36
.LBB24_21:
	movl	$13, %eax
	testq	%rbx, %rbx
	jne	.LBB24_36
	movzbl	31(%rsp), %edx
	movl	27(%rsp), %eax
	movzbl	34(%rsp), %edi
	shll	$16, %edi
	movzwl	32(%rsp), %r10d
	orl	%edi, %r10d
	andl	$16777215, %esi
	shlq	$24, %rax
	shlq	$56, %rdx
	orq	%rax, %rdx
	orq	%rsi, %rdx
	testq	%rdx, %rdx
	je	.LBB24_32
	movq	%r14, %rcx
	movl	35(%rsp), %eax
	movzbl	39(%rsp), %esi
	shlq	$32, %rsi
	orq	%rax, %rsi
	movq	40(%rsp), %r9
	movq	80(%rsp), %r8
	shlq	$24, %rsi
	andl	$16777215, %r10d
	leaq	_RNvNtCs00000000000_7pkcs1_c10rattle_std8AN_OCTET(%rip), %rdi
	testq	%r9, %r9
	je	.LBB24_24
	movq	48(%rsp), %rax
	movq	%rax, 16(%rsp)
	movq	56(%rsp), %rax
	movq	%rax, 8(%rsp)
	movb	$1, %al
	movq	%rax, (%rsp)
	jmp	.LBB24_26
.LBB24_20:
	movzbl	32(%rsp), %esi
	leal	-17(%rsi), %eax
	movzbl	%al, %eax
	leaq	1(%rax), %rcx
	xorl	%edx, %edx
	cmpb	$3, %al
	cmovbq	%rcx, %rdx
	movl	$18, %eax
	leaq	.LJTI24_0(%rip), %rcx
	movslq	(%rcx,%rdx,4), %rdx
	addq	%rcx, %rdx
	notrack	jmpq	*%rdx
.LBB24_32:
	leal	-17(%r10), %eax
	movzbl	%al, %eax
	leaq	1(%rax), %rcx
	xorl	%edx, %edx
	cmpb	$3, %al
	cmovbq	%rcx, %rdx
	movl	$18, %eax
	leaq	.LJTI24_0(%rip), %rcx
	movslq	(%rcx,%rdx,4), %rdx
	addq	%rcx, %rdx
	movl	%r10d, %esi
	notrack	jmpq	*%rdx
.LBB24_33:
	movl	$19, %eax
	jmp	.LBB24_36
.LBB24_34:
	movl	$20, %eax
	jmp	.LBB24_36
.LBB24_24:
	movq	$0, 16(%rsp)
	movq	%rdi, %r9
	movq	$0, 8(%rsp)
	movq	$0, (%rsp)
.LBB24_26:
	movq	64(%rsp), %r15
	movq	72(%rsp), %r12
	movzbl	120(%rsp), %ebp
	orq	%r10, %rsi
	xorl	%eax, %eax
	testq	%r8, %r8
	je	.LBB24_27
	movq	88(%rsp), %r13
	movq	96(%rsp), %r14
	testq	%r14, %r14
	je	.LBB24_29
	movq	104(%rsp), %r10
	movq	112(%rsp), %r11
	movb	$1, %bl
	movq	%r14, %rdi
	movb	$1, %r14b
	jmp	.LBB24_31
.LBB24_27:
	xorl	%r10d, %r10d
	xorl	%r11d, %r11d
	xorl	%ebx, %ebx
	xorl	%r13d, %r13d
	movq	%rdi, %r8
	xorl	%r14d, %r14d
	jmp	.LBB24_31
.LBB24_29:
	movb	$1, %r14b
	xorl	%r10d, %r10d
	xorl	%r11d, %r11d
	xorl	%ebx, %ebx
.LBB24_31:
	movq	%rdx, (%rcx)
	movq	%rsi, 8(%rcx)
	movq	(%rsp), %rdx
	movb	%dl, 16(%rcx)
	movq	8(%rsp), %rdx
	movb	%dl, 17(%rcx)
	movq	%r9, 24(%rcx)
	movq	16(%rsp), %rdx
	movq	%rdx, 32(%rcx)
	movq	%r15, 40(%rcx)
	movq	%r12, 48(%rcx)
	movb	%r14b, 56(%rcx)
	movq	%r8, 64(%rcx)
	movq	%r13, 72(%rcx)
	movb	%bl, 80(%rcx)
	movb	%r11b, 81(%rcx)
	movq	%rdi, 88(%rcx)
	movq	%r10, 96(%rcx)
	movb	%bpl, 104(%rcx)
	movb	$1, 105(%rcx)
.LBB24_36:
	addq	$136, %rsp
	.cfi_def_cfa_offset 56
	popq	%rbx
	.cfi_def_cfa_offset 48
	popq	%r12
	.cfi_def_cfa_offset 40
	popq	%r13
	.cfi_def_cfa_offset 32
	popq	%r14
	.cfi_def_cfa_offset 24
	popq	%r15
	.cfi_def_cfa_offset 16
	popq	%rbp
	.cfi_def_cfa_offset 8
	retq
.Lfunc_end24:
	.size	pkcs1_c_pss_params_decode, .Lfunc_end24-pkcs1_c_pss_params_decode
	.cfi_endproc
	.section	.rodata.pkcs1_c_pss_params_decode,"a",@progbits
	.p2align	2, 0x0
.LJTI24_0:
	.long	.LBB24_35-.LJTI24_0
	.long	.LBB24_36-.LJTI24_0
	.long	.LBB24_33-.LJTI24_0
	.long	.LBB24_34-.LJTI24_0

	.section	.text.pkcs1_c_pss_params_decode_strict,"ax",@progbits
	.globl	pkcs1_c_pss_params_decode_strict
	.p2align	4, 0x90
	.type	pkcs1_c_pss_params_decode_strict,@function
pkcs1_c_pss_params_decode_strict:
	.cfi_startproc
	endbr64
	pushq	%rbp
	.cfi_def_cfa_offset 16
	pushq	%r15
	.cfi_def_cfa_offset 24
	pushq	%r14
	.cfi_def_cfa_offset 32
	pushq	%r13
	.cfi_def_cfa_offset 40
	pushq	%r12
	.cfi_def_cfa_offset 48
	pushq	%rbx
	.cfi_def_cfa_offset 56
	subq	$136, %rsp
	.cfi_def_cfa_offset 192
	.cfi_offset %rbx, -56
	.cfi_offset %r12, -48
	.cfi_offset %r13, -40
	.cfi_offset %r14, -32
	.cfi_offset %r15, -24
	.cfi_offset %rbp, -16
	movq	%rsi, %rax
	shrq	$32, %rax
	movl	$8, %eax
	jne	.LBB25_37
	movq	%rsi, %rcx
	cmpq	$2, %rsi
	jb	.LBB25_16
	cmpb	$48, (%rdi)
	jne	.LBB25_16
	leaq	2(%rdi), %rsi
	leaq	-2(%rcx), %rbx
	movsbq	1(%rdi), %rax
	testq	%rax, %rax
	js	.LBB25_4
	subq	%rax, %rbx
	jb	.LBB25_16
	movq	%rdx, %r14
	jmp	.LBB25_18
.LBB25_4:
	cmpb	$-126, %al
	jne	.LBB25_9
	cmpq	$1, %rbx
	jbe	.LBB25_16
	movzbl	2(%rdi), %esi
	testq	%rsi, %rsi
	je	.LBB25_16
	leaq	-4(%rcx), %rbx
	shll	$8, %esi
	movzbl	3(%rdi), %eax
	orq	%rsi, %rax
	subq	%rax, %rbx
	jb	.LBB25_16
	movq	%rdx, %r14
	addq	$4, %rdi
	movq	%rdi, %rsi
	jmp	.LBB25_18
.LBB25_9:
	testq	%rbx, %rbx
	je	.LBB25_16
	cmpb	$-127, %al
	jne	.LBB25_16
	movzbl	(%rsi), %eax
	testb	%al, %al
	jns	.LBB25_16
	leaq	-3(%rcx), %rbx
	subq	%rax, %rbx
	jb	.LBB25_16
	movq	%rdx, %r14
	addq	$3, %rdi
	movq	%rdi, %rsi
	jmp	.LBB25_18
.LBB25_16:
	movq	%rdx, %r14
	leaq	24(%rsp), %rax
	movq	%rdi, %rsi
	movq	%rax, %rdi
	movq	%rcx, %rdx
	movl	$48, %ecx
	callq	_RNvNtNtNtCs00000000000_7pkcs1_c6proved8der_core5split14split_unlikely
	movq	24(%rsp), %rsi
	testq	%rsi, %rsi
	je	.LBB25_20
	movq	32(%rsp), %rax
	movq	48(%rsp), %rbx
.LBB25_18:
	leaq	24(%rsp), %rdi
	movq	%rax, %rdx
	callq	_RNvNtNtNtCs00000000000_7pkcs1_c6proved12pkcs1_params6noting8note_pss
	movzbl	128(%rsp), %edx
	movzbl	26(%rsp), %eax
	shll	$16, %eax
	movzwl	24(%rsp), %esi
	orl	%eax, %esi
	cmpb	$2, %dl
	jne	.LBB25_21
	leal	-17(%rsi), %eax
	movzbl	%al, %eax
	leaq	1(%rax), %rcx
	xorl	%edx, %edx
	cmpb	$3, %al
	cmovbq	%rcx, %rdx
	movl	$18, %eax
	leaq	.LJTI25_0(%rip), %rcx
	movslq	(%rcx,%rdx,4), %rdx
	addq	%rcx, %rdx
	notrack	jmpq	*%rdx
.LBB25_36:
	movzbl	%sil, %eax
	incl	%eax
	jmp	.LBB25_37
.LBB25_21:
	movl	$13, %eax
	testq	%rbx, %rbx
	jne	.LBB25_37
	movl	$5, %eax
	testb	$1, %dl
	jne	.LBB25_37
	movzbl	31(%rsp), %edx
	movl	27(%rsp), %eax
	movzbl	34(%rsp), %edi
	shll	$16, %edi
	movzwl	32(%rsp), %r10d
	orl	%edi, %r10d
	andl	$16777215, %esi
	shlq	$24, %rax
	shlq	$56, %rdx
	orq	%rax, %rdx
	orq	%rsi, %rdx
	testq	%rdx, %rdx
	je	.LBB25_33
	movq	%r14, %rcx
	movl	35(%rsp), %eax
	movzbl	39(%rsp), %esi
	shlq	$32, %rsi
	orq	%rax, %rsi
	movq	40(%rsp), %r9
	movq	80(%rsp), %r8
	shlq	$24, %rsi
	andl	$16777215, %r10d
	leaq	_RNvNtCs00000000000_7pkcs1_c10rattle_std8AN_OCTET(%rip), %rdi
	testq	%r9, %r9
	je	.LBB25_25
	movq	48(%rsp), %rax
	movq	%rax, 16(%rsp)
	movq	56(%rsp), %rax
	movq	%rax, 8(%rsp)
	movb	$1, %al
	movq	%rax, (%rsp)
	jmp	.LBB25_27
.LBB25_20:
	movzbl	32(%rsp), %esi
	leal	-17(%rsi), %eax
	movzbl	%al, %eax
	leaq	1(%rax), %rcx
	xorl	%edx, %edx
	cmpb	$3, %al
	cmovbq	%rcx, %rdx
	movl	$18, %eax
	leaq	.LJTI25_0(%rip), %rcx
	movslq	(%rcx,%rdx,4), %rdx
	addq	%rcx, %rdx
	notrack	jmpq	*%rdx
.LBB25_33:
	leal	-17(%r10), %eax
	movzbl	%al, %eax
	leaq	1(%rax), %rcx
	xorl	%edx, %edx
	cmpb	$3, %al
	cmovbq	%rcx, %rdx
	movl	$18, %eax
	leaq	.LJTI25_0(%rip), %rcx
	movslq	(%rcx,%rdx,4), %rdx
	addq	%rcx, %rdx
	movl	%r10d, %esi
	notrack	jmpq	*%rdx
.LBB25_34:
	movl	$19, %eax
	jmp	.LBB25_37
.LBB25_35:
	movl	$20, %eax
	jmp	.LBB25_37
.LBB25_25:
	movq	$0, 16(%rsp)
	movq	%rdi, %r9
	movq	$0, 8(%rsp)
	movq	$0, (%rsp)
.LBB25_27:
	movq	64(%rsp), %r15
	movq	72(%rsp), %r12
	movzbl	120(%rsp), %ebp
	orq	%r10, %rsi
	xorl	%eax, %eax
	testq	%r8, %r8
	je	.LBB25_28
	movq	88(%rsp), %r13
	movq	96(%rsp), %r14
	testq	%r14, %r14
	je	.LBB25_30
	movq	104(%rsp), %r10
	movq	112(%rsp), %r11
	movb	$1, %bl
	movq	%r14, %rdi
	movb	$1, %r14b
	jmp	.LBB25_32
.LBB25_28:
	xorl	%r10d, %r10d
	xorl	%r11d, %r11d
	xorl	%ebx, %ebx
	xorl	%r13d, %r13d
	movq	%rdi, %r8
	xorl	%r14d, %r14d
	jmp	.LBB25_32
.LBB25_30:
	movb	$1, %r14b
	xorl	%r10d, %r10d
	xorl	%r11d, %r11d
	xorl	%ebx, %ebx
.LBB25_32:
	movq	%rdx, (%rcx)
	movq	%rsi, 8(%rcx)
	movq	(%rsp), %rdx
	movb	%dl, 16(%rcx)
	movq	8(%rsp), %rdx
	movb	%dl, 17(%rcx)
	movq	%r9, 24(%rcx)
	movq	16(%rsp), %rdx
	movq	%rdx, 32(%rcx)
	movq	%r15, 40(%rcx)
	movq	%r12, 48(%rcx)
	movb	%r14b, 56(%rcx)
	movq	%r8, 64(%rcx)
	movq	%r13, 72(%rcx)
	movb	%bl, 80(%rcx)
	movb	%r11b, 81(%rcx)
	movq	%rdi, 88(%rcx)
	movq	%r10, 96(%rcx)
	movb	%bpl, 104(%rcx)
	movb	$1, 105(%rcx)
.LBB25_37:
	addq	$136, %rsp
	.cfi_def_cfa_offset 56
	popq	%rbx
	.cfi_def_cfa_offset 48
	popq	%r12
	.cfi_def_cfa_offset 40
	popq	%r13
	.cfi_def_cfa_offset 32
	popq	%r14
	.cfi_def_cfa_offset 24
	popq	%r15
	.cfi_def_cfa_offset 16
	popq	%rbp
	.cfi_def_cfa_offset 8
	retq
.Lfunc_end25:
	.size	pkcs1_c_pss_params_decode_strict, .Lfunc_end25-pkcs1_c_pss_params_decode_strict
	.cfi_endproc
	.section	.rodata.pkcs1_c_pss_params_decode_strict,"a",@progbits
	.p2align	2, 0x0
.LJTI25_0:
	.long	.LBB25_36-.LJTI25_0
	.long	.LBB25_37-.LJTI25_0
	.long	.LBB25_34-.LJTI25_0
	.long	.LBB25_35-.LJTI25_0

	.section	.text.pkcs1_c_pss_params_encode,"ax",@progbits
	.globl	pkcs1_c_pss_params_encode
	.p2align	4, 0x90
	.type	pkcs1_c_pss_params_encode,@function
pkcs1_c_pss_params_encode:
	.cfi_startproc
	endbr64
	pushq	%rbp
	.cfi_def_cfa_offset 16
	pushq	%r15
	.cfi_def_cfa_offset 24
	pushq	%r14
	.cfi_def_cfa_offset 32
	pushq	%r13
	.cfi_def_cfa_offset 40
	pushq	%r12
	.cfi_def_cfa_offset 48
	pushq	%rbx
	.cfi_def_cfa_offset 56
	subq	$248, %rsp
	.cfi_def_cfa_offset 304
	.cfi_offset %rbx, -56
	.cfi_offset %r12, -48
	.cfi_offset %r13, -40
	.cfi_offset %r14, -32
	.cfi_offset %r15, -24
	.cfi_offset %rbp, -16
	movq	%rcx, %r12
	movq	%rdx, %r15
	movq	%rsi, %rbx
	movq	%rdi, %rsi
	leaq	144(%rsp), %rdi
	callq	_RNvNtNtNtCs00000000000_7pkcs1_c5calls7pkcs1_c3pss10from_c_pss
	cmpq	$0, 144(%rsp)
	je	.LBB26_42
	movups	144(%rsp), %xmm0
	movups	160(%rsp), %xmm1
	movups	176(%rsp), %xmm2
	movups	192(%rsp), %xmm3
	movaps	%xmm1, 48(%rsp)
	movq	240(%rsp), %r13
	movq	%r13, 128(%rsp)
	movups	224(%rsp), %xmm1
	movaps	%xmm1, 112(%rsp)
	movups	208(%rsp), %xmm1
	movaps	%xmm1, 96(%rsp)
	movaps	%xmm3, 80(%rsp)
	movaps	%xmm2, 64(%rsp)
	movaps	%xmm0, 32(%rsp)
	leaq	72(%rsp), %r14
	cmpq	$0, 48(%rsp)
	movq	%rbx, 24(%rsp)
	je	.LBB26_13
	cmpq	$5, 40(%rsp)
	jne	.LBB26_13
	movq	32(%rsp), %rax
	cmpb	$43, (%rax)
	jne	.LBB26_13
	cmpb	$14, 1(%rax)
	jne	.LBB26_13
	cmpb	$3, 2(%rax)
	jne	.LBB26_13
	cmpb	$2, 3(%rax)
	jne	.LBB26_13
	cmpb	$26, 4(%rax)
	jne	.LBB26_13
	movq	56(%rsp), %rbx
	movzbl	64(%rsp), %ebp
	movq	%r14, %rdi
	callq	_RNvXs_NtNtNtCs00000000000_7pkcs1_c6proved12pkcs1_params7holdersINtNtNtB8_9spki_core20algorithm_identifier21AlgorithmIdentifierOfNtNtB14_15identifier_view14IdentifierViewIB10_B22_NtNtB14_3any6AnyRefEENtB4_10MaskHolder10is_defaultBa_
	cmpb	$20, %r13b
	sete	%r14b
	movq	$0, (%rsp)
	cmpb	$5, %bpl
	jne	.LBB26_80
	testq	%rbx, %rbx
	jne	.LBB26_80
	testb	%al, %al
	je	.LBB26_82
	cmpb	$20, %r13b
	jne	.LBB26_86
	movl	$2, %eax
	movb	$1, %dl
	xorl	%ecx, %ecx
	movb	$1, %bl
	movb	$1, %r14b
	jmp	.LBB26_36
.LBB26_13:
	movq	88(%rsp), %rax
	testq	%rax, %rax
	je	.LBB26_28
	cmpq	$9, 80(%rsp)
	jne	.LBB26_28
	movq	72(%rsp), %rcx
	movabsq	$72354425775621674, %rdx
	cmpq	%rdx, (%rcx)
	jne	.LBB26_28
	cmpb	$8, 8(%rcx)
	jne	.LBB26_28
	cmpq	$0, 104(%rsp)
	je	.LBB26_28
	cmpq	$5, 96(%rsp)
	jne	.LBB26_28
	cmpb	$43, (%rax)
	jne	.LBB26_28
	cmpb	$14, 1(%rax)
	jne	.LBB26_28
	cmpb	$3, 2(%rax)
	jne	.LBB26_28
	cmpb	$2, 3(%rax)
	jne	.LBB26_28
	cmpb	$26, 4(%rax)
	jne	.LBB26_28
	movq	112(%rsp), %rax
	cmpb	$20, %r13b
	sete	%r14b
	cmpb	$5, 120(%rsp)
	movq	$0, (%rsp)
	jne	.LBB26_81
	testq	%rax, %rax
	jne	.LBB26_81
.LBB26_26:
	movb	$1, %bl
	testb	%r14b, %r14b
	je	.LBB26_85
	movb	$1, %bpl
	jmp	.LBB26_31
.LBB26_28:
	movq	$0, (%rsp)
	movb	$1, %bpl
	cmpb	$20, %r13b
	je	.LBB26_30
.LBB26_29:
	movzbl	%r13b, %edi
	movq	%rsp, %rsi
	callq	_RINvNtNtNtCs00000000000_7pkcs1_c6proved12pkcs1_params6fields13prepend_fieldhNtNtNtB6_8der_core7counter7CounterEB8_
	xorl	%ebp, %ebp
.LBB26_30:
	movq	%rsp, %rsi
	movq	%r14, %rdi
	callq	_RINvNtNtNtCs00000000000_7pkcs1_c6proved12pkcs1_params6fields13prepend_fieldINtNtNtB6_9spki_core20algorithm_identifier21AlgorithmIdentifierOfNtNtB1g_15identifier_view14IdentifierViewIB1c_B2e_NtNtB1g_3any6AnyRefEENtNtNtB6_8der_core7counter7CounterEB8_
	xorl	%ebx, %ebx
.LBB26_31:
	leaq	144(%rsp), %rdi
	movq	%rsp, %rsi
	callq	_RINvNtNtNtCs00000000000_7pkcs1_c6proved12pkcs1_params6fields13prepend_fieldINtNtNtB6_9spki_core20algorithm_identifier21AlgorithmIdentifierOfNtNtB1g_15identifier_view14IdentifierViewNtNtB1g_3any6AnyRefENtNtNtB6_8der_core7counter7CounterEB8_
	xorl	%edx, %edx
	movl	%ebp, %r14d
.LBB26_32:
	movq	(%rsp), %rcx
	movl	$2, %eax
	cmpq	$128, %rcx
	jb	.LBB26_36
	movl	$3, %eax
	cmpq	$256, %rcx
	jb	.LBB26_36
	movl	$4, %eax
	cmpq	$65536, %rcx
	jb	.LBB26_36
	movl	$5, %eax
	cmpq	$16777215, %rcx
	ja	.LBB26_70
.LBB26_36:
	addq	%rax, %rcx
.LBB26_37:
	movq	%rcx, (%r12)
	movl	$15, %eax
	cmpq	%r15, %rcx
	ja	.LBB26_77
	movq	24(%rsp), %rax
	movq	%rax, (%rsp)
	movq	%rcx, 8(%rsp)
	movq	%rcx, 16(%rsp)
	testb	%dl, %dl
	je	.LBB26_44
	testb	%bl, %bl
	je	.LBB26_50
	movq	%rcx, %rax
	testb	%r14b, %r14b
	jne	.LBB26_58
	movzbl	%r13b, %edi
	movq	%rsp, %rsi
	callq	_RINvNtNtNtCs00000000000_7pkcs1_c6proved12pkcs1_params6fields13prepend_fieldhNtNtNtB6_8der_core11back_writer10BackWriterEB8_
	jmp	.LBB26_57
.LBB26_42:
	movzbl	152(%rsp), %eax
	leal	-17(%rax), %ecx
	movzbl	%cl, %ecx
	leaq	1(%rcx), %rdx
	xorl	%esi, %esi
	cmpb	$3, %cl
	cmovbq	%rdx, %rsi
	leaq	.LJTI26_0(%rip), %rcx
	movslq	(%rcx,%rsi,4), %rdx
	addq	%rcx, %rdx
	notrack	jmpq	*%rdx
.LBB26_43:
	incl	%eax
	jmp	.LBB26_77
.LBB26_44:
	testb	%bl, %bl
	je	.LBB26_53
	testb	%r14b, %r14b
	jne	.LBB26_56
	movzbl	%r13b, %edi
	movq	%rsp, %rsi
	callq	_RINvNtNtNtCs00000000000_7pkcs1_c6proved12pkcs1_params6fields13prepend_fieldhNtNtNtB6_8der_core11back_writer10BackWriterEB8_
	jmp	.LBB26_56
.LBB26_47:
	movl	$19, %eax
	jmp	.LBB26_77
.LBB26_48:
	movl	$20, %eax
	jmp	.LBB26_77
.LBB26_49:
	movl	$18, %eax
	jmp	.LBB26_77
.LBB26_50:
	testb	%r14b, %r14b
	jne	.LBB26_52
	movzbl	%r13b, %edi
	movq	%rsp, %rsi
	callq	_RINvNtNtNtCs00000000000_7pkcs1_c6proved12pkcs1_params6fields13prepend_fieldhNtNtNtB6_8der_core11back_writer10BackWriterEB8_
.LBB26_52:
	movq	%rsp, %rsi
	leaq	72(%rsp), %rdi
	callq	_RINvNtNtNtCs00000000000_7pkcs1_c6proved12pkcs1_params6fields13prepend_fieldINtNtNtB6_9spki_core20algorithm_identifier21AlgorithmIdentifierOfNtNtB1g_15identifier_view14IdentifierViewIB1c_B2e_NtNtB1g_3any6AnyRefEENtNtNtB6_8der_core11back_writer10BackWriterEB8_
	jmp	.LBB26_57
.LBB26_53:
	testb	%r14b, %r14b
	jne	.LBB26_55
	movzbl	%r13b, %edi
	movq	%rsp, %rsi
	callq	_RINvNtNtNtCs00000000000_7pkcs1_c6proved12pkcs1_params6fields13prepend_fieldhNtNtNtB6_8der_core11back_writer10BackWriterEB8_
.LBB26_55:
	movq	%rsp, %rsi
	leaq	72(%rsp), %rdi
	callq	_RINvNtNtNtCs00000000000_7pkcs1_c6proved12pkcs1_params6fields13prepend_fieldINtNtNtB6_9spki_core20algorithm_identifier21AlgorithmIdentifierOfNtNtB1g_15identifier_view14IdentifierViewIB1c_B2e_NtNtB1g_3any6AnyRefEENtNtNtB6_8der_core11back_writer10BackWriterEB8_
.LBB26_56:
	leaq	144(%rsp), %rsi
	movq	%rsp, %rdx
	xorl	%edi, %edi
	callq	_RINvNtNtNtCs00000000000_7pkcs1_c6proved12pkcs1_params6fields13prepend_fieldINtNtNtB6_9spki_core20algorithm_identifier21AlgorithmIdentifierOfNtNtB1g_15identifier_view14IdentifierViewNtNtB1g_3any6AnyRefENtNtNtB6_8der_core11back_writer10BackWriterEB8_
.LBB26_57:
	movq	8(%rsp), %rcx
	movq	16(%rsp), %rax
.LBB26_58:
	movq	%rcx, %rdx
	subq	%rax, %rdx
	cmpl	$128, %edx
	jae	.LBB26_62
	cmpq	$2, %rax
	jb	.LBB26_76
	cmpq	%rax, %rcx
	jb	.LBB26_87
	movq	(%rsp), %rcx
	shll	$8, %edx
	orl	$48, %edx
	movw	%dx, -2(%rcx,%rax)
	jmp	.LBB26_76
.LBB26_62:
	cmpl	$256, %edx
	jae	.LBB26_66
	cmpq	$3, %rax
	jb	.LBB26_76
	cmpq	%rax, %rcx
	jb	.LBB26_87
	movq	(%rsp), %rcx
	movw	$-32464, -3(%rcx,%rax)
	movb	%dl, -1(%rcx,%rax)
	jmp	.LBB26_76
.LBB26_66:
	cmpl	$65536, %edx
	jae	.LBB26_71
	cmpq	$4, %rax
	jb	.LBB26_76
	cmpq	%rax, %rcx
	jb	.LBB26_87
	movq	(%rsp), %rcx
	orl	$813826048, %edx
	bswapl	%edx
	movl	%edx, -4(%rcx,%rax)
	jmp	.LBB26_76
.LBB26_70:
	addq	$6, %rcx
	movq	$-1, %rax
	cmovbq	%rax, %rcx
	movq	%rcx, %rax
	shrq	$32, %rax
	movl	$8, %eax
	je	.LBB26_37
	jmp	.LBB26_77
.LBB26_71:
	cmpl	$16777216, %edx
	jae	.LBB26_75
	cmpq	$5, %rax
	jb	.LBB26_76
	cmpq	%rax, %rcx
	jb	.LBB26_87
	movl	%edx, %ecx
	shrl	$16, %ecx
	movl	%edx, %esi
	shrl	$8, %esi
	movq	(%rsp), %rdi
	movw	$-31952, -5(%rdi,%rax)
	movb	%cl, -3(%rdi,%rax)
	movb	%sil, -2(%rdi,%rax)
	movb	%dl, -1(%rdi,%rax)
	jmp	.LBB26_76
.LBB26_75:
	cmpq	$6, %rax
	jb	.LBB26_76
	cmpq	%rax, %rcx
	jb	.LBB26_87
	movl	%edx, %ecx
	shrl	$24, %ecx
	movl	%edx, %esi
	shrl	$16, %esi
	movl	%edx, %edi
	shrl	$8, %edi
	movq	(%rsp), %r8
	movw	$-31696, -6(%r8,%rax)
	movb	%cl, -4(%r8,%rax)
	movb	%sil, -3(%r8,%rax)
	movb	%dil, -2(%r8,%rax)
	movb	%dl, -1(%r8,%rax)
.LBB26_76:
	xorl	%eax, %eax
.LBB26_77:
	addq	$248, %rsp
	.cfi_def_cfa_offset 56
	popq	%rbx
	.cfi_def_cfa_offset 48
	popq	%r12
	.cfi_def_cfa_offset 40
	popq	%r13
	.cfi_def_cfa_offset 32
	popq	%r14
	.cfi_def_cfa_offset 24
	popq	%r15
	.cfi_def_cfa_offset 16
	popq	%rbp
	.cfi_def_cfa_offset 8
	retq
.LBB26_80:
	.cfi_def_cfa_offset 304
	testb	%al, %al
	jne	.LBB26_26
.LBB26_81:
	movb	$1, %bpl
	testb	%r14b, %r14b
	leaq	72(%rsp), %r14
	je	.LBB26_29
	jmp	.LBB26_30
.LBB26_82:
	cmpb	$20, %r13b
	je	.LBB26_84
	movzbl	%r13b, %edi
	movq	%rsp, %rsi
	callq	_RINvNtNtNtCs00000000000_7pkcs1_c6proved12pkcs1_params6fields13prepend_fieldhNtNtNtB6_8der_core7counter7CounterEB8_
.LBB26_84:
	movq	%rsp, %rsi
	leaq	72(%rsp), %rdi
	callq	_RINvNtNtNtCs00000000000_7pkcs1_c6proved12pkcs1_params6fields13prepend_fieldINtNtNtB6_9spki_core20algorithm_identifier21AlgorithmIdentifierOfNtNtB1g_15identifier_view14IdentifierViewIB1c_B2e_NtNtB1g_3any6AnyRefEENtNtNtB6_8der_core7counter7CounterEB8_
	movb	$1, %dl
	xorl	%ebx, %ebx
	jmp	.LBB26_32
.LBB26_85:
	movzbl	%r13b, %edi
	movq	%rsp, %rsi
	callq	_RINvNtNtNtCs00000000000_7pkcs1_c6proved12pkcs1_params6fields13prepend_fieldhNtNtNtB6_8der_core7counter7CounterEB8_
	xorl	%ebp, %ebp
	jmp	.LBB26_31
.LBB26_86:
	movzbl	%r13b, %edi
	movq	%rsp, %rsi
	callq	_RINvNtNtNtCs00000000000_7pkcs1_c6proved12pkcs1_params6fields13prepend_fieldhNtNtNtB6_8der_core7counter7CounterEB8_
	movb	$1, %bl
	xorl	%r14d, %r14d
	movb	$1, %dl
	jmp	.LBB26_32
.LBB26_87:
	ud2
.Lfunc_end26:
	.size	pkcs1_c_pss_params_encode, .Lfunc_end26-pkcs1_c_pss_params_encode
	.cfi_endproc
	.section	.rodata.pkcs1_c_pss_params_encode,"a",@progbits
	.p2align	2, 0x0
.LJTI26_0:
	.long	.LBB26_43-.LJTI26_0
	.long	.LBB26_49-.LJTI26_0
	.long	.LBB26_47-.LJTI26_0
	.long	.LBB26_48-.LJTI26_0

	.section	.rodata.cst16,"aM",@progbits,16
	.p2align	4, 0x0
.LCPI27_0:
	.zero	16,128
.LCPI27_1:
	.byte	128
	.byte	128
	.byte	128
	.byte	128
	.byte	128
	.byte	128
	.byte	128
	.byte	128
	.zero	1
	.zero	1
	.zero	1
	.zero	1
	.zero	1
	.zero	1
	.zero	1
	.zero	1
	.section	.text.pkcs1_c_pss_algorithm_decode,"ax",@progbits
	.globl	pkcs1_c_pss_algorithm_decode
	.p2align	4, 0x90
	.type	pkcs1_c_pss_algorithm_decode,@function
pkcs1_c_pss_algorithm_decode:
	.cfi_startproc
	endbr64
	pushq	%rbp
	.cfi_def_cfa_offset 16
	pushq	%r15
	.cfi_def_cfa_offset 24
	pushq	%r14
	.cfi_def_cfa_offset 32
	pushq	%r13
	.cfi_def_cfa_offset 40
	pushq	%r12
	.cfi_def_cfa_offset 48
	pushq	%rbx
	.cfi_def_cfa_offset 56
	subq	$136, %rsp
	.cfi_def_cfa_offset 192
	.cfi_offset %rbx, -56
	.cfi_offset %r12, -48
	.cfi_offset %r13, -40
	.cfi_offset %r14, -32
	.cfi_offset %r15, -24
	.cfi_offset %rbp, -16
	movq	%rsi, %rcx
	movq	%rsi, %rax
	shrq	$32, %rax
	movl	$8, %eax
	jne	.LBB27_101
	movq	%rdi, %rsi
	cmpq	$2, %rcx
	jb	.LBB27_15
	cmpb	$48, (%rsi)
	jne	.LBB27_15
	leaq	2(%rsi), %r8
	leaq	-2(%rcx), %r14
	movsbq	1(%rsi), %rax
	testq	%rax, %rax
	js	.LBB27_4
	subq	%rax, %r14
	jb	.LBB27_15
	cmpq	$2, %rax
	jb	.LBB27_38
.LBB27_18:
	cmpb	$6, (%r8)
	jne	.LBB27_38
	leaq	2(%r8), %r15
	leaq	-2(%rax), %r9
	movsbq	1(%r8), %rbx
	testq	%rbx, %rbx
	js	.LBB27_20
	subq	%rbx, %r9
	jb	.LBB27_38
	leaq	(%r15,%rbx), %rsi
	leaq	-1(%rbx), %rdi
	movl	$6, %eax
	cmpq	$38, %rdi
	jbe	.LBB27_29
	jmp	.LBB27_101
.LBB27_4:
	cmpb	$-126, %al
	jne	.LBB27_9
	cmpq	$1, %r14
	jbe	.LBB27_15
	movzbl	2(%rsi), %edi
	testq	%rdi, %rdi
	je	.LBB27_15
	leaq	-4(%rcx), %r14
	shll	$8, %edi
	movzbl	3(%rsi), %eax
	orq	%rdi, %rax
	subq	%rax, %r14
	jb	.LBB27_15
	addq	$4, %rsi
	movq	%rsi, %r8
	jmp	.LBB27_18
.LBB27_20:
	cmpb	$-126, %bl
	jne	.LBB27_36
	cmpq	$1, %r9
	jbe	.LBB27_38
	movzbl	2(%r8), %ecx
	testq	%rcx, %rcx
	je	.LBB27_38
	leaq	-4(%rax), %r9
	shll	$8, %ecx
	movzbl	3(%r8), %ebx
	orq	%rcx, %rbx
	subq	%rbx, %r9
	jb	.LBB27_38
	addq	$4, %r8
	jmp	.LBB27_25
.LBB27_9:
	testq	%r14, %r14
	je	.LBB27_15
	cmpb	$-127, %al
	jne	.LBB27_15
	movzbl	(%r8), %eax
	testb	%al, %al
	jns	.LBB27_15
	leaq	-3(%rcx), %r14
	subq	%rax, %r14
	jb	.LBB27_15
	addq	$3, %rsi
	movq	%rsi, %r8
	jmp	.LBB27_18
.LBB27_15:
	movq	%rdx, %rbx
	leaq	24(%rsp), %rdi
	movq	%rcx, %rdx
	movl	$48, %ecx
	callq	_RNvNtNtNtCs00000000000_7pkcs1_c6proved8der_core5split14split_unlikely
	movq	24(%rsp), %r8
	testq	%r8, %r8
	je	.LBB27_104
	movq	32(%rsp), %rax
	movq	48(%rsp), %r14
	movq	%rbx, %rdx
	cmpq	$2, %rax
	jae	.LBB27_18
	jmp	.LBB27_38
.LBB27_36:
	testq	%r9, %r9
	je	.LBB27_37
	cmpb	$-127, %bl
	jne	.LBB27_38
	movzbl	(%r15), %ebx
	testb	%bl, %bl
	jns	.LBB27_38
	leaq	-3(%rax), %r9
	subq	%rbx, %r9
	jb	.LBB27_38
	addq	$3, %r8
.LBB27_25:
	leaq	(%r8,%rbx), %rsi
	movq	%r8, %r15
	leaq	-1(%rbx), %rdi
	movl	$6, %eax
	cmpq	$38, %rdi
	jbe	.LBB27_29
	jmp	.LBB27_101
.LBB27_104:
	movzbl	32(%rsp), %ecx
	leal	-17(%rcx), %eax
	movzbl	%al, %eax
	leaq	1(%rax), %rdx
	xorl	%esi, %esi
	cmpb	$3, %al
	cmovbq	%rdx, %rsi
	movl	$18, %eax
	leaq	.LJTI27_0(%rip), %rdx
	movslq	(%rdx,%rsi,4), %rsi
	addq	%rdx, %rsi
	notrack	jmpq	*%rsi
.LBB27_37:
	movl	$2, %eax
.LBB27_38:
	movq	%rdx, %r12
	leaq	24(%rsp), %rdi
	movq	%r8, %rsi
	movq	%rax, %rdx
	movl	$6, %ecx
	callq	_RNvNtNtNtCs00000000000_7pkcs1_c6proved8der_core5split14split_unlikely
	movq	24(%rsp), %r15
	testq	%r15, %r15
	je	.LBB27_60
	movq	32(%rsp), %rbx
	movq	40(%rsp), %rsi
	movq	48(%rsp), %r9
	movq	%r12, %rdx
	leaq	-1(%rbx), %rdi
	movl	$6, %eax
	cmpq	$38, %rdi
	ja	.LBB27_101
.LBB27_29:
	movzbl	(%r15,%rdi), %ecx
	testb	%cl, %cl
	js	.LBB27_45
	movdqa	.LCPI27_1(%rip), %xmm0
	movdqa	.LCPI27_0(%rip), %xmm1
	xorl	%r8d, %r8d
	movq	%r15, %r10
	jmp	.LBB27_31
	.p2align	4, 0x90
.LBB27_35:
	movl	$1, %r11d
	movq	$-1, %r12
.LBB27_59:
	addq	%r12, %rdi
	addq	%r11, %r10
.LBB27_31:
	cmpq	$7, %rdi
	jbe	.LBB27_32
	movq	(%r10), %xmm2
	pcmpeqb	%xmm0, %xmm2
	pmovmskb	%xmm2, %r11d
	testb	%r11b, %r11b
	jne	.LBB27_44
	movl	$8, %r11d
	movq	$-8, %r12
	jmp	.LBB27_59
	.p2align	4, 0x90
.LBB27_32:
	cmpq	$3, %rdi
	jbe	.LBB27_33
	movd	(%r10), %xmm2
	punpcklbw	%xmm2, %xmm2
	punpcklwd	%xmm2, %xmm2
	pcmpeqb	%xmm1, %xmm2
	movmskps	%xmm2, %r11d
	testl	%r11d, %r11d
	jne	.LBB27_44
	movl	$4, %r11d
	movq	$-4, %r12
	jmp	.LBB27_59
	.p2align	4, 0x90
.LBB27_33:
	testq	%rdi, %rdi
	je	.LBB27_53
	cmpb	(%r10), %r8b
	jno	.LBB27_35
.LBB27_44:
	testq	%rbx, %rbx
	je	.LBB27_53
.LBB27_45:
	xorl	%edi, %edi
	cmpb	(%r15), %dil
	jo	.LBB27_101
	cmpq	$1, %rbx
	jne	.LBB27_47
.LBB27_52:
	testb	%cl, %cl
	js	.LBB27_101
.LBB27_53:
	testq	%r9, %r9
	je	.LBB27_54
	movzbl	(%rsi), %ebp
	movl	%ebp, %eax
	notb	%al
	testb	$31, %al
	sete	%al
	testb	$-33, %bpl
	sete	%cl
	orb	%al, %cl
	movl	$12, %eax
	jne	.LBB27_101
	cmpq	$1, %r9
	je	.LBB27_75
	leaq	2(%rsi), %r8
	leaq	-2(%r9), %rcx
	movsbq	1(%rsi), %rdi
	testq	%rdi, %rdi
	js	.LBB27_64
	subq	%rdi, %rcx
	jae	.LBB27_77
	jmp	.LBB27_75
.LBB27_54:
	xorl	%r8d, %r8d
	xorl	%edi, %edi
	xorl	%ecx, %ecx
	xorl	%esi, %esi
	movl	$13, %eax
	testq	%r14, %r14
	jne	.LBB27_101
	jmp	.LBB27_80
.LBB27_47:
	leaq	-1(%rbx), %r8
	xorl	%r10d, %r10d
	xorl	%edi, %edi
	jmp	.LBB27_48
	.p2align	4, 0x90
.LBB27_51:
	incq	%rdi
	cmpq	%rdi, %r8
	je	.LBB27_52
.LBB27_48:
	cmpb	1(%r15,%rdi), %r10b
	jno	.LBB27_51
	cmpq	%rbx, %rdi
	jae	.LBB27_102
	cmpb	$0, (%r15,%rdi)
	js	.LBB27_51
	jmp	.LBB27_101
.LBB27_60:
	movzbl	32(%rsp), %ecx
	leal	-17(%rcx), %eax
	movzbl	%al, %eax
	leaq	1(%rax), %rdx
	xorl	%esi, %esi
	cmpb	$3, %al
	cmovbq	%rdx, %rsi
	movl	$18, %eax
	leaq	.LJTI27_0(%rip), %rdx
	movslq	(%rdx,%rsi,4), %rsi
	addq	%rdx, %rsi
	notrack	jmpq	*%rsi
.LBB27_100:
	movzbl	%cl, %eax
	incl	%eax
	jmp	.LBB27_101
.LBB27_64:
	cmpb	$-126, %dil
	jne	.LBB27_69
	cmpq	$1, %rcx
	jbe	.LBB27_75
	movzbl	2(%rsi), %eax
	testq	%rax, %rax
	je	.LBB27_75
	leaq	-4(%r9), %rcx
	shll	$8, %eax
	movzbl	3(%rsi), %edi
	orq	%rax, %rdi
	subq	%rdi, %rcx
	jb	.LBB27_75
	addq	$4, %rsi
	movq	%rsi, %r8
	jmp	.LBB27_77
.LBB27_69:
	testq	%rcx, %rcx
	je	.LBB27_75
	cmpb	$-127, %dil
	jne	.LBB27_75
	movzbl	(%r8), %edi
	testb	%dil, %dil
	jns	.LBB27_75
	leaq	-3(%r9), %rcx
	subq	%rdi, %rcx
	jb	.LBB27_75
	addq	$3, %rsi
	movq	%rsi, %r8
	jmp	.LBB27_77
.LBB27_75:
	movq	%rdx, %r12
	movzbl	%bpl, %ecx
	leaq	24(%rsp), %rdi
	movq	%r9, %rdx
	callq	_RNvNtNtNtCs00000000000_7pkcs1_c6proved8der_core5split14split_unlikely
	movq	24(%rsp), %r8
	testq	%r8, %r8
	je	.LBB27_103
	movq	32(%rsp), %rdi
	movq	48(%rsp), %rcx
	movq	%r12, %rdx
.LBB27_77:
	movl	$13, %eax
	testq	%rcx, %rcx
	jne	.LBB27_101
	movq	%rdi, %rsi
	andq	$-16777216, %rsi
	movl	%edi, %ecx
	andl	$16776960, %ecx
	movl	$13, %eax
	testq	%r14, %r14
	jne	.LBB27_101
.LBB27_80:
	movl	$7, %eax
	cmpq	$9, %rbx
	jne	.LBB27_101
	movabsq	$72354425775621674, %r9
	xorq	(%r15), %r9
	movzbl	8(%r15), %r10d
	xorq	$10, %r10
	orq	%r9, %r10
	jne	.LBB27_101
	testq	%r8, %r8
	je	.LBB27_83
	movl	$11, %eax
	cmpb	$48, %bpl
	jne	.LBB27_101
	movq	%rdx, %r14
	movzbl	%dil, %eax
	orq	%rsi, %rcx
	orq	%rax, %rcx
	leaq	24(%rsp), %rdi
	movq	%r8, %rsi
	movq	%rcx, %rdx
	callq	_RNvNtNtNtCs00000000000_7pkcs1_c6proved12pkcs1_params6noting8note_pss
	cmpb	$2, 128(%rsp)
	jne	.LBB27_87
	movzbl	24(%rsp), %ecx
	leal	-17(%rcx), %eax
	movzbl	%al, %eax
	leaq	1(%rax), %rdx
	xorl	%esi, %esi
	cmpb	$3, %al
	cmovbq	%rdx, %rsi
	movl	$18, %eax
	leaq	.LJTI27_0(%rip), %rdx
	movslq	(%rdx,%rsi,4), %rsi
	addq	%rdx, %rsi
	notrack	jmpq	*%rsi
.LBB27_103:
	movzbl	32(%rsp), %ecx
	leal	-17(%rcx), %eax
	movzbl	%al, %eax
	leaq	1(%rax), %rdx
	xorl	%esi, %esi
	cmpb	$3, %al
	cmovbq	%rdx, %rsi
	movl	$18, %eax
	leaq	.LJTI27_0(%rip), %rdx
	movslq	(%rdx,%rsi,4), %rsi
	addq	%rdx, %rsi
	notrack	jmpq	*%rsi
.LBB27_98:
	movl	$19, %eax
	jmp	.LBB27_101
.LBB27_83:
	movl	$10, %eax
	jmp	.LBB27_101
.LBB27_87:
	movzbl	32(%rsp), %ecx
	movq	24(%rsp), %rdx
	testq	%rdx, %rdx
	je	.LBB27_97
	movzbl	%cl, %r8d
	movzwl	33(%rsp), %ecx
	movl	35(%rsp), %esi
	movzbl	39(%rsp), %eax
	shlq	$32, %rax
	orq	%rsi, %rax
	movq	40(%rsp), %rdi
	movq	80(%rsp), %rsi
	shll	$8, %ecx
	orq	%r8, %rcx
	shlq	$24, %rax
	leaq	_RNvNtCs00000000000_7pkcs1_c10rattle_std8AN_OCTET(%rip), %r8
	testq	%rdi, %rdi
	je	.LBB27_89
	movq	48(%rsp), %r9
	movq	%r9, 16(%rsp)
	movq	56(%rsp), %r9
	movq	%r9, 8(%rsp)
	movb	$1, %r9b
	movq	%r9, (%rsp)
	jmp	.LBB27_91
.LBB27_97:
	leal	-17(%rcx), %eax
	movzbl	%al, %eax
	leaq	1(%rax), %rdx
	xorl	%esi, %esi
	cmpb	$3, %al
	cmovbq	%rdx, %rsi
	movl	$18, %eax
	leaq	.LJTI27_0(%rip), %rdx
	movslq	(%rdx,%rsi,4), %rsi
	addq	%rdx, %rsi
	notrack	jmpq	*%rsi
.LBB27_99:
	movl	$20, %eax
.LBB27_101:
	addq	$136, %rsp
	.cfi_def_cfa_offset 56
	popq	%rbx
	.cfi_def_cfa_offset 48
	popq	%r12
	.cfi_def_cfa_offset 40
	popq	%r13
	.cfi_def_cfa_offset 32
	popq	%r14
	.cfi_def_cfa_offset 24
	popq	%r15
	.cfi_def_cfa_offset 16
	popq	%rbp
	.cfi_def_cfa_offset 8
	retq
.LBB27_89:
	.cfi_def_cfa_offset 192
	movq	$0, 16(%rsp)
	movq	%r8, %rdi
	movq	$0, 8(%rsp)
	movq	$0, (%rsp)
.LBB27_91:
	movq	%r14, %r10
	movq	64(%rsp), %r14
	movq	72(%rsp), %r15
	movzbl	120(%rsp), %ebp
	orq	%rax, %rcx
	xorl	%eax, %eax
	testq	%rsi, %rsi
	je	.LBB27_92
	movq	88(%rsp), %r13
	movq	96(%rsp), %rbx
	testq	%rbx, %rbx
	je	.LBB27_94
	movq	104(%rsp), %r12
	movq	112(%rsp), %r9
	movb	$1, %r11b
	movq	%rbx, %r8
	movb	$1, %bl
	jmp	.LBB27_96
.LBB27_92:
	xorl	%r12d, %r12d
	xorl	%r9d, %r9d
	xorl	%r11d, %r11d
	xorl	%r13d, %r13d
	movq	%r8, %rsi
	xorl	%ebx, %ebx
	jmp	.LBB27_96
.LBB27_94:
	movb	$1, %bl
	xorl	%r12d, %r12d
	xorl	%r9d, %r9d
	xorl	%r11d, %r11d
.LBB27_96:
	movq	%rdx, (%r10)
	movq	%rcx, 8(%r10)
	movq	(%rsp), %rcx
	movb	%cl, 16(%r10)
	movq	8(%rsp), %rcx
	movb	%cl, 17(%r10)
	movq	%rdi, 24(%r10)
	movq	16(%rsp), %rcx
	movq	%rcx, 32(%r10)
	movq	%r14, 40(%r10)
	movq	%r15, 48(%r10)
	movb	%bl, 56(%r10)
	movq	%rsi, 64(%r10)
	movq	%r13, 72(%r10)
	movb	%r11b, 80(%r10)
	movb	%r9b, 81(%r10)
	movq	%r8, 88(%r10)
	movq	%r12, 96(%r10)
	movb	%bpl, 104(%r10)
	movb	$1, 105(%r10)
	jmp	.LBB27_101
.LBB27_102:
	movq	%rbx, %rsi
	ud2
.Lfunc_end27:
	.size	pkcs1_c_pss_algorithm_decode, .Lfunc_end27-pkcs1_c_pss_algorithm_decode
	.cfi_endproc
	.section	.rodata.pkcs1_c_pss_algorithm_decode,"a",@progbits
	.p2align	2, 0x0
.LJTI27_0:
	.long	.LBB27_100-.LJTI27_0
	.long	.LBB27_101-.LJTI27_0
	.long	.LBB27_98-.LJTI27_0
	.long	.LBB27_99-.LJTI27_0

	.section	.rodata.cst16,"aM",@progbits,16
	.p2align	4, 0x0
.LCPI28_0:
	.zero	16,128
.LCPI28_1:
	.byte	128
	.byte	128
	.byte	128
	.byte	128
	.byte	128
	.byte	128
	.byte	128
	.byte	128
	.zero	1
	.zero	1
	.zero	1
	.zero	1
	.zero	1
	.zero	1
	.zero	1
	.zero	1
	.section	.text.pkcs1_c_pss_algorithm_decode_strict,"ax",@progbits
	.globl	pkcs1_c_pss_algorithm_decode_strict
	.p2align	4, 0x90
	.type	pkcs1_c_pss_algorithm_decode_strict,@function
pkcs1_c_pss_algorithm_decode_strict:
	.cfi_startproc
	endbr64
	pushq	%rbp
	.cfi_def_cfa_offset 16
	pushq	%r15
	.cfi_def_cfa_offset 24
	pushq	%r14
	.cfi_def_cfa_offset 32
	pushq	%r13
	.cfi_def_cfa_offset 40
	pushq	%r12
	.cfi_def_cfa_offset 48
	pushq	%rbx
	.cfi_def_cfa_offset 56
	subq	$136, %rsp
	.cfi_def_cfa_offset 192
	.cfi_offset %rbx, -56
	.cfi_offset %r12, -48
	.cfi_offset %r13, -40
	.cfi_offset %r14, -32
	.cfi_offset %r15, -24
	.cfi_offset %rbp, -16
	movq	%rsi, %rcx
	movq	%rsi, %rax
	shrq	$32, %rax
	movl	$8, %eax
	jne	.LBB28_102
	movq	%rdi, %rsi
	cmpq	$2, %rcx
	jb	.LBB28_15
	cmpb	$48, (%rsi)
	jne	.LBB28_15
	leaq	2(%rsi), %r8
	leaq	-2(%rcx), %r14
	movsbq	1(%rsi), %rax
	testq	%rax, %rax
	js	.LBB28_4
	subq	%rax, %r14
	jb	.LBB28_15
	cmpq	$2, %rax
	jb	.LBB28_38
.LBB28_18:
	cmpb	$6, (%r8)
	jne	.LBB28_38
	leaq	2(%r8), %r15
	leaq	-2(%rax), %r9
	movsbq	1(%r8), %rbx
	testq	%rbx, %rbx
	js	.LBB28_20
	subq	%rbx, %r9
	jb	.LBB28_38
	leaq	(%r15,%rbx), %rsi
	leaq	-1(%rbx), %rdi
	movl	$6, %eax
	cmpq	$38, %rdi
	jbe	.LBB28_29
	jmp	.LBB28_102
.LBB28_4:
	cmpb	$-126, %al
	jne	.LBB28_9
	cmpq	$1, %r14
	jbe	.LBB28_15
	movzbl	2(%rsi), %edi
	testq	%rdi, %rdi
	je	.LBB28_15
	leaq	-4(%rcx), %r14
	shll	$8, %edi
	movzbl	3(%rsi), %eax
	orq	%rdi, %rax
	subq	%rax, %r14
	jb	.LBB28_15
	addq	$4, %rsi
	movq	%rsi, %r8
	jmp	.LBB28_18
.LBB28_20:
	cmpb	$-126, %bl
	jne	.LBB28_36
	cmpq	$1, %r9
	jbe	.LBB28_38
	movzbl	2(%r8), %ecx
	testq	%rcx, %rcx
	je	.LBB28_38
	leaq	-4(%rax), %r9
	shll	$8, %ecx
	movzbl	3(%r8), %ebx
	orq	%rcx, %rbx
	subq	%rbx, %r9
	jb	.LBB28_38
	addq	$4, %r8
	jmp	.LBB28_25
.LBB28_9:
	testq	%r14, %r14
	je	.LBB28_15
	cmpb	$-127, %al
	jne	.LBB28_15
	movzbl	(%r8), %eax
	testb	%al, %al
	jns	.LBB28_15
	leaq	-3(%rcx), %r14
	subq	%rax, %r14
	jb	.LBB28_15
	addq	$3, %rsi
	movq	%rsi, %r8
	jmp	.LBB28_18
.LBB28_15:
	movq	%rdx, %rbx
	leaq	24(%rsp), %rdi
	movq	%rcx, %rdx
	movl	$48, %ecx
	callq	_RNvNtNtNtCs00000000000_7pkcs1_c6proved8der_core5split14split_unlikely
	movq	24(%rsp), %r8
	testq	%r8, %r8
	je	.LBB28_105
	movq	32(%rsp), %rax
	movq	48(%rsp), %r14
	movq	%rbx, %rdx
	cmpq	$2, %rax
	jae	.LBB28_18
	jmp	.LBB28_38
.LBB28_36:
	testq	%r9, %r9
	je	.LBB28_37
	cmpb	$-127, %bl
	jne	.LBB28_38
	movzbl	(%r15), %ebx
	testb	%bl, %bl
	jns	.LBB28_38
	leaq	-3(%rax), %r9
	subq	%rbx, %r9
	jb	.LBB28_38
	addq	$3, %r8
.LBB28_25:
	leaq	(%r8,%rbx), %rsi
	movq	%r8, %r15
	leaq	-1(%rbx), %rdi
	movl	$6, %eax
	cmpq	$38, %rdi
	jbe	.LBB28_29
	jmp	.LBB28_102
.LBB28_105:
	movzbl	32(%rsp), %edx
	leal	-17(%rdx), %eax
	movzbl	%al, %eax
	leaq	1(%rax), %rcx
	xorl	%esi, %esi
	cmpb	$3, %al
	cmovbq	%rcx, %rsi
	movl	$18, %eax
	leaq	.LJTI28_0(%rip), %rcx
	movslq	(%rcx,%rsi,4), %rsi
	addq	%rcx, %rsi
	notrack	jmpq	*%rsi
.LBB28_37:
	movl	$2, %eax
.LBB28_38:
	movq	%rdx, %r12
	leaq	24(%rsp), %rdi
	movq	%r8, %rsi
	movq	%rax, %rdx
	movl	$6, %ecx
	callq	_RNvNtNtNtCs00000000000_7pkcs1_c6proved8der_core5split14split_unlikely
	movq	24(%rsp), %r15
	testq	%r15, %r15
	je	.LBB28_60
	movq	32(%rsp), %rbx
	movq	40(%rsp), %rsi
	movq	48(%rsp), %r9
	movq	%r12, %rdx
	leaq	-1(%rbx), %rdi
	movl	$6, %eax
	cmpq	$38, %rdi
	ja	.LBB28_102
.LBB28_29:
	movzbl	(%r15,%rdi), %ecx
	testb	%cl, %cl
	js	.LBB28_45
	movdqa	.LCPI28_1(%rip), %xmm0
	movdqa	.LCPI28_0(%rip), %xmm1
	xorl	%r8d, %r8d
	movq	%r15, %r10
	jmp	.LBB28_31
	.p2align	4, 0x90
.LBB28_35:
	movl	$1, %r11d
	movq	$-1, %r12
.LBB28_59:
	addq	%r12, %rdi
	addq	%r11, %r10
.LBB28_31:
	cmpq	$7, %rdi
	jbe	.LBB28_32
	movq	(%r10), %xmm2
	pcmpeqb	%xmm0, %xmm2
	pmovmskb	%xmm2, %r11d
	testb	%r11b, %r11b
	jne	.LBB28_44
	movl	$8, %r11d
	movq	$-8, %r12
	jmp	.LBB28_59
	.p2align	4, 0x90
.LBB28_32:
	cmpq	$3, %rdi
	jbe	.LBB28_33
	movd	(%r10), %xmm2
	punpcklbw	%xmm2, %xmm2
	punpcklwd	%xmm2, %xmm2
	pcmpeqb	%xmm1, %xmm2
	movmskps	%xmm2, %r11d
	testl	%r11d, %r11d
	jne	.LBB28_44
	movl	$4, %r11d
	movq	$-4, %r12
	jmp	.LBB28_59
	.p2align	4, 0x90
.LBB28_33:
	testq	%rdi, %rdi
	je	.LBB28_53
	cmpb	(%r10), %r8b
	jno	.LBB28_35
.LBB28_44:
	testq	%rbx, %rbx
	je	.LBB28_53
.LBB28_45:
	xorl	%edi, %edi
	cmpb	(%r15), %dil
	jo	.LBB28_102
	cmpq	$1, %rbx
	jne	.LBB28_47
.LBB28_52:
	testb	%cl, %cl
	js	.LBB28_102
.LBB28_53:
	testq	%r9, %r9
	je	.LBB28_54
	movzbl	(%rsi), %ebp
	movl	%ebp, %eax
	notb	%al
	testb	$31, %al
	sete	%al
	testb	$-33, %bpl
	sete	%cl
	orb	%al, %cl
	movl	$12, %eax
	jne	.LBB28_102
	cmpq	$1, %r9
	je	.LBB28_75
	leaq	2(%rsi), %r8
	leaq	-2(%r9), %rcx
	movsbq	1(%rsi), %rdi
	testq	%rdi, %rdi
	js	.LBB28_64
	subq	%rdi, %rcx
	jae	.LBB28_77
	jmp	.LBB28_75
.LBB28_54:
	xorl	%r8d, %r8d
	xorl	%edi, %edi
	xorl	%ecx, %ecx
	xorl	%esi, %esi
	movl	$13, %eax
	testq	%r14, %r14
	jne	.LBB28_102
	jmp	.LBB28_80
.LBB28_47:
	leaq	-1(%rbx), %r8
	xorl	%r10d, %r10d
	xorl	%edi, %edi
	jmp	.LBB28_48
	.p2align	4, 0x90
.LBB28_51:
	incq	%rdi
	cmpq	%rdi, %r8
	je	.LBB28_52
.LBB28_48:
	cmpb	1(%r15,%rdi), %r10b
	jno	.LBB28_51
	cmpq	%rbx, %rdi
	jae	.LBB28_103
	cmpb	$0, (%r15,%rdi)
	js	.LBB28_51
	jmp	.LBB28_102
.LBB28_60:
	movzbl	32(%rsp), %edx
	leal	-17(%rdx), %eax
	movzbl	%al, %eax
	leaq	1(%rax), %rcx
	xorl	%esi, %esi
	cmpb	$3, %al
	cmovbq	%rcx, %rsi
	movl	$18, %eax
	leaq	.LJTI28_0(%rip), %rcx
	movslq	(%rcx,%rsi,4), %rsi
	addq	%rcx, %rsi
	notrack	jmpq	*%rsi
.LBB28_101:
	movzbl	%dl, %eax
	incl	%eax
	jmp	.LBB28_102
.LBB28_64:
	cmpb	$-126, %dil
	jne	.LBB28_69
	cmpq	$1, %rcx
	jbe	.LBB28_75
	movzbl	2(%rsi), %eax
	testq	%rax, %rax
	je	.LBB28_75
	leaq	-4(%r9), %rcx
	shll	$8, %eax
	movzbl	3(%rsi), %edi
	orq	%rax, %rdi
	subq	%rdi, %rcx
	jb	.LBB28_75
	addq	$4, %rsi
	movq	%rsi, %r8
	jmp	.LBB28_77
.LBB28_69:
	testq	%rcx, %rcx
	je	.LBB28_75
	cmpb	$-127, %dil
	jne	.LBB28_75
	movzbl	(%r8), %edi
	testb	%dil, %dil
	jns	.LBB28_75
	leaq	-3(%r9), %rcx
	subq	%rdi, %rcx
	jb	.LBB28_75
	addq	$3, %rsi
	movq	%rsi, %r8
	jmp	.LBB28_77
.LBB28_75:
	movq	%rdx, %r12
	movzbl	%bpl, %ecx
	leaq	24(%rsp), %rdi
	movq	%r9, %rdx
	callq	_RNvNtNtNtCs00000000000_7pkcs1_c6proved8der_core5split14split_unlikely
	movq	24(%rsp), %r8
	testq	%r8, %r8
	je	.LBB28_104
	movq	32(%rsp), %rdi
	movq	48(%rsp), %rcx
	movq	%r12, %rdx
.LBB28_77:
	movl	$13, %eax
	testq	%rcx, %rcx
	jne	.LBB28_102
	movq	%rdi, %rsi
	andq	$-16777216, %rsi
	movl	%edi, %ecx
	andl	$16776960, %ecx
	movl	$13, %eax
	testq	%r14, %r14
	jne	.LBB28_102
.LBB28_80:
	movl	$7, %eax
	cmpq	$9, %rbx
	jne	.LBB28_102
	movabsq	$72354425775621674, %r9
	xorq	(%r15), %r9
	movzbl	8(%r15), %r10d
	xorq	$10, %r10
	orq	%r9, %r10
	jne	.LBB28_102
	testq	%r8, %r8
	je	.LBB28_83
	movl	$11, %eax
	cmpb	$48, %bpl
	jne	.LBB28_102
	movq	%rdx, %rbx
	movzbl	%dil, %eax
	orq	%rsi, %rcx
	orq	%rax, %rcx
	leaq	24(%rsp), %rdi
	movq	%r8, %rsi
	movq	%rcx, %rdx
	callq	_RNvNtNtNtCs00000000000_7pkcs1_c6proved12pkcs1_params6noting8note_pss
	movzbl	128(%rsp), %ecx
	cmpb	$2, %cl
	jne	.LBB28_87
	movzbl	24(%rsp), %edx
	leal	-17(%rdx), %eax
	movzbl	%al, %eax
	leaq	1(%rax), %rcx
	xorl	%esi, %esi
	cmpb	$3, %al
	cmovbq	%rcx, %rsi
	movl	$18, %eax
	leaq	.LJTI28_0(%rip), %rcx
	movslq	(%rcx,%rsi,4), %rsi
	addq	%rcx, %rsi
	notrack	jmpq	*%rsi
.LBB28_104:
	movzbl	32(%rsp), %edx
	leal	-17(%rdx), %eax
	movzbl	%al, %eax
	leaq	1(%rax), %rcx
	xorl	%esi, %esi
	cmpb	$3, %al
	cmovbq	%rcx, %rsi
	movl	$18, %eax
	leaq	.LJTI28_0(%rip), %rcx
	movslq	(%rcx,%rsi,4), %rsi
	addq	%rcx, %rsi
	notrack	jmpq	*%rsi
.LBB28_99:
	movl	$19, %eax
	jmp	.LBB28_102
.LBB28_83:
	movl	$10, %eax
	jmp	.LBB28_102
.LBB28_87:
	movl	$5, %eax
	testb	$1, %cl
	jne	.LBB28_102
	movzbl	32(%rsp), %edx
	movq	24(%rsp), %rsi
	testq	%rsi, %rsi
	je	.LBB28_98
	movq	%rbx, %rcx
	movzbl	%dl, %eax
	movzwl	33(%rsp), %edx
	shll	$8, %edx
	orq	%rax, %rdx
	movl	35(%rsp), %edi
	movzbl	39(%rsp), %eax
	shlq	$32, %rax
	orq	%rdi, %rax
	movq	40(%rsp), %r9
	movq	80(%rsp), %r8
	shlq	$24, %rax
	leaq	_RNvNtCs00000000000_7pkcs1_c10rattle_std8AN_OCTET(%rip), %rdi
	testq	%r9, %r9
	je	.LBB28_90
	movq	48(%rsp), %r10
	movq	%r10, 16(%rsp)
	movq	56(%rsp), %r10
	movq	%r10, 8(%rsp)
	movb	$1, %r10b
	movq	%r10, (%rsp)
	jmp	.LBB28_92
.LBB28_98:
	leal	-17(%rdx), %eax
	movzbl	%al, %eax
	leaq	1(%rax), %rcx
	xorl	%esi, %esi
	cmpb	$3, %al
	cmovbq	%rcx, %rsi
	movl	$18, %eax
	leaq	.LJTI28_0(%rip), %rcx
	movslq	(%rcx,%rsi,4), %rsi
	addq	%rcx, %rsi
	notrack	jmpq	*%rsi
.LBB28_100:
	movl	$20, %eax
.LBB28_102:
	addq	$136, %rsp
	.cfi_def_cfa_offset 56
	popq	%rbx
	.cfi_def_cfa_offset 48
	popq	%r12
	.cfi_def_cfa_offset 40
	popq	%r13
	.cfi_def_cfa_offset 32
	popq	%r14
	.cfi_def_cfa_offset 24
	popq	%r15
	.cfi_def_cfa_offset 16
	popq	%rbp
	.cfi_def_cfa_offset 8
	retq
.LBB28_90:
	.cfi_def_cfa_offset 192
	movq	$0, 16(%rsp)
	movq	%rdi, %r9
	movq	$0, 8(%rsp)
	movq	$0, (%rsp)
.LBB28_92:
	movq	64(%rsp), %r14
	movq	72(%rsp), %r15
	movzbl	120(%rsp), %ebp
	orq	%rax, %rdx
	xorl	%eax, %eax
	testq	%r8, %r8
	je	.LBB28_93
	movq	88(%rsp), %r13
	movq	96(%rsp), %rbx
	testq	%rbx, %rbx
	je	.LBB28_95
	movq	104(%rsp), %r12
	movq	112(%rsp), %r10
	movb	$1, %r11b
	movq	%rbx, %rdi
	movb	$1, %bl
	jmp	.LBB28_97
.LBB28_93:
	xorl	%r12d, %r12d
	xorl	%r10d, %r10d
	xorl	%r11d, %r11d
	xorl	%r13d, %r13d
	movq	%rdi, %r8
	xorl	%ebx, %ebx
	jmp	.LBB28_97
.LBB28_95:
	movb	$1, %bl
	xorl	%r12d, %r12d
	xorl	%r10d, %r10d
	xorl	%r11d, %r11d
.LBB28_97:
	movq	%rsi, (%rcx)
	movq	%rdx, 8(%rcx)
	movq	(%rsp), %rdx
	movb	%dl, 16(%rcx)
	movq	8(%rsp), %rdx
	movb	%dl, 17(%rcx)
	movq	%r9, 24(%rcx)
	movq	16(%rsp), %rdx
	movq	%rdx, 32(%rcx)
	movq	%r14, 40(%rcx)
	movq	%r15, 48(%rcx)
	movb	%bl, 56(%rcx)
	movq	%r8, 64(%rcx)
	movq	%r13, 72(%rcx)
	movb	%r11b, 80(%rcx)
	movb	%r10b, 81(%rcx)
	movq	%rdi, 88(%rcx)
	movq	%r12, 96(%rcx)
	movb	%bpl, 104(%rcx)
	movb	$1, 105(%rcx)
	jmp	.LBB28_102
.LBB28_103:
	movq	%rbx, %rsi
	ud2
.Lfunc_end28:
	.size	pkcs1_c_pss_algorithm_decode_strict, .Lfunc_end28-pkcs1_c_pss_algorithm_decode_strict
	.cfi_endproc
	.section	.rodata.pkcs1_c_pss_algorithm_decode_strict,"a",@progbits
	.p2align	2, 0x0
.LJTI28_0:
	.long	.LBB28_101-.LJTI28_0
	.long	.LBB28_102-.LJTI28_0
	.long	.LBB28_99-.LJTI28_0
	.long	.LBB28_100-.LJTI28_0

	.section	.text.pkcs1_c_pss_algorithm_encode,"ax",@progbits
	.globl	pkcs1_c_pss_algorithm_encode
	.p2align	4, 0x90
	.type	pkcs1_c_pss_algorithm_encode,@function
pkcs1_c_pss_algorithm_encode:
	.cfi_startproc
	endbr64
	pushq	%rbp
	.cfi_def_cfa_offset 16
	pushq	%r15
	.cfi_def_cfa_offset 24
	pushq	%r14
	.cfi_def_cfa_offset 32
	pushq	%r13
	.cfi_def_cfa_offset 40
	pushq	%r12
	.cfi_def_cfa_offset 48
	pushq	%rbx
	.cfi_def_cfa_offset 56
	subq	$248, %rsp
	.cfi_def_cfa_offset 304
	.cfi_offset %rbx, -56
	.cfi_offset %r12, -48
	.cfi_offset %r13, -40
	.cfi_offset %r14, -32
	.cfi_offset %r15, -24
	.cfi_offset %rbp, -16
	movq	%rcx, %r12
	movq	%rdx, %r15
	movq	%rsi, %rbx
	movq	%rdi, %rsi
	leaq	144(%rsp), %rdi
	callq	_RNvNtNtNtCs00000000000_7pkcs1_c5calls7pkcs1_c3pss10from_c_pss
	cmpq	$0, 144(%rsp)
	je	.LBB29_34
	movups	144(%rsp), %xmm0
	movups	160(%rsp), %xmm1
	movups	176(%rsp), %xmm2
	movups	192(%rsp), %xmm3
	movaps	%xmm1, 48(%rsp)
	movq	240(%rsp), %r13
	movq	%r13, 128(%rsp)
	movups	224(%rsp), %xmm1
	movaps	%xmm1, 112(%rsp)
	movups	208(%rsp), %xmm1
	movaps	%xmm1, 96(%rsp)
	movaps	%xmm3, 80(%rsp)
	movaps	%xmm2, 64(%rsp)
	movaps	%xmm0, 32(%rsp)
	leaq	72(%rsp), %r14
	cmpq	$0, 48(%rsp)
	movq	%rbx, 24(%rsp)
	je	.LBB29_13
	cmpq	$5, 40(%rsp)
	jne	.LBB29_13
	movq	32(%rsp), %rax
	cmpb	$43, (%rax)
	jne	.LBB29_13
	cmpb	$14, 1(%rax)
	jne	.LBB29_13
	cmpb	$3, 2(%rax)
	jne	.LBB29_13
	cmpb	$2, 3(%rax)
	jne	.LBB29_13
	cmpb	$26, 4(%rax)
	jne	.LBB29_13
	movq	56(%rsp), %rbx
	movzbl	64(%rsp), %ebp
	movq	%r14, %rdi
	callq	_RNvXs_NtNtNtCs00000000000_7pkcs1_c6proved12pkcs1_params7holdersINtNtNtB8_9spki_core20algorithm_identifier21AlgorithmIdentifierOfNtNtB14_15identifier_view14IdentifierViewIB10_B22_NtNtB14_3any6AnyRefEENtB4_10MaskHolder10is_defaultBa_
	cmpb	$20, %r13b
	sete	%r14b
	movq	$0, (%rsp)
	cmpb	$5, %bpl
	jne	.LBB29_145
	testq	%rbx, %rbx
	jne	.LBB29_145
	testb	%al, %al
	je	.LBB29_147
	cmpb	$20, %r13b
	jne	.LBB29_151
	movb	$1, %dl
	xorl	%eax, %eax
	movb	$1, %bl
	movb	$1, %r14b
	jmp	.LBB29_33
.LBB29_13:
	movq	88(%rsp), %rax
	testq	%rax, %rax
	je	.LBB29_28
	cmpq	$9, 80(%rsp)
	jne	.LBB29_28
	movq	72(%rsp), %rcx
	movabsq	$72354425775621674, %rdx
	cmpq	%rdx, (%rcx)
	jne	.LBB29_28
	cmpb	$8, 8(%rcx)
	jne	.LBB29_28
	cmpq	$0, 104(%rsp)
	je	.LBB29_28
	cmpq	$5, 96(%rsp)
	jne	.LBB29_28
	cmpb	$43, (%rax)
	jne	.LBB29_28
	cmpb	$14, 1(%rax)
	jne	.LBB29_28
	cmpb	$3, 2(%rax)
	jne	.LBB29_28
	cmpb	$2, 3(%rax)
	jne	.LBB29_28
	cmpb	$26, 4(%rax)
	jne	.LBB29_28
	movq	112(%rsp), %rax
	cmpb	$20, %r13b
	sete	%r14b
	cmpb	$5, 120(%rsp)
	movq	$0, (%rsp)
	jne	.LBB29_146
	testq	%rax, %rax
	jne	.LBB29_146
.LBB29_26:
	movb	$1, %bl
	testb	%r14b, %r14b
	je	.LBB29_150
	movb	$1, %bpl
	jmp	.LBB29_31
.LBB29_28:
	movq	$0, (%rsp)
	movb	$1, %bpl
	cmpb	$20, %r13b
	je	.LBB29_30
.LBB29_29:
	movzbl	%r13b, %edi
	movq	%rsp, %rsi
	callq	_RINvNtNtNtCs00000000000_7pkcs1_c6proved12pkcs1_params6fields13prepend_fieldhNtNtNtB6_8der_core7counter7CounterEB8_
	xorl	%ebp, %ebp
.LBB29_30:
	movq	%rsp, %rsi
	movq	%r14, %rdi
	callq	_RINvNtNtNtCs00000000000_7pkcs1_c6proved12pkcs1_params6fields13prepend_fieldINtNtNtB6_9spki_core20algorithm_identifier21AlgorithmIdentifierOfNtNtB1g_15identifier_view14IdentifierViewIB1c_B2e_NtNtB1g_3any6AnyRefEENtNtNtB6_8der_core7counter7CounterEB8_
	xorl	%ebx, %ebx
.LBB29_31:
	leaq	144(%rsp), %rdi
	movq	%rsp, %rsi
	callq	_RINvNtNtNtCs00000000000_7pkcs1_c6proved12pkcs1_params6fields13prepend_fieldINtNtNtB6_9spki_core20algorithm_identifier21AlgorithmIdentifierOfNtNtB1g_15identifier_view14IdentifierViewNtNtB1g_3any6AnyRefENtNtNtB6_8der_core7counter7CounterEB8_
	xorl	%edx, %edx
	movl	%ebp, %r14d
.LBB29_32:
	movq	(%rsp), %rax
	cmpq	$128, %rax
	jae	.LBB29_36
.LBB29_33:
	addq	$2, %rax
	jmp	.LBB29_46
.LBB29_34:
	movzbl	152(%rsp), %eax
	leal	-17(%rax), %ecx
	movzbl	%cl, %ecx
	leaq	1(%rcx), %rdx
	xorl	%esi, %esi
	cmpb	$3, %cl
	cmovbq	%rdx, %rsi
	leaq	.LJTI29_0(%rip), %rcx
	movslq	(%rcx,%rsi,4), %rdx
	addq	%rcx, %rdx
	notrack	jmpq	*%rdx
.LBB29_35:
	incl	%eax
	jmp	.LBB29_142
.LBB29_36:
	cmpq	$256, %rax
	jae	.LBB29_38
	addq	$3, %rax
	jmp	.LBB29_46
.LBB29_38:
	cmpq	$65536, %rax
	jae	.LBB29_43
	addq	$4, %rax
	jmp	.LBB29_46
.LBB29_40:
	movl	$19, %eax
	jmp	.LBB29_142
.LBB29_41:
	movl	$20, %eax
	jmp	.LBB29_142
.LBB29_42:
	movl	$18, %eax
	jmp	.LBB29_142
.LBB29_43:
	cmpq	$16777216, %rax
	jae	.LBB29_45
	addq	$5, %rax
	jmp	.LBB29_46
.LBB29_45:
	addq	$6, %rax
	movq	$-1, %rcx
	cmovbq	%rcx, %rax
.LBB29_46:
	movq	%rax, %rcx
	addq	$9, %rcx
	movq	$-1, %rsi
	cmovaeq	%rcx, %rsi
	xorl	%ecx, %ecx
	subq	%rax, %rsi
	cmovaeq	%rsi, %rcx
	cmpq	$128, %rcx
	jae	.LBB29_48
	addq	$2, %rcx
	jmp	.LBB29_55
.LBB29_48:
	cmpq	$256, %rcx
	jae	.LBB29_50
	addq	$3, %rcx
	jmp	.LBB29_55
.LBB29_50:
	cmpq	$65536, %rcx
	jae	.LBB29_52
	addq	$4, %rcx
	jmp	.LBB29_55
.LBB29_52:
	cmpq	$16777216, %rcx
	jae	.LBB29_54
	addq	$5, %rcx
	jmp	.LBB29_55
.LBB29_54:
	addq	$6, %rcx
	movq	$-1, %rsi
	cmovbq	%rsi, %rcx
.LBB29_55:
	addq	%rcx, %rax
	movq	$-1, %rsi
	cmovaeq	%rax, %rsi
	movl	$2, %ecx
	cmpq	$128, %rsi
	jb	.LBB29_59
	movl	$3, %ecx
	cmpq	$256, %rsi
	jb	.LBB29_59
	movl	$4, %ecx
	cmpq	$65536, %rsi
	jb	.LBB29_59
	movl	$5, %ecx
	cmpq	$16777215, %rsi
	ja	.LBB29_87
.LBB29_59:
	addq	%rsi, %rcx
.LBB29_60:
	movq	%rcx, (%r12)
	movl	$15, %eax
	cmpq	%r15, %rcx
	ja	.LBB29_142
	movq	24(%rsp), %rax
	movq	%rax, (%rsp)
	movq	%rcx, 8(%rsp)
	movq	%rcx, 16(%rsp)
	testb	%dl, %dl
	je	.LBB29_65
	testb	%bl, %bl
	je	.LBB29_68
	movq	%rcx, %rdx
	testb	%r14b, %r14b
	jne	.LBB29_76
	movzbl	%r13b, %edi
	movq	%rsp, %rsi
	callq	_RINvNtNtNtCs00000000000_7pkcs1_c6proved12pkcs1_params6fields13prepend_fieldhNtNtNtB6_8der_core11back_writer10BackWriterEB8_
	jmp	.LBB29_75
.LBB29_65:
	testb	%bl, %bl
	je	.LBB29_71
	testb	%r14b, %r14b
	jne	.LBB29_74
	movzbl	%r13b, %edi
	movq	%rsp, %rsi
	callq	_RINvNtNtNtCs00000000000_7pkcs1_c6proved12pkcs1_params6fields13prepend_fieldhNtNtNtB6_8der_core11back_writer10BackWriterEB8_
	jmp	.LBB29_74
.LBB29_68:
	testb	%r14b, %r14b
	jne	.LBB29_70
	movzbl	%r13b, %edi
	movq	%rsp, %rsi
	callq	_RINvNtNtNtCs00000000000_7pkcs1_c6proved12pkcs1_params6fields13prepend_fieldhNtNtNtB6_8der_core11back_writer10BackWriterEB8_
.LBB29_70:
	movq	%rsp, %rsi
	leaq	72(%rsp), %rdi
	callq	_RINvNtNtNtCs00000000000_7pkcs1_c6proved12pkcs1_params6fields13prepend_fieldINtNtNtB6_9spki_core20algorithm_identifier21AlgorithmIdentifierOfNtNtB1g_15identifier_view14IdentifierViewIB1c_B2e_NtNtB1g_3any6AnyRefEENtNtNtB6_8der_core11back_writer10BackWriterEB8_
	jmp	.LBB29_75
.LBB29_71:
	testb	%r14b, %r14b
	jne	.LBB29_73
	movzbl	%r13b, %edi
	movq	%rsp, %rsi
	callq	_RINvNtNtNtCs00000000000_7pkcs1_c6proved12pkcs1_params6fields13prepend_fieldhNtNtNtB6_8der_core11back_writer10BackWriterEB8_
.LBB29_73:
	movq	%rsp, %rsi
	leaq	72(%rsp), %rdi
	callq	_RINvNtNtNtCs00000000000_7pkcs1_c6proved12pkcs1_params6fields13prepend_fieldINtNtNtB6_9spki_core20algorithm_identifier21AlgorithmIdentifierOfNtNtB1g_15identifier_view14IdentifierViewIB1c_B2e_NtNtB1g_3any6AnyRefEENtNtNtB6_8der_core11back_writer10BackWriterEB8_
.LBB29_74:
	leaq	144(%rsp), %rsi
	movq	%rsp, %rdx
	xorl	%edi, %edi
	callq	_RINvNtNtNtCs00000000000_7pkcs1_c6proved12pkcs1_params6fields13prepend_fieldINtNtNtB6_9spki_core20algorithm_identifier21AlgorithmIdentifierOfNtNtB1g_15identifier_view14IdentifierViewNtNtB1g_3any6AnyRefENtNtNtB6_8der_core11back_writer10BackWriterEB8_
.LBB29_75:
	movq	8(%rsp), %rcx
	movq	16(%rsp), %rdx
.LBB29_76:
	movq	%rcx, %rsi
	subq	%rdx, %rsi
	cmpl	$128, %esi
	jae	.LBB29_79
	movq	(%rsp), %rax
	cmpq	$2, %rdx
	jb	.LBB29_102
	cmpq	%rdx, %rcx
	jb	.LBB29_152
	shll	$8, %esi
	orl	$48, %esi
	movw	%si, -2(%rax,%rdx)
	addq	$-2, %rdx
	jmp	.LBB29_101
.LBB29_79:
	cmpl	$256, %esi
	jae	.LBB29_84
	movq	(%rsp), %rax
	cmpq	$3, %rdx
	jb	.LBB29_102
	cmpq	%rdx, %rcx
	jb	.LBB29_152
	movw	$-32464, -3(%rax,%rdx)
	movb	%sil, -1(%rax,%rdx)
	addq	$-3, %rdx
	jmp	.LBB29_101
.LBB29_84:
	cmpl	$65536, %esi
	jae	.LBB29_90
	movq	(%rsp), %rax
	cmpq	$4, %rdx
	jb	.LBB29_102
	cmpq	%rdx, %rcx
	jb	.LBB29_152
	orl	$813826048, %esi
	bswapl	%esi
	movl	%esi, -4(%rax,%rdx)
	addq	$-4, %rdx
	jmp	.LBB29_101
.LBB29_87:
	addq	$6, %rsi
	movq	$-1, %rcx
	cmovaeq	%rsi, %rcx
	movq	%rcx, %rax
	shrq	$32, %rax
	movl	$8, %eax
	je	.LBB29_60
	jmp	.LBB29_142
.LBB29_90:
	cmpl	$16777216, %esi
	jae	.LBB29_95
	movq	(%rsp), %rax
	cmpq	$5, %rdx
	jb	.LBB29_102
	cmpq	%rdx, %rcx
	jb	.LBB29_152
	movl	%esi, %edi
	shrl	$16, %edi
	movl	%esi, %r8d
	shrl	$8, %r8d
	movw	$-31952, -5(%rax,%rdx)
	movb	%dil, -3(%rax,%rdx)
	movb	%r8b, -2(%rax,%rdx)
	movb	%sil, -1(%rax,%rdx)
	addq	$-5, %rdx
	jmp	.LBB29_101
.LBB29_95:
	movq	(%rsp), %rax
	cmpq	$6, %rdx
	jb	.LBB29_102
	cmpq	%rdx, %rcx
	jb	.LBB29_152
	movl	%esi, %edi
	shrl	$24, %edi
	movl	%esi, %r8d
	shrl	$16, %r8d
	movl	%esi, %r9d
	shrl	$8, %r9d
	movw	$-31696, -6(%rax,%rdx)
	movb	%dil, -4(%rax,%rdx)
	movb	%r8b, -3(%rax,%rdx)
	movb	%r9b, -2(%rax,%rdx)
	movb	%sil, -1(%rax,%rdx)
	addq	$-6, %rdx
.LBB29_101:
	cmpq	$9, %rdx
	jae	.LBB29_106
.LBB29_102:
	movq	%rdx, %rsi
	subq	%rsi, %rdx
	cmpl	$128, %edx
	jae	.LBB29_108
.LBB29_103:
	cmpq	$2, %rsi
	jb	.LBB29_123
	cmpq	%rcx, %rsi
	ja	.LBB29_152
	shll	$8, %edx
	orl	$6, %edx
	movw	%dx, -2(%rax,%rsi)
	addq	$-2, %rsi
	jmp	.LBB29_123
.LBB29_106:
	cmpq	%rcx, %rdx
	ja	.LBB29_152
	leaq	-9(%rdx), %rsi
	movabsq	$72354425775621674, %rdi
	movq	%rdi, -9(%rax,%rdx)
	movb	$10, -1(%rax,%rdx)
	subq	%rsi, %rdx
	cmpl	$128, %edx
	jb	.LBB29_103
.LBB29_108:
	cmpl	$256, %edx
	jae	.LBB29_112
	cmpq	$3, %rsi
	jb	.LBB29_123
	cmpq	%rcx, %rsi
	ja	.LBB29_152
	movw	$-32506, -3(%rax,%rsi)
	movb	%dl, -1(%rax,%rsi)
	addq	$-3, %rsi
	jmp	.LBB29_123
.LBB29_112:
	cmpl	$65536, %edx
	jae	.LBB29_116
	cmpq	$4, %rsi
	jb	.LBB29_123
	cmpq	%rcx, %rsi
	ja	.LBB29_152
	orl	$109182976, %edx
	bswapl	%edx
	movl	%edx, -4(%rax,%rsi)
	addq	$-4, %rsi
	jmp	.LBB29_123
.LBB29_116:
	cmpl	$16777216, %edx
	jae	.LBB29_120
	cmpq	$5, %rsi
	jb	.LBB29_123
	cmpq	%rcx, %rsi
	ja	.LBB29_152
	movl	%edx, %edi
	shrl	$16, %edi
	movl	%edx, %r8d
	shrl	$8, %r8d
	movw	$-31994, -5(%rax,%rsi)
	movb	%dil, -3(%rax,%rsi)
	movb	%r8b, -2(%rax,%rsi)
	movb	%dl, -1(%rax,%rsi)
	addq	$-5, %rsi
	jmp	.LBB29_123
.LBB29_120:
	cmpq	$6, %rsi
	jb	.LBB29_123
	cmpq	%rcx, %rsi
	ja	.LBB29_152
	movl	%edx, %edi
	shrl	$24, %edi
	movl	%edx, %r8d
	shrl	$16, %r8d
	movl	%edx, %r9d
	shrl	$8, %r9d
	movw	$-31738, -6(%rax,%rsi)
	movb	%dil, -4(%rax,%rsi)
	movb	%r8b, -3(%rax,%rsi)
	movb	%r9b, -2(%rax,%rsi)
	movb	%dl, -1(%rax,%rsi)
	addq	$-6, %rsi
.LBB29_123:
	movq	%rcx, %rdx
	subq	%rsi, %rdx
	cmpl	$128, %edx
	jae	.LBB29_127
	cmpq	$2, %rsi
	jb	.LBB29_141
	cmpq	%rsi, %rcx
	jb	.LBB29_152
	shll	$8, %edx
	orl	$48, %edx
	movw	%dx, -2(%rsi,%rax)
	jmp	.LBB29_141
.LBB29_127:
	cmpl	$256, %edx
	jae	.LBB29_132
	cmpq	$3, %rsi
	jb	.LBB29_141
	cmpq	%rsi, %rcx
	jb	.LBB29_152
	movw	$-32464, -3(%rsi,%rax)
.LBB29_131:
	movb	%dl, -1(%rsi,%rax)
	jmp	.LBB29_141
.LBB29_132:
	cmpl	$65536, %edx
	jae	.LBB29_136
	cmpq	$4, %rsi
	jb	.LBB29_141
	cmpq	%rsi, %rcx
	jb	.LBB29_152
	orl	$813826048, %edx
	bswapl	%edx
	movl	%edx, -4(%rsi,%rax)
	jmp	.LBB29_141
.LBB29_136:
	cmpl	$16777216, %edx
	jae	.LBB29_140
	cmpq	$5, %rsi
	jb	.LBB29_141
	cmpq	%rsi, %rcx
	jb	.LBB29_152
	movl	%edx, %ecx
	shrl	$16, %ecx
	movl	%edx, %edi
	shrl	$8, %edi
	movw	$-31952, -5(%rsi,%rax)
	movb	%cl, -3(%rsi,%rax)
	movb	%dil, -2(%rsi,%rax)
	jmp	.LBB29_131
.LBB29_140:
	cmpq	$6, %rsi
	jae	.LBB29_143
.LBB29_141:
	xorl	%eax, %eax
.LBB29_142:
	addq	$248, %rsp
	.cfi_def_cfa_offset 56
	popq	%rbx
	.cfi_def_cfa_offset 48
	popq	%r12
	.cfi_def_cfa_offset 40
	popq	%r13
	.cfi_def_cfa_offset 32
	popq	%r14
	.cfi_def_cfa_offset 24
	popq	%r15
	.cfi_def_cfa_offset 16
	popq	%rbp
	.cfi_def_cfa_offset 8
	retq
.LBB29_143:
	.cfi_def_cfa_offset 304
	cmpq	%rsi, %rcx
	jb	.LBB29_152
	movl	%edx, %ecx
	shrl	$24, %ecx
	movl	%edx, %edi
	shrl	$16, %edi
	movl	%edx, %r8d
	shrl	$8, %r8d
	movw	$-31696, -6(%rsi,%rax)
	movb	%cl, -4(%rsi,%rax)
	movb	%dil, -3(%rsi,%rax)
	movb	%r8b, -2(%rsi,%rax)
	jmp	.LBB29_131
.LBB29_145:
	testb	%al, %al
	jne	.LBB29_26
.LBB29_146:
	movb	$1, %bpl
	testb	%r14b, %r14b
	leaq	72(%rsp), %r14
	je	.LBB29_29
	jmp	.LBB29_30
.LBB29_147:
	cmpb	$20, %r13b
	je	.LBB29_149
	movzbl	%r13b, %edi
	movq	%rsp, %rsi
	callq	_RINvNtNtNtCs00000000000_7pkcs1_c6proved12pkcs1_params6fields13prepend_fieldhNtNtNtB6_8der_core7counter7CounterEB8_
.LBB29_149:
	movq	%rsp, %rsi
	leaq	72(%rsp), %rdi
	callq	_RINvNtNtNtCs00000000000_7pkcs1_c6proved12pkcs1_params6fields13prepend_fieldINtNtNtB6_9spki_core20algorithm_identifier21AlgorithmIdentifierOfNtNtB1g_15identifier_view14IdentifierViewIB1c_B2e_NtNtB1g_3any6AnyRefEENtNtNtB6_8der_core7counter7CounterEB8_
	movb	$1, %dl
	xorl	%ebx, %ebx
	jmp	.LBB29_32
.LBB29_150:
	movzbl	%r13b, %edi
	movq	%rsp, %rsi
	callq	_RINvNtNtNtCs00000000000_7pkcs1_c6proved12pkcs1_params6fields13prepend_fieldhNtNtNtB6_8der_core7counter7CounterEB8_
	xorl	%ebp, %ebp
	jmp	.LBB29_31
.LBB29_151:
	movzbl	%r13b, %edi
	movq	%rsp, %rsi
	callq	_RINvNtNtNtCs00000000000_7pkcs1_c6proved12pkcs1_params6fields13prepend_fieldhNtNtNtB6_8der_core7counter7CounterEB8_
	movb	$1, %bl
	xorl	%r14d, %r14d
	movb	$1, %dl
	jmp	.LBB29_32
.LBB29_152:
	ud2
.Lfunc_end29:
	.size	pkcs1_c_pss_algorithm_encode, .Lfunc_end29-pkcs1_c_pss_algorithm_encode
	.cfi_endproc
	.section	.rodata.pkcs1_c_pss_algorithm_encode,"a",@progbits
	.p2align	2, 0x0
.LJTI29_0:
	.long	.LBB29_35-.LJTI29_0
	.long	.LBB29_42-.LJTI29_0
	.long	.LBB29_40-.LJTI29_0
	.long	.LBB29_41-.LJTI29_0

	.section	.text.pkcs1_c_public_key_decode,"ax",@progbits
	.globl	pkcs1_c_public_key_decode
	.p2align	4, 0x90
	.type	pkcs1_c_public_key_decode,@function
pkcs1_c_public_key_decode:
	.cfi_startproc
	endbr64
	pushq	%r15
	.cfi_def_cfa_offset 16
	pushq	%r14
	.cfi_def_cfa_offset 24
	pushq	%r12
	.cfi_def_cfa_offset 32
	pushq	%rbx
	.cfi_def_cfa_offset 40
	subq	$40, %rsp
	.cfi_def_cfa_offset 80
	.cfi_offset %rbx, -40
	.cfi_offset %r12, -32
	.cfi_offset %r14, -24
	.cfi_offset %r15, -16
	movq	%rsi, %rax
	shrq	$32, %rax
	movl	$8, %eax
	jne	.LBB30_1
	movq	%rsi, %r8
	cmpq	$2, %rsi
	jb	.LBB30_29
	cmpb	$48, (%rdi)
	jne	.LBB30_29
	leaq	2(%rdi), %rsi
	leaq	-2(%r8), %rbx
	movsbq	1(%rdi), %rcx
	testq	%rcx, %rcx
	js	.LBB30_14
	subq	%rcx, %rbx
	jb	.LBB30_29
	cmpq	$2, %rcx
	jb	.LBB30_72
.LBB30_7:
	cmpb	$2, (%rsi)
	jne	.LBB30_72
	leaq	2(%rsi), %r15
	leaq	-2(%rcx), %r8
	movsbq	1(%rsi), %r14
	testq	%r14, %r14
	js	.LBB30_19
	subq	%r14, %r8
	jb	.LBB30_72
	leaq	(%r15,%r14), %rcx
	testq	%r14, %r14
	je	.LBB30_74
.LBB30_11:
	cmpb	$0, (%r15)
	je	.LBB30_37
.LBB30_12:
	jns	.LBB30_41
	jmp	.LBB30_13
.LBB30_14:
	cmpb	$-126, %cl
	jne	.LBB30_24
	cmpq	$1, %rbx
	jbe	.LBB30_29
	movzbl	2(%rdi), %eax
	testq	%rax, %rax
	je	.LBB30_29
	leaq	-4(%r8), %rbx
	shll	$8, %eax
	movzbl	3(%rdi), %ecx
	orq	%rax, %rcx
	subq	%rcx, %rbx
	jb	.LBB30_29
	addq	$4, %rdi
	movq	%rdi, %rsi
	jmp	.LBB30_7
.LBB30_19:
	cmpb	$-126, %r14b
	jne	.LBB30_31
	cmpq	$1, %r8
	jbe	.LBB30_72
	movzbl	2(%rsi), %eax
	testq	%rax, %rax
	je	.LBB30_72
	leaq	-4(%rcx), %r8
	shll	$8, %eax
	movzbl	3(%rsi), %r14d
	orq	%rax, %r14
	subq	%r14, %r8
	jb	.LBB30_72
	addq	$4, %rsi
	leaq	(%rsi,%r14), %rcx
	movq	%rsi, %r15
	cmpb	$0, (%r15)
	jne	.LBB30_12
	jmp	.LBB30_37
.LBB30_24:
	testq	%rbx, %rbx
	je	.LBB30_29
	cmpb	$-127, %cl
	jne	.LBB30_29
	movzbl	(%rsi), %ecx
	testb	%cl, %cl
	jns	.LBB30_29
	leaq	-3(%r8), %rbx
	subq	%rcx, %rbx
	jb	.LBB30_29
	addq	$3, %rdi
	movq	%rdi, %rsi
	jmp	.LBB30_7
.LBB30_29:
	movq	%rdx, %r14
	leaq	8(%rsp), %rax
	movq	%rdi, %rsi
	movq	%rax, %rdi
	movq	%r8, %rdx
	movl	$48, %ecx
	callq	_RNvNtNtNtCs00000000000_7pkcs1_c6proved8der_core5split14split_unlikely
	movq	8(%rsp), %rsi
	testq	%rsi, %rsi
	je	.LBB30_52
	movq	16(%rsp), %rcx
	movq	32(%rsp), %rbx
	movq	%r14, %rdx
	cmpq	$2, %rcx
	jae	.LBB30_7
	jmp	.LBB30_72
.LBB30_31:
	testq	%r8, %r8
	je	.LBB30_71
	cmpb	$-127, %r14b
	jne	.LBB30_72
	movzbl	(%r15), %r14d
	testb	%r14b, %r14b
	jns	.LBB30_72
	leaq	-3(%rcx), %r8
	subq	%r14, %r8
	jb	.LBB30_72
	addq	$3, %rsi
	leaq	(%rsi,%r14), %rcx
	movq	%rsi, %r15
	cmpb	$0, (%r15)
	jne	.LBB30_12
.LBB30_37:
	decq	%r14
	je	.LBB30_40
	movl	$5, %eax
	cmpb	$0, 1(%r15)
	jns	.LBB30_1
	incq	%r15
	jmp	.LBB30_41
.LBB30_40:
	movl	$1, %r14d
.LBB30_41:
	cmpq	$2, %r8
	jb	.LBB30_59
	cmpb	$2, (%rcx)
	jne	.LBB30_59
	leaq	2(%rcx), %r9
	leaq	-2(%r8), %rdi
	movsbq	1(%rcx), %rsi
	testq	%rsi, %rsi
	js	.LBB30_47
	subq	%rsi, %rdi
	jb	.LBB30_59
	testq	%rsi, %rsi
	je	.LBB30_74
.LBB30_61:
	cmpb	$0, (%r9)
	je	.LBB30_64
.LBB30_62:
	jns	.LBB30_68
.LBB30_13:
	movl	$14, %eax
	jmp	.LBB30_1
.LBB30_47:
	cmpb	$-126, %sil
	jne	.LBB30_53
	cmpq	$1, %rdi
	jbe	.LBB30_59
	movzbl	2(%rcx), %eax
	testq	%rax, %rax
	je	.LBB30_59
	leaq	-4(%r8), %rdi
	shll	$8, %eax
	movzbl	3(%rcx), %esi
	orq	%rax, %rsi
	subq	%rsi, %rdi
	jb	.LBB30_59
	addq	$4, %rcx
	jmp	.LBB30_58
.LBB30_52:
	movzbl	16(%rsp), %ecx
	leal	-17(%rcx), %eax
	movzbl	%al, %eax
	leaq	1(%rax), %rdx
	xorl	%esi, %esi
	cmpb	$3, %al
	cmovbq	%rdx, %rsi
	movl	$18, %eax
	leaq	.LJTI30_0(%rip), %rdx
	movslq	(%rdx,%rsi,4), %rsi
	addq	%rdx, %rsi
	notrack	jmpq	*%rsi
.LBB30_53:
	testq	%rdi, %rdi
	je	.LBB30_59
	cmpb	$-127, %sil
	jne	.LBB30_59
	movzbl	(%r9), %esi
	testb	%sil, %sil
	jns	.LBB30_59
	leaq	-3(%r8), %rdi
	subq	%rsi, %rdi
	jb	.LBB30_59
	addq	$3, %rcx
.LBB30_58:
	movq	%rcx, %r9
	cmpb	$0, (%r9)
	jne	.LBB30_62
.LBB30_64:
	decq	%rsi
	je	.LBB30_67
	movl	$5, %eax
	cmpb	$0, 1(%r9)
	jns	.LBB30_1
	incq	%r9
	jmp	.LBB30_68
.LBB30_59:
	movq	%rdx, %r12
	leaq	8(%rsp), %rdi
	movq	%rcx, %rsi
	movq	%r8, %rdx
	movl	$2, %ecx
	callq	_RNvNtNtNtCs00000000000_7pkcs1_c6proved8der_core5split14split_unlikely
	movq	8(%rsp), %r9
	testq	%r9, %r9
	je	.LBB30_70
	movq	16(%rsp), %rsi
	movq	32(%rsp), %rdi
	movq	%r12, %rdx
	testq	%rsi, %rsi
	jne	.LBB30_61
	jmp	.LBB30_74
.LBB30_67:
	movl	$1, %esi
.LBB30_68:
	movl	$13, %eax
	orq	%rbx, %rdi
	jne	.LBB30_1
	movq	%r15, (%rdx)
	movq	%r14, 8(%rdx)
	movq	%r9, 16(%rdx)
	movq	%rsi, 24(%rdx)
	xorl	%eax, %eax
	jmp	.LBB30_1
.LBB30_70:
	movzbl	16(%rsp), %ecx
	leal	-17(%rcx), %eax
	movzbl	%al, %eax
	leaq	1(%rax), %rdx
	xorl	%esi, %esi
	cmpb	$3, %al
	cmovbq	%rdx, %rsi
	movl	$18, %eax
	leaq	.LJTI30_0(%rip), %rdx
	movslq	(%rdx,%rsi,4), %rsi
	addq	%rdx, %rsi
	notrack	jmpq	*%rsi
.LBB30_71:
	movl	$2, %ecx
.LBB30_72:
	movq	%rdx, %r12
	leaq	8(%rsp), %rdi
	movq	%rcx, %rdx
	movl	$2, %ecx
	callq	_RNvNtNtNtCs00000000000_7pkcs1_c6proved8der_core5split14split_unlikely
	movq	8(%rsp), %r15
	testq	%r15, %r15
	je	.LBB30_75
	movq	16(%rsp), %r14
	movq	24(%rsp), %rcx
	movq	32(%rsp), %r8
	movq	%r12, %rdx
	testq	%r14, %r14
	jne	.LBB30_11
.LBB30_74:
	movl	$4, %eax
.LBB30_1:
	addq	$40, %rsp
	.cfi_def_cfa_offset 40
	popq	%rbx
	.cfi_def_cfa_offset 32
	popq	%r12
	.cfi_def_cfa_offset 24
	popq	%r14
	.cfi_def_cfa_offset 16
	popq	%r15
	.cfi_def_cfa_offset 8
	retq
.LBB30_75:
	.cfi_def_cfa_offset 80
	movzbl	16(%rsp), %ecx
	leal	-17(%rcx), %eax
	movzbl	%al, %eax
	leaq	1(%rax), %rdx
	xorl	%esi, %esi
	cmpb	$3, %al
	cmovbq	%rdx, %rsi
	movl	$18, %eax
	leaq	.LJTI30_0(%rip), %rdx
	movslq	(%rdx,%rsi,4), %rsi
	addq	%rdx, %rsi
	notrack	jmpq	*%rsi
.LBB30_76:
	movzbl	%cl, %eax
	incl	%eax
	jmp	.LBB30_1
.LBB30_77:
	movl	$19, %eax
	jmp	.LBB30_1
.LBB30_78:
	movl	$20, %eax
	jmp	.LBB30_1
.Lfunc_end30:
	.size	pkcs1_c_public_key_decode, .Lfunc_end30-pkcs1_c_public_key_decode
	.cfi_endproc
	.section	.rodata.pkcs1_c_public_key_decode,"a",@progbits
	.p2align	2, 0x0
.LJTI30_0:
	.long	.LBB30_76-.LJTI30_0
	.long	.LBB30_1-.LJTI30_0
	.long	.LBB30_77-.LJTI30_0
	.long	.LBB30_78-.LJTI30_0

	.section	.text.pkcs1_c_public_key_encode,"ax",@progbits
	.globl	pkcs1_c_public_key_encode
	.p2align	4, 0x90
	.type	pkcs1_c_public_key_encode,@function
pkcs1_c_public_key_encode:
	.cfi_startproc
	endbr64
	pushq	%rbp
	.cfi_def_cfa_offset 16
	pushq	%r15
	.cfi_def_cfa_offset 24
	pushq	%r14
	.cfi_def_cfa_offset 32
	pushq	%r13
	.cfi_def_cfa_offset 40
	pushq	%r12
	.cfi_def_cfa_offset 48
	pushq	%rbx
	.cfi_def_cfa_offset 56
	pushq	%rax
	.cfi_def_cfa_offset 64
	.cfi_offset %rbx, -56
	.cfi_offset %r12, -48
	.cfi_offset %r13, -40
	.cfi_offset %r14, -32
	.cfi_offset %r15, -24
	.cfi_offset %rbp, -16
	movq	(%rdi), %rbx
	movq	8(%rdi), %r14
	cmpq	$2, %r14
	jb	.LBB31_6
	leaq	(%rbx,%r14), %rax
	decq	%rax
	.p2align	4, 0x90
.LBB31_2:
	cmpb	$0, (%rbx)
	jne	.LBB31_8
	decq	%r14
	incq	%rbx
	cmpq	$1, %r14
	ja	.LBB31_2
	movl	$1, %r14d
	movq	%rax, %rbx
	testq	%rax, %rax
	jne	.LBB31_9
	jmp	.LBB31_5
.LBB31_6:
	testq	%r14, %r14
	movl	$1, %r14d
	jne	.LBB31_9
	jmp	.LBB31_7
.LBB31_8:
	movq	%r14, %rax
	shrq	$32, %rax
	movl	$8, %eax
	jne	.LBB31_42
.LBB31_9:
	movq	16(%rdi), %r9
	movq	24(%rdi), %r8
	cmpq	$2, %r8
	jb	.LBB31_15
	leaq	(%r9,%r8), %rax
	decq	%rax
	.p2align	4, 0x90
.LBB31_11:
	movzbl	(%r9), %r13d
	testb	%r13b, %r13b
	jne	.LBB31_17
	decq	%r8
	incq	%r9
	cmpq	$1, %r8
	ja	.LBB31_11
	movq	%rax, %r9
	testq	%rax, %rax
	jne	.LBB31_16
.LBB31_5:
	movl	$2, %eax
	jmp	.LBB31_42
.LBB31_15:
	testq	%r8, %r8
	je	.LBB31_7
.LBB31_16:
	movzbl	(%r9), %r13d
	movl	$1, %r8d
	jmp	.LBB31_18
.LBB31_7:
	movl	$4, %eax
	jmp	.LBB31_42
.LBB31_17:
	movq	%r8, %rax
	shrq	$32, %rax
	movl	$8, %eax
	jne	.LBB31_42
.LBB31_18:
	movl	%r13d, %eax
	shrb	$7, %al
	movzbl	%al, %eax
	addq	%r8, %rax
	movl	$2, %edi
	cmpq	$128, %rax
	jb	.LBB31_22
	movl	$3, %edi
	cmpq	$256, %rax
	jb	.LBB31_22
	movl	$4, %edi
	cmpq	$65536, %rax
	jb	.LBB31_22
	cmpq	$16777216, %rax
	movl	$6, %edi
	sbbq	$0, %rdi
.LBB31_22:
	addq	%rdi, %rax
	movzbl	(%rbx), %r11d
	movl	%r11d, %r10d
	shrl	$7, %r10d
	addq	%r14, %r10
	addq	%rax, %r10
	xorl	%edi, %edi
	subq	%rax, %r10
	cmovaeq	%r10, %rdi
	cmpq	$128, %rdi
	jae	.LBB31_24
	addq	$2, %rdi
	jmp	.LBB31_32
.LBB31_24:
	cmpq	$256, %rdi
	jae	.LBB31_27
	addq	$3, %rdi
	jmp	.LBB31_32
.LBB31_27:
	cmpq	$65536, %rdi
	jae	.LBB31_29
	addq	$4, %rdi
	jmp	.LBB31_32
.LBB31_29:
	cmpq	$16777216, %rdi
	jae	.LBB31_31
	addq	$5, %rdi
	jmp	.LBB31_32
.LBB31_31:
	addq	$6, %rdi
	movq	$-1, %r10
	cmovbq	%r10, %rdi
.LBB31_32:
	addq	%rdi, %rax
	movq	$-1, %rdi
	cmovaeq	%rax, %rdi
	cmpq	$128, %rdi
	jae	.LBB31_34
	addq	$2, %rdi
	movq	%rdi, %rbp
	jmp	.LBB31_41
.LBB31_34:
	cmpq	$256, %rdi
	jae	.LBB31_36
	addq	$3, %rdi
	movq	%rdi, %rbp
	jmp	.LBB31_41
.LBB31_36:
	cmpq	$65536, %rdi
	jae	.LBB31_38
	addq	$4, %rdi
	movq	%rdi, %rbp
	jmp	.LBB31_41
.LBB31_38:
	cmpq	$16777216, %rdi
	jae	.LBB31_40
	addq	$5, %rdi
	movq	%rdi, %rbp
	jmp	.LBB31_41
.LBB31_40:
	addq	$6, %rdi
	movq	$-1, %rbp
	cmovaeq	%rdi, %rbp
	movq	%rbp, %rax
	shrq	$32, %rax
	movl	$8, %eax
	jne	.LBB31_42
.LBB31_41:
	movq	%rbp, (%rcx)
	movl	$15, %eax
	cmpq	%rdx, %rbp
	jbe	.LBB31_43
.LBB31_42:
	addq	$8, %rsp
	.cfi_def_cfa_offset 56
	popq	%rbx
	.cfi_def_cfa_offset 48
	popq	%r12
	.cfi_def_cfa_offset 40
	popq	%r13
	.cfi_def_cfa_offset 32
	popq	%r14
	.cfi_def_cfa_offset 24
	popq	%r15
	.cfi_def_cfa_offset 16
	popq	%rbp
	.cfi_def_cfa_offset 8
	retq
.LBB31_43:
	.cfi_def_cfa_offset 64
	movq	%rbp, %r15
	movq	%rbp, %r12
	subq	%r8, %r15
	jb	.LBB31_45
	leaq	(%rsi,%r15), %rdi
	movq	%rsi, (%rsp)
	movq	%r9, %rsi
	movq	%r8, %rdx
	movq	%rbp, %r12
	movl	%r11d, %ebp
	callq	memcpy
	movl	%ebp, %r11d
	movq	%r12, %rbp
	movq	(%rsp), %rsi
	movq	%r15, %r12
.LBB31_45:
	testb	%r13b, %r13b
	js	.LBB31_50
	movq	%rbp, %rax
	subq	%r12, %rax
	cmpl	$128, %eax
	jae	.LBB31_53
.LBB31_47:
	cmpq	$2, %r12
	jb	.LBB31_69
	cmpq	%r12, %rbp
	jb	.LBB31_116
	shll	$8, %eax
	orl	$2, %eax
	movw	%ax, -2(%rsi,%r12)
	addq	$-2, %r12
	jmp	.LBB31_69
.LBB31_50:
	testq	%r12, %r12
	je	.LBB31_61
	cmpq	%rbp, %r12
	ja	.LBB31_116
	movb	$0, -1(%rsi,%r12)
	decq	%r12
	movq	%rbp, %rax
	subq	%r12, %rax
	cmpl	$128, %eax
	jb	.LBB31_47
.LBB31_53:
	cmpl	$256, %eax
	jae	.LBB31_57
	cmpq	$3, %r12
	jb	.LBB31_69
	cmpq	%r12, %rbp
	jb	.LBB31_116
	movw	$-32510, -3(%rsi,%r12)
	movb	%al, -1(%rsi,%r12)
	addq	$-3, %r12
	jmp	.LBB31_69
.LBB31_57:
	cmpl	$65536, %eax
	jae	.LBB31_62
	cmpq	$4, %r12
	jb	.LBB31_69
	cmpq	%r12, %rbp
	jb	.LBB31_116
	orl	$42074112, %eax
	bswapl	%eax
	movl	%eax, -4(%rsi,%r12)
	addq	$-4, %r12
	jmp	.LBB31_69
.LBB31_61:
	xorl	%r12d, %r12d
	xorl	%ecx, %ecx
	subq	%rcx, %r12
	cmpl	$128, %r12d
	jb	.LBB31_77
.LBB31_81:
	cmpl	$256, %r12d
	jae	.LBB31_85
	cmpq	$3, %rcx
	jb	.LBB31_96
	cmpq	%rbp, %rcx
	ja	.LBB31_116
	movw	$-32510, -3(%rsi,%rcx)
	movb	%r12b, -1(%rsi,%rcx)
	addq	$-3, %rcx
	jmp	.LBB31_96
.LBB31_85:
	cmpl	$65536, %r12d
	jae	.LBB31_89
	cmpq	$4, %rcx
	jb	.LBB31_96
	cmpq	%rbp, %rcx
	ja	.LBB31_116
	orl	$42074112, %r12d
	bswapl	%r12d
	movl	%r12d, -4(%rsi,%rcx)
	addq	$-4, %rcx
	jmp	.LBB31_96
.LBB31_89:
	cmpl	$16777216, %r12d
	jae	.LBB31_93
	cmpq	$5, %rcx
	jb	.LBB31_96
	cmpq	%rbp, %rcx
	ja	.LBB31_116
	movl	%r12d, %eax
	shrl	$16, %eax
	movl	%r12d, %edx
	shrl	$8, %edx
	movw	$-31998, -5(%rsi,%rcx)
	movb	%al, -3(%rsi,%rcx)
	movb	%dl, -2(%rsi,%rcx)
	movb	%r12b, -1(%rsi,%rcx)
	addq	$-5, %rcx
	jmp	.LBB31_96
.LBB31_62:
	cmpl	$16777216, %eax
	jae	.LBB31_66
	cmpq	$5, %r12
	jb	.LBB31_69
	cmpq	%r12, %rbp
	jb	.LBB31_116
	movl	%eax, %ecx
	shrl	$16, %ecx
	movl	%eax, %edx
	shrl	$8, %edx
	movw	$-31998, -5(%rsi,%r12)
	movb	%cl, -3(%rsi,%r12)
	movb	%dl, -2(%rsi,%r12)
	movb	%al, -1(%rsi,%r12)
	addq	$-5, %r12
	jmp	.LBB31_69
.LBB31_93:
	cmpq	$6, %rcx
	jb	.LBB31_96
	cmpq	%rbp, %rcx
	ja	.LBB31_116
	movl	%r12d, %eax
	shrl	$24, %eax
	movl	%r12d, %edx
	shrl	$16, %edx
	movl	%r12d, %edi
	shrl	$8, %edi
	movw	$-31742, -6(%rsi,%rcx)
	movb	%al, -4(%rsi,%rcx)
	movb	%dl, -3(%rsi,%rcx)
	movb	%dil, -2(%rsi,%rcx)
	movb	%r12b, -1(%rsi,%rcx)
	addq	$-6, %rcx
	jmp	.LBB31_96
.LBB31_66:
	cmpq	$6, %r12
	jb	.LBB31_69
	cmpq	%r12, %rbp
	jb	.LBB31_116
	movl	%eax, %ecx
	shrl	$24, %ecx
	movl	%eax, %edx
	shrl	$16, %edx
	movl	%eax, %edi
	shrl	$8, %edi
	movw	$-31742, -6(%rsi,%r12)
	movb	%cl, -4(%rsi,%r12)
	movb	%dl, -3(%rsi,%r12)
	movb	%dil, -2(%rsi,%r12)
	movb	%al, -1(%rsi,%r12)
	addq	$-6, %r12
.LBB31_69:
	movq	%r12, %r13
	movq	%r12, %rcx
	subq	%r14, %r13
	jb	.LBB31_72
	movl	%r11d, (%rsp)
	cmpq	%rbp, %r12
	ja	.LBB31_116
	leaq	(%rsi,%r13), %rdi
	movq	%rsi, %r15
	movq	%rbx, %rsi
	movq	%r14, %rdx
	callq	memcpy
	movq	%r15, %rsi
	movq	%r13, %rcx
	movl	(%rsp), %r11d
.LBB31_72:
	testb	%r11b, %r11b
	jns	.LBB31_76
	testq	%rcx, %rcx
	je	.LBB31_80
	cmpq	%rbp, %rcx
	ja	.LBB31_116
	movb	$0, -1(%rsi,%rcx)
	decq	%rcx
.LBB31_76:
	subq	%rcx, %r12
	cmpl	$128, %r12d
	jae	.LBB31_81
.LBB31_77:
	cmpq	$2, %rcx
	jb	.LBB31_96
	cmpq	%rbp, %rcx
	ja	.LBB31_116
	shll	$8, %r12d
	orl	$2, %r12d
	movw	%r12w, -2(%rsi,%rcx)
	addq	$-2, %rcx
.LBB31_96:
	movq	%rbp, %rdx
	subq	%rcx, %rdx
	xorl	%eax, %eax
	cmpl	$128, %edx
	jae	.LBB31_100
	cmpq	$2, %rcx
	jb	.LBB31_42
	cmpq	%rcx, %rbp
	jb	.LBB31_116
	shll	$8, %edx
	orl	$48, %edx
	movw	%dx, -2(%rsi,%rcx)
	jmp	.LBB31_42
.LBB31_100:
	cmpl	$256, %edx
	jae	.LBB31_105
	cmpq	$3, %rcx
	jb	.LBB31_42
	cmpq	%rcx, %rbp
	jb	.LBB31_116
	movw	$-32464, -3(%rsi,%rcx)
.LBB31_104:
	movb	%dl, -1(%rsi,%rcx)
	jmp	.LBB31_42
.LBB31_105:
	cmpl	$65536, %edx
	jae	.LBB31_109
	cmpq	$4, %rcx
	jb	.LBB31_42
	cmpq	%rcx, %rbp
	jb	.LBB31_116
	orl	$813826048, %edx
	bswapl	%edx
	movl	%edx, -4(%rsi,%rcx)
	jmp	.LBB31_42
.LBB31_109:
	cmpl	$16777216, %edx
	jae	.LBB31_113
	cmpq	$5, %rcx
	jb	.LBB31_42
	cmpq	%rcx, %rbp
	jb	.LBB31_116
	movl	%edx, %edi
	shrl	$16, %edi
	movl	%edx, %r8d
	shrl	$8, %r8d
	movw	$-31952, -5(%rsi,%rcx)
	movb	%dil, -3(%rsi,%rcx)
	movb	%r8b, -2(%rsi,%rcx)
	jmp	.LBB31_104
.LBB31_80:
	xorl	%ecx, %ecx
	subq	%rcx, %r12
	cmpl	$128, %r12d
	jb	.LBB31_77
	jmp	.LBB31_81
.LBB31_113:
	cmpq	$6, %rcx
	jb	.LBB31_42
	cmpq	%rcx, %rbp
	jb	.LBB31_116
	movl	%edx, %edi
	shrl	$24, %edi
	movl	%edx, %r8d
	shrl	$16, %r8d
	movl	%edx, %r9d
	shrl	$8, %r9d
	movw	$-31696, -6(%rsi,%rcx)
	movb	%dil, -4(%rsi,%rcx)
	movb	%r8b, -3(%rsi,%rcx)
	movb	%r9b, -2(%rsi,%rcx)
	jmp	.LBB31_104
.LBB31_116:
	ud2
.Lfunc_end31:
	.size	pkcs1_c_public_key_encode, .Lfunc_end31-pkcs1_c_public_key_encode
	.cfi_endproc

	.section	.text.pkcs1_c_status_text,"ax",@progbits
	.globl	pkcs1_c_status_text
	.p2align	4, 0x90
	.type	pkcs1_c_status_text,@function
pkcs1_c_status_text:
	.cfi_startproc
	endbr64
	cmpl	$21, %edi
	ja	.LBB32_1
	movl	%edi, %ecx
	leaq	.Lswitch.table.pkcs1_c_status_text(%rip), %rax
	movq	(%rax,%rcx,8), %rax
	leaq	.Lswitch.table.pkcs1_c_status_text.20(%rip), %rdx
	movq	(%rdx,%rcx,8), %rcx
	movq	%rcx, (%rsi)
	movq	%rax, 8(%rsi)
	retq
.LBB32_1:
	leaq	.Lanon.0(%rip), %rcx
	movl	$14, %eax
	movq	%rcx, (%rsi)
	movq	%rax, 8(%rsi)
	retq
.Lfunc_end32:
	.size	pkcs1_c_status_text, .Lfunc_end32-pkcs1_c_status_text
	.cfi_endproc

	.section	.text.pkcs1_c_version,"ax",@progbits
	.globl	pkcs1_c_version
	.p2align	4, 0x90
	.type	pkcs1_c_version,@function
pkcs1_c_version:
	.cfi_startproc
	endbr64
	leaq	.Lanon.1(%rip), %rax
	movq	%rax, (%rdi)
	movq	$6, 8(%rdi)
	retq
.Lfunc_end33:
	.size	pkcs1_c_version, .Lfunc_end33-pkcs1_c_version
	.cfi_endproc

	.section	.text._RNvNtNtNtNtCs00000000000_7pkcs1_c6proved8der_core7integer5small5small,"ax",@progbits
	.p2align	4, 0x90
	.type	_RNvNtNtNtNtCs00000000000_7pkcs1_c6proved8der_core7integer5small5small,@function
_RNvNtNtNtNtCs00000000000_7pkcs1_c6proved8der_core7integer5small5small:
	.cfi_startproc
	movb	$2, %al
	testq	%rsi, %rsi
	je	.LBB34_1
	movzbl	(%rdi), %edx
	testb	%dl, %dl
	je	.LBB34_5
	jns	.LBB34_7
	movb	$13, %cl
	jmp	.LBB34_8
.LBB34_1:
	movb	$3, %cl
	jmp	.LBB34_8
.LBB34_5:
	movzbl	1(%rdi), %edx
	movb	$4, %cl
	testb	%dl, %dl
	jns	.LBB34_8
	decq	%rsi
.LBB34_7:
	cmpq	$2, %rsi
	setb	%cl
	movzbl	%dl, %edx
	movl	$2, %eax
	cmovbl	%edx, %eax
	shlb	$2, %cl
	addb	$13, %cl
.LBB34_8:
	movzbl	%al, %edx
	shll	$8, %edx
	movzbl	%cl, %eax
	orl	%edx, %eax
	retq
.Lfunc_end34:
	.size	_RNvNtNtNtNtCs00000000000_7pkcs1_c6proved8der_core7integer5small5small, .Lfunc_end34-_RNvNtNtNtNtCs00000000000_7pkcs1_c6proved8der_core7integer5small5small
	.cfi_endproc

	.section	.text.unlikely._RNvNtNtNtCs00000000000_7pkcs1_c6proved8der_core5split14split_unlikely,"ax",@progbits
	.p2align	4, 0x90
	.type	_RNvNtNtNtCs00000000000_7pkcs1_c6proved8der_core5split14split_unlikely,@function
_RNvNtNtNtCs00000000000_7pkcs1_c6proved8der_core5split14split_unlikely:
	.cfi_startproc
	movq	%rdx, %rax
	shrq	$32, %rax
	je	.LBB35_1
	movb	$7, 8(%rdi)
	movq	$0, (%rdi)
	retq
.LBB35_1:
	testq	%rdx, %rdx
	je	.LBB35_2
	movzbl	(%rsi), %eax
	movl	%eax, %r8d
	notb	%r8b
	testb	$31, %r8b
	setne	%r8b
	testb	$-33, %al
	setne	%r9b
	testb	%r9b, %r8b
	jne	.LBB35_6
	movzbl	%al, %r10d
	shll	$8, %r10d
	orl	$11, %r10d
.LBB35_5:
	movw	%r10w, 8(%rdi)
	movb	$0, 10(%rdi)
	movq	$0, (%rdi)
	retq
.LBB35_2:
	movl	$1, %r10d
	movw	%r10w, 8(%rdi)
	movb	$0, 10(%rdi)
	movq	$0, (%rdi)
	retq
.LBB35_6:
	movl	$1, %r10d
	cmpq	$1, %rdx
	je	.LBB35_5
	leaq	2(%rsi), %r11
	addq	$-2, %rdx
	movsbq	1(%rsi), %r8
	testq	%r8, %r8
	js	.LBB35_9
	movq	%r11, %r9
.LBB35_24:
	cmpb	%cl, %al
	jne	.LBB35_29
	subq	%r8, %rdx
	jae	.LBB35_27
	movb	$1, 8(%rdi)
	movq	$0, (%rdi)
	retq
.LBB35_9:
	movl	$2, %r10d
	movl	%r8d, %r9d
	negb	%r9b
	jo	.LBB35_5
	movl	$7, %r10d
	cmpb	$-124, %r8b
	ja	.LBB35_5
	andl	$127, %r8d
	movl	$1, %r10d
	subq	%r8, %rdx
	jb	.LBB35_5
	movl	$8, %r10d
	testq	%r8, %r8
	je	.LBB35_5
	leaq	(%r11,%r8), %r9
	cmpl	$1, %r8d
	jne	.LBB35_14
	movzbl	(%r11), %r8d
	testb	%r8b, %r8b
	jns	.LBB35_5
	jmp	.LBB35_24
.LBB35_29:
	movb	$10, 8(%rdi)
	movb	%cl, 9(%rdi)
	movb	%al, 10(%rdi)
	movq	$0, (%rdi)
	retq
.LBB35_27:
	movq	%r9, (%rdi)
	addq	%r8, %r9
	movq	%r8, 8(%rdi)
	movq	%r9, 16(%rdi)
	movq	%rdx, 24(%rdi)
	retq
.LBB35_14:
	movzbl	(%r11), %r11d
	testq	%r11, %r11
	je	.LBB35_5
	cmpq	$2, %r8
	je	.LBB35_19
	cmpl	$3, %r8d
	jne	.LBB35_17
	shll	$16, %r11d
	movzbl	3(%rsi), %r10d
	shll	$8, %r10d
	orl	%r11d, %r10d
	movzbl	4(%rsi), %r8d
	orq	%r10, %r8
	jmp	.LBB35_24
.LBB35_19:
	shll	$8, %r11d
	movzbl	3(%rsi), %r8d
	orq	%r11, %r8
	jmp	.LBB35_24
.LBB35_17:
	cmpl	$4, %r8d
	jne	.LBB35_21
	shll	$24, %r11d
	movzbl	3(%rsi), %r8d
	shll	$16, %r8d
	orl	%r11d, %r8d
	movzbl	4(%rsi), %r10d
	shll	$8, %r10d
	orl	%r8d, %r10d
	movzbl	5(%rsi), %r8d
	orq	%r10, %r8
	jmp	.LBB35_24
.LBB35_21:
	pushq	%rax
	.cfi_def_cfa_offset 16
	ud2
.Lfunc_end35:
	.size	_RNvNtNtNtCs00000000000_7pkcs1_c6proved8der_core5split14split_unlikely, .Lfunc_end35-_RNvNtNtNtCs00000000000_7pkcs1_c6proved8der_core5split14split_unlikely
	.cfi_endproc

	.section	.text._RINvNtNtNtCs00000000000_7pkcs1_c6proved12pkcs1_params6fields13prepend_fieldINtNtNtB6_9spki_core20algorithm_identifier21AlgorithmIdentifierOfNtNtB1g_15identifier_view14IdentifierViewIB1c_B2e_NtNtB1g_3any6AnyRefEENtNtNtB6_8der_core11back_writer10BackWriterEB8_,"ax",@progbits
	.p2align	4, 0x90
	.type	_RINvNtNtNtCs00000000000_7pkcs1_c6proved12pkcs1_params6fields13prepend_fieldINtNtNtB6_9spki_core20algorithm_identifier21AlgorithmIdentifierOfNtNtB1g_15identifier_view14IdentifierViewIB1c_B2e_NtNtB1g_3any6AnyRefEENtNtNtB6_8der_core11back_writer10BackWriterEB8_,@function
_RINvNtNtNtCs00000000000_7pkcs1_c6proved12pkcs1_params6fields13prepend_fieldINtNtNtB6_9spki_core20algorithm_identifier21AlgorithmIdentifierOfNtNtB1g_15identifier_view14IdentifierViewIB1c_B2e_NtNtB1g_3any6AnyRefEENtNtNtB6_8der_core11back_writer10BackWriterEB8_:
	.cfi_startproc
	pushq	%rbp
	.cfi_def_cfa_offset 16
	pushq	%r15
	.cfi_def_cfa_offset 24
	pushq	%r14
	.cfi_def_cfa_offset 32
	pushq	%r13
	.cfi_def_cfa_offset 40
	pushq	%r12
	.cfi_def_cfa_offset 48
	pushq	%rbx
	.cfi_def_cfa_offset 56
	subq	$40, %rsp
	.cfi_def_cfa_offset 96
	.cfi_offset %rbx, -56
	.cfi_offset %r12, -48
	.cfi_offset %r13, -40
	.cfi_offset %r14, -32
	.cfi_offset %r15, -24
	.cfi_offset %rbp, -16
	movq	%rsi, %rbp
	movq	(%rsi), %r8
	movq	8(%rsi), %r9
	movq	16(%rsi), %r15
	movq	(%rdi), %r10
	movq	8(%rdi), %r11
	movq	16(%rdi), %rbx
	movq	%r15, %r14
	testq	%rbx, %rbx
	je	.LBB36_67
	movq	24(%rdi), %rdx
	movq	32(%rdi), %rsi
	movq	%r15, %r13
	testq	%rsi, %rsi
	je	.LBB36_25
	movq	%rdx, 16(%rsp)
	movq	40(%rdi), %rdx
	movq	%r15, %r14
	movq	%r15, %r13
	subq	%rdx, %r14
	jb	.LBB36_5
	movq	%rbx, 24(%rsp)
	movq	%r11, 32(%rsp)
	movq	%r10, 8(%rsp)
	cmpq	%r9, %r15
	ja	.LBB36_128
	movq	%rbp, %r12
	movq	%rdi, %rbp
	movq	%r9, %rbx
	leaq	(%r8,%r14), %rdi
	movq	%r8, %r13
	callq	memcpy
	movq	%r13, %r8
	movq	%r14, %r13
	movq	%rbp, %rdi
	movq	%rbx, %r9
	movq	%r12, %rbp
	movq	8(%rsp), %r10
	movq	32(%rsp), %r11
	movq	24(%rsp), %rbx
.LBB36_5:
	movq	%r13, 16(%rbp)
	movq	48(%rdi), %rcx
	movq	%r15, %rax
	subq	%r13, %rax
	cmpl	$128, %eax
	jae	.LBB36_6
	cmpq	$2, %r13
	jb	.LBB36_24
	cmpq	%r9, %r13
	ja	.LBB36_128
	shll	$8, %eax
	movzbl	%cl, %ecx
	orl	%eax, %ecx
	movw	%cx, -2(%r8,%r13)
	addq	$-2, %r13
	jmp	.LBB36_24
.LBB36_6:
	cmpl	$256, %eax
	jae	.LBB36_7
	cmpq	$3, %r13
	jb	.LBB36_24
	cmpq	%r9, %r13
	ja	.LBB36_128
	movb	%cl, -3(%r8,%r13)
	movb	$-127, -2(%r8,%r13)
	movb	%al, -1(%r8,%r13)
	addq	$-3, %r13
	jmp	.LBB36_24
.LBB36_7:
	cmpl	$65536, %eax
	jae	.LBB36_8
	cmpq	$4, %r13
	jb	.LBB36_24
	cmpq	%r9, %r13
	ja	.LBB36_128
	orl	$8519680, %eax
	bswapl	%eax
	movzbl	%cl, %ecx
	orl	%eax, %ecx
	movl	%ecx, -4(%r8,%r13)
	addq	$-4, %r13
	jmp	.LBB36_24
.LBB36_8:
	cmpl	$16777216, %eax
	jae	.LBB36_9
	cmpq	$5, %r13
	jb	.LBB36_24
	cmpq	%r9, %r13
	ja	.LBB36_128
	movl	%eax, %edx
	shrl	$16, %edx
	movl	%eax, %esi
	shrl	$8, %esi
	movb	%cl, -5(%r8,%r13)
	movb	$-125, -4(%r8,%r13)
	movb	%dl, -3(%r8,%r13)
	movb	%sil, -2(%r8,%r13)
	movb	%al, -1(%r8,%r13)
	addq	$-5, %r13
	jmp	.LBB36_24
.LBB36_9:
	cmpq	$6, %r13
	jb	.LBB36_24
	cmpq	%r9, %r13
	ja	.LBB36_128
	movl	%eax, %edx
	shrl	$24, %edx
	movl	%eax, %esi
	shrl	$16, %esi
	movl	%eax, %edi
	shrl	$8, %edi
	movb	%cl, -6(%r8,%r13)
	movb	$-124, -5(%r8,%r13)
	movb	%dl, -4(%r8,%r13)
	movb	%sil, -3(%r8,%r13)
	movb	%dil, -2(%r8,%r13)
	movb	%al, -1(%r8,%r13)
	addq	$-6, %r13
.LBB36_24:
	movq	%r13, 16(%rbp)
	movq	16(%rsp), %rdx
.LBB36_25:
	movq	%rbp, %r12
	movq	%r13, %rbp
	movq	%r13, %r14
	subq	%rdx, %rbp
	jb	.LBB36_28
	cmpq	%r9, %r13
	ja	.LBB36_128
	leaq	(%r8,%rbp), %rdi
	movq	%rbx, %rsi
	movq	%r8, 8(%rsp)
	movq	%r9, %rbx
	movq	%r15, 16(%rsp)
	movq	%r10, %r15
	movq	%r11, %r14
	callq	memcpy
	movq	%r14, %r11
	movq	%r15, %r10
	movq	16(%rsp), %r15
	movq	%rbx, %r9
	movq	8(%rsp), %r8
	movq	%rbp, %r14
.LBB36_28:
	movq	%r12, %rbp
	movq	%r14, 16(%r12)
	subq	%r9, %r13
	subq	%r14, %r13
	addq	%r9, %r13
	cmpl	$128, %r13d
	jae	.LBB36_29
	cmpq	$2, %r14
	jb	.LBB36_47
	cmpq	%r9, %r14
	ja	.LBB36_128
	shll	$8, %r13d
	orl	$6, %r13d
	movw	%r13w, -2(%r8,%r14)
	addq	$-2, %r14
	jmp	.LBB36_47
.LBB36_29:
	cmpl	$256, %r13d
	jae	.LBB36_30
	cmpq	$3, %r14
	jb	.LBB36_47
	cmpq	%r9, %r14
	ja	.LBB36_128
	movw	$-32506, -3(%r8,%r14)
	movb	%r13b, -1(%r8,%r14)
	addq	$-3, %r14
	jmp	.LBB36_47
.LBB36_30:
	cmpl	$65536, %r13d
	jae	.LBB36_31
	cmpq	$4, %r14
	jb	.LBB36_47
	cmpq	%r9, %r14
	ja	.LBB36_128
	orl	$109182976, %r13d
	bswapl	%r13d
	movl	%r13d, -4(%r8,%r14)
	addq	$-4, %r14
	jmp	.LBB36_47
.LBB36_31:
	cmpl	$16777216, %r13d
	jae	.LBB36_32
	cmpq	$5, %r14
	jb	.LBB36_47
	cmpq	%r9, %r14
	ja	.LBB36_128
	movl	%r13d, %eax
	shrl	$16, %eax
	movl	%r13d, %ecx
	shrl	$8, %ecx
	movw	$-31994, -5(%r8,%r14)
	movb	%al, -3(%r8,%r14)
	movb	%cl, -2(%r8,%r14)
	movb	%r13b, -1(%r8,%r14)
	addq	$-5, %r14
	jmp	.LBB36_47
.LBB36_32:
	cmpq	$6, %r14
	jb	.LBB36_47
	cmpq	%r9, %r14
	ja	.LBB36_128
	movl	%r13d, %eax
	shrl	$24, %eax
	movl	%r13d, %ecx
	shrl	$16, %ecx
	movl	%r13d, %edx
	shrl	$8, %edx
	movw	$-31738, -6(%r8,%r14)
	movb	%al, -4(%r8,%r14)
	movb	%cl, -3(%r8,%r14)
	movb	%dl, -2(%r8,%r14)
	movb	%r13b, -1(%r8,%r14)
	addq	$-6, %r14
.LBB36_47:
	movq	%r14, 16(%rbp)
	movq	%r15, %rax
	subq	%r14, %rax
	cmpl	$128, %eax
	jae	.LBB36_48
	cmpq	$2, %r14
	jb	.LBB36_66
	cmpq	%r9, %r14
	ja	.LBB36_128
	shll	$8, %eax
	orl	$48, %eax
	movw	%ax, -2(%r8,%r14)
	addq	$-2, %r14
	jmp	.LBB36_66
.LBB36_48:
	cmpl	$256, %eax
	jae	.LBB36_49
	cmpq	$3, %r14
	jb	.LBB36_66
	cmpq	%r9, %r14
	ja	.LBB36_128
	movw	$-32464, -3(%r8,%r14)
	movb	%al, -1(%r8,%r14)
	addq	$-3, %r14
	jmp	.LBB36_66
.LBB36_49:
	cmpl	$65536, %eax
	jae	.LBB36_50
	cmpq	$4, %r14
	jb	.LBB36_66
	cmpq	%r9, %r14
	ja	.LBB36_128
	orl	$813826048, %eax
	bswapl	%eax
	movl	%eax, -4(%r8,%r14)
	addq	$-4, %r14
	jmp	.LBB36_66
.LBB36_50:
	cmpl	$16777216, %eax
	jae	.LBB36_51
	cmpq	$5, %r14
	jb	.LBB36_66
	cmpq	%r9, %r14
	ja	.LBB36_128
	movl	%eax, %ecx
	shrl	$16, %ecx
	movl	%eax, %edx
	shrl	$8, %edx
	movw	$-31952, -5(%r8,%r14)
	movb	%cl, -3(%r8,%r14)
	movb	%dl, -2(%r8,%r14)
	movb	%al, -1(%r8,%r14)
	addq	$-5, %r14
	jmp	.LBB36_66
.LBB36_51:
	cmpq	$6, %r14
	jb	.LBB36_66
	cmpq	%r9, %r14
	ja	.LBB36_128
	movl	%eax, %ecx
	shrl	$24, %ecx
	movl	%eax, %edx
	shrl	$16, %edx
	movl	%eax, %esi
	shrl	$8, %esi
	movw	$-31696, -6(%r8,%r14)
	movb	%cl, -4(%r8,%r14)
	movb	%dl, -3(%r8,%r14)
	movb	%sil, -2(%r8,%r14)
	movb	%al, -1(%r8,%r14)
	addq	$-6, %r14
.LBB36_66:
	movq	%r14, 16(%rbp)
.LBB36_67:
	movq	%r14, %r12
	movq	%r14, %rax
	subq	%r11, %r12
	jb	.LBB36_70
	cmpq	%r9, %r14
	ja	.LBB36_128
	leaq	(%r8,%r12), %rdi
	movq	%r10, %rsi
	movq	%r11, %rdx
	movq	%r8, %r13
	movq	%r9, %rbx
	callq	memcpy
	movq	%rbx, %r9
	movq	%r13, %r8
	movq	%r12, %rax
.LBB36_70:
	subq	%r9, %r14
	subq	%rax, %r14
	addq	%r9, %r14
	cmpl	$128, %r14d
	jae	.LBB36_71
	cmpq	$2, %rax
	jb	.LBB36_89
	cmpq	%r9, %rax
	ja	.LBB36_128
	shll	$8, %r14d
	orl	$6, %r14d
	movw	%r14w, -2(%r8,%rax)
	addq	$-2, %rax
	jmp	.LBB36_89
.LBB36_71:
	cmpl	$256, %r14d
	jae	.LBB36_72
	cmpq	$3, %rax
	jb	.LBB36_89
	cmpq	%r9, %rax
	ja	.LBB36_128
	movw	$-32506, -3(%r8,%rax)
	movb	%r14b, -1(%r8,%rax)
	addq	$-3, %rax
	jmp	.LBB36_89
.LBB36_72:
	cmpl	$65536, %r14d
	jae	.LBB36_73
	cmpq	$4, %rax
	jb	.LBB36_89
	cmpq	%r9, %rax
	ja	.LBB36_128
	orl	$109182976, %r14d
	bswapl	%r14d
	movl	%r14d, -4(%r8,%rax)
	addq	$-4, %rax
	jmp	.LBB36_89
.LBB36_73:
	cmpl	$16777216, %r14d
	jae	.LBB36_74
	cmpq	$5, %rax
	jb	.LBB36_89
	cmpq	%r9, %rax
	ja	.LBB36_128
	movl	%r14d, %ecx
	shrl	$16, %ecx
	movl	%r14d, %edx
	shrl	$8, %edx
	movw	$-31994, -5(%r8,%rax)
	movb	%cl, -3(%r8,%rax)
	movb	%dl, -2(%r8,%rax)
	movb	%r14b, -1(%r8,%rax)
	addq	$-5, %rax
	jmp	.LBB36_89
.LBB36_74:
	cmpq	$6, %rax
	jb	.LBB36_89
	cmpq	%r9, %rax
	ja	.LBB36_128
	movl	%r14d, %ecx
	shrl	$24, %ecx
	movl	%r14d, %edx
	shrl	$16, %edx
	movl	%r14d, %esi
	shrl	$8, %esi
	movw	$-31738, -6(%r8,%rax)
	movb	%cl, -4(%r8,%rax)
	movb	%dl, -3(%r8,%rax)
	movb	%sil, -2(%r8,%rax)
	movb	%r14b, -1(%r8,%rax)
	addq	$-6, %rax
.LBB36_89:
	movq	%rax, 16(%rbp)
	movq	%r15, %rcx
	subq	%rax, %rcx
	cmpl	$128, %ecx
	jae	.LBB36_90
	cmpq	$2, %rax
	jb	.LBB36_108
	cmpq	%r9, %rax
	ja	.LBB36_128
	shll	$8, %ecx
	orl	$48, %ecx
	movw	%cx, -2(%r8,%rax)
	addq	$-2, %rax
	jmp	.LBB36_108
.LBB36_90:
	cmpl	$256, %ecx
	jae	.LBB36_91
	cmpq	$3, %rax
	jb	.LBB36_108
	cmpq	%r9, %rax
	ja	.LBB36_128
	movw	$-32464, -3(%r8,%rax)
	movb	%cl, -1(%r8,%rax)
	addq	$-3, %rax
	jmp	.LBB36_108
.LBB36_91:
	cmpl	$65536, %ecx
	jae	.LBB36_92
	cmpq	$4, %rax
	jb	.LBB36_108
	cmpq	%r9, %rax
	ja	.LBB36_128
	orl	$813826048, %ecx
	bswapl	%ecx
	movl	%ecx, -4(%r8,%rax)
	addq	$-4, %rax
	jmp	.LBB36_108
.LBB36_92:
	cmpl	$16777216, %ecx
	jae	.LBB36_93
	cmpq	$5, %rax
	jb	.LBB36_108
	cmpq	%r9, %rax
	ja	.LBB36_128
	movl	%ecx, %edx
	shrl	$16, %edx
	movl	%ecx, %esi
	shrl	$8, %esi
	movw	$-31952, -5(%r8,%rax)
	movb	%dl, -3(%r8,%rax)
	movb	%sil, -2(%r8,%rax)
	movb	%cl, -1(%r8,%rax)
	addq	$-5, %rax
	jmp	.LBB36_108
.LBB36_93:
	cmpq	$6, %rax
	jb	.LBB36_108
	cmpq	%r9, %rax
	ja	.LBB36_128
	movl	%ecx, %edx
	shrl	$24, %edx
	movl	%ecx, %esi
	shrl	$16, %esi
	movl	%ecx, %edi
	shrl	$8, %edi
	movw	$-31696, -6(%r8,%rax)
	movb	%dl, -4(%r8,%rax)
	movb	%sil, -3(%r8,%rax)
	movb	%dil, -2(%r8,%rax)
	movb	%cl, -1(%r8,%rax)
	addq	$-6, %rax
.LBB36_108:
	subq	%rax, %r15
	cmpl	$128, %r15d
	jae	.LBB36_109
	cmpq	$2, %rax
	jb	.LBB36_127
	cmpq	%r9, %rax
	ja	.LBB36_128
	shll	$8, %r15d
	orl	$161, %r15d
	movw	%r15w, -2(%r8,%rax)
	addq	$-2, %rax
	jmp	.LBB36_127
.LBB36_109:
	cmpl	$256, %r15d
	jae	.LBB36_110
	cmpq	$3, %rax
	jb	.LBB36_127
	cmpq	%r9, %rax
	ja	.LBB36_128
	movw	$-32351, -3(%r8,%rax)
	movb	%r15b, -1(%r8,%rax)
	addq	$-3, %rax
	jmp	.LBB36_127
.LBB36_110:
	cmpl	$65536, %r15d
	jae	.LBB36_111
	cmpq	$4, %rax
	jb	.LBB36_127
	cmpq	%r9, %rax
	ja	.LBB36_128
	orl	$-1585315840, %r15d
	bswapl	%r15d
	movl	%r15d, -4(%r8,%rax)
	addq	$-4, %rax
	jmp	.LBB36_127
.LBB36_111:
	cmpl	$16777216, %r15d
	jae	.LBB36_112
	cmpq	$5, %rax
	jb	.LBB36_127
	cmpq	%r9, %rax
	ja	.LBB36_128
	movl	%r15d, %ecx
	shrl	$16, %ecx
	movl	%r15d, %edx
	shrl	$8, %edx
	movw	$-31839, -5(%r8,%rax)
	movb	%cl, -3(%r8,%rax)
	movb	%dl, -2(%r8,%rax)
	movb	%r15b, -1(%r8,%rax)
	addq	$-5, %rax
	jmp	.LBB36_127
.LBB36_112:
	cmpq	$6, %rax
	jb	.LBB36_127
	cmpq	%r9, %rax
	ja	.LBB36_128
	movl	%r15d, %ecx
	shrl	$24, %ecx
	movl	%r15d, %edx
	shrl	$16, %edx
	movl	%r15d, %esi
	shrl	$8, %esi
	movw	$-31583, -6(%r8,%rax)
	movb	%cl, -4(%r8,%rax)
	movb	%dl, -3(%r8,%rax)
	movb	%sil, -2(%r8,%rax)
	movb	%r15b, -1(%r8,%rax)
	addq	$-6, %rax
.LBB36_127:
	movq	%rax, 16(%rbp)
	addq	$40, %rsp
	.cfi_def_cfa_offset 56
	popq	%rbx
	.cfi_def_cfa_offset 48
	popq	%r12
	.cfi_def_cfa_offset 40
	popq	%r13
	.cfi_def_cfa_offset 32
	popq	%r14
	.cfi_def_cfa_offset 24
	popq	%r15
	.cfi_def_cfa_offset 16
	popq	%rbp
	.cfi_def_cfa_offset 8
	retq
.LBB36_128:
	.cfi_def_cfa_offset 96
	ud2
.Lfunc_end36:
	.size	_RINvNtNtNtCs00000000000_7pkcs1_c6proved12pkcs1_params6fields13prepend_fieldINtNtNtB6_9spki_core20algorithm_identifier21AlgorithmIdentifierOfNtNtB1g_15identifier_view14IdentifierViewIB1c_B2e_NtNtB1g_3any6AnyRefEENtNtNtB6_8der_core11back_writer10BackWriterEB8_, .Lfunc_end36-_RINvNtNtNtCs00000000000_7pkcs1_c6proved12pkcs1_params6fields13prepend_fieldINtNtNtB6_9spki_core20algorithm_identifier21AlgorithmIdentifierOfNtNtB1g_15identifier_view14IdentifierViewIB1c_B2e_NtNtB1g_3any6AnyRefEENtNtNtB6_8der_core11back_writer10BackWriterEB8_
	.cfi_endproc

	.section	.text._RINvNtNtNtCs00000000000_7pkcs1_c6proved12pkcs1_params6fields13prepend_fieldINtNtNtB6_9spki_core20algorithm_identifier21AlgorithmIdentifierOfNtNtB1g_15identifier_view14IdentifierViewIB1c_B2e_NtNtB1g_3any6AnyRefEENtNtNtB6_8der_core7counter7CounterEB8_,"ax",@progbits
	.p2align	4, 0x90
	.type	_RINvNtNtNtCs00000000000_7pkcs1_c6proved12pkcs1_params6fields13prepend_fieldINtNtNtB6_9spki_core20algorithm_identifier21AlgorithmIdentifierOfNtNtB1g_15identifier_view14IdentifierViewIB1c_B2e_NtNtB1g_3any6AnyRefEENtNtNtB6_8der_core7counter7CounterEB8_,@function
_RINvNtNtNtCs00000000000_7pkcs1_c6proved12pkcs1_params6fields13prepend_fieldINtNtNtB6_9spki_core20algorithm_identifier21AlgorithmIdentifierOfNtNtB1g_15identifier_view14IdentifierViewIB1c_B2e_NtNtB1g_3any6AnyRefEENtNtNtB6_8der_core7counter7CounterEB8_:
	.cfi_startproc
	movq	(%rsi), %rax
	movq	8(%rdi), %rcx
	cmpq	$0, 16(%rdi)
	movq	%rax, %rdx
	je	.LBB37_22
	movq	24(%rdi), %rdx
	cmpq	$0, 32(%rdi)
	movq	%rax, %r8
	je	.LBB37_9
	movq	40(%rdi), %rdi
	addq	%rax, %rdi
	movq	$-1, %r8
	cmovaeq	%rdi, %r8
	xorl	%edi, %edi
	subq	%rax, %r8
	cmovaeq	%r8, %rdi
	cmpq	$128, %rdi
	jae	.LBB37_3
	addq	$2, %rdi
	jmp	.LBB37_8
.LBB37_3:
	cmpq	$256, %rdi
	jae	.LBB37_4
	addq	$3, %rdi
	jmp	.LBB37_8
.LBB37_4:
	cmpq	$65536, %rdi
	jae	.LBB37_5
	addq	$4, %rdi
	jmp	.LBB37_8
.LBB37_5:
	cmpq	$16777216, %rdi
	jae	.LBB37_6
	addq	$5, %rdi
	jmp	.LBB37_8
.LBB37_6:
	addq	$6, %rdi
	movq	$-1, %r8
	cmovbq	%r8, %rdi
.LBB37_8:
	addq	%rax, %rdi
	movq	$-1, %r8
	cmovaeq	%rdi, %r8
.LBB37_9:
	addq	%r8, %rdx
	movq	$-1, %rdi
	cmovaeq	%rdx, %rdi
	xorl	%edx, %edx
	subq	%r8, %rdi
	cmovaeq	%rdi, %rdx
	cmpq	$128, %rdx
	jae	.LBB37_10
	addq	$2, %rdx
	jmp	.LBB37_15
.LBB37_10:
	cmpq	$256, %rdx
	jae	.LBB37_11
	addq	$3, %rdx
	jmp	.LBB37_15
.LBB37_11:
	cmpq	$65536, %rdx
	jae	.LBB37_12
	addq	$4, %rdx
	jmp	.LBB37_15
.LBB37_12:
	cmpq	$16777216, %rdx
	jae	.LBB37_13
	addq	$5, %rdx
	jmp	.LBB37_15
.LBB37_13:
	addq	$6, %rdx
	movq	$-1, %rdi
	cmovbq	%rdi, %rdx
.LBB37_15:
	addq	%rdx, %r8
	movq	$-1, %rdx
	cmovaeq	%r8, %rdx
	xorl	%edi, %edi
	subq	%rax, %rdx
	cmovaeq	%rdx, %rdi
	cmpq	$128, %rdi
	jae	.LBB37_16
	addq	$2, %rdi
	jmp	.LBB37_21
.LBB37_16:
	cmpq	$256, %rdi
	jae	.LBB37_17
	addq	$3, %rdi
	jmp	.LBB37_21
.LBB37_17:
	cmpq	$65536, %rdi
	jae	.LBB37_18
	addq	$4, %rdi
	jmp	.LBB37_21
.LBB37_18:
	cmpq	$16777216, %rdi
	jae	.LBB37_19
	addq	$5, %rdi
	jmp	.LBB37_21
.LBB37_19:
	addq	$6, %rdi
	movq	$-1, %rdx
	cmovbq	%rdx, %rdi
.LBB37_21:
	addq	%rax, %rdi
	movq	$-1, %rdx
	cmovaeq	%rdi, %rdx
.LBB37_22:
	addq	%rdx, %rcx
	movq	$-1, %rdi
	cmovaeq	%rcx, %rdi
	xorl	%ecx, %ecx
	subq	%rdx, %rdi
	cmovaeq	%rdi, %rcx
	cmpq	$128, %rcx
	jae	.LBB37_23
	addq	$2, %rcx
	jmp	.LBB37_28
.LBB37_23:
	cmpq	$256, %rcx
	jae	.LBB37_24
	addq	$3, %rcx
	jmp	.LBB37_28
.LBB37_24:
	cmpq	$65536, %rcx
	jae	.LBB37_25
	addq	$4, %rcx
	jmp	.LBB37_28
.LBB37_25:
	cmpq	$16777216, %rcx
	jae	.LBB37_26
	addq	$5, %rcx
	jmp	.LBB37_28
.LBB37_26:
	addq	$6, %rcx
	movq	$-1, %rdi
	cmovbq	%rdi, %rcx
.LBB37_28:
	addq	%rcx, %rdx
	movq	$-1, %rdi
	cmovaeq	%rdx, %rdi
	xorl	%ecx, %ecx
	subq	%rax, %rdi
	cmovaeq	%rdi, %rcx
	cmpq	$128, %rcx
	jae	.LBB37_29
	addq	$2, %rcx
	jmp	.LBB37_34
.LBB37_29:
	cmpq	$256, %rcx
	jae	.LBB37_30
	addq	$3, %rcx
	jmp	.LBB37_34
.LBB37_30:
	cmpq	$65536, %rcx
	jae	.LBB37_31
	addq	$4, %rcx
	jmp	.LBB37_34
.LBB37_31:
	cmpq	$16777216, %rcx
	jae	.LBB37_32
	addq	$5, %rcx
	jmp	.LBB37_34
.LBB37_32:
	addq	$6, %rcx
	movq	$-1, %rdx
	cmovbq	%rdx, %rcx
.LBB37_34:
	addq	%rax, %rcx
	movq	$-1, %rdx
	cmovaeq	%rcx, %rdx
	xorl	%ecx, %ecx
	subq	%rax, %rdx
	cmovaeq	%rdx, %rcx
	cmpq	$128, %rcx
	jae	.LBB37_35
	addq	$2, %rcx
	jmp	.LBB37_40
.LBB37_35:
	cmpq	$256, %rcx
	jae	.LBB37_36
	addq	$3, %rcx
	jmp	.LBB37_40
.LBB37_36:
	cmpq	$65536, %rcx
	jae	.LBB37_37
	addq	$4, %rcx
	jmp	.LBB37_40
.LBB37_37:
	cmpq	$16777216, %rcx
	jae	.LBB37_38
	addq	$5, %rcx
	jmp	.LBB37_40
.LBB37_38:
	addq	$6, %rcx
	movq	$-1, %rdx
	cmovbq	%rdx, %rcx
.LBB37_40:
	addq	%rcx, %rax
	movq	$-1, %rcx
	cmovaeq	%rax, %rcx
	movq	%rcx, (%rsi)
	retq
.Lfunc_end37:
	.size	_RINvNtNtNtCs00000000000_7pkcs1_c6proved12pkcs1_params6fields13prepend_fieldINtNtNtB6_9spki_core20algorithm_identifier21AlgorithmIdentifierOfNtNtB1g_15identifier_view14IdentifierViewIB1c_B2e_NtNtB1g_3any6AnyRefEENtNtNtB6_8der_core7counter7CounterEB8_, .Lfunc_end37-_RINvNtNtNtCs00000000000_7pkcs1_c6proved12pkcs1_params6fields13prepend_fieldINtNtNtB6_9spki_core20algorithm_identifier21AlgorithmIdentifierOfNtNtB1g_15identifier_view14IdentifierViewIB1c_B2e_NtNtB1g_3any6AnyRefEENtNtNtB6_8der_core7counter7CounterEB8_
	.cfi_endproc

	.section	.text._RINvNtNtNtCs00000000000_7pkcs1_c6proved12pkcs1_params6fields13prepend_fieldINtNtNtB6_9spki_core20algorithm_identifier21AlgorithmIdentifierOfNtNtB1g_15identifier_view14IdentifierViewNtNtB1g_3any6AnyRefENtNtNtB6_8der_core11back_writer10BackWriterEB8_,"ax",@progbits
	.p2align	4, 0x90
	.type	_RINvNtNtNtCs00000000000_7pkcs1_c6proved12pkcs1_params6fields13prepend_fieldINtNtNtB6_9spki_core20algorithm_identifier21AlgorithmIdentifierOfNtNtB1g_15identifier_view14IdentifierViewNtNtB1g_3any6AnyRefENtNtNtB6_8der_core11back_writer10BackWriterEB8_,@function
_RINvNtNtNtCs00000000000_7pkcs1_c6proved12pkcs1_params6fields13prepend_fieldINtNtNtB6_9spki_core20algorithm_identifier21AlgorithmIdentifierOfNtNtB1g_15identifier_view14IdentifierViewNtNtB1g_3any6AnyRefENtNtNtB6_8der_core11back_writer10BackWriterEB8_:
	.cfi_startproc
	pushq	%rbp
	.cfi_def_cfa_offset 16
	pushq	%r15
	.cfi_def_cfa_offset 24
	pushq	%r14
	.cfi_def_cfa_offset 32
	pushq	%r13
	.cfi_def_cfa_offset 40
	pushq	%r12
	.cfi_def_cfa_offset 48
	pushq	%rbx
	.cfi_def_cfa_offset 56
	subq	$24, %rsp
	.cfi_def_cfa_offset 80
	.cfi_offset %rbx, -56
	.cfi_offset %r12, -48
	.cfi_offset %r13, -40
	.cfi_offset %r14, -32
	.cfi_offset %r15, -24
	.cfi_offset %rbp, -16
	movq	%rdx, %rbx
	movl	%edi, 4(%rsp)
	movq	(%rdx), %rbp
	movq	8(%rdx), %r12
	movq	16(%rdx), %r10
	movq	(%rsi), %r11
	movq	8(%rsi), %r15
	movq	16(%rsi), %rax
	movq	%r10, %r13
	testq	%rax, %rax
	je	.LBB38_24
	movq	24(%rsi), %rdx
	movq	%r10, %r14
	movq	%r10, %r13
	subq	%rdx, %r14
	jb	.LBB38_4
	cmpq	%r12, %r10
	ja	.LBB38_85
	leaq	(%r14,%rbp), %rdi
	movq	%rsi, 8(%rsp)
	movq	%rax, %rsi
	movq	%rbx, 16(%rsp)
	movq	%r15, %r13
	movq	%r10, %r15
	movq	%r11, %rbx
	callq	memcpy
	movq	%rbx, %r11
	movq	%r15, %r10
	movq	%r13, %r15
	movq	16(%rsp), %rbx
	movq	8(%rsp), %rsi
	movq	%r14, %r13
.LBB38_4:
	movq	%r13, 16(%rbx)
	movq	32(%rsi), %rcx
	movq	%r10, %rax
	subq	%r13, %rax
	cmpl	$128, %eax
	jae	.LBB38_5
	cmpq	$2, %r13
	jb	.LBB38_23
	cmpq	%r12, %r13
	ja	.LBB38_85
	shll	$8, %eax
	movzbl	%cl, %ecx
	orl	%eax, %ecx
	movw	%cx, -2(%rbp,%r13)
	addq	$-2, %r13
	jmp	.LBB38_23
.LBB38_5:
	cmpl	$256, %eax
	jae	.LBB38_6
	cmpq	$3, %r13
	jb	.LBB38_23
	cmpq	%r12, %r13
	ja	.LBB38_85
	movb	%cl, -3(%rbp,%r13)
	movb	$-127, -2(%rbp,%r13)
	movb	%al, -1(%rbp,%r13)
	addq	$-3, %r13
	jmp	.LBB38_23
.LBB38_6:
	cmpl	$65536, %eax
	jae	.LBB38_7
	cmpq	$4, %r13
	jb	.LBB38_23
	cmpq	%r12, %r13
	ja	.LBB38_85
	orl	$8519680, %eax
	bswapl	%eax
	movzbl	%cl, %ecx
	orl	%eax, %ecx
	movl	%ecx, -4(%rbp,%r13)
	addq	$-4, %r13
	jmp	.LBB38_23
.LBB38_7:
	cmpl	$16777216, %eax
	jae	.LBB38_8
	cmpq	$5, %r13
	jb	.LBB38_23
	cmpq	%r12, %r13
	ja	.LBB38_85
	movl	%eax, %edx
	shrl	$16, %edx
	movl	%eax, %esi
	shrl	$8, %esi
	movb	%cl, -5(%rbp,%r13)
	movb	$-125, -4(%rbp,%r13)
	movb	%dl, -3(%rbp,%r13)
	movb	%sil, -2(%rbp,%r13)
	movb	%al, -1(%rbp,%r13)
	addq	$-5, %r13
	jmp	.LBB38_23
.LBB38_8:
	cmpq	$6, %r13
	jb	.LBB38_23
	cmpq	%r12, %r13
	ja	.LBB38_85
	movl	%eax, %edx
	shrl	$24, %edx
	movl	%eax, %esi
	shrl	$16, %esi
	movl	%eax, %edi
	shrl	$8, %edi
	movb	%cl, -6(%rbp,%r13)
	movb	$-124, -5(%rbp,%r13)
	movb	%dl, -4(%rbp,%r13)
	movb	%sil, -3(%rbp,%r13)
	movb	%dil, -2(%rbp,%r13)
	movb	%al, -1(%rbp,%r13)
	addq	$-6, %r13
.LBB38_23:
	movq	%r13, 16(%rbx)
.LBB38_24:
	movq	%r13, %r14
	movq	%r13, %rax
	subq	%r15, %r14
	jb	.LBB38_27
	cmpq	%r12, %r13
	ja	.LBB38_85
	leaq	(%r14,%rbp), %rdi
	movq	%r11, %rsi
	movq	%r15, %rdx
	movq	%rbp, %r15
	movq	%r10, %rbp
	callq	memcpy
	movq	%rbp, %r10
	movq	%r15, %rbp
	movq	%r14, %rax
.LBB38_27:
	subq	%r12, %r13
	subq	%rax, %r13
	addq	%r12, %r13
	cmpl	$128, %r13d
	jae	.LBB38_28
	cmpq	$2, %rax
	jb	.LBB38_46
	cmpq	%r12, %rax
	ja	.LBB38_85
	shll	$8, %r13d
	orl	$6, %r13d
	movw	%r13w, -2(%rbp,%rax)
	addq	$-2, %rax
	jmp	.LBB38_46
.LBB38_28:
	cmpl	$256, %r13d
	jae	.LBB38_29
	cmpq	$3, %rax
	jb	.LBB38_46
	cmpq	%r12, %rax
	ja	.LBB38_85
	movw	$-32506, -3(%rbp,%rax)
	movb	%r13b, -1(%rbp,%rax)
	addq	$-3, %rax
	jmp	.LBB38_46
.LBB38_29:
	cmpl	$65536, %r13d
	jae	.LBB38_30
	cmpq	$4, %rax
	jb	.LBB38_46
	cmpq	%r12, %rax
	ja	.LBB38_85
	orl	$109182976, %r13d
	bswapl	%r13d
	movl	%r13d, -4(%rbp,%rax)
	addq	$-4, %rax
	jmp	.LBB38_46
.LBB38_30:
	cmpl	$16777216, %r13d
	jae	.LBB38_31
	cmpq	$5, %rax
	jb	.LBB38_46
	cmpq	%r12, %rax
	ja	.LBB38_85
	movl	%r13d, %ecx
	shrl	$16, %ecx
	movl	%r13d, %edx
	shrl	$8, %edx
	movw	$-31994, -5(%rbp,%rax)
	movb	%cl, -3(%rbp,%rax)
	movb	%dl, -2(%rbp,%rax)
	movb	%r13b, -1(%rbp,%rax)
	addq	$-5, %rax
	jmp	.LBB38_46
.LBB38_31:
	cmpq	$6, %rax
	jb	.LBB38_46
	cmpq	%r12, %rax
	ja	.LBB38_85
	movl	%r13d, %ecx
	shrl	$24, %ecx
	movl	%r13d, %edx
	shrl	$16, %edx
	movl	%r13d, %esi
	shrl	$8, %esi
	movw	$-31738, -6(%rbp,%rax)
	movb	%cl, -4(%rbp,%rax)
	movb	%dl, -3(%rbp,%rax)
	movb	%sil, -2(%rbp,%rax)
	movb	%r13b, -1(%rbp,%rax)
	addq	$-6, %rax
.LBB38_46:
	movq	%rax, 16(%rbx)
	movq	%r10, %rcx
	subq	%rax, %rcx
	cmpl	$128, %ecx
	jae	.LBB38_47
	cmpq	$2, %rax
	jb	.LBB38_65
	cmpq	%r12, %rax
	ja	.LBB38_85
	shll	$8, %ecx
	orl	$48, %ecx
	movw	%cx, -2(%rbp,%rax)
	addq	$-2, %rax
	jmp	.LBB38_65
.LBB38_47:
	cmpl	$256, %ecx
	jae	.LBB38_48
	cmpq	$3, %rax
	jb	.LBB38_65
	cmpq	%r12, %rax
	ja	.LBB38_85
	movw	$-32464, -3(%rbp,%rax)
	movb	%cl, -1(%rbp,%rax)
	addq	$-3, %rax
	jmp	.LBB38_65
.LBB38_48:
	cmpl	$65536, %ecx
	jae	.LBB38_49
	cmpq	$4, %rax
	jb	.LBB38_65
	cmpq	%r12, %rax
	ja	.LBB38_85
	orl	$813826048, %ecx
	bswapl	%ecx
	movl	%ecx, -4(%rbp,%rax)
	addq	$-4, %rax
	jmp	.LBB38_65
.LBB38_49:
	cmpl	$16777216, %ecx
	jae	.LBB38_50
	cmpq	$5, %rax
	jb	.LBB38_65
	cmpq	%r12, %rax
	ja	.LBB38_85
	movl	%ecx, %edx
	shrl	$16, %edx
	movl	%ecx, %esi
	shrl	$8, %esi
	movw	$-31952, -5(%rbp,%rax)
	movb	%dl, -3(%rbp,%rax)
	movb	%sil, -2(%rbp,%rax)
	movb	%cl, -1(%rbp,%rax)
	addq	$-5, %rax
	jmp	.LBB38_65
.LBB38_50:
	cmpq	$6, %rax
	jb	.LBB38_65
	cmpq	%r12, %rax
	ja	.LBB38_85
	movl	%ecx, %edx
	shrl	$24, %edx
	movl	%ecx, %esi
	shrl	$16, %esi
	movl	%ecx, %edi
	shrl	$8, %edi
	movw	$-31696, -6(%rbp,%rax)
	movb	%dl, -4(%rbp,%rax)
	movb	%sil, -3(%rbp,%rax)
	movb	%dil, -2(%rbp,%rax)
	movb	%cl, -1(%rbp,%rax)
	addq	$-6, %rax
.LBB38_65:
	movl	4(%rsp), %ecx
	addb	$-96, %cl
	movl	%ecx, 4(%rsp)
	subq	%rax, %r10
	cmpl	$128, %r10d
	jae	.LBB38_66
	cmpq	$2, %rax
	jb	.LBB38_84
	cmpq	%r12, %rax
	ja	.LBB38_85
	shll	$8, %r10d
	movzbl	4(%rsp), %ecx
	orl	%r10d, %ecx
	movw	%cx, -2(%rbp,%rax)
	addq	$-2, %rax
	jmp	.LBB38_84
.LBB38_66:
	cmpl	$256, %r10d
	jae	.LBB38_67
	cmpq	$3, %rax
	jb	.LBB38_84
	cmpq	%r12, %rax
	ja	.LBB38_85
	movl	4(%rsp), %ecx
	movb	%cl, -3(%rbp,%rax)
	movb	$-127, -2(%rbp,%rax)
	movb	%r10b, -1(%rbp,%rax)
	addq	$-3, %rax
	jmp	.LBB38_84
.LBB38_67:
	cmpl	$65536, %r10d
	jae	.LBB38_68
	cmpq	$4, %rax
	jb	.LBB38_84
	cmpq	%r12, %rax
	ja	.LBB38_85
	orl	$8519680, %r10d
	bswapl	%r10d
	movzbl	4(%rsp), %ecx
	orl	%r10d, %ecx
	movl	%ecx, -4(%rbp,%rax)
	addq	$-4, %rax
	jmp	.LBB38_84
.LBB38_68:
	cmpl	$16777216, %r10d
	jae	.LBB38_69
	cmpq	$5, %rax
	jb	.LBB38_84
	cmpq	%r12, %rax
	ja	.LBB38_85
	movl	%r10d, %ecx
	shrl	$16, %ecx
	movl	%r10d, %edx
	shrl	$8, %edx
	movl	4(%rsp), %esi
	movb	%sil, -5(%rbp,%rax)
	movb	$-125, -4(%rbp,%rax)
	movb	%cl, -3(%rbp,%rax)
	movb	%dl, -2(%rbp,%rax)
	movb	%r10b, -1(%rbp,%rax)
	addq	$-5, %rax
	jmp	.LBB38_84
.LBB38_69:
	cmpq	$6, %rax
	jb	.LBB38_84
	cmpq	%r12, %rax
	ja	.LBB38_85
	movl	%r10d, %ecx
	shrl	$24, %ecx
	movl	%r10d, %edx
	shrl	$16, %edx
	movl	%r10d, %esi
	shrl	$8, %esi
	movl	4(%rsp), %edi
	movb	%dil, -6(%rbp,%rax)
	movb	$-124, -5(%rbp,%rax)
	movb	%cl, -4(%rbp,%rax)
	movb	%dl, -3(%rbp,%rax)
	movb	%sil, -2(%rbp,%rax)
	movb	%r10b, -1(%rbp,%rax)
	addq	$-6, %rax
.LBB38_84:
	movq	%rax, 16(%rbx)
	addq	$24, %rsp
	.cfi_def_cfa_offset 56
	popq	%rbx
	.cfi_def_cfa_offset 48
	popq	%r12
	.cfi_def_cfa_offset 40
	popq	%r13
	.cfi_def_cfa_offset 32
	popq	%r14
	.cfi_def_cfa_offset 24
	popq	%r15
	.cfi_def_cfa_offset 16
	popq	%rbp
	.cfi_def_cfa_offset 8
	retq
.LBB38_85:
	.cfi_def_cfa_offset 80
	ud2
.Lfunc_end38:
	.size	_RINvNtNtNtCs00000000000_7pkcs1_c6proved12pkcs1_params6fields13prepend_fieldINtNtNtB6_9spki_core20algorithm_identifier21AlgorithmIdentifierOfNtNtB1g_15identifier_view14IdentifierViewNtNtB1g_3any6AnyRefENtNtNtB6_8der_core11back_writer10BackWriterEB8_, .Lfunc_end38-_RINvNtNtNtCs00000000000_7pkcs1_c6proved12pkcs1_params6fields13prepend_fieldINtNtNtB6_9spki_core20algorithm_identifier21AlgorithmIdentifierOfNtNtB1g_15identifier_view14IdentifierViewNtNtB1g_3any6AnyRefENtNtNtB6_8der_core11back_writer10BackWriterEB8_
	.cfi_endproc

	.section	.text._RINvNtNtNtCs00000000000_7pkcs1_c6proved12pkcs1_params6fields13prepend_fieldINtNtNtB6_9spki_core20algorithm_identifier21AlgorithmIdentifierOfNtNtB1g_15identifier_view14IdentifierViewNtNtB1g_3any6AnyRefENtNtNtB6_8der_core7counter7CounterEB8_,"ax",@progbits
	.p2align	4, 0x90
	.type	_RINvNtNtNtCs00000000000_7pkcs1_c6proved12pkcs1_params6fields13prepend_fieldINtNtNtB6_9spki_core20algorithm_identifier21AlgorithmIdentifierOfNtNtB1g_15identifier_view14IdentifierViewNtNtB1g_3any6AnyRefENtNtNtB6_8der_core7counter7CounterEB8_,@function
_RINvNtNtNtCs00000000000_7pkcs1_c6proved12pkcs1_params6fields13prepend_fieldINtNtNtB6_9spki_core20algorithm_identifier21AlgorithmIdentifierOfNtNtB1g_15identifier_view14IdentifierViewNtNtB1g_3any6AnyRefENtNtNtB6_8der_core7counter7CounterEB8_:
	.cfi_startproc
	movq	(%rsi), %rax
	movq	8(%rdi), %rcx
	cmpq	$0, 16(%rdi)
	movq	%rax, %rdx
	je	.LBB39_8
	movq	24(%rdi), %rdx
	addq	%rax, %rdx
	movq	$-1, %r8
	cmovaeq	%rdx, %r8
	xorl	%edi, %edi
	subq	%rax, %r8
	cmovaeq	%r8, %rdi
	cmpq	$128, %rdi
	jae	.LBB39_2
	addq	$2, %rdi
	jmp	.LBB39_7
.LBB39_2:
	cmpq	$256, %rdi
	jae	.LBB39_3
	addq	$3, %rdi
	jmp	.LBB39_7
.LBB39_3:
	cmpq	$65536, %rdi
	jae	.LBB39_4
	addq	$4, %rdi
	jmp	.LBB39_7
.LBB39_4:
	cmpq	$16777216, %rdi
	jae	.LBB39_5
	addq	$5, %rdi
	jmp	.LBB39_7
.LBB39_5:
	addq	$6, %rdi
	movq	$-1, %rdx
	cmovbq	%rdx, %rdi
.LBB39_7:
	addq	%rax, %rdi
	movq	$-1, %rdx
	cmovaeq	%rdi, %rdx
.LBB39_8:
	addq	%rdx, %rcx
	movq	$-1, %rdi
	cmovaeq	%rcx, %rdi
	xorl	%ecx, %ecx
	subq	%rdx, %rdi
	cmovaeq	%rdi, %rcx
	cmpq	$128, %rcx
	jae	.LBB39_9
	addq	$2, %rcx
	jmp	.LBB39_14
.LBB39_9:
	cmpq	$256, %rcx
	jae	.LBB39_10
	addq	$3, %rcx
	jmp	.LBB39_14
.LBB39_10:
	cmpq	$65536, %rcx
	jae	.LBB39_11
	addq	$4, %rcx
	jmp	.LBB39_14
.LBB39_11:
	cmpq	$16777216, %rcx
	jae	.LBB39_12
	addq	$5, %rcx
	jmp	.LBB39_14
.LBB39_12:
	addq	$6, %rcx
	movq	$-1, %rdi
	cmovbq	%rdi, %rcx
.LBB39_14:
	addq	%rcx, %rdx
	movq	$-1, %rdi
	cmovaeq	%rdx, %rdi
	xorl	%ecx, %ecx
	subq	%rax, %rdi
	cmovaeq	%rdi, %rcx
	cmpq	$128, %rcx
	jae	.LBB39_15
	addq	$2, %rcx
	jmp	.LBB39_20
.LBB39_15:
	cmpq	$256, %rcx
	jae	.LBB39_16
	addq	$3, %rcx
	jmp	.LBB39_20
.LBB39_16:
	cmpq	$65536, %rcx
	jae	.LBB39_17
	addq	$4, %rcx
	jmp	.LBB39_20
.LBB39_17:
	cmpq	$16777216, %rcx
	jae	.LBB39_18
	addq	$5, %rcx
	jmp	.LBB39_20
.LBB39_18:
	addq	$6, %rcx
	movq	$-1, %rdx
	cmovbq	%rdx, %rcx
.LBB39_20:
	addq	%rax, %rcx
	movq	$-1, %rdx
	cmovaeq	%rcx, %rdx
	xorl	%ecx, %ecx
	subq	%rax, %rdx
	cmovaeq	%rdx, %rcx
	cmpq	$128, %rcx
	jae	.LBB39_21
	addq	$2, %rcx
	jmp	.LBB39_26
.LBB39_21:
	cmpq	$256, %rcx
	jae	.LBB39_22
	addq	$3, %rcx
	jmp	.LBB39_26
.LBB39_22:
	cmpq	$65536, %rcx
	jae	.LBB39_23
	addq	$4, %rcx
	jmp	.LBB39_26
.LBB39_23:
	cmpq	$16777216, %rcx
	jae	.LBB39_24
	addq	$5, %rcx
	jmp	.LBB39_26
.LBB39_24:
	addq	$6, %rcx
	movq	$-1, %rdx
	cmovbq	%rdx, %rcx
.LBB39_26:
	addq	%rcx, %rax
	movq	$-1, %rcx
	cmovaeq	%rax, %rcx
	movq	%rcx, (%rsi)
	retq
.Lfunc_end39:
	.size	_RINvNtNtNtCs00000000000_7pkcs1_c6proved12pkcs1_params6fields13prepend_fieldINtNtNtB6_9spki_core20algorithm_identifier21AlgorithmIdentifierOfNtNtB1g_15identifier_view14IdentifierViewNtNtB1g_3any6AnyRefENtNtNtB6_8der_core7counter7CounterEB8_, .Lfunc_end39-_RINvNtNtNtCs00000000000_7pkcs1_c6proved12pkcs1_params6fields13prepend_fieldINtNtNtB6_9spki_core20algorithm_identifier21AlgorithmIdentifierOfNtNtB1g_15identifier_view14IdentifierViewNtNtB1g_3any6AnyRefENtNtNtB6_8der_core7counter7CounterEB8_
	.cfi_endproc

	.section	.text._RINvNtNtNtCs00000000000_7pkcs1_c6proved12pkcs1_params6fields13prepend_fieldhNtNtNtB6_8der_core11back_writer10BackWriterEB8_,"ax",@progbits
	.p2align	4, 0x90
	.type	_RINvNtNtNtCs00000000000_7pkcs1_c6proved12pkcs1_params6fields13prepend_fieldhNtNtNtB6_8der_core11back_writer10BackWriterEB8_,@function
_RINvNtNtNtCs00000000000_7pkcs1_c6proved12pkcs1_params6fields13prepend_fieldhNtNtNtB6_8der_core11back_writer10BackWriterEB8_:
	.cfi_startproc
	pushq	%rax
	.cfi_def_cfa_offset 16
	movq	(%rsi), %rcx
	movq	8(%rsi), %r8
	movq	16(%rsi), %rdx
	testq	%rdx, %rdx
	je	.LBB40_47
	cmpq	%r8, %rdx
	ja	.LBB40_46
	leaq	-1(%rdx), %rax
	movb	%dil, -1(%rcx,%rdx)
	testb	%dil, %dil
	js	.LBB40_3
	movq	%rdx, %rdi
	subq	%rax, %rdi
	cmpl	$128, %edi
	jae	.LBB40_8
.LBB40_14:
	cmpq	$2, %rax
	jb	.LBB40_26
	cmpq	%r8, %rax
	ja	.LBB40_46
	shll	$8, %edi
	orl	$2, %edi
	movw	%di, -2(%rcx,%rax)
	addq	$-2, %rax
	jmp	.LBB40_26
.LBB40_47:
	xorl	%eax, %eax
	testb	%dil, %dil
	js	.LBB40_6
.LBB40_45:
	movq	%rax, 16(%rsi)
	popq	%rax
	.cfi_def_cfa_offset 8
	retq
.LBB40_3:
	.cfi_def_cfa_offset 16
	testq	%rax, %rax
	je	.LBB40_4
	leaq	-2(%rdx), %rax
	movb	$0, -2(%rcx,%rdx)
	jmp	.LBB40_6
.LBB40_4:
	xorl	%eax, %eax
.LBB40_6:
	movq	%rax, 16(%rsi)
	movq	%rdx, %rdi
	subq	%rax, %rdi
	cmpl	$128, %edi
	jb	.LBB40_14
.LBB40_8:
	cmpl	$256, %edi
	jae	.LBB40_9
	cmpq	$3, %rax
	jb	.LBB40_26
	cmpq	%r8, %rax
	ja	.LBB40_46
	movw	$-32510, -3(%rcx,%rax)
	movb	%dil, -1(%rcx,%rax)
	addq	$-3, %rax
	jmp	.LBB40_26
.LBB40_9:
	cmpl	$65536, %edi
	jae	.LBB40_10
	cmpq	$4, %rax
	jb	.LBB40_26
	cmpq	%r8, %rax
	ja	.LBB40_46
	orl	$42074112, %edi
	bswapl	%edi
	movl	%edi, -4(%rcx,%rax)
	addq	$-4, %rax
	jmp	.LBB40_26
.LBB40_10:
	cmpl	$16777216, %edi
	jae	.LBB40_11
	cmpq	$5, %rax
	jb	.LBB40_26
	cmpq	%r8, %rax
	ja	.LBB40_46
	movl	%edi, %r9d
	shrl	$16, %r9d
	movl	%edi, %r10d
	shrl	$8, %r10d
	movw	$-31998, -5(%rcx,%rax)
	movb	%r9b, -3(%rcx,%rax)
	movb	%r10b, -2(%rcx,%rax)
	movb	%dil, -1(%rcx,%rax)
	addq	$-5, %rax
	jmp	.LBB40_26
.LBB40_11:
	cmpq	$6, %rax
	jb	.LBB40_26
	cmpq	%r8, %rax
	ja	.LBB40_46
	movl	%edi, %r9d
	shrl	$24, %r9d
	movl	%edi, %r10d
	shrl	$16, %r10d
	movl	%edi, %r11d
	shrl	$8, %r11d
	movw	$-31742, -6(%rcx,%rax)
	movb	%r9b, -4(%rcx,%rax)
	movb	%r10b, -3(%rcx,%rax)
	movb	%r11b, -2(%rcx,%rax)
	movb	%dil, -1(%rcx,%rax)
	addq	$-6, %rax
.LBB40_26:
	subq	%rax, %rdx
	cmpl	$128, %edx
	jae	.LBB40_27
	cmpq	$2, %rax
	jb	.LBB40_45
	cmpq	%r8, %rax
	ja	.LBB40_46
	shll	$8, %edx
	orl	$162, %edx
	movw	%dx, -2(%rcx,%rax)
	addq	$-2, %rax
	movq	%rax, 16(%rsi)
	popq	%rax
	.cfi_def_cfa_offset 8
	retq
.LBB40_27:
	.cfi_def_cfa_offset 16
	cmpl	$256, %edx
	jae	.LBB40_28
	cmpq	$3, %rax
	jb	.LBB40_45
	cmpq	%r8, %rax
	ja	.LBB40_46
	movw	$-32350, -3(%rcx,%rax)
	movb	%dl, -1(%rcx,%rax)
	addq	$-3, %rax
	movq	%rax, 16(%rsi)
	popq	%rax
	.cfi_def_cfa_offset 8
	retq
.LBB40_28:
	.cfi_def_cfa_offset 16
	cmpl	$65536, %edx
	jae	.LBB40_29
	cmpq	$4, %rax
	jb	.LBB40_45
	cmpq	%r8, %rax
	ja	.LBB40_46
	orl	$-1568538624, %edx
	bswapl	%edx
	movl	%edx, -4(%rcx,%rax)
	addq	$-4, %rax
	movq	%rax, 16(%rsi)
	popq	%rax
	.cfi_def_cfa_offset 8
	retq
.LBB40_29:
	.cfi_def_cfa_offset 16
	cmpl	$16777216, %edx
	jae	.LBB40_30
	cmpq	$5, %rax
	jb	.LBB40_45
	cmpq	%r8, %rax
	ja	.LBB40_46
	movl	%edx, %edi
	shrl	$16, %edi
	movl	%edx, %r8d
	shrl	$8, %r8d
	movw	$-31838, -5(%rcx,%rax)
	movb	%dil, -3(%rcx,%rax)
	movb	%r8b, -2(%rcx,%rax)
	movb	%dl, -1(%rcx,%rax)
	addq	$-5, %rax
	movq	%rax, 16(%rsi)
	popq	%rax
	.cfi_def_cfa_offset 8
	retq
.LBB40_30:
	.cfi_def_cfa_offset 16
	cmpq	$6, %rax
	jb	.LBB40_45
	cmpq	%r8, %rax
	ja	.LBB40_46
	movl	%edx, %edi
	shrl	$24, %edi
	movl	%edx, %r8d
	shrl	$16, %r8d
	movl	%edx, %r9d
	shrl	$8, %r9d
	movw	$-31582, -6(%rcx,%rax)
	movb	%dil, -4(%rcx,%rax)
	movb	%r8b, -3(%rcx,%rax)
	movb	%r9b, -2(%rcx,%rax)
	movb	%dl, -1(%rcx,%rax)
	addq	$-6, %rax
	movq	%rax, 16(%rsi)
	popq	%rax
	.cfi_def_cfa_offset 8
	retq
.LBB40_46:
	.cfi_def_cfa_offset 16
	ud2
.Lfunc_end40:
	.size	_RINvNtNtNtCs00000000000_7pkcs1_c6proved12pkcs1_params6fields13prepend_fieldhNtNtNtB6_8der_core11back_writer10BackWriterEB8_, .Lfunc_end40-_RINvNtNtNtCs00000000000_7pkcs1_c6proved12pkcs1_params6fields13prepend_fieldhNtNtNtB6_8der_core11back_writer10BackWriterEB8_
	.cfi_endproc

	.section	.text._RINvNtNtNtCs00000000000_7pkcs1_c6proved12pkcs1_params6fields13prepend_fieldhNtNtNtB6_8der_core7counter7CounterEB8_,"ax",@progbits
	.p2align	4, 0x90
	.type	_RINvNtNtNtCs00000000000_7pkcs1_c6proved12pkcs1_params6fields13prepend_fieldhNtNtNtB6_8der_core7counter7CounterEB8_,@function
_RINvNtNtNtCs00000000000_7pkcs1_c6proved12pkcs1_params6fields13prepend_fieldhNtNtNtB6_8der_core7counter7CounterEB8_:
	.cfi_startproc
	movq	(%rsi), %rax
	shrb	$7, %dil
	movzbl	%dil, %ecx
	incq	%rcx
	addq	%rax, %rcx
	movq	$-1, %rdx
	cmovaeq	%rcx, %rdx
	xorl	%ecx, %ecx
	subq	%rax, %rdx
	cmovaeq	%rdx, %rcx
	cmpq	$128, %rcx
	jae	.LBB41_1
	addq	$2, %rcx
	jmp	.LBB41_6
.LBB41_1:
	cmpq	$256, %rcx
	jae	.LBB41_2
	addq	$3, %rcx
	jmp	.LBB41_6
.LBB41_2:
	cmpq	$65536, %rcx
	jae	.LBB41_3
	addq	$4, %rcx
	jmp	.LBB41_6
.LBB41_3:
	cmpq	$16777216, %rcx
	jae	.LBB41_4
	addq	$5, %rcx
	jmp	.LBB41_6
.LBB41_4:
	addq	$6, %rcx
	movq	$-1, %rdx
	cmovbq	%rdx, %rcx
.LBB41_6:
	addq	%rax, %rcx
	movq	$-1, %rdx
	cmovaeq	%rcx, %rdx
	xorl	%ecx, %ecx
	subq	%rax, %rdx
	cmovaeq	%rdx, %rcx
	cmpq	$128, %rcx
	jae	.LBB41_7
	addq	$2, %rcx
	jmp	.LBB41_12
.LBB41_7:
	cmpq	$256, %rcx
	jae	.LBB41_8
	addq	$3, %rcx
	jmp	.LBB41_12
.LBB41_8:
	cmpq	$65536, %rcx
	jae	.LBB41_9
	addq	$4, %rcx
	jmp	.LBB41_12
.LBB41_9:
	cmpq	$16777216, %rcx
	jae	.LBB41_10
	addq	$5, %rcx
	jmp	.LBB41_12
.LBB41_10:
	addq	$6, %rcx
	movq	$-1, %rdx
	cmovbq	%rdx, %rcx
.LBB41_12:
	addq	%rcx, %rax
	movq	$-1, %rcx
	cmovaeq	%rax, %rcx
	movq	%rcx, (%rsi)
	retq
.Lfunc_end41:
	.size	_RINvNtNtNtCs00000000000_7pkcs1_c6proved12pkcs1_params6fields13prepend_fieldhNtNtNtB6_8der_core7counter7CounterEB8_, .Lfunc_end41-_RINvNtNtNtCs00000000000_7pkcs1_c6proved12pkcs1_params6fields13prepend_fieldhNtNtNtB6_8der_core7counter7CounterEB8_
	.cfi_endproc

	.section	.text._RNvXs_NtNtNtCs00000000000_7pkcs1_c6proved12pkcs1_params7holdersINtNtNtB8_9spki_core20algorithm_identifier21AlgorithmIdentifierOfNtNtB14_15identifier_view14IdentifierViewIB10_B22_NtNtB14_3any6AnyRefEENtB4_10MaskHolder10is_defaultBa_,"ax",@progbits
	.p2align	4, 0x90
	.type	_RNvXs_NtNtNtCs00000000000_7pkcs1_c6proved12pkcs1_params7holdersINtNtNtB8_9spki_core20algorithm_identifier21AlgorithmIdentifierOfNtNtB14_15identifier_view14IdentifierViewIB10_B22_NtNtB14_3any6AnyRefEENtB4_10MaskHolder10is_defaultBa_,@function
_RNvXs_NtNtNtCs00000000000_7pkcs1_c6proved12pkcs1_params7holdersINtNtNtB8_9spki_core20algorithm_identifier21AlgorithmIdentifierOfNtNtB14_15identifier_view14IdentifierViewIB10_B22_NtNtB14_3any6AnyRefEENtB4_10MaskHolder10is_defaultBa_:
	.cfi_startproc
	movq	16(%rdi), %rcx
	testq	%rcx, %rcx
	je	.LBB42_1
	cmpq	$9, 8(%rdi)
	jne	.LBB42_1
	movq	(%rdi), %rax
	movabsq	$72354425775621674, %rdx
	cmpq	%rdx, (%rax)
	jne	.LBB42_1
	cmpb	$8, 8(%rax)
	jne	.LBB42_1
	xorl	%eax, %eax
	cmpq	$0, 32(%rdi)
	je	.LBB42_2
	cmpq	$5, 24(%rdi)
	jne	.LBB42_2
	cmpb	$43, (%rcx)
	jne	.LBB42_1
	cmpb	$14, 1(%rcx)
	jne	.LBB42_1
	cmpb	$3, 2(%rcx)
	jne	.LBB42_1
	cmpb	$2, 3(%rcx)
	jne	.LBB42_1
	cmpb	$26, 4(%rcx)
	jne	.LBB42_1
	movzbl	48(%rdi), %eax
	xorq	$5, %rax
	orq	40(%rdi), %rax
	sete	%al
	retq
.LBB42_1:
	xorl	%eax, %eax
.LBB42_2:
	retq
.Lfunc_end42:
	.size	_RNvXs_NtNtNtCs00000000000_7pkcs1_c6proved12pkcs1_params7holdersINtNtNtB8_9spki_core20algorithm_identifier21AlgorithmIdentifierOfNtNtB14_15identifier_view14IdentifierViewIB10_B22_NtNtB14_3any6AnyRefEENtB4_10MaskHolder10is_defaultBa_, .Lfunc_end42-_RNvXs_NtNtNtCs00000000000_7pkcs1_c6proved12pkcs1_params7holdersINtNtNtB8_9spki_core20algorithm_identifier21AlgorithmIdentifierOfNtNtB14_15identifier_view14IdentifierViewIB10_B22_NtNtB14_3any6AnyRefEENtB4_10MaskHolder10is_defaultBa_
	.cfi_endproc

	.section	.rodata.cst16,"aM",@progbits,16
	.p2align	4, 0x0
.LCPI43_0:
	.zero	16,128
.LCPI43_1:
	.byte	128
	.byte	128
	.byte	128
	.byte	128
	.byte	128
	.byte	128
	.byte	128
	.byte	128
	.zero	1
	.zero	1
	.zero	1
	.zero	1
	.zero	1
	.zero	1
	.zero	1
	.zero	1
	.section	.text._RNvNtNtNtCs00000000000_7pkcs1_c6proved12pkcs1_params6noting8note_pss,"ax",@progbits
	.p2align	4, 0x90
	.type	_RNvNtNtNtCs00000000000_7pkcs1_c6proved12pkcs1_params6noting8note_pss,@function
_RNvNtNtNtCs00000000000_7pkcs1_c6proved12pkcs1_params6noting8note_pss:
	.cfi_startproc
	pushq	%rbp
	.cfi_def_cfa_offset 16
	pushq	%r15
	.cfi_def_cfa_offset 24
	pushq	%r14
	.cfi_def_cfa_offset 32
	pushq	%r13
	.cfi_def_cfa_offset 40
	pushq	%r12
	.cfi_def_cfa_offset 48
	pushq	%rbx
	.cfi_def_cfa_offset 56
	subq	$152, %rsp
	.cfi_def_cfa_offset 208
	.cfi_offset %rbx, -56
	.cfi_offset %r12, -48
	.cfi_offset %r13, -40
	.cfi_offset %r14, -32
	.cfi_offset %r15, -24
	.cfi_offset %rbp, -16
	movq	%rdi, %rbx
	leaq	.Lanon.2(%rip), %r10
	leaq	_RNvNtCs00000000000_7pkcs1_c10rattle_std8AN_OCTET(%rip), %r9
	movl	$5, %r14d
	testq	%rdx, %rdx
	je	.LBB43_6
	cmpb	$-96, (%rsi)
	jne	.LBB43_7
	cmpq	$1, %rdx
	je	.LBB43_23
	leaq	2(%rsi), %r9
	leaq	-2(%rdx), %rbp
	movsbq	1(%rsi), %rax
	testq	%rax, %rax
	js	.LBB43_13
	subq	%rax, %rbp
	jb	.LBB43_23
	leaq	(%r9,%rax), %rcx
	cmpq	$2, %rax
	jae	.LBB43_25
	jmp	.LBB43_56
.LBB43_6:
	xorl	%r8d, %r8d
	xorl	%ebp, %ebp
	movq	%rsi, %rcx
	movl	$5, %r11d
	cmpb	$43, (%r10)
	je	.LBB43_8
	jmp	.LBB43_116
.LBB43_7:
	xorl	%r8d, %r8d
	movq	%rdx, %rbp
	movq	%rsi, %rcx
	movl	$5, %r11d
	cmpb	$43, (%r10)
	jne	.LBB43_116
.LBB43_8:
	cmpb	$14, 1(%r10)
	jne	.LBB43_116
	cmpb	$3, 2(%r10)
	jne	.LBB43_116
	cmpb	$2, 3(%r10)
	jne	.LBB43_116
	cmpb	$26, 4(%r10)
	jne	.LBB43_116
	movq	%r14, %rax
	xorq	$5, %rax
	orq	%r8, %rax
	sete	%r13b
	testq	%rdx, %rdx
	jne	.LBB43_117
.LBB43_119:
	xorl	%r13d, %r13d
	jmp	.LBB43_120
.LBB43_13:
	cmpb	$-126, %al
	jne	.LBB43_18
	cmpq	$1, %rbp
	jbe	.LBB43_23
	movzbl	2(%rsi), %ecx
	testq	%rcx, %rcx
	je	.LBB43_23
	leaq	-4(%rdx), %rbp
	shll	$8, %ecx
	movzbl	3(%rsi), %eax
	orq	%rcx, %rax
	subq	%rax, %rbp
	jb	.LBB43_23
	leaq	4(%rsi), %r9
	leaq	(%r9,%rax), %rcx
	jmp	.LBB43_25
.LBB43_18:
	testq	%rbp, %rbp
	je	.LBB43_23
	cmpb	$-127, %al
	jne	.LBB43_23
	movzbl	(%r9), %eax
	testb	%al, %al
	jns	.LBB43_23
	leaq	-3(%rdx), %rbp
	subq	%rax, %rbp
	jb	.LBB43_23
	leaq	3(%rsi), %r9
	leaq	(%r9,%rax), %rcx
	jmp	.LBB43_25
.LBB43_23:
	leaq	32(%rsp), %rdi
	movq	%rsi, %r14
	movq	%rdx, %r12
	movl	$160, %ecx
	callq	_RNvNtNtNtCs00000000000_7pkcs1_c6proved8der_core5split14split_unlikely
	movq	32(%rsp), %r9
	testq	%r9, %r9
	je	.LBB43_94
	movq	40(%rsp), %rax
	movq	48(%rsp), %rcx
	movq	56(%rsp), %rbp
	movq	%r14, %rsi
	movq	%r12, %rdx
	cmpq	$2, %rax
	jb	.LBB43_56
.LBB43_25:
	cmpb	$48, (%r9)
	jne	.LBB43_56
	movq	%rcx, 16(%rsp)
	leaq	2(%r9), %r8
	leaq	-2(%rax), %r12
	movsbq	1(%r9), %rcx
	testq	%rcx, %rcx
	js	.LBB43_30
	subq	%rcx, %r12
	jb	.LBB43_55
	cmpq	$2, %rcx
	jb	.LBB43_58
.LBB43_29:
	cmpb	$6, (%r8)
	je	.LBB43_41
	jmp	.LBB43_58
.LBB43_30:
	cmpb	$-126, %cl
	jne	.LBB43_35
	cmpq	$1, %r12
	jbe	.LBB43_55
	movzbl	2(%r9), %edi
	testq	%rdi, %rdi
	je	.LBB43_55
	leaq	-4(%rax), %r12
	shll	$8, %edi
	movzbl	3(%r9), %ecx
	orq	%rdi, %rcx
	subq	%rcx, %r12
	jb	.LBB43_55
	addq	$4, %r9
	jmp	.LBB43_40
.LBB43_35:
	testq	%r12, %r12
	je	.LBB43_55
	cmpb	$-127, %cl
	jne	.LBB43_55
	movzbl	(%r8), %ecx
	testb	%cl, %cl
	jns	.LBB43_55
	leaq	-3(%rax), %r12
	subq	%rcx, %r12
	jb	.LBB43_55
	addq	$3, %r9
.LBB43_40:
	movq	%r9, %r8
	cmpb	$6, (%r8)
	jne	.LBB43_58
.LBB43_41:
	leaq	2(%r8), %r9
	leaq	-2(%rcx), %rax
	movsbq	1(%r8), %r10
	testq	%r10, %r10
	js	.LBB43_44
	subq	%r10, %rax
	jb	.LBB43_58
	leaq	(%r9,%r10), %rcx
	leaq	-1(%r10), %rdi
	movl	$5, %r8d
	cmpq	$38, %rdi
	jbe	.LBB43_60
	jmp	.LBB43_108
.LBB43_44:
	cmpb	$-126, %r10b
	jne	.LBB43_49
	cmpq	$1, %rax
	jbe	.LBB43_58
	movzbl	2(%r8), %edi
	testq	%rdi, %rdi
	je	.LBB43_58
	leaq	-4(%rcx), %rax
	shll	$8, %edi
	movzbl	3(%r8), %r10d
	orq	%rdi, %r10
	subq	%r10, %rax
	jb	.LBB43_58
	addq	$4, %r8
	jmp	.LBB43_54
.LBB43_49:
	testq	%rax, %rax
	je	.LBB43_58
	cmpb	$-127, %r10b
	jne	.LBB43_58
	movzbl	(%r9), %r10d
	testb	%r10b, %r10b
	jns	.LBB43_58
	leaq	-3(%rcx), %rax
	subq	%r10, %rax
	jb	.LBB43_58
	addq	$3, %r8
.LBB43_54:
	leaq	(%r8,%r10), %rcx
	movq	%r8, %r9
	leaq	-1(%r10), %rdi
	movl	$5, %r8d
	cmpq	$38, %rdi
	jbe	.LBB43_60
	jmp	.LBB43_108
.LBB43_55:
	movq	16(%rsp), %rcx
.LBB43_56:
	movq	%rcx, 16(%rsp)
	movq	%rdx, %r14
	movq	%rsi, %r13
	leaq	32(%rsp), %rdi
	movq	%r9, %rsi
	movq	%rax, %rdx
	movl	$48, %ecx
	callq	_RNvNtNtNtCs00000000000_7pkcs1_c6proved8der_core5split14split_unlikely
	movq	32(%rsp), %r8
	testq	%r8, %r8
	je	.LBB43_87
	movq	40(%rsp), %rcx
	movq	56(%rsp), %r12
	movq	%r13, %rsi
	movq	%r14, %rdx
	cmpq	$2, %rcx
	jae	.LBB43_29
.LBB43_58:
	movq	%rdx, %r13
	movq	%rsi, %r14
	leaq	32(%rsp), %rdi
	movq	%r8, %rsi
	movq	%rcx, %rdx
	movl	$6, %ecx
	callq	_RNvNtNtNtCs00000000000_7pkcs1_c6proved8der_core5split14split_unlikely
	movq	32(%rsp), %r9
	testq	%r9, %r9
	je	.LBB43_88
	movq	40(%rsp), %r10
	movq	48(%rsp), %rcx
	movq	56(%rsp), %rax
	movq	%r14, %rsi
	movq	%r13, %rdx
	leaq	-1(%r10), %rdi
	movl	$5, %r8d
	cmpq	$38, %rdi
	ja	.LBB43_108
.LBB43_60:
	movq	%r10, 112(%rsp)
	movq	%r9, %r15
	movzbl	(%r9,%rdi), %r9d
	testb	%r9b, %r9b
	js	.LBB43_73
	movdqa	.LCPI43_1(%rip), %xmm0
	movdqa	.LCPI43_0(%rip), %xmm1
	xorl	%r10d, %r10d
	movq	%r15, %r11
	jmp	.LBB43_63
	.p2align	4, 0x90
.LBB43_62:
	addq	%r13, %rdi
	addq	%r14, %r11
.LBB43_63:
	cmpq	$7, %rdi
	jbe	.LBB43_66
	movq	(%r11), %xmm2
	pcmpeqb	%xmm0, %xmm2
	pmovmskb	%xmm2, %r14d
	testb	%r14b, %r14b
	jne	.LBB43_72
	movl	$8, %r14d
	movq	$-8, %r13
	jmp	.LBB43_62
	.p2align	4, 0x90
.LBB43_66:
	cmpq	$3, %rdi
	jbe	.LBB43_69
	movd	(%r11), %xmm2
	punpcklbw	%xmm2, %xmm2
	punpcklwd	%xmm2, %xmm2
	pcmpeqb	%xmm1, %xmm2
	movmskps	%xmm2, %r14d
	testl	%r14d, %r14d
	jne	.LBB43_72
	movl	$4, %r14d
	movq	$-4, %r13
	jmp	.LBB43_62
	.p2align	4, 0x90
.LBB43_69:
	testq	%rdi, %rdi
	je	.LBB43_76
	cmpb	(%r11), %r10b
	jo	.LBB43_72
	movl	$1, %r14d
	movq	$-1, %r13
	jmp	.LBB43_62
.LBB43_72:
	cmpq	$0, 112(%rsp)
	je	.LBB43_76
.LBB43_73:
	xorl	%edi, %edi
	cmpb	(%r15), %dil
	jo	.LBB43_108
	movq	112(%rsp), %r14
	cmpq	$1, %r14
	jne	.LBB43_82
.LBB43_75:
	testb	%r9b, %r9b
	js	.LBB43_108
.LBB43_76:
	testq	%rax, %rax
	je	.LBB43_80
	movzbl	(%rcx), %edi
	movl	%edi, %r8d
	notb	%r8b
	testb	$31, %r8b
	sete	%r8b
	testb	$-33, %dil
	sete	%r9b
	orb	%r8b, %r9b
	je	.LBB43_90
	movl	$11, %eax
	xorl	%r8d, %r8d
.LBB43_79:
	movzbl	%dil, %ecx
	orl	%ecx, %r8d
	shll	$8, %r8d
	jmp	.LBB43_89
.LBB43_80:
	testq	%r12, %r12
	movq	16(%rsp), %rcx
	jne	.LBB43_113
	xorl	%r9d, %r9d
	xorl	%r13d, %r13d
	movq	%r15, %r10
	movq	112(%rsp), %r11
	testq	%rdx, %rdx
	jne	.LBB43_117
	jmp	.LBB43_119
.LBB43_82:
	leaq	-1(%r14), %r10
	xorl	%r11d, %r11d
	xorl	%edi, %edi
	jmp	.LBB43_84
	.p2align	4, 0x90
.LBB43_83:
	incq	%rdi
	cmpq	%rdi, %r10
	je	.LBB43_75
.LBB43_84:
	cmpb	1(%r15,%rdi), %r11b
	jno	.LBB43_83
	cmpq	%r14, %rdi
	jae	.LBB43_640
	cmpb	$0, (%r15,%rdi)
	js	.LBB43_83
	jmp	.LBB43_108
.LBB43_87:
	movzbl	42(%rsp), %eax
	shll	$16, %eax
	movzwl	40(%rsp), %r8d
	orl	%r8d, %eax
	jmp	.LBB43_109
.LBB43_88:
	movzwl	40(%rsp), %eax
	movzbl	42(%rsp), %r8d
	shll	$16, %r8d
.LBB43_89:
	orq	%rax, %r8
	jmp	.LBB43_108
.LBB43_90:
	movzbl	%dil, %r14d
	cmpq	$1, %rax
	je	.LBB43_105
	leaq	2(%rcx), %r9
	leaq	-2(%rax), %rdi
	movsbq	1(%rcx), %r8
	testq	%r8, %r8
	js	.LBB43_95
	subq	%r8, %rdi
	jb	.LBB43_105
	movq	%r8, %rax
	jmp	.LBB43_107
.LBB43_94:
	movzbl	42(%rsp), %eax
	shll	$16, %eax
	movzwl	40(%rsp), %ecx
	jmp	.LBB43_111
.LBB43_95:
	cmpb	$-126, %r8b
	jne	.LBB43_100
	cmpq	$1, %rdi
	jbe	.LBB43_105
	movzbl	2(%rcx), %r8d
	testq	%r8, %r8
	je	.LBB43_105
	leaq	-4(%rax), %rdi
	shll	$8, %r8d
	movzbl	3(%rcx), %r9d
	orq	%r8, %r9
	subq	%r9, %rdi
	jb	.LBB43_105
	movq	%r9, %rax
	addq	$4, %rcx
	movq	%rcx, %r9
	jmp	.LBB43_107
.LBB43_100:
	testq	%rdi, %rdi
	je	.LBB43_105
	cmpb	$-127, %r8b
	jne	.LBB43_105
	movzbl	(%r9), %r8d
	testb	%r8b, %r8b
	jns	.LBB43_105
	leaq	-3(%rax), %rdi
	subq	%r8, %rdi
	jb	.LBB43_105
	movq	%r8, %rax
	addq	$3, %rcx
	movq	%rcx, %r9
	jmp	.LBB43_107
.LBB43_105:
	movq	%r14, %r8
	movq	%rdx, 128(%rsp)
	movq	%rsi, %r13
	leaq	32(%rsp), %rdi
	movq	%rcx, %rsi
	movq	%rax, %rdx
	movl	%r8d, %ecx
	callq	_RNvNtNtNtCs00000000000_7pkcs1_c6proved8der_core5split14split_unlikely
	movq	32(%rsp), %r9
	testq	%r9, %r9
	je	.LBB43_559
	movq	40(%rsp), %rax
	movq	56(%rsp), %rdi
	movq	%r13, %rsi
	movq	128(%rsp), %rdx
.LBB43_107:
	movl	$12, %r8d
	testq	%rdi, %rdi
	je	.LBB43_112
.LBB43_108:
	movl	%r8d, %eax
.LBB43_109:
	shrl	$8, %eax
.LBB43_110:
	shll	$8, %eax
	movzbl	%r8b, %ecx
.LBB43_111:
	orl	%eax, %ecx
	movw	%cx, (%rbx)
	shrl	$16, %ecx
	movb	%cl, 2(%rbx)
	jmp	.LBB43_634
.LBB43_112:
	testq	%r12, %r12
	je	.LBB43_114
.LBB43_113:
	movb	$12, %r8b
	jmp	.LBB43_110
.LBB43_114:
	movq	112(%rsp), %r11
	cmpq	$5, %r11
	jne	.LBB43_118
	movq	%r15, %r10
	movq	%rax, %r8
	movq	16(%rsp), %rcx
	movl	$5, %r11d
	cmpb	$43, (%r10)
	je	.LBB43_8
.LBB43_116:
	xorl	%r13d, %r13d
	testq	%rdx, %rdx
	je	.LBB43_119
.LBB43_117:
	cmpb	$-96, (%rsi)
	sete	%al
	andb	%al, %r13b
.LBB43_120:
	leaq	.Lanon.3(%rip), %rdi
	leaq	.Lanon.2(%rip), %rdx
	leaq	_RNvNtCs00000000000_7pkcs1_c10rattle_std8AN_OCTET(%rip), %r15
	testq	%rbp, %rbp
	movq	%rcx, 16(%rsp)
	je	.LBB43_126
	cmpb	$-95, (%rcx)
	jne	.LBB43_127
	cmpq	$1, %rbp
	movq	%rbx, 24(%rsp)
	movq	%r8, 80(%rsp)
	movq	%r9, 64(%rsp)
	je	.LBB43_204
	leaq	2(%rcx), %rsi
	leaq	-2(%rbp), %r12
	movsbq	1(%rcx), %rdx
	testq	%rdx, %rdx
	js	.LBB43_166
	subq	%rdx, %r12
	jb	.LBB43_204
	leaq	(%rsi,%rdx), %rcx
	cmpq	$2, %rdx
	jae	.LBB43_206
	jmp	.LBB43_265
.LBB43_126:
	movl	$5, %eax
	movq	%rax, 144(%rsp)
	movq	$0, 120(%rsp)
	movl	$5, %esi
	xorl	%r12d, %r12d
	jmp	.LBB43_128
.LBB43_127:
	movl	$5, %eax
	movq	%rax, 144(%rsp)
	movq	$0, 120(%rsp)
	movl	$5, %esi
	movq	%rbp, %r12
.LBB43_128:
	movl	$9, %eax
	movq	%rax, 128(%rsp)
	movabsq	$72354425775621674, %rax
	cmpq	%rax, (%rdi)
	jne	.LBB43_138
	cmpb	$8, 8(%rdi)
	jne	.LBB43_138
	xorl	%eax, %eax
	testq	%r15, %r15
	je	.LBB43_139
	cmpq	$5, %rsi
	jne	.LBB43_139
	movl	$5, %esi
	cmpb	$43, (%rdx)
	jne	.LBB43_138
	cmpb	$14, 1(%rdx)
	jne	.LBB43_138
	cmpb	$3, 2(%rdx)
	jne	.LBB43_138
	cmpb	$2, 3(%rdx)
	jne	.LBB43_138
	cmpb	$26, 4(%rdx)
	jne	.LBB43_138
	movzbl	144(%rsp), %eax
	xorq	$5, %rax
	orq	120(%rsp), %rax
	sete	%al
	jmp	.LBB43_139
.LBB43_138:
	xorl	%eax, %eax
.LBB43_139:
	testb	%r13b, %r13b
	movq	%r15, 136(%rsp)
	je	.LBB43_149
	movb	$20, %r15b
	testq	%r12, %r12
	je	.LBB43_165
	cmpb	$-94, (%rcx)
	jne	.LBB43_171
	movq	%rsi, %r15
	movq	%rdx, %r13
	cmpq	$1, %r12
	movq	%r8, 80(%rsp)
	movq	%r9, 64(%rsp)
	movq	%rdi, 88(%rsp)
	je	.LBB43_325
	leaq	2(%rcx), %rsi
	leaq	-2(%r12), %rbp
	movsbq	1(%rcx), %rdx
	testq	%rdx, %rdx
	js	.LBB43_240
	subq	%rdx, %rbp
	jb	.LBB43_325
	leaq	(%rsi,%rdx), %rcx
	cmpq	$2, %rdx
	jb	.LBB43_147
.LBB43_146:
	cmpb	$2, (%rsi)
	je	.LBB43_316
	jmp	.LBB43_147
.LBB43_149:
	testq	%rbp, %rbp
	je	.LBB43_157
	movq	16(%rsp), %r13
	cmpb	$-95, (%r13)
	movq	%r14, %r13
	movq	%rcx, %r14
	sete	%cl
	testb	%cl, %al
	movq	%r14, %rcx
	movq	%r13, %r14
	je	.LBB43_157
	testq	%r12, %r12
	je	.LBB43_236
	movzbl	(%rcx), %eax
	cmpb	$-94, %al
	jne	.LBB43_250
	movq	%rsi, 16(%rsp)
	movq	%rdx, 72(%rsp)
	cmpq	$1, %r12
	movq	%rdi, 88(%rsp)
	je	.LBB43_482
	leaq	2(%rcx), %rsi
	leaq	-2(%r12), %rbp
	movsbq	1(%rcx), %rdx
	testq	%rdx, %rdx
	js	.LBB43_387
	subq	%rdx, %rbp
	jb	.LBB43_482
	leaq	(%rsi,%rdx), %rcx
	cmpq	$2, %rdx
	jae	.LBB43_484
	jmp	.LBB43_569
.LBB43_157:
	movb	$2, %r13b
	testq	%r12, %r12
	je	.LBB43_187
	movzbl	(%rcx), %eax
	movb	$20, %r15b
	cmpb	$-94, %al
	jne	.LBB43_188
	movq	%rsi, 16(%rsp)
	movq	%rdx, 72(%rsp)
	cmpq	$1, %r12
	movq	%r8, 80(%rsp)
	movq	%r9, 64(%rsp)
	movq	%rdi, 88(%rsp)
	je	.LBB43_376
	leaq	2(%rcx), %rsi
	leaq	-2(%r12), %rbp
	movsbq	1(%rcx), %rdx
	testq	%rdx, %rdx
	js	.LBB43_259
	subq	%rdx, %rbp
	jb	.LBB43_376
	leaq	(%rsi,%rdx), %rax
	movq	%rax, 104(%rsp)
	cmpq	$2, %rdx
	jae	.LBB43_378
	jmp	.LBB43_163
.LBB43_165:
	xorl	%r13d, %r13d
	xorl	%r12d, %r12d
	jmp	.LBB43_172
.LBB43_166:
	cmpb	$-126, %dl
	jne	.LBB43_199
	cmpq	$1, %r12
	jbe	.LBB43_204
	movzbl	2(%rcx), %eax
	testq	%rax, %rax
	je	.LBB43_204
	leaq	-4(%rbp), %r12
	shll	$8, %eax
	movzbl	3(%rcx), %edx
	orq	%rax, %rdx
	subq	%rdx, %r12
	jb	.LBB43_204
	leaq	4(%rcx), %rsi
	leaq	(%rsi,%rdx), %rcx
	jmp	.LBB43_206
.LBB43_171:
	xorl	%r13d, %r13d
.LBB43_172:
	testq	%r12, %r12
	je	.LBB43_237
	movzbl	(%rcx), %eax
	cmpb	$-93, %al
	jne	.LBB43_543
.LBB43_174:
	movq	%rsi, 16(%rsp)
	movq	%rdx, 72(%rsp)
	cmpq	$1, %r12
	je	.LBB43_346
	leaq	2(%rcx), %rsi
	leaq	-2(%r12), %rax
	movsbq	1(%rcx), %rdx
	testq	%rdx, %rdx
	js	.LBB43_245
	subq	%rdx, %rax
	jb	.LBB43_346
	cmpq	$2, %rdx
	jb	.LBB43_519
.LBB43_178:
	cmpb	$2, (%rsi)
	jne	.LBB43_519
	movq	%rax, 8(%rsp)
	movq	%rdi, %rbp
	leaq	2(%rsi), %rcx
	leaq	-2(%rdx), %rdi
	movsbq	1(%rsi), %rax
	testq	%rax, %rax
	js	.LBB43_251
	subq	%rax, %rdi
	jb	.LBB43_517
	movq	16(%rsp), %rsi
	movb	$2, %dl
	testq	%rax, %rax
	je	.LBB43_521
.LBB43_182:
	cmpq	$1, %rax
	jne	.LBB43_256
	movzbl	(%rcx), %eax
	testb	%al, %al
	js	.LBB43_415
	cmpb	$1, %al
	jne	.LBB43_423
	testq	%rdi, %rdi
	je	.LBB43_557
	movl	$12, %ecx
	xorl	%edx, %edx
	jmp	.LBB43_526
.LBB43_187:
	movb	$20, %r15b
	xorl	%eax, %eax
	jmp	.LBB43_238
.LBB43_188:
	movq	%rcx, %r13
	movq	%r12, %rbp
	cmpb	$-93, %al
	jne	.LBB43_543
.LBB43_189:
	movq	%rsi, 16(%rsp)
	movq	%rdx, 72(%rsp)
	cmpq	$1, %rbp
	movq	%r9, 64(%rsp)
	movq	%rdi, 88(%rsp)
	je	.LBB43_439
	leaq	2(%r13), %rsi
	leaq	-2(%rbp), %rax
	movsbq	1(%r13), %rdx
	testq	%rdx, %rdx
	js	.LBB43_355
	subq	%rdx, %rax
	jb	.LBB43_439
	cmpq	$2, %rdx
	jb	.LBB43_532
.LBB43_193:
	cmpb	$2, (%rsi)
	jne	.LBB43_532
	movq	%rax, 8(%rsp)
	leaq	2(%rsi), %rdi
	leaq	-2(%rdx), %r12
	movsbq	1(%rsi), %rax
	testq	%rax, %rax
	js	.LBB43_371
	subq	%rax, %r12
	jb	.LBB43_531
	movq	72(%rsp), %rdx
	movq	16(%rsp), %rsi
	cmpq	$1, %rax
	jne	.LBB43_534
.LBB43_197:
	movzbl	(%rdi), %ecx
	testb	%cl, %cl
	js	.LBB43_539
	movq	88(%rsp), %rdi
	jmp	.LBB43_536
.LBB43_199:
	testq	%r12, %r12
	je	.LBB43_204
	cmpb	$-127, %dl
	jne	.LBB43_204
	movzbl	(%rsi), %edx
	testb	%dl, %dl
	jns	.LBB43_204
	leaq	-3(%rbp), %r12
	subq	%rdx, %r12
	jb	.LBB43_204
	leaq	3(%rcx), %rsi
	leaq	(%rsi,%rdx), %rcx
	jmp	.LBB43_206
.LBB43_204:
	movq	%r14, 96(%rsp)
	movq	%r11, %r15
	movq	%r10, %r14
	leaq	32(%rsp), %rdi
	movq	%rcx, %rsi
	movq	%rbp, %rdx
	movl	$161, %ecx
	callq	_RNvNtNtNtCs00000000000_7pkcs1_c6proved8der_core5split14split_unlikely
	movq	32(%rsp), %rsi
	testq	%rsi, %rsi
	je	.LBB43_324
	movq	40(%rsp), %rdx
	movq	48(%rsp), %rcx
	movq	56(%rsp), %r12
	movq	%r14, %r10
	movq	%r15, %r11
	movq	96(%rsp), %r14
	cmpq	$2, %rdx
	jb	.LBB43_265
.LBB43_206:
	cmpb	$48, (%rsi)
	jne	.LBB43_265
	movq	%rcx, 8(%rsp)
	leaq	2(%rsi), %rax
	leaq	-2(%rdx), %r15
	movsbq	1(%rsi), %rcx
	testq	%rcx, %rcx
	js	.LBB43_211
	subq	%rcx, %r15
	jb	.LBB43_264
	cmpq	$2, %rcx
	jb	.LBB43_267
.LBB43_210:
	cmpb	$6, (%rax)
	je	.LBB43_222
	jmp	.LBB43_267
.LBB43_211:
	cmpb	$-126, %cl
	jne	.LBB43_216
	cmpq	$1, %r15
	movq	8(%rsp), %rcx
	jbe	.LBB43_265
	movzbl	2(%rsi), %eax
	testq	%rax, %rax
	je	.LBB43_265
	leaq	-4(%rdx), %r15
	shll	$8, %eax
	movzbl	3(%rsi), %ecx
	orq	%rax, %rcx
	subq	%rcx, %r15
	jb	.LBB43_264
	addq	$4, %rsi
	jmp	.LBB43_221
.LBB43_216:
	testq	%r15, %r15
	je	.LBB43_264
	cmpb	$-127, %cl
	jne	.LBB43_264
	movzbl	(%rax), %ecx
	testb	%cl, %cl
	jns	.LBB43_264
	leaq	-3(%rdx), %r15
	subq	%rcx, %r15
	jb	.LBB43_264
	addq	$3, %rsi
.LBB43_221:
	movq	%rsi, %rax
	cmpb	$6, (%rax)
	jne	.LBB43_267
.LBB43_222:
	leaq	2(%rax), %rsi
	leaq	-2(%rcx), %rdx
	movsbq	1(%rax), %rdi
	testq	%rdi, %rdi
	js	.LBB43_225
	subq	%rdi, %rdx
	jb	.LBB43_267
	movq	%r15, 120(%rsp)
	movq	%rsi, %r15
	addq	%rdi, %rsi
	jmp	.LBB43_269
.LBB43_225:
	cmpb	$-126, %dil
	jne	.LBB43_230
	cmpq	$1, %rdx
	jbe	.LBB43_267
	movzbl	2(%rax), %esi
	testq	%rsi, %rsi
	je	.LBB43_267
	leaq	-4(%rcx), %rdx
	shll	$8, %esi
	movzbl	3(%rax), %edi
	orq	%rsi, %rdi
	subq	%rdi, %rdx
	jb	.LBB43_267
	movq	%r15, 120(%rsp)
	addq	$4, %rax
	jmp	.LBB43_235
.LBB43_230:
	testq	%rdx, %rdx
	je	.LBB43_267
	cmpb	$-127, %dil
	jne	.LBB43_267
	movzbl	(%rsi), %edi
	testb	%dil, %dil
	jns	.LBB43_267
	leaq	-3(%rcx), %rdx
	subq	%rdi, %rdx
	jb	.LBB43_267
	movq	%r15, 120(%rsp)
	addq	$3, %rax
.LBB43_235:
	leaq	(%rax,%rdi), %rsi
	movq	%rax, %r15
	jmp	.LBB43_269
.LBB43_236:
	movb	$1, %r13b
	movb	$20, %r15b
.LBB43_237:
	movb	$1, %al
	testq	%rcx, %rcx
	je	.LBB43_239
.LBB43_238:
	movq	%r10, (%rbx)
	movw	%r11w, 8(%rbx)
	shrl	$16, %r11d
	movb	%r11b, 10(%rbx)
	movb	$0, 15(%rbx)
	movl	$0, 11(%rbx)
	movq	%r9, 16(%rbx)
	movq	%r8, 24(%rbx)
	movq	%r14, 32(%rbx)
	movq	%rdi, 40(%rbx)
	movq	128(%rsp), %rcx
	movw	%cx, 48(%rbx)
	shrl	$16, %ecx
	movb	%cl, 50(%rbx)
	movb	$0, 55(%rbx)
	movl	$0, 51(%rbx)
	movq	%rdx, 56(%rbx)
	movq	%rsi, 64(%rbx)
	movq	136(%rsp), %rcx
	movq	%rcx, 72(%rbx)
	movq	120(%rsp), %rcx
	movq	%rcx, 80(%rbx)
	movq	144(%rsp), %rcx
	movq	%rcx, 88(%rbx)
	movb	%r15b, 96(%rbx)
	movb	%al, 104(%rbx)
	movb	%r13b, 105(%rbx)
	jmp	.LBB43_635
.LBB43_239:
	xorl	%eax, %eax
	jmp	.LBB43_633
.LBB43_240:
	cmpb	$-126, %dl
	jne	.LBB43_310
	cmpq	$1, %rbp
	jbe	.LBB43_325
	movzbl	2(%rcx), %eax
	testq	%rax, %rax
	je	.LBB43_325
	leaq	-4(%r12), %rbp
	shll	$8, %eax
	movzbl	3(%rcx), %edx
	orq	%rax, %rdx
	subq	%rdx, %rbp
	jb	.LBB43_325
	addq	$4, %rcx
	jmp	.LBB43_315
.LBB43_245:
	cmpb	$-126, %dl
	jne	.LBB43_341
	cmpq	$1, %rax
	jbe	.LBB43_346
	movzbl	2(%rcx), %eax
	testq	%rax, %rax
	je	.LBB43_346
	leaq	-4(%r12), %rsi
	shll	$8, %eax
	movzbl	3(%rcx), %edx
	orq	%rax, %rdx
	movq	%rsi, %rax
	subq	%rdx, %rax
	jb	.LBB43_346
	addq	$4, %rcx
	movq	%rcx, %rsi
	jmp	.LBB43_178
.LBB43_250:
	movb	$1, %r13b
	movb	$20, %r15b
	cmpb	$-93, %al
	je	.LBB43_174
	jmp	.LBB43_543
.LBB43_251:
	cmpb	$-126, %al
	jne	.LBB43_348
	cmpq	$1, %rdi
	movq	8(%rsp), %rax
	jbe	.LBB43_567
	movzbl	(%rcx), %ecx
	testq	%rcx, %rcx
	je	.LBB43_567
	leaq	-4(%rdx), %rdi
	shll	$8, %ecx
	movzbl	3(%rsi), %eax
	orq	%rcx, %rax
	cmpq	%rdi, %rax
	ja	.LBB43_517
	addq	$4, %rsi
	movq	%rsi, %rcx
.LBB43_256:
	movq	%rbp, %rdi
	movzbl	(%rcx), %edx
	testb	%dl, %dl
	je	.LBB43_353
.LBB43_257:
	movl	$13, %esi
	js	.LBB43_409
	cmpq	$2, %rax
	movzbl	%dl, %eax
	movl	$2, %edx
	cmovbl	%eax, %edx
	jmp	.LBB43_523
.LBB43_259:
	cmpb	$-126, %dl
	jne	.LBB43_360
	cmpq	$1, %rbp
	jbe	.LBB43_376
	movzbl	2(%rcx), %eax
	testq	%rax, %rax
	je	.LBB43_376
	leaq	-4(%r12), %rbp
	shll	$8, %eax
	movzbl	3(%rcx), %edx
	orq	%rax, %rdx
	subq	%rdx, %rbp
	jb	.LBB43_376
	leaq	4(%rcx), %rsi
	jmp	.LBB43_365
.LBB43_264:
	movq	8(%rsp), %rcx
.LBB43_265:
	movq	%rcx, 8(%rsp)
	movq	%r14, %rbx
	movq	%r11, %r15
	movq	%r10, %r14
	leaq	32(%rsp), %rdi
	movl	$48, %ecx
	callq	_RNvNtNtNtCs00000000000_7pkcs1_c6proved8der_core5split14split_unlikely
	movq	32(%rsp), %rax
	testq	%rax, %rax
	je	.LBB43_306
	movq	40(%rsp), %rcx
	movq	56(%rsp), %rdx
	movq	%r14, %r10
	movq	%r15, %r11
	movq	%rdx, %r15
	movq	%rbx, %r14
	cmpq	$2, %rcx
	jae	.LBB43_210
.LBB43_267:
	movq	%r15, 120(%rsp)
	movq	%r14, 96(%rsp)
	movq	%r11, %rbx
	movq	%r10, %r14
	leaq	32(%rsp), %rdi
	movq	%rax, %rsi
	movq	%rcx, %rdx
	movl	$6, %ecx
	callq	_RNvNtNtNtCs00000000000_7pkcs1_c6proved8der_core5split14split_unlikely
	movq	32(%rsp), %r15
	testq	%r15, %r15
	je	.LBB43_308
	movq	40(%rsp), %rdi
	movq	48(%rsp), %rsi
	movq	56(%rsp), %rdx
	movq	%r14, %r10
	movq	%rbx, %r11
	movq	96(%rsp), %r14
.LBB43_269:
	movq	%rdi, 128(%rsp)
	decq	%rdi
	movl	$5, %eax
	cmpq	$38, %rdi
	ja	.LBB43_305
	movq	%r14, 96(%rsp)
	movq	%r11, 112(%rsp)
	movq	%r10, 72(%rsp)
	movzbl	(%r15,%rdi), %ecx
	testb	%cl, %cl
	js	.LBB43_283
	movdqa	.LCPI43_1(%rip), %xmm0
	movdqa	.LCPI43_0(%rip), %xmm1
	xorl	%r8d, %r8d
	movq	%r15, %r9
	jmp	.LBB43_275
	.p2align	4, 0x90
.LBB43_272:
	movd	(%r9), %xmm2
	punpcklbw	%xmm2, %xmm2
	punpcklwd	%xmm2, %xmm2
	pcmpeqb	%xmm1, %xmm2
	movmskps	%xmm2, %r10d
	testl	%r10d, %r10d
	jne	.LBB43_282
	movl	$4, %r10d
	movq	$-4, %r11
.LBB43_274:
	addq	%r11, %rdi
	addq	%r10, %r9
.LBB43_275:
	cmpq	$7, %rdi
	jbe	.LBB43_278
	movq	(%r9), %xmm2
	pcmpeqb	%xmm0, %xmm2
	pmovmskb	%xmm2, %r10d
	testb	%r10b, %r10b
	jne	.LBB43_282
	movl	$8, %r10d
	movq	$-8, %r11
	jmp	.LBB43_274
	.p2align	4, 0x90
.LBB43_278:
	cmpq	$3, %rdi
	ja	.LBB43_272
	testq	%rdi, %rdi
	je	.LBB43_286
	cmpb	(%r9), %r8b
	jo	.LBB43_282
	movl	$1, %r10d
	movq	$-1, %r11
	jmp	.LBB43_274
.LBB43_282:
	cmpq	$0, 128(%rsp)
	je	.LBB43_286
.LBB43_283:
	xorl	%edi, %edi
	cmpb	(%r15), %dil
	jo	.LBB43_305
	cmpq	$1, 128(%rsp)
	jne	.LBB43_300
.LBB43_285:
	testb	%cl, %cl
	js	.LBB43_305
.LBB43_286:
	testq	%rdx, %rdx
	je	.LBB43_296
	cmpq	$1, %rdx
	je	.LBB43_291
	cmpb	$48, (%rsi)
	jne	.LBB43_291
	leaq	2(%rsi), %rcx
	leaq	-2(%rdx), %r8
	movsbq	1(%rsi), %rax
	testq	%rax, %rax
	js	.LBB43_366
	subq	%rax, %r8
	jae	.LBB43_293
	jmp	.LBB43_291
.LBB43_296:
	cmpq	$0, 120(%rsp)
	movq	72(%rsp), %r10
	movq	80(%rsp), %r8
	movq	64(%rsp), %r9
	movq	8(%rsp), %rcx
	je	.LBB43_410
.LBB43_297:
	movb	$12, %al
	jmp	.LBB43_298
.LBB43_300:
	movq	128(%rsp), %rdi
	leaq	-1(%rdi), %r8
	xorl	%r9d, %r9d
	xorl	%edi, %edi
	jmp	.LBB43_302
	.p2align	4, 0x90
.LBB43_301:
	incq	%rdi
	cmpq	%rdi, %r8
	je	.LBB43_285
.LBB43_302:
	cmpb	1(%r15,%rdi), %r9b
	jno	.LBB43_301
	cmpq	128(%rsp), %rdi
	jae	.LBB43_641
	cmpb	$0, (%r15,%rdi)
	js	.LBB43_301
	jmp	.LBB43_305
.LBB43_306:
	movzbl	42(%rsp), %ecx
	shll	$16, %ecx
	movzwl	40(%rsp), %eax
	orl	%eax, %ecx
	jmp	.LBB43_307
.LBB43_308:
	movzwl	40(%rsp), %ecx
	movzbl	42(%rsp), %eax
	shll	$16, %eax
	jmp	.LBB43_309
.LBB43_310:
	testq	%rbp, %rbp
	je	.LBB43_325
	cmpb	$-127, %dl
	jne	.LBB43_325
	movzbl	(%rsi), %edx
	testb	%dl, %dl
	jns	.LBB43_325
	leaq	-3(%r12), %rbp
	subq	%rdx, %rbp
	jb	.LBB43_325
	addq	$3, %rcx
.LBB43_315:
	movq	%rcx, %rsi
	addq	%rdx, %rcx
	cmpb	$2, (%rsi)
	jne	.LBB43_147
.LBB43_316:
	leaq	2(%rsi), %r9
	leaq	-2(%rdx), %rdi
	movsbq	1(%rsi), %r8
	testq	%r8, %r8
	js	.LBB43_319
	subq	%r8, %rdi
	jb	.LBB43_147
	movq	%rcx, 8(%rsp)
	jmp	.LBB43_333
.LBB43_319:
	cmpb	$-126, %r8b
	jne	.LBB43_327
	cmpq	$1, %rdi
	jbe	.LBB43_147
	movzbl	2(%rsi), %eax
	testq	%rax, %rax
	je	.LBB43_147
	leaq	-4(%rdx), %rdi
	shll	$8, %eax
	movzbl	3(%rsi), %r8d
	orq	%rax, %r8
	subq	%r8, %rdi
	jb	.LBB43_147
	movq	%rcx, 8(%rsp)
	addq	$4, %rsi
	jmp	.LBB43_332
.LBB43_324:
	movzbl	42(%rsp), %ecx
	shll	$16, %ecx
	movzwl	40(%rsp), %eax
	orl	%ecx, %eax
	jmp	.LBB43_299
.LBB43_325:
	movq	%rbx, 24(%rsp)
	movq	%r14, 96(%rsp)
	movq	%r11, %rbx
	movq	%r10, %r14
	leaq	32(%rsp), %rdi
	movq	%rcx, %rsi
	movq	%r12, %rdx
	movl	$162, %ecx
	callq	_RNvNtNtNtCs00000000000_7pkcs1_c6proved8der_core5split14split_unlikely
	movq	32(%rsp), %rsi
	testq	%rsi, %rsi
	je	.LBB43_408
	movq	40(%rsp), %rdx
	movq	48(%rsp), %rcx
	movq	56(%rsp), %rbp
	movq	%r14, %r10
	movq	%rbx, %r11
	movq	96(%rsp), %r14
	movq	24(%rsp), %rbx
	cmpq	$2, %rdx
	jae	.LBB43_146
	jmp	.LBB43_147
.LBB43_327:
	testq	%rdi, %rdi
	je	.LBB43_147
	cmpb	$-127, %r8b
	jne	.LBB43_147
	movzbl	(%r9), %r8d
	testb	%r8b, %r8b
	jns	.LBB43_147
	leaq	-3(%rdx), %rdi
	subq	%r8, %rdi
	jb	.LBB43_147
	movq	%rcx, 8(%rsp)
	addq	$3, %rsi
.LBB43_332:
	movq	%rsi, %r9
	jmp	.LBB43_333
.LBB43_147:
	movq	%rcx, 8(%rsp)
	movq	%r14, 96(%rsp)
	movq	%r11, 112(%rsp)
	movq	%r10, %r12
	leaq	32(%rsp), %rdi
	movl	$2, %ecx
	callq	_RNvNtNtNtCs00000000000_7pkcs1_c6proved8der_core5split14split_unlikely
	movq	32(%rsp), %r9
	testq	%r9, %r9
	je	.LBB43_412
	movq	40(%rsp), %r8
	movq	56(%rsp), %rdi
	movq	%r12, %r10
	movq	112(%rsp), %r11
	movq	96(%rsp), %r14
.LBB43_333:
	movq	%r13, %rdx
	movq	%r15, %rsi
	movb	$2, %cl
	testq	%r8, %r8
	je	.LBB43_576
	cmpq	$1, %r8
	jne	.LBB43_338
	movzbl	(%r9), %r15d
	testb	%r15b, %r15b
	js	.LBB43_407
.LBB43_336:
	xorl	%r13d, %r13d
	testq	%rdi, %rdi
	je	.LBB43_411
	movb	$12, %al
	jmp	.LBB43_403
.LBB43_338:
	movb	$13, %al
	cmpb	$0, (%r9)
	jne	.LBB43_577
	movzbl	1(%r9), %r15d
	testb	%r15b, %r15b
	jns	.LBB43_406
	addq	$-3, %r8
	cmpq	$-2, %r8
	jae	.LBB43_336
	jmp	.LBB43_577
.LBB43_341:
	testq	%rax, %rax
	je	.LBB43_346
	cmpb	$-127, %dl
	jne	.LBB43_346
	movzbl	(%rsi), %edx
	testb	%dl, %dl
	jns	.LBB43_346
	leaq	-3(%r12), %rax
	subq	%rdx, %rax
	jb	.LBB43_346
	addq	$3, %rcx
	movq	%rcx, %rsi
	jmp	.LBB43_178
.LBB43_346:
	movq	%rdi, 88(%rsp)
	movq	%r9, 64(%rsp)
	movq	%r8, 80(%rsp)
	movq	%rbx, 24(%rsp)
	movq	%r14, %rbx
	movq	%r11, %rbp
	movq	%r10, %r14
	leaq	32(%rsp), %rdi
	movq	%rcx, %rsi
	movq	%r12, %rdx
	movl	$163, %ecx
	callq	_RNvNtNtNtCs00000000000_7pkcs1_c6proved8der_core5split14split_unlikely
	movq	32(%rsp), %rsi
	testq	%rsi, %rsi
	je	.LBB43_441
	movq	40(%rsp), %rdx
	movq	56(%rsp), %rax
	movq	%r14, %r10
	movq	%rbp, %r11
	movq	%rbx, %r14
	movq	24(%rsp), %rbx
	movq	80(%rsp), %r8
	movq	64(%rsp), %r9
	movq	88(%rsp), %rdi
	cmpq	$2, %rdx
	jae	.LBB43_178
	jmp	.LBB43_519
.LBB43_348:
	testq	%rdi, %rdi
	je	.LBB43_517
	cmpb	$-127, %al
	movq	%rbp, %rdi
	jne	.LBB43_518
	movzbl	2(%rsi), %eax
	testb	%al, %al
	jns	.LBB43_518
	leaq	-3(%rdx), %rcx
	cmpq	%rax, %rcx
	jb	.LBB43_518
	addq	$3, %rsi
	movq	%rsi, %rcx
	movzbl	(%rcx), %edx
	testb	%dl, %dl
	jne	.LBB43_257
.LBB43_353:
	movzbl	1(%rcx), %ecx
	testb	%cl, %cl
	js	.LBB43_421
	movl	$4, %esi
	movb	$2, %dl
	jmp	.LBB43_523
.LBB43_355:
	cmpb	$-126, %dl
	jne	.LBB43_416
	cmpq	$1, %rax
	jbe	.LBB43_439
	movzbl	2(%r13), %eax
	testq	%rax, %rax
	je	.LBB43_439
	leaq	-4(%rbp), %rcx
	shll	$8, %eax
	movzbl	3(%r13), %edx
	orq	%rax, %rdx
	movq	%rcx, %rax
	subq	%rdx, %rax
	jb	.LBB43_439
	leaq	4(%r13), %rsi
	jmp	.LBB43_193
.LBB43_360:
	testq	%rbp, %rbp
	je	.LBB43_376
	cmpb	$-127, %dl
	jne	.LBB43_376
	movzbl	(%rsi), %edx
	testb	%dl, %dl
	jns	.LBB43_376
	leaq	-3(%r12), %rbp
	subq	%rdx, %rbp
	jb	.LBB43_376
	leaq	3(%rcx), %rsi
.LBB43_365:
	leaq	(%rsi,%rdx), %rax
	movq	%rax, 104(%rsp)
	jmp	.LBB43_378
.LBB43_366:
	cmpb	$-126, %al
	jne	.LBB43_424
	cmpq	$1, %r8
	jbe	.LBB43_291
	movzbl	2(%rsi), %ecx
	testq	%rcx, %rcx
	je	.LBB43_291
	leaq	-4(%rdx), %r8
	shll	$8, %ecx
	movzbl	3(%rsi), %eax
	orq	%rcx, %rax
	subq	%rax, %r8
	jb	.LBB43_291
	addq	$4, %rsi
	jmp	.LBB43_429
.LBB43_371:
	cmpb	$-126, %al
	jne	.LBB43_442
	cmpq	$1, %r12
	movq	8(%rsp), %rax
	jbe	.LBB43_532
	movzbl	2(%rsi), %ecx
	testq	%rcx, %rcx
	je	.LBB43_532
	leaq	-4(%rdx), %r12
	shll	$8, %ecx
	movzbl	3(%rsi), %eax
	orq	%rcx, %rax
	subq	%rax, %r12
	jb	.LBB43_531
	movq	%r13, 104(%rsp)
	movq	%r8, %rbp
	movq	%rbx, 24(%rsp)
	movq	%r14, %rbx
	movq	%r11, %r13
	movq	%r10, %r14
	addq	$4, %rsi
	movq	%rsi, %rdi
	jmp	.LBB43_535
.LBB43_376:
	movq	%rbx, 24(%rsp)
	movq	%r14, 96(%rsp)
	movq	%r11, %rbx
	movq	%r10, %r14
	leaq	32(%rsp), %rdi
	movq	%rcx, %r15
	movq	%rcx, %rsi
	movq	%r12, %rdx
	movl	$162, %ecx
	callq	_RNvNtNtNtCs00000000000_7pkcs1_c6proved8der_core5split14split_unlikely
	movq	32(%rsp), %rsi
	testq	%rsi, %rsi
	je	.LBB43_408
	movq	40(%rsp), %rdx
	movq	48(%rsp), %rax
	movq	%rax, 104(%rsp)
	movq	56(%rsp), %rbp
	movq	%r14, %r10
	movq	%rbx, %r11
	movq	96(%rsp), %r14
	movq	24(%rsp), %rbx
	movq	%r15, %rcx
	cmpq	$2, %rdx
	jb	.LBB43_163
.LBB43_378:
	cmpb	$2, (%rsi)
	jne	.LBB43_163
	leaq	2(%rsi), %r9
	leaq	-2(%rdx), %rdi
	movsbq	1(%rsi), %r8
	testq	%r8, %r8
	js	.LBB43_382
	subq	%r8, %rdi
	jb	.LBB43_163
	movq	%rcx, %r12
	jmp	.LBB43_398
.LBB43_382:
	cmpb	$-126, %r8b
	jne	.LBB43_392
	cmpq	$1, %rdi
	jbe	.LBB43_163
	movzbl	2(%rsi), %eax
	testq	%rax, %rax
	je	.LBB43_163
	leaq	-4(%rdx), %rdi
	shll	$8, %eax
	movzbl	3(%rsi), %r8d
	orq	%rax, %r8
	subq	%r8, %rdi
	jb	.LBB43_163
	movq	%rcx, %r12
	addq	$4, %rsi
	jmp	.LBB43_397
.LBB43_387:
	cmpb	$-126, %dl
	jne	.LBB43_474
	cmpq	$1, %rbp
	jbe	.LBB43_482
	movzbl	2(%rcx), %eax
	testq	%rax, %rax
	je	.LBB43_482
	leaq	-4(%r12), %rbp
	shll	$8, %eax
	movzbl	3(%rcx), %edx
	orq	%rax, %rdx
	subq	%rdx, %rbp
	jb	.LBB43_482
	addq	$4, %rcx
	jmp	.LBB43_479
.LBB43_392:
	testq	%rdi, %rdi
	je	.LBB43_163
	cmpb	$-127, %r8b
	jne	.LBB43_163
	movzbl	(%r9), %r8d
	testb	%r8b, %r8b
	jns	.LBB43_163
	leaq	-3(%rdx), %rdi
	subq	%r8, %rdi
	jb	.LBB43_163
	movq	%rcx, %r12
	addq	$3, %rsi
.LBB43_397:
	movq	%rsi, %r9
	jmp	.LBB43_398
.LBB43_163:
	movq	%rcx, %r12
	movq	%r14, 96(%rsp)
	movq	%rbx, 24(%rsp)
	movq	%r11, %rbx
	movq	%r10, %r15
	leaq	32(%rsp), %rdi
	movl	$2, %ecx
	callq	_RNvNtNtNtCs00000000000_7pkcs1_c6proved8der_core5split14split_unlikely
	movq	32(%rsp), %r9
	testq	%r9, %r9
	je	.LBB43_501
	movq	40(%rsp), %r8
	movq	56(%rsp), %rdi
	movq	%r15, %r10
	movq	%rbx, %r11
	movq	96(%rsp), %r14
	movq	24(%rsp), %rbx
.LBB43_398:
	movq	72(%rsp), %rdx
	movq	16(%rsp), %rsi
	movb	$2, %cl
	testq	%r8, %r8
	je	.LBB43_576
	cmpq	$1, %r8
	jne	.LBB43_404
	movzbl	(%r9), %r15d
	testb	%r15b, %r15b
	js	.LBB43_407
.LBB43_401:
	testq	%rdi, %rdi
	je	.LBB43_481
	movb	$12, %al
	xorl	%r13d, %r13d
.LBB43_403:
	movl	%r15d, %ecx
	jmp	.LBB43_578
.LBB43_576:
	movb	$3, %al
	jmp	.LBB43_577
.LBB43_404:
	movb	$13, %al
	cmpb	$0, (%r9)
	jne	.LBB43_577
	movzbl	1(%r9), %r15d
	testb	%r15b, %r15b
	js	.LBB43_530
.LBB43_406:
	movb	$4, %al
	jmp	.LBB43_577
.LBB43_407:
	movb	$13, %al
	jmp	.LBB43_577
.LBB43_408:
	movzbl	42(%rsp), %r13d
	movzwl	40(%rsp), %eax
	movl	%eax, %ecx
	shrl	$8, %ecx
	movq	24(%rsp), %rbx
	jmp	.LBB43_578
.LBB43_409:
	movb	$2, %dl
	jmp	.LBB43_523
.LBB43_410:
	movq	%r15, %rdi
	xorl	%edx, %edx
	xorl	%eax, %eax
	movq	112(%rsp), %r11
	movq	96(%rsp), %r14
	movq	24(%rsp), %rbx
	jmp	.LBB43_139
.LBB43_411:
	movq	%rbp, %r12
	jmp	.LBB43_414
.LBB43_412:
	movzwl	40(%rsp), %eax
	movl	%eax, %ecx
	shrl	$8, %ecx
	cmpb	$17, %al
	jne	.LBB43_582
	movq	%r12, %r10
	movq	%r13, %rdx
	movq	%r15, %rsi
	xorl	%r13d, %r13d
	movl	%ecx, %r15d
	movq	%rbp, %r12
	movq	112(%rsp), %r11
	movq	96(%rsp), %r14
.LBB43_414:
	movq	80(%rsp), %r8
	movq	64(%rsp), %r9
	movq	88(%rsp), %rdi
	movq	8(%rsp), %rcx
	jmp	.LBB43_172
.LBB43_415:
	movl	$13, %esi
	jmp	.LBB43_522
.LBB43_416:
	testq	%rax, %rax
	je	.LBB43_439
	cmpb	$-127, %dl
	jne	.LBB43_439
	movzbl	(%rsi), %edx
	testb	%dl, %dl
	jns	.LBB43_439
	leaq	-3(%rbp), %rax
	subq	%rdx, %rax
	jb	.LBB43_439
	leaq	3(%r13), %rsi
	jmp	.LBB43_193
.LBB43_421:
	addq	$-3, %rax
	movzbl	%cl, %ecx
	movl	$2, %edx
	cmpq	$-2, %rax
	cmovael	%ecx, %edx
	jae	.LBB43_423
	movl	$13, %esi
	jmp	.LBB43_523
.LBB43_423:
	movl	$512, %edx
	movl	$525, %ecx
	jmp	.LBB43_526
.LBB43_424:
	testq	%r8, %r8
	je	.LBB43_291
	cmpb	$-127, %al
	jne	.LBB43_291
	movzbl	(%rcx), %eax
	testb	%al, %al
	jns	.LBB43_291
	leaq	-3(%rdx), %r8
	subq	%rax, %r8
	jb	.LBB43_291
	addq	$3, %rsi
.LBB43_429:
	movq	%rsi, %rcx
	jmp	.LBB43_430
.LBB43_291:
	leaq	32(%rsp), %rdi
	movl	$48, %ecx
	callq	_RNvNtNtNtCs00000000000_7pkcs1_c6proved8der_core5split14split_unlikely
	movq	32(%rsp), %rcx
	testq	%rcx, %rcx
	je	.LBB43_480
	movq	40(%rsp), %rax
	movq	56(%rsp), %r8
.LBB43_293:
	cmpq	$2, %rax
	jb	.LBB43_294
.LBB43_430:
	cmpb	$6, (%rcx)
	jne	.LBB43_294
	leaq	2(%rcx), %rbx
	leaq	-2(%rax), %rdx
	movsbq	1(%rcx), %rsi
	testq	%rsi, %rsi
	js	.LBB43_434
	subq	%rsi, %rdx
	jb	.LBB43_294
	movq	%rsi, %rax
	addq	%rbx, %rsi
	jmp	.LBB43_453
.LBB43_434:
	cmpb	$-126, %sil
	jne	.LBB43_447
	cmpq	$1, %rdx
	jbe	.LBB43_294
	movzbl	2(%rcx), %esi
	testq	%rsi, %rsi
	je	.LBB43_294
	leaq	-4(%rax), %rdx
	shll	$8, %esi
	movzbl	3(%rcx), %edi
	orq	%rsi, %rdi
	subq	%rdi, %rdx
	jb	.LBB43_294
	movq	%rdi, %rsi
	addq	$4, %rcx
	jmp	.LBB43_452
.LBB43_439:
	movq	%r8, 80(%rsp)
	movq	%r13, %rsi
	movq	%rbx, 24(%rsp)
	movq	%r14, %rbx
	movq	%r11, %r12
	movq	%r10, %r14
	leaq	32(%rsp), %rdi
	movq	%rbp, %rdx
	movl	$163, %ecx
	callq	_RNvNtNtNtCs00000000000_7pkcs1_c6proved8der_core5split14split_unlikely
	movq	32(%rsp), %rsi
	testq	%rsi, %rsi
	je	.LBB43_441
	movq	40(%rsp), %rdx
	movq	56(%rsp), %rax
	movq	%r14, %r10
	movq	%r12, %r11
	movq	%rbx, %r14
	movq	24(%rsp), %rbx
	movq	80(%rsp), %r8
	movq	64(%rsp), %r9
	cmpq	$2, %rdx
	jae	.LBB43_193
	jmp	.LBB43_532
.LBB43_441:
	movzwl	40(%rsp), %ecx
	movzbl	42(%rsp), %eax
	shll	$16, %eax
	orq	%rcx, %rax
	movq	24(%rsp), %rbx
	jmp	.LBB43_633
.LBB43_442:
	testq	%r12, %r12
	je	.LBB43_531
	cmpb	$-127, %al
	jne	.LBB43_531
	movzbl	(%rdi), %eax
	testb	%al, %al
	jns	.LBB43_531
	leaq	-3(%rdx), %r12
	subq	%rax, %r12
	jb	.LBB43_531
	movq	%r13, 104(%rsp)
	movq	%r8, %rbp
	movq	%rbx, 24(%rsp)
	movq	%r14, %rbx
	movq	%r11, %r13
	movq	%r10, %r14
	addq	$3, %rsi
	movq	%rsi, %rdi
	jmp	.LBB43_535
.LBB43_447:
	testq	%rdx, %rdx
	je	.LBB43_294
	cmpb	$-127, %sil
	jne	.LBB43_294
	movzbl	(%rbx), %esi
	testb	%sil, %sil
	jns	.LBB43_294
	leaq	-3(%rax), %rdx
	subq	%rsi, %rdx
	jb	.LBB43_294
	addq	$3, %rcx
.LBB43_452:
	movq	%rsi, %rax
	addq	%rcx, %rsi
	movq	%rcx, %rbx
	jmp	.LBB43_453
.LBB43_294:
	movq	%r8, %r14
	leaq	32(%rsp), %rdi
	movq	%rcx, %rsi
	movq	%rax, %rdx
	movl	$6, %ecx
	callq	_RNvNtNtNtCs00000000000_7pkcs1_c6proved8der_core5split14split_unlikely
	movq	32(%rsp), %rbx
	testq	%rbx, %rbx
	je	.LBB43_480
	movq	40(%rsp), %rax
	movq	48(%rsp), %rsi
	movq	56(%rsp), %rdx
	movq	%r14, %r8
.LBB43_453:
	movq	%rax, %r14
	leaq	-1(%rax), %rdi
	movl	$5, %eax
	cmpq	$38, %rdi
	ja	.LBB43_595
	movq	%r8, 88(%rsp)
	movzbl	(%rbx,%rdi), %ecx
	testb	%cl, %cl
	js	.LBB43_467
	movdqa	.LCPI43_1(%rip), %xmm0
	movdqa	.LCPI43_0(%rip), %xmm1
	xorl	%r8d, %r8d
	movq	%rbx, %r9
	jmp	.LBB43_458
.LBB43_456:
	movl	$1, %r10d
	movq	$-1, %r11
.LBB43_457:
	addq	%r11, %rdi
	addq	%r10, %r9
.LBB43_458:
	cmpq	$7, %rdi
	jbe	.LBB43_461
	movq	(%r9), %xmm2
	pcmpeqb	%xmm0, %xmm2
	pmovmskb	%xmm2, %r10d
	testb	%r10b, %r10b
	jne	.LBB43_466
	movl	$8, %r10d
	movq	$-8, %r11
	jmp	.LBB43_457
.LBB43_461:
	cmpq	$3, %rdi
	jbe	.LBB43_464
	movd	(%r9), %xmm2
	punpcklbw	%xmm2, %xmm2
	punpcklwd	%xmm2, %xmm2
	pcmpeqb	%xmm1, %xmm2
	movmskps	%xmm2, %r10d
	testl	%r10d, %r10d
	jne	.LBB43_466
	movl	$4, %r10d
	movq	$-4, %r11
	jmp	.LBB43_457
.LBB43_464:
	testq	%rdi, %rdi
	je	.LBB43_470
	cmpb	(%r9), %r8b
	jno	.LBB43_456
.LBB43_466:
	testq	%r14, %r14
	je	.LBB43_470
.LBB43_467:
	xorl	%edi, %edi
	cmpb	(%rbx), %dil
	jo	.LBB43_595
	cmpq	$1, %r14
	jne	.LBB43_544
.LBB43_469:
	testb	%cl, %cl
	js	.LBB43_595
.LBB43_470:
	testq	%rdx, %rdx
	je	.LBB43_601
	movzbl	(%rsi), %ecx
	movl	%ecx, %eax
	notb	%al
	testb	$31, %al
	sete	%al
	testb	$-33, %cl
	sete	%dil
	orb	%al, %dil
	je	.LBB43_552
	movl	$11, %edx
	xorl	%eax, %eax
.LBB43_473:
	movzbl	%cl, %ecx
	orl	%ecx, %eax
	shll	$8, %eax
	orq	%rdx, %rax
	jmp	.LBB43_595
.LBB43_474:
	testq	%rbp, %rbp
	je	.LBB43_482
	cmpb	$-127, %dl
	jne	.LBB43_482
	movzbl	(%rsi), %edx
	testb	%dl, %dl
	jns	.LBB43_482
	leaq	-3(%r12), %rbp
	subq	%rdx, %rbp
	jb	.LBB43_482
	addq	$3, %rcx
.LBB43_479:
	movq	%rcx, %rsi
	addq	%rdx, %rcx
	jmp	.LBB43_484
.LBB43_480:
	movzwl	40(%rsp), %ecx
	movzbl	42(%rsp), %eax
	shll	$16, %eax
	orq	%rcx, %rax
	jmp	.LBB43_595
.LBB43_481:
	movq	80(%rsp), %r8
	movq	64(%rsp), %r9
	movq	88(%rsp), %rdi
	jmp	.LBB43_503
.LBB43_482:
	movq	%r9, 64(%rsp)
	movq	%r8, %r13
	movq	%rbx, %rbp
	movq	%r14, %rbx
	movq	%r11, %r15
	movq	%r10, %r14
	leaq	32(%rsp), %rdi
	movq	%rcx, %rsi
	movq	%r12, %rdx
	movl	$162, %ecx
	callq	_RNvNtNtNtCs00000000000_7pkcs1_c6proved8der_core5split14split_unlikely
	movq	32(%rsp), %rsi
	testq	%rsi, %rsi
	je	.LBB43_558
	movq	40(%rsp), %rdx
	movq	48(%rsp), %rcx
	movq	56(%rsp), %rax
	movq	%r14, %r10
	movq	%r15, %r11
	movq	%rbx, %r14
	movq	%rbp, %rbx
	movq	%rax, %rbp
	movq	%r13, %r8
	movq	64(%rsp), %r9
	cmpq	$2, %rdx
	jb	.LBB43_569
.LBB43_484:
	cmpb	$2, (%rsi)
	jne	.LBB43_569
	leaq	2(%rsi), %rdi
	leaq	-2(%rdx), %r12
	movsbq	1(%rsi), %rax
	testq	%rax, %rax
	js	.LBB43_490
	subq	%rax, %r12
	jb	.LBB43_569
	cmpq	$1, %rax
	jne	.LBB43_571
.LBB43_488:
	movzbl	(%rdi), %r15d
	testb	%r15b, %r15b
	movq	72(%rsp), %rdx
	movq	16(%rsp), %rsi
	jns	.LBB43_574
	movb	$13, %al
	movb	$2, %cl
	jmp	.LBB43_577
.LBB43_490:
	cmpb	$-126, %al
	jne	.LBB43_495
	cmpq	$1, %r12
	jbe	.LBB43_569
	movq	%rcx, 8(%rsp)
	movzbl	2(%rsi), %ecx
	testq	%rcx, %rcx
	je	.LBB43_568
	leaq	-4(%rdx), %r12
	shll	$8, %ecx
	movzbl	3(%rsi), %eax
	orq	%rcx, %rax
	subq	%rax, %r12
	jb	.LBB43_568
	movq	%rbp, 104(%rsp)
	movq	%r9, 64(%rsp)
	movq	%r8, 80(%rsp)
	movq	%r14, %rbp
	movq	%r11, %r13
	movq	%r10, %r14
	addq	$4, %rsi
	jmp	.LBB43_500
.LBB43_495:
	testq	%r12, %r12
	je	.LBB43_569
	cmpb	$-127, %al
	jne	.LBB43_569
	movzbl	(%rdi), %eax
	testb	%al, %al
	jns	.LBB43_569
	leaq	-3(%rdx), %r12
	subq	%rax, %r12
	jb	.LBB43_569
	movq	%rbp, 104(%rsp)
	movq	%rcx, 8(%rsp)
	movq	%r9, 64(%rsp)
	movq	%r8, 80(%rsp)
	movq	%r14, %rbp
	movq	%r11, %r13
	movq	%r10, %r14
	addq	$3, %rsi
.LBB43_500:
	movq	%rsi, %rdi
	jmp	.LBB43_572
.LBB43_501:
	movzwl	40(%rsp), %eax
	movl	%eax, %ecx
	shrl	$8, %ecx
	cmpb	$17, %al
	movq	80(%rsp), %r8
	movq	64(%rsp), %r9
	movq	88(%rsp), %rdi
	movq	72(%rsp), %rdx
	movq	16(%rsp), %rsi
	jne	.LBB43_551
	movq	%r15, %r10
	movl	%ecx, %r15d
	movq	%rbx, %r11
	movq	96(%rsp), %r14
	movq	24(%rsp), %rbx
.LBB43_503:
	cmpb	$-94, (%r12)
	jne	.LBB43_528
	cmpb	$20, %r15b
	jne	.LBB43_528
	testq	%rbp, %rbp
	je	.LBB43_561
	movq	104(%rsp), %r15
	cmpb	$-93, (%r15)
	jne	.LBB43_543
	cmpq	$1, %rbp
	je	.LBB43_612
	leaq	2(%r15), %rsi
	leaq	-2(%rbp), %rax
	movsbq	1(%r15), %rdx
	testq	%rdx, %rdx
	js	.LBB43_583
	subq	%rdx, %rax
	jb	.LBB43_612
	cmpq	$2, %rdx
	jb	.LBB43_625
.LBB43_511:
	movq	%rax, 8(%rsp)
	cmpb	$2, (%rsi)
	jne	.LBB43_624
	leaq	2(%rsi), %rdi
	leaq	-2(%rdx), %r15
	movsbq	1(%rsi), %rax
	testq	%rax, %rax
	js	.LBB43_596
	subq	%rax, %r15
	jb	.LBB43_624
	cmpq	$1, %rax
	jne	.LBB43_627
.LBB43_515:
	movzbl	(%rdi), %ecx
	testb	%cl, %cl
	movq	72(%rsp), %rdx
	movq	16(%rsp), %rsi
	js	.LBB43_636
	movq	88(%rsp), %rdi
	jmp	.LBB43_629
.LBB43_539:
	movb	$13, %al
	movb	$2, %cl
	movq	88(%rsp), %rdi
	jmp	.LBB43_540
.LBB43_517:
	movq	%rbp, %rdi
.LBB43_518:
	movq	8(%rsp), %rax
	jmp	.LBB43_519
.LBB43_528:
	testq	%rbp, %rbp
	je	.LBB43_560
	movq	104(%rsp), %r13
	movzbl	(%r13), %eax
	cmpb	$-93, %al
	je	.LBB43_189
	jmp	.LBB43_543
.LBB43_530:
	addq	$-3, %r8
	cmpq	$-2, %r8
	jae	.LBB43_401
	jmp	.LBB43_577
.LBB43_601:
	movq	$0, 136(%rsp)
	jmp	.LBB43_602
.LBB43_531:
	movq	8(%rsp), %rax
.LBB43_532:
	movq	%r13, 104(%rsp)
	movq	%rax, 8(%rsp)
	movq	%r8, 80(%rsp)
	movq	%rbx, %rbp
	movq	%r14, %rbx
	movq	%r11, %r13
	movq	%r10, %r14
	leaq	32(%rsp), %rdi
	movl	$2, %ecx
	callq	_RNvNtNtNtCs00000000000_7pkcs1_c6proved8der_core5split14split_unlikely
	movq	32(%rsp), %rdi
	testq	%rdi, %rdi
	je	.LBB43_549
	movq	40(%rsp), %rax
	movq	56(%rsp), %r12
	movq	%r14, %r10
	movq	%r13, %r11
	movq	%rbx, %r14
	movq	%rbp, %rbx
	movq	80(%rsp), %r8
	movq	64(%rsp), %r9
	movq	72(%rsp), %rdx
	movq	16(%rsp), %rsi
	movq	104(%rsp), %r13
	cmpq	$1, %rax
	je	.LBB43_197
.LBB43_534:
	movq	%r13, 104(%rsp)
	movq	%r8, %rbp
	movq	%rbx, 24(%rsp)
	movq	%r14, %rbx
	movq	%r11, %r13
	movq	%r10, %r14
.LBB43_535:
	movq	%rax, %rsi
	callq	_RNvNtNtNtNtCs00000000000_7pkcs1_c6proved8der_core7integer5small5small
	movl	%eax, %ecx
	shrl	$8, %ecx
	cmpb	$17, %al
	movq	%r14, %r10
	movq	%r13, %r11
	movq	%rbx, %r14
	movq	24(%rsp), %rbx
	movq	%rbp, %r8
	movq	64(%rsp), %r9
	movq	88(%rsp), %rdi
	movq	72(%rsp), %rdx
	movq	16(%rsp), %rsi
	movq	104(%rsp), %r13
	jne	.LBB43_540
.LBB43_536:
	cmpb	$1, %cl
	jne	.LBB43_631
	testq	%r12, %r12
	je	.LBB43_541
.LBB43_538:
	movl	$12, %eax
	xorl	%ecx, %ecx
	jmp	.LBB43_632
.LBB43_540:
	movzbl	%cl, %ecx
	shll	$8, %ecx
	movzbl	%al, %eax
	orq	%rcx, %rax
	cmpb	$17, %al
	jne	.LBB43_550
.LBB43_541:
	cmpb	$-93, (%r13)
	sete	%al
	movb	$3, %r13b
	cmpq	$0, 8(%rsp)
	jne	.LBB43_543
	jmp	.LBB43_238
.LBB43_544:
	leaq	-1(%r14), %r8
	xorl	%r9d, %r9d
	xorl	%edi, %edi
	jmp	.LBB43_546
.LBB43_545:
	incq	%rdi
	cmpq	%rdi, %r8
	je	.LBB43_469
.LBB43_546:
	cmpb	1(%rbx,%rdi), %r9b
	jno	.LBB43_545
	cmpq	%r14, %rdi
	jae	.LBB43_640
	cmpb	$0, (%rbx,%rdi)
	js	.LBB43_545
	jmp	.LBB43_595
.LBB43_549:
	movzwl	40(%rsp), %ecx
	movzbl	42(%rsp), %eax
	shll	$16, %eax
	orq	%rcx, %rax
	movq	%r14, %r10
	movq	%r13, %r11
	movq	%rbx, %r14
	movq	%rbp, %rbx
	movq	80(%rsp), %r8
	movq	64(%rsp), %r9
	movq	88(%rsp), %rdi
	movq	72(%rsp), %rdx
	movq	16(%rsp), %rsi
	movq	104(%rsp), %r13
	cmpb	$17, %al
	je	.LBB43_541
.LBB43_550:
	movl	%eax, %ecx
	andl	$16776960, %ecx
	jmp	.LBB43_632
.LBB43_551:
	movzbl	42(%rsp), %r13d
	movq	24(%rsp), %rbx
	jmp	.LBB43_578
.LBB43_552:
	movzbl	%cl, %eax
	movq	%rax, 144(%rsp)
	cmpq	$1, %rdx
	je	.LBB43_555
	leaq	2(%rsi), %rax
	movq	%rax, 136(%rsp)
	leaq	-2(%rdx), %rcx
	movsbq	1(%rsi), %rdi
	testq	%rdi, %rdi
	js	.LBB43_562
	subq	%rdi, %rcx
	jae	.LBB43_594
	jmp	.LBB43_555
.LBB43_557:
	movb	$1, %al
	movq	%rbp, %rdi
	movq	72(%rsp), %rdx
	cmpq	$0, 8(%rsp)
	jne	.LBB43_543
	jmp	.LBB43_238
.LBB43_558:
	movzbl	42(%rsp), %r13d
	movzwl	40(%rsp), %eax
	movl	%eax, %ecx
	shrl	$8, %ecx
	movq	%rbp, %rbx
	jmp	.LBB43_578
.LBB43_118:
	xorl	%r13d, %r13d
	movq	%r15, %r10
	movq	%rax, %r8
	movq	16(%rsp), %rcx
	testq	%rdx, %rdx
	jne	.LBB43_117
	jmp	.LBB43_119
.LBB43_567:
	movq	%rbp, %rdi
.LBB43_519:
	movq	%rax, 8(%rsp)
	movq	%rbx, 24(%rsp)
	movq	%rdi, %rbp
	movq	%r9, 64(%rsp)
	movq	%r8, 80(%rsp)
	movq	%r14, %rbx
	movq	%r11, %r12
	movq	%r10, %r14
	leaq	32(%rsp), %rdi
	movl	$2, %ecx
	callq	_RNvNtNtNtCs00000000000_7pkcs1_c6proved8der_core5split14split_unlikely
	movq	32(%rsp), %rcx
	testq	%rcx, %rcx
	je	.LBB43_527
	movq	40(%rsp), %rax
	movq	56(%rsp), %rdi
	movq	%r14, %r10
	movq	%r12, %r11
	movq	%rbx, %r14
	movq	24(%rsp), %rbx
	movq	80(%rsp), %r8
	movq	64(%rsp), %r9
	movq	16(%rsp), %rsi
	movb	$2, %dl
	testq	%rax, %rax
	jne	.LBB43_182
.LBB43_521:
	movl	$3, %esi
.LBB43_522:
	movq	%rbp, %rdi
.LBB43_523:
	movzbl	%dl, %ecx
	shll	$8, %ecx
	orq	%rsi, %rcx
.LBB43_524:
	movq	72(%rsp), %rdx
	movq	16(%rsp), %rsi
	movb	$1, %al
	cmpb	$17, %cl
	jne	.LBB43_525
	cmpq	$0, 8(%rsp)
	je	.LBB43_238
.LBB43_543:
	movb	$12, (%rbx)
	jmp	.LBB43_634
.LBB43_525:
	movl	%ecx, %edx
	andl	$16776960, %edx
.LBB43_526:
	movzbl	%cl, %eax
	orq	%rdx, %rax
	jmp	.LBB43_633
.LBB43_527:
	movzwl	40(%rsp), %eax
	movzbl	42(%rsp), %ecx
	shll	$16, %ecx
	orq	%rax, %rcx
	movq	%r14, %r10
	movq	%r12, %r11
	movq	%rbx, %r14
	movq	24(%rsp), %rbx
	movq	80(%rsp), %r8
	movq	64(%rsp), %r9
	movq	%rbp, %rdi
	jmp	.LBB43_524
.LBB43_559:
	movzbl	42(%rsp), %eax
	shll	$16, %eax
	movzwl	40(%rsp), %edi
	orl	%eax, %edi
	movzbl	%dil, %eax
	shrl	$8, %edi
	movl	%edi, %r8d
	andl	$65280, %r8d
	jmp	.LBB43_79
.LBB43_560:
	xorl	%eax, %eax
	jmp	.LBB43_238
.LBB43_561:
	movb	$1, %al
	movb	$20, %r15b
	jmp	.LBB43_238
.LBB43_562:
	cmpb	$-126, %dil
	jne	.LBB43_588
	cmpq	$1, %rcx
	jbe	.LBB43_555
	movzbl	2(%rsi), %eax
	testq	%rax, %rax
	je	.LBB43_555
	leaq	-4(%rdx), %rcx
	shll	$8, %eax
	movzbl	3(%rsi), %edi
	orq	%rax, %rdi
	subq	%rdi, %rcx
	jb	.LBB43_555
	addq	$4, %rsi
	jmp	.LBB43_593
.LBB43_568:
	movq	8(%rsp), %rcx
.LBB43_569:
	movq	%rbp, 104(%rsp)
	movq	%rcx, 8(%rsp)
	movq	%r14, 96(%rsp)
	movq	%r9, %rbp
	movq	%r8, %r15
	movq	%r11, 112(%rsp)
	movq	%r10, %r14
	leaq	32(%rsp), %rdi
	movl	$2, %ecx
	callq	_RNvNtNtNtCs00000000000_7pkcs1_c6proved8der_core5split14split_unlikely
	movq	32(%rsp), %rdi
	testq	%rdi, %rdi
	je	.LBB43_580
	movq	40(%rsp), %rax
	movq	56(%rsp), %r12
	movq	%r14, %r10
	movq	112(%rsp), %r11
	movq	96(%rsp), %r14
	movq	%r15, %r8
	movq	%rbp, %r9
	movq	8(%rsp), %rcx
	movq	104(%rsp), %rbp
	cmpq	$1, %rax
	je	.LBB43_488
.LBB43_571:
	movq	%rbp, 104(%rsp)
	movq	%rcx, 8(%rsp)
	movq	%r9, 64(%rsp)
	movq	%r8, 80(%rsp)
	movq	%r14, %rbp
	movq	%r11, %r13
	movq	%r10, %r14
.LBB43_572:
	movq	%rax, %rsi
	callq	_RNvNtNtNtNtCs00000000000_7pkcs1_c6proved8der_core7integer5small5small
	movl	%eax, %ecx
	shrl	$8, %ecx
	cmpb	$17, %al
	jne	.LBB43_577
	movl	%ecx, %r15d
	movq	%r14, %r10
	movq	%r13, %r11
	movq	%rbp, %r14
	movq	80(%rsp), %r8
	movq	64(%rsp), %r9
	movq	72(%rsp), %rdx
	movq	16(%rsp), %rsi
	movq	8(%rsp), %rcx
	movq	104(%rsp), %rbp
.LBB43_574:
	testq	%r12, %r12
	je	.LBB43_579
	movb	$12, %al
	xorl	%r13d, %r13d
	jmp	.LBB43_578
.LBB43_577:
	xorl	%r13d, %r13d
.LBB43_578:
	movzwl	%r13w, %edx
	shll	$8, %edx
	movzbl	%cl, %ecx
	orl	%edx, %ecx
	movb	%al, (%rbx)
	movw	%cx, 1(%rbx)
	jmp	.LBB43_634
.LBB43_579:
	movb	$1, %r13b
	movq	%rbp, %r12
	movq	88(%rsp), %rdi
	jmp	.LBB43_172
.LBB43_580:
	movzwl	40(%rsp), %eax
	movl	%eax, %ecx
	shrl	$8, %ecx
	movb	$1, %r13b
	cmpb	$17, %al
	movq	88(%rsp), %rdi
	movq	72(%rsp), %rdx
	movq	16(%rsp), %rsi
	jne	.LBB43_582
	movq	%r14, %r10
	movq	%r15, %r8
	movq	%rbp, %r9
	movl	%ecx, %r15d
	movq	104(%rsp), %r12
	movq	112(%rsp), %r11
	movq	96(%rsp), %r14
	movq	8(%rsp), %rcx
	jmp	.LBB43_172
.LBB43_582:
	movzbl	42(%rsp), %r13d
	jmp	.LBB43_578
.LBB43_583:
	cmpb	$-126, %dl
	jne	.LBB43_607
	cmpq	$1, %rax
	jbe	.LBB43_612
	movzbl	2(%r15), %eax
	testq	%rax, %rax
	je	.LBB43_612
	leaq	-4(%rbp), %rcx
	shll	$8, %eax
	movzbl	3(%r15), %edx
	orq	%rax, %rdx
	movq	%rcx, %rax
	subq	%rdx, %rax
	jb	.LBB43_612
	addq	$4, %r15
	movq	%r15, %rsi
	jmp	.LBB43_511
.LBB43_588:
	testq	%rcx, %rcx
	je	.LBB43_555
	cmpb	$-127, %dil
	jne	.LBB43_555
	movq	136(%rsp), %rax
	movzbl	(%rax), %edi
	testb	%dil, %dil
	jns	.LBB43_555
	leaq	-3(%rdx), %rcx
	subq	%rdi, %rcx
	jb	.LBB43_555
	addq	$3, %rsi
.LBB43_593:
	movq	%rsi, 136(%rsp)
	jmp	.LBB43_594
.LBB43_596:
	cmpb	$-126, %al
	movq	%rbx, 24(%rsp)
	jne	.LBB43_614
	cmpq	$1, %r15
	jbe	.LBB43_624
	movzbl	2(%rsi), %ecx
	testq	%rcx, %rcx
	je	.LBB43_623
	movq	%r14, %rbx
	movq	%r11, %r12
	leaq	-4(%rdx), %r15
	shll	$8, %ecx
	movzbl	3(%rsi), %eax
	orq	%rcx, %rax
	subq	%rax, %r15
	jb	.LBB43_622
	movq	%r9, %r13
	movq	%r8, %rbp
	movq	%r10, %r14
	addq	$4, %rsi
	jmp	.LBB43_619
.LBB43_555:
	leaq	32(%rsp), %rdi
	movq	144(%rsp), %rcx
	callq	_RNvNtNtNtCs00000000000_7pkcs1_c6proved8der_core5split14split_unlikely
	movq	32(%rsp), %rcx
	movq	%rcx, 136(%rsp)
	testq	%rcx, %rcx
	je	.LBB43_620
	movq	40(%rsp), %rdi
	movq	56(%rsp), %rcx
.LBB43_594:
	movl	$12, %eax
	testq	%rcx, %rcx
	je	.LBB43_602
.LBB43_595:
	movl	%eax, %ecx
	shrl	$8, %ecx
	movzwl	%cx, %ecx
	shll	$8, %ecx
	movzbl	%al, %eax
.LBB43_309:
	orq	%rcx, %rax
.LBB43_305:
	movl	%eax, %ecx
.LBB43_307:
	shrl	$8, %ecx
.LBB43_298:
	shll	$8, %ecx
	movzbl	%al, %eax
	orl	%ecx, %eax
	movq	24(%rsp), %rbx
.LBB43_299:
	movw	%ax, (%rbx)
	shrl	$16, %eax
	movb	%al, 2(%rbx)
	jmp	.LBB43_634
.LBB43_602:
	movq	88(%rsp), %rcx
	movl	$12, %eax
	testq	%rcx, %rcx
	jne	.LBB43_305
	cmpq	$0, 120(%rsp)
	jne	.LBB43_297
	movq	%rbx, %rdx
	movq	%r14, %rsi
	movq	%rdi, 120(%rsp)
	cmpq	$9, 128(%rsp)
	jne	.LBB43_606
	movq	72(%rsp), %r10
	movq	112(%rsp), %r11
	movq	96(%rsp), %r14
	movq	24(%rsp), %rbx
	movq	80(%rsp), %r8
	movq	64(%rsp), %r9
	movq	%r15, %rdi
	movq	136(%rsp), %r15
	movq	8(%rsp), %rcx
	jmp	.LBB43_128
.LBB43_606:
	xorl	%eax, %eax
	movq	72(%rsp), %r10
	movq	112(%rsp), %r11
	movq	96(%rsp), %r14
	movq	24(%rsp), %rbx
	movq	80(%rsp), %r8
	movq	64(%rsp), %r9
	movq	%r15, %rdi
	movq	136(%rsp), %r15
	movq	8(%rsp), %rcx
	jmp	.LBB43_139
.LBB43_607:
	testq	%rax, %rax
	je	.LBB43_612
	cmpb	$-127, %dl
	jne	.LBB43_612
	movzbl	(%rsi), %edx
	testb	%dl, %dl
	jns	.LBB43_612
	leaq	-3(%rbp), %rax
	subq	%rdx, %rax
	jb	.LBB43_612
	addq	$3, %r15
	movq	%r15, %rsi
	jmp	.LBB43_511
.LBB43_612:
	movq	%r15, %rsi
	movq	%r8, %r13
	movq	%rbx, %r12
	movq	%r14, %rbx
	movq	%r11, %r15
	movq	%r10, %r14
	leaq	32(%rsp), %rdi
	movq	%rbp, %rdx
	movl	$163, %ecx
	callq	_RNvNtNtNtCs00000000000_7pkcs1_c6proved8der_core5split14split_unlikely
	movq	32(%rsp), %rsi
	testq	%rsi, %rsi
	je	.LBB43_621
	movq	40(%rsp), %rdx
	movq	56(%rsp), %rax
	movq	%r14, %r10
	movq	%r15, %r11
	movq	%rbx, %r14
	movq	%r12, %rbx
	movq	%r13, %r8
	movq	64(%rsp), %r9
	cmpq	$2, %rdx
	jae	.LBB43_511
	jmp	.LBB43_625
.LBB43_614:
	testq	%r15, %r15
	je	.LBB43_624
	cmpb	$-127, %al
	jne	.LBB43_624
	movzbl	(%rdi), %eax
	testb	%al, %al
	jns	.LBB43_623
	movq	%r14, %rbx
	movq	%r11, %r12
	leaq	-3(%rdx), %r15
	subq	%rax, %r15
	jb	.LBB43_622
	movq	%r9, %r13
	movq	%r8, %rbp
	movq	%r10, %r14
	addq	$3, %rsi
.LBB43_619:
	movq	%rsi, %rdi
	jmp	.LBB43_628
.LBB43_620:
	movzbl	42(%rsp), %eax
	shll	$16, %eax
	movzwl	40(%rsp), %ecx
	orl	%eax, %ecx
	movzbl	%cl, %edx
	shrl	$8, %ecx
	movl	%ecx, %eax
	andl	$65280, %eax
	jmp	.LBB43_473
.LBB43_636:
	movb	$13, %al
	movb	$2, %cl
	movq	88(%rsp), %rdi
	jmp	.LBB43_637
.LBB43_621:
	movzwl	40(%rsp), %ecx
	movzbl	42(%rsp), %eax
	shll	$16, %eax
	orq	%rcx, %rax
	movq	%r12, %rbx
	jmp	.LBB43_633
.LBB43_622:
	movq	%r12, %r11
	movq	%rbx, %r14
.LBB43_623:
	movq	24(%rsp), %rbx
.LBB43_624:
	movq	8(%rsp), %rax
.LBB43_625:
	movq	%rax, 8(%rsp)
	movq	%r8, %rbp
	movq	%rbx, %r13
	movq	%r14, %rbx
	movq	%r11, %r12
	movq	%r10, %r14
	leaq	32(%rsp), %rdi
	movl	$2, %ecx
	callq	_RNvNtNtNtCs00000000000_7pkcs1_c6proved8der_core5split14split_unlikely
	movq	32(%rsp), %rdi
	testq	%rdi, %rdi
	je	.LBB43_639
	movq	40(%rsp), %rax
	movq	56(%rsp), %r15
	movq	%r14, %r10
	movq	%r12, %r11
	movq	%rbx, %r14
	movq	%r13, %rbx
	movq	%rbp, %r8
	movq	64(%rsp), %r9
	cmpq	$1, %rax
	je	.LBB43_515
.LBB43_627:
	movq	%r9, %r13
	movq	%r8, %rbp
	movq	%rbx, 24(%rsp)
	movq	%r14, %rbx
	movq	%r11, %r12
	movq	%r10, %r14
.LBB43_628:
	movq	%rax, %rsi
	callq	_RNvNtNtNtNtCs00000000000_7pkcs1_c6proved8der_core7integer5small5small
	movl	%eax, %ecx
	shrl	$8, %ecx
	cmpb	$17, %al
	movq	%r14, %r10
	movq	%r12, %r11
	movq	%rbx, %r14
	movq	24(%rsp), %rbx
	movq	%rbp, %r8
	movq	%r13, %r9
	movq	88(%rsp), %rdi
	movq	72(%rsp), %rdx
	movq	16(%rsp), %rsi
	jne	.LBB43_637
.LBB43_629:
	cmpb	$1, %cl
	jne	.LBB43_631
	testq	%r15, %r15
	jne	.LBB43_538
	jmp	.LBB43_638
.LBB43_631:
	movl	$512, %ecx
	movl	$525, %eax
.LBB43_632:
	movzbl	%al, %eax
	orq	%rcx, %rax
.LBB43_633:
	movw	%ax, (%rbx)
	shrl	$16, %eax
	movb	%al, 2(%rbx)
.LBB43_634:
	movb	$2, 104(%rbx)
.LBB43_635:
	addq	$152, %rsp
	.cfi_def_cfa_offset 56
	popq	%rbx
	.cfi_def_cfa_offset 48
	popq	%r12
	.cfi_def_cfa_offset 40
	popq	%r13
	.cfi_def_cfa_offset 32
	popq	%r14
	.cfi_def_cfa_offset 24
	popq	%r15
	.cfi_def_cfa_offset 16
	popq	%rbp
	.cfi_def_cfa_offset 8
	retq
.LBB43_637:
	.cfi_def_cfa_offset 208
	movzbl	%cl, %ecx
	shll	$8, %ecx
	movzbl	%al, %eax
	orq	%rcx, %rax
	cmpb	$17, %al
	jne	.LBB43_550
.LBB43_638:
	movb	$20, %r15b
	movb	$1, %al
	movb	$2, %r13b
	cmpq	$0, 8(%rsp)
	jne	.LBB43_543
	jmp	.LBB43_238
.LBB43_639:
	movzwl	40(%rsp), %ecx
	movzbl	42(%rsp), %eax
	shll	$16, %eax
	orq	%rcx, %rax
	movq	%r14, %r10
	movq	%r12, %r11
	movq	%rbx, %r14
	movq	%r13, %rbx
	movq	%rbp, %r8
	movq	64(%rsp), %r9
	movq	88(%rsp), %rdi
	movq	72(%rsp), %rdx
	movq	16(%rsp), %rsi
	cmpb	$17, %al
	jne	.LBB43_550
	jmp	.LBB43_638
.LBB43_640:
	movq	%r14, %rsi
	ud2
.LBB43_641:
	movq	128(%rsp), %rsi
	ud2
.Lfunc_end43:
	.size	_RNvNtNtNtCs00000000000_7pkcs1_c6proved12pkcs1_params6noting8note_pss, .Lfunc_end43-_RNvNtNtNtCs00000000000_7pkcs1_c6proved12pkcs1_params6noting8note_pss
	.cfi_endproc

	.section	.rodata.cst16,"aM",@progbits,16
	.p2align	4, 0x0
.LCPI44_0:
	.zero	16,128
.LCPI44_1:
	.byte	128
	.byte	128
	.byte	128
	.byte	128
	.byte	128
	.byte	128
	.byte	128
	.byte	128
	.zero	1
	.zero	1
	.zero	1
	.zero	1
	.zero	1
	.zero	1
	.zero	1
	.zero	1
	.section	.text._RNvNtNtNtCs00000000000_7pkcs1_c6proved12pkcs1_params6noting9note_oaep,"ax",@progbits
	.p2align	4, 0x90
	.type	_RNvNtNtNtCs00000000000_7pkcs1_c6proved12pkcs1_params6noting9note_oaep,@function
_RNvNtNtNtCs00000000000_7pkcs1_c6proved12pkcs1_params6noting9note_oaep:
	.cfi_startproc
	pushq	%rbp
	.cfi_def_cfa_offset 16
	pushq	%r15
	.cfi_def_cfa_offset 24
	pushq	%r14
	.cfi_def_cfa_offset 32
	pushq	%r13
	.cfi_def_cfa_offset 40
	pushq	%r12
	.cfi_def_cfa_offset 48
	pushq	%rbx
	.cfi_def_cfa_offset 56
	subq	$168, %rsp
	.cfi_def_cfa_offset 224
	.cfi_offset %rbx, -56
	.cfi_offset %r12, -48
	.cfi_offset %r13, -40
	.cfi_offset %r14, -32
	.cfi_offset %r15, -24
	.cfi_offset %rbp, -16
	movq	%rdi, %rbx
	leaq	.Lanon.2(%rip), %r14
	leaq	_RNvNtCs00000000000_7pkcs1_c10rattle_std8AN_OCTET(%rip), %r11
	movl	$5, %ecx
	testq	%rdx, %rdx
	je	.LBB44_8
	cmpb	$-96, (%rsi)
	jne	.LBB44_9
	cmpq	$1, %rdx
	je	.LBB44_25
	leaq	2(%rsi), %r9
	leaq	-2(%rdx), %r12
	movsbq	1(%rsi), %rax
	testq	%rax, %rax
	js	.LBB44_15
	subq	%rax, %r12
	jb	.LBB44_25
	leaq	(%r9,%rax), %rbp
	cmpq	$2, %rax
	jae	.LBB44_27
	jmp	.LBB44_6
.LBB44_8:
	xorl	%edi, %edi
	xorl	%r12d, %r12d
	movq	%rsi, %rbp
	cmpb	$43, (%r14)
	je	.LBB44_10
	jmp	.LBB44_109
.LBB44_9:
	xorl	%edi, %edi
	movq	%rdx, %r12
	movq	%rsi, %rbp
	cmpb	$43, (%r14)
	jne	.LBB44_109
.LBB44_10:
	cmpb	$14, 1(%r14)
	jne	.LBB44_109
	cmpb	$3, 2(%r14)
	jne	.LBB44_109
	cmpb	$2, 3(%r14)
	jne	.LBB44_109
	movl	$5, %eax
	movq	%rax, 80(%rsp)
	cmpb	$26, 4(%r14)
	jne	.LBB44_86
	movq	%rcx, %rax
	xorq	$5, %rax
	orq	%rdi, %rax
	sete	%r8b
	testq	%rdx, %rdx
	jne	.LBB44_110
.LBB44_112:
	xorl	%r8d, %r8d
	jmp	.LBB44_113
.LBB44_15:
	cmpb	$-126, %al
	jne	.LBB44_20
	cmpq	$1, %r12
	jbe	.LBB44_25
	movzbl	2(%rsi), %ecx
	testq	%rcx, %rcx
	je	.LBB44_25
	leaq	-4(%rdx), %r12
	shll	$8, %ecx
	movzbl	3(%rsi), %eax
	orq	%rcx, %rax
	subq	%rax, %r12
	jb	.LBB44_25
	leaq	4(%rsi), %r9
	leaq	(%r9,%rax), %rbp
	jmp	.LBB44_27
.LBB44_20:
	testq	%r12, %r12
	je	.LBB44_25
	cmpb	$-127, %al
	jne	.LBB44_25
	movzbl	(%r9), %eax
	testb	%al, %al
	jns	.LBB44_25
	leaq	-3(%rdx), %r12
	subq	%rax, %r12
	jb	.LBB44_25
	leaq	3(%rsi), %r9
	leaq	(%r9,%rax), %rbp
	jmp	.LBB44_27
.LBB44_25:
	movq	%rsp, %rdi
	movq	%rsi, %r14
	movq	%rdx, %r15
	movl	$160, %ecx
	callq	_RNvNtNtNtCs00000000000_7pkcs1_c6proved8der_core5split14split_unlikely
	movq	(%rsp), %r9
	testq	%r9, %r9
	je	.LBB44_245
	movq	8(%rsp), %rax
	movq	16(%rsp), %rbp
	movq	24(%rsp), %r12
	movq	%r14, %rsi
	movq	%r15, %rdx
	cmpq	$2, %rax
	jb	.LBB44_6
.LBB44_27:
	cmpb	$48, (%r9)
	jne	.LBB44_6
	leaq	2(%r9), %r8
	leaq	-2(%rax), %r15
	movsbq	1(%r9), %rcx
	testq	%rcx, %rcx
	js	.LBB44_34
	subq	%rcx, %r15
	jb	.LBB44_6
	cmpq	$2, %rcx
	jb	.LBB44_32
.LBB44_31:
	cmpb	$6, (%r8)
	je	.LBB44_45
	jmp	.LBB44_32
.LBB44_34:
	cmpb	$-126, %cl
	jne	.LBB44_39
	cmpq	$1, %r15
	jbe	.LBB44_6
	movzbl	2(%r9), %edi
	testq	%rdi, %rdi
	je	.LBB44_6
	leaq	-4(%rax), %r15
	shll	$8, %edi
	movzbl	3(%r9), %ecx
	orq	%rdi, %rcx
	subq	%rcx, %r15
	jb	.LBB44_6
	addq	$4, %r9
	jmp	.LBB44_44
.LBB44_39:
	testq	%r15, %r15
	je	.LBB44_6
	cmpb	$-127, %cl
	jne	.LBB44_6
	movzbl	(%r8), %ecx
	testb	%cl, %cl
	jns	.LBB44_6
	leaq	-3(%rax), %r15
	subq	%rcx, %r15
	jb	.LBB44_6
	addq	$3, %r9
.LBB44_44:
	movq	%r9, %r8
	cmpb	$6, (%r8)
	jne	.LBB44_32
.LBB44_45:
	leaq	2(%r8), %r14
	leaq	-2(%rcx), %rax
	movsbq	1(%r8), %r9
	testq	%r9, %r9
	js	.LBB44_48
	subq	%r9, %rax
	jb	.LBB44_32
	leaq	(%r14,%r9), %rcx
	leaq	-1(%r9), %rdi
	movl	$5, %r8d
	cmpq	$38, %rdi
	jbe	.LBB44_59
	jmp	.LBB44_380
.LBB44_48:
	cmpb	$-126, %r9b
	jne	.LBB44_53
	cmpq	$1, %rax
	jbe	.LBB44_32
	movzbl	2(%r8), %edi
	testq	%rdi, %rdi
	je	.LBB44_32
	leaq	-4(%rcx), %rax
	shll	$8, %edi
	movzbl	3(%r8), %r9d
	orq	%rdi, %r9
	subq	%r9, %rax
	jb	.LBB44_32
	addq	$4, %r8
	jmp	.LBB44_58
.LBB44_6:
	movq	%rdx, %r14
	movq	%rsi, %r13
	movq	%rsp, %rdi
	movq	%r9, %rsi
	movq	%rax, %rdx
	movl	$48, %ecx
	callq	_RNvNtNtNtCs00000000000_7pkcs1_c6proved8der_core5split14split_unlikely
	movq	(%rsp), %r8
	testq	%r8, %r8
	je	.LBB44_260
	movq	8(%rsp), %rcx
	movq	24(%rsp), %r15
	movq	%r13, %rsi
	movq	%r14, %rdx
	cmpq	$2, %rcx
	jae	.LBB44_31
	jmp	.LBB44_32
.LBB44_53:
	testq	%rax, %rax
	je	.LBB44_32
	cmpb	$-127, %r9b
	jne	.LBB44_32
	movzbl	(%r14), %r9d
	testb	%r9b, %r9b
	jns	.LBB44_32
	leaq	-3(%rcx), %rax
	subq	%r9, %rax
	jb	.LBB44_32
	addq	$3, %r8
.LBB44_58:
	leaq	(%r8,%r9), %rcx
	movq	%r8, %r14
	leaq	-1(%r9), %rdi
	movl	$5, %r8d
	cmpq	$38, %rdi
	ja	.LBB44_380
	jmp	.LBB44_59
.LBB44_32:
	movq	%rbp, %r14
	movq	%rdx, %rbp
	movq	%rsi, %r13
	movq	%rsp, %rdi
	movq	%r8, %rsi
	movq	%rcx, %rdx
	movl	$6, %ecx
	callq	_RNvNtNtNtCs00000000000_7pkcs1_c6proved8der_core5split14split_unlikely
	movq	(%rsp), %rax
	testq	%rax, %rax
	je	.LBB44_87
	movq	%rax, %rcx
	movq	8(%rsp), %r9
	movq	16(%rsp), %rdi
	movq	24(%rsp), %rax
	movq	%r13, %rsi
	movq	%rbp, %rdx
	movq	%r14, %rbp
	movq	%rcx, %r14
	movq	%rdi, %rcx
	leaq	-1(%r9), %rdi
	movl	$5, %r8d
	cmpq	$38, %rdi
	ja	.LBB44_380
.LBB44_59:
	movq	%rbp, 72(%rsp)
	movq	%r9, 80(%rsp)
	movzbl	(%r14,%rdi), %r9d
	testb	%r9b, %r9b
	js	.LBB44_72
	movdqa	.LCPI44_1(%rip), %xmm0
	movdqa	.LCPI44_0(%rip), %xmm1
	xorl	%r10d, %r10d
	movq	%r14, %r11
	jmp	.LBB44_62
	.p2align	4, 0x90
.LBB44_61:
	addq	%rbp, %rdi
	addq	%r13, %r11
.LBB44_62:
	cmpq	$7, %rdi
	jbe	.LBB44_65
	movq	(%r11), %xmm2
	pcmpeqb	%xmm0, %xmm2
	pmovmskb	%xmm2, %ebp
	testb	%bpl, %bpl
	jne	.LBB44_71
	movl	$8, %r13d
	movq	$-8, %rbp
	jmp	.LBB44_61
	.p2align	4, 0x90
.LBB44_65:
	cmpq	$3, %rdi
	jbe	.LBB44_68
	movd	(%r11), %xmm2
	punpcklbw	%xmm2, %xmm2
	punpcklwd	%xmm2, %xmm2
	pcmpeqb	%xmm1, %xmm2
	movmskps	%xmm2, %ebp
	testl	%ebp, %ebp
	jne	.LBB44_71
	movl	$4, %r13d
	movq	$-4, %rbp
	jmp	.LBB44_61
	.p2align	4, 0x90
.LBB44_68:
	testq	%rdi, %rdi
	je	.LBB44_75
	cmpb	(%r11), %r10b
	jo	.LBB44_71
	movl	$1, %r13d
	movq	$-1, %rbp
	jmp	.LBB44_61
.LBB44_71:
	cmpq	$0, 80(%rsp)
	je	.LBB44_75
.LBB44_72:
	xorl	%edi, %edi
	cmpb	(%r14), %dil
	jo	.LBB44_380
	movq	80(%rsp), %r13
	cmpq	$1, %r13
	jne	.LBB44_81
.LBB44_74:
	testb	%r9b, %r9b
	js	.LBB44_380
.LBB44_75:
	testq	%rax, %rax
	je	.LBB44_79
	movzbl	(%rcx), %edi
	movl	%edi, %r8d
	notb	%r8b
	testb	$31, %r8b
	sete	%r8b
	testb	$-33, %dil
	sete	%r9b
	orb	%r8b, %r9b
	je	.LBB44_89
	movl	$11, %eax
	xorl	%r8d, %r8d
.LBB44_78:
	movzbl	%dil, %ecx
	orl	%ecx, %r8d
	shll	$8, %r8d
	jmp	.LBB44_88
.LBB44_79:
	testq	%r15, %r15
	movq	72(%rsp), %rbp
	jne	.LBB44_385
	xorl	%r11d, %r11d
	xorl	%r8d, %r8d
	testq	%rdx, %rdx
	jne	.LBB44_110
	jmp	.LBB44_112
.LBB44_81:
	leaq	-1(%r13), %r10
	xorl	%r11d, %r11d
	xorl	%edi, %edi
	jmp	.LBB44_83
	.p2align	4, 0x90
.LBB44_82:
	incq	%rdi
	cmpq	%rdi, %r10
	je	.LBB44_74
.LBB44_83:
	cmpb	1(%r14,%rdi), %r11b
	jno	.LBB44_82
	cmpq	%r13, %rdi
	jae	.LBB44_424
	cmpb	$0, (%r14,%rdi)
	js	.LBB44_82
	jmp	.LBB44_380
.LBB44_86:
	xorl	%r8d, %r8d
	testq	%rdx, %rdx
	jne	.LBB44_110
	jmp	.LBB44_112
.LBB44_87:
	movzwl	8(%rsp), %eax
	movzbl	10(%rsp), %r8d
	shll	$16, %r8d
.LBB44_88:
	orq	%rax, %r8
	jmp	.LBB44_380
.LBB44_89:
	movq	%rcx, %r13
	movzbl	%dil, %ecx
	cmpq	$1, %rax
	je	.LBB44_103
	leaq	2(%r13), %r11
	leaq	-2(%rax), %rdi
	movsbq	1(%r13), %r10
	testq	%r10, %r10
	js	.LBB44_93
	subq	%r10, %rdi
	jb	.LBB44_103
	movq	%r10, %r9
	jmp	.LBB44_105
.LBB44_93:
	cmpb	$-126, %r10b
	jne	.LBB44_98
	cmpq	$1, %rdi
	jbe	.LBB44_103
	movzbl	2(%r13), %r8d
	testq	%r8, %r8
	je	.LBB44_103
	leaq	-4(%rax), %rdi
	shll	$8, %r8d
	movzbl	3(%r13), %r10d
	orq	%r8, %r10
	subq	%r10, %rdi
	jb	.LBB44_103
	movq	%r10, %r9
	addq	$4, %r13
	movq	%r13, %r11
	jmp	.LBB44_105
.LBB44_98:
	testq	%rdi, %rdi
	je	.LBB44_103
	movq	%r10, %r8
	cmpb	$-127, %r8b
	jne	.LBB44_103
	movzbl	(%r11), %edi
	testb	%dil, %dil
	jns	.LBB44_103
	movq	%rdi, %r9
	leaq	-3(%rax), %rdi
	subq	%r9, %rdi
	jb	.LBB44_103
	addq	$3, %r13
	movq	%r13, %r11
	jmp	.LBB44_105
.LBB44_103:
	movq	%rdx, 40(%rsp)
	movq	%rsi, %rbp
	movq	%rsp, %rdi
	movq	%r13, %rsi
	movq	%rax, %rdx
	movq	%rcx, %r13
	callq	_RNvNtNtNtCs00000000000_7pkcs1_c6proved8der_core5split14split_unlikely
	movq	(%rsp), %r11
	testq	%r11, %r11
	je	.LBB44_393
	movq	8(%rsp), %r9
	movq	24(%rsp), %rdi
	movq	%rbp, %rsi
	movq	40(%rsp), %rdx
	movq	%r13, %rcx
.LBB44_105:
	movl	$12, %r8d
	testq	%rdi, %rdi
	jne	.LBB44_380
	testq	%r15, %r15
	jne	.LBB44_385
	movq	80(%rsp), %rax
	cmpq	$5, %rax
	jne	.LBB44_111
	movq	%r9, %rdi
	movq	72(%rsp), %rbp
	cmpb	$43, (%r14)
	je	.LBB44_10
.LBB44_109:
	movl	$5, %eax
	movq	%rax, 80(%rsp)
	xorl	%r8d, %r8d
	testq	%rdx, %rdx
	je	.LBB44_112
.LBB44_110:
	cmpb	$-96, (%rsi)
	sete	%al
	andb	%al, %r8b
.LBB44_113:
	movabsq	$72354425775621674, %rsi
	leaq	.Lanon.3(%rip), %r13
	leaq	.Lanon.2(%rip), %r15
	leaq	_RNvNtCs00000000000_7pkcs1_c10rattle_std8AN_OCTET(%rip), %rdx
	testq	%r12, %r12
	je	.LBB44_122
	cmpb	$-95, (%rbp)
	jne	.LBB44_123
	cmpq	$1, %r12
	movq	%r8, 104(%rsp)
	je	.LBB44_188
	leaq	2(%rbp), %rsi
	leaq	-2(%r12), %r9
	movsbq	1(%rbp), %rdx
	testq	%rdx, %rdx
	js	.LBB44_156
	subq	%rdx, %r9
	jb	.LBB44_188
	leaq	(%rsi,%rdx), %rax
	movq	%rax, 40(%rsp)
	cmpq	$2, %rdx
	jb	.LBB44_120
.LBB44_119:
	cmpb	$48, (%rsi)
	je	.LBB44_177
	jmp	.LBB44_120
.LBB44_122:
	movl	$5, %eax
	movq	%rax, 120(%rsp)
	movq	$0, 136(%rsp)
	movl	$5, %r9d
	xorl	%r10d, %r10d
	jmp	.LBB44_124
.LBB44_123:
	movl	$5, %eax
	movq	%rax, 120(%rsp)
	movq	$0, 136(%rsp)
	movl	$5, %r9d
	movq	%r12, %r10
.LBB44_124:
	movq	%rbp, 40(%rsp)
.LBB44_125:
	movl	$9, %eax
	movq	%rax, 88(%rsp)
	cmpq	%rsi, (%r13)
	movq	%rdx, 152(%rsp)
	jne	.LBB44_135
	cmpb	$8, 8(%r13)
	jne	.LBB44_135
	xorl	%eax, %eax
	testq	%rdx, %rdx
	je	.LBB44_136
	cmpq	$5, %r9
	jne	.LBB44_136
	movl	$5, %r9d
	cmpb	$43, (%r15)
	jne	.LBB44_135
	cmpb	$14, 1(%r15)
	jne	.LBB44_135
	cmpb	$3, 2(%r15)
	jne	.LBB44_135
	cmpb	$2, 3(%r15)
	jne	.LBB44_135
	cmpb	$26, 4(%r15)
	jne	.LBB44_135
	movzbl	120(%rsp), %eax
	xorq	$5, %rax
	orq	136(%rsp), %rax
	sete	%al
	jmp	.LBB44_136
.LBB44_135:
	xorl	%eax, %eax
.LBB44_136:
	testq	%r12, %r12
	sete	%dl
	orb	%r8b, %dl
	movq	%r13, 112(%rsp)
	movq	%r15, 160(%rsp)
	movq	%r9, 64(%rsp)
	je	.LBB44_138
	movl	$0, 72(%rsp)
	jmp	.LBB44_139
.LBB44_138:
	cmpb	$-95, (%rbp)
	sete	%dl
	andb	%dl, %al
	movb	$1, %dl
	movl	%edx, 72(%rsp)
	movl	%eax, %r8d
.LBB44_139:
	leaq	.Lanon.4(%rip), %r15
	leaq	_RNvNtCs00000000000_7pkcs1_c10rattle_std8AN_OCTET(%rip), %r9
	movl	$4, %r13d
	testq	%r10, %r10
	je	.LBB44_152
	movq	40(%rsp), %rax
	cmpb	$-94, (%rax)
	jne	.LBB44_153
	cmpq	$1, %r10
	movq	%r8, 104(%rsp)
	je	.LBB44_241
	movq	40(%rsp), %rax
	leaq	2(%rax), %rsi
	leaq	-2(%r10), %rbp
	movsbq	1(%rax), %rdx
	testq	%rdx, %rdx
	js	.LBB44_161
	subq	%rdx, %rbp
	jb	.LBB44_241
	cmpq	$2, %rdx
	jb	.LBB44_243
.LBB44_145:
	cmpb	$48, (%rsi)
	jne	.LBB44_243
	leaq	2(%rsi), %rax
	leaq	-2(%rdx), %r9
	movsbq	1(%rsi), %r8
	testq	%r8, %r8
	js	.LBB44_166
	subq	%r8, %r9
	jb	.LBB44_243
	cmpq	$2, %r8
	jb	.LBB44_150
.LBB44_149:
	cmpb	$6, (%rax)
	je	.LBB44_252
	jmp	.LBB44_150
.LBB44_152:
	xorl	%eax, %eax
	xorl	%ebp, %ebp
	movl	$9, %r12d
	cmpq	%rsi, (%r15)
	je	.LBB44_154
	jmp	.LBB44_388
.LBB44_153:
	xorl	%eax, %eax
	movq	%r10, %rbp
	movl	$9, %r12d
	cmpq	%rsi, (%r15)
	jne	.LBB44_388
.LBB44_154:
	cmpb	$9, 8(%r15)
	jne	.LBB44_388
	movq	%r13, %rdx
	xorq	$4, %rdx
	orq	%rax, %rdx
	sete	%dl
	testq	%r10, %r10
	sete	%sil
	orb	%r8b, %sil
	je	.LBB44_389
	jmp	.LBB44_390
.LBB44_156:
	cmpb	$-126, %dl
	jne	.LBB44_171
	cmpq	$1, %r9
	jbe	.LBB44_188
	movzbl	2(%rbp), %eax
	testq	%rax, %rax
	je	.LBB44_188
	leaq	-4(%r12), %r9
	shll	$8, %eax
	movzbl	3(%rbp), %edx
	orq	%rax, %rdx
	subq	%rdx, %r9
	jb	.LBB44_188
	leaq	4(%rbp), %rsi
	jmp	.LBB44_176
.LBB44_161:
	cmpb	$-126, %dl
	jne	.LBB44_236
	cmpq	$1, %rbp
	jbe	.LBB44_241
	movq	40(%rsp), %rax
	movzbl	2(%rax), %eax
	testq	%rax, %rax
	je	.LBB44_241
	leaq	-4(%r10), %rbp
	shll	$8, %eax
	movq	40(%rsp), %rdx
	movzbl	3(%rdx), %edx
	orq	%rax, %rdx
	subq	%rdx, %rbp
	jb	.LBB44_241
	movq	40(%rsp), %rax
	leaq	4(%rax), %rsi
	jmp	.LBB44_145
.LBB44_166:
	cmpb	$-126, %r8b
	jne	.LBB44_246
	cmpq	$1, %r9
	jbe	.LBB44_243
	movzbl	2(%rsi), %eax
	testq	%rax, %rax
	je	.LBB44_243
	leaq	-4(%rdx), %r9
	shll	$8, %eax
	movzbl	3(%rsi), %r8d
	orq	%rax, %r8
	subq	%r8, %r9
	jb	.LBB44_243
	addq	$4, %rsi
	jmp	.LBB44_251
.LBB44_171:
	testq	%r9, %r9
	je	.LBB44_188
	cmpb	$-127, %dl
	jne	.LBB44_188
	movzbl	(%rsi), %edx
	testb	%dl, %dl
	jns	.LBB44_188
	leaq	-3(%r12), %r9
	subq	%rdx, %r9
	jb	.LBB44_188
	leaq	3(%rbp), %rsi
.LBB44_176:
	leaq	(%rsi,%rdx), %rax
	movq	%rax, 40(%rsp)
	cmpb	$48, (%rsi)
	jne	.LBB44_120
.LBB44_177:
	leaq	2(%rsi), %rax
	leaq	-2(%rdx), %r13
	movsbq	1(%rsi), %r8
	testq	%r8, %r8
	js	.LBB44_183
	subq	%r8, %r13
	jb	.LBB44_120
	cmpq	$2, %r8
	jb	.LBB44_181
.LBB44_180:
	cmpb	$6, (%rax)
	je	.LBB44_196
	jmp	.LBB44_181
.LBB44_183:
	cmpb	$-126, %r8b
	jne	.LBB44_190
	cmpq	$1, %r13
	jbe	.LBB44_120
	movzbl	2(%rsi), %eax
	testq	%rax, %rax
	je	.LBB44_120
	leaq	-4(%rdx), %r13
	shll	$8, %eax
	movzbl	3(%rsi), %r8d
	orq	%rax, %r8
	subq	%r8, %r13
	jb	.LBB44_120
	addq	$4, %rsi
	jmp	.LBB44_195
.LBB44_188:
	movq	%r14, 144(%rsp)
	movq	%rbp, %rsi
	movq	%r11, %rbp
	movq	%rdi, %r13
	movq	%rcx, %r15
	movq	%rsp, %rdi
	movq	%rsi, %r14
	movq	%r12, %rdx
	movl	$161, %ecx
	callq	_RNvNtNtNtCs00000000000_7pkcs1_c6proved8der_core5split14split_unlikely
	movq	(%rsp), %rsi
	testq	%rsi, %rsi
	je	.LBB44_296
	movq	8(%rsp), %rdx
	movq	16(%rsp), %rax
	movq	%rax, 40(%rsp)
	movq	24(%rsp), %r9
	movq	%r15, %rcx
	movq	%r13, %rdi
	movq	%rbp, %r11
	movq	%r14, %rbp
	movq	144(%rsp), %r14
	cmpq	$2, %rdx
	jae	.LBB44_119
	jmp	.LBB44_120
.LBB44_190:
	testq	%r13, %r13
	je	.LBB44_120
	cmpb	$-127, %r8b
	jne	.LBB44_120
	movzbl	(%rax), %r8d
	testb	%r8b, %r8b
	jns	.LBB44_120
	leaq	-3(%rdx), %r13
	subq	%r8, %r13
	jb	.LBB44_120
	addq	$3, %rsi
.LBB44_195:
	movq	%rsi, %rax
	cmpb	$6, (%rax)
	jne	.LBB44_181
.LBB44_196:
	leaq	2(%rax), %r10
	leaq	-2(%r8), %rdx
	movsbq	1(%rax), %r15
	testq	%r15, %r15
	js	.LBB44_199
	subq	%r15, %rdx
	jb	.LBB44_181
	movq	%rdi, 48(%rsp)
	leaq	(%r10,%r15), %rsi
	leaq	-1(%r15), %rdi
	movl	$5, %eax
	cmpq	$38, %rdi
	jbe	.LBB44_210
	jmp	.LBB44_411
.LBB44_199:
	cmpb	$-126, %r15b
	jne	.LBB44_204
	cmpq	$1, %rdx
	jbe	.LBB44_181
	movzbl	2(%rax), %esi
	testq	%rsi, %rsi
	je	.LBB44_181
	leaq	-4(%r8), %rdx
	shll	$8, %esi
	movzbl	3(%rax), %r15d
	orq	%rsi, %r15
	subq	%r15, %rdx
	jb	.LBB44_181
	movq	%rdi, 48(%rsp)
	addq	$4, %rax
	jmp	.LBB44_209
.LBB44_120:
	movq	%r9, 32(%rsp)
	movq	%r14, 144(%rsp)
	movq	%rbp, %r14
	movq	%r11, %rbp
	movq	%rdi, %r13
	movq	%rcx, %r15
	movq	%rsp, %rdi
	movl	$48, %ecx
	callq	_RNvNtNtNtCs00000000000_7pkcs1_c6proved8der_core5split14split_unlikely
	movq	(%rsp), %rax
	testq	%rax, %rax
	je	.LBB44_294
	movq	8(%rsp), %r8
	movq	24(%rsp), %rdx
	movq	%r15, %rcx
	movq	%r13, %rdi
	movq	%rdx, %r13
	movq	%rbp, %r11
	movq	%r14, %rbp
	movq	144(%rsp), %r14
	movq	32(%rsp), %r9
	cmpq	$2, %r8
	jae	.LBB44_180
	jmp	.LBB44_181
.LBB44_204:
	testq	%rdx, %rdx
	je	.LBB44_181
	cmpb	$-127, %r15b
	jne	.LBB44_181
	movzbl	(%r10), %r15d
	testb	%r15b, %r15b
	jns	.LBB44_181
	leaq	-3(%r8), %rdx
	subq	%r15, %rdx
	jb	.LBB44_181
	movq	%rdi, 48(%rsp)
	addq	$3, %rax
.LBB44_209:
	leaq	(%rax,%r15), %rsi
	movq	%rax, %r10
	leaq	-1(%r15), %rdi
	movl	$5, %eax
	cmpq	$38, %rdi
	ja	.LBB44_411
	jmp	.LBB44_210
.LBB44_181:
	movq	%r13, 112(%rsp)
	movq	%r9, 32(%rsp)
	movq	%rdi, 48(%rsp)
	movq	%r11, %r13
	movq	%rcx, %r15
	movq	%rsp, %rdi
	movq	%rax, %rsi
	movq	%r8, %rdx
	movl	$6, %ecx
	callq	_RNvNtNtNtCs00000000000_7pkcs1_c6proved8der_core5split14split_unlikely
	movq	(%rsp), %rax
	testq	%rax, %rax
	je	.LBB44_295
	movq	%rax, %r10
	movq	8(%rsp), %rax
	movq	16(%rsp), %rsi
	movq	24(%rsp), %rdx
	movq	%r15, %rcx
	movq	%r13, %r11
	movq	%rax, %r15
	movq	32(%rsp), %r9
	movq	112(%rsp), %r13
	leaq	-1(%r15), %rdi
	movl	$5, %eax
	cmpq	$38, %rdi
	ja	.LBB44_411
.LBB44_210:
	movq	%r13, 112(%rsp)
	movq	%r15, 88(%rsp)
	movq	%r9, 32(%rsp)
	movq	%r11, 56(%rsp)
	movq	%rcx, 96(%rsp)
	movq	%r10, %r13
	movzbl	(%r10,%rdi), %ecx
	testb	%cl, %cl
	js	.LBB44_223
	movdqa	.LCPI44_1(%rip), %xmm0
	movdqa	.LCPI44_0(%rip), %xmm1
	xorl	%r8d, %r8d
	movq	%r13, %r9
	jmp	.LBB44_214
	.p2align	4, 0x90
.LBB44_212:
	movl	$1, %r10d
	movq	$-1, %r11
.LBB44_213:
	addq	%r11, %rdi
	addq	%r10, %r9
.LBB44_214:
	cmpq	$7, %rdi
	jbe	.LBB44_217
	movq	(%r9), %xmm2
	pcmpeqb	%xmm0, %xmm2
	pmovmskb	%xmm2, %r10d
	testb	%r10b, %r10b
	jne	.LBB44_222
	movl	$8, %r10d
	movq	$-8, %r11
	jmp	.LBB44_213
	.p2align	4, 0x90
.LBB44_217:
	cmpq	$3, %rdi
	jbe	.LBB44_220
	movd	(%r9), %xmm2
	punpcklbw	%xmm2, %xmm2
	punpcklwd	%xmm2, %xmm2
	pcmpeqb	%xmm1, %xmm2
	movmskps	%xmm2, %r10d
	testl	%r10d, %r10d
	jne	.LBB44_222
	movl	$4, %r10d
	movq	$-4, %r11
	jmp	.LBB44_213
	.p2align	4, 0x90
.LBB44_220:
	testq	%rdi, %rdi
	je	.LBB44_226
	cmpb	(%r9), %r8b
	jno	.LBB44_212
.LBB44_222:
	cmpq	$0, 88(%rsp)
	je	.LBB44_226
.LBB44_223:
	xorl	%edi, %edi
	cmpb	(%r13), %dil
	jo	.LBB44_411
	cmpq	$1, 88(%rsp)
	jne	.LBB44_289
.LBB44_225:
	testb	%cl, %cl
	js	.LBB44_411
.LBB44_226:
	testq	%rdx, %rdx
	je	.LBB44_287
	movq	%rbp, 72(%rsp)
	cmpq	$1, %rdx
	je	.LBB44_231
	cmpb	$48, (%rsi)
	jne	.LBB44_231
	leaq	2(%rsi), %rcx
	leaq	-2(%rdx), %rbp
	movsbq	1(%rsi), %rax
	testq	%rax, %rax
	js	.LBB44_310
	subq	%rax, %rbp
	jae	.LBB44_233
	jmp	.LBB44_231
.LBB44_236:
	testq	%rbp, %rbp
	je	.LBB44_241
	cmpb	$-127, %dl
	jne	.LBB44_241
	movzbl	(%rsi), %edx
	testb	%dl, %dl
	jns	.LBB44_241
	leaq	-3(%r10), %rbp
	subq	%rdx, %rbp
	jb	.LBB44_241
	movq	40(%rsp), %rax
	leaq	3(%rax), %rsi
	jmp	.LBB44_145
.LBB44_241:
	movq	%r11, 56(%rsp)
	movq	%rdi, %r12
	movq	%rcx, %r15
	movq	%rsp, %rdi
	movq	40(%rsp), %rsi
	movq	%r10, %r13
	movq	%r10, %rdx
	movl	$162, %ecx
	callq	_RNvNtNtNtCs00000000000_7pkcs1_c6proved8der_core5split14split_unlikely
	movq	(%rsp), %rsi
	testq	%rsi, %rsi
	je	.LBB44_245
	movq	8(%rsp), %rdx
	movq	24(%rsp), %rbp
	movq	%r15, %rcx
	movq	%r12, %rdi
	movq	56(%rsp), %r11
	movq	%r13, %r10
	cmpq	$2, %rdx
	jae	.LBB44_145
	jmp	.LBB44_243
.LBB44_245:
	movzbl	10(%rsp), %eax
	shll	$16, %eax
	movzwl	8(%rsp), %ecx
	jmp	.LBB44_383
.LBB44_246:
	testq	%r9, %r9
	je	.LBB44_243
	cmpb	$-127, %r8b
	jne	.LBB44_243
	movzbl	(%rax), %r8d
	testb	%r8b, %r8b
	jns	.LBB44_243
	leaq	-3(%rdx), %r9
	subq	%r8, %r9
	jb	.LBB44_243
	addq	$3, %rsi
.LBB44_251:
	movq	%rsi, %rax
	cmpb	$6, (%rax)
	jne	.LBB44_150
.LBB44_252:
	leaq	2(%rax), %r15
	leaq	-2(%r8), %rdx
	movsbq	1(%rax), %r12
	testq	%r12, %r12
	js	.LBB44_255
	subq	%r12, %rdx
	jb	.LBB44_150
	leaq	(%r15,%r12), %rsi
	leaq	-1(%r12), %r13
	movl	$5, %r8d
	cmpq	$38, %r13
	jbe	.LBB44_267
	jmp	.LBB44_380
.LBB44_255:
	cmpb	$-126, %r12b
	jne	.LBB44_261
	cmpq	$1, %rdx
	jbe	.LBB44_150
	movzbl	2(%rax), %esi
	testq	%rsi, %rsi
	je	.LBB44_150
	leaq	-4(%r8), %rdx
	shll	$8, %esi
	movzbl	3(%rax), %r12d
	orq	%rsi, %r12
	subq	%r12, %rdx
	jb	.LBB44_150
	addq	$4, %rax
	jmp	.LBB44_266
.LBB44_243:
	movq	%r10, 32(%rsp)
	movq	%r11, %r13
	movq	%rdi, %r12
	movq	%rcx, %r15
	movq	%rsp, %rdi
	movl	$48, %ecx
	callq	_RNvNtNtNtCs00000000000_7pkcs1_c6proved8der_core5split14split_unlikely
	movq	(%rsp), %rax
	testq	%rax, %rax
	je	.LBB44_260
	movq	8(%rsp), %r8
	movq	24(%rsp), %r9
	movq	%r15, %rcx
	movq	%r12, %rdi
	movq	%r13, %r11
	movq	32(%rsp), %r10
	cmpq	$2, %r8
	jae	.LBB44_149
	jmp	.LBB44_150
.LBB44_260:
	movzbl	10(%rsp), %eax
	shll	$16, %eax
	movzwl	8(%rsp), %r8d
	orl	%r8d, %eax
	jmp	.LBB44_381
.LBB44_261:
	testq	%rdx, %rdx
	je	.LBB44_150
	cmpb	$-127, %r12b
	jne	.LBB44_150
	movzbl	(%r15), %r12d
	testb	%r12b, %r12b
	jns	.LBB44_150
	leaq	-3(%r8), %rdx
	subq	%r12, %rdx
	jb	.LBB44_150
	addq	$3, %rax
.LBB44_266:
	leaq	(%rax,%r12), %rsi
	movq	%rax, %r15
	leaq	-1(%r12), %r13
	movl	$5, %r8d
	cmpq	$38, %r13
	ja	.LBB44_380
	jmp	.LBB44_267
.LBB44_150:
	movq	%r9, 128(%rsp)
	movq	%r10, 32(%rsp)
	movq	%r11, 56(%rsp)
	movq	%rdi, 48(%rsp)
	movq	%rcx, %r13
	movq	%rsp, %rdi
	movq	%rax, %rsi
	movq	%r8, %rdx
	movl	$6, %ecx
	callq	_RNvNtNtNtCs00000000000_7pkcs1_c6proved8der_core5split14split_unlikely
	movq	(%rsp), %r15
	testq	%r15, %r15
	je	.LBB44_304
	movq	8(%rsp), %r12
	movq	16(%rsp), %rsi
	movq	24(%rsp), %rdx
	movq	%r13, %rcx
	movq	48(%rsp), %rdi
	movq	56(%rsp), %r11
	movq	32(%rsp), %r10
	movq	128(%rsp), %r9
	leaq	-1(%r12), %r13
	movl	$5, %r8d
	cmpq	$38, %r13
	ja	.LBB44_380
.LBB44_267:
	movq	%r9, 128(%rsp)
	movq	%r10, 32(%rsp)
	movq	%r11, 56(%rsp)
	movq	%rdi, 48(%rsp)
	movq	%rcx, 96(%rsp)
	movzbl	(%r15,%r13), %eax
	testb	%al, %al
	js	.LBB44_280
	movdqa	.LCPI44_1(%rip), %xmm0
	movdqa	.LCPI44_0(%rip), %xmm1
	xorl	%edi, %edi
	movq	%r15, %r9
	jmp	.LBB44_272
	.p2align	4, 0x90
.LBB44_269:
	movd	(%r9), %xmm2
	punpcklbw	%xmm2, %xmm2
	punpcklwd	%xmm2, %xmm2
	pcmpeqb	%xmm1, %xmm2
	movmskps	%xmm2, %r10d
	testl	%r10d, %r10d
	jne	.LBB44_279
	movl	$4, %r10d
	movq	$-4, %r11
.LBB44_271:
	addq	%r11, %r13
	addq	%r10, %r9
.LBB44_272:
	cmpq	$7, %r13
	jbe	.LBB44_275
	movq	(%r9), %xmm2
	pcmpeqb	%xmm0, %xmm2
	pmovmskb	%xmm2, %r10d
	testb	%r10b, %r10b
	jne	.LBB44_279
	movl	$8, %r10d
	movq	$-8, %r11
	jmp	.LBB44_271
	.p2align	4, 0x90
.LBB44_275:
	cmpq	$3, %r13
	ja	.LBB44_269
	testq	%r13, %r13
	je	.LBB44_283
	cmpb	(%r9), %dil
	jo	.LBB44_279
	movl	$1, %r10d
	movq	$-1, %r11
	jmp	.LBB44_271
.LBB44_279:
	testq	%r12, %r12
	je	.LBB44_283
.LBB44_280:
	xorl	%ecx, %ecx
	cmpb	(%r15), %cl
	jo	.LBB44_380
	cmpq	$1, %r12
	jne	.LBB44_299
.LBB44_282:
	testb	%al, %al
	js	.LBB44_380
.LBB44_283:
	testq	%rdx, %rdx
	je	.LBB44_297
	movzbl	(%rsi), %eax
	movl	%eax, %ecx
	notb	%cl
	testb	$31, %cl
	sete	%cl
	testb	$-33, %al
	sete	%dil
	orb	%cl, %dil
	je	.LBB44_305
	movl	$11, %ecx
	xorl	%r8d, %r8d
.LBB44_286:
	movzbl	%al, %eax
	orl	%eax, %r8d
	shll	$8, %r8d
	orq	%rcx, %r8
	jmp	.LBB44_380
.LBB44_287:
	cmpq	$0, 112(%rsp)
	movq	56(%rsp), %r11
	movq	104(%rsp), %r8
	movq	32(%rsp), %r10
	je	.LBB44_315
.LBB44_288:
	movb	$12, %al
	jmp	.LBB44_413
.LBB44_289:
	movq	88(%rsp), %rdi
	leaq	-1(%rdi), %r8
	xorl	%r9d, %r9d
	xorl	%edi, %edi
	jmp	.LBB44_291
	.p2align	4, 0x90
.LBB44_290:
	incq	%rdi
	cmpq	%rdi, %r8
	je	.LBB44_225
.LBB44_291:
	cmpb	1(%r13,%rdi), %r9b
	jno	.LBB44_290
	cmpq	88(%rsp), %rdi
	jae	.LBB44_425
	cmpb	$0, (%r13,%rdi)
	js	.LBB44_290
	jmp	.LBB44_411
.LBB44_294:
	movzbl	10(%rsp), %ecx
	shll	$16, %ecx
	movzwl	8(%rsp), %eax
	orl	%eax, %ecx
	jmp	.LBB44_412
.LBB44_295:
	movzwl	8(%rsp), %ecx
	movzbl	10(%rsp), %eax
	shll	$16, %eax
	jmp	.LBB44_410
.LBB44_296:
	movzbl	10(%rsp), %ecx
	shll	$16, %ecx
	movzwl	8(%rsp), %eax
	jmp	.LBB44_414
.LBB44_297:
	cmpq	$0, 128(%rsp)
	movq	96(%rsp), %rcx
	movq	56(%rsp), %r11
	movq	104(%rsp), %r8
	movq	32(%rsp), %r10
	jne	.LBB44_385
	xorl	%r9d, %r9d
	xorl	%edx, %edx
	movq	48(%rsp), %rdi
	testq	%r10, %r10
	sete	%sil
	orb	%r8b, %sil
	je	.LBB44_389
	jmp	.LBB44_390
.LBB44_299:
	leaq	-1(%r12), %rcx
	xorl	%r9d, %r9d
	xorl	%edi, %edi
	jmp	.LBB44_301
	.p2align	4, 0x90
.LBB44_300:
	incq	%rdi
	cmpq	%rdi, %rcx
	je	.LBB44_282
.LBB44_301:
	cmpb	1(%r15,%rdi), %r9b
	jno	.LBB44_300
	cmpq	%r12, %rdi
	jae	.LBB44_426
	cmpb	$0, (%r15,%rdi)
	js	.LBB44_300
	jmp	.LBB44_380
.LBB44_304:
	movzwl	8(%rsp), %eax
	movzbl	10(%rsp), %r8d
	shll	$16, %r8d
	orq	%rax, %r8
	jmp	.LBB44_380
.LBB44_305:
	movzbl	%al, %r13d
	cmpq	$1, %rdx
	je	.LBB44_308
	leaq	2(%rsi), %r9
	leaq	-2(%rdx), %rdi
	movsbq	1(%rsi), %rax
	testq	%rax, %rax
	js	.LBB44_359
	subq	%rax, %rdi
	jae	.LBB44_379
	jmp	.LBB44_308
.LBB44_310:
	cmpb	$-126, %al
	jne	.LBB44_316
	cmpq	$1, %rbp
	jbe	.LBB44_231
	movzbl	2(%rsi), %ecx
	testq	%rcx, %rcx
	je	.LBB44_231
	leaq	-4(%rdx), %rbp
	shll	$8, %ecx
	movzbl	3(%rsi), %eax
	orq	%rcx, %rax
	subq	%rax, %rbp
	jb	.LBB44_231
	addq	$4, %rsi
	jmp	.LBB44_321
.LBB44_315:
	xorl	%r15d, %r15d
	xorl	%eax, %eax
	movq	96(%rsp), %rcx
	movq	48(%rsp), %rdi
	movabsq	$72354425775621674, %rsi
	jmp	.LBB44_136
.LBB44_316:
	testq	%rbp, %rbp
	je	.LBB44_231
	cmpb	$-127, %al
	jne	.LBB44_231
	movzbl	(%rcx), %eax
	testb	%al, %al
	jns	.LBB44_231
	leaq	-3(%rdx), %rbp
	subq	%rax, %rbp
	jb	.LBB44_231
	addq	$3, %rsi
.LBB44_321:
	movq	%rsi, %rcx
	jmp	.LBB44_322
.LBB44_231:
	movq	%rsp, %rdi
	movl	$48, %ecx
	callq	_RNvNtNtNtCs00000000000_7pkcs1_c6proved8der_core5split14split_unlikely
	movq	(%rsp), %rcx
	testq	%rcx, %rcx
	je	.LBB44_358
	movq	8(%rsp), %rax
	movq	24(%rsp), %rbp
.LBB44_233:
	cmpq	$2, %rax
	jb	.LBB44_234
.LBB44_322:
	cmpb	$6, (%rcx)
	jne	.LBB44_234
	leaq	2(%rcx), %r8
	leaq	-2(%rax), %rdx
	movsbq	1(%rcx), %r9
	testq	%r9, %r9
	js	.LBB44_326
	subq	%r9, %rdx
	jb	.LBB44_234
	leaq	(%r8,%r9), %rsi
	jmp	.LBB44_337
.LBB44_326:
	cmpb	$-126, %r9b
	jne	.LBB44_331
	cmpq	$1, %rdx
	jbe	.LBB44_234
	movzbl	2(%rcx), %esi
	testq	%rsi, %rsi
	je	.LBB44_234
	leaq	-4(%rax), %rdx
	shll	$8, %esi
	movzbl	3(%rcx), %r9d
	orq	%rsi, %r9
	subq	%r9, %rdx
	jb	.LBB44_234
	addq	$4, %rcx
	jmp	.LBB44_336
.LBB44_331:
	testq	%rdx, %rdx
	je	.LBB44_234
	cmpb	$-127, %r9b
	jne	.LBB44_234
	movzbl	(%r8), %r9d
	testb	%r9b, %r9b
	jns	.LBB44_234
	leaq	-3(%rax), %rdx
	subq	%r9, %rdx
	jb	.LBB44_234
	addq	$3, %rcx
.LBB44_336:
	leaq	(%rcx,%r9), %rsi
	movq	%rcx, %r8
	jmp	.LBB44_337
.LBB44_234:
	movq	%rsp, %rdi
	movq	%rcx, %rsi
	movq	%rax, %rdx
	movl	$6, %ecx
	callq	_RNvNtNtNtCs00000000000_7pkcs1_c6proved8der_core5split14split_unlikely
	movq	(%rsp), %r8
	testq	%r8, %r8
	je	.LBB44_358
	movq	8(%rsp), %r9
	movq	16(%rsp), %rsi
	movq	24(%rsp), %rdx
.LBB44_337:
	leaq	-1(%r9), %rdi
	movl	$5, %eax
	cmpq	$38, %rdi
	ja	.LBB44_409
	movq	%r9, 64(%rsp)
	movq	%r8, %r15
	movzbl	(%r8,%rdi), %ecx
	testb	%cl, %cl
	js	.LBB44_351
	movdqa	.LCPI44_1(%rip), %xmm0
	movdqa	.LCPI44_0(%rip), %xmm1
	xorl	%r8d, %r8d
	movq	%r15, %r9
	jmp	.LBB44_341
.LBB44_340:
	addq	%r11, %rdi
	addq	%r10, %r9
.LBB44_341:
	cmpq	$7, %rdi
	jbe	.LBB44_344
	movq	(%r9), %xmm2
	pcmpeqb	%xmm0, %xmm2
	pmovmskb	%xmm2, %r10d
	testb	%r10b, %r10b
	jne	.LBB44_350
	movl	$8, %r10d
	movq	$-8, %r11
	jmp	.LBB44_340
.LBB44_344:
	cmpq	$3, %rdi
	jbe	.LBB44_347
	movd	(%r9), %xmm2
	punpcklbw	%xmm2, %xmm2
	punpcklwd	%xmm2, %xmm2
	pcmpeqb	%xmm1, %xmm2
	movmskps	%xmm2, %r10d
	testl	%r10d, %r10d
	jne	.LBB44_350
	movl	$4, %r10d
	movq	$-4, %r11
	jmp	.LBB44_340
.LBB44_347:
	testq	%rdi, %rdi
	je	.LBB44_354
	cmpb	(%r9), %r8b
	jo	.LBB44_350
	movl	$1, %r10d
	movq	$-1, %r11
	jmp	.LBB44_340
.LBB44_350:
	cmpq	$0, 64(%rsp)
	je	.LBB44_354
.LBB44_351:
	xorl	%edi, %edi
	cmpb	(%r15), %dil
	jo	.LBB44_409
	cmpq	$1, 64(%rsp)
	jne	.LBB44_364
.LBB44_353:
	testb	%cl, %cl
	js	.LBB44_409
.LBB44_354:
	testq	%rdx, %rdx
	je	.LBB44_417
	movzbl	(%rsi), %ecx
	movl	%ecx, %eax
	notb	%al
	testb	$31, %al
	sete	%al
	testb	$-33, %cl
	sete	%dil
	orb	%al, %dil
	je	.LBB44_369
	movl	$11, %edx
	xorl	%eax, %eax
.LBB44_357:
	movzbl	%cl, %ecx
	orl	%ecx, %eax
	shll	$8, %eax
	orq	%rdx, %rax
	jmp	.LBB44_409
.LBB44_358:
	movzwl	8(%rsp), %ecx
	movzbl	10(%rsp), %eax
	shll	$16, %eax
	orq	%rcx, %rax
	jmp	.LBB44_409
.LBB44_359:
	cmpb	$-126, %al
	jne	.LBB44_373
	cmpq	$1, %rdi
	jbe	.LBB44_308
	movzbl	2(%rsi), %ecx
	testq	%rcx, %rcx
	je	.LBB44_308
	leaq	-4(%rdx), %rdi
	shll	$8, %ecx
	movzbl	3(%rsi), %eax
	orq	%rcx, %rax
	subq	%rax, %rdi
	jb	.LBB44_308
	addq	$4, %rsi
	jmp	.LBB44_378
.LBB44_417:
	xorl	%edx, %edx
	jmp	.LBB44_418
.LBB44_364:
	movq	64(%rsp), %rdi
	leaq	-1(%rdi), %r8
	xorl	%r9d, %r9d
	xorl	%edi, %edi
	jmp	.LBB44_366
.LBB44_365:
	incq	%rdi
	cmpq	%rdi, %r8
	je	.LBB44_353
.LBB44_366:
	cmpb	1(%r15,%rdi), %r9b
	jno	.LBB44_365
	cmpq	64(%rsp), %rdi
	jae	.LBB44_427
	cmpb	$0, (%r15,%rdi)
	js	.LBB44_365
	jmp	.LBB44_409
.LBB44_369:
	movzbl	%cl, %eax
	movq	%rax, 120(%rsp)
	cmpq	$1, %rdx
	je	.LBB44_406
	leaq	2(%rsi), %rax
	leaq	-2(%rdx), %rcx
	movsbq	1(%rsi), %rdi
	testq	%rdi, %rdi
	js	.LBB44_394
	subq	%rdi, %rcx
	jb	.LBB44_406
	movq	%rax, %rdx
	jmp	.LBB44_408
.LBB44_373:
	testq	%rdi, %rdi
	je	.LBB44_308
	cmpb	$-127, %al
	jne	.LBB44_308
	movzbl	(%r9), %eax
	testb	%al, %al
	jns	.LBB44_308
	leaq	-3(%rdx), %rdi
	subq	%rax, %rdi
	jb	.LBB44_308
	addq	$3, %rsi
.LBB44_378:
	movq	%rsi, %r9
	jmp	.LBB44_379
.LBB44_308:
	movq	%rsp, %rdi
	movl	%r13d, %ecx
	callq	_RNvNtNtNtCs00000000000_7pkcs1_c6proved8der_core5split14split_unlikely
	movq	(%rsp), %r9
	testq	%r9, %r9
	je	.LBB44_400
	movq	8(%rsp), %rax
	movq	24(%rsp), %rdi
.LBB44_379:
	movl	$12, %r8d
	testq	%rdi, %rdi
	je	.LBB44_384
.LBB44_380:
	movl	%r8d, %eax
.LBB44_381:
	shrl	$8, %eax
.LBB44_382:
	shll	$8, %eax
	movzbl	%r8b, %ecx
.LBB44_383:
	orl	%eax, %ecx
	movw	%cx, (%rbx)
	shrl	$16, %ecx
	movb	%cl, 2(%rbx)
	jmp	.LBB44_415
.LBB44_384:
	cmpq	$0, 128(%rsp)
	je	.LBB44_386
.LBB44_385:
	movb	$12, %r8b
	jmp	.LBB44_382
.LBB44_111:
	xorl	%r8d, %r8d
	movq	%r9, %rdi
	movq	72(%rsp), %rbp
	testq	%rdx, %rdx
	jne	.LBB44_110
	jmp	.LBB44_112
.LBB44_386:
	cmpq	$9, %r12
	jne	.LBB44_399
	movq	96(%rsp), %rcx
	movq	48(%rsp), %rdi
	movq	56(%rsp), %r11
	movq	104(%rsp), %r8
	movq	32(%rsp), %r10
	movabsq	$72354425775621674, %rsi
	movl	$9, %r12d
	cmpq	%rsi, (%r15)
	je	.LBB44_154
.LBB44_388:
	xorl	%edx, %edx
	testq	%r10, %r10
	sete	%sil
	orb	%r8b, %sil
	jne	.LBB44_390
.LBB44_389:
	movq	40(%rsp), %rsi
	cmpb	$-94, (%rsi)
	sete	%sil
	andb	%sil, %dl
	movb	$2, %sil
	movl	%esi, 72(%rsp)
	movl	%edx, %r8d
.LBB44_390:
	testq	%rbp, %rbp
	je	.LBB44_392
	movb	$12, (%rbx)
	jmp	.LBB44_415
.LBB44_392:
	movq	%r14, (%rbx)
	movq	80(%rsp), %rdx
	movw	%dx, 8(%rbx)
	shrl	$16, %edx
	movb	%dl, 10(%rbx)
	movb	$0, 15(%rbx)
	movl	$0, 11(%rbx)
	movq	%r11, 16(%rbx)
	movq	%rdi, 24(%rbx)
	movq	%rcx, 32(%rbx)
	movq	112(%rsp), %rcx
	movq	%rcx, 40(%rbx)
	movq	88(%rsp), %rcx
	movw	%cx, 48(%rbx)
	shrl	$16, %ecx
	movb	%cl, 50(%rbx)
	movb	$0, 55(%rbx)
	movl	$0, 51(%rbx)
	movq	160(%rsp), %rcx
	movq	%rcx, 56(%rbx)
	movq	64(%rsp), %rcx
	movq	%rcx, 64(%rbx)
	movq	152(%rsp), %rcx
	movq	%rcx, 72(%rbx)
	movq	136(%rsp), %rcx
	movq	%rcx, 80(%rbx)
	movq	120(%rsp), %rcx
	movq	%rcx, 88(%rbx)
	movq	%r15, 96(%rbx)
	movw	%r12w, 104(%rbx)
	shrl	$16, %r12d
	movb	%r12b, 106(%rbx)
	movb	$0, 111(%rbx)
	movl	$0, 107(%rbx)
	movq	%r9, 112(%rbx)
	movq	%rax, 120(%rbx)
	movq	%r13, 128(%rbx)
	movb	%r8b, 136(%rbx)
	movl	72(%rsp), %eax
	movb	%al, 137(%rbx)
	jmp	.LBB44_416
.LBB44_393:
	movzbl	10(%rsp), %eax
	shll	$16, %eax
	movzwl	8(%rsp), %edi
	orl	%eax, %edi
	movzbl	%dil, %eax
	shrl	$8, %edi
	movl	%edi, %r8d
	andl	$65280, %r8d
	jmp	.LBB44_78
.LBB44_394:
	cmpb	$-126, %dil
	jne	.LBB44_401
	cmpq	$1, %rcx
	jbe	.LBB44_406
	movzbl	2(%rsi), %eax
	testq	%rax, %rax
	je	.LBB44_406
	leaq	-4(%rdx), %rcx
	shll	$8, %eax
	movzbl	3(%rsi), %edi
	orq	%rax, %rdi
	subq	%rdi, %rcx
	jb	.LBB44_406
	addq	$4, %rsi
	movq	%rsi, %rdx
	jmp	.LBB44_408
.LBB44_399:
	xorl	%edx, %edx
	movq	96(%rsp), %rcx
	movq	48(%rsp), %rdi
	movq	56(%rsp), %r11
	movq	104(%rsp), %r8
	movq	32(%rsp), %r10
	testq	%r10, %r10
	sete	%sil
	orb	%r8b, %sil
	je	.LBB44_389
	jmp	.LBB44_390
.LBB44_400:
	movzbl	10(%rsp), %eax
	shll	$16, %eax
	movzwl	8(%rsp), %edx
	orl	%eax, %edx
	movzbl	%dl, %ecx
	movl	%edx, %eax
	shrl	$8, %eax
	movl	%eax, %r8d
	andl	$65280, %r8d
	jmp	.LBB44_286
.LBB44_401:
	testq	%rcx, %rcx
	je	.LBB44_406
	cmpb	$-127, %dil
	jne	.LBB44_406
	movzbl	(%rax), %edi
	testb	%dil, %dil
	jns	.LBB44_406
	leaq	-3(%rdx), %rcx
	subq	%rdi, %rcx
	jb	.LBB44_406
	addq	$3, %rsi
	movq	%rsi, %rdx
	jmp	.LBB44_408
.LBB44_406:
	movq	%rsp, %rdi
	movq	120(%rsp), %rcx
	callq	_RNvNtNtNtCs00000000000_7pkcs1_c6proved8der_core5split14split_unlikely
	movq	(%rsp), %rdx
	testq	%rdx, %rdx
	je	.LBB44_423
	movq	8(%rsp), %rdi
	movq	24(%rsp), %rcx
.LBB44_408:
	movl	$12, %eax
	testq	%rcx, %rcx
	je	.LBB44_418
.LBB44_409:
	movl	%eax, %ecx
	shrl	$8, %ecx
	movzwl	%cx, %ecx
	shll	$8, %ecx
	movzbl	%al, %eax
.LBB44_410:
	orq	%rcx, %rax
.LBB44_411:
	movl	%eax, %ecx
.LBB44_412:
	shrl	$8, %ecx
.LBB44_413:
	shll	$8, %ecx
	movzbl	%al, %eax
.LBB44_414:
	orl	%ecx, %eax
	movw	%ax, (%rbx)
	shrl	$16, %eax
	movb	%al, 2(%rbx)
.LBB44_415:
	movb	$2, 136(%rbx)
.LBB44_416:
	addq	$168, %rsp
	.cfi_def_cfa_offset 56
	popq	%rbx
	.cfi_def_cfa_offset 48
	popq	%r12
	.cfi_def_cfa_offset 40
	popq	%r13
	.cfi_def_cfa_offset 32
	popq	%r14
	.cfi_def_cfa_offset 24
	popq	%r15
	.cfi_def_cfa_offset 16
	popq	%rbp
	.cfi_def_cfa_offset 8
	retq
.LBB44_418:
	.cfi_def_cfa_offset 224
	movl	$12, %eax
	testq	%rbp, %rbp
	movq	72(%rsp), %rbp
	jne	.LBB44_411
	cmpq	$0, 112(%rsp)
	jne	.LBB44_288
	movq	%rdi, 136(%rsp)
	cmpq	$9, 88(%rsp)
	jne	.LBB44_422
	movq	96(%rsp), %rcx
	movq	48(%rsp), %rdi
	movq	56(%rsp), %r11
	movq	104(%rsp), %r8
	movq	32(%rsp), %r10
	movabsq	$72354425775621674, %rsi
	movq	64(%rsp), %r9
	jmp	.LBB44_125
.LBB44_422:
	movq	%rdx, 152(%rsp)
	xorl	%eax, %eax
	movq	96(%rsp), %rcx
	movq	48(%rsp), %rdi
	movq	56(%rsp), %r11
	movq	104(%rsp), %r8
	movq	32(%rsp), %r10
	movabsq	$72354425775621674, %rsi
	movq	64(%rsp), %r9
	jmp	.LBB44_136
.LBB44_423:
	movzbl	10(%rsp), %eax
	shll	$16, %eax
	movzwl	8(%rsp), %ecx
	orl	%eax, %ecx
	movzbl	%cl, %edx
	shrl	$8, %ecx
	movl	%ecx, %eax
	andl	$65280, %eax
	jmp	.LBB44_357
.LBB44_424:
	movq	%r13, %rsi
	ud2
.LBB44_425:
	movq	88(%rsp), %rsi
	ud2
.LBB44_426:
	movq	%r12, %rsi
	ud2
.LBB44_427:
	movq	64(%rsp), %rsi
	ud2
.Lfunc_end44:
	.size	_RNvNtNtNtCs00000000000_7pkcs1_c6proved12pkcs1_params6noting9note_oaep, .Lfunc_end44-_RNvNtNtNtCs00000000000_7pkcs1_c6proved12pkcs1_params6noting9note_oaep
	.cfi_endproc

	.section	.text._RNvNtNtNtCs00000000000_7pkcs1_c6proved5pkcs110viewed_key9read_list,"ax",@progbits
	.p2align	4, 0x90
	.type	_RNvNtNtNtCs00000000000_7pkcs1_c6proved5pkcs110viewed_key9read_list,@function
_RNvNtNtNtCs00000000000_7pkcs1_c6proved5pkcs110viewed_key9read_list:
	.cfi_startproc
	pushq	%rbp
	.cfi_def_cfa_offset 16
	pushq	%r15
	.cfi_def_cfa_offset 24
	pushq	%r14
	.cfi_def_cfa_offset 32
	pushq	%r13
	.cfi_def_cfa_offset 40
	pushq	%r12
	.cfi_def_cfa_offset 48
	pushq	%rbx
	.cfi_def_cfa_offset 56
	subq	$88, %rsp
	.cfi_def_cfa_offset 144
	.cfi_offset %rbx, -56
	.cfi_offset %r12, -48
	.cfi_offset %r13, -40
	.cfi_offset %r14, -32
	.cfi_offset %r15, -24
	.cfi_offset %rbp, -16
	testq	%rdx, %rdx
	je	.LBB45_7
	cmpb	$48, (%rsi)
	jne	.LBB45_9
	cmpq	$1, %rdx
	movq	%rdi, (%rsp)
	je	.LBB45_24
	leaq	2(%rsi), %r15
	leaq	-2(%rdx), %r8
	movsbq	1(%rsi), %rbp
	testq	%rbp, %rbp
	js	.LBB45_14
	subq	%rbp, %r8
	jb	.LBB45_24
	testq	%rbp, %rbp
	jne	.LBB45_26
.LBB45_6:
	testb	%cl, %cl
	movl	$48, %ecx
	movl	$2, %eax
	cmovnel	%ecx, %eax
	movb	$13, %cl
	movq	(%rsp), %rdi
	jmp	.LBB45_11
.LBB45_7:
	testb	%cl, %cl
	je	.LBB45_12
	xorb	$1, %cl
	shlb	$2, %cl
	addb	$13, %cl
	jmp	.LBB45_10
.LBB45_9:
	orb	$12, %cl
.LBB45_10:
	movw	$2, %ax
.LBB45_11:
	movb	%cl, 1(%rdi)
	movw	%ax, 2(%rdi)
	jmp	.LBB45_135
.LBB45_12:
	xorl	%ecx, %ecx
.LBB45_13:
	movq	%rcx, 8(%rdi)
	movq	%rax, 16(%rdi)
	movq	%r14, 24(%rdi)
	xorl	%eax, %eax
	jmp	.LBB45_136
.LBB45_14:
	cmpb	$-126, %bpl
	jne	.LBB45_19
	cmpq	$1, %r8
	jbe	.LBB45_24
	movzbl	2(%rsi), %eax
	testq	%rax, %rax
	je	.LBB45_24
	leaq	-4(%rdx), %r8
	shll	$8, %eax
	movzbl	3(%rsi), %ebp
	orq	%rax, %rbp
	subq	%rbp, %r8
	jb	.LBB45_24
	addq	$4, %rsi
	movq	%rsi, %r15
	jmp	.LBB45_26
.LBB45_19:
	testq	%r8, %r8
	je	.LBB45_24
	cmpb	$-127, %bpl
	jne	.LBB45_24
	movzbl	(%r15), %ebp
	testb	%bpl, %bpl
	jns	.LBB45_24
	leaq	-3(%rdx), %r8
	subq	%rbp, %r8
	jb	.LBB45_24
	addq	$3, %rsi
	movq	%rsi, %r15
	jmp	.LBB45_26
.LBB45_24:
	movl	%ecx, %ebx
	movq	%rdi, %r14
	leaq	8(%rsp), %rdi
	movl	$48, %ecx
	callq	_RNvNtNtNtCs00000000000_7pkcs1_c6proved8der_core5split14split_unlikely
	movq	8(%rsp), %r15
	testq	%r15, %r15
	je	.LBB45_124
	movq	16(%rsp), %rbp
	movq	32(%rsp), %r8
	movl	%ebx, %ecx
	testq	%rbp, %rbp
	je	.LBB45_6
.LBB45_26:
	movq	%r8, 64(%rsp)
	movl	%ecx, 60(%rsp)
	xorl	%r14d, %r14d
	movq	%r15, 72(%rsp)
	movq	%rbp, 80(%rsp)
.LBB45_27:
	cmpq	$1, %rbp
	je	.LBB45_54
	cmpb	$48, (%r15)
	jne	.LBB45_54
	leaq	2(%r15), %rsi
	leaq	-2(%rbp), %r12
	movsbq	1(%r15), %rdx
	testq	%rdx, %rdx
	js	.LBB45_33
	subq	%rdx, %r12
	jb	.LBB45_54
	leaq	(%rsi,%rdx), %r15
	cmpq	$2, %rdx
	jae	.LBB45_32
	jmp	.LBB45_113
	.p2align	4, 0x90
.LBB45_33:
	cmpb	$-126, %dl
	jne	.LBB45_38
	cmpq	$1, %r12
	jbe	.LBB45_54
	movzbl	2(%r15), %eax
	testq	%rax, %rax
	je	.LBB45_54
	leaq	-4(%rbp), %r12
	shll	$8, %eax
	movzbl	3(%r15), %edx
	orq	%rax, %rdx
	subq	%rdx, %r12
	jb	.LBB45_54
	addq	$4, %r15
	movq	%r15, %rsi
	addq	%rdx, %r15
	cmpb	$2, (%rsi)
	je	.LBB45_44
	jmp	.LBB45_113
.LBB45_38:
	testq	%r12, %r12
	je	.LBB45_54
	cmpb	$-127, %dl
	jne	.LBB45_54
	movzbl	(%rsi), %edx
	testb	%dl, %dl
	jns	.LBB45_54
	leaq	-3(%rbp), %r12
	subq	%rdx, %r12
	jb	.LBB45_54
	addq	$3, %r15
	movq	%r15, %rsi
	addq	%rdx, %r15
	cmpb	$2, (%rsi)
	je	.LBB45_44
	jmp	.LBB45_113
	.p2align	4, 0x90
.LBB45_54:
	leaq	8(%rsp), %rdi
	movq	%r15, %rsi
	movq	%rbp, %rdx
	movl	$48, %ecx
	callq	_RNvNtNtNtCs00000000000_7pkcs1_c6proved8der_core5split14split_unlikely
	movq	8(%rsp), %rsi
	testq	%rsi, %rsi
	je	.LBB45_130
	movq	16(%rsp), %rdx
	movq	24(%rsp), %r15
	movq	32(%rsp), %r12
	cmpq	$2, %rdx
	jb	.LBB45_113
.LBB45_32:
	cmpb	$2, (%rsi)
	jne	.LBB45_113
.LBB45_44:
	leaq	2(%rsi), %rdi
	leaq	-2(%rdx), %rax
	movsbq	1(%rsi), %r13
	testq	%r13, %r13
	js	.LBB45_49
	subq	%r13, %rax
	jb	.LBB45_113
	leaq	(%rdi,%r13), %rcx
	movq	%r12, %rbp
	testq	%r13, %r13
	jne	.LBB45_47
	jmp	.LBB45_115
	.p2align	4, 0x90
.LBB45_49:
	cmpb	$-126, %r13b
	jne	.LBB45_56
	cmpq	$1, %rax
	jbe	.LBB45_113
	movzbl	2(%rsi), %ecx
	testq	%rcx, %rcx
	je	.LBB45_113
	leaq	-4(%rdx), %rax
	shll	$8, %ecx
	movzbl	3(%rsi), %r13d
	orq	%rcx, %r13
	subq	%r13, %rax
	jb	.LBB45_113
	addq	$4, %rsi
	jmp	.LBB45_61
.LBB45_56:
	testq	%rax, %rax
	je	.LBB45_112
	cmpb	$-127, %r13b
	jne	.LBB45_113
	movzbl	(%rdi), %r13d
	testb	%r13b, %r13b
	jns	.LBB45_113
	leaq	-3(%rdx), %rax
	subq	%r13, %rax
	jb	.LBB45_113
	addq	$3, %rsi
.LBB45_61:
	leaq	(%rsi,%r13), %rcx
	movq	%rsi, %rdi
	movq	%r12, %rbp
	cmpb	$0, (%rdi)
	jne	.LBB45_48
.LBB45_62:
	decq	%r13
	je	.LBB45_105
	cmpb	$0, 1(%rdi)
	js	.LBB45_64
	jmp	.LBB45_128
.LBB45_105:
	movl	$1, %r13d
	cmpq	$2, %rax
	jae	.LBB45_65
	jmp	.LBB45_106
.LBB45_112:
	movl	$2, %edx
.LBB45_113:
	leaq	8(%rsp), %rdi
	movl	$2, %ecx
	callq	_RNvNtNtNtCs00000000000_7pkcs1_c6proved8der_core5split14split_unlikely
	movq	8(%rsp), %rdi
	testq	%rdi, %rdi
	je	.LBB45_132
	movq	16(%rsp), %r13
	movq	24(%rsp), %rcx
	movq	32(%rsp), %rax
	movq	%r12, %rbp
	testq	%r13, %r13
	je	.LBB45_115
	.p2align	4, 0x90
.LBB45_47:
	cmpb	$0, (%rdi)
	je	.LBB45_62
.LBB45_48:
	js	.LBB45_123
.LBB45_64:
	cmpq	$2, %rax
	jb	.LBB45_106
.LBB45_65:
	cmpb	$2, (%rcx)
	jne	.LBB45_106
	leaq	2(%rcx), %rdi
	leaq	-2(%rax), %rdx
	movsbq	1(%rcx), %rbx
	testq	%rbx, %rbx
	js	.LBB45_71
	subq	%rbx, %rdx
	jb	.LBB45_106
	leaq	(%rdi,%rbx), %rsi
	testq	%rbx, %rbx
	jne	.LBB45_69
	jmp	.LBB45_121
	.p2align	4, 0x90
.LBB45_71:
	cmpb	$-126, %bl
	jne	.LBB45_76
	cmpq	$1, %rdx
	jbe	.LBB45_106
	movzbl	2(%rcx), %esi
	testq	%rsi, %rsi
	je	.LBB45_106
	leaq	-4(%rax), %rdx
	shll	$8, %esi
	movzbl	3(%rcx), %ebx
	orq	%rsi, %rbx
	subq	%rbx, %rdx
	jb	.LBB45_106
	addq	$4, %rcx
	leaq	(%rcx,%rbx), %rsi
	movq	%rcx, %rdi
	cmpb	$0, (%rdi)
	jne	.LBB45_70
	.p2align	4, 0x90
.LBB45_82:
	decq	%rbx
	je	.LBB45_108
	cmpb	$0, 1(%rdi)
	js	.LBB45_84
	jmp	.LBB45_129
.LBB45_76:
	testq	%rdx, %rdx
	je	.LBB45_106
	cmpb	$-127, %bl
	jne	.LBB45_106
	movzbl	(%rdi), %ebx
	testb	%bl, %bl
	jns	.LBB45_106
	leaq	-3(%rax), %rdx
	subq	%rbx, %rdx
	jb	.LBB45_106
	addq	$3, %rcx
	leaq	(%rcx,%rbx), %rsi
	movq	%rcx, %rdi
	cmpb	$0, (%rdi)
	jne	.LBB45_70
	jmp	.LBB45_82
.LBB45_106:
	leaq	8(%rsp), %rdi
	movq	%rcx, %rsi
	movq	%rax, %rdx
	movl	$2, %ecx
	callq	_RNvNtNtNtCs00000000000_7pkcs1_c6proved8der_core5split14split_unlikely
	movq	8(%rsp), %rdi
	testq	%rdi, %rdi
	je	.LBB45_132
	movq	16(%rsp), %rbx
	movq	24(%rsp), %rsi
	movq	32(%rsp), %rdx
	testq	%rbx, %rbx
	je	.LBB45_121
.LBB45_69:
	cmpb	$0, (%rdi)
	je	.LBB45_82
.LBB45_70:
	js	.LBB45_125
.LBB45_84:
	cmpq	$2, %rdx
	jb	.LBB45_109
.LBB45_85:
	cmpb	$2, (%rsi)
	jne	.LBB45_109
	leaq	2(%rsi), %rdi
	leaq	-2(%rdx), %rcx
	movsbq	1(%rsi), %rax
	testq	%rax, %rax
	js	.LBB45_91
	subq	%rax, %rcx
	jb	.LBB45_109
	testq	%rax, %rax
	jne	.LBB45_89
	jmp	.LBB45_122
	.p2align	4, 0x90
.LBB45_91:
	cmpb	$-126, %al
	jne	.LBB45_96
	cmpq	$1, %rcx
	jbe	.LBB45_109
	movzbl	2(%rsi), %edi
	testq	%rdi, %rdi
	je	.LBB45_109
	leaq	-4(%rdx), %rcx
	shll	$8, %edi
	movzbl	3(%rsi), %eax
	orq	%rdi, %rax
	subq	%rax, %rcx
	jb	.LBB45_109
	addq	$4, %rsi
	movq	%rsi, %rdi
	cmpb	$0, (%rdi)
	jne	.LBB45_90
	.p2align	4, 0x90
.LBB45_101:
	decq	%rax
	je	.LBB45_111
	cmpb	$0, 1(%rdi)
	js	.LBB45_103
	jmp	.LBB45_131
.LBB45_96:
	testq	%rcx, %rcx
	je	.LBB45_109
	cmpb	$-127, %al
	jne	.LBB45_109
	movzbl	(%rdi), %eax
	testb	%al, %al
	jns	.LBB45_109
	leaq	-3(%rdx), %rcx
	subq	%rax, %rcx
	jb	.LBB45_109
	addq	$3, %rsi
	movq	%rsi, %rdi
	cmpb	$0, (%rdi)
	jne	.LBB45_90
	jmp	.LBB45_101
.LBB45_108:
	movl	$1, %ebx
	cmpq	$2, %rdx
	jae	.LBB45_85
.LBB45_109:
	leaq	8(%rsp), %rdi
	movl	$2, %ecx
	callq	_RNvNtNtNtCs00000000000_7pkcs1_c6proved8der_core5split14split_unlikely
	movq	8(%rsp), %rdi
	testq	%rdi, %rdi
	je	.LBB45_132
	movq	16(%rsp), %rax
	movq	32(%rsp), %rcx
	testq	%rax, %rax
	je	.LBB45_122
.LBB45_89:
	cmpb	$0, (%rdi)
	je	.LBB45_101
.LBB45_90:
	js	.LBB45_126
.LBB45_103:
	testq	%rcx, %rcx
	jne	.LBB45_116
.LBB45_104:
	incq	%r14
	movq	%rax, 40(%rsp)
	movq	%rbx, 48(%rsp)
	movq	%r13, %rbx
	testq	%rbp, %rbp
	jne	.LBB45_27
	jmp	.LBB45_117
.LBB45_111:
	movl	$1, %eax
	testq	%rcx, %rcx
	je	.LBB45_104
.LBB45_116:
	movl	$12, %ebx
	jmp	.LBB45_133
.LBB45_117:
	movb	$13, %cl
	movw	$2, %ax
	cmpb	$0, 60(%rsp)
	movq	(%rsp), %rdi
	je	.LBB45_11
	testq	%r14, %r14
	je	.LBB45_137
	cmpq	$0, 64(%rsp)
	movq	80(%rsp), %rax
	movq	72(%rsp), %rcx
	je	.LBB45_13
	movb	$12, %cl
	jmp	.LBB45_11
.LBB45_115:
	andq	$-65536, %rbx
	orq	$515, %rbx
	jmp	.LBB45_133
.LBB45_121:
	movq	48(%rsp), %rbx
	andq	$-65536, %rbx
	orq	$515, %rbx
	jmp	.LBB45_133
.LBB45_122:
	movq	40(%rsp), %rbx
	andq	$-65536, %rbx
	orq	$515, %rbx
	jmp	.LBB45_133
.LBB45_123:
	andq	$-65536, %rbx
	orq	$525, %rbx
	jmp	.LBB45_133
.LBB45_124:
	movzbl	18(%rsp), %eax
	shll	$16, %eax
	movzwl	16(%rsp), %ebx
	orl	%eax, %ebx
	movq	%r14, %rdi
	jmp	.LBB45_134
.LBB45_132:
	movzwl	16(%rsp), %eax
	movzbl	18(%rsp), %ebx
	shll	$16, %ebx
	orq	%rax, %rbx
	jmp	.LBB45_133
.LBB45_125:
	movq	48(%rsp), %rbx
	andq	$-65536, %rbx
	orq	$525, %rbx
	jmp	.LBB45_133
.LBB45_126:
	movq	40(%rsp), %rbx
	andq	$-65536, %rbx
	orq	$525, %rbx
	jmp	.LBB45_133
.LBB45_128:
	andq	$-65536, %rbx
	orq	$516, %rbx
	jmp	.LBB45_133
.LBB45_129:
	movq	48(%rsp), %rbx
	andq	$-65536, %rbx
	orq	$516, %rbx
	jmp	.LBB45_133
.LBB45_130:
	movzbl	18(%rsp), %eax
	shll	$16, %eax
	movzwl	16(%rsp), %ebx
	orl	%eax, %ebx
	jmp	.LBB45_133
.LBB45_131:
	movq	40(%rsp), %rbx
	andq	$-65536, %rbx
	orq	$516, %rbx
.LBB45_133:
	movq	(%rsp), %rdi
.LBB45_134:
	movw	%bx, 1(%rdi)
	shrl	$16, %ebx
	movb	%bl, 3(%rdi)
.LBB45_135:
	movb	$1, %al
.LBB45_136:
	movb	%al, (%rdi)
	addq	$88, %rsp
	.cfi_def_cfa_offset 56
	popq	%rbx
	.cfi_def_cfa_offset 48
	popq	%r12
	.cfi_def_cfa_offset 40
	popq	%r13
	.cfi_def_cfa_offset 32
	popq	%r14
	.cfi_def_cfa_offset 24
	popq	%r15
	.cfi_def_cfa_offset 16
	popq	%rbp
	.cfi_def_cfa_offset 8
	retq
.LBB45_137:
	.cfi_def_cfa_offset 144
	movw	$48, %ax
	jmp	.LBB45_11
.Lfunc_end45:
	.size	_RNvNtNtNtCs00000000000_7pkcs1_c6proved5pkcs110viewed_key9read_list, .Lfunc_end45-_RNvNtNtNtCs00000000000_7pkcs1_c6proved5pkcs110viewed_key9read_list
	.cfi_endproc

	.type	.Lanon.0,@object
	.section	.rodata..Lanon.0,"a",@progbits
.Lanon.0:
	.asciz	"another error"
	.size	.Lanon.0, 14

	.type	.Lanon.1,@object
	.section	.rodata..Lanon.1,"a",@progbits
.Lanon.1:
	.asciz	"0.8.1"
	.size	.Lanon.1, 6

	.type	.Lanon.10,@object
	.section	.rodata..Lanon.10,"a",@progbits
.Lanon.10:
	.asciz	"the contents are not in shortest form: needless zeros in front, or (strict) a default written out"
	.size	.Lanon.10, 98

	.type	.Lanon.11,@object
	.section	.rodata..Lanon.11,"a",@progbits
.Lanon.11:
	.asciz	"the object identifier is malformed: empty, cut off, not in shortest form, or over 39 octets"
	.size	.Lanon.11, 92

	.type	.Lanon.12,@object
	.section	.rodata..Lanon.12,"a",@progbits
.Lanon.12:
	.asciz	"the object identifier is another one: another algorithm, or PKCS #8 with no RSA key or an RSA-PSS key"
	.size	.Lanon.12, 102

	.type	.Lanon.13,@object
	.section	.rodata..Lanon.13,"a",@progbits
.Lanon.13:
	.asciz	"a length passes the limit of 4294967295 octets, or stands in more than four octets"
	.size	.Lanon.13, 83

	.type	.Lanon.14,@object
	.section	.rodata..Lanon.14,"a",@progbits
.Lanon.14:
	.asciz	"the length is not in shortest form: this is not DER"
	.size	.Lanon.14, 52

	.type	.Lanon.15,@object
	.section	.rodata..Lanon.15,"a",@progbits
.Lanon.15:
	.asciz	"the algorithm parameters are missing: rsaEncryption needs NULL, RSASSA-PSS and RSAES-OAEP a SEQUENCE"
	.size	.Lanon.15, 101

	.type	.Lanon.16,@object
	.section	.rodata..Lanon.16,"a",@progbits
.Lanon.16:
	.asciz	"another tag was expected: the input may be PEM, PKCS #1, PKCS #8, SubjectPublicKeyInfo or an encrypted key"
	.size	.Lanon.16, 107

	.type	.Lanon.17,@object
	.section	.rodata..Lanon.17,"a",@progbits
.Lanon.17:
	.asciz	"the tag octet is not known: this is not DER of a key or of parameters"
	.size	.Lanon.17, 70

	.type	.Lanon.18,@object
	.section	.rodata..Lanon.18,"a",@progbits
.Lanon.18:
	.asciz	"bytes follow the value, or a field that it does not have: a private key read as a public one, perhaps"
	.size	.Lanon.18, 102

	.type	.Lanon.19,@object
	.section	.rodata..Lanon.19,"a",@progbits
.Lanon.19:
	.asciz	"the value is not allowed: negative, salt over 255, another version, trailer or NULL; a public key, perhaps"
	.size	.Lanon.19, 107

	.type	.Lanon.2,@object
	.section	.rodata..Lanon.2,"a",@progbits
.Lanon.2:
	.ascii	"+\016\003\002\032"
	.size	.Lanon.2, 5

	.type	.Lanon.20,@object
	.section	.rodata..Lanon.20,"a",@progbits
.Lanon.20:
	.asciz	"there is too little room for the encoding"
	.size	.Lanon.20, 42

	.type	.Lanon.21,@object
	.section	.rodata..Lanon.21,"a",@progbits
.Lanon.21:
	.asciz	"a read or a write failed"
	.size	.Lanon.21, 25

	.type	.Lanon.22,@object
	.section	.rodata..Lanon.22,"a",@progbits
.Lanon.22:
	.asciz	"no memory was found"
	.size	.Lanon.22, 20

	.type	.Lanon.23,@object
	.section	.rodata..Lanon.23,"a",@progbits
.Lanon.23:
	.asciz	"the other primes are not as many as the key says"
	.size	.Lanon.23, 49

	.type	.Lanon.24,@object
	.section	.rodata..Lanon.24,"a",@progbits
.Lanon.24:
	.ascii	"*\206H\206\367\r\001\001\007"
	.size	.Lanon.24, 9

	.type	.Lanon.25,@object
	.section	.rodata..Lanon.25,"a",@progbits
.Lanon.25:
	.ascii	"*\206H\206\367\r\001\001\n"
	.size	.Lanon.25, 9

	.type	.Lanon.26,@object
	.section	.rodata..Lanon.26,"a",@progbits
.Lanon.26:
	.ascii	"*\206H\206\367\r\001\001\001"
	.size	.Lanon.26, 9

	.type	.Lanon.3,@object
	.section	.rodata..Lanon.3,"a",@progbits
.Lanon.3:
	.ascii	"*\206H\206\367\r\001\001\b"
	.size	.Lanon.3, 9

	.type	.Lanon.4,@object
	.section	.rodata..Lanon.4,"a",@progbits
.Lanon.4:
	.ascii	"*\206H\206\367\r\001\001\t"
	.size	.Lanon.4, 9

	.type	.Lanon.5,@object
	.section	.rodata..Lanon.5,"a",@progbits
.Lanon.5:
	.asciz	"no error"
	.size	.Lanon.5, 9

	.type	.Lanon.6,@object
	.section	.rodata..Lanon.6,"a",@progbits
.Lanon.6:
	.asciz	"an earlier read failed"
	.size	.Lanon.6, 23

	.type	.Lanon.7,@object
	.section	.rodata..Lanon.7,"a",@progbits
.Lanon.7:
	.asciz	"the input ends too early: it is empty or cut off, or a field is missing"
	.size	.Lanon.7, 72

	.type	.Lanon.8,@object
	.section	.rodata..Lanon.8,"a",@progbits
.Lanon.8:
	.asciz	"the length is indefinite: this is BER, not DER"
	.size	.Lanon.8, 47

	.type	.Lanon.9,@object
	.section	.rodata..Lanon.9,"a",@progbits
.Lanon.9:
	.asciz	"the contents have a wrong length: a number has no octets"
	.size	.Lanon.9, 57

	.type	.Lswitch.table.pkcs1_c_status_text,@object
	.section	.rodata..Lswitch.table.pkcs1_c_status_text,"a",@progbits
	.p2align	3, 0x0
.Lswitch.table.pkcs1_c_status_text:
	.quad	9
	.quad	23
	.quad	72
	.quad	47
	.quad	57
	.quad	98
	.quad	92
	.quad	102
	.quad	83
	.quad	52
	.quad	101
	.quad	107
	.quad	70
	.quad	102
	.quad	107
	.quad	42
	.quad	25
	.quad	20
	.quad	14
	.quad	14
	.quad	14
	.quad	49
	.size	.Lswitch.table.pkcs1_c_status_text, 176

	.type	.Lswitch.table.pkcs1_c_status_text.20,@object
	.section	.data.rel.ro..Lswitch.table.pkcs1_c_status_text.20,"aw",@progbits
	.p2align	3, 0x0
.Lswitch.table.pkcs1_c_status_text.20:
	.quad	.Lanon.5
	.quad	.Lanon.6
	.quad	.Lanon.7
	.quad	.Lanon.8
	.quad	.Lanon.9
	.quad	.Lanon.10
	.quad	.Lanon.11
	.quad	.Lanon.12
	.quad	.Lanon.13
	.quad	.Lanon.14
	.quad	.Lanon.15
	.quad	.Lanon.16
	.quad	.Lanon.17
	.quad	.Lanon.18
	.quad	.Lanon.19
	.quad	.Lanon.20
	.quad	.Lanon.21
	.quad	.Lanon.22
	.quad	.Lanon.0
	.quad	.Lanon.0
	.quad	.Lanon.0
	.quad	.Lanon.23
	.size	.Lswitch.table.pkcs1_c_status_text.20, 176

	.type	_RNvNtCs00000000000_7pkcs1_c10rattle_std8AN_OCTET,@object
	.section	.rodata._RNvNtCs00000000000_7pkcs1_c10rattle_std8AN_OCTET,"a",@progbits
_RNvNtCs00000000000_7pkcs1_c10rattle_std8AN_OCTET:
	.zero	1
	.size	_RNvNtCs00000000000_7pkcs1_c10rattle_std8AN_OCTET, 1

	.section	".note.GNU-stack","",@progbits
	.section	".note.gnu.property","a",@note
	.p2align	3
	.long	4
	.long	16
	.long	5
	.asciz	"GNU"
	.long	3221225474
	.long	4
	.long	3
	.long	0
