	.file	"rattle"
	.section	".text.scq_c::opening::boxed","ax",@progbits
	.p2align	4                               # -- Begin function scq_c::opening::boxed
	.type	"scq_c::opening::boxed",@function
"scq_c::opening::boxed":                # @"scq_c::opening::boxed"
# %bb.0:                                # %start
	pushq	%rbp
	pushq	%r15
	pushq	%r14
	pushq	%r13
	pushq	%r12
	pushq	%rbx
	subq	$2376, %rsp                     # imm = 0x948
	movl	%edx, %r15d
	movq	%rdi, 384(%rsp)                 # 8-byte Spill
	movups	(%rsi), %xmm0
	movaps	%xmm0, 64(%rsp)                 # 16-byte Spill
	movl	(%rsi), %r14d
	movq	16(%rsi), %rax
	movq	%rax, 400(%rsp)                 # 8-byte Spill
	leaq	1976(%rsp), %rdi
	xorl	%ebx, %ebx
	movl	$400, %edx                      # imm = 0x190
	xorl	%esi, %esi
	callq	memset@PLT
	leaq	1568(%rsp), %rdi
	movl	$408, %edx                      # imm = 0x198
	xorl	%esi, %esi
	callq	memset@PLT
	xorps	%xmm0, %xmm0
	movaps	%xmm0, 1152(%rsp)
	movaps	%xmm0, 1168(%rsp)
	movaps	%xmm0, 928(%rsp)
	movq	$0, 944(%rsp)
	movaps	%xmm0, 1344(%rsp)
	movaps	%xmm0, 1360(%rsp)
	movaps	%xmm0, 1376(%rsp)
	movaps	%xmm0, 1392(%rsp)
	movaps	%xmm0, 1408(%rsp)
	movaps	%xmm0, 1424(%rsp)
	movaps	%xmm0, 1440(%rsp)
	movaps	%xmm0, 1456(%rsp)
	movaps	%xmm0, 1472(%rsp)
	movaps	%xmm0, 1488(%rsp)
	movaps	%xmm0, 1504(%rsp)
	movaps	%xmm0, 1520(%rsp)
	movaps	%xmm0, 1536(%rsp)
	movaps	%xmm0, 1552(%rsp)
	movaps	%xmm0, 896(%rsp)
	movq	$0, 912(%rsp)
	movaps	%xmm0, 1184(%rsp)
	leal	1(%r14), %r12d
	movl	%r12d, %r13d
	subl	$3, %r13d
	cmovbl	%ebx, %r13d
	movq	$0, 1200(%rsp)
	movq	$-1, %rax
	movq	$-1, %rdx
	movl	%r13d, %ecx
	shlq	%cl, %rdx
	movq	%rdx, 32(%rsp)                  # 8-byte Spill
	movl	%r12d, %ecx
	shlq	%cl, %rax
	movq	%rax, 24(%rsp)                  # 8-byte Spill
	movl	$1, %ebx
	movl	%r14d, %ecx
	shll	%cl, %ebx
	movl	$1, %esi
	xorl	%edi, %edi
	callq	rattle_alloc@PLT
	testb	$1, %al
	je	.LBB0_136
# %bb.1:                                # %arm.1.i
	movq	%rdx, %rbp
	movq	%r13, 96(%rsp)                  # 8-byte Spill
	movl	%r12d, 88(%rsp)                 # 4-byte Spill
	xorps	%xmm0, %xmm0
	movaps	%xmm0, 832(%rsp)
	movq	$0, 848(%rsp)
	movaps	%xmm0, 992(%rsp)
	movq	$0, 1008(%rsp)
	movaps	%xmm0, 1280(%rsp)
	movq	$0, 1296(%rsp)
	movaps	%xmm0, 960(%rsp)
	movq	$0, 976(%rsp)
	movaps	64(%rsp), %xmm0                 # 16-byte Reload
	extractps	$2, %xmm0, %r13d
	testl	%r13d, %r13d
	je	.LBB0_6
# %bb.2:                                # %"std_alloc::vec::resize::<#2923e4ee7bb015e8>.exit.i.i.i.i"
	movq	%r14, %r12
	movq	%rbx, %r14
	movq	%r13, %rax
	shlq	$5, %rax
	leaq	(%rax,%rax,2), %rdi
	movl	$8, %esi
	callq	rattle_alloc@PLT
	testb	$1, %al
	je	.LBB0_134
# %bb.3:                                # %"std_alloc::vec::resize::<#f4318c47d354a1ca>.exit.i.i.i.i"
	movq	%rdx, %rbx
	movl	%r15d, 364(%rsp)                # 4-byte Spill
	leaq	(,%r13,8), %rax
	leaq	(%rax,%rax,2), %rdi
	movl	$8, %esi
	callq	rattle_alloc@PLT
	testb	$1, %al
	je	.LBB0_31
# %bb.4:                                # %"std_alloc::vec::resize::<#42f37edd1657e19d>.exit.i.i.i.i"
	movq	%rdx, %r15
	movl	$1, %esi
	movq	%r13, %rdi
	callq	rattle_alloc@PLT
	testb	$1, %al
	je	.LBB0_32
# %bb.5:                                # %"std_alloc::vec::Vec::move_to::<#42f37edd1657e19d>.exit.thread.i.i.i"
	movq	%rbx, 104(%rsp)                 # 8-byte Spill
	movq	%rdx, 392(%rsp)                 # 8-byte Spill
	movq	%r14, %rbx
	movq	%r12, %r14
	jmp	.LBB0_7
.LBB0_6:
	movl	%r15d, 364(%rsp)                # 4-byte Spill
	movq	%rsp, %r15
	movq	%r15, 104(%rsp)                 # 8-byte Spill
	movq	%r15, 392(%rsp)                 # 8-byte Spill
.LBB0_7:                                # %arm.8.i.i
	xorps	%xmm0, %xmm0
	movaps	%xmm0, 1216(%rsp)
	movq	$0, 1232(%rsp)
	movaps	%xmm0, 1056(%rsp)
	movq	$0, 1072(%rsp)
	movaps	%xmm0, 1024(%rsp)
	movq	$0, 1040(%rsp)
	movaps	%xmm0, 1088(%rsp)
	movq	$0, 1104(%rsp)
	movaps	%xmm0, 1312(%rsp)
	movq	$0, 1328(%rsp)
	movq	$0, 424(%rsp)
	movl	$24, %edi
	movl	%r14d, %ecx
	shlq	%cl, %rdi
	movl	$8, %esi
	callq	rattle_alloc@PLT
	testb	$1, %al
	je	.LBB0_129
# %bb.8:
	movq	%r14, 192(%rsp)                 # 8-byte Spill
	movq	%r15, 40(%rsp)                  # 8-byte Spill
	movq	%rbp, 80(%rsp)                  # 8-byte Spill
	movq	%r13, 16(%rsp)                  # 8-byte Spill
	movq	%rdx, 416(%rsp)
	movq	%rbx, 432(%rsp)
	xorl	%r14d, %r14d
	movq	%rbx, 128(%rsp)                 # 8-byte Spill
	movq	%rbx, %r15
	jmp	.LBB0_11
.LBB0_9:                                # %"std_alloc::vec::Vec::grow::<#0152034d78aea1d1>.exit.join.3_crit_edge.i.i.i.i.i.i.i"
                                        #   in Loop: Header=BB0_11 Depth=1
	movq	416(%rsp), %rdx
	movq	424(%rsp), %r13
	.p2align	4
.LBB0_10:                               # %arm.10.i.i.i.i.i.i
                                        #   in Loop: Header=BB0_11 Depth=1
	leaq	(,%r13,2), %rax
	addq	%r13, %rax
	movq	%rsp, %rbx
	movq	%rbx, (%rdx,%rax,8)
	leaq	1(%r13), %r14
	xorps	%xmm0, %xmm0
	movups	%xmm0, 8(%rdx,%rax,8)
	movq	%r14, 424(%rsp)
	decq	%r15
	je	.LBB0_18
.LBB0_11:                               # %join.9.i.i.i.i.i.i
                                        # =>This Inner Loop Header: Depth=1
	movq	%r14, %r13
	cmpq	%r14, 432(%rsp)
	jne	.LBB0_10
# %bb.12:                               # %"std_alloc::vec::Vec::grow::<#0152034d78aea1d1>.exit.i.i.i.i.i.i.i"
                                        #   in Loop: Header=BB0_11 Depth=1
	leaq	416(%rsp), %rdi
	callq	"std_alloc::vec::Vec::grow_amortized::<#0152034d78aea1d1>"
	testb	%al, %al
	jne	.LBB0_9
# %bb.13:                               # %"core::result::ResultFromResidualErrResidual::from_residual::<#a8cfdb662d7a30ed>.exit.i.i.i.i.i.i"
	movq	416(%rsp), %rbx
	movq	424(%rsp), %r15
	movq	432(%rsp), %r14
	testq	%r15, %r15
	movq	16(%rsp), %r13                  # 8-byte Reload
	je	.LBB0_104
# %bb.14:                               # %join.5.i.i.i.i.i21.i.i.i.i.i.i.preheader
	leaq	16(%rbx), %r12
	jmp	.LBB0_16
.LBB0_15:                               # %"core::mem::drop::<#426bf5ba2825d3de>.exit.i.i.i.i.i30.i.i.i.i.i.i"
                                        #   in Loop: Header=BB0_16 Depth=1
	addq	$24, %r12
	decq	%r15
	je	.LBB0_104
.LBB0_16:                               # %join.5.i.i.i.i.i21.i.i.i.i.i.i
                                        # =>This Inner Loop Header: Depth=1
	cmpq	$0, (%r12)
	je	.LBB0_15
# %bb.17:                               # %then.1.i.i.i.i.i.i.i.i.i.i28.i.i.i.i.i.i
                                        #   in Loop: Header=BB0_16 Depth=1
	movq	-16(%r12), %rdi
	callq	rattle_dealloc@PLT
	jmp	.LBB0_15
.LBB0_18:                               # %arm.1.i.i.i.i.i
	movq	416(%rsp), %rax
	movq	%rax, 112(%rsp)                 # 8-byte Spill
	movq	432(%rsp), %rax
	movq	%rax, 376(%rsp)                 # 8-byte Spill
	movups	%xmm0, 1263(%rsp)
	movaps	%xmm0, 1248(%rsp)
	movaps	%xmm0, 864(%rsp)
	movaps	%xmm0, 880(%rsp)
	movaps	%xmm0, 416(%rsp)
	movaps	%xmm0, 432(%rsp)
	movaps	%xmm0, 448(%rsp)
	movq	%rbx, 200(%rsp)
	movups	%xmm0, 208(%rsp)
	movaps	64(%rsp), %xmm0                 # 16-byte Reload
	extractps	$1, %xmm0, %r15d
	testl	%r15d, %r15d
	movq	40(%rsp), %r12                  # 8-byte Reload
	je	.LBB0_21
# %bb.19:                               # %join.3.i.i.i.i.i.i.i.i
	movq	%r15, %rax
	shlq	$4, %rax
	leaq	(%rax,%rax,2), %rdi
	movl	$8, %esi
	callq	rattle_alloc@PLT
	testb	$1, %al
	je	.LBB0_25
# %bb.20:
	movq	%rdx, %rbx
	movq	%rdx, 200(%rsp)
	movq	%r15, 216(%rsp)
.LBB0_21:                               # %arm.1.i.i.i.i.i.i.i
	movq	%r15, 56(%rsp)                  # 8-byte Spill
	xorps	%xmm0, %xmm0
	movaps	%xmm0, 240(%rsp)
	movaps	%xmm0, 224(%rsp)
	movl	$2, %r15d
	movq	192(%rsp), %rcx                 # 8-byte Reload
	shll	%cl, %r15d
	leaq	224(%rsp), %rdi
	movl	%ecx, %esi
	callq	"scq_core::ring::unused"
	cmpb	$0, 224(%rsp)
	je	.LBB0_33
.LBB0_22:                               # %arm.6.i.i.i.i.i.i.i
	cmpq	$0, 56(%rsp)                    # 8-byte Folded Reload
	je	.LBB0_25
# %bb.23:                               # %then.1.i.i.i54.i.i.i.i.i.i.i
	movq	%rbx, %rdi
.LBB0_24:                               # %"scq_core::state::start_rings.exit.thread.i.i.i.i.i.i"
	callq	rattle_dealloc@PLT
.LBB0_25:                               # %"scq_core::state::start_rings.exit.thread.i.i.i.i.i.i"
	movq	%r12, %r15
.LBB0_26:                               # %arm.2.i9.i.i.i.i.i
	testq	%r14, %r14
	movq	80(%rsp), %rbp                  # 8-byte Reload
	je	.LBB0_126
# %bb.27:                               # %join.5.i.i.i.i.i.i.i.i.i.i.i.preheader
	incq	%r13
	movq	112(%rsp), %rax                 # 8-byte Reload
	leaq	16(%rax), %rbx
	jmp	.LBB0_29
	.p2align	4
.LBB0_28:                               # %"core::mem::drop::<#9fc2d86ad1f37d9e>.exit.i.i.i.i.i.i.i.i.i.i.i"
                                        #   in Loop: Header=BB0_29 Depth=1
	addq	$24, %rbx
	decq	%r13
	je	.LBB0_126
.LBB0_29:                               # %join.5.i.i.i.i.i.i.i.i.i.i.i
                                        # =>This Inner Loop Header: Depth=1
	cmpq	$0, (%rbx)
	je	.LBB0_28
# %bb.30:                               # %then.1.i.i.i.i.i.i.i.i.i.i.i.i.i.i.i.i
                                        #   in Loop: Header=BB0_29 Depth=1
	movq	-16(%rbx), %rdi
	callq	rattle_dealloc@PLT
	jmp	.LBB0_28
.LBB0_31:                               # %"std_alloc::vec::Vec::destroy_empty::<#2923e4ee7bb015e8>.exit.i.i"
	movq	%rbx, %rdi
	jmp	.LBB0_133
.LBB0_32:                               # %"std_alloc::vec::Vec::drop::<#ef7b945cfcdca3a1>.exit.i.i"
	movq	%rbx, %rdi
	jmp	.LBB0_132
.LBB0_33:                               # %arm.1.i.i.i.i.i.i.i.i
	movq	%r15, 160(%rsp)                 # 8-byte Spill
	movq	232(%rsp), %rax
	movq	%rax, 48(%rsp)                  # 8-byte Spill
	movq	240(%rsp), %rax
	movq	%rax, 168(%rsp)                 # 8-byte Spill
	movq	248(%rsp), %rax
	movq	%rax, 176(%rsp)                 # 8-byte Spill
	testq	%r14, %r14
	je	.LBB0_60
# %bb.34:                               # %join.9.i.i.preheader.i.i.i.i.i.i
	movq	32(%rsp), %rax                  # 8-byte Reload
	notq	%rax
	movq	%rax, 352(%rsp)                 # 8-byte Spill
	movq	24(%rsp), %rax                  # 8-byte Reload
	movq	%rax, %rcx
	notq	%rcx
	movq	%rcx, 184(%rsp)                 # 8-byte Spill
	leaq	(%rax,%rax,2), %rax
	negq	%rax
	movq	%rax, 136(%rsp)                 # 8-byte Spill
	xorl	%eax, %eax
	jmp	.LBB0_36
	.p2align	4
.LBB0_35:                               # %"scq_core::ring::fill.exit.i.i.i.i.i.i.i.i"
                                        #   in Loop: Header=BB0_36 Depth=1
	cmpq	%r13, %r15
	leaq	1(%r15), %rax
	je	.LBB0_60
.LBB0_36:                               # %join.9.i.i.i.i.i.i.i.i
                                        # =>This Loop Header: Depth=1
                                        #     Child Loop BB0_47 Depth 2
                                        #     Child Loop BB0_51 Depth 2
                                        #     Child Loop BB0_55 Depth 2
                                        #     Child Loop BB0_57 Depth 2
	movq	%rax, 8(%rsp)                   # 8-byte Spill
	leaq	(%rax,%rax,2), %rax
	movq	112(%rsp), %rcx                 # 8-byte Reload
	movq	(%rcx,%rax,8), %r15
	movq	8(%rcx,%rax,8), %rbp
	testq	%rbp, %rbp
	je	.LBB0_44
# %bb.37:                               # %then.2.i.i.i.i.i.i.i.i.i.i.i
                                        #   in Loop: Header=BB0_36 Depth=1
	js	.LBB0_69
# %bb.38:                               # %"std_alloc::vec::resize::<#4c1919f637999ecc>.exit.i.i.i.i.i.i.i.i.i.i.i.i"
                                        #   in Loop: Header=BB0_36 Depth=1
	movl	$1, %esi
	movq	%rbp, %rdi
	callq	rattle_alloc@PLT
	testb	$1, %al
	je	.LBB0_69
# %bb.39:                               # %"std_alloc::vec::Vec::move_to::<#4c1919f637999ecc>.exit.i.i.i.i.i.i.i.i.i.i.i"
                                        #   in Loop: Header=BB0_36 Depth=1
	movq	%rdx, %r12
	movq	%r12, %rcx
	subq	%r15, %rcx
	cmpq	%rbp, %rcx
	jae	.LBB0_45
.LBB0_40:                               # %iter.check
                                        #   in Loop: Header=BB0_36 Depth=1
	xorl	%eax, %eax
	cmpq	$4, %rbp
	jb	.LBB0_53
# %bb.41:                               # %iter.check
                                        #   in Loop: Header=BB0_36 Depth=1
	cmpq	$32, %rcx
	jb	.LBB0_53
# %bb.42:                               # %vector.main.loop.iter.check
                                        #   in Loop: Header=BB0_36 Depth=1
	cmpq	$32, %rbp
	jae	.LBB0_46
# %bb.43:                               #   in Loop: Header=BB0_36 Depth=1
	xorl	%eax, %eax
	jmp	.LBB0_50
.LBB0_44:                               #   in Loop: Header=BB0_36 Depth=1
	movq	%rsp, %r12
	movq	%r12, %rcx
	subq	%r15, %rcx
	cmpq	%rbp, %rcx
	jb	.LBB0_40
.LBB0_45:                               # %apart.2.i.i.i.i.i.i.i.i.i.i.i.i.i
                                        #   in Loop: Header=BB0_36 Depth=1
	movq	%r12, %rdi
	movq	%r15, %rsi
	movq	%rbp, %rdx
	callq	memmove@PLT
	jmp	.LBB0_58
.LBB0_46:                               # %vector.ph
                                        #   in Loop: Header=BB0_36 Depth=1
	movq	%rbp, %rax
	andq	$-32, %rax
	xorl	%ecx, %ecx
	.p2align	4
.LBB0_47:                               # %vector.body
                                        #   Parent Loop BB0_36 Depth=1
                                        # =>  This Inner Loop Header: Depth=2
	movups	(%r15,%rcx), %xmm0
	movdqu	16(%r15,%rcx), %xmm1
	movups	%xmm0, (%r12,%rcx)
	movdqu	%xmm1, 16(%r12,%rcx)
	addq	$32, %rcx
	cmpq	%rcx, %rax
	jne	.LBB0_47
# %bb.48:                               # %middle.block
                                        #   in Loop: Header=BB0_36 Depth=1
	cmpq	%rax, %rbp
	je	.LBB0_58
# %bb.49:                               # %vec.epilog.iter.check
                                        #   in Loop: Header=BB0_36 Depth=1
	testb	$28, %bpl
	je	.LBB0_53
.LBB0_50:                               # %vec.epilog.ph
                                        #   in Loop: Header=BB0_36 Depth=1
	movq	%rax, %rcx
	movq	%rbp, %rax
	andq	$-4, %rax
	.p2align	4
.LBB0_51:                               # %vec.epilog.vector.body
                                        #   Parent Loop BB0_36 Depth=1
                                        # =>  This Inner Loop Header: Depth=2
	movl	(%r15,%rcx), %edx
	movl	%edx, (%r12,%rcx)
	addq	$4, %rcx
	cmpq	%rcx, %rax
	jne	.LBB0_51
# %bb.52:                               # %vec.epilog.middle.block
                                        #   in Loop: Header=BB0_36 Depth=1
	cmpq	%rax, %rbp
	je	.LBB0_58
.LBB0_53:                               # %join.7.i.i.i.i.i.i.i.i.i.i.i.i.i.preheader
                                        #   in Loop: Header=BB0_36 Depth=1
	movq	%rbp, %rdx
	movq	%rax, %rcx
	andq	$3, %rdx
	je	.LBB0_56
# %bb.54:                               # %join.7.i.i.i.i.i.i.i.i.i.i.i.i.i.prol.preheader
                                        #   in Loop: Header=BB0_36 Depth=1
	movq	%rax, %rcx
	.p2align	4
.LBB0_55:                               # %join.7.i.i.i.i.i.i.i.i.i.i.i.i.i.prol
                                        #   Parent Loop BB0_36 Depth=1
                                        # =>  This Inner Loop Header: Depth=2
	movzbl	(%r15,%rcx), %esi
	movb	%sil, (%r12,%rcx)
	incq	%rcx
	decq	%rdx
	jne	.LBB0_55
.LBB0_56:                               # %join.7.i.i.i.i.i.i.i.i.i.i.i.i.i.prol.loopexit
                                        #   in Loop: Header=BB0_36 Depth=1
	subq	%rbp, %rax
	cmpq	$-4, %rax
	ja	.LBB0_58
	.p2align	4
.LBB0_57:                               # %join.7.i.i.i.i.i.i.i.i.i.i.i.i.i
                                        #   Parent Loop BB0_36 Depth=1
                                        # =>  This Inner Loop Header: Depth=2
	movzbl	(%r15,%rcx), %eax
	movb	%al, (%r12,%rcx)
	movzbl	1(%r15,%rcx), %eax
	movb	%al, 1(%r12,%rcx)
	movzbl	2(%r15,%rcx), %eax
	movb	%al, 2(%r12,%rcx)
	movzbl	3(%r15,%rcx), %eax
	movb	%al, 3(%r12,%rcx)
	addq	$4, %rcx
	cmpq	%rcx, %rbp
	jne	.LBB0_57
	.p2align	4
.LBB0_58:                               # %arm.11.i.i.i.i.i.i.i.i
                                        #   in Loop: Header=BB0_36 Depth=1
	movq	160(%rsp), %rax                 # 8-byte Reload
	movq	8(%rsp), %r15                   # 8-byte Reload
	addl	%r15d, %eax
	movq	184(%rsp), %rdx                 # 8-byte Reload
                                        # kill: def $edx killed $edx killed $rdx def $rdx
	andl	%eax, %edx
	movq	352(%rsp), %rax                 # 8-byte Reload
                                        # kill: def $eax killed $eax killed $rax def $rax
	andl	%edx, %eax
	movq	96(%rsp), %rcx                  # 8-byte Reload
                                        # kill: def $cl killed $cl killed $rcx
	shrq	%cl, %rdx
	movl	%r15d, %ecx
	addq	136(%rsp), %rcx                 # 8-byte Folded Reload
	shlq	$8, %rax
	shlq	$5, %rdx
	addq	%rax, %rdx
	movabsq	$137438953440, %rax             # imm = 0x1FFFFFFFE0
	andq	%rdx, %rax
	movq	48(%rsp), %rdx                  # 8-byte Reload
	movq	8(%rdx,%rax), %rdi
	movq	%rcx, (%rdx,%rax)
	movq	%r12, 8(%rdx,%rax)
	movq	%rbp, 16(%rdx,%rax)
	cmpq	$0, 24(%rdx,%rax)
	movq	%rbp, 24(%rdx,%rax)
	je	.LBB0_35
# %bb.59:                               # %then.1.i.i.i.i.i.i.i.i.i.i.i.i
                                        #   in Loop: Header=BB0_36 Depth=1
	callq	rattle_dealloc@PLT
	jmp	.LBB0_35
.LBB0_60:                               # %arm.5.i.i.i.i.i.i.i
	movq	16(%rsp), %rax                  # 8-byte Reload
	movq	128(%rsp), %r15                 # 8-byte Reload
	cmpl	%r15d, %eax
                                        # kill: def $r15d killed $r15d killed $r15 def $r15
	cmoval	%eax, %r15d
	movq	56(%rsp), %rbp                  # 8-byte Reload
	testq	%rbp, %rbp
	je	.LBB0_158
# %bb.61:
	xorl	%esi, %esi
.LBB0_62:                               # %arm.8.i.i.i.i.i.i.i
	movq	128(%rsp), %rax                 # 8-byte Reload
	movq	160(%rsp), %rdx                 # 8-byte Reload
	addq	%rdx, %rax
	leal	-1(%rdx), %ecx
	movq	%rcx, 408(%rsp)                 # 8-byte Spill
	addq	%rcx, %r15
	movl	$4294967295, %r12d              # imm = 0xFFFFFFFF
	leaq	(%r12,%r15), %rdi
	incq	%rdi
	leaq	(%rsi,%rsi,2), %rcx
	shlq	$4, %rcx
	movq	%rax, (%rbx,%rcx)
	movq	%rdx, 8(%rbx,%rcx)
	movq	%rdi, 184(%rsp)                 # 8-byte Spill
	movq	%rdi, 16(%rbx,%rcx)
	movq	48(%rsp), %rax                  # 8-byte Reload
	movq	%rax, 24(%rbx,%rcx)
	movq	168(%rsp), %rax                 # 8-byte Reload
	movq	%rax, 32(%rbx,%rcx)
	movq	176(%rsp), %rax                 # 8-byte Reload
	movq	%rax, 40(%rbx,%rcx)
	incq	%rsi
	movq	%rsi, 208(%rsp)
                                        # kill: def $ebp killed $ebp killed $rbp
	decl	%ebp
	movq	%rsi, %rbx
	je	.LBB0_76
# %bb.63:                               # %join.15.lr.ph.i.i.i.i.i.i.i
	leaq	232(%rsp), %r15
.LBB0_64:                               # %join.15.i.i.i.i.i.i.i
                                        # =>This Inner Loop Header: Depth=1
	xorps	%xmm0, %xmm0
	movaps	%xmm0, 240(%rsp)
	movaps	%xmm0, 224(%rsp)
	leaq	224(%rsp), %rdi
	movq	192(%rsp), %rsi                 # 8-byte Reload
                                        # kill: def $esi killed $esi killed $rsi
	callq	"scq_core::ring::unused"
	cmpb	$0, 224(%rsp)
	jne	.LBB0_107
# %bb.65:                               # %arm.16.i.i.i.i.i.i.i
                                        #   in Loop: Header=BB0_64 Depth=1
	movq	16(%r15), %rax
	movq	%rax, 1136(%rsp)
	movups	(%r15), %xmm0
	movaps	%xmm0, 1120(%rsp)
	cmpq	%rbx, 216(%rsp)
	je	.LBB0_67
.LBB0_66:                               # %arm.19.i.i.i.i.i.i.i
                                        #   in Loop: Header=BB0_64 Depth=1
	movq	200(%rsp), %rdx
	leaq	(%rbx,%rbx,2), %rax
	shlq	$4, %rax
	movq	160(%rsp), %rcx                 # 8-byte Reload
	movq	%rcx, (%rdx,%rax)
	movq	%rcx, 8(%rdx,%rax)
	movq	%r12, 16(%rdx,%rax)
	movaps	1120(%rsp), %xmm0
	movups	%xmm0, 24(%rdx,%rax)
	movq	1136(%rsp), %rcx
	movq	%rcx, 40(%rdx,%rax)
	incq	%rbx
	movq	%rbx, 208(%rsp)
	decl	%ebp
	jne	.LBB0_64
	jmp	.LBB0_77
.LBB0_67:                               # %"std_alloc::vec::Vec::grow::<#ef5d867b459b34f0>.exit.i123.i.i.i.i.i.i.i"
                                        #   in Loop: Header=BB0_64 Depth=1
	leaq	200(%rsp), %rdi
	callq	"std_alloc::vec::Vec::grow_amortized::<#ef5d867b459b34f0>"
	testb	%al, %al
	je	.LBB0_249
# %bb.68:                               # %"std_alloc::vec::Vec::grow::<#ef5d867b459b34f0>.exit.join.3_crit_edge.i127.i.i.i.i.i.i.i"
                                        #   in Loop: Header=BB0_64 Depth=1
	movq	208(%rsp), %rbx
	jmp	.LBB0_66
.LBB0_69:                               # %arm.12.i.i.i.i.i.i.i.i
	movq	168(%rsp), %r12                 # 8-byte Reload
	testq	%r12, %r12
	je	.LBB0_74
# %bb.70:                               # %join.5.i.i.i.i.i.i.i.i.i.i.i.i.i.preheader
	movq	48(%rsp), %rax                  # 8-byte Reload
	leaq	24(%rax), %r15
	jmp	.LBB0_72
.LBB0_71:                               # %"core::mem::drop::<#46d93e6922d62939>.exit.i.i.i.i.i.i.i.i.i.i.i.i.i"
                                        #   in Loop: Header=BB0_72 Depth=1
	addq	$32, %r15
	decq	%r12
	je	.LBB0_74
.LBB0_72:                               # %join.5.i.i.i.i.i.i.i.i.i.i.i.i.i
                                        # =>This Inner Loop Header: Depth=1
	cmpq	$0, (%r15)
	je	.LBB0_71
# %bb.73:                               # %then.1.i.i.i.i.i.i.i.i.i.i.i.i.i.i.i.i.i.i.i
                                        #   in Loop: Header=BB0_72 Depth=1
	movq	-16(%r15), %rdi
	callq	rattle_dealloc@PLT
	jmp	.LBB0_71
.LBB0_74:                               # %"std_alloc::vec::Vec::clear::<#d9b4ebeac28c86f4>.exit.i.i.i.i.i.i.i.i.i"
	cmpq	$0, 176(%rsp)                   # 8-byte Folded Reload
	movq	40(%rsp), %r12                  # 8-byte Reload
	je	.LBB0_22
# %bb.75:                               # %then.1.i.i.i.i.i.i.i.i.i.i.i
	movq	48(%rsp), %rdi                  # 8-byte Reload
	callq	rattle_dealloc@PLT
	jmp	.LBB0_22
.LBB0_76:                               # %"arm.8.i.scq_core::state::start_rings.exit.thread204_crit_edge.i.i.i.i.i.i"
	movq	200(%rsp), %rdx
.LBB0_77:                               # %"scq_core::state::start_rings.exit.thread204.i.i.i.i.i.i"
	movq	%rdx, 8(%rsp)                   # 8-byte Spill
	movq	216(%rsp), %rax
.LBB0_78:                               # %arm.1.i10.i.i.i.i.i
	movq	%rax, 368(%rsp)                 # 8-byte Spill
	movq	%rsp, %r12
	movq	%r12, 224(%rsp)
	xorps	%xmm0, %xmm0
	movups	%xmm0, 232(%rsp)
	cmpl	$0, 16(%rsp)                    # 4-byte Folded Reload
	je	.LBB0_99
# %bb.79:                               # %join.3.i.i5.i.i.i.i.i.i
	movq	16(%rsp), %r15                  # 8-byte Reload
	imulq	$120, %r15, %rdi
	movl	$8, %esi
	callq	rattle_alloc@PLT
	testb	$1, %al
	je	.LBB0_89
# %bb.80:                               # %join.9.lr.ph.i.i.i.i.i.i.i
	movq	%rdx, 224(%rsp)
	movq	%r15, 240(%rsp)
	xorl	%eax, %eax
	movl	%r15d, %ebp
	jmp	.LBB0_83
.LBB0_81:                               # %"std_alloc::vec::Vec::grow::<#53936dfa82b80db8>.exit.join.3_crit_edge.i.i.i.i.i.i.i.i"
                                        #   in Loop: Header=BB0_83 Depth=1
	movq	224(%rsp), %rdx
	movq	232(%rsp), %rax
	xorps	%xmm0, %xmm0
.LBB0_82:                               # %join.3.i5.i.i.i.i.i.i.i
                                        #   in Loop: Header=BB0_83 Depth=1
	imulq	$120, %rax, %rcx
	movups	%xmm0, 32(%rdx,%rcx)
	movups	%xmm0, 16(%rdx,%rcx)
	movups	%xmm0, (%rdx,%rcx)
	movq	$0, 48(%rdx,%rcx)
	movq	%r12, 56(%rdx,%rcx)
	movaps	416(%rsp), %xmm0
	movdqa	432(%rsp), %xmm1
	movups	%xmm0, 64(%rdx,%rcx)
	movdqu	%xmm1, 80(%rdx,%rcx)
	movq	%r12, 96(%rdx,%rcx)
	movaps	864(%rsp), %xmm0
	movups	%xmm0, 104(%rdx,%rcx)
	incq	%rax
	movq	%rax, 232(%rsp)
	decl	%ebp
	je	.LBB0_99
.LBB0_83:                               # %join.9.i.i.i.i.i.i.i
                                        # =>This Inner Loop Header: Depth=1
	xorps	%xmm0, %xmm0
	movaps	%xmm0, 416(%rsp)
	movaps	%xmm0, 432(%rsp)
	movaps	%xmm0, 864(%rsp)
	cmpq	%rax, 240(%rsp)
	jne	.LBB0_82
# %bb.84:                               # %"std_alloc::vec::Vec::grow::<#53936dfa82b80db8>.exit.i.i.i.i.i.i.i.i"
                                        #   in Loop: Header=BB0_83 Depth=1
	leaq	224(%rsp), %rdi
	callq	"std_alloc::vec::Vec::grow_amortized::<#53936dfa82b80db8>"
	testb	%al, %al
	jne	.LBB0_81
# %bb.85:                               # %then.1.i.i.i.i.i.i.i.i
	xorps	%xmm0, %xmm0
	movaps	%xmm0, 448(%rsp)
	movaps	%xmm0, 432(%rsp)
	movaps	%xmm0, 416(%rsp)
	movq	$0, 464(%rsp)
	movq	%r12, 472(%rsp)
	movaps	%xmm0, 480(%rsp)
	movaps	%xmm0, 496(%rsp)
	movq	%r12, 512(%rsp)
	movups	%xmm0, 520(%rsp)
	leaq	416(%rsp), %rdi
	callq	"scq_core::scq_core++seat++Seat+Destruct::drop"
	movq	224(%rsp), %r12
	movq	232(%rsp), %rbp
	movq	240(%rsp), %rax
	movq	%rax, 64(%rsp)                  # 8-byte Spill
	movq	%r12, %r15
	testq	%rbp, %rbp
	je	.LBB0_87
.LBB0_86:                               # %join.5.i.i.i.i.i14.i.i.i.i.i.i.i
                                        # =>This Inner Loop Header: Depth=1
	movq	112(%r15), %rax
	movq	%rax, 528(%rsp)
	movups	96(%r15), %xmm0
	movaps	%xmm0, 512(%rsp)
	movups	80(%r15), %xmm0
	movaps	%xmm0, 496(%rsp)
	movups	64(%r15), %xmm0
	movaps	%xmm0, 480(%rsp)
	movups	(%r15), %xmm0
	movdqu	16(%r15), %xmm1
	movups	32(%r15), %xmm2
	movups	48(%r15), %xmm3
	movaps	%xmm3, 464(%rsp)
	movaps	%xmm2, 448(%rsp)
	movdqa	%xmm1, 432(%rsp)
	movaps	%xmm0, 416(%rsp)
	leaq	416(%rsp), %rdi
	callq	"scq_core::scq_core++seat++Seat+Destruct::drop"
	addq	$120, %r15
	decq	%rbp
	jne	.LBB0_86
.LBB0_87:                               # %"std_alloc::vec::Vec::clear::<#f62cd864909c6d7c>.exit.i20.i.i.i.i.i.i.i"
	cmpq	$0, 64(%rsp)                    # 8-byte Folded Reload
	je	.LBB0_89
# %bb.88:                               # %then.1.i.i.i22.i.i.i.i.i.i.i
	movq	%r12, %rdi
	callq	rattle_dealloc@PLT
.LBB0_89:                               # %arm.2.i11.i.i.i.i.i.i
	xorps	%xmm0, %xmm0
	movups	%xmm0, 1255(%rsp)
	movq	$0, 1271(%rsp)
	testq	%rbx, %rbx
	movq	8(%rsp), %rdi                   # 8-byte Reload
	je	.LBB0_119
# %bb.90:                               # %join.5.i.i.i.i.i43.i.i.i.i.i.i.preheader
	xorl	%ebp, %ebp
	jmp	.LBB0_92
.LBB0_91:                               # %"core::mem::drop::<#30b1062d78cb4add>.exit.i.i.i.i.i.i.i.i.i.i.i"
                                        #   in Loop: Header=BB0_92 Depth=1
	incq	%rbp
	cmpq	%rbx, %rbp
	movq	8(%rsp), %rdi                   # 8-byte Reload
	je	.LBB0_119
.LBB0_92:                               # %join.5.i.i.i.i.i43.i.i.i.i.i.i
                                        # =>This Loop Header: Depth=1
                                        #     Child Loop BB0_95 Depth 2
	leaq	(,%rbp,2), %rax
	addq	%rbp, %rax
	shlq	$4, %rax
	movq	24(%rdi,%rax), %rcx
	movq	%rcx, 64(%rsp)                  # 8-byte Spill
	movq	32(%rdi,%rax), %r12
	movq	40(%rdi,%rax), %rax
	movq	%rax, 24(%rsp)                  # 8-byte Spill
	testq	%r12, %r12
	je	.LBB0_97
# %bb.93:                               # %join.5.i.i.i.i.i.i.i.i.i.i.i.i.i.i.i.i.i.i.preheader
                                        #   in Loop: Header=BB0_92 Depth=1
	movq	64(%rsp), %rax                  # 8-byte Reload
	leaq	24(%rax), %r15
	jmp	.LBB0_95
	.p2align	4
.LBB0_94:                               # %"core::mem::drop::<#46d93e6922d62939>.exit.i.i.i.i.i.i.i.i.i.i.i.i.i.i.i.i.i.i"
                                        #   in Loop: Header=BB0_95 Depth=2
	addq	$32, %r15
	decq	%r12
	je	.LBB0_97
.LBB0_95:                               # %join.5.i.i.i.i.i.i.i.i.i.i.i.i.i.i.i.i.i.i
                                        #   Parent Loop BB0_92 Depth=1
                                        # =>  This Inner Loop Header: Depth=2
	cmpq	$0, (%r15)
	je	.LBB0_94
# %bb.96:                               # %then.1.i.i.i.i.i.i.i.i.i.i.i.i.i.i.i.i.i.i.i.i.i.i.i.i
                                        #   in Loop: Header=BB0_95 Depth=2
	movq	-16(%r15), %rdi
	callq	rattle_dealloc@PLT
	jmp	.LBB0_94
.LBB0_97:                               # %"std_alloc::vec::Vec::clear::<#d9b4ebeac28c86f4>.exit.i.i.i.i.i.i.i.i.i.i.i.i.i.i"
                                        #   in Loop: Header=BB0_92 Depth=1
	cmpq	$0, 24(%rsp)                    # 8-byte Folded Reload
	je	.LBB0_91
# %bb.98:                               # %then.1.i.i.i.i.i.i.i.i.i.i47.i.i.i.i.i.i
                                        #   in Loop: Header=BB0_92 Depth=1
	movq	64(%rsp), %rdi                  # 8-byte Reload
	callq	rattle_dealloc@PLT
	jmp	.LBB0_91
.LBB0_99:                               # %arm.5.i.i.i.i.i
	movq	%rbx, 136(%rsp)                 # 8-byte Spill
	movq	240(%rsp), %rax
	movups	224(%rsp), %xmm0
	movaps	%xmm0, 1312(%rsp)
	movq	%rax, 1328(%rsp)
	movaps	%xmm0, 1088(%rsp)
	movq	%rax, 1104(%rsp)
	xorl	%eax, %eax
	movq	192(%rsp), %rcx                 # 8-byte Reload
	cmpl	$10, %ecx
	setb	%al
	leal	(%rax,%rax,2), %eax
	leal	-2(%rcx,%rax), %ecx
	movl	$8, %ebx
	movl	%ecx, 168(%rsp)                 # 4-byte Spill
                                        # kill: def $cl killed $cl killed $ecx
	shlq	%cl, %rbx
	addq	$63, %rbx
	movq	%rbx, 176(%rsp)                 # 8-byte Spill
	imulq	56(%rsp), %rbx                  # 8-byte Folded Reload
	movq	%rbx, %rbp
	addq	$16, %rbp
	je	.LBB0_157
# %bb.100:                              # %then.2.i.i.i.i.i.i.i
	movq	%rbp, %rax
	shrq	$60, %rax
	jne	.LBB0_138
# %bb.101:                              # %"std_alloc::vec::resize::<#69635f0e7dfe97d5>.exit.i.i.i.i.i.i.i.i"
	leaq	(,%rbp,8), %r15
	movl	$8, %esi
	movq	%r15, %rdi
	callq	rattle_alloc@PLT
	testb	$1, %al
	je	.LBB0_138
# %bb.102:                              # %arm.1.i25.i.i.i.i.i
	movq	%rdx, %r12
	cmpq	$1, %rbp
	jne	.LBB0_160
# %bb.103:
	xorl	%ebx, %ebx
	jmp	.LBB0_161
.LBB0_104:                              # %"std_alloc::vec::Vec::clear::<#6728d5b45c5fbd9b>.exit.i33.i.i.i.i.i.i"
	testq	%r14, %r14
	movq	80(%rsp), %rbp                  # 8-byte Reload
	movq	40(%rsp), %r15                  # 8-byte Reload
	je	.LBB0_129
# %bb.105:                              # %then.1.i.i.i35.i.i.i.i.i.i
	movq	%rbx, %rdi
	callq	rattle_dealloc@PLT
	jmp	.LBB0_129
.LBB0_107:                              # %arm.17.i.i.i.i.i.i.i
	movq	200(%rsp), %rax
	movq	%rax, 64(%rsp)                  # 8-byte Spill
	movq	216(%rsp), %rax
	movq	%rax, 24(%rsp)                  # 8-byte Spill
	testq	%rbx, %rbx
	je	.LBB0_117
# %bb.108:                              # %join.5.i.i.i.i.i80.i.i.i.i.i.i.preheader
	xorl	%ebp, %ebp
	movq	%rbx, 136(%rsp)                 # 8-byte Spill
	jmp	.LBB0_110
.LBB0_109:                              # %"core::mem::drop::<#30b1062d78cb4add>.exit.i.i.i.i.i107.i.i.i.i.i.i"
                                        #   in Loop: Header=BB0_110 Depth=1
	incq	%rbp
	movq	136(%rsp), %rbx                 # 8-byte Reload
	cmpq	%rbx, %rbp
	je	.LBB0_117
.LBB0_110:                              # %join.5.i.i.i.i.i80.i.i.i.i.i.i
                                        # =>This Loop Header: Depth=1
                                        #     Child Loop BB0_113 Depth 2
	leaq	(,%rbp,2), %rax
	addq	%rbp, %rax
	shlq	$4, %rax
	movq	64(%rsp), %rcx                  # 8-byte Reload
	movq	24(%rcx,%rax), %r15
	movq	32(%rcx,%rax), %rbx
	movq	40(%rcx,%rax), %rax
	movq	%rax, 8(%rsp)                   # 8-byte Spill
	testq	%rbx, %rbx
	je	.LBB0_115
# %bb.111:                              # %join.5.i.i.i.i.i.i.i.i.i.i.i.i91.i.i.i.i.i.i.preheader
                                        #   in Loop: Header=BB0_110 Depth=1
	leaq	24(%r15), %r12
	jmp	.LBB0_113
	.p2align	4
.LBB0_112:                              # %"core::mem::drop::<#46d93e6922d62939>.exit.i.i.i.i.i.i.i.i.i.i.i.i101.i.i.i.i.i.i"
                                        #   in Loop: Header=BB0_113 Depth=2
	addq	$32, %r12
	decq	%rbx
	je	.LBB0_115
.LBB0_113:                              # %join.5.i.i.i.i.i.i.i.i.i.i.i.i91.i.i.i.i.i.i
                                        #   Parent Loop BB0_110 Depth=1
                                        # =>  This Inner Loop Header: Depth=2
	cmpq	$0, (%r12)
	je	.LBB0_112
# %bb.114:                              # %then.1.i.i.i.i.i.i.i.i.i.i.i.i.i.i.i.i.i.i98.i.i.i.i.i.i
                                        #   in Loop: Header=BB0_113 Depth=2
	movq	-16(%r12), %rdi
	callq	rattle_dealloc@PLT
	jmp	.LBB0_112
.LBB0_115:                              # %"std_alloc::vec::Vec::clear::<#d9b4ebeac28c86f4>.exit.i.i.i.i.i.i.i.i104.i.i.i.i.i.i"
                                        #   in Loop: Header=BB0_110 Depth=1
	cmpq	$0, 8(%rsp)                     # 8-byte Folded Reload
	je	.LBB0_109
# %bb.116:                              # %then.1.i.i.i.i.i.i.i.i.i.i106.i.i.i.i.i.i
                                        #   in Loop: Header=BB0_110 Depth=1
	movq	%r15, %rdi
	callq	rattle_dealloc@PLT
	jmp	.LBB0_109
.LBB0_117:                              # %"std_alloc::vec::Vec::clear::<#aea6620ac8b5cb78>.exit.i110.i.i.i.i.i.i"
	cmpq	$0, 24(%rsp)                    # 8-byte Folded Reload
	movq	40(%rsp), %r12                  # 8-byte Reload
	je	.LBB0_25
.LBB0_118:                              # %then.1.i.i.i95.i.i.i.i.i.i.i
	movq	64(%rsp), %rdi                  # 8-byte Reload
	jmp	.LBB0_24
.LBB0_119:                              # %"std_alloc::vec::Vec::clear::<#aea6620ac8b5cb78>.exit.i.i.i.i.i.i.i"
	cmpq	$0, 368(%rsp)                   # 8-byte Folded Reload
	je	.LBB0_121
# %bb.120:                              # %then.1.i.i.i51.i.i.i.i.i.i
	callq	rattle_dealloc@PLT
.LBB0_121:                              # %"std_alloc::vec::Vec::drop::<#a9901d079cc70198>.exit.i.i.i.i.i.i"
	testq	%r14, %r14
	movq	80(%rsp), %rbp                  # 8-byte Reload
	movq	40(%rsp), %r15                  # 8-byte Reload
	je	.LBB0_126
# %bb.122:                              # %join.5.i.i.i.i.i58.i.i.i.i.i.i.preheader
	incq	%r13
	movq	112(%rsp), %rax                 # 8-byte Reload
	leaq	16(%rax), %rbx
	jmp	.LBB0_124
.LBB0_123:                              # %"core::mem::drop::<#9fc2d86ad1f37d9e>.exit.i.i.i.i.i67.i.i.i.i.i.i"
                                        #   in Loop: Header=BB0_124 Depth=1
	addq	$24, %rbx
	decq	%r13
	je	.LBB0_126
.LBB0_124:                              # %join.5.i.i.i.i.i58.i.i.i.i.i.i
                                        # =>This Inner Loop Header: Depth=1
	cmpq	$0, (%rbx)
	je	.LBB0_123
# %bb.125:                              # %then.1.i.i.i.i.i.i.i.i.i.i65.i.i.i.i.i.i
                                        #   in Loop: Header=BB0_124 Depth=1
	movq	-16(%rbx), %rdi
	callq	rattle_dealloc@PLT
	jmp	.LBB0_123
.LBB0_126:                              # %"std_alloc::vec::Vec::clear::<#f988cf59f450e80b>.exit.i.i.i.i.i.i.i"
	cmpq	$0, 376(%rsp)                   # 8-byte Folded Reload
	je	.LBB0_128
# %bb.127:                              # %then.1.i.i.i.i.i.i.i.i.i
	movq	112(%rsp), %rdi                 # 8-byte Reload
	callq	rattle_dealloc@PLT
.LBB0_128:                              # %arm.6.i.i.i.i.i
	movq	16(%rsp), %r13                  # 8-byte Reload
.LBB0_129:                              # %arm.12.i.i
	movq	104(%rsp), %rdi                 # 8-byte Reload
.LBB0_130:                              # %arm.12.i.i
	testl	%r13d, %r13d
	je	.LBB0_134
# %bb.131:                              # %then.1.i.i.i64.i.i
	callq	rattle_dealloc@PLT
	movq	392(%rsp), %rdi                 # 8-byte Reload
.LBB0_132:                              # %"scq_queue::queue::Queue::make::<#aae3f6a89b556e54>.exit.thread298.i"
	callq	rattle_dealloc@PLT
	movq	%r15, %rdi
.LBB0_133:                              # %"scq_queue::queue::Queue::make::<#aae3f6a89b556e54>.exit.thread298.i"
	callq	rattle_dealloc@PLT
.LBB0_134:                              # %"scq_queue::queue::Queue::make::<#aae3f6a89b556e54>.exit.thread298.i"
	movq	%rbp, %rdi
.LBB0_135:                              # %arm.2
	callq	rattle_dealloc@PLT
.LBB0_136:                              # %arm.2
	xorps	%xmm0, %xmm0
	movq	384(%rsp), %rax                 # 8-byte Reload
	movups	%xmm0, 16(%rax)
	movups	%xmm0, (%rax)
.LBB0_137:                              # %common.ret
	addq	$2376, %rsp                     # imm = 0x948
	popq	%rbx
	popq	%r12
	popq	%r13
	popq	%r14
	popq	%r15
	popq	%rbp
	retq
.LBB0_138:                              # %arm.9.i.i.i.i.i
	movq	136(%rsp), %rbx                 # 8-byte Reload
	testq	%rbx, %rbx
	movq	8(%rsp), %rdi                   # 8-byte Reload
	je	.LBB0_148
# %bb.139:                              # %join.5.i.i.i.i.i.i.i.i.i.i.preheader
	xorl	%ebp, %ebp
	jmp	.LBB0_141
.LBB0_140:                              # %"core::mem::drop::<#6e32c4b9082c94d1>.exit.i.i.i.i.i.i.i.i.i.i"
                                        #   in Loop: Header=BB0_141 Depth=1
	incq	%rbp
	cmpq	%rbx, %rbp
	movq	8(%rsp), %rdi                   # 8-byte Reload
	je	.LBB0_148
.LBB0_141:                              # %join.5.i.i.i.i.i.i.i.i.i.i
                                        # =>This Loop Header: Depth=1
                                        #     Child Loop BB0_144 Depth 2
	leaq	(,%rbp,2), %rax
	addq	%rbp, %rax
	shlq	$4, %rax
	movq	24(%rdi,%rax), %rcx
	movq	%rcx, 64(%rsp)                  # 8-byte Spill
	movq	32(%rdi,%rax), %r12
	movq	40(%rdi,%rax), %rax
	movq	%rax, 24(%rsp)                  # 8-byte Spill
	testq	%r12, %r12
	je	.LBB0_146
# %bb.142:                              # %join.5.i.i.i.i.i.i.i.i.i.i.i.i.i.i.i.i.i.preheader
                                        #   in Loop: Header=BB0_141 Depth=1
	movq	64(%rsp), %rax                  # 8-byte Reload
	leaq	24(%rax), %r15
	jmp	.LBB0_144
	.p2align	4
.LBB0_143:                              # %"core::mem::drop::<#8f15df288ba2af6d>.exit.i.i.i.i.i.i.i.i.i.i.i.i.i.i.i.i.i"
                                        #   in Loop: Header=BB0_144 Depth=2
	addq	$32, %r15
	decq	%r12
	je	.LBB0_146
.LBB0_144:                              # %join.5.i.i.i.i.i.i.i.i.i.i.i.i.i.i.i.i.i
                                        #   Parent Loop BB0_141 Depth=1
                                        # =>  This Inner Loop Header: Depth=2
	cmpq	$0, (%r15)
	je	.LBB0_143
# %bb.145:                              # %then.1.i.i.i.i.i.i.i.i.i.i.i.i.i.i.i.i.i.i.i.i.i.i.i
                                        #   in Loop: Header=BB0_144 Depth=2
	movq	-16(%r15), %rdi
	callq	rattle_dealloc@PLT
	jmp	.LBB0_143
.LBB0_146:                              # %"std_alloc::vec::Vec::clear::<#9ec1d7bf1f40ee60>.exit.i.i.i.i.i.i.i.i.i.i.i.i.i"
                                        #   in Loop: Header=BB0_141 Depth=1
	cmpq	$0, 24(%rsp)                    # 8-byte Folded Reload
	je	.LBB0_140
# %bb.147:                              # %then.1.i.i.i.i.i.i.i.i.i.i.i.i.i.i.i
                                        #   in Loop: Header=BB0_141 Depth=1
	movq	64(%rsp), %rdi                  # 8-byte Reload
	callq	rattle_dealloc@PLT
	jmp	.LBB0_140
.LBB0_148:                              # %"std_alloc::vec::Vec::clear::<#043c908a00d64d64>.exit.i.i.i.i.i.i"
	cmpq	$0, 368(%rsp)                   # 8-byte Folded Reload
	je	.LBB0_150
# %bb.149:                              # %then.1.i.i.i38.i.i.i.i.i
	callq	rattle_dealloc@PLT
.LBB0_150:                              # %"std_alloc::vec::Vec::drop::<#0e0527c136ebe534>.exit.i.i.i.i.i"
	leaq	1088(%rsp), %rdi
	callq	"std_alloc::vec::Vec::drop::<#1106f08b0a767d38>"
	testq	%r14, %r14
	movq	80(%rsp), %rbp                  # 8-byte Reload
	movq	40(%rsp), %r15                  # 8-byte Reload
	je	.LBB0_155
# %bb.151:                              # %join.5.i.i.i.i.i45.i.i.i.i.i.preheader
	incq	%r13
	movq	112(%rsp), %rax                 # 8-byte Reload
	leaq	16(%rax), %rbx
	jmp	.LBB0_153
.LBB0_152:                              # %"core::mem::drop::<#426bf5ba2825d3de>.exit.i.i.i.i.i.i.i.i.i.i"
                                        #   in Loop: Header=BB0_153 Depth=1
	addq	$24, %rbx
	decq	%r13
	je	.LBB0_155
.LBB0_153:                              # %join.5.i.i.i.i.i45.i.i.i.i.i
                                        # =>This Inner Loop Header: Depth=1
	cmpq	$0, (%rbx)
	je	.LBB0_152
# %bb.154:                              # %then.1.i.i.i.i.i.i.i.i.i.i49.i.i.i.i.i
                                        #   in Loop: Header=BB0_153 Depth=1
	movq	-16(%rbx), %rdi
	callq	rattle_dealloc@PLT
	jmp	.LBB0_152
.LBB0_155:                              # %"std_alloc::vec::Vec::clear::<#6728d5b45c5fbd9b>.exit.i.i.i.i.i.i"
	cmpq	$0, 376(%rsp)                   # 8-byte Folded Reload
	movq	16(%rsp), %r13                  # 8-byte Reload
	movq	104(%rsp), %rdi                 # 8-byte Reload
	je	.LBB0_130
# %bb.156:                              # %then.1.i.i.i53.i.i.i.i.i
	movq	%rdi, %rbx
	movq	112(%rsp), %rdi                 # 8-byte Reload
	jmp	.LBB0_312
.LBB0_157:
	movq	%rbp, 152(%rsp)                 # 8-byte Spill
	movq	$0, 144(%rsp)                   # 8-byte Folded Spill
	jmp	.LBB0_162
.LBB0_158:                              # %"std_alloc::vec::Vec::grow::<#ef5d867b459b34f0>.exit.i.i.i.i.i.i.i.i"
	leaq	200(%rsp), %rdi
	callq	"std_alloc::vec::Vec::grow_amortized::<#ef5d867b459b34f0>"
	testb	%al, %al
	je	.LBB0_220
# %bb.159:                              # %"std_alloc::vec::Vec::grow::<#ef5d867b459b34f0>.exit.join.3_crit_edge.i.i.i.i.i.i.i.i"
	movq	200(%rsp), %rbx
	movq	208(%rsp), %rsi
	jmp	.LBB0_62
.LBB0_160:                              # %join.12.preheader.i.i.i.i.i.i
	addq	$-8, %r15
	movq	%r12, %rdi
	xorl	%esi, %esi
	movq	%r15, %rdx
	callq	memset@PLT
	addq	$15, %rbx
.LBB0_161:                              # %after.8.i.i.i.i.i.i
	movq	%rbp, 152(%rsp)                 # 8-byte Spill
	movq	$0, (%r12,%rbx,8)
	incq	%rbx
	movq	%rbx, 144(%rsp)                 # 8-byte Spill
.LBB0_162:                              # %arm.8.i.i.i.i.i
	movq	16(%rsp), %rax                  # 8-byte Reload
	movq	%r12, 120(%rsp)                 # 8-byte Spill
	movq	%rax, (%r12)
	cmpq	$0, 56(%rsp)                    # 8-byte Folded Reload
	movq	8(%rsp), %r11                   # 8-byte Reload
	je	.LBB0_168
# %bb.163:                              # %join.15.lr.ph.i.i.i.i.i
	movl	$-1, %eax
	movl	168(%rsp), %ecx                 # 4-byte Reload
                                        # kill: def $cl killed $cl killed $ecx
	shll	%cl, %eax
	notl	%eax
	movq	160(%rsp), %rcx                 # 8-byte Reload
	cmpl	$2, %ecx
	movl	$1, %edx
	cmovael	%ecx, %edx
	xorl	%esi, %esi
	jmp	.LBB0_165
.LBB0_164:                              # %"scq_band::making::open_ring.exit.i.i.i.i.i"
                                        #   in Loop: Header=BB0_165 Depth=1
	movq	48(%rsp), %rsi                  # 8-byte Reload
	incq	%rsi
	cmpq	56(%rsp), %rsi                  # 8-byte Folded Reload
	je	.LBB0_168
.LBB0_165:                              # %join.15.i.i.i.i.i
                                        # =>This Loop Header: Depth=1
                                        #     Child Loop BB0_167 Depth 2
	movq	%rsi, %rdi
	imulq	176(%rsp), %rdi                 # 8-byte Folded Reload
	movq	%rsi, %rcx
	shlq	$4, %rcx
	movq	%rsi, 48(%rsp)                  # 8-byte Spill
	testq	%rsi, %rsi
	movl	$4294967295, %r9d               # imm = 0xFFFFFFFF
	cmoveq	184(%rsp), %r9                  # 8-byte Folded Reload
	leaq	(%rcx,%rcx,2), %r8
	movq	(%r11,%r8), %rcx
	movq	120(%rsp), %rbp                 # 8-byte Reload
	movq	%rcx, 128(%rbp,%rdi,8)
	movq	8(%r11,%r8), %rcx
	movq	%rcx, 256(%rbp,%rdi,8)
	movq	%r9, 384(%rbp,%rdi,8)
	cmpl	$30, 192(%rsp)                  # 4-byte Folded Reload
	movq	96(%rsp), %rbx                  # 8-byte Reload
	movl	168(%rsp), %esi                 # 4-byte Reload
	ja	.LBB0_164
# %bb.166:                              # %join.5.lr.ph.i.i.i.i.i.i
                                        #   in Loop: Header=BB0_165 Depth=1
	addq	$64, %rdi
	xorl	%r9d, %r9d
	xorl	%r10d, %r10d
	.p2align	4
.LBB0_167:                              # %join.5.i.i.i.i.i.i
                                        #   Parent Loop BB0_165 Depth=1
                                        # =>  This Inner Loop Header: Depth=2
	movq	24(%r11,%r8), %rcx
	movq	(%rcx,%r10), %r11
	movl	%r9d, %r15d
	andl	$7, %r15d
	movl	%ebx, %ecx
	shll	%cl, %r15d
	movl	%r9d, %ecx
	shrl	$3, %ecx
	addl	%ecx, %r15d
	movl	%r15d, %r12d
	movl	%esi, %ecx
	shrl	%cl, %r15d
	andl	%eax, %r12d
	addq	%rdi, %r15
	shlq	$6, %r12
	addq	%rbp, %r12
	movq	%r11, (%r12,%r15,8)
	movq	8(%rsp), %r11                   # 8-byte Reload
	incq	%r9
	addq	$32, %r10
	cmpq	%r9, %rdx
	jne	.LBB0_167
	jmp	.LBB0_164
.LBB0_168:                              # %after.11.i.i.i.i.i
	movq	136(%rsp), %rbx                 # 8-byte Reload
	testq	%rbx, %rbx
	je	.LBB0_178
# %bb.169:                              # %join.5.i.i.i.i.i73.i.i.i.i.i.preheader
	xorl	%r12d, %r12d
	jmp	.LBB0_171
.LBB0_170:                              # %"core::mem::drop::<#6e32c4b9082c94d1>.exit.i.i.i.i.i100.i.i.i.i.i"
                                        #   in Loop: Header=BB0_171 Depth=1
	incq	%r12
	cmpq	%rbx, %r12
	je	.LBB0_178
.LBB0_171:                              # %join.5.i.i.i.i.i73.i.i.i.i.i
                                        # =>This Loop Header: Depth=1
                                        #     Child Loop BB0_174 Depth 2
	leaq	(%r12,%r12,2), %rax
	shlq	$4, %rax
	movq	8(%rsp), %rcx                   # 8-byte Reload
	movq	24(%rcx,%rax), %rdx
	movq	%rdx, 48(%rsp)                  # 8-byte Spill
	movq	32(%rcx,%rax), %r15
	movq	40(%rcx,%rax), %rax
	movq	%rax, 352(%rsp)                 # 8-byte Spill
	testq	%r15, %r15
	je	.LBB0_176
# %bb.172:                              # %join.5.i.i.i.i.i.i.i.i.i.i.i.i84.i.i.i.i.i.preheader
                                        #   in Loop: Header=BB0_171 Depth=1
	movq	48(%rsp), %rax                  # 8-byte Reload
	leaq	24(%rax), %rbp
	jmp	.LBB0_174
	.p2align	4
.LBB0_173:                              # %"core::mem::drop::<#8f15df288ba2af6d>.exit.i.i.i.i.i.i.i.i.i.i.i.i94.i.i.i.i.i"
                                        #   in Loop: Header=BB0_174 Depth=2
	addq	$32, %rbp
	decq	%r15
	je	.LBB0_176
.LBB0_174:                              # %join.5.i.i.i.i.i.i.i.i.i.i.i.i84.i.i.i.i.i
                                        #   Parent Loop BB0_171 Depth=1
                                        # =>  This Inner Loop Header: Depth=2
	cmpq	$0, (%rbp)
	je	.LBB0_173
# %bb.175:                              # %then.1.i.i.i.i.i.i.i.i.i.i.i.i.i.i.i.i.i.i91.i.i.i.i.i
                                        #   in Loop: Header=BB0_174 Depth=2
	movq	-16(%rbp), %rdi
	callq	rattle_dealloc@PLT
	jmp	.LBB0_173
.LBB0_176:                              # %"std_alloc::vec::Vec::clear::<#9ec1d7bf1f40ee60>.exit.i.i.i.i.i.i.i.i97.i.i.i.i.i"
                                        #   in Loop: Header=BB0_171 Depth=1
	cmpq	$0, 352(%rsp)                   # 8-byte Folded Reload
	je	.LBB0_170
# %bb.177:                              # %then.1.i.i.i.i.i.i.i.i.i.i99.i.i.i.i.i
                                        #   in Loop: Header=BB0_171 Depth=1
	movq	48(%rsp), %rdi                  # 8-byte Reload
	callq	rattle_dealloc@PLT
	jmp	.LBB0_170
.LBB0_178:                              # %"std_alloc::vec::Vec::clear::<#043c908a00d64d64>.exit.i103.i.i.i.i.i"
	cmpq	$0, 368(%rsp)                   # 8-byte Folded Reload
	je	.LBB0_180
# %bb.179:                              # %then.1.i.i.i105.i.i.i.i.i
	movq	8(%rsp), %rdi                   # 8-byte Reload
	callq	rattle_dealloc@PLT
.LBB0_180:                              # %"std_alloc::vec::Vec::drop::<#0e0527c136ebe534>.exit106.i.i.i.i.i"
	leaq	1088(%rsp), %rdi
	callq	"std_alloc::vec::Vec::drop::<#1106f08b0a767d38>"
	testq	%r14, %r14
	movq	80(%rsp), %rbp                  # 8-byte Reload
	movq	40(%rsp), %r15                  # 8-byte Reload
	je	.LBB0_185
# %bb.181:                              # %join.5.i.i.i.i.i113.i.i.i.i.i.preheader
	incq	%r13
	movq	112(%rsp), %rax                 # 8-byte Reload
	leaq	16(%rax), %rbx
	jmp	.LBB0_183
.LBB0_182:                              # %"core::mem::drop::<#426bf5ba2825d3de>.exit.i.i.i.i.i122.i.i.i.i.i"
                                        #   in Loop: Header=BB0_183 Depth=1
	addq	$24, %rbx
	decq	%r13
	je	.LBB0_185
.LBB0_183:                              # %join.5.i.i.i.i.i113.i.i.i.i.i
                                        # =>This Inner Loop Header: Depth=1
	cmpq	$0, (%rbx)
	je	.LBB0_182
# %bb.184:                              # %then.1.i.i.i.i.i.i.i.i.i.i120.i.i.i.i.i
                                        #   in Loop: Header=BB0_183 Depth=1
	movq	-16(%rbx), %rdi
	callq	rattle_dealloc@PLT
	jmp	.LBB0_182
.LBB0_185:                              # %"std_alloc::vec::Vec::clear::<#6728d5b45c5fbd9b>.exit.i125.i.i.i.i.i"
	cmpq	$0, 376(%rsp)                   # 8-byte Folded Reload
	je	.LBB0_187
# %bb.186:                              # %then.1.i.i.i127.i.i.i.i.i
	movq	112(%rsp), %rdi                 # 8-byte Reload
	callq	rattle_dealloc@PLT
.LBB0_187:                              # %arm.1.i.i.i.i
	movq	56(%rsp), %rax                  # 8-byte Reload
	testq	%rax, %rax
	movq	16(%rsp), %r13                  # 8-byte Reload
	movq	104(%rsp), %rbx                 # 8-byte Reload
	je	.LBB0_190
# %bb.188:                              # %then.2.i.i.i.i.i
	leaq	(,%rax,8), %rdi
	movl	$8, %esi
	callq	rattle_alloc@PLT
	testb	$1, %al
	je	.LBB0_260
# %bb.189:                              # %"std_alloc::vec::Vec::move_to::<#69635f0e7dfe97d5>.exit.i.i.i.i.i"
	movq	%rdx, %r12
	jmp	.LBB0_191
.LBB0_190:
	movq	%rsp, %r12
.LBB0_191:                              # %arm.5.i.i.i.i
	movq	$0, 424(%rsp)
	movq	56(%rsp), %r14                  # 8-byte Reload
	leaq	64(,%r14,8), %rax
	leaq	(%rax,%rax,8), %rdi
	movl	$8, %esi
	callq	rattle_alloc@PLT
	testb	$1, %al
	je	.LBB0_258
# %bb.192:
	movq	%r12, 48(%rsp)                  # 8-byte Spill
	leaq	8(%r14), %rax
	movq	%rdx, 416(%rsp)
	movq	%rax, 432(%rsp)
	testq	%r14, %r14
	movq	%rax, 112(%rsp)                 # 8-byte Spill
	je	.LBB0_199
# %bb.193:                              # %join.9.i.preheader.i.i.i.i
	notq	32(%rsp)                        # 8-byte Folded Spill
	notq	24(%rsp)                        # 8-byte Folded Spill
	movl	$-1, %ebx
	movl	168(%rsp), %ebp                 # 4-byte Reload
	movl	%ebp, %ecx
	shll	%cl, %ebx
	notl	%ebx
	movl	$16, %r14d
	xorl	%r12d, %r12d
	xorl	%r15d, %r15d
	movq	408(%rsp), %rsi                 # 8-byte Reload
	jmp	.LBB0_195
.LBB0_194:                              # %arm.10.i.i.i.i.i
                                        #   in Loop: Header=BB0_195 Depth=1
	leaq	(%r12,%r12,8), %rax
	movl	%r15d, (%rdx,%rax,8)
	movl	%esi, 4(%rdx,%rax,8)
	movq	192(%rsp), %rcx                 # 8-byte Reload
	movl	%ecx, 8(%rdx,%rax,8)
	movl	88(%rsp), %ecx                  # 4-byte Reload
	movl	%ecx, 12(%rdx,%rax,8)
	movq	96(%rsp), %rcx                  # 8-byte Reload
	movl	%ecx, 16(%rdx,%rax,8)
	movl	$0, 20(%rdx,%rax,8)
	movq	32(%rsp), %rcx                  # 8-byte Reload
	movq	%rcx, 24(%rdx,%rax,8)
	movq	24(%rsp), %rcx                  # 8-byte Reload
	movq	%rcx, 32(%rdx,%rax,8)
	movq	400(%rsp), %rcx                 # 8-byte Reload
	movq	%rcx, 40(%rdx,%rax,8)
	movq	%r14, 48(%rdx,%rax,8)
	movq	184(%rsp), %rcx                 # 8-byte Reload
	movq	%rcx, 56(%rdx,%rax,8)
	movl	%ebx, 64(%rdx,%rax,8)
	movl	%ebp, 68(%rdx,%rax,8)
	incq	%r12
	movq	%r12, 424(%rsp)
	incq	%r15
	addq	176(%rsp), %r14                 # 8-byte Folded Reload
	cmpq	%r15, 56(%rsp)                  # 8-byte Folded Reload
	je	.LBB0_198
.LBB0_195:                              # %join.9.i.i.i.i.i
                                        # =>This Inner Loop Header: Depth=1
	cmpq	%r12, 432(%rsp)
	jne	.LBB0_194
# %bb.196:                              # %"std_alloc::vec::Vec::grow::<#b2b1aaf14fd9827c>.exit.i.i.i.i.i.i"
                                        #   in Loop: Header=BB0_195 Depth=1
	leaq	416(%rsp), %rdi
	callq	"std_alloc::vec::Vec::grow_amortized::<#b2b1aaf14fd9827c>"
	testb	%al, %al
	je	.LBB0_256
# %bb.197:                              # %"std_alloc::vec::Vec::grow::<#b2b1aaf14fd9827c>.exit.join.3_crit_edge.i.i.i.i.i.i"
                                        #   in Loop: Header=BB0_195 Depth=1
	movq	416(%rsp), %rdx
	movq	424(%rsp), %r12
	movq	408(%rsp), %rsi                 # 8-byte Reload
	jmp	.LBB0_194
.LBB0_198:                              # %arm.8thread-pre-split.i.i.i.i
	movq	416(%rsp), %rdx
	movq	432(%rsp), %r14
	movq	80(%rsp), %rbp                  # 8-byte Reload
	movq	40(%rsp), %r15                  # 8-byte Reload
	movq	104(%rsp), %rbx                 # 8-byte Reload
	jmp	.LBB0_200
.LBB0_199:
	xorl	%r12d, %r12d
	movq	%rax, %r14
.LBB0_200:                              # %arm.8.i.i.i.i
	movq	%rdx, 24(%rsp)                  # 8-byte Spill
	movq	$0, 232(%rsp)
	testl	%r13d, %r13d
	je	.LBB0_238
# %bb.201:                              # %join.3.i.i.i.i.i.i
	movq	%r13, %rax
	shlq	$4, %rax
	leaq	(%rax,%rax,2), %rdi
	movl	$8, %esi
	callq	rattle_alloc@PLT
	testb	$1, %al
	movq	128(%rsp), %rax                 # 8-byte Reload
	je	.LBB0_291
# %bb.202:                              # %join.9.lr.ph.i53.i.i.i.i
	movq	%rdx, 224(%rsp)
	movq	%r13, 240(%rsp)
	leaq	256(%rax), %rdi
	movl	$1, %esi
	movq	%rdi, 32(%rsp)                  # 8-byte Spill
	movq	%rdx, %r15
	movq	%rax, %rbx
	callq	rattle_alloc@PLT
	movq	%r15, %rdi
	movq	40(%rsp), %r15                  # 8-byte Reload
	testb	$1, %al
	je	.LBB0_290
# %bb.203:                              # %arm.1.i.i.lr.ph.i.i.i.i
	movq	%rdx, %rcx
	movq	%rbx, %rdx
	movq	%r14, 88(%rsp)                  # 8-byte Spill
	movq	112(%rsp), %rbx                 # 8-byte Reload
	leaq	(,%rbx,8), %rax
	leaq	(%rax,%rax,2), %rax
	movq	%rax, 96(%rsp)                  # 8-byte Spill
	movq	160(%rsp), %rax                 # 8-byte Reload
	leaq	-1(%rax), %r14
	leaq	-1(%rax,%rdx), %rax
	movq	%rax, 352(%rsp)                 # 8-byte Spill
	movq	56(%rsp), %rax                  # 8-byte Reload
	decl	%eax
	movl	%eax, 184(%rsp)                 # 4-byte Spill
	xorl	%ebp, %ebp
	xorl	%r13d, %r13d
.LBB0_204:                              # %arm.1.i.i.i.i.i.i
                                        # =>This Loop Header: Depth=1
                                        #     Child Loop BB0_212 Depth 2
	movq	%rcx, 8(%rsp)                   # 8-byte Spill
	movq	%rcx, %rdi
	xorl	%esi, %esi
	callq	memset@PLT
	movl	$8, %esi
	movq	96(%rsp), %rdi                  # 8-byte Reload
	callq	rattle_alloc@PLT
	testb	$1, %al
	je	.LBB0_281
# %bb.205:                              #   in Loop: Header=BB0_204 Depth=1
	movq	%rdx, 416(%rsp)
	movq	%rbx, 432(%rsp)
	movq	56(%rsp), %rax                  # 8-byte Reload
	testq	%rax, %rax
	je	.LBB0_208
# %bb.206:                              # %join.9.preheader.i.i.i.i.i.i.i
                                        #   in Loop: Header=BB0_204 Depth=1
	movq	352(%rsp), %rcx                 # 8-byte Reload
	movq	%rcx, (%rdx)
	movq	%rcx, 8(%rdx)
	movq	160(%rsp), %rcx                 # 8-byte Reload
	movq	%rcx, 16(%rdx)
	movq	$1, 424(%rsp)
	movl	$1, %r15d
	cmpl	$1, %eax
	jne	.LBB0_209
# %bb.207:                              #   in Loop: Header=BB0_204 Depth=1
	movq	%rbx, %r8
	jmp	.LBB0_215
.LBB0_208:                              #   in Loop: Header=BB0_204 Depth=1
	xorl	%r15d, %r15d
	movq	%rbx, %r8
	jmp	.LBB0_215
.LBB0_209:                              # %join.9.i.i.i67.i.i.i.i.preheader
                                        #   in Loop: Header=BB0_204 Depth=1
	movl	184(%rsp), %ebx                 # 4-byte Reload
	movq	160(%rsp), %rbp                 # 8-byte Reload
	jmp	.LBB0_212
.LBB0_210:                              # %"std_alloc::vec::Vec::grow::<#95ea9c2a17c64412>.exit.join.3_crit_edge.i.i.i.i.i.i.i.i"
                                        #   in Loop: Header=BB0_212 Depth=2
	movq	416(%rsp), %rdx
	movq	424(%rsp), %r15
.LBB0_211:                              # %arm.10.i.i.i.i.i.i.i
                                        #   in Loop: Header=BB0_212 Depth=2
	leaq	(%r15,%r15,2), %rax
	movq	%r14, (%rdx,%rax,8)
	movq	%r14, 8(%rdx,%rax,8)
	movq	%rbp, 16(%rdx,%rax,8)
	incq	%r15
	movq	%r15, 424(%rsp)
	decl	%ebx
	je	.LBB0_214
.LBB0_212:                              # %join.9.i.i.i67.i.i.i.i
                                        #   Parent Loop BB0_204 Depth=1
                                        # =>  This Inner Loop Header: Depth=2
	cmpq	%r15, 432(%rsp)
	jne	.LBB0_211
# %bb.213:                              # %"std_alloc::vec::Vec::grow::<#95ea9c2a17c64412>.exit.i.i.i.i.i.i.i.i"
                                        #   in Loop: Header=BB0_212 Depth=2
	leaq	416(%rsp), %rdi
	callq	"std_alloc::vec::Vec::grow_amortized::<#95ea9c2a17c64412>"
	testb	%al, %al
	jne	.LBB0_210
	jmp	.LBB0_279
.LBB0_214:                              # %arm.10.loopexit.i.i.i.i.i
                                        #   in Loop: Header=BB0_204 Depth=1
	movq	416(%rsp), %rdx
	movq	432(%rsp), %r8
	movq	232(%rsp), %rbp
.LBB0_215:                              # %arm.10.i80.i.i.i.i
                                        #   in Loop: Header=BB0_204 Depth=1
	movq	%rbp, %rbx
	cmpq	%rbp, 240(%rsp)
	je	.LBB0_218
.LBB0_216:                              # %arm.13.i.i.i.i.i
                                        #   in Loop: Header=BB0_204 Depth=1
	movq	224(%rsp), %rsi
	leaq	(%rbx,%rbx,2), %rax
	shlq	$4, %rax
	movq	8(%rsp), %rcx                   # 8-byte Reload
	movq	%rcx, (%rsi,%rax)
	movq	128(%rsp), %rcx                 # 8-byte Reload
	movq	%rcx, 8(%rsi,%rax)
	movq	32(%rsp), %rdi                  # 8-byte Reload
	movq	%rdi, 16(%rsi,%rax)
	movq	%rdx, 24(%rsi,%rax)
	movq	%r15, 32(%rsi,%rax)
	movq	%rsi, 8(%rsp)                   # 8-byte Spill
	movq	%r8, 40(%rsi,%rax)
	leaq	1(%rbx), %rbp
	movq	%rbp, 232(%rsp)
	incl	%r13d
	cmpl	16(%rsp), %r13d                 # 4-byte Folded Reload
	je	.LBB0_251
# %bb.217:                              # %join.9.i54.i.i.i.i
                                        #   in Loop: Header=BB0_204 Depth=1
	movl	$1, %esi
	callq	rattle_alloc@PLT
	movq	%rdx, %rcx
	testb	$1, %al
	movq	128(%rsp), %rdx                 # 8-byte Reload
	movq	112(%rsp), %rbx                 # 8-byte Reload
	jne	.LBB0_204
	jmp	.LBB0_282
.LBB0_218:                              # %"std_alloc::vec::Vec::grow::<#5defbd33e8555760>.exit.i.i.i.i.i.i"
                                        #   in Loop: Header=BB0_204 Depth=1
	movq	%r8, %rbp
	movq	%rdx, 136(%rsp)                 # 8-byte Spill
	leaq	224(%rsp), %rdi
	callq	"std_alloc::vec::Vec::grow_amortized::<#5defbd33e8555760>"
	testb	%al, %al
	je	.LBB0_387
# %bb.219:                              # %"std_alloc::vec::Vec::grow::<#5defbd33e8555760>.exit.join.3_crit_edge.i.i.i.i.i.i"
                                        #   in Loop: Header=BB0_204 Depth=1
	movq	232(%rsp), %rbx
	movq	136(%rsp), %rdx                 # 8-byte Reload
	movq	%rbp, %r8
	jmp	.LBB0_216
.LBB0_220:                              # %arm.9.i.i.i.i.i.i.i
	movq	168(%rsp), %r15                 # 8-byte Reload
	testq	%r15, %r15
	je	.LBB0_225
# %bb.221:                              # %join.5.i.i.i.i.i.i.i.i.i.i.i.i.i.i.i.preheader
	movq	48(%rsp), %rax                  # 8-byte Reload
	leaq	24(%rax), %rbx
	jmp	.LBB0_223
.LBB0_222:                              # %"core::mem::drop::<#46d93e6922d62939>.exit.i.i.i.i.i.i.i.i.i.i.i.i.i.i.i"
                                        #   in Loop: Header=BB0_223 Depth=1
	addq	$32, %rbx
	decq	%r15
	je	.LBB0_225
.LBB0_223:                              # %join.5.i.i.i.i.i.i.i.i.i.i.i.i.i.i.i
                                        # =>This Inner Loop Header: Depth=1
	cmpq	$0, (%rbx)
	je	.LBB0_222
# %bb.224:                              # %then.1.i.i.i.i.i.i.i.i.i.i.i.i.i.i.i.i.i.i.i.i.i
                                        #   in Loop: Header=BB0_223 Depth=1
	movq	-16(%rbx), %rdi
	callq	rattle_dealloc@PLT
	jmp	.LBB0_222
.LBB0_225:                              # %"std_alloc::vec::Vec::clear::<#d9b4ebeac28c86f4>.exit.i.i.i.i.i.i.i.i.i.i.i"
	cmpq	$0, 176(%rsp)                   # 8-byte Folded Reload
	je	.LBB0_227
# %bb.226:                              # %then.1.i.i.i.i.i.i.i.i.i.i.i.i.i
	movq	48(%rsp), %rdi                  # 8-byte Reload
	callq	rattle_dealloc@PLT
.LBB0_227:                              # %"core::result::ResultFromResidualErrResidual::from_residual::<#a4ea067403547577>.exit.i.i.i.i.i.i.i"
	movq	200(%rsp), %rax
	movq	%rax, 64(%rsp)                  # 8-byte Spill
	movq	208(%rsp), %rcx
	movq	216(%rsp), %rax
	movq	%rax, 32(%rsp)                  # 8-byte Spill
	movq	%rcx, 24(%rsp)                  # 8-byte Spill
	testq	%rcx, %rcx
	je	.LBB0_237
# %bb.228:                              # %join.5.i.i.i.i.i63.i.i.i.i.i.i.i.preheader
	xorl	%r12d, %r12d
	jmp	.LBB0_230
.LBB0_229:                              # %"core::mem::drop::<#30b1062d78cb4add>.exit.i.i.i.i.i90.i.i.i.i.i.i.i"
                                        #   in Loop: Header=BB0_230 Depth=1
	incq	%r12
	cmpq	24(%rsp), %r12                  # 8-byte Folded Reload
	je	.LBB0_237
.LBB0_230:                              # %join.5.i.i.i.i.i63.i.i.i.i.i.i.i
                                        # =>This Loop Header: Depth=1
                                        #     Child Loop BB0_233 Depth 2
	leaq	(%r12,%r12,2), %rax
	shlq	$4, %rax
	movq	64(%rsp), %rcx                  # 8-byte Reload
	movq	24(%rcx,%rax), %r15
	movq	32(%rcx,%rax), %rbx
	movq	40(%rcx,%rax), %rax
	movq	%rax, 8(%rsp)                   # 8-byte Spill
	testq	%rbx, %rbx
	je	.LBB0_235
# %bb.231:                              # %join.5.i.i.i.i.i.i.i.i.i.i.i.i74.i.i.i.i.i.i.i.preheader
                                        #   in Loop: Header=BB0_230 Depth=1
	leaq	24(%r15), %rbp
	jmp	.LBB0_233
	.p2align	4
.LBB0_232:                              # %"core::mem::drop::<#46d93e6922d62939>.exit.i.i.i.i.i.i.i.i.i.i.i.i84.i.i.i.i.i.i.i"
                                        #   in Loop: Header=BB0_233 Depth=2
	addq	$32, %rbp
	decq	%rbx
	je	.LBB0_235
.LBB0_233:                              # %join.5.i.i.i.i.i.i.i.i.i.i.i.i74.i.i.i.i.i.i.i
                                        #   Parent Loop BB0_230 Depth=1
                                        # =>  This Inner Loop Header: Depth=2
	cmpq	$0, (%rbp)
	je	.LBB0_232
# %bb.234:                              # %then.1.i.i.i.i.i.i.i.i.i.i.i.i.i.i.i.i.i.i81.i.i.i.i.i.i.i
                                        #   in Loop: Header=BB0_233 Depth=2
	movq	-16(%rbp), %rdi
	callq	rattle_dealloc@PLT
	jmp	.LBB0_232
.LBB0_235:                              # %"std_alloc::vec::Vec::clear::<#d9b4ebeac28c86f4>.exit.i.i.i.i.i.i.i.i87.i.i.i.i.i.i.i"
                                        #   in Loop: Header=BB0_230 Depth=1
	cmpq	$0, 8(%rsp)                     # 8-byte Folded Reload
	je	.LBB0_229
# %bb.236:                              # %then.1.i.i.i.i.i.i.i.i.i.i89.i.i.i.i.i.i.i
                                        #   in Loop: Header=BB0_230 Depth=1
	movq	%r15, %rdi
	callq	rattle_dealloc@PLT
	jmp	.LBB0_229
.LBB0_237:                              # %"std_alloc::vec::Vec::clear::<#aea6620ac8b5cb78>.exit.i93.i.i.i.i.i.i.i"
	cmpq	$0, 32(%rsp)                    # 8-byte Folded Reload
	movq	40(%rsp), %r12                  # 8-byte Reload
	jne	.LBB0_118
	jmp	.LBB0_25
.LBB0_238:                              # %arm.1.i.i.thread.i
	movq	%r14, 88(%rsp)                  # 8-byte Spill
	movl	$1, %esi
	xorl	%edi, %edi
	callq	rattle_alloc@PLT
	testb	$1, %al
	je	.LBB0_306
# %bb.239:                              # %"std_alloc::vec::Vec::move_to::<#82142151667fc454>.exit.i.i.i.thread.i"
	movq	%rdx, %r14
	movq	%rsp, %r13
	movb	$1, %bl
	movq	$0, 32(%rsp)                    # 8-byte Folded Spill
	xorl	%ebp, %ebp
	movq	%r13, 8(%rsp)                   # 8-byte Spill
.LBB0_240:                              # %"scq_band::making::lay_all::<#aae3f6a89b556e54>.exit.i.i.i"
	movq	144(%rsp), %rax                 # 8-byte Reload
	leaq	(,%rax,8), %rdi
	testq	%rdi, %rdi
	js	.LBB0_263
# %bb.241:                              # %"core::slots::blocks::reserve::<#69635f0e7dfe97d5>.exit.i.i.i.i.i"
	movl	$8, %esi
	callq	rattle_alloc@PLT
	testb	$1, %al
	je	.LBB0_263
# %bb.242:                              # %arm.2.i.i51.i.i.i
	movq	%rdx, %r15
	movl	$1, %esi
	xorl	%edi, %edi
	callq	rattle_alloc@PLT
	movq	%rdx, 96(%rsp)                  # 8-byte Spill
	testb	$1, %al
	je	.LBB0_262
# %bb.243:                              # %arm.7.i.i.i.i.i
	movq	144(%rsp), %rcx                 # 8-byte Reload
	testq	%rcx, %rcx
	je	.LBB0_334
# %bb.244:                              # %join.5.i.i.i53.i.i.i.preheader
	xorl	%eax, %eax
	cmpq	$4, %rcx
	jb	.LBB0_328
# %bb.245:                              # %join.5.i.i.i53.i.i.i.preheader
	movq	%r15, %rcx
	movq	120(%rsp), %rdi                 # 8-byte Reload
	subq	%rdi, %rcx
	cmpq	$32, %rcx
	movq	144(%rsp), %rdx                 # 8-byte Reload
	jb	.LBB0_329
# %bb.246:                              # %vector.ph222
	movq	%rdx, %rax
	andq	$-4, %rax
	xorl	%ecx, %ecx
.LBB0_247:                              # %vector.body225
                                        # =>This Inner Loop Header: Depth=1
	movups	(%rdi,%rcx,8), %xmm0
	movdqu	16(%rdi,%rcx,8), %xmm1
	movups	%xmm0, (%r15,%rcx,8)
	movdqu	%xmm1, 16(%r15,%rcx,8)
	addq	$4, %rcx
	cmpq	%rcx, %rax
	jne	.LBB0_247
# %bb.248:                              # %middle.block230
	movq	144(%rsp), %rdx                 # 8-byte Reload
	cmpq	%rax, %rdx
	jne	.LBB0_329
	jmp	.LBB0_334
.LBB0_249:                              # %"scq_core::state::start_rings.exit.i.i.i.i.i.i"
	movq	160(%rsp), %rax                 # 8-byte Reload
	movq	%rax, 416(%rsp)
	movq	%rax, 424(%rsp)
	movq	%r12, 432(%rsp)
	movaps	1120(%rsp), %xmm0
	movups	%xmm0, 440(%rsp)
	movq	1136(%rsp), %rax
	movq	%rax, 456(%rsp)
	leaq	864(%rsp), %rdi
	leaq	416(%rsp), %rsi
	callq	"core::result::ResultFromResidualErrResidual::from_residual::<#a4ea067403547577>"
	leaq	200(%rsp), %rdi
	callq	"std_alloc::vec::Vec::drop::<#a9901d079cc70198>"
	cmpb	$0, 864(%rsp)
	movq	40(%rsp), %r15                  # 8-byte Reload
	jne	.LBB0_26
# %bb.250:
	movq	872(%rsp), %rax
	movq	%rax, 8(%rsp)                   # 8-byte Spill
	movq	880(%rsp), %rbx
	movq	888(%rsp), %rax
	jmp	.LBB0_78
.LBB0_251:                              # %arm.1.i.i.i
	movq	240(%rsp), %rax
	movq	%rax, 32(%rsp)                  # 8-byte Spill
	movl	$1, %esi
	xorl	%edi, %edi
	callq	rattle_alloc@PLT
	testb	$1, %al
	je	.LBB0_297
# %bb.252:                              # %"std_alloc::vec::Vec::move_to::<#82142151667fc454>.exit.i.i.i.i"
	movq	%rdx, %r14
	testq	%rbp, %rbp
	je	.LBB0_327
# %bb.253:                              # %then.2.i14.i.i.i
	movq	%rbp, %rax
	shrq	$57, %rax
	jne	.LBB0_313
# %bb.254:                              # %"std_alloc::vec::resize::<#07c719505c6fb3d4>.exit.i.i.i.i.i"
	movq	%rbp, %rdi
	shlq	$6, %rdi
	movl	$8, %esi
	callq	rattle_alloc@PLT
	testb	$1, %al
	je	.LBB0_313
# %bb.255:                              # %"std_alloc::vec::Vec::move_to::<#07c719505c6fb3d4>.exit.i.i.i.i"
	movq	%rdx, %r13
	xorl	%ebx, %ebx
	jmp	.LBB0_240
.LBB0_256:                              # %arm.11.i.i.i.i.i
	cmpq	$0, 432(%rsp)
	movq	80(%rsp), %rbp                  # 8-byte Reload
	movq	40(%rsp), %r15                  # 8-byte Reload
	movq	104(%rsp), %rbx                 # 8-byte Reload
	movq	56(%rsp), %r14                  # 8-byte Reload
	movq	48(%rsp), %r12                  # 8-byte Reload
	je	.LBB0_258
# %bb.257:                              # %then.1.i.i.i14.i.i.i.i.i
	movq	416(%rsp), %rdi
	callq	rattle_dealloc@PLT
.LBB0_258:                              # %arm.9.i.i.i.i
	testq	%r14, %r14
	je	.LBB0_260
# %bb.259:                              # %then.1.i.i.i109.i.i.i.i
	movq	%r12, %rdi
	callq	rattle_dealloc@PLT
.LBB0_260:                              # %"std_alloc::vec::Vec::drop::<#8efca3a762195e10>.exit112.i.i.i.i"
	cmpq	$0, 152(%rsp)                   # 8-byte Folded Reload
	movq	%rbx, %rdi
	je	.LBB0_130
# %bb.261:                              # %then.1.i.i.i.i.i.i.i
	movq	120(%rsp), %rdi                 # 8-byte Reload
	jmp	.LBB0_312
.LBB0_262:                              # %arm.8.i.i52.i.i.i
	movq	%r15, %rdi
	callq	rattle_dealloc@PLT
.LBB0_263:                              # %arm.12.i.i.i
	testb	%bl, %bl
	je	.LBB0_273
# %bb.264:                              # %"std_alloc::vec::Vec::clear::<#b4ab0dccd0e4b9eb>.exit.i155.i.i.critedge.i"
	movq	%r14, %rdi
	callq	rattle_dealloc@PLT
	movq	16(%rsp), %r13                  # 8-byte Reload
	movq	120(%rsp), %r12                 # 8-byte Reload
.LBB0_265:                              # %"std_alloc::vec::Vec::clear::<#b4ab0dccd0e4b9eb>.exit.i155.i.i.i"
	cmpq	$0, 32(%rsp)                    # 8-byte Folded Reload
	movq	80(%rsp), %rbp                  # 8-byte Reload
	movq	88(%rsp), %rbx                  # 8-byte Reload
	je	.LBB0_267
# %bb.266:                              # %then.1.i.i.i157.i.i.i
	movq	8(%rsp), %rdi                   # 8-byte Reload
	callq	rattle_dealloc@PLT
.LBB0_267:                              # %"std_alloc::vec::Vec::drop::<#d7f15c36f98b15b9>.exit158.i.i.i"
	testq	%rbx, %rbx
	movq	40(%rsp), %r15                  # 8-byte Reload
	movq	104(%rsp), %rdi                 # 8-byte Reload
	movq	%rdi, %rbx
	je	.LBB0_269
# %bb.268:                              # %then.1.i.i.i162.i.i.i
	movq	24(%rsp), %rdi                  # 8-byte Reload
	callq	rattle_dealloc@PLT
	movq	%rbx, %rdi
.LBB0_269:                              # %"std_alloc::vec::Vec::drop::<#05cdb88185a824b0>.exit164.i.i.i"
	cmpq	$0, 56(%rsp)                    # 8-byte Folded Reload
	je	.LBB0_271
# %bb.270:                              # %then.1.i.i.i168.i.i.i
	movq	48(%rsp), %rdi                  # 8-byte Reload
	callq	rattle_dealloc@PLT
	movq	%rbx, %rdi
.LBB0_271:                              # %"std_alloc::vec::Vec::drop::<#8efca3a762195e10>.exit170.i.i.i"
	cmpq	$0, 152(%rsp)                   # 8-byte Folded Reload
	je	.LBB0_130
# %bb.272:                              # %then.1.i.i.i174.i.i.i
	movq	%r12, %rdi
	jmp	.LBB0_312
.LBB0_273:                              # %then.1.i.i117.i.i.i
	movq	%r13, %rdi
	callq	rattle_dealloc@PLT
	movq	%r14, %rdi
	callq	rattle_dealloc@PLT
	movq	8(%rsp), %rax                   # 8-byte Reload
	leaq	40(%rax), %rbx
	movq	16(%rsp), %r13                  # 8-byte Reload
	movq	120(%rsp), %r12                 # 8-byte Reload
	jmp	.LBB0_275
.LBB0_274:                              # %"core::mem::drop::<#b834ffe514bc0bc2>.exit.i.i.i.i.i152.i.i.i"
                                        #   in Loop: Header=BB0_275 Depth=1
	addq	$48, %rbx
	decq	%rbp
	je	.LBB0_265
.LBB0_275:                              # %join.5.i.i.i.i.i136.i.i.i
                                        # =>This Inner Loop Header: Depth=1
	movq	-16(%rbx), %r14
	movq	(%rbx), %r15
	cmpq	$0, -24(%rbx)
	je	.LBB0_277
# %bb.276:                              # %then.1.i.i.i.i.i.i.i.i.i.i147.i.i.i
                                        #   in Loop: Header=BB0_275 Depth=1
	movq	-40(%rbx), %rdi
	callq	rattle_dealloc@PLT
.LBB0_277:                              # %"std_alloc::vec::Vec::drop::<#60f12ba18a0e7df3>.exit.i.i.i.i.i.i.i149.i.i.i"
                                        #   in Loop: Header=BB0_275 Depth=1
	testq	%r15, %r15
	je	.LBB0_274
# %bb.278:                              # %then.1.i.i.i4.i.i.i.i.i.i.i151.i.i.i
                                        #   in Loop: Header=BB0_275 Depth=1
	movq	%r14, %rdi
	callq	rattle_dealloc@PLT
	jmp	.LBB0_274
.LBB0_279:                              # %arm.11.i.i.i.i.i.i.i
	cmpq	$0, 432(%rsp)
	je	.LBB0_281
# %bb.280:                              # %then.1.i.i.i13.i.i.i.i.i.i.i
	movq	416(%rsp), %rdi
	callq	rattle_dealloc@PLT
.LBB0_281:                              # %arm.6.i.i66.i.i.i.i
	movq	8(%rsp), %rdi                   # 8-byte Reload
	callq	rattle_dealloc@PLT
	movq	224(%rsp), %rax
	movq	%rax, 8(%rsp)                   # 8-byte Spill
	movq	232(%rsp), %rbp
.LBB0_282:                              # %arm.11.i61.i.i.i.i
	movq	240(%rsp), %rbx
	testq	%rbp, %rbp
	movq	16(%rsp), %r13                  # 8-byte Reload
	je	.LBB0_289
# %bb.283:                              # %join.5.i.i.i.i.i21.i.i.i.i.i.preheader
	movq	8(%rsp), %rax                   # 8-byte Reload
	leaq	40(%rax), %r15
	jmp	.LBB0_285
.LBB0_284:                              # %"core::mem::drop::<#b834ffe514bc0bc2>.exit.i.i.i.i.i37.i.i.i.i.i"
                                        #   in Loop: Header=BB0_285 Depth=1
	addq	$48, %r15
	decq	%rbp
	je	.LBB0_289
.LBB0_285:                              # %join.5.i.i.i.i.i21.i.i.i.i.i
                                        # =>This Inner Loop Header: Depth=1
	movq	-16(%r15), %r14
	movq	(%r15), %r12
	cmpq	$0, -24(%r15)
	je	.LBB0_287
# %bb.286:                              # %then.1.i.i.i.i.i.i.i.i.i.i32.i.i.i.i.i
                                        #   in Loop: Header=BB0_285 Depth=1
	movq	-40(%r15), %rdi
	callq	rattle_dealloc@PLT
.LBB0_287:                              # %"std_alloc::vec::Vec::drop::<#60f12ba18a0e7df3>.exit.i.i.i.i.i.i.i34.i.i.i.i.i"
                                        #   in Loop: Header=BB0_285 Depth=1
	testq	%r12, %r12
	je	.LBB0_284
# %bb.288:                              # %then.1.i.i.i4.i.i.i.i.i.i.i36.i.i.i.i.i
                                        #   in Loop: Header=BB0_285 Depth=1
	movq	%r14, %rdi
	callq	rattle_dealloc@PLT
	jmp	.LBB0_284
.LBB0_289:                              # %"std_alloc::vec::Vec::clear::<#b4ab0dccd0e4b9eb>.exit.i40.i.i.i.i.i"
	testq	%rbx, %rbx
	movq	80(%rsp), %rbp                  # 8-byte Reload
	movq	40(%rsp), %r15                  # 8-byte Reload
	movq	88(%rsp), %r14                  # 8-byte Reload
	movq	8(%rsp), %rdi                   # 8-byte Reload
	je	.LBB0_291
.LBB0_290:                              # %arm.12.i.i.i.i
	callq	rattle_dealloc@PLT
.LBB0_291:                              # %arm.12.i.i.i.i
	testq	%r14, %r14
	je	.LBB0_293
# %bb.292:                              # %then.1.i.i.i124.i.i.i.i
	movq	24(%rsp), %rdi                  # 8-byte Reload
	callq	rattle_dealloc@PLT
.LBB0_293:                              # %"std_alloc::vec::Vec::drop::<#05cdb88185a824b0>.exit.i.i.i.i"
	cmpq	$0, 56(%rsp)                    # 8-byte Folded Reload
	movq	104(%rsp), %rdi                 # 8-byte Reload
	movq	120(%rsp), %r14                 # 8-byte Reload
	movq	48(%rsp), %rax                  # 8-byte Reload
	je	.LBB0_295
# %bb.294:                              # %then.1.i.i.i129.i.i.i.i
	movq	%rdi, %rbx
	movq	%rax, %rdi
	callq	rattle_dealloc@PLT
	movq	%rbx, %rdi
.LBB0_295:                              # %"std_alloc::vec::Vec::drop::<#8efca3a762195e10>.exit132.i.i.i.i"
	cmpq	$0, 152(%rsp)                   # 8-byte Folded Reload
	je	.LBB0_130
# %bb.296:                              # %then.1.i.i.i136.i.i.i.i
	movq	%rdi, %rbx
	jmp	.LBB0_311
.LBB0_297:                              # %arm.6.i.i.i
	testq	%rbp, %rbp
	je	.LBB0_304
# %bb.298:                              # %join.5.i.i.i.i.i.i.i.i.preheader
	incq	%rbx
	movq	8(%rsp), %rax                   # 8-byte Reload
	leaq	40(%rax), %r15
	jmp	.LBB0_300
.LBB0_299:                              # %"core::mem::drop::<#b834ffe514bc0bc2>.exit.i.i.i.i.i.i.i.i"
                                        #   in Loop: Header=BB0_300 Depth=1
	addq	$48, %r15
	decq	%rbx
	je	.LBB0_304
.LBB0_300:                              # %join.5.i.i.i.i.i.i.i.i
                                        # =>This Inner Loop Header: Depth=1
	movq	-16(%r15), %r14
	movq	(%r15), %r12
	cmpq	$0, -24(%r15)
	je	.LBB0_302
# %bb.301:                              # %then.1.i.i.i.i.i.i.i.i.i.i26.i.i.i
                                        #   in Loop: Header=BB0_300 Depth=1
	movq	-40(%r15), %rdi
	callq	rattle_dealloc@PLT
.LBB0_302:                              # %"std_alloc::vec::Vec::drop::<#60f12ba18a0e7df3>.exit.i.i.i.i.i.i.i.i.i.i"
                                        #   in Loop: Header=BB0_300 Depth=1
	testq	%r12, %r12
	je	.LBB0_299
# %bb.303:                              # %then.1.i.i.i4.i.i.i.i.i.i.i.i.i.i
                                        #   in Loop: Header=BB0_300 Depth=1
	movq	%r14, %rdi
	callq	rattle_dealloc@PLT
	jmp	.LBB0_299
.LBB0_304:                              # %"std_alloc::vec::Vec::clear::<#b4ab0dccd0e4b9eb>.exit.i.i.i.i"
	cmpq	$0, 32(%rsp)                    # 8-byte Folded Reload
	movq	16(%rsp), %r13                  # 8-byte Reload
	movq	40(%rsp), %r15                  # 8-byte Reload
	movq	104(%rsp), %rbx                 # 8-byte Reload
	je	.LBB0_306
# %bb.305:                              # %then.1.i.i.i.i.i.i
	movq	8(%rsp), %rdi                   # 8-byte Reload
	callq	rattle_dealloc@PLT
.LBB0_306:                              # %"std_alloc::vec::Vec::drop::<#d7f15c36f98b15b9>.exit.i.i.i"
	cmpq	$0, 88(%rsp)                    # 8-byte Folded Reload
	movq	24(%rsp), %rdi                  # 8-byte Reload
	je	.LBB0_308
# %bb.307:                              # %then.1.i.i.i31.i.i.i
	callq	rattle_dealloc@PLT
.LBB0_308:                              # %"std_alloc::vec::Vec::drop::<#05cdb88185a824b0>.exit.i.i.i"
	cmpq	$0, 56(%rsp)                    # 8-byte Folded Reload
	movq	80(%rsp), %rbp                  # 8-byte Reload
	movq	120(%rsp), %r14                 # 8-byte Reload
	movq	48(%rsp), %rdi                  # 8-byte Reload
	je	.LBB0_310
# %bb.309:                              # %then.1.i.i.i36.i.i.i
	callq	rattle_dealloc@PLT
.LBB0_310:                              # %"std_alloc::vec::Vec::drop::<#8efca3a762195e10>.exit.i.i.i"
	cmpq	$0, 152(%rsp)                   # 8-byte Folded Reload
	movq	%rbx, %rdi
	je	.LBB0_130
.LBB0_311:                              # %then.1.i.i.i41.i.i.i
	movq	%r14, %rdi
.LBB0_312:                              # %arm.12.i.i
	callq	rattle_dealloc@PLT
	movq	%rbx, %rdi
	jmp	.LBB0_130
.LBB0_313:                              # %then.1.i.i.i.i.i
	movq	%r14, %rdi
	callq	rattle_dealloc@PLT
	incq	%rbx
	movq	8(%rsp), %rax                   # 8-byte Reload
	leaq	40(%rax), %r15
	jmp	.LBB0_315
.LBB0_314:                              # %"core::mem::drop::<#b834ffe514bc0bc2>.exit.i.i.i.i.i83.i.i.i"
                                        #   in Loop: Header=BB0_315 Depth=1
	addq	$48, %r15
	decq	%rbx
	je	.LBB0_319
.LBB0_315:                              # %join.5.i.i.i.i.i67.i.i.i
                                        # =>This Inner Loop Header: Depth=1
	movq	-16(%r15), %r14
	movq	(%r15), %r12
	cmpq	$0, -24(%r15)
	je	.LBB0_317
# %bb.316:                              # %then.1.i.i.i.i.i.i.i.i.i.i78.i.i.i
                                        #   in Loop: Header=BB0_315 Depth=1
	movq	-40(%r15), %rdi
	callq	rattle_dealloc@PLT
.LBB0_317:                              # %"std_alloc::vec::Vec::drop::<#60f12ba18a0e7df3>.exit.i.i.i.i.i.i.i80.i.i.i"
                                        #   in Loop: Header=BB0_315 Depth=1
	testq	%r12, %r12
	je	.LBB0_314
# %bb.318:                              # %then.1.i.i.i4.i.i.i.i.i.i.i82.i.i.i
                                        #   in Loop: Header=BB0_315 Depth=1
	movq	%r14, %rdi
	callq	rattle_dealloc@PLT
	jmp	.LBB0_314
.LBB0_319:                              # %"std_alloc::vec::Vec::clear::<#b4ab0dccd0e4b9eb>.exit.i86.i.i.i"
	cmpq	$0, 32(%rsp)                    # 8-byte Folded Reload
	je	.LBB0_321
# %bb.320:                              # %then.1.i.i.i88.i.i.i
	movq	8(%rsp), %rdi                   # 8-byte Reload
	callq	rattle_dealloc@PLT
.LBB0_321:                              # %"std_alloc::vec::Vec::drop::<#d7f15c36f98b15b9>.exit89.i.i.i"
	cmpq	$0, 88(%rsp)                    # 8-byte Folded Reload
	je	.LBB0_323
# %bb.322:                              # %then.1.i.i.i93.i.i.i
	movq	24(%rsp), %rdi                  # 8-byte Reload
	callq	rattle_dealloc@PLT
.LBB0_323:                              # %"std_alloc::vec::Vec::drop::<#05cdb88185a824b0>.exit95.i.i.i"
	cmpq	$0, 56(%rsp)                    # 8-byte Folded Reload
	je	.LBB0_325
# %bb.324:                              # %then.1.i.i.i99.i.i.i
	movq	48(%rsp), %rdi                  # 8-byte Reload
	callq	rattle_dealloc@PLT
.LBB0_325:                              # %"std_alloc::vec::Vec::drop::<#8efca3a762195e10>.exit101.i.i.i"
	cmpq	$0, 152(%rsp)                   # 8-byte Folded Reload
	movq	16(%rsp), %r13                  # 8-byte Reload
	movq	80(%rsp), %rbp                  # 8-byte Reload
	movq	40(%rsp), %r15                  # 8-byte Reload
	movq	104(%rsp), %rdi                 # 8-byte Reload
	movq	120(%rsp), %rax                 # 8-byte Reload
	je	.LBB0_130
# %bb.326:                              # %then.1.i.i.i105.i.i.i
	movq	%rdi, %rbx
	movq	%rax, %rdi
	jmp	.LBB0_312
.LBB0_327:
	movq	%rsp, %r13
	movb	$1, %bl
	xorl	%ebp, %ebp
	jmp	.LBB0_240
.LBB0_328:
	movq	120(%rsp), %rdi                 # 8-byte Reload
	movq	144(%rsp), %rdx                 # 8-byte Reload
.LBB0_329:                              # %join.5.i.i.i53.i.i.i.preheader255
	movq	%rax, %rcx
	andq	$3, %rdx
	je	.LBB0_332
# %bb.330:                              # %join.5.i.i.i53.i.i.i.prol.preheader
	movq	%rax, %rcx
.LBB0_331:                              # %join.5.i.i.i53.i.i.i.prol
                                        # =>This Inner Loop Header: Depth=1
	movq	(%rdi,%rcx,8), %rsi
	movq	%rsi, (%r15,%rcx,8)
	incq	%rcx
	decq	%rdx
	jne	.LBB0_331
.LBB0_332:                              # %join.5.i.i.i53.i.i.i.prol.loopexit
	movq	144(%rsp), %rdx                 # 8-byte Reload
	subq	%rdx, %rax
	cmpq	$-4, %rax
	ja	.LBB0_334
.LBB0_333:                              # %join.5.i.i.i53.i.i.i
                                        # =>This Inner Loop Header: Depth=1
	movq	(%rdi,%rcx,8), %rax
	movq	%rax, (%r15,%rcx,8)
	movq	8(%rdi,%rcx,8), %rax
	movq	%rax, 8(%r15,%rcx,8)
	movq	16(%rdi,%rcx,8), %rax
	movq	%rax, 16(%r15,%rcx,8)
	movq	24(%rdi,%rcx,8), %rax
	movq	%rax, 24(%r15,%rcx,8)
	addq	$4, %rcx
	cmpq	%rcx, %rdx
	jne	.LBB0_333
.LBB0_334:                              # %then.1.i.i.i.i.i56.i.i.i
	movq	%r14, %rdi
	callq	rattle_dealloc@PLT
	movq	8(%rsp), %rax                   # 8-byte Reload
	movq	%rax, 1056(%rsp)
	movq	%rbp, 1064(%rsp)
	movq	32(%rsp), %rax                  # 8-byte Reload
	movq	%rax, 1072(%rsp)
	movq	%r13, 1024(%rsp)
	movq	$0, 1032(%rsp)
	movq	%rbp, 1040(%rsp)
	leaq	1216(%rsp), %rdi
	leaq	1056(%rsp), %rdx
	leaq	1024(%rsp), %rcx
	movq	%r15, %rsi
	callq	"scq_band::splitting::split_all::<#aae3f6a89b556e54>"
	cmpq	$0, 152(%rsp)                   # 8-byte Folded Reload
	je	.LBB0_336
# %bb.335:                              # %then.1.i.i.i111.i.i.i
	movq	120(%rsp), %rdi                 # 8-byte Reload
	callq	rattle_dealloc@PLT
.LBB0_336:                              # %arm.5.i
	movq	1232(%rsp), %rax
	movq	%rax, 1296(%rsp)
	movaps	1216(%rsp), %xmm0
	movaps	%xmm0, 1280(%rsp)
	movaps	%xmm0, 832(%rsp)
	movq	%rax, 848(%rsp)
	movq	104(%rsp), %rax                 # 8-byte Reload
	movq	%rax, 960(%rsp)
	movq	$0, 968(%rsp)
	movq	16(%rsp), %rbx                  # 8-byte Reload
	movq	%rbx, 976(%rsp)
	leaq	992(%rsp), %rdi
	leaq	832(%rsp), %rsi
	leaq	960(%rsp), %rdx
	callq	"scq_queue::queue::passes_of::<#aae3f6a89b556e54>"
	movq	%r15, 416(%rsp)
	movq	96(%rsp), %rsi                  # 8-byte Reload
	movq	%rsi, 424(%rsp)
	movq	144(%rsp), %rdx                 # 8-byte Reload
	movq	%rdx, 432(%rsp)
	movq	128(%rsp), %rcx                 # 8-byte Reload
	movq	%rcx, 440(%rsp)
	movq	%r15, 448(%rsp)
	movq	%rdx, 456(%rsp)
	movq	%rsi, 464(%rsp)
	movq	%rcx, 472(%rsp)
	movq	192(%rsp), %rax                 # 8-byte Reload
	movl	%eax, 480(%rsp)
	movdqa	64(%rsp), %xmm1                 # 16-byte Reload
	pshufd	$233, %xmm1, %xmm0              # xmm0 = xmm1[1,2,2,3]
	movq	%xmm0, 484(%rsp)
	pextrd	$3, %xmm1, 492(%rsp)
	movq	848(%rsp), %rax
	movq	%rax, 944(%rsp)
	movq	400(%rsp), %rax                 # 8-byte Reload
	movq	%rax, 496(%rsp)
	movq	24(%rsp), %rax                  # 8-byte Reload
	movq	%rax, 504(%rsp)
	movq	%r12, 512(%rsp)
	movq	88(%rsp), %rax                  # 8-byte Reload
	movq	%rax, 520(%rsp)
	movq	80(%rsp), %rax                  # 8-byte Reload
	movq	%rax, 528(%rsp)
	movq	$0, 536(%rsp)
	movq	%rcx, 544(%rsp)
	movq	48(%rsp), %rax                  # 8-byte Reload
	movq	%rax, 552(%rsp)
	movq	$0, 560(%rsp)
	movq	56(%rsp), %rax                  # 8-byte Reload
	movq	%rax, 568(%rsp)
	movq	944(%rsp), %rax
	movq	%rax, 592(%rsp)
	movq	992(%rsp), %rax
	movq	%rax, 96(%rsp)                  # 8-byte Spill
	movaps	832(%rsp), %xmm0
	movaps	%xmm0, 928(%rsp)
	movaps	928(%rsp), %xmm0
	movups	%xmm0, 576(%rsp)
	movq	40(%rsp), %rax                  # 8-byte Reload
	movq	%rax, 600(%rsp)
	movq	1000(%rsp), %rax
	movq	%rax, 32(%rsp)                  # 8-byte Spill
	movq	$0, 608(%rsp)
	movq	%rbx, 616(%rsp)
	movq	392(%rsp), %rax                 # 8-byte Reload
	movq	%rax, 624(%rsp)
	movq	1008(%rsp), %rax
	movq	%rax, 88(%rsp)                  # 8-byte Spill
	movq	$0, 632(%rsp)
	movq	%rbx, 640(%rsp)
	testl	%ebx, %ebx
	je	.LBB0_340
# %bb.337:                              # %"std_alloc::vec::resize::<#090976a868a86af5>.exit.i.i.i.i.i.i.i"
	movq	16(%rsp), %rax                  # 8-byte Reload
	leaq	(,%rax,8), %rbx
	movl	$8, %esi
	movq	%rbx, %rdi
	callq	rattle_alloc@PLT
	movq	%rdx, 8(%rsp)                   # 8-byte Spill
	testb	$1, %al
	je	.LBB0_380
# %bb.338:                              # %arm.1.i.i.i.i17.i
	cmpl	$1, 16(%rsp)                    # 4-byte Folded Reload
	jne	.LBB0_341
# %bb.339:
	xorl	%r14d, %r14d
	jmp	.LBB0_342
.LBB0_340:
	xorl	%r14d, %r14d
	movq	%rsp, %r13
	movq	%r13, 8(%rsp)                   # 8-byte Spill
	jmp	.LBB0_344
.LBB0_341:                              # %join.12.preheader.i.i.i.i.i
	addq	$-8, %rbx
	movq	8(%rsp), %rdi                   # 8-byte Reload
	xorl	%esi, %esi
	movq	%rbx, %rdx
	callq	memset@PLT
	movq	16(%rsp), %rax                  # 8-byte Reload
	leaq	-1(%rax), %r14
.LBB0_342:                              # %"std_alloc::vec::resize::<#bf9c1953a1d97910>.exit.i.i.i.i.i.i"
	movq	8(%rsp), %rax                   # 8-byte Reload
	movq	$0, (%rax,%r14,8)
	movq	16(%rsp), %rbx                  # 8-byte Reload
	shlq	$7, %rbx
	movl	$8, %esi
	movq	%rbx, %rdi
	callq	rattle_alloc@PLT
	testb	$1, %al
	je	.LBB0_378
# %bb.343:                              # %join.12.preheader.i.i.i.i
	movq	%rdx, %r13
	movq	%rdx, %rdi
	xorl	%esi, %esi
	movq	%rbx, %rdx
	callq	memset@PLT
	incq	%r14
.LBB0_344:                              # %"core::slots::blocks::reserve::<#090976a868a86af5>.exit.i.i.i.i.i.i"
	leaq	(,%r14,8), %rbp
	movl	$8, %esi
	movq	%rbp, %rdi
	callq	rattle_alloc@PLT
	movq	%rdx, 24(%rsp)                  # 8-byte Spill
	testb	$1, %al
	je	.LBB0_367
# %bb.345:                              # %"core::slots::blocks::reserve::<#bf9c1953a1d97910>.exit.i.i.i.i.i.i"
	movq	16(%rsp), %rdi                  # 8-byte Reload
	shlq	$7, %rdi
	movl	$8, %esi
	callq	rattle_alloc@PLT
	testb	$1, %al
	je	.LBB0_366
# %bb.346:                              # %arm.7.i.i.i.i.i.i
	movq	%rdx, %r12
	testq	%r14, %r14
	je	.LBB0_357
# %bb.347:                              # %join.5.i.i.i.i.i.i.i.preheader
	xorl	%eax, %eax
	cmpq	$4, %r14
	jb	.LBB0_352
# %bb.348:                              # %join.5.i.i.i.i.i.i.i.preheader
	movq	24(%rsp), %rcx                  # 8-byte Reload
	subq	8(%rsp), %rcx                   # 8-byte Folded Reload
	cmpq	$32, %rcx
	jb	.LBB0_352
# %bb.349:                              # %vector.ph238
	movq	%r14, %rax
	andq	$-4, %rax
	andq	$-32, %rbp
	xorl	%ecx, %ecx
.LBB0_350:                              # %vector.body241
                                        # =>This Inner Loop Header: Depth=1
	movq	8(%rsp), %rdx                   # 8-byte Reload
	movups	(%rdx,%rcx), %xmm0
	movdqu	16(%rdx,%rcx), %xmm1
	movq	24(%rsp), %rdx                  # 8-byte Reload
	movups	%xmm0, (%rdx,%rcx)
	movdqu	%xmm1, 16(%rdx,%rcx)
	addq	$32, %rcx
	cmpq	%rcx, %rbp
	jne	.LBB0_350
# %bb.351:                              # %middle.block246
	cmpq	%rax, %r14
	je	.LBB0_357
.LBB0_352:                              # %join.5.i.i.i.i.i.i.i.preheader254
	movq	%r14, %rdx
	movq	%rax, %rcx
	andq	$3, %rdx
	je	.LBB0_355
# %bb.353:                              # %join.5.i.i.i.i.i.i.i.prol.preheader
	movq	%rax, %rcx
.LBB0_354:                              # %join.5.i.i.i.i.i.i.i.prol
                                        # =>This Inner Loop Header: Depth=1
	movq	8(%rsp), %rsi                   # 8-byte Reload
	movq	(%rsi,%rcx,8), %rsi
	movq	24(%rsp), %rdi                  # 8-byte Reload
	movq	%rsi, (%rdi,%rcx,8)
	incq	%rcx
	decq	%rdx
	jne	.LBB0_354
.LBB0_355:                              # %join.5.i.i.i.i.i.i.i.prol.loopexit
	subq	%r14, %rax
	cmpq	$-4, %rax
	ja	.LBB0_357
.LBB0_356:                              # %join.5.i.i.i.i.i.i.i
                                        # =>This Inner Loop Header: Depth=1
	movq	8(%rsp), %rsi                   # 8-byte Reload
	movq	(%rsi,%rcx,8), %rax
	movq	24(%rsp), %rdx                  # 8-byte Reload
	movq	%rax, (%rdx,%rcx,8)
	movq	8(%rsi,%rcx,8), %rax
	movq	%rax, 8(%rdx,%rcx,8)
	movq	16(%rsi,%rcx,8), %rax
	movq	%rax, 16(%rdx,%rcx,8)
	movq	24(%rsi,%rcx,8), %rax
	movq	%rax, 24(%rdx,%rcx,8)
	addq	$4, %rcx
	cmpq	%rcx, %r14
	jne	.LBB0_356
.LBB0_357:                              # %"atomic_table::owned::fill_words.exit.i.i.i.i.i.i"
	cmpl	$0, 16(%rsp)                    # 4-byte Folded Reload
	je	.LBB0_398
# %bb.358:                              # %arm.3.i.i.i.i.i.i.i.preheader
	movq	16(%rsp), %rcx                  # 8-byte Reload
	movq	%rcx, %rax
	testb	$1, %cl
	je	.LBB0_360
# %bb.359:                              # %arm.3.i.i.i.i.i.i.i.prol
	movq	16(%rsp), %rax                  # 8-byte Reload
	decq	%rax
	movq	%rax, %rcx
	shlq	$7, %rcx
	movzbl	(%r13,%rcx), %edx
	movq	120(%r13,%rcx), %rsi
	movq	%rsi, 336(%rsp)
	movups	104(%r13,%rcx), %xmm0
	movaps	%xmm0, 320(%rsp)
	movups	88(%r13,%rcx), %xmm0
	movaps	%xmm0, 304(%rsp)
	movups	72(%r13,%rcx), %xmm0
	movaps	%xmm0, 288(%rsp)
	movups	8(%r13,%rcx), %xmm0
	movups	24(%r13,%rcx), %xmm1
	movups	40(%r13,%rcx), %xmm2
	movups	56(%r13,%rcx), %xmm3
	movaps	%xmm3, 272(%rsp)
	movaps	%xmm2, 256(%rsp)
	movaps	%xmm1, 240(%rsp)
	movaps	%xmm0, 224(%rsp)
	movq	%rdx, (%r12,%rcx)
	movaps	224(%rsp), %xmm0
	movdqa	240(%rsp), %xmm1
	movaps	256(%rsp), %xmm2
	movaps	272(%rsp), %xmm3
	movups	%xmm0, 8(%r12,%rcx)
	movdqu	%xmm1, 24(%r12,%rcx)
	movups	%xmm2, 40(%r12,%rcx)
	movups	%xmm3, 56(%r12,%rcx)
	movaps	288(%rsp), %xmm0
	movups	%xmm0, 72(%r12,%rcx)
	movaps	304(%rsp), %xmm0
	movups	%xmm0, 88(%r12,%rcx)
	movaps	320(%rsp), %xmm0
	movups	%xmm0, 104(%r12,%rcx)
	movq	336(%rsp), %rdx
	movq	%rdx, 120(%r12,%rcx)
.LBB0_360:                              # %arm.3.i.i.i.i.i.i.i.prol.loopexit
	cmpl	$1, 16(%rsp)                    # 4-byte Folded Reload
	je	.LBB0_363
# %bb.361:                              # %arm.3.i.i.i.i.i.i.i.preheader296
	movq	%rax, %rcx
	shlq	$7, %rcx
	addq	$-120, %rcx
.LBB0_362:                              # %arm.3.i.i.i.i.i.i.i
                                        # =>This Inner Loop Header: Depth=1
	movzbl	-8(%r13,%rcx), %edx
	movq	112(%r13,%rcx), %rsi
	movq	%rsi, 336(%rsp)
	movups	96(%r13,%rcx), %xmm0
	movaps	%xmm0, 320(%rsp)
	movups	80(%r13,%rcx), %xmm0
	movaps	%xmm0, 304(%rsp)
	movups	64(%r13,%rcx), %xmm0
	movaps	%xmm0, 288(%rsp)
	movups	(%r13,%rcx), %xmm0
	movups	16(%r13,%rcx), %xmm1
	movups	32(%r13,%rcx), %xmm2
	movups	48(%r13,%rcx), %xmm3
	movaps	%xmm3, 272(%rsp)
	movaps	%xmm2, 256(%rsp)
	movaps	%xmm1, 240(%rsp)
	movaps	%xmm0, 224(%rsp)
	movq	%rdx, -8(%r12,%rcx)
	movaps	224(%rsp), %xmm0
	movaps	240(%rsp), %xmm1
	movaps	256(%rsp), %xmm2
	movaps	272(%rsp), %xmm3
	movups	%xmm0, (%r12,%rcx)
	movups	%xmm1, 16(%r12,%rcx)
	movups	%xmm2, 32(%r12,%rcx)
	movups	%xmm3, 48(%r12,%rcx)
	movaps	288(%rsp), %xmm0
	movups	%xmm0, 64(%r12,%rcx)
	movaps	304(%rsp), %xmm0
	movups	%xmm0, 80(%r12,%rcx)
	movaps	320(%rsp), %xmm0
	movups	%xmm0, 96(%r12,%rcx)
	movq	336(%rsp), %rdx
	movq	%rdx, 112(%r12,%rcx)
	movzbl	-136(%r13,%rcx), %edx
	movq	-16(%r13,%rcx), %rsi
	movq	%rsi, 336(%rsp)
	movups	-32(%r13,%rcx), %xmm0
	movaps	%xmm0, 320(%rsp)
	movups	-48(%r13,%rcx), %xmm0
	movaps	%xmm0, 304(%rsp)
	movups	-64(%r13,%rcx), %xmm0
	movaps	%xmm0, 288(%rsp)
	movups	-128(%r13,%rcx), %xmm0
	movups	-112(%r13,%rcx), %xmm1
	movups	-96(%r13,%rcx), %xmm2
	movups	-80(%r13,%rcx), %xmm3
	movaps	%xmm3, 272(%rsp)
	movaps	%xmm2, 256(%rsp)
	movaps	%xmm1, 240(%rsp)
	movaps	%xmm0, 224(%rsp)
	movq	%rdx, -136(%r12,%rcx)
	movaps	224(%rsp), %xmm0
	movdqa	240(%rsp), %xmm1
	movaps	256(%rsp), %xmm2
	movaps	272(%rsp), %xmm3
	movups	%xmm0, -128(%r12,%rcx)
	movdqu	%xmm1, -112(%r12,%rcx)
	movups	%xmm2, -96(%r12,%rcx)
	movups	%xmm3, -80(%r12,%rcx)
	movaps	288(%rsp), %xmm0
	movups	%xmm0, -64(%r12,%rcx)
	movaps	304(%rsp), %xmm0
	movups	%xmm0, -48(%r12,%rcx)
	movaps	320(%rsp), %xmm0
	movups	%xmm0, -32(%r12,%rcx)
	movq	336(%rsp), %rdx
	movq	%rdx, -16(%r12,%rcx)
	addq	$-256, %rcx
	addq	$-2, %rax
	jne	.LBB0_362
.LBB0_363:                              # %"std_alloc::vec::resize::<#44a7f6dac2698e27>.exit.i.i.i.i.i"
	movq	%r13, %rdi
	callq	rattle_dealloc@PLT
	movq	8(%rsp), %rdi                   # 8-byte Reload
	callq	rattle_dealloc@PLT
	movq	16(%rsp), %rax                  # 8-byte Reload
	shlq	$5, %rax
	leaq	(%rax,%rax,2), %rdi
	movl	$8, %esi
	callq	rattle_alloc@PLT
	testb	$1, %al
	je	.LBB0_407
# %bb.364:                              # %arm.5.thread.i.i.i
	movq	%rdx, %r13
	movq	128(%rsp), %rax                 # 8-byte Reload
	leaq	(,%rax,4), %rdi
	movl	$4, %esi
	callq	rattle_alloc@PLT
	testb	$1, %al
	je	.LBB0_425
# %bb.365:
	movq	%rdx, %rbx
	jmp	.LBB0_400
.LBB0_366:                              # %arm.8.i.i.i.i.i.i
	movq	24(%rsp), %rdi                  # 8-byte Reload
	callq	rattle_dealloc@PLT
.LBB0_367:                              # %arm.16.i.i.i.i
	cmpl	$0, 16(%rsp)                    # 4-byte Folded Reload
	je	.LBB0_380
# %bb.368:                              # %join.5.i.i.i.i.i.i.i.i.i.preheader
	shlq	$7, 16(%rsp)                    # 8-byte Folded Spill
	xorl	%r12d, %r12d
	jmp	.LBB0_370
.LBB0_369:                              # %"core::mem::drop::<#c10a63d121191302>.exit.i.i.i.i.i.i.i.i.i"
                                        #   in Loop: Header=BB0_370 Depth=1
	subq	$-128, %r12
	cmpq	%r12, 16(%rsp)                  # 8-byte Folded Reload
	je	.LBB0_377
.LBB0_370:                              # %join.5.i.i.i.i.i.i.i.i.i
                                        # =>This Inner Loop Header: Depth=1
	cmpb	$0, (%r13,%r12)
	je	.LBB0_369
# %bb.371:                              # %arm.2.i.i.i.i.i.i.i.i.i.i.i
                                        #   in Loop: Header=BB0_370 Depth=1
	movq	8(%r13,%r12), %r15
	movq	24(%r13,%r12), %r14
	movq	32(%r13,%r12), %rbx
	movq	48(%r13,%r12), %rbp
	cmpq	$0, 120(%r13,%r12)
	je	.LBB0_373
# %bb.372:                              # %then.1.i.i.i.i.i.i.i.i.i.i.i.i.i.i30.i
                                        #   in Loop: Header=BB0_370 Depth=1
	movq	104(%r13,%r12), %rdi
	callq	rattle_dealloc@PLT
.LBB0_373:                              # %"scq_port::leaving::drop_slots.exit.i.i.i.i.i.i.i.i.i.i.i.i"
                                        #   in Loop: Header=BB0_370 Depth=1
	testq	%r14, %r14
	je	.LBB0_375
# %bb.374:                              # %then.1.i.i.i5.i.i.i.i.i.i.i.i.i.i.i.i
                                        #   in Loop: Header=BB0_370 Depth=1
	movq	%r15, %rdi
	callq	rattle_dealloc@PLT
.LBB0_375:                              # %"std_alloc::vec::Vec::drop::<#322702e9d69ed9ef>.exit.i.i.i.i.i.i.i.i.i.i.i.i"
                                        #   in Loop: Header=BB0_370 Depth=1
	testq	%rbp, %rbp
	je	.LBB0_369
# %bb.376:                              # %then.1.i.i.i10.i.i.i.i.i.i.i.i.i.i.i.i
                                        #   in Loop: Header=BB0_370 Depth=1
	movq	%rbx, %rdi
	callq	rattle_dealloc@PLT
	jmp	.LBB0_369
.LBB0_377:                              # %then.1.i.i.i29.i.i.i.i
	movq	%r13, %rdi
	callq	rattle_dealloc@PLT
.LBB0_378:                              # %"std_alloc::vec::Vec::drop::<#e5207596a7850bb0>.exit.i.i.i.i"
	movq	8(%rsp), %rdi                   # 8-byte Reload
.LBB0_379:                              # %arm.2.i16.i
	callq	rattle_dealloc@PLT
.LBB0_380:                              # %arm.2.i16.i
	leaq	416(%rsp), %rdi
	callq	"scq_queue::queue::Queue::abandon::<#a764f8bb96b57390>"
	movq	32(%rsp), %r12                  # 8-byte Reload
	testq	%r12, %r12
	je	.LBB0_423
# %bb.381:                              # %join.5.i.i.i.i.i69.i.preheader
	movq	96(%rsp), %rax                  # 8-byte Reload
	leaq	40(%rax), %r15
	jmp	.LBB0_383
.LBB0_382:                              # %"core::mem::drop::<#db57577750518db5>.exit.i.i.i.i.i.i"
                                        #   in Loop: Header=BB0_383 Depth=1
	addq	$96, %r15
	decq	%r12
	je	.LBB0_423
.LBB0_383:                              # %join.5.i.i.i.i.i69.i
                                        # =>This Inner Loop Header: Depth=1
	movq	-16(%r15), %rbx
	movq	(%r15), %r14
	cmpq	$0, -24(%r15)
	je	.LBB0_385
# %bb.384:                              # %then.1.i.i.i.i.i.i.i.i.i.i.i72.i
                                        #   in Loop: Header=BB0_383 Depth=1
	movq	-40(%r15), %rdi
	callq	rattle_dealloc@PLT
.LBB0_385:                              # %"std_alloc::vec::Vec::drop::<#322702e9d69ed9ef>.exit.i.i.i.i.i.i.i.i.i"
                                        #   in Loop: Header=BB0_383 Depth=1
	testq	%r14, %r14
	je	.LBB0_382
# %bb.386:                              # %then.1.i.i.i4.i.i.i.i.i.i.i.i.i
                                        #   in Loop: Header=BB0_383 Depth=1
	movq	%rbx, %rdi
	callq	rattle_dealloc@PLT
	jmp	.LBB0_382
.LBB0_387:                              # %"std_alloc::vec::Vec::drop::<#60f12ba18a0e7df3>.exit.i.i.i.i.i.i.i.i"
	movq	8(%rsp), %rdi                   # 8-byte Reload
	callq	rattle_dealloc@PLT
	testq	%rbp, %rbp
	je	.LBB0_389
# %bb.388:                              # %then.1.i.i.i4.i.i.i.i.i.i.i.i
	movq	136(%rsp), %rdi                 # 8-byte Reload
	callq	rattle_dealloc@PLT
.LBB0_389:                              # %"core::result::ResultFromResidualErrResidual::from_residual::<#3b1a0322bd008762>.exit.i.i.i.i.i"
	movq	224(%rsp), %rbx
	movq	232(%rsp), %r12
	movq	240(%rsp), %r15
	testq	%r12, %r12
	je	.LBB0_396
# %bb.390:                              # %join.5.i.i.i.i.i52.i.i.i.i.i.preheader
	leaq	40(%rbx), %r13
	jmp	.LBB0_392
.LBB0_391:                              # %"core::mem::drop::<#b834ffe514bc0bc2>.exit.i.i.i.i.i68.i.i.i.i.i"
                                        #   in Loop: Header=BB0_392 Depth=1
	addq	$48, %r13
	decq	%r12
	je	.LBB0_396
.LBB0_392:                              # %join.5.i.i.i.i.i52.i.i.i.i.i
                                        # =>This Inner Loop Header: Depth=1
	movq	-16(%r13), %r14
	movq	(%r13), %rbp
	cmpq	$0, -24(%r13)
	je	.LBB0_394
# %bb.393:                              # %then.1.i.i.i.i.i.i.i.i.i.i63.i.i.i.i.i
                                        #   in Loop: Header=BB0_392 Depth=1
	movq	-40(%r13), %rdi
	callq	rattle_dealloc@PLT
.LBB0_394:                              # %"std_alloc::vec::Vec::drop::<#60f12ba18a0e7df3>.exit.i.i.i.i.i.i.i65.i.i.i.i.i"
                                        #   in Loop: Header=BB0_392 Depth=1
	testq	%rbp, %rbp
	je	.LBB0_391
# %bb.395:                              # %then.1.i.i.i4.i.i.i.i.i.i.i67.i.i.i.i.i
                                        #   in Loop: Header=BB0_392 Depth=1
	movq	%r14, %rdi
	callq	rattle_dealloc@PLT
	jmp	.LBB0_391
.LBB0_396:                              # %"std_alloc::vec::Vec::clear::<#b4ab0dccd0e4b9eb>.exit.i71.i.i.i.i.i"
	testq	%r15, %r15
	movq	16(%rsp), %r13                  # 8-byte Reload
	movq	80(%rsp), %rbp                  # 8-byte Reload
	movq	40(%rsp), %r15                  # 8-byte Reload
	movq	88(%rsp), %r14                  # 8-byte Reload
	je	.LBB0_291
# %bb.397:                              # %then.1.i.i.i73.i.i.i.i.i
	movq	%rbx, %rdi
	jmp	.LBB0_290
.LBB0_398:                              # %arm.5.i.i47.i
	movq	128(%rsp), %rax                 # 8-byte Reload
	leaq	(,%rax,4), %rdi
	movl	$4, %esi
	callq	rattle_alloc@PLT
	testb	$1, %al
	je	.LBB0_434
# %bb.399:
	movq	%rdx, %rbx
	movq	%rsp, %r13
.LBB0_400:                              # %arm.1.i44.i
	leaq	424(%rsp), %rsi
	leaq	1344(%rsp), %rdi
	movl	$224, %edx
	callq	memcpy@PLT
	movl	$352, %edi                      # imm = 0x160
	movl	$8, %esi
	callq	rattle_alloc@PLT
	testb	$1, %al
	je	.LBB0_416
# %bb.401:                              # %"scq_port::opening::open.exit"
	movq	%rdx, %rbp
	movq	$1, (%rdx)
	movq	%r15, 8(%rdx)
	movq	%rdx, %rdi
	addq	$16, %rdi
	leaq	1344(%rsp), %rsi
	movl	$224, %edx
	callq	memcpy@PLT
	movq	24(%rsp), %rcx                  # 8-byte Reload
	movq	%rcx, 240(%rbp)
	movq	%r12, 248(%rbp)
	movq	%r14, 256(%rbp)
	movq	16(%rsp), %rax                  # 8-byte Reload
	movq	%rax, 264(%rbp)
	movq	%rcx, 272(%rbp)
	movq	%r14, 280(%rbp)
	movq	%r12, 288(%rbp)
	movq	%rax, 296(%rbp)
	movq	%r13, 304(%rbp)
	movq	$0, 312(%rbp)
	movq	%rax, 320(%rbp)
	movq	%rbx, 328(%rbp)
	movq	$0, 336(%rbp)
	movq	128(%rsp), %rax                 # 8-byte Reload
	movq	%rax, 344(%rbp)
	movq	96(%rsp), %rax                  # 8-byte Reload
	movq	%rax, 896(%rsp)
	movq	32(%rsp), %rax                  # 8-byte Reload
	movq	%rax, 904(%rsp)
	movq	88(%rsp), %rax                  # 8-byte Reload
	movq	%rax, 912(%rsp)
	movaps	64(%rsp), %xmm0                 # 16-byte Reload
	movaps	%xmm0, 1184(%rsp)
	movq	400(%rsp), %rax                 # 8-byte Reload
	movq	%rax, 1200(%rsp)
	leaq	1152(%rsp), %rdi
	leaq	896(%rsp), %rdx
	leaq	1184(%rsp), %rcx
	movq	%rbp, %rsi
	movl	364(%rsp), %r8d                 # 4-byte Reload
	callq	"scq_port::opening::ports_of"
	movq	%rbp, %rdi
	callq	"std_alloc::arc::Arc::drop::<#9f30ca7595de9587>"
	cmpb	$0, 1152(%rsp)
	jne	.LBB0_136
# %bb.402:                              # %arm.1
	movq	1160(%rsp), %rax
	movq	%rax, 64(%rsp)                  # 8-byte Spill
	movq	1168(%rsp), %rbp
	movq	1176(%rsp), %rax
	movq	%rax, 24(%rsp)                  # 8-byte Spill
	testq	%rbp, %rbp
	je	.LBB0_439
# %bb.403:                              # %then.2.i
	movq	%rbp, %rax
	shrq	$60, %rax
	jne	.LBB0_435
# %bb.404:                              # %"std_alloc::vec::resize::<#7515bd1c082cc979>.exit.i.i"
	leaq	(,%rbp,8), %rdi
	movl	$8, %esi
	callq	rattle_alloc@PLT
	movq	%rdx, 8(%rsp)                   # 8-byte Spill
	testb	$1, %al
	je	.LBB0_435
# %bb.405:                              # %arm.5
	cmpq	$15, %rbp
	jbe	.LBB0_443
# %bb.406:                              # %then.1.i.i.i
	movq	%rbp, %rdx
	shrq	%rdx
	movq	%rbp, %rax
	subq	%rdx, %rax
	imulq	$408, %rax, %rsi                # imm = 0x198
	movq	64(%rsp), %rdi                  # 8-byte Reload
	addq	%rdi, %rsi
	callq	"core::slice::edits::mirror::<20'scq_port::port::Port>"
	jmp	.LBB0_444
.LBB0_407:                              # %join.5.i.i.i.i.preheader
	movq	%r12, %rbp
	jmp	.LBB0_409
.LBB0_408:                              # %"core::mem::drop::<#c10a63d121191302>.exit.i.i.i.i"
                                        #   in Loop: Header=BB0_409 Depth=1
	subq	$-128, %rbp
	decq	16(%rsp)                        # 8-byte Folded Spill
	je	.LBB0_434
.LBB0_409:                              # %join.5.i.i.i.i
                                        # =>This Inner Loop Header: Depth=1
	cmpb	$0, (%rbp)
	je	.LBB0_408
# %bb.410:                              # %arm.2.i.i.i.i.i.i
                                        #   in Loop: Header=BB0_409 Depth=1
	movq	8(%rbp), %r15
	movq	24(%rbp), %r14
	movq	32(%rbp), %r13
	movq	48(%rbp), %rbx
	cmpq	$0, 120(%rbp)
	je	.LBB0_412
# %bb.411:                              # %then.1.i.i.i.i.i.i.i.i.i.i
                                        #   in Loop: Header=BB0_409 Depth=1
	movq	104(%rbp), %rdi
	callq	rattle_dealloc@PLT
.LBB0_412:                              # %"scq_port::leaving::drop_slots.exit.i.i.i.i.i.i.i"
                                        #   in Loop: Header=BB0_409 Depth=1
	testq	%r14, %r14
	je	.LBB0_414
# %bb.413:                              # %then.1.i.i.i5.i.i.i.i.i.i.i
                                        #   in Loop: Header=BB0_409 Depth=1
	movq	%r15, %rdi
	callq	rattle_dealloc@PLT
.LBB0_414:                              # %"std_alloc::vec::Vec::drop::<#322702e9d69ed9ef>.exit.i.i.i.i.i.i.i"
                                        #   in Loop: Header=BB0_409 Depth=1
	testq	%rbx, %rbx
	je	.LBB0_408
# %bb.415:                              # %then.1.i.i.i10.i.i.i.i.i.i.i
                                        #   in Loop: Header=BB0_409 Depth=1
	movq	%r13, %rdi
	callq	rattle_dealloc@PLT
	jmp	.LBB0_408
.LBB0_416:                              # %arm.15.i
	movq	%r15, 416(%rsp)
	leaq	424(%rsp), %rdi
	leaq	1344(%rsp), %rsi
	movl	$224, %edx
	callq	memcpy@PLT
	movq	24(%rsp), %rcx                  # 8-byte Reload
	movq	%rcx, 648(%rsp)
	movq	%r12, 656(%rsp)
	movq	%r14, 664(%rsp)
	movq	16(%rsp), %rax                  # 8-byte Reload
	movq	%rax, 672(%rsp)
	movq	%rcx, 680(%rsp)
	movq	%r14, 688(%rsp)
	movq	%r12, 696(%rsp)
	movq	%rax, 704(%rsp)
	movq	%r13, 712(%rsp)
	movq	$0, 720(%rsp)
	movq	%rax, 728(%rsp)
	movq	%rbx, 736(%rsp)
	movq	$0, 744(%rsp)
	movq	128(%rsp), %rax                 # 8-byte Reload
	movq	%rax, 752(%rsp)
	leaq	416(%rsp), %rdi
	callq	"scq_port::owner::Owner::drop"
	cmpq	$0, 32(%rsp)                    # 8-byte Folded Reload
	je	.LBB0_423
# %bb.417:                              # %join.5.i.i.i.i.i83.i.preheader
	movq	96(%rsp), %rax                  # 8-byte Reload
	leaq	40(%rax), %r15
	jmp	.LBB0_419
.LBB0_418:                              # %"core::mem::drop::<#db57577750518db5>.exit.i.i.i.i.i99.i"
                                        #   in Loop: Header=BB0_419 Depth=1
	addq	$96, %r15
	decq	32(%rsp)                        # 8-byte Folded Spill
	je	.LBB0_423
.LBB0_419:                              # %join.5.i.i.i.i.i83.i
                                        # =>This Inner Loop Header: Depth=1
	movq	-16(%r15), %rbx
	movq	(%r15), %r14
	cmpq	$0, -24(%r15)
	je	.LBB0_421
# %bb.420:                              # %then.1.i.i.i.i.i.i.i.i.i.i.i94.i
                                        #   in Loop: Header=BB0_419 Depth=1
	movq	-40(%r15), %rdi
	callq	rattle_dealloc@PLT
.LBB0_421:                              # %"std_alloc::vec::Vec::drop::<#322702e9d69ed9ef>.exit.i.i.i.i.i.i.i.i96.i"
                                        #   in Loop: Header=BB0_419 Depth=1
	testq	%r14, %r14
	je	.LBB0_418
# %bb.422:                              # %then.1.i.i.i4.i.i.i.i.i.i.i.i98.i
                                        #   in Loop: Header=BB0_419 Depth=1
	movq	%rbx, %rdi
	callq	rattle_dealloc@PLT
	jmp	.LBB0_418
.LBB0_423:                              # %"std_alloc::vec::Vec::clear::<#6556fae6c29054f4>.exit.i102.i"
	cmpq	$0, 88(%rsp)                    # 8-byte Folded Reload
	je	.LBB0_136
# %bb.424:                              # %then.1.i.i.i104.i
	movq	96(%rsp), %rdi                  # 8-byte Reload
	jmp	.LBB0_135
.LBB0_425:                              # %"std_alloc::vec::Vec::drop::<#52900c7b80093fc6>.exit.i.i.i"
	movq	%r13, %rdi
	callq	rattle_dealloc@PLT
	movq	%r12, %rbp
	jmp	.LBB0_427
.LBB0_426:                              # %"core::mem::drop::<#c10a63d121191302>.exit.i79.i.i.i"
                                        #   in Loop: Header=BB0_427 Depth=1
	subq	$-128, %rbp
	decq	16(%rsp)                        # 8-byte Folded Spill
	je	.LBB0_434
.LBB0_427:                              # %join.5.i53.i.i.i
                                        # =>This Inner Loop Header: Depth=1
	cmpb	$0, (%rbp)
	je	.LBB0_426
# %bb.428:                              # %arm.2.i.i.i68.i.i.i
                                        #   in Loop: Header=BB0_427 Depth=1
	movq	8(%rbp), %r15
	movq	24(%rbp), %r14
	movq	32(%rbp), %r13
	movq	48(%rbp), %rbx
	cmpq	$0, 120(%rbp)
	je	.LBB0_430
# %bb.429:                              # %then.1.i.i.i.i.i.i.i72.i.i.i
                                        #   in Loop: Header=BB0_427 Depth=1
	movq	104(%rbp), %rdi
	callq	rattle_dealloc@PLT
.LBB0_430:                              # %"scq_port::leaving::drop_slots.exit.i.i.i.i73.i.i.i"
                                        #   in Loop: Header=BB0_427 Depth=1
	testq	%r14, %r14
	je	.LBB0_432
# %bb.431:                              # %then.1.i.i.i5.i.i.i.i75.i.i.i
                                        #   in Loop: Header=BB0_427 Depth=1
	movq	%r15, %rdi
	callq	rattle_dealloc@PLT
.LBB0_432:                              # %"std_alloc::vec::Vec::drop::<#322702e9d69ed9ef>.exit.i.i.i.i76.i.i.i"
                                        #   in Loop: Header=BB0_427 Depth=1
	testq	%rbx, %rbx
	je	.LBB0_426
# %bb.433:                              # %then.1.i.i.i10.i.i.i.i78.i.i.i
                                        #   in Loop: Header=BB0_427 Depth=1
	movq	%r13, %rdi
	callq	rattle_dealloc@PLT
	jmp	.LBB0_426
.LBB0_434:                              # %"atomic_table::owned::Table::drop::<#b901f7d3086f3adb>.exit.i.i.i"
	movq	24(%rsp), %rdi                  # 8-byte Reload
	callq	rattle_dealloc@PLT
	movq	%r12, %rdi
	jmp	.LBB0_379
.LBB0_435:
	movq	64(%rsp), %r14                  # 8-byte Reload
.LBB0_436:                              # %join.5.i.i.i.i.i
                                        # =>This Inner Loop Header: Depth=1
	leaq	416(%rsp), %r15
	movl	$408, %edx                      # imm = 0x198
	movq	%r15, %rdi
	movq	%r14, %rsi
	callq	memcpy@PLT
	movq	%r15, %rdi
	callq	"scq_port::port::Port::drop"
	addq	$408, %r14                      # imm = 0x198
	decq	%rbp
	jne	.LBB0_436
.LBB0_437:                              # %"std_alloc::vec::Vec::clear::<#2740f8c7cfafe0a2>.exit.i49"
	cmpq	$0, 24(%rsp)                    # 8-byte Folded Reload
	je	.LBB0_136
# %bb.438:                              # %then.1.i.i.i51
	movq	64(%rsp), %rdi                  # 8-byte Reload
	jmp	.LBB0_135
.LBB0_439:
	movq	%rsp, %rax
	movq	%rax, 8(%rsp)                   # 8-byte Spill
.LBB0_440:                              # %"std_alloc::vec::Vec::clear::<#2740f8c7cfafe0a2>.exit.i66"
	cmpq	$0, 24(%rsp)                    # 8-byte Folded Reload
	je	.LBB0_442
# %bb.441:                              # %then.1.i.i.i68
	movq	64(%rsp), %rdi                  # 8-byte Reload
	callq	rattle_dealloc@PLT
.LBB0_442:                              # %"std_alloc::vec::Vec::drop::<#a0c6de72c34bc962>.exit69"
	movq	384(%rsp), %rax                 # 8-byte Reload
	movq	$1, (%rax)
	movq	8(%rsp), %rcx                   # 8-byte Reload
	movq	%rcx, 8(%rax)
	movq	%rbp, 16(%rax)
	movq	%rbp, 24(%rax)
	jmp	.LBB0_137
.LBB0_443:                              # %loop.5.preheader.i.i.i
	cmpq	$1, %rbp
	jne	.LBB0_453
.LBB0_444:                              # %arm.10.preheader
	imulq	$408, %rbp, %rax                # imm = 0x198
	movq	64(%rsp), %rcx                  # 8-byte Reload
	leaq	(%rax,%rcx), %r15
	addq	$-400, %r15                     # imm = 0xFE70
	xorl	%r13d, %r13d
.LBB0_445:                              # %arm.10
                                        # =>This Inner Loop Header: Depth=1
	movq	-8(%r15), %rbx
	leaq	416(%rsp), %rdi
	movl	$400, %edx                      # imm = 0x190
	movq	%r15, %rsi
	callq	memcpy@PLT
	movl	$408, %edi                      # imm = 0x198
	movl	$8, %esi
	callq	rattle_alloc@PLT
	testb	$1, %al
	je	.LBB0_447
# %bb.446:                              # %arm.13
                                        #   in Loop: Header=BB0_445 Depth=1
	movq	%rdx, %rdi
	movq	%rdx, %r14
	movq	%rbx, (%rdi)
	addq	$8, %rdi
	leaq	416(%rsp), %rsi
	movl	$400, %edx                      # imm = 0x190
	callq	memcpy@PLT
	leaq	1976(%rsp), %rdi
	movl	$400, %edx                      # imm = 0x190
	xorl	%esi, %esi
	callq	memset@PLT
	movq	8(%rsp), %rax                   # 8-byte Reload
	movq	%r14, (%rax,%r13,8)
	incq	%r13
	addq	$-408, %r15                     # imm = 0xFE68
	cmpq	%r13, %rbp
	jne	.LBB0_445
	jmp	.LBB0_440
.LBB0_447:                              # %arm.16
	leaq	1976(%rsp), %r15
	leaq	416(%rsp), %rsi
	movl	$400, %edx                      # imm = 0x190
	movq	%r15, %rdi
	callq	memcpy@PLT
	movq	%rbx, 1568(%rsp)
	leaq	1576(%rsp), %rdi
	movl	$400, %edx                      # imm = 0x190
	movq	%r15, %rsi
	callq	memcpy@PLT
	leaq	1568(%rsp), %rdi
	callq	"scq_port::port::Port::drop"
	leaq	-1(%rbp), %rbx
	testq	%r13, %r13
	je	.LBB0_450
# %bb.448:                              # %join.5.i.i.i.i.i27.preheader
	xorl	%r14d, %r14d
.LBB0_449:                              # %join.5.i.i.i.i.i27
                                        # =>This Inner Loop Header: Depth=1
	movq	8(%rsp), %rax                   # 8-byte Reload
	movq	(%rax,%r14,8), %r15
	leaq	416(%rsp), %r12
	movl	$408, %edx                      # imm = 0x198
	movq	%r12, %rdi
	movq	%r15, %rsi
	callq	memcpy@PLT
	movq	%r15, %rdi
	callq	rattle_dealloc@PLT
	movq	%r12, %rdi
	callq	"scq_port::port::Port::drop"
	incq	%r14
	cmpq	%r14, %r13
	jne	.LBB0_449
.LBB0_450:                              # %then.1.i.i.i34
	movq	8(%rsp), %rdi                   # 8-byte Reload
	callq	rattle_dealloc@PLT
	cmpq	%r13, %rbx
	je	.LBB0_437
# %bb.451:                              # %join.5.i.i.i.i.i43.preheader
	subq	%r13, %rbp
	movl	$1, %ebx
	movq	64(%rsp), %r14                  # 8-byte Reload
.LBB0_452:                              # %join.5.i.i.i.i.i43
                                        # =>This Inner Loop Header: Depth=1
	leaq	416(%rsp), %r15
	movl	$408, %edx                      # imm = 0x198
	movq	%r15, %rdi
	movq	%r14, %rsi
	callq	memcpy@PLT
	movq	%r15, %rdi
	callq	"scq_port::port::Port::drop"
	incq	%rbx
	addq	$408, %r14                      # imm = 0x198
	cmpq	%rbx, %rbp
	jne	.LBB0_452
	jmp	.LBB0_437
.LBB0_453:                              # %join.8.preheader.i.i.i
	leaq	-2(%rbp), %rax
	shrq	%rax
	incq	%rax
	movq	%rax, 32(%rsp)                  # 8-byte Spill
	imulq	$408, %rbp, %rax                # imm = 0x198
	movq	64(%rsp), %r12                  # 8-byte Reload
	leaq	(%rax,%r12), %r15
	addq	$-408, %r15                     # imm = 0xFE68
	leaq	-1(%rbp), %rbx
	xorl	%r14d, %r14d
	jmp	.LBB0_457
.LBB0_454:                              # %then.1.i.i.i.i
                                        #   in Loop: Header=BB0_457 Depth=1
	leaq	416(%rsp), %r13
	movl	$408, %edx                      # imm = 0x198
	movq	%r13, %rdi
	movq	%r12, %rsi
	callq	memcpy@PLT
	movl	$408, %edx                      # imm = 0x198
	movq	%r12, %rdi
	movq	%r15, %rsi
	callq	memmove@PLT
	movl	$408, %edx                      # imm = 0x198
	movq	%r15, %rdi
.LBB0_455:                              # %"core::slice::edits::slice+T::swap::<20'scq_port::port::Port>.exit.i.i.i"
                                        #   in Loop: Header=BB0_457 Depth=1
	movq	%r13, %rsi
	callq	memcpy@PLT
.LBB0_456:                              # %"core::slice::edits::slice+T::swap::<20'scq_port::port::Port>.exit.i.i.i"
                                        #   in Loop: Header=BB0_457 Depth=1
	incq	%r14
	addq	$408, %r12                      # imm = 0x198
	addq	$-408, %r15                     # imm = 0xFE68
	decq	%rbx
	cmpq	%r14, 32(%rsp)                  # 8-byte Folded Reload
	je	.LBB0_444
.LBB0_457:                              # %join.8.i.i.i
                                        # =>This Inner Loop Header: Depth=1
	cmpq	%rbx, %r14
	jb	.LBB0_454
# %bb.458:                              # %else.2.i.i.i.i
                                        #   in Loop: Header=BB0_457 Depth=1
	jbe	.LBB0_456
# %bb.459:                              # %then.4.i.i.i.i
                                        #   in Loop: Header=BB0_457 Depth=1
	leaq	416(%rsp), %r13
	movl	$408, %edx                      # imm = 0x198
	movq	%r13, %rdi
	movq	%r15, %rsi
	callq	memcpy@PLT
	movl	$408, %edx                      # imm = 0x198
	movq	%r15, %rdi
	movq	%r12, %rsi
	callq	memmove@PLT
	movl	$408, %edx                      # imm = 0x198
	movq	%r12, %rdi
	jmp	.LBB0_455
.Lfunc_end0:
	.size	"scq_c::opening::boxed", .Lfunc_end0-"scq_c::opening::boxed"
                                        # -- End function
	.section	".text.unlikely.std_alloc::vec::Vec::grow_amortized::<#0152034d78aea1d1>","ax",@progbits
	.p2align	4                               # -- Begin function std_alloc::vec::Vec::grow_amortized::<#0152034d78aea1d1>
	.type	"std_alloc::vec::Vec::grow_amortized::<#0152034d78aea1d1>",@function
"std_alloc::vec::Vec::grow_amortized::<#0152034d78aea1d1>": # @"std_alloc::vec::Vec::grow_amortized::<#0152034d78aea1d1>"
# %bb.0:                                # %start
	movq	8(%rdi), %rax
	cmpq	$-1, %rax
	je	.LBB1_5
# %bb.1:                                # %join.3
	pushq	%r14
	pushq	%rbx
	pushq	%rax
	movq	16(%rdi), %rcx
	cmpq	$4, %rax
	movl	$3, %ebx
	cmovaeq	%rax, %rbx
	incq	%rbx
	movq	%rcx, %rsi
	shrq	$62, %rsi
	leaq	(%rcx,%rcx), %rdx
	cmpq	%rdx, %rbx
	cmovaq	%rbx, %rdx
	testq	%rsi, %rsi
	cmoveq	%rdx, %rbx
	movabsq	$384307168202282325, %rsi       # imm = 0x555555555555555
	cmpq	%rsi, %rbx
	ja	.LBB1_6
# %bb.2:                                # %join.3.i
	testq	%rcx, %rcx
	je	.LBB1_8
# %bb.3:                                # %then.1.i.i
	movq	%rdi, %r14
	movq	(%rdi), %rdi
	shlq	$3, %rax
	leaq	(%rax,%rax,2), %rsi
	leaq	(,%rbx,8), %rax
	leaq	(%rax,%rax,2), %rdx
	movl	$8, %ecx
	callq	rattle_realloc@PLT
	testb	$1, %al
	je	.LBB1_6
.LBB1_9:                                # %arm.5.i
	movq	%rdx, (%r14)
	movq	%rbx, 16(%r14)
	movb	$1, %al
	addq	$8, %rsp
	popq	%rbx
	popq	%r14
                                        # kill: def $al killed $al killed $eax
	retq
.LBB1_5:
	xorl	%eax, %eax
                                        # kill: def $al killed $al killed $eax
	retq
.LBB1_8:                                # %"std_alloc::vec::resize::<#0152034d78aea1d1>.exit.i"
	movq	%rdi, %r14
	shlq	$3, %rdx
	leaq	(%rdx,%rdx,2), %rdi
	movl	$8, %esi
	callq	rattle_alloc@PLT
	testb	$1, %al
	jne	.LBB1_9
.LBB1_6:
	xorl	%eax, %eax
	addq	$8, %rsp
	popq	%rbx
	popq	%r14
                                        # kill: def $al killed $al killed $eax
	retq
.Lfunc_end1:
	.size	"std_alloc::vec::Vec::grow_amortized::<#0152034d78aea1d1>", .Lfunc_end1-"std_alloc::vec::Vec::grow_amortized::<#0152034d78aea1d1>"
                                        # -- End function
	.section	".text.scq_core::ring::unused","ax",@progbits
	.p2align	4                               # -- Begin function scq_core::ring::unused
	.type	"scq_core::ring::unused",@function
"scq_core::ring::unused":               # @"scq_core::ring::unused"
# %bb.0:                                # %start
	pushq	%rbp
	pushq	%r15
	pushq	%r14
	pushq	%r13
	pushq	%r12
	pushq	%rbx
	subq	$40, %rsp
	movl	%esi, %r14d
	leal	1(%r14), %ecx
	movl	$1, %r15d
                                        # kill: def $cl killed $cl killed $ecx
	shlq	%cl, %r15
	movq	%rdi, %rbx
	movl	$2, %r12d
	movl	%r14d, %ecx
	shll	%cl, %r12d
	leaq	8(%rsp), %rdx
	movq	%rdx, 16(%rsp)
	xorps	%xmm0, %xmm0
	movups	%xmm0, 24(%rsp)
	cmpl	$30, %esi
	ja	.LBB2_3
# %bb.1:                                # %"std_alloc::vec::resize::<#507ac90f59a35348>.exit.i.i"
	movq	%r12, %rdi
	shlq	$5, %rdi
	movl	$8, %esi
	callq	rattle_alloc@PLT
	testb	$1, %al
	je	.LBB2_10
# %bb.2:
	movq	%rdx, 16(%rsp)
	movq	%r12, 32(%rsp)
.LBB2_3:                                # %arm.1
	cmpl	$30, %r14d
	jbe	.LBB2_4
.LBB2_9:                                # %after.5
	movb	$0, (%rbx)
	movq	16(%rsp), %rax
	movq	%rax, 8(%rbx)
	movq	24(%rsp), %rax
	movq	%rax, 16(%rbx)
	movq	32(%rsp), %rax
	movq	%rax, 24(%rbx)
	jmp	.LBB2_11
.LBB2_4:                                # %join.9.preheader
	movl	%r12d, %eax
	decl	%eax
	addq	%rax, %r15
	cmpl	$2, %r12d
	movl	$1, %ebp
	cmovael	%r12d, %ebp
	xorl	%eax, %eax
	jmp	.LBB2_5
	.p2align	4
.LBB2_8:                                # %arm.10
                                        #   in Loop: Header=BB2_5 Depth=1
	movq	%rax, %rcx
	shlq	$5, %rcx
	movq	%r15, (%rdx,%rcx)
	leaq	8(%rsp), %rsi
	movq	%rsi, 8(%rdx,%rcx)
	incq	%rax
	xorps	%xmm0, %xmm0
	movups	%xmm0, 16(%rdx,%rcx)
	movq	%rax, 24(%rsp)
	decl	%ebp
	je	.LBB2_9
.LBB2_5:                                # %join.9
                                        # =>This Inner Loop Header: Depth=1
	cmpq	%rax, 32(%rsp)
	jne	.LBB2_8
# %bb.6:                                # %"std_alloc::vec::Vec::grow::<#507ac90f59a35348>.exit.i"
                                        #   in Loop: Header=BB2_5 Depth=1
	leaq	16(%rsp), %rdi
	callq	"std_alloc::vec::Vec::grow_amortized::<#507ac90f59a35348>"
	testb	%al, %al
	je	.LBB2_12
# %bb.7:                                # %"std_alloc::vec::Vec::grow::<#507ac90f59a35348>.exit.join.3_crit_edge.i"
                                        #   in Loop: Header=BB2_5 Depth=1
	movq	16(%rsp), %rdx
	movq	24(%rsp), %rax
	jmp	.LBB2_8
.LBB2_12:                               # %"core::result::ResultFromResidualErrResidual::from_residual::<#26d794666ec4bab7>.exit"
	movq	16(%rsp), %r14
	movq	24(%rsp), %r12
	movq	32(%rsp), %r15
	testq	%r12, %r12
	je	.LBB2_17
# %bb.13:                               # %join.5.i.i.i.i.i24.preheader
	leaq	24(%r14), %r13
	jmp	.LBB2_14
	.p2align	4
.LBB2_16:                               # %"core::mem::drop::<#46d93e6922d62939>.exit.i.i.i.i.i34"
                                        #   in Loop: Header=BB2_14 Depth=1
	addq	$32, %r13
	decq	%r12
	je	.LBB2_17
.LBB2_14:                               # %join.5.i.i.i.i.i24
                                        # =>This Inner Loop Header: Depth=1
	cmpq	$0, (%r13)
	je	.LBB2_16
# %bb.15:                               # %then.1.i.i.i.i.i.i.i.i.i.i.i31
                                        #   in Loop: Header=BB2_14 Depth=1
	movq	-16(%r13), %rdi
	callq	rattle_dealloc@PLT
	jmp	.LBB2_16
.LBB2_17:                               # %"std_alloc::vec::Vec::clear::<#d9b4ebeac28c86f4>.exit.i37"
	testq	%r15, %r15
	je	.LBB2_10
# %bb.18:                               # %then.1.i.i.i39
	movq	%r14, %rdi
	callq	rattle_dealloc@PLT
.LBB2_10:                               # %"std_alloc::vec::Vec::drop::<#6f17594996420404>.exit"
	movb	$1, (%rbx)
	xorps	%xmm0, %xmm0
	movups	%xmm0, 8(%rbx)
	movq	$0, 24(%rbx)
.LBB2_11:                               # %common.ret
	addq	$40, %rsp
	popq	%rbx
	popq	%r12
	popq	%r13
	popq	%r14
	popq	%r15
	popq	%rbp
	retq
.Lfunc_end2:
	.size	"scq_core::ring::unused", .Lfunc_end2-"scq_core::ring::unused"
                                        # -- End function
	.section	".text.unlikely.std_alloc::vec::Vec::grow_amortized::<#507ac90f59a35348>","ax",@progbits
	.p2align	4                               # -- Begin function std_alloc::vec::Vec::grow_amortized::<#507ac90f59a35348>
	.type	"std_alloc::vec::Vec::grow_amortized::<#507ac90f59a35348>",@function
"std_alloc::vec::Vec::grow_amortized::<#507ac90f59a35348>": # @"std_alloc::vec::Vec::grow_amortized::<#507ac90f59a35348>"
# %bb.0:                                # %start
	movq	8(%rdi), %rsi
	cmpq	$-1, %rsi
	je	.LBB3_5
# %bb.1:                                # %join.3
	pushq	%r14
	pushq	%rbx
	pushq	%rax
	movq	16(%rdi), %rcx
	cmpq	$4, %rsi
	movl	$3, %ebx
	cmovaeq	%rsi, %rbx
	incq	%rbx
	movq	%rcx, %rdx
	shrq	$62, %rdx
	leaq	(%rcx,%rcx), %rax
	cmpq	%rax, %rbx
	cmovaq	%rbx, %rax
	testq	%rdx, %rdx
	cmoveq	%rax, %rbx
	movq	%rbx, %rdx
	shrq	$58, %rdx
	jne	.LBB3_6
# %bb.2:                                # %join.3.i
	testq	%rcx, %rcx
	je	.LBB3_8
# %bb.3:                                # %then.1.i.i
	movq	%rdi, %r14
	movq	(%rdi), %rdi
	shlq	$5, %rsi
	movq	%rbx, %rdx
	shlq	$5, %rdx
	movl	$8, %ecx
	callq	rattle_realloc@PLT
	testb	$1, %al
	je	.LBB3_6
.LBB3_9:                                # %arm.5.i
	movq	%rdx, (%r14)
	movq	%rbx, 16(%r14)
	movb	$1, %al
	addq	$8, %rsp
	popq	%rbx
	popq	%r14
                                        # kill: def $al killed $al killed $eax
	retq
.LBB3_5:
	xorl	%eax, %eax
                                        # kill: def $al killed $al killed $eax
	retq
.LBB3_8:                                # %"std_alloc::vec::resize::<#507ac90f59a35348>.exit.i"
	movq	%rdi, %r14
	shlq	$5, %rax
	movl	$8, %esi
	movq	%rax, %rdi
	callq	rattle_alloc@PLT
	testb	$1, %al
	jne	.LBB3_9
.LBB3_6:
	xorl	%eax, %eax
	addq	$8, %rsp
	popq	%rbx
	popq	%r14
                                        # kill: def $al killed $al killed $eax
	retq
.Lfunc_end3:
	.size	"std_alloc::vec::Vec::grow_amortized::<#507ac90f59a35348>", .Lfunc_end3-"std_alloc::vec::Vec::grow_amortized::<#507ac90f59a35348>"
                                        # -- End function
	.section	".text.unlikely.std_alloc::vec::Vec::grow_amortized::<#ef5d867b459b34f0>","ax",@progbits
	.p2align	4                               # -- Begin function std_alloc::vec::Vec::grow_amortized::<#ef5d867b459b34f0>
	.type	"std_alloc::vec::Vec::grow_amortized::<#ef5d867b459b34f0>",@function
"std_alloc::vec::Vec::grow_amortized::<#ef5d867b459b34f0>": # @"std_alloc::vec::Vec::grow_amortized::<#ef5d867b459b34f0>"
# %bb.0:                                # %start
	movq	8(%rdi), %rax
	cmpq	$-1, %rax
	je	.LBB4_5
# %bb.1:                                # %join.3
	pushq	%r14
	pushq	%rbx
	pushq	%rax
	movq	16(%rdi), %rcx
	cmpq	$4, %rax
	movl	$3, %ebx
	cmovaeq	%rax, %rbx
	incq	%rbx
	movq	%rcx, %rsi
	shrq	$62, %rsi
	leaq	(%rcx,%rcx), %rdx
	cmpq	%rdx, %rbx
	cmovaq	%rbx, %rdx
	testq	%rsi, %rsi
	cmoveq	%rdx, %rbx
	movabsq	$192153584101141162, %rsi       # imm = 0x2AAAAAAAAAAAAAA
	cmpq	%rsi, %rbx
	ja	.LBB4_6
# %bb.2:                                # %join.3.i
	testq	%rcx, %rcx
	je	.LBB4_8
# %bb.3:                                # %then.1.i.i
	movq	%rdi, %r14
	movq	(%rdi), %rdi
	shlq	$4, %rax
	leaq	(%rax,%rax,2), %rsi
	movq	%rbx, %rax
	shlq	$4, %rax
	leaq	(%rax,%rax,2), %rdx
	movl	$8, %ecx
	callq	rattle_realloc@PLT
	testb	$1, %al
	je	.LBB4_6
.LBB4_9:                                # %arm.5.i
	movq	%rdx, (%r14)
	movq	%rbx, 16(%r14)
	movb	$1, %al
	addq	$8, %rsp
	popq	%rbx
	popq	%r14
                                        # kill: def $al killed $al killed $eax
	retq
.LBB4_5:
	xorl	%eax, %eax
                                        # kill: def $al killed $al killed $eax
	retq
.LBB4_8:                                # %"std_alloc::vec::resize::<#ef5d867b459b34f0>.exit.i"
	movq	%rdi, %r14
	shlq	$4, %rdx
	leaq	(%rdx,%rdx,2), %rdi
	movl	$8, %esi
	callq	rattle_alloc@PLT
	testb	$1, %al
	jne	.LBB4_9
.LBB4_6:
	xorl	%eax, %eax
	addq	$8, %rsp
	popq	%rbx
	popq	%r14
                                        # kill: def $al killed $al killed $eax
	retq
.Lfunc_end4:
	.size	"std_alloc::vec::Vec::grow_amortized::<#ef5d867b459b34f0>", .Lfunc_end4-"std_alloc::vec::Vec::grow_amortized::<#ef5d867b459b34f0>"
                                        # -- End function
	.section	".text.core::result::ResultFromResidualErrResidual::from_residual::<#a4ea067403547577>","ax",@progbits
	.p2align	4                               # -- Begin function core::result::ResultFromResidualErrResidual::from_residual::<#a4ea067403547577>
	.type	"core::result::ResultFromResidualErrResidual::from_residual::<#a4ea067403547577>",@function
"core::result::ResultFromResidualErrResidual::from_residual::<#a4ea067403547577>": # @"core::result::ResultFromResidualErrResidual::from_residual::<#a4ea067403547577>"
# %bb.0:                                # %start
	pushq	%r15
	pushq	%r14
	pushq	%r13
	pushq	%r12
	pushq	%rbx
	movq	%rdi, %rbx
	movq	24(%rsi), %r14
	movq	32(%rsi), %r12
	movq	40(%rsi), %r15
	testq	%r12, %r12
	je	.LBB5_5
# %bb.1:                                # %join.5.i.i.i.i.i.i.i.preheader
	leaq	24(%r14), %r13
	jmp	.LBB5_2
	.p2align	4
.LBB5_4:                                # %"core::mem::drop::<#46d93e6922d62939>.exit.i.i.i.i.i.i.i"
                                        #   in Loop: Header=BB5_2 Depth=1
	addq	$32, %r13
	decq	%r12
	je	.LBB5_5
.LBB5_2:                                # %join.5.i.i.i.i.i.i.i
                                        # =>This Inner Loop Header: Depth=1
	cmpq	$0, (%r13)
	je	.LBB5_4
# %bb.3:                                # %then.1.i.i.i.i.i.i.i.i.i.i.i.i.i
                                        #   in Loop: Header=BB5_2 Depth=1
	movq	-16(%r13), %rdi
	callq	rattle_dealloc@PLT
	jmp	.LBB5_4
.LBB5_5:                                # %"std_alloc::vec::Vec::clear::<#d9b4ebeac28c86f4>.exit.i.i.i"
	testq	%r15, %r15
	je	.LBB5_7
# %bb.6:                                # %then.1.i.i.i.i.i
	movq	%r14, %rdi
	callq	rattle_dealloc@PLT
.LBB5_7:                                # %"scq_word::bytes::NoMemoryFromAllocFailed::from::<#30b1062d78cb4add>.exit"
	movb	$1, (%rbx)
	xorps	%xmm0, %xmm0
	movups	%xmm0, 8(%rbx)
	movq	$0, 24(%rbx)
	popq	%rbx
	popq	%r12
	popq	%r13
	popq	%r14
	popq	%r15
	retq
.Lfunc_end5:
	.size	"core::result::ResultFromResidualErrResidual::from_residual::<#a4ea067403547577>", .Lfunc_end5-"core::result::ResultFromResidualErrResidual::from_residual::<#a4ea067403547577>"
                                        # -- End function
	.section	".text.unlikely.std_alloc::vec::Vec::grow_amortized::<#53936dfa82b80db8>","ax",@progbits
	.p2align	4                               # -- Begin function std_alloc::vec::Vec::grow_amortized::<#53936dfa82b80db8>
	.type	"std_alloc::vec::Vec::grow_amortized::<#53936dfa82b80db8>",@function
"std_alloc::vec::Vec::grow_amortized::<#53936dfa82b80db8>": # @"std_alloc::vec::Vec::grow_amortized::<#53936dfa82b80db8>"
# %bb.0:                                # %start
	movq	8(%rdi), %rax
	cmpq	$-1, %rax
	je	.LBB6_5
# %bb.1:                                # %join.3
	pushq	%r14
	pushq	%rbx
	pushq	%rax
	movq	16(%rdi), %rcx
	cmpq	$4, %rax
	movl	$3, %ebx
	cmovaeq	%rax, %rbx
	incq	%rbx
	movq	%rcx, %rsi
	shrq	$62, %rsi
	leaq	(%rcx,%rcx), %rdx
	cmpq	%rdx, %rbx
	cmovaq	%rbx, %rdx
	testq	%rsi, %rsi
	cmoveq	%rdx, %rbx
	movabsq	$76861433640456465, %rsi        # imm = 0x111111111111111
	cmpq	%rsi, %rbx
	ja	.LBB6_6
# %bb.2:                                # %join.3.i
	testq	%rcx, %rcx
	je	.LBB6_8
# %bb.3:                                # %then.1.i.i
	movq	%rdi, %r14
	movq	(%rdi), %rdi
	imulq	$120, %rax, %rsi
	imulq	$120, %rbx, %rdx
	movl	$8, %ecx
	callq	rattle_realloc@PLT
	testb	$1, %al
	je	.LBB6_6
.LBB6_9:                                # %arm.5.i
	movq	%rdx, (%r14)
	movq	%rbx, 16(%r14)
	movb	$1, %al
	addq	$8, %rsp
	popq	%rbx
	popq	%r14
                                        # kill: def $al killed $al killed $eax
	retq
.LBB6_5:
	xorl	%eax, %eax
                                        # kill: def $al killed $al killed $eax
	retq
.LBB6_8:                                # %"std_alloc::vec::resize::<#53936dfa82b80db8>.exit.i"
	movq	%rdi, %r14
	imulq	$120, %rdx, %rdi
	movl	$8, %esi
	callq	rattle_alloc@PLT
	testb	$1, %al
	jne	.LBB6_9
.LBB6_6:
	xorl	%eax, %eax
	addq	$8, %rsp
	popq	%rbx
	popq	%r14
                                        # kill: def $al killed $al killed $eax
	retq
.Lfunc_end6:
	.size	"std_alloc::vec::Vec::grow_amortized::<#53936dfa82b80db8>", .Lfunc_end6-"std_alloc::vec::Vec::grow_amortized::<#53936dfa82b80db8>"
                                        # -- End function
	.section	".text.scq_core::scq_core++seat++Seat+Destruct::drop","ax",@progbits
	.p2align	4                               # -- Begin function scq_core::scq_core++seat++Seat+Destruct::drop
	.type	"scq_core::scq_core++seat++Seat+Destruct::drop",@function
"scq_core::scq_core++seat++Seat+Destruct::drop": # @"scq_core::scq_core++seat++Seat+Destruct::drop"
# %bb.0:                                # %start
	pushq	%r15
	pushq	%r14
	pushq	%r13
	pushq	%r12
	pushq	%rbx
	movq	%rdi, %rcx
	movzbl	(%rdi), %esi
	movq	16(%rdi), %rax
	movq	32(%rdi), %rdx
	movq	56(%rdi), %rdi
	movq	72(%rcx), %r12
	movq	96(%rcx), %rbx
	movq	104(%rcx), %r15
	movq	112(%rcx), %r14
	leaq	.LJTI7_0(%rip), %rcx
	movslq	(%rcx,%rsi,4), %rsi
	addq	%rcx, %rsi
	jmpq	*%rsi
.LBB7_1:                                # %arm.7.i
	testq	%rdx, %rdx
	je	.LBB7_3
# %bb.2:                                # %then.1.i.i.i.i28.i
	movq	%rdi, %r13
	movq	%rax, %rdi
	callq	rattle_dealloc@PLT
	movq	%r13, %rdi
.LBB7_3:                                # %"scq_core::scq_core++phase++Phase+Destruct::drop.exit"
	testq	%r12, %r12
	je	.LBB7_5
# %bb.4:                                # %then.1.i.i.i
	callq	rattle_dealloc@PLT
.LBB7_5:                                # %"std_alloc::vec::Vec::drop::<#964ef028932f272a>.exit"
	testq	%r15, %r15
	je	.LBB7_11
# %bb.6:                                # %join.5.i.i.i.i.i.preheader
	leaq	32(%rbx), %r12
	jmp	.LBB7_7
	.p2align	4
.LBB7_10:                               # %"core::mem::drop::<#773270987f22fc92>.exit.i.i.i.i.i"
                                        #   in Loop: Header=BB7_7 Depth=1
	addq	$40, %r12
	decq	%r15
	je	.LBB7_11
.LBB7_7:                                # %join.5.i.i.i.i.i
                                        # =>This Inner Loop Header: Depth=1
	movzbl	-32(%r12), %eax
	leal	-2(%rax), %ecx
	cmpl	$2, %ecx
	jb	.LBB7_10
# %bb.8:                                # %join.5.i.i.i.i.i
                                        #   in Loop: Header=BB7_7 Depth=1
	movq	-16(%r12), %rdi
	movq	(%r12), %rcx
	cmpl	$1, %eax
	testq	%rcx, %rcx
	je	.LBB7_10
# %bb.9:                                # %then.1.i.i.i.i4.i.i.i.i.i.i.i
                                        #   in Loop: Header=BB7_7 Depth=1
	callq	rattle_dealloc@PLT
	jmp	.LBB7_10
.LBB7_11:                               # %"std_alloc::vec::Vec::clear::<#e68a003481a252c3>.exit.i"
	testq	%r14, %r14
	je	.LBB7_12
# %bb.13:                               # %then.1.i.i.i5
	movq	%rbx, %rdi
	popq	%rbx
	popq	%r12
	popq	%r13
	popq	%r14
	popq	%r15
	jmp	rattle_dealloc@PLT              # TAILCALL
.LBB7_12:                               # %"std_alloc::vec::Vec::drop::<#3b6f7c637c046f01>.exit"
	popq	%rbx
	popq	%r12
	popq	%r13
	popq	%r14
	popq	%r15
	retq
.Lfunc_end7:
	.size	"scq_core::scq_core++seat++Seat+Destruct::drop", .Lfunc_end7-"scq_core::scq_core++seat++Seat+Destruct::drop"
	.section	".rodata.scq_core::scq_core++seat++Seat+Destruct::drop","a",@progbits
	.p2align	2, 0x0
.LJTI7_0:
	.long	.LBB7_3-.LJTI7_0
	.long	.LBB7_1-.LJTI7_0
	.long	.LBB7_1-.LJTI7_0
	.long	.LBB7_1-.LJTI7_0
	.long	.LBB7_1-.LJTI7_0
	.long	.LBB7_1-.LJTI7_0
	.long	.LBB7_1-.LJTI7_0
	.long	.LBB7_3-.LJTI7_0
	.long	.LBB7_3-.LJTI7_0
	.long	.LBB7_3-.LJTI7_0
	.long	.LBB7_3-.LJTI7_0
	.long	.LBB7_3-.LJTI7_0
	.long	.LBB7_3-.LJTI7_0
	.long	.LBB7_3-.LJTI7_0
	.long	.LBB7_3-.LJTI7_0
	.long	.LBB7_3-.LJTI7_0
	.long	.LBB7_3-.LJTI7_0
                                        # -- End function
	.section	".text.std_alloc::vec::Vec::drop::<#a9901d079cc70198>","ax",@progbits
	.p2align	4                               # -- Begin function std_alloc::vec::Vec::drop::<#a9901d079cc70198>
	.type	"std_alloc::vec::Vec::drop::<#a9901d079cc70198>",@function
"std_alloc::vec::Vec::drop::<#a9901d079cc70198>": # @"std_alloc::vec::Vec::drop::<#a9901d079cc70198>"
# %bb.0:                                # %start
	pushq	%rbp
	pushq	%r15
	pushq	%r14
	pushq	%r13
	pushq	%r12
	pushq	%rbx
	subq	$24, %rsp
	movq	(%rdi), %rbx
	movq	8(%rdi), %rcx
	movq	16(%rdi), %rax
	movq	%rax, 8(%rsp)                   # 8-byte Spill
	movq	%rcx, 16(%rsp)                  # 8-byte Spill
	testq	%rcx, %rcx
	je	.LBB8_10
# %bb.1:                                # %join.5.i.i.i.i.preheader
	xorl	%r13d, %r13d
	jmp	.LBB8_2
	.p2align	4
.LBB8_9:                                # %"core::mem::drop::<#30b1062d78cb4add>.exit.i.i.i.i"
                                        #   in Loop: Header=BB8_2 Depth=1
	incq	%r13
	cmpq	16(%rsp), %r13                  # 8-byte Folded Reload
	je	.LBB8_10
.LBB8_2:                                # %join.5.i.i.i.i
                                        # =>This Loop Header: Depth=1
                                        #     Child Loop BB8_4 Depth 2
	leaq	(,%r13,2), %rax
	addq	%r13, %rax
	shlq	$4, %rax
	movq	24(%rbx,%rax), %r14
	movq	32(%rbx,%rax), %r15
	movq	40(%rbx,%rax), %rbp
	testq	%r15, %r15
	je	.LBB8_7
# %bb.3:                                # %join.5.i.i.i.i.i.i.i.i.i.i.i.preheader
                                        #   in Loop: Header=BB8_2 Depth=1
	leaq	24(%r14), %r12
	jmp	.LBB8_4
	.p2align	4
.LBB8_6:                                # %"core::mem::drop::<#46d93e6922d62939>.exit.i.i.i.i.i.i.i.i.i.i.i"
                                        #   in Loop: Header=BB8_4 Depth=2
	addq	$32, %r12
	decq	%r15
	je	.LBB8_7
.LBB8_4:                                # %join.5.i.i.i.i.i.i.i.i.i.i.i
                                        #   Parent Loop BB8_2 Depth=1
                                        # =>  This Inner Loop Header: Depth=2
	cmpq	$0, (%r12)
	je	.LBB8_6
# %bb.5:                                # %then.1.i.i.i.i.i.i.i.i.i.i.i.i.i.i.i.i.i
                                        #   in Loop: Header=BB8_4 Depth=2
	movq	-16(%r12), %rdi
	callq	rattle_dealloc@PLT
	jmp	.LBB8_6
	.p2align	4
.LBB8_7:                                # %"std_alloc::vec::Vec::clear::<#d9b4ebeac28c86f4>.exit.i.i.i.i.i.i.i"
                                        #   in Loop: Header=BB8_2 Depth=1
	testq	%rbp, %rbp
	je	.LBB8_9
# %bb.8:                                # %then.1.i.i.i.i.i.i.i.i.i
                                        #   in Loop: Header=BB8_2 Depth=1
	movq	%r14, %rdi
	callq	rattle_dealloc@PLT
	jmp	.LBB8_9
.LBB8_10:                               # %"std_alloc::vec::Vec::clear::<#aea6620ac8b5cb78>.exit"
	cmpq	$0, 8(%rsp)                     # 8-byte Folded Reload
	je	.LBB8_11
# %bb.12:                               # %then.1.i.i
	movq	%rbx, %rdi
	addq	$24, %rsp
	popq	%rbx
	popq	%r12
	popq	%r13
	popq	%r14
	popq	%r15
	popq	%rbp
	jmp	rattle_dealloc@PLT              # TAILCALL
.LBB8_11:                               # %"std_alloc::vec::Vec::destroy_empty::<#ef5d867b459b34f0>.exit"
	addq	$24, %rsp
	popq	%rbx
	popq	%r12
	popq	%r13
	popq	%r14
	popq	%r15
	popq	%rbp
	retq
.Lfunc_end8:
	.size	"std_alloc::vec::Vec::drop::<#a9901d079cc70198>", .Lfunc_end8-"std_alloc::vec::Vec::drop::<#a9901d079cc70198>"
                                        # -- End function
	.section	".text.std_alloc::vec::Vec::drop::<#1106f08b0a767d38>","ax",@progbits
	.p2align	4                               # -- Begin function std_alloc::vec::Vec::drop::<#1106f08b0a767d38>
	.type	"std_alloc::vec::Vec::drop::<#1106f08b0a767d38>",@function
"std_alloc::vec::Vec::drop::<#1106f08b0a767d38>": # @"std_alloc::vec::Vec::drop::<#1106f08b0a767d38>"
# %bb.0:                                # %start
	pushq	%rbp
	pushq	%r15
	pushq	%r14
	pushq	%r13
	pushq	%r12
	pushq	%rbx
	subq	$24, %rsp
	movq	(%rdi), %rbx
	movq	8(%rdi), %rcx
	movq	16(%rdi), %rax
	movq	%rax, 8(%rsp)                   # 8-byte Spill
	movq	%rcx, 16(%rsp)                  # 8-byte Spill
	testq	%rcx, %rcx
	je	.LBB9_16
# %bb.1:                                # %join.5.i.i.i.i.preheader
	xorl	%r13d, %r13d
	jmp	.LBB9_2
	.p2align	4
.LBB9_15:                               # %"core::mem::drop::<#cbb15f4d64c82b95>.exit.i.i.i.i"
                                        #   in Loop: Header=BB9_2 Depth=1
	incq	%r13
	cmpq	16(%rsp), %r13                  # 8-byte Folded Reload
	je	.LBB9_16
.LBB9_2:                                # %join.5.i.i.i.i
                                        # =>This Loop Header: Depth=1
                                        #     Child Loop BB9_9 Depth 2
	imulq	$120, %r13, %rdx
	movzbl	(%rbx,%rdx), %esi
	movq	16(%rbx,%rdx), %rax
	movq	32(%rbx,%rdx), %rcx
	movq	56(%rbx,%rdx), %rdi
	movq	72(%rbx,%rdx), %r12
	movq	96(%rbx,%rdx), %r14
	movq	104(%rbx,%rdx), %r15
	movq	112(%rbx,%rdx), %rbp
	leaq	.LJTI9_0(%rip), %rdx
	movslq	(%rdx,%rsi,4), %rsi
	addq	%rdx, %rsi
	jmpq	*%rsi
.LBB9_3:                                # %arm.7.i.i.i.i.i.i.i
                                        #   in Loop: Header=BB9_2 Depth=1
	testq	%rcx, %rcx
	je	.LBB9_5
# %bb.4:                                # %then.1.i.i.i.i28.i.i.i.i.i.i.i
                                        #   in Loop: Header=BB9_2 Depth=1
	movq	%rdi, (%rsp)                    # 8-byte Spill
	movq	%rax, %rdi
	callq	rattle_dealloc@PLT
	movq	(%rsp), %rdi                    # 8-byte Reload
.LBB9_5:                                # %"scq_band::scq_core++phase++Phase+Destruct::drop.exit.i.i.i.i.i.i"
                                        #   in Loop: Header=BB9_2 Depth=1
	testq	%r12, %r12
	je	.LBB9_7
# %bb.6:                                # %then.1.i.i.i.i.i.i.i.i.i
                                        #   in Loop: Header=BB9_2 Depth=1
	callq	rattle_dealloc@PLT
.LBB9_7:                                # %"std_alloc::vec::Vec::drop::<#8196a731e3ad037a>.exit.i.i.i.i.i.i"
                                        #   in Loop: Header=BB9_2 Depth=1
	testq	%r15, %r15
	je	.LBB9_13
# %bb.8:                                # %join.5.i.i.i.i.i.i.i.i.i.i.i.preheader
                                        #   in Loop: Header=BB9_2 Depth=1
	leaq	32(%r14), %r12
	jmp	.LBB9_9
	.p2align	4
.LBB9_12:                               # %"core::mem::drop::<#db54ccec64da8cfa>.exit.i.i.i.i.i.i.i.i.i.i.i"
                                        #   in Loop: Header=BB9_9 Depth=2
	addq	$40, %r12
	decq	%r15
	je	.LBB9_13
.LBB9_9:                                # %join.5.i.i.i.i.i.i.i.i.i.i.i
                                        #   Parent Loop BB9_2 Depth=1
                                        # =>  This Inner Loop Header: Depth=2
	movzbl	-32(%r12), %eax
	leal	-2(%rax), %ecx
	cmpl	$2, %ecx
	jb	.LBB9_12
# %bb.10:                               # %join.5.i.i.i.i.i.i.i.i.i.i.i
                                        #   in Loop: Header=BB9_9 Depth=2
	movq	-16(%r12), %rdi
	movq	(%r12), %rcx
	cmpl	$1, %eax
	testq	%rcx, %rcx
	je	.LBB9_12
# %bb.11:                               # %then.1.i.i.i.i4.i.i.i.i.i.i.i.i.i.i.i.i.i
                                        #   in Loop: Header=BB9_9 Depth=2
	callq	rattle_dealloc@PLT
	jmp	.LBB9_12
	.p2align	4
.LBB9_13:                               # %"std_alloc::vec::Vec::clear::<#eac3750c96899d7f>.exit.i.i.i.i.i.i.i"
                                        #   in Loop: Header=BB9_2 Depth=1
	testq	%rbp, %rbp
	je	.LBB9_15
# %bb.14:                               # %then.1.i.i.i5.i.i.i.i.i.i
                                        #   in Loop: Header=BB9_2 Depth=1
	movq	%r14, %rdi
	callq	rattle_dealloc@PLT
	jmp	.LBB9_15
.LBB9_16:                               # %"std_alloc::vec::Vec::clear::<#9dd95f5b50319698>.exit"
	cmpq	$0, 8(%rsp)                     # 8-byte Folded Reload
	je	.LBB9_17
# %bb.18:                               # %then.1.i.i
	movq	%rbx, %rdi
	addq	$24, %rsp
	popq	%rbx
	popq	%r12
	popq	%r13
	popq	%r14
	popq	%r15
	popq	%rbp
	jmp	rattle_dealloc@PLT              # TAILCALL
.LBB9_17:                               # %"std_alloc::vec::Vec::destroy_empty::<#5764fcc4479dc4f8>.exit"
	addq	$24, %rsp
	popq	%rbx
	popq	%r12
	popq	%r13
	popq	%r14
	popq	%r15
	popq	%rbp
	retq
.Lfunc_end9:
	.size	"std_alloc::vec::Vec::drop::<#1106f08b0a767d38>", .Lfunc_end9-"std_alloc::vec::Vec::drop::<#1106f08b0a767d38>"
	.section	".rodata.std_alloc::vec::Vec::drop::<#1106f08b0a767d38>","a",@progbits
	.p2align	2, 0x0
.LJTI9_0:
	.long	.LBB9_5-.LJTI9_0
	.long	.LBB9_3-.LJTI9_0
	.long	.LBB9_3-.LJTI9_0
	.long	.LBB9_3-.LJTI9_0
	.long	.LBB9_3-.LJTI9_0
	.long	.LBB9_3-.LJTI9_0
	.long	.LBB9_3-.LJTI9_0
	.long	.LBB9_5-.LJTI9_0
	.long	.LBB9_5-.LJTI9_0
	.long	.LBB9_5-.LJTI9_0
	.long	.LBB9_5-.LJTI9_0
	.long	.LBB9_5-.LJTI9_0
	.long	.LBB9_5-.LJTI9_0
	.long	.LBB9_5-.LJTI9_0
	.long	.LBB9_5-.LJTI9_0
	.long	.LBB9_5-.LJTI9_0
	.long	.LBB9_5-.LJTI9_0
                                        # -- End function
	.section	".text.unlikely.std_alloc::vec::Vec::grow_amortized::<#b2b1aaf14fd9827c>","ax",@progbits
	.p2align	4                               # -- Begin function std_alloc::vec::Vec::grow_amortized::<#b2b1aaf14fd9827c>
	.type	"std_alloc::vec::Vec::grow_amortized::<#b2b1aaf14fd9827c>",@function
"std_alloc::vec::Vec::grow_amortized::<#b2b1aaf14fd9827c>": # @"std_alloc::vec::Vec::grow_amortized::<#b2b1aaf14fd9827c>"
# %bb.0:                                # %start
	movq	8(%rdi), %rax
	cmpq	$-1, %rax
	je	.LBB10_5
# %bb.1:                                # %join.3
	pushq	%r14
	pushq	%rbx
	pushq	%rax
	movq	16(%rdi), %rcx
	cmpq	$4, %rax
	movl	$3, %ebx
	cmovaeq	%rax, %rbx
	incq	%rbx
	movq	%rcx, %rsi
	shrq	$62, %rsi
	leaq	(%rcx,%rcx), %rdx
	cmpq	%rdx, %rbx
	cmovaq	%rbx, %rdx
	testq	%rsi, %rsi
	cmoveq	%rdx, %rbx
	movabsq	$128102389400760775, %rsi       # imm = 0x1C71C71C71C71C7
	cmpq	%rsi, %rbx
	ja	.LBB10_6
# %bb.2:                                # %join.3.i
	testq	%rcx, %rcx
	je	.LBB10_8
# %bb.3:                                # %then.1.i.i
	movq	%rdi, %r14
	movq	(%rdi), %rdi
	shlq	$3, %rax
	leaq	(%rax,%rax,8), %rsi
	leaq	(,%rbx,8), %rax
	leaq	(%rax,%rax,8), %rdx
	movl	$8, %ecx
	callq	rattle_realloc@PLT
	testb	$1, %al
	je	.LBB10_6
.LBB10_9:                               # %arm.5.i
	movq	%rdx, (%r14)
	movq	%rbx, 16(%r14)
	movb	$1, %al
	addq	$8, %rsp
	popq	%rbx
	popq	%r14
                                        # kill: def $al killed $al killed $eax
	retq
.LBB10_5:
	xorl	%eax, %eax
                                        # kill: def $al killed $al killed $eax
	retq
.LBB10_8:                               # %"std_alloc::vec::resize::<#b2b1aaf14fd9827c>.exit.i"
	movq	%rdi, %r14
	shlq	$3, %rdx
	leaq	(%rdx,%rdx,8), %rdi
	movl	$8, %esi
	callq	rattle_alloc@PLT
	testb	$1, %al
	jne	.LBB10_9
.LBB10_6:
	xorl	%eax, %eax
	addq	$8, %rsp
	popq	%rbx
	popq	%r14
                                        # kill: def $al killed $al killed $eax
	retq
.Lfunc_end10:
	.size	"std_alloc::vec::Vec::grow_amortized::<#b2b1aaf14fd9827c>", .Lfunc_end10-"std_alloc::vec::Vec::grow_amortized::<#b2b1aaf14fd9827c>"
                                        # -- End function
	.section	".text.unlikely.std_alloc::vec::Vec::grow_amortized::<#95ea9c2a17c64412>","ax",@progbits
	.p2align	4                               # -- Begin function std_alloc::vec::Vec::grow_amortized::<#95ea9c2a17c64412>
	.type	"std_alloc::vec::Vec::grow_amortized::<#95ea9c2a17c64412>",@function
"std_alloc::vec::Vec::grow_amortized::<#95ea9c2a17c64412>": # @"std_alloc::vec::Vec::grow_amortized::<#95ea9c2a17c64412>"
# %bb.0:                                # %start
	movq	8(%rdi), %rax
	cmpq	$-1, %rax
	je	.LBB11_5
# %bb.1:                                # %join.3
	pushq	%r14
	pushq	%rbx
	pushq	%rax
	movq	16(%rdi), %rcx
	cmpq	$4, %rax
	movl	$3, %ebx
	cmovaeq	%rax, %rbx
	incq	%rbx
	movq	%rcx, %rsi
	shrq	$62, %rsi
	leaq	(%rcx,%rcx), %rdx
	cmpq	%rdx, %rbx
	cmovaq	%rbx, %rdx
	testq	%rsi, %rsi
	cmoveq	%rdx, %rbx
	movabsq	$384307168202282325, %rsi       # imm = 0x555555555555555
	cmpq	%rsi, %rbx
	ja	.LBB11_6
# %bb.2:                                # %join.3.i
	testq	%rcx, %rcx
	je	.LBB11_8
# %bb.3:                                # %then.1.i.i
	movq	%rdi, %r14
	movq	(%rdi), %rdi
	shlq	$3, %rax
	leaq	(%rax,%rax,2), %rsi
	leaq	(,%rbx,8), %rax
	leaq	(%rax,%rax,2), %rdx
	movl	$8, %ecx
	callq	rattle_realloc@PLT
	testb	$1, %al
	je	.LBB11_6
.LBB11_9:                               # %arm.5.i
	movq	%rdx, (%r14)
	movq	%rbx, 16(%r14)
	movb	$1, %al
	addq	$8, %rsp
	popq	%rbx
	popq	%r14
                                        # kill: def $al killed $al killed $eax
	retq
.LBB11_5:
	xorl	%eax, %eax
                                        # kill: def $al killed $al killed $eax
	retq
.LBB11_8:                               # %"std_alloc::vec::resize::<#95ea9c2a17c64412>.exit.i"
	movq	%rdi, %r14
	shlq	$3, %rdx
	leaq	(%rdx,%rdx,2), %rdi
	movl	$8, %esi
	callq	rattle_alloc@PLT
	testb	$1, %al
	jne	.LBB11_9
.LBB11_6:
	xorl	%eax, %eax
	addq	$8, %rsp
	popq	%rbx
	popq	%r14
                                        # kill: def $al killed $al killed $eax
	retq
.Lfunc_end11:
	.size	"std_alloc::vec::Vec::grow_amortized::<#95ea9c2a17c64412>", .Lfunc_end11-"std_alloc::vec::Vec::grow_amortized::<#95ea9c2a17c64412>"
                                        # -- End function
	.section	".text.unlikely.std_alloc::vec::Vec::grow_amortized::<#5defbd33e8555760>","ax",@progbits
	.p2align	4                               # -- Begin function std_alloc::vec::Vec::grow_amortized::<#5defbd33e8555760>
	.type	"std_alloc::vec::Vec::grow_amortized::<#5defbd33e8555760>",@function
"std_alloc::vec::Vec::grow_amortized::<#5defbd33e8555760>": # @"std_alloc::vec::Vec::grow_amortized::<#5defbd33e8555760>"
# %bb.0:                                # %start
	movq	8(%rdi), %rax
	cmpq	$-1, %rax
	je	.LBB12_5
# %bb.1:                                # %join.3
	pushq	%r14
	pushq	%rbx
	pushq	%rax
	movq	16(%rdi), %rcx
	cmpq	$4, %rax
	movl	$3, %ebx
	cmovaeq	%rax, %rbx
	incq	%rbx
	movq	%rcx, %rsi
	shrq	$62, %rsi
	leaq	(%rcx,%rcx), %rdx
	cmpq	%rdx, %rbx
	cmovaq	%rbx, %rdx
	testq	%rsi, %rsi
	cmoveq	%rdx, %rbx
	movabsq	$192153584101141162, %rsi       # imm = 0x2AAAAAAAAAAAAAA
	cmpq	%rsi, %rbx
	ja	.LBB12_6
# %bb.2:                                # %join.3.i
	testq	%rcx, %rcx
	je	.LBB12_8
# %bb.3:                                # %then.1.i.i
	movq	%rdi, %r14
	movq	(%rdi), %rdi
	shlq	$4, %rax
	leaq	(%rax,%rax,2), %rsi
	movq	%rbx, %rax
	shlq	$4, %rax
	leaq	(%rax,%rax,2), %rdx
	movl	$8, %ecx
	callq	rattle_realloc@PLT
	testb	$1, %al
	je	.LBB12_6
.LBB12_9:                               # %arm.5.i
	movq	%rdx, (%r14)
	movq	%rbx, 16(%r14)
	movb	$1, %al
	addq	$8, %rsp
	popq	%rbx
	popq	%r14
                                        # kill: def $al killed $al killed $eax
	retq
.LBB12_5:
	xorl	%eax, %eax
                                        # kill: def $al killed $al killed $eax
	retq
.LBB12_8:                               # %"std_alloc::vec::resize::<#5defbd33e8555760>.exit.i"
	movq	%rdi, %r14
	shlq	$4, %rdx
	leaq	(%rdx,%rdx,2), %rdi
	movl	$8, %esi
	callq	rattle_alloc@PLT
	testb	$1, %al
	jne	.LBB12_9
.LBB12_6:
	xorl	%eax, %eax
	addq	$8, %rsp
	popq	%rbx
	popq	%r14
                                        # kill: def $al killed $al killed $eax
	retq
.Lfunc_end12:
	.size	"std_alloc::vec::Vec::grow_amortized::<#5defbd33e8555760>", .Lfunc_end12-"std_alloc::vec::Vec::grow_amortized::<#5defbd33e8555760>"
                                        # -- End function
	.section	".text.scq_band::splitting::split_all::<#aae3f6a89b556e54>","ax",@progbits
	.p2align	4                               # -- Begin function scq_band::splitting::split_all::<#aae3f6a89b556e54>
	.type	"scq_band::splitting::split_all::<#aae3f6a89b556e54>",@function
"scq_band::splitting::split_all::<#aae3f6a89b556e54>": # @"scq_band::splitting::split_all::<#aae3f6a89b556e54>"
# %bb.0:                                # %start
	pushq	%rbp
	pushq	%r15
	pushq	%r14
	pushq	%r13
	pushq	%r12
	pushq	%rbx
	subq	$104, %rsp
	movq	%rdi, %rbx
	movq	(%rdx), %r12
	movq	8(%rdx), %rax
	movq	16(%rdx), %rbp
	movq	(%rcx), %r14
	movq	8(%rcx), %r15
	movq	16(%rcx), %r13
	xorps	%xmm0, %xmm0
	movaps	%xmm0, 32(%rsp)
	movaps	%xmm0, 16(%rsp)
	movaps	%xmm0, (%rsp)
	testq	%rax, %rax
	je	.LBB13_4
# %bb.1:                                # %arm.3.lr.ph
	leaq	24(%rsp), %rcx
	movq	%r15, %rdx
	shlq	$6, %rdx
	addq	%r14, %rdx
	leaq	(%rax,%rax,2), %rdi
	negq	%rax
	shlq	$4, %rdi
	leaq	(%rdi,%r12), %r8
	addq	$-24, %r8
	xorl	%edi, %edi
	.p2align	4
.LBB13_2:                               # %arm.3
                                        # =>This Inner Loop Header: Depth=1
	movups	-24(%r8), %xmm0
	movaps	%xmm0, 80(%rsp)
	movq	-8(%r8), %r9
	movq	%r9, 96(%rsp)
	movups	(%r8), %xmm0
	movaps	%xmm0, 48(%rsp)
	movq	16(%r8), %r9
	movq	%r9, 64(%rsp)
	#APP
	#NO_APP
	movq	(%rsi), %r9
	#APP
	#NO_APP
	movq	96(%rsp), %r9
	movq	%r9, 16(%rsp)
	movaps	80(%rsp), %xmm0
	movaps	%xmm0, (%rsp)
	movq	64(%rsp), %r9
	movq	%r9, 16(%rcx)
	movaps	48(%rsp), %xmm0
	movups	%xmm0, (%rcx)
	movq	16(%rsp), %r9
	movq	%r9, 16(%rdx)
	movaps	(%rsp), %xmm0
	movups	%xmm0, (%rdx)
	movq	16(%rcx), %r9
	movq	%r9, 40(%rdx)
	movups	(%rcx), %xmm0
	movups	%xmm0, 24(%rdx)
	xorps	%xmm0, %xmm0
	movups	%xmm0, 48(%rdx)
	decq	%rdi
	addq	$64, %rdx
	addq	$-48, %r8
	cmpq	%rdi, %rax
	jne	.LBB13_2
# %bb.3:                                # %after.1.loopexit
	subq	%rdi, %r15
.LBB13_4:                               # %after.1
	movq	%r14, %rdi
	movq	%r15, %rsi
	callq	"core::slice::edits::slice+T::reverse::<41'scq_band::seat::Seat::<#5ff1ac3e48fe92e9>>"
	testq	%rbp, %rbp
	je	.LBB13_6
# %bb.5:                                # %then.1.i.i.i
	movq	%r12, %rdi
	callq	rattle_dealloc@PLT
.LBB13_6:                               # %"std_alloc::vec::Vec::drop::<#d7f15c36f98b15b9>.exit"
	movq	%r14, (%rbx)
	movq	%r15, 8(%rbx)
	movq	%r13, 16(%rbx)
	addq	$104, %rsp
	popq	%rbx
	popq	%r12
	popq	%r13
	popq	%r14
	popq	%r15
	popq	%rbp
	retq
.Lfunc_end13:
	.size	"scq_band::splitting::split_all::<#aae3f6a89b556e54>", .Lfunc_end13-"scq_band::splitting::split_all::<#aae3f6a89b556e54>"
                                        # -- End function
	.section	".text.core::slice::edits::slice+T::reverse::<41'scq_band::seat::Seat::<#5ff1ac3e48fe92e9>>","ax",@progbits
	.p2align	4                               # -- Begin function core::slice::edits::slice+T::reverse::<41'scq_band::seat::Seat::<#5ff1ac3e48fe92e9>>
	.type	"core::slice::edits::slice+T::reverse::<41'scq_band::seat::Seat::<#5ff1ac3e48fe92e9>>",@function
"core::slice::edits::slice+T::reverse::<41'scq_band::seat::Seat::<#5ff1ac3e48fe92e9>>": # @"core::slice::edits::slice+T::reverse::<41'scq_band::seat::Seat::<#5ff1ac3e48fe92e9>>"
# %bb.0:                                # %start
	cmpq	$15, %rsi
	jbe	.LBB14_1
# %bb.10:                               # %then.1.i
	movq	%rsi, %rdx
	shrq	%rdx
	subq	%rdx, %rsi
	shlq	$6, %rsi
	addq	%rdi, %rsi
	jmp	"core::slice::edits::mirror::<41'scq_band::seat::Seat::<#5ff1ac3e48fe92e9>>" # TAILCALL
.LBB14_1:                               # %loop.5.preheader.i
	cmpq	$2, %rsi
	jb	.LBB14_9
# %bb.2:                                # %join.8.lr.ph.i
	pushq	%r14
	pushq	%rbx
	leaq	-32(%rsp), %rax
	leaq	-2(%rsi), %rcx
	shrq	%rcx
	incq	%rcx
	movq	%rsi, %rdx
	shlq	$6, %rdx
	addq	%rdi, %rdx
	addq	$-8, %rdx
	addq	$56, %rdi
	decq	%rsi
	xorl	%r8d, %r8d
	jmp	.LBB14_3
	.p2align	4
.LBB14_4:                               # %then.1.i.i
                                        #   in Loop: Header=BB14_3 Depth=1
	movq	-40(%rdi), %r9
	movq	%r9, -40(%rsp)
	movups	-56(%rdi), %xmm0
	movaps	%xmm0, -56(%rsp)
	movq	-16(%rdi), %r9
	movq	%r9, 16(%rax)
	movups	-32(%rdi), %xmm0
	movups	%xmm0, (%rax)
	movzbl	-8(%rdi), %r9d
	movq	(%rdi), %r10
	movzbl	-8(%rdx), %r11d
	movq	(%rdx), %rbx
	movq	-40(%rdx), %r14
	movups	-56(%rdx), %xmm0
	movups	%xmm0, -56(%rdi)
	movq	%r14, -40(%rdi)
	movq	-16(%rdx), %r14
	movups	-32(%rdx), %xmm0
	movups	%xmm0, -32(%rdi)
	movq	%r14, -16(%rdi)
	movq	%r11, -8(%rdi)
	movq	%rbx, (%rdi)
	movq	-40(%rsp), %r11
	movq	%r11, -40(%rdx)
	movaps	-56(%rsp), %xmm0
	movups	%xmm0, -56(%rdx)
	movups	(%rax), %xmm0
	movups	%xmm0, -32(%rdx)
	movq	16(%rax), %r11
	movq	%r11, -16(%rdx)
	movq	%r9, -8(%rdx)
	movq	%r10, (%rdx)
.LBB14_7:                               # %"core::slice::edits::slice+T::swap::<41'scq_band::seat::Seat::<#5ff1ac3e48fe92e9>>.exit.i"
                                        #   in Loop: Header=BB14_3 Depth=1
	incq	%r8
	addq	$64, %rdi
	addq	$-64, %rdx
	decq	%rsi
	cmpq	%r8, %rcx
	je	.LBB14_8
.LBB14_3:                               # %join.8.i
                                        # =>This Inner Loop Header: Depth=1
	cmpq	%rsi, %r8
	jb	.LBB14_4
# %bb.5:                                # %else.2.i.i
                                        #   in Loop: Header=BB14_3 Depth=1
	jbe	.LBB14_7
# %bb.6:                                # %then.4.i.i
                                        #   in Loop: Header=BB14_3 Depth=1
	movq	-40(%rdx), %r9
	movq	%r9, -40(%rsp)
	movups	-56(%rdx), %xmm0
	movaps	%xmm0, -56(%rsp)
	movq	-16(%rdx), %r9
	movq	%r9, 16(%rax)
	movups	-32(%rdx), %xmm0
	movups	%xmm0, (%rax)
	movzbl	-8(%rdx), %r9d
	movq	(%rdx), %r10
	movzbl	-8(%rdi), %r11d
	movq	(%rdi), %rbx
	movq	-40(%rdi), %r14
	movups	-56(%rdi), %xmm0
	movups	%xmm0, -56(%rdx)
	movq	%r14, -40(%rdx)
	movq	-16(%rdi), %r14
	movups	-32(%rdi), %xmm0
	movups	%xmm0, -32(%rdx)
	movq	%r14, -16(%rdx)
	movq	%r11, -8(%rdx)
	movq	%rbx, (%rdx)
	movq	-40(%rsp), %r11
	movq	%r11, -40(%rdi)
	movaps	-56(%rsp), %xmm0
	movups	%xmm0, -56(%rdi)
	movups	(%rax), %xmm0
	movups	%xmm0, -32(%rdi)
	movq	16(%rax), %r11
	movq	%r11, -16(%rdi)
	movq	%r9, -8(%rdi)
	movq	%r10, (%rdi)
	jmp	.LBB14_7
.LBB14_8:
	popq	%rbx
	popq	%r14
.LBB14_9:                               # %"core::slice::edits::reverse_between::<41'scq_band::seat::Seat::<#5ff1ac3e48fe92e9>>.exit"
	retq
.Lfunc_end14:
	.size	"core::slice::edits::slice+T::reverse::<41'scq_band::seat::Seat::<#5ff1ac3e48fe92e9>>", .Lfunc_end14-"core::slice::edits::slice+T::reverse::<41'scq_band::seat::Seat::<#5ff1ac3e48fe92e9>>"
                                        # -- End function
	.section	".text.core::slice::edits::mirror::<41'scq_band::seat::Seat::<#5ff1ac3e48fe92e9>>","ax",@progbits
	.p2align	4                               # -- Begin function core::slice::edits::mirror::<41'scq_band::seat::Seat::<#5ff1ac3e48fe92e9>>
	.type	"core::slice::edits::mirror::<41'scq_band::seat::Seat::<#5ff1ac3e48fe92e9>>",@function
"core::slice::edits::mirror::<41'scq_band::seat::Seat::<#5ff1ac3e48fe92e9>>": # @"core::slice::edits::mirror::<41'scq_band::seat::Seat::<#5ff1ac3e48fe92e9>>"
# %bb.0:                                # %start
	pushq	%rbx
	leaq	-72(%rsp), %rax
	leaq	-24(%rsp), %rcx
	addq	$56, %rdi
	movq	%rdx, %r8
	shlq	$6, %r8
	addq	%r8, %rsi
	addq	$-8, %rsi
	.p2align	4
.LBB15_1:                               # %join.5
                                        # =>This Inner Loop Header: Depth=1
	movq	-40(%rdi), %r8
	movq	%r8, -80(%rsp)
	movups	-56(%rdi), %xmm0
	movaps	%xmm0, -96(%rsp)
	movq	-16(%rdi), %r8
	movq	%r8, 16(%rax)
	movups	-32(%rdi), %xmm0
	movups	%xmm0, (%rax)
	movzbl	-8(%rdi), %r8d
	movq	(%rdi), %r9
	movq	-16(%rsi), %r10
	movq	%r10, 16(%rcx)
	movups	-32(%rsi), %xmm0
	movups	%xmm0, (%rcx)
	movzbl	-8(%rsi), %r10d
	movq	(%rsi), %r11
	movups	-56(%rsi), %xmm0
	movq	-40(%rsi), %rbx
	movq	%rbx, -40(%rdi)
	movups	%xmm0, -56(%rdi)
	movups	(%rcx), %xmm0
	movups	%xmm0, -32(%rdi)
	movq	16(%rcx), %rbx
	movq	%rbx, -16(%rdi)
	movq	%r10, -8(%rdi)
	movq	%r11, (%rdi)
	movq	-80(%rsp), %r10
	movq	%r10, -40(%rsi)
	movaps	-96(%rsp), %xmm0
	movups	%xmm0, -56(%rsi)
	movups	(%rax), %xmm0
	movups	%xmm0, -32(%rsi)
	movq	16(%rax), %r10
	movq	%r10, -16(%rsi)
	movq	%r8, -8(%rsi)
	movq	%r9, (%rsi)
	addq	$64, %rdi
	addq	$-64, %rsi
	decq	%rdx
	jne	.LBB15_1
# %bb.2:                                # %after.1
	popq	%rbx
	retq
.Lfunc_end15:
	.size	"core::slice::edits::mirror::<41'scq_band::seat::Seat::<#5ff1ac3e48fe92e9>>", .Lfunc_end15-"core::slice::edits::mirror::<41'scq_band::seat::Seat::<#5ff1ac3e48fe92e9>>"
                                        # -- End function
	.section	".text.scq_queue::queue::passes_of::<#aae3f6a89b556e54>","ax",@progbits
	.p2align	4                               # -- Begin function scq_queue::queue::passes_of::<#aae3f6a89b556e54>
	.type	"scq_queue::queue::passes_of::<#aae3f6a89b556e54>",@function
"scq_queue::queue::passes_of::<#aae3f6a89b556e54>": # @"scq_queue::queue::passes_of::<#aae3f6a89b556e54>"
# %bb.0:                                # %start
	pushq	%r15
	pushq	%r14
	pushq	%r13
	pushq	%r12
	pushq	%rbx
	subq	$96, %rsp
	movq	%rsi, %r14
	movq	%rdi, %rbx
	movq	(%rdx), %r15
	movq	8(%rdx), %r13
	movq	16(%rdx), %r12
	movq	(%rsi), %rdi
	movq	8(%rsi), %rsi
	callq	"core::slice::edits::slice+T::reverse::<41'scq_band::seat::Seat::<#5ff1ac3e48fe92e9>>"
	movq	8(%r14), %rdx
	testq	%rdx, %rdx
	je	.LBB16_3
# %bb.1:                                # %arm.3.lr.ph
	leaq	72(%rsp), %rax
	leaq	(,%r13,2), %rcx
	addq	%r13, %rcx
	shlq	$5, %rcx
	addq	%r15, %rcx
	addq	$64, %rcx
	.p2align	4
.LBB16_2:                               # %arm.3
                                        # =>This Inner Loop Header: Depth=1
	decq	%rdx
	movq	%rdx, 8(%r14)
	movq	(%r14), %rsi
	shlq	$6, %rdx
	movzbl	48(%rsi,%rdx), %edi
	movq	56(%rsi,%rdx), %r8
	movq	16(%rsi,%rdx), %r9
	movq	%r9, 64(%rsp)
	movups	(%rsi,%rdx), %xmm0
	movaps	%xmm0, 48(%rsp)
	movq	40(%rsi,%rdx), %r9
	movq	%r9, 16(%rax)
	movups	24(%rsi,%rdx), %xmm0
	movups	%xmm0, (%rax)
	movaps	48(%rsp), %xmm0
	movq	64(%rsp), %rdx
	movq	72(%rsp), %rsi
	movaps	80(%rsp), %xmm1
	movaps	%xmm1, 32(%rsp)
	movq	%rdx, 16(%rsp)
	movq	%rsi, 24(%rsp)
	movaps	%xmm0, (%rsp)
	movaps	(%rsp), %xmm0
	movq	16(%rsp), %rdx
	movq	24(%rsp), %rsi
	movaps	32(%rsp), %xmm1
	movups	%xmm1, -32(%rcx)
	movq	%rdx, -48(%rcx)
	movq	%rsi, -40(%rcx)
	movups	%xmm0, -64(%rcx)
	movq	%rdi, -16(%rcx)
	movq	%r8, -8(%rcx)
	xorps	%xmm0, %xmm0
	movups	%xmm0, (%rcx)
	movups	%xmm0, 16(%rcx)
	incq	%r13
	movq	8(%r14), %rdx
	addq	$96, %rcx
	testq	%rdx, %rdx
	jne	.LBB16_2
.LBB16_3:                               # %after.1
	movq	%r15, (%rbx)
	movq	%r13, 8(%rbx)
	movq	%r12, 16(%rbx)
	addq	$96, %rsp
	popq	%rbx
	popq	%r12
	popq	%r13
	popq	%r14
	popq	%r15
	retq
.Lfunc_end16:
	.size	"scq_queue::queue::passes_of::<#aae3f6a89b556e54>", .Lfunc_end16-"scq_queue::queue::passes_of::<#aae3f6a89b556e54>"
                                        # -- End function
	.section	".text.scq_queue::queue::Queue::abandon::<#a764f8bb96b57390>","ax",@progbits
	.p2align	4                               # -- Begin function scq_queue::queue::Queue::abandon::<#a764f8bb96b57390>
	.type	"scq_queue::queue::Queue::abandon::<#a764f8bb96b57390>",@function
"scq_queue::queue::Queue::abandon::<#a764f8bb96b57390>": # @"scq_queue::queue::Queue::abandon::<#a764f8bb96b57390>"
# %bb.0:                                # %start
	pushq	%rbp
	pushq	%r15
	pushq	%r14
	pushq	%r13
	pushq	%r12
	pushq	%rbx
	subq	$72, %rsp
	movq	32(%rdi), %rax
	movq	%rax, 32(%rsp)                  # 8-byte Spill
	movq	48(%rdi), %rax
	movq	%rax, 40(%rsp)                  # 8-byte Spill
	movq	88(%rdi), %rax
	movq	%rax, 8(%rsp)                   # 8-byte Spill
	movq	104(%rdi), %rax
	movq	%rax, 48(%rsp)                  # 8-byte Spill
	movq	112(%rdi), %rax
	movq	%rax, 16(%rsp)                  # 8-byte Spill
	movq	128(%rdi), %rax
	movq	%rax, 56(%rsp)                  # 8-byte Spill
	movq	136(%rdi), %rax
	movq	%rax, 24(%rsp)                  # 8-byte Spill
	movq	152(%rdi), %rax
	movq	%rax, 64(%rsp)                  # 8-byte Spill
	movq	160(%rdi), %rbp
	movq	168(%rdi), %r14
	movq	176(%rdi), %r15
	movq	184(%rdi), %rbx
	movq	200(%rdi), %r12
	cmpq	$0, 224(%rdi)
	je	.LBB17_2
# %bb.1:                                # %then.1.i.i.i
	movq	208(%rdi), %rdi
	callq	rattle_dealloc@PLT
.LBB17_2:                               # %"std_alloc::vec::Vec::drop::<#ab7d2d06fea1ae0d>.exit"
	testq	%r12, %r12
	je	.LBB17_4
# %bb.3:                                # %then.1.i.i.i4
	movq	%rbx, %rdi
	callq	rattle_dealloc@PLT
.LBB17_4:                               # %"std_alloc::vec::Vec::drop::<#ef7b945cfcdca3a1>.exit"
	testq	%r14, %r14
	je	.LBB17_11
# %bb.5:                                # %join.5.i.i.i.i.i.preheader
	leaq	40(%rbp), %r12
	jmp	.LBB17_6
	.p2align	4
.LBB17_10:                              # %"core::mem::drop::<#f43a2d4f386d3816>.exit.i.i.i.i.i"
                                        #   in Loop: Header=BB17_6 Depth=1
	addq	$64, %r12
	decq	%r14
	je	.LBB17_11
.LBB17_6:                               # %join.5.i.i.i.i.i
                                        # =>This Inner Loop Header: Depth=1
	movq	-16(%r12), %rbx
	movq	(%r12), %r13
	cmpq	$0, -24(%r12)
	je	.LBB17_8
# %bb.7:                                # %then.1.i.i.i.i.i.i.i.i.i.i
                                        #   in Loop: Header=BB17_6 Depth=1
	movq	-40(%r12), %rdi
	callq	rattle_dealloc@PLT
.LBB17_8:                               # %"std_alloc::vec::Vec::drop::<#ab7d2d06fea1ae0d>.exit.i.i.i.i.i.i.i"
                                        #   in Loop: Header=BB17_6 Depth=1
	testq	%r13, %r13
	je	.LBB17_10
# %bb.9:                                # %then.1.i.i.i4.i.i.i.i.i.i.i
                                        #   in Loop: Header=BB17_6 Depth=1
	movq	%rbx, %rdi
	callq	rattle_dealloc@PLT
	jmp	.LBB17_10
.LBB17_11:                              # %"std_alloc::vec::Vec::clear::<#e2257b89cd47e954>.exit.i"
	testq	%r15, %r15
	je	.LBB17_13
# %bb.12:                               # %then.1.i.i.i10
	movq	%rbp, %rdi
	callq	rattle_dealloc@PLT
.LBB17_13:                              # %"std_alloc::vec::Vec::drop::<#509447ac6c3aff8e>.exit"
	movq	32(%rsp), %rdi                  # 8-byte Reload
	callq	rattle_dealloc@PLT
	movq	40(%rsp), %rdi                  # 8-byte Reload
	callq	rattle_dealloc@PLT
	cmpq	$0, 48(%rsp)                    # 8-byte Folded Reload
	je	.LBB17_15
# %bb.14:                               # %then.1.i.i.i14
	movq	8(%rsp), %rdi                   # 8-byte Reload
	callq	rattle_dealloc@PLT
.LBB17_15:                              # %"std_alloc::vec::Vec::drop::<#b736de8d51cc5346>.exit"
	cmpq	$0, 56(%rsp)                    # 8-byte Folded Reload
	je	.LBB17_17
# %bb.16:                               # %then.1.i.i.i19
	movq	16(%rsp), %rdi                  # 8-byte Reload
	callq	rattle_dealloc@PLT
.LBB17_17:                              # %"std_alloc::vec::Vec::drop::<#8552057d871d872a>.exit"
	cmpq	$0, 64(%rsp)                    # 8-byte Folded Reload
	je	.LBB17_18
# %bb.19:                               # %then.1.i.i.i24
	movq	24(%rsp), %rdi                  # 8-byte Reload
	addq	$72, %rsp
	popq	%rbx
	popq	%r12
	popq	%r13
	popq	%r14
	popq	%r15
	popq	%rbp
	jmp	rattle_dealloc@PLT              # TAILCALL
.LBB17_18:                              # %"std_alloc::vec::Vec::drop::<#bc6c39142b6dcb2c>.exit"
	addq	$72, %rsp
	popq	%rbx
	popq	%r12
	popq	%r13
	popq	%r14
	popq	%r15
	popq	%rbp
	retq
.Lfunc_end17:
	.size	"scq_queue::queue::Queue::abandon::<#a764f8bb96b57390>", .Lfunc_end17-"scq_queue::queue::Queue::abandon::<#a764f8bb96b57390>"
                                        # -- End function
	.section	".text.scq_port::owner::Owner::drop","ax",@progbits
	.p2align	4                               # -- Begin function scq_port::owner::Owner::drop
	.type	"scq_port::owner::Owner::drop",@function
"scq_port::owner::Owner::drop":         # @"scq_port::owner::Owner::drop"
# %bb.0:                                # %start
	pushq	%rbp
	pushq	%r15
	pushq	%r14
	pushq	%r13
	pushq	%r12
	pushq	%rbx
	subq	$264, %rsp                      # imm = 0x108
	movq	%rdi, %rsi
	movq	240(%rdi), %r13
	movq	256(%rdi), %rbp
	movq	264(%rdi), %rax
	movq	%rax, 16(%rsp)                  # 8-byte Spill
	movq	280(%rdi), %rax
	movq	%rax, 24(%rsp)                  # 8-byte Spill
	movq	296(%rdi), %rax
	movq	%rax, (%rsp)                    # 8-byte Spill
	movq	304(%rdi), %r14
	movq	312(%rdi), %rax
	movq	%rax, 8(%rsp)                   # 8-byte Spill
	movq	320(%rdi), %r12
	movq	336(%rdi), %rbx
	leaq	32(%rsp), %rdi
	movl	$232, %edx
	callq	memcpy@PLT
	testq	%rbx, %rbx
	je	.LBB18_2
# %bb.1:                                # %then.1.i.i
	movq	%r12, %rdi
	callq	rattle_dealloc@PLT
.LBB18_2:                               # %"std_alloc::vec::Vec::destroy_empty::<#d8aeaabc91b1d8b3>.exit"
	leaq	32(%rsp), %rdi
	callq	"scq_queue::queue::Queue::abandon::<#a764f8bb96b57390>"
	testq	%r14, %r14
	je	.LBB18_9
# %bb.3:                                # %join.5.i.i.i.i.i.preheader
	movq	(%rsp), %rax                    # 8-byte Reload
	leaq	40(%rax), %rbx
	jmp	.LBB18_4
	.p2align	4
.LBB18_8:                               # %"core::mem::drop::<#db57577750518db5>.exit.i.i.i.i.i"
                                        #   in Loop: Header=BB18_4 Depth=1
	addq	$96, %rbx
	decq	%r14
	je	.LBB18_9
.LBB18_4:                               # %join.5.i.i.i.i.i
                                        # =>This Inner Loop Header: Depth=1
	movq	-16(%rbx), %r12
	movq	(%rbx), %r15
	cmpq	$0, -24(%rbx)
	je	.LBB18_6
# %bb.5:                                # %then.1.i.i.i.i.i.i.i.i.i.i.i
                                        #   in Loop: Header=BB18_4 Depth=1
	movq	-40(%rbx), %rdi
	callq	rattle_dealloc@PLT
.LBB18_6:                               # %"std_alloc::vec::Vec::drop::<#322702e9d69ed9ef>.exit.i.i.i.i.i.i.i.i"
                                        #   in Loop: Header=BB18_4 Depth=1
	testq	%r15, %r15
	je	.LBB18_8
# %bb.7:                                # %then.1.i.i.i4.i.i.i.i.i.i.i.i
                                        #   in Loop: Header=BB18_4 Depth=1
	movq	%r12, %rdi
	callq	rattle_dealloc@PLT
	jmp	.LBB18_8
.LBB18_9:                               # %"std_alloc::vec::Vec::clear::<#6556fae6c29054f4>.exit.i"
	cmpq	$0, 8(%rsp)                     # 8-byte Folded Reload
	je	.LBB18_11
# %bb.10:                               # %then.1.i.i.i
	movq	(%rsp), %rdi                    # 8-byte Reload
	callq	rattle_dealloc@PLT
.LBB18_11:                              # %"std_alloc::vec::Vec::drop::<#52900c7b80093fc6>.exit"
	testq	%rbp, %rbp
	jne	.LBB18_12
.LBB18_20:                              # %"atomic_table::owned::Table::drop::<#b901f7d3086f3adb>.exit"
	movq	16(%rsp), %rdi                  # 8-byte Reload
	callq	rattle_dealloc@PLT
	movq	24(%rsp), %rdi                  # 8-byte Reload
	addq	$264, %rsp                      # imm = 0x108
	popq	%rbx
	popq	%r12
	popq	%r13
	popq	%r14
	popq	%r15
	popq	%rbp
	jmp	rattle_dealloc@PLT              # TAILCALL
	.p2align	4
.LBB18_19:                              # %"core::mem::drop::<#c10a63d121191302>.exit.i"
                                        #   in Loop: Header=BB18_12 Depth=1
	subq	$-128, %r13
	decq	%rbp
	je	.LBB18_20
.LBB18_12:                              # %join.5.i
                                        # =>This Inner Loop Header: Depth=1
	cmpb	$0, (%r13)
	je	.LBB18_19
# %bb.13:                               # %arm.2.i.i.i
                                        #   in Loop: Header=BB18_12 Depth=1
	movq	8(%r13), %r12
	movq	24(%r13), %r14
	movq	32(%r13), %r15
	movq	48(%r13), %rbx
	cmpq	$0, 120(%r13)
	je	.LBB18_15
# %bb.14:                               # %then.1.i.i.i.i.i.i.i
                                        #   in Loop: Header=BB18_12 Depth=1
	movq	104(%r13), %rdi
	callq	rattle_dealloc@PLT
.LBB18_15:                              # %"scq_port::leaving::drop_slots.exit.i.i.i.i"
                                        #   in Loop: Header=BB18_12 Depth=1
	testq	%r14, %r14
	je	.LBB18_17
# %bb.16:                               # %then.1.i.i.i5.i.i.i.i
                                        #   in Loop: Header=BB18_12 Depth=1
	movq	%r12, %rdi
	callq	rattle_dealloc@PLT
.LBB18_17:                              # %"std_alloc::vec::Vec::drop::<#322702e9d69ed9ef>.exit.i.i.i.i"
                                        #   in Loop: Header=BB18_12 Depth=1
	testq	%rbx, %rbx
	je	.LBB18_19
# %bb.18:                               # %then.1.i.i.i10.i.i.i.i
                                        #   in Loop: Header=BB18_12 Depth=1
	movq	%r15, %rdi
	callq	rattle_dealloc@PLT
	jmp	.LBB18_19
.Lfunc_end18:
	.size	"scq_port::owner::Owner::drop", .Lfunc_end18-"scq_port::owner::Owner::drop"
                                        # -- End function
	.section	".text.scq_port::opening::ports_of","ax",@progbits
	.p2align	4                               # -- Begin function scq_port::opening::ports_of
	.type	"scq_port::opening::ports_of",@function
"scq_port::opening::ports_of":          # @"scq_port::opening::ports_of"
# %bb.0:                                # %start
	pushq	%rbp
	pushq	%r15
	pushq	%r14
	pushq	%r13
	pushq	%r12
	pushq	%rbx
	subq	$1768, %rsp                     # imm = 0x6E8
	movq	%rdi, 104(%rsp)                 # 8-byte Spill
	movq	(%rdx), %r14
	movq	8(%rdx), %rbp
	movq	16(%rdx), %rbx
	movl	(%rcx), %r12d
	movl	4(%rcx), %eax
	xorps	%xmm0, %xmm0
	movaps	%xmm0, 48(%rsp)
	movq	$0, 64(%rsp)
	movaps	%xmm0, 1632(%rsp)
	movaps	%xmm0, 1648(%rsp)
	movaps	%xmm0, 1664(%rsp)
	movaps	%xmm0, 1680(%rsp)
	movaps	%xmm0, 1696(%rsp)
	movaps	%xmm0, 1712(%rsp)
	movaps	%xmm0, 1728(%rsp)
	movaps	%xmm0, 1744(%rsp)
	movq	$0, 1759(%rsp)
	movl	$0, 24(%rsp)
	movl	$0, 27(%rsp)
	movaps	%xmm0, 240(%rsp)
	movaps	%xmm0, 256(%rsp)
	movaps	%xmm0, 1136(%rsp)
	movaps	%xmm0, 1120(%rsp)
	movaps	%xmm0, 1104(%rsp)
	movaps	%xmm0, 1088(%rsp)
	movaps	%xmm0, 1072(%rsp)
	movaps	%xmm0, 1056(%rsp)
	movaps	%xmm0, 1040(%rsp)
	movaps	%xmm0, 1024(%rsp)
	movl	$0, 1151(%rsp)
	movaps	%xmm0, 576(%rsp)
	movaps	%xmm0, 560(%rsp)
	movaps	%xmm0, 544(%rsp)
	movaps	%xmm0, 528(%rsp)
	movaps	%xmm0, 512(%rsp)
	movaps	%xmm0, 496(%rsp)
	movaps	%xmm0, 480(%rsp)
	movaps	%xmm0, 464(%rsp)
	movq	$0, 591(%rsp)
	movl	$0, 16(%rsp)
	movl	$0, 19(%rsp)
	movaps	%xmm0, 160(%rsp)
	movaps	%xmm0, 176(%rsp)
	movaps	%xmm0, 320(%rsp)
	movaps	%xmm0, 336(%rsp)
	movaps	%xmm0, 352(%rsp)
	movaps	%xmm0, 368(%rsp)
	movaps	%xmm0, 384(%rsp)
	movaps	%xmm0, 400(%rsp)
	movaps	%xmm0, 416(%rsp)
	movaps	%xmm0, 432(%rsp)
	movl	$0, 447(%rsp)
	testq	%rbp, %rbp
	je	.LBB19_1
# %bb.2:                                # %then.2.i
	movl	%eax, 32(%rsp)                  # 4-byte Spill
	movabsq	$22606304011898960, %rax        # imm = 0x50505050505050
	cmpq	%rax, %rbp
	ja	.LBB19_4
# %bb.3:                                # %"std_alloc::vec::resize::<#84f066883e367b44>.exit.i.i"
	movl	%r8d, %r13d
	movq	%rsi, %r15
	imulq	$408, %rbp, %rdi                # imm = 0x198
	movl	$8, %esi
	callq	rattle_alloc@PLT
	testb	$1, %al
	je	.LBB19_4
# %bb.15:                               # %arm.1
	movq	%rdx, 48(%rsp)
	movq	$0, 56(%rsp)
	movq	%rbp, 64(%rsp)
	cmpq	$15, %rbp
	jbe	.LBB19_16
# %bb.72:                               # %then.1.i.i.i
	movq	%rbp, %rdx
	shrq	%rdx
	movq	%rbp, %rax
	subq	%rdx, %rax
	leaq	(%rax,%rax,2), %rsi
	shlq	$5, %rsi
	addq	%r14, %rsi
	movq	%r14, %rdi
	callq	"core::slice::edits::mirror::<42'scq_queue::pass::Pass::<#5ff1ac3e48fe92e9>>"
	jmp	.LBB19_23
.LBB19_4:                               # %join.5.i.i.i.i.i.preheader
	movq	%r14, %rax
	movq	%rbx, %r14
	movq	%rax, %r13
	leaq	40(%rax), %rbx
	jmp	.LBB19_5
	.p2align	4
.LBB19_9:                               # %"core::mem::drop::<#db57577750518db5>.exit.i.i.i.i.i"
                                        #   in Loop: Header=BB19_5 Depth=1
	addq	$96, %rbx
	decq	%rbp
	je	.LBB19_10
.LBB19_5:                               # %join.5.i.i.i.i.i
                                        # =>This Inner Loop Header: Depth=1
	movq	-16(%rbx), %r15
	movq	(%rbx), %r12
	cmpq	$0, -24(%rbx)
	je	.LBB19_7
# %bb.6:                                # %then.1.i.i.i.i.i.i.i.i.i.i.i
                                        #   in Loop: Header=BB19_5 Depth=1
	movq	-40(%rbx), %rdi
	callq	rattle_dealloc@PLT
.LBB19_7:                               # %"std_alloc::vec::Vec::drop::<#322702e9d69ed9ef>.exit.i.i.i.i.i.i.i.i"
                                        #   in Loop: Header=BB19_5 Depth=1
	testq	%r12, %r12
	je	.LBB19_9
# %bb.8:                                # %then.1.i.i.i4.i.i.i.i.i.i.i.i
                                        #   in Loop: Header=BB19_5 Depth=1
	movq	%r15, %rdi
	callq	rattle_dealloc@PLT
	jmp	.LBB19_9
.LBB19_10:                              # %"std_alloc::vec::Vec::clear::<#6556fae6c29054f4>.exit.i"
	testq	%r14, %r14
	je	.LBB19_13
# %bb.11:                               # %then.1.i.i.i4
	movq	%r13, %rdi
	jmp	.LBB19_12
.LBB19_1:                               # %"std_alloc::vec::Vec::reverse::<#44a7f6dac2698e27>.exit.thread173"
	leaq	40(%rsp), %rax
	movq	%rax, 48(%rsp)
	movups	%xmm0, 56(%rsp)
.LBB19_32:                              # %after.5
	testq	%rbx, %rbx
	je	.LBB19_34
# %bb.33:                               # %then.1.i.i.i141
	movq	%r14, %rdi
	callq	rattle_dealloc@PLT
.LBB19_34:                              # %"std_alloc::vec::Vec::drop::<#52900c7b80093fc6>.exit142"
	movq	104(%rsp), %rcx                 # 8-byte Reload
	movb	$0, (%rcx)
	movaps	48(%rsp), %xmm0
	movups	%xmm0, 8(%rcx)
	movq	64(%rsp), %rax
	movq	%rax, 24(%rcx)
	jmp	.LBB19_14
.LBB19_16:                              # %loop.5.preheader.i.i.i
	cmpq	$1, %rbp
	jne	.LBB19_17
.LBB19_23:                              # %arm.7.lr.ph
	movl	$1, %eax
	movl	%r12d, %ecx
	shlq	%cl, %rax
	leaq	16(%rax), %r12
	leaq	128(,%rax,8), %r11
	movq	%rax, 216(%rsp)                 # 8-byte Spill
	leaq	(,%rax,8), %rax
	movq	%rax, 280(%rsp)                 # 8-byte Spill
	decl	32(%rsp)                        # 4-byte Folded Spill
	movq	%rbx, 152(%rsp)                 # 8-byte Spill
.LBB19_24:                              # %arm.7
                                        # =>This Loop Header: Depth=1
                                        #     Child Loop BB19_25 Depth 2
	movq	%rbp, %rbx
	decq	%rbp
	leaq	(,%rbp,2), %rax
	addq	%rbp, %rax
	shlq	$5, %rax
	movq	(%r14,%rax), %r8
	movq	8(%r14,%rax), %rcx
	movq	%rcx, 224(%rsp)                 # 8-byte Spill
	movq	16(%r14,%rax), %r9
	movq	24(%r14,%rax), %rdi
	movq	32(%r14,%rax), %rcx
	movq	%rcx, 232(%rsp)                 # 8-byte Spill
	movq	40(%r14,%rax), %rsi
	movzbl	48(%r14,%rax), %ecx
	movb	%cl, 15(%rsp)                   # 1-byte Spill
	movq	56(%r14,%rax), %rcx
	movq	%rcx, 80(%rsp)                  # 8-byte Spill
	movl	56(%rsp), %r10d
	movl	49(%r14,%rax), %ecx
	movl	52(%r14,%rax), %edx
	movl	%ecx, 112(%rsp)
	movl	%edx, 115(%rsp)
	movups	64(%r14,%rax), %xmm0
	movups	80(%r14,%rax), %xmm1
	movaps	%xmm0, 1456(%rsp)
	movaps	%xmm1, 1472(%rsp)
	xorps	%xmm0, %xmm0
	movaps	%xmm0, 1312(%rsp)
	movaps	%xmm0, 1328(%rsp)
	movaps	%xmm0, 1344(%rsp)
	movaps	%xmm0, 1360(%rsp)
	movaps	%xmm0, 1376(%rsp)
	movaps	%xmm0, 1392(%rsp)
	movaps	%xmm0, 1408(%rsp)
	movaps	%xmm0, 1424(%rsp)
	movq	$0, 1439(%rsp)
	movl	$0, 88(%rsp)
	movl	$0, 91(%rsp)
	movaps	%xmm0, 304(%rsp)
	movaps	%xmm0, 288(%rsp)
	movaps	%xmm0, 1280(%rsp)
	movaps	%xmm0, 1264(%rsp)
	movaps	%xmm0, 1248(%rsp)
	movaps	%xmm0, 1232(%rsp)
	movaps	%xmm0, 1216(%rsp)
	movaps	%xmm0, 1200(%rsp)
	movaps	%xmm0, 1184(%rsp)
	movaps	%xmm0, 1168(%rsp)
	movl	$0, 1295(%rsp)
	movaps	%xmm0, 1600(%rsp)
	movaps	%xmm0, 1584(%rsp)
	movaps	%xmm0, 1568(%rsp)
	movaps	%xmm0, 1552(%rsp)
	movaps	%xmm0, 1536(%rsp)
	movaps	%xmm0, 1520(%rsp)
	movaps	%xmm0, 1504(%rsp)
	movaps	%xmm0, 1488(%rsp)
	movl	$0, 1615(%rsp)
	.p2align	4
.LBB19_25:                              # %loop.2.i.i.i.i
                                        #   Parent Loop BB19_24 Depth=1
                                        # =>  This Inner Loop Header: Depth=2
	#APP
	#NO_APP
	movq	(%r15), %rax
	#APP
	#NO_APP
	movabsq	$9223372036854775806, %rcx      # imm = 0x7FFFFFFFFFFFFFFE
	cmpq	%rcx, %rax
	ja	.LBB19_35
# %bb.26:                               # %then.3.i.i.i.i
                                        #   in Loop: Header=BB19_25 Depth=2
	leaq	1(%rax), %rcx
	#APP
	#NO_APP
	lock		cmpxchgq	%rcx, (%r15)
	#APP
	#NO_APP
	jne	.LBB19_25
# %bb.27:                               # %arm.1.i5
                                        #   in Loop: Header=BB19_24 Depth=1
	movl	%r10d, 100(%rsp)                # 4-byte Spill
	movq	%r9, 136(%rsp)                  # 8-byte Spill
	movq	%r8, 120(%rsp)                  # 8-byte Spill
	movq	%rsi, 144(%rsp)                 # 8-byte Spill
	movq	%rdi, 128(%rsp)                 # 8-byte Spill
	movl	$4, %esi
	movq	%r11, 272(%rsp)                 # 8-byte Spill
	movq	%r11, %rdi
	callq	rattle_alloc@PLT
	testb	$1, %al
	je	.LBB19_40
# %bb.28:                               # %arm.5.i
                                        #   in Loop: Header=BB19_24 Depth=1
	movq	%r12, 208(%rsp)                 # 8-byte Spill
	movl	%r13d, 96(%rsp)                 # 4-byte Spill
	movq	%rdx, %rdi
	xorl	%esi, %esi
	movq	%rdx, %r13
	movq	280(%rsp), %rdx                 # 8-byte Reload
	callq	memset@PLT
	xorps	%xmm0, %xmm0
	leaq	1491(%rsp), %rax
	movups	%xmm0, (%rax)
	movups	%xmm0, 16(%rax)
	movups	%xmm0, 32(%rax)
	movups	%xmm0, 48(%rax)
	movups	%xmm0, 64(%rax)
	movups	%xmm0, 80(%rax)
	movups	%xmm0, 96(%rax)
	movups	%xmm0, 112(%rax)
	leaq	471(%rsp), %r12
	movups	%xmm0, 112(%r12)
	movups	%xmm0, 96(%r12)
	movups	%xmm0, 80(%r12)
	movups	%xmm0, 64(%r12)
	movups	%xmm0, 48(%r12)
	movups	%xmm0, 32(%r12)
	movups	%xmm0, 16(%r12)
	movups	%xmm0, (%r12)
	movl	112(%rsp), %eax
	movl	115(%rsp), %ecx
	movl	%ecx, 19(%rsp)
	movl	%eax, 16(%rsp)
	movaps	1456(%rsp), %xmm0
	movaps	1472(%rsp), %xmm1
	movaps	%xmm0, 160(%rsp)
	movaps	%xmm1, 176(%rsp)
	leaq	320(%rsp), %rdi
	leaq	1488(%rsp), %rsi
	movl	$131, %edx
	callq	memcpy@PLT
	movq	%r13, %rdi
	movq	56(%rsp), %r13
	cmpq	%r13, 64(%rsp)
	je	.LBB19_29
.LBB19_31:                              # %join.3.i15
                                        #   in Loop: Header=BB19_24 Depth=1
	movq	48(%rsp), %rax
	imulq	$408, %r13, %rcx                # imm = 0x198
	movups	112(%r12), %xmm0
	movups	%xmm0, 112(%rax,%rcx)
	movups	96(%r12), %xmm0
	movups	%xmm0, 96(%rax,%rcx)
	movups	80(%r12), %xmm0
	movups	%xmm0, 80(%rax,%rcx)
	movups	64(%r12), %xmm0
	movups	%xmm0, 64(%rax,%rcx)
	movups	(%r12), %xmm0
	movups	16(%r12), %xmm1
	movups	32(%r12), %xmm2
	movups	48(%r12), %xmm3
	movups	%xmm3, 48(%rax,%rcx)
	movups	%xmm2, 32(%rax,%rcx)
	movups	%xmm1, 16(%rax,%rcx)
	movups	%xmm0, (%rax,%rcx)
	movq	%r15, 128(%rax,%rcx)
	movq	120(%rsp), %rdx                 # 8-byte Reload
	movq	%rdx, 136(%rax,%rcx)
	movq	224(%rsp), %rdx                 # 8-byte Reload
	movq	%rdx, 144(%rax,%rcx)
	movq	136(%rsp), %rdx                 # 8-byte Reload
	movq	%rdx, 152(%rax,%rcx)
	movq	128(%rsp), %rdx                 # 8-byte Reload
	movq	%rdx, 160(%rax,%rcx)
	movq	232(%rsp), %rdx                 # 8-byte Reload
	movq	%rdx, 168(%rax,%rcx)
	movq	144(%rsp), %rdx                 # 8-byte Reload
	movq	%rdx, 176(%rax,%rcx)
	movzbl	15(%rsp), %edx                  # 1-byte Folded Reload
	movb	%dl, 184(%rax,%rcx)
	movl	16(%rsp), %edx
	movl	19(%rsp), %esi
	movl	%edx, 185(%rax,%rcx)
	movl	%esi, 188(%rax,%rcx)
	movq	80(%rsp), %rdx                  # 8-byte Reload
	movq	%rdx, 192(%rax,%rcx)
	movaps	160(%rsp), %xmm0
	movaps	176(%rsp), %xmm1
	movups	%xmm1, 216(%rax,%rcx)
	movups	%xmm0, 200(%rax,%rcx)
	movq	%rdi, 232(%rax,%rcx)
	movq	216(%rsp), %rdx                 # 8-byte Reload
	movq	%rdx, 240(%rax,%rcx)
	movq	208(%rsp), %r12                 # 8-byte Reload
	movq	%r12, 248(%rax,%rcx)
	movl	96(%rsp), %ebx                  # 4-byte Reload
	movl	%ebx, 256(%rax,%rcx)
	movl	%ebx, 260(%rax,%rcx)
	movl	32(%rsp), %edx                  # 4-byte Reload
	movl	%edx, 264(%rax,%rcx)
	movl	%edx, 268(%rax,%rcx)
	movl	100(%rsp), %edx                 # 4-byte Reload
	movl	%edx, 272(%rax,%rcx)
	movb	$1, 276(%rax,%rcx)
	leaq	(%rax,%rcx), %rdi
	addq	$277, %rdi                      # imm = 0x115
	leaq	320(%rsp), %rsi
	movl	$131, %edx
	callq	memcpy@PLT
	incq	%r13
	movq	%r13, 56(%rsp)
	movl	%ebx, %r13d
	leaq	1639(%rsp), %rax
	xorps	%xmm0, %xmm0
	movups	%xmm0, (%rax)
	movups	%xmm0, 16(%rax)
	movups	%xmm0, 32(%rax)
	movups	%xmm0, 48(%rax)
	movups	%xmm0, 64(%rax)
	movups	%xmm0, 80(%rax)
	movups	%xmm0, 96(%rax)
	movups	%xmm0, 112(%rax)
	movl	$0, 27(%rsp)
	movl	$0, 24(%rsp)
	movaps	%xmm0, 240(%rsp)
	movaps	%xmm0, 256(%rsp)
	movaps	%xmm0, 1024(%rsp)
	movaps	%xmm0, 1040(%rsp)
	movaps	%xmm0, 1056(%rsp)
	movaps	%xmm0, 1072(%rsp)
	movaps	%xmm0, 1088(%rsp)
	movaps	%xmm0, 1104(%rsp)
	movaps	%xmm0, 1120(%rsp)
	movaps	%xmm0, 1136(%rsp)
	movl	$0, 1151(%rsp)
	testq	%rbp, %rbp
	movq	152(%rsp), %rbx                 # 8-byte Reload
	movq	272(%rsp), %r11                 # 8-byte Reload
	jne	.LBB19_24
	jmp	.LBB19_32
.LBB19_29:                              # %"std_alloc::vec::Vec::grow::<#84f066883e367b44>.exit.i"
                                        #   in Loop: Header=BB19_24 Depth=1
	movq	%rdi, 200(%rsp)                 # 8-byte Spill
	leaq	48(%rsp), %rdi
	callq	"std_alloc::vec::Vec::grow_amortized::<#84f066883e367b44>"
	testb	%al, %al
	je	.LBB19_61
# %bb.30:                               # %"std_alloc::vec::Vec::grow::<#84f066883e367b44>.exit.join.3_crit_edge.i"
                                        #   in Loop: Header=BB19_24 Depth=1
	movq	56(%rsp), %r13
	leaq	471(%rsp), %r12
	movq	200(%rsp), %rdi                 # 8-byte Reload
	jmp	.LBB19_31
.LBB19_35:                              # %arm.2.i
	testq	%r9, %r9
	je	.LBB19_37
# %bb.36:                               # %then.1.i.i.i.i7
	movq	%rdi, %r15
	movq	%r8, %rdi
	movq	%rsi, %r12
	callq	rattle_dealloc@PLT
	movq	%r12, %rsi
	movq	%r15, %rdi
.LBB19_37:                              # %"std_alloc::vec::Vec::drop::<#322702e9d69ed9ef>.exit.i"
	testq	%rsi, %rsi
	je	.LBB19_39
# %bb.38:                               # %then.1.i.i.i21.i
	callq	rattle_dealloc@PLT
.LBB19_39:                              # %"std_alloc::vec::Vec::drop::<#6ccbafbdb3eebed6>.exit.i"
	xorps	%xmm0, %xmm0
	movups	%xmm0, 583(%rsp)
	movups	%xmm0, 567(%rsp)
	movups	%xmm0, 551(%rsp)
	movups	%xmm0, 535(%rsp)
	movups	%xmm0, 519(%rsp)
	movups	%xmm0, 503(%rsp)
	movups	%xmm0, 487(%rsp)
	movups	%xmm0, 471(%rsp)
	movl	$0, 16(%rsp)
	movl	$0, 19(%rsp)
	movaps	%xmm0, 160(%rsp)
	movaps	%xmm0, 176(%rsp)
	movaps	%xmm0, 320(%rsp)
	movaps	%xmm0, 336(%rsp)
	movaps	%xmm0, 352(%rsp)
	movaps	%xmm0, 368(%rsp)
	movaps	%xmm0, 384(%rsp)
	movaps	%xmm0, 400(%rsp)
	movaps	%xmm0, 416(%rsp)
	movaps	%xmm0, 432(%rsp)
	movl	$0, 447(%rsp)
.LBB19_47:                              # %arm.11.critedge.critedge
	movq	48(%rsp), %rax
	movq	%rax, 32(%rsp)                  # 8-byte Spill
	movq	56(%rsp), %r15
	movq	64(%rsp), %rax
	movq	%rax, 80(%rsp)                  # 8-byte Spill
	testq	%r15, %r15
	je	.LBB19_50
# %bb.48:                               # %join.5.i.i.i.i.i28.preheader
	movq	32(%rsp), %r12                  # 8-byte Reload
	.p2align	4
.LBB19_49:                              # %join.5.i.i.i.i.i28
                                        # =>This Inner Loop Header: Depth=1
	leaq	608(%rsp), %r13
	movl	$408, %edx                      # imm = 0x198
	movq	%r13, %rdi
	movq	%r12, %rsi
	callq	memcpy@PLT
	movq	%r13, %rdi
	callq	"scq_port::port::Port::drop"
	addq	$408, %r12                      # imm = 0x198
	decq	%r15
	jne	.LBB19_49
.LBB19_50:                              # %"std_alloc::vec::Vec::clear::<#f0de017f86ad8311>.exit.i"
	cmpq	$0, 80(%rsp)                    # 8-byte Folded Reload
	je	.LBB19_52
# %bb.51:                               # %then.1.i.i.i34
	movq	32(%rsp), %rdi                  # 8-byte Reload
	callq	rattle_dealloc@PLT
.LBB19_52:                              # %"std_alloc::vec::Vec::drop::<#b91858579877d677>.exit"
	testq	%rbp, %rbp
	je	.LBB19_59
# %bb.53:                               # %join.5.i.i.i.i.i42.preheader
	leaq	40(%r14), %r12
	movl	$1, %r13d
	jmp	.LBB19_54
	.p2align	4
.LBB19_58:                              # %"core::mem::drop::<#db57577750518db5>.exit.i.i.i.i.i58"
                                        #   in Loop: Header=BB19_54 Depth=1
	incq	%r13
	addq	$96, %r12
	cmpq	%r13, %rbx
	je	.LBB19_59
.LBB19_54:                              # %join.5.i.i.i.i.i42
                                        # =>This Inner Loop Header: Depth=1
	movq	-16(%r12), %r15
	movq	(%r12), %rbp
	cmpq	$0, -24(%r12)
	je	.LBB19_56
# %bb.55:                               # %then.1.i.i.i.i.i.i.i.i.i.i.i53
                                        #   in Loop: Header=BB19_54 Depth=1
	movq	-40(%r12), %rdi
	callq	rattle_dealloc@PLT
.LBB19_56:                              # %"std_alloc::vec::Vec::drop::<#322702e9d69ed9ef>.exit.i.i.i.i.i.i.i.i55"
                                        #   in Loop: Header=BB19_54 Depth=1
	testq	%rbp, %rbp
	je	.LBB19_58
# %bb.57:                               # %then.1.i.i.i4.i.i.i.i.i.i.i.i57
                                        #   in Loop: Header=BB19_54 Depth=1
	movq	%r15, %rdi
	callq	rattle_dealloc@PLT
	jmp	.LBB19_58
.LBB19_17:                              # %join.8.preheader.i.i.i
	leaq	-2(%rbp), %rax
	shrq	%rax
	incq	%rax
	leaq	(,%rbp,2), %rcx
	addq	%rbp, %rcx
	shlq	$5, %rcx
	addq	%r14, %rcx
	addq	$-96, %rcx
	leaq	-1(%rbp), %rdx
	xorl	%esi, %esi
	movq	%r14, %rdi
	jmp	.LBB19_18
	.p2align	4
.LBB19_19:                              # %then.1.i.i.i.i
                                        #   in Loop: Header=BB19_18 Depth=1
	movups	80(%rdi), %xmm0
	movaps	%xmm0, 688(%rsp)
	movups	64(%rdi), %xmm0
	movaps	%xmm0, 672(%rsp)
	movups	(%rdi), %xmm0
	movups	16(%rdi), %xmm1
	movups	32(%rdi), %xmm2
	movups	48(%rdi), %xmm3
	movaps	%xmm3, 656(%rsp)
	movaps	%xmm2, 640(%rsp)
	movaps	%xmm1, 624(%rsp)
	movaps	%xmm0, 608(%rsp)
	movups	64(%rcx), %xmm0
	movups	80(%rcx), %xmm1
	movups	(%rcx), %xmm2
	movups	16(%rcx), %xmm3
	movups	32(%rcx), %xmm4
	movups	48(%rcx), %xmm5
	movups	%xmm2, (%rdi)
	movups	%xmm1, 80(%rdi)
	movups	%xmm0, 64(%rdi)
	movups	%xmm5, 48(%rdi)
	movups	%xmm4, 32(%rdi)
	movups	%xmm3, 16(%rdi)
	movaps	688(%rsp), %xmm0
	movups	%xmm0, 80(%rcx)
	movaps	672(%rsp), %xmm0
	movups	%xmm0, 64(%rcx)
	movaps	608(%rsp), %xmm0
	movaps	624(%rsp), %xmm1
	movaps	640(%rsp), %xmm2
	movaps	656(%rsp), %xmm3
	movups	%xmm3, 48(%rcx)
	movups	%xmm2, 32(%rcx)
	movups	%xmm1, 16(%rcx)
	movups	%xmm0, (%rcx)
.LBB19_22:                              # %"core::slice::edits::slice+T::swap::<42'scq_queue::pass::Pass::<#5ff1ac3e48fe92e9>>.exit.i.i.i"
                                        #   in Loop: Header=BB19_18 Depth=1
	incq	%rsi
	addq	$96, %rdi
	addq	$-96, %rcx
	decq	%rdx
	cmpq	%rsi, %rax
	je	.LBB19_23
.LBB19_18:                              # %join.8.i.i.i
                                        # =>This Inner Loop Header: Depth=1
	cmpq	%rdx, %rsi
	jb	.LBB19_19
# %bb.20:                               # %else.2.i.i.i.i
                                        #   in Loop: Header=BB19_18 Depth=1
	jbe	.LBB19_22
# %bb.21:                               # %then.4.i.i.i.i
                                        #   in Loop: Header=BB19_18 Depth=1
	movups	80(%rcx), %xmm0
	movaps	%xmm0, 688(%rsp)
	movups	64(%rcx), %xmm0
	movaps	%xmm0, 672(%rsp)
	movups	(%rcx), %xmm0
	movups	16(%rcx), %xmm1
	movups	32(%rcx), %xmm2
	movups	48(%rcx), %xmm3
	movaps	%xmm3, 656(%rsp)
	movaps	%xmm2, 640(%rsp)
	movaps	%xmm1, 624(%rsp)
	movaps	%xmm0, 608(%rsp)
	movups	64(%rdi), %xmm0
	movups	80(%rdi), %xmm1
	movups	(%rdi), %xmm2
	movups	16(%rdi), %xmm3
	movups	32(%rdi), %xmm4
	movups	48(%rdi), %xmm5
	movups	%xmm2, (%rcx)
	movups	%xmm1, 80(%rcx)
	movups	%xmm0, 64(%rcx)
	movups	%xmm5, 48(%rcx)
	movups	%xmm4, 32(%rcx)
	movups	%xmm3, 16(%rcx)
	movaps	688(%rsp), %xmm0
	movups	%xmm0, 80(%rdi)
	movaps	672(%rsp), %xmm0
	movups	%xmm0, 64(%rdi)
	movaps	608(%rsp), %xmm0
	movaps	624(%rsp), %xmm1
	movaps	640(%rsp), %xmm2
	movaps	656(%rsp), %xmm3
	movups	%xmm3, 48(%rdi)
	movups	%xmm2, 32(%rdi)
	movups	%xmm1, 16(%rdi)
	movups	%xmm0, (%rdi)
	jmp	.LBB19_22
.LBB19_40:                              # %arm.6.i
	xorps	%xmm0, %xmm0
	movups	%xmm0, 1431(%rsp)
	movups	%xmm0, 1415(%rsp)
	movups	%xmm0, 1399(%rsp)
	movups	%xmm0, 1383(%rsp)
	movups	%xmm0, 1367(%rsp)
	movups	%xmm0, 1351(%rsp)
	movups	%xmm0, 1335(%rsp)
	movups	%xmm0, 1319(%rsp)
	movl	$0, 88(%rsp)
	movl	$0, 91(%rsp)
	movaps	%xmm0, 288(%rsp)
	movaps	%xmm0, 304(%rsp)
	movaps	%xmm0, 1168(%rsp)
	movaps	%xmm0, 1184(%rsp)
	movaps	%xmm0, 1200(%rsp)
	movaps	%xmm0, 1216(%rsp)
	movaps	%xmm0, 1232(%rsp)
	movaps	%xmm0, 1248(%rsp)
	movaps	%xmm0, 1264(%rsp)
	movaps	%xmm0, 1280(%rsp)
	movl	$0, 1295(%rsp)
	leaq	608(%rsp), %rdi
	movl	$344, %edx                      # imm = 0x158
	xorl	%esi, %esi
	callq	memset@PLT
	#APP
	#NO_APP
	lock		decq	(%r15)
	#APP
	#NO_APP
	jne	.LBB19_42
# %bb.41:                               # %arm.1.i24.i
	leaq	608(%rsp), %r12
	movl	$344, %edx                      # imm = 0x158
	movq	%r12, %rdi
	leaq	8(%r15), %rsi
	callq	memcpy@PLT
	movq	%r15, %rdi
	callq	rattle_dealloc@PLT
	movq	%r12, %rdi
	callq	"scq_port::owner::Owner::drop"
.LBB19_42:                              # %"std_alloc::arc::Arc::drop::<#9f30ca7595de9587>.exit.i"
	cmpq	$0, 136(%rsp)                   # 8-byte Folded Reload
	je	.LBB19_44
# %bb.43:                               # %then.1.i.i.i28.i
	movq	120(%rsp), %rdi                 # 8-byte Reload
	callq	rattle_dealloc@PLT
.LBB19_44:                              # %"std_alloc::vec::Vec::drop::<#322702e9d69ed9ef>.exit30.i"
	cmpq	$0, 144(%rsp)                   # 8-byte Folded Reload
	leaq	471(%rsp), %r15
	je	.LBB19_46
# %bb.45:                               # %then.1.i.i.i34.i
	movq	128(%rsp), %rdi                 # 8-byte Reload
	callq	rattle_dealloc@PLT
.LBB19_46:                              # %"std_alloc::vec::Vec::drop::<#6ccbafbdb3eebed6>.exit36.i"
	leaq	1319(%rsp), %rax
	movups	112(%rax), %xmm0
	movups	%xmm0, 112(%r15)
	movups	96(%rax), %xmm0
	movups	%xmm0, 96(%r15)
	movups	80(%rax), %xmm0
	movups	%xmm0, 80(%r15)
	movups	64(%rax), %xmm0
	movups	%xmm0, 64(%r15)
	movups	(%rax), %xmm0
	movups	16(%rax), %xmm1
	movups	32(%rax), %xmm2
	movups	48(%rax), %xmm3
	movups	%xmm3, 48(%r15)
	movups	%xmm2, 32(%r15)
	movups	%xmm1, 16(%r15)
	movups	%xmm0, (%r15)
	movl	88(%rsp), %eax
	movl	91(%rsp), %ecx
	movl	%ecx, 19(%rsp)
	movl	%eax, 16(%rsp)
	movaps	288(%rsp), %xmm0
	movaps	304(%rsp), %xmm1
	movaps	%xmm0, 160(%rsp)
	movaps	%xmm1, 176(%rsp)
	leaq	320(%rsp), %rdi
	leaq	1168(%rsp), %rsi
	movl	$131, %edx
	callq	memcpy@PLT
	jmp	.LBB19_47
.LBB19_61:                              # %then.1.i16
	leaq	471(%rsp), %rax
	movups	112(%rax), %xmm0
	leaq	1639(%rsp), %r12
	movups	%xmm0, 112(%r12)
	movups	96(%rax), %xmm0
	movups	%xmm0, 96(%r12)
	movups	80(%rax), %xmm0
	movups	%xmm0, 80(%r12)
	movups	64(%rax), %xmm0
	movups	%xmm0, 64(%r12)
	movups	(%rax), %xmm0
	movups	16(%rax), %xmm1
	movups	32(%rax), %xmm2
	movups	48(%rax), %xmm3
	movups	%xmm3, 48(%r12)
	movups	%xmm2, 32(%r12)
	movups	%xmm1, 16(%r12)
	movups	%xmm0, (%r12)
	movl	16(%rsp), %eax
	movl	19(%rsp), %ecx
	movl	%ecx, 27(%rsp)
	movl	%eax, 24(%rsp)
	movaps	160(%rsp), %xmm0
	movaps	176(%rsp), %xmm1
	movaps	%xmm0, 240(%rsp)
	movaps	%xmm1, 256(%rsp)
	leaq	1024(%rsp), %r13
	leaq	320(%rsp), %rsi
	movl	$131, %edx
	movq	%r13, %rdi
	callq	memcpy@PLT
	movups	112(%r12), %xmm0
	movups	96(%r12), %xmm1
	movups	80(%r12), %xmm2
	movups	64(%r12), %xmm3
	movups	(%r12), %xmm4
	movups	16(%r12), %xmm5
	movups	32(%r12), %xmm6
	movups	48(%r12), %xmm7
	movaps	%xmm0, 720(%rsp)
	movaps	%xmm1, 704(%rsp)
	movaps	%xmm2, 688(%rsp)
	movaps	%xmm3, 672(%rsp)
	movaps	%xmm7, 656(%rsp)
	movaps	%xmm6, 640(%rsp)
	movaps	%xmm5, 624(%rsp)
	movaps	%xmm4, 608(%rsp)
	movq	%r15, 736(%rsp)
	movq	120(%rsp), %rax                 # 8-byte Reload
	movq	%rax, 744(%rsp)
	movq	224(%rsp), %rax                 # 8-byte Reload
	movq	%rax, 752(%rsp)
	movq	136(%rsp), %rax                 # 8-byte Reload
	movq	%rax, 760(%rsp)
	movq	128(%rsp), %rax                 # 8-byte Reload
	movq	%rax, 768(%rsp)
	movq	232(%rsp), %rax                 # 8-byte Reload
	movq	%rax, 776(%rsp)
	movq	144(%rsp), %rax                 # 8-byte Reload
	movq	%rax, 784(%rsp)
	movzbl	15(%rsp), %eax                  # 1-byte Folded Reload
	movb	%al, 792(%rsp)
	movl	24(%rsp), %eax
	movl	%eax, 793(%rsp)
	movl	27(%rsp), %eax
	movl	%eax, 796(%rsp)
	movq	80(%rsp), %rax                  # 8-byte Reload
	movq	%rax, 800(%rsp)
	movaps	240(%rsp), %xmm0
	movaps	256(%rsp), %xmm1
	movups	%xmm1, 824(%rsp)
	movups	%xmm0, 808(%rsp)
	movq	200(%rsp), %rax                 # 8-byte Reload
	movq	%rax, 840(%rsp)
	movq	216(%rsp), %rax                 # 8-byte Reload
	movq	%rax, 848(%rsp)
	movq	208(%rsp), %rax                 # 8-byte Reload
	movq	%rax, 856(%rsp)
	movl	96(%rsp), %eax                  # 4-byte Reload
	movl	%eax, 864(%rsp)
	movl	%eax, 868(%rsp)
	movl	32(%rsp), %eax                  # 4-byte Reload
	movl	%eax, 872(%rsp)
	movl	%eax, 876(%rsp)
	movl	100(%rsp), %eax                 # 4-byte Reload
	movl	%eax, 880(%rsp)
	movb	$1, 884(%rsp)
	leaq	885(%rsp), %rdi
	movl	$131, %edx
	movq	%r13, %rsi
	callq	memcpy@PLT
	leaq	608(%rsp), %rdi
	callq	"scq_port::port::Port::drop"
	movq	48(%rsp), %r12
	movq	56(%rsp), %r15
	movq	64(%rsp), %rax
	movq	%rax, 32(%rsp)                  # 8-byte Spill
	movq	%r12, 80(%rsp)                  # 8-byte Spill
	testq	%r15, %r15
	je	.LBB19_63
.LBB19_62:                              # %join.5.i.i.i.i.i74
                                        # =>This Inner Loop Header: Depth=1
	leaq	608(%rsp), %r13
	movl	$408, %edx                      # imm = 0x198
	movq	%r13, %rdi
	movq	%r12, %rsi
	callq	memcpy@PLT
	movq	%r13, %rdi
	callq	"scq_port::port::Port::drop"
	addq	$408, %r12                      # imm = 0x198
	decq	%r15
	jne	.LBB19_62
.LBB19_63:                              # %"std_alloc::vec::Vec::clear::<#f0de017f86ad8311>.exit.i80"
	cmpq	$0, 32(%rsp)                    # 8-byte Folded Reload
	je	.LBB19_65
# %bb.64:                               # %then.1.i.i.i82
	movq	80(%rsp), %rdi                  # 8-byte Reload
	callq	rattle_dealloc@PLT
.LBB19_65:                              # %"std_alloc::vec::Vec::drop::<#b91858579877d677>.exit84"
	testq	%rbp, %rbp
	je	.LBB19_59
# %bb.66:                               # %join.5.i.i.i.i.i91.preheader
	leaq	40(%r14), %r12
	movl	$1, %r13d
	jmp	.LBB19_67
.LBB19_71:                              # %"core::mem::drop::<#db57577750518db5>.exit.i.i.i.i.i107"
                                        #   in Loop: Header=BB19_67 Depth=1
	incq	%r13
	addq	$96, %r12
	cmpq	%r13, %rbx
	je	.LBB19_59
.LBB19_67:                              # %join.5.i.i.i.i.i91
                                        # =>This Inner Loop Header: Depth=1
	movq	-16(%r12), %r15
	movq	(%r12), %rbp
	cmpq	$0, -24(%r12)
	je	.LBB19_69
# %bb.68:                               # %then.1.i.i.i.i.i.i.i.i.i.i.i102
                                        #   in Loop: Header=BB19_67 Depth=1
	movq	-40(%r12), %rdi
	callq	rattle_dealloc@PLT
.LBB19_69:                              # %"std_alloc::vec::Vec::drop::<#322702e9d69ed9ef>.exit.i.i.i.i.i.i.i.i104"
                                        #   in Loop: Header=BB19_67 Depth=1
	testq	%rbp, %rbp
	je	.LBB19_71
# %bb.70:                               # %then.1.i.i.i4.i.i.i.i.i.i.i.i106
                                        #   in Loop: Header=BB19_67 Depth=1
	movq	%r15, %rdi
	callq	rattle_dealloc@PLT
	jmp	.LBB19_71
.LBB19_59:                              # %"std_alloc::vec::Vec::clear::<#6556fae6c29054f4>.exit.i61"
	cmpq	$0, 152(%rsp)                   # 8-byte Folded Reload
	je	.LBB19_13
# %bb.60:                               # %then.1.i.i.i63
	movq	%r14, %rdi
.LBB19_12:                              # %"std_alloc::vec::Vec::drop::<#52900c7b80093fc6>.exit"
	callq	rattle_dealloc@PLT
.LBB19_13:                              # %"std_alloc::vec::Vec::drop::<#52900c7b80093fc6>.exit"
	movq	104(%rsp), %rax                 # 8-byte Reload
	movb	$1, (%rax)
	xorps	%xmm0, %xmm0
	movups	%xmm0, 8(%rax)
	movq	$0, 24(%rax)
.LBB19_14:                              # %"std_alloc::vec::Vec::drop::<#52900c7b80093fc6>.exit"
	addq	$1768, %rsp                     # imm = 0x6E8
	popq	%rbx
	popq	%r12
	popq	%r13
	popq	%r14
	popq	%r15
	popq	%rbp
	retq
.Lfunc_end19:
	.size	"scq_port::opening::ports_of", .Lfunc_end19-"scq_port::opening::ports_of"
                                        # -- End function
	.section	".text.core::slice::edits::mirror::<42'scq_queue::pass::Pass::<#5ff1ac3e48fe92e9>>","ax",@progbits
	.p2align	4                               # -- Begin function core::slice::edits::mirror::<42'scq_queue::pass::Pass::<#5ff1ac3e48fe92e9>>
	.type	"core::slice::edits::mirror::<42'scq_queue::pass::Pass::<#5ff1ac3e48fe92e9>>",@function
"core::slice::edits::mirror::<42'scq_queue::pass::Pass::<#5ff1ac3e48fe92e9>>": # @"core::slice::edits::mirror::<42'scq_queue::pass::Pass::<#5ff1ac3e48fe92e9>>"
# %bb.0:                                # %start
	leaq	(%rdx,%rdx,2), %rax
	shlq	$5, %rax
	addq	%rsi, %rax
	addq	$-96, %rax
	.p2align	4
.LBB20_1:                               # %join.5
                                        # =>This Inner Loop Header: Depth=1
	movups	80(%rdi), %xmm0
	movaps	%xmm0, -24(%rsp)
	movups	64(%rdi), %xmm0
	movaps	%xmm0, -40(%rsp)
	movups	(%rdi), %xmm0
	movups	16(%rdi), %xmm1
	movups	32(%rdi), %xmm2
	movups	48(%rdi), %xmm3
	movaps	%xmm3, -56(%rsp)
	movaps	%xmm2, -72(%rsp)
	movaps	%xmm1, -88(%rsp)
	movaps	%xmm0, -104(%rsp)
	movups	64(%rax), %xmm0
	movups	80(%rax), %xmm1
	movups	(%rax), %xmm2
	movups	16(%rax), %xmm3
	movups	32(%rax), %xmm4
	movups	48(%rax), %xmm5
	movups	%xmm2, (%rdi)
	movups	%xmm1, 80(%rdi)
	movups	%xmm0, 64(%rdi)
	movups	%xmm5, 48(%rdi)
	movups	%xmm4, 32(%rdi)
	movups	%xmm3, 16(%rdi)
	movaps	-24(%rsp), %xmm0
	movups	%xmm0, 80(%rax)
	movaps	-40(%rsp), %xmm0
	movups	%xmm0, 64(%rax)
	movaps	-104(%rsp), %xmm0
	movaps	-88(%rsp), %xmm1
	movaps	-72(%rsp), %xmm2
	movaps	-56(%rsp), %xmm3
	movups	%xmm3, 48(%rax)
	movups	%xmm2, 32(%rax)
	movups	%xmm1, 16(%rax)
	movups	%xmm0, (%rax)
	addq	$96, %rdi
	addq	$-96, %rax
	decq	%rdx
	jne	.LBB20_1
# %bb.2:                                # %after.1
	retq
.Lfunc_end20:
	.size	"core::slice::edits::mirror::<42'scq_queue::pass::Pass::<#5ff1ac3e48fe92e9>>", .Lfunc_end20-"core::slice::edits::mirror::<42'scq_queue::pass::Pass::<#5ff1ac3e48fe92e9>>"
                                        # -- End function
	.section	".text.unlikely.std_alloc::vec::Vec::grow_amortized::<#84f066883e367b44>","ax",@progbits
	.p2align	4                               # -- Begin function std_alloc::vec::Vec::grow_amortized::<#84f066883e367b44>
	.type	"std_alloc::vec::Vec::grow_amortized::<#84f066883e367b44>",@function
"std_alloc::vec::Vec::grow_amortized::<#84f066883e367b44>": # @"std_alloc::vec::Vec::grow_amortized::<#84f066883e367b44>"
# %bb.0:                                # %start
	movq	8(%rdi), %rax
	cmpq	$-1, %rax
	je	.LBB21_5
# %bb.1:                                # %join.3
	pushq	%r14
	pushq	%rbx
	pushq	%rax
	movq	16(%rdi), %rcx
	cmpq	$4, %rax
	movl	$3, %ebx
	cmovaeq	%rax, %rbx
	incq	%rbx
	movq	%rcx, %rsi
	shrq	$62, %rsi
	leaq	(%rcx,%rcx), %rdx
	cmpq	%rdx, %rbx
	cmovaq	%rbx, %rdx
	testq	%rsi, %rsi
	cmoveq	%rdx, %rbx
	movabsq	$22606304011898960, %rsi        # imm = 0x50505050505050
	cmpq	%rsi, %rbx
	ja	.LBB21_6
# %bb.2:                                # %join.3.i
	testq	%rcx, %rcx
	je	.LBB21_8
# %bb.3:                                # %then.1.i.i
	movq	%rdi, %r14
	movq	(%rdi), %rdi
	imulq	$408, %rax, %rsi                # imm = 0x198
	imulq	$408, %rbx, %rdx                # imm = 0x198
	movl	$8, %ecx
	callq	rattle_realloc@PLT
	testb	$1, %al
	je	.LBB21_6
.LBB21_9:                               # %arm.5.i
	movq	%rdx, (%r14)
	movq	%rbx, 16(%r14)
	movb	$1, %al
	addq	$8, %rsp
	popq	%rbx
	popq	%r14
                                        # kill: def $al killed $al killed $eax
	retq
.LBB21_5:
	xorl	%eax, %eax
                                        # kill: def $al killed $al killed $eax
	retq
.LBB21_8:                               # %"std_alloc::vec::resize::<#84f066883e367b44>.exit.i"
	movq	%rdi, %r14
	imulq	$408, %rdx, %rdi                # imm = 0x198
	movl	$8, %esi
	callq	rattle_alloc@PLT
	testb	$1, %al
	jne	.LBB21_9
.LBB21_6:
	xorl	%eax, %eax
	addq	$8, %rsp
	popq	%rbx
	popq	%r14
                                        # kill: def $al killed $al killed $eax
	retq
.Lfunc_end21:
	.size	"std_alloc::vec::Vec::grow_amortized::<#84f066883e367b44>", .Lfunc_end21-"std_alloc::vec::Vec::grow_amortized::<#84f066883e367b44>"
                                        # -- End function
	.section	".text.std_alloc::arc::Arc::drop::<#9f30ca7595de9587>","ax",@progbits
	.p2align	4                               # -- Begin function std_alloc::arc::Arc::drop::<#9f30ca7595de9587>
	.type	"std_alloc::arc::Arc::drop::<#9f30ca7595de9587>",@function
"std_alloc::arc::Arc::drop::<#9f30ca7595de9587>": # @"std_alloc::arc::Arc::drop::<#9f30ca7595de9587>"
# %bb.0:                                # %start
	pushq	%r14
	pushq	%rbx
	subq	$344, %rsp                      # imm = 0x158
	movq	%rdi, %rbx
	movq	%rsp, %rdi
	movl	$344, %edx                      # imm = 0x158
	xorl	%esi, %esi
	callq	memset@PLT
	#APP
	#NO_APP
	lock		decq	(%rbx)
	#APP
	#NO_APP
	jne	.LBB22_2
# %bb.1:                                # %arm.1
	leaq	8(%rbx), %rsi
	movq	%rsp, %r14
	movl	$344, %edx                      # imm = 0x158
	movq	%r14, %rdi
	callq	memcpy@PLT
	movq	%rbx, %rdi
	callq	rattle_dealloc@PLT
	movq	%r14, %rdi
	callq	"scq_port::owner::Owner::drop"
.LBB22_2:                               # %join.4
	addq	$344, %rsp                      # imm = 0x158
	popq	%rbx
	popq	%r14
	retq
.Lfunc_end22:
	.size	"std_alloc::arc::Arc::drop::<#9f30ca7595de9587>", .Lfunc_end22-"std_alloc::arc::Arc::drop::<#9f30ca7595de9587>"
                                        # -- End function
	.section	".text.core::slice::edits::mirror::<20'scq_port::port::Port>","ax",@progbits
	.p2align	4                               # -- Begin function core::slice::edits::mirror::<20'scq_port::port::Port>
	.type	"core::slice::edits::mirror::<20'scq_port::port::Port>",@function
"core::slice::edits::mirror::<20'scq_port::port::Port>": # @"core::slice::edits::mirror::<20'scq_port::port::Port>"
# %bb.0:                                # %start
	pushq	%r15
	pushq	%r14
	pushq	%r12
	pushq	%rbx
	subq	$408, %rsp                      # imm = 0x198
	movq	%rdx, %rbx
	movq	%rdi, %r14
	imulq	$408, %rdx, %rax                # imm = 0x198
	leaq	(%rax,%rsi), %r15
	addq	$-408, %r15                     # imm = 0xFE68
	.p2align	4
.LBB23_1:                               # %join.5
                                        # =>This Inner Loop Header: Depth=1
	movq	%rsp, %r12
	movl	$408, %edx                      # imm = 0x198
	movq	%r12, %rdi
	movq	%r14, %rsi
	callq	memcpy@PLT
	movl	$408, %edx                      # imm = 0x198
	movq	%r14, %rdi
	movq	%r15, %rsi
	callq	memmove@PLT
	movl	$408, %edx                      # imm = 0x198
	movq	%r15, %rdi
	movq	%r12, %rsi
	callq	memcpy@PLT
	addq	$408, %r14                      # imm = 0x198
	addq	$-408, %r15                     # imm = 0xFE68
	decq	%rbx
	jne	.LBB23_1
# %bb.2:                                # %after.1
	addq	$408, %rsp                      # imm = 0x198
	popq	%rbx
	popq	%r12
	popq	%r14
	popq	%r15
	retq
.Lfunc_end23:
	.size	"core::slice::edits::mirror::<20'scq_port::port::Port>", .Lfunc_end23-"core::slice::edits::mirror::<20'scq_port::port::Port>"
                                        # -- End function
	.section	".text.scq_port::port::Port::drop","ax",@progbits
	.p2align	4                               # -- Begin function scq_port::port::Port::drop
	.type	"scq_port::port::Port::drop",@function
"scq_port::port::Port::drop":           # @"scq_port::port::Port::drop"
# %bb.0:                                # %start
	pushq	%rbp
	pushq	%r15
	pushq	%r14
	pushq	%r13
	pushq	%r12
	pushq	%rbx
	subq	$520, %rsp                      # imm = 0x208
	movq	%rdi, %rsi
	xorps	%xmm0, %xmm0
	movaps	%xmm0, 80(%rsp)
	movaps	%xmm0, 64(%rsp)
	movaps	%xmm0, 48(%rsp)
	movaps	%xmm0, 32(%rsp)
	movaps	%xmm0, 16(%rsp)
	movaps	%xmm0, (%rsp)
	movq	$0, 96(%rsp)
	leaq	112(%rsp), %rbx
	movl	$408, %edx                      # imm = 0x198
	movq	%rbx, %rdi
	callq	memcpy@PLT
	movq	%rsp, %rdi
	movq	%rbx, %rsi
	callq	"scq_port::port::Port::close"
	cmpb	$1, (%rsp)
	jne	.LBB24_8
# %bb.1:                                # %arm.1
	movq	32(%rsp), %r15
	movq	48(%rsp), %rbp
	movq	56(%rsp), %r14
	movq	72(%rsp), %r13
	movq	80(%rsp), %rbx
	movq	96(%rsp), %r12
	cmpq	$0, 24(%rsp)
	je	.LBB24_3
# %bb.2:                                # %then.1.i.i.i
	movq	8(%rsp), %rdi
	callq	rattle_dealloc@PLT
.LBB24_3:                               # %"std_alloc::vec::Vec::drop::<#b8ec7c1fdba62451>.exit"
	testq	%rbp, %rbp
	je	.LBB24_5
# %bb.4:                                # %then.1.i.i.i4
	movq	%r15, %rdi
	callq	rattle_dealloc@PLT
.LBB24_5:                               # %"std_alloc::vec::Vec::drop::<#e5207596a7850bb0>.exit"
	testq	%r13, %r13
	je	.LBB24_7
# %bb.6:                                # %then.1.i.i.i9
	movq	%r14, %rdi
	callq	rattle_dealloc@PLT
.LBB24_7:                               # %"std_alloc::vec::Vec::drop::<#8fbe0efc4163dc11>.exit"
	testq	%r12, %r12
	je	.LBB24_8
# %bb.9:                                # %then.1.i.i.i14
	movq	%rbx, %rdi
	addq	$520, %rsp                      # imm = 0x208
	popq	%rbx
	popq	%r12
	popq	%r13
	popq	%r14
	popq	%r15
	popq	%rbp
	jmp	rattle_dealloc@PLT              # TAILCALL
.LBB24_8:                               # %join.4
	addq	$520, %rsp                      # imm = 0x208
	popq	%rbx
	popq	%r12
	popq	%r13
	popq	%r14
	popq	%r15
	popq	%rbp
	retq
.Lfunc_end24:
	.size	"scq_port::port::Port::drop", .Lfunc_end24-"scq_port::port::Port::drop"
                                        # -- End function
	.section	".text.scq_port::port::Port::close","ax",@progbits
	.p2align	4                               # -- Begin function scq_port::port::Port::close
	.type	"scq_port::port::Port::close",@function
"scq_port::port::Port::close":          # @"scq_port::port::Port::close"
# %bb.0:                                # %start
	pushq	%rbp
	pushq	%r15
	pushq	%r14
	pushq	%r13
	pushq	%r12
	pushq	%rbx
	subq	$1032, %rsp                     # imm = 0x408
	movq	%rdi, 240(%rsp)                 # 8-byte Spill
	movq	128(%rsi), %r13
	movq	136(%rsi), %rax
	movq	%rax, 176(%rsp)                 # 8-byte Spill
	movq	152(%rsi), %rax
	movq	%rax, 312(%rsp)                 # 8-byte Spill
	movups	144(%rsi), %xmm2
	movq	160(%rsi), %rax
	movq	%rax, 112(%rsp)                 # 8-byte Spill
	movq	176(%rsi), %rax
	movq	%rax, 144(%rsp)                 # 8-byte Spill
	movups	168(%rsi), %xmm3
	movq	184(%rsi), %rax
	movq	%rax, 120(%rsp)                 # 8-byte Spill
	movq	192(%rsi), %rax
	movq	%rax, 128(%rsp)                 # 8-byte Spill
	movq	232(%rsi), %rdi
	movq	240(%rsi), %rdx
	movq	248(%rsi), %rax
	movq	%rax, 136(%rsp)                 # 8-byte Spill
	movl	272(%rsi), %eax
	movq	%rax, 168(%rsp)                 # 8-byte Spill
	leaq	8(%r13), %r14
	testb	$1, 276(%rsi)
	movups	200(%rsi), %xmm0
	movups	216(%rsi), %xmm1
	movaps	%xmm1, 1008(%rsp)
	movaps	%xmm0, 992(%rsp)
	xorps	%xmm0, %xmm0
	movaps	%xmm0, 480(%rsp)
	movaps	%xmm0, 496(%rsp)
	movaps	%xmm0, 576(%rsp)
	movaps	%xmm0, 560(%rsp)
	je	.LBB25_2
# %bb.1:                                # %then.1.i.i
	movq	(%r14), %rax
	#APP
	#NO_APP
	lock		decq	(%rax)
	#APP
	#NO_APP
.LBB25_2:                               # %"scq_port::retiring::retire.exit.i"
	movaps	992(%rsp), %xmm0
	movaps	1008(%rsp), %xmm1
	movaps	%xmm1, 608(%rsp)
	movaps	%xmm0, 592(%rsp)
	testq	%rdx, %rdx
	je	.LBB25_33
# %bb.3:                                # %arm.3.lr.ph.i.i
	cmpb	$1, 120(%rsp)                   # 1-byte Folded Reload
	jne	.LBB25_4
# %bb.8:                                # %arm.3.i.us.i.preheader
	leaq	(%rdi,%rdx,8), %r9
	addq	$-8, %r9
	.p2align	4
.LBB25_9:                               # %arm.3.i.us.i
                                        # =>This Inner Loop Header: Depth=1
	cmpb	$1, (%r9)
	je	.LBB25_10
# %bb.11:                               # %join.6.i.us.i
                                        #   in Loop: Header=BB25_9 Depth=1
	decq	%rdx
	addq	$-8, %r9
	testq	%rdx, %rdx
	jne	.LBB25_9
.LBB25_33:                              # %after.1.i.i
	cmpq	$0, 136(%rsp)                   # 8-byte Folded Reload
	je	.LBB25_35
# %bb.34:                               # %then.1.i.i.i.i
	movaps	%xmm2, 192(%rsp)                # 16-byte Spill
	movaps	%xmm3, 320(%rsp)                # 16-byte Spill
	callq	rattle_dealloc@PLT
	movaps	320(%rsp), %xmm3                # 16-byte Reload
	movaps	192(%rsp), %xmm2                # 16-byte Reload
.LBB25_35:                              # %"std_alloc::vec::Vec::destroy_empty::<#6d0961a33e8c5300>.exit.i.i"
	movaps	592(%rsp), %xmm0
	movaps	608(%rsp), %xmm1
	movaps	%xmm1, 496(%rsp)
	movaps	%xmm0, 480(%rsp)
	leaq	156(%rsp), %rdi
	xorl	%edx, %edx
	xorl	%r9d, %r9d
	jmp	.LBB25_39
.LBB25_4:
	movq	%r13, 256(%rsp)                 # 8-byte Spill
	jmp	.LBB25_5
	.p2align	4
.LBB25_31:                              # %"scq_band::band::Band::put::<#aae3f6a89b556e54>.exit.i.i"
                                        #   in Loop: Header=BB25_5 Depth=1
	movq	176(%rsp), %rax                 # 8-byte Reload
	movq	192(%rsp), %rcx                 # 8-byte Reload
	movb	$0, (%rax,%rcx)
	movq	112(%rsp), %rax                 # 8-byte Reload
	movq	%r10, (%rax)
	movq	%r10, 8(%rax)
	movq	256(%rsp), %r13                 # 8-byte Reload
.LBB25_32:                              # %join.6.i.i
                                        #   in Loop: Header=BB25_5 Depth=1
	decq	%rdx
	je	.LBB25_33
.LBB25_5:                               # %arm.3.i.i
                                        # =>This Loop Header: Depth=1
                                        #     Child Loop BB25_13 Depth 2
                                        #       Child Loop BB25_22 Depth 3
	cmpb	$1, -8(%rdi,%rdx,8)
	jne	.LBB25_32
# %bb.6:                                # %arm.7.i.i
                                        #   in Loop: Header=BB25_5 Depth=1
	movl	-4(%rdi,%rdx,8), %ecx
	movq	8(%r13), %rax
	movq	96(%r13), %rbx
	movq	48(%rbx), %rsi
	#APP
	#NO_APP
	movl	$1, %r10d
	lock		xaddq	%r10, (%rax,%rsi,8)
	leaq	(%rdi,%rdx,8), %r9
	addq	$-8, %r9
	#APP
	#NO_APP
	cmpq	%r10, 40(%rbx)
	jbe	.LBB25_7
# %bb.12:                               # %join.5.i.lr.ph.i.i
                                        #   in Loop: Header=BB25_5 Depth=1
	movq	%rsi, 320(%rsp)                 # 8-byte Spill
	movq	%rcx, 192(%rsp)                 # 8-byte Spill
	leaq	1(%rcx), %rax
	jmp	.LBB25_13
	.p2align	4
.LBB25_36:                              # %"scq_band::enqueue::place::<#aae3f6a89b556e54>.exit.i.i"
                                        #   in Loop: Header=BB25_13 Depth=2
	movq	48(%rbx), %rax
	movq	(%r14), %rcx
	#APP
	#NO_APP
	movl	$1, %r10d
	lock		xaddq	%r10, (%rcx,%rax,8)
	#APP
	#NO_APP
	cmpq	%r10, 40(%rbx)
	movq	%r11, %rax
	jbe	.LBB25_37
.LBB25_13:                              # %join.5.i.i.i
                                        #   Parent Loop BB25_5 Depth=1
                                        # =>  This Loop Header: Depth=2
                                        #       Child Loop BB25_22 Depth 3
	movl	4(%rbx), %r8d
	movq	%rax, %r11
	addq	%r8, %rax
	movq	%r8, %rbp
	notq	%rbp
	andq	%r10, %rbp
	leaq	(%rax,%rbp,2), %r12
	andl	%r10d, %r8d
	movzbl	68(%rbx), %ecx
	shrq	%cl, %r8
	movl	64(%rbx), %r15d
	andl	%r10d, %r15d
	addq	48(%rbx), %r8
	leaq	-1(,%rbp,2), %rax
	movq	(%r14), %rcx
	shlq	$6, %r15
	leaq	(%r15,%r8,8), %rbp
	#APP
	#NO_APP
	lock		cmpxchgq	%r12, 384(%rcx,%rbp)
	#APP
	#NO_APP
	je	.LBB25_29
# %bb.14:                               # %join.3.i.i.i
                                        #   in Loop: Header=BB25_13 Depth=2
	cmpq	%r12, %rax
	jae	.LBB25_16
# %bb.15:                               # %join.3.i.i.i
                                        #   in Loop: Header=BB25_13 Depth=2
	movl	4(%rbx), %ecx
	leaq	1(,%rcx,2), %rcx
	movq	%rcx, %rbp
	andq	%rax, %rbp
	cmpq	%rcx, %rbp
	jne	.LBB25_16
.LBB25_20:                              # %join.6.i.i.i
                                        #   in Loop: Header=BB25_13 Depth=2
	leaq	(%r15,%r8,8), %rcx
	addq	$384, %rcx                      # imm = 0x180
	movq	(%r14), %rsi
	#APP
	#NO_APP
	lock		cmpxchgq	%r12, (%rsi,%rcx)
	#APP
	#NO_APP
	je	.LBB25_29
# %bb.21:                               # %join.9.i.i.i
                                        #   in Loop: Header=BB25_13 Depth=2
	movl	4(%rbx), %eax
	leaq	(%r11,%rax), %rcx
	movq	%rax, %rsi
	notq	%rsi
	andq	%r10, %rsi
	leaq	(%rcx,%rsi,2), %r8
	movl	64(%rbx), %esi
	andl	%r10d, %esi
	andl	%r10d, %eax
	movzbl	68(%rbx), %ecx
	shrq	%cl, %rax
	addq	48(%rbx), %rax
	shlq	$6, %rsi
	leaq	(%rsi,%rax,8), %r15
	addq	$384, %r15                      # imm = 0x180
	jmp	.LBB25_22
	.p2align	4
.LBB25_28:                              # %arm.3.i.i.i
                                        #   in Loop: Header=BB25_22 Depth=3
	movq	(%r14), %rcx
	#APP
	#NO_APP
	lock		cmpxchgq	%r8, (%rcx,%r15)
	#APP
	#NO_APP
	je	.LBB25_29
.LBB25_22:                              # %loop.2.i70.i.i
                                        #   Parent Loop BB25_5 Depth=1
                                        #     Parent Loop BB25_13 Depth=2
                                        # =>    This Inner Loop Header: Depth=3
	movq	(%r14), %rax
	#APP
	#NO_APP
	movq	(%rax,%r15), %rax
	#APP
	#NO_APP
	cmpq	%r8, %rax
	jae	.LBB25_24
# %bb.23:                               # %loop.2.i70.i.i
                                        #   in Loop: Header=BB25_22 Depth=3
	movl	4(%rbx), %ecx
	leaq	1(,%rcx,2), %rcx
	movq	%rcx, %rsi
	andq	%rax, %rsi
	cmpq	%rcx, %rsi
	je	.LBB25_28
.LBB25_24:                              # %join.3.i.i.i.i
                                        #   in Loop: Header=BB25_22 Depth=3
	movzbl	12(%rbx), %ecx
	movq	%rax, %r12
	shrq	%cl, %r12
	movq	%r12, %rsi
	shrq	%rsi
	movq	%r10, %r13
	shrq	%cl, %r13
	cmpq	%rsi, %r13
	jbe	.LBB25_36
# %bb.25:                               # %join.3.i.i.i.i
                                        #   in Loop: Header=BB25_22 Depth=3
	movq	32(%rbx), %rcx
	movl	%ecx, %esi
	andl	%eax, %esi
	cmpq	%rsi, %rcx
	jne	.LBB25_36
# %bb.26:                               # %join.9.i.i.i.i
                                        #   in Loop: Header=BB25_22 Depth=3
	testb	$1, %r12b
	jne	.LBB25_28
# %bb.27:                               # %"scq_band::enqueue::load_vacant::<#aae3f6a89b556e54>.exit.i.i"
                                        #   in Loop: Header=BB25_22 Depth=3
	movq	48(%rbx), %rcx
	movq	(%r14), %rsi
	#APP
	#NO_APP
	movq	128(%rsi,%rcx,8), %rcx
	#APP
	#NO_APP
	cmpq	%rcx, %r10
	jae	.LBB25_28
	jmp	.LBB25_36
	.p2align	4
.LBB25_16:                              # %join.3.i43.i.i
                                        #   in Loop: Header=BB25_13 Depth=2
	movzbl	12(%rbx), %ecx
	movq	%rax, %r13
	shrq	%cl, %r13
	movq	%r13, %rbp
	shrq	%rbp
	movq	%r10, %rsi
	shrq	%cl, %rsi
	cmpq	%rbp, %rsi
	jbe	.LBB25_36
# %bb.17:                               # %join.3.i43.i.i
                                        #   in Loop: Header=BB25_13 Depth=2
	movq	32(%rbx), %rcx
	movl	%ecx, %esi
	andl	%eax, %esi
	cmpq	%rsi, %rcx
	jne	.LBB25_36
# %bb.18:                               # %join.9.i56.i.i
                                        #   in Loop: Header=BB25_13 Depth=2
	testb	$1, %r13b
	jne	.LBB25_20
# %bb.19:                               # %"scq_band::enqueue::has_room::<#aae3f6a89b556e54>.exit.i.i"
                                        #   in Loop: Header=BB25_13 Depth=2
	movq	48(%rbx), %rcx
	movq	(%r14), %rsi
	#APP
	#NO_APP
	movq	128(%rsi,%rcx,8), %rcx
	#APP
	#NO_APP
	cmpq	%rcx, %r10
	jb	.LBB25_36
	jmp	.LBB25_20
	.p2align	4
.LBB25_29:                              # %then.7.i.i.i
                                        #   in Loop: Header=BB25_5 Depth=1
	movq	(%r14), %rax
	#APP
	#NO_APP
	movq	320(%rsp), %rsi                 # 8-byte Reload
	movq	256(%rax,%rsi,8), %rcx
	#APP
	#NO_APP
	movq	56(%rbx), %rax
	cmpq	%rax, %rcx
	je	.LBB25_31
# %bb.30:                               # %then.1.i.i.i
                                        #   in Loop: Header=BB25_5 Depth=1
	movq	(%r14), %rcx
	#APP
	#NO_APP
	xchgq	%rax, 256(%rcx,%rsi,8)
	#APP
	#NO_APP
	jmp	.LBB25_31
.LBB25_10:                              # %arm.7.i.us.i
	movl	4(%r9), %ecx
	jmp	.LBB25_38
.LBB25_37:
	movl	$1, %eax
	movq	%rax, 120(%rsp)                 # 8-byte Spill
	movq	%r10, 128(%rsp)                 # 8-byte Spill
	movq	256(%rsp), %r13                 # 8-byte Reload
	movq	192(%rsp), %rcx                 # 8-byte Reload
	jmp	.LBB25_38
.LBB25_7:
	movl	$1, %eax
	movq	%rax, 120(%rsp)                 # 8-byte Spill
	movq	%r10, 128(%rsp)                 # 8-byte Spill
.LBB25_38:                              # %arm.10.i.i
	movl	$1, (%r9)
	movl	%ecx, 4(%r9)
	movaps	592(%rsp), %xmm0
	movaps	608(%rsp), %xmm1
	movaps	%xmm1, 496(%rsp)
	movaps	%xmm0, 480(%rsp)
	movq	136(%rsp), %r9                  # 8-byte Reload
.LBB25_39:                              # %"scq_port::letting_go::let_go.exit.i"
	movaps	480(%rsp), %xmm0
	movaps	496(%rsp), %xmm1
	movaps	%xmm1, 608(%rsp)
	movaps	%xmm0, 592(%rsp)
	movq	240(%r13), %rax
	#APP
	#NO_APP
	movl	$1, %ecx
	movq	168(%rsp), %r8                  # 8-byte Reload
	xchgq	%rcx, (%rax,%r8,8)
	#APP
	#NO_APP
	testq	%rcx, %rcx
	je	.LBB25_48
# %bb.40:                               # %then.1.i17.i
	testq	%r9, %r9
	je	.LBB25_42
# %bb.41:                               # %then.1.i.i.i.i.i.i
	callq	rattle_dealloc@PLT
.LBB25_42:                              # %"scq_port::leaving::drop_slots.exit.i.i.i"
	cmpq	$0, 312(%rsp)                   # 8-byte Folded Reload
	je	.LBB25_44
# %bb.43:                               # %then.1.i.i.i5.i.i.i
	movq	176(%rsp), %rdi                 # 8-byte Reload
	callq	rattle_dealloc@PLT
.LBB25_44:                              # %"std_alloc::vec::Vec::drop::<#322702e9d69ed9ef>.exit.i.i.i"
	cmpq	$0, 144(%rsp)                   # 8-byte Folded Reload
	je	.LBB25_46
# %bb.45:                               # %then.1.i.i.i10.i.i.i
	movq	112(%rsp), %rdi                 # 8-byte Reload
	callq	rattle_dealloc@PLT
.LBB25_46:                              # %arm.2.i
	leaq	592(%rsp), %rdi
	movl	$344, %edx                      # imm = 0x158
	xorl	%esi, %esi
	callq	memset@PLT
	#APP
	#NO_APP
	lock		decq	(%r13)
	#APP
	#NO_APP
	jne	.LBB25_100
# %bb.47:                               # %arm.1.i25.i
	leaq	592(%rsp), %rbx
	movl	$344, %edx                      # imm = 0x158
	movq	%rbx, %rdi
	movq	%r14, %rsi
	callq	memcpy@PLT
	movq	%r13, %rdi
	callq	rattle_dealloc@PLT
	movq	%rbx, %rdi
	callq	"scq_port::owner::Owner::drop"
	jmp	.LBB25_100
.LBB25_48:                              # %join.3.i.i
	movq	248(%r13), %rsi
	movq	%r8, %r10
	shlq	$7, %r10
	movq	8(%rsi,%r10), %r14
	movq	24(%rsi,%r10), %r12
	movq	32(%rsi,%r10), %rbx
	movq	48(%rsi,%r10), %r15
	movq	104(%rsi,%r10), %rax
	movq	120(%rsi,%r10), %rcx
	cmpb	$0, (%rsi,%r10)
	movq	$1, (%rsi,%r10)
	movq	%r9, %r11
	movq	176(%rsp), %r9                  # 8-byte Reload
	movq	%r9, 8(%rsi,%r10)
	movups	%xmm2, 16(%rsi,%r10)
	movq	112(%rsp), %r9                  # 8-byte Reload
	movq	%r9, 32(%rsi,%r10)
	movups	%xmm3, 40(%rsi,%r10)
	movq	120(%rsp), %r9                  # 8-byte Reload
	movq	%r9, 56(%rsi,%r10)
	movq	128(%rsp), %r9                  # 8-byte Reload
	movq	%r9, 64(%rsi,%r10)
	movaps	592(%rsp), %xmm0
	movaps	608(%rsp), %xmm1
	movups	%xmm0, 72(%rsi,%r10)
	movups	%xmm1, 88(%rsi,%r10)
	movq	%rdi, 104(%rsi,%r10)
	movq	%rdx, 112(%rsi,%r10)
	movq	%r11, 120(%rsi,%r10)
	je	.LBB25_55
# %bb.49:                               # %arm.2.i.i.i.i
	testq	%rcx, %rcx
	je	.LBB25_51
# %bb.50:                               # %then.1.i.i.i.i.i.i.i.i
	movq	%rax, %rdi
	callq	rattle_dealloc@PLT
	movq	168(%rsp), %r8                  # 8-byte Reload
.LBB25_51:                              # %"scq_port::leaving::drop_slots.exit.i.i.i.i.i"
	testq	%r12, %r12
	je	.LBB25_53
# %bb.52:                               # %then.1.i.i.i5.i.i.i.i.i
	movq	%r14, %rdi
	callq	rattle_dealloc@PLT
	movq	168(%rsp), %r8                  # 8-byte Reload
.LBB25_53:                              # %"std_alloc::vec::Vec::drop::<#322702e9d69ed9ef>.exit.i.i.i.i.i"
	testq	%r15, %r15
	je	.LBB25_55
# %bb.54:                               # %then.1.i.i.i10.i.i.i.i.i
	movq	%rbx, %rdi
	callq	rattle_dealloc@PLT
	movq	168(%rsp), %r8                  # 8-byte Reload
.LBB25_55:                              # %arm.1.i
	movq	240(%r13), %rax
	#APP
	#NO_APP
	movl	$2, %ecx
	xchgq	%rcx, (%rax,%r8,8)
	#APP
	#NO_APP
	xorps	%xmm0, %xmm0
	movaps	%xmm0, 592(%rsp)
	movaps	%xmm0, 16(%rsp)
	#APP
	#NO_APP
	lock		decq	(%r13)
	#APP
	#NO_APP
	jne	.LBB25_100
# %bb.56:                               # %arm.5.i
	movq	8(%r13), %rax
	movq	%rax, 248(%rsp)                 # 8-byte Spill
	movups	16(%r13), %xmm0
	movaps	%xmm0, 592(%rsp)
	movq	32(%r13), %rax
	movq	%rax, 384(%rsp)                 # 8-byte Spill
	movq	40(%r13), %rax
	movq	%rax, 368(%rsp)                 # 8-byte Spill
	movq	48(%r13), %rax
	movq	%rax, 528(%rsp)                 # 8-byte Spill
	movq	56(%r13), %rax
	movq	%rax, 376(%rsp)                 # 8-byte Spill
	movq	64(%r13), %rax
	movq	%rax, 520(%rsp)                 # 8-byte Spill
	movl	72(%r13), %eax
	movq	%rax, 344(%rsp)                 # 8-byte Spill
	movl	76(%r13), %eax
	movq	%rax, 232(%rsp)                 # 8-byte Spill
	movups	80(%r13), %xmm0
	movaps	%xmm0, 16(%rsp)
	movq	96(%r13), %rax
	movq	%rax, 352(%rsp)                 # 8-byte Spill
	movq	112(%r13), %rax
	movq	%rax, 512(%rsp)                 # 8-byte Spill
	movups	104(%r13), %xmm0
	movaps	%xmm0, 944(%rsp)                # 16-byte Spill
	movq	120(%r13), %rbx
	movq	128(%r13), %rax
	movq	%rax, 424(%rsp)                 # 8-byte Spill
	movq	136(%r13), %rax
	movq	%rax, 416(%rsp)                 # 8-byte Spill
	movq	%r13, %rdi
	movq	144(%r13), %r13
	movq	152(%rdi), %rax
	movq	%rax, 272(%rsp)                 # 8-byte Spill
	movq	160(%rdi), %rax
	movq	%rax, 408(%rsp)                 # 8-byte Spill
	movq	168(%rdi), %rax
	movq	%rax, 216(%rsp)                 # 8-byte Spill
	movq	176(%rdi), %rax
	movq	%rax, 112(%rsp)                 # 8-byte Spill
	movq	184(%rdi), %rax
	movq	%rax, 360(%rsp)                 # 8-byte Spill
	movq	192(%rdi), %rax
	movq	%rax, 288(%rsp)                 # 8-byte Spill
	movq	200(%rdi), %rax
	movq	%rax, 160(%rsp)                 # 8-byte Spill
	movq	208(%rdi), %rax
	movq	%rax, 400(%rsp)                 # 8-byte Spill
	movq	216(%rdi), %rax
	movq	%rax, 280(%rsp)                 # 8-byte Spill
	movq	224(%rdi), %rax
	movq	%rax, 224(%rsp)                 # 8-byte Spill
	movq	232(%rdi), %rax
	movq	%rax, 392(%rsp)                 # 8-byte Spill
	movq	240(%rdi), %rax
	movq	%rax, 168(%rsp)                 # 8-byte Spill
	movq	248(%rdi), %r12
	movq	264(%rdi), %rbp
	movq	272(%rdi), %rax
	movq	%rax, 536(%rsp)                 # 8-byte Spill
	movq	288(%rdi), %rax
	movq	%rax, 544(%rsp)                 # 8-byte Spill
	movq	304(%rdi), %rax
	movq	%rax, 8(%rsp)                   # 8-byte Spill
	movq	312(%rdi), %rax
	movq	%rax, 120(%rsp)                 # 8-byte Spill
	movq	320(%rdi), %rax
	movq	%rax, 440(%rsp)                 # 8-byte Spill
	movq	328(%rdi), %r14
	movq	336(%rdi), %r15
	movq	344(%rdi), %rax
	movq	%rax, 304(%rsp)                 # 8-byte Spill
	callq	rattle_dealloc@PLT
	movaps	592(%rsp), %xmm0
	movaps	%xmm0, 576(%rsp)
	movaps	16(%rsp), %xmm0
	movaps	%xmm0, 560(%rsp)
	xorps	%xmm0, %xmm0
	movaps	%xmm0, 800(%rsp)
	movaps	%xmm0, 784(%rsp)
	movaps	%xmm0, 768(%rsp)
	movaps	%xmm0, 752(%rsp)
	movaps	%xmm0, 736(%rsp)
	movaps	%xmm0, 720(%rsp)
	movaps	%xmm0, 704(%rsp)
	movaps	%xmm0, 688(%rsp)
	movaps	%xmm0, 672(%rsp)
	movaps	%xmm0, 656(%rsp)
	movaps	%xmm0, 640(%rsp)
	movaps	%xmm0, 624(%rsp)
	movaps	%xmm0, 608(%rsp)
	movaps	%xmm0, 592(%rsp)
	movq	$0, 816(%rsp)
	movq	%rbp, 176(%rsp)                 # 8-byte Spill
	testq	%rbp, %rbp
	movq	%rbx, 432(%rsp)                 # 8-byte Spill
	movq	%r13, 296(%rsp)                 # 8-byte Spill
	je	.LBB25_57
# %bb.58:                               # %join.5.i.i36.i.preheader
	xorl	%r13d, %r13d
	jmp	.LBB25_59
	.p2align	4
.LBB25_85:                              # %join.19.i.i.i
                                        #   in Loop: Header=BB25_59 Depth=1
	incq	%r13
	cmpq	176(%rsp), %r13                 # 8-byte Folded Reload
	je	.LBB25_86
.LBB25_59:                              # %join.5.i.i36.i
                                        # =>This Loop Header: Depth=1
                                        #     Child Loop BB25_63 Depth 2
	movq	%r13, %rax
	shlq	$7, %rax
	movzbl	(%r12,%rax), %r9d
	movq	8(%r12,%rax), %r8
	movq	24(%r12,%rax), %rbp
	movq	32(%r12,%rax), %rcx
	movq	%rcx, 192(%rsp)                 # 8-byte Spill
	movq	48(%r12,%rax), %rcx
	movq	%rcx, 320(%rsp)                 # 8-byte Spill
	movq	104(%r12,%rax), %rbx
	movq	120(%r12,%rax), %r10
	movq	168(%rsp), %rcx                 # 8-byte Reload
	movq	(%rcx,%r13,8), %r11
	cmpq	$2, %r11
	jne	.LBB25_77
# %bb.60:                               # %then.6.i.i.i
                                        #   in Loop: Header=BB25_59 Depth=1
	cmpb	$1, %r9b
	jne	.LBB25_184
# %bb.61:                               # %arm.9.i.i.i
                                        #   in Loop: Header=BB25_59 Depth=1
	movups	16(%r12,%rax), %xmm3
	movups	40(%r12,%rax), %xmm2
	movzbl	56(%r12,%rax), %ecx
	movb	%cl, 256(%rsp)                  # 1-byte Spill
	leaq	(%r12,%rax), %rcx
	addq	$57, %rcx
	movq	64(%r12,%rax), %rdi
	movq	112(%r12,%rax), %rax
	movl	(%rcx), %edx
	movl	3(%rcx), %esi
	movl	%edx, 264(%rsp)
	movl	%esi, 267(%rsp)
	movups	15(%rcx), %xmm0
	movups	31(%rcx), %xmm1
	movaps	%xmm0, 16(%rsp)
	movaps	%xmm1, 32(%rsp)
	testq	%rax, %rax
	je	.LBB25_74
# %bb.62:                               # %arm.3.i.i.i.i.preheader
                                        #   in Loop: Header=BB25_59 Depth=1
	decq	%rax
	movq	304(%rsp), %rdx                 # 8-byte Reload
	jmp	.LBB25_63
	.p2align	4
.LBB25_73:                              # %join.6.i.i.i.i
                                        #   in Loop: Header=BB25_63 Depth=2
	addq	$-1, %rax
	jae	.LBB25_74
.LBB25_63:                              # %arm.3.i.i.i.i
                                        #   Parent Loop BB25_59 Depth=1
                                        # =>  This Inner Loop Header: Depth=2
	cmpb	$1, (%rbx,%rax,8)
	jne	.LBB25_73
# %bb.64:                               # %arm.7.i.i.i.i
                                        #   in Loop: Header=BB25_63 Depth=2
	cmpq	%r15, %rdx
	jbe	.LBB25_65
# %bb.72:                               # %join.12.i.i.i.i
                                        #   in Loop: Header=BB25_63 Depth=2
	movl	4(%rbx,%rax,8), %ecx
	movl	%ecx, (%r14,%r15,4)
	incq	%r15
	jmp	.LBB25_73
	.p2align	4
.LBB25_74:                              # %after.1.i.i.i.i
                                        #   in Loop: Header=BB25_59 Depth=1
	movq	%rdi, 312(%rsp)                 # 8-byte Spill
	testq	%r10, %r10
	je	.LBB25_76
# %bb.75:                               # %then.1.i.i.i.i.i39.i
                                        #   in Loop: Header=BB25_59 Depth=1
	movq	%rbx, %rdi
	movq	%rbp, 552(%rsp)                 # 8-byte Spill
	movq	%r8, 128(%rsp)                  # 8-byte Spill
	movl	%r9d, %ebp
	movq	%r10, 136(%rsp)                 # 8-byte Spill
	movq	%r11, 144(%rsp)                 # 8-byte Spill
	movaps	%xmm2, 976(%rsp)                # 16-byte Spill
	movaps	%xmm3, 960(%rsp)                # 16-byte Spill
	callq	rattle_dealloc@PLT
	movaps	960(%rsp), %xmm3                # 16-byte Reload
	movaps	976(%rsp), %xmm2                # 16-byte Reload
	movq	144(%rsp), %r11                 # 8-byte Reload
	movq	136(%rsp), %r10                 # 8-byte Reload
	movl	%ebp, %r9d
	movq	128(%rsp), %r8                  # 8-byte Reload
	movq	552(%rsp), %rbp                 # 8-byte Reload
.LBB25_76:                              # %arm.14.i.i.i
                                        #   in Loop: Header=BB25_59 Depth=1
	movl	264(%rsp), %eax
	movl	267(%rsp), %ecx
	movl	%ecx, 187(%rsp)
	movl	%eax, 184(%rsp)
	movaps	16(%rsp), %xmm0
	movaps	32(%rsp), %xmm1
	movaps	%xmm0, 448(%rsp)
	movaps	%xmm1, 464(%rsp)
	movq	120(%rsp), %rdi                 # 8-byte Reload
	leaq	(%rdi,%rdi,2), %rax
	shlq	$5, %rax
	movq	8(%rsp), %rsi                   # 8-byte Reload
	movq	%r8, (%rsi,%rax)
	movups	%xmm3, 8(%rsi,%rax)
	movq	192(%rsp), %rcx                 # 8-byte Reload
	movq	%rcx, 24(%rsi,%rax)
	movups	%xmm2, 32(%rsi,%rax)
	movzbl	256(%rsp), %ecx                 # 1-byte Folded Reload
	movb	%cl, 48(%rsi,%rax)
	movl	184(%rsp), %ecx
	movl	187(%rsp), %edx
	movl	%ecx, 49(%rsi,%rax)
	movl	%edx, 52(%rsi,%rax)
	movq	312(%rsp), %rcx                 # 8-byte Reload
	movq	%rcx, 56(%rsi,%rax)
	movaps	448(%rsp), %xmm0
	movaps	464(%rsp), %xmm1
	movups	%xmm0, 64(%rsi,%rax)
	movups	%xmm1, 80(%rsi,%rax)
	incq	%rdi
	movq	%rdi, 120(%rsp)                 # 8-byte Spill
.LBB25_77:                              # %join.8.i.i.i
                                        #   in Loop: Header=BB25_59 Depth=1
	cmpq	$2, %r11
	je	.LBB25_85
.LBB25_78:                              # %join.8.i.i.i
                                        #   in Loop: Header=BB25_59 Depth=1
	cmpb	$1, %r9b
	jne	.LBB25_85
# %bb.79:                               # %arm.20.i.i.i
                                        #   in Loop: Header=BB25_59 Depth=1
	testq	%r10, %r10
	je	.LBB25_81
# %bb.80:                               # %then.1.i.i.i.i24.i.i.i
                                        #   in Loop: Header=BB25_59 Depth=1
	movq	%rbx, %rdi
	movq	%r8, %rbx
	callq	rattle_dealloc@PLT
	movq	%rbx, %r8
.LBB25_81:                              # %"scq_port::leaving::drop_slots.exit.i26.i.i.i"
                                        #   in Loop: Header=BB25_59 Depth=1
	testq	%rbp, %rbp
	je	.LBB25_83
# %bb.82:                               # %then.1.i.i.i5.i.i.i.i
                                        #   in Loop: Header=BB25_59 Depth=1
	movq	%r8, %rdi
	callq	rattle_dealloc@PLT
.LBB25_83:                              # %"std_alloc::vec::Vec::drop::<#322702e9d69ed9ef>.exit.i27.i.i.i"
                                        #   in Loop: Header=BB25_59 Depth=1
	cmpq	$0, 320(%rsp)                   # 8-byte Folded Reload
	je	.LBB25_85
# %bb.84:                               # %then.1.i.i.i10.i.i.i.i
                                        #   in Loop: Header=BB25_59 Depth=1
	movq	192(%rsp), %rdi                 # 8-byte Reload
	callq	rattle_dealloc@PLT
	jmp	.LBB25_85
.LBB25_65:                              # %then.10.i.i.i.i
                                        #   in Loop: Header=BB25_59 Depth=1
	movq	%r8, 128(%rsp)                  # 8-byte Spill
	testq	%r10, %r10
	movb	%r9b, 7(%rsp)                   # 1-byte Spill
	movq	%r10, 136(%rsp)                 # 8-byte Spill
	movq	%r11, 144(%rsp)                 # 8-byte Spill
	je	.LBB25_67
# %bb.66:                               # %then.1.i.i.i.i.i.i.i
                                        #   in Loop: Header=BB25_59 Depth=1
	movq	%rbx, %rdi
	callq	rattle_dealloc@PLT
	movq	144(%rsp), %r11                 # 8-byte Reload
	movq	136(%rsp), %r10                 # 8-byte Reload
	movzbl	7(%rsp), %r9d                   # 1-byte Folded Reload
.LBB25_67:                              # %"scq_port::leaving::drop_slots.exit.i.i.i.i"
                                        #   in Loop: Header=BB25_59 Depth=1
	testq	%rbp, %rbp
	je	.LBB25_69
# %bb.68:                               # %then.1.i.i.i16.i.i.i.i
                                        #   in Loop: Header=BB25_59 Depth=1
	movq	128(%rsp), %rdi                 # 8-byte Reload
	callq	rattle_dealloc@PLT
	movq	144(%rsp), %r11                 # 8-byte Reload
	movq	136(%rsp), %r10                 # 8-byte Reload
	movzbl	7(%rsp), %r9d                   # 1-byte Folded Reload
.LBB25_69:                              # %"std_alloc::vec::Vec::drop::<#322702e9d69ed9ef>.exit.i.i.i.i"
                                        #   in Loop: Header=BB25_59 Depth=1
	cmpq	$0, 320(%rsp)                   # 8-byte Folded Reload
	je	.LBB25_71
# %bb.70:                               # %then.1.i.i.i21.i.i.i.i
                                        #   in Loop: Header=BB25_59 Depth=1
	movq	192(%rsp), %rdi                 # 8-byte Reload
	callq	rattle_dealloc@PLT
	movq	144(%rsp), %r11                 # 8-byte Reload
	movq	136(%rsp), %r10                 # 8-byte Reload
	movzbl	7(%rsp), %r9d                   # 1-byte Folded Reload
.LBB25_71:                              # %"scq_port::leaving::Leaving::unpack.exit.i.i.i"
                                        #   in Loop: Header=BB25_59 Depth=1
	movl	$0, 187(%rsp)
	movl	$0, 184(%rsp)
	xorps	%xmm0, %xmm0
	movaps	%xmm0, 448(%rsp)
	movaps	%xmm0, 464(%rsp)
	movq	128(%rsp), %r8                  # 8-byte Reload
	cmpq	$2, %r11
	jne	.LBB25_78
	jmp	.LBB25_85
.LBB25_86:                              # %after.1.loopexit.i.i.i
	movq	120(%rsp), %r13                 # 8-byte Reload
	cmpq	176(%rsp), %r13                 # 8-byte Folded Reload
	setb	%bl
	jmp	.LBB25_87
.LBB25_57:
	xorl	%ebx, %ebx
	movq	120(%rsp), %r13                 # 8-byte Reload
.LBB25_87:                              # %after.1.i.i.i
	movq	224(%rsp), %rbp                 # 8-byte Reload
	movq	536(%rsp), %rdi                 # 8-byte Reload
	callq	rattle_dealloc@PLT
	movq	544(%rsp), %rdi                 # 8-byte Reload
	callq	rattle_dealloc@PLT
	testb	%bl, %bl
	je	.LBB25_101
# %bb.88:                               # %then.23.i.i.i
	cmpq	$0, 304(%rsp)                   # 8-byte Folded Reload
	je	.LBB25_90
# %bb.89:                               # %then.1.i.i.i33.i.i.i
	movq	%r14, %rdi
	callq	rattle_dealloc@PLT
.LBB25_90:                              # %"scq_port::leaving::drop_values.exit.i.i.i"
	movq	%r13, %r12
	testq	%r13, %r13
	movq	160(%rsp), %r13                 # 8-byte Reload
	je	.LBB25_97
# %bb.91:                               # %join.5.i.i.i.i.i.i.i.i.preheader
	movq	8(%rsp), %rax                   # 8-byte Reload
	leaq	40(%rax), %r14
	jmp	.LBB25_92
	.p2align	4
.LBB25_96:                              # %"core::mem::drop::<#db57577750518db5>.exit.i.i.i.i.i.i.i.i"
                                        #   in Loop: Header=BB25_92 Depth=1
	addq	$96, %r14
	decq	%r12
	je	.LBB25_97
.LBB25_92:                              # %join.5.i.i.i.i.i.i.i.i
                                        # =>This Inner Loop Header: Depth=1
	movq	-16(%r14), %rbx
	movq	(%r14), %r15
	cmpq	$0, -24(%r14)
	je	.LBB25_94
# %bb.93:                               # %then.1.i.i.i.i.i.i.i.i.i.i.i.i.i.i
                                        #   in Loop: Header=BB25_92 Depth=1
	movq	-40(%r14), %rdi
	callq	rattle_dealloc@PLT
.LBB25_94:                              # %"std_alloc::vec::Vec::drop::<#322702e9d69ed9ef>.exit.i.i.i.i.i.i.i.i.i.i.i"
                                        #   in Loop: Header=BB25_92 Depth=1
	testq	%r15, %r15
	je	.LBB25_96
# %bb.95:                               # %then.1.i.i.i4.i.i.i.i.i.i.i.i.i.i.i
                                        #   in Loop: Header=BB25_92 Depth=1
	movq	%rbx, %rdi
	callq	rattle_dealloc@PLT
	jmp	.LBB25_96
.LBB25_101:                             # %arm.1.i40.i
	cmpq	$15, %r13
	jbe	.LBB25_102
# %bb.136:                              # %"std_alloc::vec::Vec::reverse::<#2923e4ee7bb015e8>.exit.thread.i.i.i.i"
	movq	%r13, %rdx
	shrq	%rdx
	movq	%r13, %rax
	subq	%rdx, %rax
	leaq	(%rax,%rax,2), %rsi
	shlq	$5, %rsi
	movq	8(%rsp), %rdi                   # 8-byte Reload
	addq	%rdi, %rsi
	callq	"core::slice::edits::mirror::<42'scq_queue::pass::Pass::<#5ff1ac3e48fe92e9>>"
	movq	160(%rsp), %r8                  # 8-byte Reload
	movq	112(%rsp), %r12                 # 8-byte Reload
	jmp	.LBB25_137
.LBB25_97:                              # %"std_alloc::vec::Vec::clear::<#6556fae6c29054f4>.exit.i.i.i.i"
	cmpq	$0, 440(%rsp)                   # 8-byte Folded Reload
	je	.LBB25_99
# %bb.98:                               # %then.1.i.i.i39.i.i.i
	movq	8(%rsp), %rdi                   # 8-byte Reload
	callq	rattle_dealloc@PLT
.LBB25_99:                              # %arm.2.i.i
	movq	248(%rsp), %rax                 # 8-byte Reload
	movq	%rax, 592(%rsp)
	movaps	576(%rsp), %xmm0
	movups	%xmm0, 600(%rsp)
	movq	384(%rsp), %rax                 # 8-byte Reload
	movq	%rax, 616(%rsp)
	movq	368(%rsp), %rax                 # 8-byte Reload
	movq	%rax, 624(%rsp)
	movq	528(%rsp), %rax                 # 8-byte Reload
	movq	%rax, 632(%rsp)
	movq	376(%rsp), %rax                 # 8-byte Reload
	movq	%rax, 640(%rsp)
	movq	520(%rsp), %rax                 # 8-byte Reload
	movq	%rax, 648(%rsp)
	movq	344(%rsp), %rax                 # 8-byte Reload
	movl	%eax, 656(%rsp)
	movq	232(%rsp), %rax                 # 8-byte Reload
	movl	%eax, 660(%rsp)
	movaps	560(%rsp), %xmm0
	movups	%xmm0, 664(%rsp)
	movq	352(%rsp), %rax                 # 8-byte Reload
	movq	%rax, 680(%rsp)
	movaps	944(%rsp), %xmm0                # 16-byte Reload
	movaps	%xmm0, 688(%rsp)
	movq	432(%rsp), %rax                 # 8-byte Reload
	movq	%rax, 704(%rsp)
	movq	424(%rsp), %rax                 # 8-byte Reload
	movq	%rax, 712(%rsp)
	movq	416(%rsp), %rax                 # 8-byte Reload
	movq	%rax, 720(%rsp)
	movq	296(%rsp), %rax                 # 8-byte Reload
	movq	%rax, 728(%rsp)
	movq	272(%rsp), %rax                 # 8-byte Reload
	movq	%rax, 736(%rsp)
	movq	408(%rsp), %rax                 # 8-byte Reload
	movq	%rax, 744(%rsp)
	movq	216(%rsp), %rax                 # 8-byte Reload
	movq	%rax, 752(%rsp)
	movq	112(%rsp), %rax                 # 8-byte Reload
	movq	%rax, 760(%rsp)
	movq	360(%rsp), %rax                 # 8-byte Reload
	movq	%rax, 768(%rsp)
	movq	288(%rsp), %rax                 # 8-byte Reload
	movq	%rax, 776(%rsp)
	movq	%r13, 784(%rsp)
	movq	400(%rsp), %rax                 # 8-byte Reload
	movq	%rax, 792(%rsp)
	movq	280(%rsp), %rax                 # 8-byte Reload
	movq	%rax, 800(%rsp)
	movq	%rbp, 808(%rsp)
	movq	392(%rsp), %rax                 # 8-byte Reload
	movq	%rax, 816(%rsp)
	leaq	592(%rsp), %rdi
	callq	"scq_queue::queue::Queue::abandon::<#a764f8bb96b57390>"
.LBB25_100:                             # %arm.6.i
	xorl	%eax, %eax
	xorl	%edx, %edx
	xorl	%esi, %esi
	xorl	%edi, %edi
	xorl	%r13d, %r13d
	xorl	%ebx, %ebx
	xorl	%r8d, %r8d
	xorl	%r9d, %r9d
	xorl	%r10d, %r10d
	xorl	%r11d, %r11d
	xorl	%r14d, %r14d
	xorl	%r15d, %r15d
	xorl	%r12d, %r12d
	movq	240(%rsp), %rcx                 # 8-byte Reload
.LBB25_194:                             # %"scq_port::port::Port::leave.exit"
	movq	%rax, (%rcx)
	movq	%rdx, 8(%rcx)
	movq	%rsi, 16(%rcx)
	movq	%rdi, 24(%rcx)
	movq	%r13, 32(%rcx)
	movq	%rbx, 40(%rcx)
	movq	%r8, 48(%rcx)
	movq	%r9, 56(%rcx)
	movq	%r10, 64(%rcx)
	movq	%r11, 72(%rcx)
	movq	%r14, 80(%rcx)
	movq	%r15, 88(%rcx)
	movq	%r12, 96(%rcx)
	addq	$1032, %rsp                     # imm = 0x408
	popq	%rbx
	popq	%r12
	popq	%r13
	popq	%r14
	popq	%r15
	popq	%rbp
	retq
.LBB25_102:                             # %loop.5.preheader.i.i.i.i.i.i.i
	movq	%r13, %rdi
	cmpq	$2, %r13
	movq	160(%rsp), %r8                  # 8-byte Reload
	movq	112(%rsp), %r12                 # 8-byte Reload
	jb	.LBB25_135
# %bb.103:                              # %join.8.preheader.i.i.i.i.i.i.i
	movq	%rdi, %rdx
	leaq	-2(%rdi), %rcx
	movq	%rcx, %rax
	shrq	%rax
	decq	%rdx
	je	.LBB25_105
# %bb.104:                              # %then.1.i.i.i.i.i.i.i42.i
	leaq	(%rdx,%rdx,2), %rdx
	shlq	$5, %rdx
	movq	8(%rsp), %rsi                   # 8-byte Reload
	movups	80(%rsi), %xmm0
	movaps	%xmm0, 96(%rsp)
	movups	64(%rsi), %xmm0
	movaps	%xmm0, 80(%rsp)
	movups	(%rsi), %xmm0
	movups	16(%rsi), %xmm1
	movups	32(%rsi), %xmm2
	movups	48(%rsi), %xmm3
	movaps	%xmm3, 64(%rsp)
	movaps	%xmm2, 48(%rsp)
	movaps	%xmm1, 32(%rsp)
	movaps	%xmm0, 16(%rsp)
	movups	64(%rsi,%rdx), %xmm0
	movups	80(%rsi,%rdx), %xmm1
	movups	(%rsi,%rdx), %xmm2
	movups	16(%rsi,%rdx), %xmm3
	movups	32(%rsi,%rdx), %xmm4
	movups	48(%rsi,%rdx), %xmm5
	movups	%xmm2, (%rsi)
	movups	%xmm1, 80(%rsi)
	movups	%xmm0, 64(%rsi)
	movups	%xmm5, 48(%rsi)
	movups	%xmm4, 32(%rsi)
	movups	%xmm3, 16(%rsi)
	movaps	96(%rsp), %xmm0
	movups	%xmm0, 80(%rsi,%rdx)
	movaps	80(%rsp), %xmm0
	movups	%xmm0, 64(%rsi,%rdx)
	movaps	16(%rsp), %xmm0
	movaps	32(%rsp), %xmm1
	movaps	48(%rsp), %xmm2
	movaps	64(%rsp), %xmm3
	movups	%xmm3, 48(%rsi,%rdx)
	movups	%xmm2, 32(%rsi,%rdx)
	movups	%xmm1, 16(%rsi,%rdx)
	movups	%xmm0, (%rsi,%rdx)
.LBB25_105:                             # %"core::slice::edits::slice+T::swap::<42'scq_queue::pass::Pass::<#5ff1ac3e48fe92e9>>.exit.i.i.i.i.i.i.i"
	testq	%rax, %rax
	je	.LBB25_135
# %bb.106:                              # %join.8.i.i.i.i.i.i.i.1
	cmpq	$1, %rcx
	jbe	.LBB25_107
# %bb.109:                              # %then.1.i.i.i.i.i.i.i42.i.1
	leaq	(%rcx,%rcx,2), %rcx
	shlq	$5, %rcx
	movq	8(%rsp), %rdx                   # 8-byte Reload
	movups	176(%rdx), %xmm0
	movaps	%xmm0, 96(%rsp)
	movups	160(%rdx), %xmm0
	movaps	%xmm0, 80(%rsp)
	movups	96(%rdx), %xmm0
	movups	112(%rdx), %xmm1
	movups	128(%rdx), %xmm2
	movups	144(%rdx), %xmm3
	movaps	%xmm3, 64(%rsp)
	movaps	%xmm2, 48(%rsp)
	movaps	%xmm1, 32(%rsp)
	movaps	%xmm0, 16(%rsp)
	movups	64(%rdx,%rcx), %xmm0
	movups	80(%rdx,%rcx), %xmm1
	movups	(%rdx,%rcx), %xmm2
	movups	16(%rdx,%rcx), %xmm3
	movups	32(%rdx,%rcx), %xmm4
	movups	48(%rdx,%rcx), %xmm5
	movups	%xmm2, 96(%rdx)
	movups	%xmm1, 176(%rdx)
	movups	%xmm0, 160(%rdx)
	movups	%xmm5, 144(%rdx)
	movups	%xmm4, 128(%rdx)
	movups	%xmm3, 112(%rdx)
	movaps	96(%rsp), %xmm0
	movups	%xmm0, 80(%rdx,%rcx)
	movaps	80(%rsp), %xmm0
	movups	%xmm0, 64(%rdx,%rcx)
	movaps	16(%rsp), %xmm0
	movaps	32(%rsp), %xmm1
	movaps	48(%rsp), %xmm2
	movaps	64(%rsp), %xmm3
	movups	%xmm3, 48(%rdx,%rcx)
	movups	%xmm2, 32(%rdx,%rcx)
	movups	%xmm1, 16(%rdx,%rcx)
	movups	%xmm0, (%rdx,%rcx)
	jmp	.LBB25_110
.LBB25_107:                             # %else.2.i.i.i.i.i.i.i.i.1
	testq	%rcx, %rcx
	jne	.LBB25_110
# %bb.108:                              # %then.4.i.i.i.i.i.i.i.i.1
	leaq	(%rcx,%rcx,2), %rcx
	shlq	$5, %rcx
	movq	8(%rsp), %rdx                   # 8-byte Reload
	movups	80(%rdx,%rcx), %xmm0
	movaps	%xmm0, 96(%rsp)
	movups	64(%rdx,%rcx), %xmm0
	movaps	%xmm0, 80(%rsp)
	movups	(%rdx,%rcx), %xmm0
	movups	16(%rdx,%rcx), %xmm1
	movups	32(%rdx,%rcx), %xmm2
	movups	48(%rdx,%rcx), %xmm3
	movaps	%xmm3, 64(%rsp)
	movaps	%xmm2, 48(%rsp)
	movaps	%xmm1, 32(%rsp)
	movaps	%xmm0, 16(%rsp)
	movups	160(%rdx), %xmm0
	movups	176(%rdx), %xmm1
	movups	96(%rdx), %xmm2
	movups	112(%rdx), %xmm3
	movups	128(%rdx), %xmm4
	movups	144(%rdx), %xmm5
	movups	%xmm2, (%rdx,%rcx)
	movups	%xmm1, 80(%rdx,%rcx)
	movups	%xmm0, 64(%rdx,%rcx)
	movups	%xmm5, 48(%rdx,%rcx)
	movups	%xmm4, 32(%rdx,%rcx)
	movups	%xmm3, 16(%rdx,%rcx)
	movaps	96(%rsp), %xmm0
	movups	%xmm0, 176(%rdx)
	movaps	80(%rsp), %xmm0
	movups	%xmm0, 160(%rdx)
	movaps	16(%rsp), %xmm0
	movaps	32(%rsp), %xmm1
	movaps	48(%rsp), %xmm2
	movaps	64(%rsp), %xmm3
	movups	%xmm3, 144(%rdx)
	movups	%xmm2, 128(%rdx)
	movups	%xmm1, 112(%rdx)
	movups	%xmm0, 96(%rdx)
.LBB25_110:                             # %"core::slice::edits::slice+T::swap::<42'scq_queue::pass::Pass::<#5ff1ac3e48fe92e9>>.exit.i.i.i.i.i.i.i.1"
	cmpq	$1, %rax
	je	.LBB25_135
# %bb.111:                              # %join.8.i.i.i.i.i.i.i.2
	leaq	-3(%rdi), %rcx
	cmpq	$2, %rcx
	jbe	.LBB25_112
# %bb.114:                              # %then.1.i.i.i.i.i.i.i42.i.2
	leaq	(%rcx,%rcx,2), %rcx
	shlq	$5, %rcx
	movq	8(%rsp), %rdx                   # 8-byte Reload
	movups	272(%rdx), %xmm0
	movaps	%xmm0, 96(%rsp)
	movups	256(%rdx), %xmm0
	movaps	%xmm0, 80(%rsp)
	movups	192(%rdx), %xmm0
	movups	208(%rdx), %xmm1
	movups	224(%rdx), %xmm2
	movups	240(%rdx), %xmm3
	movaps	%xmm3, 64(%rsp)
	movaps	%xmm2, 48(%rsp)
	movaps	%xmm1, 32(%rsp)
	movaps	%xmm0, 16(%rsp)
	movups	64(%rdx,%rcx), %xmm0
	movups	80(%rdx,%rcx), %xmm1
	movups	(%rdx,%rcx), %xmm2
	movups	16(%rdx,%rcx), %xmm3
	movups	32(%rdx,%rcx), %xmm4
	movups	48(%rdx,%rcx), %xmm5
	movups	%xmm2, 192(%rdx)
	movups	%xmm1, 272(%rdx)
	movups	%xmm0, 256(%rdx)
	movups	%xmm5, 240(%rdx)
	movups	%xmm4, 224(%rdx)
	movups	%xmm3, 208(%rdx)
	movaps	96(%rsp), %xmm0
	movups	%xmm0, 80(%rdx,%rcx)
	movaps	80(%rsp), %xmm0
	movups	%xmm0, 64(%rdx,%rcx)
	movaps	16(%rsp), %xmm0
	movaps	32(%rsp), %xmm1
	movaps	48(%rsp), %xmm2
	movaps	64(%rsp), %xmm3
	movups	%xmm3, 48(%rdx,%rcx)
	movups	%xmm2, 32(%rdx,%rcx)
	movups	%xmm1, 16(%rdx,%rcx)
	movups	%xmm0, (%rdx,%rcx)
	jmp	.LBB25_115
.LBB25_112:                             # %else.2.i.i.i.i.i.i.i.i.2
	je	.LBB25_115
# %bb.113:                              # %then.4.i.i.i.i.i.i.i.i.2
	leaq	(%rcx,%rcx,2), %rcx
	shlq	$5, %rcx
	movq	8(%rsp), %rdx                   # 8-byte Reload
	movups	80(%rdx,%rcx), %xmm0
	movaps	%xmm0, 96(%rsp)
	movups	64(%rdx,%rcx), %xmm0
	movaps	%xmm0, 80(%rsp)
	movups	(%rdx,%rcx), %xmm0
	movups	16(%rdx,%rcx), %xmm1
	movups	32(%rdx,%rcx), %xmm2
	movups	48(%rdx,%rcx), %xmm3
	movaps	%xmm3, 64(%rsp)
	movaps	%xmm2, 48(%rsp)
	movaps	%xmm1, 32(%rsp)
	movaps	%xmm0, 16(%rsp)
	movups	256(%rdx), %xmm0
	movups	272(%rdx), %xmm1
	movups	192(%rdx), %xmm2
	movups	208(%rdx), %xmm3
	movups	224(%rdx), %xmm4
	movups	240(%rdx), %xmm5
	movups	%xmm2, (%rdx,%rcx)
	movups	%xmm1, 80(%rdx,%rcx)
	movups	%xmm0, 64(%rdx,%rcx)
	movups	%xmm5, 48(%rdx,%rcx)
	movups	%xmm4, 32(%rdx,%rcx)
	movups	%xmm3, 16(%rdx,%rcx)
	movaps	96(%rsp), %xmm0
	movups	%xmm0, 272(%rdx)
	movaps	80(%rsp), %xmm0
	movups	%xmm0, 256(%rdx)
	movaps	16(%rsp), %xmm0
	movaps	32(%rsp), %xmm1
	movaps	48(%rsp), %xmm2
	movaps	64(%rsp), %xmm3
	movups	%xmm3, 240(%rdx)
	movups	%xmm2, 224(%rdx)
	movups	%xmm1, 208(%rdx)
	movups	%xmm0, 192(%rdx)
.LBB25_115:                             # %"core::slice::edits::slice+T::swap::<42'scq_queue::pass::Pass::<#5ff1ac3e48fe92e9>>.exit.i.i.i.i.i.i.i.2"
	cmpq	$2, %rax
	je	.LBB25_135
# %bb.116:                              # %join.8.i.i.i.i.i.i.i.3
	leaq	-4(%rdi), %rcx
	cmpq	$3, %rcx
	jbe	.LBB25_117
# %bb.119:                              # %then.1.i.i.i.i.i.i.i42.i.3
	leaq	(%rcx,%rcx,2), %rcx
	shlq	$5, %rcx
	movq	8(%rsp), %rdx                   # 8-byte Reload
	movups	368(%rdx), %xmm0
	movaps	%xmm0, 96(%rsp)
	movups	352(%rdx), %xmm0
	movaps	%xmm0, 80(%rsp)
	movups	288(%rdx), %xmm0
	movups	304(%rdx), %xmm1
	movups	320(%rdx), %xmm2
	movups	336(%rdx), %xmm3
	movaps	%xmm3, 64(%rsp)
	movaps	%xmm2, 48(%rsp)
	movaps	%xmm1, 32(%rsp)
	movaps	%xmm0, 16(%rsp)
	movups	64(%rdx,%rcx), %xmm0
	movups	80(%rdx,%rcx), %xmm1
	movups	(%rdx,%rcx), %xmm2
	movups	16(%rdx,%rcx), %xmm3
	movups	32(%rdx,%rcx), %xmm4
	movups	48(%rdx,%rcx), %xmm5
	movups	%xmm2, 288(%rdx)
	movups	%xmm1, 368(%rdx)
	movups	%xmm0, 352(%rdx)
	movups	%xmm5, 336(%rdx)
	movups	%xmm4, 320(%rdx)
	movups	%xmm3, 304(%rdx)
	movaps	96(%rsp), %xmm0
	movups	%xmm0, 80(%rdx,%rcx)
	movaps	80(%rsp), %xmm0
	movups	%xmm0, 64(%rdx,%rcx)
	movaps	16(%rsp), %xmm0
	movaps	32(%rsp), %xmm1
	movaps	48(%rsp), %xmm2
	movaps	64(%rsp), %xmm3
	movups	%xmm3, 48(%rdx,%rcx)
	movups	%xmm2, 32(%rdx,%rcx)
	movups	%xmm1, 16(%rdx,%rcx)
	movups	%xmm0, (%rdx,%rcx)
	jmp	.LBB25_120
.LBB25_117:                             # %else.2.i.i.i.i.i.i.i.i.3
	je	.LBB25_120
# %bb.118:                              # %then.4.i.i.i.i.i.i.i.i.3
	leaq	(%rcx,%rcx,2), %rcx
	shlq	$5, %rcx
	movq	8(%rsp), %rdx                   # 8-byte Reload
	movups	80(%rdx,%rcx), %xmm0
	movaps	%xmm0, 96(%rsp)
	movups	64(%rdx,%rcx), %xmm0
	movaps	%xmm0, 80(%rsp)
	movups	(%rdx,%rcx), %xmm0
	movups	16(%rdx,%rcx), %xmm1
	movups	32(%rdx,%rcx), %xmm2
	movups	48(%rdx,%rcx), %xmm3
	movaps	%xmm3, 64(%rsp)
	movaps	%xmm2, 48(%rsp)
	movaps	%xmm1, 32(%rsp)
	movaps	%xmm0, 16(%rsp)
	movups	352(%rdx), %xmm0
	movups	368(%rdx), %xmm1
	movups	288(%rdx), %xmm2
	movups	304(%rdx), %xmm3
	movups	320(%rdx), %xmm4
	movups	336(%rdx), %xmm5
	movups	%xmm2, (%rdx,%rcx)
	movups	%xmm1, 80(%rdx,%rcx)
	movups	%xmm0, 64(%rdx,%rcx)
	movups	%xmm5, 48(%rdx,%rcx)
	movups	%xmm4, 32(%rdx,%rcx)
	movups	%xmm3, 16(%rdx,%rcx)
	movaps	96(%rsp), %xmm0
	movups	%xmm0, 368(%rdx)
	movaps	80(%rsp), %xmm0
	movups	%xmm0, 352(%rdx)
	movaps	16(%rsp), %xmm0
	movaps	32(%rsp), %xmm1
	movaps	48(%rsp), %xmm2
	movaps	64(%rsp), %xmm3
	movups	%xmm3, 336(%rdx)
	movups	%xmm2, 320(%rdx)
	movups	%xmm1, 304(%rdx)
	movups	%xmm0, 288(%rdx)
.LBB25_120:                             # %"core::slice::edits::slice+T::swap::<42'scq_queue::pass::Pass::<#5ff1ac3e48fe92e9>>.exit.i.i.i.i.i.i.i.3"
	cmpq	$3, %rax
	je	.LBB25_135
# %bb.121:                              # %join.8.i.i.i.i.i.i.i.4
	leaq	-5(%rdi), %rcx
	cmpq	$4, %rcx
	jbe	.LBB25_122
# %bb.124:                              # %then.1.i.i.i.i.i.i.i42.i.4
	leaq	(%rcx,%rcx,2), %rcx
	shlq	$5, %rcx
	movq	8(%rsp), %rdx                   # 8-byte Reload
	movups	464(%rdx), %xmm0
	movaps	%xmm0, 96(%rsp)
	movups	448(%rdx), %xmm0
	movaps	%xmm0, 80(%rsp)
	movups	384(%rdx), %xmm0
	movups	400(%rdx), %xmm1
	movups	416(%rdx), %xmm2
	movups	432(%rdx), %xmm3
	movaps	%xmm3, 64(%rsp)
	movaps	%xmm2, 48(%rsp)
	movaps	%xmm1, 32(%rsp)
	movaps	%xmm0, 16(%rsp)
	movups	64(%rdx,%rcx), %xmm0
	movups	80(%rdx,%rcx), %xmm1
	movups	(%rdx,%rcx), %xmm2
	movups	16(%rdx,%rcx), %xmm3
	movups	32(%rdx,%rcx), %xmm4
	movups	48(%rdx,%rcx), %xmm5
	movups	%xmm2, 384(%rdx)
	movups	%xmm1, 464(%rdx)
	movups	%xmm0, 448(%rdx)
	movups	%xmm5, 432(%rdx)
	movups	%xmm4, 416(%rdx)
	movups	%xmm3, 400(%rdx)
	movaps	96(%rsp), %xmm0
	movups	%xmm0, 80(%rdx,%rcx)
	movaps	80(%rsp), %xmm0
	movups	%xmm0, 64(%rdx,%rcx)
	movaps	16(%rsp), %xmm0
	movaps	32(%rsp), %xmm1
	movaps	48(%rsp), %xmm2
	movaps	64(%rsp), %xmm3
	movups	%xmm3, 48(%rdx,%rcx)
	movups	%xmm2, 32(%rdx,%rcx)
	movups	%xmm1, 16(%rdx,%rcx)
	movups	%xmm0, (%rdx,%rcx)
	jmp	.LBB25_125
.LBB25_122:                             # %else.2.i.i.i.i.i.i.i.i.4
	je	.LBB25_125
# %bb.123:                              # %then.4.i.i.i.i.i.i.i.i.4
	leaq	(%rcx,%rcx,2), %rcx
	shlq	$5, %rcx
	movq	8(%rsp), %rdx                   # 8-byte Reload
	movups	80(%rdx,%rcx), %xmm0
	movaps	%xmm0, 96(%rsp)
	movups	64(%rdx,%rcx), %xmm0
	movaps	%xmm0, 80(%rsp)
	movups	(%rdx,%rcx), %xmm0
	movups	16(%rdx,%rcx), %xmm1
	movups	32(%rdx,%rcx), %xmm2
	movups	48(%rdx,%rcx), %xmm3
	movaps	%xmm3, 64(%rsp)
	movaps	%xmm2, 48(%rsp)
	movaps	%xmm1, 32(%rsp)
	movaps	%xmm0, 16(%rsp)
	movups	448(%rdx), %xmm0
	movups	464(%rdx), %xmm1
	movups	384(%rdx), %xmm2
	movups	400(%rdx), %xmm3
	movups	416(%rdx), %xmm4
	movups	432(%rdx), %xmm5
	movups	%xmm2, (%rdx,%rcx)
	movups	%xmm1, 80(%rdx,%rcx)
	movups	%xmm0, 64(%rdx,%rcx)
	movups	%xmm5, 48(%rdx,%rcx)
	movups	%xmm4, 32(%rdx,%rcx)
	movups	%xmm3, 16(%rdx,%rcx)
	movaps	96(%rsp), %xmm0
	movups	%xmm0, 464(%rdx)
	movaps	80(%rsp), %xmm0
	movups	%xmm0, 448(%rdx)
	movaps	16(%rsp), %xmm0
	movaps	32(%rsp), %xmm1
	movaps	48(%rsp), %xmm2
	movaps	64(%rsp), %xmm3
	movups	%xmm3, 432(%rdx)
	movups	%xmm2, 416(%rdx)
	movups	%xmm1, 400(%rdx)
	movups	%xmm0, 384(%rdx)
.LBB25_125:                             # %"core::slice::edits::slice+T::swap::<42'scq_queue::pass::Pass::<#5ff1ac3e48fe92e9>>.exit.i.i.i.i.i.i.i.4"
	cmpq	$4, %rax
	je	.LBB25_135
# %bb.126:                              # %join.8.i.i.i.i.i.i.i.5
	leaq	-6(%rdi), %rcx
	cmpq	$5, %rcx
	jbe	.LBB25_127
# %bb.129:                              # %then.1.i.i.i.i.i.i.i42.i.5
	leaq	(%rcx,%rcx,2), %rcx
	shlq	$5, %rcx
	movq	8(%rsp), %rdx                   # 8-byte Reload
	movups	560(%rdx), %xmm0
	movaps	%xmm0, 96(%rsp)
	movups	544(%rdx), %xmm0
	movaps	%xmm0, 80(%rsp)
	movups	480(%rdx), %xmm0
	movups	496(%rdx), %xmm1
	movups	512(%rdx), %xmm2
	movups	528(%rdx), %xmm3
	movaps	%xmm3, 64(%rsp)
	movaps	%xmm2, 48(%rsp)
	movaps	%xmm1, 32(%rsp)
	movaps	%xmm0, 16(%rsp)
	movups	64(%rdx,%rcx), %xmm0
	movups	80(%rdx,%rcx), %xmm1
	movups	(%rdx,%rcx), %xmm2
	movups	16(%rdx,%rcx), %xmm3
	movups	32(%rdx,%rcx), %xmm4
	movups	48(%rdx,%rcx), %xmm5
	movups	%xmm2, 480(%rdx)
	movups	%xmm1, 560(%rdx)
	movups	%xmm0, 544(%rdx)
	movups	%xmm5, 528(%rdx)
	movups	%xmm4, 512(%rdx)
	movups	%xmm3, 496(%rdx)
	movaps	96(%rsp), %xmm0
	movups	%xmm0, 80(%rdx,%rcx)
	movaps	80(%rsp), %xmm0
	movups	%xmm0, 64(%rdx,%rcx)
	movaps	16(%rsp), %xmm0
	movaps	32(%rsp), %xmm1
	movaps	48(%rsp), %xmm2
	movaps	64(%rsp), %xmm3
	movups	%xmm3, 48(%rdx,%rcx)
	movups	%xmm2, 32(%rdx,%rcx)
	movups	%xmm1, 16(%rdx,%rcx)
	movups	%xmm0, (%rdx,%rcx)
	jmp	.LBB25_130
.LBB25_127:                             # %else.2.i.i.i.i.i.i.i.i.5
	je	.LBB25_130
# %bb.128:                              # %then.4.i.i.i.i.i.i.i.i.5
	leaq	(%rcx,%rcx,2), %rcx
	shlq	$5, %rcx
	movq	8(%rsp), %rdx                   # 8-byte Reload
	movups	80(%rdx,%rcx), %xmm0
	movaps	%xmm0, 96(%rsp)
	movups	64(%rdx,%rcx), %xmm0
	movaps	%xmm0, 80(%rsp)
	movups	(%rdx,%rcx), %xmm0
	movups	16(%rdx,%rcx), %xmm1
	movups	32(%rdx,%rcx), %xmm2
	movups	48(%rdx,%rcx), %xmm3
	movaps	%xmm3, 64(%rsp)
	movaps	%xmm2, 48(%rsp)
	movaps	%xmm1, 32(%rsp)
	movaps	%xmm0, 16(%rsp)
	movups	544(%rdx), %xmm0
	movups	560(%rdx), %xmm1
	movups	480(%rdx), %xmm2
	movups	496(%rdx), %xmm3
	movups	512(%rdx), %xmm4
	movups	528(%rdx), %xmm5
	movups	%xmm2, (%rdx,%rcx)
	movups	%xmm1, 80(%rdx,%rcx)
	movups	%xmm0, 64(%rdx,%rcx)
	movups	%xmm5, 48(%rdx,%rcx)
	movups	%xmm4, 32(%rdx,%rcx)
	movups	%xmm3, 16(%rdx,%rcx)
	movaps	96(%rsp), %xmm0
	movups	%xmm0, 560(%rdx)
	movaps	80(%rsp), %xmm0
	movups	%xmm0, 544(%rdx)
	movaps	16(%rsp), %xmm0
	movaps	32(%rsp), %xmm1
	movaps	48(%rsp), %xmm2
	movaps	64(%rsp), %xmm3
	movups	%xmm3, 528(%rdx)
	movups	%xmm2, 512(%rdx)
	movups	%xmm1, 496(%rdx)
	movups	%xmm0, 480(%rdx)
.LBB25_130:                             # %"core::slice::edits::slice+T::swap::<42'scq_queue::pass::Pass::<#5ff1ac3e48fe92e9>>.exit.i.i.i.i.i.i.i.5"
	cmpq	$5, %rax
	je	.LBB25_135
# %bb.131:                              # %join.8.i.i.i.i.i.i.i.6
	leaq	-7(%rdi), %rax
	cmpq	$6, %rax
	jbe	.LBB25_132
# %bb.134:                              # %then.1.i.i.i.i.i.i.i42.i.6
	leaq	(%rax,%rax,2), %rax
	shlq	$5, %rax
	movq	8(%rsp), %rcx                   # 8-byte Reload
	movups	656(%rcx), %xmm0
	movaps	%xmm0, 96(%rsp)
	movups	640(%rcx), %xmm0
	movaps	%xmm0, 80(%rsp)
	movups	576(%rcx), %xmm0
	movups	592(%rcx), %xmm1
	movups	608(%rcx), %xmm2
	movups	624(%rcx), %xmm3
	movaps	%xmm3, 64(%rsp)
	movaps	%xmm2, 48(%rsp)
	movaps	%xmm1, 32(%rsp)
	movaps	%xmm0, 16(%rsp)
	movups	64(%rcx,%rax), %xmm0
	movups	80(%rcx,%rax), %xmm1
	movups	(%rcx,%rax), %xmm2
	movups	16(%rcx,%rax), %xmm3
	movups	32(%rcx,%rax), %xmm4
	movups	48(%rcx,%rax), %xmm5
	movups	%xmm2, 576(%rcx)
	movups	%xmm1, 656(%rcx)
	movups	%xmm0, 640(%rcx)
	movups	%xmm5, 624(%rcx)
	movups	%xmm4, 608(%rcx)
	movups	%xmm3, 592(%rcx)
	movaps	96(%rsp), %xmm0
	movups	%xmm0, 80(%rcx,%rax)
	movaps	80(%rsp), %xmm0
	movups	%xmm0, 64(%rcx,%rax)
	movaps	16(%rsp), %xmm0
	movaps	32(%rsp), %xmm1
	movaps	48(%rsp), %xmm2
	movaps	64(%rsp), %xmm3
	movups	%xmm3, 48(%rcx,%rax)
	movups	%xmm2, 32(%rcx,%rax)
	movups	%xmm1, 16(%rcx,%rax)
	movups	%xmm0, (%rcx,%rax)
	jmp	.LBB25_135
.LBB25_132:                             # %else.2.i.i.i.i.i.i.i.i.6
	je	.LBB25_135
# %bb.133:                              # %then.4.i.i.i.i.i.i.i.i.6
	leaq	(%rax,%rax,2), %rax
	shlq	$5, %rax
	movq	8(%rsp), %rcx                   # 8-byte Reload
	movups	80(%rcx,%rax), %xmm0
	movaps	%xmm0, 96(%rsp)
	movups	64(%rcx,%rax), %xmm0
	movaps	%xmm0, 80(%rsp)
	movups	(%rcx,%rax), %xmm0
	movups	16(%rcx,%rax), %xmm1
	movups	32(%rcx,%rax), %xmm2
	movups	48(%rcx,%rax), %xmm3
	movaps	%xmm3, 64(%rsp)
	movaps	%xmm2, 48(%rsp)
	movaps	%xmm1, 32(%rsp)
	movaps	%xmm0, 16(%rsp)
	movups	640(%rcx), %xmm0
	movups	656(%rcx), %xmm1
	movups	576(%rcx), %xmm2
	movups	592(%rcx), %xmm3
	movups	608(%rcx), %xmm4
	movups	624(%rcx), %xmm5
	movups	%xmm2, (%rcx,%rax)
	movups	%xmm1, 80(%rcx,%rax)
	movups	%xmm0, 64(%rcx,%rax)
	movups	%xmm5, 48(%rcx,%rax)
	movups	%xmm4, 32(%rcx,%rax)
	movups	%xmm3, 16(%rcx,%rax)
	movaps	96(%rsp), %xmm0
	movups	%xmm0, 656(%rcx)
	movaps	80(%rsp), %xmm0
	movups	%xmm0, 640(%rcx)
	movaps	16(%rsp), %xmm0
	movaps	32(%rsp), %xmm1
	movaps	48(%rsp), %xmm2
	movaps	64(%rsp), %xmm3
	movups	%xmm3, 624(%rcx)
	movups	%xmm2, 608(%rcx)
	movups	%xmm1, 592(%rcx)
	movups	%xmm0, 576(%rcx)
.LBB25_135:                             # %"std_alloc::vec::Vec::reverse::<#2923e4ee7bb015e8>.exit.i.i.i.i"
	movq	%rdi, %r13
	testq	%rdi, %rdi
	je	.LBB25_140
.LBB25_137:                             # %arm.3.lr.ph.i.i.i.i
	leaq	40(%rsp), %rax
	shlq	$6, %r12
	movq	216(%rsp), %rdx                 # 8-byte Reload
	leaq	(%r12,%rdx), %rcx
	addq	$56, %rcx
	leaq	(%r8,%r8,2), %rdx
	movq	288(%rsp), %rsi                 # 8-byte Reload
	leaq	(%rsi,%rdx,8), %rdx
	leaq	(,%r13,2), %rsi
	addq	%r13, %rsi
	negq	%r13
	shlq	$5, %rsi
	movq	8(%rsp), %rdi                   # 8-byte Reload
	addq	%rsi, %rdi
	addq	$-8, %rdi
	xorl	%esi, %esi
	movq	280(%rsp), %r8                  # 8-byte Reload
	movq	%r13, %r12
	.p2align	4
.LBB25_138:                             # %arm.3.i.i8.i.i
                                        # =>This Inner Loop Header: Depth=1
	movzbl	-40(%rdi), %r9d
	movq	-32(%rdi), %r10
	movzbl	(%rdi), %r11d
	movq	-8(%rdi), %rbx
	movq	%rbx, 464(%rsp)
	movups	-24(%rdi), %xmm0
	movaps	%xmm0, 448(%rsp)
	movq	-48(%rdi), %rbx
	movq	%rbx, 16(%rax)
	movups	-64(%rdi), %xmm0
	movups	%xmm0, (%rax)
	movups	-88(%rdi), %xmm0
	movq	-72(%rdi), %rbx
	movq	%rbx, -40(%rcx)
	movups	%xmm0, -56(%rcx)
	movups	(%rax), %xmm0
	movups	%xmm0, -32(%rcx)
	movq	16(%rax), %rbx
	movq	%rbx, -16(%rcx)
	movq	%r9, -8(%rcx)
	movq	%r10, (%rcx)
	movq	464(%rsp), %r9
	movq	%r9, 16(%rdx)
	movaps	448(%rsp), %xmm0
	movups	%xmm0, (%rdx)
	andb	$1, %r11b
	movb	%r11b, (%r8,%rbp)
	decq	%rsi
	addq	$64, %rcx
	addq	$24, %rdx
	incq	%r8
	addq	$-96, %rdi
	cmpq	%rsi, %r12
	jne	.LBB25_138
# %bb.139:                              # %after.1.i.i15.i.i.loopexit
	movq	112(%rsp), %r12                 # 8-byte Reload
	subq	%rsi, %r12
	movq	160(%rsp), %r8                  # 8-byte Reload
	subq	%rsi, %r8
	subq	%rsi, %rbp
.LBB25_140:                             # %after.1.i.i15.i.i
	movq	%rbp, 224(%rsp)                 # 8-byte Spill
	movq	%r8, 160(%rsp)                  # 8-byte Spill
	cmpq	$0, 440(%rsp)                   # 8-byte Folded Reload
	je	.LBB25_142
# %bb.141:                              # %then.1.i.i.i.i17.i.i
	movq	8(%rsp), %rdi                   # 8-byte Reload
	callq	rattle_dealloc@PLT
.LBB25_142:                             # %"scq_queue::closing::unpack::<#aae3f6a89b556e54>.exit.i.i.i"
	testq	%r12, %r12
	je	.LBB25_184
# %bb.143:                              # %arm.1.i.i.i.i.i.i
	decq	%r12
	movq	%r12, %rbx
	shlq	$6, %r12
	movq	216(%rsp), %rdx                 # 8-byte Reload
	movq	24(%rdx,%r12), %r9
	movq	40(%rdx,%r12), %r13
	movq	(%rdx,%r12), %rdi
	movl	8(%rdx,%r12), %ecx
	movq	16(%rdx,%r12), %rax
	testq	%rcx, %rcx
	je	.LBB25_144
# %bb.145:                              # %join.5.i.i.i.i.i.i18.i.i.preheader
	xorl	%edx, %edx
	jmp	.LBB25_146
	.p2align	4
.LBB25_147:                             #   in Loop: Header=BB25_146 Depth=1
	movq	%r15, %r12
	incq	%rdx
	cmpq	%rcx, %rdx
	je	.LBB25_149
.LBB25_146:                             # %join.5.i.i.i.i.i.i18.i.i
                                        # =>This Loop Header: Depth=1
                                        #     Child Loop BB25_172 Depth 2
	cmpb	$0, (%rdi,%rdx)
	je	.LBB25_147
# %bb.170:                              # %join.8.i.i.i.i.i.i.i.i
                                        #   in Loop: Header=BB25_146 Depth=1
	testq	%r15, %r15
	je	.LBB25_184
# %bb.171:                              # %join.5.i.i.i.i.i.i.i.i.i.i.preheader
                                        #   in Loop: Header=BB25_146 Depth=1
	xorl	%esi, %esi
	.p2align	4
.LBB25_172:                             # %join.5.i.i.i.i.i.i.i.i.i.i
                                        #   Parent Loop BB25_146 Depth=1
                                        # =>  This Inner Loop Header: Depth=2
	movl	(%r14,%rsi,4), %r8d
	cmpq	%r8, %rdx
	je	.LBB25_173
# %bb.176:                              # %join.8.i.i.i.i.i.i.i.i.i.i
                                        #   in Loop: Header=BB25_172 Depth=2
	incq	%rsi
	cmpq	%rsi, %r15
	jne	.LBB25_172
	jmp	.LBB25_184
	.p2align	4
.LBB25_173:                             # %then.6.i.i.i.i.i.i.i.i.i.i
                                        #   in Loop: Header=BB25_146 Depth=1
	leaq	-1(%r15), %r12
	cmpq	%rsi, %r12
	je	.LBB25_175
# %bb.174:                              # %join.4.i.i.i.i.i.i.i.i.i.i.i.i
                                        #   in Loop: Header=BB25_146 Depth=1
	movl	-4(%r14,%r15,4), %r8d
	movl	%r8d, (%r14,%rsi,4)
.LBB25_175:                             # %"scq_band::closing::lay_back::<#8efddd2aaba6d9e2>.exit.i.i.i.i.i.i.i.i"
                                        #   in Loop: Header=BB25_146 Depth=1
	#APP
	#NO_APP
	movq	248(%rsp), %rsi                 # 8-byte Reload
	movq	(%rsi), %rsi
	#APP
	#NO_APP
	movq	%r12, %r15
	incq	%rdx
	cmpq	%rcx, %rdx
	jne	.LBB25_146
	jmp	.LBB25_149
.LBB25_144:
	movq	%r15, %r12
.LBB25_149:                             # %after.1.i.i.i.i.i.i.i.i
	testq	%rax, %rax
	je	.LBB25_151
# %bb.150:                              # %then.1.i.i.i.i.i.i.i.i.i.i.i
	movq	%r9, %r15
	callq	rattle_dealloc@PLT
	movq	%r15, %r9
.LBB25_151:                             # %"scq_band::closing::bring_all::<#8efddd2aaba6d9e2>.exit.i.i.i.i.i.i.i"
	testq	%r13, %r13
	je	.LBB25_153
# %bb.152:                              # %then.1.i.i.i.i.i.i.i.i.i.i
	movq	%r9, %rdi
	callq	rattle_dealloc@PLT
.LBB25_153:                             # %"scq_band::closing::bring_seat_home::<#8efddd2aaba6d9e2>.exit.i.i.i.i.i.i"
	movq	%rbx, %rax
	testq	%rbx, %rbx
	movq	248(%rsp), %r13                 # 8-byte Reload
	movq	216(%rsp), %rbp                 # 8-byte Reload
	jne	.LBB25_154
.LBB25_164:                             # %after.6.i.i.i.i.i.i
	cmpq	$0, 360(%rsp)                   # 8-byte Folded Reload
	je	.LBB25_166
# %bb.165:                              # %then.1.i.i.i.i.i2.i.i.i
	movq	%rbp, %rdi
	callq	rattle_dealloc@PLT
.LBB25_166:                             # %"std_alloc::vec::Vec::destroy_empty::<#07c719505c6fb3d4>.exit.i.i.i.i.i.i"
	cmpq	$0, 304(%rsp)                   # 8-byte Folded Reload
	je	.LBB25_168
# %bb.167:                              # %then.1.i.i81.i.i.i.i.i.i
	movq	%r14, %rdi
	callq	rattle_dealloc@PLT
.LBB25_168:                             # %"scq_band::closing::gather::<#8efddd2aaba6d9e2>.exit.i.i.i.i.i"
	cmpl	$0, 232(%rsp)                   # 4-byte Folded Reload
	movq	296(%rsp), %r13                 # 8-byte Reload
	je	.LBB25_169
# %bb.185:                              # %join.5.lr.ph.i.i.i.i.i.i
	movq	344(%rsp), %r8                  # 8-byte Reload
	leal	1(%r8), %ecx
	xorl	%edx, %edx
	movl	%ecx, %eax
	subl	$3, %eax
	cmovbl	%edx, %eax
	movq	$-1, %rsi
                                        # kill: def $cl killed $cl killed $ecx
	shlq	%cl, %rsi
	xorl	%ecx, %ecx
	cmpl	$10, %r8d
	setb	%cl
	leal	(%rcx,%rcx,2), %ecx
	leal	(%r8,%rcx), %edx
	addl	$-2, %edx
	movl	$2, %edi
	movl	%r8d, %ecx
	shll	%cl, %edi
	movl	$8, %r14d
	movl	%edx, %ecx
	shlq	%cl, %r14
	movl	$-1, %r9d
	shll	%cl, %r9d
	cmpl	$31, %r8d
	movq	272(%rsp), %rbx                 # 8-byte Reload
	jb	.LBB25_187
# %bb.186:                              # %join.5.us.i.preheader.i.i.i.i.i
	leaq	(,%rbx,8), %rdi
	addq	%r13, %rdi
	movq	232(%rsp), %r14                 # 8-byte Reload
	leaq	(,%r14,8), %rdx
	xorl	%esi, %esi
	callq	memset@PLT
	addq	%r14, %rbx
	jmp	.LBB25_191
	.p2align	4
.LBB25_163:                             # %"scq_band::closing::bring_seat_home::<#8efddd2aaba6d9e2>.exit77.i.i.i.i.i.i"
                                        #   in Loop: Header=BB25_154 Depth=1
	#APP
	#NO_APP
	movq	(%r13), %rax
	#APP
	#NO_APP
	movq	112(%rsp), %rax                 # 8-byte Reload
	testq	%rax, %rax
	je	.LBB25_164
.LBB25_154:                             # %arm.8.i.i.i.i.i.i
                                        # =>This Loop Header: Depth=1
                                        #     Child Loop BB25_156 Depth 2
                                        #       Child Loop BB25_179 Depth 3
	decq	%rax
	movq	%rax, 112(%rsp)                 # 8-byte Spill
	shlq	$6, %rax
	movq	24(%rbp,%rax), %rbx
	movq	40(%rbp,%rax), %r15
	movq	(%rbp,%rax), %rdi
	movl	8(%rbp,%rax), %ecx
	movq	16(%rbp,%rax), %rax
	testq	%rcx, %rcx
	je	.LBB25_159
# %bb.155:                              # %join.5.i.i37.i.i.i.i.i.i.preheader
                                        #   in Loop: Header=BB25_154 Depth=1
	xorl	%edx, %edx
	movq	%r12, %rsi
	jmp	.LBB25_156
	.p2align	4
.LBB25_157:                             #   in Loop: Header=BB25_156 Depth=2
	movq	%rsi, %r12
	incq	%rdx
	cmpq	%rcx, %rdx
	je	.LBB25_159
.LBB25_156:                             # %join.5.i.i37.i.i.i.i.i.i
                                        #   Parent Loop BB25_154 Depth=1
                                        # =>  This Loop Header: Depth=2
                                        #       Child Loop BB25_179 Depth 3
	cmpb	$0, (%rdi,%rdx)
	je	.LBB25_157
# %bb.177:                              # %join.8.i.i51.i.i.i.i.i.i
                                        #   in Loop: Header=BB25_156 Depth=2
	testq	%rsi, %rsi
	je	.LBB25_184
# %bb.178:                              # %join.5.i.i.i.i56.i.i.i.i.i.i.preheader
                                        #   in Loop: Header=BB25_156 Depth=2
	xorl	%r8d, %r8d
	.p2align	4
.LBB25_179:                             # %join.5.i.i.i.i56.i.i.i.i.i.i
                                        #   Parent Loop BB25_154 Depth=1
                                        #     Parent Loop BB25_156 Depth=2
                                        # =>    This Inner Loop Header: Depth=3
	movl	(%r14,%r8,4), %r9d
	cmpq	%r9, %rdx
	je	.LBB25_180
# %bb.183:                              # %join.8.i.i.i.i62.i.i.i.i.i.i
                                        #   in Loop: Header=BB25_179 Depth=3
	incq	%r8
	cmpq	%r8, %rsi
	jne	.LBB25_179
	jmp	.LBB25_184
	.p2align	4
.LBB25_180:                             # %then.6.i.i.i.i66.i.i.i.i.i.i
                                        #   in Loop: Header=BB25_156 Depth=2
	leaq	-1(%rsi), %r12
	cmpq	%r8, %r12
	je	.LBB25_182
# %bb.181:                              # %join.4.i.i.i.i.i.i69.i.i.i.i.i.i
                                        #   in Loop: Header=BB25_156 Depth=2
	movl	-4(%r14,%rsi,4), %esi
	movl	%esi, (%r14,%r8,4)
.LBB25_182:                             # %"scq_band::closing::lay_back::<#8efddd2aaba6d9e2>.exit.i.i74.i.i.i.i.i.i"
                                        #   in Loop: Header=BB25_156 Depth=2
	#APP
	#NO_APP
	movq	(%r13), %rsi
	#APP
	#NO_APP
	movq	%r12, %rsi
	incq	%rdx
	cmpq	%rcx, %rdx
	jne	.LBB25_156
.LBB25_159:                             # %after.1.i.i45.i.i.i.i.i.i
                                        #   in Loop: Header=BB25_154 Depth=1
	testq	%rax, %rax
	je	.LBB25_161
# %bb.160:                              # %then.1.i.i.i.i.i47.i.i.i.i.i.i
                                        #   in Loop: Header=BB25_154 Depth=1
	callq	rattle_dealloc@PLT
.LBB25_161:                             # %"scq_band::closing::bring_all::<#8efddd2aaba6d9e2>.exit.i48.i.i.i.i.i.i"
                                        #   in Loop: Header=BB25_154 Depth=1
	testq	%r15, %r15
	je	.LBB25_163
# %bb.162:                              # %then.1.i.i.i.i50.i.i.i.i.i.i
                                        #   in Loop: Header=BB25_154 Depth=1
	movq	%rbx, %rdi
	callq	rattle_dealloc@PLT
	jmp	.LBB25_163
.LBB25_169:
	movq	272(%rsp), %rbx                 # 8-byte Reload
	jmp	.LBB25_191
.LBB25_187:                             # %join.5.preheader.i.i.i.i.i.i
	notq	%rsi
	addq	$63, %r14
	notl	%r9d
	movl	%esi, %r10d
	xorl	%r11d, %r11d
	movq	%r14, 192(%rsp)                 # 8-byte Spill
	.p2align	4
.LBB25_188:                             # %join.5.i.i.i.i.i.i
                                        # =>This Loop Header: Depth=1
                                        #     Child Loop BB25_189 Depth 2
	movq	%rbx, %r13
	movq	%r11, %rbx
	imulq	%r14, %rbx
	addq	$64, %rbx
	xorl	%r14d, %r14d
	xorl	%ebp, %ebp
	movq	248(%rsp), %r8                  # 8-byte Reload
	.p2align	4
.LBB25_189:                             # %join.5.i.i.i.i.i.i.i
                                        #   Parent Loop BB25_188 Depth=1
                                        # =>  This Inner Loop Header: Depth=2
	movl	%ebp, %r15d
	andl	$7, %r15d
	movl	%eax, %ecx
	shll	%cl, %r15d
	movl	%ebp, %ecx
	shrl	$3, %ecx
	addl	%ecx, %r15d
	movl	%r15d, %r12d
	movl	%edx, %ecx
	shrl	%cl, %r15d
	andl	%r9d, %r12d
	addq	%rbx, %r15
	shlq	$6, %r12
	addq	%r8, %r12
	movl	(%r12,%r15,8), %ecx
	andl	%r10d, %ecx
	xorl	%r15d, %r15d
	cmpq	%rsi, %rcx
	setne	%r15b
	addq	%r15, %r14
	incl	%ebp
	cmpl	%ebp, %edi
	jne	.LBB25_189
# %bb.190:                              # %"scq_band::leftovers::left_in_ring::<#aae3f6a89b556e54>.exit.loopexit.i.i.i.i.i.i"
                                        #   in Loop: Header=BB25_188 Depth=1
	movq	%r13, %rbx
	movq	296(%rsp), %r13                 # 8-byte Reload
	movq	%r14, (%r13,%rbx,8)
	incq	%rbx
	incq	%r11
	cmpq	232(%rsp), %r11                 # 8-byte Folded Reload
	movq	192(%rsp), %r14                 # 8-byte Reload
	jne	.LBB25_188
.LBB25_191:                             # %"scq_band::leftovers::count_left::<#aae3f6a89b556e54>.exit.i.i.i.i.i"
	movq	368(%rsp), %rdi                 # 8-byte Reload
	callq	rattle_dealloc@PLT
	movq	376(%rsp), %rdi                 # 8-byte Reload
	callq	rattle_dealloc@PLT
	cmpq	$0, 512(%rsp)                   # 8-byte Folded Reload
	je	.LBB25_193
# %bb.192:                              # %then.1.i.i.i15.i.i.i.i.i
	movq	352(%rsp), %rdi                 # 8-byte Reload
	callq	rattle_dealloc@PLT
.LBB25_193:                             # %"scq_queue::queue::Queue::close::<#aae3f6a89b556e54>.exit.i.i"
	movq	424(%rsp), %rsi                 # 8-byte Reload
	addq	384(%rsp), %rsi                 # 8-byte Folded Reload
	movl	$1, %eax
	movq	240(%rsp), %rcx                 # 8-byte Reload
	movq	432(%rsp), %rdx                 # 8-byte Reload
	movq	416(%rsp), %rdi                 # 8-byte Reload
	movq	408(%rsp), %r8                  # 8-byte Reload
	movq	288(%rsp), %r9                  # 8-byte Reload
	movq	160(%rsp), %r10                 # 8-byte Reload
	movq	400(%rsp), %r11                 # 8-byte Reload
	movq	280(%rsp), %r14                 # 8-byte Reload
	movq	224(%rsp), %r15                 # 8-byte Reload
	movq	392(%rsp), %r12                 # 8-byte Reload
	jmp	.LBB25_194
.LBB25_184:                             # %arm.10.i.i.i
	ud2
.Lfunc_end25:
	.size	"scq_port::port::Port::close", .Lfunc_end25-"scq_port::port::Port::close"
                                        # -- End function
	.section	".text.scq_c::opening::fill","ax",@progbits
	.p2align	4                               # -- Begin function scq_c::opening::fill
	.type	"scq_c::opening::fill",@function
"scq_c::opening::fill":                 # @"scq_c::opening::fill"
# %bb.0:                                # %start
	movq	%rdi, %rax
	movq	(%rsi), %rdi
	movq	8(%rsi), %r8
	movq	16(%rsi), %rcx
	testq	%r8, %r8
	je	.LBB26_7
# %bb.1:                                # %arm.3.preheader
	movq	%r8, %r9
	movq	%r8, %rdx
	andq	$3, %r9
	je	.LBB26_4
# %bb.2:                                # %arm.3.prol.preheader
	leaq	(%r8,%r8,4), %rdx
	leaq	(%rax,%rdx,8), %rsi
	addq	$-40, %rsi
	shll	$3, %r9d
	leaq	(%r9,%r9,4), %r9
	xorl	%r10d, %r10d
	movq	%r8, %rdx
	.p2align	4
.LBB26_3:                               # %arm.3.prol
                                        # =>This Inner Loop Header: Depth=1
	movq	-8(%rdi,%rdx,8), %r11
	decq	%rdx
	movq	%r11, (%rsi,%r10)
	addq	$-40, %r10
	movq	%r9, %r11
	addq	%r10, %r11
	jne	.LBB26_3
.LBB26_4:                               # %arm.3.prol.loopexit
	cmpq	$4, %r8
	jb	.LBB26_7
# %bb.5:                                # %arm.3.preheader1
	leaq	(%rdx,%rdx,4), %rsi
	leaq	(%rax,%rsi,8), %rax
	addq	$-40, %rax
	.p2align	4
.LBB26_6:                               # %arm.3
                                        # =>This Inner Loop Header: Depth=1
	movq	-8(%rdi,%rdx,8), %rsi
	movq	%rsi, (%rax)
	movq	-16(%rdi,%rdx,8), %rsi
	movq	%rsi, -40(%rax)
	movq	-24(%rdi,%rdx,8), %rsi
	movq	%rsi, -80(%rax)
	movq	-32(%rdi,%rdx,8), %rsi
	addq	$-4, %rdx
	movq	%rsi, -120(%rax)
	addq	$-160, %rax
	testq	%rdx, %rdx
	jne	.LBB26_6
.LBB26_7:                               # %"std_alloc::vec::Vec::clear::<#5971d8919b09bd46>.exit.i"
	testq	%rcx, %rcx
	jne	rattle_dealloc@PLT              # TAILCALL
# %bb.8:                                # %"std_alloc::vec::Vec::drop::<#728813b680de4faa>.exit"
	retq
.Lfunc_end26:
	.size	"scq_c::opening::fill", .Lfunc_end26-"scq_c::opening::fill"
                                        # -- End function
	.section	.text.scq_version,"ax",@progbits
	.globl	scq_version                     # -- Begin function scq_version
	.p2align	4
	.type	scq_version,@function
scq_version:                            # @scq_version
# %bb.0:                                # %start
	movl	$3, %eax
	retq
.Lfunc_end27:
	.size	scq_version, .Lfunc_end27-scq_version
                                        # -- End function
	.section	.text.scq_capacity,"ax",@progbits
	.globl	scq_capacity                    # -- Begin function scq_capacity
	.p2align	4
	.type	scq_capacity,@function
scq_capacity:                           # @scq_capacity
# %bb.0:                                # %start
	movq	(%rdi), %rax
	movq	$0, (%rdi)
	testq	%rax, %rax
	je	.LBB28_1
# %bb.3:                                # %arm.1.i
	movq	128(%rax), %rcx
	movzbl	72(%rcx), %ecx
	movl	$1, %edx
	shll	%cl, %edx
	movl	%edx, (%rsi)
	movq	%rax, (%rdi)
	xorl	%eax, %eax
	retq
.LBB28_1:
	movl	$4, %eax
	retq
.Lfunc_end28:
	.size	scq_capacity, .Lfunc_end28-scq_capacity
                                        # -- End function
	.section	.text.scq_count,"ax",@progbits
	.globl	scq_count                       # -- Begin function scq_count
	.p2align	4
	.type	scq_count,@function
scq_count:                              # @scq_count
# %bb.0:                                # %start
                                        # kill: def $esi killed $esi def $rsi
	movq	(%rdi), %r8
	movq	$0, (%rdi)
	testq	%r8, %r8
	je	.LBB29_1
# %bb.3:                                # %arm.1.i
	movl	$6, %eax
	cmpl	%esi, 264(%r8)
	jbe	.LBB29_5
# %bb.4:                                # %arm.1.i3.i
	movq	128(%r8), %rcx
	incl	%esi
	movq	8(%rcx), %rax
	movq	96(%rcx), %r9
	leaq	(%rsi,%rsi,8), %rsi
	movq	48(%r9,%rsi,8), %r10
	#APP
	#NO_APP
	movq	128(%rax,%r10,8), %r10
	#APP
	#NO_APP
	movq	48(%r9,%rsi,8), %rax
	movq	8(%rcx), %rsi
	#APP
	#NO_APP
	movq	(%rsi,%rax,8), %rsi
	#APP
	#NO_APP
	xorl	%eax, %eax
	subq	%r10, %rsi
	movl	$0, %r9d
	cmovaeq	%rsi, %r9
	movzbl	72(%rcx), %ecx
	movl	$1, %esi
	shlq	%cl, %rsi
	cmpq	%rsi, %r9
	cmovbq	%r9, %rsi
	movl	%esi, (%rdx)
.LBB29_5:                               # %"scq_c::exports::count_into.exit.i"
	movq	%r8, (%rdi)
                                        # kill: def $eax killed $eax killed $rax
	retq
.LBB29_1:
	movl	$4, %eax
                                        # kill: def $eax killed $eax killed $rax
	retq
.Lfunc_end29:
	.size	scq_count, .Lfunc_end29-scq_count
                                        # -- End function
	.section	.text.scq_counts_of,"ax",@progbits
	.globl	scq_counts_of                   # -- Begin function scq_counts_of
	.p2align	4
	.type	scq_counts_of,@function
scq_counts_of:                          # @scq_counts_of
# %bb.0:                                # %start
	movq	(%rdi), %rax
	movq	$0, (%rdi)
	testq	%rax, %rax
	je	.LBB30_1
# %bb.3:                                # %arm.1.i
	movq	216(%rax), %rcx
	movups	200(%rax), %xmm0
	movups	%xmm0, (%rsi)
	movq	%rcx, 16(%rsi)
	movq	%rax, (%rdi)
	xorl	%eax, %eax
	retq
.LBB30_1:
	movl	$4, %eax
	retq
.Lfunc_end30:
	.size	scq_counts_of, .Lfunc_end30-scq_counts_of
                                        # -- End function
	.section	.text.scq_retire,"ax",@progbits
	.globl	scq_retire                      # -- Begin function scq_retire
	.p2align	4
	.type	scq_retire,@function
scq_retire:                             # @scq_retire
# %bb.0:                                # %start
	movq	(%rdi), %rax
	movq	$0, (%rdi)
	testq	%rax, %rax
	je	.LBB31_1
# %bb.3:                                # %arm.1.i
	cmpb	$1, 276(%rax)
	jne	.LBB31_5
# %bb.4:                                # %then.1.i.i.i
	movq	128(%rax), %rcx
	movq	8(%rcx), %rcx
	#APP
	#NO_APP
	lock		decq	(%rcx)
	#APP
	#NO_APP
.LBB31_5:                               # %"scq_port::port::Port::retire.exit.i"
	movb	$0, 276(%rax)
	movl	$0, 268(%rax)
	movq	%rax, (%rdi)
	xorl	%eax, %eax
	retq
.LBB31_1:
	movl	$4, %eax
	retq
.Lfunc_end31:
	.size	scq_retire, .Lfunc_end31-scq_retire
                                        # -- End function
	.section	.text.scq_retired,"ax",@progbits
	.globl	scq_retired                     # -- Begin function scq_retired
	.p2align	4
	.type	scq_retired,@function
scq_retired:                            # @scq_retired
# %bb.0:                                # %start
	movq	(%rdi), %rcx
	movq	$0, (%rdi)
	testq	%rcx, %rcx
	je	.LBB32_1
# %bb.3:                                # %arm.1.i
	movq	128(%rcx), %rax
	movq	8(%rax), %rax
	#APP
	#NO_APP
	movq	(%rax), %rdx
	#APP
	#NO_APP
	xorl	%eax, %eax
	testq	%rdx, %rdx
	sete	224(%rcx)
	sete	%al
	shll	$4, %eax
	movq	%rcx, (%rdi)
	retq
.LBB32_1:
	movl	$4, %eax
	retq
.Lfunc_end32:
	.size	scq_retired, .Lfunc_end32-scq_retired
                                        # -- End function
	.section	.text.scq_spent,"ax",@progbits
	.globl	scq_spent                       # -- Begin function scq_spent
	.p2align	4
	.type	scq_spent,@function
scq_spent:                              # @scq_spent
# %bb.0:                                # %start
	movq	(%rdi), %rax
	movq	$0, (%rdi)
	testq	%rax, %rax
	je	.LBB33_1
# %bb.3:                                # %arm.1.i
	movzbl	184(%rax), %edx
	movq	192(%rax), %rcx
	movq	%rax, (%rdi)
	xorl	%eax, %eax
	cmpb	$1, %dl
	jne	.LBB33_2
# %bb.4:                                # %arm.5.i
	movq	%rcx, (%rsi)
	movl	$3, %eax
	retq
.LBB33_1:
	movl	$4, %eax
.LBB33_2:                               # %"scq_c::exports::scq_spent.exit"
	retq
.Lfunc_end33:
	.size	scq_spent, .Lfunc_end33-scq_spent
                                        # -- End function
	.section	.text.scq_give_back,"ax",@progbits
	.globl	scq_give_back                   # -- Begin function scq_give_back
	.p2align	4
	.type	scq_give_back,@function
scq_give_back:                          # @scq_give_back
# %bb.0:                                # %start
	pushq	%rbp
	pushq	%r15
	pushq	%r14
	pushq	%r13
	pushq	%r12
	pushq	%rbx
	movq	(%rdi), %rdx
	testq	%rdx, %rdx
	je	.LBB34_29
# %bb.1:                                # %arm.1.i.i.i.i
	movl	%esi, %eax
	cmpq	%rax, 240(%rdx)
	jbe	.LBB34_31
# %bb.2:                                # %else.4.i.i.i.i
	movq	232(%rdx), %rcx
	cmpb	$1, (%rcx,%rax,8)
	jne	.LBB34_31
# %bb.3:                                # %arm.1.i10.i.i.i
	movq	128(%rdx), %r9
	movl	4(%rcx,%rax,8), %esi
	movq	$0, (%rcx,%rax,8)
	cmpb	$1, 184(%rdx)
	je	.LBB34_27
# %bb.4:                                # %join.4.i.i.i.i
	movq	8(%r9), %rax
	movq	96(%r9), %r11
	movq	48(%r11), %rcx
	#APP
	#NO_APP
	movl	$1, %r8d
	lock		xaddq	%r8, (%rax,%rcx,8)
	#APP
	#NO_APP
	cmpq	%r8, 40(%r11)
	jbe	.LBB34_26
# %bb.5:                                # %join.5.i.lr.ph.i.i.i
	movq	%rcx, -8(%rsp)                  # 8-byte Spill
	leaq	1(%rsi), %r10
	jmp	.LBB34_6
.LBB34_31:
	movq	%rdx, (%rdi)
	movl	$5, %eax
	jmp	.LBB34_32
.LBB34_29:                              # %"core::mem::replace_with::<#a9f28ac8afd7ecb7>.exit.i"
	movq	$0, (%rdi)
	movl	$4, %eax
	jmp	.LBB34_32
.LBB34_25:                              # %"scq_band::enqueue::place::<#aae3f6a89b556e54>.exit.i.i.i"
                                        #   in Loop: Header=BB34_6 Depth=1
	movq	48(%r11), %rax
	movq	8(%r9), %rcx
	#APP
	#NO_APP
	movl	$1, %r8d
	lock		xaddq	%r8, (%rcx,%rax,8)
	#APP
	#NO_APP
	cmpq	%r8, 40(%r11)
	jbe	.LBB34_26
.LBB34_6:                               # %join.5.i.i.i.i
                                        # =>This Loop Header: Depth=1
                                        #     Child Loop BB34_15 Depth 2
	movl	4(%r11), %r14d
	leaq	(%r10,%r14), %rax
	movq	%r14, %r13
	notq	%r13
	andq	%r8, %r13
	leaq	(%rax,%r13,2), %r15
	andl	%r8d, %r14d
	movzbl	68(%r11), %ecx
	shrq	%cl, %r14
	movl	64(%r11), %r12d
	andl	%r8d, %r12d
	addq	48(%r11), %r14
	leaq	-1(,%r13,2), %rax
	movq	8(%r9), %rcx
	shlq	$6, %r12
	leaq	(%r12,%r14,8), %r13
	#APP
	#NO_APP
	lock		cmpxchgq	%r15, 384(%rcx,%r13)
	#APP
	#NO_APP
	je	.LBB34_22
# %bb.7:                                # %join.3.i.i.i.i
                                        #   in Loop: Header=BB34_6 Depth=1
	cmpq	%r15, %rax
	jae	.LBB34_9
# %bb.8:                                # %join.3.i.i.i.i
                                        #   in Loop: Header=BB34_6 Depth=1
	movl	4(%r11), %ecx
	leaq	1(,%rcx,2), %rcx
	movq	%rcx, %r13
	andq	%rax, %r13
	cmpq	%rcx, %r13
	jne	.LBB34_9
.LBB34_13:                              # %join.6.i.i.i.i
                                        #   in Loop: Header=BB34_6 Depth=1
	leaq	(%r12,%r14,8), %rcx
	addq	$384, %rcx                      # imm = 0x180
	movq	8(%r9), %rbx
	#APP
	#NO_APP
	lock		cmpxchgq	%r15, (%rbx,%rcx)
	#APP
	#NO_APP
	je	.LBB34_22
# %bb.14:                               # %join.9.i.i.i.i
                                        #   in Loop: Header=BB34_6 Depth=1
	movl	4(%r11), %eax
	leaq	(%r10,%rax), %rcx
	movq	%rax, %rbx
	notq	%rbx
	andq	%r8, %rbx
	leaq	(%rcx,%rbx,2), %r14
	movl	64(%r11), %ebx
	andl	%r8d, %ebx
	andl	%r8d, %eax
	movzbl	68(%r11), %ecx
	shrq	%cl, %rax
	addq	48(%r11), %rax
	shlq	$6, %rbx
	leaq	(%rbx,%rax,8), %r15
	addq	$384, %r15                      # imm = 0x180
	jmp	.LBB34_15
	.p2align	4
.LBB34_21:                              # %arm.3.i.i.i.i
                                        #   in Loop: Header=BB34_15 Depth=2
	movq	8(%r9), %rcx
	#APP
	#NO_APP
	lock		cmpxchgq	%r14, (%rcx,%r15)
	#APP
	#NO_APP
	je	.LBB34_22
.LBB34_15:                              # %loop.2.i123.i.i.i
                                        #   Parent Loop BB34_6 Depth=1
                                        # =>  This Inner Loop Header: Depth=2
	movq	8(%r9), %rax
	#APP
	#NO_APP
	movq	(%rax,%r15), %rax
	#APP
	#NO_APP
	cmpq	%r14, %rax
	jae	.LBB34_17
# %bb.16:                               # %loop.2.i123.i.i.i
                                        #   in Loop: Header=BB34_15 Depth=2
	movl	4(%r11), %ecx
	leaq	1(,%rcx,2), %rcx
	movq	%rcx, %rbx
	andq	%rax, %rbx
	cmpq	%rcx, %rbx
	je	.LBB34_21
.LBB34_17:                              # %join.3.i.i.i.i.i
                                        #   in Loop: Header=BB34_15 Depth=2
	movzbl	12(%r11), %ecx
	movq	%rax, %r12
	shrq	%cl, %r12
	movq	%r12, %rbx
	shrq	%rbx
	movq	%r8, %r13
	shrq	%cl, %r13
	cmpq	%rbx, %r13
	jbe	.LBB34_25
# %bb.18:                               # %join.3.i.i.i.i.i
                                        #   in Loop: Header=BB34_15 Depth=2
	movq	32(%r11), %rcx
	movl	%ecx, %ebx
	andl	%eax, %ebx
	cmpq	%rbx, %rcx
	jne	.LBB34_25
# %bb.19:                               # %join.9.i.i.i.i.i
                                        #   in Loop: Header=BB34_15 Depth=2
	testb	$1, %r12b
	jne	.LBB34_21
# %bb.20:                               # %"scq_band::enqueue::load_vacant::<#aae3f6a89b556e54>.exit.i.i.i"
                                        #   in Loop: Header=BB34_15 Depth=2
	movq	48(%r11), %rcx
	movq	8(%r9), %rbx
	#APP
	#NO_APP
	movq	128(%rbx,%rcx,8), %rcx
	#APP
	#NO_APP
	cmpq	%rcx, %r8
	jae	.LBB34_21
	jmp	.LBB34_25
.LBB34_9:                               # %join.3.i94.i.i.i
                                        #   in Loop: Header=BB34_6 Depth=1
	movzbl	12(%r11), %ecx
	movq	%rax, %r13
	shrq	%cl, %r13
	movq	%r13, %rbp
	shrq	%rbp
	movq	%r8, %rbx
	shrq	%cl, %rbx
	cmpq	%rbp, %rbx
	jbe	.LBB34_25
# %bb.10:                               # %join.3.i94.i.i.i
                                        #   in Loop: Header=BB34_6 Depth=1
	movq	32(%r11), %rcx
	movl	%ecx, %ebx
	andl	%eax, %ebx
	cmpq	%rbx, %rcx
	jne	.LBB34_25
# %bb.11:                               # %join.9.i108.i.i.i
                                        #   in Loop: Header=BB34_6 Depth=1
	testb	$1, %r13b
	jne	.LBB34_13
# %bb.12:                               # %"scq_band::enqueue::has_room::<#aae3f6a89b556e54>.exit.i.i.i"
                                        #   in Loop: Header=BB34_6 Depth=1
	movq	48(%r11), %rcx
	movq	8(%r9), %rbx
	#APP
	#NO_APP
	movq	128(%rbx,%rcx,8), %rcx
	#APP
	#NO_APP
	cmpq	%rcx, %r8
	jb	.LBB34_25
	jmp	.LBB34_13
.LBB34_26:                              # %arm.7.i.i.i.i
	movq	$1, 184(%rdx)
	movq	%r8, 192(%rdx)
.LBB34_27:                              # %arm.6.i.i.i.i
	movq	232(%rdx), %rax
	cmpb	$0, (%rax,%rsi,8)
	movl	$1, (%rax,%rsi,8)
	movl	%esi, 4(%rax,%rsi,8)
	jne	.LBB34_28
# %bb.30:                               # %arm.2.i.i
	movq	%rdx, (%rdi)
	movl	$3, %eax
	jmp	.LBB34_32
.LBB34_22:                              # %then.7.i.i.i.i
	movq	8(%r9), %rax
	#APP
	#NO_APP
	movq	-8(%rsp), %r10                  # 8-byte Reload
	movq	256(%rax,%r10,8), %rcx
	#APP
	#NO_APP
	movq	56(%r11), %rax
	cmpq	%rax, %rcx
	je	.LBB34_24
# %bb.23:                               # %then.1.i.i.i.i
	movq	8(%r9), %rcx
	#APP
	#NO_APP
	xchgq	%rax, 256(%rcx,%r10,8)
	#APP
	#NO_APP
.LBB34_24:                              # %arm.1.thread17.i
	movq	136(%rdx), %rax
	movb	$0, (%rax,%rsi)
	movq	160(%rdx), %rax
	movq	%r8, (%rax)
	movq	%r8, 8(%rax)
	incl	256(%rdx)
	movq	%rdx, (%rdi)
	xorl	%eax, %eax
.LBB34_32:                              # %"scq_c::exports::scq_give_back.exit"
	popq	%rbx
	popq	%r12
	popq	%r13
	popq	%r14
	popq	%r15
	popq	%rbp
	retq
.LBB34_28:                              # %arm.2.i165.i.i.i
	ud2
.Lfunc_end34:
	.size	scq_give_back, .Lfunc_end34-scq_give_back
                                        # -- End function
	.section	.text.scq_give_back_many,"ax",@progbits
	.globl	scq_give_back_many              # -- Begin function scq_give_back_many
	.p2align	4
	.type	scq_give_back_many,@function
scq_give_back_many:                     # @scq_give_back_many
# %bb.0:                                # %start
	pushq	%rbp
	pushq	%r15
	pushq	%r14
	pushq	%r13
	pushq	%r12
	pushq	%rbx
	xorl	%eax, %eax
	testq	%rsi, %rsi
	sete	%r8b
	movq	$0, (%rcx)
	movq	(%rdi), %r9
	movq	$0, (%rdi)
	testq	%r9, %r9
	je	.LBB35_1
# %bb.2:                                # %loop.2.i.preheader.i
	movq	%rdi, -32(%rsp)                 # 8-byte Spill
	movq	%rcx, -24(%rsp)                 # 8-byte Spill
	testq	%rdx, %rdx
	je	.LBB35_3
# %bb.4:                                # %join.5.i.lr.ph.i
	movb	%r8b, %al
	shll	$12, %eax
	addq	%rax, %rsi
	xorl	%r10d, %r10d
	movq	%rdx, -8(%rsp)                  # 8-byte Spill
	movq	%rsi, -16(%rsp)                 # 8-byte Spill
	jmp	.LBB35_5
	.p2align	4
.LBB35_28:                              # %arm.6.i26.i.i
                                        #   in Loop: Header=BB35_5 Depth=1
	movq	136(%r9), %rax
	movq	-40(%rsp), %rcx                 # 8-byte Reload
	movb	$0, (%rax,%rcx)
	movq	160(%r9), %rax
	movq	%r14, (%rax)
	movq	%r14, 8(%rax)
	incl	256(%r9)
	incq	%r10
	movq	-8(%rsp), %rdx                  # 8-byte Reload
	cmpq	%rdx, %r10
	movq	-16(%rsp), %rsi                 # 8-byte Reload
	je	.LBB35_29
.LBB35_5:                               # %join.5.i.i
                                        # =>This Loop Header: Depth=1
                                        #     Child Loop BB35_10 Depth 2
                                        #       Child Loop BB35_19 Depth 3
	movq	%r10, %rax
	shlq	$5, %rax
	movl	24(%rsi,%rax), %ecx
	movl	$5, %eax
	cmpq	%rcx, 240(%r9)
	jbe	.LBB35_33
# %bb.6:                                # %else.4.i.i.i
                                        #   in Loop: Header=BB35_5 Depth=1
	movq	232(%r9), %rdi
	cmpb	$1, (%rdi,%rcx,8)
	jne	.LBB35_33
# %bb.7:                                # %arm.1.i.i.i
                                        #   in Loop: Header=BB35_5 Depth=1
	movq	128(%r9), %rbx
	movl	4(%rdi,%rcx,8), %r8d
	movq	$0, (%rdi,%rcx,8)
	cmpb	$1, 184(%r9)
	je	.LBB35_32
# %bb.8:                                # %join.4.i.i.i
                                        #   in Loop: Header=BB35_5 Depth=1
	movq	8(%rbx), %rax
	movq	96(%rbx), %r12
	movq	48(%r12), %r15
	#APP
	#NO_APP
	movl	$1, %r14d
	lock		xaddq	%r14, (%rax,%r15,8)
	#APP
	#NO_APP
	cmpq	%r14, 40(%r12)
	movq	%r8, -40(%rsp)                  # 8-byte Spill
	jbe	.LBB35_31
# %bb.9:                                # %join.5.i.i.lr.ph.i
                                        #   in Loop: Header=BB35_5 Depth=1
	leaq	1(%r8), %rax
	jmp	.LBB35_10
	.p2align	4
.LBB35_30:                              # %"scq_band::enqueue::place::<#aae3f6a89b556e54>.exit.i.i"
                                        #   in Loop: Header=BB35_10 Depth=2
	movq	48(%r12), %rax
	movq	8(%rbx), %rcx
	#APP
	#NO_APP
	movl	$1, %r14d
	lock		xaddq	%r14, (%rcx,%rax,8)
	#APP
	#NO_APP
	cmpq	%r14, 40(%r12)
	movq	%r11, %rax
	jbe	.LBB35_31
.LBB35_10:                              # %join.5.i.i.i
                                        #   Parent Loop BB35_5 Depth=1
                                        # =>  This Loop Header: Depth=2
                                        #       Child Loop BB35_19 Depth 3
	movl	4(%r12), %ebp
	movq	%rax, %r11
	addq	%rbp, %rax
	movq	%rbp, %rdi
	notq	%rdi
	andq	%r14, %rdi
	leaq	(%rax,%rdi,2), %r8
	andl	%r14d, %ebp
	movzbl	68(%r12), %ecx
	shrq	%cl, %rbp
	movl	64(%r12), %r13d
	andl	%r14d, %r13d
	addq	48(%r12), %rbp
	leaq	-1(,%rdi,2), %rax
	movq	8(%rbx), %rcx
	shlq	$6, %r13
	leaq	(,%rbp,8), %rdi
	addq	%r13, %rdi
	#APP
	#NO_APP
	lock		cmpxchgq	%r8, 384(%rcx,%rdi)
	#APP
	#NO_APP
	je	.LBB35_26
# %bb.11:                               # %join.3.i.i.i
                                        #   in Loop: Header=BB35_10 Depth=2
	cmpq	%r8, %rax
	jae	.LBB35_13
# %bb.12:                               # %join.3.i.i.i
                                        #   in Loop: Header=BB35_10 Depth=2
	movl	4(%r12), %ecx
	leaq	1(,%rcx,2), %rcx
	movq	%rcx, %rdi
	andq	%rax, %rdi
	cmpq	%rcx, %rdi
	jne	.LBB35_13
.LBB35_17:                              # %join.6.i.i.i
                                        #   in Loop: Header=BB35_10 Depth=2
	leaq	384(,%rbp,8), %rcx
	addq	%r13, %rcx
	movq	8(%rbx), %rdx
	#APP
	#NO_APP
	lock		cmpxchgq	%r8, (%rdx,%rcx)
	#APP
	#NO_APP
	je	.LBB35_26
# %bb.18:                               # %join.9.i.i.i
                                        #   in Loop: Header=BB35_10 Depth=2
	movl	4(%r12), %eax
	leaq	(%r11,%rax), %rcx
	movq	%rax, %rdx
	notq	%rdx
	andq	%r14, %rdx
	leaq	(%rcx,%rdx,2), %r8
	movl	64(%r12), %edx
	andl	%r14d, %edx
	andl	%r14d, %eax
	movzbl	68(%r12), %ecx
	shrq	%cl, %rax
	addq	48(%r12), %rax
	shlq	$6, %rdx
	leaq	(%rdx,%rax,8), %r13
	addq	$384, %r13                      # imm = 0x180
	jmp	.LBB35_19
	.p2align	4
.LBB35_25:                              # %arm.3.i.i.i
                                        #   in Loop: Header=BB35_19 Depth=3
	movq	8(%rbx), %rcx
	#APP
	#NO_APP
	lock		cmpxchgq	%r8, (%rcx,%r13)
	#APP
	#NO_APP
	je	.LBB35_26
.LBB35_19:                              # %loop.2.i110.i.i
                                        #   Parent Loop BB35_5 Depth=1
                                        #     Parent Loop BB35_10 Depth=2
                                        # =>    This Inner Loop Header: Depth=3
	movq	8(%rbx), %rax
	#APP
	#NO_APP
	movq	(%rax,%r13), %rax
	#APP
	#NO_APP
	cmpq	%r8, %rax
	jae	.LBB35_21
# %bb.20:                               # %loop.2.i110.i.i
                                        #   in Loop: Header=BB35_19 Depth=3
	movl	4(%r12), %ecx
	leaq	1(,%rcx,2), %rcx
	movq	%rcx, %rdx
	andq	%rax, %rdx
	cmpq	%rcx, %rdx
	je	.LBB35_25
.LBB35_21:                              # %join.3.i.i.i.i
                                        #   in Loop: Header=BB35_19 Depth=3
	movzbl	12(%r12), %ecx
	movq	%rax, %rdi
	shrq	%cl, %rdi
	movq	%rdi, %rdx
	shrq	%rdx
	movq	%r14, %rsi
	shrq	%cl, %rsi
	cmpq	%rdx, %rsi
	jbe	.LBB35_30
# %bb.22:                               # %join.3.i.i.i.i
                                        #   in Loop: Header=BB35_19 Depth=3
	movq	32(%r12), %rcx
	movl	%ecx, %edx
	andl	%eax, %edx
	cmpq	%rdx, %rcx
	jne	.LBB35_30
# %bb.23:                               # %join.9.i.i.i.i
                                        #   in Loop: Header=BB35_19 Depth=3
	testb	$1, %dil
	jne	.LBB35_25
# %bb.24:                               # %"scq_band::enqueue::load_vacant::<#aae3f6a89b556e54>.exit.i.i"
                                        #   in Loop: Header=BB35_19 Depth=3
	movq	48(%r12), %rcx
	movq	8(%rbx), %rdx
	#APP
	#NO_APP
	movq	128(%rdx,%rcx,8), %rcx
	#APP
	#NO_APP
	cmpq	%rcx, %r14
	jae	.LBB35_25
	jmp	.LBB35_30
	.p2align	4
.LBB35_13:                              # %join.3.i81.i.i
                                        #   in Loop: Header=BB35_10 Depth=2
	movzbl	12(%r12), %ecx
	movq	%rax, %rdx
	shrq	%cl, %rdx
	movq	%rdx, %rdi
	shrq	%rdi
	movq	%r14, %rsi
	shrq	%cl, %rsi
	cmpq	%rdi, %rsi
	jbe	.LBB35_30
# %bb.14:                               # %join.3.i81.i.i
                                        #   in Loop: Header=BB35_10 Depth=2
	movq	32(%r12), %rcx
	movl	%ecx, %esi
	andl	%eax, %esi
	cmpq	%rsi, %rcx
	jne	.LBB35_30
# %bb.15:                               # %join.9.i95.i.i
                                        #   in Loop: Header=BB35_10 Depth=2
	testb	$1, %dl
	jne	.LBB35_17
# %bb.16:                               # %"scq_band::enqueue::has_room::<#aae3f6a89b556e54>.exit.i.i"
                                        #   in Loop: Header=BB35_10 Depth=2
	movq	48(%r12), %rcx
	movq	8(%rbx), %rdx
	#APP
	#NO_APP
	movq	128(%rdx,%rcx,8), %rcx
	#APP
	#NO_APP
	cmpq	%rcx, %r14
	jb	.LBB35_30
	jmp	.LBB35_17
	.p2align	4
.LBB35_26:                              # %then.7.i.i.i
                                        #   in Loop: Header=BB35_5 Depth=1
	movq	8(%rbx), %rax
	#APP
	#NO_APP
	movq	256(%rax,%r15,8), %rcx
	#APP
	#NO_APP
	movq	56(%r12), %rax
	cmpq	%rax, %rcx
	je	.LBB35_28
# %bb.27:                               # %then.1.i.i.i
                                        #   in Loop: Header=BB35_5 Depth=1
	movq	8(%rbx), %rcx
	#APP
	#NO_APP
	xchgq	%rax, 256(%rcx,%r15,8)
	#APP
	#NO_APP
	jmp	.LBB35_28
.LBB35_1:
	movl	$4, %eax
	jmp	.LBB35_34
.LBB35_3:
	xorl	%r10d, %r10d
	xorl	%eax, %eax
	jmp	.LBB35_33
.LBB35_31:                              # %arm.7.i.i.i
	movq	$1, 184(%r9)
	movq	%r14, 192(%r9)
	movq	-40(%rsp), %r8                  # 8-byte Reload
.LBB35_32:                              # %arm.6.i.i.i
	movq	232(%r9), %rax
	cmpb	$0, (%rax,%r8,8)
	movl	$1, (%rax,%r8,8)
	movl	%r8d, 4(%rax,%r8,8)
	movl	$3, %eax
	je	.LBB35_33
# %bb.35:                               # %arm.2.i152.i.i
	ud2
.LBB35_29:
	xorl	%eax, %eax
	movq	%rdx, %r10
.LBB35_33:                              # %"scq_c::many::give_back_each.exit.i"
	movq	-32(%rsp), %rcx                 # 8-byte Reload
	movq	%r9, (%rcx)
	movq	-24(%rsp), %rcx                 # 8-byte Reload
	movq	%r10, (%rcx)
.LBB35_34:                              # %"scq_c::many::scq_give_back_many.exit"
	popq	%rbx
	popq	%r12
	popq	%r13
	popq	%r14
	popq	%r15
	popq	%rbp
	retq
.Lfunc_end35:
	.size	scq_give_back_many, .Lfunc_end35-scq_give_back_many
                                        # -- End function
	.section	.text.scq_lend_index,"ax",@progbits
	.globl	scq_lend_index                  # -- Begin function scq_lend_index
	.p2align	4
	.type	scq_lend_index,@function
scq_lend_index:                         # @scq_lend_index
# %bb.0:                                # %start
	pushq	%rbp
	pushq	%r15
	pushq	%r14
	pushq	%r13
	pushq	%r12
	pushq	%rbx
	movq	(%rdi), %r9
	testq	%r9, %r9
	je	.LBB36_31
# %bb.1:                                # %arm.1.i.i.i.i
	cmpl	$0, 256(%r9)
	je	.LBB36_33
# %bb.2:                                # %join.3.i.i.i.i
	cmpb	$1, 184(%r9)
	jne	.LBB36_4
# %bb.3:                                # %"scq_band::band::Band::get::<#aae3f6a89b556e54>.exit.thread.i.i.i"
	movq	192(%r9), %r8
.LBB36_35:                              # %arm.7.i.i
	movq	%r9, (%rdi)
	movq	%r8, 16(%rsi)
	movl	$3, %eax
	jmp	.LBB36_36
.LBB36_31:                              # %"core::mem::replace_with::<#24879486ba3a1dd0>.exit.i"
	movq	$0, (%rdi)
	movl	$4, %eax
	jmp	.LBB36_36
.LBB36_33:                              # %arm.2.i.i
	movq	%r9, (%rdi)
	movl	$7, %eax
	jmp	.LBB36_36
.LBB36_4:                               # %join.4.i.i.i.i
	movq	%r9, %rdx
	movq	128(%r9), %r10
	movq	8(%r10), %rax
	movq	96(%r10), %r9
	movq	48(%r9), %rcx
	#APP
	#NO_APP
	movq	256(%rax,%rcx,8), %rax
	#APP
	#NO_APP
	shrq	$32, %rax
	jne	.LBB36_5
# %bb.20:                               # %arm.1.i155.i.i.i
	movq	160(%rdx), %r9
	leaq	16(%r9), %rax
	movq	16(%r9), %rcx
	movq	%rcx, %r8
.LBB36_23:                              # %"scq_band::numbers::Numbers::finds_none.exit.i.i.i"
	movq	(%r9), %r9
	incq	%r9
	cmpq	%r8, %r9
	cmovbeq	%r8, %r9
	cmpq	%r9, %rcx
	jae	.LBB36_25
# %bb.24:                               # %then.1.i160.i.i.i
	movq	%r9, (%rax)
.LBB36_25:                              # %arm.5.i28.i.i.i
	movq	216(%rdx), %rax
	cmpq	$-1, %rax
	je	.LBB36_27
# %bb.26:                               # %arm.1.i181.i.i.i
	incq	%rax
	movq	%rax, 216(%rdx)
.LBB36_27:                              # %arm.6.i.i
	movq	%rdx, (%rdi)
	movq	%r9, 16(%rsi)
	movl	$2, %eax
	jmp	.LBB36_36
.LBB36_5:                               # %loop.5.i.preheader.i.i.i
	movq	%rdx, -8(%rsp)                  # 8-byte Spill
.LBB36_6:                               # %loop.5.i.i.i.i
                                        # =>This Loop Header: Depth=1
                                        #     Child Loop BB36_8 Depth 2
	movq	48(%r9), %rax
	movq	8(%r10), %rcx
	#APP
	#NO_APP
	movl	$1, %r8d
	lock		xaddq	%r8, 128(%rcx,%rax,8)
	#APP
	#NO_APP
	cmpq	%r8, 40(%r9)
	jbe	.LBB36_34
# %bb.7:                                # %join.8.i.i.i.i
                                        #   in Loop: Header=BB36_6 Depth=1
	movl	64(%r9), %eax
	andl	%r8d, %eax
	movl	4(%r9), %r11d
	andl	%r8d, %r11d
	movzbl	68(%r9), %ecx
	shrq	%cl, %r11
	shlq	$3, %rax
	addq	48(%r9), %rax
	addq	%rax, %r11
	addq	$48, %r11
	.p2align	4
.LBB36_8:                               # %loop.2.i.i.i.i
                                        #   Parent Loop BB36_6 Depth=1
                                        # =>  This Inner Loop Header: Depth=2
	movq	8(%r10), %rax
	#APP
	#NO_APP
	movq	(%rax,%r11,8), %rax
	#APP
	#NO_APP
	movq	%rax, %rcx
	shrq	%rcx
	xorq	%r8, %rcx
	movl	4(%r9), %ebx
	cmpq	%rbx, %rcx
	jbe	.LBB36_9
# %bb.13:                               # %join.5.i.i.i.i
                                        #   in Loop: Header=BB36_8 Depth=2
	movzbl	12(%r9), %ecx
	movq	%rax, %rbx
	shrq	%cl, %rbx
	movq	%rbx, %r14
	shrq	%r14
	movq	%r8, %r12
	shrq	%cl, %r12
	cmpq	%r14, %r12
	jb	.LBB36_15
# %bb.14:                               # %join.9.i.i.i.i
                                        #   in Loop: Header=BB36_8 Depth=2
	movzbl	8(%r9), %ecx
	movq	32(%r9), %r15
	movq	%r15, %r13
	movl	$2, %ebp
	shll	%cl, %ebp
	andq	%rax, %r13
	movl	%r13d, %ecx
	decl	%ebp
	xorl	%edx, %edx
	cmpq	%rcx, %r15
	sete	%dl
	cmoveq	%r12, %r14
	cmovnel	%r13d, %ebp
	andl	%edx, %ebx
	incq	%r15
	leaq	(%rbx,%r14,2), %rcx
	imulq	%r15, %rcx
	addq	%rbp, %rcx
	movq	8(%r10), %rdx
	#APP
	#NO_APP
	lock		cmpxchgq	%rcx, (%rdx,%r11,8)
	#APP
	#NO_APP
	jne	.LBB36_8
.LBB36_15:                              # %join.12.i.i.i.i
                                        #   in Loop: Header=BB36_6 Depth=1
	movq	48(%r9), %rax
	movq	8(%r10), %rcx
	#APP
	#NO_APP
	movq	(%rcx,%rax,8), %rax
	#APP
	#NO_APP
	incq	%r8
	cmpq	%r8, %rax
	jbe	.LBB36_16
# %bb.21:                               # %"scq_band::dequeue::give_up::<#aae3f6a89b556e54>.exit.i.i.i"
                                        #   in Loop: Header=BB36_6 Depth=1
	movq	48(%r9), %rax
	movq	8(%r10), %rcx
	#APP
	#NO_APP
	movq	$-1, %rdx
	lock		xaddq	%rdx, 256(%rcx,%rax,8)
	#APP
	#NO_APP
	movabsq	$4294967297, %rax               # imm = 0x100000001
	cmpq	%rax, %rdx
	jae	.LBB36_6
	jmp	.LBB36_22
.LBB36_9:                               # %then.3.i.i.i.i
	movq	8(%r10), %r10
	.p2align	4
.LBB36_10:                              # %loop.2.i.i.i.i.i.i
                                        # =>This Inner Loop Header: Depth=1
	#APP
	#NO_APP
	movq	(%r10,%r11,8), %rcx
	#APP
	#NO_APP
	movq	%rcx, %r14
	orq	%rbx, %r14
	#APP
	#NO_APP
	movq	%rcx, %rax
	lock		cmpxchgq	%r14, (%r10,%r11,8)
	#APP
	#NO_APP
	jne	.LBB36_10
# %bb.11:                               # %arm.5.i59.i.i.i
	andl	4(%r9), %ecx
	movq	-8(%rsp), %r10                  # 8-byte Reload
	movq	160(%r10), %r9
	leaq	1(%r8), %rax
	cmpq	%r8, 8(%r9)
	jae	.LBB36_28
# %bb.12:                               # %then.1.i144.i.i.i
	movq	%r8, 8(%r9)
	movq	160(%r10), %rdx
	movq	%rax, 16(%rdx)
	jmp	.LBB36_29
.LBB36_28:                              # %join.3.i140.i.i.i
	movq	%rax, 16(%r9)
.LBB36_29:                              # %arm.1.i19.i.i.i
	movq	136(%r10), %rax
	movb	$1, (%rax,%rcx)
	decl	256(%r10)
	movq	232(%r10), %rax
	cmpb	$0, (%rax,%rcx,8)
	movl	$1, (%rax,%rcx,8)
	movl	%ecx, 4(%rax,%rcx,8)
	jne	.LBB36_30
# %bb.32:                               # %arm.1.i.i
	movq	%r10, (%rdi)
	movq	$0, 16(%rsi)
	movl	%ecx, 24(%rsi)
	xorl	%eax, %eax
.LBB36_36:                              # %"scq_c::exports::scq_lend_index.exit"
	popq	%rbx
	popq	%r12
	popq	%r13
	popq	%r14
	popq	%r15
	popq	%rbp
	retq
.LBB36_34:                              # %arm.9.i.i.i.i
	movq	-8(%rsp), %r9                   # 8-byte Reload
	movq	160(%r9), %rax
	movq	16(%rax), %rcx
	leaq	1(%r8), %rdx
	cmpq	%rcx, %rdx
	cmovaq	%rdx, %rcx
	movq	%rcx, 16(%rax)
	movq	$1, 184(%r9)
	movq	%r8, 192(%r9)
	jmp	.LBB36_35
.LBB36_16:                              # %loop.2.i265.i.i.i.preheader
	movq	%r8, %rcx
.LBB36_17:                              # %loop.2.i265.i.i.i
                                        # =>This Inner Loop Header: Depth=1
	movq	48(%r9), %rdx
	movq	8(%r10), %r11
	#APP
	#NO_APP
	lock		cmpxchgq	%rcx, (%r11,%rdx,8)
	#APP
	#NO_APP
	je	.LBB36_19
# %bb.18:                               # %join.5.i270.i.i.i
                                        #   in Loop: Header=BB36_17 Depth=1
	movq	48(%r9), %rax
	movq	8(%r10), %rcx
	#APP
	#NO_APP
	movq	128(%rcx,%rax,8), %rcx
	#APP
	#NO_APP
	movq	48(%r9), %rax
	movq	8(%r10), %rdx
	#APP
	#NO_APP
	movq	(%rdx,%rax,8), %rax
	#APP
	#NO_APP
	cmpq	%rax, %rcx
	ja	.LBB36_17
.LBB36_19:                              # %"scq_band::dequeue::give_up::<#aae3f6a89b556e54>.exit.thread.i.i.i"
	movq	48(%r9), %rax
	movq	8(%r10), %rcx
	#APP
	#NO_APP
	lock		decq	256(%rcx,%rax,8)
	#APP
	#NO_APP
.LBB36_22:                              # %arm.2.i151.i.i.i
	movq	-8(%rsp), %rdx                  # 8-byte Reload
	movq	160(%rdx), %r9
	leaq	16(%r9), %rax
	movq	16(%r9), %rcx
	cmpq	%rcx, %r8
	cmovbeq	%rcx, %r8
	jmp	.LBB36_23
.LBB36_30:                              # %arm.2.i.i.i.i.i
	ud2
.Lfunc_end36:
	.size	scq_lend_index, .Lfunc_end36-scq_lend_index
                                        # -- End function
	.section	.text.scq_lend_index_many,"ax",@progbits
	.globl	scq_lend_index_many             # -- Begin function scq_lend_index_many
	.p2align	4
	.type	scq_lend_index_many,@function
scq_lend_index_many:                    # @scq_lend_index_many
# %bb.0:                                # %start
	pushq	%rbp
	pushq	%r15
	pushq	%r14
	pushq	%r13
	pushq	%r12
	pushq	%rbx
	xorl	%eax, %eax
	movq	%rsi, -40(%rsp)                 # 8-byte Spill
	testq	%rsi, %rsi
	sete	%sil
	movq	$0, (%rcx)
	movq	(%rdi), %r10
	movq	$0, (%rdi)
	testq	%r10, %r10
	je	.LBB37_22
# %bb.1:                                # %arm.1.i
	testq	%rdx, %rdx
	je	.LBB37_23
# %bb.2:                                # %join.5.i.lr.ph.i
	movq	%rdi, -72(%rsp)                 # 8-byte Spill
	movq	%rcx, -64(%rsp)                 # 8-byte Spill
	movb	%sil, %al
	shll	$12, %eax
	addq	%rax, -40(%rsp)                 # 8-byte Folded Spill
	xorl	%r8d, %r8d
	movq	%rdx, -32(%rsp)                 # 8-byte Spill
.LBB37_3:                               # %join.5.i.i
                                        # =>This Loop Header: Depth=1
                                        #     Child Loop BB37_7 Depth 2
                                        #       Child Loop BB37_9 Depth 3
                                        #     Child Loop BB37_15 Depth 2
	movq	%r8, %r14
	shlq	$5, %r14
	movq	-40(%rsp), %rcx                 # 8-byte Reload
	movl	28(%rcx,%r14), %esi
	movups	(%rcx,%r14), %xmm0
	movaps	%xmm0, -24(%rsp)
	cmpl	$0, 256(%r10)
	je	.LBB37_30
# %bb.4:                                # %join.3.i.i.i
                                        #   in Loop: Header=BB37_3 Depth=1
	movl	$3, %eax
	cmpb	$1, 184(%r10)
	je	.LBB37_31
# %bb.5:                                # %join.4.i.i.i
                                        #   in Loop: Header=BB37_3 Depth=1
	movl	%esi, -52(%rsp)                 # 4-byte Spill
	movq	%r8, -48(%rsp)                  # 8-byte Spill
	movq	128(%r10), %r12
	movq	8(%r12), %rax
	movq	96(%r12), %r15
	movq	48(%r15), %rcx
	#APP
	#NO_APP
	movq	256(%rax,%rcx,8), %rax
	#APP
	#NO_APP
	shrq	$32, %rax
	je	.LBB37_32
# %bb.6:                                # %loop.5.i.i.preheader.i
                                        #   in Loop: Header=BB37_3 Depth=1
	addq	-40(%rsp), %r14                 # 8-byte Folded Reload
.LBB37_7:                               # %loop.5.i.i.i
                                        #   Parent Loop BB37_3 Depth=1
                                        # =>  This Loop Header: Depth=2
                                        #       Child Loop BB37_9 Depth 3
	movq	48(%r15), %rax
	movq	8(%r12), %rcx
	#APP
	#NO_APP
	movl	$1, %edx
	lock		xaddq	%rdx, 128(%rcx,%rax,8)
	#APP
	#NO_APP
	cmpq	%rdx, 40(%r15)
	jbe	.LBB37_24
# %bb.8:                                # %join.8.i.i.i
                                        #   in Loop: Header=BB37_7 Depth=2
	movl	64(%r15), %eax
	andl	%edx, %eax
	movl	4(%r15), %edi
	andl	%edx, %edi
	movzbl	68(%r15), %ecx
	shrq	%cl, %rdi
	shlq	$3, %rax
	addq	48(%r15), %rax
	leaq	(%rdi,%rax), %r13
	addq	$48, %r13
	.p2align	4
.LBB37_9:                               # %loop.2.i.i.i
                                        #   Parent Loop BB37_3 Depth=1
                                        #     Parent Loop BB37_7 Depth=2
                                        # =>    This Inner Loop Header: Depth=3
	movq	8(%r12), %rax
	#APP
	#NO_APP
	movq	(%rax,%r13,8), %rbp
	#APP
	#NO_APP
	movq	%rbp, %rax
	shrq	%rax
	xorq	%rdx, %rax
	movl	4(%r15), %edi
	cmpq	%rdi, %rax
	jbe	.LBB37_14
# %bb.10:                               # %join.5.i.i.i
                                        #   in Loop: Header=BB37_9 Depth=3
	movzbl	12(%r15), %ecx
	movq	%rbp, %r8
	shrq	%cl, %r8
	movq	%r8, %rax
	shrq	%rax
	movq	%rdx, %rbx
	shrq	%cl, %rbx
	cmpq	%rax, %rbx
	jb	.LBB37_12
# %bb.11:                               # %join.9.i.i.i
                                        #   in Loop: Header=BB37_9 Depth=3
	movq	32(%r15), %r9
	movq	%r9, %rdi
	movzbl	8(%r15), %ecx
	movl	$2, %esi
	shll	%cl, %esi
	andq	%rbp, %rdi
	movl	%edi, %ecx
	decl	%esi
	xorl	%r11d, %r11d
	cmpq	%rcx, %r9
	sete	%r11b
	cmoveq	%rbx, %rax
	cmovnel	%edi, %esi
	andl	%r11d, %r8d
	incq	%r9
	leaq	(%r8,%rax,2), %rcx
	imulq	%r9, %rcx
	addq	%rsi, %rcx
	movq	8(%r12), %rsi
	#APP
	#NO_APP
	movq	%rbp, %rax
	lock		cmpxchgq	%rcx, (%rsi,%r13,8)
	#APP
	#NO_APP
	jne	.LBB37_9
.LBB37_12:                              # %join.12.i.i.i
                                        #   in Loop: Header=BB37_7 Depth=2
	movq	48(%r15), %rax
	movq	8(%r12), %rcx
	#APP
	#NO_APP
	movq	(%rcx,%rax,8), %rax
	#APP
	#NO_APP
	incq	%rdx
	cmpq	%rdx, %rax
	jbe	.LBB37_25
# %bb.13:                               # %"scq_band::dequeue::give_up::<#aae3f6a89b556e54>.exit.i.i"
                                        #   in Loop: Header=BB37_7 Depth=2
	movq	48(%r15), %rax
	movq	8(%r12), %rcx
	#APP
	#NO_APP
	movq	$-1, %rsi
	lock		xaddq	%rsi, 256(%rcx,%rax,8)
	#APP
	#NO_APP
	movabsq	$4294967296, %rax               # imm = 0x100000000
	cmpq	%rax, %rsi
	ja	.LBB37_7
	jmp	.LBB37_29
	.p2align	4
.LBB37_14:                              # %then.3.i.i.i
                                        #   in Loop: Header=BB37_3 Depth=1
	movq	8(%r12), %r8
	.p2align	4
.LBB37_15:                              # %loop.2.i.i.i.i
                                        #   Parent Loop BB37_3 Depth=1
                                        # =>  This Inner Loop Header: Depth=2
	#APP
	#NO_APP
	movq	(%r8,%r13,8), %rcx
	#APP
	#NO_APP
	movq	%rcx, %r9
	orq	%rdi, %r9
	#APP
	#NO_APP
	movq	%rcx, %rax
	lock		cmpxchgq	%r9, (%r8,%r13,8)
	#APP
	#NO_APP
	jne	.LBB37_15
# %bb.16:                               # %arm.5.i45.i.i
                                        #   in Loop: Header=BB37_3 Depth=1
	andl	4(%r15), %ecx
	movq	160(%r10), %rdi
	leaq	1(%rdx), %rax
	cmpq	%rdx, 8(%rdi)
	jae	.LBB37_18
# %bb.17:                               # %then.1.i127.i.i
                                        #   in Loop: Header=BB37_3 Depth=1
	movq	%rdx, 8(%rdi)
	movq	160(%r10), %rdx
	movq	%rax, 16(%rdx)
	jmp	.LBB37_19
	.p2align	4
.LBB37_18:                              # %join.3.i123.i.i
                                        #   in Loop: Header=BB37_3 Depth=1
	movq	%rax, 16(%rdi)
.LBB37_19:                              # %arm.1.i.i.i
                                        #   in Loop: Header=BB37_3 Depth=1
	movq	-32(%rsp), %rdx                 # 8-byte Reload
	movl	-52(%rsp), %esi                 # 4-byte Reload
	movq	136(%r10), %rax
	movb	$1, (%rax,%rcx)
	decl	256(%r10)
	movq	232(%r10), %rax
	cmpb	$0, (%rax,%rcx,8)
	movl	$1, (%rax,%rcx,8)
	movl	%ecx, 4(%rax,%rcx,8)
	jne	.LBB37_40
# %bb.20:                               # %join.8.i.i
                                        #   in Loop: Header=BB37_3 Depth=1
	movaps	-24(%rsp), %xmm0
	movups	%xmm0, (%r14)
	movq	$0, 16(%r14)
	movl	%ecx, 24(%r14)
	movl	%esi, 28(%r14)
	movq	-48(%rsp), %r8                  # 8-byte Reload
	incq	%r8
	cmpq	%rdx, %r8
	jne	.LBB37_3
# %bb.21:
	xorl	%eax, %eax
	movq	%rdx, %r8
	jmp	.LBB37_31
.LBB37_22:
	movl	$4, %eax
	jmp	.LBB37_39
.LBB37_23:
	xorl	%r8d, %r8d
	xorl	%eax, %eax
	jmp	.LBB37_38
.LBB37_24:                              # %arm.6.i43.i.thread1317.i
	movq	160(%r10), %rax
	movq	16(%rax), %rcx
	leaq	1(%rdx), %rdi
	cmpq	%rcx, %rdi
	cmovaq	%rdi, %rcx
	movq	%rcx, 16(%rax)
	movq	$1, 184(%r10)
	movq	%rdx, 192(%r10)
	movq	-64(%rsp), %rcx                 # 8-byte Reload
	movq	-72(%rsp), %rdi                 # 8-byte Reload
	movq	-48(%rsp), %r8                  # 8-byte Reload
	movl	$3, %eax
	jmp	.LBB37_38
.LBB37_25:                              # %loop.2.i72.i.preheader
	movq	%rdx, %rcx
	.p2align	4
.LBB37_26:                              # %loop.2.i72.i
                                        # =>This Inner Loop Header: Depth=1
	movq	48(%r15), %rsi
	movq	8(%r12), %rdi
	#APP
	#NO_APP
	lock		cmpxchgq	%rcx, (%rdi,%rsi,8)
	#APP
	#NO_APP
	je	.LBB37_28
# %bb.27:                               # %join.5.i76.i
                                        #   in Loop: Header=BB37_26 Depth=1
	movq	48(%r15), %rax
	movq	8(%r12), %rcx
	#APP
	#NO_APP
	movq	128(%rcx,%rax,8), %rcx
	#APP
	#NO_APP
	movq	48(%r15), %rax
	movq	8(%r12), %rsi
	#APP
	#NO_APP
	movq	(%rsi,%rax,8), %rax
	#APP
	#NO_APP
	cmpq	%rax, %rcx
	ja	.LBB37_26
.LBB37_28:                              # %arm.8.i.i.i
	movq	48(%r15), %rax
	movq	8(%r12), %rcx
	#APP
	#NO_APP
	lock		decq	256(%rcx,%rax,8)
	#APP
	#NO_APP
.LBB37_29:
	movq	160(%r10), %r8
	leaq	16(%r8), %rax
	movq	16(%r8), %rsi
	cmpq	%rsi, %rdx
	cmovbeq	%rsi, %rdx
	jmp	.LBB37_33
.LBB37_30:
	movl	$7, %eax
.LBB37_31:                              # %"scq_c::many::lend_each.exit.i"
	movq	-64(%rsp), %rcx                 # 8-byte Reload
	movq	-72(%rsp), %rdi                 # 8-byte Reload
	jmp	.LBB37_38
.LBB37_32:                              # %arm.8.i.i.i.thread
	movq	160(%r10), %r8
	leaq	16(%r8), %rax
	movq	16(%r8), %rsi
	movq	%rsi, %rdx
.LBB37_33:
	movq	-64(%rsp), %rcx                 # 8-byte Reload
	movq	-72(%rsp), %rdi                 # 8-byte Reload
	movq	(%r8), %r8
	incq	%r8
	cmpq	%rdx, %r8
	cmovbeq	%rdx, %r8
	cmpq	%r8, %rsi
	jae	.LBB37_35
# %bb.34:                               # %then.1.i143.i.i
	movq	%r8, (%rax)
.LBB37_35:                              # %arm.5.i16.i.i
	movq	216(%r10), %rdx
	movl	$2, %eax
	cmpq	$-1, %rdx
	je	.LBB37_37
# %bb.36:                               # %arm.1.i164.i.i
	incq	%rdx
	movq	%rdx, 216(%r10)
.LBB37_37:
	movq	-48(%rsp), %r8                  # 8-byte Reload
.LBB37_38:                              # %"scq_c::many::lend_each.exit.i"
	movq	%r10, (%rdi)
	movq	%r8, (%rcx)
.LBB37_39:                              # %"scq_c::many::scq_lend_index_many.exit"
	popq	%rbx
	popq	%r12
	popq	%r13
	popq	%r14
	popq	%r15
	popq	%rbp
	retq
.LBB37_40:                              # %arm.2.i.i.i.i
	ud2
.Lfunc_end37:
	.size	scq_lend_index_many, .Lfunc_end37-scq_lend_index_many
                                        # -- End function
	.section	.text.scq_open_over,"ax",@progbits
	.globl	scq_open_over                   # -- Begin function scq_open_over
	.p2align	4
	.type	scq_open_over,@function
scq_open_over:                          # @scq_open_over
# %bb.0:                                # %start
	pushq	%r15
	pushq	%r14
	pushq	%r13
	pushq	%r12
	pushq	%rbx
	subq	$64, %rsp
                                        # kill: def $edx killed $edx def $rdx
                                        # kill: def $esi killed $esi def $rsi
                                        # kill: def $edi killed $edi def $rdi
	xorl	%r14d, %r14d
	testq	%r9, %r9
	sete	%r10b
	xorps	%xmm0, %xmm0
	movaps	%xmm0, 32(%rsp)
	movaps	%xmm0, 48(%rsp)
	leal	-32(%rsi), %r11d
	movl	$10, %eax
	cmpl	$-31, %r11d
	jb	.LBB38_22
# %bb.1:                                # %after.1.i.i
	movq	112(%rsp), %r15
	movq	%r15, %rbx
	shrq	$32, %rbx
	movabsq	$4294967296, %r11               # imm = 0x100000000
	cmpq	%r11, %r15
	cmovbq	%r15, %r11
	movl	$11, %eax
	testq	%rbx, %rbx
	jne	.LBB38_22
# %bb.2:                                # %arm.11.i.i
	leal	-1(%rdi), %ebx
	movl	$9, %eax
	cmpl	$15, %ebx
	ja	.LBB38_22
# %bb.3:                                # %arm.1.i.i.i
	addl	$-4097, %r11d                   # imm = 0xEFFF
	movl	$11, %eax
	cmpl	$-4096, %r11d                   # imm = 0xF000
	jb	.LBB38_22
# %bb.4:                                # %after.15.i.i.i
	movl	$1, %r11d
	movq	%rcx, %rax
	movl	%edi, %ecx
	shll	%cl, %r11d
	movq	%rax, %rcx
	movl	%r11d, %eax
	shlq	$3, %rax
	cmpq	%rax, %rcx
	setb	%al
	movabsq	$1152921504606846976, %rbx      # imm = 0x1000000000000000
	cmpq	%rbx, %rcx
	seta	%bl
	orb	%al, %bl
	movl	$12, %eax
	jne	.LBB38_22
# %bb.5:                                # %arm.1.i
	movq	16(%r8), %rbx
	movl	$13, %eax
	testq	%rbx, %rbx
	je	.LBB38_22
# %bb.6:                                # %else.13.i
	cmpq	%rbx, 8(%r8)
	jb	.LBB38_22
# %bb.7:                                # %after.10.i
	leal	-1(%rdx), %ebx
	movl	$14, %eax
	cmpl	%r11d, %ebx
	jae	.LBB38_22
# %bb.8:                                # %after.20.i
	movb	%r10b, %r14b
	shll	$12, %r14d
	leaq	(%r9,%r14), %rbx
	movq	%rbx, %rax
	movq	%r15, %r10
	testq	%r15, %r15
	je	.LBB38_9
.LBB38_16:                              # %join.5.i15.i
                                        # =>This Inner Loop Header: Depth=1
	cmpq	$0, (%rax)
	jne	.LBB38_17
# %bb.15:                               # %loop.2.i.i
                                        #   in Loop: Header=BB38_16 Depth=1
	addq	$40, %rax
	decq	%r10
	jne	.LBB38_16
.LBB38_9:                               # %join.32.i
	incl	%esi
	movl	%edi, 8(%rsp)
	movl	%esi, 12(%rsp)
	movl	%r15d, 16(%rsp)
	movl	$0, 20(%rsp)
	movq	%rcx, 24(%rsp)
	leaq	32(%rsp), %rdi
	leaq	8(%rsp), %rsi
                                        # kill: def $edx killed $edx killed $rdx
	movq	%r8, %r12
	movq	%r9, %r13
	callq	"scq_c::opening::boxed"
	movl	$8, %eax
	cmpb	$1, 32(%rsp)
	jne	.LBB38_22
# %bb.10:                               # %arm.33.i
	leaq	40(%rsp), %rsi
	movq	%rbx, %rdi
	callq	"scq_c::opening::fill"
	testq	%r15, %r15
	je	.LBB38_21
# %bb.11:                               # %join.5.i17.i.preheader
	movl	%r15d, %eax
	andl	$7, %eax
	cmpq	$8, %r15
	jae	.LBB38_18
# %bb.12:
	xorl	%esi, %esi
	movq	%r12, %rcx
	movq	%r13, %rdx
	jmp	.LBB38_13
.LBB38_17:
	movl	$15, %eax
	jmp	.LBB38_22
.LBB38_18:                              # %join.5.i17.i.preheader.new
	andl	$-8, %r15d
	movq	%r13, %rdx
	leaq	(%r14,%r13), %rdi
	addq	$288, %rdi                      # imm = 0x120
	xorl	%esi, %esi
	movq	%r12, %rcx
.LBB38_19:                              # %join.5.i17.i
                                        # =>This Inner Loop Header: Depth=1
	movups	(%rcx), %xmm0
	movups	16(%rcx), %xmm1
	movups	%xmm1, -264(%rdi)
	movups	%xmm0, -280(%rdi)
	movups	(%rcx), %xmm0
	movups	16(%rcx), %xmm1
	movups	%xmm1, -224(%rdi)
	movups	%xmm0, -240(%rdi)
	movups	(%rcx), %xmm0
	movups	16(%rcx), %xmm1
	movups	%xmm1, -184(%rdi)
	movups	%xmm0, -200(%rdi)
	movups	(%rcx), %xmm0
	movups	16(%rcx), %xmm1
	movups	%xmm1, -144(%rdi)
	movups	%xmm0, -160(%rdi)
	movups	(%rcx), %xmm0
	movups	16(%rcx), %xmm1
	movups	%xmm1, -104(%rdi)
	movups	%xmm0, -120(%rdi)
	movups	(%rcx), %xmm0
	movups	16(%rcx), %xmm1
	movups	%xmm1, -64(%rdi)
	movups	%xmm0, -80(%rdi)
	movups	(%rcx), %xmm0
	movups	16(%rcx), %xmm1
	movups	%xmm1, -24(%rdi)
	movups	%xmm0, -40(%rdi)
	movups	(%rcx), %xmm0
	movups	16(%rcx), %xmm1
	movups	%xmm1, 16(%rdi)
	movups	%xmm0, (%rdi)
	addq	$8, %rsi
	addq	$320, %rdi                      # imm = 0x140
	cmpq	%rsi, %r15
	jne	.LBB38_19
# %bb.20:                               # %"scq_c::opening::scq_open_over.exit.loopexit.unr-lcssa"
	testq	%rax, %rax
	je	.LBB38_21
.LBB38_13:                              # %join.5.i17.i.epil.preheader
	leaq	(%rsi,%rsi,4), %rsi
	leaq	(%r14,%rsi,8), %rsi
	addq	%rsi, %rdx
	addq	$8, %rdx
	shll	$3, %eax
	leaq	(%rax,%rax,4), %rsi
	xorl	%eax, %eax
	xorl	%edi, %edi
.LBB38_14:                              # %join.5.i17.i.epil
                                        # =>This Inner Loop Header: Depth=1
	movups	(%rcx), %xmm0
	movups	16(%rcx), %xmm1
	movups	%xmm1, 16(%rdx,%rdi)
	movups	%xmm0, (%rdx,%rdi)
	addq	$40, %rdi
	cmpq	%rdi, %rsi
	jne	.LBB38_14
	jmp	.LBB38_22
.LBB38_21:
	xorl	%eax, %eax
.LBB38_22:                              # %"scq_c::opening::scq_open_over.exit"
                                        # kill: def $eax killed $eax killed $rax
	addq	$64, %rsp
	popq	%rbx
	popq	%r12
	popq	%r13
	popq	%r14
	popq	%r15
	retq
.Lfunc_end38:
	.size	scq_open_over, .Lfunc_end38-scq_open_over
                                        # -- End function
	.section	.text.scq_send,"ax",@progbits
	.globl	scq_send                        # -- Begin function scq_send
	.p2align	4
	.type	scq_send,@function
scq_send:                               # @scq_send
# %bb.0:                                # %start
	pushq	%rbp
	pushq	%r15
	pushq	%r14
	pushq	%r13
	pushq	%r12
	pushq	%rbx
	movq	(%rdi), %r8
	testq	%r8, %r8
	je	.LBB39_34
# %bb.1:                                # %arm.1.i.i.i.i
	cmpl	%edx, 268(%r8)
	jbe	.LBB39_36
# %bb.2:                                # %join.3.i.i.i.i
	movl	%esi, %eax
	cmpq	%rax, 240(%r8)
	jbe	.LBB39_35
# %bb.3:                                # %else.4.i.i.i.i.i
	movq	232(%r8), %r9
	cmpb	$1, (%r9,%rax,8)
	jne	.LBB39_35
# %bb.4:                                # %arm.1.i14.i.i.i
	movq	128(%r8), %r10
	movl	4(%r9,%rax,8), %esi
	movq	$0, (%r9,%rax,8)
	cmpb	$1, 184(%r8)
	jne	.LBB39_6
# %bb.5:                                # %arm.1.i4.i.i.i.i
	movq	192(%r8), %rdx
	jmp	.LBB39_31
.LBB39_34:                              # %"core::mem::replace_with::<#634a75835838ab60>.exit.i"
	movq	$0, (%rdi)
	movl	$4, %eax
	jmp	.LBB39_37
.LBB39_36:                              # %arm.2.i.i
	cmpl	%edx, 264(%r8)
	movq	%r8, (%rdi)
	movl	$16, %ecx
	movl	$6, %eax
	cmoval	%ecx, %eax
	jmp	.LBB39_37
.LBB39_35:                              # %arm.2.i.thread.i
	movq	%r8, (%rdi)
	movl	$5, %eax
	jmp	.LBB39_37
.LBB39_6:                               # %join.4.i.i.i.i.i
	movl	%edx, %r9d
	movq	8(%r10), %rax
	movq	96(%r10), %rbx
	leaq	8(,%r9,8), %rdx
	leaq	(%rdx,%rdx,8), %r14
	movq	48(%rbx,%r14), %r11
	#APP
	#NO_APP
	movl	$1, %edx
	lock		xaddq	%rdx, (%rax,%r11,8)
	#APP
	#NO_APP
	cmpq	%rdx, 40(%rbx,%r14)
	movq	%rsi, -24(%rsp)                 # 8-byte Spill
	jbe	.LBB39_30
# %bb.7:                                # %join.5.i.i.lr.ph.i.i.i
	movq	%r11, -16(%rsp)                 # 8-byte Spill
	incq	%r9
	movq	%r9, -8(%rsp)                   # 8-byte Spill
	leaq	1(%rsi), %rax
	movq	%rax, -32(%rsp)                 # 8-byte Spill
	jmp	.LBB39_8
.LBB39_29:                              # %"scq_band::enqueue::place::<#aae3f6a89b556e54>.exit.i.i.i.i"
                                        #   in Loop: Header=BB39_8 Depth=1
	movq	48(%rbx,%r14), %rax
	movq	8(%r10), %rsi
	#APP
	#NO_APP
	movl	$1, %edx
	lock		xaddq	%rdx, (%rsi,%rax,8)
	#APP
	#NO_APP
	cmpq	%rdx, 40(%rbx,%r14)
	movq	-32(%rsp), %rax                 # 8-byte Reload
	jbe	.LBB39_30
.LBB39_8:                               # %join.5.i.i.i.i.i
                                        # =>This Loop Header: Depth=1
                                        #     Child Loop BB39_17 Depth 2
	movl	4(%rbx,%r14), %r13d
	addq	%r13, %rax
	movq	%r13, %r11
	notq	%r11
	andq	%rdx, %r11
	leaq	(%rax,%r11,2), %rbp
	andl	%edx, %r13d
	movzbl	68(%rbx,%r14), %eax
	movq	%rcx, %r12
	movl	%eax, %ecx
	shrq	%cl, %r13
	movq	%r12, %rcx
	movl	64(%rbx,%r14), %r15d
	andl	%edx, %r15d
	addq	48(%rbx,%r14), %r13
	leaq	-1(,%r11,2), %rax
	movq	8(%r10), %r11
	shlq	$6, %r15
	leaq	(%r15,%r13,8), %r9
	#APP
	#NO_APP
	lock		cmpxchgq	%rbp, 384(%r11,%r9)
	#APP
	#NO_APP
	je	.LBB39_24
# %bb.9:                                # %join.3.i.i.i.i.i
                                        #   in Loop: Header=BB39_8 Depth=1
	cmpq	%rbp, %rax
	jae	.LBB39_11
# %bb.10:                               # %join.3.i.i.i.i.i
                                        #   in Loop: Header=BB39_8 Depth=1
	movl	4(%rbx,%r14), %r9d
	leaq	1(,%r9,2), %r9
	movq	%r9, %r11
	andq	%rax, %r11
	cmpq	%r9, %r11
	jne	.LBB39_11
.LBB39_15:                              # %join.6.i.i.i.i.i
                                        #   in Loop: Header=BB39_8 Depth=1
	leaq	(%r15,%r13,8), %rsi
	addq	$384, %rsi                      # imm = 0x180
	movq	8(%r10), %r9
	#APP
	#NO_APP
	lock		cmpxchgq	%rbp, (%r9,%rsi)
	#APP
	#NO_APP
	je	.LBB39_24
# %bb.16:                               # %join.9.i.i.i.i.i
                                        #   in Loop: Header=BB39_8 Depth=1
	movl	4(%rbx,%r14), %eax
	movq	-32(%rsp), %rcx                 # 8-byte Reload
	addq	%rax, %rcx
	movq	%rax, %rsi
	notq	%rsi
	andq	%rdx, %rsi
	leaq	(%rcx,%rsi,2), %r13
	movl	64(%rbx,%r14), %esi
	andl	%edx, %esi
	andl	%edx, %eax
	movzbl	68(%rbx,%r14), %ecx
	shrq	%cl, %rax
	movq	%r12, %rcx
	addq	48(%rbx,%r14), %rax
	shlq	$6, %rsi
	leaq	(%rsi,%rax,8), %r15
	addq	$384, %r15                      # imm = 0x180
	jmp	.LBB39_17
	.p2align	4
.LBB39_23:                              # %arm.3.i.i.i.i.i
                                        #   in Loop: Header=BB39_17 Depth=2
	movq	8(%r10), %rsi
	#APP
	#NO_APP
	lock		cmpxchgq	%r13, (%rsi,%r15)
	#APP
	#NO_APP
	je	.LBB39_24
.LBB39_17:                              # %loop.2.i62.i.i.i.i
                                        #   Parent Loop BB39_8 Depth=1
                                        # =>  This Inner Loop Header: Depth=2
	movq	8(%r10), %rax
	#APP
	#NO_APP
	movq	(%rax,%r15), %rax
	#APP
	#NO_APP
	cmpq	%r13, %rax
	jae	.LBB39_19
# %bb.18:                               # %loop.2.i62.i.i.i.i
                                        #   in Loop: Header=BB39_17 Depth=2
	movl	4(%rbx,%r14), %esi
	leaq	1(,%rsi,2), %rsi
	movq	%rsi, %r9
	andq	%rax, %r9
	cmpq	%rsi, %r9
	je	.LBB39_23
.LBB39_19:                              # %join.3.i.i.i.i.i.i
                                        #   in Loop: Header=BB39_17 Depth=2
	movzbl	12(%rbx,%r14), %ecx
	movq	%rax, %r11
	shrq	%cl, %r11
	movq	%r11, %rsi
	shrq	%rsi
	movq	%rdx, %r9
	shrq	%cl, %r9
	movq	%r12, %rcx
	cmpq	%rsi, %r9
	jbe	.LBB39_29
# %bb.20:                               # %join.3.i.i.i.i.i.i
                                        #   in Loop: Header=BB39_17 Depth=2
	movq	32(%rbx,%r14), %rsi
	movl	%eax, %r9d
	andl	%esi, %r9d
	cmpq	%r9, %rsi
	jne	.LBB39_29
# %bb.21:                               # %join.9.i.i.i.i.i.i
                                        #   in Loop: Header=BB39_17 Depth=2
	testb	$1, %r11b
	jne	.LBB39_23
# %bb.22:                               # %"scq_band::enqueue::load_vacant::<#aae3f6a89b556e54>.exit.i.i.i.i"
                                        #   in Loop: Header=BB39_17 Depth=2
	movq	48(%rbx,%r14), %rsi
	movq	8(%r10), %r9
	#APP
	#NO_APP
	movq	128(%r9,%rsi,8), %rsi
	#APP
	#NO_APP
	cmpq	%rsi, %rdx
	jae	.LBB39_23
	jmp	.LBB39_29
.LBB39_11:                              # %join.3.i36.i.i.i.i
                                        #   in Loop: Header=BB39_8 Depth=1
	movzbl	12(%rbx,%r14), %ecx
	movq	%rax, %r11
	shrq	%cl, %r11
	movq	%r11, %r9
	shrq	%r9
	movq	%rdx, %rsi
	shrq	%cl, %rsi
	movq	%r12, %rcx
	cmpq	%r9, %rsi
	jbe	.LBB39_29
# %bb.12:                               # %join.3.i36.i.i.i.i
                                        #   in Loop: Header=BB39_8 Depth=1
	movq	32(%rbx,%r14), %rsi
	movl	%eax, %r9d
	andl	%esi, %r9d
	cmpq	%r9, %rsi
	jne	.LBB39_29
# %bb.13:                               # %join.9.i49.i.i.i.i
                                        #   in Loop: Header=BB39_8 Depth=1
	testb	$1, %r11b
	jne	.LBB39_15
# %bb.14:                               # %"scq_band::enqueue::has_room::<#aae3f6a89b556e54>.exit.i.i.i.i"
                                        #   in Loop: Header=BB39_8 Depth=1
	movq	48(%rbx,%r14), %rsi
	movq	8(%r10), %r9
	#APP
	#NO_APP
	movq	128(%r9,%rsi,8), %rsi
	#APP
	#NO_APP
	cmpq	%rsi, %rdx
	jb	.LBB39_29
	jmp	.LBB39_15
.LBB39_30:                              # %arm.7.i.i.i.i.i
	movq	$1, 184(%r8)
	movq	%rdx, 192(%r8)
	movq	-24(%rsp), %rsi                 # 8-byte Reload
.LBB39_31:                              # %arm.6.i.i.i.i
	movq	232(%r8), %rax
	cmpb	$0, (%rax,%rsi,8)
	movl	$1, (%rax,%rsi,8)
	movl	%esi, 4(%rax,%rsi,8)
	jne	.LBB39_33
# %bb.32:                               # %arm.2.i.thread21.i
	movq	%r8, (%rdi)
	movq	%rdx, (%rcx)
	movl	$3, %eax
	jmp	.LBB39_37
.LBB39_24:                              # %then.7.i.i.i.i.i
	movq	8(%r10), %rax
	#APP
	#NO_APP
	movq	-16(%rsp), %r9                  # 8-byte Reload
	movq	256(%rax,%r9,8), %rsi
	#APP
	#NO_APP
	movq	56(%rbx,%r14), %rax
	cmpq	%rax, %rsi
	je	.LBB39_26
# %bb.25:                               # %then.1.i.i.i.i.i
	movq	8(%r10), %rsi
	#APP
	#NO_APP
	xchgq	%rax, 256(%rsi,%r9,8)
	#APP
	#NO_APP
.LBB39_26:                              # %arm.1.i31.i.i.i
	movq	136(%r8), %rax
	movq	-24(%rsp), %rsi                 # 8-byte Reload
	movb	$0, (%rax,%rsi)
	movq	160(%r8), %rax
	movq	-8(%rsp), %rsi                  # 8-byte Reload
	leaq	(%rsi,%rsi,2), %rsi
	movq	%rdx, (%rax,%rsi,8)
	movq	%rdx, 8(%rax,%rsi,8)
	movq	200(%r8), %rax
	cmpq	$-1, %rax
	je	.LBB39_28
# %bb.27:                               # %arm.1.i101.i.i.i.i
	incq	%rax
	movq	%rax, 200(%r8)
.LBB39_28:                              # %arm.1.i.i
	incl	256(%r8)
	movq	%r8, (%rdi)
	movq	%rdx, (%rcx)
	xorl	%eax, %eax
.LBB39_37:                              # %"scq_c::exports::scq_send.exit"
	popq	%rbx
	popq	%r12
	popq	%r13
	popq	%r14
	popq	%r15
	popq	%rbp
	retq
.LBB39_33:                              # %arm.2.i.i.i.i.i
	ud2
.Lfunc_end39:
	.size	scq_send, .Lfunc_end39-scq_send
                                        # -- End function
	.section	.text.scq_send_many,"ax",@progbits
	.globl	scq_send_many                   # -- Begin function scq_send_many
	.p2align	4
	.type	scq_send_many,@function
scq_send_many:                          # @scq_send_many
# %bb.0:                                # %start
	pushq	%rbp
	pushq	%r15
	pushq	%r14
	pushq	%r13
	pushq	%r12
	pushq	%rbx
	xorl	%eax, %eax
	testq	%rsi, %rsi
	sete	%r9b
	movq	$0, (%r8)
	movq	(%rdi), %r10
	movq	$0, (%rdi)
	testq	%r10, %r10
	je	.LBB40_1
# %bb.2:                                # %arm.1.i
	testq	%rdx, %rdx
	je	.LBB40_3
# %bb.6:                                # %join.5.i.lr.ph.i
	movq	%rdi, -96(%rsp)                 # 8-byte Spill
	movq	%r8, -88(%rsp)                  # 8-byte Spill
	movb	%r9b, %al
	shll	$12, %eax
	addq	%rax, %rsi
	movl	%ecx, %eax
	leaq	8(,%rax,8), %rax
	leaq	(%rax,%rax,8), %rbx
	leaq	(%rax,%rax,2), %rax
	movq	%rax, -56(%rsp)                 # 8-byte Spill
	xorl	%r11d, %r11d
	movq	%rdx, -40(%rsp)                 # 8-byte Spill
	movl	%ecx, -76(%rsp)                 # 4-byte Spill
	movq	%rsi, -48(%rsp)                 # 8-byte Spill
	jmp	.LBB40_7
	.p2align	4
.LBB40_34:                              # %join.8.i.i
                                        #   in Loop: Header=BB40_7 Depth=1
	incl	256(%r10)
	movaps	-24(%rsp), %xmm1
	movups	%xmm1, (%r15)
	movq	%r13, 16(%r15)
	movlps	%xmm0, 24(%r15)
	incq	%r11
	cmpq	%rdx, %r11
	je	.LBB40_35
.LBB40_7:                               # %join.5.i.i
                                        # =>This Loop Header: Depth=1
                                        #     Child Loop BB40_14 Depth 2
                                        #       Child Loop BB40_23 Depth 3
	movq	%r11, %r15
	shlq	$5, %r15
	movsd	24(%rsi,%r15), %xmm0            # xmm0 = mem[0],zero
	movl	24(%rsi,%r15), %edi
	movups	(%rsi,%r15), %xmm1
	movaps	%xmm1, -24(%rsp)
	cmpl	%ecx, 268(%r10)
	jbe	.LBB40_8
# %bb.9:                                # %join.3.i.i.i
                                        #   in Loop: Header=BB40_7 Depth=1
	movl	$5, %eax
	cmpq	%rdi, 240(%r10)
	jbe	.LBB40_36
# %bb.10:                               # %else.4.i.i.i.i
                                        #   in Loop: Header=BB40_7 Depth=1
	movq	232(%r10), %r8
	cmpb	$1, (%r8,%rdi,8)
	jne	.LBB40_36
# %bb.11:                               # %arm.1.i.i.i
                                        #   in Loop: Header=BB40_7 Depth=1
	movq	128(%r10), %rbp
	movl	4(%r8,%rdi,8), %r9d
	movq	$0, (%r8,%rdi,8)
	cmpb	$1, 184(%r10)
	je	.LBB40_39
# %bb.12:                               # %join.4.i.i.i.i
                                        #   in Loop: Header=BB40_7 Depth=1
	movq	%r11, -72(%rsp)                 # 8-byte Spill
	movq	8(%rbp), %rax
	movq	96(%rbp), %r8
	movq	48(%r8,%rbx), %rdi
	#APP
	#NO_APP
	movl	$1, %r13d
	lock		xaddq	%r13, (%rax,%rdi,8)
	#APP
	#NO_APP
	cmpq	%r13, 40(%r8,%rbx)
	movq	%r9, -64(%rsp)                  # 8-byte Spill
	jbe	.LBB40_38
# %bb.13:                               # %join.5.i.i.i.lr.ph.i
                                        #   in Loop: Header=BB40_7 Depth=1
	movq	%rdi, -32(%rsp)                 # 8-byte Spill
	addq	%rsi, %r15
	leaq	1(%r9), %rax
	jmp	.LBB40_14
	.p2align	4
.LBB40_37:                              # %"scq_band::enqueue::place::<#aae3f6a89b556e54>.exit.i.i.i"
                                        #   in Loop: Header=BB40_14 Depth=2
	movq	48(%r8,%rbx), %rax
	movq	8(%rbp), %rcx
	#APP
	#NO_APP
	movl	$1, %r13d
	lock		xaddq	%r13, (%rcx,%rax,8)
	#APP
	#NO_APP
	cmpq	%r13, 40(%r8,%rbx)
	movq	%r11, %rax
	jbe	.LBB40_38
.LBB40_14:                              # %join.5.i.i.i.i
                                        #   Parent Loop BB40_7 Depth=1
                                        # =>  This Loop Header: Depth=2
                                        #       Child Loop BB40_23 Depth 3
	movl	4(%r8,%rbx), %edx
	movq	%rax, %r11
	addq	%rdx, %rax
	movq	%rdx, %r12
	notq	%r12
	andq	%r13, %r12
	leaq	(%rax,%r12,2), %rdi
	andl	%r13d, %edx
	movzbl	68(%r8,%rbx), %ecx
	shrq	%cl, %rdx
	movl	64(%r8,%rbx), %r14d
	andl	%r13d, %r14d
	addq	48(%r8,%rbx), %rdx
	leaq	-1(,%r12,2), %rax
	movq	8(%rbp), %rcx
	shlq	$6, %r14
	leaq	(%r14,%rdx,8), %r12
	#APP
	#NO_APP
	lock		cmpxchgq	%rdi, 384(%rcx,%r12)
	#APP
	#NO_APP
	je	.LBB40_30
# %bb.15:                               # %join.3.i.i.i.i
                                        #   in Loop: Header=BB40_14 Depth=2
	cmpq	%rdi, %rax
	jae	.LBB40_17
# %bb.16:                               # %join.3.i.i.i.i
                                        #   in Loop: Header=BB40_14 Depth=2
	movl	4(%r8,%rbx), %ecx
	leaq	1(,%rcx,2), %rcx
	movq	%rcx, %r12
	andq	%rax, %r12
	cmpq	%rcx, %r12
	jne	.LBB40_17
.LBB40_21:                              # %join.6.i.i.i.i
                                        #   in Loop: Header=BB40_14 Depth=2
	leaq	(%r14,%rdx,8), %rcx
	addq	$384, %rcx                      # imm = 0x180
	movq	8(%rbp), %rdx
	#APP
	#NO_APP
	lock		cmpxchgq	%rdi, (%rdx,%rcx)
	#APP
	#NO_APP
	je	.LBB40_30
# %bb.22:                               # %join.9.i.i.i.i
                                        #   in Loop: Header=BB40_14 Depth=2
	movl	4(%r8,%rbx), %eax
	leaq	(%r11,%rax), %rcx
	movq	%rax, %rdx
	notq	%rdx
	andq	%r13, %rdx
	leaq	(%rcx,%rdx,2), %rdx
	movl	64(%r8,%rbx), %esi
	andl	%r13d, %esi
	andl	%r13d, %eax
	movzbl	68(%r8,%rbx), %ecx
	shrq	%cl, %rax
	addq	48(%r8,%rbx), %rax
	shlq	$6, %rsi
	leaq	(%rsi,%rax,8), %rdi
	addq	$384, %rdi                      # imm = 0x180
	jmp	.LBB40_23
	.p2align	4
.LBB40_29:                              # %arm.3.i.i.i.i
                                        #   in Loop: Header=BB40_23 Depth=3
	movq	8(%rbp), %rcx
	#APP
	#NO_APP
	lock		cmpxchgq	%rdx, (%rcx,%rdi)
	#APP
	#NO_APP
	je	.LBB40_30
.LBB40_23:                              # %loop.2.i62.i.i.i
                                        #   Parent Loop BB40_7 Depth=1
                                        #     Parent Loop BB40_14 Depth=2
                                        # =>    This Inner Loop Header: Depth=3
	movq	8(%rbp), %rax
	#APP
	#NO_APP
	movq	(%rax,%rdi), %rax
	#APP
	#NO_APP
	cmpq	%rdx, %rax
	jae	.LBB40_25
# %bb.24:                               # %loop.2.i62.i.i.i
                                        #   in Loop: Header=BB40_23 Depth=3
	movl	4(%r8,%rbx), %ecx
	leaq	1(,%rcx,2), %rcx
	movq	%rcx, %rsi
	andq	%rax, %rsi
	cmpq	%rcx, %rsi
	je	.LBB40_29
.LBB40_25:                              # %join.3.i.i.i.i.i
                                        #   in Loop: Header=BB40_23 Depth=3
	movzbl	12(%r8,%rbx), %ecx
	movq	%rax, %r14
	shrq	%cl, %r14
	movq	%r14, %rsi
	shrq	%rsi
	movq	%r13, %r9
	shrq	%cl, %r9
	cmpq	%rsi, %r9
	jbe	.LBB40_37
# %bb.26:                               # %join.3.i.i.i.i.i
                                        #   in Loop: Header=BB40_23 Depth=3
	movq	32(%r8,%rbx), %rcx
	movl	%eax, %esi
	andl	%ecx, %esi
	cmpq	%rsi, %rcx
	jne	.LBB40_37
# %bb.27:                               # %join.9.i.i.i.i.i
                                        #   in Loop: Header=BB40_23 Depth=3
	testb	$1, %r14b
	jne	.LBB40_29
# %bb.28:                               # %"scq_band::enqueue::load_vacant::<#aae3f6a89b556e54>.exit.i.i.i"
                                        #   in Loop: Header=BB40_23 Depth=3
	movq	48(%r8,%rbx), %rcx
	movq	8(%rbp), %rsi
	#APP
	#NO_APP
	movq	128(%rsi,%rcx,8), %rcx
	#APP
	#NO_APP
	cmpq	%rcx, %r13
	jae	.LBB40_29
	jmp	.LBB40_37
	.p2align	4
.LBB40_17:                              # %join.3.i36.i.i.i
                                        #   in Loop: Header=BB40_14 Depth=2
	movzbl	12(%r8,%rbx), %ecx
	movq	%rax, %rsi
	shrq	%cl, %rsi
	movq	%rsi, %r12
	shrq	%r12
	movq	%r13, %r9
	shrq	%cl, %r9
	cmpq	%r12, %r9
	jbe	.LBB40_37
# %bb.18:                               # %join.3.i36.i.i.i
                                        #   in Loop: Header=BB40_14 Depth=2
	movq	32(%r8,%rbx), %rcx
	movl	%eax, %r9d
	andl	%ecx, %r9d
	cmpq	%r9, %rcx
	jne	.LBB40_37
# %bb.19:                               # %join.9.i49.i.i.i
                                        #   in Loop: Header=BB40_14 Depth=2
	testb	$1, %sil
	jne	.LBB40_21
# %bb.20:                               # %"scq_band::enqueue::has_room::<#aae3f6a89b556e54>.exit.i.i.i"
                                        #   in Loop: Header=BB40_14 Depth=2
	movq	48(%r8,%rbx), %rcx
	movq	8(%rbp), %rsi
	#APP
	#NO_APP
	movq	128(%rsi,%rcx,8), %rcx
	#APP
	#NO_APP
	cmpq	%rcx, %r13
	jb	.LBB40_37
	jmp	.LBB40_21
	.p2align	4
.LBB40_30:                              # %then.7.i.i.i.i
                                        #   in Loop: Header=BB40_7 Depth=1
	movq	8(%rbp), %rax
	#APP
	#NO_APP
	movq	-32(%rsp), %rdx                 # 8-byte Reload
	movq	256(%rax,%rdx,8), %rcx
	#APP
	#NO_APP
	movq	56(%r8,%rbx), %rax
	cmpq	%rax, %rcx
	je	.LBB40_32
# %bb.31:                               # %then.1.i.i.i.i
                                        #   in Loop: Header=BB40_7 Depth=1
	movq	8(%rbp), %rcx
	#APP
	#NO_APP
	xchgq	%rax, 256(%rcx,%rdx,8)
	#APP
	#NO_APP
.LBB40_32:                              # %arm.6.i.i.i.i
                                        #   in Loop: Header=BB40_7 Depth=1
	movq	136(%r10), %rax
	movq	-64(%rsp), %rcx                 # 8-byte Reload
	movb	$0, (%rax,%rcx)
	movq	160(%r10), %rax
	movq	-56(%rsp), %rcx                 # 8-byte Reload
	movq	%r13, (%rax,%rcx)
	movq	%r13, 8(%rax,%rcx)
	movq	200(%r10), %rax
	cmpq	$-1, %rax
	movq	-40(%rsp), %rdx                 # 8-byte Reload
	movl	-76(%rsp), %ecx                 # 4-byte Reload
	movq	-48(%rsp), %rsi                 # 8-byte Reload
	movq	-72(%rsp), %r11                 # 8-byte Reload
	je	.LBB40_34
# %bb.33:                               # %arm.1.i101.i.i.i
                                        #   in Loop: Header=BB40_7 Depth=1
	incq	%rax
	movq	%rax, 200(%r10)
	jmp	.LBB40_34
.LBB40_1:
	movl	$4, %eax
	jmp	.LBB40_5
.LBB40_3:
	xorl	%r11d, %r11d
	xorl	%eax, %eax
	jmp	.LBB40_4
.LBB40_38:                              # %arm.7.i.i.i.i
	movq	$1, 184(%r10)
	movq	%r13, 192(%r10)
	movq	-64(%rsp), %r9                  # 8-byte Reload
	movq	-72(%rsp), %r11                 # 8-byte Reload
.LBB40_39:                              # %arm.6.i.i.i
	movq	232(%r10), %rax
	cmpb	$0, (%rax,%r9,8)
	movl	$1, (%rax,%r9,8)
	movl	%r9d, 4(%rax,%r9,8)
	movl	$3, %eax
	movq	-88(%rsp), %r8                  # 8-byte Reload
	movq	-96(%rsp), %rdi                 # 8-byte Reload
	je	.LBB40_4
# %bb.40:                               # %arm.2.i.i.i.i
	ud2
.LBB40_8:                               # %then.1.i.i.i
	cmpl	%ecx, 264(%r10)
	movl	$16, %ecx
	movl	$6, %eax
	cmoval	%ecx, %eax
	jmp	.LBB40_36
.LBB40_35:
	xorl	%eax, %eax
	movq	%rdx, %r11
.LBB40_36:                              # %"scq_c::many::send_each.exit.i"
	movq	-88(%rsp), %r8                  # 8-byte Reload
	movq	-96(%rsp), %rdi                 # 8-byte Reload
.LBB40_4:                               # %"scq_c::many::send_each.exit.i"
	movq	%r10, (%rdi)
	movq	%r11, (%r8)
.LBB40_5:                               # %"scq_c::many::scq_send_many.exit"
	popq	%rbx
	popq	%r12
	popq	%r13
	popq	%r14
	popq	%r15
	popq	%rbp
	retq
.Lfunc_end40:
	.size	scq_send_many, .Lfunc_end40-scq_send_many
                                        # -- End function
	.section	.text.scq_take_index,"ax",@progbits
	.globl	scq_take_index                  # -- Begin function scq_take_index
	.p2align	4
	.type	scq_take_index,@function
scq_take_index:                         # @scq_take_index
# %bb.0:                                # %start
	pushq	%rbp
	pushq	%r15
	pushq	%r14
	pushq	%r13
	pushq	%r12
	pushq	%rbx
	movq	(%rdi), %r8
	testq	%r8, %r8
	je	.LBB41_33
# %bb.1:                                # %arm.1.i.i.i.i
	movl	264(%r8), %ecx
	cmpl	%esi, %ecx
	jbe	.LBB41_35
# %bb.2:                                # %arm.1.i.i.i.i
	cmpl	$0, 256(%r8)
	je	.LBB41_35
# %bb.3:                                # %join.3.i.i.i.i
	cmpb	$1, 184(%r8)
	jne	.LBB41_5
# %bb.4:                                # %"scq_band::band::Band::get::<#aae3f6a89b556e54>.exit.i.thread.i.i.i"
	movq	192(%r8), %rbx
.LBB41_9:                               # %arm.2.i.thread24.i
	movq	%r8, (%rdi)
	movq	%rbx, 16(%rdx)
	movl	$3, %eax
	jmp	.LBB41_36
.LBB41_33:                              # %"core::mem::replace_with::<#9baed057b9b927f7>.exit.i"
	movq	$0, (%rdi)
	movl	$4, %eax
	jmp	.LBB41_36
.LBB41_35:                              # %arm.2.i.i
	xorl	%eax, %eax
	cmpl	%ecx, %esi
	movq	%r8, (%rdi)
	adcl	$6, %eax
	jmp	.LBB41_36
.LBB41_5:                               # %join.4.i.i.i.i.i
	movq	%rdi, -32(%rsp)                 # 8-byte Spill
	movq	%rdx, -16(%rsp)                 # 8-byte Spill
	movq	128(%r8), %r14
	movl	%esi, %edi
	movq	8(%r14), %rax
	movq	96(%r14), %r10
	leaq	8(,%rdi,8), %rcx
	incq	%rdi
	leaq	(%rcx,%rcx,8), %r11
	movq	48(%r10,%r11), %rcx
	#APP
	#NO_APP
	movq	256(%rax,%rcx,8), %r9
	#APP
	#NO_APP
	shrq	$32, %r9
	movl	$1, %ebx
	jne	.LBB41_6
.LBB41_27:                              # %arm.8.i.i.i.i.i
	movq	160(%r8), %rcx
	leaq	(%rdi,%rdi,2), %rdx
	movq	16(%rcx,%rdx,8), %rax
	cmpq	%rax, %rbx
	cmovbeq	%rax, %rbx
	testq	%r9, %r9
	leaq	(%rcx,%rdx,8), %rsi
	leaq	16(%rcx,%rdx,8), %rcx
	cmoveq	%rax, %rbx
.LBB41_30:
	movq	-32(%rsp), %rdi                 # 8-byte Reload
	movq	(%rsi), %rsi
	incq	%rsi
	cmpq	%rbx, %rsi
	cmovbeq	%rbx, %rsi
	cmpq	%rsi, %rax
	jae	.LBB41_32
# %bb.31:                               # %then.1.i78.i.i.i.i
	movq	%rsi, (%rcx)
.LBB41_32:                              # %arm.2.i.thread.i
	movq	%r8, (%rdi)
	movq	-16(%rsp), %rax                 # 8-byte Reload
	movq	%rsi, 16(%rax)
	movl	$1, %eax
	jmp	.LBB41_36
.LBB41_6:                               # %loop.5.i.i.preheader.i.i.i
	movq	%r8, -24(%rsp)                  # 8-byte Spill
	movq	%r9, -8(%rsp)                   # 8-byte Spill
.LBB41_7:                               # %loop.5.i.i.i.i.i
                                        # =>This Loop Header: Depth=1
                                        #     Child Loop BB41_11 Depth 2
	movq	48(%r10,%r11), %rax
	movq	8(%r14), %rcx
	#APP
	#NO_APP
	movl	$1, %ebx
	lock		xaddq	%rbx, 128(%rcx,%rax,8)
	#APP
	#NO_APP
	cmpq	%rbx, 40(%r10,%r11)
	jbe	.LBB41_8
# %bb.10:                               # %join.8.i.i.i.i.i
                                        #   in Loop: Header=BB41_7 Depth=1
	movl	64(%r10,%r11), %eax
	andl	%ebx, %eax
	movl	4(%r10,%r11), %esi
	andl	%ebx, %esi
	movzbl	68(%r10,%r11), %ecx
	shrq	%cl, %rsi
	shlq	$3, %rax
	addq	48(%r10,%r11), %rax
	leaq	(%rsi,%rax), %r15
	addq	$48, %r15
	.p2align	4
.LBB41_11:                              # %loop.2.i.i.i.i.i
                                        #   Parent Loop BB41_7 Depth=1
                                        # =>  This Inner Loop Header: Depth=2
	movq	8(%r14), %rax
	#APP
	#NO_APP
	movq	(%rax,%r15,8), %rax
	#APP
	#NO_APP
	movq	%rax, %rcx
	shrq	%rcx
	xorq	%rbx, %rcx
	movl	4(%r10,%r11), %esi
	cmpq	%rsi, %rcx
	jbe	.LBB41_12
# %bb.20:                               # %join.5.i.i.i.i.i
                                        #   in Loop: Header=BB41_11 Depth=2
	movzbl	12(%r10,%r11), %ecx
	movq	%rax, %r12
	shrq	%cl, %r12
	movq	%r12, %r13
	shrq	%r13
	movq	%rbx, %rsi
	shrq	%cl, %rsi
	cmpq	%r13, %rsi
	jb	.LBB41_22
# %bb.21:                               # %join.9.i.i.i.i.i
                                        #   in Loop: Header=BB41_11 Depth=2
	movzbl	8(%r10,%r11), %ecx
	movq	32(%r10,%r11), %r9
	movq	%r9, %rbp
	movl	$2, %r8d
	shll	%cl, %r8d
	andq	%rax, %rbp
	movl	%ebp, %ecx
	decl	%r8d
	xorl	%edx, %edx
	cmpq	%rcx, %r9
	sete	%dl
	cmoveq	%rsi, %r13
	cmovnel	%ebp, %r8d
	andl	%edx, %r12d
	incq	%r9
	leaq	(%r12,%r13,2), %rcx
	imulq	%r9, %rcx
	addq	%r8, %rcx
	movq	8(%r14), %rdx
	#APP
	#NO_APP
	lock		cmpxchgq	%rcx, (%rdx,%r15,8)
	#APP
	#NO_APP
	jne	.LBB41_11
.LBB41_22:                              # %join.12.i.i.i.i.i
                                        #   in Loop: Header=BB41_7 Depth=1
	movq	48(%r10,%r11), %rax
	movq	8(%r14), %rcx
	#APP
	#NO_APP
	movq	(%rcx,%rax,8), %rax
	#APP
	#NO_APP
	incq	%rbx
	cmpq	%rbx, %rax
	movq	-8(%rsp), %r9                   # 8-byte Reload
	jbe	.LBB41_23
# %bb.28:                               # %"scq_band::dequeue::give_up::<#aae3f6a89b556e54>.exit.i.i.i.i"
                                        #   in Loop: Header=BB41_7 Depth=1
	movq	48(%r10,%r11), %rax
	movq	8(%r14), %rcx
	#APP
	#NO_APP
	movq	$-1, %rdx
	lock		xaddq	%rdx, 256(%rcx,%rax,8)
	#APP
	#NO_APP
	movabsq	$4294967297, %rax               # imm = 0x100000001
	cmpq	%rax, %rdx
	jae	.LBB41_7
# %bb.29:                               # %arm.8.i.i.i.thread.i.i
	movq	-24(%rsp), %r8                  # 8-byte Reload
	movq	160(%r8), %rax
	leaq	(%rdi,%rdi,2), %rdx
	leaq	(%rax,%rdx,8), %rsi
	leaq	(%rax,%rdx,8), %rcx
	addq	$16, %rcx
	movq	16(%rax,%rdx,8), %rax
	cmpq	%rax, %rbx
	cmovbeq	%rax, %rbx
	jmp	.LBB41_30
.LBB41_12:                              # %then.3.i.i.i.i.i
	movq	8(%r14), %r14
	.p2align	4
.LBB41_13:                              # %loop.2.i.i.i.i.i.i
                                        # =>This Inner Loop Header: Depth=1
	#APP
	#NO_APP
	movq	(%r14,%r15,8), %rcx
	#APP
	#NO_APP
	movq	%rcx, %r12
	orq	%rsi, %r12
	#APP
	#NO_APP
	movq	%rcx, %rax
	lock		cmpxchgq	%r12, (%r14,%r15,8)
	#APP
	#NO_APP
	jne	.LBB41_13
# %bb.14:                               # %arm.5.i.i.i.i.i
	andl	4(%r10,%r11), %ecx
	movq	-24(%rsp), %rdx                 # 8-byte Reload
	movq	160(%rdx), %rax
	shlq	$3, %rdi
	leaq	(%rdi,%rdi,2), %rsi
	leaq	1(%rbx), %r9
	cmpq	%rbx, 8(%rax,%rsi)
	jae	.LBB41_16
# %bb.15:                               # %then.1.i62.i.i.i.i
	movq	%rbx, 8(%rax,%rsi)
	movq	160(%rdx), %rax
.LBB41_16:                              # %join.3.i58.i.i.i.i
	movq	%r9, 16(%rax,%rsi)
	movq	-32(%rsp), %rdi                 # 8-byte Reload
	movq	136(%rdx), %rax
	movb	$1, (%rax,%rcx)
	movq	208(%rdx), %rax
	cmpq	$-1, %rax
	je	.LBB41_18
# %bb.17:                               # %arm.1.i99.i.i.i.i
	incq	%rax
	movq	%rax, 208(%rdx)
.LBB41_18:                              # %arm.1.i17.i.i.i
	decl	256(%rdx)
	movq	232(%rdx), %rax
	cmpb	$0, (%rax,%rcx,8)
	movl	$1, (%rax,%rcx,8)
	movl	%ecx, 4(%rax,%rcx,8)
	jne	.LBB41_19
# %bb.34:                               # %arm.1.i.i
	movq	%rdx, (%rdi)
	movq	-16(%rsp), %rax                 # 8-byte Reload
	movq	%rbx, 16(%rax)
	movl	%ecx, 24(%rax)
	xorl	%eax, %eax
.LBB41_36:                              # %"scq_c::exports::scq_take_index.exit"
	popq	%rbx
	popq	%r12
	popq	%r13
	popq	%r14
	popq	%r15
	popq	%rbp
	retq
.LBB41_8:                               # %arm.6.i.i.thread335.i.i.i
	movq	-24(%rsp), %r8                  # 8-byte Reload
	movq	160(%r8), %rax
	leaq	(%rdi,%rdi,2), %rcx
	movq	16(%rax,%rcx,8), %rsi
	leaq	1(%rbx), %r9
	cmpq	%rsi, %r9
	cmovaq	%r9, %rsi
	movq	%rsi, 16(%rax,%rcx,8)
	movq	$1, 184(%r8)
	movq	%rbx, 192(%r8)
	movq	-16(%rsp), %rdx                 # 8-byte Reload
	movq	-32(%rsp), %rdi                 # 8-byte Reload
	jmp	.LBB41_9
.LBB41_23:                              # %loop.2.i.i.i.i.preheader
	movq	%rbx, %rcx
.LBB41_24:                              # %loop.2.i.i.i.i
                                        # =>This Inner Loop Header: Depth=1
	movq	48(%r10,%r11), %rdx
	movq	8(%r14), %rsi
	#APP
	#NO_APP
	lock		cmpxchgq	%rcx, (%rsi,%rdx,8)
	#APP
	#NO_APP
	je	.LBB41_26
# %bb.25:                               # %join.5.i.i.i.i
                                        #   in Loop: Header=BB41_24 Depth=1
	movq	48(%r10,%r11), %rax
	movq	8(%r14), %rcx
	#APP
	#NO_APP
	movq	128(%rcx,%rax,8), %rcx
	#APP
	#NO_APP
	movq	48(%r10,%r11), %rax
	movq	8(%r14), %rdx
	#APP
	#NO_APP
	movq	(%rdx,%rax,8), %rax
	#APP
	#NO_APP
	cmpq	%rax, %rcx
	ja	.LBB41_24
.LBB41_26:                              # %"scq_band::dequeue::give_up::<#aae3f6a89b556e54>.exit.i.thread.i.i.i"
	movq	48(%r10,%r11), %rax
	movq	8(%r14), %rcx
	#APP
	#NO_APP
	lock		decq	256(%rcx,%rax,8)
	#APP
	#NO_APP
	movq	-24(%rsp), %r8                  # 8-byte Reload
	jmp	.LBB41_27
.LBB41_19:                              # %arm.2.i.i.i.i.i
	ud2
.Lfunc_end41:
	.size	scq_take_index, .Lfunc_end41-scq_take_index
                                        # -- End function
	.section	.text.scq_take_index_many,"ax",@progbits
	.globl	scq_take_index_many             # -- Begin function scq_take_index_many
	.p2align	4
	.type	scq_take_index_many,@function
scq_take_index_many:                    # @scq_take_index_many
# %bb.0:                                # %start
	pushq	%rbp
	pushq	%r15
	pushq	%r14
	pushq	%r13
	pushq	%r12
	pushq	%rbx
	xorl	%eax, %eax
	testq	%rdx, %rdx
	sete	%r10b
	movq	$0, (%r8)
	movq	(%rdi), %r9
	movq	$0, (%rdi)
	testq	%r9, %r9
	je	.LBB42_25
# %bb.1:                                # %arm.1.i
	testq	%rcx, %rcx
	je	.LBB42_26
# %bb.2:                                # %join.5.i.lr.ph.i
	movq	%rdi, -88(%rsp)                 # 8-byte Spill
	movq	%r8, -80(%rsp)                  # 8-byte Spill
	movb	%r10b, %al
	shll	$12, %eax
	addq	%rax, %rdx
	movl	%esi, %eax
	leaq	8(,%rax,8), %rax
	leaq	(%rax,%rax,8), %r15
	leaq	(%rax,%rax,2), %rdi
	xorl	%r10d, %r10d
	movq	%r9, -64(%rsp)                  # 8-byte Spill
	movq	%rdi, -72(%rsp)                 # 8-byte Spill
	movq	%rcx, -32(%rsp)                 # 8-byte Spill
	movl	%esi, -48(%rsp)                 # 4-byte Spill
	movq	%rdx, -40(%rsp)                 # 8-byte Spill
.LBB42_3:                               # %join.5.i.i
                                        # =>This Loop Header: Depth=1
                                        #     Child Loop BB42_8 Depth 2
                                        #       Child Loop BB42_10 Depth 3
                                        #     Child Loop BB42_16 Depth 2
	movq	%r10, %r13
	shlq	$5, %r13
	movl	28(%rdx,%r13), %r11d
	movups	(%rdx,%r13), %xmm0
	movaps	%xmm0, -24(%rsp)
	movl	264(%r9), %r8d
	cmpl	%esi, %r8d
	jbe	.LBB42_33
# %bb.4:                                # %join.5.i.i
                                        #   in Loop: Header=BB42_3 Depth=1
	cmpl	$0, 256(%r9)
	je	.LBB42_33
# %bb.5:                                # %join.3.i.i.i
                                        #   in Loop: Header=BB42_3 Depth=1
	movl	$3, %eax
	cmpb	$1, 184(%r9)
	je	.LBB42_34
# %bb.6:                                # %join.4.i.i.i.i
                                        #   in Loop: Header=BB42_3 Depth=1
	movq	%r10, -56(%rsp)                 # 8-byte Spill
	movq	128(%r9), %r8
	movq	8(%r8), %rax
	movq	96(%r8), %r9
	movq	48(%r9,%r15), %rdi
	#APP
	#NO_APP
	movq	256(%rax,%rdi,8), %rax
	#APP
	#NO_APP
	shrq	$32, %rax
	je	.LBB42_35
# %bb.7:                                # %loop.5.i.i.i.preheader.i
                                        #   in Loop: Header=BB42_3 Depth=1
	movl	%r11d, -44(%rsp)                # 4-byte Spill
	addq	%rdx, %r13
.LBB42_8:                               # %loop.5.i.i.i.i
                                        #   Parent Loop BB42_3 Depth=1
                                        # =>  This Loop Header: Depth=2
                                        #       Child Loop BB42_10 Depth 3
	movq	48(%r9,%r15), %rax
	movq	8(%r8), %rcx
	#APP
	#NO_APP
	movl	$1, %ebx
	lock		xaddq	%rbx, 128(%rcx,%rax,8)
	#APP
	#NO_APP
	cmpq	%rbx, 40(%r9,%r15)
	jbe	.LBB42_27
# %bb.9:                                # %join.8.i.i.i.i
                                        #   in Loop: Header=BB42_8 Depth=2
	movl	64(%r9,%r15), %eax
	andl	%ebx, %eax
	movl	4(%r9,%r15), %esi
	andl	%ebx, %esi
	movzbl	68(%r9,%r15), %ecx
	shrq	%cl, %rsi
	shlq	$3, %rax
	addq	48(%r9,%r15), %rax
	leaq	(%rsi,%rax), %r14
	addq	$48, %r14
	.p2align	4
.LBB42_10:                              # %loop.2.i.i.i.i
                                        #   Parent Loop BB42_3 Depth=1
                                        #     Parent Loop BB42_8 Depth=2
                                        # =>    This Inner Loop Header: Depth=3
	movq	8(%r8), %rax
	#APP
	#NO_APP
	movq	(%rax,%r14,8), %rsi
	#APP
	#NO_APP
	movq	%rsi, %rax
	shrq	%rax
	xorq	%rbx, %rax
	movl	4(%r9,%r15), %edi
	cmpq	%rdi, %rax
	jbe	.LBB42_15
# %bb.11:                               # %join.5.i.i.i.i
                                        #   in Loop: Header=BB42_10 Depth=3
	movzbl	12(%r9,%r15), %ecx
	movq	%rsi, %rdi
	shrq	%cl, %rdi
	movq	%rdi, %rax
	shrq	%rax
	movq	%rbx, %r12
	shrq	%cl, %r12
	cmpq	%rax, %r12
	jb	.LBB42_13
# %bb.12:                               # %join.9.i.i.i.i
                                        #   in Loop: Header=BB42_10 Depth=3
	movq	32(%r9,%r15), %rdx
	movq	%rdx, %rbp
	movzbl	8(%r9,%r15), %ecx
	movl	$2, %r10d
	shll	%cl, %r10d
	andq	%rsi, %rbp
	movl	%ebp, %ecx
	decl	%r10d
	xorl	%r11d, %r11d
	cmpq	%rcx, %rdx
	sete	%r11b
	cmoveq	%r12, %rax
	cmovnel	%ebp, %r10d
	andl	%r11d, %edi
	incq	%rdx
	leaq	(%rdi,%rax,2), %rcx
	imulq	%rdx, %rcx
	addq	%r10, %rcx
	movq	8(%r8), %rdx
	#APP
	#NO_APP
	movq	%rsi, %rax
	lock		cmpxchgq	%rcx, (%rdx,%r14,8)
	#APP
	#NO_APP
	jne	.LBB42_10
.LBB42_13:                              # %join.12.i.i.i.i
                                        #   in Loop: Header=BB42_8 Depth=2
	movq	48(%r9,%r15), %rax
	movq	8(%r8), %rcx
	#APP
	#NO_APP
	movq	(%rcx,%rax,8), %rax
	#APP
	#NO_APP
	incq	%rbx
	cmpq	%rbx, %rax
	jbe	.LBB42_28
# %bb.14:                               # %"scq_band::dequeue::give_up::<#aae3f6a89b556e54>.exit.i.i.i"
                                        #   in Loop: Header=BB42_8 Depth=2
	movq	48(%r9,%r15), %rax
	movq	8(%r8), %rcx
	#APP
	#NO_APP
	movq	$-1, %rdx
	lock		xaddq	%rdx, 256(%rcx,%rax,8)
	#APP
	#NO_APP
	movabsq	$4294967296, %rax               # imm = 0x100000000
	cmpq	%rax, %rdx
	ja	.LBB42_8
	jmp	.LBB42_32
	.p2align	4
.LBB42_15:                              # %then.3.i.i.i.i
                                        #   in Loop: Header=BB42_3 Depth=1
	movq	8(%r8), %rsi
	.p2align	4
.LBB42_16:                              # %loop.2.i.i.i33.i
                                        #   Parent Loop BB42_3 Depth=1
                                        # =>  This Inner Loop Header: Depth=2
	#APP
	#NO_APP
	movq	(%rsi,%r14,8), %rcx
	#APP
	#NO_APP
	movq	%rcx, %r8
	orq	%rdi, %r8
	#APP
	#NO_APP
	movq	%rcx, %rax
	lock		cmpxchgq	%r8, (%rsi,%r14,8)
	#APP
	#NO_APP
	jne	.LBB42_16
# %bb.17:                               # %arm.5.i.i.i.i
                                        #   in Loop: Header=BB42_3 Depth=1
	andl	4(%r9,%r15), %ecx
	movq	-64(%rsp), %r9                  # 8-byte Reload
	movq	160(%r9), %rsi
	leaq	1(%rbx), %rax
	movq	-72(%rsp), %rdi                 # 8-byte Reload
	cmpq	%rbx, 8(%rsi,%rdi)
	jae	.LBB42_19
# %bb.18:                               # %then.1.i62.i.i.i
                                        #   in Loop: Header=BB42_3 Depth=1
	movq	%rbx, 8(%rsi,%rdi)
	movq	160(%r9), %rdx
	movq	%rax, 16(%rdx,%rdi)
	jmp	.LBB42_20
	.p2align	4
.LBB42_19:                              # %join.3.i58.i.i.i
                                        #   in Loop: Header=BB42_3 Depth=1
	movq	%rax, 16(%rsi,%rdi)
.LBB42_20:                              # %arm.1.i22.i.i
                                        #   in Loop: Header=BB42_3 Depth=1
	movq	136(%r9), %rax
	movb	$1, (%rax,%rcx)
	movq	208(%r9), %rax
	cmpq	$-1, %rax
	je	.LBB42_22
# %bb.21:                               # %arm.1.i99.i.i.i
                                        #   in Loop: Header=BB42_3 Depth=1
	incq	%rax
	movq	%rax, 208(%r9)
.LBB42_22:                              # %arm.1.i.i.i
                                        #   in Loop: Header=BB42_3 Depth=1
	decl	256(%r9)
	movq	232(%r9), %rax
	cmpb	$0, (%rax,%rcx,8)
	movl	$1, (%rax,%rcx,8)
	movl	%ecx, 4(%rax,%rcx,8)
	jne	.LBB42_41
# %bb.23:                               # %join.8.i.i
                                        #   in Loop: Header=BB42_3 Depth=1
	movaps	-24(%rsp), %xmm0
	movups	%xmm0, (%r13)
	movq	%rbx, 16(%r13)
	movl	%ecx, 24(%r13)
	movl	-44(%rsp), %eax                 # 4-byte Reload
	movl	%eax, 28(%r13)
	movq	-56(%rsp), %r10                 # 8-byte Reload
	incq	%r10
	movq	-32(%rsp), %rcx                 # 8-byte Reload
	cmpq	%rcx, %r10
	movl	-48(%rsp), %esi                 # 4-byte Reload
	movq	-40(%rsp), %rdx                 # 8-byte Reload
	jne	.LBB42_3
# %bb.24:
	xorl	%eax, %eax
	movq	%rcx, %r10
	jmp	.LBB42_34
.LBB42_25:
	movl	$4, %eax
	jmp	.LBB42_40
.LBB42_26:
	xorl	%r10d, %r10d
	xorl	%eax, %eax
	jmp	.LBB42_39
.LBB42_27:                              # %arm.6.i.i.i.thread1294.i
	movq	-64(%rsp), %r9                  # 8-byte Reload
	movq	160(%r9), %rax
	movq	-72(%rsp), %rdx                 # 8-byte Reload
	movq	16(%rax,%rdx), %rcx
	leaq	1(%rbx), %rsi
	cmpq	%rcx, %rsi
	cmovaq	%rsi, %rcx
	movq	%rcx, 16(%rax,%rdx)
	movq	$1, 184(%r9)
	movq	%rbx, 192(%r9)
	movq	-80(%rsp), %r8                  # 8-byte Reload
	movq	-88(%rsp), %rdi                 # 8-byte Reload
	movq	-56(%rsp), %r10                 # 8-byte Reload
	movl	$3, %eax
	jmp	.LBB42_39
.LBB42_28:                              # %loop.2.i79.i.preheader
	movq	%rbx, %rcx
	.p2align	4
.LBB42_29:                              # %loop.2.i79.i
                                        # =>This Inner Loop Header: Depth=1
	movq	48(%r9,%r15), %rdx
	movq	8(%r8), %rsi
	#APP
	#NO_APP
	lock		cmpxchgq	%rcx, (%rsi,%rdx,8)
	#APP
	#NO_APP
	je	.LBB42_31
# %bb.30:                               # %join.5.i83.i
                                        #   in Loop: Header=BB42_29 Depth=1
	movq	48(%r9,%r15), %rax
	movq	8(%r8), %rcx
	#APP
	#NO_APP
	movq	128(%rcx,%rax,8), %rcx
	#APP
	#NO_APP
	movq	48(%r9,%r15), %rax
	movq	8(%r8), %rdx
	#APP
	#NO_APP
	movq	(%rdx,%rax,8), %rax
	#APP
	#NO_APP
	cmpq	%rax, %rcx
	ja	.LBB42_29
.LBB42_31:                              # %arm.8.i.i.i.i
	movq	48(%r9,%r15), %rax
	movq	8(%r8), %rcx
	#APP
	#NO_APP
	lock		decq	256(%rcx,%rax,8)
	#APP
	#NO_APP
.LBB42_32:
	movq	-64(%rsp), %r9                  # 8-byte Reload
	movq	160(%r9), %rcx
	movq	-72(%rsp), %rdx                 # 8-byte Reload
	leaq	(%rcx,%rdx), %rsi
	leaq	(%rcx,%rdx), %r10
	addq	$16, %r10
	movq	16(%rcx,%rdx), %rcx
	cmpq	%rcx, %rbx
	cmovbeq	%rcx, %rbx
	jmp	.LBB42_36
.LBB42_33:                              # %then.1.i.i.i
	xorl	%eax, %eax
	cmpl	%r8d, %esi
	adcl	$6, %eax
.LBB42_34:                              # %"scq_c::many::take_each.exit.i"
	movq	-80(%rsp), %r8                  # 8-byte Reload
	movq	-88(%rsp), %rdi                 # 8-byte Reload
	jmp	.LBB42_39
.LBB42_35:                              # %arm.8.i.i.i.i.thread
	movq	-64(%rsp), %r9                  # 8-byte Reload
	movq	160(%r9), %rcx
	movq	-72(%rsp), %rdx                 # 8-byte Reload
	leaq	(%rcx,%rdx), %rsi
	leaq	(%rcx,%rdx), %r10
	addq	$16, %r10
	movq	16(%rcx,%rdx), %rcx
	movq	%rcx, %rbx
.LBB42_36:
	movq	-80(%rsp), %r8                  # 8-byte Reload
	movq	-88(%rsp), %rdi                 # 8-byte Reload
	movq	(%rsi), %rsi
	incq	%rsi
	cmpq	%rbx, %rsi
	cmovbeq	%rbx, %rsi
	movl	$1, %eax
	cmpq	%rsi, %rcx
	jae	.LBB42_38
# %bb.37:                               # %then.1.i78.i.i.i
	movq	%rsi, (%r10)
.LBB42_38:
	movq	-56(%rsp), %r10                 # 8-byte Reload
.LBB42_39:                              # %"scq_c::many::take_each.exit.i"
	movq	%r9, (%rdi)
	movq	%r10, (%r8)
.LBB42_40:                              # %"scq_c::many::scq_take_index_many.exit"
	popq	%rbx
	popq	%r12
	popq	%r13
	popq	%r14
	popq	%r15
	popq	%rbp
	retq
.LBB42_41:                              # %arm.2.i.i.i.i
	ud2
.Lfunc_end42:
	.size	scq_take_index_many, .Lfunc_end42-scq_take_index_many
                                        # -- End function
	.section	.text.scq_end,"ax",@progbits
	.globl	scq_end                         # -- Begin function scq_end
	.p2align	4
	.type	scq_end,@function
scq_end:                                # @scq_end
# %bb.0:                                # %start
	pushq	%rbp
	pushq	%r15
	pushq	%r14
	pushq	%r13
	pushq	%r12
	pushq	%rbx
	subq	$536, %rsp                      # imm = 0x218
	xorl	%ebx, %ebx
	testq	%rdx, %rdx
	sete	%bpl
	movq	(%rdi), %r15
	movq	$0, (%rdi)
	testq	%r15, %r15
	je	.LBB43_1
# %bb.2:                                # %arm.1.i
	movq	%rcx, %r12
	movq	%rdx, %r14
	movq	%rsi, 8(%rsp)                   # 8-byte Spill
	leaq	128(%rsp), %r13
	movl	$408, %edx                      # imm = 0x198
	movq	%r13, %rdi
	movq	%r15, %rsi
	callq	memcpy@PLT
	movq	%r15, %rdi
	callq	rattle_dealloc@PLT
	xorps	%xmm0, %xmm0
	movaps	%xmm0, 96(%rsp)
	movaps	%xmm0, 80(%rsp)
	movaps	%xmm0, 64(%rsp)
	movaps	%xmm0, 48(%rsp)
	movaps	%xmm0, 32(%rsp)
	movaps	%xmm0, 16(%rsp)
	movq	$0, 112(%rsp)
	leaq	16(%rsp), %rdi
	movq	%r13, %rsi
	callq	"scq_port::port::Port::close"
	xorl	%eax, %eax
	cmpb	$1, 16(%rsp)
	movl	$0, %r15d
	jne	.LBB43_19
# %bb.3:                                # %arm.1.i2.i
	movq	40(%rsp), %rax
	movq	72(%rsp), %r15
	movq	80(%rsp), %rcx
	cmpq	%r12, %rcx
	cmovbq	%rcx, %r12
	testq	%r12, %r12
	je	.LBB43_10
# %bb.4:                                # %join.8.i.i.i.preheader
	movb	%bpl, %bl
	shll	$12, %ebx
	addq	%rbx, %r14
	cmpq	$1, %r12
	jne	.LBB43_6
# %bb.5:
	xorl	%ecx, %ecx
	jmp	.LBB43_9
.LBB43_1:
	movl	$4, %eax
	jmp	.LBB43_20
.LBB43_6:                               # %join.8.i.i.i.preheader.new
	movq	%r12, %rdx
	andq	$-2, %rdx
	movl	$40, %esi
	xorl	%ecx, %ecx
	.p2align	4
.LBB43_7:                               # %join.8.i.i.i
                                        # =>This Inner Loop Header: Depth=1
	movq	-24(%r15,%rsi), %rdi
	movups	-40(%r15,%rsi), %xmm0
	movups	%xmm0, -40(%r14,%rsi)
	movq	%rdi, -24(%r14,%rsi)
	movq	(%r15,%rsi), %rdi
	movups	-16(%r15,%rsi), %xmm0
	movups	%xmm0, -16(%r14,%rsi)
	movq	%rdi, (%r14,%rsi)
	addq	$2, %rcx
	addq	$48, %rsi
	cmpq	%rcx, %rdx
	jne	.LBB43_7
# %bb.8:                                # %"scq_c::tally::write_out.exit.i.i.loopexit.unr-lcssa"
	testb	$1, %r12b
	je	.LBB43_10
.LBB43_9:                               # %join.8.i.i.i.epil.preheader
	shlq	$3, %rcx
	leaq	(%rcx,%rcx,2), %rcx
	movq	16(%r15,%rcx), %rdx
	movups	(%r15,%rcx), %xmm0
	movups	%xmm0, (%r14,%rcx)
	movq	%rdx, 16(%r14,%rcx)
.LBB43_10:                              # %"scq_c::tally::write_out.exit.i.i"
	movq	48(%rsp), %r12
	movq	64(%rsp), %rbp
	movq	88(%rsp), %r13
	movq	96(%rsp), %r14
	movq	112(%rsp), %rbx
	testq	%rax, %rax
	je	.LBB43_12
# %bb.11:                               # %then.1.i.i.i.i.i.i.i
	movq	24(%rsp), %rdi
	callq	rattle_dealloc@PLT
.LBB43_12:                              # %"std_alloc::vec::Vec::drop::<#b9c9430303c4fe1c>.exit.i.i.i.i"
	testq	%rbp, %rbp
	je	.LBB43_14
# %bb.13:                               # %then.1.i.i.i4.i.i.i.i
	movq	%r12, %rdi
	callq	rattle_dealloc@PLT
.LBB43_14:                              # %"std_alloc::vec::Vec::drop::<#7b956238bdc1ddfb>.exit.i.i.i.i"
	testq	%r13, %r13
	je	.LBB43_16
# %bb.15:                               # %then.1.i.i.i9.i.i.i.i
	movq	%r15, %rdi
	callq	rattle_dealloc@PLT
.LBB43_16:                              # %"std_alloc::vec::Vec::drop::<#252d60b76bbd48c9>.exit.i.i.i.i"
	movl	$1, %r15d
	testq	%rbx, %rbx
	je	.LBB43_18
# %bb.17:                               # %then.1.i.i.i14.i.i.i.i
	movq	%r14, %rdi
	callq	rattle_dealloc@PLT
.LBB43_18:                              # %"scq_c::exports::end_of.exit.i"
	xorl	%eax, %eax
.LBB43_19:                              # %"scq_c::exports::end_of.exit.i"
	movq	8(%rsp), %rcx                   # 8-byte Reload
	movl	%r15d, (%rcx)
.LBB43_20:                              # %"scq_c::exports::scq_end.exit"
	addq	$536, %rsp                      # imm = 0x218
	popq	%rbx
	popq	%r12
	popq	%r13
	popq	%r14
	popq	%r15
	popq	%rbp
	retq
.Lfunc_end43:
	.size	scq_end, .Lfunc_end43-scq_end
                                        # -- End function
	.ident	"rattle logic=dac8208d650f15bf3e2dc313a14fa4c783a3acf887bdfab66e1714b038d9e11b"
	.section	".note.GNU-stack","",@progbits
