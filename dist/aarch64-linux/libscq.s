	.file	"rattle"
	.section	".text.scq_c::opening::boxed","ax",@progbits
	.p2align	2                               // -- Begin function scq_c::opening::boxed
	.type	"scq_c::opening::boxed",@function
"scq_c::opening::boxed":                // @"scq_c::opening::boxed"
// %bb.0:                               // %start
	stp	x29, x30, [sp, #-96]!           // 16-byte Folded Spill
	stp	x28, x27, [sp, #16]             // 16-byte Folded Spill
	mov	x29, sp
	stp	x26, x25, [sp, #32]             // 16-byte Folded Spill
	stp	x24, x23, [sp, #48]             // 16-byte Folded Spill
	stp	x22, x21, [sp, #64]             // 16-byte Folded Spill
	stp	x20, x19, [sp, #80]             // 16-byte Folded Spill
	sub	sp, sp, #2320
	str	xzr, [sp]
	movi	v0.2d, #0000000000000000
	mov	x26, x0
	ldp	w24, w22, [x1]
	ldp	w27, w23, [x1, #8]
	ldr	x21, [x1, #16]
	mov	x0, xzr
	mov	w1, #1                          // =0x1
	add	w28, w24, #1
	mov	w25, w2
	stp	q0, q0, [sp, #736]
	subs	w8, w28, #3
	stp	q0, q0, [sp, #768]
	mov	w20, #1                         // =0x1
	stp	q0, q0, [sp, #704]
	csel	w19, wzr, w8, lo
	stp	q0, q0, [sp, #800]
	stp	q0, q0, [sp, #832]
	stp	q0, q0, [sp, #864]
	stp	q0, q0, [sp, #896]
	stp	q0, q0, [sp, #928]
	stp	q0, q0, [sp, #960]
	stp	q0, q0, [sp, #992]
	str	q0, [sp, #1024]
	stp	q0, q0, [sp, #240]
	stp	q0, q0, [sp, #272]
	stp	q0, q0, [sp, #304]
	stp	q0, q0, [sp, #336]
	stp	q0, q0, [sp, #368]
	stp	q0, q0, [sp, #400]
	stp	q0, q0, [sp, #432]
	stp	q0, q0, [sp, #464]
	stp	q0, q0, [sp, #496]
	stp	q0, q0, [sp, #528]
	stp	q0, q0, [sp, #560]
	stp	q0, q0, [sp, #592]
	stp	q0, q0, [sp, #640]
	stp	q0, q0, [sp, #672]
	str	xzr, [sp, #624]
	str	q0, [sp, #224]
	str	q0, [sp, #1344]
	str	q0, [sp, #1360]
	str	xzr, [sp, #1328]
	str	xzr, [sp, #1312]
	str	xzr, [sp, #1320]
	str	q0, [sp, #1088]
	str	q0, [sp, #1104]
	str	q0, [sp, #1120]
	str	q0, [sp, #1136]
	str	q0, [sp, #1152]
	str	q0, [sp, #1168]
	str	q0, [sp, #1184]
	str	q0, [sp, #1200]
	str	q0, [sp, #1216]
	str	q0, [sp, #1232]
	str	q0, [sp, #1248]
	str	q0, [sp, #1264]
	str	q0, [sp, #1280]
	str	q0, [sp, #1296]
	str	xzr, [sp, #1072]
	str	xzr, [sp, #1064]
	str	xzr, [sp, #1080]
	str	xzr, [sp, #1056]
	str	xzr, [sp, #1040]
	str	xzr, [sp, #1048]
	bl	rattle_alloc
	tbz	w0, #0, .LBB0_125
// %bb.1:                               // %arm.1.i
	stp	x24, x1, [sp, #208]             // 16-byte Folded Spill
	str	xzr, [sp, #1472]
	str	xzr, [sp, #1456]
	str	xzr, [sp, #1464]
	str	xzr, [sp, #1448]
	str	xzr, [sp, #1432]
	str	xzr, [sp, #1440]
	str	xzr, [sp, #1424]
	str	xzr, [sp, #1408]
	str	xzr, [sp, #1416]
	str	xzr, [sp, #1400]
	str	xzr, [sp, #1384]
	str	xzr, [sp, #1392]
	cbz	w27, .LBB0_6
// %bb.2:                               // %"std_alloc::vec::resize::<#2923e4ee7bb015e8>.exit.i.i.i.i"
	mov	x8, x27
	mov	x27, x28
	mov	x28, x21
	add	x21, x8, x8, lsl #1
	mov	w1, #8                          // =0x8
	mov	x20, x19
	mov	x24, x22
	mov	x19, x8
	lsl	x0, x21, #5
	bl	rattle_alloc
	tbz	w0, #0, .LBB0_123
// %bb.3:                               // %"std_alloc::vec::resize::<#f4318c47d354a1ca>.exit.i.i.i.i"
	lsl	x0, x21, #3
	mov	x22, x1
	mov	w1, #8                          // =0x8
	str	w23, [sp, #180]                 // 4-byte Spill
	bl	rattle_alloc
	tbz	w0, #0, .LBB0_30
// %bb.4:                               // %"std_alloc::vec::resize::<#42f37edd1657e19d>.exit.i.i.i.i"
	mov	x23, x1
	mov	x0, x19
	mov	w1, #1                          // =0x1
	str	w25, [sp, #164]                 // 4-byte Spill
	str	x22, [sp, #184]                 // 8-byte Spill
	bl	rattle_alloc
	tbz	w0, #0, .LBB0_31
// %bb.5:                               // %"std_alloc::vec::Vec::move_to::<#42f37edd1657e19d>.exit.thread.i.i.i"
	mov	x22, x24
	ldr	x24, [sp, #208]                 // 8-byte Reload
	mov	x25, x1
	mov	x21, x28
	mov	x28, x27
	mov	x27, x19
	mov	x19, x20
	mov	w20, #1                         // =0x1
	b	.LBB0_7
.LBB0_6:
	sub	x8, x29, #24
	str	w23, [sp, #180]                 // 4-byte Spill
	sub	x23, x29, #24
	str	w25, [sp, #164]                 // 4-byte Spill
	sub	x25, x29, #24
	str	x8, [sp, #184]                  // 8-byte Spill
.LBB0_7:                                // %arm.8.i.i
	mov	w8, #24                         // =0x18
	mov	w1, #8                          // =0x8
	str	xzr, [sp, #1544]
	lsl	x0, x8, x24
	str	xzr, [sp, #1528]
	str	xzr, [sp, #1536]
	str	xzr, [sp, #1520]
	str	xzr, [sp, #1504]
	str	xzr, [sp, #1512]
	str	xzr, [sp, #1496]
	str	xzr, [sp, #1480]
	str	xzr, [sp, #1488]
	str	xzr, [sp, #1600]
	str	xzr, [sp, #1584]
	str	xzr, [sp, #1592]
	str	xzr, [sp, #1568]
	str	xzr, [sp, #1552]
	str	xzr, [sp, #1560]
	str	xzr, [sp, #1896]
	bl	rattle_alloc
	tbz	w0, #0, .LBB0_119
// %bb.8:
	mov	x8, #-1                         // =0xffffffffffffffff
	mov	x9, x28
	lsl	x28, x20, x24
	lsl	x10, x8, x19
	lsl	x8, x8, x9
	str	x21, [sp, #104]                 // 8-byte Spill
	mov	x21, xzr
	mov	x20, x28
	stp	x25, x23, [sp, #120]            // 16-byte Folded Spill
	stp	x10, x9, [sp, #88]              // 16-byte Folded Spill
	str	x8, [sp, #80]                   // 8-byte Spill
	str	x1, [sp, #1888]
	str	x28, [sp, #1904]
	b	.LBB0_11
.LBB0_9:                                // %"std_alloc::vec::Vec::grow::<#0152034d78aea1d1>.exit.join.3_crit_edge.i.i.i.i.i.i.i"
                                        //   in Loop: Header=BB0_11 Depth=1
	ldr	x25, [sp, #1896]
	ldr	x1, [sp, #1888]
.LBB0_10:                               // %arm.10.i.i.i.i.i.i
                                        //   in Loop: Header=BB0_11 Depth=1
	mov	w8, #24                         // =0x18
	sub	x23, x29, #24
	add	x21, x25, #1
	madd	x8, x25, x8, x1
	subs	x20, x20, #1
	stp	x23, xzr, [x8]
	str	xzr, [x8, #16]
	str	x21, [sp, #1896]
	b.eq	.LBB0_18
.LBB0_11:                               // %join.9.i.i.i.i.i.i
                                        // =>This Inner Loop Header: Depth=1
	ldr	x8, [sp, #1904]
	mov	x25, x21
	cmp	x8, x21
	b.ne	.LBB0_10
// %bb.12:                              // %"std_alloc::vec::Vec::grow::<#0152034d78aea1d1>.exit.i.i.i.i.i.i.i"
                                        //   in Loop: Header=BB0_11 Depth=1
	add	x0, sp, #1888
	bl	"std_alloc::vec::Vec::grow_amortized::<#0152034d78aea1d1>"
	cbnz	w0, .LBB0_9
// %bb.13:                              // %"core::result::ResultFromResidualErrResidual::from_residual::<#a8cfdb662d7a30ed>.exit.i.i.i.i.i.i"
	ldp	x25, x23, [sp, #120]            // 16-byte Folded Reload
	ldr	x19, [sp, #1896]
	ldr	x22, [sp, #1888]
	ldr	x20, [sp, #1904]
	cbz	x19, .LBB0_73
// %bb.14:                              // %join.5.i.i.i.i.i21.i.i.i.i.i.i.preheader
	add	x21, x22, #16
	b	.LBB0_16
.LBB0_15:                               // %"core::mem::drop::<#426bf5ba2825d3de>.exit.i.i.i.i.i30.i.i.i.i.i.i"
                                        //   in Loop: Header=BB0_16 Depth=1
	subs	x19, x19, #1
	add	x21, x21, #24
	b.eq	.LBB0_73
.LBB0_16:                               // %join.5.i.i.i.i.i21.i.i.i.i.i.i
                                        // =>This Inner Loop Header: Depth=1
	ldr	x8, [x21]
	cbz	x8, .LBB0_15
// %bb.17:                              // %then.1.i.i.i.i.i.i.i.i.i.i28.i.i.i.i.i.i
                                        //   in Loop: Header=BB0_16 Depth=1
	ldur	x0, [x21, #-16]
	bl	rattle_dealloc
	b	.LBB0_15
.LBB0_18:                               // %arm.1.i.i.i.i.i
	add	x8, sp, #1528
	movi	v0.2d, #0000000000000000
	str	xzr, [sp, #1624]
	stur	xzr, [x8, #111]
	ldr	x8, [sp, #1888]
	str	xzr, [sp, #1616]
	str	x8, [sp, #200]                  // 8-byte Spill
	ldr	x8, [sp, #1904]
	str	xzr, [sp, #1632]
	str	q0, [sp, #1696]
	str	q0, [sp, #1712]
	str	x8, [sp, #112]                  // 8-byte Spill
	str	q0, [sp, #1888]
	str	q0, [sp, #1904]
	str	q0, [sp, #1920]
	str	xzr, [sp, #1688]
	str	x23, [sp, #1672]
	str	xzr, [sp, #1680]
	cbz	w22, .LBB0_21
// %bb.19:                              // %join.3.i.i.i.i.i.i.i.i
	add	x8, x22, x22, lsl #1
	mov	w1, #8                          // =0x8
	lsl	x0, x8, #4
	bl	rattle_alloc
	tbz	w0, #0, .LBB0_25
// %bb.20:
	movi	v0.2d, #0000000000000000
	mov	x23, x1
	str	x1, [sp, #1672]
	str	x22, [sp, #1688]
.LBB0_21:                               // %arm.1.i.i.i.i.i.i.i
	add	x0, sp, #1728
	mov	w1, w24
	str	q0, [sp, #1744]
	str	q0, [sp, #1728]
	bl	"scq_core::ring::unused"
	ldrb	w8, [sp, #1728]
	cbz	w8, .LBB0_32
.LBB0_22:                               // %arm.6.i.i.i.i.i.i.i
	cbz	w22, .LBB0_25
// %bb.23:                              // %then.1.i.i.i54.i.i.i.i.i.i.i
	mov	x0, x23
.LBB0_24:                               // %arm.2.i9.i.i.i.i.i
	bl	rattle_dealloc
.LBB0_25:                               // %arm.2.i9.i.i.i.i.i
	cbz	x21, .LBB0_116
// %bb.26:                              // %join.5.i.i.i.i.i.i.i.i.i.i.i.preheader
	ldr	x8, [sp, #200]                  // 8-byte Reload
	add	x19, x25, #1
	add	x20, x8, #16
	b	.LBB0_28
.LBB0_27:                               // %"core::mem::drop::<#9fc2d86ad1f37d9e>.exit.i.i.i.i.i.i.i.i.i.i.i"
                                        //   in Loop: Header=BB0_28 Depth=1
	subs	x19, x19, #1
	add	x20, x20, #24
	b.eq	.LBB0_116
.LBB0_28:                               // %join.5.i.i.i.i.i.i.i.i.i.i.i
                                        // =>This Inner Loop Header: Depth=1
	ldr	x8, [x20]
	cbz	x8, .LBB0_27
// %bb.29:                              // %then.1.i.i.i.i.i.i.i.i.i.i.i.i.i.i.i.i
                                        //   in Loop: Header=BB0_28 Depth=1
	ldur	x0, [x20, #-16]
	bl	rattle_dealloc
	b	.LBB0_27
.LBB0_30:                               // %"std_alloc::vec::Vec::destroy_empty::<#2923e4ee7bb015e8>.exit.i.i"
	mov	x0, x22
	b	.LBB0_122
.LBB0_31:                               // %"std_alloc::vec::Vec::drop::<#ef7b945cfcdca3a1>.exit.i.i"
	ldr	x0, [sp, #184]                  // 8-byte Reload
	b	.LBB0_121
.LBB0_32:                               // %arm.1.i.i.i.i.i.i.i.i
	mov	w8, #2                          // =0x2
	stp	x27, x22, [sp, #64]             // 16-byte Folded Spill
	ldr	x27, [sp, #1744]
	lsl	w8, w8, w24
	str	x8, [sp, #192]                  // 8-byte Spill
	ldr	x8, [sp, #1736]
	str	x8, [sp, #168]                  // 8-byte Spill
	ldr	x8, [sp, #1752]
	stp	x28, x8, [sp, #48]              // 16-byte Folded Spill
	cbz	x21, .LBB0_56
// %bb.33:                              // %join.9.i.i.preheader.i.i.i.i.i.i
	ldr	x9, [sp, #80]                   // 8-byte Reload
	mov	x20, xzr
	sub	x8, x9, x9, lsl #2
	str	x8, [sp, #152]                  // 8-byte Spill
	ldr	x8, [sp, #88]                   // 8-byte Reload
	mvn	x8, x8
	str	x8, [sp, #144]                  // 8-byte Spill
	mvn	x8, x9
	str	x8, [sp, #136]                  // 8-byte Spill
	b	.LBB0_35
.LBB0_34:                               // %"scq_core::ring::fill.exit.i.i.i.i.i.i.i.i"
                                        //   in Loop: Header=BB0_35 Depth=1
	ldr	x24, [sp, #208]                 // 8-byte Reload
	cmp	x20, x25
	add	x20, x20, #1
	b.eq	.LBB0_56
.LBB0_35:                               // %join.9.i.i.i.i.i.i.i.i
                                        // =>This Loop Header: Depth=1
                                        //     Child Loop BB0_46 Depth 2
                                        //     Child Loop BB0_50 Depth 2
                                        //     Child Loop BB0_53 Depth 2
	mov	w8, #24                         // =0x18
	ldr	x9, [sp, #200]                  // 8-byte Reload
	madd	x8, x20, x8, x9
	ldp	x28, x22, [x8]
	cbz	x22, .LBB0_43
// %bb.36:                              // %then.2.i.i.i.i.i.i.i.i.i.i.i
                                        //   in Loop: Header=BB0_35 Depth=1
	tbnz	x22, #63, .LBB0_65
// %bb.37:                              // %"std_alloc::vec::resize::<#4c1919f637999ecc>.exit.i.i.i.i.i.i.i.i.i.i.i.i"
                                        //   in Loop: Header=BB0_35 Depth=1
	mov	x0, x22
	mov	w1, #1                          // =0x1
	bl	rattle_alloc
	tbz	w0, #0, .LBB0_65
// %bb.38:                              // %"std_alloc::vec::Vec::move_to::<#4c1919f637999ecc>.exit.i.i.i.i.i.i.i.i.i.i.i"
                                        //   in Loop: Header=BB0_35 Depth=1
	mov	x24, x1
	sub	x9, x1, x28
	cmp	x9, x22
	b.hs	.LBB0_44
.LBB0_39:                               // %iter.check
                                        //   in Loop: Header=BB0_35 Depth=1
	cmp	x22, #8
	mov	x8, xzr
	b.lo	.LBB0_52
// %bb.40:                              // %iter.check
                                        //   in Loop: Header=BB0_35 Depth=1
	cmp	x9, #32
	b.lo	.LBB0_52
// %bb.41:                              // %vector.main.loop.iter.check
                                        //   in Loop: Header=BB0_35 Depth=1
	cmp	x22, #32
	b.hs	.LBB0_45
// %bb.42:                              //   in Loop: Header=BB0_35 Depth=1
	mov	x8, xzr
	b	.LBB0_49
.LBB0_43:                               //   in Loop: Header=BB0_35 Depth=1
	sub	x24, x29, #24
	sub	x9, x24, x28
	cmp	x9, x22
	b.lo	.LBB0_39
.LBB0_44:                               // %apart.2.i.i.i.i.i.i.i.i.i.i.i.i.i
                                        //   in Loop: Header=BB0_35 Depth=1
	mov	x0, x24
	mov	x1, x28
	mov	x2, x22
	bl	memmove
	b	.LBB0_54
.LBB0_45:                               // %vector.ph
                                        //   in Loop: Header=BB0_35 Depth=1
	and	x9, x22, #0x18
	and	x8, x22, #0xffffffffffffffe0
	add	x10, x28, #16
	add	x11, x24, #16
	and	x12, x22, #0xffffffffffffffe0
.LBB0_46:                               // %vector.body
                                        //   Parent Loop BB0_35 Depth=1
                                        // =>  This Inner Loop Header: Depth=2
	ldp	q0, q1, [x10, #-16]
	subs	x12, x12, #32
	add	x10, x10, #32
	stp	q0, q1, [x11, #-16]
	add	x11, x11, #32
	b.ne	.LBB0_46
// %bb.47:                              // %middle.block
                                        //   in Loop: Header=BB0_35 Depth=1
	cmp	x22, x8
	b.eq	.LBB0_54
// %bb.48:                              // %vec.epilog.iter.check
                                        //   in Loop: Header=BB0_35 Depth=1
	cbz	x9, .LBB0_52
.LBB0_49:                               // %vec.epilog.ph
                                        //   in Loop: Header=BB0_35 Depth=1
	mov	x11, x8
	and	x8, x22, #0xfffffffffffffff8
	sub	x9, x11, x8
	add	x10, x28, x11
	add	x11, x24, x11
.LBB0_50:                               // %vec.epilog.vector.body
                                        //   Parent Loop BB0_35 Depth=1
                                        // =>  This Inner Loop Header: Depth=2
	ldr	d0, [x10], #8
	adds	x9, x9, #8
	str	d0, [x11], #8
	b.ne	.LBB0_50
// %bb.51:                              // %vec.epilog.middle.block
                                        //   in Loop: Header=BB0_35 Depth=1
	cmp	x22, x8
	b.eq	.LBB0_54
.LBB0_52:                               // %join.7.i.i.i.i.i.i.i.i.i.i.i.i.i.preheader
                                        //   in Loop: Header=BB0_35 Depth=1
	sub	x9, x22, x8
	add	x10, x28, x8
	add	x8, x24, x8
.LBB0_53:                               // %join.7.i.i.i.i.i.i.i.i.i.i.i.i.i
                                        //   Parent Loop BB0_35 Depth=1
                                        // =>  This Inner Loop Header: Depth=2
	ldrb	w11, [x10], #1
	subs	x9, x9, #1
	strb	w11, [x8], #1
	b.ne	.LBB0_53
.LBB0_54:                               // %arm.11.i.i.i.i.i.i.i.i
                                        //   in Loop: Header=BB0_35 Depth=1
	ldr	x8, [sp, #192]                  // 8-byte Reload
	ldr	x9, [sp, #136]                  // 8-byte Reload
	ldr	x10, [sp, #168]                 // 8-byte Reload
	add	w8, w8, w20
	and	x8, x8, x9
	ldr	x9, [sp, #144]                  // 8-byte Reload
	and	w9, w8, w9
	lsr	x8, x8, x19
	lsl	x9, x9, #8
	add	x8, x9, x8, lsl #5
	ldr	x9, [sp, #152]                  // 8-byte Reload
	add	x9, x9, w20, uxtw
	and	x8, x8, #0x1fffffffe0
	add	x8, x10, x8
	ldr	x0, [x8, #8]
	stp	x9, x24, [x8]
	ldr	x9, [x8, #24]
	stp	x22, x22, [x8, #16]
	cbz	x9, .LBB0_34
// %bb.55:                              // %then.1.i.i.i.i.i.i.i.i.i.i.i.i
                                        //   in Loop: Header=BB0_35 Depth=1
	bl	rattle_dealloc
	b	.LBB0_34
.LBB0_56:                               // %arm.5.i.i.i.i.i.i.i
	ldp	x8, x22, [sp, #64]              // 16-byte Folded Reload
	ldr	x28, [sp, #48]                  // 8-byte Reload
	cmp	w8, w28
	csel	w20, w8, w28, hi
	cbz	w22, .LBB0_127
// %bb.57:
	mov	x8, xzr
.LBB0_58:                               // %arm.8.i.i.i.i.i.i.i
	mov	w9, #48                         // =0x30
	ldr	x12, [sp, #192]                 // 8-byte Reload
	mov	x11, #4294967296                // =0x100000000
	madd	x9, x8, x9, x23
	subs	w23, w22, #1
	sub	w14, w12, #1
	add	x10, x12, x28
	add	x28, x8, #1
	add	x11, x14, x11
	ldr	x8, [sp, #56]                   // 8-byte Reload
	sub	w13, w12, #1
	str	x13, [sp, #32]                  // 8-byte Spill
	stp	x10, x12, [x9]
	add	x10, x20, x11
	str	x10, [sp, #152]                 // 8-byte Spill
	str	x10, [x9, #16]
	ldr	x10, [sp, #168]                 // 8-byte Reload
	str	x8, [x9, #40]
	stp	x10, x27, [x9, #24]
	str	x28, [sp, #1680]
	b.eq	.LBB0_72
// %bb.59:                              // %join.15.lr.ph.i.i.i.i.i.i.i
	ldr	x27, [sp, #64]                  // 8-byte Reload
	add	x20, sp, #1728
	mov	w22, w23
.LBB0_60:                               // %join.15.i.i.i.i.i.i.i
                                        // =>This Inner Loop Header: Depth=1
	movi	v0.2d, #0000000000000000
	add	x0, sp, #1728
	mov	w1, w24
	str	q0, [sp, #1744]
	str	q0, [sp, #1728]
	bl	"scq_core::ring::unused"
	ldrb	w8, [sp, #1728]
	cbnz	w8, .LBB0_75
// %bb.61:                              // %arm.16.i.i.i.i.i.i.i
                                        //   in Loop: Header=BB0_60 Depth=1
	ldr	x8, [sp, #1688]
	ldur	q0, [x20, #8]
	ldur	x9, [x20, #24]
	cmp	x8, x28
	str	q0, [sp, #1648]
	str	x9, [sp, #1664]
	b.eq	.LBB0_63
.LBB0_62:                               // %arm.19.i.i.i.i.i.i.i
                                        //   in Loop: Header=BB0_60 Depth=1
	mov	w8, #48                         // =0x30
	ldr	x11, [sp, #1672]
	ldr	x10, [sp, #192]                 // 8-byte Reload
	madd	x8, x28, x8, x11
	ldr	q0, [sp, #1648]
	mov	w9, #-1                         // =0xffffffff
	subs	w22, w22, #1
	add	x28, x28, #1
	str	x28, [sp, #1680]
	stp	x10, x10, [x8]
	ldr	x10, [sp, #1664]
	str	x9, [x8, #16]
	stur	q0, [x8, #24]
	str	x10, [x8, #40]
	b.ne	.LBB0_60
	b	.LBB0_87
.LBB0_63:                               // %"std_alloc::vec::Vec::grow::<#ef5d867b459b34f0>.exit.i123.i.i.i.i.i.i.i"
                                        //   in Loop: Header=BB0_60 Depth=1
	add	x0, sp, #1672
	bl	"std_alloc::vec::Vec::grow_amortized::<#ef5d867b459b34f0>"
	cbz	w0, .LBB0_147
// %bb.64:                              // %"std_alloc::vec::Vec::grow::<#ef5d867b459b34f0>.exit.join.3_crit_edge.i127.i.i.i.i.i.i.i"
                                        //   in Loop: Header=BB0_60 Depth=1
	ldr	x28, [sp, #1680]
	b	.LBB0_62
.LBB0_65:                               // %arm.12.i.i.i.i.i.i.i.i
	ldr	x22, [sp, #72]                  // 8-byte Reload
	cbz	x27, .LBB0_70
// %bb.66:                              // %join.5.i.i.i.i.i.i.i.i.i.i.i.i.i.preheader
	ldr	x8, [sp, #168]                  // 8-byte Reload
	add	x19, x8, #24
	b	.LBB0_68
.LBB0_67:                               // %"core::mem::drop::<#46d93e6922d62939>.exit.i.i.i.i.i.i.i.i.i.i.i.i.i"
                                        //   in Loop: Header=BB0_68 Depth=1
	subs	x27, x27, #1
	add	x19, x19, #32
	b.eq	.LBB0_70
.LBB0_68:                               // %join.5.i.i.i.i.i.i.i.i.i.i.i.i.i
                                        // =>This Inner Loop Header: Depth=1
	ldr	x8, [x19]
	cbz	x8, .LBB0_67
// %bb.69:                              // %then.1.i.i.i.i.i.i.i.i.i.i.i.i.i.i.i.i.i.i.i
                                        //   in Loop: Header=BB0_68 Depth=1
	ldur	x0, [x19, #-16]
	bl	rattle_dealloc
	b	.LBB0_67
.LBB0_70:                               // %"std_alloc::vec::Vec::clear::<#d9b4ebeac28c86f4>.exit.i.i.i.i.i.i.i.i.i"
	ldp	x8, x27, [sp, #56]              // 16-byte Folded Reload
	cbz	x8, .LBB0_22
// %bb.71:                              // %then.1.i.i.i.i.i.i.i.i.i.i.i
	ldr	x0, [sp, #168]                  // 8-byte Reload
	bl	rattle_dealloc
	b	.LBB0_22
.LBB0_72:                               // %"arm.8.i.scq_core::state::start_rings.exit.thread204_crit_edge.i.i.i.i.i.i"
	ldr	x8, [sp, #1672]
	ldr	x27, [sp, #64]                  // 8-byte Reload
	str	x8, [sp, #168]                  // 8-byte Spill
	b	.LBB0_88
.LBB0_73:                               // %"std_alloc::vec::Vec::clear::<#6728d5b45c5fbd9b>.exit.i33.i.i.i.i.i.i"
	cbz	x20, .LBB0_119
// %bb.74:                              // %then.1.i.i.i35.i.i.i.i.i.i
	mov	x0, x22
	b	.LBB0_298
.LBB0_75:                               // %arm.17.i.i.i.i.i.i.i
	ldr	x22, [sp, #1672]
	ldr	x19, [sp, #1688]
	str	x26, [sp, #40]                  // 8-byte Spill
	cbz	x28, .LBB0_85
// %bb.76:                              // %join.5.i.i.i.i.i80.i.i.i.i.i.i.preheader
	mov	x20, xzr
	b	.LBB0_78
.LBB0_77:                               // %"core::mem::drop::<#30b1062d78cb4add>.exit.i.i.i.i.i107.i.i.i.i.i.i"
                                        //   in Loop: Header=BB0_78 Depth=1
	add	x20, x20, #1
	cmp	x20, x28
	b.eq	.LBB0_85
.LBB0_78:                               // %join.5.i.i.i.i.i80.i.i.i.i.i.i
                                        // =>This Loop Header: Depth=1
                                        //     Child Loop BB0_81 Depth 2
	mov	w8, #48                         // =0x30
	madd	x8, x20, x8, x22
	ldp	x23, x24, [x8, #24]
	ldr	x26, [x8, #40]
	cbz	x24, .LBB0_83
// %bb.79:                              // %join.5.i.i.i.i.i.i.i.i.i.i.i.i91.i.i.i.i.i.i.preheader
                                        //   in Loop: Header=BB0_78 Depth=1
	add	x27, x23, #24
	b	.LBB0_81
.LBB0_80:                               // %"core::mem::drop::<#46d93e6922d62939>.exit.i.i.i.i.i.i.i.i.i.i.i.i101.i.i.i.i.i.i"
                                        //   in Loop: Header=BB0_81 Depth=2
	subs	x24, x24, #1
	add	x27, x27, #32
	b.eq	.LBB0_83
.LBB0_81:                               // %join.5.i.i.i.i.i.i.i.i.i.i.i.i91.i.i.i.i.i.i
                                        //   Parent Loop BB0_78 Depth=1
                                        // =>  This Inner Loop Header: Depth=2
	ldr	x8, [x27]
	cbz	x8, .LBB0_80
// %bb.82:                              // %then.1.i.i.i.i.i.i.i.i.i.i.i.i.i.i.i.i.i.i98.i.i.i.i.i.i
                                        //   in Loop: Header=BB0_81 Depth=2
	ldur	x0, [x27, #-16]
	bl	rattle_dealloc
	b	.LBB0_80
.LBB0_83:                               // %"std_alloc::vec::Vec::clear::<#d9b4ebeac28c86f4>.exit.i.i.i.i.i.i.i.i104.i.i.i.i.i.i"
                                        //   in Loop: Header=BB0_78 Depth=1
	cbz	x26, .LBB0_77
// %bb.84:                              // %then.1.i.i.i.i.i.i.i.i.i.i106.i.i.i.i.i.i
                                        //   in Loop: Header=BB0_78 Depth=1
	mov	x0, x23
	bl	rattle_dealloc
	b	.LBB0_77
.LBB0_85:                               // %"std_alloc::vec::Vec::clear::<#aea6620ac8b5cb78>.exit.i110.i.i.i.i.i.i"
	ldr	x26, [sp, #40]                  // 8-byte Reload
	ldr	x27, [sp, #64]                  // 8-byte Reload
	cbz	x19, .LBB0_25
.LBB0_86:                               // %then.1.i.i.i95.i.i.i.i.i.i.i
	mov	x0, x22
	b	.LBB0_24
.LBB0_87:
	ldr	x22, [sp, #72]                  // 8-byte Reload
	str	x11, [sp, #168]                 // 8-byte Spill
.LBB0_88:                               // %"scq_core::state::start_rings.exit.thread204.i.i.i.i.i.i"
	ldr	x8, [sp, #1688]
	str	x8, [sp, #136]                  // 8-byte Spill
	sub	x8, x29, #24
	str	xzr, [sp, #1744]
	str	x8, [sp, #1728]
	str	xzr, [sp, #1736]
	cbz	w27, .LBB0_149
.LBB0_89:                               // %join.3.i.i5.i.i.i.i.i.i
	lsl	x8, x27, #7
	mov	w1, #8                          // =0x8
	sub	x0, x8, x27, lsl #3
	bl	rattle_alloc
	tbz	w0, #0, .LBB0_99
// %bb.90:                              // %join.9.lr.ph.i.i.i.i.i.i.i
	mov	x8, xzr
	mov	w20, w27
	str	x1, [sp, #1728]
	str	x27, [sp, #1744]
	b	.LBB0_93
.LBB0_91:                               // %"std_alloc::vec::Vec::grow::<#53936dfa82b80db8>.exit.join.3_crit_edge.i.i.i.i.i.i.i.i"
                                        //   in Loop: Header=BB0_93 Depth=1
	movi	v0.2d, #0000000000000000
	ldr	x8, [sp, #1736]
	ldr	x1, [sp, #1728]
.LBB0_92:                               // %join.3.i5.i.i.i.i.i.i.i
                                        //   in Loop: Header=BB0_93 Depth=1
	mov	w9, #120                        // =0x78
	sub	x10, x29, #24
	subs	w20, w20, #1
	madd	x9, x8, x9, x1
	add	x8, x8, #1
	stp	q0, q0, [x9, #16]
	str	q0, [x9]
	stp	xzr, x10, [x9, #48]
	ldr	q0, [sp, #1888]
	ldr	q1, [sp, #1904]
	str	x10, [x9, #96]
	stp	q0, q1, [x9, #64]
	ldr	q0, [sp, #1696]
	stur	q0, [x9, #104]
	str	x8, [sp, #1736]
	b.eq	.LBB0_149
.LBB0_93:                               // %join.9.i.i.i.i.i.i.i
                                        // =>This Inner Loop Header: Depth=1
	movi	v0.2d, #0000000000000000
	ldr	x9, [sp, #1744]
	str	xzr, [sp, #1704]
	str	xzr, [sp, #1696]
	cmp	x9, x8
	str	q0, [sp, #1888]
	str	q0, [sp, #1904]
	b.ne	.LBB0_92
// %bb.94:                              // %"std_alloc::vec::Vec::grow::<#53936dfa82b80db8>.exit.i.i.i.i.i.i.i.i"
                                        //   in Loop: Header=BB0_93 Depth=1
	add	x0, sp, #1728
	bl	"std_alloc::vec::Vec::grow_amortized::<#53936dfa82b80db8>"
	cbnz	w0, .LBB0_91
// %bb.95:                              // %then.1.i.i.i.i.i.i.i.i
	movi	v0.2d, #0000000000000000
	sub	x8, x29, #24
	add	x0, sp, #1888
	str	xzr, [sp, #1936]
	str	x8, [sp, #1944]
	str	xzr, [sp, #2000]
	str	q0, [sp, #1920]
	str	q0, [sp, #1904]
	str	q0, [sp, #1888]
	str	q0, [sp, #1952]
	str	q0, [sp, #1968]
	str	x8, [sp, #1984]
	str	xzr, [sp, #1992]
	bl	"scq_core::scq_core++seat++Seat+Destruct::drop"
	ldr	x22, [sp, #1728]
	ldr	x19, [sp, #1736]
	ldr	x20, [sp, #1744]
	mov	x23, x22
	cbz	x19, .LBB0_97
.LBB0_96:                               // %join.5.i.i.i.i.i14.i.i.i.i.i.i.i
                                        // =>This Inner Loop Header: Depth=1
	ldr	q0, [x23, #64]
	add	x0, sp, #1888
	str	q0, [sp, #1952]
	ldr	q0, [x23, #80]
	str	q0, [sp, #1968]
	ldr	q0, [x23, #96]
	str	q0, [sp, #1984]
	ldr	x8, [x23, #112]
	str	x8, [sp, #2000]
	ldr	q0, [x23]
	str	q0, [sp, #1888]
	ldr	q0, [x23, #16]
	str	q0, [sp, #1904]
	ldr	q0, [x23, #32]
	str	q0, [sp, #1920]
	ldr	q0, [x23, #48]
	str	q0, [sp, #1936]
	bl	"scq_core::scq_core++seat++Seat+Destruct::drop"
	subs	x19, x19, #1
	add	x23, x23, #120
	b.ne	.LBB0_96
.LBB0_97:                               // %"std_alloc::vec::Vec::clear::<#f62cd864909c6d7c>.exit.i20.i.i.i.i.i.i.i"
	cbz	x20, .LBB0_99
// %bb.98:                              // %then.1.i.i.i22.i.i.i.i.i.i.i
	mov	x0, x22
	bl	rattle_dealloc
.LBB0_99:                               // %arm.2.i11.i.i.i.i.i.i
	add	x8, sp, #1528
	stur	xzr, [x8, #103]
	stur	xzr, [x8, #95]
	stur	xzr, [x8, #111]
	cbz	x28, .LBB0_109
// %bb.100:                             // %join.5.i.i.i.i.i43.i.i.i.i.i.i.preheader
	mov	x19, xzr
	b	.LBB0_102
.LBB0_101:                              // %"core::mem::drop::<#30b1062d78cb4add>.exit.i.i.i.i.i.i.i.i.i.i.i"
                                        //   in Loop: Header=BB0_102 Depth=1
	add	x19, x19, #1
	cmp	x19, x28
	b.eq	.LBB0_109
.LBB0_102:                              // %join.5.i.i.i.i.i43.i.i.i.i.i.i
                                        // =>This Loop Header: Depth=1
                                        //     Child Loop BB0_105 Depth 2
	mov	w8, #48                         // =0x30
	ldr	x9, [sp, #168]                  // 8-byte Reload
	madd	x8, x19, x8, x9
	ldp	x22, x20, [x8, #24]
	ldr	x23, [x8, #40]
	cbz	x20, .LBB0_107
// %bb.103:                             // %join.5.i.i.i.i.i.i.i.i.i.i.i.i.i.i.i.i.i.i.preheader
                                        //   in Loop: Header=BB0_102 Depth=1
	add	x24, x22, #24
	b	.LBB0_105
.LBB0_104:                              // %"core::mem::drop::<#46d93e6922d62939>.exit.i.i.i.i.i.i.i.i.i.i.i.i.i.i.i.i.i.i"
                                        //   in Loop: Header=BB0_105 Depth=2
	subs	x20, x20, #1
	add	x24, x24, #32
	b.eq	.LBB0_107
.LBB0_105:                              // %join.5.i.i.i.i.i.i.i.i.i.i.i.i.i.i.i.i.i.i
                                        //   Parent Loop BB0_102 Depth=1
                                        // =>  This Inner Loop Header: Depth=2
	ldr	x8, [x24]
	cbz	x8, .LBB0_104
// %bb.106:                             // %then.1.i.i.i.i.i.i.i.i.i.i.i.i.i.i.i.i.i.i.i.i.i.i.i.i
                                        //   in Loop: Header=BB0_105 Depth=2
	ldur	x0, [x24, #-16]
	bl	rattle_dealloc
	b	.LBB0_104
.LBB0_107:                              // %"std_alloc::vec::Vec::clear::<#d9b4ebeac28c86f4>.exit.i.i.i.i.i.i.i.i.i.i.i.i.i.i"
                                        //   in Loop: Header=BB0_102 Depth=1
	cbz	x23, .LBB0_101
// %bb.108:                             // %then.1.i.i.i.i.i.i.i.i.i.i47.i.i.i.i.i.i
                                        //   in Loop: Header=BB0_102 Depth=1
	mov	x0, x22
	bl	rattle_dealloc
	b	.LBB0_101
.LBB0_109:                              // %"std_alloc::vec::Vec::clear::<#aea6620ac8b5cb78>.exit.i.i.i.i.i.i.i"
	ldr	x8, [sp, #136]                  // 8-byte Reload
	cbz	x8, .LBB0_111
// %bb.110:                             // %then.1.i.i.i51.i.i.i.i.i.i
	ldr	x0, [sp, #168]                  // 8-byte Reload
	bl	rattle_dealloc
.LBB0_111:                              // %"std_alloc::vec::Vec::drop::<#a9901d079cc70198>.exit.i.i.i.i.i.i"
	cbz	x21, .LBB0_116
// %bb.112:                             // %join.5.i.i.i.i.i58.i.i.i.i.i.i.preheader
	ldr	x8, [sp, #200]                  // 8-byte Reload
	add	x19, x25, #1
	add	x20, x8, #16
	b	.LBB0_114
.LBB0_113:                              // %"core::mem::drop::<#9fc2d86ad1f37d9e>.exit.i.i.i.i.i67.i.i.i.i.i.i"
                                        //   in Loop: Header=BB0_114 Depth=1
	subs	x19, x19, #1
	add	x20, x20, #24
	b.eq	.LBB0_116
.LBB0_114:                              // %join.5.i.i.i.i.i58.i.i.i.i.i.i
                                        // =>This Inner Loop Header: Depth=1
	ldr	x8, [x20]
	cbz	x8, .LBB0_113
// %bb.115:                             // %then.1.i.i.i.i.i.i.i.i.i.i65.i.i.i.i.i.i
                                        //   in Loop: Header=BB0_114 Depth=1
	ldur	x0, [x20, #-16]
	bl	rattle_dealloc
	b	.LBB0_113
.LBB0_116:                              // %"std_alloc::vec::Vec::clear::<#f988cf59f450e80b>.exit.i.i.i.i.i.i.i"
	ldr	x8, [sp, #112]                  // 8-byte Reload
	cbz	x8, .LBB0_118
// %bb.117:                             // %then.1.i.i.i.i.i.i.i.i.i
	ldr	x0, [sp, #200]                  // 8-byte Reload
	bl	rattle_dealloc
.LBB0_118:                              // %arm.6.i.i.i.i.i
	ldp	x25, x23, [sp, #120]            // 16-byte Folded Reload
.LBB0_119:                              // %arm.12.i.i
	cbz	w27, .LBB0_123
// %bb.120:                             // %then.1.i.i.i64.i.i
	ldr	x0, [sp, #184]                  // 8-byte Reload
	bl	rattle_dealloc
	mov	x0, x25
.LBB0_121:                              // %"std_alloc::vec::Vec::drop::<#b8ec7c1fdba62451>.exit.i"
	bl	rattle_dealloc
	mov	x0, x23
.LBB0_122:                              // %"std_alloc::vec::Vec::drop::<#b8ec7c1fdba62451>.exit.i"
	bl	rattle_dealloc
.LBB0_123:                              // %"std_alloc::vec::Vec::drop::<#b8ec7c1fdba62451>.exit.i"
	ldr	x0, [sp, #216]                  // 8-byte Reload
.LBB0_124:                              // %arm.2
	bl	rattle_dealloc
.LBB0_125:                              // %arm.2
	movi	v0.2d, #0000000000000000
	stp	q0, q0, [x26]
.LBB0_126:                              // %common.ret
	add	sp, sp, #2320
	ldp	x20, x19, [sp, #80]             // 16-byte Folded Reload
	ldp	x22, x21, [sp, #64]             // 16-byte Folded Reload
	ldp	x24, x23, [sp, #48]             // 16-byte Folded Reload
	ldp	x26, x25, [sp, #32]             // 16-byte Folded Reload
	ldp	x28, x27, [sp, #16]             // 16-byte Folded Reload
	ldp	x29, x30, [sp], #96             // 16-byte Folded Reload
	ret
.LBB0_127:                              // %"std_alloc::vec::Vec::grow::<#ef5d867b459b34f0>.exit.i.i.i.i.i.i.i.i"
	add	x0, sp, #1672
	bl	"std_alloc::vec::Vec::grow_amortized::<#ef5d867b459b34f0>"
	cbz	w0, .LBB0_129
// %bb.128:                             // %"std_alloc::vec::Vec::grow::<#ef5d867b459b34f0>.exit.join.3_crit_edge.i.i.i.i.i.i.i.i"
	ldr	x8, [sp, #1680]
	ldr	x23, [sp, #1672]
	b	.LBB0_58
.LBB0_129:                              // %arm.9.i.i.i.i.i.i.i
	cbz	x27, .LBB0_134
// %bb.130:                             // %join.5.i.i.i.i.i.i.i.i.i.i.i.i.i.i.i.preheader
	ldr	x8, [sp, #168]                  // 8-byte Reload
	add	x19, x8, #24
	b	.LBB0_132
.LBB0_131:                              // %"core::mem::drop::<#46d93e6922d62939>.exit.i.i.i.i.i.i.i.i.i.i.i.i.i.i.i"
                                        //   in Loop: Header=BB0_132 Depth=1
	subs	x27, x27, #1
	add	x19, x19, #32
	b.eq	.LBB0_134
.LBB0_132:                              // %join.5.i.i.i.i.i.i.i.i.i.i.i.i.i.i.i
                                        // =>This Inner Loop Header: Depth=1
	ldr	x8, [x19]
	cbz	x8, .LBB0_131
// %bb.133:                             // %then.1.i.i.i.i.i.i.i.i.i.i.i.i.i.i.i.i.i.i.i.i.i
                                        //   in Loop: Header=BB0_132 Depth=1
	ldur	x0, [x19, #-16]
	bl	rattle_dealloc
	b	.LBB0_131
.LBB0_134:                              // %"std_alloc::vec::Vec::clear::<#d9b4ebeac28c86f4>.exit.i.i.i.i.i.i.i.i.i.i.i"
	ldr	x8, [sp, #56]                   // 8-byte Reload
	str	x26, [sp, #40]                  // 8-byte Spill
	cbz	x8, .LBB0_136
// %bb.135:                             // %then.1.i.i.i.i.i.i.i.i.i.i.i.i.i
	ldr	x0, [sp, #168]                  // 8-byte Reload
	bl	rattle_dealloc
.LBB0_136:                              // %"core::result::ResultFromResidualErrResidual::from_residual::<#a4ea067403547577>.exit.i.i.i.i.i.i.i"
	ldr	x19, [sp, #1680]
	ldr	x22, [sp, #1672]
	ldr	x20, [sp, #1688]
	cbz	x19, .LBB0_146
// %bb.137:                             // %join.5.i.i.i.i.i63.i.i.i.i.i.i.i.preheader
	mov	x24, xzr
	b	.LBB0_139
.LBB0_138:                              // %"core::mem::drop::<#30b1062d78cb4add>.exit.i.i.i.i.i90.i.i.i.i.i.i.i"
                                        //   in Loop: Header=BB0_139 Depth=1
	add	x24, x24, #1
	cmp	x24, x19
	b.eq	.LBB0_146
.LBB0_139:                              // %join.5.i.i.i.i.i63.i.i.i.i.i.i.i
                                        // =>This Loop Header: Depth=1
                                        //     Child Loop BB0_142 Depth 2
	mov	w8, #48                         // =0x30
	madd	x8, x24, x8, x22
	ldp	x23, x26, [x8, #24]
	ldr	x27, [x8, #40]
	cbz	x26, .LBB0_144
// %bb.140:                             // %join.5.i.i.i.i.i.i.i.i.i.i.i.i74.i.i.i.i.i.i.i.preheader
                                        //   in Loop: Header=BB0_139 Depth=1
	add	x28, x23, #24
	b	.LBB0_142
.LBB0_141:                              // %"core::mem::drop::<#46d93e6922d62939>.exit.i.i.i.i.i.i.i.i.i.i.i.i84.i.i.i.i.i.i.i"
                                        //   in Loop: Header=BB0_142 Depth=2
	subs	x26, x26, #1
	add	x28, x28, #32
	b.eq	.LBB0_144
.LBB0_142:                              // %join.5.i.i.i.i.i.i.i.i.i.i.i.i74.i.i.i.i.i.i.i
                                        //   Parent Loop BB0_139 Depth=1
                                        // =>  This Inner Loop Header: Depth=2
	ldr	x8, [x28]
	cbz	x8, .LBB0_141
// %bb.143:                             // %then.1.i.i.i.i.i.i.i.i.i.i.i.i.i.i.i.i.i.i81.i.i.i.i.i.i.i
                                        //   in Loop: Header=BB0_142 Depth=2
	ldur	x0, [x28, #-16]
	bl	rattle_dealloc
	b	.LBB0_141
.LBB0_144:                              // %"std_alloc::vec::Vec::clear::<#d9b4ebeac28c86f4>.exit.i.i.i.i.i.i.i.i87.i.i.i.i.i.i.i"
                                        //   in Loop: Header=BB0_139 Depth=1
	cbz	x27, .LBB0_138
// %bb.145:                             // %then.1.i.i.i.i.i.i.i.i.i.i89.i.i.i.i.i.i.i
                                        //   in Loop: Header=BB0_139 Depth=1
	mov	x0, x23
	bl	rattle_dealloc
	b	.LBB0_138
.LBB0_146:                              // %"std_alloc::vec::Vec::clear::<#aea6620ac8b5cb78>.exit.i93.i.i.i.i.i.i.i"
	ldr	x26, [sp, #40]                  // 8-byte Reload
	ldr	x27, [sp, #64]                  // 8-byte Reload
	cbnz	x20, .LBB0_86
	b	.LBB0_25
.LBB0_147:                              // %"scq_core::state::start_rings.exit.i.i.i.i.i.i"
	ldr	x8, [sp, #192]                  // 8-byte Reload
	ldr	q0, [sp, #1648]
	add	x10, sp, #1888
	ldr	x9, [sp, #1664]
	add	x0, sp, #1696
	add	x1, sp, #1888
	str	x8, [sp, #1888]
	str	x8, [sp, #1896]
	mov	w8, #-1                         // =0xffffffff
	stur	q0, [x10, #24]
	str	x8, [sp, #1904]
	str	x9, [sp, #1928]
	bl	"core::result::ResultFromResidualErrResidual::from_residual::<#a4ea067403547577>"
	add	x0, sp, #1672
	bl	"std_alloc::vec::Vec::drop::<#a9901d079cc70198>"
	ldrb	w8, [sp, #1696]
	cbnz	w8, .LBB0_25
// %bb.148:
	ldr	x8, [sp, #1704]
	ldr	x28, [sp, #1712]
	ldr	x22, [sp, #72]                  // 8-byte Reload
	str	x8, [sp, #168]                  // 8-byte Spill
	ldr	x8, [sp, #1720]
	str	x8, [sp, #136]                  // 8-byte Spill
	sub	x8, x29, #24
	str	xzr, [sp, #1744]
	str	x8, [sp, #1728]
	str	xzr, [sp, #1736]
	cbnz	w27, .LBB0_89
.LBB0_149:                              // %arm.5.i.i.i.i.i
	cmp	w24, #10
	mov	w8, #1                          // =0x1
	ldr	q0, [sp, #1728]
	cinv	w8, w8, hs
	str	w23, [sp, #56]                  // 4-byte Spill
	add	w24, w8, w24
	mov	w8, #8                          // =0x8
	str	q0, [sp, #1552]
	lsl	x8, x8, x24
	str	q0, [sp, #1584]
	add	x8, x8, #63
	mul	x20, x8, x22
	str	x8, [sp, #144]                  // 8-byte Spill
	ldr	x8, [sp, #1744]
	str	x8, [sp, #1568]
	str	x8, [sp, #1600]
	adds	x23, x20, #16
	b.eq	.LBB0_173
// %bb.150:                             // %then.2.i.i.i.i.i.i.i
	lsr	x8, x23, #60
	cbnz	x8, .LBB0_154
// %bb.151:                             // %"std_alloc::vec::resize::<#69635f0e7dfe97d5>.exit.i.i.i.i.i.i.i.i"
	lsl	x22, x23, #3
	mov	w1, #8                          // =0x8
	mov	x0, x22
	bl	rattle_alloc
	tbz	w0, #0, .LBB0_154
// %bb.152:                             // %arm.1.i25.i.i.i.i.i
	cmp	x23, #1
	b.ne	.LBB0_174
// %bb.153:
	mov	x8, xzr
	b	.LBB0_175
.LBB0_154:                              // %arm.9.i.i.i.i.i
	cbz	x28, .LBB0_164
// %bb.155:                             // %join.5.i.i.i.i.i.i.i.i.i.i.preheader
	mov	x19, xzr
	b	.LBB0_157
.LBB0_156:                              // %"core::mem::drop::<#6e32c4b9082c94d1>.exit.i.i.i.i.i.i.i.i.i.i"
                                        //   in Loop: Header=BB0_157 Depth=1
	add	x19, x19, #1
	cmp	x19, x28
	b.eq	.LBB0_164
.LBB0_157:                              // %join.5.i.i.i.i.i.i.i.i.i.i
                                        // =>This Loop Header: Depth=1
                                        //     Child Loop BB0_160 Depth 2
	mov	w8, #48                         // =0x30
	ldr	x9, [sp, #168]                  // 8-byte Reload
	madd	x8, x19, x8, x9
	ldp	x22, x20, [x8, #24]
	ldr	x23, [x8, #40]
	cbz	x20, .LBB0_162
// %bb.158:                             // %join.5.i.i.i.i.i.i.i.i.i.i.i.i.i.i.i.i.i.preheader
                                        //   in Loop: Header=BB0_157 Depth=1
	add	x24, x22, #24
	b	.LBB0_160
.LBB0_159:                              // %"core::mem::drop::<#8f15df288ba2af6d>.exit.i.i.i.i.i.i.i.i.i.i.i.i.i.i.i.i.i"
                                        //   in Loop: Header=BB0_160 Depth=2
	subs	x20, x20, #1
	add	x24, x24, #32
	b.eq	.LBB0_162
.LBB0_160:                              // %join.5.i.i.i.i.i.i.i.i.i.i.i.i.i.i.i.i.i
                                        //   Parent Loop BB0_157 Depth=1
                                        // =>  This Inner Loop Header: Depth=2
	ldr	x8, [x24]
	cbz	x8, .LBB0_159
// %bb.161:                             // %then.1.i.i.i.i.i.i.i.i.i.i.i.i.i.i.i.i.i.i.i.i.i.i.i
                                        //   in Loop: Header=BB0_160 Depth=2
	ldur	x0, [x24, #-16]
	bl	rattle_dealloc
	b	.LBB0_159
.LBB0_162:                              // %"std_alloc::vec::Vec::clear::<#9ec1d7bf1f40ee60>.exit.i.i.i.i.i.i.i.i.i.i.i.i.i"
                                        //   in Loop: Header=BB0_157 Depth=1
	cbz	x23, .LBB0_156
// %bb.163:                             // %then.1.i.i.i.i.i.i.i.i.i.i.i.i.i.i.i
                                        //   in Loop: Header=BB0_157 Depth=1
	mov	x0, x22
	bl	rattle_dealloc
	b	.LBB0_156
.LBB0_164:                              // %"std_alloc::vec::Vec::clear::<#043c908a00d64d64>.exit.i.i.i.i.i.i"
	ldr	x8, [sp, #136]                  // 8-byte Reload
	cbz	x8, .LBB0_166
// %bb.165:                             // %then.1.i.i.i38.i.i.i.i.i
	ldr	x0, [sp, #168]                  // 8-byte Reload
	bl	rattle_dealloc
.LBB0_166:                              // %"std_alloc::vec::Vec::drop::<#0e0527c136ebe534>.exit.i.i.i.i.i"
	add	x0, sp, #1584
	bl	"std_alloc::vec::Vec::drop::<#1106f08b0a767d38>"
	cbz	x21, .LBB0_171
// %bb.167:                             // %join.5.i.i.i.i.i45.i.i.i.i.i.preheader
	ldr	x8, [sp, #200]                  // 8-byte Reload
	add	x19, x25, #1
	add	x20, x8, #16
	b	.LBB0_169
.LBB0_168:                              // %"core::mem::drop::<#426bf5ba2825d3de>.exit.i.i.i.i.i.i.i.i.i.i"
                                        //   in Loop: Header=BB0_169 Depth=1
	subs	x19, x19, #1
	add	x20, x20, #24
	b.eq	.LBB0_171
.LBB0_169:                              // %join.5.i.i.i.i.i45.i.i.i.i.i
                                        // =>This Inner Loop Header: Depth=1
	ldr	x8, [x20]
	cbz	x8, .LBB0_168
// %bb.170:                             // %then.1.i.i.i.i.i.i.i.i.i.i49.i.i.i.i.i
                                        //   in Loop: Header=BB0_169 Depth=1
	ldur	x0, [x20, #-16]
	bl	rattle_dealloc
	b	.LBB0_168
.LBB0_171:                              // %"std_alloc::vec::Vec::clear::<#6728d5b45c5fbd9b>.exit.i.i.i.i.i.i"
	ldp	x25, x23, [sp, #120]            // 16-byte Folded Reload
	ldr	x8, [sp, #112]                  // 8-byte Reload
	cbz	x8, .LBB0_119
// %bb.172:                             // %then.1.i.i.i53.i.i.i.i.i
	ldr	x0, [sp, #200]                  // 8-byte Reload
	b	.LBB0_298
.LBB0_173:
	ldr	x2, [sp, #144]                  // 8-byte Reload
	str	xzr, [sp, #8]                   // 8-byte Spill
	sub	x1, x29, #24
	b	.LBB0_176
.LBB0_174:                              // %join.12.preheader.i.i.i.i.i.i
	sub	x2, x22, #8
	mov	x0, x1
	mov	x22, x1
	mov	w1, wzr
	bl	memset
	mov	x1, x22
	add	x8, x20, #15
.LBB0_175:                              // %after.8.i.i.i.i.i.i
	ldr	x22, [sp, #72]                  // 8-byte Reload
	ldr	x2, [sp, #144]                  // 8-byte Reload
	str	xzr, [x1, x8, lsl #3]
	add	x8, x8, #1
	str	x8, [sp, #8]                    // 8-byte Spill
.LBB0_176:                              // %arm.8.i.i.i.i.i
	ldr	x18, [sp, #152]                 // 8-byte Reload
	ldr	x0, [sp, #168]                  // 8-byte Reload
	str	x27, [x1]
	cbz	w22, .LBB0_182
// %bb.177:                             // %join.15.lr.ph.i.i.i.i.i
	mov	w9, #-1                         // =0xffffffff
	ldr	x10, [sp, #192]                 // 8-byte Reload
	mov	x8, xzr
	lsl	w9, w9, w24
	cmp	w10, #1
	mvn	w9, w9
	csinc	w10, w10, wzr, hi
	b	.LBB0_179
.LBB0_178:                              // %"scq_band::making::open_ring.exit.i.i.i.i.i"
                                        //   in Loop: Header=BB0_179 Depth=1
	add	x8, x8, #1
	cmp	x8, x22
	b.eq	.LBB0_182
.LBB0_179:                              // %join.15.i.i.i.i.i
                                        // =>This Loop Header: Depth=1
                                        //     Child Loop BB0_181 Depth 2
	mov	w11, #48                        // =0x30
	mul	x14, x8, x2
	ldr	x16, [sp, #208]                 // 8-byte Reload
	cmp	x8, #0
	mov	w15, #-1                        // =0xffffffff
	madd	x11, x8, x11, x0
	csel	x15, x18, x15, eq
	cmp	w16, #30
	add	x12, x1, x14, lsl #3
	ldr	x13, [x11]
	str	x13, [x12, #128]
	ldr	x13, [x11, #8]
	str	x15, [x12, #384]
	str	x13, [x12, #256]
	b.hi	.LBB0_178
// %bb.180:                             // %join.5.lr.ph.i.i.i.i.i.i
                                        //   in Loop: Header=BB0_179 Depth=1
	mov	x12, xzr
	mov	x13, xzr
	add	x14, x14, #64
.LBB0_181:                              // %join.5.i.i.i.i.i.i
                                        //   Parent Loop BB0_179 Depth=1
                                        // =>  This Inner Loop Header: Depth=2
	and	w15, w13, #0x7
	ldr	x16, [x11, #24]
	lsl	w15, w15, w19
	ldr	x16, [x16, x12]
	add	x12, x12, #32
	add	w15, w15, w13, lsr #3
	add	x13, x13, #1
	cmp	x10, x13
	and	w17, w15, w9
	lsr	w15, w15, w24
	add	x17, x1, x17, lsl #6
	add	x15, x14, x15
	str	x16, [x17, x15, lsl #3]
	b.ne	.LBB0_181
	b	.LBB0_178
.LBB0_182:                              // %after.11.i.i.i.i.i
	stp	x1, x23, [sp, #16]              // 16-byte Folded Spill
	str	x26, [sp, #40]                  // 8-byte Spill
	cbz	x28, .LBB0_192
// %bb.183:                             // %join.5.i.i.i.i.i73.i.i.i.i.i.preheader
	mov	x20, xzr
	b	.LBB0_185
.LBB0_184:                              // %"core::mem::drop::<#6e32c4b9082c94d1>.exit.i.i.i.i.i100.i.i.i.i.i"
                                        //   in Loop: Header=BB0_185 Depth=1
	add	x20, x20, #1
	ldr	x0, [sp, #168]                  // 8-byte Reload
	cmp	x20, x28
	b.eq	.LBB0_192
.LBB0_185:                              // %join.5.i.i.i.i.i73.i.i.i.i.i
                                        // =>This Loop Header: Depth=1
                                        //     Child Loop BB0_188 Depth 2
	mov	w8, #48                         // =0x30
	madd	x8, x20, x8, x0
	ldp	x22, x23, [x8, #24]
	ldr	x26, [x8, #40]
	cbz	x23, .LBB0_190
// %bb.186:                             // %join.5.i.i.i.i.i.i.i.i.i.i.i.i84.i.i.i.i.i.preheader
                                        //   in Loop: Header=BB0_185 Depth=1
	add	x27, x22, #24
	b	.LBB0_188
.LBB0_187:                              // %"core::mem::drop::<#8f15df288ba2af6d>.exit.i.i.i.i.i.i.i.i.i.i.i.i94.i.i.i.i.i"
                                        //   in Loop: Header=BB0_188 Depth=2
	subs	x23, x23, #1
	add	x27, x27, #32
	b.eq	.LBB0_190
.LBB0_188:                              // %join.5.i.i.i.i.i.i.i.i.i.i.i.i84.i.i.i.i.i
                                        //   Parent Loop BB0_185 Depth=1
                                        // =>  This Inner Loop Header: Depth=2
	ldr	x8, [x27]
	cbz	x8, .LBB0_187
// %bb.189:                             // %then.1.i.i.i.i.i.i.i.i.i.i.i.i.i.i.i.i.i.i91.i.i.i.i.i
                                        //   in Loop: Header=BB0_188 Depth=2
	ldur	x0, [x27, #-16]
	bl	rattle_dealloc
	b	.LBB0_187
.LBB0_190:                              // %"std_alloc::vec::Vec::clear::<#9ec1d7bf1f40ee60>.exit.i.i.i.i.i.i.i.i97.i.i.i.i.i"
                                        //   in Loop: Header=BB0_185 Depth=1
	cbz	x26, .LBB0_184
// %bb.191:                             // %then.1.i.i.i.i.i.i.i.i.i.i99.i.i.i.i.i
                                        //   in Loop: Header=BB0_185 Depth=1
	mov	x0, x22
	bl	rattle_dealloc
	b	.LBB0_184
.LBB0_192:                              // %"std_alloc::vec::Vec::clear::<#043c908a00d64d64>.exit.i103.i.i.i.i.i"
	ldr	x8, [sp, #136]                  // 8-byte Reload
	cbz	x8, .LBB0_194
// %bb.193:                             // %then.1.i.i.i105.i.i.i.i.i
	bl	rattle_dealloc
.LBB0_194:                              // %"std_alloc::vec::Vec::drop::<#0e0527c136ebe534>.exit106.i.i.i.i.i"
	add	x0, sp, #1584
	bl	"std_alloc::vec::Vec::drop::<#1106f08b0a767d38>"
	ldp	x26, x28, [sp, #40]             // 16-byte Folded Reload
	ldp	x27, x22, [sp, #64]             // 16-byte Folded Reload
	cbz	x21, .LBB0_199
// %bb.195:                             // %join.5.i.i.i.i.i113.i.i.i.i.i.preheader
	ldr	x8, [sp, #200]                  // 8-byte Reload
	add	x20, x25, #1
	add	x21, x8, #16
	b	.LBB0_197
.LBB0_196:                              // %"core::mem::drop::<#426bf5ba2825d3de>.exit.i.i.i.i.i122.i.i.i.i.i"
                                        //   in Loop: Header=BB0_197 Depth=1
	subs	x20, x20, #1
	add	x21, x21, #24
	b.eq	.LBB0_199
.LBB0_197:                              // %join.5.i.i.i.i.i113.i.i.i.i.i
                                        // =>This Inner Loop Header: Depth=1
	ldr	x8, [x21]
	cbz	x8, .LBB0_196
// %bb.198:                             // %then.1.i.i.i.i.i.i.i.i.i.i120.i.i.i.i.i
                                        //   in Loop: Header=BB0_197 Depth=1
	ldur	x0, [x21, #-16]
	bl	rattle_dealloc
	b	.LBB0_196
.LBB0_199:                              // %"std_alloc::vec::Vec::clear::<#6728d5b45c5fbd9b>.exit.i125.i.i.i.i.i"
	ldr	x8, [sp, #112]                  // 8-byte Reload
	cbz	x8, .LBB0_201
// %bb.200:                             // %then.1.i.i.i127.i.i.i.i.i
	ldr	x0, [sp, #200]                  // 8-byte Reload
	bl	rattle_dealloc
.LBB0_201:                              // %arm.1.i.i.i.i
	ldp	x25, x23, [sp, #120]            // 16-byte Folded Reload
	cbz	w22, .LBB0_204
// %bb.202:                             // %then.2.i.i.i.i.i
	lsl	x0, x22, #3
	mov	w1, #8                          // =0x8
	bl	rattle_alloc
	tbz	w0, #0, .LBB0_296
// %bb.203:                             // %"std_alloc::vec::Vec::move_to::<#69635f0e7dfe97d5>.exit.i.i.i.i.i"
	mov	x21, x1
	b	.LBB0_205
.LBB0_204:
	sub	x21, x29, #24
.LBB0_205:                              // %arm.5.i.i.i.i
	add	x20, x22, #8
	mov	w1, #8                          // =0x8
	str	xzr, [sp, #1896]
	add	x8, x20, x20, lsl #3
	lsl	x0, x8, #3
	bl	rattle_alloc
	tbz	w0, #0, .LBB0_250
// %bb.206:
	mov	x23, x1
	str	x1, [sp, #1888]
	str	x20, [sp, #1904]
	str	x20, [sp, #200]                 // 8-byte Spill
	cbz	w22, .LBB0_213
// %bb.207:                             // %join.9.i.preheader.i.i.i.i
	ldr	x9, [sp, #88]                   // 8-byte Reload
	mov	w8, #-1                         // =0xffffffff
	ldr	x10, [sp, #32]                  // 8-byte Reload
	lsl	w8, w8, w24
	str	x21, [sp, #136]                 // 8-byte Spill
	mov	x25, xzr
	mvn	x22, x9
	ldr	x9, [sp, #80]                   // 8-byte Reload
	mov	x20, xzr
	mvn	w21, w8
	mov	w28, #16                        // =0x10
	mvn	x27, x9
	b	.LBB0_209
.LBB0_208:                              // %arm.10.i.i.i.i.i
                                        //   in Loop: Header=BB0_209 Depth=1
	mov	w8, #72                         // =0x48
	ldr	x9, [sp, #208]                  // 8-byte Reload
	madd	x8, x25, x8, x23
	add	x25, x25, #1
	str	w9, [x8, #8]
	ldr	x9, [sp, #96]                   // 8-byte Reload
	stp	w20, w10, [x8]
	add	x20, x20, #1
	stp	w9, w19, [x8, #12]
	ldr	x9, [sp, #104]                  // 8-byte Reload
	str	wzr, [x8, #20]
	stp	x9, x28, [x8, #40]
	ldr	x9, [sp, #152]                  // 8-byte Reload
	stp	x22, x27, [x8, #24]
	str	x9, [x8, #56]
	stp	w21, w24, [x8, #64]
	ldr	x8, [sp, #72]                   // 8-byte Reload
	str	x25, [sp, #1896]
	cmp	x8, x20
	ldr	x8, [sp, #144]                  // 8-byte Reload
	add	x28, x28, x8
	b.eq	.LBB0_212
.LBB0_209:                              // %join.9.i.i.i.i.i
                                        // =>This Inner Loop Header: Depth=1
	ldr	x8, [sp, #1904]
	cmp	x8, x25
	b.ne	.LBB0_208
// %bb.210:                             // %"std_alloc::vec::Vec::grow::<#b2b1aaf14fd9827c>.exit.i.i.i.i.i.i"
                                        //   in Loop: Header=BB0_209 Depth=1
	add	x0, sp, #1888
	bl	"std_alloc::vec::Vec::grow_amortized::<#b2b1aaf14fd9827c>"
	cbz	w0, .LBB0_248
// %bb.211:                             // %"std_alloc::vec::Vec::grow::<#b2b1aaf14fd9827c>.exit.join.3_crit_edge.i.i.i.i.i.i"
                                        //   in Loop: Header=BB0_209 Depth=1
	ldr	x25, [sp, #1896]
	ldr	x23, [sp, #1888]
	ldr	x10, [sp, #32]                  // 8-byte Reload
	b	.LBB0_208
.LBB0_212:                              // %arm.8thread-pre-split.i.i.i.i
	ldp	x27, x22, [sp, #64]             // 16-byte Folded Reload
	ldr	x24, [sp, #1904]
	ldr	x23, [sp, #1888]
	ldr	x28, [sp, #48]                  // 8-byte Reload
	ldr	x21, [sp, #136]                 // 8-byte Reload
	b	.LBB0_214
.LBB0_213:
	mov	x25, xzr
	add	x24, x22, #8
.LBB0_214:                              // %arm.8.i.i.i.i
	str	xzr, [sp, #1736]
	str	x23, [sp, #112]                 // 8-byte Spill
	cbz	w27, .LBB0_233
// %bb.215:                             // %join.3.i.i.i.i.i.i
	add	x8, x27, x27, lsl #1
	mov	w1, #8                          // =0x8
	lsl	x0, x8, #4
	bl	rattle_alloc
	tbz	w0, #0, .LBB0_279
// %bb.216:                             // %join.9.lr.ph.i53.i.i.i.i
	add	x8, x28, #256
	mov	x20, x1
	str	x1, [sp, #1728]
	str	x8, [sp, #152]                  // 8-byte Spill
	ldr	x8, [sp, #64]                   // 8-byte Reload
	add	x0, x28, #256
	mov	w1, #1                          // =0x1
	str	x8, [sp, #1744]
	bl	rattle_alloc
	tbz	w0, #0, .LBB0_277
// %bb.217:                             // %arm.1.i.i.lr.ph.i.i.i.i
	ldr	x8, [sp, #200]                  // 8-byte Reload
	str	x24, [sp, #96]                  // 8-byte Spill
	mov	x27, x1
	mov	w19, wzr
	mov	x20, xzr
	add	x8, x8, x8, lsl #1
	lsl	x8, x8, #3
	stp	x21, x8, [sp, #136]             // 16-byte Folded Spill
	ldr	x8, [sp, #192]                  // 8-byte Reload
	ldr	x21, [sp, #72]                  // 8-byte Reload
	sub	x24, x8, #1
	add	x8, x24, x28
	str	x8, [sp, #88]                   // 8-byte Spill
.LBB0_218:                              // %arm.1.i.i.i.i.i.i
                                        // =>This Loop Header: Depth=1
                                        //     Child Loop BB0_224 Depth 2
	mov	x0, x27
	mov	w1, wzr
	mov	x2, x28
	bl	memset
	ldr	x0, [sp, #144]                  // 8-byte Reload
	mov	w1, #8                          // =0x8
	bl	rattle_alloc
	ldr	w9, [sp, #56]                   // 4-byte Reload
	tbz	w0, #0, .LBB0_268
// %bb.219:                             //   in Loop: Header=BB0_218 Depth=1
	ldr	x8, [sp, #200]                  // 8-byte Reload
	str	x1, [sp, #1888]
	str	x8, [sp, #1904]
	cbz	w21, .LBB0_226
// %bb.220:                             // %join.9.preheader.i.i.i.i.i.i.i
                                        //   in Loop: Header=BB0_218 Depth=1
	ldr	x8, [sp, #88]                   // 8-byte Reload
	mov	w22, #1                         // =0x1
	cmp	w21, #1
	add	x28, x21, #8
	stp	x8, x8, [x1]
	ldr	x8, [sp, #192]                  // 8-byte Reload
	str	x22, [sp, #1896]
	str	x8, [x1, #16]
	b.eq	.LBB0_228
// %bb.221:                             // %join.9.i.i.i67.i.i.i.i.preheader
                                        //   in Loop: Header=BB0_218 Depth=1
	mov	w22, #1                         // =0x1
	mov	w20, w9
	b	.LBB0_224
.LBB0_222:                              // %"std_alloc::vec::Vec::grow::<#95ea9c2a17c64412>.exit.join.3_crit_edge.i.i.i.i.i.i.i.i"
                                        //   in Loop: Header=BB0_224 Depth=2
	ldr	x22, [sp, #1896]
	ldr	x1, [sp, #1888]
.LBB0_223:                              // %arm.10.i.i.i.i.i.i.i
                                        //   in Loop: Header=BB0_224 Depth=2
	mov	w8, #24                         // =0x18
	ldr	x9, [sp, #192]                  // 8-byte Reload
	subs	w20, w20, #1
	madd	x8, x22, x8, x1
	add	x22, x22, #1
	stp	x24, x24, [x8]
	str	x9, [x8, #16]
	str	x22, [sp, #1896]
	b.eq	.LBB0_227
.LBB0_224:                              // %join.9.i.i.i67.i.i.i.i
                                        //   Parent Loop BB0_218 Depth=1
                                        // =>  This Inner Loop Header: Depth=2
	ldr	x8, [sp, #1904]
	cmp	x8, x22
	b.ne	.LBB0_223
// %bb.225:                             // %"std_alloc::vec::Vec::grow::<#95ea9c2a17c64412>.exit.i.i.i.i.i.i.i.i"
                                        //   in Loop: Header=BB0_224 Depth=2
	add	x0, sp, #1888
	bl	"std_alloc::vec::Vec::grow_amortized::<#95ea9c2a17c64412>"
	cbnz	w0, .LBB0_222
	b	.LBB0_266
.LBB0_226:                              //   in Loop: Header=BB0_218 Depth=1
	mov	x22, xzr
	add	x28, x21, #8
	b	.LBB0_228
.LBB0_227:                              // %arm.10.loopexit.i.i.i.i.i
                                        //   in Loop: Header=BB0_218 Depth=1
	ldr	x1, [sp, #1888]
	ldr	x28, [sp, #1904]
	ldr	x20, [sp, #1736]
.LBB0_228:                              // %arm.10.i80.i.i.i.i
                                        //   in Loop: Header=BB0_218 Depth=1
	ldr	x8, [sp, #1744]
	mov	x21, x20
	cmp	x8, x20
	b.eq	.LBB0_231
.LBB0_229:                              // %arm.13.i.i.i.i.i
                                        //   in Loop: Header=BB0_218 Depth=1
	mov	w8, #48                         // =0x30
	ldr	x9, [sp, #1728]
	ldr	x23, [sp, #48]                  // 8-byte Reload
	madd	x8, x21, x8, x9
	add	w19, w19, #1
	add	x20, x21, #1
	str	x9, [sp, #168]                  // 8-byte Spill
	ldr	x9, [sp, #152]                  // 8-byte Reload
	str	x20, [sp, #1736]
	stp	x9, x1, [x8, #16]
	ldr	x9, [sp, #64]                   // 8-byte Reload
	stp	x27, x23, [x8]
	cmp	w19, w9
	stp	x22, x28, [x8, #32]
	b.eq	.LBB0_243
// %bb.230:                             // %join.9.i54.i.i.i.i
                                        //   in Loop: Header=BB0_218 Depth=1
	add	x0, x23, #256
	mov	w1, #1                          // =0x1
	bl	rattle_alloc
	ldr	x21, [sp, #72]                  // 8-byte Reload
	mov	x27, x1
	mov	x28, x23
	tbnz	w0, #0, .LBB0_218
	b	.LBB0_269
.LBB0_231:                              // %"std_alloc::vec::Vec::grow::<#5defbd33e8555760>.exit.i.i.i.i.i.i"
                                        //   in Loop: Header=BB0_218 Depth=1
	add	x0, sp, #1728
	mov	x20, x1
	bl	"std_alloc::vec::Vec::grow_amortized::<#5defbd33e8555760>"
	cbz	w0, .LBB0_364
// %bb.232:                             // %"std_alloc::vec::Vec::grow::<#5defbd33e8555760>.exit.join.3_crit_edge.i.i.i.i.i.i"
                                        //   in Loop: Header=BB0_218 Depth=1
	ldr	x21, [sp, #1736]
	mov	x1, x20
	b	.LBB0_229
.LBB0_233:                              // %arm.1.i.i.thread.i
	mov	x0, xzr
	mov	w1, #1                          // =0x1
	str	x24, [sp, #96]                  // 8-byte Spill
	bl	rattle_alloc
	tbz	w0, #0, .LBB0_291
// %bb.234:                             // %"std_alloc::vec::Vec::move_to::<#82142151667fc454>.exit.i.i.i.thread.i"
	mov	x23, x1
	mov	x24, xzr
	mov	x20, xzr
	sub	x8, x29, #24
	mov	w19, #1                         // =0x1
	sub	x22, x29, #24
	str	x8, [sp, #168]                  // 8-byte Spill
	ldr	x8, [sp, #8]                    // 8-byte Reload
	lsl	x0, x8, #3
	tbnz	x0, #63, .LBB0_252
.LBB0_235:                              // %"core::slots::blocks::reserve::<#69635f0e7dfe97d5>.exit.i.i.i.i.i"
	mov	w1, #8                          // =0x8
	bl	rattle_alloc
	tbz	w0, #0, .LBB0_252
// %bb.236:                             // %arm.2.i.i51.i.i.i
	mov	x28, x1
	mov	x0, xzr
	mov	w1, #1                          // =0x1
	str	x21, [sp, #136]                 // 8-byte Spill
	bl	rattle_alloc
	tbz	w0, #0, .LBB0_251
// %bb.237:                             // %arm.7.i.i.i.i.i
	ldr	x8, [sp, #8]                    // 8-byte Reload
	mov	x21, x1
	mov	x26, x28
	cbz	x8, .LBB0_317
// %bb.238:                             // %join.5.i.i.i53.i.i.i.preheader
	ldr	x8, [sp, #8]                    // 8-byte Reload
	cmp	x8, #4
	mov	x8, xzr
	b.lo	.LBB0_314
// %bb.239:                             // %join.5.i.i.i53.i.i.i.preheader
	ldr	x9, [sp, #16]                   // 8-byte Reload
	mov	x28, x26
	sub	x9, x26, x9
	cmp	x9, #32
	b.lo	.LBB0_315
// %bb.240:                             // %vector.ph222
	ldp	x11, x10, [sp, #8]              // 16-byte Folded Reload
	add	x9, x28, #16
	and	x8, x11, #0xfffffffffffffffc
	add	x10, x10, #16
	and	x11, x11, #0xfffffffffffffffc
.LBB0_241:                              // %vector.body225
                                        // =>This Inner Loop Header: Depth=1
	ldp	q0, q1, [x10, #-16]
	subs	x11, x11, #4
	add	x10, x10, #32
	stp	q0, q1, [x9, #-16]
	add	x9, x9, #32
	b.ne	.LBB0_241
// %bb.242:                             // %middle.block230
	ldr	x9, [sp, #8]                    // 8-byte Reload
	mov	x28, x26
	cmp	x9, x8
	b.ne	.LBB0_315
	b	.LBB0_317
.LBB0_243:                              // %arm.1.i.i.i
	ldr	x24, [sp, #1744]
	mov	x0, xzr
	mov	w1, #1                          // =0x1
	bl	rattle_alloc
	tbz	w0, #0, .LBB0_282
// %bb.244:                             // %"std_alloc::vec::Vec::move_to::<#82142151667fc454>.exit.i.i.i.i"
	mov	x23, x1
	cbz	x20, .LBB0_312
// %bb.245:                             // %then.2.i14.i.i.i
	lsr	x8, x20, #57
	cbnz	x8, .LBB0_299
// %bb.246:                             // %"std_alloc::vec::resize::<#07c719505c6fb3d4>.exit.i.i.i.i.i"
	lsl	x0, x20, #6
	mov	w1, #8                          // =0x8
	bl	rattle_alloc
	tbz	w0, #0, .LBB0_299
// %bb.247:                             // %"std_alloc::vec::Vec::move_to::<#07c719505c6fb3d4>.exit.i.i.i.i"
	mov	x22, x1
	mov	w19, wzr
	b	.LBB0_313
.LBB0_248:                              // %arm.11.i.i.i.i.i
	ldp	x27, x22, [sp, #64]             // 16-byte Folded Reload
	ldr	x8, [sp, #1904]
	ldp	x25, x23, [sp, #120]            // 16-byte Folded Reload
	ldr	x21, [sp, #136]                 // 8-byte Reload
	cbz	x8, .LBB0_250
// %bb.249:                             // %then.1.i.i.i14.i.i.i.i.i
	ldr	x0, [sp, #1888]
	bl	rattle_dealloc
.LBB0_250:                              // %arm.9.i.i.i.i
	cbnz	w22, .LBB0_294
	b	.LBB0_296
.LBB0_251:                              // %arm.8.i.i52.i.i.i
	mov	x0, x28
	bl	rattle_dealloc
	ldr	x21, [sp, #136]                 // 8-byte Reload
.LBB0_252:                              // %arm.12.i.i.i
	mov	x28, x21
	tbz	w19, #0, .LBB0_260
// %bb.253:                             // %"std_alloc::vec::Vec::clear::<#b4ab0dccd0e4b9eb>.exit.i155.i.i.critedge.i"
	mov	x0, x23
	bl	rattle_dealloc
	ldp	x25, x23, [sp, #120]            // 16-byte Folded Reload
.LBB0_254:                              // %"std_alloc::vec::Vec::clear::<#b4ab0dccd0e4b9eb>.exit.i155.i.i.i"
	cbz	x24, .LBB0_256
// %bb.255:                             // %then.1.i.i.i157.i.i.i
	ldr	x0, [sp, #168]                  // 8-byte Reload
	bl	rattle_dealloc
.LBB0_256:                              // %"std_alloc::vec::Vec::drop::<#d7f15c36f98b15b9>.exit158.i.i.i"
	ldr	x19, [sp, #72]                  // 8-byte Reload
	ldr	x8, [sp, #96]                   // 8-byte Reload
	mov	x20, x28
	cbz	x8, .LBB0_258
// %bb.257:                             // %then.1.i.i.i162.i.i.i
	ldr	x0, [sp, #112]                  // 8-byte Reload
	bl	rattle_dealloc
.LBB0_258:                              // %"std_alloc::vec::Vec::drop::<#05cdb88185a824b0>.exit164.i.i.i"
	cbz	w19, .LBB0_296
// %bb.259:                             // %then.1.i.i.i168.i.i.i
	mov	x0, x20
	b	.LBB0_295
.LBB0_260:                              // %then.1.i.i117.i.i.i
	mov	x0, x22
	bl	rattle_dealloc
	mov	x0, x23
	bl	rattle_dealloc
	ldr	x8, [sp, #168]                  // 8-byte Reload
	ldp	x25, x23, [sp, #120]            // 16-byte Folded Reload
	add	x19, x8, #24
	b	.LBB0_262
.LBB0_261:                              // %"core::mem::drop::<#b834ffe514bc0bc2>.exit.i.i.i.i.i152.i.i.i"
                                        //   in Loop: Header=BB0_262 Depth=1
	subs	x20, x20, #1
	add	x19, x19, #48
	b.eq	.LBB0_254
.LBB0_262:                              // %join.5.i.i.i.i.i136.i.i.i
                                        // =>This Inner Loop Header: Depth=1
	ldp	x8, x22, [x19, #-8]
	ldr	x21, [x19, #16]
	cbz	x8, .LBB0_264
// %bb.263:                             // %then.1.i.i.i.i.i.i.i.i.i.i147.i.i.i
                                        //   in Loop: Header=BB0_262 Depth=1
	ldur	x0, [x19, #-24]
	bl	rattle_dealloc
.LBB0_264:                              // %"std_alloc::vec::Vec::drop::<#60f12ba18a0e7df3>.exit.i.i.i.i.i.i.i149.i.i.i"
                                        //   in Loop: Header=BB0_262 Depth=1
	cbz	x21, .LBB0_261
// %bb.265:                             // %then.1.i.i.i4.i.i.i.i.i.i.i151.i.i.i
                                        //   in Loop: Header=BB0_262 Depth=1
	mov	x0, x22
	bl	rattle_dealloc
	b	.LBB0_261
.LBB0_266:                              // %arm.11.i.i.i.i.i.i.i
	ldr	x8, [sp, #1904]
	cbz	x8, .LBB0_268
// %bb.267:                             // %then.1.i.i.i13.i.i.i.i.i.i.i
	ldr	x0, [sp, #1888]
	bl	rattle_dealloc
.LBB0_268:                              // %arm.6.i.i66.i.i.i.i
	mov	x0, x27
	bl	rattle_dealloc
	ldr	x8, [sp, #1728]
	ldr	x20, [sp, #1736]
	str	x8, [sp, #168]                  // 8-byte Spill
.LBB0_269:                              // %arm.11.i61.i.i.i.i
	ldr	x19, [sp, #1744]
	ldr	x24, [sp, #96]                  // 8-byte Reload
	cbz	x20, .LBB0_276
// %bb.270:                             // %join.5.i.i.i.i.i21.i.i.i.i.i.preheader
	ldr	x8, [sp, #168]                  // 8-byte Reload
	add	x21, x8, #24
	b	.LBB0_272
.LBB0_271:                              // %"core::mem::drop::<#b834ffe514bc0bc2>.exit.i.i.i.i.i37.i.i.i.i.i"
                                        //   in Loop: Header=BB0_272 Depth=1
	subs	x20, x20, #1
	add	x21, x21, #48
	b.eq	.LBB0_276
.LBB0_272:                              // %join.5.i.i.i.i.i21.i.i.i.i.i
                                        // =>This Inner Loop Header: Depth=1
	ldp	x8, x22, [x21, #-8]
	ldr	x23, [x21, #16]
	cbz	x8, .LBB0_274
// %bb.273:                             // %then.1.i.i.i.i.i.i.i.i.i.i32.i.i.i.i.i
                                        //   in Loop: Header=BB0_272 Depth=1
	ldur	x0, [x21, #-24]
	bl	rattle_dealloc
.LBB0_274:                              // %"std_alloc::vec::Vec::drop::<#60f12ba18a0e7df3>.exit.i.i.i.i.i.i.i34.i.i.i.i.i"
                                        //   in Loop: Header=BB0_272 Depth=1
	cbz	x23, .LBB0_271
// %bb.275:                             // %then.1.i.i.i4.i.i.i.i.i.i.i36.i.i.i.i.i
                                        //   in Loop: Header=BB0_272 Depth=1
	mov	x0, x22
	bl	rattle_dealloc
	b	.LBB0_271
.LBB0_276:                              // %"std_alloc::vec::Vec::clear::<#b4ab0dccd0e4b9eb>.exit.i40.i.i.i.i.i"
	ldr	x21, [sp, #136]                 // 8-byte Reload
	ldr	x23, [sp, #112]                 // 8-byte Reload
	ldr	x20, [sp, #168]                 // 8-byte Reload
	cbz	x19, .LBB0_279
.LBB0_277:                              // %then.1.i.i.i42.i.i.i.i.i
	mov	x0, x20
.LBB0_278:                              // %arm.12.i.i.i.i
	bl	rattle_dealloc
.LBB0_279:                              // %arm.12.i.i.i.i
	cbz	x24, .LBB0_281
// %bb.280:                             // %then.1.i.i.i125.i.i.i.i
	mov	x0, x23
	bl	rattle_dealloc
.LBB0_281:                              // %"std_alloc::vec::Vec::drop::<#05cdb88185a824b0>.exit.i.i.i.i"
	ldp	x27, x8, [sp, #64]              // 16-byte Folded Reload
	ldp	x25, x23, [sp, #120]            // 16-byte Folded Reload
	cbnz	w8, .LBB0_294
	b	.LBB0_296
.LBB0_282:                              // %arm.6.i.i.i
	cbz	x20, .LBB0_289
// %bb.283:                             // %join.5.i.i.i.i.i.i.i.i.preheader
	ldr	x8, [sp, #168]                  // 8-byte Reload
	add	x19, x21, #1
	add	x20, x8, #24
	b	.LBB0_285
.LBB0_284:                              // %"core::mem::drop::<#b834ffe514bc0bc2>.exit.i.i.i.i.i.i.i.i"
                                        //   in Loop: Header=BB0_285 Depth=1
	subs	x19, x19, #1
	add	x20, x20, #48
	b.eq	.LBB0_289
.LBB0_285:                              // %join.5.i.i.i.i.i.i.i.i
                                        // =>This Inner Loop Header: Depth=1
	ldp	x8, x22, [x20, #-8]
	ldr	x21, [x20, #16]
	cbz	x8, .LBB0_287
// %bb.286:                             // %then.1.i.i.i.i.i.i.i.i.i.i26.i.i.i
                                        //   in Loop: Header=BB0_285 Depth=1
	ldur	x0, [x20, #-24]
	bl	rattle_dealloc
.LBB0_287:                              // %"std_alloc::vec::Vec::drop::<#60f12ba18a0e7df3>.exit.i.i.i.i.i.i.i.i.i.i"
                                        //   in Loop: Header=BB0_285 Depth=1
	cbz	x21, .LBB0_284
// %bb.288:                             // %then.1.i.i.i4.i.i.i.i.i.i.i.i.i.i
                                        //   in Loop: Header=BB0_285 Depth=1
	mov	x0, x22
	bl	rattle_dealloc
	b	.LBB0_284
.LBB0_289:                              // %"std_alloc::vec::Vec::clear::<#b4ab0dccd0e4b9eb>.exit.i.i.i.i"
	ldp	x27, x22, [sp, #64]             // 16-byte Folded Reload
	ldr	x26, [sp, #40]                  // 8-byte Reload
	ldr	x21, [sp, #136]                 // 8-byte Reload
	ldr	x23, [sp, #112]                 // 8-byte Reload
	cbz	x24, .LBB0_291
// %bb.290:                             // %then.1.i.i.i.i.i.i
	ldr	x0, [sp, #168]                  // 8-byte Reload
	bl	rattle_dealloc
.LBB0_291:                              // %"std_alloc::vec::Vec::drop::<#d7f15c36f98b15b9>.exit.i.i.i"
	ldr	x8, [sp, #96]                   // 8-byte Reload
	cbz	x8, .LBB0_293
// %bb.292:                             // %then.1.i.i.i31.i.i.i
	mov	x0, x23
	bl	rattle_dealloc
.LBB0_293:                              // %"std_alloc::vec::Vec::drop::<#05cdb88185a824b0>.exit.i.i.i"
	ldp	x25, x23, [sp, #120]            // 16-byte Folded Reload
	cbz	w22, .LBB0_296
.LBB0_294:                              // %then.1.i.i.i110.i.i.i.i
	mov	x0, x21
.LBB0_295:                              // %arm.6.i.i.i.i
	bl	rattle_dealloc
.LBB0_296:                              // %arm.6.i.i.i.i
	ldr	x8, [sp, #24]                   // 8-byte Reload
	cbz	x8, .LBB0_119
.LBB0_297:                              // %then.1.i.i.i.i.i.i.i
	ldr	x0, [sp, #16]                   // 8-byte Reload
.LBB0_298:                              // %arm.12.i.i
	bl	rattle_dealloc
	b	.LBB0_119
.LBB0_299:                              // %then.1.i.i.i.i.i
	mov	x0, x23
	bl	rattle_dealloc
	ldr	x8, [sp, #168]                  // 8-byte Reload
	add	x19, x21, #1
	add	x20, x8, #24
	b	.LBB0_301
.LBB0_300:                              // %"core::mem::drop::<#b834ffe514bc0bc2>.exit.i.i.i.i.i83.i.i.i"
                                        //   in Loop: Header=BB0_301 Depth=1
	subs	x19, x19, #1
	add	x20, x20, #48
	b.eq	.LBB0_305
.LBB0_301:                              // %join.5.i.i.i.i.i67.i.i.i
                                        // =>This Inner Loop Header: Depth=1
	ldp	x8, x22, [x20, #-8]
	ldr	x21, [x20, #16]
	cbz	x8, .LBB0_303
// %bb.302:                             // %then.1.i.i.i.i.i.i.i.i.i.i78.i.i.i
                                        //   in Loop: Header=BB0_301 Depth=1
	ldur	x0, [x20, #-24]
	bl	rattle_dealloc
.LBB0_303:                              // %"std_alloc::vec::Vec::drop::<#60f12ba18a0e7df3>.exit.i.i.i.i.i.i.i80.i.i.i"
                                        //   in Loop: Header=BB0_301 Depth=1
	cbz	x21, .LBB0_300
// %bb.304:                             // %then.1.i.i.i4.i.i.i.i.i.i.i82.i.i.i
                                        //   in Loop: Header=BB0_301 Depth=1
	mov	x0, x22
	bl	rattle_dealloc
	b	.LBB0_300
.LBB0_305:                              // %"std_alloc::vec::Vec::clear::<#b4ab0dccd0e4b9eb>.exit.i86.i.i.i"
	cbz	x24, .LBB0_307
// %bb.306:                             // %then.1.i.i.i88.i.i.i
	ldr	x0, [sp, #168]                  // 8-byte Reload
	bl	rattle_dealloc
.LBB0_307:                              // %"std_alloc::vec::Vec::drop::<#d7f15c36f98b15b9>.exit89.i.i.i"
	ldr	x8, [sp, #96]                   // 8-byte Reload
	cbz	x8, .LBB0_309
// %bb.308:                             // %then.1.i.i.i93.i.i.i
	ldr	x0, [sp, #112]                  // 8-byte Reload
	bl	rattle_dealloc
.LBB0_309:                              // %"std_alloc::vec::Vec::drop::<#05cdb88185a824b0>.exit95.i.i.i"
	ldr	x8, [sp, #72]                   // 8-byte Reload
	cbz	w8, .LBB0_311
// %bb.310:                             // %then.1.i.i.i99.i.i.i
	ldr	x0, [sp, #136]                  // 8-byte Reload
	bl	rattle_dealloc
.LBB0_311:                              // %"std_alloc::vec::Vec::drop::<#8efca3a762195e10>.exit101.i.i.i"
	ldp	x25, x23, [sp, #120]            // 16-byte Folded Reload
	ldr	x26, [sp, #40]                  // 8-byte Reload
	ldr	x27, [sp, #64]                  // 8-byte Reload
	ldr	x8, [sp, #24]                   // 8-byte Reload
	cbnz	x8, .LBB0_297
	b	.LBB0_119
.LBB0_312:
	sub	x22, x29, #24
	mov	w19, #1                         // =0x1
.LBB0_313:                              // %"scq_band::making::lay_all::<#aae3f6a89b556e54>.exit.i.i.i"
	ldr	x26, [sp, #40]                  // 8-byte Reload
	ldr	x27, [sp, #64]                  // 8-byte Reload
	ldr	x21, [sp, #136]                 // 8-byte Reload
	ldr	x8, [sp, #8]                    // 8-byte Reload
	lsl	x0, x8, #3
	tbz	x0, #63, .LBB0_235
	b	.LBB0_252
.LBB0_314:
	mov	x28, x26
.LBB0_315:                              // %join.5.i.i.i53.i.i.i.preheader2
	ldp	x9, x11, [sp, #8]               // 16-byte Folded Reload
	lsl	x10, x8, #3
	sub	x8, x9, x8
	add	x9, x28, x10
	add	x10, x11, x10
.LBB0_316:                              // %join.5.i.i.i53.i.i.i
                                        // =>This Inner Loop Header: Depth=1
	ldr	x11, [x10], #8
	subs	x8, x8, #1
	str	x11, [x9], #8
	b.ne	.LBB0_316
.LBB0_317:                              // %then.1.i.i.i.i.i56.i.i.i
	mov	x0, x23
	bl	rattle_dealloc
	ldr	x8, [sp, #168]                  // 8-byte Reload
	add	x0, sp, #1528
	add	x2, sp, #1504
	add	x3, sp, #1480
	mov	x1, x28
	str	x20, [sp, #1512]
	str	x8, [sp, #1504]
	str	x24, [sp, #1520]
	str	x22, [sp, #1480]
	str	xzr, [sp, #1488]
	str	x20, [sp, #1496]
	bl	"scq_band::splitting::split_all::<#aae3f6a89b556e54>"
	ldr	x8, [sp, #24]                   // 8-byte Reload
	cbz	x8, .LBB0_319
// %bb.318:                             // %then.1.i.i.i111.i.i.i
	ldr	x0, [sp, #16]                   // 8-byte Reload
	bl	rattle_dealloc
.LBB0_319:                              // %arm.5.i
	add	x8, sp, #1528
	ldr	x20, [sp, #64]                  // 8-byte Reload
	add	x0, sp, #1432
	ldr	q0, [x8]
	ldr	x8, [sp, #1544]
	add	x1, sp, #1456
	add	x2, sp, #1384
	str	xzr, [sp, #1392]
	str	x8, [sp, #1424]
	str	x8, [sp, #1472]
	ldr	x8, [sp, #184]                  // 8-byte Reload
	str	q0, [sp, #1408]
	str	q0, [sp, #1456]
	str	x8, [sp, #1384]
	str	x20, [sp, #1400]
	bl	"scq_queue::queue::passes_of::<#aae3f6a89b556e54>"
	ldr	x8, [sp, #1472]
	ldr	q0, [sp, #1456]
	str	x21, [sp, #1896]
	ldr	x10, [sp, #48]                  // 8-byte Reload
	str	x21, [sp, #1936]
	ldr	x9, [sp, #72]                   // 8-byte Reload
	str	x8, [sp, #1328]
	ldr	x8, [sp, #8]                    // 8-byte Reload
	ldr	x21, [sp, #1432]
	str	q0, [sp, #1312]
	ldr	x19, [sp, #1440]
	str	x8, [sp, #1904]
	ldr	q0, [sp, #1312]
	str	x8, [sp, #1928]
	ldr	x8, [sp, #208]                  // 8-byte Reload
	str	x26, [sp, #1888]
	str	w8, [sp, #1952]
	ldr	w8, [sp, #180]                  // 4-byte Reload
	str	x10, [sp, #1912]
	str	w8, [sp, #1964]
	ldr	x8, [sp, #104]                  // 8-byte Reload
	str	x26, [sp, #1920]
	str	x8, [sp, #1968]
	ldr	x8, [sp, #112]                  // 8-byte Reload
	str	x10, [sp, #1944]
	str	x8, [sp, #1976]
	ldr	x8, [sp, #96]                   // 8-byte Reload
	str	w9, [sp, #1956]
	str	x8, [sp, #1992]
	ldr	x8, [sp, #216]                  // 8-byte Reload
	str	w20, [sp, #1960]
	str	x8, [sp, #2000]
	ldr	x8, [sp, #136]                  // 8-byte Reload
	str	x25, [sp, #1984]
	str	x8, [sp, #2024]
	ldr	x8, [sp, #1328]
	str	xzr, [sp, #2008]
	str	x8, [sp, #2064]
	ldr	x8, [sp, #128]                  // 8-byte Reload
	str	x10, [sp, #2016]
	str	x8, [sp, #2072]
	ldr	x8, [sp, #120]                  // 8-byte Reload
	str	xzr, [sp, #2032]
	str	x8, [sp, #2096]
	ldr	x8, [sp, #1448]
	str	x9, [sp, #2040]
	str	q0, [sp, #2048]
	str	xzr, [sp, #2080]
	str	x20, [sp, #2088]
	str	x8, [sp, #216]                  // 8-byte Spill
	str	xzr, [sp, #2104]
	str	x20, [sp, #2112]
	cbz	w20, .LBB0_323
// %bb.320:                             // %"std_alloc::vec::resize::<#090976a868a86af5>.exit.i.i.i.i.i.i.i"
	ldr	x8, [sp, #64]                   // 8-byte Reload
	mov	w1, #8                          // =0x8
	lsl	x22, x8, #3
	mov	x0, x22
	bl	rattle_alloc
	tbz	w0, #0, .LBB0_357
// %bb.321:                             // %arm.1.i.i.i.i17.i
	ldr	x8, [sp, #64]                   // 8-byte Reload
	mov	x24, x1
	cmp	w8, #1
	b.ne	.LBB0_324
// %bb.322:
	mov	x20, xzr
	b	.LBB0_325
.LBB0_323:
	mov	x20, xzr
	sub	x27, x29, #24
	sub	x24, x29, #24
	b	.LBB0_327
.LBB0_324:                              // %join.12.preheader.i.i.i.i.i
	sub	x2, x22, #8
	mov	x0, x24
	mov	w1, wzr
	bl	memset
	ldr	x8, [sp, #64]                   // 8-byte Reload
	sub	x20, x8, #1
.LBB0_325:                              // %"std_alloc::vec::resize::<#bf9c1953a1d97910>.exit.i.i.i.i.i.i"
	ldr	x8, [sp, #64]                   // 8-byte Reload
	mov	w1, #8                          // =0x8
	str	xzr, [x24, x20, lsl #3]
	lsl	x22, x8, #7
	mov	x0, x22
	bl	rattle_alloc
	tbz	w0, #0, .LBB0_355
// %bb.326:                             // %join.12.preheader.i.i.i.i
	mov	x27, x1
	mov	x0, x1
	mov	w1, wzr
	mov	x2, x22
	bl	memset
	add	x20, x20, #1
.LBB0_327:                              // %"core::slots::blocks::reserve::<#090976a868a86af5>.exit.i.i.i.i.i.i"
	lsl	x0, x20, #3
	mov	w1, #8                          // =0x8
	bl	rattle_alloc
	tbz	w0, #0, .LBB0_344
// %bb.328:                             // %"core::slots::blocks::reserve::<#bf9c1953a1d97910>.exit.i.i.i.i.i.i"
	ldr	x8, [sp, #64]                   // 8-byte Reload
	mov	x22, x1
	mov	w1, #8                          // =0x8
	lsl	x28, x8, #7
	mov	x0, x28
	bl	rattle_alloc
	tbz	w0, #0, .LBB0_343
// %bb.329:                             // %arm.7.i.i.i.i.i.i
	mov	x23, x1
	cbz	x20, .LBB0_337
// %bb.330:                             // %join.5.i.i.i.i.i.i.i.preheader
	cmp	x20, #4
	mov	x8, xzr
	b.lo	.LBB0_335
// %bb.331:                             // %join.5.i.i.i.i.i.i.i.preheader
	sub	x9, x22, x24
	cmp	x9, #32
	b.lo	.LBB0_335
// %bb.332:                             // %vector.ph238
	and	x8, x20, #0xfffffffffffffffc
	add	x9, x22, #16
	add	x10, x24, #16
	and	x11, x20, #0xfffffffffffffffc
.LBB0_333:                              // %vector.body241
                                        // =>This Inner Loop Header: Depth=1
	ldp	q0, q1, [x10, #-16]
	subs	x11, x11, #4
	add	x10, x10, #32
	stp	q0, q1, [x9, #-16]
	add	x9, x9, #32
	b.ne	.LBB0_333
// %bb.334:                             // %middle.block246
	cmp	x20, x8
	b.eq	.LBB0_337
.LBB0_335:                              // %join.5.i.i.i.i.i.i.i.preheader1
	lsl	x10, x8, #3
	sub	x8, x20, x8
	add	x9, x22, x10
	add	x10, x24, x10
.LBB0_336:                              // %join.5.i.i.i.i.i.i.i
                                        // =>This Inner Loop Header: Depth=1
	ldr	x11, [x10], #8
	subs	x8, x8, #1
	str	x11, [x9], #8
	b.ne	.LBB0_336
.LBB0_337:                              // %"atomic_table::owned::fill_words.exit.i.i.i.i.i.i"
	ldr	x8, [sp, #64]                   // 8-byte Reload
	cbz	w8, .LBB0_375
// %bb.338:                             // %arm.3.i.i.i.i.i.i.i.preheader
	mov	x8, xzr
	mov	x9, x27
	mov	x10, x23
.LBB0_339:                              // %arm.3.i.i.i.i.i.i.i
                                        // =>This Inner Loop Header: Depth=1
	add	x11, x9, x28
	add	x8, x8, #128
	add	x12, x10, x28
	ldurb	w13, [x11, #-128]
	ldur	q0, [x11, #-72]
	ldur	q1, [x11, #-88]
	ldur	q2, [x11, #-104]
	ldur	q3, [x11, #-120]
	ldur	x14, [x11, #-8]
	ldur	q4, [x11, #-56]
	ldur	q5, [x11, #-24]
	cmp	x28, x8
	ldur	q6, [x11, #-40]
	sub	x10, x10, #128
	sub	x9, x9, #128
	stur	x13, [x12, #-128]
	stur	q4, [x12, #-56]
	stur	q6, [x12, #-40]
	stur	q5, [x12, #-24]
	stur	x14, [x12, #-8]
	stur	q3, [x12, #-120]
	stur	q2, [x12, #-104]
	stur	q1, [x12, #-88]
	stur	q0, [x12, #-72]
	b.ne	.LBB0_339
// %bb.340:                             // %"std_alloc::vec::resize::<#44a7f6dac2698e27>.exit.i.i.i.i.i"
	mov	x0, x27
	bl	rattle_dealloc
	mov	x0, x24
	bl	rattle_dealloc
	ldr	x8, [sp, #64]                   // 8-byte Reload
	mov	w1, #8                          // =0x8
	add	x8, x8, x8, lsl #1
	lsl	x0, x8, #5
	bl	rattle_alloc
	tbz	w0, #0, .LBB0_384
// %bb.341:                             // %arm.5.thread.i.i.i
	ldr	x8, [sp, #48]                   // 8-byte Reload
	mov	x24, x1
	mov	w1, #4                          // =0x4
	lsl	x0, x8, #2
	bl	rattle_alloc
	tbz	w0, #0, .LBB0_402
// %bb.342:
	mov	x27, x1
	b	.LBB0_377
.LBB0_343:                              // %arm.8.i.i.i.i.i.i
	mov	x0, x22
	bl	rattle_dealloc
.LBB0_344:                              // %arm.16.i.i.i.i
	ldr	x8, [sp, #64]                   // 8-byte Reload
	cbz	w8, .LBB0_357
// %bb.345:                             // %join.5.i.i.i.i.i.i.i.i.i.preheader
	mov	x20, x27
	b	.LBB0_347
.LBB0_346:                              // %"core::mem::drop::<#c10a63d121191302>.exit.i.i.i.i.i.i.i.i.i"
                                        //   in Loop: Header=BB0_347 Depth=1
	ldr	x8, [sp, #64]                   // 8-byte Reload
	add	x20, x20, #128
	subs	x8, x8, #1
	str	x8, [sp, #64]                   // 8-byte Spill
	b.eq	.LBB0_354
.LBB0_347:                              // %join.5.i.i.i.i.i.i.i.i.i
                                        // =>This Inner Loop Header: Depth=1
	ldrb	w8, [x20]
	cbz	w8, .LBB0_346
// %bb.348:                             // %arm.2.i.i.i.i.i.i.i.i.i.i.i
                                        //   in Loop: Header=BB0_347 Depth=1
	ldp	x26, x22, [x20, #24]
	ldr	x23, [x20, #8]
	ldr	x8, [x20, #120]
	ldr	x25, [x20, #48]
	cbz	x8, .LBB0_350
// %bb.349:                             // %then.1.i.i.i.i.i.i.i.i.i.i.i.i.i.i30.i
                                        //   in Loop: Header=BB0_347 Depth=1
	ldr	x0, [x20, #104]
	bl	rattle_dealloc
.LBB0_350:                              // %"scq_port::leaving::drop_slots.exit.i.i.i.i.i.i.i.i.i.i.i.i"
                                        //   in Loop: Header=BB0_347 Depth=1
	cbz	x26, .LBB0_352
// %bb.351:                             // %then.1.i.i.i5.i.i.i.i.i.i.i.i.i.i.i.i
                                        //   in Loop: Header=BB0_347 Depth=1
	mov	x0, x23
	bl	rattle_dealloc
.LBB0_352:                              // %"std_alloc::vec::Vec::drop::<#322702e9d69ed9ef>.exit.i.i.i.i.i.i.i.i.i.i.i.i"
                                        //   in Loop: Header=BB0_347 Depth=1
	cbz	x25, .LBB0_346
// %bb.353:                             // %then.1.i.i.i10.i.i.i.i.i.i.i.i.i.i.i.i
                                        //   in Loop: Header=BB0_347 Depth=1
	mov	x0, x22
	bl	rattle_dealloc
	b	.LBB0_346
.LBB0_354:                              // %then.1.i.i.i29.i.i.i.i
	mov	x0, x27
	bl	rattle_dealloc
.LBB0_355:                              // %"std_alloc::vec::Vec::drop::<#e5207596a7850bb0>.exit.i.i.i.i"
	mov	x0, x24
.LBB0_356:                              // %arm.2.i16.i
	bl	rattle_dealloc
.LBB0_357:                              // %arm.2.i16.i
	add	x0, sp, #1888
	bl	"scq_queue::queue::Queue::abandon::<#a764f8bb96b57390>"
	cbz	x19, .LBB0_400
// %bb.358:                             // %join.5.i.i.i.i.i69.i.preheader
	add	x22, x21, #24
	b	.LBB0_360
.LBB0_359:                              // %"core::mem::drop::<#db57577750518db5>.exit.i.i.i.i.i.i"
                                        //   in Loop: Header=BB0_360 Depth=1
	subs	x19, x19, #1
	add	x22, x22, #96
	b.eq	.LBB0_400
.LBB0_360:                              // %join.5.i.i.i.i.i69.i
                                        // =>This Inner Loop Header: Depth=1
	ldp	x8, x20, [x22, #-8]
	ldr	x23, [x22, #16]
	cbz	x8, .LBB0_362
// %bb.361:                             // %then.1.i.i.i.i.i.i.i.i.i.i.i72.i
                                        //   in Loop: Header=BB0_360 Depth=1
	ldur	x0, [x22, #-24]
	bl	rattle_dealloc
.LBB0_362:                              // %"std_alloc::vec::Vec::drop::<#322702e9d69ed9ef>.exit.i.i.i.i.i.i.i.i.i"
                                        //   in Loop: Header=BB0_360 Depth=1
	cbz	x23, .LBB0_359
// %bb.363:                             // %then.1.i.i.i4.i.i.i.i.i.i.i.i.i
                                        //   in Loop: Header=BB0_360 Depth=1
	mov	x0, x20
	bl	rattle_dealloc
	b	.LBB0_359
.LBB0_364:                              // %"std_alloc::vec::Vec::drop::<#60f12ba18a0e7df3>.exit.i.i.i.i.i.i.i.i"
	mov	x0, x27
	bl	rattle_dealloc
	cbz	x28, .LBB0_366
// %bb.365:                             // %then.1.i.i.i4.i.i.i.i.i.i.i.i
	mov	x0, x20
	bl	rattle_dealloc
.LBB0_366:                              // %"core::result::ResultFromResidualErrResidual::from_residual::<#3b1a0322bd008762>.exit.i.i.i.i.i"
	ldr	x19, [sp, #1736]
	ldr	x22, [sp, #1728]
	ldr	x20, [sp, #1744]
	cbz	x19, .LBB0_373
// %bb.367:                             // %join.5.i.i.i.i.i52.i.i.i.i.i.preheader
	add	x24, x22, #24
	b	.LBB0_369
.LBB0_368:                              // %"core::mem::drop::<#b834ffe514bc0bc2>.exit.i.i.i.i.i68.i.i.i.i.i"
                                        //   in Loop: Header=BB0_369 Depth=1
	subs	x19, x19, #1
	add	x24, x24, #48
	b.eq	.LBB0_373
.LBB0_369:                              // %join.5.i.i.i.i.i52.i.i.i.i.i
                                        // =>This Inner Loop Header: Depth=1
	ldp	x8, x21, [x24, #-8]
	ldr	x23, [x24, #16]
	cbz	x8, .LBB0_371
// %bb.370:                             // %then.1.i.i.i.i.i.i.i.i.i.i63.i.i.i.i.i
                                        //   in Loop: Header=BB0_369 Depth=1
	ldur	x0, [x24, #-24]
	bl	rattle_dealloc
.LBB0_371:                              // %"std_alloc::vec::Vec::drop::<#60f12ba18a0e7df3>.exit.i.i.i.i.i.i.i65.i.i.i.i.i"
                                        //   in Loop: Header=BB0_369 Depth=1
	cbz	x23, .LBB0_368
// %bb.372:                             // %then.1.i.i.i4.i.i.i.i.i.i.i67.i.i.i.i.i
                                        //   in Loop: Header=BB0_369 Depth=1
	mov	x0, x21
	bl	rattle_dealloc
	b	.LBB0_368
.LBB0_373:                              // %"std_alloc::vec::Vec::clear::<#b4ab0dccd0e4b9eb>.exit.i71.i.i.i.i.i"
	ldr	x26, [sp, #40]                  // 8-byte Reload
	ldr	x21, [sp, #136]                 // 8-byte Reload
	ldr	x23, [sp, #112]                 // 8-byte Reload
	ldr	x24, [sp, #96]                  // 8-byte Reload
	cbz	x20, .LBB0_279
// %bb.374:                             // %then.1.i.i.i73.i.i.i.i.i
	mov	x0, x22
	b	.LBB0_278
.LBB0_375:                              // %arm.5.i.i47.i
	ldr	x8, [sp, #48]                   // 8-byte Reload
	mov	w1, #4                          // =0x4
	lsl	x0, x8, #2
	bl	rattle_alloc
	tbz	w0, #0, .LBB0_411
// %bb.376:
	mov	x27, x1
	sub	x24, x29, #24
.LBB0_377:                              // %arm.1.i44.i
	add	x8, sp, #1888
	mov	w0, #352                        // =0x160
	mov	w1, #8                          // =0x8
	ldur	q0, [x8, #168]
	ldur	q1, [x8, #184]
	ldur	q2, [x8, #200]
	str	q0, [sp, #1248]
	ldur	q0, [x8, #216]
	str	q1, [sp, #1264]
	ldur	q1, [x8, #104]
	str	q0, [sp, #1296]
	ldur	q0, [x8, #120]
	str	q2, [sp, #1280]
	ldur	q2, [x8, #136]
	str	q0, [sp, #1200]
	ldur	q0, [x8, #152]
	str	q1, [sp, #1184]
	ldur	q1, [x8, #40]
	str	q0, [sp, #1232]
	ldur	q0, [x8, #56]
	str	q2, [sp, #1216]
	ldur	q2, [x8, #72]
	str	q0, [sp, #1136]
	ldur	q0, [x8, #88]
	str	q1, [sp, #1120]
	ldur	q1, [x8, #8]
	str	q0, [sp, #1168]
	ldur	q0, [x8, #24]
	str	q2, [sp, #1152]
	str	q1, [sp, #1088]
	str	q0, [sp, #1104]
	bl	rattle_alloc
	tbz	w0, #0, .LBB0_393
// %bb.378:                             // %"scq_port::opening::open.exit"
	ldr	q0, [sp, #1248]
	ldr	q1, [sp, #1264]
	mov	w8, #1                          // =0x1
	ldr	q2, [sp, #1280]
	ldr	x9, [sp, #48]                   // 8-byte Reload
	add	x0, sp, #1344
	stp	q0, q1, [x1, #176]
	ldr	q0, [sp, #1296]
	add	x2, sp, #1064
	ldr	q1, [sp, #1184]
	stp	x8, x26, [x1]
	add	x3, sp, #1040
	stp	q2, q0, [x1, #208]
	ldr	q0, [sp, #1200]
	mov	x28, x1
	ldr	q2, [sp, #1216]
	ldr	x8, [sp, #64]                   // 8-byte Reload
	stp	xzr, x9, [x1, #336]
	stp	q1, q0, [x1, #112]
	ldr	q0, [sp, #1232]
	ldr	q1, [sp, #1120]
	ldr	x9, [sp, #216]                  // 8-byte Reload
	stp	x20, x8, [x1, #256]
	ldr	w4, [sp, #164]                  // 4-byte Reload
	stp	q2, q0, [x1, #144]
	ldr	q0, [sp, #1136]
	ldr	q2, [sp, #1152]
	stp	x23, x8, [x1, #288]
	stp	q1, q0, [x1, #48]
	ldr	q0, [sp, #1168]
	ldr	q1, [sp, #1088]
	stp	x8, x27, [x1, #320]
	str	x9, [sp, #1080]
	ldr	x9, [sp, #208]                  // 8-byte Reload
	str	w8, [sp, #1048]
	ldr	w8, [sp, #180]                  // 4-byte Reload
	stp	q2, q0, [x1, #80]
	ldr	q0, [sp, #1104]
	str	w9, [sp, #1040]
	ldr	x9, [sp, #72]                   // 8-byte Reload
	str	w8, [sp, #1052]
	ldr	x8, [sp, #104]                  // 8-byte Reload
	stp	q1, q0, [x1, #16]
	stp	x22, x23, [x1, #240]
	stp	x22, x20, [x1, #272]
	stp	x24, xzr, [x1, #304]
	str	x21, [sp, #1064]
	str	x19, [sp, #1072]
	str	w9, [sp, #1044]
	str	x8, [sp, #1056]
	bl	"scq_port::opening::ports_of"
	mov	x0, x28
	bl	"std_alloc::arc::Arc::drop::<#9f30ca7595de9587>"
	ldrb	w8, [sp, #1344]
	ldr	x26, [sp, #40]                  // 8-byte Reload
	cbnz	w8, .LBB0_125
// %bb.379:                             // %arm.1
	ldr	x24, [sp, #1360]
	ldr	x20, [sp, #1352]
	ldr	x19, [sp, #1368]
	cbz	x24, .LBB0_417
// %bb.380:                             // %then.2.i
	lsr	x8, x24, #60
	cbnz	x8, .LBB0_412
// %bb.381:                             // %"std_alloc::vec::resize::<#7515bd1c082cc979>.exit.i.i"
	lsl	x0, x24, #3
	mov	w1, #8                          // =0x8
	bl	rattle_alloc
	tbz	w0, #0, .LBB0_412
// %bb.382:                             // %arm.5
	mov	x21, x1
	cmp	x24, #15
	b.ls	.LBB0_421
// %bb.383:                             // %then.1.i.i.i
	lsr	x2, x24, #1
	mov	w9, #408                        // =0x198
	mov	x0, x20
	sub	x8, x24, x2
	madd	x1, x8, x9, x20
	bl	"core::slice::edits::mirror::<20'scq_port::port::Port>"
	b	.LBB0_422
.LBB0_384:                              // %join.5.i.i.i.i.preheader
	mov	x20, x23
	b	.LBB0_386
.LBB0_385:                              // %"core::mem::drop::<#c10a63d121191302>.exit.i.i.i.i"
                                        //   in Loop: Header=BB0_386 Depth=1
	ldr	x8, [sp, #64]                   // 8-byte Reload
	add	x20, x20, #128
	subs	x8, x8, #1
	str	x8, [sp, #64]                   // 8-byte Spill
	b.eq	.LBB0_411
.LBB0_386:                              // %join.5.i.i.i.i
                                        // =>This Inner Loop Header: Depth=1
	ldrb	w8, [x20]
	cbz	w8, .LBB0_385
// %bb.387:                             // %arm.2.i.i.i.i.i.i
                                        //   in Loop: Header=BB0_386 Depth=1
	ldp	x27, x24, [x20, #24]
	ldr	x25, [x20, #8]
	ldr	x8, [x20, #120]
	ldr	x26, [x20, #48]
	cbz	x8, .LBB0_389
// %bb.388:                             // %then.1.i.i.i.i.i.i.i.i.i.i
                                        //   in Loop: Header=BB0_386 Depth=1
	ldr	x0, [x20, #104]
	bl	rattle_dealloc
.LBB0_389:                              // %"scq_port::leaving::drop_slots.exit.i.i.i.i.i.i.i"
                                        //   in Loop: Header=BB0_386 Depth=1
	cbz	x27, .LBB0_391
// %bb.390:                             // %then.1.i.i.i5.i.i.i.i.i.i.i
                                        //   in Loop: Header=BB0_386 Depth=1
	mov	x0, x25
	bl	rattle_dealloc
.LBB0_391:                              // %"std_alloc::vec::Vec::drop::<#322702e9d69ed9ef>.exit.i.i.i.i.i.i.i"
                                        //   in Loop: Header=BB0_386 Depth=1
	cbz	x26, .LBB0_385
// %bb.392:                             // %then.1.i.i.i10.i.i.i.i.i.i.i
                                        //   in Loop: Header=BB0_386 Depth=1
	mov	x0, x24
	bl	rattle_dealloc
	b	.LBB0_385
.LBB0_393:                              // %arm.15.i
	ldr	q0, [sp, #1248]
	ldr	q1, [sp, #1264]
	add	x8, sp, #1888
	add	x0, sp, #1888
	str	x26, [sp, #1888]
	stur	q0, [x8, #168]
	ldr	q0, [sp, #1280]
	stur	q1, [x8, #184]
	ldr	q1, [sp, #1296]
	stur	q0, [x8, #200]
	ldr	q0, [sp, #1184]
	stur	q1, [x8, #216]
	ldr	q1, [sp, #1200]
	stur	q0, [x8, #104]
	ldr	q0, [sp, #1216]
	stur	q1, [x8, #120]
	ldr	q1, [sp, #1232]
	stur	q0, [x8, #136]
	ldr	q0, [sp, #1120]
	stur	q1, [x8, #152]
	ldr	q1, [sp, #1136]
	stur	q0, [x8, #40]
	ldr	q0, [sp, #1152]
	stur	q1, [x8, #56]
	ldr	q1, [sp, #1168]
	stur	q0, [x8, #72]
	ldr	q0, [sp, #1088]
	stur	q1, [x8, #88]
	ldr	q1, [sp, #1104]
	stur	q0, [x8, #8]
	stur	q1, [x8, #24]
	ldr	x8, [sp, #64]                   // 8-byte Reload
	str	x22, [sp, #2120]
	str	x8, [sp, #2144]
	str	x8, [sp, #2176]
	str	x8, [sp, #2200]
	ldr	x8, [sp, #48]                   // 8-byte Reload
	str	x23, [sp, #2128]
	str	x20, [sp, #2136]
	str	x22, [sp, #2152]
	str	x20, [sp, #2160]
	str	x23, [sp, #2168]
	str	x24, [sp, #2184]
	str	xzr, [sp, #2192]
	str	x27, [sp, #2208]
	str	xzr, [sp, #2216]
	str	x8, [sp, #2224]
	bl	"scq_port::owner::Owner::drop"
	cbz	x19, .LBB0_400
// %bb.394:                             // %join.5.i.i.i.i.i83.i.preheader
	add	x22, x21, #24
	b	.LBB0_396
.LBB0_395:                              // %"core::mem::drop::<#db57577750518db5>.exit.i.i.i.i.i99.i"
                                        //   in Loop: Header=BB0_396 Depth=1
	subs	x19, x19, #1
	add	x22, x22, #96
	b.eq	.LBB0_400
.LBB0_396:                              // %join.5.i.i.i.i.i83.i
                                        // =>This Inner Loop Header: Depth=1
	ldp	x8, x20, [x22, #-8]
	ldr	x23, [x22, #16]
	cbz	x8, .LBB0_398
// %bb.397:                             // %then.1.i.i.i.i.i.i.i.i.i.i.i94.i
                                        //   in Loop: Header=BB0_396 Depth=1
	ldur	x0, [x22, #-24]
	bl	rattle_dealloc
.LBB0_398:                              // %"std_alloc::vec::Vec::drop::<#322702e9d69ed9ef>.exit.i.i.i.i.i.i.i.i96.i"
                                        //   in Loop: Header=BB0_396 Depth=1
	cbz	x23, .LBB0_395
// %bb.399:                             // %then.1.i.i.i4.i.i.i.i.i.i.i.i98.i
                                        //   in Loop: Header=BB0_396 Depth=1
	mov	x0, x20
	bl	rattle_dealloc
	b	.LBB0_395
.LBB0_400:                              // %"std_alloc::vec::Vec::clear::<#6556fae6c29054f4>.exit.i.i"
	ldr	x26, [sp, #40]                  // 8-byte Reload
	ldr	x8, [sp, #216]                  // 8-byte Reload
	cbz	x8, .LBB0_125
// %bb.401:                             // %then.1.i.i.i104.i
	mov	x0, x21
	b	.LBB0_124
.LBB0_402:                              // %"std_alloc::vec::Vec::drop::<#52900c7b80093fc6>.exit.i.i.i"
	mov	x0, x24
	bl	rattle_dealloc
	mov	x20, x23
	b	.LBB0_404
.LBB0_403:                              // %"core::mem::drop::<#c10a63d121191302>.exit.i79.i.i.i"
                                        //   in Loop: Header=BB0_404 Depth=1
	ldr	x8, [sp, #64]                   // 8-byte Reload
	add	x20, x20, #128
	subs	x8, x8, #1
	str	x8, [sp, #64]                   // 8-byte Spill
	b.eq	.LBB0_411
.LBB0_404:                              // %join.5.i53.i.i.i
                                        // =>This Inner Loop Header: Depth=1
	ldrb	w8, [x20]
	cbz	w8, .LBB0_403
// %bb.405:                             // %arm.2.i.i.i68.i.i.i
                                        //   in Loop: Header=BB0_404 Depth=1
	ldp	x27, x24, [x20, #24]
	ldr	x25, [x20, #8]
	ldr	x8, [x20, #120]
	ldr	x26, [x20, #48]
	cbz	x8, .LBB0_407
// %bb.406:                             // %then.1.i.i.i.i.i.i.i72.i.i.i
                                        //   in Loop: Header=BB0_404 Depth=1
	ldr	x0, [x20, #104]
	bl	rattle_dealloc
.LBB0_407:                              // %"scq_port::leaving::drop_slots.exit.i.i.i.i73.i.i.i"
                                        //   in Loop: Header=BB0_404 Depth=1
	cbz	x27, .LBB0_409
// %bb.408:                             // %then.1.i.i.i5.i.i.i.i75.i.i.i
                                        //   in Loop: Header=BB0_404 Depth=1
	mov	x0, x25
	bl	rattle_dealloc
.LBB0_409:                              // %"std_alloc::vec::Vec::drop::<#322702e9d69ed9ef>.exit.i.i.i.i76.i.i.i"
                                        //   in Loop: Header=BB0_404 Depth=1
	cbz	x26, .LBB0_403
// %bb.410:                             // %then.1.i.i.i10.i.i.i.i78.i.i.i
                                        //   in Loop: Header=BB0_404 Depth=1
	mov	x0, x24
	bl	rattle_dealloc
	b	.LBB0_403
.LBB0_411:                              // %"atomic_table::owned::Table::drop::<#b901f7d3086f3adb>.exit.i.i.i"
	mov	x0, x22
	bl	rattle_dealloc
	mov	x0, x23
	b	.LBB0_356
.LBB0_412:
	mov	x21, x20
.LBB0_413:                              // %join.5.i.i.i.i.i
                                        // =>This Inner Loop Header: Depth=1
	add	x0, sp, #1888
	mov	x1, x21
	mov	w2, #408                        // =0x198
	bl	memcpy
	add	x0, sp, #1888
	bl	"scq_port::port::Port::drop"
	subs	x24, x24, #1
	add	x21, x21, #408
	b.ne	.LBB0_413
.LBB0_414:                              // %"std_alloc::vec::Vec::clear::<#2740f8c7cfafe0a2>.exit.i"
	cbz	x19, .LBB0_416
// %bb.415:                             // %then.1.i.i.i13
	mov	x0, x20
	bl	rattle_dealloc
.LBB0_416:                              // %"std_alloc::vec::Vec::drop::<#a0c6de72c34bc962>.exit"
	movi	v0.2d, #0000000000000000
	ldr	x8, [sp, #40]                   // 8-byte Reload
	stp	q0, q0, [x8]
	b	.LBB0_126
.LBB0_417:
	sub	x21, x29, #24
.LBB0_418:                              // %"std_alloc::vec::Vec::clear::<#2740f8c7cfafe0a2>.exit.i66"
	cbz	x19, .LBB0_420
// %bb.419:                             // %then.1.i.i.i68
	mov	x0, x20
	bl	rattle_dealloc
.LBB0_420:                              // %"std_alloc::vec::Vec::drop::<#a0c6de72c34bc962>.exit69"
	ldr	x9, [sp, #40]                   // 8-byte Reload
	mov	w8, #1                          // =0x1
	stp	x8, x21, [x9]
	stp	x24, x24, [x9, #16]
	b	.LBB0_126
.LBB0_421:                              // %loop.5.preheader.i.i.i
	subs	x25, x24, #1
	b.ne	.LBB0_431
.LBB0_422:                              // %arm.10.preheader
	mov	w8, #408                        // =0x198
	mov	x23, xzr
	madd	x8, x24, x8, x20
	sub	x25, x8, #408
.LBB0_423:                              // %arm.10
                                        // =>This Inner Loop Header: Depth=1
	mov	x1, x25
	add	x0, sp, #1888
	mov	w2, #400                        // =0x190
	ldr	x26, [x1], #8
	bl	memcpy
	mov	w0, #408                        // =0x198
	mov	w1, #8                          // =0x8
	bl	rattle_alloc
	tbz	w0, #0, .LBB0_425
// %bb.424:                             // %arm.13
                                        //   in Loop: Header=BB0_423 Depth=1
	mov	x22, x1
	str	x26, [x1]
	add	x0, x1, #8
	add	x1, sp, #1888
	mov	w2, #400                        // =0x190
	sub	x25, x25, #408
	bl	memcpy
	movi	v0.2d, #0000000000000000
	str	x22, [x21, x23, lsl #3]
	add	x23, x23, #1
	cmp	x24, x23
	stp	q0, q0, [sp, #640]
	stp	q0, q0, [sp, #672]
	stp	q0, q0, [sp, #704]
	stp	q0, q0, [sp, #736]
	stp	q0, q0, [sp, #768]
	stp	q0, q0, [sp, #800]
	stp	q0, q0, [sp, #832]
	stp	q0, q0, [sp, #864]
	stp	q0, q0, [sp, #896]
	stp	q0, q0, [sp, #928]
	stp	q0, q0, [sp, #960]
	stp	q0, q0, [sp, #992]
	str	q0, [sp, #1024]
	b.ne	.LBB0_423
	b	.LBB0_418
.LBB0_425:                              // %arm.16
	add	x0, sp, #640
	add	x1, sp, #1888
	mov	w2, #400                        // =0x190
	bl	memcpy
	add	x8, sp, #224
	add	x1, sp, #640
	mov	w2, #400                        // =0x190
	orr	x0, x8, #0x8
	str	x26, [sp, #224]
	bl	memcpy
	add	x0, sp, #224
	bl	"scq_port::port::Port::drop"
	sub	x25, x24, #1
	cbz	x23, .LBB0_428
// %bb.426:                             // %join.5.i.i.i.i.i27.preheader
	mov	x26, xzr
.LBB0_427:                              // %join.5.i.i.i.i.i27
                                        // =>This Inner Loop Header: Depth=1
	ldr	x22, [x21, x26, lsl #3]
	add	x0, sp, #1888
	mov	w2, #408                        // =0x198
	mov	x1, x22
	bl	memcpy
	mov	x0, x22
	bl	rattle_dealloc
	add	x0, sp, #1888
	bl	"scq_port::port::Port::drop"
	add	x26, x26, #1
	cmp	x23, x26
	b.ne	.LBB0_427
.LBB0_428:                              // %then.1.i.i.i34
	mov	x0, x21
	bl	rattle_dealloc
	cmp	x25, x23
	b.eq	.LBB0_414
// %bb.429:                             // %join.5.i.i.i.i.i43.preheader
	mvn	x8, x23
	mov	x21, x20
	add	x22, x8, x24
.LBB0_430:                              // %join.5.i.i.i.i.i43
                                        // =>This Inner Loop Header: Depth=1
	add	x0, sp, #1888
	mov	x1, x21
	mov	w2, #408                        // =0x198
	bl	memcpy
	add	x0, sp, #1888
	bl	"scq_port::port::Port::drop"
	subs	x22, x22, #1
	add	x21, x21, #408
	b.ne	.LBB0_430
	b	.LBB0_414
.LBB0_431:                              // %join.8.preheader.i.i.i
	mov	w8, #408                        // =0x198
	sub	x9, x24, #2
	mov	x26, xzr
	madd	x8, x24, x8, x20
	lsr	x9, x9, #1
	mov	x23, x20
	add	x27, x9, #1
	sub	x22, x8, #408
	b	.LBB0_435
.LBB0_432:                              // %then.1.i.i.i.i
                                        //   in Loop: Header=BB0_435 Depth=1
	add	x0, sp, #1888
	mov	x1, x23
	mov	w2, #408                        // =0x198
	bl	memcpy
	mov	x0, x23
	mov	x1, x22
	mov	w2, #408                        // =0x198
	bl	memmove
	add	x1, sp, #1888
	mov	x0, x22
.LBB0_433:                              // %"core::slice::edits::slice+T::swap::<20'scq_port::port::Port>.exit.i.i.i"
                                        //   in Loop: Header=BB0_435 Depth=1
	mov	w2, #408                        // =0x198
	bl	memcpy
.LBB0_434:                              // %"core::slice::edits::slice+T::swap::<20'scq_port::port::Port>.exit.i.i.i"
                                        //   in Loop: Header=BB0_435 Depth=1
	add	x26, x26, #1
	add	x23, x23, #408
	sub	x22, x22, #408
	cmp	x27, x26
	sub	x25, x25, #1
	b.eq	.LBB0_422
.LBB0_435:                              // %join.8.i.i.i
                                        // =>This Inner Loop Header: Depth=1
	cmp	x26, x25
	b.lo	.LBB0_432
// %bb.436:                             // %else.2.i.i.i.i
                                        //   in Loop: Header=BB0_435 Depth=1
	cmp	x25, x26
	b.hs	.LBB0_434
// %bb.437:                             // %then.4.i.i.i.i
                                        //   in Loop: Header=BB0_435 Depth=1
	add	x0, sp, #1888
	mov	x1, x22
	mov	w2, #408                        // =0x198
	bl	memcpy
	mov	x0, x22
	mov	x1, x23
	mov	w2, #408                        // =0x198
	bl	memmove
	add	x1, sp, #1888
	mov	x0, x23
	b	.LBB0_433
.Lfunc_end0:
	.size	"scq_c::opening::boxed", .Lfunc_end0-"scq_c::opening::boxed"
                                        // -- End function
	.section	".text.unlikely.std_alloc::vec::Vec::grow_amortized::<#0152034d78aea1d1>","ax",@progbits
	.p2align	2                               // -- Begin function std_alloc::vec::Vec::grow_amortized::<#0152034d78aea1d1>
	.type	"std_alloc::vec::Vec::grow_amortized::<#0152034d78aea1d1>",@function
"std_alloc::vec::Vec::grow_amortized::<#0152034d78aea1d1>": // @"std_alloc::vec::Vec::grow_amortized::<#0152034d78aea1d1>"
// %bb.0:                               // %start
	ldr	x8, [x0, #8]
	cmn	x8, #1
	b.eq	.LBB1_5
// %bb.1:                               // %join.3
	stp	x29, x30, [sp, #-32]!           // 16-byte Folded Spill
	ldr	x9, [x0, #16]
	cmp	x8, #3
	mov	w10, #3                         // =0x3
	csel	x11, x8, x10, hi
	stp	x20, x19, [sp, #16]             // 16-byte Folded Spill
	mov	x29, sp
	lsl	x10, x9, #1
	add	x12, x11, #1
	lsr	x13, x9, #62
	cmp	x12, x10
	csinc	x10, x10, x11, ls
	cmp	x13, #0
	csinc	x19, x10, x11, eq
	mov	x11, #6148914691236517205       // =0x5555555555555555
	movk	x11, #1365, lsl #48
	cmp	x19, x11
	b.hi	.LBB1_7
// %bb.2:                               // %join.3.i
	cbz	x9, .LBB1_6
// %bb.3:                               // %then.1.i.i
	add	x8, x8, x8, lsl #1
	add	x9, x19, x19, lsl #1
	mov	x20, x0
	ldr	x0, [x0]
	mov	w3, #8                          // =0x8
	lsl	x1, x8, #3
	lsl	x2, x9, #3
	bl	rattle_realloc
	tbz	w0, #0, .LBB1_7
.LBB1_4:                                // %arm.5.i
	mov	w0, #1                          // =0x1
	str	x1, [x20]
	str	x19, [x20, #16]
	ldp	x20, x19, [sp, #16]             // 16-byte Folded Reload
	ldp	x29, x30, [sp], #32             // 16-byte Folded Reload
	ret
.LBB1_5:
	mov	w0, wzr
	ret
.LBB1_6:                                // %"std_alloc::vec::resize::<#0152034d78aea1d1>.exit.i"
	add	x8, x10, x10, lsl #1
	mov	x20, x0
	mov	w1, #8                          // =0x8
	lsl	x0, x8, #3
	bl	rattle_alloc
	tbnz	w0, #0, .LBB1_4
.LBB1_7:
	mov	w0, wzr
	ldp	x20, x19, [sp, #16]             // 16-byte Folded Reload
	ldp	x29, x30, [sp], #32             // 16-byte Folded Reload
	ret
.Lfunc_end1:
	.size	"std_alloc::vec::Vec::grow_amortized::<#0152034d78aea1d1>", .Lfunc_end1-"std_alloc::vec::Vec::grow_amortized::<#0152034d78aea1d1>"
                                        // -- End function
	.section	".text.scq_core::ring::unused","ax",@progbits
	.p2align	2                               // -- Begin function scq_core::ring::unused
	.type	"scq_core::ring::unused",@function
"scq_core::ring::unused":               // @"scq_core::ring::unused"
// %bb.0:                               // %start
	sub	sp, sp, #96
	stp	x20, x19, [sp, #80]             // 16-byte Folded Spill
	mov	w20, w1
	mov	w8, #2                          // =0x2
	stp	x29, x30, [sp, #32]             // 16-byte Folded Spill
	add	x29, sp, #32
	mov	x19, x0
	stp	x22, x21, [sp, #64]             // 16-byte Folded Spill
	lsl	w21, w8, w1
	add	x1, x29, #24
	cmp	w20, #30
	str	x23, [sp, #48]                  // 8-byte Spill
	stp	xzr, xzr, [sp, #16]
	str	x1, [sp, #8]
	b.hi	.LBB2_3
// %bb.1:                               // %"std_alloc::vec::resize::<#507ac90f59a35348>.exit.i.i"
	lsl	x0, x21, #5
	mov	w1, #8                          // =0x8
	bl	rattle_alloc
	tbz	w0, #0, .LBB2_17
// %bb.2:
	str	x1, [sp, #8]
	str	x21, [sp, #24]
.LBB2_3:                                // %arm.1
	cmp	w20, #30
	b.ls	.LBB2_5
.LBB2_4:                                // %after.5
	ldur	q0, [sp, #8]
	ldr	x8, [sp, #24]
	strb	wzr, [x19]
	stur	q0, [x19, #8]
	str	x8, [x19, #24]
	ldp	x20, x19, [sp, #80]             // 16-byte Folded Reload
	ldr	x23, [sp, #48]                  // 8-byte Reload
	ldp	x22, x21, [sp, #64]             // 16-byte Folded Reload
	ldp	x29, x30, [sp, #32]             // 16-byte Folded Reload
	add	sp, sp, #96
	ret
.LBB2_5:                                // %join.9.preheader
	add	w9, w20, #1
	mov	w10, #1                         // =0x1
	cmp	w21, #1
	lsl	x9, x10, x9
	sub	w10, w21, #1
	mov	x8, xzr
	csinc	w21, w21, wzr, hi
	add	x20, x9, x10
	b	.LBB2_7
.LBB2_6:                                // %arm.10
                                        //   in Loop: Header=BB2_7 Depth=1
	add	x9, x1, x8, lsl #5
	add	x10, x29, #24
	add	x8, x8, #1
	subs	w21, w21, #1
	stp	x20, x10, [x9]
	stp	xzr, xzr, [x9, #16]
	str	x8, [sp, #16]
	b.eq	.LBB2_4
.LBB2_7:                                // %join.9
                                        // =>This Inner Loop Header: Depth=1
	ldr	x9, [sp, #24]
	cmp	x9, x8
	b.ne	.LBB2_6
// %bb.8:                               // %"std_alloc::vec::Vec::grow::<#507ac90f59a35348>.exit.i"
                                        //   in Loop: Header=BB2_7 Depth=1
	add	x0, sp, #8
	bl	"std_alloc::vec::Vec::grow_amortized::<#507ac90f59a35348>"
	cbz	w0, .LBB2_10
// %bb.9:                               // %"std_alloc::vec::Vec::grow::<#507ac90f59a35348>.exit.join.3_crit_edge.i"
                                        //   in Loop: Header=BB2_7 Depth=1
	ldp	x1, x8, [sp, #8]
	b	.LBB2_6
.LBB2_10:                               // %"core::result::ResultFromResidualErrResidual::from_residual::<#26d794666ec4bab7>.exit"
	ldp	x20, x21, [sp, #8]
	ldr	x22, [sp, #24]
	cbz	x21, .LBB2_15
// %bb.11:                              // %join.5.i.i.i.i.i24.preheader
	add	x23, x20, #24
	b	.LBB2_13
.LBB2_12:                               // %"core::mem::drop::<#46d93e6922d62939>.exit.i.i.i.i.i34"
                                        //   in Loop: Header=BB2_13 Depth=1
	subs	x21, x21, #1
	add	x23, x23, #32
	b.eq	.LBB2_15
.LBB2_13:                               // %join.5.i.i.i.i.i24
                                        // =>This Inner Loop Header: Depth=1
	ldr	x8, [x23]
	cbz	x8, .LBB2_12
// %bb.14:                              // %then.1.i.i.i.i.i.i.i.i.i.i.i31
                                        //   in Loop: Header=BB2_13 Depth=1
	ldur	x0, [x23, #-16]
	bl	rattle_dealloc
	b	.LBB2_12
.LBB2_15:                               // %"std_alloc::vec::Vec::clear::<#d9b4ebeac28c86f4>.exit.i37"
	cbz	x22, .LBB2_17
// %bb.16:                              // %then.1.i.i.i39
	mov	x0, x20
	bl	rattle_dealloc
.LBB2_17:                               // %"std_alloc::vec::Vec::drop::<#6f17594996420404>.exit"
	mov	w8, #1                          // =0x1
	stp	xzr, xzr, [x19, #16]
	strb	w8, [x19]
	str	xzr, [x19, #8]
	ldp	x20, x19, [sp, #80]             // 16-byte Folded Reload
	ldr	x23, [sp, #48]                  // 8-byte Reload
	ldp	x22, x21, [sp, #64]             // 16-byte Folded Reload
	ldp	x29, x30, [sp, #32]             // 16-byte Folded Reload
	add	sp, sp, #96
	ret
.Lfunc_end2:
	.size	"scq_core::ring::unused", .Lfunc_end2-"scq_core::ring::unused"
                                        // -- End function
	.section	".text.unlikely.std_alloc::vec::Vec::grow_amortized::<#507ac90f59a35348>","ax",@progbits
	.p2align	2                               // -- Begin function std_alloc::vec::Vec::grow_amortized::<#507ac90f59a35348>
	.type	"std_alloc::vec::Vec::grow_amortized::<#507ac90f59a35348>",@function
"std_alloc::vec::Vec::grow_amortized::<#507ac90f59a35348>": // @"std_alloc::vec::Vec::grow_amortized::<#507ac90f59a35348>"
// %bb.0:                               // %start
	ldr	x8, [x0, #8]
	cmn	x8, #1
	b.eq	.LBB3_5
// %bb.1:                               // %join.3
	stp	x29, x30, [sp, #-32]!           // 16-byte Folded Spill
	ldr	x9, [x0, #16]
	cmp	x8, #3
	mov	w10, #3                         // =0x3
	csel	x11, x8, x10, hi
	stp	x20, x19, [sp, #16]             // 16-byte Folded Spill
	mov	x29, sp
	lsl	x10, x9, #1
	add	x12, x11, #1
	lsr	x13, x9, #62
	cmp	x12, x10
	csinc	x10, x10, x11, ls
	cmp	x13, #0
	csinc	x19, x10, x11, eq
	lsr	x11, x19, #58
	cbnz	x11, .LBB3_7
// %bb.2:                               // %join.3.i
	cbz	x9, .LBB3_6
// %bb.3:                               // %then.1.i.i
	mov	x20, x0
	ldr	x0, [x0]
	lsl	x1, x8, #5
	lsl	x2, x19, #5
	mov	w3, #8                          // =0x8
	bl	rattle_realloc
	tbz	w0, #0, .LBB3_7
.LBB3_4:                                // %arm.5.i
	mov	w0, #1                          // =0x1
	str	x1, [x20]
	str	x19, [x20, #16]
	ldp	x20, x19, [sp, #16]             // 16-byte Folded Reload
	ldp	x29, x30, [sp], #32             // 16-byte Folded Reload
	ret
.LBB3_5:
	mov	w0, wzr
	ret
.LBB3_6:                                // %"std_alloc::vec::resize::<#507ac90f59a35348>.exit.i"
	mov	x20, x0
	lsl	x0, x10, #5
	mov	w1, #8                          // =0x8
	bl	rattle_alloc
	tbnz	w0, #0, .LBB3_4
.LBB3_7:
	mov	w0, wzr
	ldp	x20, x19, [sp, #16]             // 16-byte Folded Reload
	ldp	x29, x30, [sp], #32             // 16-byte Folded Reload
	ret
.Lfunc_end3:
	.size	"std_alloc::vec::Vec::grow_amortized::<#507ac90f59a35348>", .Lfunc_end3-"std_alloc::vec::Vec::grow_amortized::<#507ac90f59a35348>"
                                        // -- End function
	.section	".text.unlikely.std_alloc::vec::Vec::grow_amortized::<#ef5d867b459b34f0>","ax",@progbits
	.p2align	2                               // -- Begin function std_alloc::vec::Vec::grow_amortized::<#ef5d867b459b34f0>
	.type	"std_alloc::vec::Vec::grow_amortized::<#ef5d867b459b34f0>",@function
"std_alloc::vec::Vec::grow_amortized::<#ef5d867b459b34f0>": // @"std_alloc::vec::Vec::grow_amortized::<#ef5d867b459b34f0>"
// %bb.0:                               // %start
	ldr	x8, [x0, #8]
	cmn	x8, #1
	b.eq	.LBB4_5
// %bb.1:                               // %join.3
	stp	x29, x30, [sp, #-32]!           // 16-byte Folded Spill
	ldr	x9, [x0, #16]
	cmp	x8, #3
	mov	w10, #3                         // =0x3
	csel	x11, x8, x10, hi
	stp	x20, x19, [sp, #16]             // 16-byte Folded Spill
	mov	x29, sp
	lsl	x10, x9, #1
	add	x12, x11, #1
	lsr	x13, x9, #62
	cmp	x12, x10
	csinc	x10, x10, x11, ls
	cmp	x13, #0
	csinc	x19, x10, x11, eq
	mov	x11, #-6148914691236517206      // =0xaaaaaaaaaaaaaaaa
	movk	x11, #682, lsl #48
	cmp	x19, x11
	b.hi	.LBB4_7
// %bb.2:                               // %join.3.i
	cbz	x9, .LBB4_6
// %bb.3:                               // %then.1.i.i
	add	x8, x8, x8, lsl #1
	add	x9, x19, x19, lsl #1
	mov	x20, x0
	ldr	x0, [x0]
	mov	w3, #8                          // =0x8
	lsl	x1, x8, #4
	lsl	x2, x9, #4
	bl	rattle_realloc
	tbz	w0, #0, .LBB4_7
.LBB4_4:                                // %arm.5.i
	mov	w0, #1                          // =0x1
	str	x1, [x20]
	str	x19, [x20, #16]
	ldp	x20, x19, [sp, #16]             // 16-byte Folded Reload
	ldp	x29, x30, [sp], #32             // 16-byte Folded Reload
	ret
.LBB4_5:
	mov	w0, wzr
	ret
.LBB4_6:                                // %"std_alloc::vec::resize::<#ef5d867b459b34f0>.exit.i"
	add	x8, x10, x10, lsl #1
	mov	x20, x0
	mov	w1, #8                          // =0x8
	lsl	x0, x8, #4
	bl	rattle_alloc
	tbnz	w0, #0, .LBB4_4
.LBB4_7:
	mov	w0, wzr
	ldp	x20, x19, [sp, #16]             // 16-byte Folded Reload
	ldp	x29, x30, [sp], #32             // 16-byte Folded Reload
	ret
.Lfunc_end4:
	.size	"std_alloc::vec::Vec::grow_amortized::<#ef5d867b459b34f0>", .Lfunc_end4-"std_alloc::vec::Vec::grow_amortized::<#ef5d867b459b34f0>"
                                        // -- End function
	.section	".text.core::result::ResultFromResidualErrResidual::from_residual::<#a4ea067403547577>","ax",@progbits
	.p2align	2                               // -- Begin function core::result::ResultFromResidualErrResidual::from_residual::<#a4ea067403547577>
	.type	"core::result::ResultFromResidualErrResidual::from_residual::<#a4ea067403547577>",@function
"core::result::ResultFromResidualErrResidual::from_residual::<#a4ea067403547577>": // @"core::result::ResultFromResidualErrResidual::from_residual::<#a4ea067403547577>"
// %bb.0:                               // %start
	stp	x29, x30, [sp, #-64]!           // 16-byte Folded Spill
	stp	x22, x21, [sp, #32]             // 16-byte Folded Spill
	ldr	x22, [x1, #40]
	mov	x29, sp
	stp	x20, x19, [sp, #48]             // 16-byte Folded Spill
	ldp	x20, x21, [x1, #24]
	mov	x19, x0
	str	x23, [sp, #16]                  // 8-byte Spill
	cbz	x21, .LBB5_5
// %bb.1:                               // %join.5.i.i.i.i.i.i.i.preheader
	add	x23, x20, #24
	b	.LBB5_3
.LBB5_2:                                // %"core::mem::drop::<#46d93e6922d62939>.exit.i.i.i.i.i.i.i"
                                        //   in Loop: Header=BB5_3 Depth=1
	subs	x21, x21, #1
	add	x23, x23, #32
	b.eq	.LBB5_5
.LBB5_3:                                // %join.5.i.i.i.i.i.i.i
                                        // =>This Inner Loop Header: Depth=1
	ldr	x8, [x23]
	cbz	x8, .LBB5_2
// %bb.4:                               // %then.1.i.i.i.i.i.i.i.i.i.i.i.i.i
                                        //   in Loop: Header=BB5_3 Depth=1
	ldur	x0, [x23, #-16]
	bl	rattle_dealloc
	b	.LBB5_2
.LBB5_5:                                // %"std_alloc::vec::Vec::clear::<#d9b4ebeac28c86f4>.exit.i.i.i"
	cbz	x22, .LBB5_7
// %bb.6:                               // %then.1.i.i.i.i.i
	mov	x0, x20
	bl	rattle_dealloc
.LBB5_7:                                // %"scq_word::bytes::NoMemoryFromAllocFailed::from::<#30b1062d78cb4add>.exit"
	mov	w8, #1                          // =0x1
	stp	xzr, xzr, [x19, #16]
	ldr	x23, [sp, #16]                  // 8-byte Reload
	strb	w8, [x19]
	ldp	x22, x21, [sp, #32]             // 16-byte Folded Reload
	str	xzr, [x19, #8]
	ldp	x20, x19, [sp, #48]             // 16-byte Folded Reload
	ldp	x29, x30, [sp], #64             // 16-byte Folded Reload
	ret
.Lfunc_end5:
	.size	"core::result::ResultFromResidualErrResidual::from_residual::<#a4ea067403547577>", .Lfunc_end5-"core::result::ResultFromResidualErrResidual::from_residual::<#a4ea067403547577>"
                                        // -- End function
	.section	".text.unlikely.std_alloc::vec::Vec::grow_amortized::<#53936dfa82b80db8>","ax",@progbits
	.p2align	2                               // -- Begin function std_alloc::vec::Vec::grow_amortized::<#53936dfa82b80db8>
	.type	"std_alloc::vec::Vec::grow_amortized::<#53936dfa82b80db8>",@function
"std_alloc::vec::Vec::grow_amortized::<#53936dfa82b80db8>": // @"std_alloc::vec::Vec::grow_amortized::<#53936dfa82b80db8>"
// %bb.0:                               // %start
	ldr	x8, [x0, #8]
	cmn	x8, #1
	b.eq	.LBB6_5
// %bb.1:                               // %join.3
	stp	x29, x30, [sp, #-32]!           // 16-byte Folded Spill
	ldr	x9, [x0, #16]
	cmp	x8, #3
	mov	w10, #3                         // =0x3
	csel	x11, x8, x10, hi
	stp	x20, x19, [sp, #16]             // 16-byte Folded Spill
	mov	x29, sp
	lsl	x10, x9, #1
	add	x12, x11, #1
	lsr	x13, x9, #62
	cmp	x12, x10
	csinc	x10, x10, x11, ls
	cmp	x13, #0
	csinc	x19, x10, x11, eq
	mov	x11, #1229782938247303441       // =0x1111111111111111
	movk	x11, #273, lsl #48
	cmp	x19, x11
	b.hi	.LBB6_7
// %bb.2:                               // %join.3.i
	cbz	x9, .LBB6_6
// %bb.3:                               // %then.1.i.i
	lsl	x9, x8, #7
	lsl	x10, x19, #7
	mov	x20, x0
	ldr	x0, [x0]
	mov	w3, #8                          // =0x8
	sub	x1, x9, x8, lsl #3
	sub	x2, x10, x19, lsl #3
	bl	rattle_realloc
	tbz	w0, #0, .LBB6_7
.LBB6_4:                                // %arm.5.i
	mov	w0, #1                          // =0x1
	str	x1, [x20]
	str	x19, [x20, #16]
	ldp	x20, x19, [sp, #16]             // 16-byte Folded Reload
	ldp	x29, x30, [sp], #32             // 16-byte Folded Reload
	ret
.LBB6_5:
	mov	w0, wzr
	ret
.LBB6_6:                                // %"std_alloc::vec::resize::<#53936dfa82b80db8>.exit.i"
	lsl	x8, x10, #7
	mov	x20, x0
	mov	w1, #8                          // =0x8
	sub	x0, x8, x10, lsl #3
	bl	rattle_alloc
	tbnz	w0, #0, .LBB6_4
.LBB6_7:
	mov	w0, wzr
	ldp	x20, x19, [sp, #16]             // 16-byte Folded Reload
	ldp	x29, x30, [sp], #32             // 16-byte Folded Reload
	ret
.Lfunc_end6:
	.size	"std_alloc::vec::Vec::grow_amortized::<#53936dfa82b80db8>", .Lfunc_end6-"std_alloc::vec::Vec::grow_amortized::<#53936dfa82b80db8>"
                                        // -- End function
	.section	".text.scq_core::scq_core++seat++Seat+Destruct::drop","ax",@progbits
	.p2align	2                               // -- Begin function scq_core::scq_core++seat++Seat+Destruct::drop
	.type	"scq_core::scq_core++seat++Seat+Destruct::drop",@function
"scq_core::scq_core++seat++Seat+Destruct::drop": // @"scq_core::scq_core++seat++Seat+Destruct::drop"
// %bb.0:                               // %start
	stp	x29, x30, [sp, #-64]!           // 16-byte Folded Spill
	mov	x8, x0
	stp	x22, x21, [sp, #32]             // 16-byte Folded Spill
	ldrb	w10, [x0]
	stp	x20, x19, [sp, #48]             // 16-byte Folded Spill
	ldp	x19, x22, [x0, #96]
	str	x23, [sp, #16]                  // 8-byte Spill
	cmp	w10, #4
	mov	x29, sp
	ldr	x0, [x0, #16]
	ldr	x9, [x8, #32]
	ldr	x20, [x8, #56]
	ldr	x23, [x8, #72]
	ldr	x21, [x8, #112]
	b.le	.LBB7_3
// %bb.1:                               // %start
	sub	w8, w10, #7
	cmp	w8, #10
	b.lo	.LBB7_9
// %bb.2:                               // %start
	cmp	w10, #5
	b	.LBB7_7
.LBB7_3:                                // %start
	cmp	w10, #1
	b.le	.LBB7_6
// %bb.4:                               // %start
	cmp	w10, #2
	b.eq	.LBB7_7
// %bb.5:                               // %start
	cmp	w10, #3
	b	.LBB7_7
.LBB7_6:                                // %start
	cbz	w10, .LBB7_9
.LBB7_7:                                // %arm.2.i
	cbz	x9, .LBB7_9
// %bb.8:                               // %then.1.i.i.i.i28.i
	bl	rattle_dealloc
.LBB7_9:                                // %"scq_core::scq_core++phase++Phase+Destruct::drop.exit"
	cbz	x23, .LBB7_11
// %bb.10:                              // %then.1.i.i.i
	mov	x0, x20
	bl	rattle_dealloc
.LBB7_11:                               // %"std_alloc::vec::Vec::drop::<#964ef028932f272a>.exit"
	cbz	x22, .LBB7_17
// %bb.12:                              // %join.5.i.i.i.i.i.preheader
	add	x20, x19, #32
	b	.LBB7_14
.LBB7_13:                               // %"core::mem::drop::<#773270987f22fc92>.exit.i.i.i.i.i"
                                        //   in Loop: Header=BB7_14 Depth=1
	subs	x22, x22, #1
	add	x20, x20, #40
	b.eq	.LBB7_17
.LBB7_14:                               // %join.5.i.i.i.i.i
                                        // =>This Inner Loop Header: Depth=1
	ldurb	w8, [x20, #-32]
	sub	w9, w8, #2
	cmp	w9, #2
	b.lo	.LBB7_13
// %bb.15:                              // %join.5.i.i.i.i.i
                                        //   in Loop: Header=BB7_14 Depth=1
	ldur	x0, [x20, #-16]
	ldr	x9, [x20]
	cmp	w8, #1
	cbz	x9, .LBB7_13
// %bb.16:                              // %then.1.i.i.i.i4.i.i.i.i.i.i.i
                                        //   in Loop: Header=BB7_14 Depth=1
	bl	rattle_dealloc
	b	.LBB7_13
.LBB7_17:                               // %"std_alloc::vec::Vec::clear::<#e68a003481a252c3>.exit.i"
	cbz	x21, .LBB7_19
// %bb.18:                              // %then.1.i.i.i5
	mov	x0, x19
	ldp	x20, x19, [sp, #48]             // 16-byte Folded Reload
	ldp	x22, x21, [sp, #32]             // 16-byte Folded Reload
	ldr	x23, [sp, #16]                  // 8-byte Reload
	ldp	x29, x30, [sp], #64             // 16-byte Folded Reload
	b	rattle_dealloc
.LBB7_19:                               // %"std_alloc::vec::Vec::drop::<#3b6f7c637c046f01>.exit"
	ldp	x20, x19, [sp, #48]             // 16-byte Folded Reload
	ldr	x23, [sp, #16]                  // 8-byte Reload
	ldp	x22, x21, [sp, #32]             // 16-byte Folded Reload
	ldp	x29, x30, [sp], #64             // 16-byte Folded Reload
	ret
.Lfunc_end7:
	.size	"scq_core::scq_core++seat++Seat+Destruct::drop", .Lfunc_end7-"scq_core::scq_core++seat++Seat+Destruct::drop"
                                        // -- End function
	.section	".text.std_alloc::vec::Vec::drop::<#a9901d079cc70198>","ax",@progbits
	.p2align	2                               // -- Begin function std_alloc::vec::Vec::drop::<#a9901d079cc70198>
	.type	"std_alloc::vec::Vec::drop::<#a9901d079cc70198>",@function
"std_alloc::vec::Vec::drop::<#a9901d079cc70198>": // @"std_alloc::vec::Vec::drop::<#a9901d079cc70198>"
// %bb.0:                               // %start
	stp	x29, x30, [sp, #-80]!           // 16-byte Folded Spill
	stp	x22, x21, [sp, #48]             // 16-byte Folded Spill
	ldr	x22, [x0, #16]
	mov	x29, sp
	stp	x20, x19, [sp, #64]             // 16-byte Folded Spill
	ldp	x19, x21, [x0]
	stp	x26, x25, [sp, #16]             // 16-byte Folded Spill
	stp	x24, x23, [sp, #32]             // 16-byte Folded Spill
	cbz	x21, .LBB8_10
// %bb.1:                               // %join.5.i.i.i.i.preheader
	mov	x23, xzr
	b	.LBB8_3
.LBB8_2:                                // %"core::mem::drop::<#30b1062d78cb4add>.exit.i.i.i.i"
                                        //   in Loop: Header=BB8_3 Depth=1
	add	x23, x23, #1
	cmp	x23, x21
	b.eq	.LBB8_10
.LBB8_3:                                // %join.5.i.i.i.i
                                        // =>This Loop Header: Depth=1
                                        //     Child Loop BB8_6 Depth 2
	mov	w8, #48                         // =0x30
	madd	x8, x23, x8, x19
	ldp	x20, x24, [x8, #24]
	ldr	x25, [x8, #40]
	cbz	x24, .LBB8_8
// %bb.4:                               // %join.5.i.i.i.i.i.i.i.i.i.i.i.preheader
                                        //   in Loop: Header=BB8_3 Depth=1
	add	x26, x20, #24
	b	.LBB8_6
.LBB8_5:                                // %"core::mem::drop::<#46d93e6922d62939>.exit.i.i.i.i.i.i.i.i.i.i.i"
                                        //   in Loop: Header=BB8_6 Depth=2
	subs	x24, x24, #1
	add	x26, x26, #32
	b.eq	.LBB8_8
.LBB8_6:                                // %join.5.i.i.i.i.i.i.i.i.i.i.i
                                        //   Parent Loop BB8_3 Depth=1
                                        // =>  This Inner Loop Header: Depth=2
	ldr	x8, [x26]
	cbz	x8, .LBB8_5
// %bb.7:                               // %then.1.i.i.i.i.i.i.i.i.i.i.i.i.i.i.i.i.i
                                        //   in Loop: Header=BB8_6 Depth=2
	ldur	x0, [x26, #-16]
	bl	rattle_dealloc
	b	.LBB8_5
.LBB8_8:                                // %"std_alloc::vec::Vec::clear::<#d9b4ebeac28c86f4>.exit.i.i.i.i.i.i.i"
                                        //   in Loop: Header=BB8_3 Depth=1
	cbz	x25, .LBB8_2
// %bb.9:                               // %then.1.i.i.i.i.i.i.i.i.i
                                        //   in Loop: Header=BB8_3 Depth=1
	mov	x0, x20
	bl	rattle_dealloc
	b	.LBB8_2
.LBB8_10:                               // %"std_alloc::vec::Vec::clear::<#aea6620ac8b5cb78>.exit"
	cbz	x22, .LBB8_12
// %bb.11:                              // %then.1.i.i
	mov	x0, x19
	ldp	x20, x19, [sp, #64]             // 16-byte Folded Reload
	ldp	x22, x21, [sp, #48]             // 16-byte Folded Reload
	ldp	x24, x23, [sp, #32]             // 16-byte Folded Reload
	ldp	x26, x25, [sp, #16]             // 16-byte Folded Reload
	ldp	x29, x30, [sp], #80             // 16-byte Folded Reload
	b	rattle_dealloc
.LBB8_12:                               // %"std_alloc::vec::Vec::destroy_empty::<#ef5d867b459b34f0>.exit"
	ldp	x20, x19, [sp, #64]             // 16-byte Folded Reload
	ldp	x22, x21, [sp, #48]             // 16-byte Folded Reload
	ldp	x24, x23, [sp, #32]             // 16-byte Folded Reload
	ldp	x26, x25, [sp, #16]             // 16-byte Folded Reload
	ldp	x29, x30, [sp], #80             // 16-byte Folded Reload
	ret
.Lfunc_end8:
	.size	"std_alloc::vec::Vec::drop::<#a9901d079cc70198>", .Lfunc_end8-"std_alloc::vec::Vec::drop::<#a9901d079cc70198>"
                                        // -- End function
	.section	".text.std_alloc::vec::Vec::drop::<#1106f08b0a767d38>","ax",@progbits
	.p2align	2                               // -- Begin function std_alloc::vec::Vec::drop::<#1106f08b0a767d38>
	.type	"std_alloc::vec::Vec::drop::<#1106f08b0a767d38>",@function
"std_alloc::vec::Vec::drop::<#1106f08b0a767d38>": // @"std_alloc::vec::Vec::drop::<#1106f08b0a767d38>"
// %bb.0:                               // %start
	stp	x29, x30, [sp, #-96]!           // 16-byte Folded Spill
	stp	x22, x21, [sp, #64]             // 16-byte Folded Spill
	mov	x29, sp
	stp	x20, x19, [sp, #80]             // 16-byte Folded Spill
	ldp	x19, x22, [x0]
	stp	x24, x23, [sp, #48]             // 16-byte Folded Spill
	ldr	x23, [x0, #16]
	str	x27, [sp, #16]                  // 8-byte Spill
	stp	x26, x25, [sp, #32]             // 16-byte Folded Spill
	cbz	x22, .LBB9_22
// %bb.1:                               // %join.5.i.i.i.i.preheader
	mov	x24, xzr
	b	.LBB9_3
.LBB9_2:                                // %"core::mem::drop::<#cbb15f4d64c82b95>.exit.i.i.i.i"
                                        //   in Loop: Header=BB9_3 Depth=1
	add	x24, x24, #1
	cmp	x24, x22
	b.eq	.LBB9_22
.LBB9_3:                                // %join.5.i.i.i.i
                                        // =>This Loop Header: Depth=1
                                        //     Child Loop BB9_16 Depth 2
	mov	w8, #120                        // =0x78
	madd	x10, x24, x8, x19
	ldrb	w9, [x10]
	ldp	x20, x26, [x10, #96]
	ldr	x0, [x10, #16]
	ldr	x8, [x10, #32]
	ldr	x21, [x10, #56]
	ldr	x27, [x10, #72]
	ldr	x25, [x10, #112]
	cmp	w9, #4
	b.le	.LBB9_6
// %bb.4:                               // %join.5.i.i.i.i
                                        //   in Loop: Header=BB9_3 Depth=1
	sub	w10, w9, #7
	cmp	w10, #10
	b.lo	.LBB9_11
// %bb.5:                               // %join.5.i.i.i.i
                                        //   in Loop: Header=BB9_3 Depth=1
	cmp	w9, #5
	b	.LBB9_9
.LBB9_6:                                // %join.5.i.i.i.i
                                        //   in Loop: Header=BB9_3 Depth=1
	cmp	w9, #1
	b.le	.LBB9_21
// %bb.7:                               // %join.5.i.i.i.i
                                        //   in Loop: Header=BB9_3 Depth=1
	cmp	w9, #2
	b.eq	.LBB9_9
// %bb.8:                               // %join.5.i.i.i.i
                                        //   in Loop: Header=BB9_3 Depth=1
	cmp	w9, #3
.LBB9_9:                                // %arm.7.i.i.i.i.i.i.i
                                        //   in Loop: Header=BB9_3 Depth=1
	cbz	x8, .LBB9_11
.LBB9_10:                               // %then.1.i.i.i.i28.i.i.i.i.i.i.i
                                        //   in Loop: Header=BB9_3 Depth=1
	bl	rattle_dealloc
.LBB9_11:                               // %"scq_band::scq_core++phase++Phase+Destruct::drop.exit.i.i.i.i.i.i"
                                        //   in Loop: Header=BB9_3 Depth=1
	cbz	x27, .LBB9_13
// %bb.12:                              // %then.1.i.i.i.i.i.i.i.i.i
                                        //   in Loop: Header=BB9_3 Depth=1
	mov	x0, x21
	bl	rattle_dealloc
.LBB9_13:                               // %"std_alloc::vec::Vec::drop::<#8196a731e3ad037a>.exit.i.i.i.i.i.i"
                                        //   in Loop: Header=BB9_3 Depth=1
	cbz	x26, .LBB9_19
// %bb.14:                              // %join.5.i.i.i.i.i.i.i.i.i.i.i.preheader
                                        //   in Loop: Header=BB9_3 Depth=1
	add	x21, x20, #32
	b	.LBB9_16
.LBB9_15:                               // %"core::mem::drop::<#db54ccec64da8cfa>.exit.i.i.i.i.i.i.i.i.i.i.i"
                                        //   in Loop: Header=BB9_16 Depth=2
	subs	x26, x26, #1
	add	x21, x21, #40
	b.eq	.LBB9_19
.LBB9_16:                               // %join.5.i.i.i.i.i.i.i.i.i.i.i
                                        //   Parent Loop BB9_3 Depth=1
                                        // =>  This Inner Loop Header: Depth=2
	ldurb	w8, [x21, #-32]
	sub	w9, w8, #2
	cmp	w9, #2
	b.lo	.LBB9_15
// %bb.17:                              // %join.5.i.i.i.i.i.i.i.i.i.i.i
                                        //   in Loop: Header=BB9_16 Depth=2
	ldur	x0, [x21, #-16]
	ldr	x9, [x21]
	cmp	w8, #1
	cbz	x9, .LBB9_15
// %bb.18:                              // %then.1.i.i.i.i4.i.i.i.i.i.i.i.i.i.i.i.i.i
                                        //   in Loop: Header=BB9_16 Depth=2
	bl	rattle_dealloc
	b	.LBB9_15
.LBB9_19:                               // %"std_alloc::vec::Vec::clear::<#eac3750c96899d7f>.exit.i.i.i.i.i.i.i"
                                        //   in Loop: Header=BB9_3 Depth=1
	cbz	x25, .LBB9_2
// %bb.20:                              // %then.1.i.i.i5.i.i.i.i.i.i
                                        //   in Loop: Header=BB9_3 Depth=1
	mov	x0, x20
	bl	rattle_dealloc
	b	.LBB9_2
.LBB9_21:                               // %join.5.i.i.i.i
                                        //   in Loop: Header=BB9_3 Depth=1
	cmp	w9, #0
	ccmp	x8, #0, #4, ne
	b.eq	.LBB9_11
	b	.LBB9_10
.LBB9_22:                               // %"std_alloc::vec::Vec::clear::<#9dd95f5b50319698>.exit"
	cbz	x23, .LBB9_24
// %bb.23:                              // %then.1.i.i
	mov	x0, x19
	ldp	x20, x19, [sp, #80]             // 16-byte Folded Reload
	ldp	x22, x21, [sp, #64]             // 16-byte Folded Reload
	ldr	x27, [sp, #16]                  // 8-byte Reload
	ldp	x24, x23, [sp, #48]             // 16-byte Folded Reload
	ldp	x26, x25, [sp, #32]             // 16-byte Folded Reload
	ldp	x29, x30, [sp], #96             // 16-byte Folded Reload
	b	rattle_dealloc
.LBB9_24:                               // %"std_alloc::vec::Vec::destroy_empty::<#5764fcc4479dc4f8>.exit"
	ldp	x20, x19, [sp, #80]             // 16-byte Folded Reload
	ldr	x27, [sp, #16]                  // 8-byte Reload
	ldp	x22, x21, [sp, #64]             // 16-byte Folded Reload
	ldp	x24, x23, [sp, #48]             // 16-byte Folded Reload
	ldp	x26, x25, [sp, #32]             // 16-byte Folded Reload
	ldp	x29, x30, [sp], #96             // 16-byte Folded Reload
	ret
.Lfunc_end9:
	.size	"std_alloc::vec::Vec::drop::<#1106f08b0a767d38>", .Lfunc_end9-"std_alloc::vec::Vec::drop::<#1106f08b0a767d38>"
                                        // -- End function
	.section	".text.unlikely.std_alloc::vec::Vec::grow_amortized::<#b2b1aaf14fd9827c>","ax",@progbits
	.p2align	2                               // -- Begin function std_alloc::vec::Vec::grow_amortized::<#b2b1aaf14fd9827c>
	.type	"std_alloc::vec::Vec::grow_amortized::<#b2b1aaf14fd9827c>",@function
"std_alloc::vec::Vec::grow_amortized::<#b2b1aaf14fd9827c>": // @"std_alloc::vec::Vec::grow_amortized::<#b2b1aaf14fd9827c>"
// %bb.0:                               // %start
	ldr	x8, [x0, #8]
	cmn	x8, #1
	b.eq	.LBB10_5
// %bb.1:                               // %join.3
	stp	x29, x30, [sp, #-32]!           // 16-byte Folded Spill
	ldr	x9, [x0, #16]
	cmp	x8, #3
	mov	w10, #3                         // =0x3
	csel	x11, x8, x10, hi
	stp	x20, x19, [sp, #16]             // 16-byte Folded Spill
	mov	x29, sp
	lsl	x10, x9, #1
	add	x12, x11, #1
	lsr	x13, x9, #62
	cmp	x12, x10
	csinc	x10, x10, x11, ls
	cmp	x13, #0
	csinc	x19, x10, x11, eq
	mov	x11, #29127                     // =0x71c7
	movk	x11, #50972, lsl #16
	movk	x11, #7281, lsl #32
	movk	x11, #455, lsl #48
	cmp	x19, x11
	b.hi	.LBB10_7
// %bb.2:                               // %join.3.i
	cbz	x9, .LBB10_6
// %bb.3:                               // %then.1.i.i
	add	x8, x8, x8, lsl #3
	add	x9, x19, x19, lsl #3
	mov	x20, x0
	ldr	x0, [x0]
	mov	w3, #8                          // =0x8
	lsl	x1, x8, #3
	lsl	x2, x9, #3
	bl	rattle_realloc
	tbz	w0, #0, .LBB10_7
.LBB10_4:                               // %arm.5.i
	mov	w0, #1                          // =0x1
	str	x1, [x20]
	str	x19, [x20, #16]
	ldp	x20, x19, [sp, #16]             // 16-byte Folded Reload
	ldp	x29, x30, [sp], #32             // 16-byte Folded Reload
	ret
.LBB10_5:
	mov	w0, wzr
	ret
.LBB10_6:                               // %"std_alloc::vec::resize::<#b2b1aaf14fd9827c>.exit.i"
	add	x8, x10, x10, lsl #3
	mov	x20, x0
	mov	w1, #8                          // =0x8
	lsl	x0, x8, #3
	bl	rattle_alloc
	tbnz	w0, #0, .LBB10_4
.LBB10_7:
	mov	w0, wzr
	ldp	x20, x19, [sp, #16]             // 16-byte Folded Reload
	ldp	x29, x30, [sp], #32             // 16-byte Folded Reload
	ret
.Lfunc_end10:
	.size	"std_alloc::vec::Vec::grow_amortized::<#b2b1aaf14fd9827c>", .Lfunc_end10-"std_alloc::vec::Vec::grow_amortized::<#b2b1aaf14fd9827c>"
                                        // -- End function
	.section	".text.unlikely.std_alloc::vec::Vec::grow_amortized::<#95ea9c2a17c64412>","ax",@progbits
	.p2align	2                               // -- Begin function std_alloc::vec::Vec::grow_amortized::<#95ea9c2a17c64412>
	.type	"std_alloc::vec::Vec::grow_amortized::<#95ea9c2a17c64412>",@function
"std_alloc::vec::Vec::grow_amortized::<#95ea9c2a17c64412>": // @"std_alloc::vec::Vec::grow_amortized::<#95ea9c2a17c64412>"
// %bb.0:                               // %start
	ldr	x8, [x0, #8]
	cmn	x8, #1
	b.eq	.LBB11_5
// %bb.1:                               // %join.3
	stp	x29, x30, [sp, #-32]!           // 16-byte Folded Spill
	ldr	x9, [x0, #16]
	cmp	x8, #3
	mov	w10, #3                         // =0x3
	csel	x11, x8, x10, hi
	stp	x20, x19, [sp, #16]             // 16-byte Folded Spill
	mov	x29, sp
	lsl	x10, x9, #1
	add	x12, x11, #1
	lsr	x13, x9, #62
	cmp	x12, x10
	csinc	x10, x10, x11, ls
	cmp	x13, #0
	csinc	x19, x10, x11, eq
	mov	x11, #6148914691236517205       // =0x5555555555555555
	movk	x11, #1365, lsl #48
	cmp	x19, x11
	b.hi	.LBB11_7
// %bb.2:                               // %join.3.i
	cbz	x9, .LBB11_6
// %bb.3:                               // %then.1.i.i
	add	x8, x8, x8, lsl #1
	add	x9, x19, x19, lsl #1
	mov	x20, x0
	ldr	x0, [x0]
	mov	w3, #8                          // =0x8
	lsl	x1, x8, #3
	lsl	x2, x9, #3
	bl	rattle_realloc
	tbz	w0, #0, .LBB11_7
.LBB11_4:                               // %arm.5.i
	mov	w0, #1                          // =0x1
	str	x1, [x20]
	str	x19, [x20, #16]
	ldp	x20, x19, [sp, #16]             // 16-byte Folded Reload
	ldp	x29, x30, [sp], #32             // 16-byte Folded Reload
	ret
.LBB11_5:
	mov	w0, wzr
	ret
.LBB11_6:                               // %"std_alloc::vec::resize::<#95ea9c2a17c64412>.exit.i"
	add	x8, x10, x10, lsl #1
	mov	x20, x0
	mov	w1, #8                          // =0x8
	lsl	x0, x8, #3
	bl	rattle_alloc
	tbnz	w0, #0, .LBB11_4
.LBB11_7:
	mov	w0, wzr
	ldp	x20, x19, [sp, #16]             // 16-byte Folded Reload
	ldp	x29, x30, [sp], #32             // 16-byte Folded Reload
	ret
.Lfunc_end11:
	.size	"std_alloc::vec::Vec::grow_amortized::<#95ea9c2a17c64412>", .Lfunc_end11-"std_alloc::vec::Vec::grow_amortized::<#95ea9c2a17c64412>"
                                        // -- End function
	.section	".text.unlikely.std_alloc::vec::Vec::grow_amortized::<#5defbd33e8555760>","ax",@progbits
	.p2align	2                               // -- Begin function std_alloc::vec::Vec::grow_amortized::<#5defbd33e8555760>
	.type	"std_alloc::vec::Vec::grow_amortized::<#5defbd33e8555760>",@function
"std_alloc::vec::Vec::grow_amortized::<#5defbd33e8555760>": // @"std_alloc::vec::Vec::grow_amortized::<#5defbd33e8555760>"
// %bb.0:                               // %start
	ldr	x8, [x0, #8]
	cmn	x8, #1
	b.eq	.LBB12_5
// %bb.1:                               // %join.3
	stp	x29, x30, [sp, #-32]!           // 16-byte Folded Spill
	ldr	x9, [x0, #16]
	cmp	x8, #3
	mov	w10, #3                         // =0x3
	csel	x11, x8, x10, hi
	stp	x20, x19, [sp, #16]             // 16-byte Folded Spill
	mov	x29, sp
	lsl	x10, x9, #1
	add	x12, x11, #1
	lsr	x13, x9, #62
	cmp	x12, x10
	csinc	x10, x10, x11, ls
	cmp	x13, #0
	csinc	x19, x10, x11, eq
	mov	x11, #-6148914691236517206      // =0xaaaaaaaaaaaaaaaa
	movk	x11, #682, lsl #48
	cmp	x19, x11
	b.hi	.LBB12_7
// %bb.2:                               // %join.3.i
	cbz	x9, .LBB12_6
// %bb.3:                               // %then.1.i.i
	add	x8, x8, x8, lsl #1
	add	x9, x19, x19, lsl #1
	mov	x20, x0
	ldr	x0, [x0]
	mov	w3, #8                          // =0x8
	lsl	x1, x8, #4
	lsl	x2, x9, #4
	bl	rattle_realloc
	tbz	w0, #0, .LBB12_7
.LBB12_4:                               // %arm.5.i
	mov	w0, #1                          // =0x1
	str	x1, [x20]
	str	x19, [x20, #16]
	ldp	x20, x19, [sp, #16]             // 16-byte Folded Reload
	ldp	x29, x30, [sp], #32             // 16-byte Folded Reload
	ret
.LBB12_5:
	mov	w0, wzr
	ret
.LBB12_6:                               // %"std_alloc::vec::resize::<#5defbd33e8555760>.exit.i"
	add	x8, x10, x10, lsl #1
	mov	x20, x0
	mov	w1, #8                          // =0x8
	lsl	x0, x8, #4
	bl	rattle_alloc
	tbnz	w0, #0, .LBB12_4
.LBB12_7:
	mov	w0, wzr
	ldp	x20, x19, [sp, #16]             // 16-byte Folded Reload
	ldp	x29, x30, [sp], #32             // 16-byte Folded Reload
	ret
.Lfunc_end12:
	.size	"std_alloc::vec::Vec::grow_amortized::<#5defbd33e8555760>", .Lfunc_end12-"std_alloc::vec::Vec::grow_amortized::<#5defbd33e8555760>"
                                        // -- End function
	.section	".text.scq_band::splitting::split_all::<#aae3f6a89b556e54>","ax",@progbits
	.p2align	2                               // -- Begin function scq_band::splitting::split_all::<#aae3f6a89b556e54>
	.type	"scq_band::splitting::split_all::<#aae3f6a89b556e54>",@function
"scq_band::splitting::split_all::<#aae3f6a89b556e54>": // @"scq_band::splitting::split_all::<#aae3f6a89b556e54>"
// %bb.0:                               // %start
	sub	sp, sp, #176
	movi	v0.2d, #0000000000000000
	stp	x22, x21, [sp, #144]            // 16-byte Folded Spill
	stp	x20, x19, [sp, #160]            // 16-byte Folded Spill
	ldp	x20, x8, [x2]
	ldp	x21, x22, [x3]
	mov	x19, x0
	stp	x24, x23, [sp, #128]            // 16-byte Folded Spill
	ldr	x24, [x2, #16]
	ldr	x23, [x3, #16]
	stp	x29, x30, [sp, #112]            // 16-byte Folded Spill
	add	x29, sp, #112
	stp	q0, q0, [sp]
	str	q0, [sp, #32]
	cbz	x8, .LBB13_3
// %bb.1:                               // %arm.3.lr.ph
	mov	w9, #48                         // =0x30
	add	x11, x21, x22, lsl #6
	add	x22, x8, x22
	madd	x10, x8, x9, x20
	mov	x9, sp
	add	x11, x11, #24
	sub	x10, x10, #24
.LBB13_2:                               // %arm.3
                                        // =>This Inner Loop Header: Depth=1
	ldur	q0, [x10, #-24]
	ldur	x12, [x10, #-8]
	sub	x8, x8, #1
	ldr	q1, [x10]
	ldr	x13, [x10, #16]
	sub	x10, x10, #48
	stur	q0, [x29, #-32]
	stur	x12, [x29, #-16]
	str	q1, [sp, #48]
	str	x13, [sp, #64]
	//APP
	//NO_APP
	ldar	xzr, [x1]
	//APP
	//NO_APP
	str	xzr, [x11, #32]
	ldr	q0, [sp, #48]
	ldur	x12, [x29, #-16]
	ldr	x13, [sp, #64]
	ldur	q1, [x29, #-32]
	stur	q0, [x9, #24]
	ldur	q0, [x9, #24]
	str	x12, [sp, #16]
	stur	x12, [x11, #-8]
	stur	q1, [x11, #-24]
	str	q0, [x11]
	stp	x13, xzr, [x11, #16]
	add	x11, x11, #64
	stur	x13, [x9, #40]
	str	q1, [sp]
	cbnz	x8, .LBB13_2
.LBB13_3:                               // %after.1
	mov	x0, x21
	mov	x1, x22
	bl	"core::slice::edits::slice+T::reverse::<41'scq_band::seat::Seat::<#5ff1ac3e48fe92e9>>"
	cbz	x24, .LBB13_5
// %bb.4:                               // %then.1.i.i.i
	mov	x0, x20
	bl	rattle_dealloc
.LBB13_5:                               // %"std_alloc::vec::Vec::drop::<#d7f15c36f98b15b9>.exit"
	stp	x21, x22, [x19]
	ldp	x22, x21, [sp, #144]            // 16-byte Folded Reload
	str	x23, [x19, #16]
	ldp	x20, x19, [sp, #160]            // 16-byte Folded Reload
	ldp	x24, x23, [sp, #128]            // 16-byte Folded Reload
	ldp	x29, x30, [sp, #112]            // 16-byte Folded Reload
	add	sp, sp, #176
	ret
.Lfunc_end13:
	.size	"scq_band::splitting::split_all::<#aae3f6a89b556e54>", .Lfunc_end13-"scq_band::splitting::split_all::<#aae3f6a89b556e54>"
                                        // -- End function
	.section	".text.core::slice::edits::slice+T::reverse::<41'scq_band::seat::Seat::<#5ff1ac3e48fe92e9>>","ax",@progbits
	.p2align	2                               // -- Begin function core::slice::edits::slice+T::reverse::<41'scq_band::seat::Seat::<#5ff1ac3e48fe92e9>>
	.type	"core::slice::edits::slice+T::reverse::<41'scq_band::seat::Seat::<#5ff1ac3e48fe92e9>>",@function
"core::slice::edits::slice+T::reverse::<41'scq_band::seat::Seat::<#5ff1ac3e48fe92e9>>": // @"core::slice::edits::slice+T::reverse::<41'scq_band::seat::Seat::<#5ff1ac3e48fe92e9>>"
// %bb.0:                               // %start
	cmp	x1, #15
	b.ls	.LBB14_2
// %bb.1:                               // %then.1.i
	lsr	x2, x1, #1
	sub	x8, x1, x2
	add	x1, x0, x8, lsl #6
	b	"core::slice::edits::mirror::<41'scq_band::seat::Seat::<#5ff1ac3e48fe92e9>>"
.LBB14_2:                               // %loop.5.preheader.i
	subs	x10, x1, #2
	b.lo	.LBB14_10
// %bb.3:                               // %join.8.lr.ph.i
	sub	sp, sp, #48
	lsr	x13, x10, #1
	lsl	x10, x1, #6
	mov	x8, xzr
	mov	x9, xzr
	mov	x11, sp
	sub	x12, x1, #1
	add	x13, x13, #1
	b	.LBB14_6
.LBB14_4:                               // %then.1.i.i
                                        //   in Loop: Header=BB14_6 Depth=1
	add	x14, x0, x8
	add	x15, x0, x10
	ldr	q0, [x14]
	ldr	x16, [x14, #16]
	ldur	x18, [x15, #-48]
	ldurb	w17, [x15, #-16]
	ldr	x1, [x14, #40]
	str	q0, [sp]
	ldur	q0, [x15, #-64]
	str	x16, [sp, #16]
	ldur	x16, [x15, #-8]
	str	q0, [x14]
	ldur	q0, [x14, #24]
	str	x18, [x14, #16]
	stur	q0, [x11, #24]
	ldur	q0, [x15, #-40]
	ldur	x18, [x15, #-24]
	stur	x1, [x11, #40]
	ldrb	w1, [x14, #48]
	stur	q0, [x14, #24]
	ldr	q0, [sp]
	stp	x18, x17, [x14, #40]
	ldr	x17, [x14, #56]
	str	x16, [x14, #56]
	ldr	x14, [sp, #16]
	stur	q0, [x15, #-64]
	ldur	q0, [x11, #24]
	stur	x14, [x15, #-48]
	ldur	x14, [x11, #40]
	stur	q0, [x15, #-40]
	stp	x14, x1, [x15, #-24]
	stur	x17, [x15, #-8]
.LBB14_5:                               // %"core::slice::edits::slice+T::swap::<41'scq_band::seat::Seat::<#5ff1ac3e48fe92e9>>.exit.i"
                                        //   in Loop: Header=BB14_6 Depth=1
	add	x9, x9, #1
	add	x8, x8, #64
	sub	x12, x12, #1
	cmp	x13, x9
	sub	x10, x10, #64
	b.eq	.LBB14_9
.LBB14_6:                               // %join.8.i
                                        // =>This Inner Loop Header: Depth=1
	cmp	x9, x12
	b.lo	.LBB14_4
// %bb.7:                               // %else.2.i.i
                                        //   in Loop: Header=BB14_6 Depth=1
	cmp	x12, x9
	b.hs	.LBB14_5
// %bb.8:                               // %then.4.i.i
                                        //   in Loop: Header=BB14_6 Depth=1
	add	x14, x0, x10
	add	x15, x0, x8
	ldur	q0, [x14, #-64]
	ldur	x16, [x14, #-48]
	ldr	x18, [x15, #16]
	ldrb	w17, [x15, #48]
	ldur	x1, [x14, #-24]
	str	q0, [sp]
	ldr	q0, [x15]
	str	x16, [sp, #16]
	ldr	x16, [x15, #56]
	stur	q0, [x14, #-64]
	ldur	q0, [x14, #-40]
	stur	x18, [x14, #-48]
	stur	q0, [x11, #24]
	ldur	q0, [x15, #24]
	ldr	x18, [x15, #40]
	stur	x1, [x11, #40]
	ldurb	w1, [x14, #-16]
	stur	q0, [x14, #-40]
	ldr	q0, [sp]
	stp	x18, x17, [x14, #-24]
	ldur	x17, [x14, #-8]
	stur	x16, [x14, #-8]
	ldr	x14, [sp, #16]
	str	q0, [x15]
	ldur	q0, [x11, #24]
	str	x14, [x15, #16]
	ldur	x14, [x11, #40]
	stur	q0, [x15, #24]
	stp	x14, x1, [x15, #40]
	str	x17, [x15, #56]
	b	.LBB14_5
.LBB14_9:
	add	sp, sp, #48
.LBB14_10:                              // %"core::slice::edits::reverse_between::<41'scq_band::seat::Seat::<#5ff1ac3e48fe92e9>>.exit"
	ret
.Lfunc_end14:
	.size	"core::slice::edits::slice+T::reverse::<41'scq_band::seat::Seat::<#5ff1ac3e48fe92e9>>", .Lfunc_end14-"core::slice::edits::slice+T::reverse::<41'scq_band::seat::Seat::<#5ff1ac3e48fe92e9>>"
                                        // -- End function
	.section	".text.core::slice::edits::mirror::<41'scq_band::seat::Seat::<#5ff1ac3e48fe92e9>>","ax",@progbits
	.p2align	2                               // -- Begin function core::slice::edits::mirror::<41'scq_band::seat::Seat::<#5ff1ac3e48fe92e9>>
	.type	"core::slice::edits::mirror::<41'scq_band::seat::Seat::<#5ff1ac3e48fe92e9>>",@function
"core::slice::edits::mirror::<41'scq_band::seat::Seat::<#5ff1ac3e48fe92e9>>": // @"core::slice::edits::mirror::<41'scq_band::seat::Seat::<#5ff1ac3e48fe92e9>>"
// %bb.0:                               // %start
	sub	sp, sp, #96
	add	x10, x1, x2, lsl #6
	add	x8, sp, #48
	mov	x9, sp
	sub	x10, x10, #16
.LBB15_1:                               // %join.5
                                        // =>This Inner Loop Header: Depth=1
	ldr	q0, [x0]
	ldr	x11, [x0, #16]
	sub	x2, x2, #1
	ldr	x12, [x0, #40]
	ldr	x13, [x10, #8]
	ldrb	w14, [x0, #48]
	str	q0, [sp, #48]
	ldur	q0, [x0, #24]
	str	x11, [sp, #64]
	ldur	x11, [x10, #-8]
	stur	q0, [x8, #24]
	ldur	q0, [x10, #-24]
	stur	x12, [x8, #40]
	ldur	x12, [x10, #-32]
	stur	q0, [x9, #24]
	ldur	q0, [x10, #-48]
	stur	x11, [x9, #40]
	ldrb	w11, [x10]
	str	q0, [x0]
	ldur	q0, [x9, #24]
	str	x12, [x0, #16]
	ldur	x12, [x9, #40]
	stur	q0, [x0, #24]
	ldr	q0, [sp, #48]
	stp	x12, x11, [x0, #40]
	ldr	x12, [sp, #64]
	ldr	x11, [x0, #56]
	str	x13, [x0, #56]
	add	x0, x0, #64
	stur	q0, [x10, #-48]
	ldur	q0, [x8, #24]
	stur	x12, [x10, #-32]
	ldur	x12, [x8, #40]
	stur	q0, [x10, #-24]
	stp	x12, x14, [x10, #-8]
	str	x11, [x10, #8]
	sub	x10, x10, #64
	cbnz	x2, .LBB15_1
// %bb.2:                               // %after.1
	add	sp, sp, #96
	ret
.Lfunc_end15:
	.size	"core::slice::edits::mirror::<41'scq_band::seat::Seat::<#5ff1ac3e48fe92e9>>", .Lfunc_end15-"core::slice::edits::mirror::<41'scq_band::seat::Seat::<#5ff1ac3e48fe92e9>>"
                                        // -- End function
	.section	".text.scq_queue::queue::passes_of::<#aae3f6a89b556e54>","ax",@progbits
	.p2align	2                               // -- Begin function scq_queue::queue::passes_of::<#aae3f6a89b556e54>
	.type	"scq_queue::queue::passes_of::<#aae3f6a89b556e54>",@function
"scq_queue::queue::passes_of::<#aae3f6a89b556e54>": // @"scq_queue::queue::passes_of::<#aae3f6a89b556e54>"
// %bb.0:                               // %start
	sub	sp, sp, #160
	stp	x20, x19, [sp, #144]            // 16-byte Folded Spill
	mov	x19, x1
	mov	x20, x0
	ldp	x8, x1, [x1]
	stp	x22, x21, [sp, #128]            // 16-byte Folded Spill
	ldp	x21, x22, [x2]
	str	x23, [sp, #112]                 // 8-byte Spill
	ldr	x23, [x2, #16]
	stp	x29, x30, [sp, #96]             // 16-byte Folded Spill
	add	x29, sp, #96
	mov	x0, x8
	bl	"core::slice::edits::slice+T::reverse::<41'scq_band::seat::Seat::<#5ff1ac3e48fe92e9>>"
	ldr	x10, [x19, #8]
	cbz	x10, .LBB16_3
// %bb.1:                               // %arm.3.lr.ph
	mov	w8, #96                         // =0x60
	madd	x9, x22, x8, x21
	add	x8, sp, #48
	add	x9, x9, #64
.LBB16_2:                               // %arm.3
                                        // =>This Inner Loop Header: Depth=1
	ldr	x11, [x19]
	sub	x10, x10, #1
	add	x22, x22, #1
	str	x10, [x19, #8]
	add	x11, x11, x10, lsl #6
	ldr	x10, [x11, #16]
	ldur	q0, [x11, #24]
	ldr	x12, [x11, #40]
	ldr	q1, [x11]
	str	x10, [sp, #64]
	ldrb	w10, [x11, #48]
	ldr	x11, [x11, #56]
	stur	q0, [x8, #24]
	stur	x12, [x8, #40]
	ldp	q0, q2, [sp, #64]
	stp	x10, x11, [x9, #-16]
	stp	q1, q0, [sp]
	stp	q2, q1, [sp, #32]
	ldp	q0, q2, [sp]
	stp	q0, q2, [x9, #-64]
	movi	v0.2d, #0000000000000000
	ldr	q2, [sp, #32]
	stur	q2, [x9, #-32]
	stp	q0, q0, [x9], #96
	ldr	x10, [x19, #8]
	cbnz	x10, .LBB16_2
.LBB16_3:                               // %after.1
	stp	x21, x22, [x20]
	ldp	x22, x21, [sp, #128]            // 16-byte Folded Reload
	str	x23, [x20, #16]
	ldr	x23, [sp, #112]                 // 8-byte Reload
	ldp	x20, x19, [sp, #144]            // 16-byte Folded Reload
	ldp	x29, x30, [sp, #96]             // 16-byte Folded Reload
	add	sp, sp, #160
	ret
.Lfunc_end16:
	.size	"scq_queue::queue::passes_of::<#aae3f6a89b556e54>", .Lfunc_end16-"scq_queue::queue::passes_of::<#aae3f6a89b556e54>"
                                        // -- End function
	.section	".text.scq_queue::queue::Queue::abandon::<#a764f8bb96b57390>","ax",@progbits
	.p2align	2                               // -- Begin function scq_queue::queue::Queue::abandon::<#a764f8bb96b57390>
	.type	"scq_queue::queue::Queue::abandon::<#a764f8bb96b57390>",@function
"scq_queue::queue::Queue::abandon::<#a764f8bb96b57390>": // @"scq_queue::queue::Queue::abandon::<#a764f8bb96b57390>"
// %bb.0:                               // %start
	sub	sp, sp, #128
	ldr	x8, [x0, #88]
	stp	x28, x27, [sp, #48]             // 16-byte Folded Spill
	stp	x24, x23, [sp, #80]             // 16-byte Folded Spill
	ldr	x23, [x0, #32]
	str	x8, [sp]                        // 8-byte Spill
	ldp	x28, x8, [x0, #104]
	stp	x29, x30, [sp, #32]             // 16-byte Folded Spill
	add	x29, sp, #32
	stp	x20, x19, [sp, #112]            // 16-byte Folded Spill
	ldp	x20, x19, [x0, #168]
	str	x8, [sp, #8]                    // 8-byte Spill
	ldp	x27, x8, [x0, #128]
	stp	x26, x25, [sp, #64]             // 16-byte Folded Spill
	ldr	x25, [x0, #184]
	stp	x22, x21, [sp, #96]             // 16-byte Folded Spill
	ldr	x22, [x0, #48]
	ldr	x21, [x0, #200]
	str	x8, [sp, #16]                   // 8-byte Spill
	ldp	x8, x24, [x0, #152]
	stur	x8, [x29, #-8]                  // 8-byte Folded Spill
	ldr	x8, [x0, #224]
	cbz	x8, .LBB17_2
// %bb.1:                               // %then.1.i.i.i
	ldr	x0, [x0, #208]
	bl	rattle_dealloc
.LBB17_2:                               // %"std_alloc::vec::Vec::drop::<#ab7d2d06fea1ae0d>.exit"
	cbz	x21, .LBB17_4
// %bb.3:                               // %then.1.i.i.i4
	mov	x0, x25
	bl	rattle_dealloc
.LBB17_4:                               // %"std_alloc::vec::Vec::drop::<#ef7b945cfcdca3a1>.exit"
	cbz	x20, .LBB17_11
// %bb.5:                               // %join.5.i.i.i.i.i.preheader
	add	x21, x24, #24
	b	.LBB17_7
.LBB17_6:                               // %"core::mem::drop::<#f43a2d4f386d3816>.exit.i.i.i.i.i"
                                        //   in Loop: Header=BB17_7 Depth=1
	subs	x20, x20, #1
	add	x21, x21, #64
	b.eq	.LBB17_11
.LBB17_7:                               // %join.5.i.i.i.i.i
                                        // =>This Inner Loop Header: Depth=1
	ldp	x8, x25, [x21, #-8]
	ldr	x26, [x21, #16]
	cbz	x8, .LBB17_9
// %bb.8:                               // %then.1.i.i.i.i.i.i.i.i.i.i
                                        //   in Loop: Header=BB17_7 Depth=1
	ldur	x0, [x21, #-24]
	bl	rattle_dealloc
.LBB17_9:                               // %"std_alloc::vec::Vec::drop::<#ab7d2d06fea1ae0d>.exit.i.i.i.i.i.i.i"
                                        //   in Loop: Header=BB17_7 Depth=1
	cbz	x26, .LBB17_6
// %bb.10:                              // %then.1.i.i.i4.i.i.i.i.i.i.i
                                        //   in Loop: Header=BB17_7 Depth=1
	mov	x0, x25
	bl	rattle_dealloc
	b	.LBB17_6
.LBB17_11:                              // %"std_alloc::vec::Vec::clear::<#e2257b89cd47e954>.exit.i"
	cbz	x19, .LBB17_13
// %bb.12:                              // %then.1.i.i.i10
	mov	x0, x24
	bl	rattle_dealloc
.LBB17_13:                              // %"std_alloc::vec::Vec::drop::<#509447ac6c3aff8e>.exit"
	mov	x0, x23
	bl	rattle_dealloc
	mov	x0, x22
	bl	rattle_dealloc
	cbz	x28, .LBB17_15
// %bb.14:                              // %then.1.i.i.i14
	ldr	x0, [sp]                        // 8-byte Reload
	bl	rattle_dealloc
.LBB17_15:                              // %"std_alloc::vec::Vec::drop::<#b736de8d51cc5346>.exit"
	cbz	x27, .LBB17_17
// %bb.16:                              // %then.1.i.i.i19
	ldr	x0, [sp, #8]                    // 8-byte Reload
	bl	rattle_dealloc
.LBB17_17:                              // %"std_alloc::vec::Vec::drop::<#8552057d871d872a>.exit"
	ldur	x8, [x29, #-8]                  // 8-byte Folded Reload
	cbz	x8, .LBB17_19
// %bb.18:                              // %then.1.i.i.i24
	ldp	x20, x19, [sp, #112]            // 16-byte Folded Reload
	ldr	x0, [sp, #16]                   // 8-byte Reload
	ldp	x22, x21, [sp, #96]             // 16-byte Folded Reload
	ldp	x24, x23, [sp, #80]             // 16-byte Folded Reload
	ldp	x26, x25, [sp, #64]             // 16-byte Folded Reload
	ldp	x28, x27, [sp, #48]             // 16-byte Folded Reload
	ldp	x29, x30, [sp, #32]             // 16-byte Folded Reload
	add	sp, sp, #128
	b	rattle_dealloc
.LBB17_19:                              // %"std_alloc::vec::Vec::drop::<#bc6c39142b6dcb2c>.exit"
	ldp	x20, x19, [sp, #112]            // 16-byte Folded Reload
	ldp	x22, x21, [sp, #96]             // 16-byte Folded Reload
	ldp	x24, x23, [sp, #80]             // 16-byte Folded Reload
	ldp	x26, x25, [sp, #64]             // 16-byte Folded Reload
	ldp	x28, x27, [sp, #48]             // 16-byte Folded Reload
	ldp	x29, x30, [sp, #32]             // 16-byte Folded Reload
	add	sp, sp, #128
	ret
.Lfunc_end17:
	.size	"scq_queue::queue::Queue::abandon::<#a764f8bb96b57390>", .Lfunc_end17-"scq_queue::queue::Queue::abandon::<#a764f8bb96b57390>"
                                        // -- End function
	.section	".text.scq_port::owner::Owner::drop","ax",@progbits
	.p2align	2                               // -- Begin function scq_port::owner::Owner::drop
	.type	"scq_port::owner::Owner::drop",@function
"scq_port::owner::Owner::drop":         // @"scq_port::owner::Owner::drop"
// %bb.0:                               // %start
	sub	sp, sp, #336
	ldp	q0, q1, [x0, #176]
	ldr	x8, [x0, #224]
	stp	x26, x25, [sp, #272]            // 16-byte Folded Spill
	stp	x24, x23, [sp, #288]            // 16-byte Folded Spill
	ldr	x23, [x0, #240]
	stp	q0, q1, [sp, #176]
	ldr	q0, [x0, #208]
	ldp	q1, q2, [x0, #144]
	stp	x22, x21, [sp, #304]            // 16-byte Folded Spill
	str	q0, [sp, #208]
	ldr	q0, [x0, #128]
	stp	x20, x19, [sp, #320]            // 16-byte Folded Spill
	ldr	x20, [x0, #280]
	stp	q0, q1, [sp, #128]
	ldp	q0, q1, [x0, #64]
	str	q2, [sp, #160]
	ldp	x24, x19, [x0, #256]
	str	x8, [sp, #224]
	ldr	x8, [x0, #336]
	stp	q0, q1, [sp, #64]
	ldp	q0, q2, [x0, #96]
	stp	x29, x30, [sp, #240]            // 16-byte Folded Spill
	add	x29, sp, #240
	stp	x28, x27, [sp, #256]            // 16-byte Folded Spill
	ldp	x21, x25, [x0, #296]
	stp	q0, q2, [sp, #96]
	ldp	q1, q0, [x0]
	stp	q1, q0, [sp]
	ldp	q0, q1, [x0, #32]
	ldp	x26, x0, [x0, #312]
	stp	q0, q1, [sp, #32]
	cbz	x8, .LBB18_2
// %bb.1:                               // %then.1.i.i
	bl	rattle_dealloc
.LBB18_2:                               // %"std_alloc::vec::Vec::destroy_empty::<#d8aeaabc91b1d8b3>.exit"
	mov	x0, sp
	bl	"scq_queue::queue::Queue::abandon::<#a764f8bb96b57390>"
	cbz	x25, .LBB18_9
// %bb.3:                               // %join.5.i.i.i.i.i.preheader
	add	x27, x21, #24
	b	.LBB18_5
.LBB18_4:                               // %"core::mem::drop::<#db57577750518db5>.exit.i.i.i.i.i"
                                        //   in Loop: Header=BB18_5 Depth=1
	subs	x25, x25, #1
	add	x27, x27, #96
	b.eq	.LBB18_9
.LBB18_5:                               // %join.5.i.i.i.i.i
                                        // =>This Inner Loop Header: Depth=1
	ldp	x8, x22, [x27, #-8]
	ldr	x28, [x27, #16]
	cbz	x8, .LBB18_7
// %bb.6:                               // %then.1.i.i.i.i.i.i.i.i.i.i.i
                                        //   in Loop: Header=BB18_5 Depth=1
	ldur	x0, [x27, #-24]
	bl	rattle_dealloc
.LBB18_7:                               // %"std_alloc::vec::Vec::drop::<#322702e9d69ed9ef>.exit.i.i.i.i.i.i.i.i"
                                        //   in Loop: Header=BB18_5 Depth=1
	cbz	x28, .LBB18_4
// %bb.8:                               // %then.1.i.i.i4.i.i.i.i.i.i.i.i
                                        //   in Loop: Header=BB18_5 Depth=1
	mov	x0, x22
	bl	rattle_dealloc
	b	.LBB18_4
.LBB18_9:                               // %"std_alloc::vec::Vec::clear::<#6556fae6c29054f4>.exit.i"
	cbz	x26, .LBB18_11
// %bb.10:                              // %then.1.i.i.i
	mov	x0, x21
	bl	rattle_dealloc
.LBB18_11:                              // %"std_alloc::vec::Vec::drop::<#52900c7b80093fc6>.exit"
	cbnz	x24, .LBB18_14
.LBB18_12:                              // %"atomic_table::owned::Table::drop::<#b901f7d3086f3adb>.exit"
	mov	x0, x19
	bl	rattle_dealloc
	mov	x0, x20
	ldp	x20, x19, [sp, #320]            // 16-byte Folded Reload
	ldp	x22, x21, [sp, #304]            // 16-byte Folded Reload
	ldp	x24, x23, [sp, #288]            // 16-byte Folded Reload
	ldp	x26, x25, [sp, #272]            // 16-byte Folded Reload
	ldp	x28, x27, [sp, #256]            // 16-byte Folded Reload
	ldp	x29, x30, [sp, #240]            // 16-byte Folded Reload
	add	sp, sp, #336
	b	rattle_dealloc
.LBB18_13:                              // %"core::mem::drop::<#c10a63d121191302>.exit.i"
                                        //   in Loop: Header=BB18_14 Depth=1
	subs	x24, x24, #1
	add	x23, x23, #128
	b.eq	.LBB18_12
.LBB18_14:                              // %join.5.i
                                        // =>This Inner Loop Header: Depth=1
	ldrb	w8, [x23]
	cbz	w8, .LBB18_13
// %bb.15:                              // %arm.2.i.i.i
                                        //   in Loop: Header=BB18_14 Depth=1
	ldp	x26, x21, [x23, #24]
	ldr	x22, [x23, #8]
	ldr	x8, [x23, #120]
	ldr	x25, [x23, #48]
	cbz	x8, .LBB18_17
// %bb.16:                              // %then.1.i.i.i.i.i.i.i
                                        //   in Loop: Header=BB18_14 Depth=1
	ldr	x0, [x23, #104]
	bl	rattle_dealloc
.LBB18_17:                              // %"scq_port::leaving::drop_slots.exit.i.i.i.i"
                                        //   in Loop: Header=BB18_14 Depth=1
	cbz	x26, .LBB18_19
// %bb.18:                              // %then.1.i.i.i5.i.i.i.i
                                        //   in Loop: Header=BB18_14 Depth=1
	mov	x0, x22
	bl	rattle_dealloc
.LBB18_19:                              // %"std_alloc::vec::Vec::drop::<#322702e9d69ed9ef>.exit.i.i.i.i"
                                        //   in Loop: Header=BB18_14 Depth=1
	cbz	x25, .LBB18_13
// %bb.20:                              // %then.1.i.i.i10.i.i.i.i
                                        //   in Loop: Header=BB18_14 Depth=1
	mov	x0, x21
	bl	rattle_dealloc
	b	.LBB18_13
.Lfunc_end18:
	.size	"scq_port::owner::Owner::drop", .Lfunc_end18-"scq_port::owner::Owner::drop"
                                        // -- End function
	.section	".text.scq_port::opening::ports_of","ax",@progbits
	.p2align	2                               // -- Begin function scq_port::opening::ports_of
	.type	"scq_port::opening::ports_of",@function
"scq_port::opening::ports_of":          // @"scq_port::opening::ports_of"
// %bb.0:                               // %start
	stp	x29, x30, [sp, #-96]!           // 16-byte Folded Spill
	stp	x28, x27, [sp, #16]             // 16-byte Folded Spill
	mov	x29, sp
	stp	x26, x25, [sp, #32]             // 16-byte Folded Spill
	stp	x24, x23, [sp, #48]             // 16-byte Folded Spill
	stp	x22, x21, [sp, #64]             // 16-byte Folded Spill
	stp	x20, x19, [sp, #80]             // 16-byte Folded Spill
	sub	sp, sp, #1760
	str	xzr, [sp]
	movi	v0.2d, #0000000000000000
	add	x8, sp, #448
	ldp	x27, x28, [x2]
	ldr	x23, [x2, #16]
	ldp	w19, w20, [x3]
	mov	x22, x0
	add	x9, sp, #640
	stur	wzr, [x8, #187]
	stur	wzr, [x8, #127]
	add	x8, sp, #296
	str	w4, [sp, #76]                   // 4-byte Spill
	str	xzr, [sp, #792]
	str	xzr, [sp, #776]
	str	xzr, [sp, #784]
	stp	q0, q0, [sp, #112]
	stp	q0, q0, [sp, #144]
	stp	q0, q0, [sp, #176]
	stp	q0, q0, [sp, #256]
	stp	q0, q0, [sp, #304]
	stp	q0, q0, [sp, #336]
	stp	q0, q0, [sp, #368]
	stp	q0, q0, [sp, #448]
	stp	q0, q0, [sp, #480]
	stp	q0, q0, [sp, #512]
	stp	q0, q0, [sp, #592]
	stp	q0, q0, [sp, #640]
	str	wzr, [sp, #632]
	stp	q0, q0, [sp, #544]
	stp	q0, q0, [sp, #672]
	stp	q0, q0, [sp, #704]
	stp	q0, q0, [sp, #736]
	stur	xzr, [x9, #127]
	stur	xzr, [x8, #135]
	stp	q0, q0, [sp, #400]
	stur	wzr, [x8, #3]
	str	wzr, [sp, #296]
	stur	wzr, [sp, #239]
	stp	q0, q0, [sp, #208]
	cbz	x28, .LBB19_14
// %bb.1:                               // %then.2.i
	mov	x8, #20560                      // =0x5050
	str	x1, [sp, #64]                   // 8-byte Spill
	movk	x8, #20560, lsl #16
	movk	x8, #20560, lsl #32
	movk	x8, #80, lsl #48
	cmp	x28, x8
	b.hi	.LBB19_5
// %bb.2:                               // %"std_alloc::vec::resize::<#84f066883e367b44>.exit.i.i"
	mov	w8, #408                        // =0x198
	mov	w1, #8                          // =0x8
	mul	x0, x28, x8
	bl	rattle_alloc
	tbz	w0, #0, .LBB19_5
// %bb.3:                               // %arm.1
	cmp	x28, #15
	stp	x23, x22, [sp]                  // 16-byte Folded Spill
	str	x1, [sp, #776]
	str	xzr, [sp, #784]
	str	x28, [sp, #792]
	b.ls	.LBB19_18
// %bb.4:                               // %then.1.i.i.i
	lsr	x2, x28, #1
	mov	w9, #96                         // =0x60
	mov	x0, x27
	sub	x8, x28, x2
	madd	x1, x8, x9, x27
	bl	"core::slice::edits::mirror::<42'scq_queue::pass::Pass::<#5ff1ac3e48fe92e9>>"
	ldr	x13, [sp, #64]                  // 8-byte Reload
	b	.LBB19_19
.LBB19_5:                               // %join.5.i.i.i.i.i.preheader
	add	x19, x27, #24
	b	.LBB19_7
.LBB19_6:                               // %"core::mem::drop::<#db57577750518db5>.exit.i.i.i.i.i"
                                        //   in Loop: Header=BB19_7 Depth=1
	subs	x28, x28, #1
	add	x19, x19, #96
	b.eq	.LBB19_11
.LBB19_7:                               // %join.5.i.i.i.i.i
                                        // =>This Inner Loop Header: Depth=1
	ldp	x8, x21, [x19, #-8]
	ldr	x20, [x19, #16]
	cbz	x8, .LBB19_9
// %bb.8:                               // %then.1.i.i.i.i.i.i.i.i.i.i.i
                                        //   in Loop: Header=BB19_7 Depth=1
	ldur	x0, [x19, #-24]
	bl	rattle_dealloc
.LBB19_9:                               // %"std_alloc::vec::Vec::drop::<#322702e9d69ed9ef>.exit.i.i.i.i.i.i.i.i"
                                        //   in Loop: Header=BB19_7 Depth=1
	cbz	x20, .LBB19_6
// %bb.10:                              // %then.1.i.i.i4.i.i.i.i.i.i.i.i
                                        //   in Loop: Header=BB19_7 Depth=1
	mov	x0, x21
	bl	rattle_dealloc
	b	.LBB19_6
.LBB19_11:                              // %"std_alloc::vec::Vec::clear::<#6556fae6c29054f4>.exit.i"
	cbz	x23, .LBB19_13
// %bb.12:                              // %then.1.i.i.i4
	mov	x0, x27
	bl	rattle_dealloc
.LBB19_13:                              // %"std_alloc::vec::Vec::drop::<#52900c7b80093fc6>.exit"
	mov	w8, #1                          // =0x1
	stp	xzr, xzr, [x22, #16]
	strb	w8, [x22]
	str	xzr, [x22, #8]
	b	.LBB19_59
.LBB19_14:                              // %"std_alloc::vec::Vec::reverse::<#44a7f6dac2698e27>.exit.thread173"
	sub	x8, x29, #24
	stp	x23, x22, [sp]                  // 16-byte Folded Spill
	str	xzr, [sp, #792]
	str	x8, [sp, #776]
	str	xzr, [sp, #784]
.LBB19_15:                              // %after.5
	ldr	x8, [sp]                        // 8-byte Reload
	cbz	x8, .LBB19_17
// %bb.16:                              // %then.1.i.i.i141
	mov	x0, x27
	bl	rattle_dealloc
.LBB19_17:                              // %"std_alloc::vec::Vec::drop::<#52900c7b80093fc6>.exit142"
	add	x8, sp, #640
	ldr	x9, [sp, #8]                    // 8-byte Reload
	ldur	q0, [x8, #136]
	ldr	x8, [sp, #792]
	strb	wzr, [x9]
	stur	q0, [x9, #8]
	str	x8, [x9, #24]
	b	.LBB19_59
.LBB19_18:                              // %loop.5.preheader.i.i.i
	ldr	x13, [sp, #64]                  // 8-byte Reload
	subs	x8, x28, #1
	b.ne	.LBB19_60
.LBB19_19:                              // %arm.7.lr.ph
	mov	w8, #1                          // =0x1
	add	x12, sp, #800
	lsl	x9, x8, x19
	add	x8, sp, #304
	orr	x19, x8, #0x7
	lsl	x8, x9, #3
	add	x10, x9, #16
	stp	x10, x9, [sp, #32]              // 16-byte Folded Spill
	add	x9, sp, #800
	str	x8, [sp, #16]                   // 8-byte Spill
	lsl	x8, x10, #3
	orr	x23, x9, #0x3
	sub	x9, x28, #1
	stp	x27, x8, [sp, #48]              // 16-byte Folded Spill
	sub	w8, w20, #1
	str	w8, [sp, #28]                   // 4-byte Spill
	add	x8, sp, #640
	orr	x25, x8, #0x7
.LBB19_20:                              // %arm.7
                                        // =>This Loop Header: Depth=1
                                        //     Child Loop BB19_21 Depth 2
                                        //       Child Loop BB19_22 Depth 3
	sub	x28, x28, #1
	mov	w8, #96                         // =0x60
	movi	v0.2d, #0000000000000000
	madd	x8, x28, x8, x27
	str	x9, [sp, #104]                  // 8-byte Spill
	ldr	w11, [sp, #784]
	stur	wzr, [x12, #127]
	str	q0, [sp, #1296]
	str	q0, [sp, #1184]
	ldur	w9, [x8, #49]
	ldr	w10, [x8, #52]
	ldr	x21, [x8, #56]
	ldp	q1, q2, [x8, #64]
	str	q0, [sp, #1200]
	ldp	x0, x20, [x8]
	str	w9, [sp, #984]
	ldp	x24, x22, [x8, #16]
	stur	w10, [x12, #187]
	ldp	x14, x26, [x8, #32]
	add	x9, sp, #1184
	ldrb	w12, [x8, #48]
	stur	xzr, [x9, #127]
	add	x9, sp, #992
	stp	q0, q0, [sp, #896]
	stp	q1, q2, [sp, #944]
	str	q0, [sp, #1216]
	str	q0, [sp, #1232]
	str	q0, [sp, #1248]
	str	q0, [sp, #1264]
	str	q0, [sp, #1280]
	stur	wzr, [x9, #187]
	str	wzr, [sp, #1176]
	str	q0, [sp, #1152]
	str	q0, [sp, #1136]
	stur	wzr, [x9, #127]
	str	q0, [sp, #1104]
	str	q0, [sp, #1088]
	str	q0, [sp, #1072]
	str	q0, [sp, #1056]
	str	q0, [sp, #1040]
	stp	q0, q0, [sp, #800]
	stp	q0, q0, [sp, #832]
	stp	q0, q0, [sp, #864]
	stp	q0, q0, [sp, #1008]
	str	q0, [sp, #992]
	//APP
	//NO_APP
	mov	x9, #9223372036854775806        // =0x7ffffffffffffffe
	ldar	x8, [x13]
	//APP
	//NO_APP
	cmp	x8, x9
	b.hi	.LBB19_30
.LBB19_21:                              // %then.3.i.i.i.i
                                        //   Parent Loop BB19_20 Depth=1
                                        // =>  This Loop Header: Depth=2
                                        //       Child Loop BB19_22 Depth 3
	str	x22, [sp, #88]                  // 8-byte Spill
	add	x9, x8, #1
	//APP
	//NO_APP
.LBB19_22:                              // %cmpxchg.start
                                        //   Parent Loop BB19_20 Depth=1
                                        //     Parent Loop BB19_21 Depth=2
                                        // =>    This Inner Loop Header: Depth=3
	ldaxr	x10, [x13]
	cmp	x10, x8
	b.ne	.LBB19_24
// %bb.23:                              // %cmpxchg.trystore
                                        //   in Loop: Header=BB19_22 Depth=3
	stlxr	w10, x9, [x13]
	cbz	w10, .LBB19_25
	b	.LBB19_22
.LBB19_24:                              // %cmpxchg.nostore
                                        //   in Loop: Header=BB19_21 Depth=2
	clrex
	//APP
	//NO_APP
	ldr	x22, [sp, #88]                  // 8-byte Reload
	//APP
	//NO_APP
	mov	x9, #9223372036854775806        // =0x7ffffffffffffffe
	ldar	x8, [x13]
	//APP
	//NO_APP
	cmp	x8, x9
	b.ls	.LBB19_21
	b	.LBB19_30
.LBB19_25:                              // %cmpxchg.end
                                        //   in Loop: Header=BB19_20 Depth=1
	stp	w12, w11, [sp, #80]             // 8-byte Folded Spill
	mov	w1, #4                          // =0x4
	mov	x22, x14
	str	x24, [sp, #96]                  // 8-byte Spill
	mov	x24, x0
	//APP
	//NO_APP
	ldr	x0, [sp, #56]                   // 8-byte Reload
	bl	rattle_alloc
	tbz	w0, #0, .LBB19_35
// %bb.26:                              // %arm.5.i
                                        //   in Loop: Header=BB19_20 Depth=1
	ldr	x2, [sp, #16]                   // 8-byte Reload
	mov	x27, x1
	mov	x0, x1
	mov	w1, wzr
	bl	memset
	movi	v3.2d, #0000000000000000
	ldp	q1, q0, [sp, #944]
	add	x12, sp, #800
	add	x11, sp, #296
	ldr	w9, [sp, #984]
	ldur	w8, [x12, #187]
	stp	q1, q0, [sp, #256]
	stp	q3, q3, [x23]
	stp	q3, q3, [x23, #32]
	stp	q3, q3, [x23, #64]
	stp	q3, q3, [x23, #96]
	ldp	q0, q2, [sp, #832]
	stur	w8, [x11, #3]
	ldur	w8, [x12, #127]
	str	w9, [sp, #296]
	ldr	x9, [sp, #792]
	stp	q3, q3, [x19]
	stp	q0, q2, [sp, #144]
	ldp	q1, q0, [sp, #800]
	stur	w8, [sp, #239]
	ldr	x8, [sp, #784]
	stp	q3, q3, [x19, #32]
	stp	q1, q0, [sp, #112]
	ldp	q2, q0, [sp, #896]
	cmp	x9, x8
	stp	q3, q3, [x19, #64]
	stp	q3, q3, [x19, #96]
	stp	q2, q0, [sp, #208]
	ldp	q1, q0, [sp, #864]
	stp	q1, q0, [sp, #176]
	b.eq	.LBB19_28
.LBB19_27:                              // %join.3.i15
                                        //   in Loop: Header=BB19_20 Depth=1
	mov	w9, #408                        // =0x198
	ldr	x10, [sp, #776]
	ldur	w11, [x11, #3]
	madd	x9, x8, x9, x10
	ldp	q0, q1, [x19, #64]
	ldr	x10, [sp, #96]                  // 8-byte Reload
	ldr	x13, [sp, #64]                  // 8-byte Reload
	add	x8, x8, #1
	ldr	w14, [sp, #80]                  // 4-byte Reload
	str	x8, [sp, #784]
	add	x8, sp, #448
	stp	q3, q3, [x25]
	stp	q3, q3, [x25, #32]
	stp	x20, x10, [x9, #144]
	ldr	x10, [sp, #88]                  // 8-byte Reload
	stp	q0, q1, [x9, #64]
	ldp	q0, q2, [x19, #96]
	stp	x10, x22, [x9, #160]
	ldr	w10, [sp, #296]
	stp	x13, x24, [x9, #128]
	stp	q0, q2, [x9, #96]
	ldp	q0, q1, [x19]
	stur	w10, [x9, #185]
	ldr	x10, [sp, #40]                  // 8-byte Reload
	str	w11, [x9, #188]
	ldur	w11, [sp, #239]
	stp	x27, x10, [x9, #232]
	ldr	x10, [sp, #32]                  // 8-byte Reload
	ldr	x27, [sp, #48]                  // 8-byte Reload
	stp	q0, q1, [x9]
	ldp	q2, q0, [x19, #32]
	str	x10, [x9, #248]
	ldr	w10, [sp, #76]                  // 4-byte Reload
	str	x26, [x9, #176]
	stp	q2, q0, [x9, #32]
	ldp	q0, q1, [sp, #256]
	str	w10, [x9, #256]
	str	w10, [x9, #260]
	ldr	w10, [sp, #28]                  // 4-byte Reload
	stur	q0, [x9, #200]
	str	w10, [x9, #264]
	str	w10, [x9, #268]
	ldr	w10, [sp, #84]                  // 4-byte Reload
	stur	q1, [x9, #216]
	ldp	q1, q0, [sp, #144]
	str	w10, [x9, #272]
	mov	w10, #1                         // =0x1
	strb	w10, [x9, #276]
	add	x10, x9, #277
	stp	q1, q0, [x10, #32]
	ldp	q2, q0, [sp, #112]
	strb	w14, [x9, #184]
	str	x21, [x9, #192]
	stp	q2, q0, [x10]
	ldp	q1, q0, [sp, #208]
	str	w11, [x9, #404]
	ldr	x9, [sp, #104]                  // 8-byte Reload
	stp	q3, q3, [x25, #64]
	stp	q1, q0, [x10, #96]
	ldp	q2, q0, [sp, #176]
	sub	x9, x9, #1
	stp	q3, q3, [x25, #96]
	str	wzr, [sp, #632]
	stp	q2, q0, [x10, #64]
	stur	wzr, [x8, #187]
	stp	q3, q3, [sp, #448]
	stp	q3, q3, [sp, #480]
	stp	q3, q3, [sp, #512]
	stp	q3, q3, [sp, #544]
	stp	q3, q3, [sp, #592]
	stur	wzr, [x8, #127]
	cbnz	x28, .LBB19_20
	b	.LBB19_15
.LBB19_28:                              // %"std_alloc::vec::Vec::grow::<#84f066883e367b44>.exit.i"
                                        //   in Loop: Header=BB19_20 Depth=1
	add	x0, sp, #776
	bl	"std_alloc::vec::Vec::grow_amortized::<#84f066883e367b44>"
	cbz	w0, .LBB19_66
// %bb.29:                              // %"std_alloc::vec::Vec::grow::<#84f066883e367b44>.exit.join.3_crit_edge.i"
                                        //   in Loop: Header=BB19_20 Depth=1
	movi	v3.2d, #0000000000000000
	ldr	x8, [sp, #784]
	add	x11, sp, #296
	add	x12, sp, #800
	b	.LBB19_27
.LBB19_30:                              // %arm.2.i
	cbz	x24, .LBB19_32
// %bb.31:                              // %then.1.i.i.i.i7
	bl	rattle_dealloc
.LBB19_32:                              // %"std_alloc::vec::Vec::drop::<#322702e9d69ed9ef>.exit.i"
	ldr	x20, [sp, #104]                 // 8-byte Reload
	cbz	x26, .LBB19_34
// %bb.33:                              // %then.1.i.i.i21.i
	mov	x0, x22
	bl	rattle_dealloc
.LBB19_34:                              // %"std_alloc::vec::Vec::drop::<#6ccbafbdb3eebed6>.exit.i"
	movi	v0.2d, #0000000000000000
	add	x8, sp, #296
	str	wzr, [sp, #296]
	stur	wzr, [x8, #3]
	stur	q0, [x8, #127]
	stur	q0, [x8, #111]
	stur	q0, [x8, #95]
	stur	q0, [x8, #79]
	stur	q0, [x8, #63]
	stur	q0, [x8, #47]
	stur	q0, [x8, #31]
	stur	q0, [x8, #15]
	stp	q0, q0, [sp, #112]
	stp	q0, q0, [sp, #144]
	stp	q0, q0, [sp, #176]
	stp	q0, q0, [sp, #208]
	stp	q0, q0, [sp, #256]
	stur	wzr, [sp, #239]
	ldr	x19, [sp, #784]
	ldr	x21, [sp, #776]
	ldr	x23, [sp, #792]
	cbnz	x19, .LBB19_44
	b	.LBB19_46
.LBB19_35:                              // %arm.6.i
	movi	v0.2d, #0000000000000000
	add	x8, sp, #1184
	str	wzr, [sp, #1176]
	str	xzr, [sp, #1664]
	stur	q0, [x8, #119]
	stur	q0, [x8, #103]
	stur	q0, [x8, #87]
	stur	q0, [x8, #71]
	stur	q0, [x8, #55]
	stur	q0, [x8, #39]
	stur	q0, [x8, #23]
	stur	q0, [x8, #7]
	add	x8, sp, #992
	stur	wzr, [x8, #187]
	str	q0, [sp, #1136]
	str	q0, [sp, #1152]
	stp	q0, q0, [sp, #992]
	str	q0, [sp, #1024]
	str	q0, [sp, #1040]
	str	q0, [sp, #1056]
	str	q0, [sp, #1072]
	str	q0, [sp, #1088]
	str	q0, [sp, #1104]
	stur	wzr, [x8, #127]
	str	q0, [sp, #1648]
	str	q0, [sp, #1632]
	str	q0, [sp, #1616]
	str	q0, [sp, #1600]
	str	q0, [sp, #1584]
	str	q0, [sp, #1568]
	str	q0, [sp, #1552]
	str	q0, [sp, #1536]
	str	q0, [sp, #1520]
	str	q0, [sp, #1504]
	str	q0, [sp, #1488]
	str	q0, [sp, #1472]
	str	q0, [sp, #1456]
	str	q0, [sp, #1440]
	str	q0, [sp, #1424]
	str	q0, [sp, #1408]
	str	q0, [sp, #1392]
	str	q0, [sp, #1376]
	str	q0, [sp, #1360]
	str	q0, [sp, #1344]
	str	q0, [sp, #1328]
	//APP
	//NO_APP
	ldr	x23, [sp, #64]                  // 8-byte Reload
.LBB19_36:                              // %atomicrmw.start
                                        // =>This Inner Loop Header: Depth=1
	ldaxr	x8, [x23]
	subs	x8, x8, #1
	stlxr	w9, x8, [x23]
	cbnz	w9, .LBB19_36
// %bb.37:                              // %atomicrmw.end
	//APP
	//NO_APP
	ldr	x27, [sp, #48]                  // 8-byte Reload
	ldr	x20, [sp, #104]                 // 8-byte Reload
	b.ne	.LBB19_39
// %bb.38:                              // %arm.1.i24.i
	add	x0, sp, #1328
	add	x1, x23, #8
	mov	w2, #344                        // =0x158
	bl	memcpy
	mov	x0, x23
	bl	rattle_dealloc
	add	x0, sp, #1328
	bl	"scq_port::owner::Owner::drop"
.LBB19_39:                              // %"std_alloc::arc::Arc::drop::<#9f30ca7595de9587>.exit.i"
	ldr	x8, [sp, #96]                   // 8-byte Reload
	cbz	x8, .LBB19_41
// %bb.40:                              // %then.1.i.i.i28.i
	mov	x0, x24
	bl	rattle_dealloc
.LBB19_41:                              // %"std_alloc::vec::Vec::drop::<#322702e9d69ed9ef>.exit30.i"
	cbz	x26, .LBB19_43
// %bb.42:                              // %then.1.i.i.i34.i
	ldr	x0, [sp, #88]                   // 8-byte Reload
	bl	rattle_dealloc
.LBB19_43:                              // %"std_alloc::vec::Vec::drop::<#6ccbafbdb3eebed6>.exit36.i"
	add	x8, sp, #1184
	add	x10, sp, #992
	add	x11, sp, #296
	ldur	q0, [x8, #71]
	ldur	q1, [x8, #87]
	ldur	q2, [x8, #103]
	ldr	w9, [sp, #1176]
	stp	q0, q1, [x19, #64]
	ldur	q0, [x8, #119]
	ldur	q1, [x8, #7]
	stp	q2, q0, [x19, #96]
	ldur	q0, [x8, #23]
	ldur	q2, [x8, #39]
	stp	q1, q0, [x19]
	ldur	q0, [x8, #55]
	ldr	q1, [sp, #1136]
	ldur	w8, [x10, #187]
	stp	q2, q0, [x19, #32]
	ldr	q0, [sp, #1152]
	ldr	q2, [sp, #1040]
	stur	w8, [x11, #3]
	ldur	w8, [x10, #127]
	stp	q1, q0, [sp, #256]
	ldr	q0, [sp, #1024]
	stur	w8, [sp, #239]
	stp	q0, q2, [sp, #144]
	ldp	q1, q0, [sp, #992]
	ldr	q2, [sp, #1056]
	str	w9, [sp, #296]
	stp	q1, q0, [sp, #112]
	ldr	q0, [sp, #1104]
	ldr	q1, [sp, #1088]
	stp	q1, q0, [sp, #208]
	ldr	q0, [sp, #1072]
	stp	q2, q0, [sp, #176]
	ldr	x19, [sp, #784]
	ldr	x21, [sp, #776]
	ldr	x23, [sp, #792]
	cbz	x19, .LBB19_46
.LBB19_44:                              // %join.5.i.i.i.i.i28.preheader
	mov	x22, x21
.LBB19_45:                              // %join.5.i.i.i.i.i28
                                        // =>This Inner Loop Header: Depth=1
	add	x0, sp, #1328
	mov	x1, x22
	mov	w2, #408                        // =0x198
	bl	memcpy
	add	x0, sp, #1328
	bl	"scq_port::port::Port::drop"
	subs	x19, x19, #1
	add	x22, x22, #408
	b.ne	.LBB19_45
.LBB19_46:                              // %"std_alloc::vec::Vec::clear::<#f0de017f86ad8311>.exit.i"
	cbz	x23, .LBB19_48
// %bb.47:                              // %then.1.i.i.i34
	mov	x0, x21
	bl	rattle_dealloc
.LBB19_48:                              // %"std_alloc::vec::Vec::drop::<#b91858579877d677>.exit"
	ldr	x23, [sp]                       // 8-byte Reload
	cbz	x28, .LBB19_55
// %bb.49:                              // %join.5.i.i.i.i.i42.preheader
	add	x19, x27, #24
	b	.LBB19_51
.LBB19_50:                              // %"core::mem::drop::<#db57577750518db5>.exit.i.i.i.i.i58"
                                        //   in Loop: Header=BB19_51 Depth=1
	subs	x20, x20, #1
	add	x19, x19, #96
	b.eq	.LBB19_55
.LBB19_51:                              // %join.5.i.i.i.i.i42
                                        // =>This Inner Loop Header: Depth=1
	ldp	x8, x21, [x19, #-8]
	ldr	x22, [x19, #16]
	cbz	x8, .LBB19_53
// %bb.52:                              // %then.1.i.i.i.i.i.i.i.i.i.i.i53
                                        //   in Loop: Header=BB19_51 Depth=1
	ldur	x0, [x19, #-24]
	bl	rattle_dealloc
.LBB19_53:                              // %"std_alloc::vec::Vec::drop::<#322702e9d69ed9ef>.exit.i.i.i.i.i.i.i.i55"
                                        //   in Loop: Header=BB19_51 Depth=1
	cbz	x22, .LBB19_50
// %bb.54:                              // %then.1.i.i.i4.i.i.i.i.i.i.i.i57
                                        //   in Loop: Header=BB19_51 Depth=1
	mov	x0, x21
	bl	rattle_dealloc
	b	.LBB19_50
.LBB19_55:                              // %"std_alloc::vec::Vec::clear::<#6556fae6c29054f4>.exit.i61"
	cbz	x23, .LBB19_58
// %bb.56:                              // %then.1.i.i.i63
	mov	x0, x27
.LBB19_57:                              // %"std_alloc::vec::Vec::drop::<#52900c7b80093fc6>.exit64"
	bl	rattle_dealloc
.LBB19_58:                              // %"std_alloc::vec::Vec::drop::<#52900c7b80093fc6>.exit64"
	ldr	x9, [sp, #8]                    // 8-byte Reload
	mov	w8, #1                          // =0x1
	stp	xzr, xzr, [x9, #16]
	strb	w8, [x9]
	str	xzr, [x9, #8]
.LBB19_59:                              // %"std_alloc::vec::Vec::drop::<#52900c7b80093fc6>.exit"
	add	sp, sp, #1760
	ldp	x20, x19, [sp, #80]             // 16-byte Folded Reload
	ldp	x22, x21, [sp, #64]             // 16-byte Folded Reload
	ldp	x24, x23, [sp, #48]             // 16-byte Folded Reload
	ldp	x26, x25, [sp, #32]             // 16-byte Folded Reload
	ldp	x28, x27, [sp, #16]             // 16-byte Folded Reload
	ldp	x29, x30, [sp], #96             // 16-byte Folded Reload
	ret
.LBB19_60:                              // %join.8.preheader.i.i.i
	mov	w10, #96                        // =0x60
	mov	x9, xzr
	mov	x12, x27
	madd	x11, x28, x10, x27
	sub	x10, x28, #2
	lsr	x10, x10, #1
	add	x10, x10, #1
	sub	x11, x11, #96
	b	.LBB19_63
.LBB19_61:                              // %then.1.i.i.i.i
                                        //   in Loop: Header=BB19_63 Depth=1
	ldp	q0, q1, [x12, #32]
	ldp	q5, q4, [x11]
	str	q0, [sp, #1360]
	ldp	q0, q2, [x12, #64]
	str	q1, [sp, #1376]
	str	q0, [sp, #1392]
	ldp	q1, q0, [x12]
	str	q2, [sp, #1408]
	ldp	q2, q3, [x11, #64]
	str	q1, [sp, #1328]
	str	q0, [sp, #1344]
	ldp	q0, q1, [x11, #32]
	stp	q5, q4, [x12]
	stp	q2, q3, [x12, #64]
	ldr	q2, [sp, #1392]
	stp	q0, q1, [x12, #32]
	ldr	q0, [sp, #1360]
	ldr	q1, [sp, #1376]
	stp	q0, q1, [x11, #32]
	ldr	q0, [sp, #1408]
	ldr	q1, [sp, #1328]
	stp	q2, q0, [x11, #64]
	ldr	q0, [sp, #1344]
	stp	q1, q0, [x11]
.LBB19_62:                              // %"core::slice::edits::slice+T::swap::<42'scq_queue::pass::Pass::<#5ff1ac3e48fe92e9>>.exit.i.i.i"
                                        //   in Loop: Header=BB19_63 Depth=1
	add	x9, x9, #1
	add	x12, x12, #96
	sub	x11, x11, #96
	cmp	x10, x9
	sub	x8, x8, #1
	b.eq	.LBB19_19
.LBB19_63:                              // %join.8.i.i.i
                                        // =>This Inner Loop Header: Depth=1
	cmp	x9, x8
	b.lo	.LBB19_61
// %bb.64:                              // %else.2.i.i.i.i
                                        //   in Loop: Header=BB19_63 Depth=1
	cmp	x8, x9
	b.hs	.LBB19_62
// %bb.65:                              // %then.4.i.i.i.i
                                        //   in Loop: Header=BB19_63 Depth=1
	ldp	q0, q1, [x11, #32]
	ldp	q5, q4, [x12]
	str	q0, [sp, #1360]
	ldp	q0, q2, [x11, #64]
	str	q1, [sp, #1376]
	str	q0, [sp, #1392]
	ldp	q1, q0, [x11]
	str	q2, [sp, #1408]
	ldp	q2, q3, [x12, #64]
	str	q1, [sp, #1328]
	str	q0, [sp, #1344]
	ldp	q0, q1, [x12, #32]
	stp	q5, q4, [x11]
	stp	q2, q3, [x11, #64]
	ldr	q2, [sp, #1392]
	stp	q0, q1, [x11, #32]
	ldr	q0, [sp, #1360]
	ldr	q1, [sp, #1376]
	stp	q0, q1, [x12, #32]
	ldr	q0, [sp, #1408]
	ldr	q1, [sp, #1328]
	stp	q2, q0, [x12, #64]
	ldr	q0, [sp, #1344]
	stp	q1, q0, [x12]
	b	.LBB19_62
.LBB19_66:                              // %then.1.i16
	ldp	q0, q1, [x19, #64]
	add	x8, sp, #296
	ldur	w8, [x8, #3]
	add	x10, sp, #448
	ldr	w9, [sp, #296]
	add	x11, sp, #1328
	add	x0, sp, #1328
	str	x24, [sp, #1464]
	stp	q0, q1, [x25, #64]
	ldp	q0, q2, [x19, #96]
	stur	w8, [x10, #187]
	ldur	w8, [sp, #239]
	str	w9, [sp, #632]
	ldr	w9, [sp, #80]                   // 4-byte Reload
	stp	q0, q2, [x25, #96]
	ldp	q1, q0, [x19]
	strb	w9, [sp, #1512]
	ldur	w9, [x10, #187]
	str	x20, [sp, #1472]
	stp	q1, q0, [x25]
	ldp	q2, q0, [x19, #32]
	str	x22, [sp, #1496]
	str	x26, [sp, #1504]
	stp	q2, q0, [x25, #32]
	ldp	q0, q1, [sp, #256]
	str	x21, [sp, #1520]
	str	x27, [sp, #1560]
	stp	q0, q1, [sp, #592]
	ldp	q2, q0, [sp, #208]
	stp	q2, q0, [sp, #544]
	ldp	q0, q1, [sp, #144]
	stur	w8, [x10, #127]
	ldr	x8, [sp, #64]                   // 8-byte Reload
	stp	q0, q1, [sp, #480]
	ldp	q0, q2, [sp, #176]
	str	x8, [sp, #1456]
	ldr	x8, [sp, #96]                   // 8-byte Reload
	stp	q0, q2, [sp, #512]
	ldp	q0, q1, [sp, #112]
	str	x8, [sp, #1480]
	ldr	x8, [sp, #88]                   // 8-byte Reload
	stp	q0, q1, [sp, #448]
	ldp	q2, q0, [x25, #64]
	str	x8, [sp, #1488]
	ldr	w8, [sp, #632]
	str	q0, [sp, #1408]
	ldp	q1, q0, [x25, #96]
	str	q2, [sp, #1392]
	stur	w8, [x11, #185]
	ldr	x8, [sp, #40]                   // 8-byte Reload
	str	q0, [sp, #1440]
	ldp	q2, q0, [x25]
	str	x8, [sp, #1568]
	ldr	x8, [sp, #32]                   // 8-byte Reload
	str	q1, [sp, #1424]
	str	q0, [sp, #1344]
	ldp	q1, q0, [x25, #32]
	str	x8, [sp, #1576]
	ldr	w8, [sp, #76]                   // 4-byte Reload
	str	w9, [sp, #1516]
	add	x9, sp, #1328
	str	q1, [sp, #1360]
	str	q0, [sp, #1376]
	ldp	q0, q1, [sp, #592]
	str	w8, [sp, #1584]
	str	w8, [sp, #1588]
	ldr	w8, [sp, #28]                   // 4-byte Reload
	stur	q0, [x11, #200]
	str	w8, [sp, #1592]
	str	w8, [sp, #1596]
	ldr	w8, [sp, #84]                   // 4-byte Reload
	stur	q1, [x11, #216]
	ldp	q1, q0, [sp, #480]
	str	w8, [sp, #1600]
	mov	w8, #1                          // =0x1
	strb	w8, [sp, #1604]
	add	x8, x9, #277
	ldur	w9, [x10, #127]
	str	q2, [sp, #1328]
	stp	q1, q0, [x8, #32]
	ldp	q2, q0, [sp, #448]
	stp	q2, q0, [x8]
	ldp	q0, q1, [sp, #544]
	stp	q0, q1, [x8, #96]
	ldp	q2, q0, [sp, #512]
	str	w9, [sp, #1732]
	stp	q2, q0, [x8, #64]
	bl	"scq_port::port::Port::drop"
	ldr	x21, [sp, #776]
	ldr	x19, [sp, #784]
	ldr	x23, [sp, #792]
	mov	x22, x21
	cbz	x19, .LBB19_68
.LBB19_67:                              // %join.5.i.i.i.i.i74
                                        // =>This Inner Loop Header: Depth=1
	add	x0, sp, #1328
	mov	x1, x22
	mov	w2, #408                        // =0x198
	bl	memcpy
	add	x0, sp, #1328
	bl	"scq_port::port::Port::drop"
	subs	x19, x19, #1
	add	x22, x22, #408
	b.ne	.LBB19_67
.LBB19_68:                              // %"std_alloc::vec::Vec::clear::<#f0de017f86ad8311>.exit.i80"
	ldr	x24, [sp, #48]                  // 8-byte Reload
	ldr	x20, [sp, #104]                 // 8-byte Reload
	cbz	x23, .LBB19_70
// %bb.69:                              // %then.1.i.i.i82
	mov	x0, x21
	bl	rattle_dealloc
.LBB19_70:                              // %"std_alloc::vec::Vec::drop::<#b91858579877d677>.exit84"
	ldr	x23, [sp]                       // 8-byte Reload
	cbz	x28, .LBB19_77
// %bb.71:                              // %join.5.i.i.i.i.i91.preheader
	add	x19, x24, #24
	b	.LBB19_73
.LBB19_72:                              // %"core::mem::drop::<#db57577750518db5>.exit.i.i.i.i.i107"
                                        //   in Loop: Header=BB19_73 Depth=1
	subs	x20, x20, #1
	add	x19, x19, #96
	b.eq	.LBB19_77
.LBB19_73:                              // %join.5.i.i.i.i.i91
                                        // =>This Inner Loop Header: Depth=1
	ldp	x8, x21, [x19, #-8]
	ldr	x22, [x19, #16]
	cbz	x8, .LBB19_75
// %bb.74:                              // %then.1.i.i.i.i.i.i.i.i.i.i.i102
                                        //   in Loop: Header=BB19_73 Depth=1
	ldur	x0, [x19, #-24]
	bl	rattle_dealloc
.LBB19_75:                              // %"std_alloc::vec::Vec::drop::<#322702e9d69ed9ef>.exit.i.i.i.i.i.i.i.i104"
                                        //   in Loop: Header=BB19_73 Depth=1
	cbz	x22, .LBB19_72
// %bb.76:                              // %then.1.i.i.i4.i.i.i.i.i.i.i.i106
                                        //   in Loop: Header=BB19_73 Depth=1
	mov	x0, x21
	bl	rattle_dealloc
	b	.LBB19_72
.LBB19_77:                              // %"std_alloc::vec::Vec::clear::<#6556fae6c29054f4>.exit.i110"
	cbz	x23, .LBB19_58
// %bb.78:                              // %then.1.i.i.i112
	mov	x0, x24
	b	.LBB19_57
.Lfunc_end19:
	.size	"scq_port::opening::ports_of", .Lfunc_end19-"scq_port::opening::ports_of"
                                        // -- End function
	.section	".text.core::slice::edits::mirror::<42'scq_queue::pass::Pass::<#5ff1ac3e48fe92e9>>","ax",@progbits
	.p2align	2                               // -- Begin function core::slice::edits::mirror::<42'scq_queue::pass::Pass::<#5ff1ac3e48fe92e9>>
	.type	"core::slice::edits::mirror::<42'scq_queue::pass::Pass::<#5ff1ac3e48fe92e9>>",@function
"core::slice::edits::mirror::<42'scq_queue::pass::Pass::<#5ff1ac3e48fe92e9>>": // @"core::slice::edits::mirror::<42'scq_queue::pass::Pass::<#5ff1ac3e48fe92e9>>"
// %bb.0:                               // %start
	sub	sp, sp, #96
	mov	w8, #96                         // =0x60
	madd	x8, x2, x8, x1
	sub	x8, x8, #96
.LBB20_1:                               // %join.5
                                        // =>This Inner Loop Header: Depth=1
	ldp	q0, q1, [x0, #32]
	sub	x2, x2, #1
	ldp	q5, q4, [x8]
	stp	q0, q1, [sp, #32]
	ldp	q0, q2, [x0, #64]
	stp	q0, q2, [sp, #64]
	ldp	q1, q0, [x0]
	ldp	q2, q3, [x8, #64]
	stp	q1, q0, [sp]
	ldp	q0, q1, [x8, #32]
	stp	q2, q3, [x0, #64]
	stp	q0, q1, [x0, #32]
	ldp	q0, q1, [sp, #32]
	stp	q5, q4, [x0], #96
	stp	q0, q1, [x8, #32]
	ldp	q2, q0, [sp, #64]
	stp	q2, q0, [x8, #64]
	ldp	q1, q0, [sp]
	stp	q1, q0, [x8], #-96
	cbnz	x2, .LBB20_1
// %bb.2:                               // %after.1
	add	sp, sp, #96
	ret
.Lfunc_end20:
	.size	"core::slice::edits::mirror::<42'scq_queue::pass::Pass::<#5ff1ac3e48fe92e9>>", .Lfunc_end20-"core::slice::edits::mirror::<42'scq_queue::pass::Pass::<#5ff1ac3e48fe92e9>>"
                                        // -- End function
	.section	".text.unlikely.std_alloc::vec::Vec::grow_amortized::<#84f066883e367b44>","ax",@progbits
	.p2align	2                               // -- Begin function std_alloc::vec::Vec::grow_amortized::<#84f066883e367b44>
	.type	"std_alloc::vec::Vec::grow_amortized::<#84f066883e367b44>",@function
"std_alloc::vec::Vec::grow_amortized::<#84f066883e367b44>": // @"std_alloc::vec::Vec::grow_amortized::<#84f066883e367b44>"
// %bb.0:                               // %start
	ldr	x8, [x0, #8]
	cmn	x8, #1
	b.eq	.LBB21_5
// %bb.1:                               // %join.3
	stp	x29, x30, [sp, #-32]!           // 16-byte Folded Spill
	ldr	x9, [x0, #16]
	cmp	x8, #3
	mov	w10, #3                         // =0x3
	csel	x11, x8, x10, hi
	stp	x20, x19, [sp, #16]             // 16-byte Folded Spill
	mov	x29, sp
	lsl	x10, x9, #1
	add	x12, x11, #1
	lsr	x13, x9, #62
	cmp	x12, x10
	csinc	x10, x10, x11, ls
	cmp	x13, #0
	csinc	x19, x10, x11, eq
	mov	x11, #20560                     // =0x5050
	movk	x11, #20560, lsl #16
	movk	x11, #20560, lsl #32
	movk	x11, #80, lsl #48
	cmp	x19, x11
	b.hi	.LBB21_7
// %bb.2:                               // %join.3.i
	cbz	x9, .LBB21_6
// %bb.3:                               // %then.1.i.i
	mov	w9, #408                        // =0x198
	mov	x20, x0
	ldr	x0, [x0]
	mul	x1, x8, x9
	mov	w3, #8                          // =0x8
	mul	x2, x19, x9
	bl	rattle_realloc
	tbz	w0, #0, .LBB21_7
.LBB21_4:                               // %arm.5.i
	mov	w0, #1                          // =0x1
	str	x1, [x20]
	str	x19, [x20, #16]
	ldp	x20, x19, [sp, #16]             // 16-byte Folded Reload
	ldp	x29, x30, [sp], #32             // 16-byte Folded Reload
	ret
.LBB21_5:
	mov	w0, wzr
	ret
.LBB21_6:                               // %"std_alloc::vec::resize::<#84f066883e367b44>.exit.i"
	mov	w8, #408                        // =0x198
	mov	x20, x0
	mov	w1, #8                          // =0x8
	mul	x0, x10, x8
	bl	rattle_alloc
	tbnz	w0, #0, .LBB21_4
.LBB21_7:
	mov	w0, wzr
	ldp	x20, x19, [sp, #16]             // 16-byte Folded Reload
	ldp	x29, x30, [sp], #32             // 16-byte Folded Reload
	ret
.Lfunc_end21:
	.size	"std_alloc::vec::Vec::grow_amortized::<#84f066883e367b44>", .Lfunc_end21-"std_alloc::vec::Vec::grow_amortized::<#84f066883e367b44>"
                                        // -- End function
	.section	".text.std_alloc::arc::Arc::drop::<#9f30ca7595de9587>","ax",@progbits
	.p2align	2                               // -- Begin function std_alloc::arc::Arc::drop::<#9f30ca7595de9587>
	.type	"std_alloc::arc::Arc::drop::<#9f30ca7595de9587>",@function
"std_alloc::arc::Arc::drop::<#9f30ca7595de9587>": // @"std_alloc::arc::Arc::drop::<#9f30ca7595de9587>"
// %bb.0:                               // %start
	sub	sp, sp, #384
	movi	v0.2d, #0000000000000000
	stp	x29, x30, [sp, #352]            // 16-byte Folded Spill
	add	x29, sp, #352
	stp	x28, x19, [sp, #368]            // 16-byte Folded Spill
	str	xzr, [sp, #336]
	stp	q0, q0, [sp, #16]
	stp	q0, q0, [sp, #48]
	stp	q0, q0, [sp, #80]
	stp	q0, q0, [sp, #112]
	stp	q0, q0, [sp, #144]
	stp	q0, q0, [sp, #176]
	stp	q0, q0, [sp, #208]
	stp	q0, q0, [sp, #240]
	stp	q0, q0, [sp, #272]
	stp	q0, q0, [sp, #304]
	str	q0, [sp]
	//APP
	//NO_APP
.LBB22_1:                               // %atomicrmw.start
                                        // =>This Inner Loop Header: Depth=1
	ldaxr	x8, [x0]
	subs	x8, x8, #1
	stlxr	w9, x8, [x0]
	cbnz	w9, .LBB22_1
// %bb.2:                               // %atomicrmw.end
	//APP
	//NO_APP
	b.ne	.LBB22_4
// %bb.3:                               // %arm.1
	mov	x19, x0
	mov	x0, sp
	mov	w2, #344                        // =0x158
	add	x1, x19, #8
	bl	memcpy
	mov	x0, x19
	bl	rattle_dealloc
	mov	x0, sp
	bl	"scq_port::owner::Owner::drop"
.LBB22_4:                               // %join.4
	ldp	x28, x19, [sp, #368]            // 16-byte Folded Reload
	ldp	x29, x30, [sp, #352]            // 16-byte Folded Reload
	add	sp, sp, #384
	ret
.Lfunc_end22:
	.size	"std_alloc::arc::Arc::drop::<#9f30ca7595de9587>", .Lfunc_end22-"std_alloc::arc::Arc::drop::<#9f30ca7595de9587>"
                                        // -- End function
	.section	".text.core::slice::edits::mirror::<20'scq_port::port::Port>","ax",@progbits
	.p2align	2                               // -- Begin function core::slice::edits::mirror::<20'scq_port::port::Port>
	.type	"core::slice::edits::mirror::<20'scq_port::port::Port>",@function
"core::slice::edits::mirror::<20'scq_port::port::Port>": // @"core::slice::edits::mirror::<20'scq_port::port::Port>"
// %bb.0:                               // %start
	sub	sp, sp, #464
	mov	w8, #408                        // =0x198
	stp	x28, x21, [sp, #432]            // 16-byte Folded Spill
	madd	x8, x2, x8, x1
	stp	x20, x19, [sp, #448]            // 16-byte Folded Spill
	mov	x19, x2
	mov	x20, x0
	stp	x29, x30, [sp, #416]            // 16-byte Folded Spill
	add	x29, sp, #416
	sub	x21, x8, #408
.LBB23_1:                               // %join.5
                                        // =>This Inner Loop Header: Depth=1
	add	x0, sp, #8
	mov	x1, x20
	mov	w2, #408                        // =0x198
	bl	memcpy
	mov	x0, x20
	mov	x1, x21
	mov	w2, #408                        // =0x198
	bl	memmove
	add	x1, sp, #8
	mov	x0, x21
	mov	w2, #408                        // =0x198
	bl	memcpy
	sub	x19, x19, #1
	add	x20, x20, #408
	sub	x21, x21, #408
	cbnz	x19, .LBB23_1
// %bb.2:                               // %after.1
	ldp	x20, x19, [sp, #448]            // 16-byte Folded Reload
	ldp	x28, x21, [sp, #432]            // 16-byte Folded Reload
	ldp	x29, x30, [sp, #416]            // 16-byte Folded Reload
	add	sp, sp, #464
	ret
.Lfunc_end23:
	.size	"core::slice::edits::mirror::<20'scq_port::port::Port>", .Lfunc_end23-"core::slice::edits::mirror::<20'scq_port::port::Port>"
                                        // -- End function
	.section	".text.scq_port::port::Port::drop","ax",@progbits
	.p2align	2                               // -- Begin function scq_port::port::Port::drop
	.type	"scq_port::port::Port::drop",@function
"scq_port::port::Port::drop":           // @"scq_port::port::Port::drop"
// %bb.0:                               // %start
	stp	x29, x30, [sp, #-80]!           // 16-byte Folded Spill
	str	x28, [sp, #16]                  // 8-byte Spill
	mov	x29, sp
	stp	x24, x23, [sp, #32]             // 16-byte Folded Spill
	stp	x22, x21, [sp, #48]             // 16-byte Folded Spill
	stp	x20, x19, [sp, #64]             // 16-byte Folded Spill
	sub	sp, sp, #528
	movi	v0.2d, #0000000000000000
	mov	x1, x0
	sub	x8, x29, #112
	add	x0, sp, #8
	mov	w2, #408                        // =0x198
	stur	xzr, [x29, #-16]
	stp	q0, q0, [x8]
	stp	q0, q0, [x8, #32]
	stp	q0, q0, [x8, #64]
	bl	memcpy
	sub	x0, x29, #112
	add	x1, sp, #8
	bl	"scq_port::port::Port::close"
	ldurb	w8, [x29, #-112]
	cmp	w8, #1
	b.ne	.LBB24_9
// %bb.1:                               // %arm.1
	ldp	x24, x20, [x29, #-64]
	ldur	x22, [x29, #-16]
	ldp	x8, x21, [x29, #-88]
	ldp	x23, x19, [x29, #-40]
	cbz	x8, .LBB24_3
// %bb.2:                               // %then.1.i.i.i
	ldur	x0, [x29, #-104]
	bl	rattle_dealloc
.LBB24_3:                               // %"std_alloc::vec::Vec::drop::<#b8ec7c1fdba62451>.exit"
	cbz	x24, .LBB24_5
// %bb.4:                               // %then.1.i.i.i4
	mov	x0, x21
	bl	rattle_dealloc
.LBB24_5:                               // %"std_alloc::vec::Vec::drop::<#e5207596a7850bb0>.exit"
	cbz	x23, .LBB24_7
// %bb.6:                               // %then.1.i.i.i9
	mov	x0, x20
	bl	rattle_dealloc
.LBB24_7:                               // %"std_alloc::vec::Vec::drop::<#8fbe0efc4163dc11>.exit"
	cbz	x22, .LBB24_9
// %bb.8:                               // %then.1.i.i.i14
	mov	x0, x19
	add	sp, sp, #528
	ldp	x20, x19, [sp, #64]             // 16-byte Folded Reload
	ldr	x28, [sp, #16]                  // 8-byte Reload
	ldp	x22, x21, [sp, #48]             // 16-byte Folded Reload
	ldp	x24, x23, [sp, #32]             // 16-byte Folded Reload
	ldp	x29, x30, [sp], #80             // 16-byte Folded Reload
	b	rattle_dealloc
.LBB24_9:                               // %join.4
	add	sp, sp, #528
	ldp	x20, x19, [sp, #64]             // 16-byte Folded Reload
	ldr	x28, [sp, #16]                  // 8-byte Reload
	ldp	x22, x21, [sp, #48]             // 16-byte Folded Reload
	ldp	x24, x23, [sp, #32]             // 16-byte Folded Reload
	ldp	x29, x30, [sp], #80             // 16-byte Folded Reload
	ret
.Lfunc_end24:
	.size	"scq_port::port::Port::drop", .Lfunc_end24-"scq_port::port::Port::drop"
                                        // -- End function
	.section	".text.scq_port::port::Port::close","ax",@progbits
	.p2align	2                               // -- Begin function scq_port::port::Port::close
	.type	"scq_port::port::Port::close",@function
"scq_port::port::Port::close":          // @"scq_port::port::Port::close"
// %bb.0:                               // %start
	stp	x29, x30, [sp, #-96]!           // 16-byte Folded Spill
	stp	x28, x27, [sp, #16]             // 16-byte Folded Spill
	mov	x29, sp
	stp	x26, x25, [sp, #32]             // 16-byte Folded Spill
	stp	x24, x23, [sp, #48]             // 16-byte Folded Spill
	stp	x22, x21, [sp, #64]             // 16-byte Folded Spill
	stp	x20, x19, [sp, #80]             // 16-byte Folded Spill
	sub	sp, sp, #928
	movi	v0.2d, #0000000000000000
	mov	x25, x0
	ldur	q1, [x1, #200]
	ldp	x26, x21, [x1, #128]
	ldur	q2, [x1, #216]
	ldp	x4, x28, [x1, #144]
	ldr	x6, [x1, #192]
	ldp	x20, x5, [x1, #160]
	ldrb	w8, [x1, #276]
	ldr	x9, [x1, #248]
	ldr	w22, [x1, #272]
	stp	q0, q0, [sp, #336]
	stp	q1, q2, [sp, #368]
	ldp	x23, x7, [x1, #176]
	stp	xzr, xzr, [sp, #320]
	ldp	x0, x10, [x1, #232]
	stp	xzr, xzr, [sp, #304]
	tbz	w8, #0, .LBB25_4
// %bb.1:                               // %then.1.i.i
	ldur	x8, [x26, #8]
	//APP
	//NO_APP
.LBB25_2:                               // %atomicrmw.start
                                        // =>This Inner Loop Header: Depth=1
	ldaxr	x11, [x8]
	sub	x11, x11, #1
	stlxr	w12, x11, [x8]
	cbnz	w12, .LBB25_2
// %bb.3:                               // %atomicrmw.end
	//APP
	//NO_APP
.LBB25_4:                               // %"scq_port::retiring::retire.exit.i"
	ldp	q0, q1, [sp, #368]
	stp	q0, q1, [sp, #400]
	cbz	x10, .LBB25_9
// %bb.5:                               // %arm.3.lr.ph.i.i
	and	x8, x7, #0xff
	cmp	x8, #1
	b.ne	.LBB25_14
// %bb.6:                               // %arm.3.i.us.i.preheader
	add	x8, x0, x10, lsl #3
	sub	x8, x8, #8
.LBB25_7:                               // %arm.3.i.us.i
                                        // =>This Inner Loop Header: Depth=1
	ldrb	w11, [x8]
	cmp	w11, #1
	b.eq	.LBB25_49
// %bb.8:                               // %join.6.i.us.i
                                        //   in Loop: Header=BB25_7 Depth=1
	sub	x10, x10, #1
	sub	x8, x8, #8
	cbnz	x10, .LBB25_7
.LBB25_9:                               // %after.1.i.i
	cbz	x9, .LBB25_11
// %bb.10:                              // %then.1.i.i.i.i
	mov	x19, x4
	mov	x27, x5
	mov	x24, x23
	mov	x23, x6
	str	x20, [sp, #296]                 // 8-byte Spill
	mov	x20, x21
	mov	x21, x25
	mov	x25, x22
	mov	x22, x7
	bl	rattle_dealloc
	mov	x7, x22
	mov	x22, x25
	mov	x25, x21
	mov	x21, x20
	ldr	x20, [sp, #296]                 // 8-byte Reload
	mov	x6, x23
	mov	x23, x24
	mov	x5, x27
	mov	x4, x19
.LBB25_11:                              // %"std_alloc::vec::Vec::destroy_empty::<#6d0961a33e8c5300>.exit.i.i"
	ldp	q0, q1, [sp, #400]
	mov	x10, xzr
	mov	x9, xzr
	sub	x0, x29, #20
	b	.LBB25_52
.LBB25_12:                              // %"scq_band::band::Band::put::<#aae3f6a89b556e54>.exit.i.i"
                                        //   in Loop: Header=BB25_14 Depth=1
	strb	wzr, [x21, x11]
	stp	x13, x13, [x20]
.LBB25_13:                              // %join.6.i.i
                                        //   in Loop: Header=BB25_14 Depth=1
	mov	x10, x12
	cbz	x12, .LBB25_9
.LBB25_14:                              // %arm.3.i.i
                                        // =>This Loop Header: Depth=1
                                        //     Child Loop BB25_16 Depth 2
                                        //     Child Loop BB25_19 Depth 2
                                        //       Child Loop BB25_20 Depth 3
                                        //       Child Loop BB25_32 Depth 3
                                        //       Child Loop BB25_35 Depth 3
                                        //         Child Loop BB25_40 Depth 4
                                        //       Child Loop BB25_29 Depth 3
	sub	x12, x10, #1
	add	x8, x0, x12, lsl #3
	ldrb	w11, [x8]
	cmp	w11, #1
	b.ne	.LBB25_13
// %bb.15:                              // %arm.7.i.i
                                        //   in Loop: Header=BB25_14 Depth=1
	ldr	x14, [x26, #96]
	ldr	x16, [x26, #8]
	ldr	w11, [x8, #4]
	ldr	x13, [x14, #48]
	//APP
	//NO_APP
	lsl	x15, x13, #3
	add	x16, x16, x15
.LBB25_16:                              // %atomicrmw.start2
                                        //   Parent Loop BB25_14 Depth=1
                                        // =>  This Inner Loop Header: Depth=2
	ldaxr	x13, [x16]
	add	x17, x13, #1
	stlxr	w18, x17, [x16]
	cbnz	w18, .LBB25_16
// %bb.17:                              // %atomicrmw.end1
                                        //   in Loop: Header=BB25_14 Depth=1
	//APP
	//NO_APP
	ldr	x16, [x14, #40]
	cmp	x16, x13
	b.ls	.LBB25_50
// %bb.18:                              // %join.5.i.lr.ph.i.i
                                        //   in Loop: Header=BB25_14 Depth=1
	add	x16, x11, #1
.LBB25_19:                              // %join.5.i.i.i
                                        //   Parent Loop BB25_14 Depth=1
                                        // =>  This Loop Header: Depth=2
                                        //       Child Loop BB25_20 Depth 3
                                        //       Child Loop BB25_32 Depth 3
                                        //       Child Loop BB25_35 Depth 3
                                        //         Child Loop BB25_40 Depth 4
                                        //       Child Loop BB25_29 Depth 3
	ldr	w17, [x14, #4]
	ldur	x3, [x26, #8]
	ldp	w18, w1, [x14, #64]
	and	x2, x13, x17
	and	x18, x13, x18
	lsr	x1, x2, x1
	ldr	x2, [x14, #48]
	lsl	x18, x18, #6
	//APP
	//NO_APP
	add	x1, x2, x1
	bic	x2, x13, x17
	add	x17, x16, x17
	add	x18, x18, x1, lsl #3
	lsl	x2, x2, #1
	add	x1, x18, #384
	add	x17, x17, x2
	sub	x2, x2, #1
	add	x3, x3, x1
.LBB25_20:                              // %cmpxchg.start
                                        //   Parent Loop BB25_14 Depth=1
                                        //     Parent Loop BB25_19 Depth=2
                                        // =>    This Inner Loop Header: Depth=3
	ldaxr	x18, [x3]
	cmp	x18, x2
	b.ne	.LBB25_22
// %bb.21:                              // %cmpxchg.trystore
                                        //   in Loop: Header=BB25_20 Depth=3
	stlxr	w18, x17, [x3]
	cbz	w18, .LBB25_43
	b	.LBB25_20
.LBB25_22:                              // %cmpxchg.nostore
                                        //   in Loop: Header=BB25_19 Depth=2
	clrex
	mov	x27, x7
	mov	x19, x6
	//APP
	//NO_APP
	mov	x7, x5
	mov	x6, x4
	cmp	x18, x17
	b.hs	.LBB25_24
// %bb.23:                              // %cmpxchg.nostore
                                        //   in Loop: Header=BB25_19 Depth=2
	ldr	w2, [x14, #4]
	mov	w3, #1                          // =0x1
	orr	x2, x3, x2, lsl #1
	and	x3, x2, x18
	cmp	x3, x2
	b.eq	.LBB25_31
.LBB25_24:                              // %join.3.i43.i.i
                                        //   in Loop: Header=BB25_19 Depth=2
	ldr	w3, [x14, #12]
	lsr	x2, x18, x3
	lsr	x3, x13, x3
	cmp	x3, x2, lsr #1
	b.ls	.LBB25_28
// %bb.25:                              // %join.3.i43.i.i
                                        //   in Loop: Header=BB25_19 Depth=2
	ldr	x3, [x14, #32]
	and	w4, w18, w3
	cmp	x3, x4
	b.ne	.LBB25_28
// %bb.26:                              // %join.9.i56.i.i
                                        //   in Loop: Header=BB25_19 Depth=2
	tbnz	w2, #0, .LBB25_31
// %bb.27:                              // %"scq_band::enqueue::has_room::<#aae3f6a89b556e54>.exit.i.i"
                                        //   in Loop: Header=BB25_19 Depth=2
	ldr	x2, [x14, #48]
	ldur	x3, [x26, #8]
	//APP
	//NO_APP
	add	x2, x3, x2, lsl #3
	add	x2, x2, #128
	ldar	x2, [x2]
	//APP
	//NO_APP
	cmp	x13, x2
	b.hs	.LBB25_31
.LBB25_28:                              // %"scq_band::enqueue::place::<#aae3f6a89b556e54>.exit.i.i"
                                        //   in Loop: Header=BB25_19 Depth=2
	ldr	x13, [x14, #48]
	ldur	x17, [x26, #8]
	//APP
	//NO_APP
	add	x17, x17, x13, lsl #3
.LBB25_29:                              // %atomicrmw.start37
                                        //   Parent Loop BB25_14 Depth=1
                                        //     Parent Loop BB25_19 Depth=2
                                        // =>    This Inner Loop Header: Depth=3
	ldaxr	x13, [x17]
	add	x18, x13, #1
	stlxr	w1, x18, [x17]
	cbnz	w1, .LBB25_29
// %bb.30:                              // %atomicrmw.end36
                                        //   in Loop: Header=BB25_19 Depth=2
	//APP
	//NO_APP
	mov	x4, x6
	mov	x5, x7
	ldr	x17, [x14, #40]
	mov	x6, x19
	mov	x7, x27
	cmp	x17, x13
	b.hi	.LBB25_19
	b	.LBB25_50
.LBB25_31:                              // %join.6.i.i.i
                                        //   in Loop: Header=BB25_19 Depth=2
	ldur	x2, [x26, #8]
	//APP
	//NO_APP
	add	x1, x2, x1
.LBB25_32:                              // %cmpxchg.start13
                                        //   Parent Loop BB25_14 Depth=1
                                        //     Parent Loop BB25_19 Depth=2
                                        // =>    This Inner Loop Header: Depth=3
	ldaxr	x2, [x1]
	cmp	x2, x18
	b.ne	.LBB25_34
// %bb.33:                              // %cmpxchg.trystore11
                                        //   in Loop: Header=BB25_32 Depth=3
	stlxr	w2, x17, [x1]
	cbz	w2, .LBB25_46
	b	.LBB25_32
.LBB25_34:                              // %cmpxchg.nostore8
                                        //   in Loop: Header=BB25_19 Depth=2
	clrex
	//APP
	//NO_APP
	ldr	w17, [x14, #4]
	ldp	w18, w1, [x14, #64]
	and	x2, x13, x17
	and	x18, x13, x18
	lsr	x1, x2, x1
	ldr	x2, [x14, #48]
	lsl	x18, x18, #6
	add	x1, x2, x1
	bic	x2, x13, x17
	add	x17, x16, x17
	add	x18, x18, x1, lsl #3
	add	x17, x17, x2, lsl #1
	add	x18, x18, #384
.LBB25_35:                              // %loop.2.i70.i.i
                                        //   Parent Loop BB25_14 Depth=1
                                        //     Parent Loop BB25_19 Depth=2
                                        // =>    This Loop Header: Depth=3
                                        //         Child Loop BB25_40 Depth 4
	ldur	x1, [x26, #8]
	//APP
	//NO_APP
	mov	w3, #1                          // =0x1
	add	x1, x1, x18
	ldar	x1, [x1]
	//APP
	//NO_APP
	ldr	w2, [x14, #4]
	cmp	x1, x17
	orr	x2, x3, x2, lsl #1
	and	x3, x2, x1
	ccmp	x3, x2, #0, lo
	b.eq	.LBB25_39
// %bb.36:                              // %join.3.i.i.i.i
                                        //   in Loop: Header=BB25_35 Depth=3
	ldr	w3, [x14, #12]
	ldr	x4, [x14, #32]
	lsr	x2, x1, x3
	lsr	x3, x13, x3
	and	w5, w1, w4
	cmp	x3, x2, lsr #1
	ccmp	x4, x5, #0, hi
	b.ne	.LBB25_28
// %bb.37:                              // %join.9.i.i.i.i
                                        //   in Loop: Header=BB25_35 Depth=3
	tbnz	w2, #0, .LBB25_39
// %bb.38:                              // %"scq_band::enqueue::load_vacant::<#aae3f6a89b556e54>.exit.i.i"
                                        //   in Loop: Header=BB25_35 Depth=3
	ldr	x2, [x14, #48]
	ldur	x3, [x26, #8]
	//APP
	//NO_APP
	add	x2, x3, x2, lsl #3
	add	x2, x2, #128
	ldar	x2, [x2]
	//APP
	//NO_APP
	cmp	x13, x2
	b.lo	.LBB25_28
.LBB25_39:                              // %arm.3.i.i.i
                                        //   in Loop: Header=BB25_35 Depth=3
	ldur	x2, [x26, #8]
	//APP
	//NO_APP
	add	x2, x2, x18
.LBB25_40:                              // %cmpxchg.start28
                                        //   Parent Loop BB25_14 Depth=1
                                        //     Parent Loop BB25_19 Depth=2
                                        //       Parent Loop BB25_35 Depth=3
                                        // =>      This Inner Loop Header: Depth=4
	ldaxr	x3, [x2]
	cmp	x3, x1
	b.ne	.LBB25_42
// %bb.41:                              // %cmpxchg.trystore26
                                        //   in Loop: Header=BB25_40 Depth=4
	stlxr	w3, x17, [x2]
	cbz	w3, .LBB25_48
	b	.LBB25_40
.LBB25_42:                              // %cmpxchg.nostore23
                                        //   in Loop: Header=BB25_35 Depth=3
	clrex
	//APP
	//NO_APP
	b	.LBB25_35
.LBB25_43:                              // %then.7.i.i.i.critedge
                                        //   in Loop: Header=BB25_14 Depth=1
	//APP
	//NO_APP
.LBB25_44:                              // %then.7.i.i.i
                                        //   in Loop: Header=BB25_14 Depth=1
	ldur	x10, [x26, #8]
	add	x8, x15, #256
	//APP
	//NO_APP
	add	x10, x10, x8
	ldar	x15, [x10]
	//APP
	//NO_APP
	ldr	x10, [x14, #56]
	cmp	x15, x10
	b.eq	.LBB25_12
// %bb.45:                              // %then.1.i.i.i
                                        //   in Loop: Header=BB25_14 Depth=1
	ldur	x14, [x26, #8]
	//APP
	//NO_APP
	add	x8, x14, x8
	stlr	x10, [x8]
	//APP
	//NO_APP
	b	.LBB25_12
.LBB25_46:                              // %cmpxchg.end6
                                        //   in Loop: Header=BB25_14 Depth=1
	//APP
	//NO_APP
.LBB25_47:                              // %then.7.i.i.i
                                        //   in Loop: Header=BB25_14 Depth=1
	mov	x4, x6
	mov	x5, x7
	mov	x6, x19
	mov	x7, x27
	b	.LBB25_44
.LBB25_48:                              // %cmpxchg.end21
                                        //   in Loop: Header=BB25_14 Depth=1
	//APP
	//NO_APP
	b	.LBB25_47
.LBB25_49:                              // %arm.7.i.us.i
	ldr	w11, [x8, #4]
	b	.LBB25_51
.LBB25_50:
	mov	w7, #1                          // =0x1
	mov	x6, x13
.LBB25_51:                              // %arm.10.i.i
	mov	w12, #1                         // =0x1
	stp	w12, w11, [x8]
	ldp	q0, q1, [sp, #400]
.LBB25_52:                              // %"scq_port::letting_go::let_go.exit.i"
	stp	q0, q1, [sp, #336]
	ldp	q0, q1, [sp, #336]
	lsl	x19, x22, #3
	ldr	x8, [x26, #240]
	stp	q0, q1, [sp, #400]
	add	x11, x8, x19
	//APP
	//NO_APP
.LBB25_53:                              // %atomicrmw.start41
                                        // =>This Inner Loop Header: Depth=1
	ldaxr	x8, [x11]
	mov	w12, #1                         // =0x1
	stlxr	w13, x12, [x11]
	cbnz	w13, .LBB25_53
// %bb.54:                              // %atomicrmw.end40
	//APP
	//NO_APP
	cbz	x8, .LBB25_65
// %bb.55:                              // %then.1.i17.i
	cbz	x9, .LBB25_57
// %bb.56:                              // %then.1.i.i.i.i.i.i
	bl	rattle_dealloc
.LBB25_57:                              // %"scq_port::leaving::drop_slots.exit.i.i.i"
	cbz	x28, .LBB25_59
// %bb.58:                              // %then.1.i.i.i5.i.i.i
	mov	x0, x21
	bl	rattle_dealloc
.LBB25_59:                              // %"std_alloc::vec::Vec::drop::<#322702e9d69ed9ef>.exit.i.i.i"
	cbz	x23, .LBB25_61
// %bb.60:                              // %then.1.i.i.i10.i.i.i
	mov	x0, x20
	bl	rattle_dealloc
.LBB25_61:                              // %arm.2.i
	movi	v0.2d, #0000000000000000
	str	xzr, [sp, #736]
	stp	q0, q0, [sp, #416]
	stp	q0, q0, [sp, #448]
	stp	q0, q0, [sp, #480]
	stp	q0, q0, [sp, #512]
	stp	q0, q0, [sp, #544]
	stp	q0, q0, [sp, #576]
	stp	q0, q0, [sp, #608]
	stp	q0, q0, [sp, #640]
	stp	q0, q0, [sp, #672]
	stp	q0, q0, [sp, #704]
	str	q0, [sp, #400]
	//APP
	//NO_APP
.LBB25_62:                              // %atomicrmw.start48
                                        // =>This Inner Loop Header: Depth=1
	ldaxr	x8, [x26]
	subs	x8, x8, #1
	stlxr	w9, x8, [x26]
	cbnz	w9, .LBB25_62
// %bb.63:                              // %atomicrmw.end47
	//APP
	//NO_APP
	b.ne	.LBB25_116
// %bb.64:                              // %arm.1.i25.i
	add	x0, sp, #400
	add	x1, x26, #8
	mov	w2, #344                        // =0x158
	bl	memcpy
	mov	x0, x26
	bl	rattle_dealloc
	add	x0, sp, #400
	bl	"scq_port::owner::Owner::drop"
	b	.LBB25_116
.LBB25_65:                              // %join.3.i.i
	ldr	x8, [x26, #248]
	str	x25, [sp, #224]                 // 8-byte Spill
	ldp	q1, q0, [sp, #400]
	add	x12, x8, x22, lsl #7
	mov	w8, #1                          // =0x1
	ldrb	w13, [x12]
	ldr	x22, [x12, #8]
	stp	x8, x21, [x12]
	ldp	x25, x21, [x12, #24]
	stp	x20, x5, [x12, #32]
	ldr	x20, [x12, #48]
	ldr	x8, [x12, #104]
	ldr	x11, [x12, #120]
	stp	x4, x28, [x12, #16]
	stp	x23, x7, [x12, #48]
	str	x6, [x12, #64]
	stur	q0, [x12, #88]
	stur	q1, [x12, #72]
	stp	x0, x10, [x12, #104]
	str	x9, [x12, #120]
	cbz	w13, .LBB25_72
// %bb.66:                              // %arm.2.i.i.i.i
	cbz	x11, .LBB25_68
// %bb.67:                              // %then.1.i.i.i.i.i.i.i.i
	mov	x0, x8
	bl	rattle_dealloc
.LBB25_68:                              // %"scq_port::leaving::drop_slots.exit.i.i.i.i.i"
	cbz	x25, .LBB25_70
// %bb.69:                              // %then.1.i.i.i5.i.i.i.i.i
	mov	x0, x22
	bl	rattle_dealloc
.LBB25_70:                              // %"std_alloc::vec::Vec::drop::<#322702e9d69ed9ef>.exit.i.i.i.i.i"
	cbz	x20, .LBB25_72
// %bb.71:                              // %then.1.i.i.i10.i.i.i.i.i
	mov	x0, x21
	bl	rattle_dealloc
.LBB25_72:                              // %arm.1.i
	ldr	x8, [x26, #240]
	mov	w9, #2                          // =0x2
	//APP
	//NO_APP
	add	x8, x8, x19
	stlr	x9, [x8]
	//APP
	//NO_APP
	stp	xzr, xzr, [sp, #400]
	stp	xzr, xzr, [x29, #-128]
	//APP
	//NO_APP
.LBB25_73:                              // %atomicrmw.start44
                                        // =>This Inner Loop Header: Depth=1
	ldaxr	x8, [x26]
	subs	x8, x8, #1
	stlxr	w9, x8, [x26]
	cbnz	w9, .LBB25_73
// %bb.74:                              // %atomicrmw.end43
	//APP
	//NO_APP
	ldr	x25, [sp, #224]                 // 8-byte Reload
	b.ne	.LBB25_116
// %bb.75:                              // %arm.5.i
	ldr	x8, [x26, #8]
	ldr	q0, [x26, #16]
	mov	x0, x26
	ldr	x27, [x26, #288]
	str	x8, [sp, #160]                  // 8-byte Spill
	ldr	x8, [x26, #32]
	str	q0, [sp, #400]
	ldr	q0, [x26, #80]
	str	x8, [sp, #96]                   // 8-byte Spill
	ldr	x8, [x26, #40]
	stur	q0, [x29, #-128]
	str	x8, [sp, #72]                   // 8-byte Spill
	ldr	x8, [x26, #48]
	str	x8, [sp, #32]                   // 8-byte Spill
	ldr	x8, [x26, #56]
	str	x8, [sp, #80]                   // 8-byte Spill
	ldr	x8, [x26, #64]
	str	x8, [sp, #24]                   // 8-byte Spill
	ldr	w8, [x26, #72]
	str	w8, [sp, #68]                   // 4-byte Spill
	ldr	w8, [x26, #76]
	str	x8, [sp, #232]                  // 8-byte Spill
	ldr	x8, [x26, #96]
	str	x8, [sp, #48]                   // 8-byte Spill
	ldr	x8, [x26, #104]
	str	x8, [sp, #40]                   // 8-byte Spill
	ldp	x8, x28, [x26, #112]
	str	x8, [sp, #88]                   // 8-byte Spill
	ldp	x8, x21, [x26, #128]
	str	x8, [sp, #104]                  // 8-byte Spill
	ldr	x8, [x26, #144]
	str	x8, [sp, #144]                  // 8-byte Spill
	ldr	x8, [x26, #152]
	str	x8, [sp, #136]                  // 8-byte Spill
	ldr	x8, [x26, #160]
	str	x8, [sp, #128]                  // 8-byte Spill
	ldr	x8, [x26, #168]
	str	x8, [sp, #264]                  // 8-byte Spill
	ldr	x8, [x26, #176]
	str	x8, [sp, #184]                  // 8-byte Spill
	ldr	x8, [x26, #184]
	str	x8, [sp, #56]                   // 8-byte Spill
	ldr	x8, [x26, #192]
	str	x8, [sp, #200]                  // 8-byte Spill
	ldr	x8, [x26, #200]
	str	x8, [sp, #208]                  // 8-byte Spill
	ldr	x8, [x26, #208]
	str	x8, [sp, #120]                  // 8-byte Spill
	ldr	x8, [x26, #216]
	str	x8, [sp, #192]                  // 8-byte Spill
	ldr	x8, [x26, #224]
	str	x8, [sp, #216]                  // 8-byte Spill
	ldp	x8, x19, [x26, #232]
	str	x8, [sp, #112]                  // 8-byte Spill
	ldr	x8, [x26, #248]
	str	x8, [sp, #280]                  // 8-byte Spill
	ldp	x22, x8, [x26, #264]
	str	x8, [sp, #168]                  // 8-byte Spill
	ldp	x8, x20, [x26, #304]
	str	x8, [sp, #256]                  // 8-byte Spill
	ldp	x8, x24, [x26, #320]
	str	x8, [sp, #176]                  // 8-byte Spill
	ldp	x23, x8, [x26, #336]
	str	x8, [sp, #296]                  // 8-byte Spill
	bl	rattle_dealloc
	movi	v2.2d, #0000000000000000
	ldr	q0, [sp, #400]
	ldur	q1, [x29, #-128]
	str	xzr, [sp, #624]
	stp	q1, q0, [sp, #304]
	str	x22, [sp, #288]                 // 8-byte Spill
	stp	q2, q2, [sp, #400]
	stp	q2, q2, [sp, #432]
	stp	q2, q2, [sp, #464]
	stp	q2, q2, [sp, #496]
	stp	q2, q2, [sp, #528]
	stp	q2, q2, [sp, #560]
	stp	q2, q2, [sp, #592]
	str	x28, [sp, #152]                 // 8-byte Spill
	cbz	x22, .LBB25_118
// %bb.76:                              // %join.5.i.i36.i.preheader
	ldr	x12, [sp, #296]                 // 8-byte Reload
	mov	x22, xzr
	stp	x27, x21, [sp, #8]              // 16-byte Folded Spill
	str	x20, [sp, #272]                 // 8-byte Spill
	str	x19, [sp, #248]                 // 8-byte Spill
	b	.LBB25_79
.LBB25_77:                              // %arm.14.i.i.i
                                        //   in Loop: Header=BB25_79 Depth=1
	ldr	x11, [sp, #272]                 // 8-byte Reload
	mov	w8, #96                         // =0x60
	ldr	x9, [sp, #256]                  // 8-byte Reload
	ldp	q0, q1, [x29, #-128]
	sub	x13, x29, #144
	madd	x8, x11, x8, x9
	ldur	w9, [x13, #11]
	ldur	w10, [x29, #-136]
	add	x11, x11, #1
	stp	q0, q1, [x29, #-176]
	ldp	q0, q1, [x29, #-176]
	stur	w9, [x13, #3]
	stur	w10, [x29, #-144]
	mov	w9, w10
	ldur	w10, [x13, #3]
	strb	w19, [x8, #48]
	ldr	x19, [sp, #248]                 // 8-byte Reload
	stp	q0, q1, [x8, #64]
	stp	x28, x14, [x8]
	stp	x25, x26, [x8, #16]
	stp	x15, x27, [x8, #32]
	stur	w9, [x8, #49]
	str	w10, [x8, #52]
	str	x21, [x8, #56]
	str	x11, [sp, #272]                 // 8-byte Spill
.LBB25_78:                              // %join.19.i.i.i
                                        //   in Loop: Header=BB25_79 Depth=1
	ldr	x8, [sp, #288]                  // 8-byte Reload
	add	x22, x22, #1
	cmp	x22, x8
	b.eq	.LBB25_103
.LBB25_79:                              // %join.5.i.i36.i
                                        // =>This Loop Header: Depth=1
                                        //     Child Loop BB25_84 Depth 2
	ldr	x8, [sp, #280]                  // 8-byte Reload
	add	x10, x8, x22, lsl #7
	ldr	x8, [x19, x22, lsl #3]
	ldp	x25, x26, [x10, #24]
	ldrb	w9, [x10]
	ldr	x28, [x10, #8]
	ldr	x27, [x10, #48]
	ldr	x0, [x10, #104]
	cmp	x8, #2
	ldr	x8, [x10, #120]
	b.ne	.LBB25_87
// %bb.80:                              // %then.6.i.i.i
                                        //   in Loop: Header=BB25_79 Depth=1
	cmp	w9, #1
	b.ne	.LBB25_208
// %bb.81:                              // %arm.9.i.i.i
                                        //   in Loop: Header=BB25_79 Depth=1
	ldur	w9, [x10, #57]
	ldr	x14, [x10, #16]
	sub	x13, x29, #144
	ldur	w11, [x10, #60]
	ldr	x15, [x10, #40]
	ldur	q0, [x10, #72]
	stur	w9, [x29, #-136]
	ldr	x9, [x10, #112]
	ldur	q1, [x10, #88]
	ldrb	w19, [x10, #56]
	ldr	x21, [x10, #64]
	stur	w11, [x13, #11]
	stp	q0, q1, [x29, #-128]
	cbz	x9, .LBB25_94
// %bb.82:                              // %arm.3.i.i.i.i.preheader
                                        //   in Loop: Header=BB25_79 Depth=1
	add	x10, x0, x9, lsl #3
	sub	x10, x10, #4
	b	.LBB25_84
.LBB25_83:                              // %join.6.i.i.i.i
                                        //   in Loop: Header=BB25_84 Depth=2
	sub	x9, x9, #1
	sub	x10, x10, #8
	cbz	x9, .LBB25_94
.LBB25_84:                              // %arm.3.i.i.i.i
                                        //   Parent Loop BB25_79 Depth=1
                                        // =>  This Inner Loop Header: Depth=2
	ldurb	w11, [x10, #-4]
	cmp	w11, #1
	b.ne	.LBB25_83
// %bb.85:                              // %arm.7.i.i.i.i
                                        //   in Loop: Header=BB25_84 Depth=2
	cmp	x12, x23
	b.ls	.LBB25_96
// %bb.86:                              // %join.12.i.i.i.i
                                        //   in Loop: Header=BB25_84 Depth=2
	ldr	w11, [x10]
	str	w11, [x24, x23, lsl #2]
	add	x23, x23, #1
	b	.LBB25_83
.LBB25_87:                              // %join.8.i.i.i
                                        //   in Loop: Header=BB25_79 Depth=1
	cmp	w9, #1
	b.ne	.LBB25_78
// %bb.88:                              // %arm.20.i.i.i
                                        //   in Loop: Header=BB25_79 Depth=1
	cbz	x8, .LBB25_90
// %bb.89:                              // %then.1.i.i.i.i24.i.i.i
                                        //   in Loop: Header=BB25_79 Depth=1
	bl	rattle_dealloc
	ldr	x12, [sp, #296]                 // 8-byte Reload
.LBB25_90:                              // %"scq_port::leaving::drop_slots.exit.i26.i.i.i"
                                        //   in Loop: Header=BB25_79 Depth=1
	cbz	x25, .LBB25_92
// %bb.91:                              // %then.1.i.i.i5.i.i.i.i
                                        //   in Loop: Header=BB25_79 Depth=1
	mov	x0, x28
	bl	rattle_dealloc
	ldr	x12, [sp, #296]                 // 8-byte Reload
.LBB25_92:                              // %"std_alloc::vec::Vec::drop::<#322702e9d69ed9ef>.exit.i27.i.i.i"
                                        //   in Loop: Header=BB25_79 Depth=1
	cbz	x27, .LBB25_78
// %bb.93:                              // %then.1.i.i.i10.i.i.i.i
                                        //   in Loop: Header=BB25_79 Depth=1
	mov	x0, x26
	bl	rattle_dealloc
	ldr	x12, [sp, #296]                 // 8-byte Reload
	b	.LBB25_78
.LBB25_94:                              // %after.1.i.i.i.i
                                        //   in Loop: Header=BB25_79 Depth=1
	cbz	x8, .LBB25_77
// %bb.95:                              // %then.1.i.i.i.i.i42.i
                                        //   in Loop: Header=BB25_79 Depth=1
	str	x25, [sp, #240]                 // 8-byte Spill
	mov	x25, x27
	mov	x27, x14
	mov	x20, x26
	mov	x26, x24
	mov	x24, x15
	bl	rattle_dealloc
	mov	x14, x27
	mov	x27, x25
	ldr	x25, [sp, #240]                 // 8-byte Reload
	ldr	x12, [sp, #296]                 // 8-byte Reload
	mov	x15, x24
	mov	x24, x26
	mov	x26, x20
	b	.LBB25_77
.LBB25_96:                              // %then.10.i.i.i.i
                                        //   in Loop: Header=BB25_79 Depth=1
	cbz	x8, .LBB25_98
// %bb.97:                              // %then.1.i.i.i.i.i.i.i
                                        //   in Loop: Header=BB25_79 Depth=1
	bl	rattle_dealloc
	ldr	x12, [sp, #296]                 // 8-byte Reload
.LBB25_98:                              // %"scq_port::leaving::drop_slots.exit.i.i.i.i"
                                        //   in Loop: Header=BB25_79 Depth=1
	ldr	x19, [sp, #248]                 // 8-byte Reload
	cbz	x25, .LBB25_100
// %bb.99:                              // %then.1.i.i.i16.i.i.i.i
                                        //   in Loop: Header=BB25_79 Depth=1
	mov	x0, x28
	bl	rattle_dealloc
	ldr	x12, [sp, #296]                 // 8-byte Reload
.LBB25_100:                             // %"std_alloc::vec::Vec::drop::<#322702e9d69ed9ef>.exit.i.i.i.i"
                                        //   in Loop: Header=BB25_79 Depth=1
	cbz	x27, .LBB25_102
// %bb.101:                             // %then.1.i.i.i21.i.i.i.i
                                        //   in Loop: Header=BB25_79 Depth=1
	mov	x0, x26
	bl	rattle_dealloc
	ldr	x12, [sp, #296]                 // 8-byte Reload
.LBB25_102:                             // %"scq_port::leaving::Leaving::unpack.exit.i.i.i"
                                        //   in Loop: Header=BB25_79 Depth=1
	movi	v0.2d, #0000000000000000
	sub	x8, x29, #144
	stur	wzr, [x8, #3]
	stur	wzr, [x29, #-144]
	stp	q0, q0, [x29, #-176]
	b	.LBB25_78
.LBB25_103:                             // %after.1.loopexit.i.i.i
	ldr	x20, [sp, #272]                 // 8-byte Reload
	ldr	x8, [sp, #288]                  // 8-byte Reload
	ldr	x25, [sp, #224]                 // 8-byte Reload
	ldp	x27, x28, [sp, #8]              // 16-byte Folded Reload
	cmp	x20, x8
	cset	w19, lo
	ldr	x0, [sp, #168]                  // 8-byte Reload
	bl	rattle_dealloc
	mov	x0, x27
	bl	rattle_dealloc
	ldr	x26, [sp, #200]                 // 8-byte Reload
	cbz	w19, .LBB25_119
// %bb.104:                             // %then.23.i.i.i
	ldr	x27, [sp, #152]                 // 8-byte Reload
	ldr	x8, [sp, #296]                  // 8-byte Reload
	cbz	x8, .LBB25_106
// %bb.105:                             // %then.1.i.i.i33.i.i.i
	mov	x0, x24
	bl	rattle_dealloc
.LBB25_106:                             // %"scq_port::leaving::drop_values.exit.i.i.i"
	ldp	x24, x23, [sp, #136]            // 16-byte Folded Reload
	cbz	x20, .LBB25_113
// %bb.107:                             // %join.5.i.i.i.i.i.i.i.i.preheader
	ldr	x8, [sp, #256]                  // 8-byte Reload
	add	x19, x8, #24
	b	.LBB25_109
.LBB25_108:                             // %"core::mem::drop::<#db57577750518db5>.exit.i.i.i.i.i.i.i.i"
                                        //   in Loop: Header=BB25_109 Depth=1
	subs	x20, x20, #1
	add	x19, x19, #96
	b.eq	.LBB25_113
.LBB25_109:                             // %join.5.i.i.i.i.i.i.i.i
                                        // =>This Inner Loop Header: Depth=1
	ldp	x8, x26, [x19, #-8]
	ldr	x22, [x19, #16]
	cbz	x8, .LBB25_111
// %bb.110:                             // %then.1.i.i.i.i.i.i.i.i.i.i.i.i.i.i
                                        //   in Loop: Header=BB25_109 Depth=1
	ldur	x0, [x19, #-24]
	bl	rattle_dealloc
.LBB25_111:                             // %"std_alloc::vec::Vec::drop::<#322702e9d69ed9ef>.exit.i.i.i.i.i.i.i.i.i.i.i"
                                        //   in Loop: Header=BB25_109 Depth=1
	cbz	x22, .LBB25_108
// %bb.112:                             // %then.1.i.i.i4.i.i.i.i.i.i.i.i.i.i.i
                                        //   in Loop: Header=BB25_109 Depth=1
	mov	x0, x26
	bl	rattle_dealloc
	b	.LBB25_108
.LBB25_113:                             // %"std_alloc::vec::Vec::clear::<#6556fae6c29054f4>.exit.i.i.i.i"
	ldr	x8, [sp, #176]                  // 8-byte Reload
	cbz	x8, .LBB25_115
// %bb.114:                             // %then.1.i.i.i39.i.i.i
	ldr	x0, [sp, #256]                  // 8-byte Reload
	bl	rattle_dealloc
.LBB25_115:                             // %arm.2.i.i
	ldr	x8, [sp, #160]                  // 8-byte Reload
	ldr	q0, [sp, #320]
	add	x0, sp, #400
	str	x28, [sp, #528]
	str	x8, [sp, #400]
	add	x8, sp, #153
	stur	q0, [x8, #255]
	ldr	x8, [sp, #96]                   // 8-byte Reload
	ldr	q0, [sp, #304]
	str	x23, [sp, #536]
	str	x8, [sp, #424]
	ldr	x8, [sp, #72]                   // 8-byte Reload
	str	x24, [sp, #544]
	str	x8, [sp, #432]
	ldr	x8, [sp, #32]                   // 8-byte Reload
	str	x8, [sp, #440]
	ldr	x8, [sp, #80]                   // 8-byte Reload
	str	x8, [sp, #448]
	ldr	x8, [sp, #24]                   // 8-byte Reload
	str	x8, [sp, #456]
	ldr	w8, [sp, #68]                   // 4-byte Reload
	str	w8, [sp, #464]
	ldr	x8, [sp, #232]                  // 8-byte Reload
	str	w8, [sp, #468]
	add	x8, sp, #217
	stur	q0, [x8, #255]
	ldr	x8, [sp, #48]                   // 8-byte Reload
	str	x8, [sp, #488]
	ldr	x8, [sp, #40]                   // 8-byte Reload
	str	x8, [sp, #496]
	ldr	x8, [sp, #88]                   // 8-byte Reload
	stp	x8, x27, [sp, #504]
	ldr	x8, [sp, #104]                  // 8-byte Reload
	str	x8, [sp, #520]
	ldr	x8, [sp, #128]                  // 8-byte Reload
	str	x8, [sp, #552]
	ldr	x8, [sp, #264]                  // 8-byte Reload
	str	x8, [sp, #560]
	ldr	x8, [sp, #184]                  // 8-byte Reload
	str	x8, [sp, #568]
	ldr	x8, [sp, #56]                   // 8-byte Reload
	str	x8, [sp, #576]
	ldr	x8, [sp, #200]                  // 8-byte Reload
	str	x8, [sp, #584]
	ldr	x8, [sp, #208]                  // 8-byte Reload
	str	x8, [sp, #592]
	ldr	x8, [sp, #120]                  // 8-byte Reload
	str	x8, [sp, #600]
	ldr	x8, [sp, #192]                  // 8-byte Reload
	str	x8, [sp, #608]
	ldr	x8, [sp, #216]                  // 8-byte Reload
	str	x8, [sp, #616]
	ldr	x8, [sp, #112]                  // 8-byte Reload
	str	x8, [sp, #624]
	bl	"scq_queue::queue::Queue::abandon::<#a764f8bb96b57390>"
.LBB25_116:                             // %arm.6.i
	mov	x8, xzr
	mov	x13, xzr
	mov	x9, xzr
	mov	x28, xzr
	mov	x19, xzr
	mov	x20, xzr
	mov	x22, xzr
	mov	x26, xzr
	mov	x23, xzr
	mov	x24, xzr
	mov	x10, xzr
	mov	x11, xzr
	mov	x12, xzr
.LBB25_117:                             // %"scq_port::port::Port::leave.exit"
	stp	x8, x13, [x25]
	stp	x9, x28, [x25, #16]
	stp	x19, x20, [x25, #32]
	stp	x22, x26, [x25, #48]
	stp	x23, x24, [x25, #64]
	stp	x10, x11, [x25, #80]
	str	x12, [x25, #96]
	add	sp, sp, #928
	ldp	x20, x19, [sp, #80]             // 16-byte Folded Reload
	ldp	x22, x21, [sp, #64]             // 16-byte Folded Reload
	ldp	x24, x23, [sp, #48]             // 16-byte Folded Reload
	ldp	x26, x25, [sp, #32]             // 16-byte Folded Reload
	ldp	x28, x27, [sp, #16]             // 16-byte Folded Reload
	ldp	x29, x30, [sp], #96             // 16-byte Folded Reload
	ret
.LBB25_118:
	mov	x28, x21
	ldr	x0, [sp, #168]                  // 8-byte Reload
	bl	rattle_dealloc
	mov	x0, x27
	bl	rattle_dealloc
	ldr	x26, [sp, #200]                 // 8-byte Reload
.LBB25_119:                             // %arm.1.i38.i
	cmp	x20, #15
	b.ls	.LBB25_121
// %bb.120:                             // %"std_alloc::vec::Vec::reverse::<#2923e4ee7bb015e8>.exit.thread.i.i.i.i"
	lsr	x2, x20, #1
	mov	w9, #96                         // =0x60
	ldr	x0, [sp, #256]                  // 8-byte Reload
	sub	x8, x20, x2
	madd	x1, x8, x9, x0
	bl	"core::slice::edits::mirror::<42'scq_queue::pass::Pass::<#5ff1ac3e48fe92e9>>"
	ldp	x0, x19, [sp, #176]             // 16-byte Folded Reload
	ldr	x21, [sp, #160]                 // 8-byte Reload
	b	.LBB25_155
.LBB25_121:                             // %loop.5.preheader.i.i.i.i.i.i.i
	ldp	x0, x19, [sp, #176]             // 16-byte Folded Reload
	subs	x9, x20, #2
	ldr	x21, [sp, #160]                 // 8-byte Reload
	b.lo	.LBB25_154
// %bb.122:                             // %join.8.preheader.i.i.i.i.i.i.i
	lsr	x8, x9, #1
	subs	x10, x20, #1
	b.eq	.LBB25_124
// %bb.123:                             // %then.1.i.i.i.i.i.i.i40.i
	ldr	x12, [sp, #256]                 // 8-byte Reload
	mov	w11, #96                        // =0x60
	madd	x10, x10, x11, x12
	ldp	q0, q1, [x12, #32]
	stp	q0, q1, [x29, #-96]
	ldp	q0, q2, [x12, #64]
	ldp	q5, q4, [x10]
	stp	q0, q2, [x29, #-64]
	ldp	q0, q1, [x12]
	ldp	q2, q3, [x10, #64]
	stp	q0, q1, [x29, #-128]
	ldp	q0, q1, [x10, #32]
	stp	q5, q4, [x12]
	stp	q2, q3, [x12, #64]
	stp	q0, q1, [x12, #32]
	ldp	q0, q1, [x29, #-96]
	stp	q0, q1, [x10, #32]
	ldp	q2, q0, [x29, #-64]
	stp	q2, q0, [x10, #64]
	ldp	q1, q0, [x29, #-128]
	stp	q1, q0, [x10]
.LBB25_124:                             // %"core::slice::edits::slice+T::swap::<42'scq_queue::pass::Pass::<#5ff1ac3e48fe92e9>>.exit.i.i.i.i.i.i.i"
	cbz	x8, .LBB25_154
// %bb.125:                             // %join.8.i.i.i.i.i.i.i.1
	cmp	x9, #1
	b.ls	.LBB25_127
// %bb.126:                             // %then.1.i.i.i.i.i.i.i40.i.1
	ldr	x11, [sp, #256]                 // 8-byte Reload
	mov	w10, #96                        // =0x60
	madd	x9, x9, x10, x11
	ldp	q0, q1, [x11, #128]
	stp	q0, q1, [x29, #-96]
	ldp	q0, q2, [x11, #160]
	ldp	q5, q4, [x9]
	stp	q0, q2, [x29, #-64]
	ldp	q0, q1, [x11, #96]
	ldp	q2, q3, [x9, #64]
	stp	q0, q1, [x29, #-128]
	ldp	q0, q1, [x9, #32]
	stp	q5, q4, [x11, #96]
	stp	q2, q3, [x11, #160]
	stp	q0, q1, [x11, #128]
	ldp	q0, q1, [x29, #-96]
	stp	q0, q1, [x9, #32]
	ldp	q2, q0, [x29, #-64]
	stp	q2, q0, [x9, #64]
	ldp	q1, q0, [x29, #-128]
	stp	q1, q0, [x9]
	b	.LBB25_129
.LBB25_127:                             // %else.2.i.i.i.i.i.i.i.i.1
	cbnz	x9, .LBB25_129
// %bb.128:                             // %then.4.i.i.i.i.i.i.i.i.1
	mov	w10, #96                        // =0x60
	ldr	x11, [sp, #256]                 // 8-byte Reload
	madd	x9, x9, x10, x11
	ldp	q0, q1, [x9, #32]
	stp	q0, q1, [x29, #-96]
	ldp	q0, q2, [x9, #64]
	stp	q0, q2, [x29, #-64]
	ldp	q0, q1, [x9]
	ldp	q2, q3, [x11, #160]
	stp	q0, q1, [x29, #-128]
	ldp	q0, q4, [x11, #128]
	ldp	q5, q1, [x11, #96]
	stp	q2, q3, [x9, #64]
	stp	q0, q4, [x9, #32]
	stp	q5, q1, [x9]
	ldp	q0, q1, [x29, #-96]
	stp	q0, q1, [x11, #128]
	ldp	q2, q0, [x29, #-64]
	stp	q2, q0, [x11, #160]
	ldp	q1, q0, [x29, #-128]
	stp	q1, q0, [x11, #96]
.LBB25_129:                             // %"core::slice::edits::slice+T::swap::<42'scq_queue::pass::Pass::<#5ff1ac3e48fe92e9>>.exit.i.i.i.i.i.i.i.1"
	cmp	x8, #1
	b.eq	.LBB25_154
// %bb.130:                             // %join.8.i.i.i.i.i.i.i.2
	sub	x9, x20, #3
	cmp	x9, #2
	b.ls	.LBB25_132
// %bb.131:                             // %then.1.i.i.i.i.i.i.i40.i.2
	ldr	x11, [sp, #256]                 // 8-byte Reload
	mov	w10, #96                        // =0x60
	madd	x9, x9, x10, x11
	ldp	q0, q1, [x11, #224]
	stp	q0, q1, [x29, #-96]
	ldp	q0, q2, [x11, #256]
	ldp	q5, q4, [x9]
	stp	q0, q2, [x29, #-64]
	ldp	q0, q1, [x11, #192]
	ldp	q2, q3, [x9, #64]
	stp	q0, q1, [x29, #-128]
	ldp	q0, q1, [x9, #32]
	stp	q5, q4, [x11, #192]
	stp	q2, q3, [x11, #256]
	stp	q0, q1, [x11, #224]
	ldp	q0, q1, [x29, #-96]
	stp	q0, q1, [x9, #32]
	ldp	q2, q0, [x29, #-64]
	stp	q2, q0, [x9, #64]
	ldp	q1, q0, [x29, #-128]
	stp	q1, q0, [x9]
	b	.LBB25_134
.LBB25_132:                             // %else.2.i.i.i.i.i.i.i.i.2
	b.eq	.LBB25_134
// %bb.133:                             // %then.4.i.i.i.i.i.i.i.i.2
	mov	w10, #96                        // =0x60
	ldr	x11, [sp, #256]                 // 8-byte Reload
	madd	x9, x9, x10, x11
	ldp	q0, q1, [x9, #32]
	stp	q0, q1, [x29, #-96]
	ldp	q0, q2, [x9, #64]
	stp	q0, q2, [x29, #-64]
	ldp	q0, q1, [x9]
	ldp	q2, q3, [x11, #256]
	stp	q0, q1, [x29, #-128]
	ldp	q0, q4, [x11, #224]
	ldp	q5, q1, [x11, #192]
	stp	q2, q3, [x9, #64]
	stp	q0, q4, [x9, #32]
	stp	q5, q1, [x9]
	ldp	q0, q1, [x29, #-96]
	stp	q0, q1, [x11, #224]
	ldp	q2, q0, [x29, #-64]
	stp	q2, q0, [x11, #256]
	ldp	q1, q0, [x29, #-128]
	stp	q1, q0, [x11, #192]
.LBB25_134:                             // %"core::slice::edits::slice+T::swap::<42'scq_queue::pass::Pass::<#5ff1ac3e48fe92e9>>.exit.i.i.i.i.i.i.i.2"
	cmp	x8, #2
	b.eq	.LBB25_154
// %bb.135:                             // %join.8.i.i.i.i.i.i.i.3
	sub	x9, x20, #4
	cmp	x9, #3
	b.ls	.LBB25_137
// %bb.136:                             // %then.1.i.i.i.i.i.i.i40.i.3
	ldr	x11, [sp, #256]                 // 8-byte Reload
	mov	w10, #96                        // =0x60
	madd	x9, x9, x10, x11
	ldp	q0, q1, [x11, #320]
	stp	q0, q1, [x29, #-96]
	ldp	q0, q2, [x11, #352]
	ldp	q5, q4, [x9]
	stp	q0, q2, [x29, #-64]
	ldp	q0, q1, [x11, #288]
	ldp	q2, q3, [x9, #64]
	stp	q0, q1, [x29, #-128]
	ldp	q0, q1, [x9, #32]
	stp	q5, q4, [x11, #288]
	stp	q2, q3, [x11, #352]
	stp	q0, q1, [x11, #320]
	ldp	q0, q1, [x29, #-96]
	stp	q0, q1, [x9, #32]
	ldp	q2, q0, [x29, #-64]
	stp	q2, q0, [x9, #64]
	ldp	q1, q0, [x29, #-128]
	stp	q1, q0, [x9]
	b	.LBB25_139
.LBB25_137:                             // %else.2.i.i.i.i.i.i.i.i.3
	b.eq	.LBB25_139
// %bb.138:                             // %then.4.i.i.i.i.i.i.i.i.3
	mov	w10, #96                        // =0x60
	ldr	x11, [sp, #256]                 // 8-byte Reload
	madd	x9, x9, x10, x11
	ldp	q0, q1, [x9, #32]
	stp	q0, q1, [x29, #-96]
	ldp	q0, q2, [x9, #64]
	stp	q0, q2, [x29, #-64]
	ldp	q0, q1, [x9]
	ldp	q2, q3, [x11, #352]
	stp	q0, q1, [x29, #-128]
	ldp	q0, q4, [x11, #320]
	ldp	q5, q1, [x11, #288]
	stp	q2, q3, [x9, #64]
	stp	q0, q4, [x9, #32]
	stp	q5, q1, [x9]
	ldp	q0, q1, [x29, #-96]
	stp	q0, q1, [x11, #320]
	ldp	q2, q0, [x29, #-64]
	stp	q2, q0, [x11, #352]
	ldp	q1, q0, [x29, #-128]
	stp	q1, q0, [x11, #288]
.LBB25_139:                             // %"core::slice::edits::slice+T::swap::<42'scq_queue::pass::Pass::<#5ff1ac3e48fe92e9>>.exit.i.i.i.i.i.i.i.3"
	cmp	x8, #3
	b.eq	.LBB25_154
// %bb.140:                             // %join.8.i.i.i.i.i.i.i.4
	sub	x9, x20, #5
	cmp	x9, #4
	b.ls	.LBB25_142
// %bb.141:                             // %then.1.i.i.i.i.i.i.i40.i.4
	ldr	x11, [sp, #256]                 // 8-byte Reload
	mov	w10, #96                        // =0x60
	madd	x9, x9, x10, x11
	ldp	q0, q1, [x11, #416]
	stp	q0, q1, [x29, #-96]
	ldp	q0, q2, [x11, #448]
	ldp	q5, q4, [x9]
	stp	q0, q2, [x29, #-64]
	ldp	q0, q1, [x11, #384]
	ldp	q2, q3, [x9, #64]
	stp	q0, q1, [x29, #-128]
	ldp	q0, q1, [x9, #32]
	stp	q5, q4, [x11, #384]
	stp	q2, q3, [x11, #448]
	stp	q0, q1, [x11, #416]
	ldp	q0, q1, [x29, #-96]
	stp	q0, q1, [x9, #32]
	ldp	q2, q0, [x29, #-64]
	stp	q2, q0, [x9, #64]
	ldp	q1, q0, [x29, #-128]
	stp	q1, q0, [x9]
	b	.LBB25_144
.LBB25_142:                             // %else.2.i.i.i.i.i.i.i.i.4
	b.eq	.LBB25_144
// %bb.143:                             // %then.4.i.i.i.i.i.i.i.i.4
	mov	w10, #96                        // =0x60
	ldr	x11, [sp, #256]                 // 8-byte Reload
	madd	x9, x9, x10, x11
	ldp	q0, q1, [x9, #32]
	stp	q0, q1, [x29, #-96]
	ldp	q0, q2, [x9, #64]
	stp	q0, q2, [x29, #-64]
	ldp	q0, q1, [x9]
	ldp	q2, q3, [x11, #448]
	stp	q0, q1, [x29, #-128]
	ldp	q0, q4, [x11, #416]
	ldp	q5, q1, [x11, #384]
	stp	q2, q3, [x9, #64]
	stp	q0, q4, [x9, #32]
	stp	q5, q1, [x9]
	ldp	q0, q1, [x29, #-96]
	stp	q0, q1, [x11, #416]
	ldp	q2, q0, [x29, #-64]
	stp	q2, q0, [x11, #448]
	ldp	q1, q0, [x29, #-128]
	stp	q1, q0, [x11, #384]
.LBB25_144:                             // %"core::slice::edits::slice+T::swap::<42'scq_queue::pass::Pass::<#5ff1ac3e48fe92e9>>.exit.i.i.i.i.i.i.i.4"
	cmp	x8, #4
	b.eq	.LBB25_154
// %bb.145:                             // %join.8.i.i.i.i.i.i.i.5
	sub	x9, x20, #6
	cmp	x9, #5
	b.ls	.LBB25_147
// %bb.146:                             // %then.1.i.i.i.i.i.i.i40.i.5
	ldr	x11, [sp, #256]                 // 8-byte Reload
	mov	w10, #96                        // =0x60
	madd	x9, x9, x10, x11
	ldp	q0, q1, [x11, #512]
	stp	q0, q1, [x29, #-96]
	ldp	q0, q2, [x11, #544]
	ldp	q5, q4, [x9]
	stp	q0, q2, [x29, #-64]
	ldp	q0, q1, [x11, #480]
	ldp	q2, q3, [x9, #64]
	stp	q0, q1, [x29, #-128]
	ldp	q0, q1, [x9, #32]
	stp	q5, q4, [x11, #480]
	stp	q2, q3, [x11, #544]
	stp	q0, q1, [x11, #512]
	ldp	q0, q1, [x29, #-96]
	stp	q0, q1, [x9, #32]
	ldp	q2, q0, [x29, #-64]
	stp	q2, q0, [x9, #64]
	ldp	q1, q0, [x29, #-128]
	stp	q1, q0, [x9]
	b	.LBB25_149
.LBB25_147:                             // %else.2.i.i.i.i.i.i.i.i.5
	b.eq	.LBB25_149
// %bb.148:                             // %then.4.i.i.i.i.i.i.i.i.5
	mov	w10, #96                        // =0x60
	ldr	x11, [sp, #256]                 // 8-byte Reload
	madd	x9, x9, x10, x11
	ldp	q0, q1, [x9, #32]
	stp	q0, q1, [x29, #-96]
	ldp	q0, q2, [x9, #64]
	stp	q0, q2, [x29, #-64]
	ldp	q0, q1, [x9]
	ldp	q2, q3, [x11, #544]
	stp	q0, q1, [x29, #-128]
	ldp	q0, q4, [x11, #512]
	ldp	q5, q1, [x11, #480]
	stp	q2, q3, [x9, #64]
	stp	q0, q4, [x9, #32]
	stp	q5, q1, [x9]
	ldp	q0, q1, [x29, #-96]
	stp	q0, q1, [x11, #512]
	ldp	q2, q0, [x29, #-64]
	stp	q2, q0, [x11, #544]
	ldp	q1, q0, [x29, #-128]
	stp	q1, q0, [x11, #480]
.LBB25_149:                             // %"core::slice::edits::slice+T::swap::<42'scq_queue::pass::Pass::<#5ff1ac3e48fe92e9>>.exit.i.i.i.i.i.i.i.5"
	cmp	x8, #5
	b.eq	.LBB25_154
// %bb.150:                             // %join.8.i.i.i.i.i.i.i.6
	sub	x8, x20, #7
	cmp	x8, #6
	b.ls	.LBB25_152
// %bb.151:                             // %then.1.i.i.i.i.i.i.i40.i.6
	ldr	x10, [sp, #256]                 // 8-byte Reload
	mov	w9, #96                         // =0x60
	madd	x8, x8, x9, x10
	ldp	q0, q1, [x10, #608]
	stp	q0, q1, [x29, #-96]
	ldp	q0, q2, [x10, #640]
	ldp	q5, q4, [x8]
	stp	q0, q2, [x29, #-64]
	ldp	q0, q1, [x10, #576]
	ldp	q2, q3, [x8, #64]
	stp	q0, q1, [x29, #-128]
	ldp	q0, q1, [x8, #32]
	stp	q5, q4, [x10, #576]
	stp	q2, q3, [x10, #640]
	stp	q0, q1, [x10, #608]
	ldp	q0, q1, [x29, #-96]
	stp	q0, q1, [x8, #32]
	ldp	q2, q0, [x29, #-64]
	stp	q2, q0, [x8, #64]
	ldp	q1, q0, [x29, #-128]
	stp	q1, q0, [x8]
	b	.LBB25_154
.LBB25_152:                             // %else.2.i.i.i.i.i.i.i.i.6
	b.eq	.LBB25_154
// %bb.153:                             // %then.4.i.i.i.i.i.i.i.i.6
	mov	w9, #96                         // =0x60
	ldr	x10, [sp, #256]                 // 8-byte Reload
	madd	x8, x8, x9, x10
	ldp	q0, q1, [x8, #32]
	stp	q0, q1, [x29, #-96]
	ldp	q0, q2, [x8, #64]
	stp	q0, q2, [x29, #-64]
	ldp	q0, q1, [x8]
	ldp	q2, q3, [x10, #640]
	stp	q0, q1, [x29, #-128]
	ldp	q0, q4, [x10, #608]
	ldp	q5, q1, [x10, #576]
	stp	q2, q3, [x8, #64]
	stp	q0, q4, [x8, #32]
	stp	q5, q1, [x8]
	ldp	q0, q1, [x29, #-96]
	stp	q0, q1, [x10, #608]
	ldp	q2, q0, [x29, #-64]
	stp	q2, q0, [x10, #640]
	ldp	q1, q0, [x29, #-128]
	stp	q1, q0, [x10, #576]
.LBB25_154:                             // %"std_alloc::vec::Vec::reverse::<#2923e4ee7bb015e8>.exit.i.i.i.i"
	cbz	x20, .LBB25_158
.LBB25_155:                             // %arm.3.lr.ph.i.i.i.i
	mov	w9, #96                         // =0x60
	ldr	x10, [sp, #256]                 // 8-byte Reload
	ldr	x13, [sp, #192]                 // 8-byte Reload
	madd	x11, x20, x9, x10
	ldp	x10, x14, [sp, #208]            // 16-byte Folded Reload
	mov	w9, #24                         // =0x18
	mov	x8, xzr
	madd	x9, x10, x9, x26
	ldr	x10, [sp, #264]                 // 8-byte Reload
	add	x13, x13, x14
	add	x12, x10, x19, lsl #6
	sub	x10, x29, #128
	sub	x11, x11, #48
	add	x12, x12, #56
.LBB25_156:                             // %arm.3.i.i8.i.i
                                        // =>This Inner Loop Header: Depth=1
	ldr	q0, [x11, #16]
	ldr	x15, [x11, #32]
	ldrb	w14, [x11]
	ldur	q1, [x11, #-48]
	ldur	x18, [x11, #-8]
	ldr	x16, [x11, #8]
	stur	q0, [x29, #-176]
	ldrb	w17, [x11, #40]
	ldur	q0, [x11, #-24]
	stur	x15, [x29, #-160]
	ldur	x15, [x11, #-32]
	sub	x11, x11, #96
	stur	q1, [x12, #-56]
	ldur	q1, [x29, #-176]
	stp	x18, x14, [x12, #-16]
	ldur	x14, [x29, #-160]
	stur	x15, [x12, #-40]
	stur	q0, [x12, #-32]
	str	x16, [x12], #64
	str	q1, [x9]
	str	x14, [x9, #16]
	and	w14, w17, #0x1
	add	x9, x9, #24
	strb	w14, [x13, x8]
	add	x8, x8, #1
	cmp	x20, x8
	stur	q0, [x10, #24]
	stur	x18, [x10, #40]
	b.ne	.LBB25_156
// %bb.157:                             // %after.1.i.i15.i.i.loopexit
	ldr	x9, [sp, #208]                  // 8-byte Reload
	add	x19, x19, x8
	add	x9, x9, x8
	str	x9, [sp, #208]                  // 8-byte Spill
	ldr	x9, [sp, #216]                  // 8-byte Reload
	add	x9, x9, x8
	str	x9, [sp, #216]                  // 8-byte Spill
.LBB25_158:                             // %after.1.i.i15.i.i
	cbz	x0, .LBB25_160
// %bb.159:                             // %then.1.i.i.i.i17.i.i
	ldr	x0, [sp, #256]                  // 8-byte Reload
	bl	rattle_dealloc
.LBB25_160:                             // %"scq_queue::closing::unpack::<#aae3f6a89b556e54>.exit.i.i.i"
	cbz	x19, .LBB25_208
// %bb.161:                             // %arm.1.i.i.i.i.i.i
	ldr	x8, [sp, #264]                  // 8-byte Reload
	sub	x19, x19, #1
	add	x8, x8, x19, lsl #6
	ldr	x22, [x8, #40]
	ldr	w9, [x8, #8]
	ldr	x0, [x8]
	ldp	x8, x20, [x8, #16]
	cbz	x9, .LBB25_172
// %bb.162:                             // %join.5.i.i.i.i.i.i18.i.i.preheader
	mov	x10, xzr
	b	.LBB25_165
.LBB25_163:                             // %"scq_band::closing::lay_back::<#8efddd2aaba6d9e2>.exit.i.i.i.i.i.i.i.i"
                                        //   in Loop: Header=BB25_165 Depth=1
	//APP
	//NO_APP
	ldar	xzr, [x21]
	//APP
	//NO_APP
.LBB25_164:                             // %loop.2.backedge.i.i.i.i.i.i.i.i
                                        //   in Loop: Header=BB25_165 Depth=1
	add	x10, x10, #1
	cmp	x10, x9
	b.eq	.LBB25_172
.LBB25_165:                             // %join.5.i.i.i.i.i.i18.i.i
                                        // =>This Loop Header: Depth=1
                                        //     Child Loop BB25_168 Depth 2
	ldrb	w11, [x0, x10]
	tbz	w11, #0, .LBB25_164
// %bb.166:                             // %join.8.i.i.i.i.i.i.i.i
                                        //   in Loop: Header=BB25_165 Depth=1
	cbz	x23, .LBB25_208
// %bb.167:                             // %join.5.i.i.i.i.i.i.i.i.i.i.preheader
                                        //   in Loop: Header=BB25_165 Depth=1
	mov	x11, x24
	mov	x12, x23
.LBB25_168:                             // %join.5.i.i.i.i.i.i.i.i.i.i
                                        //   Parent Loop BB25_165 Depth=1
                                        // =>  This Inner Loop Header: Depth=2
	ldr	w13, [x11]
	cmp	x10, x13
	b.eq	.LBB25_170
// %bb.169:                             // %join.8.i.i.i.i.i.i.i.i.i.i
                                        //   in Loop: Header=BB25_168 Depth=2
	subs	x12, x12, #1
	add	x11, x11, #4
	b.ne	.LBB25_168
	b	.LBB25_208
.LBB25_170:                             // %then.6.i.i.i.i.i.i.i.i.i.i
                                        //   in Loop: Header=BB25_165 Depth=1
	cmp	x12, #1
	sub	x23, x23, #1
	b.eq	.LBB25_163
// %bb.171:                             // %join.4.i.i.i.i.i.i.i.i.i.i.i.i
                                        //   in Loop: Header=BB25_165 Depth=1
	ldr	w12, [x24, x23, lsl #2]
	str	w12, [x11]
	b	.LBB25_163
.LBB25_172:                             // %after.1.i.i.i.i.i.i.i.i
	cbz	x8, .LBB25_174
// %bb.173:                             // %then.1.i.i.i.i.i.i.i.i.i.i.i
	bl	rattle_dealloc
.LBB25_174:                             // %"scq_band::closing::bring_all::<#8efddd2aaba6d9e2>.exit.i.i.i.i.i.i.i"
	cbz	x22, .LBB25_176
// %bb.175:                             // %then.1.i.i.i.i.i.i.i.i.i.i
	mov	x0, x20
	bl	rattle_dealloc
.LBB25_176:                             // %"scq_band::closing::bring_seat_home::<#8efddd2aaba6d9e2>.exit.i.i.i.i.i.i"
	ldr	x14, [sp, #296]                 // 8-byte Reload
	cbnz	x19, .LBB25_185
.LBB25_177:                             // %after.6.i.i.i.i.i.i
	ldr	x8, [sp, #56]                   // 8-byte Reload
	cbz	x8, .LBB25_179
// %bb.178:                             // %then.1.i.i.i.i.i2.i.i.i
	ldr	x0, [sp, #264]                  // 8-byte Reload
	bl	rattle_dealloc
	ldr	x14, [sp, #296]                 // 8-byte Reload
.LBB25_179:                             // %"std_alloc::vec::Vec::destroy_empty::<#07c719505c6fb3d4>.exit.i.i.i.i.i.i"
	ldr	w23, [sp, #68]                  // 4-byte Reload
	cbz	x14, .LBB25_181
// %bb.180:                             // %then.1.i.i81.i.i.i.i.i.i
	mov	x0, x24
	bl	rattle_dealloc
.LBB25_181:                             // %"scq_band::closing::gather::<#8efddd2aaba6d9e2>.exit.i.i.i.i.i"
	ldr	x8, [sp, #232]                  // 8-byte Reload
	cbz	w8, .LBB25_200
// %bb.182:                             // %join.5.lr.ph.i.i.i.i.i.i
	add	w11, w23, #1
	mov	w9, #1                          // =0x1
	mov	w17, w23
	subs	w8, w11, #3
	ldp	x20, x19, [sp, #136]            // 16-byte Folded Reload
	csel	w8, wzr, w8, lo
	cmp	w23, #10
	ldp	x24, x22, [sp, #120]            // 16-byte Folded Reload
	cinv	w10, w9, hs
	cmp	w23, #31
	ldr	x23, [sp, #208]                 // 8-byte Reload
	b.lo	.LBB25_201
// %bb.183:                             // %join.5.us.i.preheader.i.i.i.i.i
	ldr	x21, [sp, #232]                 // 8-byte Reload
	add	x0, x19, x20, lsl #3
	mov	w1, wzr
	lsl	x2, x21, #3
	bl	memset
	add	x20, x20, x21
	b	.LBB25_205
.LBB25_184:                             // %"scq_band::closing::bring_seat_home::<#8efddd2aaba6d9e2>.exit77.i.i.i.i.i.i"
                                        //   in Loop: Header=BB25_185 Depth=1
	//APP
	//NO_APP
	ldar	xzr, [x21]
	//APP
	//NO_APP
	cbz	x19, .LBB25_177
.LBB25_185:                             // %arm.8.i.i.i.i.i.i
                                        // =>This Loop Header: Depth=1
                                        //     Child Loop BB25_189 Depth 2
                                        //       Child Loop BB25_192 Depth 3
	ldr	x8, [sp, #264]                  // 8-byte Reload
	sub	x19, x19, #1
	add	x8, x8, x19, lsl #6
	ldr	x22, [x8, #40]
	ldr	w9, [x8, #8]
	ldr	x0, [x8]
	ldp	x8, x20, [x8, #16]
	cbz	x9, .LBB25_196
// %bb.186:                             // %join.5.i.i37.i.i.i.i.i.i.preheader
                                        //   in Loop: Header=BB25_185 Depth=1
	mov	x10, xzr
	b	.LBB25_189
.LBB25_187:                             // %"scq_band::closing::lay_back::<#8efddd2aaba6d9e2>.exit.i.i74.i.i.i.i.i.i"
                                        //   in Loop: Header=BB25_189 Depth=2
	//APP
	//NO_APP
	ldar	xzr, [x21]
	//APP
	//NO_APP
.LBB25_188:                             // %loop.2.backedge.i.i42.i.i.i.i.i.i
                                        //   in Loop: Header=BB25_189 Depth=2
	add	x10, x10, #1
	cmp	x10, x9
	b.eq	.LBB25_196
.LBB25_189:                             // %join.5.i.i37.i.i.i.i.i.i
                                        //   Parent Loop BB25_185 Depth=1
                                        // =>  This Loop Header: Depth=2
                                        //       Child Loop BB25_192 Depth 3
	ldrb	w11, [x0, x10]
	tbz	w11, #0, .LBB25_188
// %bb.190:                             // %join.8.i.i51.i.i.i.i.i.i
                                        //   in Loop: Header=BB25_189 Depth=2
	cbz	x23, .LBB25_208
// %bb.191:                             // %join.5.i.i.i.i56.i.i.i.i.i.i.preheader
                                        //   in Loop: Header=BB25_189 Depth=2
	mov	x11, x24
	mov	x12, x23
.LBB25_192:                             // %join.5.i.i.i.i56.i.i.i.i.i.i
                                        //   Parent Loop BB25_185 Depth=1
                                        //     Parent Loop BB25_189 Depth=2
                                        // =>    This Inner Loop Header: Depth=3
	ldr	w13, [x11]
	cmp	x10, x13
	b.eq	.LBB25_194
// %bb.193:                             // %join.8.i.i.i.i62.i.i.i.i.i.i
                                        //   in Loop: Header=BB25_192 Depth=3
	subs	x12, x12, #1
	add	x11, x11, #4
	b.ne	.LBB25_192
	b	.LBB25_208
.LBB25_194:                             // %then.6.i.i.i.i66.i.i.i.i.i.i
                                        //   in Loop: Header=BB25_189 Depth=2
	cmp	x12, #1
	sub	x23, x23, #1
	b.eq	.LBB25_187
// %bb.195:                             // %join.4.i.i.i.i.i.i69.i.i.i.i.i.i
                                        //   in Loop: Header=BB25_189 Depth=2
	ldr	w12, [x24, x23, lsl #2]
	str	w12, [x11]
	b	.LBB25_187
.LBB25_196:                             // %after.1.i.i45.i.i.i.i.i.i
                                        //   in Loop: Header=BB25_185 Depth=1
	cbz	x8, .LBB25_198
// %bb.197:                             // %then.1.i.i.i.i.i47.i.i.i.i.i.i
                                        //   in Loop: Header=BB25_185 Depth=1
	bl	rattle_dealloc
	ldr	x14, [sp, #296]                 // 8-byte Reload
.LBB25_198:                             // %"scq_band::closing::bring_all::<#8efddd2aaba6d9e2>.exit.i48.i.i.i.i.i.i"
                                        //   in Loop: Header=BB25_185 Depth=1
	cbz	x22, .LBB25_184
// %bb.199:                             // %then.1.i.i.i.i50.i.i.i.i.i.i
                                        //   in Loop: Header=BB25_185 Depth=1
	mov	x0, x20
	bl	rattle_dealloc
	ldr	x14, [sp, #296]                 // 8-byte Reload
	b	.LBB25_184
.LBB25_200:
	ldp	x20, x19, [sp, #136]            // 16-byte Folded Reload
	ldr	x23, [sp, #208]                 // 8-byte Reload
	ldp	x24, x22, [sp, #120]            // 16-byte Folded Reload
	b	.LBB25_205
.LBB25_201:                             // %join.5.preheader.i.i.i.i.i.i
	mov	x12, #-1                        // =0xffffffffffffffff
	add	w10, w10, w17
	mov	w13, #8                         // =0x8
	mov	w15, #-1                        // =0xffffffff
	lsl	x16, x12, x11
	mov	w11, #2                         // =0x2
	lsl	x13, x13, x10
	lsl	w14, w15, w10
	lsl	w11, w11, w17
	mov	x9, xzr
	mvn	x12, x16
	bic	x15, x15, x16
	add	x13, x13, #63
	mvn	w14, w14
.LBB25_202:                             // %join.5.i.i.i.i.i.i
                                        // =>This Loop Header: Depth=1
                                        //     Child Loop BB25_203 Depth 2
	mov	x18, #64                        // =0x40
	madd	x0, x9, x13, x18
	mov	w17, wzr
	mov	x16, xzr
	mov	x18, xzr
.LBB25_203:                             // %vector.body
                                        //   Parent Loop BB25_202 Depth=1
                                        // =>  This Inner Loop Header: Depth=2
	and	w1, w17, #0x6
	lsr	w2, w17, #3
	add	w17, w17, #2
	orr	w3, w1, #0x1
	lsl	w1, w1, w8
	lsl	w3, w3, w8
	add	w1, w1, w2
	add	w2, w3, w2
	and	w3, w1, w14
	lsr	w1, w1, w10
	and	w4, w2, w14
	lsr	w2, w2, w10
	add	x3, x21, x3, lsl #6
	add	x1, x0, x1
	add	x4, x21, x4, lsl #6
	add	x2, x0, x2
	ldr	x1, [x3, x1, lsl #3]
	ldr	x2, [x4, x2, lsl #3]
	and	x1, x15, x1
	and	x2, x15, x2
	cmp	x1, x12
	cinc	x16, x16, ne
	cmp	x2, x12
	cinc	x18, x18, ne
	cmp	w11, w17
	b.ne	.LBB25_203
// %bb.204:                             // %middle.block
                                        //   in Loop: Header=BB25_202 Depth=1
	ldr	x17, [sp, #232]                 // 8-byte Reload
	add	x9, x9, #1
	add	x16, x18, x16
	str	x16, [x19, x20, lsl #3]
	add	x20, x20, #1
	cmp	x9, x17
	b.ne	.LBB25_202
.LBB25_205:                             // %"scq_band::leftovers::count_left::<#aae3f6a89b556e54>.exit.i.i.i.i.i"
	ldr	x0, [sp, #72]                   // 8-byte Reload
	bl	rattle_dealloc
	ldr	x0, [sp, #80]                   // 8-byte Reload
	bl	rattle_dealloc
	ldr	x8, [sp, #88]                   // 8-byte Reload
	cbz	x8, .LBB25_207
// %bb.206:                             // %then.1.i.i.i15.i.i.i.i.i
	ldr	x0, [sp, #48]                   // 8-byte Reload
	bl	rattle_dealloc
.LBB25_207:                             // %"scq_queue::queue::Queue::close::<#aae3f6a89b556e54>.exit.i.i"
	ldp	x9, x8, [sp, #96]               // 16-byte Folded Reload
	ldr	x10, [sp, #192]                 // 8-byte Reload
	ldr	x11, [sp, #216]                 // 8-byte Reload
	ldr	x12, [sp, #112]                 // 8-byte Reload
	ldr	x13, [sp, #152]                 // 8-byte Reload
	add	x9, x8, x9
	mov	w8, #1                          // =0x1
	b	.LBB25_117
.LBB25_208:                             // %arm.10.i.i.i
	brk	#0x1
.Lfunc_end25:
	.size	"scq_port::port::Port::close", .Lfunc_end25-"scq_port::port::Port::close"
                                        // -- End function
	.section	".text.scq_c::opening::fill","ax",@progbits
	.p2align	2                               // -- Begin function scq_c::opening::fill
	.type	"scq_c::opening::fill",@function
"scq_c::opening::fill":                 // @"scq_c::opening::fill"
// %bb.0:                               // %start
	ldp	x8, x10, [x1]
	ldr	x9, [x1, #16]
	cbz	x10, .LBB26_3
// %bb.1:                               // %arm.3.preheader
	mov	w11, #40                        // =0x28
	sub	x12, x8, #8
	madd	x11, x10, x11, x0
	sub	x11, x11, #40
.LBB26_2:                               // %arm.3
                                        // =>This Inner Loop Header: Depth=1
	ldr	x13, [x12, x10, lsl #3]
	subs	x10, x10, #1
	str	x13, [x11], #-40
	b.ne	.LBB26_2
.LBB26_3:                               // %"std_alloc::vec::Vec::clear::<#5971d8919b09bd46>.exit.i"
	cbz	x9, .LBB26_5
// %bb.4:                               // %then.1.i.i.i
	mov	x0, x8
	b	rattle_dealloc
.LBB26_5:                               // %"std_alloc::vec::Vec::drop::<#728813b680de4faa>.exit"
	ret
.Lfunc_end26:
	.size	"scq_c::opening::fill", .Lfunc_end26-"scq_c::opening::fill"
                                        // -- End function
	.section	.text.scq_version,"ax",@progbits
	.globl	scq_version                     // -- Begin function scq_version
	.p2align	2
	.type	scq_version,@function
scq_version:                            // @scq_version
// %bb.0:                               // %start
	mov	w0, #3                          // =0x3
	ret
.Lfunc_end27:
	.size	scq_version, .Lfunc_end27-scq_version
                                        // -- End function
	.section	.text.scq_capacity,"ax",@progbits
	.globl	scq_capacity                    // -- Begin function scq_capacity
	.p2align	2
	.type	scq_capacity,@function
scq_capacity:                           // @scq_capacity
// %bb.0:                               // %start
	ldr	x9, [x0]
	str	xzr, [x0]
	cbz	x9, .LBB28_2
// %bb.1:                               // %arm.1.i
	ldr	x10, [x9, #128]
	mov	w11, #1                         // =0x1
	mov	x8, x0
	mov	w0, wzr
	ldr	w10, [x10, #72]
	lsl	w10, w11, w10
	str	w10, [x1]
	str	x9, [x8]
	ret
.LBB28_2:
	mov	w0, #4                          // =0x4
	ret
.Lfunc_end28:
	.size	scq_capacity, .Lfunc_end28-scq_capacity
                                        // -- End function
	.section	.text.scq_count,"ax",@progbits
	.globl	scq_count                       // -- Begin function scq_count
	.p2align	2
	.type	scq_count,@function
scq_count:                              // @scq_count
// %bb.0:                               // %start
	ldr	x9, [x0]
	str	xzr, [x0]
	cbz	x9, .LBB29_3
// %bb.1:                               // %arm.1.i
	ldr	w8, [x9, #264]
	cmp	w8, w1
	b.ls	.LBB29_4
// %bb.2:                               // %arm.1.i3.i
	ldr	x10, [x9, #128]
	add	w11, w1, #1
	mov	w12, #72                        // =0x48
	mov	w8, wzr
	ldr	x13, [x10, #96]
	umaddl	x11, w11, w12, x13
	ldr	x13, [x10, #8]
	ldr	x12, [x11, #48]
	//APP
	//NO_APP
	add	x12, x13, x12, lsl #3
	add	x12, x12, #128
	ldar	x12, [x12]
	//APP
	//NO_APP
	ldr	x11, [x11, #48]
	ldr	x13, [x10, #8]
	//APP
	//NO_APP
	add	x11, x13, x11, lsl #3
	mov	w13, #1                         // =0x1
	ldar	x11, [x11]
	//APP
	//NO_APP
	ldr	w10, [x10, #72]
	subs	x11, x11, x12
	lsl	x10, x13, x10
	csel	x11, xzr, x11, lo
	cmp	x11, x10
	csel	x10, x11, x10, lo
	str	w10, [x2]
	str	x9, [x0]
	mov	w0, w8
	ret
.LBB29_3:
	mov	w0, #4                          // =0x4
	ret
.LBB29_4:
	mov	w8, #6                          // =0x6
	str	x9, [x0]
	mov	w0, w8
	ret
.Lfunc_end29:
	.size	scq_count, .Lfunc_end29-scq_count
                                        // -- End function
	.section	.text.scq_counts_of,"ax",@progbits
	.globl	scq_counts_of                   // -- Begin function scq_counts_of
	.p2align	2
	.type	scq_counts_of,@function
scq_counts_of:                          // @scq_counts_of
// %bb.0:                               // %start
	ldr	x9, [x0]
	str	xzr, [x0]
	cbz	x9, .LBB30_2
// %bb.1:                               // %arm.1.i
	ldur	q0, [x9, #200]
	ldr	x10, [x9, #216]
	mov	x8, x0
	mov	w0, wzr
	str	q0, [x1]
	str	x10, [x1, #16]
	str	x9, [x8]
	ret
.LBB30_2:
	mov	w0, #4                          // =0x4
	ret
.Lfunc_end30:
	.size	scq_counts_of, .Lfunc_end30-scq_counts_of
                                        // -- End function
	.section	.text.scq_retire,"ax",@progbits
	.globl	scq_retire                      // -- Begin function scq_retire
	.p2align	2
	.type	scq_retire,@function
scq_retire:                             // @scq_retire
// %bb.0:                               // %start
	ldr	x9, [x0]
	str	xzr, [x0]
	cbz	x9, .LBB31_6
// %bb.1:                               // %arm.1.i
	ldrb	w8, [x9, #276]
	cmp	w8, #1
	b.ne	.LBB31_5
// %bb.2:                               // %then.1.i.i.i
	ldr	x8, [x9, #128]
	ldr	x8, [x8, #8]
	//APP
	//NO_APP
.LBB31_3:                               // %atomicrmw.start
                                        // =>This Inner Loop Header: Depth=1
	ldaxr	x10, [x8]
	sub	x10, x10, #1
	stlxr	w11, x10, [x8]
	cbnz	w11, .LBB31_3
// %bb.4:                               // %atomicrmw.end
	//APP
	//NO_APP
.LBB31_5:                               // %"scq_port::port::Port::retire.exit.i"
	strb	wzr, [x9, #276]
	str	wzr, [x9, #268]
	str	x9, [x0]
	mov	w0, wzr
	ret
.LBB31_6:
	mov	w0, #4                          // =0x4
	ret
.Lfunc_end31:
	.size	scq_retire, .Lfunc_end31-scq_retire
                                        // -- End function
	.section	.text.scq_retired,"ax",@progbits
	.globl	scq_retired                     // -- Begin function scq_retired
	.p2align	2
	.type	scq_retired,@function
scq_retired:                            // @scq_retired
// %bb.0:                               // %start
	ldr	x9, [x0]
	str	xzr, [x0]
	cbz	x9, .LBB32_2
// %bb.1:                               // %arm.1.i
	ldr	x8, [x9, #128]
	mov	w10, #16                        // =0x10
	ldr	x8, [x8, #8]
	//APP
	//NO_APP
	ldar	x8, [x8]
	//APP
	//NO_APP
	cmp	x8, #0
	cset	w8, eq
	strb	w8, [x9, #224]
	csel	w8, w10, wzr, eq
	str	x9, [x0]
	mov	w0, w8
	ret
.LBB32_2:
	mov	w0, #4                          // =0x4
	ret
.Lfunc_end32:
	.size	scq_retired, .Lfunc_end32-scq_retired
                                        // -- End function
	.section	.text.scq_spent,"ax",@progbits
	.globl	scq_spent                       // -- Begin function scq_spent
	.p2align	2
	.type	scq_spent,@function
scq_spent:                              // @scq_spent
// %bb.0:                               // %start
	ldr	x8, [x0]
	str	xzr, [x0]
	cbz	x8, .LBB33_3
// %bb.1:                               // %arm.1.i
	ldrb	w10, [x8, #184]
	ldr	x9, [x8, #192]
	str	x8, [x0]
	cmp	w10, #1
	b.ne	.LBB33_4
// %bb.2:                               // %arm.5.i
	mov	w0, #3                          // =0x3
	str	x9, [x1]
	ret
.LBB33_3:
	mov	w0, #4                          // =0x4
	ret
.LBB33_4:
	mov	w0, wzr
	ret
.Lfunc_end33:
	.size	scq_spent, .Lfunc_end33-scq_spent
                                        // -- End function
	.section	.text.scq_give_back,"ax",@progbits
	.globl	scq_give_back                   // -- Begin function scq_give_back
	.p2align	2
	.type	scq_give_back,@function
scq_give_back:                          // @scq_give_back
// %bb.0:                               // %start
	ldr	x8, [x0]
	cbz	x8, .LBB34_33
// %bb.1:                               // %arm.1.i.i.i.i
	ldr	x10, [x8, #240]
	mov	w9, w1
	cmp	x10, x9
	b.ls	.LBB34_32
// %bb.2:                               // %else.4.i.i.i.i
	ldr	x10, [x8, #232]
	add	x11, x10, x9, lsl #3
	ldrb	w9, [x11]
	cmp	w9, #1
	b.ne	.LBB34_32
// %bb.3:                               // %arm.1.i10.i.i.i
	ldr	x10, [x8, #128]
	ldr	w9, [x11, #4]
	str	xzr, [x11]
	ldrb	w11, [x8, #184]
	cmp	w11, #1
	b.eq	.LBB34_35
// %bb.4:                               // %join.4.i.i.i.i
	ldr	x12, [x10, #96]
	ldr	x14, [x10, #8]
	ldr	x11, [x12, #48]
	//APP
	//NO_APP
	lsl	x13, x11, #3
	add	x14, x14, x13
.LBB34_5:                               // %atomicrmw.start
                                        // =>This Inner Loop Header: Depth=1
	ldaxr	x11, [x14]
	add	x15, x11, #1
	stlxr	w16, x15, [x14]
	cbnz	w16, .LBB34_5
// %bb.6:                               // %atomicrmw.end
	//APP
	//NO_APP
	ldr	x14, [x12, #40]
	cmp	x14, x11
	b.ls	.LBB34_34
// %bb.7:                               // %join.5.i.lr.ph.i.i.i
	add	x14, x9, #1
.LBB34_8:                               // %join.5.i.i.i.i
                                        // =>This Loop Header: Depth=1
                                        //     Child Loop BB34_9 Depth 2
                                        //     Child Loop BB34_14 Depth 2
                                        //     Child Loop BB34_24 Depth 2
                                        //       Child Loop BB34_29 Depth 3
                                        //     Child Loop BB34_21 Depth 2
	ldr	w15, [x12, #4]
	ldr	x1, [x10, #8]
	ldp	w16, w17, [x12, #64]
	and	x18, x11, x15
	and	x16, x11, x16
	lsr	x17, x18, x17
	ldr	x18, [x12, #48]
	lsl	x16, x16, #6
	//APP
	//NO_APP
	add	x17, x18, x17
	bic	x18, x11, x15
	add	x15, x14, x15
	add	x16, x16, x17, lsl #3
	lsl	x18, x18, #1
	add	x17, x16, #384
	add	x15, x15, x18
	sub	x18, x18, #1
	add	x1, x1, x17
.LBB34_9:                               // %cmpxchg.start
                                        //   Parent Loop BB34_8 Depth=1
                                        // =>  This Inner Loop Header: Depth=2
	ldaxr	x16, [x1]
	cmp	x16, x18
	b.ne	.LBB34_11
// %bb.10:                              // %cmpxchg.trystore
                                        //   in Loop: Header=BB34_9 Depth=2
	stlxr	w16, x15, [x1]
	cbz	w16, .LBB34_37
	b	.LBB34_9
.LBB34_11:                              // %cmpxchg.nostore
                                        //   in Loop: Header=BB34_8 Depth=1
	clrex
	cmp	x16, x15
	//APP
	//NO_APP
	b.hs	.LBB34_16
// %bb.12:                              // %cmpxchg.nostore
                                        //   in Loop: Header=BB34_8 Depth=1
	ldr	w18, [x12, #4]
	mov	w1, #1                          // =0x1
	orr	x18, x1, x18, lsl #1
	and	x1, x18, x16
	cmp	x1, x18
	b.ne	.LBB34_16
.LBB34_13:                              // %join.6.i.i.i.i
                                        //   in Loop: Header=BB34_8 Depth=1
	ldr	x18, [x10, #8]
	//APP
	//NO_APP
	add	x17, x18, x17
.LBB34_14:                              // %cmpxchg.start9
                                        //   Parent Loop BB34_8 Depth=1
                                        // =>  This Inner Loop Header: Depth=2
	ldaxr	x18, [x17]
	cmp	x18, x16
	b.ne	.LBB34_23
// %bb.15:                              // %cmpxchg.trystore7
                                        //   in Loop: Header=BB34_14 Depth=2
	stlxr	w18, x15, [x17]
	cbz	w18, .LBB34_42
	b	.LBB34_14
.LBB34_16:                              // %join.3.i94.i.i.i
                                        //   in Loop: Header=BB34_8 Depth=1
	ldr	w1, [x12, #12]
	lsr	x18, x16, x1
	lsr	x1, x11, x1
	cmp	x1, x18, lsr #1
	b.ls	.LBB34_20
// %bb.17:                              // %join.3.i94.i.i.i
                                        //   in Loop: Header=BB34_8 Depth=1
	ldr	x1, [x12, #32]
	and	w2, w16, w1
	cmp	x1, x2
	b.ne	.LBB34_20
// %bb.18:                              // %join.9.i108.i.i.i
                                        //   in Loop: Header=BB34_8 Depth=1
	tbnz	w18, #0, .LBB34_13
// %bb.19:                              // %"scq_band::enqueue::has_room::<#aae3f6a89b556e54>.exit.i.i.i"
                                        //   in Loop: Header=BB34_8 Depth=1
	ldr	x18, [x12, #48]
	ldr	x1, [x10, #8]
	//APP
	//NO_APP
	add	x18, x1, x18, lsl #3
	add	x18, x18, #128
	ldar	x18, [x18]
	//APP
	//NO_APP
	cmp	x11, x18
	b.hs	.LBB34_13
.LBB34_20:                              // %"scq_band::enqueue::place::<#aae3f6a89b556e54>.exit.i.i.i"
                                        //   in Loop: Header=BB34_8 Depth=1
	ldr	x11, [x12, #48]
	ldr	x15, [x10, #8]
	//APP
	//NO_APP
	add	x15, x15, x11, lsl #3
.LBB34_21:                              // %atomicrmw.start33
                                        //   Parent Loop BB34_8 Depth=1
                                        // =>  This Inner Loop Header: Depth=2
	ldaxr	x11, [x15]
	add	x16, x11, #1
	stlxr	w17, x16, [x15]
	cbnz	w17, .LBB34_21
// %bb.22:                              // %atomicrmw.end32
                                        //   in Loop: Header=BB34_8 Depth=1
	//APP
	//NO_APP
	ldr	x15, [x12, #40]
	cmp	x15, x11
	b.hi	.LBB34_8
	b	.LBB34_34
.LBB34_23:                              // %cmpxchg.nostore4
                                        //   in Loop: Header=BB34_8 Depth=1
	clrex
	//APP
	//NO_APP
	ldr	w15, [x12, #4]
	ldp	w16, w17, [x12, #64]
	and	x18, x11, x15
	and	x16, x11, x16
	lsr	x17, x18, x17
	ldr	x18, [x12, #48]
	lsl	x16, x16, #6
	add	x17, x18, x17
	bic	x18, x11, x15
	add	x15, x14, x15
	add	x16, x16, x17, lsl #3
	add	x15, x15, x18, lsl #1
	add	x16, x16, #384
.LBB34_24:                              // %loop.2.i123.i.i.i
                                        //   Parent Loop BB34_8 Depth=1
                                        // =>  This Loop Header: Depth=2
                                        //       Child Loop BB34_29 Depth 3
	ldr	x17, [x10, #8]
	//APP
	//NO_APP
	mov	w1, #1                          // =0x1
	add	x17, x17, x16
	ldar	x17, [x17]
	//APP
	//NO_APP
	ldr	w18, [x12, #4]
	cmp	x17, x15
	orr	x18, x1, x18, lsl #1
	and	x1, x18, x17
	ccmp	x1, x18, #0, lo
	b.eq	.LBB34_28
// %bb.25:                              // %join.3.i.i.i.i.i
                                        //   in Loop: Header=BB34_24 Depth=2
	ldr	w1, [x12, #12]
	ldr	x2, [x12, #32]
	lsr	x18, x17, x1
	lsr	x1, x11, x1
	and	w3, w17, w2
	cmp	x1, x18, lsr #1
	ccmp	x2, x3, #0, hi
	b.ne	.LBB34_20
// %bb.26:                              // %join.9.i.i.i.i.i
                                        //   in Loop: Header=BB34_24 Depth=2
	tbnz	w18, #0, .LBB34_28
// %bb.27:                              // %"scq_band::enqueue::load_vacant::<#aae3f6a89b556e54>.exit.i.i.i"
                                        //   in Loop: Header=BB34_24 Depth=2
	ldr	x18, [x12, #48]
	ldr	x1, [x10, #8]
	//APP
	//NO_APP
	add	x18, x1, x18, lsl #3
	add	x18, x18, #128
	ldar	x18, [x18]
	//APP
	//NO_APP
	cmp	x11, x18
	b.lo	.LBB34_20
.LBB34_28:                              // %arm.3.i.i.i.i
                                        //   in Loop: Header=BB34_24 Depth=2
	ldr	x18, [x10, #8]
	//APP
	//NO_APP
	add	x18, x18, x16
.LBB34_29:                              // %cmpxchg.start24
                                        //   Parent Loop BB34_8 Depth=1
                                        //     Parent Loop BB34_24 Depth=2
                                        // =>    This Inner Loop Header: Depth=3
	ldaxr	x1, [x18]
	cmp	x1, x17
	b.ne	.LBB34_31
// %bb.30:                              // %cmpxchg.trystore22
                                        //   in Loop: Header=BB34_29 Depth=3
	stlxr	w1, x15, [x18]
	cbz	w1, .LBB34_43
	b	.LBB34_29
.LBB34_31:                              // %cmpxchg.nostore19
                                        //   in Loop: Header=BB34_24 Depth=2
	clrex
	//APP
	//NO_APP
	b	.LBB34_24
.LBB34_32:
	str	x8, [x0]
	mov	w0, #5                          // =0x5
	ret
.LBB34_33:                              // %"core::mem::replace_with::<#a9f28ac8afd7ecb7>.exit.i"
	str	xzr, [x0]
	mov	w0, #4                          // =0x4
	ret
.LBB34_34:                              // %arm.7.i.i.i.i
	mov	w10, #1                         // =0x1
	stp	x10, x11, [x8, #184]
.LBB34_35:                              // %arm.6.i.i.i.i
	ldr	x10, [x8, #232]
	mov	w12, #1                         // =0x1
	add	x10, x10, x9, lsl #3
	ldrb	w11, [x10]
	stp	w12, w9, [x10]
	cbnz	w11, .LBB34_41
// %bb.36:                              // %arm.2.i.i
	str	x8, [x0]
	mov	w0, #3                          // =0x3
	ret
.LBB34_37:                              // %then.7.i.i.i.i.critedge
	//APP
	//NO_APP
.LBB34_38:                              // %then.7.i.i.i.i
	ldr	x14, [x10, #8]
	add	x13, x13, #256
	//APP
	//NO_APP
	add	x14, x14, x13
	ldar	x14, [x14]
	//APP
	//NO_APP
	ldr	x12, [x12, #56]
	cmp	x14, x12
	b.eq	.LBB34_40
// %bb.39:                              // %then.1.i.i.i.i
	ldr	x10, [x10, #8]
	//APP
	//NO_APP
	add	x10, x10, x13
	stlr	x12, [x10]
	//APP
	//NO_APP
.LBB34_40:                              // %arm.1.thread17.i
	ldr	x12, [x8, #136]
	strb	wzr, [x12, x9]
	ldr	x9, [x8, #160]
	stp	x11, x11, [x9]
	ldr	w9, [x8, #256]
	add	w9, w9, #1
	str	w9, [x8, #256]
	str	x8, [x0]
	mov	w0, wzr
	ret
.LBB34_41:                              // %arm.2.i165.i.i.i
	brk	#0x1
.LBB34_42:                              // %cmpxchg.end2
	//APP
	//NO_APP
	b	.LBB34_38
.LBB34_43:                              // %cmpxchg.end17
	//APP
	//NO_APP
	b	.LBB34_38
.Lfunc_end34:
	.size	scq_give_back, .Lfunc_end34-scq_give_back
                                        // -- End function
	.section	.text.scq_give_back_many,"ax",@progbits
	.globl	scq_give_back_many              // -- Begin function scq_give_back_many
	.p2align	2
	.type	scq_give_back_many,@function
scq_give_back_many:                     // @scq_give_back_many
// %bb.0:                               // %start
	str	xzr, [x3]
	cmp	x1, #0
	mov	w8, #4096                       // =0x1000
	ldr	x9, [x0]
	csel	x8, x8, xzr, eq
	str	xzr, [x0]
	cbz	x9, .LBB35_40
// %bb.1:                               // %loop.2.i.preheader.i
	mov	x10, xzr
	cbz	x2, .LBB35_41
// %bb.2:                               // %join.5.i.lr.ph.i
	add	x8, x1, x8
	b	.LBB35_4
.LBB35_3:                               // %arm.6.i26.i.i
                                        //   in Loop: Header=BB35_4 Depth=1
	ldr	x12, [x9, #136]
	add	x10, x10, #1
	cmp	x10, x2
	strb	wzr, [x12, x11]
	ldr	x11, [x9, #160]
	stp	x13, x13, [x11]
	ldr	w11, [x9, #256]
	add	w11, w11, #1
	str	w11, [x9, #256]
	b.eq	.LBB35_46
.LBB35_4:                               // %join.5.i.i
                                        // =>This Loop Header: Depth=1
                                        //     Child Loop BB35_8 Depth 2
                                        //     Child Loop BB35_11 Depth 2
                                        //       Child Loop BB35_12 Depth 3
                                        //       Child Loop BB35_17 Depth 3
                                        //       Child Loop BB35_27 Depth 3
                                        //         Child Loop BB35_32 Depth 4
                                        //       Child Loop BB35_24 Depth 3
	add	x11, x8, x10, lsl #5
	ldr	x12, [x9, #240]
	ldr	w11, [x11, #24]
	cmp	x12, x11
	b.ls	.LBB35_42
// %bb.5:                               // %else.4.i.i.i
                                        //   in Loop: Header=BB35_4 Depth=1
	ldr	x12, [x9, #232]
	add	x13, x12, x11, lsl #3
	ldrb	w11, [x13]
	cmp	w11, #1
	b.ne	.LBB35_42
// %bb.6:                               // %arm.1.i.i.i
                                        //   in Loop: Header=BB35_4 Depth=1
	ldr	x12, [x9, #128]
	ldr	w11, [x13, #4]
	str	xzr, [x13]
	ldrb	w13, [x9, #184]
	cmp	w13, #1
	b.eq	.LBB35_44
// %bb.7:                               // %join.4.i.i.i
                                        //   in Loop: Header=BB35_4 Depth=1
	ldr	x14, [x12, #96]
	ldr	x16, [x12, #8]
	ldr	x13, [x14, #48]
	//APP
	//NO_APP
	lsl	x15, x13, #3
	add	x16, x16, x15
.LBB35_8:                               // %atomicrmw.start
                                        //   Parent Loop BB35_4 Depth=1
                                        // =>  This Inner Loop Header: Depth=2
	ldaxr	x13, [x16]
	add	x17, x13, #1
	stlxr	w18, x17, [x16]
	cbnz	w18, .LBB35_8
// %bb.9:                               // %atomicrmw.end
                                        //   in Loop: Header=BB35_4 Depth=1
	//APP
	//NO_APP
	ldr	x16, [x14, #40]
	cmp	x16, x13
	b.ls	.LBB35_43
// %bb.10:                              // %join.5.i.i.lr.ph.i
                                        //   in Loop: Header=BB35_4 Depth=1
	add	x16, x11, #1
.LBB35_11:                              // %join.5.i.i.i
                                        //   Parent Loop BB35_4 Depth=1
                                        // =>  This Loop Header: Depth=2
                                        //       Child Loop BB35_12 Depth 3
                                        //       Child Loop BB35_17 Depth 3
                                        //       Child Loop BB35_27 Depth 3
                                        //         Child Loop BB35_32 Depth 4
                                        //       Child Loop BB35_24 Depth 3
	ldr	w17, [x14, #4]
	ldr	x5, [x12, #8]
	ldp	w18, w1, [x14, #64]
	and	x4, x13, x17
	and	x18, x13, x18
	lsr	x1, x4, x1
	ldr	x4, [x14, #48]
	lsl	x18, x18, #6
	//APP
	//NO_APP
	add	x1, x4, x1
	bic	x4, x13, x17
	add	x17, x16, x17
	add	x18, x18, x1, lsl #3
	lsl	x4, x4, #1
	add	x1, x18, #384
	add	x17, x17, x4
	sub	x4, x4, #1
	add	x5, x5, x1
.LBB35_12:                              // %cmpxchg.start
                                        //   Parent Loop BB35_4 Depth=1
                                        //     Parent Loop BB35_11 Depth=2
                                        // =>    This Inner Loop Header: Depth=3
	ldaxr	x18, [x5]
	cmp	x18, x4
	b.ne	.LBB35_14
// %bb.13:                              // %cmpxchg.trystore
                                        //   in Loop: Header=BB35_12 Depth=3
	stlxr	w18, x17, [x5]
	cbz	w18, .LBB35_35
	b	.LBB35_12
.LBB35_14:                              // %cmpxchg.nostore
                                        //   in Loop: Header=BB35_11 Depth=2
	clrex
	cmp	x18, x17
	//APP
	//NO_APP
	b.hs	.LBB35_19
// %bb.15:                              // %cmpxchg.nostore
                                        //   in Loop: Header=BB35_11 Depth=2
	ldr	w4, [x14, #4]
	mov	w5, #1                          // =0x1
	orr	x4, x5, x4, lsl #1
	and	x5, x4, x18
	cmp	x5, x4
	b.ne	.LBB35_19
.LBB35_16:                              // %join.6.i.i.i
                                        //   in Loop: Header=BB35_11 Depth=2
	ldr	x4, [x12, #8]
	//APP
	//NO_APP
	add	x1, x4, x1
.LBB35_17:                              // %cmpxchg.start9
                                        //   Parent Loop BB35_4 Depth=1
                                        //     Parent Loop BB35_11 Depth=2
                                        // =>    This Inner Loop Header: Depth=3
	ldaxr	x4, [x1]
	cmp	x4, x18
	b.ne	.LBB35_26
// %bb.18:                              // %cmpxchg.trystore7
                                        //   in Loop: Header=BB35_17 Depth=3
	stlxr	w4, x17, [x1]
	cbz	w4, .LBB35_38
	b	.LBB35_17
.LBB35_19:                              // %join.3.i81.i.i
                                        //   in Loop: Header=BB35_11 Depth=2
	ldr	w5, [x14, #12]
	lsr	x4, x18, x5
	lsr	x5, x13, x5
	cmp	x5, x4, lsr #1
	b.ls	.LBB35_23
// %bb.20:                              // %join.3.i81.i.i
                                        //   in Loop: Header=BB35_11 Depth=2
	ldr	x5, [x14, #32]
	and	w6, w18, w5
	cmp	x5, x6
	b.ne	.LBB35_23
// %bb.21:                              // %join.9.i95.i.i
                                        //   in Loop: Header=BB35_11 Depth=2
	tbnz	w4, #0, .LBB35_16
// %bb.22:                              // %"scq_band::enqueue::has_room::<#aae3f6a89b556e54>.exit.i.i"
                                        //   in Loop: Header=BB35_11 Depth=2
	ldr	x4, [x14, #48]
	ldr	x5, [x12, #8]
	//APP
	//NO_APP
	add	x4, x5, x4, lsl #3
	add	x4, x4, #128
	ldar	x4, [x4]
	//APP
	//NO_APP
	cmp	x13, x4
	b.hs	.LBB35_16
.LBB35_23:                              // %"scq_band::enqueue::place::<#aae3f6a89b556e54>.exit.i.i"
                                        //   in Loop: Header=BB35_11 Depth=2
	ldr	x13, [x14, #48]
	ldr	x17, [x12, #8]
	//APP
	//NO_APP
	add	x17, x17, x13, lsl #3
.LBB35_24:                              // %atomicrmw.start33
                                        //   Parent Loop BB35_4 Depth=1
                                        //     Parent Loop BB35_11 Depth=2
                                        // =>    This Inner Loop Header: Depth=3
	ldaxr	x13, [x17]
	add	x18, x13, #1
	stlxr	w1, x18, [x17]
	cbnz	w1, .LBB35_24
// %bb.25:                              // %atomicrmw.end32
                                        //   in Loop: Header=BB35_11 Depth=2
	//APP
	//NO_APP
	ldr	x17, [x14, #40]
	cmp	x17, x13
	b.hi	.LBB35_11
	b	.LBB35_43
.LBB35_26:                              // %cmpxchg.nostore4
                                        //   in Loop: Header=BB35_11 Depth=2
	clrex
	//APP
	//NO_APP
	ldr	w17, [x14, #4]
	ldp	w18, w1, [x14, #64]
	and	x4, x13, x17
	and	x18, x13, x18
	lsr	x1, x4, x1
	ldr	x4, [x14, #48]
	lsl	x18, x18, #6
	add	x1, x4, x1
	bic	x4, x13, x17
	add	x17, x16, x17
	add	x18, x18, x1, lsl #3
	add	x17, x17, x4, lsl #1
	add	x18, x18, #384
.LBB35_27:                              // %loop.2.i110.i.i
                                        //   Parent Loop BB35_4 Depth=1
                                        //     Parent Loop BB35_11 Depth=2
                                        // =>    This Loop Header: Depth=3
                                        //         Child Loop BB35_32 Depth 4
	ldr	x1, [x12, #8]
	//APP
	//NO_APP
	mov	w5, #1                          // =0x1
	add	x1, x1, x18
	ldar	x1, [x1]
	//APP
	//NO_APP
	ldr	w4, [x14, #4]
	cmp	x1, x17
	orr	x4, x5, x4, lsl #1
	and	x5, x4, x1
	ccmp	x5, x4, #0, lo
	b.eq	.LBB35_31
// %bb.28:                              // %join.3.i.i.i.i
                                        //   in Loop: Header=BB35_27 Depth=3
	ldr	w5, [x14, #12]
	ldr	x6, [x14, #32]
	lsr	x4, x1, x5
	lsr	x5, x13, x5
	and	w7, w1, w6
	cmp	x5, x4, lsr #1
	ccmp	x6, x7, #0, hi
	b.ne	.LBB35_23
// %bb.29:                              // %join.9.i.i.i.i
                                        //   in Loop: Header=BB35_27 Depth=3
	tbnz	w4, #0, .LBB35_31
// %bb.30:                              // %"scq_band::enqueue::load_vacant::<#aae3f6a89b556e54>.exit.i.i"
                                        //   in Loop: Header=BB35_27 Depth=3
	ldr	x4, [x14, #48]
	ldr	x5, [x12, #8]
	//APP
	//NO_APP
	add	x4, x5, x4, lsl #3
	add	x4, x4, #128
	ldar	x4, [x4]
	//APP
	//NO_APP
	cmp	x13, x4
	b.lo	.LBB35_23
.LBB35_31:                              // %arm.3.i.i.i
                                        //   in Loop: Header=BB35_27 Depth=3
	ldr	x4, [x12, #8]
	//APP
	//NO_APP
	add	x4, x4, x18
.LBB35_32:                              // %cmpxchg.start24
                                        //   Parent Loop BB35_4 Depth=1
                                        //     Parent Loop BB35_11 Depth=2
                                        //       Parent Loop BB35_27 Depth=3
                                        // =>      This Inner Loop Header: Depth=4
	ldaxr	x5, [x4]
	cmp	x5, x1
	b.ne	.LBB35_34
// %bb.33:                              // %cmpxchg.trystore22
                                        //   in Loop: Header=BB35_32 Depth=4
	stlxr	w5, x17, [x4]
	cbz	w5, .LBB35_39
	b	.LBB35_32
.LBB35_34:                              // %cmpxchg.nostore19
                                        //   in Loop: Header=BB35_27 Depth=3
	clrex
	//APP
	//NO_APP
	b	.LBB35_27
.LBB35_35:                              // %then.7.i.i.i.critedge
                                        //   in Loop: Header=BB35_4 Depth=1
	//APP
	//NO_APP
.LBB35_36:                              // %then.7.i.i.i
                                        //   in Loop: Header=BB35_4 Depth=1
	ldr	x16, [x12, #8]
	add	x15, x15, #256
	//APP
	//NO_APP
	add	x16, x16, x15
	ldar	x16, [x16]
	//APP
	//NO_APP
	ldr	x14, [x14, #56]
	cmp	x16, x14
	b.eq	.LBB35_3
// %bb.37:                              // %then.1.i.i.i
                                        //   in Loop: Header=BB35_4 Depth=1
	ldr	x12, [x12, #8]
	//APP
	//NO_APP
	add	x12, x12, x15
	stlr	x14, [x12]
	//APP
	//NO_APP
	b	.LBB35_3
.LBB35_38:                              // %cmpxchg.end2
                                        //   in Loop: Header=BB35_4 Depth=1
	//APP
	//NO_APP
	b	.LBB35_36
.LBB35_39:                              // %cmpxchg.end17
                                        //   in Loop: Header=BB35_4 Depth=1
	//APP
	//NO_APP
	b	.LBB35_36
.LBB35_40:
	mov	w0, #4                          // =0x4
	ret
.LBB35_41:
	mov	w8, wzr
	str	x9, [x0]
	mov	w0, w8
	str	x10, [x3]
	ret
.LBB35_42:
	mov	w8, #5                          // =0x5
	str	x9, [x0]
	mov	w0, w8
	str	x10, [x3]
	ret
.LBB35_43:                              // %arm.7.i.i.i
	mov	w8, #1                          // =0x1
	stp	x8, x13, [x9, #184]
.LBB35_44:                              // %arm.6.i.i.i
	ldr	x8, [x9, #232]
	mov	w13, #1                         // =0x1
	add	x8, x8, x11, lsl #3
	ldrb	w12, [x8]
	stp	w13, w11, [x8]
	cbnz	w12, .LBB35_47
// %bb.45:
	mov	w8, #3                          // =0x3
	str	x9, [x0]
	mov	w0, w8
	str	x10, [x3]
	ret
.LBB35_46:
	mov	w8, wzr
	str	x9, [x0]
	mov	w0, w8
	str	x2, [x3]
	ret
.LBB35_47:                              // %arm.2.i152.i.i
	brk	#0x1
.Lfunc_end35:
	.size	scq_give_back_many, .Lfunc_end35-scq_give_back_many
                                        // -- End function
	.section	.text.scq_lend_index,"ax",@progbits
	.globl	scq_lend_index                  // -- Begin function scq_lend_index
	.p2align	2
	.type	scq_lend_index,@function
scq_lend_index:                         // @scq_lend_index
// %bb.0:                               // %start
	ldr	x8, [x0]
	cbz	x8, .LBB36_4
// %bb.1:                               // %arm.1.i.i.i.i
	ldr	w9, [x8, #256]
	cbz	w9, .LBB36_5
// %bb.2:                               // %join.3.i.i.i.i
	ldrb	w9, [x8, #184]
	cmp	w9, #1
	b.ne	.LBB36_6
// %bb.3:                               // %"scq_band::band::Band::get::<#aae3f6a89b556e54>.exit.thread.i.i.i"
	ldr	x11, [x8, #192]
	str	x8, [x0]
	mov	w0, #3                          // =0x3
	str	x11, [x1, #16]
	ret
.LBB36_4:                               // %"core::mem::replace_with::<#24879486ba3a1dd0>.exit.i"
	str	xzr, [x0]
	mov	w0, #4                          // =0x4
	ret
.LBB36_5:                               // %arm.2.i.i
	str	x8, [x0]
	mov	w0, #7                          // =0x7
	ret
.LBB36_6:                               // %join.4.i.i.i.i
	ldr	x10, [x8, #128]
	ldr	x9, [x10, #96]
	ldr	x12, [x10, #8]
	ldr	x11, [x9, #48]
	//APP
	//NO_APP
	add	x11, x12, x11, lsl #3
	add	x11, x11, #256
	ldar	x11, [x11]
	//APP
	//NO_APP
	lsr	x11, x11, #32
	cbnz	x11, .LBB36_12
// %bb.7:                               // %arm.1.i155.i.i.i
	ldr	x10, [x8, #160]
	mov	x9, x10
	ldr	x12, [x9, #16]!
	ldr	x10, [x10]
	add	x13, x10, #1
	cmp	x13, x12
	csinc	x10, x12, x10, ls
	cmp	x12, x10
	b.hs	.LBB36_9
.LBB36_8:                               // %then.1.i160.i.i.i
	str	x10, [x9]
.LBB36_9:                               // %arm.5.i28.i.i.i
	ldr	x9, [x8, #216]
	cmn	x9, #1
	b.eq	.LBB36_11
// %bb.10:                              // %arm.1.i181.i.i.i
	add	x9, x9, #1
	str	x9, [x8, #216]
.LBB36_11:                              // %arm.6.i.i
	str	x8, [x0]
	mov	w0, #2                          // =0x2
	str	x10, [x1, #16]
	ret
.LBB36_12:                              // %loop.5.i.i.i.i
                                        // =>This Loop Header: Depth=1
                                        //     Child Loop BB36_13 Depth 2
                                        //     Child Loop BB36_16 Depth 2
                                        //       Child Loop BB36_19 Depth 3
                                        //     Child Loop BB36_25 Depth 2
	ldr	x11, [x9, #48]
	ldr	x12, [x10, #8]
	//APP
	//NO_APP
	add	x11, x12, x11, lsl #3
	add	x12, x11, #128
.LBB36_13:                              // %atomicrmw.start
                                        //   Parent Loop BB36_12 Depth=1
                                        // =>  This Inner Loop Header: Depth=2
	ldaxr	x11, [x12]
	add	x13, x11, #1
	stlxr	w14, x13, [x12]
	cbnz	w14, .LBB36_13
// %bb.14:                              // %atomicrmw.end
                                        //   in Loop: Header=BB36_12 Depth=1
	//APP
	//NO_APP
	ldr	x12, [x9, #40]
	cmp	x12, x11
	b.ls	.LBB36_27
// %bb.15:                              // %join.8.i.i.i.i
                                        //   in Loop: Header=BB36_12 Depth=1
	ldp	w13, w14, [x9, #64]
	ldr	w12, [x9, #4]
	ldr	x15, [x9, #48]
	and	x13, x11, x13
	and	x12, x11, x12
	lsr	x12, x12, x14
	add	x13, x15, x13, lsl #3
	add	x12, x13, x12
	lsl	x12, x12, #3
	add	x12, x12, #384
.LBB36_16:                              // %loop.2.i.i.i.i
                                        //   Parent Loop BB36_12 Depth=1
                                        // =>  This Loop Header: Depth=2
                                        //       Child Loop BB36_19 Depth 3
	ldr	x13, [x10, #8]
	//APP
	//NO_APP
	add	x13, x13, x12
	ldar	x13, [x13]
	//APP
	//NO_APP
	ldr	w14, [x9, #4]
	eor	x15, x11, x13, lsr #1
	cmp	x15, x14
	b.ls	.LBB36_28
// %bb.17:                              // %join.5.i.i.i.i
                                        //   in Loop: Header=BB36_16 Depth=2
	ldr	w15, [x9, #12]
	lsr	x16, x13, x15
	lsr	x15, x11, x15
	lsr	x14, x16, #1
	cmp	x15, x14
	b.lo	.LBB36_23
// %bb.18:                              // %join.9.i.i.i.i
                                        //   in Loop: Header=BB36_16 Depth=2
	ldr	x17, [x9, #32]
	and	x16, x16, #0x1
	and	x18, x17, x13
	cmp	x17, w18, uxtw
	csel	x16, x16, xzr, eq
	csel	x14, x15, x14, eq
	ldr	w15, [x9, #8]
	orr	x14, x16, x14, lsl #1
	mov	w16, #2                         // =0x2
	lsl	w15, w16, w15
	ldr	x16, [x10, #8]
	//APP
	//NO_APP
	madd	x14, x14, x17, x14
	sub	w15, w15, #1
	csel	w15, w15, w18, eq
	add	x14, x14, x15
	add	x15, x16, x12
.LBB36_19:                              // %cmpxchg.start9
                                        //   Parent Loop BB36_12 Depth=1
                                        //     Parent Loop BB36_16 Depth=2
                                        // =>    This Inner Loop Header: Depth=3
	ldaxr	x16, [x15]
	cmp	x16, x13
	b.ne	.LBB36_21
// %bb.20:                              // %cmpxchg.trystore7
                                        //   in Loop: Header=BB36_19 Depth=3
	stlxr	w16, x14, [x15]
	cbz	w16, .LBB36_22
	b	.LBB36_19
.LBB36_21:                              // %cmpxchg.nostore4
                                        //   in Loop: Header=BB36_16 Depth=2
	clrex
	//APP
	//NO_APP
	b	.LBB36_16
.LBB36_22:                              // %cmpxchg.end2
                                        //   in Loop: Header=BB36_12 Depth=1
	//APP
	//NO_APP
.LBB36_23:                              // %join.12.i.i.i.i
                                        //   in Loop: Header=BB36_12 Depth=1
	ldr	x12, [x9, #48]
	ldr	x13, [x10, #8]
	//APP
	//NO_APP
	add	x11, x11, #1
	add	x12, x13, x12, lsl #3
	ldar	x12, [x12]
	//APP
	//NO_APP
	cmp	x12, x11
	b.ls	.LBB36_35
// %bb.24:                              // %"scq_band::dequeue::give_up::<#aae3f6a89b556e54>.exit.i.i.i"
                                        //   in Loop: Header=BB36_12 Depth=1
	ldr	x12, [x9, #48]
	ldr	x13, [x10, #8]
	//APP
	//NO_APP
	add	x12, x13, x12, lsl #3
	add	x13, x12, #256
.LBB36_25:                              // %atomicrmw.start37
                                        //   Parent Loop BB36_12 Depth=1
                                        // =>  This Inner Loop Header: Depth=2
	ldaxr	x12, [x13]
	sub	x14, x12, #1
	stlxr	w15, x14, [x13]
	cbnz	w15, .LBB36_25
// %bb.26:                              // %atomicrmw.end36
                                        //   in Loop: Header=BB36_12 Depth=1
	//APP
	//NO_APP
	mov	x13, #4294967297                // =0x100000001
	cmp	x12, x13
	b.hs	.LBB36_12
	b	.LBB36_44
.LBB36_27:                              // %arm.9.i.i.i.i
	ldr	x9, [x8, #160]
	add	x12, x11, #1
	ldr	x10, [x9, #16]
	cmp	x12, x10
	mov	w12, #1                         // =0x1
	csinc	x10, x10, x11, ls
	str	x10, [x9, #16]
	stp	x12, x11, [x8, #184]
	str	x8, [x0]
	mov	w0, #3                          // =0x3
	str	x11, [x1, #16]
	ret
.LBB36_28:                              // %then.3.i.i.i.i
	ldr	x10, [x10, #8]
	add	x12, x10, x12
.LBB36_29:                              // %loop.2.i.i.i.i.i.i
                                        // =>This Loop Header: Depth=1
                                        //     Child Loop BB36_30 Depth 2
	//APP
	//NO_APP
	ldar	x10, [x12]
	//APP
	//NO_APP
	//APP
	//NO_APP
	orr	x13, x10, x14
.LBB36_30:                              // %cmpxchg.start
                                        //   Parent Loop BB36_29 Depth=1
                                        // =>  This Inner Loop Header: Depth=2
	ldaxr	x15, [x12]
	cmp	x15, x10
	b.ne	.LBB36_32
// %bb.31:                              // %cmpxchg.trystore
                                        //   in Loop: Header=BB36_30 Depth=2
	stlxr	w15, x13, [x12]
	cbz	w15, .LBB36_33
	b	.LBB36_30
.LBB36_32:                              // %cmpxchg.nostore
                                        //   in Loop: Header=BB36_29 Depth=1
	clrex
	//APP
	//NO_APP
	b	.LBB36_29
.LBB36_33:                              // %cmpxchg.end
	//APP
	//NO_APP
	ldr	x12, [x8, #160]
	ldr	w9, [x9, #4]
	ldr	x13, [x12, #8]
	and	x9, x10, x9
	add	x10, x11, #1
	cmp	x13, x11
	b.hs	.LBB36_45
// %bb.34:                              // %then.1.i144.i.i.i
	str	x11, [x12, #8]
	ldr	x11, [x8, #160]
	str	x10, [x11, #16]
	b	.LBB36_46
.LBB36_35:                              // %loop.2.i265.i.i.i.preheader
	mov	x13, x11
.LBB36_36:                              // %loop.2.i265.i.i.i
                                        // =>This Loop Header: Depth=1
                                        //     Child Loop BB36_37 Depth 2
	ldr	x14, [x9, #48]
	ldr	x15, [x10, #8]
	//APP
	//NO_APP
	add	x14, x15, x14, lsl #3
.LBB36_37:                              // %cmpxchg.start24
                                        //   Parent Loop BB36_36 Depth=1
                                        // =>  This Inner Loop Header: Depth=2
	ldaxr	x15, [x14]
	cmp	x15, x12
	b.ne	.LBB36_39
// %bb.38:                              // %cmpxchg.trystore22
                                        //   in Loop: Header=BB36_37 Depth=2
	stlxr	w15, x13, [x14]
	cbz	w15, .LBB36_40
	b	.LBB36_37
.LBB36_39:                              // %cmpxchg.nostore19
                                        //   in Loop: Header=BB36_36 Depth=1
	clrex
	//APP
	//NO_APP
	ldr	x12, [x9, #48]
	ldr	x13, [x10, #8]
	//APP
	//NO_APP
	add	x12, x13, x12, lsl #3
	add	x12, x12, #128
	ldar	x13, [x12]
	//APP
	//NO_APP
	ldr	x12, [x9, #48]
	ldr	x14, [x10, #8]
	//APP
	//NO_APP
	add	x12, x14, x12, lsl #3
	ldar	x12, [x12]
	//APP
	//NO_APP
	cmp	x13, x12
	b.hi	.LBB36_36
	b	.LBB36_41
.LBB36_40:                              // %cmpxchg.end17
	//APP
	//NO_APP
.LBB36_41:                              // %"scq_band::dequeue::give_up::<#aae3f6a89b556e54>.exit.thread.i.i.i"
	ldr	x9, [x9, #48]
	ldr	x10, [x10, #8]
	//APP
	//NO_APP
	add	x9, x10, x9, lsl #3
	add	x9, x9, #256
.LBB36_42:                              // %atomicrmw.start33
                                        // =>This Inner Loop Header: Depth=1
	ldaxr	x10, [x9]
	sub	x10, x10, #1
	stlxr	w12, x10, [x9]
	cbnz	w12, .LBB36_42
// %bb.43:                              // %atomicrmw.end32
	//APP
	//NO_APP
.LBB36_44:                              // %arm.2.i151.i.i.i
	ldr	x10, [x8, #160]
	mov	x9, x10
	ldr	x12, [x9, #16]!
	cmp	x11, x12
	csel	x11, x11, x12, hi
	ldr	x10, [x10]
	add	x13, x10, #1
	cmp	x13, x11
	csinc	x10, x11, x10, ls
	cmp	x12, x10
	b.lo	.LBB36_8
	b	.LBB36_9
.LBB36_45:                              // %join.3.i140.i.i.i
	str	x10, [x12, #16]
.LBB36_46:                              // %arm.1.i19.i.i.i
	ldr	x10, [x8, #136]
	mov	w11, #1                         // =0x1
	strb	w11, [x10, x9]
	ldr	w10, [x8, #256]
	ldr	x12, [x8, #232]
	sub	w10, w10, #1
	add	x12, x12, x9, lsl #3
	str	w10, [x8, #256]
	ldrb	w10, [x12]
	stp	w11, w9, [x12]
	cbnz	w10, .LBB36_48
// %bb.47:                              // %arm.1.i.i
	str	x8, [x0]
	mov	w0, wzr
	str	xzr, [x1, #16]
	str	w9, [x1, #24]
	ret
.LBB36_48:                              // %arm.2.i.i.i.i.i
	brk	#0x1
.Lfunc_end36:
	.size	scq_lend_index, .Lfunc_end36-scq_lend_index
                                        // -- End function
	.section	.text.scq_lend_index_many,"ax",@progbits
	.globl	scq_lend_index_many             // -- Begin function scq_lend_index_many
	.p2align	2
	.type	scq_lend_index_many,@function
scq_lend_index_many:                    // @scq_lend_index_many
// %bb.0:                               // %start
	sub	sp, sp, #16
	str	xzr, [x3]
	cmp	x1, #0
	mov	w8, #4096                       // =0x1000
	ldr	x9, [x0]
	csel	x8, x8, xzr, eq
	str	xzr, [x0]
	cbz	x9, .LBB37_32
// %bb.1:                               // %arm.1.i
	mov	x10, xzr
	cbz	x2, .LBB37_33
// %bb.2:                               // %join.5.i.lr.ph.i
	add	x8, x1, x8
.LBB37_3:                               // %join.5.i.i
                                        // =>This Loop Header: Depth=1
                                        //     Child Loop BB37_6 Depth 2
                                        //       Child Loop BB37_7 Depth 3
                                        //       Child Loop BB37_10 Depth 3
                                        //         Child Loop BB37_13 Depth 4
                                        //       Child Loop BB37_19 Depth 3
                                        //     Child Loop BB37_22 Depth 2
                                        //       Child Loop BB37_23 Depth 3
	add	x11, x8, x10, lsl #5
	ldr	w13, [x9, #256]
	ldr	q0, [x11]
	ldr	w12, [x11, #28]
	str	q0, [sp]
	cbz	w13, .LBB37_49
// %bb.4:                               // %join.3.i.i.i
                                        //   in Loop: Header=BB37_3 Depth=1
	ldrb	w13, [x9, #184]
	cmp	w13, #1
	b.eq	.LBB37_50
// %bb.5:                               // %join.4.i.i.i
                                        //   in Loop: Header=BB37_3 Depth=1
	ldr	x14, [x9, #128]
	ldr	x13, [x14, #96]
	ldr	x16, [x14, #8]
	ldr	x15, [x13, #48]
	//APP
	//NO_APP
	add	x15, x16, x15, lsl #3
	add	x15, x15, #256
	ldar	x15, [x15]
	//APP
	//NO_APP
	lsr	x15, x15, #32
	cbz	x15, .LBB37_51
.LBB37_6:                               // %loop.5.i.i.i
                                        //   Parent Loop BB37_3 Depth=1
                                        // =>  This Loop Header: Depth=2
                                        //       Child Loop BB37_7 Depth 3
                                        //       Child Loop BB37_10 Depth 3
                                        //         Child Loop BB37_13 Depth 4
                                        //       Child Loop BB37_19 Depth 3
	ldr	x15, [x13, #48]
	ldr	x16, [x14, #8]
	//APP
	//NO_APP
	add	x15, x16, x15, lsl #3
	add	x16, x15, #128
.LBB37_7:                               // %atomicrmw.start
                                        //   Parent Loop BB37_3 Depth=1
                                        //     Parent Loop BB37_6 Depth=2
                                        // =>    This Inner Loop Header: Depth=3
	ldaxr	x15, [x16]
	add	x17, x15, #1
	stlxr	w18, x17, [x16]
	cbnz	w18, .LBB37_7
// %bb.8:                               // %atomicrmw.end
                                        //   in Loop: Header=BB37_6 Depth=2
	//APP
	//NO_APP
	ldr	x16, [x13, #40]
	cmp	x16, x15
	b.ls	.LBB37_34
// %bb.9:                               // %join.8.i.i.i
                                        //   in Loop: Header=BB37_6 Depth=2
	ldp	w17, w18, [x13, #64]
	ldr	w16, [x13, #4]
	ldr	x1, [x13, #48]
	and	x17, x15, x17
	and	x16, x15, x16
	lsr	x16, x16, x18
	add	x17, x1, x17, lsl #3
	add	x16, x17, x16
	lsl	x16, x16, #3
	add	x16, x16, #384
.LBB37_10:                              // %loop.2.i.i.i
                                        //   Parent Loop BB37_3 Depth=1
                                        //     Parent Loop BB37_6 Depth=2
                                        // =>    This Loop Header: Depth=3
                                        //         Child Loop BB37_13 Depth 4
	ldr	x17, [x14, #8]
	//APP
	//NO_APP
	add	x17, x17, x16
	ldar	x17, [x17]
	//APP
	//NO_APP
	ldr	w18, [x13, #4]
	eor	x1, x15, x17, lsr #1
	cmp	x1, x18
	b.ls	.LBB37_21
// %bb.11:                              // %join.5.i.i.i
                                        //   in Loop: Header=BB37_10 Depth=3
	ldr	w1, [x13, #12]
	lsr	x4, x17, x1
	lsr	x1, x15, x1
	lsr	x18, x4, #1
	cmp	x1, x18
	b.lo	.LBB37_17
// %bb.12:                              // %join.9.i.i.i
                                        //   in Loop: Header=BB37_10 Depth=3
	ldr	x5, [x13, #32]
	and	x4, x4, #0x1
	and	x6, x5, x17
	cmp	x5, w6, uxtw
	csel	x4, x4, xzr, eq
	csel	x18, x1, x18, eq
	ldr	w1, [x13, #8]
	orr	x18, x4, x18, lsl #1
	mov	w4, #2                          // =0x2
	lsl	w1, w4, w1
	ldr	x4, [x14, #8]
	//APP
	//NO_APP
	madd	x18, x18, x5, x18
	sub	w1, w1, #1
	csel	w1, w1, w6, eq
	add	x18, x18, x1
	add	x1, x4, x16
.LBB37_13:                              // %cmpxchg.start9
                                        //   Parent Loop BB37_3 Depth=1
                                        //     Parent Loop BB37_6 Depth=2
                                        //       Parent Loop BB37_10 Depth=3
                                        // =>      This Inner Loop Header: Depth=4
	ldaxr	x4, [x1]
	cmp	x4, x17
	b.ne	.LBB37_15
// %bb.14:                              // %cmpxchg.trystore7
                                        //   in Loop: Header=BB37_13 Depth=4
	stlxr	w4, x18, [x1]
	cbz	w4, .LBB37_16
	b	.LBB37_13
.LBB37_15:                              // %cmpxchg.nostore4
                                        //   in Loop: Header=BB37_10 Depth=3
	clrex
	//APP
	//NO_APP
	b	.LBB37_10
.LBB37_16:                              // %cmpxchg.end2
                                        //   in Loop: Header=BB37_6 Depth=2
	//APP
	//NO_APP
.LBB37_17:                              // %join.12.i.i.i
                                        //   in Loop: Header=BB37_6 Depth=2
	ldr	x16, [x13, #48]
	ldr	x17, [x14, #8]
	//APP
	//NO_APP
	add	x15, x15, #1
	add	x16, x17, x16, lsl #3
	ldar	x16, [x16]
	//APP
	//NO_APP
	cmp	x16, x15
	b.ls	.LBB37_35
// %bb.18:                              // %"scq_band::dequeue::give_up::<#aae3f6a89b556e54>.exit.i.i"
                                        //   in Loop: Header=BB37_6 Depth=2
	ldr	x16, [x13, #48]
	ldr	x17, [x14, #8]
	//APP
	//NO_APP
	add	x16, x17, x16, lsl #3
	add	x17, x16, #256
.LBB37_19:                              // %atomicrmw.start37
                                        //   Parent Loop BB37_3 Depth=1
                                        //     Parent Loop BB37_6 Depth=2
                                        // =>    This Inner Loop Header: Depth=3
	ldaxr	x16, [x17]
	sub	x18, x16, #1
	stlxr	w1, x18, [x17]
	cbnz	w1, .LBB37_19
// %bb.20:                              // %atomicrmw.end36
                                        //   in Loop: Header=BB37_6 Depth=2
	//APP
	//NO_APP
	mov	x17, #4294967297                // =0x100000001
	cmp	x16, x17
	b.hs	.LBB37_6
	b	.LBB37_44
.LBB37_21:                              // %then.3.i.i.i
                                        //   in Loop: Header=BB37_3 Depth=1
	ldr	x14, [x14, #8]
	add	x16, x14, x16
.LBB37_22:                              // %loop.2.i.i.i.i
                                        //   Parent Loop BB37_3 Depth=1
                                        // =>  This Loop Header: Depth=2
                                        //       Child Loop BB37_23 Depth 3
	//APP
	//NO_APP
	ldar	x14, [x16]
	//APP
	//NO_APP
	//APP
	//NO_APP
	orr	x17, x14, x18
.LBB37_23:                              // %cmpxchg.start
                                        //   Parent Loop BB37_3 Depth=1
                                        //     Parent Loop BB37_22 Depth=2
                                        // =>    This Inner Loop Header: Depth=3
	ldaxr	x1, [x16]
	cmp	x1, x14
	b.ne	.LBB37_25
// %bb.24:                              // %cmpxchg.trystore
                                        //   in Loop: Header=BB37_23 Depth=3
	stlxr	w1, x17, [x16]
	cbz	w1, .LBB37_26
	b	.LBB37_23
.LBB37_25:                              // %cmpxchg.nostore
                                        //   in Loop: Header=BB37_22 Depth=2
	clrex
	//APP
	//NO_APP
	b	.LBB37_22
.LBB37_26:                              // %cmpxchg.end
                                        //   in Loop: Header=BB37_3 Depth=1
	//APP
	//NO_APP
	ldr	x16, [x9, #160]
	ldr	w13, [x13, #4]
	ldr	x17, [x16, #8]
	cmp	x17, x15
	add	x17, x15, #1
	b.hs	.LBB37_28
// %bb.27:                              // %then.1.i127.i.i
                                        //   in Loop: Header=BB37_3 Depth=1
	str	x15, [x16, #8]
	ldr	x15, [x9, #160]
	str	x17, [x15, #16]
	b	.LBB37_29
.LBB37_28:                              // %join.3.i123.i.i
                                        //   in Loop: Header=BB37_3 Depth=1
	str	x17, [x16, #16]
.LBB37_29:                              // %arm.1.i.i.i
                                        //   in Loop: Header=BB37_3 Depth=1
	ldr	x15, [x9, #136]
	and	x13, x14, x13
	mov	w14, #1                         // =0x1
	strb	w14, [x15, x13]
	ldr	w15, [x9, #256]
	ldr	x16, [x9, #232]
	sub	w15, w15, #1
	add	x16, x16, x13, lsl #3
	str	w15, [x9, #256]
	ldrb	w15, [x16]
	stp	w14, w13, [x16]
	cbnz	w15, .LBB37_52
// %bb.30:                              // %join.8.i.i
                                        //   in Loop: Header=BB37_3 Depth=1
	ldr	q0, [sp]
	add	x10, x10, #1
	str	xzr, [x11, #16]
	cmp	x10, x2
	stp	w13, w12, [x11, #24]
	str	q0, [x11]
	b.ne	.LBB37_3
// %bb.31:
	mov	w8, wzr
	str	x9, [x0]
	str	x2, [x3]
	mov	w0, w8
	add	sp, sp, #16
	ret
.LBB37_32:
	mov	w8, #4                          // =0x4
	mov	w0, w8
	add	sp, sp, #16
	ret
.LBB37_33:
	mov	w8, wzr
	str	x9, [x0]
	str	x10, [x3]
	mov	w0, w8
	add	sp, sp, #16
	ret
.LBB37_34:                              // %arm.2.i14.i.i
	ldr	x8, [x9, #160]
	add	x12, x15, #1
	ldr	x11, [x8, #16]
	cmp	x12, x11
	mov	w12, #1                         // =0x1
	csinc	x11, x11, x15, ls
	str	x11, [x8, #16]
	mov	w8, #3                          // =0x3
	stp	x12, x15, [x9, #184]
	str	x9, [x0]
	str	x10, [x3]
	mov	w0, w8
	add	sp, sp, #16
	ret
.LBB37_35:                              // %loop.2.i72.i.preheader
	mov	x8, x15
.LBB37_36:                              // %loop.2.i72.i
                                        // =>This Loop Header: Depth=1
                                        //     Child Loop BB37_37 Depth 2
	ldr	x11, [x13, #48]
	ldr	x12, [x14, #8]
	//APP
	//NO_APP
	add	x11, x12, x11, lsl #3
.LBB37_37:                              // %cmpxchg.start24
                                        //   Parent Loop BB37_36 Depth=1
                                        // =>  This Inner Loop Header: Depth=2
	ldaxr	x12, [x11]
	cmp	x12, x16
	b.ne	.LBB37_39
// %bb.38:                              // %cmpxchg.trystore22
                                        //   in Loop: Header=BB37_37 Depth=2
	stlxr	w12, x8, [x11]
	cbz	w12, .LBB37_40
	b	.LBB37_37
.LBB37_39:                              // %cmpxchg.nostore19
                                        //   in Loop: Header=BB37_36 Depth=1
	clrex
	//APP
	//NO_APP
	ldr	x8, [x13, #48]
	ldr	x11, [x14, #8]
	//APP
	//NO_APP
	add	x8, x11, x8, lsl #3
	add	x8, x8, #128
	ldar	x8, [x8]
	//APP
	//NO_APP
	ldr	x11, [x13, #48]
	ldr	x12, [x14, #8]
	//APP
	//NO_APP
	add	x11, x12, x11, lsl #3
	ldar	x16, [x11]
	//APP
	//NO_APP
	cmp	x8, x16
	b.hi	.LBB37_36
	b	.LBB37_41
.LBB37_40:                              // %cmpxchg.end17
	//APP
	//NO_APP
.LBB37_41:                              // %"scq_band::dequeue::give_up::<#aae3f6a89b556e54>.exit.i.thread.i"
	ldr	x8, [x13, #48]
	ldr	x11, [x14, #8]
	//APP
	//NO_APP
	add	x8, x11, x8, lsl #3
	add	x8, x8, #256
.LBB37_42:                              // %atomicrmw.start33
                                        // =>This Inner Loop Header: Depth=1
	ldaxr	x11, [x8]
	sub	x11, x11, #1
	stlxr	w12, x11, [x8]
	cbnz	w12, .LBB37_42
// %bb.43:                              // %atomicrmw.end32
	//APP
	//NO_APP
.LBB37_44:                              // %arm.2.i134.i.i
	ldr	x11, [x9, #160]
	mov	x8, x11
	ldr	x12, [x8, #16]!
	cmp	x15, x12
	csel	x13, x15, x12, hi
	ldr	x11, [x11]
	add	x14, x11, #1
	cmp	x14, x13
	csinc	x11, x13, x11, ls
	cmp	x12, x11
	b.hs	.LBB37_46
.LBB37_45:                              // %then.1.i143.i.i
	str	x11, [x8]
.LBB37_46:                              // %arm.5.i16.i.i
	ldr	x8, [x9, #216]
	cmn	x8, #1
	b.eq	.LBB37_48
// %bb.47:                              // %arm.1.i164.i.i
	add	x8, x8, #1
	str	x8, [x9, #216]
.LBB37_48:
	mov	w8, #2                          // =0x2
	str	x9, [x0]
	str	x10, [x3]
	mov	w0, w8
	add	sp, sp, #16
	ret
.LBB37_49:
	mov	w8, #7                          // =0x7
	str	x9, [x0]
	str	x10, [x3]
	mov	w0, w8
	add	sp, sp, #16
	ret
.LBB37_50:
	mov	w8, #3                          // =0x3
	str	x9, [x0]
	str	x10, [x3]
	mov	w0, w8
	add	sp, sp, #16
	ret
.LBB37_51:                              // %arm.8.i.i.i
	ldr	x11, [x9, #160]
	mov	x8, x11
	ldr	x12, [x8, #16]!
	ldr	x11, [x11]
	add	x14, x11, #1
	cmp	x14, x12
	csinc	x11, x12, x11, ls
	cmp	x12, x11
	b.lo	.LBB37_45
	b	.LBB37_46
.LBB37_52:                              // %arm.2.i.i.i.i
	brk	#0x1
.Lfunc_end37:
	.size	scq_lend_index_many, .Lfunc_end37-scq_lend_index_many
                                        // -- End function
	.section	.text.scq_open_over,"ax",@progbits
	.globl	scq_open_over                   // -- Begin function scq_open_over
	.p2align	2
	.type	scq_open_over,@function
scq_open_over:                          // @scq_open_over
// %bb.0:                               // %start
	sub	sp, sp, #128
	movi	v0.2d, #0000000000000000
	mov	w8, #4096                       // =0x1000
	cmp	x5, #0
	sub	w9, w1, #32
	stp	x20, x19, [sp, #112]            // 16-byte Folded Spill
	csel	x19, x8, xzr, eq
	cmn	w9, #31
	stp	x29, x30, [sp, #64]             // 16-byte Folded Spill
	add	x29, sp, #64
	str	x23, [sp, #80]                  // 8-byte Spill
	stp	x22, x21, [sp, #96]             // 16-byte Folded Spill
	stp	q0, q0, [sp, #32]
	b.hs	.LBB38_2
// %bb.1:
	mov	w8, #10                         // =0xa
	b	.LBB38_7
.LBB38_2:                               // %after.1.i.i
	mov	x8, #4294967296                 // =0x100000000
	lsr	x9, x6, #32
	cmp	x6, x8
	csel	x8, x6, x8, lo
	cbnz	x9, .LBB38_5
// %bb.3:                               // %arm.11.i.i
	sub	w9, w0, #1
	cmp	w9, #15
	b.hi	.LBB38_6
// %bb.4:                               // %arm.1.i.i.i
	mov	w9, #-4097                      // =0xffffefff
	add	w8, w8, w9
	cmn	w8, #1, lsl #12                 // =4096
	b.hs	.LBB38_8
.LBB38_5:
	mov	w8, #11                         // =0xb
	b	.LBB38_7
.LBB38_6:
	mov	w8, #9                          // =0x9
.LBB38_7:                               // %"scq_c::opening::scq_open_over.exit"
	ldp	x20, x19, [sp, #112]            // 16-byte Folded Reload
	mov	w0, w8
	ldp	x22, x21, [sp, #96]             // 16-byte Folded Reload
	ldr	x23, [sp, #80]                  // 8-byte Reload
	ldp	x29, x30, [sp, #64]             // 16-byte Folded Reload
	add	sp, sp, #128
	ret
.LBB38_8:                               // %after.15.i.i.i
	mov	x8, #1152921504606846976        // =0x1000000000000000
	cmp	x3, x8
	mov	w8, #12                         // =0xc
	b.hi	.LBB38_7
// %bb.9:                               // %after.15.i.i.i
	mov	w9, #1                          // =0x1
	lsl	w9, w9, w0
	ubfiz	x10, x9, #3, #32
	cmp	x3, x10
	b.lo	.LBB38_7
// %bb.10:                              // %arm.1.i
	ldr	x8, [x4, #16]
	cbz	x8, .LBB38_12
// %bb.11:                              // %else.13.i
	ldr	x10, [x4, #8]
	cmp	x10, x8
	b.hs	.LBB38_13
.LBB38_12:
	mov	w8, #13                         // =0xd
	b	.LBB38_7
.LBB38_13:                              // %after.10.i
	sub	w8, w2, #1
	cmp	w8, w9
	b.hs	.LBB38_21
// %bb.14:                              // %after.20.i
	add	x8, x5, x19
	mov	x9, x6
	cbz	x6, .LBB38_17
.LBB38_15:                              // %join.5.i15.i
                                        // =>This Inner Loop Header: Depth=1
	ldr	x10, [x8], #40
	cbnz	x10, .LBB38_23
// %bb.16:                              // %loop.2.i.i
                                        //   in Loop: Header=BB38_15 Depth=1
	subs	x9, x9, #1
	b.ne	.LBB38_15
.LBB38_17:                              // %join.32.i
	add	w8, w1, #1
	add	x1, sp, #8
	mov	x21, x5
	stp	w0, w8, [sp, #8]
	add	x0, sp, #32
	mov	x20, x4
	mov	x22, x6
	stp	w6, wzr, [sp, #16]
	add	x23, sp, #32
	str	x3, [sp, #24]
	bl	"scq_c::opening::boxed"
	ldrb	w8, [sp, #32]
	cmp	w8, #1
	b.ne	.LBB38_22
// %bb.18:                              // %arm.33.i
	add	x0, x21, x19
	orr	x1, x23, #0x8
	bl	"scq_c::opening::fill"
	cbz	x22, .LBB38_24
// %bb.19:                              // %join.5.i17.i.preheader
	add	x8, x19, x21
	mov	x9, x22
	add	x10, x8, #8
.LBB38_20:                              // %join.5.i17.i
                                        // =>This Inner Loop Header: Depth=1
	ldp	q1, q0, [x20]
	mov	w8, wzr
	subs	x9, x9, #1
	stp	q1, q0, [x10]
	add	x10, x10, #40
	b.ne	.LBB38_20
	b	.LBB38_7
.LBB38_21:
	mov	w8, #14                         // =0xe
	b	.LBB38_7
.LBB38_22:
	mov	w8, #8                          // =0x8
	b	.LBB38_7
.LBB38_23:
	mov	w8, #15                         // =0xf
	b	.LBB38_7
.LBB38_24:
	mov	w8, wzr
	b	.LBB38_7
.Lfunc_end38:
	.size	scq_open_over, .Lfunc_end38-scq_open_over
                                        // -- End function
	.section	.text.scq_send,"ax",@progbits
	.globl	scq_send                        // -- Begin function scq_send
	.p2align	2
	.type	scq_send,@function
scq_send:                               // @scq_send
// %bb.0:                               // %start
	ldr	x8, [x0]
	cbz	x8, .LBB39_6
// %bb.1:                               // %arm.1.i.i.i.i
	ldr	w9, [x8, #268]
	cmp	w9, w2
	b.ls	.LBB39_7
// %bb.2:                               // %join.3.i.i.i.i
	ldr	x10, [x8, #240]
	mov	w9, w1
	cmp	x10, x9
	b.ls	.LBB39_8
// %bb.3:                               // %else.4.i.i.i.i.i
	ldr	x10, [x8, #232]
	add	x10, x10, x9, lsl #3
	ldrb	w9, [x10]
	cmp	w9, #1
	b.ne	.LBB39_8
// %bb.4:                               // %arm.1.i14.i.i.i
	ldr	x12, [x8, #128]
	ldr	w9, [x10, #4]
	str	xzr, [x10]
	ldrb	w10, [x8, #184]
	cmp	w10, #1
	b.ne	.LBB39_9
// %bb.5:                               // %arm.1.i4.i.i.i.i
	ldr	x10, [x8, #192]
	b	.LBB39_38
.LBB39_6:                               // %"core::mem::replace_with::<#634a75835838ab60>.exit.i"
	str	xzr, [x0]
	mov	w0, #4                          // =0x4
	ret
.LBB39_7:                               // %arm.2.i.i
	ldr	w9, [x8, #264]
	mov	w10, #16                        // =0x10
	str	x8, [x0]
	cmp	w9, w2
	mov	w9, #6                          // =0x6
	csel	w0, w10, w9, hi
	ret
.LBB39_8:                               // %arm.2.i.thread.i
	str	x8, [x0]
	mov	w0, #5                          // =0x5
	ret
.LBB39_9:                               // %join.4.i.i.i.i.i
	add	w11, w2, #1
	mov	w10, #72                        // =0x48
	ldr	x13, [x12, #96]
	umaddl	x13, w11, w10, x13
	ldr	x15, [x12, #8]
	ldr	x10, [x13, #48]
	//APP
	//NO_APP
	lsl	x14, x10, #3
	add	x15, x15, x14
.LBB39_10:                              // %atomicrmw.start
                                        // =>This Inner Loop Header: Depth=1
	ldaxr	x10, [x15]
	add	x16, x10, #1
	stlxr	w17, x16, [x15]
	cbnz	w17, .LBB39_10
// %bb.11:                              // %atomicrmw.end
	//APP
	//NO_APP
	ldr	x15, [x13, #40]
	cmp	x15, x10
	b.ls	.LBB39_37
// %bb.12:                              // %join.5.i.i.lr.ph.i.i.i
	add	x15, x9, #1
.LBB39_13:                              // %join.5.i.i.i.i.i
                                        // =>This Loop Header: Depth=1
                                        //     Child Loop BB39_14 Depth 2
                                        //     Child Loop BB39_19 Depth 2
                                        //     Child Loop BB39_29 Depth 2
                                        //       Child Loop BB39_34 Depth 3
                                        //     Child Loop BB39_26 Depth 2
	ldr	w16, [x13, #4]
	ldr	x2, [x12, #8]
	ldp	w17, w18, [x13, #64]
	and	x1, x10, x16
	and	x17, x10, x17
	lsr	x18, x1, x18
	ldr	x1, [x13, #48]
	lsl	x17, x17, #6
	//APP
	//NO_APP
	add	x18, x1, x18
	bic	x1, x10, x16
	add	x16, x15, x16
	add	x17, x17, x18, lsl #3
	lsl	x1, x1, #1
	add	x18, x17, #384
	add	x16, x16, x1
	sub	x1, x1, #1
	add	x2, x2, x18
.LBB39_14:                              // %cmpxchg.start
                                        //   Parent Loop BB39_13 Depth=1
                                        // =>  This Inner Loop Header: Depth=2
	ldaxr	x17, [x2]
	cmp	x17, x1
	b.ne	.LBB39_16
// %bb.15:                              // %cmpxchg.trystore
                                        //   in Loop: Header=BB39_14 Depth=2
	stlxr	w17, x16, [x2]
	cbz	w17, .LBB39_40
	b	.LBB39_14
.LBB39_16:                              // %cmpxchg.nostore
                                        //   in Loop: Header=BB39_13 Depth=1
	clrex
	cmp	x17, x16
	//APP
	//NO_APP
	b.hs	.LBB39_21
// %bb.17:                              // %cmpxchg.nostore
                                        //   in Loop: Header=BB39_13 Depth=1
	ldr	w1, [x13, #4]
	mov	w2, #1                          // =0x1
	orr	x1, x2, x1, lsl #1
	and	x2, x1, x17
	cmp	x2, x1
	b.ne	.LBB39_21
.LBB39_18:                              // %join.6.i.i.i.i.i
                                        //   in Loop: Header=BB39_13 Depth=1
	ldr	x1, [x12, #8]
	//APP
	//NO_APP
	add	x18, x1, x18
.LBB39_19:                              // %cmpxchg.start9
                                        //   Parent Loop BB39_13 Depth=1
                                        // =>  This Inner Loop Header: Depth=2
	ldaxr	x1, [x18]
	cmp	x1, x17
	b.ne	.LBB39_28
// %bb.20:                              // %cmpxchg.trystore7
                                        //   in Loop: Header=BB39_19 Depth=2
	stlxr	w1, x16, [x18]
	cbz	w1, .LBB39_47
	b	.LBB39_19
.LBB39_21:                              // %join.3.i36.i.i.i.i
                                        //   in Loop: Header=BB39_13 Depth=1
	ldr	w2, [x13, #12]
	lsr	x1, x17, x2
	lsr	x2, x10, x2
	cmp	x2, x1, lsr #1
	b.ls	.LBB39_25
// %bb.22:                              // %join.3.i36.i.i.i.i
                                        //   in Loop: Header=BB39_13 Depth=1
	ldr	x2, [x13, #32]
	and	w4, w17, w2
	cmp	x2, x4
	b.ne	.LBB39_25
// %bb.23:                              // %join.9.i49.i.i.i.i
                                        //   in Loop: Header=BB39_13 Depth=1
	tbnz	w1, #0, .LBB39_18
// %bb.24:                              // %"scq_band::enqueue::has_room::<#aae3f6a89b556e54>.exit.i.i.i.i"
                                        //   in Loop: Header=BB39_13 Depth=1
	ldr	x1, [x13, #48]
	ldr	x2, [x12, #8]
	//APP
	//NO_APP
	add	x1, x2, x1, lsl #3
	add	x1, x1, #128
	ldar	x1, [x1]
	//APP
	//NO_APP
	cmp	x10, x1
	b.hs	.LBB39_18
.LBB39_25:                              // %"scq_band::enqueue::place::<#aae3f6a89b556e54>.exit.i.i.i.i"
                                        //   in Loop: Header=BB39_13 Depth=1
	ldr	x10, [x13, #48]
	ldr	x16, [x12, #8]
	//APP
	//NO_APP
	add	x16, x16, x10, lsl #3
.LBB39_26:                              // %atomicrmw.start33
                                        //   Parent Loop BB39_13 Depth=1
                                        // =>  This Inner Loop Header: Depth=2
	ldaxr	x10, [x16]
	add	x17, x10, #1
	stlxr	w18, x17, [x16]
	cbnz	w18, .LBB39_26
// %bb.27:                              // %atomicrmw.end32
                                        //   in Loop: Header=BB39_13 Depth=1
	//APP
	//NO_APP
	ldr	x16, [x13, #40]
	cmp	x16, x10
	b.hi	.LBB39_13
	b	.LBB39_37
.LBB39_28:                              // %cmpxchg.nostore4
                                        //   in Loop: Header=BB39_13 Depth=1
	clrex
	//APP
	//NO_APP
	ldr	w16, [x13, #4]
	ldp	w17, w18, [x13, #64]
	and	x1, x10, x16
	and	x17, x10, x17
	lsr	x18, x1, x18
	ldr	x1, [x13, #48]
	lsl	x17, x17, #6
	add	x18, x1, x18
	bic	x1, x10, x16
	add	x16, x15, x16
	add	x17, x17, x18, lsl #3
	add	x16, x16, x1, lsl #1
	add	x17, x17, #384
.LBB39_29:                              // %loop.2.i62.i.i.i.i
                                        //   Parent Loop BB39_13 Depth=1
                                        // =>  This Loop Header: Depth=2
                                        //       Child Loop BB39_34 Depth 3
	ldr	x18, [x12, #8]
	//APP
	//NO_APP
	mov	w2, #1                          // =0x1
	add	x18, x18, x17
	ldar	x18, [x18]
	//APP
	//NO_APP
	ldr	w1, [x13, #4]
	cmp	x18, x16
	orr	x1, x2, x1, lsl #1
	and	x2, x1, x18
	ccmp	x2, x1, #0, lo
	b.eq	.LBB39_33
// %bb.30:                              // %join.3.i.i.i.i.i.i
                                        //   in Loop: Header=BB39_29 Depth=2
	ldr	w2, [x13, #12]
	ldr	x4, [x13, #32]
	lsr	x1, x18, x2
	lsr	x2, x10, x2
	and	w5, w18, w4
	cmp	x2, x1, lsr #1
	ccmp	x4, x5, #0, hi
	b.ne	.LBB39_25
// %bb.31:                              // %join.9.i.i.i.i.i.i
                                        //   in Loop: Header=BB39_29 Depth=2
	tbnz	w1, #0, .LBB39_33
// %bb.32:                              // %"scq_band::enqueue::load_vacant::<#aae3f6a89b556e54>.exit.i.i.i.i"
                                        //   in Loop: Header=BB39_29 Depth=2
	ldr	x1, [x13, #48]
	ldr	x2, [x12, #8]
	//APP
	//NO_APP
	add	x1, x2, x1, lsl #3
	add	x1, x1, #128
	ldar	x1, [x1]
	//APP
	//NO_APP
	cmp	x10, x1
	b.lo	.LBB39_25
.LBB39_33:                              // %arm.3.i.i.i.i.i
                                        //   in Loop: Header=BB39_29 Depth=2
	ldr	x1, [x12, #8]
	//APP
	//NO_APP
	add	x1, x1, x17
.LBB39_34:                              // %cmpxchg.start24
                                        //   Parent Loop BB39_13 Depth=1
                                        //     Parent Loop BB39_29 Depth=2
                                        // =>    This Inner Loop Header: Depth=3
	ldaxr	x2, [x1]
	cmp	x2, x18
	b.ne	.LBB39_36
// %bb.35:                              // %cmpxchg.trystore22
                                        //   in Loop: Header=BB39_34 Depth=3
	stlxr	w2, x16, [x1]
	cbz	w2, .LBB39_48
	b	.LBB39_34
.LBB39_36:                              // %cmpxchg.nostore19
                                        //   in Loop: Header=BB39_29 Depth=2
	clrex
	//APP
	//NO_APP
	b	.LBB39_29
.LBB39_37:                              // %arm.7.i.i.i.i.i
	mov	w11, #1                         // =0x1
	stp	x11, x10, [x8, #184]
.LBB39_38:                              // %arm.6.i.i.i.i
	ldr	x11, [x8, #232]
	mov	w13, #1                         // =0x1
	add	x11, x11, x9, lsl #3
	ldrb	w12, [x11]
	stp	w13, w9, [x11]
	cbnz	w12, .LBB39_46
// %bb.39:                              // %arm.2.i.thread21.i
	str	x8, [x0]
	mov	w0, #3                          // =0x3
	str	x10, [x3]
	ret
.LBB39_40:                              // %then.7.i.i.i.i.i.critedge
	//APP
	//NO_APP
.LBB39_41:                              // %then.7.i.i.i.i.i
	ldr	x15, [x12, #8]
	add	x14, x14, #256
	//APP
	//NO_APP
	add	x15, x15, x14
	ldar	x15, [x15]
	//APP
	//NO_APP
	ldr	x13, [x13, #56]
	cmp	x15, x13
	b.eq	.LBB39_43
// %bb.42:                              // %then.1.i.i.i.i.i
	ldr	x12, [x12, #8]
	//APP
	//NO_APP
	add	x12, x12, x14
	stlr	x13, [x12]
	//APP
	//NO_APP
.LBB39_43:                              // %arm.1.i31.i.i.i
	ldr	x12, [x8, #136]
	mov	w13, #24                        // =0x18
	strb	wzr, [x12, x9]
	ldr	x9, [x8, #160]
	umaddl	x9, w11, w13, x9
	stp	x10, x10, [x9]
	ldr	x9, [x8, #200]
	cmn	x9, #1
	b.eq	.LBB39_45
// %bb.44:                              // %arm.1.i101.i.i.i.i
	add	x9, x9, #1
	str	x9, [x8, #200]
.LBB39_45:                              // %arm.1.i.i
	ldr	w11, [x8, #256]
	add	w11, w11, #1
	str	w11, [x8, #256]
	str	x8, [x0]
	mov	w0, wzr
	str	x10, [x3]
	ret
.LBB39_46:                              // %arm.2.i.i.i.i.i
	brk	#0x1
.LBB39_47:                              // %cmpxchg.end2
	//APP
	//NO_APP
	b	.LBB39_41
.LBB39_48:                              // %cmpxchg.end17
	//APP
	//NO_APP
	b	.LBB39_41
.Lfunc_end39:
	.size	scq_send, .Lfunc_end39-scq_send
                                        // -- End function
	.section	.text.scq_send_many,"ax",@progbits
	.globl	scq_send_many                   // -- Begin function scq_send_many
	.p2align	2
	.type	scq_send_many,@function
scq_send_many:                          // @scq_send_many
// %bb.0:                               // %start
	sub	sp, sp, #48
	str	xzr, [x4]
	cmp	x1, #0
	mov	w8, #4096                       // =0x1000
	ldr	x9, [x0]
	csel	x12, x8, xzr, eq
	stp	x22, x21, [sp, #16]             // 16-byte Folded Spill
	stp	x20, x19, [sp, #32]             // 16-byte Folded Spill
	str	xzr, [x0]
	cbz	x9, .LBB40_43
// %bb.1:                               // %arm.1.i
	mov	x10, xzr
	cbz	x2, .LBB40_44
// %bb.2:                               // %join.5.i.lr.ph.i
	add	w8, w3, #1
	add	x12, x1, x12
	add	x11, x8, w8, uxtw #3
	add	x13, x8, w8, uxtw #1
	lsl	x8, x11, #3
	lsl	x11, x13, #3
	b	.LBB40_4
.LBB40_3:                               // %join.8.i.i
                                        //   in Loop: Header=BB40_4 Depth=1
	ldr	w14, [x9, #256]
	ldr	q1, [sp]
	add	x10, x10, #1
	cmp	x10, x2
	add	w14, w14, #1
	str	w14, [x9, #256]
	str	q1, [x13]
	str	x15, [x13, #16]
	str	d0, [x13, #24]
	b.eq	.LBB40_50
.LBB40_4:                               // %join.5.i.i
                                        // =>This Loop Header: Depth=1
                                        //     Child Loop BB40_9 Depth 2
                                        //     Child Loop BB40_12 Depth 2
                                        //       Child Loop BB40_13 Depth 3
                                        //       Child Loop BB40_18 Depth 3
                                        //       Child Loop BB40_28 Depth 3
                                        //         Child Loop BB40_33 Depth 4
                                        //       Child Loop BB40_25 Depth 3
	add	x13, x12, x10, lsl #5
	ldr	w15, [x9, #268]
	ldr	q1, [x13]
	ldr	d0, [x13, #24]
	ldr	w14, [x13, #24]
	cmp	w15, w3
	str	q1, [sp]
	b.ls	.LBB40_46
// %bb.5:                               // %join.3.i.i.i
                                        //   in Loop: Header=BB40_4 Depth=1
	ldr	x15, [x9, #240]
	cmp	x15, x14
	b.ls	.LBB40_45
// %bb.6:                               // %else.4.i.i.i.i
                                        //   in Loop: Header=BB40_4 Depth=1
	ldr	x15, [x9, #232]
	add	x15, x15, x14, lsl #3
	ldrb	w14, [x15]
	cmp	w14, #1
	b.ne	.LBB40_45
// %bb.7:                               // %arm.1.i.i.i
                                        //   in Loop: Header=BB40_4 Depth=1
	ldr	x16, [x9, #128]
	ldr	w14, [x15, #4]
	str	xzr, [x15]
	ldrb	w15, [x9, #184]
	cmp	w15, #1
	b.eq	.LBB40_48
// %bb.8:                               // %join.4.i.i.i.i
                                        //   in Loop: Header=BB40_4 Depth=1
	ldr	x15, [x16, #96]
	ldr	x1, [x16, #8]
	add	x17, x15, x8
	ldr	x15, [x17, #48]
	//APP
	//NO_APP
	lsl	x18, x15, #3
	add	x1, x1, x18
.LBB40_9:                               // %atomicrmw.start
                                        //   Parent Loop BB40_4 Depth=1
                                        // =>  This Inner Loop Header: Depth=2
	ldaxr	x15, [x1]
	add	x5, x15, #1
	stlxr	w6, x5, [x1]
	cbnz	w6, .LBB40_9
// %bb.10:                              // %atomicrmw.end
                                        //   in Loop: Header=BB40_4 Depth=1
	//APP
	//NO_APP
	ldr	x1, [x17, #40]
	cmp	x1, x15
	b.ls	.LBB40_47
// %bb.11:                              // %join.5.i.i.i.lr.ph.i
                                        //   in Loop: Header=BB40_4 Depth=1
	add	x1, x14, #1
.LBB40_12:                              // %join.5.i.i.i.i
                                        //   Parent Loop BB40_4 Depth=1
                                        // =>  This Loop Header: Depth=2
                                        //       Child Loop BB40_13 Depth 3
                                        //       Child Loop BB40_18 Depth 3
                                        //       Child Loop BB40_28 Depth 3
                                        //         Child Loop BB40_33 Depth 4
                                        //       Child Loop BB40_25 Depth 3
	ldr	w5, [x17, #4]
	ldr	x20, [x16, #8]
	ldp	w6, w7, [x17, #64]
	and	x19, x15, x5
	and	x6, x15, x6
	lsr	x7, x19, x7
	ldr	x19, [x17, #48]
	lsl	x6, x6, #6
	//APP
	//NO_APP
	add	x7, x19, x7
	bic	x19, x15, x5
	add	x5, x1, x5
	add	x6, x6, x7, lsl #3
	lsl	x19, x19, #1
	add	x7, x6, #384
	add	x5, x5, x19
	sub	x19, x19, #1
	add	x20, x20, x7
.LBB40_13:                              // %cmpxchg.start
                                        //   Parent Loop BB40_4 Depth=1
                                        //     Parent Loop BB40_12 Depth=2
                                        // =>    This Inner Loop Header: Depth=3
	ldaxr	x6, [x20]
	cmp	x6, x19
	b.ne	.LBB40_15
// %bb.14:                              // %cmpxchg.trystore
                                        //   in Loop: Header=BB40_13 Depth=3
	stlxr	w6, x5, [x20]
	cbz	w6, .LBB40_36
	b	.LBB40_13
.LBB40_15:                              // %cmpxchg.nostore
                                        //   in Loop: Header=BB40_12 Depth=2
	clrex
	cmp	x6, x5
	//APP
	//NO_APP
	b.hs	.LBB40_20
// %bb.16:                              // %cmpxchg.nostore
                                        //   in Loop: Header=BB40_12 Depth=2
	ldr	w19, [x17, #4]
	mov	w20, #1                         // =0x1
	orr	x19, x20, x19, lsl #1
	and	x20, x19, x6
	cmp	x20, x19
	b.ne	.LBB40_20
.LBB40_17:                              // %join.6.i.i.i.i
                                        //   in Loop: Header=BB40_12 Depth=2
	ldr	x19, [x16, #8]
	//APP
	//NO_APP
	add	x7, x19, x7
.LBB40_18:                              // %cmpxchg.start9
                                        //   Parent Loop BB40_4 Depth=1
                                        //     Parent Loop BB40_12 Depth=2
                                        // =>    This Inner Loop Header: Depth=3
	ldaxr	x19, [x7]
	cmp	x19, x6
	b.ne	.LBB40_27
// %bb.19:                              // %cmpxchg.trystore7
                                        //   in Loop: Header=BB40_18 Depth=3
	stlxr	w19, x5, [x7]
	cbz	w19, .LBB40_41
	b	.LBB40_18
.LBB40_20:                              // %join.3.i36.i.i.i
                                        //   in Loop: Header=BB40_12 Depth=2
	ldr	w20, [x17, #12]
	lsr	x19, x6, x20
	lsr	x20, x15, x20
	cmp	x20, x19, lsr #1
	b.ls	.LBB40_24
// %bb.21:                              // %join.3.i36.i.i.i
                                        //   in Loop: Header=BB40_12 Depth=2
	ldr	x20, [x17, #32]
	and	w21, w6, w20
	cmp	x20, x21
	b.ne	.LBB40_24
// %bb.22:                              // %join.9.i49.i.i.i
                                        //   in Loop: Header=BB40_12 Depth=2
	tbnz	w19, #0, .LBB40_17
// %bb.23:                              // %"scq_band::enqueue::has_room::<#aae3f6a89b556e54>.exit.i.i.i"
                                        //   in Loop: Header=BB40_12 Depth=2
	ldr	x19, [x17, #48]
	ldr	x20, [x16, #8]
	//APP
	//NO_APP
	add	x19, x20, x19, lsl #3
	add	x19, x19, #128
	ldar	x19, [x19]
	//APP
	//NO_APP
	cmp	x15, x19
	b.hs	.LBB40_17
.LBB40_24:                              // %"scq_band::enqueue::place::<#aae3f6a89b556e54>.exit.i.i.i"
                                        //   in Loop: Header=BB40_12 Depth=2
	ldr	x15, [x17, #48]
	ldr	x5, [x16, #8]
	//APP
	//NO_APP
	add	x5, x5, x15, lsl #3
.LBB40_25:                              // %atomicrmw.start33
                                        //   Parent Loop BB40_4 Depth=1
                                        //     Parent Loop BB40_12 Depth=2
                                        // =>    This Inner Loop Header: Depth=3
	ldaxr	x15, [x5]
	add	x6, x15, #1
	stlxr	w7, x6, [x5]
	cbnz	w7, .LBB40_25
// %bb.26:                              // %atomicrmw.end32
                                        //   in Loop: Header=BB40_12 Depth=2
	//APP
	//NO_APP
	ldr	x5, [x17, #40]
	cmp	x5, x15
	b.hi	.LBB40_12
	b	.LBB40_47
.LBB40_27:                              // %cmpxchg.nostore4
                                        //   in Loop: Header=BB40_12 Depth=2
	clrex
	//APP
	//NO_APP
	ldr	w5, [x17, #4]
	ldp	w6, w7, [x17, #64]
	and	x19, x15, x5
	and	x6, x15, x6
	lsr	x7, x19, x7
	ldr	x19, [x17, #48]
	lsl	x6, x6, #6
	add	x7, x19, x7
	bic	x19, x15, x5
	add	x5, x1, x5
	add	x6, x6, x7, lsl #3
	add	x5, x5, x19, lsl #1
	add	x6, x6, #384
.LBB40_28:                              // %loop.2.i62.i.i.i
                                        //   Parent Loop BB40_4 Depth=1
                                        //     Parent Loop BB40_12 Depth=2
                                        // =>    This Loop Header: Depth=3
                                        //         Child Loop BB40_33 Depth 4
	ldr	x7, [x16, #8]
	//APP
	//NO_APP
	mov	w20, #1                         // =0x1
	add	x7, x7, x6
	ldar	x7, [x7]
	//APP
	//NO_APP
	ldr	w19, [x17, #4]
	cmp	x7, x5
	orr	x19, x20, x19, lsl #1
	and	x20, x19, x7
	ccmp	x20, x19, #0, lo
	b.eq	.LBB40_32
// %bb.29:                              // %join.3.i.i.i.i.i
                                        //   in Loop: Header=BB40_28 Depth=3
	ldr	w20, [x17, #12]
	ldr	x21, [x17, #32]
	lsr	x19, x7, x20
	lsr	x20, x15, x20
	and	w22, w7, w21
	cmp	x20, x19, lsr #1
	ccmp	x21, x22, #0, hi
	b.ne	.LBB40_24
// %bb.30:                              // %join.9.i.i.i.i.i
                                        //   in Loop: Header=BB40_28 Depth=3
	tbnz	w19, #0, .LBB40_32
// %bb.31:                              // %"scq_band::enqueue::load_vacant::<#aae3f6a89b556e54>.exit.i.i.i"
                                        //   in Loop: Header=BB40_28 Depth=3
	ldr	x19, [x17, #48]
	ldr	x20, [x16, #8]
	//APP
	//NO_APP
	add	x19, x20, x19, lsl #3
	add	x19, x19, #128
	ldar	x19, [x19]
	//APP
	//NO_APP
	cmp	x15, x19
	b.lo	.LBB40_24
.LBB40_32:                              // %arm.3.i.i.i.i
                                        //   in Loop: Header=BB40_28 Depth=3
	ldr	x19, [x16, #8]
	//APP
	//NO_APP
	add	x19, x19, x6
.LBB40_33:                              // %cmpxchg.start24
                                        //   Parent Loop BB40_4 Depth=1
                                        //     Parent Loop BB40_12 Depth=2
                                        //       Parent Loop BB40_28 Depth=3
                                        // =>      This Inner Loop Header: Depth=4
	ldaxr	x20, [x19]
	cmp	x20, x7
	b.ne	.LBB40_35
// %bb.34:                              // %cmpxchg.trystore22
                                        //   in Loop: Header=BB40_33 Depth=4
	stlxr	w20, x5, [x19]
	cbz	w20, .LBB40_42
	b	.LBB40_33
.LBB40_35:                              // %cmpxchg.nostore19
                                        //   in Loop: Header=BB40_28 Depth=3
	clrex
	//APP
	//NO_APP
	b	.LBB40_28
.LBB40_36:                              // %then.7.i.i.i.i.critedge
                                        //   in Loop: Header=BB40_4 Depth=1
	//APP
	//NO_APP
.LBB40_37:                              // %then.7.i.i.i.i
                                        //   in Loop: Header=BB40_4 Depth=1
	ldr	x1, [x16, #8]
	add	x18, x18, #256
	//APP
	//NO_APP
	add	x1, x1, x18
	ldar	x1, [x1]
	//APP
	//NO_APP
	ldr	x17, [x17, #56]
	cmp	x1, x17
	b.eq	.LBB40_39
// %bb.38:                              // %then.1.i.i.i.i
                                        //   in Loop: Header=BB40_4 Depth=1
	ldr	x16, [x16, #8]
	//APP
	//NO_APP
	add	x16, x16, x18
	stlr	x17, [x16]
	//APP
	//NO_APP
.LBB40_39:                              // %arm.6.i.i.i.i
                                        //   in Loop: Header=BB40_4 Depth=1
	ldr	x16, [x9, #136]
	strb	wzr, [x16, x14]
	ldr	x14, [x9, #160]
	add	x14, x14, x11
	stp	x15, x15, [x14]
	ldr	x14, [x9, #200]
	cmn	x14, #1
	b.eq	.LBB40_3
// %bb.40:                              // %arm.1.i101.i.i.i
                                        //   in Loop: Header=BB40_4 Depth=1
	add	x14, x14, #1
	str	x14, [x9, #200]
	b	.LBB40_3
.LBB40_41:                              // %cmpxchg.end2
                                        //   in Loop: Header=BB40_4 Depth=1
	//APP
	//NO_APP
	b	.LBB40_37
.LBB40_42:                              // %cmpxchg.end17
                                        //   in Loop: Header=BB40_4 Depth=1
	//APP
	//NO_APP
	b	.LBB40_37
.LBB40_43:
	mov	w8, #4                          // =0x4
	ldp	x20, x19, [sp, #32]             // 16-byte Folded Reload
	mov	w0, w8
	ldp	x22, x21, [sp, #16]             // 16-byte Folded Reload
	add	sp, sp, #48
	ret
.LBB40_44:
	mov	w8, wzr
	b	.LBB40_51
.LBB40_45:
	mov	w8, #5                          // =0x5
	b	.LBB40_51
.LBB40_46:                              // %then.1.i.i.i
	ldr	w8, [x9, #264]
	mov	w11, #16                        // =0x10
	cmp	w8, w3
	mov	w8, #6                          // =0x6
	csel	w8, w11, w8, hi
	b	.LBB40_51
.LBB40_47:                              // %arm.7.i.i.i.i
	mov	w8, #1                          // =0x1
	stp	x8, x15, [x9, #184]
.LBB40_48:                              // %arm.6.i.i.i
	ldr	x8, [x9, #232]
	mov	w12, #1                         // =0x1
	add	x8, x8, x14, lsl #3
	ldrb	w11, [x8]
	stp	w12, w14, [x8]
	cbnz	w11, .LBB40_52
// %bb.49:
	mov	w8, #3                          // =0x3
	b	.LBB40_51
.LBB40_50:
	mov	w8, wzr
	mov	x10, x2
.LBB40_51:                              // %"scq_c::many::send_each.exit.i"
	str	x9, [x0]
	str	x10, [x4]
	ldp	x20, x19, [sp, #32]             // 16-byte Folded Reload
	mov	w0, w8
	ldp	x22, x21, [sp, #16]             // 16-byte Folded Reload
	add	sp, sp, #48
	ret
.LBB40_52:                              // %arm.2.i.i.i.i
	brk	#0x1
.Lfunc_end40:
	.size	scq_send_many, .Lfunc_end40-scq_send_many
                                        // -- End function
	.section	.text.scq_take_index,"ax",@progbits
	.globl	scq_take_index                  // -- Begin function scq_take_index
	.p2align	2
	.type	scq_take_index,@function
scq_take_index:                         // @scq_take_index
// %bb.0:                               // %start
	ldr	x8, [x0]
	cbz	x8, .LBB41_5
// %bb.1:                               // %arm.1.i.i.i.i
	ldr	w9, [x8, #264]
	cmp	w9, w1
	b.ls	.LBB41_6
// %bb.2:                               // %arm.1.i.i.i.i
	ldr	w10, [x8, #256]
	cbz	w10, .LBB41_6
// %bb.3:                               // %join.3.i.i.i.i
	ldrb	w9, [x8, #184]
	cmp	w9, #1
	b.ne	.LBB41_7
// %bb.4:                               // %"scq_band::band::Band::get::<#aae3f6a89b556e54>.exit.i.thread.i.i.i"
	ldr	x12, [x8, #192]
	str	x8, [x0]
	mov	w0, #3                          // =0x3
	str	x12, [x2, #16]
	ret
.LBB41_5:                               // %"core::mem::replace_with::<#9baed057b9b927f7>.exit.i"
	str	xzr, [x0]
	mov	w0, #4                          // =0x4
	ret
.LBB41_6:                               // %arm.2.i.i
	cmp	w9, w1
	mov	w9, #6                          // =0x6
	str	x8, [x0]
	cinc	w0, w9, hi
	ret
.LBB41_7:                               // %join.4.i.i.i.i.i
	ldr	x13, [x8, #128]
	add	w9, w1, #1
	mov	w10, #72                        // =0x48
	ldr	x11, [x13, #96]
	umaddl	x10, w9, w10, x11
	ldr	x12, [x13, #8]
	ldr	x11, [x10, #48]
	//APP
	//NO_APP
	add	x11, x12, x11, lsl #3
	add	x11, x11, #256
	ldar	x11, [x11]
	//APP
	//NO_APP
	lsr	x11, x11, #32
	cbnz	x11, .LBB41_12
// %bb.8:
	mov	w12, #1                         // =0x1
.LBB41_9:                               // %arm.8.i.i.i.i.i
	mov	w10, #24                        // =0x18
	ldr	x13, [x8, #160]
	umaddl	x10, w9, w10, x13
	mov	x9, x10
	ldr	x13, [x9, #16]!
	cmp	x12, x13
	csel	x12, x12, x13, hi
	cmp	x11, #0
	csel	x11, x13, x12, eq
	ldr	x10, [x10]
	add	x12, x10, #1
	cmp	x12, x11
	csinc	x10, x11, x10, ls
	cmp	x13, x10
	b.hs	.LBB41_11
.LBB41_10:                              // %then.1.i78.i.i.i.i
	str	x10, [x9]
.LBB41_11:                              // %arm.2.i.thread.i
	str	x8, [x0]
	mov	w0, #1                          // =0x1
	str	x10, [x2, #16]
	ret
.LBB41_12:                              // %loop.5.i.i.i.i.i
                                        // =>This Loop Header: Depth=1
                                        //     Child Loop BB41_13 Depth 2
                                        //     Child Loop BB41_16 Depth 2
                                        //       Child Loop BB41_19 Depth 3
                                        //     Child Loop BB41_25 Depth 2
	ldr	x12, [x10, #48]
	ldr	x14, [x13, #8]
	//APP
	//NO_APP
	add	x12, x14, x12, lsl #3
	add	x14, x12, #128
.LBB41_13:                              // %atomicrmw.start
                                        //   Parent Loop BB41_12 Depth=1
                                        // =>  This Inner Loop Header: Depth=2
	ldaxr	x12, [x14]
	add	x15, x12, #1
	stlxr	w16, x15, [x14]
	cbnz	w16, .LBB41_13
// %bb.14:                              // %atomicrmw.end
                                        //   in Loop: Header=BB41_12 Depth=1
	//APP
	//NO_APP
	ldr	x14, [x10, #40]
	cmp	x14, x12
	b.ls	.LBB41_28
// %bb.15:                              // %join.8.i.i.i.i.i
                                        //   in Loop: Header=BB41_12 Depth=1
	ldp	w15, w16, [x10, #64]
	ldr	w14, [x10, #4]
	ldr	x17, [x10, #48]
	and	x15, x12, x15
	and	x14, x12, x14
	lsr	x14, x14, x16
	add	x15, x17, x15, lsl #3
	add	x14, x15, x14
	lsl	x14, x14, #3
	add	x14, x14, #384
.LBB41_16:                              // %loop.2.i.i.i.i.i
                                        //   Parent Loop BB41_12 Depth=1
                                        // =>  This Loop Header: Depth=2
                                        //       Child Loop BB41_19 Depth 3
	ldr	x15, [x13, #8]
	//APP
	//NO_APP
	add	x15, x15, x14
	ldar	x15, [x15]
	//APP
	//NO_APP
	ldr	w16, [x10, #4]
	eor	x17, x12, x15, lsr #1
	cmp	x17, x16
	b.ls	.LBB41_29
// %bb.17:                              // %join.5.i.i.i.i.i
                                        //   in Loop: Header=BB41_16 Depth=2
	ldr	w17, [x10, #12]
	lsr	x18, x15, x17
	lsr	x17, x12, x17
	lsr	x16, x18, #1
	cmp	x17, x16
	b.lo	.LBB41_23
// %bb.18:                              // %join.9.i.i.i.i.i
                                        //   in Loop: Header=BB41_16 Depth=2
	ldr	x1, [x10, #32]
	and	x18, x18, #0x1
	and	x3, x1, x15
	cmp	x1, w3, uxtw
	csel	x18, x18, xzr, eq
	csel	x16, x17, x16, eq
	ldr	w17, [x10, #8]
	orr	x16, x18, x16, lsl #1
	mov	w18, #2                         // =0x2
	lsl	w17, w18, w17
	ldr	x18, [x13, #8]
	//APP
	//NO_APP
	madd	x16, x16, x1, x16
	sub	w17, w17, #1
	csel	w17, w17, w3, eq
	add	x16, x16, x17
	add	x17, x18, x14
.LBB41_19:                              // %cmpxchg.start9
                                        //   Parent Loop BB41_12 Depth=1
                                        //     Parent Loop BB41_16 Depth=2
                                        // =>    This Inner Loop Header: Depth=3
	ldaxr	x18, [x17]
	cmp	x18, x15
	b.ne	.LBB41_21
// %bb.20:                              // %cmpxchg.trystore7
                                        //   in Loop: Header=BB41_19 Depth=3
	stlxr	w18, x16, [x17]
	cbz	w18, .LBB41_22
	b	.LBB41_19
.LBB41_21:                              // %cmpxchg.nostore4
                                        //   in Loop: Header=BB41_16 Depth=2
	clrex
	//APP
	//NO_APP
	b	.LBB41_16
.LBB41_22:                              // %cmpxchg.end2
                                        //   in Loop: Header=BB41_12 Depth=1
	//APP
	//NO_APP
.LBB41_23:                              // %join.12.i.i.i.i.i
                                        //   in Loop: Header=BB41_12 Depth=1
	ldr	x14, [x10, #48]
	ldr	x15, [x13, #8]
	//APP
	//NO_APP
	add	x12, x12, #1
	add	x14, x15, x14, lsl #3
	ldar	x14, [x14]
	//APP
	//NO_APP
	cmp	x14, x12
	b.ls	.LBB41_36
// %bb.24:                              // %"scq_band::dequeue::give_up::<#aae3f6a89b556e54>.exit.i.i.i.i"
                                        //   in Loop: Header=BB41_12 Depth=1
	ldr	x14, [x10, #48]
	ldr	x15, [x13, #8]
	//APP
	//NO_APP
	add	x14, x15, x14, lsl #3
	add	x15, x14, #256
.LBB41_25:                              // %atomicrmw.start37
                                        //   Parent Loop BB41_12 Depth=1
                                        // =>  This Inner Loop Header: Depth=2
	ldaxr	x14, [x15]
	sub	x16, x14, #1
	stlxr	w17, x16, [x15]
	cbnz	w17, .LBB41_25
// %bb.26:                              // %atomicrmw.end36
                                        //   in Loop: Header=BB41_12 Depth=1
	//APP
	//NO_APP
	mov	x15, #4294967297                // =0x100000001
	cmp	x14, x15
	b.hs	.LBB41_12
// %bb.27:                              // %arm.8.i.i.i.thread.i.i
	mov	w10, #24                        // =0x18
	ldr	x11, [x8, #160]
	umaddl	x10, w9, w10, x11
	mov	x9, x10
	ldr	x13, [x9, #16]!
	cmp	x12, x13
	csel	x11, x12, x13, hi
	ldr	x10, [x10]
	add	x12, x10, #1
	cmp	x12, x11
	csinc	x10, x11, x10, ls
	cmp	x13, x10
	b.lo	.LBB41_10
	b	.LBB41_11
.LBB41_28:                              // %arm.6.i.i.thread335.i.i.i
	mov	w10, #24                        // =0x18
	ldr	x11, [x8, #160]
	umaddl	x9, w9, w10, x11
	add	x11, x12, #1
	ldr	x10, [x9, #16]
	cmp	x11, x10
	mov	w11, #1                         // =0x1
	csinc	x10, x10, x12, ls
	str	x10, [x9, #16]
	stp	x11, x12, [x8, #184]
	str	x8, [x0]
	mov	w0, #3                          // =0x3
	str	x12, [x2, #16]
	ret
.LBB41_29:                              // %then.3.i.i.i.i.i
	ldr	x11, [x13, #8]
	add	x13, x11, x14
.LBB41_30:                              // %loop.2.i.i.i.i.i.i
                                        // =>This Loop Header: Depth=1
                                        //     Child Loop BB41_31 Depth 2
	//APP
	//NO_APP
	ldar	x11, [x13]
	//APP
	//NO_APP
	//APP
	//NO_APP
	orr	x14, x11, x16
.LBB41_31:                              // %cmpxchg.start
                                        //   Parent Loop BB41_30 Depth=1
                                        // =>  This Inner Loop Header: Depth=2
	ldaxr	x15, [x13]
	cmp	x15, x11
	b.ne	.LBB41_33
// %bb.32:                              // %cmpxchg.trystore
                                        //   in Loop: Header=BB41_31 Depth=2
	stlxr	w15, x14, [x13]
	cbz	w15, .LBB41_34
	b	.LBB41_31
.LBB41_33:                              // %cmpxchg.nostore
                                        //   in Loop: Header=BB41_30 Depth=1
	clrex
	//APP
	//NO_APP
	b	.LBB41_30
.LBB41_34:                              // %cmpxchg.end
	add	x9, x9, x9, lsl #1
	//APP
	//NO_APP
	ldr	x14, [x8, #160]
	ldr	w10, [x10, #4]
	lsl	x13, x9, #3
	add	x14, x14, x13
	ldr	x9, [x14, #8]
	cmp	x9, x12
	and	x9, x11, x10
	add	x10, x12, #1
	b.hs	.LBB41_45
// %bb.35:                              // %then.1.i62.i.i.i.i
	str	x12, [x14, #8]
	ldr	x11, [x8, #160]
	add	x11, x11, x13
	str	x10, [x11, #16]
	b	.LBB41_46
.LBB41_36:                              // %loop.2.i.i.i.i.preheader
	mov	x15, x12
.LBB41_37:                              // %loop.2.i.i.i.i
                                        // =>This Loop Header: Depth=1
                                        //     Child Loop BB41_38 Depth 2
	ldr	x16, [x10, #48]
	ldr	x17, [x13, #8]
	//APP
	//NO_APP
	add	x16, x17, x16, lsl #3
.LBB41_38:                              // %cmpxchg.start24
                                        //   Parent Loop BB41_37 Depth=1
                                        // =>  This Inner Loop Header: Depth=2
	ldaxr	x17, [x16]
	cmp	x17, x14
	b.ne	.LBB41_40
// %bb.39:                              // %cmpxchg.trystore22
                                        //   in Loop: Header=BB41_38 Depth=2
	stlxr	w17, x15, [x16]
	cbz	w17, .LBB41_41
	b	.LBB41_38
.LBB41_40:                              // %cmpxchg.nostore19
                                        //   in Loop: Header=BB41_37 Depth=1
	clrex
	//APP
	//NO_APP
	ldr	x14, [x10, #48]
	ldr	x15, [x13, #8]
	//APP
	//NO_APP
	add	x14, x15, x14, lsl #3
	add	x14, x14, #128
	ldar	x15, [x14]
	//APP
	//NO_APP
	ldr	x14, [x10, #48]
	ldr	x16, [x13, #8]
	//APP
	//NO_APP
	add	x14, x16, x14, lsl #3
	ldar	x14, [x14]
	//APP
	//NO_APP
	cmp	x15, x14
	b.hi	.LBB41_37
	b	.LBB41_42
.LBB41_41:                              // %cmpxchg.end17
	//APP
	//NO_APP
.LBB41_42:                              // %"scq_band::dequeue::give_up::<#aae3f6a89b556e54>.exit.i.thread.i.i.i"
	ldr	x10, [x10, #48]
	ldr	x13, [x13, #8]
	//APP
	//NO_APP
	add	x10, x13, x10, lsl #3
	add	x10, x10, #256
.LBB41_43:                              // %atomicrmw.start33
                                        // =>This Inner Loop Header: Depth=1
	ldaxr	x13, [x10]
	sub	x13, x13, #1
	stlxr	w14, x13, [x10]
	cbnz	w14, .LBB41_43
// %bb.44:                              // %atomicrmw.end32
	//APP
	//NO_APP
	b	.LBB41_9
.LBB41_45:                              // %join.3.i58.i.i.i.i
	str	x10, [x14, #16]
.LBB41_46:                              // %arm.1.i36.i.i.i
	ldr	x11, [x8, #136]
	mov	w10, #1                         // =0x1
	strb	w10, [x11, x9]
	ldr	x11, [x8, #208]
	cmn	x11, #1
	b.eq	.LBB41_48
// %bb.47:                              // %arm.1.i99.i.i.i.i
	add	x11, x11, #1
	str	x11, [x8, #208]
.LBB41_48:                              // %arm.1.i17.i.i.i
	ldr	w11, [x8, #256]
	ldr	x13, [x8, #232]
	sub	w11, w11, #1
	add	x13, x13, x9, lsl #3
	str	w11, [x8, #256]
	ldrb	w11, [x13]
	stp	w10, w9, [x13]
	cbnz	w11, .LBB41_50
// %bb.49:                              // %arm.1.i.i
	str	x8, [x0]
	mov	w0, wzr
	str	x12, [x2, #16]
	str	w9, [x2, #24]
	ret
.LBB41_50:                              // %arm.2.i.i.i.i.i
	brk	#0x1
.Lfunc_end41:
	.size	scq_take_index, .Lfunc_end41-scq_take_index
                                        // -- End function
	.section	.text.scq_take_index_many,"ax",@progbits
	.globl	scq_take_index_many             // -- Begin function scq_take_index_many
	.p2align	2
	.type	scq_take_index_many,@function
scq_take_index_many:                    // @scq_take_index_many
// %bb.0:                               // %start
	sub	sp, sp, #32
	str	xzr, [x4]
	cmp	x2, #0
	mov	w8, #4096                       // =0x1000
	ldr	x9, [x0]
	csel	x12, x8, xzr, eq
	stp	x20, x19, [sp, #16]             // 16-byte Folded Spill
	str	xzr, [x0]
	cbz	x9, .LBB42_34
// %bb.1:                               // %arm.1.i
	mov	x10, xzr
	cbz	x3, .LBB42_35
// %bb.2:                               // %join.5.i.lr.ph.i
	add	w8, w1, #1
	add	x12, x2, x12
	add	x11, x8, w8, uxtw #3
	add	x8, x8, w8, uxtw #1
	lsl	x11, x11, #3
	lsl	x8, x8, #3
.LBB42_3:                               // %join.5.i.i
                                        // =>This Loop Header: Depth=1
                                        //     Child Loop BB42_7 Depth 2
                                        //       Child Loop BB42_8 Depth 3
                                        //       Child Loop BB42_11 Depth 3
                                        //         Child Loop BB42_14 Depth 4
                                        //       Child Loop BB42_20 Depth 3
                                        //     Child Loop BB42_23 Depth 2
                                        //       Child Loop BB42_24 Depth 3
	add	x13, x12, x10, lsl #5
	ldr	w15, [x9, #264]
	ldr	q0, [x13]
	ldr	w14, [x13, #28]
	cmp	w15, w1
	str	q0, [sp]
	b.ls	.LBB42_49
// %bb.4:                               // %join.5.i.i
                                        //   in Loop: Header=BB42_3 Depth=1
	ldr	w16, [x9, #256]
	cbz	w16, .LBB42_49
// %bb.5:                               // %join.3.i.i.i
                                        //   in Loop: Header=BB42_3 Depth=1
	ldrb	w15, [x9, #184]
	cmp	w15, #1
	b.eq	.LBB42_50
// %bb.6:                               // %join.4.i.i.i.i
                                        //   in Loop: Header=BB42_3 Depth=1
	ldr	x16, [x9, #128]
	ldr	x15, [x16, #96]
	ldr	x18, [x16, #8]
	add	x15, x15, x11
	ldr	x17, [x15, #48]
	//APP
	//NO_APP
	add	x17, x18, x17, lsl #3
	add	x17, x17, #256
	ldar	x17, [x17]
	//APP
	//NO_APP
	lsr	x17, x17, #32
	cbz	x17, .LBB42_51
.LBB42_7:                               // %loop.5.i.i.i.i
                                        //   Parent Loop BB42_3 Depth=1
                                        // =>  This Loop Header: Depth=2
                                        //       Child Loop BB42_8 Depth 3
                                        //       Child Loop BB42_11 Depth 3
                                        //         Child Loop BB42_14 Depth 4
                                        //       Child Loop BB42_20 Depth 3
	ldr	x17, [x15, #48]
	ldr	x18, [x16, #8]
	//APP
	//NO_APP
	add	x17, x18, x17, lsl #3
	add	x18, x17, #128
.LBB42_8:                               // %atomicrmw.start
                                        //   Parent Loop BB42_3 Depth=1
                                        //     Parent Loop BB42_7 Depth=2
                                        // =>    This Inner Loop Header: Depth=3
	ldaxr	x17, [x18]
	add	x2, x17, #1
	stlxr	w5, x2, [x18]
	cbnz	w5, .LBB42_8
// %bb.9:                               // %atomicrmw.end
                                        //   in Loop: Header=BB42_7 Depth=2
	//APP
	//NO_APP
	ldr	x18, [x15, #40]
	cmp	x18, x17
	b.ls	.LBB42_36
// %bb.10:                              // %join.8.i.i.i.i
                                        //   in Loop: Header=BB42_7 Depth=2
	ldp	w2, w5, [x15, #64]
	ldr	w18, [x15, #4]
	ldr	x6, [x15, #48]
	and	x2, x17, x2
	and	x18, x17, x18
	lsr	x18, x18, x5
	add	x2, x6, x2, lsl #3
	add	x18, x2, x18
	lsl	x18, x18, #3
	add	x18, x18, #384
.LBB42_11:                              // %loop.2.i.i.i.i
                                        //   Parent Loop BB42_3 Depth=1
                                        //     Parent Loop BB42_7 Depth=2
                                        // =>    This Loop Header: Depth=3
                                        //         Child Loop BB42_14 Depth 4
	ldr	x2, [x16, #8]
	//APP
	//NO_APP
	add	x2, x2, x18
	ldar	x2, [x2]
	//APP
	//NO_APP
	ldr	w5, [x15, #4]
	eor	x6, x17, x2, lsr #1
	cmp	x6, x5
	b.ls	.LBB42_22
// %bb.12:                              // %join.5.i.i.i.i
                                        //   in Loop: Header=BB42_11 Depth=3
	ldr	w6, [x15, #12]
	lsr	x7, x2, x6
	lsr	x6, x17, x6
	lsr	x5, x7, #1
	cmp	x6, x5
	b.lo	.LBB42_18
// %bb.13:                              // %join.9.i.i.i.i
                                        //   in Loop: Header=BB42_11 Depth=3
	ldr	x19, [x15, #32]
	and	x7, x7, #0x1
	and	x20, x19, x2
	cmp	x19, w20, uxtw
	csel	x7, x7, xzr, eq
	csel	x5, x6, x5, eq
	ldr	w6, [x15, #8]
	orr	x5, x7, x5, lsl #1
	mov	w7, #2                          // =0x2
	lsl	w6, w7, w6
	ldr	x7, [x16, #8]
	//APP
	//NO_APP
	madd	x5, x5, x19, x5
	sub	w6, w6, #1
	csel	w6, w6, w20, eq
	add	x5, x5, x6
	add	x6, x7, x18
.LBB42_14:                              // %cmpxchg.start9
                                        //   Parent Loop BB42_3 Depth=1
                                        //     Parent Loop BB42_7 Depth=2
                                        //       Parent Loop BB42_11 Depth=3
                                        // =>      This Inner Loop Header: Depth=4
	ldaxr	x7, [x6]
	cmp	x7, x2
	b.ne	.LBB42_16
// %bb.15:                              // %cmpxchg.trystore7
                                        //   in Loop: Header=BB42_14 Depth=4
	stlxr	w7, x5, [x6]
	cbz	w7, .LBB42_17
	b	.LBB42_14
.LBB42_16:                              // %cmpxchg.nostore4
                                        //   in Loop: Header=BB42_11 Depth=3
	clrex
	//APP
	//NO_APP
	b	.LBB42_11
.LBB42_17:                              // %cmpxchg.end2
                                        //   in Loop: Header=BB42_7 Depth=2
	//APP
	//NO_APP
.LBB42_18:                              // %join.12.i.i.i.i
                                        //   in Loop: Header=BB42_7 Depth=2
	ldr	x18, [x15, #48]
	ldr	x2, [x16, #8]
	//APP
	//NO_APP
	add	x17, x17, #1
	add	x18, x2, x18, lsl #3
	ldar	x18, [x18]
	//APP
	//NO_APP
	cmp	x18, x17
	b.ls	.LBB42_37
// %bb.19:                              // %"scq_band::dequeue::give_up::<#aae3f6a89b556e54>.exit.i.i.i"
                                        //   in Loop: Header=BB42_7 Depth=2
	ldr	x18, [x15, #48]
	ldr	x2, [x16, #8]
	//APP
	//NO_APP
	add	x18, x2, x18, lsl #3
	add	x2, x18, #256
.LBB42_20:                              // %atomicrmw.start33
                                        //   Parent Loop BB42_3 Depth=1
                                        //     Parent Loop BB42_7 Depth=2
                                        // =>    This Inner Loop Header: Depth=3
	ldaxr	x18, [x2]
	sub	x5, x18, #1
	stlxr	w6, x5, [x2]
	cbnz	w6, .LBB42_20
// %bb.21:                              // %atomicrmw.end32
                                        //   in Loop: Header=BB42_7 Depth=2
	//APP
	//NO_APP
	mov	x2, #4294967296                 // =0x100000000
	cmp	x18, x2
	b.hi	.LBB42_7
	b	.LBB42_46
.LBB42_22:                              // %then.3.i.i.i.i
                                        //   in Loop: Header=BB42_3 Depth=1
	ldr	x16, [x16, #8]
	add	x18, x16, x18
.LBB42_23:                              // %loop.2.i.i.i33.i
                                        //   Parent Loop BB42_3 Depth=1
                                        // =>  This Loop Header: Depth=2
                                        //       Child Loop BB42_24 Depth 3
	//APP
	//NO_APP
	ldar	x16, [x18]
	//APP
	//NO_APP
	//APP
	//NO_APP
	orr	x2, x16, x5
.LBB42_24:                              // %cmpxchg.start
                                        //   Parent Loop BB42_3 Depth=1
                                        //     Parent Loop BB42_23 Depth=2
                                        // =>    This Inner Loop Header: Depth=3
	ldaxr	x6, [x18]
	cmp	x6, x16
	b.ne	.LBB42_26
// %bb.25:                              // %cmpxchg.trystore
                                        //   in Loop: Header=BB42_24 Depth=3
	stlxr	w6, x2, [x18]
	cbz	w6, .LBB42_27
	b	.LBB42_24
.LBB42_26:                              // %cmpxchg.nostore
                                        //   in Loop: Header=BB42_23 Depth=2
	clrex
	//APP
	//NO_APP
	b	.LBB42_23
.LBB42_27:                              // %cmpxchg.end
                                        //   in Loop: Header=BB42_3 Depth=1
	//APP
	//NO_APP
	ldr	x18, [x9, #160]
	ldr	w15, [x15, #4]
	add	x18, x18, x8
	ldr	x2, [x18, #8]
	cmp	x2, x17
	add	x2, x17, #1
	b.hs	.LBB42_29
// %bb.28:                              // %then.1.i62.i.i.i
                                        //   in Loop: Header=BB42_3 Depth=1
	str	x17, [x18, #8]
	ldr	x18, [x9, #160]
	add	x18, x18, x8
.LBB42_29:                              // %join.3.i58.i.i.i
                                        //   in Loop: Header=BB42_3 Depth=1
	str	x2, [x18, #16]
	and	x15, x16, x15
	mov	w16, #1                         // =0x1
	ldr	x18, [x9, #136]
	strb	w16, [x18, x15]
	ldr	x18, [x9, #208]
	cmn	x18, #1
	b.eq	.LBB42_31
// %bb.30:                              // %arm.1.i99.i.i.i
                                        //   in Loop: Header=BB42_3 Depth=1
	add	x18, x18, #1
	str	x18, [x9, #208]
.LBB42_31:                              // %arm.1.i.i.i
                                        //   in Loop: Header=BB42_3 Depth=1
	ldr	w18, [x9, #256]
	ldr	x2, [x9, #232]
	sub	w18, w18, #1
	add	x2, x2, x15, lsl #3
	str	w18, [x9, #256]
	ldrb	w18, [x2]
	stp	w16, w15, [x2]
	cbnz	w18, .LBB42_52
// %bb.32:                              // %join.8.i.i
                                        //   in Loop: Header=BB42_3 Depth=1
	ldr	q0, [sp]
	add	x10, x10, #1
	str	x17, [x13, #16]
	cmp	x10, x3
	stp	w15, w14, [x13, #24]
	str	q0, [x13]
	b.ne	.LBB42_3
// %bb.33:
	mov	w8, wzr
	str	x9, [x0]
	str	x3, [x4]
	ldp	x20, x19, [sp, #16]             // 16-byte Folded Reload
	mov	w0, w8
	add	sp, sp, #32
	ret
.LBB42_34:
	mov	w8, #4                          // =0x4
	ldp	x20, x19, [sp, #16]             // 16-byte Folded Reload
	mov	w0, w8
	add	sp, sp, #32
	ret
.LBB42_35:
	mov	w8, wzr
	str	x9, [x0]
	str	x10, [x4]
	ldp	x20, x19, [sp, #16]             // 16-byte Folded Reload
	mov	w0, w8
	add	sp, sp, #32
	ret
.LBB42_36:                              // %arm.6.i.i.i.thread1294.i
	ldr	x11, [x9, #160]
	add	x12, x17, #1
	add	x8, x11, x8
	ldr	x11, [x8, #16]
	cmp	x12, x11
	mov	w12, #1                         // =0x1
	csinc	x11, x11, x17, ls
	str	x11, [x8, #16]
	mov	w8, #3                          // =0x3
	stp	x12, x17, [x9, #184]
	str	x9, [x0]
	str	x10, [x4]
	ldp	x20, x19, [sp, #16]             // 16-byte Folded Reload
	mov	w0, w8
	add	sp, sp, #32
	ret
.LBB42_37:                              // %loop.2.i79.i.preheader
	mov	x11, x17
.LBB42_38:                              // %loop.2.i79.i
                                        // =>This Loop Header: Depth=1
                                        //     Child Loop BB42_39 Depth 2
	ldr	x12, [x15, #48]
	ldr	x13, [x16, #8]
	//APP
	//NO_APP
	add	x12, x13, x12, lsl #3
.LBB42_39:                              // %cmpxchg.start24
                                        //   Parent Loop BB42_38 Depth=1
                                        // =>  This Inner Loop Header: Depth=2
	ldaxr	x13, [x12]
	cmp	x13, x18
	b.ne	.LBB42_41
// %bb.40:                              // %cmpxchg.trystore22
                                        //   in Loop: Header=BB42_39 Depth=2
	stlxr	w13, x11, [x12]
	cbz	w13, .LBB42_42
	b	.LBB42_39
.LBB42_41:                              // %cmpxchg.nostore19
                                        //   in Loop: Header=BB42_38 Depth=1
	clrex
	//APP
	//NO_APP
	ldr	x11, [x15, #48]
	ldr	x12, [x16, #8]
	//APP
	//NO_APP
	add	x11, x12, x11, lsl #3
	add	x11, x11, #128
	ldar	x11, [x11]
	//APP
	//NO_APP
	ldr	x12, [x15, #48]
	ldr	x13, [x16, #8]
	//APP
	//NO_APP
	add	x12, x13, x12, lsl #3
	ldar	x18, [x12]
	//APP
	//NO_APP
	cmp	x11, x18
	b.hi	.LBB42_38
	b	.LBB42_43
.LBB42_42:                              // %cmpxchg.end17
	//APP
	//NO_APP
.LBB42_43:                              // %arm.8.i.i.i.i
	ldr	x11, [x15, #48]
	ldr	x12, [x16, #8]
	//APP
	//NO_APP
	add	x11, x12, x11, lsl #3
	add	x11, x11, #256
.LBB42_44:                              // %atomicrmw.start37
                                        // =>This Inner Loop Header: Depth=1
	ldaxr	x12, [x11]
	sub	x12, x12, #1
	stlxr	w13, x12, [x11]
	cbnz	w13, .LBB42_44
// %bb.45:                              // %atomicrmw.end36
	//APP
	//NO_APP
.LBB42_46:
	ldr	x11, [x9, #160]
	add	x11, x11, x8
	mov	x8, x11
	ldr	x12, [x8, #16]!
	cmp	x17, x12
	csel	x13, x17, x12, hi
	ldr	x11, [x11]
	add	x14, x11, #1
	cmp	x14, x13
	csinc	x11, x13, x11, ls
	cmp	x12, x11
	b.hs	.LBB42_48
.LBB42_47:                              // %then.1.i78.i.i.i
	str	x11, [x8]
.LBB42_48:
	mov	w8, #1                          // =0x1
	str	x9, [x0]
	str	x10, [x4]
	ldp	x20, x19, [sp, #16]             // 16-byte Folded Reload
	mov	w0, w8
	add	sp, sp, #32
	ret
.LBB42_49:                              // %then.1.i.i.i
	cmp	w15, w1
	mov	w8, #6                          // =0x6
	cinc	w8, w8, hi
	str	x9, [x0]
	str	x10, [x4]
	ldp	x20, x19, [sp, #16]             // 16-byte Folded Reload
	mov	w0, w8
	add	sp, sp, #32
	ret
.LBB42_50:
	mov	w8, #3                          // =0x3
	str	x9, [x0]
	str	x10, [x4]
	ldp	x20, x19, [sp, #16]             // 16-byte Folded Reload
	mov	w0, w8
	add	sp, sp, #32
	ret
.LBB42_51:                              // %arm.8.i.i.i.i.thread
	ldr	x11, [x9, #160]
	add	x11, x11, x8
	mov	x8, x11
	ldr	x12, [x8, #16]!
	ldr	x11, [x11]
	add	x14, x11, #1
	cmp	x14, x12
	csinc	x11, x12, x11, ls
	cmp	x12, x11
	b.lo	.LBB42_47
	b	.LBB42_48
.LBB42_52:                              // %arm.2.i.i.i.i
	brk	#0x1
.Lfunc_end42:
	.size	scq_take_index_many, .Lfunc_end42-scq_take_index_many
                                        // -- End function
	.section	.text.scq_end,"ax",@progbits
	.globl	scq_end                         // -- Begin function scq_end
	.p2align	2
	.type	scq_end,@function
scq_end:                                // @scq_end
// %bb.0:                               // %start
	stp	x29, x30, [sp, #-80]!           // 16-byte Folded Spill
	stp	x28, x25, [sp, #16]             // 16-byte Folded Spill
	mov	x29, sp
	stp	x24, x23, [sp, #32]             // 16-byte Folded Spill
	stp	x22, x21, [sp, #48]             // 16-byte Folded Spill
	stp	x20, x19, [sp, #64]             // 16-byte Folded Spill
	sub	sp, sp, #528
	ldr	x20, [x0]
	cmp	x2, #0
	mov	w8, #4096                       // =0x1000
	csel	x23, x8, xzr, eq
	str	xzr, [x0]
	cbz	x20, .LBB43_16
// %bb.1:                               // %arm.1.i
	mov	x21, x2
	mov	x19, x1
	add	x0, sp, #8
	mov	x1, x20
	mov	w2, #408                        // =0x198
	mov	x22, x3
	sub	x24, x29, #112
	bl	memcpy
	mov	x0, x20
	bl	rattle_dealloc
	movi	v0.2d, #0000000000000000
	sub	x0, x29, #112
	add	x1, sp, #8
	stur	xzr, [x29, #-16]
	stp	q0, q0, [x24]
	stp	q0, q0, [x24, #32]
	stp	q0, q0, [x24, #64]
	bl	"scq_port::port::Port::close"
	ldurb	w8, [x29, #-112]
	cmp	w8, #1
	b.ne	.LBB43_17
// %bb.2:                               // %arm.1.i2.i
	ldp	x20, x9, [x29, #-56]
	ldur	x8, [x29, #-88]
	cmp	x9, x22
	csel	x9, x9, x22, lo
	cbz	x9, .LBB43_7
// %bb.3:                               // %join.8.i.i.i.preheader
	cmp	x9, #18
	b.hs	.LBB43_20
.LBB43_4:
	mov	x10, xzr
.LBB43_5:                               // %join.8.i.i.i.preheader1
	add	x11, x10, x10, lsl #1
	add	x12, x23, x21
	sub	x9, x9, x10
	lsl	x11, x11, #3
	add	x12, x12, x11
	add	x11, x11, x20
	add	x10, x12, #16
	add	x11, x11, #16
.LBB43_6:                               // %join.8.i.i.i
                                        // =>This Inner Loop Header: Depth=1
	ldur	q0, [x11, #-16]
	ldr	x12, [x11], #24
	subs	x9, x9, #1
	stur	q0, [x10, #-16]
	str	x12, [x10], #24
	b.ne	.LBB43_6
.LBB43_7:                               // %"scq_c::tally::write_out.exit.i.i"
	ldp	x24, x21, [x29, #-40]
	ldur	x22, [x29, #-80]
	ldur	x25, [x29, #-64]
	ldur	x23, [x29, #-16]
	cbz	x8, .LBB43_9
// %bb.8:                               // %then.1.i.i.i.i.i.i.i
	ldur	x0, [x29, #-104]
	bl	rattle_dealloc
.LBB43_9:                               // %"std_alloc::vec::Vec::drop::<#b9c9430303c4fe1c>.exit.i.i.i.i"
	cbz	x25, .LBB43_11
// %bb.10:                              // %then.1.i.i.i4.i.i.i.i
	mov	x0, x22
	bl	rattle_dealloc
.LBB43_11:                              // %"std_alloc::vec::Vec::drop::<#7b956238bdc1ddfb>.exit.i.i.i.i"
	cbz	x24, .LBB43_13
// %bb.12:                              // %then.1.i.i.i9.i.i.i.i
	mov	x0, x20
	bl	rattle_dealloc
.LBB43_13:                              // %"std_alloc::vec::Vec::drop::<#252d60b76bbd48c9>.exit.i.i.i.i"
	cbz	x23, .LBB43_15
// %bb.14:                              // %then.1.i.i.i14.i.i.i.i
	mov	x0, x21
	bl	rattle_dealloc
.LBB43_15:                              // %"scq_c::exports::end_of.exit.i"
	mov	w8, #1                          // =0x1
	b	.LBB43_18
.LBB43_16:
	mov	w0, #4                          // =0x4
	b	.LBB43_19
.LBB43_17:
	mov	w8, wzr
.LBB43_18:                              // %"scq_c::exports::end_of.exit.i"
	mov	w0, wzr
	str	w8, [x19]
.LBB43_19:                              // %"scq_c::exports::scq_end.exit"
	add	sp, sp, #528
	ldp	x20, x19, [sp, #64]             // 16-byte Folded Reload
	ldp	x22, x21, [sp, #48]             // 16-byte Folded Reload
	ldp	x24, x23, [sp, #32]             // 16-byte Folded Reload
	ldp	x28, x25, [sp, #16]             // 16-byte Folded Reload
	ldp	x29, x30, [sp], #80             // 16-byte Folded Reload
	ret
.LBB43_20:                              // %vector.scevcheck
	sub	x10, x9, #1
	mov	w11, #24                        // =0x18
	add	x12, x21, x23
	umulh	x11, x10, x11
	add	x10, x10, x10, lsl #1
	lsl	x14, x10, #3
	add	x10, x12, x14
	cmp	xzr, x11
	cset	w13, ne
	cmp	x10, x12
	mov	x10, xzr
	b.lo	.LBB43_5
// %bb.21:                              // %vector.scevcheck
	tbnz	w13, #0, .LBB43_5
// %bb.22:                              // %vector.scevcheck
	add	x11, x21, x23
	add	x15, x11, #8
	add	x16, x15, x14
	cmp	x16, x15
	b.lo	.LBB43_5
// %bb.23:                              // %vector.scevcheck
	tbnz	w13, #0, .LBB43_5
// %bb.24:                              // %vector.scevcheck
	add	x15, x11, #16
	add	x14, x15, x14
	cmp	x14, x15
	b.lo	.LBB43_5
// %bb.25:                              // %vector.scevcheck
	tbnz	w13, #0, .LBB43_5
// %bb.26:                              // %vector.memcheck
	add	x10, x9, x9, lsl #1
	add	x13, x21, x23
	lsl	x10, x10, #3
	add	x13, x13, x10
	cmp	x20, x13
	b.hs	.LBB43_28
// %bb.27:                              // %vector.memcheck
	add	x10, x20, x10
	cmp	x12, x10
	b.lo	.LBB43_4
.LBB43_28:                              // %vector.ph
	and	x10, x9, #0xfffffffffffffffc
	and	x12, x9, #0xfffffffffffffffc
	mov	x13, x20
.LBB43_29:                              // %vector.body
                                        // =>This Inner Loop Header: Depth=1
	ldp	q1, q0, [x13, #16]
	subs	x12, x12, #4
	ldr	q2, [x13]
	ldr	q3, [x13, #48]
	stp	q1, q0, [x11, #16]
	ldp	q1, q0, [x13, #64]
	str	q2, [x11]
	add	x13, x13, #96
	str	q3, [x11, #48]
	stp	q1, q0, [x11, #64]
	add	x11, x11, #96
	b.ne	.LBB43_29
// %bb.30:                              // %middle.block
	cmp	x9, x10
	b.ne	.LBB43_5
	b	.LBB43_7
.Lfunc_end43:
	.size	scq_end, .Lfunc_end43-scq_end
                                        // -- End function
	.ident	"rattle logic=dac8208d650f15bf3e2dc313a14fa4c783a3acf887bdfab66e1714b038d9e11b"
	.section	".note.GNU-stack","",@progbits
