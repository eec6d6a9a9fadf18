; The product of two numbers of 128 bits, modulo 2^128, by products of 64 bits. It stands where the product does, so that
; what is known of an operand, as that its upper half is the sign of its lower one, leaves most of this out. LLVM would
; call a function.
define internal i128 @wide_product(i128 %a, i128 %b) alwaysinline nounwind {
  %a.low = trunc i128 %a to i64
  %b.low = trunc i128 %b to i64
  %a.upper = lshr i128 %a, 64
  %b.upper = lshr i128 %b, 64
  %a.high = trunc i128 %a.upper to i64
  %b.high = trunc i128 %b.upper to i64

  ; the lower halves, by digits of 32 bits
  %a0 = and i64 %a.low, 4294967295
  %a1 = lshr i64 %a.low, 32
  %b0 = and i64 %b.low, 4294967295
  %b1 = lshr i64 %b.low, 32
  %p00 = mul nuw i64 %a0, %b0
  %p01 = mul nuw i64 %a0, %b1
  %p10 = mul nuw i64 %a1, %b0
  %p11 = mul nuw i64 %a1, %b1
  %p00.high = lshr i64 %p00, 32
  %p01.low = and i64 %p01, 4294967295
  %p10.low = and i64 %p10, 4294967295
  %middle.part = add nuw nsw i64 %p00.high, %p01.low
  %middle = add nuw nsw i64 %middle.part, %p10.low
  %p01.high = lshr i64 %p01, 32
  %p10.high = lshr i64 %p10, 32
  %middle.high = lshr i64 %middle, 32
  %low = mul i64 %a.low, %b.low

  ; what goes into the upper half, modulo 2^64
  %cross.a = mul i64 %a.high, %b.low
  %cross.b = mul i64 %a.low, %b.high
  %h1 = add i64 %p11, %p01.high
  %h2 = add i64 %h1, %p10.high
  %h3 = add i64 %h2, %middle.high
  %h4 = add i64 %h3, %cross.a
  %high = add i64 %h4, %cross.b

  %low.wide = zext i64 %low to i128
  %high.wide = zext i64 %high to i128
  %high.shifted = shl nuw i128 %high.wide, 64
  %product = or i128 %high.shifted, %low.wide
  ret i128 %product
}
