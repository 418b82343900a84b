
; The bytes of the first vector at the places of the second, 0 at a place whose high bit is set: `pshufb` of x86-64, which
; WebAssembly without vectors lacks.
define internal <16 x i8> @shuffle_bytes(<16 x i8> %from, <16 x i8> %places) {
start:
  %f = alloca <16 x i8>, align 16
  %p = alloca <16 x i8>, align 16
  %o = alloca <16 x i8>, align 16
  store <16 x i8> %from, ptr %f, align 16
  store <16 x i8> %places, ptr %p, align 16
  br label %each

each:
  %i = phi i64 [ 0, %start ], [ %next, %each ]
  %at = getelementptr inbounds i8, ptr %p, i64 %i
  %place = load i8, ptr %at, align 1
  %low = and i8 %place, 15
  %index = zext i8 %low to i64
  %source = getelementptr inbounds i8, ptr %f, i64 %index
  %byte = load i8, ptr %source, align 1
  %is_none = icmp slt i8 %place, 0
  %given = select i1 %is_none, i8 0, i8 %byte
  %to = getelementptr inbounds i8, ptr %o, i64 %i
  store i8 %given, ptr %to, align 1
  %next = add nuw nsw i64 %i, 1
  %is_last = icmp eq i64 %next, 16
  br i1 %is_last, label %end, label %each

end:
  %result = load <16 x i8>, ptr %o, align 16
  ret <16 x i8> %result
}
