; The three functions of the library's memory, over malloc, realloc and free. They give two words, {ok, block}, as the
; library's own code does. C has no such type on every platform: on Windows it returns a struct of 16 bytes by a pointer.
; Where there is no block, ok is 0 and the block is any address but 0. 0 bytes take as many as they are aligned to.

@nothing = internal global [16 x i8] zeroinitializer, align 16

declare ptr @malloc(i64)
declare ptr @realloc(ptr, i64)
declare void @free(ptr)

define internal { i64, i64 } @found(ptr %block) alwaysinline nounwind {
  %is_none = icmp eq ptr %block, null
  %ok = select i1 %is_none, i64 0, i64 1
  %some = select i1 %is_none, ptr @nothing, ptr %block
  %address = ptrtoint ptr %some to i64
  %first = insertvalue { i64, i64 } poison, i64 %ok, 0
  %both = insertvalue { i64, i64 } %first, i64 %address, 1
  ret { i64, i64 } %both
}

define internal i64 @taken(i64 %bytes, i64 %align) alwaysinline nounwind {
  %is_zero = icmp eq i64 %bytes, 0
  %size = select i1 %is_zero, i64 %align, i64 %bytes
  ret i64 %size
}

define { i64, i64 } @rattle_alloc(i64 %bytes, i64 %align) nounwind {
  %size = call i64 @taken(i64 %bytes, i64 %align)
  %block = call ptr @malloc(i64 %size)
  %both = call { i64, i64 } @found(ptr %block)
  ret { i64, i64 } %both
}

define { i64, i64 } @rattle_realloc(ptr %old, i64 %kept, i64 %bytes, i64 %align) nounwind {
  %size = call i64 @taken(i64 %bytes, i64 %align)
  %block = call ptr @realloc(ptr %old, i64 %size)
  %both = call { i64, i64 } @found(ptr %block)
  ret { i64, i64 } %both
}

define void @rattle_dealloc(ptr %block) nounwind {
  call void @free(ptr %block)
  ret void
}
