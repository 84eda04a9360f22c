define spir_kernel void @a(i32 addrspace(1)* %p, i32 %x) {
  %v = load i32, i32 addrspace(1)* %p
  %s = add i32 %v, %x
  store i32 %s, i32 addrspace(1)* %p
  ret void
}
