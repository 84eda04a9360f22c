; Stores the sum of two numbers in global memory into a third place.
define spir_kernel void @sum_of_two(i32 addrspace(1)* %left, i32 addrspace(1)* %right, i32 addrspace(1)* %sum) {
  %1 = load i32, i32 addrspace(1)* %left
  %2 = load i32, i32 addrspace(1)* %right
  %3 = add i32 %1, %2
  store i32 %3, i32 addrspace(1)* %sum
  ret void
}
